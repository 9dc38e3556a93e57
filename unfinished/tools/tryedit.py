#!/usr/bin/env python3
"""tryedit CRATE LABEL...: each edit applied in place, rt dev, first errors, restored."""
import sys,subprocess,os,shutil
c=sys.argv[1]
root=os.getcwd()
for lab in sys.argv[2:]:
    p=lab if os.path.exists(lab) else f'crates/{c}/must-fail/{lab}.edit'
    f=None; old=None; saved={}
    bad=None
    for line in open(p):
        line=line.rstrip('\n')
        if line.startswith('file: '): f=line[6:]
        elif line.startswith('old: '): old=line[5:]
        elif line.startswith('new:'):
            new=line[4:]
            if new.startswith(' '): new=new[1:]
            q=f'crates/{c}/{f}'
            t=open(q).read()
            if t.count(old)!=1: bad=f'old text stands {t.count(old)} times'; break
            saved.setdefault(q,t)
            open(q,'w').write(t.replace(old,new))
    if bad: print(lab,'BAD',bad)
    else:
        r=subprocess.run(['nice','-n','-5','timeout','300','rt','dev',c],capture_output=True,text=True)
        out=r.stdout+r.stderr
        errs=[l for l in out.split('\n') if ': error' in l]
        last=[l for l in out.split('\n') if l.startswith('logic=')]
        print('==',lab,last, len(errs),'errors')
        lines=out.split('\n')
        n=0
        for i,l in enumerate(lines):
            if ': error' in l and 'not admitted' not in l:
                print('  ',l[:330].replace(root+'/',''))
                for k in lines[i+1:i+4]:
                    if ': error' in k: break
                    print('     ',k[:260])
                n+=1
                if n==3: break
    for q,t in saved.items(): open(q,'w').write(t)
