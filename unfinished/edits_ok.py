import os,re,sys,glob
os.chdir(sys.argv[1])
bad=0
for e in sorted(glob.glob('crates/*/must-fail/*.edit')):
    c=e.split('/')[1]
    f=None; old=[]; mode=None
    cur=None; pairs=[]
    for l in open(e).read().split('\n'):
        if l.startswith('file: '): f=l[6:].strip()
        elif l.startswith('old: '): pairs.append([f,l[5:]])
    for f,o in pairs:
        t=open('crates/%s/%s'%(c,f)).read()
        n=t.count(o)
        if n!=1: print(e,f,n,repr(o[:90])); bad+=1
print('bad',bad)
