#!/usr/bin/env python3
"""reflow.py ROOT: in the list of tie.spec, answers that take a line each stand side by side, up to WIDTH columns."""
import glob,re,sys,os
os.chdir(sys.argv[1]); WIDTH=132; n=0
ATOM=re.compile(r'^(\(λ c(?: κs)?\. search \w+\)|[\w′-]+(?:-\d+)?)(\)*)$')
for p in sorted(glob.glob('crates/*/proofs/**/Proof.antt',recursive=True)):
    t=open(p).read(); i=t.rfind('(tie.spec')
    if i<0: continue
    i=t.rfind('\n',0,i)+1
    head,tail=t[:i],t[i:].rstrip('\n').split('\n')
    out=[];cur=None
    for k,l in enumerate(tail):
        s=l.strip(); ind=l[:len(l)-len(s)]
        simple=bool(ATOM.match(s)) or all(ATOM.match(w) for w in re.findall(r'\(λ c(?: κs)?\. search \w+\)\)*|\S+',s))
        start=s.startswith('(tie.spec') and (s=='(tie.spec' or all(ATOM.match(w) for w in re.findall(r'\(λ c(?: κs)?\. search \w+\)\)*|\S+',s[len('(tie.spec'):])))
        if start: cur=l
        elif simple and cur is not None and ind==cur[:len(cur)-len(cur.lstrip())]:
            # fill word by word
            for w in re.findall(r'\(λ c(?: κs)?\. search \w+\)\)*|\S+',s):
                if len(cur)+1+len(w)<=WIDTH: cur+=' '+w
                else: out.append(cur); cur=ind+w
        else:
            if cur is not None: out.append(cur)
            cur=l if simple else None
            if not simple: out.append(l)
    if cur is not None: out.append(cur)
    new=head+'\n'.join(out)+'\n'
    if new!=t: open(p,'w').write(new); n+=1
print(n,'files')
