#!/usr/bin/env python3
"""compact.py ROOT: in each Proof.antt the needs that the search closes stand in the list of tie.spec itself (DECISIONS 30)."""
import glob,re,sys,os
os.chdir(sys.argv[1])
n=0;files=0
for p in sorted(glob.glob('crates/*/proofs/**/Proof.antt',recursive=True)):
    t=open(p).read()
    if 'tie.spec' not in t: continue
    i=t.rfind('(tie.spec')
    if i<0: continue
    # the end of the list
    d=0;j=i
    while True:
        if t[j]=='(': d+=1
        elif t[j]==')':
            d-=1
            if d==0: break
        j+=1
    head,lst,tail=t[:i],t[i+1:j],t[j+1:]
    found={}
    pat=re.compile(r'(?:^-- src/lib\.rt:\d+:\d+\n)?^([a-z0-9-]+) : tie\.Need-\1((?: [^\s()]+)*)\n\1 c( κs)? = search needs\n\n?',re.M)
    def take(m):
        found[m.group(1)]=m.group(3) or ''
        return ''
    head2=pat.sub(take,head)
    # only those that nobody else names
    keep=[k for k in found if re.search(r'(?<![\w-])'+re.escape(k)+r'(?![\w-])',re.sub(r'\.[a-z0-9-]+','',head2)) ]
    if keep:
        for k in keep: found.pop(k)
        def take2(m):
            return '' if m.group(1) in found else m.group(0)
        head2=pat.sub(take2,head)
    if not found: continue
    # atoms of the list
    atoms=[];k=len('tie.spec');cur=''
    d=0
    for ch in lst[k:]:
        if ch=='(': d+=1
        if ch==')': d-=1
        if ch.isspace() and d==0:
            if cur: atoms.append(cur); cur=''
        else: cur+=ch
    if cur: atoms.append(cur)
    new=[]
    for a in atoms:
        if a in found: new.append('(λ c%s. search needs)'%found[a]); n+=1
        else: new.append(a)
    ind=re.search(r'\n([ \t]*)$',head2)
    indent=ind.group(1) if ind else '    '
    lines=[];line='(tie.spec'
    for a in new:
        a1=a
        if '\n' in a1:
            lines.append(line); lines.append(a1); line=''
            continue
        if line and len(line)+1+len(a1)>130:
            lines.append(line); line=a1
        else: line=(line+' '+a1) if line else a1
    if line: lines.append(line)
    body=('\n'+indent).join(lines)+')'
    note='-- the search closes the other needs\n'
    # the comment before the spec
    m=re.search(r'^pub [a-z0-9-]+-spec : ',head2,re.M)
    if m and note not in head2:
        head2=head2[:m.start()]+note+head2[m.start():]
    # imports that nobody needs any more
    out=head2+body+tail
    out=re.sub(r'\n{3,}','\n\n',out)
    open(p,'w').write(out); files+=1
print(n,'needs in',files,'files')
