#!/usr/bin/env python3
"""resolve FILE...: diff3 conflicts. Pure additions on both sides: ours then theirs. Where the base is a list line
changed by both, tried word-wise. What is left is printed."""
import sys,re,difflib
def words3(b,o,t):
    # merge token-wise: insertions of both sides kept, where changes do not overlap
    tok=lambda s: re.findall(r'\w+|\s+|[^\w\s]',s)
    B,O,T=tok(b),tok(o),tok(t)
    def ops(X):
        return [(i1,i2,X[j1:j2]) for tag,i1,i2,j1,j2 in difflib.SequenceMatcher(None,B,X,autojunk=False).get_opcodes() if tag!='equal']
    a,c=ops(O),ops(T)
    for (i1,i2,x) in a:
        for (k1,k2,y) in c:
            if (i1,i2,x)==(k1,k2,y): continue
            if i1==i2==k1==k2: continue  # both insert at one place: ours first
            if i1<k2 and k1<i2: return None
            if i1!=i2 and k1==k2 and i1<k1<i2: return None
            if k1!=k2 and i1==i2 and k1<i1<k2: return None
    out=[];pos=0
    allops=sorted([(i1,i2,0,x) for i1,i2,x in a]+[(k1,k2,1,y) for k1,k2,y in c if (k1,k2,y) not in a],key=lambda z:(z[0],z[1],z[2]))
    for i1,i2,_,x in allops:
        out+=B[pos:i1]; out+=x; pos=max(pos,i2)
    out+=B[pos:]
    return ''.join(out)
left=0
for p in sys.argv[1:]:
    t=open(p).read()
    def f(m):
        global left
        o,b,th=m.group(1),m.group(2),m.group(3)
        if p.endswith('.ci/run'):
            n=lambda s:int(re.search(r'least_tests=(\d+)',s).group(1))
            return f'least_tests={n(o)+n(th)-n(b)}\n'
        if b=='' :
            if o==th: return o
            sep='\n' if th.startswith('## ') and not o.endswith('\n\n') else ''
            return o+sep+th
        r=words3(b,o,th)
        if r is not None: 
            print('--- words',p); print(r)
            return r
        left+=1
        print('LEFT',p); print(m.group(0))
        return m.group(0)
    t2=re.sub(r'<<<<<<<[^\n]*\n(.*?)\|\|\|\|\|\|\|[^\n]*\n(.*?)=======\n(.*?)>>>>>>>[^\n]*\n',f,t,flags=re.S)
    open(p,'w').write(t2)
print('left',left)
