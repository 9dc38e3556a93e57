import sys,re
t=open('crates.txt').read()
deps={}; order=[]; head=[]
for l in t.split('\n'):
    if l.startswith('#'): head.append(l); continue
    if re.match(r'^(<<<<<<<|=======|>>>>>>>|\|\|\|\|\|\|\|)',l) or ':' not in l: continue
    n,d=l.split(':'); d=d.split()
    if n not in deps: deps[n]=[]; order.append(n)
    for x in d:
        if x not in deps[n]: deps[n].append(x)
def closure(n,seen):
    for d in deps.get(n,[]):
        if d not in seen:
            closure(d,seen); seen.append(d)
    return seen
# topological order keeping the listed order where possible
done=[]; rest=list(order)
while rest:
    for n in rest:
        if all(d in done or d not in deps for d in deps[n]): done.append(n); rest.remove(n); break
    else: raise SystemExit('cycle '+str(rest))
pos={n:i for i,n in enumerate(done)}
out=head[:]
for n in done:
    c=closure(n,[])
    own=[d for d in c if d in deps]; kit=[d for d in c if d not in deps]
    own.sort(key=lambda d:pos[d])
    out.append(('%s: %s'%(n,' '.join(own+sorted(kit)))).rstrip())
open('crates.txt','w').write('\n'.join(out)+'\n')
