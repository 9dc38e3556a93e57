import re,os,sys,glob
root=sys.argv[1]; log=sys.argv[2]; user=float(sys.argv[3])
t={}
for l in open(log,errors='replace'):
    m=re.match(r'rt: (\w+) proved \((\d+) s\)',l)
    if m: t[m.group(1)]=int(m.group(2))
tot=sum(t.values()); r=user/tot
print('check printed',tot,'user',user,'ratio',r)
e=0;rows=[]
for c in open(root+'/crates.txt'):
    if ':' not in c or c.startswith('#'): continue
    n=c.split(':')[0]
    k=len(glob.glob(f'{root}/crates/{n}/must-fail/*.edit'))
    s=t.get(n) or 0
    e+=k*s; rows.append((k*s,n,k,s))
rows.sort(reverse=True)
print('edits printed',e,'user min',e*r/60,'total user min',(e*r+user)/60)
for x in rows[:22]: print(x)
