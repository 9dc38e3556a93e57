import re,sys
doc='docs/PERFORMANCE.md'
runs=[open(f).read() for f in sys.argv[1:]]
def rows(t):
    out={}; call=of=None
    sec=t[t.index('### Times'):t.index('### Growth')]
    for l in sec.split('\n'):
        w=[x.strip() for x in l.strip().strip('|').split('|')]
        if len(w)<8 or w[0] in('call','---') or w[0].startswith('---'): continue
        if w[0]: call,of=w[0],w[1]
        out[(call,of,w[4])]=float(w[6])
    return out
def real(t):
    m=re.search(r'dowprov\.3d .*\| ([0-9.]+) +\|$',t,re.M); 
    l=[x for x in t[t.index('### Real'):].split('\n') if 'caves/dowprov' in x][0]
    return float(l.strip().strip('|').split('|')[-1])
R=[rows(t) for t in runs]
def rng(k):
    v=[r[k] for r in R]
    a,b=min(v),max(v)
    return '%.2f'%a if a==b else '%.2f to %.2f'%(a,b)
for k in sorted(R[0]): print(k,rng(k))
D=[real(t) for t in runs]; dow='%.2f'%D[0] if min(D)==max(D) else '%.2f to %.2f'%(min(D),max(D))
print('dowprov',dow)
s=open(doc).read()
for key,of in (('T-v8','v8 legs'),('T-v3','v3 legs'),('T-v7','v7 legs'),('T-turn','v8 in turn'),('T-cave8','v8 cave'),('T-cave7','v7 cave')):
    s=s.replace('| %s |'%key,'| %s |'%rng(('read',of,'`plain`')))
s=s.replace('| T-dowprov |','| %s |'%dow)
# tables of the last run
t=runs[-1]
heads=['### Times','### Growth','### Memory','### Real files','### Programs']
def tables(text,h):
    i=text.index(h); m=re.search(r'\n#{2,3} ',text[i+4:]); e=i+4+m.start() if m else len(text)
    return text[i:e]
for h in heads:
    src=tables(t,h); dst=tables(s,h)
    tb=re.search(r'((?:^\|.*\n?)+)',src,re.M).group(1).rstrip('\n')
    db=re.search(r'((?:^\|.*\n?)+)',dst,re.M).group(1).rstrip('\n')
    s=s.replace(dst,dst.replace(db,tb))
open(doc,'w').write(s)
