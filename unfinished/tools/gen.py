#!/usr/bin/env python3
"""gen CRATE ANSWERS..: writes proofs/FN/Proof.antt compactly. ANSWERS files: '== FN' blocks; 'use' lines; << helpers >>; @NEED[: unfolding ..] body (c^Place); @@NEED body: inline lambda"""
import re,sys,os,glob
ROOT=sys.argv[1]; crate=sys.argv[2]

def load(fn):
    f=[x for x in glob.glob(f'{ROOT}/target/goals/{crate}/**/proofs/{fn}/Lts.antt',recursive=True) if crate+'·proofs' in x][0]
    text=open(f).read()
    before=dict(re.findall(r'pub record (\S+) : Type 0 where\n\s+pub before : (\S+)',text))
    needs=re.findall(r'Need-(\S+)(?:[^\n=]*)=\s+\(c : (\S+?)\)',text)
    return before,needs,text
def doc(fn):
  pass
for path in sys.argv[3:]:
  for block in re.split(r'^== ',open(path).read(),flags=re.M)[1:]:
    fn,_,body=block.partition('\n'); fn=fn.strip()
    before,needs,text=load(fn)
    # tie.spec order from Tie.antt
    def chain(p):
        o=[p]
        while p in before: p=before[p]; o.append(p)
        return o
    def way(name,start,goal):
        w=chain(start)
        if goal not in w: print(fn,'no place',goal,'from',start,w); return name
        return name+' .before'*w.index(goal)
    def expand(b,place):
        b=re.sub(r'\b(\w+):([A-Z][\w-]*)\^([A-Z][\w-]*)',lambda m:way(m.group(1),m.group(2),m.group(3)),b)
        return re.sub(r'\bc\^([A-Z][\w-]*)',lambda m:way('c',place,m.group(1)),b)
    uses=[l for l in body.split('\n') if l.startswith('use ')]
    body='\n'.join(l for l in body.split('\n') if not l.startswith('use '))
    helper=re.search(r'<<\n(.*?)\n>>\n',body,re.S)
    if helper: body=body[:helper.start()]+body[helper.end():]
    params=re.search(r'^params (.*)$',body,re.M); par=(' '+params.group(1)) if params else ''
    named={}; inline={}
    for b in re.split(r'^@',body,flags=re.M)[1:]:
        inl=b.startswith('@'); b=b.lstrip('@')
        h,_,bd=b.partition('\n'); n,_,unf=h.partition(':')
        for x in n.split(): (inline if inl else named)[x]=(bd.rstrip(),unf.strip())
    kebab=fn.split('/')[-1].replace('_','-')
    out=[f'-- `{crate}::{fn}` meets its contract. Assumes nothing.']+uses
    out+=['use borrow.Author.Needs.{needs}',f'use Rattle·{crate}·proofs.proofs.{fn}.Statement.{{statement}}',f'use Rattle·{crate}·proofs.proofs.{fn}.Tie as tie','']
    if helper: out+=[expand(helper.group(1),None),'']
    args=[]
    for n,place in needs:
        k=' κs' if re.search(r'-requires(-\d+)?$',n) else ''
        if n in named:
            bd,unf=named[n]; bd=expand(bd,place)
            out.append(f'{n} : tie.Need-{n}{par}')
            if unf: out.append('unfolding '+unf)
            out.append(f'{n} c{k} ='+('\n'+bd if '\n' in bd or len(bd)>110 else ' '+bd.strip())); out.append('')
            args.append(n)
        elif n in inline:
            args.append(f'(λ c{k}. {expand(inline[n][0],place).strip()})')
        else: args.append(f'(λ c{k}. search needs)')
    for n in list(named)+list(inline):
        if n not in dict(needs): print(fn,'no need',n)
    out.append('-- the search closes the other needs')
    out.append(f'pub {kebab}-spec : {{M : Type 1}} → statement M')
    lines=[]; cur='(tie.spec'+par
    for a in args:
        if len(cur)+1+len(a)>130: lines.append(cur); cur=a
        else: cur+=' '+a
    lines.append(cur+')')
    out.append(f'{kebab}-spec =\n    tie.close\n    '+'\n    '.join(lines))
    d=f'{ROOT}/crates/{crate}/proofs/{fn}'; os.makedirs(d,exist_ok=True)
    open(d+'/Proof.antt','w').write('\n'.join(out)+'\n')
