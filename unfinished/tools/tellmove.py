import re,os,subprocess
p='crates/capi/src/lib.rt'
t=open(p).read()
def cut(pat):
    global t
    m=re.search(pat,t,re.S|re.M)
    assert m,pat
    s=m.group(0); t=t[:m.start()]+t[m.end():]
    return s
item=lambda name: r'(?:^//[^\n]*\n)*(?:^#\[repr\(C\)\]\n)?^(?:pub )?(?:struct|fn) '+name+r'\b.*?^}\n\n?'
moved=[]
for n in ['Compared','judged','refused','tell_later','ViewNumbers','tell_viewed','SummaryNumbers','tell_summed','EntranceNumbers','tell_next','tell_entrances']:
    moved.append(cut(item(n)).rstrip('\n')+'\n')
body='\n'.join(moved).replace('told::long','long')
for f in ['tell_later','tell_viewed','tell_summed','tell_entrances']:
    body=re.sub(r'^fn '+f,'pub fn '+f,body,flags=re.M)
q='crates/told/src/lib.rt'
u=open(q).read()
u=u.replace('use format::Answer;\nuse format::Opened;\nuse format::Stepped;\n','use format::Answer;\nuse format::Entrances;\nuse format::Handed;\nuse format::Later;\nuse format::NextEntrance;\nuse format::Opened;\nuse format::Stepped;\nuse format::Summed;\nuse format::Viewed;\n')
u=u.replace('ghost use Rattle·format.specs.Answers.{openedOf, steppedOf};\n','ghost use Rattle·format.specs.Summary.{holds};\nghost use Rattle·format.specs.Answers.{laterOf, openedOf, steppedOf, viewedOf, summedOf, entrancesOf};\n')
u=u.replace('{answerNumbers, openNumbers, stepNumbers};\n','{answerNumbers, openNumbers, stepNumbers};\nghost use Rattle·told·specs.specs.Compares.{comparedOf};\nghost use Rattle·told·specs.specs.Views.{viewNumbers};\nghost use Rattle·told·specs.specs.Summaries.{summaryNumbers, entranceNumbers};\n')
u=u.rstrip('\n')+'\n\n'+body
open(q,'w').write(u)
for s in ['Compares','Views','Summaries']:
    t=t.replace('Rattle·capi·specs.specs.'+s,'Rattle·told.specs.'+s)
for n in ['Entrances','Handed','Later','NextEntrance','Viewed','Summed']:
    t=re.sub(r'^use format::'+n+';\n','',t,flags=re.M)
t=t.replace('use told::AnswerNumbers;\nuse told::OpenNumbers;\nuse told::StepNumbers;\n','use told::AnswerNumbers;\nuse told::Compared;\nuse told::EntranceNumbers;\nuse told::OpenNumbers;\nuse told::StepNumbers;\nuse told::SummaryNumbers;\nuse told::ViewNumbers;\n')
for f in ['tell_later','tell_viewed','tell_summed','tell_entrances']:
    t=re.sub(r'(?<![\w:])'+f+r'\(','told::'+f+'(',t)
t=t.replace('{laterOf, openOutcome, reachedOf, viewedOf, entrancesOf, summedOf}','{openOutcome, reachedOf}').replace('{summaryOutcome, summaryWords, holds, entrancesOutcome, updateOutcome, updateWords}','{summaryOutcome, summaryWords, entrancesOutcome, updateOutcome, updateWords}')
t=re.sub(r'\n\n\n+','\n\n',t)
open(p,'w').write(t)
for s in ['Compares','Views','Summaries']:
    x=open(f'crates/capi/specs/{s}.antt').read().replace('Rattle·capi·specs','Rattle·told·specs')
    open(f'crates/told/specs/{s}.antt','w').write(x); os.remove(f'crates/capi/specs/{s}.antt')
lib=open('crates/capi/specs/Lib.antt').read()
for s in ['Compares','Views','Summaries']: lib=lib.replace(f'pub mod {s}\n','')
open('crates/capi/specs/Lib.antt','w').write(lib)
open('crates/told/specs/Lib.antt','a').write('pub mod Compares\npub mod Views\npub mod Summaries\n')
for f in ['refused','tell_later','tell_next','tell_entrances','tell_summed','tell_viewed']:
    d=f'crates/capi/proofs/{f}'
    x=open(d+'/Proof.antt').read().replace('Rattle·capi·','Rattle·told·').replace('`capi::','`told::').replace('Rattle·told.proofs','Rattle·told·proofs.proofs').replace('Rattle·told.specs','Rattle·told·specs.specs')
    os.makedirs(f'crates/told/proofs/{f}',exist_ok=True)
    open(f'crates/told/proofs/{f}/Proof.antt','w').write(x)
    subprocess.run(['rm','-r',d])
for root,_,fs in os.walk('crates/capi/proofs'):
    for f in fs:
        a=os.path.join(root,f); x=open(a).read(); y=x
        for s in ['Compares','Views','Summaries']: y=y.replace(f'Rattle·capi·specs.specs.{s}',f'Rattle·told.specs.{s}')
        if y!=x: open(a,'w').write(y)
os.rename('crates/capi/must-fail/line_length.edit','crates/told/must-fail/line_length.edit')
p='crates/capi/proofs/cockledrift_read_strict/Proof.antt'
open(p,'w').write('''-- `capi::cockledrift_read_strict` meets its contract. Assumes nothing.
use borrow.Author.Needs.{needs}
use Rattle·capi·proofs.proofs.Tells.{tells}
use Rattle·capi·proofs.proofs.cockledrift_read_strict.Statement.{statement}
use Rattle·capi·proofs.proofs.cockledrift_read_strict.Tie as tie

returns : tie.Need-returns
returns c =
    let R = c .before .before .before .before .before .read-strict in
    (tells (R .result) (c .tell .ensures) (R .ensures .0), (R .ensures .1 .0, R .ensures .1 .1))

-- the search closes the other needs
pub cockledrift-read-strict-spec : {M : Type 1} → statement M
cockledrift-read-strict-spec =
    tie.close (tie.spec (λ c κs. search needs) (λ c κs. search needs) (λ c. search needs) (λ c. search needs) returns)
''')
