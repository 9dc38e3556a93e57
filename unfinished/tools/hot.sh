#!/bin/bash
# hot.sh LIBDIR FILE SYMBOL: the instructions of SYMBOL that run about once a record or more
P=$1/probe/release/probe
valgrind --tool=callgrind --dump-instr=yes --compress-pos=no --compress-strings=no --callgrind-out-file=$1/cgi --toggle-collect="probe::ours" $P ${W:?}/files/$2.3d 1 >/dev/null 2>&1
python3 - "$1" "$3" <<'P'
import re,sys,subprocess
d,sym=sys.argv[1:3]
cost={};first={}
cur=None;skip=False
for l in open(d+'/cgi'):
    l=l.rstrip()
    if l.startswith('fn='): cur=l[3:]; continue
    if l.startswith('calls='): skip=True; continue
    m=re.match(r'(0x[0-9a-f]+) (\d+) (\d+)$',l)
    if m:
        if skip: skip=False; continue
        x=int(m.group(1),16); cost[x]=cost.get(x,0)+int(m.group(3))
        if cur==sym: first.setdefault(sym,x); first[sym]=min(first[sym],x)
obj=subprocess.run(['objdump','-d','--no-show-raw-insn','--disassemble='+sym,d+'/probe/release/probe'],capture_output=True,text=True).stdout
lines=[(int(m.group(1),16),m.group(2)) for m in re.finditer(r'^\s*([0-9a-f]+):\s+(.*)$',obj,re.M)]
off=first[sym]-lines[0][0]
tot=0
for a,t in lines:
    c=cost.get(a+off,0)
    if c: print('%8d %x %s'%(c,a,t)); tot+=c
print('total',tot)
P
