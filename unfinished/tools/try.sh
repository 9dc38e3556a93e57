#!/bin/bash
# try.sh NAME: builds lib$NAME from speed$NAME and counts
cd ${W:?}/speed$1 && nice python3 unfinished/tools/trial-lib.py ${W:?}/lib$1 2>&1 | grep -v "left out" | tail -1 | cut -c1-60 && ${W:?}/count.sh ${W:?}/lib$1 | python3 -c "
import sys
for l in sys.stdin:
    w=l.split(); o,f,p,q=[float(w[i]) for i in (2,4,6,8)]
    print('%s %.1f (%.1f + %.1f) plain %.1f |'%(w[0],(o-f)/2,f,(o-f)/2-f,p-q),end=' ')
print()"
