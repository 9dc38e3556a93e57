cd "${W:?}"
for f in v8 v3 v7 turn cave8 cave7; do for l in $LIBS; do echo -n "$l "; $l/probe/release/probe big/$f.3d 11; done; done
for l in $LIBS; do echo -n "$l "; $l/probe/release/probe files/dowprov.3d 3000; done; cat /proc/loadavg
