#!/bin/bash
# ecount.sh NAME..: instructions a record of an edit of ten in the middle, and times against our own read
for n in "$@"; do L=${W:?}/lib$n; cd ${W:?}/speed$n && nice python3 unfinished/tools/trial-lib.py $L 2>&1 | grep -v "left out" | tail -1 | cut -c1-40
cd ${W:?}/eprobe; LIB=$L CARGO_TARGET_DIR=$L/eprobe cargo build --release --offline -q 2>/dev/null; P=$L/eprobe/release/eprobe
for f in v8 turn cave8; do r=$($P ${W:?}/files/$f.3d 1); valgrind --tool=callgrind --callgrind-out-file=$L/cge --toggle-collect="eprobe::edits" $P ${W:?}/files/$f.3d 1 >/dev/null 2>${W:?}/err; i=$(grep -o "Collected : [0-9]*" ${W:?}/err | grep -o "[0-9]*$"); echo "$f $(python3 -c "print('%.1f'%($i/${r%% *}))")"; done
for f in v8 turn cave8; do $P ${W:?}/big/$f.3d 15; done; done
