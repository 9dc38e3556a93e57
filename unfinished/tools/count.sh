#!/bin/bash
# count.sh LIBDIR [FILES]: instructions a record of reading: ours, its first pass, plain, its first pass
# W is the folder to which these tools are copied, beside the clone `speed` and the made files (files/, big/)
cd ${W:?}/probe && LIB=$1 CARGO_TARGET_DIR=$1/probe nice cargo build --release --offline -q 2>/dev/null || exit 1
P=$1/probe/release/probe
for f in ${2:-v8 v3 v7 turn cave8 cave7 dowprov}; do
  F=${W:?}/files/$f.3d
  r=$($P $F 1)
  printf "%s " $f
  for fn in ours firsts plains pfirsts; do
  nice valgrind --tool=callgrind --callgrind-out-file=$1/cg.$f.$fn --toggle-collect="probe::$fn" $P $F 1 >/dev/null 2>$1/err
  i=$(grep -o "Collected : [0-9]*" $1/err | grep -o "[0-9]*$")
  printf "%s %.1f  " $fn $(python3 -c "print($i/$r)")
  done; echo
done
