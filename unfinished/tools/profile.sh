#!/bin/bash
# profile CRATE in the current clone: seconds a module
c=$1; rm -rf target/inc/$c; RT_JOBS=1 nice -n 0 rt dev $c > ${W:?}/profile.$c.log 2>&1
cd target/inc/$c && find . -type f -printf "%T@ %s %p\n" | sort -n | awk '{ n=$3; sub(/.*proofs\.proofs\./,"",n); sub(/.*specs\.specs\./,"specs:",n); sub(/\.decls\.oantt|\.oantt/,"",n); if (p) t[n]+=$1-p; p=$1 } END { for (n in t) printf "%.2f %s\n", t[n], n }' | sort -rn > ${W:?}/profile.$c
awk '{s+=$1} END {print s " total"}' ${W:?}/profile.$c; head -${2:-30} ${W:?}/profile.$c
