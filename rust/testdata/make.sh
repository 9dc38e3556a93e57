#!/bin/sh
# Makes all .3d and .dump files here anew from the .svx files.
# Needs cavern, dump3d and extend: Debian's package survex (apt-get install survex).
# The header of a .3d file holds the time at which it was made, so the bytes of
# the time line, and no others, change from run to run.
set -eu
cd "$(dirname "$0")"
export LC_ALL=C.UTF-8 TZ=UTC

# make SVX OUT VERSION...: OUT.vN.3d and OUT.vN.dump for each version N.
# Not with cavern -s: that would leave the ERROR items out of the .3d file.
make() {
    svx=$1 out=$2
    shift 2
    for n in "$@"; do
        cavern -qq --3d-version="$n" --output="$out.v$n.3d" "$svx"
        rm -f "$out.v$n.err"
        dump3d -d "$out.v$n.3d" > "$out.v$n.dump"
    done
}

make nested.svx nested 3 4 5 6 7 8
make passage.svx passage 3 4 5 6 7 8
make loops.svx loops 6 7 8
make anon.svx anon 8
extend passage.v8.3d extended.v8.3d > /dev/null
dump3d -d extended.v8.3d > extended.v8.dump

make loops.svx departures/loops 3 4 5
make anon.svx departures/anon 3 4 5 6 7
make departures/dates.svx departures/dates 4 5 6 7 8
make departures/early.svx departures/early 4 5 6
make departures/trim.svx departures/trim 3 4 5 6 7
make departures/longname.svx departures/longname 7 8

# What the library writes of each file that reads, and what dump3d says of that.
# Needs the proved library too: tools/staticlib capi.
for file in *.3d; do
    cargo run -q --release --offline -p cockledrift --example convert < "$file" > "written/$file"
    dump3d -d "written/$file" > "written/${file%.3d}.dump"
done

# The same as v7, where v7 can carry it.
for file in *.3d; do
    if cargo run -q --release --offline -p cockledrift --example convert -- --to 7 < "$file" > "written_v7/$file" 2> /dev/null
    then dump3d -d "written_v7/$file" > "written_v7/${file%.3d}.dump"
    else rm "written_v7/$file"
    fi
done
