L=$1; cd ${W:?}/sprobe && LIB=$L CARGO_TARGET_DIR=$L/sprobe nice cargo build --release --offline -q 2>/dev/null || exit 1
P=$L/sprobe/release/sprobe; [ -f ${W:?}/files/stations.3d ] || $P make ${W:?}/files/stations.3d ${W:?}/big/stations.3d
for f in stations cave8 cave7 dowprov; do r=$($P ${W:?}/files/$f.3d 1); nice valgrind --tool=callgrind --callgrind-out-file=$L/cgs --toggle-collect="sprobe::stricts" $P ${W:?}/files/$f.3d 1 >/dev/null 2>$L/err; i=$(grep -o "Collected : [0-9]*" $L/err | grep -o "[0-9]*$"); echo "$f $r $(python3 -c "print('%.1f'%($i/${r% *}))")"; done
for f in stations cave8 cave7; do $P ${W:?}/big/$f.3d 5; done
