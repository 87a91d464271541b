#!/bin/sh
# counts instructions by valgrind: count.sh WORK BYTES SIDE prints those of one act, played with its preparation less the
# preparation alone
cd "$(dirname "$0")" || exit 1
case $1 in type|go) many=$2;; *-ja) many=20;; *) many=50;; esac
count() {
    case $4 in theirs) name=theirs_play;; *) name=bench_lib_play;; esac
    valgrind --tool=callgrind --callgrind-out-file=/dev/null --toggle-collect=$name target/release/bench play "$1" "$2" "$3" "$4" 2>&1 \
        | sed -n 's/.*Collected : \([0-9]*\).*/\1/p'
}
case $3 in ours) none=$(count "$1" "$2" "$many" idle);; *) none=$(count "$1" "$2" 0 "$3");; esac
all=$(count "$1" "$2" "$many" "$3")
echo "$1 $2 $3 $(( (all - none) / many ))"
