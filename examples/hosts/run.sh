#!/bin/sh
# Builds a host of the index, or the cases of its duties, and runs it:
#
#     run.sh lmdb [KILLS]      a host over LMDB, killed so often
#     run.sh sqlite [KILLS]    a host over SQLite
#     run.sh rocksdb [KILLS]   a host over RocksDB, whose transactions go on side by side
#     run.sh duties            each duty kept, and broken
#     run.sh costs             what indexes and their builds cost (two minutes)
#
# NSF_INDEX_LIBRARY names a libnsf_index.a of scripts/library --index; its header lies in include beside lib. CC and CFLAGS are passed on,
# as -fsanitize=address. ROWS says how many rows there are, SEED which moments and rows are drawn, SECONDS_EACH how long each number of the
# costs is counted.
set -e
usage() {
    sed -n '2,/^set/s/^# \{0,1\}//p' "$0" >&2
    exit 2
}
[ -f "$NSF_INDEX_LIBRARY" ] || usage
library=$(realpath "$NSF_INDEX_LIBRARY")
work=$(mktemp -d)
trap 'rm -rf "$work"' EXIT
trap 'exit 130' INT TERM HUP

# compile PROGRAM LIBRARIES SOURCES..
compile() {
    program=$1 libraries=$2
    shift 2
    # shellcheck disable=SC2086
    ${CC:-cc} -std=c11 -O2 -Wall -Wextra -Werror -pedantic $CFLAGS -I. -I"${library%/lib/*}/include" "$@" "$library" $libraries -pthread \
        -o "$work/$program"
}

kill_host() {
    # shellcheck disable=SC2086
    compile kills "$2" part.c host.c $4 check.c kills.c "$1"/*.c
    "$work/kills" "$work/folder" "${ROWS:-5000}" "${3:-20}" "${SEED:-$$}"
}

cost_host() {
    compile costs "$2" part.c host.c one_writer.c costs/costs.c "costs/$1.c" "$1"/*.c
    "$work/costs" "$work/folder" "${ROWS:-200000}" "${SECONDS_EACH:-3}"
    rm -rf "$work"/folder*
}

cd "$(dirname "$0")"
case $1 in
lmdb) kill_host lmdb -llmdb "$2" one_writer.c ;;
sqlite) kill_host sqlite -lsqlite3 "$2" one_writer.c ;;
rocksdb) kill_host rocksdb -lrocksdb "$2" '' ;;
duties) compile duties '' part.c duties.c && "$work/duties" ;;
costs)
    cost_host lmdb -llmdb
    cost_host sqlite -lsqlite3
    ;;
*) usage ;;
esac
