#!/bin/sh
# Builds the library, proving it, and runs the examples over it: run.sh [--time]. With NSF_LIBRARY set to one that is built already, as
# by scripts/library, that is taken. CFLAGS are passed on, as -fsanitize=thread.
set -e
here=$(cd "$(dirname "$0")" && pwd)
. "$here/../library.sh"
work=$(mktemp -d)
trap 'rm -rf "$work"' EXIT
trap 'exit 130' INT TERM HUP
compile() {
    ${CC:-cc} -std=c99 -O2 -Wall -Wextra -pedantic $CFLAGS -I"$header" "$here/$1.c" $libraries -pthread $2 -o "$work/$1"
}
for it in kv shared edges; do
    compile $it
done
compile refusals -Wl,--wrap=malloc,--wrap=realloc
if [ "$1" = --time ]; then
    "$work/kv" --time "$work/bank"
    "$work/shared" "$work/shared-bank" 3
else
    "$work/kv" "$work/bank" >"$work/told"
    "$work/shared" "$work/shared-bank" >>"$work/told"
    "$work/edges" "$work/edge-bank" >>"$work/told"
    "$work/refusals" >>"$work/told"
    diff "$work/told" "$here/expected.txt"
    echo "as expected"
fi
