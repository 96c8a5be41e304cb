#!/bin/sh
# Builds the library of one index, proving it, and runs its example in C: run.sh. With NSF_INDEX_LIBRARY set to a libnsf_index.a that is
# built already, by `scripts/library --index`, that is taken. CFLAGS are passed on, as -fsanitize=address.
set -e
here=$(cd "$(dirname "$0")" && pwd)
root=$(cd "$here/../.." && pwd)
work=$(mktemp -d)
trap 'rm -rf "$work"' EXIT
trap 'exit 130' INT TERM HUP
if [ -z "$NSF_INDEX_LIBRARY" ]; then
    "$root/scripts/library" --index "$work/library"
    NSF_INDEX_LIBRARY=$work/library/lib/libnsf_index.a
fi
${CC:-cc} -std=c99 -O2 -Wall -Wextra -pedantic $CFLAGS -I"$root/crates/nsf_index_c/include" "$here/index.c" "$NSF_INDEX_LIBRARY" \
    -Wl,--wrap=malloc,--wrap=realloc -o "$work/index"
"$work/index" >"$work/told" || true
diff "$work/told" "$here/expected.txt"
echo "as expected"
