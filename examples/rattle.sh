#!/bin/sh
# Makes a crate of an example: examples/rattle.sh NAME. (Here its files end in .txt, since rt ci reads no other crate.) A crate that has
# the name is left alone.
set -e
cd "$(dirname "$0")/.."
case $1 in
'' | .* | */*) false ;;
*) [ -d "examples/rattle/$1" ] && [ ! -e "crates/$1" ] ;;
esac || {
    echo "usage: examples/rattle.sh NAME, the name of a folder in examples/rattle that no crate has" >&2
    exit 2
}
cp -r "examples/rattle/$1" "crates/$1"
find "crates/$1" -name '*.txt' | while read -r file; do mv "$file" "${file%.txt}"; done
echo "$1: nsf anyhow" >> crates.txt
