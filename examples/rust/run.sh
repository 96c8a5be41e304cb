#!/bin/sh
# Builds the library, proving it, and runs the tests of the wrapper over it. With NSF_LIBRARY set to one that is built already, as by
# scripts/library, that is taken. Words are passed on to `cargo test`. With AddressSanitizer, by a nightly compiler:
#
#     RUSTUP_TOOLCHAIN=nightly RUSTFLAGS=-Zsanitizer=address examples/rust/run.sh --target x86_64-unknown-linux-gnu
set -e
here=$(cd "$(dirname "$0")" && pwd)
. "$here/../library.sh"
cd "$here"
NSF_LIBRARIES=$libraries cargo test --offline "$@"
