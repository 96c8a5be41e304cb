# Sets `libraries`, what a program of C or Rust links, a line each, and `header`, the folder of nsf.h. Read by the examples' scripts.
# NSF_LIBRARY names a libnsf.a of scripts/library, or a libnsf_c.a of `rt lib`.
root=$(cd "$here/../.." && pwd)
header=$root/crates/nsf_c/include
if [ -z "$NSF_LIBRARY" ]; then
    echo "the library is proved first, which takes an hour or two, once; scripts/library --try builds one without proof" >&2
    (cd "$root/crates/nsf_c" && rt lib >&2)
    NSF_LIBRARY=$root/crates/nsf_c/out/libnsf_c.a
fi
case $NSF_LIBRARY in
*/libnsf.a) libraries=$NSF_LIBRARY ;;
*)
    kit=$(dirname "$(rt doc)")
    libraries="$NSF_LIBRARY
$kit/c/libos_c.a
$kit/c/liblibc_c.a"
    ;;
esac
