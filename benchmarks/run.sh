#!/bin/sh
# The benchmark: smoothing beside a plain C version, the five-multiplication C version at gcc -O3 and OpenCV's filter2D, within one
# picture, and by both choices of a kernel; kernels of each kind, by the products that a pixel needs, and each within one picture beside
# between two; ticks of the service beside the bare step; job texts; growth with pixels, steps and jobs. Prints one table of ratios from
# one run.
#
# usage: benchmarks/run.sh [LIBRARY]
#
# LIBRARY is the libcapi.a of another version: kernels of each kind, within one picture too if it has such a run, and ticks are then
# measured by both, in turn, and the table says how many times as long the other takes. Needs rt, gcc, and Debian's python3-numpy; with
# python3-opencv filter2D is measured too.
set -eu
here=$(cd "$(dirname "$0")" && pwd -P)
root=$(dirname "$here")
work=$root/target/benchmarks
mkdir -p "$work"
(cd "$root/crates/capi" && rt lib --cpu x86-64 >"$work/capi.log" 2>&1) || { tail -n 20 "$work/capi.log"; exit 1; }
(cd "$root/crates/bench" && rt run --cpu x86-64 <stdin >"$work/bench.log" 2>&1) || { tail -n 20 "$work/bench.log"; exit 1; }

# One shared library for each way to compile the C, and for the other version.
build() { # NAME LIBRARY FLAGS..
    name=$1 library=$2
    shift 2
    gcc -O3 -march=x86-64 -fPIC "$@" -shared -I "$root/c/include" "$here/peers.c" "$library" -o "$work/$name.so"
}
own=$root/crates/capi/out/libcapi.a
build vector "$own"
build scalar "$own" -fno-tree-vectorize
rm -f "$work/other.so"
if [ $# -gt 0 ]; then
    has() { nm "$other" | grep -q " T $1\$"; }
    other=$1
    set --
    # a version from before 0.4.0 has a service of other words and names, one from before 0.6.0 no run within one picture
    has vokhsaot_submit_matrix_by || set -- "$@" -DBEFORE_CHANGE_OVER
    has vokhsaot_run_in_place_matrix_by || set -- "$@" -DBEFORE_IN_PLACE
    build other "$other" "$@"
fi
exec /usr/bin/python3 "$here/measure.py" "$work" "$root/crates/bench/out/bench"
