#!/usr/bin/env bash
# The bench program on standard input, against the independent program: case a's listing, by both choices, and the other cases whose
# kernels S-2 speaks of byte for byte, every refusal, archived texts, reads that fail, the longest text and one byte more, in pieces,
# and generated texts, damaged ones included.
# Usage: bench.sh PROGRAM [COUNT]
set -eu
cd "$(dirname "$0")/.."
program=$PWD/$1
count=${2:-1000}
work=$(mktemp -d)
trap 'rm -rf "$work"' EXIT
cargo build --quiet --release --offline --manifest-path reference/Cargo.toml
built=${CARGO_TARGET_DIR:-$PWD/reference/target}/release

# expect NAME: the program's answer to $work/text is $work/expected, and it says nothing else
expect() {
    "$program" <"$work/text" >"$work/out" 2>"$work/err" || { echo "bench: $1: exit status $?"; exit 1; }
    cmp "$work/expected" "$work/out" || { echo "bench: $1"; exit 1; }
    [ ! -s "$work/err" ] || { echo "bench: $1: something on standard error"; exit 1; }
}

printf 'N\t2048\t0\t2048\t1\t3\t3\tb\n0\t0\t0\n0\t1600\t0\n0\t0\t0\n' >"$work/text"
cmp "$work/text" crates/bench/stdin || { echo "bench: the stored input"; exit 1; }
printf 'K\t16\t1\t2\t1\t2\t4\t2\t1\t2\t1\nP\t3\t3\n100\t200\t100\n200\t400\t200\n100\t200\t100\n' >"$work/expected"
expect "the listing"
cmp "$work/expected" crates/bench/stdout || { echo "bench: the stored output"; exit 1; }

# Stored answers, by the choice that the text names: case a by smallest; case e over one bright pixel, worked out from S2.6's weights,
# whose f is 2049, and by smallest 1; an odd half rounded up, f 1026, and by smallest 2; cases c and i, whose f is one for both.
kernels=0
while IFS='|' read -r name text answer; do
    printf '%b' "$text" >"$work/text"
    printf '%b' "$answer" >"$work/expected"
    expect "case $name"
    kernels=$((kernels + 1))
done <<'KERNELS'
a by smallest|N\t2048\t0\t2048\t1\t3\t3\ts\n0\t0\t0\n0\t1600\t0\n0\t0\t0\n|K\t4\t0\t1\t0\t1\t0\t1\t0\t1\t0\nP\t3\t3\n0\t400\t0\n400\t0\t400\n0\t400\t0\n
e|N\t4097\t0\t4096\t2\t3\t3\tb\n0\t0\t0\n0\t32768\t0\n0\t0\t0\n|K\t32768\t2049\t4094\t2049\t4096\t8192\t4096\t2049\t4094\t2049\nP\t3\t3\n3200\t3839\t3200\n3840\t4608\t3840\n3200\t3839\t3200\n
e by smallest|N\t4097\t0\t4096\t2\t3\t3\ts\n0\t0\t0\n0\t32768\t0\n0\t0\t0\n|K\t32768\t1\t8190\t1\t8192\t0\t8192\t1\t8190\t1\nP\t3\t3\n4096\t2048\t4096\n2049\t8190\t2049\n4096\t2048\t4096\n
rounded up|N\t2049\t0\t2049\t1\t1\t1\tb\n5\n|K\t8192\t513\t1023\t513\t1023\t2048\t1023\t513\t1023\t513\nP\t1\t1\n5\n
rounded up by smallest|N\t2049\t0\t2049\t1\t1\t1\ts\n5\n|K\t8192\t1\t2047\t1\t2047\t0\t2047\t1\t2047\t1\nP\t1\t1\n5\n
c|N\t4096\t0\t4096\t1\t1\t1\tb\n5\n|K\t4\t1\t0\t1\t0\t0\t0\t1\t0\t1\nP\t1\t1\n5\n
c by smallest|N\t4096\t0\t4096\t1\t1\t1\ts\n5\n|K\t4\t1\t0\t1\t0\t0\t0\t1\t0\t1\nP\t1\t1\n5\n
i|N\t262144\t0\t0\t64\t1\t1\tb\n5\n|K\t2\t0\t0\t0\t1\t0\t1\t0\t0\t0\nP\t1\t1\n5\n
i by smallest|N\t262144\t0\t0\t64\t1\t1\ts\n5\n|K\t2\t0\t0\t0\t1\t0\t1\t0\t0\t0\nP\t1\t1\n5\n
KERNELS

refusals=0
while IFS='|' read -r number text; do
    printf '%b' "$text" >"$work/text"
    printf 'R\t%s\n' "$number" >"$work/expected"
    expect "refusal $number of $text"
    refusals=$((refusals + 1))
done <<'REFUSALS'
1|
1|N\t0\t0\t0\t1\t1\t1\tb\n0
1|N\t0\t0\t0\t1\t1\t1\ts\n0
1|N\t0\t0\t0\t1\t1\t1\n0\n
1|N\t0\t0\t0\t1\t1\t1\t\n0\n
1|N\t0\t0\t0\t1\t1\t1\tS\n0\n
1|N\t0\t0\t0\t1\t1\t1\tsb\n0\n
1|N\t0\t0\t0\t1\t1\t1\ts0\n
1|N\t0\t0\t0\t1\t0\t0\ts
1|J\t0\t0\t0\t1\t1\t1\n0\n
1|J\t0\t0\t0\t1\t1\t1\ts\n0\n
1|J\t2048\t0\t2048\t1\t3\t3\n0\t0\t0\n0\t1600\t0\n0\t0\t0\n
1|J\t0\t0\t0\t0\t0\t0\n
5|N\t0\t0\t0\t0\t0\t0\tb\n
5|N\t0\t0\t0\t0\t0\t0\ts\n
5|N\t-1\t0\t0\t65\t1\t1\tb\n0\n
6|N\t-1\t0\t0\t1\t0\t0\tb\n
6|N\t0\t0\t0\t1\t4000000000\t0\ts\n
6|N\t0\t0\t0\t1\t0\t4294967295\tb\n
11|N\t4097\t0\t4096\t1\t1\t1\tb\n0\n
11|N\t4097\t0\t4096\t1\t1\t1\ts\n0\n
11|N\t1000\t1001\t1000\t1\t1\t1\tb\n0\n
REFUSALS

# A read that fails is no end of the text: refusal 1, and never a kernel. What has come is a whole job where the descriptor does
# not wait for the rest, and standard input may be a directory, be closed, or be open for writing only.
printf 'R\t1\n' >"$work/expected"
failed() {
    cmp "$work/expected" "$work/out" || { echo "bench: a read that fails: $1"; exit 1; }
}
python3 - "$program" >"$work/out" <<'READS'
import os, subprocess, sys
ends, starts = os.pipe()
os.set_blocking(ends, False)
os.write(starts, b"N\t0\t0\t0\t1\t1\t1\tb\n7\n")
sys.stdout.buffer.write(subprocess.run([sys.argv[1]], stdin=ends, stdout=subprocess.PIPE, timeout=10).stdout)
READS
failed "the text goes on"
"$program" <"$work" >"$work/out"
failed "a directory"
"$program" <&- >"$work/out"
failed "closed"
"$program" 0>"$work/written" >"$work/out"
failed "open for writing only"

# The longest text, of 93 x 88 pixels by a kernel that leaves them as they are, and one byte more: its first pixel with two digits.
row=$(printf '7\t%.0s' {1..92})7
for _ in {1..88}; do echo "$row"; done >"$work/rows"
for choice in s b; do
    { printf 'N\t0\t0\t0\t1\t93\t88\t%s\n' "$choice"; cat "$work/rows"; } >"$work/text"
    [ "$(wc -c <"$work/text")" -eq 16386 ] || { echo "bench: the longest text has $(wc -c <"$work/text") bytes"; exit 1; }
    { printf 'K\t1\t0\t0\t0\t0\t1\t0\t0\t0\t0\nP\t93\t88\n'; cat "$work/rows"; } >"$work/expected"
    expect "the longest text, $choice"
    sed -i '2s/^7/17/' "$work/text"
    printf 'R\t1\n' >"$work/expected"
    expect "a text of $(wc -c <"$work/text") bytes"
done

# Generated texts, of every length around the longest among them; every tenth comes through a pipe in pieces.
"$built/texts" "$work/texts" 1 "$count"
n=0
for text in "$work"/texts/*.text; do
    "$built/job" <"$text" >"$work/expected"
    cp "$text" "$work/text"
    expect "$text"
    n=$((n + 1))
    if [ $((n % 10)) -eq 0 ]; then
        (head -c 5 "$text"; sleep 0.01; tail -c +6 "$text") | "$program" >"$work/out"
        cmp "$work/expected" "$work/out" || { echo "bench: $text in pieces"; exit 1; }
    fi
done
echo "bench: the listing, $kernels kernels, $refusals refusals, 4 reads that fail, the longest text and $n texts"
[ "$n" -ge "$count" ]
