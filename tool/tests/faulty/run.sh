#!/usr/bin/env bash
# run.sh FOLDER: the tool linked to a library with a fault at its exported boundary, for each of wrapper.c's faults. `replay`, or
# another command that meets the fault, has to tell what is wrong in capitals with exit status 1, and nothing where the library has
# none. FOLDER has libcapi.a.
set -eu
here=$(cd "$(dirname "$0")" && pwd)
library=$(cd "$1" && pwd)
work=$(mktemp -d)
trap 'rm -rf "$work"' EXIT

# The proved calls under other names, and the faulty ones beside them.
renamed=()
for call in opening tick collect withdraw free_count change_over run_matrix_by run_in_place_matrix_by convert_j_to_n convert_n_to_j; do
    renamed+=(--redefine-sym "vokhsaot_$call=proved_$call")
done
objcopy "${renamed[@]}" "$library/libcapi.a" "$work/libcapi.a"
gcc -std=c11 -Wall -Wextra -Werror -O2 -I "$here/../../../c/include" -c "$here/wrapper.c" -o "$work/wrapper.o"
ar r "$work/libcapi.a" "$work/wrapper.o"
# The folder is named anew each time, so cargo links again; where it builds is the caller's to say.
VOKHSAOT_LIB_DIR=$work cargo build --quiet --release --offline --manifest-path "$here/../../Cargo.toml"
tool=${CARGO_TARGET_DIR:-$here/../../target}/release/vokhsaot
cp "$tool" "$work/vokhsaot"

cat >"$work/day.list" <<'LIST'
submit round 1 steps 3 size 5 4 seed 1
submit oval 2 1 30 steps 2 size 4 4 seed 2
submit round 1 steps 2 size 3 3 seed 3
tick 8
withdraw 3
collect 1
collect 2
LIST

# A step in which the two choices of f differ, and its picture by the smallest.
echo 'P2 3 3 1600  0 0 0  0 1600 0  0 0 0' >"$work/spot.pgm"
echo 'P2 3 3 1600  0 400 0  400 0 400  0 400 0' >"$work/hollow.pgm"
# A column whose rows differ.
echo 'P2 1 4 1600  1600 0 0 0' >"$work/column.pgm"
cat >"$work/one-step.list" <<'LIST'
submit matrix 2048 0 2048 steps 1 size 3 3 pixels 0 0 0 0 1600 0 0 0 0
tick
collect 1
LIST

# A job that is half done when its unit changes over.
cat >"$work/change.list" <<'LIST'
submit matrix 2048 0 2048 steps 2 size 3 3 seed 1
tick
change over
tick
collect 1
LIST

# An archived text.
printf 'J\t2048\t0\t2048\t1\t2\t1\n0\t1600\n' >"$work/old.txt"

failed=0
# check FAULT STATUS WORDS [ARGUMENTS]: what the tool says of a fault, by default in a replay of the day's list
check() {
    local status=0 text arguments=(replay "$work/day.list")
    if [ $# -gt 3 ]; then
        arguments=("${@:4}")
    fi
    text=$(VOKHSAOT_FAULT=$1 "$work/vokhsaot" "${arguments[@]}" 2>&1) || status=$?
    if [ "$status" = "$2" ] && grep -qF "$3" <<<"$text" && ! grep -q panicked <<<"$text"; then
        echo "fault $1: $3"
    else
        failed=1
        printf 'fault %s: exit status %s and "%s" were expected; status %s:\n%s\n' "$1" "$2" "$3" "$status" "$text"
    fi
}
check 0 0 'verdict: good: '
check 1 1 'WRONG FREE COUNT: 16; 14 are free with 1 job held'
check 2 1 'IDLE WITH STEPS LEFT: idle; steps are left of job 1, 2, 3'
check 3 1 'WRONG ANSWER: refused (7); by the list job 1 was due'
check 4 1 'WRONG PICTURE: the pixel in column 4, row 3 is '
check 5 1 'WRONG STORE: buffer 1 (seat 0, job 1): pixel 0 is '
check 6 1 'NO ANSWER: the call came back with a number that is no refusal'
check 7 1 'NO ANSWER: the opening came back with a number that is no refusal'
check 8 1 'WRONG OPENING: the seat last served is 3 (due: 7)'
check 9 1 'NO ANSWER: the free count came back with a number that is no refusal'
check 10 1 'NO ANSWER: it did not end within 5 seconds'
by_smallest=(compare --matrix '2048,0,2048' --steps 1 --choice smallest "$work/spot.pgm" "$work/hollow.pgm")
check 0 0 "library's run, steps 1: equal" "${by_smallest[@]}"
check 11 1 "library's run, steps 1: 9 of 9 pixels DIFFER" "${by_smallest[@]}"
# A run within one picture: what smooth writes is compared with the run between two.
# check_within FAULT STATUS WORDS PICTURE OPTIONS..
check_within() {
    VOKHSAOT_FAULT=$1 "$work/vokhsaot" smooth --quiet "${@:5}" "$work/$4" "$work/within.pgm"
    check "$1" "$2" "$3" compare "${@:5}" "$work/$4" "$work/within.pgm"
}
up_and_down=(column.pgm --matrix '0,0,2048' --steps 1)
check_within 0 0 "library's run, steps 1: equal" "${up_and_down[@]}"
check_within 20 1 "library's run, steps 1: 3 of 4 pixels DIFFER, first in column 0, row 1" "${up_and_down[@]}"
smallest=(spot.pgm --matrix '2048,0,2048' --steps 1 --choice smallest)
check_within 0 0 "library's run, steps 1: equal" "${smallest[@]}"
check_within 21 1 "DIFFER, first in column 0, row 0; equal with --choice binomial" "${smallest[@]}"
check_within 22 1 "library's run, steps 1: 5 of 9 pixels DIFFER" spot.pgm --matrix '4096,0,4096' --steps 1
check 0 0 'verdict: good: ' replay "$work/one-step.list"
check 12 1 'WRONG STORE: buffer 1 (seat 0, job 1): pixel 0 is 0 (due: 100)' replay "$work/one-step.list"
check 12 1 'job 1: DIFFERS from its lone run' replay "$work/one-step.list"
# The heights of `steps` are ticks by the run's choice.
spot_steps=(steps --matrix '2048,0,2048' --steps 1 --at '0,0' "$work/spot.pgm")
check 5 1 "DIFFERS from the run's 0" "${spot_steps[@]}" --choice smallest
check 5 1 "DIFFERS from the run's 100" "${spot_steps[@]}"
check 12 0 'step 1  0 ' "${spot_steps[@]}" --choice smallest
check 12 1 "DIFFERS from the run's 100" "${spot_steps[@]}"
# A change-over: what it answers, and what it writes.
changing=(replay "$work/change.list")
check 0 0 'verdict: good: ' "${changing[@]}"
check 13 1 'WRONG RECORD: the seat last served is 7 (due: 0)' "${changing[@]}"
check 14 1 'WRONG ANSWER: refused (2); by the list accepted was due' "${changing[@]}"
check 15 1 'NO ANSWER: the call came back with a number that is no refusal' "${changing[@]}"
check 16 1 "WRONG RECORD: seat 0's f is 1 (due: 0)" "${changing[@]}"
check 16 1 'job 1: DIFFERS from its lone run' "${changing[@]}"
# A converter: each text is converted back before it is written.
converting=(convert --to n "$work/old.txt")
check 0 0 $'N\t2048\t0\t2048\t1\t2\t1\ts' "${converting[@]}"
check 17 1 'NOT THE SAME BACK: the way back is refused (14)' "${converting[@]}"
check 18 1 'finds NOTHING WRONG with it' "${converting[@]}"
check 19 1 'NOT THE SAME BACK: byte 26 is the first that differs' "${converting[@]}"

# soak writes the list of a call that does not come back: its last call is the one.
soaked=0
VOKHSAOT_FAULT=10 "$work/vokhsaot" soak --seed 1 --out "$work/hanging" >"$work/hanging.txt" || soaked=$?
last=$(tail -n 1 "$work/hanging.list")
if [ "$soaked" = 1 ] && [[ $last == withdraw\ * ]] && grep -q '^written: ' "$work/hanging.txt"; then
    echo "fault 10: soak wrote its list"
else
    failed=1
    echo "fault 10: soak: status $soaked, last call '$last'"
    cat "$work/hanging.txt"
fi
exit "$failed"
