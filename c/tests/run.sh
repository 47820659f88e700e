#!/usr/bin/env bash
# The header by itself, and programs over it, as C11 and as C++17, with gcc and, where it is there, clang: the calls, by themselves and
# under valgrind; the examples, whose output is stored beside them; the sentences of refusals, which are those of the Rust crate; the stack
# of each call, in the object code and as it runs. The calls without a choice are the header's own: a program that was compiled with the
# header from before them must not link.
# usage: run.sh FOLDER, the folder that has libcapi.a. Needs gcc, g++, python3 and valgrind.
set -eu
library=$1/libcapi.a
here=$(cd "$(dirname "$0")" && pwd)
root=$(cd "$here/../.." && pwd)
include=$root/c/include
work=$(mktemp -d)
trap 'rm -rf "$work"' EXIT
strict=(-Wall -Wextra -Werror -pedantic -Wconversion -Wshadow -I "$include")

compilers=("gcc g++")
if command -v clang >/dev/null && command -v clang++ >/dev/null; then
    compilers+=("clang clang++")
fi

# as_c C.. and as_c_plus_plus C++..: the compiler in a language's version
as_c() { "$1" -std=c11 "${strict[@]}" -x c "${@:2}"; }
as_c_plus_plus() { "$1" -std=c++17 "${strict[@]}" -x c++ "${@:2}"; }

# linked LANGUAGE COMPILER SOURCE PROGRAM: with the library and nothing else, not even libm
linked() { "$1" "$2" -g "$3" -x none "$library" -o "$4"; }

example() { # LANGUAGE COMPILER NAME
    linked "$1" "$2" "$root/c/examples/$3.c" "$work/$3"
    "$work/$3" >"$work/$3.out"
    cmp "$work/$3.out" "$root/c/examples/$3.expected"
}

echo '#include "vokhsaot.h"' >"$work/alone.c"
for pair in "${compilers[@]}"; do
    read -r c c_plus_plus <<<"$pair"
    as_c "$c" -fsyntax-only "$work/alone.c"
    as_c_plus_plus "$c_plus_plus" -Wold-style-cast -Wsign-conversion -fsyntax-only "$work/alone.c"
    linked as_c "$c" "$here/calls.c" "$work/calls"
    "$work/calls"
    for name in smooth_picture smooth_in_place service change_over; do
        example as_c "$c" "$name"
        example as_c_plus_plus "$c_plus_plus" "$name"
    done
done
linked as_c gcc "$here/calls.c" "$work/calls"
valgrind --quiet --error-exitcode=1 --leak-check=full "$work/calls"

linked as_c gcc "$here/sentences.c" "$work/sentences"
"$work/sentences" >"$work/sentences.c.out"
sed -n '/impl fmt::Display for Error/,/^}/p' "$root/rust/src/error.rs" | grep -o '"[^"]*\."' | tr -d '"' >"$work/sentences.rust.out"
diff "$work/sentences.c.out" "$work/sentences.rust.out"

for name in {kernel,run,run_in_place,submit}_{matrix,round,oval}; do
    echo "unsigned vokhsaot_$name(); int main(void) { return (int)vokhsaot_$name(); }" >"$work/old.c"
    if gcc -std=c11 "$work/old.c" "$library" -o "$work/old" 2>"$work/messages"; then
        echo "vokhsaot_$name is exported"
        exit 1
    fi
    grep -q "undefined reference to .vokhsaot_$name'" "$work/messages" || { cat "$work/messages"; exit 1; }
done

# between its calls this program's stack pointer stays where it is
as_c gcc -O1 -maccumulate-outgoing-args -fno-builtin "$here/stack.c" -x none "$library" -o "$work/stack"
"$work/stack" >"$work/stack.out"
"$here/object_code.py" "$library" "$work/stack.out"
echo "calls, examples and sentences with: ${compilers[*]}"
