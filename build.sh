#!/usr/bin/env bash
# Proves the library and the bench program, and builds all that is installed into target/dist: libraries, header, files for
# pkg-config and CMake, the programs vokhsaot and bench, the manual page, completions for shells.
#
# usage: build.sh, from any folder
#
# Exit status: 0 built; 1 something is not proved or not built, and target/build.log says why; 2 something needed is missing.
set -euo pipefail
root=$(cd "$(dirname "${BASH_SOURCE[0]}")" && pwd -P)
cd "$root"
log=target/build.log
dist=target/dist
library=target/staticlib/libcapi.a
bench=crates/bench/out/bench
# the library and the programs run on any of these processors: rt's default would ask for a newer one
cpu=x86-64
# see stamp_of
stamps=target/stamps
# made whole beside the old one, so that target/dist is never half of a build
new=target/dist.new

if [ $# -gt 0 ]; then
    echo "usage: $0, with no arguments: proves and builds all into target/dist"
    [ "$1" = --help ] && exit 0
    exit 2
fi

# ---- what is needed

lacking() { # WHAT [COMMAND]
    echo "build.sh: $1" >&2
    [ -z "${2:-}" ] || echo "$2" >&2
    exit 2
}

check_commands() {
    rt version >/dev/null 2>&1 || lacking "rt does not run, the prover of the Rattle kit: put the kit's folder bin on PATH"
    gcc --version >/dev/null 2>&1 || lacking "gcc does not run. As root: apt-get install gcc libc6-dev"
    cargo --version >/dev/null 2>&1 || lacking "cargo does not run, Rust's builder: https://rustup.rs says how to get it"
}

# The packages of packages.txt for the build, those that are not installed.
missing_packages() {
    local name
    sed -n '/^## build/,/^## tests/p' packages.txt | sed 's/#.*//' | while read -r name; do
        [ -z "$name" ] || dpkg-query -W -f='${db:Status-Status}\n' "$name" 2>/dev/null | grep -qx installed || echo "$name"
    done
}

apt_install() { # PACKAGE..
    DEBIAN_FRONTEND=noninteractive apt-get install -y --no-install-recommends "$@" >>"$log" 2>&1
}

check_packages() {
    command -v dpkg-query >/dev/null || lacking "this is no Debian system: the tool is built from the Debian packages of packages.txt"
    local missing
    mapfile -t missing < <(missing_packages)
    [ ${#missing[@]} -gt 0 ] || return 0
    if [ "$(id -u)" -ne 0 ]; then
        lacking "Debian packages are missing. Run this, and then build.sh again:" \
            "sudo apt-get install --no-install-recommends ${missing[*]}"
    fi
    echo "installing ${missing[*]}"
    apt_install "${missing[@]}" || { apt-get update >>"$log" 2>&1 && apt_install "${missing[@]}"; } ||
        fail "packages are not installed" 2
}

# ---- proving

fail() { # WHY [STATUS]
    echo "build.sh: $1. The last lines of $root/$log:" >&2
    tail -n 20 "$log" | cut -c 1-300 >&2
    exit "${2:-1}"
}

# The crates that capi and bench are made of, these two included, each after those below it.
crates_needed() {
    awk '
        { sub(/#.*/, "") }
        /:/ { name = $1; sub(/:.*/, "", name); sub(/^[^:]*:/, ""); below[name] = $0 }
        function take(name, list, n, i) {
            if (!(name in below) || name in taken) return
            taken[name]
            n = split(below[name], list, " ")
            for (i = 1; i <= n; i++) take(list[i])
            print name
        }
        END { take("bench"); take("capi") }' crates.txt
}

# Runs a command in a crate's folder, all that it says kept in the log. Each 20 seconds that it takes are told.
at_work() { # CRATE COMMAND..
    local crate=$1 got="" part code
    shift
    exec 3< <((cd "crates/$crate" && "$@") </dev/null >>"$log" 2>&1; echo $?)
    # a read whose time is up keeps what had come by then: a status that comes at that moment can be in two parts
    while true; do
        code=0
        IFS= read -r -t 20 -u 3 part || code=$?
        got=$got$part
        [ "$code" -gt 128 ] || break
        printf 'proving: %s, at work (%d s)\n' "$crate" "$SECONDS"
    done
    exec 3<&-
    return "${got:-1}"
}

# What the library or bench is made of, and itself. While it stays the same it is not made again, nor the tool that links the library: rt
# knows of other crates whether they have changed.
stamp_of() { # CRATE FILE BELOW..
    local name
    {
        rt version
        echo "$cpu"
        for name in "${@:3}"; do cat -- "crates/$name/out/rlib/stamp"; done
        find crates.txt "crates/$1" -type f ! -path '*/must-fail/*' ! -path '*/out/*' -exec sha256sum {} + | sort
        sha256sum <"$2"
    } | sha256sum
}

is_made() { # CRATE FILE BELOW..
    [ -f "$stamps/$1" ] && [ -f "$2" ] && [ "$(stamp_of "$@")" = "$(cat "$stamps/$1")" ]
}

prove_library() { # BELOW..
    is_made capi "$library" "$@" && return
    at_work capi rt lib --cpu "$cpu" || return 1
    install -D -m 644 crates/capi/out/libcapi.a "$library" || return 1
    stamp_of capi "$library" "$@" >"$stamps/capi"
}

# The program is run too, on a job whose answer is known.
prove_bench() { # BELOW..
    is_made bench "$bench" "$@" && return
    at_work bench sh -c 'mkdir -p out && rt run --cpu "$0" <stdin >out/answer' "$cpu" || return 1
    cmp crates/bench/out/answer crates/bench/stdout >>"$log" 2>&1 || fail "bench gives another answer than crates/bench/stdout"
    stamp_of bench "$bench" "$@" >"$stamps/bench"
}

# Each crate that took a while is told; one that has not changed is counted alone.
prove() {
    local crates below name count=0 began
    mapfile -t crates < <(crates_needed)
    mapfile -t below < <(printf '%s\n' "${crates[@]}" | grep -vxE 'capi|bench')
    echo "proving ${#crates[@]} crates: the first time takes minutes, after that only what has changed is proved"
    for name in "${crates[@]}"; do
        count=$((count + 1))
        began=$SECONDS
        case $name in
        capi) prove_library "${below[@]}" ;;
        bench) prove_bench "${below[@]}" ;;
        *) at_work "$name" rt lib ;;
        esac || fail "$name is not proved"
        [ $((SECONDS - began)) -lt 3 ] || printf 'proving %2d of %d: %s (%d s)\n' "$count" "${#crates[@]}" "$name" "$SECONDS"
    done
    echo "all ${#crates[@]} crates are proved ($SECONDS s)"
}

# ---- building

version_of_header() {
    sed -n 's/^#define VOKHSAOT_VERSION "\(.*\)"$/\1/p' c/include/vokhsaot.h
}

# The static library as rt wrote it, and the shared one of the same proved object, which is position-independent, and of nothing else.
build_libraries() {
    install -D -m 644 "$library" "$new/lib/libvokhsaot.a"
    gcc -shared -nostartfiles -Wl,-soname,"libvokhsaot.so.$major.$minor" -Wl,--version-script=c/exports.map -Wl,-z,defs,-z,relro,-z,now \
        -Wl,--fatal-warnings -Wl,--whole-archive "$new/lib/libvokhsaot.a" -Wl,--no-whole-archive \
        -o "$new/lib/libvokhsaot.so.$version" >>"$log" 2>&1 || fail "the shared library is not linked"
    chmod 644 "$new/lib/libvokhsaot.so.$version"
    ln -s "libvokhsaot.so.$version" "$new/lib/libvokhsaot.so.$major.$minor"
    ln -s "libvokhsaot.so.$major.$minor" "$new/lib/libvokhsaot.so"
}

fill_in() { # TEMPLATE FILE
    mkdir -p "$(dirname "$2")"
    sed -e "s/@VERSION@/$version/g" -e "s/@MAJOR@/$major/g" -e "s/@MINOR@/$minor/g" "$1" >"$2"
}

build_for_c() {
    install -D -m 644 c/include/vokhsaot.h "$new/include/vokhsaot.h"
    fill_in c/vokhsaot.pc.in "$new/lib/pkgconfig/vokhsaot.pc"
    fill_in c/vokhsaot-static.pc.in "$new/lib/pkgconfig/vokhsaot-static.pc"
    install -D -m 644 c/cmake/vokhsaot-config.cmake "$new/lib/cmake/vokhsaot/vokhsaot-config.cmake"
    fill_in c/cmake/vokhsaot-config-version.cmake.in "$new/lib/cmake/vokhsaot/vokhsaot-config-version.cmake"
}

build_programs() {
    export CARGO_TARGET_DIR=$root/target/cargo VOKHSAOT_LIB_DIR=$root/target/staticlib
    cargo build --release --offline --manifest-path tool/Cargo.toml >>"$log" 2>&1 || fail "the tool is not built"
    install -D -m 755 target/cargo/release/vokhsaot "$new/bin/vokhsaot"
    install -D -m 755 "$bench" "$new/bin/bench"
}

# What the tool says of itself for man and for the shells.
build_shared_files() {
    local share=$new/share
    mkdir -p "$share/man/man1" "$share/bash-completion/completions" "$share/zsh/site-functions" "$share/fish/vendor_completions.d"
    {
        "$new/bin/vokhsaot" manual >"$share/man/man1/vokhsaot.1" &&
            "$new/bin/vokhsaot" completions bash >"$share/bash-completion/completions/vokhsaot" &&
            "$new/bin/vokhsaot" completions zsh >"$share/zsh/site-functions/_vokhsaot" &&
            "$new/bin/vokhsaot" completions fish >"$share/fish/vendor_completions.d/vokhsaot.fish"
    } 2>>"$log" || fail "the tool does not print its manual or completions"
}

mkdir -p target "$stamps"
: >"$log"
check_commands
check_packages
version=$(version_of_header)
IFS=. read -r major minor _ <<<"$version"

prove
echo "building version $version"
rm -rf "$new"
build_libraries
build_for_c
build_programs
build_shared_files
rm -rf "$dist"
mv "$new" "$dist"

echo "built in $SECONDS s, into $root/$dist:"
(cd "$dist" && find . ! -type d | sort | sed 's|^\./|  |')
echo "To use the programs in this shell: export PATH=\"$root/$dist/bin:\$PATH\""
echo "To install all of it: $root/install.sh PREFIX"
