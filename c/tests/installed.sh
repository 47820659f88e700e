#!/usr/bin/env bash
# What build.sh has built, installed below a prefix, again over an older install, and removed; and used from there as an engineer does: the
# examples by pkg-config and by CMake, with the shared library and with the static one; what the libraries export and need; the programs; the
# version, which is one everywhere.
# usage: installed.sh [FOLDER], a folder of the repository where build.sh has run; by default this one.
# Needs gcc, pkg-config, cmake and make.
set -euo pipefail
here=$(cd "$(dirname "$0")" && pwd -P)
root=$(cd "${1:-$here/../..}" && pwd -P)
work=$(mktemp -d)
trap 'rm -rf "$work"' EXIT
mkdir "$work/elsewhere"
cd "$work/elsewhere"
# a program that has the library inside must run without it
unset LD_LIBRARY_PATH

wrong() {
    echo "installed: $1"
    exit 1
}

# same WHAT FILE FILE
same() { diff "$2" "$3" || wrong "$1"; }

[ -d "$root/target/dist" ] || wrong "nothing is built: run $root/build.sh first"
version=$(sed -n 's/^#define VOKHSAOT_VERSION "\(.*\)"$/\1/p' "$root/c/include/vokhsaot.h")
soname=libvokhsaot.so.${version%.*}
prefix=$work/moved

# ---- installing

expected_files() {
    printf '%s\n' bin/bench bin/vokhsaot include/vokhsaot.h lib/cmake/vokhsaot/vokhsaot-config{,-version}.cmake lib/libvokhsaot.a \
        lib/libvokhsaot.so "lib/$soname" "lib/libvokhsaot.so.$version" lib/pkgconfig/vokhsaot{,-static}.pc \
        share/bash-completion/completions/vokhsaot share/fish/vendor_completions.d/vokhsaot.fish share/man/man1/vokhsaot.1 \
        share/vokhsaot/installed share/zsh/site-functions/_vokhsaot | LC_ALL=C sort
}

installed_files() { # PREFIX
    (cd "$1" && find . ! -type d | sed 's|^\./||' | LC_ALL=C sort)
}

nothing_is_built() {
    mkdir "$work/empty"
    cp "$root/install.sh" "$work/empty"
    "$work/empty/install.sh" ../unbuilt >"$work/out" 2>&1 && wrong "an install where nothing is built is not refused"
    grep -q "nothing is built" "$work/out" || wrong "an install where nothing is built does not say so"
    [ ! -e "$work/unbuilt" ] || wrong "an install where nothing is built leaves something behind"
}

a_file_of_others() {
    mkdir -p "$work/others/bin"
    echo "of others" >"$work/others/bin/bench"
    "$root/install.sh" ../others >"$work/out" 2>&1 && wrong "a file of others does not stop the install"
    grep -q "bin/bench" "$work/out" || wrong "the file of others is not named"
    [ "$(installed_files "$work/others") $(cat "$work/others/bin/bench")" = "bin/bench of others" ] || wrong "something was copied beside a file of others"
}

# By a relative path, twice; then the folder is moved, and works where it is.
install_and_move() {
    "$root/install.sh" ../prefix >/dev/null
    "$root/install.sh" ../prefix >/dev/null || wrong "a second install"
    expected_files >"$work/expected"
    installed_files "$work/prefix" >"$work/found"
    same "not the files that are expected" "$work/expected" "$work/found"
    (cd "$work/prefix" && find bin -type f ! -perm 755; find . -type f ! -path './bin/*' ! -perm 644) >"$work/modes"
    [ ! -s "$work/modes" ] || wrong "modes of $(tr '\n' ' ' <"$work/modes")"
    same "the header is not that of the repository" "$root/c/include/vokhsaot.h" "$work/prefix/include/vokhsaot.h"
    mv "$work/prefix" "$prefix"
    DESTDIR=../packed "$root/install.sh" /opt/vokhsaot >/dev/null
    same "files below DESTDIR" "$work/expected" <(installed_files "$work/packed/opt/vokhsaot")
}

# Over an older install: the files that its list names and this version does not have go, a link to nowhere too; those of others stay.
an_older_install() {
    local older=$work/older_install
    mkdir -p "$older/lib" "$older/share/vokhsaot"
    echo "stale" >"$older/lib/stale"
    ln -s nowhere "$older/lib/libvokhsaot.so.0.0"
    echo "an older one" >"$older/lib/libvokhsaot.a"
    echo "of others" >"$older/lib/others"
    printf '%s\n' lib/gone lib/libvokhsaot.a lib/libvokhsaot.so.0.0 lib/stale >"$older/share/vokhsaot/installed"
    "$root/install.sh" "$older" >"$work/out"
    same "files after an older install" <(LC_ALL=C sort "$work/expected" - <<<"lib/others") <(installed_files "$older")
    same "the older library is not replaced" "$root/target/dist/lib/libvokhsaot.a" "$older/lib/libvokhsaot.a"
    same "removed files that are told" <(printf '%s\n' lib/libvokhsaot.so.0.0 lib/stale) \
        <(sed -n 's/^  \(.*\), of an earlier install, is removed$/\1/p' "$work/out")
    same "the list" <(grep -vx share/vokhsaot/installed "$work/expected") <(LC_ALL=C sort "$older/share/vokhsaot/installed")
}

# By the command that install.sh's first lines say: of all that is there the file of others stays.
remove_install() {
    local older=$work/older_install command
    command=$(sed -n 's/^#   cd PREFIX && //p' "$root/install.sh")
    [ -n "$command" ] || wrong "install.sh does not say how an install is removed"
    (cd "$older" && eval "$command") || wrong "the command that removes an install"
    same "files after an install is removed" <(echo lib/others) <(installed_files "$older")
}

# ---- using it

# runs PROGRAM EXAMPLE: what it prints is what is stored
runs() {
    "$1" >"$work/out" || wrong "$1 ends with status $?"
    same "what $1 prints" "$root/c/examples/$2.expected" "$work/out"
}

needs_no_vokhsaot() { # PROGRAM
    readelf -d "$1" >"$work/dynamic"
    grep -q "NEEDED.*\[libc\.so" "$work/dynamic" || wrong "what $1 needs is not read"
    ! grep -q "NEEDED.*vokhsaot" "$work/dynamic" || wrong "$1 needs a shared library of vokhsaot"
}

by_pkg_config() { # PREFIX EXAMPLE
    local flags source=$root/c/examples/$2.c
    export PKG_CONFIG_PATH=$1/lib/pkgconfig
    read -ra flags < <(pkg-config --cflags --libs vokhsaot)
    gcc -std=c11 -Wall -Wextra -Werror -pedantic "$source" "${flags[@]}" -o "$work/$2.shared"
    readelf -d "$work/$2.shared" | grep -q "NEEDED.*\[$soname\]" || wrong "$2 is not linked with $soname"
    LD_LIBRARY_PATH=$1/lib runs "$work/$2.shared" "$2"
    read -ra flags < <(pkg-config --cflags --libs vokhsaot-static)
    gcc -std=c11 -Wall -Wextra -Werror -pedantic "$source" "${flags[@]}" -o "$work/$2.inside"
    needs_no_vokhsaot "$work/$2.inside"
    runs "$work/$2.inside" "$2"
    # the C library inside too
    gcc -static -std=c11 -Wall -Wextra -Werror -pedantic "$source" "${flags[@]}" -o "$work/$2.static"
    runs "$work/$2.static" "$2"
}

cmake_finds() { # VERSION FOLDER
    cmake -S "$root/c/tests/cmake" -B "$2" -DCMAKE_PREFIX_PATH="$prefix" -DEXAMPLES="$root/c/examples" -DWANTED_VERSION="$1" >"$work/out" 2>&1
}

by_cmake() {
    local example kind
    cmake_finds "${version%.*}" "$work/built" || { cat "$work/out"; wrong "cmake does not find the package"; }
    cmake --build "$work/built" >"$work/out" 2>&1 || { cat "$work/out"; wrong "cmake does not build the examples"; }
    for example in smooth_picture smooth_in_place service change_over; do
        for kind in static shared; do
            runs "$work/built/${example}_$kind" "$example"
        done
    done
    readelf -d "$work/built/service_shared" | grep -q "NEEDED.*\[$soname\]" || wrong "vokhsaot::shared is not $soname"
    needs_no_vokhsaot "$work/built/service_static"
    cmake_finds 99.0 "$work/newer" && wrong "cmake takes this version for 99.0"
    cmake_finds 0.1 "$work/older" && wrong "cmake takes this version for 0.1, which breaks callers"
    return 0
}

# ---- what the libraries export and need

exports_of_the_header() {
    sed -n 's/^uint32_t \(vokhsaot_[a-z_]*\)(.*/\1/p' "$root/c/include/vokhsaot.h" | LC_ALL=C sort >"$work/declared"
    [ "$(wc -l <"$work/declared")" -ge 25 ] || wrong "the header's functions are not read"
    nm -D --defined-only "$prefix/lib/libvokhsaot.so" | awk '{ print $NF }' | LC_ALL=C sort >"$work/exported"
    same "the shared library does not export just the functions of the header" "$work/declared" "$work/exported"
    nm --extern-only --defined-only "$prefix/lib/libvokhsaot.a" | awk 'NF == 3 { print $3 }' | LC_ALL=C sort >"$work/exported"
    same "the static library does not export just the functions of the header" "$work/declared" "$work/exported"
}

needs_libc_alone() {
    readelf -d "$prefix/lib/libvokhsaot.so" >"$work/dynamic"
    [ "$(sed -n 's/.*(NEEDED).*\[\(.*\)\]/\1/p' "$work/dynamic")" = libc.so.6 ] || wrong "the shared library needs more than libc"
    [ "$(sed -n 's/.*(SONAME).*\[\(.*\)\]/\1/p' "$work/dynamic")" = "$soname" ] || wrong "the soname is not $soname"
    ! grep -q TEXTREL "$work/dynamic" || wrong "the shared library is not position-independent"
    [ -z "$(size -A "$prefix/lib/libvokhsaot.so" | awk '$1 ~ /^\.(t?data|t?bss|init_array|ctors)/ && $2 > 0')" ] || wrong "the shared library has variables or code that runs by itself"
    readelf -lW "$prefix/lib/libvokhsaot.so" | grep -q 'GNU_STACK.* RW ' || wrong "the shared library wants an executable stack"
}

# ---- programs, pages and versions

programs_run() {
    "$prefix/bin/bench" <"$root/crates/bench/stdin" >"$work/out"
    same "what bench prints" "$root/crates/bench/stdout" "$work/out"
    grep -q "^\.TH .*vokhsaot $version" "$prefix/share/man/man1/vokhsaot.1" || wrong "the manual page"
    bash -n "$prefix/share/bash-completion/completions/vokhsaot" || wrong "completions for bash are no script"
    grep -q "^ *complete .* vokhsaot" "$prefix/share/bash-completion/completions/vokhsaot" || wrong "completions for bash"
    grep -q "^#compdef vokhsaot" "$prefix/share/zsh/site-functions/_vokhsaot" || wrong "completions for zsh"
    grep -q "^complete -c vokhsaot" "$prefix/share/fish/vendor_completions.d/vokhsaot.fish" || wrong "completions for fish"
}

version_is() { # WHERE VERSION
    [ "$2" = "$version" ] || wrong "$1 has the version '$2', and the header $version"
}

one_version() {
    local part name number=
    for part in MAJOR MINOR PATCH; do
        number+=.$(sed -n "s/^#define VOKHSAOT_VERSION_$part \([0-9]*\)$/\1/p" "$prefix/include/vokhsaot.h")
    done
    version_is "the header by its numbers" "${number#.}"
    for name in vokhsaot vokhsaot-static; do
        version_is "pkg-config $name" "$(PKG_CONFIG_PATH=$prefix/lib/pkgconfig pkg-config --modversion "$name")"
    done
    version_is CMake "$(sed -n 's/^set(PACKAGE_VERSION "\(.*\)")$/\1/p' "$prefix/lib/cmake/vokhsaot/vokhsaot-config-version.cmake")"
    version_is rust/Cargo.toml "$(sed -n 's/^version = "\(.*\)"$/\1/p' "$root/rust/Cargo.toml")"
    version_is tool/Cargo.toml "$(sed -n 's/^version = "\(.*\)"$/\1/p' "$root/tool/Cargo.toml")"
    version_is CHANGELOG.md "$(sed -n 's/^## \([0-9][0-9.]*\).*/\1/p' "$root/CHANGELOG.md" | head -n 1)"
    version_is "vokhsaot --version" "$("$prefix/bin/vokhsaot" --version | sed -n 's/^vokhsaot \([0-9.]*\) .*/\1/p')"
}

nothing_is_built
a_file_of_others
install_and_move
an_older_install
remove_install
for example in smooth_picture smooth_in_place service change_over; do
    by_pkg_config "$root/target/dist" "$example"
    by_pkg_config "$prefix" "$example"
done
by_cmake
exports_of_the_header
needs_libc_alone
programs_run
one_version
echo "installed: version $version, $(wc -l <"$work/expected") files, $(wc -l <"$work/declared") calls"
