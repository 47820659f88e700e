#!/usr/bin/env bash
# Copies what build.sh has built, target/dist, below a prefix, and lists it in PREFIX/share/vokhsaot/installed.
#
# usage: install.sh PREFIX, from any folder
#
# A relative PREFIX is one of the caller's folder. With DESTDIR in the environment all is put below DESTDIR, for a package that
# is later unpacked at /. A file of the same name that an earlier install did not put there is never replaced: nothing is copied then.
# Files that an earlier install listed and this one does not have are removed.
#
# To remove an install, remove the files that its list names, and the list:
#   cd PREFIX && xargs -d '\n' rm -f -- <share/vokhsaot/installed && rm share/vokhsaot/installed
#
# Exit status: 0 installed; 1 a file of others is in the way; 2 bad usage, or nothing is built.
set -euo pipefail
dist=$(cd "$(dirname "${BASH_SOURCE[0]}")" && pwd -P)/target/dist
list=share/vokhsaot/installed

say() { printf 'install.sh: %s\n' "$@" >&2; }

if [ $# -ne 1 ] || [ -z "$1" ] || [ "$1" = --help ]; then
    echo "usage: $0 PREFIX: copies target/dist below PREFIX (below DESTDIR, where that is set)"
    [ "${1:-}" = --help ] && exit 0
    exit 2
fi
if [ ! -d "$dist" ]; then
    say "nothing is built: there is no $dist. Run $(dirname "$(dirname "$dist")")/build.sh first"
    exit 2
fi
prefix=$(realpath -ms -- "$1")
place=$prefix
[ -z "${DESTDIR:-}" ] || place=$(realpath -ms -- "$DESTDIR")$prefix

mapfile -t files < <(cd "$dist" && find . ! -type d | sed 's|^\./||' | sort)

# Whether an earlier install put this file there, or what is there is the same.
is_ours() { # FILE
    grep -qxF -- "$1" "$place/$list" 2>/dev/null || cmp -s -- "$dist/$1" "$place/$1"
}

in_the_way=0
for file in "${files[@]}"; do
    if [ -e "$place/$file" ] || [ -L "$place/$file" ]; then
        is_ours "$file" || { say "$place/$file is not of an earlier install"; in_the_way=1; }
    fi
done
[ "$in_the_way" -eq 0 ] || { say "nothing is copied: move these files, or choose another prefix"; exit 1; }

# A new file takes the old one's place at once, so that a program that runs keeps the one it has open.
put() { # FILE MODE
    mkdir -p -- "$(dirname -- "$place/$1")"
    if [ -L "$dist/$1" ]; then
        ln -sfn -- "$(readlink -- "$dist/$1")" "$place/$1"
    else
        install -m "$2" -- "$dist/$1" "$place/$1.new"
        mv -fT -- "$place/$1.new" "$place/$1"
    fi
    echo "  $1"
}

# What an earlier install listed and this one does not have: it is ours, and would be taken for a part of this version.
remove_stale() {
    local file
    [ -f "$place/$list" ] || return 0
    while IFS= read -r file; do
        if [ -f "$place/$file" ] || [ -L "$place/$file" ]; then
            rm -f -- "$place/$file"
            echo "  $file, of an earlier install, is removed"
        fi
    done < <(grep -vxF -f <(printf '%s\n' "${files[@]}") -- "$place/$list")
}

umask 022
echo "installing below $place:"
for file in "${files[@]}"; do
    case $file in bin/*) put "$file" 755 ;; *) put "$file" 644 ;; esac
done
remove_stale
mkdir -p -- "$place/$(dirname "$list")"
printf '%s\n' "${files[@]}" >"$place/$list"
echo "  $list, the list of these files"
echo "To use the programs: export PATH=\"$prefix/bin:\$PATH\""
echo "To use the library: export PKG_CONFIG_PATH=\"$prefix/lib/pkgconfig\" CMAKE_PREFIX_PATH=\"$prefix\" LD_LIBRARY_PATH=\"$prefix/lib\""
