#!/bin/sh
# Installs the library for C and the commands of this folder. What is installed needs nothing of this folder.
#
#   ./install.sh PREFIX       to PREFIX/bin, PREFIX/include, PREFIX/lib and PREFIX/share; DESTDIR is prepended
set -eu
umask 022
new=
trap '[ -z "$new" ] || rm -f "$new"' EXIT
stop() {
    echo "install.sh: $1; the usage is ./install.sh PREFIX" >&2
    exit 2
}
# place FILE: puts a file of this folder below the prefix in one step, so that programs that use an earlier one keep it, and a link there
# is replaced.
place() {
    at=$to/$1
    new=${at%/*}/.${at##*/}.new
    mode=644
    [ ! -x "$from/$1" ] || mode=755
    mkdir -p "${at%/*}"
    rm -f "$new"
    cp -P "$from/$1" "$new"
    [ -L "$new" ] || chmod "$mode" "$new"
    mv -fT "$new" "$at"
}
[ $# -eq 1 ] || stop 'it takes one argument'
case $1 in
    -h | --help) sed -n '2,4s/^# \{0,1\}//p' "$0"; exit ;;
    /*) ;;
    *) stop "$1 is not an absolute path" ;;
esac
from=$(CDPATH= cd -- "$(dirname -- "$0")" && pwd)
to=${DESTDIR:-}$1
# the libraries before the programs, and each before the links to it
for folder in lib include share bin; do
    files=$(cd "$from" && find "$folder" ! -type d)
    while IFS= read -r file; do
        place "$file"
    done <<FILES
$(printf '%s\n' "$files" | LC_ALL=C sort -r)
FILES
done
echo "installed below $to; the loader finds the shared library after ldconfig, or by LD_LIBRARY_PATH=$1/lib"
