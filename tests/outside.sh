#!/bin/sh
# An archive asks the C library for memcpy and memset, as c/mutree.h promises, and for nothing else.
# usage: outside.sh ARCHIVE [NM]
set -eu
listed=$("${2:-nm}" -u "$1")
asked=$(echo "$listed" | sed -n 's/^ *[Uvw] //p' | sort -u)
if [ -z "$asked" ]; then
    echo "outside: no name that $1 asks for was read"
    exit 1
fi
for name in $asked; do
    case $name in
    memcpy | memset) ;;
    *)
        echo "outside: $1 asks for $name; c/mutree.h promises memcpy and memset, nothing else"
        exit 1
        ;;
    esac
done
echo "outside: $1 asks for" $asked
