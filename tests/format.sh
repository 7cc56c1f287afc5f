#!/bin/sh
# Every object in an archive is for one processor: the machine number in its ELF header.
# usage: format.sh ARCHIVE x86_64|aarch64
set -eu
case $2 in
x86_64) wanted=3e00 ;;
aarch64) wanted=b700 ;;
*) exit 64 ;;
esac
# 7f E L F, 64 bits, least byte first; ten bytes further the kind (1, to be linked) and then the machine, two bytes each
found=$(od -An -v -tx1 "$1" | tr -d ' \n' | grep -o '7f454c460201.\{20\}0100....' | sed 's/.*\(....\)$/\1/' | sort -u)
if [ "$found" != $wanted ]; then
    echo "format: $1 has machine '$found', wanted $wanted ($2)"
    exit 1
fi
echo "format: $1 is for $2"
