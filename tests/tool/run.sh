#!/bin/sh
# The command-line tool as a user meets it, mistakes included: what it prints, its exit status, and what it leaves in files.
# usage: run.sh TOOL CODES        CODES is the program of codes.c
# Needs a POSIX shell and the usual small programs. What a machine has not is told in a line and left out.
set -u
here=$(cd "$(dirname "$0")" && pwd)
root=$(cd "$here/../.." && pwd)
tool=$(cd "$(dirname "$1")" && pwd)/$(basename "$1")
codes=$(cd "$(dirname "$2")" && pwd)/$(basename "$2")
folder=$(mktemp -d) || exit 1
trap 'rm -rf "$folder"' EXIT
trap 'exit 1' INT TERM HUP
cd "$folder" || exit 1
chip=chip.img
bad=0

# fail TEXT: one line, however long the text is
fail() {
    printf 'tool: %s' "$*" | tr '\n' ' ' | cut -c 1-300
    bad=1
}

left_out() {
    echo "tool: left out: $*"
}

have() {
    command -v "$1" > /dev/null 2>&1
}

# limited WORDS..: runs the tool, at most 30 seconds
limited() {
    if have timeout; then
        timeout 30 "$tool" "$@"
    else
        "$tool" "$@"
    fi
}

# has TEXT PART: whether the text holds the part
has() {
    case $1 in
    *"$2"*) return 0 ;;
    esac
    return 1
}

# want STATUS TEXT WORDS..: the tool's exit status, and a text in what it prints
want() {
    status=$1
    text=$2
    shift 2
    out=$(limited "$@" 2>&1)
    got=$?
    [ "$got" -eq "$status" ] || fail "'mutree $*' ended with $got, wanted $status: $out"
    has "$out" "$text" || fail "'mutree $*' printed '$out', wanted '$text'"
}

# use_chip small|large: the chip of the parts that follow: its option for format, the bytes of a block, of three blocks and of
# a page, a page's main bytes, the pages of a block, the greatest height, the halves of a page and the first spare byte of their
# codes, and so many blocks that a change of them takes a while
use_chip() {
    case $1 in
    small) option='' block=16896 page=528 main=512 row=32 top=5 halves=2 first_code=10 many=1024 ;;
    large) option=--large block=135168 page=2112 main=2048 row=64 top=7 halves=8 first_code=12 many=128 ;;
    esac
    kind="$1 pages" said=--$1
    three=$((3 * block))
}

# fresh [FILE] [BLOCKS]: a formatted chip
fresh() {
    rm -f "${1:-$chip}"
    # shellcheck disable=SC2086
    "$tool" format "${1:-$chip}" "${2:-3}" $option > /dev/null || fail "format ${1:-$chip} ${2:-3} $option"
}

# filled FILE COUNT BYTE: a file of so many bytes, all of this octal value
filled() {
    head -c "$2" /dev/zero | tr '\0' "\\$3" > "$1"
}

# fit: gives the chip's programmed pages fitting codes, after byte edits
fit() {
    "$codes" fit "${said#--}" "$chip" || fail "codes fit $said $chip"
}

# flip BYTE BIT..: turns bits of the chip over, numbered from a byte on
flip() {
    "$codes" flip "$chip" "$@" || fail "codes flip $chip $*"
}

# poke AT BYTE..: bytes of the chip, from a place on
poke() {
    from=$1
    shift
    for byte in "$@"; do
        # shellcheck disable=SC2059
        printf "\\$(printf %o "$byte")"
    done | dd of="$chip" bs=1 seek="$from" conv=notrunc 2> /dev/null
}

# keep FILE and same FILE WHAT: that a file did not change in between
keep() {
    cp "$1" "$1".kept
}

same() {
    cmp -s "$1" "$1".kept || fail "$2 changed $1"
    rm -f "$1".kept
}

# no_leftover WHAT: that nothing stands beside the chip
no_leftover() {
    for name in "$chip".*; do
        [ ! -e "$name" ] || fail "$1 left $name behind"
        rm -f "$name"
    done
}

parts() {
    for part in "$@"; do
        . "$here/$part.sh"
        rm -rf "$folder"/*
    done
}

for chip_name in small large; do
    use_chip "$chip_name"
    parts words overwriting lengths apply list carry pictures damage patrol
done
use_chip small
parts chips links kinds writers interrupts printing documents
[ "$bad" -eq 0 ] && echo "tool: all as it should be"
exit "$bad"
