#!/bin/sh
# The tool on a device: `mutree --mtd`. The kernel's calls are those of stand_in.c, since no machine here has a NAND chip and nandsim can't be
# loaded.
# usage: run.sh TOOL PLAIN        TOOL has the stand-in in it; PLAIN is the tool itself, for the dumps
set -u
tool=$(cd "$(dirname "$1")" && pwd)/$(basename "$1")
plain=$(cd "$(dirname "$2")" && pwd)/$(basename "$2")
folder=$(mktemp -d) || exit 1
trap 'rm -rf "$folder"' EXIT
cd "$folder" || exit 1
bad=0

fail() {
    printf 'mtd: %s' "$*" | tr '\n' ' ' | cut -c 1-300
    bad=1
}

# want STATUS TEXT WORDS..: the tool's exit status on the device, and a text in what it prints
want() {
    status=$1 text=$2
    shift 2
    out=$("$tool" --mtd mtd0 "$@" 2>&1)
    got=$?
    [ "$got" -eq "$status" ] || fail "'mutree --mtd $*' ended with $got, wanted $status: $out"
    case $out in
    *"$text"*) ;;
    *) fail "'mutree --mtd $*' printed '$out', wanted '$text'" ;;
    esac
}

# with NAME VALUE STATUS TEXT WORDS..: the same where the environment says so
with() {
    export "$1=$2"
    name=$1
    shift 2
    want "$@"
    unset "$name"
}

# holds STATUS TEXT KEY: what a lookup gives, on the device and on a dump of it
holds() {
    want "$1" "$2" lookup "$3"
    want 0 "bytes of a chip" dump chip.img --force
    out=$("$plain" lookup chip.img "$3" 2>&1)
    [ $? -eq "$1" ] || fail "a lookup of $3 in the dump gave '$out', wanted status $1"
    case $out in *"$2"*) ;; *) fail "a lookup of $3 in the dump gave '$out', wanted '$2'" ;; esac
    cmp -s chip.img mtd0 || fail "the dump is not what the device has"
}

# erased BLOCKS: a device of so many erased blocks
erased() {
    head -c $(($1 * block)) /dev/zero | tr '\0' '\377' > mtd0
}

# stores: the stores traced, on one line
stores() {
    grep -v mode trace | tr '\n' ';'
}

# full: a device whose next key, $next, takes an erase and two pages or so; its keys are inserted in a file and copied to the device
full() {
    "$plain" format full.img 3 "$said" --force > /dev/null
    key=1
    while [ "$key" -lt "$next" ]; do
        echo "insert $key $((1000 + key))"
        key=$((key + 1))
    done | "$plain" apply full.img > /dev/null
    while "$plain" cut full.img "$next" 77 | tail -n 1 | grep -q ' 0 erased'; do "$plain" insert full.img 1 1001 > /dev/null; done
    cp full.img mtd0
}

whole_chip() {
    erased 3
    MTD_TRACE=trace
    export MTD_TRACE
    rm -f trace
    want 0 "DONE: 1 programmed, 3 erased" format
    [ "$(stores)" = "erase 0;erase 1;erase 2;program 0;" ] || fail "format made $(stores)"
    [ "$(head -n 1 trace)" = "mode 3" ] || fail "the device was not set to raw: $(head -n 1 trace)"
    rm -f trace
    want 64 "holds an index; --force wipes it" format
    want 4 ABSENT lookup 7
    want 4 ABSENT delete 7
    [ "$(stores)" = "" ] || fail "refused commands made $(stores)"
    want 0 "DONE: 1 programmed, 0 erased" insert 7 1000
    [ "$(stores)" = "program 1;" ] || fail "one insert made $(stores)"
    holds 0 1000 7
    want 0 "DONE: 1 programmed, 0 erased" delete 7
    holds 4 ABSENT 7
    want 0 "DONE: 1 programmed, 3 erased" format --force
    unset MTD_TRACE
}

# An update of several stores: their order is that of the cuts, and power lost before each leaves the old map.
cuts() {
    full
    rm -f trace
    with MTD_TRACE trace 0 "DONE" insert "$next" 77
    made=$(grep -vc mode trace)
    [ "$made" -ge 3 ] || fail "the insert made $made stores, wanted 3 at least"
    holds 0 77 "$next"
    order=$(stores)
    lost=0
    while [ "$lost" -lt "$made" ]; do
        cp full.img mtd0
        with MTD_POWER "$lost" 99 "" insert "$next" 77
        "$plain" insert full.img "$next" 77 --allow "$lost" > /dev/null 2>&1 && fail "the insert was not STOPPED"
        cmp -s full.img mtd0 || fail "after $lost stores the device is not what the library leaves"
        holds 4 ABSENT "$next"
        holds 0 1001 1
        rm -f trace
        full
        lost=$((lost + 1))
    done
    rm -f trace
    with MTD_TRACE trace 0 "DONE" insert "$next" 77
    [ "$(stores)" = "$order" ] || fail "the same insert made other stores: $(stores)"
}

failures() {
    full
    with MTD_FAULT 0 66 "Input/output error" insert "$next" 77
    cmp -s full.img mtd0 || fail "a failed first store changed the device"
    with MTD_FAULT 1 66 "before that" insert "$next" 77
    holds 4 ABSENT "$next"
    want 0 DONE insert "$next" 77
    holds 0 77 "$next"
    with MTD_UNREAD 5 66 "cannot read page 5: Input/output error" lookup 1
    with MTD_UNREAD 5 66 "cannot read page 5" insert 1 1
    with MTD_BAD 2 66 "block 2 is marked bad" lookup 1
    with MTD_BAD 2 66 "block 2 is marked bad" format --force
    with MTD_NO_MARKS 1 0 1001 lookup 1
    with MTD_TYPE 3 66 "no NAND chip" lookup 1
    with MTD_TYPE 8 66 "no NAND chip" lookup 1
    with MTD_OOB 128 66 "and 128 bytes" lookup 1
    erased 2
    want 1 "has 2 blocks" lookup 1
    : > mtd0
    want 66 "no MTD device" lookup 1
    rm mtd0
    want 66 "cannot open" lookup 1
}

# One flipped bit of the chip: refused, and taken with --mend; two of a half are refused with it too.
flips() {
    full
    at=$((page + 9))
    byte=$(od -An -tu1 -j "$at" -N 1 mtd0)
    # shellcheck disable=SC2059
    printf "\\$(printf %o $((byte < 128 ? byte + 128 : byte - 128)))" | dd of=mtd0 bs=1 seek="$at" conv=notrunc 2> /dev/null
    want 2 "dump FILE" lookup 1
    want 2 "DAMAGED: R1 is broken on page 1" insert 1 1
    want 0 1001 lookup 1 --mend
    want 0 "1 halves with a flipped bit, mended in memory" lookup 1 --mend
    want 0 "DONE" insert 1 5 --mend
    want 0 5 lookup 1 --mend
}

words() {
    want 64 "needs a device and a command"
    want 64 "there is no command 'show' on a device" show
    want 64 "usage: mutree --mtd DEVICE insert" insert 1
    want 64 "is no number" insert x 1
    want 64 "there is no option '--allow' here" insert 1 1 --allow 3
    full
    echo other > chip.img
    want 64 "--force replaces it" dump chip.img
    want 0 "bytes of a chip with $kind" dump chip.img --force
    head -c $((3 * block)) /dev/zero > mtd0
    want 64 "other bytes, or a damaged index; --force wipes it" format
    want 2 "DAMAGED" insert 1 1
}

for number in 0 1; do
    case $number in
    0) block=16896 page=528 next=64 kind="small pages" said=--small ;;
    1) block=135168 page=2112 next=256 kind="large pages" said=--large ;;
    esac
    MTD_CHIP=$number
    export MTD_CHIP
    whole_chip
    cuts
    failures
    flips
    words
done
[ "$bad" -eq 0 ] && echo "mtd: the calls are as MTD asks, over a stand-in for the kernel; stores come in order on both chips"
exit "$bad"
