#!/bin/sh
# Request 3's program: the request's example, the stored longer log, each way in which a line has no form, and the limit of
# 1,000,000 lines, a full output.
# usage: run.sh PROGRAM, which may be a script that hands it to an emulator
set -eu
name=replay
cd "$(dirname "$0")/../.."
. tests/replay/wanting.sh

for crate in replay bench_log; do
    "$program" < crates/$crate/stdin > "$folder/out"
    cmp "$folder/out" crates/$crate/stdout || bad=1
done

want "no input" '' 'T\t0\t0\t0\n'
want "before any F" 'L\t1\nI\t1\t2\nD\t1\nS\t1\t2\t3\n' 'L\t2\t0\t0\t0\nI\t2\t0\t0\t0\nD\t2\t0\t0\t0\nS\t2\t0\t0\t0\nT\t4\t0\t0\n'
want "the largest numbers" 'F\nI\t4294967295\t4294967295\nL\t4294967295\nS\t0\t0\t0\n' 'F\t0\t0\t1\t3\nI\t0\t0\t1\t0\nL\t0\t4294967295\t0\t0\nS\t7\t0\t0\t0\nT\t4\t2\t3\n'
# each is line 2: one too large, leading zeros, no number, a field too few and too many, other letters, CR, an empty line, blanks
while IFS= read -r line; do
    want "a line '$line'" "F\n$line\nF\n" 'F\t0\t0\t1\t3\nE\t2\n'
done < tests/replay/broken
want "a last piece without byte 10" 'F\nF' 'F\t0\t0\t1\t3\nE\t2\n'
want "one byte" 'F' 'E\t1\n'

# 1,000,000 lines end with T, and line 1,000,001 is E whatever it holds.
awk 'BEGIN { for (i = 0; i < 1000000; i++) print "L\t1" }' > "$folder/lines"
"$program" < "$folder/lines" > "$folder/out"
[ "$(tail -n 1 "$folder/out" | tr '\t' ' ')" = "T 1000000 0 0" ] && [ "$(wc -l < "$folder/out")" -eq 1000001 ] || { echo "replay: 1,000,000 lines do not end with T"; bad=1; }
echo F >> "$folder/lines"
"$program" < "$folder/lines" > "$folder/out"
[ "$(tail -n 1 "$folder/out" | tr '\t' ' ')" = "E 1000001" ] && [ "$(wc -l < "$folder/out")" -eq 1000001 ] || { echo "replay: line 1,000,001 is not E"; bad=1; }
fails_when_full crates/replay/stdin

[ $bad -eq 0 ] && echo "replay: the example, the stored log, lines without a form and the limit are as the request says"
exit $bad
