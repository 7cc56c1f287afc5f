#!/bin/sh
# Request 12's program: the stored log, what stops a run and what does not, each way in which a line has no form, and the limit of
# 1,000,000 lines, a full output.
# usage: run.sh PROGRAM, which may be a script that hands it to an emulator
set -eu
name=compare
cd "$(dirname "$0")/../.."
. tests/replay/wanting.sh

"$program" < crates/compare/stdin > "$folder/out"
cmp "$folder/out" crates/compare/stdout || bad=1

want "no input" '' '0\t0\t0\t0\t0\n'
want "before any F" 'L\t1\nI\t1\t2\nD\t1\nS\t1\t2\t3\n' '0\t0\t0\t0\t0\n'
want "F alone" 'F\nF\nF\n' '0\t0\t0\t0\t0\n'
want "L alone" 'F\nL\t1\nL\t4294967295\n' '0\t0\t0\t0\t0\n'
want "updates, an absent key and a lookup" 'F\nI\t4294967295\t4294967295\nS\t0\t0\t1\nD\t9\nL\t0\nD\t0\n' '3\t3\t3\t1\t1\n'
want "what was counted before an F" 'F\nI\t1\t1\nF\nI\t1\t1\n' '2\t2\t2\t1\t1\n'
want "a 7 stops and is not counted" 'F\nI\t1\t1\nS\t2\t2\t0\nI\t3\t3\n' '1\t1\t1\t1\t1\n'
want "nothing is read after a stop" 'F\nS\t2\t2\t0\nX\nF' '0\t0\t0\t0\t0\n'

# The 64th key splits the root of the one tree and takes two pages, and so does the 65th; the plain tree's root splits at its 65th and takes three.
rising() { awk -v n="$1" 'BEGIN { print "F"; for (k = 1; k <= n; k++) printf "I\\t%d\\t%d\n", k, k }' | awk '{ printf "%s\\n", $0 }'; }
want "64 rising keys" "$(rising 64)" '64\t65\t64\t65\t64\n'
want "65 rising keys" "$(rising 65)" '65\t67\t67\t1\t1\n'
want "rising keys until the plain tree has no room" "$(rising 90)" '79\t81\t95\t81\t95\n'
want "a page of the allowance too few for the plain tree alone" "$(rising 65)S\t66\t66\t1\nI\t1\t1\n" '65\t67\t67\t1\t1\n'

# each is line 2: one too large, leading zeros, no number, a field too few and too many, other letters, CR, an empty line, blanks
while IFS= read -r line; do
    want "a line '$line'" "F\n$line\nF\n" 'E\t2\n'
done < tests/replay/broken
want "a last piece without byte 10" 'F\nF' 'E\t2\n'
want "one byte" 'F' 'E\t1\n'

# 1,000,000 lines end with the report, and line 1,000,001 is E whatever it holds.
awk 'BEGIN { print "F"; print "I\t1\t1"; for (i = 2; i < 1000000; i++) print "L\t1" }' > "$folder/lines"
"$program" < "$folder/lines" > "$folder/out"
[ "$(tr '\t' ' ' < "$folder/out")" = "1 1 1 1 1" ] || { echo "compare: 1,000,000 lines do not end with the report"; bad=1; }
echo F >> "$folder/lines"
"$program" < "$folder/lines" > "$folder/out"
[ "$(tr '\t' ' ' < "$folder/out")" = "E 1000001" ] || { echo "compare: line 1,000,001 is not E"; bad=1; }
fails_when_full crates/compare/stdin

[ $bad -eq 0 ] && echo "compare: the stored log, what stops a run, lines without a form and the limit are as the request says"
exit $bad
