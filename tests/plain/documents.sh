#!/bin/sh
# docs/pages.txt is what docs/BENCHMARKS.md tells and what the pictures draw: its table stands there, each point of docs/pages.svg is at the
# height of its mean, and the small picture's figures are the table's.
# usage: documents.sh [FOLDER]        the documents' folder
set -u
cd "${1:-$(dirname "$0")/../../docs}" || exit 1
wrong=0

[ "$(grep -c '^|' pages.txt)" -eq 5 ] || { echo "pages: pages.txt has no table of three logs"; wrong=1; }
if grep '^|' pages.txt | grep -vxFf BENCHMARKS.md; then
    echo "pages: these lines of pages.txt do not stand in BENCHMARKS.md"
    wrong=1
fi

# A line of the table: log, tree, blocks, updates, height, pages, pages moved, blocks erased. A point: 60 a page, from 0 pages at 370.
awk '
FNR == NR && /^[a-z]/ { pages[$1 " " $2 " " $3, $4] = $6 + $7; rows[$1 " " $2 " " $3]++ }
FNR != NR && /<polyline/ {
    name = $0
    sub(/^<!-- /, "", name)
    sub(/ -->.*/, "", name)
    sub(/.*points=./, "")
    sub(/.\/>.*/, "")
    n = split($0, point, " ")
    if (n < 10 || n != rows[name]) { print "pages: pages.svg: " name " has " n " points, pages.txt " rows[name] + 0 " lines"; wrong = 1 }
    for (i = 1; i <= n; i++) {
        split(point[i], place, ",")
        mean = (pages[name, 250 * i] - pages[name, 250 * (i - 1)]) / 250
        if (place[2] - (370 - 60 * mean) > 0.06 || (370 - 60 * mean) - place[2] > 0.06) {
            print "pages: pages.svg: " name ", " 250 * i " updates at " place[2] ", not at " 370 - 60 * mean
            wrong = 1
        }
    }
    lines++
}
END { if (lines != 9) { print "pages: pages.svg has " lines + 0 " lines, not nine"; wrong = 1 } exit wrong }
' pages.txt pages.svg || wrong=1

# The figures above the bars, in the order of the table.
told=$(sed -n 's/^| [a-z]* | [0-9]* | [0-9], \([0-9.]*\) | [0-9], \([0-9.]*\) .*/\1 \2/p' pages.txt | awk '{ printf "%.2f %.2f ", $1, $2 }')
drawn=$(sed -n "s/^<rect .*text-anchor='middle'>\([0-9.]*\)<.*/\1/p" pages-small.svg | tr '\n' ' ')
[ "$told" = "$drawn" ] || { echo "pages: pages-small.svg has $drawn, pages.txt $told"; wrong=1; }

[ "$wrong" -ne 0 ] || echo "pages: table, text and pictures are alike"
exit $wrong
