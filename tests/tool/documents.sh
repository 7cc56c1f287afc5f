# README shows what the tool prints, the plots of docs/BENCHMARKS.md fit its figures, and docs/ARCHITECTURE.md fits the repository.
sh "$root/c/day.sh" "$tool" > day 2>&1 || fail "the short day ended with $?"

# in_order FIRST PRINTED: README's indented lines from FIRST on, without their indentation, are lines of a file, in this order; '..'
# stands for lines left out
in_order() {
    sed -n "/^    $1\$/,/^[^ ]/p" "$root/README.md" | sed -n 's/^    //p' > shown
    [ "$(wc -l < shown)" -gt 10 ] || fail "README does not show '$1'"
    exec 3< "$2"
    while IFS= read -r line; do
        [ "$line" = ".." ] && continue
        found=0
        while [ "$found" -eq 0 ] && IFS= read -r printed <&3; do
            [ "$printed" != "$line" ] || found=1
        done
        [ "$found" -eq 1 ] || { fail "README shows '$line', which is not printed there"; break; }
    done < shown
    exec 3<&-
}

in_order 'A chip of three blocks is formatted\.' day

# the day's index, with one bit of its root flipped: what check says of it, and how patrol mends it
fresh
key=1
while [ "$key" -le 64 ]; do
    echo "insert $key $((1000 + key))"
    key=$((key + 1))
done | "$tool" apply "$chip" > /dev/null
flip $((65 * page + main / 2 + 4)) 2
{
    echo "\$ mutree check $chip"
    "$tool" check "$chip"
    echo "\$ mutree patrol $chip --mend"
    "$tool" patrol "$chip" --mend
} > checked
in_order '\$ mutree check chip.img' checked

# A point's height: 54 for each power of ten, from 0.1 microseconds at 400. The figures have one decimal.
if have awk; then
    awk '
    function height(v) { return 400 - 54 * (log(v < 0.1 ? 0.1 : v) / log(10) + 1) }
    FNR == NR && /^\| .* \([0-9.]*\) \|/ {
        split($0, part, "|")
        for (i = 3; i <= 5; i++) { split(part[i], word, " "); figure[row + 0, i - 2] = word[1] }
        row++
    }
    FNR != NR && /<polyline/ {
        sub(/.*points=./, "")
        split($0, point, " ")
        for (i = 1; i <= 3; i++) {
            split(point[i], place, ",")
            v = figure[line + 0, i]
            if (place[2] > height(v - 0.06) + 0.1 || place[2] < height(v + 0.06) - 0.1) {
                print "tool: docs/bench.svg: " v " microseconds stand at " place[2] ", not at " height(v)
                wrong = 1
            }
        }
        line++
    }
    END { if (row == 0 || row != line) { print "tool: docs/bench.svg has " line " lines for " row " figures"; wrong = 1 } exit wrong }
    ' "$root/docs/BENCHMARKS.md" "$root/docs/bench.svg" || bad=1

    # The plot of calls with and without a record, where it is there: each line has its name before it, once for each chip.
    if [ -f "$root/docs/bench-opened.svg" ]; then
        awk '
        function height(v) { return 400 - 54 * (log(v < 0.1 ? 0.1 : v) / log(10) + 1) }
        FNR == NR && /^\| (small|large) pages: microseconds a call/ { chip++ }
        FNR == NR && /^\| .* \([0-9.]*\) \|/ {
            split($0, part, "|")
            for (i = 3; i <= 5; i++) { split(part[i], word, " "); figure[chip, part[2], i - 2] = word[1] }
        }
        FNR != NR && /<polyline/ {
            name = $0
            sub(/^<!-- /, " ", name)
            sub(/ -->.*/, " ", name)
            sub(/.*points=./, "")
            split($0, point, " ")
            met[name]++
            for (i = 1; i <= 3; i++) {
                split(point[i], place, ",")
                v = figure[met[name], name, i]
                if (v == "" || place[2] > height(v - 0.06) + 0.1 || place[2] < height(v + 0.06) - 0.1) {
                    print "tool: docs/bench-opened.svg:" name "at " place[2] ", in docs/BENCHMARKS.md " v " microseconds"
                    wrong = 1
                }
            }
            lines++
        }
        END { if (lines < 10) { print "tool: docs/bench-opened.svg has " lines + 0 " lines"; wrong = 1 } exit wrong }
        ' "$root/docs/BENCHMARKS.md" "$root/docs/bench-opened.svg" || bad=1
    fi

    # The times of docs/USING.md are those of docs/BENCHMARKS.md: each row has the three figures of the small chip and then the large one's.
    awk '
    FNR == NR && /^\| .* \([0-9.]*\) \|/ {
        split($0, part, "|")
        for (i = 3; i <= 5; i++) { split(part[i], word, " "); times[part[2]] = times[part[2]] " " word[1] }
    }
    FNR != NR && /^\| microseconds a call/ { inside = 1 }
    FNR != NR && inside && /^\| .* [0-9.]+ \|$/ {
        split($0, part, "|")
        row = ""
        for (i = 3; i <= 8; i++) { split(part[i], word, " "); row = row " " word[1] }
        if (row != times[part[2]]) { print "tool: docs/USING.md: " part[2] ":" row ", in docs/BENCHMARKS.md:" times[part[2]]; wrong = 1 }
        rows++
    }
    FNR != NR && inside && !/^\|/ { inside = 0 }
    END { if (rows < 6) { print "tool: docs/USING.md has " rows + 0 " rows of times"; wrong = 1 } exit wrong }
    ' "$root/docs/BENCHMARKS.md" "$root/docs/USING.md" || bad=1

    # The map names what is there, and its check can fail.
    sh "$root/tests/architecture.sh" || bad=1
else
    left_out "the plot, the times of docs/USING.md and docs/ARCHITECTURE.md, there is no awk here"
fi
