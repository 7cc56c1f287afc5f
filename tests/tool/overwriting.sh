# What must not be wiped by mistake: an index by format, any file by a picture, a read-only file by anything.
fresh
want 0 "DONE" insert "$chip" 7 1000
keep "$chip"
# shellcheck disable=SC2086
want 64 "3 blocks, $kind, with 1 entry ($three bytes); --force" format "$chip" 3 $option
want 64 "--force" format "$chip" 4 $option
want 66 "index itself" show "$chip" --svg "$chip"
ln -s "$chip" link.img
want 66 "index itself" show "$chip" --svg link.img
want 66 "index itself" show link.img --svg "$chip"
want 66 "index itself" show "$chip" --svg ./"$chip"
rm link.img
if ln "$chip" hard.img 2> /dev/null; then
    want 66 "index itself" show "$chip" --svg hard.img
    rm hard.img
else
    left_out "hard links, this disk has none"
fi
want 0 "DONE" format other.img 3 $option
want 66 "no picture" show "$chip" --svg other.img
want 0 "sound" show other.img
same "$chip" "a refused command"
want 0 "DONE" format "$chip" 3 $option --force
want 4 "ABSENT" lookup "$chip" 7

head -c "$three" /dev/zero > damaged.img
want 64 "damaged" format damaged.img 3 $option
want 64 "$three bytes" format damaged.img 3 $option
echo "a letter" > letter.txt
keep letter.txt
want 64 "no index (9 bytes)" format letter.txt 3 $option
same letter.txt "a refused format"
filled erased.img "$three" 377
want 0 "DONE" format erased.img 3 $option
: > empty.img
want 0 "DONE" format empty.img 3 $option

want 66 "cannot make" show "$chip" --svg none/chip.svg
want 0 "sound" show "$chip" --svg chip.svg
want 0 "sound" show "$chip" --svg chip.svg
grep -q "</svg>" chip.svg || fail "no whole SVG"

fresh
chmod 444 "$chip"
keep "$chip"
want 66 "read-only" insert "$chip" 1 1
want 66 "read-only" format "$chip" 3 $option --force
want 0 "sound" show "$chip"
same "$chip" "a command on a read-only file"
chmod 644 "$chip"
