# Help and version on standard output; the order of lines; output that can't be written.
for word in help --help -h; do
    out=$("$tool" "$word" 2> err)
    status=$?
    { [ "$status" -eq 0 ] && [ ! -s err ]; } || fail "'mutree $word' ended with $status, on standard error: $(cat err)"
    has "$out" "mutree apply FILE" || fail "'mutree $word' does not tell of apply"
    has "$out" "Exit status: 0 DONE" || fail "'mutree $word' does not tell the exit statuses"
done
want 0 "Exit status" insert --help
version=$(sed -n 's/^#define MUTREE_VERSION "\(.*\)"$/\1/p' "$root/c/mutree.h")
out=$("$tool" --version 2> /dev/null)
[ "$out" = "mutree $version" ] || fail "--version printed '$out'"

# the line on standard output comes before the one on standard error
fresh
out=$("$tool" insert "$chip" 1 1 --allow 0 2>&1 | head -n 1)
[ "$out" = "STOPPED: 0 programmed, 0 erased" ] || fail "in a pipe the first line of STOPPED is '$out'"

if [ -c /dev/full ]; then
    for words in help --version "show $chip" "check $chip" "page $chip 0" "lookup $chip 1" "cut $chip 2 2"; do
        "$tool" insert "$chip" 1 1 > /dev/null
        "$tool" $words > /dev/full 2> err
        status=$?
        { [ "$status" -eq 74 ] && has "$(cat err)" "cannot print"; } \
            || fail "'mutree $words' on a full device ended with $status: $(cat err)"
    done
    "$tool" insert "$chip" 2 20 > /dev/full 2> err
    status=$?
    { [ "$status" -eq 74 ] && has "$(cat err)" "the change to the file is made"; } \
        || fail "an insert whose report can't be printed ended with $status: $(cat err)"
    want 0 "20" lookup "$chip" 2
else
    left_out "a full device, there is no /dev/full here"
fi

# a pipe whose reader is gone: the reader leaves a mark when it ends
rm -f gone
{
    while [ ! -e gone ]; do :; done
    sleep 1
    "$tool" show "$chip" 2> err
    echo $? > status
} | { exec < /dev/null; : > gone; }
while [ ! -s status ]; do :; done
{ [ "$(cat status)" -eq 74 ] && has "$(cat err)" "cannot print"; } \
    || fail "show into a closed pipe ended with $(cat status): $(cat err)"

# closed streams: what is printed must not land in the file
"$tool" insert "$chip" 3 30 >&- 2> err
status=$?
[ "$status" -eq 74 ] || fail "an insert without standard output ended with $status: $(cat err)"
"$tool" insert "$chip" 9 9 --allow 0 >&- 2> err
"$tool" delete "$chip" 77 2>&-
"$tool" insert "$chip" 4 40 <&- > /dev/null
want 0 "4 entries" show "$chip"
