# A signal in the middle of a change, a full disk: nothing stays behind, and the file is the old one or the new one.
# strike SIGNAL: an insert into a large chip that gets the signal while its new file is written. Sets `status`.
strike() {
    rm -f over number
    (
        while [ ! -e over ]; do
            for name in "$chip".*; do
                if [ -e "$name" ]; then
                    kill -s "$1" "$(cat number)" 2> /dev/null
                    exit
                fi
            done
        done
    ) &
    sh -c 'echo $$ > number; exec "$@"' strike "$tool" insert "$chip" 1 1 > out 2>&1
    status=$?
    : > over
    wait
}

# interrupted SIGNAL NUMBER: strikes until the signal came in time
interrupted() {
    tries=0
    while [ "$tries" -lt 10 ]; do
        strike "$1"
        [ "$status" -eq 0 ] || break
        tries=$((tries + 1))
    done
    if [ "$status" -eq 0 ]; then
        left_out "SIG$1 in the middle of a change: the disk was too fast"
        return
    fi
    [ "$status" -eq $((128 + $2)) ] || fail "SIG$1 in the middle of a change ended with $status: $(cat out)"
    has "$(cat out)" "stopped by a signal" || fail "SIG$1 in the middle of a change printed '$(cat out)'"
    no_leftover "SIG$1"
}

fresh "$chip" 1024
interrupted INT 2
interrupted TERM 15
interrupted HUP 1
want 0 "1024 blocks, small pages, sound" show "$chip"
rm -f "$chip" out over number

# a file that a killed process left beside the chip disturbs nobody
fresh
cp "$chip" "$chip".mutree-abc123
want 0 "DONE" insert "$chip" 1 1
want 0 "1 entry" show "$chip"
[ -e "$chip".mutree-abc123 ] || fail "a file that is not the tool's was removed"
rm "$chip".mutree-abc123

# no room for the new file: 20 blocks of 512 or 1,024 bytes
keep "$chip"
out=$( (ulimit -f 20 && "$tool" insert "$chip" 2 2) 2>&1)
status=$?
[ "$status" -eq 66 ] || fail "an insert without room for the file ended with $status: $out"
has "$out" "left as it was" || fail "an insert without room for the file printed '$out'"
same "$chip" "an insert without room for the file"
no_leftover "an insert without room for the file"
rm "$chip"
out=$( (ulimit -f 20 && "$tool" format "$chip" 3) 2>&1)
status=$?
[ "$status" -eq 66 ] || fail "a format without room for the file ended with $status: $out"
[ ! -e "$chip" ] || fail "a format without room for the file left one of $(wc -c < "$chip") bytes"
no_leftover "a format without room for the file"
