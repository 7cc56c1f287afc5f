# Two writers at once, and a writer that finds the file locked.
insert_from() {
    key=$1
    while [ "$key" -le "$2" ]; do
        "$tool" insert "$chip" "$key" "$key" > /dev/null || echo "key $key: $?" >> refused
        key=$((key + 1))
    done
}

fresh
insert_from 1 100 &
insert_from 101 200 &
wait
[ ! -e refused ] || fail "two writers at once: $(head -n 1 refused)"
want 0 "200 entries" show "$chip"
no_leftover "two writers"

# held COMMAND: takes the lock, runs the command a second later and lets go; returns once the lock is taken
held() {
    rm -f taken released
    (
        flock 9
        : > taken
        sleep 1
        eval "$1"
        : > released
    ) 9<> "$chip" &
    while [ ! -e taken ]; do :; done
}

if have flock; then
    fresh
    held :
    want 75 "changed by another process" insert "$chip" 1 1 --no-wait
    want 75 "changed by another process" delete "$chip" 1 --no-wait
    want 75 "changed by another process" format "$chip" 3 --force --no-wait
    out=$(echo "insert 1 1" | "$tool" apply "$chip" --no-wait 2>&1)
    [ $? -eq 75 ] || fail "apply --no-wait on a locked file: $out"
    want 0 "sound" show "$chip"
    want 0 "DONE" insert "$chip" 1 1
    [ -e released ] || fail "an insert did not wait for another writer"
    wait
    want 0 "DONE" insert "$chip" 2 2 --no-wait
    want 0 "2 entries" show "$chip"

    # the file that the lock is on is replaced meanwhile: the insert goes to the new one
    fresh
    fresh other.img
    want 0 "DONE" insert other.img 3 3
    held 'mv other.img "$chip"'
    want 0 "DONE" insert "$chip" 4 4
    wait
    want 0 "2 entries" show "$chip"
else
    left_out "a lock held by another program, there is no flock here"
fi
