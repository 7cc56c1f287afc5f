# Many commands, one change of the file.
# lines TEXT..: writes a line for each word to the file `commands`
lines() {
    for line in "$@"; do
        echo "$line"
    done > commands
}

# applied STATUS TEXT: applies the file `commands`
applied() {
    out=$(limited apply "$chip" < commands 2>&1)
    got=$?
    [ "$got" -eq "$1" ] || fail "apply of '$(head -c 200 commands)' ended with $got, wanted $1: $out"
    has "$out" "$2" || fail "apply of '$(head -c 200 commands)' printed '$out', wanted '$2'"
}

# the same bytes as one command after another
fresh
fresh single.img
key=1
: > commands
while [ "$key" -le 70 ]; do
    echo "insert $key $((1000 + key))" >> commands
    "$tool" insert single.img "$key" $((1000 + key)) > /dev/null
    key=$((key + 1))
done
echo "delete 5" >> commands
"$tool" delete single.img 5 > /dev/null
applied 0 "DONE: 70 inserted, 1 deleted, 0 looked up"
cmp -s "$chip" single.img || fail "apply left other bytes than the same commands one by one"

lines "# frames of today" "" "insert 7 70" "	lookup  7" "lookup 8"
applied 0 "8 1008"
has "$out" "7 70" || fail "apply's lookup does not see the line before it: $out"
printf 'insert 90 1\r\nlookup 90\r\n' > commands
applied 0 "90 1"

# all or nothing
keep "$chip"
lines "insert 200 1" "insrt 201 1"
applied 64 "line 2: there is no command 'insrt' here, the nearest is 'insert'; nothing was changed"
lines "insert 200 1" "insert 201"
applied 64 "line 2: it should read 'insert KEY ADDRESS'"
lines "insert 200 1" "lookup 1 2"
applied 64 "line 2"
lines "insert 200 1" "insert 201 1 1 1 1 1"
applied 64 "line 2"
lines "insert 200 1" "insert 0201 1"
applied 64 "leading zero"
lines "insert 200 1" "insert 4294967296 1"
applied 64 "is no number"
lines "insert 200 1" "delete 5"
applied 4 "line 2: delete 5: ABSENT"
lines "insert 200 1" "lookup 5"
applied 4 "line 2: lookup 5: ABSENT"
printf 'insert 200 1\ninsert 201 10' > commands
applied 64 "line 2 does not end"
printf 'insert 200 1\ninsert 201\0 10\n' > commands
applied 64 "line 2 holds a byte 0"
printf 'insert 200\r1\n' > commands
applied 64 "line 1"
: > commands
applied 64 "no command"
lines "lookup 7"
applied 0 "7 70"
same "$chip" "an apply that was refused, or that only looks up,"
lines "insert 1 1"
out=$(limited apply none.img < commands 2>&1)
[ $? -eq 66 ] || fail "apply to a file that is not there: $out"

# over a second on a terminal: a line says how far it is
fresh "$chip" "$many"
key=1
while [ "$key" -le 600 ]; do
    echo "insert $key $key"
    key=$((key + 1))
done > commands
cat > command.sh <<END
"$tool" apply "$chip" < commands
END
if have script && script -qec true /dev/null > /dev/null 2>&1; then
    began=$(date +%s)
    script -qec "sh command.sh" /dev/null > typed < /dev/null
    if [ $(($(date +%s) - began)) -lt 3 ]; then
        left_out "progress on a terminal, this machine is too fast for it"
    else
        has "$(cat typed)" "of 600" || fail "no progress on a terminal: $(head -c 300 typed)"
    fi
    has "$(cat typed)" "DONE: 600 inserted" || fail "apply on a terminal: $(head -c 300 typed)"
else
    left_out "progress on a terminal, there is no script here"
    sh command.sh > /dev/null
fi
want 0 "600 entries" show "$chip"
