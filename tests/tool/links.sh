# Symbolic links are followed; a file with more names is refused; owner and mode stay.
fresh
ln -s "$chip" link.img
want 0 "DONE" insert link.img 5 50
[ -h link.img ] || fail "an insert replaced the link by a file"
want 0 "50" lookup "$chip" 5
mkdir far
mv "$chip" far/"$chip"
ln -s far/"$chip" "$chip"
want 0 "DONE" insert link.img 6 60
{ [ -h link.img ] && [ -h "$chip" ]; } || fail "an insert replaced one of two links by a file"
want 0 "60" lookup far/"$chip" 6
rm "$chip" link.img
ln -s far/new.img link.img
want 0 "DONE" format link.img 3
{ [ -h link.img ] && [ -f far/new.img ]; } || fail "format did not follow a link that leads nowhere yet"

fresh
if ln "$chip" hard.img 2> /dev/null; then
    keep "$chip"
    want 66 "2 names" insert "$chip" 5 50
    want 66 "2 names" format "$chip" 3 --force
    want 0 "sound" show "$chip"
    [ "$(ls -i "$chip" | cut -d " " -f 1)" = "$(ls -i hard.img | cut -d " " -f 1)" ] || fail "a change parted a file from its other name"
    same "$chip" "a refused insert"
    rm hard.img
fi
want 0 "DONE" insert "$chip" 5 50

chmod 640 "$chip"
want 0 "DONE" insert "$chip" 6 60
mode=$(ls -l "$chip" | cut -c 1-10)
[ "$mode" = "-rw-r-----" ] || fail "the mode became $mode"
if [ "$(id -u)" -eq 0 ] && chown 12345:12346 "$chip" 2> /dev/null; then
    want 0 "DONE" insert "$chip" 7 70
    has "$(ls -ln "$chip")" " 12345 " || fail "the owner was not kept: $(ls -ln "$chip")"
    has "$(ls -ln "$chip")" " 12346 " || fail "the group was not kept: $(ls -ln "$chip")"
else
    left_out "another owner, this is not root"
fi
(umask 077 && "$tool" format private.img 3 > /dev/null)
mode=$(ls -l private.img | cut -c 1-10)
[ "$mode" = "-rw-------" ] || fail "a new file under umask 077 has mode $mode"
