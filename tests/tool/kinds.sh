# What is no regular file is refused, and stays what it is.
mkdir place
want 66 "a directory" lookup place 1
want 66 "a directory" insert place 1 1
want 66 "a directory" format place 3 --force
[ -d place ] || fail "a folder was replaced"
mkfifo pipe
want 66 "a pipe" lookup pipe 1
want 66 "a pipe" insert pipe 1 1
want 66 "a pipe" format pipe 3 --force
[ -p pipe ] || fail "a pipe was replaced"
ln -s pipe link
want 66 "a pipe" format link 3 --force
[ -p pipe ] || fail "a pipe was replaced through a link"
fresh
want 66 "a pipe" show "$chip" --svg pipe
want 66 "nanddump --oob" lookup /dev/null 1
if [ "$(id -u)" -eq 0 ] && mknod device c 1 3 2> /dev/null; then
    want 66 "a device" insert device 1 1
    want 66 "nanddump --oob" format device 3 --force
    [ -c device ] || fail "a device was replaced"
else
    left_out "a device of its own, this is not root"
fi
