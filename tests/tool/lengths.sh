# Files that are no index by their length: told rightly, not read, with a hint where the spare bytes are missing.
printf 'x' > short.img
want 1 "LENGTH: short.img has 1 bytes" show short.img "$said"
want 1 "$block ($kind)" show short.img "$said"
want 1 "LENGTH" lookup short.img 1 "$said"
want 1 "LENGTH" insert short.img 1 1 "$said"
if truncate -s 10737418240 giant.img 2> /dev/null; then
    want 1 "has 10737418240 bytes" show giant.img "$said"
    want 1 "has 10737418240 bytes" insert giant.img 1 1 "$said"
    want 64 "10737418240 bytes" format giant.img 3 "$said"
    rm giant.img
else
    left_out "a file of 10 GB, it can't be made here"
fi
head -c $((3 * row * main)) /dev/zero > bare.img
want 1 "nanddump --oob" show bare.img "$said"
want 1 "nanddump --oob" lookup bare.img 1 "$said"
head -c $((three - 1)) /dev/zero > near.img
want 1 "has $((three - 1)) bytes" show near.img "$said"
! has "$out" "nanddump" || fail "a file one byte too short was taken for a dump without spare bytes"
