# Which chip a file is of. 24 blocks with small pages are as long as 3 with large ones: what stands there tells them apart.
both=405504 # 24 * 16896 = 3 * 135168
use_chip small
fresh small.img 24
use_chip large
fresh large.img 3
use_chip small
for name in small large; do
    want 0 "DONE" insert "$name".img 7 70
    want 0 "70" lookup "$name".img 7
    want 0 "blocks, $name pages, sound; height 1, 1 entry" show "$name".img
    want 0 "blocks, $name pages, sound" show "$name".img --"$name"
    want 0 "new map, 2 entries" cut "$name".img 8 80
    echo "insert 9 90" | limited apply "$name".img > out 2>&1 || fail "apply to $name.img: $(cat out)"
    want 0 "90" lookup "$name".img 9 --"$name"
    want 64 "$name pages, with 2 entries ($both bytes)" format "$name".img 3
    want 0 "DONE" delete "$name".img 7
    [ "$(wc -c < "$name".img)" -eq "$both" ] || fail "$name.img has another length"
done

# the wrong option: nothing is taken for an index, and nothing is changed
for name in small large; do
    case $name in small) wrong=--large ;; *) wrong=--small ;; esac
    keep "$name".img
    want 2 "DAMAGED" lookup "$name".img 9 $wrong
    want 2 "DAMAGED" insert "$name".img 9 1 $wrong
    want 2 "DAMAGED" delete "$name".img 9 $wrong
    want 2 "DAMAGED" cut "$name".img 9 1 $wrong
    want 2 "${wrong#--} pages, DAMAGED" show "$name".img $wrong
    echo "insert 9 1" | limited apply "$name".img $wrong > out 2>&1
    [ $? -eq 2 ] || fail "apply with $wrong to $name.img: $(cat out)"
    same "$name".img "a command with $wrong"
done

# of either length and sound on neither chip: refused until it is said
filled erased.img "$both" 377
filled zeros.img "$both" 0
cp small.img torn.img
printf '\7' | dd of=torn.img bs=1 seek=516 conv=notrunc 2> /dev/null # the height of page 0
for name in erased zeros torn; do
    keep "$name".img
    want 2 "say --small or --large" show "$name".img
    want 2 "say --small or --large" lookup "$name".img 9
    want 2 "say --small or --large" insert "$name".img 9 1
    want 2 "say --small or --large" delete "$name".img 9
    want 2 "say --small or --large" cut "$name".img 9 1
    want 2 "24 blocks, small pages, DAMAGED" show "$name".img --small
    want 2 "3 blocks, large pages, DAMAGED" show "$name".img --large
    same "$name".img "a command on a file of either chip"
done
want 64 "damaged" format zeros.img 24
want 64 "erased chip of another size, $both bytes and not 50688" format erased.img 3
want 0 "large pages" format erased.img 3 --large
want 0 "3 blocks, large pages, sound" show erased.img

# where one length fits alone, it tells the chip, damaged or not
filled one.img $((25 * 16896)) 0
want 2 "25 blocks, small pages, DAMAGED" show one.img
want 1 "135168 (large pages)" show one.img --large
! has "$out" "16896" || fail "a length asked with --large tells of small pages: $out"
filled one.img $((129 * 135168)) 0
want 2 "129 blocks, large pages, DAMAGED" show one.img
want 1 "16896 (small pages)" lookup one.img 1 --small
use_chip large
fresh one.img 129
want 0 "DONE" insert one.img 7 70
want 0 "129 blocks, large pages, sound" show one.img
use_chip small

# words
want 64 "contradicts" lookup small.img 9 --small --large
want 0 "90" lookup small.img 9 --small --small
want 64 "usage:" lookup small.img 9 --larg
want 0 "small pages" help
want 0 "135168 bytes a block" help
want 0 "small pages, 50688 bytes" format new.img 3 --small
want 0 "large pages, 405504 bytes" format new.img 3 --force --large
want 1 "3 to 1024 blocks" format other.img 1025 --large
