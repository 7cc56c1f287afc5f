# Commands, numbers and answers.
# shellcheck disable=SC2086
want 64 "usage:"
want 64 "nonsense" nonsense "$chip"
want 64 "'insert'" inset "$chip" 1 2
want 64 "'show'" shwo "$chip"
want 64 "'lookup'" look "$chip" 1
want 66 "cannot open" lookup "$chip" 1
want 66 "cannot open" show "$chip"
want 66 "cannot open" insert "$chip" 1 1
[ ! -e "$chip" ] || fail "a refused insert made a file"
want 1 "3 to 1024 blocks" format "$chip" 2
want 1 "3 to 1024 blocks" format "$chip" 1025
want 64 "is no number" format "$chip" three
want 0 "DONE: 1 programmed, 3 erased; a chip with $kind, $three bytes" format "$chip" 3 $option
want 4 "ABSENT" lookup "$chip" 7
want 4 "ABSENT" delete "$chip" 7
want 0 "DONE: 1 programmed, 0 erased" insert "$chip" 7 1000
want 0 "1000" lookup "$chip" 7
want 0 "3 blocks, $kind, sound; height 1, 1 entry, root" show "$chip"
want 7 "STOPPED: 0 programmed, 0 erased" insert "$chip" 8 1001 --allow 0
want 4 "ABSENT" lookup "$chip" 8
want 64 "is no number" insert "$chip" 4294967296 1
want 64 "is no number" insert "$chip" -1 1
want 64 "is no number" insert "$chip" 1 1x
want 64 "is no number" insert "$chip" 1 ""
want 64 "is no number" insert "$chip" 1 1 --allow many
want 64 "leading zero" insert "$chip" 007 1
want 64 "leading zero" insert "$chip" 1 00
want 64 "leading zero" lookup "$chip" 07
want 64 "leading zero" format other.img 03
want 64 "usage:" insert "$chip" 1
want 64 "usage:" insert "$chip" 1 2 3
want 64 "--alow" insert "$chip" 1 2 --alow 3
want 64 "usage:" insert "$chip" 1 2 --allow
want 64 "usage:" lookup "$chip" 1 --force
want 0 "DONE" insert "$chip" --allow 9 0 0
want 0 "DONE" insert "$chip" 4294967295 4294967295
want 0 "4294967295" lookup "$chip" 4294967295
want 0 "height 1, 3 entries" show "$chip"
want 0 "old map" cut "$chip" 9 1
want 0 "new map, 4 entries" cut "$chip" 9 1
want 4 "ABSENT" lookup "$chip" 9
want 0 "DONE" delete "$chip" 7
want 4 "ABSENT" lookup "$chip" 7

# cut on a pair that is there already: its last line speaks of the new map
fresh
want 0 "DONE" insert "$chip" 5 50
out=$("$tool" cut "$chip" 5 50 2>&1 | tail -n 1)
has "$out" "new map, the same as the old, 1 entry" || fail "cut on a pair that is there printed '$out'"

head -c "$three" /dev/zero > zeros.img
want 2 "DAMAGED" insert zeros.img 1 1 "$said"
want 2 "DAMAGED" show zeros.img "$said"
want 2 "DAMAGED" cut zeros.img 1 1 "$said"
want 2 "DAMAGED" lookup zeros.img 1 "$said"
