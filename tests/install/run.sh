#!/bin/sh
# Installs into an empty folder, builds a user's program against what is there, and takes all away again.
# usage: run.sh CC
set -eu
cd "$(dirname "$0")/../.."
compiler=$1
folder=$(mktemp -d)
trap 'rm -rf "$folder"' EXIT
host=$(uname -m)

make -s install TARGET="$host" PREFIX="$folder/usr" > /dev/null
grep -q "^Version: [0-9][0-9.]*$" "$folder/usr/lib/pkgconfig/mutree.pc"
cat > "$folder/user.c" <<'END'
#include <mutree.h>

#include <stdio.h>
#include <string.h>

static uint32_t pairs[3]; /* of an odd length: one pair has room */
static uint8_t image[MUTREE_LEAST_BLOCKS * MUTREE_LARGE_BLOCK_BYTES], result[MUTREE_RESULT_BYTES];
static uint32_t live[MUTREE_LEAST_BLOCKS * MUTREE_LARGE_BLOCK_WORDS];

/* A bit of page 1 is flipped, and put right by a patrol of its half. */
static int mends(const struct mutree_geometry *chip, size_t length)
{
    struct mutree_result found;
    image[chip->page_bytes] ^= 4;
    if (mutree_patrol(chip->number, image, length, 1, 0, result, sizeof result) != MUTREE_DONE)
        return 0;
    found = mutree_read_result(result);
    return mutree_found(found) == MUTREE_DATA_MENDED && mutree_bit(found) == 2;
}

/* The index as a text, and the same text from an index that was made of it. */
static int carries(const struct mutree_geometry *chip, size_t length)
{
    uint8_t text[2 * MUTREE_LINE_BYTES], again[sizeof text];
    uint32_t bytes;
    if (mutree_export(chip->number, image, length, text, sizeof text, result, sizeof result) != MUTREE_DONE)
        return 0;
    bytes = mutree_read_exported(result).written;
    if (mutree_import(chip->number, image, length, text, bytes, result, sizeof result) != MUTREE_DONE
        || mutree_read_imported(result).records != 1 || mutree_read_imported(result).line != 0
        || mutree_export(chip->number, image, length, again, sizeof again, result, sizeof result) != MUTREE_DONE)
        return 0;
    return bytes > 0 && mutree_read_exported(result).written == bytes && memcmp(text, again, bytes) == 0;
}

/* Of the first two pages the second one is live, where the insert put its only node. */
static int tells_live_pages(const struct mutree_geometry *chip, size_t length)
{
    return mutree_live_words(chip->number, length) == MUTREE_LEAST_BLOCKS * chip->block_words && !mutree_is_live(live, 0) && mutree_is_live(live, 1);
}

/* Opened once: a key comes and goes by the record, which then is the same but for numbers, next page and erased pages; and one of zeros is STALE. */
static int opens(const struct mutree_geometry *chip, size_t length)
{
    uint8_t record[MUTREE_RECORD_BYTES], zeros[MUTREE_RECORD_BYTES] = { 0 };
    struct mutree_record at;
    if (mutree_open(chip->number, image, length, record, sizeof record, result, sizeof result) != MUTREE_DONE)
        return 0;
    at = mutree_read_record(record);
    if (mutree_insert_opened(chip->number, image, length, record, sizeof record, live, MUTREE_LEAST_BLOCKS * chip->block_words, 99, 5, UINT32_MAX, result,
                             sizeof result) != MUTREE_DONE
        || mutree_lookup_opened(chip->number, image, length, record, sizeof record, 99, result, sizeof result) != MUTREE_DONE
        || mutree_list_opened(chip->number, image, length, record, sizeof record, 99, 99, pairs, 2, result, sizeof result) != MUTREE_DONE || pairs[1] != 5
        || mutree_delete_opened(chip->number, image, length, record, sizeof record, live, MUTREE_LEAST_BLOCKS * chip->block_words, 99, UINT32_MAX, result,
                                sizeof result) != MUTREE_DONE
        || mutree_lookup_opened(chip->number, image, length, zeros, sizeof zeros, 99, result, sizeof result) != MUTREE_STALE)
        return 0;
    return mutree_read_record(record).most == at.most + 2 && mutree_read_record(record).erased == at.erased - 2 && at.height == 1;
}

/* An address stored and read again on a chip of three blocks, by a lookup and by a list, or 0. */
static unsigned address_on(const struct mutree_geometry *chip, uint32_t key)
{
    size_t length = MUTREE_LEAST_BLOCKS * (size_t)chip->block_bytes;
    if (mutree_format(chip->number, image, length, result, sizeof result) != MUTREE_DONE
        || mutree_insert(chip->number, image, length, live, MUTREE_LEAST_BLOCKS * MUTREE_LARGE_BLOCK_WORDS, key, 1000 + key, UINT32_MAX, result,
                         sizeof result) != MUTREE_DONE
        || !tells_live_pages(chip, length) || !mends(chip, length)
        || mutree_lookup(chip->number, image, length, key, result, sizeof result) != MUTREE_DONE
        || mutree_read_result(result).address != 1000 + key || !opens(chip, length) || !carries(chip, length))
        return 0;
    if (mutree_list(chip->number, image, length, key, UINT32_MAX, pairs, 3, result, sizeof result) != MUTREE_DONE
        || mutree_read_listed(result).exist != 1 || mutree_read_listed(result).written != 1 || pairs[0] != key || pairs[2] != 0)
        return 0;
    return (unsigned)pairs[1];
}

int main(void)
{
    if (mutree_geometry_of(MUTREE_GEOMETRIES) != NULL || mutree_rule_words(MUTREE_RULES) == NULL || mutree_rule_has_page(MUTREE_RULES))
        return 1;
    printf("%s %u %u\n", MUTREE_VERSION, address_on(mutree_geometry_of(MUTREE_SMALL), 7), address_on(mutree_geometry_of(MUTREE_LARGE), 8));
    return 0;
}
END
# the flags as pkg-config gives them, read here so that the test does not need it
prefix=$(sed -n 's/^prefix=//p' "$folder/usr/lib/pkgconfig/mutree.pc")
flags() { sed -n "s/^$1: //p" "$folder/usr/lib/pkgconfig/mutree.pc" | sed -e "s|\${libdir}|$prefix/lib|" -e "s|\${includedir}|$prefix/include|"; }
version=$(sed -n 's/^Version: //p' "$folder/usr/lib/pkgconfig/mutree.pc")
for standard in c99 c11; do
    # shellcheck disable=SC2046
    $compiler -std=$standard -Wall -Wextra -Werror -pedantic $(flags Cflags) "$folder/user.c" $(flags Libs) -o "$folder/user"
    [ "$("$folder/user")" = "$version 1007 1008" ]
done
if echo 'int main() {}' | $compiler -x c++ -fsyntax-only - 2> /dev/null; then
    # shellcheck disable=SC2046
    $compiler -x c++ -std=c++11 -Wall -Wextra -Werror -pedantic -fsyntax-only $(flags Cflags) "$folder/user.c"
else
    echo "install: C++ not tried, $compiler compiles none"
fi
make -s uninstall TARGET="$host" PREFIX="$folder/usr"
left=$(find "$folder/usr" -type f)
[ -z "$left" ] || { echo "install: make uninstall left $left"; exit 1; }
echo "install: a user's program links -lmutree $version and uses both chips, and uninstall leaves nothing"
