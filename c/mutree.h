/* mutree.h: a proved μ-Tree index on raw NAND, for C99 and C++, on two kinds of chip.
 *
 *   number            pages of a block   main and spare bytes of a page   a block in bytes   heights
 *   0 MUTREE_SMALL          32                   512 + 16                      16,896         1 to 5
 *   1 MUTREE_LARGE          64                 2,048 + 64                     135,168         1 to 7
 *
 * The first argument of every call is the chip's number; another number gives MUTREE_LENGTH. mutree_geometry_of gives all
 * numbers of a chip, so that code can be written once for both.
 *
 * An image is a lent byte buffer: B blocks (3 to 1,024), page after page, each page its main bytes and then its spare bytes,
 * as `nanddump --oob` writes them. The image is the whole state: the library keeps nothing between calls, allocates nothing,
 * and is safe for any numbers, any bytes and any lengths.
 *
 * Every call returns its answer number and writes 24 bytes to the caller's result buffer: answer, address, pages
 * programmed, blocks erased, rule, page, 32 bits each, least byte first; mutree_list, mutree_list_opened, mutree_export and
 * mutree_import have other counts in place of address, pages programmed and blocks erased. Bytes after the 24 stay as they were. With a
 * shorter buffer the call returns MUTREE_LENGTH and changes no buffer at all.
 *
 * With MUTREE_DAMAGED rule is the first broken rule of a sound image, 1 to 8, and page says where; in all other answers both are
 * 0. mutree_rule_words says each rule in words. The page of each, a page number of the image:
 *
 *   1   the lowest page that breaks it
 *   2   the first erased page before a programmed one of its block, or else the first programmed page of the second mixed block
 *       (one that has both)
 *   3   the higher-numbered page of the pair (two pages with one number) whose higher page is lowest
 *   5   the page of the first node, each before its subtrees and those left to right, whose own counts, keys or page numbers
 *       break it. A key outside its bounds is charged to the node that holds it, a bad page number to the node that names it
 *   6   the lowest page that breaks it
 *   4, 7, 8   0: they speak of the whole image (mutree_rule_has_page)
 *
 * Inserts and deletes are lent a table of live pages as well: words of 32 bits, page p being bit p % 32 of word p / 32, so one word for
 * each block of the small chip and two for each of the large one (mutree_live_words). A page is live where the tree that the image holds
 * has a node on it. What stands in the words beforehand does not matter: a call works them out from the image at its start, and a
 * collection carries them on from page to page instead of walking the tree for each. After every answer but LENGTH, DAMAGED and STALE,
 * refusals and STOPPED among them, they are those of the image as it then is. LENGTH, DAMAGED and STALE leave every word, and words
 * past the image's always stay. Fewer words than the image needs give LENGTH, before the image is judged.
 *
 * Open once, call often. A lookup, list, export, insert or delete judges the whole image first, and on a long image that is most of its
 * time. mutree_open judges it once and writes a record of MUTREE_RECORD_BYTES: root page, its sequence number, the largest one on the
 * image, height, next page (the image's number of pages where there is none), erased pages, 32 bits each, least byte first
 * (mutree_read_record). The calls whose names end in _opened take that record and judge nothing:
 *
 *   uint8_t record[MUTREE_RECORD_BYTES];
 *   if (mutree_open(MUTREE_LARGE, image, image_len, record, sizeof record, result, sizeof result) == MUTREE_DONE)
 *       mutree_insert_opened(MUTREE_LARGE, image, image_len, record, sizeof record, live, live_len, key, address, UINT32_MAX, ..);
 *
 *   - On a sound image with the record that opening gives for it, answers, image, words and numbers are those of the call without a
 *     record, and the record that an insert or a delete leaves is what opening would then give: after every answer, STOPPED too. So one
 *     opening serves any number of calls, as long as nothing else writes to the image.
 *   - MUTREE_STALE, right after LENGTH: the page that the record names is not programmed with its sequence number and height. Nothing
 *     is written, the record and the words are left as given. Open again.
 *   - The record is the caller's and belongs to one image as it is. After mutree_insert, mutree_delete, mutree_format, mutree_import, a
 *     patrol that mended, or bytes read anew from the chip it is outdated: open again. STALE IS NO GUARD AGAINST THAT. An update leaves the
 *     page of the old root as it was until its block is erased, so an older record of the same image is mostly not STALE, and a lookup
 *     with it finds an older map. Keep image and record together, and never a record on flash: after a crash read the chip and open.
 *   - On other pairs the calls stay memory-safe and program erased pages only; demands 2 and 3, demand 1's refusal of damaged trees and
 *     request 7's statements don't cover those pairs (docs/PROOF.md). That is: the answer may be another map's, a store may end the map
 *     that stood there, blocks may be erased, a damaged tree is not refused, and the words may be wrong. Every call ends: a walk of
 *     the tree stops after 8,388,608 nodes, a list after 536,870,912 pairs.
 *   - A store to a page that is not erased is not made, and ends the call with STOPPED. So STOPPED with fewer stores than the allowance
 *     (programmed + erased below it) says that the record is not this image's: open again. It is given on no other occasion.
 *   - On other pairs a call takes no more stack than on sound ones: a height above the chip's greatest (5, 7), in the record or read
 *     off a damaged image after an erase, is taken for the greatest.
 *
 * The caller owns all buffers. They must not overlap. Each pointer must be valid for its length; a call with a length of 0 may
 * pass any non-null pointer. mutree_list's buffer of numbers and the words of live pages are aligned as uint32_t is; the others need
 * no alignment.
 *
 * What a call needs
 *   processor   x86-64 or ARM64 with 64-bit size_t; an archive for each. Beside its calls the archive asks the C
 *               library for memcpy and memset, nothing else. The code uses vector registers.
 *   memory      the whole image lies in RAM, 3 to 1,024 blocks: 50,688 to 17,301,504 bytes of a small chip, 405,504 to
 *               138,412,032 bytes of a large one. Any alignment will do where the processor takes unaligned reads (on
 *               ARM64: normal memory, not device memory).
 *   stack       measured, in bytes; it does not grow with the image:
 *                                    format   lookup     list   export   insert   delete  patrol
 *                     x86-64, small   9,816  110,960  111,072  111,040  152,168  152,152     448
 *                     x86-64, large   9,816  111,106  111,218  111,186  171,048  171,032     448
 *                     ARM64, small    5,568  111,952  111,984  112,048  144,576  141,072     760
 *                     ARM64, large    5,568  112,256  112,288  112,352  185,648  176,448     760
 *               The calls with a record; the last column is an insert or a delete with another record than opening gives:
 *                                      open   lookup     list   insert   delete   another record
 *                     x86-64, small  111,056     248    1,088  152,168  152,168   152,168
 *                     x86-64, large  111,202     224    1,376  171,048  171,048   171,048
 *                     ARM64, small   112,016     368    1,536  144,640  141,104         -
 *               ARM64 was measured with version 0.8.0; the small chip's insert and delete and its calls with a record with 0.9.0,
 *               before heights were cut.
 *               An import takes what its inserts do and 32,768 for its pairs. 224 KiB serve every call, 192 KiB on the small chip;
 *               without import 192 and 160 KiB.
 *               Large frames are touched page by page as they are made, so a guard page below the stack catches a stack that is
 *               too small.
 *
 * Two calls at once: on different images always; on one image lookups, lists, exports and openings together, but no call beside an
 * insert, delete, format or import. Lookups and lists may share a record. Interrupts: a call may be interrupted at any place. A handler
 * that calls the library is a second call at once, and the same holds for it: no update of an image that a call was interrupted on, and no
 * call at all on one that is being updated. No call ends early or gives way; docs/BENCHMARKS.md says how long each takes.
 *
 * Capacity, measured (tests/limits). On the small chip rising keys answer MUTREE_HEIGHT after 7,456 keys however many blocks
 * there are; random keys did so after 14,835 to 25,108 keys in ten runs; no tree has more than 65,536 keys. On the large chip
 * the pages end before the tree does, with MUTREE_ROOM: rising keys after 4,224 keys on 3 blocks, 24,704 on 8, 4,096 more for each
 * block more; random keys after 6,111 on 3 blocks and 33,510 on 8 (one run each).
 *
 * Flipped bits: each 256 bytes of a page's main bytes (a half) have a code of 3 spare bytes, and R1 asks that it fits. So an image
 * is DAMAGED, rule 1, where one, two or three bits of a programmed page's half and its code are flipped; four can leave a code that
 * fits, and then another index may seem sound. mutree_patrol mends a half. Proved: one flipped bit, in the 256 bytes or in the code,
 * is put right, and two in the 256 bytes are told as beyond repair. Tested, not proved: two in the code, and one in each, are told
 * so too. Not covered: three or more. They can be taken for one, and then a bit is turned over that was right. The other spare
 * bytes (sequence number, height, counts) have no code: a changed one is found only where it breaks a rule. Where more than two
 * flips of a half and its code are to be feared, do not call.
 * Images made before version 0.5.0 have no codes: every call but mutree_format and mutree_patrol answers DAMAGED, rule 1.
 *
 * From the image to a chip: the stores of an update must reach the NAND one by one and in their order. c/nand.h and c/nand.c do that
 * through callbacks. What differs between the image before and after an update is not its stores, and an allowance of 1 again and
 * again may never end it; docs/USING.md says more.
 */
#ifndef MUTREE_H
#define MUTREE_H

#include <stddef.h>
#include <stdint.h>

#define MUTREE_VERSION "0.9.0"

/* Lengths are 64 bits in the library. This line does not compile where size_t has another width. */
typedef char mutree_needs_size_t_of_64_bits[sizeof(size_t) == 8 ? 1 : -1];

#ifdef __cplusplus
extern "C" {
#endif

#define MUTREE_LEAST_BLOCKS 3u
#define MUTREE_MOST_BLOCKS 1024u
#define MUTREE_RESULT_BYTES 24u
#define MUTREE_RECORD_BYTES 24u /* of what mutree_open writes */
#define MUTREE_RULES 8u      /* of a sound image, numbered from 1 */
#define MUTREE_SLOT_BYTES 8u /* a key and an address */
#define MUTREE_HALF_BYTES 256u /* of a page's main bytes, what one code is of */
#define MUTREE_CODE_BYTES 3u
#define MUTREE_WORD_PAGES 32u /* of a word of live pages, one bit each */
#define MUTREE_MOST_RECORDS 4096u /* that one import takes */
#define MUTREE_LINE_BYTES 22u     /* of the longest line of an export: two numbers of ten digits, a tab and byte 10 */

/* The chips' numbers, and what an array of a fixed size needs: uint8_t image[3 * MUTREE_LARGE_BLOCK_BYTES]. */
#define MUTREE_SMALL 0u
#define MUTREE_SMALL_PAGES 32u
#define MUTREE_SMALL_MAIN_BYTES 512u
#define MUTREE_SMALL_SPARE_BYTES 16u
#define MUTREE_SMALL_PAGE_BYTES (MUTREE_SMALL_MAIN_BYTES + MUTREE_SMALL_SPARE_BYTES)
#define MUTREE_SMALL_BLOCK_BYTES (MUTREE_SMALL_PAGES * MUTREE_SMALL_PAGE_BYTES)
#define MUTREE_SMALL_BLOCK_WORDS (MUTREE_SMALL_PAGES / MUTREE_WORD_PAGES)

#define MUTREE_LARGE 1u
#define MUTREE_LARGE_PAGES 64u
#define MUTREE_LARGE_MAIN_BYTES 2048u
#define MUTREE_LARGE_SPARE_BYTES 64u
#define MUTREE_LARGE_PAGE_BYTES (MUTREE_LARGE_MAIN_BYTES + MUTREE_LARGE_SPARE_BYTES)
#define MUTREE_LARGE_BLOCK_BYTES (MUTREE_LARGE_PAGES * MUTREE_LARGE_PAGE_BYTES)
#define MUTREE_LARGE_BLOCK_WORDS (MUTREE_LARGE_PAGES / MUTREE_WORD_PAGES)

#define MUTREE_GEOMETRIES 2u /* their numbers are those below it */
#define MUTREE_MOST_TOP 7u   /* the greatest height of all chips */
#define MUTREE_MOST_LIVE_WORDS (MUTREE_MOST_BLOCKS * MUTREE_LARGE_BLOCK_WORDS) /* 2,048: enough for every image of both chips */

/* The numbers of a chip. */
struct mutree_geometry {
    uint32_t number;                              /* the first argument of every call */
    uint32_t pages;                               /* of a block: 32, 64 */
    uint32_t main_bytes, spare_bytes, page_bytes; /* of a page: 512 + 16 = 528, 2,048 + 64 = 2,112 */
    uint32_t block_bytes;                         /* 16,896, 135,168 */
    uint32_t block_words;                         /* words of live pages: 1, 2 */
    uint32_t slots;                               /* of a page: 64, 256 */
    uint32_t top;                                 /* the greatest height: 5, 7 */
    uint32_t worn;                                /* a larger sequence number is WORN: 4,294,967,000, 4,294,966,000 */
    uint32_t halves;                              /* of a page's main bytes, MUTREE_HALF_BYTES each: 2, 8 */
    uint32_t first_code;                          /* the spare byte where their codes begin, one after another: 10, 12 */
    /* the most one update does */
    uint32_t most_own_pages; /* pages programmed besides collection: 5, 7 */
    uint32_t most_pages;     /* pages programmed with it: 191, 511 */
    uint32_t most_erases;    /* blocks erased: 6, 8 */
    uint32_t most_stores;    /* both together: 197, 519 */
};

/* A chip by its number; NULL for another number. Tell chips apart by their numbers: the pointers differ between source files. */
static inline const struct mutree_geometry *mutree_geometry_of(uint32_t number)
{
    static const struct mutree_geometry geometries[MUTREE_GEOMETRIES] = {
        { MUTREE_SMALL, MUTREE_SMALL_PAGES, MUTREE_SMALL_MAIN_BYTES, MUTREE_SMALL_SPARE_BYTES, MUTREE_SMALL_PAGE_BYTES,
          MUTREE_SMALL_BLOCK_BYTES, MUTREE_SMALL_BLOCK_WORDS, MUTREE_SMALL_MAIN_BYTES / MUTREE_SLOT_BYTES, 5, 4294967000u,
          MUTREE_SMALL_MAIN_BYTES / MUTREE_HALF_BYTES, 10, 5, 191, 6, 191 + 6 },
        { MUTREE_LARGE, MUTREE_LARGE_PAGES, MUTREE_LARGE_MAIN_BYTES, MUTREE_LARGE_SPARE_BYTES, MUTREE_LARGE_PAGE_BYTES,
          MUTREE_LARGE_BLOCK_BYTES, MUTREE_LARGE_BLOCK_WORDS, MUTREE_LARGE_MAIN_BYTES / MUTREE_SLOT_BYTES, MUTREE_MOST_TOP,
          4294966000u,
          MUTREE_LARGE_MAIN_BYTES / MUTREE_HALF_BYTES, 12, 7, 511, 8, 511 + 8 },
    };
    return number < MUTREE_GEOMETRIES ? &geometries[number] : NULL;
}

/* How many words of live pages an image of this length needs: 3 to 1,024 on the small chip, 6 to 2,048 on the large one. 0 where it is no
 * index's length or the number no chip's; such a call is LENGTH. */
static inline size_t mutree_live_words(uint32_t geometry, size_t image_len)
{
    const struct mutree_geometry *chip = mutree_geometry_of(geometry);
    size_t blocks = chip != NULL && image_len % chip->block_bytes == 0 ? image_len / chip->block_bytes : 0;
    return blocks >= MUTREE_LEAST_BLOCKS && blocks <= MUTREE_MOST_BLOCKS ? blocks * chip->block_words : 0;
}

/* Whether a page of the image is live, by the words that an insert or a delete left. */
static inline int mutree_is_live(const uint32_t *live, uint32_t page)
{
    return (int)(live[page / MUTREE_WORD_PAGES] >> page % MUTREE_WORD_PAGES & 1);
}

/* The lowest number that applies is given; of an import TEXT comes right after LENGTH, and of a call with a record STALE. 1 to 6, 8 and 9
 * leave the image untouched, but for an import that an insert's 3 to 6 ended halfway. */
enum mutree_answer {
    MUTREE_DONE = 0,    /* it is done */
    MUTREE_LENGTH = 1,  /* the geometry's number is neither 0 nor 1; or the image's length is not 3 to 1,024 times the
                           chip's block (16,896, 135,168); or patrol's page or half is none; or an insert's or delete's
                           words are too few; or the record is too short; or the result buffer is. But for the short result
                           buffer the result is written */
    MUTREE_DAMAGED = 2, /* the image is not a sound index of this chip: rule and page of the result say what is broken, and
                           where. Calls from format on always leave a sound one. A call with a record does not judge, and never
                           gives it */
    MUTREE_WORN = 3,    /* insert, delete: the sequence numbers are used up, the largest is above the chip's `worn` */
    MUTREE_ABSENT = 4,  /* lookup, delete: there is no such key */
    MUTREE_HEIGHT = 5,  /* insert: the tree can grow no higher (5, 7) */
    MUTREE_ROOM = 6,    /* insert, where it needs two pages or more: too few pages are free of live nodes */
    MUTREE_STOPPED = 7, /* insert, delete: the allowance was smaller than the stores needed; exactly that many of
                           its first stores are made, and the index holds the old map. With a record and fewer stores than
                           the allowance: the record is not this image's, open again */
    MUTREE_STALE = 8,   /* calls with a record: the page that it names is not programmed with its sequence number and height.
                           Open again */
    MUTREE_TEXT = 9     /* import: a line of the text is refused; the result has its number */
};

/* What mutree_patrol found on a half. */
enum mutree_finding {
    MUTREE_CLEAN = 0,        /* the code fits */
    MUTREE_DATA_MENDED = 1,  /* one bit of the 256 bytes was flipped, and is put right */
    MUTREE_CODE_MENDED = 2,  /* one bit of the code was flipped, and is put right */
    MUTREE_BEYOND_REPAIR = 3 /* more than one bit was flipped; nothing is changed */
};

struct mutree_result {
    uint32_t answer;
    uint32_t address;    /* of patrol: what it found, an enum mutree_finding */
    uint32_t programmed; /* of patrol: the bit that it put right, 0 to 2,047 of the half or 0 to 23 of the code; else 0 */
    uint32_t erased;
    uint32_t rule; /* with DAMAGED the first broken rule, 1 to MUTREE_RULES; else 0 */
    uint32_t page; /* with DAMAGED where it is broken, 0 for a rule of the whole image; else 0 */
};

/* The result, read from the 24 bytes that a call wrote. */
static inline struct mutree_result mutree_read_result(const uint8_t *bytes)
{
    uint32_t n[6];
    struct mutree_result r;
    unsigned i;
    for (i = 0; i < 6; i++)
        n[i] = (uint32_t)bytes[4 * i] | (uint32_t)bytes[4 * i + 1] << 8 | (uint32_t)bytes[4 * i + 2] << 16
             | (uint32_t)bytes[4 * i + 3] << 24;
    r.answer = n[0];
    r.address = n[1];
    r.programmed = n[2];
    r.erased = n[3];
    r.rule = n[4];
    r.page = n[5];
    return r;
}

/* The record of an image: what mutree_open writes, and the calls with a record hand on. */
struct mutree_record {
    uint32_t root;   /* the page of the root */
    uint32_t number; /* its sequence number */
    uint32_t most;   /* the largest sequence number on the image */
    uint32_t height; /* of the tree, 1 to the chip's `top`; 0 in the zeros of a refused opening, and never else */
    uint32_t next;   /* the page that is programmed next; the image's number of pages where there is none */
    uint32_t erased; /* pages that are erased */
};

/* The record, read from its 24 bytes. */
static inline struct mutree_record mutree_read_record(const uint8_t *bytes)
{
    struct mutree_result n = mutree_read_result(bytes); /* six numbers too */
    struct mutree_record r;
    r.root = n.answer;
    r.number = n.address;
    r.most = n.programmed;
    r.height = n.erased;
    r.next = n.rule;
    r.erased = n.page;
    return r;
}

/* The result of mutree_list and mutree_list_opened. */
struct mutree_listed {
    uint32_t answer;
    uint32_t exist;   /* pairs between the two keys */
    uint32_t written; /* pairs written: the smaller of `exist` and half of pairs_len, rounded down */
    uint32_t rule;    /* as in struct mutree_result */
    uint32_t page;
};

/* The same, read from the 24 bytes that the call wrote. */
static inline struct mutree_listed mutree_read_listed(const uint8_t *bytes)
{
    struct mutree_result r = mutree_read_result(bytes);
    struct mutree_listed listed;
    listed.answer = r.answer;
    listed.exist = r.address;
    listed.written = r.programmed;
    listed.rule = r.rule;
    listed.page = r.page;
    return listed;
}

/* The result of mutree_export. */
struct mutree_exported {
    uint32_t answer;
    uint32_t records; /* of the index */
    uint32_t bytes;   /* of the whole text */
    uint32_t written; /* bytes written: all of them, or 0 where text_len is smaller */
    uint32_t rule;    /* as in struct mutree_result */
    uint32_t page;
};

/* The result of mutree_export, read from the 24 bytes that it wrote. */
static inline struct mutree_exported mutree_read_exported(const uint8_t *bytes)
{
    struct mutree_result r = mutree_read_result(bytes);
    struct mutree_exported exported;
    exported.answer = r.answer;
    exported.records = r.address;
    exported.bytes = r.programmed;
    exported.written = r.erased;
    exported.rule = r.rule;
    exported.page = r.page;
    return exported;
}

/* The result of mutree_import. Its rule and page are always 0. */
struct mutree_imported {
    uint32_t answer;
    uint32_t records;    /* stored: all of the text with DONE, those before the refused one with 3 to 6, else 0 */
    uint32_t line;       /* with TEXT the lowest line that is refused, counted from 1; else 0 */
    uint32_t programmed; /* pages, by format and all inserts */
    uint32_t erased;     /* blocks, by format and all inserts */
};

/* The result of mutree_import, read from the 24 bytes that it wrote. */
static inline struct mutree_imported mutree_read_imported(const uint8_t *bytes)
{
    struct mutree_result r = mutree_read_result(bytes);
    struct mutree_imported imported;
    imported.answer = r.answer;
    imported.records = r.answer == MUTREE_TEXT ? 0 : r.address;
    imported.line = r.answer == MUTREE_TEXT ? r.address : 0;
    imported.programmed = r.programmed;
    imported.erased = r.erased;
    return imported;
}

/* What a patrol found, and the bit that it put right. */
static inline enum mutree_finding mutree_found(struct mutree_result result)
{
    return (enum mutree_finding)result.address;
}

static inline uint32_t mutree_bit(struct mutree_result result)
{
    return result.programmed;
}

/* What a rule asks of a sound image, in words; NULL for another number. Where two numbers stand in brackets, the first is the
 * small chip's and the second the large chip's. */
static inline const char *mutree_rule_words(uint32_t rule)
{
    static const char *const words[MUTREE_RULES] = {
        "each page is erased, or its height byte is at most the chip's greatest height (5, 7), its sequence number is not 0, "
        "the codes of its 256-byte halves fit and the spare bytes after these are 255",
        "in a block the programmed pages come before the erased ones, and at most one block has both",
        "no two programmed pages have the same sequence number",
        "some page carries a root: its height byte is 1 or more",
        "from the root down, each node has a count that its place allows, its keys rise and lie within the bounds from "
        "above, and its page numbers name programmed pages",
        "where a page has live nodes at several levels, the levels follow one another and each upper node names this page",
        "at least as many pages as a block has (32, 64) are erased, or some block without erased pages has no more live pages "
        "than the image has erased pages",
        "at least as many pages as two blocks have (64, 128) are without a live node",
    };
    return rule >= 1 && rule <= MUTREE_RULES ? words[rule - 1] : NULL;
}

/* Whether a rule is broken at a page; else it speaks of the whole image, and its page is 0. */
static inline int mutree_rule_has_page(uint32_t rule)
{
    return rule >= 1 && rule <= 6 && rule != 4;
}

/* Erases every block and programs page 0 as an empty index. Answers DONE (1 page, B erases) or LENGTH. */
uint32_t mutree_format(uint32_t geometry, uint8_t *image, size_t image_len, uint8_t *result, size_t result_len);

/* The address of a key. Answers DONE with the address, LENGTH, DAMAGED or ABSENT. The image is only read. */
uint32_t mutree_lookup(uint32_t geometry, const uint8_t *image, size_t image_len, uint32_t key, uint8_t *result,
                       size_t result_len);

/* The pairs from `low` to `high`, both taken in, in rising key order, each once: key, address, key, address into `pairs`.
 * `pairs_len` counts numbers, not pairs. The result says how many pairs exist and how many were written (mutree_read_listed):
 * the smaller of that and pairs_len / 2, rounded down; its fourth number is 0. The first pairs are written where not all have
 * room. Numbers of `pairs` beyond those written stay as they were, the last one of an odd length always. `low` above `high`
 * gives 0 pairs.
 *
 * Answers DONE, LENGTH or DAMAGED. LENGTH and DAMAGED come with both counts 0 and leave `pairs` as it was. With a result buffer
 * that is too short the call returns LENGTH, and both buffers stay. The image is only read; image, pairs and result must not
 * overlap.
 *
 * The count alone: pairs_len 0, with any non-null pointer.
 *
 * With a small buffer, page after page, pairs_len 2 or more: call with low and high; while fewer are written than exist, call
 * again with low = the last key written + 1 and the same high. That is never 4,294,967,295 + 1: a call that writes the key
 * 4,294,967,295 has written the last pair, and then as many are written as exist. Every call judges the image anew. */
uint32_t mutree_list(uint32_t geometry, const uint8_t *image, size_t image_len, uint32_t low, uint32_t high, uint32_t *pairs,
                     size_t pairs_len, uint8_t *result, size_t result_len);

/* Gives a key an address, a new one if the key is there. `live` lends `live_len` words for the live pages, which are right after every
 * answer but LENGTH and DAMAGED (above). `allowance` is how many stores (pages programmed and blocks erased together) the call may
 * make; UINT32_MAX sets no limit. A battery loss after any store leaves a sound index with the old map, and with the new one after the
 * last store. Answers all but ABSENT; ROOM never for a present key.
 *
 *   static uint32_t live[3 * MUTREE_LARGE_BLOCK_WORDS];
 *   mutree_insert(MUTREE_LARGE, image, 3 * MUTREE_LARGE_BLOCK_BYTES, live, 3 * MUTREE_LARGE_BLOCK_WORDS, key, address, UINT32_MAX, ..);
 *
 * A stopped update is not gone on with: the next call begins it again on the image as it then is. Called again and
 * again with less than the stores that it needs it may never end, and it wears the chip (measured on the small chip: an
 * insert that needs 3 stores, called 100,000 times with allowance 1, was STOPPED each time and programmed 96,969 pages). The
 * least allowance that is sure to end an update is the stores that it needs, at most the chip's most_stores (197, 519). */
uint32_t mutree_insert(uint32_t geometry, uint8_t *image, size_t image_len, uint32_t *live, size_t live_len, uint32_t key,
                       uint32_t address, uint32_t allowance, uint8_t *result, size_t result_len);

/* Takes a key out; words and allowance as for insert. It is never short of room: answers DONE, LENGTH, DAMAGED, WORN, ABSENT or
 * STOPPED. */
uint32_t mutree_delete(uint32_t geometry, uint8_t *image, size_t image_len, uint32_t *live, size_t live_len, uint32_t key,
                       uint32_t allowance, uint8_t *result, size_t result_len);

/* Judges the image and writes its record, for the calls below. Answers DONE, LENGTH or DAMAGED with rule and page; the other numbers of the
 * result are 0. A refused opening writes 24 zeros to the record, which no sound image takes: calls with them are STALE. A record buffer of
 * fewer than MUTREE_RECORD_BYTES is LENGTH, and is left as it was; bytes after the 24 stay. With a result buffer that is too short the
 * call returns LENGTH, and both buffers stay. The image is only read; image, record and result must not overlap. */
uint32_t mutree_open(uint32_t geometry, const uint8_t *image, size_t image_len, uint8_t *record, size_t record_len, uint8_t *result,
                     size_t result_len);

/* The calls with a record. Each does what the call without it does, and judges nothing; what holds of image and record is said above. A
 * record of fewer than MUTREE_RECORD_BYTES is LENGTH, and the result is written; bytes after the 24 are neither read nor written. STALE
 * comes right after LENGTH, DAMAGED never.
 *
 * The address of a key. Answers DONE with the address, LENGTH, STALE or ABSENT. Image and record are only read: they stay right. */
uint32_t mutree_lookup_opened(uint32_t geometry, const uint8_t *image, size_t image_len, const uint8_t *record, size_t record_len,
                              uint32_t key, uint8_t *result, size_t result_len);

/* The pairs from `low` to `high`, as mutree_list gives them (mutree_read_listed). Answers DONE, LENGTH or STALE; both counts are 0 with the
 * latter two, and `pairs` stays. Page after page with a small buffer, as there, and without judging the image each time. */
uint32_t mutree_list_opened(uint32_t geometry, const uint8_t *image, size_t image_len, const uint8_t *record, size_t record_len,
                            uint32_t low, uint32_t high, uint32_t *pairs, size_t pairs_len, uint8_t *result, size_t result_len);

/* mutree_insert and mutree_delete with a record, words and allowance as there. The record is brought up to date: after every answer but
 * LENGTH and STALE, which leave it, it is the record of the image as it then is. Answers those of the call without a record but DAMAGED,
 * and STALE. An update that collects nothing looks at no dead page; one that is STOPPED surveys the image for its record. */
uint32_t mutree_insert_opened(uint32_t geometry, uint8_t *image, size_t image_len, uint8_t *record, size_t record_len, uint32_t *live,
                              size_t live_len, uint32_t key, uint32_t address, uint32_t allowance, uint8_t *result, size_t result_len);
uint32_t mutree_delete_opened(uint32_t geometry, uint8_t *image, size_t image_len, uint8_t *record, size_t record_len, uint32_t *live,
                              size_t live_len, uint32_t key, uint32_t allowance, uint8_t *result, size_t result_len);

/* Compares a half's stored code with a fresh one, and mends the half where one bit is flipped. Answers DONE, with what was found
 * in place of the address and the bit in place of the pages programmed (mutree_found, mutree_bit), or LENGTH: a page that the
 * image has not, a half that is not below the chip's `halves`, or what gives LENGTH everywhere. Bits are numbered from 0, the
 * least bit of a byte first. It looks at this half and its code alone, on any image, damaged or not; an erased page is clean.
 *
 * Call it for every half of every page on the lent copy, after a call answered DAMAGED with rule 1, and then judge again. Not before:
 * a page that power loss tore can look like one with a flipped bit (docs/USING.md). It changes the copy, not the chip, and is no
 * store: a page that was mended stays wrong on the chip until it is programmed again elsewhere. What it does with more than one
 * flipped bit is told above. */
uint32_t mutree_patrol(uint32_t geometry, uint8_t *image, size_t image_len, uint32_t page, uint32_t half, uint8_t *result,
                       size_t result_len);

/* The whole map as a text, to be carried to another index, of either chip: a line for each record, in rising key order: key, tab
 * (byte 9), address, byte 10. Numbers are decimal, without leading zeros. An empty map is the empty text. A line has 4 to
 * MUTREE_LINE_BYTES bytes. No byte 0 is put after the text.
 *
 * Bytes 4 to 7 of the result have the records of the index, 8 to 11 the bytes of its whole text, 12 to 15 the bytes written
 * (mutree_read_exported). All of the text is written, or none of it: none where text_len is smaller than the text, and the answer
 * is DONE all the same. So look at `written`, not at the answer alone. Bytes of `text` after those written stay as they were.
 *
 * How long the text is: text_len 0, with any non-null pointer. Then lend that many bytes, and call again.
 *
 * Answers DONE, LENGTH or DAMAGED. LENGTH and DAMAGED come with three counts of 0 and leave `text` as it was. With a result buffer
 * that is too short the call returns LENGTH, and both buffers stay. The image is only read; image, text and result must not overlap. */
uint32_t mutree_export(uint32_t geometry, const uint8_t *image, size_t image_len, uint8_t *text, size_t text_len, uint8_t *result,
                       size_t result_len);

/* Makes the image the index of a text, as mutree_export writes it: formats it and inserts the records, each with no limit of stores.
 * WHAT STOOD IN THE IMAGE IS GONE, whatever it was; it is not judged. After DONE an export of the image gives the same text, byte for
 * byte. The empty text gives an empty index.
 *
 * First the text is read to its end, or to the first line that is refused: one that is not key, tab, address and byte 10; a number
 * that is not decimal, has a leading zero or is above 4,294,967,295; a key not above the one before; line 4,097, as at most
 * MUTREE_MOST_RECORDS records are taken; a last line without byte 10. Blanks, a carriage return, signs and empty lines do not fit.
 *
 * Bytes 4 to 7 of the result have the records stored, with TEXT the line; 8 to 11 the pages programmed and 12 to 15 the blocks erased,
 * by format and all inserts; 16 to 23 are 0 (mutree_read_imported). The answers, and what is left:
 *
 *   DONE      all records are stored
 *   LENGTH    as everywhere. Image and text stay; nothing else is looked at
 *   TEXT      the lowest line that is refused is told; counts 0, and the image is as it was. Mend the text
 *   ROOM      the image has too few blocks. The image is a sound index of the records before the one that was refused, and `records` says
 *             how many these are: begin again with more blocks
 *   HEIGHT, WORN   the same, but neither can come: 4,096 rising keys end before the tree and the sequence numbers do
 *
 * How many records an image takes depends on its blocks alone, not on the keys, as they rise (measured; the large chip takes all
 * 4,096 on 3 blocks):
 *     small chip, blocks      3      4      5      6      7      8      9     10
 *     records               528  1,056  1,568  2,080  2,592  3,104  3,616  4,096
 *
 * More than 4,096 records can be exported and not imported by one call: import the first 4,096 lines, and insert the others.
 *
 * With a result buffer that is too short the call returns LENGTH, and all buffers stay. Image, text and result must not overlap. The
 * text is only read; with text_len 0 any non-null pointer will do. */
uint32_t mutree_import(uint32_t geometry, uint8_t *image, size_t image_len, const uint8_t *text, size_t text_len, uint8_t *result,
                       size_t result_len);

#ifdef __cplusplus
}
#endif

#endif
