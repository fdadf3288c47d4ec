/*
 * Utasiro: a flash translation layer. It keeps which physical page holds each
 * logical page, touches no page contents, and lists what the host must program,
 * copy and erase. What each call answers and leaves, as this page says it, is proved of
 * the library. Its costs are measured. What is asked of the caller and of the host is
 * theirs to keep.
 *
 * Linking
 *   libutasiro.a, which `rt lib` in crates/utasiro writes to its folder out, for x86-64
 *   Linux (processors of level x86-64-v2 and above), System V calling convention.
 *   `tools/install PREFIX` puts it, this header and utasiro.pc where `pkg-config --cflags
 *   --libs utasiro` finds them. It needs memset; the compiler may have a later version need
 *   memcpy and memmove too. It needs nothing else: no other library, no allocator, no
 *   start-up code. It keeps nothing between calls, so calls on different devices may run at
 *   the same time; those on one device the caller must keep apart.
 *   Stack: 8 KB do for any call but utasiro_read_records, which takes 98,304 bytes more.
 *
 * What is lent
 *   A device of B blocks of N pages, L logical pages and M extent slots is a head,
 *   which goes in and comes back by value, and three buffers of 32-bit words:
 *     extents  3M words     logical start, physical start, page count of each slot
 *     blocks   2B words     fill and valid count of each block
 *     spare    B x N words  the label of each physical page, which is block x N + offset
 *   An extent is a run of logical pages that lie one after the other in one block. The
 *   fill of a block is how many of its pages are programmed, from its first on; the valid
 *   count, how many of these a logical page maps to. One block is in reserve.
 *   B is 3 to 1,024; N 1 to 256; L 1 to (B-2) x N; M 1 to 8,192. Lengths are
 *   exact and given in words: any other is refused 1, Shape. The extents of
 *   utasiro_read_records alone are lent as records, M of them, and counted so.
 *   A write, a read and a reclaim are lent an answer buffer too, of any length;
 *   only the words that the answer needs are overwritten.
 *
 * What the caller owes
 *   Each pointer is not null, even where the length is 0; it is aligned to four
 *   bytes; so many words or records from it on may be read and, but for `const`
 *   ones, written; and no two buffers of a call overlap. Nothing tests this. All else
 *   may be anything: sizes, numbers, and every word of the head and the buffers.
 *
 * What comes back
 *   refusal is 0 (accepted) or the number of the first refusal that applies. A
 *   refused call returns zero for every count and the head as given, and leaves
 *   every lent word as it was.
 *   The host goes on with the head that came back, and keeps it together with the
 *   words: neither is of use without the other.
 *
 * Writing when the device is full
 *   A write that is refused 5, NoPages, fits after some reclaims:
 *
 *     for (;;) {
 *         done = utasiro_write(head, STATE, number, start, count, ANSWER);
 *         if (done.refusal != UTASIRO_NO_PAGES)
 *             break;
 *         done = utasiro_reclaim(head, STATE, ANSWER);
 *         (copy, save done.head and STATE, erase: see below)
 *         head = done.head;
 *     }
 *
 *   It takes at most B-1 reclaims, each accepted, and then the write is accepted, where
 *   it is in range and its number is new, the extents in use plus count plus 1 are at most
 *   M or M is at least L, and the answer buffers are long enough (the macros below). No
 *   reclaim raises the number of extents or changes what a logical page holds.
 *   With M smaller than that the write may be refused 6, NoNodes, and reclaiming does not
 *   help: M must be larger from the start. M = L is never too small; where that is above
 *   8,192 or too much memory, M is as many runs as the map may break into: a write of n
 *   pages adds at most n + 1, a trim at most 1.
 *
 * What a call costs
 *   Every call but fresh tests the whole state, so it reads every lent word: 3M + 2B + B x N
 *   of them. On Arm, with the library recompiled, a report, which is hardly more than the
 *   test, took as long on the largest device as one sum over these words with few extents in
 *   use, and 2.1 to 4.1 times as long with 8,192, by how they lie. That sum is of 1.1 MB. A
 *   read, a trim and a write of 48 pages took up to 1.1 times as long as a report there, a
 *   read of all pages up to 1.5 times and a reclaim up to 1.1 times; on smaller devices a
 *   read of all pages up to 1.9 times and a reclaim up to 1.3 times (docs/BENCHMARK.md).
 *
 * Crashes
 *   The library keeps nothing, so what a crash leaves is what the host made durable, and in
 *   which order:
 *     a write    program the pages of the answer; save the head and the words; acknowledge
 *     a trim     save; acknowledge
 *     a reclaim  copy the pages of the answer; save; erase the block
 *     fresh      forget the state that was saved; erase every block; save
 *   Each step begins when the one before it is durable. To save is to put a state in the place
 *   of the last one such that a crash leaves the one or the other, whole.
 *   A host that goes on after a crash takes the state that was saved last and, before any other
 *   call, sees to it that the flash is erased from each block's fill (UTASIRO_FILL) on: it erases
 *   the reserve block, and clears each block with a page programmed at or past its fill. No call
 *   does that for it: docs/CRASHES.md says how, what each crash leaves, and what is proved of it.
 *   Then every acknowledged request is there, one that was not has happened as a whole or not at
 *   all, and may be sent again: if it has happened, it is refused 4.
 */
#ifndef UTASIRO_H
#define UTASIRO_H

#include <stddef.h>
#include <stdint.h>

#ifdef __cplusplus
extern "C" {
#endif

/* The version of this header, 0.2.0 as 200. utasiro_version gives that of the library that is linked. */
#define UTASIRO_VERSION_MAJOR 0
#define UTASIRO_VERSION_MINOR 2
#define UTASIRO_VERSION_PATCH 0
#define UTASIRO_VERSION (UTASIRO_VERSION_MAJOR * 10000 + UTASIRO_VERSION_MINOR * 100 + UTASIRO_VERSION_PATCH)

/* The largest sizes. */
#define UTASIRO_MOST_BLOCKS 1024
#define UTASIRO_MOST_PAGES 256
#define UTASIRO_MOST_SLOTS 8192

/* The words of each buffer of a state, for sizes within their bounds. */
#define UTASIRO_EXTENT_WORDS(slots) ((size_t)3 * (slots))
#define UTASIRO_BLOCK_WORDS(blocks) ((size_t)2 * (blocks))
#define UTASIRO_SPARE_WORDS(blocks, pages) ((size_t)(blocks) * (pages))

/* The fill and the valid count of a block, in the words of the blocks. */
#define UTASIRO_FILL(words, block) ((words)[UTASIRO_BLOCK_WORDS(block)])
#define UTASIRO_VALID(words, block) ((words)[UTASIRO_BLOCK_WORDS(block) + 1])

/*
 * The words of the longest answers: to a write of count pages, to a read of count pages, to a read of any range with so
 * many extents in use, and to a reclaim.
 */
#define UTASIRO_WRITE_WORDS(count) ((size_t)3 * (count))
#define UTASIRO_READ_WORDS(count) ((size_t)3 * (count))
#define UTASIRO_READ_ALL_WORDS(used) ((size_t)6 * (used) + 3)
#define UTASIRO_RECLAIM_WORDS(pages) ((size_t)(pages))

/* The refusals, in the order in which they are tested (a reclaim tests 8 directly after 2). */
enum utasiro_refusal {
    UTASIRO_ACCEPTED = 0,
    UTASIRO_SHAPE = 1,         /* Shape: a size is outside its bounds, or a state buffer has another length. All calls. */
    UTASIRO_DAMAGED = 2,       /* Damaged: the head and the words are no sound state. All calls but fresh. */
    UTASIRO_RANGE = 3,         /* Range: count is 0, start + count > L as whole numbers, or a write with count > N. Write, trim, read. */
    UTASIRO_APPLIED = 4,       /* Applied: the number is not above the last accepted one. Write, trim. */
    UTASIRO_NO_PAGES = 5,      /* NoPages: count > free. Write. */
    UTASIRO_NO_NODES = 6,      /* NoNodes: the map afterwards, joined, has more than M extents. Write, trim. */
    UTASIRO_OUT_SHORT = 7,     /* OutShort: the answer buffer is shorter than the answer. Write, read, reclaim. */
    UTASIRO_NOTHING_STALE = 8  /* NothingStale: no page is stale. Reclaim. */
};

/* The name of a refusal, "Accepted" for 0, and "Unknown" for a number that none has. */
static inline const char *utasiro_refusal_name(uint32_t refusal) {
    switch (refusal) {
    case UTASIRO_ACCEPTED: return "Accepted";
    case UTASIRO_SHAPE: return "Shape";
    case UTASIRO_DAMAGED: return "Damaged";
    case UTASIRO_RANGE: return "Range";
    case UTASIRO_APPLIED: return "Applied";
    case UTASIRO_NO_PAGES: return "NoPages";
    case UTASIRO_NO_NODES: return "NoNodes";
    case UTASIRO_OUT_SHORT: return "OutShort";
    case UTASIRO_NOTHING_STALE: return "NothingStale";
    default: return "Unknown";
    }
}

/* The physical start of a hole in a read, and the label of an erased page. */
#define UTASIRO_HOLE UINT32_C(4294967295)
#define UTASIRO_ERASED UINT32_C(4294967295)

/* Goes in and comes back by value. */
typedef struct {
    uint32_t blocks;  /* B */
    uint32_t pages;   /* N, the pages of a block */
    uint32_t logical; /* L, the logical pages */
    uint32_t slots;   /* M, the extent slots */
    uint32_t used;    /* extents in use */
    uint32_t reserve; /* the reserve block */
    uint64_t last;    /* the last accepted request number */
} utasiro_head;

/* An extent record: the three words of a slot, in their order. */
typedef struct {
    uint32_t logical;  /* logical start */
    uint32_t physical; /* physical start */
    uint32_t count;    /* page count */
} utasiro_extent;

/* What fresh, write, trim, the reads and reclaim return. */
typedef struct {
    uint32_t refusal;
    uint32_t count; /* pieces of a write or a read, copied pages of a reclaim, 0 for fresh and trim */
    utasiro_head head;
} utasiro_outcome;

/* What report returns. */
typedef struct {
    uint32_t refusal;
    uint32_t free;  /* pages that can be written: N - fill, over all blocks but the reserve */
    uint32_t live;  /* mapped logical pages */
    uint32_t stale; /* programmed pages that no logical page maps to */
    utasiro_head head;
} utasiro_counts;

/* The version of the library, as UTASIRO_VERSION has it. */
uint32_t utasiro_version(void);

/*
 * Makes a fresh device: no extents, nothing programmed, reserve B-1, last number 0.
 * Lent: buffers for the sizes; what they hold does not matter.
 * Comes back: the head of the device; refused, the four sizes as given and zero elsewhere.
 * Refusals: 1 Shape.
 * Then: the host erases every block, and saves the state.
 */
utasiro_outcome utasiro_fresh(uint32_t blocks, uint32_t pages, uint32_t logical, uint32_t slots,
                              uint32_t *extents, size_t extents_len,
                              uint32_t *blocks_words, size_t blocks_len,
                              uint32_t *spare, size_t spare_len);

/*
 * Writes count logical pages from start on, 1 to N of them. number is above that of
 * every write and trim accepted before; one that is not is refused 4, so a request that is
 * sent again is applied once. A refused request does not use its number up.
 * Lent: the state, and an answer buffer of three words a piece; UTASIRO_WRITE_WORDS(count) suffice.
 * Comes back: count pieces in answer, each three words: logical start, physical start,
 * page count, one piece for each block used. All pages go into the lowest-numbered block
 * outside the reserve that has room for them, as one piece; only where no block has are they
 * cut: each goes into the lowest-numbered block, not the reserve, that is not full.
 * Refusals: 1 Shape, 2 Damaged, 3 Range, 4 Applied, 5 NoPages, 6 NoNodes, 7 OutShort.
 * Then: the host programs the pages of each piece, in order, saves the state, and only
 * then acknowledges the request.
 */
utasiro_outcome utasiro_write(utasiro_head head, uint32_t *extents, size_t extents_len,
                              uint32_t *blocks, size_t blocks_len, uint32_t *spare, size_t spare_len,
                              uint64_t number, uint32_t start, uint32_t count,
                              uint32_t *answer, size_t answer_len);

/*
 * Makes holes of count logical pages from start on; those that are holes already are fine.
 * number is as for a write.
 * Lent: the state; spare is only read.
 * Comes back: the head.
 * Refusals: 1 Shape, 2 Damaged, 3 Range, 4 Applied, 6 NoNodes.
 * Then: the host saves the state, and only then acknowledges the request.
 */
utasiro_outcome utasiro_trim(utasiro_head head, uint32_t *extents, size_t extents_len,
                             uint32_t *blocks, size_t blocks_len, const uint32_t *spare, size_t spare_len,
                             uint64_t number, uint32_t start, uint32_t count);

/*
 * Translates count logical pages from start on.
 * Lent: the state, only read, and an answer buffer of three words a piece;
 * UTASIRO_READ_WORDS(count) suffice, and so do UTASIRO_READ_ALL_WORDS(extents in use).
 * Comes back: count pieces in answer in logical order, each three words: logical start,
 * physical start, page count. The physical start of a hole is UTASIRO_HOLE. The head as given.
 * Refusals: 1 Shape, 2 Damaged, 3 Range, 7 OutShort.
 * Then: the host reads the physical pages that it wants.
 */
utasiro_outcome utasiro_read(utasiro_head head, const uint32_t *extents, size_t extents_len,
                             const uint32_t *blocks, size_t blocks_len,
                             const uint32_t *spare, size_t spare_len,
                             uint32_t start, uint32_t count, uint32_t *answer, size_t answer_len);

/*
 * Translates as utasiro_read does, with the extents lent as records: what utasiro_read
 * answers over the words of these records.
 * Lent: the state, only read, its extents as exactly M records. extents_len counts records
 * and not words: M, where utasiro_read has 3M. The answer buffer is as for utasiro_read.
 * Comes back: as from utasiro_read.
 * Refusals: 1 Shape, for any other number of records too, 2 Damaged, 3 Range, 7 OutShort.
 * Stack: 98,304 bytes for the words of the records, beside the 8 KB that do for the other calls.
 * Then: the host reads the physical pages that it wants.
 */
utasiro_outcome utasiro_read_records(utasiro_head head, const utasiro_extent *extents, size_t extents_len,
                                     const uint32_t *blocks, size_t blocks_len,
                                     const uint32_t *spare, size_t spare_len,
                                     uint32_t start, uint32_t count, uint32_t *answer, size_t answer_len);

/*
 * Reclaims the block with most stale pages, the lowest-numbered on a tie (the victim).
 * Lent: the state, and an answer buffer of one word a copied page; UTASIRO_RECLAIM_WORDS(N) suffice.
 * Comes back: count source pages in answer; the new head's reserve is the victim.
 * Refusals: 1 Shape, 2 Damaged, 8 NothingStale, 7 OutShort. It needs no slot more than are in use.
 * Then: the host copies the source pages in order to the pages of the old reserve (the
 * reserve of the head that went in) from its first on, saves the state, and only then erases
 * the victim.
 */
utasiro_outcome utasiro_reclaim(utasiro_head head, uint32_t *extents, size_t extents_len,
                                uint32_t *blocks, size_t blocks_len, uint32_t *spare, size_t spare_len,
                                uint32_t *answer, size_t answer_len);

/*
 * Counts free, live and stale pages; together they are (B-1) x N.
 * Lent: the state, only read.
 * Comes back: the three counts, and the head as given.
 * Refusals: 1 Shape, 2 Damaged.
 * Then: the host has nothing to do.
 */
utasiro_counts utasiro_report(utasiro_head head, const uint32_t *extents, size_t extents_len,
                              const uint32_t *blocks, size_t blocks_len,
                              const uint32_t *spare, size_t spare_len);

#ifdef __cplusplus
}
#endif

#endif
