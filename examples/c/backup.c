/*
 * A backup on a small device, in the order that outlives a crash: written, sent again, written until pages are wanting and
 * some are reclaimed, taken up again after a crash, read back. The board is simulated: a page holds a number.
 */
#include <stdio.h>
#include <stdlib.h>

#include "utasiro.h"

enum { B = 4, N = 4, L = 8, M = 8, ERASED_PAGE = -1 };

/* A state, the head and the words together: it is saved whole. */
typedef struct {
    utasiro_head head;
    uint32_t extents[UTASIRO_EXTENT_WORDS(M)], blocks[UTASIRO_BLOCK_WORDS(B)], spare[UTASIRO_SPARE_WORDS(B, N)];
} state;

/* What outlives a crash. */
static struct {
    int pages[B * N];
    state saved;
} board;

/* What does not. */
static state now;
static uint32_t answer[UTASIRO_READ_WORDS(L)];

#define STATE now.extents, UTASIRO_EXTENT_WORDS(M), now.blocks, UTASIRO_BLOCK_WORDS(B), now.spare, UTASIRO_SPARE_WORDS(B, N)
#define ANSWER answer, UTASIRO_READ_WORDS(L)

static void fail(const char *what, uint32_t refusal) {
    fprintf(stderr, "%s: %u %s\n", what, refusal, utasiro_refusal_name(refusal));
    exit(1);
}

static void erase(uint32_t block) {
    for (uint32_t page = block * N; page < (block + 1) * N; page++)
        board.pages[page] = ERASED_PAGE;
    printf("  erase block %u\n", block);
}

static void program(uint32_t page, int contents) {
    if (board.pages[page] != ERASED_PAGE)
        fail("a page is programmed twice", 0);
    board.pages[page] = contents;
}

/* On a real board this is atomic: a crash leaves the old state or the new one. */
static void save(void) { board.saved = now; }

/* Copies, saves, erases. */
static void reclaim(void) {
    uint32_t target = now.head.reserve * N;
    utasiro_outcome done = utasiro_reclaim(now.head, STATE, ANSWER);
    if (done.refusal != UTASIRO_ACCEPTED)
        fail("reclaim", done.refusal);
    for (uint32_t k = 0; k < done.count; k++) {
        printf("  copy page %u to page %u\n", answer[k], target + k);
        program(target + k, board.pages[answer[k]]);
    }
    now.head = done.head;
    save();
    erase(now.head.reserve);
}

/*
 * Programs, saves; the caller acknowledges. Where pages are wanting, reclaims first: after at most B-1 reclaims the write fits, since
 * there is a slot for every logical page (M = L). With fewer slots it may then be refused 6. Each call reads the whole state.
 */
static uint32_t write_pages(uint64_t number, uint32_t start, uint32_t count, int contents) {
    utasiro_outcome done;
    while ((done = utasiro_write(now.head, STATE, number, start, count, ANSWER)).refusal == UTASIRO_NO_PAGES)
        reclaim();
    if (done.refusal != UTASIRO_ACCEPTED)
        return done.refusal;
    for (const uint32_t *piece = answer; piece < answer + 3 * done.count; piece += 3)
        for (uint32_t k = 0; k < piece[2]; k++) {
            printf("  program page %u\n", piece[1] + k);
            program(piece[1] + k, contents + (int)(piece[0] - start + k));
        }
    now.head = done.head;
    save();
    return UTASIRO_ACCEPTED;
}

static void send(uint64_t number, uint32_t start, uint32_t count, int contents) {
    printf("write %u of pages %u to %u\n", (unsigned)number, start, start + count - 1);
    uint32_t refusal = write_pages(number, start, count, contents);
    if (refusal == UTASIRO_ACCEPTED)
        printf("  acknowledged\n");
    else
        printf("  refused %u, %s\n", refusal, utasiro_refusal_name(refusal));
}

/* After a crash: the state that was saved last, and a flash that is erased from each fill on. docs/CRASHES.md says how a block with
   pages programmed at or past its fill is cleared; here no crash leaves one. */
static void take_up(void) {
    now = board.saved;
    utasiro_counts counts = utasiro_report(now.head, STATE);
    if (counts.refusal != UTASIRO_ACCEPTED)
        fail("what was saved is no state", counts.refusal);
    erase(now.head.reserve);
    for (uint32_t block = 0; block < B; block++) {
        uint32_t fill = UTASIRO_FILL(now.blocks, block);
        if (fill < N && board.pages[block * N + fill] != ERASED_PAGE)
            fail("a block is programmed past its fill", 0);
    }
}

int main(void) {
    if (utasiro_version() != UTASIRO_VERSION)
        fail("the library is of another version than the header", 0);
    printf("fresh\n");
    utasiro_outcome done = utasiro_fresh(B, N, L, M, STATE);
    if (done.refusal != UTASIRO_ACCEPTED)
        fail("fresh", done.refusal);
    now.head = done.head;
    for (uint32_t block = 0; block < B; block++)
        erase(block);
    save();

    send(1, 0, 4, 100);
    send(1, 0, 4, 100);
    send(2, 4, 4, 200);
    send(3, 1, 3, 300);
    send(4, 6, 2, 400);

    printf("a crash\n");
    take_up();
    send(4, 6, 2, 400);

    done = utasiro_read(now.head, STATE, 0, L, ANSWER);
    for (const uint32_t *piece = answer; piece < answer + 3 * done.count; piece += 3)
        for (uint32_t k = 0; k < piece[2]; k++)
            if (piece[1] == UTASIRO_HOLE)
                printf("page %u is a hole\n", piece[0] + k);
            else
                printf("page %u holds %d\n", piece[0] + k, board.pages[piece[1] + k]);
    utasiro_extent records[M];
    for (uint32_t k = 0; k < M; k++)
        records[k] = (utasiro_extent){now.extents[3 * k], now.extents[3 * k + 1], now.extents[3 * k + 2]};
    done = utasiro_read_records(now.head, records, M, now.blocks, UTASIRO_BLOCK_WORDS(B), now.spare, UTASIRO_SPARE_WORDS(B, N), 4, 2,
                                ANSWER);
    printf("over records, pages %u to %u are at page %u\n", answer[0], answer[0] + answer[2] - 1, answer[1]);
    utasiro_counts counts = utasiro_report(now.head, STATE);
    printf("free %u, live %u, stale %u\n", counts.free, counts.live, counts.stale);
    return counts.refusal != UTASIRO_ACCEPTED;
}
