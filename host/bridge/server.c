/*
 * The far side of the bridge, an x86-64 program: makes each call that stands in the shared memory on the library that it is
 * linked with. It ends when nobody can ask any more.
 */
#include "wire.h"

/* From the C library, whose headers are those of another machine. */
long read(int file, void *bytes, size_t count);
long write(int file, const void *bytes, size_t count);
void *mmap(void *at, size_t bytes, int allowed, int flags, int file, long from);
enum { READ_AND_WRITE = 1 | 2, SHARED = 1 };

static void make(bridge_call *call, uint32_t *words) {
    uint32_t *at[BUFFERS];
    const uint64_t *len = call->lengths;
    uint32_t *next = words + 1;
    for (int k = 0; k < BUFFERS; k++) {
        at[k] = next;
        next += len[k] + 1;
    }
    uint32_t *e = at[0], *b = at[1], *s = at[2], *a = at[3];
    utasiro_head head = call->head;
    uint32_t start = call->start, count = call->count;
    switch (call->kind) {
    case VERSION:
        call->count = utasiro_version();
        break;
    case FRESH:
        call->outcome = utasiro_fresh(head.blocks, head.pages, head.logical, head.slots, e, len[0], b, len[1], s, len[2]);
        break;
    case WRITE:
        call->outcome = utasiro_write(head, e, len[0], b, len[1], s, len[2], call->number, start, count, a, len[3]);
        break;
    case TRIM:
        call->outcome = utasiro_trim(head, e, len[0], b, len[1], s, len[2], call->number, start, count);
        break;
    case READ:
        call->outcome = utasiro_read(head, e, len[0], b, len[1], s, len[2], start, count, a, len[3]);
        break;
    case RECLAIM:
        call->outcome = utasiro_reclaim(head, e, len[0], b, len[1], s, len[2], a, len[3]);
        break;
    case REPORT:
        call->counts = utasiro_report(head, e, len[0], b, len[1], s, len[2]);
        break;
    case READ_RECORDS:
        call->outcome = utasiro_read_records(head, (const utasiro_extent *)e, len[0] / 3, b, len[1], s, len[2], start, count, a, len[3]);
        break;
    }
}

int main(void) {
    bridge_call *call = mmap(0, SHARED_BYTES, READ_AND_WRITE, SHARED, SHARED_FILE, 0);
    if (call == (void *)-1)
        return 1;
    char byte;
    while (read(0, &byte, 1) == 1) {
        make(call, (uint32_t *)call + FIRST_WORD);
        if (write(1, &byte, 1) != 1)
            return 1;
    }
    return 0;
}
