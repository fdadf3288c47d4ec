/*
 * What the two sides of the bridge share: a call, and the words that are lent to it. The memory is mapped by both; a byte to
 * the server says that a call stands there, a byte back that it is done.
 */
#ifndef WIRE_H
#define WIRE_H

#include "utasiro.h"

enum bridge_kind { VERSION, FRESH, WRITE, TRIM, READ, RECLAIM, REPORT, READ_RECORDS };

/* Extents, blocks, spare and answer, in this order. */
enum { BUFFERS = 4 };

typedef struct {
    uint32_t kind;
    uint32_t start;
    /* Goes in; of a version, comes back. */
    uint32_t count;
    uint32_t unused;
    uint64_t number;
    /* Words of each buffer. Before the first, between them and after the last stands GUARD. */
    uint64_t lengths[BUFFERS];
    /* Goes in; of a fresh, its sizes. */
    utasiro_head head;
    utasiro_outcome outcome;
    utasiro_counts counts;
} bridge_call;

/* The shared memory: a call, then from FIRST_WORD on the words. */
enum { SHARED_BYTES = 1 << 24, FIRST_WORD = 256, MOST_WORDS = (SHARED_BYTES / 4) - FIRST_WORD };

#define GUARD UINT32_C(0x5EEDB41D)

/* The file descriptor that the server maps. The bytes come and go by its standard input and output. */
enum { SHARED_FILE = 3 };

#endif
