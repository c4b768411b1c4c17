/*
 * The oblivious settings store, for C hosts on x86-64.
 *
 * A store is two byte buffers that the host lends to each call and keeps between calls: its state and its bucket
 * tree. The library keeps nothing itself, allocates nothing, and touches no byte outside what it is lent.
 *
 * Every buffer is a pointer and its length in bytes. The buffers of one call must not overlap. A pointer to const is
 * only read. Where a length is 0 the pointer is not followed, but must not be null.
 *
 * All numbers in buffers are little-endian. docs/NUMBERS.md says for every number that is returned what causes it,
 * what it leaves and what to do. examples/host.c is a sample host.
 */
#ifndef PUZLORIG_H
#define PUZLORIG_H

#include <stddef.h>
#include <stdint.h>

#ifdef __cplusplus
extern "C" {
#endif

/* Structures. */
enum {
    PUZLORIG_MAP = 1,
    PUZLORIG_STACK = 2,
    PUZLORIG_HEAP = 3,
    PUZLORIG_QUEUE = 4
};

/* Sizes: a store of size k holds up to 2^k - 1 entries. */
enum {
    PUZLORIG_SMALLEST_SIZE = 1,
    PUZLORIG_LARGEST_SIZE = 8
};

/*
 * Kinds of tickets. A ticket is kind (1 byte), key (4), value (8). A field that its kind does not use must be zero, else
 * the call returns PUZLORIG_STRAY_FIELD.
 */
enum {
    PUZLORIG_GET = 1,    /* map: the value of a key; uses the key */
    PUZLORIG_PUT = 2,    /* map: a value for a key; uses both */
    PUZLORIG_REMOVE = 3, /* map: a key and its value go; uses the key */
    PUZLORIG_PUSH = 4,   /* stack: a value on top; uses the value */
    PUZLORIG_POP = 5,    /* stack: the top value; uses neither */
    PUZLORIG_ADD = 6,    /* heap: one more value; uses the value */
    PUZLORIG_TAKE = 7,   /* heap: the smallest value; uses neither */
    PUZLORIG_IN = 8,     /* queue: one more value; uses the value */
    PUZLORIG_OUT = 9     /* queue: the oldest value; uses neither */
};

/* Lengths in bytes that do not depend on the store. */
enum {
    PUZLORIG_STATE_LENGTH = 3248,
    PUZLORIG_TICKET_LENGTH = 13,
    PUZLORIG_RESULT_LENGTH = 12
};

/* Numbers that the functions return; each function says which of them it can. */
enum {
    PUZLORIG_OK = 0,
    PUZLORIG_CLOSED = 1,         /* the store is closed */
    PUZLORIG_UNFIT = 2,          /* the state is none that a store leaves */
    PUZLORIG_BAD_TREE = 3,       /* the tree has another length than the store's */
    PUZLORIG_BAD_TICKET = 4,     /* the ticket has another length */
    PUZLORIG_BAD_KIND = 5,       /* the kind is none of this structure's */
    PUZLORIG_SHORT_TAPE = 6,     /* the tape is too short */
    PUZLORIG_SHORT_TRACE = 7,    /* the trace buffer is too short */
    PUZLORIG_DAMAGE = 8,         /* damage was found: the store is now closed */
    PUZLORIG_OVERFLOW = 9,       /* too many nodes wait: the store is now closed, and nothing is lost */
    PUZLORIG_FULL = 10,          /* the store is full */
    PUZLORIG_BAD_STRUCTURE = 11, /* no such structure */
    PUZLORIG_BAD_SIZE = 12,      /* no such size */
    PUZLORIG_NOT_CLOSED = 14,    /* no store that 8 or 9 closed */
    PUZLORIG_SHORT_OUT = 15,     /* the output buffer is too short for the file */
    PUZLORIG_NO_KEYS = 17,       /* the queue has used up its keys */
    PUZLORIG_BAD_LENGTH = 18,    /* a state or result buffer of another length, or a tape or trace of an odd one */
    PUZLORIG_STRAY_FIELD = 19    /* a field that the ticket's kind does not use is not zero */
};

/*
 * The lengths in bytes that a host must lend for a structure and size; 0 where there is no such structure or size.
 * Tape and trace may be longer than that: numbers that are not needed are not read, and places that are not needed
 * keep their content.
 */
uint64_t puzlorig_state_length(void);
uint64_t puzlorig_tree_length(uint64_t size);
uint64_t puzlorig_ticket_length(void);
uint64_t puzlorig_tape_length(uint64_t structure, uint64_t size);
uint64_t puzlorig_trace_length(uint64_t structure, uint64_t size);
uint64_t puzlorig_result_length(void);
uint64_t puzlorig_read_out_length(uint64_t size); /* enough for the file of every store of this size */

/*
 * Opens a store: its state and tree are written anew, whatever they held.
 *
 * Returns 0 or, in this order, PUZLORIG_BAD_LENGTH (nothing is written), PUZLORIG_BAD_STRUCTURE, PUZLORIG_BAD_SIZE,
 * PUZLORIG_BAD_TREE. Each of the last three leaves the tree as it was and a state that is closed with that number.
 */
uint32_t puzlorig_open(
    uint64_t structure,
    uint64_t size,
    uint8_t *state, size_t state_length,
    uint8_t *tree, size_t tree_length);

/*
 * Makes one call.
 *
 *   ticket      what is asked
 *   tape        random numbers of two bytes each, fresh for every call and known to no one else; only their
 *               remainders by 2^size are used
 *   trace       the leaves whose paths were fetched are written to its start, two bytes each, in order; this is what
 *               the keeper of the tree can see
 *   result      filled where a leaf was revealed, with 0, 8, 9 and 10, else left as it was
 *
 * The result:
 *
 *   byte 0      1 if the answer has a value, else 0
 *   byte 1      how many leaves were revealed
 *   byte 2      the largest number of nodes that waited and were held at a round's close, at most 64 except with 9
 *   byte 3      0
 *   bytes 4-11  the value, 0 if there is none
 *
 * Returns 0 with an answer:
 *
 *   kind        with a value    without
 *   get         found           absent
 *   put         replaced (old)  new
 *   remove      removed         absent
 *   push                        pushed
 *   pop         popped          empty
 *   add                         added
 *   take        taken           empty
 *   in                          queued
 *   out         dequeued        empty
 *
 * Else, in this order, PUZLORIG_BAD_LENGTH, PUZLORIG_CLOSED, PUZLORIG_UNFIT, PUZLORIG_BAD_TREE, PUZLORIG_BAD_TICKET,
 * PUZLORIG_BAD_KIND, PUZLORIG_STRAY_FIELD, PUZLORIG_NO_KEYS, PUZLORIG_SHORT_TAPE, PUZLORIG_SHORT_TRACE: these change no
 * byte. Or PUZLORIG_FULL: the entries stay as they were. Or PUZLORIG_DAMAGE or PUZLORIG_OVERFLOW: the store is now
 * closed, with all nodes that it then has; puzlorig_read_out reads it.
 */
uint32_t puzlorig_call(
    uint8_t *state, size_t state_length,
    uint8_t *tree, size_t tree_length,
    const uint8_t *ticket, size_t ticket_length,
    const uint8_t *tape, size_t tape_length,
    uint8_t *trace, size_t trace_length,
    uint8_t *result, size_t result_length);

/*
 * Reads out a store that PUZLORIG_DAMAGE or PUZLORIG_OVERFLOW closed, into a file's bytes at the start of out: the
 * number of entries (2 bytes), for each its key (4) and the offset of its value in the file (4), ascending by key, then
 * the values (8 each), then for each node or slot that was left out its place (4) and the reason (1): 1 bad,
 * 2 repeated.
 *
 * file_length is set to the file's length, or to 0 where a number is returned.
 *
 * Returns 0 or, in this order, PUZLORIG_BAD_LENGTH, PUZLORIG_NOT_CLOSED, PUZLORIG_UNFIT, PUZLORIG_BAD_TREE,
 * PUZLORIG_SHORT_OUT: these write no byte of out.
 */
uint32_t puzlorig_read_out(
    const uint8_t *state, size_t state_length,
    const uint8_t *tree, size_t tree_length,
    uint8_t *out, size_t out_length,
    uint64_t *file_length);

#ifdef __cplusplus
}
#endif

#endif
