/*
 * A sample host: the vent settings of a tomato house, kept in an oblivious map.
 *
 *     cc -std=c11 -Wall -Wextra -Werror -Iinclude examples/host.c target/staticlib/libpuzlorig.a -o target/host && target/host
 *
 * A setting's key is zone * 24 + hour, and its value is the vent's opening in percent. The host
 *
 *   1. puts, gets and removes settings, with a tape from the system's random source,
 *   2. meets two refusals: a full store (10) and a tape of odd length (18),
 *   3. moves to a larger store when one overflows (9). With a fair tape that practically never comes, so this store's
 *      random source is a broken one.
 *
 * Every run prints the same: answers do not depend on the tape.
 */
#include "puzlorig.h"

#include <inttypes.h>
#include <stdbool.h>
#include <stdio.h>
#include <stdlib.h>

/* Random sources: the system's, and one that is stuck at zero, so that all nodes share one path. */
static const char SYSTEM_SOURCE[] = "/dev/urandom";
static const char STUCK_SOURCE[] = "/dev/zero";

/* With a fair tape far fewer nodes wait. More are a reason to look at the random source; above 64 a store closes. */
enum { MANY_WAITING = 32 };

enum { HOURS = 24 };

/* A kind's name, and the word for its answer without a value and with one. */
static const struct {
    const char *name, *without, *with;
} WORDS[] = {
    [PUZLORIG_GET] = {"get", "absent", "found"},
    [PUZLORIG_PUT] = {"put", "new", "replaced"},
    [PUZLORIG_REMOVE] = {"remove", "absent", "removed"},
    [PUZLORIG_PUSH] = {"push", "pushed", NULL},
    [PUZLORIG_POP] = {"pop", "empty", "popped"},
    [PUZLORIG_ADD] = {"add", "added", NULL},
    [PUZLORIG_TAKE] = {"take", "empty", "taken"},
    [PUZLORIG_IN] = {"in", "queued", NULL},
    [PUZLORIG_OUT] = {"out", "empty", "dequeued"},
};

static const char *const REFUSALS[] = {
    [PUZLORIG_CLOSED] = "the store is closed",
    [PUZLORIG_UNFIT] = "the state is not the one that the last call left",
    [PUZLORIG_BAD_TREE] = "the tree is not as long as the store's",
    [PUZLORIG_BAD_TICKET] = "the ticket is not 13 bytes",
    [PUZLORIG_BAD_KIND] = "the structure has no such kind of call",
    [PUZLORIG_SHORT_TAPE] = "the tape is too short",
    [PUZLORIG_SHORT_TRACE] = "the trace buffer is too short",
    [PUZLORIG_DAMAGE] = "the tree is damaged, and the store is now closed",
    [PUZLORIG_OVERFLOW] = "too many nodes wait, and the store is now closed",
    [PUZLORIG_FULL] = "the store is full",
    [PUZLORIG_BAD_STRUCTURE] = "there is no such structure",
    [PUZLORIG_BAD_SIZE] = "there is no such size",
    [PUZLORIG_NOT_CLOSED] = "the store was closed by neither 8 nor 9",
    [PUZLORIG_SHORT_OUT] = "the output buffer is too short",
    [PUZLORIG_NO_KEYS] = "the queue has used up its keys",
    [PUZLORIG_BAD_LENGTH] = "a buffer has a length that it cannot have",
    [PUZLORIG_STRAY_FIELD] = "a field that the call does not use is not zero",
};

/* ---- failures */

static _Noreturn void fail(const char *what)
{
    fprintf(stderr, "host: %s\n", what);
    exit(EXIT_FAILURE);
}

static const char *refusal(uint32_t number)
{
    bool known = number < sizeof REFUSALS / sizeof *REFUSALS && REFUSALS[number] != NULL;
    return known ? REFUSALS[number] : "a number that this host does not know";
}

/* Fails if a function of the library returned another number than it should have. */
static void expect(uint32_t expected, uint32_t number, const char *what)
{
    if (number == expected)
        return;
    if (number == PUZLORIG_OK)
        fprintf(stderr, "host: %s was not refused with %" PRIu32 ", %s\n", what, expected, refusal(expected));
    else
        fprintf(stderr, "host: %s was refused with %" PRIu32 ", %s\n", what, number, refusal(number));
    exit(EXIT_FAILURE);
}

/* ---- buffers */

struct buffer {
    uint8_t *bytes;
    size_t length;
};

/* A buffer to lend, all zero. It has a byte even if its length is 0, since the library wants no null pointer. */
static struct buffer new_buffer(uint64_t length)
{
    struct buffer made = {calloc(length > 0 ? length : 1, 1), length};
    if (made.bytes == NULL)
        fail("there is no memory left");
    return made;
}

/* The little-endian number in some bytes of a buffer, and how to write one. */
static uint64_t read_number(struct buffer from, size_t at, size_t length)
{
    if (at > from.length || length > from.length - at)
        fail("a number lies outside its buffer");
    uint64_t number = 0;
    for (size_t i = length; i > 0; i--)
        number = number << 8 | from.bytes[at + i - 1];
    return number;
}

static void write_number(struct buffer to, size_t at, size_t length, uint64_t number)
{
    if (at > to.length || length > to.length - at)
        fail("a number lies outside its buffer");
    for (size_t i = 0; i < length; i++)
        to.bytes[at + i] = (uint8_t)(number >> 8 * i);
}

/* ---- a store and its calls */

struct store {
    uint64_t size;
    /* The store itself. A host that ends keeps both, as they were at one moment, and lends them again later. */
    struct buffer state, tree;
    /* What each call is lent beside them. */
    struct buffer ticket, tape, trace, result;
    FILE *source;
};

static struct store open_store(uint64_t structure, uint64_t size, const char *source)
{
    struct store made = {
        .size = size,
        .state = new_buffer(puzlorig_state_length()),
        .tree = new_buffer(puzlorig_tree_length(size)),
        .ticket = new_buffer(puzlorig_ticket_length()),
        .tape = new_buffer(puzlorig_tape_length(structure, size)),
        .trace = new_buffer(puzlorig_trace_length(structure, size)),
        .result = new_buffer(puzlorig_result_length()),
        .source = fopen(source, "rb"),
    };
    /* Without a buffer of its own the stream keeps no copy of the tape. */
    if (made.source == NULL || setvbuf(made.source, NULL, _IONBF, 0) != 0)
        fail("the random source cannot be opened");
    uint32_t number =
        puzlorig_open(structure, size, made.state.bytes, made.state.length, made.tree.bytes, made.tree.length);
    expect(PUZLORIG_OK, number, "an opening");
    return made;
}

static void free_store(struct store *store)
{
    free(store->state.bytes);
    free(store->tree.bytes);
    free(store->ticket.bytes);
    free(store->tape.bytes);
    free(store->trace.bytes);
    free(store->result.bytes);
    fclose(store->source);
}

static void draw_tape(struct store *store)
{
    if (fread(store->tape.bytes, 1, store->tape.length, store->source) != store->tape.length)
        fail("the random source gave too few bytes");
}

/* A used tape says where nodes now lie, so it is not left in memory. No compiler may leave out a volatile write. */
static void wipe_tape(struct store *store)
{
    volatile uint8_t *bytes = store->tape.bytes;
    for (size_t i = 0; i < store->tape.length; i++)
        bytes[i] = 0;
}

struct answer {
    uint32_t number; /* 0, or what the call was refused with */
    bool has_value;
    uint64_t value;
    unsigned waiting; /* the largest number of nodes that waited at a round's close */
};

/* The result's bytes are this call's only if it revealed a leaf. */
static struct answer read_answer(uint32_t number, struct buffer result)
{
    struct answer answer = {.number = number};
    if (number == PUZLORIG_OK || number == PUZLORIG_FULL || number == PUZLORIG_DAMAGE || number == PUZLORIG_OVERFLOW) {
        answer.has_value = result.bytes[0] == 1;
        answer.waiting = result.bytes[2];
        answer.value = read_number(result, 4, 8);
    }
    return answer;
}

/*
 * Makes a call. Each has a fresh tape, also where the same is asked again.
 *
 * Afterwards the trace starts with the leaves whose paths were fetched, result byte 1 of them, two bytes each. A host
 * that keeps a copy of the tree elsewhere writes all buckets of these paths back there, and no others: the trace tells
 * that keeper nothing of what was asked, but which of the buckets have changed could.
 */
static struct answer ask(struct store *store, uint8_t kind, uint32_t key, uint64_t value)
{
    write_number(store->ticket, 0, 1, kind);
    write_number(store->ticket, 1, 4, key);
    write_number(store->ticket, 5, 8, value);
    draw_tape(store);
    uint32_t number = puzlorig_call(
        store->state.bytes, store->state.length,
        store->tree.bytes, store->tree.length,
        store->ticket.bytes, store->ticket.length,
        store->tape.bytes, store->tape.length,
        store->trace.bytes, store->trace.length,
        store->result.bytes, store->result.length);
    wipe_tape(store);
    return read_answer(number, store->result);
}

/* ---- settings */

static uint32_t key_of(uint32_t zone, uint32_t hour)
{
    return zone * HOURS + hour;
}

static void print_key(uint32_t key)
{
    printf("zone %" PRIu32 ", %02" PRIu32 ":00", key / HOURS, key % HOURS);
}

/* Makes a call and tells of it in a line. It should return the number that is expected. */
static void show(struct store *store, uint32_t expected, uint8_t kind, uint32_t key, uint64_t percent)
{
    struct answer answer = ask(store, kind, key, percent);
    expect(expected, answer.number, WORDS[kind].name);
    printf("  %-6s ", WORDS[kind].name);
    print_key(key);
    if (kind == PUZLORIG_PUT)
        printf(", %" PRIu64 " percent", percent);
    if (answer.number != PUZLORIG_OK)
        printf(": refused with %" PRIu32 ", %s\n", answer.number, refusal(answer.number));
    else if (answer.has_value)
        printf(": %s %" PRIu64 " percent\n", WORDS[kind].with, answer.value);
    else
        printf(": %s\n", WORDS[kind].without);
}

/* ---- 1. puts, gets and removes */

static void show_answers(void)
{
    struct store store = open_store(PUZLORIG_MAP, 4, SYSTEM_SOURCE);
    printf("A map of size 4 holds up to 15 settings.\n");
    show(&store, PUZLORIG_OK, PUZLORIG_PUT, key_of(1, 8), 40);
    show(&store, PUZLORIG_OK, PUZLORIG_PUT, key_of(1, 9), 45);
    show(&store, PUZLORIG_OK, PUZLORIG_GET, key_of(1, 8), 0);
    show(&store, PUZLORIG_OK, PUZLORIG_PUT, key_of(1, 8), 55);
    show(&store, PUZLORIG_OK, PUZLORIG_GET, key_of(1, 8), 0);
    show(&store, PUZLORIG_OK, PUZLORIG_REMOVE, key_of(1, 9), 0);
    show(&store, PUZLORIG_OK, PUZLORIG_GET, key_of(1, 9), 0);
    free_store(&store);
}

/* ---- 2. refusals */

static void show_refusals(void)
{
    struct store store = open_store(PUZLORIG_MAP, 1, SYSTEM_SOURCE);
    printf("\nA map of size 1 holds one setting. When it is full, that one can still be changed.\n");
    show(&store, PUZLORIG_OK, PUZLORIG_PUT, key_of(2, 8), 30);
    show(&store, PUZLORIG_FULL, PUZLORIG_PUT, key_of(2, 9), 35);
    show(&store, PUZLORIG_OK, PUZLORIG_PUT, key_of(2, 8), 60);

    printf("\nThe tape is lent without its last byte, then whole. The refusal has changed nothing.\n");
    store.tape.length--;
    show(&store, PUZLORIG_BAD_LENGTH, PUZLORIG_GET, key_of(2, 8), 0);
    store.tape.length++;
    show(&store, PUZLORIG_OK, PUZLORIG_GET, key_of(2, 8), 0);

    printf("\nA remove comes with an old setpoint in its value, then without. The refusal has changed nothing.\n");
    show(&store, PUZLORIG_STRAY_FIELD, PUZLORIG_REMOVE, key_of(2, 8), 45);
    show(&store, PUZLORIG_OK, PUZLORIG_REMOVE, key_of(2, 8), 0);
    free_store(&store);
}

/* ---- 3. overflow, and what to do */

static uint64_t percent_at(uint32_t key)
{
    return 5 * (key / HOURS) + 2 * (key % HOURS);
}

/* Puts hour after hour until the store closes; which key it was. Warns on the way, as a host should. */
static uint32_t put_until_overflow(struct store *store, uint32_t first)
{
    bool warned = false;
    for (uint32_t key = first;; key++) {
        struct answer answer = ask(store, PUZLORIG_PUT, key, percent_at(key));
        if (answer.number == PUZLORIG_OVERFLOW)
            return key;
        expect(PUZLORIG_OK, answer.number, "a put");
        if (answer.waiting > MANY_WAITING && !warned) {
            printf("  warning at ");
            print_key(key);
            printf(": %u nodes wait, look at the random source\n", answer.waiting);
            warned = true;
        }
    }
}

/* The settings of a store that 8 or 9 closed, as a file's bytes, which may as well be written to a medium. */
static struct buffer read_out(const struct store *store)
{
    struct buffer file = new_buffer(puzlorig_read_out_length(store->size));
    uint64_t length;
    uint32_t number = puzlorig_read_out(
        store->state.bytes, store->state.length,
        store->tree.bytes, store->tree.length,
        file.bytes, file.length,
        &length);
    expect(PUZLORIG_OK, number, "a read-out");
    file.length = length;
    return file;
}

/* The file has a count, keys with their values' offsets, the values, and then a report of what was left out. */
static size_t put_entries(struct store *store, struct buffer file)
{
    size_t count = read_number(file, 0, 2);
    for (size_t i = 0; i < count; i++) {
        uint32_t key = (uint32_t)read_number(file, 2 + 8 * i, 4);
        size_t offset = read_number(file, 6 + 8 * i, 4);
        struct answer answer = ask(store, PUZLORIG_PUT, key, read_number(file, offset, 8));
        expect(PUZLORIG_OK, answer.number, "a put");
    }
    return count;
}

/* After a 9 the report is empty. After an 8 it names what was damaged. */
static void print_report(struct buffer file)
{
    size_t start = 2 + 16 * read_number(file, 0, 2);
    for (size_t at = start; at < file.length; at += 5) {
        const char *reason = read_number(file, at + 4, 1) == 1 ? "bad" : "repeated";
        printf("  left out: place %" PRIu64 ", %s\n", read_number(file, at, 4), reason);
    }
    if (start == file.length)
        printf("  nothing was left out\n");
}

static void check_entries(struct store *store, uint32_t first, uint32_t last)
{
    for (uint32_t key = first; key <= last; key++) {
        struct answer answer = ask(store, PUZLORIG_GET, key, 0);
        expect(PUZLORIG_OK, answer.number, "a get");
        if (!answer.has_value || answer.value != percent_at(key))
            fail("a setting is not in the larger store as it was put");
    }
    printf("  each of the %" PRIu32 " settings that were put is there\n", last - first + 1);
}

static void show_overflow(void)
{
    const uint32_t first = key_of(1, 0);
    struct store broken = open_store(PUZLORIG_MAP, 7, STUCK_SOURCE);
    printf("\nA map of size 7 whose random source is stuck at zero is put settings, hour by hour.\n");
    uint32_t last = put_until_overflow(&broken, first);
    printf("  put of ");
    print_key(last);
    printf(": refused with %d, %s\n", PUZLORIG_OVERFLOW, refusal(PUZLORIG_OVERFLOW));
    show(&broken, PUZLORIG_CLOSED, PUZLORIG_GET, first, 0);

    printf("\nIt is read out, and its settings are put into a map of size 8 with the system's random source.\n");
    struct buffer file = read_out(&broken);
    struct store larger = open_store(PUZLORIG_MAP, 8, SYSTEM_SOURCE);
    printf("  %zu settings were read out\n", put_entries(&larger, file));
    print_report(file);
    printf("\nThe file has the settings before the refused put or after it, so that setting is put once more.\n");
    show(&larger, PUZLORIG_OK, PUZLORIG_PUT, last, percent_at(last));
    check_entries(&larger, first, last);
    show(&larger, PUZLORIG_OK, PUZLORIG_GET, key_of(3, 12), 0);
    free(file.bytes);
    free_store(&larger);
    free_store(&broken);
}

int main(void)
{
    show_answers();
    show_refusals();
    show_overflow();
    if (fflush(stdout) != 0 || ferror(stdout))
        fail("the output cannot be written");
    return EXIT_SUCCESS;
}
