/* What bench/calls times of the C interface: reads an input in the walk program's format, with a good opening and whole
   calls, from the standard input, makes each call through include/puzlorig.h and prints the checksum that
   bench/README.md defines. `host parse` only reads, which is to be subtracted: it joins the kind, the value, the
   tape's first 2F numbers and a 0, as many numbers as a reply and its peak have. For x86-64 alone: numbers are read as
   they lie in memory. */
#include "puzlorig.h"

#include <inttypes.h>
#include <stdio.h>
#include <stdlib.h>
#include <string.h>
#include <unistd.h>

enum { BLOCK = 65536, REFUSED = 0 };

/* The number of an answer's word, by kind, without a value and with one. */
static const uint8_t WORDS[][2] = {
    [PUZLORIG_GET] = {2, 1}, [PUZLORIG_PUT] = {4, 3}, [PUZLORIG_REMOVE] = {2, 5}, [PUZLORIG_PUSH] = {6},
    [PUZLORIG_POP] = {8, 7}, [PUZLORIG_ADD] = {9},    [PUZLORIG_TAKE] = {8, 10},  [PUZLORIG_IN] = {11},
    [PUZLORIG_OUT] = {8, 12},
};

typedef struct {
    uint8_t bytes[BLOCK];
    size_t at, held;
} input;

typedef struct {
    uint8_t state[PUZLORIG_STATE_LENGTH], result[PUZLORIG_RESULT_LENGTH];
    uint8_t *tree, *trace;
    size_t tree_length, tape_length, trace_length;
} store;

static _Noreturn void fail(const char *what)
{
    fprintf(stderr, "host: %s\n", what);
    exit(1);
}

/* The next bytes of the input, null at its end. Where they lie across two blocks they are first moved to the start. */
static inline const uint8_t *next(input *in, size_t length)
{
    while (in->held - in->at < length) {
        in->held -= in->at;
        memmove(in->bytes, in->bytes + in->at, in->held);
        in->at = 0;
        ssize_t got = read(STDIN_FILENO, in->bytes + in->held, BLOCK - in->held);
        if (got < 0)
            fail("the input cannot be read");
        if (got == 0)
            return NULL;
        in->held += (size_t)got;
    }
    in->at += length;
    return in->bytes + in->at - length;
}

static inline uint64_t join(uint64_t sum, uint64_t number)
{
    sum ^= number;
    sum ^= sum << 13;
    sum ^= sum >> 7;
    return sum ^ sum << 17;
}

static inline uint64_t join_numbers(uint64_t sum, const uint8_t *bytes, size_t count)
{
    for (size_t i = 0; i < count; i++) {
        uint16_t number;
        memcpy(&number, bytes + 2 * i, sizeof number);
        sum = join(sum, number);
    }
    return sum;
}

static inline uint64_t long_at(const uint8_t *bytes)
{
    uint64_t number;
    memcpy(&number, bytes, sizeof number);
    return number;
}

static inline uint64_t make_call(store *s, uint64_t sum, const uint8_t *ticket)
{
    uint32_t number = puzlorig_call(
        s->state, sizeof s->state,
        s->tree, s->tree_length,
        ticket, PUZLORIG_TICKET_LENGTH,
        ticket + PUZLORIG_TICKET_LENGTH, s->tape_length,
        s->trace, s->trace_length,
        s->result, sizeof s->result);
    if (number == PUZLORIG_OK) {
        sum = join(sum, WORDS[ticket[0]][s->result[0]]);
        sum = join(sum, long_at(s->result + 4));
    } else {
        if (number < PUZLORIG_DAMAGE || PUZLORIG_FULL < number)
            memset(s->result, 0, sizeof s->result); /* no leaf was revealed, and it was not filled */
        sum = join(join(sum, REFUSED), number);
    }
    return join(join_numbers(sum, s->trace, s->result[1]), s->result[2]);
}

static inline uint64_t only_read(const store *s, uint64_t sum, const uint8_t *ticket)
{
    sum = join(join(sum, ticket[0]), long_at(ticket + 5));
    return join(join_numbers(sum, ticket + PUZLORIG_TICKET_LENGTH, s->trace_length / 2), 0);
}

static void open_store(store *s, uint64_t structure, uint64_t size)
{
    s->tree_length = puzlorig_tree_length(size);
    s->tape_length = puzlorig_tape_length(structure, size);
    s->trace_length = puzlorig_trace_length(structure, size);
    s->tree = malloc(s->tree_length + 1);
    s->trace = malloc(s->trace_length + 1);
    if (s->tree == NULL || s->trace == NULL)
        fail("there is no memory left");
    if (puzlorig_open(structure, size, s->state, sizeof s->state, s->tree, s->tree_length) != PUZLORIG_OK)
        fail("the opening is refused");
}

int main(int argc, char **argv)
{
    static input in;
    static store s;
    int parse = argc > 1;
    if (parse && (argc > 2 || strcmp(argv[1], "parse") != 0))
        fail("parse or nothing");
    const uint8_t *bytes = next(&in, 2);
    if (bytes == NULL)
        fail("the input has no opening");
    open_store(&s, bytes[0], bytes[1]);
    size_t length = PUZLORIG_TICKET_LENGTH + s.tape_length;
    uint64_t sum = 1;
    while ((bytes = next(&in, length)) != NULL)
        sum = parse ? only_read(&s, sum, bytes) : make_call(&s, sum, bytes);
    if (in.at != in.held)
        fail("the input ends within a call");
    printf("%" PRIu64 "\n", sum);
}
