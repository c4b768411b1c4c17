/*
 * Makes the calls that its standard input has records of, through the archive that it is linked with, and prints what each
 * returned and left. tests/README.md says how both look.
 *
 * Each call is made twice: once with every buffer exactly before a page that may not be touched, and once exactly after
 * one. What is left of the buffer's pages is filled, and checked after the call. A buffer that is only read lies in pages
 * that may not be written, and one of no bytes in a page that may not be touched. Both calls must leave the same.
 */
#define _DEFAULT_SOURCE

#include <signal.h>
#include <stdarg.h>
#include <stdio.h>
#include <stdlib.h>
#include <string.h>
#include <sys/mman.h>
#include <unistd.h>

#include "puzlorig.h"

/* The entries, and the sides of a buffer that a forbidden page can lie on. */
enum { OPEN = 1, CALL, READ_OUT, LENGTHS };
enum { FORBIDDEN_AFTER, FORBIDDEN_BEFORE, SIDES };
/* Buffers of one call, bytes of one buffer, bytes of all that a call returns and leaves. */
enum { MOST_BUFFERS = 6, MOST_BYTES = 1 << 17, MOST_LEFT = 64 + MOST_BUFFERS * MOST_BYTES };

static const char *const SIDE_WORDS[] = {"before a forbidden page", "after a forbidden page"};

/* The pages for one buffer: a forbidden one, those that the buffer lies in, and all that follow, forbidden too. */
struct buffer {
    const char *name;
    int only_read;
    const uint8_t *given;
    size_t length;
    uint8_t *pages;
    size_t in_use;
    uint8_t *lent;
};

/* What a call returned and left. */
struct left {
    uint8_t bytes[MOST_LEFT];
    size_t length;
};

static size_t page;
static struct buffer buffers[MOST_BUFFERS];
static size_t lent;
static struct left lefts[SIDES];
static unsigned long record;
/* Where it is, for a message. */
static char where[100] = "driver";

/* ---- failures */

static _Noreturn void fail(const char *format, ...)
{
    va_list words;
    va_start(words, format);
    fprintf(stderr, "%s: ", where);
    vfprintf(stderr, format, words);
    fprintf(stderr, "\n");
    va_end(words);
    exit(1);
}

static void say(const char *words)
{
    if (write(STDERR_FILENO, words, strlen(words)) < 0)
        _exit(2);
}

/* A byte was touched that may not be. */
static void touched(int number, siginfo_t *info, void *context)
{
    uintptr_t at = (uintptr_t)info->si_addr;
    (void)number;
    (void)context;
    say(where);
    for (size_t i = 0; i < lent; i++) {
        uintptr_t start = (uintptr_t)buffers[i].pages;
        if (start <= at && at < start + MOST_BYTES + 2 * page) {
            say(", ");
            say(buffers[i].name);
        }
    }
    say(": memory was touched that may not be\n");
    _exit(3);
}

static void catch_touching(void)
{
    struct sigaction action = {.sa_sigaction = touched, .sa_flags = SA_SIGINFO | SA_ONSTACK};
    stack_t stack = {.ss_sp = malloc(1 << 16), .ss_size = 1 << 16};
    if (stack.ss_sp == NULL || sigaltstack(&stack, NULL) != 0)
        fail("no stack for signals");
    if (sigaction(SIGSEGV, &action, NULL) != 0 || sigaction(SIGBUS, &action, NULL) != 0)
        fail("no signals");
}

/* ---- buffers */

static void allow(const struct buffer *buffer, int how)
{
    if (mprotect(buffer->pages + page, buffer->in_use, how) != 0)
        fail("mprotect");
}

static void reserve(struct buffer *buffer)
{
    buffer->pages = mmap(NULL, MOST_BYTES + 2 * page, PROT_NONE, MAP_PRIVATE | MAP_ANONYMOUS, -1, 0);
    if (buffer->pages == MAP_FAILED)
        fail("mmap");
}

/* What stands around a buffer. */
static uint8_t filling(size_t at)
{
    return (uint8_t)(165 + 31 * at);
}

static void lend(struct buffer *buffer, int side)
{
    uint8_t *start = buffer->pages + page;
    buffer->in_use = (buffer->length + page - 1) / page * page;
    buffer->lent = side == FORBIDDEN_AFTER ? start + buffer->in_use - buffer->length : start;
    allow(buffer, PROT_READ | PROT_WRITE);
    for (size_t at = 0; at < buffer->in_use; at++)
        if (start + at == buffer->lent)
            at += buffer->length - 1;
        else
            start[at] = filling(at);
    memcpy(buffer->lent, buffer->given, buffer->length);
    if (buffer->only_read)
        allow(buffer, PROT_READ);
}

/* Keeps what is in the buffer, and forbids its pages again. */
static void take_back(struct buffer *buffer, struct left *left)
{
    uint8_t *start = buffer->pages + page;
    for (size_t at = 0; at < buffer->in_use; at++)
        if (start + at == buffer->lent)
            at += buffer->length - 1;
        else if (start[at] != filling(at))
            fail("%s: a byte beside it was written", buffer->name);
    memcpy(left->bytes + left->length, buffer->lent, buffer->length);
    left->length += buffer->length;
    allow(buffer, PROT_NONE);
}

/* ---- calls */

static void leave_number(struct left *left, uint64_t number, size_t bytes)
{
    for (size_t i = 0; i < bytes; i++)
        left->bytes[left->length++] = (uint8_t)(number >> (8 * i));
}

static void leave_lengths(struct left *left, uint64_t structure, uint64_t size)
{
    leave_number(left, puzlorig_state_length(), 8);
    leave_number(left, puzlorig_tree_length(size), 8);
    leave_number(left, puzlorig_ticket_length(), 8);
    leave_number(left, puzlorig_tape_length(structure, size), 8);
    leave_number(left, puzlorig_trace_length(structure, size), 8);
    leave_number(left, puzlorig_result_length(), 8);
    leave_number(left, puzlorig_read_out_length(size), 8);
}

/* The function of an entry, on the buffers where they are lent. */
static uint32_t made(int entry, uint64_t structure, uint64_t size)
{
    const struct buffer *b = buffers;
    switch (entry) {
    case OPEN:
        return puzlorig_open(structure, size, b[0].lent, b[0].length, b[1].lent, b[1].length);
    case CALL:
        return puzlorig_call(b[0].lent, b[0].length, b[1].lent, b[1].length, b[2].lent, b[2].length, b[3].lent, b[3].length,
                             b[4].lent, b[4].length, b[5].lent, b[5].length);
    default:
        return puzlorig_read_out(b[0].lent, b[0].length, b[1].lent, b[1].length, b[2].lent, b[2].length,
                                 (uint64_t *)(void *)b[3].lent);
    }
}

static void make(int entry, uint64_t structure, uint64_t size, int side)
{
    struct left *left = &lefts[side];
    snprintf(where, sizeof where, "record %lu, buffers %s", record, SIDE_WORDS[side]);
    left->length = 0;
    if (entry == LENGTHS) {
        leave_lengths(left, structure, size);
        return;
    }
    for (size_t i = 0; i < lent; i++)
        lend(&buffers[i], side);
    leave_number(left, made(entry, structure, size), 4);
    for (size_t i = 0; i < lent; i++)
        take_back(&buffers[i], left);
}

/* ---- records */

static const uint8_t *input;
static size_t unread;

static const uint8_t *take(size_t length)
{
    const uint8_t *taken = input;
    if (length > unread)
        fail("the input ends within it");
    input += length;
    unread -= length;
    return taken;
}

static uint64_t take_number(size_t bytes)
{
    const uint8_t *taken = take(bytes);
    uint64_t number = 0;
    while (bytes-- > 0)
        number = number << 8 | taken[bytes];
    return number;
}

static void add_buffer(const char *name, int only_read, const uint8_t *given, size_t length)
{
    struct buffer *buffer = &buffers[lent++];
    if (length > MOST_BYTES)
        fail("%s: too long", name);
    buffer->name = name;
    buffer->only_read = only_read;
    buffer->given = given;
    buffer->length = length;
}

static void take_buffer(const char *name, int only_read)
{
    size_t length = take_number(4);
    add_buffer(name, only_read, take(length), length);
}

static void take_buffers(int entry)
{
    static const uint8_t any[sizeof(uint64_t)] = {165, 165, 165, 165, 165, 165, 165, 165};
    lent = 0;
    if (entry == LENGTHS)
        return;
    take_buffer("state", entry == READ_OUT);
    take_buffer("tree", entry == READ_OUT);
    if (entry == READ_OUT) {
        take_buffer("out", 0);
        add_buffer("file_length", 0, any, sizeof any);
    }
    if (entry == CALL) {
        take_buffer("ticket", 1);
        take_buffer("tape", 1);
        take_buffer("trace", 0);
        take_buffer("result", 0);
    }
}

static void make_record(void)
{
    snprintf(where, sizeof where, "record %lu", record);
    int entry = (int)take_number(1);
    uint64_t structure = 0, size = 0;
    if (entry < OPEN || entry > LENGTHS)
        fail("no entry %d", entry);
    if (entry == OPEN || entry == LENGTHS) {
        structure = take_number(8);
        size = take_number(8);
    }
    take_buffers(entry);
    for (int side = 0; side < SIDES; side++)
        make(entry, structure, size, side);
    if (lefts[0].length != lefts[1].length || memcmp(lefts[0].bytes, lefts[1].bytes, lefts[0].length) != 0)
        fail("another outcome than with the buffers %s", SIDE_WORDS[0]);
    if (fwrite(lefts[0].bytes, 1, lefts[0].length, stdout) != lefts[0].length)
        fail("cannot print");
}

/* All of the standard input. */
static void read_input(void)
{
    size_t room = 1 << 20, got;
    uint8_t *bytes = malloc(room);
    while (bytes != NULL && (got = fread(bytes + unread, 1, room - unread, stdin)) > 0) {
        unread += got;
        if (unread == room)
            bytes = realloc(bytes, room *= 2);
    }
    if (bytes == NULL)
        fail("no memory for the input");
    input = bytes;
}

/* The header's fixed lengths are the archive's. */
static void check_lengths(void)
{
    if (puzlorig_state_length() != PUZLORIG_STATE_LENGTH || puzlorig_ticket_length() != PUZLORIG_TICKET_LENGTH ||
        puzlorig_result_length() != PUZLORIG_RESULT_LENGTH)
        fail("a length of the header is not the archive's");
}

int main(void)
{
    check_lengths();
    page = (size_t)sysconf(_SC_PAGESIZE);
    for (size_t i = 0; i < MOST_BUFFERS; i++)
        reserve(&buffers[i]);
    catch_touching();
    for (read_input(); unread > 0; record++)
        make_record();
    return fflush(stdout) == 0 ? 0 : 2;
}
