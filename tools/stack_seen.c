/*
 * The most bytes of stack that calls of libdollar.a were seen to take, each on a stack that was painted before.
 *
 *   gcc -O2 -static -maccumulate-outgoing-args -Iinclude tools/stack_seen.c crates/dollar/out/libdollar.a -o target/stack_seen
 *   target/stack_seen
 *
 * -maccumulate-outgoing-args keeps the stack pointer where it is while arguments are laid, so that the count begins at the call itself.
 * Without -static the first call of memcpy, memmove and memset looks them up on the same stack, and is seen too.
 */
#define _GNU_SOURCE
#include <stdint.h>
#include <stdio.h>
#include <stdlib.h>
#include <string.h>
#include <ucontext.h>

#include "dollar.h"

enum call { VALUE, KEY, MESSAGE, SHOWN_VALUE, IDENTIFIER, OPEN, CHECK_BOOK, CHECK_BLOCK, CALLS };

static const char *const names[CALLS] = {"dollar_value",      "dollar_key",  "dollar_message",    "dollar_shown_value",
                                         "dollar_identifier", "dollar_open", "dollar_check_book", "dollar_check_block"};

enum { PAINT = 0xA5, ROWS = 256 };

struct record {
    uint8_t name_len;
    char name[63];
    uint8_t value_len;
    char value[191];
};

static struct record book[ROWS];
static char block[16384];
static size_t block_len;

static dollar_frame frames[DOLLAR_FRAMES(DOLLAR_TEXT_MAX)];
static dollar_pair records[64];
static uint8_t bytes[1 << 20], area[1 << 20];
static dollar_lent lent = {.frames = frames,
                           .frames_len = sizeof frames / sizeof *frames,
                           .records = records,
                           .records_len = sizeof records / sizeof *records,
                           .bytes = bytes,
                           .bytes_len = sizeof bytes,
                           .area = area,
                           .area_len = sizeof area};

static dollar_session session;
static dollar_marks marks;
static uint32_t kind, syntax;
static dollar_bytes text;
static dollar_outcome outcome;

static unsigned char stack[1 << 16];
static ucontext_t here, there;
static enum call call;
static uintptr_t before;
static size_t most[CALLS];

static dollar_bytes bytes_of(const char *string)
{
    dollar_bytes of = {(const uint8_t *)string, strlen(string)};
    return of;
}

static void on_painted_stack(void)
{
    register uintptr_t pointer __asm__("rsp");
    before = pointer;
    switch (call) {
    case VALUE:
        outcome = dollar_value_lent(&session, text, &marks, &lent);
        break;
    case KEY:
        outcome = dollar_key_lent(&session, text, &marks, &lent);
        break;
    case MESSAGE:
        outcome = dollar_message_lent(text, &marks, &lent);
        break;
    case SHOWN_VALUE:
        outcome = dollar_shown_value_lent(text, bytes_of("(not shown)"), &marks, &lent);
        break;
    case IDENTIFIER:
        outcome = dollar_identifier_lent(text, bytes_of("(not shown)"), &marks, &lent);
        break;
    case OPEN:
        outcome = dollar_open_lent(&session, kind, syntax, DOLLAR_TEXT_MAX, SIZE_MAX, &lent);
        break;
    case CHECK_BOOK:
        outcome = dollar_check_book(lent.table.at, lent.table.length);
        break;
    default:
        outcome = dollar_check_block(lent.table.at, lent.table.length);
    }
}

/* Makes a call, and keeps how far down the paint is gone. */
static void see(enum call seen)
{
    size_t untouched = 0, taken;
    call = seen;
    memset(stack, PAINT, sizeof stack);
    getcontext(&there);
    there.uc_stack.ss_sp = stack;
    there.uc_stack.ss_size = sizeof stack;
    there.uc_link = &here;
    makecontext(&there, on_painted_stack, 0);
    swapcontext(&here, &there);
    while (stack[untouched] == PAINT)
        untouched++;
    taken = before - (uintptr_t)(stack + untouched);
    if (taken > most[seen])
        most[seen] = taken;
}

static void see_redactions(const void *at, size_t length)
{
    text.at = at;
    text.length = length;
    see(MESSAGE);
    see(SHOWN_VALUE);
    see(IDENTIFIER);
}

/* A value and a key, and then redactions of what came of them and of a part of it. */
static void see_text(const char *at, size_t length)
{
    static uint8_t told[DOLLAR_TEXT_MAX];
    dollar_bytes read;
    text.at = (const uint8_t *)at;
    text.length = length;
    see(KEY);
    see(VALUE);
    read = dollar_text(&outcome, text, &lent);
    if (read.length > sizeof told)
        read.length = sizeof told;
    memcpy(told, read.at, read.length);
    see_redactions(told, read.length);
    see_redactions(told, read.length / 2);
}

/* The longest text of one part over and over. */
static void see_repeated(const char *part)
{
    static char whole[DOLLAR_TEXT_MAX];
    size_t length = 0;
    while (length + strlen(part) <= sizeof whole) {
        memcpy(whole + length, part, strlen(part));
        length += strlen(part);
    }
    see_text(whole, length);
}

/* References in one another, as deep as a text holds. */
static void see_nested(void)
{
    enum { DEPTH = DOLLAR_TEXT_MAX / 6 };
    static char whole[6 * DEPTH];
    for (size_t i = 0; i < DEPTH; i++)
        memcpy(whole + 5 * i, "${Z:-", 5);
    memset(whole + 5 * DEPTH, '}', DEPTH);
    see_text(whole, sizeof whole);
}

/* A required property is missing, and its message is long. */
static void see_missing(void)
{
    static char whole[8000];
    memset(whole, 'm', sizeof whole);
    memcpy(whole, "${Z?no ${N3} ", 13);
    whole[sizeof whole - 1] = '}';
    see_text(whole, sizeof whole);
}

static void see_session(void)
{
    static const char *const parts[] = {"a",       "\xc3\xa9",      "$$",       "${N3}",       "${N200} ", "$N7 ", "${3}",
                                        "${Z:-a}", "${Z:-${N250}}", "${N1:+x}", "${Z:?${N3}}", "${"};
    dollar_scope outer;
    see(OPEN);
    if (outcome.refusal != DOLLAR_ANSWERED) {
        fprintf(stderr, "a table is refused (%u)\n", (unsigned)outcome.refusal);
        exit(1);
    }
    marks = (dollar_marks)DOLLAR_MARKS;
    outer = dollar_scope_begin(&marks);
    for (size_t i = 0; i < sizeof parts / sizeof *parts; i++) {
        see_text(parts[i], strlen(parts[i]));
        see_repeated(parts[i]);
    }
    see_nested();
    see_missing();
    dollar_scope_end(&marks, outer);
}

int main(void)
{
    for (int i = 0; i < ROWS; i++) {
        struct record *row = &book[i];
        row->name_len = (uint8_t)sprintf(row->name, "N%d", i);
        row->value_len = (uint8_t)sprintf(row->value, "a value that is long enough for wide steps, of row %d", i);
        block_len += (size_t)sprintf(block + block_len, "%s=%s", row->name, row->value + 28) + 1;
    }
    for (kind = DOLLAR_EMPTY; kind <= DOLLAR_BLOCK; kind++) {
        if (kind == DOLLAR_BOOK)
            lent.table = (dollar_bytes){(const uint8_t *)book, sizeof book};
        if (kind == DOLLAR_BLOCK)
            lent.table = (dollar_bytes){(const uint8_t *)block, block_len};
        see(CHECK_BOOK);
        see(CHECK_BLOCK);
        for (syntax = DOLLAR_BRACED; syntax <= DOLLAR_DOCKER_COMPOSE; syntax++) {
            lent.stem = bytes_of("");
            see_session();
            lent.stem = bytes_of("N");
            see_session();
        }
    }
    for (int i = 0; i < CALLS; i++)
        printf("%-20s %6zu\n", names[i], most[i]);
    return 0;
}
