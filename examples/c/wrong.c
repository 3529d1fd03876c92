/*
 * Calls with wrong numbers: sessions, marks, scopes, pair records, frames, tables and texts at random, and memory of every small size. Whatever
 * is lent, a call has to answer or refuse, tell a part that is there, and leave the memory beside its own alone. Meant to run under valgrind,
 * which sees each read and write of the library:
 *
 *     valgrind -q --error-exitcode=9 target/examples/wrong ROUNDS [SEED]
 *
 * Prints how many calls came to each number.
 */
#include <stdio.h>
#include <stdlib.h>
#include <string.h>

#include "dollar.h"

enum { NUMBERS = DOLLAR_BAD_SESSION + 1, CALLS = 4, PIECES = 16, RECORDS_MOST = 6, FRAMES_MOST = 40, FRAMES_ALL = 1700 };

/* What texts and tables are made of. */
static const char *const pieces[PIECES] = {"${", "}",  "$",  "A", "B",    ":-",          "?",    ":?",
                                           "+",  "x", "=v", "",  "${A}", "${B:-${A}}", "\xff", "\xc3\xa9"};

static uint64_t state;

static size_t below(size_t most)
{
    state ^= state << 13;
    state ^= state >> 7;
    state ^= state << 17;
    return (size_t)(state % most);
}

/* A number: mostly small, and else any. */
static size_t number(void)
{
    switch (below(6)) {
    case 0:
        return below(SIZE_MAX);
    case 1:
        return SIZE_MAX;
    default:
        return below(300);
    }
}

/* Memory of its own, of exactly its size. */
typedef struct area {
    uint8_t *at;
    size_t length;
} area;

/* No more than so many bytes; none where there is no byte, half the time. */
static area lend(size_t most)
{
    area lent = {NULL, below(8) == 0 ? 0 : below(most + 1)};
    if (lent.length != 0 || below(2) == 0) {
        lent.at = malloc(lent.length);
        if (lent.at == NULL && lent.length != 0)
            exit(2);
    }
    return lent;
}

static area lend_text(size_t most)
{
    area text = lend(most);
    size_t at = 0;
    while (at < text.length) {
        const char *piece = pieces[below(PIECES)];
        size_t length = strlen(piece) == 0 ? 1 : strlen(piece); /* the empty one is a zero byte */
        for (size_t i = 0; i < length && at < text.length; i++)
            text.at[at++] = (uint8_t)piece[i];
    }
    return text;
}

/* A table: of pieces, or with two of three bytes at random. */
static area lend_table(void)
{
    area table = lend_text(700);
    if (below(2) == 0)
        for (size_t i = 0; i < table.length; i++)
            if (below(3) != 0)
                table.at[i] = (uint8_t)below(70);
    return table;
}

static dollar_session any_session(void)
{
    dollar_session session = {(uint32_t)below(5), (uint32_t)below(5), number(), number(), number(), (uint32_t)below(12), number(), number()};
    return session;
}

static dollar_marks any_marks(size_t records)
{
    dollar_marks marks = DOLLAR_MARKS;
    if (below(2) == 0) {
        dollar_scope_begin(&marks);
        return marks;
    }
    marks.records = below(3) != 0 ? below(records + 1) : number();
    marks.bytes = number();
    marks.is_open = (uint32_t)below(3);
    marks.start = number();
    return marks;
}

static void fill_frames(dollar_frame *frames, size_t count)
{
    for (size_t i = 0; i < count; i++) {
        dollar_frame frame = {number(), number(), number(), number(), number(), (uint32_t)number(), (uint32_t)number()};
        frames[i] = frame;
    }
}

/* Half of them lie inside the pair bytes. */
static void fill_records(dollar_pair *records, size_t count, size_t bytes)
{
    for (size_t i = 0; i < count; i++) {
        dollar_pair any = {number(), number(), number()}, inside = {0, below(bytes + 1), 0};
        records[i] = below(2) == 0 ? inside : any;
    }
}

/* What an outcome tells has to lie in the text and in the output area. */
static int is_told_well(const dollar_outcome *outcome, size_t text, size_t output)
{
    dollar_part part = dollar_read(outcome, text, output);
    int in_place = part.from_area ? part.length <= output : part.length == text;
    return outcome->refusal < NUMBERS && in_place && outcome->start <= outcome->end && outcome->end <= text;
}

/* Some calls over one lending. */
static int make_calls(unsigned long *came_to)
{
    area table = lend_table(), stem = lend_text(below(4) == 0 ? 40 : 0), text = lend_text(below(20) == 0 ? 9000 : 60);
    area fallback = lend_text(20), bytes = lend_text(300), output = lend(600);
    size_t frames_len = below(4) == 0 ? FRAMES_ALL : below(FRAMES_MOST), records_len = below(RECORDS_MOST);
    dollar_frame *frames = malloc(frames_len * sizeof *frames);
    dollar_pair *records = malloc(records_len * sizeof *records);
    dollar_session session = any_session();
    dollar_marks marks = any_marks(records_len);
    int well = 1;
    if ((frames == NULL && frames_len != 0) || (records == NULL && records_len != 0))
        exit(2);
    fill_frames(frames, frames_len);
    fill_records(records, records_len, bytes.length);
    for (int i = 0; i < CALLS; i++) {
        dollar_outcome outcome;
        switch (below(6)) {
        case 0:
            outcome = dollar_open(&session, (uint32_t)below(5), (uint32_t)below(5), number(), number(), table.at, table.length, stem.at,
                                  stem.length);
            break;
        case 1:
            outcome = dollar_key(&session, table.at, table.length, stem.at, stem.length, text.at, text.length, &marks, frames, frames_len,
                                 records, records_len, bytes.at, bytes.length, output.at, output.length);
            break;
        case 2:
            outcome = dollar_message(text.at, text.length, &marks, records, records_len, bytes.at, bytes.length, output.at, output.length);
            break;
        case 3:
            outcome = dollar_shown_value(text.at, text.length, fallback.at, fallback.length, &marks, records, records_len, bytes.at,
                                         bytes.length, output.at, output.length);
            break;
        case 4:
            outcome = dollar_identifier(text.at, text.length, fallback.at, fallback.length, &marks, records, records_len, bytes.at,
                                        bytes.length, output.at, output.length);
            break;
        default:
            outcome = dollar_value(&session, table.at, table.length, stem.at, stem.length, text.at, text.length, &marks, frames, frames_len,
                                   records, records_len, bytes.at, bytes.length, output.at, output.length);
            break;
        }
        well = well && is_told_well(&outcome, text.length, output.length);
        if (well)
            came_to[outcome.refusal]++;
        if (below(10) == 0) {
            dollar_scope former = {(uint32_t)below(3), number()};
            dollar_scope_end(&marks, former);
        }
    }
    free(table.at);
    free(stem.at);
    free(text.at);
    free(fallback.at);
    free(bytes.at);
    free(output.at);
    free(frames);
    free(records);
    return well;
}

int main(int count, char **words)
{
    unsigned long came_to[NUMBERS] = {0};
    unsigned long rounds = count > 1 ? strtoul(words[1], NULL, 10) : 1000;
    state = count > 2 ? strtoull(words[2], NULL, 10) | 1 : 2026;
    for (unsigned long i = 0; i < rounds; i++) {
        if (!make_calls(came_to)) {
            printf("round %lu: an outcome tells what is not there\n", i);
            return 1;
        }
    }
    for (int n = 0; n < NUMBERS; n++)
        if (came_to[n] != 0)
            printf("%d: %lu\n", n, came_to[n]);
    return 0;
}
