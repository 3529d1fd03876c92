/*
 * Runs session scripts through the C boundary: reads a script of docs/SCRIPTS.md on standard input, and writes the lines that crates/replay
 * writes. A session here has one stem, so two stems in a script are joined. Where they are over 32 bytes together, the table is made anew
 * of the rows behind the lower one.
 */
#define _POSIX_C_SOURCE 200809L
#include <stdbool.h>
#include <stdio.h>
#include <stdlib.h>
#include <string.h>

#include "dollar.h"

enum { WORDS_MAX = 5, STEM_MAX = 32 };

/* Bytes of the program's own. */
typedef struct own {
    uint8_t *at;
    size_t length;
} own;

typedef struct script {
    uint32_t kind; /* of the table to be used: DOLLAR_EMPTY where it or a stem is unlawful */
    own table;
    own stem; /* the stems that count, joined, the lowest first */
    size_t low; /* how long the lowest is */
    unsigned stems;
    dollar_lent lent;
    dollar_session session;
    dollar_marks marks;
    bool begun;
    dollar_scope *formers; /* of the open scopes, the outermost first */
    size_t open, formers_room;
} script;

static void fail(const char *why)
{
    fflush(stdout);
    fprintf(stderr, "%s\n", why);
    exit(2);
}

/* Memory of exactly this size, so that a tool sees each step over its end. */
static void *allocate(size_t count, size_t size)
{
    void *at = malloc(count * size);
    if (at == NULL && count * size != 0)
        fail("out of memory");
    return at;
}

static int digit(char c)
{
    if (c >= '0' && c <= '9')
        return c - '0';
    if (c >= 'a' && c <= 'f')
        return c - 'a' + 10;
    return -1;
}

/* The bytes of a word; false where it is not written as bytes. */
static bool unhex(const char *word, own *bytes)
{
    size_t digits = strcmp(word, "-") == 0 ? 0 : strlen(word);
    if (digits % 2 != 0)
        return false;
    bytes->length = digits / 2;
    bytes->at = allocate(bytes->length, 1);
    for (size_t i = 0; i < bytes->length; i++) {
        int high = digit(word[2 * i]), low = digit(word[2 * i + 1]);
        if (high < 0 || low < 0) {
            free(bytes->at);
            return false;
        }
        bytes->at[i] = (uint8_t)(high * 16 + low);
    }
    return true;
}

static void print_hex(const uint8_t *at, size_t length)
{
    if (length == 0)
        putchar('-');
    for (size_t i = 0; i < length; i++)
        printf("%02x", at[i]);
}

static bool number(const char *word, size_t *n)
{
    *n = 0;
    if (*word == 0)
        return false;
    for (; *word != 0; word++) {
        if (*word < '0' || *word > '9' || *n > (SIZE_MAX - (size_t)(*word - '0')) / 10)
            return false;
        *n = *n * 10 + (size_t)(*word - '0');
    }
    return true;
}

static dollar_bytes lend(own bytes)
{
    dollar_bytes lent = {bytes.at, bytes.length};
    return lent;
}

/* The refusal with its values, a name, a part or a message as its bytes. */
static void print_refusal(const dollar_outcome *outcome, dollar_bytes text, const uint8_t *area)
{
    printf("refused %u", (unsigned)outcome->refusal);
    switch (outcome->refusal) {
    case DOLLAR_NOT_UTF8:
    case DOLLAR_BAD_BLOCK:
        printf(" %zu", outcome->offset);
        break;
    case DOLLAR_TOO_FEW_FRAMES:
    case DOLLAR_OUTPUT_TOO_SHORT:
        printf(" %zu", outcome->needed);
        break;
    case DOLLAR_UNRESOLVED:
    case DOLLAR_INVALID_NAME:
        putchar(' ');
        print_hex(text.at + outcome->start, outcome->end - outcome->start);
        break;
    case DOLLAR_REQUIRED_BUT_UNSET:
    case DOLLAR_REQUIRED_BUT_EMPTY:
        putchar(' ');
        print_hex(text.at + outcome->start, outcome->end - outcome->start);
        putchar(' ');
        print_hex(area, outcome->length);
        break;
    case DOLLAR_DEPTH_LIMIT:
    case DOLLAR_WORK_LIMIT:
        printf(" %zu %zu", outcome->reached, outcome->limit);
        break;
    case DOLLAR_BAD_BOOK:
        printf(" %zu", outcome->bad_record);
        break;
    default:
        break;
    }
}

static void print_verdict(dollar_outcome outcome)
{
    dollar_bytes none = {NULL, 0};
    if (outcome.refusal == DOLLAR_ANSWERED)
        printf("lawful");
    else
        print_refusal(&outcome, none, NULL);
    putchar('\n');
}

/* Every byte of the output area behind the text or the message has to be zero. */
static void check_area(const dollar_outcome *outcome, const dollar_lent *lent)
{
    for (size_t i = outcome->length; i < lent->area_len; i++)
        if (lent->area[i] != 0)
            fail("the output area is not zero behind the text");
}

static void print_outcome(const script *s, dollar_outcome outcome, dollar_bytes text)
{
    check_area(&outcome, &s->lent);
    if (outcome.refusal != DOLLAR_ANSWERED) {
        print_refusal(&outcome, text, s->lent.area);
    } else if (outcome.replaced) {
        dollar_bytes read = dollar_text(&outcome, text, &s->lent);
        printf("replaced ");
        print_hex(read.at, read.length);
    } else {
        printf("unchanged");
    }
    printf(" total=%zu\n", s->session.total);
}

static void lend_memory(script *s, size_t area, size_t frames, size_t records, size_t bytes)
{
    free(s->lent.area);
    free(s->lent.frames);
    free(s->lent.records);
    free(s->lent.bytes);
    s->lent.area = allocate(s->lent.area_len = area, 1);
    s->lent.frames = allocate(s->lent.frames_len = frames, sizeof(dollar_frame));
    s->lent.records = allocate(s->lent.records_len = records, sizeof(dollar_pair));
    s->lent.bytes = allocate(s->lent.bytes_len = bytes, 1);
}

static void take_source(script *s, uint32_t kind, own table)
{
    dollar_outcome outcome = {0};
    free(s->table.at);
    free(s->stem.at);
    s->table = table;
    s->stem.at = NULL;
    s->stem.length = 0;
    s->low = 0;
    s->stems = 0;
    s->begun = false;
    if (kind == DOLLAR_BOOK)
        outcome = dollar_check_book(table.at, table.length);
    if (kind == DOLLAR_BLOCK)
        outcome = dollar_check_block(table.at, table.length);
    s->kind = outcome.refusal == DOLLAR_ANSWERED ? kind : DOLLAR_EMPTY;
    print_verdict(outcome);
}

/* A stem over those before it. Two count; an unlawful one leaves nothing set. */
static void take_stem(script *s, own stem)
{
    dollar_outcome outcome = dollar_check_stem(stem.at, stem.length);
    s->begun = false;
    if (s->stems == 0)
        s->low = stem.length;
    if (s->stems < 2 && outcome.refusal != DOLLAR_ANSWERED) {
        s->kind = DOLLAR_EMPTY;
    } else if (s->stems < 2) {
        own joined = {allocate(s->stem.length + stem.length, 1), s->stem.length + stem.length};
        if (s->stem.length != 0)
            memcpy(joined.at, s->stem.at, s->stem.length);
        if (stem.length != 0)
            memcpy(joined.at + s->stem.length, stem.at, stem.length);
        free(s->stem.at);
        s->stem = joined;
    }
    s->stems++;
    free(stem.at);
    print_verdict(outcome);
}

/* The records of a book whose names begin with a stem, without it. */
static size_t records_behind(own book, const uint8_t *stem, size_t length, uint8_t *to)
{
    size_t used = 0;
    for (size_t at = 0; at < book.length; at += 256) {
        const uint8_t *record = book.at + at;
        if (record[0] <= length || memcmp(record + 1, stem, length) != 0)
            continue;
        memset(to + used, 0, 64);
        to[used] = (uint8_t)(record[0] - length);
        memcpy(to + used + 1, record + 1 + length, record[0] - length);
        memcpy(to + used + 64, record + 64, 192);
        used += 256;
    }
    return used;
}

/* The entries of a block whose names begin with a stem, without it. */
static size_t entries_behind(own block, const uint8_t *stem, size_t length, uint8_t *to)
{
    size_t used = 0, size;
    for (const uint8_t *entry = block.at, *end = block.at + block.length; entry < end && *entry != 0; entry += size) {
        const uint8_t *equals = memchr(entry, '=', (size_t)(end - entry));
        size = (size_t)((const uint8_t *)memchr(equals, 0, (size_t)(end - equals)) - entry) + 1;
        if ((size_t)(equals - entry) <= length || memcmp(entry, stem, length) != 0)
            continue;
        memcpy(to + used, entry + length, size - length);
        used += size - length;
    }
    return used;
}

/* Puts the lower of two stems into the table. */
static void lower_stem(script *s)
{
    own table = {allocate(s->table.length, 1), 0};
    table.length = (s->kind == DOLLAR_BOOK ? records_behind : entries_behind)(s->table, s->stem.at, s->low, table.at);
    free(s->table.at);
    s->table = table;
    s->stem.length -= s->low;
    memmove(s->stem.at, s->stem.at + s->low, s->stem.length);
    s->low = 0;
}

static void begin_session(script *s, uint32_t syntax, size_t depth, size_t work)
{
    static const dollar_marks fresh = DOLLAR_MARKS;
    bool empty = s->kind == DOLLAR_EMPTY;
    if (!empty && s->stem.length > STEM_MAX)
        lower_stem(s);
    s->lent.table = lend(s->table);
    s->lent.stem.at = empty ? NULL : s->stem.at;
    s->lent.stem.length = empty ? 0 : s->stem.length;
    s->marks = fresh;
    s->open = 0;
    s->begun = true;
    if (dollar_open_lent(&s->session, s->kind, syntax, depth, work, &s->lent).refusal != DOLLAR_ANSWERED)
        fail("a session was not opened");
    printf("session\n");
}

static void open_scope(script *s)
{
    if (s->open == s->formers_room) {
        s->formers_room = s->formers_room * 2 + 8;
        s->formers = realloc(s->formers, s->formers_room * sizeof(dollar_scope));
        if (s->formers == NULL)
            fail("out of memory");
    }
    s->formers[s->open++] = dollar_scope_begin(&s->marks);
    printf("open %zu\n", s->open);
}

static void end_scope(script *s)
{
    if (s->open != 0)
        dollar_scope_end(&s->marks, s->formers[--s->open]);
    printf("open %zu\n", s->open);
}

/* A call with one word of bytes. */
static bool take_call(script *s, const char *kind, dollar_bytes text)
{
    dollar_outcome outcome;
    if (strcmp(kind, "key") == 0)
        outcome = dollar_key_lent(&s->session, text, &s->marks, &s->lent);
    else if (strcmp(kind, "value") == 0)
        outcome = dollar_value_lent(&s->session, text, &s->marks, &s->lent);
    else if (strcmp(kind, "message") == 0)
        outcome = dollar_message_lent(text, &s->marks, &s->lent);
    else
        return false;
    print_outcome(s, outcome, text);
    return true;
}

/* A call with a fallback. */
static bool take_shown(script *s, const char *kind, dollar_bytes text, dollar_bytes fallback)
{
    dollar_outcome outcome;
    if (strcmp(kind, "dynamic") == 0)
        outcome = dollar_shown_value_lent(text, fallback, &s->marks, &s->lent);
    else if (strcmp(kind, "identifier") == 0)
        outcome = dollar_identifier_lent(text, fallback, &s->marks, &s->lent);
    else
        return false;
    print_outcome(s, outcome, text);
    return true;
}

static bool take_two(script *s, const char *kind, const char *word)
{
    own bytes;
    bool taken;
    if (strcmp(kind, "source") == 0 && strcmp(word, "empty") == 0) {
        own none = {NULL, 0};
        take_source(s, DOLLAR_EMPTY, none);
        return true;
    }
    if (!unhex(word, &bytes))
        return false;
    if (strcmp(kind, "stem") == 0) {
        take_stem(s, bytes);
        return true;
    }
    taken = s->begun && take_call(s, kind, lend(bytes));
    free(bytes.at);
    return taken;
}

static bool take_three(script *s, const char *kind, const char *first, const char *second)
{
    own bytes, fallback;
    bool taken;
    if (!unhex(second, &fallback))
        return false;
    if (strcmp(kind, "source") == 0 && (strcmp(first, "book") == 0 || strcmp(first, "block") == 0)) {
        take_source(s, strcmp(first, "book") == 0 ? DOLLAR_BOOK : DOLLAR_BLOCK, fallback);
        return true;
    }
    taken = unhex(first, &bytes);
    if (taken) {
        taken = s->begun && take_shown(s, kind, lend(bytes), lend(fallback));
        free(bytes.at);
    }
    free(fallback.at);
    return taken;
}

static bool take_session(script *s, const char *name, const char *depth_word, const char *work_word)
{
    size_t depth, work;
    uint32_t syntax = strcmp(name, "braced") == 0    ? DOLLAR_BRACED
                      : strcmp(name, "bare") == 0    ? DOLLAR_BRACED_OR_BARE
                      : strcmp(name, "compose") == 0 ? DOLLAR_DOCKER_COMPOSE
                                                     : 0;
    if (syntax == 0 || !number(depth_word, &depth) || !number(work_word, &work))
        return false;
    begin_session(s, syntax, depth, work);
    return true;
}

static bool take_memory(script *s, char **words)
{
    size_t sizes[4];
    for (int i = 0; i < 4; i++)
        if (!number(words[i + 1], &sizes[i]))
            return false;
    s->begun = false;
    lend_memory(s, sizes[0], sizes[1], sizes[2], sizes[3]);
    return true;
}

static bool take_line(script *s, char *line)
{
    char *words[WORDS_MAX + 1];
    size_t count = 0;
    words[0] = line;
    for (char *word = line; word != NULL && count <= WORDS_MAX; count++) {
        words[count] = word;
        word = strchr(word, ' ');
        if (word != NULL)
            *word++ = 0;
    }
    if (strcmp(words[0], "#") == 0 || (count == 1 && *words[0] == 0))
        return true;
    if (count == 1 && s->begun && strcmp(words[0], "open") == 0) {
        open_scope(s);
        return true;
    }
    if (count == 1 && s->begun && strcmp(words[0], "end") == 0) {
        end_scope(s);
        return true;
    }
    if (count == 2)
        return take_two(s, words[0], words[1]);
    if (count == 3)
        return take_three(s, words[0], words[1], words[2]);
    if (count == 4 && strcmp(words[0], "session") == 0)
        return take_session(s, words[1], words[2], words[3]);
    if (count == 5 && strcmp(words[0], "memory") == 0)
        return take_memory(s, words);
    return false;
}

int main(void)
{
    script s = {0};
    char *line = NULL;
    size_t room = 0;
    ssize_t length;
    s.kind = DOLLAR_EMPTY;
    lend_memory(&s, 1048576, 4096, 4096, 1048576);
    while ((length = getline(&line, &room, stdin)) >= 0) {
        if (length > 0 && line[length - 1] == '\n')
            line[--length] = 0;
        if (!take_line(&s, line))
            fail("no line of a script, or a call without a session");
    }
    free(line);
    free(s.table.at);
    free(s.stem.at);
    free(s.formers);
    lend_memory(&s, 0, 0, 0, 0);
    free(s.lent.area);
    free(s.lent.frames);
    free(s.lent.records);
    free(s.lent.bytes);
    return 0;
}
