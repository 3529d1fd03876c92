/*
 * Dollar references in cabinet files: the library as C calls it.
 *
 * A text such as `pass: ${TARIFF_PASS}` goes in, the text with the property's value comes out. All memory is the caller's, and nothing is
 * allocated. Link with `libdollar.a`; docs/EMBEDDING.md says how, and how much memory to lend.
 *
 * What the caller owes, and nothing more:
 *   - a pointer and a length name memory that is there (a NULL pointer goes with the length 0);
 *   - memory that a call writes is apart from all other memory that the same call is given;
 *   - one call at a time on a session, its marks and its areas.
 * Whatever numbers stand in the structs and areas, a call answers or refuses, and touches the memory that it is given alone.
 */
#ifndef DOLLAR_H
#define DOLLAR_H

#include <stddef.h>
#include <stdint.h>

#ifdef __cplusplus
extern "C" {
#endif

/* What the bytes of a table are; docs/SOURCES.md has both formats byte by byte. */
enum dollar_table_kind {
    DOLLAR_EMPTY = 1, /* no table: nothing is set */
    DOLLAR_BOOK = 2,  /* records of 256 bytes, at most 256 of them */
    DOLLAR_BLOCK = 3  /* entries NAME=value, each with a zero byte behind it, at most 16384 bytes */
};

/* How references are written. */
enum dollar_syntax {
    DOLLAR_BRACED = 1,         /* ${NAME} */
    DOLLAR_BRACED_OR_BARE = 2, /* $NAME too */
    DOLLAR_DOCKER_COMPOSE = 3  /* as Docker Compose has them; keys have none */
};

/* The numbers of refusals, and which fields of an outcome come with each. */
enum dollar_refusal {
    DOLLAR_ANSWERED = 0,
    DOLLAR_TOO_LONG = 1,             /* the text or the fallback has more than 8192 bytes */
    DOLLAR_NOT_UTF8 = 2,             /* offset: it is well-formed UTF-8 up to there only */
    DOLLAR_TOO_FEW_FRAMES = 3,       /* needed: how many frames */
    DOLLAR_UNRESOLVED = 4,           /* start, end: the name in the text, which is unset */
    DOLLAR_INVALID_NAME = 5,         /* start, end: the part of the text that is no reference */
    DOLLAR_REQUIRED_BUT_UNSET = 6,   /* start, end: the name; length: its message stands at the front of the output area */
    DOLLAR_REQUIRED_BUT_EMPTY = 7,   /* likewise */
    DOLLAR_DEPTH_LIMIT = 8,          /* reached, limit: the depth */
    DOLLAR_WORK_LIMIT = 9,           /* reached, limit: the work total */
    DOLLAR_OUTPUT_TOO_SHORT = 10,    /* needed: how many bytes of output area */
    DOLLAR_PAIRS_FULL = 11,          /* the pair list or the pair bytes have no room */
    DOLLAR_BAD_PAIRS = 12,           /* the pair memory is not the one that the marks belong to */
    DOLLAR_BAD_BOOK = 13,            /* bad_record: the number of the first bad record; 256 where the book is too long */
    DOLLAR_BAD_BLOCK = 14,           /* offset: where the first bad entry starts; 16384 where the block is too long */
    DOLLAR_BAD_STEM = 15,            /* the stem has more than 32 bytes, or is no UTF-8 */
    DOLLAR_BAD_SESSION = 100         /* the session is none: opening it was refused, or its numbers were changed */
};

/* A session between two calls. Only `total`, `breach` and what follows it change after the opening. All zero: no session. */
typedef struct dollar_session {
    uint32_t table_kind; /* enum dollar_table_kind */
    uint32_t syntax;     /* enum dollar_syntax */
    size_t max_depth;
    size_t max_work;
    size_t total;          /* the work done so far */
    uint32_t breach;       /* the first limit that a call passed: DOLLAR_DEPTH_LIMIT, DOLLAR_WORK_LIMIT, or 0 */
    size_t breach_reached; /* what was come to then, */
    size_t breach_limit;   /* and the limit */
} dollar_session;

/* The marks of a pair memory. All zero where no scope is open and all of the memory is free: begin with DOLLAR_MARKS. */
typedef struct dollar_marks {
    size_t records; /* how many pair records are in use */
    size_t bytes;   /* how many pair bytes are in use */
    uint32_t is_open;
    size_t start; /* where the innermost open scope starts */
} dollar_marks;

#define DOLLAR_MARKS {0, 0, 0, 0}

/* The scope that was the innermost before one was opened. */
typedef struct dollar_scope {
    uint32_t is_open;
    size_t start;
} dollar_scope;

/* A frame: working memory of one call, whose contents are the library's own and mean nothing between calls. */
typedef struct dollar_frame {
    size_t start, cursor, end, name_start, name_end;
    uint32_t syntax, completion;
} dollar_frame;

/* Where a pair of a text and its result lies in the pair bytes. */
typedef struct dollar_pair {
    size_t at;     /* where the text starts */
    size_t text;   /* how long it is */
    size_t result; /* how long the result is, which stands behind it */
} dollar_pair;

/* What a call came to. A field that says nothing of this outcome is 0. */
typedef struct dollar_outcome {
    uint32_t refusal;  /* enum dollar_refusal; 0: the call answers */
    uint32_t replaced; /* 1: another text stands for the caller's own, at the front of the output area */
    size_t length;     /* how long the text or the message at the front of the output area is */
    size_t start, end; /* a name or a part: the bytes of the call's text from `start` to the one before `end` */
    size_t offset;
    size_t bad_record;
    size_t needed;
    size_t reached, limit;
} dollar_outcome;

/* Where a text stands, and how long it is. */
typedef struct dollar_part {
    uint32_t from_area; /* 0: the caller's own text; 1: the front of the output area */
    size_t length;
} dollar_part;

/* How many frames a call on a text of n bytes needs, and the longest text. */
#define DOLLAR_FRAMES(n) ((n) / 5 + 1)
#define DOLLAR_TEXT_MAX 8192

/* Whether bytes are a lawful book (13), block (14) or stem (15). Reads them, and writes nothing. */
dollar_outcome dollar_check_book(const uint8_t *book, size_t book_len);
dollar_outcome dollar_check_block(const uint8_t *block, size_t block_len);
dollar_outcome dollar_check_stem(const uint8_t *stem, size_t stem_len);

/*
 * Opens a session: no work done, no limit passed. Reads table and stem, writes the session.
 *   max_depth  how deep references may nest: `${A:-${B}}` has depth 1; at 0 none may
 *   max_work   how often the session may look at a byte, over all of its calls; the total is never set back, so open one for each file
 *   stem       is put before each name in a text: with the stem `app.`, `${PASS}` asks the table for `app.PASS`; an empty one is none
 * Refuses a kind or a syntax of another number (100), then an unlawful table (13, 14), then an unlawful stem (15). After a refusal the
 * session is all zero, and each later call refuses it (100). The session keeps no pointer: table and stem are lent anew to each call.
 */
dollar_outcome dollar_open(dollar_session *session, uint32_t table_kind, uint32_t syntax, size_t max_depth, size_t max_work,
                           const uint8_t *table, size_t table_len, const uint8_t *stem, size_t stem_len);

/*
 * A key, or a value, with its references replaced by what the table has for their names.
 * Reads table, stem and text. Writes the session (total and breach), the marks, the pair records and pair bytes (where a text is replaced,
 * its pair is noted in the open scopes), the frames, and the whole output area: the new text at the front and zeros behind it; zeros where
 * the text stays as it is; after a refusal zeros, save the message of a 6 or 7 at the front.
 * Refuses 1, 2, 3 and 12 before any work is done, then 4 to 9, then 10 and 11; and 100, with nothing changed but the area, which is zero.
 * The table and the stem are to be those of the opening. Other bytes are read as they stand: an answer is then made of them.
 */
dollar_outcome dollar_key(dollar_session *session, const uint8_t *table, size_t table_len, const uint8_t *stem, size_t stem_len,
                          const uint8_t *text, size_t text_len, dollar_marks *marks, dollar_frame *frames, size_t frames_len,
                          dollar_pair *records, size_t records_len, uint8_t *bytes, size_t bytes_len, uint8_t *area, size_t area_len);
dollar_outcome dollar_value(dollar_session *session, const uint8_t *table, size_t table_len, const uint8_t *stem, size_t stem_len,
                            const uint8_t *text, size_t text_len, dollar_marks *marks, dollar_frame *frames, size_t frames_len,
                            dollar_pair *records, size_t records_len, uint8_t *bytes, size_t bytes_len, uint8_t *area, size_t area_len);

/*
 * Redactions: what may be shown of a message, a value or an identifier, by the pairs of the innermost open scope. Each reads its text, its
 * fallback, the marks, the pair records and the pair bytes, and writes the whole output area as above.
 *   dollar_message     a result of a pair in it gives way to the text of the pair, longest results first; where it has none, or one more
 *                      than once, a fixed text of 33 bytes stands for all of it
 *   dollar_shown_value the same with a fallback of the caller's
 *   dollar_identifier  the text of the first pair whose result it is, or the fallback
 * With no pair in the scope each stays as it is. Refuses 1, 2, 12, and 10 where the output area is too short for the new text, for one on
 * the way to it, or for the fallback.
 */
dollar_outcome dollar_message(const uint8_t *text, size_t text_len, const dollar_marks *marks, const dollar_pair *records,
                              size_t records_len, const uint8_t *bytes, size_t bytes_len, uint8_t *area, size_t area_len);
dollar_outcome dollar_shown_value(const uint8_t *text, size_t text_len, const uint8_t *fallback, size_t fallback_len,
                                  const dollar_marks *marks, const dollar_pair *records, size_t records_len, const uint8_t *bytes,
                                  size_t bytes_len, uint8_t *area, size_t area_len);
dollar_outcome dollar_identifier(const uint8_t *name, size_t name_len, const uint8_t *fallback, size_t fallback_len,
                                 const dollar_marks *marks, const dollar_pair *records, size_t records_len, const uint8_t *bytes,
                                 size_t bytes_len, uint8_t *area, size_t area_len);

/*
 * A scope of redaction pairs. `dollar_scope_begin` answers the scope before it, which goes to `dollar_scope_end` as it came, on every way
 * out; scopes end in the reverse of the order in which they began. The end of the outermost frees the pair memory.
 */
dollar_scope dollar_scope_begin(dollar_marks *marks);
void dollar_scope_end(dollar_marks *marks, dollar_scope former);

/* Where the text of an answer or the message of a refusal stands: of a call with a text and an output area of these lengths. */
dollar_part dollar_read(const dollar_outcome *outcome, size_t text_len, size_t area_len);

/* Bytes that are read. */
typedef struct dollar_bytes {
    const uint8_t *at;
    size_t length;
} dollar_bytes;

/* All that a session is lent, so that a call takes one pointer. */
typedef struct dollar_lent {
    dollar_bytes table, stem;
    dollar_frame *frames;
    size_t frames_len;
    dollar_pair *records;
    size_t records_len;
    uint8_t *bytes;
    size_t bytes_len;
    uint8_t *area;
    size_t area_len;
} dollar_lent;

/* The calls over what a session is lent. */
static inline dollar_outcome dollar_open_lent(dollar_session *session, uint32_t table_kind, uint32_t syntax, size_t max_depth,
                                              size_t max_work, const dollar_lent *lent)
{
    return dollar_open(session, table_kind, syntax, max_depth, max_work, lent->table.at, lent->table.length, lent->stem.at,
                       lent->stem.length);
}

static inline dollar_outcome dollar_key_lent(dollar_session *session, dollar_bytes text, dollar_marks *marks, const dollar_lent *lent)
{
    return dollar_key(session, lent->table.at, lent->table.length, lent->stem.at, lent->stem.length, text.at, text.length, marks,
                      lent->frames, lent->frames_len, lent->records, lent->records_len, lent->bytes, lent->bytes_len, lent->area,
                      lent->area_len);
}

static inline dollar_outcome dollar_value_lent(dollar_session *session, dollar_bytes text, dollar_marks *marks, const dollar_lent *lent)
{
    return dollar_value(session, lent->table.at, lent->table.length, lent->stem.at, lent->stem.length, text.at, text.length, marks,
                        lent->frames, lent->frames_len, lent->records, lent->records_len, lent->bytes, lent->bytes_len, lent->area,
                        lent->area_len);
}

static inline dollar_outcome dollar_message_lent(dollar_bytes text, const dollar_marks *marks, const dollar_lent *lent)
{
    return dollar_message(text.at, text.length, marks, lent->records, lent->records_len, lent->bytes, lent->bytes_len, lent->area,
                          lent->area_len);
}

static inline dollar_outcome dollar_shown_value_lent(dollar_bytes text, dollar_bytes fallback, const dollar_marks *marks,
                                                     const dollar_lent *lent)
{
    return dollar_shown_value(text.at, text.length, fallback.at, fallback.length, marks, lent->records, lent->records_len, lent->bytes,
                              lent->bytes_len, lent->area, lent->area_len);
}

static inline dollar_outcome dollar_identifier_lent(dollar_bytes name, dollar_bytes fallback, const dollar_marks *marks,
                                                    const dollar_lent *lent)
{
    return dollar_identifier(name.at, name.length, fallback.at, fallback.length, marks, lent->records, lent->records_len, lent->bytes,
                             lent->bytes_len, lent->area, lent->area_len);
}

/* The text of an answer, or the message of a refusal (no byte where it has none). It lies in the call's text or in the output area. */
static inline dollar_bytes dollar_text(const dollar_outcome *outcome, dollar_bytes text, const dollar_lent *lent)
{
    dollar_part part = dollar_read(outcome, text.length, lent->area_len);
    dollar_bytes read = {part.from_area ? lent->area : text.at, part.length};
    return read;
}

#ifdef __cplusplus
}
#endif

#endif
