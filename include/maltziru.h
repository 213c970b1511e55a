/* maltziru.h: access control over a test fixture's record of rows.
 *
 * A C11 header, also C++ clean, with no dependency but the C library's own headers for integers. The library keeps nothing between calls: all memory is lent by the program, and what goes from call to
 * call (the ledger, the grants, the caller) is handed over by value.
 *
 * A line or query goes in as its bytes and how many they are: a newline or NUL at its end would be one byte more, which no form has (1).
 * The library has no variables, so that calls are reentrant: one may run in a task or an interrupt while another is under way. A record (ledger, names, times, values) and a catalogue have one writer at
 * a time, and none while a call that was lent them is under way; calls that only read them, maltziru_ask and maltziru_line, may run side by side.
 *
 * What every call does, for any text, numbers and contents of lent memory:
 *   - it returns 0 or one of the twelve refusals below, the first in their fixed order whose condition holds;
 *   - refused, it leaves every lent place as it was, and returns the ledger or caller as it was given;
 *   - accepted, it changes exactly the lent places that its comment names.
 * This is proved of the library's code (docs/READING.md). What the program must see to, as the proof cannot:
 *   - a pointer with a length n points to n items, is aligned for them, and is not written by others during the call; with length 0 it may be any pointer, null too;
 *   - a place that is written overlaps no other place that is lent to the same call;
 *   - structs hold plain numbers, any of them: nothing is asked of their values.
 * Lengths are counts of items, not bytes, and 64 bits wide on every machine that this header is for. */
#ifndef MALTZIRU_H
#define MALTZIRU_H

#include <stddef.h>
#include <stdint.h>

#ifdef __cplusplus
extern "C" {
#endif

/* The version of this header and its library: the first number moves when a program that uses them has to be changed, the second when there is something new. */
#define MALTZIRU_VERSION_MAJOR 0
#define MALTZIRU_VERSION_MINOR 9
#define MALTZIRU_VERSION (MALTZIRU_VERSION_MAJOR * 1000 + MALTZIRU_VERSION_MINOR)

/* How much to lend. */
#define MALTZIRU_STREAMS 4                                                          /* streams */
#define MALTZIRU_COLUMNS 6                                                          /* columns of a stream */
#define MALTZIRU_ROWS 128                                                           /* rows of a stream */
#define MALTZIRU_NAMES (MALTZIRU_STREAMS + MALTZIRU_STREAMS * MALTZIRU_COLUMNS)     /* names: 28 */
#define MALTZIRU_TIMES (MALTZIRU_STREAMS * MALTZIRU_ROWS)                           /* times: 512 */
#define MALTZIRU_VALUES (MALTZIRU_TIMES * MALTZIRU_COLUMNS)                         /* values: 3,072 */
#define MALTZIRU_GRANTS 24                                                          /* grants */
#define MALTZIRU_GRANT_WORDS 95                                                     /* words of a grant's conditions */
#define MALTZIRU_WORDS (MALTZIRU_GRANTS * MALTZIRU_GRANT_WORDS)                     /* words: 2,280 */
#define MALTZIRU_ROLES 4                                                            /* roles of a caller */
#define MALTZIRU_ENTRIES 4                                                          /* profile entries of a caller */
#define MALTZIRU_ROUTES 16                                                          /* routes of an answer */
#define MALTZIRU_LINE 512                                                           /* bytes of a line that is read */
#define MALTZIRU_LINE_BYTES 4096                                                    /* bytes that hold every rewritten line, of grants that calls made */

/* How many cells an answer has: four for each route and those of its rows, `width` a row, which is one for time and one for each column; and one for the number of routes.
 * Routes of different widths or rows have one and the MALTZIRU_ROUTE_CELLS of each; the second macro with the greatest of them is room for all.
 * One stream has at most MALTZIRU_ROWS rows, a join MALTZIRU_ROWS times as many, an aggregate 64 for each row of its stream or of its two. */
#define MALTZIRU_ROUTE_CELLS(width, rows) (4 + (width) * (rows))
#define MALTZIRU_ANSWER_CELLS(routes, width, rows) (1 + (routes) * MALTZIRU_ROUTE_CELLS(width, rows))

/* The refusals, in the order in which their conditions are tried. Structs and results hold them as uint32_t and never as this type, so that it may have any size (-fshort-enums). */
enum maltziru_refusal {
    MALTZIRU_ACCEPTED = 0,
    MALTZIRU_LENT = 12,        /* something lent that calls cannot have made, or too little of it */
    MALTZIRU_MALFORMED = 1,    /* not a line of the stated form */
    MALTZIRU_BOUND = 3,        /* above a bound, or a number beyond its range; a line over 512 bytes, before 1 */
    MALTZIRU_UNDECLARED = 2,   /* a stream or column that is not declared */
    MALTZIRU_REPEATED = 6,     /* a name declared or listed twice */
    MALTZIRU_MISPLACED = 4,    /* a column, part or form not allowed there; a wrong number of values; `from` above `to` */
    MALTZIRU_WINDOW_SIZE = 5,  /* SIZE or OFFSET below 1, or SIZE above 64 times OFFSET */
    MALTZIRU_CLOCK_BACK = 7,   /* a time below the clock */
    MALTZIRU_STREAM_FULL = 8,  /* a 129th row */
    MALTZIRU_NO_ROUTE = 9,     /* no grant of the caller opens the query, or no route of that number */
    MALTZIRU_MANY_ROUTES = 10, /* more than 16 routes */
    MALTZIRU_NO_ROOM = 11      /* the answer or line is longer than the memory lent */
};

/* The clock and how many rows each stream has. Goes in with each call on the record and comes back with it. */
struct maltziru_ledger {
    uint32_t clock;
    uint32_t rows[MALTZIRU_STREAMS];
};

/* One grant of the catalogue, as maltziru_grant returns it. The program keeps those accepted in an array, in order. */
struct maltziru_grant {
    uint64_t role;
    uint32_t right, count, streams[MALTZIRU_STREAMS], shown, words, from, to, size, offset;
};

/* Who asks: roles and profile entries, as maltziru_caller returns them. */
struct maltziru_caller {
    uint32_t roles;
    uint64_t role[MALTZIRU_ROLES];
    uint32_t entries;
    uint64_t name[MALTZIRU_ENTRIES];
    int32_t value[MALTZIRU_ENTRIES];
};

struct maltziru_ledger_reply { uint32_t refusal; struct maltziru_ledger ledger; };
struct maltziru_grant_reply { uint32_t refusal; struct maltziru_grant grant; };
struct maltziru_caller_reply { uint32_t refusal; struct maltziru_caller caller; };
/* Either the refusal, with count 0, or 0 and how many cells or bytes were written. */
struct maltziru_reply { uint32_t refusal; uint32_t count; };

/* Lengths, as the library takes them. */
typedef uint64_t maltziru_len;

/* ---- streams: `names` are MALTZIRU_NAMES numbers, all 0 at first */

/* A line `(stream S C ..)`. Refusals 12, 1, 3, 6, 4.
 * Accepted: the names hold the new stream's in its places, all others are as they were. Refused: all are as they were. */
uint32_t maltziru_stream(uint64_t *names, maltziru_len names_len, const uint8_t *line, maltziru_len line_len);

/* ---- the record: `times` are MALTZIRU_TIMES numbers, `values` MALTZIRU_VALUES, whatever they hold at first */

/* The ledger of a fresh record: clock 0 and no rows. */
struct maltziru_ledger maltziru_fresh(void);

/* Sets the clock to a time, any number. Refusals 12, 3, 7. Returns the ledger with the new clock, or as it was. */
struct maltziru_ledger_reply maltziru_clock(struct maltziru_ledger ledger, int64_t time);

/* Adds a row to the stream of a number (from 0, in the order of the stream lines), stamped with the clock. Refusals 12, 2, 4, 8.
 * Accepted: the ledger with one row more; the row's time and its values stand in the next place of that stream, all other places are as they were. Refused: all are. */
struct maltziru_ledger_reply maltziru_row(struct maltziru_ledger ledger, const uint64_t *names, maltziru_len names_len, maltziru_len stream, const int32_t *row,
    maltziru_len row_len, uint32_t *times, maltziru_len times_len, int32_t *values, maltziru_len values_len);

/* Drops all rows and keeps the clock. Refusal 12. Times and values stay where they are. What stands past a stream's count may still be read, as rows are compared many at once and those past the
 * count masked off; but no result of any call hangs on it. */
struct maltziru_ledger_reply maltziru_clear(struct maltziru_ledger ledger);

/* The same by lines: `(clock N)`, `(row S N ..)`, `(clear)`. Refusals 1 and 3 of the text beside those of the call. */
struct maltziru_ledger_reply maltziru_clock_line(struct maltziru_ledger ledger, const uint8_t *line, maltziru_len line_len);
struct maltziru_ledger_reply maltziru_row_line(struct maltziru_ledger ledger, const uint64_t *names, maltziru_len names_len, const uint8_t *line, maltziru_len line_len,
    uint32_t *times, maltziru_len times_len, int32_t *values, maltziru_len values_len);
struct maltziru_ledger_reply maltziru_clear_line(struct maltziru_ledger ledger, const uint8_t *line, maltziru_len line_len);

/* ---- grants: an array of at most MALTZIRU_GRANTS structs, and MALTZIRU_WORDS words, whatever these hold at first */

/* A line `(grant ROLE RIGHT (of S ..) (show S.C ..) ..)`, where `count` grants were accepted before. Refusals 12, 1, 3, 2, 6, 4.
 * Accepted: the grant, to be put into place `count` of the array; the words of its conditions stand in its own MALTZIRU_GRANT_WORDS words, all others are as they were.
 * Refused: a grant of zeros; all words are as they were. */
struct maltziru_grant_reply maltziru_grant(const uint64_t *names, maltziru_len names_len, maltziru_len count, const uint8_t *line, maltziru_len line_len, uint32_t *words,
    maltziru_len words_len);

/* ---- callers */

/* The caller of no role and no profile entry. */
struct maltziru_caller maltziru_nobody(void);

/* A line `(caller (roles ROLE ..) (self NAME N) ..)`. Refusals 1, 3, 6. Returns the caller that the line names, or the one given. */
struct maltziru_caller_reply maltziru_caller(struct maltziru_caller caller, const uint8_t *line, maltziru_len line_len);

/* ---- queries */

/* Puts a query to the record for a caller, under the first `grants_len` grants. Refusals 12, 1, 3, 2, 6, 4, 5, 9, 10, 11.
 * Accepted: `count` cells of the answer stand in front: the number of routes; for each route two grant numbers (the second 0 if only one), width, row count, and the rows, each its time and its columns.
 * All cells past them are as they were. Refused: all are. */
struct maltziru_reply maltziru_ask(const struct maltziru_grant *grants, maltziru_len grants_len, const uint32_t *words, maltziru_len words_len, struct maltziru_ledger ledger,
    const uint64_t *names, maltziru_len names_len, const uint32_t *times, maltziru_len times_len, const int32_t *values, maltziru_len values_len,
    struct maltziru_caller caller, const uint8_t *query, maltziru_len query_len, int64_t *cells, maltziru_len cells_len);

/* Writes the line of route number `route` (from 1) of a query: the query as it is put to the record for that route, which run with no grants gives the route's rows.
 * Refusals as above. Accepted: `count` bytes of the line stand in front, without an end mark; all bytes past them are as they were. Refused: all are.
 * MALTZIRU_LINE_BYTES hold every line of grants that maltziru_grant made. Lent grants and words that no call made, but that pass 12, can have conditions for which a grant line has no room: their line
 * can be longer, and is 11 then. */
struct maltziru_reply maltziru_line(const struct maltziru_grant *grants, maltziru_len grants_len, const uint32_t *words, maltziru_len words_len, struct maltziru_ledger ledger,
    const uint64_t *names, maltziru_len names_len, const uint32_t *times, maltziru_len times_len, const int32_t *values, maltziru_len values_len,
    struct maltziru_caller caller, int64_t route, const uint8_t *query, maltziru_len query_len, uint8_t *bytes, maltziru_len bytes_len);

/* A refusal in plain words, for a display or a log. */
static inline const char *maltziru_refusal_text(uint32_t refusal) {
    switch (refusal) {
    case MALTZIRU_ACCEPTED: return "accepted";
    case MALTZIRU_MALFORMED: return "not a line of a known form";
    case MALTZIRU_UNDECLARED: return "a stream or column that is not declared";
    case MALTZIRU_BOUND: return "too long, too many, too deep, or a number out of its range";
    case MALTZIRU_MISPLACED: return "a part, a column or a number of values that does not fit its place";
    case MALTZIRU_WINDOW_SIZE: return "a window's size or offset is below 1, or its size above 64 offsets";
    case MALTZIRU_REPEATED: return "a name is there twice";
    case MALTZIRU_CLOCK_BACK: return "the time is before the clock";
    case MALTZIRU_STREAM_FULL: return "the stream has all its rows";
    case MALTZIRU_NO_ROUTE: return "no grant opens this for the caller, or no route has that number";
    case MALTZIRU_MANY_ROUTES: return "too many routes";
    case MALTZIRU_NO_ROOM: return "the answer or line is longer than the room for it";
    case MALTZIRU_LENT: return "what was lent is not what calls made";
    default: return "no refusal of this number";
    }
}

#ifdef __cplusplus
}
#endif
#endif
