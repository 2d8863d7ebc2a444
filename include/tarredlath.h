/*
 * Tarredlath: finds an MDX expression, tag or ESM block at a place of a page. C99, usable from C++; the library is
 * libtarredlath.a, for x86-64 Linux, which `./build-library` writes to target/staticlib.
 *
 * A scan starts at a byte of a page and makes steps. It ends with an answer, or it pauses when its allowance of steps is
 * spent, or, with a verdict source, it asks: then the caller has its JavaScript parser judge the body, gives the verdict,
 * and lets the scan go on. A worker keeps sixteen such scans going, a few steps of each in turn.
 *
 *     size_t words = tarredlath_words_enough(n).words;
 *     uint32_t *events = malloc(words * sizeof *events);
 *     tarredlath_ran ran = tarredlath_scan_once(page, n, 0, n, 0, TARREDLATH_TAG, TARREDLATH_FLOW, 0,
 *                                               8 * (n + 1), events, words);
 *     if (ran.answer.number == TARREDLATH_DONE) printf("ends at %zu\n", ran.answer.place);
 *
 * STATES. A scan and a worker are structs of numbers, handed over by value and handed back by value: copy them, store them,
 * as you like. Their fields are listed here so that they can be laid out, and are no business of a caller's. Every bit
 * pattern is answered: a state outside the ranges of docs/NUMBERS.md, or a number that stands for nothing, answers
 * TARREDLATH_BAD_CALL. A call that is refused hands the state back as it was, bit for bit, and writes nothing.
 *
 * MEMORY. Nothing is kept: a page, an event buffer, a scratch are lent for one call. A pointer must be valid for the length
 * beside it, not null even where the length is 0, and, where it is not `const`, must not overlap any other memory that is
 * lent to the same call. That is all that a caller owes, and the only thing that is not checked. No function allocates,
 * blocks, keeps a global or calls back; calls on different memory may be made in parallel.
 *
 * TIME. A run makes at most `allowance` steps, a whole scan of n bytes at most 8 (n + 1) of them. Without a verdict source a
 * scan never asks. With one, each `}` of an expression asks again: limit how often a page may ask, and then answer
 * TARREDLATH_ERROR.
 *
 * What each function promises, for all inputs, is proved: docs/PROMISES.md.
 */
#ifndef TARREDLATH_H
#define TARREDLATH_H

#include <stddef.h>
#include <stdint.h>

#ifdef __cplusplus
extern "C" {
#endif

/* The version of this interface. A library with another number has other functions, numbers or structs. */
#define TARREDLATH_VERSION 1u

/* ---- what a scan is asked ------------------------------------------------------------------------------------------- */

/* Constructs. */
#define TARREDLATH_EXPRESSION 0 /* `{` to its `}` */
#define TARREDLATH_TAG 1        /* `<` to its `>` */
#define TARREDLATH_ESM 2        /* an `import` or `export` block */

/* Kinds: standing alone, or inside a line of text. */
#define TARREDLATH_FLOW 0
#define TARREDLATH_TEXT 1

/* Flags, summed. */
#define TARREDLATH_ASKS 1      /* a verdict source is at hand; an ESM block needs one */
#define TARREDLATH_INTERRUPT 2 /* the construct would interrupt a paragraph; an ESM block may not */

/* Verdicts on a body. */
#define TARREDLATH_OK 0         /* the body is whole */
#define TARREDLATH_UNFINISHED 1 /* the body could go on; with a number */
#define TARREDLATH_ERROR 2      /* the body is wrong; with a number and an offset in the body */
#define TARREDLATH_LARGEST_VERDICT_NUMBER 65535 /* such a number is 1 to this */

/* The longest page that is taken, in bytes. */
#define TARREDLATH_PAGE_LIMIT 1048576

/* ---- what is answered ----------------------------------------------------------------------------------------------- */

/* Answers of a scan that has ended. */
#define TARREDLATH_DONE 0          /* the construct ended: `place` is where */
#define TARREDLATH_NOK 1           /* there is no such construct here */
#define TARREDLATH_NOT_ASCII 5     /* a letter outside ASCII in a name: place */
#define TARREDLATH_EOF 6           /* the page ended too early: place, where */
#define TARREDLATH_UNEXPECTED 7    /* a byte that can't stand here: place, where, note */
#define TARREDLATH_VERDICT_ERROR 8 /* a verdict said error: place, verdict */
#define TARREDLATH_VERDICT_EOF 9   /* the page ended behind an unfinished verdict: place, verdict */
#define TARREDLATH_FULL 10         /* the event buffer is full: place */

/* Refusals: nothing was done. */
#define TARREDLATH_TOO_LONG 2  /* the page is longer than TARREDLATH_PAGE_LIMIT */
#define TARREDLATH_BAD_START 3 /* the start is past the page's end, or the page is not inside the lent bytes */
#define TARREDLATH_BAD_TEXT 4  /* a carriage return, or bytes that are not UTF-8: place of the first */
#define TARREDLATH_NO_PLACE 11 /* all places of the worker are taken */
#define TARREDLATH_BAD_CALL 12 /* the call can't be taken */

/* Answers of a scan that goes on, and of a worker's calls. */
#define TARREDLATH_ASKING 31     /* it waits for a verdict: place */
#define TARREDLATH_PAUSED 32     /* its allowance is spent: place */
#define TARREDLATH_KEPT 33       /* the verdict is kept; the next step applies it */
#define TARREDLATH_STARTED 34    /* a worker is started */
#define TARREDLATH_PLACED 35     /* a page is admitted: `place` is the worker's place, 0 to 15 */
#define TARREDLATH_SERVED 36     /* a turn was made: `place` is the worker's place */
#define TARREDLATH_IDLE 37       /* no place runs */
#define TARREDLATH_IN_PAGE 38    /* a body that is a part of the page */
#define TARREDLATH_IN_SCRATCH 39 /* a body at the front of the scratch */
#define TARREDLATH_WORDS 40      /* so many words are enough */

/* An answer: its number, and what it carries. What it does not carry is 0. A place is a byte offset from the page's first
   byte; line and column are its own, from 1. DONE to FULL but TOO_LONG, BAD_START and BAD_TEXT, ASKING and PAUSED carry how
   many events and steps the scan has made. */
typedef struct tarredlath_answer {
    size_t place;
    size_t line;
    size_t column;
    size_t events;
    size_t steps;
    uint32_t verdict; /* the number that the caller gave with a verdict */
    uint8_t number;   /* which answer this is: one of the above */
    uint8_t where;    /* 1 to 19: what was being read; docs/NUMBERS.md has the list */
    uint8_t note;     /* 1 to 4: a hint for the author, or 0; docs/NUMBERS.md has the list */
} tarredlath_answer;

/* ---- events --------------------------------------------------------------------------------------------------------- */

/* An event is four words of the event buffer: KIND * 8 + 2 * V + EXIT, the byte offset, the line, the column. EXIT is 0 where
   something is entered and 1 where it is left; V is the number of columns passed of a tab that the event stands inside, and 0
   nearly everywhere. */
#define TARREDLATH_EVENT_WORDS 4
#define TARREDLATH_EVENT_KIND(word) ((word) >> 3)
#define TARREDLATH_EVENT_TAB(word) (((word) >> 1) & 3u)
#define TARREDLATH_EVENT_EXIT(word) ((word) & 1u)

/* The kinds, by the names that the Rust crate `markdown` gives them. */
#define TARREDLATH_KIND_FLOW_EXPRESSION 1
#define TARREDLATH_KIND_TEXT_EXPRESSION 2
#define TARREDLATH_KIND_EXPRESSION_MARKER 3
#define TARREDLATH_KIND_LINE_ENDING 4
#define TARREDLATH_KIND_EXPRESSION_DATA 5
#define TARREDLATH_KIND_LINE_PREFIX 6
#define TARREDLATH_KIND_JSX_FLOW_TAG 7
#define TARREDLATH_KIND_JSX_TEXT_TAG 8
#define TARREDLATH_KIND_JSX_TAG_MARKER 9
#define TARREDLATH_KIND_JSX_TAG_CLOSING_MARKER 10
#define TARREDLATH_KIND_JSX_TAG_NAME 11
#define TARREDLATH_KIND_JSX_TAG_NAME_PRIMARY 12
#define TARREDLATH_KIND_JSX_TAG_NAME_MEMBER_MARKER 13
#define TARREDLATH_KIND_JSX_TAG_NAME_PREFIX_MARKER 14
#define TARREDLATH_KIND_JSX_TAG_NAME_MEMBER 15
#define TARREDLATH_KIND_JSX_TAG_NAME_LOCAL 16
#define TARREDLATH_KIND_JSX_TAG_SELF_CLOSING_MARKER 17
#define TARREDLATH_KIND_JSX_TAG_ATTRIBUTE_EXPRESSION 18
#define TARREDLATH_KIND_JSX_TAG_ATTRIBUTE 19
#define TARREDLATH_KIND_JSX_TAG_ATTRIBUTE_NAME 20
#define TARREDLATH_KIND_JSX_TAG_ATTRIBUTE_PRIMARY_NAME 21
#define TARREDLATH_KIND_JSX_TAG_ATTRIBUTE_NAME_PREFIX_MARKER 22
#define TARREDLATH_KIND_JSX_TAG_ATTRIBUTE_INITIALIZER_MARKER 23
#define TARREDLATH_KIND_JSX_TAG_ATTRIBUTE_NAME_LOCAL 24
#define TARREDLATH_KIND_JSX_TAG_ATTRIBUTE_VALUE_LITERAL 25
#define TARREDLATH_KIND_JSX_TAG_ATTRIBUTE_VALUE_LITERAL_MARKER 26
#define TARREDLATH_KIND_JSX_TAG_ATTRIBUTE_VALUE_EXPRESSION 27
#define TARREDLATH_KIND_JSX_TAG_ATTRIBUTE_VALUE_LITERAL_VALUE 28
#define TARREDLATH_KIND_JSX_ES_WHITESPACE 29
#define TARREDLATH_KIND_ESM 30
#define TARREDLATH_KIND_ESM_DATA 31

/* How many words are enough: WORDS with that many, or TOO_LONG. */
typedef struct tarredlath_words {
    size_t words;
    uint8_t number;
} tarredlath_words;

/* The words of an event buffer that no scan of a page of `length` bytes fills: 24 (length + 1). A worker needs sixteen times
   as many. */
tarredlath_words tarredlath_words_enough(size_t length);

/* The version that the library was built with: compare it with TARREDLATH_VERSION. */
uint32_t tarredlath_version(void);

/* ---- single scans --------------------------------------------------------------------------------------------------- */

/* A scan. */
typedef struct tarredlath_scan {
    size_t length;
    size_t start;
    size_t words;
    size_t at;
    size_t saved;
    size_t body;
    size_t joint;
    size_t fault;
    size_t line;
    size_t column;
    size_t kept_line;
    size_t kept_column;
    size_t fault_line;
    size_t fault_column;
    size_t used;
    size_t steps;
    size_t heard_offset;
    uint32_t depth;
    uint32_t last;
    uint32_t heard_number;
    uint16_t quote;
    uint8_t construct;
    uint8_t kind;
    uint8_t flags;
    uint8_t state;
    uint8_t back;
    uint8_t prefix;
    uint8_t where;
    uint8_t note;
    uint8_t tab;
    uint8_t heard;
} tarredlath_scan;

/* The scan to go on with, beside the answer. */
typedef struct tarredlath_ran {
    tarredlath_scan scan;
    tarredlath_answer answer;
} tarredlath_ran;

/* A single scan in one call: the page that is `length` bytes from `at` on of the lent bytes is scanned from its byte `start`
   on, with at most `allowance` steps. BAD_CALL comes before TOO_LONG, BAD_START and BAD_TEXT, in this order; it is also given
   for an allowance of 0. Where the answer is ASKING or PAUSED, go on with the scan that is handed back; where the call was
   refused there is none, and what is handed back is a scan of nothing that has ended. */
tarredlath_ran tarredlath_scan_once(const uint8_t *bytes, size_t bytes_length, size_t at, size_t length, size_t start,
                                    uint8_t construct, uint8_t kind, uint8_t flags, size_t allowance, uint32_t *events,
                                    size_t events_length);

/* A new scan over an event buffer of `words` words, which has made no step: its answer is PAUSED, or why there is none, as for
   a scan in one call. */
tarredlath_ran tarredlath_scan_new(const uint8_t *bytes, size_t bytes_length, size_t at, size_t length, size_t start,
                                   uint8_t construct, uint8_t kind, uint8_t flags, size_t words);

/* At most `allowance` steps of a scan over its page, which must have the scan's length, as must the event buffer. Events are
   written behind those that the scan has written before. */
tarredlath_ran tarredlath_scan_run(tarredlath_scan scan, const uint8_t *page, size_t page_length, uint32_t *events,
                                   size_t events_length, size_t allowance);

/* The verdict that a scan asked for: KEPT. For OK, number and offset are not looked at; for UNFINISHED the offset is not. */
tarredlath_ran tarredlath_scan_give(tarredlath_scan scan, uint8_t verdict, uint32_t number, size_t offset);

/* The answer of a scan as it stands. */
tarredlath_answer tarredlath_scan_answer(tarredlath_scan scan);

/* Kinds of bodies: an expression that stands alone, an attribute that is an expression (`<a {...b}>`), an attribute's value
   (`<a b={c}>`), an ESM block. */
#define TARREDLATH_NO_BODY 0
#define TARREDLATH_BODY_EXPRESSION 1
#define TARREDLATH_BODY_ATTRIBUTE_EXPRESSION 2
#define TARREDLATH_BODY_ATTRIBUTE_VALUE 3
#define TARREDLATH_BODY_ESM 4

/* Where a body is. IN_PAGE: `length` bytes from `at` on of the page. IN_SCRATCH: the first `length` bytes of the scratch. */
typedef struct tarredlath_body {
    size_t at;
    size_t length;
    uint8_t number;
    uint8_t kind;
} tarredlath_body;

/* The body that a scan asks about. It is a part of the page wherever that can be; only where a line prefix stands between two
   of its bytes is it copied. A scratch of n + n / 2 bytes is enough for every body of a page of n bytes. BAD_CALL: the scan
   does not ask, the page has another length, or the scratch is too short, which is then as it was. The body can still be read
   when a verdict is kept, up to the next step. */
tarredlath_body tarredlath_scan_body(tarredlath_scan scan, const uint8_t *page, size_t page_length, uint8_t *scratch,
                                     size_t scratch_length);

/* ---- all openings of a page in one call ----------------------------------------------------------------------------- */

/* One opening: what to scan, and what it is answered. The caller fills in the first four fields, and the call the others. */
typedef struct tarredlath_opening {
    size_t start;
    uint8_t construct; /* EXPRESSION or TAG */
    uint8_t kind;
    uint8_t flags; /* 0 or INTERRUPT: lists have no verdicts */
    uint8_t answer;
    size_t place;
    size_t line;
    size_t column;
    uint8_t where;
    uint8_t note;
    size_t events;
    size_t steps;
    size_t first; /* the number of its first event in the buffer, counted in events */
} tarredlath_opening;

/* What became of a list: DONE where every opening is answered, FULL where the last that is answered ran full, and those behind
   it are as they were, BAD_CALL where the list asks for anything but counting expressions and tags, and nothing is touched. */
typedef struct tarredlath_filled {
    uint8_t answer;
    size_t openings; /* how many are answered */
    size_t events;   /* how many events stand in the buffer */
} tarredlath_filled;

/* Each opening is scanned as by tarredlath_scan_once with steps enough, in list order, over the room that the earlier ones
   left. The page's text is checked once. */
tarredlath_filled tarredlath_fill(const uint8_t *page, size_t page_length, tarredlath_opening *openings,
                                  size_t openings_length, uint32_t *events, size_t events_length);

/* ---- a worker ------------------------------------------------------------------------------------------------------- */

#define TARREDLATH_PLACES 16

/* A place of a worker. */
typedef struct tarredlath_place {
    tarredlath_scan scan;
    size_t at;
    size_t taken;
} tarredlath_place;

/* A worker. */
typedef struct tarredlath_worker {
    tarredlath_place places[TARREDLATH_PLACES];
    size_t last;
    size_t q;
    size_t words;
} tarredlath_worker;

/* A worker that was started: STARTED, or BAD_CALL, and then every call on it is refused. Where `fits` is 1, no page of up to
   `longest` bytes can run full in it, if its bytes stay as they were; where it is 0, no length is promised. */
typedef struct tarredlath_started {
    tarredlath_worker worker;
    size_t longest;
    uint8_t number;
    uint8_t fits;
} tarredlath_started;

/* The worker to go on with, beside the answer. */
typedef struct tarredlath_called {
    tarredlath_worker worker;
    tarredlath_answer answer;
} tarredlath_called;

/* A worker whose turns have `q` steps, 1 to 4096, over an event buffer of `words` words, of which each place has a sixteenth. */
tarredlath_started tarredlath_worker_start(size_t q, size_t words);

/* The page that is `length` bytes from `at` on of the lent bytes is given the lowest free place, to be scanned from its byte
   `start` on: PLACED. Until it is collected, its bytes must stay where they are in what is lent to each turn. */
tarredlath_called tarredlath_worker_admit(tarredlath_worker worker, const uint8_t *bytes, size_t bytes_length, size_t at,
                                          size_t length, size_t start, uint8_t construct, uint8_t kind, uint8_t flags);

/* One turn, of the next place that runs: SERVED, or IDLE. The event buffer must have the length of the start. */
tarredlath_called tarredlath_worker_turn(tarredlath_worker worker, const uint8_t *bytes, size_t bytes_length,
                                         uint32_t *events, size_t events_length);

/* The verdict that a place asked for: KEPT. The place's next turn applies it. */
tarredlath_called tarredlath_worker_verdict(tarredlath_worker worker, size_t place, uint8_t verdict, uint32_t number,
                                            size_t offset);

/* The answer of a page that has ended, whose place is free again. Its events stay in the buffer until a turn overwrites them:
   look where they are before (tarredlath_worker_view). */
tarredlath_called tarredlath_worker_collect(tarredlath_worker worker, size_t place);

/* The body that a place asks about. `at` counts from the first byte of the place's page, as in a single scan. */
tarredlath_body tarredlath_worker_body(tarredlath_worker worker, const uint8_t *bytes, size_t bytes_length, size_t place,
                                       uint8_t *scratch, size_t scratch_length);

/* What a place waits for. */
#define TARREDLATH_WAITS_PAGE 0    /* it is free */
#define TARREDLATH_WAITS_TURN 1    /* it runs */
#define TARREDLATH_WAITS_VERDICT 2 /* it asks */
#define TARREDLATH_WAITS_COLLECT 3 /* it has ended */

/* What there is of a place. Its page is `length` bytes from `at` on of the lent bytes; its events begin at the word `first` of
   the event buffer, and `events` of them are written. */
typedef struct tarredlath_view {
    size_t at;
    size_t length;
    size_t first;
    size_t events;
    uint8_t waits; /* one of the above; BAD_CALL where there is no such place, or worker or place are out of range */
    uint8_t body;  /* the kind of the body that can be read, or NO_BODY */
} tarredlath_view;

tarredlath_view tarredlath_worker_view(tarredlath_worker worker, size_t place);

#ifdef __cplusplus
}
#endif

#endif
