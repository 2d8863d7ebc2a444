/*
 * scan_page [FILE [OFFSET]]: scans the expression, tag or ESM block that begins at a byte of a page, and lists it as ./list does:
 * the answer on the first line, then a line for each event.
 *
 * This is an example, to be read from the top. `scan` has all that is needed of the library: ask how much event room is enough,
 * scan, and give a verdict wherever the scan asks for one. The rest reads a page and writes what was found.
 *
 * FILE is the page, standard input if it is left out or `-`; OFFSET is where the construct begins, 0 if it is left out.
 * Status: 0 for Done, 1 for any other answer, 2 where there is none.
 */
#include <stdio.h>
#include <stdlib.h>
#include <string.h>

#include "tarredlath.h"

/* A page as it was read. There is room for one byte more than the library takes, so that it can say itself that a page is too
   long. */
static uint8_t page[TARREDLATH_PAGE_LIMIT + 1];
static size_t page_length;

/* A body that must be copied is copied here: no page has a longer one than this. */
static uint8_t scratch[TARREDLATH_PAGE_LIMIT + TARREDLATH_PAGE_LIMIT / 2];

/* ---- scanning ------------------------------------------------------------------------------------------------------- */

/* What to look for is the caller's choice; a Markdown parser knows it from where it is. Here the first byte tells. */
static uint8_t construct_at(size_t start) {
    if (start < page_length && page[start] == '{') {
        return TARREDLATH_EXPRESSION;
    }
    if (start < page_length && page[start] == '<') {
        return TARREDLATH_TAG;
    }
    return TARREDLATH_ESM;
}

/* What a JavaScript parser says of a body. This one takes everything: put your own in its place, which reads the bytes
   `text[0]` to `text[length - 1]` as the kind says, and may say UNFINISHED or ERROR, with a number of its choice. */
static uint8_t judge(const uint8_t *text, size_t length, uint8_t kind) {
    (void)text;
    (void)length;
    (void)kind;
    return TARREDLATH_OK;
}

/* The scan asks: its body is looked up, judged, and the verdict is given. Only then can it run again. */
static tarredlath_scan answer_question(tarredlath_scan asking) {
    tarredlath_body body = tarredlath_scan_body(asking, page, page_length, scratch, sizeof scratch);
    const uint8_t *text = body.number == TARREDLATH_IN_SCRATCH ? scratch : page + body.at;
    uint8_t verdict = judge(text, body.length, body.kind);
    return tarredlath_scan_give(asking, verdict, 1, 0).scan;
}

/* The whole scan. An expression or a tag is scanned without a verdict source here, so that braces are counted and nothing is
   asked; an ESM block can't be told without one. */
static tarredlath_answer scan(size_t start, uint32_t *events, size_t words) {
    uint8_t construct = construct_at(start);
    uint8_t flags = construct == TARREDLATH_ESM ? TARREDLATH_ASKS : 0;
    size_t steps = 8 * (page_length + 1); /* no scan makes more, so it never answers PAUSED */
    tarredlath_ran ran = tarredlath_scan_once(page, page_length, 0, page_length, start, construct, TARREDLATH_FLOW, flags, steps,
                                              events, words);
    while (ran.answer.number == TARREDLATH_ASKING) {
        tarredlath_scan ready = answer_question(ran.scan);
        ran = tarredlath_scan_run(ready, page, page_length, events, words, steps);
    }
    return ran.answer;
}

/* ---- writing -------------------------------------------------------------------------------------------------------- */

/* The names of the kinds of events, by their numbers. */
static const char *const kind_names[] = {
    "",
    "flow-expression",
    "text-expression",
    "expression-marker",
    "line-ending",
    "expression-data",
    "line-prefix",
    "jsx-flow-tag",
    "jsx-text-tag",
    "jsx-tag-marker",
    "jsx-tag-closing-marker",
    "jsx-tag-name",
    "jsx-tag-name-primary",
    "jsx-tag-name-member-marker",
    "jsx-tag-name-prefix-marker",
    "jsx-tag-name-member",
    "jsx-tag-name-local",
    "jsx-tag-self-closing-marker",
    "jsx-tag-attribute-expression",
    "jsx-tag-attribute",
    "jsx-tag-attribute-name",
    "jsx-tag-attribute-primary-name",
    "jsx-tag-attribute-name-prefix-marker",
    "jsx-tag-attribute-initializer-marker",
    "jsx-tag-attribute-name-local",
    "jsx-tag-attribute-value-literal",
    "jsx-tag-attribute-value-literal-marker",
    "jsx-tag-attribute-value-expression",
    "jsx-tag-attribute-value-literal-value",
    "jsx-es-whitespace",
    "esm",
    "esm-data",
};

/* An answer's name, and which of the fields it carries: the place alone, or with its line and column, then one more or two. */
enum carried { NOTHING, END, SPOT, SPOT_WHERE, SPOT_WHERE_NOTE, SPOT_VERDICT };
struct answer_form {
    const char *name;
    enum carried carried;
    int counted; /* whether it carries its steps and events */
};

static const struct answer_form answer_forms[] = {
    {"done", END, 1},                   /* TARREDLATH_DONE */
    {"nok", NOTHING, 1},                /* TARREDLATH_NOK */
    {"toolong", NOTHING, 0},            /* TARREDLATH_TOO_LONG */
    {"badstart", NOTHING, 0},           /* TARREDLATH_BAD_START */
    {"badtext", SPOT, 0},               /* TARREDLATH_BAD_TEXT */
    {"notascii", SPOT, 1},              /* TARREDLATH_NOT_ASCII */
    {"eof", SPOT_WHERE, 1},             /* TARREDLATH_EOF */
    {"unexpected", SPOT_WHERE_NOTE, 1}, /* TARREDLATH_UNEXPECTED */
    {"verdicterror", SPOT_VERDICT, 1},  /* TARREDLATH_VERDICT_ERROR */
    {"verdicteof", SPOT_VERDICT, 1},    /* TARREDLATH_VERDICT_EOF */
    {"full", SPOT, 1},                  /* TARREDLATH_FULL */
    {"noplace", NOTHING, 0},            /* TARREDLATH_NO_PLACE: only a worker says it */
    {"badcall", NOTHING, 0},            /* TARREDLATH_BAD_CALL */
};

static void write_number(size_t number) {
    printf(" %lu", (unsigned long)number);
}

static void write_answer(tarredlath_answer answer) {
    struct answer_form form = answer_forms[answer.number];
    printf("%s", form.name);
    if (form.carried != NOTHING) {
        write_number(answer.place);
    }
    if (form.carried >= SPOT) {
        write_number(answer.line);
        write_number(answer.column);
    }
    if (form.carried == SPOT_WHERE || form.carried == SPOT_WHERE_NOTE) {
        write_number(answer.where);
    }
    if (form.carried == SPOT_WHERE_NOTE) {
        write_number(answer.note);
    }
    if (form.carried == SPOT_VERDICT) {
        write_number(answer.verdict);
    }
    if (form.counted) {
        write_number(answer.steps);
        write_number(answer.events);
    }
    printf("\n");
}

/* An event is four words: what it is, the offset, the line, the column. */
static void write_event(const uint32_t *event) {
    const char *way = TARREDLATH_EVENT_EXIT(event[0]) ? "exit" : "enter";
    printf("%s %s", way, kind_names[TARREDLATH_EVENT_KIND(event[0])]);
    write_number(event[1]);
    write_number(event[2]);
    write_number(event[3]);
    if (TARREDLATH_EVENT_TAB(event[0]) != 0) {
        printf(" ~%lu", (unsigned long)TARREDLATH_EVENT_TAB(event[0]));
    }
    printf("\n");
}

/* ---- reading -------------------------------------------------------------------------------------------------------- */

static int fail(const char *what, const char *name) {
    fprintf(stderr, "scan_page: %s%s\n", what, name);
    return 2;
}

/* Whether the page could be read. */
static int read_page(const char *path) {
    int is_input = strcmp(path, "-") == 0;
    FILE *file = is_input ? stdin : fopen(path, "rb");
    int is_read;
    if (file == NULL) {
        return 0;
    }
    page_length = fread(page, 1, sizeof page, file);
    is_read = !ferror(file);
    if (!is_input) {
        fclose(file);
    }
    return is_read;
}

/* Whether the text is a number and nothing else. */
static int read_offset(const char *text, size_t *offset) {
    char *end;
    *offset = (size_t)strtoul(text, &end, 10);
    return text[0] >= '0' && text[0] <= '9' && *end == '\0';
}

/* ---- all of it ------------------------------------------------------------------------------------------------------ */

static int list_page(size_t start) {
    /* In this many words no scan of the page can run full. A page that is too long has no such number; the scan says so again,
       and a buffer of one word serves, since a lent pointer may not be null. */
    tarredlath_words enough = tarredlath_words_enough(page_length);
    size_t words = enough.number == TARREDLATH_WORDS ? enough.words : 1;
    uint32_t *events = malloc(words * sizeof *events);
    tarredlath_answer answer;
    size_t i;
    if (events == NULL) {
        return fail("there is no memory for the events", "");
    }
    answer = scan(start, events, words);
    write_answer(answer);
    for (i = 0; i < answer.events; i++) {
        write_event(events + TARREDLATH_EVENT_WORDS * i);
    }
    free(events);
    return answer.number == TARREDLATH_DONE ? 0 : 1;
}

int main(int argc, char **argv) {
    const char *path = argc > 1 ? argv[1] : "-";
    size_t start = 0;
    if (tarredlath_version() != TARREDLATH_VERSION) {
        return fail("the library has another version than the header", "");
    }
    if (argc > 3 || (argc > 2 && !read_offset(argv[2], &start))) {
        return fail("usage: scan_page [FILE [OFFSET]]", "");
    }
    if (!read_page(path)) {
        return fail("this can't be read: ", path);
    }
    return list_page(start);
}
