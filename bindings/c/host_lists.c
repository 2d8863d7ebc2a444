/* Lists of openings: each is answered as a single scan over the room that the earlier ones left. */
#include <string.h>

#include "host_checks.h"
#include "host_jobs.h"
#include "host_parts.h"

#define LIST_LENGTH 9

/* A page with openings of every sort: whole, broken off, wrong, none, past the end. */
static const char page[] = "{a} <b/> {\n\tc}\n<d.e:f> < g>\n<h i='j'>{k";
static const struct {
    size_t start;
    uint8_t construct;
    uint8_t kind;
    uint8_t flags;
} asked[LIST_LENGTH] = {
    {0, TARREDLATH_EXPRESSION, TARREDLATH_FLOW, 0},
    {4, TARREDLATH_TAG, TARREDLATH_TEXT, 0},
    {9, TARREDLATH_EXPRESSION, TARREDLATH_TEXT, TARREDLATH_INTERRUPT},
    {15, TARREDLATH_TAG, TARREDLATH_FLOW, 0},
    {23, TARREDLATH_TAG, TARREDLATH_FLOW, 0},
    {28, TARREDLATH_TAG, TARREDLATH_FLOW, TARREDLATH_INTERRUPT},
    {37, TARREDLATH_EXPRESSION, TARREDLATH_FLOW, 0},
    {1, TARREDLATH_TAG, TARREDLATH_FLOW, 0},
    {1000, TARREDLATH_TAG, TARREDLATH_FLOW, 0},
};

static tarredlath_opening list[LIST_LENGTH];
static tarredlath_opening list_before[LIST_LENGTH];
static uint32_t events[JOB_WORDS];
static uint32_t single_events[JOB_WORDS];

/* The list as it is asked, all else marked as untouched. */
static void prepare(void) {
    size_t i;
    memset(list, UNTOUCHED, sizeof list);
    for (i = 0; i < LIST_LENGTH; i++) {
        list[i].start = asked[i].start;
        list[i].construct = asked[i].construct;
        list[i].kind = asked[i].kind;
        list[i].flags = asked[i].flags;
    }
    memcpy(list_before, list, sizeof list);
    memset(events, UNTOUCHED, sizeof events);
    memset(single_events, UNTOUCHED, sizeof single_events);
}

static tarredlath_filled fill(const char *text, size_t openings, size_t words) {
    return tarredlath_fill((const uint8_t *)text, strlen(text), list, openings, events, words);
}

static void check_filled(tarredlath_filled found, uint8_t answer, size_t openings, size_t count) {
    check_number("answer", answer, found.answer);
    check_number("openings", openings, found.openings);
    check_number("events", count, found.events);
}

/* What a single call answers, as an opening says it. */
static tarredlath_answer opening_answer(const tarredlath_opening *opening) {
    tarredlath_answer answer = {0};
    answer.number = opening->answer;
    answer.place = opening->place;
    answer.line = opening->line;
    answer.column = opening->column;
    answer.where = opening->where;
    answer.note = opening->note;
    answer.events = opening->events;
    answer.steps = opening->steps;
    return answer;
}

/* The first `count` openings of a list that was filled over `words` words, by single calls over what is left of as many. Hands back
   how many events they made. */
static size_t check_as_single(const char *text, size_t count, size_t words) {
    size_t length = strlen(text);
    size_t first = 0;
    size_t i;
    for (i = 0; i < count; i++) {
        const tarredlath_opening *opening = &list[i];
        size_t used = TARREDLATH_EVENT_WORDS * first;
        tarredlath_ran ran = tarredlath_scan_once((const uint8_t *)text, length, 0, length, asked[i].start, asked[i].construct,
                                                  asked[i].kind, asked[i].flags, STEPS_ENOUGH, single_events + used, words - used);
        check_answer(ran.answer, opening_answer(opening));
        check_number("first", first, opening->first);
        check_number("start", asked[i].start, opening->start);
        check_number("construct", asked[i].construct, opening->construct);
        check_number("kind", asked[i].kind, opening->kind);
        check_number("flags", asked[i].flags, opening->flags);
        first += ran.answer.events;
    }
    check_bytes("event words", single_events, events, sizeof events);
    return first;
}

static void check_whole_list(void) {
    tarredlath_filled filled;
    begin_check("list", "with room for all");
    prepare();
    filled = fill(page, LIST_LENGTH, JOB_WORDS);
    check_filled(filled, TARREDLATH_DONE, LIST_LENGTH, check_as_single(page, LIST_LENGTH, JOB_WORDS));
    begin_check("list", "of none");
    prepare();
    check_filled(fill(page, 0, JOB_WORDS), TARREDLATH_DONE, 0, 0);
    check_bytes("openings", list_before, list, sizeof list);
    check_bytes("event words", single_events, events, sizeof events);
}

/* Over every room that is too small: the opening that runs full is answered, and those behind it stay as they were. */
static void check_full_lists(void) {
    size_t words;
    size_t enough;
    prepare();
    enough = TARREDLATH_EVENT_WORDS * fill(page, LIST_LENGTH, JOB_WORDS).events;
    begin_check("list", "that runs full");
    check_number("there are events", 1, enough > 0);
    for (words = 0; words < enough; words++) {
        tarredlath_filled filled;
        prepare();
        filled = fill(page, LIST_LENGTH, words);
        check_filled(filled, TARREDLATH_FULL, filled.openings, check_as_single(page, filled.openings, words));
        check_number("the last that is answered", TARREDLATH_FULL, list[filled.openings - 1].answer);
        check_bytes("openings behind", list_before + filled.openings, list + filled.openings,
                    (LIST_LENGTH - filled.openings) * sizeof *list);
    }
}

static void check_refused(const char *subject) {
    begin_check("list that is refused", subject);
    memcpy(list_before, list, sizeof list);
    check_filled(fill(page, LIST_LENGTH, JOB_WORDS), TARREDLATH_BAD_CALL, 0, 0);
    check_bytes("openings", list_before, list, sizeof list);
    check_bytes("event words", single_events, events, sizeof events);
}

/* Wherever it stands in the list. */
static void check_refused_lists(void) {
    size_t i;
    for (i = 0; i < LIST_LENGTH; i++) {
        prepare();
        list[i].construct = TARREDLATH_ESM;
        check_refused("an ESM block");
        prepare();
        list[i].construct = 3;
        check_refused("an unlisted construct");
        prepare();
        list[i].kind = 2;
        check_refused("an unlisted kind");
        prepare();
        list[i].flags = TARREDLATH_ASKS;
        check_refused("a verdict source");
        prepare();
        list[i].flags = 4;
        check_refused("unlisted flags");
    }
}

/* A page that can't be scanned is answered for each opening, by the place of its fault. */
static void check_bad_text(void) {
    const char *text = "{a}\n\r{b}";
    tarredlath_filled filled;
    begin_check("list", "on bad text");
    prepare();
    filled = fill(text, LIST_LENGTH, JOB_WORDS);
    check_filled(filled, TARREDLATH_DONE, LIST_LENGTH, check_as_single(text, LIST_LENGTH, JOB_WORDS));
    check_number("number of the first", TARREDLATH_BAD_TEXT, list[0].answer);
}

void check_lists(void) {
    check_whole_list();
    check_full_lists();
    check_refused_lists();
    check_bad_text();
}
