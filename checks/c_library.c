/*
 * What checks/c_library.py runs over the C library: calls at the edges of what the header allows, calls whose memory is
 * refused, many threads at once, and books: at the edges, with memory refused, and one in each of many threads. It says what is wrong, and ends with status 1 if anything is.
 *
 *     c_library edges|memory|threads|books APT STM JOURNAL
 *
 * The files are those of a day: none of them is refused, and the journal is lawful.
 */
#include "buckfleet.h"

#include <pthread.h>
#include <stdio.h>
#include <stdlib.h>
#include <string.h>

enum { ROOM = 1 << 18, CALLS = 19, TRIALS = 16, THREADS = 64, ROUNDS = 3 };

static int wrong = 0;

static void want(int is, const char *what) {
    if (!is) {
        printf("wrong: %s\n", what);
        wrong = 1;
    }
}

/* ---- the program's memory: the Nth taking is refused, and what is out is counted ---- */

void *__real_malloc(size_t size);
void *__real_realloc(void *block, size_t size);
void __real_free(void *block);

static _Thread_local long refused_at = 0; /* none if it is 0 */
static _Thread_local long taken = 0;
static _Thread_local long out = 0;

static int is_refused(void) {
    taken++;
    return refused_at != 0 && taken == refused_at;
}

void *__wrap_malloc(size_t size) {
    void *block = is_refused() ? NULL : __real_malloc(size);
    if (block)
        out++;
    return block;
}

void *__wrap_realloc(void *old, size_t size) {
    void *block = is_refused() ? NULL : __real_realloc(old, size);
    if (block && !old)
        out++;
    return block;
}

void __wrap_free(void *block) {
    if (block)
        out--;
    __real_free(block);
}

/* ---- the calls, by number: those that are answered, and some that are unlawful or refused; from TRIALS on many runs ---- */

struct bytes {
    const uint8_t *at;
    size_t length;
};

static struct bytes apt, stm, journal;

/* A journal of its head alone has no sheet, so it isn't lawful. */
static const struct bytes head = { (const uint8_t *)"1 2 JRN~", 8 };

typedef uint8_t call(const uint8_t *, size_t, const uint8_t *, size_t, uint8_t *, size_t, size_t *);

/* A journal's page and a table of it. */
static uint8_t view(const uint8_t *first, size_t first_length, const uint8_t *second, size_t second_length, uint8_t *text,
                    size_t room, size_t *length) {
    static const uint8_t names[] = "a\nb";
    return buckfleet_view(first, first_length, second, second_length, names, 3, text, room, length);
}

static uint8_t table(const uint8_t *first, size_t first_length, const uint8_t *second, size_t second_length, uint8_t *text,
                     size_t room, size_t *length) {
    return buckfleet_table(first, first_length, second, second_length, BUCKFLEET_LOGS, text, room, length);
}

/* Both files one after the other, in memory of their own. */
static uint8_t *joined(const uint8_t *first, size_t first_length, const uint8_t *second, size_t second_length) {
    uint8_t *both = __real_malloc(first_length + second_length + 1);
    if (!both)
        exit(3);
    if (first_length)
        memcpy(both, first, first_length);
    if (second_length)
        memcpy(both + first_length, second, second_length);
    return both;
}

/* Three files of a call. */
struct files {
    uint8_t *at;
    size_t length, lengths[3];
};

static struct files three(const uint8_t *first, size_t first_length, const uint8_t *second, size_t second_length,
                          const uint8_t *third, size_t third_length) {
    uint8_t *both = joined(first, first_length, second, second_length);
    struct files files = { joined(both, first_length + second_length, third, third_length),
                           first_length + second_length + third_length, { first_length, second_length, third_length } };
    __real_free(both);
    return files;
}

#define OWN_NUMBERS { BUCKFLEET_OWN, BUCKFLEET_OWN }

static const buckfleet_numbers own_numbers = OWN_NUMBERS;
static const buckfleet_pair own_pair = { OWN_NUMBERS, OWN_NUMBERS };
static const buckfleet_run any_run = { OWN_NUMBERS, BUCKFLEET_ANY_RULE };
static const buckfleet_run runs[2] = { { { 1, 200 }, BUCKFLEET_LINEAR }, { OWN_NUMBERS, BUCKFLEET_ROOT } };
static const buckfleet_draws two_draws = { 7, 2 };
static const buckfleet_drawn_run drawn_run = { { { 1, 200 }, BUCKFLEET_STEP }, { 7, 2 } };

/* A journal that is checked by any rule, with no stem file. */
static uint8_t tie(const uint8_t *first, size_t first_length, const uint8_t *second, size_t second_length, uint8_t *text,
                   size_t room, size_t *length) {
    struct files files = three(first, first_length, second, second_length, NULL, 0);
    uint8_t status = buckfleet_check_with(files.at, files.length, files.lengths, 2, &any_run, text, room, length);
    __real_free(files.at);
    return status;
}

/* What a journal brings under its own instruction, and the journal beside itself. */
static uint8_t worths(const uint8_t *first, size_t first_length, const uint8_t *second, size_t second_length, uint8_t *text,
                      size_t room, size_t *length) {
    struct files files = three(first, first_length, first, first_length, second, second_length);
    uint8_t status = buckfleet_appraise(files.at, files.length, files.lengths, 3, &own_numbers, text, room, length);
    __real_free(files.at);
    return status;
}

static uint8_t beside(const uint8_t *first, size_t first_length, const uint8_t *second, size_t second_length, uint8_t *text,
                      size_t room, size_t *length) {
    struct files files = three(first, first_length, second, second_length, second, second_length);
    uint8_t status = buckfleet_compare(files.at, files.length, files.lengths, 3, &own_pair, text, room, length);
    __real_free(files.at);
    return status;
}

/* What stems would come to, with no targets but the instruction's. */
static uint8_t sweep(const uint8_t *first, size_t first_length, const uint8_t *second, size_t second_length, uint8_t *text,
                     size_t room, size_t *length) {
    struct files files = three(first, first_length, NULL, 0, second, second_length);
    uint8_t status = buckfleet_sweep(files.at, files.length, files.lengths, 3, runs, 2, &two_draws, text, room, length);
    __real_free(files.at);
    return status;
}

static uint8_t wish(const uint8_t *first, size_t first_length, const uint8_t *second, size_t second_length, uint8_t *text,
                    size_t room, size_t *length) {
    struct files files = three(first, first_length, NULL, 0, second, second_length);
    uint8_t status = buckfleet_wishes(files.at, files.length, files.lengths, 3, &drawn_run, text, room, length);
    __real_free(files.at);
    return status;
}

/* Prices, with the targets of the instruction as a file of targets. */
static uint8_t tune(const uint8_t *first, size_t first_length, const uint8_t *second, size_t second_length, uint8_t *text,
                    size_t room, size_t *length) {
    struct files files = three(first, first_length, first, first_length, second, second_length);
    uint8_t status = buckfleet_tune(files.at, files.length, files.lengths, 3, runs, text, room, length);
    __real_free(files.at);
    return status;
}

/* A harvester of its own cuts the stems: its journal, and the report behind it. */
static uint8_t turns(const uint8_t *first, size_t first_length, const uint8_t *second, size_t second_length, uint8_t *text,
                     size_t room, size_t *length) {
    uint8_t *both = joined(first, first_length, second, second_length);
    size_t lengths[2] = { first_length, second_length };
    buckfleet_texts texts = { 1, 1 };
    uint8_t status = buckfleet_in_turn(both, first_length + second_length, lengths, 2, BUCKFLEET_LINEAR, text, room, &texts);
    __real_free(both);
    *length = texts.journal + texts.report;
    return status;
}

static const struct {
    const char *name;
    call *ask;
    const struct bytes *first, *second;
    uint8_t status;
} ALL[CALLS] = {
    { "buck", buckfleet_buck, &apt, &stm, BUCKFLEET_OK },
    { "check", buckfleet_check, &apt, &journal, BUCKFLEET_OK },
    { "report", buckfleet_report, &apt, &journal, BUCKFLEET_OK },
    { "buck, swapped", buckfleet_buck, &stm, &apt, BUCKFLEET_REFUSED },
    { "report of stems", buckfleet_report, &apt, &stm, BUCKFLEET_REFUSED },
    { "view", view, &apt, &journal, BUCKFLEET_OK },
    { "view of a head", view, &apt, &head, BUCKFLEET_UNLAWFUL },
    { "table", table, &apt, &journal, BUCKFLEET_OK },
    { "table of stems", table, &apt, &stm, BUCKFLEET_REFUSED },
    { "in turn", turns, &apt, &stm, BUCKFLEET_OK },
    { "in turn, swapped", turns, &stm, &apt, BUCKFLEET_REFUSED },
    { "check with", tie, &apt, &journal, BUCKFLEET_OK },
    { "check with a head", tie, &apt, &head, BUCKFLEET_UNLAWFUL },
    { "appraise", worths, &apt, &journal, BUCKFLEET_OK },
    { "appraise stems", worths, &apt, &stm, BUCKFLEET_REFUSED },
    { "compare", beside, &apt, &journal, BUCKFLEET_OK },
    { "sweep", sweep, &apt, &stm, BUCKFLEET_OK },
    { "wishes", wish, &apt, &stm, BUCKFLEET_OK },
    { "tune", tune, &apt, &stm, BUCKFLEET_OK },
};

/* The text of each call if memory is ample. */
static struct {
    uint8_t text[ROOM];
    size_t length;
} right[CALLS];

static uint8_t ask(int k, uint8_t *text, size_t room, size_t *length) {
    return ALL[k].ask(ALL[k].first->at, ALL[k].first->length, ALL[k].second->at, ALL[k].second->length, text, room, length);
}

static int is_right(int k, uint8_t status, const uint8_t *text, size_t length) {
    return status == ALL[k].status && length == right[k].length && memcmp(text, right[k].text, length) == 0;
}

static void ask_all(void) {
    int k;
    for (k = 0; k < CALLS; k++)
        want(ask(k, right[k].text, ROOM, &right[k].length) == ALL[k].status && right[k].length <= ROOM, ALL[k].name);
}

static int all_are(const uint8_t *text, uint8_t byte, size_t from, size_t to) {
    while (from < to && text[from] == byte)
        from++;
    return from >= to;
}

/* ---- the edges ---- */

/* Files of no bytes. */
static void nothing(call *ask_of, const char *name) {
    uint8_t text[64];
    size_t n = 0, needed;
    memset(text, 'x', sizeof text);
    want(ask_of(NULL, 0, NULL, 0, NULL, 0, &n) == BUCKFLEET_TOO_SMALL && n > 0 && n < sizeof text, name);
    needed = n;
    want(ask_of(NULL, 0, NULL, 0, text, needed - 1, &n) == BUCKFLEET_TOO_SMALL && n == needed, "nothing, one too few");
    want(all_are(text, 'x', 0, sizeof text), "nothing was written");
    want(ask_of(NULL, 0, NULL, 0, text, needed, &n) == BUCKFLEET_REFUSED && n == needed, "nothing, just enough");
    want(memcmp(text, "apt fault ", 10) == 0 && text[needed - 1] == '\n', "its line");
    want(all_are(text, 'x', needed, sizeof text), "the line alone was written");
    want(ask_of(apt.at, apt.length, NULL, 0, text, sizeof text, &n) == BUCKFLEET_REFUSED && n > 0, "no second file");
    want(memcmp(text, "apt", 3) != 0, "the line of the second file");
}

/* A room of the length, of one less, and of more. */
static void rooms(int k) {
    static uint8_t text[ROOM];
    size_t n = 0, needed = right[k].length;
    uint8_t status;
    memset(text, 0xff, ROOM);
    want(ask(k, NULL, 0, &n) == BUCKFLEET_TOO_SMALL && n == needed, "no room");
    want(ask(k, text, needed - 1, &n) == BUCKFLEET_TOO_SMALL && n == needed, "a room one too small");
    want(all_are(text, 0xff, 0, ROOM), "nothing was written to a room too small");
    n = 0;
    status = ask(k, text, needed, &n);
    want(is_right(k, status, text, n), "a room of the length");
    want(all_are(text, 0xff, needed, ROOM), "no more was written than the text");
    n = 0;
    status = ask(k, text, ROOM, &n);
    want(is_right(k, status, text, n), "a room of more");
    want(all_are(text, 0xff, needed, ROOM), "the rest is as it was");
}

/* The page and each table of a journal. */
static void shown(void) {
    static uint8_t text[ROOM];
    size_t n = 9;
    uint8_t number;
    want(buckfleet_view(NULL, 0, NULL, 0, NULL, 0, text, ROOM, &n) == BUCKFLEET_REFUSED, "a page of nothing");
    want(buckfleet_view(apt.at, apt.length, journal.at, journal.length, NULL, 0, text, ROOM, &n) == BUCKFLEET_OK
             && memcmp(text, "<!", 2) == 0, "a page without names");
    for (number = BUCKFLEET_CLASSES; number <= BUCKFLEET_LACKING; number++) {
        want(buckfleet_table(NULL, 0, NULL, 0, number, text, ROOM, &n) == BUCKFLEET_REFUSED, "a table of nothing");
        want(buckfleet_table(apt.at, apt.length, journal.at, journal.length, number, text, ROOM, &n) == BUCKFLEET_OK
                 && n > 0, "a table");
    }
    want(buckfleet_table(apt.at, apt.length, journal.at, journal.length, BUCKFLEET_LACKING + 1, NULL, 0, &n)
             == BUCKFLEET_MISUSED && n == 0, "no such table");
}

/* What can't be cut in turn, and the two texts of what can. */
static void in_turn(void) {
    static uint8_t text[ROOM];
    uint8_t line[64];
    size_t n = 0, lengths[3] = { apt.length, stm.length, stm.length }, great[2] = { SIZE_MAX, 2 };
    buckfleet_texts texts = { 5, 5 };
    uint8_t *both = joined(apt.at, apt.length, stm.at, stm.length);
    size_t all = apt.length + stm.length;
    want(buckfleet_in_turn(NULL, 0, NULL, 0, BUCKFLEET_STEP, NULL, 0, &texts) == BUCKFLEET_MISUSED
             && texts.journal == 0 && texts.report == 0, "no files in turn");
    texts.journal = texts.report = 5;
    want(buckfleet_in_turn(both, all, lengths, 2, BUCKFLEET_ROOT + 1, text, ROOM, &texts) == BUCKFLEET_MISUSED
             && texts.journal == 0 && texts.report == 0, "no such rule in turn");
    want(buckfleet_in_turn(both, all, lengths, 3, BUCKFLEET_STEP, text, ROOM, &texts) == BUCKFLEET_MISUSED, "lengths of more");
    want(buckfleet_in_turn(both, all, lengths, 1, BUCKFLEET_STEP, text, ROOM, &texts) == BUCKFLEET_MISUSED, "lengths of less");
    want(buckfleet_in_turn(both, 1, great, 2, BUCKFLEET_STEP, text, ROOM, &texts) == BUCKFLEET_MISUSED, "lengths that wrap");
    want(all_are(text, 0, 0, ROOM), "nothing is written if it is misused");
    want(buckfleet_in_turn(apt.at, apt.length, lengths, 1, BUCKFLEET_STEP, text, ROOM, &texts) == BUCKFLEET_SEATS
             && texts.journal == 0 && texts.report > 0, "no stem file");
    want(buckfleet_in_turn(both, all, lengths, 2, BUCKFLEET_ROOT, text, ROOM, &texts) == BUCKFLEET_OK
             && texts.journal > 0 && texts.report > 0, "both texts by the last rule");
    want(buckfleet_in_turn(both, all, lengths, 2, BUCKFLEET_LINEAR, text, ROOM, &texts) == BUCKFLEET_OK
             && texts.journal > 0 && texts.report > 0, "both texts");
    want(buckfleet_check(apt.at, apt.length, text, texts.journal, line, sizeof line, &n) == BUCKFLEET_OK, "its journal is lawful");
    want(buckfleet_report(apt.at, apt.length, text, texts.journal, text + texts.journal + texts.report,
                          ROOM - texts.journal - texts.report, &n) == BUCKFLEET_OK
             && n == texts.report && memcmp(text + texts.journal, text + texts.journal + n, n) == 0, "and its report is that");
    __real_free(both);
}

/* What is misused in a call over several files, whose files may be asked of it as they are. */
typedef uint8_t several_call(const struct files *, size_t count, uint8_t *text, size_t room, size_t *length);

static buckfleet_run asked_run;
static buckfleet_pair asked_pair;

static uint8_t ask_worths(const struct files *files, size_t count, uint8_t *text, size_t room, size_t *length) {
    return buckfleet_appraise(files->at, files->length, files->lengths, count, &asked_run.numbers, text, room, length);
}

static uint8_t ask_beside(const struct files *files, size_t count, uint8_t *text, size_t room, size_t *length) {
    asked_pair.second = asked_run.numbers;
    return buckfleet_compare(files->at, files->length, files->lengths, count, &asked_pair, text, room, length);
}

static uint8_t ask_sweep(const struct files *files, size_t count, uint8_t *text, size_t room, size_t *length) {
    buckfleet_draws none = { 1, 0 };
    buckfleet_run both[2] = { { OWN_NUMBERS, BUCKFLEET_STEADY }, asked_run };
    return buckfleet_sweep(files->at, files->length, files->lengths, count, both, 2, &none, text, room, length);
}

static uint8_t ask_wishes(const struct files *files, size_t count, uint8_t *text, size_t room, size_t *length) {
    buckfleet_drawn_run drawn = { asked_run, { 1, 0 } };
    return buckfleet_wishes(files->at, files->length, files->lengths, count, &drawn, text, room, length);
}

static uint8_t ask_tune(const struct files *files, size_t count, uint8_t *text, size_t room, size_t *length) {
    return buckfleet_tune(files->at, files->length, files->lengths, count, &asked_run, text, room, length);
}

/* Files that aren't what a call names, and numbers that it doesn't allow. */
static void misused(several_call *ask_of, struct files files, const char *what) {
    static uint8_t text[ROOM];
    static const buckfleet_numbers outside[] = { { 0, 0 }, { 1001, 0 }, { 1, 1001 }, { BUCKFLEET_OWN - 1, 0 } };
    struct files great = files, empty = { NULL, 0, { 0, 0, 0 } };
    size_t n = 9, k;
    buckfleet_run right_run = { { 1000, 1000 }, BUCKFLEET_STEADY };
    asked_run = right_run;
    asked_pair.first = own_numbers;
    want(ask_of(&files, 3, text, ROOM, &n) != BUCKFLEET_MISUSED && n > 0, what);
    memset(text, 0, ROOM);
    want(ask_of(&empty, 0, NULL, 0, &n) == BUCKFLEET_MISUSED && n == 0, what);
    want(ask_of(&files, 2, text, ROOM, &n) == BUCKFLEET_MISUSED && n == 0, what);
    files.length++;
    want(ask_of(&files, 3, text, ROOM, &n) == BUCKFLEET_MISUSED, what);
    files.length--;
    great.lengths[1] = SIZE_MAX;
    want(ask_of(&great, 3, text, ROOM, &n) == BUCKFLEET_MISUSED, what);
    for (k = 0; k < sizeof outside / sizeof *outside; k++) {
        asked_run.numbers = outside[k];
        want(ask_of(&files, 3, text, ROOM, &n) == BUCKFLEET_MISUSED && n == 0, what);
    }
    asked_run = right_run;
    asked_run.rule = BUCKFLEET_ROOT + 1;
    if (ask_of != ask_worths && ask_of != ask_beside)
        want(ask_of(&files, 3, text, ROOM, &n) == BUCKFLEET_MISUSED && n == 0, what);
    want(all_are(text, 0, 0, ROOM), "nothing is written if it is misused");
}

static void several(void) {
    static const struct bytes none = { NULL, 0 };
    static uint8_t text[ROOM];
    size_t n = 0;
    struct files of_stems = three(apt.at, apt.length, none.at, none.length, stm.at, stm.length);
    struct files of_journals = three(apt.at, apt.length, journal.at, journal.length, journal.at, journal.length);
    struct files of_contract = three(apt.at, apt.length, apt.at, apt.length, journal.at, journal.length);
    misused(ask_worths, of_contract, "an appraisal");
    misused(ask_beside, of_journals, "a comparison");
    misused(ask_sweep, of_stems, "a sweep");
    misused(ask_wishes, of_stems, "wishes");
    misused(ask_tune, of_stems, "a tuning");
    asked_run = any_run;
    want(ask_sweep(&of_stems, 3, text, ROOM, &n) == BUCKFLEET_MISUSED, "a sweep by any rule");
    of_stems.length -= stm.length;
    want(ask_sweep(&of_stems, 2, text, ROOM, &n) == BUCKFLEET_MISUSED, "it is misused before it has no stem file");
    want(ask_wishes(&of_stems, 2, text, ROOM, &n) == BUCKFLEET_MISUSED, "so are wishes");
    asked_run = runs[0];
    want(ask_sweep(&of_stems, 2, text, ROOM, &n) == BUCKFLEET_SEATS && memcmp(text, "seats\n", 6) == 0, "no stem file");
    want(ask_tune(&of_stems, 2, text, ROOM, &n) == BUCKFLEET_SEATS, "nor for prices");
    want(buckfleet_check_with(of_contract.at, apt.length, of_contract.lengths, 1, &any_run, text, ROOM, &n)
             == BUCKFLEET_MISUSED, "no journal");
    asked_run.numbers.period = 0;
    want(buckfleet_check_with(of_contract.at, of_contract.length, of_contract.lengths, 3, &asked_run, text, ROOM, &n)
             == BUCKFLEET_MISUSED && n == 0, "no such period");
    asked_run = any_run;
    asked_run.rule--;
    want(buckfleet_check_with(of_contract.at, of_contract.length, of_contract.lengths, 3, &asked_run, text, ROOM, &n)
             == BUCKFLEET_MISUSED && n == 0, "no such rule");
    want(buckfleet_check_with(of_journals.at, of_journals.length, of_journals.lengths, 3, &any_run, text, ROOM, &n)
             == BUCKFLEET_REFUSED && memcmp(text, "stm 2 fault ", 12) == 0, "a journal in the place of stems");
    __real_free(of_stems.at);
    __real_free(of_journals.at);
    __real_free(of_contract.at);
}

static void edges(void) {
    uint8_t text[64];
    size_t n;
    int k;
    want(buckfleet_version() == BUCKFLEET_VERSION, "version");
    nothing(buckfleet_buck, "buck of nothing");
    nothing(buckfleet_check, "check of nothing");
    nothing(buckfleet_report, "report of nothing");
    nothing(turns, "in turn of nothing");
    nothing(tie, "check with nothing");
    nothing(sweep, "sweep of nothing");
    for (k = 0; k < CALLS; k++)
        rooms(k);
    shown();
    in_turn();
    several();
    want(memcmp(right[0].text, "STEM ", 5) == 0, "a bucking");
    want(memcmp(right[1].text, "LAWFUL ", 7) == 0, "a check");
    want(memcmp(right[2].text, "ENTRY 0 ", 8) == 0, "a report");
    want(memcmp(right[3].text, "apt fault 2\n", 12) == 0 && right[3].length == 12, "files swapped");
    want(memcmp(right[4].text, "journal fault ", 14) == 0, "stems in the place of a journal");
    want(buckfleet_check(apt.at, apt.length, head.at, head.length, text, sizeof text, &n)
             == BUCKFLEET_UNLAWFUL && n == 17 && memcmp(text, "replay fault 1 0\n", 17) == 0, "a journal of its head alone");
}

/* ---- refused memory ---- */

/* Each taking of a call's memory is refused in turn: the answer is that of memory, or right; nothing is kept. */
static long refusals_of(int k) {
    static uint8_t text[ROOM];
    long n;
    for (n = 1;; n++) {
        size_t length = 0;
        uint8_t status;
        memset(text, 0xff, 64);
        taken = 0;
        out = 0;
        refused_at = n;
        status = ask(k, text, ROOM, &length);
        refused_at = 0;
        want(out == 0, "nothing is left out");
        if (taken < n) {
            want(is_right(k, status, text, length), ALL[k].name);
            return n - 1;
        }
        want((status == BUCKFLEET_MEMORY && length == 7 && memcmp(text, "memory\n\xff", 8) == 0)
                 || is_right(k, status, text, length), "an answer whose memory was refused");
    }
}

static void memory(int calls) {
    long all = 0;
    int k;
    for (k = 0; k < calls; k++)
        all += refusals_of(k);
    want(all > 0, "memory is taken");
    printf("%ld takings of memory, each refused in turn\n", all);
}

/* ---- threads ---- */

static void *one_thread(void *is_wrong) {
    uint8_t *text = __real_malloc(ROOM);
    int round, k;
    for (round = 0; round < ROUNDS; round++) {
        for (k = 0; k < CALLS; k++) {
            size_t length = 0;
            uint8_t status = text ? ask(k, text, ROOM, &length) : BUCKFLEET_MEMORY;
            if (!is_right(k, status, text, length))
                *(int *)is_wrong = 1;
        }
    }
    __real_free(text);
    return NULL;
}

static void threads(void) {
    pthread_t all[THREADS];
    int is_wrong[THREADS] = { 0 };
    int k;
    for (k = 0; k < THREADS; k++)
        want(pthread_create(&all[k], NULL, one_thread, &is_wrong[k]) == 0, "a thread");
    for (k = 0; k < THREADS; k++) {
        pthread_join(all[k], NULL);
        want(!is_wrong[k], "the same answers in each thread");
    }
}

/* ---- books ---- */

enum { STEMS = 12, SAMPLES = 150, MOST_CLASSES = 16384 };

/* What comes of a day in a book of its own. */
struct day {
    buckfleet_cutting previews[STEMS], cuttings[STEMS];
    buckfleet_appraisal appraisals[STEMS];
    uint32_t prices[MOST_CLASSES], counts[MOST_CLASSES];
    size_t prices_length, counts_length;
    uint8_t journal[ROOM];
    size_t journal_length;
};

static uint16_t tapered[STEMS][SAMPLES];
static const buckfleet_zone zones[] = { { 0, 1 }, { 4600, 2 } };
static const buckfleet_terms terms = { 1000, BUCKFLEET_STEP };

/* Every other stem has zones; no two are equal. */
static buckfleet_felled felled_at(int k) {
    buckfleet_felled felled = { 1 + k % 3, 100 + k, 1 + k % 2 };
    return felled;
}

static uint8_t cut_at(buckfleet_book *book, int k, buckfleet_cutting *cutting) {
    buckfleet_felled felled = felled_at(k);
    return buckfleet_cut(book, &felled, tapered[k], SAMPLES, zones, k % 2 ? 2 : 0, cutting);
}

/* Looks at a stem before it is cut, and prices the logs that it would be cut into. */
static uint8_t look_at(buckfleet_book *book, int k, buckfleet_cutting *preview, buckfleet_appraisal *appraisal) {
    buckfleet_felled felled = felled_at(k);
    buckfleet_named named[BUCKFLEET_MOST_LOGS];
    size_t zones_length = k % 2 ? 2 : 0;
    uint8_t status = buckfleet_preview(book, &felled, tapered[k], SAMPLES, zones, zones_length, preview);
    uint32_t j;
    if (status != BUCKFLEET_OK)
        return status;
    for (j = 0; j < preview->logs_number; j++) {
        named[j].start = preview->logs[j].start;
        named[j].length = preview->logs[j].length;
        named[j].assortment = preview->logs[j].assortment;
    }
    return buckfleet_price_of(book, &felled, tapered[k], SAMPLES, zones, zones_length, named, preview->logs_number, appraisal);
}

static void taper(void) {
    int k, i;
    for (k = 0; k < STEMS; k++)
        for (i = 0; i < SAMPLES; i++)
            tapered[k][i] = (uint16_t)(420 + 5 * k - 2 * i);
}

/* The first status of a day that isn't OK: stems are cut, and halfway the targets that are in force come again. */
static uint8_t day_in(buckfleet_book *book, struct day *day) {
    uint8_t status = buckfleet_open(book, apt.at, apt.length, &terms);
    int k;
    for (k = 0; k < STEMS && status == BUCKFLEET_OK; k++) {
        status = look_at(book, k, &day->previews[k], &day->appraisals[k]);
        if (status == BUCKFLEET_OK)
            status = cut_at(book, k, &day->cuttings[k]);
        if (k == STEMS / 2 && status == BUCKFLEET_OK)
            status = buckfleet_targets(book, day->prices, MOST_CLASSES, &day->prices_length);
        if (k == STEMS / 2 && status == BUCKFLEET_OK)
            status = buckfleet_retarget(book, 64, day->prices, day->prices_length);
    }
    if (status == BUCKFLEET_OK)
        status = buckfleet_prices(book, day->prices, MOST_CLASSES, &day->prices_length);
    if (status == BUCKFLEET_OK)
        status = buckfleet_counts(book, day->counts, MOST_CLASSES, &day->counts_length);
    if (status == BUCKFLEET_OK)
        status = buckfleet_journal(book, day->journal, ROOM, &day->journal_length);
    return status;
}

static int same_log(const buckfleet_log *a, const buckfleet_log *b) {
    return a->worth == b->worth && a->start == b->start && a->length == b->length && a->top == b->top
           && a->price == b->price && a->assortment == b->assortment && a->row == b->row && a->column == b->column;
}

static int same_cutting(const buckfleet_cutting *a, const buckfleet_cutting *b) {
    uint32_t k;
    int is = a->worth == b->worth && a->position == b->position && a->number == b->number && a->version == b->version
             && a->logs_number == b->logs_number;
    for (k = 0; is && k < a->logs_number; k++)
        is = same_log(&a->logs[k], &b->logs[k]);
    return is;
}

static int same_day(const struct day *a, const struct day *b) {
    int k, is = 1;
    for (k = 0; is && k < STEMS; k++)
        is = same_cutting(&a->cuttings[k], &b->cuttings[k]);
    return is && a->journal_length == b->journal_length
           && memcmp(a->journal, b->journal, a->journal_length) == 0 && a->prices_length == b->prices_length
           && memcmp(a->prices, b->prices, a->prices_length * sizeof *a->prices) == 0
           && memcmp(a->counts, b->counts, a->counts_length * sizeof *a->counts) == 0;
}

static struct day *new_day(void) {
    struct day *day = __real_malloc(sizeof *day);
    if (!day)
        exit(3);
    memset(day, 0, sizeof *day);
    return day;
}

/* Each stem was cut as its preview said, and the logs of the preview lose nothing. */
static int is_foretold(const struct day *day) {
    int k, is = 1;
    for (k = 0; is && k < STEMS; k++)
        is = same_cutting(&day->previews[k], &day->cuttings[k]) && day->appraisals[k].worth == day->cuttings[k].worth
             && day->appraisals[k].best == day->cuttings[k].worth && day->appraisals[k].version == day->cuttings[k].version
             && day->appraisals[k].log == day->cuttings[k].logs_number && day->appraisals[k].reason == BUCKFLEET_ADMISSIBLE;
    return is;
}

/* A block that holds no book, whatever stands in it. */
static void no_book(buckfleet_book *book, const char *what) {
    buckfleet_felled felled = felled_at(0);
    buckfleet_cutting cutting;
    buckfleet_appraisal appraisal;
    buckfleet_standing standing;
    uint32_t degree = 17, numbers[1] = { 17 };
    uint8_t text[1] = { 17 };
    size_t n = 1;
    memset(&cutting, 17, sizeof cutting);
    memset(&appraisal, 17, sizeof appraisal);
    memset(&standing, 17, sizeof standing);
    want(buckfleet_close(book) == BUCKFLEET_CLOSED, what);
    want(buckfleet_cut(book, &felled, NULL, 0, NULL, 0, &cutting) == BUCKFLEET_CLOSED, what);
    want(buckfleet_preview(book, &felled, NULL, 0, NULL, 0, &cutting) == BUCKFLEET_CLOSED, what);
    want(all_are((uint8_t *)&cutting, 17, 0, sizeof cutting), "no cutting is written");
    want(buckfleet_price_of(book, &felled, NULL, 0, NULL, 0, NULL, 0, &appraisal) == BUCKFLEET_CLOSED, what);
    want(all_are((uint8_t *)&appraisal, 17, 0, sizeof appraisal), "no appraisal is written");
    want(buckfleet_retarget(book, 1, NULL, 0) == BUCKFLEET_CLOSED, what);
    want(buckfleet_state(book, &standing) == BUCKFLEET_CLOSED, what);
    want(all_are((uint8_t *)&standing, 17, 0, sizeof standing), "no standing is written");
    want(buckfleet_prices(book, numbers, 1, &n) == BUCKFLEET_CLOSED && n == 0, what);
    want(buckfleet_targets(book, NULL, 0, &n) == BUCKFLEET_CLOSED && n == 0, what);
    want(buckfleet_counts(book, numbers, 1, &n) == BUCKFLEET_CLOSED && n == 0 && numbers[0] == 17, what);
    want(buckfleet_degree(book, 0, &degree) == BUCKFLEET_CLOSED && degree == 17, what);
    want(buckfleet_journal(book, text, 1, &n) == BUCKFLEET_CLOSED && n == 0 && text[0] == 17, what);
}

/* Calls of an open book that are refused: nothing is changed. */
static void refusals(buckfleet_book *book) {
    static uint16_t many[402];
    static buckfleet_cutting cutting, before;
    buckfleet_terms none = { 0, 0 }, more = { 1000001, 0 }, other = { 1, BUCKFLEET_ROOT + 1 };
    buckfleet_book empty = BUCKFLEET_NO_BOOK;
    buckfleet_felled felled = felled_at(0);
    buckfleet_zone zone = { 40001, 1 };
    uint32_t degree = 17;
    memset(&before, 17, sizeof before);
    cutting = before;
    want(buckfleet_open(&empty, apt.at, apt.length, &none) == BUCKFLEET_MISUSED, "no capacity");
    want(buckfleet_open(&empty, apt.at, apt.length, &more) == BUCKFLEET_MISUSED, "too great a capacity");
    want(buckfleet_open(&empty, apt.at, apt.length, &other) == BUCKFLEET_MISUSED, "no such rule");
    want(buckfleet_open(&empty, NULL, 0, &terms) == BUCKFLEET_REFUSED, "no instruction");
    want(buckfleet_open(&empty, stm.at, stm.length, &terms) == BUCKFLEET_REFUSED, "stems in the place of an instruction");
    want(buckfleet_close(&empty) == BUCKFLEET_CLOSED, "nothing was opened");
    want(buckfleet_open(book, apt.at, apt.length, &terms) == BUCKFLEET_MISUSED, "open already");
    felled.harvester = 0;
    want(buckfleet_cut(book, &felled, tapered[0], SAMPLES, NULL, 0, &cutting) == BUCKFLEET_MISUSED, "harvester 0");
    felled.harvester = 65;
    want(buckfleet_cut(book, &felled, tapered[0], SAMPLES, NULL, 0, &cutting) == BUCKFLEET_MISUSED, "harvester 65");
    felled.harvester = 64;
    want(buckfleet_cut(book, &felled, NULL, 0, NULL, 0, &cutting) == BUCKFLEET_REFUSED, "no diameters");
    want(buckfleet_cut(book, &felled, many, 402, NULL, 0, &cutting) == BUCKFLEET_REFUSED, "too many diameters");
    want(buckfleet_cut(book, &felled, tapered[0], SAMPLES, &zone, 1, &cutting) == BUCKFLEET_REFUSED, "a zone too far");
    felled.species = 0;
    want(buckfleet_cut(book, &felled, tapered[0], SAMPLES, NULL, 0, &cutting) == BUCKFLEET_REFUSED, "no species");
    want(memcmp(&cutting, &before, sizeof cutting) == 0, "no refused cutting is written");
    want(buckfleet_retarget(book, 0, NULL, 0) == BUCKFLEET_MISUSED, "harvester 0 with targets");
    want(buckfleet_retarget(book, 1, NULL, 0) == BUCKFLEET_REFUSED, "no targets");
    want(buckfleet_degree(book, 16, &degree) == BUCKFLEET_MISUSED && degree == 17, "no such assortment");
}

/* Looks at a stem that are refused: nothing is written. */
static void refused_looks(buckfleet_book *book) {
    static uint16_t many[402];
    static buckfleet_cutting cutting, before;
    buckfleet_appraisal appraisal, untouched;
    buckfleet_felled felled = felled_at(0);
    memset(&before, 17, sizeof before);
    memset(&cutting, 17, sizeof cutting);
    memset(&untouched, 17, sizeof untouched);
    memset(&appraisal, 17, sizeof appraisal);
    felled.harvester = 65;
    want(buckfleet_preview(book, &felled, tapered[0], SAMPLES, NULL, 0, &cutting) == BUCKFLEET_MISUSED, "a look by 65");
    want(buckfleet_price_of(book, &felled, tapered[0], SAMPLES, NULL, 0, NULL, 0, &appraisal) == BUCKFLEET_MISUSED,
         "a price for 65");
    felled.harvester = 1;
    want(buckfleet_preview(book, &felled, many, 402, NULL, 0, &cutting) == BUCKFLEET_REFUSED, "a look at too many diameters");
    want(buckfleet_price_of(book, &felled, NULL, 0, NULL, 0, NULL, 0, &appraisal) == BUCKFLEET_REFUSED,
         "a price of no diameters");
    want(memcmp(&cutting, &before, sizeof cutting) == 0, "no refused preview is written");
    want(memcmp(&appraisal, &untouched, sizeof appraisal) == 0, "no refused appraisal is written");
}

/* A cutting that can't be: which log, and why. */
static void priced(buckfleet_book *book, const buckfleet_named *named, size_t length, size_t log, uint8_t reason) {
    buckfleet_appraisal appraisal;
    buckfleet_felled felled = felled_at(1);
    want(buckfleet_price_of(book, &felled, tapered[1], SAMPLES, zones, 2, named, length, &appraisal) == BUCKFLEET_OK,
         "an own cutting");
    want(appraisal.log == log && appraisal.reason == reason, "its log and its reason");
    want(reason == BUCKFLEET_ADMISSIBLE || appraisal.worth == 0, "no worth of what can't be cut");
    want(appraisal.worth <= appraisal.best, "nothing outvalues the best");
}

/* Own cuttings of the first log of the best one, and of logs that are nobody's. */
static void own_cuttings(buckfleet_book *book, const struct day *day) {
    const buckfleet_log *first = &day->cuttings[1].logs[0];
    buckfleet_named named[2] = { { first->start, first->length, first->assortment }, { 0, 0, 255 } };
    want(day->cuttings[1].logs_number > 0, "there is a log");
    priced(book, NULL, 0, 0, BUCKFLEET_ADMISSIBLE);
    priced(book, named, 1, 1, BUCKFLEET_ADMISSIBLE);
    priced(book, named, 2, 1, BUCKFLEET_ORDER);
    named[1].start = 15000;
    priced(book, named, 2, 1, BUCKFLEET_ASSORTMENT);
    named[1] = named[0];
    named[1].start = 4294967000u;
    priced(book, named, 2, 1, BUCKFLEET_END);
    named[1].start++;
    priced(book, named, 2, 1, BUCKFLEET_START);
    named[0].length = 1;
    priced(book, named, 2, 0, BUCKFLEET_LENGTH);
}

/* A list of a book with too little room, and just enough. */
static void list(buckfleet_book *book, uint8_t (*of)(buckfleet_book *, uint32_t *, size_t, size_t *), size_t length,
                 const char *what) {
    static uint32_t numbers[MOST_CLASSES];
    size_t n = 0;
    memset(numbers, 0xff, sizeof numbers);
    want(of(book, NULL, 0, &n) == BUCKFLEET_TOO_SMALL && n == length, what);
    want(of(book, numbers, length - 1, &n) == BUCKFLEET_TOO_SMALL && n == length, what);
    want(all_are((uint8_t *)numbers, 0xff, 0, sizeof numbers), what);
    want(of(book, numbers, length, &n) == BUCKFLEET_OK && n == length, what);
    want(all_are((uint8_t *)numbers, 0xff, 4 * length, sizeof numbers) && numbers[length - 1] != UINT32_MAX, what);
}

/* How a book stands, as it is shown. */
static void lists(buckfleet_book *book, const struct day *day) {
    static uint8_t text[ROOM];
    uint8_t line[64];
    buckfleet_standing standing;
    uint32_t degree = BUCKFLEET_NO_DEGREE;
    size_t n = 0;
    want(buckfleet_state(book, &standing) == BUCKFLEET_OK && standing.postings == STEMS + 1, "the standing");
    want(standing.capacity == terms.capacity && standing.classes == day->prices_length, "and its numbers");
    list(book, buckfleet_prices, standing.classes, "prices");
    list(book, buckfleet_targets, standing.classes, "targets");
    list(book, buckfleet_counts, standing.classes, "counts");
    want(buckfleet_degree(book, 0, &degree) == BUCKFLEET_OK && degree <= 10000, "a degree");
    want(buckfleet_journal(book, NULL, 0, &n) == BUCKFLEET_TOO_SMALL && n == day->journal_length, "no room for a journal");
    want(buckfleet_journal(book, text, day->journal_length - 1, &n) == BUCKFLEET_TOO_SMALL && text[0] == 0, "too little");
    want(n == day->journal_length && buckfleet_journal(book, text, n, &n) == BUCKFLEET_OK, "and just enough");
    want(memcmp(text, day->journal, n) == 0, "the same journal");
    want(buckfleet_check(apt.at, apt.length, text, n, line, sizeof line, &n) == BUCKFLEET_OK, "a lawful journal");
}

static void full_book(void) {
    buckfleet_book book = BUCKFLEET_NO_BOOK;
    buckfleet_terms one = { 1, BUCKFLEET_LINEAR };
    buckfleet_cutting cutting;
    buckfleet_appraisal appraisal;
    want(buckfleet_open(&book, apt.at, apt.length, &one) == BUCKFLEET_OK, "a book of one");
    want(cut_at(&book, 0, &cutting) == BUCKFLEET_OK && cutting.position == 0 && cutting.number == 1, "its posting");
    want(cut_at(&book, 1, &cutting) == BUCKFLEET_FULL && cutting.position == 0, "it is full");
    want(look_at(&book, 1, &cutting, &appraisal) == BUCKFLEET_OK && cutting.position == 1, "it still says what it would be");
    want(appraisal.worth == cutting.worth && appraisal.best == cutting.worth, "and what that is worth");
    want(buckfleet_retarget(&book, 1, NULL, 0) == BUCKFLEET_FULL, "for targets too");
    want(buckfleet_close(&book) == BUCKFLEET_OK, "closed");
}

/* Each taking of a day's memory is refused in turn: what was asked is done or not, and all goes back. */
static void refused_days(const struct day *right_day) {
    struct day *day = new_day();
    long n, all = 0;
    for (n = 1;; n++) {
        buckfleet_book book = BUCKFLEET_NO_BOOK;
        uint8_t line[64];
        uint8_t status;
        int is_open;
        taken = 0;
        out = 0;
        refused_at = n;
        status = day_in(&book, day);
        refused_at = 0;
        is_open = book.mark != 0;
        want(status == BUCKFLEET_OK ? same_day(day, right_day) : status == BUCKFLEET_MEMORY, "a day of refused memory");
        if (status == BUCKFLEET_MEMORY && is_open) {
            size_t length = 0;
            want(buckfleet_journal(&book, day->journal, ROOM, &length) == BUCKFLEET_OK, "the book goes on");
            want(buckfleet_check(apt.at, apt.length, day->journal, length, line, sizeof line, &length) == BUCKFLEET_OK,
                 "and is lawful");
        }
        want(buckfleet_close(&book) == (is_open ? BUCKFLEET_OK : BUCKFLEET_CLOSED), "a close");
        want(out == 0, "a book leaves nothing out");
        if (status == BUCKFLEET_OK && same_day(day, right_day) && taken < n)
            break;
        all++;
    }
    printf("%ld takings of memory of a book, each refused in turn\n", all);
    __real_free(day);
}

struct one_day {
    const struct day *right_day;
    int is_wrong;
};

static void *one_book(void *asked) {
    struct one_day *one = asked;
    struct day *day = new_day();
    buckfleet_book book = BUCKFLEET_NO_BOOK;
    one->is_wrong = day_in(&book, day) != BUCKFLEET_OK || !same_day(day, one->right_day)
                    || buckfleet_close(&book) != BUCKFLEET_OK;
    __real_free(day);
    return NULL;
}

static void books_in_threads(const struct day *right_day) {
    pthread_t all[THREADS];
    struct one_day days[THREADS];
    int k;
    for (k = 0; k < THREADS; k++) {
        days[k].right_day = right_day;
        want(pthread_create(&all[k], NULL, one_book, &days[k]) == 0, "a thread with a book");
    }
    for (k = 0; k < THREADS; k++) {
        pthread_join(all[k], NULL);
        want(!days[k].is_wrong, "the same day in each thread");
    }
}

static void books(void) {
    buckfleet_book book = BUCKFLEET_NO_BOOK;
    struct day *day = new_day();
    uint64_t logs = 0;
    int k;
    taper();
    no_book(&book, "a block of zeros");
    memset(&book, 0xa5, sizeof book);
    no_book(&book, "a block of any bytes");
    memset(&book, 0, sizeof book);
    want(day_in(&book, day) == BUCKFLEET_OK, "a day");
    for (k = 0; k < STEMS; k++)
        logs += day->cuttings[k].logs_number;
    want(logs > 0 && day->cuttings[STEMS - 1].position == STEMS, "it has logs");
    want(is_foretold(day), "each stem was cut as its preview said");
    refusals(&book);
    refused_looks(&book);
    own_cuttings(&book, day);
    lists(&book, day);
    want(buckfleet_close(&book) == BUCKFLEET_OK, "a close");
    no_book(&book, "a closed block");
    full_book();
    refused_days(day);
    books_in_threads(day);
    __real_free(day);
}

static struct bytes file_of(const char *name) {
    struct bytes file = { NULL, 0 };
    uint8_t *at = __real_malloc(ROOM);
    FILE *stream = fopen(name, "rb");
    if (at && stream) {
        file.at = at;
        file.length = fread(at, 1, ROOM, stream);
    }
    want(file.length > 0 && file.length < ROOM, name);
    if (stream)
        fclose(stream);
    return file;
}

int main(int count, char **words) {
    if (count != 5)
        return 2;
    apt = file_of(words[2]);
    stm = file_of(words[3]);
    journal = file_of(words[4]);
    ask_all();
    if (strcmp(words[1], "edges") == 0)
        edges();
    else if (strcmp(words[1], "memory") == 0)
        memory(CALLS);
    else if (strcmp(words[1], "single") == 0)
        memory(TRIALS);
    else if (strcmp(words[1], "threads") == 0)
        threads();
    else if (strcmp(words[1], "books") == 0)
        books();
    else
        return 2;
    printf("%s: %s\n", words[1], wrong ? "wrong" : "right");
    __real_free((void *)apt.at);
    __real_free((void *)stm.at);
    __real_free((void *)journal.at);
    return wrong;
}
