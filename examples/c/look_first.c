/*
 * Looks at a stem before it is cut, as an operator does: shows how it would be cut, prices two cuttings of his own, and
 * cuts it then.
 *
 *     look_first APT
 *
 * The stem is one of species 1, 14,900 mm long, of grade 2 from 4,600 mm on. A line PREVIEW shows the best cutting, with
 * a line LOG for each log; a line OWN an own cutting: what it is worth and what it loses, or which log can't be cut,
 * counted from 1, and why. The line CUT is what was committed: it has the numbers of PREVIEW.
 *
 *     scripts/c_library
 *     cc -Iout/c examples/c/look_first.c out/c/libbuckfleet.a -o look_first
 *     ./look_first examples/morning.apt
 */
#include "buckfleet.h"

#include <inttypes.h>
#include <stdio.h>
#include <stdlib.h>

enum { MOST_BYTES = 1 << 26, SAMPLES = 150 };

static const buckfleet_felled felled = { 1, 501, 1 };
static const buckfleet_zone zones[] = { { 0, 1 }, { 4600, 2 } };
static uint16_t samples[SAMPLES];

/* The words of the reasons, by their numbers. */
static const char *const REASONS[] = { "admissible", "order", "assortment", "species", "start",
                                       "length",     "end",   "grade",      "diameter", "price" };

static void print_cutting(const char *word, const buckfleet_cutting *cutting) {
    printf("%s %" PRIu32 " %" PRIu32 " %" PRIu32 " %" PRIu64 "\n", word, cutting->position, cutting->number,
           cutting->logs_number, cutting->worth);
}

static void print_logs(const buckfleet_cutting *cutting) {
    uint32_t k;
    for (k = 0; k < cutting->logs_number; k++)
        printf("LOG %" PRIu32 " %" PRIu32 " %d %" PRIu64 "\n", cutting->logs[k].start, cutting->logs[k].length,
               cutting->logs[k].assortment, cutting->logs[k].worth);
}

/* Prices a cutting of the operator's own. */
static uint8_t price(buckfleet_book *book, const buckfleet_named *logs, size_t length) {
    buckfleet_appraisal appraisal;
    uint8_t status = buckfleet_price_of(book, &felled, samples, SAMPLES, zones, 2, logs, length, &appraisal);
    if (status != BUCKFLEET_OK)
        return status;
    if (appraisal.reason == BUCKFLEET_ADMISSIBLE)
        printf("OWN %zu %" PRIu64 " loses %" PRIu64 "\n", length, appraisal.worth, appraisal.best - appraisal.worth);
    else
        printf("OWN not %zu %s\n", appraisal.log + 1, REASONS[appraisal.reason]);
    return status;
}

/* The first logs of a cutting. */
static size_t first_logs(const buckfleet_cutting *cutting, size_t length, buckfleet_named *named) {
    size_t k;
    for (k = 0; k < length && k < cutting->logs_number; k++) {
        named[k].start = cutting->logs[k].start;
        named[k].length = cutting->logs[k].length;
        named[k].assortment = cutting->logs[k].assortment;
    }
    return k;
}

static uint8_t look_and_cut(buckfleet_book *book) {
    static buckfleet_cutting cutting;
    buckfleet_named named[BUCKFLEET_MOST_LOGS + 1];
    size_t length;
    uint8_t status = buckfleet_preview(book, &felled, samples, SAMPLES, zones, 2, &cutting);
    if (status != BUCKFLEET_OK)
        return status;
    print_cutting("PREVIEW", &cutting);
    print_logs(&cutting);
    length = first_logs(&cutting, 1, named);
    status = price(book, named, length);
    if (status == BUCKFLEET_OK && length > 0) {
        named[1] = named[0];
        status = price(book, named, 2);
    }
    if (status == BUCKFLEET_OK)
        status = buckfleet_cut(book, &felled, samples, SAMPLES, zones, 2, &cutting);
    if (status == BUCKFLEET_OK)
        print_cutting("CUT", &cutting);
    return status;
}

int main(int count, char **words) {
    static const buckfleet_terms terms = { 1, BUCKFLEET_STEADY };
    buckfleet_book book = BUCKFLEET_NO_BOOK;
    FILE *stream = count == 2 ? fopen(words[1], "rb") : NULL;
    uint8_t *apt = malloc(MOST_BYTES);
    uint8_t status = BUCKFLEET_READ;
    int k;
    for (k = 0; k < SAMPLES; k++)
        samples[k] = (uint16_t)(420 - 2 * k);
    if (stream && apt)
        status = buckfleet_open(&book, apt, fread(apt, 1, MOST_BYTES, stream), &terms);
    if (status == BUCKFLEET_OK)
        status = look_and_cut(&book);
    buckfleet_close(&book);
    if (stream)
        fclose(stream);
    free(apt);
    if (status != BUCKFLEET_OK)
        fprintf(stderr, "status %d\n", status);
    return status;
}
