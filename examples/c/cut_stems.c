/*
 * Cuts the stems of a stem file one by one, as a harvester does that fells them, into a book of one harvester.
 *
 *     cut_stems steady|linear|step|root APT STM [JOURNAL]
 *
 * It prints a line for each stem as it is cut, and then how all classes stand: what `buckfleet fleet --rule` prints of
 * these files. The journal goes into the file JOURNAL, if one is named.
 *
 *     scripts/c_library
 *     cc -Iout/c examples/c/cut_stems.c out/c/libbuckfleet.a -o cut_stems
 *     ./cut_stems linear examples/morning.apt examples/morning_1.stm morning.jrn
 */
#include "buckfleet.h"

#include <inttypes.h>
#include <limits.h>
#include <stdio.h>
#include <stdlib.h>
#include <string.h>

enum { MOST_SAMPLES = 401, MOST_ZONES = 100, MOST_BYTES = 1 << 26 };

struct bytes {
    uint8_t *at;
    size_t length;
};

/* A stem as a stem file has it; a harvester has it from its sensors. If a number is above what its type holds, or
 * there are too many, it is another stem's, and not to be cut. */
struct stem {
    int is_spoilt;
    buckfleet_felled felled;
    uint16_t samples[MOST_SAMPLES];
    size_t samples_length;
    buckfleet_zone zones[MOST_ZONES];
    size_t zones_length;
};

/* The bytes of a file and a zero behind them; none if it can't be read. */
static struct bytes file_of(const char *name) {
    struct bytes file = { NULL, 0 };
    FILE *stream = fopen(name, "rb");
    if (stream) {
        file.at = malloc(MOST_BYTES + 1);
        if (file.at) {
            file.length = fread(file.at, 1, MOST_BYTES, stream);
            file.at[file.length] = 0;
        }
        fclose(stream);
    }
    return file;
}

/* The next number, of at most so much, and what stands behind it: the same place if there is none. */
static unsigned long long number_at(struct stem *stem, const char *at, unsigned long long most, const char **behind) {
    char *end;
    unsigned long long number = strtoull(at, &end, 10);
    *behind = end;
    if (number > most)
        stem->is_spoilt = 1;
    return number > most ? 0 : number;
}

/* The most that a type of the library holds of an item's numbers; what other items say is nothing to us. */
static unsigned long long most_of(unsigned long long item) {
    switch (item) {
    case 951:
    case 954:
        return UINT32_MAX;
    case 952:
        return UINT8_MAX;
    case 953:
        return UINT16_MAX;
    default:
        return ULLONG_MAX;
    }
}

/* Reads the numbers of an item into a stem, up to the tilde. */
static const char *item_into(struct stem *stem, const char *at) {
    unsigned long long item = number_at(stem, at, 65535, &at), kind = number_at(stem, at, 65535, &at), number;
    const char *behind;
    if (kind != 1)
        item = 0;
    for (;; at = behind) {
        number = number_at(stem, at, most_of(item), &behind);
        if (behind == at)
            break;
        if (item == 951)
            stem->felled.number = (uint32_t)number;
        else if (item == 952)
            stem->felled.species = (uint8_t)number;
        else if (item == 953 && stem->samples_length < MOST_SAMPLES)
            stem->samples[stem->samples_length++] = (uint16_t)number;
        else if (item == 954 && stem->zones_length < MOST_ZONES) {
            stem->zones[stem->zones_length].start = (uint32_t)number;
            stem->zones[stem->zones_length++].grade = (uint8_t)number_at(stem, behind, UINT8_MAX, &behind);
        } else if (item == 953 || item == 954)
            stem->is_spoilt = 1;
    }
    at = strchr(at, '~');
    return at ? at + 1 : "";
}

/* The next stem of a stem file, and where it ends; NULL if there is none. */
static const char *next_stem(const char *at, struct stem *stem) {
    memset(stem, 0, sizeof *stem);
    stem->felled.harvester = 1;
    at = strstr(at, "951 ");
    if (!at)
        return NULL;
    do {
        at = item_into(stem, at);
        at += strspn(at, " \r\n\t");
    } while (*at && strncmp(at, "951 ", 4) != 0);
    return at;
}

/* Cuts a stem and prints its line, as a report has it. */
static uint8_t cut(buckfleet_book *book, const struct stem *stem) {
    static buckfleet_cutting cutting;
    uint8_t status = buckfleet_cut(book, &stem->felled, stem->samples, stem->samples_length, stem->zones,
                                   stem->zones_length, &cutting);
    if (status == BUCKFLEET_OK)
        printf("ENTRY %" PRIu32 " %" PRIu32 " %" PRIu32 " %" PRIu32 " %" PRIu32 " %" PRIu32 " %" PRIu64 "\n",
               cutting.position, stem->felled.harvester, cutting.number, cutting.version, stem->felled.number,
               cutting.logs_number, cutting.worth);
    return status;
}

/* The journal of a book. */
static uint8_t journal_of(buckfleet_book *book, struct bytes *journal) {
    uint8_t status = buckfleet_journal(book, NULL, 0, &journal->length);
    if (status != BUCKFLEET_TOO_SMALL)
        return status;
    journal->at = malloc(journal->length);
    return journal->at ? buckfleet_journal(book, journal->at, journal->length, &journal->length) : BUCKFLEET_MEMORY;
}

/* Prints the report of a journal from where the lines of its stems end: these are printed already. */
static uint8_t print_classes(const struct bytes *apt, const struct bytes *journal) {
    size_t length = 0;
    uint8_t *report = NULL;
    const char *from;
    uint8_t status = buckfleet_report(apt->at, apt->length, journal->at, journal->length, NULL, 0, &length);
    if (status == BUCKFLEET_TOO_SMALL && (report = malloc(length + 1)) != NULL)
        status = buckfleet_report(apt->at, apt->length, journal->at, journal->length, report, length, &length);
    if (status == BUCKFLEET_OK) {
        report[length] = 0;
        from = strstr((char *)report, "CLASS ");
        fputs(from ? from : (char *)report, stdout);
    }
    free(report);
    return status;
}

static int write_file(const char *name, const struct bytes *file) {
    FILE *stream = fopen(name, "wb");
    int is_written = stream && fwrite(file->at, 1, file->length, stream) == file->length;
    return (!stream || fclose(stream) == 0) && is_written;
}

static uint8_t run(int count, char **words, const buckfleet_terms *terms, const struct bytes *apt, const char *stems) {
    buckfleet_book book = BUCKFLEET_NO_BOOK;
    struct bytes journal = { NULL, 0 };
    struct stem stem;
    uint8_t status = buckfleet_open(&book, apt->at, apt->length, terms);
    while (status == BUCKFLEET_OK && (stems = next_stem(stems, &stem)) != NULL)
        status = stem.is_spoilt ? BUCKFLEET_REFUSED : cut(&book, &stem);
    if (status == BUCKFLEET_OK)
        status = journal_of(&book, &journal);
    if (status == BUCKFLEET_OK)
        status = print_classes(apt, &journal);
    if (status == BUCKFLEET_OK && count == 5 && !write_file(words[4], &journal))
        status = BUCKFLEET_READ;
    free(journal.at);
    buckfleet_close(&book);
    return status;
}

int main(int count, char **words) {
    static const char *const RULES[] = { "steady", "linear", "step", "root" };
    buckfleet_terms terms = { 1000000, 0 };
    struct bytes apt, stm;
    int status = BUCKFLEET_READ;
    while (count > 3 && terms.rule < 4 && strcmp(words[1], RULES[terms.rule]) != 0)
        terms.rule++;
    if (count < 4 || count > 5 || terms.rule == 4) {
        fputs("cut_stems steady|linear|step|root APT STM [JOURNAL]\n", stderr);
        return 2;
    }
    apt = file_of(words[2]);
    stm = file_of(words[3]);
    if (apt.at && stm.at)
        status = run(count, words, &terms, &apt, (const char *)stm.at);
    free(apt.at);
    free(stm.at);
    if (status != BUCKFLEET_OK)
        fprintf(stderr, "status %d\n", status);
    return status;
}
