/*
 * Cuts stems some times over into a book of the C library, by the linear rule, and prints what crates/bench_calls prints
 * of them. bench/stems.py writes the file of the stems: numbers of 32 bits, which are of each stem its number, its species,
 * how many diameters and how many zones, then the diameters, and then start and grade of each zone.
 *
 *     stems APT STEMS TIMES
 */
#include "buckfleet.h"

#include <inttypes.h>
#include <stdio.h>
#include <stdlib.h>

enum { MOST_SAMPLES = 401, MOST_ZONES = 100, MOST_BYTES = 1 << 26 };

struct stem {
    buckfleet_felled felled;
    uint32_t samples_length, zones_length;
    uint16_t samples[MOST_SAMPLES];
    buckfleet_zone zones[MOST_ZONES];
};

static uint8_t *bytes_of(const char *name, size_t *length) {
    FILE *file = fopen(name, "rb");
    uint8_t *at = malloc(MOST_BYTES);
    if (!file || !at)
        exit(1);
    *length = fread(at, 1, MOST_BYTES, file);
    fclose(file);
    return at;
}

/* The stems of a file, and how many there are. */
static struct stem *stems_of(const char *name, size_t *number) {
    size_t length, k = 0, i;
    const uint32_t *at = (const uint32_t *)bytes_of(name, &length), *end = at + length / 4;
    struct stem *stems = malloc((length / 16 + 1) * sizeof *stems);
    if (!stems)
        exit(1);
    for (; at < end; k++) {
        stems[k].felled.harvester = 1;
        stems[k].felled.number = *at++;
        stems[k].felled.species = (uint8_t)*at++;
        stems[k].samples_length = *at++;
        stems[k].zones_length = *at++;
        for (i = 0; i < stems[k].samples_length; i++)
            stems[k].samples[i] = (uint16_t)*at++;
        for (i = 0; i < stems[k].zones_length; i++) {
            stems[k].zones[i].start = *at++;
            stems[k].zones[i].grade = (uint8_t)*at++;
        }
    }
    *number = k;
    return stems;
}

int main(int count, char **words) {
    static buckfleet_cutting cutting;
    buckfleet_book book = BUCKFLEET_NO_BOOK;
    buckfleet_terms terms = { 1000000, BUCKFLEET_LINEAR };
    buckfleet_standing standing;
    size_t length, number, k;
    uint64_t worth = 0;
    long times = count == 4 ? atol(words[3]) : -1;
    uint8_t *apt;
    struct stem *stems;
    if (times < 0)
        return 2;
    apt = bytes_of(words[1], &length);
    stems = stems_of(words[2], &number);
    if (buckfleet_open(&book, apt, length, &terms) != BUCKFLEET_OK)
        return 3;
    for (; times > 0; times--)
        for (k = 0; k < number; k++) {
            const struct stem *s = &stems[k];
            if (buckfleet_cut(&book, &s->felled, s->samples, s->samples_length, s->zones, s->zones_length, &cutting)
                != BUCKFLEET_OK)
                return 3;
            worth += cutting.worth;
        }
    if (buckfleet_state(&book, &standing) != BUCKFLEET_OK)
        return 3;
    printf("%" PRIu32 " entries, %" PRIu32 " sheets, %" PRIu64 "\n", standing.postings, standing.version + 1, worth);
    buckfleet_close(&book);
    return 0;
}
