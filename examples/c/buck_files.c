/*
 * Cuts the stems of a stem file, or checks or reports a journal, by an instruction file.
 *
 *     buck_files buck APT STM
 *     buck_files check|report APT JOURNAL
 *
 * It prints what `buckfleet` prints to these words, and ends with its status.
 *
 *     scripts/c_library
 *     cc -Iinclude examples/c/buck_files.c out/c/libbuckfleet.a -o buck_files
 *     ./buck_files buck examples/pine.apt examples/pine.stm
 *     ./buck_files report examples/morning.apt examples/morning.jrn
 */
#include "buckfleet.h"

#include <stdio.h>
#include <stdlib.h>
#include <string.h>

enum { CHUNK = 1 << 16 };

/* What all three calls over files look like. */
typedef uint8_t call(const uint8_t *, size_t, const uint8_t *, size_t, uint8_t *, size_t, size_t *);

struct bytes {
    uint8_t *at;
    size_t length;
};

static int fail(const char *what, int status) {
    fprintf(stderr, "%s\n", what);
    return status;
}

/* The bytes of a file, in memory that grows by half; 0 if it can't be read. */
static int read_file(const char *name, struct bytes *file) {
    FILE *stream = fopen(name, "rb");
    size_t room = 0, got = 1;
    file->at = NULL;
    file->length = 0;
    if (!stream)
        return 0;
    while (got > 0) {
        if (room - file->length < CHUNK) {
            uint8_t *more;
            room += room / 2 + CHUNK;
            more = realloc(file->at, room);
            if (!more)
                break;
            file->at = more;
        }
        got = fread(file->at + file->length, 1, CHUNK, stream);
        file->length += got;
    }
    got = got > 0 || ferror(stream);
    fclose(stream);
    return got == 0;
}

/* The answer of a call, in memory of its own: its length is asked for first. */
static uint8_t answer_of(call *ask, const struct bytes *apt, const struct bytes *other, struct bytes *text) {
    uint8_t status = ask(apt->at, apt->length, other->at, other->length, NULL, 0, &text->length);
    if (status != BUCKFLEET_TOO_SMALL)
        return status;
    text->at = malloc(text->length);
    if (!text->at)
        return BUCKFLEET_MEMORY;
    return ask(apt->at, apt->length, other->at, other->length, text->at, text->length, &text->length);
}

static call *call_of(const char *word) {
    if (strcmp(word, "buck") == 0)
        return buckfleet_buck;
    if (strcmp(word, "check") == 0)
        return buckfleet_check;
    return strcmp(word, "report") == 0 ? buckfleet_report : NULL;
}

int main(int count, char **words) {
    struct bytes apt = { NULL, 0 }, other = { NULL, 0 }, text = { NULL, 0 };
    call *ask = count == 4 ? call_of(words[1]) : NULL;
    uint8_t status;
    if (!ask)
        return fail("buck_files buck|check|report APT FILE", 2);
    if (!read_file(words[2], &apt) || !read_file(words[3], &other)) {
        free(apt.at);
        free(other.at);
        return fail("a file can't be read", BUCKFLEET_READ);
    }
    status = answer_of(ask, &apt, &other, &text);
    free(apt.at);
    free(other.at);
    if (text.at && status != BUCKFLEET_TOO_SMALL)
        fwrite(text.at, 1, text.length, status == BUCKFLEET_OK ? stdout : stderr);
    free(text.at);
    return status;
}
