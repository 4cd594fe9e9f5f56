/*
 * Works on several files at once, as the program's commands of these names do.
 *
 *     several_files check|sweep|wishes|tune RULE APT FILE..
 *     several_files appraise APT OWN JOURNAL..
 *     several_files compare APT JOURNAL JOURNAL
 *
 * RULE is steady, linear, step or root. The files of `check` are a journal and stem files, those of `sweep`, `wishes`
 * and `tune` stem files. It prints what `buckfleet` prints, and ends with its status.
 *
 *     scripts/c_library
 *     cc -Iinclude examples/c/several_files.c out/c/libbuckfleet.a -o several_files
 *     ./several_files sweep root examples/morning.apt examples/morning_1.stm examples/morning_2.stm
 */
#include "buckfleet.h"

#include <stdio.h>
#include <stdlib.h>
#include <string.h>

enum { CHUNK = 1 << 16, MOST_FILES = 66 };

/* The files of a call, one after another. */
struct files {
    uint8_t *at;
    size_t length, room, lengths[MOST_FILES], number;
};

static const buckfleet_numbers own = { BUCKFLEET_OWN, BUCKFLEET_OWN };

/* Puts a file behind the others; 0 if it can't be read. */
static int add(struct files *files, const char *name) {
    FILE *stream = fopen(name, "rb");
    size_t before = files->length, got = 1;
    if (!stream || files->number == MOST_FILES) {
        if (stream)
            fclose(stream);
        return 0;
    }
    while (got > 0) {
        if (files->room - files->length < CHUNK) {
            size_t room = files->room + files->room / 2 + CHUNK;
            uint8_t *more = realloc(files->at, room);
            if (!more)
                break;
            files->at = more;
            files->room = room;
        }
        got = fread(files->at + files->length, 1, CHUNK, stream);
        files->length += got;
    }
    got = got > 0 || ferror(stream);
    fclose(stream);
    files->lengths[files->number++] = files->length - before;
    return got == 0;
}

/* Makes the call of a command. */
static uint8_t ask(const char *word, uint8_t rule, const struct files *files, uint8_t *out, size_t room,
    size_t *written) {
    buckfleet_pair pair;
    buckfleet_run run;
    buckfleet_drawn_run drawn;
    const uint8_t *at = files->at;
    const size_t *lengths = files->lengths;
    pair.first = pair.second = run.numbers = own;
    run.rule = rule;
    drawn.run = run;
    drawn.draws.seed = 1;
    drawn.draws.number = 0;
    if (strcmp(word, "check") == 0)
        return buckfleet_check_with(at, files->length, lengths, files->number, &run, out, room, written);
    if (strcmp(word, "sweep") == 0)
        return buckfleet_sweep(at, files->length, lengths, files->number, &run, 1, &drawn.draws, out, room, written);
    if (strcmp(word, "wishes") == 0)
        return buckfleet_wishes(at, files->length, lengths, files->number, &drawn, out, room, written);
    if (strcmp(word, "tune") == 0)
        return buckfleet_tune(at, files->length, lengths, files->number, &run, out, room, written);
    if (strcmp(word, "appraise") == 0)
        return buckfleet_appraise(at, files->length, lengths, files->number, &own, out, room, written);
    return buckfleet_compare(at, files->length, lengths, files->number, &pair, out, room, written);
}

/* Prints the answer of a command: its length is asked for first, for which the work is done, too. */
static int answer(const char *word, uint8_t rule, const struct files *files) {
    size_t length = 0;
    uint8_t *text, status = ask(word, rule, files, NULL, 0, &length);
    if (status != BUCKFLEET_TOO_SMALL)
        return status;
    text = malloc(length);
    if (!text)
        return BUCKFLEET_MEMORY;
    status = ask(word, rule, files, text, length, &length);
    fwrite(text, 1, length, status == BUCKFLEET_OK ? stdout : stderr);
    free(text);
    return status;
}

int main(int count, char **words) {
    static const char *const rules[] = { "steady", "linear", "step", "root" };
    struct files files = { NULL, 0, 0, { 0 }, 0 };
    int is_trial, has_rule, is_known, at, status = 0;
    uint8_t rule = 0;
    const char *word = count > 1 ? words[1] : "";
    is_trial = strcmp(word, "sweep") == 0 || strcmp(word, "wishes") == 0 || strcmp(word, "tune") == 0;
    has_rule = is_trial || strcmp(word, "check") == 0;
    is_known = has_rule || strcmp(word, "appraise") == 0 || strcmp(word, "compare") == 0;
    while (count > 2 && has_rule && rule < 4 && strcmp(words[2], rules[rule]) != 0)
        rule++;
    if (count < 5 || !is_known || rule == 4) {
        fprintf(stderr, "several_files check|sweep|wishes|tune RULE APT FILE.. | appraise|compare APT FILE FILE..\n");
        return 2;
    }
    for (at = has_rule ? 3 : 2; at < count && status == 0; at++) {
        if (!add(&files, words[at]))
            status = BUCKFLEET_READ;
        else if (is_trial && files.number == 1)
            files.lengths[files.number++] = 0; /* no file of targets */
    }
    if (status == 0)
        status = answer(word, rule, &files);
    else
        fprintf(stderr, "a file can't be read\n");
    free(files.at);
    return status;
}
