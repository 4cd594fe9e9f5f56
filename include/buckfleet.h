/*
 * buckfleet.h: Gielbrok for programs in C and C++.
 *
 * Link libbuckfleet.a or .so, which `scripts/c_library` builds only if a checker accepts a proof that each call meets
 * its contract, for a caller that keeps to this page.
 *
 * A call's comment has its effect, its arguments, and its answers: statuses of the table below, without BUCKFLEET_,
 * with their causes if the table doesn't have them. After a failure everything is as it was, but for `out` and
 * `*written`.
 *
 * Units: places in mm from the butt, lengths in mm, diameters in mm under bark, worths in millionths of the price unit.
 * Indexes, positions and versions count from 0.
 *
 * Text: a call that puts a text into `out` sets `*written` to its length in bytes. If that is more than `out_length`,
 * it answers TOO_SMALL and writes nothing else: call again with that much. `out` may be null and `out_length` 0, to ask
 * for the length; the call does all its work then, too. With REFUSED to READ the text is the fault line that the
 * program `buckfleet` prints; with CLOSED and MISUSED `*written` is 0.
 *
 * Threads: calls over files may run in any threads at once. A book stays on the thread that opened it; calls of
 * different books may run at once.
 *
 * Memory comes from the program's malloc, realloc and free. If malloc refuses, the answer is MEMORY, in place of any
 * other. Memory that is handed over stays the caller's; no call keeps an address of it.
 *
 * A call is undefined if one of these is broken:
 *  - Every pointer is not null (unless its length is 0), is aligned as its type is, and has as much memory as is said.
 *  - What a call writes overlaps nothing that it reads, and nothing else that it writes: `out` not `*written`.
 *  - While a call runs, nothing else writes what it reads, or reads or writes what it writes.
 *  - malloc, realloc and free are of one allocator: if one is replaced, all three are.
 *  - No call is made from a signal handler, nor from a forked child of a process with threads before it calls exec.
 */
#ifndef BUCKFLEET_H
#define BUCKFLEET_H

#include <stddef.h>
#include <stdint.h>

#ifdef __cplusplus
extern "C" {
#endif

/* The version of the calls: one more for each change of them. */
#define BUCKFLEET_VERSION 8

/* How a call ended. Those up to 5 are exit statuses of the program. */
enum {
    BUCKFLEET_OK = 0,
    BUCKFLEET_REFUSED = 1,   /* the bytes of a file, a stem or targets are refused */
    BUCKFLEET_SEATS = 2,     /* there are not 1 to 64 stem files */
    BUCKFLEET_MEMORY = 3,    /* memory ran out, or there are more than 1,000,000 stems or postings */
    BUCKFLEET_UNLAWFUL = 4,  /* a journal isn't lawful for the instruction, or not of the stem files or by the rule */
    BUCKFLEET_READ = 5,      /* a file has more than 67,108,864 bytes */
    BUCKFLEET_TOO_SMALL = 6, /* `out` is too small */
    BUCKFLEET_CLOSED = 7,    /* the block holds no book */
    BUCKFLEET_MISUSED = 8,   /* another number isn't as this page says, or the block holds a book already */
    BUCKFLEET_FULL = 9       /* the book is at its capacity */
};

/* BUCKFLEET_VERSION of the library that is linked. */
uint32_t buckfleet_version(void);

/* Calls over the bytes of files keep nothing. They give the text and the status of a command of the program. */

/* As `buckfleet buck APT STM`: cuts each stem at base prices. Answers OK, REFUSED, MEMORY, READ, TOO_SMALL. */
uint8_t buckfleet_buck(const uint8_t *apt, size_t apt_length, const uint8_t *stm, size_t stm_length, uint8_t *out,
    size_t out_length, size_t *written);

/* As `buckfleet check`: checks a journal. Answers OK, REFUSED, MEMORY, UNLAWFUL, READ, TOO_SMALL. */
uint8_t buckfleet_check(const uint8_t *apt, size_t apt_length, const uint8_t *journal, size_t journal_length,
    uint8_t *out, size_t out_length, size_t *written);

/* As `buckfleet report`: reports a journal. Answers as buckfleet_check. */
uint8_t buckfleet_report(const uint8_t *apt, size_t apt_length, const uint8_t *journal, size_t journal_length,
    uint8_t *out, size_t out_length, size_t *written);

/* What a table has lines for. */
enum {
    BUCKFLEET_CLASSES = 0,
    BUCKFLEET_POSTINGS = 1, /* cuts and changes of targets */
    BUCKFLEET_LOGS = 2,
    BUCKFLEET_DEGREES = 3,  /* assortments at each point of their curves */
    BUCKFLEET_ASSORTMENTS = 4,
    BUCKFLEET_LACKING = 5   /* classes that lack logs */
};

/*
 * As `buckfleet view`: one HTML page in UTF-8. `names`: the names of instruction and journal on the page, with a line
 * feed between them. Answers as buckfleet_check; with UNLAWFUL the text is the page of the first fault.
 */
uint8_t buckfleet_view(const uint8_t *apt, size_t apt_length, const uint8_t *journal, size_t journal_length,
    const uint8_t *names, size_t names_length, uint8_t *out, size_t out_length, size_t *written);

/*
 * As `buckfleet table`: a lawful journal as CSV. `table`: BUCKFLEET_CLASSES to _LACKING. Answers as buckfleet_check,
 * and MISUSED.
 */
uint8_t buckfleet_table(const uint8_t *apt, size_t apt_length, const uint8_t *journal, size_t journal_length,
    uint8_t table, uint8_t *out, size_t out_length, size_t *written);

/* The rules that set prices at the end of a period, as the program's `--rule`. */
enum {
    BUCKFLEET_STEADY = 0, /* base prices, always */
    BUCKFLEET_LINEAR = 1, /* moved by as much of the span as a class is off its target */
    BUCKFLEET_STEP = 2,   /* moved by the whole span if a class is off its target */
    BUCKFLEET_ROOT = 3    /* moved by d / (d + s) of the span: d logs off, with standard deviation s */
};

/* The bytes of two texts in `out`, one after the other. */
typedef struct buckfleet_texts {
    size_t journal; /* 0 with a fault line */
    size_t report;  /* the report, or the fault line */
} buckfleet_texts;

/*
 * As `buckfleet fleet --in-turn --rule RULE --journal OUT`: harvester k cuts the k-th stem file. `files`: the bytes of
 * the instruction file and of 1 to 64 stem files, one after the other; `lengths`: that of each. Text: journal and
 * report, or the fault line; `*texts` stands for `*written`. Answers OK, REFUSED, SEATS, MEMORY, READ, TOO_SMALL,
 * MISUSED (also if there is no instruction, or the lengths don't add up to `files_length`).
 */
uint8_t buckfleet_in_turn(const uint8_t *files, size_t files_length, const size_t *lengths, size_t lengths_length,
    uint8_t rule, uint8_t *out, size_t out_length, buckfleet_texts *texts);

/*
 * Calls over several files: `files` has the bytes of files, one after another, and `lengths` that of each. They answer
 * OK, REFUSED, SEATS, MEMORY, READ, TOO_SMALL, MISUSED (also if there are not the files that the call names, or the
 * lengths don't add up to `files_length`), and those over journals UNLAWFUL too. They work in one thread.
 */

/* In place of a number: the instruction's own. */
#define BUCKFLEET_OWN 4294967295u

/* In place of a rule, for buckfleet_check_with alone: prices need follow none. */
#define BUCKFLEET_ANY_RULE 255

/* Numbers in place of the instruction's, as the program's `--period` and `--limit`. */
typedef struct buckfleet_numbers {
    uint32_t period; /* in stems, 1 to 1,000, or BUCKFLEET_OWN */
    uint32_t limit;  /* per mille, 0 to 1,000, or BUCKFLEET_OWN */
} buckfleet_numbers;

/* The numbers of two runs that are compared. */
typedef struct buckfleet_pair {
    buckfleet_numbers first;
    buckfleet_numbers second;
} buckfleet_pair;

/* A run: its numbers and its rule. */
typedef struct buckfleet_run {
    buckfleet_numbers numbers;
    uint8_t rule; /* BUCKFLEET_STEADY to _ROOT */
} buckfleet_run;

/* Shuffled orders of the stems, as the program's `--draws` and `--seed`. */
typedef struct buckfleet_draws {
    uint64_t seed;   /* the program's is 1 if none is given */
    uint16_t number; /* 0: no orders but the files' own */
} buckfleet_draws;

/* A run that is made in shuffled orders too. */
typedef struct buckfleet_drawn_run {
    buckfleet_run run;
    buckfleet_draws draws;
} buckfleet_drawn_run;

/*
 * As `buckfleet check APT JOURNAL STM..`: checks a journal, also against stem files and a rule. `files`: instruction,
 * journal, and 0 to 64 stem files; none: stems aren't compared.
 */
uint8_t buckfleet_check_with(const uint8_t *files, size_t files_length, const size_t *lengths, size_t lengths_length,
    const buckfleet_run *run, uint8_t *out, size_t out_length, size_t *written);

/*
 * As `buckfleet appraise`: what journals bring under an owner's contract, as CSV. `files`: instruction, contract, and
 * 1 to 64 journals.
 */
uint8_t buckfleet_appraise(const uint8_t *files, size_t files_length, const size_t *lengths, size_t lengths_length,
    const buckfleet_numbers *numbers, uint8_t *out, size_t out_length, size_t *written);

/* As `buckfleet compare`: two journals side by side, as CSV. `files`: instruction, and two journals. */
uint8_t buckfleet_compare(const uint8_t *files, size_t files_length, const size_t *lengths, size_t lengths_length,
    const buckfleet_pair *pair, uint8_t *out, size_t out_length, size_t *written);

/*
 * As `buckfleet sweep`: a head and a line of CSV for each run, in order, over the same stems. `files`: instruction, a
 * file of targets (of no bytes: the instruction's targets), and 1 to 64 stem files. `runs`: any number; none: the head.
 */
uint8_t buckfleet_sweep(const uint8_t *files, size_t files_length, const size_t *lengths, size_t lengths_length,
    const buckfleet_run *runs, size_t runs_length, const buckfleet_draws *draws, uint8_t *out, size_t out_length,
    size_t *written);

/* As `buckfleet wishes`: a line of CSV for what each target costs. `files` as of buckfleet_sweep. */
uint8_t buckfleet_wishes(const uint8_t *files, size_t files_length, const size_t *lengths, size_t lengths_length,
    const buckfleet_drawn_run *run, uint8_t *out, size_t out_length, size_t *written);

/* As `buckfleet tune`: the instruction, with prices that such stems ask for. `files` as of buckfleet_sweep. */
uint8_t buckfleet_tune(const uint8_t *files, size_t files_length, const size_t *lengths, size_t lengths_length,
    const buckfleet_run *run, uint8_t *out, size_t out_length, size_t *written);

/*
 * The block of the caller's memory for a book, in which stems are cut one by one as they are felled. The caller makes
 * it zeros (`= BUCKFLEET_NO_BOOK`), and then reads and writes nothing in it. Other bytes that this library didn't write
 * are known to hold no book, short of a chance of 1 in 2^64. A block may be moved while no call uses it, and used again
 * after buckfleet_close; of two copies only one may be used. A book that isn't closed keeps its memory.
 */
typedef struct buckfleet_book {
    uint64_t mark;
    void *kept;
} buckfleet_book;

#define BUCKFLEET_NO_BOOK { 0, 0 }

typedef struct buckfleet_terms {
    uint32_t capacity; /* of postings (cuts and new targets), 1 to 1,000,000 */
    uint8_t rule;      /* BUCKFLEET_STEADY to _ROOT */
} buckfleet_terms;

/* A felled stem, without diameters and zones. */
typedef struct buckfleet_felled {
    uint32_t harvester; /* who cuts it, 1 to 64 */
    uint32_t number;    /* of the stem */
    uint8_t species;    /* 1 to 255 */
} buckfleet_felled;

/* A grade zone of a stem, up to the next. Before the first the grade is 1. */
typedef struct buckfleet_zone {
    uint32_t start; /* at most 40,000; each zone starts after the one before */
    uint8_t grade;  /* 1 to 8 */
} buckfleet_zone;

/* The most logs that a stem is cut into. */
#define BUCKFLEET_MOST_LOGS 80

/* A log of a cutting. */
typedef struct buckfleet_log {
    uint64_t worth;
    uint32_t start;
    uint32_t length;    /* trim excluded */
    uint32_t top;       /* the diameter at the end of its length */
    uint32_t price;     /* in force of its class, per m3 or per piece */
    uint8_t assortment; /* its index in the instruction */
    uint8_t row;        /* of its class: the index of its diameter */
    uint8_t column;     /* and that of its length */
} buckfleet_log;

/* A cutting, and its place in the book. */
typedef struct buckfleet_cutting {
    uint64_t worth;       /* of all logs together */
    uint32_t position;    /* among the book's postings */
    uint32_t number;      /* among its harvester's postings, from 1 */
    uint32_t version;     /* of the prices that it was planned under */
    uint32_t logs_number; /* 0 if nothing is worth cutting */
    buckfleet_log logs[BUCKFLEET_MOST_LOGS]; /* from the butt on */
} buckfleet_cutting;

/* A log of a cutting of your own. */
typedef struct buckfleet_named {
    uint32_t start;
    uint32_t length;    /* trim excluded */
    uint8_t assortment; /* its index in the instruction */
} buckfleet_named;

/* Why a log can't be cut: the first of these that applies. */
enum {
    BUCKFLEET_ADMISSIBLE = 0, /* all logs can be cut */
    BUCKFLEET_ORDER = 1,      /* starts before the end of the log before it, trim included */
    BUCKFLEET_ASSORTMENT = 2, /* no assortment of the instruction */
    BUCKFLEET_SPECIES = 3,    /* of another species than the stem's */
    BUCKFLEET_START = 4,      /* starts at no multiple of the module */
    BUCKFLEET_LENGTH = 5,     /* none of its assortment's lengths */
    BUCKFLEET_END = 6,        /* ends past the stem, trim included */
    BUCKFLEET_GRADE = 7,      /* has a grade that its assortment doesn't take */
    BUCKFLEET_DIAMETER = 8,   /* has a top diameter outside its assortment's rows */
    BUCKFLEET_PRICE = 9       /* of a class with base price 0 */
};

/* The worth of a cutting of your own. */
typedef struct buckfleet_appraisal {
    uint64_t worth;   /* of all its logs; 0 if one can't be cut */
    uint64_t best;    /* of the best cutting */
    size_t log;       /* the index of the first log that can't be cut, else the number of logs */
    uint32_t version; /* of the prices in force */
    uint8_t reason;   /* BUCKFLEET_ADMISSIBLE, or why it can't be */
} buckfleet_appraisal;

/* The state of a book. */
typedef struct buckfleet_standing {
    uint32_t postings;
    uint32_t capacity;
    uint32_t version;     /* of the prices in force */
    uint32_t assortments; /* of its instruction */
    uint32_t classes;     /* of all assortments together, at most 16,384 */
} buckfleet_standing;

/* The degree of an assortment that has none. */
#define BUCKFLEET_NO_DEGREE 4294967295u

/*
 * Opens a book in a block that holds none, with base prices in force and no posting. `apt`: the bytes of an instruction
 * file. Answers OK, REFUSED (buckfleet_buck with these bytes and no stems has the fault line), MEMORY, MISUSED.
 */
uint8_t buckfleet_open(buckfleet_book *book, const uint8_t *apt, size_t apt_length, const buckfleet_terms *terms);

/* Closes a book and frees its memory; the block holds none. Answers OK, CLOSED. */
uint8_t buckfleet_close(buckfleet_book *book);

/*
 * Commits the first of the best cuttings of a stem at the prices in force, and puts it into `*cutting`. `samples`: 1 to
 * 401 diameters, one each 100 mm from the butt, at most 1,500. `zones`: at most 100. Answers OK, REFUSED, MEMORY,
 * CLOSED, MISUSED, FULL.
 */
uint8_t buckfleet_cut(buckfleet_book *book, const buckfleet_felled *felled, const uint16_t *samples,
    size_t samples_length, const buckfleet_zone *zones, size_t zones_length, buckfleet_cutting *cutting);

/* Shows what buckfleet_cut would do, and commits nothing. It has the same arguments and answers, without FULL. */
uint8_t buckfleet_preview(buckfleet_book *book, const buckfleet_felled *felled, const uint16_t *samples,
    size_t samples_length, const buckfleet_zone *zones, size_t zones_length, buckfleet_cutting *cutting);

/*
 * Prices named logs of a stem at the prices in force, beside the best cutting, or says which can't be cut, and why.
 * Commits nothing. `logs`: from the butt on; any numbers, and any count. Other arguments and answers as
 * buckfleet_preview.
 */
uint8_t buckfleet_price_of(buckfleet_book *book, const buckfleet_felled *felled, const uint16_t *samples,
    size_t samples_length, const buckfleet_zone *zones, size_t zones_length, const buckfleet_named *logs,
    size_t logs_length, buckfleet_appraisal *appraisal);

/*
 * Puts new targets in force, which ends the period. `harvester`: 1 to 64. `targets`: pieces, one for each class,
 * assortment by assortment and row by row; each at most 1,000,000, those of an assortment together at most
 * 1,000,000,000. Answers OK, REFUSED, MEMORY, CLOSED, MISUSED, FULL.
 */
uint8_t buckfleet_retarget(buckfleet_book *book, uint32_t harvester, const uint32_t *targets, size_t targets_length);

/* Puts the state of a book into `*standing`. Answers OK, CLOSED. */
uint8_t buckfleet_state(buckfleet_book *book, buckfleet_standing *standing);

/*
 * Prices in force, targets in force, logs cut: a number for each class, in the order of targets. `out`, `out_length`
 * and `*written` are as for a text, but count numbers. Answers OK, TOO_SMALL, CLOSED.
 */
uint8_t buckfleet_prices(buckfleet_book *book, uint32_t *out, size_t out_length, size_t *written);
uint8_t buckfleet_targets(buckfleet_book *book, uint32_t *out, size_t out_length, size_t *written);
uint8_t buckfleet_counts(buckfleet_book *book, uint32_t *out, size_t out_length, size_t *written);

/*
 * Puts the degree of apportionment of an assortment into `*degree`, in ten-thousandths; BUCKFLEET_NO_DEGREE if nothing
 * is wanted or nothing was cut. `assortment`: its index. Answers OK, CLOSED, MISUSED.
 */
uint8_t buckfleet_degree(buckfleet_book *book, uint8_t assortment, uint32_t *degree);

/* Text: the journal of a book, lawful for its instruction. Answers OK, MEMORY, TOO_SMALL, CLOSED. */
uint8_t buckfleet_journal(buckfleet_book *book, uint8_t *out, size_t out_length, size_t *written);

#ifdef __cplusplus
}
#endif

#endif
