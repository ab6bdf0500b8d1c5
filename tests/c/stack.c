/*
 * The stack that each call takes beyond its caller's, measured on the vectors: a call runs on a stack painted before, and the paint that is
 * gone afterwards is counted. Takes the files of the vectors: solve, check_book, check_sheet, convert, carry_back, shorten_book. README.md
 * and the header say the most, for a preview's calls and for those that name an edition, too.
 */
#define _POSIX_C_SOURCE 200809L
#include <pthread.h>
#include <stdio.h>
#include <stdlib.h>
#include <string.h>

#include "jemuling.h"
#include "limits.h"

#define PAINTED (256 * 1024)
#define ROW (1024 * 1024)

/* In the order of the files; handing back has none. */
enum { NOTHING, SOLVING, BOOK, SHEET, CONVERTING, CARRYING, SHORTENING, BACK, CALLS };

static const struct {
    const char *name;
    size_t most;
} said[CALLS] = {
    [SOLVING] = { "solving", 1664 },
    [BOOK] = { "the check of a book", 2560 },
    [SHEET] = { "the check of a sheet", 896 },
    [CONVERTING] = { "converting", 448 },
    [CARRYING] = { "carrying back", 768 },
    [SHORTENING] = { "shortening a book", 2816 },
    [BACK] = { "handing back", 64 },
};

static unsigned char question[JEMULING_QUESTION_BYTES + 1], book[JEMULING_BOOK_BYTES], sheet[JEMULING_SHEET_BYTES];
static unsigned char target[JEMULING_BOOK_BYTES];
static size_t question_length, book_length;
static jemuling_solved solved;
static jemuling_told told;
/* The calls that name no edition, and those that name one, with the second. */
enum { UNNAMED, NAMED, NAMINGS };
static int naming;
static size_t taken[NAMINGS][LIMITS][CALLS], runs[NAMINGS][LIMITS][CALLS];

static __attribute__((noinline)) void nothing(void)
{
    __asm__ volatile("" ::: "memory");
}

/* One call, on the painted stack. */
static void *called(void *call)
{
    switch (*(const int *)call) {
    case NOTHING:
        nothing();
        break;
    case SOLVING:
        if (naming == NAMED)
            solved = with[limit].solve_in(JEMULING_SECOND_EDITION, question, question_length, book, with[limit].bytes, sheet, sizeof sheet);
        else
            solved = with[limit].solve(question, question_length, book, with[limit].bytes, sheet, sizeof sheet);
        break;
    case BOOK:
        if (naming == NAMED)
            told = with[limit].check_book_in(JEMULING_SECOND_EDITION, question, question_length, book, book_length);
        else
            told = with[limit].check_book(question, question_length, book, book_length);
        break;
    case SHEET:
        if (naming == NAMED)
            told = jemuling_check_sheet_in(JEMULING_SECOND_EDITION, question, question_length, sheet, sizeof sheet);
        else
            told = jemuling_check_sheet(question, question_length, sheet, sizeof sheet);
        break;
    case CONVERTING:
        told = jemuling_convert(question, question_length, target, JEMULING_QUESTION_BYTES);
        break;
    case CARRYING:
        told = jemuling_carry_back(question, question_length, sheet, sizeof sheet, target, JEMULING_QUESTION_BYTES);
        break;
    case SHORTENING:
        told = jemuling_shorten_book_in(JEMULING_SECOND_EDITION, question, question_length, book, book_length, target, sizeof target);
        break;
    case BACK:
        told = with[limit].hand_back(solved.number, solved.value, book, with[limit].bytes, sheet, sizeof sheet);
        break;
    }
    return NULL;
}

/* The bytes at the stack's low end that a call leaves as they were painted. */
static size_t left(int call, unsigned char *stack, int paint)
{
    pthread_attr_t attributes;
    pthread_t thread;
    size_t i = 0;
    memset(stack, paint, PAINTED);
    if (pthread_attr_init(&attributes) || pthread_attr_setstack(&attributes, stack, PAINTED)
        || pthread_create(&thread, &attributes, called, &call) || pthread_join(thread, NULL)) {
        printf("no thread\n0 passed, 1 failed\n");
        exit(1);
    }
    pthread_attr_destroy(&attributes);
    while (i < PAINTED && stack[i] == paint)
        i++;
    return i;
}

/* What a call takes more than one of nothing, whose return address is 8 bytes. */
static void measure(int call)
{
    static unsigned char stack[PAINTED] __attribute__((aligned(4096)));
    static const int paints[] = { 0xa5, 0x5a };
    for (size_t i = 0; i < 2; i++) {
        size_t bytes = 8 + left(NOTHING, stack, paints[i]) - left(call, stack, paints[i]);
        if (bytes > taken[naming][limit][call])
            taken[naming][limit][call] = bytes;
    }
    runs[naming][limit][call]++;
}

/* Reads a field of hexadecimal digits up to a bar, and goes behind it. */
static size_t field(const char **at, unsigned char *bytes, size_t most)
{
    size_t n = 0;
    unsigned byte;
    while (**at != '|' && n < most && sscanf(*at, "%2x", &byte) == 1) {
        bytes[n++] = (unsigned char)byte;
        *at += 2;
    }
    *at += **at == '|';
    return n;
}

/* Whether there is such a call: the check of a sheet and shortening have no limit, shortening an edition always, handing back none,
   converting and carrying back neither. */
static int is_call(int call)
{
    switch (call) {
    case SHEET:
        return limit == STANDARD;
    case CONVERTING:
    case CARRYING:
        return limit == STANDARD && naming == UNNAMED;
    case SHORTENING:
        return limit == STANDARD && naming == NAMED;
    case BACK:
        return naming == UNNAMED;
    default:
        return 1;
    }
}

/* Every row of a file: its question, and the part that stands behind it. */
static void file(const char *name, int call)
{
    static char row[ROW];
    FILE *rows = fopen(name, "r");
    while (rows && fgets(row, sizeof row, rows)) {
        const char *at = strchr(row, '|');
        if (row[0] == '#' || !at)
            continue;
        at++;
        question_length = field(&at, question, sizeof question);
        if (call == BOOK || call == SHORTENING)
            book_length = field(&at, book, sizeof book);
        if (call == SHEET || call == CARRYING)
            field(&at, sheet, sizeof sheet);
        measure(call);
        if (call != SOLVING)
            continue;
        measure(BACK);
        book_length = told.number == JEMULING_OF_BOOK ? told.value : with[limit].bytes;
        measure(BOOK);
        if (is_call(SHORTENING))
            measure(SHORTENING);
        if (limit == STANDARD)
            measure(SHEET);
    }
    if (rows)
        fclose(rows);
}

/* What a call took, and whether it is no more than is said. */
static int within(int call)
{
    size_t bytes = taken[naming][limit][call], times = runs[naming][limit][call];
    printf("%s%s%s: %zu bytes of stack in %zu calls, %zu are said\n", said[call].name, with[limit].name,
           naming == NAMED ? ", edition 2" : "", bytes, times, said[call].most);
    return bytes > 0 && bytes <= said[call].most && times >= 100;
}

/* Both limits, on the files. */
static void measured(int count, char **names, int *passed, int *failed)
{
    for (limit = STANDARD; limit < LIMITS; limit++) {
        for (int call = SOLVING; call < CALLS; call++) {
            if (call != BACK && call < count && is_call(call))
                file(names[call], call);
        }
        for (int call = SOLVING; call < CALLS; call++) {
            if (!is_call(call))
                continue;
            if (within(call))
                (*passed)++;
            else
                (*failed)++;
        }
    }
}

int main(int count, char **names)
{
    int passed = 0, failed = 0;
    for (naming = UNNAMED; naming < NAMINGS; naming++)
        measured(count, names, &passed, &failed);
    printf("%d passed, %d failed\n", passed, failed);
    return failed != 0;
}
