/*
 * What the trials' drivers share: where the inputs are (INPUTS) and where a line goes for each answer (ANSWERS), and, if EXPECTED is
 * defined, the lines that are expected: the first other one is the last.
 */
#ifndef TRIAL_H
#define TRIAL_H

#include <signal.h>
#include <stdint.h>
#include <stdio.h>
#include <stdlib.h>
#include <string.h>
#include <unistd.h>

/* An input that takes longer than this many seconds does not end. */
#define PATIENCE 60

static FILE *inputs, *answers, *expected;

static void opened(void)
{
    if (inputs)
        return;
    inputs = fopen(INPUTS, "rb");
    answers = fopen(ANSWERS, "w");
#ifdef EXPECTED
    if (!(expected = fopen(EXPECTED, "r")))
        exit(2);
#endif
    if (!inputs || !answers)
        exit(2);
}

/* FNV-1a 64. */
static unsigned long long hash_on(unsigned long long h, const unsigned char *bytes, size_t length)
{
    for (size_t i = 0; i < length; i++)
        h = (h ^ bytes[i]) * 0x100000001b3u;
    return h;
}

static unsigned long long hash(const unsigned char *bytes, size_t length)
{
    return hash_on(0xcbf29ce484222325u, bytes, length);
}

/* Puts down an answer, and says whether to go on. */
static int answered(const char *line)
{
    static char other[1000];
    fprintf(answers, "%s\n", line);
    fflush(answers);
    if (!expected)
        return 1;
    if (!fgets(other, sizeof other, expected))
        exit(2);
    other[strcspn(other, "\n")] = 0;
    return strcmp(line, other) == 0;
}

#endif
