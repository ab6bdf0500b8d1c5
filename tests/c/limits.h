/*
 * The calls that have a limit of lines, once with 1,024 lines and once for a preview, and the sizes that they read from it; those that name
 * an edition, too.
 */
#ifndef LIMITS_H
#define LIMITS_H

#include "jemuling.h"

enum { STANDARD, PREVIEW, LIMITS };

static const struct {
    const char *name;
    size_t lines, bytes;
    jemuling_solved (*solve)(const uint8_t *, size_t, uint8_t *, size_t, uint8_t *, size_t);
    jemuling_told (*check_book)(const uint8_t *, size_t, const uint8_t *, size_t);
    jemuling_told (*hand_back)(uint64_t, size_t, const uint8_t *, size_t, const uint8_t *, size_t);
    jemuling_solved (*solve_in)(uint64_t, const uint8_t *, size_t, uint8_t *, size_t, uint8_t *, size_t);
    jemuling_told (*check_book_in)(uint64_t, const uint8_t *, size_t, const uint8_t *, size_t);
} with[LIMITS] = {
    [STANDARD] = { "", 1024, JEMULING_BOOK_BYTES, jemuling_solve, jemuling_check_book, jemuling_hand_back, jemuling_solve_in,
                   jemuling_check_book_in },
    [PREVIEW] = { ", preview", 256, JEMULING_PREVIEW_BYTES, jemuling_preview_solve, jemuling_preview_check_book,
                  jemuling_preview_hand_back, jemuling_preview_solve_in, jemuling_preview_check_book_in },
};

/* Which of the two is being called. */
static int limit;

#endif
