/*
 * Jemuling: whether a batch of open bank entries can agree.
 *
 * A question, little-endian: a byte b, its marks (0 to 16); a byte r, its
 * figures (0 to 8); two bytes n, its clauses (0 to 256). Each clause: a byte m
 * (0 to 32) and m literals of one byte, a mark's number, plus 128 if negated; a
 * byte t (0 to 8) and t conditions: a byte 1 (at most), 2 (below), 3 (equal) or
 * 4 (at least), r coefficients and a bound, each four bytes and signed, at most
 * 1,000,000,000 in size; 3 stands at most once in a clause. A condition holds
 * if the sum of coefficient times figure is at most, below, equal to or at
 * least the bound; a clause if one of its literals or conditions does. The
 * question: are there marks and figures, fractions of any size, with which
 * every clause holds?
 *
 * Solving reads 4 as 1 with all signs turned, and a clause with a 3 twice:
 * first with 1 in its place, then with 4; the literals and the other conditions
 * stand in both. Each reading is tidied: a condition without figures goes, and
 * the reading with it if it is true; so does a reading with a mark and its
 * negation; the rest is divided by its greatest common divisor. A reading left
 * with k conditions is cut into k pieces by k - 1 links, marks of the solver's
 * own; the pieces and links of a second reading are numbered on behind those of
 * the first. The pieces are the first lines of the book. The course then
 * eliminates one figure after the other, each time the remaining one with the
 * least U x L - U - L, which is positive in U and negative in L of the lines
 * without a figure eliminated before, and then the marks, by combining two
 * lines at a time; the result of such a pair, tidied, is a line of the book
 * too. What tidying drops is left out, and so is what an earlier line covers:
 * one with no other literals, and with no condition or the same coefficients
 * and a bound that is smaller, or equal under a relation at least as strict. A
 * line with nothing in it ends the course: the clauses contradict each other.
 * Without one, a value for each mark and figure is worked out backwards from
 * the lines. A mark that stands in no literal of the question as it is written
 * is open: nothing decides it, and it is neither yes nor no.
 *
 * Edition 1 is the question as it is written. Edition 2 adds that no figure is
 * negative: after clause n - 1, clauses n to n + r - 1 state that figure 0, 1
 * and so on is at least 0. They stand in no byte of the question and load like
 * its clauses, behind them, each as one piece without a link (coefficient -1,
 * at most 0); where an earlier line covers one, it is left out. So a clause's
 * number, in a line of the book and from the check of a sheet, goes up to 255
 * in edition 1 and to 263 in edition 2. The question's faults and its open
 * marks are those of the question as it is written, in either edition.
 *
 * A call whose name ends in _in names an edition, and tests it before all else;
 * the call of the same name without it, if there is one, is edition 1. Handing
 * back names none: it reads no question. To satisfy a question is to satisfy
 * every clause of the call's edition. A book that is accepted in edition 1 is
 * accepted in edition 2, and a sheet that is accepted in edition 2 is accepted
 * in edition 1. Neither holds the other way round.
 *
 * A first-edition question, an old one, is carried over to the second by
 * converting it, and a sheet of the new question is carried back. Converting
 * keeps a figure where a clause of its own says that it is not negative: one
 * without literals whose only condition, as it is written, is a negative
 * multiple of this figure alone with relation 1 or 2 and a bound of at most 0
 * (-x <= 0, -7x < 0, -x <= -3; not x >= 0 with relation 4, nor -x = 0). Any
 * other figure becomes two, its halves: they stand side by side in its place,
 * with coefficients c and -c for its c, so that the figure is the first less
 * the second. All else is copied, byte for byte: marks, literals, relations,
 * bounds, and the clauses in their order. The new question has a solution in
 * edition 2 exactly if the old one has one in edition 1, and open marks stay
 * the same. A sheet of the new question goes back by subtraction, over the same
 * marks and denominator. Neither call names an edition.
 *
 * A book of many lines shows a reader little, since most of them may lead
 * nowhere. Shortened, it has the last, empty line and only the lines from which
 * that descends: its parents, their parents, and so on to lines from clauses.
 * They stay in order, and the parents of a result are named by their new
 * numbers; the clause and the piece of a loaded line, and all that a line
 * states, are as they were. The short book is a book of the same question like
 * any other, and the clauses that it loads, the written ones and edition 2's,
 * have no solution together, without the others; one with a 3 (equal) counts
 * whole. There may be another book with fewer lines; none is looked for.
 *
 * A question, a book and a sheet are bytes that the caller owns and lends for
 * the time of one call. No call keeps a pointer or any state, allocates,
 * prints or stops the process; every call ends, for bytes of every kind and
 * buffers of every length. Calls in several threads do not disturb each other
 * as long as the buffers that one of them writes are its own. A pointer may be
 * NULL where its length is 0. Buffers of one call must not overlap.
 *
 * A book has 1,024 lines of 64 bytes; a preview's has 256, and calls of its
 * own: jemuling_preview_solve, jemuling_preview_check_book, both with _in too,
 * and jemuling_preview_hand_back, which differ from the others in that number
 * alone. Of a longer buffer a preview writes the first 16,384 bytes, and keeps
 * the rest. A verdict of the preview, or JEMULING_WIDE, is also what
 * jemuling_solve says of the question, or jemuling_solve_in in the same edition,
 * with the same lines, pairs, sheet and lines of the book; where 256 lines are
 * not enough, the preview says JEMULING_FULL, and its caller may turn to them. A
 * preview's book is shortened by the one call that shortens.
 *
 * Beside what it is lent, a call takes stack and no other memory. Beyond its
 * caller's, in bytes as measured on x86-64, solving takes at most 1,664, the
 * check of a book 2,560, the check of a sheet 896, converting 448, carrying back
 * 768, shortening a book 2,816, and handing back 64, for a preview too. Solving
 * is lent question, book and sheet alone, and holds no array over 1,024 bytes.
 *
 * Link with libjemuling.a; it needs memset of the C library and nothing else.
 */
#ifndef JEMULING_H
#define JEMULING_H

#include <stddef.h>
#include <stdint.h>

#ifdef __cplusplus
extern "C" {
#endif

#define JEMULING_VERSION "1.0.0"

/* In bytes: a question at most, a line of a book, a full-size book, a preview's, a full-size sheet. */
#define JEMULING_QUESTION_BYTES 32768
#define JEMULING_LINE_BYTES 64
#define JEMULING_BOOK_BYTES 65536
#define JEMULING_PREVIEW_BYTES 16384
#define JEMULING_SHEET_BYTES 64
/* A mark on a sheet: no, yes, or open, since it stands in no clause. */
#define JEMULING_NO 0
#define JEMULING_YES 1
#define JEMULING_OPEN 2
/* An edition: the question as it is written, or with no figure below 0 besides. */
#define JEMULING_FIRST_EDITION 1
#define JEMULING_SECOND_EDITION 2

/*
 * What a call says, by its number. Below 64 it is a refusal, and `value` is
 * the place that the comment names; from 64 on the call has answered.
 */
enum {
    /* A call that names an edition, before all else: no byte is altered, there are no pairs. */
    JEMULING_EDITION = 19,    /* an edition other than 1 and 2; 0 */
    /*
     * The question is at fault: 3 first; then 4 to 11 and 18, the first that
     * is met as the fields are read one by one, 18 right after 10; then 12,
     * then 13.
     */
    JEMULING_LONG = 3,        /* the question has over 32,768 bytes; 32,768 */
    JEMULING_SHORT = 4,       /* the question ends before a field is complete; its length */
    JEMULING_MARKS = 5,       /* more than 16 marks; 0 */
    JEMULING_FIGURES = 6,     /* more than 8 figures; 1 */
    JEMULING_CLAUSES = 7,     /* more than 256 clauses; 2 */
    JEMULING_LITERAL = 8,     /* more than 32 literals, or a mark that the question does not have; its byte */
    JEMULING_CONDITIONS = 9,  /* more than 8 conditions; its byte */
    JEMULING_RELATION = 10,   /* a relation other than 1 (at most), 2 (below), 3 (equal) and 4 (at least); its byte */
    JEMULING_DOUBLE = 18,     /* a second relation 3 (equal) in one clause; its byte */
    JEMULING_AMOUNT = 11,     /* an amount beyond 1,000,000,000 in size; its first byte */
    JEMULING_TAIL = 12,       /* bytes follow the last clause; the first of them */
    JEMULING_LINKS = 13,      /* the tidied clauses take more than 16 links; first byte of the clause passing it */
    /*
     * Solving: the course met a limit. The book's 65,536 bytes, a preview's
     * 16,384, are 0, the sheet is as it was.
     */
    JEMULING_WIDE = 14,       /* an amount beyond 1,000,000,000 in size arose; lines held */
    JEMULING_FULL = 15,       /* a line too many for the book; lines held */
    /* A buffer is refused. */
    JEMULING_BOOK = 1,        /* a book to write has under 65,536 bytes, for solving as a preview under 16,384; 0 */
    JEMULING_SHEET = 2,       /* a sheet has under 64 bytes; 0 */
    JEMULING_CLAIM = 16,      /* a book to check, or to shorten, has not 64 to 65,536 bytes by 64s, a preview's to check
                                 not 64 to 16,384; its length */
    JEMULING_SLIP = 17,       /* a sheet to check, or to carry back, has another count of marks or figures than the
                                 question (carrying back: than the new one), a mark in no literal of the question that
                                 is not 2, a mark in one that is not 0 or 1, a denominator outside 1 to 1,000,000,000,
                                 or a numerator beyond 1,000,000,000 in size; first byte of the first such field */
    /* Converting and carrying back, after the question's faults: no byte is altered. */
    JEMULING_SPLIT = 20,      /* the new question would have more than 8 figures; 0 */
    JEMULING_SPACE = 21,      /* the new question has over 32,768 bytes, or more than the buffer for it; 0 */
    JEMULING_BACK = 22,       /* a numerator carried back is beyond 1,000,000,000 in size; the first such old figure */
    /* A verdict; `value` is the count of the book's lines. */
    JEMULING_AGREES = 64,     /* the marks and figures on the sheet satisfy the question, with either value for an
                                 open mark */
    JEMULING_CANNOT = 65,     /* no marks and figures do; the book's lines show it */
    JEMULING_UNWRITTEN = 66,  /* some do, but a bound or value that was worked out for them, their common
                                 denominator, or a numerator over it is too large for a sheet */
    /* What a check found; shortening says 68, too. */
    JEMULING_ACCEPTED = 67,   /* the book is a refutation, or the sheet satisfies every clause; 0 */
    JEMULING_FAILS = 68,      /* the first line that does not follow (the count of lines if only an empty last line
                                 is missing), or the first clause that does not hold, n + i if figure i is below 0 in
                                 edition 2 */
    /* What is handed back. */
    JEMULING_OF_BOOK = 69,    /* the first `value` bytes of the book */
    JEMULING_OF_SHEET = 70,   /* the first `value` bytes of the sheet */
    /* An old question is carried over, or a sheet of the new one back. */
    JEMULING_CONVERTED = 71,  /* the new question is written; `value` is its length */
    JEMULING_CARRIED = 72,    /* the sheet is written; 0 */
    /* A book is shortened. */
    JEMULING_SHORTENED = 73   /* the short book is written, by no other answer; `value` is the count of its lines */
};

/* A number from above, and its value. */
typedef struct {
    uint64_t number;
    size_t value;
} jemuling_told;

/* The same for solving, with the pairs of lines that it tried; 0 pairs where it refuses a question, a buffer or an edition. */
typedef struct {
    uint64_t number;
    size_t value;
    uint64_t pairs;
} jemuling_solved;

/*
 * Solves a question. Says JEMULING_BOOK, else JEMULING_SHEET, else a fault of
 * the question, 3 to 13 or 18, and then alters no byte; or a verdict; or 14 or
 * 15.
 *
 * After a verdict the book's first `value` lines of 64 bytes are those of the
 * course and the rest of its 65,536 bytes is 0; the sheet's 64 bytes are the
 * marks and figures after JEMULING_AGREES and 0 otherwise. Bytes beyond 65,536
 * and 64 keep their content always.
 *
 * The sheet: the count b of marks, b bytes of JEMULING_NO, JEMULING_YES or
 * JEMULING_OPEN, the count r of figures, four bytes denominator, r numerators
 * of four bytes (signed, little-endian), zeros. Figure i is numerator i by the
 * denominator. JEMULING_OPEN stands exactly at the marks that are in no literal
 * of the question as it is written: nothing decided them, the question is
 * satisfied with either value, and a caller must not take them for a no. A mark
 * whose clauses are all left out, by tidying or as covered, is not open; its
 * byte is JEMULING_NO.
 *
 * A line of the book: byte 0 is how it came (0 from a clause, 1 by eliminating
 * a figure, 2 a mark) and byte 1 that figure's or mark's number; two bytes
 * each, its parents: the line with it positive, the line with it negative (from
 * a clause: the clause's number, and its piece). What it states: byte 6 is its
 * condition's relation, 1 or 2, 0 without one; byte 7 is 0; four bytes each,
 * its marks and its negated marks, mark i as 2 to the power i, those from b on
 * being links between the pieces of a clause; eight coefficients and a bound of
 * four bytes; zeros.
 */
jemuling_solved jemuling_solve(const uint8_t *question, size_t question_length,
                               uint8_t *book, size_t book_length,
                               uint8_t *sheet, size_t sheet_length);

/*
 * The same with a book of 256 lines, 16,384 bytes in place of 65,536: a
 * preview. It says JEMULING_FULL where the course needs more lines than that,
 * also while it loads the clauses, with no pairs then.
 */
jemuling_solved jemuling_preview_solve(const uint8_t *question, size_t question_length,
                                       uint8_t *book, size_t book_length,
                                       uint8_t *sheet, size_t sheet_length);

/*
 * Both in the edition named: JEMULING_EDITION first, before JEMULING_BOOK, and
 * then no byte is altered; else as above, with the edition's clauses. With
 * JEMULING_FIRST_EDITION they say and write what the calls above do.
 */
jemuling_solved jemuling_solve_in(uint64_t edition, const uint8_t *question, size_t question_length,
                                  uint8_t *book, size_t book_length,
                                  uint8_t *sheet, size_t sheet_length);
jemuling_solved jemuling_preview_solve_in(uint64_t edition, const uint8_t *question, size_t question_length,
                                          uint8_t *book, size_t book_length,
                                          uint8_t *sheet, size_t sheet_length);

/*
 * Checks that a book refutes a question: every line is a piece of a clause or
 * the result of two earlier lines, and the last is empty. Whoever wrote the
 * book, after JEMULING_ACCEPTED no marks and figures satisfy the question.
 * Writes nothing. Says a fault of the question, 3 to 13 or 18, else
 * JEMULING_CLAIM, else JEMULING_ACCEPTED or JEMULING_FAILS.
 */
jemuling_told jemuling_check_book(const uint8_t *question, size_t question_length,
                                  const uint8_t *book, size_t book_length);

/* The same of a book of at most 256 lines; JEMULING_CLAIM if it is longer. */
jemuling_told jemuling_preview_check_book(const uint8_t *question, size_t question_length,
                                          const uint8_t *book, size_t book_length);

/*
 * Both in the edition named: JEMULING_EDITION first, before the faults of the
 * question; else as above, where a line may be a piece of one of the edition's
 * clauses, n to n + r - 1, too. After JEMULING_ACCEPTED no marks and figures
 * satisfy the question in that edition: in the second, none without a figure
 * below 0.
 */
jemuling_told jemuling_check_book_in(uint64_t edition, const uint8_t *question, size_t question_length,
                                     const uint8_t *book, size_t book_length);
jemuling_told jemuling_preview_check_book_in(uint64_t edition, const uint8_t *question, size_t question_length,
                                             const uint8_t *book, size_t book_length);

/*
 * Checks that the marks and figures on a sheet satisfy a question, each clause
 * as it is written. JEMULING_OPEN must stand at the marks that are in no
 * literal of the question, and JEMULING_NO or JEMULING_YES at the others, so a
 * sheet from before open marks, with 0 or 1 there, is a slip. Whoever wrote the
 * sheet, after JEMULING_ACCEPTED the question is satisfied with either value
 * for each open mark. Bytes after the last numerator are not read. Writes
 * nothing. Says a fault of the question, 3 to 13 or 18, else JEMULING_SHEET,
 * else JEMULING_SLIP, else JEMULING_ACCEPTED or JEMULING_FAILS.
 */
jemuling_told jemuling_check_sheet(const uint8_t *question, size_t question_length,
                                   const uint8_t *sheet, size_t sheet_length);

/*
 * The same in the edition named: JEMULING_EDITION first, before the faults of
 * the question; else as above, with the edition's clauses behind the written
 * ones: in the second, JEMULING_FAILS with n + i where every written clause
 * holds and figure i is the first below 0.
 */
jemuling_told jemuling_check_sheet_in(uint64_t edition, const uint8_t *question, size_t question_length,
                                      const uint8_t *sheet, size_t sheet_length);

/*
 * Which part of book or sheet a verdict gives its caller: the sheet's 64 bytes
 * after JEMULING_AGREES, the used lines of the book after JEMULING_CANNOT;
 * otherwise, or with a book under 65,536 or a sheet under 64 bytes, or over
 * 1,024 lines, the first 0 bytes of the book. Reads neither buffer.
 */
jemuling_told jemuling_hand_back(uint64_t number, size_t lines,
                                 const uint8_t *book, size_t book_length,
                                 const uint8_t *sheet, size_t sheet_length);

/* The same with 16,384 bytes in place of 65,536, and 256 lines in place of 1,024. */
jemuling_told jemuling_preview_hand_back(uint64_t number, size_t lines,
                                         const uint8_t *book, size_t book_length,
                                         const uint8_t *sheet, size_t sheet_length);

/*
 * Carries a first-edition question over to the second edition: writes the new
 * question, as the head of this file says, to `target`. Says a fault of the
 * question, 3 to 13 or 18, with its place; else JEMULING_SPLIT; else
 * JEMULING_SPACE; else JEMULING_CONVERTED with the new question's length. A
 * target of 32,768 bytes is enough for every result.
 *
 * After JEMULING_CONVERTED the first `value` bytes of the target are the new
 * question, and the bytes past them keep their content. After a refusal no byte
 * of the target is altered. The new question is read without fault; it has a
 * solution in edition 2 exactly if the old one has one in edition 1, so it is
 * for jemuling_solve_in and the checks with JEMULING_SECOND_EDITION. Converting
 * a question of which every figure is kept gives its own bytes.
 */
jemuling_told jemuling_convert(const uint8_t *question, size_t question_length,
                               uint8_t *target, size_t target_length);

/*
 * Carries a sheet of the new question back to the old one. Takes the old
 * question, from which the new one follows and so need not be kept; the sheet
 * of the new one; and a target for that of the old. Says a fault of the old
 * question, 3 to 13 or 18, with its place; else JEMULING_SPLIT; else
 * JEMULING_SHEET if sheet or target has under 64 bytes; else JEMULING_SLIP
 * with the place of the first field at fault on the new sheet, which must have
 * the new question's count of figures, and the marks and open marks that both
 * questions have; its bytes after the last numerator are not read; else
 * JEMULING_BACK with the number of the first old figure whose numerator is too
 * large; else JEMULING_CARRIED. Never JEMULING_SPACE: it writes no question.
 *
 * After JEMULING_CARRIED the first 64 bytes of the target are a sheet of the
 * old question: marks and denominator as on the new sheet, then of each old
 * figure its numerator, that of a figure that was kept or the first half's less
 * the second's, then zeros. Bytes beyond 64 keep their content. After a refusal
 * no byte of the target is altered.
 *
 * It does not ask whether the sheet satisfies the new question, the check does:
 * a sheet that jemuling_check_sheet_in accepts in the second edition is always
 * carried back, to one that is accepted of the old question in the first. One
 * with a half below 0, which that check does not accept, may be JEMULING_BACK.
 */
jemuling_told jemuling_carry_back(const uint8_t *question, size_t question_length,
                                  const uint8_t *sheet, size_t sheet_length,
                                  uint8_t *target, size_t target_length);

/*
 * Shortens a book that refutes a question in the edition named: writes the
 * short book, as the head of this file says, to `target`, and only reads the
 * book, which must not overlap it. The book is its used lines alone, 64 times
 * the count that solving said: zeros behind them are lines, too, and do not
 * follow, unless clause 0 is empty once it is tidied. Says JEMULING_EDITION;
 * else JEMULING_BOOK if the target has under 65,536 bytes; else what
 * jemuling_check_book_in says of a book that it does not accept: a fault of the
 * question, 3 to 13 or 18, with its place, JEMULING_CLAIM with the book's
 * length, or JEMULING_FAILS with the first line that does not follow, the count
 * of lines if only an empty last line is missing; else JEMULING_SHORTENED with
 * the count of the short book's lines. A book has at most 1,024 lines here; a
 * preview's, of at most 256, is such a book, so there is no call of its own for
 * it, and its target has 65,536 bytes, too.
 *
 * After JEMULING_SHORTENED the first `value` lines of 64 bytes are the short
 * book, and the rest of the target's 65,536 bytes is 0; bytes beyond 65,536
 * keep their content. After any other number, JEMULING_FAILS too, no byte is
 * altered.
 *
 * These lines are accepted by jemuling_check_book_in, for the same question and
 * edition. Besides the book's last line they are exactly those from which it
 * descends, so no more than the book has. Shortened again, they stay as they
 * are. No marks and figures satisfy all of the clauses that they load, whatever
 * becomes of the others. In a question written of those clauses alone, they and
 * their links may have other numbers than the short book names; solving it
 * takes a course of its own, which may end with JEMULING_WIDE or JEMULING_FULL,
 * and never with JEMULING_AGREES or JEMULING_UNWRITTEN.
 */
jemuling_told jemuling_shorten_book_in(uint64_t edition, const uint8_t *question, size_t question_length,
                                       const uint8_t *book, size_t book_length,
                                       uint8_t *target, size_t target_length);

#ifdef __cplusplus
}
#endif

#endif
