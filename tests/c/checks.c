/*
 * Calls the library from C on document 01's examples, on = and at least, on open marks, and about a preview's sizes: right books and
 * sheets, wrong ones, and solving; what has a limit of lines with either. All of it by the calls that name no edition, and by those that
 * name one, in edition 1; then what edition 2 answers otherwise, its largest question, and other editions; then a question carried over to
 * edition 2, and its sheet back; and at last short books.
 */
#include <stdio.h>
#include <string.h>

#include "examples.h"
#include "jemuling.h"
#include "limits.h"

static int passed, failed;

/* The edition that the calls name; 0 for the calls that name none. */
static uint64_t edition;

static void expect(const char *name, jemuling_told told, uint64_t number, size_t value)
{
    if (told.number == number && told.value == value) {
        passed++;
        return;
    }
    failed++;
    printf("FAILED %s%s, edition %llu: expected %llu %zu, got %llu %zu\n", name, with[limit].name, (unsigned long long)edition,
           (unsigned long long)number, value, (unsigned long long)told.number, told.value);
}

static jemuling_solved solve(const uint8_t *question, size_t length, uint8_t *book, size_t book_length, uint8_t *sheet,
                             size_t sheet_length)
{
    return edition ? with[limit].solve_in(edition, question, length, book, book_length, sheet, sheet_length)
                   : with[limit].solve(question, length, book, book_length, sheet, sheet_length);
}

static jemuling_told check_book(const uint8_t *question, size_t length, const uint8_t *book, size_t book_length)
{
    return edition ? with[limit].check_book_in(edition, question, length, book, book_length)
                   : with[limit].check_book(question, length, book, book_length);
}

static jemuling_told check_sheet(const uint8_t *question, size_t length, const uint8_t *sheet, size_t sheet_length)
{
    return edition ? jemuling_check_sheet_in(edition, question, length, sheet, sheet_length)
                   : jemuling_check_sheet(question, length, sheet, sheet_length);
}

/* Solving's number and value, and its pairs beside a count of something. */
#define ANSWER(said) ((jemuling_told){ (said).number, (said).value })
#define PAIRS(said, count) ((jemuling_told){ (said).pairs, (count) })

#define BOOK(question, book) check_book(question, sizeof question, book, sizeof book)
#define SHEET(question, sheet) check_sheet(question, sizeof question, sheet, sizeof sheet)

static void right_ones(void)
{
    expect("sheet of example 1", SHEET(example_1_question, example_1_sheet), JEMULING_ACCEPTED, 0);
    expect("book of example 2", BOOK(example_2_question, example_2_book), JEMULING_ACCEPTED, 0);
    expect("sheet of example 3", SHEET(example_3_question, example_3_sheet), JEMULING_ACCEPTED, 0);
    expect("book of example 4", BOOK(example_4_question, example_4_book), JEMULING_ACCEPTED, 0);
    expect("sheet of example 5", SHEET(example_5_question, example_5_sheet), JEMULING_ACCEPTED, 0);
    expect("sheet of example 6", SHEET(example_6_question, example_6_sheet), JEMULING_ACCEPTED, 0);
    expect("book of example 7", BOOK(example_7_question, example_7_book), JEMULING_ACCEPTED, 0);
    expect("book of example 8", BOOK(example_8_question, example_8_book), JEMULING_ACCEPTED, 0);
    expect("sheet of example 9", SHEET(example_9_question, example_9_sheet), JEMULING_ACCEPTED, 0);
    expect("sheet of an =", SHEET(equal_question, equal_sheet), JEMULING_ACCEPTED, 0);
    expect("book of both readings of an =", BOOK(at_least_question, at_least_book), JEMULING_ACCEPTED, 0);
    expect("sheet with an open mark", SHEET(open_question, open_sheet), JEMULING_ACCEPTED, 0);
    expect("sheet of open marks", SHEET(sixteen_question, sixteen_sheet), JEMULING_ACCEPTED, 0);
}

static void wrong_ones(void)
{
    unsigned char book[sizeof example_7_book];
    memcpy(book, example_7_book, sizeof book);
    book[3 * JEMULING_LINE_BYTES + 60] = 1;
    expect("a byte after line 3's numbers", BOOK(example_7_question, book), JEMULING_FAILS, 3);
    memcpy(book, example_7_book, sizeof book);
    book[4 * JEMULING_LINE_BYTES + 2] = 2;
    book[4 * JEMULING_LINE_BYTES + 4] = 3;
    expect("line 4's parents exchanged", BOOK(example_7_question, book), JEMULING_FAILS, 4);
    expect("the empty end missing",
           check_book(example_7_question, sizeof example_7_question, example_7_book, 4 * JEMULING_LINE_BYTES),
           JEMULING_FAILS, 4);
    expect("the book of another question", BOOK(example_8_question, example_4_book), JEMULING_FAILS, 0);
    expect("a book of 63 bytes", check_book(example_8_question, sizeof example_8_question, example_8_book, 63),
           JEMULING_CLAIM, 63);
    expect("no book", check_book(example_8_question, sizeof example_8_question, NULL, 0), JEMULING_CLAIM, 0);
    expect("no question", check_book(NULL, 0, example_8_book, sizeof example_8_book), JEMULING_SHORT, 0);
    expect("the sheet of another question", SHEET(example_5_question, example_3_sheet), JEMULING_FAILS, 0);
    expect("a sheet with other counts", SHEET(example_9_question, example_3_sheet), JEMULING_SLIP, 0);
    expect("a sheet of 63 bytes", check_sheet(example_5_question, sizeof example_5_question, example_5_sheet, 63),
           JEMULING_SHEET, 0);
}

/* One half of an = is not enough for a sheet; its second reading is piece 1; and a second = comes before 16, 2 and 17. */
static void wrong_equal_ones(void)
{
    unsigned char sheet[sizeof equal_sheet], book[sizeof at_least_book];
    for (int x = 4; x <= 6; x++) {
        memcpy(sheet, equal_sheet, sizeof sheet);
        sheet[6] = (unsigned char)x;
        expect("a sheet near an =", SHEET(equal_question, sheet), x == 5 ? JEMULING_ACCEPTED : JEMULING_FAILS, 0);
    }
    expect("x = 5 is not at least 6", SHEET(at_least_question, equal_sheet), JEMULING_FAILS, 1);
    memcpy(book, at_least_book, sizeof book);
    book[JEMULING_LINE_BYTES + 4] = 0;
    expect("the second reading as piece 0", BOOK(at_least_question, book), JEMULING_FAILS, 1);
    expect("two = before 16", check_book(double_question, sizeof double_question, NULL, 0), JEMULING_DOUBLE, 15);
    expect("two = before 2", check_sheet(double_question, sizeof double_question, NULL, 0), JEMULING_DOUBLE, 15);
    expect("two = before 17", SHEET(double_question, example_9_sheet), JEMULING_DOUBLE, 15);
}

/* A mark in no clause is open, and nothing else; others, in a clause that is always true too, are yes or no. */
static void wrong_marks(void)
{
    static const int values[] = { JEMULING_NO, JEMULING_YES, JEMULING_OPEN, 3, 255 };
    unsigned char sheet[sizeof open_sheet];
    for (size_t mark = 0; mark < 3; mark++) {
        for (size_t i = 0; i < sizeof values / sizeof *values; i++) {
            int right = mark == 2 ? values[i] == JEMULING_OPEN : values[i] == JEMULING_NO || values[i] == JEMULING_YES;
            memcpy(sheet, open_sheet, sizeof sheet);
            sheet[1 + mark] = (unsigned char)values[i];
            expect("a mark", SHEET(open_question, sheet), right ? JEMULING_ACCEPTED : JEMULING_SLIP, right ? 0 : 1 + mark);
            sheet[4] = 2;
            expect("a mark before r", SHEET(open_question, sheet), JEMULING_SLIP, right ? 4 : 1 + mark);
            sheet[0] = 2;
            expect("b before a mark", SHEET(open_question, sheet), JEMULING_SLIP, 0);
        }
    }
    memcpy(sheet, open_sheet, sizeof sheet);
    sheet[9] = 6;
    expect("an open mark does not help clause 0", SHEET(open_question, sheet), JEMULING_FAILS, 0);
    for (size_t mark = 0; mark < 16; mark++) {
        for (int value = JEMULING_NO; value <= JEMULING_YES; value++) {
            memcpy(sheet, sixteen_sheet, sizeof sheet);
            sheet[1 + mark] = (unsigned char)value;
            expect("one of 16 open marks", SHEET(sixteen_question, sheet), JEMULING_SLIP, 1 + mark);
        }
    }
}

/* The call, lent a book of so many bytes. */
static jemuling_told hands_back(uint64_t number, size_t lines, size_t bytes)
{
    static unsigned char book[JEMULING_BOOK_BYTES], sheet[JEMULING_SHEET_BYTES];
    return with[limit].hand_back(number, lines, book, bytes, sheet, sizeof sheet);
}

static void handing_back(void)
{
    size_t lines = with[limit].lines, bytes = with[limit].bytes;
    expect("after agrees", hands_back(JEMULING_AGREES, 4, bytes), JEMULING_OF_SHEET, JEMULING_SHEET_BYTES);
    expect("after cannot", hands_back(JEMULING_CANNOT, 5, bytes), JEMULING_OF_BOOK, 5 * JEMULING_LINE_BYTES);
    expect("after unwritten", hands_back(JEMULING_UNWRITTEN, 2, bytes), JEMULING_OF_BOOK, 0);
    expect("all lines", hands_back(JEMULING_CANNOT, lines, bytes), JEMULING_OF_BOOK, bytes);
    expect("too many lines", hands_back(JEMULING_CANNOT, lines + 1, JEMULING_BOOK_BYTES), JEMULING_OF_BOOK, 0);
    expect("too many lines after agrees", hands_back(JEMULING_AGREES, lines + 1, bytes), JEMULING_OF_BOOK, 0);
    expect("a short book", hands_back(JEMULING_CANNOT, 1, bytes - 1), JEMULING_OF_BOOK, 0);
}

/* How many of the bytes are not this one. */
static size_t others(const unsigned char *bytes, size_t length, unsigned char byte)
{
    size_t count = 0;
    for (size_t i = 0; i < length; i++)
        count += bytes[i] != byte;
    return count;
}

/* Solves, and compares the part that is handed back with the second solver's; the unused lines are 0, and bytes beyond are kept. */
static void solves(const char *name, const unsigned char *question, size_t length, uint64_t number, size_t lines,
                   const unsigned char *part, size_t part_length)
{
    static unsigned char book[JEMULING_BOOK_BYTES + 1], sheet[JEMULING_SHEET_BYTES + 1];
    memset(book, 0xab, sizeof book);
    memset(sheet, 0xcd, sizeof sheet);
    jemuling_solved said = solve(question, length, book, sizeof book, sheet, sizeof sheet);
    expect(name, ANSWER(said), number, lines);
    jemuling_told told = with[limit].hand_back(said.number, said.value, book, sizeof book, sheet, sizeof sheet);
    const unsigned char *from = told.number == JEMULING_OF_SHEET ? sheet : book;
    size_t used = JEMULING_LINE_BYTES * lines, bytes = with[limit].bytes;
    if (told.value == part_length && memcmp(from, part, part_length) == 0 && others(book + used, bytes - used, 0) == 0
        && others(book + bytes, sizeof book - bytes, 0xab) == 0 && sheet[JEMULING_SHEET_BYTES] == 0xcd) {
        passed++;
    } else {
        failed++;
        printf("FAILED %s%s: another part, an unused line or bytes beyond\n", name, with[limit].name);
    }
}

#define SOLVES(name, question, number, lines, part) solves(name, question, sizeof question, number, lines, part, sizeof part)

static void solving(void)
{
    SOLVES("example 1", example_1_question, JEMULING_AGREES, 0, example_1_sheet);
    SOLVES("example 2", example_2_question, JEMULING_CANNOT, 1, example_2_book);
    SOLVES("example 3", example_3_question, JEMULING_AGREES, 2, example_3_sheet);
    SOLVES("example 4", example_4_question, JEMULING_CANNOT, 3, example_4_book);
    SOLVES("example 5", example_5_question, JEMULING_AGREES, 2, example_5_sheet);
    SOLVES("example 6", example_6_question, JEMULING_AGREES, 1, example_6_sheet);
    SOLVES("example 7", example_7_question, JEMULING_CANNOT, 5, example_7_book);
    SOLVES("example 8", example_8_question, JEMULING_CANNOT, 3, example_8_book);
    SOLVES("example 9", example_9_question, JEMULING_AGREES, 3, example_9_sheet);
    SOLVES("an =", equal_question, JEMULING_AGREES, 2, equal_sheet);
    SOLVES("an = and at least", at_least_question, JEMULING_CANNOT, 4, at_least_book);
    SOLVES("an open mark", open_question, JEMULING_AGREES, 1, open_sheet);
    SOLVES("open marks", sixteen_question, JEMULING_AGREES, 0, sixteen_sheet);
    jemuling_solved said = solve(example_1_question, sizeof example_1_question, NULL, 0, NULL, 0);
    expect("no book", ANSWER(said), JEMULING_BOOK, 0);
}

/* A refusal of the question or of a buffer: no pairs, and no byte of the buffers altered. */
static void refuses(const char *name, const unsigned char *question, size_t length, size_t book_length, size_t sheet_length,
                    uint64_t number, size_t place)
{
    static unsigned char book[JEMULING_BOOK_BYTES], sheet[JEMULING_SHEET_BYTES];
    memset(book, 0xab, sizeof book);
    memset(sheet, 0xcd, sizeof sheet);
    jemuling_solved said = solve(question, length, book, book_length, sheet, sheet_length);
    expect(name, ANSWER(said), number, place);
    size_t altered = others(book, sizeof book, 0xab) + others(sheet, sizeof sheet, 0xcd);
    expect("pairs and bytes after a refusal", PAIRS(said, altered), 0, 0);
    expect("handing back after a refusal",
           with[limit].hand_back(said.number, said.value, book, book_length, sheet, sheet_length), JEMULING_OF_BOOK, 0);
}

static void refusing(void)
{
    size_t length = sizeof double_question, bytes = with[limit].bytes;
    refuses("two =", double_question, length, JEMULING_BOOK_BYTES, JEMULING_SHEET_BYTES, JEMULING_DOUBLE, 15);
    refuses("two =, full-size buffers", double_question, length, bytes, JEMULING_SHEET_BYTES, JEMULING_DOUBLE, 15);
    refuses("a short book and sheet", double_question, length, bytes - 1, JEMULING_SHEET_BYTES - 1, JEMULING_BOOK, 0);
    refuses("a short sheet", double_question, length, bytes, JEMULING_SHEET_BYTES - 1, JEMULING_SHEET, 0);
}

/* x + k y = 0 for k from 1 to the count: two lines each. */
static size_t equalities(unsigned char *question, int count)
{
    size_t length = 4;
    memcpy(question, (unsigned char[]){ 0, 2, (unsigned char)count, 0 }, length);
    for (int k = 1; k <= count; k++) {
        unsigned char clause[15] = { 0, 1, 3, 1, [7] = (unsigned char)k };
        memcpy(question + length, clause, sizeof clause);
        length += sizeof clause;
    }
    return length;
}

/* Solves with so many bytes of a book: after 14 or 15 those of the limit are 0, and the rest and the sheet are kept. */
static void stops(const char *name, const unsigned char *question, size_t length, size_t book_length, uint64_t number, size_t lines,
                  uint64_t pairs)
{
    static unsigned char book[JEMULING_BOOK_BYTES + 1], sheet[JEMULING_SHEET_BYTES];
    size_t bytes = with[limit].bytes;
    memset(book, 0xab, sizeof book);
    memset(sheet, 0xcd, sizeof sheet);
    jemuling_solved said = solve(question, length, book, book_length, sheet, sizeof sheet);
    expect(name, ANSWER(said), number, lines);
    size_t wrong = others(book, bytes, 0) + others(book + bytes, sizeof book - bytes, 0xab) + others(sheet, sizeof sheet, 0xcd);
    expect("pairs and bytes after 14 or 15", PAIRS(said, wrong), pairs, 0);
}

/* 1,000,000,000x + 3y at most 0, -999,999,999x + z at most 0: document 01's example 10, wide at once. */
static const unsigned char wide_question[] = {
    0, 3, 2, 0,
    0, 1, 1, 0x00, 0xca, 0x9a, 0x3b, 3, 0, 0, 0, 0, 0, 0, 0, 0, 0, 0, 0,
    0, 1, 1, 0x01, 0x36, 0x65, 0xc4, 0, 0, 0, 0, 1, 0, 0, 0, 0, 0, 0, 0,
};

/* 128 equalities fill a preview's book by the second pair, 129 while they load; with 1,024 lines both agree. */
static void stopping(void)
{
    static unsigned char question[4 + 129 * 15], book[JEMULING_BOOK_BYTES], sheet[JEMULING_SHEET_BYTES];
    for (size_t beyond = 0; beyond < 2; beyond++)
        stops("wide", wide_question, sizeof wide_question, with[limit].bytes + beyond, JEMULING_WIDE, 2, 1);
    for (int count = 128; count <= 129; count++) {
        size_t length = equalities(question, count);
        if (limit == PREVIEW) {
            stops("a preview's bytes", question, length, JEMULING_PREVIEW_BYTES, JEMULING_FULL, 256, count == 128 ? 2 : 0);
            stops("more bytes", question, length, JEMULING_BOOK_BYTES + 1, JEMULING_FULL, 256, count == 128 ? 2 : 0);
        } else {
            jemuling_solved said = solve(question, length, book, sizeof book, sheet, sizeof sheet);
            expect("equalities", ANSWER(said), JEMULING_AGREES, count == 128 ? 258 : 260);
            expect("pairs of equalities", PAIRS(said, 0), (uint64_t)(count * count + 1), 0);
        }
    }
}

/* Zeros are a right book of an empty clause at every length that a book may have. */
static void long_books(void)
{
    static const unsigned char zeros[JEMULING_BOOK_BYTES + JEMULING_LINE_BYTES];
    size_t lengths[] = { 64, 16320, 16384, 16385, 16448, 65536, 65600 };
    for (size_t i = 0; i < sizeof lengths / sizeof *lengths; i++) {
        size_t length = lengths[i];
        int right = length % 64 == 0 && length <= with[limit].bytes;
        expect("a book of zeros", check_book(example_2_question, sizeof example_2_question, zeros, length),
               right ? JEMULING_ACCEPTED : JEMULING_CLAIM, right ? 0 : length);
    }
}

/* x at most -1 agrees with a negative share alone. */
static void negative_share(void)
{
    static const int values[] = { -2, -1, 0, 1 };
    unsigned char book[sizeof negative_book], sheet[sizeof negative_sheet];
    edition = JEMULING_FIRST_EDITION;
    SOLVES("x at most -1", negative_question, JEMULING_AGREES, 1, negative_sheet);
    expect("its sheet", SHEET(negative_question, negative_sheet), JEMULING_ACCEPTED, 0);
    expect("edition 2's book", BOOK(negative_question, negative_book), JEMULING_FAILS, 1);
    edition = JEMULING_SECOND_EDITION;
    SOLVES("x at most -1", negative_question, JEMULING_CANNOT, 3, negative_book);
    expect("edition 1's sheet", SHEET(negative_question, negative_sheet), JEMULING_FAILS, 1);
    expect("its book", BOOK(negative_question, negative_book), JEMULING_ACCEPTED, 0);
    memcpy(book, negative_book, sizeof book);
    book[JEMULING_LINE_BYTES + 4] = 1;
    expect("piece 1 of the edition's clause", BOOK(negative_question, book), JEMULING_FAILS, 1);
    memcpy(book, negative_book, sizeof book);
    book[JEMULING_LINE_BYTES + 2] = 2;
    expect("the clause behind the edition's", BOOK(negative_question, book), JEMULING_FAILS, 1);
    for (size_t i = 0; i < sizeof values / sizeof *values; i++) {
        memcpy(sheet, negative_sheet, sizeof sheet);
        memset(sheet + 7, values[i] < 0 ? 0xff : 0, 3);
        sheet[6] = (unsigned char)values[i];
        expect("a share", SHEET(negative_question, sheet), JEMULING_FAILS, values[i] <= -1);
    }
    SOLVES("example 7", example_7_question, JEMULING_CANNOT, 5, example_7_book);
    SOLVES("no figure", example_8_question, JEMULING_CANNOT, 3, example_8_book);
    SOLVES("open marks", sixteen_question, JEMULING_AGREES, 0, sixteen_sheet);
    refusing();
}

/* 256 clauses and 8 figures: x0 + k x1 at most 0 for k from 1 to 255, x7 at most -1. */
static size_t largest(unsigned char *question)
{
    size_t length = 4;
    memcpy(question, (unsigned char[]){ 0, 8, 0, 1 }, length);
    for (int k = 1; k <= 256; k++) {
        unsigned char clause[39] = { 0, 1, 1 };
        if (k <= 255) {
            clause[3] = 1;
            clause[7] = (unsigned char)k;
        } else {
            clause[31] = 1;
            memset(clause + 35, 0xff, 4);
        }
        memcpy(question + length, clause, sizeof clause);
        length += sizeof clause;
    }
    return length;
}

/* The last clause of the edition is 263: solving loads it, a book may name it and not 264, and a sheet fails there. */
static void largest_question(void)
{
    static unsigned char question[4 + 256 * 39], book[JEMULING_BOOK_BYTES], sheet[JEMULING_SHEET_BYTES];
    size_t length = largest(question);
    edition = JEMULING_SECOND_EDITION;
    if (limit == PREVIEW) {
        stops("full while it loads", question, length, JEMULING_PREVIEW_BYTES, JEMULING_FULL, 256, 0);
    } else {
        jemuling_solved said = solve(question, length, book, sizeof book, sheet, sizeof sheet);
        expect("the largest question", ANSWER(said), JEMULING_CANNOT, 266);
        expect("its pairs, and line 263's clause", PAIRS(said, (size_t)(book[263 * 64 + 2] + 256 * book[263 * 64 + 3])), 257, 263);
        expect("its book", check_book(question, length, book, 266 * JEMULING_LINE_BYTES), JEMULING_ACCEPTED, 0);
    }
    for (unsigned clause = 262; clause <= 264; clause++) {
        /* x7 at most -1; -x7 at most 0; and the end */
        unsigned char lines[3 * JEMULING_LINE_BYTES] = { [2] = 255, [6] = 1, [44] = 1, [64 + 6] = 1, [128] = 1, 7, [132] = 1 };
        memset(lines + 48, 0xff, 4);
        memset(lines + 64 + 44, 0xff, 4);
        lines[64 + 2] = (unsigned char)(clause % 256);
        lines[64 + 3] = (unsigned char)(clause / 256);
        expect("a book that names a clause", check_book(question, length, lines, sizeof lines),
               clause == 263 ? JEMULING_ACCEPTED : JEMULING_FAILS, clause == 263 ? 0 : 1);
    }
    memset(sheet, 0, sizeof sheet);
    memcpy(sheet, (unsigned char[]){ 0, 8, 1 }, 3);
    memset(sheet + 34, 0xff, 4);
    expect("x7 is -1", check_sheet(question, length, sheet, sizeof sheet), JEMULING_FAILS, 263);
    edition = JEMULING_FIRST_EDITION;
    expect("x7 is -1", check_sheet(question, length, sheet, sizeof sheet), JEMULING_ACCEPTED, 0);
}

/* Any other edition comes first, whatever is lent; and no byte is altered. */
static void other_editions(void)
{
    static const uint64_t unknown[] = {
        3, 255, 256, 257, 258, (UINT64_C(1) << 32) + 1, (UINT64_C(1) << 32) + 2, UINT64_C(1) << 63, UINT64_MAX,
    };
    static unsigned char longest[JEMULING_QUESTION_BYTES + 1];
    size_t bytes = with[limit].bytes;
    expect("its number", (jemuling_told){ JEMULING_EDITION, 0 }, 19, 0);
    expect("the editions", (jemuling_told){ JEMULING_FIRST_EDITION, JEMULING_SECOND_EDITION }, 1, 2);
    expect("edition 0", ANSWER(with[limit].solve_in(0, NULL, 0, NULL, 0, NULL, 0)), JEMULING_EDITION, 0);
    expect("edition 0, a book", with[limit].check_book_in(0, NULL, 0, NULL, 0), JEMULING_EDITION, 0);
    expect("edition 0, a sheet", jemuling_check_sheet_in(0, NULL, 0, NULL, 0), JEMULING_EDITION, 0);
    for (size_t i = 0; i < sizeof unknown / sizeof *unknown; i++) {
        edition = unknown[i];
        expect("nothing lent", ANSWER(solve(NULL, 0, NULL, 0, NULL, 0)), JEMULING_EDITION, 0);
        expect("no book", check_book(NULL, 0, NULL, 0), JEMULING_EDITION, 0);
        expect("no sheet", check_sheet(NULL, 0, NULL, 0), JEMULING_EDITION, 0);
        expect("a right book", BOOK(example_7_question, example_7_book), JEMULING_EDITION, 0);
        expect("a right sheet", SHEET(example_9_question, example_9_sheet), JEMULING_EDITION, 0);
        expect("a long question, a book", BOOK(longest, example_7_book), JEMULING_EDITION, 0);
        expect("a long question, a sheet", SHEET(longest, example_9_sheet), JEMULING_EDITION, 0);
        refuses("a right question", example_7_question, sizeof example_7_question, bytes, JEMULING_SHEET_BYTES, JEMULING_EDITION, 0);
        refuses("short buffers", example_7_question, sizeof example_7_question, bytes - 1, 63, JEMULING_EDITION, 0);
        refuses("a long question", longest, sizeof longest, bytes, JEMULING_SHEET_BYTES, JEMULING_EDITION, 0);
        refuses("two =", double_question, sizeof double_question, bytes, JEMULING_SHEET_BYTES, JEMULING_EDITION, 0);
    }
    for (edition = JEMULING_FIRST_EDITION; edition <= JEMULING_SECOND_EDITION; edition++) {
        expect("nothing lent", ANSWER(solve(NULL, 0, NULL, 0, NULL, 0)), JEMULING_BOOK, 0);
        expect("no book and question", check_book(NULL, 0, NULL, 0), JEMULING_SHORT, 0);
        expect("no sheet and question", check_sheet(NULL, 0, NULL, 0), JEMULING_SHORT, 0);
    }
}

/* Converts with a target of so many bytes, of which no other is altered; the question written is compared with this one, if one is. */
static void converts(const char *name, const unsigned char *question, size_t length, size_t target_length, uint64_t number, size_t value,
                     const unsigned char *result)
{
    static unsigned char target[2 * JEMULING_QUESTION_BYTES + 1];
    memset(target, 0xab, sizeof target);
    expect(name, jemuling_convert(question, length, target, target_length), number, value);
    size_t written = number == JEMULING_CONVERTED ? value : 0;
    size_t wrong = others(target + written, sizeof target - written, 0xab);
    if (result)
        wrong += memcmp(target, result, written) != 0;
    expect("the question written, and bytes behind it", (jemuling_told){ 0, wrong }, 0, 0);
}

/* The same of carrying a sheet back. */
static void carries(const char *name, const unsigned char *question, size_t length, const unsigned char *sheet, size_t sheet_length,
                    size_t target_length, uint64_t number, size_t value, const unsigned char *result)
{
    static unsigned char target[2 * JEMULING_SHEET_BYTES];
    memset(target, 0xab, sizeof target);
    expect(name, jemuling_carry_back(question, length, sheet, sheet_length, target, target_length), number, value);
    size_t written = number == JEMULING_CARRIED ? JEMULING_SHEET_BYTES : 0;
    size_t wrong = others(target + written, sizeof target - written, 0xab);
    if (result)
        wrong += memcmp(target, result, written) != 0;
    expect("the sheet written, and bytes behind it", (jemuling_told){ 0, wrong }, 0, 0);
}

/* Four figures, all of them split: 256 clauses with a mark in both signs, three conditions, and literals up to a length once converted. */
static size_t long_question(unsigned char *question, size_t converted)
{
    size_t length = 4, rest = converted - 4 - 256 * (2 + 2 + 3 * 37);
    memcpy(question, (unsigned char[]){ 16, 4, 0, 1 }, length);
    for (int i = 0; i < 256; i++) {
        size_t more = rest < 30 ? rest : 30;
        question[length++] = (unsigned char)(2 + more);
        question[length++] = 1;
        question[length++] = 129;
        memset(question + length, 2, more);
        length += more;
        rest -= more;
        question[length++] = 3;
        for (int j = 0; j < 3; j++) {
            unsigned char condition[21] = { 1, (unsigned char)i, 0, 0, 0, 1, [9] = (unsigned char)j, [13] = 7, [17] = 9 };
            memcpy(question + length, condition, sizeof condition);
            length += sizeof condition;
        }
    }
    return length;
}

static void converting(void)
{
    static unsigned char question[JEMULING_QUESTION_BYTES + 1];
    static const unsigned char five[] = { 0, 5, 0, 0 }, four[] = { 0, 4, 0, 0 }, eight[] = { 0, 8, 0, 0 };
    size_t length = sizeof new_question;
    expect("its numbers", (jemuling_told){ JEMULING_CONVERTED, JEMULING_CARRIED }, 71, 72);
    expect("20 and 21", (jemuling_told){ JEMULING_SPLIT, JEMULING_SPACE }, 20, 21);
    expect("22", (jemuling_told){ JEMULING_BACK, 0 }, 22, 0);
    for (size_t room = 0; room <= length + 2; room++)
        converts("x + y at most -5; -x at most 0", old_question, sizeof old_question, room,
                 room < length ? JEMULING_SPACE : JEMULING_CONVERTED, room < length ? 0 : length, new_question);
    converts("no figure", example_8_question, sizeof example_8_question, sizeof example_8_question, JEMULING_CONVERTED,
             sizeof example_8_question, example_8_question);
    converts("four figures", four, sizeof four, 4, JEMULING_CONVERTED, 4, eight);
    converts("five figures", five, sizeof five, 4, JEMULING_SPLIT, 0, NULL);
    expect("five figures, no target", jemuling_convert(five, sizeof five, NULL, 0), JEMULING_SPLIT, 0);
    expect("no target", jemuling_convert(four, sizeof four, NULL, 0), JEMULING_SPACE, 0);
    expect("no question", jemuling_convert(NULL, 0, NULL, 0), JEMULING_SHORT, 0);
    converts("no question", NULL, 0, 64, JEMULING_SHORT, 0, NULL);
    converts("two =", double_question, sizeof double_question, 64, JEMULING_DOUBLE, 15, NULL);
    converts("a long question", question, sizeof question, sizeof question, JEMULING_LONG, JEMULING_QUESTION_BYTES, NULL);
    for (size_t converted = JEMULING_QUESTION_BYTES - 1; converted <= JEMULING_QUESTION_BYTES + 1; converted++) {
        length = long_question(question, converted);
        for (size_t room = JEMULING_QUESTION_BYTES - 2; room <= JEMULING_QUESTION_BYTES + 2; room++) {
            int fits = converted <= room && converted <= JEMULING_QUESTION_BYTES;
            converts("a long result", question, length, room, fits ? JEMULING_CONVERTED : JEMULING_SPACE, fits ? converted : 0, NULL);
        }
    }
}

/* The new question's verdict in edition 2 is the old one's in edition 1; its sheet is carried back to one that the check accepts. */
static void carrying_back(void)
{
    static const unsigned char five[] = { 0, 5, 0, 0 }, four[] = { 0, 4, 0, 0 };
    static unsigned char question[JEMULING_QUESTION_BYTES + 1], book[JEMULING_BOOK_BYTES];
    unsigned char sheet[JEMULING_SHEET_BYTES], old[JEMULING_SHEET_BYTES], longer[JEMULING_SHEET_BYTES + 2];
    jemuling_solved said = jemuling_solve_in(JEMULING_SECOND_EDITION, new_question, sizeof new_question, book, sizeof book, sheet,
                                             sizeof sheet);
    expect("the new question", (jemuling_told){ said.number, 0 }, JEMULING_AGREES, 0);
    expect("its sheet", (jemuling_told){ 0, (size_t)memcmp(sheet, new_sheet, sizeof sheet) }, 0, 0);
    expect("its sheet back", jemuling_carry_back(old_question, sizeof old_question, sheet, sizeof sheet, old, sizeof old),
           JEMULING_CARRIED, 0);
    expect("the old question's", jemuling_check_sheet(old_question, sizeof old_question, old, sizeof old), JEMULING_ACCEPTED, 0);
    memcpy(longer, new_sheet, sizeof new_sheet);
    memset(longer + 18, 0xee, sizeof longer - 18);
    for (size_t length = 62; length <= 66; length++) {
        for (size_t room = 62; room <= 66; room++) {
            int full = length >= 64 && room >= 64;
            carries("0, 0, 5", old_question, sizeof old_question, longer, length, room, full ? JEMULING_CARRIED : JEMULING_SHEET, 0,
                    old_sheet);
        }
    }
    carries("an open mark", open_question, sizeof open_question, new_open_sheet, 64, 64, JEMULING_CARRIED, 0, old_open_sheet);
    carries("figures of the old question", old_question, sizeof old_question, old_sheet, 64, 64, JEMULING_SLIP, 1, NULL);
    memcpy(sheet, new_open_sheet, sizeof sheet);
    sheet[3] = JEMULING_NO;
    carries("an open mark as no", open_question, sizeof open_question, sheet, 64, 64, JEMULING_SLIP, 3, NULL);
    carries("five figures", five, sizeof five, NULL, 0, 0, JEMULING_SPLIT, 0, NULL);
    carries("four figures", four, sizeof four, NULL, 0, 0, JEMULING_SHEET, 0, NULL);
    carries("no question", NULL, 0, NULL, 0, 0, JEMULING_SHORT, 0, NULL);
    carries("two =", double_question, sizeof double_question, NULL, 0, 0, JEMULING_DOUBLE, 15, NULL);
    expect("nothing lent", jemuling_carry_back(NULL, 0, NULL, 0, NULL, 0), JEMULING_SHORT, 0);
    expect("no sheet and target", jemuling_carry_back(four, sizeof four, NULL, 0, NULL, 0), JEMULING_SHEET, 0);
    /* 1,000,000,000 less -1, and less 0, as each of four figures */
    for (size_t figure = 0; figure < 4; figure++) {
        memset(sheet, 0, sizeof sheet);
        memcpy(sheet, (unsigned char[]){ 0, 8, 1 }, 3);
        memcpy(sheet + 6 + 8 * figure, (unsigned char[]){ 0x00, 0xca, 0x9a, 0x3b }, 4);
        carries("at the range", four, sizeof four, sheet, 64, 64, JEMULING_CARRIED, 0, NULL);
        memset(sheet + 10 + 8 * figure, 0xff, 4);
        carries("beyond the range", four, sizeof four, sheet, 64, 64, JEMULING_BACK, figure, NULL);
        sheet[6 + 8 * figure] = 1;
        carries("a half beyond", four, sizeof four, sheet, 64, 64, JEMULING_SLIP, 6 + 8 * figure, NULL);
    }
    /* its conversion is too long, which carrying back does not ask */
    size_t length = long_question(question, JEMULING_QUESTION_BYTES + 1);
    memset(sheet, 0, sizeof sheet);
    memset(sheet + 1, JEMULING_OPEN, 16);
    memcpy(sheet, (unsigned char[]){ 16, JEMULING_OPEN, 0, 0 }, 4);
    memcpy(sheet + 17, (unsigned char[]){ 8, 1 }, 2);
    carries("a question that cannot be converted", question, length, sheet, 64, 64, JEMULING_CARRIED, 0, NULL);
}

/* Copies of a question and a book, which no call may alter, and the bytes lent with them. */
static unsigned char lent_question[JEMULING_QUESTION_BYTES + 2], lent_book[JEMULING_BOOK_BYTES + 2 * JEMULING_LINE_BYTES];

/*
 * Shortens with a target of so many bytes: after a short book, which is compared with this one, the rest of the target's 65,536 bytes is 0;
 * all others are as they were, and so are question and book.
 */
static void shortens(const char *name, const unsigned char *question, size_t length, const unsigned char *book, size_t book_length,
                     size_t target_length, uint64_t number, size_t value, const unsigned char *result)
{
    static unsigned char target[JEMULING_BOOK_BYTES + 5000];
    memset(lent_question, 0xcd, sizeof lent_question);
    memset(lent_book, 0xef, sizeof lent_book);
    memset(target, 0xab, sizeof target);
    if (length)
        memcpy(lent_question, question, length);
    if (book_length)
        memcpy(lent_book, book, book_length);
    expect(name, jemuling_shorten_book_in(edition, lent_question, length, lent_book, book_length, target, target_length), number, value);
    size_t used = number == JEMULING_SHORTENED ? JEMULING_LINE_BYTES * value : 0, written = used ? JEMULING_BOOK_BYTES : 0;
    size_t wrong = others(target + used, written - used, 0) + others(target + written, sizeof target - written, 0xab);
    if (used)
        wrong += memcmp(target, result, used) != 0;
    expect("the short book, and bytes behind it", (jemuling_told){ 0, wrong }, 0, 0);
    wrong = others(lent_question + length, sizeof lent_question - length, 0xcd)
            + others(lent_book + book_length, sizeof lent_book - book_length, 0xef);
    if (length)
        wrong += memcmp(lent_question, question, length) != 0;
    if (book_length)
        wrong += memcmp(lent_book, book, book_length) != 0;
    expect("question and book", (jemuling_told){ 0, wrong }, 0, 0);
}

#define SHORTENS(name, question, book, lines, result) \
    shortens(name, question, sizeof question, book, sizeof book, JEMULING_BOOK_BYTES, JEMULING_SHORTENED, lines, result)
#define REFUSES(name, question, length, book, book_length, target_length, number, value) \
    shortens(name, question, length, book, book_length, target_length, number, value, NULL)

/* The examples' books, of which all lines are needed; a second reading that is not, and an end that comes again by another line. */
static void short_books(void)
{
    unsigned char book[5 * JEMULING_LINE_BYTES], expected[3 * JEMULING_LINE_BYTES];
    SHORTENS("example 2", example_2_question, example_2_book, 1, example_2_book);
    SHORTENS("example 4", example_4_question, example_4_book, 3, example_4_book);
    SHORTENS("example 7", example_7_question, example_7_book, 5, example_7_book);
    SHORTENS("example 8", example_8_question, example_8_book, 3, example_8_book);
    memcpy(expected, at_least_book, 64);
    memcpy(expected + 64, at_least_book + 2 * 64, 2 * 64);
    expected[2 * 64 + 4] = 1;
    SHORTENS("an = and at least", at_least_question, at_least_book, 3, expected);
    /* the lower bound and the end once more: the second of each stays; line 3's clause, 1, stays as it is */
    memcpy(book, example_4_book, 3 * 64);
    memcpy(book + 3 * 64, example_4_book + 64, 2 * 64);
    book[4 * 64 + 4] = 3;
    SHORTENS("lines behind an empty one", example_4_question, book, 3, example_4_book);
    memcpy(book + 4 * 64, example_4_book + 2 * 64, 64);
    SHORTENS("the end once more", example_4_question, book, 3, example_4_book);
    shortens("behind the end", example_4_question, sizeof example_4_question, book, 4 * 64, JEMULING_BOOK_BYTES, JEMULING_FAILS, 4, NULL);
    if (edition == JEMULING_SECOND_EDITION)
        SHORTENS("x at most -1", negative_question, negative_book, 3, negative_book);
    else
        REFUSES("x at most -1", negative_question, sizeof negative_question, negative_book, sizeof negative_book, JEMULING_BOOK_BYTES,
                JEMULING_FAILS, 1);
}

/* A clause for each choice of eight marks, which fails for that alone: 511 lines, all of them needed. */
static size_t all_choices(unsigned char *question)
{
    size_t length = 4;
    memcpy(question, (unsigned char[]){ 8, 0, 0, 1 }, length);
    for (int choice = 0; choice < 256; choice++) {
        question[length++] = 8;
        for (int mark = 0; mark < 8; mark++)
            question[length++] = (unsigned char)(mark + (choice >> mark & 1) * 128);
        question[length++] = 0;
    }
    return length;
}

/* Long books: one of 511 lines, which stays; the same behind so many lines that nobody needs; and 1,024 ends. */
static void long_short_books(void)
{
    static unsigned char question[4 + 256 * 10], book[JEMULING_BOOK_BYTES], longer[JEMULING_BOOK_BYTES], sheet[JEMULING_SHEET_BYTES];
    static const unsigned char zeros[JEMULING_BOOK_BYTES];
    size_t length = all_choices(question), lines = 511;
    jemuling_solved said = jemuling_solve(question, length, book, sizeof book, sheet, sizeof sheet);
    expect("all choices of eight marks", ANSWER(said), JEMULING_CANNOT, lines);
    shortens("all lines needed", question, length, book, 64 * lines, JEMULING_BOOK_BYTES, JEMULING_SHORTENED, lines, book);
    for (size_t more = 1; more <= 513; more += 128) {
        for (size_t i = 0; i < more + lines; i++) {
            unsigned char *line = longer + 64 * i;
            memcpy(line, i < more ? book : book + 64 * (i - more), 64);
            for (size_t at = 2; i >= more && line[0] != 0 && at <= 4; at += 2) {
                size_t parent = (size_t)(line[at] + 256 * line[at + 1]) + more;
                line[at] = (unsigned char)(parent % 256);
                line[at + 1] = (unsigned char)(parent / 256);
            }
        }
        shortens("behind other lines", question, length, longer, 64 * (more + lines), JEMULING_BOOK_BYTES, JEMULING_SHORTENED, lines, book);
        shortens("no end", question, length, longer, 64 * (more + lines - 1), JEMULING_BOOK_BYTES, JEMULING_FAILS, more + lines - 1, NULL);
    }
    SHORTENS("1,024 ends", example_2_question, zeros, 1, zeros);
}

/* 19, then 1, then the question's faults, then 16, then the line that fails. */
static void not_shortened(void)
{
    static const size_t rooms[] = { 0, 1, 64, 16384, 65535, 65536, 65537, 70000 };
    static unsigned char longest[JEMULING_QUESTION_BYTES + 1];
    const size_t full = JEMULING_BOOK_BYTES, length = sizeof example_7_question;
    int known = edition == JEMULING_FIRST_EDITION || edition == JEMULING_SECOND_EDITION;
    for (size_t i = 0; i < sizeof rooms / sizeof *rooms; i++) {
        uint64_t before = !known ? JEMULING_EDITION : rooms[i] < full ? JEMULING_BOOK : 0;
        shortens("example 7", example_7_question, length, example_7_book, sizeof example_7_book, rooms[i],
                 before ? before : JEMULING_SHORTENED, before ? 0 : 5, example_7_book);
        REFUSES("two =", double_question, sizeof double_question, NULL, 0, rooms[i], before ? before : JEMULING_DOUBLE, before ? 0 : 15);
        REFUSES("a long question", longest, sizeof longest, NULL, 0, rooms[i], before ? before : JEMULING_LONG,
                before ? 0 : JEMULING_QUESTION_BYTES);
        REFUSES("no question", NULL, 0, example_7_book, sizeof example_7_book, rooms[i], before ? before : JEMULING_SHORT, 0);
        REFUSES("no book", example_7_question, length, NULL, 0, rooms[i], before ? before : JEMULING_CLAIM, 0);
        REFUSES("a byte short", example_7_question, length, example_7_book, sizeof example_7_book - 1, rooms[i],
                before ? before : JEMULING_CLAIM, before ? 0 : sizeof example_7_book - 1);
        REFUSES("no end", example_7_question, length, example_7_book, sizeof example_7_book - 64, rooms[i],
                before ? before : JEMULING_FAILS, before ? 0 : 4);
        REFUSES("another question's book", example_8_question, sizeof example_8_question, example_7_book, sizeof example_7_book, rooms[i],
                before ? before : JEMULING_FAILS, 0);
    }
    expect("nothing lent", jemuling_shorten_book_in(edition, NULL, 0, NULL, 0, NULL, 0), known ? JEMULING_BOOK : JEMULING_EDITION, 0);
}

static void shortening(void)
{
    static const uint64_t unknown[] = { 0, 3, 257, 258, (UINT64_C(1) << 32) + 1, UINT64_C(1) << 63, UINT64_MAX };
    expect("its number", (jemuling_told){ JEMULING_SHORTENED, 0 }, 73, 0);
    for (edition = JEMULING_FIRST_EDITION; edition <= JEMULING_SECOND_EDITION; edition++) {
        short_books();
        long_short_books();
        not_shortened();
    }
    for (size_t i = 0; i < sizeof unknown / sizeof *unknown; i++) {
        edition = unknown[i];
        not_shortened();
    }
}

int main(void)
{
    for (limit = STANDARD; limit < LIMITS; limit++) {
        /* the calls that name no edition, and edition 1 by its number */
        for (edition = 0; edition <= JEMULING_FIRST_EDITION; edition++) {
            right_ones();
            wrong_ones();
            wrong_equal_ones();
            wrong_marks();
            handing_back();
            solving();
            refusing();
            stopping();
            long_books();
        }
        negative_share();
        largest_question();
        other_editions();
    }
    limit = STANDARD;
    edition = 0;
    converting();
    carrying_back();
    shortening();
    printf("%d passed, %d failed\n", passed, failed);
    return failed != 0;
}
