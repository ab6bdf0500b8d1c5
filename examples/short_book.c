/* A payment of 10 for rent (7 to 8) and heating (at least 4): which clauses, and which lines, show that the entries cannot agree. */
#include <stdio.h>
#include "jemuling.h"

/* Two bytes of a line: the clause and its piece, or the parents. */
static int number(const uint8_t *line, int at)
{
    return line[at] | line[at + 1] << 8;
}

int main(void)
{
    static const uint8_t question[] = {
        0, 2, 4, 0,                                    /* no marks, 2 figures, 4 clauses */
        0, 1, 3, 1, 0, 0, 0, 1, 0, 0, 0, 10, 0, 0, 0,  /* rent + heating = 10 */
        0, 1, 1, 1, 0, 0, 0, 0, 0, 0, 0, 8, 0, 0, 0,   /* rent <= 8 */
        0, 1, 4, 1, 0, 0, 0, 0, 0, 0, 0, 7, 0, 0, 0,   /* rent >= 7 */
        0, 1, 4, 0, 0, 0, 0, 1, 0, 0, 0, 4, 0, 0, 0,   /* heating >= 4 */
    };
    static uint8_t book[JEMULING_BOOK_BYTES], short_book[JEMULING_BOOK_BYTES], sheet[JEMULING_SHEET_BYTES];
    const uint64_t edition = JEMULING_FIRST_EDITION;
    jemuling_solved said = jemuling_solve_in(edition, question, sizeof question, book, sizeof book, sheet, sizeof sheet);
    if (said.number != JEMULING_CANNOT)
        return 1;
    printf("solving says %d: %zu lines\n", (int)said.number, said.value);
    jemuling_told told = jemuling_shorten_book_in(edition, question, sizeof question, book, said.value * JEMULING_LINE_BYTES,
                                                  short_book, sizeof short_book);
    if (told.number != JEMULING_SHORTENED)
        return 1;
    printf("shortening says %d: %zu lines\n", (int)told.number, told.value);
    for (size_t i = 0; i < told.value; i++) {
        const uint8_t *line = short_book + i * JEMULING_LINE_BYTES;
        if (line[0] == 0)
            printf("line %zu: clause %d, piece %d\n", i, number(line, 2), number(line, 4));
        else
            printf("line %zu: from lines %d and %d\n", i, number(line, 2), number(line, 4));
    }
    told = jemuling_check_book_in(edition, question, sizeof question, short_book, told.value * JEMULING_LINE_BYTES);
    printf("checking says %d\n", (int)told.number);
    return told.number != JEMULING_ACCEPTED;
}
