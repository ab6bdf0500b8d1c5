/* Entries a of 900 and b of 150 for rent of 1,000 and heating of 50: a share below 0 makes them agree, which edition 2 forbids. */
#include <stdio.h>
#include "jemuling.h"

int main(void)
{
    static const uint8_t question[] = {
        0, 3, 4, 0,                                                /* no marks, 3 figures, 4 clauses */
        0, 1, 3, 1, 0, 0, 0, 1, 0, 0, 0, 0, 0, 0, 0, 132, 3, 0, 0, /* rent_a + heating_a = 900 */
        0, 1, 3, 0, 0, 0, 0, 0, 0, 0, 0, 1, 0, 0, 0, 150, 0, 0, 0, /* heating_b = 150 */
        0, 1, 3, 1, 0, 0, 0, 0, 0, 0, 0, 0, 0, 0, 0, 232, 3, 0, 0, /* rent_a = 1000 */
        0, 1, 3, 0, 0, 0, 0, 1, 0, 0, 0, 1, 0, 0, 0, 50, 0, 0, 0,  /* heating_a + heating_b = 50 */
    };                                                             /* edition 2: clauses 4 to 6, each of the figures >= 0 */
    static uint8_t book[JEMULING_BOOK_BYTES], sheet[JEMULING_SHEET_BYTES];
    jemuling_solved said = jemuling_solve_in(JEMULING_FIRST_EDITION, question, sizeof question, book, sizeof book, sheet, sizeof sheet);
    jemuling_told check = jemuling_check_sheet_in(JEMULING_FIRST_EDITION, question, sizeof question, sheet, sizeof sheet);
    printf("edition 1: solving says %d, checking says %d\n", (int)said.number, (int)check.number);
    check = jemuling_check_sheet_in(JEMULING_SECOND_EDITION, question, sizeof question, sheet, sizeof sheet);
    printf("that sheet in edition 2: checking says %d, clause %zu\n", (int)check.number, check.value);
    said = jemuling_solve_in(JEMULING_SECOND_EDITION, question, sizeof question, book, sizeof book, sheet, sizeof sheet);
    check = jemuling_check_book_in(JEMULING_SECOND_EDITION, question, sizeof question, book, said.value * JEMULING_LINE_BYTES);
    printf("edition 2: solving says %d, checking says %d\n", (int)said.number, (int)check.number);
    return check.number != JEMULING_ACCEPTED;
}
