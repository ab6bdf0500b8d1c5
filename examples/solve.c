/* A payment of 10 for rent (at least 7) and heating (at least 4): can the entries agree? */
#include <stdio.h>
#include "jemuling.h"

int main(void)
{
    static const uint8_t question[] = {
        0, 2, 3, 0,                                    /* no marks, 2 figures, 3 clauses */
        0, 1, 3, 1, 0, 0, 0, 1, 0, 0, 0, 10, 0, 0, 0,  /* rent + heating = 10 */
        0, 1, 4, 1, 0, 0, 0, 0, 0, 0, 0, 7, 0, 0, 0,   /* rent >= 7 */
        0, 1, 4, 0, 0, 0, 0, 1, 0, 0, 0, 4, 0, 0, 0,   /* heating >= 4 */
    };
    static uint8_t book[JEMULING_BOOK_BYTES], sheet[JEMULING_SHEET_BYTES];
    jemuling_solved said = jemuling_solve(question, sizeof question, book, sizeof book, sheet, sizeof sheet);
    printf("solving says %d: %zu lines, %d pairs\n", (int)said.number, said.value, (int)said.pairs);
    jemuling_told part = jemuling_hand_back(said.number, said.value, book, sizeof book, sheet, sizeof sheet);
    jemuling_told check = part.number == JEMULING_OF_SHEET ? jemuling_check_sheet(question, sizeof question, sheet, part.value)
                                                           : jemuling_check_book(question, sizeof question, book, part.value);
    printf("checking says %d\n", (int)check.number);
    return check.number != JEMULING_ACCEPTED;
}
