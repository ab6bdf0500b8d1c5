/* Entry a is to cover rent of 800, at most one of a and b belongs to it, of c nothing is asked: what is booked? */
#include <stdio.h>
#include "jemuling.h"

/* An open mark was decided by nothing: it is neither booked nor taken for a rejected match. */
static const char *posted(uint8_t mark)
{
    switch (mark) {
    case JEMULING_YES: return "yes, book it";
    case JEMULING_NO: return "no, a rejected match";
    case JEMULING_OPEN: return "open, leave the entry as it is";
    default: return "not a mark";
    }
}

int main(void)
{
    static const uint8_t question[] = {
        3, 1, 3, 0,                          /* 3 marks, 1 figure, 3 clauses */
        0, 1, 3, 1, 0, 0, 0, 32, 3, 0, 0,    /* rent = 800 */
        1, 0, 1, 1, 1, 0, 0, 0, 0, 0, 0, 0,  /* rent <= 0 or mark 0, that a belongs to it */
        2, 128, 129, 0,                      /* not mark 0 or not mark 1, that b does */
    };
    static uint8_t book[JEMULING_BOOK_BYTES], sheet[JEMULING_SHEET_BYTES];
    jemuling_solved said = jemuling_solve(question, sizeof question, book, sizeof book, sheet, sizeof sheet);
    jemuling_told check = jemuling_check_sheet(question, sizeof question, sheet, sizeof sheet);
    printf("solving says %d, checking says %d\n", (int)said.number, (int)check.number);
    if (said.number != JEMULING_AGREES || check.number != JEMULING_ACCEPTED)
        return 1;
    for (int i = 0; i < sheet[0]; i++)
        printf("mark %d: %s\n", i, posted(sheet[1 + i]));
    return 0;
}
