/* A payment of 750 covers rent of 800 and a refund of heating: an old batch carried over, solved in edition 2 and carried back. */
#include <stdio.h>
#include "jemuling.h"

/* Numerator i of a sheet with one mark: behind two counts, the mark and the denominator. */
static int numerator(const uint8_t *sheet, int i)
{
    const uint8_t *at = sheet + 7 + 4 * i;
    uint32_t bits = at[0] | (uint32_t)at[1] << 8 | (uint32_t)at[2] << 16 | (uint32_t)at[3] << 24;
    return bits > INT32_MAX ? -(int)~bits - 1 : (int)bits;
}

int main(void)
{
    static const uint8_t old_question[] = {
        1, 2, 4, 0,                                          /* 1 mark, 2 figures, 4 clauses */
        0, 1, 1, 255, 255, 255, 255, 0, 0, 0, 0, 0, 0, 0, 0, /* -rent <= 0, so rent is kept */
        0, 1, 3, 1, 0, 0, 0, 1, 0, 0, 0, 238, 2, 0, 0,       /* rent + heating = 750 */
        0, 1, 3, 1, 0, 0, 0, 0, 0, 0, 0, 32, 3, 0, 0,        /* rent = 800 */
        1, 0, 1, 4, 0, 0, 0, 0, 1, 0, 0, 0, 0, 0, 0, 0,      /* refund or heating >= 0 */
    };
    static uint8_t new_question[JEMULING_QUESTION_BYTES], book[JEMULING_BOOK_BYTES];
    static uint8_t sheet[JEMULING_SHEET_BYTES], back[JEMULING_SHEET_BYTES];
    jemuling_told told = jemuling_convert(old_question, sizeof old_question, new_question, sizeof new_question);
    if (told.number != JEMULING_CONVERTED)
        return 1;
    size_t length = told.value;
    printf("converting says %d: %zu bytes become %zu\n", (int)told.number, sizeof old_question, length);
    jemuling_solved said = jemuling_solve_in(JEMULING_SECOND_EDITION, new_question, length, book, sizeof book, sheet, sizeof sheet);
    told = jemuling_check_sheet_in(JEMULING_SECOND_EDITION, new_question, length, sheet, sizeof sheet);
    printf("edition 2: solving says %d, checking says %d\n", (int)said.number, (int)told.number);
    printf("rent %d, heating %d less %d\n", numerator(sheet, 0), numerator(sheet, 1), numerator(sheet, 2));
    told = jemuling_carry_back(old_question, sizeof old_question, sheet, sizeof sheet, back, sizeof back);
    printf("carrying back says %d: rent %d, heating %d\n", (int)told.number, numerator(back, 0), numerator(back, 1));
    told = jemuling_check_sheet_in(JEMULING_FIRST_EDITION, old_question, sizeof old_question, back, sizeof back);
    printf("edition 1: checking says %d\n", (int)told.number);
    return told.number != JEMULING_ACCEPTED;
}
