/*
 * Hands the inputs of a file (see inputs.py) to the calls of calls.rt.txt, and puts down a line for each: what the call said, and after
 * solving what it left in the lent buffers and what is handed back; after converting and carrying back what it left in the target, which
 * is the book's buffer, and after shortening in the sheet's and in the book. If LEFT is defined, solving's books and sheets go there.
 */
#include "trial.h"

#include <ctype.h>

/* Bytes behind a target that are looked at, too. */
#define BEHIND 256

enum { QUESTION = 100000, BUFFER = 200000, NUMBER = 6, VALUE, PAIRS, PART, LENGTH };

struct input {
    uint32_t call, question, book, sheet;
    uint64_t number, lines;
};

static struct input in;

static void take(unsigned char *to, size_t size, size_t length)
{
    if (length > size || fread(to, 1, length, inputs) != length)
        exit(2);
}

static void out_of_time(int number)
{
    (void)number;
    answered("does not end");
    _exit(3);
}

/* The next input, if there is one; buffers that are only written hold the same bytes each time. */
int trial_next(unsigned char *question, unsigned char *book, unsigned char *sheet, uint64_t *words)
{
    opened();
    if (fread(&in, sizeof in, 1, inputs) != 1)
        return 0;
    take(question, QUESTION, in.question);
    switch (toupper((int)in.call)) {
    case 'S':
    case 'T':
        memset(book, 0xab, BUFFER);
        memset(sheet, 0xcd, BUFFER);
        break;
    case 'B':
    case 'C':
        take(book, BUFFER, in.book);
        break;
    case 'M':
    case 'N':
        take(sheet, BUFFER, in.sheet);
        break;
    case 'O':
        memset(book, 0xab, in.book + BEHIND);
        break;
    case 'R':
        take(sheet, BUFFER, in.sheet);
        memset(book, 0xab, in.book + BEHIND);
        break;
    case 'K':
        take(book, BUFFER, in.book);
        memset(sheet, 0xab, in.sheet + BEHIND);
        break;
    case 'H':
        break;
    default:
        exit(2);
    }
    uint64_t asked[] = { in.call, in.question, in.book, in.sheet, in.number, in.lines };
    memcpy(words, asked, sizeof asked);
    signal(SIGALRM, out_of_time);
    alarm(PATIENCE);
    return 1;
}

#ifdef LEFT
static void keep(const unsigned char *book, const unsigned char *sheet, const uint64_t *words)
{
    static FILE *left;
    uint64_t head[2] = { words[NUMBER], words[NUMBER] < 64 ? 0 : words[VALUE] };
    if (!left && !(left = fopen(LEFT, "wb")))
        exit(2);
    fwrite(head, sizeof head, 1, left);
    fwrite(book, 64, head[1], left);
    fwrite(sheet, 64, 1, left);
    fflush(left);
}
#endif

/* Puts down the answer, and says whether to go on. */
int trial_told(const unsigned char *question, const unsigned char *book, const unsigned char *sheet, const uint64_t *words)
{
    static char line[1000];
    unsigned long long number = words[NUMBER], value = words[VALUE], pairs = words[PAIRS], part = words[PART], length = words[LENGTH];
    (void)question;
    alarm(0);
    switch (toupper((int)in.call)) {
    case 'S':
    case 'T':
        sprintf(line, "%llu %llu %llu %llx %llx %llu %llu", number, value, pairs, hash(book, BUFFER), hash(sheet, BUFFER), part, length);
#ifdef LEFT
        keep(book, sheet, words);
#endif
        break;
    case 'O':
    case 'R':
        sprintf(line, " %llu %llu %llx", number, value, hash(book, in.book + BEHIND));
        break;
    case 'K':
        sprintf(line, " %llu %llu %llx %llx", number, value, hash(sheet, in.sheet + BEHIND), hash(book, in.book));
        break;
    default:
        sprintf(line, " %llu %llu", number, value);
    }
    return answered(line);
}
