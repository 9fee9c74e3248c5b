/* Tries the functions of ../memory.c on all small pieces at all places of a few words, also where source and target
   overlap, and compares each with what a loop over bytes does. It writes how many calls were right. */

#include "guest.h"

enum { ROOM = 24, MOST = 12 };

/* Bytes that gcc knows nothing of, so that it calls the functions and does not compute their answers. */
static volatile unsigned char given[ROOM];
static unsigned char made[ROOM], other[ROOM];
static int right, wrong;

static void begin(void)
{
    for (int k = 0; k < ROOM; k++)
        made[k] = other[k] = given[k];
}

/* Compares what a call made with what is wanted at its target, and all other bytes with those before it. */
static void end(int to, int size, const volatile unsigned char *wanted, int step)
{
    int alike = 1;
    for (int k = 0; k < ROOM; k++)
        alike &= made[k] == (k >= to && k < to + size ? wanted[step * (k - to)] : given[k]);
    alike ? right++ : wrong++;
}

static int sign_of(const volatile unsigned char *first, const volatile unsigned char *second, int size)
{
    for (int k = 0; k < size; k++)
        if (first[k] != second[k])
            return first[k] < second[k] ? -1 : 1;
    return 0;
}

static void try(int to, int from, int size)
{
    begin();
    memcpy(made + to, other + from, (unsigned)size);
    end(to, size, given + from, 1);
    begin();
    memmove(made + to, made + from, (unsigned)size);
    end(to, size, given + from, 1);
    begin();
    memset(made + to, given[from], (unsigned)size);
    end(to, size, given + from, 0);
    begin();
    int found = memcmp(made + to, other + from, (unsigned)size);
    (found > 0) - (found < 0) == sign_of(given + to, given + from, size) ? right++ : wrong++;
}

int main(void)
{
    /* Few different bytes, so that pieces are alike for a while. */
    for (int k = 0; k < ROOM; k++)
        given[k] = (unsigned char)(k % 5 == 4 ? 0x80 + k : k % 2);
    for (int to = 0; to <= ROOM - MOST; to++)
        for (int from = 0; from <= ROOM - MOST; from++)
            for (int size = 0; size <= MOST; size++)
                try(to, from, size);
    put_number(right);
    put_text(" calls right, ");
    put_number(wrong);
    put_text(" wrong\n");
    flush();
    return wrong != 0;
}
