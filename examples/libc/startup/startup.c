/* Shows that a program over picolibc begins and ends as C has it: what is called before main and behind it, variables
   of the thread, numbers of errors, and memory that is refused and given back. */

#include <errno.h>
#include <math.h>
#include <stdio.h>
#include <stdlib.h>
#include <string.h>

static _Thread_local volatile int counted = 40;
static _Thread_local volatile char zeros[100];
static volatile int numbers[4] = {1, 2, 3, 4};

__attribute__((constructor)) static void before(void)
{
    counted++;
    printf("before main: %d\n", counted);
}

static void behind(void)
{
    printf("behind main: %d; exit writes this line, which has no end", counted);
}

/* Whether so many pieces are there at a time, however often they are given back. */
static int comes_again(void)
{
    static char *pieces[20];
    for (int round = 0; round < 100; round++) {
        for (int k = 0; k < 20; k++)
            if (!(pieces[k] = calloc(1, (size_t)(20000 + 100 * k))))
                return 0;
        for (int k = 0; k < 20; k++)
            free(pieces[k]);
    }
    return 1;
}

int main(void)
{
    atexit(behind);
    counted++;
    int sum = 0;
    for (size_t k = 0; k < sizeof zeros; k++)
        sum += zeros[k]++;
    printf("of the thread: %d and %d, of the program: %d\n", counted, sum, numbers[0] + numbers[3]);

    errno = 0;
    double huge = strtod("1e999", 0);
    printf("strtod: %d, %s\n", huge == HUGE_VAL, strerror(errno));
    errno = 0;
    void *refused = malloc(2000000000);
    printf("malloc: %d, %s\n", refused == 0, strerror(errno));
    printf("free: %d\n", comes_again());
    return 0;
}
