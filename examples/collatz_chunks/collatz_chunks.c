/* Follows Collatz's sequences to 1 from each number up to its input, chunk by chunk, and writes from which one it
   takes the most steps. Each chunk starts from its own number alone and leaves its result in a place of its own, so
   that what a later chunk needs is known long before its turn. */

#include "guest.h"

enum { CHUNK = 448, MOST_CHUNKS = 16384 };

struct longest {
    unsigned steps;
    int from;
};

static struct longest results[MOST_CHUNKS];

static unsigned steps_to_one(unsigned long long number)
{
    unsigned steps = 0;
    for (; number != 1; steps++)
        number = number % 2 ? 3 * number + 1 : number / 2;
    return steps;
}

/* The longest sequence of those that begin with one of CHUNK numbers. It is called once a chunk, at one address. */
__attribute__((noinline)) static void follow_chunk(int first, struct longest *result)
{
    unsigned longest = 0;
    int from = first;
    for (int number = first; number < first + CHUNK; number++) {
        unsigned steps = steps_to_one((unsigned long long)number);
        if (steps > longest) {
            longest = steps;
            from = number;
        }
    }
    result->steps = longest;
    result->from = from;
}

int main(void)
{
    int limit;
    if (get_number(&limit) <= 0 || limit < 1 || limit > MOST_CHUNKS * CHUNK)
        give_up("collatz_chunks: wants a number from 1 to 7340032\n");
    int chunks = (limit + CHUNK - 1) / CHUNK;
    for (int chunk = 0; chunk < chunks; chunk++)
        follow_chunk(chunk * CHUNK + 1, &results[chunk]);
    struct longest best = results[0];
    for (int chunk = 1; chunk < chunks; chunk++)
        if (results[chunk].steps > best.steps)
            best = results[chunk];
    put_text("all up to ");
    put_number(chunks * CHUNK);
    put_text(" come to 1; from ");
    put_number(best.from);
    put_text(" it takes the most steps, ");
    put_unsigned(best.steps);
    put_byte('\n');
    flush();
    return 0;
}
