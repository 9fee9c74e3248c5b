/* Finds the primes below its input, block by block, and writes how many there are and the greatest. Each block starts
   from its own number and the first primes alone, which no block changes, and leaves its result in a place of its own,
   so that what a later block needs is known long before its turn. */

#include "guest.h"

/* The odd primes below 8192, whose square is the greatest limit, are 1027. */
enum { BLOCK = 8192, MOST_BLOCKS = 8192, MOST_DIVISORS = 1027 };

struct found {
    int count, last;
};

static struct found results[MOST_BLOCKS];

/* The odd primes whose squares are below the limit, and a 0 behind them. */
static unsigned short divisors[MOST_DIVISORS + 1];

static int is_prime(int odd)
{
    for (const unsigned short *divisor = divisors; *divisor && *divisor * *divisor <= odd; divisor++)
        if (odd % *divisor == 0)
            return 0;
    return 1;
}

static void find_divisors(int limit)
{
    int count = 0;
    for (int odd = 3; odd * odd < limit; odd += 2)
        if (is_prime(odd))
            divisors[count++] = (unsigned short)odd;
}

/* The least odd multiple that is to be crossed out in a block which begins with this number. */
static int first_multiple(int divisor, int begin)
{
    if (divisor * divisor >= begin)
        return divisor * divisor;
    int multiple = (begin + divisor - 1) / divisor * divisor;
    return multiple % 2 ? multiple : multiple + divisor;
}

/* The odd primes of a block that are below the limit. It is called once a block, at one address. */
__attribute__((noinline)) static void sieve_block(int block, int limit, struct found *result)
{
    unsigned crossed[BLOCK / 64]; /* a bit for each odd number */
    for (int k = 0; k < BLOCK / 64; k++)
        crossed[k] = 0;
    int begin = block * BLOCK;
    for (const unsigned short *divisor = divisors; *divisor; divisor++)
        for (int k = (first_multiple(*divisor, begin) - begin) / 2; k < BLOCK / 2; k += *divisor)
            crossed[k / 32] |= 1u << k % 32;
    int count = 0, last = 0;
    for (int k = block == 0; k < BLOCK / 2 && begin + 2 * k + 1 < limit; k++)
        if (!(crossed[k / 32] >> k % 32 & 1)) {
            count++;
            last = begin + 2 * k + 1;
        }
    result->count = count;
    result->last = last;
}

int main(void)
{
    int limit;
    if (get_number(&limit) <= 0 || limit < 3 || limit > MOST_BLOCKS * BLOCK)
        give_up("sieve: wants a number from 3 to 67108864\n");
    find_divisors(limit);
    int blocks = (limit + BLOCK - 1) / BLOCK;
    for (int block = 0; block < blocks; block++)
        sieve_block(block, limit, &results[block]);
    struct found all = {1, 2};
    for (int block = 0; block < blocks; block++) {
        all.count += results[block].count;
        if (results[block].count)
            all.last = results[block].last;
    }
    put_number(all.count);
    put_text(" primes below ");
    put_number(limit);
    put_text(", the greatest ");
    put_number(all.last);
    put_byte('\n');
    flush();
    return 0;
}
