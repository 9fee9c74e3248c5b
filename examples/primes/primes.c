/* Says of each number of its input, at most 200000, how many primes lie below it. First it counts the primes of 100
   pieces of 2,000 numbers by trial division, whatever the input is: each piece is a call of count_piece. */

#include "guest.h"

enum { PIECES = 100, SIZE = 2000 };

static int counts[PIECES];

static int is_prime(int n)
{
    int d = 2;
    while (d * d <= n && n % d)
        d++;
    return n > 1 && d * d > n;
}

__attribute__((noinline)) static void count_piece(int first, int *count)
{
    for (int n = first; n < first + SIZE; n++)
        *count += is_prime(n);
}

static int primes_below(int limit)
{
    int sum = 0, n = 0;
    for (; n + SIZE <= limit; n += SIZE)
        sum += counts[n / SIZE];
    for (; n < limit; n++)
        sum += is_prime(n);
    return sum;
}

int main(void)
{
    int limit, got;
    for (int k = 0; k < PIECES; k++)
        count_piece(SIZE * k, &counts[k]);
    while ((got = get_number(&limit)) > 0) {
        if (limit < 0 || limit > PIECES * SIZE)
            give_up("primes: wants numbers from 0 to 200000\n");
        put_number(primes_below(limit));
        put_byte('\n');
    }
    if (got < 0)
        give_up("primes: not a number\n");
    flush();
    return 0;
}
