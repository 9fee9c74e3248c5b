/* Counts in how many ways as many queens as its input stand on a square board with one in each row, so that none attacks
   another, and writes how many begin with each place of the first row. A piece of the work has the queens of the first
   two rows. It starts from its own number alone and leaves its result in a place of its own, so that what a later piece
   needs is known long before its turn. */

#include "guest.h"

enum { MOST = 16 };

static int results[MOST * MOST];

/* The ways to go on behind rows that take these columns, and these places of the next row by diagonals. Each is a bit. */
static int count_ways(unsigned all, unsigned columns, unsigned left, unsigned right)
{
    if (columns == all)
        return 1;
    int ways = 0;
    for (unsigned free = all & ~(columns | left | right); free; free &= free - 1) {
        unsigned queen = free & -free;
        ways += count_ways(all, columns | queen, (left | queen) << 1, (right | queen) >> 1);
    }
    return ways;
}

/* The ways that begin with two queens. It is called once a piece, at one address. */
__attribute__((noinline)) static void count_piece(int side, int piece, int *result)
{
    unsigned first = 1u << piece / side, second = 1u << piece % side;
    unsigned left = first << 1, right = first >> 1;
    if (second & (first | left | right))
        *result = 0;
    else
        *result = count_ways((1u << side) - 1, first | second, (left | second) << 1, (right | second) >> 1);
}

int main(void)
{
    int side;
    if (get_number(&side) <= 0 || side < 2 || side > MOST)
        give_up("queens: wants a number from 2 to 16\n");
    for (int piece = 0; piece < side * side; piece++)
        count_piece(side, piece, &results[piece]);
    int sum = 0;
    for (int first = 0; first < side; first++) {
        int ways = 0;
        for (int second = 0; second < side; second++)
            ways += results[first * side + second];
        put_number(ways);
        put_byte(' ');
        sum += ways;
    }
    put_text("ways, ");
    put_number(sum);
    put_text(" in all\n");
    flush();
    return 0;
}
