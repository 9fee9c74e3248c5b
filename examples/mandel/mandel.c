/* Draws the Mandelbrot set in fixed point. Its input is three numbers: the columns and the rows of the picture, and the
   rounds after which a point that is still near 0 counts as one of the set. Each row is drawn from its own number alone
   into a place of its own, so that what a later row needs is known long before its turn. */

#include "guest.h"

enum { FRACTION = 24, UNIT = 1 << FRACTION, MOST_CELLS = 262144 };

/* The picture's edges: real parts from -2.25 on, imaginary parts from 1.25 down. */
enum { LEFT = -9 * UNIT / 4, WIDTH = 3 * UNIT, TOP = 5 * UNIT / 4, HEIGHT = 5 * UNIT / 2 };

struct picture {
    int columns, rows, limit;
    int beside, below; /* from one cell to the next */
};

static char cells[MOST_CELLS];

static int product(int first, int second)
{
    return (int)((long long)first * second >> FRACTION);
}

/* How many rounds z goes from 0 to z^2 + c before it is more than 2 away from 0: the limit at most. */
static int rounds_near(int real, int imaginary, int limit)
{
    int x = 0, y = 0, rounds = 0;
    for (; rounds < limit; rounds++) {
        int xx = product(x, x), yy = product(y, y);
        if (xx + yy > 4 * UNIT)
            break;
        y = 2 * product(x, y) + imaginary;
        x = xx - yy + real;
    }
    return rounds;
}

/* One row of cells. It is called once a row, at one address. */
__attribute__((noinline)) static void draw_row(const struct picture *picture, int row, char *cell)
{
    int imaginary = TOP - picture->below / 2 - row * picture->below;
    int real = LEFT + picture->beside / 2;
    for (int column = 0; column < picture->columns; column++) {
        int rounds = rounds_near(real, imaginary, picture->limit);
        cell[column] = rounds == picture->limit ? '#' : rounds < 4 ? ' ' : rounds < 12 ? '.' : '+';
        real += picture->beside;
    }
}

int main(void)
{
    int columns, rows, limit;
    if (get_number(&columns) <= 0 || get_number(&rows) <= 0 || get_number(&limit) <= 0 || columns < 1 || rows < 1
        || limit < 1 || columns > MOST_CELLS || rows > MOST_CELLS / columns)
        give_up("mandel: wants columns and rows of at most 262144 cells, and a number of rounds\n");
    struct picture picture = {columns, rows, limit, WIDTH / columns, HEIGHT / rows};
    for (int row = 0; row < rows; row++)
        draw_row(&picture, row, cells + row * columns);
    int inside = 0;
    for (int row = 0; row < rows; row++) {
        for (int column = 0; column < columns; column++) {
            put_byte(cells[row * columns + column]);
            inside += cells[row * columns + column] == '#';
        }
        put_byte('\n');
    }
    put_number(inside);
    put_text(" of ");
    put_number(columns * rows);
    put_text(" points are inside\n");
    flush();
    return 0;
}
