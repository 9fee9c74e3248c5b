/* Conway's Life on a square of 24 rows whose edges meet. Its input is these rows, with # for a cell that lives. It goes
   on until a board is one of the last eight, and writes that board and when it was there before. For large structs
   gcc calls memset and the like by itself: they are in ../memory.c. */

#include "guest.h"

enum { SIDE = 24, KEPT = 8, MOST = 5000 };

struct board {
    unsigned char cells[SIDE][SIDE];
};

static struct board read_board(void)
{
    struct board board = {{{0}}};
    int row = 0, column = 0, byte;
    while ((byte = get_byte()) >= 0 && row < SIDE) {
        if (byte == '\n') {
            row++;
            column = 0;
        } else if (column < SIDE) {
            board.cells[row][column++] = byte == '#';
        }
    }
    return board;
}

static int neighbours(const struct board *board, int row, int column)
{
    int sum = -board->cells[row][column];
    for (int below = SIDE - 1; below <= SIDE + 1; below++)
        for (int beside = SIDE - 1; beside <= SIDE + 1; beside++)
            sum += board->cells[(row + below) % SIDE][(column + beside) % SIDE];
    return sum;
}

static struct board next(struct board board)
{
    struct board made;
    for (int row = 0; row < SIDE; row++)
        for (int column = 0; column < SIDE; column++) {
            int around = neighbours(&board, row, column);
            made.cells[row][column] = around == 3 || (around == 2 && board.cells[row][column]);
        }
    return made;
}

/* How many generations ago this board was there, or 0 where it is none of those that are kept. */
static int period(const struct board *kept, int count, const struct board *board)
{
    for (int k = 0; k < count; k++)
        if (memcmp(&kept[k], board, sizeof *board) == 0)
            return k + 1;
    return 0;
}

static void put_board(const struct board *board)
{
    for (int row = 0; row < SIDE; row++) {
        for (int column = 0; column < SIDE; column++)
            put_byte(board->cells[row][column] ? '#' : '.');
        put_byte('\n');
    }
}

int main(void)
{
    static struct board kept[KEPT];
    struct board board = read_board();
    int generation = 0, again;
    while (!(again = period(kept, generation < KEPT ? generation : KEPT, &board))) {
        if (generation == MOST)
            give_up("life: no board comes again\n");
        memmove(kept + 1, kept, (KEPT - 1) * sizeof *kept);
        kept[0] = board;
        board = next(board);
        generation++;
    }
    put_board(&board);
    put_text("generation ");
    put_number(generation);
    put_text(" is as ");
    put_number(generation - again);
    put_byte('\n');
    flush();
    return 0;
}
