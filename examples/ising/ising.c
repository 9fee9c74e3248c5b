/* Walks a list of spin lattices and finds the one of least energy. Its input is three numbers: how many
   lattices, their side, and a seed. A lattice is a square of spins, 1 or -1, whose edges meet; its energy is,
   over all pairs of neighbours, the sum of -1 for two like spins and 1 for two unlike ones. */

#include "guest.h"

struct lattice {
    struct lattice *next;
    signed char spins[];
};

static unsigned random_state;

/* 1 or -1, by the top bit of a linear congruential generator. */
static signed char random_spin(void)
{
    random_state = 1664525 * random_state + 1013904223;
    return random_state >> 31 ? 1 : -1;
}

static struct lattice *make_list(int count, int side)
{
    struct lattice *list = 0;
    struct lattice **end = &list;
    while (count-- > 0) {
        struct lattice *made = take_memory(sizeof *made + (unsigned)(side * side));
        if (!made)
            give_up("ising: no more memory\n");
        for (int k = 0; k < side * side; k++)
            made->spins[k] = random_spin();
        made->next = 0;
        *end = made;
        end = &made->next;
    }
    return list;
}

/* Each spin with its neighbours to the right and below. */
static int energy(const struct lattice *lattice, int side)
{
    int sum = 0;
    for (int row = 0; row < side; row++) {
        const signed char *here = lattice->spins + row * side;
        const signed char *below = lattice->spins + (row + 1 == side ? 0 : row + 1) * side;
        for (int k = 0; k < side; k++)
            sum -= here[k] * (here[k + 1 == side ? 0 : k + 1] + below[k]);
    }
    return sum;
}

int main(void)
{
    int count, side, seed;
    if (get_number(&count) <= 0 || get_number(&side) <= 0 || get_number(&seed) <= 0
        || count < 1 || side < 1 || side > 1024)
        give_up("ising: wants a number of lattices, a side from 1 to 1024, and a seed\n");
    random_state = (unsigned)seed;
    struct lattice *lattice = make_list(count, side);
    int least = 0, where = -1;
    for (int k = 0; lattice; k++, lattice = lattice->next) {
        int found = energy(lattice, side);
        if (where < 0 || found < least) {
            least = found;
            where = k;
        }
    }
    put_text("least energy ");
    put_number(least);
    put_text(" at lattice ");
    put_number(where);
    put_byte('\n');
    flush();
    return 0;
}
