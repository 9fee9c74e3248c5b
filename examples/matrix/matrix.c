/* Multiplies two square matrices of words, whose side is its input, and writes the trace and the sum of all
   entries of the product, both modulo 2^32. Entry (i, k) of the first is i + 2k + 1, that of the
   second 3i - k + 5. */

#include "guest.h"

static void multiply(const unsigned *first, const unsigned *second, unsigned *product, int side)
{
    for (int i = 0; i < side; i++)
        for (int k = 0; k < side; k++) {
            unsigned sum = 0;
            for (int j = 0; j < side; j++)
                sum += first[i * side + j] * second[j * side + k];
            product[i * side + k] = sum;
        }
}

int main(void)
{
    int side;
    if (get_number(&side) <= 0 || side < 1 || side > 2048)
        give_up("matrix: wants a side from 1 to 2048\n");
    unsigned cells = (unsigned)(side * side);
    unsigned *first = take_memory(3 * cells * sizeof(unsigned));
    if (!first)
        give_up("matrix: no more memory\n");
    unsigned *second = first + cells, *product = second + cells;
    for (int i = 0; i < side; i++)
        for (int k = 0; k < side; k++) {
            first[i * side + k] = (unsigned)(i + 2 * k + 1);
            second[i * side + k] = (unsigned)(3 * i - k + 5);
        }
    multiply(first, second, product, side);
    unsigned trace = 0, sum = 0;
    for (int i = 0; i < side; i++)
        trace += product[i * side + i];
    for (unsigned k = 0; k < cells; k++)
        sum += product[k];
    put_text("trace ");
    put_unsigned(trace);
    put_text(" sum ");
    put_unsigned(sum);
    put_byte('\n');
    flush();
    return 0;
}
