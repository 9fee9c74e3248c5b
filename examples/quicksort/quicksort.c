/* Sorts the numbers of its input, as sort -n does, and writes each on a line. */

#include "guest.h"

/* Hoare's partition, around the middle. A call sorts the smaller part, so that calls are few levels deep. */
static void sort(int *first, int *last)
{
    while (first < last) {
        int pivot = first[(last - first) / 2];
        int *low = first, *high = last;
        while (low <= high) {
            while (*low < pivot)
                low++;
            while (*high > pivot)
                high--;
            if (low <= high) {
                int kept = *low;
                *low++ = *high;
                *high-- = kept;
            }
        }
        if (high - first < last - low) {
            sort(first, high);
            first = low;
        } else {
            sort(low, last);
            last = high;
        }
    }
}

/* The numbers are kept one behind the other in memory that is taken as they come, 1024 at a time. */
int main(void)
{
    enum { BLOCK = 1024 };
    int *numbers = take_memory(BLOCK * sizeof(int));
    int count = 0, number, found;
    while ((found = get_number(&number)) > 0) {
        if (!numbers || (count && count % BLOCK == 0 && !take_memory(BLOCK * sizeof(int))))
            give_up("quicksort: no more memory\n");
        numbers[count++] = number;
    }
    if (found < 0)
        give_up("quicksort: not a number\n");
    if (count)
        sort(numbers, numbers + count - 1);
    for (int k = 0; k < count; k++) {
        put_number(numbers[k]);
        put_byte('\n');
    }
    flush();
    return 0;
}
