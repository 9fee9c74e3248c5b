/* Reads decimal fractions, one on a line, and writes how many there are, their mean, their standard deviation and
   their median. */

#include <errno.h>
#include <math.h>
#include <stdio.h>
#include <stdlib.h>

struct numbers {
    double *items;
    size_t count, room;
};

static void give_up(unsigned line, const char *why)
{
    fprintf(stderr, "statistics: line %u: %s\n", line, why);
    exit(2);
}

static void add(struct numbers *numbers, double number, unsigned line)
{
    if (numbers->count == numbers->room) {
        numbers->room = numbers->room ? 2 * numbers->room : 64;
        numbers->items = realloc(numbers->items, numbers->room * sizeof *numbers->items);
        if (!numbers->items)
            give_up(line, "no more memory");
    }
    numbers->items[numbers->count++] = number;
}

static struct numbers read_numbers(void)
{
    struct numbers numbers = {0, 0, 0};
    char text[100];
    for (unsigned line = 1; fgets(text, sizeof text, stdin); line++) {
        char *end;
        errno = 0;
        double number = strtod(text, &end);
        if (end == text || (*end && *end != '\n'))
            give_up(line, "not a number");
        if (errno == ERANGE)
            give_up(line, "out of range");
        add(&numbers, number, line);
    }
    return numbers;
}

static int by_size(const void *first, const void *second)
{
    double a = *(const double *)first, b = *(const double *)second;
    return (a > b) - (a < b);
}

int main(void)
{
    struct numbers numbers = read_numbers();
    size_t count = numbers.count;
    if (count == 0)
        give_up(1, "no numbers");
    double sum = 0, squares = 0;
    for (size_t k = 0; k < count; k++)
        sum += numbers.items[k];
    double mean = sum / (double)count;
    for (size_t k = 0; k < count; k++)
        squares += (numbers.items[k] - mean) * (numbers.items[k] - mean);
    qsort(numbers.items, count, sizeof *numbers.items, by_size);
    double median = (numbers.items[(count - 1) / 2] + numbers.items[count / 2]) / 2;
    printf("%zu numbers\nmean      %15.6f\ndeviation %15.6e\nmedian    %15.6g\n", count, mean,
           sqrt(squares / (double)count), median);
    free(numbers.items);
    return 0;
}
