/* Sees to it that Collatz's sequence comes to 1 from each number up to its input, and writes from which one
   it takes the most steps. A sequence that never comes to 1 would keep the program going for ever. */

#include "guest.h"

static unsigned steps_to_one(unsigned long long number)
{
    unsigned steps = 0;
    for (; number != 1; steps++)
        number = number % 2 ? 3 * number + 1 : number / 2;
    return steps;
}

int main(void)
{
    int limit;
    if (get_number(&limit) <= 0 || limit < 1)
        give_up("collatz: wants a number from 1 on\n");
    unsigned longest = 0;
    int from = 1;
    for (int number = 1; number <= limit; number++) {
        unsigned steps = steps_to_one((unsigned long long)number);
        if (steps > longest) {
            longest = steps;
            from = number;
        }
    }
    put_text("all up to ");
    put_number(limit);
    put_text(" come to 1; from ");
    put_number(from);
    put_text(" it takes the most steps, ");
    put_unsigned(longest);
    put_byte('\n');
    flush();
    return 0;
}
