/* Asks for numbers, a line each, and answers each line with the sum so far. It can be typed to. */

#define TYPED_INPUT
#include "guest.h"

int main(void)
{
    int sum = 0, number, found;
    put_text("> ");
    while ((found = get_number(&number)) > 0) {
        sum += number;
        put_number(sum);
        put_text("\n> ");
    }
    put_byte('\n');
    flush();
    if (found < 0)
        give_up("adder: not a number\n");
    return 0;
}
