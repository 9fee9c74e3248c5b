/* Counts the lines, words and bytes of its input, as wc does. */

#include "guest.h"

int main(void)
{
    unsigned lines = 0, words = 0, bytes = 0;
    int in_word = 0, byte;
    while ((byte = get_byte()) >= 0) {
        bytes++;
        lines += byte == '\n';
        words += !in_word && !is_space(byte);
        in_word = !is_space(byte);
    }
    put_unsigned(lines);
    put_byte(' ');
    put_unsigned(words);
    put_byte(' ');
    put_unsigned(bytes);
    put_byte('\n');
    flush();
    return 0;
}
