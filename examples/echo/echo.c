/* Writes its input to its output, as cat does. */

#include "guest.h"

static char buffer[1024];

int main(void)
{
    int size;
    while ((size = guest_read(buffer, sizeof buffer)) > 0) {
        int done = 0;
        while (done < size) {
            int wrote = guest_write(1, buffer + done, (unsigned)(size - done));
            if (wrote <= 0)
                return 1;
            done += wrote;
        }
    }
    return size < 0;
}
