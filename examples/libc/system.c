/* What picolibc asks of the system that it runs on: the standard streams over the guest calls read and write, memory
   over brk, and the end of the program. Linked beside a program, it gives it stdio and malloc. Other files are not
   there, nor a clock: the linker names what is missing. */

#include <errno.h>
#include <stddef.h>
#include <stdio-bufio.h>
#include <unistd.h>
#include "../guest.h"

/* The answer of a guest call as C has it: a negative one is the error's number. */
static int answer_of(int result)
{
    if (result >= 0)
        return result;
    errno = -result;
    return -1;
}

ssize_t read(int file, void *buffer, size_t size)
{
    return answer_of(guest_call(READ, file, (int)buffer, (int)size));
}

ssize_t write(int file, const void *bytes, size_t size)
{
    return answer_of(guest_write(file, bytes, size));
}

/* Moves the end of the program's memory, and answers where it stood. */
void *sbrk(ptrdiff_t size)
{
    unsigned end = (unsigned)guest_call(BREAK, 0, 0, 0), moved = end + (unsigned)size;
    if (moved != end && (unsigned)guest_call(BREAK, (int)moved, 0, 0) != moved) {
        errno = ENOMEM;
        return (void *)-1;
    }
    return (void *)end;
}

void _exit(int status)
{
    guest_exit(status);
}

/* abort raises SIGABRT, and ends with status 134 where the program does not catch it. */
pid_t getpid(void)
{
    return 1;
}

int kill(pid_t process, int signal)
{
    (void)process;
    guest_exit(128 + signal);
}

/* Output is kept until there are so many bytes, or fflush, or input is asked for, or exit. Standard error is written
   at each line end. */
static char kept_input[4096], kept_output[4096], kept_errors[256];

static struct __file_bufio input =
    FDEV_SETUP_BUFIO(0, kept_input, sizeof kept_input, read, 0, 0, 0, __SRD, 0);
static struct __file_bufio output =
    FDEV_SETUP_BUFIO(1, kept_output, sizeof kept_output, 0, write, 0, 0, __SWR, 0);
static struct __file_bufio errors =
    FDEV_SETUP_BUFIO(2, kept_errors, sizeof kept_errors, 0, write, 0, 0, __SWR, __BLBF);

FILE *const stdin = &input.xfile.cfile.file;
FILE *const stdout = &output.xfile.cfile.file;
FILE *const stderr = &errors.xfile.cfile.file;

/* exit calls this last. */
__attribute__((destructor)) static void write_what_is_kept(void)
{
    fflush(stdout);
    fflush(stderr);
}
