/* The guest calls of asc for C programs, and a few helpers on top of them. A call has its number in a7 and
   its arguments in a0 to a2, as in Linux for RISC-V, so the same programs run under qemu-riscv32.

   A program that people type to defines TYPED_INPUT before it includes this. A read waits until it has all the
   bytes that it asks for, so input is then read one byte a call, and what was put is written before each. */

#ifndef GUEST_H
#define GUEST_H

/* ---- Calls ---- */

enum { READ = 63, WRITE = 64, EXIT = 93, BREAK = 214 };

static inline int guest_call(int number, int first, int second, int third)
{
    register int a0 __asm__("a0") = first;
    register int a1 __asm__("a1") = second;
    register int a2 __asm__("a2") = third;
    register int a7 __asm__("a7") = number;
    __asm__ volatile("ecall" : "+r"(a0) : "r"(a1), "r"(a2), "r"(a7) : "memory");
    return a0;
}

/* Takes up to so many bytes of standard input. The answer is their number, 0 at the end, or negative. */
static inline int guest_read(void *buffer, unsigned size)
{
    return guest_call(READ, 0, (int)buffer, (int)size);
}

/* Writes bytes to standard output (file 1) or standard error (2). The answer is their number, or negative. */
static inline int guest_write(int file, const void *bytes, unsigned size)
{
    return guest_call(WRITE, file, (int)bytes, (int)size);
}

/* Ends the program with the low 8 bits of this status. */
static inline _Noreturn void guest_exit(int status)
{
    guest_call(EXIT, status, 0, 0);
    __builtin_unreachable();
}

/* ---- Memory ---- */

/* gcc and clang call these by themselves, as for a large struct. examples/memory.c has them, for programs without a
   C library. */
void *memcpy(void *to, const void *from, __SIZE_TYPE__ size);
void *memmove(void *to, const void *from, __SIZE_TYPE__ size);
void *memset(void *to, int byte, __SIZE_TYPE__ size);
int memcmp(const void *first, const void *second, __SIZE_TYPE__ size);

/* Memory that the program did not have before, or 0 where there is no more. Nothing is given back. */
static inline void *take_memory(unsigned size)
{
    unsigned begin = ((unsigned)guest_call(BREAK, 0, 0, 0) + 15) & ~15u;
    unsigned end = begin + size;
    if (end < begin || (unsigned)guest_call(BREAK, (int)end, 0, 0) != end)
        return 0;
    return (void *)begin;
}

/* ---- Output ---- */

static struct { char bytes[4096]; unsigned size; } guest_output;

/* Hands what was put so far to standard output. A program that puts something ends with it. */
static inline void flush(void)
{
    unsigned done = 0;
    while (done < guest_output.size) {
        int wrote = guest_write(1, guest_output.bytes + done, guest_output.size - done);
        if (wrote <= 0)
            guest_exit(1);
        done += (unsigned)wrote;
    }
    guest_output.size = 0;
}

static inline void put_byte(char byte)
{
    if (guest_output.size == sizeof guest_output.bytes)
        flush();
    guest_output.bytes[guest_output.size++] = byte;
}

static inline void put_text(const char *text)
{
    while (*text)
        put_byte(*text++);
}

static inline void put_unsigned(unsigned number)
{
    char digits[10];
    int count = 0;
    do
        digits[count++] = (char)('0' + number % 10);
    while (number /= 10);
    while (count)
        put_byte(digits[--count]);
}

static inline void put_number(int number)
{
    if (number < 0)
        put_byte('-');
    put_unsigned(number < 0 ? 0u - (unsigned)number : (unsigned)number);
}

/* Writes a line to standard error, and ends the program with status 2. */
static inline _Noreturn void give_up(const char *line)
{
    unsigned size = 0;
    while (line[size])
        size++;
    guest_write(2, line, size);
    guest_exit(2);
}

/* ---- Input ---- */

#ifdef TYPED_INPUT
enum { INPUT_PIECE = 1 };
#else
enum { INPUT_PIECE = 4096 };
#endif

static struct { unsigned char bytes[INPUT_PIECE]; int size, next; } guest_input;

/* The next byte of standard input, or -1 at its end. */
static inline int get_byte(void)
{
    if (guest_input.next == guest_input.size) {
#ifdef TYPED_INPUT
        flush();
#endif
        guest_input.next = 0;
        guest_input.size = guest_read(guest_input.bytes, sizeof guest_input.bytes);
        if (guest_input.size <= 0) {
            guest_input.size = 0;
            return -1;
        }
    }
    return guest_input.bytes[guest_input.next++];
}

static inline int is_space(int byte)
{
    return byte == ' ' || (byte >= '\t' && byte <= '\r');
}

/* Reads a decimal number behind any space: 1 and the number, 0 at the end of input, -1 where there is no
   number. */
static inline int get_number(int *number)
{
    int byte = get_byte(), negative, digits = 0;
    unsigned long long size = 0;
    while (is_space(byte))
        byte = get_byte();
    if (byte < 0)
        return 0;
    negative = byte == '-';
    if (negative)
        byte = get_byte();
    for (; byte >= '0' && byte <= '9' && digits < 11; digits++, byte = get_byte())
        size = 10 * size + (unsigned)(byte - '0');
    if (digits == 0 || size > 2147483647ull + negative || !(byte < 0 || is_space(byte)))
        return -1;
    *number = (int)(negative ? 0u - (unsigned)size : (unsigned)size);
    return 1;
}

#endif
