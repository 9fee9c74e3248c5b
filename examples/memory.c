/* memcpy, memmove, memset and memcmp, for programs without a C library. gcc and clang call them by themselves, as for
   a large struct. Memory is moved in words where both places are multiples of 4. */

#include <stddef.h>
#include <stdint.h>

/* gcc would make calls of memcpy and memset out of the loops below. */
#ifndef __clang__
#pragma GCC optimize("no-tree-loop-distribute-patterns")
#endif

typedef uint32_t __attribute__((may_alias)) word;

static int are_aligned(const void *first, const void *second)
{
    return ((uintptr_t)first | (uintptr_t)second) % sizeof(word) == 0;
}

void *memcpy(void *restrict to, const void *restrict from, size_t size)
{
    unsigned char *target = to;
    const unsigned char *source = from;
    if (are_aligned(to, from))
        for (; size >= sizeof(word); size -= sizeof(word)) {
            *(word *)target = *(const word *)source;
            target += sizeof(word);
            source += sizeof(word);
        }
    while (size--)
        *target++ = *source++;
    return to;
}

/* The places may overlap: where the target lies above the source, the last bytes are moved first. */
void *memmove(void *to, const void *from, size_t size)
{
    unsigned char *target = to;
    const unsigned char *source = from;
    if ((uintptr_t)to - (uintptr_t)from >= size) {
        while (size--)
            *target++ = *source++;
        return to;
    }
    if (are_aligned(target + size, source + size))
        for (; size >= sizeof(word); size -= sizeof(word))
            *(word *)(target + size - sizeof(word)) = *(const word *)(source + size - sizeof(word));
    while (size--)
        target[size] = source[size];
    return to;
}

void *memset(void *to, int byte, size_t size)
{
    unsigned char *target = to;
    if (are_aligned(to, to))
        for (; size >= sizeof(word); size -= sizeof(word)) {
            *(word *)target = (unsigned char)byte * 0x01010101u;
            target += sizeof(word);
        }
    while (size--)
        *target++ = (unsigned char)byte;
    return to;
}

int memcmp(const void *first, const void *second, size_t size)
{
    const unsigned char *left = first, *right = second;
    for (; size; size--, left++, right++)
        if (*left != *right)
            return *left - *right;
    return 0;
}
