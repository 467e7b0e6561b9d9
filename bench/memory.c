/* Plain memset and memcpy, linked in under an emulator only: the C library's own use wide registers there, which an
   emulator does very slowly, and the side that clears more memory would pay for it. Both sides use these. */
#include <stddef.h>
#include <stdint.h>

typedef uint64_t __attribute__((may_alias, aligned(1))) word;

void *memset(void *to, int byte, size_t size)
{
    unsigned char *at = to;
    uint64_t filled = (unsigned char)byte * UINT64_C(0x0101010101010101);
    for (; size >= sizeof(word); size -= sizeof(word), at += sizeof(word))
        *(word *)at = filled;
    for (; size > 0; size--)
        *at++ = (unsigned char)byte;
    return to;
}

void *memcpy(void *restrict to, const void *restrict from, size_t size)
{
    unsigned char *at = to;
    const unsigned char *next = from;
    for (; size >= sizeof(word); size -= sizeof(word), at += sizeof(word), next += sizeof(word))
        *(word *)at = *(const word *)next;
    for (; size > 0; size--)
        *at++ = *next++;
    return to;
}
