/* memcpy and memset, by words where the addresses allow it. */
#include <stdint.h>
#include <string.h>

typedef uint64_t __attribute__((may_alias)) word;
typedef uint32_t __attribute__((may_alias)) half;
enum { WORD = sizeof(word), HALF = sizeof(half) };

/* whether both addresses reach a multiple of size together */
static int alike(const void *a, const void *b, uintptr_t size)
{
    return ((uintptr_t)a ^ (uintptr_t)b) % size == 0;
}

void *memcpy(void *restrict to, const void *restrict from, size_t length)
{
    unsigned char *target = to;
    const unsigned char *source = from;
    if (alike(target, source, HALF))
        for (; length > 0 && (uintptr_t)target % HALF != 0; length--)
            *target++ = *source++;
    if (alike(target, source, WORD) && (uintptr_t)target % WORD != 0 && length >= HALF) {
        *(half *)target = *(const half *)source;
        target += HALF, source += HALF, length -= HALF;
    }
    if (alike(target, source, WORD))
        for (; length >= WORD; length -= WORD, target += WORD, source += WORD)
            *(word *)target = *(const word *)source;
    else if (alike(target, source, HALF))
        for (; length >= HALF; length -= HALF, target += HALF, source += HALF)
            *(half *)target = *(const half *)source;
    while (length-- > 0)
        *target++ = *source++;
    return to;
}

void *memset(void *to, int byte, size_t length)
{
    unsigned char *target = to;
    for (; length > 0 && (uintptr_t)target % WORD != 0; length--)
        *target++ = (unsigned char)byte;
    for (; length >= WORD; length -= WORD, target += WORD)
        *(word *)target = (unsigned char)byte * (UINT64_MAX / UINT8_MAX);
    while (length-- > 0)
        *target++ = (unsigned char)byte;
    return to;
}
