/* memset and memcpy for both sides, so that the counts do not hang on the C library's choice for one processor: 16-byte stores. once.c, which has no C library, uses them too. */
#include <emmintrin.h>
#include <stddef.h>
#include <stdint.h>

void *memset(void *to, int byte, size_t n) {
    uint8_t *p = to;
    const __m128i v = _mm_set1_epi8((char)byte);
    for (uint8_t *end = p + (n & ~(size_t)63); p != end; p += 64) {
        _mm_storeu_si128((__m128i *)p, v);
        _mm_storeu_si128((__m128i *)(p + 16), v);
        _mm_storeu_si128((__m128i *)(p + 32), v);
        _mm_storeu_si128((__m128i *)(p + 48), v);
    }
    for (n &= 63; n >= 16; n -= 16, p += 16)
        _mm_storeu_si128((__m128i *)p, v);
    for (; n; --n)
        *p++ = (uint8_t)byte;
    return to;
}

void *memcpy(void *restrict to, const void *restrict from, size_t n) {
    uint8_t *p = to;
    const uint8_t *q = from;
    for (uint8_t *end = p + (n & ~(size_t)15); p != end; p += 16, q += 16)
        _mm_storeu_si128((__m128i *)p, _mm_loadu_si128((const __m128i *)q));
    for (n &= 15; n; --n)
        *p++ = *q++;
    return to;
}
