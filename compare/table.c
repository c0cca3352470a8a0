/* The table method: a block as bytes, S by a table look-up, the mixing on 32-bit numbers.
   Built with NIBBLES it looks up each nibble by itself, else both nibbles of a byte at once. */
#include "ublock.h"

#include <string.h>

#ifndef TABLE
#define TABLE table
#define TABLE_NAME "table"
#endif

#define INLINE static inline __attribute__((always_inline))

#ifdef NIBBLES
static const uint8_t S[16] = { 0x7, 0x4, 0x9, 0xc, 0xb, 0xa, 0xd, 0x8, 0xf, 0xe, 0x1, 0x6, 0x0, 0x3, 0x2, 0x5 };
static const uint8_t S_INVERSE[16] = { 0xc, 0xa, 0xe, 0xd, 0x1, 0xf, 0xb, 0x0, 0x7, 0x2, 0x5, 0x4, 0x3, 0x6, 0x9, 0x8 };
#define LOOK(table, x) (uint8_t)((table)[(x) >> 4] << 4 | (table)[(x) & 15])
#else
#define ROW(h) h(0x7), h(0x4), h(0x9), h(0xc), h(0xb), h(0xa), h(0xd), h(0x8), \
    h(0xf), h(0xe), h(0x1), h(0x6), h(0x0), h(0x3), h(0x2), h(0x5)
#define INVERSE_ROW(h) h(0xc), h(0xa), h(0xe), h(0xd), h(0x1), h(0xf), h(0xb), h(0x0), \
    h(0x7), h(0x2), h(0x5), h(0x4), h(0x3), h(0x6), h(0x9), h(0x8)
#define AFTER(x, y) (x) << 4 | (y)
#define S_ROW(x) AFTER(x, 0x7), AFTER(x, 0x4), AFTER(x, 0x9), AFTER(x, 0xc), AFTER(x, 0xb), AFTER(x, 0xa), \
    AFTER(x, 0xd), AFTER(x, 0x8), AFTER(x, 0xf), AFTER(x, 0xe), AFTER(x, 0x1), AFTER(x, 0x6), AFTER(x, 0x0), \
    AFTER(x, 0x3), AFTER(x, 0x2), AFTER(x, 0x5)
#define S_INVERSE_ROW(x) AFTER(x, 0xc), AFTER(x, 0xa), AFTER(x, 0xe), AFTER(x, 0xd), AFTER(x, 0x1), AFTER(x, 0xf), \
    AFTER(x, 0xb), AFTER(x, 0x0), AFTER(x, 0x7), AFTER(x, 0x2), AFTER(x, 0x5), AFTER(x, 0x4), AFTER(x, 0x3), \
    AFTER(x, 0x6), AFTER(x, 0x9), AFTER(x, 0x8)
static const uint8_t S[256] = { ROW(S_ROW) };
static const uint8_t S_INVERSE[256] = { INVERSE_ROW(S_INVERSE_ROW) };
#define LOOK(table, x) (table)[x]
#endif

static const uint8_t PL128[8] = { 1, 3, 4, 6, 0, 2, 7, 5 };
static const uint8_t PR128[8] = { 2, 7, 5, 0, 1, 6, 4, 3 };
static const uint8_t PL256[16] = { 2, 7, 8, 13, 3, 6, 9, 12, 1, 4, 15, 10, 14, 11, 5, 0 };
static const uint8_t PR256[16] = { 6, 11, 1, 12, 9, 4, 2, 15, 7, 0, 13, 10, 14, 3, 8, 5 };

static const uint8_t PL128_INVERSE[8] = { 4, 0, 5, 1, 2, 7, 3, 6 };
static const uint8_t PR128_INVERSE[8] = { 3, 4, 0, 7, 6, 2, 5, 1 };
static const uint8_t PL256_INVERSE[16] = { 15, 8, 0, 4, 9, 14, 5, 1, 2, 6, 11, 13, 7, 3, 12, 10 };
static const uint8_t PR256_INVERSE[16] = { 9, 2, 6, 13, 5, 15, 0, 8, 14, 4, 11, 1, 3, 10, 12, 7 };

INLINE uint32_t rotated(uint32_t x, unsigned b)
{
    return x << b | x >> (32 - b);
}

#define PIECE uint32_t
#include "mixing.h"

INLINE uint32_t load(const uint8_t *p)
{
    return (uint32_t)p[0] << 24 | (uint32_t)p[1] << 16 | (uint32_t)p[2] << 8 | p[3];
}

INLINE void store(uint8_t *p, uint32_t x)
{
    p[0] = (uint8_t)(x >> 24);
    p[1] = (uint8_t)(x >> 16);
    p[2] = (uint8_t)(x >> 8);
    p[3] = (uint8_t)x;
}

/* A piece of each half, mixed or unmixed. */
INLINE void on_bytes(void (*mixing)(uint32_t *, uint32_t *), uint8_t *left, uint8_t *right)
{
    uint32_t x0 = load(left), x1 = load(right);
    mixing(&x0, &x1);
    store(left, x0);
    store(right, x1);
}

INLINE void encipher_round(uint8_t *x, const uint8_t *key, size_t half, const uint8_t *PL, const uint8_t *PR)
{
    uint8_t y[MOST_BLOCK];
    for (size_t i = 0; i < 2 * half; i++)
        y[i] = LOOK(S, x[i] ^ key[i]);
    for (size_t i = 0; i < half; i += 4)
        on_bytes(mix, y + i, y + half + i);
    for (size_t i = 0; i < half; i++) {
        x[i] = y[PL[i]];
        x[half + i] = y[half + PR[i]];
    }
}

INLINE void decipher_round(uint8_t *x, const uint8_t *key, size_t half, const uint8_t *PL, const uint8_t *PR)
{
    uint8_t y[MOST_BLOCK];
    for (size_t i = 0; i < half; i++) {
        y[i] = x[PL[i]];
        y[half + i] = x[half + PR[i]];
    }
    for (size_t i = 0; i < half; i += 4)
        on_bytes(unmix, y + i, y + half + i);
    for (size_t i = 0; i < 2 * half; i++)
        x[i] = LOOK(S_INVERSE, y[i]) ^ key[i];
}

INLINE void encipher_block(const struct ublock *e, uint8_t *to, const uint8_t *from, size_t half, const uint8_t *PL, const uint8_t *PR)
{
    uint8_t x[MOST_BLOCK];
    memcpy(x, from, 2 * half);
    for (unsigned i = 0; i < e->rounds; i++)
        encipher_round(x, e->keys[i], half, PL, PR);
    for (size_t i = 0; i < 2 * half; i++)
        to[i] = x[i] ^ e->keys[e->rounds][i];
}

INLINE void decipher_block(const struct ublock *e, uint8_t *to, const uint8_t *from, size_t half, const uint8_t *PL, const uint8_t *PR)
{
    uint8_t x[MOST_BLOCK];
    for (size_t i = 0; i < 2 * half; i++)
        x[i] = from[i] ^ e->keys[e->rounds][i];
    for (unsigned i = e->rounds; i-- > 0;)
        decipher_round(x, e->keys[i], half, PL, PR);
    memcpy(to, x, 2 * half);
}

static void encipher(const struct ublock *e, uint8_t *to, const uint8_t *from, size_t blocks)
{
    for (size_t i = 0; i < blocks; i++)
        if (e->block == 16)
            encipher_block(e, to + 16 * i, from + 16 * i, 8, PL128, PR128);
        else
            encipher_block(e, to + 32 * i, from + 32 * i, 16, PL256, PR256);
}

static void decipher(const struct ublock *e, uint8_t *to, const uint8_t *from, size_t blocks)
{
    for (size_t i = 0; i < blocks; i++)
        if (e->block == 16)
            decipher_block(e, to + 16 * i, from + 16 * i, 8, PL128_INVERSE, PR128_INVERSE);
        else
            decipher_block(e, to + 32 * i, from + 32 * i, 16, PL256_INVERSE, PR256_INVERSE);
}

const struct method TABLE = { TABLE_NAME, false, fill_bytes, encipher, decipher };
