/* The packed method: sixteen nibbles in each 64-bit word, S by the circuit of the report on all of them at once, and several
   blocks side by side in loops that the compiler may turn into vectors. A word has the highest byte first. */
#include "ublock.h"

#include <string.h>

#ifndef PACKED
#define PACKED packed
#define PACKED_NAME "packed"
#endif

#define INLINE static inline __attribute__((always_inline))

/* how many blocks are side by side */
enum { NARROW = 4, WIDE = 2 };

/* Bit 0, 1, 2 or 3 of every nibble. */
#define BIT0 0x1111111111111111
#define BIT1 0x2222222222222222
#define BIT2 0x4444444444444444
#define BIT3 0x8888888888888888

INLINE uint64_t substituted(uint64_t w)
{
    w ^= ~(w >> 2 & w >> 3) & BIT0;
    w ^= (w << 2 | w << 1) & BIT3;
    w ^= ~(w << 2 & w << 1) & BIT2;
    w ^= (w << 1 | w >> 2) & BIT1;
    return w;
}

INLINE uint64_t unsubstituted(uint64_t w)
{
    w ^= (w << 1 | w >> 2) & BIT1;
    w ^= ~(w << 2 & w << 1) & BIT2;
    w ^= (w << 2 | w << 1) & BIT3;
    w ^= ~(w >> 2 & w >> 3) & BIT0;
    return w;
}

/* Both 32-bit pieces of a word rotated left. */
INLINE uint64_t rotated(uint64_t w, unsigned b)
{
    const uint64_t low = ((uint64_t)1 << b) - 1;
    return (w << b & ~(low << 32 | low)) | (w >> (32 - b) & (low << 32 | low));
}

#define PIECE uint64_t
#include "mixing.h"

/* The byte permutations, over one word or two. Bytes that move by as much move together. */

INLINE uint64_t PL128(uint64_t x)
{
    return (x & 0xff00000000000000) >> 32
        | (x & 0x0000ff0000000000) >> 24
        | (x & 0x0000000000ff0000) >> 16
        | (x & 0x00ff0000000000ff) << 8
        | (x & 0x000000ffff000000) << 16
        | (x & 0x000000000000ff00) << 24;
}

INLINE uint64_t PR128(uint64_t x)
{
    return (x & 0x000000ff00000000) >> 32
        | (x & 0xffff000000000000) >> 24
        | (x & 0x00000000ff000000) >> 16
        | (x & 0x000000000000ff00) << 8
        | (x & 0x0000ff0000000000) << 16
        | (x & 0x0000000000ff0000) << 24
        | (x & 0x00000000000000ff) << 48;
}

INLINE uint64_t PL128_INVERSE(uint64_t x)
{
    return (x & 0x000000ff00000000) >> 24
        | (x & 0x00ffff0000000000) >> 16
        | (x & 0xff0000000000ff00) >> 8
        | (x & 0x00000000000000ff) << 16
        | (x & 0x0000000000ff0000) << 24
        | (x & 0x00000000ff000000) << 32;
}

INLINE uint64_t PR128_INVERSE(uint64_t x)
{
    return (x & 0x00ff000000000000) >> 48
        | (x & 0x0000ff0000000000) >> 24
        | (x & 0xff00000000000000) >> 16
        | (x & 0x0000000000ff0000) >> 8
        | (x & 0x000000000000ff00) << 16
        | (x & 0x000000ffff000000) << 24
        | (x & 0x00000000000000ff) << 32;
}

INLINE uint64_t PL256_0(uint64_t x, uint64_t y)
{
    return (x & 0x000000ff00000000) >> 8
        | (x & 0x000000000000ff00) << 8
        | (x & 0x0000ff0000000000) << 16
        | (x & 0x00000000000000ff) << 48
        | (y & 0x00ff000000000000) >> 40
        | (y & 0x00000000ff000000) >> 24
        | (y & 0xff00000000000000) >> 16
        | (y & 0x0000000000ff0000) << 16;
}

INLINE uint64_t PL256_1(uint64_t x, uint64_t y)
{
    return (x & 0xff00000000000000) >> 56
        | (x & 0x0000000000ff0000) >> 8
        | (x & 0x00ff000000000000) << 8
        | (x & 0x00000000ff000000) << 24
        | (y & 0x000000ff00000000) >> 16
        | (y & 0x0000ff0000000000) >> 8
        | (y & 0x000000000000ff00) << 16
        | (y & 0x00000000000000ff) << 40;
}

INLINE uint64_t PR256_0(uint64_t x, uint64_t y)
{
    return (x & 0x0000ff0000000000) >> 32
        | (x & 0x00ff0000ff000000) >> 8
        | (x & 0x000000000000ff00) << 48
        | (y & 0x00ff000000000000) >> 24
        | (y & 0x00000000000000ff)
        | (y & 0x00000000ff000000) << 8
        | (y & 0x000000ff00000000) << 16;
}

INLINE uint64_t PR256_1(uint64_t x, uint64_t y)
{
    return (x & 0x000000ff00ff0000) >> 16
        | (x & 0xff00000000000000) >> 8
        | (x & 0x00000000000000ff) << 56
        | (y & 0xff00000000000000) >> 48
        | (y & 0x0000ff0000000000) >> 8
        | (y & 0x000000000000ff00) << 16
        | (y & 0x0000000000ff0000) << 24;
}

INLINE uint64_t PL256_INVERSE_0(uint64_t x, uint64_t y)
{
    return (x & 0x00ff000000000000) >> 48
        | (x & 0xff00000000000000) >> 16
        | (x & 0x0000000000ff0000) >> 8
        | (x & 0x00000000ff000000) << 8
        | (y & 0x00ff000000000000) >> 24
        | (y & 0xff00000000000000) >> 8
        | (y & 0x000000000000ff00) << 8
        | (y & 0x00000000000000ff) << 56;
}

INLINE uint64_t PL256_INVERSE_1(uint64_t x, uint64_t y)
{
    return (x & 0x000000ff00000000) >> 16
        | (x & 0x0000ff0000000000) << 16
        | (x & 0x00000000000000ff) << 24
        | (x & 0x000000000000ff00) << 40
        | (y & 0x0000ff0000000000) >> 40
        | (y & 0x00000000ff000000) >> 16
        | (y & 0x000000ff00000000) << 8
        | (y & 0x0000000000ff0000) << 16;
}

INLINE uint64_t PR256_INVERSE_0(uint64_t x, uint64_t y)
{
    return (x & 0xff00000000000000) >> 48
        | (x & 0x0000ff0000ff0000) << 8
        | (x & 0x000000000000ff00) << 32
        | (y & 0xff00000000000000) >> 56
        | (y & 0x00ff000000000000) << 8
        | (y & 0x0000000000ff00ff) << 16;
}

INLINE uint64_t PR256_INVERSE_1(uint64_t x, uint64_t y)
{
    return (x & 0x00ff000000000000) >> 16
        | (x & 0x000000ff00000000) >> 8
        | (x & 0x00000000000000ff)
        | (x & 0x00000000ff000000) << 24
        | (y & 0x0000ff0000000000) >> 24
        | (y & 0x00000000ff000000) >> 16
        | (y & 0x000000ff00000000) << 8
        | (y & 0x000000000000ff00) << 48;
}

INLINE uint64_t load(const uint8_t *p)
{
    uint64_t w = 0;
    for (size_t i = 0; i < 8; i++)
        w = w << 8 | p[i];
    return w;
}

INLINE void store(uint8_t *p, uint64_t w)
{
    for (size_t i = 0; i < 8; i++)
        p[i] = (uint8_t)(w >> (56 - 8 * i));
}

/* Blocks of 16 bytes side by side: word i of each row is of block i. */
struct narrow {
    uint64_t left[NARROW], right[NARROW];
};

INLINE void load_narrow(struct narrow *x, const uint8_t *from, size_t blocks)
{
    for (size_t i = 0; i < NARROW; i++) {
        x->left[i] = i < blocks ? load(from + 16 * i) : 0;
        x->right[i] = i < blocks ? load(from + 16 * i + 8) : 0;
    }
}

INLINE void store_narrow(const struct narrow *x, uint8_t *to, size_t blocks)
{
    for (size_t i = 0; i < NARROW && i < blocks; i++) {
        store(to + 16 * i, x->left[i]);
        store(to + 16 * i + 8, x->right[i]);
    }
}

INLINE void encipher_narrow(const struct ublock *e, uint8_t *to, const uint8_t *from, size_t blocks)
{
    struct narrow x;
    load_narrow(&x, from, blocks);
    const uint64_t *key = e->words[0];
    for (unsigned n = 0; n < e->rounds; n++) {
        key = e->words[n];
        const uint64_t kl = key[0], kr = key[1];
        for (size_t i = 0; i < NARROW; i++) {
            uint64_t l = substituted(x.left[i] ^ kl), r = substituted(x.right[i] ^ kr);
            mix(&l, &r);
            x.left[i] = PL128(l);
            x.right[i] = PR128(r);
        }
    }
    key = e->words[e->rounds];
    for (size_t i = 0; i < NARROW; i++) {
        x.left[i] ^= key[0];
        x.right[i] ^= key[1];
    }
    store_narrow(&x, to, blocks);
}

INLINE void decipher_narrow(const struct ublock *e, uint8_t *to, const uint8_t *from, size_t blocks)
{
    struct narrow x;
    load_narrow(&x, from, blocks);
    const uint64_t *key = e->words[e->rounds];
    for (size_t i = 0; i < NARROW; i++) {
        x.left[i] ^= key[0];
        x.right[i] ^= key[1];
    }
    for (unsigned n = e->rounds; n-- > 0;) {
        key = e->words[n];
        const uint64_t kl = key[0], kr = key[1];
        for (size_t i = 0; i < NARROW; i++) {
            uint64_t l = PL128_INVERSE(x.left[i]), r = PR128_INVERSE(x.right[i]);
            unmix(&l, &r);
            x.left[i] = unsubstituted(l) ^ kl;
            x.right[i] = unsubstituted(r) ^ kr;
        }
    }
    store_narrow(&x, to, blocks);
}

/* Blocks of 32 bytes side by side: word i of each row is of block i, and a half has two rows. */
struct wide {
    uint64_t left0[WIDE], left1[WIDE], right0[WIDE], right1[WIDE];
};

INLINE void load_wide(struct wide *x, const uint8_t *from, size_t blocks)
{
    for (size_t i = 0; i < WIDE; i++) {
        x->left0[i] = i < blocks ? load(from + 32 * i) : 0;
        x->left1[i] = i < blocks ? load(from + 32 * i + 8) : 0;
        x->right0[i] = i < blocks ? load(from + 32 * i + 16) : 0;
        x->right1[i] = i < blocks ? load(from + 32 * i + 24) : 0;
    }
}

INLINE void store_wide(const struct wide *x, uint8_t *to, size_t blocks)
{
    for (size_t i = 0; i < WIDE && i < blocks; i++) {
        store(to + 32 * i, x->left0[i]);
        store(to + 32 * i + 8, x->left1[i]);
        store(to + 32 * i + 16, x->right0[i]);
        store(to + 32 * i + 24, x->right1[i]);
    }
}

INLINE void add_wide(struct wide *x, const uint64_t *key)
{
    for (size_t i = 0; i < WIDE; i++) {
        x->left0[i] ^= key[0];
        x->left1[i] ^= key[1];
        x->right0[i] ^= key[2];
        x->right1[i] ^= key[3];
    }
}

INLINE void encipher_wide(const struct ublock *e, uint8_t *to, const uint8_t *from, size_t blocks)
{
    struct wide x;
    load_wide(&x, from, blocks);
    for (unsigned n = 0; n < e->rounds; n++) {
        const uint64_t k0 = e->words[n][0], k1 = e->words[n][1], k2 = e->words[n][2], k3 = e->words[n][3];
        for (size_t i = 0; i < WIDE; i++) {
            uint64_t l0 = substituted(x.left0[i] ^ k0), l1 = substituted(x.left1[i] ^ k1);
            uint64_t r0 = substituted(x.right0[i] ^ k2), r1 = substituted(x.right1[i] ^ k3);
            mix(&l0, &r0);
            mix(&l1, &r1);
            x.left0[i] = PL256_0(l0, l1);
            x.left1[i] = PL256_1(l0, l1);
            x.right0[i] = PR256_0(r0, r1);
            x.right1[i] = PR256_1(r0, r1);
        }
    }
    add_wide(&x, e->words[e->rounds]);
    store_wide(&x, to, blocks);
}

INLINE void decipher_wide(const struct ublock *e, uint8_t *to, const uint8_t *from, size_t blocks)
{
    struct wide x;
    load_wide(&x, from, blocks);
    add_wide(&x, e->words[e->rounds]);
    for (unsigned n = e->rounds; n-- > 0;) {
        const uint64_t k0 = e->words[n][0], k1 = e->words[n][1], k2 = e->words[n][2], k3 = e->words[n][3];
        for (size_t i = 0; i < WIDE; i++) {
            uint64_t l0 = PL256_INVERSE_0(x.left0[i], x.left1[i]), l1 = PL256_INVERSE_1(x.left0[i], x.left1[i]);
            uint64_t r0 = PR256_INVERSE_0(x.right0[i], x.right1[i]), r1 = PR256_INVERSE_1(x.right0[i], x.right1[i]);
            unmix(&l0, &r0);
            unmix(&l1, &r1);
            x.left0[i] = unsubstituted(l0) ^ k0;
            x.left1[i] = unsubstituted(l1) ^ k1;
            x.right0[i] = unsubstituted(r0) ^ k2;
            x.right1[i] = unsubstituted(r1) ^ k3;
        }
    }
    store_wide(&x, to, blocks);
}

/* Full groups of blocks of `block` bytes, then what is left. */
INLINE void in_groups(void (*group)(const struct ublock *, uint8_t *, const uint8_t *, size_t), size_t size, size_t block,
    const struct ublock *e, uint8_t *to, const uint8_t *from, size_t blocks)
{
    for (; blocks >= size; blocks -= size, to += block * size, from += block * size)
        group(e, to, from, size);
    if (blocks)
        group(e, to, from, blocks);
}

static void encipher(const struct ublock *e, uint8_t *to, const uint8_t *from, size_t blocks)
{
    if (e->block == 16)
        in_groups(encipher_narrow, NARROW, 16, e, to, from, blocks);
    else
        in_groups(encipher_wide, WIDE, 32, e, to, from, blocks);
}

static void decipher(const struct ublock *e, uint8_t *to, const uint8_t *from, size_t blocks)
{
    if (e->block == 16)
        in_groups(decipher_narrow, NARROW, 16, e, to, from, blocks);
    else
        in_groups(decipher_wide, WIDE, 32, e, to, from, blocks);
}

static int fill(struct ublock *e, unsigned variant, const uint8_t *key, size_t key_len)
{
    const int refused = fill_bytes(e, variant, key, key_len);
    if (refused)
        return refused;
    for (unsigned n = 0; n <= e->rounds; n++)
        for (size_t i = 0; i < e->block / 8; i++)
            e->words[n][i] = load(e->keys[n] + 8 * i);
    return DONE;
}

const struct method PACKED = { PACKED_NAME, true, fill, encipher, decipher };
