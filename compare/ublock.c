/* The key schedule, and what the variants differ in. Table names are those of the report. */
#include "ublock.h"

#include <string.h>

static const uint8_t S[16] = { 0x7, 0x4, 0x9, 0xc, 0xb, 0xa, 0xd, 0x8, 0xf, 0xe, 0x1, 0x6, 0x0, 0x3, 0x2, 0x5 };

static const uint8_t PK1[16] = { 6, 0, 8, 13, 1, 15, 5, 10, 4, 9, 12, 2, 11, 3, 7, 14 };

static const uint8_t PK2[32] = { 10, 5, 15, 0, 2, 7, 8, 13, 14, 6, 4, 12, 1, 3, 11, 9,
    24, 25, 26, 27, 28, 29, 30, 31, 16, 17, 18, 19, 20, 21, 22, 23 };

static const uint8_t PK3[32] = { 10, 5, 15, 0, 2, 7, 8, 13, 1, 14, 4, 12, 9, 11, 3, 6,
    24, 25, 26, 27, 28, 29, 30, 31, 16, 17, 18, 19, 20, 21, 22, 23 };

static const uint32_t RC[MOST_ROUNDS] = { 0x988cc9dd, 0xf0e4a1b5, 0x21357064, 0x8397d2c6, 0xc7d39682, 0x4f5b1e0a,
    0x5e4a0f1b, 0x7c682d39, 0x392d687c, 0xb3a7e2f6, 0xa7b3f6e2, 0x8e9adfcb, 0xdcc88d99, 0x786c293d, 0x30246175,
    0xa1b5f0e4, 0x8296d3c7, 0xc5d19480, 0x4a5e1b0f, 0x55410410, 0x6b7f3a2e, 0x17034652, 0xeffbbeaa, 0x1f0b4e5a };

static const struct {
    size_t block, key;
    unsigned rounds;
    const uint8_t *PK;
} VARIANTS[3] = { { 16, 16, 16, PK1 }, { 16, 32, 24, PK2 }, { 32, 32, 24, PK3 } };

static uint8_t nibble(const uint8_t *row, size_t i)
{
    return i % 2 ? row[i / 2] & 15 : row[i / 2] >> 4;
}

/* twice a nibble in GF(16), modulo x^4 + x + 1 */
static uint8_t twice(uint8_t x)
{
    return (uint8_t)((x << 1 & 15) ^ (x >> 3) * 3);
}

/* K0 || K1 by PK; K2 takes S of K0 and the constant, K3 takes K1 doubled; then K2 || K3 || K1 || K0. */
static void key_step(uint8_t *k, size_t quarter, const uint8_t *PK, uint32_t constant)
{
    uint8_t front[16], next[32];
    for (size_t i = 0; i < 2 * quarter; i++)
        front[i] = (uint8_t)(nibble(k, PK[2 * i]) << 4 | nibble(k, PK[2 * i + 1]));
    for (size_t i = 0; i < quarter; i++) {
        const uint8_t k0 = front[i], k1 = front[quarter + i];
        const uint8_t x = k0 ^ (uint8_t)(i < 4 ? constant >> (24 - 8 * i) : 0);
        next[i] = k[2 * quarter + i] ^ (uint8_t)(S[x >> 4] << 4 | S[x & 15]);
        next[quarter + i] = k[3 * quarter + i] ^ (uint8_t)(twice(k1 >> 4) << 4 | twice(k1 & 15));
        next[2 * quarter + i] = k1;
        next[3 * quarter + i] = k0;
    }
    memcpy(k, next, 4 * quarter);
}

int fill_bytes(struct ublock *engine, unsigned variant, const uint8_t *key, size_t key_len)
{
    if (variant < 1 || variant > 3)
        return NO_VARIANT;
    const size_t bytes = VARIANTS[variant - 1].key;
    if (key_len != bytes)
        return KEY_LENGTH;
    engine->block = VARIANTS[variant - 1].block;
    engine->rounds = VARIANTS[variant - 1].rounds;
    uint8_t k[32];
    memcpy(k, key, bytes);
    memcpy(engine->keys[0], k, engine->block);
    for (unsigned i = 1; i <= engine->rounds; i++) {
        key_step(k, bytes / 4, VARIANTS[variant - 1].PK, RC[i - 1]);
        memcpy(engine->keys[i], k, engine->block);
    }
    return DONE;
}

size_t lanes(const struct method *method, size_t block)
{
    return method->packed ? 64 / block : 1;
}

int run_blocks(const struct method *method, unsigned variant, bool decipher, const uint8_t *key, size_t key_len,
    uint8_t *run, size_t len)
{
    struct ublock engine;
    const int refused = method->fill(&engine, variant, key, key_len);
    if (refused)
        return refused;
    if (len % engine.block != 0 || len / engine.block > lanes(method, engine.block))
        return RUN_LENGTH;
    (decipher ? method->decipher : method->encipher)(&engine, run, run, len / engine.block);
    return DONE;
}
