/* What is compared: a call with all its inputs, drawn at random or chosen. */
#ifndef CASE_H
#define CASE_H

#include "random.h"
#include "ublock.h"

enum { MOST_KEY = 48, MOST_RUN = 400, MOST_PAGE = 2048 * MOST_BLOCK };

extern const struct method table, packed;

/* A run of an engine. */
struct run_case {
    unsigned variant;
    bool packed, decipher;
    size_t key_len, len;
    uint8_t key[MOST_KEY], run[MOST_RUN];
};

/* A row of readings sealed into a page, and n readings opened into a place. */
struct page_case {
    unsigned variant;
    bool packed, cbc;
    size_t key_len, start_len, readings_len, page_len, n, place_len;
    uint8_t key[MOST_KEY], start[MOST_KEY], readings[MOST_PAGE];
};

static inline size_t block_len(unsigned variant)
{
    return variant == 3 ? 32 : 16;
}

static inline size_t key_len(unsigned variant)
{
    return variant == 1 ? 16 : 32;
}

static inline const struct method *method_of(bool is_packed)
{
    return is_packed ? &packed : &table;
}

/* Keys of zeros, of ones, of one bit that is set, or random. */
void draw_key(struct random *r, uint8_t *key, size_t len);

/* Mostly a call that is accepted; one in some has a variant, a key or a length that is refused. */
void draw_run(struct random *r, struct run_case *c);
void draw_page(struct random *r, struct page_case *c);

struct setup setup_of(const struct page_case *c, const struct method *method);

#endif
