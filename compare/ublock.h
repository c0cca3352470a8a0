/* uBlock in C11, written from its published design report. It shares nothing with the Rattle code of this repository. */
#ifndef UBLOCK_H
#define UBLOCK_H

#include <stdbool.h>
#include <stddef.h>
#include <stdint.h>

enum { MOST_ROUNDS = 24, MOST_BLOCK = 32 };

/* How a call ends: 0 done, else why it was refused. */
enum ublock_number { DONE = 0, NO_VARIANT = 1, KEY_LENGTH = 2, START_LENGTH = 3, RUN_LENGTH = 4,
    READING_LENGTH = 5, PAGE_LENGTH = 6, FULL = 7, OUT_OF_RANGE = 8 };

/* A filled engine: the round keys as bytes, and for the packed method also as words, the highest byte first. */
struct ublock {
    size_t block;    /* bytes of a block */
    unsigned rounds;
    uint8_t keys[MOST_ROUNDS + 1][MOST_BLOCK];
    uint64_t words[MOST_ROUNDS + 1][MOST_BLOCK / 8];
};

/* A way to work: fills an engine, and puts any number of blocks through it. `to` and `from` may be the same. */
struct method {
    const char *name;
    bool packed;
    int (*fill)(struct ublock *engine, unsigned variant, const uint8_t *key, size_t key_len);
    void (*encipher)(const struct ublock *engine, uint8_t *to, const uint8_t *from, size_t blocks);
    void (*decipher)(const struct ublock *engine, uint8_t *to, const uint8_t *from, size_t blocks);
};

/* The most blocks that one run of an engine takes: one, or as many as fill 64 bytes. */
size_t lanes(const struct method *method, size_t block);

/* Fills with round keys as bytes; refuses with NO_VARIANT, then KEY_LENGTH. */
int fill_bytes(struct ublock *engine, unsigned variant, const uint8_t *key, size_t key_len);

/* Enciphers or deciphers a run of an engine; refuses as an engine does. */
int run_blocks(const struct method *method, unsigned variant, bool decipher, const uint8_t *key, size_t key_len,
    uint8_t *run, size_t len);

/* A page: what fixes its bytes, and how it is worked on. */
struct setup {
    const struct method *method;
    unsigned variant;
    bool cbc;
    const uint8_t *key;
    size_t key_len;
    const uint8_t *start;
    size_t start_len;
};

int seal_page(const struct setup *setup, const uint8_t *readings, size_t readings_len, uint8_t *page, size_t page_len);
int open_page(const struct setup *setup, const uint8_t *page, size_t page_len, size_t n, uint8_t *place, size_t place_len);

#endif
