/* What the Rattle library exports for C (crates/weddrul_c). Each call answers 0, or the number of a refusal. */
#ifndef WEDDRUL_H
#define WEDDRUL_H

#include <stdbool.h>
#include <stddef.h>
#include <stdint.h>

/* Enciphers or deciphers one run of the engine, at most as many blocks as it has lanes. */
uint32_t weddrul_run(uint32_t variant, bool packed, bool decipher, const uint8_t *key, size_t key_len, uint8_t *run, size_t run_len);

/* The same of a row of any number of blocks, in runs of as many as the engine has lanes. */
uint32_t weddrul_row(uint32_t variant, bool packed, bool decipher, const uint8_t *key, size_t key_len, uint8_t *row, size_t row_len);

/* Seals readings into a page, in CBC or else in ECB, and zeroes the rest. */
uint32_t weddrul_seal(uint32_t variant, bool packed, bool cbc, const uint8_t *key, size_t key_len,
    const uint8_t *start, size_t start_len, const uint8_t *readings, size_t readings_len, uint8_t *page, size_t page_len);

/* Opens the n readings of a page into a place of as many bytes. */
uint32_t weddrul_open(uint32_t variant, bool packed, bool cbc, const uint8_t *key, size_t key_len,
    const uint8_t *start, size_t start_len, const uint8_t *page, size_t page_len, size_t n, uint8_t *place, size_t place_len);

#endif
