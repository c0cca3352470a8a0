/* Compares the Rattle library with the C version, on the worked examples of the report, on chosen inputs and on random ones.
   Usage: compare EXAMPLES [SEED [CASES]]. A difference prints the inputs and ends with status 1. */
#include "case.h"
#include "compare.h"
#include "weddrul.h"

#include <inttypes.h>
#include <stdio.h>
#include <stdlib.h>
#include <string.h>

static unsigned long compared;

static void show(const char *name, const uint8_t *bytes, size_t len)
{
    printf("  %s, %zu bytes: ", name, len);
    for (size_t i = 0; i < len; i++)
        printf("%02x", bytes[i]);
    printf("\n");
}

static void fail_run(const char *what, const struct run_case *c)
{
    printf("DIFFERENT, %s: variant %u, %s engine, %s\n", what, c->variant, c->packed ? "packed" : "plain", c->decipher ? "deciphered" : "enciphered");
    show("key", c->key, c->key_len);
    show("run", c->run, c->len);
    exit(1);
}

static void fail_page(const char *what, const struct page_case *c)
{
    printf("DIFFERENT, %s: variant %u, %s engine, %s, page of %zu bytes, %zu readings opened into %zu bytes\n", what, c->variant,
        c->packed ? "packed" : "plain", c->cbc ? "CBC" : "ECB", c->page_len, c->n, c->place_len);
    show("key", c->key, c->key_len);
    show("start block", c->start, c->start_len);
    show("readings", c->readings, c->readings_len);
    exit(1);
}

/* Both sides on one run: one number, the same bytes, and C takes back what Rattle made. */
static void compare_run(const struct run_case *c)
{
    uint8_t of_c[MOST_RUN], of_rattle[MOST_RUN];
    memcpy(of_c, c->run, c->len);
    memcpy(of_rattle, c->run, c->len);
    const int number = run_blocks(method_of(c->packed), c->variant, c->decipher, c->key, c->key_len, of_c, c->len);
    const uint32_t answer = weddrul_run(c->variant, c->packed, c->decipher, c->key, c->key_len, of_rattle, c->len);
    compared++;
    if (answer != (uint32_t)number)
        fail_run("number of a run", c);
    if (memcmp(of_c, of_rattle, c->len) != 0)
        fail_run("bytes of a run", c);
    if (number != DONE) {
        if (memcmp(of_rattle, c->run, c->len) != 0)
            fail_run("a refused run changed", c);
        return;
    }
    run_blocks(method_of(c->packed), c->variant, !c->decipher, c->key, c->key_len, of_rattle, c->len);
    if (memcmp(of_rattle, c->run, c->len) != 0)
        fail_run("a run taken back", c);
}

/* The same bytes as a row of any number of blocks, by the other of the two methods of C. */
static void compare_row(const struct run_case *c)
{
    uint8_t of_c[MOST_RUN], of_rattle[MOST_RUN];
    memcpy(of_c, c->run, c->len);
    memcpy(of_rattle, c->run, c->len);
    const struct method *other = method_of(!c->packed);
    struct ublock e;
    int number = other->fill(&e, c->variant, c->key, c->key_len);
    if (number == DONE && c->len % e.block != 0)
        number = RUN_LENGTH;
    if (number == DONE)
        (c->decipher ? other->decipher : other->encipher)(&e, of_c, of_c, c->len / e.block);
    const uint32_t answer = weddrul_row(c->variant, c->packed, c->decipher, c->key, c->key_len, of_rattle, c->len);
    compared++;
    if (answer != (uint32_t)number)
        fail_run("number of a row", c);
    if (memcmp(of_c, of_rattle, c->len) != 0)
        fail_run("bytes of a row", c);
}

/* n readings of a page, opened by both sides into places that were alike. */
static void compare_open(const struct page_case *c, const uint8_t *page)
{
    static uint8_t of_c[MOST_PAGE], of_rattle[MOST_PAGE];
    memset(of_c, 0x5a, c->place_len);
    memset(of_rattle, 0x5a, c->place_len);
    const struct setup s = setup_of(c, method_of(c->packed));
    const int number = open_page(&s, page, c->page_len, c->n, of_c, c->place_len);
    const uint32_t answer = weddrul_open(c->variant, c->packed, c->cbc, c->key, c->key_len, c->start, c->start_len,
        page, c->page_len, c->n, of_rattle, c->place_len);
    compared++;
    if (answer != (uint32_t)number)
        fail_page("number of open", c);
    if (memcmp(of_c, of_rattle, c->place_len) != 0)
        fail_page("bytes of open", c);
    const size_t both = c->place_len < c->readings_len ? c->place_len : c->readings_len;
    if (number == DONE && memcmp(of_c, c->readings, both) != 0)
        fail_page("readings not given back", c);
}

/* A page sealed by both sides; each side's page is opened by both. */
static void compare_page(const struct page_case *c)
{
    static uint8_t of_c[MOST_PAGE], of_rattle[MOST_PAGE];
    memset(of_c, 0xa5, c->page_len);
    memset(of_rattle, 0xa5, c->page_len);
    const struct setup s = setup_of(c, method_of(c->packed));
    const int number = seal_page(&s, c->readings, c->readings_len, of_c, c->page_len);
    const uint32_t answer = weddrul_seal(c->variant, c->packed, c->cbc, c->key, c->key_len, c->start, c->start_len,
        c->readings, c->readings_len, of_rattle, c->page_len);
    compared++;
    if (answer != (uint32_t)number)
        fail_page("number of seal", c);
    if (memcmp(of_c, of_rattle, c->page_len) != 0)
        fail_page("bytes of seal", c);
    if (number == DONE)
        compare_open(c, of_rattle);
}

/* Runs of no block to one more than the lanes, under keys of zeros, of ones and of each single bit. */
static void chosen_runs(struct random *r, unsigned variant, bool is_packed)
{
    static struct run_case c;
    const size_t b = block_len(variant), most = lanes(method_of(is_packed), b);
    c.variant = variant;
    c.packed = is_packed;
    c.key_len = key_len(variant);
    for (size_t k = 0; k < 8 * c.key_len + 2; k++) {
        memset(c.key, k == 8 * c.key_len ? 0xff : 0, c.key_len);
        if (k < 8 * c.key_len)
            c.key[k / 8] = (uint8_t)(0x80 >> k % 8);
        for (size_t blocks = 0; blocks <= most + 1; blocks++) {
            c.len = blocks * b;
            c.decipher = blocks % 2;
            fill_random(r, c.run, c.len);
            compare_run(&c);
            c.decipher = !c.decipher;
            compare_run(&c);
            compare_row(&c);
        }
    }
}

/* Runs of every length in bytes up to two blocks more than the lanes. */
static void chosen_lengths(struct random *r, unsigned variant, bool is_packed)
{
    static struct run_case c;
    const size_t b = block_len(variant);
    c.variant = variant;
    c.packed = is_packed;
    c.key_len = key_len(variant);
    draw_key(r, c.key, c.key_len);
    for (c.len = 0; c.len <= b * (lanes(method_of(is_packed), b) + 2); c.len++) {
        fill_random(r, c.run, c.len);
        compare_run(&c);
        compare_row(&c);
    }
}

/* Pages of no block, of one, of about as many as there are lanes, and of the most that a page has. */
static void chosen_pages(struct random *r, unsigned variant, bool is_packed)
{
    static struct page_case c;
    const size_t b = block_len(variant), w = lanes(&packed, b);
    const size_t sizes[] = { 0, 1, w - 1, w, w + 1, 2047, 2048 };
    c.variant = variant;
    c.packed = is_packed;
    c.key_len = key_len(variant);
    c.start_len = b;
    for (size_t i = 0; i < 2 * sizeof sizes / sizeof *sizes; i++) {
        c.cbc = i % 2;
        c.n = sizes[i / 2];
        c.readings_len = c.place_len = b * c.n;
        c.page_len = b * 2048;
        draw_key(r, c.key, c.key_len);
        fill_random(r, c.start, c.start_len);
        fill_random(r, c.readings, c.readings_len);
        compare_page(&c);
        c.page_len = c.readings_len;
        compare_page(&c);
    }
}

static void random_cases(struct random *r, unsigned long cases)
{
    static struct run_case run;
    static struct page_case page;
    while (compared < cases) {
        draw_run(r, &run);
        compare_run(&run);
        compare_row(&run);
        draw_page(r, &page);
        compare_page(&page);
    }
}

int main(int argc, char **argv)
{
    if (argc < 2) {
        fprintf(stderr, "usage: compare EXAMPLES [SEED [CASES]]\n");
        return 2;
    }
    const uint64_t seed = argc > 2 ? strtoull(argv[2], NULL, 10) : 1;
    const unsigned long cases = argc > 3 ? strtoul(argv[3], NULL, 10) : 200000;
    struct random r = { seed };
    printf("seed %" PRIu64 "\n", seed);
    if (!examples_hold(argv[1]))
        return 1;
    for (unsigned variant = 1; variant <= 3; variant++)
        for (int is_packed = 0; is_packed < 2; is_packed++) {
            chosen_runs(&r, variant, is_packed);
            chosen_lengths(&r, variant, is_packed);
            chosen_pages(&r, variant, is_packed);
        }
    const unsigned long chosen = compared;
    random_cases(&r, compared + cases);
    printf("%lu chosen and %lu random calls compared: Rattle and C agree\n", chosen, compared - chosen);
    return 0;
}
