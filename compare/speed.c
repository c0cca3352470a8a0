/* Times the Rattle library beside the C version: rows of blocks through an engine, pages sealed and opened, and filling.
   Every call fills its engine, on both sides. All contenders take turns, and of each the least of all passes counts.
   Usage: speed [PASSES] */
#define _POSIX_C_SOURCE 200809L
#include "case.h"
#include "weddrul.h"

#include <stdio.h>
#include <stdlib.h>
#include <string.h>
#include <time.h>

enum { PAGE_BLOCKS = 2048, FILLINGS = 20, MOST_SIDES = 8 };

enum call { ENCIPHER, DECIPHER, SEAL_ECB, OPEN_ECB, SEAL_CBC, OPEN_CBC, FILL, CALLS };

static const char *const CALL_NAMES[CALLS] = { "encipher", "decipher", "seal ECB", "open ECB", "seal CBC", "open CBC", "fill" };

/* The builds of C, as compare/speed made them: two compilers, the table by bytes and by nibbles. */
#define METHOD(name) extern const struct method name;
METHODS(METHOD)
#define ENTRY(name) &name,
static const struct method *const METHODS_OF_C[] = { METHODS(ENTRY) };
enum { OF_C = sizeof METHODS_OF_C / sizeof *METHODS_OF_C };

static struct page_case input;
static uint8_t row[MOST_PAGE], place[MOST_PAGE];

static double now(void)
{
    struct timespec t;
    clock_gettime(CLOCK_MONOTONIC, &t);
    return 1e9 * (double)t.tv_sec + (double)t.tv_nsec;
}

static uint32_t by_rattle(enum call call, bool is_packed, size_t len)
{
    const struct page_case *c = &input;
    const bool cbc = call == SEAL_CBC || call == OPEN_CBC;
    switch (call) {
    case ENCIPHER:
    case DECIPHER:
        return weddrul_row(c->variant, is_packed, call == DECIPHER, c->key, c->key_len, row, len);
    case SEAL_ECB:
    case SEAL_CBC:
        return weddrul_seal(c->variant, is_packed, cbc, c->key, c->key_len, c->start, c->start_len, c->readings, len, place, len);
    case OPEN_ECB:
    case OPEN_CBC:
        return weddrul_open(c->variant, is_packed, cbc, c->key, c->key_len, c->start, c->start_len, c->readings, len,
            len / c->start_len, place, len);
    default:
        return weddrul_row(c->variant, is_packed, false, c->key, c->key_len, row, c->start_len);
    }
}

static int row_by_c(const struct method *m, bool decipher, size_t len)
{
    struct ublock e;
    const int refused = m->fill(&e, input.variant, input.key, input.key_len);
    if (refused)
        return refused;
    (decipher ? m->decipher : m->encipher)(&e, row, row, len / e.block);
    return DONE;
}

static int by_c(enum call call, const struct method *m, size_t len)
{
    struct setup s = setup_of(&input, m);
    s.cbc = call == SEAL_CBC || call == OPEN_CBC;
    switch (call) {
    case ENCIPHER:
    case DECIPHER:
        return row_by_c(m, call == DECIPHER, len);
    case SEAL_ECB:
    case SEAL_CBC:
        return seal_page(&s, input.readings, len, place, len);
    case OPEN_ECB:
    case OPEN_CBC:
        return open_page(&s, input.readings, len, len / s.start_len, place, len);
    default:
        return row_by_c(m, false, s.start_len);
    }
}

/* The least times of each contender: the two engines of Rattle, then the builds of C. */
struct times {
    double rattle[2], c[MOST_SIDES];
};

static struct times least[4][CALLS];

static void take(double *least_so_far, double from)
{
    const double taken = now() - from;
    if (*least_so_far == 0 || taken < *least_so_far)
        *least_so_far = taken;
}

static void turn(unsigned variant, enum call call)
{
    const size_t len = PAGE_BLOCKS * block_len(variant);
    struct times *t = &least[variant][call];
    for (int i = 0; i < 2; i++) {
        const double from = now();
        if (by_rattle(call, i, len) != DONE)
            abort();
        take(&t->rattle[i], from);
    }
    for (int i = 0; i < OF_C; i++) {
        const double from = now();
        if (by_c(call, METHODS_OF_C[i], len) != DONE)
            abort();
        take(&t->c[i], from);
    }
}

static void passes(struct random *r, unsigned long n)
{
    for (; n > 0; n--)
        for (unsigned variant = 1; variant <= 3; variant++) {
            input.variant = variant;
            input.key_len = key_len(variant);
            input.start_len = block_len(variant);
            fill_random(r, input.key, input.key_len);
            for (enum call call = 0; call < CALLS; call++)
                for (int i = 0; i < (call == FILL ? FILLINGS : 1); i++)
                    turn(variant, call);
        }
}

/* The compilers that may have built the C version; the name of a method begins with its compiler's. */
static const char *const COMPILERS[] = { "gcc", "clang" };
enum { OF_COMPILERS = sizeof COMPILERS / sizeof *COMPILERS };

/* Which build of a method by a compiler took the least time; -1 where there is none. */
static int best_of(const struct times *t, bool is_packed, const char *compiler)
{
    int best = -1;
    for (int i = 0; i < OF_C; i++) {
        const struct method *m = METHODS_OF_C[i];
        if (m->packed == is_packed && strncmp(m->name, compiler, strlen(compiler)) == 0 && (best < 0 || t->c[i] < t->c[best]))
            best = i;
    }
    return best;
}

static void print_heads(bool is_packed)
{
    printf("\n%s engine, beside the %s method in C\n%-8s %-9s %9s %7s", is_packed ? "Packed" : "Plain",
        is_packed ? "packed" : "table", "", "", "Rattle", "");
    for (int i = 0; i < OF_C; i++)
        if (METHODS_OF_C[i]->packed == is_packed)
            printf(" %13s", METHODS_OF_C[i]->name);
    printf("  speed\n%-8s %-9s %9s %7s", "variant", "call", "ns/block", "MB/s");
    for (int i = 0; i < OF_C; i++)
        if (METHODS_OF_C[i]->packed == is_packed)
            printf(" %13s", "ns/block");
    for (int i = 0; i < OF_COMPILERS; i++)
        if (best_of(&least[1][FILL], is_packed, COMPILERS[i]) >= 0)
            printf(" to %-6s", COMPILERS[i]);
    printf(" page to runs\n");
}

static void print_row(bool is_packed, unsigned variant, enum call call)
{
    const struct times *t = &least[variant][call];
    const double blocks = call == FILL ? 1 : PAGE_BLOCKS, mine = t->rattle[is_packed];
    const bool opens = call == OPEN_ECB || call == OPEN_CBC;
    printf("%-8u %-9s %9.1f", variant, CALL_NAMES[call], mine / blocks);
    if (call == FILL)
        printf("%8s", "");
    else
        printf(" %7.0f", 1e3 * (double)block_len(variant) * blocks / mine);
    for (int i = 0; i < OF_C; i++)
        if (METHODS_OF_C[i]->packed == is_packed)
            printf(" %13.1f", t->c[i] / blocks);
    for (int i = 0; i < OF_COMPILERS; i++) {
        const int best = best_of(t, is_packed, COMPILERS[i]);
        if (best >= 0)
            printf(" %9.2f", t->c[best] / mine);
    }
    if (call >= SEAL_ECB && call <= OPEN_CBC)
        printf(" %9.2f", mine / least[variant][opens ? DECIPHER : ENCIPHER].rattle[is_packed]);
    printf("\n");
}

static void print_engine(bool is_packed)
{
    print_heads(is_packed);
    for (unsigned variant = 1; variant <= 3; variant++)
        for (enum call call = 0; call < CALLS; call++)
            print_row(is_packed, variant, call);
}

int main(int argc, char **argv)
{
    const unsigned long n = argc > 1 ? strtoul(argv[1], NULL, 10) : 100;
    struct random r = { 1 };
    fill_random(&r, input.readings, sizeof input.readings);
    fill_random(&r, input.start, sizeof input.start);
    fill_random(&r, row, sizeof row);
    passes(&r, n);
    printf("Pages of %d blocks, the least of %lu passes. Each call fills its engine; fill is that and one block, in ns.\n", PAGE_BLOCKS, n);
    print_engine(true);
    print_engine(false);
    return 0;
}
