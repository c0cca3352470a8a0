/* The worked examples of the report, read from a file: a line for each value, a name and then its bytes in hexadecimal. */
#include "case.h"
#include "compare.h"
#include "weddrul.h"

#include <stdio.h>
#include <string.h>

/* The example that is being read: its variant, key and plaintext come first. */
struct example {
    unsigned variant;
    uint8_t key[32], plain[MOST_BLOCK];
    struct ublock bytes, words;
};

static size_t read_bytes(const char *text, uint8_t *to)
{
    size_t len = 0;
    for (unsigned byte; len < 32 && sscanf(text + 2 * len, "%2x", &byte) == 1; len++)
        to[len] = (uint8_t)byte;
    return len;
}

/* What C makes of the plaintext after i rounds, with no key added after them. */
static void state_after(const struct method *m, struct ublock e, unsigned i, const uint8_t *plain, uint8_t *to)
{
    e.rounds = i;
    m->encipher(&e, to, plain, 1);
    for (size_t k = 0; k < e.block; k++)
        to[k] ^= e.keys[i][k];
}

static bool state_holds(const struct example *x, unsigned i, const uint8_t *published)
{
    uint8_t a[MOST_BLOCK], b[MOST_BLOCK];
    state_after(&table, x->bytes, i, x->plain, a);
    state_after(&packed, x->words, i, x->plain, b);
    return memcmp(a, published, x->bytes.block) == 0 && memcmp(b, published, x->bytes.block) == 0;
}

/* One block n times over, by C. */
static bool repeated_in_c(const struct method *m, const struct ublock *e, const uint8_t *plain, unsigned long n, const uint8_t *published)
{
    uint8_t x[MOST_BLOCK];
    memcpy(x, plain, e->block);
    for (unsigned long i = 0; i < n; i++)
        m->encipher(e, x, x, 1);
    return memcmp(x, published, e->block) == 0;
}

/* The same by Rattle: each call fills its engine. */
static bool repeated_in_rattle(const struct example *x, bool is_packed, unsigned long n, const uint8_t *published)
{
    uint8_t run[MOST_BLOCK];
    const size_t b = x->bytes.block;
    memcpy(run, x->plain, b);
    for (unsigned long i = 0; i < n; i++)
        if (weddrul_run(x->variant, is_packed, false, x->key, key_len(x->variant), run, b) != DONE)
            return false;
    return memcmp(run, published, b) == 0;
}

static bool repeated(const struct example *x, unsigned long n, const uint8_t *published)
{
    return repeated_in_c(&table, &x->bytes, x->plain, n, published) && repeated_in_c(&packed, &x->words, x->plain, n, published)
        && repeated_in_rattle(x, false, n, published) && repeated_in_rattle(x, true, n, published);
}

static bool taken_back(const struct example *x, bool is_packed, const uint8_t *cipher)
{
    uint8_t run[MOST_BLOCK];
    const size_t b = x->bytes.block;
    memcpy(run, cipher, b);
    return weddrul_run(x->variant, is_packed, true, x->key, key_len(x->variant), run, b) == DONE && memcmp(run, x->plain, b) == 0;
}

static void take_plain(struct example *x, const uint8_t *value)
{
    memcpy(x->plain, value, MOST_BLOCK);
    table.fill(&x->bytes, x->variant, x->key, key_len(x->variant));
    packed.fill(&x->words, x->variant, x->key, key_len(x->variant));
}

/* Whether a line holds of both sides; a key or a plaintext is taken as it is. */
static bool line_holds(struct example *x, const char *name, unsigned i, const uint8_t *value)
{
    if (strcmp(name, "key") == 0)
        memcpy(x->key, value, sizeof x->key);
    else if (strcmp(name, "plain") == 0)
        take_plain(x, value);
    else if (strcmp(name, "RK") == 0)
        return i <= x->bytes.rounds && memcmp(x->bytes.keys[i], value, x->bytes.block) == 0;
    else if (strcmp(name, "X") == 0)
        return i < x->bytes.rounds && state_holds(x, i, value);
    else if (strcmp(name, "cipher") == 0)
        return repeated(x, 1, value) && taken_back(x, false, value) && taken_back(x, true, value);
    else if (strcmp(name, "million") == 0)
        return repeated(x, 1000000, value);
    else
        return false;
    return true;
}

bool examples_hold(const char *file)
{
    static struct example x;
    FILE *lines = fopen(file, "r");
    if (!lines) {
        perror(file);
        return false;
    }
    bool all = true;
    unsigned long held = 0;
    for (char line[256]; fgets(line, sizeof line, lines);) {
        char name[16], value[128];
        unsigned i = 0;
        uint8_t bytes[32] = { 0 };
        if (line[0] == '#' || line[0] == '\n' || sscanf(line, "variant %u", &x.variant) == 1)
            continue;
        if (sscanf(line, "%15s %u %127s", name, &i, value) != 3 || (strcmp(name, "RK") != 0 && strcmp(name, "X") != 0))
            sscanf(line, "%15s %127s", name, value);
        read_bytes(value, bytes);
        const bool holds = line_holds(&x, name, i, bytes);
        held += holds;
        if (!holds)
            printf("NOT as published, variant %u: %s", x.variant, line);
        all = all && holds;
    }
    fclose(lines);
    printf("%lu published values hold\n", held);
    return all && held > 0;
}
