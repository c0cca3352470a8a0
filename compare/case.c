/* Cases drawn at random. */
#include "case.h"

#include <string.h>

static bool one_in(struct random *r, size_t n)
{
    return below(r, n) == 0;
}

void draw_key(struct random *r, uint8_t *key, size_t len)
{
    const size_t kind = below(r, 5);
    if (kind > 2) {
        fill_random(r, key, len);
        return;
    }
    memset(key, kind == 1 ? 0xff : 0, len);
    if (kind == 2 && len > 0) {
        const size_t bit = below(r, 8 * len);
        key[bit / 8] = (uint8_t)(0x80 >> bit % 8);
    }
}

/* so many bytes, or one in some a few less or more */
static size_t about(struct random *r, size_t len)
{
    if (!one_in(r, 24))
        return len;
    const size_t odd = below(r, 5) + len;
    return odd < 2 ? 1 : odd - 2;
}

static unsigned draw_variant(struct random *r)
{
    return one_in(r, 24) ? (unsigned)below(r, 6) : 1 + (unsigned)below(r, 3);
}

void draw_run(struct random *r, struct run_case *c)
{
    c->variant = draw_variant(r);
    c->packed = one_in(r, 2);
    c->decipher = one_in(r, 2);
    c->key_len = one_in(r, 24) ? below(r, MOST_KEY + 1) : key_len(c->variant);
    draw_key(r, c->key, c->key_len);
    const size_t b = block_len(c->variant), most = lanes(method_of(c->packed), b);
    c->len = about(r, b * below(r, most + (one_in(r, 12) ? 3 : 1)));
    fill_random(r, c->run, c->len);
}

void draw_page(struct random *r, struct page_case *c)
{
    c->variant = draw_variant(r);
    c->packed = one_in(r, 2);
    c->cbc = one_in(r, 2);
    c->key_len = about(r, key_len(c->variant));
    draw_key(r, c->key, c->key_len);
    const size_t b = block_len(c->variant);
    c->start_len = about(r, b);
    fill_random(r, c->start, c->start_len);
    const size_t blocks = below(r, 12);
    c->readings_len = about(r, b * blocks);
    fill_random(r, c->readings, c->readings_len);
    c->page_len = about(r, b * (one_in(r, 2) ? blocks : below(r, 14)));
    c->n = one_in(r, 8) ? below(r, 16) : c->readings_len / b;
    c->place_len = about(r, b * c->n);
}

struct setup setup_of(const struct page_case *c, const struct method *method)
{
    return (struct setup) { method, c->variant, c->cbc, c->key, c->key_len, c->start, c->start_len };
}
