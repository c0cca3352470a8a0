/* Writes cases that the gate compares: a line with the inputs of each to one file, and what C makes of them to another.
   Usage: cases SEED COUNT INPUTS ANSWERS */
#include "case.h"

#include <stdio.h>
#include <stdlib.h>
#include <string.h>

static FILE *inputs, *answers;

static void write_bytes(FILE *to, const uint8_t *bytes, size_t len)
{
    fputs(len ? " " : " -", to);
    for (size_t i = 0; i < len; i++)
        fprintf(to, "%02x", bytes[i]);
}

/* 0 and the bytes, or the number of a refusal. */
static void write_answer(int number, const uint8_t *bytes, size_t len)
{
    fprintf(answers, "%d", number);
    if (number == DONE)
        write_bytes(answers, bytes, len);
}

/* A run by both engines: one answer where they agree, else both, the plain engine's first. */
static void write_run(const struct run_case *c)
{
    uint8_t run[2][MOST_RUN];
    int number[2];
    fprintf(inputs, "%s %u", c->decipher ? "decipher" : "encipher", c->variant);
    write_bytes(inputs, c->key, c->key_len);
    write_bytes(inputs, c->run, c->len);
    fputs("\n", inputs);
    for (int i = 0; i < 2; i++) {
        memcpy(run[i], c->run, c->len);
        number[i] = run_blocks(method_of(i), c->variant, c->decipher, c->key, c->key_len, run[i], c->len);
    }
    write_answer(number[0], run[0], c->len);
    if (number[0] != number[1] || memcmp(run[0], run[1], c->len) != 0) {
        fputs(" / ", answers);
        write_answer(number[1], run[1], c->len);
    }
    fputs("\n", answers);
}

static void write_setup(const char *call, const struct page_case *c)
{
    fprintf(inputs, "%s %u", call, c->variant);
    write_bytes(inputs, c->key, c->key_len);
    fputs(c->cbc ? " cbc" : " ecb", inputs);
    write_bytes(inputs, c->start, c->start_len);
}

/* Readings sealed, and the page opened again. */
static void write_page(const struct page_case *c)
{
    static uint8_t page[MOST_PAGE], place[MOST_PAGE];
    const struct setup s = setup_of(c, &table);
    write_setup("seal", c);
    write_bytes(inputs, c->readings, c->readings_len);
    fprintf(inputs, " %zu\n", c->page_len);
    memset(page, 0, c->page_len);
    const int sealed = seal_page(&s, c->readings, c->readings_len, page, c->page_len);
    write_answer(sealed, page, c->page_len);
    fputs("\n", answers);
    write_setup("open", c);
    write_bytes(inputs, page, c->page_len);
    fprintf(inputs, " %zu %zu\n", c->n, c->place_len);
    const int opened = open_page(&s, page, c->page_len, c->n, place, c->place_len);
    write_answer(opened, place, c->place_len);
    fputs("\n", answers);
}

int main(int argc, char **argv)
{
    if (argc != 5 || !(inputs = fopen(argv[3], "w")) || !(answers = fopen(argv[4], "w"))) {
        fprintf(stderr, "usage: cases SEED COUNT INPUTS ANSWERS\n");
        return 2;
    }
    struct random r = { strtoull(argv[1], NULL, 10) };
    static struct run_case run;
    static struct page_case page;
    for (unsigned long i = strtoul(argv[2], NULL, 10); i > 0; i--) {
        draw_run(&r, &run);
        write_run(&run);
        draw_page(&r, &page);
        write_page(&page);
    }
    return fclose(inputs) || fclose(answers);
}
