/* The mixing of a round and its reverse, on halves made of pieces that `rotated` rotates. The file that includes this has both:
   the type PIECE and the function. */

static inline __attribute__((always_inline)) void mix(PIECE *left, PIECE *right)
{
    PIECE x0 = *left, x1 = *right;
    x1 ^= x0;
    x0 ^= rotated(x1, 4);
    x1 ^= rotated(x0, 8);
    x0 ^= rotated(x1, 8);
    x1 ^= rotated(x0, 20);
    x0 ^= x1;
    *left = x0;
    *right = x1;
}

/* the same steps, the last first: each undoes itself */
static inline __attribute__((always_inline)) void unmix(PIECE *left, PIECE *right)
{
    PIECE x0 = *left, x1 = *right;
    x0 ^= x1;
    x1 ^= rotated(x0, 20);
    x0 ^= rotated(x1, 8);
    x1 ^= rotated(x0, 8);
    x0 ^= rotated(x1, 4);
    x1 ^= x0;
    *left = x0;
    *right = x1;
}
