/* A large input for the bench program: records of good frames on a few keys, some long messages, and a share of damaged ones. */
#include <stdint.h>
#include <stdio.h>
#include <stdlib.h>

static uint64_t state = 1;

static unsigned below(unsigned n)
{
    state = state * 6364136223846793005u + 1442695040888963407u;
    return (unsigned)(state >> 33) % n;
}

static uint8_t pec(const uint8_t *s, unsigned n)
{
    uint8_t r = 0;
    for (unsigned i = 0; i < n; i++) {
        r ^= s[i];
        for (int bit = 0; bit < 8; bit++)
            r = (uint8_t)((r << 1) ^ (r & 0x80 ? 7 : 0));
    }
    return r;
}

int main(int argc, char **argv)
{
    unsigned long records = argc > 1 ? strtoul(argv[1], 0, 10) : 1000000;
    unsigned left[6] = {0}, sequence[6] = {0};
    for (unsigned long k = 0; k < records; k++) {
        unsigned key = below(6), start = left[key] == 0;
        if (start)
            left[key] = 1 + below(16);
        sequence[key] = (sequence[key] + 1) & 3;
        unsigned end = --left[key] == 0, body = end ? 1 + below(64) : 64;
        uint8_t frame[80] = {0x40, 0x0F, (uint8_t)(5 + body), 0x23, 1, 9, (uint8_t)(10 + key)};
        frame[7] = (uint8_t)(start << 7 | end << 6 | sequence[key] << 4 | 8 | key);
        for (unsigned i = 0; i < body; i++)
            frame[8 + i] = (uint8_t)below(256);
        frame[8 + body] = pec(frame, 8 + body);
        if (below(50) == 0)
            frame[below(9 + body)] ^= (uint8_t)(1 << below(8));
        putchar((int)(9 + body));
        fwrite(frame, 1, 9 + body, stdout);
    }
    return 0;
}
