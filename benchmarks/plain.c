/* The bench program in plain C, for the comparison alone: the same checks, the state check too, the same lines. */
#include <stdint.h>
#include <stdio.h>
#include <string.h>
#include <unistd.h>

#include "plain.h"

static uint8_t input[65536], output[65536];
static size_t used;

static void flush(void)
{
    for (size_t done = 0; done < used;) {
        ssize_t n = write(1, output + done, used - done);
        if (n <= 0)
            break;
        done += (size_t)n;
    }
    used = 0;
}

static void text(const char *s)
{
    size_t n = strlen(s);
    memcpy(output + used, s, n);
    used += n;
}

static void decimal(uint64_t n)
{
    uint8_t digits[20];
    size_t k = 0;
    do {
        digits[k++] = (uint8_t)('0' + n % 10);
        n /= 10;
    } while (n);
    while (k)
        output[used++] = digits[--k];
}

static void line(uint64_t number, struct answer a)
{
    if (sizeof output - used < 128)
        flush();
    decimal(number);
    if (a.kind == REFUSED) {
        text(" refused ");
        decimal(a.value);
    } else {
        text(a.kind == DONE ? " done slot " : " held slot ");
        decimal(a.slot);
        text(a.kind == DONE ? " length " : " bytes ");
        decimal(a.value);
        if (a.again)
            text(" again");
    }
    text("\n");
}

int main(void)
{
    static uint8_t memory[4096];
    struct receiver r = {.own = 9, .limit = 60000};
    uint64_t arrivals = 0, packets = 0;
    size_t held = 0;
    for (;;) {
        ssize_t got = read(0, input + held, sizeof input - held);
        if (got <= 0)
            break;
        held += (size_t)got;
        size_t at = 0;
        while (at < held && input[at] <= held - at - 1) {
            int found = 0;
            struct answer a = arrive(&r, memory, sizeof memory, input + at + 1, input[at], 0x20, 0, &found);
            packets += (uint64_t)found;
            line(++arrivals, a);
            at += 1 + (size_t)input[at];
        }
        memmove(input, input + at, held - at);
        held -= at;
    }
    if (sizeof output - used < 128)
        flush();
    text("arrivals ");
    decimal(arrivals);
    text(" packets ");
    decimal(packets);
    text("\n");
    flush();
    return 0;
}
