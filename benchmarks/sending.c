/* Packet k of a message onto an SMBus frame: the proved code (libtiming.a) and plain C of the same checks. Both are
   asked the same and must answer and write the same; then each is timed. Prints nanoseconds and their ratio. */
#include <stdbool.h>
#include <stdint.h>
#include <stdio.h>
#include <stdlib.h>
#include <string.h>
#include <time.h>

#include "plain.h"

/* Gives the frame's length, or REFUSAL and the number. */
typedef size_t sender(uint8_t *out, size_t room, const uint8_t *message, size_t size, uint8_t to, uint8_t from,
                      bool owner, uint8_t tag, uint8_t first, size_t k, uint8_t destination, uint8_t source);

enum { MOST = 64, LONGEST = 1024, REFUSAL = 256 };

extern sender send_proved;

/* In plain C. */

struct heading {
    uint8_t to, from;
    bool owner;
    uint8_t tag, first;
};

static bool reserved(uint8_t eid) { return eid >= 1 && eid <= 7; }

static bool heading_right(struct heading h)
{
    return !reserved(h.to) && !reserved(h.from) && h.from != 255 && h.tag <= 7 && h.first <= 3;
}

/* The first check falls away when this is compiled, as it does in the proved code. */
static unsigned cut_refusal(struct heading h, size_t size, size_t k)
{
    if (MOST < 64 || MOST > 246)
        return 1;
    if (!heading_right(h))
        return 1;
    if (size < 1 || size > LONGEST)
        return 3;
    if (k >= (size + MOST - 1) / MOST)
        return 23;
    return 0;
}

static unsigned write_refusal(size_t room, size_t packet, uint8_t destination, uint8_t source)
{
    if (destination > 127 || source > 127)
        return 1;
    if (packet < 5 || packet > 4 + MOST)
        return 3;
    if (room < packet + 5)
        return 2;
    return 0;
}

static uint8_t flags_of(struct heading h, size_t k, bool end)
{
    return (uint8_t)((k == 0) << 7 | end << 6 | ((h.first + k) & 3) << 4 | h.owner << 3 | h.tag);
}

static void fill(uint8_t *out, struct heading h, uint8_t flags, const uint8_t *body, size_t n, uint8_t destination,
                 uint8_t source)
{
    out[0] = (uint8_t)(destination << 1);
    out[1] = 0x0F;
    out[2] = (uint8_t)(5 + n);
    out[3] = (uint8_t)(source << 1 | 1);
    out[4] = 1;
    out[5] = h.to;
    out[6] = h.from;
    out[7] = flags;
    memcpy(out + 8, body, n);
    out[8 + n] = pec(out, 8 + n);
}

/* noipa: gcc must take each call as one that it knows nothing of, as it takes the proved one. */
__attribute__((noipa)) static size_t send_plain(uint8_t *out, size_t room, const uint8_t *message, size_t size,
                                                uint8_t to, uint8_t from, bool owner, uint8_t tag, uint8_t first,
                                                size_t k, uint8_t destination, uint8_t source)
{
    struct heading h = {to, from, owner, tag, first};
    unsigned number = cut_refusal(h, size, k);
    if (number)
        return REFUSAL + number;
    size_t at = k * MOST, left = size - at, n = left < MOST ? left : MOST;
    number = write_refusal(room, 4 + n, destination, source);
    if (number)
        return REFUSAL + number;
    fill(out, h, flags_of(h, k, left <= MOST), message + at, n, destination, source);
    return 9 + n;
}

/* The comparison. */

struct call {
    size_t room, size, k;
    uint8_t to, from, tag, first, destination, source;
    bool owner;
};

enum { OUT = 96 };
static uint8_t message[LONGEST + 1];
static unsigned long calls, frames, refusals[256];

static size_t ask(sender *send, const struct call *c, uint8_t *out)
{
    return send(out, c->room, message, c->size, c->to, c->from, c->owner, c->tag, c->first, c->k, c->destination,
                c->source);
}

static void differ(const struct call *c, size_t proved, size_t plain, size_t at)
{
    printf("they differ: message of %zu bytes, k %zu, from EID %d to %d, owner %d, tag %d, first %d, "
           "from address %d to %d, room for %zu: proved answers %zu, plain C %zu; ",
           c->size, c->k, c->from, c->to, c->owner, c->tag, c->first, c->source, c->destination, c->room, proved,
           plain);
    if (at < OUT)
        printf("byte %zu is the first that differs\n", at);
    else
        puts("the bytes are the same");
    exit(1);
}

/* All of the output's memory is compared, past what is lent too. What stands there before changes with each call, so
   that a byte which only one of them stores is seen. */
static void compare(const struct call *c)
{
    static uint8_t proved[OUT], plain[OUT];
    memset(proved, (int)calls, OUT);
    memset(plain, (int)calls, OUT);
    size_t a = ask(send_proved, c, proved), b = ask(send_plain, c, plain), at = 0;
    while (at < OUT && proved[at] == plain[at])
        at++;
    if (a != b || at < OUT)
        differ(c, a, b, at);
    calls++;
    if (a < REFUSAL)
        frames++;
    else
        refusals[a - REFUSAL]++;
}

/* The call that the others are made of, and that is timed. */
static const struct call good = {.room = OUT, .size = 100, .k = 1, .to = 9, .from = 10, .owner = true, .tag = 5,
                                 .first = 2, .destination = 0x20, .source = 0x11};

/* Every length, every k up to the second past the end, every first sequence number. */
static void every_packet(void)
{
    struct call c = good;
    for (c.size = 1; c.size <= LONGEST; c.size++)
        for (c.k = 0; c.k <= (c.size - 1) / MOST + 2; c.k++)
            for (c.first = 0; c.first <= 3; c.first++)
                compare(&c);
}

/* Each small number through all its values, and every room. */
static void every_number(void)
{
    for (int i = 0; i < 256; i++) {
        struct call c[] = {good, good, good, good, good, good, good};
        c[0].to = c[1].from = c[2].tag = c[3].first = c[4].destination = c[5].source = (uint8_t)i;
        c[6].room = (size_t)i % (OUT + 1);
        for (size_t j = 0; j < sizeof c / sizeof *c; j++)
            compare(&c[j]);
    }
}

static size_t digit(size_t *rest, size_t base)
{
    size_t d = *rest % base;
    *rest /= base;
    return d;
}

#define CHOSEN(list) list[digit(&rest, sizeof list / sizeof *list)]

/* Good and bad numbers of each kind, each with each, so that of any two that are bad it is seen which is told. The
   largest k but one gives 0 when it is multiplied by 64. */
static void bad_numbers(void)
{
    static const uint8_t eids[] = {0, 1, 7, 8, 254, 255}, tags[] = {0, 7, 8, 255}, firsts[] = {0, 3, 4, 255};
    static const uint8_t addresses[] = {0, 127, 128, 255};
    static const size_t sizes[] = {0, 1, 64, 65, LONGEST, LONGEST + 1};
    static const size_t ks[] = {0, 1, 15, 16, 1023, 1024, (size_t)1 << 58, SIZE_MAX};
    static const size_t rooms[] = {0, 9, 10, 72, 73, 74, OUT};
    static const bool owners[] = {false, true};
    for (size_t n = 0, rest = 0; rest == 0; n++) {
        struct call c;
        rest = n;
        c.owner = CHOSEN(owners);
        c.to = CHOSEN(eids);
        c.from = CHOSEN(eids);
        c.tag = CHOSEN(tags);
        c.first = CHOSEN(firsts);
        c.size = CHOSEN(sizes);
        c.k = CHOSEN(ks);
        c.destination = CHOSEN(addresses);
        c.source = CHOSEN(addresses);
        c.room = CHOSEN(rooms);
        if (rest == 0)
            compare(&c);
    }
}

static void compare_all(void)
{
    for (size_t i = 0; i < sizeof message; i++)
        message[i] = (uint8_t)(i * 167 + i / 256 * 91 + 13);
    every_packet();
    every_number();
    bad_numbers();
    printf("both answered and wrote the same in %lu calls: frames %lu", calls, frames);
    for (int i = 0; i < 256; i++)
        if (refusals[i])
            printf(", refusals with %d %lu", i, refusals[i]);
    puts("");
}

/* The times. */

/* Many short turns: on a machine that others use too, some of them fall into a quiet moment. */
enum { TIMES = 20000, TURNS = 200 };

static double seconds(void)
{
    struct timespec t;
    clock_gettime(CLOCK_PROCESS_CPUTIME_ID, &t);
    return (double)t.tv_sec + (double)t.tv_nsec * 1e-9;
}

/* Each call is given its destination address by the byte at `address`. Where that is the check byte of the frame
   before, a call has to wait for that frame; where it stays, the processor begins a call before the last is done. */
static double send_all(sender *send, size_t size, uint8_t *out, const uint8_t *address)
{
    struct call c = good;
    c.size = size;
    c.k = 0;
    size_t written = 0;
    double start = seconds();
    for (int i = 0; i < TIMES; i++) {
        c.destination = *address >> 1;
        written += ask(send, &c, out);
    }
    double end = seconds();
    if (written != TIMES * (9 + size)) {
        puts("a packet was refused");
        exit(1);
    }
    return end - start;
}

static double less(double a, double b) { return a < b ? a : b; }

static void time_both(size_t size, bool waiting)
{
    uint8_t out[OUT] = {0}, same = 0x40;
    const uint8_t *address = waiting ? out + 8 + size : &same;
    double proved = 1e9, plain = 1e9, each = 1e9 / TIMES;
    for (int turn = 0; turn < TURNS; turn++) {
        proved = less(proved, send_all(send_proved, size, out, address));
        plain = less(plain, send_all(send_plain, size, out, address));
    }
    const char *how = waiting ? "each call after the last" : "calls that may overlap";
    printf("frame of %zu bytes, %-24s  proved %5.1f ns, plain C %5.1f ns, ratio %.2f\n", size + 9, how, proved * each,
           plain * each, proved / plain);
}

int main(void)
{
    compare_all();
    for (int waiting = 1; waiting >= 0; waiting--) {
        time_both(64, waiting);
        time_both(1, waiting);
    }
    return 0;
}
