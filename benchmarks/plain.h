/* One SMBus arrival in plain C: the frame's checks, the state check, the message rules. For the comparison alone. The
   PEC goes by a table, one look-up a byte, as is usual; with BY_WORDS, eight bytes at a time. */
#include <stddef.h>
#include <stdint.h>
#include <string.h>

enum { REFUSED, HELD, DONE };

struct answer {
    int kind;
    unsigned slot, value;
    int again;
};

struct key {
    uint8_t destination, source, owner, tag;
};

struct slot {
    int gathering;
    struct key key;
    uint8_t sequence;
    uint32_t unit, held, since;
};

struct receiver {
    uint8_t own;
    uint32_t limit;
    struct slot slots[4];
    uint32_t gathering, held, offered, done;
};

/* filled once, from the polynomial */
static uint8_t remainders[256];

__attribute__((constructor)) static void fill_remainders(void)
{
    for (int i = 0; i < 256; i++) {
        uint8_t r = (uint8_t)i;
        for (int bit = 0; bit < 8; bit++)
            r = (uint8_t)((r << 1) ^ (r & 0x80 ? 7 : 0));
        remainders[i] = r;
    }
}

#ifndef BY_WORDS

static uint8_t pec(const uint8_t *s, size_t n)
{
    uint8_t r = 0;
    for (size_t i = 0; i < n; i++)
        r = remainders[r ^ s[i]];
    return r;
}

#else /* eight bytes at a time, as the proved code has it */

static uint64_t eight(const uint8_t *s)
{
    uint64_t w;
    memcpy(&w, s, 8);
    return __builtin_bswap64(w);
}

static uint8_t pec(const uint8_t *s, size_t n)
{
    uint64_t w = 0;
    size_t i = 0;
    for (; i < n % 8; i++)
        w = w << 8 | s[i];
    for (; i < n; i += 8) {
        uint64_t over = w >> 60 ^ w >> 63;
        w = w << 4 ^ w << 1 ^ w ^ over << 4 ^ over << 1 ^ over ^ eight(s + i);
    }
    uint64_t a = w >> 32, b = (uint32_t)w ^ a << 4 ^ a << 2 ^ a << 1;
    uint64_t c = b >> 16, d = (uint16_t)b ^ c << 4 ^ c << 2 ^ c;
    uint64_t e = d >> 16;
    uint16_t two = (uint16_t)(d ^ e << 4 ^ e << 2 ^ e);
    return remainders[remainders[two >> 8] ^ (two & 255)];
}

#endif

static unsigned frame_refusal(const uint8_t *frame, size_t n, uint8_t own)
{
    if (own > 127)
        return 1;
    if (n < 10 || n > 73)
        return 3;
    if (frame[0] != own * 2)
        return 4;
    if (frame[1] != 0x0F)
        return 5;
    if ((size_t)frame[2] + 4 != n)
        return 6;
    if (!(frame[3] & 1))
        return 7;
    if (pec(frame, n - 1) != frame[n - 1])
        return 8;
    return 0;
}

static int same_key(struct key a, struct key b)
{
    return a.destination == b.destination && a.source == b.source && a.owner == b.owner && a.tag == b.tag;
}

static int ours(const struct receiver *r, uint8_t destination)
{
    return destination == r->own || destination == 0 || destination == 255;
}

static int slot_right(const struct receiver *r, const struct slot *s)
{
    return !s->gathering
           || (ours(r, s->key.destination) && s->key.tag <= 7 && s->sequence <= 3 && s->unit >= 1 && s->unit <= 64
               && s->held >= 1 && s->held <= 1024 && s->held % s->unit == 0);
}

static int state_right(const struct receiver *r)
{
    if ((r->own >= 1 && r->own <= 7) || r->own == 255 || r->limit < 1 || r->limit > 60000)
        return 0;
    uint32_t gathering = 0, held = 0;
    for (int i = 0; i < 4; i++) {
        if (!slot_right(r, &r->slots[i]))
            return 0;
        if (r->slots[i].gathering) {
            gathering++;
            held += r->slots[i].held;
        }
    }
    if (r->gathering != gathering || r->held != held)
        return 0;
    for (int i = 0; i < 4; i++)
        for (int j = i + 1; j < 4; j++)
            if (r->slots[i].gathering && r->slots[j].gathering && same_key(r->slots[i].key, r->slots[j].key))
                return 0;
    return 1;
}

static struct answer refused(unsigned number)
{
    return (struct answer){REFUSED, 0, number, 0};
}

/* stops at the last number */
static void count(uint32_t *tally)
{
    if (*tally < UINT32_MAX)
        ++*tally;
}

/* the slot becomes free, and leaves the tallies */
static void release(struct receiver *r, struct slot *s)
{
    if (!s->gathering)
        return;
    s->gathering = 0;
    r->gathering--;
    r->held -= s->held;
}

/* every slot that is older than the limit becomes free */
static void expire(struct receiver *r, uint32_t time)
{
    for (int i = 0; i < 4; i++)
        if (r->slots[i].gathering && time - r->slots[i].since > r->limit)
            release(r, &r->slots[i]);
}

static struct answer put(struct receiver *r, uint8_t *memory, unsigned i, struct key key, const uint8_t *p,
                         size_t body, uint32_t before, uint32_t unit, int again, uint32_t time)
{
    struct slot *s = &r->slots[i];
    memcpy(memory + i * 1024 + before, p + 4, body);
    uint32_t held = before + (uint32_t)body;
    release(r, s);
    if (p[3] & 0x40) {
        count(&r->done);
        return (struct answer){DONE, i, held, again};
    }
    *s = (struct slot){1, key, (p[3] >> 4) & 3, unit, held, time};
    r->gathering++;
    r->held += held;
    return (struct answer){HELD, i, held, again};
}

static struct answer give(struct receiver *r, uint8_t *memory, size_t size, const uint8_t *p, size_t n, uint32_t time)
{
    if (!state_right(r))
        return refused(1);
    if (size != 4096)
        return refused(2);
    expire(r, time);
    count(&r->offered);
    if (n < 5 || n > 68)
        return refused(3);
    if ((p[0] & 15) != 1)
        return refused(15);
    if (!ours(r, p[1]))
        return refused(16);
    if ((p[2] >= 1 && p[2] <= 7) || p[2] == 255)
        return refused(17);
    struct key key = {p[1], p[2], (p[3] >> 3) & 1, p[3] & 7};
    size_t body = n - 4;
    unsigned i = 0;
    while (i < 4 && !(r->slots[i].gathering && same_key(r->slots[i].key, key)))
        i++;
    if (p[3] & 0x80) {
        int again = i < 4;
        if (!again)
            for (i = 0; i < 4 && r->slots[i].gathering; i++) {
            }
        if (i == 4)
            return refused(18);
        return put(r, memory, i, key, p, body, 0, (uint32_t)body, again, time);
    }
    if (i == 4)
        return refused(19);
    struct slot *s = &r->slots[i];
    unsigned number = 0;
    if (((p[3] >> 4) & 3) != ((s->sequence + 1) & 3))
        number = 20;
    else if (p[3] & 0x40 ? body > s->unit : body != s->unit)
        number = 21;
    else if (s->held + body > 1024)
        number = 22;
    if (number) {
        release(r, s);
        return refused(number);
    }
    return put(r, memory, i, key, p, body, s->held, s->unit, 0, time);
}

static struct answer arrive(struct receiver *r, uint8_t *memory, size_t size, const uint8_t *frame, size_t n,
                            uint8_t own, uint32_t time, int *found)
{
    unsigned number = frame_refusal(frame, n, own);
    *found = number == 0;
    if (number)
        return refused(number);
    return give(r, memory, size, frame + 4, n - 5, time);
}
