/* One SMBus arrival, over and over: the proved code (libinlined.a, libcalled.a) and plain C in turns. Prints
   nanoseconds and their ratio; or, for benchmarks/instructions: arrival proved|plain inlined|called BODY FLAGS TIMES */
#include <stdint.h>
#include <stdio.h>
#include <stdlib.h>
#include <string.h>
#include <time.h>

#include "plain.h"

/* the millisecond count of every arrival */
#define COUNT 4294967295u

/* so many arrivals of one frame */
typedef void arriver(const uint8_t *frame, size_t n, uint64_t times);

static uint8_t memory[4096];

/* Inlined: the loop and the arrival are one function, and own address, EID and limit are constants in it. Nobody asks
   for the answers or the tallies; but plain C must have its receiver in memory after each turn. What is the same in
   every turn, the proved code does before its loop: the test of the size, and the loads of the PEC's table. */

extern void arrivals(const uint8_t *frame, size_t n, uint8_t *memory, size_t size, uint64_t times, uint32_t time);

static void proved_inlined(const uint8_t *frame, size_t n, uint64_t times)
{
    arrivals(frame, n, memory, sizeof memory, times, COUNT);
}

__attribute__((noipa)) static void plain_inlined(const uint8_t *frame, size_t n, uint64_t times)
{
    struct receiver r = {.own = 9, .limit = 1000};
    int found;
    while (times--) {
        arrive(&r, memory, sizeof memory, frame, n, 0x20, COUNT, &found);
        __asm__ volatile("" ::"r"(&r), "r"(memory) : "memory");
    }
}

/* Called: a call for each arrival, as firmware makes one; the state goes through memory. */

extern void arrivals_called(const uint8_t *frame, size_t n, uint8_t *memory, size_t size, uint64_t times, uint32_t time,
                            uint8_t own, uint8_t eid, uint32_t limit);

static void proved_called(const uint8_t *frame, size_t n, uint64_t times)
{
    arrivals_called(frame, n, memory, sizeof memory, times, COUNT, 0x20, 9, 1000);
}

/* noipa: gcc must take each call as one that it knows nothing of. */
__attribute__((noipa)) static struct answer arrive_called(struct receiver *r, uint8_t *lent, size_t size,
                                                          const uint8_t *frame, size_t n, uint8_t own, uint32_t time,
                                                          int *found)
{
    return arrive(r, lent, size, frame, n, own, time, found);
}

static void plain_called(const uint8_t *frame, size_t n, uint64_t times)
{
    struct receiver r = {.own = 9, .limit = 1000};
    int found;
    while (times--)
        arrive_called(&r, memory, sizeof memory, frame, n, 0x20, COUNT, &found);
}

static double seconds(void)
{
    struct timespec t;
    clock_gettime(CLOCK_PROCESS_CPUTIME_ID, &t);
    return (double)t.tv_sec + (double)t.tv_nsec * 1e-9;
}

/* a frame with so many bytes of body; gives its length */
static size_t make_frame(uint8_t *frame, unsigned body, uint8_t flags)
{
    static const uint8_t head[] = {0x40, 0x0F, 0, 0x23, 1, 9, 10};
    memcpy(frame, head, sizeof head);
    frame[2] = (uint8_t)(5 + body);
    frame[7] = flags;
    memset(frame + 8, 0x5A, body);
    frame[8 + body] = pec(frame, 8 + body);
    return 9 + body;
}

/* Many short turns: on a machine that others use too, some of them fall into a quiet moment. */
enum { TIMES = 20000, TURNS = 200 };

static double less(double a, double b) { return a < b ? a : b; }

static double timed(arriver *arrive_all, const uint8_t *frame, size_t n)
{
    double from = seconds();
    arrive_all(frame, n, TIMES);
    return seconds() - from;
}

static void compare(const char *name, arriver *by_proved, arriver *by_plain, unsigned body, uint8_t flags)
{
    uint8_t frame[80];
    size_t n = make_frame(frame, body, flags);
    double proved = 1e9, plain = 1e9, each = 1e9 / TIMES;
    for (int turn = 0; turn < TURNS; turn++) {
        proved = less(proved, timed(by_proved, frame, n));
        plain = less(plain, timed(by_plain, frame, n));
    }
    printf("%-44s proved %6.1f ns, plain C %6.1f ns, ratio %.2f\n", name, proved * each, plain * each, proved / plain);
}

/* for benchmarks/instructions: so many arrivals of one code alone, and no time */
static int run_alone(char **argv)
{
    uint8_t frame[80];
    size_t n = make_frame(frame, (unsigned)atoi(argv[3]), (uint8_t)strtol(argv[4], NULL, 16));
    int proved = strcmp(argv[1], "proved") == 0, called = strcmp(argv[2], "called") == 0;
    arriver *by[2][2] = {{plain_inlined, plain_called}, {proved_inlined, proved_called}};
    by[proved][called](frame, n, strtoull(argv[5], NULL, 10));
    return 0;
}

int main(int argc, char **argv)
{
    if (argc == 6)
        return run_alone(argv);
    compare("inlined, 73 bytes, a message of one packet", proved_inlined, plain_inlined, 64, 0xC8);
    compare("inlined, 10 bytes, a message of one packet", proved_inlined, plain_inlined, 1, 0xC8);
    compare("inlined, 73 bytes, a start that is held", proved_inlined, plain_inlined, 64, 0x88);
    compare("called, 73 bytes, a message of one packet", proved_called, plain_called, 64, 0xC8);
    compare("called, 10 bytes, a message of one packet", proved_called, plain_called, 1, 0xC8);
    compare("called, 73 bytes, a start that is held", proved_called, plain_called, 64, 0x88);
    return 0;
}
