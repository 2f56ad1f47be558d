/* Packets put into a ring and taken out of it, round and round, by two versions in turns: nanoseconds and ratio. */
#include <stdbool.h>
#include <stdint.h>
#include <stdio.h>
#include <stdlib.h>
#include <time.h>

typedef size_t reader(const uint8_t *ring, size_t lent, size_t length, bool up, size_t read, size_t write,
                      uint8_t *out, size_t lent_out);
typedef size_t writer(uint8_t *ring, size_t lent, size_t length, bool up, size_t read, size_t write,
                      const uint8_t *packet, size_t size);

extern reader ring_read, read_before;
extern writer ring_write, write_before;

/* A multiple of 72 and of 12, which packets of 68 and of 5 bytes take; from START on, one runs over the ring's end. */
enum { LENGTH = 1152, START = 40, TIMES = 500000, TURNS = 15 };
static uint8_t ring[LENGTH], out[68], packet[68] = {1, 9, 10, 0xC8};

static double seconds(void)
{
    struct timespec t;
    clock_gettime(CLOCK_PROCESS_CPUTIME_ID, &t);
    return (double)t.tv_sec + (double)t.tv_nsec * 1e-9;
}

static void none_refused(size_t at)
{
    if (at >= LENGTH) {
        puts("a packet was refused");
        exit(1);
    }
}

/* Into a ring that is empty each time. */
static double write_all(writer *write, size_t size)
{
    size_t at = START;
    double from = seconds();
    for (int i = 0; i < TIMES; i++)
        at = write(ring, LENGTH, LENGTH, true, at, at, packet, size);
    double to = seconds();
    none_refused(at);
    return to - from;
}

/* Out of a ring that is full of such packets: the write pointer stands where the packet before was taken. */
static double read_all(reader *read, size_t size)
{
    size_t at = START, last = (START + LENGTH - (size + 7) / 4 * 4) % LENGTH;
    double from = seconds();
    for (int i = 0; i < TIMES && at < LENGTH; i++) {
        size_t next = read(ring, LENGTH, LENGTH, true, at, last, out, sizeof out);
        last = at;
        at = next;
    }
    double to = seconds();
    none_refused(at);
    return to - from;
}

static double less(double a, double b) { return a < b ? a : b; }

static void told(const char *call, size_t size, double before, double now)
{
    double each = 1e9 / TIMES;
    printf("%s, a packet of %2zu bytes: before %6.1f ns, now %6.1f ns, ratio %.2f\n", call, size, before * each,
           now * each, now / before);
}

static void compare(size_t size)
{
    double wrote_before = 1e9, wrote = 1e9, read_it_before = 1e9, read_it = 1e9;
    for (int turn = 0; turn < TURNS; turn++) {
        wrote_before = less(wrote_before, write_all(write_before, size));
        wrote = less(wrote, write_all(ring_write, size));
        read_it_before = less(read_it_before, read_all(read_before, size));
        read_it = less(read_it, read_all(ring_read, size));
    }
    told("ring::write", size, wrote_before, wrote);
    told("ring::read", size, read_it_before, read_it);
}

int main(void)
{
    compare(68);
    compare(5);
    return 0;
}
