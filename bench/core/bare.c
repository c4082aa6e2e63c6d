/* Makes the copies of a live stream and nothing else, as the gateway of engine.rt.in makes them: a packet's bytes go into an
   item as it arrives, and from there into a receive buffer; 800 packets later they go, for each subscriber, into a send
   buffer, into a packet and out. Reads and prints what engine.rt.in does: the numbers of subscribers, places (unused),
   packets and standby publishers (0), and the number of data packets that went out with the nanoseconds that it took. */
#include <stdint.h>
#include <stdio.h>
#include <string.h>
#include <time.h>

enum {
    PAYLOAD = 1316,
    HEADER = 16,
    BUFFER = 1456,   /* the most bytes of a payload */
    DATAGRAM = 1472, /* the most bytes of a datagram */
    DELAY = 800,     /* packets from an arrival to its delivery: 20 ms, one each 25 microseconds */
    UNACKED = 64,    /* packets from one ACK of a subscriber to the next */
    MOST = 16,
    WARM = 20000
};

struct buffer {
    size_t length;
    uint8_t bytes[BUFFER];
};

/* As in the gateway, a steady stream uses few buffers, whatever the width: those that were used last are filled first. */
static struct buffer item, received[DELAY + 1], queued[MOST][UNACKED];
static uint8_t packets[MOST][DATAGRAM], out[DATAGRAM];

/* Keeps the compiler from leaving a copy out. */
static void used(void *at) { __asm__ volatile("" : : "r"(at) : "memory"); }

static void fill(struct buffer *it, const uint8_t *bytes, size_t length)
{
    memcpy(it->bytes, bytes, length);
    it->length = length;
    used(it);
}

static void arrive(const uint8_t *datagram, size_t length, unsigned k)
{
    fill(&item, datagram + HEADER, length - HEADER);
    fill(&received[k % (DELAY + 1)], item.bytes, item.length);
}

static void send_to(unsigned subscriber, const struct buffer *from, unsigned k)
{
    struct buffer *place = &queued[subscriber][k % UNACKED];
    uint8_t *packet = packets[subscriber];
    fill(place, from->bytes, from->length);
    memcpy(packet + HEADER, place->bytes, place->length);
    used(packet);
    memcpy(out, packet, HEADER + place->length);
    used(out);
}

static unsigned play(unsigned subscribers, unsigned from, unsigned to)
{
    uint8_t datagram[HEADER + PAYLOAD];
    unsigned sent = 0;
    memset(datagram, 7, sizeof datagram);
    for (unsigned k = from; k < to; k++) {
        memcpy(datagram, &k, sizeof k);
        used(datagram);
        arrive(datagram, sizeof datagram, k);
        if (k < DELAY)
            continue;
        for (unsigned at = 0; at < subscribers; at++, sent++)
            send_to(at, &received[(k - DELAY) % (DELAY + 1)], k);
    }
    return sent;
}

static int64_t now_ns(void)
{
    struct timespec it;
    clock_gettime(CLOCK_MONOTONIC, &it);
    return it.tv_sec * 1000000000ll + it.tv_nsec;
}

int main(void)
{
    unsigned subscribers, places, count, standbys;
    if (scanf("%u %u %u %u", &subscribers, &places, &count, &standbys) != 4 || subscribers > MOST || standbys > 0)
        return 1;
    play(subscribers, 0, WARM);
    int64_t start = now_ns();
    unsigned sent = play(subscribers, WARM, WARM + count);
    printf("%u %lld\n", sent, (long long)(now_ns() - start));
    return 0;
}
