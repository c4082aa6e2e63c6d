/* A relay in one bare loop, on PORT of 127.0.0.1: it receives a datagram, and copies and sends it to each subscriber.

   relay PORT

   The datagrams have SRT's sizes and fields, and each way there are as many as with SRT: a route acknowledges each 64th
   data packet, and one that comes 10 ms or more after the last ACK; the reply to an ACK is an ACKACK. A control packet of
   type 7fff registers its sender with the route in its second word, under the ID in its third word. */
#include <arpa/inet.h>
#include <stdint.h>
#include <stdlib.h>
#include <string.h>
#include <sys/socket.h>
#include <time.h>

enum { ROUTES = 512, PLACES = 16, FIRST_ID = 0x1000 };

static struct route {
    int count, unacked;
    uint32_t ack_number, front;
    int64_t ack_time;
    struct sockaddr_in to[PLACES];
    uint32_t id[PLACES];
} routes[ROUTES];

static uint32_t word_at(const uint8_t *at) {
    uint32_t word;
    memcpy(&word, at, 4);
    return ntohl(word);
}

static void put(uint8_t *at, uint32_t word) {
    word = htonl(word);
    memcpy(at, &word, 4);
}

static int64_t now_us(void) {
    struct timespec it;
    clock_gettime(CLOCK_MONOTONIC, &it);
    return it.tv_sec * 1000000ll + it.tv_nsec / 1000;
}

int main(int count, char **words) {
    static uint8_t in[2048], out[2048], ack[44];
    int it = socket(AF_INET, SOCK_DGRAM, 0), room = 4 << 20;
    struct sockaddr_in at = {.sin_family = AF_INET, .sin_addr.s_addr = htonl(INADDR_LOOPBACK)}, from;
    at.sin_port = htons(count > 1 ? atoi(words[1]) : 0);
    setsockopt(it, SOL_SOCKET, SO_RCVBUF, &room, sizeof room);
    if (bind(it, (void *)&at, sizeof at))
        return 1;
    for (;;) {
        socklen_t size = sizeof from;
        ssize_t length = recvfrom(it, in, sizeof in, 0, (void *)&from, &size);
        if (length < 16)
            continue;
        uint32_t first = word_at(in), to = word_at(in + 12);
        if (to >= ROUTES)
            continue;
        struct route *route = &routes[to];
        if (first == 0xffff0000u && route->count < PLACES) {
            route->to[route->count] = from;
            route->id[route->count++] = word_at(in + 8);
        } else if (first == 0x80020000u) {
            put(ack, 0x80060000u), put(ack + 4, word_at(in + 4)), put(ack + 12, FIRST_ID + to);
            sendto(it, ack, 16, 0, (void *)&from, size);
        } else if (first < 0x80000000u) {
            for (int i = 0; i < route->count; i++) {
                memcpy(out, in, length);
                put(out + 12, route->id[i]);
                sendto(it, out, length, 0, (void *)&route->to[i], sizeof route->to[i]);
            }
            int64_t now = now_us();
            if (++route->unacked == 64 || now - route->ack_time >= 10000) {
                put(ack, 0x80020000u), put(ack + 4, ++route->ack_number), put(ack + 12, FIRST_ID + to);
                put(ack + 16, first + 1);
                sendto(it, ack, 44, 0, (void *)&from, size);
                route->unacked = 0, route->ack_time = now;
            }
        }
    }
}
