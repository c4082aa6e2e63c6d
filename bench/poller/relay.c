// A bare relay and a load for it, over UDP on this machine.
//
// `relay COUNT` binds a socket, prints its port, and sends 16 bytes back to the sender of each datagram, COUNT times.
// `load FD PORT COUNT BURST MICROSECONDS` sends COUNT datagrams of 44 bytes from the bound socket FD, in bursts of
// BURST datagrams, one burst each MICROSECONDS. With 0 it waits for the replies to a burst before it sends the next. It
// prints the number of replies.
#include <arpa/inet.h>
#include <stdio.h>
#include <stdlib.h>
#include <string.h>
#include <sys/socket.h>
#include <time.h>

static const long long SECOND = 1000000000;

static int relay(long count) {
    int fd = socket(AF_INET, SOCK_DGRAM, 0);
    int room = 4194304;
    setsockopt(fd, SOL_SOCKET, SO_RCVBUF, &room, sizeof room);
    struct sockaddr_in at = {.sin_family = AF_INET, .sin_addr.s_addr = htonl(INADDR_LOOPBACK)};
    socklen_t len = sizeof at;
    if (bind(fd, (struct sockaddr *)&at, len) || getsockname(fd, (struct sockaddr *)&at, &len)) return 1;
    printf("%d\n", ntohs(at.sin_port));
    fflush(stdout);
    unsigned char bytes[2048];
    for (long came = 0; came < count; came++) {
        struct sockaddr_in from;
        socklen_t size = sizeof from;
        if (recvfrom(fd, bytes, sizeof bytes, 0, (struct sockaddr *)&from, &size) < 0) return 1;
        if (sendto(fd, bytes, 16, 0, (struct sockaddr *)&from, size) < 0) return 1;
    }
    return 0;
}

static void put(unsigned char *at, unsigned word) {
    unsigned wire = htonl(word);
    memcpy(at, &wire, 4);
}

static long long now(void) {
    struct timespec it;
    clock_gettime(CLOCK_MONOTONIC, &it);
    return it.tv_sec * 1000000000LL + it.tv_nsec;
}

// The number of replies that came, `most` at most. Polls until the moment `end` without sleeping, so that no arrival
// has to wake it.
static long answers(int fd, long most, long long end) {
    unsigned char bytes[2048];
    long came = 0;
    while (came < most) {
        if (recv(fd, bytes, sizeof bytes, MSG_DONTWAIT) >= 0) came++;
        else if (now() >= end) break;
    }
    return came;
}

static int load(int fd, int port, long count, int burst, long micros) {
    struct sockaddr_in to = {.sin_family = AF_INET, .sin_addr.s_addr = htonl(INADDR_LOOPBACK), .sin_port = htons(port)};
    if (connect(fd, (struct sockaddr *)&to, sizeof to)) return 1;
    // A Full ACK to the first session of the first route.
    static const unsigned words[11] = {0x80020000, 1, 0, 0x00100000, 0, 10000, 100, 8192, 0, 0, 0};
    unsigned char bytes[44];
    for (int k = 0; k < 11; k++) put(bytes + 4 * k, words[k]);
    long came = 0;
    long long due = now();
    for (long sent = 0; sent < count;) {
        for (int k = 0; k < burst; k++, sent++)
            if (send(fd, bytes, sizeof bytes, 0) < 0) return 1;
        if (micros == 0) {
            came += answers(fd, burst, now() + SECOND);
        } else {
            due += micros * 1000;
            came += answers(fd, sent - came, due);
            while (now() < due) {}
        }
    }
    came += answers(fd, count - came, now() + SECOND);
    printf("%ld\n", came);
    return 0;
}

int main(int argc, char **argv) {
    if (argc == 3 && !strcmp(argv[1], "relay")) return relay(atol(argv[2]));
    if (argc == 7 && !strcmp(argv[1], "load")) return load(atoi(argv[2]), atoi(argv[3]), atol(argv[4]), atoi(argv[5]), atol(argv[6]));
    return 2;
}
