/* Callers of a relay, and the measurement of what they get. One thread sends, one receives.

   load MODE IN OUT ROUTES SUBSCRIBERS RATE SECONDS LATENCY_MS PID

   MODE srt: SRT callers (draft-sharabayko-srt-01): a publisher and SUBSCRIBERS subscribers of each of ROUTES routes, which
   are named r0, r1 and so on. Publishers call port IN, subscribers port OUT of 127.0.0.1.
   MODE raw: the same datagrams without handshakes, for relay.c.
   MODE plain: UDP payloads to port IN; they are expected at port OUT of this machine, with no calls.

   RATE is the number of packets a second over all routes. Each has 1316 bytes, with its number and the moment when it was
   sent. A publisher replies to each ACK with an ACKACK, and never retransmits. A subscriber acknowledges each 64th packet,
   and every 10 ms if one came, up to the greatest sequence number that came, as if none were missing, so what is lost
   stays lost. A gateway numbers its packets itself: after a loss their sequence numbers are less than the publisher's.
   Both threads sleep between their turns and then take all that has arrived. Latencies are computed from the kernel's
   timestamp of the arrival, and leave out the first and the last tenth of the packets: when nothing more arrives, what is
   held back comes out at ticks only.

   Prints one line of names and numbers. cpu_ns is the processor time of PID from half a second after the start to the end
   of sending; relayed is the number of packets that came out in that time, datagrams that of all datagrams, both ways. */
#define _GNU_SOURCE
#include <arpa/inet.h>
#include <dirent.h>
#include <pthread.h>
#include <stdatomic.h>
#include <stdint.h>
#include <stdio.h>
#include <stdlib.h>
#include <string.h>
#include <sys/prctl.h>
#include <sys/socket.h>
#include <time.h>
#include <unistd.h>

enum { PAYLOAD = 1316, BATCH = 64, FIRST_ID = 0x1000, WINDOW = 8192 };
enum mode { SRT, RAW, PLAIN };

struct sub {
    uint32_t peer;        /* the destination socket ID of what it sends */
    uint32_t next;        /* one more than the greatest sequence number that came */
    uint32_t acked;       /* the value of `next` in the last ACK */
    uint32_t ack_number;
    int64_t ack_time;
    uint64_t got, doubled;
    uint8_t *seen;
};

static enum mode mode;
static int routes, subscribers, latency_ms, rate, pid, in_port, out_port;
static double seconds;
static uint64_t packets;          /* the number of packets of all routes */
static uint32_t each;             /* the number of packets of each route */
static int pub_socket, sub_socket;
static int64_t began;
static uint32_t *pub_peers;
static struct sub *subs;
static uint32_t *latencies;
static uint64_t latency_count, latency_room;
static _Atomic uint64_t received, datagrams;
static _Atomic int done;

static void fail(const char *text) {
    printf("failed: %s\n", text);
    exit(1);
}

static int64_t now_ns(clockid_t clock) {
    struct timespec it;
    clock_gettime(clock, &it);
    return it.tv_sec * 1000000000ll + it.tv_nsec;
}

static uint32_t stamp(void) { return (uint32_t)((now_ns(CLOCK_MONOTONIC) - began) / 1000); }

static void rest(int64_t ns) {
    struct timespec it = {ns / 1000000000, ns % 1000000000};
    nanosleep(&it, NULL);
}

static void put(uint8_t *at, uint32_t word) {
    word = htonl(word);
    memcpy(at, &word, 4);
}

static uint32_t word_at(const uint8_t *at) {
    uint32_t word;
    memcpy(&word, at, 4);
    return ntohl(word);
}

static int open_socket(int port, int own) {
    int it = socket(AF_INET, SOCK_DGRAM | SOCK_CLOEXEC, 0), room = 64 << 20, yes = 1;
    struct sockaddr_in at = {.sin_family = AF_INET, .sin_port = htons(own), .sin_addr.s_addr = htonl(INADDR_LOOPBACK)};
    if (setsockopt(it, SOL_SOCKET, SO_RCVBUFFORCE, &room, sizeof room))
        setsockopt(it, SOL_SOCKET, SO_RCVBUF, &room, sizeof room);
    setsockopt(it, SOL_SOCKET, SO_TIMESTAMPNS, &yes, sizeof yes);
    if (bind(it, (void *)&at, sizeof at))
        fail("bind");
    at.sin_port = htons(port);
    if (port && connect(it, (void *)&at, sizeof at))
        fail("connect");
    return it;
}

static void send_all(int socket, const uint8_t *bytes, size_t length) {
    atomic_fetch_add_explicit(&datagrams, 1, memory_order_relaxed);
    send(socket, bytes, length, 0);
}

static size_t control(uint8_t *at, uint32_t kind, uint32_t info, uint32_t to) {
    put(at, 0x80000000u | kind << 16);
    put(at + 4, info);
    put(at + 8, stamp());
    put(at + 12, to);
    return 16;
}

/* Handshakes (section 4.3.1). One induction from a socket gives the cookie for all its sessions. */

static size_t handshake(uint8_t *at, int version, int extension, uint32_t kind, uint32_t id, uint32_t cookie) {
    size_t length = control(at, 0, 0, 0);
    uint32_t words[8] = {version, extension, 0, 1500, WINDOW, kind, id, cookie};
    for (int i = 0; i < 8; i++)
        put(at + length + 4 * i, words[i]);
    memset(at + length + 32, 0, 16);
    at[length + 32] = 1, at[length + 35] = 127;
    return length + 48;
}

static size_t conclusion(uint8_t *at, uint32_t id, uint32_t cookie, int route, int publishes) {
    uint8_t text[64] = {0};
    size_t length = handshake(at, 5, 5, 0xffffffffu, id, cookie);
    put(at + length, 1 << 16 | 3);
    put(at + length + 4, 0x00010501);
    put(at + length + 8, 0xbf);
    put(at + length + 12, latency_ms << 16 | latency_ms);
    length += 16;
    int words = (snprintf((char *)text, sizeof text, "#!::r=r%d,m=%s", route, publishes ? "publish" : "request") + 3) / 4;
    put(at + length, 5 << 16 | words);
    for (int i = 0; i < words; i++)
        for (int j = 0; j < 4; j++)
            at[length + 4 + 4 * i + j] = text[4 * i + 3 - j];
    return length + 4 + 4 * words;
}

/* Waits at most 100 ms for the answer to a handshake of this kind. Returns 0 if none came. */
static int answered(int socket, uint32_t kind, uint8_t *bytes) {
    struct timeval most = {0, 100000};
    setsockopt(socket, SOL_SOCKET, SO_RCVTIMEO, &most, sizeof most);
    for (;;) {
        ssize_t length = recv(socket, bytes, 2048, 0);
        if (length < 0)
            return 0;
        if (length < 64 || word_at(bytes) != 0x80000000u)
            continue;
        uint32_t found = word_at(bytes + 36);
        if (found >= 1000 && found < 2000) {
            printf("failed: refused with %u\n", found);
            exit(1);
        }
        if (found == kind)
            return 1;
    }
}

static void call_all(int socket, int count, uint32_t *peers, int publishes) {
    uint8_t out[256], in[2048];
    uint32_t cookie = 0;
    int left = count;
    for (int tries = 0; !cookie; tries++) {
        send(socket, out, handshake(out, 4, 2, 1, FIRST_ID, 0), 0);
        if (answered(socket, 1, in))
            cookie = word_at(in + 44);
        if (tries == 100)
            fail("no induction was answered");
    }
    for (int tries = 0; left; tries++) {
        for (int from = 0; from < count; from += 16) {
            int asked = 0;
            for (int i = from; i < count && i < from + 16; i++)
                if (!peers[i]) {
                    send(socket, out, conclusion(out, FIRST_ID + i, cookie, publishes ? i : i / subscribers, publishes), 0);
                    asked++;
                }
            while (asked && answered(socket, 0xffffffffu, in)) {
                uint32_t i = word_at(in + 12) - FIRST_ID;
                if (i < (uint32_t)count && !peers[i]) {
                    peers[i] = word_at(in + 40);
                    left--, asked--;
                }
            }
        }
        if (tries == 30)
            fail("not all sessions opened");
    }
}

static void register_all(int socket) {
    uint8_t out[16];
    for (int i = 0; i < routes * subscribers; i++) {
        control(out, 0x7fff, i / subscribers, i / subscribers);
        put(out + 8, FIRST_ID + i);
        send(socket, out, 16, 0);
    }
    rest(50000000);
}

/* Receives all that has arrived, a batch at a time. */

struct batch {
    struct mmsghdr heads[BATCH];
    struct iovec places[BATCH];
    uint8_t bytes[BATCH][2048], notes[BATCH][64];
};

static int take(int socket, struct batch *it) {
    for (int i = 0; i < BATCH; i++) {
        it->places[i] = (struct iovec){it->bytes[i], 2048};
        it->heads[i].msg_hdr = (struct msghdr){.msg_iov = &it->places[i], .msg_iovlen = 1, .msg_control = it->notes[i], .msg_controllen = 64};
    }
    int count = recvmmsg(socket, it->heads, BATCH, MSG_DONTWAIT, NULL);
    if (count > 0)
        atomic_fetch_add_explicit(&datagrams, count, memory_order_relaxed);
    return count;
}

static int64_t arrival(struct batch *it, int i) {
    struct msghdr *head = &it->heads[i].msg_hdr;
    for (struct cmsghdr *note = CMSG_FIRSTHDR(head); note; note = CMSG_NXTHDR(head, note))
        if (note->cmsg_level == SOL_SOCKET && note->cmsg_type == SCM_TIMESTAMPNS) {
            struct timespec at;
            memcpy(&at, CMSG_DATA(note), sizeof at);
            return at.tv_sec * 1000000000ll + at.tv_nsec;
        }
    return now_ns(CLOCK_REALTIME);
}

static void acknowledge(struct sub *it) {
    uint8_t out[44];
    uint32_t words[7] = {it->next, 100000, 50000, WINDOW, 0, 0, 0};
    control(out, 2, ++it->ack_number, it->peer);
    for (int i = 0; i < 7; i++)
        put(out + 16 + 4 * i, words[i]);
    send_all(sub_socket, out, 44);
    it->acked = it->next;
    it->ack_time = now_ns(CLOCK_MONOTONIC);
}

static void take_payload(struct sub *it, const uint8_t *payload, int64_t came) {
    uint32_t number;
    int64_t sent;
    memcpy(&number, payload, 4);
    memcpy(&sent, payload + 8, 8);
    if (number >= each)
        return;
    if (it->seen[number]) {
        it->doubled++;
        return;
    }
    it->seen[number] = 1;
    it->got++;
    if (latency_count < latency_room && number >= each / 10 && number < each - each / 10)
        latencies[latency_count++] = came > sent ? (came - sent) / 1000 : 0;
    atomic_fetch_add_explicit(&received, 1, memory_order_relaxed);
}

static void *receive_all(void *unused) {
    static struct batch batch;
    int count, all = routes * subscribers;
    prctl(PR_SET_TIMERSLACK, 1);
    while (!done) {
        while ((count = take(sub_socket, &batch)) > 0)
            for (int i = 0; i < count; i++) {
                uint8_t *bytes = batch.bytes[i];
                unsigned length = batch.heads[i].msg_len;
                if (mode == PLAIN) {
                    if (length == PAYLOAD)
                        take_payload(&subs[0], bytes, arrival(&batch, i));
                    continue;
                }
                uint32_t index = word_at(bytes + 12) - FIRST_ID;
                if (length != 16 + PAYLOAD || index >= (uint32_t)all || bytes[0] & 0x80)
                    continue;
                uint32_t sequence = word_at(bytes);
                if (sequence >= subs[index].next)
                    subs[index].next = sequence + 1;
                take_payload(&subs[index], bytes + 16, arrival(&batch, i));
                if (subs[index].next - subs[index].acked >= 64)
                    acknowledge(&subs[index]);
            }
        if (mode != PLAIN) {
            int64_t now = now_ns(CLOCK_MONOTONIC);
            for (int i = 0; i < all; i++)
                if (subs[i].next != subs[i].acked && now - subs[i].ack_time >= 10000000)
                    acknowledge(&subs[i]);
        }
        rest(500000);
    }
    return unused;
}

/* The processor time of all threads of a process, in nanoseconds. */
static int64_t cpu_of(int process) {
    char name[300];
    int64_t sum = 0;
    snprintf(name, sizeof name, "/proc/%d/task", process);
    DIR *tasks = opendir(name);
    if (!tasks)
        return 0;
    for (struct dirent *it; (it = readdir(tasks));) {
        long long ran = 0;
        snprintf(name, sizeof name, "/proc/%d/task/%s/schedstat", process, it->d_name);
        FILE *file = it->d_name[0] == '.' ? NULL : fopen(name, "r");
        if (file) {
            if (fscanf(file, "%lld", &ran) == 1)
                sum += ran;
            fclose(file);
        }
    }
    closedir(tasks);
    return sum;
}

static void answer_acks(struct batch *batch) {
    uint8_t out[16];
    int count;
    while ((count = take(pub_socket, batch)) > 0)
        for (int i = 0; i < count; i++) {
            uint8_t *bytes = batch->bytes[i];
            uint32_t index = word_at(bytes + 12) - FIRST_ID, number = word_at(bytes + 4);
            if (batch->heads[i].msg_len >= 20 && word_at(bytes) == 0x80020000u && number && index < (uint32_t)routes) {
                control(out, 6, number, pub_peers[index]);
                send_all(pub_socket, out, 16);
            }
        }
}

static void send_one(uint64_t k) {
    static uint8_t out[16 + PAYLOAD];
    uint32_t number = k / routes;
    int64_t now = now_ns(CLOCK_REALTIME);
    memcpy(out + 16, &number, 4);
    memcpy(out + 24, &now, 8);
    if (mode == PLAIN) {
        send_all(pub_socket, out + 16, PAYLOAD);
        return;
    }
    put(out, number);
    put(out + 4, 0xc0000000u | (1 + number % 0x3ffffff));
    put(out + 8, stamp());
    put(out + 12, pub_peers[k % routes]);
    send_all(pub_socket, out, sizeof out);
}

static int by_size(const void *a, const void *b) {
    uint32_t left = *(const uint32_t *)a, right = *(const uint32_t *)b;
    return left < right ? -1 : left > right;
}

static uint64_t sum_of_got(uint64_t *doubled) {
    uint64_t got = 0;
    *doubled = 0;
    for (int i = 0; i < routes * subscribers; i++)
        got += subs[i].got, *doubled += subs[i].doubled;
    return got;
}

int main(int count, char **words) {
    static struct batch batch;
    if (count != 10)
        fail("nine words are wanted");
    mode = !strcmp(words[1], "srt") ? SRT : !strcmp(words[1], "raw") ? RAW : PLAIN;
    in_port = atoi(words[2]), out_port = atoi(words[3]), routes = atoi(words[4]), subscribers = atoi(words[5]);
    rate = atoi(words[6]), seconds = atof(words[7]), latency_ms = atoi(words[8]), pid = atoi(words[9]);
    each = rate * seconds / routes;
    packets = (uint64_t)each * routes;
    latency_room = packets * subscribers;
    latencies = malloc(4 * latency_room + 4);
    subs = calloc(routes * subscribers, sizeof *subs);
    pub_peers = calloc(routes, 4);
    for (int i = 0; i < routes * subscribers; i++)
        subs[i].seen = calloc(each, 1);
    memset(latencies, 0, 4 * latency_room);
    began = now_ns(CLOCK_MONOTONIC);
    pub_socket = open_socket(in_port, 0);
    sub_socket = mode == PLAIN ? open_socket(0, out_port) : open_socket(out_port, 0);
    if (mode == SRT) {
        uint32_t *peers = calloc(routes * subscribers, 4);
        call_all(sub_socket, routes * subscribers, peers, 0);
        call_all(pub_socket, routes, pub_peers, 1);
        for (int i = 0; i < routes * subscribers; i++)
            subs[i].peer = peers[i];
    }
    if (mode == RAW) {
        register_all(sub_socket);
        for (int i = 0; i < routes; i++)
            pub_peers[i] = i;
        for (int i = 0; i < routes * subscribers; i++)
            subs[i].peer = i / subscribers;
    }
    pthread_t receiver;
    pthread_create(&receiver, NULL, receive_all, NULL);
    prctl(PR_SET_TIMERSLACK, 1);
    int64_t start = now_ns(CLOCK_MONOTONIC), first_cpu = 0, last_cpu, first_time = 0, last_time;
    uint64_t next = 0, first_received = 0, first_datagrams = 0, last_received, last_datagrams;
    double gap = 1e9 / rate;
    while (next < packets) {
        int64_t passed = now_ns(CLOCK_MONOTONIC) - start;
        if (!first_time && passed >= 500000000) {
            first_cpu = cpu_of(pid), first_received = received, first_datagrams = datagrams;
            first_time = now_ns(CLOCK_MONOTONIC);
        }
        uint64_t due = passed / gap + 1;
        for (; next < due && next < packets; next++)
            send_one(next);
        if (mode != PLAIN)
            answer_acks(&batch);
        int64_t left = (int64_t)(next * gap) - (now_ns(CLOCK_MONOTONIC) - start);
        if (left > 5000000)
            left = 5000000;
        rest(left > 50000 ? left : 50000);
    }
    last_cpu = cpu_of(pid), last_received = received, last_datagrams = datagrams;
    last_time = now_ns(CLOCK_MONOTONIC);
    uint64_t before = 0, quiet = 0, doubled;
    while (received < packets * subscribers && quiet < 1500) {
        if (mode != PLAIN)
            answer_acks(&batch);
        quiet = received == before ? quiet + 1 : 0;
        before = received;
        rest(1000000);
    }
    done = 1;
    pthread_join(receiver, NULL);
    if (mode == SRT)
        for (int i = 0; i < routes * (1 + subscribers); i++) {
            uint8_t out[16];
            int is_pub = i < routes;
            control(out, 5, 0, is_pub ? pub_peers[i] : subs[i - routes].peer);
            send(is_pub ? pub_socket : sub_socket, out, 16, 0);
        }
    qsort(latencies, latency_count, 4, by_size);
    uint64_t got = sum_of_got(&doubled), many = latency_count ? latency_count - 1 : 0;
    printf("sent %lu wanted %lu got %lu lost %lu doubled %lu p50_us %u p99_us %u p999_us %u cpu_ns %ld relayed %lu datagrams %lu window_ns %ld\n",
           packets, packets * subscribers, got, packets * subscribers - got, doubled, latencies[many / 2], latencies[many * 99 / 100],
           latencies[many * 999 / 1000], last_cpu - first_cpu, last_received - first_received, last_datagrams - first_datagrams, last_time - first_time);
    return 0;
}
