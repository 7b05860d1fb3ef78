/* What bench/peers.py measures with, on 127.0.0.1. It needs a C compiler alone.

   asks echo PORT WORKERS
   A bare UDP echo: a thread and a socket for each worker, which takes a datagram and sends it back with QR set, by two system calls. It runs until it is ended.

   asks paced OVER PORT RATE MILLISECONDS RECORDS
   Asks so many queries a second over `udp` or `tcp` (on one connection), of type A, by turns for a name that exists, one that doesn't, and an alias, of a zone of so
   many records as bench/servers.py writes it. Each is sent when its time has come, whether those before it are answered or not; the client never sleeps, so that none
   of its own waiting is measured. Prints how many were answered, how many weren't within a second, and of their latencies, in nanoseconds, the middle, the 99th
   percentile and the greatest. Status 1 where a connection ends. */
#include <arpa/inet.h>
#include <netinet/tcp.h>
#include <pthread.h>
#include <stdint.h>
#include <stdio.h>
#include <stdlib.h>
#include <string.h>
#include <sys/socket.h>
#include <time.h>
#include <unistd.h>

enum { IDS = 65536, ROOM = 1 << 17, BUFFER = 4 << 20 };

static void fail(const char *what) {
    perror(what);
    exit(1);
}

static uint64_t now(void) {
    struct timespec time;
    clock_gettime(CLOCK_MONOTONIC, &time);
    return (uint64_t)time.tv_sec * 1000000000u + (uint64_t)time.tv_nsec;
}

static struct sockaddr_in at(int port) {
    struct sockaddr_in address = {.sin_family = AF_INET, .sin_port = htons((uint16_t)port), .sin_addr.s_addr = htonl(INADDR_LOOPBACK)};
    return address;
}

static void *echoes(void *word) {
    int stream = (int)(intptr_t)word;
    for (;;) {
        uint8_t octets[65536];
        struct sockaddr_in from;
        socklen_t size = sizeof from;
        ssize_t got = recvfrom(stream, octets, sizeof octets, 0, (struct sockaddr *)&from, &size);
        if (got < 3) continue;
        octets[2] |= 0x80;
        sendto(stream, octets, (size_t)got, 0, (struct sockaddr *)&from, size);
    }
    return NULL;
}

static int echo(int port, int workers) {
    struct sockaddr_in own = at(port);
    pthread_t thread;
    for (int i = 0; i < workers; i++) {
        int one = 1, most = BUFFER, stream = socket(AF_INET, SOCK_DGRAM, 0);
        if (setsockopt(stream, SOL_SOCKET, SO_REUSEPORT, &one, sizeof one)) fail("setsockopt");
        setsockopt(stream, SOL_SOCKET, SO_RCVBUF, &most, sizeof most);
        if (bind(stream, (struct sockaddr *)&own, sizeof own)) fail("bind");
        if (pthread_create(&thread, NULL, echoes, (void *)(intptr_t)stream)) fail("pthread_create");
    }
    pthread_join(thread, NULL);
    return 1;
}

/* A query of a number, with two octets of its length before it: how many octets it has with these. */
static size_t query(uint8_t *to, uint64_t number, uint64_t records) {
    static const uint8_t head[] = {1, 0, 0, 1, 0, 0, 0, 0, 0, 0}, tail[] = {7, 'e', 'x', 'a', 'm', 'p', 'l', 'e', 4, 't', 'e', 's', 't', 0, 0, 1, 0, 1};
    uint64_t host = number * 7919 % (records - 2) / 10 * 10;
    char label[32];
    int len = snprintf(label, sizeof label, "%c%llu", number % 3 == 1 ? 'x' : 'h', (unsigned long long)(host + (number % 3 == 2 ? 9 : 0)));
    size_t size = 4;
    to[2] = (uint8_t)(number >> 8), to[3] = (uint8_t)number;
    memcpy(to + size, head, sizeof head), size += sizeof head;
    to[size++] = (uint8_t)len;
    memcpy(to + size, label, (size_t)len), size += (size_t)len;
    memcpy(to + size, tail, sizeof tail), size += sizeof tail;
    to[0] = (uint8_t)((size - 2) >> 8), to[1] = (uint8_t)(size - 2);
    return size;
}

static uint64_t sent[IDS], *latencies, count;

static void note(const uint8_t *reply, uint64_t time) {
    unsigned id = (unsigned)(reply[0] << 8 | reply[1]);
    if (!sent[id]) return;
    latencies[count++] = time - sent[id];
    sent[id] = 0;
}

/* Takes the replies that are there. */
static void take(int stream, int is_tcp) {
    static uint8_t held[ROOM];
    static size_t len;
    ssize_t got = recv(stream, held + len, sizeof held - len, MSG_DONTWAIT);
    if (got == 0 && is_tcp) fail("the server has ended the connection");
    if (got <= 0) return;
    uint64_t time = now();
    if (!is_tcp) {
        if (got >= 2) note(held, time);
        return;
    }
    len += (size_t)got;
    size_t done = 0;
    while (len - done >= 4 && len - done >= 2u + (size_t)(held[done] << 8 | held[done + 1])) {
        note(held + done + 2, time);
        done += 2u + (size_t)(held[done] << 8 | held[done + 1]);
    }
    memmove(held, held + done, len - done);
    len -= done;
}

static int order(const void *a, const void *b) {
    uint64_t one = *(const uint64_t *)a, other = *(const uint64_t *)b;
    return (one > other) - (one < other);
}

static int paced(int is_tcp, int port, uint64_t rate, uint64_t milliseconds, uint64_t records) {
    struct sockaddr_in server = at(port);
    int one = 1, stream = socket(AF_INET, is_tcp ? SOCK_STREAM : SOCK_DGRAM, 0);
    uint64_t all = rate * milliseconds / 1000, asked = 0;
    if (rate == 0 || rate > IDS / 2 || records < 20 || all == 0) return 2;
    latencies = calloc(all, sizeof *latencies);
    if (!latencies || stream < 0 || connect(stream, (struct sockaddr *)&server, sizeof server)) fail("connect");
    if (is_tcp) setsockopt(stream, IPPROTO_TCP, TCP_NODELAY, &one, sizeof one);
    uint64_t began = now(), end = began + all * 1000000000u / rate + 1000000000u;
    while (count < all && now() < end) {
        uint64_t time = now();
        if (asked < all && time - began >= asked * 1000000000u / rate) {
            uint8_t octets[128];
            size_t size = query(octets, asked, records), skip = is_tcp ? 0 : 2;
            sent[asked % IDS] = now();
            if (send(stream, octets + skip, size - skip, MSG_NOSIGNAL) != (ssize_t)(size - skip)) fail("send");
            asked++;
        }
        take(stream, is_tcp);
    }
    if (!count) fail("no reply came");
    qsort(latencies, count, sizeof *latencies, order);
    printf("%llu %llu %llu %llu %llu\n", (unsigned long long)count, (unsigned long long)(all - count), (unsigned long long)latencies[count / 2],
           (unsigned long long)latencies[count * 99 / 100], (unsigned long long)latencies[count - 1]);
    return 0;
}

int main(int words, char **word) {
    if (words == 4 && !strcmp(word[1], "echo")) return echo(atoi(word[2]), atoi(word[3]));
    if (words == 7 && !strcmp(word[1], "paced"))
        return paced(!strcmp(word[2], "tcp"), atoi(word[3]), strtoull(word[4], NULL, 10), strtoull(word[5], NULL, 10), strtoull(word[6], NULL, 10));
    fprintf(stderr, "asks: echo PORT WORKERS, or paced OVER PORT RATE MILLISECONDS RECORDS\n");
    return 2;
}
