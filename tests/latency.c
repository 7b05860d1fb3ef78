// The mean latency of queries over TCP: PORT CONNECTIONS OUTSTANDING MILLISECONDS. On each connection so many queries are outstanding; each reply is followed by the
// next query at once. It never sleeps, so that its own waiting isn't measured. Where no reply has come by then, it waits ten seconds for one. Prints nanoseconds, and how
// many replies came.
#include <arpa/inet.h>
#include <netinet/tcp.h>
#include <stdint.h>
#include <stdio.h>
#include <stdlib.h>
#include <string.h>
#include <sys/socket.h>
#include <time.h>
#include <unistd.h>

enum { MOST = 64 };

// www.example.test., type A, in a frame
static const uint8_t ask[36] = {0, 34, 0, 1, 1, 0, 0, 1, 0, 0, 0, 0, 0, 0, 3, 'w', 'w', 'w', 7, 'e', 'x', 'a', 'm', 'p', 'l', 'e', 4, 't', 'e', 's', 't', 0, 0, 1, 0, 1};

struct client {
    int stream;
    uint8_t held[65536];
    size_t len;
    uint64_t sent[MOST]; // when each query that is outstanding was sent, the first one at `first`
    int first;
};

static void fail(const char *what) {
    perror(what);
    exit(1);
}

static uint64_t now(void) {
    struct timespec time;
    clock_gettime(CLOCK_MONOTONIC, &time);
    return (uint64_t)time.tv_sec * 1000000000u + (uint64_t)time.tv_nsec;
}

static void send_queries(struct client *it, int count) {
    uint8_t octets[MOST * sizeof ask];
    for (int i = 0; i < count; i++) memcpy(octets + (size_t)i * sizeof ask, ask, sizeof ask);
    if (send(it->stream, octets, (size_t)count * sizeof ask, MSG_NOSIGNAL) != (ssize_t)((size_t)count * sizeof ask)) fail("send");
}

// Takes the replies that are there: adds the nanoseconds that each took, and gives how many they are.
static int take(struct client *it, int outstanding, uint64_t *sum) {
    ssize_t got = recv(it->stream, it->held + it->len, sizeof it->held - it->len, MSG_DONTWAIT);
    if (got == 0) fail("the server has ended a connection");
    if (got < 0) return 0;
    it->len += (size_t)got;
    uint64_t time = now();
    size_t at = 0;
    int count = 0;
    while (it->len - at >= 2 && it->len - at >= 2u + (size_t)(it->held[at] << 8 | it->held[at + 1])) {
        at += 2u + (size_t)(it->held[at] << 8 | it->held[at + 1]);
        *sum += time - it->sent[it->first];
        it->sent[it->first] = time;
        it->first = (it->first + 1) % outstanding;
        count++;
    }
    memmove(it->held, it->held + at, it->len - at);
    it->len -= at;
    if (count) send_queries(it, count);
    return count;
}

int main(int count, char **words) {
    if (count != 5) return 2;
    int port = atoi(words[1]), connections = atoi(words[2]), outstanding = atoi(words[3]);
    uint64_t length = strtoull(words[4], NULL, 10) * 1000000u;
    if (connections < 1 || connections > MOST || outstanding < 1 || outstanding > MOST) return 2;
    static struct client clients[MOST];
    struct sockaddr_in server = {.sin_family = AF_INET, .sin_port = htons((uint16_t)port), .sin_addr.s_addr = htonl(INADDR_LOOPBACK)};
    for (int i = 0; i < connections; i++) {
        struct client *it = &clients[i];
        int one = 1;
        it->stream = socket(AF_INET, SOCK_STREAM, 0);
        if (it->stream < 0 || connect(it->stream, (struct sockaddr *)&server, sizeof server)) fail("connect");
        setsockopt(it->stream, IPPROTO_TCP, TCP_NODELAY, &one, sizeof one);
        for (int k = 0; k < outstanding; k++) it->sent[k] = now();
        send_queries(it, outstanding);
    }
    uint64_t sum = 0, replies = 0, end = now() + length, last = end + 10000000000u;
    while (now() < (replies ? end : last))
        for (int i = 0; i < connections; i++) replies += (uint64_t)take(&clients[i], outstanding, &sum);
    if (!replies) fail("no reply came");
    printf("%llu %llu\n", (unsigned long long)(sum / replies), (unsigned long long)replies);
    return 0;
}
