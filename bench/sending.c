/* Sends updates of example.test to a server on 127.0.0.1 by UDP, so many outstanding: by turns an address at a name of its own is added, and the one that was added 50
   before is deleted, so that each makes a version. It ends after so many seconds, or after so many updates where these aren't 0, and prints how many were answered, in
   how many seconds, and how many a second. Status 1 where one is told another code than NOERROR, or no reply comes within ten seconds.
   Usage: sending PORT OUTSTANDING SECONDS UPDATES [RATE], at most so many a second. bench/store.sh and bench/peers.py make it by a C compiler. */
#include <arpa/inet.h>
#include <stdio.h>
#include <stdlib.h>
#include <string.h>
#include <sys/socket.h>
#include <sys/time.h>
#include <time.h>

enum { BEHIND = 50 };

static double now(void) {
    struct timespec is;
    clock_gettime(CLOCK_MONOTONIC, &is);
    return is.tv_sec + is.tv_nsec / 1e9;
}

/* An update of the record of a number, which is added (class IN) or deleted (class NONE): RFC 2136, 2.5.1 and 2.5.4. */
static size_t message(unsigned char *to, unsigned long id, char letter, unsigned long number, int adds) {
    static const unsigned char head[] = {0, 0, 0x28, 0, 0, 1, 0, 0, 0, 1, 0, 0, 7, 'e', 'x', 'a', 'm', 'p', 'l', 'e', 4, 't', 'e', 's', 't', 0, 0, 6, 0, 1};
    size_t at = sizeof head;
    memcpy(to, head, at);
    to[0] = id >> 8, to[1] = id;
    to[at] = sprintf((char *)to + at + 1, "%c%lu", letter, number);
    at += 1 + to[at];
    const unsigned char record[] = {0xc0, 0x0c, 0, 1, 0, adds ? 1 : 254, 0, 0, adds ? 0x0e : 0, adds ? 0x10 : 0, 0, 4, 192, 0, 2, 1};
    memcpy(to + at, record, sizeof record);
    return at + sizeof record;
}

static int fails(const char *why, unsigned long number) {
    fprintf(stderr, "sending: %s at update %lu\n", why, number);
    return 1;
}

int main(int count, char **words) {
    if (count != 5 && count != 6) return fails("PORT OUTSTANDING SECONDS UPDATES [RATE] are wanted", 0);
    unsigned long most = strtoul(words[2], 0, 10), all = strtoul(words[4], 0, 10), sent = 0, answered = 0;
    double rate = count == 6 ? atof(words[5]) : 0;
    struct sockaddr_in to = {AF_INET, htons(atoi(words[1])), {htonl(INADDR_LOOPBACK)}, {0}};
    struct timeval longest = {10, 0};
    int client = socket(AF_INET, SOCK_DGRAM, 0);
    if (connect(client, (struct sockaddr *)&to, sizeof to) || setsockopt(client, SOL_SOCKET, SO_RCVTIMEO, &longest, sizeof longest)) return fails("no socket", 0);
    double began = now(), end = all ? began + 1e9 : began + atof(words[3]);
    while (answered < sent || (now() < end && (!all || sent < all))) {
        while (sent - answered < most && now() < end && (!all || sent < all) && (!rate || sent < rate * (now() - began))) {
            unsigned char octets[128];
            unsigned long number = sent / 2;
            /* of the first ones nothing is to be deleted, so another is added */
            int is_first = sent % 2 == 0, adds = is_first || number < BEHIND;
            size_t size = message(octets, sent, is_first || !adds ? 'u' : 'v', adds ? number : number - BEHIND, adds);
            if (send(client, octets, size, 0) < 0) return fails("no update is sent", sent);
            sent++;
        }
        /* with a rate, the next one's time may not have come */
        if (sent == answered) continue;
        unsigned char reply[512];
        ssize_t size = recv(client, reply, sizeof reply, 0);
        if (size < 12) return fails("no reply comes", answered);
        if (reply[3] & 15) return fails("another code comes", answered);
        answered++;
    }
    double took = now() - began;
    printf("%lu %.3f %.1f\n", answered, took, answered / took);
}
