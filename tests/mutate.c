/* The sender of tests/mutate.py: sends mutated requests to a running server over UDP or TCP, and looks at each reply.
 * Usage: mutate udp|tcp PORT SEED COUNT SECONDS FILE [RATE [ADDRESS]]. FILE has a request a line, in hexadecimal; RATE is how many are sent a second at
 * most, 0 for as many as there can be, and ADDRESS from where. It prints what it has done, and each wrong
 * reply with its request; its status is 1 where one was wrong, or where a plain query, asked after each 10,000 requests, got no reply.
 *
 * What is right is read from the octets sent, by a reader of its own (RFC 1035, 4.1; RFC 2136, 2; RFC 6891, 6.1): no reply below twelve octets
 * and where QR is 1; NOTIMP of an OPCODE other than 0 and 5; FORMERR and a header alone where the question or a record can't be read; else
 * another reply. ID, OPCODE and RD are repeated (RD not of an update), QR is 1, and RA and Z are 0. */
#include <arpa/inet.h>
#include <errno.h>
#include <fcntl.h>
#include <poll.h>
#include <stdint.h>
#include <stdio.h>
#include <stdlib.h>
#include <string.h>
#include <sys/socket.h>
#include <time.h>
#include <unistd.h>

enum { MOST = 65535, KEPT = 64, WRONG_SHOWN = 20 };
enum kind { SILENT, NOTIMP, UNREAD, READ };

static uint64_t state;
static uint64_t drawn(void) {
    state ^= state << 13;
    state ^= state >> 7;
    state ^= state << 17;
    return state * 0x2545F4914F6CDD1DULL >> 11;
}
static unsigned below(unsigned n) { return n ? (unsigned)(drawn() % n) : 0; }

/* the requests of the file */
static unsigned char **own;
static int *lens, owns;

static void read_file(const char *path) {
    static char line[2 * MOST + 4];
    FILE *file = fopen(path, "r");
    if (!file) exit(2);
    while (fgets(line, sizeof line, file)) {
        int len = strcspn(line, "\r\n") / 2;
        if (len < 1 || len > MOST) continue;
        own = realloc(own, (owns + 1) * sizeof *own);
        lens = realloc(lens, (owns + 1) * sizeof *lens);
        own[owns] = malloc(len);
        for (int i = 0; i < len; i++) {
            unsigned octet;
            sscanf(line + 2 * i, "%2x", &octet);
            own[owns][i] = octet;
        }
        lens[owns++] = len;
    }
    fclose(file);
}

static unsigned at2(const unsigned char *m, int at) { return m[at] << 8 | m[at + 1]; }

/* the place behind the name at a place, or -1; its length goes to *wire (RFC 1035, 4.1.4; a target lies below where its run of labels began) */
static int behind_name(const unsigned char *m, int len, int at, int *wire) {
    int behind = -1, run = at, size = 0;
    for (;;) {
        if (at >= len) return -1;
        int n = m[at];
        if (n == 0) {
            *wire = size + 1;
            return behind < 0 ? at + 1 : behind;
        }
        if (n >= 0xC0) {
            if (at + 1 >= len) return -1;
            int target = at2(m, at) & 0x3FFF;
            if (target >= run) return -1;
            if (behind < 0) behind = at + 2;
            run = at = target;
        } else if (n >= 0x40) {
            return -1;
        } else {
            if (at + 1 + n > len) return -1;
            size += 1 + n;
            if (size > 254) return -1;
            at += 1 + n;
        }
    }
}

/* what a request is read as; *is_sure tells whether that is all that decides between FORMERR and others */
static enum kind kind_of(const unsigned char *m, int len, int *is_sure) {
    *is_sure = 1;
    if (len < 12 || m[2] & 0x80) return SILENT;
    int opcode = m[2] >> 3 & 15;
    if (opcode != 0 && opcode != 5) return NOTIMP;
    if (at2(m, 4) != 1) return UNREAD;
    int wire, at = behind_name(m, len, 12, &wire);
    if (at < 0 || at + 4 > len) return UNREAD;
    unsigned type = at2(m, at);
    at += 4;
    int opts = 0, is_faulty = 0;
    for (int section = 0; section < 3; section++) {
        for (unsigned count = at2(m, 6 + 2 * section); count; count--) {
            int begin = at;
            at = behind_name(m, len, at, &wire);
            if (at < 0 || at + 10 > len) return UNREAD;
            unsigned own_type = at2(m, at), size = at2(m, at + 8);
            at += 10;
            if (at + (int)size > len) return UNREAD;
            at += size;
            if (section == 2 && own_type == 41) {
                opts++;
                if (wire != 1) is_faulty = 1;
            }
            (void)begin;
        }
    }
    /* a transfer's serial and an update's data and zone section decide too, and so do faults of the OPT */
    if (opcode == 5 || type == 251 || type == 252 || opts > 1 || is_faulty) *is_sure = 0;
    return READ;
}

static unsigned long wrongs, replies, silents;
static void wrong(const char *what, const unsigned char *m, int len, const unsigned char *r, int size) {
    if (wrongs++ >= WRONG_SHOWN) return;
    printf("WRONG %s\n  request ", what);
    for (int i = 0; i < len && i < 600; i++) printf("%02x", m[i]);
    printf("\n  reply   ");
    for (int i = 0; i < size && i < 600; i++) printf("%02x", r[i]);
    printf("\n");
    fflush(stdout);
}

/* whether a reply to a request may be; a further message of a transfer isn't asked for its length */
static const char *fault_of(const unsigned char *m, int len, const unsigned char *r, int size) {
    int is_sure;
    enum kind kind = kind_of(m, len, &is_sure);
    if (kind == SILENT) return "no reply is due";
    if (size < 12) return "a reply below twelve octets";
    int opcode = m[2] >> 3 & 15, code = r[3] & 15;
    if (at2(r, 0) != at2(m, 0)) return "another ID";
    if (!(r[2] & 0x80)) return "QR is 0";
    if ((r[2] >> 3 & 15) != opcode) return "another OPCODE";
    if ((r[2] & 1) != (opcode == 5 ? 0 : m[2] & 1)) return "another RD";
    if (r[3] & 0xF0) return "RA or Z";
    if (kind == NOTIMP) return code == 4 && size == 12 ? 0 : "NOTIMP and a header alone are due";
    if (kind == UNREAD) return code == 1 && size == 12 ? 0 : "FORMERR and a header alone are due";
    if (is_sure && code == 1) return "FORMERR of what can be read";
    if (code > 10) return "a code that there isn't";
    if (opcode == 0 && !(code <= 5 || code == 9)) return "a code that a query doesn't get";
    return 0;
}

/* a request with some faults, of at most so many octets; its ID is the number's */
static int mutated(unsigned char *m, int most, unsigned number) {
    int which = below(owns), len = lens[which];
    if (len > most) len = most;
    memcpy(m, own[which], len);
    for (unsigned times = below(4); times + 1; times--) {
        int at = below(len ? len : 1);
        switch (below(12)) {
        case 0: case 1: if (len) m[at] ^= 1 << below(8); break;
        case 2: if (len) m[at] = drawn(); break;
        case 3: len = below(len + 1); break;
        case 4: for (unsigned n = below(40); n && len < most; n--) m[len++] = drawn(); break;
        case 5: /* a count */
            if (len >= 12) {
                static const unsigned counts[] = {0, 1, 2, 3, 255, 256, 65535};
                unsigned n = counts[below(7)], place = 4 + 2 * below(4);
                m[place] = n >> 8, m[place + 1] = n;
            }
            break;
        case 6: /* a pointer, to itself, forwards or anywhere */
            if (len > 14) {
                int place = 12 + below(len - 13);
                static const int by[] = {0, 2, -2, 1, -12};
                int target = below(2) ? place + by[below(5)] : (int)below(len);
                m[place] = 0xC0 | (target >> 8 & 0x3F), m[place + 1] = target;
            }
            break;
        case 7: /* a length, of a label or of data */
            if (len > 12) m[12 + below(len - 12)] = below(2) ? below(64) : 0x3F + below(4);
            break;
        case 8: /* a piece again, in its place or behind */
            if (len > 12) {
                int from = below(len), n = below(len - from + 1);
                if (n > most - len) n = most - len;
                memmove(m + from + n, m + from, len - from);
                len += n;
            }
            break;
        case 9: /* the end of another */
            {
                int other = below(owns), from = below(lens[other] + 1), n = lens[other] - from;
                if (n > most - at) n = most - at;
                memcpy(m + at, own[other] + from, n);
                len = at + n;
            }
            break;
        case 10: if (len) m[at] = below(2) ? 0 : 255; break;
        default: /* a piece is left out */
            if (len > 12) {
                int from = below(len), n = below(len - from + 1);
                memmove(m + from, m + from + n, len - from - n);
                len -= n;
            }
        }
    }
    if (len >= 2) m[0] = number >> 8, m[1] = number;
    return len;
}

static struct sockaddr_in server, client;
static double rate;
static double now(void) {
    struct timespec t;
    clock_gettime(CLOCK_MONOTONIC, &t);
    return t.tv_sec + t.tv_nsec / 1e9;
}

/* waits until a batch more is due */
static void pace(double began, unsigned long sent) {
    double wait = rate > 0 ? began + sent / rate - now() : 0;
    if (wait > 0) usleep(wait < 1 ? wait * 1e6 : 1e6);
}

/* a socket to the server, from the address that was asked for */
static int made(int kind) {
    int fd = socket(AF_INET, kind, 0);
    if (client.sin_addr.s_addr) bind(fd, (void *)&client, sizeof client);
    if (connect(fd, (void *)&server, sizeof server)) {
        close(fd);
        return -1;
    }
    return fd;
}

static int waits(int fd, int events, int ms) {
    struct pollfd p = {fd, events, 0};
    return poll(&p, 1, ms) > 0;
}

/* the SOA of the zone is asked, which no update takes away: it has to be told */
static void plain(int fd, unsigned number, int is_tcp) {
    static const unsigned char rest[] = {1, 0, 0, 1, 0, 0, 0, 0, 0, 0, 7, 'e', 'x', 'a', 'm', 'p', 'l', 'e', 4, 't', 'e', 's', 't', 0, 0, 6, 0, 1};
    unsigned char m[64], r[4096];
    int len = 2 + sizeof rest, off = is_tcp ? 2 : 0;
    m[0] = 0, m[1] = len, m[off] = number >> 8, m[off + 1] = number;
    memcpy(m + off + 2, rest, sizeof rest);
    int have = 0, got = 0;
    if (send(fd, m, off + len, MSG_NOSIGNAL) != off + len) got = -1;
    double end = now() + 5;
    while (got >= 0 && now() < end && waits(fd, POLLIN, 5000)) {
        got = recv(fd, r + have, sizeof r - have, 0);
        if (got <= 0) break;
        if (is_tcp) {
            have += got;
            if (have < 2 || have < 2 + (int)at2(r, 0)) continue;
        }
        if (at2(r, off) != (number & 65535)) continue;
        /* an update may have made an SOA that no datagram of 512 octets has room for: then TC is 1 */
        if ((r[off + 3] & 15) || (at2(r, off + 6) != 1 && (is_tcp || !(r[off + 2] & 2)))) wrong("a plain query isn't answered with the SOA", m + off, len, r + off, got - off);
        return;
    }
    wrong("a plain query isn't answered", m + off, len, r, 0);
}

struct sent {
    unsigned char octets[4096];
    int len;
    unsigned number;
    double at;
};

static unsigned long done;
static unsigned long lost;

static void over_udp(unsigned long count, double end) {
    static struct sent kept[KEPT];
    static unsigned char r[MOST];
    int fd = made(SOCK_DGRAM), size = 1 << 22;
    setsockopt(fd, SOL_SOCKET, SO_RCVBUF, &size, sizeof size);
    unsigned number = 0;
    double began = now();
    while (done < count && now() < end) {
        pace(began, done);
        int due = 0;
        for (int i = 0; i < KEPT; i++) {
            struct sent *one = kept + i;
            one->number = ++number & 65535;
            one->len = mutated(one->octets, sizeof one->octets, one->number);
            int is_sure;
            if (kind_of(one->octets, one->len, &is_sure) == SILENT) silents++;
            else due++;
            send(fd, one->octets, one->len, 0);
        }
        done += KEPT;
        int had[KEPT] = {0};
        while (due && waits(fd, POLLIN, 1000)) {
            int got = recv(fd, r, sizeof r, MSG_DONTWAIT);
            if (got < 0) continue;
            unsigned id = got >= 2 ? at2(r, 0) : 0, place = (id - kept[0].number) & 65535;
            if (got < 2 || place >= KEPT) {
                wrong("a reply to none of the last requests", kept[0].octets, kept[0].len, r, got);
                continue;
            }
            const char *fault = fault_of(kept[place].octets, kept[place].len, r, got);
            if (had[place]++) fault = "a second reply";
            if (fault) wrong(fault, kept[place].octets, kept[place].len, r, got);
            replies++, due--;
        }
        if (due) {
            lost += due;
            for (int i = 0; i < KEPT; i++) {
                int is_sure;
                if (!had[i] && kind_of(kept[i].octets, kept[i].len, &is_sure) != SILENT && lost < 20) wrong("no reply", kept[i].octets, kept[i].len, r, 0);
            }
        }
        if (done % 10000 < KEPT) plain(fd, ++number, 0);
    }
    close(fd);
}

static int whole(int fd, unsigned char *r, int n) {
    int have = 0;
    while (have < n) {
        if (!waits(fd, POLLIN, 20000)) return -1;
        int got = recv(fd, r + have, n - have, 0);
        if (got <= 0) return -1;
        have += got;
    }
    return 0;
}

/* a batch of frames, then a query of type A for a name that doesn't exist, which closes the batch, and all replies until that one's */
static void over_tcp(unsigned long count, double end) {
    static struct sent kept[KEPT];
    static unsigned char out[KEPT * 4200], r[MOST];
    unsigned number = 0;
    int fd = -1, batches = 0;
    double began = now();
    while (done < count && now() < end) {
        pace(began, done);
        if (fd < 0 && (fd = made(SOCK_STREAM)) < 0) {
            wrong("no connection", r, 0, r, 0);
            return;
        }
        int len = 0, due = 0;
        for (int i = 0; i < KEPT; i++) {
            struct sent *one = kept + i;
            int is_sure;
            one->number = ++number & 65535;
            one->len = mutated(one->octets, sizeof one->octets, one->number);
            if (kind_of(one->octets, one->len, &is_sure) == SILENT) silents++;
            else due++;
            out[len] = one->len >> 8, out[len + 1] = one->len;
            memcpy(out + len + 2, one->octets, one->len);
            len += 2 + one->len;
        }
        done += KEPT;
        unsigned last = ++number & 65535;
        static const unsigned char rest[] = {1, 0, 0, 1, 0, 0, 0, 0, 0, 0, 2, 'z', 'z', 0, 0, 1, 0, 1};
        out[len] = 0, out[len + 1] = 2 + sizeof rest, out[len + 2] = last >> 8, out[len + 3] = last;
        memcpy(out + len + 4, rest, sizeof rest);
        len += 4 + sizeof rest;
        int place = -1, gone = 0;
        fcntl(fd, F_SETFL, O_NONBLOCK);
        unsigned char head[2];
        int is_over = 0;
        while (!is_over) {
            /* both ways at once, so that neither side waits for the other */
            struct pollfd p = {fd, POLLIN | (gone < len ? POLLOUT : 0), 0};
            if (poll(&p, 1, 20000) <= 0) {
                wrong("no reply over TCP", kept[place < 0 ? 0 : place].octets, kept[place < 0 ? 0 : place].len, r, 0);
                break;
            }
            if (p.revents & POLLOUT) {
                int n = send(fd, out + gone, len - gone, MSG_NOSIGNAL);
                if (n > 0) gone += n;
                else if (errno != EAGAIN) break;
            }
            if (!(p.revents & (POLLIN | POLLHUP | POLLERR))) continue;
            if (whole(fd, head, 2) || whole(fd, r, at2(head, 0))) {
                wrong("the connection has ended", kept[place < 0 ? 0 : place].octets, kept[place < 0 ? 0 : place].len, r, 0);
                close(fd);
                fd = -1;
                break;
            }
            int size = at2(head, 0);
            unsigned id = size >= 2 ? at2(r, 0) : 0;
            if (id == last) {
                is_over = 1;
                break;
            }
            int to = (id - kept[0].number) & 65535;
            if (to >= KEPT || to < place) {
                wrong("a reply out of its order", kept[0].octets, kept[0].len, r, size);
                continue;
            }
            if (to == place) {
                /* a further message of a transfer */
                if ((kept[to].octets[2] >> 3 & 15) != 0) wrong("a second reply", kept[to].octets, kept[to].len, r, size);
                continue;
            }
            const char *fault = fault_of(kept[to].octets, kept[to].len, r, size);
            if (fault) wrong(fault, kept[to].octets, kept[to].len, r, size);
            for (int i = place + 1; i < to; i++) {
                int is_sure;
                if (kind_of(kept[i].octets, kept[i].len, &is_sure) != SILENT) wrong("no reply", kept[i].octets, kept[i].len, r, 0);
            }
            place = to;
            replies++, due--;
        }
        if (is_over)
            for (int i = place + 1; i < KEPT; i++) {
                int is_sure;
                if (kind_of(kept[i].octets, kept[i].len, &is_sure) != SILENT) wrong("no reply", kept[i].octets, kept[i].len, r, 0);
            }
        if (fd < 0) continue;
        fcntl(fd, F_SETFL, 0);
        if (done % 10000 < KEPT) plain(fd, ++number, 1);
        if (++batches % 50 == 0) {
            /* a frame that isn't whole ends the connection */
            int n = 1 + below(60);
            for (int i = 0; i < n; i++) out[i] = drawn();
            out[0] = 0xff;
            send(fd, out, n, MSG_NOSIGNAL);
            shutdown(fd, SHUT_WR);
            if (!waits(fd, POLLIN, 20000) || recv(fd, r, 1, 0) != 0) wrong("a torn frame doesn't end its connection", out, n, r, 0);
            close(fd);
            fd = -1;
        }
    }
    if (fd >= 0) close(fd);
}

int main(int argc, char **argv) {
    if (argc < 7 || argc > 9) return 2;
    rate = argc > 7 ? atof(argv[7]) : 0;
    client.sin_family = AF_INET;
    if (argc > 8) inet_pton(AF_INET, argv[8], &client.sin_addr);
    int is_tcp = !strcmp(argv[1], "tcp");
    server.sin_family = AF_INET;
    server.sin_port = htons(atoi(argv[2]));
    server.sin_addr.s_addr = htonl(INADDR_LOOPBACK);
    state = strtoull(argv[3], 0, 10) * 0x9E3779B97F4A7C15ULL + 1;
    read_file(argv[6]);
    double end = now() + atof(argv[5]), began = now();
    if (is_tcp) over_tcp(strtoul(argv[4], 0, 10), end);
    else over_udp(strtoul(argv[4], 0, 10), end);
    printf("%s, seed %s: %lu requests, %lu replies, %lu that get none, %lu lost, %lu wrong, %.0f a second\n", argv[1], argv[3], done, replies, silents, lost, wrongs, done / (now() - began));
    return wrongs != 0 || lost > done / 100000;
}
