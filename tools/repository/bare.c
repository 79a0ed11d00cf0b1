/* The bare programs of tools/beside, the server and the generator.

     bare echo PORT             answers each datagram with one record: recvfrom, sendto
     bare stream PORT           answers over TCP, a send for each message
     bare relay PORT SERVER     hands each datagram to the server from a socket and a random port of its own
     bare answer PORT COUNTED   the server, over UDP and TCP: an address for each name, NXDOMAIN below gone.example
                                (RFC 2308 2.1); the file COUNTED has eight octets, which count the questions
     bare ask PORT NAMES WINDOW SECONDS
                                asks for the addresses of n0.example and so on, NAMES in turn, WINDOW questions at a
                                time, and never sleeps; prints the lines of dnsperf's report that are read

   All are at 127.0.0.1. They trust what they read: nobody but these tools asks them. */
#define _GNU_SOURCE
#include <arpa/inet.h>
#include <fcntl.h>
#include <netinet/in.h>
#include <netinet/tcp.h>
#include <signal.h>
#include <stdint.h>
#include <stdio.h>
#include <stdlib.h>
#include <string.h>
#include <strings.h>
#include <sys/epoll.h>
#include <sys/mman.h>
#include <sys/prctl.h>
#include <sys/random.h>
#include <sys/resource.h>
#include <sys/socket.h>
#include <time.h>
#include <unistd.h>

enum { ROOM = 65536, PATHS = 65536, EVENTS = 256, BUFFER = 1 << 20, HEADER = 12 };

/* Owner: the name at octet 12. A, IN, 3,600 seconds, 4 octets: 192.0.2.1. */
static const uint8_t ADDRESS[] = {0xc0, 12, 0, 1, 0, 1, 0, 0, 14, 16, 0, 4, 192, 0, 2, 1};
/* After an owner: SOA, IN, 3,600 seconds, 22 octets: root, root, 1, 2, 3, 4, 3,600. */
static const uint8_t START[] = {0, 6, 0, 1, 0, 0, 14, 16, 0, 22, 0, 0, 0, 0, 0, 1, 0, 0,
                                0, 2, 0, 0, 0, 3, 0, 0, 0, 4, 0, 0, 14, 16};
static const char GONE[] = "\4gone\7example";

static void check(long result, const char *what)
{
    if (result < 0) {
        perror(what);
        exit(2);
    }
}

static struct sockaddr_in here(int port)
{
    struct sockaddr_in place = {.sin_family = AF_INET, .sin_port = htons(port)};
    place.sin_addr.s_addr = htonl(INADDR_LOOPBACK);
    return place;
}

static int bound(int kind, int port)
{
    int one = 1, room = BUFFER, fd = socket(AF_INET, kind | SOCK_CLOEXEC, 0);
    struct sockaddr_in place = here(port);
    check(fd, "socket");
    setsockopt(fd, SOL_SOCKET, SO_REUSEADDR, &one, sizeof one);
    setsockopt(fd, SOL_SOCKET, SO_RCVBUF, &room, sizeof room);
    check(bind(fd, (struct sockaddr *)&place, sizeof place), "bind");
    return fd;
}

static int watching(int fd)
{
    struct epoll_event event = {.events = EPOLLIN, .data.fd = fd};
    int epoll = epoll_create1(EPOLL_CLOEXEC);
    check(epoll, "epoll_create1");
    check(epoll_ctl(epoll, EPOLL_CTL_ADD, fd, &event), "epoll_ctl");
    return epoll;
}

/* Turns a question into an answer with one address; returns its length. */
static size_t echoed(uint8_t *message, size_t length)
{
    message[2] |= 0x80;
    message[7] = 1;
    memcpy(message + length, ADDRESS, sizeof ADDRESS);
    return length + sizeof ADDRESS;
}

static volatile uint64_t *asked;

/* Turns a question into what the server says of it: an address, NODATA, NXDOMAIN; its length. */
static size_t answered(uint8_t *message, size_t length)
{
    size_t last = 0, end = HEADER;
    if (length < HEADER + 5)
        return length;
    __atomic_add_fetch(asked, 1, __ATOMIC_RELAXED);
    for (; message[end]; end += 1 + message[end])
        last = end;
    int denied = end >= HEADER + sizeof GONE - 1
        && !strncasecmp((char *)message + end - (sizeof GONE - 1), GONE, sizeof GONE);
    int found = !denied && !message[end + 1] && message[end + 2] == 1;
    uint8_t header[] = {0x81, 0x80 | (denied ? 3 : 0), 0, 1, 0, found, 0, !found, 0, 0};
    uint8_t *place = message + end + 5;
    memcpy(message + 2, header, sizeof header);
    if (found) {
        memcpy(place, ADDRESS, sizeof ADDRESS);
        return place + sizeof ADDRESS - message;
    }
    if (last) { /* the SOA is that of the name's last label, for the root that of the root */
        *place++ = 0xc0 | last >> 8;
        *place++ = last;
    } else
        *place++ = 0;
    memcpy(place, START, sizeof START);
    return place + sizeof START - message;
}

typedef size_t reply_to(uint8_t *message, size_t length);

static void datagrams(int port, reply_to *reply)
{
    static uint8_t message[ROOM];
    int fd = bound(SOCK_DGRAM, port);
    for (;;) {
        struct sockaddr_in client;
        socklen_t size = sizeof client;
        ssize_t length = recvfrom(fd, message, 512, 0, (struct sockaddr *)&client, &size);
        if (length >= HEADER)
            sendto(fd, message, reply(message, length), 0, (struct sockaddr *)&client, size);
    }
}

/* Answers each whole message of a piece of a stream; how many octets are left, at its start. */
static size_t answered_frames(int fd, uint8_t *piece, size_t length, reply_to *reply)
{
    static uint8_t message[ROOM];
    size_t start = 0;
    while (length - start >= 2) {
        size_t octets = piece[start] << 8 | piece[start + 1];
        if (length - start - 2 < octets)
            break;
        memcpy(message + 2, piece + start + 2, octets);
        size_t put = reply(message + 2, octets);
        message[0] = put >> 8;
        message[1] = put;
        send(fd, message, put + 2, MSG_NOSIGNAL);
        start += 2 + octets;
    }
    memmove(piece, piece + start, length - start);
    return length - start;
}

static void streams(int port, reply_to *reply)
{
    static uint8_t *pieces[PATHS];
    static size_t lengths[PATHS];
    int one = 1, listener = bound(SOCK_STREAM, port), epoll = watching(listener);
    check(listen(listener, 128), "listen");
    for (;;) {
        struct epoll_event events[EVENTS];
        int count = epoll_wait(epoll, events, EVENTS, -1);
        for (int n = 0; n < count; n++) {
            int fd = events[n].data.fd;
            if (fd == listener) {
                fd = accept4(listener, NULL, NULL, SOCK_CLOEXEC);
                check(fd, "accept4");
                setsockopt(fd, IPPROTO_TCP, TCP_NODELAY, &one, sizeof one);
                struct epoll_event event = {.events = EPOLLIN, .data.fd = fd};
                check(epoll_ctl(epoll, EPOLL_CTL_ADD, fd, &event), "epoll_ctl");
                pieces[fd] = pieces[fd] ? pieces[fd] : malloc(2 * ROOM);
                lengths[fd] = 0;
                continue;
            }
            ssize_t more = recv(fd, pieces[fd] + lengths[fd], ROOM, 0);
            if (more <= 0)
                close(fd);
            else
                lengths[fd] = answered_frames(fd, pieces[fd], lengths[fd] + more, reply);
        }
    }
}

static void answer(int port, const char *counted)
{
    int file = open(counted, O_RDWR);
    check(file, counted);
    asked = mmap(NULL, sizeof *asked, PROT_READ | PROT_WRITE, MAP_SHARED, file, 0);
    if (asked == MAP_FAILED)
        check(-1, "mmap");
    if (!fork()) {
        prctl(PR_SET_PDEATHSIG, SIGKILL);
        streams(port, answered);
    }
    datagrams(port, answered);
}

static uint16_t random_port(void)
{
    static uint16_t words[512];
    static size_t left;
    do {
        if (!left) {
            check(getrandom(words, sizeof words, 0), "getrandom");
            left = sizeof words / sizeof *words;
        }
    } while (words[--left] < 1024);
    return words[left];
}

/* A socket at a random port that is free, watched. */
static int path(int epoll)
{
    int fd = socket(AF_INET, SOCK_DGRAM | SOCK_NONBLOCK | SOCK_CLOEXEC, 0);
    struct epoll_event event = {.events = EPOLLIN, .data.fd = fd};
    struct sockaddr_in place;
    check(fd, "socket");
    do
        place = here(random_port());
    while (bind(fd, (struct sockaddr *)&place, sizeof place) < 0);
    check(epoll_ctl(epoll, EPOLL_CTL_ADD, fd, &event), "epoll_ctl");
    return fd;
}

static void relay(int port, int server)
{
    static uint8_t message[ROOM];
    static struct sockaddr_in clients[PATHS];
    int listener = bound(SOCK_DGRAM, port), epoll = watching(listener);
    struct sockaddr_in upstream = here(server);
    for (;;) {
        struct epoll_event events[EVENTS];
        int count = epoll_wait(epoll, events, EVENTS, -1);
        for (int n = 0; n < count; n++) {
            int fd = events[n].data.fd;
            struct sockaddr_in from;
            socklen_t size = sizeof from;
            ssize_t length = recvfrom(fd, message, ROOM, MSG_DONTWAIT, (struct sockaddr *)&from, &size);
            if (fd != listener) {
                if (length > 0)
                    sendto(listener, message, length, 0, (struct sockaddr *)&clients[fd], sizeof from);
                close(fd);
            } else if (length > 0) {
                int way = path(epoll);
                clients[way] = from;
                sendto(way, message, length, 0, (struct sockaddr *)&upstream, sizeof upstream);
            }
        }
    }
}

static double seconds_now(void)
{
    struct timespec now;
    clock_gettime(CLOCK_MONOTONIC, &now);
    return now.tv_sec + now.tv_nsec / 1e9;
}

/* Writes a question for the address of a name; its length. */
static size_t question(uint8_t *message, uint16_t number, int name)
{
    static const uint8_t asks[] = {1, 0, 0, 1, 0, 0, 0, 0, 0, 0}, rest[] = "\7example\0\0\1\0";
    char label[12];
    int size = snprintf(label, sizeof label, "n%d", name);
    message[0] = number >> 8;
    message[1] = number;
    memcpy(message + 2, asks, sizeof asks);
    message[HEADER] = size;
    memcpy(message + HEADER + 1, label, size);
    memcpy(message + HEADER + 1 + size, rest, sizeof rest); /* with the zero octet of the text: class IN */
    message[HEADER + size + sizeof rest] = 1;
    return HEADER + 1 + size + sizeof rest;
}

/* A question that has no answer after a while is counted as lost, with all that were asked with it. */
static const double LOST_AFTER = 0.2;

static void ask(int port, int names, int window, double seconds)
{
    static uint8_t message[ROOM];
    int fd = socket(AF_INET, SOCK_DGRAM | SOCK_NONBLOCK | SOCK_CLOEXEC, 0), under_way = 0;
    struct sockaddr_in place = here(port);
    uint64_t sent = 0, found = 0;
    check(fd, "socket");
    check(connect(fd, (struct sockaddr *)&place, sizeof place), "connect");
    double now = seconds_now(), end = now + seconds, last = now;
    for (; now < end || (under_way && now < last + LOST_AFTER); now = seconds_now()) {
        if (now > last + LOST_AFTER)
            under_way = 0;
        for (; now < end && under_way < window; under_way++, last = now) {
            size_t length = question(message, sent, sent % names);
            if (send(fd, message, length, 0) < 0)
                break;
            sent++;
        }
        while (recv(fd, message, ROOM, 0) >= HEADER) {
            found += message[2] & 0x80 && !(message[3] & 15) && message[7];
            under_way -= under_way > 0;
            last = now;
        }
    }
    printf("Queries sent: %lu\nResponse codes: NOERROR %lu\n", sent, found);
}

int main(int count, char **words)
{
    struct rlimit files = {PATHS, PATHS};
    if (setrlimit(RLIMIT_NOFILE, &files) < 0 && !getrlimit(RLIMIT_NOFILE, &files)) {
        files.rlim_cur = files.rlim_max;
        setrlimit(RLIMIT_NOFILE, &files);
    }
    if (count == 3 && !strcmp(words[1], "echo"))
        datagrams(atoi(words[2]), echoed);
    else if (count == 3 && !strcmp(words[1], "stream"))
        streams(atoi(words[2]), echoed);
    else if (count == 4 && !strcmp(words[1], "relay"))
        relay(atoi(words[2]), atoi(words[3]));
    else if (count == 4 && !strcmp(words[1], "answer"))
        answer(atoi(words[2]), words[3]);
    else if (count == 6 && !strcmp(words[1], "ask")) {
        ask(atoi(words[2]), atoi(words[3]), atoi(words[4]), atof(words[5]));
        return 0;
    }
    fprintf(stderr, "usage: bare echo PORT | stream PORT | relay PORT SERVER | answer PORT COUNTED |"
                    " ask PORT NAMES WINDOW SECONDS\n");
    return 2;
}
