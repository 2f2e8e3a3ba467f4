/* Ten megabytes over UDP on this machine, from one process to another: by a connection, and as plain datagrams beside it.
 *
 * A line each says how many packets of 1,024 bytes came of 10,240, in how many seconds, how many packets and megabytes a second that is, and
 * the most memory that the receiver had. A third line says how many times as long and as much the connection took. What is lost stays lost. The
 * plain datagrams are as many in flight as a connection may have, and each is answered. Neither goes on for over a minute. */
#include <arpa/inet.h>
#include <poll.h>
#include <stdio.h>
#include <stdlib.h>
#include <sys/random.h>
#include <sys/resource.h>
#include <sys/socket.h>
#include <sys/wait.h>
#include <time.h>
#include <unistd.h>

#include "dccp.h"

enum { PACKETS = 10240, BYTES = 1024, MOST_IN_FLIGHT = 64, SERVICE = 42, WIDTH = 10000, PATIENCE = 200, MOST_SECONDS = 60 };

struct pair {
    int sender, receiver;
    unsigned sender_port, receiver_port;
};

/* What the receiver found, and how long the sender took. */
struct found {
    unsigned got;
    long kilobytes;
    double seconds;
};

static void fail(const char *what) {
    fprintf(stderr, "transfer: %s\n", what);
    exit(1);
}

static double seconds(void) {
    struct timespec t;
    clock_gettime(CLOCK_MONOTONIC, &t);
    return (double)t.tv_sec + (double)t.tv_nsec / 1e9;
}

static uint64_t now(void) { return (uint64_t)(seconds() * 1e3); }

static unsigned bound(int at) {
    struct sockaddr_in own = {.sin_family = AF_INET};
    socklen_t size = sizeof own;
    own.sin_addr.s_addr = htonl(INADDR_LOOPBACK);
    if (bind(at, (struct sockaddr *)&own, size) != 0 || getsockname(at, (struct sockaddr *)&own, &size) != 0) fail("bind");
    return ntohs(own.sin_port);
}

static void connect_to(int at, unsigned port) {
    struct sockaddr_in peer = {.sin_family = AF_INET, .sin_port = htons((uint16_t)port)};
    peer.sin_addr.s_addr = htonl(INADDR_LOOPBACK);
    if (connect(at, (struct sockaddr *)&peer, sizeof peer) != 0) fail("connect");
}

static struct pair sockets(void) {
    struct pair pair = {.sender = socket(AF_INET, SOCK_DGRAM, 0), .receiver = socket(AF_INET, SOCK_DGRAM, 0)};
    pair.sender_port = bound(pair.sender);
    pair.receiver_port = bound(pair.receiver);
    connect_to(pair.sender, pair.receiver_port);
    connect_to(pair.receiver, pair.sender_port);
    return pair;
}

/* The next datagram within so many milliseconds; -1 where none comes. */
static ssize_t receive(int at, uint8_t *room, size_t size, uint64_t wait) {
    struct pollfd poll_fd = {.fd = at, .events = POLLIN};
    if (poll(&poll_fd, 1, wait < PATIENCE ? (int)wait : PATIENCE) <= 0) return -1;
    return recv(at, room, size, MSG_DONTWAIT);
}

/* The frame of a call goes to the peer. One that the socket does not take is lost. */
static void hand_over(int at, const dccp_frame *frame) {
    if (frame->length != 0) (void)!send(at, frame->bytes, frame->length, 0);
}

/* A number that nobody can guess, for the first packet (RFC 4340, section 7.2). */
static uint64_t first_number(void) {
    uint64_t number;
    if (getrandom(&number, sizeof number, 0) != sizeof number) fail("no random number");
    return number >> 16;
}

static dccp_settings settings_of(unsigned own_port, unsigned peer_port) {
    return (dccp_settings){.size = sizeof(dccp_settings),
                           .own_address = {127, 0, 0, 1},
                           .peer_address = {127, 0, 0, 1},
                           .first_number = first_number(),
                           .service = SERVICE,
                           .own_port = (uint16_t)own_port,
                           .peer_port = (uint16_t)peer_port};
}

/* Hears a datagram or the next timer, and counts whole packets of data. False once the connection has ended. */
static bool step(dccp_end *end, int at, unsigned *got) {
    uint8_t room[DCCP_MOST_FRAME_BYTES + 1];
    dccp_frame frame;
    dccp_told told = {.kind = DCCP_TOLD_TOOK};
    ssize_t length = receive(at, room, sizeof room, dccp_until_first(end, now()));
    if (0 <= length && dccp_receive(end, room, (size_t)length, now(), &frame, &told) == DCCP_OK) hand_over(at, &frame);
    *got += told.kind == DCCP_TOLD_DATA && told.past - told.first == BYTES;
    while (dccp_tick(end, now(), &frame) == DCCP_OK) hand_over(at, &frame);
    return told.kind != DCCP_TOLD_WAS_RESET && told.kind != DCCP_TOLD_SENT_RESET;
}

static unsigned accept_all(struct pair pair) {
    uint8_t room[DCCP_MOST_FRAME_BYTES + 1];
    dccp_end end = DCCP_NONE;
    dccp_frame frame;
    dccp_told told;
    dccp_settings settings = settings_of(pair.receiver_port, pair.sender_port);
    dccp_wish none = {.count = 0};
    ssize_t length = recv(pair.receiver, room, sizeof room, 0);
    if (length < 0 || dccp_accept(&end, &settings, &none, 0, room, (size_t)length, now(), &frame, &told) != DCCP_OK) fail("accept");
    hand_over(pair.receiver, &frame);
    unsigned got = 0;
    while (step(&end, pair.receiver, &got)) {
    }
    dccp_free(&end);
    return got;
}

static double send_all(struct pair pair) {
    static const uint8_t data[BYTES];
    dccp_end end = DCCP_NONE;
    dccp_frame frame;
    dccp_view view = DCCP_VIEW_INIT;
    dccp_settings settings = settings_of(pair.sender_port, pair.receiver_port);
    dccp_wish wide = {.values = {WIDTH}, .count = 1, .feature = DCCP_FEATURE_SEQUENCE_WINDOW, .is_offered = true};
    if (dccp_make(&end, &settings, &wide, 1) != DCCP_OK || dccp_open(&end, now(), &frame) != DCCP_OK) fail("open");
    hand_over(pair.sender, &frame);
    double begun = 0;
    unsigned none = 0;
    for (unsigned sent = 0; sent < PACKETS || view.in_flight != 0; dccp_look(&end, &view)) {
        while (sent < PACKETS && dccp_send(&end, data, BYTES, now(), &frame) == DCCP_OK) {
            if (sent++ == 0) begun = seconds();
            hand_over(pair.sender, &frame);
        }
        if (!step(&end, pair.sender, &none)) fail("the connection has ended");
    }
    double took = seconds() - begun;
    if (dccp_close(&end, now(), &frame) != DCCP_OK) fail("close");
    hand_over(pair.sender, &frame);
    while (step(&end, pair.sender, &none)) {
    }
    dccp_free(&end);
    return took;
}

/* Answers each datagram, until none comes any more. */
static unsigned echo(struct pair pair) {
    uint8_t room[BYTES];
    unsigned got = 0;
    while (0 <= receive(pair.receiver, room, sizeof room, PATIENCE)) {
        got++;
        (void)!send(pair.receiver, room, 1, 0);
    }
    return got;
}

static double send_plainly(struct pair pair) {
    uint8_t room[BYTES] = {0};
    double begun = seconds();
    for (unsigned sent = 0, answered = 0; answered < PACKETS; answered++) {
        for (; sent < PACKETS && sent - answered < MOST_IN_FLIGHT; sent++) (void)!send(pair.sender, room, BYTES, 0);
        if (receive(pair.sender, room, sizeof room, PATIENCE) < 0) break;
    }
    return seconds() - begun;
}

static struct found transfer(const char *name, double (*sends)(struct pair), unsigned (*takes)(struct pair)) {
    struct pair pair = sockets();
    struct found found = {.got = 0};
    int told[2];
    if (pipe(told) != 0) fail("pipe");
    pid_t receiver = fork();
    if (receiver < 0) fail("fork");
    alarm(MOST_SECONDS); /* ends either process, whatever it waits for */
    if (receiver == 0) {
        struct rusage used;
        found.got = takes(pair);
        getrusage(RUSAGE_SELF, &used);
        found.kilobytes = used.ru_maxrss;
        _exit(write(told[1], &found, sizeof found) != sizeof found);
    }
    close(told[1]); /* so that nothing is waited for once the receiver has ended */
    double took = sends(pair);
    if (read(told[0], &found, sizeof found) != sizeof found) fail("the receiver says nothing");
    waitpid(receiver, NULL, 0);
    close(told[0]);
    close(pair.sender);
    close(pair.receiver);
    found.seconds = took;
    double rate = found.got / took;
    printf("%s %u of %d packets in %.3f s, %.0f packets and %.0f MB a second, %ld KB\n", name, found.got, PACKETS, took, rate,
           rate * BYTES / 1e6, found.kilobytes);
    return found;
}

int main(void) {
    struct found one = transfer("connection", send_all, accept_all), other = transfer("datagrams", send_plainly, echo);
    printf("ratio %.1f of the time for a packet, %.2f of the memory\n", one.seconds / one.got / (other.seconds / other.got),
           (double)one.kilobytes / (double)other.kilobytes);
    return 0;
}
