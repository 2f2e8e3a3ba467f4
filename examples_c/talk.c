/* A client and a server over UDP on this machine. Each sends 200 packets of data, the client first, and one of them closes.
 *
 *     talk server PORT [closes]        serves one client on 127.0.0.1, and ends
 *     talk client PORT [closes [v6]]   talks to it, or by IPv6 to the server of names.c
 *
 * Neither has wishes at first; the one that closes asks for a Sequence Window of 20,000 while data flow. One frame in twenty is lost on
 * purpose. The last line says how many packets arrived, the Sequence Windows of this end and of its peer, and the code with which the
 * connection ended. The program has what a caller of the library needs: a socket, a clock, a random first number, and a limit on answers
 * to strangers. */
#include <arpa/inet.h>
#include <errno.h>
#include <poll.h>
#include <stdio.h>
#include <stdlib.h>
#include <string.h>
#include <sys/random.h>
#include <sys/socket.h>
#include <time.h>
#include <unistd.h>

#include "dccp.h"

enum { PACKETS = 200, SERVICE = 42, WIDER = 20000, LOST_OF = 20, ANSWERS_A_SECOND = 20, LINGER = 1500 };

struct talk {
    int socket;
    dccp_end end;
    uint64_t heard, second; /* when data arrived last; the second in which answers are counted */
    unsigned handed, answers, sent, got;
    bool closes, waits, has_ended, is_v6;
    unsigned code;
    uint64_t ended;
};

static uint64_t now(void) {
    struct timespec t;
    clock_gettime(CLOCK_MONOTONIC, &t);
    return (uint64_t)t.tv_sec * 1000 + (uint64_t)t.tv_nsec / 1000000;
}

static void fail(const char *what) {
    fprintf(stderr, "talk: %s\n", what);
    exit(1);
}

/* A number that nobody can guess, for the first packet (RFC 4340, section 7.2). */
static uint64_t first_number(void) {
    uint64_t number;
    if (getrandom(&number, sizeof number, 0) != sizeof number) fail("no random number");
    return number >> 16;
}

/* Sends a frame to the peer, unless it is to be lost on purpose. A frame that the socket does not take is lost too. */
static void hand_over(struct talk *talk, const dccp_frame *frame) {
    if (frame->length == 0 || ++talk->handed % LOST_OF == 0) return;
    if (send(talk->socket, frame->bytes, frame->length, 0) < 0 && errno != ECONNREFUSED && errno != EAGAIN) fail("send");
}

static dccp_view look(struct talk *talk) {
    dccp_view view = DCCP_VIEW_INIT;
    if (dccp_look(&talk->end, &view) != DCCP_OK) fail("look");
    return view;
}

/* Fires each timer of the end that has run out. */
static void tick(struct talk *talk) {
    dccp_frame frame;
    while (dccp_tick(&talk->end, now(), &frame) == DCCP_OK) hand_over(talk, &frame);
}

/* How long the program may sleep, in milliseconds: 50 at most, since it also waits to close. */
static int until_first(struct talk *talk) {
    uint64_t left = dccp_until_first(&talk->end, now());
    return left < 50 ? (int)left : 50;
}

/* Whether another Sync or Reset may answer in this second (RFC 4340, sections 7.5.4 and 8.3.1). */
static bool may_answer(struct talk *talk) {
    if (talk->second != now() / 1000) {
        talk->second = now() / 1000;
        talk->answers = 0;
    }
    return talk->answers++ < ANSWERS_A_SECOND;
}

/* Takes what became of a datagram, and hands over the frame that answers it. */
static void take(struct talk *talk, const dccp_told *told, const dccp_frame *frame) {
    bool is_answer = told->kind == DCCP_TOLD_SYNCED || told->kind == DCCP_TOLD_SENT_RESET;
    if (!is_answer || may_answer(talk)) hand_over(talk, frame);
    if (told->kind == DCCP_TOLD_DATA) {
        talk->got++;
        talk->heard = now();
    }
    bool is_over = told->kind == DCCP_TOLD_WAS_RESET || (told->kind == DCCP_TOLD_SENT_RESET && look(talk).phase == DCCP_PHASE_CLOSED);
    if (is_over && !talk->has_ended) {
        talk->has_ended = true;
        talk->code = told->code;
        talk->ended = now();
    }
}

static void arrived(struct talk *talk, const uint8_t *datagram, size_t length) {
    dccp_frame frame;
    dccp_told told;
    if (dccp_receive(&talk->end, datagram, length, now(), &frame, &told) == DCCP_OK) take(talk, &told, &frame);
}

/* Hears all datagrams that have come. */
static void hear(struct talk *talk) {
    uint8_t datagram[DCCP_MOST_FRAME_BYTES + 1];
    ssize_t length;
    while (0 <= (length = recv(talk->socket, datagram, sizeof datagram, MSG_DONTWAIT))) arrived(talk, datagram, (size_t)length);
}

/* Asks for a wider Sequence Window. dccp_feature shows the result. */
static void widen(struct talk *talk) {
    dccp_frame frame;
    uint64_t wider = WIDER;
    if (dccp_prefer(&talk->end, DCCP_FEATURE_SEQUENCE_WINDOW, false, &wider, 1, now(), &frame) != DCCP_OK) fail("prefer");
    hand_over(talk, &frame);
}

/* Sends data as long as the window has room. The client speaks first, and the server once it has heard something. */
static void say(struct talk *talk) {
    dccp_frame frame;
    uint8_t data[64] = {0};
    if (talk->waits && talk->got == 0) return;
    while (talk->sent < PACKETS) {
        data[0] = (uint8_t)talk->sent;
        if (dccp_send(&talk->end, data, sizeof data, now(), &frame) != DCCP_OK) return;
        talk->sent++;
        hand_over(talk, &frame);
        if (talk->closes && talk->sent == PACKETS / 2) widen(talk);
    }
}

/* Both ends are on this machine. */
static dccp_settings settings_of(bool is_v6, unsigned own_port, unsigned peer_port) {
    dccp_settings settings = {
        .size = sizeof(dccp_settings),
        .first_number = first_number(),
        .service = SERVICE,
        .own_port = (uint16_t)own_port,
        .peer_port = (uint16_t)peer_port,
        .is_v6 = is_v6,
    };
    const struct in_addr own = {htonl(INADDR_LOOPBACK)};
    memcpy(settings.own_address, is_v6 ? (const void *)&in6addr_loopback : &own, is_v6 ? sizeof in6addr_loopback : sizeof own);
    memcpy(settings.peer_address, settings.own_address, sizeof settings.own_address);
    return settings;
}

static struct sockaddr_in here(unsigned port) {
    struct sockaddr_in address = {.sin_family = AF_INET, .sin_port = htons((uint16_t)port)};
    address.sin_addr.s_addr = htonl(INADDR_LOOPBACK);
    return address;
}

static void connect_to(int socket, const void *address, socklen_t size) {
    if (connect(socket, address, size) != 0) fail("connect");
}

/* Waits for a client whose first datagram opens a connection. Any other datagram is only answered. */
static void serve(struct talk *talk, unsigned port) {
    struct sockaddr_in own = here(port), peer;
    if (bind(talk->socket, (struct sockaddr *)&own, sizeof own) != 0) fail("bind");
    for (;;) {
        uint8_t datagram[DCCP_MOST_FRAME_BYTES + 1];
        socklen_t size = sizeof peer;
        ssize_t length = recvfrom(talk->socket, datagram, sizeof datagram, 0, (struct sockaddr *)&peer, &size);
        if (length < 0) fail("recvfrom");
        dccp_settings settings = settings_of(false, port, ntohs(peer.sin_port));
        dccp_frame frame;
        dccp_told told;
        uint32_t status = dccp_accept(&talk->end, &settings, NULL, 0, datagram, (size_t)length, now(), &frame, &told);
        if (status == DCCP_OK) {
            connect_to(talk->socket, &peer, sizeof peer);
            take(talk, &told, &frame);
            return;
        }
        if (status == DCCP_NO_CONNECTION && frame.length != 0 && may_answer(talk))
            sendto(talk->socket, frame.bytes, frame.length, 0, (struct sockaddr *)&peer, size);
    }
}

static void ask(struct talk *talk, unsigned port) {
    struct sockaddr_in peer = here(port);
    struct sockaddr_in6 peer_v6 = {.sin6_family = AF_INET6, .sin6_port = htons((uint16_t)port), .sin6_addr = in6addr_loopback};
    struct sockaddr_storage own;
    socklen_t size = sizeof own;
    connect_to(talk->socket, talk->is_v6 ? (void *)&peer_v6 : &peer, talk->is_v6 ? sizeof peer_v6 : sizeof peer);
    if (getsockname(talk->socket, (struct sockaddr *)&own, &size) != 0) fail("getsockname");
    uint16_t own_port = talk->is_v6 ? ((struct sockaddr_in6 *)&own)->sin6_port : ((struct sockaddr_in *)&own)->sin_port;
    dccp_settings settings = settings_of(talk->is_v6, ntohs(own_port), port);
    dccp_frame frame;
    if (dccp_make(&talk->end, &settings, NULL, 0) != DCCP_OK) fail("make");
    if (dccp_open(&talk->end, now(), &frame) != DCCP_OK) fail("open");
    hand_over(talk, &frame);
}

static dccp_feature_state width(struct talk *talk, bool at_peer) {
    dccp_feature_state state;
    if (dccp_feature(&talk->end, DCCP_FEATURE_SEQUENCE_WINDOW, at_peer, &state) != DCCP_OK) fail("feature");
    return state;
}

/* Closes once everything was sent, the wider window is settled, and nothing has arrived for a second. */
static void close_if_done(struct talk *talk) {
    dccp_frame frame;
    dccp_view view = look(talk);
    if (talk->sent < PACKETS || view.in_flight != 0 || now() - talk->heard < 1000 || view.phase != DCCP_PHASE_OPEN) return;
    if (width(talk, false).stand != DCCP_STAND_STABLE) return;
    if (dccp_close(&talk->end, now(), &frame) == DCCP_OK) hand_over(talk, &frame);
}

int main(int count, char **words) {
    bool is_server = 3 <= count && strcmp(words[1], "server") == 0, closes = 4 <= count && strcmp(words[3], "closes") == 0;
    bool is_client = 3 <= count && strcmp(words[1], "client") == 0, is_v6 = count == 5 && strcmp(words[4], "v6") == 0;
    bool is_well = (is_server || is_client) && (count == 3 || (closes && (count == 4 || (is_v6 && is_client))));
    if (!is_well) fail("talk server PORT [closes], or talk client PORT [closes [v6]]");
    struct talk talk = {.end = DCCP_NONE, .heard = now(), .closes = closes, .waits = is_server, .is_v6 = is_v6};
    talk.socket = socket(is_v6 ? AF_INET6 : AF_INET, SOCK_DGRAM, 0);
    if (talk.socket < 0) fail("socket");
    if (is_server)
        serve(&talk, (unsigned)atoi(words[2]));
    else
        ask(&talk, (unsigned)atoi(words[2]));
    uint64_t begun = now();
    /* An end that has ended is kept for a while, for late packets. TIMEWAIT would keep it for four minutes. */
    while (!talk.has_ended || now() - talk.ended < LINGER) {
        if (60000 < now() - begun) fail("it takes over a minute");
        struct pollfd poll_fd = {.fd = talk.socket, .events = POLLIN};
        poll(&poll_fd, 1, until_first(&talk));
        hear(&talk);
        tick(&talk);
        say(&talk);
        if (closes) close_if_done(&talk);
    }
    unsigned own = (unsigned)width(&talk, false).value, peer = (unsigned)width(&talk, true).value;
    printf("%s got %u windows %u %u code %u\n", words[1], talk.got, own, peer, talk.code);
    dccp_free(&talk.end);
    close(talk.socket);
    return 0;
}
