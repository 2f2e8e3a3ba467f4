/* A server of many clients over UDP on this machine. It sends back what each client sends, as far as its window has room.
 *
 *     echo PORT
 *
 * The client of talk.c can use it. The listener gives up a client that is silent for two minutes, and limits answers to strangers. It runs
 * until it is stopped. */
#include <arpa/inet.h>
#include <poll.h>
#include <stdio.h>
#include <stdlib.h>
#include <string.h>
#include <sys/random.h>
#include <sys/socket.h>
#include <time.h>

#include "dccp.h"

/* MOST_HEARD: how many datagrams are heard before the timers are looked at again. */
enum { MOST_PEERS = 64, SERVICE = 42, MOST_HEARD = 64, HOUR = 3600000 };

struct server {
    int socket;
    dccp_settings settings;
    dccp_key key;
    dccp_listener listener;
};

static void fail(const char *what) {
    fprintf(stderr, "echo: %s\n", what);
    exit(1);
}

static uint64_t now(void) {
    struct timespec t;
    clock_gettime(CLOCK_MONOTONIC, &t);
    return (uint64_t)t.tv_sec * 1000 + (uint64_t)t.tv_nsec / 1000000;
}

/* A number that nobody can guess, for a first packet (RFC 4340, section 7.2). */
static uint64_t first_number(const struct server *server, const dccp_peer *peer) {
    uint64_t number = 0;
    dccp_listener_number(&server->settings, &server->key, peer, now(), &number);
    return number;
}

/* Sends the frame of a call to the peer. If the socket does not take it, it is lost. */
static void hand_over(const struct server *server, const dccp_peer *peer, const dccp_frame *frame) {
    struct sockaddr_in to = {.sin_family = AF_INET, .sin_port = htons(peer->port)};
    memcpy(&to.sin_addr, peer->address, 4);
    if (frame->length != 0) (void)!sendto(server->socket, frame->bytes, frame->length, 0, (const struct sockaddr *)&to, sizeof to);
}

/* Hears one datagram, if one has come, and sends its data back. */
static bool hear(struct server *server) {
    uint8_t bytes[DCCP_MOST_FRAME_BYTES + 1];
    struct sockaddr_in from;
    socklen_t size = sizeof from;
    dccp_frame frame;
    dccp_told told = {.kind = DCCP_TOLD_TOOK};
    ssize_t length = recvfrom(server->socket, bytes, sizeof bytes, MSG_DONTWAIT, (struct sockaddr *)&from, &size);
    if (length < 0) return false;
    dccp_peer peer = {.port = ntohs(from.sin_port)};
    memcpy(peer.address, &from.sin_addr, 4);
    dccp_listener_arrive(&server->listener, &peer, first_number(server, &peer), bytes, (size_t)length, now(), &frame, &told);
    hand_over(server, &peer, &frame);
    if (told.kind != DCCP_TOLD_DATA) return true;
    if (dccp_listener_send(&server->listener, &peer, bytes + told.first, told.past - told.first, now(), &frame) == DCCP_OK)
        hand_over(server, &peer, &frame);
    return true;
}

/* Does what is due for all peers, and returns how long the server may sleep. */
static int tick(struct server *server) {
    dccp_frame frame;
    dccp_peer peer;
    while (dccp_listener_tick(&server->listener, now(), &peer, &frame) != DCCP_NOTHING_DUE) hand_over(server, &peer, &frame);
    uint64_t left = dccp_listener_until_first(&server->listener, now());
    return left < 1000 ? (int)left : 1000;
}

int main(int count, char **words) {
    static struct server server;
    if (count != 2) fail("echo PORT");
    uint16_t port = (uint16_t)atoi(words[1]);
    server.socket = socket(AF_INET, SOCK_DGRAM, 0);
    struct sockaddr_in own = {.sin_family = AF_INET, .sin_port = htons(port)};
    own.sin_addr.s_addr = htonl(INADDR_LOOPBACK);
    if (server.socket < 0 || bind(server.socket, (struct sockaddr *)&own, sizeof own) != 0) fail("bind");
    server.settings = (dccp_settings){.size = sizeof server.settings, .own_address = {127, 0, 0, 1}, .service = SERVICE, .own_port = port};
    if (getrandom(&server.key, sizeof server.key, 0) != sizeof server.key) fail("no random key");
    server.listener = DCCP_NO_LISTENER;
    if (dccp_listener_make(&server.listener, &server.settings, NULL, 0, NULL, 0, MOST_PEERS) != DCCP_OK) fail("no listener");
    for (uint64_t rekeyed = 0;;) {
        /* Where strangers fill the table by Requests, these are answered by Init Cookies, whose key is another each hour. */
        if (rekeyed == 0 || rekeyed + HOUR <= now()) {
            dccp_key key;
            if (getrandom(&key, sizeof key, 0) != sizeof key) fail("no random key");
            rekeyed = now();
            dccp_listener_rekey(&server.listener, &key, rekeyed);
        }
        struct pollfd poll_fd = {.fd = server.socket, .events = POLLIN};
        poll(&poll_fd, 1, tick(&server));
        for (unsigned heard = 0; heard < MOST_HEARD && hear(&server); heard++) continue;
    }
}
