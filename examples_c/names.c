/* A server of many clients over UDP and IPv6 on this machine. It sends back what each client sends, and keeps what its window has no room for.
 *
 *     names PORT
 *
 * The client of talk.c can use it: talk client PORT closes v6. A listener names a peer by an IPv4 address and a port. So this program has a table
 * with a place for each client: the address from which its datagrams come, the name by which the listener knows it, and its data that wait. The
 * number of the place is beside the flow (dccp_listener_set_user), and each event has it. It runs until it is stopped. */
#include <arpa/inet.h>
#include <poll.h>
#include <stdio.h>
#include <stdlib.h>
#include <string.h>
#include <sys/random.h>
#include <sys/socket.h>
#include <time.h>

#include "dccp.h"

/* MOST_HEARD: how many datagrams are heard before the timers are looked at again. */
enum { MOST_PEERS = 64, PLACES = 2 * MOST_PEERS, SERVICE = 42, MOST_HEARD = 64, MOST_WAITING = 16, MOST_DATA = 1024 };

struct waiting {
    size_t length;
    uint8_t bytes[MOST_DATA];
};

struct client {
    struct sockaddr_in6 address; /* where its datagrams come from, and its frames go */
    dccp_peer name;              /* what the listener calls it */
    unsigned first, count;       /* of the data that wait */
    struct waiting waiting[MOST_WAITING];
};

struct server {
    int socket;
    dccp_settings settings;
    dccp_key key;
    dccp_listener listener;
    struct client clients[PLACES];
};

static void fail(const char *what) {
    fprintf(stderr, "names: %s\n", what);
    exit(1);
}

static uint64_t now(void) {
    struct timespec t;
    clock_gettime(CLOCK_MONOTONIC, &t);
    return (uint64_t)t.tv_sec * 1000 + (uint64_t)t.tv_nsec / 1000000;
}

static struct client *named(struct server *server, const dccp_peer *name) {
    for (struct client *it = server->clients; it < server->clients + PLACES; it++)
        if (it->name.port == name->port && memcmp(it->name.address, name->address, 4) == 0) return it;
    return NULL;
}

static bool is_free(struct server *server, const struct client *it) {
    dccp_view view = DCCP_VIEW_INIT;
    return dccp_listener_look(&server->listener, &it->name, &view) == DCCP_NO_FLOW;
}

/* Gives a client at this address the first name that no other has. */
static void give_name(struct server *server, struct client *client, const struct sockaddr_in6 *address) {
    dccp_settings path = {.size = sizeof path, .is_v6 = true, .own_port = server->settings.own_port, .peer_port = ntohs(address->sin6_port)};
    memcpy(path.own_address, &in6addr_loopback, 16);
    memcpy(path.peer_address, &address->sin6_addr, 16);
    dccp_peer name;
    for (uint16_t turn = 0; dccp_listener_name(&server->settings, &path, turn, &name) == DCCP_OK && named(server, &name) != NULL; turn++) continue;
    client->address = *address;
    client->name = name;
    client->count = 0;
}

/* The client at this address. A new one has the place of a client that has no flow any more; NULL if there is none. */
static struct client *client_at(struct server *server, const struct sockaddr_in6 *address) {
    struct client *free = NULL;
    for (struct client *it = server->clients; it < server->clients + PLACES; it++) {
        if (it->address.sin6_port == address->sin6_port && memcmp(&it->address.sin6_addr, &address->sin6_addr, 16) == 0) return it;
        if (free == NULL && is_free(server, it)) free = it;
    }
    if (free != NULL) give_name(server, free, address);
    return free;
}

/* Sends the frame of a call to the client. If the socket does not take it, it is lost. */
static void hand_over(const struct server *server, const struct client *client, const dccp_frame *frame) {
    const struct sockaddr *to = (const struct sockaddr *)&client->address;
    if (frame->length != 0) (void)!sendto(server->socket, frame->bytes, frame->length, 0, to, sizeof client->address);
}

/* Data wait for room in the window, or are dropped where too many wait. */
static void keep(struct client *client, const uint8_t *data, size_t length) {
    if (client->count == MOST_WAITING || MOST_DATA < length) return;
    struct waiting *last = &client->waiting[(client->first + client->count++) % MOST_WAITING];
    memcpy(last->bytes, data, length);
    last->length = length;
}

/* Takes what the last call has done to flows: all of it before the next call. */
static void take_events(struct server *server, const uint8_t *datagram) {
    dccp_event event = DCCP_EVENT_INIT;
    while (dccp_listener_event(&server->listener, &event) == DCCP_OK) {
        struct client *client = &server->clients[event.user];
        if (event.kind == DCCP_EVENT_DATA) keep(client, datagram + event.first, event.past - event.first);
        if (event.kind == DCCP_EVENT_ENDED) client->count = 0;
    }
}

/* Sends the client's data back as far as its window has room. */
static void say(struct server *server, struct client *client) {
    dccp_frame frame;
    while (client->count != 0) {
        const struct waiting *data = &client->waiting[client->first];
        if (dccp_listener_send(&server->listener, &client->name, data->bytes, data->length, now(), &frame) != DCCP_OK) return;
        hand_over(server, client, &frame);
        client->first = (client->first + 1) % MOST_WAITING;
        client->count--;
    }
}

/* Hears one datagram, if one has come. */
static bool hear(struct server *server) {
    uint8_t bytes[DCCP_MOST_FRAME_BYTES + 1];
    struct sockaddr_in6 from;
    socklen_t size = sizeof from;
    dccp_frame frame;
    dccp_told told;
    uint64_t number = 0;
    ssize_t length = recvfrom(server->socket, bytes, sizeof bytes, MSG_DONTWAIT, (struct sockaddr *)&from, &size);
    if (length < 0) return false;
    struct client *client = client_at(server, &from);
    if (client == NULL) return true;
    dccp_listener_number(&server->settings, &server->key, &client->name, now(), &number);
    dccp_listener_arrive(&server->listener, &client->name, number, bytes, (size_t)length, now(), &frame, &told);
    hand_over(server, client, &frame);
    take_events(server, bytes);
    dccp_listener_set_user(&server->listener, &client->name, (uint64_t)(client - server->clients));
    say(server, client);
    return true;
}

/* Does what is due for all clients, and returns how long the server may sleep. */
static int tick(struct server *server) {
    dccp_frame frame;
    dccp_peer name;
    while (dccp_listener_tick(&server->listener, now(), &name, &frame) != DCCP_NOTHING_DUE) {
        struct client *client = named(server, &name);
        if (client == NULL) fail("a client without a place");
        hand_over(server, client, &frame);
        take_events(server, NULL);
        say(server, client);
    }
    uint64_t left = dccp_listener_until_first(&server->listener, now());
    return left < 1000 ? (int)left : 1000;
}

int main(int count, char **words) {
    static struct server server;
    if (count != 2) fail("names PORT");
    uint16_t port = (uint16_t)atoi(words[1]);
    server.socket = socket(AF_INET6, SOCK_DGRAM, 0);
    struct sockaddr_in6 own = {.sin6_family = AF_INET6, .sin6_port = htons(port), .sin6_addr = in6addr_loopback};
    if (server.socket < 0 || bind(server.socket, (struct sockaddr *)&own, sizeof own) != 0) fail("bind");
    server.settings = (dccp_settings){.size = sizeof server.settings, .own_address = {127, 0, 0, 1}, .service = SERVICE, .own_port = port};
    if (getrandom(&server.key, sizeof server.key, 0) != sizeof server.key) fail("no random key");
    server.listener = DCCP_NO_LISTENER;
    if (dccp_listener_make(&server.listener, &server.settings, NULL, 0, NULL, 0, MOST_PEERS) != DCCP_OK) fail("no listener");
    for (;;) {
        struct pollfd poll_fd = {.fd = server.socket, .events = POLLIN};
        poll(&poll_fd, 1, tick(&server));
        for (unsigned heard = 0; heard < MOST_HEARD && hear(&server); heard++) continue;
    }
}
