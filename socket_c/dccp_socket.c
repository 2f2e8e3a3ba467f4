/* DCCP over the UDP of POSIX systems: see dccp_socket.h. Each connection is an end of dccp.h, found by the address of its peer. */
#ifndef _POSIX_C_SOURCE
#define _POSIX_C_SOURCE 200809L
#endif
#if defined(__linux__) && !defined(_GNU_SOURCE)
#define _GNU_SOURCE /* recvmmsg */
#endif
#include "dccp_socket.h"

#include <arpa/inet.h>
#include <errno.h>
#include <fcntl.h>
#include <limits.h>
#include <netdb.h>
#include <netinet/in.h>
#include <poll.h>
#include <stdio.h>
#include <stdlib.h>
#include <string.h>
#include <sys/socket.h>
#include <time.h>
#include <unistd.h>

/* Syncs and Resets that go out in a second for a connection, and for strangers; milliseconds for which an end that has ended is kept, after
 * which one that has not opened may make room, and after which timers are looked at although datagrams come; places of the table; the buffer
 * asked of the system; milliseconds for which Init Cookies are written by one key. */
enum { ANSWERS = 20, STRANGERS = 100, LINGER = 2000, STAY = 1000, TICK = 5, PLACES = 512, BUFFER = 1 << 21, KEY_LIFETIME = 3600000 };
enum { MOST_WISHES = 16, MOST_SERVICES = 16, MOST_IN_FLIGHT = 1024 };

/* Reset Codes (RFC 4340, section 5.6). */
enum { NO_CONNECTION = 3, TOO_BUSY = 9 };

/* How many datagrams one system call takes. */
#if defined(__linux__)
enum { BATCH = 32 };
#else
enum { BATCH = 1 };
#endif

/* An address of the system, of IPv4 or IPv6. */
typedef union address {
    struct sockaddr any;
    struct sockaddr_in v4;
    struct sockaddr_in6 v6;
} address;

/* How many of something were done in this second. */
typedef struct limit {
    uint64_t second;
    unsigned done;
} limit;

struct dccp_connection {
    dccp_socket *udp;
    dccp_connection *next;          /* in its place of the table */
    dccp_connection *newer, *older; /* in the list of all */
    void *user;
    address peer;
    dccp_end end;
    limit answers;
    uint64_t heard;  /* when a packet of the peer was taken last, or a wait for one began */
    uint64_t ended;  /* when it ended */
    uint64_t marked; /* how many packets were taken */
    dccp_end_cause cause;
    uint8_t code;
    dccp_statistics statistics;
    uint64_t unsettled[MOST_IN_FLIGHT]; /* a ring of the numbers of packets of data that are in flight, the oldest at `oldest` */
    uint32_t oldest, unsettled_count;
    uint64_t last_sent; /* the number of the last of them */
    dccp_last_sync last_sync; /* of a server's end */
    bool was_closing; /* before the present datagram */
    bool has_ended, is_opened, wants_room;
    bool is_half_open; /* it has answered a Request and heard nothing since */
    bool is_told; /* that it has ended, or that this is told to nobody */
};

struct dccp_socket {
    int descriptor, random;
    bool is_server, has_names;
    uint32_t most, count, half_open, patience, idle, most_per_host, holding;
    uint32_t services[MOST_SERVICES];
    size_t service_count;
    dccp_wish wishes[MOST_WISHES];
    size_t wish_count;
    address own, client_name, server_name;
    limit strangers;
    dccp_cookie_keys keys;
    bool has_keys;
    uint64_t ticked; /* when timers were looked at last */
    dccp_connection *places[PLACES], *newest;
    dccp_socket_event data; /* told after the opening that the same datagram is */
    bool has_data;
    const uint8_t *room; /* the present datagram */
    /* The datagrams that the system gave last, and the next of them. */
    uint8_t rooms[BATCH][DCCP_MOST_FRAME_BYTES + 1];
    size_t lengths[BATCH];
    address from[BATCH];
    int heard, next;
};

static uint64_t now(void) {
    struct timespec t;
    clock_gettime(CLOCK_MONOTONIC, &t);
    return (uint64_t)t.tv_sec * 1000 + (uint64_t)t.tv_nsec / 1000000;
}

static bool may(limit *it, unsigned most) {
    uint64_t second = now() / 1000;
    if (it->second != second) {
        it->second = second;
        it->done = 0;
    }
    return it->done++ < most;
}

/* A number that nobody can guess, for a first packet (RFC 4340, section 7.2). */
static bool draw(const dccp_socket *udp, uint64_t *number) {
    if (read(udp->random, number, sizeof *number) != (ssize_t)sizeof *number) return false;
    *number >>= 16;
    return true;
}

/* Draws a new key of Init Cookies. If the system gives none, the old one stays. */
static bool rekey(dccp_socket *udp) {
    dccp_key key;
    if (read(udp->random, key.bytes, sizeof key.bytes) != (ssize_t)sizeof key.bytes) return false;
    udp->keys.before = udp->has_keys ? udp->keys.key : key;
    udp->keys.key = key;
    udp->keys.since = now();
    udp->has_keys = true;
    return true;
}

/* Addresses. */

static socklen_t size_of(const address *it) {
    return it->any.sa_family == AF_INET ? (socklen_t)sizeof it->v4 : (socklen_t)sizeof it->v6;
}

static uint16_t port_of(const address *it) { return ntohs(it->any.sa_family == AF_INET ? it->v4.sin_port : it->v6.sin6_port); }

static void set_port(address *it, uint16_t port) {
    if (it->any.sa_family == AF_INET)
        it->v4.sin_port = htons(port);
    else
        it->v6.sin6_port = htons(port);
}

static bool is_same(const address *one, const address *other) {
    if (one->any.sa_family != other->any.sa_family || port_of(one) != port_of(other)) return false;
    if (one->any.sa_family == AF_INET) return one->v4.sin_addr.s_addr == other->v4.sin_addr.s_addr;
    return memcmp(&one->v6.sin6_addr, &other->v6.sin6_addr, 16) == 0 && one->v6.sin6_scope_id == other->v6.sin6_scope_id;
}

static size_t place_of(const address *it) {
    bool is_v4 = it->any.sa_family == AF_INET;
    const uint8_t *bytes = is_v4 ? (const uint8_t *)&it->v4.sin_addr : (const uint8_t *)&it->v6.sin6_addr;
    uint32_t sum = port_of(it);
    for (size_t at = 0; at < (is_v4 ? 4u : 16u); at++) sum = sum * 31 + bytes[at];
    return sum % PLACES;
}

static bool is_unspecified(const address *it) {
    if (it->any.sa_family == AF_INET) return it->v4.sin_addr.s_addr == htonl(INADDR_ANY);
    return IN6_IS_ADDR_UNSPECIFIED(&it->v6.sin6_addr);
}

/* An IPv4 address as such, even if the system gives it as one of IPv6. */
static address plain(const address *it) {
    address found = *it;
    if (it->any.sa_family == AF_INET || !IN6_IS_ADDR_V4MAPPED(&it->v6.sin6_addr)) return found;
    memset(&found, 0, sizeof found);
    found.v4.sin_family = AF_INET;
    found.v4.sin_port = it->v6.sin6_port;
    memcpy(&found.v4.sin_addr, it->v6.sin6_addr.s6_addr + 12, 4);
    return found;
}

/* Whether two peers are of one host: an address of IPv4, or the first 64 bits of one of IPv6, which one machine may have to itself (own). */
static bool is_same_host(const address *one, const address *other) {
    const address here = plain(one), there = plain(other);
    if (here.any.sa_family != there.any.sa_family) return false;
    if (here.any.sa_family == AF_INET) return here.v4.sin_addr.s_addr == there.v4.sin_addr.s_addr;
    return memcmp(&here.v6.sin6_addr, &there.v6.sin6_addr, 8) == 0;
}

/* The address from which the machine sends to a peer: the socket's, or if that is any, the one that the system would choose. */
static bool own_towards(const dccp_socket *udp, const address *peer, address *own) {
    *own = udp->own;
    if (is_unspecified(own)) {
        socklen_t size = sizeof *own;
        int probe = socket(peer->any.sa_family, SOCK_DGRAM, 0);
        bool is_found = 0 <= probe && connect(probe, &peer->any, size_of(peer)) == 0 && getsockname(probe, &own->any, &size) == 0;
        if (0 <= probe) close(probe);
        if (!is_found) return false;
        set_port(own, port_of(&udp->own));
    }
    *own = plain(own);
    return true;
}

static void spell(const address *it, bool is_v6, uint8_t *bytes) {
    static const uint8_t mapped[12] = {0, 0, 0, 0, 0, 0, 0, 0, 0, 0, 0xff, 0xff};
    memset(bytes, 0, 16);
    if (it->any.sa_family != AF_INET) {
        memcpy(bytes, &it->v6.sin6_addr, 16);
    } else if (is_v6) {
        memcpy(bytes, mapped, 12);
        memcpy(bytes + 12, &it->v4.sin_addr, 4);
    } else {
        memcpy(bytes, &it->v4.sin_addr, 4);
    }
}

/* The settings of an end for a peer, by addresses or by the names on which both ends have agreed. */
static bool settle(const dccp_socket *udp, const address *peer, uint32_t service, dccp_settings *settings) {
    address own, other = plain(peer);
    if (udp->has_names) {
        own = udp->is_server ? udp->server_name : udp->client_name;
        other = udp->is_server ? udp->client_name : udp->server_name;
    } else if (!own_towards(udp, peer, &own)) {
        return false;
    }
    *settings = (dccp_settings)DCCP_SETTINGS_INIT;
    settings->is_v6 = own.any.sa_family == AF_INET6 || other.any.sa_family == AF_INET6;
    spell(&own, settings->is_v6, settings->own_address);
    spell(&other, settings->is_v6, settings->peer_address);
    settings->own_port = port_of(&own);
    settings->peer_port = port_of(&other);
    settings->service = service;
    settings->most_held = udp->holding;
    return draw(udp, &settings->first_number);
}

/* The table of connections, and the list of all. */

static dccp_connection *find(const dccp_socket *udp, const address *peer) {
    dccp_connection *it = udp->places[place_of(peer)];
    while (it != NULL && !is_same(&it->peer, peer)) it = it->next;
    return it;
}

static dccp_connection *add(dccp_socket *udp, const address *peer) {
    dccp_connection *it = calloc(1, sizeof *it), **place = &udp->places[place_of(peer)];
    if (it == NULL) return NULL;
    it->udp = udp;
    it->peer = *peer;
    it->heard = now();
    it->next = *place;
    *place = it;
    it->older = udp->newest;
    if (it->older != NULL) it->older->newer = it;
    udp->newest = it;
    udp->count++;
    return it;
}

/* Whether the host of a peer has as many other connections open as one may have. */
static bool has_its_share(const dccp_socket *udp, const address *peer) {
    uint32_t others = 0;
    if (udp->most_per_host == 0) return false;
    for (const dccp_connection *it = udp->newest; it != NULL; it = it->older)
        others += it->is_opened && !it->has_ended && !is_same(&it->peer, peer) && is_same_host(&it->peer, peer);
    return udp->most_per_host <= others;
}

static void leave_half_open(dccp_connection *it) {
    if (it->is_half_open) it->udp->half_open--;
    it->is_half_open = false;
}

/* Takes a connection out of the table and the list. */
static void part(dccp_connection *it) {
    dccp_socket *udp = it->udp;
    dccp_connection **place = &udp->places[place_of(&it->peer)];
    while (*place != it) place = &(*place)->next;
    *place = it->next;
    if (it->newer != NULL)
        it->newer->older = it->older;
    else
        udp->newest = it->older;
    if (it->older != NULL) it->older->newer = it->newer;
    leave_half_open(it);
    udp->count--;
}

static void discard(dccp_connection *it) {
    if (it == NULL) return;
    dccp_free(&it->end);
    free(it);
}

/* Frames and events. */

/* Hands a frame to the system. If the system does not take it, it is lost. */
static void hand_over(const dccp_socket *udp, const address *peer, const dccp_frame *frame) {
    if (frame->length == 0) return;
    const struct sockaddr *to = udp->is_server ? &peer->any : NULL;
    (void)!sendto(udp->descriptor, frame->bytes, frame->length, 0, to, to == NULL ? 0 : size_of(peer));
}

/* Counts a packet by its type, which is in its ninth byte (RFC 4340, section 5.1). */
static void count(dccp_traffic *traffic, const uint8_t *packet, size_t length) {
    if (length < 12) return;
    switch ((packet[8] >> 1) & 15) {
        case 2:
        case 4: traffic->data++; return;
        case 3: traffic->acks++; return;
        case 8:
        case 9: traffic->syncs++; return;
        case 7: traffic->resets++; return;
        default: traffic->others++; return;
    }
}

static void send_frame(dccp_connection *it, const dccp_frame *frame) {
    count(&it->statistics.sent, frame->bytes, frame->length);
    hand_over(it->udp, &it->peer, frame);
}

static dccp_view seen(dccp_connection *it) {
    dccp_view view = DCCP_VIEW_INIT;
    (void)dccp_look(&it->end, &view);
    return view;
}

/* The place of a number in the ring. */
static uint64_t *unsettled_at(dccp_connection *it, uint32_t place) { return &it->unsettled[(it->oldest + place) % MOST_IN_FLIGHT]; }

/* Removes the packets that are not in flight any more, mostly the oldest, and counts those that are lost. After a timeout nothing is known about
 * any of them: then all are lost. */
static void settle_fates(dccp_connection *it, uint32_t in_flight) {
    uint32_t left = 0, seen_of = 0;
    while (seen_of < it->unsettled_count && in_flight + seen_of < it->unsettled_count + left) {
        uint64_t number = *unsettled_at(it, seen_of++);
        dccp_fate fate = dccp_fate_of(&it->end, number);
        if (fate == DCCP_FATE_IN_FLIGHT)
            *unsettled_at(it, left++) = number;
        else if (fate == DCCP_FATE_LOST || fate == DCCP_FATE_UNKNOWN)
            it->statistics.lost++;
    }
    for (uint32_t at = left; at-- != 0;) *unsettled_at(it, seen_of - left + at) = *unsettled_at(it, at);
    it->oldest = (it->oldest + seen_of - left) % MOST_IN_FLIGHT;
    it->unsettled_count -= seen_of - left;
}

static bool is_closing(const dccp_view *view) { return view->phase == DCCP_PHASE_CLOSEREQ || view->phase == DCCP_PHASE_CLOSING; }

static bool is_open(const dccp_view *view) { return view->phase == DCCP_PHASE_PARTOPEN || view->phase == DCCP_PHASE_OPEN; }

static void finish(dccp_connection *it, dccp_end_cause cause, uint8_t code) {
    if (it->has_ended) return;
    it->has_ended = true;
    it->ended = now();
    it->cause = cause;
    it->code = code;
    /* A connection that never opened has no event when it ends. */
    it->is_told = it->udp->is_server && !it->is_opened;
}

static int tell(dccp_connection *it, dccp_event_kind kind, dccp_socket_event *event) {
    memset(event, 0, sizeof *event);
    event->connection = it;
    event->kind = kind;
    return 1;
}

/* Returns what became of a connection and was not returned yet, if anything. */
static int next_event(dccp_connection *it, dccp_socket_event *event) {
    dccp_view view = seen(it);
    if (!it->has_ended && !it->is_opened && is_open(&view)) {
        it->is_opened = true;
        return tell(it, DCCP_EVENT_OPENED, event);
    }
    if (!it->has_ended && it->wants_room && is_open(&view) && view.in_flight < view.window) {
        it->wants_room = false;
        return tell(it, DCCP_EVENT_ROOM, event);
    }
    if (!it->has_ended || it->is_told) return 0;
    it->is_told = true;
    (void)tell(it, DCCP_EVENT_ENDED, event);
    event->cause = it->cause;
    event->code = it->code;
    return 1;
}

/* Takes what became of a datagram, and hands over the frame that answers it. */
static void take(dccp_connection *it, const dccp_told *told, const dccp_frame *frame) {
    bool is_answer = told->kind == DCCP_TOLD_SYNCED || told->kind == DCCP_TOLD_SENT_RESET;
    dccp_view view = seen(it);
    settle_fates(it, view.in_flight);
    bool is_opening = it->is_half_open && is_open(&view);
    if (view.phase != DCCP_PHASE_RESPOND) leave_half_open(it);
    if (!is_answer || may(&it->answers, ANSWERS))
        send_frame(it, frame);
    else
        it->statistics.answers_left_out++;
    if (view.marked != it->marked) it->heard = now();
    it->marked = view.marked;
    bool is_over = told->kind == DCCP_TOLD_WAS_RESET || (told->kind == DCCP_TOLD_SENT_RESET && view.phase == DCCP_PHASE_CLOSED);
    if (is_over) finish(it, told->code == NO_CONNECTION && !it->was_closing ? DCCP_END_FORGOTTEN : DCCP_END_RESET, told->code);
    it->was_closing = is_closing(&view);
    /* Others of its host may have opened since its Request. */
    if (is_opening && has_its_share(it->udp, &it->peer)) (void)dccp_connection_abort(it);
}

/* Counts a datagram by its outcome; a Close that ends the connection in order counts as taken. */
static void note(dccp_connection *it, const dccp_told *told, size_t length) {
    bool is_close = told->kind == DCCP_TOLD_SENT_RESET && told->code == 1;
    bool is_taken = told->kind == DCCP_TOLD_TOOK || told->kind == DCCP_TOLD_DATA || told->kind == DCCP_TOLD_WAS_RESET || is_close;
    bool is_for_inbox = told->kind == DCCP_TOLD_WAITS || told->kind == DCCP_TOLD_NOT_KEPT;
    if (is_taken || is_for_inbox)
        count(&it->statistics.received, it->udp->room, length);
    else
        it->statistics.not_taken++;
    /* The fifth byte counts the words before the data (RFC 4340, section 5.1). */
    it->statistics.received.data_bytes += is_for_inbox ? length - 4u * it->udp->room[4] : told->past - told->first;
    it->statistics.unread_dropped += told->kind == DCCP_TOLD_NOT_KEPT;
}

/* The event of data that a datagram brought, if it did. */
static bool is_data_event(const dccp_told *told, dccp_event_kind *kind) {
    switch (told->kind) {
        case DCCP_TOLD_DATA: *kind = DCCP_EVENT_DATA; return true;
        case DCCP_TOLD_WAITS: *kind = DCCP_EVENT_WAITS; return true;
        case DCCP_TOLD_NOT_KEPT: *kind = DCCP_EVENT_DROPPED; return true;
        default: return false;
    }
}

/* Hears a datagram of a connection, and returns the event, if there is one. */
static int hear(dccp_connection *it, size_t length, dccp_socket_event *event) {
    dccp_socket *udp = it->udp;
    dccp_frame frame;
    dccp_told told;
    if (dccp_receive(&it->end, udp->room, length, now(), &frame, &told) != DCCP_OK) return 0;
    note(it, &told, length);
    if (udp->is_server && dccp_begins_anew(&it->last_sync, udp->room, length, &told, &frame)) {
        (void)dccp_abort(&it->end, now(), &frame); /* Its Reset would tell the client nothing. */
        leave_half_open(it);
        finish(it, DCCP_END_ANEW, 0);
        return next_event(it, event);
    }
    take(it, &told, &frame);
    dccp_event_kind kind;
    if (!is_data_event(&told, &kind) || it->has_ended) return next_event(it, event);
    (void)tell(it, kind, &udp->data);
    udp->data.data = kind == DCCP_EVENT_DATA ? udp->room + told.first : NULL;
    udp->data.length = told.past - told.first;
    udp->data.code = kind == DCCP_EVENT_DROPPED ? told.code : 0;
    udp->has_data = true;
    return next_event(it, event);
}

/* The Service Code that a Request asks for (RFC 4340, section 5.1), if it is one that is served; else the first. */
static uint32_t asked_service(const dccp_socket *udp, size_t length, bool *is_request) {
    *is_request = 9 <= length && ((udp->room[8] >> 1) & 15) == 0;
    if (!*is_request || length < 20) return udp->services[0];
    uint32_t asked = 0;
    for (size_t at = 16; at < 20; at++) asked = asked << 8 | udp->room[at];
    for (size_t at = 0; at < udp->service_count; at++)
        if (udp->services[at] == asked) return asked;
    return udp->services[0];
}

/* Since when no owner needs a connection, because it has ended and its event was returned, or it has not opened; 0 for others. */
static uint64_t idle_since(const dccp_connection *it) {
    if (it->has_ended) return it->is_told ? it->ended : 0;
    return it->is_opened ? 0 : it->heard;
}

/* The connection that has not been open for the longest time, if there is one. */
static dccp_connection *longest_idle(const dccp_socket *udp) {
    dccp_connection *found = NULL;
    for (dccp_connection *it = udp->newest; it != NULL; it = it->older)
        if (idle_since(it) != 0 && (found == NULL || idle_since(it) < idle_since(found))) found = it;
    return found;
}

/* Answers a stranger's datagram without a connection: a Request by a Reset that says that there is no place. */
static void turn_away(dccp_socket *udp, const address *peer, const dccp_settings *settings, size_t length) {
    dccp_frame frame;
    (void)dccp_refuse(settings, udp->room, length, TOO_BUSY, &frame);
    hand_over(udp, peer, &frame);
}

/* Hears a Request of a stranger for whom there is a place. */
static void take_in(dccp_socket *udp, const address *peer, const dccp_settings *settings, size_t length) {
    dccp_connection *it = add(udp, peer);
    if (it == NULL) return; /* It asks again. */
    dccp_frame frame;
    dccp_told told;
    dccp_status status = dccp_accept(&it->end, settings, udp->wishes, udp->wish_count, udp->room, length, now(), &frame, &told);
    if (status == DCCP_OK) {
        it->is_half_open = true;
        udp->half_open++;
        note(it, &told, length);
        take(it, &told, &frame);
    }
    if (status == DCCP_NO_CONNECTION && may(&udp->strangers, STRANGERS)) hand_over(udp, peer, &frame);
    if (status == DCCP_OK && seen(it).phase != DCCP_PHASE_CLOSED) return;
    part(it);
    discard(it);
}

/* Answers a Request with an Init Cookie, and keeps nothing (RFC 4340, section 8.1.4). */
static void greet(dccp_socket *udp, const address *peer, const dccp_settings *settings, size_t length) {
    dccp_frame frame;
    if (udp->keys.since + KEY_LIFETIME <= now()) (void)rekey(udp);
    dccp_status status = dccp_greet(settings, udp->wishes, udp->wish_count, &udp->keys, udp->room, length, now(), &frame);
    if (status == DCCP_OK || (status == DCCP_NO_CONNECTION && may(&udp->strangers, STRANGERS))) hand_over(udp, peer, &frame);
}

/* Whether a datagram is an Ack or a DataAck whose options have room for an Init Cookie, which has 34 bytes at least (RFC 4340, section 5.1). */
static bool may_return_cookie(const dccp_socket *udp, size_t length) {
    unsigned type = length < 12 ? 15 : (udp->room[8] >> 1) & 15;
    return (type == 3 || type == 4) && 15 <= udp->room[4];
}

/* Opens the connection for which a datagram returns an Init Cookie, for a peer without a connection, or in place of the half-open one `it`. Returns
 * the connection that there is then. */
static dccp_connection *recall(dccp_socket *udp, const address *peer, dccp_connection *it, size_t length) {
    dccp_settings settings;
    dccp_frame request, frame;
    dccp_told told;
    if (!may_return_cookie(udp, length) || !settle(udp, peer, udp->services[0], &settings)) return it;
    if (dccp_recall(&settings, &udp->keys, udp->room, length, now(), &request) != DCCP_OK) return it;
    if (has_its_share(udp, peer)) return it;
    /* The peer has shown its address: a half-open connection makes room at once. */
    if (it == NULL && udp->most <= udp->count && (it = longest_idle(udp)) == NULL) return NULL;
    if (it != NULL) {
        part(it);
        discard(it);
    }
    it = add(udp, peer);
    if (it == NULL) return NULL;
    /* Its Response went out when the cookie was given. */
    settings.first_number = request.number;
    if (dccp_accept(&it->end, &settings, udp->wishes, udp->wish_count, request.bytes, request.length, now(), &frame, &told) == DCCP_OK) return it;
    part(it);
    discard(it);
    return NULL;
}

/* Hears a datagram of a peer without a connection. It may open one, which has no event yet. Requests that find a place are always heard, and so are
 * Requests in a crowd, where half-open connections take over half of the places that others leave; all other datagrams, and Requests of a host that
 * has its share, only as often as strangers may be answered. A Request that finds no place takes that of a connection that has not been open for a
 * second. If there may soon be such a connection, the peer asks again; otherwise it is answered that there is no place. */
static void meet(dccp_socket *udp, const address *peer, size_t length) {
    bool is_request, has_place = udp->count < udp->most, is_crowded = udp->most < udp->half_open + udp->count;
    uint32_t service = asked_service(udp, length, &is_request);
    bool is_heard = is_request && !has_its_share(udp, peer);
    if (!(is_heard && (has_place || is_crowded)) && !may(&udp->strangers, STRANGERS)) return;
    dccp_connection *idle = is_heard && !has_place && !is_crowded ? longest_idle(udp) : NULL;
    if (idle != NULL && now() < idle_since(idle) + STAY) return;
    if (idle != NULL) {
        part(idle);
        discard(idle);
    }
    dccp_settings settings;
    if (!settle(udp, peer, service, &settings)) return; /* It asks again. */
    if (is_heard && is_crowded)
        greet(udp, peer, &settings, length);
    else if (is_heard && (has_place || idle != NULL))
        take_in(udp, peer, &settings, length);
    else
        turn_away(udp, peer, &settings, length);
}

/* Takes datagrams from the system: returns how many, or -1 and errno. */
#if defined(__linux__)
static int take_batch(dccp_socket *udp) {
    struct mmsghdr messages[BATCH];
    struct iovec places[BATCH];
    memset(messages, 0, sizeof messages);
    memset(udp->from, 0, sizeof udp->from);
    for (int at = 0; at < BATCH; at++) {
        places[at] = (struct iovec){.iov_base = udp->rooms[at], .iov_len = sizeof udp->rooms[at]};
        messages[at].msg_hdr.msg_iov = &places[at];
        messages[at].msg_hdr.msg_iovlen = 1;
        messages[at].msg_hdr.msg_name = &udp->from[at];
        messages[at].msg_hdr.msg_namelen = sizeof udp->from[at];
    }
    int count = recvmmsg(udp->descriptor, messages, BATCH, MSG_DONTWAIT, NULL);
    for (int at = 0; at < count; at++) udp->lengths[at] = messages[at].msg_len;
    return count;
}
#else
static int take_batch(dccp_socket *udp) {
    memset(udp->from, 0, sizeof udp->from);
    socklen_t size = sizeof udp->from[0];
    ssize_t length = recvfrom(udp->descriptor, udp->rooms[0], sizeof udp->rooms[0], MSG_DONTWAIT, &udp->from[0].any, &size);
    if (length < 0) return -1;
    udp->lengths[0] = (size_t)length;
    return 1;
}
#endif

/* Whether there is a datagram: 1, 0 if one was lost, -1 if there is none, and -2 for a fault. */
static int refill(dccp_socket *udp) {
    if (udp->next < udp->heard) return 1;
    udp->next = 0;
    udp->heard = take_batch(udp);
    if (0 < udp->heard) return 1;
    udp->heard = 0;
    bool is_none = errno == EAGAIN || errno == EWOULDBLOCK;
    bool is_lost = errno == ECONNREFUSED || errno == EHOSTUNREACH || errno == ENETUNREACH || errno == EINTR;
    return is_none ? -1 : is_lost ? 0 : -2;
}

/* Takes the next datagram: 1 with an event, 0 without, -1 if there is no datagram, and -2 for a fault. */
static int take_datagram(dccp_socket *udp, dccp_socket_event *event) {
    int found = refill(udp);
    if (found != 1) return found;
    const address from = udp->from[udp->next];
    const size_t length = udp->lengths[udp->next];
    udp->room = udp->rooms[udp->next++];
    dccp_connection *it = udp->is_server ? find(udp, &from) : udp->newest;
    bool is_request = 9 <= length && ((udp->room[8] >> 1) & 15) == 0;
    /* One that has ended, and was reported, does not keep a new Request out. */
    if (it != NULL && it->has_ended && it->is_told && is_request && udp->is_server) {
        part(it);
        discard(it);
        it = NULL;
    }
    if (udp->is_server && (it == NULL || it->is_half_open)) it = recall(udp, &from, it, length);
    if (it != NULL) return hear(it, length, event);
    if (udp->is_server) meet(udp, &from, length);
    return 0;
}

/* Timers. */

/* How many milliseconds it is until a connection has something to do. */
static uint64_t due_in(dccp_connection *it) {
    uint64_t time = now(), left = dccp_until_first(&it->end, time);
    dccp_view view = seen(it);
    uint64_t own = it->has_ended ? it->ended + LINGER : it->heard + (is_open(&view) ? it->udp->idle : it->udp->patience);
    own = own <= time ? 0 : own - time;
    return own < left ? own : left;
}

/* Does what is due at a connection. */
static void tick(dccp_connection *it) {
    dccp_frame frame;
    dccp_view view;
    while (dccp_tick(&it->end, now(), &frame) == DCCP_OK) send_frame(it, &frame);
    view = seen(it);
    settle_fates(it, view.in_flight);
    if (view.phase == DCCP_PHASE_CLOSED) finish(it, DCCP_END_SILENT, 0); /* The end gave up by itself. */
    if (it->has_ended || now() < it->heard + (is_open(&view) ? it->udp->idle : it->udp->patience)) return;
    if (dccp_abort(&it->end, now(), &frame) == DCCP_OK) send_frame(it, &frame);
    finish(it, DCCP_END_SILENT, 0);
}

/* Does what is due at all connections, and returns the first event. */
static int tick_all(dccp_socket *udp, dccp_socket_event *event) {
    udp->ticked = now();
    for (dccp_connection *it = udp->newest, *older; it != NULL; it = older) {
        older = it->older;
        if (due_in(it) == 0) tick(it);
        if (next_event(it, event) == 1) return 1;
        if (!it->has_ended || now() < it->ended + LINGER) continue;
        part(it);
        discard(it);
    }
    return 0;
}

int dccp_socket_wait(dccp_socket *udp) {
    uint64_t least = DCCP_NEVER;
    if (udp->has_data || udp->next < udp->heard) return 0;
    for (dccp_connection *it = udp->newest; it != NULL; it = it->older) {
        uint64_t left = (it->has_ended && !it->is_told) ? 0 : due_in(it);
        if (left < least) least = left;
    }
    return least == DCCP_NEVER ? -1 : least < INT_MAX ? (int)least : INT_MAX;
}

/* Takes datagrams, up to the first event; then runs timers, which are also checked while datagrams come. */
static int turn(dccp_socket *udp, dccp_socket_event *event) {
    for (;;) {
        if (udp->has_data) {
            udp->has_data = false;
            *event = udp->data;
            return 1;
        }
        if (udp->ticked + TICK <= now() && tick_all(udp, event) == 1) return 1;
        int found = take_datagram(udp, event);
        if (found == 1) return 1;
        if (found == -2) return -1;
        if (found == -1) return tick_all(udp, event);
    }
}

int dccp_socket_poll(dccp_socket *udp, int milliseconds, dccp_socket_event *event) {
    uint64_t begun = now();
    for (;;) {
        int found = turn(udp, event);
        if (found != 0) return found;
        uint64_t gone = now() - begun;
        if (0 <= milliseconds && (uint64_t)milliseconds <= gone) return 0;
        if (!udp->is_server && dccp_socket_connection(udp) == NULL) return 0;
        int left = milliseconds < 0 ? -1 : milliseconds - (int)gone, wait = dccp_socket_wait(udp);
        struct pollfd readable = {.fd = udp->descriptor, .events = POLLIN};
        if (poll(&readable, 1, wait < 0 || (0 <= left && left < wait) ? left : wait) < 0 && errno != EINTR) return -1;
    }
}

/* Making. */

/* The address of a host and port, for a socket that connects or binds to it. If there is none, errno and the options' owner are told why. */
static struct addrinfo *look_up(const char *host, const char *port, bool is_server, const dccp_socket_options *options) {
    struct addrinfo wanted, *found = NULL;
    memset(&wanted, 0, sizeof wanted);
    wanted.ai_socktype = SOCK_DGRAM;
    wanted.ai_flags = is_server ? AI_PASSIVE : 0;
    int fault = getaddrinfo(host, port, &wanted, &found);
    if (fault == 0) return found;
    if (fault == EAI_SYSTEM) return NULL;
    if (options->address_fault != NULL) *options->address_fault = fault;
    errno = fault == EAI_MEMORY ? ENOMEM : ENOENT;
    return NULL;
}

/* Opens a socket of the system, connected or bound to the first of the addresses with which that works. */
static bool reach(dccp_socket *udp, struct addrinfo *found) {
    const int buffer = BUFFER;
    for (struct addrinfo *it = found; it != NULL; it = it->ai_next) {
        udp->descriptor = socket(it->ai_family, SOCK_DGRAM, 0);
        if (udp->descriptor < 0) continue;
        /* If it is refused, the buffer stays. */
        (void)setsockopt(udp->descriptor, SOL_SOCKET, SO_RCVBUF, &buffer, sizeof buffer);
        int fault = udp->is_server ? bind(udp->descriptor, it->ai_addr, it->ai_addrlen) : connect(udp->descriptor, it->ai_addr, it->ai_addrlen);
        socklen_t size = sizeof udp->own;
        if (fault == 0 && getsockname(udp->descriptor, &udp->own.any, &size) == 0) return true;
        int why = errno;
        close(udp->descriptor);
        udp->descriptor = -1;
        errno = why;
    }
    return false;
}

/* Reads a name, "ADDRESS PORT". */
static bool read_name(const char *text, address *name) {
    char host[64];
    unsigned port;
    memset(name, 0, sizeof *name);
    if (sscanf(text, "%63s %u", host, &port) != 2 || UINT16_MAX < port) return false;
    if (inet_pton(AF_INET, host, &name->v4.sin_addr) == 1)
        name->v4.sin_family = AF_INET;
    else if (inet_pton(AF_INET6, host, &name->v6.sin6_addr) == 1)
        name->v6.sin6_family = AF_INET6;
    else
        return false;
    set_port(name, (uint16_t)port);
    return true;
}

static uint32_t usual(uint32_t wanted, uint32_t value) { return wanted == 0 ? value : wanted; }

/* The options that are given, of which an earlier version has fewer fields. */
static dccp_socket_options options_of(const dccp_socket_options *given) {
    dccp_socket_options options = DCCP_SOCKET_OPTIONS_INIT;
    if (given != NULL) memcpy(&options, given, given->size < sizeof options ? given->size : sizeof options);
    if (options.address_fault != NULL) *options.address_fault = 0;
    return options;
}

/* Takes over the options; false if a name is not valid, or there are too many wishes. */
static bool arrange(dccp_socket *udp, const dccp_socket_options *options) {
    udp->most = usual(options->most, 1000);
    udp->patience = usual(options->patience, 30000);
    udp->idle = usual(options->idle, 180000);
    udp->most_per_host = options->most_per_host;
    udp->holding = options->holding;
    udp->wish_count = options->wish_count;
    if (MOST_WISHES < udp->wish_count) return false;
    if (options->wish_count != 0) memcpy(udp->wishes, options->wishes, options->wish_count * sizeof *options->wishes);
    udp->has_names = options->client_name != NULL && options->server_name != NULL;
    return !udp->has_names || (read_name(options->client_name, &udp->client_name) && read_name(options->server_name, &udp->server_name));
}

/* Whether an end can be made with these wishes; else errno says why not. */
static bool try_wishes(const dccp_socket *udp) {
    dccp_end end = DCCP_NONE;
    dccp_settings settings = DCCP_SETTINGS_INIT;
    dccp_status status = dccp_make(&end, &settings, udp->wishes, udp->wish_count);
    dccp_free(&end);
    errno = status == DCCP_NO_MEMORY ? ENOMEM : EINVAL;
    return status == DCCP_OK;
}

const char *dccp_socket_address_text(int fault) { return gai_strerror(fault); }

void dccp_socket_free(dccp_socket *udp) {
    if (udp == NULL) return;
    for (dccp_connection *it = udp->newest, *older; it != NULL; it = older) {
        older = it->older;
        (void)dccp_connection_abort(it);
        discard(it);
    }
    if (0 <= udp->descriptor) close(udp->descriptor);
    if (0 <= udp->random) close(udp->random);
    free(udp);
}

/* A socket without connections, or NULL. */
static dccp_socket *make(const char *host, const char *port, bool is_server, const dccp_socket_options *options) {
    dccp_socket *udp = calloc(1, sizeof *udp);
    if (udp == NULL) return NULL;
    udp->descriptor = udp->random = -1;
    udp->is_server = is_server;
    errno = EINVAL;
    bool is_made = arrange(udp, options) && try_wishes(udp) && 0 <= (udp->random = open("/dev/urandom", O_RDONLY | O_CLOEXEC)) && (!is_server || rekey(udp));
    struct addrinfo *found = is_made ? look_up(host, port, is_server, options) : NULL;
    is_made = found != NULL && reach(udp, found);
    if (found != NULL) freeaddrinfo(found);
    if (is_made) return udp;
    int why = errno;
    dccp_socket_free(udp);
    errno = why;
    return NULL;
}

/* Asks for the service of the peer to which the socket is connected. */
static bool ask(dccp_socket *udp, uint32_t service) {
    address peer;
    socklen_t size = sizeof peer;
    dccp_settings settings;
    dccp_frame frame;
    memset(&peer, 0, sizeof peer);
    if (getpeername(udp->descriptor, &peer.any, &size) != 0 || !settle(udp, &peer, service, &settings)) return false;
    dccp_connection *it = add(udp, &peer);
    errno = ENOMEM;
    if (it == NULL || dccp_make(&it->end, &settings, udp->wishes, udp->wish_count) != DCCP_OK) return false;
    if (dccp_open(&it->end, now(), &frame) != DCCP_OK) return false;
    send_frame(it, &frame);
    return true;
}

dccp_socket *dccp_socket_connect(const char *host, const char *port, uint32_t service, const dccp_socket_options *given) {
    const dccp_socket_options options = options_of(given);
    dccp_socket *udp = make(host, port, false, &options);
    if (udp == NULL || ask(udp, service)) return udp;
    int why = errno;
    dccp_socket_free(udp);
    errno = why;
    return NULL;
}

dccp_socket *dccp_socket_listen(const char *host, const char *port, const uint32_t *services, size_t service_count,
                                const dccp_socket_options *given) {
    const dccp_socket_options options = options_of(given);
    errno = EINVAL;
    if (service_count == 0 || MOST_SERVICES < service_count) return NULL;
    dccp_socket *udp = make(host, port, true, &options);
    if (udp == NULL) return NULL;
    memcpy(udp->services, services, service_count * sizeof *services);
    udp->service_count = service_count;
    return udp;
}

/* What the owner reads and does. */

int dccp_socket_descriptor(const dccp_socket *udp) { return udp->descriptor; }

uint16_t dccp_socket_port(const dccp_socket *udp) { return port_of(&udp->own); }

dccp_connection *dccp_socket_connection(const dccp_socket *udp) {
    return udp->is_server || udp->newest == NULL || udp->newest->is_told ? NULL : udp->newest;
}

dccp_status dccp_connection_send(dccp_connection *it, const void *data, size_t length) {
    dccp_frame frame;
    if (it->has_ended) return DCCP_NOT_MADE;
    dccp_status status = dccp_send(&it->end, data, length, now(), &frame);
    send_frame(it, &frame);
    if (status == DCCP_OK) {
        it->statistics.sent.data_bytes += length;
        it->last_sent = *unsettled_at(it, it->unsettled_count++) = frame.number;
    }
    it->wants_room = status == DCCP_WINDOW_FULL || status == DCCP_NOT_NEGOTIATED;
    return status;
}

dccp_status dccp_connection_close(dccp_connection *it) {
    dccp_frame frame;
    if (it->has_ended) return DCCP_NOT_MADE;
    dccp_status status = dccp_close(&it->end, now(), &frame);
    send_frame(it, &frame);
    if (status == DCCP_OK) {
        it->heard = now();
        it->was_closing = true;
    }
    return status;
}

dccp_status dccp_connection_abort(dccp_connection *it) {
    dccp_frame frame;
    if (it->has_ended) return DCCP_NOT_MADE;
    dccp_status status = dccp_abort(&it->end, now(), &frame);
    send_frame(it, &frame);
    if (status == DCCP_OK) finish(it, DCCP_END_ABORTED, 0);
    return status;
}

dccp_status dccp_connection_prefer(dccp_connection *it, dccp_feature_kind feature, bool at_peer, const uint64_t *values, size_t count) {
    dccp_frame frame;
    dccp_status status = dccp_prefer(&it->end, (uint32_t)feature, at_peer, values, count, now(), &frame);
    send_frame(it, &frame);
    return status;
}

dccp_status dccp_connection_feature(dccp_connection *it, dccp_feature_kind feature, bool at_peer, dccp_feature_state *state) {
    return dccp_feature(&it->end, (uint32_t)feature, at_peer, state);
}

dccp_status dccp_connection_look(dccp_connection *it, dccp_view *view) { return dccp_look(&it->end, view); }

dccp_status dccp_connection_look_path(dccp_connection *it, dccp_round_trip *trip) { return dccp_look_path(&it->end, trip); }

uint64_t dccp_connection_last_sent(const dccp_connection *it) { return it->last_sent; }

dccp_fate dccp_connection_fate(dccp_connection *it, uint64_t number) {
    const dccp_fate fate = dccp_fate_of(&it->end, number);
    /* Nothing more is heard of what is in flight once the connection has ended. */
    return it->has_ended && fate == DCCP_FATE_IN_FLIGHT ? DCCP_FATE_UNKNOWN : fate;
}

size_t dccp_connection_longest_data(dccp_connection *it, size_t most) { return dccp_longest_data(&it->end, most); }

dccp_status dccp_connection_read(dccp_connection *it, dccp_data *data) { return dccp_read(&it->end, data); }

size_t dccp_connection_held(dccp_connection *it) { return dccp_held(&it->end); }

dccp_status dccp_connection_stop_reading(dccp_connection *it) { return dccp_stop_reading(&it->end); }

dccp_address dccp_connection_peer(const dccp_connection *it) {
    const address peer = plain(&it->peer);
    dccp_address found = {{0}, port_of(&peer), peer.any.sa_family == AF_INET6};
    spell(&peer, found.is_v6, found.bytes);
    return found;
}

void dccp_connection_statistics(const dccp_connection *it, dccp_statistics *statistics) {
    const size_t size = statistics->size;
    memcpy(statistics, &it->statistics, size < sizeof it->statistics ? size : sizeof it->statistics);
    statistics->size = size;
}

void dccp_connection_set_user(dccp_connection *it, void *user) { it->user = user; }

void *dccp_connection_user(const dccp_connection *it) { return it->user; }
