/* DCCP over the UDP of POSIX systems: a client, or a server of many, without a thread. One file, dccp_socket.c, over the library of dccp.h.
 *
 * A dccp_socket has one socket of the system and its connections: a client has one connection, a server one for each client.
 * dccp_socket_poll does everything: it hears datagrams, runs timers, sends what is due, and returns one event at a time. It waits for as long
 * as the caller says. A program with its own loop waits until dccp_socket_descriptor is readable, for dccp_socket_wait milliseconds at most,
 * and then polls with 0 until there are no more events.
 *
 *     dccp_socket *socket = dccp_socket_connect("192.0.2.1", "5001", 42, NULL);
 *     dccp_socket_event event;
 *     while (dccp_socket_poll(socket, -1, &event) == 1) {
 *         if (event.kind == DCCP_EVENT_OPENED) dccp_connection_send(event.connection, "hello", 5);
 *         if (event.kind == DCCP_EVENT_DATA) take(event.data, event.length);
 *         if (event.kind == DCCP_EVENT_ENDED) break;
 *     }
 *     dccp_socket_free(socket);
 *
 * It has the clock, random first numbers, and limits on Syncs and Resets (20 a second for a connection, 100 for strangers), and gives up silent
 * peers. One thread at a time uses a dccp_socket and its connections. */
#ifndef DCCP_SOCKET_H
#define DCCP_SOCKET_H

#include "dccp.h"

#ifdef __cplusplus
extern "C" {
#endif

/* A socket of the system with its connections. */
typedef struct dccp_socket dccp_socket;

/* One connection. It exists from its first event until the call of dccp_socket_poll after its last one. */
typedef struct dccp_connection dccp_connection;

typedef enum dccp_end_cause {
    DCCP_END_RESET = 0,     /* by a Reset with `code` (RFC 4340, section 5.6): 1 is orderly, and so is 3, which comes after this end closed, if
                               the last Reset was lost */
    DCCP_END_SILENT = 1,    /* the peer was silent for too long, or never answered */
    DCCP_END_ABORTED = 2,   /* by dccp_connection_abort */
    DCCP_END_FORGOTTEN = 3, /* by a Reset with code 3 to an end that had not closed: the peer does not know the connection. It was started again, or
                               a router has given this end another port: connect again */
    DCCP_END_ANEW = 4       /* the client has begun anew from its port: it opens another connection, with its own events */
} dccp_end_cause;

/* The address of a peer. */
typedef struct dccp_address {
    uint8_t bytes[16]; /* in network order; of IPv4 the first four */
    uint16_t port;     /* in the byte order of the machine */
    bool is_v6;
} dccp_address;

/* An event of a connection; `kind` is a dccp_event_kind of dccp.h. DCCP_EVENT_OPENED: data may be sent; a server's client has shown that it hears
 * the answers. DCCP_EVENT_DATA: `length` bytes at `data`, maybe none, which stay until the next call of dccp_socket_poll. DCCP_EVENT_ROOM: the
 * window has room again, after dccp_connection_send returned DCCP_WINDOW_FULL or DCCP_NOT_NEGOTIATED. DCCP_EVENT_ENDED: it has ended, for `cause`.
 * If the options have `holding`, there are in place of DCCP_EVENT_DATA: DCCP_EVENT_WAITS, the data of a packet wait for dccp_connection_read; and
 * DCCP_EVENT_DROPPED, they were dropped, with the Drop Code `code` (RFC 4340, section 11.7). A server's connection that never opened has no
 * event. */
typedef struct dccp_socket_event {
    dccp_connection *connection;
    const uint8_t *data;
    size_t length;
    dccp_event_kind kind;
    dccp_end_cause cause;
    uint8_t code;
} dccp_socket_event;

/* Packets that went one way, by their types (RFC 4340, section 5.1). */
typedef struct dccp_traffic {
    uint64_t data;       /* Data and DataAck */
    uint64_t data_bytes; /* the bytes of these data */
    uint64_t acks;       /* Ack */
    uint64_t syncs;      /* Sync and SyncAck */
    uint64_t resets;     /* Reset */
    uint64_t others;     /* Request, Response, CloseReq and Close */
} dccp_traffic;

/* What a connection has counted. Begin with DCCP_STATISTICS_INIT. */
typedef struct dccp_statistics {
    size_t size;               /* sizeof(dccp_statistics): later versions have more fields */
    dccp_traffic sent;         /* handed to the system; a network may lose them */
    dccp_traffic received;     /* taken */
    uint64_t not_taken;        /* datagrams that were dropped, or answered by a Sync, or by a Reset for a fault */
    uint64_t answers_left_out; /* Syncs and Resets that were not sent, since the limit was reached */
    uint64_t lost;             /* packets of data that count as lost: three later ones were reported, or there was a timeout */
    uint64_t unread_dropped;   /* packets of data that were dropped, since too many waited to be read, or the application reads no more */
} dccp_statistics;

#define DCCP_STATISTICS_INIT {sizeof(dccp_statistics), {0, 0, 0, 0, 0, 0}, {0, 0, 0, 0, 0, 0}, 0, 0, 0, 0}

/* The options of a socket. Begin with DCCP_SOCKET_OPTIONS_INIT. A number of 0 is the usual one. */
typedef struct dccp_socket_options {
    size_t size;             /* sizeof(dccp_socket_options): later versions have more fields */
    const dccp_wish *wishes; /* of each end, besides the usual ones; 16 at most */
    size_t wish_count;
    const char *client_name; /* names on which both ends have agreed, "ADDRESS PORT", such as "192.0.2.1 1": they are in each packet and its */
    const char *server_name; /* checksum, in place of addresses and ports that are translated on the way. NULL: the addresses themselves */
    uint32_t most;           /* connections of a server at a time: 1,000. One more Request takes the place of one that has ended or not opened for
                                a second; if all are open, a Reset with code 9, Too Busy, answers it */
    uint32_t patience;       /* milliseconds in which a connection has to open, and a close to be answered: 30,000 */
    uint32_t idle;           /* milliseconds of silence after which a connection is given up: 180,000, after which an end gives up by itself. An
                                idle end sends an Ack at least every 20 seconds, so less than that ends idle connections */
    uint32_t most_per_host;  /* connections of a server that may be open for one host: as many as there are. More Requests of the host are answered by
                                a Reset with code 9. A host is an address of IPv4, or the first 64 bits of one of IPv6 */
    uint32_t holding;        /* how many packets' data wait at an end for dccp_connection_read, 1,024 at most, each of which takes 2 KB from the
                                beginning. The peer is told of drops and of a nearly full buffer. 0: none */
    int *address_fault;      /* if not NULL, where the call that makes the socket writes why host and port have no address, for
                                dccp_socket_address_text; 0 if they have one, or if errno says it all */
} dccp_socket_options;

#define DCCP_SOCKET_OPTIONS_INIT {sizeof(dccp_socket_options), NULL, 0, NULL, NULL, 0, 0, 0, 0, 0, NULL}

/* A client of the server at this host and port, which asks for this Service Code. `options` may be NULL. Returns NULL if none was made, and errno
 * says why: EINVAL for bad wishes or names, ENOENT for a host or a port without an address (`address_fault` of the options says which), ENOMEM,
 * or an error of a system call. */
dccp_socket *dccp_socket_connect(const char *host, const char *port, uint32_t service, const dccp_socket_options *options);

/* A server on this host and port, for one or more Service Codes. A host of NULL is any address of the machine. Options and errors as above. */
dccp_socket *dccp_socket_listen(const char *host, const char *port, const uint32_t *services, size_t service_count,
                                const dccp_socket_options *options);

/* What the system says about a number of `address_fault`, such as "Name or service not known": the text of getaddrinfo, which stays. */
const char *dccp_socket_address_text(int fault);

/* Frees a socket with its connections. Open ones are aborted, so that their peers hear of it at once. NULL is ignored. */
void dccp_socket_free(dccp_socket *socket);

/* Does what is due, and waits for an event, for at most this many milliseconds, or for ever if the number is below 0. Returns 1 with an event;
 * 0 if the time is over, or the last event of a client was returned before; -1 if the system's socket failed, and errno says how. */
int dccp_socket_poll(dccp_socket *socket, int milliseconds, dccp_socket_event *event);

/* The system's socket. Use it only to wait until it is readable. */
int dccp_socket_descriptor(const dccp_socket *socket);

/* In how many milliseconds dccp_socket_poll has something to do even if no datagram arrives; -1: never. */
int dccp_socket_wait(dccp_socket *socket);

/* The port of the socket, in the byte order of the machine. */
uint16_t dccp_socket_port(const dccp_socket *socket);

/* The connection of a client. NULL after its last event, and for a server. */
dccp_connection *dccp_socket_connection(const dccp_socket *socket);

/* Sends data, 0 to 1,024 bytes. DCCP_OK, or a status of dccp_send; DCCP_NOT_MADE once the connection has ended. */
dccp_status dccp_connection_send(dccp_connection *connection, const void *data, size_t length);

/* Closes in order, at once: what is in flight may not be delivered. DCCP_OK; DCCP_NOT_OPEN, DCCP_NOT_MADE. */
dccp_status dccp_connection_close(dccp_connection *connection);

/* Ends at once; DCCP_EVENT_ENDED follows. DCCP_OK; DCCP_NOT_LIVE, DCCP_NOT_MADE. */
dccp_status dccp_connection_abort(dccp_connection *connection);

/* As dccp_prefer, dccp_feature, dccp_look and dccp_look_path. `service` of a dccp_view is the Service Code for which the client asked. */
dccp_status dccp_connection_prefer(dccp_connection *connection, dccp_feature_kind feature, bool at_peer, const uint64_t *values, size_t count);
dccp_status dccp_connection_feature(dccp_connection *connection, dccp_feature_kind feature, bool at_peer, dccp_feature_state *state);
dccp_status dccp_connection_look(dccp_connection *connection, dccp_view *view);
dccp_status dccp_connection_look_path(dccp_connection *connection, dccp_round_trip *trip);

/* The sequence number of the packet that dccp_connection_send sent last, 0 before the first; its fate, as dccp_fate_of, which is unknown after a
 * timeout and after the end of the connection; and the longest data that fit a frame of `most` bytes now, as dccp_longest_data. */
uint64_t dccp_connection_last_sent(const dccp_connection *connection);
dccp_fate dccp_connection_fate(dccp_connection *connection, uint64_t number);
size_t dccp_connection_longest_data(dccp_connection *connection, size_t most);

/* As dccp_read, dccp_held and dccp_stop_reading, if the options have `holding`. What waits can be read until the call of dccp_socket_poll after
 * the last event. */
dccp_status dccp_connection_read(dccp_connection *connection, dccp_data *data);
size_t dccp_connection_held(dccp_connection *connection);
dccp_status dccp_connection_stop_reading(dccp_connection *connection);

/* The address from which the peer's datagrams arrive. */
dccp_address dccp_connection_peer(const dccp_connection *connection);

/* What was counted. If the struct is of an earlier version, its fields are written. */
void dccp_connection_statistics(const dccp_connection *connection, dccp_statistics *statistics);

/* A pointer for the owner's use, NULL at first. */
void dccp_connection_set_user(dccp_connection *connection, void *user);
void *dccp_connection_user(const dccp_connection *connection);

#ifdef __cplusplus
}
#endif

#endif
