/* One end of a DCCP connection (RFC 4340) with CCID 2 (RFC 4341) and feature negotiation, and a server of many peers.
 *
 * The library has no socket, no clock and no thread. Datagrams that arrived and the time go in, and each call leaves at most
 * one frame, which the caller sends to the peer. It takes memory in dccp_make, dccp_accept and dccp_listener_make, and in
 * dccp_listener_arrive for a peer that has no flow. If that opens no flow, it keeps at most one block, for timers.
 *
 * Order of calls: a handle begins as DCCP_NONE. A client makes an end in it (dccp_make) and opens it (dccp_open); a server's end is made
 * by dccp_accept from a peer's first datagram. After that, in any order: dccp_receive for each datagram, dccp_tick once dccp_until_first
 * has passed, dccp_send, dccp_prefer, dccp_close and dccp_abort. dccp_free is the last.
 *
 * Words: a frame is the bytes of one packet, as the payload of one datagram. A feature is located at a place: at the end itself, or at its
 * peer. A wish is values of a feature, best first, in place of the usual ones; if it is offered, the end asks its peer for it. The stand of a
 * feature's negotiation is stable, changing or unstable (RFC 4340, section 6). A flow is an end of a listener, with its peer. In flight are
 * packets of data that nobody has reported yet, and the window is how many may be. dccp_told says what became of a datagram.
 *
 * Time is `now`, a number of milliseconds since any moment, the same for all calls of an end or a listener; it does not go back.
 *
 * After every call: if frame.length is not 0, its bytes go to the peer, whatever the call returned. A refused call has changed nothing and
 * leaves no bytes. There are two exceptions: if dccp_make, dccp_accept or dccp_listener_make made nothing, the handle holds nothing any
 * more; and dccp_accept may leave an answer to the datagram, as dccp_listener_arrive does with DCCP_BUSY.
 *
 * A server of many peers holds a dccp_listener, which begins as DCCP_NO_LISTENER, in place of an end for each. dccp_listener_make makes it.
 * dccp_listener_arrive takes each datagram with the address from which it came. dccp_listener_tick is called once
 * dccp_listener_until_first has passed. dccp_listener_send, dccp_listener_close and dccp_listener_abort are for peers that have a flow. The
 * frame of a call goes to the peer that the call names, or that dccp_listener_tick has named. dccp_listener_event says what a call has
 * done. Each peer is answered as by a server for it alone.
 *
 * The caller has these duties, which nothing checks:
 *   - A handle is passed to one call at a time. Another thread may use it, if a lock or a join orders the two.
 *   - The library alone reads and writes the fields of a handle, and a handle is not copied while it is in use.
 *   - No pointer is NULL, except that of no bytes, values or wishes, whose length or count is 0. The arguments of one call do not overlap. A
 *     bool is 0 or 1.
 *   - No signal handler makes a call.
 * Any number in place of a feature, a timer or a value, and any bytes, are answered with a status.
 *
 * Structs that may grow begin with their size, which the caller sets: dccp_settings, dccp_flow_rules, dccp_view, dccp_round_trip,
 * dccp_flow_life and dccp_event. Each has an initialiser. A struct of another size is refused with DCCP_OTHER_SIZE, and neither read nor written.
 */
#ifndef DCCP_H
#define DCCP_H

#include <stdbool.h>
#include <stddef.h>
#include <stdint.h>

#ifdef __cplusplus
extern "C" {
#endif

#define DCCP_VERSION 100 /* 10,000 times the major number, 100 times the minor one, and the patch: 0.1.0; see dccp_version */
#define DCCP_ABI 5       /* rises with every change of a function, a struct or a number here; see dccp_abi */

#define DCCP_MOST_FRAME_BYTES 2044 /* the longest frame, and the longest datagram that is taken */
#define DCCP_MOST_DATA_BYTES 1024  /* the most data of one packet of this library */
#define DCCP_MOST_READ_BYTES 2032  /* the most data of one datagram */
#define DCCP_MOST_VALUES 8         /* the most values of one wish */
#define DCCP_NEVER UINT64_MAX      /* what dccp_until_first returns if no timer runs */

/* What a call returns. */
typedef enum dccp_status {
    DCCP_OK = 0,
    DCCP_NOT_MADE = 1,       /* the handle holds no end, or no listener */
    DCCP_NO_MEMORY = 2,      /* there is no memory for an end, a listener or a flow */
    DCCP_NOT_FRESH = 3,      /* dccp_open: a server's end, or one that was opened before */
    DCCP_NOT_OPEN = 4,       /* the phase of the connection does not permit the call */
    DCCP_TOO_LONG = 5,       /* more than 1,024 bytes of data, or more than 2,044 of a datagram */
    DCCP_NOT_NEGOTIATED = 6, /* dccp_send: the peer does not yet send Ack Vectors, which CCID 2 needs */
    DCCP_WINDOW_FULL = 7,    /* dccp_send: the window is full; offer the data again, or drop them */
    DCCP_BAD_LIST = 8,       /* there are no values, or over eight, one twice, one not permitted, or more than one where one is needed */
    DCCP_NOT_OURS = 9,       /* Sequence Window or Ack Ratio of the peer, which only the peer sets */
    DCCP_NOT_LIVE = 10,      /* dccp_abort: there is no connection */
    DCCP_NO_FEATURE = 11,    /* no feature has this number */
    DCCP_NOTHING_DUE = 12,   /* dccp_tick: no timer has run out; dccp_timer: this one has nothing to do; dccp_read: no data wait */
    DCCP_NO_CONNECTION = 13, /* dccp_accept: the datagram opens no connection */
    DCCP_BUSY = 14,          /* dccp_listener_arrive: the listener has all its flows, and the datagram would open one more */
    DCCP_NO_FLOW = 15,       /* a call of a listener: the peer has no flow, or none is at the place */
    DCCP_NO_TIMER = 16,      /* no timer has this number */
    DCCP_NO_NUMBER = 17,     /* the number of a first packet is not below 2^48 */
    DCCP_NO_SUCH_LISTENER = 18, /* dccp_listener_make: for IPv6, for none or over 1,024 flows, or for over 16 services */
    DCCP_GAVE_UP = 19,       /* dccp_listener_tick: a flow was given up */
    DCCP_OTHER_SIZE = 20,    /* a struct that begins with its size has another size than in the library */
    DCCP_REFUSED = 21,       /* dccp_listener_arrive: the listener takes no new flows, and the datagram would open one */
    DCCP_NO_EVENT = 22,      /* dccp_listener_event: there are no more events */
    DCCP_NOT_LISTENING = 23  /* dccp_send: the peer has reported that no application listens any more, so data would reach nobody */
} dccp_status;

/* The phases of a connection (RFC 4340, section 8.4). */
typedef enum dccp_phase {
    DCCP_PHASE_CLOSED = 0,
    DCCP_PHASE_LISTEN = 1,
    DCCP_PHASE_REQUEST = 2,
    DCCP_PHASE_RESPOND = 3,
    DCCP_PHASE_PARTOPEN = 4,
    DCCP_PHASE_OPEN = 5,
    DCCP_PHASE_CLOSEREQ = 6,
    DCCP_PHASE_CLOSING = 7,
    DCCP_PHASE_TIMEWAIT = 8
} dccp_phase;

typedef enum dccp_timer_kind {
    DCCP_TIMER_REQUEST = 0,   /* the Request was not answered */
    DCCP_TIMER_ACK = 1,       /* an acknowledgement is due */
    DCCP_TIMER_NEGOTIATE = 2, /* a Change is not confirmed */
    DCCP_TIMER_RTO = 3,       /* data are not acknowledged */
    DCCP_TIMER_CLOSE = 4,     /* a Close or CloseReq is not answered */
    DCCP_TIMER_TIMEWAIT = 5   /* two segment lifetimes have passed in TIMEWAIT */
} dccp_timer_kind;

/* The features that may be wished for (RFC 4340, section 6.4). */
typedef enum dccp_feature_kind {
    DCCP_FEATURE_CCID = 1,                /* 2 and 248 */
    DCCP_FEATURE_SHORT_SEQNOS = 2,        /* 0 and 1 */
    DCCP_FEATURE_SEQUENCE_WINDOW = 3,     /* one value, 32 to 2^46 - 1, in packets */
    DCCP_FEATURE_ECN_INCAPABLE = 4,       /* 1 here; 0 and 1 at the peer */
    DCCP_FEATURE_ACK_RATIO = 5,           /* one value, 0 to 65,535, in data packets for one Ack */
    DCCP_FEATURE_SEND_ACK_VECTOR = 6,     /* 0 and 1 */
    DCCP_FEATURE_SEND_NDP_COUNT = 7,      /* 0 */
    DCCP_FEATURE_MIN_CS_COV = 8,          /* 0 to 15 */
    DCCP_FEATURE_CHECK_DATA_CHECKSUM = 9  /* 0 */
} dccp_feature_kind;

/* Where the negotiation of a feature is; its value is settled if it is stable. */
typedef enum dccp_stand {
    DCCP_STAND_STABLE = 0,
    DCCP_STAND_CHANGING = 1,
    DCCP_STAND_UNSTABLE = 2
} dccp_stand;

/* What became of data that were sent. */
typedef enum dccp_fate {
    DCCP_FATE_UNKNOWN = 0,   /* no data were sent under this number, or their fate is not known any more: it is known of the last 2,048 packets of
                                data, except those sent before a timeout, or before another CCID began */
    DCCP_FATE_IN_FLIGHT = 1, /* they are on their way */
    DCCP_FATE_DELIVERED = 2, /* the peer has reported that they arrived */
    DCCP_FATE_LOST = 3,      /* three later ones were reported and they were not (RFC 4341, section 5): a report may still follow */
    /* They arrived, and the peer has dropped them: DCCP_FATE_DROPPED plus the Drop Code of RFC 4340, section 11.7. The last 2,048 drops of an end,
       or of all flows of a listener, are known; a drop that is reported after a later packet counts as delivered. */
    DCCP_FATE_DROPPED = 4,             /* because of the protocol: hold data back until it allows them */
    DCCP_FATE_DROPPED_UNHEARD = 5,     /* no application listens */
    DCCP_FATE_DROPPED_FULL = 6,        /* its receive buffer had no room */
    DCCP_FATE_DROPPED_CORRUPT = 7,     /* they were corrupt */
    DCCP_FATE_DROPPED_RESERVED_4 = 8,  /* these have no meaning yet */
    DCCP_FATE_DROPPED_RESERVED_5 = 9,
    DCCP_FATE_DROPPED_RESERVED_6 = 10,
    DCCP_FATE_DELIVERED_CORRUPT = 11   /* they were corrupt, and were delivered so */
} dccp_fate;

/* What became of a datagram. */
typedef enum dccp_told_kind {
    DCCP_TOLD_TOOK = 0,      /* it was taken, and had no data */
    DCCP_TOLD_DATA = 1,      /* it had data: the bytes from `first` up to `past` of the datagram, maybe none */
    DCCP_TOLD_DROPPED = 2,   /* it was dropped, for `cause` */
    DCCP_TOLD_SYNCED = 3,    /* it was answered by a Sync that acknowledges `number`: limit how many go out in a second */
    DCCP_TOLD_WAS_RESET = 4, /* the connection has ended by the peer's Reset with `code`; the timer TIMEWAIT runs */
    DCCP_TOLD_SENT_RESET = 5, /* it was answered by a Reset with `code` and `detail`; if the phase is DCCP_PHASE_CLOSED now, free the end */
    DCCP_TOLD_WAITS = 6,     /* it had data, which wait for dccp_read */
    DCCP_TOLD_NOT_KEPT = 7   /* it had data that were dropped; `code` is 1 after dccp_stop_reading, and 2 if there was no room */
} dccp_told_kind;

/* Why a datagram was dropped. */
typedef enum dccp_cause {
    DCCP_CAUSE_NONE = 0,
    DCCP_CAUSE_SHORT = 1,            /* under 12 bytes */
    DCCP_CAUSE_RESERVED_TYPE = 2,    /* a reserved packet type */
    DCCP_CAUSE_OFFSET_SMALL = 3,     /* its Data Offset is within the header */
    DCCP_CAUSE_OFFSET_LARGE = 4,     /* its Data Offset is beyond its end */
    DCCP_CAUSE_SHORT_NUMBERS = 5,    /* short numbers on a type that has none */
    DCCP_CAUSE_COVERAGE = 6,         /* its checksum covers more bytes than there are */
    DCCP_CAUSE_CHECKSUM = 7,         /* its checksum is wrong */
    DCCP_CAUSE_OTHER_PORTS = 8,      /* its ports are not those of the connection */
    DCCP_CAUSE_STRAY_RESET = 9,      /* a Reset of no connection */
    DCCP_CAUSE_SHORT_OFF = 10,       /* short numbers, which are not negotiated */
    DCCP_CAUSE_BAD_SYNC = 11,        /* a Sync or SyncAck whose numbers are not valid */
    DCCP_CAUSE_LIMIT = 12            /* it would be answered by one Sync too many, so it was ignored: the end did not hear it */
} dccp_cause;

/* A handle: one end, or none. */
typedef struct dccp_end {
    void *opaque;
    bool made;
} dccp_end;

/* A handle without an end; each handle begins so. DCCP_NONE_INIT initialises a static one; zeroed memory is one too. */
#ifdef __cplusplus
#define DCCP_NONE_INIT {nullptr, false}
#define DCCP_NONE (dccp_end DCCP_NONE_INIT)
#else
#define DCCP_NONE_INIT {NULL, false}
#define DCCP_NONE ((dccp_end)DCCP_NONE_INIT)
#endif

/* A handle: a listener, or none. */
typedef struct dccp_listener {
    void *opaque;
    bool made;
} dccp_listener;

/* A handle without a listener; each handle begins so. DCCP_NONE_INIT initialises a static one. */
#ifdef __cplusplus
#define DCCP_NO_LISTENER (dccp_listener DCCP_NONE_INIT)
#else
#define DCCP_NO_LISTENER ((dccp_listener)DCCP_NONE_INIT)
#endif

/* A peer of a listener: where a datagram came from, or a frame goes to. */
typedef struct dccp_peer {
    uint8_t address[4]; /* of IPv4, in network order */
    uint16_t port;      /* in the byte order of the machine */
} dccp_peer;

/* A key from which first numbers are made: 32 bytes that nobody can guess. */
typedef struct dccp_key {
    uint8_t bytes[32];
} dccp_key;

/* The keys of Init Cookies, for a server with an end for each peer: `key` has written those from `since` on, `before` the earlier ones. */
typedef struct dccp_cookie_keys {
    dccp_key key;
    dccp_key before;
    uint64_t since; /* in the milliseconds of each call */
} dccp_cookie_keys;

/* The last Sync of a server's end, as its owner keeps it for dccp_begins_anew: all zeros at first. */
typedef struct dccp_last_sync {
    uint64_t number;
    bool is_there;
} dccp_last_sync;

/* How many answers go to peers without a flow, if there is no limit. */
#define DCCP_UNLIMITED UINT16_MAX

/* The rules by which a listener makes room, gives flows up and answers strangers. Waits are in milliseconds, and DCCP_NEVER is for ever.
 * A new listener has DCCP_USUAL_RULES; DCCP_NO_RULES leave everything to the owner. */
typedef struct dccp_flow_rules {
    size_t size;         /* sizeof(dccp_flow_rules) */
    uint64_t respond;    /* how long a flow may be in DCCP_PHASE_RESPOND (RFC 4340, section 8.1.3) */
    uint64_t crowded;    /* the same in a crowd: if more flows are in DCCP_PHASE_RESPOND than places are free */
    uint64_t closing;    /* how long one may be in DCCP_PHASE_CLOSEREQ and in DCCP_PHASE_CLOSING */
    uint64_t idle;       /* how long one in DCCP_PHASE_OPEN may take no packet */
    uint16_t answers;    /* how many answers go to peers without a flow in a second; DCCP_UNLIMITED: as many as there are */
    uint16_t resets;     /* how many of them are Resets to packets that belong to no connection (RFC 4340, section 8.1.3) */
    bool makes_room;     /* a Request at a full table ends the flow longest in DCCP_PHASE_TIMEWAIT, else the longest in DCCP_PHASE_RESPOND over
                            its time */
    bool ends_old_flows; /* a peer that begins anew from its port ends its old flow */
    uint8_t cookies;     /* a dccp_cookies: when a Request is answered without a flow, once dccp_listener_rekey has set a key */
} dccp_flow_rules;

#define DCCP_USUAL_RULES {sizeof(dccp_flow_rules), 240000, 10000, 64000, 120000, 100, 8, true, true, 1}
#define DCCP_NO_RULES {sizeof(dccp_flow_rules), UINT64_MAX, UINT64_MAX, UINT64_MAX, UINT64_MAX, DCCP_UNLIMITED, DCCP_UNLIMITED, false, false, 0}

/* When a listener answers the Request of a peer without a flow by a Response with an Init Cookie, and makes no flow: the packet that returns the
 * cookie opens it (RFC 4340, section 8.1.4). Each Request has one such answer, which is not among the `answers` of the rules. */
typedef enum dccp_cookies {
    DCCP_COOKIES_NEVER = 0,
    DCCP_COOKIES_IN_A_CROWD = 1, /* if more flows are in DCCP_PHASE_RESPOND than places are free */
    DCCP_COOKIES_ALWAYS = 2      /* and any greater number */
} dccp_cookies;

/* How dccp_listener_arrive has treated a datagram. */
typedef enum dccp_way {
    DCCP_WAY_PLAIN = 0,      /* without cookies */
    DCCP_WAY_GREETED = 1,    /* a Request was answered with an Init Cookie: by `told` it was taken, and there is no flow */
    DCCP_WAY_UNANSWERED = 2, /* a Request was ignored: its options are too long for a cookie, or there was no memory to answer it */
    DCCP_WAY_REOPENED = 3,   /* its Init Cookie has opened its flow, which has heard it */
    DCCP_WAY_UNOPENED = 4    /* its Init Cookie is good, but there is no room or no memory for a flow: the peer's next packet has it again */
} dccp_way;

/* What is known about a flow besides its end. Times are those of the calls. */
typedef struct dccp_flow_life {
    size_t size;    /* sizeof(dccp_flow_life) */
    uint64_t since; /* since when it is in its phase */
    uint64_t taken; /* when its end last took a packet: a packet that was dropped, or answered with a Sync, is no sign of life */
    uint64_t user;  /* what dccp_listener_set_user has written beside it; 0 at first */
} dccp_flow_life;

#define DCCP_FLOW_LIFE_INIT {sizeof(dccp_flow_life), 0, 0, 0}

/* What has happened to a connection. */
typedef enum dccp_event_kind {
    DCCP_EVENT_OPENED = 0, /* the handshake is complete: the peer has shown that it hears the answers */
    DCCP_EVENT_DATA = 1,   /* data arrived, and are in their datagram */
    DCCP_EVENT_ROOM = 2,   /* data may be sent that were refused before: there is room in the window and at the peer's application, and the peer
                              sends Ack Vectors */
    DCCP_EVENT_ENDED = 3,  /* it is over: this event comes once, and last */
    DCCP_EVENT_WAITS = 4,  /* data arrived, and wait for dccp_listener_read */
    DCCP_EVENT_DROPPED = 5 /* data arrived and were dropped; `code` is 1 after dccp_listener_stop_reading, and 2 if there was no room */
} dccp_event_kind;

/* Why a flow is over. */
typedef enum dccp_ended_by {
    DCCP_BY_PEER = 0,    /* the peer closed or aborted it */
    DCCP_BY_OWN = 1,     /* a call did: dccp_listener_close, _abort or _forget */
    DCCP_BY_SILENT = 2,  /* the peer was silent, or did not go on with the handshake or the closing, for longer than the rules allow */
    DCCP_BY_EVICTED = 3, /* it made room for another */
    DCCP_BY_FAULT = 4,   /* a fault of the peer was answered by a Reset */
    DCCP_BY_ANEW = 5     /* the peer began anew from its port */
} dccp_ended_by;

/* What has happened to a flow of a listener; what does not belong to its kind is 0. */
typedef struct dccp_event {
    size_t size;    /* sizeof(dccp_event) */
    uint64_t user;  /* what dccp_listener_set_user has written beside the flow */
    size_t first;   /* DCCP_EVENT_DATA: the data are the bytes of the datagram from here */
    size_t past;    /* up to here */
    uint32_t kind;  /* a dccp_event_kind */
    uint32_t cause; /* DCCP_EVENT_ENDED: a dccp_ended_by */
    dccp_peer peer;
    uint8_t code;   /* DCCP_EVENT_ENDED: the Reset Code, 1 if that was orderly (RFC 4340, section 5.6); 0 if no Reset was sent or received.
                       DCCP_EVENT_DROPPED: the Drop Code (RFC 4340, section 11.7) */
} dccp_event;

#define DCCP_EVENT_INIT {sizeof(dccp_event), 0, 0, 0, 0, 0, {{0}, 0}, 0}

/* What an end is made from. Begin with DCCP_SETTINGS_INIT, or set `size` and the fields that are not 0. */
typedef struct dccp_settings {
    size_t size;              /* sizeof(dccp_settings) */
    uint8_t own_address[16];  /* in network order; of an IPv4 address the first four bytes */
    uint8_t peer_address[16];
    uint64_t first_number;    /* of its first packet, below 2^48: a number that nobody can guess (RFC 4340, section 7.2) */
    uint32_t service;         /* the Service Code, the same at both ends */
    uint16_t own_port;        /* in the byte order of the machine */
    uint16_t peer_port;
    bool is_server;
    bool is_v6;
    bool is_plain;            /* removes the usual offers, so that only those among the wishes are made */
    /* Rules of the path, which an end, and each flow of a listener, follows unless one of these is true. */
    bool without_wide_window;   /* else it asks for a Sequence Window of 10,000 for itself, if it makes the usual offers */
    bool without_round_trip;    /* else the timers wait by the round trip that is measured */
    bool without_soon_acks;     /* else Acks wait for 50 ms and up to 20 s, and not at all if data show a hole; with it, 200 ms and up to 64 s */
    bool without_ack_ratio;     /* else the Ack Ratio of its data follows the window of CCID 2 */
    bool without_probes;        /* else, with a window of 16 or more, the peer is asked for a sign of life before a timeout */
    bool without_limits;        /* else, of the datagrams that would be answered by a Sync, 20 a second near the peer's numbers are heard, and
                                   one a second far from them */
    bool without_giving_up;     /* else it gives up a silent peer after some minutes */
    bool without_heed;          /* else data wait if the peer reports that the application is slow or its buffer full, and are refused for good
                                   once none listens any more */
    size_t most_held;           /* how many packets' data wait until dccp_read takes them, of each flow until dccp_listener_read does; more
                                   than 1,024 counts as 1,024. With 0 they are handed over within their datagram */
} dccp_settings;

#define DCCP_SETTINGS_INIT \
    {sizeof(dccp_settings), {0}, {0}, 0, 0, 0, 0, false, false, false, false, false, false, false, false, false, false, false, 0}

/* What an end wishes for a feature when the connection begins, in place of the usual. */
typedef struct dccp_wish {
    uint64_t values[DCCP_MOST_VALUES]; /* best first */
    size_t count;                      /* how many of them there are */
    uint32_t feature;                  /* a dccp_feature_kind */
    bool at_peer;                      /* of the peer, else of this end */
    bool is_offered;                   /* this end asks for it, else it only answers the peer's wish */
    bool is_mandatory;                 /* of an offer: a peer that does not understand it has to end the connection */
} dccp_wish;

/* The frame that a call leaves: `length` bytes, 0 to 2,044, at `bytes`, and its sequence number in full. Without a frame both numbers are 0. */
typedef struct dccp_frame {
    size_t length;
    uint64_t number;
    uint8_t bytes[DCCP_MOST_FRAME_BYTES];
} dccp_frame;

/* Data that dccp_read has taken: `length` bytes at `bytes`, of the packet with the sequence number `number`. */
typedef struct dccp_data {
    size_t length;
    uint64_t number;
    uint8_t bytes[DCCP_MOST_READ_BYTES];
} dccp_data;

/* What became of a datagram. Fields that do not belong to its kind are 0. */
typedef struct dccp_told {
    uint32_t kind;  /* a dccp_told_kind */
    uint32_t cause; /* a dccp_cause */
    size_t first;
    size_t past;
    uint64_t number;
    uint8_t code;   /* a Reset Code: 1 is an orderly close, 2 means that the peer gave up, any other is a fault (RFC 4340, section 5.6); or a
                       Drop Code */
    uint8_t detail[3];
} dccp_told;

/* What can be read of an end: ISS, GSS, GAR, ISR and GSR of RFC 4340, section 7.1 (ISR and GSR are 0 before the first packet was received), how
 * many packets were taken, and its phase. Its window and its flight are in packets; the window is less if the application that reads its data
 * leaves less of it. */
typedef struct dccp_view {
    size_t size; /* sizeof(dccp_view) */
    uint64_t iss;
    uint64_t gss;
    uint64_t gar;
    uint64_t isr;
    uint64_t gsr;
    uint64_t marked;
    uint32_t phase; /* a dccp_phase */
    uint32_t window;
    uint32_t in_flight;
    uint32_t service; /* the Service Code for which it asks, or which it serves */
} dccp_view;

#define DCCP_VIEW_INIT {sizeof(dccp_view), 0, 0, 0, 0, 0, 0, 0, 0, 0, 0}

/* What an end has measured of its path, by the times of its calls: the round trip and its variation in microseconds (SRTT and RTTVAR of RFC
 * 6298), 0 before the first sample; and how many milliseconds it waits for a report (RTO). */
typedef struct dccp_round_trip {
    size_t size; /* sizeof(dccp_round_trip) */
    uint64_t timeout;
    uint32_t smoothed;
    uint32_t variance;
} dccp_round_trip;

#define DCCP_ROUND_TRIP_INIT {sizeof(dccp_round_trip), 0, 0, 0}

/* What an end holds for a feature. */
typedef struct dccp_feature_state {
    uint64_t value;
    uint32_t stand; /* a dccp_stand */
} dccp_feature_state;

/* Makes an end in the handle. It first frees the end that the handle held. If making fails, the handle holds none. The wishes are taken in
 * their order. The library keeps no pointer that is passed.
 *     DCCP_OK
 *     DCCP_OTHER_SIZE  the settings have another size
 *     DCCP_NO_NUMBER   the first number is not below 2^48
 *     DCCP_NO_FEATURE  a wish is for no feature: this and the next two are about the first wish that is refused
 *     DCCP_BAD_LIST    as with dccp_prefer
 *     DCCP_NOT_OURS    it is for the Sequence Window or Ack Ratio of the peer
 *     DCCP_NO_MEMORY */
dccp_status dccp_make(dccp_end *end, const dccp_settings *settings, const dccp_wish *wishes, size_t count);

/* Frees what the handle holds. Afterwards it holds none, and may be freed again or made again. */
void dccp_free(dccp_end *end);

/* Makes a server's end from the first datagram of a peer, as dccp_make does with `is_server` true. It takes memory for any datagram. To avoid
 * that, ignore datagrams that are no Request; in a Request `(datagram[8] >> 1) & 15` is 0.
 *     DCCP_OK             a Request has opened a connection, which is now the peer's; if its options had a fault, the phase is already
 *                         DCCP_PHASE_CLOSED
 *     DCCP_NO_CONNECTION  the handle holds none, and the frame answers the datagram, if there is an answer
 *     DCCP_TOO_LONG       over 2,044 bytes; as with the next, the handle holds none, and `told` is unchanged
 *     a status of dccp_make */
dccp_status dccp_accept(dccp_end *end, const dccp_settings *settings, const dccp_wish *wishes, size_t count, const uint8_t *datagram,
                        size_t length, uint64_t now, dccp_frame *frame, dccp_told *told);

/* Turns away the first datagram of a peer, as the usual server of these settings with `is_server` true. It makes no end and takes no memory.
 * `code` is a Reset Code (RFC 4340, section 5.6), such as 9, Too Busy, or 7, Connection Refused.
 *     DCCP_OK             the datagram is a Request that would open a connection: the frame is a Reset with this code
 *     DCCP_NO_CONNECTION  it opens none, and the frame answers it, if there is an answer
 *     DCCP_OTHER_SIZE     the settings have another size; with this and the next two there is no frame
 *     DCCP_NO_NUMBER      the first number is not below 2^48
 *     DCCP_TOO_LONG       over 2,044 bytes */
dccp_status dccp_refuse(const dccp_settings *settings, const uint8_t *datagram, size_t length, uint8_t code, dccp_frame *frame);

/* A client asks for its service, once: the frame is its Request.
 *     DCCP_OK
 *     DCCP_NOT_MADE
 *     DCCP_NOT_FRESH  a server's end, or one that was opened before */
dccp_status dccp_open(dccp_end *end, uint64_t now, dccp_frame *frame);

/* Sends data, 0 to 1,024 bytes; in DCCP_PHASE_PARTOPEN a client speaks first. Answers the first of these that holds:
 *     DCCP_NOT_MADE
 *     DCCP_NOT_LISTENING   no application listens at the peer any more
 *     DCCP_WINDOW_FULL     as many packets are in flight as the peer's application leaves room for: offer the data again
 *     DCCP_NOT_OPEN        in all phases except DCCP_PHASE_PARTOPEN and DCCP_PHASE_OPEN
 *     DCCP_TOO_LONG        more than 1,024 bytes
 *     DCCP_NOT_NEGOTIATED  the peer sends no Ack Vectors yet
 *     DCCP_WINDOW_FULL     the window is full: offer the data again, or drop them
 *     DCCP_OK */
dccp_status dccp_send(dccp_end *end, const uint8_t *data, size_t length, uint64_t now, dccp_frame *frame);

/* Closes the connection in order. No data are delivered to this end any more.
 *     DCCP_OK
 *     DCCP_NOT_MADE
 *     DCCP_NOT_OPEN  in all phases except DCCP_PHASE_PARTOPEN and DCCP_PHASE_OPEN */
dccp_status dccp_close(dccp_end *end, uint64_t now, dccp_frame *frame);

/* Ends the connection at once.
 *     DCCP_OK
 *     DCCP_NOT_MADE
 *     DCCP_NOT_LIVE  in DCCP_PHASE_CLOSED, DCCP_PHASE_LISTEN and DCCP_PHASE_TIMEWAIT */
dccp_status dccp_abort(dccp_end *end, uint64_t now, dccp_frame *frame);

/* Asks for these values of a feature, best first, at the peer or at this end. dccp_feature shows the result.
 *     DCCP_OK
 *     DCCP_NO_FEATURE
 *     DCCP_NOT_MADE
 *     DCCP_NOT_OPEN  in all phases except DCCP_PHASE_PARTOPEN and DCCP_PHASE_OPEN
 *     DCCP_BAD_LIST  there are no values, or over eight, one twice, one not permitted, or more than one where one is needed
 *     DCCP_NOT_OURS  the Sequence Window or Ack Ratio of the peer */
dccp_status dccp_prefer(dccp_end *end, uint32_t feature, bool at_peer, const uint64_t *values, size_t count, uint64_t now,
                        dccp_frame *frame);

/* Fires the first timer of the end that has run out, or else does what it has to do for its path.
 *     DCCP_OK           maybe without a frame: call it again, at most seven times for one `now`, until it returns DCCP_NOTHING_DUE
 *     DCCP_NOTHING_DUE
 *     DCCP_NOT_MADE */
dccp_status dccp_tick(dccp_end *end, uint64_t now, dccp_frame *frame);

/* How many milliseconds it is until dccp_tick has something to do; DCCP_NEVER if no timer runs, or there is no end. Ask again after every
 * other call. */
uint64_t dccp_until_first(dccp_end *end, uint64_t now);

/* A timer has run out: for a caller who keeps the timers instead of the library, and does not call dccp_tick.
 *     DCCP_OK
 *     DCCP_NO_TIMER
 *     DCCP_NOT_MADE
 *     DCCP_NOTHING_DUE  it has nothing to do in this phase, which is no fault */
dccp_status dccp_timer(dccp_end *end, uint32_t timer, uint64_t now, dccp_frame *frame);

/* A datagram of the peer has arrived: the bytes of one DCCP packet, from the generic header on.
 *     DCCP_OK        `told` says what became of it
 *     DCCP_NOT_MADE  `told` is unchanged
 *     DCCP_TOO_LONG  over 2,044 bytes; `told` is unchanged */
dccp_status dccp_receive(dccp_end *end, const uint8_t *datagram, size_t length, uint64_t now, dccp_frame *frame, dccp_told *told);

/* Takes the data that have waited longest, of an end whose settings have `most_held`. The end reports to its peer what it drops, and when three
 * quarters of the room are taken (RFC 4340, sections 11.6 and 11.7).
 *     DCCP_OK
 *     DCCP_NOT_MADE     `data` is as it was
 *     DCCP_NOTHING_DUE  none wait; `data` is as it was */
dccp_status dccp_read(dccp_end *end, dccp_data *data);

/* The application stops reading: data that arrive later are dropped, which the end reports to its peer. Data that wait can still be read.
 *     DCCP_OK
 *     DCCP_NOT_MADE
 *     DCCP_NOTHING_DUE  data do not wait at this end */
dccp_status dccp_stop_reading(dccp_end *end);

/* How many packets' data wait; 0 if there is no end. */
size_t dccp_held(dccp_end *end);

/* Reads an end.
 *     DCCP_OK
 *     DCCP_OTHER_SIZE  `view` has another size, and is unchanged
 *     DCCP_NOT_MADE    `view` is unchanged */
dccp_status dccp_look(dccp_end *end, dccp_view *view);

/* Reads what an end has measured of its path.
 *     DCCP_OK
 *     DCCP_OTHER_SIZE  `trip` has another size, and is unchanged
 *     DCCP_NOT_MADE    `trip` is unchanged */
dccp_status dccp_look_path(dccp_end *end, dccp_round_trip *trip);

/* What became of the data that dccp_send sent under this number, which its frame has; DCCP_FATE_UNKNOWN if there is no end. Ask after
 * dccp_receive, and before dccp_tick, which may cause a timeout. */
dccp_fate dccp_fate_of(dccp_end *end, uint64_t number);

/* The longest data, 0 to 1,024 bytes, whose frame surely has no more than `most` bytes now. A frame also has a header and, if the end sends Ack
 * Vectors, one that may grow with what arrives. Over IPv6 paths of 1,280 bytes UDP leaves 1,232. 0 if there is no end. */
size_t dccp_longest_data(dccp_end *end, size_t most);

/* Reads what an end holds for a feature.
 *     DCCP_OK
 *     DCCP_NO_FEATURE  `state` is unchanged
 *     DCCP_NOT_MADE    `state` is unchanged */
dccp_status dccp_feature(dccp_end *end, uint32_t feature, bool at_peer, dccp_feature_state *state);

/* For a server with an end for each peer: whether the peer has begun anew from its port, with another first number. The old end answers its Request
 * with a Sync, and the peer refuses this by a Reset (RFC 4340, section 8.5, step 4), which causes a further Sync, and so on without end. Ask after each
 * dccp_receive of a server's end that returned DCCP_OK, with the datagram and with what that call has left. If it is true, free the end and send
 * nothing: the peer's next Request opens another. A stranger cannot cause this: only those who see the packets know the Sync's number (own). */
bool dccp_begins_anew(dccp_last_sync *last, const uint8_t *datagram, size_t length, const dccp_told *told, const dccp_frame *frame);

/* For a server with an end for each peer: answers a Request by a Response with an Init Cookie (RFC 4340, section 8.1.4), and keeps no end; it makes
 * one during the call. The settings and wishes are those of dccp_accept.
 *     DCCP_OK             the frame goes to the peer
 *     DCCP_NO_CONNECTION  it is no Request that this server takes; the frame answers it, if there is an answer
 *     DCCP_TOO_LONG       over 2,044 bytes, or options that no cookie holds: ignore it
 *     DCCP_NO_MEMORY      ignore it
 *     a status of dccp_make */
dccp_status dccp_greet(const dccp_settings *settings, const dccp_wish *wishes, size_t count, const dccp_cookie_keys *keys, const uint8_t *datagram,
                       size_t length, uint64_t now, dccp_frame *frame);

/* If a datagram returns a good cookie, which is at most two minutes old, this is the Request that dccp_greet has answered. Hand it to dccp_accept,
 * with its `number` as the first number of the settings, drop the frame of that call, and hand the datagram to dccp_receive.
 *     DCCP_OK
 *     DCCP_NO_CONNECTION  it returns no good cookie; `request` has no bytes, as with the next two
 *     DCCP_TOO_LONG
 *     DCCP_OTHER_SIZE     the settings have another size */
dccp_status dccp_recall(const dccp_settings *settings, const dccp_cookie_keys *keys, const uint8_t *datagram, size_t length, uint64_t now,
                        dccp_frame *request);

/* Makes a listener in the handle, for at most `most` flows at a time, 1 to 1,024. It first frees the listener that the handle held. If making fails,
 * the handle holds none. It serves the Service Codes, at most 16, each once, or if there are none, the one of the settings. Of the settings it uses
 * `own_address`, `own_port`, `is_plain`, `most_held` and the rules of the path. `is_v6` has to be false and `first_number` below 2^48; the other
 * fields make no difference. The wishes are those of each peer's end, which makes the same offers as one that dccp_accept makes. A flow takes about
 * 88 KB, which it gives back when it ends; with `most_held` 32 KB more, and 2 KB for each packet, from its first data on. The listener follows
 * DCCP_USUAL_RULES until dccp_listener_rules sets others.
 *     DCCP_NO_SUCH_LISTENER  for IPv6, for none or over 1,024 flows, or for over 16 Service Codes or one twice
 *     a status of dccp_make */
dccp_status dccp_listener_make(dccp_listener *listener, const dccp_settings *settings, const uint32_t *services, size_t service_count,
                               const dccp_wish *wishes, size_t count, uint16_t most);

/* Frees what the handle holds, with all flows. Afterwards it holds none, and may be freed again or made again. */
void dccp_listener_free(dccp_listener *listener);

/* A datagram has come from this peer. Its flow hears it; or it opens a flow, if it is a Request that a server's end accepts. The number of the first
 * packet of that flow is `first_number`, below 2^48, which nobody can guess: draw one for each datagram, or for each whose peer has no flow, or by
 * dccp_listener_number. If the table is full, the rules may end a flow to make room, which dccp_listener_evicted names. A Reset with
 * code 4 that acknowledges the last Sync of its flow shows that the peer has begun anew from its port. The rules then end that flow and leave no
 * frame (DCCP_TOLD_SYNCED), and the peer's next Request opens another. Answers that anybody may cause are limited: a datagram that its flow would
 * answer by one Sync too many is ignored (DCCP_CAUSE_LIMIT), and a frame for a peer without a flow that is one too many is not made.
 * With cookies a Request needs no flow, and the packet that returns its cookie opens one: dccp_listener_way shows both.
 *     DCCP_OK         `told` says what became of it, and is unchanged with all others; a flow that it has ended is gone
 *     DCCP_BUSY       there is no room for it; nothing has changed, and the frame is a Reset with code 9, Too Busy: forget a flow to make
 *                     room, or let the peer ask again
 *     DCCP_REFUSED    it would open a flow, and dccp_listener_shut takes none; the frame is a Reset with code 7, Connection Refused, if the
 *                     limits allow an answer
 *     DCCP_NO_NUMBER  `first_number` is not below 2^48; with this and the next two nothing has changed, and there is no frame
 *     DCCP_TOO_LONG   over 2,044 bytes
 *     DCCP_NOT_MADE
 *     DCCP_NO_MEMORY  there is no frame, and nothing has changed except that a flow may have made room */
dccp_status dccp_listener_arrive(dccp_listener *listener, const dccp_peer *peer, uint64_t first_number, const uint8_t *datagram, size_t length,
                                 uint64_t now, dccp_frame *frame, dccp_told *told);

/* The next event of the last call; with all other statuses `event` is unchanged. Ask until it returns DCCP_NO_EVENT: events that were not taken
 * before the next call of dccp_listener_arrive, _refuse, _send, _prefer, _close, _abort, _timer, _tick or _forget are lost. Each flow has at most
 * one DCCP_EVENT_OPENED, and DCCP_EVENT_ENDED as its last event, even if its handshake was never complete. A flow in DCCP_PHASE_TIMEWAIT is over.
 *     DCCP_OK
 *     DCCP_OTHER_SIZE  `event` has another size
 *     DCCP_NOT_MADE
 *     DCCP_NO_EVENT */
dccp_status dccp_listener_event(dccp_listener *listener, dccp_event *event);

/* Takes the data of a peer that have waited longest, of a listener whose settings have `most_held`, as dccp_read. Data that wait can also be read
 * after the flow has ended, until the peer's next flow opens, or dccp_listener_forget. There are as many places for data that wait as flows. If
 * there is no memory for them, or flows that are over have all places, data come by DCCP_EVENT_DATA.
 *     DCCP_OK
 *     DCCP_NOT_MADE     `data` is unchanged
 *     DCCP_NOTHING_DUE  none wait; `data` is unchanged */
dccp_status dccp_listener_read(dccp_listener *listener, const dccp_peer *peer, dccp_data *data);

/* Stops reading the data of a peer, as dccp_stop_reading.
 *     DCCP_OK
 *     DCCP_NOT_MADE
 *     DCCP_NO_FLOW
 *     DCCP_NO_MEMORY    nothing has changed: there was no memory, or no place, for the report to the peer
 *     DCCP_NOTHING_DUE  data do not wait at this listener */
dccp_status dccp_listener_stop_reading(dccp_listener *listener, const dccp_peer *peer);

/* How many packets' data of a peer wait; 0 if there is no listener. */
size_t dccp_listener_held(dccp_listener *listener, const dccp_peer *peer);

/* Writes a number beside a peer's flow, such as its place in a table of the caller: events and dccp_listener_life have it.
 *     DCCP_OK
 *     DCCP_NOT_MADE
 *     DCCP_NO_FLOW */
dccp_status dccp_listener_set_user(dccp_listener *listener, const dccp_peer *peer, uint64_t user);

/* Whether a datagram would open a flow, and for which Service Code, so that a program can decide before it calls dccp_listener_arrive. It hands the
 * datagram on, refuses it, or ignores it.
 *     DCCP_OK
 *     DCCP_TOO_LONG       over 2,044 bytes; `service` is unchanged, as with the next two
 *     DCCP_NOT_MADE
 *     DCCP_NO_CONNECTION  it would open none, or the peer has one: hand it to dccp_listener_arrive */
dccp_status dccp_listener_asks(dccp_listener *listener, const dccp_peer *peer, const uint8_t *datagram, size_t length, uint32_t *service);

/* Refuses a datagram that would open a flow, in place of dccp_listener_arrive, by a Reset with `code` (RFC 4340, section 5.6), such as 7, Connection
 * Refused. The Reset counts as an answer to strangers: if the rules allow no more of these, there is no frame.
 *     DCCP_OK
 *     DCCP_TOO_LONG       over 2,044 bytes
 *     DCCP_NOT_MADE
 *     DCCP_NO_CONNECTION  it would open none, or the peer has one; there is no frame */
dccp_status dccp_listener_refuse(dccp_listener *listener, const dccp_peer *peer, const uint8_t *datagram, size_t length, uint8_t code,
                                 uint64_t now, dccp_frame *frame);

/* Takes no new flows (true), or takes them again (false). Flows that are open go on.
 *     DCCP_OK
 *     DCCP_NOT_MADE */
dccp_status dccp_listener_shut(dccp_listener *listener, bool is_shut);

/* A name for a peer that a listener cannot name by the address and port from which its datagrams come: a peer of IPv6, or one whose addresses are
 * translated on the way. `path` has the addresses and ports in the packets' checksum and header, as the settings of an end for this peer would:
 * those of IPv6, or those on which both ends have agreed. `listener` has the settings of dccp_listener_make. Each `turn` gives another name, which
 * counts the same in the checksum, so the listener reads and seals the peer's packets by it. The caller keeps a table from addresses to names, and
 * back for the frames; it takes the first turn whose name no other peer has. Names of the turns 0 to 255 are no addresses of peers.
 *     DCCP_OK
 *     DCCP_OTHER_SIZE  one of the settings has another size; `peer` is unchanged */
dccp_status dccp_listener_name(const dccp_settings *listener, const dccp_settings *path, uint16_t turn, dccp_peer *peer);

/* A first number for dccp_listener_arrive, drawn from a key in place of a random number for each datagram (RFC 4340, section 7.2; as RFC 1948 does
 * for TCP): a keyed hash of the addresses and ports of both ends, plus a clock of four microseconds. `listener` has the settings of
 * dccp_listener_make. Draw the key once, 32 random bytes, and keep it secret.
 *     DCCP_OK
 *     DCCP_OTHER_SIZE  the settings have another size; `number` is unchanged */
dccp_status dccp_listener_number(const dccp_settings *listener, const dccp_key *key, const dccp_peer *peer, uint64_t now, uint64_t *number);

/* Sends data to a peer, as dccp_send does, once the flow is in DCCP_PHASE_OPEN. If the listener's settings are plain, the peer has to offer Ack
 * Vectors: by a wish for DCCP_FEATURE_SEND_ACK_VECTOR, not at_peer, of the value 1, that is_offered. Answers the first of these that holds:
 *     DCCP_NOT_MADE
 *     DCCP_NOT_LISTENING   as dccp_send, and so with the next
 *     DCCP_WINDOW_FULL
 *     DCCP_NO_FLOW
 *     DCCP_NOT_OPEN
 *     DCCP_TOO_LONG
 *     DCCP_NOT_NEGOTIATED  the peer sends no Ack Vectors
 *     DCCP_WINDOW_FULL
 *     DCCP_OK */
dccp_status dccp_listener_send(dccp_listener *listener, const dccp_peer *peer, const uint8_t *data, size_t length, uint64_t now,
                               dccp_frame *frame);

/* Closes a peer's connection in order, as dccp_close.
 *     DCCP_OK
 *     DCCP_NOT_MADE
 *     DCCP_NO_FLOW
 *     DCCP_NOT_OPEN */
dccp_status dccp_listener_close(dccp_listener *listener, const dccp_peer *peer, uint64_t now, dccp_frame *frame);

/* Ends a peer's connection at once, and its flow with it.
 *     DCCP_OK
 *     DCCP_NOT_MADE
 *     DCCP_NO_FLOW
 *     DCCP_NOT_LIVE  in DCCP_PHASE_TIMEWAIT */
dccp_status dccp_listener_abort(dccp_listener *listener, const dccp_peer *peer, uint64_t now, dccp_frame *frame);

/* Asks for these values of a feature of a peer's flow, as dccp_prefer does.
 *     DCCP_OK
 *     DCCP_NO_FEATURE  no feature has this number, or
 *     DCCP_NOT_MADE    there is no listener, or
 *     DCCP_NO_FLOW     the peer has no flow
 *     DCCP_NOT_OPEN    in all phases except DCCP_PHASE_OPEN
 *     DCCP_BAD_LIST    as dccp_prefer
 *     DCCP_NOT_OURS    as dccp_prefer */
dccp_status dccp_listener_prefer(dccp_listener *listener, const dccp_peer *peer, uint32_t feature, bool at_peer, const uint64_t *values,
                                 size_t count, uint64_t now, dccp_frame *frame);

/* Reads what a peer's flow holds for a feature.
 *     DCCP_OK
 *     DCCP_NO_FEATURE  `state` is unchanged, as with the next two
 *     DCCP_NOT_MADE
 *     DCCP_NO_FLOW */
dccp_status dccp_listener_feature(dccp_listener *listener, const dccp_peer *peer, uint32_t feature, bool at_peer, dccp_feature_state *state);

/* A timer of a peer's flow has run out: for a caller who keeps the timers instead of the library, as dccp_timer.
 *     DCCP_OK
 *     DCCP_NO_TIMER     no timer has this number, or
 *     DCCP_NOT_MADE     there is no listener, or
 *     DCCP_NO_FLOW      the peer has no flow
 *     DCCP_NOTHING_DUE  it has nothing to do in this phase, which is no fault */
dccp_status dccp_listener_timer(dccp_listener *listener, const dccp_peer *peer, uint32_t timer, uint64_t now, dccp_frame *frame);

/* Fires the first timer of a flow that has run out, and names its peer. If none has, it gives up a flow that has been in its
 * phase, or silent, for too long by the rules.
 *     DCCP_OK           even if it leaves no frame: call it again until it returns DCCP_NOTHING_DUE
 *     DCCP_GAVE_UP      `peer` was given up, and the frame is its Reset, with code 2, Aborted: call it again
 *     DCCP_NOTHING_DUE  `peer` is as it was
 *     DCCP_NOT_MADE     `peer` is as it was */
dccp_status dccp_listener_tick(dccp_listener *listener, uint64_t now, dccp_peer *peer, dccp_frame *frame);

/* How many milliseconds it is until dccp_listener_tick has something to do; DCCP_NEVER if it never will. Ask again after other calls.
 * Neither call goes through all flows, and what has been due for longest is done first. */
uint64_t dccp_listener_until_first(dccp_listener *listener, uint64_t now);

/* Reads the end of a peer.
 *     DCCP_OK
 *     DCCP_OTHER_SIZE  `view` has another size; it is unchanged, as with the next two
 *     DCCP_NOT_MADE
 *     DCCP_NO_FLOW */
dccp_status dccp_listener_look(dccp_listener *listener, const dccp_peer *peer, dccp_view *view);

/* Names the first peer that has a flow, in the order of their addresses and ports. With dccp_listener_next_peer after it, all are named.
 *     DCCP_OK
 *     DCCP_NOT_MADE  `peer` is unchanged
 *     DCCP_NO_FLOW   none has one; `peer` is unchanged */
dccp_status dccp_listener_first_peer(dccp_listener *listener, dccp_peer *peer);

/* Writes over `peer` the first one after it that has a flow; it may have none itself.
 *     DCCP_OK
 *     DCCP_NOT_MADE  `peer` is unchanged
 *     DCCP_NO_FLOW   there is none after it; `peer` is unchanged */
dccp_status dccp_listener_next_peer(dccp_listener *listener, dccp_peer *peer);

/* Whose flow made room for the last datagram.
 *     DCCP_OK
 *     DCCP_NOT_MADE  `peer` is unchanged
 *     DCCP_NO_FLOW   none did; `peer` is unchanged */
dccp_status dccp_listener_evicted(dccp_listener *listener, dccp_peer *peer);

/* Ends a peer's flow at once, whatever its phase, also in DCCP_PHASE_TIMEWAIT, drops its data that wait, and sends nothing.
 *     DCCP_OK
 *     DCCP_NOT_MADE
 *     DCCP_NO_FLOW */
dccp_status dccp_listener_forget(dccp_listener *listener, const dccp_peer *peer, uint64_t now);

/* Sets the rules of the listener.
 *     DCCP_OK
 *     DCCP_OTHER_SIZE  the rules have another size
 *     DCCP_NOT_MADE */
dccp_status dccp_listener_rules(dccp_listener *listener, const dccp_flow_rules *rules);

/* Sets the key for Init Cookies: 32 random bytes, drawn anew each hour or so. Cookies of the earlier key stay good for their two minutes. Without a
 * key a listener gives none.
 *     DCCP_OK
 *     DCCP_NOT_MADE */
dccp_status dccp_listener_rekey(dccp_listener *listener, const dccp_key *key, uint64_t now);

/* How the last datagram was treated; DCCP_WAY_PLAIN if there is no listener. */
dccp_way dccp_listener_way(dccp_listener *listener);

/* How many flows there are; 0 if there is no listener. */
uint16_t dccp_listener_flows(dccp_listener *listener);

/* Reads what is known about a peer's flow besides its end.
 *     DCCP_OK
 *     DCCP_OTHER_SIZE  `life` has another size; it is unchanged, as with the next two
 *     DCCP_NOT_MADE
 *     DCCP_NO_FLOW */
dccp_status dccp_listener_life(dccp_listener *listener, const dccp_peer *peer, dccp_flow_life *life);

/* Reads what was measured of the path to a peer.
 *     DCCP_OK
 *     DCCP_OTHER_SIZE  `trip` has another size; it is unchanged, as with the next two
 *     DCCP_NOT_MADE
 *     DCCP_NO_FLOW */
dccp_status dccp_listener_look_path(dccp_listener *listener, const dccp_peer *peer, dccp_round_trip *trip);

/* As dccp_fate_of and dccp_longest_data, for data to a peer; DCCP_FATE_UNKNOWN, or 0, also if it has no flow. */
dccp_fate dccp_listener_fate_of(dccp_listener *listener, const dccp_peer *peer, uint64_t number);
size_t dccp_listener_longest_data(dccp_listener *listener, const dccp_peer *peer, size_t most);

/* DCCP_ABI and DCCP_VERSION of the library that is linked: a program whose header has another DCCP_ABI does not fit it. */
uint32_t dccp_abi(void);
uint32_t dccp_version(void);

/* What a status means, in English, for a log; "no status of DCCP" for any other number. */
static inline const char *dccp_status_text(dccp_status status) {
    switch (status) {
        case DCCP_OK: return "done";
        case DCCP_NOT_MADE: return "the handle holds no end, or no listener";
        case DCCP_NO_MEMORY: return "no memory";
        case DCCP_NOT_FRESH: return "a server's end, or one that was opened before";
        case DCCP_NOT_OPEN: return "the connection is not open";
        case DCCP_TOO_LONG: return "more bytes than a packet may have";
        case DCCP_NOT_NEGOTIATED: return "the peer sends no Ack Vectors yet";
        case DCCP_WINDOW_FULL: return "the window is full";
        case DCCP_BAD_LIST: return "values that a feature may not have";
        case DCCP_NOT_OURS: return "a feature that the peer alone sets";
        case DCCP_NOT_LIVE: return "there is no connection";
        case DCCP_NO_FEATURE: return "no feature has this number";
        case DCCP_NOTHING_DUE: return "no timer has anything to do";
        case DCCP_NO_CONNECTION: return "the datagram opens no connection";
        case DCCP_BUSY: return "no room for another connection";
        case DCCP_NO_FLOW: return "no connection to this peer";
        case DCCP_NO_TIMER: return "no timer has this number";
        case DCCP_NO_NUMBER: return "a first number that is not below 2^48";
        case DCCP_NO_SUCH_LISTENER: return "no listener is of IPv6, or for so many connections or services";
        case DCCP_GAVE_UP: return "a connection was given up";
        case DCCP_OTHER_SIZE: return "a struct of another size than the library's";
        case DCCP_REFUSED: return "no new connections are taken";
        case DCCP_NO_EVENT: return "nothing more has happened";
        case DCCP_NOT_LISTENING: return "no application listens at the peer";
    }
    return "no status of DCCP";
}

#ifdef __cplusplus
}
#endif

#endif
