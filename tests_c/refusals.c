/* A Request byte by byte, each refusal of the library in turn, what a server accepts, a timer in counted time, a listener and its flows,
 * and each allocation refused: a line for each that is not answered as the header says. */
#include <stdio.h>
#include <stdlib.h>
#include <string.h>

#include "dccp.h"
#include "dccp_heap.h"

/* The heap functions of dccp_heap.h. The allocation that `refused` counts down to fails. */
static unsigned refused, held;

/* Whether this allocation is the one that fails. */
static bool is_refused(void) { return refused && --refused == 0; }

rattle_block rattle_alloc(size_t size, size_t align) {
    void *at = is_refused() ? NULL : malloc(size ? size : align);
    if (at) held++;
    return (rattle_block){at != NULL, at ? at : &held};
}

rattle_block rattle_realloc(void *old, size_t old_size, size_t size, size_t align) {
    (void)old_size;
    void *at = is_refused() ? NULL : realloc(old, size ? size : align);
    return (rattle_block){at != NULL, at ? at : old};
}

void rattle_dealloc(void *at) {
    free(at);
    held--;
}

static int wrong;

static void same(const char *what, unsigned long long wanted, unsigned long long found) {
    if (wanted == found) return;
    printf("%s: wanted %llu, found %llu\n", what, wanted, found);
    wrong = 1;
}

static const dccp_settings client = {.size = sizeof(dccp_settings),
                                     .own_address = {10, 0, 0, 1},
                                     .peer_address = {10, 0, 0, 2},
                                     .first_number = 1000,
                                     .service = 42,
                                     .own_port = 40000,
                                     .peer_port = 5001};

static dccp_settings server(void) {
    return (dccp_settings){.size = sizeof(dccp_settings),
                           .own_address = {10, 0, 0, 2},
                           .peer_address = {10, 0, 0, 1},
                           .first_number = 2000,
                           .service = 42,
                           .own_port = 5001,
                           .peer_port = 40000,
                           .is_server = true};
}

/* Hands a frame over, and the answer back, until there is none. */
static void exchange(dccp_end *to, dccp_end *from, dccp_frame *frame) {
    dccp_told told;
    while (frame->length) {
        dccp_frame answer;
        same("a frame that arrives", DCCP_OK, dccp_receive(to, frame->bytes, frame->length, 0, &answer, &told));
        *frame = answer;
        dccp_end *other = to;
        to = from;
        from = other;
    }
}

static dccp_view look(dccp_end *end) {
    dccp_view view = DCCP_VIEW_INIT;
    same("a look", DCCP_OK, dccp_look(end, &view));
    return view;
}

static void without_an_end(void) {
    dccp_end none = DCCP_NONE;
    dccp_frame frame;
    dccp_told told;
    dccp_view view = DCCP_VIEW_INIT;
    dccp_feature_state state;
    uint8_t byte = 0;
    uint64_t value = 2;
    same("open without an end", DCCP_NOT_MADE, dccp_open(&none, 0, &frame));
    same("send without an end", DCCP_NOT_MADE, dccp_send(&none, &byte, 1, 0, &frame));
    same("close without an end", DCCP_NOT_MADE, dccp_close(&none, 0, &frame));
    same("abort without an end", DCCP_NOT_MADE, dccp_abort(&none, 0, &frame));
    same("prefer without an end", DCCP_NOT_MADE, dccp_prefer(&none, DCCP_FEATURE_CCID, false, &value, 1, 0, &frame));
    same("a timer without an end", DCCP_NOT_MADE, dccp_timer(&none, DCCP_TIMER_ACK, 0, &frame));
    same("a tick without an end", DCCP_NOT_MADE, dccp_tick(&none, 0, &frame));
    same("the time until then", DCCP_NEVER, dccp_until_first(&none, 0));
    same("a datagram without an end", DCCP_NOT_MADE, dccp_receive(&none, &byte, 1, 0, &frame, &told));
    same("a look without an end", DCCP_NOT_MADE, dccp_look(&none, &view));
    same("a feature without an end", DCCP_NOT_MADE, dccp_feature(&none, DCCP_FEATURE_CCID, false, &state));
    same("its frame", 0, frame.length);
    same("a read without an end", DCCP_NOT_MADE, dccp_read(&none, &(dccp_data){0}));
    same("a stop without an end", DCCP_NOT_MADE, dccp_stop_reading(&none));
    same("what waits without an end", 0, dccp_held(&none));
    dccp_free(&none);
    dccp_free(&none);
}

static void wishes(void) {
    dccp_end end = DCCP_NONE;
    dccp_settings settings = client;
    dccp_wish wish = {.values = {500}, .count = 1, .feature = DCCP_FEATURE_SEQUENCE_WINDOW, .is_offered = true};
    same("a wish", DCCP_OK, dccp_make(&end, &settings, &wish, 1));
    wish.feature = 10;
    same("feature 10", DCCP_NO_FEATURE, dccp_make(&end, &settings, &wish, 1));
    same("an end after a refused make", false, end.made);
    wish.feature = 0;
    same("feature 0", DCCP_NO_FEATURE, dccp_make(&end, &settings, &wish, 1));
    wish.feature = 256 + DCCP_FEATURE_SEQUENCE_WINDOW;
    same("feature 259", DCCP_NO_FEATURE, dccp_make(&end, &settings, &wish, 1));
    wish.feature = DCCP_FEATURE_SEQUENCE_WINDOW;
    wish.values[0] = 31;
    same("a window of 31", DCCP_BAD_LIST, dccp_make(&end, &settings, &wish, 1));
    wish.values[0] = 500;
    wish.count = 9;
    same("nine values", DCCP_BAD_LIST, dccp_make(&end, &settings, &wish, 1));
    wish.count = 0;
    same("no values", DCCP_BAD_LIST, dccp_make(&end, &settings, &wish, 1));
    wish.count = 1;
    wish.at_peer = true;
    same("the peer's window", DCCP_NOT_OURS, dccp_make(&end, &settings, &wish, 1));
    wish = (dccp_wish){.values = {0, 1, 2, 3, 4, 5, 6, 7}, .count = 8, .feature = DCCP_FEATURE_MIN_CS_COV};
    same("eight values", DCCP_OK, dccp_make(&end, &settings, &wish, 1));
    settings.first_number = (uint64_t)1 << 48;
    same("2^48", DCCP_NO_NUMBER, dccp_make(&end, &settings, &wish, 0));
    settings.first_number--;
    same("2^48 - 1", DCCP_OK, dccp_make(&end, &settings, &wish, 0));
    same("its first number", settings.first_number, look(&end).iss);
    dccp_free(&end);
}

/* The Request of a client that offers nothing, whose checksum alone has the addresses (RFC 4340, sections 5.1 and 9.1). */
static void a_request(void) {
    uint8_t wanted[20] = {0x9c, 0x40, 0x13, 0x89, 5, 0, 0x31, 0xec, 1, 0, 0, 0, 0, 0, 0x03, 0xe8, 0, 0, 0, 42};
    dccp_end end = DCCP_NONE;
    dccp_settings settings = client;
    dccp_wish none = {.count = 0};
    dccp_frame frame;
    settings.is_plain = true;
    same("a plain client", DCCP_OK, dccp_make(&end, &settings, &none, 0));
    same("its open", DCCP_OK, dccp_open(&end, 0, &frame));
    same("the length of its Request", sizeof wanted, frame.length);
    same("its Request over IPv4", 0, memcmp(frame.bytes, wanted, sizeof wanted) != 0);
    settings.is_v6 = true;
    memcpy(settings.own_address, (uint8_t[16]){0x20, 0x01, 0x0d, 0xb8, [15] = 1}, 16);
    memcpy(settings.peer_address, (uint8_t[16]){0x20, 0x01, 0x0d, 0xb8, [15] = 2}, 16);
    wanted[6] = 0xea;
    wanted[7] = 0x79;
    same("a client over IPv6", DCCP_OK, dccp_make(&end, &settings, &none, 0));
    same("its open", DCCP_OK, dccp_open(&end, 0, &frame));
    same("its Request over IPv6", 0, memcmp(frame.bytes, wanted, sizeof wanted) != 0);
    dccp_free(&end);
}

/* The Request of a client for a service. */
static dccp_frame request(uint32_t service) {
    dccp_end end = DCCP_NONE;
    dccp_settings settings = client;
    dccp_wish none = {.count = 0};
    dccp_frame frame;
    settings.service = service;
    same("a client", DCCP_OK, dccp_make(&end, &settings, &none, 0));
    same("its open", DCCP_OK, dccp_open(&end, 0, &frame));
    dccp_free(&end);
    return frame;
}

/* What a server makes of a datagram. That it is one need not be said. */
static uint32_t accepts(dccp_end *end, const dccp_frame *datagram, dccp_frame *frame, dccp_told *told) {
    dccp_settings settings = server();
    dccp_wish none = {.count = 0};
    settings.is_server = false;
    return dccp_accept(end, &settings, &none, 0, datagram->bytes, datagram->length, 0, frame, told);
}

static void a_server(void) {
    dccp_end end = DCCP_NONE;
    dccp_settings own = server();
    dccp_wish none = {.count = 0}, ninth = {.values = {1}, .count = 9, .feature = DCCP_FEATURE_CCID};
    dccp_wish tenth = {.values = {1}, .count = 1, .feature = 10};
    dccp_wish theirs = {.values = {1}, .count = 1, .feature = DCCP_FEATURE_ACK_RATIO, .at_peer = true, .is_offered = true};
    dccp_frame frame;
    dccp_told told;
    static uint8_t bytes[DCCP_MOST_FRAME_BYTES + 1];
    dccp_frame wanted = request(own.service), other = request(own.service + 1);
    same("a Request for another service", DCCP_NO_CONNECTION, accepts(&end, &other, &frame, &told));
    same("what became of it", DCCP_TOLD_SENT_RESET, told.kind);
    same("the code: Bad Service Code", 8, told.code);
    same("its Reset", 7, (frame.bytes[8] >> 1) & 15);
    same("its end", false, end.made);
    same("a Request", DCCP_OK, accepts(&end, &wanted, &frame, &told));
    same("its Response", 1, (frame.bytes[8] >> 1) & 15);
    same("its phase", DCCP_PHASE_RESPOND, look(&end).phase);
    same("no packet", DCCP_NO_CONNECTION, dccp_accept(&end, &own, &none, 0, bytes, 11, 0, &frame, &told));
    same("why", DCCP_CAUSE_SHORT, told.cause);
    same("its frame", 0, frame.length);
    same("the end that was there", false, end.made);
    same("2,045 bytes", DCCP_TOO_LONG, dccp_accept(&end, &own, &none, 0, bytes, sizeof bytes, 0, &frame, &told));
    same("feature 10", DCCP_NO_FEATURE, dccp_accept(&end, &own, &tenth, 1, bytes, 11, 0, &frame, &told));
    same("the peer's ratio", DCCP_NOT_OURS, dccp_accept(&end, &own, &theirs, 1, bytes, 11, 0, &frame, &told));
    same("nine values", DCCP_BAD_LIST, dccp_accept(&end, &own, &ninth, 1, bytes, 11, 0, &frame, &told));
    same("blocks that are kept", 0, held);
}

/* A Request that nobody answers goes out again after one second, and after two more (RFC 4340, section 8.1.1; 64 at most). */
static void a_timer(void) {
    dccp_end end = DCCP_NONE;
    dccp_wish none = {.count = 0};
    dccp_frame frame;
    same("a client", DCCP_OK, dccp_make(&end, &client, &none, 0));
    same("no timer yet", DCCP_NEVER, dccp_until_first(&end, 5000));
    same("its open", DCCP_OK, dccp_open(&end, 5000, &frame));
    same("the time until then", 1000, dccp_until_first(&end, 5000));
    same("a tick before that", DCCP_NOTHING_DUE, dccp_tick(&end, 5999, &frame));
    same("its frame", 0, frame.length);
    same("a tick", DCCP_OK, dccp_tick(&end, 6000, &frame));
    same("its Request", 0, (frame.bytes[8] >> 1) & 15);
    same("a further tick", DCCP_NOTHING_DUE, dccp_tick(&end, 6000, &frame));
    same("the time until the next", 2000, dccp_until_first(&end, 6000));
    dccp_free(&end);
}

static uint32_t make(dccp_end *end, const dccp_frame *datagram) {
    dccp_wish none = {.count = 0};
    (void)datagram;
    return dccp_make(end, &client, &none, 0);
}

static uint32_t accept(dccp_end *end, const dccp_frame *datagram) {
    dccp_frame frame;
    dccp_told told;
    return accepts(end, datagram, &frame, &told);
}

/* Each allocation of a call that makes an end is refused in turn. */
static void memory(uint32_t (*making)(dccp_end *, const dccp_frame *)) {
    dccp_end end = DCCP_NONE;
    dccp_frame datagram = request(client.service);
    for (unsigned at = 1;; at++) {
        refused = at;
        uint32_t status = making(&end, &datagram);
        bool is_reached = refused == 0;
        refused = 0;
        if (!is_reached) {
            same("with memory", DCCP_OK, status);
            break;
        }
        same("without memory", DCCP_NO_MEMORY, status);
        same("an end without memory", false, end.made);
        same("blocks that are kept", 0, held);
    }
    dccp_free(&end);
    same("blocks after free", 0, held);
}

/* Timers, and what is refused in OPEN. */
static void calls_in_open(dccp_end *one, dccp_end *other) {
    dccp_frame frame;
    dccp_told told;
    static uint8_t bytes[DCCP_MOST_FRAME_BYTES + 1];
    uint64_t twice[2] = {2, 2};
    dccp_feature_state state;
    same("the timer Ack", DCCP_OK, dccp_timer(other, DCCP_TIMER_ACK, 0, &frame));
    same("its Ack", 3, (frame.bytes[8] >> 1) & 15);
    exchange(one, other, &frame);
    same("the timer Close", DCCP_NOTHING_DUE, dccp_timer(one, DCCP_TIMER_CLOSE, 0, &frame));
    same("its frame", 0, frame.length);
    same("timer 6", DCCP_NO_TIMER, dccp_timer(one, 6, 0, &frame));
    same("1,025 bytes", DCCP_TOO_LONG, dccp_send(one, bytes, DCCP_MOST_DATA_BYTES + 1, 0, &frame));
    same("2,044 bytes", DCCP_OK, dccp_receive(one, bytes, DCCP_MOST_FRAME_BYTES, 0, &frame, &told));
    same("what became of them", DCCP_TOLD_DROPPED, told.kind);
    same("2,045 bytes", DCCP_TOO_LONG, dccp_receive(one, bytes, DCCP_MOST_FRAME_BYTES + 1, 0, &frame, &told));
    same("feature 10", DCCP_NO_FEATURE, dccp_prefer(one, 10, false, twice, 1, 0, &frame));
    same("feature 10 read", DCCP_NO_FEATURE, dccp_feature(one, 10, false, &state));
    same("no values", DCCP_BAD_LIST, dccp_prefer(one, DCCP_FEATURE_CCID, false, NULL, 0, 0, &frame));
    same("2 twice", DCCP_BAD_LIST, dccp_prefer(one, DCCP_FEATURE_CCID, false, twice, 2, 0, &frame));
    same("the peer's ratio", DCCP_NOT_OURS, dccp_prefer(one, DCCP_FEATURE_ACK_RATIO, true, twice, 1, 0, &frame));
}

/* Packets of 0 to 3 bytes, which fill the window. The last arrives. */
static void data_in_open(dccp_end *one, dccp_end *other) {
    const uint8_t *bytes = (const uint8_t *)"abc";
    dccp_frame frame, answer;
    dccp_told told;
    same("the window", 4, look(one).window);
    for (unsigned length = 0; length < 4; length++) same("a packet", DCCP_OK, dccp_send(one, length ? bytes : NULL, length, 0, &frame));
    same("its arrival", DCCP_OK, dccp_receive(other, frame.bytes, frame.length, 0, &answer, &told));
    same("its data", DCCP_TOLD_DATA, told.kind);
    same("how many they are", 3, told.past - told.first);
    same("the data themselves", 0, memcmp(frame.bytes + told.first, bytes, 3) != 0);
    same("a full window", DCCP_WINDOW_FULL, dccp_send(one, bytes, 1, 0, &frame));
    same("what is in flight", 4, look(one).in_flight);
}

/* A packet of another client with the names of the first: a Sync acknowledges its number (RFC 4340, section 7.5.4). */
static void a_sync(dccp_end *other) {
    dccp_end again = DCCP_NONE;
    dccp_settings settings = client;
    dccp_frame frame;
    dccp_told told;
    settings.first_number = 500000;
    same("another client", DCCP_OK, dccp_make(&again, &settings, NULL, 0));
    same("its open", DCCP_OK, dccp_open(&again, 0, &frame));
    same("its Request in OPEN", DCCP_OK, dccp_receive(other, frame.bytes, frame.length, 0, &frame, &told));
    same("what became of it", DCCP_TOLD_SYNCED, told.kind);
    same("what the Sync acknowledges", 500000, told.number);
    dccp_free(&again);
}

/* Ends that offer nothing send no Ack Vectors, which CCID 2 needs (RFC 4341, section 4). */
static void without_vectors(void) {
    dccp_end one = DCCP_NONE, other = DCCP_NONE;
    dccp_settings own = client, settings = server();
    dccp_frame frame;
    own.is_plain = settings.is_plain = true;
    same("a plain client", DCCP_OK, dccp_make(&one, &own, NULL, 0));
    same("a plain server", DCCP_OK, dccp_make(&other, &settings, NULL, 0));
    same("its open", DCCP_OK, dccp_open(&one, 0, &frame));
    exchange(&other, &one, &frame);
    same("data without vectors", DCCP_NOT_NEGOTIATED, dccp_send(&one, NULL, 0, 0, &frame));
    dccp_free(&one);
    dccp_free(&other);
}

/* Structs of another size than the library's are neither read nor written. */
static void sizes(void) {
    dccp_end end = DCCP_NONE;
    dccp_listener listener = DCCP_NO_LISTENER;
    dccp_settings settings = client;
    dccp_view view = DCCP_VIEW_INIT;
    dccp_round_trip trip = DCCP_ROUND_TRIP_INIT;
    dccp_flow_rules rules = DCCP_USUAL_RULES;
    dccp_flow_life life = DCCP_FLOW_LIFE_INIT;
    const dccp_peer peer = {.port = 1};
    settings.size -= 8;
    same("older settings", DCCP_OTHER_SIZE, dccp_make(&end, &settings, NULL, 0));
    same("an end of them", false, end.made);
    same("a listener of them", DCCP_OTHER_SIZE, dccp_listener_make(&listener, &settings, NULL, 0, NULL, 0, 1));
    settings.size += 16;
    same("newer settings", DCCP_OTHER_SIZE, dccp_make(&end, &settings, NULL, 0));
    same("settings as they are", DCCP_OK, dccp_make(&end, &client, NULL, 0));
    view.size -= 8;
    view.iss = 7;
    same("an older view", DCCP_OTHER_SIZE, dccp_look(&end, &view));
    same("what stood in it", 7, view.iss);
    same("an older view of a flow", DCCP_OTHER_SIZE, dccp_listener_look(&listener, &peer, &view));
    same("what is measured", DCCP_OK, dccp_look_path(&end, &trip));
    trip.size = 0;
    same("a round trip of no size", DCCP_OTHER_SIZE, dccp_look_path(&end, &trip));
    rules.size++;
    same("newer rules", DCCP_OTHER_SIZE, dccp_listener_rules(&listener, &rules));
    life.size++;
    same("a newer life", DCCP_OTHER_SIZE, dccp_listener_life(&listener, &peer, &life));
    dccp_free(&end);
}

/* A Request that is turned away by a Reset with code 9, Too Busy (RFC 4340, section 5.6), under the number 0, which acknowledges it; and what
 * is none. It takes no memory. */
static void turned_away(void) {
    dccp_settings own = server();
    dccp_frame frame, wanted = request(own.service), other = request(own.service + 1);
    dccp_end end = DCCP_NONE;
    dccp_told told;
    static uint8_t bytes[DCCP_MOST_FRAME_BYTES + 1];
    refused = 1;
    same("a Request", DCCP_OK, dccp_refuse(&own, wanted.bytes, wanted.length, 9, &frame));
    same("the number of its Reset", 0, frame.number);
    same("its length", 28, frame.length);
    same("its type", 7, (frame.bytes[8] >> 1) & 15);
    same("what it acknowledges", 1000, frame.bytes[22] * 256 + frame.bytes[23]);
    same("its code", 9, frame.bytes[24]);
    same("for another service", DCCP_NO_CONNECTION, dccp_refuse(&own, other.bytes, other.length, 9, &other));
    same("the code: Bad Service Code", 8, other.bytes[24]);
    same("no packet", DCCP_NO_CONNECTION, dccp_refuse(&own, bytes, 11, 9, &other));
    same("its frame", 0, other.length);
    same("2,045 bytes", DCCP_TOO_LONG, dccp_refuse(&own, bytes, sizeof bytes, 9, &other));
    own.first_number = (uint64_t)1 << 48;
    same("2^48", DCCP_NO_NUMBER, dccp_refuse(&own, bytes, 11, 9, &other));
    own.size--;
    same("older settings", DCCP_OTHER_SIZE, dccp_refuse(&own, bytes, 11, 9, &other));
    same("allocations left to be refused", 1, refused);
    refused = 0;
    same("a client", DCCP_OK, dccp_make(&end, &client, NULL, 0));
    same("its open", DCCP_OK, dccp_open(&end, 0, &wanted));
    same("the Reset", DCCP_OK, dccp_receive(&end, frame.bytes, frame.length, 0, &wanted, &told));
    same("what became of it", DCCP_TOLD_WAS_RESET, told.kind);
    same("the code at the client", 9, told.code);
    dccp_free(&end);
}

/* Four packets, of which the first is lost and the others are reported, and a fifth that is on its way until a timeout. RFC 4341, section 5,
 * takes the first for lost once three later ones were reported. */
static void fates(void) {
    dccp_end one = DCCP_NONE, other = DCCP_NONE;
    dccp_settings settings = server();
    dccp_frame frames[5], frame;
    dccp_told told;
    same("no end", DCCP_FATE_UNKNOWN, dccp_fate_of(&one, 1000));
    same("a client", DCCP_OK, dccp_make(&one, &client, NULL, 0));
    same("a server", DCCP_OK, dccp_make(&other, &settings, NULL, 0));
    same("its open", DCCP_OK, dccp_open(&one, 0, &frame));
    exchange(&other, &one, &frame);
    for (unsigned at = 0; at < 4; at++) same("a packet", DCCP_OK, dccp_send(&one, NULL, 0, 0, &frames[at]));
    same("on its way", DCCP_FATE_IN_FLIGHT, dccp_fate_of(&one, frames[3].number));
    for (unsigned at = 1; at < 4; at++) {
        same("its arrival", DCCP_OK, dccp_receive(&other, frames[at].bytes, frames[at].length, 0, &frame, &told));
        exchange(&one, &other, &frame);
    }
    same("not passed by three", DCCP_FATE_IN_FLIGHT, dccp_fate_of(&one, frames[0].number));
    same("the timer Ack", DCCP_OK, dccp_timer(&other, DCCP_TIMER_ACK, 0, &frame));
    exchange(&one, &other, &frame);
    same("passed by three", DCCP_FATE_LOST, dccp_fate_of(&one, frames[0].number));
    for (unsigned at = 1; at < 4; at++) same("reported", DCCP_FATE_DELIVERED, dccp_fate_of(&one, frames[at].number));
    same("a Request", DCCP_FATE_UNKNOWN, dccp_fate_of(&one, client.first_number));
    same("not sent yet", DCCP_FATE_UNKNOWN, dccp_fate_of(&one, look(&one).gss + 1));
    same("no number", DCCP_FATE_UNKNOWN, dccp_fate_of(&one, ((uint64_t)1 << 48) + frames[1].number));
    same("a fifth", DCCP_OK, dccp_send(&one, NULL, 0, 0, &frames[4]));
    same("the fifth", DCCP_FATE_IN_FLIGHT, dccp_fate_of(&one, frames[4].number));
    same("a timeout", DCCP_OK, dccp_timer(&one, DCCP_TIMER_RTO, 0, &frame));
    same("after it", DCCP_FATE_UNKNOWN, dccp_fate_of(&one, frames[4].number));
    dccp_free(&one);
    dccp_free(&other);
}

/* The longest data in frames of some lengths: 24 bytes are the header of a DataAck (RFC 4340, section 5.3). An Ack Vector reports one number
 * at first, that of the Response, in three bytes and a fourth that pads them. */
static void longest_data(void) {
    dccp_end one = DCCP_NONE, other = DCCP_NONE;
    dccp_settings settings = server();
    dccp_feature_state vectors;
    dccp_frame frame;
    dccp_told told;
    same("no end", 0, dccp_longest_data(&one, 2044));
    same("a client", DCCP_OK, dccp_make(&one, &client, NULL, 0));
    same("a server", DCCP_OK, dccp_make(&other, &settings, NULL, 0));
    same("its open", DCCP_OK, dccp_open(&one, 0, &frame));
    same("a Request", DCCP_OK, dccp_receive(&other, frame.bytes, frame.length, 0, &frame, &told));
    same("its Response", DCCP_OK, dccp_receive(&one, frame.bytes, frame.length, 0, &frame, &told));
    same("whether Ack Vectors go out", DCCP_OK, dccp_feature(&one, DCCP_FEATURE_SEND_ACK_VECTOR, false, &vectors));
    same("in a long frame", 1024, dccp_longest_data(&one, 2044));
    same("in 1,052 bytes", 1024, dccp_longest_data(&one, 1052));
    same("in a hundred", vectors.value == 1 ? 72 : 76, dccp_longest_data(&one, 100));
    same("in 24", 0, dccp_longest_data(&one, 24));
    dccp_free(&one);
    dccp_free(&other);
}

static void a_connection(void) {
    dccp_end one = DCCP_NONE, other = DCCP_NONE;
    dccp_settings settings = server();
    dccp_frame frame;
    dccp_told told;
    uint8_t byte = 0;
    same("a client", DCCP_OK, dccp_make(&one, &client, NULL, 0));
    same("a server", DCCP_OK, dccp_make(&other, &settings, NULL, 0));
    same("its phase", DCCP_PHASE_LISTEN, look(&other).phase);
    same("a server's open", DCCP_NOT_FRESH, dccp_open(&other, 0, &frame));
    same("abort in CLOSED", DCCP_NOT_LIVE, dccp_abort(&one, 0, &frame));
    same("close in CLOSED", DCCP_NOT_OPEN, dccp_close(&one, 0, &frame));
    same("send in CLOSED", DCCP_NOT_OPEN, dccp_send(&one, &byte, 1, 0, &frame));
    same("open", DCCP_OK, dccp_open(&one, 0, &frame));
    same("its Request", 0, (frame.bytes[8] >> 1) & 15);
    exchange(&other, &one, &frame);
    same("open twice", DCCP_NOT_FRESH, dccp_open(&one, 0, &frame));
    same("the client's phase", DCCP_PHASE_OPEN, look(&one).phase);
    same("the server's phase", DCCP_PHASE_OPEN, look(&other).phase);
    same("the first number that the client received", server().first_number, look(&one).isr);
    same("the first number that the server received", client.first_number, look(&other).isr);
    same("what the server took", look(&other).gsr - look(&other).isr + 1, look(&other).marked);
    calls_in_open(&one, &other);
    data_in_open(&one, &other);
    a_sync(&other);
    same("abort", DCCP_OK, dccp_abort(&one, 0, &frame));
    same("its Reset arrives", DCCP_OK, dccp_receive(&other, frame.bytes, frame.length, 0, &frame, &told));
    same("the news of it", DCCP_TOLD_WAS_RESET, told.kind);
    same("its code", 2, told.code);
    same("the server's phase", DCCP_PHASE_TIMEWAIT, look(&other).phase);
    dccp_free(&one);
    dccp_free(&other);
    same("blocks after free", 0, held);
}

/* Of two packets one waits, and the other is dropped with the Drop Code 2: the Ack's option says so of the greatest number. It is read,
 * and after the end of reading a third is dropped with 1 (RFC 4340, section 11.7). */
static void data_that_wait(void) {
    dccp_end one = DCCP_NONE, other = DCCP_NONE;
    dccp_settings settings = server();
    dccp_frame frame, answer;
    dccp_told told;
    dccp_data data = {0};
    const uint8_t dropped[] = {40, 3, 0xa0}, slow = 2;
    settings.most_held = 1;
    same("a client", DCCP_OK, dccp_make(&one, &client, NULL, 0));
    same("a server with room for one", DCCP_OK, dccp_make(&other, &settings, NULL, 0));
    same("open", DCCP_OK, dccp_open(&one, 0, &frame));
    exchange(&other, &one, &frame);
    same("nothing waits", DCCP_NOTHING_DUE, dccp_read(&other, &data));
    same("where nothing ever waits", DCCP_NOTHING_DUE, dccp_stop_reading(&one));
    same("a packet", DCCP_OK, dccp_send(&one, (const uint8_t *)"abc", 3, 0, &frame));
    uint64_t number = frame.number;
    same("its arrival", DCCP_OK, dccp_receive(&other, frame.bytes, frame.length, 0, &answer, &told));
    same("it waits", DCCP_TOLD_WAITS, told.kind);
    same("as the only one", 1, dccp_held(&other));
    same("another", DCCP_OK, dccp_send(&one, (const uint8_t *)"de", 2, 0, &frame));
    same("its arrival", DCCP_OK, dccp_receive(&other, frame.bytes, frame.length, 0, &answer, &told));
    same("it is dropped", DCCP_TOLD_NOT_KEPT, told.kind);
    same("for want of room", 2, told.code);
    same("the Ack reports it and the last", 0, answer.length == 0);
    same("by Data Dropped, and that the end is slow", 0, memcmp(answer.bytes + answer.length - 4, dropped, 3) || answer.bytes[answer.length - 1] != slow);
    exchange(&one, &other, &answer);
    same("a read", DCCP_OK, dccp_read(&other, &data));
    same("its number", number, data.number);
    same("its length", 3, data.length);
    same("its bytes", 0, memcmp(data.bytes, "abc", 3) != 0);
    same("nothing waits", 0, dccp_held(&other));
    same("the end of reading", DCCP_OK, dccp_stop_reading(&other));
    same("a third", DCCP_OK, dccp_send(&one, (const uint8_t *)"f", 1, 0, &frame));
    same("its arrival", DCCP_OK, dccp_receive(&other, frame.bytes, frame.length, 0, &answer, &told));
    same("it is dropped", DCCP_TOLD_NOT_KEPT, told.kind);
    same("for want of a reader", 1, told.code);
    dccp_free(&one);
    dccp_free(&other);
    same("blocks after free", 0, held);
}

static const dccp_peer guest = {.address = {10, 0, 0, 1}, .port = 40000};

static void without_a_listener(void) {
    dccp_listener none = DCCP_NO_LISTENER;
    dccp_peer peer = guest;
    dccp_frame frame;
    dccp_told told;
    dccp_view view = DCCP_VIEW_INIT;
    dccp_feature_state state;
    dccp_flow_rules rules = DCCP_USUAL_RULES;
    uint64_t ratio = 1;
    uint8_t byte = 0;
    same("a datagram without a listener", DCCP_NOT_MADE, dccp_listener_arrive(&none, &guest, 0, &byte, 1, 0, &frame, &told));
    same("send without one", DCCP_NOT_MADE, dccp_listener_send(&none, &guest, &byte, 1, 0, &frame));
    same("close without one", DCCP_NOT_MADE, dccp_listener_close(&none, &guest, 0, &frame));
    same("abort without one", DCCP_NOT_MADE, dccp_listener_abort(&none, &guest, 0, &frame));
    same("a tick without one", DCCP_NOT_MADE, dccp_listener_tick(&none, 0, &peer, &frame));
    same("the time until then", DCCP_NEVER, dccp_listener_until_first(&none, 0));
    same("a look without one", DCCP_NOT_MADE, dccp_listener_look(&none, &guest, &view));
    same("a peer without one", DCCP_NOT_MADE, dccp_listener_first_peer(&none, &peer));
    same("the next without one", DCCP_NOT_MADE, dccp_listener_next_peer(&none, &peer));
    same("a wish without one", DCCP_NOT_MADE, dccp_listener_prefer(&none, &guest, DCCP_FEATURE_ACK_RATIO, false, &ratio, 1, 0, &frame));
    same("a feature without one", DCCP_NOT_MADE, dccp_listener_feature(&none, &guest, DCCP_FEATURE_ACK_RATIO, false, &state));
    same("rules without one", DCCP_NOT_MADE, dccp_listener_rules(&none, &rules));
    same("forgetting without one", DCCP_NOT_MADE, dccp_listener_forget(&none, &guest, 0));
    same("a key without one", DCCP_NOT_MADE, dccp_listener_rekey(&none, &(dccp_key){{7}}, 0));
    same("a way without one", DCCP_WAY_PLAIN, dccp_listener_way(&none));
    same("flows without one", 0, dccp_listener_flows(&none));
    same("a read without one", DCCP_NOT_MADE, dccp_listener_read(&none, &guest, &(dccp_data){0}));
    same("a stop without one", DCCP_NOT_MADE, dccp_listener_stop_reading(&none, &guest));
    same("what waits without one", 0, dccp_listener_held(&none, &guest));
    same("its frame", 0, frame.length);
    dccp_listener_free(&none);
}

static void limits_of_a_listener(void) {
    dccp_listener listener = DCCP_NO_LISTENER;
    dccp_settings settings = server();
    dccp_wish wish = {.values = {31}, .count = 1, .feature = DCCP_FEATURE_SEQUENCE_WINDOW};
    same("1,024 flows", DCCP_OK, dccp_listener_make(&listener, &settings, NULL, 0, &wish, 0, 1024));
    same("no flows", DCCP_NO_SUCH_LISTENER, dccp_listener_make(&listener, &settings, NULL, 0, &wish, 0, 0));
    same("a listener after a refused make", false, listener.made);
    same("1,025 flows", DCCP_NO_SUCH_LISTENER, dccp_listener_make(&listener, &settings, NULL, 0, &wish, 0, 1025));
    same("a window of 31", DCCP_BAD_LIST, dccp_listener_make(&listener, &settings, NULL, 0, &wish, 1, 1));
    settings.is_v6 = true;
    same("IPv6", DCCP_NO_SUCH_LISTENER, dccp_listener_make(&listener, &settings, NULL, 0, &wish, 0, 1));
    settings.is_v6 = false;
    wish.feature = 10;
    same("feature 10", DCCP_NO_FEATURE, dccp_listener_make(&listener, &settings, NULL, 0, &wish, 1, 1));
    wish = (dccp_wish){.values = {1}, .count = 1, .feature = DCCP_FEATURE_ACK_RATIO, .at_peer = true};
    same("the peer's ratio", DCCP_NOT_OURS, dccp_listener_make(&listener, &settings, NULL, 0, &wish, 1, 1));
    settings.first_number = (uint64_t)1 << 48;
    same("2^48", DCCP_NO_NUMBER, dccp_listener_make(&listener, &settings, NULL, 0, &wish, 0, 1));
    same("blocks that are kept", 0, held);
}

/* A listener of at most one peer, whose flows make the usual offers, or none. */
static dccp_listener begun_as(bool is_plain) {
    dccp_listener listener = DCCP_NO_LISTENER;
    dccp_settings settings = server();
    dccp_wish none = {.count = 0};
    settings.is_plain = is_plain;
    same("a listener", DCCP_OK, dccp_listener_make(&listener, &settings, NULL, 0, &none, 0, 1));
    return listener;
}

static dccp_listener begun(void) { return begun_as(false); }

/* A datagram of a client, from this address. */
static uint32_t arrives(dccp_listener *listener, uint8_t last, const dccp_frame *datagram, dccp_frame *frame, dccp_told *told) {
    dccp_peer peer = {.address = {10, 0, 0, last}, .port = 40000};
    return dccp_listener_arrive(listener, &peer, 2000, datagram->bytes, datagram->length, 0, frame, told);
}

/* A Request for a service, of a client at another address. */
static dccp_frame other_request(uint8_t last) {
    dccp_end end = DCCP_NONE;
    dccp_settings settings = client;
    dccp_wish none = {.count = 0};
    dccp_frame frame;
    settings.own_address[3] = last;
    same("another client", DCCP_OK, dccp_make(&end, &settings, &none, 0));
    same("its open", DCCP_OK, dccp_open(&end, 0, &frame));
    dccp_free(&end);
    return frame;
}

/* How many events of a kind the last call has left, and the last of them. */
static unsigned told_of(dccp_listener *listener, uint32_t kind, dccp_event *last) {
    dccp_event event = DCCP_EVENT_INIT;
    unsigned count = 0;
    while (dccp_listener_event(listener, &event) == DCCP_OK) {
        if (event.kind != kind) continue;
        count++;
        *last = event;
    }
    return count;
}

/* Before a flow opens: which services there are, whether a datagram asks for one, and what refuses it. */
static void before_a_flow(void) {
    dccp_listener listener = DCCP_NO_LISTENER;
    dccp_settings settings = server();
    dccp_frame frame, first = request(client.service), other = request(client.service + 1), third = request(client.service + 2);
    dccp_event event = DCCP_EVENT_INIT;
    dccp_told told;
    uint32_t service = 0, services[17] = {client.service + 1, client.service};
    static uint8_t bytes[DCCP_MOST_FRAME_BYTES + 1];
    for (uint32_t at = 2; at < 17; at++) services[at] = at + 1000;
    same("17 services", DCCP_NO_SUCH_LISTENER, dccp_listener_make(&listener, &settings, services, 17, NULL, 0, 4));
    same("16 services", DCCP_OK, dccp_listener_make(&listener, &settings, services, 16, NULL, 0, 4));
    services[2] = services[0];
    same("one twice", DCCP_NO_SUCH_LISTENER, dccp_listener_make(&listener, &settings, services, 3, NULL, 0, 4));
    same("without a listener", DCCP_NOT_MADE, dccp_listener_asks(&listener, &guest, first.bytes, first.length, &service));
    same("an event of none", DCCP_NOT_MADE, dccp_listener_event(&listener, &event));
    same("a number beside none", DCCP_NOT_MADE, dccp_listener_set_user(&listener, &guest, 1));
    same("a door of none", DCCP_NOT_MADE, dccp_listener_shut(&listener, true));
    same("a timer of none", DCCP_NOT_MADE, dccp_listener_timer(&listener, &guest, DCCP_TIMER_ACK, 0, &frame));
    same("two services", DCCP_OK, dccp_listener_make(&listener, &settings, services, 2, NULL, 0, 4));
    same("no Request", DCCP_NO_CONNECTION, dccp_listener_asks(&listener, &guest, bytes, 20, &service));
    same("for another service", DCCP_NO_CONNECTION, dccp_listener_asks(&listener, &guest, third.bytes, third.length, &service));
    same("2,045 bytes", DCCP_TOO_LONG, dccp_listener_asks(&listener, &guest, bytes, sizeof bytes, &service));
    same("what stood there", 0, service);
    same("a Request", DCCP_OK, dccp_listener_asks(&listener, &guest, other.bytes, other.length, &service));
    same("its service", client.service + 1, service);
    same("it is refused", DCCP_OK, dccp_listener_refuse(&listener, &guest, other.bytes, other.length, 7, 0, &frame));
    same("its Reset", 7, (frame.bytes[8] >> 1) & 15);
    same("the code: Connection Refused", 7, frame.bytes[24]);
    same("no Request is not", DCCP_NO_CONNECTION, dccp_listener_refuse(&listener, &guest, bytes, 20, 7, 0, &frame));
    same("its frame", 0, frame.length);
    same("nor 2,045 bytes", DCCP_TOO_LONG, dccp_listener_refuse(&listener, &guest, bytes, sizeof bytes, 7, 0, &frame));
    same("the door is shut", DCCP_OK, dccp_listener_shut(&listener, true));
    same("a Request at it", DCCP_REFUSED, arrives(&listener, 1, &first, &frame, &told));
    same("the code: Connection Refused", 7, frame.bytes[24]);
    same("what is told of it", DCCP_NO_EVENT, dccp_listener_event(&listener, &event));
    same("the door is open", DCCP_OK, dccp_listener_shut(&listener, false));
    same("a Request at it", DCCP_OK, arrives(&listener, 1, &first, &frame, &told));
    same("its Response", 1, (frame.bytes[8] >> 1) & 15);
    same("a Request is no handshake", DCCP_NO_EVENT, dccp_listener_event(&listener, &event));
    same("who has a flow asks for none", DCCP_NO_CONNECTION, dccp_listener_asks(&listener, &guest, first.bytes, first.length, &service));
    same("a timer of no number", DCCP_NO_TIMER, dccp_listener_timer(&listener, &guest, 6, 0, &frame));
    same("a timer in RESPOND", DCCP_NOTHING_DUE, dccp_listener_timer(&listener, &guest, DCCP_TIMER_ACK, 0, &frame));
    same("it goes", DCCP_OK, dccp_listener_forget(&listener, &guest, 0));
    same("its end is told", 1, told_of(&listener, DCCP_EVENT_ENDED, &event));
    same("why", DCCP_BY_OWN, event.cause);
    same("without a Reset", 0, event.code);
    same("a timer of no flow", DCCP_NO_FLOW, dccp_listener_timer(&listener, &guest, DCCP_TIMER_ACK, 0, &frame));
    same("a number beside no flow", DCCP_NO_FLOW, dccp_listener_set_user(&listener, &guest, 1));
    event.size--;
    same("an older event", DCCP_OTHER_SIZE, dccp_listener_event(&listener, &event));
    dccp_listener_free(&listener);
    same("blocks after free", 0, held);
}

/* The names of 192.0.2.1 and of 2001:db8::2, at a listener at 10.0.0.2, by hand: the first word is the turn, and the second makes the sum of the
 * addresses that of the path (RFC 1071). */
/* A listener that keeps nothing of a Request: the Ack that returns the cookie opens the flow (RFC 4340, section 8.1.4). */
static void cookies(void) {
    dccp_listener listener = begun();
    dccp_flow_rules rules = DCCP_USUAL_RULES;
    dccp_end one = DCCP_NONE;
    dccp_event event = DCCP_EVENT_INIT;
    dccp_frame frame, answer, third;
    dccp_told told;
    rules.cookies = DCCP_COOKIES_ALWAYS;
    same("rules", DCCP_OK, dccp_listener_rules(&listener, &rules));
    same("an end", DCCP_OK, dccp_make(&one, &client, NULL, 0));
    same("its open", DCCP_OK, dccp_open(&one, 0, &frame));
    same("a key", DCCP_OK, dccp_listener_rekey(&listener, &(dccp_key){{7}}, 0));
    same("a Request", DCCP_OK, arrives(&listener, 1, &frame, &answer, &told));
    same("what became of it", DCCP_TOLD_TOOK, told.kind);
    same("its way", DCCP_WAY_GREETED, dccp_listener_way(&listener));
    same("flows", 0, dccp_listener_flows(&listener));
    same("a Response", DCCP_OK, dccp_receive(&one, answer.bytes, answer.length, 0, &third, &told));
    same("its type", 1, (answer.bytes[8] >> 1) & 15);
    same("a client with a cookie", DCCP_PHASE_PARTOPEN, look(&one).phase);
    /* The Init Cookie is the last option: its type, its length, and 32 bytes beside the Request's options, which fill whole words. */
    same("a longer Ack", true, 24 + 36 <= third.length);
    same("its room for data", true, dccp_longest_data(&one, 256) < 256 - 24 - 36);
    same("the Ack", DCCP_OK, arrives(&listener, 1, &third, &frame, &told));
    same("its way", DCCP_WAY_REOPENED, dccp_listener_way(&listener));
    same("it opens", 1, told_of(&listener, DCCP_EVENT_OPENED, &event));
    same("one flow", 1, dccp_listener_flows(&listener));
    same("the Ack again", DCCP_OK, arrives(&listener, 1, &third, &frame, &told));
    same("its way", DCCP_WAY_PLAIN, dccp_listener_way(&listener));
    /* The table is full. */
    same("the Ack of another", DCCP_OK, arrives(&listener, 3, &third, &frame, &told));
    same("which opens none", 1, dccp_listener_flows(&listener));
    dccp_listener_free(&listener);
    dccp_free(&one);
    same("blocks after free", 0, held);
}

/* The same of a server with an end for each peer. */
static void cookies_of_ends(void) {
    dccp_settings settings = server(), none = server();
    dccp_cookie_keys keys = {.key = {{7}}, .before = {{7}}};
    dccp_end one = DCCP_NONE, other = DCCP_NONE;
    dccp_frame frame, answer, third, request;
    dccp_told told;
    static uint8_t bytes[DCCP_MOST_FRAME_BYTES + 1];
    none.size--;
    same("an end", DCCP_OK, dccp_make(&one, &client, NULL, 0));
    same("its open", DCCP_OK, dccp_open(&one, 0, &frame));
    const unsigned before = held;
    same("settings of another size", DCCP_OTHER_SIZE, dccp_greet(&none, NULL, 0, &keys, frame.bytes, frame.length, 0, &answer));
    same("its frame", 0, answer.length);
    same("a long datagram", DCCP_TOO_LONG, dccp_greet(&settings, NULL, 0, &keys, bytes, sizeof bytes, 0, &answer));
    same("no Request", DCCP_NO_CONNECTION, dccp_greet(&settings, NULL, 0, &keys, bytes, 16, 0, &answer));
    same("a Request", DCCP_OK, dccp_greet(&settings, NULL, 0, &keys, frame.bytes, frame.length, 0, &answer));
    same("what it has kept", before, held);
    same("a Request returns nothing", DCCP_NO_CONNECTION, dccp_recall(&settings, &keys, frame.bytes, frame.length, 0, &request));
    same("its Request", 0, request.length);
    same("a Response", DCCP_OK, dccp_receive(&one, answer.bytes, answer.length, 0, &third, &told));
    same("settings of another size", DCCP_OTHER_SIZE, dccp_recall(&none, &keys, third.bytes, third.length, 0, &request));
    same("a long datagram", DCCP_TOO_LONG, dccp_recall(&settings, &keys, bytes, sizeof bytes, 0, &request));
    same("after two minutes", DCCP_NO_CONNECTION, dccp_recall(&settings, &keys, third.bytes, third.length, 120001, &request));
    same("by another key", DCCP_NO_CONNECTION,
         dccp_recall(&settings, &(dccp_cookie_keys){.key = {{8}}, .before = {{8}}}, third.bytes, third.length, 0, &request));
    same("an Ack", DCCP_OK, dccp_recall(&settings, &keys, third.bytes, third.length, 120000, &request));
    same("the first number", 2000, request.number);
    settings.first_number = request.number;
    same("the Request again", DCCP_OK, dccp_accept(&other, &settings, NULL, 0, request.bytes, request.length, 0, &answer, &told));
    same("the Ack then", DCCP_OK, dccp_receive(&other, third.bytes, third.length, 0, &answer, &told));
    same("a server that is open", DCCP_PHASE_OPEN, look(&other).phase);
    exchange(&one, &other, &answer);
    same("a client in PARTOPEN or OPEN", true, look(&one).phase == DCCP_PHASE_PARTOPEN || look(&one).phase == DCCP_PHASE_OPEN);
    dccp_free(&one);
    dccp_free(&other);
    same("blocks after free", 0, held);
}

/* The end hears a frame at some time and leaves its answer there. Whether its client begins anew. */
static bool begins(dccp_end *end, dccp_last_sync *last, dccp_frame *frame, dccp_told *told, uint64_t now) {
    dccp_frame answer;
    same("a frame that arrives", DCCP_OK, dccp_receive(end, frame->bytes, frame->length, now, &answer, told));
    bool is_anew = dccp_begins_anew(last, frame->bytes, frame->length, told, &answer);
    *frame = answer;
    return is_anew;
}

/* A Request of another client with the names of the first, at a server's end, which answers with a Sync. A client that lives drops this, since it
 * never sent that number. One that was killed and asks with that Request answers by a Reset with the code 4 (RFC 4340, sections 7.5.4 and 8.5, step
 * 4). The server's owner ends the old end then, and the next Request opens another: four packets and two seconds. */
static void a_client_that_begins_anew(void) {
    dccp_settings own = server(), again = client;
    dccp_end one = DCCP_NONE, other = DCCP_NONE, third = DCCP_NONE;
    dccp_last_sync last = {0}, none = {0};
    dccp_frame frame, changed;
    dccp_told told;
    again.first_number = 500000;
    same("a client", DCCP_OK, dccp_make(&one, &client, NULL, 0));
    same("its open", DCCP_OK, dccp_open(&one, 0, &frame));
    same("its Request", DCCP_OK, dccp_accept(&other, &own, NULL, 0, frame.bytes, frame.length, 0, &changed, &told));
    exchange(&one, &other, &changed);
    same("another client", DCCP_OK, dccp_make(&third, &again, NULL, 0));
    same("its open", DCCP_OK, dccp_open(&third, 0, &frame));
    same("a forged Request", false, begins(&other, &last, &frame, &told, 0));
    same("its answer", DCCP_TOLD_SYNCED, told.kind);
    same("the Sync", DCCP_OK, dccp_receive(&one, frame.bytes, frame.length, 0, &changed, &told));
    same("a Sync of a number that was never sent", DCCP_CAUSE_BAD_SYNC, told.cause);
    same("its answer", 0, changed.length);
    dccp_free(&one);
    same("the next Request", DCCP_OK, dccp_tick(&third, 1000, &frame));
    same("it is answered with a Sync", false, begins(&other, &last, &frame, &told, 1000));
    same("the Sync of the old end", DCCP_OK, dccp_receive(&third, frame.bytes, frame.length, 1000, &frame, &told));
    changed = frame;
    changed.bytes[23] ^= 1;
    same("a Reset of another Sync", false, begins(&other, &last, &changed, &told, 1000));
    same("its checksum", DCCP_CAUSE_CHECKSUM, told.cause);
    changed = frame;
    same("a Reset", true, begins(&other, &last, &frame, &told, 1000));
    same("it is not valid", DCCP_TOLD_SYNCED, told.kind);
    same("where no Sync was sent", false, dccp_begins_anew(&none, changed.bytes, changed.length, &told, &frame));
    same("nor is there one then", false, none.is_there);
    dccp_free(&other);
    same("the Request after it", DCCP_OK, dccp_tick(&third, 3000, &frame));
    same("it opens another", DCCP_OK, dccp_accept(&other, &own, NULL, 0, frame.bytes, frame.length, 3000, &changed, &told));
    exchange(&third, &other, &changed);
    same("a server that is open", DCCP_PHASE_OPEN, look(&other).phase);
    dccp_free(&other);
    dccp_free(&third);
}

static void names_of_peers(void) {
    dccp_settings listener = server(), path = server();
    dccp_peer name = {.port = 0};
    const uint8_t own_v6[16] = {0x20, 1, 0x0d, 0xb8, [15] = 1}, peer_v6[16] = {0x20, 1, 0x0d, 0xb8, [15] = 2};
    memcpy(path.own_address, (const uint8_t[4]){10, 0, 0, 2}, 4);
    memcpy(path.peer_address, (const uint8_t[4]){192, 0, 2, 1}, 4);
    path.peer_port = 5001;
    memcpy(listener.own_address, (const uint8_t[4]){10, 0, 0, 2}, 4);
    same("a name", DCCP_OK, dccp_listener_name(&listener, &path, 1, &name));
    same("its address", 0, memcmp(name.address, (const uint8_t[4]){0, 1, 194, 0}, 4));
    same("its port", 5001, name.port);
    memcpy(path.own_address, own_v6, 16);
    memcpy(path.peer_address, peer_v6, 16);
    path.is_v6 = true;
    same("a name for IPv6", DCCP_OK, dccp_listener_name(&listener, &path, 1, &name));
    same("its address", 0, memcmp(name.address, (const uint8_t[4]){0, 1, 81, 114}, 4));
    path.size--;
    same("an older path", DCCP_OTHER_SIZE, dccp_listener_name(&listener, &path, 1, &name));
}

/* A first number drawn from the key 0, 1, .. 31 for 10.0.0.1, by Python's hmac and hashlib over 0a000002 1389 0a000001 9c40, and 250 more for each
 * millisecond. */
static void a_keyed_number(void) {
    dccp_settings listener = server();
    dccp_key key;
    uint64_t number = 1;
    for (unsigned at = 0; at < 32; at++) key.bytes[at] = (uint8_t)at;
    same("a number", DCCP_OK, dccp_listener_number(&listener, &key, &guest, 1000, &number));
    same("its value", 220924168272762, number);
    same("a second later", DCCP_OK, dccp_listener_number(&listener, &key, &guest, 2000, &number));
    same("its value", 220924168522762, number);
    listener.size--;
    same("of older settings", DCCP_OTHER_SIZE, dccp_listener_number(&listener, &key, &guest, 1000, &number));
    same("what stood there", 220924168522762, number);
}

/* Each code of a listener: strangers, a flow, one too many (RFC 4340, section 5.6), and its end. */
static void a_listener(void) {
    dccp_listener listener = begun();
    dccp_frame frame, first = request(client.service), second = other_request(3), elsewhere = request(client.service + 1);
    dccp_peer peer = {.port = 1};
    dccp_told told;
    dccp_view view = DCCP_VIEW_INIT;
    static uint8_t bytes[DCCP_MOST_FRAME_BYTES + 1];
    same("2^48", DCCP_NO_NUMBER, dccp_listener_arrive(&listener, &guest, (uint64_t)1 << 48, bytes, 0, 0, &frame, &told));
    same("2,045 bytes", DCCP_TOO_LONG, dccp_listener_arrive(&listener, &guest, 0, bytes, sizeof bytes, 0, &frame, &told));
    refused = 1;
    same("data for a stranger", DCCP_NO_FLOW, dccp_listener_send(&listener, &guest, bytes, 1, 0, &frame));
    same("close of a stranger", DCCP_NO_FLOW, dccp_listener_close(&listener, &guest, 0, &frame));
    same("abort of a stranger", DCCP_NO_FLOW, dccp_listener_abort(&listener, &guest, 0, &frame));
    same("allocations left to be refused", 1, refused);
    refused = 0;
    same("a Request for another service", DCCP_OK, arrives(&listener, 1, &elsewhere, &frame, &told));
    same("what became of it", DCCP_TOLD_SENT_RESET, told.kind);
    same("the code: Bad Service Code", 8, told.code);
    same("its flow", DCCP_NO_FLOW, dccp_listener_look(&listener, &guest, &view));
    same("the first peer", DCCP_NO_FLOW, dccp_listener_first_peer(&listener, &peer));
    same("the next", DCCP_NO_FLOW, dccp_listener_next_peer(&listener, &peer));
    same("what stood there", 1, peer.port);
    same("data for no flow", DCCP_NO_FLOW, dccp_listener_send(&listener, &guest, bytes, 1, 0, &frame));
    same("a Request", DCCP_OK, arrives(&listener, 1, &first, &frame, &told));
    same("its Response", 1, (frame.bytes[8] >> 1) & 15);
    same("its flow", DCCP_OK, dccp_listener_look(&listener, &guest, &view));
    same("its phase", DCCP_PHASE_RESPOND, view.phase);
    same("its first number", 2000, view.iss);
    same("its service", client.service, view.service);
    same("who has one", DCCP_OK, dccp_listener_first_peer(&listener, &peer));
    same("its port", guest.port, peer.port);
    same("after it", DCCP_NO_FLOW, dccp_listener_next_peer(&listener, &peer));
    peer.port--;
    same("after its port less one", DCCP_OK, dccp_listener_next_peer(&listener, &peer));
    same("its port again", guest.port, peer.port);
    same("data in RESPOND", DCCP_NOT_OPEN, dccp_listener_send(&listener, &guest, bytes, 1, 0, &frame));
    same("close in RESPOND", DCCP_NOT_OPEN, dccp_listener_close(&listener, &guest, 0, &frame));
    told.kind = DCCP_TOLD_TOOK;
    same("one too many", DCCP_BUSY, arrives(&listener, 3, &second, &frame, &told));
    same("its Reset", 7, (frame.bytes[8] >> 1) & 15);
    same("the code: Too Busy", 9, frame.bytes[24]);
    same("what is told", DCCP_TOLD_TOOK, told.kind);
    same("no second peer", DCCP_NO_FLOW, dccp_listener_next_peer(&listener, &peer));
    same("abort", DCCP_OK, dccp_listener_abort(&listener, &guest, 0, &frame));
    same("its Reset", 7, (frame.bytes[8] >> 1) & 15);
    same("abort again", DCCP_NO_FLOW, dccp_listener_abort(&listener, &guest, 0, &frame));
    same("room for the other", DCCP_OK, arrives(&listener, 3, &second, &frame, &told));
    same("the first peer", DCCP_OK, dccp_listener_first_peer(&listener, &peer));
    same("whose it is", 3, peer.address[3]);
    dccp_listener_free(&listener);
    same("blocks after free", 0, held);
}

/* What a flow holds and takes: a Sequence Window of 10,000 that it has offered, a wish for its Ack Ratio, and no wish of another's. */
static void features_of_a_flow(dccp_listener *listener) {
    dccp_peer stranger = {.address = {10, 0, 0, 9}, .port = 40000};
    dccp_feature_state state = {0};
    dccp_frame frame;
    uint64_t one = 1, none[1] = {70000};
    same("its Sequence Window", DCCP_OK, dccp_listener_feature(listener, &guest, DCCP_FEATURE_SEQUENCE_WINDOW, false, &state));
    same("the value", 10000, state.value);
    same("a feature of no number", DCCP_NO_FEATURE, dccp_listener_feature(listener, &guest, 10, false, &state));
    same("a stranger's", DCCP_NO_FLOW, dccp_listener_feature(listener, &stranger, DCCP_FEATURE_ACK_RATIO, false, &state));
    same("a wish of no number", DCCP_NO_FEATURE, dccp_listener_prefer(listener, &guest, 10, false, &one, 1, 0, &frame));
    same("a wish for the peer's", DCCP_NOT_OURS, dccp_listener_prefer(listener, &guest, DCCP_FEATURE_ACK_RATIO, true, &one, 1, 0, &frame));
    same("a ratio of 70,000", DCCP_BAD_LIST, dccp_listener_prefer(listener, &guest, DCCP_FEATURE_ACK_RATIO, false, none, 1, 0, &frame));
    same("its frame", 0, frame.length);
    same("a stranger's wish", DCCP_NO_FLOW, dccp_listener_prefer(listener, &stranger, DCCP_FEATURE_ACK_RATIO, false, &one, 1, 0, &frame));
    same("a wish", DCCP_OK, dccp_listener_prefer(listener, &guest, DCCP_FEATURE_ACK_RATIO, false, &one, 1, 0, &frame));
    same("its Ack", 3, (frame.bytes[8] >> 1) & 15);
    same("its Ack Ratio", DCCP_OK, dccp_listener_feature(listener, &guest, DCCP_FEATURE_ACK_RATIO, false, &state));
    same("where it stands", DCCP_STAND_CHANGING, state.stand);
}

/* Packets that belong to no connection: eight Resets go out in a second (own), one in 125 milliseconds. */
static void packets_of_no_flow(dccp_listener *listener, const dccp_frame *datagram) {
    dccp_frame frame;
    dccp_told told;
    dccp_event event = DCCP_EVENT_INIT;
    same("the flow goes", DCCP_OK, dccp_listener_forget(listener, &guest, 0));
    same("its end is told", 1, told_of(listener, DCCP_EVENT_ENDED, &event));
    same("why", DCCP_BY_OWN, event.cause);
    same("with its number", 77, event.user);
    same("and is there no more", DCCP_NO_FLOW, dccp_listener_forget(listener, &guest, 0));
    for (unsigned count = 0; count < 9; count++) {
        same("a stranger's packet", DCCP_OK, arrives(listener, 1, datagram, &frame, &told));
        same("what became of it", DCCP_TOLD_SENT_RESET, told.kind);
        same("the code: No Connection", 3, told.code);
        same("whether its Reset goes out", count < 8, frame.length != 0);
    }
    dccp_listener_arrive(listener, &guest, 2000, datagram->bytes, datagram->length, 124, &frame, &told);
    same("a Reset 124 milliseconds later", 0, frame.length);
    dccp_listener_arrive(listener, &guest, 2000, datagram->bytes, datagram->length, 125, &frame, &told);
    same("a Reset a millisecond after that", 7, (frame.bytes[8] >> 1) & 15);
}

/* A client and its flow: an Ack of the flow waits for 50 milliseconds (own; RFC 4340, section 8.1.5), and data that arrive are told. */
/* What is read of the data of a flow and of its path: the last of four packets is on its way, and no round trip was measured in no time. */
static void readings_of_a_flow(dccp_listener *listener) {
    const dccp_peer stranger = {.address = {10, 0, 0, 9}, .port = 9};
    dccp_view view = DCCP_VIEW_INIT;
    dccp_round_trip trip = DCCP_ROUND_TRIP_INIT;
    dccp_flow_life life = DCCP_FLOW_LIFE_INIT;
    same("a look", DCCP_OK, dccp_listener_look(listener, &guest, &view));
    same("data on their way", DCCP_FATE_IN_FLIGHT, dccp_listener_fate_of(listener, &guest, view.gss));
    same("no data", DCCP_FATE_UNKNOWN, dccp_listener_fate_of(listener, &guest, view.gss + 1));
    same("data to no flow", DCCP_FATE_UNKNOWN, dccp_listener_fate_of(listener, &stranger, view.gss));
    same("the longest data", 1024, dccp_listener_longest_data(listener, &guest, 2044));
    same("those to no flow", 0, dccp_listener_longest_data(listener, &stranger, 2044));
    same("its path", DCCP_OK, dccp_listener_look_path(listener, &guest, &trip));
    same("the path of no flow", DCCP_NO_FLOW, dccp_listener_look_path(listener, &stranger, &trip));
    trip.size--;
    same("an older round trip", DCCP_OTHER_SIZE, dccp_listener_look_path(listener, &guest, &trip));
    same("its life", DCCP_OK, dccp_listener_life(listener, &guest, &life));
    same("the number beside it", 77, life.user);
}

static void a_flow(void) {
    static const uint8_t many[DCCP_MOST_DATA_BYTES + 1];
    dccp_listener listener = begun();
    dccp_end end = DCCP_NONE;
    dccp_wish vectors = {.values = {1}, .count = 1, .feature = DCCP_FEATURE_SEND_ACK_VECTOR, .is_offered = true};
    dccp_frame frame, answer, datum;
    dccp_event event = DCCP_EVENT_INIT;
    dccp_peer peer;
    dccp_told told;
    same("a client", DCCP_OK, dccp_make(&end, &client, &vectors, 1));
    same("its open", DCCP_OK, dccp_open(&end, 0, &frame));
    while (frame.length) {
        same("a frame that arrives", DCCP_OK, arrives(&listener, 1, &frame, &answer, &told));
        if (answer.length == 0) break;
        same("its answer", DCCP_OK, dccp_receive(&end, answer.bytes, answer.length, 0, &frame, &told));
    }
    same("the client's phase", DCCP_PHASE_OPEN, look(&end).phase);
    same("one handshake", 1, told_of(&listener, DCCP_EVENT_OPENED, &event));
    same("whose it is", guest.port, event.peer.port);
    same("a number beside it", DCCP_OK, dccp_listener_set_user(&listener, &guest, 77));
    same("data", DCCP_OK, dccp_send(&end, (const uint8_t *)"abc", 3, 0, &frame));
    datum = frame;
    same("their arrival", DCCP_OK, arrives(&listener, 1, &frame, &answer, &told));
    same("what became of them", DCCP_TOLD_DATA, told.kind);
    same("they are told once", 1, told_of(&listener, DCCP_EVENT_DATA, &event));
    same("where they stand", told.first, event.first);
    same("up to where", told.past, event.past);
    same("with the number", 77, event.user);
    same("the data themselves", 0, memcmp(frame.bytes + told.first, "abc", 3) != 0);
    same("data back", DCCP_OK, dccp_listener_send(&listener, &guest, frame.bytes + told.first, 3, 0, &answer));
    same("their arrival", DCCP_OK, dccp_receive(&end, answer.bytes, answer.length, 0, &frame, &told));
    same("what became of them", DCCP_TOLD_DATA, told.kind);
    same("1,025 bytes", DCCP_TOO_LONG, dccp_listener_send(&listener, &guest, many, sizeof many, 0, &answer));
    for (unsigned more = 0; more < 3; more++)
        same("data in the window of four", DCCP_OK, dccp_listener_send(&listener, &guest, many, 1, 0, &answer));
    same("one more than the window", DCCP_WINDOW_FULL, dccp_listener_send(&listener, &guest, many, 1, 0, &answer));
    same("its frame", 0, answer.length);
    readings_of_a_flow(&listener);
    same("the time until a timer", 50, dccp_listener_until_first(&listener, 0));
    same("a tick before that", DCCP_NOTHING_DUE, dccp_listener_tick(&listener, 49, &peer, &answer));
    same("a tick", DCCP_OK, dccp_listener_tick(&listener, 50, &peer, &answer));
    same("whose timer it was", guest.port, peer.port);
    same("its Ack", 3, (answer.bytes[8] >> 1) & 15);
    features_of_a_flow(&listener);
    same("close", DCCP_OK, dccp_listener_close(&listener, &guest, 50, &answer));
    packets_of_no_flow(&listener, &datum);
    dccp_free(&end);
    dccp_listener_free(&listener);
    same("blocks after free", 0, held);
}

/* A client opens at a listener, and what it has sent has been answered. */
static void opens_at(dccp_listener *listener, dccp_end *end) {
    dccp_wish vectors = {.values = {1}, .count = 1, .feature = DCCP_FEATURE_SEND_ACK_VECTOR, .is_offered = true};
    dccp_frame frame, answer;
    dccp_told told;
    same("a client", DCCP_OK, dccp_make(end, &client, &vectors, 1));
    same("its open", DCCP_OK, dccp_open(end, 0, &frame));
    while (frame.length) {
        same("a frame that arrives", DCCP_OK, arrives(listener, 1, &frame, &answer, &told));
        if (answer.length == 0) break;
        same("its answer", DCCP_OK, dccp_receive(end, answer.bytes, answer.length, 0, &frame, &told));
    }
}

/* A packet of data from a client to its flow, and what the flow answers and is told, by an event of this kind. */
static uint64_t sends_to(dccp_listener *listener, dccp_end *end, const char *data, dccp_frame *answer, uint32_t kind, dccp_event *event) {
    dccp_frame frame;
    dccp_told told;
    same("a packet", DCCP_OK, dccp_send(end, (const uint8_t *)data, strlen(data), 0, &frame));
    same("its arrival", DCCP_OK, arrives(listener, 1, &frame, answer, &told));
    same("what became of it", kind == DCCP_EVENT_WAITS ? DCCP_TOLD_WAITS : DCCP_TOLD_NOT_KEPT, told.kind);
    same("it is told once", 1, told_of(listener, kind, event));
    same("with the same code", told.code, event->code);
    return frame.number;
}

/* Of two packets to a flow one waits, and the other is dropped with the Drop Code 2: the Ack's option says so of the greatest number. What
 * waits can be read after the flow has ended. A third packet waits, and after the end of reading a fourth is dropped with 1: of it, of the third and
 * of the second the option says 1, nothing and 2 (RFC 4340, section 11.7). */
static void data_of_a_flow_that_wait(void) {
    dccp_listener listener = DCCP_NO_LISTENER;
    dccp_end end = DCCP_NONE;
    dccp_settings settings = server();
    dccp_frame frame, answer;
    dccp_told told;
    dccp_event event = DCCP_EVENT_INIT;
    dccp_data data = {0};
    dccp_view view = DCCP_VIEW_INIT;
    const dccp_peer stranger = {.address = {10, 0, 0, 9}, .port = 9};
    const uint8_t full[] = {40, 3, 0xa0, 2}, deaf[] = {40, 5, 0x90, 0, 0xa0, 2, 0, 0};
    settings.most_held = 1;
    same("a listener with room for one", DCCP_OK, dccp_listener_make(&listener, &settings, NULL, 0, NULL, 0, 2));
    same("a stop of no flow", DCCP_NO_FLOW, dccp_listener_stop_reading(&listener, &stranger));
    opens_at(&listener, &end);
    same("nothing waits", DCCP_NOTHING_DUE, dccp_listener_read(&listener, &guest, &data));
    uint64_t number = sends_to(&listener, &end, "abc", &answer, DCCP_EVENT_WAITS, &event);
    same("as the only one", 1, dccp_listener_held(&listener, &guest));
    same("the longest data beside what it may say", 72, dccp_listener_longest_data(&listener, &guest, 100 + 256));
    (void)sends_to(&listener, &end, "de", &answer, DCCP_EVENT_DROPPED, &event);
    same("for want of room", 2, event.code);
    same("its answer", 0, answer.length < sizeof full);
    same("by Data Dropped, and that it is slow", 0, memcmp(answer.bytes + answer.length - sizeof full, full, sizeof full) != 0);
    same("the client hears it", DCCP_OK, dccp_receive(&end, answer.bytes, answer.length, 0, &frame, &told));
    same("what waits is read", DCCP_OK, dccp_listener_read(&listener, &guest, &data));
    same("its number", number, data.number);
    same("its length", 3, data.length);
    same("its bytes", 0, memcmp(data.bytes, "abc", 3) != 0);
    (void)sends_to(&listener, &end, "f", &answer, DCCP_EVENT_WAITS, &event);
    same("the end of reading", DCCP_OK, dccp_listener_stop_reading(&listener, &guest));
    (void)sends_to(&listener, &end, "g", &answer, DCCP_EVENT_DROPPED, &event);
    same("for want of a reader", 1, event.code);
    same("its answer", 0, answer.length < sizeof deaf);
    same("by Data Dropped, of three numbers, and that it is slow", 0, memcmp(answer.bytes + answer.length - sizeof deaf, deaf, sizeof deaf) != 0);
    same("the client hears it", DCCP_OK, dccp_receive(&end, answer.bytes, answer.length, 0, &frame, &told));
    same("none listens", DCCP_NOT_LISTENING, dccp_send(&end, (const uint8_t *)"h", 1, 0, &frame));
    same("the client's close", DCCP_OK, dccp_close(&end, 0, &frame));
    same("its arrival", DCCP_OK, arrives(&listener, 1, &frame, &answer, &told));
    same("the flow is over", DCCP_NO_FLOW, dccp_listener_look(&listener, &guest, &view));
    same("and is told so", 1, told_of(&listener, DCCP_EVENT_ENDED, &event));
    same("what waits", 1, dccp_listener_held(&listener, &guest));
    same("is read", DCCP_OK, dccp_listener_read(&listener, &guest, &data));
    same("its bytes", 0, data.length != 1 || data.bytes[0] != 'f');
    same("nothing waits", DCCP_NOTHING_DUE, dccp_listener_read(&listener, &guest, &data));
    dccp_free(&end);
    opens_at(&listener, &end);
    (void)sends_to(&listener, &end, "i", &answer, DCCP_EVENT_WAITS, &event);
    same("the flow goes", DCCP_OK, dccp_listener_forget(&listener, &guest, 0));
    same("with what waits of it", 0, dccp_listener_held(&listener, &guest));
    dccp_free(&end);
    opens_at(&listener, &end);
    same("a packet", DCCP_OK, dccp_send(&end, (const uint8_t *)"j", 1, 0, &frame));
    refused = 1;
    same("where no memory is left for what is to wait", DCCP_OK, arrives(&listener, 1, &frame, &answer, &told));
    refused = 0;
    same("its data stand in the datagram", DCCP_TOLD_DATA, told.kind);
    same("and are told so", 1, told_of(&listener, DCCP_EVENT_DATA, &event));
    same("from there", told.first, event.first);
    (void)sends_to(&listener, &end, "k", &answer, DCCP_EVENT_WAITS, &event);
    dccp_free(&end);
    dccp_listener_free(&listener);
    same("blocks after free", 0, held);
}

/* What a flow that makes no offers refuses, whose client sends no Ack Vectors, and after that client's Reset. */
static void refusals_of_a_flow(void) {
    dccp_listener listener = begun_as(true);
    dccp_end end = DCCP_NONE;
    dccp_wish none = {.count = 0};
    dccp_frame frame, answer;
    dccp_told told;
    dccp_view view = DCCP_VIEW_INIT;
    uint8_t byte = 0;
    same("a client", DCCP_OK, dccp_make(&end, &client, &none, 0));
    same("its open", DCCP_OK, dccp_open(&end, 0, &frame));
    while (frame.length) {
        same("a frame that arrives", DCCP_OK, arrives(&listener, 1, &frame, &answer, &told));
        if (answer.length == 0) break;
        same("its answer", DCCP_OK, dccp_receive(&end, answer.bytes, answer.length, 0, &frame, &told));
    }
    same("data without Ack Vectors", DCCP_NOT_NEGOTIATED, dccp_listener_send(&listener, &guest, &byte, 1, 0, &answer));
    same("the client's abort", DCCP_OK, dccp_abort(&end, 0, &frame));
    same("its arrival", DCCP_OK, arrives(&listener, 1, &frame, &answer, &told));
    same("what became of it", DCCP_TOLD_WAS_RESET, told.kind);
    same("its flow", DCCP_OK, dccp_listener_look(&listener, &guest, &view));
    same("its phase", DCCP_PHASE_TIMEWAIT, view.phase);
    same("abort in TIMEWAIT", DCCP_NOT_LIVE, dccp_listener_abort(&listener, &guest, 0, &answer));
    dccp_free(&end);
    dccp_listener_free(&listener);
    same("blocks after free", 0, held);
}

/* Each allocation that a listener takes is refused in turn: then there is none. */
static void memory_of_a_listener(void) {
    dccp_settings settings = server();
    for (unsigned at = 1;; at++) {
        dccp_listener listener = DCCP_NO_LISTENER;
        refused = at;
        uint32_t status = dccp_listener_make(&listener, &settings, NULL, 0, NULL, 0, 2);
        bool is_reached = refused == 0;
        refused = 0;
        same("a listener that may want memory", is_reached ? DCCP_NO_MEMORY : DCCP_OK, status);
        same("whether there is one", !is_reached, listener.made);
        dccp_listener_free(&listener);
        same("blocks after free", 0, held);
        if (!is_reached) break;
    }
}

/* Each allocation that a flow takes is refused in turn: then there is none, nothing is left, and nothing is kept except what is allocated first:
 * the first blocks of two registers, those of lives and of timers. Each takes a block for its queue, a box for its value, which goes with the
 * flow, and a block for its list. */
static void memory_of_a_flow(void) {
    static const unsigned kept[] = {0, 1, 1, 2, 3, 3};
    dccp_frame datagram = request(client.service), frame;
    dccp_view view = DCCP_VIEW_INIT;
    dccp_told told;
    for (unsigned at = 1;; at++) {
        dccp_listener listener = begun();
        unsigned before = held;
        refused = at;
        uint32_t status = arrives(&listener, 1, &datagram, &frame, &told);
        bool is_reached = refused == 0;
        refused = 0;
        same("a flow that may want memory", is_reached ? DCCP_NO_MEMORY : DCCP_OK, status);
        if (is_reached) {
            same("its frame", 0, frame.length);
            same("the flow", DCCP_NO_FLOW, dccp_listener_look(&listener, &guest, &view));
            same("blocks that are kept", before + (at < 7 ? kept[at - 1] : 4), held);
        }
        dccp_listener_free(&listener);
        same("blocks after free", 0, held);
        if (!is_reached) break;
    }
}

int main(void) {
    same("the border", DCCP_ABI, dccp_abi());
    same("the version", DCCP_VERSION, dccp_version());
    without_an_end();
    wishes();
    a_request();
    a_server();
    a_timer();
    memory(make);
    memory(accept);
    a_connection();
    data_that_wait();
    sizes();
    turned_away();
    fates();
    longest_data();
    without_vectors();
    without_a_listener();
    limits_of_a_listener();
    a_listener();
    before_a_flow();
    cookies();
    cookies_of_ends();
    a_client_that_begins_anew();
    names_of_peers();
    a_keyed_number();
    a_flow();
    data_of_a_flow_that_wait();
    refusals_of_a_flow();
    memory_of_a_listener();
    memory_of_a_flow();
    return wrong;
}
