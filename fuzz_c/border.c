/* A libFuzzer target over the functions of dccp.h: what any bytes, and any order of calls, lead to. An input is a list of calls, each a byte
 * that names it and what it needs; where the bytes end, the rest is 0. It stops the program where an answer is none of those that the header
 * lists, a refused call leaves bytes or changes an end, or what is reported lies outside the datagram.
 *
 * The library is compiled without coverage: what was answered in which phase counts as covered, by counters of libFuzzer's. */
#include <stdio.h>
#include <stdlib.h>
#include <string.h>

#include "dccp.h"

enum { CLIENT = 0, SERVER = 1, LISTENER = 2, CALLS = 20, PHASES = 9, STATUSES = 24, CAUSES = 13, KINDS = 8, PEERS = 4 };

__attribute__((section("__libfuzzer_extra_counters"))) static uint8_t answered[CALLS * PHASES * STATUSES], was_told[3 * PHASES * KINDS * CAUSES];

struct input {
    const uint8_t *next, *past;
};

static struct state {
    dccp_end ends[2];
    dccp_listener listener;
    dccp_frame frame, last[3]; /* the last frame of each */
    dccp_last_sync last_sync;  /* of the server's end */
    uint64_t now;
} s;

static void require(bool holds, const char *what) {
    if (holds) return;
    fprintf(stderr, "%s\n", what);
    abort();
}

static uint64_t draw(struct input *in, unsigned bytes) {
    uint64_t number = 0;
    while (bytes-- != 0) number = number << 8 | (in->next == in->past ? 0 : *in->next++);
    return number;
}

static uint16_t sum16(const uint8_t *bytes, size_t length, uint32_t sum) {
    for (size_t at = 0; at < length; at++) sum += (uint32_t)bytes[at] << (at % 2 == 0 ? 8 : 0);
    while (sum >> 16 != 0) sum = (sum & 0xffff) + (sum >> 16);
    return (uint16_t)sum;
}

/* Gives a packet the ports and the checksum (RFC 4340, section 9) that the one who hears it looks for; all of it is covered. Both ends have
 * the address 10.0.0.1, and the ports 1 and 2. */
static void mend(uint8_t *bytes, size_t length, bool to_client, unsigned port) {
    if (length < 12) return;
    const uint8_t pseudo[12] = {10, 0, 0, 1, 10, 0, 0, 1, 0, 33, (uint8_t)(length >> 8), (uint8_t)length};
    const uint8_t ports[4] = {0, (uint8_t)(to_client ? 2 : port), 0, (uint8_t)(to_client ? port : 2)};
    memcpy(bytes, ports, 4);
    bytes[5] &= 0xf0;
    bytes[6] = bytes[7] = 0;
    uint16_t sum = (uint16_t)~sum16(bytes, length, sum16(pseudo, sizeof pseudo, 0));
    bytes[6] = (uint8_t)(sum >> 8);
    bytes[7] = (uint8_t)sum;
}

static dccp_settings settings_of(bool is_server, struct input *in) {
    dccp_settings it = {.size = sizeof it, .own_address = {10, 0, 0, 1}, .peer_address = {10, 0, 0, 1}, .service = 42, .is_server = is_server};
    it.first_number = draw(in, 1) == 255 ? draw(in, 8) : 1000;
    it.own_port = is_server ? 2 : 1;
    it.peer_port = is_server ? 1 : 2;
    uint8_t flags = (uint8_t)draw(in, 1);
    it.is_plain = flags & 1;
    it.without_round_trip = flags >> 1 & 1;
    it.without_soon_acks = flags >> 2 & 1;
    it.without_ack_ratio = flags >> 3 & 1;
    it.without_probes = flags >> 4 & 1;
    it.without_limits = flags >> 5 & 1;
    it.without_giving_up = flags >> 6 & 1;
    it.without_wide_window = flags >> 7;
    uint8_t reading = (uint8_t)draw(in, 1);
    it.without_heed = reading & 1;
    it.most_held = reading >> 1 & 7;
    return it;
}

static size_t wishes_of(struct input *in, dccp_wish *wishes) {
    size_t count = draw(in, 1) % 3;
    for (size_t at = 0; at < count; at++) {
        uint8_t flags = (uint8_t)draw(in, 1);
        wishes[at] = (dccp_wish){.count = flags & 15, .feature = (uint32_t)draw(in, 1), .at_peer = flags >> 4 & 1, .is_offered = flags >> 5 & 1};
        wishes[at].is_mandatory = flags >> 6 & 1;
        for (size_t value = 0; value < DCCP_MOST_VALUES; value++) wishes[at].values[value] = draw(in, 2);
    }
    return count;
}

static uint32_t phase_of(int who) {
    dccp_view view = DCCP_VIEW_INIT;
    if (who != LISTENER && dccp_look(&s.ends[who], &view) == DCCP_OK) require(view.phase < PHASES, "a phase that is none");
    return view.phase;
}

/* Notes an answer. A refused call leaves no bytes, and an end that is read the same. */
static void judge(int call, int who, dccp_status status, const dccp_view *before) {
    require((unsigned)status < STATUSES && s.frame.length <= DCCP_MOST_FRAME_BYTES, "a status or a length that is none");
    answered[(call * PHASES + (int)phase_of(who)) * STATUSES + (int)status] = 1;
    if (status == DCCP_OK && s.frame.length != 0) s.last[who] = s.frame;
    if (status == DCCP_OK || who == LISTENER) return;
    dccp_view after = DCCP_VIEW_INIT;
    (void)dccp_look(&s.ends[who], &after);
    require(s.frame.length == 0 && memcmp(before, &after, sizeof after) == 0, "a refused call that changed something");
}

static void judge_told(int who, dccp_status status, const dccp_told *told, size_t length) {
    if (status != DCCP_OK) return;
    require((unsigned)told->kind < KINDS && told->cause < CAUSES, "something told that is none");
    require(told->first <= told->past && told->past <= length, "data that do not lie in the datagram");
    was_told[((who * PHASES + (int)phase_of(who)) * KINDS + (int)told->kind) * CAUSES + (int)told->cause] = 1;
}

/* A datagram for an end or the listener: bytes of the input, or the last frame of another, maybe with a byte changed and mended. */
static size_t datagram_of(struct input *in, int to, unsigned port, uint8_t *bytes) {
    uint8_t form = (uint8_t)draw(in, 1);
    size_t length;
    if (form & 1) {
        const dccp_frame *last = &s.last[to == CLIENT ? SERVER + (form >> 1 & 1) : CLIENT];
        length = last->length;
        memcpy(bytes, last->bytes, length);
        if (form & 4 && length != 0) bytes[draw(in, 2) % length] ^= (uint8_t)draw(in, 1);
    } else {
        length = draw(in, 2) % (DCCP_MOST_FRAME_BYTES + 2);
        if ((size_t)(in->past - in->next) < length) length = (size_t)(in->past - in->next);
        memcpy(bytes, in->next, length);
        in->next += length;
    }
    if (form & 8) mend(bytes, length, to == CLIENT, port);
    return length;
}

/* Takes data that wait: then one fewer do. */
static void read_one(int who, const dccp_view *before) {
    static dccp_data data;
    dccp_end *end = &s.ends[who];
    size_t waited = dccp_held(end);
    dccp_status status = dccp_read(end, &data);
    judge(18, who, status, before);
    require(status == DCCP_OK ? dccp_held(end) + 1 == waited && data.length <= DCCP_MOST_READ_BYTES : waited == 0, "data that wait otherwise");
    (void)dccp_look_path(end, &(dccp_round_trip)DCCP_ROUND_TRIP_INIT);
}

static void call_end(int call, int who, struct input *in) {
    static uint8_t bytes[DCCP_MOST_FRAME_BYTES + 2];
    dccp_end *end = &s.ends[who];
    dccp_wish wishes[2] = {0};
    dccp_settings settings;
    dccp_told told = {0};
    dccp_view before = DCCP_VIEW_INIT;
    uint64_t values[9];
    size_t length;
    dccp_status status;
    s.frame.length = 0;
    (void)dccp_look(end, &before);
    switch (call) {
        case 0:
            settings = settings_of(who == SERVER, in);
            length = wishes_of(in, wishes);
            if (dccp_make(end, &settings, wishes, length) == DCCP_OK && who == CLIENT) judge(0, who, dccp_open(end, s.now, &s.frame), &before);
            return;
        case 1:
            length = datagram_of(in, who, 1, bytes);
            status = dccp_receive(end, bytes, length, s.now, &s.frame, &told);
            judge(1, who, status, &before);
            judge_told(who, status, &told, length);
            if (who == SERVER && status == DCCP_OK && dccp_begins_anew(&s.last_sync, bytes, length, &told, &s.frame))
                require(told.kind == DCCP_TOLD_SYNCED || told.cause == DCCP_CAUSE_LIMIT, "a client that begins anew with a packet that is valid");
            return;
        case 2: judge(2, who, dccp_send(end, bytes, draw(in, 2) % 1026, s.now, &s.frame), &before); return;
        case 3: judge(3, who, dccp_close(end, s.now, &s.frame), &before); return;
        case 4: judge(4, who, dccp_abort(end, s.now, &s.frame), &before); return;
        case 5:
            length = draw(in, 1) % 10;
            uint32_t feature = (uint32_t)draw(in, 1);
            for (size_t at = 0; at < 9; at++) values[at] = draw(in, 2);
            judge(5, who, dccp_prefer(end, feature, draw(in, 1) & 1, values, length, s.now, &s.frame), &before);
            return;
        case 6: judge(6, who, dccp_tick(end, s.now, &s.frame), &before); return;
        case 7: judge(7, who, dccp_timer(end, (uint32_t)draw(in, 1), s.now, &s.frame), &before); return;
        case 8:
            judge(8, who, dccp_feature(end, (uint32_t)draw(in, 1), draw(in, 1) & 1, &(dccp_feature_state){0}), &before);
            require(dccp_fate_of(end, before.gss - draw(in, 1)) <= DCCP_FATE_DELIVERED_CORRUPT, "a fate that is none");
            require(dccp_longest_data(end, draw(in, 2)) <= DCCP_MOST_DATA_BYTES, "data that are too long");
            return;
        case 9: dccp_free(end); return;
        case 11: read_one(who, &before); return;
        case 12: judge(19, who, dccp_stop_reading(end), &before); return;
        case 13:
            settings = settings_of(true, in);
            length = datagram_of(in, SERVER, 1, bytes);
            status = dccp_refuse(&settings, bytes, length, (uint8_t)draw(in, 1), &s.frame);
            require(status == DCCP_OK || status == DCCP_NO_CONNECTION || s.frame.length == 0, "a refused call that left bytes");
            status = dccp_greet(&settings, wishes, 0, &(dccp_cookie_keys){.since = 0}, bytes, length, s.now, &s.frame);
            require(status == DCCP_OK || status == DCCP_NO_CONNECTION || s.frame.length == 0, "a refused call that left bytes");
            if (status == DCCP_OK) s.last[SERVER] = s.frame;
            status = dccp_recall(&settings, &(dccp_cookie_keys){.since = 0}, bytes, length, s.now, &s.frame);
            require((status == DCCP_OK) == (s.frame.length != 0), "a Request that is none");
            return;
        default:
            settings = settings_of(true, in);
            length = datagram_of(in, SERVER, 1, bytes);
            if (dccp_accept(&s.ends[SERVER], &settings, wishes, 0, bytes, length, s.now, &s.frame, &told) == DCCP_OK) s.last[SERVER] = s.frame;
            return;
    }
}

/* What may be read of a flow, and of a peer that has none. */
static void read_listener(dccp_peer *peer, struct input *in) {
    dccp_view view = DCCP_VIEW_INIT;
    dccp_round_trip trip = DCCP_ROUND_TRIP_INIT;
    dccp_settings own = settings_of(true, in), path = settings_of(true, in);
    uint64_t number = 0;
    if (dccp_listener_look(&s.listener, peer, &view) == DCCP_OK) require(view.phase < PHASES, "a phase that is none");
    (void)dccp_listener_look_path(&s.listener, peer, &trip);
    require(dccp_listener_fate_of(&s.listener, peer, view.gss - draw(in, 1)) <= DCCP_FATE_DELIVERED_CORRUPT, "a fate that is none");
    require(dccp_listener_longest_data(&s.listener, peer, draw(in, 2)) <= DCCP_MOST_DATA_BYTES, "data that are too long");
    if (dccp_listener_number(&own, &(dccp_key){{0}}, peer, s.now, &number) == DCCP_OK) require(number >> 48 == 0, "a number that is none");
    (void)dccp_listener_name(&own, &path, (uint16_t)draw(in, 2), peer);
}

/* Takes data of a flow that wait: then one fewer do. */
static void read_of_flow(const dccp_peer *peer) {
    static dccp_data data;
    size_t waited = dccp_listener_held(&s.listener, peer);
    dccp_status status = dccp_listener_read(&s.listener, peer, &data);
    require((status == DCCP_OK) == (waited != 0) && data.length <= DCCP_MOST_READ_BYTES, "data of a flow that wait otherwise");
    require(dccp_listener_held(&s.listener, peer) + (status == DCCP_OK) == waited, "data of a flow that are not taken");
}

static void call_listener(int call, struct input *in) {
    static uint8_t bytes[DCCP_MOST_FRAME_BYTES + 2];
    dccp_peer peer = {.address = {10, 0, 0, 1}, .port = (uint16_t)(1 + draw(in, 1) % PEERS)};
    dccp_told told = {0};
    dccp_wish wishes[2] = {0};
    dccp_settings settings;
    dccp_flow_rules rules;
    size_t length;
    dccp_status status;
    s.frame.length = 0;
    switch (call) {
        case 0:
            settings = settings_of(true, in);
            length = wishes_of(in, wishes);
            (void)dccp_listener_make(&s.listener, &settings, NULL, 0, wishes, length, (uint16_t)(draw(in, 1) % 5));
            return;
        case 1:
            length = datagram_of(in, LISTENER, peer.port, bytes);
            (void)dccp_listener_asks(&s.listener, &peer, bytes, length, &(uint32_t){0});
            (void)dccp_listener_refuse(&s.listener, &peer, bytes, length, (uint8_t)draw(in, 1), s.now, &s.frame);
            return;
        case 2:
        case 3:
        case 4:
            length = datagram_of(in, LISTENER, peer.port, bytes);
            status = dccp_listener_arrive(&s.listener, &peer, 2000, bytes, length, s.now, &s.frame, &told);
            if (status == DCCP_OK) judge(11, LISTENER, status, NULL);
            judge_told(LISTENER, status, &told, length);
            require(dccp_listener_way(&s.listener) <= DCCP_WAY_UNOPENED, "a way that is none");
            require(dccp_listener_flows(&s.listener) <= 4, "flows that are too many");
            return;
        case 5: judge(12, LISTENER, dccp_listener_send(&s.listener, &peer, bytes, draw(in, 2) % 1026, s.now, &s.frame), NULL); return;
        case 6: judge(13, LISTENER, dccp_listener_close(&s.listener, &peer, s.now, &s.frame), NULL); return;
        case 7: judge(14, LISTENER, dccp_listener_abort(&s.listener, &peer, s.now, &s.frame), NULL); return;
        case 8:
            (void)(draw(in, 1) ? dccp_listener_next_peer(&s.listener, &peer) : dccp_listener_first_peer(&s.listener, &peer));
            (void)dccp_listener_evicted(&s.listener, &peer);
            (void)dccp_listener_timer(&s.listener, &peer, (uint32_t)draw(in, 1), s.now, &s.frame);
            (void)dccp_listener_life(&s.listener, &peer, &(dccp_flow_life)DCCP_FLOW_LIFE_INIT);
            return;
        case 9:
            (void)dccp_listener_forget(&s.listener, &peer, s.now);
            (void)dccp_listener_shut(&s.listener, draw(in, 1) % 4 == 0);
            (void)dccp_listener_set_user(&s.listener, &peer, draw(in, 2));
            (void)dccp_listener_event(&s.listener, &(dccp_event)DCCP_EVENT_INIT);
            if (draw(in, 1) % 8 == 0) (void)dccp_listener_stop_reading(&s.listener, &peer);
            read_of_flow(&peer);
            return;
        case 10:
            rules = (dccp_flow_rules){.size = sizeof rules, .respond = draw(in, 2), .crowded = draw(in, 2), .closing = draw(in, 2)};
            rules.idle = draw(in, 2);
            rules.answers = (uint16_t)draw(in, 2);
            rules.resets = (uint16_t)draw(in, 2);
            rules.makes_room = draw(in, 1) & 1;
            rules.ends_old_flows = draw(in, 1) & 1;
            rules.cookies = (uint8_t)(draw(in, 1) % 4);
            (void)dccp_listener_rules(&s.listener, &rules);
            if (draw(in, 1) & 1) (void)dccp_listener_rekey(&s.listener, &(dccp_key){{7}}, s.now);
            return;
        case 11: {
            uint32_t feature = (uint32_t)draw(in, 1);
            uint64_t values[2] = {draw(in, 2), draw(in, 2)};
            judge(16, LISTENER, dccp_listener_prefer(&s.listener, &peer, feature, draw(in, 1) & 1, values, draw(in, 1) % 3, s.now, &s.frame), NULL);
            judge(17, LISTENER, dccp_listener_feature(&s.listener, &peer, feature, draw(in, 1) & 1, &(dccp_feature_state){0}), NULL);
            return;
        }
        case 12: read_listener(&peer, in); return;
        default: judge(15, LISTENER, dccp_listener_tick(&s.listener, s.now, &peer, &s.frame), NULL); return;
    }
}

int LLVMFuzzerTestOneInput(const uint8_t *data, size_t size) {
    struct input in = {.next = data, .past = data + size};
    memset(&s, 0, sizeof s);
    while (in.next != in.past) {
        uint8_t call = (uint8_t)draw(&in, 1);
        s.now += call >> 7 ? draw(&in, 2) : 1;
        int who = (call & 0x7f) % 3;
        if (who == LISTENER)
            call_listener((call & 0x7f) / 3 % 14, &in);
        else
            call_end((call & 0x7f) / 3 % 14, who, &in);
        (void)dccp_until_first(&s.ends[CLIENT], s.now);
        (void)dccp_listener_until_first(&s.listener, s.now);
    }
    dccp_free(&s.ends[CLIENT]);
    dccp_free(&s.ends[SERVER]);
    dccp_listener_free(&s.listener);
    return 0;
}
