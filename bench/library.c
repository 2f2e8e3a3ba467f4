/* What the library costs, a number a line: the blocks and bytes of memory of dccp_make, the most stack of any call, and the nanoseconds
 * of some calls, each the least of nine measures. */
#include <pthread.h>
#include <stdio.h>
#include <stdlib.h>
#include <string.h>
#include <time.h>

#include "dccp.h"
#include "dccp_heap.h"

/* The heap functions of dccp_heap.h, which count. */
static size_t blocks, bytes;

rattle_block rattle_alloc(size_t size, size_t align) {
    void *at = malloc(size ? size : align);
    blocks++;
    bytes += size;
    return (rattle_block){at != NULL, at ? at : &blocks};
}

rattle_block rattle_realloc(void *old, size_t old_size, size_t size, size_t align) {
    void *at = realloc(old, size ? size : align);
    blocks++;
    bytes += size - old_size;
    return (rattle_block){at != NULL, at ? at : old};
}

void rattle_dealloc(void *at) { free(at); }

static void check(uint32_t status) {
    if (status == DCCP_OK) return;
    fprintf(stderr, "library: status %u\n", (unsigned)status);
    exit(1);
}

static double now(void) {
    struct timespec t;
    clock_gettime(CLOCK_MONOTONIC, &t);
    return (double)t.tv_sec * 1e9 + (double)t.tv_nsec;
}

static dccp_end client = DCCP_NONE, server = DCCP_NONE;
static dccp_frame frame;
static dccp_told told;
static uint8_t data[DCCP_MOST_DATA_BYTES];

static void make(dccp_end *end, bool is_server) {
    dccp_settings settings = {.size = sizeof settings,
                              .own_address = {192, 0, 2, 1},
                              .peer_address = {192, 0, 2, 1},
                              .first_number = 1000,
                              .service = 42,
                              .own_port = is_server ? 5001 : 40000,
                              .peer_port = is_server ? 40000 : 5001,
                              .is_server = is_server};
    dccp_wish none = {.count = 0};
    check(dccp_make(end, &settings, &none, 0));
}

static void connect_both(void) {
    make(&client, false);
    make(&server, true);
    check(dccp_open(&client, 0, &frame));
    for (dccp_end *to = &server; frame.length; to = to == &server ? &client : &server) {
        dccp_frame given = frame;
        check(dccp_receive(to, given.bytes, given.length, 0, &frame, &told));
    }
}

static void look(void) {
    dccp_view view = DCCP_VIEW_INIT;
    check(dccp_look(&client, &view));
}

/* A timer of no number is refused before the end is touched, and another does nothing in this phase. */
static void refused(void) { dccp_timer(&client, 6, 0, &frame); }
static void idle(void) { dccp_timer(&client, DCCP_TIMER_CLOSE, 0, &frame); }

static void made(void) {
    dccp_end end = DCCP_NONE;
    make(&end, false);
    dccp_free(&end);
}

/* Two packets go to the server, and its Ack comes back. */
static void two_packets(size_t length) {
    for (int it = 0; it < 2; it++) {
        dccp_frame given;
        check(dccp_send(&client, data, length, 0, &given));
        check(dccp_receive(&server, given.bytes, given.length, 0, &frame, &told));
    }
    dccp_frame given = frame;
    if (given.length == 0) check(dccp_timer(&server, DCCP_TIMER_ACK, 0, &given));
    check(dccp_receive(&client, given.bytes, given.length, 0, &frame, &told));
}

static void of_no_bytes(void) { two_packets(0); }
static void of_1024_bytes(void) { two_packets(sizeof data); }

static void time_of(const char *name, void (*turn)(void), int turns, int each) {
    double least = 1e18;
    for (int it = 0; it < 9; it++) {
        double begun = now();
        for (int at = 0; at < turns; at++) turn();
        double one = (now() - begun) / turns / each;
        if (one < least) least = one;
    }
    printf("%s %.0f ns\n", name, least);
}

/* A thread's stack, filled with a byte that calls then overwrite from its end on. */
static uint8_t stack[1 << 20] __attribute__((aligned(4096)));

static size_t touched(void *(*work)(void *)) {
    pthread_t thread;
    pthread_attr_t how;
    memset(stack, 0xa5, sizeof stack);
    pthread_attr_init(&how);
    if (pthread_attr_setstack(&how, stack, sizeof stack) != 0 || pthread_create(&thread, &how, work, NULL) != 0) exit(1);
    pthread_join(thread, NULL);
    size_t at = 0;
    while (stack[at] == 0xa5) at++;
    return sizeof stack - at;
}

static void *nothing(void *none) { return none; }

static void *make_alone(void *none) {
    made();
    return none;
}

static void *every_call(void *none) {
    dccp_view view = DCCP_VIEW_INIT;
    dccp_feature_state state;
    uint64_t width = 500;
    connect_both();
    for (int it = 0; it < 100; it++) of_1024_bytes();
    check(dccp_prefer(&client, DCCP_FEATURE_SEQUENCE_WINDOW, false, &width, 1, 0, &frame));
    dccp_frame given = frame;
    check(dccp_receive(&server, given.bytes, given.length, 0, &frame, &told));
    check(dccp_look(&client, &view));
    check(dccp_feature(&client, DCCP_FEATURE_CCID, false, &state));
    check(dccp_timer(&server, DCCP_TIMER_ACK, 0, &frame));
    check(dccp_close(&client, 0, &frame));
    check(dccp_abort(&server, 0, &frame));
    return none;
}

int main(void) {
    make(&client, false);
    printf("blocks of an end %zu\nbytes of an end %zu\n", blocks, bytes);
    size_t empty = touched(nothing);
    printf("stack of making %zu\n", touched(make_alone) - empty);
    printf("stack of any call, with a frame of the caller %zu\n", touched(every_call) - empty);
    connect_both();
    time_of("look", look, 1000000, 1);
    time_of("refused timer", refused, 1000000, 1);
    time_of("idle timer", idle, 1000000, 1);
    time_of("make and free", made, 10000, 1);
    time_of("packet of 0 bytes, with its share of an Ack", of_no_bytes, 100000, 2);
    time_of("packet of 1024 bytes, with its share of an Ack", of_1024_bytes, 100000, 2);
    return 0;
}
