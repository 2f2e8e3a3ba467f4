/* What runs beside the kernel under test: a bridge that carries IP packets between a tun device and a serial port, and ends of DCCP sockets that
 * count what they send and receive. It is linked statically and needs nothing but the kernel.
 *
 *   peer bridge PORT              carries packets between the device dccp0 and the port, each with its length in two bytes before it
 *   peer client ADDRESS PORT ..   connects, plays, and prints one line of counts
 *   peer server PORT ..           listens, plays the first connection, and prints one line of counts
 *
 * Words of both ends, each with a value:
 *   service N  send N  size N  gap MILLISECONDS   what is sent: N packets of that size, each with its number in the first four bytes
 *   receive N      is done once so many came            wait SECONDS   gives up then
 *   after N        sends nothing before so many came     ccid 3,2       asks for these, best first
 *   close own      closes once done; close peer waits for the other end's close; close abort resets
 *   quiet MILLISECONDS   how long it waits before it closes      family 6       over IPv6      port N        a client's own port
 */
#include <arpa/inet.h>
#include <errno.h>
#include <fcntl.h>
#include <linux/dccp.h>
#include <linux/if.h>
#include <linux/if_tun.h>
#include <netinet/in.h>
#include <poll.h>
#include <stdbool.h>
#include <stdint.h>
#include <stdio.h>
#include <stdlib.h>
#include <string.h>
#include <sys/ioctl.h>
#include <sys/socket.h>
#include <time.h>
#include <unistd.h>

#ifndef SOL_DCCP
#define SOL_DCCP 269
#endif

enum { MOST_PACKET = 65535, MOST_INDEX = 1 << 20 };

struct plan {
    uint32_t service, send, size, gap, receive, after, wait, quiet, port;
    bool is_v6;
    enum { OWN, PEER, ABORT } close;
    uint8_t ccids[4];
    uint32_t ccid_count;
};

struct counts {
    uint32_t sent, received, repeated, strange;
    uint64_t bytes;
    int fault;
    const char *end;
};

static uint64_t milliseconds(void)
{
    struct timespec now;
    clock_gettime(CLOCK_MONOTONIC, &now);
    return (uint64_t)now.tv_sec * 1000 + (uint64_t)now.tv_nsec / 1000000;
}

static void stop(const char *what)
{
    printf("fault %s: %s\n", what, strerror(errno));
    exit(1);
}

static bool read_whole(int port, uint8_t *at, size_t length)
{
    while (length) {
        ssize_t some = read(port, at, length);
        if (some <= 0) {
            if (some < 0 && errno == EINTR)
                continue;
            /* The port's other end is not there yet. */
            usleep(10000);
            continue;
        }
        at += some;
        length -= (size_t)some;
    }
    return true;
}

static void write_whole(int port, const uint8_t *at, size_t length)
{
    while (length) {
        ssize_t some = write(port, at, length);
        if (some < 0 && errno != EINTR && errno != EAGAIN)
            stop("port");
        if (some > 0) {
            at += some;
            length -= (size_t)some;
        }
    }
}

static _Noreturn void bridge(const char *path)
{
    static uint8_t packet[2 + MOST_PACKET];
    struct ifreq device = {.ifr_flags = IFF_TUN | IFF_NO_PI};
    int tun = open("/dev/net/tun", O_RDWR), port = open(path, O_RDWR);
    strcpy(device.ifr_name, "dccp0");
    if (tun < 0 || port < 0 || ioctl(tun, TUNSETIFF, &device) < 0)
        stop("bridge");
    if (fork() == 0)
        for (;;) {
            read_whole(port, packet, 2);
            size_t length = (size_t)packet[0] << 8 | packet[1];
            read_whole(port, packet, length);
            if (write(tun, packet, length) < 0)
                continue;
        }
    for (;;) {
        ssize_t length = read(tun, packet + 2, MOST_PACKET);
        if (length <= 0)
            continue;
        packet[0] = (uint8_t)(length >> 8);
        packet[1] = (uint8_t)length;
        write_whole(port, packet, 2 + (size_t)length);
    }
}

static struct plan planned(char **words)
{
    struct plan plan = {.service = 42, .size = 100, .wait = 30, .quiet = 1000, .close = PEER};
    for (; words[0]; words += 2) {
        const char *word = words[0], *value = words[1];
        if (!value)
            stop("words");
        uint32_t number = (uint32_t)strtoul(value, NULL, 10);
        if (!strcmp(word, "service"))
            plan.service = number;
        else if (!strcmp(word, "send"))
            plan.send = number;
        else if (!strcmp(word, "size"))
            plan.size = number < 4 ? 4 : number;
        else if (!strcmp(word, "gap"))
            plan.gap = number;
        else if (!strcmp(word, "receive"))
            plan.receive = number;
        else if (!strcmp(word, "wait"))
            plan.wait = number;
        else if (!strcmp(word, "quiet"))
            plan.quiet = number;
        else if (!strcmp(word, "port"))
            plan.port = number;
        else if (!strcmp(word, "after"))
            plan.after = number;
        else if (!strcmp(word, "family"))
            plan.is_v6 = number == 6;
        else if (!strcmp(word, "close"))
            plan.close = !strcmp(value, "own") ? OWN : !strcmp(value, "abort") ? ABORT : PEER;
        else if (!strcmp(word, "ccid"))
            for (const char *at = value; at && plan.ccid_count < 4; at = strchr(at, ',') ? strchr(at, ',') + 1 : NULL)
                plan.ccids[plan.ccid_count++] = (uint8_t)strtoul(at, NULL, 10);
        else
            stop(word);
    }
    return plan;
}

static int made(const struct plan *plan)
{
    int end = socket(plan->is_v6 ? AF_INET6 : AF_INET, SOCK_DCCP, IPPROTO_DCCP);
    uint32_t service = htonl(plan->service);
    if (end < 0 || setsockopt(end, SOL_DCCP, DCCP_SOCKOPT_SERVICE, &service, sizeof service) < 0)
        stop("socket");
    if (plan->ccid_count && setsockopt(end, SOL_DCCP, DCCP_SOCKOPT_CCID, plan->ccids, plan->ccid_count) < 0)
        stop("ccid");
    int yes = 1, room = 8 << 20;
    setsockopt(end, SOL_SOCKET, SO_REUSEADDR, &yes, sizeof yes);
    /* What waits to be read is never dropped for want of room: a lost packet would be no fault of either end. */
    setsockopt(end, SOL_SOCKET, SO_RCVBUFFORCE, &room, sizeof room);
    return end;
}

static socklen_t place(struct sockaddr_storage *at, bool is_v6, const char *address, uint16_t port)
{
    memset(at, 0, sizeof *at);
    if (is_v6) {
        struct sockaddr_in6 *six = (struct sockaddr_in6 *)at;
        six->sin6_family = AF_INET6;
        six->sin6_port = htons(port);
        if (address)
            inet_pton(AF_INET6, address, &six->sin6_addr);
        return sizeof *six;
    }
    struct sockaddr_in *four = (struct sockaddr_in *)at;
    four->sin_family = AF_INET;
    four->sin_port = htons(port);
    if (address)
        inet_pton(AF_INET, address, &four->sin_addr);
    return sizeof *four;
}

/* Takes all that has come. Returns whether the connection goes on. */
static bool hear(int end, struct counts *counts)
{
    static uint8_t packet[MOST_PACKET], seen[MOST_INDEX / 8];
    for (;;) {
        ssize_t length = recv(end, packet, sizeof packet, MSG_DONTWAIT);
        if (length < 0 && (errno == EAGAIN || errno == EINTR))
            return true;
        if (length < 0 && errno == EMSGSIZE)
            continue;
        if (length <= 0) {
            counts->fault = length < 0 ? errno : 0;
            counts->end = length < 0 ? "fault" : "closed";
            return false;
        }
        uint32_t index = 0;
        counts->received++;
        counts->bytes += (uint64_t)length;
        if (length < 4 || (memcpy(&index, packet, 4), index = ntohl(index)) >= MOST_INDEX) {
            counts->strange++;
            continue;
        }
        counts->repeated += seen[index / 8] >> (index % 8) & 1;
        seen[index / 8] |= (uint8_t)(1 << (index % 8));
        for (ssize_t at = 4; at < length; at++)
            if (packet[at] != (uint8_t)(index + (uint32_t)at)) {
                counts->strange++;
                break;
            }
    }
}

static void speak(int end, const struct plan *plan, struct counts *counts)
{
    static uint8_t packet[MOST_PACKET];
    uint32_t index = htonl(counts->sent);
    memcpy(packet, &index, 4);
    for (uint32_t at = 4; at < plan->size; at++)
        packet[at] = (uint8_t)(counts->sent + at);
    if (send(end, packet, plan->size, MSG_DONTWAIT) >= 0)
        counts->sent++;
    else if (errno != EAGAIN) {
        counts->fault = errno;
        counts->end = "fault";
    }
}

static void play(int end, const struct plan *plan)
{
    struct counts counts = {.end = "time"};
    uint64_t limit = milliseconds() + plan->wait * 1000u, next = 0, quiet = 0;
    while (milliseconds() < limit) {
        if (!hear(end, &counts))
            break;
        bool may_speak = counts.received >= plan->after;
        if (may_speak && counts.sent < plan->send && milliseconds() >= next) {
            uint32_t before = counts.sent;
            speak(end, plan, &counts);
            if (!strcmp(counts.end, "fault"))
                break;
            if (counts.sent > before) {
                next = milliseconds() + plan->gap;
                continue;
            }
        }
        bool is_done = counts.sent >= plan->send && counts.received >= plan->receive;
        if (is_done && plan->close != PEER) {
            /* What is still queued goes out before the close. */
            quiet = quiet ? quiet : milliseconds() + plan->quiet;
            if (milliseconds() >= quiet) {
                counts.end = "own";
                break;
            }
        }
        struct pollfd ready = {.fd = end, .events = POLLIN};
        poll(&ready, 1, counts.sent < plan->send || plan->quiet < 100 ? 1 : 20);
    }
    if (plan->close == ABORT) {
        struct linger at_once = {.l_onoff = 1};
        setsockopt(end, SOL_SOCKET, SO_LINGER, &at_once, sizeof at_once);
    }
    close(end);
    printf("counts sent %u received %u repeated %u strange %u bytes %llu end %s errno %d\n", counts.sent, counts.received, counts.repeated,
           counts.strange, (unsigned long long)counts.bytes, counts.end, counts.fault);
}

static int client(const char *address, uint16_t port, char **words)
{
    struct plan plan = planned(words);
    struct sockaddr_storage there;
    int end = made(&plan);
    if (plan.port) {
        socklen_t own = place(&there, plan.is_v6, NULL, (uint16_t)plan.port);
        if (bind(end, (struct sockaddr *)&there, own) < 0)
            stop("bind");
    }
    socklen_t length = place(&there, plan.is_v6, address, port);
    fcntl(end, F_SETFL, O_NONBLOCK);
    if (connect(end, (struct sockaddr *)&there, length) < 0 && errno != EINPROGRESS)
        stop("connect");
    struct pollfd ready = {.fd = end, .events = POLLOUT};
    int fault = 0;
    socklen_t size = sizeof fault;
    if (poll(&ready, 1, (int)plan.wait * 1000) <= 0) {
        printf("refused timeout\n");
        return 0;
    }
    getsockopt(end, SOL_SOCKET, SO_ERROR, &fault, &size);
    if (fault) {
        printf("refused %s\n", strerror(fault));
        return 0;
    }
    play(end, &plan);
    return 0;
}

static int server(uint16_t port, char **words)
{
    struct plan plan = planned(words);
    struct sockaddr_storage here;
    int listening = made(&plan);
    socklen_t length = place(&here, plan.is_v6, NULL, port);
    if (bind(listening, (struct sockaddr *)&here, length) < 0 || listen(listening, 4) < 0)
        stop("listen");
    printf("listening\n");
    fflush(stdout);
    struct pollfd ready = {.fd = listening, .events = POLLIN};
    if (poll(&ready, 1, (int)plan.wait * 1000) <= 0) {
        printf("refused timeout\n");
        return 0;
    }
    int end = accept(listening, NULL, NULL);
    if (end < 0)
        stop("accept");
    close(listening);
    fcntl(end, F_SETFL, O_NONBLOCK);
    play(end, &plan);
    return 0;
}

int main(int count, char **words)
{
    if (count > 2 && !strcmp(words[1], "bridge"))
        bridge(words[2]);
    if (count > 3 && !strcmp(words[1], "client"))
        return client(words[2], (uint16_t)atoi(words[3]), words + 4);
    if (count > 2 && !strcmp(words[1], "server"))
        return server((uint16_t)atoi(words[2]), words + 3);
    fprintf(stderr, "usage: peer bridge PORT | client ADDRESS PORT .. | server PORT ..\n");
    return 2;
}
