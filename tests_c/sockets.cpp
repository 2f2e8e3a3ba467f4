// Sockets in C++ on this machine, a client and a server in one thread: what is reported, counted and refused, a line for each that is otherwise.
#include <arpa/inet.h>
#include <netdb.h>
#include <sys/socket.h>
#include <unistd.h>

#include <array>
#include <cstdio>
#include <map>
#include <string>
#include <utility>
#include <vector>

#include "dccp.hpp"

using namespace std::chrono_literals;

static int wrong;

static void same(const char *what, long long wanted, long long found) {
    if (wanted == found) return;
    std::printf("%s: wanted %lld, found %lld\n", what, wanted, found);
    wrong = 1;
}

// A client and a server, and what each was told, in order.
struct pair {
    dccp::socket server, client;
    std::vector<dccp::event> of_server = {}, of_client = {};
    std::vector<std::string> to_server = {}, to_client = {};

    // Polls both until neither is told anything for 20 ms.
    void settle() {
        for (bool is_told = true; is_told;) {
            is_told = false;
            while (auto event = server.poll(20ms)) {
                of_server.push_back(*event);
                if (event->kind == DCCP_EVENT_DATA) to_server.emplace_back(event->data.text());
                is_told = true;
            }
            while (auto event = client.poll(20ms)) {
                of_client.push_back(*event);
                if (event->kind == DCCP_EVENT_DATA) to_client.emplace_back(event->data.text());
                is_told = true;
            }
        }
    }
};

static pair open_pair(const dccp::options &options, uint32_t service = 42) {
    auto server = dccp::socket::listen("127.0.0.1", "0", {7, 42}, options);
    auto client = dccp::socket::connect("127.0.0.1", std::to_string(server.port()), service, options);
    pair both{std::move(server), std::move(client)};
    both.settle();
    return both;
}

static void a_conversation() {
    pair both = open_pair({});
    same("events of the client", 1, static_cast<long long>(both.of_client.size()));
    auto client = both.client.connection();
    same("a connection", true, client.has_value());
    same("data", DCCP_OK, client->send("hello"));
    same("data of none", DCCP_OK, client->send(dccp::bytes()));
    same("data of a container", DCCP_OK, client->send(std::array<char, 3>{'a', 'b', 'c'}));
    both.settle();
    same("what came", 3, static_cast<long long>(both.to_server.size()));
    same("the first", true, both.to_server[0] == "hello" && both.to_server[1].empty() && both.to_server[2] == "abc");
    auto server = both.of_server.at(0).connection;
    same("it was told to open first", DCCP_EVENT_OPENED, both.of_server.at(0).kind);
    int number = 5;
    server.set_user(&number);
    same("the owner's pointer", 5, *server.user<int>());
    same("an answer", DCCP_OK, server.send("answer"));
    both.settle();
    same("the answer", true, both.to_client.at(0) == "answer");
    same("packets that the server took", 3, static_cast<long long>(server.statistics().received.data));
    same("their bytes", 8, static_cast<long long>(server.statistics().received.data_bytes));
    same("packets that the server sent", 1, static_cast<long long>(server.statistics().sent.data));
    same("the Sequence Window", 10000, static_cast<long long>(client->feature(DCCP_FEATURE_SEQUENCE_WINDOW).value));
    server.prefer(DCCP_FEATURE_SEQUENCE_WINDOW, {900});
    both.settle();
    same("a wider one", 900, static_cast<long long>(client->feature(DCCP_FEATURE_SEQUENCE_WINDOW, true).value));
    same("nothing in flight", 0, client->look().in_flight);
    same("what became of the last packet", DCCP_FATE_DELIVERED, client->fate(client->last_sent()));
    same("and of none", DCCP_FATE_UNKNOWN, client->fate(client->last_sent() + 1));
    same("what was lost", 0, static_cast<long long>(client->statistics().lost));
    same("the longest data", 1024, static_cast<long long>(client->longest_data(1232)));
    client->close();
    both.settle();
    same("the client's end", true, both.of_client.back().kind == DCCP_EVENT_ENDED && both.of_client.back().is_orderly());
    same("the server's end", true, both.of_server.back().kind == DCCP_EVENT_ENDED && both.of_server.back().is_orderly());
    same("no connection any more", false, both.client.connection().has_value());
    same("nothing more to wait for", false, both.client.poll().has_value());
}

// A fixed window of eight packets (CCID 248): the ninth finds no room, which is told once there is some.
static void a_full_window() {
    pair both = open_pair({{dccp::offer(DCCP_FEATURE_CCID, {248})}});
    auto client = both.client.connection();
    for (int sent = 0; sent < 8; sent++) same("one of eight", DCCP_OK, client->send("x"));
    same("the ninth", DCCP_WINDOW_FULL, client->send("x"));
    both.settle();
    same("news of room", DCCP_EVENT_ROOM, both.of_client.back().kind);
    same("the ninth again", DCCP_OK, client->send("x"));
    client->abort();
    both.settle();
    same("the end of the client", DCCP_END_ABORTED, both.of_client.back().cause);
    same("the code at the server", 2, both.of_server.back().code);
}

// A server whose one place is taken by a connection that is open: another client is told so, and a third gets the place once it is free.
static void a_full_server() {
    dccp::options one;
    one.most = 1;
    pair both = open_pair(one);
    same("the first opens", DCCP_EVENT_OPENED, both.of_client.at(0).kind);
    same("its word, by which it opens there too", DCCP_OK, both.client.connection()->send("x"));
    both.settle();
    const std::string port = std::to_string(both.server.port());
    pair late{std::move(both.server), dccp::socket::connect("127.0.0.1", port, 42)};
    late.settle();
    same("the second ends", DCCP_EVENT_ENDED, late.of_client.at(0).kind);
    same("the code: Too Busy", 9, late.of_client.at(0).code);
    both.client.connection()->abort();
    late.settle();
    pair next{std::move(late.server), dccp::socket::connect("127.0.0.1", port, 42)};
    for (int turn = 0; turn < 60 && next.of_client.empty(); turn++) next.settle();
    same("the third opens", DCCP_EVENT_OPENED, next.of_client.at(0).kind);
}

// A socket that is freed aborts its connection, of which the peer hears (Reset Code 2, Aborted: RFC 4340, section 5.6).
static void a_socket_that_goes() {
    pair both = open_pair({});
    same("a word, by which it opens there too", DCCP_OK, both.client.connection()->send("x"));
    both.settle();
    both.client = dccp::socket::connect("127.0.0.1", std::to_string(both.server.port()), 42);
    both.settle();
    same("the end of the first", DCCP_EVENT_ENDED, both.of_server.at(2).kind);
    same("its code", 2, both.of_server.at(2).code);
    same("the second opens", DCCP_EVENT_OPENED, both.of_client.back().kind);
}

// The address of a port of this machine, whose last byte is 1 if it is not another.
static sockaddr_in loopback(uint16_t port, uint8_t last = 1) {
    sockaddr_in it{};
    it.sin_family = AF_INET;
    it.sin_port = htons(port);
    it.sin_addr.s_addr = htonl(0x7f000000u | last);
    return it;
}

// A socket of the system at a port of this machine, or at any.
static int bare_socket(uint16_t port = 0, uint8_t last = 1) {
    const sockaddr_in here = loopback(port, last);
    const int made = ::socket(AF_INET, SOCK_DGRAM, 0);
    same("a bare socket", 0, ::bind(made, reinterpret_cast<const sockaddr *>(&here), sizeof here));
    return made;
}

static uint16_t port_of(int made) {
    sockaddr_in here{};
    socklen_t size = sizeof here;
    same("its name", 0, ::getsockname(made, reinterpret_cast<sockaddr *>(&here), &size));
    return ntohs(here.sin_port);
}

static uint64_t milliseconds() {
    using namespace std::chrono;
    return static_cast<uint64_t>(duration_cast<std::chrono::milliseconds>(steady_clock::now().time_since_epoch()).count());
}

// An end over such a socket, without a dccp::socket, so that it can be gone without a word: a client, or a server of the first that asks.
class bare_end {
  public:
    bare_end(int made, uint16_t peer, uint64_t first, uint8_t last = 1) : made_(made), there_(loopback(peer)) {
        settings_.own_address[0] = settings_.peer_address[0] = 127;
        settings_.own_address[3] = last;
        settings_.peer_address[3] = 1;
        settings_.own_port = port_of(made);
        settings_.peer_port = peer;
        settings_.first_number = first;
        settings_.service = 7;
        if (peer == 0) return;
        it = dccp::end(settings_);
        same("its open", DCCP_OK, it.open(milliseconds()));
        hand_over();
    }

    // Hears what has come, and does what is due.
    void turn() {
        uint8_t room[2048];
        dccp_told told{};
        socklen_t size = sizeof there_;
        ssize_t length;
        while (0 < (length = ::recvfrom(made_, room, sizeof room, MSG_DONTWAIT, reinterpret_cast<sockaddr *>(&there_), &size))) {
            const dccp::bytes datagram(room, static_cast<size_t>(length));
            settings_.peer_port = ntohs(there_.sin_port);
            if (it)
                it.receive(datagram, milliseconds(), told);
            else
                it.accept(settings_, {}, datagram, milliseconds(), told);
            hand_over();
        }
        while (it && it.tick(milliseconds()) == DCCP_OK) hand_over();
    }

    dccp_status send(dccp::bytes data) {
        const dccp_status status = it.send(data, milliseconds());
        hand_over();
        return status;
    }

    dccp::end it;

  private:
    void hand_over() {
        const auto frame = it.frame();
        if (!frame.empty()) (void)!::sendto(made_, frame.data(), frame.size(), 0, reinterpret_cast<sockaddr *>(&there_), sizeof there_);
    }

    int made_;
    sockaddr_in there_;
    dccp_settings settings_ DCCP_SETTINGS_INIT;
};

// The events of a server while a bare client sends data, which it does as soon as it may, and until they came.
static std::vector<dccp::event> events_until(dccp::socket &server, bare_end &client, const char *data) {
    std::vector<dccp::event> all;
    const auto last = std::chrono::steady_clock::now() + 20s;
    for (bool is_sent = false, came = false; !came && std::chrono::steady_clock::now() < last;) {
        client.turn();
        is_sent = is_sent || client.send(data) == DCCP_OK;
        while (auto event = server.poll(2ms)) {
            came = came || (event->kind == DCCP_EVENT_DATA && event->data.text() == data);
            all.push_back(*event);
        }
    }
    return all;
}

static void kinds(const char *what, const std::vector<dccp_event_kind> &wanted, const std::vector<dccp::event> &found) {
    same(what, static_cast<long long>(wanted.size()), static_cast<long long>(found.size()));
    for (size_t at = 0; at < wanted.size() && at < found.size(); at++) same(what, wanted[at], found[at].kind);
}

// A client is killed, and comes back from its port, while the server still sends to it. By RFC 4340, section 8.5, it answers the Sync of its old
// connection's end with a Reset, whereupon that is over, and its next Request opens another connection.
static void a_client_that_comes_back() {
    dccp::options one;
    one.most = 1;
    auto server = dccp::socket::listen("127.0.0.1", "0", {42, 7}, one);
    const int made = bare_socket();
    auto first = std::make_unique<bare_end>(made, server.port(), 1000);
    const auto opened = events_until(server, *first, "first");
    kinds("the first", {DCCP_EVENT_OPENED, DCCP_EVENT_DATA}, opened);
    const auto old = opened.at(0).connection;
    same("for which service", 7, old.service());
    const dccp_address peer = old.peer();
    same("from where", true, peer.bytes[0] == 127 && peer.bytes[3] == 1 && !peer.is_v6 && peer.port == port_of(made));
    first.reset();
    same("data for nobody", DCCP_OK, old.send("x"));
    bare_end again(made, server.port(), uint64_t{1} << 40);
    const auto anew = events_until(server, again, "again");
    kinds("the second", {DCCP_EVENT_ENDED, DCCP_EVENT_OPENED, DCCP_EVENT_DATA}, anew);
    same("the old one", true, anew.at(0).connection == old && anew.at(0).cause == DCCP_END_ANEW && !anew.at(0).is_orderly());
    ::close(made);
}

// A server that was started again knows nothing of its clients, and says so by a Reset with code 3 (RFC 4340, section 5.6). That is orderly only
// for an end that had closed.
static void a_server_that_was_started_again(bool closes) {
    const int made = bare_socket();
    const uint16_t port = port_of(made);
    auto server = std::make_unique<bare_end>(made, 0, 2000);
    auto client = dccp::socket::connect("127.0.0.1", std::to_string(port), 7);
    std::optional<dccp::event> told;
    for (int turn = 0; turn < 100 && !told; turn++) {
        server->turn();
        told = client.poll(20ms);
    }
    same("its opening", true, told && told->kind == DCCP_EVENT_OPENED);
    server.reset();
    ::close(made);
    pair both{dccp::socket::listen("127.0.0.1", std::to_string(port), {7}), std::move(client)};
    if (closes)
        both.client.connection()->close();
    else
        same("a word", DCCP_OK, both.client.connection()->send("x"));
    both.settle();
    const auto &end = both.of_client.back();
    same("the end", DCCP_EVENT_ENDED, end.kind);
    same("its code: No Connection", 3, end.code);
    same("its cause", closes ? DCCP_END_RESET : DCCP_END_FORGOTTEN, end.cause);
    same("orderly", closes, end.is_orderly());
}

// One host may have one connection, and another host has its own. 9 is Too Busy (RFC 4340, section 5.6).
static void a_share_for_each_host() {
    dccp::options fair;
    fair.most_per_host = 1;
    auto server = dccp::socket::listen("127.0.0.1", "0", {7}, fair);
    const int one = bare_socket(), other = bare_socket(0, 2);
    const std::string port = std::to_string(server.port());
    // Both ask before either has shown that it hears: the second to open is aborted.
    bare_end first(one, server.port(), 1000);
    const int third = bare_socket();
    bare_end late(third, server.port(), 1000);
    same("nothing is told yet", false, server.poll(50ms).has_value());
    kinds("the first", {DCCP_EVENT_OPENED, DCCP_EVENT_DATA}, events_until(server, first, "first"));
    for (int turn = 0; turn < 100 && late.it.look().phase != DCCP_PHASE_TIMEWAIT; turn++) {
        late.turn();
        (void)late.send("late");
        same("no news of the late one", false, server.poll(5ms).has_value());
    }
    same("the late one was reset", DCCP_PHASE_TIMEWAIT, late.it.look().phase);
    pair both{std::move(server), dccp::socket::connect("127.0.0.1", port, 7)};
    both.settle();
    same("one more of the host", 9, both.of_client.back().code);
    bare_end away(other, both.server.port(), 1000, 2);
    const auto opened = events_until(both.server, away, "away");
    kinds("another host", {DCCP_EVENT_OPENED, DCCP_EVENT_DATA}, opened);
    same("its address", 2, opened.at(0).connection.peer().bytes[3]);
    for (int it : {one, other, third}) ::close(it);
}

// Of six packets to a connection that holds two for its owner, and is not read, four are dropped, and the sender is told of each: Drop Code 2 (RFC
// 4340, section 11.7).
static void data_that_wait() {
    dccp::options holds;
    holds.wishes = {dccp::offer(DCCP_FEATURE_CCID, {248}), dccp::offer(DCCP_FEATURE_CCID, {248}, true)};
    holds.holding = 2;
    pair both = open_pair(holds);
    auto client = *both.client.connection();
    std::vector<uint64_t> numbers;
    for (const char *word : {"one", "two", "x", "x", "x", "x"}) {
        same("one of six", DCCP_OK, client.send(word));
        numbers.push_back(client.last_sent());
    }
    both.settle();
    std::vector<dccp_event_kind> wanted{DCCP_EVENT_OPENED, DCCP_EVENT_WAITS, DCCP_EVENT_WAITS};
    wanted.insert(wanted.end(), 4, DCCP_EVENT_DROPPED);
    kinds("what the server is told", wanted, both.of_server);
    same("the Drop Code", 2, both.of_server.back().code);
    int dropped = 0;
    for (uint64_t number : numbers) dropped += client.fate(number) == DCCP_FATE_DROPPED_FULL;
    same("what the client is told", 4, dropped);
    auto server = both.of_server.at(0).connection;
    same("dropped", 4, static_cast<long long>(server.statistics().unread_dropped));
    same("received", 6, static_cast<long long>(server.statistics().received.data));
    same("bytes", 10, static_cast<long long>(server.statistics().received.data_bytes));
    same("held", 2, static_cast<long long>(server.held()));
    const auto first = server.read();
    same("the first", true, first && dccp::bytes(first->bytes, first->length).text() == "one" && first->number == numbers[0]);
    same("the second", true, server.read().has_value());
    same("no third", false, server.read().has_value());
    server.stop_reading();
    same("one more", DCCP_OK, client.send("x"));
    both.settle();
    same("it is dropped", 1, both.of_server.back().code);
    same("and so no more", DCCP_NOT_LISTENING, client.send("x"));
}

// A relay between a client and a server of this process, which loses every fifth packet of data that goes to the server.
class relay {
  public:
    explicit relay(uint16_t server) : front_(::socket(AF_INET, SOCK_DGRAM, 0)), back_(::socket(AF_INET, SOCK_DGRAM, 0)) {
        sockaddr_in here = loopback(0), there = loopback(server);
        socklen_t size = sizeof here;
        same("a front", 0, ::bind(front_, reinterpret_cast<sockaddr *>(&here), sizeof here));
        same("its name", 0, ::getsockname(front_, reinterpret_cast<sockaddr *>(&here), &size));
        same("a back", 0, ::connect(back_, reinterpret_cast<sockaddr *>(&there), sizeof there));
        port = ntohs(here.sin_port);
    }
    ~relay() {
        ::close(front_);
        ::close(back_);
    }

    // Hands over what has come.
    void pump() {
        uint8_t room[2048];
        socklen_t size = sizeof client_;
        ssize_t length;
        while (0 < (length = ::recvfrom(front_, room, sizeof room, MSG_DONTWAIT, reinterpret_cast<sockaddr *>(&client_), &size))) {
            const int kind = room[8] >> 1 & 15;
            const bool is_data = kind == 2 || kind == 4;
            if (is_data && ++data_ % 5 == 0)
                lost++;
            else
                (void)!::send(back_, room, static_cast<size_t>(length), 0);
        }
        while (0 < (length = ::recv(back_, room, sizeof room, MSG_DONTWAIT)))
            (void)!::sendto(front_, room, static_cast<size_t>(length), 0, reinterpret_cast<sockaddr *>(&client_), sizeof client_);
    }

    uint16_t port;
    int lost = 0;

  private:
    int front_, back_, data_ = 0;
    sockaddr_in client_{};
};

// What became of two hundred packets, of which every fifth is lost: after each that is lost, three later ones come, so all are known but
// the last few.
static void losses() {
    dccp::options named;
    named.client_name = "192.0.2.1 1";
    named.server_name = "192.0.2.2 2";
    named.wishes = {dccp::offer(DCCP_FEATURE_CCID, {248}), dccp::offer(DCCP_FEATURE_CCID, {248}, true)};
    auto server = dccp::socket::listen("127.0.0.1", "0", {42}, named);
    relay between(server.port());
    auto client = dccp::socket::connect("127.0.0.1", std::to_string(between.port), 42, named);
    std::map<uint64_t, dccp_fate> fates;
    int got = 0, sent = 0;
    const auto step = [&] {
        between.pump();
        while (auto event = server.poll(0ms)) got += event->kind == DCCP_EVENT_DATA;
        between.pump();
        while (client.poll(0ms).has_value()) continue;
        for (auto &[number, fate] : fates)
            if (fate == DCCP_FATE_IN_FLIGHT) fate = client.connection()->fate(number);
    };
    const auto last = std::chrono::steady_clock::now() + 30s;
    while (sent < 200 && std::chrono::steady_clock::now() < last) {
        step();
        if (client.connection()->send("x") != DCCP_OK) continue;
        fates[client.connection()->last_sent()] = DCCP_FATE_IN_FLIGHT;
        sent++;
    }
    while (client.connection()->look().in_flight != 0 && std::chrono::steady_clock::now() < last) step();
    std::map<dccp_fate, int> counts;
    for (const auto &[number, fate] : fates) counts[fate]++;
    same("packets", 200, sent);
    same("those that were lost", 40, between.lost);
    same("those that came", 160, got);
    same("those that are told delivered", 160, counts[DCCP_FATE_DELIVERED]);
    same("those that are told lost, or not any more", 40, counts[DCCP_FATE_LOST] + counts[DCCP_FATE_UNKNOWN]);
    same("those that are counted lost", 40, static_cast<long long>(client.connection()->statistics().lost));
}

static void refusals() {
    pair other = open_pair({}, 43);
    same("a service that is not served", 8, other.of_client.back().code);
    same("of which the server hears nothing", 0, static_cast<long long>(other.of_server.size()));
    try {
        open_pair({{dccp::offer(DCCP_FEATURE_SEQUENCE_WINDOW, {31})}});
        same("a wish that is none", 1, 0);
    } catch (const std::system_error &fault) {
        same("a wish that is none", EINVAL, fault.code().value());
    }
    try {
        dccp::socket::connect("127.0.0.1", "no such port", 42);
        same("a port without an address", 1, 0);
    } catch (const std::system_error &fault) {
        // What getaddrinfo says, which POSIX calls EAI_SERVICE or EAI_NONAME, and errno is ENOENT.
        same("a port without an address", true, fault.code().category() == dccp::address_category());
        same("its text", true, fault.code().message() == ::gai_strerror(fault.code().value()));
    }
    pair both = open_pair({{}, "192.0.2.1 1", "2001:db8::1 2"});
    try {
        both.client.connection()->send(std::string(1025, 'x'));
        same("1,025 bytes", 1, 0);
    } catch (const dccp::error &fault) {
        same("1,025 bytes", DCCP_TOO_LONG, fault.status());
    }
    dccp::options impatient;
    impatient.patience = 200ms;
    auto nobody = dccp::socket::connect("127.0.0.1", "9", 42, impatient);
    auto event = nobody.poll(10s);
    same("nobody answers", true, event && event->kind == DCCP_EVENT_ENDED && event->cause == DCCP_END_SILENT);
}

// A client that asks and is silent has the one place of a server; another gets it when it asks again.
static void a_silent_client() {
    dccp::options one;
    one.most = 1;
    auto server = dccp::socket::listen("127.0.0.1", "0", {42}, one);
    sockaddr_in there{}, here{};
    socklen_t size = sizeof here;
    there.sin_family = AF_INET;
    there.sin_port = htons(server.port());
    there.sin_addr.s_addr = htonl(INADDR_LOOPBACK);
    const int silent = ::socket(AF_INET, SOCK_DGRAM, 0);
    same("a socket", 0, ::connect(silent, reinterpret_cast<sockaddr *>(&there), sizeof there));
    same("its name", 0, ::getsockname(silent, reinterpret_cast<sockaddr *>(&here), &size));
    dccp_settings settings DCCP_SETTINGS_INIT;
    settings.own_address[0] = settings.peer_address[0] = 127;
    settings.own_address[3] = settings.peer_address[3] = 1;
    settings.own_port = ntohs(here.sin_port);
    settings.peer_port = server.port();
    settings.service = 42;
    dccp::end asking(settings);
    same("its open", DCCP_OK, asking.open(0));
    const auto request = asking.frame();
    same("its Request", static_cast<long long>(request.size()), ::send(silent, request.data(), request.size(), 0));
    same("no news of it", false, server.poll(100ms).has_value());
    pair both{std::move(server), dccp::socket::connect("127.0.0.1", std::to_string(ntohs(there.sin_port)), 42)};
    for (int turn = 0; turn < 60 && both.of_client.empty(); turn++) both.settle();
    same("the other opens", 1, static_cast<long long>(both.of_client.size()));
    ::close(silent);
}

// A client that closes before its server, which is not there, has answered: it ends at once. A second close does nothing.
static void a_client_that_closes_early() {
    auto client = dccp::socket::connect("127.0.0.1", "9", 42);
    client.connection()->close();
    client.connection()->close();
    const auto told = client.poll(100ms);
    same("its end", DCCP_EVENT_ENDED, told->kind);
    same("by itself", DCCP_END_ABORTED, told->cause);
}

// Two ends without sockets, one of which is moved.
static void ends() {
    dccp_settings here DCCP_SETTINGS_INIT, there DCCP_SETTINGS_INIT;
    here.own_address[0] = here.peer_address[0] = there.own_address[0] = there.peer_address[0] = 10;
    here.own_port = there.peer_port = 1;
    here.peer_port = there.own_port = 2;
    dccp::end client(here, {dccp::offer(DCCP_FEATURE_SEQUENCE_WINDOW, {500})}), server;
    dccp_told told{};
    same("open", DCCP_OK, client.open(0));
    same("a Request", DCCP_OK, server.accept(there, {}, client.frame(), 0, told));
    dccp::end moved = std::move(client);
    same("what was moved", false, static_cast<bool>(client));
    same("a Response", DCCP_OK, moved.receive(server.frame(), 0, told));
    same("its phase", DCCP_PHASE_PARTOPEN, moved.look().phase);
    same("an Ack", DCCP_OK, server.receive(moved.frame(), 0, told));
    same("a client that lives", false, server.begins_anew(moved.frame(), told));
    same("a timer", true, moved.until_first(0).has_value());
    same("its abort", DCCP_OK, moved.abort(0));
}

// A listener of one flow without a socket, and two clients: the second finds no room until the first is forgotten.
static void a_listener() {
    dccp_settings here DCCP_SETTINGS_INIT, other DCCP_SETTINGS_INIT, there DCCP_SETTINGS_INIT;
    here.own_address[0] = here.peer_address[0] = there.own_address[0] = other.own_address[0] = other.peer_address[0] = 10;
    here.own_port = 1;
    other.own_port = 3;
    here.peer_port = other.peer_port = there.own_port = 2;
    dccp::end client(here), late(other);
    dccp::listener server(there, {}, 1);
    const dccp_peer peer{{10, 0, 0, 0}, 1}, second{{10, 0, 0, 0}, 3};
    dccp_told told{};
    same("open", DCCP_OK, client.open(0));
    same("a Request", DCCP_OK, server.arrive(peer, 5, client.frame(), 0, told));
    same("a Response", DCCP_OK, client.receive(server.frame(), 0, told));
    same("its phase", DCCP_PHASE_RESPOND, server.look(peer)->phase);
    same("open", DCCP_OK, late.open(0));
    same("one too many", DCCP_BUSY, server.arrive(second, 5, late.frame(), 0, told));
    same("a flow that goes", DCCP_OK, server.forget(peer, 0));
    same("one of one", DCCP_OK, server.arrive(second, 5, late.frame(), 0, told));
    same("its peer", 3, server.peers().at(0).port);
    same("no flow", DCCP_NO_FLOW, server.send(peer, "x", 0));
    dccp::listener moved = std::move(server);
    same("what was moved", false, static_cast<bool>(server));
    same("its flows", 1, static_cast<long long>(moved.peers().size()));
}

int main() {
    a_conversation();
    a_full_window();
    a_full_server();
    a_socket_that_goes();
    a_client_that_comes_back();
    a_server_that_was_started_again(false);
    a_server_that_was_started_again(true);
    a_share_for_each_host();
    data_that_wait();
    losses();
    refusals();
    a_silent_client();
    a_client_that_closes_early();
    ends();
    a_listener();
    return wrong;
}
