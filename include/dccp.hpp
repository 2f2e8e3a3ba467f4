// DCCP for C++17: values that own what dccp.h and dccp_socket.h make, spans in place of pointers with lengths, and exceptions.
//
// A dccp::socket is a client or a server over the system's UDP, without a thread (dccp_socket.c has to be linked). A dccp::end is one end, and
// a dccp::listener a server of many peers, without socket and clock, for a program with its own loop. A failure that a peer may cause, such as
// sending over a full window, is returned; a mistake, or a lack of memory, is thrown.
//
//     auto socket = dccp::socket::connect("192.0.2.1", "5001", 42);
//     while (auto event = socket.poll()) {
//         if (event->kind == DCCP_EVENT_OPENED) event->connection.send("hello");
//         if (event->kind == DCCP_EVENT_DATA) take(event->data);
//         if (event->kind == DCCP_EVENT_ENDED) break;
//     }
#ifndef DCCP_HPP
#define DCCP_HPP

#include <cerrno>
#include <chrono>
#include <cstdint>
#include <initializer_list>
#include <memory>
#include <optional>
#include <stdexcept>
#include <string>
#include <string_view>
#include <system_error>
#include <utility>
#include <vector>

#include "dccp.h"
#include "dccp_socket.h"

namespace dccp {

// A view of bytes that somebody else keeps, from anything with data() and size() of bytes or characters.
class bytes {
  public:
    constexpr bytes() = default;
    constexpr bytes(const uint8_t *data, std::size_t size) : data_(data), size_(size) {}
    bytes(std::string_view text) : data_(reinterpret_cast<const uint8_t *>(text.data())), size_(text.size()) {}
    bytes(const char *text) : bytes(std::string_view(text)) {}
    bytes(const std::string &text) : bytes(std::string_view(text)) {}
    template <typename Container, typename = decltype(std::declval<const Container &>().data() + std::declval<const Container &>().size())>
    bytes(const Container &all) : data_(reinterpret_cast<const uint8_t *>(all.data())), size_(all.size()) {
        static_assert(sizeof(*all.data()) == 1, "a container of bytes");
    }

    const uint8_t *data() const { return data_; }
    std::size_t size() const { return size_; }
    bool empty() const { return size_ == 0; }
    const uint8_t *begin() const { return data_; }
    const uint8_t *end() const { return data_ + size_; }
    uint8_t operator[](std::size_t at) const { return data_[at]; }
    std::string_view text() const { return {reinterpret_cast<const char *>(data_), size_}; }

  private:
    const uint8_t *data_ = nullptr;
    std::size_t size_ = 0;
};

// A call that was refused, and its status.
class error : public std::runtime_error {
  public:
    explicit error(dccp_status status) : std::runtime_error(dccp_status_text(status)), status_(status) {}
    dccp_status status() const { return status_; }

  private:
    dccp_status status_;
};

// Throws a status that is not DCCP_OK.
inline void check(dccp_status status) {
    if (status != DCCP_OK) throw error(status);
}

// A wish for a feature: this end asks for these values, best first.
inline dccp_wish offer(dccp_feature_kind feature, std::initializer_list<uint64_t> values, bool at_peer = false) {
    if (DCCP_MOST_VALUES < values.size()) throw error(DCCP_BAD_LIST);
    dccp_wish wish{};
    for (uint64_t value : values) wish.values[wish.count++] = value;
    wish.feature = static_cast<uint32_t>(feature);
    wish.at_peer = at_peer;
    wish.is_offered = true;
    return wish;
}

// A connection of a dccp::socket, which keeps it until the poll after its last event.
class connection {
  public:
    explicit connection(dccp_connection *it = nullptr) : it_(it) {}

    // Whether there was room: DCCP_OK, or DCCP_WINDOW_FULL, DCCP_NOT_NEGOTIATED, DCCP_NOT_OPEN or DCCP_NOT_MADE. Throws DCCP_TOO_LONG.
    dccp_status send(bytes data) const {
        dccp_status status = dccp_connection_send(it_, data.data(), data.size());
        if (status == DCCP_TOO_LONG) throw error(status);
        return status;
    }
    // Closes in order, or ends at once, as a close does too before DCCP_EVENT_OPENED. Neither does anything to a connection that has ended.
    void close() const {
        if (dccp_connection_close(it_) != DCCP_NOT_OPEN) return;
        const uint32_t phase = look().phase;
        if (phase == DCCP_PHASE_REQUEST || phase == DCCP_PHASE_RESPOND) abort();
    }
    void abort() const { (void)dccp_connection_abort(it_); }

    void prefer(dccp_feature_kind feature, const std::vector<uint64_t> &values, bool at_peer = false) const {
        check(dccp_connection_prefer(it_, feature, at_peer, values.data(), values.size()));
    }
    dccp_feature_state feature(dccp_feature_kind feature, bool at_peer = false) const {
        dccp_feature_state state{};
        check(dccp_connection_feature(it_, feature, at_peer, &state));
        return state;
    }
    dccp_view look() const {
        dccp_view view DCCP_VIEW_INIT;
        check(dccp_connection_look(it_, &view));
        return view;
    }

    dccp_round_trip look_path() const {
        dccp_round_trip trip DCCP_ROUND_TRIP_INIT;
        check(dccp_connection_look_path(it_, &trip));
        return trip;
    }
    dccp_statistics statistics() const {
        dccp_statistics counted DCCP_STATISTICS_INIT;
        dccp_connection_statistics(it_, &counted);
        return counted;
    }
    // The number of the packet that was sent last, and the fate of a packet.
    uint64_t last_sent() const { return dccp_connection_last_sent(it_); }
    dccp_fate fate(uint64_t number) const { return dccp_connection_fate(it_, number); }
    // The longest data that fit a frame of so many bytes now.
    std::size_t longest_data(std::size_t most) const { return dccp_connection_longest_data(it_, most); }

    // The data that have waited longest, if the options have `holding`; none: none wait.
    std::optional<dccp_data> read() const {
        dccp_data data;
        if (dccp_connection_read(it_, &data) != DCCP_OK) return std::nullopt;
        return data;
    }
    std::size_t held() const { return dccp_connection_held(it_); }
    // Data that arrive later are dropped, and the peer is told so.
    void stop_reading() const { check(dccp_connection_stop_reading(it_)); }

    // The address from which the peer's datagrams arrive, and the Service Code for which the client asked.
    dccp_address peer() const { return dccp_connection_peer(it_); }
    uint32_t service() const { return look().service; }

    template <typename T>
    T *user() const {
        return static_cast<T *>(dccp_connection_user(it_));
    }
    void set_user(void *user) const { dccp_connection_set_user(it_, user); }

    dccp_connection *get() const { return it_; }
    friend bool operator==(connection one, connection other) { return one.it_ == other.it_; }
    friend bool operator!=(connection one, connection other) { return one.it_ != other.it_; }
    friend bool operator<(connection one, connection other) { return std::less<dccp_connection *>()(one.it_, other.it_); }

  private:
    dccp_connection *it_;
};

// An event of a socket. The data stay until the next poll.
struct event {
    dccp_event_kind kind;
    dccp::connection connection;
    bytes data;
    dccp_end_cause cause;
    uint8_t code;

    // For DCCP_EVENT_ENDED: whether both ends closed, as far as this end can know.
    bool is_orderly() const { return cause == DCCP_END_RESET && (code == 1 || code == 3); }
};

// Settings of a socket. An empty one is the usual one.
struct options {
    std::vector<dccp_wish> wishes = {};
    std::string client_name = {}, server_name = {};
    uint32_t most = 0;
    std::chrono::milliseconds patience{0}, idle{0};
    uint32_t most_per_host = 0, holding = 0;
};

// The category of an std::system_error for a host or a port without an address, with the text of getaddrinfo.
inline const std::error_category &address_category() {
    class category final : public std::error_category {
      public:
        const char *name() const noexcept override { return "address"; }
        std::string message(int fault) const override { return dccp_socket_address_text(fault); }
    };
    static const category it;
    return it;
}

// A client, or a server of many, over the system's UDP.
class socket {
  public:
    // Throws std::system_error if host and port have no address (address_category), the system refuses, or the options are not valid.
    static socket connect(const std::string &host, const std::string &port, uint32_t service, const options &with = {}) {
        int fault = 0;
        const dccp_socket_options given = of(with, fault);
        dccp_socket *it = dccp_socket_connect(host.c_str(), port.c_str(), service, &given);
        return owned(it, fault, host, port);
    }
    static socket listen(const std::string &host, const std::string &port, const std::vector<uint32_t> &services, const options &with = {}) {
        int fault = 0;
        const dccp_socket_options given = of(with, fault);
        dccp_socket *it = dccp_socket_listen(host.empty() ? nullptr : host.c_str(), port.c_str(), services.data(), services.size(), &given);
        return owned(it, fault, host, port);
    }

    // Waits for the next event, or for this long at most; there is none after a client's last one. Throws std::system_error if the system's
    // socket fails.
    std::optional<event> poll() { return poll_for(-1); }
    std::optional<event> poll(std::chrono::milliseconds wait) { return poll_for(static_cast<int>(wait.count())); }

    int descriptor() const { return dccp_socket_descriptor(it_.get()); }
    // In how long a poll has something to do even if no datagram arrives; none: never.
    std::optional<std::chrono::milliseconds> wait() const {
        const int left = dccp_socket_wait(it_.get());
        if (left < 0) return std::nullopt;
        return std::chrono::milliseconds(left);
    }
    uint16_t port() const { return dccp_socket_port(it_.get()); }
    // The connection of a client, until its last event.
    std::optional<dccp::connection> connection() const {
        dccp_connection *it = dccp_socket_connection(it_.get());
        if (it == nullptr) return std::nullopt;
        return dccp::connection(it);
    }

  private:
    struct freeing {
        void operator()(dccp_socket *it) const { dccp_socket_free(it); }
    };
    explicit socket(dccp_socket *it) : it_(it) {}
    // The socket that was made; if none was, throws why.
    static socket owned(dccp_socket *it, int fault, const std::string &host, const std::string &port) {
        const int why = errno;
        if (it != nullptr) return socket(it);
        const std::string place = "dccp socket of " + host + " " + port;
        if (fault != 0) throw std::system_error(fault, address_category(), place);
        throw std::system_error(why, std::generic_category(), place);
    }
    static dccp_socket_options of(const options &with, int &fault) {
        dccp_socket_options given = DCCP_SOCKET_OPTIONS_INIT;
        given.address_fault = &fault;
        given.wishes = with.wishes.data();
        given.wish_count = with.wishes.size();
        given.client_name = with.client_name.empty() ? nullptr : with.client_name.c_str();
        given.server_name = with.server_name.empty() ? nullptr : with.server_name.c_str();
        given.most = with.most;
        given.patience = static_cast<uint32_t>(with.patience.count());
        given.idle = static_cast<uint32_t>(with.idle.count());
        given.most_per_host = with.most_per_host;
        given.holding = with.holding;
        return given;
    }
    std::optional<event> poll_for(int milliseconds) {
        dccp_socket_event told;
        const int found = dccp_socket_poll(it_.get(), milliseconds, &told);
        if (found < 0) throw std::system_error(errno, std::generic_category(), "dccp socket");
        if (found == 0) return std::nullopt;
        return event{told.kind, dccp::connection(told.connection), bytes(told.data, told.length), told.cause, told.code};
    }

    std::unique_ptr<dccp_socket, freeing> it_;
};

// One end without socket and clock, as in dccp.h. Each call leaves a frame for the peer, which may have no bytes.
class end {
  public:
    end() = default;
    end(const dccp_settings &settings, const std::vector<dccp_wish> &wishes = {}) {
        check(dccp_make(&it_, &settings, wishes.data(), wishes.size()));
    }
    end(end &&other) noexcept : it_(std::exchange(other.it_, DCCP_NONE)), last_(other.last_) {}
    end &operator=(end &&other) noexcept {
        if (this != &other) {
            dccp_free(&it_);
            it_ = std::exchange(other.it_, DCCP_NONE);
            last_ = other.last_;
        }
        return *this;
    }
    ~end() { dccp_free(&it_); }

    dccp_status accept(const dccp_settings &settings, const std::vector<dccp_wish> &wishes, bytes datagram, uint64_t now, dccp_told &told) {
        last_ = {};
        return dccp_accept(&it_, &settings, wishes.data(), wishes.size(), datagram.data(), datagram.size(), now, &frame_, &told);
    }
    dccp_status open(uint64_t now) { return dccp_open(&it_, now, &frame_); }
    dccp_status send(bytes data, uint64_t now) { return dccp_send(&it_, data.data(), data.size(), now, &frame_); }
    dccp_status close(uint64_t now) { return dccp_close(&it_, now, &frame_); }
    dccp_status abort(uint64_t now) { return dccp_abort(&it_, now, &frame_); }
    dccp_status tick(uint64_t now) { return dccp_tick(&it_, now, &frame_); }
    dccp_status receive(bytes datagram, uint64_t now, dccp_told &told) {
        return dccp_receive(&it_, datagram.data(), datagram.size(), now, &frame_, &told);
    }
    // After a receive of a server's end that returned DCCP_OK: whether the peer has begun anew. Then this end is over, and the peer's next
    // Request opens another.
    bool begins_anew(bytes datagram, const dccp_told &told) {
        return dccp_begins_anew(&last_, datagram.data(), datagram.size(), &told, &frame_);
    }
    dccp_status prefer(dccp_feature_kind feature, const std::vector<uint64_t> &values, bool at_peer, uint64_t now) {
        return dccp_prefer(&it_, static_cast<uint32_t>(feature), at_peer, values.data(), values.size(), now, &frame_);
    }
    // None: no timer runs.
    std::optional<std::chrono::milliseconds> until_first(uint64_t now) {
        const uint64_t left = dccp_until_first(&it_, now);
        if (left == DCCP_NEVER) return std::nullopt;
        return std::chrono::milliseconds(left);
    }
    dccp_view look() {
        dccp_view view DCCP_VIEW_INIT;
        check(dccp_look(&it_, &view));
        return view;
    }
    dccp_round_trip look_path() {
        dccp_round_trip trip DCCP_ROUND_TRIP_INIT;
        check(dccp_look_path(&it_, &trip));
        return trip;
    }
    dccp_feature_state feature(dccp_feature_kind feature, bool at_peer = false) {
        dccp_feature_state state{};
        check(dccp_feature(&it_, static_cast<uint32_t>(feature), at_peer, &state));
        return state;
    }

    // The data that have waited longest, if the settings have `most_held`; none: none wait.
    std::optional<dccp_data> read() {
        dccp_data data;
        if (dccp_read(&it_, &data) != DCCP_OK) return std::nullopt;
        return data;
    }
    dccp_status stop_reading() { return dccp_stop_reading(&it_); }
    std::size_t held() { return dccp_held(&it_); }

    dccp_fate fate(uint64_t number) { return dccp_fate_of(&it_, number); }
    std::size_t longest_data(std::size_t most) { return dccp_longest_data(&it_, most); }

    // The frame that the last call left for the peer, until the next call, and its number.
    bytes frame() const { return {frame_.bytes, frame_.length}; }
    uint64_t number() const { return frame_.number; }
    explicit operator bool() const { return it_.made; }

  private:
    dccp_end it_ = DCCP_NONE;
    dccp_last_sync last_{};
    dccp_frame frame_{};
};

// A server of many peers, without socket and clock, as in dccp.h. Each call leaves a frame for the peer that it names, which may have no
// bytes, and events.
class listener {
  public:
    listener() = default;
    // Without Service Codes it serves the one of the settings.
    listener(const dccp_settings &settings, const std::vector<dccp_wish> &wishes, uint16_t most, const std::vector<uint32_t> &services = {}) {
        check(dccp_listener_make(&it_, &settings, services.data(), services.size(), wishes.data(), wishes.size(), most));
    }
    listener(listener &&other) noexcept : it_(std::exchange(other.it_, DCCP_NO_LISTENER)) {}
    listener &operator=(listener &&other) noexcept {
        if (this != &other) {
            dccp_listener_free(&it_);
            it_ = std::exchange(other.it_, DCCP_NO_LISTENER);
        }
        return *this;
    }
    ~listener() { dccp_listener_free(&it_); }

    dccp_status arrive(const dccp_peer &peer, uint64_t first_number, bytes datagram, uint64_t now, dccp_told &told) {
        return dccp_listener_arrive(&it_, &peer, first_number, datagram.data(), datagram.size(), now, &frame_, &told);
    }
    dccp_status send(const dccp_peer &peer, bytes data, uint64_t now) {
        return dccp_listener_send(&it_, &peer, data.data(), data.size(), now, &frame_);
    }
    dccp_status close(const dccp_peer &peer, uint64_t now) { return dccp_listener_close(&it_, &peer, now, &frame_); }
    dccp_status abort(const dccp_peer &peer, uint64_t now) { return dccp_listener_abort(&it_, &peer, now, &frame_); }
    dccp_status forget(const dccp_peer &peer, uint64_t now) { return dccp_listener_forget(&it_, &peer, now); }
    dccp_status timer(const dccp_peer &peer, uint32_t timer, uint64_t now) { return dccp_listener_timer(&it_, &peer, timer, now, &frame_); }
    // The next event of the last call, until there is none.
    std::optional<dccp_event> event() {
        dccp_event event DCCP_EVENT_INIT;
        if (dccp_listener_event(&it_, &event) != DCCP_OK) return std::nullopt;
        return event;
    }
    dccp_status set_user(const dccp_peer &peer, uint64_t user) { return dccp_listener_set_user(&it_, &peer, user); }
    // The Service Code of the flow that a datagram would open, or none if it would open no flow.
    std::optional<uint32_t> asks(const dccp_peer &peer, bytes datagram) {
        uint32_t service = 0;
        if (dccp_listener_asks(&it_, &peer, datagram.data(), datagram.size(), &service) != DCCP_OK) return std::nullopt;
        return service;
    }
    dccp_status refuse(const dccp_peer &peer, bytes datagram, uint8_t code, uint64_t now) {
        return dccp_listener_refuse(&it_, &peer, datagram.data(), datagram.size(), code, now, &frame_);
    }
    void shut(bool is_shut) { check(dccp_listener_shut(&it_, is_shut)); }
    dccp_status tick(uint64_t now, dccp_peer &peer) { return dccp_listener_tick(&it_, now, &peer, &frame_); }
    void set_rules(const dccp_flow_rules &rules) { check(dccp_listener_rules(&it_, &rules)); }
    // Its Init Cookies are written with this key from now on: 32 random bytes, drawn anew each hour or so.
    void rekey(const dccp_key &key, uint64_t now) { check(dccp_listener_rekey(&it_, &key, now)); }
    // How the last datagram was treated.
    dccp_way way() { return dccp_listener_way(&it_); }
    // How many flows there are.
    uint16_t flows() { return dccp_listener_flows(&it_); }
    // None: there will be nothing to do.
    std::optional<std::chrono::milliseconds> until_first(uint64_t now) {
        const uint64_t left = dccp_listener_until_first(&it_, now);
        if (left == DCCP_NEVER) return std::nullopt;
        return std::chrono::milliseconds(left);
    }
    // None: the peer has no flow.
    std::optional<dccp_view> look(const dccp_peer &peer) {
        dccp_view view DCCP_VIEW_INIT;
        if (dccp_listener_look(&it_, &peer, &view) != DCCP_OK) return std::nullopt;
        return view;
    }
    // The data of a peer that have waited longest, if the settings have `most_held`; none: none wait.
    std::optional<dccp_data> read(const dccp_peer &peer) {
        dccp_data data;
        if (dccp_listener_read(&it_, &peer, &data) != DCCP_OK) return std::nullopt;
        return data;
    }
    dccp_status stop_reading(const dccp_peer &peer) { return dccp_listener_stop_reading(&it_, &peer); }
    std::size_t held(const dccp_peer &peer) { return dccp_listener_held(&it_, &peer); }
    // The fate of the data to a peer under this number, and the longest data that fit a frame of this many bytes now.
    dccp_fate fate(const dccp_peer &peer, uint64_t number) { return dccp_listener_fate_of(&it_, &peer, number); }
    std::size_t longest_data(const dccp_peer &peer, std::size_t most) { return dccp_listener_longest_data(&it_, &peer, most); }
    // The peers that have a flow, in the order of their addresses and ports.
    std::vector<dccp_peer> peers() {
        std::vector<dccp_peer> found;
        dccp_peer peer;
        for (auto status = dccp_listener_first_peer(&it_, &peer); status == DCCP_OK; status = dccp_listener_next_peer(&it_, &peer))
            found.push_back(peer);
        return found;
    }

    // The frame that the last call left for the peer, until the next call.
    bytes frame() const { return {frame_.bytes, frame_.length}; }
    explicit operator bool() const { return it_.made; }

  private:
    dccp_listener it_ = DCCP_NO_LISTENER;
    dccp_frame frame_{};
};

}  // namespace dccp

#endif
