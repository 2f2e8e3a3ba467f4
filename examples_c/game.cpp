// A game: the server sends its state 30 times a second to each client, and a client its inputs 60 times. A packet without room is left out,
// since a newer one follows.
//
//     game server PORT SECONDS, or game client PORT SECONDS
//
// Both use CCID 248, a fixed window of eight packets, each of which is acknowledged, and agree on names, so there may be a relay between them. A
// line for each connection says how many packets arrived, and the longest silence.
#include <algorithm>
#include <chrono>
#include <cstdio>
#include <map>
#include <string>

#include "dccp.hpp"

using namespace std::chrono_literals;
using clock_type = std::chrono::steady_clock;

struct player {
    int packets = 0;
    clock_type::time_point last = clock_type::now();
    clock_type::duration silence = 0s;
};

int main(int count, char **words) {
    if (count != 4) return 2;
    const std::string side = words[1];
    const bool is_server = side == "server";
    const dccp::options options{{dccp::offer(DCCP_FEATURE_CCID, {248}), dccp::offer(DCCP_FEATURE_ACK_RATIO, {1})}, "192.0.2.1 1", "192.0.2.2 2"};
    auto socket = is_server ? dccp::socket::listen("127.0.0.1", words[2], {42}, options)
                            : dccp::socket::connect("127.0.0.1", words[2], 42, options);
    const auto frame = is_server ? 33333us : 16667us, seconds = std::chrono::microseconds(std::stoi(words[3]) * 1000000);
    const std::string content(is_server ? 200 : 24, '.');
    std::map<dccp::connection, player> open;
    const auto take = [&](const dccp::event &event) {
        auto &it = open[event.connection];
        if (event.kind == DCCP_EVENT_DATA) {
            it.silence = std::max(it.silence, clock_type::now() - it.last);
            it.last = clock_type::now();
            it.packets++;
        }
        if (event.kind != DCCP_EVENT_ENDED) return;
        const auto silence = std::chrono::duration_cast<std::chrono::milliseconds>(it.silence).count();
        std::printf("%s got %d, longest silence %d ms\n", side.c_str(), it.packets, static_cast<int>(silence));
        open.erase(event.connection);
    };
    const auto begun = clock_type::now();
    for (auto next = begun; next < begun + seconds; next += frame) {
        for (auto &[connection, it] : open) connection.send(content);
        const auto left = [&] { return std::max(0ms, std::chrono::ceil<std::chrono::milliseconds>(next + frame - clock_type::now())); };
        while (auto event = socket.poll(left())) take(*event);
    }
    for (auto &[connection, it] : open) connection.close();
    while (!open.empty()) {
        auto event = socket.poll(2s);
        if (!event) break;
        take(*event);
    }
}
