// The shortest client: it sends a word to the server, and prints the answer: client HOST PORT.
#include <iostream>

#include "dccp.hpp"

int main(int count, char **words) {
    if (count != 3) return 2;
    auto socket = dccp::socket::connect(words[1], words[2], 42);
    while (auto event = socket.poll()) {
        if (event->kind == DCCP_EVENT_OPENED) event->connection.send("hello");
        if (event->kind == DCCP_EVENT_DATA) {
            std::cout << event->data.text() << std::endl;
            event->connection.close();
        }
        if (event->kind == DCCP_EVENT_ENDED) return event->is_orderly() ? 0 : 1;
    }
}
