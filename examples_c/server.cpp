// The shortest server: it sends back what each client sends, if there is room: server HOST PORT.
#include "dccp.hpp"

int main(int count, char **words) {
    if (count != 3) return 2;
    auto socket = dccp::socket::listen(words[1], words[2], {42});
    while (auto event = socket.poll()) {
        if (event->kind == DCCP_EVENT_DATA) event->connection.send(event->data);
    }
}
