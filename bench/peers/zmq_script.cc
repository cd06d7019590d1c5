// Does what `rds run` does with a script of two hosts, over libzmq: reads the script from standard input, moves its datagrams between two
// threads by the inproc or the tcp transport, and prints the same report. script.h says which scripts it refuses.
// g++ -O2 -o /tmp/zmq_script bench/peers/zmq_script.cc -lzmq -lpthread && /tmp/zmq_script tcp < examples/hello.rds
#include <zmq.h>

#include <cstdint>
#include <cstdio>
#include <cstdlib>
#include <cstring>
#include <string>
#include <string_view>
#include <thread>
#include <utility>

#include "script.h"

namespace {

// The bytes of the two ports in front of a message's payload.
constexpr size_t kPorts = 4;

// A host's thread: does the commands, says that nothing follows by an empty message, and takes what comes until the other one says so.
class Running {
public:
    Running(Host &host, void *socket) : host_(host), socket_(socket) {}

    void run() {
        for (const Command &command : host_.commands) {
            if (command.is_send) {
                send(command);
            } else {
                receive(command.port);
            }
        }
        if (zmq_send(socket_, "", 0, 0) != 0) std::abort();
        while (!ended_) take(0);
        for (auto &[port, socket] : host_.sockets) {
            while (!socket.waiting.empty()) hand_out(port, socket);
        }
    }

private:
    // A message has the two ports, and then the payload.
    void send(const Command &command) {
        const uint16_t ports[] = {command.port, command.to};
        static_assert(sizeof ports == kPorts);
        zmq_msg_t message;
        if (zmq_msg_init_size(&message, kPorts + command.payload.size()) != 0) std::abort();
        char *to = static_cast<char *>(zmq_msg_data(&message));
        std::memcpy(to, ports, kPorts);
        std::memcpy(to + kPorts, command.payload.data(), command.payload.size());
        if (zmq_msg_send(&message, socket_, 0) < 0) std::abort();
        host_.accepted[{command.to, command.port}]++;
    }

    void receive(uint16_t port) {
        const auto found = host_.sockets.find(port);
        if (found == host_.sockets.end()) return;
        while (found->second.waiting.empty() && !ended_ && take(ZMQ_DONTWAIT)) {
        }
        if (!found->second.waiting.empty()) hand_out(port, found->second);
    }

    // Takes a message, and answers whether there was one.
    bool take(int flags) {
        zmq_msg_t message;
        zmq_msg_init(&message);
        const int length = zmq_msg_recv(&message, socket_, flags);
        if (length < 0 && zmq_errno() == EAGAIN) return false;
        if (length > 0) {
            deliver(static_cast<const char *>(zmq_msg_data(&message)), static_cast<size_t>(length));
        } else if (length == 0) {
            ended_ = true;
        } else {
            std::abort();
        }
        zmq_msg_close(&message);
        return true;
    }

    void deliver(const char *bytes, size_t length) {
        if (length < kPorts) std::abort();
        uint16_t ports[2];
        std::memcpy(ports, bytes, kPorts);
        const auto found = host_.sockets.find(ports[1]);
        if (found == host_.sockets.end()) {
            host_.arrived[{ports[1], ports[0]}].dropped++;
        } else {
            found->second.waiting.push_back({ports[0], std::string(bytes + kPorts, length - kPorts)});
        }
    }

    void hand_out(uint16_t port, Socket &socket) {
        Datagram &first = socket.waiting.front();
        host_.arrived[{port, first.sport}].received.push_back(std::move(first.payload));
        socket.waiting.pop_front();
    }

    Host &host_;
    void *socket_;
    bool ended_ = false;
};

void *made(void *context) {
    void *socket = zmq_socket(context, ZMQ_PAIR);
    const int none = 0;
    zmq_setsockopt(socket, ZMQ_SNDHWM, &none, sizeof none);
    zmq_setsockopt(socket, ZMQ_RCVHWM, &none, sizeof none);
    return socket;
}

void move(Hosts &hosts, bool over_tcp) {
    void *context = zmq_ctx_new(), *first = made(context), *second = made(context);
    if (zmq_bind(first, over_tcp ? "tcp://127.0.0.1:*" : "inproc://hosts") != 0) std::abort();
    char bound[128];
    size_t length = sizeof bound;
    zmq_getsockopt(first, ZMQ_LAST_ENDPOINT, bound, &length);
    if (zmq_connect(second, bound) != 0) std::abort();
    std::thread other([&] { Running(hosts[1], second).run(); });
    Running(hosts[0], first).run();
    other.join();
    zmq_close(first);
    zmq_close(second);
    zmq_ctx_term(context);
}

// A line for a payload, in hexadecimal digits.
void append_payload(std::string &text, const std::string &payload) {
    static const char digits[] = "0123456789abcdef";
    if (payload.empty()) {
        text += " data=-\n";
        return;
    }
    text += " data=";
    const size_t begun = text.size();
    text.resize(begun + 2 * payload.size());
    char *at = text.data() + begun;
    for (const unsigned char byte : payload) {
        *at++ = digits[byte >> 4];
        *at++ = digits[byte & 15];
    }
    text += '\n';
}

std::string report(const Hosts &hosts) {
    static const char *const names = "AB";
    std::string text;
    char line[160];
    for (size_t to : {0, 1}) {
        const size_t from = 1 - to;
        for (const auto &[ports, accepted] : hosts[from].accepted) {
            const Arrived &arrived = hosts[to].arrived.at(ports);
            std::snprintf(line, sizeof line, "%c:%d>%c:%d accepted %ld received %zu unread 0 dropped %ld port0 0 cancelled 0 pending 0\n",
                          names[from], ports.second, names[to], ports.first, accepted, arrived.received.size(), arrived.dropped);
            text += line;
            for (const std::string &payload : arrived.received) append_payload(text, payload);
        }
    }
    text += "end ok\n";
    return text;
}

std::string read_all() {
    std::string text;
    char piece[65536];
    for (size_t count; (count = std::fread(piece, 1, sizeof piece, stdin)) > 0;) text.append(piece, count);
    return text;
}

}  // namespace

int main(int argc, char **argv) {
    const std::string_view transport = argc > 1 ? argv[1] : "inproc";
    if (transport != "inproc" && transport != "tcp") {
        std::fputs("usage: zmq_script [inproc|tcp] < SCRIPT\n", stderr);
        return 2;
    }
    const std::string script = read_all();
    Hosts hosts;
    Reader(hosts).read(script);
    move(hosts, transport == "tcp");
    const std::string text = report(hosts);
    return std::fwrite(text.data(), 1, text.size(), stdout) == text.size() && std::fflush(stdout) == 0 ? 0 : 1;
}
