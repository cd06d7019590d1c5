// Reads a script of two hosts, for programs that do what `rds run` does with it. docs/SCRIPT.md has the language. A reader knows the lines hosts,
// bind, send, recv and drain. Every bind stands in front, and no buffer may be too small for all that is sent. What else a script has it
// refuses with status 2.
#pragma once

#include <algorithm>
#include <array>
#include <charconv>
#include <cstdint>
#include <cstdio>
#include <cstdlib>
#include <deque>
#include <map>
#include <string>
#include <string_view>
#include <unordered_map>
#include <utility>
#include <vector>

constexpr size_t kLongest = 1048576, kMostSockets = 1024;

// Two ports that datagrams go between: the receiving one, and the sending one.
using Ports = std::pair<uint16_t, uint16_t>;

struct Datagram {
    uint16_t sport;
    std::string payload;
};

struct Socket {
    size_t send_room, receive_room;
    size_t sent = 0, coming = 0;
    std::deque<Datagram> waiting = {};
};

// A send from `port` to the other host's port `to`, or a receive at `port`.
struct Command {
    bool is_send;
    uint16_t port, to;
    std::string payload;
};

struct Arrived {
    long dropped = 0;
    std::vector<std::string> received;
};

struct Host {
    std::unordered_map<uint16_t, Socket> sockets;
    std::vector<Command> commands;
    std::map<Ports, long> accepted;
    std::map<Ports, Arrived> arrived;
};

using Hosts = std::array<Host, 2>;

// Reads a script line by line.
class Reader {
public:
    explicit Reader(Hosts &hosts) : hosts_(hosts) {}

    void read(std::string_view text) {
        while (!text.empty()) {
            const size_t end = std::min(text.find('\n'), text.size());
            std::string_view line = text.substr(0, end);
            if (!line.empty() && line.back() == '\r') line.remove_suffix(1);
            number_++;
            split(line);
            if (!words_.empty() && words_[0][0] != '#') command();
            text.remove_prefix(std::min(end + 1, text.size()));
        }
        if (!begun_) refuse("there is no command");
    }

private:
    [[noreturn]] void refuse(const char *why) const {
        std::fprintf(stderr, "line %ld: %s\n", number_, why);
        std::exit(2);
    }

    void split(std::string_view line) {
        words_.clear();
        for (size_t at = line.find_first_not_of(" \t"); at < line.size(); at = line.find_first_not_of(" \t", at)) {
            const size_t end = std::min(line.find_first_of(" \t", at), line.size());
            words_.push_back(line.substr(at, end - at));
            at = end;
        }
    }

    void command() {
        const std::string_view name = words_[0];
        if ((name == "hosts") == begun_) refuse("hosts stands first, and once");
        begun_ = true;
        if (name == "hosts" && count(2)) {
            if (within(words_[1], 2, 8) != 2) refuse("this program has two hosts");
        } else if (name == "bind" && count(5)) {
            bind();
        } else if (name == "send" && count(6)) {
            send();
        } else if (name == "recv" && count(3)) {
            host(words_[1]).commands.push_back({false, port(words_[2]), 0, {}});
        } else if (name != "drain" || !count(1)) {
            refuse("this is none of hosts, bind, send, recv and drain");
        }
    }

    bool count(size_t words) const { return words_.size() == words; }

    size_t within(std::string_view word, size_t least, size_t most) const {
        size_t value = 0;
        const auto [end, error] = std::from_chars(word.data(), word.data() + word.size(), value);
        if (error != std::errc() || end != word.data() + word.size() || word.size() > 10 || value < least || value > most) {
            refuse("a number is none, or out of range");
        }
        return value;
    }

    uint16_t port(std::string_view word) const { return static_cast<uint16_t>(within(word, 0, 65535)); }

    Host &host(std::string_view word) const {
        if (word != "A" && word != "B") refuse("a host is neither A nor B");
        return hosts_[word[0] - 'A'];
    }

    void bind() {
        Host &own = host(words_[1]);
        const uint16_t at = port(words_[2]);
        const size_t send_room = within(words_[3], 1, 16777216), receive_room = within(words_[4], 2, 16777216);
        if (at < 2) refuse("this port is reserved");
        for (const Host &each : hosts_) {
            if (!each.commands.empty()) refuse("a bind stands behind other commands");
        }
        if (own.sockets.size() < kMostSockets) own.sockets.insert({at, Socket{send_room, receive_room}});
    }

    // A send that a run would refuse is left out: one without a socket, to its own host, or that is too long.
    void send() {
        Host &own = host(words_[1]), &other = host(words_[3]);
        const uint16_t from = port(words_[2]), to = port(words_[4]);
        std::string bytes = payload(words_[5]);
        const auto socket = own.sockets.find(from);
        if (socket == own.sockets.end() || bytes.size() > std::min(socket->second.send_room, kLongest) || &own == &other) return;
        if (to == 0) refuse("port 0 answers");
        socket->second.sent += bytes.size();
        if (socket->second.sent > socket->second.send_room) refuse("a send buffer may fill");
        const auto peer = other.sockets.find(to);
        if (peer != other.sockets.end() && (peer->second.coming += bytes.size()) > peer->second.receive_room) {
            refuse("a receive buffer may fill");
        }
        own.commands.push_back({true, from, to, std::move(bytes)});
    }

    std::string payload(std::string_view word) const {
        const std::string_view form = word.substr(0, 2), rest = word.substr(form.size());
        if (form == "t:") return std::string(rest);
        if (form == "f:") return counted(within(rest, 0, 2097152));
        if (form == "x:" && rest.size() % 2 == 0) return unhexed(rest);
        refuse("a payload has none of the forms t:, x: and f:");
    }

    static std::string counted(size_t length) {
        std::string bytes(length, 0);
        for (size_t i = 0; i < length; i++) bytes[i] = static_cast<char>(i);
        return bytes;
    }

    std::string unhexed(std::string_view digits) const {
        std::string bytes;
        for (size_t i = 0; i < digits.size(); i += 2) bytes.push_back(static_cast<char>(digit(digits[i]) << 4 | digit(digits[i + 1])));
        return bytes;
    }

    int digit(char c) const {
        if (c >= '0' && c <= '9') return c - '0';
        if (c >= 'a' && c <= 'f') return c - 'a' + 10;
        if (c >= 'A' && c <= 'F') return c - 'A' + 10;
        refuse("a payload has a character that is no digit");
    }

    Hosts &hosts_;
    std::vector<std::string_view> words_;
    long number_ = 0;
    bool begun_ = false;
};
