// The sends of `rds gen N SEED`, for programs that send the same over other libraries. docs/SCRIPT.md has the generator.
#pragma once

#include <cstdint>
#include <vector>

constexpr int kHosts = 8;

struct Send {
    int from, sport, to, dport, length;
};

class Draws {
public:
    explicit Draws(uint64_t seed) : state_(seed) {}

    int below(int most) {
        state_ = state_ * 6364136223846793005u + 1442695040888963407u;
        return static_cast<int>((state_ >> 33) % most);
    }

private:
    uint64_t state_;
};

inline std::vector<Send> generated(long sends, uint64_t seed) {
    Draws draws(seed);
    std::vector<Send> all;
    for (long i = 0; i < sends; i++) {
        const int from = draws.below(8), sport = 4000 + draws.below(4);
        const int to = (from + 1 + draws.below(7)) % kHosts, dport = 4000 + draws.below(4);
        all.push_back({from, sport, to, dport, static_cast<int>(i % 64)});
    }
    return all;
}

// What each host is to receive.
inline std::vector<long> expected(const std::vector<Send> &sends) {
    std::vector<long> counts(kHosts, 0);
    for (const Send &send : sends) counts[send.to]++;
    return counts;
}

// A datagram as the other libraries carry it: its two ports, and then the payload, which counts up from 0.
inline std::vector<unsigned char> message(const Send &send) {
    std::vector<unsigned char> bytes = {
        static_cast<unsigned char>(send.sport >> 8), static_cast<unsigned char>(send.sport),
        static_cast<unsigned char>(send.dport >> 8), static_cast<unsigned char>(send.dport)};
    for (int i = 0; i < send.length; i++) bytes.push_back(static_cast<unsigned char>(i));
    return bytes;
}
