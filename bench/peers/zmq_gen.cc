// The sends of `rds gen N SEED` between eight threads over libzmq, by its inproc or its tcp transport.
// g++ -O2 -o /tmp/zmq_gen bench/peers/zmq_gen.cc -lzmq -lpthread && /tmp/zmq_gen 100000 7 inproc
#include <zmq.h>

#include <atomic>
#include <chrono>
#include <cstdio>
#include <cstdlib>
#include <cstring>
#include <ctime>
#include <string>
#include <thread>

#include "generated.h"

namespace {

std::atomic<int> bound{0};

std::string place(const std::string &transport, int host) {
    return transport == "tcp" ? "tcp://127.0.0.1:" + std::to_string(24100 + host) : "inproc://host" + std::to_string(host);
}

void *made(void *context, int kind) {
    void *socket = zmq_socket(context, kind);
    const int none = 0;
    zmq_setsockopt(socket, ZMQ_SNDHWM, &none, sizeof none);
    zmq_setsockopt(socket, ZMQ_RCVHWM, &none, sizeof none);
    return socket;
}

// A host sends what is its own to send, and then receives and keeps what comes.
void run(void *context, const std::string &transport, int host, const std::vector<Send> &sends, long count,
         std::vector<std::string> *received) {
    void *in = made(context, ZMQ_PULL);
    if (zmq_bind(in, place(transport, host).c_str()) != 0) std::abort();
    bound++;
    while (bound < kHosts) std::this_thread::yield();
    void *out[kHosts] = {};
    for (int peer = 0; peer < kHosts; peer++) {
        if (peer == host) continue;
        out[peer] = made(context, ZMQ_PUSH);
        if (zmq_connect(out[peer], place(transport, peer).c_str()) != 0) std::abort();
    }
    for (const Send &send : sends) {
        if (send.from != host) continue;
        const auto bytes = message(send);
        if (zmq_send(out[send.to], bytes.data(), bytes.size(), 0) < 0) std::abort();
    }
    char found[128];
    for (long i = 0; i < count; i++) {
        const int length = zmq_recv(in, found, sizeof found, 0);
        if (length < 4) std::abort();
        received->emplace_back(found, length);
    }
    for (void *socket : out) {
        if (socket) zmq_close(socket);
    }
    zmq_close(in);
}

}  // namespace

int main(int argc, char **argv) {
    const long count = argc > 1 ? std::atol(argv[1]) : 100000;
    const uint64_t seed = argc > 2 ? std::strtoull(argv[2], nullptr, 10) : 7;
    const std::string transport = argc > 3 ? argv[3] : "inproc";
    const auto begun = std::chrono::steady_clock::now();
    const auto sends = generated(count, seed);
    const auto counts = expected(sends);
    void *context = zmq_ctx_new();
    std::vector<std::vector<std::string>> received(kHosts);
    std::vector<std::thread> threads;
    for (int host = 0; host < kHosts; host++) {
        threads.emplace_back(run, context, transport, host, std::cref(sends), counts[host], &received[host]);
    }
    for (auto &thread : threads) thread.join();
    zmq_ctx_term(context);
    const std::chrono::duration<double, std::nano> wall = std::chrono::steady_clock::now() - begun;
    const double cpu = 1e9 * static_cast<double>(std::clock()) / CLOCKS_PER_SEC;
    std::printf("zmq %s %ld: %.0f ns of wall time and %.0f ns of processor time a datagram\n", transport.c_str(), count,
                wall.count() / count, cpu / count);
    return 0;
}
