// The sends of `rds gen N SEED` between eight threads over ENet, as reliable packets over loopback UDP.
// g++ -O2 -o /tmp/enet_gen bench/peers/enet_gen.cc -lenet -lpthread && /tmp/enet_gen 100000 7
#include <enet/enet.h>

#include <atomic>
#include <chrono>
#include <cstdio>
#include <cstdlib>
#include <ctime>
#include <string>
#include <thread>

#include "generated.h"

namespace {

constexpr int kFirstPort = 24200;
std::atomic<int> made{0}, connected{0}, done{0};

void wait_for(std::atomic<int> &all) {
    while (all < kHosts) std::this_thread::yield();
}

// Which host a peer is: the one that listens at its port.
int host_of(const ENetPeer *peer) { return peer->address.port - kFirstPort; }

// A host connects to each other one, sends what is its own to send, and receives and keeps what comes.
void run(int host, const std::vector<Send> &sends, long count, std::vector<std::string> *received) {
    ENetAddress address;
    enet_address_set_host(&address, "127.0.0.1");
    address.port = static_cast<enet_uint16>(kFirstPort + host);
    ENetHost *own = enet_host_create(&address, kHosts, 1, 0, 0);
    if (!own) std::abort();
    made++;
    wait_for(made);
    for (int peer = host + 1; peer < kHosts; peer++) {
        address.port = static_cast<enet_uint16>(kFirstPort + peer);
        if (!enet_host_connect(own, &address, 1, 0)) std::abort();
    }
    ENetPeer *peers[kHosts] = {};
    ENetEvent event;
    auto take = [&](const ENetEvent &found) {
        if (found.type == ENET_EVENT_TYPE_CONNECT) peers[host_of(found.peer)] = found.peer;
        if (found.type != ENET_EVENT_TYPE_RECEIVE) return;
        received->emplace_back(reinterpret_cast<char *>(found.packet->data), found.packet->dataLength);
        enet_packet_destroy(found.packet);
    };
    auto known = [&] {
        int all = 0;
        for (ENetPeer *peer : peers) all += peer != nullptr;
        return all;
    };
    while (known() < kHosts - 1) {
        if (enet_host_service(own, &event, 1) > 0) take(event);
    }
    connected++;
    while (connected < kHosts) {
        if (enet_host_service(own, &event, 0) > 0) take(event);
    }
    for (const Send &send : sends) {
        if (send.from != host) continue;
        const auto bytes = message(send);
        enet_peer_send(peers[send.to], 0, enet_packet_create(bytes.data(), bytes.size(), ENET_PACKET_FLAG_RELIABLE));
        while (enet_host_check_events(own, &event) > 0) take(event);
    }
    bool told = false;
    while (done < kHosts) {
        if (enet_host_service(own, &event, 1) > 0) take(event);
        if (!told && static_cast<long>(received->size()) == count) {
            told = true;
            done++;
        }
    }
    enet_host_destroy(own);
}

}  // namespace

int main(int argc, char **argv) {
    const long count = argc > 1 ? std::atol(argv[1]) : 100000;
    const uint64_t seed = argc > 2 ? std::strtoull(argv[2], nullptr, 10) : 7;
    if (enet_initialize() != 0) return 1;
    const auto begun = std::chrono::steady_clock::now();
    const auto sends = generated(count, seed);
    const auto counts = expected(sends);
    std::vector<std::vector<std::string>> received(kHosts);
    std::vector<std::thread> threads;
    for (int host = 0; host < kHosts; host++) threads.emplace_back(run, host, std::cref(sends), counts[host], &received[host]);
    for (auto &thread : threads) thread.join();
    const std::chrono::duration<double, std::nano> wall = std::chrono::steady_clock::now() - begun;
    const double cpu = 1e9 * static_cast<double>(std::clock()) / CLOCKS_PER_SEC;
    std::printf("enet %ld: %.0f ns of wall time and %.0f ns of processor time a datagram\n", count, wall.count() / count, cpu / count);
    return 0;
}
