// Posts and receives through a queue of the C++ library behind a mutex, to compare times with port_speed: queue list|deque
// alone|one|two COUNT. The library leaves atomic steps out while a process has never had a second thread, which is `alone`.
#include <barrier>
#include <chrono>
#include <cstdint>
#include <cstdio>
#include <cstdlib>
#include <cstring>
#include <deque>
#include <list>
#include <mutex>
#include <thread>

struct Note {
    uint32_t caller, step, number;
};

template <class Queue> struct Port {
    std::mutex lock;
    Queue notes;

    void post(uint32_t step) {
        std::lock_guard<std::mutex> held(lock);
        notes.push_back({0, step, step});
    }

    bool receive(Note &note) {
        std::lock_guard<std::mutex> held(lock);
        if (notes.empty()) return false;
        note = notes.front();
        notes.pop_front();
        return true;
    }

    uint64_t receive_one() {
        Note note;
        while (!receive(note)) std::this_thread::yield();
        return note.number;
    }
};

template <class Queue> static uint64_t by_one(uint32_t count) {
    Port<Queue> port;
    uint64_t sum = 0;
    for (uint32_t step = 0; step < count; step++) {
        port.post(step);
        sum += port.receive_one();
    }
    return sum;
}

template <class Queue> static uint64_t by_two(uint32_t count) {
    Port<Queue> port;
    uint64_t sum = 0;
    std::barrier<> start(2);
    std::thread poster([&] {
        start.arrive_and_wait();
        for (uint32_t step = 0; step < count; step++) port.post(step);
    });
    start.arrive_and_wait();
    for (uint32_t i = 0; i < count; i++) sum += port.receive_one();
    poster.join();
    return sum;
}

template <class Queue> static uint64_t run(const char *threads, uint32_t count) {
    return std::strcmp(threads, "two") == 0 ? by_two<Queue>(count) : by_one<Queue>(count);
}

int main(int argc, char **argv) {
    if (argc != 4) return 2;
    if (std::strcmp(argv[2], "one") == 0) std::thread([] {}).join();
    const uint32_t count = static_cast<uint32_t>(std::strtoul(argv[3], nullptr, 10));
    const auto begin = std::chrono::steady_clock::now();
    const uint64_t sum = std::strcmp(argv[1], "list") == 0 ? run<std::list<Note>>(argv[2], count) : run<std::deque<Note>>(argv[2], count);
    const auto took = std::chrono::steady_clock::now() - begin;
    std::printf("%llu\n", static_cast<unsigned long long>(sum));
    std::fprintf(stderr, "%lld\n", static_cast<long long>(std::chrono::duration_cast<std::chrono::nanoseconds>(took).count()));
}
