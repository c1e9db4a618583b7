#include "lrc_store.hpp"
#include <iostream>
#include <thread>

int main() {
    lrc::sharded_store store(4, 16); // fragments of 4 bytes, 16 shards, no journals
    for (int i = 0; i < 1000; i++) {
        const std::string name = "greeting-" + std::to_string(i);
        auto session = store.take(name); // of the name's shard
        session->put(name, "HELLO, WORLD");
        session->lose(name, 0, 0); // fragments 0 and 2 of stripe 0 fail
        session->lose(name, 0, 2);
    }
    const std::string text = store.take("greeting-7")->get("greeting-7"); // degraded
    uint64_t repaired = 0;
    std::thread other([&] { repaired = store.mend(); });
    const uint64_t here = store.mend(); // the two share the work
    other.join();
    std::cout << text << ": " << repaired + here << " repaired, " << store.numbers().lost
              << " lost\n";
    store.close();
}
