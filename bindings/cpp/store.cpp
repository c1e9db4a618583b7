#include "lrc_store.hpp"
#include <iostream>

int main() {
    lrc::session session = lrc::session::open(4); // fragments of 4 bytes
    session.put("greeting", "HELLO, WORLD");
    session.lose("greeting", 0, 0); // fragments 0 and 2 of stripe 0 fail
    session.lose("greeting", 0, 2);
    std::cout << session.read("greeting", 0, 12).str() << '\n'; // a degraded read
    session.repair("greeting", 0, 0);
    session.repair("greeting", 0, 2);
    session.close();
}
