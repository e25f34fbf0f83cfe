// Two threads add to the value of one key, and what fails is an exception.
#include "facing.hpp"
#include <iostream>
#include <thread>

static void count(facing::client client) {
    for (int i = 0; i < 1000; i++) client.add(7, 1);
}

int main() {
    facing::map map(16, 2);
    {
        std::thread first(count, map.client()), second(count, map.client());
        first.join();
        second.join();
    }
    facing::closed_map closed = map.close();
    std::cout << closed.get(7).value_or(0) << " counted\n";
}
