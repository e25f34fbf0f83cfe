// This repository's map, called from C++ through its static library.
//
// A library is a kind of map with open, client and free on its handles, and with calls of a client, which throw what is refused.
// It opens with 16 buckets, for 1,024 clients.
#pragma once

#include "facing.h"
#include "workload.hpp"

#include <mutex>

namespace from_c {

inline void check(std::uint32_t status) {
    if (status != FACING_DONE) {
        throw std::runtime_error("status " + std::to_string(status));
    }
}

template <class Library> class Map {
  public:
    using Kind = Library;
    using Key = typename Kind::Key;
    using Value = typename Kind::Value;

    Map() {
        check(Library::open(&map));
    }

    ~Map() {
        client.leave();
        Library::free(&map);
    }

    bool get(const Key &key, Value &value) {
        return Library::get(own(), key, value);
    }

    void put(const Key &key, const Value &value) {
        Library::put(own(), key, value);
    }

    void remove(const Key &key) {
        Library::remove(own(), key);
    }

    void merge(const Key &key, const Value &value) {
        Library::merge(own(), key, value);
    }

  private:
    using Handle = typename Library::Handle;

    // A thread's client, which goes back to the map when the thread ends.
    struct Client {
        Handle handle = {nullptr};

        void leave() {
            if (handle.at != nullptr) {
                Library::free(&handle);
            }
        }

        ~Client() {
            leave();
        }
    };

    Handle *own() {
        if (client.handle.at == nullptr) {
            std::lock_guard<std::mutex> its(lock);
            check(Library::client(&map, &client.handle));
        }
        return &client.handle;
    }

    Handle map;
    std::mutex lock;
    static thread_local Client client;
};

template <class Library> thread_local typename Map<Library>::Client Map<Library>::client;

// The program: MODE THREADS CALLS KEYS CHOICE, and the kind of the map.
template <class Library> int measure(const char *map, int count, char **words) {
    return count == 7 ? workload::measure_one<Map<Library>>(map, words) : workload::tell_usage(words[0]);
}

} // namespace from_c
