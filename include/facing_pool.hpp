// Pools in facing.hpp: maps that any thread calls. Include facing.hpp.
#ifndef FACING_POOL_HPP
#define FACING_POOL_HPP
#include "facing_pairs.hpp"

namespace facing {

// A map that several threads call at once. A call takes a client that no other thread uses, and waits where all are in use:
// so open it with at least as many clients as threads call at the same time.
template <class Library> class pool_of {
  public:
    // Opens an empty map as that map's class does, with a pool of so many clients.
    template <class... More>
    explicit pool_of(std::size_t capacity = 16, std::uint32_t clients = 4, More... more)
        : map_(capacity, clients, more...), slots_(new slot[clients]), clients_(clients) {
        for (std::uint32_t i = 0; i < clients; i++)
            slots_[i].client.emplace(map_.client());
    }
    // Makes calls by a client that no other thread uses meanwhile, and returns what the function returns. It takes the client
    // by reference, and calls the pool no more: where all clients are in use it would wait for its own thread. Throws
    // FACING_AFTER_FORK in the child of a fork where all clients were in use during it.
    template <class Calls> auto with(Calls calls) -> decltype(calls(std::declval<client_of<Library> &>())) {
        if (clients_ == 0) throw error(FACING_BAD_ARGUMENT);
        const std::size_t start = std::hash<std::thread::id>()(std::this_thread::get_id());
        const taken<slot> own(slots_.get(), clients_, start, forks_);
        return calls(*own.it->client);
    }
    // An estimate of how many keys there are.
    std::uint64_t count() {
        return with([](client_of<Library> &client) { return client.count(); });
    }
    // Closes the map, and the pool is empty; no call may run any more. Where that fails it can be tried again, but after
    // FACING_BIN_MISSING.
    closed_of<Library> close() {
        clients_ = 0;
        slots_.reset();
        return map_.close();
    }

  private:
    struct alignas(64) slot {
        std::atomic<bool> in_use{false};
        std::optional<client_of<Library>> client;
    };
    map_of<Library> map_;
    std::unique_ptr<slot[]> slots_;
    std::size_t clients_;
    std::uint32_t forks_ = facing_forks_seen();
};

} // namespace facing
#endif
