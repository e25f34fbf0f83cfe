// What facing.hpp is made of: failures, the functions of each header by one name, handles, and readers of a closed map.
// Include facing.hpp.
#ifndef FACING_BASE_HPP
#define FACING_BASE_HPP
#include "facing.h"
#include "facing_bytes.h"
#include "facing_change.h"
#include "facing_counts.h"
#include "facing_pool.h"
#include <array>
#include <atomic>
#include <cstddef>
#include <cstdint>
#include <functional>
#include <iterator>
#include <memory>
#include <optional>
#include <stdexcept>
#include <string>
#include <string_view>
#include <thread>
#include <type_traits>
#include <utility>
#include <vector>

namespace facing {

// A failure: its status, and what facing_strerror says of it.
class error : public std::runtime_error {
  public:
    explicit error(std::uint32_t status) : std::runtime_error(facing_strerror(status)), status_(status) {
    }
    std::uint32_t status() const noexcept {
        return status_;
    }

  private:
    std::uint32_t status_;
};

inline void check(std::uint32_t status) {
    if (status != FACING_DONE) throw error(status);
}

// A failure of calls on many keys: those on the first `done` keys were made, and the one on the next failed.
class many_error : public error {
  public:
    many_error(std::uint32_t status, std::size_t done) : error(status), done_(done) {
    }
    std::size_t done() const noexcept {
        return done_;
    }

  private:
    std::size_t done_;
};

inline void check_many(std::uint32_t status, std::size_t done) {
    if (status != FACING_DONE) throw many_error(status, done);
}

// The functions of each header by one name.
struct numbers {
    using handle = facing_handle;
    using key = std::uint64_t;
    static std::uint32_t open(std::size_t capacity, std::uint32_t clients, handle *map, std::uint32_t salt = 0) {
        return facing_open(capacity, clients, salt, map);
    }
    static constexpr auto client = facing_client;
    static constexpr auto reopen = facing_reopen;
    static constexpr auto close = facing_close;
    static constexpr auto count = facing_count;
    static constexpr auto free = facing_free;
    static constexpr auto find = facing_find, get = facing_get, contains = facing_contains, remove = facing_remove;
    static constexpr auto put = facing_put, put_if_absent = facing_put_if_absent, remove_if = facing_remove_if;
    static constexpr auto replace = facing_replace, add = facing_add, greatest = facing_greatest, set = facing_set;
    static constexpr auto replace_if = facing_replace_if;
    static constexpr auto exchange = facing_exchange;
    static constexpr auto add_up_to = facing_add_up_to;
    static constexpr auto again = facing_again;
    static constexpr auto put_all = facing_put_all, add_all = facing_add_all;
    static constexpr auto get_all = facing_get_all;
};

struct counts {
    using handle = facing_counts_handle;
    using key = std::string_view;
    static std::uint32_t open(std::size_t capacity, std::uint32_t clients, handle *map) {
        return facing_counts_open(capacity, clients, map);
    }
    static constexpr auto client = facing_counts_client;
    static constexpr auto reopen = facing_counts_reopen;
    static constexpr auto close = facing_counts_close;
    static constexpr auto count = facing_counts_count;
    static constexpr auto free = facing_counts_free;
    static constexpr auto find = facing_counts_find, get = facing_counts_get, contains = facing_counts_contains;
    static constexpr auto remove = facing_counts_remove;
    static constexpr auto put = facing_counts_put, put_if_absent = facing_counts_put_if_absent;
    static constexpr auto remove_if = facing_counts_remove_if, replace = facing_counts_replace, add = facing_counts_add;
    static constexpr auto greatest = facing_counts_greatest, set = facing_counts_set;
    static constexpr auto replace_if = facing_counts_replace_if;
    static constexpr auto exchange = facing_counts_exchange;
    static constexpr auto add_up_to = facing_counts_add_up_to;
    static constexpr auto again = facing_counts_again;
    static constexpr auto put_all = facing_counts_put_all, add_all = facing_counts_add_all;
    static constexpr auto get_all = facing_counts_get_all;
};

struct bytes {
    using handle = facing_bytes_handle;
    using key = std::string_view;
    static std::uint32_t open(std::size_t capacity, std::uint32_t clients, handle *map) {
        return facing_bytes_open(capacity, clients, map);
    }
    static constexpr auto client = facing_bytes_client;
    static constexpr auto reopen = facing_bytes_reopen;
    static constexpr auto close = facing_bytes_close;
    static constexpr auto count = facing_bytes_count;
    static constexpr auto free = facing_bytes_free;
    static constexpr auto again = facing_bytes_again;
};

template <class Library> class map_of;
template <class Library> class closed_of;

// A handle that this object alone has; it is freed with it. `longest_` is the most bytes of a value of a bytes_map.
template <class Library> class owned {
  public:
    owned(const owned &) = delete;
    owned &operator=(const owned &) = delete;
    owned(owned &&other) noexcept
        : at_(std::exchange(other.at_, typename Library::handle{nullptr})), longest_(other.longest_) {
    }
    owned &operator=(owned &&other) noexcept {
        if (this != &other) {
            Library::free(&at_);
            at_ = std::exchange(other.at_, typename Library::handle{nullptr});
            longest_ = other.longest_;
        }
        return *this;
    }
    ~owned() {
        Library::free(&at_);
    }

  protected:
    owned() noexcept : at_{nullptr} {
    }
    std::uint64_t counted() {
        std::uint64_t count;
        check(Library::count(&at_, &count));
        return count;
    }
    typename Library::handle at_;
    std::size_t longest_ = FACING_LONGEST;
    friend class map_of<Library>;
    friend class closed_of<Library>;
};

// Makes a call whose answer is a number.
template <class Call, class Handle, class... Arguments>
facing_answer answer(Call call, Handle *at, std::uint64_t key, Arguments... arguments) {
    facing_answer answered{0, 0};
    check(call(at, key, arguments..., &answered));
    return answered;
}

template <class Call, class Handle, class... Arguments>
facing_answer answer(Call call, Handle *at, std::string_view key, Arguments... arguments) {
    facing_answer answered{0, 0};
    check(call(at, key.data(), key.size(), arguments..., &answered));
    return answered;
}

inline std::optional<std::uint64_t> value_of(facing_answer answered) {
    return answered.found != 0 ? std::optional<std::uint64_t>(answered.value) : std::nullopt;
}

// One of so many slots that no other thread uses while this lives: the one at `start` if it can, once there is one.
template <class Slot> struct taken {
    Slot *it;
    taken(Slot *slots, std::size_t count, std::size_t start, std::uint32_t forks) {
        std::uint32_t round = 0;
        for (std::size_t i = 0;; i++) {
            it = &slots[(start + i) % count];
            if (!it->in_use.load() && !it->in_use.exchange(true)) return;
            if (i % count != count - 1) continue;
            round = facing_back_off(round, forks);
            if (round == FACING_NEVER) throw error(FACING_AFTER_FORK);
        }
    }
    ~taken() {
        it->in_use.store(false);
    }
    taken(const taken &) = delete;
    taken &operator=(const taken &) = delete;
};

// Further handles of a closed map, for threads that read it at the same time.
template <class Library> class readers {
  public:
    readers() = default;
    readers(const readers &) = delete;
    readers &operator=(const readers &) = delete;
    ~readers() {
        for (slot &it : slots_)
            Library::free(&it.handle);
    }
    // Makes a call by a handle that no other thread uses. Where there is no memory for one, threads take turns.
    template <class Call> auto read(typename Library::handle *first, Call call) {
        const std::size_t start = std::hash<std::thread::id>()(std::this_thread::get_id());
        const taken<slot> own(slots_.data(), slots_.size(), start, forks_);
        if (own.it->handle.at == nullptr) {
            const taken<slot> only(&first_, 1, 0, forks_);
            if (Library::again(first, &own.it->handle) != FACING_DONE) return call(first);
        }
        return call(&own.it->handle);
    }

  private:
    struct alignas(64) slot {
        std::atomic<bool> in_use{false};
        typename Library::handle handle{nullptr};
    };
    std::array<slot, 32> slots_;
    slot first_;
    std::uint32_t forks_ = facing_forks_seen();
};

} // namespace facing
#endif
