// Pairs in facing.hpp: lists of them, ranges over them, and the keys and values of calls on many. Include facing.hpp.
#ifndef FACING_PAIRS_HPP
#define FACING_PAIRS_HPP
#include "facing_base.hpp"
#include <algorithm>
#if __cplusplus >= 202002L
#include <ranges>
#endif

namespace facing {

// A list of pairs.
using number_pairs = std::vector<std::pair<std::uint64_t, std::uint64_t>>;
using counts_pairs = std::vector<std::pair<std::string, std::uint64_t>>;
using bytes_pairs = std::vector<std::pair<std::string, std::string>>;

// The most pairs of one step, unless one bucket has more.
constexpr std::size_t most_pairs = 4096;

// Adds the pairs of the next buckets, at most so many unless one bucket has more.
inline void read_pairs(facing_handle *any, facing_cursor *cursor, std::size_t len, number_pairs &all) {
    std::vector<std::uint64_t> keys(len + 1), values(len + 1);
    std::size_t copied;
    std::uint32_t status = facing_pairs(any, cursor, keys.data(), values.data(), len, &copied);
    if (status == FACING_NO_ROOM) return read_pairs(any, cursor, copied, all);
    check(status);
    for (std::size_t i = 0; i < copied; i++)
        all.emplace_back(keys[i], values[i]);
}

inline void read_pairs(facing_counts_handle *any, facing_cursor *cursor, std::size_t len, counts_pairs &all,
                       std::size_t room_len = 0) {
    std::vector<std::uint64_t> lens(len + 1), values(len + 1);
    std::vector<char> room(room_len != 0 ? room_len : 64 * len + 1);
    facing_bytes_sizes copied;
    std::uint32_t status =
        facing_counts_pairs(any, cursor, lens.data(), values.data(), len, room.data(), room.size(), &copied);
    if (status == FACING_NO_ROOM) return read_pairs(any, cursor, copied.pairs, all, copied.bytes);
    check(status);
    const char *at = room.data();
    for (std::size_t i = 0; i < copied.pairs; at += lens[i++])
        all.emplace_back(std::string(at, lens[i]), values[i]);
}

inline void read_pairs(facing_bytes_handle *any, facing_cursor *cursor, std::size_t len, bytes_pairs &all,
                       std::size_t room_len = 0) {
    std::vector<std::uint64_t> key_lens(len + 1), value_lens(len + 1);
    std::vector<char> room(room_len != 0 ? room_len : 256 * len + 1);
    facing_bytes_sizes copied;
    std::uint32_t status =
        facing_bytes_pairs(any, cursor, key_lens.data(), value_lens.data(), len, room.data(), room.size(), &copied);
    if (status == FACING_NO_ROOM) return read_pairs(any, cursor, copied.pairs, all, copied.bytes);
    check(status);
    const char *at = room.data();
    for (std::size_t i = 0; i < copied.pairs; i++) {
        all.emplace_back(std::string(at, key_lens[i]), std::string(at + key_lens[i], value_lens[i]));
        at += key_lens[i] + value_lens[i];
    }
}

// The pairs of a client or of a closed map, as a range: some buckets are read at a time, each as it is when it is read. An
// iterator is one of input: it goes over the pairs once, and its copies go with it.
template <class Source, class Pairs> class pairs_range {
  public:
    class iterator {
        // Where a walk is.
        struct walk {
            Source *source;
            facing_cursor cursor{0};
            Pairs pairs{};
            std::size_t at = 0;
            // Whether there is a pair.
            bool read() {
                while (at == pairs.size() && cursor.at != UINT64_MAX) {
                    pairs = source->pairs(cursor, 1024);
                    at = 0;
                }
                return at != pairs.size();
            }
        };

      public:
        using iterator_category = std::input_iterator_tag;
        using value_type = typename Pairs::value_type;
        using difference_type = std::ptrdiff_t;
        using pointer = const value_type *;
        using reference = const value_type &;
        // The pair before a step.
        class before {
          public:
            explicit before(value_type pair) : pair_(std::move(pair)) {
            }
            reference operator*() const {
                return pair_;
            }

          private:
            value_type pair_;
        };
        // The end.
        iterator() = default;
        explicit iterator(Source *source) : walk_(std::make_shared<walk>(walk{source})) {
            read();
        }
        reference operator*() const {
            return walk_->pairs[walk_->at];
        }
        pointer operator->() const {
            return &**this;
        }
        iterator &operator++() {
            walk_->at++;
            read();
            return *this;
        }
        before operator++(int) {
            before pair(**this);
            ++*this;
            return pair;
        }
        friend bool operator==(const iterator &a, const iterator &b) {
            return a.walk_ == b.walk_;
        }
        friend bool operator!=(const iterator &a, const iterator &b) {
            return a.walk_ != b.walk_;
        }

      private:
        void read() {
            if (!walk_->read()) walk_.reset();
        }
        std::shared_ptr<walk> walk_;
    };
    explicit pairs_range(Source *source) : source_(source) {
    }
    iterator begin() const {
        return iterator(source_);
    }
    iterator end() const {
        return iterator();
    }

  private:
    Source *source_;
};

// The keys and values of a range of pairs, as the calls on many take them.
template <class Key> struct many_keys {
    std::vector<std::uint64_t> keys, values;
    template <class Keys> explicit many_keys(const Keys &all) {
        for (const auto &key : all)
            keys.push_back(key);
    }
    template <class Pairs> many_keys(const Pairs &all, std::true_type) {
        for (const auto &[key, value] : all) {
            keys.push_back(key);
            values.push_back(value);
        }
    }
    std::size_t size() const {
        return keys.size();
    }
    template <class Call, class Handle> std::uint32_t store(Call call, Handle *at, std::size_t *done) const {
        return call(at, keys.data(), values.data(), keys.size(), done);
    }
    template <class Call, class Handle>
    std::uint32_t get(Call call, Handle *at, facing_answer *answers, std::size_t *done) const {
        return call(at, keys.data(), answers, keys.size(), done);
    }
};

template <> struct many_keys<std::string_view> {
    std::vector<std::uint64_t> lens, values;
    std::string keys;
    template <class Keys> explicit many_keys(const Keys &all) {
        for (const std::string_view key : all)
            add(key);
    }
    template <class Pairs> many_keys(const Pairs &all, std::true_type) {
        for (const auto &[key, value] : all) {
            add(key);
            values.push_back(value);
        }
    }
    void add(std::string_view key) {
        lens.push_back(key.size());
        keys += key;
    }
    std::size_t size() const {
        return lens.size();
    }
    template <class Call, class Handle> std::uint32_t store(Call call, Handle *at, std::size_t *done) const {
        return call(at, lens.data(), lens.size(), keys.data(), keys.size(), values.data(), done);
    }
    template <class Call, class Handle>
    std::uint32_t get(Call call, Handle *at, facing_answer *answers, std::size_t *done) const {
        return call(at, lens.data(), lens.size(), keys.data(), keys.size(), answers, done);
    }
};

} // namespace facing

#if __cplusplus >= 202002L && defined(__cpp_lib_ranges)
template <class Source, class Pairs>
inline constexpr bool std::ranges::enable_view<facing::pairs_range<Source, Pairs>> = true;
#endif
#endif
