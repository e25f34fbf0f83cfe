// Concurrent hash maps for C++17, over facing.h, facing_counts.h and facing_bytes.h: move-only classes, std::optional for
// values, exceptions for failures.
//
//     facing::map         numbers to numbers       facing::client         facing::closed_map     facing::pool
//     facing::counts_map  byte strings to numbers  facing::counts_client  facing::closed_counts  facing::counts_pool
//     facing::bytes_map   byte strings to the same facing::bytes_client   facing::closed_bytes   facing::bytes_pool
//
// A client is used by one thread at a time, and may be moved to another. Any thread calls a pool. The const functions of a closed map may be called
// by several threads at once. Every function throws facing::error where its status is not FACING_DONE; nothing was changed
// then, but by a close that failed with FACING_BIN_MISSING. Where there is no memory for a string that it returns it throws
// std::bad_alloc, after the call was made.
#ifndef FACING_HPP
#define FACING_HPP
#include "facing_pairs.hpp"

namespace facing {

// What an exchange saw: whether the value was the expected one, and the value that was there.
template <class Value> struct exchanged {
    bool done;
    std::optional<Value> seen;
    explicit operator bool() const noexcept {
        return done;
    }
};

// A client of a map whose values are numbers. It goes back to its map when it is destroyed.
template <class Library> class client_of : public owned<Library> {
  public:
    using key_type = typename Library::key;
    std::optional<std::uint64_t> get(key_type key) {
        return value_of(answer(Library::get, &this->at_, key));
    }
    bool contains(key_type key) {
        return answer(Library::contains, &this->at_, key).found != 0;
    }
    std::optional<std::uint64_t> put(key_type key, std::uint64_t value) {
        return value_of(answer(Library::put, &this->at_, key, value));
    }
    std::optional<std::uint64_t> put_if_absent(key_type key, std::uint64_t value) {
        return value_of(answer(Library::put_if_absent, &this->at_, key, value));
    }
    std::optional<std::uint64_t> remove(key_type key) {
        return value_of(answer(Library::remove, &this->at_, key));
    }
    bool remove_if(key_type key, std::uint64_t value) {
        return answer(Library::remove_if, &this->at_, key, value).found != 0;
    }
    std::optional<std::uint64_t> replace(key_type key, std::uint64_t value) {
        return value_of(answer(Library::replace, &this->at_, key, value));
    }
    bool replace_if(key_type key, std::uint64_t old_value, std::uint64_t new_value) {
        return answer(Library::replace_if, &this->at_, key, old_value, new_value).found != 0;
    }
    std::uint64_t add(key_type key, std::uint64_t value) {
        return answer(Library::add, &this->at_, key, value).value;
    }
    std::uint64_t greatest(key_type key, std::uint64_t value) {
        return answer(Library::greatest, &this->at_, key, value).value;
    }
    std::uint64_t set(key_type key, std::uint64_t value) {
        return answer(Library::set, &this->at_, key, value).value;
    }
    // Adds where the sum is at most `most`, and returns whether it is.
    bool add_up_to(key_type key, std::uint64_t amount, std::uint64_t most) {
        return answer(Library::add_up_to, &this->at_, key, amount, most).found != 0;
    }
    // Stores what the function makes of the key's value, or removes the key where it makes none, and returns that. The
    // function takes and returns a std::optional<std::uint64_t>. It is called again where another thread changed the value
    // meanwhile; no bucket is locked while it runs.
    template <class Change> std::optional<std::uint64_t> update(key_type key, Change change) {
        std::optional<std::uint64_t> now = get(key), next;
        exchanged<std::uint64_t> seen{false, {}};
        do {
            next = change(std::as_const(now));
            seen = exchange(key, now, next);
            now = seen.seen;
        } while (!seen);
        return next;
    }
    // Stores the value, or removes the key where it is none, if the key's value is the expected one, or if it has none and
    // none is expected.
    exchanged<std::uint64_t> exchange(key_type key, std::optional<std::uint64_t> expected,
                                      std::optional<std::uint64_t> value) {
        const std::uint64_t *from = expected ? &*expected : nullptr, *to = value ? &*value : nullptr;
        facing_seen seen{0, 0, 0};
        if constexpr (std::is_integral_v<key_type>)
            check(Library::exchange(&this->at_, key, from, to, &seen));
        else
            check(Library::exchange(&this->at_, key.data(), key.size(), from, to, &seen));
        return {seen.exchanged != 0, seen.found != 0 ? std::optional<std::uint64_t>(seen.value) : std::nullopt};
    }
    // One call for each pair of a range, in order, such as a std::map: stores its value, or adds it. They throw many_error,
    // which says how many calls were made.
    template <class Pairs> void put_all(const Pairs &pairs) {
        store(Library::put_all, pairs);
    }
    template <class Pairs> void add_all(const Pairs &pairs) {
        store(Library::add_all, pairs);
    }
    // The value at each key of a range.
    template <class Keys> std::vector<std::optional<std::uint64_t>> get_all(const Keys &keys) {
        const many_keys<key_type> all(keys);
        std::vector<facing_answer> answers(all.size());
        std::vector<std::optional<std::uint64_t>> values;
        std::size_t done = 0;
        std::uint32_t status = all.get(Library::get_all, &this->at_, answers.data(), &done);
        check_many(status, done);
        for (const facing_answer &it : answers)
            values.push_back(value_of(it));
        return values;
    }
    // An estimate of how many keys the map has.
    std::uint64_t count() {
        return this->counted();
    }
    using pairs_type =
        std::vector<std::pair<std::conditional_t<std::is_integral_v<key_type>, key_type, std::string>, std::uint64_t>>;
    // The pairs of the next buckets, about as many as `len`, or none; the cursor ends as {UINT64_MAX}.
    pairs_type pairs(facing_cursor &cursor, std::size_t len) & {
        pairs_type all;
        read_pairs(&this->at_, &cursor, std::min(len, most_pairs), all);
        return all;
    }
    // All pairs: for (const auto &[key, value] : client.pairs()).
    pairs_range<client_of, pairs_type> pairs() & {
        return pairs_range<client_of, pairs_type>(this);
    }
    void pairs() && = delete;

  private:
    template <class Call, class Pairs> void store(Call call, const Pairs &pairs) {
        const many_keys<key_type> all(pairs, std::true_type());
        std::size_t done = 0;
        std::uint32_t status = all.store(call, &this->at_, &done);
        check_many(status, done);
    }
    friend class map_of<Library>;
    client_of() = default;
};

// A value of a map of byte strings, which stays as it is when the map changes. It is freed with this object.
class bytes_value : public owned<bytes> {
  public:
    std::size_t size() {
        facing_bytes_answer answered;
        check(facing_bytes_read(&at_, 0, nullptr, 0, &answered));
        return answered.len;
    }
    // Copies bytes from number `from` on, and returns how many.
    std::size_t read(std::size_t from, char *room, std::size_t room_len) {
        facing_bytes_answer answered;
        check(facing_bytes_read(&at_, from, room, room_len, &answered));
        std::size_t rest = from < answered.len ? answered.len - from : 0;
        return rest < room_len ? rest : room_len;
    }
    std::string text() {
        std::string all(size(), '\0');
        read(0, all.data(), all.size());
        return all;
    }

  private:
    friend class client_of<bytes>;
    bytes_value() = default;
};

// A client of a map of byte strings, with room for the longest value of that map: a longer one fails with FACING_TOO_LONG.
template <> class client_of<bytes> : public owned<bytes> {
  public:
    std::optional<std::string> get(std::string_view key) {
        return value(facing_bytes_get, key.data(), key.size());
    }
    // The value itself, which is not copied.
    std::optional<bytes_value> hold(std::string_view key) {
        bytes_value held;
        check(facing_bytes_hold(&at_, key.data(), key.size(), &held.at_, nullptr));
        return held.at_.at != nullptr ? std::optional<bytes_value>(std::move(held)) : std::nullopt;
    }
    bool contains(std::string_view key) {
        return truth(facing_bytes_contains, key.data(), key.size());
    }
    std::optional<std::string> put(std::string_view key, std::string_view value_) {
        bound(value_);
        return value(facing_bytes_put, key.data(), key.size(), value_.data(), value_.size());
    }
    std::optional<std::string> put_if_absent(std::string_view key, std::string_view value_) {
        bound(value_);
        return value(facing_bytes_put_if_absent, key.data(), key.size(), value_.data(), value_.size());
    }
    std::optional<std::string> remove(std::string_view key) {
        return value(facing_bytes_remove, key.data(), key.size());
    }
    bool remove_if(std::string_view key, std::string_view value_) {
        return truth(facing_bytes_remove_if, key.data(), key.size(), value_.data(), value_.size());
    }
    std::optional<std::string> replace(std::string_view key, std::string_view value_) {
        bound(value_);
        return value(facing_bytes_replace, key.data(), key.size(), value_.data(), value_.size());
    }
    bool replace_if(std::string_view key, std::string_view old_value, std::string_view new_value) {
        bound(new_value);
        return truth(facing_bytes_replace_if, key.data(), key.size(), old_value.data(), old_value.size(), new_value.data(),
                     new_value.size());
    }
    // As that of a client of numbers. The function takes and returns a std::optional<std::string>.
    template <class Change> std::optional<std::string> update(std::string_view key, Change change) {
        facing_bytes_seen seen{0, 0, 0};
        std::optional<std::string> next;
        do {
            const std::optional<std::string> now = get(key);
            next = change(now);
            if (next) bound(*next);
            facing_bytes_view from = view(now), to = view(next);
            check(facing_bytes_exchange(&at_, key.data(), key.size(), now ? &from : nullptr, next ? &to : nullptr, nullptr,
                                        0, &seen));
        } while (seen.exchanged == 0);
        return next;
    }
    // As that of a client of numbers.
    exchanged<std::string> exchange(std::string_view key, std::optional<std::string_view> expected,
                                    std::optional<std::string_view> value_) {
        if (value_) bound(*value_);
        facing_bytes_seen seen{0, 0, 0};
        facing_bytes_view from = view(expected), to = view(value_);
        if (!room_) room_.reset(new char[longest_ + 1]);
        check(facing_bytes_exchange(&at_, key.data(), key.size(), expected ? &from : nullptr, value_ ? &to : nullptr,
                                    room_.get(), longest_, &seen));
        return {seen.exchanged != 0,
                seen.found != 0 ? std::optional<std::string>(std::string(room_.get(), seen.len)) : std::nullopt};
    }
    // One call for each pair of a range, in order: stores its value. Throws many_error, which says how many were made.
    template <class Pairs> void put_all(const Pairs &pairs) {
        std::vector<std::uint64_t> key_lens, value_lens;
        std::string all;
        std::size_t done = 0;
        for (const auto &[key, value_] : pairs) {
            const std::string_view from = key, to = value_;
            bound(to);
            key_lens.push_back(from.size());
            value_lens.push_back(to.size());
            all.append(from).append(to);
        }
        std::uint32_t status =
            facing_bytes_put_all(&at_, key_lens.data(), value_lens.data(), key_lens.size(), all.data(), all.size(), &done);
        check_many(status, done);
    }
    // The value at each key of a range.
    template <class Keys> std::vector<std::optional<std::string>> get_all(const Keys &keys) {
        std::vector<std::optional<std::string>> values;
        for (const std::string_view key : keys)
            values.push_back(get(key));
        return values;
    }
    // An estimate of how many keys the map has.
    std::uint64_t count() {
        return counted();
    }
    // The pairs of the next buckets, about as many as `len`, or none; the cursor ends as {UINT64_MAX}.
    bytes_pairs pairs(facing_cursor &cursor, std::size_t len) & {
        bytes_pairs all;
        read_pairs(&at_, &cursor, std::min(len, most_pairs), all);
        return all;
    }
    // All pairs: for (const auto &[key, value] : client.pairs()).
    pairs_range<client_of, bytes_pairs> pairs() & {
        return pairs_range<client_of, bytes_pairs>(this);
    }
    void pairs() && = delete;

  private:
    template <class Text> static facing_bytes_view view(const std::optional<Text> &text) {
        return text ? facing_bytes_view{text->data(), text->size()} : facing_bytes_view{nullptr, 0};
    }
    // What the map stores finds room in each of its clients.
    void bound(std::string_view value) const {
        if (value.size() > longest_) throw error(FACING_TOO_LONG);
    }
    template <class Call, class... Arguments> std::optional<std::string> value(Call call, Arguments... arguments) {
        facing_bytes_answer answered{0, 0};
        if (!room_) room_.reset(new char[longest_ + 1]);
        check(call(&at_, arguments..., room_.get(), longest_, &answered));
        return answered.found != 0 ? std::optional<std::string>(std::string(room_.get(), answered.len)) : std::nullopt;
    }
    template <class Call, class... Arguments> bool truth(Call call, Arguments... arguments) {
        facing_bytes_answer answered{0, 0};
        check(call(&at_, arguments..., &answered));
        return answered.found != 0;
    }
    std::unique_ptr<char[]> room_;
    friend class map_of<bytes>;
    client_of() = default;
};

// A map that is called no more. Threads read it at the same time.
template <class Library> class closed_of : public owned<Library> {
  public:
    using pairs_type = std::conditional_t<std::is_same_v<Library, bytes>, bytes_pairs,
                                          std::conditional_t<std::is_same_v<Library, counts>, counts_pairs, number_pairs>>;
    std::uint64_t size() const {
        return read([](auto *at) {
            std::uint64_t count;
            check(Library::count(at, &count));
            return count;
        });
    }
    auto get(typename Library::key key) const {
        return read([key](auto *at) {
            if constexpr (std::is_same_v<Library, bytes>) {
                return text_at(at, key);
            } else {
                return value_of(answer(Library::find, at, key));
            }
        });
    }
    bool contains(typename Library::key key) const {
        return get(key).has_value();
    }
    pairs_type pairs() const {
        return read([](auto *at) {
            pairs_type all;
            facing_cursor cursor{0};
            while (cursor.at != UINT64_MAX)
                read_pairs(at, &cursor, most_pairs, all);
            return all;
        });
    }
    // The pairs of the next buckets, about as many as `len`, or none; the cursor ends as {UINT64_MAX}.
    pairs_type pairs(facing_cursor &cursor, std::size_t len) const {
        return read([&cursor, len](auto *at) {
            pairs_type all;
            read_pairs(at, &cursor, std::min(len, most_pairs), all);
            return all;
        });
    }
    // All pairs: for (const auto &[key, value] : closed).
    using const_iterator = typename pairs_range<const closed_of, pairs_type>::iterator;
    const_iterator begin() const {
        return const_iterator(this);
    }
    const_iterator end() const {
        return const_iterator();
    }
    // A new map with copies of the pairs.
    map_of<Library> reopen(std::uint32_t clients) const {
        typename Library::handle opened{nullptr};
        read([&opened, clients](auto *at) {
            check(Library::reopen(at, clients, &opened));
            return 0;
        });
        return map_of<Library>(opened, this->longest_);
    }

  private:
    friend class map_of<Library>;
    closed_of() = default;
    template <class Call> auto read(Call call) const {
        if (!readers_) throw error(FACING_WRONG_HANDLE);
        return readers_->read(const_cast<typename Library::handle *>(&this->at_), call);
    }
    // A string that is as long as the value.
    static std::optional<std::string> text_at(facing_bytes_handle *at, std::string_view key) {
        char room[256];
        facing_bytes_answer answered{0, 0};
        std::uint32_t status = facing_bytes_find(at, key.data(), key.size(), room, sizeof room, &answered);
        if (status == FACING_NO_ROOM) {
            std::string whole(answered.len, '\0');
            check(facing_bytes_find(at, key.data(), key.size(), whole.data(), whole.size(), &answered));
            return whole;
        }
        check(status);
        return answered.found != 0 ? std::optional<std::string>(std::string(room, answered.len)) : std::nullopt;
    }
    std::unique_ptr<readers<Library>> readers_;
};

// An open map. Its clients must all be destroyed before it is closed; it lives until the last of them is.
template <class Library> class map_of : public owned<Library> {
  public:
    // An empty map, with a table of so many buckets to begin with; it draws a secret seed. A map of numbers may have a salt
    // as well, which is no secret, and one of byte strings a number of bytes that no value is longer than: each client has
    // room for so many.
    template <class... More> explicit map_of(std::size_t capacity = 16, std::uint32_t clients = 4, More... more) {
        if constexpr (std::is_same_v<Library, bytes> && sizeof...(more) != 0) {
            this->longest_ = (more, ...);
            if (this->longest_ > FACING_LONGEST_VALUE) throw error(FACING_TOO_LONG);
            check(Library::open(capacity, clients, &this->at_));
        } else {
            check(Library::open(capacity, clients, &this->at_, more...));
        }
    }
    client_of<Library> client() {
        client_of<Library> taken;
        check(Library::client(&this->at_, &taken.at_));
        taken.longest_ = this->longest_;
        return taken;
    }
    // An estimate of how many keys there are.
    std::uint64_t count() {
        return this->counted();
    }
    // Closes the map. Where that fails with FACING_CLIENT_OUT it is as it was; with FACING_NO_MEMORY it gives out no more
    // clients, and can be closed again.
    closed_of<Library> close() {
        closed_of<Library> closed;
        closed.readers_ = std::make_unique<readers<Library>>();
        check(Library::close(&this->at_));
        std::swap(closed.at_, this->at_);
        closed.longest_ = this->longest_;
        return closed;
    }

  private:
    friend class closed_of<Library>;
    map_of(typename Library::handle at, std::size_t longest) {
        this->at_ = at;
        this->longest_ = longest;
    }
};

} // namespace facing

#include "facing_pool.hpp"

namespace facing {

using map = map_of<numbers>;
using client = client_of<numbers>;
using closed_map = closed_of<numbers>;
using counts_map = map_of<counts>;
using counts_client = client_of<counts>;
using closed_counts = closed_of<counts>;
using bytes_map = map_of<bytes>;
using bytes_client = client_of<bytes>;
using closed_bytes = closed_of<bytes>;
using pool = pool_of<numbers>;
using counts_pool = pool_of<counts>;
using bytes_pool = pool_of<bytes>;

} // namespace facing

// (the headers of C need their own macros no more: all of them are included)
#undef FACING_ADDRESS
#undef FACING_API
#undef FACING_AS_BYTES
#undef FACING_BYTES_PLACE
#undef FACING_CHECKED
#undef FACING_ENTER
#undef FACING_FREED
#undef FACING_INNER
#undef FACING_LEAVE
#undef FACING_NULL
#undef FACING_SEEN
#undef FACING_SEE_ALL
#undef FACING_TO
#undef FACING_WATCHED
#undef FACING_WORD
#endif
