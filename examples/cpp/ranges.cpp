// Pairs as ranges, exchanges, calls on many keys, and pools of facing.hpp. With C++20 the ranges of the library of C++ too.
#include "facing.hpp"
#include <algorithm>
#include <cstdio>
#include <map>
#include <numeric>
#include <thread>

static std::atomic<unsigned long long> wrong;

static void want(bool is_so) {
    wrong += !is_so;
}

template <class Call> static std::uint32_t status_of(Call call) {
    try {
        call();
        return FACING_DONE;
    } catch (const facing::error &it) {
        return it.status();
    }
}

// The keys 0 to 2,999, with values three times as large.
static facing::map map_of_numbers() {
    facing::map map(16, 2);
    facing::client client = map.client();
    for (std::uint64_t key = 0; key < 3000; key++) client.put(key, 3 * key);
    return map;
}

static void walk_with_algorithms() {
    facing::map map = map_of_numbers();
    facing::client client = map.client();
    const auto pairs = client.pairs();
    const auto found = std::find_if(pairs.begin(), pairs.end(), [](const auto &pair) { return pair.second == 600; });
    want(found != pairs.end() && found->first == 200);
    want(std::none_of(pairs.begin(), pairs.end(), [](const auto &pair) { return pair.first > 2999; }));
    want(std::count_if(pairs.begin(), pairs.end(), [](const auto &pair) { return pair.first < 10; }) == 10);
    const std::map<std::uint64_t, std::uint64_t> copied(pairs.begin(), pairs.end());
    want(copied.size() == 3000 && copied.at(7) == 21);
    auto it = pairs.begin();
    const auto first = *it;
    want(*it++ == first && it != pairs.begin() && *it != first);
    facing::map empty(4096, 1);
    facing::client of_empty = empty.client();
    want(of_empty.pairs().begin() == of_empty.pairs().end());
}

static void walk_over_closed_maps() {
    const facing::closed_map closed = map_of_numbers().close();
    std::uint64_t sum = 0;
    for (const auto &[key, value] : closed) sum += key + value;
    want(sum == 4 * (2999 * 3000 / 2));
    want(std::find_if(closed.begin(), closed.end(), [](const auto &pair) { return pair.first == 3000; }) == closed.end());
    facing::bytes_map texts;
    texts.client().put_all(std::map<std::string, std::string>{{"a", "one"}, {"b", "two"}});
    const facing::closed_bytes closed_texts = texts.close();
    std::map<std::string, std::string> copied(closed_texts.begin(), closed_texts.end());
    want(copied == std::map<std::string, std::string>{{"a", "one"}, {"b", "two"}});
    facing::counts_map counts;
    counts.client().add("word", 4);
    for (const auto &[key, value] : counts.close()) want(key == "word" && value == 4);
}

#if __cplusplus >= 202002L
static_assert(std::ranges::input_range<facing::closed_map> && std::ranges::view<decltype(std::declval<facing::client &>().pairs())>);

static void walk_with_views() {
    facing::map map = map_of_numbers();
    facing::client client = map.client();
    const auto is_small = [](const auto &pair) { return pair.first < 100; };
    std::uint64_t sum = 0;
    for (const auto value : client.pairs() | std::views::filter(is_small) | std::views::values) sum += value;
    want(sum == 3 * (99 * 100 / 2));
    want(std::ranges::count_if(client.pairs(), is_small) == 100);
    auto keys = client.pairs() | std::views::keys;
    want(std::ranges::find(keys, 2999u) != keys.end() && std::ranges::find(keys, 3000u) == keys.end());
}
#else
static void walk_with_views() {
}
#endif

template <class Client> static void exchange_numbers(Client &client, typename Client::key_type key) {
    const auto none = std::optional<std::uint64_t>();
    want(client.exchange(key, none, 5).done && client.get(key) == 5u);
    const auto refused = client.exchange(key, none, 6);
    want(!refused && refused.seen == 5u);
    want(!client.exchange(key, 4, 6) && client.exchange(key, 5, 6) && client.get(key) == 6u);
    want(client.exchange(key, 6, none) && !client.get(key) && !client.exchange(key, 6, none).seen);
}

static void exchange() {
    facing::map map(16, 1);
    facing::client client = map.client();
    exchange_numbers(client, 7);
    facing::counts_map counts(16, 1);
    facing::counts_client count = counts.client();
    exchange_numbers(count, "word");
    facing::bytes_map texts(16, 1, 10);
    facing::bytes_client text = texts.client();
    want(text.exchange("a", std::nullopt, "one") && !text.exchange("a", std::nullopt, "two"));
    want(text.exchange("a", "no", "two").seen == "one" && text.exchange("a", "one", "two") && text.get("a") == "two");
    want(status_of([&] { text.exchange("a", "two", "eleven bytes"); }) == FACING_TOO_LONG && text.get("a") == "two");
    want(text.exchange("a", "two", std::nullopt) && !text.contains("a"));
}

static void call_many() {
    facing::map map(16, 1);
    facing::client client = map.client();
    client.put_all(std::map<std::uint64_t, std::uint64_t>{{1, 10}, {2, 20}});
    client.add_all(facing::number_pairs{{2, 5}, {3, 7}});
    const std::vector<std::optional<std::uint64_t>> values = client.get_all(std::vector<std::uint64_t>{3, 1, 9, 2});
    want(values == std::vector<std::optional<std::uint64_t>>{7, 10, std::nullopt, 25});
    want(client.get_all(std::vector<std::uint64_t>()).empty());
    facing::counts_map counts(16, 1);
    facing::counts_client count = counts.client();
    count.add_all(facing::counts_pairs{{"a", 1}, {"", 2}, {"a", 3}});
    count.put_all(facing::counts_pairs{{"b", 9}});
    want(count.get_all(std::vector<std::string_view>{"a", "?", "", "b"})
         == std::vector<std::optional<std::uint64_t>>{4, std::nullopt, 2, 9});
    std::size_t done = 9;
    try {
        count.put_all(facing::counts_pairs{{"c", 1}, {std::string(FACING_LONGEST + 1, 'x'), 2}, {"d", 3}});
    } catch (const facing::many_error &it) {
        want(it.status() == FACING_TOO_LONG);
        done = it.done();
    }
    want(done == 1 && count.contains("c") && !count.contains("d"));
    facing::bytes_map texts(16, 1, 10);
    facing::bytes_client text = texts.client();
    text.put_all(facing::bytes_pairs{{"a", "one"}, {"", ""}});
    want(text.get_all(std::vector<std::string>{"", "?", "a"})
         == std::vector<std::optional<std::string>>{"", std::nullopt, "one"});
    want(status_of([&] { text.put_all(facing::bytes_pairs{{"b", "1"}, {"c", "eleven bytes"}}); }) == FACING_TOO_LONG);
    want(!text.contains("b"));
}

// Eight threads call a pool of two clients.
static void share_a_pool() {
    facing::pool pool(16, 2);
    std::vector<std::thread> threads;
    for (int i = 0; i < 8; i++)
        threads.emplace_back([&pool] {
            for (std::uint64_t key = 0; key < 1000; key++) pool.with([key](facing::client &it) { return it.add(key % 10, 1); });
        });
    for (std::thread &it : threads) it.join();
    want(pool.count() == 10);
    const facing::closed_map closed = pool.close();
    for (std::uint64_t key = 0; key < 10; key++) want(closed.get(key) == 800u);
    want(status_of([&] { pool.count(); }) == FACING_BAD_ARGUMENT && status_of([&] { pool.close(); }) == FACING_WRONG_HANDLE);
}

static void call_pools() {
    const std::string longest(1 << 20, 'y');
    facing::bytes_pool texts(16, 2, longest.size());
    want(!texts.with([&](facing::bytes_client &it) { return it.put("a", longest); }));
    want(texts.with([](facing::bytes_client &it) { return it.get("a"); }) == longest);
    want(status_of([&] { texts.with([&](facing::bytes_client &it) { it.put("a", longest + "y"); }); }) == FACING_TOO_LONG);
    want(texts.count() == 1);
    facing::counts_pool counts(16, 1);
    facing::counts_pool moved = std::move(counts);
    want(moved.with([](facing::counts_client &it) { return it.add("a", 2); }) == 2);
    want(status_of([] { facing::pool none(16, 0); }) == FACING_BAD_CLIENTS);
    want(status_of([] { facing::pool none(0, 1); }) == FACING_BAD_CAPACITY);
    // What a function throws gives the client back.
    facing::pool pool(16, 1);
    for (int i = 0; i < 3; i++) want(status_of([&] { pool.with([](facing::client &) { throw facing::error(7); }); }) == 7);
    want(pool.with([](facing::client &it) { return it.add(1, 1); }) == 1);
}

int main() {
    walk_with_algorithms();
    walk_over_closed_maps();
    walk_with_views();
    exchange();
    call_many();
    share_a_pool();
    call_pools();
    std::printf("%llu wrong\n", wrong.load());
    return wrong != 0;
}
