// Each call of facing.hpp, and what fails.
#include "facing.hpp"
#include <cstdio>
#include <map>
#include <thread>
#include <type_traits>

static std::atomic<unsigned long long> wrong;

static void want(bool is_so) {
    wrong += !is_so;
}

template <class Call> static std::uint32_t status_of(Call call) {
    try {
        call();
        return FACING_DONE;
    } catch (const facing::error &it) {
        return it.status();
    }
}

// The calls of a client whose values are numbers, on two keys.
template <class Client> static void calls(Client &client, typename Client::key_type one, typename Client::key_type two) {
    want(!client.put(one, 4));
    want(client.put(one, 5) == 4u);
    want(client.put_if_absent(one, 6) == 5u);
    want(client.replace(one, 6) == 5u);
    want(!client.replace(two, 6) && !client.get(two));
    want(!client.replace_if(one, 5, 7));
    want(client.replace_if(one, 6, 7));
    want(client.add(one, 3) == 10);
    want(client.set(one, 4) == 4);
    want(client.greatest(one, 3) == 4);
    want(client.greatest(one, 9) == 9 && client.get(one) == 9u && client.set(one, 4) == 4);
    want(client.contains(one) && !client.contains(two));
    want(client.count() == 1);
    want(!client.remove_if(one, 3));
    want(client.remove_if(one, 4));
    want(!client.remove(one));
    want(!client.get(one));
    want(client.add_up_to(one, 2, 3) && !client.add_up_to(one, 2, 3) && client.get(one) == 2u);
    want(client.update(one, [](std::optional<std::uint64_t> seen) { return std::optional(*seen * 5); }) == 10u);
    want(client.update(two, [](std::optional<std::uint64_t> seen) { return std::optional(seen ? 1u : 7u); }) == 7u);
    want(!client.update(two, [](std::optional<std::uint64_t>) { return std::optional<std::uint64_t>(); }));
    want(!client.get(two) && client.remove(one) == 10u);
}

// Two threads change one value by a function.
static void update_together() {
    facing::map map(16, 2);
    {
        const auto count = [](facing::client client) {
            for (int i = 0; i < 10000; i++)
                client.update(7, [](std::optional<std::uint64_t> seen) { return std::optional(seen.value_or(0) + 1); });
        };
        std::thread first(count, map.client()), second(count, map.client());
        first.join();
        second.join();
    }
    want(map.close().get(7) == 20000u);
}

// Four threads read closed maps, which are const.
static void read_together(const facing::closed_map &numbers, const facing::closed_bytes &bytes) {
    std::vector<std::thread> threads;
    for (int i = 0; i < 4; i++)
        threads.emplace_back([&numbers, &bytes] {
            for (std::uint64_t key = 0; key < 1000; key++) {
                want(numbers.get(key) == key && numbers.contains(key) && !numbers.get(key + 1000));
                want(bytes.get(std::to_string(key)) == std::string(key, 'x'));
            }
            want(numbers.size() == 1000 && numbers.pairs().size() == 1000);
        });
    for (std::thread &it : threads) it.join();
}

static void read_closed() {
    facing::map map;
    facing::bytes_map bytes;
    {
        facing::client client = map.client();
        facing::bytes_client text = bytes.client();
        for (std::uint64_t key = 0; key < 1000; key++) {
            client.put(key, key);
            text.put(std::to_string(key), std::string(key, 'x'));
        }
    }
    const facing::closed_map closed = map.close();
    const facing::closed_bytes closed_bytes = bytes.close();
    read_together(closed, closed_bytes);
    // A string has room for itself, and not for the longest value.
    want(closed_bytes.get("5")->capacity() < 100 && closed_bytes.get("900")->capacity() < 2000);
    facing::closed_map moved = facing::map().close();
    const facing::closed_map taken = std::move(moved);
    want(status_of([&] { moved.get(1); }) == FACING_WRONG_HANDLE && taken.size() == 0);
}

// A map for long values, of which each client has room.
static void call_long_values() {
    const std::string longest(1 << 20, 'y');
    facing::bytes_map map(16, 1, longest.size());
    {
        facing::bytes_client client = map.client();
        want(!client.put("a", longest) && client.get("a") == longest && client.put("a", "b") == longest);
        want(!client.put("c", longest) && client.remove("c") == longest);
        want(status_of([&] { client.put("a", longest + "y"); }) == FACING_TOO_LONG && client.get("a") == "b");
        client.put("a", longest);
    }
    const facing::closed_bytes closed = map.close();
    want(closed.get("a") == longest);
    facing::bytes_map again = closed.reopen(1);
    want(again.client().remove("a") == longest);
    want(status_of([] { facing::bytes_map none(16, 1, std::size_t{1} << 30); }) == FACING_TOO_LONG);
    want(status_of([] { facing::bytes_map().client().put("a", std::string(FACING_LONGEST + 1, 'z')); }) == FACING_TOO_LONG);
}

// A longer value than a map was opened for is refused by each call that stores one, and changes nothing.
static void refuse_long_values() {
    const std::string longest(100, 'y'), longer(101, 'y');
    facing::bytes_map map(16, 1, 100);
    facing::bytes_client client = map.client();
    client.put("a", longest);
    want(status_of([&] { client.put("a", longer); }) == FACING_TOO_LONG);
    want(status_of([&] { client.put_if_absent("b", longer); }) == FACING_TOO_LONG);
    want(status_of([&] { client.replace("a", longer); }) == FACING_TOO_LONG);
    want(status_of([&] { client.replace_if("a", longest, longer); }) == FACING_TOO_LONG);
    want(status_of([&] { client.update("a", [&](const auto &) { return std::optional(longer); }); }) == FACING_TOO_LONG);
    want(!client.remove_if("a", longer) && !client.replace_if("a", longer, "c"));
    want(client.get("a") == longest && !client.contains("b") && client.count() == 1);
}

// What is moved has all that it had, and what was there before is freed.
static void move_all() {
    const std::string longest(1 << 20, 'y');
    facing::bytes_map first(16, 1, longest.size()), map(std::move(first)), other(16, 1);
    facing::bytes_client client = other.client();
    client.put("a", "of another map");
    client = map.client();
    want(!client.put("a", longest) && client.get("a") == longest);
    facing::bytes_client moved(std::move(client));
    want(moved.get("a") == longest && moved.put("b", longest) == std::nullopt && moved.get("b") == longest);
    want(status_of([&] { client.get("a"); }) == FACING_WRONG_HANDLE);
    want(other.client().get("a") == "of another map");
    std::optional<facing::bytes_value> held = moved.hold("a"), second = moved.hold("b");
    held = std::move(second);
    want(held->text() == longest);
    client = std::move(moved);
    facing::bytes_client &same = client;
    client = std::move(same);
    want(client.get("a") == longest);
    want(status_of([&] { map.close(); }) == FACING_CLIENT_OUT);
    { const facing::bytes_client gone(std::move(client)); }
    facing::closed_bytes closed = map.close(), again = facing::bytes_map().close();
    again = std::move(closed);
    want(again.get("a") == longest && again.reopen(1).client().put("c", longest) == std::nullopt);
    want(again.contains("b") && !again.contains("c"));
}

static void call_bytes() {
    facing::bytes_map map(16, 2);
    {
        facing::bytes_client client = map.client();
        const std::string large(FACING_LONGEST, 'x');
        want(!client.put("a", "one") && client.put("a", "two") == "one");
        want(client.put_if_absent("a", "three") == "two" && !client.put_if_absent("", ""));
        want(client.get("") == "" && client.get("a") == "two" && !client.get("b"));
        want(client.replace("a", large) == "two" && !client.replace("b", "c"));
        std::optional<facing::bytes_value> held = client.hold("a");
        want(held && !client.hold("b"));
        want(client.replace_if("a", large, "four") && !client.replace_if("a", large, "five"));
        want(held->size() == large.size() && held->text() == large);
        char room[4];
        want(held->read(large.size() - 2, room, 4) == 2 && room[1] == 'x' && held->read(large.size(), room, 4) == 0);
        want(client.contains("a") && !client.remove_if("a", "five") && client.remove("a") == "four");
        want(client.remove_if("", "") && client.count() == 0);
        want(status_of([&] { client.put(large + "x", ""); }) == FACING_TOO_LONG);
        for (int i = 0; i < 100; i++) client.put(std::to_string(i), large);
        facing_cursor cursor{0};
        std::size_t pairs = 0;
        while (cursor.at != UINT64_MAX) pairs += client.pairs(cursor, 10).size();
        want(pairs == 100);
        for (cursor.at = 0, pairs = 0; cursor.at != UINT64_MAX;) pairs += client.pairs(cursor, SIZE_MAX).size();
        want(pairs == 100);
        for (const auto &[key, value] : client.pairs()) {
            want(std::stoi(key) < 100 && value == large);
            pairs++;
        }
        want(pairs == 200);
        want(client.update("0", [](const std::optional<std::string> &seen) { return std::optional(seen->substr(1) + "!"); })
             == large.substr(1) + "!");
        want(!client.update("0", [](const std::optional<std::string> &) { return std::optional<std::string>(); }));
        want(client.update("0", [&](const std::optional<std::string> &seen) { return std::optional(seen ? "" : large); }) == large);
        for (int i = 1; i < 100; i++) client.remove(std::to_string(i));
    }
    facing::closed_bytes closed = map.close();
    want(closed.size() == 1 && closed.get("0")->size() == FACING_LONGEST && !closed.get("1"));
    want(closed.pairs().size() == 1 && closed.pairs()[0].first == "0");
    want(closed.reopen(1).client().remove("0")->size() == FACING_LONGEST);
}

static void call_counts() {
    facing::counts_map map(16, 1);
    {
        facing::counts_client client = map.client();
        calls(client, "one", "two");
        for (int i = 0; i < 100; i++) client.add("word " + std::to_string(i % 10) + std::string(1000, '.'), 1);
        facing_cursor cursor{0};
        facing::counts_pairs pairs = client.pairs(cursor, 1);
        while (cursor.at != UINT64_MAX) pairs = client.pairs(cursor, 1000);
        std::size_t many = 0;
        for (cursor.at = 0; cursor.at != UINT64_MAX;) many += client.pairs(cursor, SIZE_MAX).size();
        want(many == 10);
        client.set("", 7);
        std::map<std::string, std::uint64_t> all;
        for (auto [key, value] : client.pairs()) all[key] = value;
        want(all.size() == 11 && all[""] == 7 && all["word 3" + std::string(1000, '.')] == 10);
    }
    facing::closed_counts closed = map.close();
    want(closed.size() == 11 && closed.get("") == 7u && !closed.get("one"));
    for (const auto &[key, value] : closed.pairs()) want(key.empty() ? value == 7 : key.size() == 1006 && value == 10);
    want(closed.reopen(1).client().add("", 1) == 8);
}

int main() {
    static_assert(!std::is_copy_constructible<facing::map>::value && !std::is_copy_assignable<facing::client>::value, "");
    want(status_of([] { facing::map none(0); }) == FACING_BAD_CAPACITY);
    want(status_of([] { facing::map none(16, 0); }) == FACING_BAD_CLIENTS);
    want(std::string(facing::error(FACING_NO_MEMORY).what()) == "out of memory");
    facing::map map(16, 1);
    {
        facing::client client = map.client();
        want(status_of([&] { map.client(); }) == FACING_NO_CLIENT);
        want(status_of([&] { map.close(); }) == FACING_CLIENT_OUT);
        calls(client, 1, 2);
        client.put(1, 2);
        facing_cursor cursor{0};
        want(client.pairs(cursor, 10) == facing::number_pairs{{1, 2}} && cursor.at == UINT64_MAX);
        cursor.at = 0;
        want(client.pairs(cursor, SIZE_MAX) == facing::number_pairs{{1, 2}} && client.pairs(cursor, 10).empty());
        unsigned pairs = 0;
        for (const auto &[key, value] : client.pairs()) {
            want(key == 1 && value == 2);
            pairs++;
        }
        want(pairs == 1);
        client.remove(1);
        facing::client moved = std::move(client);
        moved.put(7, 8);
        want(status_of([&] { client.get(7); }) == FACING_WRONG_HANDLE);
    }
    facing::closed_map closed = map.close();
    want(status_of([&] { map.count(); }) == FACING_WRONG_HANDLE);
    want(closed.size() == 1 && closed.get(7) == 8u && !closed.get(1));
    want(closed.pairs() == facing::number_pairs{{7, 8}});
    facing::map again = closed.reopen(2);
    want(again.client().add(7, 1) == 9);
    want(again.count() == 1);
    facing::map empty(4096, 1);
    facing::client of_empty = empty.client();
    for (const auto &pair : of_empty.pairs()) want(pair.first > pair.second);
    // Three pairs in 65,536 buckets: most steps of the loop find none.
    facing::map sparse(65536, 1);
    facing::client of_sparse = sparse.client();
    std::uint64_t sum = 0;
    for (std::uint64_t key = 1; key <= 3; key++) of_sparse.put(key, 10 * key);
    for (const auto &[key, value] : of_sparse.pairs()) sum += key + value;
    want(sum == 66);
    call_bytes();
    call_counts();
    call_long_values();
    refuse_long_values();
    move_all();
    update_together();
    read_closed();
    std::printf("%llu wrong\n", wrong.load());
    return wrong != 0;
}
