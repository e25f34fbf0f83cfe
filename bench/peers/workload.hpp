// The workload that docs/SPEED.md describes, for a map of C++.
//
// A map is a class with get, put, remove and, where values are numbers, merge, each of which many threads may call at once; Kind is
// one of the kinds below, and Key and Value are its. A get copies a value into its caller's, and returns whether there is one.
#pragma once

#include <algorithm>
#include <chrono>
#include <cstdint>
#include <cstdio>
#include <cstdlib>
#include <cstring>
#include <fstream>
#include <stdexcept>
#include <string>
#include <thread>
#include <type_traits>
#include <unistd.h>
#include <vector>

namespace workload {

using Number = std::int64_t;

// The kinds of maps, by what the key of a number is: "k" and the number,
struct Texts {
    using Key = std::string;
    using Value = Number;

    static Key key_of(std::uint64_t number) {
        return "k" + std::to_string(number);
    }
};

// or the number itself,
struct Numbers {
    using Key = std::uint64_t;
    using Value = Number;

    static Key key_of(std::uint64_t number) {
        return number;
    }
};

// or its 16 digits of base 16, which have numbers as values
struct Counts {
    using Key = std::string;
    using Value = Number;

    static Key key_of(std::uint64_t number) {
        char digits[17];
        std::snprintf(digits, sizeof digits, "%016llx", static_cast<unsigned long long>(number));
        return digits;
    }
};

// or byte strings.
struct Bytes : Counts {
    using Value = std::string;
};

// Makes the value that of a number: the bytes are the number's eight, twice.
inline void set(Number &value, Number number) {
    value = number;
}

inline void set(std::string &value, Number number) {
    value.resize(2 * sizeof number);
    std::memcpy(&value[0], &number, sizeof number);
    std::memcpy(&value[sizeof number], &number, sizeof number);
}

// Returns the number of a value.
inline Number number_of(Number value) {
    return value;
}

inline Number number_of(const std::string &value) {
    Number number;
    std::memcpy(&number, value.data(), sizeof number);
    return number;
}

enum class Mode { mix, get, merge, fill, stall, memory };

// The generator splitmix64.
class Random {
  public:
    explicit Random(std::uint64_t seed) : state(seed) {}

    std::uint64_t draw() {
        state += 0x9e3779b97f4a7c15;
        std::uint64_t z = state;
        z = (z ^ (z >> 30)) * 0xbf58476d1ce4e5b9;
        z = (z ^ (z >> 27)) * 0x94d049bb133111eb;
        return z ^ (z >> 31);
    }

  private:
    std::uint64_t state;
};

// How the numbers of keys are chosen: each alike, or by Zipf's law with the exponent 0.99, by a table of steps of which each is as
// likely as the others.
class Choice {
  public:
    Choice(bool is_zipf, std::uint64_t count) : keys(count) {
        if (!is_zipf) {
            return;
        }
        std::uint64_t total = 0;
        for (std::uint64_t rank = 1; rank <= keys; rank++) {
            total += weight(rank);
        }
        std::uint64_t before = 0;
        for (std::uint64_t rank = 1; rank <= keys; rank++) {
            before += weight(rank);
            while (starts.size() < STEPS && (before >> 12) * 4096 >= (total >> 12) * starts.size()) {
                starts.push_back(rank - 1);
            }
        }
        while (starts.size() <= STEPS) {
            starts.push_back(keys - 1);
        }
    }

    std::uint64_t number(std::uint64_t drawn) const {
        if (starts.empty()) {
            return (drawn >> 16) % keys;
        }
        const std::uint64_t step = (drawn >> 16) % STEPS;
        const std::uint64_t rank = starts[step] + (drawn >> 28) % (starts[step + 1] - starts[step] + 1);
        return rank * 7919 % keys;
    }

  private:
    static constexpr std::size_t STEPS = 4096;

    // 2^40 over the rank to the 0.99, nearly.
    static std::uint64_t weight(std::uint64_t rank) {
        const std::uint64_t exponent = 63 - __builtin_clzll(rank);
        const std::uint64_t logarithm = exponent * 65536 + ((rank << 16) >> exponent) - 65536;
        const std::uint64_t power = logarithm * 454 >> 16;
        return ((power + 65536 + (power * power >> 17)) << 24) / rank;
    }

    std::uint64_t keys;
    std::vector<std::uint64_t> starts;
};

template <class Map> using Names = std::vector<typename Map::Key>;

// Adds 1 to the key's value.
template <class Map> void merge(Map &map, const typename Map::Key &name) {
    if constexpr (std::is_same_v<typename Map::Value, Number>) {
        map.merge(name, 1);
    } else {
        throw std::invalid_argument("byte strings are not merged");
    }
}

// Makes one thread's calls, and returns the sum of what its gets found, so that no get can be left out.
template <class Map>
Number work(Map &map, Mode mode, std::uint64_t seed, long calls, const Names<Map> &names, const Choice &choice) {
    Random random(seed);
    typename Map::Value value;
    set(value, 0);
    Number sum = 0;
    for (long i = 0; i < calls; i++) {
        const std::uint64_t drawn = random.draw();
        const typename Map::Key &name = names[choice.number(drawn)];
        const unsigned part = drawn % 100;
        if (mode == Mode::merge) {
            merge(map, name);
        } else if (mode == Mode::get || part < 80) {
            sum += map.get(name, value) ? number_of(value) : 0;
        } else if (part < 95) {
            set(value, i);
            map.put(name, value);
        } else {
            map.remove(name);
        }
    }
    return sum;
}

// Puts the keys from a number on that lie so far apart. Returns the longest put in milliseconds, where puts are timed.
template <class Map> double fill(Map &map, Mode mode, long first, long step, const Names<Map> &names) {
    double longest = 0;
    typename Map::Value value;
    for (std::size_t i = first; i < names.size(); i += step) {
        set(value, i);
        if (mode == Mode::fill) {
            map.put(names[i], value);
            continue;
        }
        const auto start = std::chrono::steady_clock::now();
        map.put(names[i], value);
        const std::chrono::duration<double, std::milli> taken = std::chrono::steady_clock::now() - start;
        longest = std::max(longest, taken.count());
    }
    return longest;
}

// Fills a new map. Returns how many million puts a second the threads made together, or the longest put in milliseconds.
template <class Map> double run_fill(Mode mode, int threads, const Names<Map> &names) {
    Map map;
    std::vector<double> longest(threads);
    std::vector<std::thread> started;
    const auto start = std::chrono::steady_clock::now();
    for (int i = 0; i < threads; i++) {
        started.emplace_back([&, i] { longest[i] = fill(map, mode, i, threads, names); });
    }
    for (std::thread &thread : started) {
        thread.join();
    }
    const std::chrono::duration<double> taken = std::chrono::steady_clock::now() - start;
    return mode == Mode::fill ? names.size() / taken.count() / 1e6 : *std::max_element(longest.begin(), longest.end());
}

// Returns how many bytes of this process are resident.
inline double resident() {
    long all = 0;
    long pages = 0;
    std::ifstream("/proc/self/statm") >> all >> pages;
    return static_cast<double>(pages) * sysconf(_SC_PAGESIZE);
}

// Fills a new map by one thread. Returns how many bytes more are resident for each key.
template <class Map> double run_memory(const Names<Map> &names) {
    const double before = resident();
    Map map;
    fill(map, Mode::fill, 0, 1, names);
    return (resident() - before) / names.size();
}

// Returns how many million calls a second the threads made together of a new map.
template <class Map> double run(Mode mode, int threads, long calls, long keys, bool is_zipf) {
    Names<Map> names;
    names.reserve(keys);
    for (long i = 0; i < keys; i++) {
        names.push_back(Map::Kind::key_of(i));
    }
    if (mode == Mode::memory) {
        return run_memory<Map>(names);
    }
    if (mode == Mode::fill || mode == Mode::stall) {
        return run_fill<Map>(mode, threads, names);
    }
    const Choice choice(is_zipf, keys);
    Map map;
    typename Map::Value value;
    for (long i = 0; i < keys; i += 2) {
        set(value, i);
        map.put(names[i], value);
    }
    std::vector<Number> sums(threads);
    std::vector<std::thread> started;
    const auto start = std::chrono::steady_clock::now();
    for (int i = 0; i < threads; i++) {
        started.emplace_back([&, i] { sums[i] = work(map, mode, i + 1, calls, names, choice); });
    }
    for (std::thread &thread : started) {
        thread.join();
    }
    const std::chrono::duration<double> taken = std::chrono::steady_clock::now() - start;
    volatile Number kept = 0;
    for (Number sum : sums) {
        kept = kept + sum;
    }
    return threads * calls / taken.count() / 1e6;
}

inline Mode mode_named(const char *name) {
    const char *const names[] = {"mix", "get", "merge", "fill", "stall", "memory"};
    for (int i = 1; i < 6; i++) {
        if (!std::strcmp(name, names[i])) {
            return static_cast<Mode>(i);
        }
    }
    return Mode::mix;
}

template <class Map> int measure_one(const char *map, char **words) {
    const int threads = std::atoi(words[2]);
    const bool is_zipf = !std::strcmp(words[5], "zipf");
    const double rate = run<Map>(mode_named(words[1]), threads, std::atol(words[3]), std::atol(words[4]), is_zipf);
    std::printf("%s %s %d %.3f\n", map, words[1], threads, rate);
    return 0;
}

inline int tell_usage(const char *program) {
    std::fprintf(stderr, "usage: %s mix|get|merge|fill|stall|memory THREADS CALLS KEYS uniform|zipf [numbers|counts|bytes]\n", program);
    return 2;
}

// The program: MODE THREADS CALLS KEYS CHOICE, and the kind of the map, where it is not of texts.
template <template <class> class Map> int measure(const char *map, int count, char **words) {
    if (count == 6) {
        return measure_one<Map<Texts>>(map, words);
    }
    if (count == 7 && !std::strcmp(words[6], "numbers")) {
        return measure_one<Map<Numbers>>(map, words);
    }
    if (count == 7 && !std::strcmp(words[6], "counts")) {
        return measure_one<Map<Counts>>(map, words);
    }
    return count == 7 && !std::strcmp(words[6], "bytes") ? measure_one<Map<Bytes>>(map, words) : tell_usage(words[0]);
}

} // namespace workload
