// Counts the words of a text in threads, by this repository's map of counts called from C and by TBB's concurrent_hash_map, and compares
// the counts. Milliseconds, the median of five rounds, of each map with one and with four threads.
//
// g++ -O3 -std=c++17 -Iinclude -Ibench/peers bench/words.cpp PREFIX/lib/libfacing.a -ltbb -o bench/out/words
// bench/out/words [FILE]; a text of 50 MB of its own where there is none, whose words are chosen by Zipf's law. PREFIX is where
// tools/install installed the library.
#include "facing.hpp"
#include "workload.hpp"

#include <cctype>
#include <fstream>
#include <iostream>
#include <iterator>
#include <tbb/concurrent_hash_map.h>

namespace {

using Text = std::string;
using Part = std::string_view;

// A word of a number, of 2 to 12 letters.
Text word_of(std::uint64_t number) {
    workload::Random random(number);
    Text word;
    for (std::uint64_t left = 2 + random.draw() % 11; left > 0; left--) word += static_cast<char>('a' + random.draw() % 26);
    return word;
}

Text own_text() {
    const std::uint64_t different = 200000;
    const workload::Choice choice(true, different);
    workload::Random random(1);
    std::vector<Text> words;
    Text text;
    for (std::uint64_t i = 0; i < different; i++) words.push_back(word_of(i));
    while (text.size() < 50000000) text += words[choice.number(random.draw())] + ' ';
    return text;
}

// Calls what it is given with each word of a part.
template <class Call> void for_words(Part part, Call call) {
    std::size_t i = 0;
    const auto is_letter = [&] { return i < part.size() && std::isalpha(static_cast<unsigned char>(part[i])); };
    while (i < part.size()) {
        while (i < part.size() && !is_letter()) i++;
        const std::size_t from = i;
        while (is_letter()) i++;
        if (i > from) call(part.substr(from, i - from));
    }
}

// Parts of about one length, each of which ends behind a word.
std::vector<Part> cut(const Text &text, std::size_t parts) {
    std::vector<Part> cut;
    std::size_t from = 0;
    for (std::size_t i = 1; i <= parts; i++) {
        std::size_t to = std::max(from, text.size() * i / parts);
        while (to < text.size() && std::isalpha(static_cast<unsigned char>(text[to]))) to++;
        cut.push_back(Part(text).substr(from, to - from));
        from = to;
    }
    return cut;
}

using Counts = std::vector<std::pair<Text, std::uint64_t>>;

struct Ours {
    facing::counts_map map{16, 64};

    void count(Part part, facing::counts_client &client) {
        for_words(part, [&](Part word) { client.add(word, 1); });
    }
    facing::counts_client client() {
        return map.client();
    }
    Counts counts() {
        return map.close().pairs();
    }
};

struct Tbb {
    using Entries = tbb::concurrent_hash_map<Text, std::uint64_t>;
    Entries entries;

    void count(Part part, int) {
        for_words(part, [&](Part word) {
            Entries::accessor place;
            entries.insert(place, Text(word));
            place->second++;
        });
    }
    int client() {
        return 0;
    }
    Counts counts() {
        return Counts(entries.begin(), entries.end());
    }
};

// Counts in a new map, one thread for each part, and returns the milliseconds that it took.
template <class Map> double count_all(const std::vector<Part> &parts, Counts &counts) {
    Map map;
    std::vector<std::thread> threads;
    const auto start = std::chrono::steady_clock::now();
    for (const Part part : parts)
        threads.emplace_back([&map, part, client = map.client()]() mutable {
            auto its = std::move(client);
            map.count(part, its);
        });
    for (std::thread &thread : threads) thread.join();
    const std::chrono::duration<double, std::milli> taken = std::chrono::steady_clock::now() - start;
    threads.clear();
    counts = map.counts();
    std::sort(counts.begin(), counts.end());
    return taken.count();
}

double median(std::vector<double> all) {
    std::sort(all.begin(), all.end());
    return all[all.size() / 2];
}

} // namespace

int main(int count, char **words) {
    std::ifstream file(count > 1 ? words[1] : "/dev/null", std::ios::binary);
    const Text text = count > 1 ? Text(std::istreambuf_iterator<char>(file), {}) : own_text();
    for (const std::size_t threads : {1, 4}) {
        const std::vector<Part> parts = cut(text, threads);
        std::vector<double> ours, theirs;
        Counts our_counts, their_counts;
        for (int round = 0; round < 5; round++) {
            ours.push_back(count_all<Ours>(parts, our_counts));
            theirs.push_back(count_all<Tbb>(parts, their_counts));
            if (our_counts != their_counts) return std::cerr << "the counts differ\n", 1;
        }
        std::uint64_t all = 0;
        for (const auto &pair : our_counts) all += pair.second;
        std::printf("%llu words, %zu different, threads %zu: facingberyl %.0f ms, TBB %.0f ms, %.2f times\n",
                    static_cast<unsigned long long>(all), our_counts.size(), threads, median(ours), median(theirs),
                    median(ours) / median(theirs));
    }
    return 0;
}
