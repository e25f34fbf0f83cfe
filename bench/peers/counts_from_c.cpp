// Measures this repository's map of numbers by byte strings, called from C++ through the static library.
#include "facing_counts.h"
#include "from_c.hpp"

namespace {

struct Library : workload::Counts {
    using Handle = facing_counts_handle;
    static std::uint32_t open(Handle *map) {
        return facing_counts_open(16, 1024, map);
    }
    static constexpr auto client = facing_counts_client;
    static constexpr auto free = facing_counts_free;

    static bool get(Handle *client, const Key &key, Value &value) {
        facing_answer found;
        from_c::check(facing_counts_get(client, key.data(), key.size(), &found));
        value = found.value;
        return found.found;
    }

    static void put(Handle *client, const Key &key, Value value) {
        facing_answer before;
        from_c::check(facing_counts_put(client, key.data(), key.size(), value, &before));
    }

    static void remove(Handle *client, const Key &key) {
        facing_answer before;
        from_c::check(facing_counts_remove(client, key.data(), key.size(), &before));
    }

    static void merge(Handle *client, const Key &key, Value value) {
        facing_answer after;
        from_c::check(facing_counts_add(client, key.data(), key.size(), value, &after));
    }
};

} // namespace

int main(int count, char **words) {
    return from_c::measure<Library>("counts_from_c", count, words);
}
