// Measures this repository's map of byte strings, called from C++ through the static library.
#include "facing_bytes.h"
#include "from_c.hpp"

namespace {

// A put and a remove have no room for the value before.
struct Library : workload::Bytes {
    using Handle = facing_bytes_handle;
    static std::uint32_t open(Handle *map) {
        return facing_bytes_open(16, 1024, map);
    }
    static constexpr auto client = facing_bytes_client;
    static constexpr auto free = facing_bytes_free;

    static bool get(Handle *client, const Key &key, Value &value) {
        facing_bytes_answer found;
        from_c::check(facing_bytes_get(client, key.data(), key.size(), value.data(), value.size(), &found));
        return found.found;
    }

    static void put(Handle *client, const Key &key, const Value &value) {
        facing_bytes_answer before;
        from_c::check(facing_bytes_put(client, key.data(), key.size(), value.data(), value.size(), nullptr, 0, &before));
    }

    static void remove(Handle *client, const Key &key) {
        facing_bytes_answer before;
        from_c::check(facing_bytes_remove(client, key.data(), key.size(), nullptr, 0, &before));
    }
};

} // namespace

int main(int count, char **words) {
    return from_c::measure<Library>("bytes_from_c", count, words);
}
