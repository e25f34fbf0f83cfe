// Measures this repository's map of numbers, called from C++ through the static library.
#include "from_c.hpp"

namespace {

struct Library : workload::Numbers {
    using Handle = facing_handle;
    static std::uint32_t open(Handle *map) {
        return facing_open(16, 1024, 0, map);
    }
    static constexpr auto client = facing_client;
    static constexpr auto free = facing_free;

    static bool get(Handle *client, Key key, Value &value) {
        facing_answer found;
        from_c::check(facing_get(client, key, &found));
        value = found.value;
        return found.found;
    }

    static void put(Handle *client, Key key, Value value) {
        facing_answer before;
        from_c::check(facing_put(client, key, value, &before));
    }

    static void remove(Handle *client, Key key) {
        facing_answer before;
        from_c::check(facing_remove(client, key, &before));
    }

    static void merge(Handle *client, Key key, Value value) {
        facing_answer after;
        from_c::check(facing_add(client, key, value, &after));
    }
};

} // namespace

int main(int count, char **words) {
    return from_c::measure<Library>("numbers_from_c", count, words);
}
