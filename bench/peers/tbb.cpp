// Measures TBB's concurrent_hash_map.
#include "workload.hpp"

#include <tbb/concurrent_hash_map.h>
#include <utility>

namespace {

template <class Its> class Map {
  public:
    using Kind = Its;
    using Key = typename Kind::Key;
    using Value = typename Kind::Value;

    bool get(const Key &key, Value &value) {
        typename Entries::const_accessor found;
        if (!entries.find(found, key)) {
            return false;
        }
        value = found->second;
        return true;
    }

    void put(const Key &key, const Value &value) {
        typename Entries::accessor place;
        entries.insert(place, key);
        place->second = value;
    }

    void remove(const Key &key) {
        entries.erase(key);
    }

    void merge(const Key &key, Value value) {
        typename Entries::accessor place;
        if (!entries.insert(place, std::make_pair(key, value))) {
            place->second += value;
        }
    }

  private:
    using Entries = tbb::concurrent_hash_map<Key, Value>;

    Entries entries;
};

} // namespace

int main(int count, char **words) {
    return workload::measure<Map>("tbb", count, words);
}
