// Measures libcuckoo's cuckoohash_map.
#include "workload.hpp"

#include <libcuckoo/cuckoohash_map.hh>

namespace {

template <class Its> class Map {
  public:
    using Kind = Its;
    using Key = typename Kind::Key;
    using Value = typename Kind::Value;

    bool get(const Key &key, Value &value) {
        return entries.find(key, value);
    }

    void put(const Key &key, const Value &value) {
        entries.insert_or_assign(key, value);
    }

    void remove(const Key &key) {
        entries.erase(key);
    }

    void merge(const Key &key, Value value) {
        entries.upsert(key, [value](Value &old) { old += value; }, value);
    }

  private:
    libcuckoo::cuckoohash_map<Key, Value> entries;
};

} // namespace

int main(int count, char **words) {
    return workload::measure<Map>("libcuckoo", count, words);
}
