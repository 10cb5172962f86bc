// Words counted and sorted: hash maps, algorithms, closures, streams.
#include <algorithm>
#include <functional>
#include <iostream>
#include <sstream>
#include <string>
#include <unordered_map>
#include <vector>

namespace words {
struct Count {
    std::string word;
    std::size_t times;
};

class Counter {
  public:
    void read(std::istream &in) {
        for (std::string word; in >> word;) ++times_[word];
    }
    std::vector<Count> sorted(const std::function<bool(const Count &, const Count &)> &before) const {
        std::vector<Count> all;
        for (const auto &[word, times] : times_) all.push_back({word, times});
        std::sort(all.begin(), all.end(), before);
        return all;
    }

  private:
    std::unordered_map<std::string, std::size_t> times_;
};
}

int run_words(const char *text) {
    std::istringstream in(text);
    words::Counter counter;
    counter.read(in);
    auto all = counter.sorted([](const auto &a, const auto &b) { return a.times > b.times; });
    for (const auto &count : all) std::cout << count.word << ' ' << count.times << '\n';
    return static_cast<int>(all.size());
}
