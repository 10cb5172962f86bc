// A ledger of accounts: maps, strings and virtual calls.
#include <map>
#include <memory>
#include <string>
#include <vector>

namespace ledger {
enum class Kind : unsigned char { Open, Held, Closed };

struct Amount {
    long long cents = 0;
    Amount operator+(const Amount &other) const { return {cents + other.cents}; }
    bool operator<(const Amount &other) const { return cents < other.cents; }
};

class Entry {
  public:
    virtual ~Entry() = default;
    virtual Amount amount() const = 0;
    virtual const char *what() const volatile { return "entry"; }
};

class Deposit final : public Entry {
  public:
    explicit Deposit(Amount amount) : amount_(amount) {}
    Amount amount() const override { return amount_; }

  private:
    Amount amount_;
    unsigned flags_ : 3;
    unsigned state_ : 5;
};

template <typename T, unsigned N> struct Ring {
    T items[N][2];
    unsigned next = 0;
    void put(const T &item) { items[next++ % N][0] = item; }
};

class Book {
  public:
    using Rows = std::vector<std::unique_ptr<Entry>>;
    void add(const std::string &owner, std::unique_ptr<Entry> entry) { rows_[owner].push_back(std::move(entry)); }
    Amount sum(const std::string &owner) const;
    template <typename F> void each(F &&visit) const {
        for (const auto &[owner, rows] : rows_)
            for (const auto &row : rows) visit(owner, *row);
    }

  private:
    std::map<std::string, Rows> rows_;
    Ring<Amount, 16> last_;
    Kind kind_ = Kind::Open;
    int (*hook_)(const Entry *, long, ...) = nullptr;
};

Amount Book::sum(const std::string &owner) const {
    Amount all;
    auto found = rows_.find(owner);
    if (found != rows_.end())
        for (const auto &row : found->second) all = all + row->amount();
    return all;
}
}

long long run_ledger(int count) {
    ledger::Book book;
    for (int at = 0; at < count; ++at)
        book.add(at % 2 ? "odd" : "even", std::make_unique<ledger::Deposit>(ledger::Amount{at}));
    long long seen = 0;
    book.each([&](const std::string &owner, const ledger::Entry &entry) { seen += owner.size() + entry.amount().cents; });
    return seen + book.sum("odd").cents;
}
