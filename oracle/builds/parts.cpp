// Compiled with debugging sections of many sorts; never run.
#include <map>
#include <memory>
#include <string>
#include <vector>

namespace shelf {
inline namespace first {
template <typename T, int N>
struct Row {
    T items[N];
    static constexpr int count = N;
    T &operator[](int i) { return items[i]; }
};
}

enum class Kind : unsigned char { Book, Box };

struct Thing {
    virtual ~Thing() = default;
    virtual int weight() const = 0;
    int id = 0;

protected:
    mutable long cache = 0;
};

struct Tagged {
    const char *tag = "";
};

struct Book final : public Thing, virtual public Tagged {
    explicit Book(std::string t) : title(std::move(t)) {}
    int weight() const override { return int(title.size()); }
    std::string title;
    friend int total(const std::vector<std::unique_ptr<Thing>> &);
};

int total(const std::vector<std::unique_ptr<Thing>> &all)
{
    int sum = 0;
    for (const auto &t : all)
        sum += t->weight();
    return sum;
}

template <typename... A>
auto call(A &&...a)
{
    return (0 + ... + int(a));
}
}

using Index = std::map<std::string, shelf::Row<int, 4>>;

int main(int argc, char **argv)
{
    Index index;
    index["a"][2] = argc;
    std::vector<std::unique_ptr<shelf::Thing>> all;
    all.push_back(std::make_unique<shelf::Book>(argv[0]));
    auto twice = [&](auto n) {
        struct Inner {
            int m;
        } inner{ n };
        return inner.m * 2 + shelf::total(all);
    };
    try {
        return twice(argc) + shelf::call(1, 'a', 2.5) + index.at("a")[2];
    } catch (const std::exception &e) {
        return int(shelf::Kind::Box);
    }
}
