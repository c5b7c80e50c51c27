// Compiled with types in units of their own, also for machines whose headers are not there; never run.
namespace shelf {
enum class Kind : unsigned char { Book, Box };

struct Place {
    short row;
    unsigned shelf : 5, slot : 11;
};

union Label {
    unsigned char bytes[12];
    unsigned long long number;
};

template <typename T, int N>
struct Row {
    T items[N];
    Row *next;
    int (*weigh)(const T &);
};

struct Thing {
    virtual int weight() const { return 1; }
    Kind kind;
    Place place;
};

struct Box : Thing {
    struct Lid {
        bool is_open;
        double width;
    } lid;
    Label label;
    Row<Thing *, 6> things;
    int weight() const override { return int(label.bytes[0]); }
};
}

shelf::Box box;
shelf::Row<shelf::Place, 2> places;

int main()
{
    return box.weight() + places.items[1].row;
}
