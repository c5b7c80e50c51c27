/* Compiled with debugging sections of many sorts; never run. */
typedef unsigned int word;
struct node;
typedef int (*visit)(const struct node *, void *);

enum colour { RED, GREEN = 5, BLUE = -3 };

union both {
    long whole;
    struct {
        unsigned low : 3, high : 13;
        signed rest : 9;
    } bits;
    double real;
};

struct node {
    struct node *left, *right;
    union both value;
    enum colour colour;
    char name[24];
    word grid[3][4];
    visit call;
};

static volatile const long limit = 0x7fffffffffffL;
static struct node nodes[16];
_Bool ready;
long double wide = 1.5L;
float _Complex pair;

static inline __attribute__((always_inline)) int add(int a, int b)
{
    int c = a + b;
    {
        int d = c * 2;
        return d - c;
    }
}

static int walk(const struct node *n, visit f, void *with)
{
    if (!n)
        return 0;
    int sum = 0;
    for (int i = 0; i < 3; i++) {
        int here = add(i, (int)n->value.whole);
        for (int k = 0; k < 4; k++) {
            word w = n->grid[i][k];
            sum += (int)w + here;
        }
    }
    return sum + walk(n->left, f, with) + walk(n->right, f, with) + f(n, with);
}

static int tell(const struct node *n, void *with)
{
    int *count = with;
    struct local {
        short a, b;
    } l = { 1, 2 };
    ++*count;
    return n->colour == RED ? l.a : l.b;
}

int many(int first, ...)
{
    __builtin_va_list list;
    int sum = 0;
    __builtin_va_start(list, first);
    while (first--)
        sum += __builtin_va_arg(list, int);
    __builtin_va_end(list);
    return sum;
}

int sized(int n)
{
    int values[n + 1];
    for (int i = 0; i <= n; i++)
        values[i] = add(i, n);
    return values[n];
}

__attribute__((noreturn)) void stop(void)
{
again:
    goto again;
}

int entry(int n)
{
    int count = 0;
    nodes[0].left = &nodes[1];
    nodes[1].right = &nodes[2];
    if (n < 0)
        stop();
    return walk(nodes, tell, &count) + many(2, 3, 4) + sized(n & 7) + (limit > n) + ready + (int)wide;
}

int main(void)
{
    return entry(3);
}
