/* A valve that opens and closes by the water's level: the source of the file `valve`, which `./shelf` lists when it is given no file. */

enum state { CLOSED, OPEN, FAULT };

struct sensor {
    unsigned short samples[8];
    unsigned char next;
    signed char offset;
};

union word {
    unsigned int whole;
    unsigned char bytes[4];
};

static struct sensor level;
static volatile enum state valve;

static int mean(const struct sensor *s)
{
    int sum = 0;
    for (int i = 0; i < 8; i++)
        sum += s->samples[i];
    return sum / 8 + s->offset;
}

static void store(struct sensor *s, unsigned short sample)
{
    s->samples[s->next] = sample;
    s->next = (s->next + 1) % 8;
}

unsigned char check(unsigned int value)
{
    union word w = { value };
    return w.bytes[0] ^ w.bytes[1] ^ w.bytes[2] ^ w.bytes[3];
}

enum state step(unsigned short sample, int low, int high)
{
    store(&level, sample);
    if (low > high) {
        valve = FAULT;
    } else {
        int now = mean(&level);
        if (now > high)
            valve = OPEN;
        else if (now < low)
            valve = CLOSED;
    }
    return valve;
}

void start(void)
{
    for (unsigned short sample = 0;; sample++)
        step(sample + check(sample), 100, 200);
}
