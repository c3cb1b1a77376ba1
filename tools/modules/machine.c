// A chip with much of what a compiler makes: a switch, loops, calls through a table, numbers of 64 bits, static data,
// a growing memory, and structs that are copied.
#define IMPORT(name) __attribute__((import_module("env"), import_name(name)))

typedef unsigned int word;
typedef unsigned long long wide;

IMPORT("pinInit") word pin_init(const char *name, word mode);
IMPORT("pinWrite") void pin_write(word pin, word value);
IMPORT("timerInit") word timer_init(const void *timer);
IMPORT("timerStart") void timer_start(word timer, word microseconds, word repeat);
IMPORT("getSimNanos") wide get_sim_nanos(void);

struct timer {
    word user;
    void (*due)(word user);
};

struct state {
    wide sum;
    signed char small;
    short middle;
    word history[12];
};

static struct state state, saved;
static word pins[4];
static unsigned char *heap;

static word crc(const unsigned char *bytes, word count) {
    word sum = ~0u;
    for (word i = 0; i < count; i++) {
        sum ^= bytes[i];
        for (int j = 0; j < 8; j++) sum = sum & 1 ? sum >> 1 ^ 0xEDB88320u : sum >> 1;
    }
    return ~sum;
}

static word up(word n) { return n + 1; }
static word down(word n) { return n - 1; }
static word twice(word n) { return n << 1 | n >> 31; }
static word (*const ways[])(word) = {up, down, twice};

__attribute__((noinline)) static word depth(word n) { return n < 2 ? n : depth(n - 1) + depth(n - 2); }

static void due(word user) {
    wide now = get_sim_nanos();
    state.sum += now / 62 % 1000 * (wide)(long long)state.small;
    state.small = (signed char)(state.small + state.middle);
    state.middle = (short)(state.middle << 3 | __builtin_clz(user | 1));
    saved = state;
    word n = ways[now % 3](user);
    switch (n & 7) {
    case 0: pin_write(pins[0], 1); break;
    case 1: pin_write(pins[1], n >> 3 & 1); break;
    case 2: pin_write(pins[2], 0); break;
    case 3: pin_write(pins[3], (word)__builtin_popcountll(saved.sum) & 1); break;
    case 5: pin_write(pins[0], 0); break;
    case 6: pin_write(pins[1], depth(n & 15) & 1); break;
    default: break;
    }
    if (heap) heap[n & 0xFFFF] = (unsigned char)crc((const unsigned char *)&saved, sizeof saved);
}

static const struct timer timer = {7, due};

__attribute__((export_name("chipInit"))) void chip_init(void) {
    static const char names[4][3] = {"A", "B", "C", "D"};
    for (word i = 0; i < 4; i++) pins[i] = pin_init(names[i], 1);
    word page = (word)__builtin_wasm_memory_grow(0, 1);
    heap = page == ~0u ? 0 : (unsigned char *)(page << 16);
    timer_start(timer_init(&timer), 10, 1);
}
