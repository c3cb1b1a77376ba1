// Work that needs no pins: a checksum over memory, a sort through a pointer to a function, and a recursion.
typedef unsigned int word;

static unsigned char bytes[4096];
static word numbers[200];

static word next(word *state) { return *state = *state * 1664525u + 1013904223u; }

__attribute__((export_name("crc"))) word crc(word seed) {
    for (word i = 0; i < sizeof bytes; i++) bytes[i] = (unsigned char)(next(&seed) >> 24);
    word sum = ~0u;
    for (word i = 0; i < sizeof bytes; i++) {
        sum ^= bytes[i];
        for (int j = 0; j < 8; j++) sum = sum & 1 ? sum >> 1 ^ 0xEDB88320u : sum >> 1;
    }
    return ~sum;
}

static int rising(word a, word b) { return a < b; }
static int falling(word a, word b) { return a > b; }

__attribute__((noinline)) static void sort(word *first, word *last, int (*before)(word, word)) {
    while (last - first > 1) {
        word *middle = first, pivot = *first;
        for (word *p = first + 1; p < last; p++)
            if (before(*p, pivot)) {
                word moved = *p;
                *p = *++middle;
                *middle = moved;
            }
        *first = *middle;
        *middle = pivot;
        sort(first, middle, before);
        first = middle + 1;
    }
}

__attribute__((export_name("sorted"))) word sorted(word seed, word falls) {
    for (word i = 0; i < 200; i++) numbers[i] = next(&seed) >> 8;
    sort(numbers, numbers + 200, falls ? falling : rising);
    word sum = 0;
    for (word i = 0; i < 200; i++) sum = sum * 31 + numbers[i];
    return sum;
}

__attribute__((export_name("product"))) unsigned long long product(unsigned long long a, unsigned long long b) {
    unsigned long long sum = 0;
    for (; b; b >>= 1, a = a << 1 | a >> 63)
        if (b & 1) sum ^= a + (sum >> 7);
    return sum;
}

__attribute__((export_name("chipInit"))) void chip_init(void) { numbers[0] = crc(1); }
