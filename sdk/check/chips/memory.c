// Ends by a trap where a function of <string.h> does not do what it says.
#include "wokwi-api.h"
#include <string.h>

typedef struct {
    uint32_t words[100];
} block_t;

static block_t from;
static block_t to;
static char text[64];
static volatile size_t count = 5;

static void expect(bool holds) {
    if (!holds) {
        __builtin_trap();
    }
}

void chip_init(void) {
    memset(text, 'x', sizeof text);
    expect(text[0] == 'x' && text[63] == 'x');
    memcpy(text, "abcdefgh", count);
    expect(memcmp(text, "abcdex", 6) == 0 && memcmp(text, "abcdf", count) < 0 && memcmp(text, "abcd\x01", count) > 0);
    memmove(text + 2, text, count);
    expect(memcmp(text, "ababcdex", 8) == 0);
    memmove(text, text + 2, count);
    expect(memcmp(text, "abcdedex", 8) == 0);
    text[count] = 0;
    expect(strlen(text) == 5 && strcmp(text, "abcde") == 0 && strcmp(text, "abcd") > 0 && strcmp(text, "abc\x80") < 0);
    from.words[99] = 7;
    // the compiler makes a call or an instruction of these two
    to = from;
    expect(to.words[99] == 7);
    to = (block_t){{0}};
    expect(to.words[99] == 0);
}
