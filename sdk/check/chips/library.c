// Ends by a trap where the C library does not do what it says.
#include "wokwi-api.h"
#include <stdio.h>
#include <stdlib.h>
#include <string.h>
#include <sys/types.h>
#include <time.h>

static void expect(bool holds) {
    if (!holds) {
        __builtin_trap();
    }
}

static int by_value(const void *left, const void *right) {
    return *(const int *)left - *(const int *)right;
}

static void on_timer(void *user_data) {
    timer_t *timer = user_data;
    expect(printf("%s %d %x %c\n", "text", -12, 255u, 'c') == 14);
    expect(fprintf(stderr, "no line") == 7);
    timer_stop(*timer);
}

void chip_init(void) {
    char text[32];
    expect(snprintf(text, sizeof text, "%05d %lld %s", -42, 10000000000ll, "end") == 21);
    expect(strcmp(text, "-0042 10000000000 end") == 0);
    expect(strtol("0x1F", NULL, 0) == 31 && atoi("-7") == -7);
    int numbers[] = {3, 1, 2};
    qsort(numbers, 3, sizeof *numbers, by_value);
    expect(numbers[0] == 1 && numbers[1] == 2 && numbers[2] == 3);
    // more than the memory has at the start
    char *volatile large = malloc(1000000);
    expect(large != NULL);
    memset(large, 7, 1000000);
    expect(large[999999] == 7);
    free(large);
    // more than it can have
    large = malloc(5000000);
    expect(large == NULL);
    timer_t *timer = calloc(1, sizeof *timer);
    const timer_config_t config = {.user_data = timer, .callback = on_timer};
    *timer = timer_init(&config);
    timer_start(*timer, 2, true);
}
