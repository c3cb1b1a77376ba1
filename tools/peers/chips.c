/* A second reading of docs/CHIPS.md, apart from the definitions and the code of this repository: chips in C on the pins of
   uno.c, in each cycle their timers, watches and engines. A chip's source is compiled as it stands, beside this file; of
   several each names its chip_init anew. Further words of uno.c: `chip=ID:NAME@PIN,NAME@-,NAME@low` is a chip with its pins and
   the pins of the Uno that they are wired to (none, a supply), `attr=NAME:VALUE` an attribute of the chip before.
   cc -O2 -Wno-attributes -DCHIPS -Dchip_init=chip_init_0 -I../../sdk -o uno-chip uno.c chips.c CHIP.c */
#include <stdio.h>
#include <stdlib.h>
#include <string.h>
#define timer_t chip_timer_t
#undef chip_init
#include "wokwi-api.h"

enum { LOW_LEVEL, HIGH_LEVEL, NO_LEVEL, PULLED };
enum { MOST_CHIPS = 4, MOST_PINS = 16, MOST = 8, MOST_TIMERS = 32 };

struct line { /* a pin of the chip */
    char name[16];
    int at, supply, given, mode, value, watched;
    pin_watch_config_t watch;
};
struct clock {
    timer_config_t config;
    int runs, repeats;
    long long due, delay;
};
struct uart {
    uart_config_t config;
    long long bit, begin, came_begin;
    int rx_before, busy, receiving, bits, in, byte;
    uint32_t count, sent;
    uint8_t *buffer;
};
struct spi {
    spi_config_t config;
    int sck_before, busy, stopped, has_byte, drives, out, in, bits, byte;
    long long stopped_in;
    uint32_t count, done;
    uint8_t *buffer;
};
enum listening { DEAF, ADDRESS, WRITTEN, ACKNOWLEDGE, ACKNOWLEDGED, READ, MASTERS_ANSWER, NEXT_READ };
struct i2c {
    i2c_config_t config;
    int scl_before, sda_before, low, accepted, is_read, bits, in;
    uint8_t byte;
    enum listening listening;
};
struct chip {
    char id[16];
    int pins, timers, uarts, spis, i2cs, attributes, asked;
    struct line line[MOST_PINS];
    struct clock timer[MOST_TIMERS];
    struct uart uart[MOST];
    struct spi spi[MOST];
    struct i2c i2c[MOST];
    char attribute[8][40], asked_name[8][40];
    uint32_t asked_default[8];
};
static struct chip chips[MOST_CHIPS], *here;
static int count, level_of_pin[MOST_CHIPS][MOST_PINS], before[MOST_CHIPS][MOST_PINS];
static long long cycle = -1;

void chip_init_0(void);
__attribute__((weak)) void chip_init_1(void) {}

/* ---- what a chip calls; `here` is the chip that is called */
static int own(int pin) { return pin >= 0 && pin < here->pins && here->line[pin].given; }
static int reads(int pin) { return cycle >= 0 && level_of_pin[here - chips][pin] == HIGH_LEVEL; }
/* what an engine reads at a pin, and 1 where it has none */
static int at(int pin) { return pin < 0 || reads(pin); }
static int engine_pin(int pin) { return own(pin) ? pin : NO_PIN; }

pin_t pin_init(const char *name, uint32_t mode) {
    for (int pin = 0; pin < here->pins; pin++)
        if (*name && !strcmp(here->line[pin].name, name)) {
            here->line[pin].given = 1;
            pin_mode(pin, mode);
            return pin;
        }
    return NO_PIN;
}
uint32_t pin_read(pin_t pin) { return own(pin) && reads(pin); }
void pin_write(pin_t pin, uint32_t value) { if (own(pin)) here->line[pin].value = value != 0; }
void pin_mode(pin_t pin, uint32_t mode) {
    if (!own(pin)) return;
    if (mode == OUTPUT_LOW || mode == OUTPUT_HIGH) here->line[pin].value = mode == OUTPUT_HIGH;
    here->line[pin].mode = mode == OUTPUT_LOW || mode == OUTPUT_HIGH ? OUTPUT : mode;
}
bool pin_watch(pin_t pin, const pin_watch_config_t *config) {
    if (!own(pin)) return 0;
    here->line[pin].watch = *config;
    here->line[pin].watched = 1;
    return 1;
}
void pin_watch_stop(pin_t pin) { if (own(pin)) here->line[pin].watched = 0; }
uint32_t attr_init(const char *name, uint32_t value) {
    snprintf(here->asked_name[here->asked], 40, "%s:", name);
    here->asked_default[here->asked] = value;
    return here->asked++;
}
uint32_t attr_read(uint32_t id) {
    for (int i = 0; i < here->attributes; i++)
        if (!strncmp(here->attribute[i], here->asked_name[id], strlen(here->asked_name[id])))
            return atoll(strchr(here->attribute[i], ':') + 1);
    return here->asked_default[id];
}
chip_timer_t timer_init(const timer_config_t *config) {
    here->timer[here->timers].config = *config;
    return here->timers++;
}
static void run_timer(uint32_t id, long long cycles, int repeat) {
    struct clock *timer = &here->timer[id];
    timer->delay = cycles < 1 ? 1 : cycles;
    timer->due = (cycle < 0 ? 0 : cycle) + timer->delay;
    timer->runs = 1;
    timer->repeats = repeat;
}
void timer_start(chip_timer_t id, uint32_t micros, bool repeat) { run_timer(id, 16LL * micros, repeat); }
void timer_start_ns(chip_timer_t id, uint64_t nanos, bool repeat) { run_timer(id, (2 * nanos + 124) / 125, repeat); }
void timer_stop(chip_timer_t id) { here->timer[id].runs = 0; }
uint64_t get_sim_nanos(void) { return cycle < 0 ? 0 : cycle * 125 / 2; }

uart_dev_t uart_init(const uart_config_t *config) {
    struct uart *uart = &here->uart[here->uarts];
    uart->config = *config;
    uart->config.rx = engine_pin(config->rx);
    uart->config.tx = engine_pin(config->tx);
    uart->bit = 16000000 / (config->baud_rate ? config->baud_rate : 1);
    if (uart->bit < 2) uart->bit = 2;
    return here->uarts++;
}
bool uart_write(uart_dev_t id, uint8_t *buffer, uint32_t bytes) {
    struct uart *uart = &here->uart[id];
    if (uart->busy) return 0;
    uart->busy = 1;
    uart->buffer = buffer;
    uart->count = bytes;
    uart->sent = 0;
    uart->begin = (cycle < 0 ? 0 : cycle) + 1;
    return 1;
}
spi_dev_t spi_init(const spi_config_t *config) {
    struct spi *spi = &here->spi[here->spis];
    spi->config = *config;
    spi->config.sck = engine_pin(config->sck);
    spi->config.mosi = engine_pin(config->mosi);
    spi->config.miso = engine_pin(config->miso);
    return here->spis++;
}
void spi_start(spi_dev_t id, uint8_t *buffer, uint32_t bytes) {
    struct spi *spi = &here->spi[id];
    if (spi->busy || !bytes) return;
    spi->busy = 1;
    spi->stopped = spi->has_byte = spi->bits = 0;
    spi->done = 0;
    spi->count = bytes;
    spi->buffer = buffer;
}
void spi_stop(spi_dev_t id) {
    struct spi *spi = &here->spi[id];
    if (!spi->busy || spi->stopped) return;
    spi->stopped = 1;
    spi->stopped_in = cycle < 0 ? 0 : cycle;
}
i2c_dev_t i2c_init(const i2c_config_t *config) {
    struct i2c *i2c = &here->i2c[here->i2cs];
    i2c->config = *config;
    i2c->config.address %= 128;
    i2c->config.scl = engine_pin(config->scl);
    i2c->config.sda = engine_pin(config->sda);
    return here->i2cs++;
}

/* ---- one cycle of an engine */
static void uart_receives(struct uart *uart) {
    int rx = at(uart->config.rx), was = uart->rx_before;
    uart->rx_before = rx;
    if (!uart->receiving) {
        if (!was || rx) return;
        uart->receiving = 1;
        uart->came_begin = cycle;
        uart->bits = uart->in = 0;
        return;
    }
    if (cycle != uart->came_begin + uart->bits * uart->bit + uart->bit / 2) return;
    int bit = uart->bits++;
    if (bit == 0) uart->receiving = !rx;
    else if (bit <= 8) uart->in |= rx << (bit - 1);
    else {
        uart->receiving = 0;
        if (rx && uart->config.rx_data) uart->config.rx_data(uart->config.user_data, uart->in);
    }
}
static void uart_sends(struct uart *uart) {
    if (!uart->busy) return;
    long long frame = uart->begin + uart->sent * 10 * uart->bit;
    if (uart->count && cycle == frame) uart->byte = uart->buffer[uart->sent];
    if (cycle != (uart->count ? frame + 10 * uart->bit - 1 : uart->begin)) return;
    if (uart->count && ++uart->sent < uart->count) return;
    uart->busy = 0;
    if (uart->config.write_done) uart->config.write_done(uart->config.user_data);
}
static int uart_drives(struct uart *uart) {
    if (!uart->busy || !uart->count || cycle < uart->begin) return HIGH_LEVEL;
    int bit = (cycle - uart->begin - uart->sent * 10 * uart->bit) / uart->bit;
    return bit == 0 ? LOW_LEVEL : bit == 9 ? HIGH_LEVEL : uart->byte >> (bit - 1) & 1;
}
static void spi_ends(struct spi *spi) {
    spi->busy = spi->drives = 0;
    if (spi->config.done) spi->config.done(spi->config.user_data, spi->buffer, spi->done);
}
static void spi_presents(struct spi *spi) {
    if (!spi->has_byte) {
        spi->byte = spi->buffer[spi->done];
        spi->has_byte = 1;
        spi->bits = spi->in = 0;
    }
    spi->out = spi->byte >> (7 - spi->bits) & 1;
    spi->drives = 1;
}
static void spi_reads(struct spi *spi) {
    spi->in = spi->in << 1 | at(spi->config.mosi);
    if (++spi->bits < 8) return;
    spi->buffer[spi->done++] = spi->in;
    spi->has_byte = 0;
    if (spi->done == spi->count) spi_ends(spi);
}
static void spi_turn(struct spi *spi) {
    int sck = at(spi->config.sck), was = spi->sck_before, away = sck != (int)(spi->config.mode >> 1 & 1), second = spi->config.mode & 1;
    spi->sck_before = sck;
    if (!spi->busy) return;
    if (spi->stopped) {
        if (cycle > spi->stopped_in) spi_ends(spi);
        return;
    }
    if (!second && spi->done == 0 && !spi->has_byte) spi_presents(spi);
    if (sck == was) return;
    if (away == second) { /* an edge that presents */
        if (second || spi->bits) spi_presents(spi);
    } else if (spi->has_byte) spi_reads(spi);
}
static void i2c_next_byte(struct i2c *i2c) {
    i2c->byte = i2c->config.read ? i2c->config.read(i2c->config.user_data) : 255;
    i2c->bits = 0;
    i2c->listening = READ;
    i2c->low = !(i2c->byte >> 7);
}
static void i2c_rises(struct i2c *i2c, int sda) {
    if (i2c->listening == MASTERS_ANSWER) i2c->listening = sda ? DEAF : NEXT_READ;
    if (i2c->listening != ADDRESS && i2c->listening != WRITTEN) return;
    i2c->in = (i2c->in << 1 | sda) & 255;
    if (++i2c->bits < 8) return;
    int yes;
    if (i2c->listening == WRITTEN) yes = i2c->config.write ? i2c->config.write(i2c->config.user_data, i2c->in) : 1;
    else if ((uint32_t)i2c->in >> 1 != i2c->config.address) yes = 0;
    else {
        i2c->is_read = i2c->in & 1;
        yes = i2c->accepted = i2c->config.connect ? i2c->config.connect(i2c->config.user_data, i2c->config.address, i2c->is_read) : 1;
    }
    i2c->listening = yes ? ACKNOWLEDGE : DEAF;
}
static void i2c_falls(struct i2c *i2c) {
    switch (i2c->listening) {
    case ACKNOWLEDGE:
        i2c->low = 1;
        i2c->listening = ACKNOWLEDGED;
        break;
    case ACKNOWLEDGED:
        i2c->low = 0;
        if (i2c->is_read) i2c_next_byte(i2c);
        else i2c->listening = WRITTEN, i2c->bits = 0;
        break;
    case READ:
        i2c->low = ++i2c->bits < 8 && !(i2c->byte >> (7 - i2c->bits) & 1);
        if (i2c->bits == 8) i2c->listening = MASTERS_ANSWER;
        break;
    case NEXT_READ: i2c_next_byte(i2c); break;
    default: break;
    }
}
static void i2c_turn(struct i2c *i2c) {
    int scl = at(i2c->config.scl), sda = at(i2c->config.sda), scl_was = i2c->scl_before, sda_was = i2c->sda_before;
    i2c->scl_before = scl;
    i2c->sda_before = sda;
    if (scl && scl_was && sda != sda_was) { /* START or STOP */
        int accepted = i2c->accepted;
        i2c->low = i2c->accepted = i2c->bits = 0;
        i2c->is_read = 0;
        i2c->listening = sda ? DEAF : ADDRESS;
        if (accepted && i2c->config.disconnect) i2c->config.disconnect(i2c->config.user_data);
    } else if (scl && !scl_was) i2c_rises(i2c, sda);
    else if (!scl && scl_was) i2c_falls(i2c);
}

/* ---- the chips in a cycle */
static int out(struct chip *chip, int pin) { /* what it drives strongly: an engine before the mode */
    if (!chip->line[pin].given) return NO_LEVEL;
    for (int i = 0; i < chip->uarts; i++) if (chip->uart[i].config.tx == pin) return uart_drives(&chip->uart[i]);
    for (int i = 0; i < chip->spis; i++) if (chip->spi[i].config.miso == pin && chip->spi[i].drives) return chip->spi[i].out;
    for (int i = 0; i < chip->i2cs; i++) if (chip->i2c[i].config.sda == pin && chip->i2c[i].low) return LOW_LEVEL;
    return chip->line[pin].mode == OUTPUT ? chip->line[pin].value : NO_LEVEL;
}
static int pull(struct chip *chip, int pin) {
    if (!chip->line[pin].given || out(chip, pin) != NO_LEVEL) return NO_LEVEL;
    int mode = chip->line[pin].mode;
    return mode == INPUT_PULLUP ? HIGH_LEVEL : mode == INPUT_PULLDOWN ? LOW_LEVEL : NO_LEVEL;
}
static int together(int a, int b) { /* of equal strength */
    if (a != NO_LEVEL && b != NO_LEVEL && a != b) fprintf(stderr, "two drive one pin against each other in cycle %lld\n", cycle), exit(3);
    return a == NO_LEVEL ? b : a;
}
/* the level of a net: of a pin of the Uno, which drives `mine`, and of the pins of chips on it */
static int net(int pin, int mine, struct chip *alone, int alone_pin) {
    int strong = mine == PULLED ? NO_LEVEL : mine, weak = mine == PULLED ? HIGH_LEVEL : NO_LEVEL;
    for (struct chip *chip = chips; chip < chips + count; chip++)
        for (int p = 0; p < chip->pins; p++) {
            if (alone ? chip != alone || p != alone_pin : chip->line[p].at != pin) continue;
            strong = together(strong, out(chip, p));
            weak = together(weak, pull(chip, p));
        }
    return strong == NO_LEVEL ? weak : strong;
}
int chips_level(int pin, int mine) {
    int level = net(pin, mine, NULL, 0);
    for (int c = 0; c < count; c++)
        for (int p = 0; p < chips[c].pins; p++)
            if (chips[c].line[p].at == pin) level_of_pin[c][p] = level;
    return level;
}
void chips_step(void) {
    for (here = chips; here < chips + count; here++) {
        int c = here - chips;
        for (int i = 0; i < here->timers; i++) {
            struct clock *timer = &here->timer[i];
            if (!timer->runs || timer->due != cycle) continue;
            timer->runs = timer->repeats;
            timer->due = cycle + timer->delay;
            if (timer->config.callback) timer->config.callback(timer->config.user_data);
        }
        for (int p = 0; p < here->pins; p++) {
            int is = level_of_pin[c][p] == HIGH_LEVEL, was = before[c][p];
            struct line *line = &here->line[p];
            if (line->watched && is != was && (line->watch.edge & (is ? RISING : FALLING)) && line->watch.pin_change)
                line->watch.pin_change(line->watch.user_data, p, is);
        }
        for (int i = 0; i < here->uarts; i++) uart_receives(&here->uart[i]), uart_sends(&here->uart[i]);
        for (int i = 0; i < here->spis; i++) spi_turn(&here->spi[i]);
        for (int i = 0; i < here->i2cs; i++) i2c_turn(&here->i2c[i]);
        for (int p = 0; p < here->pins; p++) before[c][p] = level_of_pin[c][p] == HIGH_LEVEL;
    }
}

/* ---- uno.c's words and variables */
int chips_word(char *word) {
    if (!strncmp(word, "attr=", 5) && count) {
        struct chip *chip = &chips[count - 1];
        snprintf(chip->attribute[chip->attributes++], 40, "%s", word + 5);
        return 1;
    }
    if (strncmp(word, "chip=", 5)) return 0;
    struct chip *chip = &chips[count++];
    sscanf(word + 5, "%15[^:]", chip->id);
    for (char *pin = strtok(strchr(word, ':') + 1, ","); pin; pin = strtok(NULL, ",")) {
        struct line *line = &chip->line[chip->pins++];
        sscanf(pin, "%15[^@]", line->name);
        const char *to = strchr(pin, '@') + 1;
        line->at = *to == '-' || *to == 'l' || *to == 'h' ? -1 : atoi(to);
        line->supply = *to == 'l' ? LOW_LEVEL : *to == 'h' ? HIGH_LEVEL : NO_LEVEL;
    }
    return 1;
}
void chips_begin(void) {
    static void (*const inits[])(void) = {chip_init_0, chip_init_1};
    for (here = chips; here < chips + count; here++) inits[here - chips]();
}
void chips_cycle(long long now) {
    cycle = now;
    for (int c = 0; c < count; c++)
        for (int p = 0; p < chips[c].pins; p++)
            if (chips[c].line[p].at < 0) level_of_pin[c][p] = net(-1, chips[c].line[p].supply, &chips[c], p);
}
/* the names of the chips' variables in their order, or their values in this cycle; NULL behind the last */
const char *chips_name(int k) {
    static char name[40];
    static const char *const ends[3] = {"", ".out", ".pull"};
    for (int c = 0; c < count; k -= 3 * chips[c++].pins)
        if (k < 3 * chips[c].pins) {
            snprintf(name, sizeof name, "%s.%s%s", chips[c].id, chips[c].line[k / 3].name, ends[k % 3]);
            return name;
        }
    return NULL;
}
int chips_value(int k) {
    int c = 0;
    for (; k >= 3 * chips[c].pins; k -= 3 * chips[c++].pins) {}
    return k % 3 == 0 ? level_of_pin[c][k / 3] : k % 3 == 1 ? out(&chips[c], k / 3) : pull(&chips[c], k / 3);
}
