// A thermometer on one wire (DS18B20). A low of 480 us or more on DQ is a reset, which it answers by a low of 120 us. Then the master
// makes a slot for each bit by a short low: it writes by the level 30 us later, and a chip that sends 0 holds DQ low for 30 us. It has
// the commands of the ROM, with the search, and of the scratchpad; a conversion is done at once. The attribute `temperature` is in
// sixteenths of a degree, and a hand moves it from -55 to 125 degrees. `number` is a byte of its ROM, by which two on one wire differ.
#include "control.h"

enum { RESET = 480000, SAMPLE = 30000, WAIT = 30000, PRESENCE = 120000, SCRATCH = 9 }; // ns
enum { READ_ROM = 0x33, MATCH_ROM = 0x55, SEARCH_ROM = 0xF0, ALARM_SEARCH = 0xEC, SKIP_ROM = 0xCC, CONVERT = 0x44, READ = 0xBE, WRITE = 0x4E, POWER = 0xB4 };

static pin_t dq;
static uint32_t temperature;
static timer_t timer;
static uint8_t rom[8] = {0x28, 0x4D, 0x55, 0x44, 0x46, 0x4A, 0x41};
static uint8_t scratch[SCRATCH] = {0, 0, 0x4B, 0x46, 0x7F, 0xFF, 0x0C, 0x10};
static uint64_t fell;
static enum { AWAY, ROM, MATCHING, SEARCHING, COMMAND, SENDING, TAKING, DONE } state;
static enum { IDLE, TO_PRESENCE, AT_PRESENCE, TO_SAMPLE, HOLDING } next;
static const uint8_t *sends;
static uint32_t place, bits, byte; // of what is sent or taken
static uint32_t turn;              // of a search: the bit, its opposite, the answer

static uint8_t crc(const uint8_t *data, uint32_t count) {
    uint8_t sum = 0;
    for (uint32_t i = 0; i < count; i++) {
        sum ^= data[i];
        for (uint32_t bit = 0; bit < 8; bit++) {
            sum = sum & 1 ? sum >> 1 ^ 0x8C : sum >> 1;
        }
    }
    return sum;
}

static void convert(void) {
    int32_t sixteenths = control_read(temperature);
    scratch[0] = (uint8_t)sixteenths;
    scratch[1] = (uint8_t)(sixteenths >> 8);
    scratch[8] = crc(scratch, 8);
}

static void send(const uint8_t *what, uint32_t count) {
    sends = what;
    place = 0;
    bits = 8 * count;
    state = SENDING;
}

static void take_byte(void) {
    if (state == ROM) {
        state = byte == SKIP_ROM ? COMMAND : byte == MATCH_ROM ? MATCHING : byte == SEARCH_ROM ? SEARCHING : DONE;
        place = turn = 0;
        if (byte == READ_ROM) {
            send(rom, 8);
        }
    } else if (state == COMMAND) {
        state = DONE;
        if (byte == CONVERT) {
            convert();
        } else if (byte == READ) {
            send(scratch, SCRATCH);
        } else if (byte == WRITE) {
            state = TAKING;
            place = 2;
        }
    } else if (state == TAKING) {
        scratch[place++] = (uint8_t)byte;
        scratch[8] = crc(scratch, 8);
        state = place == 5 ? DONE : TAKING;
    }
}

// A bit that the master wrote.
static void take(uint32_t bit) {
    uint32_t own = rom[place / 8] >> place % 8 & 1;
    if (state == MATCHING) {
        state = bit != own ? DONE : ++place == 64 ? COMMAND : MATCHING;
    } else if (state == SEARCHING) {
        turn = 0;
        state = bit != own || ++place == 64 ? DONE : SEARCHING;
    } else if (state == ROM || state == COMMAND || state == TAKING) {
        byte = byte >> 1 | bit << 7;
        if (++bits == 8) {
            bits = 0;
            take_byte();
        }
    }
}

// What this slot sends: 0 or 1, or 2 where the master writes.
static uint32_t sent(void) {
    if (state == SENDING) {
        uint32_t bit = sends[place / 8] >> place % 8 & 1;
        if (++place == bits) {
            state = DONE;
            bits = 0;
        }
        return bit;
    }
    if (state == SEARCHING && turn < 2) {
        return (rom[place / 8] >> place % 8 & 1) ^ turn++;
    }
    return 2;
}

static void on_timer(void *user_data) {
    if (next == TO_PRESENCE) {
        pin_mode(dq, OUTPUT_LOW);
        next = AT_PRESENCE;
        timer_start_ns(timer, PRESENCE, false);
        return;
    }
    if (next == TO_SAMPLE) {
        take(pin_read(dq));
    } else {
        pin_mode(dq, INPUT);
    }
    next = IDLE;
}

static void on_dq(void *user_data, pin_t pin, uint32_t value) {
    uint64_t now = get_sim_nanos();
    if (!value) {
        fell = now;
        if (state == AWAY || state == DONE || next != IDLE) {
            return;
        }
        uint32_t bit = sent();
        if (bit == 2) {
            next = TO_SAMPLE;
            timer_start_ns(timer, SAMPLE, false);
        } else if (bit == 0) {
            pin_mode(dq, OUTPUT_LOW);
            next = HOLDING;
            timer_start_ns(timer, SAMPLE, false);
        }
    } else if (now - fell >= RESET) {
        state = ROM;
        bits = byte = 0;
        next = TO_PRESENCE;
        timer_start_ns(timer, WAIT, false);
    }
}

void chip_init(void) {
    temperature = control_init("temperature", 22 * 16, -55 * 16, 1, 180 * 16 + 1);
    rom[1] = (uint8_t)attr_read(attr_init("number", rom[1]));
    control_watch();
    rom[7] = crc(rom, 7);
    convert();
    dq = pin_init("DQ", INPUT);
    const timer_config_t times = {.callback = on_timer};
    timer = timer_init(&times);
    const pin_watch_config_t watch = {.edge = BOTH, .pin_change = on_dq};
    pin_watch(dq, &watch);
}
