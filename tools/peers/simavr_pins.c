// Runs a firmware on simavr and prints each change of a pin of the Uno, as `CYCLE PIN VALUE`: 0 or 1 where the pin is an
// output or has its pull-up, else z. A change counts in the cycle behind the one in which its instruction starts, as in
// a wave. Words: the HEX file, how many cycles, and wires: `A=B` has pin B follow output A, `A=high` and `A=low` hold pin A.
#include <simavr/avr_ioport.h>
#include <simavr/sim_avr.h>
#include <simavr/sim_hex.h>
#include <stdio.h>
#include <stdlib.h>
#include <string.h>

static avr_t *avr;
static unsigned port[3], ddr[3];
static char shown[20];
static struct { int from, to; } wires[20];
static int wire_count;

static char letter(int pin) { return pin < 8 ? 'D' : pin < 14 ? 'B' : 'C'; }
static int bit_of(int pin) { return pin < 8 ? pin : pin < 14 ? pin - 8 : pin - 14; }

static void drive(int pin, int value) {
    avr_raise_irq(avr_io_getirq(avr, AVR_IOCTL_IOPORT_GETIRQ(letter(pin)), bit_of(pin)), value);
}

static char value_of(int pin) {
    int k = letter(pin) - 'B', bit = bit_of(pin);
    if (ddr[k] >> bit & 1) return '0' + (port[k] >> bit & 1);
    return port[k] >> bit & 1 ? '1' : 'z';
}

static void show(void) {
    for (int pin = 0; pin < 20; pin++) {
        char now = value_of(pin);
        if (now == shown[pin]) continue;
        shown[pin] = now;
        printf("%llu %d %c\n", (unsigned long long)avr->cycle + 1, pin, now);
        for (int i = 0; i < wire_count; i++)
            if (wires[i].from == pin && now != 'z') drive(wires[i].to, now - '0');
    }
}

static void port_written(avr_irq_t *irq, uint32_t value, void *k) {
    port[(long)k] = value;
    show();
}

static void ddr_written(avr_irq_t *irq, uint32_t value, void *k) {
    ddr[(long)k] = value;
    show();
}

// A 1 written to a flag clears it (data sheet, "EIFR - External Interrupt Flag Register"); simavr stores it as it stands
// where the flag's vector is not enabled.
static void flags_written(avr_t *avr, avr_io_addr_t at, uint8_t value, void *none) { avr->data[at] &= ~value; }

int main(int count, char **words) {
    uint32_t size, start;
    unsigned long long cycles = strtoull(words[2], NULL, 10);
    avr = avr_make_mcu_by_name("atmega328p");
    if (!avr) return 2;
    avr_init(avr);
    avr->frequency = 16000000;
    avr->log = LOG_NONE;
    uint8_t *bytes = read_ihex_file(words[1], &size, &start);
    if (!bytes) return 2;
    avr_loadcode(avr, bytes, size, start);
    avr->codeend = avr->flashend;
    avr_register_io_write(avr, 0x3C, flags_written, NULL);
    memset(shown, 'z', sizeof shown);
    for (long k = 0; k < 3; k++) {
        avr_irq_register_notify(avr_io_getirq(avr, AVR_IOCTL_IOPORT_GETIRQ('B' + k), IOPORT_IRQ_REG_PORT), port_written, (void *)k);
        avr_irq_register_notify(avr_io_getirq(avr, AVR_IOCTL_IOPORT_GETIRQ('B' + k), IOPORT_IRQ_DIRECTION_ALL), ddr_written, (void *)k);
    }
    for (int i = 3; i < count; i++) {
        int from, to;
        if (sscanf(words[i], "%d=high", &from) == 1 && strstr(words[i], "=high")) drive(from, 1);
        else if (sscanf(words[i], "%d=low", &from) == 1 && strstr(words[i], "=low")) drive(from, 0);
        else if (sscanf(words[i], "%d=%d", &from, &to) == 2) {
            wires[wire_count].from = from;
            wires[wire_count++].to = to;
        }
    }
    while (avr->cycle < cycles) {
        int state = avr_run(avr);
        if (state == cpu_Done || state == cpu_Crashed) break;
    }
    return 0;
}
