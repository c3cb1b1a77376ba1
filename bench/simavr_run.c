/* Runs a HEX file on simavr for so many cycles, as fast as it can: simavr's own program waits for the time of day while
   the core sleeps or polls the USART. The bytes that leave the USART go to standard output.
   Words: the HEX file, how many cycles, and how many of them avr_run may do in a call; without that word it does one
   instruction, as in simavr's own program. cc -O2 -o simavr_run simavr_run.c -lsimavr */
#include <simavr/avr_uart.h>
#include <simavr/sim_avr.h>
#include <simavr/sim_hex.h>
#include <stdio.h>
#include <stdlib.h>

static void sent(struct avr_irq_t *irq, uint32_t value, void *param)
{
    (void)irq;
    (void)param;
    putchar((int)value);
}

static void at_once(avr_t *avr, avr_cycle_count_t cycles)
{
    (void)avr;
    (void)cycles;
}

int main(int argc, char **argv)
{
    if (argc < 3 || argc > 4)
        return 2;
    ihex_chunk_p chunks = NULL;
    int count = read_ihex_chunks(argv[1], &chunks);
    avr_cycle_count_t last = strtoull(argv[2], NULL, 10);
    avr_t *avr = avr_make_mcu_by_name("atmega328p");
    avr_init(avr);
    avr->frequency = 16000000;
    avr->sleep = at_once;
    if (argc == 4)
        avr->run_cycle_limit = strtoull(argv[3], NULL, 10);
    uint32_t no_flags = 0;
    avr_ioctl(avr, AVR_IOCTL_UART_SET_FLAGS('0'), &no_flags);
    avr_irq_register_notify(avr_io_getirq(avr, AVR_IOCTL_UART_GETIRQ('0'), UART_IRQ_OUTPUT), sent, NULL);
    for (int i = 0; i < count; i++)
        avr_loadcode(avr, chunks[i].data, chunks[i].size, chunks[i].baseaddr);
    while (avr->cycle < last) {
        int state = avr_run(avr);
        if (state == cpu_Done || state == cpu_Crashed)
            return 1;
    }
    return 0;
}
