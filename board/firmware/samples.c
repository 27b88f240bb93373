/*
 * The sample reader: a core carries samples from a stream into memory, packet by
 * packet; each packet is handed to the estimator when its descriptor is done. A timer
 * tells when the stream has fallen silent.
 */
#include <stdbool.h>
#include <stddef.h>
#include <stdint.h>
#include <stdio.h>

#include "altera_avalon_sgdma_descriptor.h"
#include "altera_avalon_sgdma_regs.h"
#include "altera_avalon_timer_regs.h"
#include "altera_vic_regs.h"
#include "priv/alt_busy_sleep.h"
#include "sys/alt_irq.h"
#include "system.h"

enum { PACKETS = 4, PACKET = 16, SAMPLES = PACKETS * PACKET };
enum { LEVEL_OF_SGDMA = 2, LEVEL_OF_TIMER = 1 };

/* The timer looks at the stream every so many ticks; it is silent after so many looks
   that found no packet more. */
enum { TICKS_A_LOOK = 100, LOOKS_TO_SILENCE = 3 };

#define ENABLES                                         \
    (ALTERA_AVALON_SGDMA_CONTROL_IE_GLOBAL_MSK |        \
     ALTERA_AVALON_SGDMA_CONTROL_IE_DESCRIPTOR_COMPLETED_MSK | \
     ALTERA_AVALON_SGDMA_CONTROL_IE_CHAIN_COMPLETED_MSK)

/* The memory: the chain, with one that is not owned at its end, and the packets. */
struct layout {
    alt_sgdma_descriptor chain[PACKETS + 1];
    uint8_t packets[PACKETS][PACKET];
};

static volatile struct layout *const memory = (struct layout *)(uintptr_t)ONCHIP_MEMORY_BASE;

/* What the handlers tell. */
static volatile uint32_t status_seen;
static volatile unsigned interrupts, looks;

static uint8_t estimated[SAMPLES];
static size_t estimated_count;

/* The estimator's place: it takes the samples of a packet as they are. */
static void estimate(const volatile uint8_t *samples, size_t count)
{
    for (size_t i = 0; i < count; i++)
        estimated[estimated_count++] = samples[i];
}

static uint32_t bus_address(const volatile void *place)
{
    return (uint32_t)(uintptr_t)place;
}

static void lay_chain(void)
{
    for (size_t i = 0; i < PACKETS; i++) {
        volatile alt_sgdma_descriptor *d = &memory->chain[i];

        d->write_addr = bus_address(memory->packets[i]);
        d->next = bus_address(&memory->chain[i + 1]);
        d->bytes_to_transfer = PACKET;
        d->control = ALTERA_AVALON_SGDMA_DESCRIPTOR_CONTROL_OWNED_BY_HW_MSK;
    }
    memory->chain[PACKETS].control = 0;
}

static bool is_done(size_t packet)
{
    return !(memory->chain[packet].control &
             ALTERA_AVALON_SGDMA_DESCRIPTOR_CONTROL_OWNED_BY_HW_MSK);
}

/* Clears the bits that were read, and then what is pending. */
static void serve_sgdma(void *context)
{
    uint32_t status = IORD_ALTERA_AVALON_SGDMA_STATUS(SGDMA_0_BASE);

    (void)context;
    IOWR_ALTERA_AVALON_SGDMA_STATUS(SGDMA_0_BASE, status);
    IOWR_ALTERA_AVALON_SGDMA_CONTROL(
        SGDMA_0_BASE, ENABLES | ALTERA_AVALON_SGDMA_CONTROL_RUN_MSK |
                          ALTERA_AVALON_SGDMA_CONTROL_CLEAR_INTERRUPT_MSK);
    status_seen |= status;
    interrupts++;
    looks = 0;
}

static void serve_timer(void *context)
{
    (void)context;
    IOWR_ALTERA_AVALON_TIMER_STATUS(TIMER_0_BASE, 0);
    looks++;
}

static void start_timer(void)
{
    uint32_t period = TICKS_A_LOOK - 1;

    IOWR_ALTERA_AVALON_TIMER_PERIODL(TIMER_0_BASE, period & 0xFFFF);
    IOWR_ALTERA_AVALON_TIMER_PERIODH(TIMER_0_BASE, period >> 16);
    IOWR_ALTERA_AVALON_TIMER_CONTROL(TIMER_0_BASE,
                                     ALTERA_AVALON_TIMER_CONTROL_ITO_MSK |
                                         ALTERA_AVALON_TIMER_CONTROL_CONT_MSK |
                                         ALTERA_AVALON_TIMER_CONTROL_START_MSK);
}

static void listen(void)
{
    IOWR_ALTERA_VIC_INT_CONFIG(VIC_0_BASE, SGDMA_0_IRQ,
                               LEVEL_OF_SGDMA << ALTERA_VIC_INT_CONFIG_RIL_OFST);
    IOWR_ALTERA_VIC_INT_CONFIG(VIC_0_BASE, TIMER_0_IRQ,
                               LEVEL_OF_TIMER << ALTERA_VIC_INT_CONFIG_RIL_OFST);
    alt_ic_isr_register(VIC_0_ID, SGDMA_0_IRQ, serve_sgdma, NULL, NULL);
    alt_ic_isr_register(VIC_0_ID, TIMER_0_IRQ, serve_timer, NULL, NULL);
}

/* Takes packets as they are done, until the chain's end or silence. */
static size_t take_packets(void)
{
    size_t packet = 0;

    while (packet < PACKETS && looks < LOOKS_TO_SILENCE) {
        alt_busy_sleep(1);
        if (!is_done(packet))
            continue;
        estimate(memory->packets[packet], memory->chain[packet].actual_bytes_transferred);
        printf("    packet %u: %u samples, %u to %u\n", (unsigned)packet,
               (unsigned)memory->chain[packet].actual_bytes_transferred,
               memory->packets[packet][0], estimated[estimated_count - 1]);
        packet++;
    }
    return packet;
}

/* Clears RUN, and waits until the core is at rest. */
static void stop(void)
{
    IOWR_ALTERA_AVALON_TIMER_CONTROL(TIMER_0_BASE, ALTERA_AVALON_TIMER_CONTROL_STOP_MSK);
    IOWR_ALTERA_AVALON_SGDMA_CONTROL(SGDMA_0_BASE, 0);
    while (IORD_ALTERA_AVALON_SGDMA_STATUS(SGDMA_0_BASE) &
           ALTERA_AVALON_SGDMA_STATUS_BUSY_MSK)
        ;
}

int main(void)
{
    size_t taken;

    lay_chain();
    listen();
    start_timer();
    IOWR_ALTERA_AVALON_SGDMA_NEXT_DESCRIPTOR_POINTER(SGDMA_0_BASE, bus_address(memory->chain));
    IOWR_ALTERA_AVALON_SGDMA_CONTROL(SGDMA_0_BASE,
                                     ENABLES | ALTERA_AVALON_SGDMA_CONTROL_RUN_MSK);
    taken = take_packets();
    stop();
    printf("    %u packets, %u samples for the estimator; %u interrupts, chain %s\n",
           (unsigned)taken, (unsigned)estimated_count, interrupts,
           status_seen & ALTERA_AVALON_SGDMA_STATUS_CHAIN_COMPLETED_MSK ? "completed"
                                                                       : "not completed");
    return taken == PACKETS ? 0 : 1;
}
