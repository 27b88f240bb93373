/*
 * A descriptor in memory, with the fields of the handbook's figure 23-7. The three
 * addresses are numbers of 32 bits here, and pointers there: so the layout is the same
 * for a target of 32 bits and for a board in a process of 64. Firmware that assigns a
 * pointer casts it.
 *
 * The names of the masks are not printed in the handbook: they are those of the bits in
 * its table 23-11, as chapter 29 makes such a name of a bit.
 */
#ifndef ALTERA_AVALON_SGDMA_DESCRIPTOR_H
#define ALTERA_AVALON_SGDMA_DESCRIPTOR_H

#include "alt_types.h"
#include "sgdma.h"

typedef struct {
    alt_u32 read_addr;
    alt_u32 read_addr_pad;
    alt_u32 write_addr;
    alt_u32 write_addr_pad;
    alt_u32 next;
    alt_u32 next_pad;
    alt_u16 bytes_to_transfer;
    alt_u8 read_burst;  /* reserved: 0 */
    alt_u8 write_burst; /* reserved: 0 */
    alt_u16 actual_bytes_transferred;
    alt_u8 status;
    alt_u8 control;
} alt_sgdma_descriptor;

#define ALTERA_AVALON_SGDMA_DESCRIPTOR_CONTROL_GENERATE_EOP_MSK        SGDMA_DESC_GENERATE_EOP
#define ALTERA_AVALON_SGDMA_DESCRIPTOR_CONTROL_READ_FIXED_ADDRESS_MSK  SGDMA_DESC_READ_FIXED_ADDRESS
#define ALTERA_AVALON_SGDMA_DESCRIPTOR_CONTROL_WRITE_FIXED_ADDRESS_MSK SGDMA_DESC_WRITE_FIXED_ADDRESS
#define ALTERA_AVALON_SGDMA_DESCRIPTOR_CONTROL_OWNED_BY_HW_MSK         SGDMA_DESC_OWNED_BY_HW

#endif
