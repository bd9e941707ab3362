/*
 * A program without an operating system and a C library, for the machine `virt` of qemu: three gauges deliver a float each to a node of samples/strain.layout,
 * and the mean goes out on the serial port as eight hexadecimal digits. The node lies at an odd address. test_archive.py links it and docs/TARGETS.md runs it.
 */
#include "mondgurt.h"

#ifdef __aarch64__
/* Vectors and floats on, unaligned accesses off; at the end the machine is switched off. */
#define SERIAL 0x09000000
#define START                                                                                                                    \
    "mov x0, 3 << 20; msr cpacr_el1, x0; mrs x0, sctlr_el1; orr x0, x0, 2; msr sctlr_el1, x0; isb;" \
    "adrp x0, stack_end; add x0, x0, :lo12:stack_end; mov sp, x0; bl play; mov w0, 8; movk w0, 0x8400, lsl 16; hvc 0; stop: b stop"
#else
/* Floats on; at the end the machine is switched off. */
#define SERIAL 0x10000000
#define START "li t0, 1 << 13; csrs mstatus, t0; la sp, stack_end; call play; li t0, 0x5555; li t1, 0x100000; sw t0, 0(t1); stop: j stop"
#endif

__asm__(".section .text.start, \"ax\"; .global _start; _start:;" START);
__asm__(".section .rodata; .global file, file_end; file: .incbin \"" LAYOUT "\"; file_end:");
__asm__(".section .bss; .balign 16; .skip 4096; stack_end:");

extern const uint8_t file[], file_end[];
static uint8_t memory[1 + MONDGURT_NODE];

static void put(char c)
{
    *(volatile uint8_t *)SERIAL = (uint8_t)c;
}

/* A float's pattern in bits 0 to 31 of little order, and the status bit at 32. */
static uint8_t deliver(mondgurt_node *node, uint64_t frame, float strain)
{
    int64_t value = mondgurt_value_of_float(strain);
    uint8_t data[8] = {(uint8_t)value, (uint8_t)(value >> 8), (uint8_t)(value >> 16), (uint8_t)(value >> 24), 1};

    return mondgurt_deliver(node, frame, 1, data, sizeof data);
}

void play(void)
{
    mondgurt_node *node = (mondgurt_node *)(memory + 1);
    int64_t mean = 0;

    if (mondgurt_load(node, file, (size_t)(file_end - file)) == 0 && deliver(node, 0, 120.5f) == 0 && deliver(node, 1, 121.0f) == 0 &&
        deliver(node, 2, 119.5f) == 0 && mondgurt_close(node) == 0)
        mondgurt_receive(node, 0, &mean);
    for (int k = 28; k >= 0; k -= 4)
        put("0123456789ABCDEF"[mean >> k & 15]);
    put('\n');
}
