/* Code and constants in one segment, data in another, and above them a stack for each of 32 tasks.
 * A stack grows downwards, so `stack_0` to `stack_31` are the upper ends of the stacks: one task
 * states `stack = "stack_0"`, another one `stack = "stack_1"`. Stacks take no place in the file.
 * Each has 1024 bytes, or as many as an option says: `-Wl,--defsym=stack_size=4096`. A program with
 * one stack may use `stack_top` instead, below which all memory down to the data is free. */
OUTPUT_ARCH(riscv)
ENTRY(_start)
PHDRS
{
    code PT_LOAD FLAGS(5);
    data PT_LOAD FLAGS(6);
}
PROVIDE(stack_size = 1024);
ASSERT(stack_size % 16 == 0, "stack_size is no multiple of 16")
SECTIONS
{
    . = 0x1000;
    .text : { PROVIDE(_start = .); *(.text .text.*) } :code
    .rodata : { *(.rodata .rodata.* .srodata .srodata.*) } :code
    ASSERT(. <= 0x8000, "code and constants reach into the data")
    . = 0x8000;
    .data : { *(.data .data.* .sdata .sdata.*) } :data
    .bss : { *(.bss .bss.* .sbss .sbss.* COMMON) } :data
    ASSERT(. <= 0x10000, "the data reach into the stacks")
    . = 0x10000;
    stack_top = .;
    /DISCARD/ : { *(.comment .note.* .riscv.attributes .eh_frame) }
}
stack_0 = stack_top + 1 * stack_size;
stack_1 = stack_top + 2 * stack_size;
stack_2 = stack_top + 3 * stack_size;
stack_3 = stack_top + 4 * stack_size;
stack_4 = stack_top + 5 * stack_size;
stack_5 = stack_top + 6 * stack_size;
stack_6 = stack_top + 7 * stack_size;
stack_7 = stack_top + 8 * stack_size;
stack_8 = stack_top + 9 * stack_size;
stack_9 = stack_top + 10 * stack_size;
stack_10 = stack_top + 11 * stack_size;
stack_11 = stack_top + 12 * stack_size;
stack_12 = stack_top + 13 * stack_size;
stack_13 = stack_top + 14 * stack_size;
stack_14 = stack_top + 15 * stack_size;
stack_15 = stack_top + 16 * stack_size;
stack_16 = stack_top + 17 * stack_size;
stack_17 = stack_top + 18 * stack_size;
stack_18 = stack_top + 19 * stack_size;
stack_19 = stack_top + 20 * stack_size;
stack_20 = stack_top + 21 * stack_size;
stack_21 = stack_top + 22 * stack_size;
stack_22 = stack_top + 23 * stack_size;
stack_23 = stack_top + 24 * stack_size;
stack_24 = stack_top + 25 * stack_size;
stack_25 = stack_top + 26 * stack_size;
stack_26 = stack_top + 27 * stack_size;
stack_27 = stack_top + 28 * stack_size;
stack_28 = stack_top + 29 * stack_size;
stack_29 = stack_top + 30 * stack_size;
stack_30 = stack_top + 31 * stack_size;
stack_31 = stack_top + 32 * stack_size;
