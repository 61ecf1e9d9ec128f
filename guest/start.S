# Where a guest starts: a stack, zeros in what has no values, main, and a halt with what main returns.
# The register tp holds the devices' address for the doorbell's entry, and compiled code leaves it alone.
    .section .text.start, "ax", @progbits
    .globl _start
_start:
    la      sp, avm_stack_top
    lui     tp, 0x10000
    call    main
    .globl avm_halt
avm_halt:
    ecall
    j       avm_halt

# The doorbell's entry saves what a C function may change, and returns by a store that changes no register.
    .text
    .balign 4
    .globl avm_bell_entry
avm_bell_entry:
    addi    sp, sp, -64
    sw      ra, 0(sp)
    sw      t0, 4(sp)
    sw      t1, 8(sp)
    sw      t2, 12(sp)
    sw      t3, 16(sp)
    sw      t4, 20(sp)
    sw      t5, 24(sp)
    sw      t6, 28(sp)
    sw      a0, 32(sp)
    sw      a1, 36(sp)
    sw      a2, 40(sp)
    sw      a3, 44(sp)
    sw      a4, 48(sp)
    sw      a5, 52(sp)
    sw      a6, 56(sp)
    sw      a7, 60(sp)
    lui     t0, %hi(avm_bell_handler)
    lw      t0, %lo(avm_bell_handler)(t0)
    jalr    t0
    lw      ra, 0(sp)
    lw      t0, 4(sp)
    lw      t1, 8(sp)
    lw      t2, 12(sp)
    lw      t3, 16(sp)
    lw      t4, 20(sp)
    lw      t5, 24(sp)
    lw      t6, 28(sp)
    lw      a0, 32(sp)
    lw      a1, 36(sp)
    lw      a2, 40(sp)
    lw      a3, 44(sp)
    lw      a4, 48(sp)
    lw      a5, 52(sp)
    lw      a6, 56(sp)
    lw      a7, 60(sp)
    addi    sp, sp, 64
    sw      zero, 0x38(tp)
