# Boot and the trap stub, not verified. What comes in: the processor after reset, and each trap. What goes out: a call of
# boot() once, of trap() for each trap with the registers of the running process, and the return to user mode.

    .section .text.start, "ax"
    .globl _start
_start:
    csrr t0, mhartid
1:  bnez t0, 1b                  # one processor runs, the others wait here
    la sp, stack_end
    call boot
    j leave

    .balign 4
    .globl trap_entry
trap_entry:
    csrrw t6, mscratch, t6       # t6: the registers of the running process, mscratch: its t6
    .irp n, 1,2,3,4,5,6,7,8,9,10,11,12,13,14,15,16,17,18,19,20,21,22,23,24,25,26,27,28,29,30
    sd x\n, 8*\n(t6)
    .endr
    csrr t0, mscratch
    sd t0, 8*31(t6)
    csrr t0, mepc
    sd t0, 0(t6)
    la sp, stack_end
    mv a0, t6
    call trap

leave:                           # a0: the registers of the process that runs next
    csrw mscratch, a0
    ld t0, 0(a0)
    csrw mepc, t0
    mv t6, a0
    .irp n, 1,2,3,4,5,6,7,8,9,10,11,12,13,14,15,16,17,18,19,20,21,22,23,24,25,26,27,28,29,30
    ld x\n, 8*\n(t6)
    .endr
    ld t6, 8*31(t6)
    mret

    .section .bss.stack, "aw", @nobits
    .balign 16
    .space 4096
stack_end:
