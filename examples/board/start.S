// Entry at EL2, vectors, and the way into a guest and out of it.
#include "layout.h"

#define SEMIHOSTING_EXIT 0x18           // and its reason: a program's own end, with a status
#define SEMIHOSTING_APPLICATION_EXIT 0x20026
#define PSCI_CPU_ON 0xc4000003
#define SECOND_CORE 1
#define GUEST_PC 248                    // struct guest: x0 to x30 from 0 on, pc, spsr
#define KEPT_BYTES 96                   // x29, x30, and x19 to x28, which a call keeps

    .macro own_stack_and_vectors top
    adrp x0, \top
    mov  sp, x0
    adr  x0, vectors
    msr  vbar_el2, x0
    isb
    .endm

    .section .text.start, "ax"
    .global start, exit, enter, start_second_core
start:
    own_stack_and_vectors stack_top
    adrp x0, bss_start
    adrp x1, bss_end
1:  str  xzr, [x0], #8
    cmp  x0, x1
    b.lo 1b
    bl   main
exit:                                   // void exit(int status): the emulator ends with it
    sxtw x0, w0
    ldr  x1, =SEMIHOSTING_APPLICATION_EXIT
    stp  x1, x0, [sp, #-16]!
    mov  x0, #SEMIHOSTING_EXIT
    mov  x1, sp
    hlt  #0xf000

start_second_core:
    ldr  x0, =PSCI_CPU_ON
    mov  x1, #SECOND_CORE
    adr  x2, 1f
    smc  #0
    ret
1:  own_stack_and_vectors second_stack_top
    bl   second_core
2:  wfi
    b    2b
    .ltorg

    .balign 2048
vectors:
    .rept 8                             // from EL2 itself: nothing is expected
    .balign 128
    b    lost
    .endr
    .balign 128                         // from a guest, synchronous
    stp  x0, x1, [sp, #-16]!
    mrs  x0, tpidr_el2
    b    leave
    .rept 7
    .balign 128
    b    lost
    .endr
lost:
    mrs  x0, esr_el2
    mrs  x1, elr_el2
    mrs  x2, far_el2
    b    unexpected

    .macro kept op                      // the monitor's registers that a call keeps
    .irp n, 19, 20, 21, 22, 23, 24, 25, 26, 27, 28
    \op  x\n, [sp, #16 + 8 * (\n - 19)]
    .endr
    .endm

    .macro guests op                    // the guest's, but for x0 and x1
    .irp n, 2, 3, 4, 5, 6, 7, 8, 9, 10, 11, 12, 13, 14, 15, 16, 17, 18, 19, 20, 21, 22, 23, 24, 25, 26, 27, 28, 29, 30
    \op  x\n, [x0, #8 * \n]
    .endr
    .endm

enter:                                  // void enter(struct guest *guest): comes back with the guest's next exception
    stp  x29, x30, [sp, #-KEPT_BYTES]!
    kept str
    msr  tpidr_el2, x0
    ldp  x1, x2, [x0, #GUEST_PC]
    msr  elr_el2, x1
    msr  spsr_el2, x2
    guests ldr
    ldp  x0, x1, [x0]
    eret
leave:
    guests str
    ldp  x1, x2, [sp], #16
    stp  x1, x2, [x0]
    mrs  x1, elr_el2
    mrs  x2, spsr_el2
    stp  x1, x2, [x0, #GUEST_PC]
    kept ldr
    ldp  x29, x30, [sp], #KEPT_BYTES
    ret
