// The guests' programs, at EL1, each from CODE on; where a program has more pages they lie behind it.
#include "layout.h"

#define FIRST_DIGIT_SHIFT 60
#define DESCRIPTOR_TABLE 3              // stage 1: a table
#define DESCRIPTOR_BLOCK 0x701          // stage 1: a block, access flag, inner shareable, all rights for EL1
#define NOT_ITS_MEMORY 0x70000000
#define BEHIND_IT 0x8000000000          // the first address of the second entry of its root

    .macro say text                     // uses x0, x9
    adr  x9, 8f
7:  ldrb w0, [x9], #1
    cbz  w0, 9f
    hvc  #CALL_PRINT
    b    7b
8:  .asciz "\text"
    .balign 4
9:
    .endm

    .macro ask call                     // uses x0, x1
    mov  x0, x19
    mov  x1, #RADIO
    hvc  #\call
    .endm

    .section .rodata.guests, "a"
    .global cluster, radio, reader

// The instrument cluster, with its stage 1 off: writes its page, shares it, ends that.
    .balign PAGE_BYTES
cluster:
    mov  x19, #PAGE
    ldr  x20, =SECRET
    str  x20, [x19]
    say  "  cluster: I wrote my page\n"
    hvc  #CALL_YIELD
    ask  CALL_SHARE
    say  "  cluster: I shared it with the radio, to read\n"
    hvc  #CALL_YIELD
    ask  CALL_UNSHARE
    say  "  cluster: I unshared it\n"
    hvc  #CALL_YIELD
    b    .
    .ltorg

// The radio, whose kernel a hostile app has in its hands: reads, writes and executes the cluster's page, and tries a table of its own that
// leads outside its memory. Its stage 1 is on, with tables in its second and third page. Where the monitor refuses an access it sets x28.
    .balign PAGE_BYTES
radio:
    mov  x19, #PAGE
again:
    mov  x28, #0
    ldr  x20, [x19]
    cbnz x28, 3f
    say  "  radio: I read 0x"
    mov  x21, #FIRST_DIGIT_SHIFT
1:  lsr  x0, x20, x21
    and  x0, x0, #15
    cmp  x0, #10
    add  x22, x0, #'a' - 10
    add  x0, x0, #'0'
    csel x0, x0, x22, lo
    hvc  #CALL_PRINT
    subs x21, x21, #4
    b.ge 1b
    say  "\n"
3:  mov  x28, #0
    mov  x20, #0xbad
    str  x20, [x19]
    cbnz x28, 3f
    say  "  radio: I wrote 0xbad\n"
3:  mov  x28, #0
    blr  x19                            // a fetch that is refused comes back by x30
    cbnz x28, 3f
    say  "  radio: I executed it\n"
3:  mov  x20, #BEHIND_IT
    ldr  x20, [x20]
    hvc  #CALL_YIELD
    b    again
    .balign PAGE_BYTES                  // its root, level 0
    .quad CODE + 2 * PAGE_BYTES + DESCRIPTOR_TABLE
    .quad NOT_ITS_MEMORY + DESCRIPTOR_TABLE
    .balign PAGE_BYTES                  // level 1: its third GiB by one block
    .quad 0, 0, CODE + DESCRIPTOR_BLOCK

// The reader, with its stage 1 off: counts in its second page how often it has read the page, and what it read last.
    .balign PAGE_BYTES
reader:
    mov  x19, #PAGE
    ldr  x20, =CODE + PAGE_BYTES
1:  ldr  x22, [x19]
    add  x21, x21, #1
    stp  x21, x22, [x20]
    b    1b
    .ltorg
    .balign PAGE_BYTES                  // what the page holds at first
    .quad READER_FINDS
    .balign PAGE_BYTES
