/* What the monitor in C, the guests in assembly and the linker have in common. */
#define PAGE_BYTES 4096

/* QEMU's board virt: its console, RAM from 1 GiB on. The monitor is loaded at the first address, and lends the RAM from the second. */
#define UART 0x09000000
#define MONITOR_AT 0x40200000
#define LENT_AT 0x48000000
#define STACK_BYTES 0x10000

/* Guest-physical addresses: a guest's program and the pages behind it, and the page that the story is about. */
#define CODE 0x80000000
#define PAGE 0x90000000

/* What a guest asks the monitor for, by the number of its hvc. */
#define CALL_PRINT 0   /* x0, a letter */
#define CALL_SHARE 1   /* its page at x0 with the guest x1, to read; it appears there at the same address */
#define CALL_UNSHARE 2 /* its page at x0 with the guest x1 no longer */
#define CALL_YIELD 3   /* the processor to somebody else */

/* The guests. */
#define CLUSTER 1
#define RADIO 2
#define READER 3

#define SECRET 0x5ec2e7
#define READER_FINDS 0x1111
