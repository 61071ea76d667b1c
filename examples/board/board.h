/* What the parts of the monitor share. */
#include <inttypes.h>
#include <stdio.h>
#include <stdlib.h>
#include "layout.h"
#include "pageledger_arm.h"

#define GET PAGELEDGER_ARM_GET
#define SET PAGELEDGER_ARM_SET
#define ISB() __asm__ volatile("isb" : : : "memory")

/* RAM that is lent: the monitor's address of it is the physical one. */
enum { FRAMES = 64, MONITOR_FRAMES = 2 };
extern uint32_t ledger[PAGELEDGER_LEDGER_WORDS(FRAMES)];
#define FRAME(f) ((uint8_t *)(uintptr_t)(LENT_AT + PAGE_BYTES * (uint64_t)(f)))
#define RAM FRAME(0), PAGELEDGER_RAM_BYTES(FRAMES)
#define BOTH RAM, ledger, PAGELEDGER_LEDGER_WORDS(FRAMES)

/* A guest's registers; start.S knows the places of the first three. */
struct guest {
    uint64_t x[31], pc, spsr;
    uint64_t sctlr, tcr, ttbr0, mair;
};
extern struct guest guests[PAGELEDGER_GUESTS + 1];
extern const uint8_t cluster[], radio[], reader[]; /* their programs, guests.S */

/* console.c */
void put(char letter);
void check(const char *what, int holds);
void unexpected(uint64_t esr, uint64_t elr, uint64_t far) __attribute__((noreturn));
extern const char *const kind_names[];

/* machine.c */
#define SCTLR_EL1_STAGE_1_OFF 0x30d00800u /* what has to be 1 there */
#define SCTLR_EL1_STAGE_1_ON (SCTLR_EL1_STAGE_1_OFF | 1u)
#define MAIR_EL1_CACHEABLE 0xffu
#define SPSR_EL1_MASKED 0x3c5u /* at EL1 with its own stack pointer, interrupts masked */
void own_registers(void);
uint64_t tcr_el1(void);
int in_time(uint64_t *end);

/* start.S */
void enter(struct guest *guest); /* runs it until its next exception */
void start_second_core(void);    /* which calls second_core */
void second_core(void);

/* monitor.c */
#define NO_FRAME FRAMES
uint64_t root_of(uint64_t guest), frame_of(uint64_t guest, uint64_t ipa), kind_of_frame(uint64_t frame), free_frame(void);
uint64_t provide(uint64_t guest, uint64_t frame, uint64_t ipa, uint64_t rights, const uint8_t *bytes);
uint64_t take_away(uint64_t guest, uint64_t ipa);
void begin(uint64_t guest, struct guest registers);
unsigned run(uint64_t guest);
#define REFUSED(access) (1u << (access)) /* what run answers: the accesses that were refused */
#define REFUSED_DURING_STAGE_1 8u

/* faults.c */
void hold_to_library(uint64_t guest, const struct pageledger_arm_fault *fault);

/* The parts of main.c, and tests/digest.c. */
void story(void), two_cores(void), machine_against_walk(void);
int print_digest(void);
