/* Two cores: a guest reads a page on the second, again and again, while this one unmaps the page, invalidates, gives it away, maps another
 * there and at last destroys the guest. */
#include "board.h"

enum { OFTEN = 1000, A_FEW = 10, COUNT = 0, LAST_READ = 1 };

/* What the second core tells the first, and is told. */
static struct {
    uint64_t faults, kind, level, stop, stopped;
} second;
#define TOLD(field) __atomic_load_n(&second.field, __ATOMIC_ACQUIRE)
#define TELL(field, value) __atomic_store_n(&second.field, value, __ATOMIC_RELEASE)

static uint64_t tables; /* VTTBR_EL2 for the second core, which makes no call of the library: one core at a time does */

/* The second core: where the guest's access is refused, it is tried again. */
void second_core(void)
{
    struct pageledger_arm_fault fault;
    own_registers();
    SET(sctlr_el1, guests[READER].sctlr);
    SET(vttbr_el2, tables);
    ISB();
    while (!TOLD(stop)) {
        enter(&guests[READER]);
        if (!pageledger_arm_read_fault(&fault))
            unexpected(GET(esr_el2), guests[READER].pc, GET(far_el2));
        TELL(kind, fault.kind);
        TELL(level, fault.level);
        TELL(faults, second.faults + 1);
    }
    SET(vttbr_el2, 0);
    ISB();
    TELL(stopped, 1);
}

static uint64_t counter; /* the frame in which the guest counts. Its stage 1 is off, so that it writes below the caches */

static uint64_t seen(int what)
{
    pageledger_arm_clean_frame(FRAME(counter));
    return ((volatile uint64_t *)FRAME(counter))[what];
}

static int reads_on(void)
{
    uint64_t end = 0, before = seen(COUNT);
    while (seen(COUNT) < before + OFTEN && in_time(&end))
        ;
    return seen(COUNT) >= before + OFTEN;
}

static int faults_on(void)
{
    uint64_t end = 0, before = TOLD(faults);
    while (TOLD(faults) < before + A_FEW && in_time(&end))
        ;
    return TOLD(faults) >= before + A_FEW;
}

static int stopped(void)
{
    uint64_t end = 0;
    while (!TOLD(stopped) && in_time(&end))
        ;
    return TOLD(stopped) != 0;
}

static int set_up(void)
{
    return !pageledger_create(BOTH, READER) && !provide(READER, free_frame(), CODE, PAGELEDGER_RX, reader)
           && !provide(READER, counter = free_frame(), CODE + PAGE_BYTES, PAGELEDGER_RW, 0)
           && !provide(READER, free_frame(), PAGE, PAGELEDGER_R, reader + PAGE_BYTES);
}

/* The page is unmapped while the guest reads it. What the other core kept ends with the invalidation, which this one makes. */
static void unmapped(uint64_t page)
{
    uint64_t count;
    check("the page is unmapped, and nothing is invalidated", !pageledger_unmap(BOTH, PAGE, READER));
    pageledger_arm_after_operation();
    printf("  the other core %s\n", !TOLD(faults) && reads_on() ? "still reads it" : "did not keep the translation");
    check("take is done, and the frame drains", !pageledger_take(BOTH, page, READER) && kind_of_frame(page) == PAGELEDGER_FRAME_DRAINING);
    check("invalidated from this core and reported, it is free",
          !pageledger_arm_invalidate(BOTH, READER) && kind_of_frame(page) == PAGELEDGER_FRAME_FREE);
    count = seen(COUNT); /* a read under way when TLBI began has ended with the DSB; its count may still be to be stored */
    check("the other core faults: TRANSLATION, level 3", faults_on() && TOLD(kind) == PAGELEDGER_TRANSLATION && TOLD(level) == 3);
    check("and has read it no more", seen(COUNT) <= count + 1);
}

static void destroyed(void)
{
    check("the page is unmapped once more", !take_away(READER, PAGE));
    TELL(stop, 1);
    check("the guest stops", stopped());
    check("destroyed, its pages drain", !pageledger_destroy(BOTH, READER) && kind_of_frame(counter) == PAGELEDGER_FRAME_DRAINING);
    check("invalidated and reported, they are free",
          !pageledger_arm_invalidate(BOTH, READER) && kind_of_frame(counter) == PAGELEDGER_FRAME_FREE);
}

void two_cores(void)
{
    uint64_t page;
    printf("A guest reads a page on the second core, again and again\n");
    check("it is set up", set_up());
    page = frame_of(READER, PAGE);
    tables = pageledger_arm_vttbr(BOTH, READER);
    begin(READER, (struct guest){.sctlr = SCTLR_EL1_STAGE_1_OFF});
    start_second_core();
    check("it reads what the page holds", reads_on() && seen(LAST_READ) == READER_FINDS);
    unmapped(page);
    check("the frame is the cluster's, with other bytes", !provide(CLUSTER, page, PAGE + PAGE_BYTES, PAGELEDGER_RW, reader));
    check("the guest runs on, and faults on", faults_on());
    check("another page is mapped there while it runs", !provide(READER, free_frame(), PAGE, PAGELEDGER_R, 0));
    check("it goes on, and reads zeros", reads_on() && seen(LAST_READ) == 0);
    destroyed();
}
