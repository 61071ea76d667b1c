/* A small monitor at EL2 over libpageledger.a, for QEMU's board virt. It ends with status 0 where every check held. */
#include "board.h"

int main(void)
{
    own_registers();
    if (pageledger_arm_vtcr() == 0) {
        printf("this processor has fewer than 44 bits of physical address: stage 2 can't start at level 0\n");
        return 1;
    }
    printf("Pageledger at EL%lu, VTCR_EL2 0x%lx\n", pageledger_arm_bits(GET(currentel), 3, 2), GET(vtcr_el2));
    story();
    two_cores();
    machine_against_walk();
    print_digest();
    printf("every check held\n");
    return 0;
}
