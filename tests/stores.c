/* The Arm libraries store by store: RAM is read-only; each store to it is caught, made alone, and written down with the bytes that it
 * wrote; and what each operation stored is what document 03 has it store, in that order, a descriptor by one store of eight bytes.
 * (host/tests/stores does this for x86-64, beside a second implementation that looks at each of these moments.)
 * A store is made alone by a breakpoint behind it, and made twice, over what was there and over its complement: a byte that is the same
 * after both was stored. WATCHED is the number of operations. With OF_THE_PROGRAM memset is the program's, as a host's is, and otherwise
 * the library's own. With WRONG a descriptor counts as stored only once it is stored again, in two halves: the program must say so. */
#define _GNU_SOURCE
#include <signal.h>
#include <string.h>
#include <sys/mman.h>
#include <ucontext.h>
#define main digest_main
#include "digest.c"
#undef main

#ifndef __aarch64__
#error "a breakpoint behind a store is written for Arm's instructions of four bytes"
#endif

#ifndef WATCHED
#define WATCHED 3000
#endif

enum { PAGE = 4096, WIDEST = 64, ROOM = 20000, ROUND = 250 };
static const uint32_t breakpoint = 0xd4200000;
static unsigned char *const ram = (unsigned char *)words;

/* `length` bytes at once, `at` bytes into RAM; their first eight as a number. 0 bytes where it depends on what was there. */
struct store {
    uint64_t at, length, value;
};
static struct store stores[ROOM];
static size_t made, looked;
static uint64_t before[PAGELEDGER_RAM_BYTES(FRAMES) / 8];

static struct {
    mcontext_t registers;
    uint64_t at;
    uint32_t behind;
    int times;
    unsigned char before[WIDEST], first[WIDEST];
} making;

static void stop(const char *why)
{
    puts(why);
    exit(1);
}

static void allow(void *place, size_t length, int how)
{
    if (mprotect((void *)((uintptr_t)place & -(uintptr_t)PAGE), length, how))
        stop("mprotect");
}

static size_t window(void)
{
    return sizeof words - making.at < WIDEST ? sizeof words - making.at : WIDEST;
}

/* The instruction behind the store becomes this one; making.behind is what it was. */
static void put_behind(uint32_t instruction)
{
    uint32_t *behind = (uint32_t *)(making.registers.pc + 4);
    allow(behind, PAGE, PROT_READ | PROT_WRITE | PROT_EXEC);
    making.behind = *behind;
    *behind = instruction;
    __builtin___clear_cache((char *)behind, (char *)(behind + 1));
}

static void write_down(uint64_t at, uint64_t length, uint64_t value)
{
    if (made == ROOM)
        stop("more stores than any operation makes");
    stores[made++] = (struct store){at, length, value};
}

static void stopped(int signal_number, siginfo_t *info, void *context)
{
    (void)signal_number;
    making.at = (uint64_t)info->si_addr - (uint64_t)ram;
    if (making.at >= sizeof words)
        stop("a fault that is none of ours");
    making.registers = ((ucontext_t *)context)->uc_mcontext;
    making.times = 0;
    memcpy(making.before, ram + making.at, window());
    allow(words, sizeof words, PROT_READ | PROT_WRITE);
    put_behind(breakpoint);
}

static void stepped(int signal_number, siginfo_t *info, void *context)
{
    mcontext_t *registers = &((ucontext_t *)context)->uc_mcontext;
    size_t room = window(), length = 0, kept;
    uint64_t value = 0;
    (void)signal_number, (void)info;
    if (making.times++ == 0) {
        memcpy(making.first, ram + making.at, room);
        for (size_t i = 0; i < room; i++)
            ram[making.at + i] = (unsigned char)~making.before[i];
        registers->pc = making.registers.pc;
        memcpy(registers->regs, making.registers.regs, sizeof registers->regs);
        return;
    }
    while (length < room && making.first[length] == ram[making.at + length])
        length++;
    for (kept = length; kept < room && making.first[kept] == making.before[kept]; kept++)
        ;
    memcpy(ram + making.at, making.first, room);
    memcpy(&value, making.first, length < 8 ? length : 8);
    write_down(making.at, kept == room ? length : 0, value);
    put_behind(making.behind);
    allow(words, sizeof words, PROT_READ);
}

#ifdef OF_THE_PROGRAM
/* The memset of a host, which is not the library's: its call is written down, as one store. */
void *memset(void *to, int byte, size_t length)
{
    uint64_t at = (uint64_t)to - (uint64_t)ram;
    if (at < sizeof words)
        allow(words, sizeof words, PROT_READ | PROT_WRITE);
    for (size_t i = 0; i < length; i++)
        ((volatile unsigned char *)to)[i] = (unsigned char)byte;
    if (at < sizeof words) {
        allow(words, sizeof words, PROT_READ);
        write_down(at, length, byte == 0 ? 0 : UINT64_MAX);
    }
    return to;
}
#endif

/* ---- the list */

/* The next stores are zeros in the frame at this address, until all of it is cleared. */
static void cleared(uint64_t address)
{
    uint64_t begin = address - base, done = 0;
    while (done < PAGE) {
        struct store next = looked < made ? stores[looked++] : (struct store){0, 0, 1};
        if (next.length == 0 || next.value != 0 || next.at != begin + done || done + next.length > PAGE)
            stop("a frame is not cleared as the list has it");
        done += next.length;
    }
}

static void stored(uint64_t address, uint64_t value)
{
    struct store next = looked < made ? stores[looked++] : (struct store){0, 0, 0};
    if (address % 8 || next.length != 8 || next.at != address - base || next.value != value)
        stop("a descriptor is not stored as the list has it");
}

static uint64_t *entry(uint64_t *image, uint64_t table, uint64_t a, int level)
{
    return image + (table - base) / 8 + (a >> (39 - 9 * level)) % 512;
}

static uint64_t root_of(uint64_t g)
{
    uint64_t answer[PAGELEDGER_GUEST_NUMBERS];
    has_room(pageledger_guest(BOTH, g, answer, PAGELEDGER_GUEST_NUMBERS));
    return answer[PAGELEDGER_GUEST_ROOT];
}

static uint64_t address_of(uint64_t *place)
{
    return base + 8 * (uint64_t)(place - words);
}

/* map: each missing table is cleared and then linked; then the page's entry. unmap: the page's entry, and no table is missing. */
static void way(struct call call, uint64_t last)
{
    uint64_t table = root_of(call.g), new = 0;
    for (int level = 0; level < 3; level++) {
        uint64_t *place = entry(words, table, call.a, level);
        new |= *entry(before, table, call.a, level) == 0;
        table = *place - 3;
        if (new) {
            cleared(table);
            stored(address_of(place), table + 3);
        }
    }
    stored(address_of(entry(words, table, call.a, 3)), last);
}

static void held(struct call call, uint64_t answer)
{
    uint64_t r = call.last, page = 0x73f + 64 * (r & 1) + 64 * (r & 2) + (r & 4 ? 0 : (uint64_t)1 << 54) + base + PAGE * call.f;
    looked = 0;
    if (answer == 0 && call.operation == CREATE)
        cleared(root_of(call.g));
    else if (answer == 0 && call.operation == GIVE)
        cleared(base + PAGE * call.f);
    else if (answer == 0 && call.operation == MAP)
        way(call, page);
    else if (answer == 0 && call.operation == UNMAP)
        way(call, 0);
    if (looked != made)
        stop("there is a store that the list does not have");
}

#ifdef WRONG
static void in_halves(void)
{
    uint64_t last = stores[made - 1].at;
    volatile uint32_t *half = (volatile uint32_t *)(ram + last);
    made--;
    half[0] = (uint32_t)words[last / 8];
    half[1] = (uint32_t)(words[last / 8] >> 32);
}
#endif

/* Two guests, six pages, three places: so much is done. Numbers that are none of these stay what they are. */
static struct call likely(struct call call)
{
    if (call.f < FRAMES)
        call.f = FRAMES - 1 - call.f % 6;
    if (call.g <= PAGELEDGER_GUESTS)
        call.g = 1 + call.g % 2;
    if (call.h <= PAGELEDGER_GUESTS)
        call.h = 1 + call.h % 2;
    if (call.a < (uint64_t)PLACES * APART)
        call.a = call.a / APART % 3 * APART;
    return call;
}

int main(void)
{
    struct sigaction action = {.sa_flags = SA_SIGINFO, .sa_sigaction = stopped};
    int few = 0;
    sigaction(SIGSEGV, &action, NULL);
    action.sa_sigaction = stepped;
    sigaction(SIGTRAP, &action, NULL);
    for (size_t i = 0; i < sizeof words / sizeof *words; i++)
        words[i] = descriptor();
    allow(words, sizeof words, PROT_READ);
    for (int i = 0; i < WATCHED; i++) {
        struct call call = likely(call_at_random());
        memcpy(before, words, sizeof words);
        made = 0;
        if (i % ROUND == 0)
            has_room(pageledger_set_up(BOTH, base, FRAMES, 2));
        uint64_t answer = perform(call);
#ifdef WRONG
        if (answer == 0 && call.operation == MAP)
            in_halves();
#endif
        held(call, answer);
        seen[call.operation] += answer == 0;
    }
    printf("%d operations, each store as the list has it; done were", WATCHED);
    for (int operation = CREATE; operation <= INVALIDATED; operation++) {
        printf(" %" PRIu64, seen[operation]);
        few |= operation <= UNMAP && seen[operation] < 5;
    }
    puts(few ? ": too few to say anything" : "");
    return few;
}
