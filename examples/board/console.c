/* What is printed, on the board's PL011. */
#include "board.h"

enum { UART_DATA = 0x00, UART_FLAGS = 0x18, UART_FULL = 1 << 5 };
enum { MOST_DIGITS = 24, DECIMAL = 10, HEXADECIMAL = 16 };

const char *const kind_names[] = {"nothing", "WALK_ABORT", "TRANSLATION", "NOT_MODELLED", "ACCESS_FLAG", "PERMISSION"};

static volatile uint32_t *uart(uintptr_t part) { return (volatile uint32_t *)(UART + part); }

void put(char letter)
{
    while (*uart(UART_FLAGS) & UART_FULL)
        ;
    *uart(UART_DATA) = (uint8_t)letter;
}

static void put_text(const char *text)
{
    while (*text)
        put(*text++);
}

static void put_number(uint64_t number, unsigned radix, unsigned width)
{
    char digits[MOST_DIGITS];
    unsigned n = 0;
    do
        digits[n++] = "0123456789abcdef"[number % radix];
    while (number /= radix);
    while (n < width && n < MOST_DIGITS)
        digits[n++] = '0';
    while (n)
        put(digits[--n]);
}

int printf(const char *format, ...)
{
    __builtin_va_list list;
    __builtin_va_start(list, format);
    for (const char *p = format; *p; p++) {
        unsigned width = 0;
        if (*p != '%') {
            put(*p);
            continue;
        }
        while (*++p >= '0' && *p <= '9')
            width = DECIMAL * width + (unsigned)(*p - '0');
        if (*p == 's')
            put_text(__builtin_va_arg(list, const char *));
        else
            put_number(__builtin_va_arg(list, uint64_t), *++p == 'x' ? HEXADECIMAL : DECIMAL, width);
    }
    __builtin_va_end(list);
    return 0;
}

/* The first check that does not hold ends the run. */
void check(const char *what, int holds)
{
    printf("  %s: %s\n", what, holds ? "yes" : "NO");
    if (!holds)
        exit(1);
}

/* An exception that nobody counts on: the monitor's own, or one of a guest's that is neither a call nor a fault. */
void unexpected(uint64_t esr, uint64_t elr, uint64_t far)
{
    printf("UNEXPECTED exception: ESR_EL2 0x%lx ELR_EL2 0x%lx FAR_EL2 0x%lx\n", esr, elr, far);
    exit(1);
}
