/* %s, and of numbers %lu and %lx, with leading zeros as in %016lx (console.c). */
int printf(const char *format, ...) __attribute__((format(printf, 1, 2)));
