/* The three functions that a compiler may call without being asked, for programs that have no C library.
 * They are members of the bare-metal archive only, and weak: a program's own come first. */
typedef __SIZE_TYPE__ size_t;
typedef unsigned long long __attribute__((may_alias)) word;

/* By whole words where they are aligned: to clear a frame is most of what give and create do. */
__attribute__((weak)) void *memset(void *to, int value, size_t n)
{
    const word all = 0x0101010101010101u * (unsigned char)value;
    unsigned char *t = to;
    for (; n > 0 && (size_t)t % sizeof all != 0; n--)
        *t++ = (unsigned char)value;
    for (; n >= sizeof all; n -= sizeof all, t += sizeof all)
        *(word *)t = all;
    for (; n > 0; n--)
        *t++ = (unsigned char)value;
    return to;
}

__attribute__((weak)) void *memcpy(void *restrict to, const void *restrict from, size_t n)
{
    unsigned char *t = to;
    const unsigned char *f = from;
    for (size_t i = 0; i < n; i++)
        t[i] = f[i];
    return to;
}

__attribute__((weak)) void *memmove(void *to, const void *from, size_t n)
{
    unsigned char *t = to;
    const unsigned char *f = from;
    if (t < f) {
        for (size_t i = 0; i < n; i++)
            t[i] = f[i];
    } else {
        for (size_t i = n; i > 0; i--)
            t[i - 1] = f[i - 1];
    }
    return to;
}
