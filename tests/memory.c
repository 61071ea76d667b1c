/* The helpers of the bare-metal library beside the C library's, at every place of a word and every length up to ten words. */
#define memset our_memset
#define memcpy our_memcpy
#define memmove our_memmove
#include "../support/memory.c"
#undef memset
#undef memcpy
#undef memmove
#include <stdio.h>
#include <string.h>

enum { ROOM = 128, MOST = 80 };
static unsigned char ours[ROOM], theirs[ROOM];

static void fill(void)
{
    for (int i = 0; i < ROOM; i++)
        ours[i] = theirs[i] = (unsigned char)(7 * i + 1);
}

static long ran, agree;

static void compare(void *a, void *b)
{
    ran++;
    agree += (unsigned char *)a - ours == (unsigned char *)b - theirs && memcmp(ours, theirs, ROOM) == 0;
    fill();
}

int main(void)
{
    fill();
    for (size_t at = 0; at < 16; at++)
        for (size_t n = 0; n < MOST; n++) {
            compare(our_memset(ours + at, 0, n), memset(theirs + at, 0, n));
            compare(our_memset(ours + at, 0x1a5, n), memset(theirs + at, 0x1a5, n));
            for (size_t to = 0; to < 16; to++)
                compare(our_memmove(ours + to, ours + at, n), memmove(theirs + to, theirs + at, n));
            if (at + n <= ROOM / 2)
                compare(our_memcpy(ours + at, ours + ROOM / 2, n), memcpy(theirs + at, theirs + ROOM / 2, n));
        }
    printf("%ld of %ld agree\n", agree, ran);
    return 0;
}
