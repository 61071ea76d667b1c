/* Document 01 in plain C, as one would write it by hand: what the proved library is measured against.
 * The kit's clang has no headers, so the types are spelled out. */
typedef __UINT8_TYPE__ uint8_t;
typedef __UINT64_TYPE__ uint64_t;
typedef __SIZE_TYPE__ size_t;

enum { DONE = 0, SHORT = 64 };
enum { FOUND, FAULT, DURING, REFUSED };
enum { NO_KIND, WALK_ABORT, TRANSLATION, NOT_MODELLED, ACCESS_FLAG, PERMISSION };
enum { READ, WRITE, EXECUTE };
enum { EL0, EL1 };

#define LIMIT (1ull << 48)
#define ADDRESS 0xfffffffff000ull
#define BIT(d, n) ((d) >> (n) & 1)

struct ram {
    const uint8_t *bytes;
    uint64_t length, base;
};

/* How a walk, or one descriptor, ended. A table has no kind and `more` set; `value` is an address. */
struct result {
    uint64_t value;
    unsigned kind, level;
    int more;
};

static uint64_t word(const uint8_t *p)
{
    uint64_t d;
    __builtin_memcpy(&d, p, sizeof d);
    return d;
}

static int allows_2(uint64_t access, uint64_t d)
{
    switch (access) {
    case READ: return BIT(d, 6);
    case WRITE: return BIT(d, 7);
    default: return !BIT(d, 54);
    }
}

static int allows_1(uint64_t el, uint64_t access, uint64_t d)
{
    int programs = BIT(d, 6), read_only = BIT(d, 7);
    switch (access) {
    case READ: return el == EL1 || programs;
    case WRITE: return !read_only && (el == EL1 || programs);
    default: return el == EL1 ? !BIT(d, 53) && !(programs && !read_only) : !BIT(d, 54);
    }
}

static struct result failed(unsigned kind, unsigned level)
{
    return (struct result){0, kind, level, 0};
}

/* The descriptor at the physical address `a`, of a level, for the input address `ia`. */
static inline struct result descriptor(const struct ram *ram, uint64_t a, unsigned stage, uint64_t el, uint64_t access,
                                       unsigned level, uint64_t ia)
{
    if (a < ram->base || a - ram->base + 8 > ram->length)
        return failed(WALK_ABORT, level);
    uint64_t d = word(ram->bytes + (a - ram->base));
    unsigned type = d & 3;
    if (type == 3 && level < 3) {
        if (d >> 59 || d >> 48 & 7)
            return failed(NOT_MODELLED, level);
        return (struct result){d & ADDRESS, NO_KIND, level, 1};
    }
    if (type == 3 || (type == 1 && (level == 1 || level == 2))) {
        uint64_t offset = (1ull << (39 - 9 * level)) - 1, output = d & ADDRESS;
        if (d >> 48 & 7 || output & offset)
            return failed(NOT_MODELLED, level);
        if (!BIT(d, 10))
            return failed(ACCESS_FLAG, level);
        if (!(stage == 2 ? allows_2(access, d) : allows_1(el, access, d)))
            return failed(PERMISSION, level);
        return (struct result){output + (ia & offset), NO_KIND, level, 0};
    }
    return failed(TRANSLATION, level);
}

static uint64_t slot(uint64_t table, unsigned level, uint64_t ia)
{
    return table + 8 * (ia >> (39 - 9 * level) & 511);
}

static struct result walk_2(const struct ram *ram, uint64_t root, uint64_t ipa, uint64_t access, uint64_t *fetched)
{
    uint64_t table = root;
    for (unsigned level = 0;; level++) {
        struct result r = descriptor(ram, slot(table, level, ipa), 2, 0, access, level, ipa);
        *fetched += r.kind != WALK_ABORT;
        if (!r.more)
            return r;
        table = r.value;
    }
}

static uint64_t tell(uint64_t *answer, uint64_t what, uint64_t address, uint64_t kind, uint64_t stage, uint64_t level,
                     uint64_t of, uint64_t fetched)
{
    answer[0] = what;
    answer[1] = address;
    answer[2] = kind;
    answer[3] = stage;
    answer[4] = level;
    answer[5] = of;
    answer[6] = fetched;
    return DONE;
}

static uint64_t tell_2(uint64_t *answer, struct result r, uint64_t fetched)
{
    if (r.kind)
        return tell(answer, FAULT, 0, r.kind, 2, r.level, 0, fetched);
    return tell(answer, FOUND, r.value, 0, 0, 0, 0, fetched);
}

static int fits(uint64_t length, uint64_t base, uint64_t frames)
{
    return frames >= 16 && frames <= 65536 && base % 4096 == 0 && base <= LIMIT - 4096 * frames && length == 4096 * frames;
}

static int root_fits(uint64_t root)
{
    return root % 4096 == 0 && root < LIMIT;
}

uint64_t plain_stage2(const uint8_t *bytes, size_t length, uint64_t base, uint64_t frames, uint64_t root, uint64_t ipa,
                      uint64_t access, uint64_t *answer, size_t room)
{
    struct ram ram = {bytes, length, base};
    uint64_t fetched = 0;
    if (room < 7)
        return SHORT;
    if (!fits(length, base, frames) || !root_fits(root) || access > EXECUTE || ipa >= LIMIT)
        return tell(answer, REFUSED, 0, 0, 0, 0, 0, 0);
    struct result r = walk_2(&ram, root, ipa, access, &fetched);
    return tell_2(answer, r, fetched);
}

uint64_t plain_both_stages(const uint8_t *bytes, size_t length, uint64_t base, uint64_t frames, uint64_t root1, uint64_t root2,
                           uint64_t va, uint64_t access, uint64_t el, uint64_t *answer, size_t room)
{
    struct ram ram = {bytes, length, base};
    uint64_t fetched = 0, table = root1;
    if (room < 7)
        return SHORT;
    if (!fits(length, base, frames) || !root_fits(root1) || !root_fits(root2) || access > EXECUTE || el > EL1)
        return tell(answer, REFUSED, 0, 0, 0, 0, 0, 0);
    if (va >= LIMIT)
        return tell(answer, FAULT, 0, TRANSLATION, 1, 0, 0, 0);
    for (unsigned level = 0;; level++) {
        struct result way = walk_2(&ram, root2, slot(table, level, va), READ, &fetched);
        if (way.kind)
            return tell(answer, DURING, 0, way.kind, 2, way.level, level, fetched);
        struct result r = descriptor(&ram, way.value, 1, el, access, level, va);
        fetched += r.kind != WALK_ABORT;
        if (r.kind)
            return tell(answer, FAULT, 0, r.kind, 1, level, 0, fetched);
        if (!r.more) {
            struct result end = walk_2(&ram, root2, r.value, access, &fetched);
            return tell_2(answer, end, fetched);
        }
        table = r.value;
    }
}
