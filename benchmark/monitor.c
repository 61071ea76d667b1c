/* Document 03 in plain C, as one would write it by hand, as far as it is measured: create, give, map, unmap, take, invalidated.
 * Refuses what the document refuses. Its ledger has 28 bytes a frame: counts for each guest, since the document asks for them.
 * The kit's clang has no headers, so the types are spelled out. */
typedef __UINT8_TYPE__ uint8_t;
typedef __UINT32_TYPE__ uint32_t;
typedef __UINT64_TYPE__ uint64_t;
typedef __SIZE_TYPE__ size_t;
void *memset(void *, int, size_t);

enum { GUESTS = 4 };
#define NONE 0xffffffffu
enum { MONITOR, FREE, TABLE, PAGE, DRAINING };
enum { READ = 1, WRITE = 2, EXECUTE = 4 };

#define LIMIT (1ull << 48)
#define ADDRESS 0xfffffffff000ull

/* Free frames are in a list that is linked both ways, so that any of them is taken out at once. */
struct frame {
    uint8_t kind, guest, readers, writers;
    uint32_t count[GUESTS];
    uint32_t next, previous;
};

struct guest {
    uint8_t exists, dirty;
    uint32_t root;
};

static struct {
    uint8_t *ram;
    struct frame *frames;
    uint64_t base;
    uint32_t size, free, first_free;
    struct guest guests[GUESTS + 1];
} m;

static uint64_t *table_at(uint32_t f)
{
    return (uint64_t *)(m.ram + 4096 * (uint64_t)f);
}

static void put_free(uint32_t f)
{
    struct frame *x = &m.frames[f];
    x->kind = FREE;
    x->next = m.first_free;
    x->previous = NONE;
    if (m.first_free != NONE)
        m.frames[m.first_free].previous = f;
    m.first_free = f;
    m.free++;
}

static void take_free(uint32_t f)
{
    struct frame *x = &m.frames[f];
    if (x->previous == NONE)
        m.first_free = x->next;
    else
        m.frames[x->previous].next = x->next;
    if (x->next != NONE)
        m.frames[x->next].previous = x->previous;
    m.free--;
}

static uint32_t new_table(uint32_t g)
{
    uint32_t f = m.first_free;
    take_free(f);
    m.frames[f].kind = TABLE;
    m.frames[f].guest = g;
    memset(table_at(f), 0, 4096);
    return f;
}

static int exists(uint64_t g)
{
    return g >= 1 && g <= GUESTS && m.guests[g].exists;
}

void plain_set_up(uint8_t *ram, void *frames, uint64_t b, uint64_t n, uint64_t k)
{
    m.ram = ram;
    m.frames = frames;
    m.base = b;
    m.size = n;
    m.free = 0;
    m.first_free = NONE;
    memset(frames, 0, n * sizeof(struct frame));
    memset(m.guests, 0, sizeof m.guests);
    for (uint32_t f = n; f > k; f--)
        put_free(f - 1);
}

size_t plain_ledger_bytes(uint64_t n)
{
    return n * sizeof(struct frame);
}

uint64_t plain_create(uint64_t g)
{
    if (g < 1 || g > GUESTS)
        return 1;
    if (m.guests[g].exists || m.guests[g].dirty)
        return 2;
    if (!m.free)
        return 3;
    m.guests[g].root = new_table(g);
    m.guests[g].exists = 1;
    return 0;
}

uint64_t plain_give(uint64_t f, uint64_t g)
{
    if (!exists(g))
        return 5;
    if (f >= m.size)
        return 4;
    struct frame *x = &m.frames[f];
    if (x->kind != FREE)
        return 6;
    take_free(f);
    x->kind = PAGE;
    x->guest = g;
    x->readers = x->writers = 0;
    for (int i = 0; i < GUESTS; i++)
        x->count[i] = 0;
    memset(m.ram + 4096 * f, 0, 4096);
    return 0;
}

static int may_map(const struct frame *x, uint64_t g, uint64_t r)
{
    if (x->kind != PAGE)
        return 0;
    if (x->guest == g)
        return 1;
    if (r & EXECUTE || !(x->readers >> g & 1))
        return 0;
    return !(r & WRITE) || x->writers >> g & 1;
}

uint64_t plain_map(uint64_t f, uint64_t g, uint64_t a, uint64_t r)
{
    if (!exists(g))
        return 5;
    if (m.guests[g].dirty)
        return 14;
    if (a % 4096 || a >= LIMIT)
        return 7;
    if (r > 7 || !(r & READ))
        return 8;
    if (f >= m.size)
        return 4;
    if (!may_map(&m.frames[f], g, r))
        return 9;
    uint64_t *table = table_at(m.guests[g].root);
    unsigned shift = 39;
    while (shift > 12 && table[a >> shift & 511]) {
        table = (uint64_t *)(m.ram + ((table[a >> shift & 511] & ADDRESS) - m.base));
        shift -= 9;
    }
    if (shift == 12 && table[a >> 12 & 511])
        return 10;
    if (m.free < (shift - 12) / 9)
        return 3;
    for (; shift > 12; shift -= 9) {
        uint32_t t = new_table(g);
        __atomic_store_n(&table[a >> shift & 511], (m.base + 4096 * (uint64_t)t) | 3, __ATOMIC_RELAXED);
        table = table_at(t);
    }
    uint64_t entry = (m.base + 4096 * f) | 0x73f | (r & READ) << 6 | (r & WRITE) << 6 | (uint64_t)!(r & EXECUTE) << 54;
    __atomic_store_n(&table[a >> 12 & 511], entry, __ATOMIC_RELAXED);
    m.frames[f].count[g - 1]++;
    return 0;
}

uint64_t plain_unmap(uint64_t a, uint64_t g)
{
    if (!exists(g))
        return 5;
    if (a % 4096 || a >= LIMIT)
        return 7;
    uint64_t *table = table_at(m.guests[g].root);
    for (unsigned shift = 39; shift > 12; shift -= 9) {
        uint64_t entry = table[a >> shift & 511];
        if (!entry)
            return 11;
        table = (uint64_t *)(m.ram + ((entry & ADDRESS) - m.base));
    }
    uint64_t entry = table[a >> 12 & 511];
    if (!entry)
        return 11;
    __atomic_store_n(&table[a >> 12 & 511], 0, __ATOMIC_RELAXED);
    m.frames[((entry & ADDRESS) - m.base) / 4096].count[g - 1]--;
    m.guests[g].dirty = 1;
    return 0;
}

uint64_t plain_take(uint64_t f, uint64_t g)
{
    if (!exists(g))
        return 5;
    if (f >= m.size)
        return 4;
    struct frame *x = &m.frames[f];
    if (x->kind != PAGE || x->guest != g)
        return 9;
    if (x->readers || x->count[0] || x->count[1] || x->count[2] || x->count[3])
        return 13;
    if (m.guests[g].dirty)
        x->kind = DRAINING;
    else
        put_free(f);
    return 0;
}

uint64_t plain_invalidated(uint64_t g)
{
    if (g < 1 || g > GUESTS)
        return 1;
    m.guests[g].dirty = 0;
    for (uint32_t f = 0; f < m.size; f++)
        if (m.frames[f].kind == DRAINING && m.frames[f].guest == g)
            put_free(f);
    return 0;
}
