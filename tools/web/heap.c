// The heap of the module, in place of the C library's malloc, realloc and free. The host makes an instance for each call, so
// only the block that was given last goes back: it may grow and shrink where it is.
// The module calls `rattle_alloc`, `rattle_realloc` and `rattle_dealloc`; the host calls `room`.
// A test compiles this file with a memory of its own: it defines the four names below.
typedef unsigned long u64;
typedef unsigned char u8;
_Static_assert(sizeof(u64) == 8 && sizeof(void *) == 8, "pointers of 64 bits");

#ifndef HEAP_TEST
extern u8 __heap_base;
#define first_address() ((u64)&__heap_base)
#define memory_pages() ((u64)__builtin_wasm_memory_size(0))
#define grow_memory(pages) ((u64)__builtin_wasm_memory_grow(0, pages))
#define exported(name) __attribute__((export_name(name)))
#endif

enum { PAGE = 65536, AT_ONCE = 256, ALIGNMENT = 16 };
static const u64 MOST = 1ul << 36;

// The first free address, the end of memory, and the block that was given last.
static u64 top, end, last;
// What a pointer without a block points to.
static u8 nothing;

// The answer where memory cannot grow is -1, of which the form for a memory of 32 bits leaves the low 32 bits.
static int grew(u64 pages) { return (unsigned)grow_memory(pages) != ~0u; }

// Makes memory reach `to`, by 16 MiB at once where it can; 0 where it cannot.
static int reach(u64 to) {
    if (to <= end) return 1;
    u64 need = (to - end + PAGE - 1) / PAGE, ask = need < AT_ONCE ? AT_ONCE : need;
    if (!grew(ask)) {
        ask = need;
        if (!grew(ask)) return 0;
    }
    end += ask * PAGE;
    return 1;
}

static u64 rounded(u64 n) { return (n + ALIGNMENT - 1) & ~(u64)(ALIGNMENT - 1); }

// A block of n bytes at a multiple of 16, or null where memory cannot grow.
static void *take(u64 n) {
    if (n > MOST) return 0;
    if (!top) {
        top = rounded(first_address());
        end = memory_pages() * PAGE;
    }
    u64 size = n ? rounded(n) : ALIGNMENT;
    if (!reach(top + size)) return 0;
    last = top;
    top += size;
    return (void *)last;
}

// Whether the block that was given last could be made one of n bytes where it is.
static int resize_last(u64 n) {
    u64 size = n ? rounded(n) : ALIGNMENT;
    if (n > MOST || !reach(last + size)) return 0;
    top = last + size;
    return 1;
}

// The form in which the ABI of C for x86-64 returns a flag and a pointer: two words.
typedef struct {
    u64 ok;
    void *p;
} Tried;

static Tried none(void) { return (Tried){0, &nothing}; }

// Every alignment that is asked for divides 16.
Tried rattle_alloc(u64 n, u64 align) {
    (void)align;
    void *p = take(n);
    return p ? (Tried){1, p} : none();
}

// A block of n bytes whose first `kept` are those of p, which may move. Where it fails, p is as it was.
Tried rattle_realloc(void *p, u64 kept, u64 n, u64 align) {
    (void)align;
    if ((u64)p == last && last && resize_last(n)) return (Tried){1, p};
    u8 *q = take(n);
    if (!q) return none();
    u8 *from = p;
    for (u64 i = 0; i < kept; i++) q[i] = from[i];
    return (Tried){1, q};
}

void rattle_dealloc(void *p) {
    if ((u64)p == last && last) {
        top = last;
        last = 0;
    }
}

// A place of n bytes for what the host passes and is given, or null.
exported("room") void *room(u64 n) { return take(n); }
