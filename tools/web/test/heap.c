// Tries heap.c on a memory of its own: 64 pages, of which the first four are there at the start.
#include <stdio.h>
#include <string.h>

#define HEAP_TEST
#define PAGES 64
static _Alignas(65536) unsigned char memory[PAGES * 65536ul];
static unsigned long pages = 4;
static unsigned long first_address(void) { return (unsigned long)memory + 5; }
// The heap counts pages from address 0, and this memory begins at its own.
static unsigned long memory_pages(void) { return (unsigned long)memory / 65536 + pages; }
static unsigned long grow_memory(unsigned long more) {
    if (more > PAGES - pages) return (unsigned long)-1;
    pages += more;
    return (unsigned long)memory / 65536 + pages - more;
}
#define exported(name)
#include "../heap.c"

static int bad;
static void is(const char *what, int holds) {
    if (holds) return;
    printf("heap: %s: no\n", what);
    bad = 1;
}
static unsigned char *got(u64 n) {
    Tried it = rattle_alloc(n, 16);
    is("a block was given", it.ok == 1);
    is("its address divides by 16", (u64)it.p % 16 == 0);
    is("it lies in memory", (u8 *)it.p >= memory && (u8 *)it.p + n <= memory + pages * 65536);
    memset(it.p, (int)(n & 255), n);
    return it.p;
}

int main(void) {
    u8 *blocks[40];
    for (u64 i = 0; i < 40; i++) blocks[i] = got(i * 37);
    for (u64 i = 0; i < 40; i++)
        for (u64 k = 0; k < i * 37; k++) is("blocks are apart", blocks[i][k] == (i * 37 & 255));
    is("an empty block has an address of its own", got(0) != got(0));

    u8 *a = got(100);
    Tried more = rattle_realloc(a, 100, 70000, 1);
    is("the last block grows where it is", more.ok && more.p == a && a[99] == 100);
    u8 *b = got(50);
    is("a block after one that grew lies after it", b >= a + 70000);
    Tried less = rattle_realloc(b, 10, 10, 1);
    is("the last block shrinks where it is", less.ok && less.p == b);
    is("the room that is left over is given next", got(1) == b + 16);
    Tried moved = rattle_realloc(a, 70000, 80000, 1);
    is("a block before the last moves", moved.ok && moved.p != a);
    is("with its bytes", ((u8 *)moved.p)[0] == 100 && ((u8 *)moved.p)[99] == 100 && a[99] == 100);
    rattle_dealloc(moved.p);
    is("the last block goes back", got(16) == moved.p);
    rattle_dealloc(a);
    is("another stays", got(16) != a);

    is("more than memory can hold fails", rattle_alloc((u64)PAGES * 65536, 1).ok == 0);
    is("so does a length beyond all memory", rattle_alloc(~0ul, 1).ok == 0 && rattle_alloc(1ul << 62, 1).ok == 0);
    is("and the host is told", room(~0ul) == 0 && room((u64)PAGES * 65536) == 0);
    u8 *c = got(32);
    Tried failed = rattle_realloc(c, 32, (u64)PAGES * 65536, 1);
    is("a block that cannot grow is as it was", failed.ok == 0 && failed.p != 0 && c[31] == 32);
    is("and others are still given", got(64) != 0);
    u64 rest = 0;
    while (rattle_alloc(65536, 1).ok) rest++;
    is("memory is given to its end, though less than 16 MiB are left", pages == PAGES && rest > 0);
    if (!bad) printf("heap: ok\n");
    return bad;
}
