/* A heap that refuses one request. Preloaded over a program that takes its memory from the C library (LD_PRELOAD), it counts the
   program's requests and answers the one whose number is in REFUSE with NULL. REFUSE_COUNT names a file that gets the count
   when the program ends.
   cc -O2 -shared -fPIC -o refuse.so refuse.c */
#include <errno.h>
#include <fcntl.h>
#include <stddef.h>
#include <stdlib.h>
#include <unistd.h>

void *__libc_malloc(size_t), *__libc_calloc(size_t, size_t), *__libc_realloc(void *, size_t), *__libc_memalign(size_t, size_t);

static unsigned long count, refused;
static int is_counting;

static int refuses(void) {
    if (!is_counting || ++count != refused) return 0;
    errno = ENOMEM;
    return 1;
}

void *malloc(size_t bytes) { return refuses() ? NULL : __libc_malloc(bytes); }
void *calloc(size_t many, size_t bytes) { return refuses() ? NULL : __libc_calloc(many, bytes); }
void *realloc(void *old, size_t bytes) { return refuses() ? NULL : __libc_realloc(old, bytes); }
void *aligned_alloc(size_t align, size_t bytes) { return refuses() ? NULL : __libc_memalign(align, bytes); }
void *memalign(size_t align, size_t bytes) { return refuses() ? NULL : __libc_memalign(align, bytes); }
int posix_memalign(void **made, size_t align, size_t bytes) {
    if (refuses()) return ENOMEM;
    *made = __libc_memalign(align, bytes);
    return *made ? 0 : ENOMEM;
}

__attribute__((constructor)) static void begin(void) {
    const char *number = getenv("REFUSE");
    refused = number ? strtoul(number, NULL, 10) : 0;
    is_counting = 1;
}

__attribute__((destructor)) static void end(void) {
    const char *name = getenv("REFUSE_COUNT");
    char digits[24], *first = digits + sizeof digits;
    if (!name) return;
    *--first = '\n';
    do *--first = (char)('0' + count % 10), count /= 10; while (count);
    int file = open(name, O_WRONLY | O_CREAT | O_TRUNC, 0666);
    if (file < 0 || write(file, first, (size_t)(digits + sizeof digits - first)) < 0) _exit(99);
    close(file);
}
