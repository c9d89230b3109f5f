// Counts the calls that take memory, and fails one of them. The file that CALLS names has 8 bytes, into which the count
// goes; FAILING is the number of the call that fails, from 1, and 0 where none does.
#include <errno.h>
#include <fcntl.h>
#include <stddef.h>
#include <stdlib.h>
#include <sys/mman.h>

void *__libc_malloc(size_t);
void *__libc_calloc(size_t, size_t);
void *__libc_realloc(void *, size_t);
void *__libc_memalign(size_t, size_t);

static unsigned long *calls, failing;

__attribute__((constructor)) static void begin(void) {
    const char *name = getenv("CALLS"), *number = getenv("FAILING");
    int file = name ? open(name, O_RDWR) : -1;
    void *counted = file < 0 ? MAP_FAILED : mmap(NULL, 8, PROT_READ | PROT_WRITE, MAP_SHARED, file, 0);
    failing = number ? strtoul(number, NULL, 10) : 0;
    calls = counted == MAP_FAILED ? NULL : counted;
}

static int fails(void) {
    if (calls == NULL || ++*calls != failing)
        return 0;
    errno = ENOMEM;
    return 1;
}

void *malloc(size_t size) { return fails() ? NULL : __libc_malloc(size); }
void *calloc(size_t count, size_t size) { return fails() ? NULL : __libc_calloc(count, size); }
void *realloc(void *old, size_t size) { return fails() ? NULL : __libc_realloc(old, size); }
void *memalign(size_t align, size_t size) { return fails() ? NULL : __libc_memalign(align, size); }
void *aligned_alloc(size_t align, size_t size) { return memalign(align, size); }

int posix_memalign(void **made, size_t align, size_t size) {
    void *found = memalign(align, size);
    if (found != NULL)
        *made = found;
    return found == NULL ? ENOMEM : 0;
}
