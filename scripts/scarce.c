// Preloaded: the allocation whose number SCARCE_AT tells finds no memory, and with SCARCE_AFTER each one behind it too. How many
// there were is written to the file of SCARCE_TOLD.
#define _GNU_SOURCE
#include <dlfcn.h>
#include <errno.h>
#include <fcntl.h>
#include <stdio.h>
#include <stdlib.h>
#include <unistd.h>

static unsigned long count, wanted;
static int asked, onward;

static int fails(void) {
    if (!asked) {
        const char *at = getenv("SCARCE_AT");
        asked = 1;
        wanted = at ? strtoul(at, NULL, 10) : 0;
        onward = getenv("SCARCE_AFTER") != NULL;
    }
    count++;
    if (count == wanted || (onward && wanted && count > wanted)) {
        errno = ENOMEM;
        return 1;
    }
    return 0;
}

extern void *__libc_malloc(size_t);
extern void *__libc_calloc(size_t, size_t);
extern void *__libc_realloc(void *, size_t);
extern void *__libc_memalign(size_t, size_t);

void *malloc(size_t size) { return fails() ? NULL : __libc_malloc(size); }
void *calloc(size_t n, size_t size) { return fails() ? NULL : __libc_calloc(n, size); }
void *realloc(void *old, size_t size) { return fails() ? NULL : __libc_realloc(old, size); }
void *memalign(size_t align, size_t size) { return fails() ? NULL : __libc_memalign(align, size); }
void *aligned_alloc(size_t align, size_t size) { return memalign(align, size); }

int posix_memalign(void **found, size_t align, size_t size) {
    if (fails())
        return ENOMEM;
    *found = __libc_memalign(align, size);
    return *found ? 0 : ENOMEM;
}

__attribute__((destructor)) static void tell(void) {
    const char *name = getenv("SCARCE_TOLD");
    char text[24];
    int length = snprintf(text, sizeof text, "%lu", count);
    int file = name ? open(name, O_WRONLY | O_CREAT | O_TRUNC, 0600) : -1;
    if (file >= 0) {
        if (write(file, text, length) != length)
            _exit(9);
        close(file);
    }
}
