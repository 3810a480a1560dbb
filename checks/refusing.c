// Laid before the C library (LD_PRELOAD), this refuses one call: of the kind that stands in KIND (memory: of the allocator;
// input, output, message: of the stream), the one whose number stands in REFUSED, counted from 1 behind the start of the
// program. A stream refuses by the error whose number stands in ERROR; with none it moves nothing. Where MOST has a number,
// a call moves at most so many bytes. At the end it writes how many calls of the kind there were to the file that COUNTED
// names.
#include <errno.h>
#include <stddef.h>
#include <stdio.h>
#include <stdlib.h>
#include <string.h>
#include <sys/syscall.h>
#include <unistd.h>

extern void *__libc_malloc(size_t);
extern void *__libc_calloc(size_t, size_t);
extern void *__libc_realloc(void *, size_t);
extern void *__libc_memalign(size_t, size_t);

static const char *const kinds[] = {"input", "output", "message", "memory"};
enum { MEMORY = 3 };

static unsigned long calls, refused, error, most;
static int kind, begun;

static unsigned long number_in(const char *name) {
    const char *number = getenv(name);
    return number ? strtoul(number, NULL, 10) : 0;
}

__attribute__((constructor)) static void begin(void) {
    const char *name = getenv("KIND");
    while (kind < MEMORY && (!name || strcmp(name, kinds[kind]))) {
        kind++;
    }
    refused = number_in("REFUSED");
    error = number_in("ERROR");
    most = number_in("MOST");
    begun = 1;
}

__attribute__((destructor)) static void end(void) {
    const char *name = getenv("COUNTED");
    begun = 0;
    if (name) {
        FILE *file = fopen(name, "w");
        if (file) {
            fprintf(file, "%lu\n", calls);
            fclose(file);
        }
    }
}

static int refuses(int one) { return begun && one == kind && ++calls == refused; }

static void *none(void) {
    errno = ENOMEM;
    return NULL;
}

void *malloc(size_t size) { return refuses(MEMORY) ? none() : __libc_malloc(size); }
void *calloc(size_t count, size_t size) { return refuses(MEMORY) ? none() : __libc_calloc(count, size); }
void *realloc(void *old, size_t size) { return refuses(MEMORY) ? none() : __libc_realloc(old, size); }
void *memalign(size_t alignment, size_t size) { return refuses(MEMORY) ? none() : __libc_memalign(alignment, size); }
void *aligned_alloc(size_t alignment, size_t size) { return memalign(alignment, size); }

int posix_memalign(void **out, size_t alignment, size_t size) {
    void *found = memalign(alignment, size);
    if (!found) {
        return ENOMEM;
    }
    *out = found;
    return 0;
}

static ssize_t moved(long call, int stream, void *bytes, size_t size) {
    if (stream < MEMORY && refuses(stream)) {
        errno = (int)error;
        return error ? -1 : 0;
    }
    return syscall(call, stream, bytes, most && size > most ? most : size);
}

ssize_t read(int stream, void *bytes, size_t size) { return moved(SYS_read, stream, bytes, size); }
ssize_t write(int stream, const void *bytes, size_t size) { return moved(SYS_write, stream, (void *)bytes, size); }
