// Loaded before a program by LD_PRELOAD, so that some of its calls for memory are refused: those with a number from FIRST to LAST, counted from
// 1, where REFUSED is "FIRST LAST". How many calls there were stands in the file that COUNTED names, even where the program ends at once.
#include <fcntl.h>
#include <stddef.h>
#include <stdlib.h>
#include <sys/mman.h>
#include <unistd.h>

extern void *__libc_malloc(size_t size);
extern void *__libc_calloc(size_t many, size_t size);
extern void *__libc_realloc(void *old, size_t size);

static long first, last, unseen;
static long *count = &unseen;

__attribute__((constructor)) static void begin(void) {
    char *refused = getenv("REFUSED"), *counted = getenv("COUNTED");
    if (!refused || !counted) return;
    int file = open(counted, O_RDWR);
    if (file < 0 || ftruncate(file, sizeof(long))) _exit(99);
    void *shared = mmap(NULL, sizeof(long), PROT_READ | PROT_WRITE, MAP_SHARED, file, 0);
    if (shared == MAP_FAILED) _exit(99);
    close(file);
    count = shared;
    *count = 0;
    first = strtol(refused, &refused, 10);
    last = strtol(refused, NULL, 10);
}

static int is_refused(void) {
    ++*count;
    return first <= *count && *count <= last;
}

void *malloc(size_t size) { return is_refused() ? NULL : __libc_malloc(size); }
void *calloc(size_t many, size_t size) { return is_refused() ? NULL : __libc_calloc(many, size); }
void *realloc(void *old, size_t size) { return is_refused() ? NULL : __libc_realloc(old, size); }
