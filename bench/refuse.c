// Stands before the C library's calls for memory, and refuses the one whose number is in REFUSE, as `7`, or all from that
// one on, as `7..`. With the first refusal it makes the file that REFUSE_TOLD names.
#include <errno.h>
#include <fcntl.h>
#include <stdatomic.h>
#include <stdlib.h>
#include <unistd.h>

void *__libc_malloc(size_t size);
void *__libc_calloc(size_t count, size_t size);
void *__libc_realloc(void *block, size_t size);
void *__libc_memalign(size_t alignment, size_t size);

static atomic_ulong calls;
static unsigned long first;
static unsigned long last;
static const char *told;

__attribute__((constructor)) static void begin(void) {
    const char *which = getenv("REFUSE");
    char *rest = NULL;
    told = getenv("REFUSE_TOLD");
    if (which != NULL && told != NULL) {
        first = strtoul(which, &rest, 10);
        last = *rest == '\0' ? first : (unsigned long)-1;
    }
}

// Calls before `begin`, and all where nothing is to be refused, have no number.
static int is_refused(void) {
    if (first == 0) {
        return 0;
    }
    unsigned long number = atomic_fetch_add(&calls, 1) + 1;
    if (number < first || number > last) {
        return 0;
    }
    if (number == first) {
        close(open(told, O_CREAT | O_WRONLY, 0600));
    }
    errno = ENOMEM;
    return 1;
}

void *malloc(size_t size) {
    return is_refused() ? NULL : __libc_malloc(size);
}

void *calloc(size_t count, size_t size) {
    return is_refused() ? NULL : __libc_calloc(count, size);
}

void *realloc(void *block, size_t size) {
    return is_refused() ? NULL : __libc_realloc(block, size);
}

void *memalign(size_t alignment, size_t size) {
    return is_refused() ? NULL : __libc_memalign(alignment, size);
}

void *aligned_alloc(size_t alignment, size_t size) {
    return is_refused() ? NULL : __libc_memalign(alignment, size);
}

int posix_memalign(void **block, size_t alignment, size_t size) {
    void *made = is_refused() ? NULL : __libc_memalign(alignment, size);
    if (made == NULL) {
        return ENOMEM;
    }
    *block = made;
    return 0;
}
