/* For tools/refusals, loaded in front of the C library: one request for memory is refused, the one of the number in
   REFUSE, counted from 1; at that moment the file that REFUSE_TOLD names is made. */
#include <errno.h>
#include <fcntl.h>
#include <stdlib.h>
#include <unistd.h>

extern void *__libc_malloc(size_t);
extern void *__libc_calloc(size_t, size_t);
extern void *__libc_realloc(void *, size_t);
extern void *__libc_memalign(size_t, size_t);

static unsigned long calls, which;
static const char *told;

__attribute__((constructor)) static void begin(void) {
    const char *number = getenv("REFUSE");
    told = getenv("REFUSE_TOLD");
    which = number ? strtoul(number, NULL, 10) : 0;
    calls = 0;
}

static int is_refused(void) {
    if (which == 0 || ++calls != which)
        return 0;
    if (told)
        close(open(told, O_CREAT | O_WRONLY, 0644));
    errno = ENOMEM;
    return 1;
}

void *malloc(size_t size) { return is_refused() ? NULL : __libc_malloc(size); }
void *calloc(size_t count, size_t size) { return is_refused() ? NULL : __libc_calloc(count, size); }
void *realloc(void *old, size_t size) { return is_refused() ? NULL : __libc_realloc(old, size); }
void *aligned_alloc(size_t align, size_t size) { return is_refused() ? NULL : __libc_memalign(align, size); }
int posix_memalign(void **out, size_t align, size_t size) {
    if (is_refused())
        return ENOMEM;
    *out = __libc_memalign(align, size);
    return *out ? 0 : ENOMEM;
}
