/* Refuses growths of the heap: the one with the number in REFUSED_GROWTH, counted from 1, and as many after it as
   REFUSED_AFTER says, none where it is not set. Each refusal writes `!` to file descriptor 9, and `~` follows if the next
   growth asks for no more in the place of the same memory, as a list does that asks again. */
#include <errno.h>
#include <malloc.h>
#include <stdlib.h>
#include <unistd.h>

extern void *__libc_malloc(size_t), *__libc_calloc(size_t, size_t), *__libc_realloc(void *, size_t);

static long left;  /* how many growths are left up to the next refused one, which counts; 0 where none is refused */
static long after; /* how many are refused after it */
/* The size of the growth that was refused, and the memory that it was to replace, up to the next growth; else 0. */
static size_t refused;
static void *replaced;

static long number_in(const char *name)
{
    const char *number = getenv(name);
    return number ? atol(number) : 0;
}

__attribute__((constructor)) static void begin(void)
{
    left = number_in("REFUSED_GROWTH");
    after = number_in("REFUSED_AFTER");
}

static int is_refused(void *old, size_t size)
{
    if (refused != 0 && old == replaced && size <= refused && write(9, "~", 1) != 1)
        abort();
    refused = 0;
    if (left == 0 || --left > 0)
        return 0;
    if (after > 0) {
        after--;
        left = 1;
    }
    refused = size;
    replaced = old;
    errno = write(9, "!", 1) == 1 ? ENOMEM : errno;
    return 1;
}

void *malloc(size_t size) { return is_refused(NULL, size) ? NULL : __libc_malloc(size); }
void *calloc(size_t count, size_t size) { return is_refused(NULL, count * size) ? NULL : __libc_calloc(count, size); }
/* What fits where it is, as a list that is cut to its length, is no growth. */
void *realloc(void *old, size_t size)
{
    int fits = old != NULL && size <= malloc_usable_size(old);
    return !fits && is_refused(old, size) ? NULL : __libc_realloc(old, size);
}
