// Refuses one allocation of a program, the one of the number STARVE_AT, counted from 1: to be loaded before it by LD_PRELOAD.
// Into the file of the number STARVE_TELL it then writes who asked: 'p' for the program itself, 'l' for a library.
#include <errno.h>
#include <link.h>
#include <stddef.h>
#include <stdint.h>
#include <stdlib.h>
#include <sys/auxv.h>
#include <unistd.h>

extern void *__libc_malloc(size_t);
extern void *__libc_calloc(size_t, size_t);
extern void *__libc_realloc(void *, size_t);
extern void *__libc_memalign(size_t, size_t);

// How many allocations there were.
static unsigned long count;

static long number_of(const char *name)
{
    const char *text = getenv(name);
    return text ? atol(text) : 0;
}

// Whether an address is in a part of the program itself.
static int is_programs(const void *place)
{
    const ElfW(Phdr) *head = (const ElfW(Phdr) *)getauxval(AT_PHDR);
    unsigned long heads = getauxval(AT_PHNUM);
    uintptr_t base = 0;
    for (unsigned long i = 0; i < heads; i++)
        if (head[i].p_type == PT_PHDR)
            base = (uintptr_t)head - head[i].p_vaddr;
    for (unsigned long i = 0; i < heads; i++)
        if (head[i].p_type == PT_LOAD && (uintptr_t)place - (base + head[i].p_vaddr) < head[i].p_memsz)
            return 1;
    return 0;
}

// Counts an allocation that was asked for from this place, and answers whether it is refused.
static int is_refused(const void *place)
{
    count++;
    if (count != (unsigned long)number_of("STARVE_AT"))
        return 0;
    if (write((int)number_of("STARVE_TELL"), is_programs(place) ? "p" : "l", 1) != 1)
        abort();
    return 1;
}

static void *refused(void)
{
    errno = ENOMEM;
    return NULL;
}

void *malloc(size_t size)
{
    return is_refused(__builtin_return_address(0)) ? refused() : __libc_malloc(size);
}

void *calloc(size_t number, size_t size)
{
    return is_refused(__builtin_return_address(0)) ? refused() : __libc_calloc(number, size);
}

void *realloc(void *old, size_t size)
{
    return is_refused(__builtin_return_address(0)) ? refused() : __libc_realloc(old, size);
}

void *aligned_alloc(size_t alignment, size_t size)
{
    return is_refused(__builtin_return_address(0)) ? refused() : __libc_memalign(alignment, size);
}

int posix_memalign(void **made, size_t alignment, size_t size)
{
    if (is_refused(__builtin_return_address(0)))
        return ENOMEM;
    void *block = __libc_memalign(alignment, size);
    if (!block)
        return ENOMEM;
    *made = block;
    return 0;
}
