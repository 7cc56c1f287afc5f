/* system.c: what rt links beside a program for x86-64, written again for another processor: memory from the C library's heap, and its
 * number of the last error. The kit has these as machine code of x86-64 alone. The library for C needs none of them: no call allocates. A
 * block lies as malloc puts it, which is enough for every type of Rattle's: none asks for more than 16. */
#include <errno.h>
#include <stdbool.h>
#include <stddef.h>
#include <stdint.h>
#include <stdlib.h>

/* Whether there is memory, and where; where there is none, the pointer is that of a byte nobody uses. */
struct tried {
    bool ok;
    uint8_t *at;
};

static uint8_t none;

static struct tried tried(void *at)
{
    struct tried result;
    result.ok = at != NULL;
    result.at = at != NULL ? at : &none;
    return result;
}

struct tried rattle_alloc(size_t bytes, size_t alignment);
struct tried rattle_realloc(void *block, size_t kept, size_t bytes, size_t alignment);
void rattle_dealloc(void *block);
int32_t rattle_errno(void);
void rattle_set_errno(int32_t number);

struct tried rattle_alloc(size_t bytes, size_t alignment)
{
    return tried(malloc(bytes > 0 ? bytes : alignment));
}

struct tried rattle_realloc(void *block, size_t kept, size_t bytes, size_t alignment)
{
    (void)kept;
    return tried(realloc(block, bytes > 0 ? bytes : alignment));
}

void rattle_dealloc(void *block)
{
    free(block);
}

int32_t rattle_errno(void)
{
    return errno;
}

void rattle_set_errno(int32_t number)
{
    errno = number;
}
