/* What memory.h says. */
#include "memory.h"

void *__real_malloc(size_t size);
void *__real_realloc(void *block, size_t size);
void *__real_calloc(size_t count, size_t size);
void __real_free(void *block);
void *__wrap_malloc(size_t size);
void *__wrap_realloc(void *block, size_t size);
void *__wrap_calloc(size_t count, size_t size);
void __wrap_free(void *block);

size_t memory_requests, memory_held;
static size_t refused_at;

void memory_refuse(size_t number)
{
    refused_at = number ? memory_requests + number : 0;
}

bool memory_was_refused(void)
{
    return refused_at != 0 && memory_requests >= refused_at;
}

static bool is_refused(void)
{
    return ++memory_requests == refused_at;
}

void *__wrap_malloc(size_t size)
{
    void *block = is_refused() ? NULL : __real_malloc(size);
    memory_held += block != NULL;
    return block;
}

void *__wrap_calloc(size_t count, size_t size)
{
    void *block = is_refused() ? NULL : __real_calloc(count, size);
    memory_held += block != NULL;
    return block;
}

void *__wrap_realloc(void *block, size_t size)
{
    void *moved = is_refused() ? NULL : __real_realloc(block, size);
    memory_held += moved != NULL && block == NULL;
    return moved;
}

void __wrap_free(void *block)
{
    memory_held -= block != NULL;
    __real_free(block);
}
