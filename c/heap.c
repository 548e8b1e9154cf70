/*
 * What the library takes of memory: the program's malloc, realloc and free. A block that is asked for with no bytes has
 * as many as its alignment, so that each has an address of its own. Where there is none, the answer points to a byte
 * that is never read.
 */
#include <stdbool.h>
#include <stddef.h>
#include <stdlib.h>

struct rattle_tried {
    bool ok;
    void *block;
};

struct rattle_tried rattle_alloc(size_t size, size_t align);
struct rattle_tried rattle_realloc(void *block, size_t kept, size_t size, size_t align);
void rattle_dealloc(void *block);

static unsigned char nothing;

static struct rattle_tried tried(void *block)
{
    struct rattle_tried answer = {block != NULL, block != NULL ? block : &nothing};
    return answer;
}

struct rattle_tried rattle_alloc(size_t size, size_t align)
{
    return tried(malloc(size != 0 ? size : align));
}

struct rattle_tried rattle_realloc(void *block, size_t kept, size_t size, size_t align)
{
    (void)kept;
    return tried(realloc(block, size != 0 ? size : align));
}

void rattle_dealloc(void *block)
{
    free(block);
}
