/*
 * A heap for tests: it counts blocks and growths, and refuses growths from a number on, or that one alone. It stands in the
 * place of c/heap.c.
 */
#ifndef HEAP_TEST_H
#define HEAP_TEST_H

#include <stdbool.h>
#include <stddef.h>
#include <stdlib.h>

#ifdef __cplusplus
extern "C" {
#endif

struct rattle_tried {
    bool ok;
    void *block;
};

struct rattle_tried rattle_alloc(size_t size, size_t align);
struct rattle_tried rattle_realloc(void *block, size_t kept, size_t size, size_t align);
void rattle_dealloc(void *block);

#ifdef __cplusplus
}
#endif

static unsigned char nothing;
static size_t blocks;       /* that are taken and not given back */
static size_t growths;      /* that were asked for */
static size_t refuse_at;    /* the growth that is refused, from 1 on; 0 for none */
static bool refuse_after;   /* and each after it */

static bool is_refused(void)
{
    growths++;
    return refuse_at != 0 && (growths == refuse_at || (refuse_after && growths > refuse_at));
}

static struct rattle_tried tried(void *block)
{
    struct rattle_tried answer = {block != NULL, block != NULL ? block : &nothing};
    return answer;
}

struct rattle_tried rattle_alloc(size_t size, size_t align)
{
    void *block = is_refused() ? NULL : malloc(size != 0 ? size : align);
    blocks += block != NULL;
    return tried(block);
}

struct rattle_tried rattle_realloc(void *block, size_t kept, size_t size, size_t align)
{
    (void)kept;
    return tried(is_refused() ? NULL : realloc(block, size != 0 ? size : align));
}

void rattle_dealloc(void *block)
{
    blocks--;
    free(block);
}

#endif
