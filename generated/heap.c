/* The heap of the library: three functions over the C library's malloc, realloc and free, as the
 * contracts ask for them that the toolchain's pages state. Licence: MIT (LICENSE). */
#include <stdbool.h>
#include <stddef.h>
#include <stdlib.h>

/* Whether there is memory, and where. Where there is none, `start` isn't null and owns nothing. */
struct rattle_tried {
    bool is_there;
    void *start;
};

struct rattle_tried rattle_alloc(size_t size, size_t alignment);
struct rattle_tried rattle_realloc(void *start, size_t kept, size_t size, size_t alignment);
void rattle_dealloc(void *start);

/* Alignments are divisors of 16, which malloc keeps for what is as large as its alignment. */
_Static_assert(_Alignof(max_align_t) % 16 == 0, "malloc aligns by less than 16");

/* At least a byte, so that a null pointer always says that there is no memory. */
static size_t room(size_t size, size_t alignment)
{
    return size < alignment ? alignment : size;
}

static struct rattle_tried tried(void *start)
{
    static char nothing;
    return (struct rattle_tried){start != NULL, start != NULL ? start : &nothing};
}

/* Memory for `size` bytes, if there is any. */
struct rattle_tried rattle_alloc(size_t size, size_t alignment)
{
    return tried(malloc(room(size, alignment)));
}

/* The block at `start` with `size` bytes, of which the first `kept` are as they were; it may move.
 * Where there is no memory the block is as it was. */
struct rattle_tried rattle_realloc(void *start, size_t kept, size_t size, size_t alignment)
{
    (void)kept; /* no more than the block had, and no more than `size`: realloc keeps as many */
    return tried(realloc(start, room(size, alignment)));
}

/* Gives back what either answered. */
void rattle_dealloc(void *start)
{
    free(start);
}
