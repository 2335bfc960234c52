/* An arena: blocks are cut from chunks, and all chunks are freed at once. */
#include <assert.h>
#include <stdbool.h>
#include <stdlib.h>
#include <string.h>

#define CHUNK_SIZE 4096UL
#define ALIGNMENT  16UL

struct chunk {
    struct chunk *older;
    size_t used;
    unsigned char bytes[];
};

struct arena {
    struct chunk *newest;
    size_t chunks;
};

static size_t rounded(size_t size)
{
    return (size + ALIGNMENT - 1) & ~(ALIGNMENT - 1);
}

static size_t room_in(const struct chunk *chunk)
{
    return chunk ? CHUNK_SIZE - chunk->used : 0;
}

static bool arena_grow(struct arena *arena)
{
    struct chunk *chunk = malloc(sizeof(struct chunk) + CHUNK_SIZE);

    if (chunk == NULL)
        return false;
    chunk->older = arena->newest;
    chunk->used = 0;
    arena->newest = chunk;
    arena->chunks++;
    return true;
}

static void *arena_take(struct arena *arena, size_t size)
{
    void *block;

    size = rounded(size);
    if (size > CHUNK_SIZE)
        return NULL;
    if (room_in(arena->newest) < size && !arena_grow(arena))
        return NULL;
    block = &arena->newest->bytes[arena->newest->used];
    arena->newest->used += size;
    return memset(block, 0, size);
}

static void arena_drop(struct arena *arena)
{
    struct chunk *chunk = arena->newest;

    while (chunk) {
        struct chunk *older = chunk->older;
        free(chunk);
        chunk = older;
    }
    arena->newest = NULL;
    arena->chunks = 0;
}

struct point {
    long x, y;
    struct point *before;
};

int main(void)
{
    struct arena arena = { NULL, 0 };
    struct point *last = NULL;

    for (int i = 0; i < 1000; ++i) {
        struct point *point = arena_take(&arena, sizeof *point);
        if (!point)
            break;
        point->x = i;
        point->y = -i;
        point->before = last;
        last = point;
    }
    while (last) {
        assert(last->x == -last->y);
        last = last->before;
    }
    arena_drop(&arena);
    return EXIT_SUCCESS;
}
