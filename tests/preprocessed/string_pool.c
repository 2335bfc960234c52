/* A pool of names: they are copied one behind the other into chunks, and a list finds each name again. */
#include <stddef.h>
#include <stdlib.h>
#include <string.h>

#define CHUNK 256

struct chunk {
    struct chunk *next;
    char *at;
    char bytes[CHUNK];
};

struct name {
    const char *text;
    struct name *next;
};

struct pool {
    struct chunk *chunks;
    struct name *names;
};

extern char __VERIFIER_nondet_char(void);

static size_t length_of(const char *text)
{
    const char *end = text;

    while (*end)
        end++;
    return end - text;
}

static int same(const char *left, const char *right)
{
    while (*left && *left == *right)
        left++, right++;
    return *left == *right;
}

static char *pool_take(struct pool *pool, size_t size)
{
    struct chunk *chunk = pool->chunks;
    char *taken;

    if (size > CHUNK)
        return NULL;
    if (!chunk || chunk->at + size > chunk->bytes + CHUNK) {
        chunk = malloc(sizeof(*chunk));
        if (!chunk)
            return NULL;
        chunk->at = chunk->bytes;
        chunk->next = pool->chunks;
        pool->chunks = chunk;
    }
    taken = chunk->at;
    chunk->at += size;
    return taken;
}

static const char *intern(struct pool *pool, const char *text)
{
    struct name *name;
    size_t size = length_of(text) + 1;
    char *copy;

    for (name = pool->names; name; name = name->next)
        if (same(name->text, text))
            return name->text;
    copy = pool_take(pool, size);
    name = malloc(sizeof(*name));
    if (!copy || !name) {
        free(name);
        return NULL;
    }
    memcpy(copy, text, size);
    name->text = copy;
    name->next = pool->names;
    pool->names = name;
    return copy;
}

static void pool_drop(struct pool *pool)
{
    while (pool->names) {
        struct name *next = pool->names->next;
        free(pool->names);
        pool->names = next;
    }
    while (pool->chunks) {
        struct chunk *next = pool->chunks->next;
        free(pool->chunks);
        pool->chunks = next;
    }
}

int main(void)
{
    struct pool pool = { NULL, NULL };
    char word[8] = { 0 };

    for (int i = 0; i < 50; i++) {
        word[i % 7] = __VERIFIER_nondet_char();
        const char *first = intern(&pool, word), *second = intern(&pool, word);
        if (first && second && first != second)
            abort();
    }
    pool_drop(&pool);
    return 0;
}
