/* A cache of a few entries: chains of a hash table to find them, and a tail queue in the order of their last use. */
#include <sys/types.h>
#include <stdlib.h>
#include <sys/queue.h>

#define CAPACITY 4U
#define BUCKETS  8U

typedef struct entry {
    u_int32_t key;
    long value;
    LIST_ENTRY(entry) chain;
    TAILQ_ENTRY(entry) order;
} entry_t;

struct cache {
    LIST_HEAD(, entry) buckets[BUCKETS];
    TAILQ_HEAD(order_head, entry) order;
    size_t count;
};

extern unsigned int __VERIFIER_nondet_uint(void);

static void cache_init(struct cache *cache)
{
    for (size_t i = 0; i < BUCKETS; i++)
        LIST_INIT(&cache->buckets[i]);
    TAILQ_INIT(&cache->order);
    cache->count = 0;
}

static entry_t *cache_get(struct cache *cache, u_int32_t key)
{
    entry_t *entry;

    LIST_FOREACH(entry, &cache->buckets[key % BUCKETS], chain) {
        if (entry->key != key)
            continue;
        TAILQ_REMOVE(&cache->order, entry, order);
        TAILQ_INSERT_HEAD(&cache->order, entry, order);
        return entry;
    }
    return NULL;
}

static void cache_evict(struct cache *cache)
{
    entry_t *oldest = TAILQ_LAST(&cache->order, order_head);

    if (oldest == NULL)
        return;
    TAILQ_REMOVE(&cache->order, oldest, order);
    LIST_REMOVE(oldest, chain);
    cache->count--;
    free(oldest);
}

static int cache_put(struct cache *cache, u_int32_t key, long value)
{
    entry_t *entry = cache_get(cache, key);

    if (entry != NULL) {
        entry->value = value;
        return 0;
    }
    if (cache->count == CAPACITY)
        cache_evict(cache);
    if ((entry = malloc(sizeof(entry_t))) == NULL)
        return -1;
    entry->key = key;
    entry->value = value;
    LIST_INSERT_HEAD(&cache->buckets[key % BUCKETS], entry, chain);
    TAILQ_INSERT_HEAD(&cache->order, entry, order);
    cache->count++;
    return 0;
}

int main(void)
{
    struct cache cache;
    unsigned int key;

    cache_init(&cache);
    while ((key = __VERIFIER_nondet_uint()) != 0) {
        entry_t *entry = cache_get(&cache, key);

        if (entry == NULL && cache_put(&cache, key, -(long)key))
            break;
    }
    while (!TAILQ_EMPTY(&cache.order))
        cache_evict(&cache);
    return 0;
}
