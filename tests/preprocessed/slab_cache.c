/* A slab allocator: objects of one size are cut from aligned slabs, which stand on the lists of their cache. */
#include <stdint.h>
#include <stdlib.h>
#include "list.h"

#define SLAB_BYTES 4096UL
#define SLAB_MASK  (~(SLAB_BYTES - 1))

struct object {
	struct object *next;
};

struct slab {
	struct list_head link;
	struct object *unused;
	unsigned int taken;
};

struct cache {
	size_t size;
	unsigned int per_slab;
	struct list_head full, partial, empty;
};

static void cache_init(struct cache *cache, size_t size)
{
	if (size < sizeof(struct object))
		size = sizeof(struct object);
	cache->size = (size + 7) & ~(size_t)7;
	cache->per_slab = (SLAB_BYTES - sizeof(struct slab)) / cache->size;
	INIT_LIST_HEAD(&cache->full);
	INIT_LIST_HEAD(&cache->partial);
	INIT_LIST_HEAD(&cache->empty);
}

static struct slab *slab_new(struct cache *cache)
{
	struct slab *slab = aligned_alloc(SLAB_BYTES, SLAB_BYTES);
	char *at;

	if (!slab)
		return NULL;
	slab->unused = NULL;
	slab->taken = 0;
	at = (char *)(slab + 1);
	for (unsigned int i = 0; i < cache->per_slab; i++, at += cache->size) {
		struct object *object = (struct object *)at;

		object->next = slab->unused;
		slab->unused = object;
	}
	list_add(&slab->link, &cache->empty);
	return slab;
}

static void *cache_take(struct cache *cache)
{
	struct slab *slab;
	struct object *object;

	if (!list_empty(&cache->partial))
		slab = list_first_entry(&cache->partial, struct slab, link);
	else if (!list_empty(&cache->empty))
		slab = list_first_entry(&cache->empty, struct slab, link);
	else
		slab = slab_new(cache);
	if (!slab)
		return NULL;
	object = slab->unused;
	slab->unused = object->next;
	slab->taken++;
	list_move(&slab->link, slab->unused ? &cache->partial : &cache->full);
	return object;
}

static void cache_give(struct cache *cache, void *address)
{
	struct slab *slab = (struct slab *)((uintptr_t)address & SLAB_MASK);
	struct object *object = address;

	object->next = slab->unused;
	slab->unused = object;
	slab->taken--;
	list_move(&slab->link, slab->taken ? &cache->partial : &cache->empty);
}

static void cache_shrink(struct cache *cache)
{
	struct slab *slab, *after;

	list_for_each_entry_safe(slab, after, &cache->empty, link) {
		list_del(&slab->link);
		free(slab);
	}
}

int main(void)
{
	struct cache cache;
	void *taken[10];
	int count = 0;

	cache_init(&cache, 100);
	while (count < 10 && (taken[count] = cache_take(&cache)))
		count++;
	while (count > 0)
		cache_give(&cache, taken[--count]);
	cache_shrink(&cache);
	return !list_empty(&cache.empty);
}
