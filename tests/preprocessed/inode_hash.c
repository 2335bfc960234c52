/* A cache of inodes: found by number in a hash table, kept in the order of their use, and dropped when nobody holds them. */
#include <stdlib.h>
#include "list.h"

#define likely(x)   __builtin_expect(!!(x), 1)
#define unlikely(x) __builtin_expect(!!(x), 0)

#define HASH_BITS 4
#define HASH_SIZE (1 << HASH_BITS)

typedef unsigned long ino_number;

struct inode {
	ino_number number;
	unsigned int holders;
	struct hlist_node hash;
	struct list_head lru;
};

extern unsigned long __VERIFIER_nondet_ulong(void);
extern int __VERIFIER_nondet_int(void);

static struct hlist_head inode_table[HASH_SIZE];
static LIST_HEAD(inode_unused);
static unsigned int inode_count;

static inline unsigned int hash_long(ino_number value)
{
	return (unsigned int)((value * 0x61C8864680B583EBULL) >> (64 - HASH_BITS));
}

static struct inode *inode_find(ino_number number)
{
	struct inode *inode;

	hlist_for_each_entry(inode, &inode_table[hash_long(number)], hash) {
		if (inode->number == number)
			return inode;
	}
	return NULL;
}

static struct inode *inode_get(ino_number number)
{
	struct inode *inode = inode_find(number);

	if (likely(inode != NULL)) {
		if (inode->holders++ == 0)
			list_del_init(&inode->lru);
		return inode;
	}
	inode = malloc(sizeof(*inode));
	if (unlikely(!inode))
		return NULL;
	inode->number = number;
	inode->holders = 1;
	INIT_LIST_HEAD(&inode->lru);
	hlist_add_head(&inode->hash, &inode_table[hash_long(number)]);
	inode_count++;
	return inode;
}

static void inode_put(struct inode *inode)
{
	if (!inode || --inode->holders)
		return;
	list_add(&inode->lru, &inode_unused);
}

static unsigned int inode_shrink(unsigned int wanted)
{
	unsigned int dropped = 0;

	while (dropped < wanted && !list_empty(&inode_unused)) {
		struct inode *inode = list_last_entry(&inode_unused, struct inode, lru);

		list_del_init(&inode->lru);
		hlist_del_init(&inode->hash);
		free(inode);
		inode_count--;
		dropped++;
	}
	return dropped;
}

int main(void)
{
	while (__VERIFIER_nondet_int()) {
		struct inode *inode = inode_get(__VERIFIER_nondet_ulong());

		inode_put(inode);
		if (inode_count > 100)
			inode_shrink(inode_count / 2);
	}
	inode_shrink(inode_count);
	return inode_count != 0;
}
