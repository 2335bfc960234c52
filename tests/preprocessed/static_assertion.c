/* A list of parts with the `container_of` of newer kernels, which asserts that the types agree. */
#include <assert.h>
#include <stddef.h>
#include <stdlib.h>

#define __same_type(a, b) __builtin_types_compatible_p(typeof(a), typeof(b))

#define container_of(ptr, type, member) ({				\
	void *__mptr = (void *)(ptr);					\
	static_assert(__same_type(*(ptr), ((type *)0)->member) ||	\
		      __same_type(*(ptr), void),			\
		      "pointer type mismatch in container_of()");	\
	((type *)(__mptr - offsetof(type, member))); })

struct llist_node {
	struct llist_node *next;
};

struct llist_head {
	struct llist_node *first;
};

struct part {
	int number;
	struct llist_node node;
};

static_assert(offsetof(struct part, node) == 8, "the node is not aligned");
static_assert(sizeof(struct part) == 16, "a part has two words");

static void llist_add(struct llist_node *new, struct llist_head *head)
{
	new->next = head->first;
	head->first = new;
}

static struct llist_node *llist_del_first(struct llist_head *head)
{
	struct llist_node *first = head->first;

	if (first)
		head->first = first->next;
	return first;
}

static struct llist_node *llist_reverse(struct llist_node *node)
{
	struct llist_node *reversed = NULL;

	while (node) {
		struct llist_node *next = node->next;

		node->next = reversed;
		reversed = node;
		node = next;
	}
	return reversed;
}

static int part_number(struct llist_node *node)
{
	return container_of(node, struct part, node)->number;
}

static void part_free(struct llist_node *node)
{
	free(container_of(node, struct part, node));
}

int main(void)
{
	struct llist_head parts = { NULL };
	struct llist_node *node;
	int last = -1;

	for (int i = 0; i < 8; i++) {
		struct part *part = malloc(sizeof(struct part));

		if (!part)
			break;
		part->number = i;
		llist_add(&part->node, &parts);
	}
	parts.first = llist_reverse(parts.first);
	while ((node = llist_del_first(&parts))) {
		assert(part_number(node) == last + 1);
		last = part_number(node);
		part_free(node);
	}
	return 0;
}
