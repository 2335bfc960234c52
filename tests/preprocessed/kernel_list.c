/* A list of jobs on the doubly linked list of the Linux kernel, with its macros. */
#include <stddef.h>
#include <stdlib.h>

struct list_head {
	struct list_head *next, *prev;
};

#define LIST_HEAD_INIT(name) { &(name), &(name) }

#define LIST_HEAD(name) \
	struct list_head name = LIST_HEAD_INIT(name)

#define READ_ONCE(x) (*(const volatile typeof(x) *)&(x))
#define WRITE_ONCE(x, value) (*(volatile typeof(x) *)&(x) = (value))

#define container_of(ptr, type, member) ({ \
	const typeof(((type *)0)->member) *__mptr = (ptr); \
	(type *)((char *)__mptr - offsetof(type, member)); })

#define list_entry(ptr, type, member) \
	container_of(ptr, type, member)

#define list_first_entry(ptr, type, member) \
	list_entry((ptr)->next, type, member)

#define list_next_entry(pos, member) \
	list_entry((pos)->member.next, typeof(*(pos)), member)

#define list_entry_is_head(pos, head, member) \
	(&pos->member == (head))

#define list_for_each_entry(pos, head, member) \
	for (pos = list_first_entry(head, typeof(*pos), member); \
	     !list_entry_is_head(pos, head, member); \
	     pos = list_next_entry(pos, member))

#define list_for_each_entry_safe(pos, n, head, member) \
	for (pos = list_first_entry(head, typeof(*pos), member), \
		n = list_next_entry(pos, member); \
	     !list_entry_is_head(pos, head, member); \
	     pos = n, n = list_next_entry(n, member))

static inline void __list_add(struct list_head *new, struct list_head *prev,
			      struct list_head *next)
{
	next->prev = new;
	new->next = next;
	new->prev = prev;
	WRITE_ONCE(prev->next, new);
}

static inline void list_add(struct list_head *new, struct list_head *head)
{
	__list_add(new, head, head->next);
}

static inline void list_add_tail(struct list_head *new, struct list_head *head)
{
	__list_add(new, head->prev, head);
}

static inline void __list_del(struct list_head *prev, struct list_head *next)
{
	next->prev = prev;
	WRITE_ONCE(prev->next, next);
}

static inline void list_del(struct list_head *entry)
{
	__list_del(entry->prev, entry->next);
	entry->next = NULL;
	entry->prev = NULL;
}

static inline int list_empty(const struct list_head *head)
{
	return READ_ONCE(head->next) == head;
}

struct job {
	int priority;
	struct list_head link;
	unsigned long cost;
};

static LIST_HEAD(jobs);

extern int __VERIFIER_nondet_int(void);

static int submit(int priority)
{
	struct job *job = malloc(sizeof(*job));

	if (!job)
		return -1;
	job->priority = priority;
	job->cost = 0UL;
	if (priority > 10)
		list_add(&job->link, &jobs);
	else
		list_add_tail(&job->link, &jobs);
	return 0;
}

static unsigned long total(void)
{
	struct job *job;
	unsigned long sum = 0;

	list_for_each_entry(job, &jobs, link)
		sum += job->cost + job->priority;
	return sum;
}

int main(void)
{
	struct job *job, *after;

	while (__VERIFIER_nondet_int())
		if (submit(__VERIFIER_nondet_int()))
			break;
	total();
	list_for_each_entry_safe(job, after, &jobs, link) {
		list_del(&job->link);
		free(job);
	}
	return !list_empty(&jobs);
}
