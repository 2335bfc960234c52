/* The memory of a character device: a list of sets, each with pointers to quanta, and a release of all of it on failure. */
#include <errno.h>
#include <stdlib.h>

#define QUANTUM 64
#define SET     8

struct scull_set {
	unsigned char **data;
	struct scull_set *next;
};

struct scull_dev {
	struct scull_set *sets;
	unsigned long size;
};

extern unsigned long __VERIFIER_nondet_ulong(void);

static void scull_trim(struct scull_dev *dev)
{
	struct scull_set *set, *next;

	for (set = dev->sets; set; set = next) {
		if (set->data) {
			for (int i = 0; i < SET; i++)
				free(set->data[i]);
			free(set->data);
		}
		next = set->next;
		free(set);
	}
	dev->sets = NULL;
	dev->size = 0;
}

static struct scull_set *scull_follow(struct scull_dev *dev, unsigned long n)
{
	struct scull_set **place = &dev->sets;

	for (;;) {
		if (!*place) {
			*place = calloc(1, sizeof(struct scull_set));
			if (!*place)
				return NULL;
		}
		if (n-- == 0)
			return *place;
		place = &(*place)->next;
	}
}

static int scull_put(struct scull_dev *dev, unsigned long at, unsigned char byte)
{
	unsigned long item = at / (QUANTUM * SET), rest = at % (QUANTUM * SET);
	struct scull_set *set;
	int result = -ENOMEM;

	set = scull_follow(dev, item);
	if (!set)
		goto out;
	if (!set->data) {
		set->data = calloc(SET, sizeof(unsigned char *));
		if (!set->data)
			goto out;
	}
	if (!set->data[rest / QUANTUM]) {
		set->data[rest / QUANTUM] = calloc(QUANTUM, 1);
		if (!set->data[rest / QUANTUM])
			goto out;
	}
	set->data[rest / QUANTUM][rest % QUANTUM] = byte;
	if (dev->size <= at)
		dev->size = at + 1;
	result = 0;
out:
	return result;
}

static int scull_get(struct scull_dev *dev, unsigned long at)
{
	struct scull_set *set = dev->sets;
	unsigned long rest = at % (QUANTUM * SET);

	if (at >= dev->size)
		return -ENXIO;
	for (unsigned long i = at / (QUANTUM * SET); i > 0 && set; i--)
		set = set->next;
	if (!set || !set->data || !set->data[rest / QUANTUM])
		return 0;
	return set->data[rest / QUANTUM][rest % QUANTUM];
}

int main(void)
{
	struct scull_dev dev = { NULL, 0 };
	unsigned long at;

	for (int i = 0; i < 10; i++) {
		at = __VERIFIER_nondet_ulong() % 5000;
		if (scull_put(&dev, at, 'a' + i) < 0)
			break;
		if (scull_get(&dev, at) != 'a' + i)
			abort();
	}
	scull_trim(&dev);
	return 0;
}
