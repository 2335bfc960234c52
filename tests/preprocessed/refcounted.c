/* Objects with a count of their holders, in the way of `struct kref`: the last one who lets go calls a function. */
#include <stdbool.h>
#include <stdlib.h>
#include "list.h"

struct kref {
	unsigned int refcount;
};

static inline void kref_init(struct kref *kref)
{
	kref->refcount = 1;
}

static inline void kref_get(struct kref *kref)
{
	kref->refcount++;
}

static inline bool kref_put(struct kref *kref, void (*release)(struct kref *kref))
{
	if (--kref->refcount == 0) {
		release(kref);
		return true;
	}
	return false;
}

struct buffer {
	struct kref kref;
	unsigned char *bytes;
};

struct view {
	struct list_head link;
	struct buffer *buffer;
	unsigned int from, to;
};

static LIST_HEAD(views);

static void buffer_release(struct kref *kref)
{
	struct buffer *buffer = container_of(kref, struct buffer, kref);

	free(buffer->bytes);
	free(buffer);
}

static struct buffer *buffer_new(void)
{
	struct buffer *buffer = malloc(sizeof(*buffer));

	if (!buffer)
		return NULL;
	kref_init(&buffer->kref);
	buffer->bytes = calloc(16, 16);
	if (!buffer->bytes) {
		free(buffer);
		return NULL;
	}
	return buffer;
}

static bool view_new(struct buffer *buffer, unsigned int from, unsigned int to)
{
	struct view *view = malloc(sizeof(*view));

	if (!view)
		return false;
	kref_get(&buffer->kref);
	view->buffer = buffer;
	view->from = from;
	view->to = to;
	list_add_tail(&view->link, &views);
	return true;
}

static void view_drop(struct view *view)
{
	list_del(&view->link);
	kref_put(&view->buffer->kref, buffer_release);
	free(view);
}

int main(void)
{
	struct buffer *buffer = buffer_new();
	struct view *view, *after;

	if (!buffer)
		return EXIT_FAILURE;
	for (unsigned int i = 0; i < 4; i++)
		if (!view_new(buffer, i * 64, i * 64 + 64))
			break;
	kref_put(&buffer->kref, buffer_release);
	list_for_each_entry_safe(view, after, &views, link)
		view_drop(view);
	return EXIT_SUCCESS;
}
