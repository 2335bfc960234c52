/* Pages with their flags in bit-fields, on lists of those that are free and those that are in use. */
#include <stdint.h>
#include <stdlib.h>

struct page {
    uint32_t is_dirty : 1;
    uint32_t is_locked : 1;
    uint32_t age : 6;
    uint32_t : 8;
    uint32_t owner : 16;
    struct page *next;
};

struct page_list {
    struct page *first;
    uint32_t count;
};

static struct page_list unused, used;

extern int __VERIFIER_nondet_int(void);

static void push(struct page_list *list, struct page *page)
{
    page->next = list->first;
    list->first = page;
    list->count++;
}

static struct page *pop(struct page_list *list)
{
    struct page *page = list->first;

    if (page) {
        list->first = page->next;
        list->count--;
    }
    return page;
}

static struct page *page_get(uint16_t owner)
{
    struct page *page = pop(&unused);

    if (!page && !(page = calloc(1, sizeof(struct page))))
        return NULL;
    page->owner = owner;
    page->age = 0;
    page->is_dirty = page->is_locked = 0;
    push(&used, page);
    return page;
}

static void reclaim(uint32_t oldest)
{
    struct page **place = &used.first, *page;

    while ((page = *place)) {
        if (page->is_locked || page->age < oldest) {
            page->age = page->age < 63 ? page->age + 1 : 63;
            place = &page->next;
            continue;
        }
        *place = page->next;
        used.count--;
        page->is_dirty = 0;
        push(&unused, page);
    }
}

static void drop(struct page_list *list)
{
    struct page *page;

    while ((page = pop(list)))
        free(page);
}

int main(void)
{
    for (uint16_t owner = 1; owner < 50; owner++) {
        struct page *page = page_get(owner);

        if (!page)
            break;
        if (__VERIFIER_nondet_int())
            page->is_locked = 1;
        reclaim(10);
    }
    drop(&used);
    drop(&unused);
    return unused.count + used.count != 0;
}
