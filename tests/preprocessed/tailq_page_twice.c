/* As tailq_cache.c, but the page that is used is put to the front where it still stands in the queue. */
#include <stdlib.h>
#include <sys/queue.h>

struct page {
    unsigned number;
    TAILQ_ENTRY(page) pages;
};

TAILQ_HEAD(page_queue, page);

extern int __VERIFIER_nondet_int(void);
extern unsigned __VERIFIER_nondet_uint(void);

int main(void)
{
    struct page_queue cache = TAILQ_HEAD_INITIALIZER(cache);
    struct page *page;

    while (__VERIFIER_nondet_int()) {
        page = malloc(sizeof(struct page));
        if (!page)
            break;
        page->number = __VERIFIER_nondet_uint();
        TAILQ_INSERT_HEAD(&cache, page, pages);
    }
    page = TAILQ_FIRST(&cache);
    if (page)
        TAILQ_INSERT_HEAD(&cache, page, pages);
    while (!TAILQ_EMPTY(&cache)) {
        page = TAILQ_FIRST(&cache);
        TAILQ_REMOVE(&cache, page, pages);
        free(page);
    }
    return 0;
}
