/* A cache as a TAILQ of <sys/queue.h>: what is used comes to the front, and pages go from the back. */
#include <stdlib.h>
#include <sys/queue.h>

struct page {
    unsigned number;
    TAILQ_ENTRY(page) pages;
};

TAILQ_HEAD(page_queue, page);

extern int __VERIFIER_nondet_int(void);
extern unsigned __VERIFIER_nondet_uint(void);

int main(void)
{
    struct page_queue cache = TAILQ_HEAD_INITIALIZER(cache);
    struct page *page;
    unsigned number = __VERIFIER_nondet_uint();

    while (__VERIFIER_nondet_int()) {
        page = malloc(sizeof(struct page));
        if (!page)
            break;
        page->number = __VERIFIER_nondet_uint();
        TAILQ_INSERT_HEAD(&cache, page, pages);
    }
    TAILQ_FOREACH(page, &cache, pages)
        if (page->number == number)
            break;
    if (page) {
        TAILQ_REMOVE(&cache, page, pages);
        TAILQ_INSERT_HEAD(&cache, page, pages);
    }
    while (!TAILQ_EMPTY(&cache)) {
        page = TAILQ_LAST(&cache, page_queue);
        TAILQ_REMOVE(&cache, page, pages);
        free(page);
    }
    return 0;
}
