/* A list is put behind another one by LL_CONCAT, and both are freed. */
#include <stdlib.h>
#include <utlist.h>

struct item {
    struct item *next;
};

extern int __VERIFIER_nondet_int(void);

int main(void)
{
    struct item *mine = NULL, *yours = NULL, *item, *later;

    while (__VERIFIER_nondet_int()) {
        item = malloc(sizeof(struct item));
        if (!item)
            abort();
        LL_PREPEND(mine, item);
    }
    item = malloc(sizeof(struct item));
    if (!item)
        abort();
    LL_PREPEND(yours, item);
    LL_CONCAT(mine, yours);
    LL_FOREACH_SAFE(mine, item, later)
        free(item);
    LL_FOREACH_SAFE(yours, item, later)
        free(item);
    return 0;
}
