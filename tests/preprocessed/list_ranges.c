/* Ranges stand on a LIST of <sys/queue.h>. One is split in two: the second half is put behind it by LIST_INSERT_AFTER. */
#include <stdlib.h>
#include <sys/queue.h>

struct range {
    LIST_ENTRY(range) link;
    unsigned from, to;
};

LIST_HEAD(ranges, range);

extern int __VERIFIER_nondet_int(void);
extern unsigned __VERIFIER_nondet_uint(void);

int main(void)
{
    struct ranges ranges = LIST_HEAD_INITIALIZER(ranges);
    struct range *range, *half;
    unsigned at = __VERIFIER_nondet_uint();

    while (__VERIFIER_nondet_int()) {
        range = calloc(1, sizeof(*range));
        if (!range)
            exit(1);
        range->to = __VERIFIER_nondet_uint();
        LIST_INSERT_HEAD(&ranges, range, link);
    }
    LIST_FOREACH(range, &ranges, link)
        if (range->from < at && at < range->to)
            break;
    if (range) {
        half = malloc(sizeof(*half));
        if (!half)
            exit(1);
        half->from = at;
        half->to = range->to;
        range->to = at;
        LIST_INSERT_AFTER(range, half, link);
    }
    range = LIST_FIRST(&ranges);
    while (range) {
        half = LIST_NEXT(range, link);
        free(range);
        range = half;
    }
    return 0;
}
