/* Points are put at the end of a list of utlist.h by LL_APPEND, which walks to it. */
#include <stdlib.h>
#include <utlist.h>

struct point {
    struct point *next;
    int x, y;
};

extern int __VERIFIER_nondet_int(void);

int main(void)
{
    struct point *path = NULL, *point;
    int count;

    do {
        point = malloc(sizeof(struct point));
        if (!point)
            abort();
        point->x = __VERIFIER_nondet_int();
        point->y = __VERIFIER_nondet_int();
        LL_APPEND(path, point);
    } while (__VERIFIER_nondet_int());
    count = 0;
    LL_FOREACH(path, point)
        if (point->x == point->y)
            count = 1;
    while (path) {
        point = path;
        LL_DELETE(path, point);
        free(point);
    }
    return count;
}
