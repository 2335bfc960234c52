/* Requests come on one SLIST of <sys/queue.h> and are moved to another one, which turns their order round. */
#include <stdlib.h>
#include <sys/queue.h>

struct request {
    int id;
    SLIST_ENTRY(request) next;
};

SLIST_HEAD(requests, request);

extern int __VERIFIER_nondet_int(void);

int main(void)
{
    struct requests come = SLIST_HEAD_INITIALIZER(come);
    struct requests in_order = SLIST_HEAD_INITIALIZER(in_order);
    struct request *request;

    while (__VERIFIER_nondet_int()) {
        request = malloc(sizeof *request);
        if (!request)
            break;
        request->id = __VERIFIER_nondet_int();
        SLIST_INSERT_HEAD(&come, request, next);
    }
    while ((request = SLIST_FIRST(&come))) {
        SLIST_REMOVE_HEAD(&come, next);
        SLIST_INSERT_HEAD(&in_order, request, next);
    }
    while ((request = SLIST_FIRST(&in_order))) {
        SLIST_REMOVE_HEAD(&in_order, next);
        free(request);
    }
    return 0;
}
