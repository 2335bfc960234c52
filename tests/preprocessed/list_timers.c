/* Timers stand on a LIST of <sys/queue.h>; those that are due are counted, and all are taken off and freed. */
#include <stdlib.h>
#include <sys/queue.h>

struct timer {
    unsigned due;
    LIST_ENTRY(timer) timers;
};

LIST_HEAD(timer_list, timer);

extern int __VERIFIER_nondet_int(void);
extern unsigned __VERIFIER_nondet_uint(void);

int main(void)
{
    struct timer_list pending = LIST_HEAD_INITIALIZER(pending);
    struct timer *timer;
    unsigned now = __VERIFIER_nondet_uint(), late = 0;

    while (__VERIFIER_nondet_int()) {
        timer = malloc(sizeof(*timer));
        if (timer == NULL)
            break;
        timer->due = __VERIFIER_nondet_uint();
        LIST_INSERT_HEAD(&pending, timer, timers);
    }
    LIST_FOREACH(timer, &pending, timers)
        if (timer->due <= now)
            late++;
    while (!LIST_EMPTY(&pending)) {
        timer = LIST_FIRST(&pending);
        LIST_REMOVE(timer, timers);
        free(timer);
    }
    return late > 0;
}
