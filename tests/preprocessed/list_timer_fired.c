/* Timers that have fired are freed inside LIST_FOREACH, which goes on from the one that was freed. */
#include <stdlib.h>
#include <sys/queue.h>

struct timer {
    unsigned due;
    LIST_ENTRY(timer) timers;
};

LIST_HEAD(timer_list, timer);

extern int __VERIFIER_nondet_int(void);
extern unsigned __VERIFIER_nondet_uint(void);

int main(void)
{
    struct timer_list pending;
    struct timer *timer;

    LIST_INIT(&pending);
    while (__VERIFIER_nondet_int()) {
        timer = malloc(sizeof(*timer));
        if (timer == NULL)
            break;
        timer->due = __VERIFIER_nondet_uint();
        LIST_INSERT_HEAD(&pending, timer, timers);
    }
    LIST_FOREACH(timer, &pending, timers) {
        LIST_REMOVE(timer, timers);
        free(timer);
    }
    return 0;
}
