/* Jobs wait in an STAILQ of <sys/queue.h>: they are put at its tail and done from its head. */
#include <stdlib.h>
#include <sys/queue.h>

struct job {
    STAILQ_ENTRY(job) jobs;
    int steps;
};

STAILQ_HEAD(job_queue, job);

extern int __VERIFIER_nondet_int(void);

int main(void)
{
    struct job_queue waiting = STAILQ_HEAD_INITIALIZER(waiting);
    struct job *job;

    while (__VERIFIER_nondet_int()) {
        job = malloc(sizeof(struct job));
        if (!job)
            break;
        job->steps = __VERIFIER_nondet_int();
        STAILQ_INSERT_TAIL(&waiting, job, jobs);
    }
    while (!STAILQ_EMPTY(&waiting)) {
        job = STAILQ_FIRST(&waiting);
        STAILQ_REMOVE_HEAD(&waiting, jobs);
        free(job);
    }
    return 0;
}
