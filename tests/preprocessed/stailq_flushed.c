/* A queue is flushed job by job, but its head is not made new: the next insertion writes behind the last job, which is freed. */
#include <stdlib.h>
#include <sys/queue.h>

struct job {
    STAILQ_ENTRY(job) jobs;
    int steps;
};

STAILQ_HEAD(job_queue, job);

extern int __VERIFIER_nondet_int(void);

int main(void)
{
    struct job_queue waiting;
    struct job *job, *next;

    STAILQ_INIT(&waiting);
    while (__VERIFIER_nondet_int()) {
        job = malloc(sizeof(struct job));
        if (!job)
            break;
        job->steps = 1;
        STAILQ_INSERT_TAIL(&waiting, job, jobs);
    }
    for (job = STAILQ_FIRST(&waiting); job; job = next) {
        next = STAILQ_NEXT(job, jobs);
        free(job);
    }
    job = malloc(sizeof(struct job));
    if (!job)
        return 1;
    job->steps = 0;
    STAILQ_INSERT_TAIL(&waiting, job, jobs);
    STAILQ_REMOVE_HEAD(&waiting, jobs);
    free(job);
    return 0;
}
