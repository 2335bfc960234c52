/* The job that is done stays at the head of the queue, and is freed once as the current one and once with the queue. */
#include <stdlib.h>
#include <sys/queue.h>

struct job {
    STAILQ_ENTRY(job) jobs;
    int steps;
};

STAILQ_HEAD(job_queue, job);

extern int __VERIFIER_nondet_int(void);

int main(void)
{
    struct job_queue waiting = STAILQ_HEAD_INITIALIZER(waiting);
    struct job *job, *current;

    while (__VERIFIER_nondet_int()) {
        job = malloc(sizeof(struct job));
        if (!job)
            break;
        job->steps = __VERIFIER_nondet_int();
        STAILQ_INSERT_TAIL(&waiting, job, jobs);
    }
    current = STAILQ_FIRST(&waiting);
    while ((job = STAILQ_FIRST(&waiting)) != NULL) {
        STAILQ_REMOVE_HEAD(&waiting, jobs);
        free(job);
    }
    free(current);
    return 0;
}
