/* Jobs wait in a queue of <sys/queue.h> and are handed to workers, which stand on lists by what they do. */
#include <stdbool.h>
#include <stdlib.h>
#include <sys/queue.h>

#define WORKERS 3

struct job {
    STAILQ_ENTRY(job) jobs;
    int id;
    unsigned steps;
};

struct worker {
    LIST_ENTRY(worker) workers;
    struct job *job;
};

STAILQ_HEAD(job_queue, job);
LIST_HEAD(worker_list, worker);

static struct job_queue waiting = STAILQ_HEAD_INITIALIZER(waiting);
static struct worker_list idle = LIST_HEAD_INITIALIZER(idle);
static struct worker_list busy = LIST_HEAD_INITIALIZER(busy);
static unsigned long done;

extern int __VERIFIER_nondet_int(void);
extern unsigned __VERIFIER_nondet_uint(void);

static bool hire(void)
{
    struct worker *worker = malloc(sizeof(struct worker));

    if (!worker)
        return false;
    worker->job = NULL;
    LIST_INSERT_HEAD(&idle, worker, workers);
    return true;
}

static bool submit(int id)
{
    struct job *job = malloc(sizeof(struct job));

    if (!job)
        return false;
    job->id = id;
    job->steps = __VERIFIER_nondet_uint() % 4 + 1;
    if (id < 0)
        STAILQ_INSERT_HEAD(&waiting, job, jobs);
    else
        STAILQ_INSERT_TAIL(&waiting, job, jobs);
    return true;
}

static void withdraw(int id)
{
    struct job *job;

    STAILQ_FOREACH(job, &waiting, jobs)
        if (job->id == id)
            break;
    if (job) {
        STAILQ_REMOVE(&waiting, job, job, jobs);
        free(job);
    }
}

static void assign(void)
{
    while (!STAILQ_EMPTY(&waiting) && !LIST_EMPTY(&idle)) {
        struct worker *worker = LIST_FIRST(&idle);

        worker->job = STAILQ_FIRST(&waiting);
        STAILQ_REMOVE_HEAD(&waiting, jobs);
        LIST_REMOVE(worker, workers);
        LIST_INSERT_HEAD(&busy, worker, workers);
    }
}

static void work(void)
{
    struct worker *worker = LIST_FIRST(&busy);

    while (worker) {
        struct worker *next = LIST_NEXT(worker, workers);

        if (--worker->job->steps == 0) {
            free(worker->job);
            worker->job = NULL;
            LIST_REMOVE(worker, workers);
            LIST_INSERT_HEAD(&idle, worker, workers);
            ++done;
        }
        worker = next;
    }
}

static void dismiss(struct worker_list *list)
{
    while (!LIST_EMPTY(list)) {
        struct worker *worker = LIST_FIRST(list);

        LIST_REMOVE(worker, workers);
        free(worker->job);
        free(worker);
    }
}

int main(void)
{
    for (int i = 0; i < WORKERS; i++)
        if (!hire())
            break;
    for (int id = 0; __VERIFIER_nondet_int(); id++) {
        if (!submit(__VERIFIER_nondet_int() ? id : -id))
            break;
        if (__VERIFIER_nondet_int())
            withdraw(id - 1);
        assign();
        work();
    }
    dismiss(&idle);
    dismiss(&busy);
    while (!STAILQ_EMPTY(&waiting)) {
        struct job *job = STAILQ_FIRST(&waiting);

        STAILQ_REMOVE_HEAD(&waiting, jobs);
        free(job);
    }
    return 0;
}
