/* Tasks wait in a tail queue of <sys/queue.h>; what is done is put on a singly linked list. */
#include <stdlib.h>
#include <sys/queue.h>

struct task {
    int number;
    int cost;
    TAILQ_ENTRY(task) waiting;
    SLIST_ENTRY(task) done;
};

TAILQ_HEAD(task_queue, task);
SLIST_HEAD(task_list, task);

static struct task_queue queue = TAILQ_HEAD_INITIALIZER(queue);
static struct task_list finished = SLIST_HEAD_INITIALIZER(finished);

extern int __VERIFIER_nondet_int(void);

static struct task *task_new(int number, int cost)
{
    struct task *task = calloc(1, sizeof(struct task));

    if (task == NULL)
        abort();
    task->number = number;
    task->cost = cost;
    return task;
}

static void put(struct task *task)
{
    struct task *other;

    TAILQ_FOREACH(other, &queue, waiting) {
        if (other->cost > task->cost) {
            TAILQ_INSERT_BEFORE(other, task, waiting);
            return;
        }
    }
    TAILQ_INSERT_TAIL(&queue, task, waiting);
}

static struct task *take(void)
{
    struct task *task = TAILQ_FIRST(&queue);

    if (task)
        TAILQ_REMOVE(&queue, task, waiting);
    return task;
}

static int latest(void)
{
    return TAILQ_EMPTY(&queue) ? -1 : TAILQ_LAST(&queue, task_queue)->number;
}

static void finish(struct task *task)
{
    SLIST_INSERT_HEAD(&finished, task, done);
}

int main(void)
{
    struct task *task;
    int number = 0;

    TAILQ_INIT(&queue);
    SLIST_INIT(&finished);
    while (__VERIFIER_nondet_int() && number < 64)
        put(task_new(number++, __VERIFIER_nondet_int()));
    if (latest() >= 64)
        abort();
    while ((task = take()))
        finish(task);
    while (!SLIST_EMPTY(&finished)) {
        task = SLIST_FIRST(&finished);
        SLIST_REMOVE_HEAD(&finished, done);
        free(task);
    }
    return 0;
}
