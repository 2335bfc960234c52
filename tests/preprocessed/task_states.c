/* Tasks with states, of which a table says which may follow which. */
#include <stdbool.h>
#include <stdlib.h>

enum state { NEW, READY, RUNNING, BLOCKED, ENDED, STATES };

struct task {
    enum state state;
    unsigned ticks;
    struct task *next;
};

struct state_info {
    bool is_live;
    unsigned char follow;
};

#define FOLLOWS(state) (1U << (state))

static const struct state_info infos[STATES] = {
    [NEW] = { true, FOLLOWS(READY) },
    [READY] = { true, FOLLOWS(RUNNING) },
    [RUNNING] = { true, FOLLOWS(READY) | FOLLOWS(BLOCKED) | FOLLOWS(ENDED) },
    [BLOCKED] = { true, FOLLOWS(READY) },
    [ENDED] = { false, 0 },
};

extern unsigned __VERIFIER_nondet_uint(void);

static bool change(struct task *task, enum state state)
{
    if (!(infos[task->state].follow & FOLLOWS(state)))
        return false;
    task->state = state;
    return true;
}

static struct task *spawn(struct task *next)
{
    struct task *task = malloc(sizeof(struct task));

    if (!task)
        return next;
    task->state = NEW;
    task->ticks = 0;
    task->next = next;
    return task;
}

static struct task *reap(struct task *tasks)
{
    struct task **place = &tasks;

    while (*place) {
        struct task *task = *place;

        if (infos[task->state].is_live) {
            place = &task->next;
        } else {
            *place = task->next;
            free(task);
        }
    }
    return tasks;
}

int main(void)
{
    struct task *tasks = NULL;

    for (int round = 0; round < 50; round++) {
        if (round % 10 == 0)
            tasks = spawn(tasks);
        for (struct task *task = tasks; task; task = task->next)
            if (change(task, __VERIFIER_nondet_uint() % STATES))
                task->ticks++;
        tasks = reap(tasks);
    }
    while (tasks) {
        tasks->state = ENDED;
        tasks = reap(tasks);
    }
    return 0;
}
