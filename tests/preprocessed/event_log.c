/* A log of the last events, each with the arguments that were given to it. */
#include <stdarg.h>
#include <stdlib.h>

#define KEPT 16

struct event {
    struct event *earlier;
    int kind;
    int count;
    long arguments[4];
};

struct log {
    struct event *latest;
    int count;
};

static struct log journal;

static void forget_oldest(struct log *log)
{
    struct event **place = &log->latest;

    if (!*place)
        return;
    while ((*place)->earlier)
        place = &(*place)->earlier;
    free(*place);
    *place = NULL;
    log->count--;
}

static void log_arguments(struct log *log, int kind, int count, va_list arguments)
{
    struct event *event = malloc(sizeof(struct event));

    if (!event)
        return;
    event->kind = kind;
    event->count = count;
    for (int i = 0; i < count && i < 4; i++)
        event->arguments[i] = va_arg(arguments, long);
    event->earlier = log->latest;
    log->latest = event;
    if (++log->count > KEPT)
        forget_oldest(log);
}

static void note(int kind, int count, ...)
{
    va_list arguments;

    va_start(arguments, count);
    log_arguments(&journal, kind, count, arguments);
    va_end(arguments);
}

static long sum(const struct log *log, int kind)
{
    long total = 0;

    for (const struct event *event = log->latest; event; event = event->earlier)
        if (event->kind == kind)
            for (int i = 0; i < event->count; i++)
                total += event->arguments[i];
    return total;
}

int main(void)
{
    for (int i = 0; i < 20; i++)
        note(i % 3, 2, (long)i, (long)-i);
    int failed = sum(&journal, 1) != 0;
    while (journal.count > 0)
        forget_oldest(&journal);
    return failed;
}
