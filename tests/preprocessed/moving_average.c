/* Samples in a list of the last ones, and their average as a floating number. */
#include <stddef.h>
#include <stdlib.h>

#define WINDOW 5

struct sample {
    int value;
    struct sample *later;
};

struct window {
    struct sample *oldest, *newest;
    size_t count;
    long sum;
};

extern int __VERIFIER_nondet_int(void);

static void forget(struct window *window)
{
    struct sample *oldest = window->oldest;

    window->oldest = oldest->later;
    if (window->oldest == NULL)
        window->newest = NULL;
    window->sum -= oldest->value;
    window->count -= 1;
    free(oldest);
}

static int add(struct window *window, int value)
{
    struct sample *sample = malloc(sizeof(struct sample));

    if (sample == NULL)
        return -1;
    sample->value = value;
    sample->later = NULL;
    if (window->newest)
        window->newest->later = sample;
    else
        window->oldest = sample;
    window->newest = sample;
    window->sum += value;
    if (++window->count > WINDOW)
        forget(window);
    return 0;
}

static int is_above(const struct window *window, double limit)
{
    return window->count && window->sum / (double)window->count > limit;
}

int main(void)
{
    struct window window = { 0 };
    int alarms = 0;

    for (int i = 0; i < 100; i++) {
        if (add(&window, __VERIFIER_nondet_int() % 100))
            break;
        alarms += is_above(&window, 49.5);
    }
    while (window.count > 0)
        forget(&window);
    return alarms > 0;
}
