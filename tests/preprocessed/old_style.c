/* Counts numbers in a sorted list, with definitions in the style from before 1989. */
#include <stdlib.h>

struct count {
    int number, times;
    struct count *next;
};

static struct count *counts;

static struct count *
new_count(number, next)
    int number;
    struct count *next;
{
    struct count *count = (struct count *) malloc(sizeof (struct count));

    if (count == NULL)
        exit(1);
    count->number = number;
    count->times = 1;
    count->next = next;
    return (count);
}

static int
note(number)
    int number;
{
    struct count **place;

    for (place = &counts; *place != NULL; place = &(*place)->next)
        if ((*place)->number >= number)
            break;
    if (*place == NULL || (*place)->number != number)
        *place = new_count(number, *place);
    else
        (*place)->times++;
    return ((*place)->times);
}

static void
forget()
{
    struct count *next;

    for (; counts != NULL; counts = next) {
        next = counts->next;
        free((char *) counts);
    }
}

int
main(argc, argv)
    int argc;
    char **argv;
{
    int most = 0, i;

    for (i = 1; i < argc; i++) {
        int times = note(atoi(argv[i]));

        if (times > most)
            most = times;
    }
    forget();
    return (most);
}
