/* Values of a small language: numbers, pairs and nothing, in a tagged union. */
#include <assert.h>
#include <stdbool.h>
#include <stdlib.h>

enum kind { NOTHING, NUMBER, PAIR };

struct value {
    enum kind kind;
    unsigned holders;
    union {
        long number;
        struct {
            struct value *first, *second;
        } pair;
    } as;
};

static struct value *value_new(enum kind kind)
{
    struct value *value = calloc(1, sizeof(struct value));

    if (!value)
        abort();
    value->kind = kind;
    value->holders = 1;
    return value;
}

static struct value *number(long n)
{
    struct value *value = value_new(NUMBER);

    value->as.number = n;
    return value;
}

static struct value *hold(struct value *value)
{
    value->holders++;
    return value;
}

static struct value *pair(struct value *first, struct value *second)
{
    struct value *value = value_new(PAIR);

    value->as.pair.first = first;
    value->as.pair.second = second;
    return value;
}

static void release(struct value *value)
{
    assert(value->holders > 0);
    if (--value->holders)
        return;
    if (value->kind == PAIR) {
        release(value->as.pair.first);
        release(value->as.pair.second);
    }
    free(value);
}

static long sum(const struct value *value)
{
    if (value->kind == NUMBER)
        return value->as.number;
    if (value->kind == PAIR)
        return sum(value->as.pair.first) + sum(value->as.pair.second);
    return 0;
}

int main(void)
{
    struct value *list = value_new(NOTHING), *one = number(1);

    for (int i = 0; i < 3; i++)
        list = pair(hold(one), list);
    release(one);
    assert(sum(list) == 3);
    release(list);
    return 0;
}
