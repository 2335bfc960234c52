/* Changes of a text of fixed length, which can be undone and done again; a mark in the low bit says that a change was saved. */
#include <stdint.h>
#include <stdlib.h>

struct change {
    struct change *older;
    unsigned short at;
    char before, after;
};

struct text {
    char bytes[80];
    struct change *done, *undone;
};

extern unsigned short __VERIFIER_nondet_ushort(void);
extern char __VERIFIER_nondet_char(void);

static struct change *plain(const struct change *marked)
{
    return (struct change *)((uintptr_t)marked & ~(uintptr_t)1);
}

static struct change *marked(struct change *change)
{
    return (struct change *)((uintptr_t)change | 1);
}

static int is_marked(const struct change *change)
{
    return (uintptr_t)change & 1;
}

static void forget(struct change **list)
{
    while (*list) {
        struct change *change = plain(*list);
        *list = change->older;
        free(change);
    }
}

static int change(struct text *text, unsigned short at, char after)
{
    struct change *new = malloc(sizeof *new);

    if (!new)
        return -1;
    new->at = at;
    new->before = text->bytes[at];
    new->after = after;
    new->older = text->done;
    text->done = new;
    text->bytes[at] = after;
    forget(&text->undone);
    return 0;
}

static int undo(struct text *text)
{
    struct change *change = plain(text->done);

    if (!change)
        return 0;
    text->bytes[change->at] = change->before;
    text->done = change->older;
    change->older = text->undone;
    text->undone = change;
    return 1;
}

static void save(struct text *text)
{
    if (text->done && !is_marked(text->done))
        text->done = marked(text->done);
}

int main(void)
{
    struct text *text = calloc(1, sizeof(struct text));

    if (!text)
        return 1;
    for (int i = 0; i < 20; i++) {
        if (change(text, __VERIFIER_nondet_ushort() % 80, __VERIFIER_nondet_char()))
            break;
        if (i % 5 == 0)
            save(text);
        if (i % 3 == 0)
            undo(text);
    }
    forget(&text->done);
    forget(&text->undone);
    free(text);
    return 0;
}
