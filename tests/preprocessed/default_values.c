/* Settings in a chain of scopes, with a default where none of them has a value. */
#include <stdlib.h>

struct setting {
    int key;
    int value;
    struct setting *next;
};

struct scope {
    struct setting *settings;
    struct scope *outer;
};

static struct setting *lookup(const struct scope *scope, int key)
{
    for (; scope; scope = scope->outer)
        for (struct setting *setting = scope->settings; setting; setting = setting->next)
            if (setting->key == key)
                return setting;
    return NULL;
}

static int set(struct scope *scope, int key, int value)
{
    struct setting *setting = malloc(sizeof(*setting));

    if (!setting)
        return -1;
    setting->key = key;
    setting->value = value;
    setting->next = scope->settings;
    scope->settings = setting;
    return 0;
}

static struct setting nothing = { -1, 0, NULL };

static int value_of(const struct scope *scope, int key, int otherwise)
{
    struct setting *setting = lookup(scope, key) ?: &nothing;

    return setting->value ?: otherwise;
}

static struct scope *enter(struct scope *outer)
{
    struct scope *scope = calloc(1, sizeof(*scope));

    if (scope)
        scope->outer = outer;
    return scope;
}

static struct scope *leave(struct scope *scope)
{
    struct scope *outer = scope->outer;
    struct setting *next;

    for (struct setting *setting = scope->settings; setting; setting = next) {
        next = setting->next;
        free(setting);
    }
    free(scope);
    return outer;
}

int main(void)
{
    struct scope *scope = enter(NULL), *inner;
    int result = 0;

    if (!scope)
        return 1;
    set(scope, 1, 10);
    inner = enter(scope);
    if (inner) {
        set(inner, 1, 20);
        result = value_of(inner, 1, 5) - value_of(inner, 2, 20);
        scope = leave(inner);
    }
    leave(scope);
    return result;
}
