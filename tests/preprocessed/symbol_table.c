/* A table of symbols in a static array, with chains by their numbers and a list of those that are free. */
#include <stdbool.h>
#include <stddef.h>

#define SYMBOLS 4096
#define BUCKETS 256

struct symbol {
    struct symbol *next;
    unsigned long hash;
    int value;
};

static struct symbol symbols[SYMBOLS];
static struct symbol *buckets[BUCKETS];
static struct symbol *unused;
static size_t fresh;

extern unsigned long __VERIFIER_nondet_ulong(void);
extern int __VERIFIER_nondet_int(void);

static struct symbol *symbol_new(void)
{
    struct symbol *symbol = unused;

    if (symbol) {
        unused = symbol->next;
        return symbol;
    }
    return fresh < SYMBOLS ? &symbols[fresh++] : NULL;
}

static struct symbol *symbol_find(unsigned long hash)
{
    struct symbol *symbol = buckets[hash % BUCKETS];

    while (symbol && symbol->hash != hash)
        symbol = symbol->next;
    return symbol;
}

static bool symbol_set(unsigned long hash, int value)
{
    struct symbol *symbol = symbol_find(hash);

    if (!symbol) {
        symbol = symbol_new();
        if (!symbol)
            return false;
        symbol->hash = hash;
        symbol->next = buckets[hash % BUCKETS];
        buckets[hash % BUCKETS] = symbol;
    }
    symbol->value = value;
    return true;
}

static bool symbol_remove(unsigned long hash)
{
    struct symbol **place = &buckets[hash % BUCKETS];

    for (; *place; place = &(*place)->next)
        if ((*place)->hash == hash) {
            struct symbol *symbol = *place;

            *place = symbol->next;
            symbol->next = unused;
            unused = symbol;
            return true;
        }
    return false;
}

int main(void)
{
    unsigned long hash;

    while ((hash = __VERIFIER_nondet_ulong()) != 0) {
        if (!symbol_set(hash, __VERIFIER_nondet_int()))
            return 1;
        if (__VERIFIER_nondet_int() && !symbol_remove(hash))
            return 2;
    }
    return 0;
}
