# 0 "symbol_table.c"
# 0 "<built-in>"
# 0 "<command-line>"
# 1 "/usr/include/stdc-predef.h" 1 3 4
# 0 "<command-line>" 2
# 1 "symbol_table.c"

# 1 "/usr/lib/gcc/x86_64-linux-gnu/12/include/stdbool.h" 1 3 4
# 3 "symbol_table.c" 2
# 1 "/usr/lib/gcc/x86_64-linux-gnu/12/include/stddef.h" 1 3 4
# 145 "/usr/lib/gcc/x86_64-linux-gnu/12/include/stddef.h" 3 4

# 145 "/usr/lib/gcc/x86_64-linux-gnu/12/include/stddef.h" 3 4
typedef long int ptrdiff_t;
# 214 "/usr/lib/gcc/x86_64-linux-gnu/12/include/stddef.h" 3 4
typedef long unsigned int size_t;
# 329 "/usr/lib/gcc/x86_64-linux-gnu/12/include/stddef.h" 3 4
typedef int wchar_t;
# 424 "/usr/lib/gcc/x86_64-linux-gnu/12/include/stddef.h" 3 4
typedef struct {
  long long __max_align_ll __attribute__((__aligned__(__alignof__(long long))));
  long double __max_align_ld __attribute__((__aligned__(__alignof__(long double))));
# 435 "/usr/lib/gcc/x86_64-linux-gnu/12/include/stddef.h" 3 4
} max_align_t;
# 4 "symbol_table.c" 2





# 8 "symbol_table.c"
struct symbol {
    struct symbol *next;
    unsigned long hash;
    int value;
};

static struct symbol symbols[4096];
static struct symbol *buckets[256];
static struct symbol *unused;
static size_t fresh;

extern unsigned long __VERIFIER_nondet_ulong(void);
extern int __VERIFIER_nondet_int(void);

static struct symbol *symbol_new(void)
{
    struct symbol *symbol = unused;

    if (symbol) {
        unused = symbol->next;
        return symbol;
    }
    return fresh < 4096 ? &symbols[fresh++] : 
# 30 "symbol_table.c" 3 4
                                                ((void *)0)
# 30 "symbol_table.c"
                                                    ;
}

static struct symbol *symbol_find(unsigned long hash)
{
    struct symbol *symbol = buckets[hash % 256];

    while (symbol && symbol->hash != hash)
        symbol = symbol->next;
    return symbol;
}

static 
# 42 "symbol_table.c" 3 4
      _Bool 
# 42 "symbol_table.c"
           symbol_set(unsigned long hash, int value)
{
    struct symbol *symbol = symbol_find(hash);

    if (!symbol) {
        symbol = symbol_new();
        if (!symbol)
            return 
# 49 "symbol_table.c" 3 4
                  0
# 49 "symbol_table.c"
                       ;
        symbol->hash = hash;
        symbol->next = buckets[hash % 256];
        buckets[hash % 256] = symbol;
    }
    symbol->value = value;
    return 
# 55 "symbol_table.c" 3 4
          1
# 55 "symbol_table.c"
              ;
}

static 
# 58 "symbol_table.c" 3 4
      _Bool 
# 58 "symbol_table.c"
           symbol_remove(unsigned long hash)
{
    struct symbol **place = &buckets[hash % 256];

    for (; *place; place = &(*place)->next)
        if ((*place)->hash == hash) {
            struct symbol *symbol = *place;

            *place = symbol->next;
            symbol->next = unused;
            unused = symbol;
            return 
# 69 "symbol_table.c" 3 4
                  1
# 69 "symbol_table.c"
                      ;
        }
    return 
# 71 "symbol_table.c" 3 4
          0
# 71 "symbol_table.c"
               ;
}

int main(void)
{
    unsigned long hash;

    while ((hash = __VERIFIER_nondet_ulong()) != 0) {
        if (!symbol_set(hash, __VERIFIER_nondet_int()))
            return 1;
        if (__VERIFIER_nondet_int() && !symbol_remove(hash))
            return 2;
    }
    return 0;
}
