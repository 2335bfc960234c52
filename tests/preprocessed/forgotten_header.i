# 0 "forgotten_header.c"
# 0 "<built-in>"
# 0 "<command-line>"
# 1 "/usr/include/stdc-predef.h" 1 3 4
# 0 "<command-line>" 2
# 1 "forgotten_header.c"

# 1 "/usr/lib/gcc/x86_64-linux-gnu/12/include/stddef.h" 1 3 4
# 145 "/usr/lib/gcc/x86_64-linux-gnu/12/include/stddef.h" 3 4

# 145 "/usr/lib/gcc/x86_64-linux-gnu/12/include/stddef.h" 3 4
typedef long int ptrdiff_t;
# 214 "/usr/lib/gcc/x86_64-linux-gnu/12/include/stddef.h" 3 4
typedef long unsigned int size_t;
# 329 "/usr/lib/gcc/x86_64-linux-gnu/12/include/stddef.h" 3 4
typedef int wchar_t;
# 424 "/usr/lib/gcc/x86_64-linux-gnu/12/include/stddef.h" 3 4
typedef struct {
  long long __max_align_ll __attribute__((__aligned__(__alignof__(long long))));
  long double __max_align_ld __attribute__((__aligned__(__alignof__(long double))));
# 435 "/usr/lib/gcc/x86_64-linux-gnu/12/include/stddef.h" 3 4
} max_align_t;
# 3 "forgotten_header.c" 2


# 4 "forgotten_header.c"
struct node {
    int key;
    struct node *child, *brother;
};

extern int __VERIFIER_nondet_int(void);

static struct node *meld(struct node *a, struct node *b)
{
    if (!a || !b)
        return a ? a : b;
    if (b->key < a->key) {
        struct node *other = a;
        a = b;
        b = other;
    }
    b->brother = a->child;
    a->child = b;
    return a;
}

static struct node *meld_pairs(struct node *node)
{
    struct node *next, *rest;

    if (!node || !node->brother)
        return node;
    next = node->brother;
    rest = next->brother;
    node->brother = next->brother = 
# 33 "forgotten_header.c" 3 4
                                   ((void *)0)
# 33 "forgotten_header.c"
                                       ;
    return meld(meld(node, next), meld_pairs(rest));
}

static struct node *insert(struct node *top, int key)
{
    struct node *node = (struct node *)malloc(sizeof(struct node));

    if (node == 
# 41 "forgotten_header.c" 3 4
               ((void *)0)
# 41 "forgotten_header.c"
                   )
        return top;
    node->key = abs(key);
    node->child = node->brother = 
# 44 "forgotten_header.c" 3 4
                                 ((void *)0)
# 44 "forgotten_header.c"
                                     ;
    return meld(top, node);
}

static struct node *without_top(struct node *top)
{
    struct node *rest = meld_pairs(top->child);

    free(top);
    return rest;
}

int main(void)
{
    struct node *top = 
# 58 "forgotten_header.c" 3 4
                      ((void *)0)
# 58 "forgotten_header.c"
                          ;
    int last = 0;

    for (int i = 0; i < 30; i++)
        top = insert(top, __VERIFIER_nondet_int());
    while (top) {
        if (top->key < last)
            return 1;
        last = top->key;
        top = without_top(top);
    }
    return 0;
}
