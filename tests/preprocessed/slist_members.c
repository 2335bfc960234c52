/* A member is looked for in an SLIST of <sys/queue.h> and taken out by SLIST_REMOVE, which walks the list once more. */
#include <stdlib.h>
#include <sys/queue.h>

struct member {
    unsigned long key;
    SLIST_ENTRY(member) members;
};

SLIST_HEAD(set, member);

extern int __VERIFIER_nondet_int(void);
extern unsigned long __VERIFIER_nondet_ulong(void);

int main(void)
{
    struct set set = SLIST_HEAD_INITIALIZER(set);
    struct member *member;
    unsigned long key = __VERIFIER_nondet_ulong();

    while (__VERIFIER_nondet_int()) {
        member = malloc(sizeof(*member));
        if (!member)
            exit(EXIT_FAILURE);
        member->key = __VERIFIER_nondet_ulong();
        SLIST_INSERT_HEAD(&set, member, members);
    }
    SLIST_FOREACH(member, &set, members)
        if (member->key == key)
            break;
    if (member) {
        SLIST_REMOVE(&set, member, member, members);
        free(member);
    }
    while (!SLIST_EMPTY(&set)) {
        member = SLIST_FIRST(&set);
        SLIST_REMOVE_HEAD(&set, members);
        free(member);
    }
    return 0;
}
