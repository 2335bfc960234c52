/* Entries of a log stand in a TAILQ of <sys/queue.h>. The oldest is dropped now and then, and all at the end. */
#include <stdlib.h>
#include <sys/queue.h>

struct entry {
    TAILQ_ENTRY(entry) entries;
    int level;
};

TAILQ_HEAD(log, entry);

extern int __VERIFIER_nondet_int(void);

int main(void)
{
    struct log log = TAILQ_HEAD_INITIALIZER(log);
    struct entry *entry;

    while (__VERIFIER_nondet_int()) {
        entry = malloc(sizeof(struct entry));
        if (!entry) {
            entry = TAILQ_FIRST(&log);
            if (!entry)
                return 1;
            TAILQ_REMOVE(&log, entry, entries);
        }
        entry->level = __VERIFIER_nondet_int();
        TAILQ_INSERT_TAIL(&log, entry, entries);
    }
    while ((entry = TAILQ_FIRST(&log))) {
        TAILQ_REMOVE(&log, entry, entries);
        free(entry);
    }
    return 0;
}
