/* The entries of a log are freed inside TAILQ_FOREACH. */
#include <stdlib.h>
#include <sys/queue.h>

struct entry {
    TAILQ_ENTRY(entry) entries;
    int level;
};

TAILQ_HEAD(log, entry);

extern int __VERIFIER_nondet_int(void);

int main(void)
{
    struct log log;
    struct entry *entry;

    TAILQ_INIT(&log);
    while (__VERIFIER_nondet_int()) {
        entry = malloc(sizeof(struct entry));
        if (!entry)
            abort();
        entry->level = __VERIFIER_nondet_int();
        TAILQ_INSERT_TAIL(&log, entry, entries);
    }
    TAILQ_FOREACH(entry, &log, entries)
        free(entry);
    return 0;
}
