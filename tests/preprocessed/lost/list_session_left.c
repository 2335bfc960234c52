/* As list_sessions.c, but the session that is closed stays on the list. */
#include <stdlib.h>
#include <sys/queue.h>

struct session {
    LIST_ENTRY(session) open;
    int user;
};

LIST_HEAD(sessions, session);

static struct sessions all = LIST_HEAD_INITIALIZER(all);

extern int __VERIFIER_nondet_int(void);

int main(void)
{
    struct session *session;
    int user = __VERIFIER_nondet_int();

    while (__VERIFIER_nondet_int()) {
        session = malloc(sizeof(struct session));
        if (!session)
            abort();
        session->user = __VERIFIER_nondet_int();
        LIST_INSERT_HEAD(&all, session, open);
    }
    LIST_FOREACH(session, &all, open)
        if (session->user == user)
            break;
    if (session)
        free(session);
    while ((session = LIST_FIRST(&all)) != NULL) {
        LIST_REMOVE(session, open);
        free(session);
    }
    return 0;
}
