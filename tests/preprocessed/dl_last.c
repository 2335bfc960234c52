/* The last message of a doubly linked list of utlist.h is asked for, which the first one leads to, where there may be none. */
#include <stdlib.h>
#include <utlist.h>

struct message {
    int kind;
    struct message *prev, *next;
};

extern int __VERIFIER_nondet_int(void);

int main(void)
{
    struct message *queue = NULL, *message;
    int kind;

    while (__VERIFIER_nondet_int()) {
        message = malloc(sizeof(struct message));
        if (!message)
            break;
        message->kind = __VERIFIER_nondet_int();
        DL_PREPEND(queue, message);
    }
    kind = queue->prev->kind;
    while (queue) {
        message = queue;
        DL_DELETE(queue, message);
        free(message);
    }
    return kind;
}
