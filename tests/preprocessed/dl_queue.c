/* A queue on a doubly linked list of utlist.h, whose first item leads to the last one. */
#include <stdlib.h>
#include <utlist.h>

struct message {
    int kind;
    struct message *prev, *next;
};

extern int __VERIFIER_nondet_int(void);

int main(void)
{
    struct message *queue = NULL, *message;

    while (__VERIFIER_nondet_int()) {
        message = malloc(sizeof(struct message));
        if (!message)
            break;
        message->kind = __VERIFIER_nondet_int();
        DL_APPEND(queue, message);
    }
    while (queue) {
        message = queue;
        DL_DELETE(queue, message);
        free(message);
    }
    return 0;
}
