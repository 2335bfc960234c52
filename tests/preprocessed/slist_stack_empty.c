/* As slist_stack.c, but a pop does not ask whether the stack is empty. */
#include <stdlib.h>
#include <sys/queue.h>

struct frame {
    SLIST_ENTRY(frame) below;
    long value;
};

SLIST_HEAD(stack, frame);

extern int __VERIFIER_nondet_int(void);
extern long __VERIFIER_nondet_long(void);

int main(void)
{
    struct stack stack = SLIST_HEAD_INITIALIZER(stack);
    struct frame *frame;

    while (__VERIFIER_nondet_int()) {
        if (__VERIFIER_nondet_int()) {
            frame = malloc(sizeof(struct frame));
            if (frame == NULL)
                break;
            frame->value = __VERIFIER_nondet_long();
            SLIST_INSERT_HEAD(&stack, frame, below);
        } else {
            frame = SLIST_FIRST(&stack);
            SLIST_REMOVE_HEAD(&stack, below);
            free(frame);
        }
    }
    while (!SLIST_EMPTY(&stack)) {
        frame = SLIST_FIRST(&stack);
        SLIST_REMOVE_HEAD(&stack, below);
        free(frame);
    }
    return 0;
}
