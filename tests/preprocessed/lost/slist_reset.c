/* A pool is made empty by SLIST_INIT, which forgets what stood in it. */
#include <stdlib.h>
#include <sys/queue.h>

struct buffer {
    SLIST_ENTRY(buffer) next;
    char bytes[64];
};

SLIST_HEAD(pool, buffer);

extern int __VERIFIER_nondet_int(void);

int main(void)
{
    struct pool pool = SLIST_HEAD_INITIALIZER(pool);
    struct buffer *buffer;

    while (__VERIFIER_nondet_int()) {
        buffer = malloc(sizeof(struct buffer));
        if (!buffer)
            break;
        buffer->bytes[0] = 0;
        SLIST_INSERT_HEAD(&pool, buffer, next);
    }
    buffer = SLIST_FIRST(&pool);
    if (buffer)
        buffer->bytes[63] = 1;
    SLIST_INIT(&pool);
    buffer = NULL;
    return 0;
}
