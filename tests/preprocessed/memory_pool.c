/* A pool of blocks in a static array, with a list of those that are free, and a queue of packets that live in it. */
#include <assert.h>
#include <stddef.h>
#include <stdlib.h>

#define BLOCKS     32
#define BLOCK_SIZE 48

struct block {
    struct block *next;
    unsigned char bytes[BLOCK_SIZE];
};

struct pool {
    struct block blocks[BLOCKS];
    struct block *unused;
    int left;
};

struct packet {
    struct packet *next;
    unsigned short length;
    unsigned char data[32];
};

struct queue {
    struct packet *head, **tail;
};

static struct pool pool;

extern int __VERIFIER_nondet_int(void);
extern unsigned short __VERIFIER_nondet_ushort(void);
extern unsigned char __VERIFIER_nondet_uchar(void);

static void pool_init(void)
{
    pool.unused = NULL;
    for (int i = BLOCKS; i-- > 0;) {
        pool.blocks[i].next = pool.unused;
        pool.unused = pool.blocks + i;
    }
    pool.left = BLOCKS;
}

static void *pool_take(void)
{
    struct block *block = pool.unused;

    if (!block)
        return NULL;
    pool.unused = block->next;
    block->next = NULL;
    pool.left--;
    return &block->bytes[0];
}

static void pool_give(void *bytes)
{
    struct block *block = (struct block *)((char *)bytes - offsetof(struct block, bytes));

    assert(block->next == NULL);
    block->next = pool.unused;
    pool.unused = block;
    pool.left++;
}

static void queue_init(struct queue *queue)
{
    queue->head = NULL;
    queue->tail = &queue->head;
}

static struct packet *receive(void)
{
    struct packet *packet = pool_take();

    if (packet) {
        packet->next = NULL;
        packet->length = __VERIFIER_nondet_ushort() % sizeof packet->data;
        for (unsigned i = 0; i < packet->length; i++)
            packet->data[i] = __VERIFIER_nondet_uchar();
    }
    return packet;
}

static void enqueue(struct queue *queue, struct packet *packet)
{
    *queue->tail = packet;
    queue->tail = &packet->next;
}

static struct packet *dequeue(struct queue *queue)
{
    struct packet *packet = queue->head;

    if (packet && !(queue->head = packet->next))
        queue->tail = &queue->head;
    return packet;
}

int main(void)
{
    struct queue queue;
    struct packet *packet;

    pool_init();
    queue_init(&queue);
    while (__VERIFIER_nondet_int()) {
        if ((packet = receive()))
            enqueue(&queue, packet);
        if (__VERIFIER_nondet_int() && (packet = dequeue(&queue)))
            pool_give(packet);
    }
    while ((packet = dequeue(&queue)) != NULL)
        pool_give(packet);
    assert(pool.left == BLOCKS);
    return EXIT_SUCCESS;
}
