/* A queue that is shared by threads: a mutex guards it, and a condition says that something is there. */
#include <pthread.h>
#include <stdlib.h>

struct item {
    struct item *next;
    int number;
};

struct queue {
    pthread_mutex_t mutex;
    pthread_cond_t is_filled;
    struct item *head;
    struct item **tail;
    int is_closed;
};

static void queue_init(struct queue *queue)
{
    pthread_mutex_init(&queue->mutex, NULL);
    pthread_cond_init(&queue->is_filled, NULL);
    queue->head = NULL;
    queue->tail = &queue->head;
    queue->is_closed = 0;
}

static int queue_put(struct queue *queue, int number)
{
    struct item *item = malloc(sizeof(*item));

    if (!item)
        return -1;
    item->number = number;
    item->next = NULL;
    pthread_mutex_lock(&queue->mutex);
    *queue->tail = item;
    queue->tail = &item->next;
    pthread_cond_signal(&queue->is_filled);
    pthread_mutex_unlock(&queue->mutex);
    return 0;
}

static struct item *queue_take(struct queue *queue)
{
    struct item *item;

    pthread_mutex_lock(&queue->mutex);
    while (!queue->head && !queue->is_closed)
        pthread_cond_wait(&queue->is_filled, &queue->mutex);
    item = queue->head;
    if (item) {
        queue->head = item->next;
        if (!queue->head)
            queue->tail = &queue->head;
    }
    pthread_mutex_unlock(&queue->mutex);
    return item;
}

static void queue_close(struct queue *queue)
{
    pthread_mutex_lock(&queue->mutex);
    queue->is_closed = 1;
    pthread_cond_broadcast(&queue->is_filled);
    pthread_mutex_unlock(&queue->mutex);
}

static void *consume(void *argument)
{
    struct queue *queue = argument;
    struct item *item;

    while ((item = queue_take(queue)))
        free(item);
    return NULL;
}

int main(void)
{
    struct queue queue;
    pthread_t consumer;

    queue_init(&queue);
    if (pthread_create(&consumer, NULL, consume, &queue))
        return 1;
    for (int i = 0; i < 10; i++)
        if (queue_put(&queue, i))
            break;
    queue_close(&queue);
    pthread_join(consumer, NULL);
    return 0;
}
