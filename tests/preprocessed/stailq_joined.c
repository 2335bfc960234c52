/* What waits in a second STAILQ of <sys/queue.h> is put behind the first by STAILQ_CONCAT. */
#include <stdlib.h>
#include <sys/queue.h>

struct packet {
    int length;
    STAILQ_ENTRY(packet) packets;
};

STAILQ_HEAD(packet_queue, packet);

extern int __VERIFIER_nondet_int(void);

int main(void)
{
    struct packet_queue urgent, usual;
    struct packet *packet, *next;

    STAILQ_INIT(&urgent);
    STAILQ_INIT(&usual);
    while (__VERIFIER_nondet_int()) {
        packet = malloc(sizeof(struct packet));
        if (packet == NULL)
            abort();
        packet->length = 0;
        STAILQ_INSERT_TAIL(&urgent, packet, packets);
    }
    while (__VERIFIER_nondet_int()) {
        packet = malloc(sizeof(struct packet));
        if (packet == NULL)
            abort();
        packet->length = 0;
        STAILQ_INSERT_HEAD(&usual, packet, packets);
    }
    STAILQ_CONCAT(&urgent, &usual);
    packet = STAILQ_FIRST(&urgent);
    while (packet != NULL) {
        next = STAILQ_NEXT(packet, packets);
        free(packet);
        packet = next;
    }
    return 0;
}
