/* Buffers that an interrupt handler fills, in a ring with barriers of the processor between the index and the data. */
#include <stdlib.h>
#include "list.h"

#define barrier() __asm__ __volatile__("" : : : "memory")
#define smp_wmb() barrier()
#define smp_rmb() __asm__ __volatile__("lfence" ::: "memory")

#define DESCRIPTORS 8

struct descriptor {
	unsigned char *data;
	unsigned int length;
};

struct adapter {
	struct descriptor ring[DESCRIPTORS];
	volatile unsigned int filled;
	unsigned int cleaned;
	struct list_head received;
};

struct frame {
	struct list_head link;
	unsigned char *data;
	unsigned int length;
};

extern unsigned int __VERIFIER_nondet_uint(void);

static int adapter_refill(struct adapter *adapter, unsigned int at)
{
	struct descriptor *descriptor = &adapter->ring[at % DESCRIPTORS];

	descriptor->data = malloc(1536);
	descriptor->length = 0;
	return descriptor->data ? 0 : -1;
}

static int adapter_start(struct adapter *adapter)
{
	INIT_LIST_HEAD(&adapter->received);
	adapter->filled = adapter->cleaned = 0;
	for (unsigned int i = 0; i < DESCRIPTORS; i++)
		if (adapter_refill(adapter, i))
			return -1;
	return 0;
}

static void adapter_interrupt(struct adapter *adapter)
{
	struct descriptor *descriptor = &adapter->ring[adapter->filled % DESCRIPTORS];

	if (adapter->filled - adapter->cleaned == DESCRIPTORS || !descriptor->data)
		return;
	descriptor->length = __VERIFIER_nondet_uint() % 1536;
	smp_wmb();
	adapter->filled++;
}

static void adapter_clean(struct adapter *adapter)
{
	while (adapter->cleaned != adapter->filled) {
		struct descriptor *descriptor = &adapter->ring[adapter->cleaned % DESCRIPTORS];
		struct frame *frame = malloc(sizeof(*frame));

		if (!frame)
			return;
		smp_rmb();
		frame->data = descriptor->data;
		frame->length = descriptor->length;
		list_add_tail(&frame->link, &adapter->received);
		adapter_refill(adapter, adapter->cleaned++);
	}
}

static void adapter_stop(struct adapter *adapter)
{
	struct frame *frame, *after;

	list_for_each_entry_safe(frame, after, &adapter->received, link) {
		list_del(&frame->link);
		free(frame->data);
		free(frame);
	}
	for (int i = 0; i < DESCRIPTORS; i++)
		free(adapter->ring[i].data);
}

int main(void)
{
	static struct adapter adapter;

	if (adapter_start(&adapter) == 0)
		while (__VERIFIER_nondet_uint() % 2) {
			adapter_interrupt(&adapter);
			adapter_clean(&adapter);
		}
	adapter_stop(&adapter);
	return 0;
}
