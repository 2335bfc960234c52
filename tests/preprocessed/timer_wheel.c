/* A timer wheel: each slot has a list of the timers that expire in it. */
#include <stdbool.h>
#include <stdlib.h>
#include "list.h"

#define SLOTS 16U
#define ROUND(ticks) ((ticks) / SLOTS)

extern unsigned int __VERIFIER_nondet_uint(void);
extern _Bool __VERIFIER_nondet_bool(void);

struct timer {
	struct list_head slot;
	unsigned int rounds;
	unsigned int again;
};

struct wheel {
	struct list_head slots[SLOTS];
	unsigned int now;
	unsigned int pending;
};

static struct wheel wheel;

static void wheel_start(void)
{
	for (unsigned int i = 0; i < SLOTS; i++)
		INIT_LIST_HEAD(&wheel.slots[i]);
}

static void timer_set(struct timer *timer, unsigned int ticks)
{
	timer->rounds = ROUND(ticks);
	list_add_tail(&timer->slot, &wheel.slots[(wheel.now + ticks) % SLOTS]);
	wheel.pending++;
}

static bool timer_new(unsigned int ticks, unsigned int again)
{
	struct timer *timer = malloc(sizeof(*timer));

	if (!timer)
		return false;
	timer->again = again;
	timer_set(timer, ticks);
	return true;
}

static void timer_expire(struct timer *timer)
{
	list_del_init(&timer->slot);
	wheel.pending--;
	if (timer->again) {
		unsigned int again = timer->again;

		timer->again = 0;
		timer_set(timer, again);
	} else {
		free(timer);
	}
}

static void wheel_tick(void)
{
	LIST_HEAD(due);
	struct timer *timer, *after;

	wheel.now++;
	list_splice_init(&wheel.slots[wheel.now % SLOTS], &due);
	list_for_each_entry_safe(timer, after, &due, slot) {
		if (timer->rounds == 0) {
			timer_expire(timer);
		} else {
			timer->rounds--;
			list_move(&timer->slot, &wheel.slots[wheel.now % SLOTS]);
		}
	}
}

static void wheel_stop(void)
{
	for (unsigned int i = 0; i < SLOTS; i++)
		while (!list_empty(&wheel.slots[i])) {
			struct timer *timer = list_first_entry(&wheel.slots[i], struct timer, slot);

			list_del_init(&timer->slot);
			free(timer);
		}
}

int main(void)
{
	wheel_start();
	while (__VERIFIER_nondet_bool()) {
		if (__VERIFIER_nondet_bool() && !timer_new(1 + __VERIFIER_nondet_uint() % 64, __VERIFIER_nondet_uint() % 32))
			break;
		wheel_tick();
	}
	wheel_stop();
	return 0;
}
