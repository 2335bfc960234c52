/* A ring of bytes between a producer and a consumer, with the `min` of the Linux kernel. */
#include <stdbool.h>
#include <stdint.h>
#include <stdlib.h>

#define min(x, y) ({			\
	typeof(x) _min1 = (x);		\
	typeof(y) _min2 = (y);		\
	(void) (&_min1 == &_min2);	\
	_min1 < _min2 ? _min1 : _min2; })

#define RING_SIZE 64u

struct ring {
	uint8_t *bytes;
	uint32_t in, out;
};

extern uint8_t __VERIFIER_nondet_uchar(void);
extern uint32_t __VERIFIER_nondet_uint(void);
extern bool __VERIFIER_nondet_bool(void);

static inline uint32_t ring_used(const struct ring *ring)
{
	return ring->in - ring->out;
}

static inline uint32_t ring_room(const struct ring *ring)
{
	return RING_SIZE - ring_used(ring);
}

static bool ring_new(struct ring *ring)
{
	ring->bytes = malloc(RING_SIZE);
	ring->in = ring->out = 0;
	return ring->bytes != NULL;
}

static uint32_t ring_write(struct ring *ring, const uint8_t *from, uint32_t length)
{
	uint32_t count = min(length, ring_room(ring));

	for (uint32_t i = 0; i < count; i++)
		ring->bytes[(ring->in + i) & (RING_SIZE - 1)] = from[i];
	ring->in += count;
	return count;
}

static uint32_t ring_read(struct ring *ring, uint8_t *to, uint32_t length)
{
	uint32_t count = min(length, ring_used(ring));

	for (uint32_t i = 0; i < count; i++)
		*to++ = ring->bytes[(ring->out + i) % RING_SIZE];
	ring->out += count;
	return count;
}

static void ring_free(struct ring *ring)
{
	free(ring->bytes);
	ring->bytes = NULL;
}

int main(void)
{
	struct ring ring;
	uint8_t message[16];
	uint32_t written = 0, read = 0;

	if (!ring_new(&ring))
		return EXIT_FAILURE;
	do {
		for (unsigned i = 0; i < sizeof(message); i++)
			message[i] = __VERIFIER_nondet_uchar();
		written += ring_write(&ring, message, __VERIFIER_nondet_uint() % sizeof(message));
		read += ring_read(&ring, message, sizeof(message) / 2);
	} while (__VERIFIER_nondet_bool());
	while (ring_used(&ring) > 0)
		read += ring_read(&ring, message, sizeof(message));
	ring_free(&ring);
	return written == read ? EXIT_SUCCESS : EXIT_FAILURE;
}
