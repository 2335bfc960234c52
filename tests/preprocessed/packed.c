/* Reads the packets of a wire format into a list of messages. */
#include <stdint.h>
#include <stdlib.h>
#include <string.h>

#define MAGIC 0x5a17u

struct header {
    uint16_t magic;
    uint8_t kind;
    uint32_t length;
} __attribute__((packed));

struct message {
    struct header header;
    struct message *next;
    unsigned char body[64];
};

static int parse(const unsigned char *bytes, size_t size, struct message *message)
{
    if (size < sizeof message->header)
        return -1;
    memcpy(&message->header, bytes, sizeof(struct header));
    if (message->header.magic != MAGIC || message->header.length > 64)
        return -1;
    if (size - sizeof(struct header) < message->header.length)
        return -1;
    memset(message->body, 0, sizeof message->body);
    for (uint32_t i = 0; i < message->header.length; i++)
        message->body[i] = bytes[sizeof(struct header) + i];
    return 0;
}

static struct message *read_all(const unsigned char *bytes, size_t size)
{
    struct message *messages = NULL;

    while (size > 0) {
        struct message *message = malloc(sizeof(struct message));

        if (!message)
            break;
        if (parse(bytes, size, message) < 0) {
            free(message);
            break;
        }
        size -= sizeof(struct header) + message->header.length;
        bytes += sizeof(struct header) + message->header.length;
        message->next = messages;
        messages = message;
    }
    return messages;
}

int main(void)
{
    static const unsigned char wire[] = { 0x17, 0x5a, 1, 2, 0, 0, 0, 'o', 'k', 0x17, 0x5a, 2, 0, 0, 0, 0 };
    struct message *messages = read_all(wire, sizeof wire);

    while (messages) {
        struct message *next = messages->next;
        free(messages);
        messages = next;
    }
    return 0;
}
