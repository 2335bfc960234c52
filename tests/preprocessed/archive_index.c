/* The index of an archive: headers as they stand in the file, and a sorted list of the entries that are made of them. */
#include <stdint.h>
#include <stdlib.h>
#include <string.h>

struct entry {
    struct entry *next;
    uint64_t offset;
    uint32_t size;
};

#pragma pack(push, 1)
struct disk_header {
    uint8_t kind;
    uint32_t size;
    uint64_t offset;
};
#pragma pack(pop)

struct index {
    struct entry *entries;
    unsigned count;
};

#define HEADERS 4

static const uint8_t image[HEADERS * 13] = {
    1, 16, 0, 0, 0, 0, 4, 0, 0, 0, 0, 0, 0,
    1, 32, 0, 0, 0, 0, 2, 0, 0, 0, 0, 0, 0,
    0, 99, 0, 0, 0, 0, 9, 0, 0, 0, 0, 0, 0,
    1, 64, 0, 0, 0, 0, 3, 0, 0, 0, 0, 0, 0,
};

static int index_add(struct index *index, const struct disk_header *header)
{
    struct entry **place = &index->entries;
    struct entry *entry = malloc(sizeof(struct entry));

    if (!entry)
        return -1;
    entry->offset = header->offset;
    entry->size = header->size;
    while (*place && (*place)->offset < entry->offset)
        place = &(*place)->next;
    entry->next = *place;
    *place = entry;
    index->count++;
    return 0;
}

static int index_read(struct index *index)
{
    struct disk_header header;

    for (size_t at = 0; at < sizeof image; at += sizeof header) {
        memcpy(&header, image + at, sizeof header);
        if (header.kind == 1 && index_add(index, &header) < 0)
            return -1;
    }
    return 0;
}

static void index_drop(struct index *index)
{
    while (index->entries) {
        struct entry *entry = index->entries;
        index->entries = entry->next;
        free(entry);
    }
    index->count = 0;
}

int main(void)
{
    struct index index = { NULL, 0 };
    int result = index_read(&index);

    for (struct entry *entry = index.entries; entry && entry->next; entry = entry->next)
        if (entry->offset > entry->next->offset)
            abort();
    index_drop(&index);
    return result ? 1 : 0;
}
