/* A hash table of words with chains. */
#include <assert.h>
#include <stdlib.h>
#include <string.h>

#define BUCKETS 32
#define LONGEST 15

struct entry {
    struct entry *next;
    unsigned hash;
    char word[LONGEST + 1];
    int count;
};

struct table {
    struct entry *buckets[BUCKETS];
    size_t used;
};

static unsigned hash_of(const char *word)
{
    unsigned hash = 5381u;

    while (*word)
        hash = (hash << 5) + hash + (unsigned char)*word++;
    return hash;
}

static struct entry **find(struct table *table, const char *word)
{
    unsigned index = hash_of(word) % BUCKETS;
    struct entry **place = &table->buckets[index];

    while (*place && strcmp((*place)->word, word) != 0)
        place = &(*place)->next;
    return place;
}

static int add(struct table *table, const char *word)
{
    struct entry **place = find(table, word), *entry = *place;

    if (entry == NULL) {
        entry = malloc(sizeof *entry);
        if (entry == NULL)
            return 0;
        entry->next = NULL;
        entry->hash = hash_of(word);
        strncpy(entry->word, word, LONGEST);
        entry->word[LONGEST] = '\0';
        entry->count = 0;
        *place = entry;
        table->used++;
    }
    return ++entry->count;
}

static int take_out(struct table *table, const char *word)
{
    struct entry **place = find(table, word), *entry = *place;

    if (!entry)
        return 0;
    *place = entry->next;
    table->used -= 1;
    free(entry);
    return 1;
}

static void clear(struct table *table)
{
    for (int i = 0; i < BUCKETS; i++) {
        struct entry *entry = table->buckets[i], *next;

        for (; entry; entry = next) {
            next = entry->next;
            free(entry);
        }
        table->buckets[i] = NULL;
    }
    table->used = 0;
}

int main(void)
{
    struct table table = { { NULL }, 0 };

    assert(table.used == 0);
    add(&table, "alpha");
    add(&table, "beta");
    add(&table, "alpha");
    assert(table.used == 2);
    if (take_out(&table, "alpha") && (*find(&table, "beta"))->count != 1)
        return 1;
    clear(&table);
    return 0;
}
