/* A trie of words over two letters; what is taken for a moment is freed where its scope ends. */
#include <stdbool.h>
#include <stdlib.h>

struct trie {
    struct trie *next[2];
    bool is_end;
};

struct path {
    unsigned char letters[8];
    unsigned int length;
};

static inline void free_path(struct path **path)
{
    free(*path);
}

#define scoped_path __attribute__((cleanup(free_path))) struct path *

extern unsigned int __VERIFIER_nondet_uint(void);

static struct path *path_of(unsigned int bits)
{
    struct path *path = calloc(1, sizeof(struct path));

    if (!path)
        return NULL;
    for (; bits > 1 && path->length < 8; bits >>= 1)
        path->letters[path->length++] = bits & 1;
    return path;
}

static bool insert(struct trie *trie, unsigned int bits)
{
    scoped_path path = path_of(bits);

    if (!path)
        return false;
    for (unsigned int i = 0; i < path->length; i++) {
        struct trie **next = &trie->next[path->letters[i]];

        if (!*next && !(*next = calloc(1, sizeof(struct trie))))
            return false;
        trie = *next;
    }
    trie->is_end = true;
    return true;
}

static unsigned int count(const struct trie *trie)
{
    return trie ? trie->is_end + count(trie->next[0]) + count(trie->next[1]) : 0;
}

static void drop(struct trie *trie)
{
    if (trie) {
        drop(trie->next[0]);
        drop(trie->next[1]);
        free(trie);
    }
}

int main(void)
{
    struct trie *trie = calloc(1, sizeof(struct trie));
    unsigned int inserted = 0;

    if (!trie)
        return 1;
    for (int i = 0; i < 10; i++)
        if (insert(trie, __VERIFIER_nondet_uint()))
            inserted++;
    if (count(trie) > inserted)
        abort();
    drop(trie);
    return 0;
}
