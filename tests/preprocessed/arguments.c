/* Puts the words that the program was started with into a list, the options first. */
#include <stdlib.h>

struct word {
    char *text;
    struct word *next;
};

struct words {
    struct word *first, **end;
};

static void words_init(struct words *words)
{
    words->first = NULL;
    words->end = &words->first;
}

static int words_add(struct words *words, char *text)
{
    struct word *word = malloc(sizeof *word);

    if (!word)
        return -1;
    word->text = text;
    word->next = NULL;
    *words->end = word;
    words->end = &word->next;
    return 0;
}

static void words_join(struct words *words, struct words *others)
{
    *words->end = others->first;
    if (others->first)
        words->end = others->end;
    words_init(others);
}

static void words_drop(struct words *words)
{
    struct word *word = words->first;

    while (word) {
        struct word *next = word->next;
        free(word);
        word = next;
    }
    words_init(words);
}

int main(int argc, char *argv[])
{
    struct words options, others;
    int result = 0;

    words_init(&options);
    words_init(&others);
    for (int i = 1; i < argc && !result; i++)
        result = words_add(argv[i][0] == '-' ? &options : &others, argv[i]);
    words_join(&options, &others);
    words_drop(&options);
    return result ? EXIT_FAILURE : EXIT_SUCCESS;
}
