/* As ll_words.c, but by LL_FOREACH, which goes on from the word that was freed. */
#include <stdlib.h>
#include <utlist.h>

struct word {
    char letters[8];
    struct word *next;
};

extern int __VERIFIER_nondet_int(void);
extern char __VERIFIER_nondet_char(void);

int main(void)
{
    struct word *words = NULL, *word;

    while (__VERIFIER_nondet_int()) {
        word = calloc(1, sizeof(*word));
        if (!word)
            break;
        word->letters[0] = __VERIFIER_nondet_char();
        LL_PREPEND(words, word);
    }
    LL_FOREACH(words, word) {
        LL_DELETE(words, word);
        free(word);
    }
    return 0;
}
