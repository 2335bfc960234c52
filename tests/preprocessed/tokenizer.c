/* Cuts a line of a small language into a list of tokens, and checks its brackets. */
#include <ctype.h>
#include <stdbool.h>
#include <stdlib.h>

enum kind { NUMBER, NAME, OPENING, CLOSING, SIGN };

struct token {
    enum kind kind;
    unsigned int from, length;
    struct token *next;
};

struct tokens {
    struct token *first;
    struct token **end;
};

static const char source[] = "total = (price + 2) * (count - offset(7))";

static bool append(struct tokens *tokens, enum kind kind, unsigned int from, unsigned int length)
{
    struct token *token = malloc(sizeof *token);

    if (!token)
        return false;
    token->kind = kind;
    token->from = from;
    token->length = length;
    token->next = NULL;
    *tokens->end = token;
    tokens->end = &token->next;
    return true;
}

static bool tokenize(struct tokens *tokens)
{
    unsigned int at = 0;

    while (source[at]) {
        unsigned int from = at;
        enum kind kind;
        char c = source[at++];

        if (isspace(c))
            continue;
        if (isdigit(c)) {
            kind = NUMBER;
            while (isdigit(source[at]))
                at++;
        } else if (isalpha(c) || c == '_') {
            kind = NAME;
            while (isalnum(source[at]) || source[at] == '_')
                at++;
        } else {
            kind = c == '(' ? OPENING : c == ')' ? CLOSING : SIGN;
        }
        if (!append(tokens, kind, from, at - from))
            return false;
    }
    return true;
}

static bool is_balanced(const struct tokens *tokens)
{
    int depth = 0;

    for (const struct token *token = tokens->first; token; token = token->next) {
        if (token->kind == OPENING)
            depth++;
        else if (token->kind == CLOSING && --depth < 0)
            return false;
    }
    return depth == 0;
}

static void drop(struct tokens *tokens)
{
    struct token *token = tokens->first;

    while (token) {
        struct token *next = token->next;
        free(token);
        token = next;
    }
    tokens->first = NULL;
    tokens->end = &tokens->first;
}

int main(void)
{
    struct tokens tokens = { NULL, &tokens.first };
    bool balanced = tokenize(&tokens) && is_balanced(&tokens);

    drop(&tokens);
    return balanced ? 0 : 1;
}
