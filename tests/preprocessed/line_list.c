/* Reads the lines of a text into a list, and writes them in reverse order. */
#include <stdio.h>
#include <stdlib.h>
#include <string.h>

struct line {
    struct line *before;
    size_t length;
    char text[120];
};

static struct line *line_of(FILE *file)
{
    struct line *line = malloc(sizeof(struct line));

    if (line == NULL)
        return NULL;
    if (fgets(line->text, sizeof line->text, file) == NULL) {
        free(line);
        return NULL;
    }
    line->length = strlen(line->text);
    return line;
}

static struct line *read_lines(FILE *file)
{
    struct line *last = NULL, *line;

    while ((line = line_of(file)) != NULL) {
        line->before = last;
        last = line;
    }
    return last;
}

static int write_lines(struct line *line, FILE *file)
{
    for (; line; line = line->before)
        if (line->length > 1 && fputs(line->text, file) == EOF)
            return 0;
    return 1;
}

static void drop(struct line *line)
{
    while (line) {
        struct line *before = line->before;
        free(line);
        line = before;
    }
}

int main(void)
{
    struct line *lines = read_lines(stdin);
    int written = write_lines(lines, stdout);

    drop(lines);
    return written ? EXIT_SUCCESS : EXIT_FAILURE;
}
