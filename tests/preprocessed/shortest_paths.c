/* A graph by lists of edges, and the number of steps from its first node to each other one. */
#include <stdio.h>
#include <stdlib.h>

struct edge {
    int to;
    struct edge *next;
};

struct graph {
    int count;
    struct edge **edges;
};

extern int __VERIFIER_nondet_int(void);

static int graph_init(struct graph *graph, int count)
{
    graph->count = count;
    graph->edges = calloc(16, sizeof(struct edge *));
    return graph->edges ? 0 : -1;
}

static int graph_connect(struct graph *graph, int from, int to)
{
    struct edge *edge = malloc(sizeof(struct edge));

    if (!edge)
        return -1;
    edge->to = to;
    edge->next = graph->edges[from];
    graph->edges[from] = edge;
    return 0;
}

static int farthest(const struct graph *graph)
{
    int steps[graph->count], queue[graph->count];
    int head = 0, tail = 0, last = 0;

    for (int node = 0; node < graph->count; node++)
        steps[node] = -1;
    steps[0] = 0;
    queue[tail++] = 0;
    while (head < tail) {
        int node = queue[head++];

        last = steps[node];
        for (struct edge *edge = graph->edges[node]; edge; edge = edge->next)
            if (steps[edge->to] < 0) {
                steps[edge->to] = last + 1;
                queue[tail++] = edge->to;
            }
    }
    return last;
}

static void graph_drop(struct graph *graph)
{
    for (int node = 0; node < graph->count; node++)
        while (graph->edges[node]) {
            struct edge *edge = graph->edges[node];

            graph->edges[node] = edge->next;
            free(edge);
        }
    free(graph->edges);
}

int main(void)
{
    struct graph graph;
    int steps;

    if (graph_init(&graph, 16))
        return 1;
    for (int i = 0; i < 40; i++) {
        int from = __VERIFIER_nondet_int(), to = __VERIFIER_nondet_int();

        if (from >= 0 && from < 16 && to >= 0 && to < 16 && graph_connect(&graph, from, to))
            break;
    }
    steps = farthest(&graph);
    graph_drop(&graph);
    return steps > 15;
}
