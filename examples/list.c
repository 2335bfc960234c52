struct node { struct node *next; };
int main(void) {
  struct node *first = 0;
  while (__VERIFIER_nondet_int()) {
    struct node *node = malloc(sizeof *node);
    if (!node) exit(1);
    node->next = first;
    first = node;
  }
  while (first) {
    free(first);
    first = first->next;
  }
  return 0;
}
