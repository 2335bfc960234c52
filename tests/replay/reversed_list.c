void *malloc(unsigned long);
void free(void *);
int __VERIFIER_nondet_int(void);
struct node { struct node *next; int value; };
int main(void) {
  struct node *first = 0, *turned = 0;
  int expected = 0;
  for (int count = 0; count < 3; count++) {
    struct node *node = malloc(sizeof(struct node));
    if (!node) {
      while (first) {
        node = first->next;
        free(first);
        first = node;
      }
      return 1;
    }
    node->value = count;
    node->next = first;
    first = node;
  }
  while (first) {
    struct node *next = first->next;
    first->next = turned;
    turned = first;
    first = next;
  }
  for (struct node *node = turned; node; node = node->next) {
    if (node->value != expected++) *(int *)0 = 1;
  }
  do {
    struct node *next = turned->next;
    free(turned);
    turned = next;
  } while (turned);
  return 0;
}
