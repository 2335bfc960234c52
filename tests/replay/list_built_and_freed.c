void *malloc(unsigned long);
void free(void *);
void exit(int);
int __VERIFIER_nondet_int(void);
struct node { struct node *next; int value; };
int main(void) {
  struct node *first = 0;
  int sum = 0, total = 0;
  while (__VERIFIER_nondet_int()) {
    struct node *node = malloc(sizeof *node);
    if (!node) exit(1);
    node->value = __VERIFIER_nondet_int();
    total += node->value;
    node->next = first;
    first = node;
  }
  while (first) {
    struct node *next = first->next;
    sum += first->value;
    free(first);
    first = next;
  }
  if (sum != total) *(int *)0 = 1;
  return 0;
}
