struct node { struct node *next; int n; };
int main(void) {
  struct node *head = 0;
  int count = 0;
  while (__VERIFIER_nondet_int()) {
    struct node *fresh = malloc(sizeof *fresh);
    if (!fresh) abort();
    fresh->next = head;
    fresh->n = __VERIFIER_nondet_int();
    head = fresh;
  }
  for (struct node *at = head; at; at = at->next) count = count + at->n;
  while (head) {
    struct node *next = head->next;
    free(head);
    head = next;
  }
  return 0;
}
