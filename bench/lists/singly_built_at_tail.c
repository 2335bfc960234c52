struct node { struct node *next; int n; };
int main(void) {
  struct node *head = 0, **tail = &head;
  while (__VERIFIER_nondet_int()) {
    struct node *fresh = malloc(sizeof *fresh);
    if (!fresh) abort();
    fresh->next = 0;
    *tail = fresh;
    tail = &fresh->next;
  }
  while (head) {
    struct node *next = head->next;
    free(head);
    head = next;
  }
  return 0;
}
