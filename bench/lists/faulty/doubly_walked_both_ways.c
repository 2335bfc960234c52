struct node { struct node *next; struct node *prev; };
int main(void) {
  struct node *head = 0, *tail = 0;
  while (__VERIFIER_nondet_int()) {
    struct node *fresh = malloc(sizeof *fresh);
    if (!fresh) break;
    fresh->prev = tail;
    fresh->next = 0;
    if (tail) tail->next = fresh; else head = fresh;
    tail = fresh;
  }
  for (struct node *at = head; at; at = at->next) ;
  for (struct node *at = tail; at; at = at->prev) ;
  while (head) {
    struct node *next = head->next;
    free(tail);
    head = next;
  }
  return 0;
}
