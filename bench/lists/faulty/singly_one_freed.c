struct node { struct node *next; int n; };
int main(void) {
  struct node *head = 0;
  while (__VERIFIER_nondet_int()) {
    struct node *fresh = malloc(sizeof *fresh);
    if (!fresh) abort();
    fresh->next = head;
    head = fresh;
  }
  struct node **at = &head;
  while (*at && __VERIFIER_nondet_int()) at = &(*at)->next;
  if (*at) {
    struct node *gone = *at;
    at = &gone->next;
    free(gone);
  }
  while (head) {
    struct node *next = head->next;
    free(head);
    head = next;
  }
  return 0;
}
