struct node { struct node *next; int n; };
int main(void) {
  struct node *head = 0, *back = 0;
  while (__VERIFIER_nondet_int()) {
    struct node *fresh = malloc(sizeof *fresh);
    if (!fresh) abort();
    fresh->next = head;
    head = fresh;
  }
  while (head) {
    struct node *next = head->next;
    head->next = back;
    back = head;
    head = next;
  }
  while (back) {
    struct node *next = back->next;
    free(back);
    back = next;
  }
  return 0;
}
