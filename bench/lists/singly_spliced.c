struct node { struct node *next; int n; };
int main(void) {
  struct node *one = 0, *other = 0;
  while (__VERIFIER_nondet_int()) {
    struct node *fresh = malloc(sizeof *fresh);
    if (!fresh) abort();
    fresh->next = one;
    one = fresh;
  }
  while (__VERIFIER_nondet_int()) {
    struct node *fresh = malloc(sizeof *fresh);
    if (!fresh) abort();
    fresh->next = other;
    other = fresh;
  }
  struct node **at = &one;
  while (*at) at = &(*at)->next;
  *at = other;
  while (one) {
    struct node *next = one->next;
    free(one);
    one = next;
  }
  return 0;
}
