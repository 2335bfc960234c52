struct entry { struct { struct entry *le_next; struct entry **le_prev; } link; int n; };
int main(void) {
  struct { struct entry *lh_first; } head;
  head.lh_first = 0;
  while (__VERIFIER_nondet_int()) {
    struct entry *fresh = malloc(sizeof *fresh);
    if (!fresh) break;
    if ((fresh->link.le_next = head.lh_first) != 0) head.lh_first->link.le_prev = &fresh->link.le_next;
    head.lh_first = fresh;
    fresh->link.le_prev = &head.lh_first;
  }
  while (head.lh_first) {
    struct entry *gone = head.lh_first;
    if (gone->link.le_next) gone->link.le_next->link.le_prev = gone->link.le_prev;
    *gone->link.le_prev = gone->link.le_next;
    free(gone);
  }
  return 0;
}
