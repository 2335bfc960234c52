struct list_head { struct list_head *next, *prev; };
struct item { int number; struct list_head link; };

int main(void) {
  struct list_head head;
  head.next = &head;
  head.prev = &head;
  while (__VERIFIER_nondet_int()) {
    struct item *fresh = malloc(sizeof *fresh);
    if (!fresh) break;
    struct list_head *link = &fresh->link;
    link->next = head.next;
    link->prev = &head;
    head.next->prev = link;
    head.next = link;
  }
  while (head.next != &head) {
    struct list_head *link = head.next;
    link->next->prev = link->prev;
    link->prev->next = link->next;
    free((struct item *)((char *)link - __builtin_offsetof(struct item, link)));
  }
  return 0;
}
