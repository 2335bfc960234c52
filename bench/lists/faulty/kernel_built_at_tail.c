struct list_head { struct list_head *next, *prev; };
struct item { int n; struct list_head link; };
int main(void) {
  struct list_head head;
  head.next = &head;
  head.prev = &head;
  while (__VERIFIER_nondet_int()) {
    struct item *fresh = malloc(sizeof *fresh);
    if (!fresh) break;
    struct list_head *link = &fresh->link;
    link->prev = head.prev;
    link->next = &head;
    head.prev->next = link;
    head.prev = link;
  }
  struct list_head *at = head.next;
  while (at != &head) {
    struct list_head *next = at->next;
    free((struct item *)((char *)at - __builtin_offsetof(struct item, link)));
    at = at->next;
  }
  return 0;
}
