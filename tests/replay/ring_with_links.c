void *malloc(unsigned long);
void free(void *);
struct link { struct link *next, *before; };
struct item { int value; struct link link; };
static struct link head = { &head, &head };
int main(void) {
  struct link *at;
  int sum = 0;
  for (int value = 1; value <= 3; value++) {
    struct item *item = malloc(sizeof *item);
    if (!item) break;
    item->value = value;
    item->link.next = head.next;
    item->link.before = &head;
    head.next->before = &item->link;
    head.next = &item->link;
  }
  for (at = head.before; at != &head; at = at->before) {
    struct item *item = (struct item *)((char *)at - __builtin_offsetof(struct item, link));
    sum = sum * 10 + item->value;
  }
  if (sum != 123) *(int *)0 = 1;
  while (head.next != &head) {
    at = head.next;
    at->next->before = at->before;
    at->before->next = at->next;
    free((struct item *)((char *)at - __builtin_offsetof(struct item, link)));
  }
  return 0;
}
