void *malloc(unsigned long);
void free(void *);
struct node { struct node *next; };
int main(void) {
  struct node *first = malloc(sizeof *first);
  if (!first) return 0;
  first->next = 0;
  while (first) {
    free(first);
    first = first->next;
  }
  return 0;
}
