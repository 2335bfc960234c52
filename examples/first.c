int main(void) {
  void *p = malloc(64);
  void *q = p;
  free(q);
  q = 0;
  p = malloc(0);
  free(p);
  return 0;
}
