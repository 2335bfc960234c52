int main(void) {
  void *p = malloc(64);
  void *q = p;
  free(p);
  free(q);
  return 0;
}
