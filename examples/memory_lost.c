int main(void) {
  void *p = malloc(64);
  p = malloc(128);
  free(p);
  return 0;
}
