void free(void *);
int main(void) {
  int number = 3;
  int *at = &number;
  *at = 4;
  free(at);
  return 0;
}
