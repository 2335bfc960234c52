void *malloc(unsigned long);
void free(void *);
int main(void) {
  char *text = malloc(8);
  if (!text) return 0;
  *text++ = 'a';
  *text = 'b';
  free(text);
  return 0;
}
