void *malloc(unsigned long);
void free(void *);
int __VERIFIER_nondet_int(void);
int main(void) {
  char *text = malloc(3), *other = text;
  if (__VERIFIER_nondet_int()) free(text);
  if (other)
    free(other);
  return 0;
}
