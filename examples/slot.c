struct slot { char *data; };
int main(void) {
  struct slot slot = { 0 };
  while (__VERIFIER_nondet_int()) {
    char *fresh = malloc(16);
    if (!fresh) continue;
    free(slot.data);
    slot.data = fresh;
    slot.data[15] = 0;
  }
  free(slot.data);
  return 0;
}
