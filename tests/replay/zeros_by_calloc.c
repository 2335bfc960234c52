void *calloc(unsigned long, unsigned long);
void free(void *);
int __VERIFIER_nondet_int(void);
int main(void) {
  unsigned count = 0;
  int *counts = calloc(4, sizeof(int));
  if (counts == 0) return 0;
  for (int turn = 0; turn < 5; turn++) {
    int input = __VERIFIER_nondet_int();
    if (input < 0 || input > 3) continue;
    counts[input]++;
    count++;
  }
  if (counts[0] + counts[1] + counts[2] + counts[3] != (int)count) *(int *)0 = 1;
  free(counts);
  return 0;
}
