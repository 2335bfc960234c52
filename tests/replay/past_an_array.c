int __VERIFIER_nondet_int(void);
int main(void) {
  int numbers[3] = { 1, 2, 3 }, sum = 0;
  int count = __VERIFIER_nondet_int();
  for (int at = 0; at < count; at++) {
    sum +=
      numbers[at];
  }
  return sum;
}
