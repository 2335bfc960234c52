int __VERIFIER_nondet_int(void);
struct pair { int one, other; };
int main(void) {
  struct pair pair = { 1, 2 }, *at = &pair;
  if (__VERIFIER_nondet_int() == 7) at = 0;
  pair.one = 3;
  at->one = 4;
  return 0;
}
