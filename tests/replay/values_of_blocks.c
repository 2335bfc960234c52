int __VERIFIER_nondet_int(void);
enum color { RED, GREEN = 5, BLUE };
int main(void) {
  int input = __VERIFIER_nondet_int();
  int larger = ({ int a = input, b = 3; a > b ? a : b; });
  int turns = 0;
  enum color color = BLUE;
  do {
    if (input > 3 ? larger != input : larger != 3) *(int *)0 = 1;
    turns++, color = color == BLUE ? GREEN : RED;
  } while (color);
  if (turns != 2 || ({ int x = 4; for (int i = 0; i < 3; i++) x += i; x; }) != 7) *(int *)0 = 2;
  if (__builtin_expect(input == larger, 1) && input < 3) *(int *)0 = 3;
  return 0;
}
