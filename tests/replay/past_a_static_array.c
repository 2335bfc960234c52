static char letters[5] = { 'a', 'b', 'c' };
int main(void) {
  char *at = letters;
  while (at != letters + 5) {
    at++;
    *at = 'd';
  }
  return 0;
}
