int main(void) {
  int *at = 0;
  {
    int number = 5;
    at = &number;
    *at = 6;
  }
  *at = 7;
  return 0;
}
