void *malloc(unsigned long);
void free(void *);
int main(void) {
  int *numbers = malloc(4 * sizeof(int));
  if (!numbers) return 0;
  for (int at = 0; at <= 4; at++)
    numbers[at] = at;
  free(numbers);
  return 0;
}
