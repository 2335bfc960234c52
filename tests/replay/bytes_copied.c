void *memset(void *, int, unsigned long);
void *memcpy(void *, void *, unsigned long);
void *memmove(void *, void *, unsigned long);
int main(void) {
  char text[8] = { 1, 2, 3, 4, 5, 6, 7, 8 };
  char copy[8];
  unsigned long word = 0;
  memset(copy, 255, sizeof copy);
  memcpy(copy + 2, text, 4);
  if (copy[0] != -1 || copy[2] != 1 || copy[5] != 4 || copy[6] != -1) *(int *)0 = 1;
  memmove(text + 1, text, 7);
  if (text[0] != 1 || text[1] != 1 || text[7] != 7) *(int *)0 = 2;
  memcpy(&word, text, 2);
  if (word != 257) *(int *)0 = 3;
  return 0;
}
