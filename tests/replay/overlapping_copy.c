void *memcpy(void *, void *, unsigned long);
void *memset(void *, int, unsigned long);
int main(void) {
  char bytes[8];
  memset(bytes, 1, 8);
  memcpy(bytes, bytes + 4, 4);
  memcpy(bytes + 2, bytes, 4);
  return 0;
}
