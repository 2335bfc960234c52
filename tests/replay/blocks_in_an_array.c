void *malloc(unsigned long);
void free(void *);
static long *blocks[4];
static int used = 0;
int main(void) {
  while (used < 4) {
    long *block = malloc(sizeof(long) * 2);
    if (!block) break;
    block[0] = used;
    block[1] = (long)used << 33;
    blocks[used++] = block;
  }
  for (int at = used - 1; at >= 0; at--) {
    if (*blocks[at] != at || blocks[at][1] >> 33 != at) *(int *)0 = 1;
    free(blocks[at]);
    blocks[at] = 0;
  }
  return 0;
}
