int main(void) {
  int table[3][4], sums[3] = { 0 };
  for (int row = 0; row < 3; row++)
    for (int column = 0; column < 4; column++) table[row][column] = row * 10 + column;
  for (int row = 0; row < 3; row++) {
    int column = 0;
    while (1) {
      if (column == 4) break;
      if (column++ == 2) continue;
      sums[row] += table[row][column - 1];
    }
  }
  if (sums[0] != 4 || sums[1] != 34 || sums[2] != 64) *(int *)0 = 1;
  return 0;
}
