int main(void) {
  unsigned char byte = 250;
  signed char small = -3;
  unsigned short half = 65535;
  unsigned whole = 4294967295U;
  long wide = -1;
  _Bool truth = 256;
  byte += 10;
  if (byte != 4) *(int *)0 = 1;
  if (small >> 1 != -2 || (unsigned char)small != 253) *(int *)0 = 2;
  if (++half != 0 || half-- != 0 || half != 65535) *(int *)0 = 3;
  if (whole + 1 != 0 || whole >> 31 != 1 || (long)whole != 4294967295L) *(int *)0 = 4;
  if (wide / 2 != 0 || -7 % 3 != -1 || (wide & 255) != 255 || (~wide | 8) != 8) *(int *)0 = 5;
  if (truth != 1 || (truth ^ 1) != 0 || (wide < 0U) != 1) *(int *)0 = 6;
  if (-1 < 1U || sizeof(long) != 8 || (1 << 4 | 2) != 18) *(int *)0 = 7;
  return 0;
}
