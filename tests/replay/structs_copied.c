struct point { int x, y; };
struct line { struct point from, to; char mark; };
int main(void) {
  struct line one = { { 1, 2 }, { .y = 4, .x = 3 }, 'a' };
  struct line other, *line = &other;
  int *y;
  other = one;
  line->from = line->to;
  y = &line->from.y;
  *y += 1;
  if (other.from.x != 3 || other.from.y != 5 || other.to.y != 4 || other.mark != 'a') *(int *)0 = 1;
  if (one.from.x != 1 || (*&one).from.y != 2) *(int *)0 = 2;
  return 0;
}
