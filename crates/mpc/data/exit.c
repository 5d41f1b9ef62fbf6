#include <stdio.h>
int main(void) {
  int a = 0;
  int b = 0 && (1 / a);
  long c = 3000000000;
  int d = c;
  printf("%d %d %d\n", b, -7 / 2, d);
  return 3;
}
