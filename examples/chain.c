#include <stdio.h>

static void report(void) { puts("clipped"); }

static int limited(int v) {
  if (v > 1000) {
    report();
    return 1000;
  }
  return v;
}

int process(int *out, int n) [[clang::nonblocking]] {
  for (int i = 0; i < n; i++) out[i] = limited(out[i]);
  return n;
}
