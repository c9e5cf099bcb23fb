void wait_for_lock(void) [[clang::blocking]] { }

void process(void) [[clang::nonblocking]] {
  wait_for_lock();
}

int main(void) {
  process();
  return 0;
}
