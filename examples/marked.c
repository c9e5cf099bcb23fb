void log_sample(void);
void filter(void) [[clang::nonblocking]];
void process(void) [[clang::nonblocking]] {
  filter();
  log_sample();
  process();
}
