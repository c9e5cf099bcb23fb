#include <stdio.h>
#include <stdlib.h>
#include <pthread.h>
#include <unistd.h>
#include <sanitizer/rtsan_interface.h>

enum { SIZE = 64, FRAMES = 16 };

typedef struct {
  int samples[SIZE];
  unsigned head;
  unsigned tail;
} ring_t;

typedef int (*callback_t)(ring_t *r, int *out, int n) [[clang::nonblocking]];

static ring_t ring;
static pthread_mutex_t log_lock = PTHREAD_MUTEX_INITIALIZER;

static int ring_pop(ring_t *r, int *v) {
  if (r->head == r->tail) return 0;
  *v = r->samples[r->head % SIZE];
  r->head = r->head + 1;
  return 1;
}

static int ring_push(ring_t *r, int v) {
  if (r->tail - r->head == SIZE) return 0;
  r->samples[r->tail % SIZE] = v;
  r->tail = r->tail + 1;
  return 1;
}

static int clip(int v) { return v > 1000 ? 1000 : v; }

static int process(ring_t *r, int *out, int n) [[clang::nonblocking]] {
  int got = 0;
  for (int i = 0; i < n; i++) {
    int v = 0;
    if (ring_pop(r, &v)) got++;
    out[i] = clip(abs(v) * 3);
  }
  return got;
}

static void *fill(void *arg) {
  ring_t *r = arg;
  for (int i = 0; i < 200; i++)
    if (!ring_push(r, i * 7 - 500)) usleep(10);
  pthread_mutex_lock(&log_lock);
  puts("filled");
  pthread_mutex_unlock(&log_lock);
  return NULL;
}

int main(void) {
  callback_t cb = process;
  int *out = malloc(FRAMES * sizeof(int));
  if (!out) return 1;
  pthread_t t;
  if (pthread_create(&t, NULL, fill, &ring)) return 1;
  for (int i = 0; i < 50; i++) cb(&ring, out, FRAMES);
  pthread_join(t, NULL);
  free(out);
  puts("done");
  return 0;
}
