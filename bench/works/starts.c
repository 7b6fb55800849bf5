// starts ROUNDS: starts three threads that do nothing and joins them, ROUNDS times, and prints the microseconds of one round. A loop that is shared among four
// workers pays as much before and behind its cells.
#include <pthread.h>
#include <stdio.h>
#include <stdlib.h>
#include <time.h>

static void *nothing(void *given) { return given; }

int main(int count, char **words) {
  int rounds = count > 1 ? atoi(words[1]) : 1000;
  struct timespec begun, ended;
  clock_gettime(CLOCK_MONOTONIC, &begun);
  for (int round = 0; round < rounds; round++) {
    pthread_t threads[3];
    for (int k = 0; k < 3; k++) {
      if (pthread_create(&threads[k], NULL, nothing, NULL) != 0) return 1;
    }
    for (int k = 2; k >= 0; k--) pthread_join(threads[k], NULL);
  }
  clock_gettime(CLOCK_MONOTONIC, &ended);
  double spent = (ended.tv_sec - begun.tv_sec) * 1e6 + (ended.tv_nsec - begun.tv_nsec) / 1e3;
  printf("%.1f\n", spent / rounds);
  return 0;
}
