// Says where the time of loops goes that four workers share, by when each thread is made, begins, ends and is waited for:
//
//     gcc -O2 -shared -fPIC -o waits.so bench/waits.c -ldl -pthread
//     LD_PRELOAD=./waits.so sac FILE --workers 4
//
// The program runs in a thread with a stack of its own, and each shared loop makes three more (THREADS, if that is set), which are joined in reverse. When
// the first thread of all has been joined, one line of means in microseconds goes to standard error; the first two loops and the last are left out.
#define _GNU_SOURCE
#include <dlfcn.h>
#include <pthread.h>
#include <stdatomic.h>
#include <stdio.h>
#include <stdlib.h>
#include <time.h>

#define MOST 1000000

struct thread {
  void *(*run)(void *);
  void *given;
  pthread_t self;
  double asked, made, begun, ended;
};

static struct thread *threads;
static double *waited, *joined;
static atomic_int made_count, joined_count;
static int (*make)(pthread_t *, const pthread_attr_t *, void *(*)(void *), void *);
static int (*join)(pthread_t, void **);

static double now(void) {
  struct timespec time;
  clock_gettime(CLOCK_MONOTONIC, &time);
  return time.tv_sec * 1e6 + time.tv_nsec / 1e3;
}

static void begin(void) {
  if (make) return;
  make = dlsym(RTLD_NEXT, "pthread_create");
  join = dlsym(RTLD_NEXT, "pthread_join");
  threads = calloc(MOST, sizeof *threads);
  waited = calloc(MOST, sizeof *waited);
  joined = calloc(MOST, sizeof *joined);
}

static void report(void) {
  int each = getenv("THREADS") ? atoi(getenv("THREADS")) : 3, loops = (made_count - 1) / each, counted = 0;
  double making = 0, starting = 0, running = 0, own = 0, waiting = 0, whole = 0, between = 0;
  for (int loop = 2; loop + 1 < loops; loop++, counted++) {
    struct thread *first = threads + 1 + loop * each, *last = first + each - 1;
    double begins_waiting = waited[loop * each], ends = joined[loop * each + each - 1];
    for (struct thread *thread = first; thread <= last; thread++) {
      starting += (thread->begun - thread->asked) / each;
      running += (thread->ended - thread->begun) / each;
    }
    making += last->made - first->asked;
    own += begins_waiting - last->made;
    waiting += ends - begins_waiting;
    whole += ends - first->asked;
    between += last[1].asked - ends;
  }
  if (counted == 0) return;
  fprintf(stderr, "%d loops: threads made in %.1f, begun after %.1f, run %.1f; the first thread runs %.1f and waits %.1f; a loop %.1f, between two %.1f\n", loops,
          making / counted, starting / counted, running / counted, own / counted, waiting / counted, whole / counted, between / counted);
}

static void *timed(void *given) {
  struct thread *thread = given;
  thread->begun = now();
  void *result = thread->run(thread->given);
  thread->ended = now();
  return result;
}

int pthread_create(pthread_t *self, const pthread_attr_t *kind, void *(*run)(void *), void *given) {
  begin();
  int place = made_count++;
  if (place >= MOST) abort();
  struct thread *thread = threads + place;
  thread->run = run;
  thread->given = given;
  thread->asked = now();
  int status = make(self, kind, timed, thread);
  thread->made = now();
  thread->self = *self;
  return status;
}

int pthread_join(pthread_t thread, void **result) {
  begin();
  if (pthread_equal(thread, threads[0].self)) {
    int status = join(thread, result);
    report();
    return status;
  }
  int place = joined_count++;
  waited[place] = now();
  int status = join(thread, result);
  joined[place] = now();
  return status;
}
