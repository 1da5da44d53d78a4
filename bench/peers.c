/* What C takes for the work of some programs, and a small process that measures another one. Use: peers pipe SIZE,
   peers count THREADS TIMES TURNS, peers mix THREADS TIMES TURNS, peers queues THREADS PIECES, peers words FILE,
   peers sum FILE BYTES, or peers launch FILE COMMAND.. */
#include <pthread.h>
#include <sched.h>
#include <stdatomic.h>
#include <stdint.h>
#include <stdio.h>
#include <stdlib.h>
#include <string.h>
#include <sys/resource.h>
#include <sys/wait.h>
#include <time.h>
#include <unistd.h>

typedef void *job(void *);
static long size;

static void run_all(job **jobs, int count) {
  pthread_t threads[64];
  for (int i = 0; i < count; i++) if (pthread_create(&threads[i], 0, jobs[i], 0)) exit(2);
  for (int i = 0; i < count; i++) pthread_join(threads[i], 0);
}

/* Two threads meet here: one gives a value, the other takes it, and neither goes on before both have come. */
struct channel { pthread_mutex_t lock; pthread_cond_t changed; int full; int32_t value; };
static struct channel counts = {PTHREAD_MUTEX_INITIALIZER, PTHREAD_COND_INITIALIZER, 0, 0};
static struct channel tripled = {PTHREAD_MUTEX_INITIALIZER, PTHREAD_COND_INITIALIZER, 0, 0};
static int32_t sum;

static void change(struct channel *c, int full) {
  c->full = full;
  pthread_cond_signal(&c->changed);
}

static void give(struct channel *c, int32_t value) {
  pthread_mutex_lock(&c->lock);
  c->value = value;
  change(c, 1);
  while (c->full) pthread_cond_wait(&c->changed, &c->lock);
  pthread_mutex_unlock(&c->lock);
}

static int32_t take(struct channel *c) {
  pthread_mutex_lock(&c->lock);
  while (!c->full) pthread_cond_wait(&c->changed, &c->lock);
  int32_t value = c->value;
  change(c, 0);
  pthread_mutex_unlock(&c->lock);
  return value;
}

static void *counter(void *none) { for (int32_t k = 0; k < size; k++) give(&counts, k); return none; }
static void *tripler(void *none) { for (long i = 0; i < size; i++) give(&tripled, take(&counts) * 3); return none; }
static void *summer(void *none) { for (long i = 0; i < size; i++) sum = (sum + take(&tripled)) % 1000000; return none; }

/* Threads that work by themselves, some times each; the compiler may not leave that out. `count_up` waits in each turn
   for the number that it stored, and leaves most of a core's units idle. `mix` keeps them busy, as an interpreter does:
   beside it another thread on the same core is slower. */
static long times;
static atomic_long counted;
static void *count_up(void *none) {
  for (long i = 0; i < times; i++) {
    volatile long k = 0;
    while (k < size) k = k + 1;
    counted += k;
  }
  return none;
}

static void *mix(void *none) {
  for (long i = 0; i < times; i++) {
    uint64_t a = 1, b = 2, c = 3, d = 4, e = 5, f = 6;
    long k = 0;
    for (; k < size; k++) a += b, b ^= (uint64_t)k, c += d, d ^= c >> 3, e += (uint64_t)k, f ^= e;
    counted += a + b + c + d + e + f ? k : 0;
  }
  return none;
}

/* Pieces go out over one queue with a lock and back over another, as many as SLOTS at a time: whoever finds the tally
   free collects and puts. */
#define SLOTS 16
struct queue { pthread_mutex_t lock; long pieces[SLOTS]; unsigned long first, past; };
static struct queue out = {PTHREAD_MUTEX_INITIALIZER, {0}, 0, 0}, back = {PTHREAD_MUTEX_INITIALIZER, {0}, 0, 0};
static pthread_mutex_t tally = PTHREAD_MUTEX_INITIALIZER;
static long pieces_put, pieces_collected;
static atomic_int is_done;

static void push(struct queue *queue, long piece) {
  pthread_mutex_lock(&queue->lock);
  queue->pieces[queue->past++ % SLOTS] = piece;
  pthread_mutex_unlock(&queue->lock);
}

static long pop(struct queue *queue) {
  pthread_mutex_lock(&queue->lock);
  long piece = queue->first < queue->past ? queue->pieces[queue->first++ % SLOTS] : -1;
  pthread_mutex_unlock(&queue->lock);
  return piece;
}

static void *exchange(void *none) {
  while (!is_done) {
    int has_worked = 0;
    for (long piece; (piece = pop(&out)) >= 0; has_worked = 1) push(&back, piece);
    if (pthread_mutex_trylock(&tally)) { if (!has_worked) sched_yield(); continue; }
    while (pop(&back) >= 0) pieces_collected++;
    for (; pieces_put < size && pieces_put - pieces_collected < SLOTS; pieces_put++) push(&out, pieces_put);
    is_done = pieces_collected == size;
    pthread_mutex_unlock(&tally);
  }
  return none;
}

/* Where a name or a number begins, a byte at a time. */
static int is_word(unsigned char b) {
  return (b >= 'a' && b <= 'z') || (b >= 'A' && b <= 'Z') || (b >= '0' && b <= '9') || b == '_';
}

static long words(FILE *file) {
  static unsigned char text[1 << 21];
  long length = (long)fread(text, 1, sizeof text, file), begun = 0;
  for (long i = 0; i < length; i++) begun += is_word(text[i]) && !(i && is_word(text[i - 1]));
  return begun;
}

static long sum_of(FILE *file, long left) {
  uint32_t total = 0;
  for (int byte = getc(file); left > 0 && byte != EOF; left--, byte = getc(file)) total += (uint32_t)byte;
  return total;
}

static double seconds(struct timeval time) { return (double)time.tv_sec + (double)time.tv_usec / 1e6; }

/* Runs a command and writes into a file what it took: seconds, seconds of processor time, KiB of memory at most, and
   its status, negative where a signal ended it. One that Python starts counts Python's own memory as its own; this
   one is small. */
static int launch(char *path, char **command) {
  struct timespec begin, end;
  struct rusage usage;
  int how;
  clock_gettime(CLOCK_MONOTONIC, &begin);
  pid_t child = vfork();
  if (child == 0) {
    execvp(*command, command);
    _exit(127);
  }
  if (child < 0 || wait4(child, &how, 0, &usage) != child) return 2;
  clock_gettime(CLOCK_MONOTONIC, &end);
  FILE *out = fopen(path, "w");
  if (!out) return 2;
  fprintf(out, "%.9f %.6f %ld %d\n", (double)(end.tv_sec - begin.tv_sec) + (double)(end.tv_nsec - begin.tv_nsec) / 1e9,
          seconds(usage.ru_utime) + seconds(usage.ru_stime), usage.ru_maxrss,
          WIFEXITED(how) ? WEXITSTATUS(how) : -WTERMSIG(how));
  return fclose(out) ? 2 : 0;
}

int main(int argc, char **argv) {
  if (argc < 3) return 2;
  const char *work = argv[1];
  if (!strcmp(work, "launch") && argc > 3) return launch(argv[2], argv + 3);
  long result = 0;
  size = atol(argv[argc - 1]);
  if (!strcmp(work, "pipe")) {
    run_all((job *[]){counter, tripler, summer}, 3);
    result = sum;
  } else if (!strcmp(work, "count") || !strcmp(work, "mix")) {
    job *one = strcmp(work, "mix") ? count_up : mix;
    times = atol(argv[3]) / atoi(argv[2]);
    run_all((job *[]){one, one, one, one}, atoi(argv[2]));
    result = counted;
  } else if (!strcmp(work, "queues")) {
    is_done = size == 0;
    run_all((job *[]){exchange, exchange, exchange, exchange}, atoi(argv[2]));
    result = pieces_collected;
  } else {
    FILE *file = fopen(argv[2], "rb");
    if (!file) return 2;
    result = strcmp(work, "sum") ? words(file) : sum_of(file, size);
  }
  printf("%ld\n", result);
  return 0;
}
