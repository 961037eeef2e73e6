// The host of a measured build of `replay`: the wrapper of each measured call goes through `bench_enter` and `bench_leave`.
// It writes one number for each call to descriptor 3: nanoseconds, or with BENCH_STACK set the bytes of stack it used.
// No headers: the kit's clang, which compiles it for either machine, has none.
typedef unsigned char byte;
typedef unsigned long count;
struct moment { long seconds, nanoseconds; };

extern int clock_gettime(int clock, struct moment *now);
extern int dprintf(int descriptor, const char *format, ...);
extern char *getenv(const char *name);
extern int *__errno_location(void);
extern void abort(void);

enum { MONOTONIC = 1, RESULTS = 3, MOST_CALLS = 1 << 22, EMPTY_CALLS = 1000 };
// How much stack below a call is painted, and how much of it the painter itself may be using.
enum { REACH = 640 << 10, OWN_FRAME = 256 };
static const count PAINT = 0xA5A5A5A5A5A5A5A5;

static count results[MOST_CALLS];
static count calls, overhead;
static int measures_stack;
static struct moment start;
static byte *top;
static int words_given;
static char **words;

static volatile count *below_top(count distance) { return (volatile count *)(top - distance); }

static void paint_stack(void) {
  for (volatile count *at = below_top(REACH); at < below_top(OWN_FRAME); at++) *at = PAINT;
}

static count painted_over(void) {
  volatile count *at = below_top(REACH);
  while (at < below_top(OWN_FRAME) && *at == PAINT) at++;
  return top - (byte *)at;
}

__attribute__((noinline)) void bench_enter(void) {
  if (measures_stack) {
    top = __builtin_frame_address(0);
    paint_stack();
  }
  clock_gettime(MONOTONIC, &start);
}

__attribute__((noinline)) void bench_leave(void) {
  struct moment end;
  clock_gettime(MONOTONIC, &end);
  count took = (end.seconds - start.seconds) * 1000000000 + end.nanoseconds - start.nanoseconds;
  if (measures_stack) took = painted_over();
  // All paint is gone: the call may have used more.
  if (measures_stack && took == REACH) abort();
  if (calls < MOST_CALLS) results[calls++] = took;
}

// What reading the clock adds to a call: the least that is found of an empty one.
static count empty_call(void) {
  for (int i = 0; i < EMPTY_CALLS; i++) {
    bench_enter();
    bench_leave();
  }
  count least = results[0];
  for (count i = 1; i < calls; i++)
    if (results[i] < least) least = results[i];
  calls = 0;
  return least;
}

__attribute__((constructor)) static void begin(int argc, char **argv) {
  words_given = argc;
  words = argv;
  measures_stack = getenv("BENCH_STACK") != 0;
  overhead = measures_stack ? 0 : empty_call();
}

__attribute__((destructor)) static void end(void) {
  for (count i = 0; i < calls; i++) dprintf(RESULTS, "%lu\n", results[i] < overhead ? 0 : results[i] - overhead);
}

// The kit's own C code for these is compiled for x86-64 alone.
int rattle_errno(void) { return *__errno_location(); }
void rattle_set_errno(int error) { *__errno_location() = error; }

count rattle_arg_count(void) { return words_given; }

long rattle_arg(count which, byte *row, count room) {
  if (which >= (count)words_given) return -1;
  count length = 0;
  for (; words[which][length]; length++) {
    if (length == room) return -2;
    row[length] = words[which][length];
  }
  return length;
}
