/* What the owed floating-point environment is for: the same calls in the default one, whose answers are held to their bits, and in
 * changed ones. A change that this machine can't make is not shown, and that is said. The default is back behind each. */
#if defined(__linux__) && !defined(_GNU_SOURCE)
#define _GNU_SOURCE /* feenableexcept */
#endif
#include "check.h"
#include "window.h"

#include <fenv.h>
#include <signal.h>
#include <stdio.h>
#include <sys/resource.h>
#include <sys/wait.h>
#include <unistd.h>

#if defined(__x86_64__)
#include <xmmintrin.h>
#endif

typedef struct Seen {
  VrfXyz quotient, large, normal, subnormal;
  VrfAngles angles;
} Seen;

/* 1/10, 3/10 and 7/10; integers of over 53 bits; a normal; three subnormal binary32; three angles. */
static Seen look(void) {
  Seen seen;
  Window w;
  window_clear(&w);
  put_vector(&w, 4, 1, 1, 3, 7);
  seen.quotient = vrf_vector(w.bytes, window_bytes(&w), cursor_at(0, 0, w.bits), 10).value;

  window_clear(&w);
  put_vector(&w, 56, 0, INT64_C(9007199254740993), INT64_C(9007199254740995), INT64_C(9007199254740997));
  seen.large = vrf_vector(w.bytes, window_bytes(&w), cursor_at(0, 0, w.bits), 1).value;

  window_clear(&w);
  put_bits(&w, 32769, 16);
  put_bits(&w, 32771, 16);
  put_bits(&w, 65535, 16);
  seen.normal = vrf_normal(w.bytes, window_bytes(&w), cursor_at(0, 0, w.bits)).value;

  window_clear(&w);
  put_bits(&w, 0, 7);
  put_bits(&w, 0x00000001, 32);
  put_bits(&w, 0x80000003, 32);
  put_bits(&w, 0x00400000, 32);
  seen.subnormal = vrf_vector(w.bytes, window_bytes(&w), cursor_at(0, 0, w.bits), 1).value;

  window_clear(&w);
  put_axis(&w, 16, 1);
  put_axis(&w, 16, 43691);
  put_axis(&w, 16, 65535);
  seen.angles = vrf_rotation(w.bytes, window_bytes(&w), cursor_at(0, 0, w.bits), 16).value;
  return seen;
}

static void same_vector(const char *file, int line, const char *what, VrfXyz v, double x, double y, double z) {
  same_double(file, line, what, v.x, x);
  same_double(file, line, what, v.y, y);
  same_double(file, line, what, v.z, z);
}
#define SAME_VECTOR(v, x, y, z) same_vector(__FILE__, __LINE__, #v, v, x, y, z)

/* An angle is exact: no rounding alters it. */
static void same_turns(VrfAngles a) {
  SAME_FLOAT(a.pitch, 0x1.68p-8f);
  SAME_FLOAT(a.yaw, 0x1.e000fp+7f);
  SAME_FLOAT(a.roll, 0x1.67fe98p+8f);
}

static void default_answers(Seen s) {
  SAME_VECTOR(s.quotient, 0x1.999999999999ap-4, 0x1.3333333333333p-2, 0x1.6666666666666p-1);
  SAME_VECTOR(s.large, 0x1p+53, 0x1.0000000000002p+53, 0x1.0000000000002p+53);
  SAME_VECTOR(s.normal, 0x1.0002000400080p-15, 0x1.80030006000c0p-14, 1.0);
  SAME_VECTOR(s.subnormal, 0x1p-149, -0x1.8p-148, 0x1p-127);
  same_turns(s.angles);
}

static void upward(void) {
  if (fesetround(FE_UPWARD) != 0) {
    puts("c: environment: rounding upward is not shown: it can't be set here");
    return;
  }
  const Seen s = look();
  fesetround(FE_TONEAREST);
  SAME_VECTOR(s.quotient, 0x1.999999999999ap-4, 0x1.3333333333334p-2, 0x1.6666666666667p-1);
  SAME_VECTOR(s.large, 0x1.0000000000001p+53, 0x1.0000000000002p+53, 0x1.0000000000003p+53);
  SAME_VECTOR(s.normal, 0x1.0002000400081p-15, 0x1.80030006000c1p-14, 1.0);
  SAME_VECTOR(s.subnormal, 0x1p-149, -0x1.8p-148, 0x1p-127);
  same_turns(s.angles);
  printf("c: environment: rounding upward, 3/10 is %a (owed: %a)\n", s.quotient.y, 0x1.3333333333333p-2);
}

static void downward(void) {
  if (fesetround(FE_DOWNWARD) != 0) {
    puts("c: environment: rounding downward is not shown: it can't be set here");
    return;
  }
  const Seen s = look();
  fesetround(FE_TONEAREST);
  SAME_VECTOR(s.quotient, 0x1.9999999999999p-4, 0x1.3333333333333p-2, 0x1.6666666666666p-1);
  SAME_VECTOR(s.large, 0x1p+53, 0x1.0000000000001p+53, 0x1.0000000000002p+53);
  SAME_VECTOR(s.normal, 0x1.0002000400080p-15, 0x1.80030006000c0p-14, 1.0);
  SAME_VECTOR(s.subnormal, 0x1p-149, -0x1.8p-148, 0x1p-127);
  same_turns(s.angles);
  printf("c: environment: rounding downward, 1/10 is %a (owed: %a)\n", s.quotient.x, 0x1.999999999999ap-4);
}

/* Switches the flushing of denormals on; what has to be handed to unflush, or -1 where this file doesn't know how. */
static int64_t flush(void) {
#if defined(__x86_64__)
  const unsigned before = _mm_getcsr();
  _mm_setcsr(before | 0x8040); /* results to zero, operands to zero */
  return before;
#elif defined(__aarch64__)
  uint64_t before;
  __asm__ volatile("mrs %0, fpcr" : "=r"(before));
  __asm__ volatile("msr fpcr, %0" : : "r"(before | UINT64_C(1) << 24));
  return (int64_t)before;
#else
  return -1;
#endif
}

static void unflush(int64_t before) {
#if defined(__x86_64__)
  _mm_setcsr((unsigned)before);
#elif defined(__aarch64__)
  __asm__ volatile("msr fpcr, %0" : : "r"((uint64_t)before));
#else
  (void)before;
#endif
}

static void flushed(void) {
  const int64_t before = flush();
  if (before < 0) {
    puts("c: environment: denormals flushed to zero are not shown: this file doesn't know how to ask for it here");
    return;
  }
  const Seen s = look();
  unflush(before);
  SAME_VECTOR(s.quotient, 0x1.999999999999ap-4, 0x1.3333333333333p-2, 0x1.6666666666666p-1);
  SAME_VECTOR(s.subnormal, 0.0, -0.0, 0.0);
  same_turns(s.angles);
  printf("c: environment: denormals flushed, 2^-149 is %a (owed: %a)\n", s.subnormal.x, 0x1p-149);
}

/* A child process that lets an inexact result trap. */
static void trapped(void) {
#if defined(__GLIBC__)
  fflush(stdout);
  const pid_t child = fork();
  if (child == 0) {
    struct rlimit none;
    none.rlim_cur = none.rlim_max = 0;
    setrlimit(RLIMIT_CORE, &none); /* leave no core file */
    signal(SIGFPE, SIG_DFL);
    if (feenableexcept(FE_INEXACT) == -1) {
      _exit(2);
    }
    (void)look();
    _exit(0);
  }
  int status = 0;
  if (child < 0 || waitpid(child, &status, 0) != child) {
    puts("c: environment: unmasked exceptions are not shown: there is no child process");
  } else if (WIFSIGNALED(status) && WTERMSIG(status) == SIGFPE) {
    puts("c: environment: exceptions unmasked, an inexact quotient ends the program with SIGFPE");
  } else {
    puts("c: environment: unmasked exceptions are not shown: this machine doesn't trap");
  }
#else
  puts("c: environment: unmasked exceptions are not shown: there is no feenableexcept here");
#endif
}

void environment(void) {
  default_answers(look());
  upward();
  downward();
  flushed();
  trapped();
  default_answers(look());
}
