/*
 * The start of the program that `make dist` and `make deb` pack: btcheck as it
 * is compiled for x86-64-v2 and for x86-64-v3, in one file. Both are the same
 * proved code; they differ in their instructions alone. The second one runs
 * where the processor and the system have all of x86-64-v3 (System V ABI,
 * AMD64 supplement, table 3.1), as the C library sees it, which the second one
 * asks too as it starts.
 */
#include <sys/platform/x86.h>

int btcheck_v2(void);
int btcheck_v3(void);

static int has_v3(void) {
  return CPU_FEATURE_ACTIVE(AVX) && CPU_FEATURE_ACTIVE(AVX2) && CPU_FEATURE_ACTIVE(BMI1) &&
         CPU_FEATURE_ACTIVE(BMI2) && CPU_FEATURE_ACTIVE(F16C) && CPU_FEATURE_ACTIVE(FMA) &&
         CPU_FEATURE_ACTIVE(LZCNT) && CPU_FEATURE_ACTIVE(MOVBE);
}

/* Arguments are not passed on: the C code of the kit keeps them before main. */
int main(void) {
  return has_v3() ? btcheck_v3() : btcheck_v2();
}
