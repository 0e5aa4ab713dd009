/* Floating-point environments that a caller may have left its thread in. */
#ifndef ENVIRONMENTS_H
#define ENVIRONMENTS_H

/* MXCSR as a new process has it: to nearest, subnormals kept, exceptions masked, no flag raised. */
enum { DEFAULT_MXCSR = 0x1F80 };

struct environment {
    const char *name;
    int rounding;       /* for fesetround */
    int unmasked;       /* for feenableexcept */
    unsigned int mxcsr; /* further bits of MXCSR that are changed */
};

extern const struct environment environments[];
extern const int environment_count;

/* Puts the thread into an environment, no flag raised; what MXCSR then is. */
unsigned int enter(const struct environment *e);

/* Back to the default. */
void leave(void);

#endif
