/* How much stack the entries take. */
#ifndef STACK_H
#define STACK_H

#include "cases.h"

/* Calls each entry on a painted stack; whether one takes more than its header says. */
int stack_too_deep(const struct call *calls, size_t count);

#endif
