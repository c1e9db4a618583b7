/* Which steps of other threads each thread has seen, and whether it reaches memory without. */
#ifndef RACES_H
#define RACES_H
#include "shim.h"

/* A run begins: no thread has done anything. */
void forget_steps(void);

/* A thread sees all that was seen when `release` was last called of this. */
void acquire(int thread, const struct seen *seen);
void release(int thread, struct seen *seen);

/* A thread reads or writes memory. The run fails if that is a data race. */
void reach_memory(int thread, uintptr_t address, size_t size, int is_write);

/* A thread makes an atomic access. */
void reach_atomic(int thread, uintptr_t address);
#endif
