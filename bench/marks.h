/* The two marks between which tools/instructions counts. */
#ifndef MARKS_H
#define MARKS_H

#define MARK(name) \
    __attribute__((noinline)) void name(void) { __asm__ volatile(""); }
MARK(count_begin)
MARK(count_end)

#endif
