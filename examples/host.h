/* What the examples and the benchmark need of a host: they run on bare Linux for x86-64 or aarch64, without a C library. */
#ifndef HOST_H
#define HOST_H

#include <stddef.h>
#include <stdint.h>

void print(const char *text);
void print_number(uint64_t number);
void print_hex(uint8_t byte);

/* Nanoseconds of a processor's time that this process has taken: it stands still while others run. */
uint64_t nanoseconds(void);

/* A program's own part: its result is the exit status. */
int program(void);

#endif
