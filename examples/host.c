/* The host: start and end of a program, its output, its clock, and the four functions of memory that compiled code calls. */
#include "host.h"

#if defined(__x86_64__)

enum { SYS_WRITE = 1, SYS_EXIT = 60, SYS_CLOCK_GETTIME = 228 };

static long system_call(long number, long a, long b, long c) {
    long result;
    __asm__ volatile("syscall" : "=a"(result) : "a"(number), "D"(a), "S"(b), "d"(c) : "rcx", "r11", "memory");
    return result;
}

__asm__(".globl _start\n_start:\n    and $-16, %rsp\n    call host_start\n");

#elif defined(__aarch64__)

enum { SYS_WRITE = 64, SYS_EXIT = 93, SYS_CLOCK_GETTIME = 113 };

static long system_call(long number, long a, long b, long c) {
    register long x8 __asm__("x8") = number;
    register long x0 __asm__("x0") = a;
    register long x1 __asm__("x1") = b;
    register long x2 __asm__("x2") = c;
    __asm__ volatile("svc #0" : "+r"(x0) : "r"(x8), "r"(x1), "r"(x2) : "memory");
    return x0;
}

__asm__(".globl _start\n_start:\n    bl host_start\n");

#else
#error "a host for x86-64 and aarch64"
#endif

enum { STANDARD_OUTPUT = 1, CLOCK_PROCESS_CPUTIME_ID = 2 };

typedef uint64_t __attribute__((aligned(1), may_alias)) word;

void *memcpy(void *to, const void *from, size_t count) {
    uint8_t *d = to;
    const uint8_t *s = from;
    for (; count >= 8; count -= 8, d += 8, s += 8)
        *(word *)d = *(const word *)s;
    while (count--)
        *d++ = *s++;
    return to;
}

void *memmove(void *to, const void *from, size_t count) {
    uint8_t *d = to;
    const uint8_t *s = from;
    if (d <= s)
        return memcpy(to, from, count);
    while (count--)
        d[count] = s[count];
    return to;
}

void *memset(void *to, int value, size_t count) {
    uint8_t *d = to;
    word eight = 0x0101010101010101u * (uint8_t)value;
    for (; count >= 8; count -= 8, d += 8)
        *(word *)d = eight;
    while (count--)
        *d++ = (uint8_t)value;
    return to;
}

int memcmp(const void *one, const void *other, size_t count) {
    const uint8_t *a = one, *b = other;
    for (size_t i = 0; i < count; i++)
        if (a[i] != b[i])
            return a[i] - b[i];
    return 0;
}

void print(const char *text) {
    size_t length = 0;
    while (text[length])
        length++;
    system_call(SYS_WRITE, STANDARD_OUTPUT, (long)text, (long)length);
}

void print_number(uint64_t number) {
    char digits[24];
    int at = 23;
    digits[at] = 0;
    do {
        digits[--at] = (char)('0' + number % 10);
        number /= 10;
    } while (number);
    print(digits + at);
}

void print_hex(uint8_t byte) {
    const char *digit = "0123456789ABCDEF";
    char two[3] = {digit[byte / 16], digit[byte % 16], 0};
    print(two);
}

uint64_t nanoseconds(void) {
    struct {
        long seconds, nanoseconds;
    } now;
    system_call(SYS_CLOCK_GETTIME, CLOCK_PROCESS_CPUTIME_ID, (long)&now, 0);
    return (uint64_t)now.seconds * 1000000000u + (uint64_t)now.nanoseconds;
}

void host_start(void) {
    system_call(SYS_EXIT, program(), 0, 0);
}
