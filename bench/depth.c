/* How deep the stack goes: each kind of call on a painted stack of its own. For x86-64. */
#include "host.h"
#include "kinds.h"

static uint8_t painted[32768] __attribute__((aligned(16)));
static struct tag *deep_tag;
static const struct kind *deep_kind;

void run_deep(void) { deep_kind->run(deep_tag); }

static size_t depth_of(const struct kind *kind, struct tag *t) {
    size_t untouched = 0;
    for (size_t i = 0; i < sizeof painted; i++)
        painted[i] = 0xA5;
    deep_tag = t;
    deep_kind = kind;
    __asm__ volatile("mov %%rsp, %%rbx\n mov %0, %%rsp\n call run_deep\n mov %%rbx, %%rsp"
                     :
                     : "r"(painted + sizeof painted)
                     : "rbx", "rax", "rcx", "rdx", "rsi", "rdi", "r8", "r9", "r10", "r11", "memory", "cc", "xmm0", "xmm1", "xmm2", "xmm3",
                       "xmm4", "xmm5", "xmm6", "xmm7", "xmm8", "xmm9", "xmm10", "xmm11", "xmm12", "xmm13", "xmm14", "xmm15");
    while (untouched < sizeof painted && painted[untouched] == 0xA5)
        untouched++;
    return sizeof painted - untouched;
}

int program(void) {
    static struct kind kinds[KINDS];
    size_t deepest[2] = {0, 0};
    struct tag *tags[2] = {&proved, &plain};
    list_kinds(kinds);
    for (int k = 0; k < KINDS; k++)
        for (int i = 0; i < 2; i++) {
            prepare(&kinds[k], tags[i]);
            size_t depth = depth_of(&kinds[k], tags[i]);
            deepest[i] = depth > deepest[i] ? depth : deepest[i];
        }
    print("deepest stack, bytes: proved ");
    print_number(deepest[0]);
    print(", plain ");
    print_number(deepest[1]);
    print("\nrecords, bytes: tag ");
    print_number(sizeof(corridor_tag_record));
    print(", bus ");
    print_number(sizeof(corridor_bus_record));
    print("\n");
    return 0;
}
