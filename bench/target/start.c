/* The start of a program on a Cortex-M board, and its output by semihosting. No library. */
#include "target.h"

extern uint32_t stack_top[], data_start[], data_end[], data_load[], bss_start[], bss_end[];
int main(void);

enum { WRITE = 4, EXIT = 0x18, DONE = 0x20026, FAULT = 0x20024 };

static int ask_emulator(int operation, const void *argument)
{
    register int r0 __asm__("r0") = operation;
    register const void *r1 __asm__("r1") = argument;
    __asm__ volatile("bkpt 0xab" : "+r"(r0) : "r"(r1) : "memory");
    return r0;
}

void put(const char *text)
{
    ask_emulator(WRITE, text);
}

void put_number(int64_t value)
{
    char digits[21];
    uint64_t rest = (value < 0) ? 0u - (uint64_t)value : (uint64_t)value;
    int at = 20;
    digits[at] = 0;
    do {
        digits[--at] = (char)('0' + (rest % 10u));
        rest /= 10u;
    } while (rest > 0u);
    if (value < 0) {
        digits[--at] = '-';
    }
    put(digits + at);
}

void reset(void)
{
#ifdef __ARM_FP
    /* The floating-point unit is switched on. */
    *(volatile uint32_t *)0xE000ED88 |= 0xFu << 20;
    __asm__ volatile("dsb\n\tisb");
#endif
    uint32_t *to = data_start;
    const uint32_t *from = data_load;
    while (to < data_end) {
        *to++ = *from++;
    }
    for (to = bss_start; to < bss_end; to++) {
        *to = 0;
    }
    main();
    ask_emulator(EXIT, (void *)DONE);
    for (;;) {
    }
}

void hang(void)
{
    put("fault\n");
    ask_emulator(EXIT, (void *)FAULT);
    for (;;) {
    }
}

__attribute__((section(".vectors"), used)) static const void *const vectors[16] = {
    stack_top, reset, hang, hang, hang, hang, hang, 0, 0, 0, 0, hang, hang, 0, hang, hang,
};

/* The compiler may call these. */
void *memset(void *to, int value, unsigned count)
{
    unsigned char *at = to;
    while (count--) {
        *at++ = (unsigned char)value;
    }
    return to;
}

void *memcpy(void *to, const void *from, unsigned count)
{
    unsigned char *at = to;
    const unsigned char *other = from;
    while (count--) {
        *at++ = *other++;
    }
    return to;
}
