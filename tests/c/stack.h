// How many bytes of stack a call uses: `paint` before it and `stack_used` after it, all three in one function.
//
// The stack below a call is painted before it, further down than a call may use, and looked at after it. Both functions
// have their frame where the call has its own, so that what stands nearest to the caller, at most 128 bytes, may go
// unseen; it is added.
#include <stddef.h>
#include <stdint.h>

enum { WORD = sizeof(uint64_t), STACK = 3072 / WORD, UNSEEN = 128 };
static const uint64_t PAINT = 0xa5a5a5a5a5a5a5a5;

static __attribute__((noinline)) void paint(void) {
    volatile uint64_t below[STACK];
    for (size_t i = 0; i < STACK; i++) below[i] = PAINT;
}

static __attribute__((noinline)) uint32_t stack_used(void) {
    volatile uint64_t below[STACK];
    size_t kept = 0;
    __asm__ volatile("" : "=m"(below));
    while (kept < STACK && below[kept] == PAINT) kept++;
    return (uint32_t)(WORD * (STACK - kept) + UNSEEN);
}
