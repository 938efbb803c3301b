/* Makes a call on a stack of its own and tells how much of it the call has taken, and how often a secret stands there when it
 * has returned; built and used by stack.py. */
#define _GNU_SOURCE

#include <stdint.h>
#include <string.h>
#include <sys/mman.h>
#include <ucontext.h>

/* As many arguments as the longest function takes. On x86-64 Linux each is in a register or in eight bytes of the stack,
 * so a function that has fewer may be given more. */
typedef uint32_t function(uint64_t, uint64_t, uint64_t, uint64_t, uint64_t, uint64_t, uint64_t, uint64_t, uint64_t,
                          uint64_t, uint64_t, uint64_t, uint64_t, uint64_t, uint64_t, uint64_t);

enum { GUARD = 4096, SIZE = 65536 };

static ucontext_t here, there;
static function *called;
static const uint64_t *a;
static uint32_t outcome;
static uint8_t *frame;

/* The 16 bytes that are looked for, and how often they stand in what the last call has left below its caller. */
const uint8_t *secret;
size_t copies;

static void run(void)
{
    frame = __builtin_frame_address(0);
    outcome = called(a[0], a[1], a[2], a[3], a[4], a[5], a[6], a[7], a[8], a[9], a[10], a[11], a[12], a[13], a[14],
                     a[15]);
}

/* The bytes from the frame of the function that makes the call, so with its arguments, down to the last one that is not
 * as it was painted; 0 where there is no stack to be had. Behind the end of the stack stands a page that ends the
 * process. */
size_t stack_taken(function *to_call, const uint64_t *arguments, int paint, uint32_t *answer)
{
    uint8_t *memory = mmap(NULL, GUARD + SIZE, PROT_READ | PROT_WRITE, MAP_PRIVATE | MAP_ANONYMOUS, -1, 0);
    if (memory == MAP_FAILED || mprotect(memory, GUARD, PROT_NONE) || getcontext(&there))
        return 0;
    uint8_t *stack = memory + GUARD;
    memset(stack, paint, SIZE);
    there.uc_stack.ss_sp = stack;
    there.uc_stack.ss_size = SIZE;
    there.uc_link = &here;
    called = to_call;
    a = arguments;
    makecontext(&there, run, 0);
    if (swapcontext(&here, &there))
        return 0;
    *answer = outcome;
    size_t untouched = 0;
    while (stack[untouched] == (uint8_t)paint)
        untouched++;
    size_t taken = (size_t)(frame - (stack + untouched));
    copies = 0;
    for (uint8_t *p = stack + untouched; p + 16 <= frame; p++)
        copies += memcmp(p, secret, 16) == 0;
    munmap(memory, GUARD + SIZE);
    return taken;
}
