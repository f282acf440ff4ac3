/* The painted stack, and the few instructions that call on it. */
#include "painted.h"

/*
 * Goes to the other stack, puts the words after the sixth there, the last one first, fills the registers, and calls. The stack pointer of this program
 * waits in a register that a call gives back as it was, so that nothing of this program stands on the other stack. The other such registers are cleared:
 * the library saves them on the stack, and one that held the paint would look like paint in every run.
 */
uint64_t call_on_stack(const uint64_t *words, size_t pushed, void (*function)(void), uint8_t *top);

__asm__(
    ".pushsection .text\n"
    ".type call_on_stack, @function\n"
    "call_on_stack:\n"
    "    push %rbx\n"
    "    push %r12\n"
    "    push %r13\n"
    "    push %r14\n"
    "    push %r15\n"
    "    push %rbp\n"
    "    mov %rsp, %rbp\n"
    "    mov %rcx, %rsp\n"
    "    mov %rdx, %rax\n"
    "    mov %rdi, %r10\n"
    "1:  test %rsi, %rsi\n"
    "    jz 2f\n"
    "    push 40(%r10,%rsi,8)\n"
    "    dec %rsi\n"
    "    jmp 1b\n"
    "2:  mov (%r10), %rdi\n"
    "    mov 8(%r10), %rsi\n"
    "    mov 16(%r10), %rdx\n"
    "    mov 24(%r10), %rcx\n"
    "    mov 32(%r10), %r8\n"
    "    mov 40(%r10), %r9\n"
    "    xor %ebx, %ebx\n"
    "    xor %r12d, %r12d\n"
    "    xor %r13d, %r13d\n"
    "    xor %r14d, %r14d\n"
    "    xor %r15d, %r15d\n"
    "    call *%rax\n"
    "    mov %rbp, %rsp\n"
    "    pop %rbp\n"
    "    pop %r15\n"
    "    pop %r14\n"
    "    pop %r13\n"
    "    pop %r12\n"
    "    pop %rbx\n"
    "    ret\n"
    ".size call_on_stack, . - call_on_stack\n"
    ".popsection\n");

static _Alignas(64) uint8_t stack[STACK_BYTES];

static size_t pushed_words(const struct call *c)
{
    return c->count > REGISTERS ? c->count - REGISTERS : 0;
}

size_t pushed_bytes(const struct call *c)
{
    return WORD_BYTES * pushed_words(c);
}

/* Byte by byte as the abstract machine does it: the compiler must not make a memset of it, which would be bound before the library calls it. */
static void paint_stack(uint8_t paint)
{
    volatile uint8_t *at = stack;
    for (size_t i = 0; i < STACK_BYTES; i++)
        at[i] = paint;
}

/* At the call instruction the stack is aligned to 16 bytes, as the calling convention asks; what is left above for that is not counted. */
uint64_t painted_call(const struct call *c, uint8_t paint, size_t *bytes)
{
    size_t high = STACK_BYTES - pushed_bytes(c) % 16, low = 0;
    paint_stack(paint);
    uint64_t answer = call_on_stack(c->words, pushed_words(c), c->function, stack + high);
    while (low < high && stack[low] == paint)
        low++;
    *bytes = low == 0 ? STACK_BYTES : high - low;
    return answer;
}
