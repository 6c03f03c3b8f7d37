#define _DEFAULT_SOURCE
#include "ground.h"

#include <stdio.h>
#include <stdlib.h>
#include <string.h>
#include <sys/mman.h>

static uint8_t *stack;
static size_t size;

/* uint32_t on_stack(void *end, entry, arguments): the call, with `end` as the stack's upper end. Six arguments go over the stack, which a
 * call that has fewer does not look at; 48 bytes keep it at a multiple of sixteen. */
uint32_t on_stack(void *end, void (*entry)(void), const uint64_t *arguments);
__asm__(".text\n"
        ".globl on_stack\n"
        ".type on_stack, @function\n"
        "on_stack:\n"
        "    push %rbp\n"
        "    mov %rsp, %rbp\n"
        "    mov %rdi, %rsp\n"
        "    mov %rsi, %rax\n"
        "    mov %rdx, %r10\n"
        "    push 88(%r10)\n"
        "    push 80(%r10)\n"
        "    push 72(%r10)\n"
        "    push 64(%r10)\n"
        "    push 56(%r10)\n"
        "    push 48(%r10)\n"
        "    mov 40(%r10), %r9\n"
        "    mov 32(%r10), %r8\n"
        "    mov 24(%r10), %rcx\n"
        "    mov 16(%r10), %rdx\n"
        "    mov 8(%r10), %rsi\n"
        "    mov 0(%r10), %rdi\n"
        "    call *%rax\n"
        "    mov %rbp, %rsp\n"
        "    pop %rbp\n"
        "    ret\n"
        ".size on_stack, . - on_stack\n");

void make_ground(size_t bytes)
{
    enum { PAGE = 4096 };
    size = (bytes + PAGE - 1) / PAGE * PAGE;
    uint8_t *area = mmap(NULL, PAGE + size, PROT_NONE, MAP_PRIVATE | MAP_ANONYMOUS, -1, 0);
    if (area == MAP_FAILED || mprotect(area + PAGE, size, PROT_READ | PROT_WRITE) != 0) {
        perror("stack");
        exit(2);
    }
    stack = area + PAGE;
}

uint32_t make(const Call *call, size_t bytes)
{
    if (bytes > size || bytes % 16 != 0) {
        fprintf(stderr, "stack: %zu bytes are not to be had\n", bytes);
        exit(2);
    }
    return on_stack(stack + bytes, call->entry, call->arguments);
}

/* The lowest byte that is no longer as painted, from the call on. */
static size_t reached(const Call *call, uint8_t paint, uint32_t *answer)
{
    size_t lowest = 0;
    memset(stack, paint, size);
    *answer = make(call, size);
    while (lowest < size && stack[lowest] == paint)
        lowest++;
    return size - ON_STACK - lowest;
}

size_t depth(const Call *call, uint32_t *answer)
{
    uint32_t again;
    /* A byte may be written with the very paint; not with both. */
    size_t first = reached(call, 0xa5, answer), second = reached(call, 0x5a, &again);
    if (*answer != again) {
        fprintf(stderr, "stack: two answers to one call\n");
        exit(1);
    }
    return first > second ? first : second;
}
