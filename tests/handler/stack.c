/* stack.c: how deep a call goes. Each is made on a stack that was painted before, and the lowest byte that it changed is looked for. Prints the
 * deepest of ntk_step and of ntk_serve: the bytes below the caller's, with the return address. */
#include <stdio.h>
#include <stdlib.h>
#include <string.h>

#include "traffic.h"

enum { CALLS = 40000, STACK_BYTES = 8192, HOLDERS = NTK_MUTEXES };

struct arguments {
    uint64_t kind, n[6];
    uint8_t *image;
    uint64_t length;
};
typedef struct ntk_outcome step_function(uint8_t, uint32_t, uint32_t, uint32_t, uint32_t, uint32_t, uint32_t, uint8_t *, size_t);

/* Calls on the stack that ends at `top`; 32 bytes there are the arguments that C hands over on the stack. */
uint64_t call_on(unsigned char *top, step_function *step, const struct arguments *arguments);
__asm__(".globl call_on\n"
        "call_on:\n"
        "    push %rbp\n"
        "    mov %rsp, %rbp\n"
        "    mov %rdi, %rsp\n"
        "    mov %rsi, %rax\n"
        "    mov %rdx, %r10\n"
        "    push $0\n"
        "    push 64(%r10)\n"
        "    push 56(%r10)\n"
        "    push 48(%r10)\n"
        "    mov 0(%r10), %rdi\n"
        "    mov 8(%r10), %rsi\n"
        "    mov 16(%r10), %rdx\n"
        "    mov 24(%r10), %rcx\n"
        "    mov 32(%r10), %r8\n"
        "    mov 40(%r10), %r9\n"
        "    call *%rax\n"
        "    mov %rbp, %rsp\n"
        "    pop %rbp\n"
        "    ret\n");

static uint8_t table[NTK_IMAGE_SIZE];
static unsigned char stack[STACK_BYTES] __attribute__((aligned(64)));
static step_function *step;
static unsigned deepest;

/* Bytes that a call changed by the paint's own colour are not seen: so it is made twice, with two colours. */
static uint32_t call(uint8_t kind, const uint32_t n[6])
{
    static const int colours[2] = {0xA5, 0x5A};
    struct arguments arguments = {kind, {n[0], n[1], n[2], n[3], n[4], n[5]}, NULL, NTK_IMAGE_SIZE};
    uint8_t before[NTK_IMAGE_SIZE];
    uint32_t answer = 0;
    unsigned i, at;

    memcpy(before, table, sizeof table);
    for (i = 0; i < 2; i++) {
        memset(stack, colours[i], sizeof stack);
        memcpy(table, before, sizeof table);
        arguments.image = table;
        answer = (uint32_t)call_on(stack + sizeof stack, step, &arguments);
        for (at = 0; stack[at] == colours[i]; at++)
            continue;
        if (sizeof stack - 32 - at > deepest)
            deepest = (unsigned)(sizeof stack - 32 - at);
    }
    return answer;
}

static void make(uint8_t kind, uint32_t a, uint32_t b, uint32_t c, uint32_t wanted)
{
    uint32_t n[6] = {a, b, c, 0, 0, 0};
    uint32_t answer = call(kind, n);

    if (answer != wanted) {
        printf("call %02X (%u, %u, %u) is answered %u\n", kind, (unsigned)a, (unsigned)b, (unsigned)c, (unsigned)answer);
        exit(1);
    }
}

/* The longest chain that a table can have: a holder for each mutex, each but the first waiting for the mutex of the one before it. */
static void make_chain(void)
{
    uint32_t i;

    ntk_fresh(table, sizeof table);
    for (i = 0; i < HOLDERS; i++) {
        make(NTK_TASK_CREATE, i, 60 - i, 0, NTK_DONE);
        make(NTK_MUTEX_CREATE, i, 0, 0, NTK_DONE);
        make(NTK_MUTEX_WAIT, i, 1, 0, NTK_DONE);
        if (i > 0)
            make(NTK_MUTEX_WAIT, i - 1, 1, 0, NTK_BLOCKS);
    }
    make(NTK_TASK_CREATE, HOLDERS, 5, 0, NTK_DONE);
    make(NTK_MUTEX_WAIT, HOLDERS - 1, 1, 3, NTK_BLOCKS);
}

/* All in the chain rise by the wait that makes it, and fall by each call that ends it. */
static void measure_chains(void)
{
    static const struct call ends[] = {{NTK_MUTEX_ABORT, {HOLDERS - 1}}, {NTK_MUTEX_DELETE, {HOLDERS - 1, 1}}, {NTK_TASK_DELETE, {HOLDERS}},
                                       {NTK_CHANGE_PRIORITY, {HOLDERS, 62}}, {NTK_CHANGE_PRIORITY, {HOLDERS, 0}}, {NTK_MUTEX_POST, {0}}};
    unsigned i;

    for (i = 0; i < sizeof ends / sizeof *ends; i++) {
        make_chain();
        make(ends[i].kind, ends[i].n[0], ends[i].n[1], 0, NTK_DONE);
    }
    make_chain();
    for (i = 0; i < 3; i++)
        make(NTK_TICK | NTK_INTERRUPT, 0, 0, 0, NTK_DONE);
}

static void measure_traffic(void)
{
    uint64_t seed = 1;
    unsigned i;

    ntk_fresh(table, sizeof table);
    for (i = 0; i < CALLS; i++) {
        struct call c = some_call(&seed);

        call(c.kind, c.n);
    }
}

int main(void)
{
    static step_function *const steps[2] = {ntk_step, ntk_serve};
    unsigned i;

    for (i = 0; i < 2; i++) {
        step = steps[i];
        deepest = 0;
        measure_chains();
        measure_traffic();
        printf("%s %u\n", i == 0 ? "ntk_step" : "ntk_serve", deepest);
    }
    return 0;
}
