/* The stack that a call takes: how far below its caller's frame a byte is written, on a thread whose stack was painted before. */
#include <pthread.h>
#include <stdint.h>
#include <string.h>
#include "expect.h"

enum { STACK_BYTES = 1 << 20, STACK_EDGE = 1 << 16, STACK_MOST = 1 << 14 };
typedef struct { const char *name; void (*run)(void); } measured;
static struct { void (*run)(void); const uint8_t *stack; size_t depth; } painted;

/* The depth is looked for before the thread ends, since ending takes some stack too. */
static void *on_thread(void *p) {
    volatile uint8_t here = 0;
    size_t untouched = 0;
    painted.run();
    while (painted.stack[untouched] == JUNK) untouched++;
    painted.depth = (size_t)((uintptr_t)&here - (uintptr_t)(painted.stack + untouched));
    return p;
}

static void stack_of(const measured *call, uint8_t *stack) {
    pthread_attr_t how;
    pthread_t thread;
    call->run();                        /* once where it does not count: the linker may have work at a first call */
    memset(stack, JUNK, STACK_BYTES);
    painted.run = call->run, painted.stack = stack;
    pthread_attr_init(&how);
    if (pthread_attr_setstack(&how, stack, STACK_BYTES) != 0 || pthread_create(&thread, &how, on_thread, NULL) != 0) {
        printf("no thread\n");
        exit(2);
    }
    pthread_join(thread, NULL);
    pthread_attr_destroy(&how);
    printf(" %s %lu", call->name, (unsigned long)painted.depth);
    expect("the stack is small", painted.depth < STACK_MOST, 1);
}

/* Each of the calls, in their order. */
static void stacks_of(const measured *calls, size_t count) {
    uint8_t *memory = (uint8_t *)some(STACK_BYTES + STACK_EDGE), *stack = memory;
    stack += (STACK_EDGE - (uintptr_t)stack % STACK_EDGE) % STACK_EDGE;
    printf("bytes of stack, at most:");
    for (size_t i = 0; i < count; i++) stack_of(&calls[i], stack);
    printf("\n");
    free(memory);
}
