@ Around each call of the library (the linker's --wrap): fills the free stack with a pattern, runs
@ the call with its registers and its stack as the caller left them, and keeps what it used.
@ wrap_state: r4, lr, sp at entry, tick before, tick after, lowest word written, r5
    .syntax unified
    .thumb
    .set PATTERN, 0xC5C5C5C5
    .set TICK, 0xE000E018

    .bss
    .align 3
    .global wrap_state
wrap_state: .space 32

    .text
    .macro around name, real
    .global \name
    .type \name, %function
    .thumb_func
\name:
    ldr r12, =wrap_state
    str r4, [r12]
    str lr, [r12, #4]
    str sp, [r12, #8]
    str r5, [r12, #24]
    ldr r4, =stack_limit
    ldr r5, =PATTERN
1:  str r5, [r4], #4
    cmp sp, r4
    bhi 1b
    ldr r5, [r12, #24]
    ldr r4, =TICK
    ldr r4, [r4]
    str r4, [r12, #12]
    ldr r4, [r12]
    ldr r12, =\real
    blx r12
    ldr r12, =TICK
    ldr r2, [r12]
    ldr r12, =wrap_state
    str r2, [r12, #16]
    ldr r12, =stack_limit
    ldr r3, =PATTERN
2:  ldr r2, [r12], #4
    cmp r2, r3
    beq 2b
    sub r2, r12, #4
    ldr r12, =wrap_state
    str r2, [r12, #20]
    ldr lr, [r12, #4]
    push {r0, r1, r2, lr}
    bl after_call
    pop {r0, r1, r2, pc}
    .ltorg
    .endm

    .thumb_func
nothing:
    bx lr

    around empty, nothing
#define CALL(name, exported, ...) around __wrap_##exported, __real_##exported
#include "calls.h"
