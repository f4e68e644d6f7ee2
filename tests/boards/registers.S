/*
 * Stands between the test and each call, and holds the call to what it may not change: the stack pointer, and the general registers
 * that belong to its caller. These have marks in them while the call runs. No stack is used, so that what was passed on it lies
 * where the call looks for it, and what is painted below stays the call's alone.
 * `watched CALL` is written behind this for each call; the linker is told to --wrap it.
 */
        .macro wrapped call
        .section .text.__wrap_\call, "ax"
        .globl __wrap_\call
        .type __wrap_\call, %function
__wrap_\call:
        .endm

#if defined __arm__
        .syntax unified
#ifdef __thumb__
        .arch armv7-m /* which is what code for a Cortex-M0 is tried on too */
        .thumb
#endif
        .macro watched call
        wrapped \call
        ldr     ip, =kept
        stmia   ip, {r4-r11, lr}
        str     sp, [ip, #36]
        ldr     ip, =marks
        ldmia   ip, {r4-r11}
        bl      __real_\call
        b       hold_registers
        .pool
        .endm

        .section .text.hold_registers, "ax"
        .type hold_registers, %function
hold_registers:
        ldr     ip, =marks
        .irp    n, 4, 5, 6, 7, 8, 9, 10, 11
        ldr     r2, [ip, #4 * (\n - 4)]
        cmp     r2, r\n
        bne     spoilt
        .endr
        ldr     ip, =kept
        ldr     r2, [ip, #36]
        cmp     r2, sp
        bne     spoilt
        ldmia   ip, {r4-r11, pc}
spoilt: bl      tell_spoilt
        .pool

        .section .rodata.marks, "a"
        .balign 4
marks:  .irp    n, 4, 5, 6, 7, 8, 9, 10, 11
        .word   0x5A3C9600 + \n
        .endr

#elif defined __riscv
        .macro watched call
        wrapped \call
        la      t0, kept
        sw      ra, 0(t0)
        sw      sp, 4(t0)
        .irp    n, 0, 1, 2, 3, 4, 5, 6, 7, 8, 9, 10, 11
        sw      s\n, 4 * \n + 8(t0)
        li      s\n, 0x5A3C9600 + \n
        .endr
        call    __real_\call
        tail    hold_registers
        .endm

        .section .text.hold_registers, "ax"
hold_registers:
        la      t0, kept
        lw      t1, 4(t0)
        bne     t1, sp, spoilt
        .irp    n, 0, 1, 2, 3, 4, 5, 6, 7, 8, 9, 10, 11
        li      t1, 0x5A3C9600 + \n
        bne     t1, s\n, spoilt
        lw      s\n, 4 * \n + 8(t0)
        .endr
        lw      ra, 0(t0)
        ret
spoilt: call    tell_spoilt

#elif defined __aarch64__
        .macro watched call
        wrapped \call
        adrp    x9, kept
        add     x9, x9, :lo12:kept
        mov     x10, sp
        str     x10, [x9]
        str     x30, [x9, #8]
        .irp    n, 19, 20, 21, 22, 23, 24, 25, 26, 27, 28, 29
        str     x\n, [x9, #8 * (\n - 17)]
        mov     x\n, #0x5A00 + \n
        .endr
        bl      __real_\call
        b       hold_registers
        .endm

        .section .text.hold_registers, "ax"
hold_registers:
        adrp    x9, kept
        add     x9, x9, :lo12:kept
        mov     x10, sp
        ldr     x11, [x9]
        cmp     x10, x11
        b.ne    spoilt
        .irp    n, 19, 20, 21, 22, 23, 24, 25, 26, 27, 28, 29
        mov     x10, #0x5A00 + \n
        cmp     x10, x\n
        b.ne    spoilt
        ldr     x\n, [x9, #8 * (\n - 17)]
        .endr
        ldr     x30, [x9, #8]
        ret
spoilt: bl      tell_spoilt
#endif

        .section .bss.kept, "aw", %nobits
        .balign 8
kept:   .space  128

