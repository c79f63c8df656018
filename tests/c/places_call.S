/* Calls with all registers set, for places.c, which defines `struct registers`.
 *
 * enter: loads the registers of `entry`, calls `function` on the stack at `stack`, and then stores the registers in `left`.
 * put_noted, which callers call: stores the registers in `noted`, shows `answer` the stack, and loads the registers of `outcome`. */

    .equ RDI, 0
    .equ RSI, 8
    .equ RDX, 16
    .equ RCX, 24
    .equ R8, 32
    .equ R9, 40
    .equ RAX, 48
    .equ VECTOR, 64
    .equ X87, VECTOR + 8 * 64

    .macro load_each command, register, registers
    .irp n, 0, 1, 2, 3, 4, 5, 6, 7
    \command \registers + VECTOR + 64 * \n(%rip), %\register\()\n
    .endr
    .endm

    .macro note_each command, register, registers
    .irp n, 0, 1, 2, 3, 4, 5, 6, 7
    \command %\register\()\n, \registers + VECTOR + 64 * \n(%rip)
    .endr
    .endm

    /* `vector_size` bytes of each vector register. */
    .macro vectors each, registers
    cmpl $32, vector_size(%rip)
    ja 3f
    je 2f
    \each movups, xmm, \registers
    jmp 4f
2:
    \each vmovups, ymm, \registers
    jmp 4f
3:
    \each vmovups, zmm, \registers
4:
    .endm

    .macro load registers
    vectors load_each, \registers
    movq \registers + RDI(%rip), %rdi
    movq \registers + RSI(%rip), %rsi
    movq \registers + RDX(%rip), %rdx
    movq \registers + RCX(%rip), %rcx
    movq \registers + R8(%rip), %r8
    movq \registers + R9(%rip), %r9
    movq \registers + RAX(%rip), %rax
    .endm

    .macro note registers
    movq %rdi, \registers + RDI(%rip)
    movq %rsi, \registers + RSI(%rip)
    movq %rdx, \registers + RDX(%rip)
    movq %rcx, \registers + RCX(%rip)
    movq %r8, \registers + R8(%rip)
    movq %r9, \registers + R9(%rip)
    movq %rax, \registers + RAX(%rip)
    vectors note_each, \registers
    .endm

    .text
    .globl enter
    .type enter, @function
enter:
    pushq %rbx
    pushq %rbp
    pushq %r12
    pushq %r13
    pushq %r14
    pushq %r15
    movq %rsp, own_stack(%rip)
    movq stack(%rip), %rsp
    load entry
    call *function(%rip)
    note left
    fxsave x87_state(%rip)
    fninit
    movups x87_state + 32(%rip), %xmm0
    movups %xmm0, left + X87(%rip)
    movups x87_state + 48(%rip), %xmm0
    movups %xmm0, left + X87 + 16(%rip)
    movq own_stack(%rip), %rsp
    popq %r15
    popq %r14
    popq %r13
    popq %r12
    popq %rbp
    popq %rbx
    ret
    .size enter, . - enter

    .globl put_noted
    .type put_noted, @function
put_noted:
    note noted
    leaq 8(%rsp), %rdi
    subq $8, %rsp
    call answer
    addq $8, %rsp
    fldt outcome + X87 + 16(%rip)
    fldt outcome + X87(%rip)
    load outcome
    ret
    .size put_noted, . - put_noted

    .local own_stack
    .comm own_stack, 8, 8
    .local x87_state
    .comm x87_state, 512, 16
    .section .note.GNU-stack, "", @progbits
