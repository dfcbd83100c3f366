# uint64_t call_below(uint64_t *top, void (*function)(void), const uint64_t *first)
# Calls `function` with the stack pointer at `top`, where the arguments after the sixth already lie; the first six are at `first`.
        .globl  call_below
        .type   call_below, @function
call_below:
        push    %rbp
        mov     %rsp, %rbp
        mov     %rsi, %rax
        mov     %rdx, %r10
        mov     %rdi, %rsp
        mov     0(%r10), %rdi
        mov     8(%r10), %rsi
        mov     16(%r10), %rdx
        mov     24(%r10), %rcx
        mov     32(%r10), %r8
        mov     40(%r10), %r9
        call    *%rax
        mov     %rbp, %rsp
        pop     %rbp
        ret
        .size   call_below, . - call_below
        .section .note.GNU-stack, "", @progbits
