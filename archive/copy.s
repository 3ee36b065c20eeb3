# The archive's own copy, x86-64: it stands where the compiler calls memcpy (the Makefile renames these calls). It
# moves 32 bits at a time, in order, and the last bytes one by one, so that no register ever holds two shares; a C
# library's copy moves many at once. No proof speaks of these lines: tests/memory.c and the probe do.
    .intel_syntax noprefix
    .text
    .globl private_copy
    .hidden private_copy
    .type private_copy, @function

# (to, from, bytes) -> to
private_copy:
    .cfi_startproc
    mov rax, rdi
    xor ecx, ecx
    mov r8, rdx
    and r8, -4
    jz 2f
1:  mov r9d, [rsi + rcx]
    mov [rdi + rcx], r9d
    add rcx, 4
    cmp rcx, r8
    jne 1b
2:  cmp rcx, rdx
    je 3f
    movzx r9d, byte ptr [rsi + rcx]
    mov [rdi + rcx], r9b
    inc rcx
    jmp 2b
3:  ret
    .cfi_endproc
    .size private_copy, . - private_copy

    .section .note.GNU-stack, "", @progbits
