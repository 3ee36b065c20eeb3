# A copy as C libraries have it, 16 bytes at a time and the rest one by one: a control, built into the archive in place
# of archive/copy.s.
    .intel_syntax noprefix
    .text
    .globl private_copy
    .hidden private_copy
    .type private_copy, @function

# (to, from, bytes) -> to
private_copy:
    mov rax, rdi
    xor ecx, ecx
    mov r8, rdx
    and r8, -16
    jz 2f
1:  movups xmm0, [rsi + rcx]
    movups [rdi + rcx], xmm0
    add rcx, 16
    cmp rcx, r8
    jne 1b
2:  cmp rcx, rdx
    je 3f
    movzx r9d, byte ptr [rsi + rcx]
    mov [rdi + rcx], r9b
    inc rcx
    jmp 2b
3:  ret
    .size private_copy, . - private_copy

    .section .note.GNU-stack, "", @progbits
