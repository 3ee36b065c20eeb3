# The archive's own clearing, x86-64: what stands where the compiler calls memset (the Makefile renames these calls),
# and the calls that clear what others have left behind. No proof speaks of these lines: tests/memory.c and the probe
# do.
    .intel_syntax noprefix
    .text
    .globl private_fill
    .hidden private_fill
    .type private_fill, @function

# (to, value, bytes) -> to; of the value the lowest byte
private_fill:
    .cfi_startproc
    mov rax, rdi
    movzx esi, sil
    imul esi, esi, 0x01010101
    xor ecx, ecx
    mov r8, rdx
    and r8, -4
    jz 2f
1:  mov [rdi + rcx], esi
    add rcx, 4
    cmp rcx, r8
    jne 1b
2:  cmp rcx, rdx
    je 3f
    mov [rdi + rcx], sil
    inc rcx
    jmp 2b
3:  ret
    .cfi_endproc
    .size private_fill, . - private_fill

    .globl flamivorse_clear_stack
    .type flamivorse_clear_stack, @function
    .equ BELOW, 16384       # bytes: more than any call takes (probe/left.py), with room for the frame that made it

# () -> nothing: the next one, with so many bytes
flamivorse_clear_stack:
    .cfi_startproc
    mov edi, BELOW
    .cfi_endproc
    .size flamivorse_clear_stack, . - flamivorse_clear_stack

    .globl flamivorse_clear_stack_of
    .type flamivorse_clear_stack_of, @function

# (bytes) -> nothing: zeros in so many bytes of the stack below the caller, rounded up to words of eight, and in every
# register that a call may leave changed
flamivorse_clear_stack_of:
    .cfi_startproc
    mov rdx, rsp
    .cfi_def_cfa_register rdx
    lea rcx, [rdi + 7]
    shr rcx, 3
    lea rax, [8 * rcx]
    sub rsp, rax
    xor eax, eax
    mov rdi, rsp
    rep stosq
    mov rsp, rdx
    .cfi_def_cfa_register rsp
    .irp register, edx, esi, edi, r8d, r9d, r10d, r11d
    xor \register, \register
    .endr
    .irp number, 0, 1, 2, 3, 4, 5, 6, 7, 8, 9, 10, 11, 12, 13, 14, 15
    pxor xmm\number, xmm\number
    .endr
    ret
    .cfi_endproc
    .size flamivorse_clear_stack_of, . - flamivorse_clear_stack_of

    .section .note.GNU-stack, "", @progbits
