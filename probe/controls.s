# Hand-written controls for the probe (x86-64): what it must flag, and what it must not. controls.py has the arguments.
    .intel_syntax noprefix
    .text

    .macro function name
    .globl \name
    .type \name, @function
\name:
    .endm

# (x, _, y, _, s, _, z, _): z = x & y in the rules' order: s ^ x0 y1, then ^ x1 y0, then ^ x1 y1
function and_safe
    mov r10d, [r8]
    mov r11, [rsp+8]
    mov eax, [rdi]
    and eax, [rdx]
    xor eax, r10d
    mov [r11], eax
    mov eax, [rdi]
    and eax, [rdx+4]
    xor eax, r10d
    mov ecx, [rdi+4]
    and ecx, [rdx]
    xor eax, ecx
    mov ecx, [rdi+4]
    and ecx, [rdx+4]
    xor eax, ecx
    mov [r11+4], eax
    ret

# the same answer by way of (x0 ^ x1) & y1
function and_regrouped
    mov r10d, [r8]
    mov r11, [rsp+8]
    mov eax, [rdi]
    and eax, [rdx]
    xor eax, r10d
    mov [r11], eax
    mov eax, [rdi]
    xor eax, [rdi+4]
    and eax, [rdx+4]
    mov ecx, [rdi+4]
    and ecx, [rdx]
    xor eax, ecx
    xor eax, r10d
    mov [r11+4], eax
    ret

# (x0, r, g)
function b2a_safe
    mov eax, edi
    xor eax, edx
    sub eax, edx
    xor eax, edi
    mov ecx, edx
    xor ecx, esi
    mov r8d, edi
    xor r8d, ecx
    sub r8d, ecx
    xor eax, r8d
    ret

# (x, _): both shares in one 64-bit register; each half is uniform
function pair
    mov rax, [rdi]
    ret

# (x0, x1) -> x0 ^ x1
function in_register
    mov eax, edi
    xor eax, esi
    ret

# (x0, x1, z, _): only memory ever holds the secret
function in_memory
    mov [rdx], edi
    xor [rdx], esi
    mov dword ptr [rdx], 0
    ret

# (x0, x1): the secret in a vector register
function in_vector
    movd xmm0, edi
    movd xmm1, esi
    pxor xmm0, xmm1
    pxor xmm0, xmm0
    ret

# (a, r), a + r the secret: only the flags depend on it
function carry
    cmp edi, esi
    lea eax, [rdi]
    ret

# (x0, x1, words, _): the secret's bits where four fresh words have ones: each bit of it in one run of 16
function bias
    mov eax, [rdx]
    and eax, [rdx+4]
    and eax, [rdx+8]
    and eax, [rdx+12]
    and edi, eax
    and esi, eax
    xor edi, esi
    ret

# (x0, x1): a jump by the secret
function branch
    cmp edi, esi
    je 1f
    mov eax, 1
1:  ret

# (a, bytes, b, _): whether two texts are the same, told at the first byte that is not
function same_early
    xor ecx, ecx
1:  movzx eax, byte ptr [rdi+rcx]
    cmp al, [rdx+rcx]
    jne 2f
    inc rcx
    cmp rcx, rsi
    jne 1b
2:  sete al
    movzx eax, al
    ret

# (x0, x1, table, _): the word of the table at a share's lowest bits; the table is zeros
function lookup
    and edi, 15
    mov eax, [rdx+4*rdi]
    ret

# (value, shares, _, words, _): shares of the value with no mask on the second
function split_bare
    mov eax, [rcx]
    mov [rsi], eax
    mov [rsi+4], edi
    ret

# (value, _, shares, _, words, _): the value from memory, where a register holds it, into shares; then the first of them
# from the words again
function split_safe
    mov eax, [r8]
    xor eax, [rdi]
    mov [rdx+4], eax
    mov eax, [r8]
    mov [rdx], eax
    ret

# the same, with the value on the stack until its mask is there
function split_waiting
    mov eax, [rdi]
    mov [rsp-8], eax
    mov eax, [r8]
    xor eax, [rsp-8]
    mov [rdx+4], eax
    mov eax, [r8]
    mov [rdx], eax
    ret

# the same, with the value in a register once more after the splitting
function split_opened
    mov eax, [r8]
    xor eax, [rdi]
    mov [rdx+4], eax
    mov eax, [r8]
    mov [rdx], eax
    xor eax, [rdx+4]
    ret

# (x0, x1, z, _): z is x0 ^ x1
function open_at_end
    xor edi, esi
    mov [rdx], edi
    ret

# (x0, x1, y0, y1, z, _): z is x0 ^ x1, and y0 ^ y1 is in a register on the way
function open_and_more
    xor edx, ecx
    xor edi, esi
    mov [r8], edi
    ret

    .section .note.GNU-stack, "", @progbits
