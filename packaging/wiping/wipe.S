/* Overwrites the part of the stack that calls have left behind, and the registers that a call needn't keep.
 *
 * void wipe_below(size_t size): `size` bytes below the caller's frame, in eights. The vector registers are those that the processor has: the
 * memory functions of the C library use them, too, when they copy a key. */
#ifdef __CET__
#include <cet.h>
#else
#define _CET_ENDBR
#endif

    .text
    .globl wipe_below
    .hidden wipe_below
    .type wipe_below, @function
    .balign 16
wipe_below:
    .cfi_startproc
    _CET_ENDBR
    movq %rsp, %rdx
    .cfi_def_cfa_register rdx
    movq %rdi, %rcx
    shrq $3, %rcx
    andq $-8, %rdi
    subq %rdi, %rsp
    movq %rsp, %rdi
    xorl %eax, %eax
    rep stosq
    movq %rdx, %rsp
    .cfi_def_cfa_register rsp
    movzbl vectors(%rip), %eax
    testl %eax, %eax
    jz 1f
    cmpl $1, %eax
    je 2f
    vpxord %xmm16, %xmm16, %xmm16
    vpxord %xmm17, %xmm17, %xmm17
    vpxord %xmm18, %xmm18, %xmm18
    vpxord %xmm19, %xmm19, %xmm19
    vpxord %xmm20, %xmm20, %xmm20
    vpxord %xmm21, %xmm21, %xmm21
    vpxord %xmm22, %xmm22, %xmm22
    vpxord %xmm23, %xmm23, %xmm23
    vpxord %xmm24, %xmm24, %xmm24
    vpxord %xmm25, %xmm25, %xmm25
    vpxord %xmm26, %xmm26, %xmm26
    vpxord %xmm27, %xmm27, %xmm27
    vpxord %xmm28, %xmm28, %xmm28
    vpxord %xmm29, %xmm29, %xmm29
    vpxord %xmm30, %xmm30, %xmm30
    vpxord %xmm31, %xmm31, %xmm31
2:  vzeroall
    jmp 3f
1:  pxor %xmm0, %xmm0
    pxor %xmm1, %xmm1
    pxor %xmm2, %xmm2
    pxor %xmm3, %xmm3
    pxor %xmm4, %xmm4
    pxor %xmm5, %xmm5
    pxor %xmm6, %xmm6
    pxor %xmm7, %xmm7
    pxor %xmm8, %xmm8
    pxor %xmm9, %xmm9
    pxor %xmm10, %xmm10
    pxor %xmm11, %xmm11
    pxor %xmm12, %xmm12
    pxor %xmm13, %xmm13
    pxor %xmm14, %xmm14
    pxor %xmm15, %xmm15
3:  xorl %eax, %eax
    xorl %edx, %edx
    xorl %esi, %esi
    xorl %edi, %edi
    xorl %r8d, %r8d
    xorl %r9d, %r9d
    xorl %r10d, %r10d
    xorl %r11d, %r11d
    ret
    .cfi_endproc
    .size wipe_below, .-wipe_below

    .section .note.GNU-stack,"",@progbits
