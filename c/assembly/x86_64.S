/* SPDX-License-Identifier: MIT
 * Copyright (c) 2026 the authors of komihash_rattle
 *
 * `make assembly` made this file from komihash_rattle_inline.h. Do not edit it.
 * Made of: SHA-256 5f39fc309d55353125e2e5bfa9337f2b71193819c65eb750e26a339d95a94107
 * Options: -O2 -fno-vectorize -fno-slp-vectorize -mllvm -disable-loop-idiom-memcpy -mllvm -enable-ext-tsp-block-placement -fPIC -ffunction-sections -falign-functions=64 -fno-addrsig -fno-ident -fno-verbose-asm -mno-red-zone -fcf-protection=full
 * Compiler: Debian clang version 19.1.7 (3~deb12u1)
 */
	.text
	.section	.note.gnu.property,"a",@note
	.p2align	3, 0x0
	.long	4
	.long	16
	.long	5
	.asciz	"GNU"
	.long	3221225474
	.long	4
	.long	3
	.p2align	3, 0x0
	.text
	.file	"komihash_rattle.c"
	.section	.text.komihash_v5,"ax",@progbits
	.globl	komihash_v5
	.p2align	6, 0x90
	.type	komihash_v5,@function
komihash_v5:
	.cfi_startproc
	endbr64
	cmpq	$8, %rsi
	jb	.LBB0_4
	cmpq	$64, %rsi
	jb	.LBB0_6
	cmpq	$128, %rsi
	jae	komi_hash_of_blocks_v5
	jmp	komi_hash_of_one_block_v5
.LBB0_6:
	cmpq	$15, %rsi
	jbe	komi_hash_of_one_word_v5
	cmpq	$16, %rsi
	jne	komi_hash_of_words_v5
	movq	%rdx, %rsi
	jmp	komi_hash_of_16_bytes_v5
.LBB0_4:
	testq	%rsi, %rsi
	jne	komi_hash_of_partial_word_v5
	movabsq	$6148914691236517205, %rcx
	andq	%rdx, %rcx
	movabsq	$2611923443488327891, %rax
	xorq	%rcx, %rax
	movabsq	$-6148914691236517206, %rsi
	andq	%rdx, %rsi
	movabsq	$4983270260364809079, %rcx
	xorq	%rsi, %rcx
	mulq	%rcx
	addq	%rdx, %rcx
	xorq	%rcx, %rax
	mulq	%rcx
	addq	%rdx, %rcx
	xorq	%rcx, %rax
	mulq	%rcx
	addq	%rdx, %rcx
	xorq	%rcx, %rax
	retq
.Lfunc_end0:
	.size	komihash_v5, .Lfunc_end0-komihash_v5
	.cfi_endproc

	.section	.text.komihash_v5_start,"ax",@progbits
	.globl	komihash_v5_start
	.p2align	6, 0x90
	.type	komihash_v5_start,@function
komihash_v5_start:
	.cfi_startproc
	endbr64
	xorps	%xmm0, %xmm0
	movups	%xmm0, 48(%rdi)
	movups	%xmm0, 32(%rdi)
	movups	%xmm0, 16(%rdi)
	movups	%xmm0, (%rdi)
	movabsq	$6148914691236517205, %rcx
	andq	%rsi, %rcx
	movabsq	$2611923443488327891, %rax
	xorq	%rcx, %rax
	movabsq	$-6148914691236517206, %rcx
	andq	%rsi, %rcx
	movabsq	$4983270260364809079, %rsi
	xorq	%rcx, %rsi
	mulq	%rsi
	movq	$0, 64(%rdi)
	addq	%rsi, %rdx
	movabsq	$-3998401319710606252, %rcx
	xorq	%rax, %rcx
	movabsq	$4577018097722394903, %rsi
	movq	%rdx, %r8
	xorq	%rsi, %r8
	xorq	%rax, %rsi
	movabsq	$1376283091369227076, %r9
	xorq	%rax, %r9
	movabsq	$-4732044268327596948, %r10
	xorq	%rdx, %r10
	movabsq	$1899778990314765756, %r11
	xorq	%rax, %r11
	movabsq	$-4563226453097033507, %rax
	xorq	%rdx, %rax
	movq	%rcx, 72(%rdi)
	movq	%r8, 80(%rdi)
	movq	%rsi, 88(%rdi)
	movq	%rdx, 96(%rdi)
	movq	%r9, 104(%rdi)
	movq	%r10, 112(%rdi)
	movq	%r11, 120(%rdi)
	movq	%rax, 128(%rdi)
	movw	$0, 136(%rdi)
	movq	%rdi, %rax
	retq
.Lfunc_end1:
	.size	komihash_v5_start, .Lfunc_end1-komihash_v5_start
	.cfi_endproc

	.section	.text.komihash_v5_init,"ax",@progbits
	.globl	komihash_v5_init
	.p2align	6, 0x90
	.type	komihash_v5_init,@function
komihash_v5_init:
	.cfi_startproc
	endbr64
	xorps	%xmm0, %xmm0
	movups	%xmm0, 48(%rdi)
	movups	%xmm0, 32(%rdi)
	movups	%xmm0, 16(%rdi)
	movups	%xmm0, (%rdi)
	movq	$0, 64(%rdi)
	movabsq	$6148914691236517205, %rcx
	andq	%rsi, %rcx
	movabsq	$2611923443488327891, %rax
	xorq	%rcx, %rax
	movabsq	$-6148914691236517206, %rcx
	andq	%rsi, %rcx
	movabsq	$4983270260364809079, %rsi
	xorq	%rcx, %rsi
	mulq	%rsi
	addq	%rsi, %rdx
	movabsq	$-3998401319710606252, %rcx
	xorq	%rax, %rcx
	movabsq	$4577018097722394903, %rsi
	movq	%rdx, %r8
	xorq	%rsi, %r8
	xorq	%rax, %rsi
	movabsq	$1376283091369227076, %r9
	xorq	%rax, %r9
	movabsq	$-4732044268327596948, %r10
	xorq	%rdx, %r10
	movabsq	$1899778990314765756, %r11
	xorq	%rax, %r11
	movabsq	$-4563226453097033507, %rax
	xorq	%rdx, %rax
	movq	%rcx, 72(%rdi)
	movq	%r8, 80(%rdi)
	movq	%rsi, 88(%rdi)
	movq	%rdx, 96(%rdi)
	movq	%r9, 104(%rdi)
	movq	%r10, 112(%rdi)
	movq	%r11, 120(%rdi)
	movq	%rax, 128(%rdi)
	movw	$0, 136(%rdi)
	retq
.Lfunc_end2:
	.size	komihash_v5_init, .Lfunc_end2-komihash_v5_init
	.cfi_endproc

	.section	.text.komihash_v5_write,"ax",@progbits
	.globl	komihash_v5_write
	.p2align	6, 0x90
	.type	komihash_v5_write,@function
komihash_v5_write:
	.cfi_startproc
	endbr64
	movq	64(%rdi), %rax
	leaq	(%rax,%rdx), %r8
	cmpq	$63, %r8
	ja	komi_stream_complete_blocks_v5
	movq	%r8, 64(%rdi)
	cmpq	$7, %rdx
	ja	.LBB3_4
	cmpq	$4, %rdx
	jae	.LBB3_3
	testq	%rdx, %rdx
	je	.LBB3_11
	movq	%rdx, %rcx
	shrq	%rcx
	movzbl	(%rsi,%rcx), %ecx
	shll	$8, %ecx
	movzbl	-1(%rsi,%rdx), %r9d
	shll	$16, %r9d
	xorl	%r8d, %r8d
	cmpq	$1, %rdx
	cmoveq	%r8, %rcx
	cmpq	$3, %rdx
	cmovneq	%r8, %r9
	movzbl	(%rsi), %r8d
	orq	%rcx, %r8
	orq	%r9, %r8
	jmp	.LBB3_12
.LBB3_11:
	xorl	%r8d, %r8d
	jmp	.LBB3_12
.LBB3_3:
	movl	-4(%rsi,%rdx), %r8d
	shll	$3, %edx
	negb	%dl
	movl	%edx, %ecx
	shrq	%cl, %r8
	movl	(%rsi), %ecx
	shlq	$32, %r8
	orq	%rcx, %r8
.LBB3_12:
	leal	(,%rax,8), %ecx
	movq	%r8, %rdx
	shlq	%cl, %rdx
	movl	%eax, %esi
	andl	$56, %esi
	orq	%rdx, (%rdi,%rsi)
	negb	%cl
	shrq	%cl, %r8
	notq	%rdx
	andq	%r8, %rdx
	addl	$8, %eax
	andl	$56, %eax
	orq	%rdx, (%rdi,%rax)
	retq
.LBB3_4:
	movq	(%rsi), %r9
	leal	(,%rax,8), %ecx
	shlq	%cl, %r9
	movl	%eax, %ecx
	shrl	$3, %ecx
	andl	$7, %ecx
	orq	%r9, (%rdi,%rcx,8)
	incq	%rcx
	andl	$7, %eax
	movl	$8, %r9d
	subq	%rax, %r9
	movq	%rdx, %rax
	subq	%r9, %rax
	cmpq	$16, %rax
	jb	.LBB3_9
	pushq	%rbx
	.cfi_def_cfa_offset 16
	.cfi_offset %rbx, -16
	leaq	(%rsi,%r9), %r10
	leaq	(%rdi,%rcx,8), %r11
	movq	%rax, %rbx
	andq	$-8, %rbx
	movups	-16(%rbx,%r10), %xmm0
	movups	%xmm0, -16(%rbx,%r11)
	movups	(%rsi,%r9), %xmm0
	movups	%xmm0, (%rdi,%rcx,8)
	cmpq	$32, %rax
	popq	%rbx
	.cfi_def_cfa_offset 8
	.cfi_restore %rbx
	jb	.LBB3_10
	shrq	$3, %rax
	movups	-32(%r10,%rax,8), %xmm0
	movups	%xmm0, -32(%r11,%rax,8)
	movups	16(%r10), %xmm0
	movups	%xmm0, 16(%r11)
	jmp	.LBB3_10
.LBB3_9:
	leaq	-8(%rdx), %rax
	cmpq	%rax, %r9
	cmovbq	%r9, %rax
	movq	(%rsi,%rax), %rax
	andl	$7, %ecx
	movq	%rax, (%rdi,%rcx,8)
.LBB3_10:
	movq	-8(%rsi,%rdx), %rax
	movl	%r8d, %ecx
	notl	%ecx
	shll	$3, %ecx
	shrq	%cl, %rax
	shrq	$8, %rax
	andq	$-8, %r8
	movq	%rax, (%rdi,%r8)
	retq
.Lfunc_end3:
	.size	komihash_v5_write, .Lfunc_end3-komihash_v5_write
	.cfi_endproc

	.section	.text.komihash_v5_finish,"ax",@progbits
	.globl	komihash_v5_finish
	.p2align	6, 0x90
	.type	komihash_v5_finish,@function
komihash_v5_finish:
	.cfi_startproc
	endbr64
	movq	80(%rdi), %rax
	movq	88(%rdi), %rcx
	movq	96(%rdi), %rsi
	cmpb	$1, 136(%rdi)
	je	.LBB4_1
	xorq	%rsi, %rax
	movq	%rax, %rdx
	xorq	%rcx, %rdx
	movq	64(%rdi), %r8
	testq	%r8, %r8
	jne	.LBB4_4
	xorl	%eax, %eax
	jmp	.LBB4_10
.LBB4_1:
	movq	128(%rdi), %r9
	movq	64(%rdi), %r8
	movq	120(%rdi), %rdx
	xorq	104(%rdi), %rdx
	xorq	72(%rdi), %rdx
	xorq	112(%rdi), %r9
	xorq	%rcx, %rdx
	xorq	%rax, %rsi
	xorq	%r9, %rsi
	testq	%r8, %r8
	je	.LBB4_2
.LBB4_4:
	movq	%r8, %r9
	shrq	$3, %r9
	cmpq	$16, %r8
	jb	.LBB4_8
	movq	(%rdi), %rax
	xorq	%rsi, %rax
	xorq	%rdx, %rax
	movq	8(%rdi), %rcx
	xorq	%rsi, %rcx
	mulq	%rcx
	addq	%rdx, %rsi
	movq	%rax, %rdx
	cmpq	$32, %r8
	jb	.LBB4_8
	xorq	16(%rdi), %rdx
	xorq	%rsi, %rdx
	movq	24(%rdi), %rcx
	xorq	%rsi, %rcx
	movq	%rdx, %rax
	mulq	%rcx
	addq	%rdx, %rsi
	movq	%rax, %rdx
	cmpq	$48, %r8
	jb	.LBB4_8
	xorq	32(%rdi), %rdx
	xorq	%rsi, %rdx
	movq	40(%rdi), %rcx
	xorq	%rsi, %rcx
	movq	%rdx, %rax
	mulq	%rcx
	addq	%rdx, %rsi
	movq	%rax, %rdx
.LBB4_8:
	leal	(,%r8,8), %ecx
	movl	$1, %eax
	shlq	%cl, %rax
	xorl	%ecx, %ecx
	testb	$8, %r8b
	cmoveq	%rax, %rcx
	andl	$6, %r9d
	subq	%rcx, %rax
	orq	(%rdi,%r9,8), %rcx
	orq	8(%rdi,%r9,8), %rax
	xorq	%rsi, %rdx
	xorq	%rcx, %rdx
	xorq	%rsi, %rax
.LBB4_11:
	mulq	%rdx
	addq	%rdx, %rsi
	xorq	%rsi, %rax
	mulq	%rsi
	addq	%rdx, %rsi
	xorq	%rsi, %rax
	retq
.LBB4_2:
	movzbl	137(%rdi), %eax
	incq	%rax
.LBB4_10:
	xorq	%rsi, %rax
	xorq	%rax, %rdx
	movq	%rsi, %rax
	jmp	.LBB4_11
.Lfunc_end4:
	.size	komihash_v5_finish, .Lfunc_end4-komihash_v5_finish
	.cfi_endproc

	.section	.text.komihash_v5_save,"ax",@progbits
	.globl	komihash_v5_save
	.p2align	6, 0x90
	.type	komihash_v5_save,@function
komihash_v5_save:
	.cfi_startproc
	endbr64
	cmpq	$131, %rdx
	jae	.LBB5_2
	xorl	%eax, %eax
	retq
.LBB5_2:
	pushq	%rbx
	.cfi_def_cfa_offset 16
	pushq	%rax
	.cfi_def_cfa_offset 24
	.cfi_offset %rbx, -16
	movzwl	136(%rdi), %eax
	movzbl	64(%rdi), %ecx
	movb	$5, (%rsi)
	movw	%ax, 1(%rsi)
	movb	%cl, 3(%rsi)
	movq	80(%rdi), %rax
	movq	96(%rdi), %rcx
	movq	112(%rdi), %rdx
	movq	128(%rdi), %r8
	movq	88(%rdi), %r9
	xorq	%rax, %r9
	movq	104(%rdi), %r10
	xorq	%rcx, %r10
	movq	120(%rdi), %r11
	xorq	%rdx, %r11
	movq	72(%rdi), %rbx
	xorq	%r8, %rbx
	movq	%r9, 4(%rsi)
	movq	%r10, 12(%rsi)
	movq	%r11, 20(%rsi)
	movq	%rbx, 28(%rsi)
	movq	%rcx, 36(%rsi)
	movq	%rdx, 44(%rsi)
	movq	%r8, 52(%rsi)
	movq	%rax, 60(%rsi)
	movq	64(%rdi), %rcx
	movq	%rcx, %rdx
	shrq	$3, %rdx
	cmpq	$8, %rcx
	jb	.LBB5_10
	leaq	-1(%rdx), %r8
	movl	%edx, %eax
	andl	$3, %eax
	cmpq	$3, %r8
	jb	.LBB5_4
	movq	%rdx, %r8
	andq	$-4, %r8
	xorl	%r9d, %r9d
	.p2align	4, 0x90
.LBB5_6:
	movq	(%rdi,%r9,8), %r10
	movq	%r10, 68(%rsi,%r9,8)
	movq	8(%rdi,%r9,8), %r10
	movq	%r10, 76(%rsi,%r9,8)
	movq	16(%rdi,%r9,8), %r10
	movq	%r10, 84(%rsi,%r9,8)
	movq	24(%rdi,%r9,8), %r10
	movq	%r10, 92(%rsi,%r9,8)
	addq	$4, %r9
	cmpq	%r9, %r8
	jne	.LBB5_6
	jmp	.LBB5_7
.LBB5_4:
	xorl	%r8d, %r8d
.LBB5_7:
	testq	%rax, %rax
	je	.LBB5_10
	leaq	(%rsi,%r8,8), %r9
	addq	$68, %r9
	leaq	(%rdi,%r8,8), %r8
	xorl	%r10d, %r10d
	.p2align	4, 0x90
.LBB5_9:
	movq	(%r8,%r10,8), %r11
	movq	%r11, (%r9,%r10,8)
	incq	%r10
	cmpq	%r10, %rax
	jne	.LBB5_9
.LBB5_10:
	leaq	68(%rcx), %rax
	movq	%rcx, %r8
	andq	$7, %r8
	je	.LBB5_16
	addq	$68, %rsi
	movq	(%rdi,%rdx,8), %rdx
	andq	$-8, %rcx
	addq	%rsi, %rcx
	movq	%rdx, (%rsp)
	cmpl	$4, %r8d
	jae	.LBB5_12
	cmpl	$1, %r8d
	je	.LBB5_14
	movw	%dx, (%rcx)
	movzwl	-2(%rsp,%r8), %edx
	movw	%dx, -2(%rcx,%r8)
	jmp	.LBB5_16
.LBB5_14:
	movb	%dl, (%rcx)
	jmp	.LBB5_16
.LBB5_12:
	movl	%edx, (%rcx)
	movl	-4(%rsp,%r8), %edx
	movl	%edx, -4(%rcx,%r8)
.LBB5_16:
	addq	$8, %rsp
	.cfi_def_cfa_offset 16
	popq	%rbx
	.cfi_def_cfa_offset 8
	.cfi_restore %rbx
	retq
.Lfunc_end5:
	.size	komihash_v5_save, .Lfunc_end5-komihash_v5_save
	.cfi_endproc

	.section	.text.komihash_v5_resume,"ax",@progbits
	.globl	komihash_v5_resume
	.p2align	6, 0x90
	.type	komihash_v5_resume,@function
komihash_v5_resume:
	.cfi_startproc
	endbr64
	cmpq	$68, %rdx
	jb	.LBB6_9
	cmpb	$5, (%rsi)
	jne	.LBB6_9
	movzbl	1(%rsi), %eax
	cmpb	$1, %al
	ja	.LBB6_9
	cmpb	$0, 2(%rsi)
	je	.LBB6_4
.LBB6_9:
	xorl	%eax, %eax
	retq
.LBB6_4:
	movzbl	3(%rsi), %ecx
	cmpq	$63, %rcx
	ja	.LBB6_9
	addq	$68, %rcx
	cmpq	%rdx, %rcx
	jne	.LBB6_9
	pushq	%rbx
	.cfi_def_cfa_offset 16
	subq	$80, %rsp
	.cfi_def_cfa_offset 96
	.cfi_offset %rbx, -16
	cmpb	$1, %al
	sete	%r8b
	xorps	%xmm0, %xmm0
	movaps	%xmm0, 48(%rsp)
	movaps	%xmm0, 32(%rsp)
	movaps	%xmm0, 16(%rsp)
	movaps	%xmm0, (%rsp)
	leaq	-68(%rdx), %rax
	movq	%rax, 64(%rsp)
	cmpq	$7, %rax
	ja	.LBB6_10
	cmpq	$4, %rax
	jae	.LBB6_8
	testq	%rax, %rax
	je	.LBB6_19
	movq	%rax, %rcx
	shrq	%rcx
	movzbl	68(%rsi,%rcx), %ecx
	shll	$8, %ecx
	movzbl	-1(%rsi,%rdx), %r9d
	shll	$16, %r9d
	xorl	%edx, %edx
	cmpq	$1, %rax
	cmoveq	%rdx, %rcx
	cmpq	$3, %rax
	cmovneq	%rdx, %r9
	movzbl	68(%rsi), %edx
	orq	%rcx, %rdx
	orq	%r9, %rdx
	movq	%rdx, (%rsp)
	jmp	.LBB6_18
.LBB6_10:
	movq	68(%rsi), %rcx
	movq	%rcx, (%rsp)
	leaq	-76(%rdx), %rcx
	cmpq	$16, %rcx
	jb	.LBB6_15
	movq	%rcx, %r9
	andq	$-8, %r9
	movups	60(%r9,%rsi), %xmm0
	movups	%xmm0, -8(%rsp,%r9)
	movups	76(%rsi), %xmm0
	movups	%xmm0, 8(%rsp)
	cmpq	$32, %rcx
	jb	.LBB6_17
	leaq	32(%rsp), %r9
	shrq	$3, %rcx
	movups	44(%rsi,%rcx,8), %xmm0
	movups	%xmm0, -24(%rsp,%rcx,8)
	movq	92(%rsi), %r10
	movq	100(%rsi), %rcx
	movq	%r10, 24(%rsp)
	jmp	.LBB6_16
.LBB6_8:
	movl	-4(%rsi,%rdx), %edx
	shll	$3, %eax
	negb	%al
	movl	%eax, %ecx
	shrq	%cl, %rdx
	movl	68(%rsi), %eax
	shlq	$32, %rdx
	orq	%rax, %rdx
	movq	%rdx, (%rsp)
	jmp	.LBB6_18
.LBB6_19:
	xorl	%edx, %edx
	movq	%rdx, (%rsp)
	jmp	.LBB6_18
.LBB6_15:
	leaq	8(%rsp), %r9
	cmpq	$8, %rcx
	movl	$8, %r10d
	cmovbq	%rcx, %r10
	movq	68(%rsi,%r10), %rcx
.LBB6_16:
	movq	%rcx, (%r9)
.LBB6_17:
	movq	-8(%rsi,%rdx), %rdx
	movl	%eax, %ecx
	notl	%ecx
	shll	$3, %ecx
	shrq	%cl, %rdx
	shrq	$8, %rdx
	andq	$-8, %rax
	movq	%rdx, (%rsp,%rax)
.LBB6_18:
	movq	64(%rsp), %rax
	movq	%rax, 64(%rdi)
	movq	(%rsp), %rax
	movq	8(%rsp), %rcx
	movaps	16(%rsp), %xmm0
	movaps	32(%rsp), %xmm1
	movaps	48(%rsp), %xmm2
	movups	%xmm2, 48(%rdi)
	movups	%xmm1, 32(%rdi)
	movups	%xmm0, 16(%rdi)
	movq	%rax, (%rdi)
	movq	%rcx, 8(%rdi)
	movq	36(%rsi), %rax
	movq	44(%rsi), %rcx
	movq	52(%rsi), %rdx
	movq	60(%rsi), %r9
	movq	28(%rsi), %r10
	xorq	%rdx, %r10
	movq	4(%rsi), %r11
	xorq	%r9, %r11
	movq	12(%rsi), %rbx
	xorq	%rax, %rbx
	movq	20(%rsi), %rsi
	xorq	%rcx, %rsi
	movq	%r10, 72(%rdi)
	movq	%r9, 80(%rdi)
	movq	%r11, 88(%rdi)
	movq	%rax, 96(%rdi)
	movq	%rbx, 104(%rdi)
	movq	%rcx, 112(%rdi)
	movq	%rsi, 120(%rdi)
	movq	%rdx, 128(%rdi)
	movb	%r8b, 136(%rdi)
	movb	$0, 137(%rdi)
	movb	$1, %al
	addq	$80, %rsp
	.cfi_def_cfa_offset 16
	popq	%rbx
	.cfi_def_cfa_offset 8
	.cfi_restore %rbx
	retq
.Lfunc_end6:
	.size	komihash_v5_resume, .Lfunc_end6-komihash_v5_resume
	.cfi_endproc

	.section	.text.komihash_v5_rand_init,"ax",@progbits
	.globl	komihash_v5_rand_init
	.p2align	6, 0x90
	.type	komihash_v5_rand_init,@function
komihash_v5_rand_init:
	.cfi_startproc
	endbr64
	movq	%rdi, %rax
	mulq	%rdi
	leaq	(%rdi,%rdx), %rcx
	movabsq	$-6148914691236517206, %rdi
	addq	%rdi, %rcx
	xorq	%rdx, %rax
	movabsq	$6148914691236517205, %rsi
	addq	%rsi, %rax
	mulq	%rcx
	addq	%rdi, %rcx
	addq	%rdx, %rcx
	xorq	%rdx, %rax
	addq	%rsi, %rax
	mulq	%rcx
	addq	%rdi, %rcx
	addq	%rdx, %rcx
	xorq	%rdx, %rax
	addq	%rsi, %rax
	mulq	%rcx
	addq	%rdi, %rcx
	addq	%rdx, %rcx
	xorq	%rdx, %rax
	addq	%rsi, %rax
	movq	%rcx, %rdx
	retq
.Lfunc_end7:
	.size	komihash_v5_rand_init, .Lfunc_end7-komihash_v5_rand_init
	.cfi_endproc

	.section	.text.komihash_v5_rand_init_with_extra_seed,"ax",@progbits
	.globl	komihash_v5_rand_init_with_extra_seed
	.p2align	6, 0x90
	.type	komihash_v5_rand_init_with_extra_seed,@function
komihash_v5_rand_init_with_extra_seed:
	.cfi_startproc
	endbr64
	movq	%rsi, %rax
	mulq	%rdi
	leaq	(%rsi,%rdx), %rcx
	movabsq	$-6148914691236517206, %rdi
	addq	%rdi, %rcx
	xorq	%rdx, %rax
	movabsq	$6148914691236517205, %rsi
	addq	%rsi, %rax
	mulq	%rcx
	addq	%rdi, %rcx
	addq	%rdx, %rcx
	xorq	%rdx, %rax
	addq	%rsi, %rax
	mulq	%rcx
	addq	%rdi, %rcx
	addq	%rdx, %rcx
	xorq	%rdx, %rax
	addq	%rsi, %rax
	mulq	%rcx
	addq	%rdi, %rcx
	addq	%rdx, %rcx
	xorq	%rdx, %rax
	addq	%rsi, %rax
	movq	%rcx, %rdx
	retq
.Lfunc_end8:
	.size	komihash_v5_rand_init_with_extra_seed, .Lfunc_end8-komihash_v5_rand_init_with_extra_seed
	.cfi_endproc

	.section	.text.komihash_v5_rand_init_words,"ax",@progbits
	.globl	komihash_v5_rand_init_words
	.p2align	6, 0x90
	.type	komihash_v5_rand_init_words,@function
komihash_v5_rand_init_words:
	.cfi_startproc
	endbr64
	movq	%rsi, %rdx
	movq	%rdi, %rax
	retq
.Lfunc_end9:
	.size	komihash_v5_rand_init_words, .Lfunc_end9-komihash_v5_rand_init_words
	.cfi_endproc

	.section	.text.komihash_v5_rand_next,"ax",@progbits
	.globl	komihash_v5_rand_next
	.p2align	6, 0x90
	.type	komihash_v5_rand_next,@function
komihash_v5_rand_next:
	.cfi_startproc
	endbr64
	movq	8(%rdi), %rcx
	movq	%rcx, %rax
	mulq	(%rdi)
	movabsq	$-6148914691236517206, %rsi
	addq	%rcx, %rsi
	addq	%rdx, %rsi
	xorq	%rdx, %rax
	movabsq	$6148914691236517205, %rcx
	addq	%rcx, %rax
	movq	%rax, (%rdi)
	movq	%rsi, 8(%rdi)
	retq
.Lfunc_end10:
	.size	komihash_v5_rand_next, .Lfunc_end10-komihash_v5_rand_next
	.cfi_endproc

	.section	.text.komihash_v5_rand_fill,"ax",@progbits
	.globl	komihash_v5_rand_fill
	.p2align	6, 0x90
	.type	komihash_v5_rand_fill,@function
komihash_v5_rand_fill:
	.cfi_startproc
	endbr64
	pushq	%r14
	.cfi_def_cfa_offset 16
	pushq	%rbx
	.cfi_def_cfa_offset 24
	pushq	%rax
	.cfi_def_cfa_offset 32
	.cfi_offset %rbx, -24
	.cfi_offset %r14, -16
	movq	%rdx, %r8
	movabsq	$-6148914691236517206, %r10
	movabsq	$6148914691236517205, %r11
	movq	(%rdi), %rcx
	movq	8(%rdi), %r9
	cmpq	$8, %rdx
	jb	.LBB11_3
	movq	%r8, %rbx
	shrq	$3, %rbx
	xorl	%r14d, %r14d
	.p2align	4, 0x90
.LBB11_2:
	movq	%r9, %rax
	mulq	%rcx
	addq	%r10, %r9
	addq	%rdx, %r9
	movq	%rax, %rcx
	xorq	%rdx, %rcx
	addq	%r11, %rcx
	movq	%rcx, (%rsi,%r14,8)
	incq	%r14
	cmpq	%r14, %rbx
	jne	.LBB11_2
.LBB11_3:
	movq	%r8, %rbx
	andq	$7, %rbx
	je	.LBB11_10
	movq	%rcx, %rax
	mulq	%r9
	addq	%r9, %r10
	movq	%rax, %rcx
	xorq	%rdx, %rcx
	addq	%r11, %rcx
	andq	$-8, %r8
	addq	%r8, %rsi
	movq	%rcx, (%rsp)
	cmpl	$4, %ebx
	jae	.LBB11_5
	cmpl	$1, %ebx
	je	.LBB11_7
	movw	%cx, (%rsi)
	movzwl	-2(%rsp,%rbx), %eax
	movw	%ax, -2(%rsi,%rbx)
	jmp	.LBB11_9
.LBB11_7:
	movb	%cl, (%rsi)
	jmp	.LBB11_9
.LBB11_5:
	movl	%ecx, (%rsi)
	movl	-4(%rsp,%rbx), %eax
	movl	%eax, -4(%rsi,%rbx)
.LBB11_9:
	addq	%rdx, %r10
	movq	%r10, %r9
.LBB11_10:
	movq	%rcx, (%rdi)
	movq	%r9, 8(%rdi)
	addq	$8, %rsp
	.cfi_def_cfa_offset 24
	popq	%rbx
	.cfi_def_cfa_offset 16
	popq	%r14
	.cfi_def_cfa_offset 8
	retq
.Lfunc_end11:
	.size	komihash_v5_rand_fill, .Lfunc_end11-komihash_v5_rand_fill
	.cfi_endproc

	.section	.text.komihash_v5_pad,"ax",@progbits
	.globl	komihash_v5_pad
	.p2align	6, 0x90
	.type	komihash_v5_pad,@function
komihash_v5_pad:
	.cfi_startproc
	endbr64
	movq	%rsi, %rax
	shrq	$3, %rax
	cmpq	%rcx, %rax
	jb	.LBB12_1
	xorl	%eax, %eax
	retq
.LBB12_1:
	cmpq	$7, %rsi
	jbe	.LBB12_2
	movq	-8(%rdi,%rsi), %r9
	shll	$3, %esi
	movl	$1, %r8d
	movl	%esi, %ecx
	shldq	%cl, %r9, %r8
	leaq	-1(%rax), %rsi
	movl	%eax, %ecx
	andl	$3, %ecx
	cmpq	$3, %rsi
	jb	.LBB12_7
	movq	%rax, %rsi
	andq	$-4, %rsi
	xorl	%r9d, %r9d
	.p2align	4, 0x90
.LBB12_9:
	movq	(%rdi,%r9,8), %r10
	movq	%r10, (%rdx,%r9,8)
	movq	8(%rdi,%r9,8), %r10
	movq	%r10, 8(%rdx,%r9,8)
	movq	16(%rdi,%r9,8), %r10
	movq	%r10, 16(%rdx,%r9,8)
	movq	24(%rdi,%r9,8), %r10
	movq	%r10, 24(%rdx,%r9,8)
	addq	$4, %r9
	cmpq	%r9, %rsi
	jne	.LBB12_9
	jmp	.LBB12_10
.LBB12_7:
	xorl	%esi, %esi
.LBB12_10:
	testq	%rcx, %rcx
	je	.LBB12_16
	leaq	(%rdx,%rsi,8), %r9
	leaq	(%rdi,%rsi,8), %rsi
	xorl	%edi, %edi
	.p2align	4, 0x90
.LBB12_12:
	movq	(%rsi,%rdi,8), %r10
	movq	%r10, (%r9,%rdi,8)
	incq	%rdi
	cmpq	%rdi, %rcx
	jne	.LBB12_12
	jmp	.LBB12_16
.LBB12_2:
	testq	%rsi, %rsi
	je	.LBB12_13
	cmpq	$4, %rsi
	jb	.LBB12_14
	movl	-4(%rdi,%rsi), %ecx
	movabsq	$4294967296, %r8
	orq	%rcx, %r8
	shll	$3, %esi
	negb	%sil
	movl	%esi, %ecx
	shrq	%cl, %r8
	movl	(%rdi), %ecx
	shlq	$32, %r8
.LBB12_15:
	orq	%rcx, %r8
.LBB12_16:
	movq	%r8, (%rdx,%rax,8)
	incq	%rax
	retq
.LBB12_13:
	xorl	%r8d, %r8d
	jmp	.LBB12_16
.LBB12_14:
	movq	%rsi, %rcx
	shrq	%rcx
	movzbl	(%rdi,%rcx), %ecx
	shll	$8, %ecx
	movzbl	-1(%rdi,%rsi), %r9d
	shll	$16, %r9d
	xorl	%r8d, %r8d
	cmpq	$1, %rsi
	cmoveq	%r8, %rcx
	cmpq	$3, %rsi
	cmovneq	%r8, %r9
	movzbl	(%rdi), %r8d
	shll	$3, %esi
	btsq	%rsi, %r8
	orq	%r9, %r8
	jmp	.LBB12_15
.Lfunc_end12:
	.size	komihash_v5_pad, .Lfunc_end12-komihash_v5_pad
	.cfi_endproc

	.section	.text.komihash_v5_unpad,"ax",@progbits
	.globl	komihash_v5_unpad
	.p2align	6, 0x90
	.type	komihash_v5_unpad,@function
komihash_v5_unpad:
	.cfi_startproc
	endbr64
	shrq	$3, %rcx
	leaq	-1(%rsi), %r8
	movq	$-1, %rax
	cmpq	%rcx, %r8
	jae	.LBB13_5
	movq	-8(%rdi,%rsi,8), %r9
	testq	%r9, %r9
	je	.LBB13_6
	bsrq	%r9, %rcx
	xorl	$56, %ecx
	shrl	$3, %ecx
	xorq	$7, %rcx
	shlq	$3, %r8
	orq	%rcx, %r8
	je	.LBB13_5
	shll	$3, %ecx
	shrq	%cl, %r9
	cmpq	$1, %r9
	je	.LBB13_4
.LBB13_5:
	retq
.LBB13_6:
	xorl	%r8d, %r8d
	cmpq	$1, %rsi
	setne	%r8b
	negq	%r8
	cmpq	$-1, %r8
	jne	.LBB13_7
	jmp	.LBB13_5
.LBB13_4:
	cmpq	$-1, %r8
	je	.LBB13_5
.LBB13_7:
	movq	%r8, %rax
	shrq	$3, %rax
	cmpq	$8, %r8
	jb	.LBB13_15
	leaq	-1(%rax), %rsi
	movl	%eax, %ecx
	andl	$3, %ecx
	cmpq	$3, %rsi
	jb	.LBB13_9
	movq	%rax, %rsi
	andq	$-4, %rsi
	xorl	%r9d, %r9d
	.p2align	4, 0x90
.LBB13_11:
	movq	(%rdi,%r9,8), %r10
	movq	%r10, (%rdx,%r9,8)
	movq	8(%rdi,%r9,8), %r10
	movq	%r10, 8(%rdx,%r9,8)
	movq	16(%rdi,%r9,8), %r10
	movq	%r10, 16(%rdx,%r9,8)
	movq	24(%rdi,%r9,8), %r10
	movq	%r10, 24(%rdx,%r9,8)
	addq	$4, %r9
	cmpq	%r9, %rsi
	jne	.LBB13_11
	jmp	.LBB13_12
.LBB13_9:
	xorl	%esi, %esi
.LBB13_12:
	testq	%rcx, %rcx
	je	.LBB13_15
	leaq	(%rdx,%rsi,8), %r9
	leaq	(%rdi,%rsi,8), %rsi
	xorl	%r10d, %r10d
	.p2align	4, 0x90
.LBB13_14:
	movq	(%rsi,%r10,8), %r11
	movq	%r11, (%r9,%r10,8)
	incq	%r10
	cmpq	%r10, %rcx
	jne	.LBB13_14
.LBB13_15:
	movq	%r8, %rcx
	andq	$7, %rcx
	je	.LBB13_18
	pushq	%rax
	.cfi_def_cfa_offset 16
	movq	(%rdi,%rax,8), %rax
	movq	%r8, %rsi
	andq	$-8, %rsi
	addq	%rsi, %rdx
	movq	%rax, (%rsp)
	cmpl	$4, %ecx
	jae	.LBB13_17
	cmpl	$1, %ecx
	jne	.LBB13_21
	movb	%al, (%rdx)
	jmp	.LBB13_22
.LBB13_18:
	.cfi_def_cfa_offset 8
	movq	%r8, %rax
	retq
.LBB13_21:
	.cfi_def_cfa_offset 16
	movw	%ax, (%rdx)
	movzwl	-2(%rsp,%rcx), %eax
	movw	%ax, -2(%rdx,%rcx)
	jmp	.LBB13_22
.LBB13_17:
	movl	%eax, (%rdx)
	movl	-4(%rsp,%rcx), %eax
	movl	%eax, -4(%rdx,%rcx)
.LBB13_22:
	movq	%r8, %rax
	addq	$8, %rsp
	.cfi_def_cfa_offset 8
	retq
.Lfunc_end13:
	.size	komihash_v5_unpad, .Lfunc_end13-komihash_v5_unpad
	.cfi_endproc

	.section	.text.komihash_v4,"ax",@progbits
	.globl	komihash_v4
	.p2align	6, 0x90
	.type	komihash_v4,@function
komihash_v4:
	.cfi_startproc
	endbr64
	cmpq	$8, %rsi
	jb	.LBB14_4
	cmpq	$64, %rsi
	jb	.LBB14_6
	cmpq	$128, %rsi
	jae	komi_hash_of_blocks_v4
	jmp	komi_hash_of_one_block_v4
.LBB14_6:
	cmpq	$15, %rsi
	jbe	komi_hash_of_one_word_v4
	cmpq	$16, %rsi
	jne	komi_hash_of_words_v4
	movq	%rdx, %rsi
	jmp	komi_hash_of_16_bytes_v4
.LBB14_4:
	testq	%rsi, %rsi
	jne	komi_hash_of_partial_word_v4
	movabsq	$6148914691236517205, %rcx
	andq	%rdx, %rcx
	movabsq	$2611923443488327891, %rax
	xorq	%rcx, %rax
	movabsq	$-6148914691236517206, %rsi
	andq	%rdx, %rsi
	movabsq	$4983270260364809079, %rcx
	xorq	%rsi, %rcx
	mulq	%rcx
	addq	%rdx, %rcx
	xorq	%rcx, %rax
	mulq	%rcx
	addq	%rdx, %rcx
	xorq	%rcx, %rax
	mulq	%rcx
	addq	%rdx, %rcx
	xorq	%rcx, %rax
	retq
.Lfunc_end14:
	.size	komihash_v4, .Lfunc_end14-komihash_v4
	.cfi_endproc

	.section	.text.komihash_v4_start,"ax",@progbits
	.globl	komihash_v4_start
	.p2align	6, 0x90
	.type	komihash_v4_start,@function
komihash_v4_start:
	.cfi_startproc
	endbr64
	xorps	%xmm0, %xmm0
	movups	%xmm0, 48(%rdi)
	movups	%xmm0, 32(%rdi)
	movups	%xmm0, 16(%rdi)
	movups	%xmm0, (%rdi)
	movabsq	$6148914691236517205, %rcx
	andq	%rsi, %rcx
	movabsq	$2611923443488327891, %rax
	xorq	%rcx, %rax
	movabsq	$-6148914691236517206, %rcx
	andq	%rsi, %rcx
	movabsq	$4983270260364809079, %rsi
	xorq	%rcx, %rsi
	mulq	%rsi
	movq	$0, 64(%rdi)
	addq	%rsi, %rdx
	movabsq	$-3998401319710606252, %rcx
	xorq	%rax, %rcx
	movabsq	$4577018097722394903, %rsi
	movq	%rdx, %r8
	xorq	%rsi, %r8
	xorq	%rax, %rsi
	movabsq	$1376283091369227076, %r9
	xorq	%rax, %r9
	movabsq	$-4732044268327596948, %r10
	xorq	%rdx, %r10
	movabsq	$1899778990314765756, %r11
	xorq	%rax, %r11
	movabsq	$-4563226453097033507, %rax
	xorq	%rdx, %rax
	movq	%rcx, 72(%rdi)
	movq	%r8, 80(%rdi)
	movq	%rsi, 88(%rdi)
	movq	%rdx, 96(%rdi)
	movq	%r9, 104(%rdi)
	movq	%r10, 112(%rdi)
	movq	%r11, 120(%rdi)
	movq	%rax, 128(%rdi)
	movw	$0, 136(%rdi)
	movq	%rdi, %rax
	retq
.Lfunc_end15:
	.size	komihash_v4_start, .Lfunc_end15-komihash_v4_start
	.cfi_endproc

	.section	.text.komihash_v4_init,"ax",@progbits
	.globl	komihash_v4_init
	.p2align	6, 0x90
	.type	komihash_v4_init,@function
komihash_v4_init:
	.cfi_startproc
	endbr64
	xorps	%xmm0, %xmm0
	movups	%xmm0, 48(%rdi)
	movups	%xmm0, 32(%rdi)
	movups	%xmm0, 16(%rdi)
	movups	%xmm0, (%rdi)
	movq	$0, 64(%rdi)
	movabsq	$6148914691236517205, %rcx
	andq	%rsi, %rcx
	movabsq	$2611923443488327891, %rax
	xorq	%rcx, %rax
	movabsq	$-6148914691236517206, %rcx
	andq	%rsi, %rcx
	movabsq	$4983270260364809079, %rsi
	xorq	%rcx, %rsi
	mulq	%rsi
	addq	%rsi, %rdx
	movabsq	$-3998401319710606252, %rcx
	xorq	%rax, %rcx
	movabsq	$4577018097722394903, %rsi
	movq	%rdx, %r8
	xorq	%rsi, %r8
	xorq	%rax, %rsi
	movabsq	$1376283091369227076, %r9
	xorq	%rax, %r9
	movabsq	$-4732044268327596948, %r10
	xorq	%rdx, %r10
	movabsq	$1899778990314765756, %r11
	xorq	%rax, %r11
	movabsq	$-4563226453097033507, %rax
	xorq	%rdx, %rax
	movq	%rcx, 72(%rdi)
	movq	%r8, 80(%rdi)
	movq	%rsi, 88(%rdi)
	movq	%rdx, 96(%rdi)
	movq	%r9, 104(%rdi)
	movq	%r10, 112(%rdi)
	movq	%r11, 120(%rdi)
	movq	%rax, 128(%rdi)
	movw	$0, 136(%rdi)
	retq
.Lfunc_end16:
	.size	komihash_v4_init, .Lfunc_end16-komihash_v4_init
	.cfi_endproc

	.section	.text.komihash_v4_write,"ax",@progbits
	.globl	komihash_v4_write
	.p2align	6, 0x90
	.type	komihash_v4_write,@function
komihash_v4_write:
	.cfi_startproc
	endbr64
	movq	64(%rdi), %rax
	leaq	(%rax,%rdx), %r8
	cmpq	$63, %r8
	ja	komi_stream_complete_blocks_v4
	movq	%r8, 64(%rdi)
	cmpq	$7, %rdx
	ja	.LBB17_4
	cmpq	$4, %rdx
	jae	.LBB17_3
	testq	%rdx, %rdx
	je	.LBB17_11
	movq	%rdx, %rcx
	shrq	%rcx
	movzbl	(%rsi,%rcx), %ecx
	shll	$8, %ecx
	movzbl	-1(%rsi,%rdx), %r9d
	shll	$16, %r9d
	xorl	%r8d, %r8d
	cmpq	$1, %rdx
	cmoveq	%r8, %rcx
	cmpq	$3, %rdx
	cmovneq	%r8, %r9
	movzbl	(%rsi), %r8d
	orq	%rcx, %r8
	orq	%r9, %r8
	jmp	.LBB17_12
.LBB17_11:
	xorl	%r8d, %r8d
	jmp	.LBB17_12
.LBB17_3:
	movl	-4(%rsi,%rdx), %r8d
	shll	$3, %edx
	negb	%dl
	movl	%edx, %ecx
	shrq	%cl, %r8
	movl	(%rsi), %ecx
	shlq	$32, %r8
	orq	%rcx, %r8
.LBB17_12:
	leal	(,%rax,8), %ecx
	movq	%r8, %rdx
	shlq	%cl, %rdx
	movl	%eax, %esi
	andl	$56, %esi
	orq	%rdx, (%rdi,%rsi)
	negb	%cl
	shrq	%cl, %r8
	notq	%rdx
	andq	%r8, %rdx
	addl	$8, %eax
	andl	$56, %eax
	orq	%rdx, (%rdi,%rax)
	retq
.LBB17_4:
	movq	(%rsi), %r9
	leal	(,%rax,8), %ecx
	shlq	%cl, %r9
	movl	%eax, %ecx
	shrl	$3, %ecx
	andl	$7, %ecx
	orq	%r9, (%rdi,%rcx,8)
	incq	%rcx
	andl	$7, %eax
	movl	$8, %r9d
	subq	%rax, %r9
	movq	%rdx, %rax
	subq	%r9, %rax
	cmpq	$16, %rax
	jb	.LBB17_9
	pushq	%rbx
	.cfi_def_cfa_offset 16
	.cfi_offset %rbx, -16
	leaq	(%rsi,%r9), %r10
	leaq	(%rdi,%rcx,8), %r11
	movq	%rax, %rbx
	andq	$-8, %rbx
	movups	-16(%rbx,%r10), %xmm0
	movups	%xmm0, -16(%rbx,%r11)
	movups	(%rsi,%r9), %xmm0
	movups	%xmm0, (%rdi,%rcx,8)
	cmpq	$32, %rax
	popq	%rbx
	.cfi_def_cfa_offset 8
	.cfi_restore %rbx
	jb	.LBB17_10
	shrq	$3, %rax
	movups	-32(%r10,%rax,8), %xmm0
	movups	%xmm0, -32(%r11,%rax,8)
	movups	16(%r10), %xmm0
	movups	%xmm0, 16(%r11)
	jmp	.LBB17_10
.LBB17_9:
	leaq	-8(%rdx), %rax
	cmpq	%rax, %r9
	cmovbq	%r9, %rax
	movq	(%rsi,%rax), %rax
	andl	$7, %ecx
	movq	%rax, (%rdi,%rcx,8)
.LBB17_10:
	movq	-8(%rsi,%rdx), %rax
	movl	%r8d, %ecx
	notl	%ecx
	shll	$3, %ecx
	shrq	%cl, %rax
	shrq	$8, %rax
	andq	$-8, %r8
	movq	%rax, (%rdi,%r8)
	retq
.Lfunc_end17:
	.size	komihash_v4_write, .Lfunc_end17-komihash_v4_write
	.cfi_endproc

	.section	.text.komihash_v4_finish,"ax",@progbits
	.globl	komihash_v4_finish
	.p2align	6, 0x90
	.type	komihash_v4_finish,@function
komihash_v4_finish:
	.cfi_startproc
	endbr64
	movq	80(%rdi), %rax
	movq	88(%rdi), %rcx
	movq	96(%rdi), %rsi
	cmpb	$1, 136(%rdi)
	je	.LBB18_1
	xorq	%rsi, %rax
	movq	%rax, %rdx
	xorq	%rcx, %rdx
	movq	64(%rdi), %r8
	testq	%r8, %r8
	jne	.LBB18_4
	xorl	%eax, %eax
	jmp	.LBB18_10
.LBB18_1:
	movq	128(%rdi), %r9
	movq	64(%rdi), %r8
	movq	120(%rdi), %rdx
	xorq	104(%rdi), %rdx
	xorq	72(%rdi), %rdx
	xorq	112(%rdi), %r9
	xorq	%rcx, %rdx
	xorq	%rax, %rsi
	xorq	%r9, %rsi
	testq	%r8, %r8
	je	.LBB18_2
.LBB18_4:
	movq	%r8, %r9
	shrq	$3, %r9
	cmpq	$16, %r8
	jb	.LBB18_8
	movq	(%rdi), %rax
	xorq	%rsi, %rax
	xorq	%rdx, %rax
	movq	8(%rdi), %rcx
	xorq	%rsi, %rcx
	mulq	%rcx
	addq	%rdx, %rsi
	movq	%rax, %rdx
	cmpq	$32, %r8
	jb	.LBB18_8
	xorq	16(%rdi), %rdx
	xorq	%rsi, %rdx
	movq	24(%rdi), %rcx
	xorq	%rsi, %rcx
	movq	%rdx, %rax
	mulq	%rcx
	addq	%rdx, %rsi
	movq	%rax, %rdx
	cmpq	$48, %r8
	jb	.LBB18_8
	xorq	32(%rdi), %rdx
	xorq	%rsi, %rdx
	movq	40(%rdi), %rcx
	xorq	%rsi, %rcx
	movq	%rdx, %rax
	mulq	%rcx
	addq	%rdx, %rsi
	movq	%rax, %rdx
.LBB18_8:
	leal	-1(%r8), %eax
	andl	$56, %eax
	movq	(%rdi,%rax), %r10
	leal	-8(,%r8,8), %ecx
	shrq	%cl, %r10
	xorl	%eax, %eax
	testb	%r10b, %r10b
	sets	%al
	incq	%rax
	leal	(,%r8,8), %ecx
	shlq	%cl, %rax
	xorl	%ecx, %ecx
	testb	$8, %r8b
	cmoveq	%rax, %rcx
	andl	$6, %r9d
	subq	%rcx, %rax
	orq	(%rdi,%r9,8), %rcx
	orq	8(%rdi,%r9,8), %rax
	xorq	%rsi, %rdx
	xorq	%rcx, %rdx
	xorq	%rsi, %rax
.LBB18_11:
	mulq	%rdx
	addq	%rdx, %rsi
	xorq	%rsi, %rax
	mulq	%rsi
	addq	%rdx, %rsi
	xorq	%rsi, %rax
	retq
.LBB18_2:
	movzbl	137(%rdi), %eax
	incq	%rax
.LBB18_10:
	xorq	%rsi, %rax
	xorq	%rax, %rdx
	movq	%rsi, %rax
	jmp	.LBB18_11
.Lfunc_end18:
	.size	komihash_v4_finish, .Lfunc_end18-komihash_v4_finish
	.cfi_endproc

	.section	.text.komihash_v4_save,"ax",@progbits
	.globl	komihash_v4_save
	.p2align	6, 0x90
	.type	komihash_v4_save,@function
komihash_v4_save:
	.cfi_startproc
	endbr64
	cmpq	$131, %rdx
	jae	.LBB19_2
	xorl	%eax, %eax
	retq
.LBB19_2:
	pushq	%rbx
	.cfi_def_cfa_offset 16
	pushq	%rax
	.cfi_def_cfa_offset 24
	.cfi_offset %rbx, -16
	movzwl	136(%rdi), %eax
	movzbl	64(%rdi), %ecx
	movb	$4, (%rsi)
	movw	%ax, 1(%rsi)
	movb	%cl, 3(%rsi)
	movq	80(%rdi), %rax
	movq	96(%rdi), %rcx
	movq	112(%rdi), %rdx
	movq	128(%rdi), %r8
	movq	88(%rdi), %r9
	xorq	%rax, %r9
	movq	104(%rdi), %r10
	xorq	%rcx, %r10
	movq	120(%rdi), %r11
	xorq	%rdx, %r11
	movq	72(%rdi), %rbx
	xorq	%r8, %rbx
	movq	%r9, 4(%rsi)
	movq	%r10, 12(%rsi)
	movq	%r11, 20(%rsi)
	movq	%rbx, 28(%rsi)
	movq	%rcx, 36(%rsi)
	movq	%rdx, 44(%rsi)
	movq	%r8, 52(%rsi)
	movq	%rax, 60(%rsi)
	movq	64(%rdi), %rcx
	movq	%rcx, %rdx
	shrq	$3, %rdx
	cmpq	$8, %rcx
	jb	.LBB19_10
	leaq	-1(%rdx), %r8
	movl	%edx, %eax
	andl	$3, %eax
	cmpq	$3, %r8
	jb	.LBB19_4
	movq	%rdx, %r8
	andq	$-4, %r8
	xorl	%r9d, %r9d
	.p2align	4, 0x90
.LBB19_6:
	movq	(%rdi,%r9,8), %r10
	movq	%r10, 68(%rsi,%r9,8)
	movq	8(%rdi,%r9,8), %r10
	movq	%r10, 76(%rsi,%r9,8)
	movq	16(%rdi,%r9,8), %r10
	movq	%r10, 84(%rsi,%r9,8)
	movq	24(%rdi,%r9,8), %r10
	movq	%r10, 92(%rsi,%r9,8)
	addq	$4, %r9
	cmpq	%r9, %r8
	jne	.LBB19_6
	jmp	.LBB19_7
.LBB19_4:
	xorl	%r8d, %r8d
.LBB19_7:
	testq	%rax, %rax
	je	.LBB19_10
	leaq	(%rsi,%r8,8), %r9
	addq	$68, %r9
	leaq	(%rdi,%r8,8), %r8
	xorl	%r10d, %r10d
	.p2align	4, 0x90
.LBB19_9:
	movq	(%r8,%r10,8), %r11
	movq	%r11, (%r9,%r10,8)
	incq	%r10
	cmpq	%r10, %rax
	jne	.LBB19_9
.LBB19_10:
	leaq	68(%rcx), %rax
	movq	%rcx, %r8
	andq	$7, %r8
	je	.LBB19_16
	addq	$68, %rsi
	movq	(%rdi,%rdx,8), %rdx
	andq	$-8, %rcx
	addq	%rsi, %rcx
	movq	%rdx, (%rsp)
	cmpl	$4, %r8d
	jae	.LBB19_12
	cmpl	$1, %r8d
	je	.LBB19_14
	movw	%dx, (%rcx)
	movzwl	-2(%rsp,%r8), %edx
	movw	%dx, -2(%rcx,%r8)
	jmp	.LBB19_16
.LBB19_14:
	movb	%dl, (%rcx)
	jmp	.LBB19_16
.LBB19_12:
	movl	%edx, (%rcx)
	movl	-4(%rsp,%r8), %edx
	movl	%edx, -4(%rcx,%r8)
.LBB19_16:
	addq	$8, %rsp
	.cfi_def_cfa_offset 16
	popq	%rbx
	.cfi_def_cfa_offset 8
	.cfi_restore %rbx
	retq
.Lfunc_end19:
	.size	komihash_v4_save, .Lfunc_end19-komihash_v4_save
	.cfi_endproc

	.section	.text.komihash_v4_resume,"ax",@progbits
	.globl	komihash_v4_resume
	.p2align	6, 0x90
	.type	komihash_v4_resume,@function
komihash_v4_resume:
	.cfi_startproc
	endbr64
	cmpq	$68, %rdx
	jb	.LBB20_9
	cmpb	$4, (%rsi)
	jne	.LBB20_9
	movzbl	1(%rsi), %eax
	cmpb	$1, %al
	ja	.LBB20_9
	movzbl	2(%rsi), %ecx
	cmpb	%cl, %al
	jb	.LBB20_9
	movzbl	3(%rsi), %r8d
	cmpq	$63, %r8
	ja	.LBB20_9
	addq	$68, %r8
	cmpq	%rdx, %r8
	je	.LBB20_6
.LBB20_9:
	xorl	%eax, %eax
	retq
.LBB20_6:
	pushq	%r14
	.cfi_def_cfa_offset 16
	pushq	%rbx
	.cfi_def_cfa_offset 24
	subq	$72, %rsp
	.cfi_def_cfa_offset 96
	.cfi_offset %rbx, -24
	.cfi_offset %r14, -16
	cmpb	$1, %al
	sete	%r8b
	cmpb	$1, %cl
	sete	%r9b
	xorps	%xmm0, %xmm0
	movaps	%xmm0, 48(%rsp)
	movaps	%xmm0, 32(%rsp)
	movaps	%xmm0, 16(%rsp)
	movaps	%xmm0, (%rsp)
	leaq	-68(%rdx), %rax
	movq	%rax, 64(%rsp)
	cmpq	$7, %rax
	ja	.LBB20_10
	cmpq	$4, %rax
	jae	.LBB20_8
	testq	%rax, %rax
	je	.LBB20_19
	movq	%rax, %rcx
	shrq	%rcx
	movzbl	68(%rsi,%rcx), %ecx
	shll	$8, %ecx
	movzbl	-1(%rsi,%rdx), %r10d
	shll	$16, %r10d
	xorl	%edx, %edx
	cmpq	$1, %rax
	cmoveq	%rdx, %rcx
	cmpq	$3, %rax
	cmovneq	%rdx, %r10
	movzbl	68(%rsi), %edx
	orq	%rcx, %rdx
	orq	%r10, %rdx
	movq	%rdx, (%rsp)
	jmp	.LBB20_18
.LBB20_19:
	xorl	%edx, %edx
	movq	%rdx, (%rsp)
	jmp	.LBB20_18
.LBB20_8:
	movl	-4(%rsi,%rdx), %edx
	shll	$3, %eax
	negb	%al
	movl	%eax, %ecx
	shrq	%cl, %rdx
	movl	68(%rsi), %eax
	shlq	$32, %rdx
	orq	%rax, %rdx
	movq	%rdx, (%rsp)
	jmp	.LBB20_18
.LBB20_10:
	movq	68(%rsi), %rcx
	movq	%rcx, (%rsp)
	leaq	-76(%rdx), %rcx
	cmpq	$16, %rcx
	jb	.LBB20_15
	movq	%rcx, %r10
	andq	$-8, %r10
	movups	60(%r10,%rsi), %xmm0
	movups	%xmm0, -8(%rsp,%r10)
	movups	76(%rsi), %xmm0
	movups	%xmm0, 8(%rsp)
	cmpq	$32, %rcx
	jb	.LBB20_17
	leaq	32(%rsp), %r10
	shrq	$3, %rcx
	movups	44(%rsi,%rcx,8), %xmm0
	movups	%xmm0, -24(%rsp,%rcx,8)
	movq	92(%rsi), %r11
	movq	100(%rsi), %rcx
	movq	%r11, 24(%rsp)
	jmp	.LBB20_16
.LBB20_15:
	leaq	8(%rsp), %r10
	cmpq	$8, %rcx
	movl	$8, %r11d
	cmovbq	%rcx, %r11
	movq	68(%rsi,%r11), %rcx
.LBB20_16:
	movq	%rcx, (%r10)
.LBB20_17:
	movq	-8(%rsi,%rdx), %rdx
	movl	%eax, %ecx
	notl	%ecx
	shll	$3, %ecx
	shrq	%cl, %rdx
	shrq	$8, %rdx
	andq	$-8, %rax
	movq	%rdx, (%rsp,%rax)
.LBB20_18:
	movq	64(%rsp), %rax
	movq	%rax, 64(%rdi)
	movq	(%rsp), %rax
	movq	8(%rsp), %rcx
	movaps	16(%rsp), %xmm0
	movaps	32(%rsp), %xmm1
	movaps	48(%rsp), %xmm2
	movups	%xmm2, 48(%rdi)
	movups	%xmm1, 32(%rdi)
	movups	%xmm0, 16(%rdi)
	movq	%rax, (%rdi)
	movq	%rcx, 8(%rdi)
	movq	36(%rsi), %rax
	movq	44(%rsi), %rcx
	movq	52(%rsi), %rdx
	movq	60(%rsi), %r10
	movq	28(%rsi), %r11
	xorq	%rdx, %r11
	movq	4(%rsi), %rbx
	xorq	%r10, %rbx
	movq	12(%rsi), %r14
	xorq	%rax, %r14
	movq	20(%rsi), %rsi
	xorq	%rcx, %rsi
	movq	%r11, 72(%rdi)
	movq	%r10, 80(%rdi)
	movq	%rbx, 88(%rdi)
	movq	%rax, 96(%rdi)
	movq	%r14, 104(%rdi)
	movq	%rcx, 112(%rdi)
	movq	%rsi, 120(%rdi)
	movq	%rdx, 128(%rdi)
	movb	%r8b, 136(%rdi)
	movb	%r9b, 137(%rdi)
	movb	$1, %al
	addq	$72, %rsp
	.cfi_def_cfa_offset 24
	popq	%rbx
	.cfi_def_cfa_offset 16
	popq	%r14
	.cfi_def_cfa_offset 8
	.cfi_restore %rbx
	.cfi_restore %r14
	retq
.Lfunc_end20:
	.size	komihash_v4_resume, .Lfunc_end20-komihash_v4_resume
	.cfi_endproc

	.section	.text.komihash_v4_rand_init,"ax",@progbits
	.globl	komihash_v4_rand_init
	.p2align	6, 0x90
	.type	komihash_v4_rand_init,@function
komihash_v4_rand_init:
	.cfi_startproc
	endbr64
	movq	%rdi, %rax
	mulq	%rdi
	movq	%rdx, %rcx
	addq	%rdi, %rcx
	movabsq	$-6148914691236517206, %rdi
	addq	%rdi, %rcx
	xorq	%rcx, %rax
	mulq	%rcx
	movq	%rdx, %rsi
	addq	%rdi, %rcx
	addq	%rcx, %rsi
	xorq	%rsi, %rax
	mulq	%rsi
	movq	%rdx, %rcx
	addq	%rdi, %rsi
	addq	%rsi, %rcx
	xorq	%rcx, %rax
	mulq	%rcx
	addq	%rdi, %rcx
	addq	%rcx, %rdx
	xorq	%rdx, %rax
	retq
.Lfunc_end21:
	.size	komihash_v4_rand_init, .Lfunc_end21-komihash_v4_rand_init
	.cfi_endproc

	.section	.text.komihash_v4_rand_init_with_extra_seed,"ax",@progbits
	.globl	komihash_v4_rand_init_with_extra_seed
	.p2align	6, 0x90
	.type	komihash_v4_rand_init_with_extra_seed,@function
komihash_v4_rand_init_with_extra_seed:
	.cfi_startproc
	endbr64
	movq	%rsi, %rax
	mulq	%rdi
	movq	%rdx, %rcx
	addq	%rsi, %rcx
	movabsq	$-6148914691236517206, %rdi
	addq	%rdi, %rcx
	xorq	%rcx, %rax
	mulq	%rcx
	movq	%rdx, %rsi
	addq	%rdi, %rcx
	addq	%rcx, %rsi
	xorq	%rsi, %rax
	mulq	%rsi
	movq	%rdx, %rcx
	addq	%rdi, %rsi
	addq	%rsi, %rcx
	xorq	%rcx, %rax
	mulq	%rcx
	addq	%rdi, %rcx
	addq	%rcx, %rdx
	xorq	%rdx, %rax
	retq
.Lfunc_end22:
	.size	komihash_v4_rand_init_with_extra_seed, .Lfunc_end22-komihash_v4_rand_init_with_extra_seed
	.cfi_endproc

	.section	.text.komihash_v4_rand_init_words,"ax",@progbits
	.globl	komihash_v4_rand_init_words
	.p2align	6, 0x90
	.type	komihash_v4_rand_init_words,@function
komihash_v4_rand_init_words:
	.cfi_startproc
	endbr64
	movq	%rsi, %rdx
	movq	%rdi, %rax
	retq
.Lfunc_end23:
	.size	komihash_v4_rand_init_words, .Lfunc_end23-komihash_v4_rand_init_words
	.cfi_endproc

	.section	.text.komihash_v4_rand_next,"ax",@progbits
	.globl	komihash_v4_rand_next
	.p2align	6, 0x90
	.type	komihash_v4_rand_next,@function
komihash_v4_rand_next:
	.cfi_startproc
	endbr64
	movq	8(%rdi), %rcx
	movq	%rcx, %rax
	mulq	(%rdi)
	movabsq	$-6148914691236517206, %rsi
	addq	%rcx, %rsi
	addq	%rdx, %rsi
	xorq	%rsi, %rax
	movq	%rax, (%rdi)
	movq	%rsi, 8(%rdi)
	retq
.Lfunc_end24:
	.size	komihash_v4_rand_next, .Lfunc_end24-komihash_v4_rand_next
	.cfi_endproc

	.section	.text.komihash_v4_rand_fill,"ax",@progbits
	.globl	komihash_v4_rand_fill
	.p2align	6, 0x90
	.type	komihash_v4_rand_fill,@function
komihash_v4_rand_fill:
	.cfi_startproc
	endbr64
	movq	%rdx, %r8
	movabsq	$-6148914691236517206, %r9
	movq	(%rdi), %rdx
	movq	8(%rdi), %rcx
	cmpq	$8, %r8
	jb	.LBB25_7
	movq	%r8, %r10
	shrq	$3, %r10
	cmpq	$1, %r10
	je	.LBB25_2
	andq	$-2, %r10
	xorl	%r11d, %r11d
	.p2align	4, 0x90
.LBB25_4:
	movq	%rcx, %rax
	mulq	%rdx
	addq	%r9, %rcx
	addq	%rdx, %rcx
	xorq	%rcx, %rax
	movq	%rax, (%rsi,%r11,8)
	mulq	%rcx
	addq	%r9, %rcx
	addq	%rdx, %rcx
	movq	%rax, %rdx
	xorq	%rcx, %rdx
	movq	%rdx, 8(%rsi,%r11,8)
	addq	$2, %r11
	cmpq	%r11, %r10
	jne	.LBB25_4
	shlq	$3, %r10
	testb	$8, %r8b
	je	.LBB25_7
	jmp	.LBB25_6
.LBB25_2:
	xorl	%r10d, %r10d
	testb	$8, %r8b
	je	.LBB25_7
.LBB25_6:
	movq	%rcx, %rax
	mulq	%rdx
	addq	%r9, %rcx
	addq	%rdx, %rcx
	movq	%rax, %rdx
	xorq	%rcx, %rdx
	movq	%rdx, (%rsi,%r10)
.LBB25_7:
	movq	%r8, %r10
	andq	$7, %r10
	je	.LBB25_14
	pushq	%rax
	.cfi_def_cfa_offset 16
	movq	%rdx, %rax
	mulq	%rcx
	addq	%r9, %rcx
	addq	%rdx, %rcx
	movq	%rax, %rdx
	xorq	%rcx, %rdx
	andq	$-8, %r8
	addq	%r8, %rsi
	movq	%rdx, (%rsp)
	cmpl	$4, %r10d
	jae	.LBB25_9
	cmpl	$1, %r10d
	je	.LBB25_11
	movw	%dx, (%rsi)
	movzwl	-2(%rsp,%r10), %eax
	movw	%ax, -2(%rsi,%r10)
	jmp	.LBB25_13
.LBB25_11:
	movb	%dl, (%rsi)
	jmp	.LBB25_13
.LBB25_9:
	movl	%edx, (%rsi)
	movl	-4(%rsp,%r10), %eax
	movl	%eax, -4(%rsi,%r10)
.LBB25_13:
	addq	$8, %rsp
	.cfi_def_cfa_offset 8
.LBB25_14:
	movq	%rdx, (%rdi)
	movq	%rcx, 8(%rdi)
	retq
.Lfunc_end25:
	.size	komihash_v4_rand_fill, .Lfunc_end25-komihash_v4_rand_fill
	.cfi_endproc

	.section	.text.komihash_v4_pad,"ax",@progbits
	.globl	komihash_v4_pad
	.p2align	6, 0x90
	.type	komihash_v4_pad,@function
komihash_v4_pad:
	.cfi_startproc
	endbr64
	movq	%rsi, %rax
	shrq	$3, %rax
	cmpq	%rcx, %rax
	jb	.LBB26_1
	xorl	%eax, %eax
	retq
.LBB26_1:
	cmpq	$7, %rsi
	ja	.LBB26_6
	testq	%rsi, %rsi
	je	.LBB26_13
	movzbl	-1(%rdi,%rsi), %r9d
	movl	%r9d, %ecx
	shrb	$7, %cl
	movzbl	%cl, %r8d
	incq	%r8
	cmpq	$4, %rsi
	jb	.LBB26_14
	movl	-4(%rdi,%rsi), %ecx
	shlq	$32, %r8
	orq	%rcx, %r8
	shll	$3, %esi
	negb	%sil
	movl	%esi, %ecx
	shrq	%cl, %r8
	movl	(%rdi), %ecx
	shlq	$32, %r8
	orq	%rcx, %r8
	jmp	.LBB26_15
.LBB26_13:
	xorl	%r8d, %r8d
	jmp	.LBB26_15
.LBB26_6:
	movzbl	-1(%rdi,%rsi), %ecx
	shrb	$7, %cl
	movzbl	%cl, %r8d
	incq	%r8
	movq	-8(%rdi,%rsi), %r9
	shll	$3, %esi
	movl	%esi, %ecx
	shldq	%cl, %r9, %r8
	leaq	-1(%rax), %rsi
	movl	%eax, %ecx
	andl	$3, %ecx
	cmpq	$3, %rsi
	jb	.LBB26_7
	movq	%rax, %rsi
	andq	$-4, %rsi
	xorl	%r9d, %r9d
	.p2align	4, 0x90
.LBB26_9:
	movq	(%rdi,%r9,8), %r10
	movq	%r10, (%rdx,%r9,8)
	movq	8(%rdi,%r9,8), %r10
	movq	%r10, 8(%rdx,%r9,8)
	movq	16(%rdi,%r9,8), %r10
	movq	%r10, 16(%rdx,%r9,8)
	movq	24(%rdi,%r9,8), %r10
	movq	%r10, 24(%rdx,%r9,8)
	addq	$4, %r9
	cmpq	%r9, %rsi
	jne	.LBB26_9
	jmp	.LBB26_10
.LBB26_7:
	xorl	%esi, %esi
.LBB26_10:
	testq	%rcx, %rcx
	je	.LBB26_15
	leaq	(%rdx,%rsi,8), %r9
	leaq	(%rdi,%rsi,8), %rsi
	xorl	%edi, %edi
	.p2align	4, 0x90
.LBB26_12:
	movq	(%rsi,%rdi,8), %r10
	movq	%r10, (%r9,%rdi,8)
	incq	%rdi
	cmpq	%rdi, %rcx
	jne	.LBB26_12
.LBB26_15:
	movq	%r8, (%rdx,%rax,8)
	incq	%rax
	retq
.LBB26_14:
	movq	%rsi, %rcx
	shrq	%rcx
	movzbl	(%rdi,%rcx), %r10d
	shll	$8, %r10d
	shll	$16, %r9d
	xorl	%ecx, %ecx
	cmpq	$1, %rsi
	cmoveq	%rcx, %r10
	cmpq	$3, %rsi
	cmovneq	%rcx, %r9
	shll	$3, %esi
	movl	%esi, %ecx
	shlq	%cl, %r8
	movzbl	(%rdi), %ecx
	orq	%r10, %r9
	orq	%rcx, %r9
	orq	%r9, %r8
	jmp	.LBB26_15
.Lfunc_end26:
	.size	komihash_v4_pad, .Lfunc_end26-komihash_v4_pad
	.cfi_endproc

	.section	.text.komihash_v4_unpad,"ax",@progbits
	.globl	komihash_v4_unpad
	.p2align	6, 0x90
	.type	komihash_v4_unpad,@function
komihash_v4_unpad:
	.cfi_startproc
	endbr64
	shrq	$3, %rcx
	leaq	-1(%rsi), %r8
	movq	$-1, %rax
	cmpq	%rcx, %r8
	jae	.LBB27_5
	movq	-8(%rdi,%rsi,8), %r9
	testq	%r9, %r9
	je	.LBB27_6
	bsrq	%r9, %rcx
	xorl	$56, %ecx
	shrl	$3, %ecx
	xorq	$7, %rcx
	shlq	$3, %r8
	orq	%rcx, %r8
	je	.LBB27_5
	shll	$3, %ecx
	shrq	%cl, %r9
	leaq	-1(%r8), %rcx
	movq	%rcx, %rsi
	andq	$-8, %rsi
	movq	(%rdi,%rsi), %rsi
	shll	$3, %ecx
	shrq	%cl, %rsi
	xorl	%ecx, %ecx
	testb	%sil, %sil
	sets	%cl
	incq	%rcx
	cmpq	%r9, %rcx
	je	.LBB27_4
.LBB27_5:
	retq
.LBB27_6:
	xorl	%r8d, %r8d
	cmpq	$1, %rsi
	setne	%r8b
	negq	%r8
	cmpq	$-1, %r8
	jne	.LBB27_7
	jmp	.LBB27_5
.LBB27_4:
	cmpq	$-1, %r8
	je	.LBB27_5
.LBB27_7:
	movq	%r8, %rax
	shrq	$3, %rax
	cmpq	$8, %r8
	jb	.LBB27_15
	leaq	-1(%rax), %rsi
	movl	%eax, %ecx
	andl	$3, %ecx
	cmpq	$3, %rsi
	jb	.LBB27_9
	movq	%rax, %rsi
	andq	$-4, %rsi
	xorl	%r9d, %r9d
	.p2align	4, 0x90
.LBB27_11:
	movq	(%rdi,%r9,8), %r10
	movq	%r10, (%rdx,%r9,8)
	movq	8(%rdi,%r9,8), %r10
	movq	%r10, 8(%rdx,%r9,8)
	movq	16(%rdi,%r9,8), %r10
	movq	%r10, 16(%rdx,%r9,8)
	movq	24(%rdi,%r9,8), %r10
	movq	%r10, 24(%rdx,%r9,8)
	addq	$4, %r9
	cmpq	%r9, %rsi
	jne	.LBB27_11
	jmp	.LBB27_12
.LBB27_9:
	xorl	%esi, %esi
.LBB27_12:
	testq	%rcx, %rcx
	je	.LBB27_15
	leaq	(%rdx,%rsi,8), %r9
	leaq	(%rdi,%rsi,8), %rsi
	xorl	%r10d, %r10d
	.p2align	4, 0x90
.LBB27_14:
	movq	(%rsi,%r10,8), %r11
	movq	%r11, (%r9,%r10,8)
	incq	%r10
	cmpq	%r10, %rcx
	jne	.LBB27_14
.LBB27_15:
	movq	%r8, %rcx
	andq	$7, %rcx
	je	.LBB27_18
	pushq	%rax
	.cfi_def_cfa_offset 16
	movq	(%rdi,%rax,8), %rax
	movq	%r8, %rsi
	andq	$-8, %rsi
	addq	%rsi, %rdx
	movq	%rax, (%rsp)
	cmpl	$4, %ecx
	jae	.LBB27_17
	cmpl	$1, %ecx
	jne	.LBB27_21
	movb	%al, (%rdx)
	jmp	.LBB27_22
.LBB27_18:
	.cfi_def_cfa_offset 8
	movq	%r8, %rax
	retq
.LBB27_21:
	.cfi_def_cfa_offset 16
	movw	%ax, (%rdx)
	movzwl	-2(%rsp,%rcx), %eax
	movw	%ax, -2(%rdx,%rcx)
	jmp	.LBB27_22
.LBB27_17:
	movl	%eax, (%rdx)
	movl	-4(%rsp,%rcx), %eax
	movl	%eax, -4(%rdx,%rcx)
.LBB27_22:
	movq	%r8, %rax
	addq	$8, %rsp
	.cfi_def_cfa_offset 8
	retq
.Lfunc_end27:
	.size	komihash_v4_unpad, .Lfunc_end27-komihash_v4_unpad
	.cfi_endproc

	.section	.text.komi_hash_of_blocks_v4,"ax",@progbits
	.p2align	6, 0x90
	.type	komi_hash_of_blocks_v4,@function
komi_hash_of_blocks_v4:
	.cfi_startproc
	pushq	%rbp
	.cfi_def_cfa_offset 16
	pushq	%r15
	.cfi_def_cfa_offset 24
	pushq	%r14
	.cfi_def_cfa_offset 32
	pushq	%r13
	.cfi_def_cfa_offset 40
	pushq	%r12
	.cfi_def_cfa_offset 48
	pushq	%rbx
	.cfi_def_cfa_offset 56
	subq	$16, %rsp
	.cfi_def_cfa_offset 72
	.cfi_offset %rbx, -56
	.cfi_offset %r12, -48
	.cfi_offset %r13, -40
	.cfi_offset %r14, -32
	.cfi_offset %r15, -24
	.cfi_offset %rbp, -16
	movabsq	$4577018097722394903, %r12
	movabsq	$6148914691236517205, %rcx
	andq	%rdx, %rcx
	movabsq	$2611923443488327891, %rax
	xorq	%rcx, %rax
	movabsq	$-6148914691236517206, %r8
	andq	%rdx, %r8
	movabsq	$4983270260364809079, %r9
	movzbl	-1(%rdi,%rsi), %ecx
	shrb	$7, %cl
	movzbl	%cl, %r10d
	incq	%r10
	movq	-8(%rdi,%rsi), %rdx
	leal	(,%rsi,8), %ecx
	shldq	%cl, %rdx, %r10
	movq	%r10, (%rsp)
	xorq	%r8, %r9
	mulq	%r9
	movq	%rax, %r15
	movq	%rdx, %r8
	addq	%r9, %r8
	movabsq	$-3998401319710606252, %rbx
	xorq	%rax, %rbx
	movq	%r8, %r10
	xorq	%r12, %r10
	movabsq	$1376283091369227076, %r14
	xorq	%rax, %r14
	movabsq	$-4732044268327596948, %r11
	xorq	%r8, %r11
	movabsq	$1899778990314765756, %r9
	xorq	%rax, %r9
	movabsq	$-4563226453097033507, %rbp
	xorq	%r8, %rbp
	cmpq	$191, %rsi
	jbe	.LBB28_1
	testb	$64, %sil
	je	.LBB28_3
	xorq	16(%rdi), %r14
	xorq	%r8, %r14
	xorq	32(%rdi), %r9
	xorq	%r11, %r9
	movq	(%rdi), %rcx
	xorq	%r15, %rcx
	xorq	48(%rdi), %rbx
	movq	24(%rdi), %rax
	xorq	%r11, %rax
	mulq	%r14
	movq	%rdx, %r15
	xorq	%r8, %rcx
	movq	8(%rdi), %rdx
	xorq	%r8, %rdx
	movq	%rax, %r14
	movq	%rdx, %rax
	mulq	%rcx
	addq	%r15, %r11
	addq	%rdx, %r8
	movq	40(%rdi), %rdx
	movq	56(%rdi), %r12
	addq	$64, %rdi
	addq	$-64, %rsi
	xorq	%rbp, %rdx
	movq	%rax, %r15
	movq	%rdx, %rax
	mulq	%r9
	xorq	%rbp, %rbx
	addq	%rdx, %rbp
	xorq	%r10, %r12
	movq	%rax, %r9
	movq	%r12, %rax
	mulq	%rbx
	addq	%rdx, %r10
	movq	%rax, %rbx
	jmp	.LBB28_5
.LBB28_3:
	xorq	%r12, %r15
	.p2align	4, 0x90
.LBB28_5:
	xorq	16(%rdi), %r14
	xorq	%r8, %r14
	xorq	32(%rdi), %r9
	xorq	(%rdi), %r15
	xorq	%r11, %r9
	xorq	%r10, %r15
	xorq	48(%rdi), %rbx
	xorq	%rbp, %rbx
	movq	24(%rdi), %rax
	xorq	%r11, %rax
	mulq	%r14
	movq	%rax, %r14
	movq	%rdx, %rcx
	addq	%r11, %rcx
	movq	8(%rdi), %rax
	xorq	%r8, %rax
	mulq	%r15
	movq	%rbp, %r11
	movq	%rax, %rbp
	movq	%rdx, %r15
	addq	%r8, %r15
	movq	40(%rdi), %rax
	xorq	%r11, %rax
	mulq	%r9
	movq	%rax, %r12
	movq	%rdx, %r9
	addq	%r11, %r9
	movq	56(%rdi), %rax
	xorq	%r10, %rax
	mulq	%rbx
	movq	%rax, %r13
	movq	%rdx, %rbx
	addq	%r10, %rbx
	xorq	80(%rdi), %r14
	xorq	96(%rdi), %r12
	xorq	%r15, %r14
	xorq	%rcx, %r12
	xorq	64(%rdi), %rbp
	xorq	112(%rdi), %r13
	movq	88(%rdi), %rax
	xorq	%rcx, %rax
	mulq	%r14
	xorq	%rbx, %rbp
	movq	72(%rdi), %r8
	xorq	%r15, %r8
	movq	%rax, %r14
	movq	%rdx, %r11
	movq	%rbp, %rax
	mulq	%r8
	addq	%rcx, %r11
	movq	%rdx, %r8
	addq	%r15, %r8
	movq	104(%rdi), %rcx
	movq	120(%rdi), %r10
	addq	$128, %rdi
	addq	$-128, %rsi
	xorq	%r9, %rcx
	movq	%rax, %r15
	movq	%rcx, %rax
	mulq	%r12
	xorq	%r9, %r13
	movq	%rdx, %rbp
	addq	%r9, %rbp
	xorq	%rbx, %r10
	movq	%rax, %r9
	movq	%r10, %rax
	mulq	%r13
	movq	%rdx, %r10
	addq	%rbx, %r10
	movq	%rax, %rbx
	cmpq	$127, %rsi
	ja	.LBB28_5
	jmp	.LBB28_6
.LBB28_1:
	xorq	16(%rdi), %r14
	xorq	%r8, %r14
	xorq	32(%rdi), %r9
	xorq	%r11, %r9
	movq	(%rdi), %rcx
	xorq	%r15, %rcx
	xorq	48(%rdi), %rbx
	xorq	%r8, %rcx
	xorq	%rbp, %rbx
	movq	24(%rdi), %rax
	xorq	%r11, %rax
	mulq	%r14
	movq	%rax, %r13
	movq	%rdx, %r14
	addq	%r11, %r14
	movq	8(%rdi), %rax
	xorq	%r8, %rax
	mulq	%rcx
	movq	%rax, %r12
	movq	%rdx, %r15
	addq	%r8, %r15
	movq	40(%rdi), %rax
	xorq	%rbp, %rax
	mulq	%r9
	movq	%rax, %r9
	addq	%rbp, %rdx
	movq	%rdx, 8(%rsp)
	movq	56(%rdi), %rax
	xorq	%r10, %rax
	mulq	%rbx
	movq	%rax, %rbp
	movq	%rdx, %rbx
	addq	%r10, %rbx
	leaq	128(%rdi), %r10
	xorq	80(%rdi), %r13
	addq	$-128, %rsi
	xorq	%r15, %r13
	xorq	96(%rdi), %r9
	xorq	%r14, %r9
	xorq	64(%rdi), %r12
	xorq	%rbx, %r12
	xorq	112(%rdi), %rbp
	movq	88(%rdi), %rax
	xorq	%r14, %rax
	mulq	%r13
	movq	%rdx, %r11
	addq	%r14, %r11
	movq	72(%rdi), %rcx
	xorq	%r15, %rcx
	movq	%rax, %r14
	movq	%r12, %rax
	mulq	%rcx
	movq	%rdx, %r8
	addq	%r15, %r8
	movq	104(%rdi), %rcx
	movq	8(%rsp), %r12
	xorq	%r12, %rcx
	movq	%rax, %r15
	movq	%rcx, %rax
	mulq	%r9
	xorq	%r12, %rbp
	movq	120(%rdi), %rdi
	xorq	%rbx, %rdi
	movq	%rax, %r9
	movq	%rdx, %rcx
	movq	%rdi, %rax
	movq	%r10, %rdi
	mulq	%rbp
	movq	%rcx, %rbp
	addq	%r12, %rbp
	movq	%rdx, %r10
	addq	%rbx, %r10
	movq	%rax, %rbx
.LBB28_6:
	xorq	%r10, %r8
	xorq	%r11, %rbp
	xorq	%r8, %rbp
	xorq	%rbx, %r15
	xorq	%r14, %r9
	xorq	%r15, %r9
	cmpq	$7, %rsi
	jbe	.LBB28_7
	movq	%rsi, %rax
	andq	$-8, %rax
	movq	-8(%rdi,%rax), %rcx
	cmpq	$16, %rsi
	jb	.LBB28_12
	movq	(%rdi), %rax
	xorq	%rbp, %rax
	xorq	%r9, %rax
	movq	8(%rdi), %rdx
	xorq	%rbp, %rdx
	mulq	%rdx
	addq	%rdx, %rbp
	movq	%rax, %r9
	cmpq	$32, %rsi
	jb	.LBB28_12
	xorq	16(%rdi), %r9
	xorq	%rbp, %r9
	movq	24(%rdi), %rdx
	xorq	%rbp, %rdx
	movq	%r9, %rax
	mulq	%rdx
	addq	%rdx, %rbp
	movq	%rax, %r9
	cmpq	$48, %rsi
	jb	.LBB28_12
	xorq	32(%rdi), %r9
	xorq	%rbp, %r9
	movq	40(%rdi), %rdx
	xorq	%rbp, %rdx
	movq	%r9, %rax
	mulq	%rdx
	addq	%rdx, %rbp
	movq	%rax, %r9
.LBB28_12:
	movq	%rbp, %rdi
	movq	%rsi, %rbp
	shlq	$60, %rbp
	sarq	$63, %rbp
	testb	$8, %sil
	movq	(%rsp), %rax
	cmoveq	%rax, %rcx
	andq	%rax, %rbp
	xorq	%rdi, %rcx
	xorq	%r9, %rcx
	xorq	%rdi, %rbp
	jmp	.LBB28_13
.LBB28_7:
	xorq	%rbp, %r9
	xorq	(%rsp), %r9
	movq	%r9, %rcx
	movq	%rbp, %rdi
.LBB28_13:
	movq	%rbp, %rax
	mulq	%rcx
	addq	%rdx, %rdi
	xorq	%rdi, %rax
	mulq	%rdi
	addq	%rdx, %rdi
	xorq	%rdi, %rax
	addq	$16, %rsp
	.cfi_def_cfa_offset 56
	popq	%rbx
	.cfi_def_cfa_offset 48
	popq	%r12
	.cfi_def_cfa_offset 40
	popq	%r13
	.cfi_def_cfa_offset 32
	popq	%r14
	.cfi_def_cfa_offset 24
	popq	%r15
	.cfi_def_cfa_offset 16
	popq	%rbp
	.cfi_def_cfa_offset 8
	retq
.Lfunc_end28:
	.size	komi_hash_of_blocks_v4, .Lfunc_end28-komi_hash_of_blocks_v4
	.cfi_endproc

	.section	.text.komi_hash_of_blocks_v5,"ax",@progbits
	.p2align	6, 0x90
	.type	komi_hash_of_blocks_v5,@function
komi_hash_of_blocks_v5:
	.cfi_startproc
	pushq	%rbp
	.cfi_def_cfa_offset 16
	pushq	%r15
	.cfi_def_cfa_offset 24
	pushq	%r14
	.cfi_def_cfa_offset 32
	pushq	%r13
	.cfi_def_cfa_offset 40
	pushq	%r12
	.cfi_def_cfa_offset 48
	pushq	%rbx
	.cfi_def_cfa_offset 56
	subq	$16, %rsp
	.cfi_def_cfa_offset 72
	.cfi_offset %rbx, -56
	.cfi_offset %r12, -48
	.cfi_offset %r13, -40
	.cfi_offset %r14, -32
	.cfi_offset %r15, -24
	.cfi_offset %rbp, -16
	movabsq	$4577018097722394903, %r12
	movabsq	$6148914691236517205, %rcx
	andq	%rdx, %rcx
	movabsq	$2611923443488327891, %rax
	xorq	%rcx, %rax
	movabsq	$-6148914691236517206, %r8
	andq	%rdx, %r8
	movabsq	$4983270260364809079, %r9
	movq	-8(%rdi,%rsi), %rdx
	leal	(,%rsi,8), %ecx
	movl	$1, %r10d
	shldq	%cl, %rdx, %r10
	movq	%r10, (%rsp)
	xorq	%r8, %r9
	mulq	%r9
	movq	%rax, %r15
	movq	%rdx, %r8
	addq	%r9, %r8
	movabsq	$-3998401319710606252, %rbx
	xorq	%rax, %rbx
	movq	%r8, %r9
	xorq	%r12, %r9
	movabsq	$1376283091369227076, %r14
	xorq	%rax, %r14
	movabsq	$-4732044268327596948, %r10
	xorq	%r8, %r10
	movabsq	$1899778990314765756, %r11
	xorq	%rax, %r11
	movabsq	$-4563226453097033507, %rbp
	xorq	%r8, %rbp
	cmpq	$191, %rsi
	jbe	.LBB29_1
	testb	$64, %sil
	je	.LBB29_3
	xorq	8(%rdi), %r14
	xorq	%r8, %r14
	xorq	16(%rdi), %r11
	xorq	%r10, %r11
	movq	(%rdi), %rcx
	xorq	%r15, %rcx
	xorq	24(%rdi), %rbx
	movq	40(%rdi), %rax
	xorq	%r10, %rax
	mulq	%r14
	movq	%rdx, %r15
	xorq	%r8, %rcx
	movq	32(%rdi), %rdx
	xorq	%r8, %rdx
	movq	%rax, %r14
	movq	%rdx, %rax
	mulq	%rcx
	addq	%r15, %r10
	addq	%rdx, %r8
	movq	48(%rdi), %rdx
	movq	56(%rdi), %r12
	addq	$64, %rdi
	addq	$-64, %rsi
	xorq	%rbp, %rdx
	movq	%rax, %r15
	movq	%rdx, %rax
	mulq	%r11
	xorq	%rbp, %rbx
	addq	%rdx, %rbp
	xorq	%r9, %r12
	movq	%rax, %r11
	movq	%r12, %rax
	mulq	%rbx
	addq	%rdx, %r9
	movq	%rax, %rbx
	jmp	.LBB29_5
.LBB29_3:
	xorq	%r12, %r15
	.p2align	4, 0x90
.LBB29_5:
	xorq	8(%rdi), %r14
	xorq	%r8, %r14
	xorq	16(%rdi), %r11
	xorq	(%rdi), %r15
	xorq	%r10, %r11
	xorq	%r9, %r15
	xorq	24(%rdi), %rbx
	xorq	%rbp, %rbx
	movq	40(%rdi), %rax
	xorq	%r10, %rax
	mulq	%r14
	movq	%rax, %r14
	movq	%rdx, %rcx
	addq	%r10, %rcx
	movq	32(%rdi), %rax
	xorq	%r8, %rax
	mulq	%r15
	movq	%rbp, %r10
	movq	%rax, %rbp
	movq	%rdx, %r15
	addq	%r8, %r15
	movq	48(%rdi), %rax
	xorq	%r10, %rax
	mulq	%r11
	movq	%rax, %r12
	movq	%rdx, %r11
	addq	%r10, %r11
	movq	56(%rdi), %rax
	xorq	%r9, %rax
	mulq	%rbx
	movq	%rax, %r13
	movq	%rdx, %rbx
	addq	%r9, %rbx
	xorq	72(%rdi), %r14
	xorq	80(%rdi), %r12
	xorq	%r15, %r14
	xorq	%rcx, %r12
	xorq	64(%rdi), %rbp
	xorq	88(%rdi), %r13
	movq	104(%rdi), %rax
	xorq	%rcx, %rax
	mulq	%r14
	xorq	%rbx, %rbp
	movq	96(%rdi), %r8
	xorq	%r15, %r8
	movq	%rax, %r14
	movq	%rdx, %r10
	movq	%rbp, %rax
	mulq	%r8
	addq	%rcx, %r10
	movq	%rdx, %r8
	addq	%r15, %r8
	movq	112(%rdi), %rcx
	movq	120(%rdi), %r9
	addq	$128, %rdi
	addq	$-128, %rsi
	xorq	%r11, %rcx
	movq	%rax, %r15
	movq	%rcx, %rax
	mulq	%r12
	xorq	%r11, %r13
	movq	%rdx, %rbp
	addq	%r11, %rbp
	xorq	%rbx, %r9
	movq	%rax, %r11
	movq	%r9, %rax
	mulq	%r13
	movq	%rdx, %r9
	addq	%rbx, %r9
	movq	%rax, %rbx
	cmpq	$127, %rsi
	ja	.LBB29_5
	jmp	.LBB29_6
.LBB29_1:
	xorq	8(%rdi), %r14
	xorq	%r8, %r14
	xorq	16(%rdi), %r11
	xorq	%r10, %r11
	movq	(%rdi), %rcx
	xorq	%r15, %rcx
	xorq	24(%rdi), %rbx
	xorq	%r8, %rcx
	xorq	%rbp, %rbx
	movq	40(%rdi), %rax
	xorq	%r10, %rax
	mulq	%r14
	movq	%rax, %r13
	movq	%rdx, %r14
	addq	%r10, %r14
	movq	32(%rdi), %rax
	xorq	%r8, %rax
	mulq	%rcx
	movq	%rax, %r12
	movq	%rdx, %r15
	addq	%r8, %r15
	movq	48(%rdi), %rax
	xorq	%rbp, %rax
	mulq	%r11
	movq	%rax, %r11
	addq	%rbp, %rdx
	movq	%rdx, 8(%rsp)
	movq	56(%rdi), %rax
	xorq	%r9, %rax
	mulq	%rbx
	movq	%rax, %rbp
	movq	%rdx, %rbx
	addq	%r9, %rbx
	leaq	128(%rdi), %r9
	xorq	72(%rdi), %r13
	addq	$-128, %rsi
	xorq	%r15, %r13
	xorq	80(%rdi), %r11
	xorq	%r14, %r11
	xorq	64(%rdi), %r12
	xorq	%rbx, %r12
	xorq	88(%rdi), %rbp
	movq	104(%rdi), %rax
	xorq	%r14, %rax
	mulq	%r13
	movq	%rdx, %r10
	addq	%r14, %r10
	movq	96(%rdi), %rcx
	xorq	%r15, %rcx
	movq	%rax, %r14
	movq	%r12, %rax
	mulq	%rcx
	movq	%rdx, %r8
	addq	%r15, %r8
	movq	112(%rdi), %rcx
	movq	8(%rsp), %r12
	xorq	%r12, %rcx
	movq	%rax, %r15
	movq	%rcx, %rax
	mulq	%r11
	xorq	%r12, %rbp
	movq	120(%rdi), %rdi
	xorq	%rbx, %rdi
	movq	%rax, %r11
	movq	%rdx, %rcx
	movq	%rdi, %rax
	movq	%r9, %rdi
	mulq	%rbp
	movq	%rcx, %rbp
	addq	%r12, %rbp
	movq	%rdx, %r9
	addq	%rbx, %r9
	movq	%rax, %rbx
.LBB29_6:
	xorq	%r9, %r8
	xorq	%r10, %rbp
	xorq	%r8, %rbp
	xorq	%rbx, %r15
	xorq	%r14, %r11
	xorq	%r15, %r11
	cmpq	$7, %rsi
	jbe	.LBB29_7
	movq	%rsi, %rax
	andq	$-8, %rax
	movq	-8(%rdi,%rax), %rcx
	cmpq	$16, %rsi
	jb	.LBB29_12
	movq	(%rdi), %rax
	xorq	%rbp, %rax
	xorq	%r11, %rax
	movq	8(%rdi), %rdx
	xorq	%rbp, %rdx
	mulq	%rdx
	addq	%rdx, %rbp
	movq	%rax, %r11
	cmpq	$32, %rsi
	jb	.LBB29_12
	xorq	16(%rdi), %r11
	xorq	%rbp, %r11
	movq	24(%rdi), %rdx
	xorq	%rbp, %rdx
	movq	%r11, %rax
	mulq	%rdx
	addq	%rdx, %rbp
	movq	%rax, %r11
	cmpq	$48, %rsi
	jb	.LBB29_12
	xorq	32(%rdi), %r11
	xorq	%rbp, %r11
	movq	40(%rdi), %rdx
	xorq	%rbp, %rdx
	movq	%r11, %rax
	mulq	%rdx
	addq	%rdx, %rbp
	movq	%rax, %r11
.LBB29_12:
	movq	%rbp, %rdi
	movq	%rsi, %rbp
	shlq	$60, %rbp
	sarq	$63, %rbp
	testb	$8, %sil
	movq	(%rsp), %rax
	cmoveq	%rax, %rcx
	andq	%rax, %rbp
	xorq	%rdi, %rcx
	xorq	%r11, %rcx
	xorq	%rdi, %rbp
	jmp	.LBB29_13
.LBB29_7:
	xorq	%rbp, %r11
	xorq	(%rsp), %r11
	movq	%r11, %rcx
	movq	%rbp, %rdi
.LBB29_13:
	movq	%rbp, %rax
	mulq	%rcx
	addq	%rdx, %rdi
	xorq	%rdi, %rax
	mulq	%rdi
	addq	%rdx, %rdi
	xorq	%rdi, %rax
	addq	$16, %rsp
	.cfi_def_cfa_offset 56
	popq	%rbx
	.cfi_def_cfa_offset 48
	popq	%r12
	.cfi_def_cfa_offset 40
	popq	%r13
	.cfi_def_cfa_offset 32
	popq	%r14
	.cfi_def_cfa_offset 24
	popq	%r15
	.cfi_def_cfa_offset 16
	popq	%rbp
	.cfi_def_cfa_offset 8
	retq
.Lfunc_end29:
	.size	komi_hash_of_blocks_v5, .Lfunc_end29-komi_hash_of_blocks_v5
	.cfi_endproc

	.section	.text.komi_hash_of_one_block_v4,"ax",@progbits
	.p2align	6, 0x90
	.type	komi_hash_of_one_block_v4,@function
komi_hash_of_one_block_v4:
	.cfi_startproc
	pushq	%r15
	.cfi_def_cfa_offset 16
	pushq	%r14
	.cfi_def_cfa_offset 24
	pushq	%r12
	.cfi_def_cfa_offset 32
	pushq	%rbx
	.cfi_def_cfa_offset 40
	.cfi_offset %rbx, -40
	.cfi_offset %r12, -32
	.cfi_offset %r14, -24
	.cfi_offset %r15, -16
	movabsq	$6148914691236517205, %rcx
	andq	%rdx, %rcx
	movabsq	$2611923443488327891, %rax
	xorq	%rcx, %rax
	movabsq	$-6148914691236517206, %rcx
	andq	%rdx, %rcx
	movabsq	$4983270260364809079, %r9
	xorq	%rcx, %r9
	mulq	%r9
	movq	%rax, %rcx
	movq	%rdx, %r8
	addq	%r9, %r8
	movabsq	$4577018097722394903, %r15
	movabsq	$-4732044268327596948, %r11
	xorq	%r8, %r11
	movabsq	$-4563226453097033507, %r12
	xorq	%r8, %r12
	movq	16(%rdi), %rdx
	xorq	%rax, %rdx
	movabsq	$1376283091369227076, %rax
	xorq	%r8, %rax
	xorq	%rdx, %rax
	movq	32(%rdi), %rdx
	xorq	%rcx, %rdx
	movabsq	$1899778990314765756, %r10
	xorq	%r11, %r10
	xorq	%rdx, %r10
	movq	(%rdi), %rbx
	xorq	%rcx, %rbx
	xorq	%r8, %rbx
	xorq	48(%rdi), %rcx
	movabsq	$-3998401319710606252, %rdx
	xorq	%r12, %rdx
	xorq	%rdx, %rcx
	movq	24(%rdi), %rdx
	xorq	%r11, %rdx
	mulq	%rdx
	movq	%rax, %r9
	movq	%rdx, %r14
	addq	%r11, %r14
	movq	8(%rdi), %rax
	xorq	%r8, %rax
	mulq	%rbx
	movq	%rax, %r11
	movq	%rdx, %rbx
	xorq	%r8, %r15
	addq	%r8, %rbx
	xorq	%r14, %rbx
	movq	40(%rdi), %rdx
	xorq	%r12, %rdx
	movq	%r10, %rax
	mulq	%rdx
	movq	%rax, %r10
	movq	%rdx, %r14
	addq	%r12, %r14
	movq	56(%rdi), %rdx
	xorq	%r15, %rdx
	movq	%rcx, %rax
	mulq	%rdx
	movq	%rdx, %r8
	addq	%r15, %r8
	xorq	%r14, %r8
	xorq	%rbx, %r8
	xorq	%r9, %r11
	xorq	%r10, %rax
	xorq	%r11, %rax
	movzbl	-1(%rdi,%rsi), %ecx
	shrb	$7, %cl
	movzbl	%cl, %r9d
	incq	%r9
	movq	%rsi, %r10
	addq	$-64, %r10
	je	.LBB30_6
	movq	-8(%rdi,%rsi), %rdx
	leal	(,%rsi,8), %ecx
	shldq	%cl, %rdx, %r9
	movq	%rsi, %rcx
	andq	$-8, %rcx
	movq	-8(%rdi,%rcx), %rcx
	cmpq	$16, %r10
	jb	.LBB30_5
	xorq	64(%rdi), %rax
	xorq	%r8, %rax
	movq	72(%rdi), %rdx
	xorq	%r8, %rdx
	mulq	%rdx
	addq	%rdx, %r8
	cmpq	$32, %r10
	jb	.LBB30_5
	xorq	80(%rdi), %rax
	xorq	%r8, %rax
	movq	88(%rdi), %rdx
	xorq	%r8, %rdx
	mulq	%rdx
	addq	%rdx, %r8
	cmpq	$48, %r10
	jb	.LBB30_5
	xorq	96(%rdi), %rax
	xorq	%r8, %rax
	movq	104(%rdi), %rdx
	xorq	%r8, %rdx
	mulq	%rdx
	addq	%rdx, %r8
.LBB30_5:
	movq	%r8, %rdi
	movq	%rsi, %r8
	shlq	$60, %r8
	sarq	$63, %r8
	testb	$8, %sil
	cmoveq	%r9, %rcx
	andq	%r9, %r8
	xorq	%rdi, %rcx
	xorq	%rax, %rcx
	xorq	%rdi, %r8
.LBB30_7:
	movq	%r8, %rax
	mulq	%rcx
	addq	%rdx, %rdi
	xorq	%rdi, %rax
	mulq	%rdi
	addq	%rdx, %rdi
	xorq	%rdi, %rax
	popq	%rbx
	.cfi_def_cfa_offset 32
	popq	%r12
	.cfi_def_cfa_offset 24
	popq	%r14
	.cfi_def_cfa_offset 16
	popq	%r15
	.cfi_def_cfa_offset 8
	retq
.LBB30_6:
	.cfi_def_cfa_offset 40
	xorq	%r8, %rax
	xorq	%r9, %rax
	movq	%rax, %rcx
	movq	%r8, %rdi
	jmp	.LBB30_7
.Lfunc_end30:
	.size	komi_hash_of_one_block_v4, .Lfunc_end30-komi_hash_of_one_block_v4
	.cfi_endproc

	.section	.text.komi_hash_of_one_block_v5,"ax",@progbits
	.p2align	6, 0x90
	.type	komi_hash_of_one_block_v5,@function
komi_hash_of_one_block_v5:
	.cfi_startproc
	pushq	%r15
	.cfi_def_cfa_offset 16
	pushq	%r14
	.cfi_def_cfa_offset 24
	pushq	%r12
	.cfi_def_cfa_offset 32
	pushq	%rbx
	.cfi_def_cfa_offset 40
	.cfi_offset %rbx, -40
	.cfi_offset %r12, -32
	.cfi_offset %r14, -24
	.cfi_offset %r15, -16
	movabsq	$6148914691236517205, %rcx
	andq	%rdx, %rcx
	movabsq	$2611923443488327891, %rax
	xorq	%rcx, %rax
	movabsq	$-6148914691236517206, %rcx
	andq	%rdx, %rcx
	movabsq	$4983270260364809079, %r8
	xorq	%rcx, %r8
	mulq	%r8
	movq	%rdx, %rcx
	addq	%r8, %rcx
	movabsq	$4577018097722394903, %r14
	movabsq	$-4732044268327596948, %r10
	xorq	%rcx, %r10
	movabsq	$-4563226453097033507, %r15
	xorq	%rcx, %r15
	movq	8(%rdi), %rdx
	xorq	%rax, %rdx
	movabsq	$1376283091369227076, %r8
	xorq	%rcx, %r8
	xorq	%rdx, %r8
	movq	16(%rdi), %rdx
	xorq	%rax, %rdx
	movabsq	$1899778990314765756, %rbx
	xorq	%r10, %rbx
	xorq	%rdx, %rbx
	movq	(%rdi), %r11
	xorq	%rax, %r11
	xorq	%rcx, %r11
	xorq	24(%rdi), %rax
	movabsq	$-3998401319710606252, %r12
	xorq	%r15, %r12
	xorq	%rax, %r12
	movq	40(%rdi), %rax
	xorq	%r10, %rax
	mulq	%r8
	movq	%rax, %r9
	movq	%rdx, %r8
	addq	%r10, %r8
	movq	32(%rdi), %rax
	xorq	%rcx, %rax
	mulq	%r11
	movq	%rax, %r10
	movq	%rdx, %r11
	xorq	%rcx, %r14
	addq	%rcx, %r11
	xorq	%r8, %r11
	movq	48(%rdi), %rax
	xorq	%r15, %rax
	mulq	%rbx
	movq	%rax, %rcx
	movq	%rdx, %rbx
	addq	%r15, %rbx
	movq	56(%rdi), %rax
	xorq	%r14, %rax
	mulq	%r12
	movq	%rdx, %r8
	addq	%r14, %r8
	xorq	%rbx, %r8
	xorq	%r11, %r8
	xorq	%r9, %r10
	xorq	%rcx, %rax
	xorq	%r10, %rax
	movq	%rsi, %r10
	addq	$-64, %r10
	je	.LBB31_6
	movq	-8(%rdi,%rsi), %rdx
	leal	(,%rsi,8), %ecx
	movl	$1, %r9d
	shldq	%cl, %rdx, %r9
	movq	%rsi, %rcx
	andq	$-8, %rcx
	movq	-8(%rdi,%rcx), %rcx
	cmpq	$16, %r10
	jb	.LBB31_5
	xorq	64(%rdi), %rax
	xorq	%r8, %rax
	movq	72(%rdi), %rdx
	xorq	%r8, %rdx
	mulq	%rdx
	addq	%rdx, %r8
	cmpq	$32, %r10
	jb	.LBB31_5
	xorq	80(%rdi), %rax
	xorq	%r8, %rax
	movq	88(%rdi), %rdx
	xorq	%r8, %rdx
	mulq	%rdx
	addq	%rdx, %r8
	cmpq	$48, %r10
	jb	.LBB31_5
	xorq	96(%rdi), %rax
	xorq	%r8, %rax
	movq	104(%rdi), %rdx
	xorq	%r8, %rdx
	mulq	%rdx
	addq	%rdx, %r8
.LBB31_5:
	movq	%r8, %rdi
	movq	%rsi, %r8
	shlq	$60, %r8
	sarq	$63, %r8
	testb	$8, %sil
	cmoveq	%r9, %rcx
	andq	%r9, %r8
	xorq	%rdi, %rcx
	xorq	%rax, %rcx
	xorq	%rdi, %r8
.LBB31_7:
	movq	%r8, %rax
	mulq	%rcx
	addq	%rdx, %rdi
	xorq	%rdi, %rax
	mulq	%rdi
	addq	%rdx, %rdi
	xorq	%rdi, %rax
	popq	%rbx
	.cfi_def_cfa_offset 32
	popq	%r12
	.cfi_def_cfa_offset 24
	popq	%r14
	.cfi_def_cfa_offset 16
	popq	%r15
	.cfi_def_cfa_offset 8
	retq
.LBB31_6:
	.cfi_def_cfa_offset 40
	xorq	%r8, %rax
	xorq	$1, %rax
	movq	%rax, %rcx
	movq	%r8, %rdi
	jmp	.LBB31_7
.Lfunc_end31:
	.size	komi_hash_of_one_block_v5, .Lfunc_end31-komi_hash_of_one_block_v5
	.cfi_endproc

	.section	.text.komi_hash_of_one_word_v4,"ax",@progbits
	.p2align	6, 0x90
	.type	komi_hash_of_one_word_v4,@function
komi_hash_of_one_word_v4:
	.cfi_startproc
	movzbl	-1(%rdi,%rsi), %eax
	shrb	$7, %al
	movzbl	%al, %r8d
	incq	%r8
	movq	-8(%rdi,%rsi), %rax
	leal	(,%rsi,8), %ecx
	shldq	%cl, %rax, %r8
	movabsq	$6148914691236517205, %rcx
	andq	%rdx, %rcx
	movabsq	$2611923443488327891, %rax
	xorq	%rcx, %rax
	movabsq	$-6148914691236517206, %rcx
	andq	%rdx, %rcx
	movabsq	$4983270260364809079, %rsi
	xorq	%rcx, %rsi
	mulq	%rsi
	movq	%rax, %rcx
	addq	%rdx, %rsi
	xorq	(%rdi), %rcx
	xorq	%rsi, %rcx
	xorq	%rsi, %r8
	movq	%r8, %rax
	mulq	%rcx
	addq	%rdx, %rsi
	xorq	%rsi, %rax
	mulq	%rsi
	addq	%rdx, %rsi
	xorq	%rsi, %rax
	retq
.Lfunc_end32:
	.size	komi_hash_of_one_word_v4, .Lfunc_end32-komi_hash_of_one_word_v4
	.cfi_endproc

	.section	.text.komi_hash_of_one_word_v5,"ax",@progbits
	.p2align	6, 0x90
	.type	komi_hash_of_one_word_v5,@function
komi_hash_of_one_word_v5:
	.cfi_startproc
	movq	-8(%rdi,%rsi), %rax
	leal	(,%rsi,8), %ecx
	movl	$1, %esi
	shldq	%cl, %rax, %rsi
	movabsq	$6148914691236517205, %rcx
	andq	%rdx, %rcx
	movabsq	$2611923443488327891, %rax
	xorq	%rcx, %rax
	movabsq	$-6148914691236517206, %rcx
	andq	%rdx, %rcx
	movabsq	$4983270260364809079, %r8
	xorq	%rcx, %r8
	mulq	%r8
	movq	%rax, %rcx
	addq	%rdx, %r8
	xorq	(%rdi), %rcx
	xorq	%r8, %rcx
	xorq	%r8, %rsi
	movq	%rsi, %rax
	mulq	%rcx
	addq	%rdx, %r8
	xorq	%r8, %rax
	mulq	%r8
	addq	%rdx, %r8
	xorq	%r8, %rax
	retq
.Lfunc_end33:
	.size	komi_hash_of_one_word_v5, .Lfunc_end33-komi_hash_of_one_word_v5
	.cfi_endproc

	.section	.text.komi_hash_of_words_v4,"ax",@progbits
	.p2align	6, 0x90
	.type	komi_hash_of_words_v4,@function
komi_hash_of_words_v4:
	.cfi_startproc
	movzbl	-1(%rdi,%rsi), %r11d
	movq	-8(%rdi,%rsi), %r10
	movq	%rsi, %r8
	andq	$-8, %r8
	movabsq	$-6148914691236517206, %rax
	andq	%rdx, %rax
	movabsq	$4983270260364809079, %r9
	xorq	%rax, %r9
	movabsq	$6148914691236517205, %rcx
	andq	%rdx, %rcx
	movabsq	$2611923443488327891, %rax
	xorq	%rcx, %rax
	mulq	%r9
	movq	%rdx, %rcx
	movq	-8(%rdi,%r8), %r8
	addq	%r9, %rcx
	xorq	(%rdi), %rax
	xorq	%rcx, %rax
	movq	8(%rdi), %rdx
	xorq	%rcx, %rdx
	mulq	%rdx
	movq	%rdx, %r9
	addq	%rcx, %r9
	cmpq	$32, %rsi
	jb	.LBB34_3
	xorq	16(%rdi), %rax
	xorq	%r9, %rax
	movq	24(%rdi), %rcx
	xorq	%r9, %rcx
	mulq	%rcx
	addq	%rdx, %r9
	cmpq	$48, %rsi
	jb	.LBB34_3
	xorq	32(%rdi), %rax
	xorq	%r9, %rax
	movq	40(%rdi), %rcx
	xorq	%r9, %rcx
	mulq	%rcx
	addq	%rdx, %r9
.LBB34_3:
	leal	(,%rsi,8), %ecx
	shrb	$7, %r11b
	movzbl	%r11b, %edx
	incq	%rdx
	shldq	%cl, %r10, %rdx
	movq	%rsi, %rcx
	shlq	$60, %rcx
	sarq	$63, %rcx
	testb	$8, %sil
	cmoveq	%rdx, %r8
	andq	%rdx, %rcx
	xorq	%r9, %r8
	xorq	%rax, %r8
	xorq	%r9, %rcx
	movq	%r8, %rax
	mulq	%rcx
	addq	%rdx, %r9
	xorq	%r9, %rax
	mulq	%r9
	addq	%rdx, %r9
	xorq	%r9, %rax
	retq
.Lfunc_end34:
	.size	komi_hash_of_words_v4, .Lfunc_end34-komi_hash_of_words_v4
	.cfi_endproc

	.section	.text.komi_hash_of_words_v5,"ax",@progbits
	.p2align	6, 0x90
	.type	komi_hash_of_words_v5,@function
komi_hash_of_words_v5:
	.cfi_startproc
	movq	-8(%rdi,%rsi), %r10
	movq	%rsi, %r8
	andq	$-8, %r8
	movabsq	$-6148914691236517206, %rax
	andq	%rdx, %rax
	movabsq	$4983270260364809079, %r9
	xorq	%rax, %r9
	movabsq	$6148914691236517205, %rcx
	andq	%rdx, %rcx
	movabsq	$2611923443488327891, %rax
	xorq	%rcx, %rax
	mulq	%r9
	movq	%rdx, %rcx
	movq	-8(%rdi,%r8), %r8
	addq	%r9, %rcx
	xorq	(%rdi), %rax
	xorq	%rcx, %rax
	movq	8(%rdi), %rdx
	xorq	%rcx, %rdx
	mulq	%rdx
	movq	%rdx, %r9
	addq	%rcx, %r9
	cmpq	$32, %rsi
	jb	.LBB35_3
	xorq	16(%rdi), %rax
	xorq	%r9, %rax
	movq	24(%rdi), %rcx
	xorq	%r9, %rcx
	mulq	%rcx
	addq	%rdx, %r9
	cmpq	$48, %rsi
	jb	.LBB35_3
	xorq	32(%rdi), %rax
	xorq	%r9, %rax
	movq	40(%rdi), %rcx
	xorq	%r9, %rcx
	mulq	%rcx
	addq	%rdx, %r9
.LBB35_3:
	leal	(,%rsi,8), %ecx
	movl	$1, %edx
	shldq	%cl, %r10, %rdx
	movq	%rsi, %rcx
	shlq	$60, %rcx
	sarq	$63, %rcx
	testb	$8, %sil
	cmoveq	%rdx, %r8
	andq	%rdx, %rcx
	xorq	%r9, %r8
	xorq	%rax, %r8
	xorq	%r9, %rcx
	movq	%r8, %rax
	mulq	%rcx
	addq	%rdx, %r9
	xorq	%r9, %rax
	mulq	%r9
	addq	%rdx, %r9
	xorq	%r9, %rax
	retq
.Lfunc_end35:
	.size	komi_hash_of_words_v5, .Lfunc_end35-komi_hash_of_words_v5
	.cfi_endproc

	.section	.text.komi_hash_of_16_bytes_v4,"ax",@progbits
	.p2align	6, 0x90
	.type	komi_hash_of_16_bytes_v4,@function
komi_hash_of_16_bytes_v4:
	.cfi_startproc
	movabsq	$6148914691236517205, %rcx
	andq	%rsi, %rcx
	movabsq	$2611923443488327891, %rax
	xorq	%rcx, %rax
	movabsq	$-6148914691236517206, %rdx
	andq	%rsi, %rdx
	movabsq	$4983270260364809079, %rcx
	xorq	%rdx, %rcx
	mulq	%rcx
	addq	%rdx, %rcx
	movq	8(%rdi), %rsi
	xorq	(%rdi), %rax
	xorq	%rcx, %rax
	movq	%rsi, %rdx
	xorq	%rcx, %rdx
	mulq	%rdx
	addq	%rdx, %rcx
	shrq	$63, %rsi
	incq	%rsi
	xorq	%rcx, %rsi
	xorq	%rsi, %rax
	mulq	%rcx
	addq	%rdx, %rcx
	xorq	%rcx, %rax
	mulq	%rcx
	addq	%rdx, %rcx
	xorq	%rcx, %rax
	retq
.Lfunc_end36:
	.size	komi_hash_of_16_bytes_v4, .Lfunc_end36-komi_hash_of_16_bytes_v4
	.cfi_endproc

	.section	.text.komi_hash_of_16_bytes_v5,"ax",@progbits
	.p2align	6, 0x90
	.type	komi_hash_of_16_bytes_v5,@function
komi_hash_of_16_bytes_v5:
	.cfi_startproc
	movabsq	$6148914691236517205, %rcx
	andq	%rsi, %rcx
	movabsq	$2611923443488327891, %rax
	xorq	%rcx, %rax
	movabsq	$-6148914691236517206, %rdx
	andq	%rsi, %rdx
	movabsq	$4983270260364809079, %rcx
	xorq	%rdx, %rcx
	mulq	%rcx
	addq	%rdx, %rcx
	xorq	(%rdi), %rax
	xorq	%rcx, %rax
	movq	8(%rdi), %rdx
	xorq	%rcx, %rdx
	mulq	%rdx
	addq	%rdx, %rcx
	xorq	%rcx, %rax
	xorq	$1, %rax
	mulq	%rcx
	addq	%rdx, %rcx
	xorq	%rcx, %rax
	mulq	%rcx
	addq	%rdx, %rcx
	xorq	%rcx, %rax
	retq
.Lfunc_end37:
	.size	komi_hash_of_16_bytes_v5, .Lfunc_end37-komi_hash_of_16_bytes_v5
	.cfi_endproc

	.section	.text.komi_hash_of_partial_word_v4,"ax",@progbits
	.p2align	6, 0x90
	.type	komi_hash_of_partial_word_v4,@function
komi_hash_of_partial_word_v4:
	.cfi_startproc
	movq	%rsi, %rcx
	movzbl	-1(%rdi,%rsi), %eax
	movl	%eax, %esi
	shrb	$7, %sil
	movzbl	%sil, %esi
	incq	%rsi
	cmpq	$4, %rcx
	jae	.LBB38_1
	movq	%rcx, %r8
	shrq	%r8
	movzbl	(%rdi,%r8), %r8d
	shll	$8, %r8d
	shll	$16, %eax
	xorl	%r9d, %r9d
	cmpq	$1, %rcx
	cmoveq	%r9, %r8
	cmpq	$3, %rcx
	cmovneq	%r9, %rax
	movzbl	(%rdi), %edi
	orq	%rax, %rdi
	orq	%r8, %rdi
	shll	$3, %ecx
	shlq	%cl, %rsi
	orq	%rdi, %rsi
	jmp	.LBB38_3
.LBB38_1:
	movl	-4(%rdi,%rcx), %eax
	shlq	$32, %rsi
	orq	%rax, %rsi
	shll	$3, %ecx
	negb	%cl
	shrq	%cl, %rsi
	movl	(%rdi), %eax
	shlq	$32, %rsi
	orq	%rax, %rsi
.LBB38_3:
	movabsq	$6148914691236517205, %rcx
	andq	%rdx, %rcx
	movabsq	$2611923443488327891, %rax
	xorq	%rcx, %rax
	movabsq	$-6148914691236517206, %rdi
	andq	%rdx, %rdi
	movabsq	$4983270260364809079, %rcx
	xorq	%rdi, %rcx
	mulq	%rcx
	addq	%rdx, %rcx
	xorq	%rcx, %rax
	xorq	%rsi, %rax
	mulq	%rcx
	addq	%rdx, %rcx
	xorq	%rcx, %rax
	mulq	%rcx
	addq	%rdx, %rcx
	xorq	%rcx, %rax
	retq
.Lfunc_end38:
	.size	komi_hash_of_partial_word_v4, .Lfunc_end38-komi_hash_of_partial_word_v4
	.cfi_endproc

	.section	.text.komi_hash_of_partial_word_v5,"ax",@progbits
	.p2align	6, 0x90
	.type	komi_hash_of_partial_word_v5,@function
komi_hash_of_partial_word_v5:
	.cfi_startproc
	movq	%rsi, %rcx
	cmpq	$4, %rsi
	jae	.LBB39_1
	movq	%rcx, %rax
	shrq	%rax
	movzbl	(%rdi,%rax), %eax
	shll	$8, %eax
	movzbl	-1(%rdi,%rcx), %r8d
	shll	$16, %r8d
	xorl	%esi, %esi
	cmpq	$1, %rcx
	cmoveq	%rsi, %rax
	cmpq	$3, %rcx
	cmovneq	%rsi, %r8
	shll	$3, %ecx
	movl	$1, %esi
	shlq	%cl, %rsi
	movzbl	(%rdi), %ecx
	addq	%rcx, %rsi
	orq	%r8, %rsi
	jmp	.LBB39_3
.LBB39_1:
	movl	-4(%rdi,%rcx), %eax
	movabsq	$4294967296, %rsi
	orq	%rax, %rsi
	shll	$3, %ecx
	negb	%cl
	shrq	%cl, %rsi
	movl	(%rdi), %eax
	shlq	$32, %rsi
.LBB39_3:
	orq	%rax, %rsi
	movabsq	$6148914691236517205, %rcx
	andq	%rdx, %rcx
	movabsq	$2611923443488327891, %rax
	xorq	%rcx, %rax
	movabsq	$-6148914691236517206, %rdi
	andq	%rdx, %rdi
	movabsq	$4983270260364809079, %rcx
	xorq	%rdi, %rcx
	mulq	%rcx
	addq	%rdx, %rcx
	xorq	%rcx, %rax
	xorq	%rsi, %rax
	mulq	%rcx
	addq	%rdx, %rcx
	xorq	%rcx, %rax
	mulq	%rcx
	addq	%rdx, %rcx
	xorq	%rcx, %rax
	retq
.Lfunc_end39:
	.size	komi_hash_of_partial_word_v5, .Lfunc_end39-komi_hash_of_partial_word_v5
	.cfi_endproc

	.section	.text.komi_stream_complete_blocks_v4,"ax",@progbits
	.p2align	6, 0x90
	.type	komi_stream_complete_blocks_v4,@function
komi_stream_complete_blocks_v4:
	.cfi_startproc
	pushq	%rbp
	.cfi_def_cfa_offset 16
	pushq	%r15
	.cfi_def_cfa_offset 24
	pushq	%r14
	.cfi_def_cfa_offset 32
	pushq	%r13
	.cfi_def_cfa_offset 40
	pushq	%r12
	.cfi_def_cfa_offset 48
	pushq	%rbx
	.cfi_def_cfa_offset 56
	subq	$16, %rsp
	.cfi_def_cfa_offset 72
	.cfi_offset %rbx, -56
	.cfi_offset %r12, -48
	.cfi_offset %r13, -40
	.cfi_offset %r14, -32
	.cfi_offset %r15, -24
	.cfi_offset %rbp, -16
	movq	64(%rdi), %rax
	leal	(%rax,%rdx), %ecx
	notl	%ecx
	orq	$-64, %rcx
	addq	%rsi, %rcx
	movq	%rdx, %rbp
	movzbl	(%rdx,%rcx), %ecx
	shrb	$7, %cl
	movb	%cl, 137(%rdi)
	movb	$1, 136(%rdi)
	testq	%rax, %rax
	movq	%rdi, 8(%rsp)
	je	.LBB40_4
	movl	$64, %edx
	subq	%rax, %rdx
	leaq	(%rsi,%rdx), %r13
	cmpq	$7, %rdx
	jbe	.LBB40_2
	movq	(%rsi), %r8
	movl	%eax, %r9d
	leal	(,%r9,8), %ecx
	shlq	%cl, %r8
	shrq	$3, %rax
	movl	%eax, %ecx
	andl	$7, %ecx
	orq	%r8, (%rdi,%rcx,8)
	andl	$7, %r9d
	movl	$8, %ecx
	subq	%r9, %rcx
	cmpq	$33, %rdx
	jae	.LBB40_6
	cmpq	$17, %rdx
	jb	.LBB40_31
	movq	(%rsi,%rcx), %rcx
	andl	$1, %eax
	movq	%rcx, 40(%rdi,%rax,8)
	jmp	.LBB40_11
.LBB40_6:
	andl	$3, %eax
	movq	(%rsi,%rcx), %rcx
	movq	%rsi, %r8
	subq	%r9, %r8
	movq	16(%r8), %r8
	movq	%rcx, 8(%rdi,%rax,8)
	movq	%r8, 16(%rdi,%rax,8)
	negq	%r9
	movq	24(%rsi,%r9), %rcx
	movq	%rcx, 24(%rdi,%rax,8)
	movups	-32(%r13), %xmm0
	movups	%xmm0, 32(%rdi)
.LBB40_11:
	movq	-16(%r13), %rax
	movq	-8(%r13), %r11
	movq	%rax, 48(%rdi)
	jmp	.LBB40_14
.LBB40_4:
	movq	%rdi, %rax
	movq	72(%rdi), %r15
	movq	80(%rdi), %r11
	movq	88(%rdi), %r14
	movq	96(%rdi), %r12
	movq	104(%rdi), %r9
	movq	112(%rdi), %rdi
	movq	120(%rax), %rbx
	movq	128(%rax), %r10
	movq	%rsi, %r13
	jmp	.LBB40_15
.LBB40_2:
	cmpq	$4, %rdx
	jae	.LBB40_3
	cmpq	$64, %rax
	je	.LBB40_8
	movq	%rdx, %rcx
	shrq	%rcx
	movzbl	(%rsi,%rcx), %ecx
	shll	$8, %ecx
	movzbl	-1(%rsi,%rdx), %r9d
	shll	$16, %r9d
	xorl	%r8d, %r8d
	cmpq	$63, %rax
	cmoveq	%r8, %rcx
	cmpq	$61, %rax
	cmovneq	%r8, %r9
	movzbl	(%rsi), %r11d
	orq	%rcx, %r11
	orq	%r9, %r11
	jmp	.LBB40_13
.LBB40_8:
	xorl	%r11d, %r11d
	jmp	.LBB40_13
.LBB40_31:
	movq	-8(%r13), %r11
	jmp	.LBB40_14
.LBB40_3:
	movl	(%rsi), %r8d
	subq	%rax, %rsi
	movl	60(%rsi), %r11d
	leal	(,%rdx,8), %ecx
	negb	%cl
	shrq	%cl, %r11
	shlq	$32, %r11
	orq	%r8, %r11
.LBB40_13:
	shll	$3, %eax
	movl	%eax, %ecx
	shlq	%cl, %r11
	orq	56(%rdi), %r11
.LBB40_14:
	subq	%rdx, %rbp
	movq	(%rdi), %r14
	movq	16(%rdi), %rdx
	movq	32(%rdi), %rbx
	xorps	%xmm0, %xmm0
	movq	96(%rdi), %r15
	movq	8(%rdi), %r8
	xorq	%r15, %r8
	movups	%xmm0, (%rdi)
	movq	112(%rdi), %r12
	movq	24(%rdi), %rax
	xorq	%r12, %rax
	movups	%xmm0, 16(%rdi)
	movq	128(%rdi), %rcx
	movq	40(%rdi), %r10
	xorq	%rcx, %r10
	movq	%rcx, %r9
	movq	%rcx, (%rsp)
	movups	%xmm0, 32(%rdi)
	movq	72(%rdi), %rsi
	xorq	48(%rdi), %rsi
	movups	%xmm0, 48(%rdi)
	movq	$0, 64(%rdi)
	movq	80(%rdi), %rcx
	xorq	104(%rdi), %rdx
	xorq	%r15, %rdx
	xorq	120(%rdi), %rbx
	xorq	88(%rdi), %r14
	xorq	%r12, %rbx
	xorq	%rcx, %r14
	xorq	%r9, %rsi
	mulq	%rdx
	movq	%rax, %r9
	movq	%rdx, %rdi
	addq	%r12, %rdi
	movq	%r8, %rax
	mulq	%r14
	movq	%rax, %r14
	movq	%rdx, %r12
	addq	%r15, %r12
	movq	%r10, %rax
	mulq	%rbx
	movq	%rax, %rbx
	movq	%rdx, %r10
	xorq	%rcx, %r11
	movq	%rsi, %rax
	mulq	%r11
	movq	%rax, %r15
	movq	%rdx, %r11
	addq	(%rsp), %r10
	addq	%rcx, %r11
.LBB40_15:
	testb	$64, %bpl
	movq	%rbp, %rcx
	je	.LBB40_17
	xorq	16(%r13), %r9
	xorq	%r12, %r9
	xorq	32(%r13), %rbx
	xorq	(%r13), %r14
	xorq	%rdi, %rbx
	xorq	%r11, %r14
	movq	%rcx, %r8
	movq	48(%r13), %rcx
	xorq	%r10, %rcx
	xorq	%r15, %rcx
	movq	24(%r13), %rax
	xorq	%rdi, %rax
	mulq	%r9
	addq	%rdx, %rdi
	movq	8(%r13), %rdx
	xorq	%r12, %rdx
	movq	%rax, %r9
	movq	%rdx, %rax
	mulq	%r14
	addq	%rdx, %r12
	movq	40(%r13), %rdx
	movq	56(%r13), %rsi
	addq	$64, %r13
	xorq	%r10, %rdx
	movq	%rax, %r14
	movq	%rdx, %rax
	mulq	%rbx
	addq	$-64, %r8
	addq	%rdx, %r10
	xorq	%r11, %rsi
	movq	%rax, %rbx
	movq	%rsi, %rax
	mulq	%rcx
	movq	%r8, %rcx
	addq	%rdx, %r11
	movq	%rax, %r15
.LBB40_17:
	cmpq	$128, %rcx
	jb	.LBB40_19
	.p2align	4, 0x90
.LBB40_18:
	movq	%rcx, (%rsp)
	xorq	16(%r13), %r9
	xorq	%r12, %r9
	xorq	32(%r13), %rbx
	xorq	(%r13), %r14
	xorq	%rdi, %rbx
	xorq	%r11, %r14
	xorq	48(%r13), %r15
	xorq	%r10, %r15
	movq	24(%r13), %rax
	xorq	%rdi, %rax
	mulq	%r9
	movq	%rax, %r9
	movq	%rdx, %rcx
	addq	%rdi, %rcx
	movq	8(%r13), %rax
	xorq	%r12, %rax
	mulq	%r14
	movq	%rax, %r8
	movq	%rdx, %r14
	addq	%r12, %r14
	movq	40(%r13), %rax
	xorq	%r10, %rax
	mulq	%rbx
	movq	%rax, %rbx
	movq	%rdx, %rsi
	addq	%r10, %rsi
	movq	56(%r13), %rax
	xorq	%r11, %rax
	mulq	%r15
	movq	%rax, %rbp
	movq	%rdx, %r15
	addq	%r11, %r15
	xorq	80(%r13), %r9
	xorq	96(%r13), %rbx
	xorq	%r14, %r9
	xorq	%rcx, %rbx
	xorq	64(%r13), %r8
	xorq	112(%r13), %rbp
	movq	88(%r13), %rax
	xorq	%rcx, %rax
	mulq	%r9
	xorq	%r15, %r8
	movq	72(%r13), %r10
	xorq	%r14, %r10
	movq	%rax, %r9
	movq	%rdx, %rdi
	movq	%r8, %rax
	mulq	%r10
	addq	%rcx, %rdi
	movq	(%rsp), %rcx
	movq	%rdx, %r12
	addq	%r14, %r12
	movq	104(%r13), %rdx
	movq	120(%r13), %r8
	addq	$128, %r13
	addq	$-128, %rcx
	xorq	%rsi, %rdx
	movq	%rax, %r14
	movq	%rdx, %rax
	mulq	%rbx
	xorq	%rsi, %rbp
	movq	%rdx, %r10
	addq	%rsi, %r10
	xorq	%r15, %r8
	movq	%rax, %rbx
	movq	%r8, %rax
	mulq	%rbp
	movq	%rdx, %r11
	addq	%r15, %r11
	movq	%rax, %r15
	cmpq	$127, %rcx
	ja	.LBB40_18
.LBB40_19:
	movq	8(%rsp), %r8
	movq	%r15, 72(%r8)
	movq	%r11, 80(%r8)
	movq	%r14, 88(%r8)
	movq	%r12, 96(%r8)
	movq	%r9, 104(%r8)
	movq	%rdi, 112(%r8)
	movq	%rbx, 120(%r8)
	movq	%r10, 128(%r8)
	movq	%rcx, %rax
	andq	$63, %rax
	je	.LBB40_30
	cmpl	$7, %eax
	ja	.LBB40_23
	cmpl	$4, %eax
	jb	.LBB40_26
	movl	-4(%rax,%r13), %edx
	leal	(,%rax,8), %ecx
	negb	%cl
	shrq	%cl, %rdx
	movl	(%r13), %ecx
	shlq	$32, %rdx
	orq	%rcx, %rdx
	movq	%rdx, (%r8)
	jmp	.LBB40_29
.LBB40_23:
	movq	%rcx, %rsi
	cmpl	$16, %eax
	jb	.LBB40_27
	movl	%eax, %edx
	shrl	$3, %edx
	movl	%eax, %ecx
	andl	$-8, %ecx
	movups	-16(%r13,%rcx), %xmm0
	movups	%xmm0, -16(%r8,%rcx)
	movups	(%r13), %xmm0
	movups	%xmm0, (%r8)
	cmpq	$32, %rax
	jb	.LBB40_28
	movups	-32(%r13,%rdx,8), %xmm0
	movups	%xmm0, -32(%r8,%rdx,8)
	movups	16(%r13), %xmm0
	movups	%xmm0, 16(%r8)
	jmp	.LBB40_28
.LBB40_27:
	movq	(%r13), %rcx
	movq	%rcx, (%r8)
	movl	$1, %edx
.LBB40_28:
	movq	%rsi, %rcx
	movq	-8(%r13,%rax), %rsi
	notl	%ecx
	shll	$3, %ecx
	shrq	%cl, %rsi
	shrq	$8, %rsi
	movq	%rsi, (%r8,%rdx,8)
.LBB40_29:
	movq	%rax, 64(%r8)
.LBB40_30:
	addq	$16, %rsp
	.cfi_def_cfa_offset 56
	popq	%rbx
	.cfi_def_cfa_offset 48
	popq	%r12
	.cfi_def_cfa_offset 40
	popq	%r13
	.cfi_def_cfa_offset 32
	popq	%r14
	.cfi_def_cfa_offset 24
	popq	%r15
	.cfi_def_cfa_offset 16
	popq	%rbp
	.cfi_def_cfa_offset 8
	retq
.LBB40_26:
	.cfi_def_cfa_offset 72
	movl	%eax, %ecx
	shrl	%ecx
	movzbl	(%r13,%rcx), %ecx
	shll	$8, %ecx
	movzbl	-1(%r13,%rax), %edx
	shll	$16, %edx
	xorl	%esi, %esi
	cmpq	$1, %rax
	cmoveq	%rsi, %rcx
	cmpq	$3, %rax
	cmovneq	%rsi, %rdx
	movzbl	(%r13), %esi
	orq	%rcx, %rsi
	orq	%rdx, %rsi
	movq	%rsi, (%r8)
	jmp	.LBB40_29
.Lfunc_end40:
	.size	komi_stream_complete_blocks_v4, .Lfunc_end40-komi_stream_complete_blocks_v4
	.cfi_endproc

	.section	.text.komi_stream_complete_blocks_v5,"ax",@progbits
	.p2align	6, 0x90
	.type	komi_stream_complete_blocks_v5,@function
komi_stream_complete_blocks_v5:
	.cfi_startproc
	pushq	%rbp
	.cfi_def_cfa_offset 16
	pushq	%r15
	.cfi_def_cfa_offset 24
	pushq	%r14
	.cfi_def_cfa_offset 32
	pushq	%r13
	.cfi_def_cfa_offset 40
	pushq	%r12
	.cfi_def_cfa_offset 48
	pushq	%rbx
	.cfi_def_cfa_offset 56
	subq	$16, %rsp
	.cfi_def_cfa_offset 72
	.cfi_offset %rbx, -56
	.cfi_offset %r12, -48
	.cfi_offset %r13, -40
	.cfi_offset %r14, -32
	.cfi_offset %r15, -24
	.cfi_offset %rbp, -16
	movq	%rdx, %rcx
	movq	64(%rdi), %rax
	movw	$1, 136(%rdi)
	testq	%rax, %rax
	movq	%rdi, 8(%rsp)
	je	.LBB41_4
	movl	$64, %edx
	subq	%rax, %rdx
	leaq	(%rsi,%rdx), %r13
	movq	%rcx, %r10
	cmpq	$7, %rdx
	jbe	.LBB41_2
	movq	(%rsi), %r8
	movl	%eax, %r9d
	leal	(,%r9,8), %ecx
	shlq	%cl, %r8
	shrq	$3, %rax
	movl	%eax, %ecx
	andl	$7, %ecx
	orq	%r8, (%rdi,%rcx,8)
	andl	$7, %r9d
	movl	$8, %ecx
	subq	%r9, %rcx
	cmpq	$33, %rdx
	jae	.LBB41_6
	cmpq	$17, %rdx
	jb	.LBB41_30
	movq	(%rsi,%rcx), %rcx
	andl	$1, %eax
	movq	%rcx, 40(%rdi,%rax,8)
	jmp	.LBB41_11
.LBB41_6:
	andl	$3, %eax
	movq	(%rsi,%rcx), %rcx
	movq	%rsi, %r8
	subq	%r9, %r8
	movq	16(%r8), %r8
	movq	%rcx, 8(%rdi,%rax,8)
	movq	%r8, 16(%rdi,%rax,8)
	negq	%r9
	movq	24(%rsi,%r9), %rcx
	movq	%rcx, 24(%rdi,%rax,8)
	movups	-32(%r13), %xmm0
	movups	%xmm0, 32(%rdi)
.LBB41_11:
	movq	-16(%r13), %rax
	movq	-8(%r13), %r11
	movq	%rax, 48(%rdi)
	jmp	.LBB41_14
.LBB41_4:
	movq	%rdi, %rax
	movq	72(%rdi), %r15
	movq	80(%rdi), %r11
	movq	88(%rdi), %r14
	movq	96(%rdi), %r12
	movq	104(%rdi), %r9
	movq	112(%rdi), %rdi
	movq	120(%rax), %rbx
	movq	128(%rax), %r10
	movq	%rsi, %r13
	testb	$64, %cl
	jne	.LBB41_15
	jmp	.LBB41_16
.LBB41_2:
	cmpq	$4, %rdx
	jae	.LBB41_3
	cmpq	$64, %rax
	je	.LBB41_8
	movq	%rdx, %rcx
	shrq	%rcx
	movzbl	(%rsi,%rcx), %ecx
	shll	$8, %ecx
	movzbl	-1(%rsi,%rdx), %r9d
	shll	$16, %r9d
	xorl	%r8d, %r8d
	cmpq	$63, %rax
	cmoveq	%r8, %rcx
	cmpq	$61, %rax
	cmovneq	%r8, %r9
	movzbl	(%rsi), %r11d
	orq	%rcx, %r11
	orq	%r9, %r11
	jmp	.LBB41_13
.LBB41_8:
	xorl	%r11d, %r11d
	jmp	.LBB41_13
.LBB41_30:
	movq	-8(%r13), %r11
	jmp	.LBB41_14
.LBB41_3:
	movl	(%rsi), %r8d
	subq	%rax, %rsi
	movl	60(%rsi), %r11d
	leal	(,%rdx,8), %ecx
	negb	%cl
	shrq	%cl, %r11
	shlq	$32, %r11
	orq	%r8, %r11
.LBB41_13:
	shll	$3, %eax
	movl	%eax, %ecx
	shlq	%cl, %r11
	orq	56(%rdi), %r11
.LBB41_14:
	subq	%rdx, %r10
	movq	%r10, (%rsp)
	movq	(%rdi), %r14
	movq	8(%rdi), %rdx
	movq	16(%rdi), %rbx
	xorps	%xmm0, %xmm0
	movups	%xmm0, (%rdi)
	movq	72(%rdi), %rsi
	xorq	24(%rdi), %rsi
	movups	%xmm0, 16(%rdi)
	movq	96(%rdi), %r15
	movq	112(%rdi), %r12
	movq	40(%rdi), %rax
	xorq	%r12, %rax
	movq	32(%rdi), %r10
	xorq	%r15, %r10
	movups	%xmm0, 32(%rdi)
	movq	128(%rdi), %rcx
	movq	48(%rdi), %r8
	xorq	%rcx, %r8
	movups	%xmm0, 48(%rdi)
	movq	$0, 64(%rdi)
	movq	80(%rdi), %rbp
	xorq	104(%rdi), %rdx
	xorq	%r15, %rdx
	xorq	120(%rdi), %rbx
	xorq	88(%rdi), %r14
	xorq	%r12, %rbx
	xorq	%rbp, %r14
	xorq	%rcx, %rsi
	mulq	%rdx
	movq	%rax, %r9
	movq	%rdx, %rdi
	addq	%r12, %rdi
	movq	%r10, %rax
	mulq	%r14
	movq	%rax, %r14
	movq	%rdx, %r12
	addq	%r15, %r12
	movq	%r8, %rax
	mulq	%rbx
	movq	%rax, %rbx
	movq	%rdx, %r10
	xorq	%rbp, %r11
	movq	%rsi, %rax
	mulq	%r11
	movq	%rax, %r15
	movq	%rdx, %r11
	addq	%rcx, %r10
	movq	(%rsp), %rcx
	addq	%rbp, %r11
	testb	$64, %cl
	je	.LBB41_16
.LBB41_15:
	xorq	8(%r13), %r9
	xorq	%r12, %r9
	xorq	16(%r13), %rbx
	xorq	(%r13), %r14
	xorq	%rdi, %rbx
	xorq	%r11, %r14
	movq	%rcx, %r8
	movq	24(%r13), %rcx
	xorq	%r10, %rcx
	xorq	%r15, %rcx
	movq	40(%r13), %rax
	xorq	%rdi, %rax
	mulq	%r9
	addq	%rdx, %rdi
	movq	32(%r13), %rdx
	xorq	%r12, %rdx
	movq	%rax, %r9
	movq	%rdx, %rax
	mulq	%r14
	addq	%rdx, %r12
	movq	48(%r13), %rdx
	movq	56(%r13), %rsi
	addq	$64, %r13
	xorq	%r10, %rdx
	movq	%rax, %r14
	movq	%rdx, %rax
	mulq	%rbx
	addq	$-64, %r8
	addq	%rdx, %r10
	xorq	%r11, %rsi
	movq	%rax, %rbx
	movq	%rsi, %rax
	mulq	%rcx
	movq	%r8, %rcx
	addq	%rdx, %r11
	movq	%rax, %r15
.LBB41_16:
	cmpq	$128, %rcx
	jb	.LBB41_18
	.p2align	4, 0x90
.LBB41_17:
	movq	%rcx, (%rsp)
	xorq	8(%r13), %r9
	xorq	%r12, %r9
	xorq	16(%r13), %rbx
	xorq	(%r13), %r14
	xorq	%rdi, %rbx
	xorq	%r11, %r14
	xorq	24(%r13), %r15
	xorq	%r10, %r15
	movq	40(%r13), %rax
	xorq	%rdi, %rax
	mulq	%r9
	movq	%rax, %r9
	movq	%rdx, %rcx
	addq	%rdi, %rcx
	movq	32(%r13), %rax
	xorq	%r12, %rax
	mulq	%r14
	movq	%rax, %r8
	movq	%rdx, %r14
	addq	%r12, %r14
	movq	48(%r13), %rax
	xorq	%r10, %rax
	mulq	%rbx
	movq	%rax, %rbx
	movq	%rdx, %rsi
	addq	%r10, %rsi
	movq	56(%r13), %rax
	xorq	%r11, %rax
	mulq	%r15
	movq	%rax, %rbp
	movq	%rdx, %r15
	addq	%r11, %r15
	xorq	72(%r13), %r9
	xorq	80(%r13), %rbx
	xorq	%r14, %r9
	xorq	%rcx, %rbx
	xorq	64(%r13), %r8
	xorq	88(%r13), %rbp
	movq	104(%r13), %rax
	xorq	%rcx, %rax
	mulq	%r9
	xorq	%r15, %r8
	movq	96(%r13), %r10
	xorq	%r14, %r10
	movq	%rax, %r9
	movq	%rdx, %rdi
	movq	%r8, %rax
	mulq	%r10
	addq	%rcx, %rdi
	movq	(%rsp), %rcx
	movq	%rdx, %r12
	addq	%r14, %r12
	movq	112(%r13), %rdx
	movq	120(%r13), %r8
	addq	$128, %r13
	addq	$-128, %rcx
	xorq	%rsi, %rdx
	movq	%rax, %r14
	movq	%rdx, %rax
	mulq	%rbx
	xorq	%rsi, %rbp
	movq	%rdx, %r10
	addq	%rsi, %r10
	xorq	%r15, %r8
	movq	%rax, %rbx
	movq	%r8, %rax
	mulq	%rbp
	movq	%rdx, %r11
	addq	%r15, %r11
	movq	%rax, %r15
	cmpq	$127, %rcx
	ja	.LBB41_17
.LBB41_18:
	movq	8(%rsp), %r8
	movq	%r15, 72(%r8)
	movq	%r11, 80(%r8)
	movq	%r14, 88(%r8)
	movq	%r12, 96(%r8)
	movq	%r9, 104(%r8)
	movq	%rdi, 112(%r8)
	movq	%rbx, 120(%r8)
	movq	%r10, 128(%r8)
	movq	%rcx, %rax
	andq	$63, %rax
	je	.LBB41_29
	cmpl	$7, %eax
	ja	.LBB41_22
	cmpl	$4, %eax
	jb	.LBB41_25
	movl	-4(%rax,%r13), %edx
	leal	(,%rax,8), %ecx
	negb	%cl
	shrq	%cl, %rdx
	movl	(%r13), %ecx
	shlq	$32, %rdx
	orq	%rcx, %rdx
	movq	%rdx, (%r8)
	jmp	.LBB41_28
.LBB41_22:
	movq	%rcx, %rsi
	cmpl	$16, %eax
	jb	.LBB41_26
	movl	%eax, %edx
	shrl	$3, %edx
	movl	%eax, %ecx
	andl	$-8, %ecx
	movups	-16(%r13,%rcx), %xmm0
	movups	%xmm0, -16(%r8,%rcx)
	movups	(%r13), %xmm0
	movups	%xmm0, (%r8)
	cmpq	$32, %rax
	jb	.LBB41_27
	movups	-32(%r13,%rdx,8), %xmm0
	movups	%xmm0, -32(%r8,%rdx,8)
	movups	16(%r13), %xmm0
	movups	%xmm0, 16(%r8)
	jmp	.LBB41_27
.LBB41_26:
	movq	(%r13), %rcx
	movq	%rcx, (%r8)
	movl	$1, %edx
.LBB41_27:
	movq	%rsi, %rcx
	movq	-8(%r13,%rax), %rsi
	notl	%ecx
	shll	$3, %ecx
	shrq	%cl, %rsi
	shrq	$8, %rsi
	movq	%rsi, (%r8,%rdx,8)
.LBB41_28:
	movq	%rax, 64(%r8)
.LBB41_29:
	addq	$16, %rsp
	.cfi_def_cfa_offset 56
	popq	%rbx
	.cfi_def_cfa_offset 48
	popq	%r12
	.cfi_def_cfa_offset 40
	popq	%r13
	.cfi_def_cfa_offset 32
	popq	%r14
	.cfi_def_cfa_offset 24
	popq	%r15
	.cfi_def_cfa_offset 16
	popq	%rbp
	.cfi_def_cfa_offset 8
	retq
.LBB41_25:
	.cfi_def_cfa_offset 72
	movl	%eax, %ecx
	shrl	%ecx
	movzbl	(%r13,%rcx), %ecx
	shll	$8, %ecx
	movzbl	-1(%r13,%rax), %edx
	shll	$16, %edx
	xorl	%esi, %esi
	cmpq	$1, %rax
	cmoveq	%rsi, %rcx
	cmpq	$3, %rax
	cmovneq	%rsi, %rdx
	movzbl	(%r13), %esi
	orq	%rcx, %rsi
	orq	%rdx, %rsi
	movq	%rsi, (%r8)
	jmp	.LBB41_28
.Lfunc_end41:
	.size	komi_stream_complete_blocks_v5, .Lfunc_end41-komi_stream_complete_blocks_v5
	.cfi_endproc

	.section	".note.GNU-stack","",@progbits
