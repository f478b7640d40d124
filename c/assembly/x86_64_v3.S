/* SPDX-License-Identifier: MIT
 * Copyright (c) 2026 the authors of komihash_rattle
 *
 * `make assembly` made this file from komihash_rattle_inline.h. Do not edit it.
 * Made of: SHA-256 5f39fc309d55353125e2e5bfa9337f2b71193819c65eb750e26a339d95a94107
 * Options: -O2 -fno-vectorize -fno-slp-vectorize -mllvm -disable-loop-idiom-memcpy -mllvm -enable-ext-tsp-block-placement -fPIC -ffunction-sections -falign-functions=64 -fno-addrsig -fno-ident -fno-verbose-asm -mno-red-zone -fcf-protection=full -march=x86-64-v3 -mllvm -pre-RA-sched=list-hybrid
 * Compiler: Debian clang version 19.1.7 (3~deb12u1)
 */
	.text
	.section	.note.gnu.property,"a",@note
	.p2align	3, 0x0
	.long	4
	.long	16
	.long	5
	.asciz	"GNU"
	.long	3221225474
	.long	4
	.long	3
	.p2align	3, 0x0
	.text
	.file	"komihash_rattle.c"
	.section	.text.komihash_v5,"ax",@progbits
	.globl	komihash_v5
	.p2align	6, 0x90
	.type	komihash_v5,@function
komihash_v5:
	.cfi_startproc
	endbr64
	cmpq	$8, %rsi
	jb	.LBB0_4
	cmpq	$64, %rsi
	jb	.LBB0_6
	cmpq	$128, %rsi
	jae	komi_hash_of_blocks_v5
	jmp	komi_hash_of_one_block_v5
.LBB0_6:
	cmpq	$15, %rsi
	jbe	komi_hash_of_one_word_v5
	cmpq	$16, %rsi
	jne	komi_hash_of_words_v5
	movq	%rdx, %rsi
	jmp	komi_hash_of_16_bytes_v5
.LBB0_4:
	testq	%rsi, %rsi
	jne	komi_hash_of_partial_word_v5
	movabsq	$6148914691236517205, %rcx
	andq	%rdx, %rcx
	movabsq	$2611923443488327891, %rax
	xorq	%rcx, %rax
	movabsq	$-6148914691236517206, %rcx
	andq	%rdx, %rcx
	movabsq	$4983270260364809079, %rsi
	xorq	%rcx, %rsi
	movq	%rax, %rdx
	mulxq	%rsi, %rdx, %rax
	addq	%rsi, %rax
	xorq	%rax, %rdx
	mulxq	%rax, %rdx, %rcx
	addq	%rax, %rcx
	xorq	%rcx, %rdx
	mulxq	%rcx, %rdx, %rax
	addq	%rcx, %rax
	xorq	%rdx, %rax
	retq
.Lfunc_end0:
	.size	komihash_v5, .Lfunc_end0-komihash_v5
	.cfi_endproc

	.section	.text.komihash_v5_start,"ax",@progbits
	.globl	komihash_v5_start
	.p2align	6, 0x90
	.type	komihash_v5_start,@function
komihash_v5_start:
	.cfi_startproc
	endbr64
	movq	%rdi, %rax
	vxorps	%xmm0, %xmm0, %xmm0
	vmovups	%ymm0, 32(%rdi)
	vmovups	%ymm0, (%rdi)
	movabsq	$6148914691236517205, %rcx
	andq	%rsi, %rcx
	movabsq	$2611923443488327891, %rdx
	xorq	%rcx, %rdx
	movabsq	$-6148914691236517206, %rcx
	andq	%rsi, %rcx
	movabsq	$4983270260364809079, %rsi
	xorq	%rcx, %rsi
	mulxq	%rsi, %rdx, %rcx
	movabsq	$1899778990314765756, %rdi
	xorq	%rdx, %rdi
	movq	%rdi, 120(%rax)
	movabsq	$1376283091369227076, %rdi
	xorq	%rdx, %rdi
	movq	%rdi, 104(%rax)
	addq	%rsi, %rcx
	movq	%rcx, 96(%rax)
	movabsq	$4577018097722394903, %rsi
	movabsq	$-3998401319710606252, %rdi
	xorq	%rdx, %rdi
	xorq	%rsi, %rdx
	movq	%rdx, 88(%rax)
	movq	%rdi, 72(%rax)
	movabsq	$-4563226453097033507, %rdx
	xorq	%rcx, %rdx
	movq	%rdx, 128(%rax)
	movabsq	$-4732044268327596948, %rdx
	xorq	%rcx, %rdx
	movq	%rdx, 112(%rax)
	xorq	%rsi, %rcx
	movq	%rcx, 80(%rax)
	movq	$0, 64(%rax)
	movw	$0, 136(%rax)
	vzeroupper
	retq
.Lfunc_end1:
	.size	komihash_v5_start, .Lfunc_end1-komihash_v5_start
	.cfi_endproc

	.section	.text.komihash_v5_init,"ax",@progbits
	.globl	komihash_v5_init
	.p2align	6, 0x90
	.type	komihash_v5_init,@function
komihash_v5_init:
	.cfi_startproc
	endbr64
	vxorps	%xmm0, %xmm0, %xmm0
	vmovups	%ymm0, 32(%rdi)
	vmovups	%ymm0, (%rdi)
	movabsq	$6148914691236517205, %rax
	andq	%rsi, %rax
	movabsq	$2611923443488327891, %rdx
	xorq	%rax, %rdx
	movabsq	$-6148914691236517206, %rax
	andq	%rsi, %rax
	movabsq	$4983270260364809079, %rcx
	xorq	%rax, %rcx
	mulxq	%rcx, %rdx, %rax
	movabsq	$1899778990314765756, %rsi
	xorq	%rdx, %rsi
	movq	%rsi, 120(%rdi)
	movabsq	$1376283091369227076, %rsi
	xorq	%rdx, %rsi
	movq	%rsi, 104(%rdi)
	addq	%rcx, %rax
	movq	%rax, 96(%rdi)
	movabsq	$4577018097722394903, %rcx
	movabsq	$-3998401319710606252, %rsi
	xorq	%rdx, %rsi
	xorq	%rcx, %rdx
	movq	%rdx, 88(%rdi)
	movq	%rsi, 72(%rdi)
	movabsq	$-4563226453097033507, %rdx
	xorq	%rax, %rdx
	movq	%rdx, 128(%rdi)
	movabsq	$-4732044268327596948, %rdx
	xorq	%rax, %rdx
	movq	%rdx, 112(%rdi)
	xorq	%rcx, %rax
	movq	%rax, 80(%rdi)
	movq	$0, 64(%rdi)
	movw	$0, 136(%rdi)
	vzeroupper
	retq
.Lfunc_end2:
	.size	komihash_v5_init, .Lfunc_end2-komihash_v5_init
	.cfi_endproc

	.section	.text.komihash_v5_write,"ax",@progbits
	.globl	komihash_v5_write
	.p2align	6, 0x90
	.type	komihash_v5_write,@function
komihash_v5_write:
	.cfi_startproc
	endbr64
	movq	64(%rdi), %rax
	leaq	(%rax,%rdx), %rcx
	cmpq	$63, %rcx
	ja	komi_stream_complete_blocks_v5
	movq	%rcx, 64(%rdi)
	cmpq	$7, %rdx
	ja	.LBB3_4
	cmpq	$4, %rdx
	jae	.LBB3_3
	testq	%rdx, %rdx
	je	.LBB3_11
	movzbl	-1(%rsi,%rdx), %r8d
	shll	$16, %r8d
	xorl	%ecx, %ecx
	cmpq	$3, %rdx
	cmovneq	%rcx, %r8
	movq	%rdx, %r9
	shrq	%r9
	movzbl	(%rsi,%r9), %r9d
	shll	$8, %r9d
	cmpq	$1, %rdx
	cmoveq	%rcx, %r9
	movzbl	(%rsi), %ecx
	orq	%r9, %rcx
	orq	%r8, %rcx
	jmp	.LBB3_12
.LBB3_11:
	xorl	%ecx, %ecx
	jmp	.LBB3_12
.LBB3_3:
	leal	(,%rdx,8), %ecx
	negb	%cl
	movl	-4(%rsi,%rdx), %edx
	shrxq	%rcx, %rdx, %rdx
	shlq	$32, %rdx
	movl	(%rsi), %ecx
	orq	%rdx, %rcx
.LBB3_12:
	leal	(,%rax,8), %edx
	shlxq	%rdx, %rcx, %rsi
	movl	%eax, %r8d
	andl	$56, %r8d
	orq	%rsi, (%rdi,%r8)
	negb	%dl
	shrxq	%rdx, %rcx, %rcx
	andnq	%rcx, %rsi, %rcx
	addl	$8, %eax
	andl	$56, %eax
	orq	%rcx, (%rdi,%rax)
	retq
.LBB3_4:
	leal	(,%rax,8), %r8d
	shlxq	%r8, (%rsi), %r9
	movl	%eax, %r8d
	shrl	$3, %r8d
	andl	$7, %r8d
	orq	%r9, (%rdi,%r8,8)
	andl	$7, %eax
	movl	$8, %r9d
	subq	%rax, %r9
	movq	%rdx, %rax
	subq	%r9, %rax
	incq	%r8
	cmpq	$16, %rax
	jb	.LBB3_9
	pushq	%rbx
	.cfi_def_cfa_offset 16
	.cfi_offset %rbx, -16
	leaq	(%rdi,%r8,8), %r10
	leaq	(%rsi,%r9), %r11
	movq	%rax, %rbx
	andq	$-8, %rbx
	vmovups	-16(%rbx,%r11), %xmm0
	vmovups	%xmm0, -16(%rbx,%r10)
	vmovups	(%rsi,%r9), %xmm0
	vmovups	%xmm0, (%rdi,%r8,8)
	cmpq	$32, %rax
	popq	%rbx
	.cfi_def_cfa_offset 8
	.cfi_restore %rbx
	jb	.LBB3_10
	shrq	$3, %rax
	vmovups	-32(%r11,%rax,8), %xmm0
	vmovups	%xmm0, -32(%r10,%rax,8)
	vmovups	16(%r11), %xmm0
	vmovups	%xmm0, 16(%r10)
	jmp	.LBB3_10
.LBB3_9:
	leaq	-8(%rdx), %rax
	cmpq	%rax, %r9
	cmovbq	%r9, %rax
	movq	(%rsi,%rax), %rax
	andl	$7, %r8d
	movq	%rax, (%rdi,%r8,8)
.LBB3_10:
	movl	%ecx, %eax
	notl	%eax
	shll	$3, %eax
	shrxq	%rax, -8(%rsi,%rdx), %rax
	shrq	$8, %rax
	andq	$-8, %rcx
	movq	%rax, (%rdi,%rcx)
	retq
.Lfunc_end3:
	.size	komihash_v5_write, .Lfunc_end3-komihash_v5_write
	.cfi_endproc

	.section	.text.komihash_v5_finish,"ax",@progbits
	.globl	komihash_v5_finish
	.p2align	6, 0x90
	.type	komihash_v5_finish,@function
komihash_v5_finish:
	.cfi_startproc
	endbr64
	movq	96(%rdi), %rcx
	movq	80(%rdi), %rax
	movq	88(%rdi), %rdx
	cmpb	$1, 136(%rdi)
	je	.LBB4_1
	xorq	%rcx, %rax
	xorq	%rdx, %rax
	movq	64(%rdi), %rsi
	testq	%rsi, %rsi
	jne	.LBB4_4
	xorl	%edx, %edx
	jmp	.LBB4_10
.LBB4_1:
	movq	128(%rdi), %rsi
	xorq	112(%rdi), %rsi
	xorq	%rax, %rcx
	xorq	%rsi, %rcx
	movq	64(%rdi), %rsi
	movq	120(%rdi), %rax
	xorq	104(%rdi), %rax
	xorq	72(%rdi), %rax
	xorq	%rdx, %rax
	testq	%rsi, %rsi
	je	.LBB4_2
.LBB4_4:
	movq	%rsi, %r8
	shrq	$3, %r8
	cmpq	$16, %rsi
	jb	.LBB4_8
	movq	8(%rdi), %r9
	xorq	%rcx, %r9
	movq	(%rdi), %rdx
	xorq	%rcx, %rdx
	xorq	%rax, %rdx
	mulxq	%r9, %rax, %rdx
	addq	%rdx, %rcx
	cmpq	$32, %rsi
	jb	.LBB4_8
	movq	24(%rdi), %r9
	xorq	%rcx, %r9
	xorq	16(%rdi), %rax
	xorq	%rcx, %rax
	movq	%rax, %rdx
	mulxq	%r9, %rax, %rdx
	addq	%rdx, %rcx
	cmpq	$48, %rsi
	jb	.LBB4_8
	movq	40(%rdi), %r9
	xorq	%rcx, %r9
	xorq	32(%rdi), %rax
	xorq	%rcx, %rax
	movq	%rax, %rdx
	mulxq	%r9, %rax, %rdx
	addq	%rdx, %rcx
.LBB4_8:
	leal	(,%rsi,8), %edx
	movl	$1, %r9d
	shlxq	%rdx, %r9, %rdx
	xorl	%r9d, %r9d
	testb	$8, %sil
	cmoveq	%rdx, %r9
	subq	%r9, %rdx
	andl	$6, %r8d
	orq	8(%rdi,%r8,8), %rdx
	xorq	%rcx, %rdx
	orq	(%rdi,%r8,8), %r9
	xorq	%rcx, %rax
	xorq	%r9, %rax
.LBB4_11:
	mulxq	%rax, %rdx, %rsi
	addq	%rcx, %rsi
	xorq	%rsi, %rdx
	mulxq	%rsi, %rcx, %rax
	addq	%rsi, %rax
	xorq	%rcx, %rax
	retq
.LBB4_2:
	movzbl	137(%rdi), %edx
	incq	%rdx
.LBB4_10:
	xorq	%rcx, %rdx
	xorq	%rdx, %rax
	movq	%rcx, %rdx
	jmp	.LBB4_11
.Lfunc_end4:
	.size	komihash_v5_finish, .Lfunc_end4-komihash_v5_finish
	.cfi_endproc

	.section	.text.komihash_v5_save,"ax",@progbits
	.globl	komihash_v5_save
	.p2align	6, 0x90
	.type	komihash_v5_save,@function
komihash_v5_save:
	.cfi_startproc
	endbr64
	cmpq	$131, %rdx
	jae	.LBB5_2
	xorl	%eax, %eax
	retq
.LBB5_2:
	pushq	%rbx
	.cfi_def_cfa_offset 16
	pushq	%rax
	.cfi_def_cfa_offset 24
	.cfi_offset %rbx, -16
	movzwl	136(%rdi), %eax
	movzbl	64(%rdi), %ecx
	movb	%cl, 3(%rsi)
	movw	%ax, 1(%rsi)
	movb	$5, (%rsi)
	movq	80(%rdi), %rax
	movq	96(%rdi), %rcx
	movq	88(%rdi), %rdx
	xorq	%rax, %rdx
	movq	104(%rdi), %r8
	xorq	%rcx, %r8
	movq	112(%rdi), %r9
	movq	120(%rdi), %r10
	xorq	%r9, %r10
	movq	128(%rdi), %r11
	movq	72(%rdi), %rbx
	xorq	%r11, %rbx
	movq	%rax, 60(%rsi)
	movq	%r11, 52(%rsi)
	movq	%r9, 44(%rsi)
	movq	%rcx, 36(%rsi)
	movq	%rbx, 28(%rsi)
	movq	%r10, 20(%rsi)
	movq	%r8, 12(%rsi)
	movq	%rdx, 4(%rsi)
	movq	64(%rdi), %rcx
	movq	%rcx, %rdx
	shrq	$3, %rdx
	cmpq	$8, %rcx
	jb	.LBB5_10
	movl	%edx, %eax
	andl	$7, %eax
	leaq	-1(%rdx), %r8
	cmpq	$7, %r8
	jb	.LBB5_4
	xorl	%r9d, %r9d
	movq	%rdx, %r8
	andq	$-8, %r8
	.p2align	4, 0x90
.LBB5_6:
	movq	(%rdi,%r9,8), %r10
	movq	%r10, 68(%rsi,%r9,8)
	movq	8(%rdi,%r9,8), %r10
	movq	%r10, 76(%rsi,%r9,8)
	movq	16(%rdi,%r9,8), %r10
	movq	%r10, 84(%rsi,%r9,8)
	movq	24(%rdi,%r9,8), %r10
	movq	%r10, 92(%rsi,%r9,8)
	movq	32(%rdi,%r9,8), %r10
	movq	%r10, 100(%rsi,%r9,8)
	movq	40(%rdi,%r9,8), %r10
	movq	%r10, 108(%rsi,%r9,8)
	movq	48(%rdi,%r9,8), %r10
	movq	%r10, 116(%rsi,%r9,8)
	movq	56(%rdi,%r9,8), %r10
	movq	%r10, 124(%rsi,%r9,8)
	addq	$8, %r9
	cmpq	%r9, %r8
	jne	.LBB5_6
	jmp	.LBB5_7
.LBB5_4:
	xorl	%r8d, %r8d
.LBB5_7:
	testq	%rax, %rax
	je	.LBB5_10
	leaq	(%rdi,%r8,8), %r9
	leaq	(%rsi,%r8,8), %r8
	addq	$68, %r8
	xorl	%r10d, %r10d
	.p2align	4, 0x90
.LBB5_9:
	movq	(%r9,%r10,8), %r11
	movq	%r11, (%r8,%r10,8)
	incq	%r10
	cmpq	%r10, %rax
	jne	.LBB5_9
.LBB5_10:
	leaq	68(%rcx), %rax
	movq	%rcx, %r8
	andq	$7, %r8
	je	.LBB5_16
	addq	$68, %rsi
	movq	(%rdi,%rdx,8), %rdx
	movq	%rdx, (%rsp)
	andq	$-8, %rcx
	addq	%rsi, %rcx
	cmpl	$4, %r8d
	jae	.LBB5_12
	cmpl	$1, %r8d
	je	.LBB5_14
	movw	%dx, (%rcx)
	movzwl	-2(%rsp,%r8), %edx
	movw	%dx, -2(%rcx,%r8)
	jmp	.LBB5_16
.LBB5_14:
	movb	%dl, (%rcx)
	jmp	.LBB5_16
.LBB5_12:
	movl	%edx, (%rcx)
	movl	-4(%rsp,%r8), %edx
	movl	%edx, -4(%rcx,%r8)
.LBB5_16:
	addq	$8, %rsp
	.cfi_def_cfa_offset 16
	popq	%rbx
	.cfi_def_cfa_offset 8
	.cfi_restore %rbx
	retq
.Lfunc_end5:
	.size	komihash_v5_save, .Lfunc_end5-komihash_v5_save
	.cfi_endproc

	.section	.text.komihash_v5_resume,"ax",@progbits
	.globl	komihash_v5_resume
	.p2align	6, 0x90
	.type	komihash_v5_resume,@function
komihash_v5_resume:
	.cfi_startproc
	endbr64
	cmpq	$68, %rdx
	jb	.LBB6_9
	cmpb	$5, (%rsi)
	jne	.LBB6_9
	movzbl	1(%rsi), %eax
	cmpb	$1, %al
	ja	.LBB6_9
	cmpb	$0, 2(%rsi)
	je	.LBB6_4
.LBB6_9:
	xorl	%eax, %eax
	retq
.LBB6_4:
	movzbl	3(%rsi), %ecx
	cmpq	$63, %rcx
	ja	.LBB6_9
	addq	$68, %rcx
	cmpq	%rdx, %rcx
	jne	.LBB6_9
	pushq	%rbx
	.cfi_def_cfa_offset 16
	subq	$80, %rsp
	.cfi_def_cfa_offset 96
	.cfi_offset %rbx, -16
	vxorps	%xmm0, %xmm0, %xmm0
	vmovups	%ymm0, 32(%rsp)
	vmovups	%ymm0, (%rsp)
	leaq	-68(%rdx), %rcx
	movq	%rcx, 64(%rsp)
	cmpb	$1, %al
	sete	%al
	cmpq	$7, %rcx
	ja	.LBB6_10
	cmpq	$4, %rcx
	jae	.LBB6_8
	testq	%rcx, %rcx
	je	.LBB6_20
	movzbl	-1(%rsi,%rdx), %edx
	shll	$16, %edx
	xorl	%r8d, %r8d
	cmpq	$3, %rcx
	cmovneq	%r8, %rdx
	movq	%rcx, %r9
	shrq	%r9
	movzbl	68(%rsi,%r9), %r9d
	shll	$8, %r9d
	cmpq	$1, %rcx
	cmoveq	%r8, %r9
	movzbl	68(%rsi), %ecx
	orq	%r9, %rcx
	jmp	.LBB6_15
.LBB6_10:
	movq	68(%rsi), %r8
	movq	%r8, (%rsp)
	leaq	-76(%rdx), %r8
	cmpq	$16, %r8
	jb	.LBB6_16
	movq	%r8, %r9
	andq	$-8, %r9
	vmovups	60(%r9,%rsi), %xmm0
	vmovups	%xmm0, -8(%rsp,%r9)
	vmovups	76(%rsi), %xmm0
	vmovups	%xmm0, 8(%rsp)
	cmpq	$32, %r8
	jb	.LBB6_18
	shrq	$3, %r8
	vmovups	44(%rsi,%r8,8), %xmm0
	vmovups	%xmm0, -24(%rsp,%r8,8)
	leaq	32(%rsp), %r9
	movq	92(%rsi), %r10
	movq	100(%rsi), %r8
	movq	%r10, 24(%rsp)
	jmp	.LBB6_17
.LBB6_8:
	shll	$3, %ecx
	negb	%cl
	movl	-4(%rsi,%rdx), %edx
	shrxq	%rcx, %rdx, %rdx
	shlq	$32, %rdx
	movl	68(%rsi), %ecx
.LBB6_15:
	orq	%rdx, %rcx
	movq	%rcx, (%rsp)
	jmp	.LBB6_19
.LBB6_20:
	xorl	%ecx, %ecx
	movq	%rcx, (%rsp)
	jmp	.LBB6_19
.LBB6_16:
	leaq	8(%rsp), %r9
	movl	$8, %r10d
	cmpq	$8, %r8
	cmovbq	%r8, %r10
	movq	68(%rsi,%r10), %r8
.LBB6_17:
	movq	%r8, (%r9)
.LBB6_18:
	movl	%ecx, %r8d
	notl	%r8d
	shll	$3, %r8d
	shrxq	%r8, -8(%rsi,%rdx), %rdx
	shrq	$8, %rdx
	andq	$-8, %rcx
	movq	%rdx, (%rsp,%rcx)
.LBB6_19:
	movq	(%rsp), %rcx
	vmovups	8(%rsp), %xmm0
	movq	24(%rsp), %rdx
	vmovups	32(%rsp), %ymm1
	vmovups	%ymm1, 32(%rdi)
	movq	%rcx, (%rdi)
	vmovups	%xmm0, 8(%rdi)
	movq	%rdx, 24(%rdi)
	movq	64(%rsp), %rcx
	movq	%rcx, 64(%rdi)
	movq	52(%rsi), %rcx
	movq	28(%rsi), %rdx
	xorq	%rcx, %rdx
	movq	60(%rsi), %r8
	movq	4(%rsi), %r9
	xorq	%r8, %r9
	movq	36(%rsi), %r10
	movq	44(%rsi), %r11
	movq	12(%rsi), %rbx
	xorq	%r10, %rbx
	movq	20(%rsi), %rsi
	xorq	%r11, %rsi
	movb	%al, 136(%rdi)
	movq	%rcx, 128(%rdi)
	movq	%rsi, 120(%rdi)
	movq	%r11, 112(%rdi)
	movq	%rbx, 104(%rdi)
	movq	%r10, 96(%rdi)
	movq	%r9, 88(%rdi)
	movq	%r8, 80(%rdi)
	movq	%rdx, 72(%rdi)
	movb	$0, 137(%rdi)
	movb	$1, %al
	addq	$80, %rsp
	.cfi_def_cfa_offset 16
	popq	%rbx
	.cfi_def_cfa_offset 8
	.cfi_restore %rbx
	vzeroupper
	retq
.Lfunc_end6:
	.size	komihash_v5_resume, .Lfunc_end6-komihash_v5_resume
	.cfi_endproc

	.section	.text.komihash_v5_rand_init,"ax",@progbits
	.globl	komihash_v5_rand_init
	.p2align	6, 0x90
	.type	komihash_v5_rand_init,@function
komihash_v5_rand_init:
	.cfi_startproc
	endbr64
	movq	%rdi, %rdx
	mulxq	%rdi, %rdx, %rax
	xorq	%rax, %rdx
	movabsq	$6148914691236517205, %rsi
	addq	%rsi, %rdx
	movabsq	$-6148914691236517206, %r8
	leaq	(%rdi,%r8), %rcx
	addq	%rax, %rcx
	mulxq	%rcx, %rdx, %rax
	xorq	%rax, %rdx
	addq	%rsi, %rdx
	addq	%r8, %rcx
	addq	%rax, %rcx
	mulxq	%rcx, %rdx, %rax
	xorq	%rax, %rdx
	addq	%rsi, %rdx
	addq	%r8, %rcx
	addq	%rax, %rcx
	mulxq	%rcx, %rax, %rdx
	xorq	%rdx, %rax
	addq	%rsi, %rax
	addq	%r8, %rcx
	addq	%rdx, %rcx
	movq	%rcx, %rdx
	retq
.Lfunc_end7:
	.size	komihash_v5_rand_init, .Lfunc_end7-komihash_v5_rand_init
	.cfi_endproc

	.section	.text.komihash_v5_rand_init_with_extra_seed,"ax",@progbits
	.globl	komihash_v5_rand_init_with_extra_seed
	.p2align	6, 0x90
	.type	komihash_v5_rand_init_with_extra_seed,@function
komihash_v5_rand_init_with_extra_seed:
	.cfi_startproc
	endbr64
	movq	%rsi, %rdx
	mulxq	%rdi, %rax, %r8
	xorq	%r8, %rax
	movabsq	$6148914691236517205, %rsi
	addq	%rsi, %rax
	movabsq	$-6148914691236517206, %rdi
	leaq	(%rdx,%rdi), %rcx
	addq	%r8, %rcx
	movq	%rax, %rdx
	mulxq	%rcx, %rdx, %rax
	xorq	%rax, %rdx
	addq	%rsi, %rdx
	addq	%rdi, %rcx
	addq	%rax, %rcx
	mulxq	%rcx, %rdx, %rax
	xorq	%rax, %rdx
	addq	%rsi, %rdx
	addq	%rdi, %rcx
	addq	%rax, %rcx
	mulxq	%rcx, %rax, %rdx
	xorq	%rdx, %rax
	addq	%rsi, %rax
	addq	%rdi, %rcx
	addq	%rdx, %rcx
	movq	%rcx, %rdx
	retq
.Lfunc_end8:
	.size	komihash_v5_rand_init_with_extra_seed, .Lfunc_end8-komihash_v5_rand_init_with_extra_seed
	.cfi_endproc

	.section	.text.komihash_v5_rand_init_words,"ax",@progbits
	.globl	komihash_v5_rand_init_words
	.p2align	6, 0x90
	.type	komihash_v5_rand_init_words,@function
komihash_v5_rand_init_words:
	.cfi_startproc
	endbr64
	movq	%rsi, %rdx
	movq	%rdi, %rax
	retq
.Lfunc_end9:
	.size	komihash_v5_rand_init_words, .Lfunc_end9-komihash_v5_rand_init_words
	.cfi_endproc

	.section	.text.komihash_v5_rand_next,"ax",@progbits
	.globl	komihash_v5_rand_next
	.p2align	6, 0x90
	.type	komihash_v5_rand_next,@function
komihash_v5_rand_next:
	.cfi_startproc
	endbr64
	movq	8(%rdi), %rdx
	mulxq	(%rdi), %rcx, %rax
	movabsq	$-6148914691236517206, %rsi
	addq	%rdx, %rsi
	addq	%rax, %rsi
	movq	%rsi, 8(%rdi)
	xorq	%rax, %rcx
	movabsq	$6148914691236517205, %rax
	addq	%rcx, %rax
	movq	%rax, (%rdi)
	retq
.Lfunc_end10:
	.size	komihash_v5_rand_next, .Lfunc_end10-komihash_v5_rand_next
	.cfi_endproc

	.section	.text.komihash_v5_rand_fill,"ax",@progbits
	.globl	komihash_v5_rand_fill
	.p2align	6, 0x90
	.type	komihash_v5_rand_fill,@function
komihash_v5_rand_fill:
	.cfi_startproc
	endbr64
	pushq	%r14
	.cfi_def_cfa_offset 16
	pushq	%rbx
	.cfi_def_cfa_offset 24
	pushq	%rax
	.cfi_def_cfa_offset 32
	.cfi_offset %rbx, -24
	.cfi_offset %r14, -16
	movq	%rdx, %r8
	movq	(%rdi), %rax
	movq	8(%rdi), %rcx
	movabsq	$6148914691236517205, %r10
	movabsq	$-6148914691236517206, %r9
	cmpq	$8, %rdx
	jb	.LBB11_7
	movq	%r8, %r11
	shrq	$3, %r11
	cmpq	$1, %r11
	je	.LBB11_2
	xorl	%ebx, %ebx
	andq	$-2, %r11
	.p2align	4, 0x90
.LBB11_4:
	movq	%rcx, %rdx
	mulxq	%rax, %rdx, %rax
	xorq	%rax, %rdx
	addq	%r10, %rdx
	addq	%r9, %rcx
	addq	%rax, %rcx
	mulxq	%rcx, %rax, %r14
	movq	%rdx, (%rsi,%rbx,8)
	xorq	%r14, %rax
	addq	%r10, %rax
	movq	%rax, 8(%rsi,%rbx,8)
	addq	%r9, %rcx
	addq	%r14, %rcx
	addq	$2, %rbx
	cmpq	%rbx, %r11
	jne	.LBB11_4
	shlq	$3, %r11
	testb	$8, %r8b
	je	.LBB11_7
	jmp	.LBB11_6
.LBB11_2:
	xorl	%r11d, %r11d
	testb	$8, %r8b
	je	.LBB11_7
.LBB11_6:
	movq	%rcx, %rdx
	mulxq	%rax, %rax, %rdx
	xorq	%rdx, %rax
	addq	%r10, %rax
	movq	%rax, (%rsi,%r11)
	addq	%r9, %rcx
	addq	%rdx, %rcx
.LBB11_7:
	movq	%r8, %r11
	andq	$7, %r11
	je	.LBB11_14
	movq	%rax, %rdx
	mulxq	%rcx, %rax, %rdx
	xorq	%rdx, %rax
	addq	%r10, %rax
	movq	%rax, (%rsp)
	addq	%rcx, %r9
	andq	$-8, %r8
	addq	%r8, %rsi
	cmpl	$4, %r11d
	jae	.LBB11_9
	cmpl	$1, %r11d
	je	.LBB11_11
	movw	%ax, (%rsi)
	movzwl	-2(%rsp,%r11), %ecx
	movw	%cx, -2(%rsi,%r11)
	jmp	.LBB11_13
.LBB11_11:
	movb	%al, (%rsi)
	jmp	.LBB11_13
.LBB11_9:
	movl	%eax, (%rsi)
	movl	-4(%rsp,%r11), %ecx
	movl	%ecx, -4(%rsi,%r11)
.LBB11_13:
	addq	%rdx, %r9
	movq	%r9, %rcx
.LBB11_14:
	movq	%rcx, 8(%rdi)
	movq	%rax, (%rdi)
	addq	$8, %rsp
	.cfi_def_cfa_offset 24
	popq	%rbx
	.cfi_def_cfa_offset 16
	popq	%r14
	.cfi_def_cfa_offset 8
	retq
.Lfunc_end11:
	.size	komihash_v5_rand_fill, .Lfunc_end11-komihash_v5_rand_fill
	.cfi_endproc

	.section	.text.komihash_v5_pad,"ax",@progbits
	.globl	komihash_v5_pad
	.p2align	6, 0x90
	.type	komihash_v5_pad,@function
komihash_v5_pad:
	.cfi_startproc
	endbr64
	movq	%rsi, %rax
	shrq	$3, %rax
	cmpq	%rcx, %rax
	jb	.LBB12_1
	xorl	%eax, %eax
	retq
.LBB12_1:
	cmpq	$7, %rsi
	jbe	.LBB12_2
	movq	-8(%rdi,%rsi), %r9
	shll	$3, %esi
	movl	$1, %r8d
	movl	%esi, %ecx
	shldq	%cl, %r9, %r8
	movl	%eax, %ecx
	andl	$7, %ecx
	leaq	-1(%rax), %rsi
	cmpq	$7, %rsi
	jb	.LBB12_7
	xorl	%r9d, %r9d
	movq	%rax, %rsi
	andq	$-8, %rsi
	.p2align	4, 0x90
.LBB12_9:
	movq	(%rdi,%r9,8), %r10
	movq	%r10, (%rdx,%r9,8)
	movq	8(%rdi,%r9,8), %r10
	movq	%r10, 8(%rdx,%r9,8)
	movq	16(%rdi,%r9,8), %r10
	movq	%r10, 16(%rdx,%r9,8)
	movq	24(%rdi,%r9,8), %r10
	movq	%r10, 24(%rdx,%r9,8)
	movq	32(%rdi,%r9,8), %r10
	movq	%r10, 32(%rdx,%r9,8)
	movq	40(%rdi,%r9,8), %r10
	movq	%r10, 40(%rdx,%r9,8)
	movq	48(%rdi,%r9,8), %r10
	movq	%r10, 48(%rdx,%r9,8)
	movq	56(%rdi,%r9,8), %r10
	movq	%r10, 56(%rdx,%r9,8)
	addq	$8, %r9
	cmpq	%r9, %rsi
	jne	.LBB12_9
	jmp	.LBB12_10
.LBB12_7:
	xorl	%esi, %esi
.LBB12_10:
	testq	%rcx, %rcx
	je	.LBB12_16
	leaq	(%rdi,%rsi,8), %rdi
	leaq	(%rdx,%rsi,8), %rsi
	xorl	%r9d, %r9d
	.p2align	4, 0x90
.LBB12_12:
	movq	(%rdi,%r9,8), %r10
	movq	%r10, (%rsi,%r9,8)
	incq	%r9
	cmpq	%r9, %rcx
	jne	.LBB12_12
	jmp	.LBB12_16
.LBB12_2:
	testq	%rsi, %rsi
	je	.LBB12_13
	cmpq	$4, %rsi
	jb	.LBB12_14
	movl	-4(%rdi,%rsi), %ecx
	movabsq	$4294967296, %r8
	orq	%rcx, %r8
	shll	$3, %esi
	negb	%sil
	shrxq	%rsi, %r8, %rcx
	shlq	$32, %rcx
	movl	(%rdi), %r8d
.LBB12_15:
	orq	%rcx, %r8
.LBB12_16:
	movq	%r8, (%rdx,%rax,8)
	incq	%rax
	retq
.LBB12_13:
	xorl	%r8d, %r8d
	jmp	.LBB12_16
.LBB12_14:
	movq	%rsi, %rcx
	shrq	%rcx
	movzbl	(%rdi,%rcx), %ecx
	shll	$8, %ecx
	xorl	%r9d, %r9d
	cmpq	$1, %rsi
	cmoveq	%r9, %rcx
	leal	(,%rsi,8), %r8d
	movzbl	(%rdi), %r10d
	btsq	%r8, %r10
	movzbl	-1(%rdi,%rsi), %r8d
	shll	$16, %r8d
	cmpq	$3, %rsi
	cmovneq	%r9, %r8
	orq	%r10, %r8
	jmp	.LBB12_15
.Lfunc_end12:
	.size	komihash_v5_pad, .Lfunc_end12-komihash_v5_pad
	.cfi_endproc

	.section	.text.komihash_v5_unpad,"ax",@progbits
	.globl	komihash_v5_unpad
	.p2align	6, 0x90
	.type	komihash_v5_unpad,@function
komihash_v5_unpad:
	.cfi_startproc
	endbr64
	leaq	-1(%rsi), %r8
	shrq	$3, %rcx
	movq	$-1, %rax
	cmpq	%rcx, %r8
	jae	.LBB13_5
	movq	-8(%rdi,%rsi,8), %rcx
	testq	%rcx, %rcx
	je	.LBB13_6
	xorl	%esi, %esi
	lzcntq	%rcx, %rsi
	shrl	$3, %esi
	xorq	$7, %rsi
	shlq	$3, %r8
	orq	%rsi, %r8
	je	.LBB13_5
	shll	$3, %esi
	shrxq	%rsi, %rcx, %rcx
	cmpq	$1, %rcx
	je	.LBB13_4
.LBB13_5:
	retq
.LBB13_6:
	xorl	%r8d, %r8d
	cmpq	$1, %rsi
	setne	%r8b
	negq	%r8
	cmpq	$-1, %r8
	jne	.LBB13_7
	jmp	.LBB13_5
.LBB13_4:
	cmpq	$-1, %r8
	je	.LBB13_5
.LBB13_7:
	movq	%r8, %rax
	shrq	$3, %rax
	cmpq	$8, %r8
	jb	.LBB13_15
	movl	%eax, %ecx
	andl	$7, %ecx
	leaq	-1(%rax), %rsi
	cmpq	$7, %rsi
	jb	.LBB13_9
	xorl	%r9d, %r9d
	movq	%rax, %rsi
	andq	$-8, %rsi
	.p2align	4, 0x90
.LBB13_11:
	movq	(%rdi,%r9,8), %r10
	movq	%r10, (%rdx,%r9,8)
	movq	8(%rdi,%r9,8), %r10
	movq	%r10, 8(%rdx,%r9,8)
	movq	16(%rdi,%r9,8), %r10
	movq	%r10, 16(%rdx,%r9,8)
	movq	24(%rdi,%r9,8), %r10
	movq	%r10, 24(%rdx,%r9,8)
	movq	32(%rdi,%r9,8), %r10
	movq	%r10, 32(%rdx,%r9,8)
	movq	40(%rdi,%r9,8), %r10
	movq	%r10, 40(%rdx,%r9,8)
	movq	48(%rdi,%r9,8), %r10
	movq	%r10, 48(%rdx,%r9,8)
	movq	56(%rdi,%r9,8), %r10
	movq	%r10, 56(%rdx,%r9,8)
	addq	$8, %r9
	cmpq	%r9, %rsi
	jne	.LBB13_11
	jmp	.LBB13_12
.LBB13_9:
	xorl	%esi, %esi
.LBB13_12:
	testq	%rcx, %rcx
	je	.LBB13_15
	leaq	(%rdi,%rsi,8), %r9
	leaq	(%rdx,%rsi,8), %rsi
	xorl	%r10d, %r10d
	.p2align	4, 0x90
.LBB13_14:
	movq	(%r9,%r10,8), %r11
	movq	%r11, (%rsi,%r10,8)
	incq	%r10
	cmpq	%r10, %rcx
	jne	.LBB13_14
.LBB13_15:
	movq	%r8, %rcx
	andq	$7, %rcx
	je	.LBB13_18
	pushq	%rax
	.cfi_def_cfa_offset 16
	movq	(%rdi,%rax,8), %rax
	movq	%rax, (%rsp)
	movq	%r8, %rsi
	andq	$-8, %rsi
	addq	%rsi, %rdx
	cmpl	$4, %ecx
	jae	.LBB13_17
	cmpl	$1, %ecx
	jne	.LBB13_21
	movb	%al, (%rdx)
	jmp	.LBB13_22
.LBB13_18:
	.cfi_def_cfa_offset 8
	movq	%r8, %rax
	retq
.LBB13_21:
	.cfi_def_cfa_offset 16
	movw	%ax, (%rdx)
	movzwl	-2(%rsp,%rcx), %eax
	movw	%ax, -2(%rdx,%rcx)
	jmp	.LBB13_22
.LBB13_17:
	movl	%eax, (%rdx)
	movl	-4(%rsp,%rcx), %eax
	movl	%eax, -4(%rdx,%rcx)
.LBB13_22:
	movq	%r8, %rax
	addq	$8, %rsp
	.cfi_def_cfa_offset 8
	retq
.Lfunc_end13:
	.size	komihash_v5_unpad, .Lfunc_end13-komihash_v5_unpad
	.cfi_endproc

	.section	.text.komihash_v4,"ax",@progbits
	.globl	komihash_v4
	.p2align	6, 0x90
	.type	komihash_v4,@function
komihash_v4:
	.cfi_startproc
	endbr64
	cmpq	$8, %rsi
	jb	.LBB14_4
	cmpq	$64, %rsi
	jb	.LBB14_6
	cmpq	$128, %rsi
	jae	komi_hash_of_blocks_v4
	jmp	komi_hash_of_one_block_v4
.LBB14_6:
	cmpq	$15, %rsi
	jbe	komi_hash_of_one_word_v4
	cmpq	$16, %rsi
	jne	komi_hash_of_words_v4
	movq	%rdx, %rsi
	jmp	komi_hash_of_16_bytes_v4
.LBB14_4:
	testq	%rsi, %rsi
	jne	komi_hash_of_partial_word_v4
	movabsq	$6148914691236517205, %rcx
	andq	%rdx, %rcx
	movabsq	$2611923443488327891, %rax
	xorq	%rcx, %rax
	movabsq	$-6148914691236517206, %rcx
	andq	%rdx, %rcx
	movabsq	$4983270260364809079, %rsi
	xorq	%rcx, %rsi
	movq	%rax, %rdx
	mulxq	%rsi, %rdx, %rax
	addq	%rsi, %rax
	xorq	%rax, %rdx
	mulxq	%rax, %rdx, %rcx
	addq	%rax, %rcx
	xorq	%rcx, %rdx
	mulxq	%rcx, %rdx, %rax
	addq	%rcx, %rax
	xorq	%rdx, %rax
	retq
.Lfunc_end14:
	.size	komihash_v4, .Lfunc_end14-komihash_v4
	.cfi_endproc

	.section	.text.komihash_v4_start,"ax",@progbits
	.globl	komihash_v4_start
	.p2align	6, 0x90
	.type	komihash_v4_start,@function
komihash_v4_start:
	.cfi_startproc
	endbr64
	movq	%rdi, %rax
	vxorps	%xmm0, %xmm0, %xmm0
	vmovups	%ymm0, 32(%rdi)
	vmovups	%ymm0, (%rdi)
	movabsq	$6148914691236517205, %rcx
	andq	%rsi, %rcx
	movabsq	$2611923443488327891, %rdx
	xorq	%rcx, %rdx
	movabsq	$-6148914691236517206, %rcx
	andq	%rsi, %rcx
	movabsq	$4983270260364809079, %rsi
	xorq	%rcx, %rsi
	mulxq	%rsi, %rdx, %rcx
	movabsq	$1899778990314765756, %rdi
	xorq	%rdx, %rdi
	movq	%rdi, 120(%rax)
	movabsq	$1376283091369227076, %rdi
	xorq	%rdx, %rdi
	movq	%rdi, 104(%rax)
	addq	%rsi, %rcx
	movq	%rcx, 96(%rax)
	movabsq	$4577018097722394903, %rsi
	movabsq	$-3998401319710606252, %rdi
	xorq	%rdx, %rdi
	xorq	%rsi, %rdx
	movq	%rdx, 88(%rax)
	movq	%rdi, 72(%rax)
	movabsq	$-4563226453097033507, %rdx
	xorq	%rcx, %rdx
	movq	%rdx, 128(%rax)
	movabsq	$-4732044268327596948, %rdx
	xorq	%rcx, %rdx
	movq	%rdx, 112(%rax)
	xorq	%rsi, %rcx
	movq	%rcx, 80(%rax)
	movq	$0, 64(%rax)
	movw	$0, 136(%rax)
	vzeroupper
	retq
.Lfunc_end15:
	.size	komihash_v4_start, .Lfunc_end15-komihash_v4_start
	.cfi_endproc

	.section	.text.komihash_v4_init,"ax",@progbits
	.globl	komihash_v4_init
	.p2align	6, 0x90
	.type	komihash_v4_init,@function
komihash_v4_init:
	.cfi_startproc
	endbr64
	vxorps	%xmm0, %xmm0, %xmm0
	vmovups	%ymm0, 32(%rdi)
	vmovups	%ymm0, (%rdi)
	movabsq	$6148914691236517205, %rax
	andq	%rsi, %rax
	movabsq	$2611923443488327891, %rdx
	xorq	%rax, %rdx
	movabsq	$-6148914691236517206, %rax
	andq	%rsi, %rax
	movabsq	$4983270260364809079, %rcx
	xorq	%rax, %rcx
	mulxq	%rcx, %rdx, %rax
	movabsq	$1899778990314765756, %rsi
	xorq	%rdx, %rsi
	movq	%rsi, 120(%rdi)
	movabsq	$1376283091369227076, %rsi
	xorq	%rdx, %rsi
	movq	%rsi, 104(%rdi)
	addq	%rcx, %rax
	movq	%rax, 96(%rdi)
	movabsq	$4577018097722394903, %rcx
	movabsq	$-3998401319710606252, %rsi
	xorq	%rdx, %rsi
	xorq	%rcx, %rdx
	movq	%rdx, 88(%rdi)
	movq	%rsi, 72(%rdi)
	movabsq	$-4563226453097033507, %rdx
	xorq	%rax, %rdx
	movq	%rdx, 128(%rdi)
	movabsq	$-4732044268327596948, %rdx
	xorq	%rax, %rdx
	movq	%rdx, 112(%rdi)
	xorq	%rcx, %rax
	movq	%rax, 80(%rdi)
	movq	$0, 64(%rdi)
	movw	$0, 136(%rdi)
	vzeroupper
	retq
.Lfunc_end16:
	.size	komihash_v4_init, .Lfunc_end16-komihash_v4_init
	.cfi_endproc

	.section	.text.komihash_v4_write,"ax",@progbits
	.globl	komihash_v4_write
	.p2align	6, 0x90
	.type	komihash_v4_write,@function
komihash_v4_write:
	.cfi_startproc
	endbr64
	movq	64(%rdi), %rax
	leaq	(%rax,%rdx), %rcx
	cmpq	$63, %rcx
	ja	komi_stream_complete_blocks_v4
	movq	%rcx, 64(%rdi)
	cmpq	$7, %rdx
	ja	.LBB17_4
	cmpq	$4, %rdx
	jae	.LBB17_3
	testq	%rdx, %rdx
	je	.LBB17_11
	movzbl	-1(%rsi,%rdx), %r8d
	shll	$16, %r8d
	xorl	%ecx, %ecx
	cmpq	$3, %rdx
	cmovneq	%rcx, %r8
	movq	%rdx, %r9
	shrq	%r9
	movzbl	(%rsi,%r9), %r9d
	shll	$8, %r9d
	cmpq	$1, %rdx
	cmoveq	%rcx, %r9
	movzbl	(%rsi), %ecx
	orq	%r9, %rcx
	orq	%r8, %rcx
	jmp	.LBB17_12
.LBB17_11:
	xorl	%ecx, %ecx
	jmp	.LBB17_12
.LBB17_3:
	leal	(,%rdx,8), %ecx
	negb	%cl
	movl	-4(%rsi,%rdx), %edx
	shrxq	%rcx, %rdx, %rdx
	shlq	$32, %rdx
	movl	(%rsi), %ecx
	orq	%rdx, %rcx
.LBB17_12:
	leal	(,%rax,8), %edx
	shlxq	%rdx, %rcx, %rsi
	movl	%eax, %r8d
	andl	$56, %r8d
	orq	%rsi, (%rdi,%r8)
	negb	%dl
	shrxq	%rdx, %rcx, %rcx
	andnq	%rcx, %rsi, %rcx
	addl	$8, %eax
	andl	$56, %eax
	orq	%rcx, (%rdi,%rax)
	retq
.LBB17_4:
	leal	(,%rax,8), %r8d
	shlxq	%r8, (%rsi), %r9
	movl	%eax, %r8d
	shrl	$3, %r8d
	andl	$7, %r8d
	orq	%r9, (%rdi,%r8,8)
	andl	$7, %eax
	movl	$8, %r9d
	subq	%rax, %r9
	movq	%rdx, %rax
	subq	%r9, %rax
	incq	%r8
	cmpq	$16, %rax
	jb	.LBB17_9
	pushq	%rbx
	.cfi_def_cfa_offset 16
	.cfi_offset %rbx, -16
	leaq	(%rdi,%r8,8), %r10
	leaq	(%rsi,%r9), %r11
	movq	%rax, %rbx
	andq	$-8, %rbx
	vmovups	-16(%rbx,%r11), %xmm0
	vmovups	%xmm0, -16(%rbx,%r10)
	vmovups	(%rsi,%r9), %xmm0
	vmovups	%xmm0, (%rdi,%r8,8)
	cmpq	$32, %rax
	popq	%rbx
	.cfi_def_cfa_offset 8
	.cfi_restore %rbx
	jb	.LBB17_10
	shrq	$3, %rax
	vmovups	-32(%r11,%rax,8), %xmm0
	vmovups	%xmm0, -32(%r10,%rax,8)
	vmovups	16(%r11), %xmm0
	vmovups	%xmm0, 16(%r10)
	jmp	.LBB17_10
.LBB17_9:
	leaq	-8(%rdx), %rax
	cmpq	%rax, %r9
	cmovbq	%r9, %rax
	movq	(%rsi,%rax), %rax
	andl	$7, %r8d
	movq	%rax, (%rdi,%r8,8)
.LBB17_10:
	movl	%ecx, %eax
	notl	%eax
	shll	$3, %eax
	shrxq	%rax, -8(%rsi,%rdx), %rax
	shrq	$8, %rax
	andq	$-8, %rcx
	movq	%rax, (%rdi,%rcx)
	retq
.Lfunc_end17:
	.size	komihash_v4_write, .Lfunc_end17-komihash_v4_write
	.cfi_endproc

	.section	.text.komihash_v4_finish,"ax",@progbits
	.globl	komihash_v4_finish
	.p2align	6, 0x90
	.type	komihash_v4_finish,@function
komihash_v4_finish:
	.cfi_startproc
	endbr64
	movq	96(%rdi), %rcx
	movq	80(%rdi), %rax
	movq	88(%rdi), %rdx
	cmpb	$1, 136(%rdi)
	je	.LBB18_1
	xorq	%rcx, %rax
	xorq	%rdx, %rax
	movq	64(%rdi), %rsi
	testq	%rsi, %rsi
	jne	.LBB18_4
	xorl	%edx, %edx
	jmp	.LBB18_10
.LBB18_1:
	movq	128(%rdi), %rsi
	xorq	112(%rdi), %rsi
	xorq	%rax, %rcx
	xorq	%rsi, %rcx
	movq	64(%rdi), %rsi
	movq	120(%rdi), %rax
	xorq	104(%rdi), %rax
	xorq	72(%rdi), %rax
	xorq	%rdx, %rax
	testq	%rsi, %rsi
	je	.LBB18_2
.LBB18_4:
	movq	%rsi, %r8
	shrq	$3, %r8
	cmpq	$16, %rsi
	jb	.LBB18_8
	movq	8(%rdi), %r9
	xorq	%rcx, %r9
	movq	(%rdi), %rdx
	xorq	%rcx, %rdx
	xorq	%rax, %rdx
	mulxq	%r9, %rax, %rdx
	addq	%rdx, %rcx
	cmpq	$32, %rsi
	jb	.LBB18_8
	movq	24(%rdi), %r9
	xorq	%rcx, %r9
	xorq	16(%rdi), %rax
	xorq	%rcx, %rax
	movq	%rax, %rdx
	mulxq	%r9, %rax, %rdx
	addq	%rdx, %rcx
	cmpq	$48, %rsi
	jb	.LBB18_8
	movq	40(%rdi), %r9
	xorq	%rcx, %r9
	xorq	32(%rdi), %rax
	xorq	%rcx, %rax
	movq	%rax, %rdx
	mulxq	%r9, %rax, %rdx
	addq	%rdx, %rcx
.LBB18_8:
	leal	(,%rsi,8), %edx
	leal	-8(,%rsi,8), %r9d
	leal	-1(%rsi), %r10d
	andl	$56, %r10d
	shrxq	%r9, (%rdi,%r10), %r9
	xorl	%r10d, %r10d
	testb	%r9b, %r9b
	sets	%r10b
	incq	%r10
	shlxq	%rdx, %r10, %rdx
	xorl	%r9d, %r9d
	testb	$8, %sil
	cmoveq	%rdx, %r9
	subq	%r9, %rdx
	andl	$6, %r8d
	orq	8(%rdi,%r8,8), %rdx
	xorq	%rcx, %rdx
	orq	(%rdi,%r8,8), %r9
	xorq	%rcx, %rax
	xorq	%r9, %rax
.LBB18_11:
	mulxq	%rax, %rdx, %rsi
	addq	%rcx, %rsi
	xorq	%rsi, %rdx
	mulxq	%rsi, %rcx, %rax
	addq	%rsi, %rax
	xorq	%rcx, %rax
	retq
.LBB18_2:
	movzbl	137(%rdi), %edx
	incq	%rdx
.LBB18_10:
	xorq	%rcx, %rdx
	xorq	%rdx, %rax
	movq	%rcx, %rdx
	jmp	.LBB18_11
.Lfunc_end18:
	.size	komihash_v4_finish, .Lfunc_end18-komihash_v4_finish
	.cfi_endproc

	.section	.text.komihash_v4_save,"ax",@progbits
	.globl	komihash_v4_save
	.p2align	6, 0x90
	.type	komihash_v4_save,@function
komihash_v4_save:
	.cfi_startproc
	endbr64
	cmpq	$131, %rdx
	jae	.LBB19_2
	xorl	%eax, %eax
	retq
.LBB19_2:
	pushq	%rbx
	.cfi_def_cfa_offset 16
	pushq	%rax
	.cfi_def_cfa_offset 24
	.cfi_offset %rbx, -16
	movzwl	136(%rdi), %eax
	movzbl	64(%rdi), %ecx
	movb	%cl, 3(%rsi)
	movw	%ax, 1(%rsi)
	movb	$4, (%rsi)
	movq	80(%rdi), %rax
	movq	96(%rdi), %rcx
	movq	88(%rdi), %rdx
	xorq	%rax, %rdx
	movq	104(%rdi), %r8
	xorq	%rcx, %r8
	movq	112(%rdi), %r9
	movq	120(%rdi), %r10
	xorq	%r9, %r10
	movq	128(%rdi), %r11
	movq	72(%rdi), %rbx
	xorq	%r11, %rbx
	movq	%rax, 60(%rsi)
	movq	%r11, 52(%rsi)
	movq	%r9, 44(%rsi)
	movq	%rcx, 36(%rsi)
	movq	%rbx, 28(%rsi)
	movq	%r10, 20(%rsi)
	movq	%r8, 12(%rsi)
	movq	%rdx, 4(%rsi)
	movq	64(%rdi), %rcx
	movq	%rcx, %rdx
	shrq	$3, %rdx
	cmpq	$8, %rcx
	jb	.LBB19_10
	movl	%edx, %eax
	andl	$7, %eax
	leaq	-1(%rdx), %r8
	cmpq	$7, %r8
	jb	.LBB19_4
	xorl	%r9d, %r9d
	movq	%rdx, %r8
	andq	$-8, %r8
	.p2align	4, 0x90
.LBB19_6:
	movq	(%rdi,%r9,8), %r10
	movq	%r10, 68(%rsi,%r9,8)
	movq	8(%rdi,%r9,8), %r10
	movq	%r10, 76(%rsi,%r9,8)
	movq	16(%rdi,%r9,8), %r10
	movq	%r10, 84(%rsi,%r9,8)
	movq	24(%rdi,%r9,8), %r10
	movq	%r10, 92(%rsi,%r9,8)
	movq	32(%rdi,%r9,8), %r10
	movq	%r10, 100(%rsi,%r9,8)
	movq	40(%rdi,%r9,8), %r10
	movq	%r10, 108(%rsi,%r9,8)
	movq	48(%rdi,%r9,8), %r10
	movq	%r10, 116(%rsi,%r9,8)
	movq	56(%rdi,%r9,8), %r10
	movq	%r10, 124(%rsi,%r9,8)
	addq	$8, %r9
	cmpq	%r9, %r8
	jne	.LBB19_6
	jmp	.LBB19_7
.LBB19_4:
	xorl	%r8d, %r8d
.LBB19_7:
	testq	%rax, %rax
	je	.LBB19_10
	leaq	(%rdi,%r8,8), %r9
	leaq	(%rsi,%r8,8), %r8
	addq	$68, %r8
	xorl	%r10d, %r10d
	.p2align	4, 0x90
.LBB19_9:
	movq	(%r9,%r10,8), %r11
	movq	%r11, (%r8,%r10,8)
	incq	%r10
	cmpq	%r10, %rax
	jne	.LBB19_9
.LBB19_10:
	leaq	68(%rcx), %rax
	movq	%rcx, %r8
	andq	$7, %r8
	je	.LBB19_16
	addq	$68, %rsi
	movq	(%rdi,%rdx,8), %rdx
	movq	%rdx, (%rsp)
	andq	$-8, %rcx
	addq	%rsi, %rcx
	cmpl	$4, %r8d
	jae	.LBB19_12
	cmpl	$1, %r8d
	je	.LBB19_14
	movw	%dx, (%rcx)
	movzwl	-2(%rsp,%r8), %edx
	movw	%dx, -2(%rcx,%r8)
	jmp	.LBB19_16
.LBB19_14:
	movb	%dl, (%rcx)
	jmp	.LBB19_16
.LBB19_12:
	movl	%edx, (%rcx)
	movl	-4(%rsp,%r8), %edx
	movl	%edx, -4(%rcx,%r8)
.LBB19_16:
	addq	$8, %rsp
	.cfi_def_cfa_offset 16
	popq	%rbx
	.cfi_def_cfa_offset 8
	.cfi_restore %rbx
	retq
.Lfunc_end19:
	.size	komihash_v4_save, .Lfunc_end19-komihash_v4_save
	.cfi_endproc

	.section	.text.komihash_v4_resume,"ax",@progbits
	.globl	komihash_v4_resume
	.p2align	6, 0x90
	.type	komihash_v4_resume,@function
komihash_v4_resume:
	.cfi_startproc
	endbr64
	cmpq	$68, %rdx
	jb	.LBB20_9
	cmpb	$4, (%rsi)
	jne	.LBB20_9
	movzbl	1(%rsi), %ecx
	cmpb	$1, %cl
	ja	.LBB20_9
	movzbl	2(%rsi), %eax
	cmpb	%al, %cl
	jb	.LBB20_9
	movzbl	3(%rsi), %r8d
	cmpq	$63, %r8
	ja	.LBB20_9
	addq	$68, %r8
	cmpq	%rdx, %r8
	je	.LBB20_6
.LBB20_9:
	xorl	%eax, %eax
	retq
.LBB20_6:
	pushq	%r14
	.cfi_def_cfa_offset 16
	pushq	%rbx
	.cfi_def_cfa_offset 24
	subq	$72, %rsp
	.cfi_def_cfa_offset 96
	.cfi_offset %rbx, -24
	.cfi_offset %r14, -16
	vxorps	%xmm0, %xmm0, %xmm0
	vmovups	%ymm0, 32(%rsp)
	vmovups	%ymm0, (%rsp)
	leaq	-68(%rdx), %r8
	movq	%r8, 64(%rsp)
	cmpb	$1, %al
	sete	%al
	cmpb	$1, %cl
	sete	%cl
	cmpq	$7, %r8
	ja	.LBB20_10
	cmpq	$4, %r8
	jae	.LBB20_8
	testq	%r8, %r8
	je	.LBB20_19
	movzbl	-1(%rsi,%rdx), %r9d
	shll	$16, %r9d
	xorl	%edx, %edx
	cmpq	$3, %r8
	cmovneq	%rdx, %r9
	movq	%r8, %r10
	shrq	%r10
	movzbl	68(%rsi,%r10), %r10d
	shll	$8, %r10d
	cmpq	$1, %r8
	cmoveq	%rdx, %r10
	movzbl	68(%rsi), %edx
	orq	%r10, %rdx
	orq	%r9, %rdx
	movq	%rdx, (%rsp)
	jmp	.LBB20_18
.LBB20_8:
	shll	$3, %r8d
	negb	%r8b
	movl	-4(%rsi,%rdx), %edx
	shrxq	%r8, %rdx, %r8
	shlq	$32, %r8
	movl	68(%rsi), %edx
	orq	%r8, %rdx
	movq	%rdx, (%rsp)
	jmp	.LBB20_18
.LBB20_19:
	xorl	%edx, %edx
	movq	%rdx, (%rsp)
	jmp	.LBB20_18
.LBB20_10:
	movq	68(%rsi), %r9
	movq	%r9, (%rsp)
	leaq	-76(%rdx), %r9
	cmpq	$16, %r9
	jb	.LBB20_15
	movq	%r9, %r10
	andq	$-8, %r10
	vmovups	60(%r10,%rsi), %xmm0
	vmovups	%xmm0, -8(%rsp,%r10)
	vmovups	76(%rsi), %xmm0
	vmovups	%xmm0, 8(%rsp)
	cmpq	$32, %r9
	jb	.LBB20_17
	shrq	$3, %r9
	vmovups	44(%rsi,%r9,8), %xmm0
	vmovups	%xmm0, -24(%rsp,%r9,8)
	leaq	32(%rsp), %r10
	movq	92(%rsi), %r11
	movq	100(%rsi), %r9
	movq	%r11, 24(%rsp)
	jmp	.LBB20_16
.LBB20_15:
	leaq	8(%rsp), %r10
	movl	$8, %r11d
	cmpq	$8, %r9
	cmovbq	%r9, %r11
	movq	68(%rsi,%r11), %r9
.LBB20_16:
	movq	%r9, (%r10)
.LBB20_17:
	movl	%r8d, %r9d
	notl	%r9d
	shll	$3, %r9d
	shrxq	%r9, -8(%rsi,%rdx), %rdx
	shrq	$8, %rdx
	andq	$-8, %r8
	movq	%rdx, (%rsp,%r8)
.LBB20_18:
	movq	(%rsp), %rdx
	vmovups	8(%rsp), %xmm0
	movq	24(%rsp), %r8
	vmovups	32(%rsp), %ymm1
	vmovups	%ymm1, 32(%rdi)
	movq	%rdx, (%rdi)
	vmovups	%xmm0, 8(%rdi)
	movq	%r8, 24(%rdi)
	movq	64(%rsp), %rdx
	movq	%rdx, 64(%rdi)
	movq	52(%rsi), %rdx
	movq	28(%rsi), %r8
	xorq	%rdx, %r8
	movq	60(%rsi), %r9
	movq	4(%rsi), %r10
	xorq	%r9, %r10
	movq	36(%rsi), %r11
	movq	44(%rsi), %rbx
	movq	12(%rsi), %r14
	xorq	%r11, %r14
	movq	20(%rsi), %rsi
	xorq	%rbx, %rsi
	movb	%al, 137(%rdi)
	movb	%cl, 136(%rdi)
	movq	%rdx, 128(%rdi)
	movq	%rsi, 120(%rdi)
	movq	%rbx, 112(%rdi)
	movq	%r14, 104(%rdi)
	movq	%r11, 96(%rdi)
	movq	%r10, 88(%rdi)
	movq	%r9, 80(%rdi)
	movq	%r8, 72(%rdi)
	movb	$1, %al
	addq	$72, %rsp
	.cfi_def_cfa_offset 24
	popq	%rbx
	.cfi_def_cfa_offset 16
	popq	%r14
	.cfi_def_cfa_offset 8
	.cfi_restore %rbx
	.cfi_restore %r14
	vzeroupper
	retq
.Lfunc_end20:
	.size	komihash_v4_resume, .Lfunc_end20-komihash_v4_resume
	.cfi_endproc

	.section	.text.komihash_v4_rand_init,"ax",@progbits
	.globl	komihash_v4_rand_init
	.p2align	6, 0x90
	.type	komihash_v4_rand_init,@function
komihash_v4_rand_init:
	.cfi_startproc
	endbr64
	movq	%rdi, %rdx
	mulxq	%rdi, %rdx, %rcx
	movabsq	$-6148914691236517206, %rsi
	addq	%rdi, %rcx
	addq	%rsi, %rcx
	xorq	%rcx, %rdx
	mulxq	%rcx, %rdx, %rax
	addq	%rsi, %rcx
	addq	%rax, %rcx
	xorq	%rcx, %rdx
	mulxq	%rcx, %rdx, %rax
	addq	%rsi, %rcx
	addq	%rax, %rcx
	xorq	%rcx, %rdx
	mulxq	%rcx, %rax, %rdx
	addq	%rsi, %rcx
	addq	%rdx, %rcx
	xorq	%rcx, %rax
	movq	%rcx, %rdx
	retq
.Lfunc_end21:
	.size	komihash_v4_rand_init, .Lfunc_end21-komihash_v4_rand_init
	.cfi_endproc

	.section	.text.komihash_v4_rand_init_with_extra_seed,"ax",@progbits
	.globl	komihash_v4_rand_init_with_extra_seed
	.p2align	6, 0x90
	.type	komihash_v4_rand_init_with_extra_seed,@function
komihash_v4_rand_init_with_extra_seed:
	.cfi_startproc
	endbr64
	movq	%rsi, %rdx
	mulxq	%rdi, %rax, %rcx
	movabsq	$-6148914691236517206, %rsi
	addq	%rsi, %rdx
	addq	%rdx, %rcx
	xorq	%rcx, %rax
	movq	%rax, %rdx
	mulxq	%rcx, %rdx, %rax
	addq	%rsi, %rcx
	addq	%rax, %rcx
	xorq	%rcx, %rdx
	mulxq	%rcx, %rdx, %rax
	addq	%rsi, %rcx
	addq	%rax, %rcx
	xorq	%rcx, %rdx
	mulxq	%rcx, %rax, %rdx
	addq	%rsi, %rcx
	addq	%rdx, %rcx
	xorq	%rcx, %rax
	movq	%rcx, %rdx
	retq
.Lfunc_end22:
	.size	komihash_v4_rand_init_with_extra_seed, .Lfunc_end22-komihash_v4_rand_init_with_extra_seed
	.cfi_endproc

	.section	.text.komihash_v4_rand_init_words,"ax",@progbits
	.globl	komihash_v4_rand_init_words
	.p2align	6, 0x90
	.type	komihash_v4_rand_init_words,@function
komihash_v4_rand_init_words:
	.cfi_startproc
	endbr64
	movq	%rsi, %rdx
	movq	%rdi, %rax
	retq
.Lfunc_end23:
	.size	komihash_v4_rand_init_words, .Lfunc_end23-komihash_v4_rand_init_words
	.cfi_endproc

	.section	.text.komihash_v4_rand_next,"ax",@progbits
	.globl	komihash_v4_rand_next
	.p2align	6, 0x90
	.type	komihash_v4_rand_next,@function
komihash_v4_rand_next:
	.cfi_startproc
	endbr64
	movq	8(%rdi), %rdx
	mulxq	(%rdi), %rsi, %rcx
	movabsq	$-6148914691236517206, %rax
	addq	%rdx, %rax
	addq	%rcx, %rax
	movq	%rax, 8(%rdi)
	xorq	%rsi, %rax
	movq	%rax, (%rdi)
	retq
.Lfunc_end24:
	.size	komihash_v4_rand_next, .Lfunc_end24-komihash_v4_rand_next
	.cfi_endproc

	.section	.text.komihash_v4_rand_fill,"ax",@progbits
	.globl	komihash_v4_rand_fill
	.p2align	6, 0x90
	.type	komihash_v4_rand_fill,@function
komihash_v4_rand_fill:
	.cfi_startproc
	endbr64
	pushq	%r15
	.cfi_def_cfa_offset 16
	pushq	%r14
	.cfi_def_cfa_offset 24
	pushq	%rbx
	.cfi_def_cfa_offset 32
	pushq	%rax
	.cfi_def_cfa_offset 40
	.cfi_offset %rbx, -32
	.cfi_offset %r14, -24
	.cfi_offset %r15, -16
	movq	%rdx, %r8
	movq	(%rdi), %rcx
	movq	8(%rdi), %rax
	movabsq	$-6148914691236517206, %r10
	cmpq	$8, %rdx
	jb	.LBB25_8
	movq	%r8, %rbx
	shrq	$3, %rbx
	movl	%ebx, %r11d
	andl	$3, %r11d
	leaq	-1(%rbx), %rdx
	cmpq	$3, %rdx
	jb	.LBB25_2
	xorl	%r14d, %r14d
	andq	$-4, %rbx
	.p2align	4, 0x90
.LBB25_4:
	movq	%rax, %rdx
	mulxq	%rcx, %rcx, %rdx
	addq	%r10, %rax
	addq	%rdx, %rax
	xorq	%rax, %rcx
	movq	%rcx, %rdx
	mulxq	%rax, %r9, %rdx
	addq	%r10, %rax
	addq	%rdx, %rax
	xorq	%rax, %r9
	movq	%r9, %rdx
	mulxq	%rax, %rdx, %r15
	movq	%rcx, (%rsi,%r14,8)
	addq	%r10, %rax
	addq	%r15, %rax
	xorq	%rax, %rdx
	mulxq	%rax, %rcx, %r15
	movq	%r9, 8(%rsi,%r14,8)
	movq	%rdx, 16(%rsi,%r14,8)
	addq	%r10, %rax
	addq	%r15, %rax
	xorq	%rax, %rcx
	movq	%rcx, 24(%rsi,%r14,8)
	addq	$4, %r14
	cmpq	%r14, %rbx
	jne	.LBB25_4
	jmp	.LBB25_5
.LBB25_2:
	xorl	%ebx, %ebx
.LBB25_5:
	testq	%r11, %r11
	je	.LBB25_8
	leaq	(%rsi,%rbx,8), %r9
	xorl	%ebx, %ebx
	.p2align	4, 0x90
.LBB25_7:
	movq	%rax, %rdx
	mulxq	%rcx, %rcx, %rdx
	addq	%r10, %rax
	addq	%rdx, %rax
	xorq	%rax, %rcx
	movq	%rcx, (%r9,%rbx,8)
	incq	%rbx
	cmpq	%rbx, %r11
	jne	.LBB25_7
.LBB25_8:
	movq	%r8, %r9
	andq	$7, %r9
	je	.LBB25_14
	movq	%rcx, %rdx
	mulxq	%rax, %rcx, %rdx
	addq	%r10, %rax
	addq	%rdx, %rax
	xorq	%rax, %rcx
	movq	%rcx, (%rsp)
	andq	$-8, %r8
	addq	%r8, %rsi
	cmpl	$4, %r9d
	jae	.LBB25_10
	cmpl	$1, %r9d
	je	.LBB25_12
	movw	%cx, (%rsi)
	movzwl	-2(%rsp,%r9), %edx
	movw	%dx, -2(%rsi,%r9)
	jmp	.LBB25_14
.LBB25_12:
	movb	%cl, (%rsi)
	jmp	.LBB25_14
.LBB25_10:
	movl	%ecx, (%rsi)
	movl	-4(%rsp,%r9), %edx
	movl	%edx, -4(%rsi,%r9)
.LBB25_14:
	movq	%rax, 8(%rdi)
	movq	%rcx, (%rdi)
	addq	$8, %rsp
	.cfi_def_cfa_offset 32
	popq	%rbx
	.cfi_def_cfa_offset 24
	popq	%r14
	.cfi_def_cfa_offset 16
	popq	%r15
	.cfi_def_cfa_offset 8
	retq
.Lfunc_end25:
	.size	komihash_v4_rand_fill, .Lfunc_end25-komihash_v4_rand_fill
	.cfi_endproc

	.section	.text.komihash_v4_pad,"ax",@progbits
	.globl	komihash_v4_pad
	.p2align	6, 0x90
	.type	komihash_v4_pad,@function
komihash_v4_pad:
	.cfi_startproc
	endbr64
	movq	%rsi, %rax
	shrq	$3, %rax
	cmpq	%rcx, %rax
	jb	.LBB26_1
	xorl	%eax, %eax
	retq
.LBB26_1:
	cmpq	$7, %rsi
	ja	.LBB26_6
	testq	%rsi, %rsi
	je	.LBB26_13
	movzbl	-1(%rdi,%rsi), %r8d
	movl	%r8d, %ecx
	shrb	$7, %cl
	movzbl	%cl, %ecx
	incq	%rcx
	cmpq	$4, %rsi
	jb	.LBB26_14
	movl	-4(%rdi,%rsi), %r8d
	shlq	$32, %rcx
	orq	%r8, %rcx
	shll	$3, %esi
	negb	%sil
	shrxq	%rsi, %rcx, %rcx
	shlq	$32, %rcx
	movl	(%rdi), %r8d
	orq	%rcx, %r8
	jmp	.LBB26_15
.LBB26_13:
	xorl	%r8d, %r8d
	jmp	.LBB26_15
.LBB26_6:
	movq	-8(%rdi,%rsi), %r9
	movzbl	-1(%rdi,%rsi), %ecx
	shrb	$7, %cl
	movzbl	%cl, %r8d
	incq	%r8
	shll	$3, %esi
	movl	%esi, %ecx
	shldq	%cl, %r9, %r8
	movl	%eax, %ecx
	andl	$7, %ecx
	leaq	-1(%rax), %rsi
	cmpq	$7, %rsi
	jb	.LBB26_7
	xorl	%r9d, %r9d
	movq	%rax, %rsi
	andq	$-8, %rsi
	.p2align	4, 0x90
.LBB26_9:
	movq	(%rdi,%r9,8), %r10
	movq	%r10, (%rdx,%r9,8)
	movq	8(%rdi,%r9,8), %r10
	movq	%r10, 8(%rdx,%r9,8)
	movq	16(%rdi,%r9,8), %r10
	movq	%r10, 16(%rdx,%r9,8)
	movq	24(%rdi,%r9,8), %r10
	movq	%r10, 24(%rdx,%r9,8)
	movq	32(%rdi,%r9,8), %r10
	movq	%r10, 32(%rdx,%r9,8)
	movq	40(%rdi,%r9,8), %r10
	movq	%r10, 40(%rdx,%r9,8)
	movq	48(%rdi,%r9,8), %r10
	movq	%r10, 48(%rdx,%r9,8)
	movq	56(%rdi,%r9,8), %r10
	movq	%r10, 56(%rdx,%r9,8)
	addq	$8, %r9
	cmpq	%r9, %rsi
	jne	.LBB26_9
	jmp	.LBB26_10
.LBB26_7:
	xorl	%esi, %esi
.LBB26_10:
	testq	%rcx, %rcx
	je	.LBB26_15
	leaq	(%rdi,%rsi,8), %rdi
	leaq	(%rdx,%rsi,8), %rsi
	xorl	%r9d, %r9d
	.p2align	4, 0x90
.LBB26_12:
	movq	(%rdi,%r9,8), %r10
	movq	%r10, (%rsi,%r9,8)
	incq	%r9
	cmpq	%r9, %rcx
	jne	.LBB26_12
.LBB26_15:
	movq	%r8, (%rdx,%rax,8)
	incq	%rax
	retq
.LBB26_14:
	xorl	%r9d, %r9d
	shll	$16, %r8d
	cmpq	$3, %rsi
	cmovneq	%r9, %r8
	movq	%rsi, %r10
	shrq	%r10
	movzbl	(%rdi,%r10), %r10d
	shll	$8, %r10d
	cmpq	$1, %rsi
	cmoveq	%r9, %r10
	orq	%r8, %r10
	shll	$3, %esi
	shlxq	%rsi, %rcx, %rcx
	movzbl	(%rdi), %r8d
	orq	%rcx, %r8
	orq	%r10, %r8
	jmp	.LBB26_15
.Lfunc_end26:
	.size	komihash_v4_pad, .Lfunc_end26-komihash_v4_pad
	.cfi_endproc

	.section	.text.komihash_v4_unpad,"ax",@progbits
	.globl	komihash_v4_unpad
	.p2align	6, 0x90
	.type	komihash_v4_unpad,@function
komihash_v4_unpad:
	.cfi_startproc
	endbr64
	leaq	-1(%rsi), %r8
	shrq	$3, %rcx
	movq	$-1, %rax
	cmpq	%rcx, %r8
	jae	.LBB27_5
	movq	-8(%rdi,%rsi,8), %rcx
	testq	%rcx, %rcx
	je	.LBB27_6
	xorl	%esi, %esi
	lzcntq	%rcx, %rsi
	shrl	$3, %esi
	xorq	$7, %rsi
	shlq	$3, %r8
	orq	%rsi, %r8
	je	.LBB27_5
	shll	$3, %esi
	shrxq	%rsi, %rcx, %rcx
	leaq	-1(%r8), %rsi
	leal	(,%rsi,8), %r9d
	andq	$-8, %rsi
	shrxq	%r9, (%rdi,%rsi), %rsi
	xorl	%r9d, %r9d
	testb	%sil, %sil
	sets	%r9b
	incq	%r9
	cmpq	%rcx, %r9
	je	.LBB27_4
.LBB27_5:
	retq
.LBB27_6:
	xorl	%r8d, %r8d
	cmpq	$1, %rsi
	setne	%r8b
	negq	%r8
	cmpq	$-1, %r8
	jne	.LBB27_7
	jmp	.LBB27_5
.LBB27_4:
	cmpq	$-1, %r8
	je	.LBB27_5
.LBB27_7:
	movq	%r8, %rax
	shrq	$3, %rax
	cmpq	$8, %r8
	jb	.LBB27_15
	movl	%eax, %ecx
	andl	$7, %ecx
	leaq	-1(%rax), %rsi
	cmpq	$7, %rsi
	jb	.LBB27_9
	xorl	%r9d, %r9d
	movq	%rax, %rsi
	andq	$-8, %rsi
	.p2align	4, 0x90
.LBB27_11:
	movq	(%rdi,%r9,8), %r10
	movq	%r10, (%rdx,%r9,8)
	movq	8(%rdi,%r9,8), %r10
	movq	%r10, 8(%rdx,%r9,8)
	movq	16(%rdi,%r9,8), %r10
	movq	%r10, 16(%rdx,%r9,8)
	movq	24(%rdi,%r9,8), %r10
	movq	%r10, 24(%rdx,%r9,8)
	movq	32(%rdi,%r9,8), %r10
	movq	%r10, 32(%rdx,%r9,8)
	movq	40(%rdi,%r9,8), %r10
	movq	%r10, 40(%rdx,%r9,8)
	movq	48(%rdi,%r9,8), %r10
	movq	%r10, 48(%rdx,%r9,8)
	movq	56(%rdi,%r9,8), %r10
	movq	%r10, 56(%rdx,%r9,8)
	addq	$8, %r9
	cmpq	%r9, %rsi
	jne	.LBB27_11
	jmp	.LBB27_12
.LBB27_9:
	xorl	%esi, %esi
.LBB27_12:
	testq	%rcx, %rcx
	je	.LBB27_15
	leaq	(%rdi,%rsi,8), %r9
	leaq	(%rdx,%rsi,8), %rsi
	xorl	%r10d, %r10d
	.p2align	4, 0x90
.LBB27_14:
	movq	(%r9,%r10,8), %r11
	movq	%r11, (%rsi,%r10,8)
	incq	%r10
	cmpq	%r10, %rcx
	jne	.LBB27_14
.LBB27_15:
	movq	%r8, %rcx
	andq	$7, %rcx
	je	.LBB27_18
	pushq	%rax
	.cfi_def_cfa_offset 16
	movq	(%rdi,%rax,8), %rax
	movq	%rax, (%rsp)
	movq	%r8, %rsi
	andq	$-8, %rsi
	addq	%rsi, %rdx
	cmpl	$4, %ecx
	jae	.LBB27_17
	cmpl	$1, %ecx
	jne	.LBB27_21
	movb	%al, (%rdx)
	jmp	.LBB27_22
.LBB27_18:
	.cfi_def_cfa_offset 8
	movq	%r8, %rax
	retq
.LBB27_21:
	.cfi_def_cfa_offset 16
	movw	%ax, (%rdx)
	movzwl	-2(%rsp,%rcx), %eax
	movw	%ax, -2(%rdx,%rcx)
	jmp	.LBB27_22
.LBB27_17:
	movl	%eax, (%rdx)
	movl	-4(%rsp,%rcx), %eax
	movl	%eax, -4(%rdx,%rcx)
.LBB27_22:
	movq	%r8, %rax
	addq	$8, %rsp
	.cfi_def_cfa_offset 8
	retq
.Lfunc_end27:
	.size	komihash_v4_unpad, .Lfunc_end27-komihash_v4_unpad
	.cfi_endproc

	.section	.text.komi_hash_of_blocks_v4,"ax",@progbits
	.p2align	6, 0x90
	.type	komi_hash_of_blocks_v4,@function
komi_hash_of_blocks_v4:
	.cfi_startproc
	pushq	%rbp
	.cfi_def_cfa_offset 16
	pushq	%r15
	.cfi_def_cfa_offset 24
	pushq	%r14
	.cfi_def_cfa_offset 32
	pushq	%r13
	.cfi_def_cfa_offset 40
	pushq	%r12
	.cfi_def_cfa_offset 48
	pushq	%rbx
	.cfi_def_cfa_offset 56
	pushq	%rax
	.cfi_def_cfa_offset 64
	.cfi_offset %rbx, -56
	.cfi_offset %r12, -48
	.cfi_offset %r13, -40
	.cfi_offset %r14, -32
	.cfi_offset %r15, -24
	.cfi_offset %rbp, -16
	movq	-8(%rdi,%rsi), %rax
	movzbl	-1(%rdi,%rsi), %ecx
	shrb	$7, %cl
	movzbl	%cl, %r8d
	incq	%r8
	leal	(,%rsi,8), %ecx
	shldq	%cl, %rax, %r8
	movq	%r8, (%rsp)
	movabsq	$6148914691236517205, %rcx
	andq	%rdx, %rcx
	movabsq	$2611923443488327891, %rax
	xorq	%rcx, %rax
	movabsq	$-6148914691236517206, %rcx
	andq	%rdx, %rcx
	movabsq	$4983270260364809079, %r8
	xorq	%rcx, %r8
	movq	%rax, %rdx
	mulxq	%r8, %r10, %r9
	movabsq	$1899778990314765756, %rcx
	xorq	%r10, %rcx
	movabsq	$1376283091369227076, %r15
	xorq	%r10, %r15
	movabsq	$-3998401319710606252, %r11
	xorq	%r10, %r11
	addq	%r8, %r9
	movabsq	$-4563226453097033507, %rax
	xorq	%r9, %rax
	movabsq	$-4732044268327596948, %r14
	xorq	%r9, %r14
	movabsq	$4577018097722394903, %rdx
	movq	%r9, %rbx
	xorq	%rdx, %rbx
	cmpq	$191, %rsi
	jbe	.LBB28_1
	testb	$64, %sil
	je	.LBB28_3
	movq	56(%rdi), %rdx
	xorq	%rbx, %rdx
	xorq	48(%rdi), %r11
	xorq	%rax, %r11
	mulxq	%r11, %r11, %rdx
	addq	%rdx, %rbx
	movq	40(%rdi), %rdx
	xorq	%rax, %rdx
	xorq	32(%rdi), %rcx
	xorq	%r14, %rcx
	mulxq	%rcx, %rcx, %rdx
	addq	%rdx, %rax
	movq	8(%rdi), %rdx
	xorq	%r9, %rdx
	xorq	(%rdi), %r10
	xorq	%r9, %r10
	mulxq	%r10, %r10, %r8
	xorq	16(%rdi), %r15
	movq	24(%rdi), %rdx
	xorq	%r14, %rdx
	xorq	%r9, %r15
	mulxq	%r15, %r15, %rdx
	addq	%r9, %r8
	addq	%rdx, %r14
	addq	$-64, %rsi
	addq	$64, %rdi
	movq	%r8, %r9
	jmp	.LBB28_5
.LBB28_3:
	xorq	%rdx, %r10
	.p2align	4, 0x90
.LBB28_5:
	movq	%rbx, %r13
	movq	40(%rdi), %rdx
	xorq	%rax, %rdx
	xorq	32(%rdi), %rcx
	xorq	%r14, %rcx
	mulxq	%rcx, %rcx, %r12
	movq	56(%rdi), %rdx
	xorq	%rbx, %rdx
	xorq	48(%rdi), %r11
	xorq	%rax, %r11
	mulxq	%r11, %r8, %rbp
	xorq	112(%rdi), %r8
	addq	%rax, %r12
	xorq	%r12, %r8
	addq	%rbx, %rbp
	movq	120(%rdi), %rdx
	xorq	%rbp, %rdx
	mulxq	%r8, %r11, %rbx
	xorq	16(%rdi), %r15
	xorq	%r9, %r15
	movq	24(%rdi), %rdx
	xorq	%r14, %rdx
	mulxq	%r15, %r15, %r8
	xorq	(%rdi), %r10
	xorq	%r13, %r10
	xorq	96(%rdi), %rcx
	addq	%r14, %r8
	xorq	%r8, %rcx
	movq	104(%rdi), %rdx
	xorq	%r12, %rdx
	mulxq	%rcx, %rcx, %rax
	movq	8(%rdi), %rdx
	xorq	%r9, %rdx
	mulxq	%r10, %rdx, %r14
	addq	%rbp, %rbx
	addq	%r12, %rax
	xorq	64(%rdi), %rdx
	xorq	%rbp, %rdx
	addq	%r9, %r14
	movq	72(%rdi), %r9
	xorq	%r14, %r9
	mulxq	%r9, %r10, %r9
	addq	%r14, %r9
	xorq	80(%rdi), %r15
	xorq	%r14, %r15
	movq	88(%rdi), %rdx
	xorq	%r8, %rdx
	mulxq	%r15, %r15, %r14
	addq	%r8, %r14
	subq	$-128, %rdi
	addq	$-128, %rsi
	cmpq	$127, %rsi
	ja	.LBB28_5
	jmp	.LBB28_6
.LBB28_1:
	movq	40(%rdi), %rdx
	xorq	%rax, %rdx
	xorq	32(%rdi), %rcx
	xorq	%r14, %rcx
	mulxq	%rcx, %rcx, %r12
	movq	56(%rdi), %rdx
	xorq	%rbx, %rdx
	xorq	48(%rdi), %r11
	xorq	%rax, %r11
	mulxq	%r11, %r11, %r8
	addq	%rax, %r12
	xorq	112(%rdi), %r11
	xorq	%r12, %r11
	addq	%rbx, %r8
	movq	120(%rdi), %rdx
	xorq	%r8, %rdx
	mulxq	%r11, %r11, %rbx
	movq	24(%rdi), %rdx
	xorq	%r14, %rdx
	xorq	16(%rdi), %r15
	xorq	%r9, %r15
	mulxq	%r15, %r15, %r13
	addq	%r14, %r13
	xorq	96(%rdi), %rcx
	xorq	%r13, %rcx
	movq	104(%rdi), %rdx
	xorq	%r12, %rdx
	mulxq	%rcx, %rcx, %rax
	xorq	(%rdi), %r10
	xorq	%r9, %r10
	movq	8(%rdi), %rdx
	xorq	%r9, %rdx
	mulxq	%r10, %rdx, %rbp
	addq	%r12, %rax
	xorq	64(%rdi), %rdx
	addq	%r8, %rbx
	xorq	%r8, %rdx
	addq	%r9, %rbp
	movq	72(%rdi), %r8
	xorq	%rbp, %r8
	mulxq	%r8, %r10, %r9
	xorq	80(%rdi), %r15
	xorq	%rbp, %r15
	movq	88(%rdi), %rdx
	xorq	%r13, %rdx
	mulxq	%r15, %r15, %r14
	addq	%rbp, %r9
	addq	%r13, %r14
	addq	$-128, %rsi
	subq	$-128, %rdi
.LBB28_6:
	xorq	%r11, %r10
	xorq	%r15, %rcx
	xorq	%r10, %rcx
	xorq	%rbx, %r9
	xorq	%r14, %rax
	xorq	%r9, %rax
	cmpq	$7, %rsi
	ja	.LBB28_8
	xorq	%rax, %rcx
	xorq	(%rsp), %rcx
	movq	%rcx, %r9
	movq	%rax, %rdi
	jmp	.LBB28_13
.LBB28_8:
	movq	%rsi, %rdx
	andq	$-8, %rdx
	movq	-8(%rdi,%rdx), %r9
	cmpq	$16, %rsi
	jb	.LBB28_12
	movq	8(%rdi), %r8
	xorq	%rax, %r8
	movq	(%rdi), %rdx
	xorq	%rax, %rdx
	xorq	%rcx, %rdx
	mulxq	%r8, %rcx, %rdx
	addq	%rdx, %rax
	cmpq	$32, %rsi
	jb	.LBB28_12
	movq	24(%rdi), %r8
	xorq	%rax, %r8
	xorq	16(%rdi), %rcx
	xorq	%rax, %rcx
	movq	%rcx, %rdx
	mulxq	%r8, %rcx, %rdx
	addq	%rdx, %rax
	cmpq	$48, %rsi
	jb	.LBB28_12
	movq	40(%rdi), %r8
	xorq	%rax, %r8
	xorq	32(%rdi), %rcx
	xorq	%rax, %rcx
	movq	%rcx, %rdx
	mulxq	%r8, %rcx, %rdx
	addq	%rdx, %rax
.LBB28_12:
	movq	%rax, %rdi
	testb	$8, %sil
	movq	(%rsp), %rax
	cmoveq	%rax, %r9
	xorq	%rcx, %r9
	xorq	%rdi, %r9
	shlq	$60, %rsi
	sarq	$63, %rsi
	andq	%rax, %rsi
	xorq	%rdi, %rsi
	movq	%rsi, %rax
.LBB28_13:
	movq	%rax, %rdx
	mulxq	%r9, %rdx, %rcx
	addq	%rdi, %rcx
	xorq	%rcx, %rdx
	mulxq	%rcx, %rdx, %rax
	addq	%rcx, %rax
	xorq	%rdx, %rax
	addq	$8, %rsp
	.cfi_def_cfa_offset 56
	popq	%rbx
	.cfi_def_cfa_offset 48
	popq	%r12
	.cfi_def_cfa_offset 40
	popq	%r13
	.cfi_def_cfa_offset 32
	popq	%r14
	.cfi_def_cfa_offset 24
	popq	%r15
	.cfi_def_cfa_offset 16
	popq	%rbp
	.cfi_def_cfa_offset 8
	retq
.Lfunc_end28:
	.size	komi_hash_of_blocks_v4, .Lfunc_end28-komi_hash_of_blocks_v4
	.cfi_endproc

	.section	.text.komi_hash_of_blocks_v5,"ax",@progbits
	.p2align	6, 0x90
	.type	komi_hash_of_blocks_v5,@function
komi_hash_of_blocks_v5:
	.cfi_startproc
	pushq	%rbp
	.cfi_def_cfa_offset 16
	pushq	%r15
	.cfi_def_cfa_offset 24
	pushq	%r14
	.cfi_def_cfa_offset 32
	pushq	%r13
	.cfi_def_cfa_offset 40
	pushq	%r12
	.cfi_def_cfa_offset 48
	pushq	%rbx
	.cfi_def_cfa_offset 56
	pushq	%rax
	.cfi_def_cfa_offset 64
	.cfi_offset %rbx, -56
	.cfi_offset %r12, -48
	.cfi_offset %r13, -40
	.cfi_offset %r14, -32
	.cfi_offset %r15, -24
	.cfi_offset %rbp, -16
	movabsq	$6148914691236517205, %rcx
	andq	%rdx, %rcx
	movabsq	$2611923443488327891, %rax
	xorq	%rcx, %rax
	movabsq	$-6148914691236517206, %rcx
	andq	%rdx, %rcx
	movabsq	$4983270260364809079, %r9
	xorq	%rcx, %r9
	movq	%rax, %rdx
	mulxq	%r9, %r11, %r10
	movabsq	$1899778990314765756, %r8
	xorq	%r11, %r8
	movabsq	$1376283091369227076, %r15
	xorq	%r11, %r15
	movabsq	$-3998401319710606252, %rbx
	xorq	%r11, %rbx
	addq	%r9, %r10
	movabsq	$-4563226453097033507, %rax
	xorq	%r10, %rax
	movabsq	$-4732044268327596948, %r14
	movq	-8(%rdi,%rsi), %rdx
	leal	(,%rsi,8), %ecx
	movl	$1, %r9d
	shldq	%cl, %rdx, %r9
	movq	%r9, (%rsp)
	xorq	%r10, %r14
	movabsq	$4577018097722394903, %rdx
	movq	%r10, %rcx
	xorq	%rdx, %rcx
	cmpq	$191, %rsi
	jbe	.LBB29_1
	testb	$64, %sil
	je	.LBB29_3
	movq	56(%rdi), %rdx
	xorq	%rcx, %rdx
	xorq	24(%rdi), %rbx
	xorq	%rax, %rbx
	mulxq	%rbx, %rbx, %rdx
	addq	%rdx, %rcx
	movq	48(%rdi), %rdx
	xorq	%rax, %rdx
	xorq	16(%rdi), %r8
	xorq	%r14, %r8
	mulxq	%r8, %r8, %rdx
	addq	%rdx, %rax
	movq	32(%rdi), %rdx
	xorq	%r10, %rdx
	xorq	(%rdi), %r11
	xorq	%r10, %r11
	mulxq	%r11, %r11, %r9
	xorq	8(%rdi), %r15
	movq	40(%rdi), %rdx
	xorq	%r14, %rdx
	xorq	%r10, %r15
	mulxq	%r15, %r15, %rdx
	addq	%r10, %r9
	addq	%rdx, %r14
	addq	$-64, %rsi
	addq	$64, %rdi
	movq	%r9, %r10
	jmp	.LBB29_5
.LBB29_3:
	xorq	%rdx, %r11
	.p2align	4, 0x90
.LBB29_5:
	movq	%rcx, %r13
	movq	48(%rdi), %rdx
	xorq	%rax, %rdx
	xorq	16(%rdi), %r8
	xorq	%r14, %r8
	mulxq	%r8, %r8, %r12
	movq	56(%rdi), %rdx
	xorq	%rcx, %rdx
	xorq	24(%rdi), %rbx
	xorq	%rax, %rbx
	mulxq	%rbx, %rcx, %rbp
	xorq	88(%rdi), %rcx
	addq	%rax, %r12
	xorq	%r12, %rcx
	addq	%r13, %rbp
	movq	120(%rdi), %rdx
	xorq	%rbp, %rdx
	mulxq	%rcx, %rbx, %rcx
	xorq	8(%rdi), %r15
	xorq	%r10, %r15
	movq	40(%rdi), %rdx
	xorq	%r14, %rdx
	mulxq	%r15, %r15, %r9
	xorq	(%rdi), %r11
	xorq	%r13, %r11
	xorq	80(%rdi), %r8
	addq	%r14, %r9
	xorq	%r9, %r8
	movq	112(%rdi), %rdx
	xorq	%r12, %rdx
	mulxq	%r8, %r8, %rax
	movq	32(%rdi), %rdx
	xorq	%r10, %rdx
	mulxq	%r11, %rdx, %r14
	addq	%rbp, %rcx
	addq	%r12, %rax
	xorq	64(%rdi), %rdx
	xorq	%rbp, %rdx
	addq	%r10, %r14
	movq	96(%rdi), %r10
	xorq	%r14, %r10
	mulxq	%r10, %r11, %r10
	addq	%r14, %r10
	xorq	72(%rdi), %r15
	xorq	%r14, %r15
	movq	104(%rdi), %rdx
	xorq	%r9, %rdx
	mulxq	%r15, %r15, %r14
	addq	%r9, %r14
	subq	$-128, %rdi
	addq	$-128, %rsi
	cmpq	$127, %rsi
	ja	.LBB29_5
	jmp	.LBB29_6
.LBB29_1:
	movq	48(%rdi), %rdx
	xorq	%rax, %rdx
	xorq	16(%rdi), %r8
	xorq	%r14, %r8
	mulxq	%r8, %r8, %r12
	movq	56(%rdi), %rdx
	xorq	%rcx, %rdx
	xorq	24(%rdi), %rbx
	xorq	%rax, %rbx
	mulxq	%rbx, %rbx, %r9
	addq	%rax, %r12
	xorq	88(%rdi), %rbx
	xorq	%r12, %rbx
	addq	%rcx, %r9
	movq	120(%rdi), %rdx
	xorq	%r9, %rdx
	mulxq	%rbx, %rbx, %rcx
	movq	40(%rdi), %rdx
	xorq	%r14, %rdx
	xorq	8(%rdi), %r15
	xorq	%r10, %r15
	mulxq	%r15, %r15, %r13
	addq	%r14, %r13
	xorq	80(%rdi), %r8
	xorq	%r13, %r8
	movq	112(%rdi), %rdx
	xorq	%r12, %rdx
	mulxq	%r8, %r8, %rax
	xorq	(%rdi), %r11
	xorq	%r10, %r11
	movq	32(%rdi), %rdx
	xorq	%r10, %rdx
	mulxq	%r11, %rdx, %rbp
	addq	%r12, %rax
	xorq	64(%rdi), %rdx
	addq	%r9, %rcx
	xorq	%r9, %rdx
	addq	%r10, %rbp
	movq	96(%rdi), %r9
	xorq	%rbp, %r9
	mulxq	%r9, %r11, %r10
	xorq	72(%rdi), %r15
	xorq	%rbp, %r15
	movq	104(%rdi), %rdx
	xorq	%r13, %rdx
	mulxq	%r15, %r15, %r14
	addq	%rbp, %r10
	addq	%r13, %r14
	addq	$-128, %rsi
	subq	$-128, %rdi
.LBB29_6:
	xorq	%rbx, %r11
	xorq	%r15, %r8
	xorq	%r11, %r8
	xorq	%rcx, %r10
	xorq	%r14, %rax
	xorq	%r10, %rax
	cmpq	$7, %rsi
	ja	.LBB29_8
	xorq	%rax, %r8
	xorq	(%rsp), %r8
	movq	%r8, %rcx
	movq	%rax, %rdi
	jmp	.LBB29_13
.LBB29_8:
	movq	%rsi, %rcx
	andq	$-8, %rcx
	movq	-8(%rdi,%rcx), %rcx
	cmpq	$16, %rsi
	jb	.LBB29_12
	movq	8(%rdi), %r9
	xorq	%rax, %r9
	movq	(%rdi), %rdx
	xorq	%rax, %rdx
	xorq	%r8, %rdx
	mulxq	%r9, %r8, %rdx
	addq	%rdx, %rax
	cmpq	$32, %rsi
	jb	.LBB29_12
	movq	24(%rdi), %r9
	xorq	%rax, %r9
	xorq	16(%rdi), %r8
	xorq	%rax, %r8
	movq	%r8, %rdx
	mulxq	%r9, %r8, %rdx
	addq	%rdx, %rax
	cmpq	$48, %rsi
	jb	.LBB29_12
	movq	40(%rdi), %r9
	xorq	%rax, %r9
	xorq	32(%rdi), %r8
	xorq	%rax, %r8
	movq	%r8, %rdx
	mulxq	%r9, %r8, %rdx
	addq	%rdx, %rax
.LBB29_12:
	movq	%rax, %rdi
	testb	$8, %sil
	movq	(%rsp), %rax
	cmoveq	%rax, %rcx
	xorq	%r8, %rcx
	xorq	%rdi, %rcx
	shlq	$60, %rsi
	sarq	$63, %rsi
	andq	%rax, %rsi
	xorq	%rdi, %rsi
	movq	%rsi, %rax
.LBB29_13:
	movq	%rax, %rdx
	mulxq	%rcx, %rdx, %rcx
	addq	%rdi, %rcx
	xorq	%rcx, %rdx
	mulxq	%rcx, %rdx, %rax
	addq	%rcx, %rax
	xorq	%rdx, %rax
	addq	$8, %rsp
	.cfi_def_cfa_offset 56
	popq	%rbx
	.cfi_def_cfa_offset 48
	popq	%r12
	.cfi_def_cfa_offset 40
	popq	%r13
	.cfi_def_cfa_offset 32
	popq	%r14
	.cfi_def_cfa_offset 24
	popq	%r15
	.cfi_def_cfa_offset 16
	popq	%rbp
	.cfi_def_cfa_offset 8
	retq
.Lfunc_end29:
	.size	komi_hash_of_blocks_v5, .Lfunc_end29-komi_hash_of_blocks_v5
	.cfi_endproc

	.section	.text.komi_hash_of_one_block_v4,"ax",@progbits
	.p2align	6, 0x90
	.type	komi_hash_of_one_block_v4,@function
komi_hash_of_one_block_v4:
	.cfi_startproc
	pushq	%r15
	.cfi_def_cfa_offset 16
	pushq	%r14
	.cfi_def_cfa_offset 24
	pushq	%r13
	.cfi_def_cfa_offset 32
	pushq	%r12
	.cfi_def_cfa_offset 40
	pushq	%rbx
	.cfi_def_cfa_offset 48
	.cfi_offset %rbx, -48
	.cfi_offset %r12, -40
	.cfi_offset %r13, -32
	.cfi_offset %r14, -24
	.cfi_offset %r15, -16
	movabsq	$6148914691236517205, %rcx
	andq	%rdx, %rcx
	movabsq	$2611923443488327891, %rax
	xorq	%rcx, %rax
	movabsq	$-6148914691236517206, %rcx
	andq	%rdx, %rcx
	movabsq	$4983270260364809079, %r8
	xorq	%rcx, %r8
	movq	%rax, %rdx
	mulxq	%r8, %rax, %rcx
	addq	%r8, %rcx
	movq	(%rdi), %r8
	xorq	%rax, %r8
	xorq	%rcx, %r8
	movq	8(%rdi), %rdx
	xorq	%rcx, %rdx
	mulxq	%r8, %r10, %r8
	movq	16(%rdi), %r9
	xorq	%rax, %r9
	movabsq	$1376283091369227076, %rdx
	xorq	%rcx, %rdx
	xorq	%r9, %rdx
	movabsq	$-4732044268327596948, %r11
	xorq	%rcx, %r11
	movq	24(%rdi), %r9
	xorq	%r11, %r9
	mulxq	%r9, %rbx, %r9
	movq	32(%rdi), %r14
	xorq	%rax, %r14
	xorq	%r11, %r14
	movabsq	$1899778990314765756, %rdx
	xorq	%r14, %rdx
	movabsq	$-4563226453097033507, %r14
	xorq	%rcx, %r14
	movq	40(%rdi), %r15
	xorq	%r14, %r15
	mulxq	%r15, %r12, %r15
	xorq	48(%rdi), %rax
	xorq	%r14, %rax
	movabsq	$-3998401319710606252, %rdx
	xorq	%rax, %rdx
	movabsq	$4577018097722394903, %r13
	xorq	%rcx, %r13
	movq	56(%rdi), %rax
	xorq	%r13, %rax
	mulxq	%rax, %rdx, %rax
	xorq	%r10, %rbx
	xorq	%r12, %rdx
	xorq	%rbx, %rdx
	addq	%rcx, %r8
	addq	%r11, %r9
	xorq	%r8, %r9
	addq	%r14, %r15
	addq	%r13, %rax
	xorq	%r15, %rax
	xorq	%r9, %rax
	movzbl	-1(%rdi,%rsi), %ecx
	shrb	$7, %cl
	movzbl	%cl, %r8d
	incq	%r8
	movq	%rsi, %r9
	addq	$-64, %r9
	je	.LBB30_6
	movq	-8(%rdi,%rsi), %r10
	leal	(,%rsi,8), %ecx
	shldq	%cl, %r10, %r8
	movq	%rsi, %rcx
	andq	$-8, %rcx
	movq	-8(%rdi,%rcx), %rcx
	cmpq	$16, %r9
	jb	.LBB30_5
	movq	72(%rdi), %r10
	xorq	%rax, %r10
	xorq	64(%rdi), %rdx
	xorq	%rax, %rdx
	mulxq	%r10, %rdx, %r10
	addq	%r10, %rax
	cmpq	$32, %r9
	jb	.LBB30_5
	movq	88(%rdi), %r10
	xorq	%rax, %r10
	xorq	80(%rdi), %rdx
	xorq	%rax, %rdx
	mulxq	%r10, %rdx, %r10
	addq	%r10, %rax
	cmpq	$48, %r9
	jb	.LBB30_5
	movq	104(%rdi), %r9
	xorq	%rax, %r9
	xorq	96(%rdi), %rdx
	xorq	%rax, %rdx
	mulxq	%r9, %rdx, %rdi
	addq	%rdi, %rax
.LBB30_5:
	movq	%rax, %rdi
	testb	$8, %sil
	cmoveq	%r8, %rcx
	xorq	%rdx, %rcx
	xorq	%rax, %rcx
	shlq	$60, %rsi
	sarq	$63, %rsi
	andq	%r8, %rsi
	xorq	%rax, %rsi
	movq	%rsi, %rax
.LBB30_7:
	movq	%rax, %rdx
	mulxq	%rcx, %rdx, %rcx
	addq	%rdi, %rcx
	xorq	%rcx, %rdx
	mulxq	%rcx, %rdx, %rax
	addq	%rcx, %rax
	xorq	%rdx, %rax
	popq	%rbx
	.cfi_def_cfa_offset 40
	popq	%r12
	.cfi_def_cfa_offset 32
	popq	%r13
	.cfi_def_cfa_offset 24
	popq	%r14
	.cfi_def_cfa_offset 16
	popq	%r15
	.cfi_def_cfa_offset 8
	retq
.LBB30_6:
	.cfi_def_cfa_offset 48
	xorq	%rax, %rdx
	xorq	%r8, %rdx
	movq	%rdx, %rcx
	movq	%rax, %rdi
	jmp	.LBB30_7
.Lfunc_end30:
	.size	komi_hash_of_one_block_v4, .Lfunc_end30-komi_hash_of_one_block_v4
	.cfi_endproc

	.section	.text.komi_hash_of_one_block_v5,"ax",@progbits
	.p2align	6, 0x90
	.type	komi_hash_of_one_block_v5,@function
komi_hash_of_one_block_v5:
	.cfi_startproc
	pushq	%rbp
	.cfi_def_cfa_offset 16
	pushq	%r15
	.cfi_def_cfa_offset 24
	pushq	%r14
	.cfi_def_cfa_offset 32
	pushq	%r13
	.cfi_def_cfa_offset 40
	pushq	%r12
	.cfi_def_cfa_offset 48
	pushq	%rbx
	.cfi_def_cfa_offset 56
	.cfi_offset %rbx, -56
	.cfi_offset %r12, -48
	.cfi_offset %r13, -40
	.cfi_offset %r14, -32
	.cfi_offset %r15, -24
	.cfi_offset %rbp, -16
	movabsq	$6148914691236517205, %rcx
	andq	%rdx, %rcx
	movabsq	$2611923443488327891, %rax
	xorq	%rcx, %rax
	movabsq	$-6148914691236517206, %rcx
	andq	%rdx, %rcx
	movabsq	$4983270260364809079, %r8
	xorq	%rcx, %r8
	movq	%rax, %rdx
	mulxq	%r8, %rax, %rcx
	addq	%r8, %rcx
	movq	(%rdi), %r8
	xorq	%rax, %r8
	xorq	%rcx, %r8
	movq	32(%rdi), %rdx
	xorq	%rcx, %rdx
	mulxq	%r8, %r10, %r8
	movq	8(%rdi), %rdx
	xorq	%rax, %rdx
	movabsq	$1376283091369227076, %r9
	xorq	%rcx, %r9
	xorq	%rdx, %r9
	movabsq	$-4732044268327596948, %r11
	xorq	%rcx, %r11
	movq	40(%rdi), %rdx
	xorq	%r11, %rdx
	mulxq	%r9, %rbx, %r9
	movq	16(%rdi), %rdx
	xorq	%rax, %rdx
	xorq	%r11, %rdx
	movabsq	$1899778990314765756, %r15
	xorq	%rdx, %r15
	movabsq	$-4563226453097033507, %r14
	xorq	%rcx, %r14
	movq	48(%rdi), %rdx
	xorq	%r14, %rdx
	mulxq	%r15, %r12, %r15
	xorq	24(%rdi), %rax
	xorq	%r14, %rax
	movabsq	$-3998401319710606252, %r13
	xorq	%rax, %r13
	movabsq	$4577018097722394903, %rbp
	xorq	%rcx, %rbp
	movq	56(%rdi), %rdx
	xorq	%rbp, %rdx
	mulxq	%r13, %rdx, %rax
	xorq	%r10, %rbx
	xorq	%r12, %rdx
	xorq	%rbx, %rdx
	addq	%rcx, %r8
	addq	%r11, %r9
	xorq	%r8, %r9
	addq	%r14, %r15
	addq	%rbp, %rax
	xorq	%r15, %rax
	xorq	%r9, %rax
	movq	%rsi, %r9
	addq	$-64, %r9
	je	.LBB31_6
	movq	-8(%rdi,%rsi), %r10
	leal	(,%rsi,8), %ecx
	movl	$1, %r8d
	shldq	%cl, %r10, %r8
	movq	%rsi, %rcx
	andq	$-8, %rcx
	movq	-8(%rdi,%rcx), %rcx
	cmpq	$16, %r9
	jb	.LBB31_5
	movq	72(%rdi), %r10
	xorq	%rax, %r10
	xorq	64(%rdi), %rdx
	xorq	%rax, %rdx
	mulxq	%r10, %rdx, %r10
	addq	%r10, %rax
	cmpq	$32, %r9
	jb	.LBB31_5
	movq	88(%rdi), %r10
	xorq	%rax, %r10
	xorq	80(%rdi), %rdx
	xorq	%rax, %rdx
	mulxq	%r10, %rdx, %r10
	addq	%r10, %rax
	cmpq	$48, %r9
	jb	.LBB31_5
	movq	104(%rdi), %r9
	xorq	%rax, %r9
	xorq	96(%rdi), %rdx
	xorq	%rax, %rdx
	mulxq	%r9, %rdx, %rdi
	addq	%rdi, %rax
.LBB31_5:
	movq	%rax, %rdi
	testb	$8, %sil
	cmoveq	%r8, %rcx
	xorq	%rdx, %rcx
	xorq	%rax, %rcx
	shlq	$60, %rsi
	sarq	$63, %rsi
	andq	%r8, %rsi
	xorq	%rax, %rsi
	movq	%rsi, %rax
.LBB31_7:
	movq	%rax, %rdx
	mulxq	%rcx, %rdx, %rcx
	addq	%rdi, %rcx
	xorq	%rcx, %rdx
	mulxq	%rcx, %rdx, %rax
	addq	%rcx, %rax
	xorq	%rdx, %rax
	popq	%rbx
	.cfi_def_cfa_offset 48
	popq	%r12
	.cfi_def_cfa_offset 40
	popq	%r13
	.cfi_def_cfa_offset 32
	popq	%r14
	.cfi_def_cfa_offset 24
	popq	%r15
	.cfi_def_cfa_offset 16
	popq	%rbp
	.cfi_def_cfa_offset 8
	retq
.LBB31_6:
	.cfi_def_cfa_offset 56
	xorq	%rax, %rdx
	xorq	$1, %rdx
	movq	%rdx, %rcx
	movq	%rax, %rdi
	jmp	.LBB31_7
.Lfunc_end31:
	.size	komi_hash_of_one_block_v5, .Lfunc_end31-komi_hash_of_one_block_v5
	.cfi_endproc

	.section	.text.komi_hash_of_one_word_v4,"ax",@progbits
	.p2align	6, 0x90
	.type	komi_hash_of_one_word_v4,@function
komi_hash_of_one_word_v4:
	.cfi_startproc
	movabsq	$6148914691236517205, %rcx
	andq	%rdx, %rcx
	movabsq	$2611923443488327891, %rax
	xorq	%rcx, %rax
	movabsq	$-6148914691236517206, %rcx
	andq	%rdx, %rcx
	movabsq	$4983270260364809079, %r8
	xorq	%rcx, %r8
	movq	%rax, %rdx
	mulxq	%r8, %r9, %rax
	addq	%r8, %rax
	movq	-8(%rdi,%rsi), %r8
	movzbl	-1(%rdi,%rsi), %ecx
	shrb	$7, %cl
	movzbl	%cl, %edx
	incq	%rdx
	leal	(,%rsi,8), %ecx
	shldq	%cl, %r8, %rdx
	xorq	(%rdi), %r9
	xorq	%rax, %r9
	xorq	%rax, %rdx
	mulxq	%r9, %rdx, %rcx
	addq	%rax, %rcx
	xorq	%rcx, %rdx
	mulxq	%rcx, %rdx, %rax
	addq	%rcx, %rax
	xorq	%rdx, %rax
	retq
.Lfunc_end32:
	.size	komi_hash_of_one_word_v4, .Lfunc_end32-komi_hash_of_one_word_v4
	.cfi_endproc

	.section	.text.komi_hash_of_one_word_v5,"ax",@progbits
	.p2align	6, 0x90
	.type	komi_hash_of_one_word_v5,@function
komi_hash_of_one_word_v5:
	.cfi_startproc
	movabsq	$6148914691236517205, %rcx
	andq	%rdx, %rcx
	movabsq	$2611923443488327891, %rax
	xorq	%rcx, %rax
	movabsq	$-6148914691236517206, %rcx
	andq	%rdx, %rcx
	movabsq	$4983270260364809079, %r8
	xorq	%rcx, %r8
	movq	%rax, %rdx
	mulxq	%r8, %r9, %rax
	addq	%r8, %rax
	movq	-8(%rdi,%rsi), %r8
	leal	(,%rsi,8), %ecx
	movl	$1, %edx
	shldq	%cl, %r8, %rdx
	xorq	(%rdi), %r9
	xorq	%rax, %r9
	xorq	%rax, %rdx
	mulxq	%r9, %rdx, %rcx
	addq	%rax, %rcx
	xorq	%rcx, %rdx
	mulxq	%rcx, %rdx, %rax
	addq	%rcx, %rax
	xorq	%rdx, %rax
	retq
.Lfunc_end33:
	.size	komi_hash_of_one_word_v5, .Lfunc_end33-komi_hash_of_one_word_v5
	.cfi_endproc

	.section	.text.komi_hash_of_words_v4,"ax",@progbits
	.p2align	6, 0x90
	.type	komi_hash_of_words_v4,@function
komi_hash_of_words_v4:
	.cfi_startproc
	movabsq	$6148914691236517205, %rcx
	andq	%rdx, %rcx
	movabsq	$2611923443488327891, %rax
	xorq	%rcx, %rax
	movabsq	$-6148914691236517206, %rcx
	andq	%rdx, %rcx
	movabsq	$4983270260364809079, %r8
	xorq	%rcx, %r8
	movq	%rax, %rdx
	mulxq	%r8, %rdx, %rax
	addq	%r8, %rax
	xorq	(%rdi), %rdx
	xorq	%rax, %rdx
	movq	8(%rdi), %rcx
	xorq	%rax, %rcx
	mulxq	%rcx, %rdx, %r8
	addq	%rax, %r8
	movq	-8(%rdi,%rsi), %r9
	movzbl	-1(%rdi,%rsi), %r10d
	movq	%rsi, %rax
	andq	$-8, %rax
	movq	-8(%rdi,%rax), %rax
	cmpq	$32, %rsi
	jb	.LBB34_3
	movq	24(%rdi), %rcx
	xorq	%r8, %rcx
	xorq	16(%rdi), %rdx
	xorq	%r8, %rdx
	mulxq	%rcx, %rdx, %rcx
	addq	%rcx, %r8
	cmpq	$48, %rsi
	jb	.LBB34_3
	movq	40(%rdi), %rcx
	xorq	%r8, %rcx
	xorq	32(%rdi), %rdx
	xorq	%r8, %rdx
	mulxq	%rcx, %rdx, %rcx
	addq	%rcx, %r8
.LBB34_3:
	leal	(,%rsi,8), %ecx
	shrb	$7, %r10b
	movzbl	%r10b, %edi
	incq	%rdi
	shldq	%cl, %r9, %rdi
	movq	%rsi, %rcx
	shlq	$60, %rcx
	sarq	$63, %rcx
	andq	%rdi, %rcx
	xorq	%r8, %rcx
	testb	$8, %sil
	cmoveq	%rdi, %rax
	xorq	%rdx, %rax
	xorq	%r8, %rax
	movq	%rax, %rdx
	mulxq	%rcx, %rdx, %rcx
	addq	%r8, %rcx
	xorq	%rcx, %rdx
	mulxq	%rcx, %rdx, %rax
	addq	%rcx, %rax
	xorq	%rdx, %rax
	retq
.Lfunc_end34:
	.size	komi_hash_of_words_v4, .Lfunc_end34-komi_hash_of_words_v4
	.cfi_endproc

	.section	.text.komi_hash_of_words_v5,"ax",@progbits
	.p2align	6, 0x90
	.type	komi_hash_of_words_v5,@function
komi_hash_of_words_v5:
	.cfi_startproc
	movabsq	$6148914691236517205, %rcx
	andq	%rdx, %rcx
	movabsq	$2611923443488327891, %rax
	xorq	%rcx, %rax
	movabsq	$-6148914691236517206, %rcx
	andq	%rdx, %rcx
	movabsq	$4983270260364809079, %r8
	xorq	%rcx, %r8
	movq	%rax, %rdx
	mulxq	%r8, %rdx, %rax
	xorq	(%rdi), %rdx
	addq	%r8, %rax
	xorq	%rax, %rdx
	movq	8(%rdi), %rcx
	xorq	%rax, %rcx
	mulxq	%rcx, %rdx, %r8
	addq	%rax, %r8
	movq	-8(%rdi,%rsi), %r9
	movq	%rsi, %rax
	andq	$-8, %rax
	movq	-8(%rdi,%rax), %rax
	cmpq	$32, %rsi
	jb	.LBB35_3
	movq	24(%rdi), %rcx
	xorq	%r8, %rcx
	xorq	16(%rdi), %rdx
	xorq	%r8, %rdx
	mulxq	%rcx, %rdx, %rcx
	addq	%rcx, %r8
	cmpq	$48, %rsi
	jb	.LBB35_3
	movq	40(%rdi), %rcx
	xorq	%r8, %rcx
	xorq	32(%rdi), %rdx
	xorq	%r8, %rdx
	mulxq	%rcx, %rdx, %rcx
	addq	%rcx, %r8
.LBB35_3:
	leal	(,%rsi,8), %ecx
	movl	$1, %edi
	shldq	%cl, %r9, %rdi
	movq	%rsi, %rcx
	shlq	$60, %rcx
	sarq	$63, %rcx
	andq	%rdi, %rcx
	xorq	%r8, %rcx
	testb	$8, %sil
	cmoveq	%rdi, %rax
	xorq	%rdx, %rax
	xorq	%r8, %rax
	movq	%rax, %rdx
	mulxq	%rcx, %rdx, %rcx
	addq	%r8, %rcx
	xorq	%rcx, %rdx
	mulxq	%rcx, %rdx, %rax
	addq	%rcx, %rax
	xorq	%rdx, %rax
	retq
.Lfunc_end35:
	.size	komi_hash_of_words_v5, .Lfunc_end35-komi_hash_of_words_v5
	.cfi_endproc

	.section	.text.komi_hash_of_16_bytes_v4,"ax",@progbits
	.p2align	6, 0x90
	.type	komi_hash_of_16_bytes_v4,@function
komi_hash_of_16_bytes_v4:
	.cfi_startproc
	movabsq	$6148914691236517205, %rax
	andq	%rsi, %rax
	movabsq	$2611923443488327891, %rdx
	xorq	%rax, %rdx
	movabsq	$-6148914691236517206, %rax
	andq	%rsi, %rax
	movabsq	$4983270260364809079, %rcx
	xorq	%rax, %rcx
	mulxq	%rcx, %rdx, %rsi
	xorq	(%rdi), %rdx
	addq	%rcx, %rsi
	xorq	%rsi, %rdx
	movq	8(%rdi), %rax
	movq	%rax, %rcx
	xorq	%rsi, %rcx
	mulxq	%rcx, %rcx, %rdi
	addq	%rsi, %rdi
	shrq	$63, %rax
	incq	%rax
	xorq	%rcx, %rax
	xorq	%rdi, %rax
	movq	%rax, %rdx
	mulxq	%rdi, %rdx, %rcx
	addq	%rdi, %rcx
	xorq	%rcx, %rdx
	mulxq	%rcx, %rdx, %rax
	addq	%rcx, %rax
	xorq	%rdx, %rax
	retq
.Lfunc_end36:
	.size	komi_hash_of_16_bytes_v4, .Lfunc_end36-komi_hash_of_16_bytes_v4
	.cfi_endproc

	.section	.text.komi_hash_of_16_bytes_v5,"ax",@progbits
	.p2align	6, 0x90
	.type	komi_hash_of_16_bytes_v5,@function
komi_hash_of_16_bytes_v5:
	.cfi_startproc
	movabsq	$6148914691236517205, %rax
	andq	%rsi, %rax
	movabsq	$2611923443488327891, %rdx
	xorq	%rax, %rdx
	movabsq	$-6148914691236517206, %rax
	andq	%rsi, %rax
	movabsq	$4983270260364809079, %rcx
	xorq	%rax, %rcx
	mulxq	%rcx, %rdx, %rax
	addq	%rcx, %rax
	xorq	(%rdi), %rdx
	xorq	%rax, %rdx
	movq	8(%rdi), %rcx
	xorq	%rax, %rcx
	mulxq	%rcx, %rdx, %rcx
	addq	%rax, %rcx
	xorq	%rcx, %rdx
	xorq	$1, %rdx
	mulxq	%rcx, %rdx, %rsi
	addq	%rcx, %rsi
	xorq	%rsi, %rdx
	mulxq	%rsi, %rcx, %rax
	addq	%rsi, %rax
	xorq	%rcx, %rax
	retq
.Lfunc_end37:
	.size	komi_hash_of_16_bytes_v5, .Lfunc_end37-komi_hash_of_16_bytes_v5
	.cfi_endproc

	.section	.text.komi_hash_of_partial_word_v4,"ax",@progbits
	.p2align	6, 0x90
	.type	komi_hash_of_partial_word_v4,@function
komi_hash_of_partial_word_v4:
	.cfi_startproc
	movzbl	-1(%rdi,%rsi), %ecx
	movl	%ecx, %eax
	shrb	$7, %al
	movzbl	%al, %eax
	incq	%rax
	cmpq	$4, %rsi
	jae	.LBB38_1
	xorl	%r8d, %r8d
	shll	$16, %ecx
	cmpq	$3, %rsi
	cmovneq	%r8, %rcx
	leal	(,%rsi,8), %r9d
	shlxq	%r9, %rax, %rax
	movzbl	(%rdi), %r9d
	orq	%rcx, %r9
	orq	%rax, %r9
	movq	%rsi, %rax
	shrq	%rax
	movzbl	(%rdi,%rax), %ecx
	shll	$8, %ecx
	cmpq	$1, %rsi
	cmoveq	%r8, %rcx
	orq	%r9, %rcx
	jmp	.LBB38_3
.LBB38_1:
	movl	-4(%rdi,%rsi), %ecx
	shlq	$32, %rax
	orq	%rcx, %rax
	shll	$3, %esi
	negb	%sil
	shrxq	%rsi, %rax, %rax
	shlq	$32, %rax
	movl	(%rdi), %ecx
	orq	%rax, %rcx
.LBB38_3:
	movabsq	$6148914691236517205, %rsi
	andq	%rdx, %rsi
	movabsq	$2611923443488327891, %rax
	xorq	%rsi, %rax
	movabsq	$-6148914691236517206, %rsi
	andq	%rdx, %rsi
	movabsq	$4983270260364809079, %rdi
	xorq	%rsi, %rdi
	movq	%rax, %rdx
	mulxq	%rdi, %rdx, %rax
	addq	%rdi, %rax
	xorq	%rax, %rdx
	xorq	%rcx, %rdx
	mulxq	%rax, %rdx, %rcx
	addq	%rax, %rcx
	xorq	%rcx, %rdx
	mulxq	%rcx, %rdx, %rax
	addq	%rcx, %rax
	xorq	%rdx, %rax
	retq
.Lfunc_end38:
	.size	komi_hash_of_partial_word_v4, .Lfunc_end38-komi_hash_of_partial_word_v4
	.cfi_endproc

	.section	.text.komi_hash_of_partial_word_v5,"ax",@progbits
	.p2align	6, 0x90
	.type	komi_hash_of_partial_word_v5,@function
komi_hash_of_partial_word_v5:
	.cfi_startproc
	cmpq	$4, %rsi
	jae	.LBB39_1
	movq	%rsi, %rax
	shrq	%rax
	movzbl	(%rdi,%rax), %eax
	shll	$8, %eax
	xorl	%r8d, %r8d
	cmpq	$1, %rsi
	cmoveq	%r8, %rax
	leal	(,%rsi,8), %ecx
	movl	$1, %r9d
	shlxq	%rcx, %r9, %rcx
	movzbl	(%rdi), %r9d
	addq	%rcx, %r9
	movzbl	-1(%rdi,%rsi), %ecx
	shll	$16, %ecx
	cmpq	$3, %rsi
	cmovneq	%r8, %rcx
	orq	%r9, %rcx
	jmp	.LBB39_3
.LBB39_1:
	movl	-4(%rdi,%rsi), %eax
	movabsq	$4294967296, %rcx
	orq	%rax, %rcx
	shll	$3, %esi
	negb	%sil
	shrxq	%rsi, %rcx, %rax
	shlq	$32, %rax
	movl	(%rdi), %ecx
.LBB39_3:
	orq	%rax, %rcx
	movabsq	$6148914691236517205, %rsi
	andq	%rdx, %rsi
	movabsq	$2611923443488327891, %rax
	xorq	%rsi, %rax
	movabsq	$-6148914691236517206, %rsi
	andq	%rdx, %rsi
	movabsq	$4983270260364809079, %rdi
	xorq	%rsi, %rdi
	movq	%rax, %rdx
	mulxq	%rdi, %rdx, %rax
	addq	%rdi, %rax
	xorq	%rax, %rdx
	xorq	%rcx, %rdx
	mulxq	%rax, %rdx, %rcx
	addq	%rax, %rcx
	xorq	%rcx, %rdx
	mulxq	%rcx, %rdx, %rax
	addq	%rcx, %rax
	xorq	%rdx, %rax
	retq
.Lfunc_end39:
	.size	komi_hash_of_partial_word_v5, .Lfunc_end39-komi_hash_of_partial_word_v5
	.cfi_endproc

	.section	.text.komi_stream_complete_blocks_v4,"ax",@progbits
	.p2align	6, 0x90
	.type	komi_stream_complete_blocks_v4,@function
komi_stream_complete_blocks_v4:
	.cfi_startproc
	pushq	%rbp
	.cfi_def_cfa_offset 16
	pushq	%r15
	.cfi_def_cfa_offset 24
	pushq	%r14
	.cfi_def_cfa_offset 32
	pushq	%r13
	.cfi_def_cfa_offset 40
	pushq	%r12
	.cfi_def_cfa_offset 48
	pushq	%rbx
	.cfi_def_cfa_offset 56
	subq	$16, %rsp
	.cfi_def_cfa_offset 72
	.cfi_offset %rbx, -56
	.cfi_offset %r12, -48
	.cfi_offset %r13, -40
	.cfi_offset %r14, -32
	.cfi_offset %r15, -24
	.cfi_offset %rbp, -16
	movq	%rdx, %r13
	movq	64(%rdi), %rdx
	leal	(%rdx,%r13), %eax
	notl	%eax
	orq	$-64, %rax
	addq	%rsi, %rax
	movzbl	(%r13,%rax), %eax
	shrb	$7, %al
	movb	%al, 137(%rdi)
	movb	$1, 136(%rdi)
	testq	%rdx, %rdx
	je	.LBB40_4
	movl	$64, %ecx
	subq	%rdx, %rcx
	leaq	(%rsi,%rcx), %r9
	cmpq	$7, %rcx
	jbe	.LBB40_2
	movl	%edx, %eax
	leal	(,%rax,8), %r8d
	shlxq	%r8, (%rsi), %r8
	shrq	$3, %rdx
	movl	%edx, %r10d
	andl	$7, %r10d
	orq	%r8, (%rdi,%r10,8)
	andl	$7, %eax
	movl	$8, %r8d
	subq	%rax, %r8
	cmpq	$33, %rcx
	jae	.LBB40_6
	cmpq	$17, %rcx
	jb	.LBB40_34
	movq	(%rsi,%r8), %rax
	andl	$1, %edx
	movq	%rax, 40(%rdi,%rdx,8)
	jmp	.LBB40_11
.LBB40_6:
	movq	(%rsi,%r8), %r8
	movq	%rsi, %r10
	subq	%rax, %r10
	movq	16(%r10), %r10
	andl	$3, %edx
	movq	%r10, 16(%rdi,%rdx,8)
	movq	%r8, 8(%rdi,%rdx,8)
	negq	%rax
	movq	24(%rsi,%rax), %rax
	movq	%rax, 24(%rdi,%rdx,8)
	vmovups	-32(%r9), %xmm0
	vmovups	%xmm0, 32(%rdi)
.LBB40_11:
	movq	-16(%r9), %rax
	movq	-8(%r9), %r10
	movq	%rax, 48(%rdi)
	jmp	.LBB40_15
.LBB40_4:
	movq	128(%rdi), %rbx
	movq	120(%rdi), %r15
	movq	112(%rdi), %rcx
	movq	104(%rdi), %r12
	movq	96(%rdi), %r11
	movq	88(%rdi), %r8
	movq	72(%rdi), %r10
	movq	80(%rdi), %r14
	movq	%rsi, %r9
	testb	$64, %r13b
	jne	.LBB40_16
	jmp	.LBB40_17
.LBB40_2:
	cmpq	$4, %rcx
	jae	.LBB40_3
	cmpq	$64, %rdx
	je	.LBB40_8
	movzbl	-1(%rsi,%rcx), %r8d
	shll	$16, %r8d
	xorl	%eax, %eax
	cmpq	$61, %rdx
	cmovneq	%rax, %r8
	movq	%rcx, %r10
	shrq	%r10
	movzbl	(%rsi,%r10), %r10d
	shll	$8, %r10d
	cmpq	$63, %rdx
	cmoveq	%rax, %r10
	movzbl	(%rsi), %eax
	orq	%r10, %rax
	jmp	.LBB40_13
.LBB40_8:
	xorl	%eax, %eax
	jmp	.LBB40_14
.LBB40_34:
	movq	-8(%r9), %r10
	jmp	.LBB40_15
.LBB40_3:
	leal	(,%rcx,8), %eax
	negb	%al
	movq	%rsi, %r8
	subq	%rdx, %r8
	movl	60(%r8), %r8d
	shrxq	%rax, %r8, %r8
	shlq	$32, %r8
	movl	(%rsi), %eax
.LBB40_13:
	orq	%r8, %rax
.LBB40_14:
	shll	$3, %edx
	shlxq	%rdx, %rax, %r10
	orq	56(%rdi), %r10
.LBB40_15:
	subq	%rcx, %r13
	movq	%r13, (%rsp)
	movq	112(%rdi), %rax
	movq	24(%rdi), %r13
	xorq	%rax, %r13
	movq	%rax, %r15
	movq	%rax, 8(%rsp)
	movq	96(%rdi), %rcx
	movq	8(%rdi), %rsi
	xorq	%rcx, %rsi
	movq	(%rdi), %r11
	movq	16(%rdi), %r12
	vxorps	%xmm0, %xmm0, %xmm0
	vmovups	%ymm0, (%rdi)
	movq	128(%rdi), %rbp
	movq	40(%rdi), %r8
	movq	72(%rdi), %rdx
	xorq	48(%rdi), %rdx
	movq	32(%rdi), %rbx
	vmovups	%ymm0, 32(%rdi)
	movq	80(%rdi), %rax
	xorq	%rax, %r10
	xorq	%rbp, %rdx
	mulxq	%r10, %r10, %r14
	xorq	%rbp, %r8
	addq	%rax, %r14
	xorq	120(%rdi), %rbx
	xorq	%r15, %rbx
	movq	%r8, %rdx
	mulxq	%rbx, %r15, %rbx
	addq	%rbp, %rbx
	xorq	88(%rdi), %r11
	xorq	%rax, %r11
	movq	%rsi, %rdx
	mulxq	%r11, %r8, %r11
	addq	%rcx, %r11
	movq	$0, 64(%rdi)
	xorq	104(%rdi), %r12
	xorq	%rcx, %r12
	movq	%r13, %rdx
	movq	(%rsp), %r13
	mulxq	%r12, %r12, %rcx
	addq	8(%rsp), %rcx
	testb	$64, %r13b
	je	.LBB40_17
.LBB40_16:
	movq	56(%r9), %rdx
	xorq	%r14, %rdx
	movq	48(%r9), %rax
	xorq	%rbx, %rax
	xorq	%r10, %rax
	mulxq	%rax, %r10, %rax
	addq	%r14, %rax
	movq	40(%r9), %rdx
	xorq	%rbx, %rdx
	xorq	32(%r9), %r15
	xorq	%rcx, %r15
	mulxq	%r15, %r15, %rdx
	addq	%rdx, %rbx
	movq	8(%r9), %rdx
	xorq	%r11, %rdx
	xorq	(%r9), %r8
	xorq	%r14, %r8
	mulxq	%r8, %r8, %rsi
	xorq	16(%r9), %r12
	movq	24(%r9), %rdx
	xorq	%rcx, %rdx
	xorq	%r11, %r12
	mulxq	%r12, %r12, %rdx
	addq	%r11, %rsi
	addq	%rdx, %rcx
	addq	$-64, %r13
	addq	$64, %r9
	movq	%rsi, %r11
	movq	%rax, %r14
.LBB40_17:
	cmpq	$128, %r13
	jb	.LBB40_21
	movq	%rdi, (%rsp)
	.p2align	4, 0x90
.LBB40_19:
	movq	%r13, %rdi
	movq	%r14, %r13
	movq	40(%r9), %rdx
	xorq	%rbx, %rdx
	xorq	32(%r9), %r15
	xorq	%rcx, %r15
	mulxq	%r15, %r15, %rsi
	movq	56(%r9), %rdx
	xorq	%r14, %rdx
	xorq	48(%r9), %r10
	xorq	%rbx, %r10
	mulxq	%r10, %rax, %rbp
	xorq	112(%r9), %rax
	addq	%rbx, %rsi
	xorq	%rsi, %rax
	addq	%r14, %rbp
	movq	120(%r9), %rdx
	xorq	%rbp, %rdx
	mulxq	%rax, %r10, %r14
	xorq	16(%r9), %r12
	xorq	%r11, %r12
	movq	24(%r9), %rdx
	xorq	%rcx, %rdx
	mulxq	%r12, %r12, %rax
	xorq	(%r9), %r8
	xorq	%r13, %r8
	movq	%rdi, %r13
	xorq	96(%r9), %r15
	addq	%rcx, %rax
	xorq	%rax, %r15
	movq	104(%r9), %rdx
	xorq	%rsi, %rdx
	mulxq	%r15, %r15, %rbx
	movq	8(%r9), %rdx
	xorq	%r11, %rdx
	mulxq	%r8, %rdx, %rcx
	addq	%rbp, %r14
	addq	%rsi, %rbx
	xorq	64(%r9), %rdx
	xorq	%rbp, %rdx
	addq	%r11, %rcx
	movq	72(%r9), %rsi
	xorq	%rcx, %rsi
	mulxq	%rsi, %r8, %r11
	addq	%rcx, %r11
	xorq	80(%r9), %r12
	xorq	%rcx, %r12
	movq	88(%r9), %rdx
	xorq	%rax, %rdx
	mulxq	%r12, %r12, %rcx
	addq	%rax, %rcx
	subq	$-128, %r9
	addq	$-128, %r13
	cmpq	$127, %r13
	ja	.LBB40_19
	movq	(%rsp), %rdi
.LBB40_21:
	movq	%rbx, 128(%rdi)
	movq	%r15, 120(%rdi)
	movq	%rcx, 112(%rdi)
	movq	%r12, 104(%rdi)
	movq	%r11, 96(%rdi)
	movq	%r8, 88(%rdi)
	movq	%r14, 80(%rdi)
	movq	%r10, 72(%rdi)
	movq	%r13, %rcx
	andq	$63, %rcx
	je	.LBB40_33
	cmpl	$7, %ecx
	jbe	.LBB40_23
	cmpl	$16, %ecx
	jb	.LBB40_30
	movl	%ecx, %eax
	andl	$-8, %eax
	vmovups	-16(%r9,%rax), %xmm0
	vmovups	%xmm0, -16(%rdi,%rax)
	vmovups	(%r9), %xmm0
	vmovups	%xmm0, (%rdi)
	movl	%ecx, %eax
	shrl	$3, %eax
	cmpq	$32, %rcx
	jb	.LBB40_31
	vmovups	-32(%r9,%rax,8), %xmm0
	vmovups	%xmm0, -32(%rdi,%rax,8)
	vmovups	16(%r9), %xmm0
	vmovups	%xmm0, 16(%rdi)
	jmp	.LBB40_31
.LBB40_30:
	movq	(%r9), %rax
	movq	%rax, (%rdi)
	movl	$1, %eax
.LBB40_31:
	notl	%r13d
	shll	$3, %r13d
	shrxq	%r13, -8(%r9,%rcx), %rdx
	shrq	$8, %rdx
	movq	%rdx, (%rdi,%rax,8)
	jmp	.LBB40_32
.LBB40_23:
	cmpl	$4, %ecx
	jb	.LBB40_28
	leal	(,%rcx,8), %eax
	negb	%al
	movl	-4(%rcx,%r9), %edx
	shrxq	%rax, %rdx, %rax
	shlq	$32, %rax
	movl	(%r9), %edx
.LBB40_29:
	orq	%rax, %rdx
	movq	%rdx, (%rdi)
.LBB40_32:
	movq	%rcx, 64(%rdi)
.LBB40_33:
	addq	$16, %rsp
	.cfi_def_cfa_offset 56
	popq	%rbx
	.cfi_def_cfa_offset 48
	popq	%r12
	.cfi_def_cfa_offset 40
	popq	%r13
	.cfi_def_cfa_offset 32
	popq	%r14
	.cfi_def_cfa_offset 24
	popq	%r15
	.cfi_def_cfa_offset 16
	popq	%rbp
	.cfi_def_cfa_offset 8
	vzeroupper
	retq
.LBB40_28:
	.cfi_def_cfa_offset 72
	movzbl	-1(%r9,%rcx), %eax
	shll	$16, %eax
	xorl	%edx, %edx
	cmpq	$3, %rcx
	cmovneq	%rdx, %rax
	movl	%ecx, %esi
	shrl	%esi
	movzbl	(%r9,%rsi), %esi
	shll	$8, %esi
	cmpq	$1, %rcx
	cmoveq	%rdx, %rsi
	movzbl	(%r9), %edx
	orq	%rsi, %rdx
	jmp	.LBB40_29
.Lfunc_end40:
	.size	komi_stream_complete_blocks_v4, .Lfunc_end40-komi_stream_complete_blocks_v4
	.cfi_endproc

	.section	.text.komi_stream_complete_blocks_v5,"ax",@progbits
	.p2align	6, 0x90
	.type	komi_stream_complete_blocks_v5,@function
komi_stream_complete_blocks_v5:
	.cfi_startproc
	pushq	%rbp
	.cfi_def_cfa_offset 16
	pushq	%r15
	.cfi_def_cfa_offset 24
	pushq	%r14
	.cfi_def_cfa_offset 32
	pushq	%r13
	.cfi_def_cfa_offset 40
	pushq	%r12
	.cfi_def_cfa_offset 48
	pushq	%rbx
	.cfi_def_cfa_offset 56
	subq	$16, %rsp
	.cfi_def_cfa_offset 72
	.cfi_offset %rbx, -56
	.cfi_offset %r12, -48
	.cfi_offset %r13, -40
	.cfi_offset %r14, -32
	.cfi_offset %r15, -24
	.cfi_offset %rbp, -16
	movq	%rdx, %r13
	movw	$1, 136(%rdi)
	movq	64(%rdi), %rdx
	testq	%rdx, %rdx
	je	.LBB41_4
	movl	$64, %ecx
	subq	%rdx, %rcx
	leaq	(%rsi,%rcx), %r9
	cmpq	$7, %rcx
	jbe	.LBB41_2
	movl	%edx, %eax
	leal	(,%rax,8), %r8d
	shlxq	%r8, (%rsi), %r8
	shrq	$3, %rdx
	movl	%edx, %r10d
	andl	$7, %r10d
	orq	%r8, (%rdi,%r10,8)
	andl	$7, %eax
	movl	$8, %r8d
	subq	%rax, %r8
	cmpq	$33, %rcx
	jae	.LBB41_6
	cmpq	$17, %rcx
	jb	.LBB41_34
	movq	(%rsi,%r8), %rax
	andl	$1, %edx
	movq	%rax, 40(%rdi,%rdx,8)
	jmp	.LBB41_11
.LBB41_6:
	movq	(%rsi,%r8), %r8
	movq	%rsi, %r10
	subq	%rax, %r10
	movq	16(%r10), %r10
	andl	$3, %edx
	movq	%r10, 16(%rdi,%rdx,8)
	movq	%r8, 8(%rdi,%rdx,8)
	negq	%rax
	movq	24(%rsi,%rax), %rax
	movq	%rax, 24(%rdi,%rdx,8)
	vmovups	-32(%r9), %xmm0
	vmovups	%xmm0, 32(%rdi)
.LBB41_11:
	movq	-16(%r9), %rax
	movq	-8(%r9), %r10
	movq	%rax, 48(%rdi)
	jmp	.LBB41_15
.LBB41_4:
	movq	128(%rdi), %rbx
	movq	120(%rdi), %r15
	movq	112(%rdi), %rcx
	movq	104(%rdi), %r12
	movq	96(%rdi), %r11
	movq	88(%rdi), %r8
	movq	72(%rdi), %r10
	movq	80(%rdi), %r14
	movq	%rsi, %r9
	testb	$64, %r13b
	jne	.LBB41_16
	jmp	.LBB41_17
.LBB41_2:
	cmpq	$4, %rcx
	jae	.LBB41_3
	cmpq	$64, %rdx
	je	.LBB41_8
	movzbl	-1(%rsi,%rcx), %r8d
	shll	$16, %r8d
	xorl	%eax, %eax
	cmpq	$61, %rdx
	cmovneq	%rax, %r8
	movq	%rcx, %r10
	shrq	%r10
	movzbl	(%rsi,%r10), %r10d
	shll	$8, %r10d
	cmpq	$63, %rdx
	cmoveq	%rax, %r10
	movzbl	(%rsi), %eax
	orq	%r10, %rax
	jmp	.LBB41_13
.LBB41_8:
	xorl	%eax, %eax
	jmp	.LBB41_14
.LBB41_34:
	movq	-8(%r9), %r10
	jmp	.LBB41_15
.LBB41_3:
	leal	(,%rcx,8), %eax
	negb	%al
	movq	%rsi, %r8
	subq	%rdx, %r8
	movl	60(%r8), %r8d
	shrxq	%rax, %r8, %r8
	shlq	$32, %r8
	movl	(%rsi), %eax
.LBB41_13:
	orq	%r8, %rax
.LBB41_14:
	shll	$3, %edx
	shlxq	%rdx, %rax, %r10
	orq	56(%rdi), %r10
.LBB41_15:
	subq	%rcx, %r13
	movq	%r13, (%rsp)
	movq	72(%rdi), %rdx
	xorq	24(%rdi), %rdx
	movq	(%rdi), %r11
	movq	8(%rdi), %rcx
	movq	16(%rdi), %rbx
	vxorps	%xmm0, %xmm0, %xmm0
	vmovups	%ymm0, (%rdi)
	movq	112(%rdi), %rax
	movq	40(%rdi), %r13
	xorq	%rax, %r13
	movq	%rax, %r15
	movq	%rax, 8(%rsp)
	movq	96(%rdi), %r12
	movq	32(%rdi), %rsi
	xorq	%r12, %rsi
	movq	128(%rdi), %rbp
	movq	48(%rdi), %r8
	vmovups	%ymm0, 32(%rdi)
	movq	80(%rdi), %rax
	xorq	%rax, %r10
	xorq	%rbp, %rdx
	mulxq	%r10, %r10, %r14
	xorq	%rbp, %r8
	addq	%rax, %r14
	xorq	120(%rdi), %rbx
	xorq	%r15, %rbx
	movq	%r8, %rdx
	mulxq	%rbx, %r15, %rbx
	addq	%rbp, %rbx
	xorq	88(%rdi), %r11
	xorq	%rax, %r11
	movq	%rsi, %rdx
	mulxq	%r11, %r8, %r11
	addq	%r12, %r11
	movq	$0, 64(%rdi)
	xorq	104(%rdi), %rcx
	xorq	%r12, %rcx
	movq	%r13, %rdx
	movq	(%rsp), %r13
	mulxq	%rcx, %r12, %rcx
	addq	8(%rsp), %rcx
	testb	$64, %r13b
	je	.LBB41_17
.LBB41_16:
	movq	56(%r9), %rdx
	xorq	%r14, %rdx
	movq	24(%r9), %rax
	xorq	%rbx, %rax
	xorq	%r10, %rax
	mulxq	%rax, %r10, %rax
	addq	%r14, %rax
	movq	48(%r9), %rdx
	xorq	%rbx, %rdx
	xorq	16(%r9), %r15
	xorq	%rcx, %r15
	mulxq	%r15, %r15, %rdx
	addq	%rdx, %rbx
	movq	32(%r9), %rdx
	xorq	%r11, %rdx
	xorq	(%r9), %r8
	xorq	%r14, %r8
	mulxq	%r8, %r8, %rsi
	xorq	8(%r9), %r12
	movq	40(%r9), %rdx
	xorq	%rcx, %rdx
	xorq	%r11, %r12
	mulxq	%r12, %r12, %rdx
	addq	%r11, %rsi
	addq	%rdx, %rcx
	addq	$-64, %r13
	addq	$64, %r9
	movq	%rsi, %r11
	movq	%rax, %r14
.LBB41_17:
	cmpq	$128, %r13
	jb	.LBB41_21
	movq	%rdi, (%rsp)
	.p2align	4, 0x90
.LBB41_19:
	movq	%r13, %rdi
	movq	%r14, %r13
	movq	48(%r9), %rdx
	xorq	%rbx, %rdx
	xorq	16(%r9), %r15
	xorq	%rcx, %r15
	mulxq	%r15, %r15, %rsi
	movq	56(%r9), %rdx
	xorq	%r14, %rdx
	xorq	24(%r9), %r10
	xorq	%rbx, %r10
	mulxq	%r10, %rax, %rbp
	xorq	88(%r9), %rax
	addq	%rbx, %rsi
	xorq	%rsi, %rax
	addq	%r14, %rbp
	movq	120(%r9), %rdx
	xorq	%rbp, %rdx
	mulxq	%rax, %r10, %r14
	xorq	8(%r9), %r12
	xorq	%r11, %r12
	movq	40(%r9), %rdx
	xorq	%rcx, %rdx
	mulxq	%r12, %r12, %rax
	xorq	(%r9), %r8
	xorq	%r13, %r8
	movq	%rdi, %r13
	xorq	80(%r9), %r15
	addq	%rcx, %rax
	xorq	%rax, %r15
	movq	112(%r9), %rdx
	xorq	%rsi, %rdx
	mulxq	%r15, %r15, %rbx
	movq	32(%r9), %rdx
	xorq	%r11, %rdx
	mulxq	%r8, %rdx, %rcx
	addq	%rbp, %r14
	addq	%rsi, %rbx
	xorq	64(%r9), %rdx
	xorq	%rbp, %rdx
	addq	%r11, %rcx
	movq	96(%r9), %rsi
	xorq	%rcx, %rsi
	mulxq	%rsi, %r8, %r11
	addq	%rcx, %r11
	xorq	72(%r9), %r12
	xorq	%rcx, %r12
	movq	104(%r9), %rdx
	xorq	%rax, %rdx
	mulxq	%r12, %r12, %rcx
	addq	%rax, %rcx
	subq	$-128, %r9
	addq	$-128, %r13
	cmpq	$127, %r13
	ja	.LBB41_19
	movq	(%rsp), %rdi
.LBB41_21:
	movq	%rbx, 128(%rdi)
	movq	%r15, 120(%rdi)
	movq	%rcx, 112(%rdi)
	movq	%r12, 104(%rdi)
	movq	%r11, 96(%rdi)
	movq	%r8, 88(%rdi)
	movq	%r14, 80(%rdi)
	movq	%r10, 72(%rdi)
	movq	%r13, %rcx
	andq	$63, %rcx
	je	.LBB41_33
	cmpl	$7, %ecx
	jbe	.LBB41_23
	cmpl	$16, %ecx
	jb	.LBB41_30
	movl	%ecx, %eax
	andl	$-8, %eax
	vmovups	-16(%r9,%rax), %xmm0
	vmovups	%xmm0, -16(%rdi,%rax)
	vmovups	(%r9), %xmm0
	vmovups	%xmm0, (%rdi)
	movl	%ecx, %eax
	shrl	$3, %eax
	cmpq	$32, %rcx
	jb	.LBB41_31
	vmovups	-32(%r9,%rax,8), %xmm0
	vmovups	%xmm0, -32(%rdi,%rax,8)
	vmovups	16(%r9), %xmm0
	vmovups	%xmm0, 16(%rdi)
	jmp	.LBB41_31
.LBB41_30:
	movq	(%r9), %rax
	movq	%rax, (%rdi)
	movl	$1, %eax
.LBB41_31:
	notl	%r13d
	shll	$3, %r13d
	shrxq	%r13, -8(%r9,%rcx), %rdx
	shrq	$8, %rdx
	movq	%rdx, (%rdi,%rax,8)
	jmp	.LBB41_32
.LBB41_23:
	cmpl	$4, %ecx
	jb	.LBB41_28
	leal	(,%rcx,8), %eax
	negb	%al
	movl	-4(%rcx,%r9), %edx
	shrxq	%rax, %rdx, %rax
	shlq	$32, %rax
	movl	(%r9), %edx
.LBB41_29:
	orq	%rax, %rdx
	movq	%rdx, (%rdi)
.LBB41_32:
	movq	%rcx, 64(%rdi)
.LBB41_33:
	addq	$16, %rsp
	.cfi_def_cfa_offset 56
	popq	%rbx
	.cfi_def_cfa_offset 48
	popq	%r12
	.cfi_def_cfa_offset 40
	popq	%r13
	.cfi_def_cfa_offset 32
	popq	%r14
	.cfi_def_cfa_offset 24
	popq	%r15
	.cfi_def_cfa_offset 16
	popq	%rbp
	.cfi_def_cfa_offset 8
	vzeroupper
	retq
.LBB41_28:
	.cfi_def_cfa_offset 72
	movzbl	-1(%r9,%rcx), %eax
	shll	$16, %eax
	xorl	%edx, %edx
	cmpq	$3, %rcx
	cmovneq	%rdx, %rax
	movl	%ecx, %esi
	shrl	%esi
	movzbl	(%r9,%rsi), %esi
	shll	$8, %esi
	cmpq	$1, %rcx
	cmoveq	%rdx, %rsi
	movzbl	(%r9), %edx
	orq	%rsi, %rdx
	jmp	.LBB41_29
.Lfunc_end41:
	.size	komi_stream_complete_blocks_v5, .Lfunc_end41-komi_stream_complete_blocks_v5
	.cfi_endproc

	.section	".note.GNU-stack","",@progbits
