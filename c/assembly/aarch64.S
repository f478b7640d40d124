/* SPDX-License-Identifier: MIT
 * Copyright (c) 2026 the authors of komihash_rattle
 *
 * `make assembly` made this file from komihash_rattle_inline.h. Do not edit it.
 * Made of: SHA-256 5f39fc309d55353125e2e5bfa9337f2b71193819c65eb750e26a339d95a94107
 * Options: -O2 -fno-vectorize -fno-slp-vectorize -mllvm -disable-loop-idiom-memcpy -mllvm -enable-ext-tsp-block-placement -fPIC -ffunction-sections -falign-functions=64 -fno-addrsig -fno-ident -fno-verbose-asm -mbranch-protection=bti -ffixed-x18
 * Compiler: Debian clang version 19.1.7 (3~deb12u1)
 */
	.text
	.section	.note.gnu.property,"a",@note
	.p2align	3, 0x0
	.word	4
	.word	16
	.word	5
	.asciz	"GNU"
	.word	3221225472
	.word	4
	.word	1
	.word	0
.Lsec_end0:
	.text
	.file	"komihash_rattle.c"
	.section	.text.komihash_v5,"ax",@progbits
	.globl	komihash_v5
	.p2align	6
	.type	komihash_v5,@function
komihash_v5:
	.cfi_startproc
	hint	#34
	cmp	x1, #8
	b.hs	.LBB0_3
	cbz	x1, .LBB0_12
	b	komi_hash_of_partial_word_v5
.LBB0_3:
	cmp	x1, #64
	b.lo	.LBB0_7
	cmp	x1, #128
	b.hs	.LBB0_6
	b	komi_hash_of_one_block_v5
.LBB0_6:
	b	komi_hash_of_blocks_v5
.LBB0_7:
	cmp	x1, #15
	b.hi	.LBB0_9
	b	komi_hash_of_one_word_v5
.LBB0_9:
	cmp	x1, #16
	b.eq	.LBB0_11
	b	komi_hash_of_words_v5
.LBB0_11:
	mov	x1, x2
	b	komi_hash_of_16_bytes_v5
.LBB0_12:
	mov	x9, #2259
	mov	x11, #4983
	and	x8, x2, #0x5555555555555555
	movk	x9, #34211, lsl #16
	movk	x11, #14544, lsl #16
	and	x10, x2, #0xaaaaaaaaaaaaaaaa
	movk	x9, #27272, lsl #32
	movk	x11, #8678, lsl #32
	movk	x9, #9279, lsl #48
	movk	x11, #17704, lsl #48
	eor	x8, x8, x9
	eor	x9, x10, x11
	umulh	x10, x8, x9
	mul	x8, x8, x9
	add	x9, x9, x10
	eor	x8, x9, x8
	umulh	x10, x8, x9
	mul	x8, x8, x9
	add	x9, x9, x10
	eor	x8, x9, x8
	umulh	x10, x8, x9
	mul	x8, x8, x9
	add	x9, x9, x10
	eor	x0, x9, x8
	ret
.Lfunc_end0:
	.size	komihash_v5, .Lfunc_end0-komihash_v5
	.cfi_endproc

	.section	.text.komihash_v5_start,"ax",@progbits
	.globl	komihash_v5_start
	.p2align	6
	.type	komihash_v5_start,@function
komihash_v5_start:
	.cfi_startproc
	hint	#34
	mov	x9, #2259
	mov	x12, #4983
	and	x10, x0, #0x5555555555555555
	movk	x9, #34211, lsl #16
	movk	x12, #14544, lsl #16
	and	x11, x0, #0xaaaaaaaaaaaaaaaa
	movk	x9, #27272, lsl #32
	movk	x12, #8678, lsl #32
	mov	x13, #29508
	movk	x9, #9279, lsl #48
	movk	x12, #17704, lsl #48
	movk	x13, #880, lsl #16
	eor	x9, x10, x9
	eor	x10, x11, x12
	mov	x12, #15444
	mul	x11, x9, x10
	movk	x12, #9522, lsl #16
	movk	x13, #35374, lsl #32
	movk	x12, #54063, lsl #32
	movk	x13, #4889, lsl #48
	movi	v0.2d, #0000000000000000
	umulh	x9, x9, x10
	movk	x12, #51330, lsl #48
	strh	wzr, [x8, #136]
	eor	x12, x11, x12
	stp	q0, q0, [x8]
	stp	xzr, x12, [x8, #64]
	eor	x12, x11, x13
	add	x9, x10, x9
	mov	x10, #2327
	stp	q0, q0, [x8, #32]
	movk	x10, #46407, lsl #16
	stp	x9, x12, [x8, #96]
	mov	x12, #3180
	movk	x10, #54709, lsl #32
	movk	x12, #13545, lsl #16
	movk	x10, #16260, lsl #48
	movk	x12, #26319, lsl #32
	eor	x13, x9, x10
	eor	x10, x11, x10
	movk	x12, #48724, lsl #48
	stp	x13, x10, [x8, #80]
	mov	x13, #15804
	eor	x12, x9, x12
	movk	x13, #7542, lsl #16
	movk	x13, #24301, lsl #32
	movk	x13, #6749, lsl #48
	eor	x10, x11, x13
	mov	x11, #20701
	movk	x11, #51580, lsl #16
	stp	x12, x10, [x8, #112]
	movk	x11, #10679, lsl #32
	movk	x11, #49324, lsl #48
	eor	x9, x9, x11
	str	x9, [x8, #128]
	ret
.Lfunc_end1:
	.size	komihash_v5_start, .Lfunc_end1-komihash_v5_start
	.cfi_endproc

	.section	.text.komihash_v5_init,"ax",@progbits
	.globl	komihash_v5_init
	.p2align	6
	.type	komihash_v5_init,@function
komihash_v5_init:
	.cfi_startproc
	hint	#34
	mov	x8, #2259
	mov	x11, #4983
	and	x9, x1, #0x5555555555555555
	movk	x8, #34211, lsl #16
	movk	x11, #14544, lsl #16
	and	x10, x1, #0xaaaaaaaaaaaaaaaa
	movk	x8, #27272, lsl #32
	movk	x11, #8678, lsl #32
	mov	x12, #29508
	movk	x8, #9279, lsl #48
	movk	x11, #17704, lsl #48
	movk	x12, #880, lsl #16
	eor	x8, x9, x8
	eor	x9, x10, x11
	mov	x11, #15444
	mul	x10, x8, x9
	movk	x11, #9522, lsl #16
	movk	x12, #35374, lsl #32
	movk	x11, #54063, lsl #32
	movk	x12, #4889, lsl #48
	movi	v0.2d, #0000000000000000
	umulh	x8, x8, x9
	movk	x11, #51330, lsl #48
	strh	wzr, [x0, #136]
	eor	x11, x10, x11
	stp	q0, q0, [x0]
	stp	xzr, x11, [x0, #64]
	eor	x11, x10, x12
	add	x8, x9, x8
	mov	x9, #2327
	stp	q0, q0, [x0, #32]
	movk	x9, #46407, lsl #16
	stp	x8, x11, [x0, #96]
	mov	x11, #3180
	movk	x9, #54709, lsl #32
	movk	x11, #13545, lsl #16
	movk	x9, #16260, lsl #48
	movk	x11, #26319, lsl #32
	eor	x12, x8, x9
	eor	x9, x10, x9
	movk	x11, #48724, lsl #48
	stp	x12, x9, [x0, #80]
	mov	x12, #15804
	eor	x11, x8, x11
	movk	x12, #7542, lsl #16
	movk	x12, #24301, lsl #32
	movk	x12, #6749, lsl #48
	eor	x9, x10, x12
	mov	x10, #20701
	movk	x10, #51580, lsl #16
	stp	x11, x9, [x0, #112]
	movk	x10, #10679, lsl #32
	movk	x10, #49324, lsl #48
	eor	x8, x8, x10
	str	x8, [x0, #128]
	ret
.Lfunc_end2:
	.size	komihash_v5_init, .Lfunc_end2-komihash_v5_init
	.cfi_endproc

	.section	.text.komihash_v5_write,"ax",@progbits
	.globl	komihash_v5_write
	.p2align	6
	.type	komihash_v5_write,@function
komihash_v5_write:
	.cfi_startproc
	hint	#34
	ldr	x9, [x0, #64]
	add	x8, x9, x2
	cmp	x8, #63
	b.ls	.LBB3_2
	b	komi_stream_complete_blocks_v5
.LBB3_2:
	cmp	x2, #7
	str	x8, [x0, #64]
	b.hi	.LBB3_9
	cmp	x2, #4
	b.hs	.LBB3_7
	cbz	x2, .LBB3_6
	lsr	x8, x2, #1
	add	x10, x1, x2
	cmp	x2, #1
	ldurb	w10, [x10, #-1]
	ldrb	w11, [x1]
	ldrb	w8, [x1, x8]
	lsl	x10, x10, #16
	lsl	x8, x8, #8
	csel	x8, xzr, x8, eq
	cmp	x2, #3
	csel	x10, x10, xzr, eq
	orr	x10, x11, x10
	orr	x8, x8, x10
	b	.LBB3_8
.LBB3_6:
	mov	x8, xzr
	b	.LBB3_8
.LBB3_7:
	add	x8, x1, x2
	lsl	x10, x2, #3
	ldr	w11, [x1]
	ldur	w8, [x8, #-4]
	neg	x10, x10
	lsr	x8, x8, x10
	orr	x8, x11, x8, lsl #32
.LBB3_8:
	lsl	x10, x9, #3
	and	x11, x9, #0x38
	add	w9, w9, #8
	ldr	x13, [x0, x11]
	and	x9, x9, #0x38
	and	x12, x10, #0x38
	neg	w10, w10
	lsl	x12, x8, x12
	and	x10, x10, #0x38
	lsr	x8, x8, x10
	orr	x13, x13, x12
	str	x13, [x0, x11]
	ldr	x10, [x0, x9]
	bic	x8, x8, x12
	orr	x8, x10, x8
	str	x8, [x0, x9]
	ret
.LBB3_9:
	ldr	x10, [x1]
	ubfiz	x11, x9, #3, #3
	ubfx	x12, x9, #3, #3
	and	x9, x9, #0x7
	mov	w13, #8
	sub	x9, x13, x9
	lsl	x10, x10, x11
	ldr	x13, [x0, x12, lsl #3]
	sub	x11, x2, x9
	orr	x10, x13, x10
	cmp	x11, #16
	str	x10, [x0, x12, lsl #3]
	add	x10, x12, #1
	b.lo	.LBB3_12
	lsr	x12, x11, #3
	add	x9, x1, x9
	add	x10, x0, x10, lsl #3
	cmp	x11, #32
	lsl	x12, x12, #3
	sub	x13, x12, #16
	add	x14, x9, x13
	add	x13, x10, x13
	ldp	x15, x14, [x14]
	stp	x15, x14, [x13]
	ldp	x13, x14, [x9]
	stp	x13, x14, [x10]
	b.lo	.LBB3_13
	sub	x11, x12, #32
	add	x12, x9, x11
	add	x11, x10, x11
	ldp	x13, x12, [x12]
	stp	x13, x12, [x11]
	ldp	x11, x9, [x9, #16]
	stp	x11, x9, [x10, #16]
	b	.LBB3_13
.LBB3_12:
	sub	x11, x2, #8
	and	x10, x10, #0x7
	cmp	x9, x11
	csel	x9, x9, x11, lo
	ldr	x9, [x1, x9]
	str	x9, [x0, x10, lsl #3]
.LBB3_13:
	mov	w9, #-1
	add	x10, x1, x2
	eor	w9, w9, w8, lsl #3
	ldur	x10, [x10, #-8]
	and	x8, x8, #0xfffffffffffffff8
	and	x9, x9, #0x38
	lsr	x9, x10, x9
	lsr	x9, x9, #8
	str	x9, [x0, x8]
	ret
.Lfunc_end3:
	.size	komihash_v5_write, .Lfunc_end3-komihash_v5_write
	.cfi_endproc

	.section	.text.komihash_v5_finish,"ax",@progbits
	.globl	komihash_v5_finish
	.p2align	6
	.type	komihash_v5_finish,@function
komihash_v5_finish:
	.cfi_startproc
	hint	#34
	ldrb	w10, [x0, #136]
	ldp	x9, x11, [x0, #80]
	ldr	x8, [x0, #96]
	cmp	w10, #1
	b.eq	.LBB4_2
	ldr	x10, [x0, #64]
	eor	x9, x8, x9
	eor	x9, x9, x11
	cbnz	x10, .LBB4_3
	b	.LBB4_10
.LBB4_2:
	ldp	x12, x14, [x0, #120]
	eor	x8, x9, x8
	ldp	x13, x15, [x0, #104]
	ldp	x10, x16, [x0, #64]
	eor	x12, x12, x13
	eor	x13, x14, x15
	eor	x11, x16, x11
	eor	x8, x13, x8
	eor	x9, x12, x11
	cbz	x10, .LBB4_9
.LBB4_3:
	lsr	x11, x10, #3
	cmp	x10, #16
	b.lo	.LBB4_7
	ldp	x12, x13, [x0]
	cmp	x10, #32
	eor	x12, x8, x12
	eor	x13, x13, x8
	eor	x9, x12, x9
	umulh	x12, x9, x13
	mul	x9, x9, x13
	add	x8, x8, x12
	b.lo	.LBB4_7
	ldp	x12, x13, [x0, #16]
	cmp	x10, #48
	eor	x9, x12, x9
	eor	x12, x13, x8
	eor	x9, x9, x8
	umulh	x13, x9, x12
	mul	x9, x9, x12
	add	x8, x8, x13
	b.lo	.LBB4_7
	ldp	x12, x13, [x0, #32]
	eor	x9, x12, x9
	eor	x12, x13, x8
	eor	x9, x9, x8
	umulh	x13, x9, x12
	mul	x9, x9, x12
	add	x8, x8, x13
.LBB4_7:
	ubfiz	x12, x10, #3, #3
	and	x11, x11, #0x6
	mov	w13, #1
	add	x11, x0, x11, lsl #3
	tst	x10, #0x8
	eor	x9, x9, x8
	lsl	x12, x13, x12
	ldp	x13, x11, [x11]
	csel	x10, x12, xzr, eq
	sub	x12, x12, x10
	orr	x10, x13, x10
	orr	x11, x11, x12
	eor	x9, x9, x10
	eor	x10, x11, x8
.LBB4_8:
	umulh	x11, x10, x9
	mul	x9, x10, x9
	add	x8, x8, x11
	eor	x9, x8, x9
	umulh	x10, x9, x8
	mul	x9, x9, x8
	add	x8, x8, x10
	eor	x0, x8, x9
	ret
.LBB4_9:
	ldrb	w10, [x0, #137]
	cmp	w10, #0
	mov	w10, #1
	cinc	x10, x10, ne
.LBB4_10:
	eor	x10, x10, x8
	eor	x9, x9, x10
	mov	x10, x8
	b	.LBB4_8
.Lfunc_end4:
	.size	komihash_v5_finish, .Lfunc_end4-komihash_v5_finish
	.cfi_endproc

	.section	.text.komihash_v5_save,"ax",@progbits
	.globl	komihash_v5_save
	.p2align	6
	.type	komihash_v5_save,@function
komihash_v5_save:
	.cfi_startproc
	hint	#34
	cmp	x2, #131
	b.hs	.LBB5_2
	mov	x0, xzr
	ret
.LBB5_2:
	sub	sp, sp, #16
	.cfi_def_cfa_offset 16
	.cfi_remember_state
	ldrh	w9, [x0, #136]
	ldr	x11, [x0, #64]
	mov	w10, #5
	strb	w10, [x1]
	mov	x8, x0
	sturh	w9, [x1, #1]
	strb	w11, [x1, #3]
	ldp	x9, x10, [x0, #80]
	ldr	x11, [x0, #72]
	ldp	x12, x13, [x0, #96]
	ldr	x16, [x0, #128]
	ldp	x14, x15, [x0, #112]
	eor	x10, x10, x9
	eor	x11, x16, x11
	stur	x16, [x1, #52]
	eor	x13, x13, x12
	stur	x10, [x1, #4]
	eor	x10, x15, x14
	stur	x13, [x1, #12]
	stur	x10, [x1, #20]
	add	x10, x1, #68
	stur	x11, [x1, #28]
	stur	x12, [x1, #36]
	stur	x14, [x1, #44]
	stur	x9, [x1, #60]
	ldr	x9, [x0, #64]
	lsr	x11, x9, #3
	cmp	x9, #8
	add	x0, x9, #68
	b.lo	.LBB5_5
	mov	x12, x11
	mov	x13, x10
	mov	x14, x8
.LBB5_4:
	ldr	x15, [x14], #8
	subs	x12, x12, #1
	str	x15, [x13], #8
	b.ne	.LBB5_4
.LBB5_5:
	ands	x12, x9, #0x7
	b.eq	.LBB5_9
	ldr	x8, [x8, x11, lsl #3]
	and	x9, x9, #0xfffffffffffffff8
	subs	x11, x12, #4
	add	x9, x10, x9
	str	x8, [sp, #8]
	b.hs	.LBB5_10
	cmp	x12, #1
	b.ne	.LBB5_11
	strb	w8, [x9]
.LBB5_9:
	add	sp, sp, #16
	.cfi_def_cfa_offset 0
	ret
.LBB5_10:
	.cfi_restore_state
	.cfi_remember_state
	add	x10, sp, #8
	str	w8, [x9]
	ldr	w8, [x10, x11]
	str	w8, [x9, x11]
	add	sp, sp, #16
	.cfi_def_cfa_offset 0
	ret
.LBB5_11:
	.cfi_restore_state
	sub	x10, x12, #2
	add	x11, sp, #8
	strh	w8, [x9]
	ldrh	w8, [x11, x10]
	strh	w8, [x9, x10]
	add	sp, sp, #16
	.cfi_def_cfa_offset 0
	ret
.Lfunc_end5:
	.size	komihash_v5_save, .Lfunc_end5-komihash_v5_save
	.cfi_endproc

	.section	.text.komihash_v5_resume,"ax",@progbits
	.globl	komihash_v5_resume
	.p2align	6
	.type	komihash_v5_resume,@function
komihash_v5_resume:
	.cfi_startproc
	hint	#34
	subs	x9, x2, #68
	b.lo	.LBB6_4
	ldrb	w8, [x1]
	cmp	w8, #5
	b.ne	.LBB6_4
	ldrb	w10, [x1, #1]
	cmp	w10, #1
	b.hi	.LBB6_4
	ldrb	w8, [x1, #2]
	cbz	w8, .LBB6_5
.LBB6_4:
	mov	w0, wzr
	ret
.LBB6_5:
	ldrb	w11, [x1, #3]
	cmp	w11, #63
	b.hi	.LBB6_17
	add	x11, x11, #68
	cmp	x11, x2
	b.ne	.LBB6_17
	sub	sp, sp, #80
	.cfi_def_cfa_offset 80
	.cfi_remember_state
	movi	v0.2d, #0000000000000000
	cmp	w10, #1
	add	x12, x1, #68
	cset	w8, eq
	cmp	x9, #7
	str	x9, [sp, #64]
	stp	q0, q0, [sp]
	stp	q0, q0, [sp, #32]
	b.hi	.LBB6_10
	cmp	x9, #4
	b.lo	.LBB6_18
	add	x10, x12, x2
	lsl	x9, x9, #3
	ldr	w11, [x12]
	ldur	w10, [x10, #-72]
	neg	x9, x9
	lsr	x9, x10, x9
	orr	x9, x11, x9, lsl #32
	str	x9, [sp]
	b	.LBB6_16
.LBB6_10:
	ldr	x14, [x12]
	sub	x13, x2, #76
	mov	x10, sp
	cmp	x13, #16
	add	x11, x10, #8
	str	x14, [sp]
	b.lo	.LBB6_13
	lsr	x12, x13, #3
	cmp	x13, #32
	lsl	x14, x12, #3
	mov	x12, x1
	ldr	x16, [x12, #76]!
	sub	x15, x14, #16
	add	x17, x12, x15
	add	x15, x11, x15
	ldp	x3, x17, [x17]
	stp	x3, x17, [x15]
	ldr	x3, [x12, #8]
	stp	x16, x3, [sp, #8]
	b.lo	.LBB6_15
	sub	x13, x14, #32
	ldur	x15, [x1, #92]
	add	x12, x12, x13
	add	x11, x11, x13
	ldp	x14, x13, [x12]
	ldur	x12, [x1, #100]
	stp	x14, x13, [x11]
	add	x11, x10, #32
	str	x15, [sp, #24]
	b	.LBB6_14
.LBB6_13:
	cmp	x13, #8
	mov	w10, #8
	csel	x10, x13, x10, lo
	ldr	x12, [x12, x10]
.LBB6_14:
	str	x12, [x11]
.LBB6_15:
	mov	w10, #-1
	add	x11, x1, x2
	eor	w10, w10, w9, lsl #3
	ldur	x11, [x11, #-8]
	and	x9, x9, #0xfffffffffffffff8
	and	x10, x10, #0x38
	lsr	x10, x11, x10
	mov	x11, sp
	lsr	x10, x10, #8
	str	x10, [x11, x9]
.LBB6_16:
	ldp	q0, q1, [sp, #32]
	ldr	x9, [sp, #64]
	str	x9, [x0, #64]
	stp	q0, q1, [x0, #32]
	ldp	q1, q0, [sp]
	stp	q1, q0, [x0]
	ldur	x9, [x1, #28]
	ldur	x10, [x1, #52]
	ldur	x11, [x1, #4]
	ldur	x14, [x1, #60]
	ldur	x12, [x1, #12]
	ldur	x15, [x1, #36]
	eor	x9, x10, x9
	ldur	x13, [x1, #20]
	ldur	x16, [x1, #44]
	stp	x9, x14, [x0, #72]
	eor	x9, x14, x11
	stp	x9, x15, [x0, #88]
	eor	x9, x15, x12
	stp	x9, x16, [x0, #104]
	eor	x9, x16, x13
	strb	w8, [x0, #136]
	mov	w8, #1
	stp	x9, x10, [x0, #120]
	strb	wzr, [x0, #137]
	add	sp, sp, #80
	.cfi_def_cfa_offset 0
.LBB6_17:
	mov	w0, w8
	ret
.LBB6_18:
	.cfi_restore_state
	cbz	x9, .LBB6_20
	lsr	x10, x9, #1
	add	x11, x1, x2
	cmp	x9, #1
	ldurb	w11, [x11, #-1]
	ldrb	w10, [x12, x10]
	lsl	x11, x11, #16
	lsl	x10, x10, #8
	csel	x10, xzr, x10, eq
	cmp	x9, #3
	ldrb	w9, [x1, #68]
	csel	x11, x11, xzr, eq
	orr	x9, x9, x11
	orr	x9, x10, x9
.LBB6_20:
	str	x9, [sp]
	b	.LBB6_16
.Lfunc_end6:
	.size	komihash_v5_resume, .Lfunc_end6-komihash_v5_resume
	.cfi_endproc

	.section	.text.komihash_v5_rand_init,"ax",@progbits
	.globl	komihash_v5_rand_init
	.p2align	6
	.type	komihash_v5_rand_init,@function
komihash_v5_rand_init:
	.cfi_startproc
	hint	#34
	mul	x8, x0, x0
	mov	x10, #-6148914691236517206
	mov	x11, #6148914691236517205
	add	x12, x0, x10
	umulh	x9, x0, x0
	eor	x8, x9, x8
	add	x9, x12, x9
	add	x8, x8, x11
	mul	x12, x8, x9
	umulh	x8, x8, x9
	add	x9, x9, x10
	eor	x12, x8, x12
	add	x8, x9, x8
	add	x9, x12, x11
	mul	x12, x9, x8
	umulh	x9, x9, x8
	add	x8, x8, x10
	eor	x12, x9, x12
	add	x8, x8, x9
	add	x9, x12, x11
	mul	x12, x9, x8
	umulh	x9, x9, x8
	add	x8, x8, x10
	eor	x10, x9, x12
	add	x1, x8, x9
	add	x0, x10, x11
	ret
.Lfunc_end7:
	.size	komihash_v5_rand_init, .Lfunc_end7-komihash_v5_rand_init
	.cfi_endproc

	.section	.text.komihash_v5_rand_init_with_extra_seed,"ax",@progbits
	.globl	komihash_v5_rand_init_with_extra_seed
	.p2align	6
	.type	komihash_v5_rand_init_with_extra_seed,@function
komihash_v5_rand_init_with_extra_seed:
	.cfi_startproc
	hint	#34
	mul	x8, x1, x0
	mov	x10, #-6148914691236517206
	mov	x11, #6148914691236517205
	add	x12, x1, x10
	umulh	x9, x1, x0
	eor	x8, x9, x8
	add	x9, x12, x9
	add	x8, x8, x11
	mul	x12, x8, x9
	umulh	x8, x8, x9
	add	x9, x9, x10
	eor	x12, x8, x12
	add	x8, x9, x8
	add	x9, x12, x11
	mul	x12, x9, x8
	umulh	x9, x9, x8
	add	x8, x8, x10
	eor	x12, x9, x12
	add	x8, x8, x9
	add	x9, x12, x11
	mul	x12, x9, x8
	umulh	x9, x9, x8
	add	x8, x8, x10
	eor	x10, x9, x12
	add	x1, x8, x9
	add	x0, x10, x11
	ret
.Lfunc_end8:
	.size	komihash_v5_rand_init_with_extra_seed, .Lfunc_end8-komihash_v5_rand_init_with_extra_seed
	.cfi_endproc

	.section	.text.komihash_v5_rand_init_words,"ax",@progbits
	.globl	komihash_v5_rand_init_words
	.p2align	6
	.type	komihash_v5_rand_init_words,@function
komihash_v5_rand_init_words:
	.cfi_startproc
	hint	#34
	ret
.Lfunc_end9:
	.size	komihash_v5_rand_init_words, .Lfunc_end9-komihash_v5_rand_init_words
	.cfi_endproc

	.section	.text.komihash_v5_rand_next,"ax",@progbits
	.globl	komihash_v5_rand_next
	.p2align	6
	.type	komihash_v5_rand_next,@function
komihash_v5_rand_next:
	.cfi_startproc
	hint	#34
	ldp	x10, x11, [x0]
	mov	x9, #-6148914691236517206
	mov	x13, #6148914691236517205
	mov	x8, x0
	mul	x12, x11, x10
	add	x9, x11, x9
	umulh	x10, x11, x10
	eor	x12, x10, x12
	add	x9, x9, x10
	add	x0, x12, x13
	stp	x0, x9, [x8]
	ret
.Lfunc_end10:
	.size	komihash_v5_rand_next, .Lfunc_end10-komihash_v5_rand_next
	.cfi_endproc

	.section	.text.komihash_v5_rand_fill,"ax",@progbits
	.globl	komihash_v5_rand_fill
	.p2align	6
	.type	komihash_v5_rand_fill,@function
komihash_v5_rand_fill:
	.cfi_startproc
	hint	#34
	sub	sp, sp, #16
	.cfi_def_cfa_offset 16
	.cfi_remember_state
	ldp	x8, x9, [x0]
	cmp	x2, #8
	b.lo	.LBB11_3
	lsr	x10, x2, #3
	mov	x11, #-6148914691236517206
	mov	x12, #6148914691236517205
	mov	x13, x1
.LBB11_2:
	mul	x14, x9, x8
	subs	x10, x10, #1
	umulh	x15, x9, x8
	add	x9, x9, x11
	eor	x8, x15, x14
	add	x9, x9, x15
	add	x8, x8, x12
	str	x8, [x13], #8
	b.ne	.LBB11_2
.LBB11_3:
	ands	x10, x2, #0x7
	b.eq	.LBB11_8
	mul	x11, x8, x9
	subs	x12, x10, #4
	umulh	x13, x8, x9
	mov	x8, #-6148914691236517206
	add	x9, x9, x8
	eor	x8, x13, x11
	mov	x11, #6148914691236517205
	add	x9, x9, x13
	add	x8, x8, x11
	and	x11, x2, #0xfffffffffffffff8
	add	x11, x1, x11
	str	x8, [sp, #8]
	b.hs	.LBB11_7
	cmp	x10, #1
	b.ne	.LBB11_9
	strb	w8, [x11]
	b	.LBB11_8
.LBB11_7:
	add	x10, sp, #8
	str	w8, [x11]
	ldr	w10, [x10, x12]
	str	w10, [x11, x12]
.LBB11_8:
	stp	x8, x9, [x0]
	add	sp, sp, #16
	.cfi_def_cfa_offset 0
	ret
.LBB11_9:
	.cfi_restore_state
	sub	x10, x10, #2
	add	x12, sp, #8
	strh	w8, [x11]
	ldrh	w12, [x12, x10]
	strh	w12, [x11, x10]
	b	.LBB11_8
.Lfunc_end11:
	.size	komihash_v5_rand_fill, .Lfunc_end11-komihash_v5_rand_fill
	.cfi_endproc

	.section	.text.komihash_v5_pad,"ax",@progbits
	.globl	komihash_v5_pad
	.p2align	6
	.type	komihash_v5_pad,@function
komihash_v5_pad:
	.cfi_startproc
	hint	#34
	lsr	x8, x1, #3
	cmp	x8, x3
	b.lo	.LBB12_2
	mov	x0, xzr
	ret
.LBB12_2:
	cmp	x1, #7
	b.hi	.LBB12_7
	cbz	x1, .LBB12_6
	cmp	x1, #4
	b.lo	.LBB12_11
	add	x9, x0, x1
	lsl	x10, x1, #3
	ldr	w11, [x0]
	ldur	w9, [x9, #-4]
	neg	x10, x10
	orr	x9, x9, #0x100000000
	lsr	x9, x9, x10
	orr	x9, x11, x9, lsl #32
	b	.LBB12_10
.LBB12_6:
	mov	x9, xzr
	b	.LBB12_10
.LBB12_7:
	ubfiz	x11, x1, #3, #3
	add	x9, x0, x1
	mov	w10, #1
	ldur	x9, [x9, #-8]
	mov	x12, x8
	mov	x13, x2
	lsl	x10, x10, x11
	eor	x11, x11, #0x3f
.LBB12_8:
	ldr	x14, [x0], #8
	subs	x12, x12, #1
	str	x14, [x13], #8
	b.ne	.LBB12_8
	lsr	x9, x9, #1
	lsr	x9, x9, x11
	orr	x9, x9, x10
.LBB12_10:
	add	x0, x8, #1
	str	x9, [x2, x8, lsl #3]
	ret
.LBB12_11:
	lsr	x9, x1, #1
	add	x10, x0, x1
	lsl	x11, x1, #3
	ldurb	w10, [x10, #-1]
	mov	w12, #1
	cmp	x1, #1
	ldrb	w9, [x0, x9]
	lsl	x11, x12, x11
	ldrb	w12, [x0]
	lsl	x10, x10, #16
	lsl	x9, x9, #8
	orr	x11, x11, x12
	csel	x9, xzr, x9, eq
	cmp	x1, #3
	csel	x10, x10, xzr, eq
	orr	x10, x11, x10
	orr	x9, x10, x9
	b	.LBB12_10
.Lfunc_end12:
	.size	komihash_v5_pad, .Lfunc_end12-komihash_v5_pad
	.cfi_endproc

	.section	.text.komihash_v5_unpad,"ax",@progbits
	.globl	komihash_v5_unpad
	.p2align	6
	.type	komihash_v5_unpad,@function
komihash_v5_unpad:
	.cfi_startproc
	hint	#34
	sub	x9, x1, #1
	cmp	x9, x3, lsr #3
	b.hs	.LBB13_4
	ldr	x10, [x0, x9, lsl #3]
	mov	x8, x0
	cbz	x10, .LBB13_6
	clz	x11, x10
	lsr	x11, x11, #3
	eor	x11, x11, #0x7
	orr	x0, x11, x9, lsl #3
	cbz	x0, .LBB13_4
	lsl	x9, x11, #3
	lsr	x9, x10, x9
	cmp	x9, #1
	b.eq	.LBB13_7
.LBB13_4:
	mov	x0, #-1
.LBB13_5:
	ret
.LBB13_6:
	cmp	x1, #1
	csetm	x0, ne
.LBB13_7:
	cmn	x0, #1
	b.eq	.LBB13_5
	sub	sp, sp, #16
	.cfi_def_cfa_offset 16
	.cfi_remember_state
	lsr	x9, x0, #3
	cmp	x0, #8
	b.lo	.LBB13_11
	mov	x10, x9
	mov	x11, x2
	mov	x12, x8
.LBB13_10:
	ldr	x13, [x12], #8
	subs	x10, x10, #1
	str	x13, [x11], #8
	b.ne	.LBB13_10
.LBB13_11:
	ands	x10, x0, #0x7
	b.eq	.LBB13_15
	ldr	x8, [x8, x9, lsl #3]
	and	x9, x0, #0xfffffffffffffff8
	subs	x11, x10, #4
	add	x9, x2, x9
	str	x8, [sp, #8]
	b.hs	.LBB13_16
	cmp	x10, #1
	b.ne	.LBB13_17
	strb	w8, [x9]
.LBB13_15:
	add	sp, sp, #16
	.cfi_def_cfa_offset 0
	ret
.LBB13_16:
	.cfi_restore_state
	.cfi_remember_state
	add	x10, sp, #8
	str	w8, [x9]
	ldr	w8, [x10, x11]
	str	w8, [x9, x11]
	add	sp, sp, #16
	.cfi_def_cfa_offset 0
	ret
.LBB13_17:
	.cfi_restore_state
	sub	x10, x10, #2
	add	x11, sp, #8
	strh	w8, [x9]
	ldrh	w8, [x11, x10]
	strh	w8, [x9, x10]
	add	sp, sp, #16
	.cfi_def_cfa_offset 0
	ret
.Lfunc_end13:
	.size	komihash_v5_unpad, .Lfunc_end13-komihash_v5_unpad
	.cfi_endproc

	.section	.text.komihash_v4,"ax",@progbits
	.globl	komihash_v4
	.p2align	6
	.type	komihash_v4,@function
komihash_v4:
	.cfi_startproc
	hint	#34
	cmp	x1, #8
	b.hs	.LBB14_3
	cbz	x1, .LBB14_12
	b	komi_hash_of_partial_word_v4
.LBB14_3:
	cmp	x1, #64
	b.lo	.LBB14_7
	cmp	x1, #128
	b.hs	.LBB14_6
	b	komi_hash_of_one_block_v4
.LBB14_6:
	b	komi_hash_of_blocks_v4
.LBB14_7:
	cmp	x1, #15
	b.hi	.LBB14_9
	b	komi_hash_of_one_word_v4
.LBB14_9:
	cmp	x1, #16
	b.eq	.LBB14_11
	b	komi_hash_of_words_v4
.LBB14_11:
	mov	x1, x2
	b	komi_hash_of_16_bytes_v4
.LBB14_12:
	mov	x9, #2259
	mov	x11, #4983
	and	x8, x2, #0x5555555555555555
	movk	x9, #34211, lsl #16
	movk	x11, #14544, lsl #16
	and	x10, x2, #0xaaaaaaaaaaaaaaaa
	movk	x9, #27272, lsl #32
	movk	x11, #8678, lsl #32
	movk	x9, #9279, lsl #48
	movk	x11, #17704, lsl #48
	eor	x8, x8, x9
	eor	x9, x10, x11
	umulh	x10, x8, x9
	mul	x8, x8, x9
	add	x9, x9, x10
	eor	x8, x9, x8
	umulh	x10, x8, x9
	mul	x8, x8, x9
	add	x9, x9, x10
	eor	x8, x9, x8
	umulh	x10, x8, x9
	mul	x8, x8, x9
	add	x9, x9, x10
	eor	x0, x9, x8
	ret
.Lfunc_end14:
	.size	komihash_v4, .Lfunc_end14-komihash_v4
	.cfi_endproc

	.section	.text.komihash_v4_start,"ax",@progbits
	.globl	komihash_v4_start
	.p2align	6
	.type	komihash_v4_start,@function
komihash_v4_start:
	.cfi_startproc
	hint	#34
	mov	x9, #2259
	mov	x12, #4983
	and	x10, x0, #0x5555555555555555
	movk	x9, #34211, lsl #16
	movk	x12, #14544, lsl #16
	and	x11, x0, #0xaaaaaaaaaaaaaaaa
	movk	x9, #27272, lsl #32
	movk	x12, #8678, lsl #32
	mov	x13, #29508
	movk	x9, #9279, lsl #48
	movk	x12, #17704, lsl #48
	movk	x13, #880, lsl #16
	eor	x9, x10, x9
	eor	x10, x11, x12
	mov	x12, #15444
	mul	x11, x9, x10
	movk	x12, #9522, lsl #16
	movk	x13, #35374, lsl #32
	movk	x12, #54063, lsl #32
	movk	x13, #4889, lsl #48
	movi	v0.2d, #0000000000000000
	umulh	x9, x9, x10
	movk	x12, #51330, lsl #48
	strh	wzr, [x8, #136]
	eor	x12, x11, x12
	stp	q0, q0, [x8]
	stp	xzr, x12, [x8, #64]
	eor	x12, x11, x13
	add	x9, x10, x9
	mov	x10, #2327
	stp	q0, q0, [x8, #32]
	movk	x10, #46407, lsl #16
	stp	x9, x12, [x8, #96]
	mov	x12, #3180
	movk	x10, #54709, lsl #32
	movk	x12, #13545, lsl #16
	movk	x10, #16260, lsl #48
	movk	x12, #26319, lsl #32
	eor	x13, x9, x10
	eor	x10, x11, x10
	movk	x12, #48724, lsl #48
	stp	x13, x10, [x8, #80]
	mov	x13, #15804
	eor	x12, x9, x12
	movk	x13, #7542, lsl #16
	movk	x13, #24301, lsl #32
	movk	x13, #6749, lsl #48
	eor	x10, x11, x13
	mov	x11, #20701
	movk	x11, #51580, lsl #16
	stp	x12, x10, [x8, #112]
	movk	x11, #10679, lsl #32
	movk	x11, #49324, lsl #48
	eor	x9, x9, x11
	str	x9, [x8, #128]
	ret
.Lfunc_end15:
	.size	komihash_v4_start, .Lfunc_end15-komihash_v4_start
	.cfi_endproc

	.section	.text.komihash_v4_init,"ax",@progbits
	.globl	komihash_v4_init
	.p2align	6
	.type	komihash_v4_init,@function
komihash_v4_init:
	.cfi_startproc
	hint	#34
	mov	x8, #2259
	mov	x11, #4983
	and	x9, x1, #0x5555555555555555
	movk	x8, #34211, lsl #16
	movk	x11, #14544, lsl #16
	and	x10, x1, #0xaaaaaaaaaaaaaaaa
	movk	x8, #27272, lsl #32
	movk	x11, #8678, lsl #32
	mov	x12, #29508
	movk	x8, #9279, lsl #48
	movk	x11, #17704, lsl #48
	movk	x12, #880, lsl #16
	eor	x8, x9, x8
	eor	x9, x10, x11
	mov	x11, #15444
	mul	x10, x8, x9
	movk	x11, #9522, lsl #16
	movk	x12, #35374, lsl #32
	movk	x11, #54063, lsl #32
	movk	x12, #4889, lsl #48
	movi	v0.2d, #0000000000000000
	umulh	x8, x8, x9
	movk	x11, #51330, lsl #48
	strh	wzr, [x0, #136]
	eor	x11, x10, x11
	stp	q0, q0, [x0]
	stp	xzr, x11, [x0, #64]
	eor	x11, x10, x12
	add	x8, x9, x8
	mov	x9, #2327
	stp	q0, q0, [x0, #32]
	movk	x9, #46407, lsl #16
	stp	x8, x11, [x0, #96]
	mov	x11, #3180
	movk	x9, #54709, lsl #32
	movk	x11, #13545, lsl #16
	movk	x9, #16260, lsl #48
	movk	x11, #26319, lsl #32
	eor	x12, x8, x9
	eor	x9, x10, x9
	movk	x11, #48724, lsl #48
	stp	x12, x9, [x0, #80]
	mov	x12, #15804
	eor	x11, x8, x11
	movk	x12, #7542, lsl #16
	movk	x12, #24301, lsl #32
	movk	x12, #6749, lsl #48
	eor	x9, x10, x12
	mov	x10, #20701
	movk	x10, #51580, lsl #16
	stp	x11, x9, [x0, #112]
	movk	x10, #10679, lsl #32
	movk	x10, #49324, lsl #48
	eor	x8, x8, x10
	str	x8, [x0, #128]
	ret
.Lfunc_end16:
	.size	komihash_v4_init, .Lfunc_end16-komihash_v4_init
	.cfi_endproc

	.section	.text.komihash_v4_write,"ax",@progbits
	.globl	komihash_v4_write
	.p2align	6
	.type	komihash_v4_write,@function
komihash_v4_write:
	.cfi_startproc
	hint	#34
	ldr	x9, [x0, #64]
	add	x8, x9, x2
	cmp	x8, #63
	b.ls	.LBB17_2
	b	komi_stream_complete_blocks_v4
.LBB17_2:
	cmp	x2, #7
	str	x8, [x0, #64]
	b.hi	.LBB17_9
	cmp	x2, #4
	b.hs	.LBB17_7
	cbz	x2, .LBB17_6
	lsr	x8, x2, #1
	add	x10, x1, x2
	cmp	x2, #1
	ldurb	w10, [x10, #-1]
	ldrb	w11, [x1]
	ldrb	w8, [x1, x8]
	lsl	x10, x10, #16
	lsl	x8, x8, #8
	csel	x8, xzr, x8, eq
	cmp	x2, #3
	csel	x10, x10, xzr, eq
	orr	x10, x11, x10
	orr	x8, x8, x10
	b	.LBB17_8
.LBB17_6:
	mov	x8, xzr
	b	.LBB17_8
.LBB17_7:
	add	x8, x1, x2
	lsl	x10, x2, #3
	ldr	w11, [x1]
	ldur	w8, [x8, #-4]
	neg	x10, x10
	lsr	x8, x8, x10
	orr	x8, x11, x8, lsl #32
.LBB17_8:
	lsl	x10, x9, #3
	and	x11, x9, #0x38
	add	w9, w9, #8
	ldr	x13, [x0, x11]
	and	x9, x9, #0x38
	and	x12, x10, #0x38
	neg	w10, w10
	lsl	x12, x8, x12
	and	x10, x10, #0x38
	lsr	x8, x8, x10
	orr	x13, x13, x12
	str	x13, [x0, x11]
	ldr	x10, [x0, x9]
	bic	x8, x8, x12
	orr	x8, x10, x8
	str	x8, [x0, x9]
	ret
.LBB17_9:
	ldr	x10, [x1]
	ubfiz	x11, x9, #3, #3
	ubfx	x12, x9, #3, #3
	and	x9, x9, #0x7
	mov	w13, #8
	sub	x9, x13, x9
	lsl	x10, x10, x11
	ldr	x13, [x0, x12, lsl #3]
	sub	x11, x2, x9
	orr	x10, x13, x10
	cmp	x11, #16
	str	x10, [x0, x12, lsl #3]
	add	x10, x12, #1
	b.lo	.LBB17_12
	lsr	x12, x11, #3
	add	x9, x1, x9
	add	x10, x0, x10, lsl #3
	cmp	x11, #32
	lsl	x12, x12, #3
	sub	x13, x12, #16
	add	x14, x9, x13
	add	x13, x10, x13
	ldp	x15, x14, [x14]
	stp	x15, x14, [x13]
	ldp	x13, x14, [x9]
	stp	x13, x14, [x10]
	b.lo	.LBB17_13
	sub	x11, x12, #32
	add	x12, x9, x11
	add	x11, x10, x11
	ldp	x13, x12, [x12]
	stp	x13, x12, [x11]
	ldp	x11, x9, [x9, #16]
	stp	x11, x9, [x10, #16]
	b	.LBB17_13
.LBB17_12:
	sub	x11, x2, #8
	and	x10, x10, #0x7
	cmp	x9, x11
	csel	x9, x9, x11, lo
	ldr	x9, [x1, x9]
	str	x9, [x0, x10, lsl #3]
.LBB17_13:
	mov	w9, #-1
	add	x10, x1, x2
	eor	w9, w9, w8, lsl #3
	ldur	x10, [x10, #-8]
	and	x8, x8, #0xfffffffffffffff8
	and	x9, x9, #0x38
	lsr	x9, x10, x9
	lsr	x9, x9, #8
	str	x9, [x0, x8]
	ret
.Lfunc_end17:
	.size	komihash_v4_write, .Lfunc_end17-komihash_v4_write
	.cfi_endproc

	.section	.text.komihash_v4_finish,"ax",@progbits
	.globl	komihash_v4_finish
	.p2align	6
	.type	komihash_v4_finish,@function
komihash_v4_finish:
	.cfi_startproc
	hint	#34
	ldrb	w10, [x0, #136]
	ldp	x9, x11, [x0, #80]
	ldr	x8, [x0, #96]
	cmp	w10, #1
	b.eq	.LBB18_2
	ldr	x10, [x0, #64]
	eor	x9, x8, x9
	eor	x9, x9, x11
	cbnz	x10, .LBB18_3
	b	.LBB18_10
.LBB18_2:
	ldp	x12, x14, [x0, #120]
	eor	x8, x9, x8
	ldp	x13, x15, [x0, #104]
	ldp	x10, x16, [x0, #64]
	eor	x12, x12, x13
	eor	x13, x14, x15
	eor	x11, x16, x11
	eor	x8, x13, x8
	eor	x9, x12, x11
	cbz	x10, .LBB18_9
.LBB18_3:
	lsr	x11, x10, #3
	cmp	x10, #16
	b.lo	.LBB18_7
	ldp	x12, x13, [x0]
	cmp	x10, #32
	eor	x12, x8, x12
	eor	x13, x13, x8
	eor	x9, x12, x9
	umulh	x12, x9, x13
	mul	x9, x9, x13
	add	x8, x8, x12
	b.lo	.LBB18_7
	ldp	x12, x13, [x0, #16]
	cmp	x10, #48
	eor	x9, x12, x9
	eor	x12, x13, x8
	eor	x9, x9, x8
	umulh	x13, x9, x12
	mul	x9, x9, x12
	add	x8, x8, x13
	b.lo	.LBB18_7
	ldp	x12, x13, [x0, #32]
	eor	x9, x12, x9
	eor	x12, x13, x8
	eor	x9, x9, x8
	umulh	x13, x9, x12
	mul	x9, x9, x12
	add	x8, x8, x13
.LBB18_7:
	sub	x12, x10, #1
	and	x11, x11, #0x6
	eor	x9, x9, x8
	and	x13, x12, #0x38
	ubfiz	x12, x12, #3, #3
	add	x11, x0, x11, lsl #3
	ldr	x13, [x0, x13]
	lsr	x12, x13, x12
	ubfiz	x13, x10, #3, #3
	tst	x12, #0x80
	mov	w12, #1
	cinc	x12, x12, ne
	tst	x10, #0x8
	lsl	x12, x12, x13
	ldp	x13, x11, [x11]
	csel	x10, x12, xzr, eq
	sub	x12, x12, x10
	orr	x10, x10, x13
	orr	x11, x12, x11
	eor	x9, x9, x10
	eor	x10, x11, x8
.LBB18_8:
	umulh	x11, x10, x9
	mul	x9, x10, x9
	add	x8, x8, x11
	eor	x9, x8, x9
	umulh	x10, x9, x8
	mul	x9, x9, x8
	add	x8, x8, x10
	eor	x0, x8, x9
	ret
.LBB18_9:
	ldrb	w10, [x0, #137]
	cmp	w10, #0
	mov	w10, #1
	cinc	x10, x10, ne
.LBB18_10:
	eor	x10, x10, x8
	eor	x9, x9, x10
	mov	x10, x8
	b	.LBB18_8
.Lfunc_end18:
	.size	komihash_v4_finish, .Lfunc_end18-komihash_v4_finish
	.cfi_endproc

	.section	.text.komihash_v4_save,"ax",@progbits
	.globl	komihash_v4_save
	.p2align	6
	.type	komihash_v4_save,@function
komihash_v4_save:
	.cfi_startproc
	hint	#34
	cmp	x2, #131
	b.hs	.LBB19_2
	mov	x0, xzr
	ret
.LBB19_2:
	sub	sp, sp, #16
	.cfi_def_cfa_offset 16
	.cfi_remember_state
	ldrh	w9, [x0, #136]
	ldr	x11, [x0, #64]
	mov	w10, #4
	strb	w10, [x1]
	mov	x8, x0
	sturh	w9, [x1, #1]
	strb	w11, [x1, #3]
	ldp	x9, x10, [x0, #80]
	ldr	x11, [x0, #72]
	ldp	x12, x13, [x0, #96]
	ldr	x16, [x0, #128]
	ldp	x14, x15, [x0, #112]
	eor	x10, x10, x9
	eor	x11, x16, x11
	stur	x16, [x1, #52]
	eor	x13, x13, x12
	stur	x10, [x1, #4]
	eor	x10, x15, x14
	stur	x13, [x1, #12]
	stur	x10, [x1, #20]
	add	x10, x1, #68
	stur	x11, [x1, #28]
	stur	x12, [x1, #36]
	stur	x14, [x1, #44]
	stur	x9, [x1, #60]
	ldr	x9, [x0, #64]
	lsr	x11, x9, #3
	cmp	x9, #8
	add	x0, x9, #68
	b.lo	.LBB19_5
	mov	x12, x11
	mov	x13, x10
	mov	x14, x8
.LBB19_4:
	ldr	x15, [x14], #8
	subs	x12, x12, #1
	str	x15, [x13], #8
	b.ne	.LBB19_4
.LBB19_5:
	ands	x12, x9, #0x7
	b.eq	.LBB19_9
	ldr	x8, [x8, x11, lsl #3]
	and	x9, x9, #0xfffffffffffffff8
	subs	x11, x12, #4
	add	x9, x10, x9
	str	x8, [sp, #8]
	b.hs	.LBB19_10
	cmp	x12, #1
	b.ne	.LBB19_11
	strb	w8, [x9]
.LBB19_9:
	add	sp, sp, #16
	.cfi_def_cfa_offset 0
	ret
.LBB19_10:
	.cfi_restore_state
	.cfi_remember_state
	add	x10, sp, #8
	str	w8, [x9]
	ldr	w8, [x10, x11]
	str	w8, [x9, x11]
	add	sp, sp, #16
	.cfi_def_cfa_offset 0
	ret
.LBB19_11:
	.cfi_restore_state
	sub	x10, x12, #2
	add	x11, sp, #8
	strh	w8, [x9]
	ldrh	w8, [x11, x10]
	strh	w8, [x9, x10]
	add	sp, sp, #16
	.cfi_def_cfa_offset 0
	ret
.Lfunc_end19:
	.size	komihash_v4_save, .Lfunc_end19-komihash_v4_save
	.cfi_endproc

	.section	.text.komihash_v4_resume,"ax",@progbits
	.globl	komihash_v4_resume
	.p2align	6
	.type	komihash_v4_resume,@function
komihash_v4_resume:
	.cfi_startproc
	hint	#34
	subs	x10, x2, #68
	b.lo	.LBB20_4
	ldrb	w8, [x1]
	cmp	w8, #4
	b.ne	.LBB20_4
	ldrb	w9, [x1, #1]
	cmp	w9, #1
	b.hi	.LBB20_4
	ldrb	w11, [x1, #2]
	cmp	w9, w11
	b.hs	.LBB20_5
.LBB20_4:
	mov	w0, wzr
	ret
.LBB20_5:
	ldrb	w12, [x1, #3]
	mov	w8, wzr
	cmp	w12, #63
	b.hi	.LBB20_17
	add	x12, x12, #68
	cmp	x12, x2
	b.ne	.LBB20_17
	sub	sp, sp, #80
	.cfi_def_cfa_offset 80
	.cfi_remember_state
	movi	v0.2d, #0000000000000000
	cmp	w9, #1
	add	x13, x1, #68
	cset	w8, eq
	cmp	w11, #1
	str	x10, [sp, #64]
	cset	w9, eq
	cmp	x10, #7
	stp	q0, q0, [sp]
	stp	q0, q0, [sp, #32]
	b.hi	.LBB20_10
	cmp	x10, #4
	b.lo	.LBB20_18
	add	x11, x13, x2
	lsl	x10, x10, #3
	ldr	w12, [x13]
	ldur	w11, [x11, #-72]
	neg	x10, x10
	lsr	x10, x11, x10
	orr	x10, x12, x10, lsl #32
	str	x10, [sp]
	b	.LBB20_16
.LBB20_10:
	ldr	x15, [x13]
	sub	x14, x2, #76
	mov	x11, sp
	cmp	x14, #16
	add	x12, x11, #8
	str	x15, [sp]
	b.lo	.LBB20_13
	lsr	x13, x14, #3
	cmp	x14, #32
	lsl	x15, x13, #3
	mov	x13, x1
	ldr	x17, [x13, #76]!
	sub	x16, x15, #16
	add	x3, x13, x16
	add	x16, x12, x16
	ldp	x4, x3, [x3]
	stp	x4, x3, [x16]
	ldr	x4, [x13, #8]
	stp	x17, x4, [sp, #8]
	b.lo	.LBB20_15
	sub	x14, x15, #32
	ldur	x16, [x1, #92]
	add	x13, x13, x14
	add	x12, x12, x14
	ldp	x15, x14, [x13]
	ldur	x13, [x1, #100]
	stp	x15, x14, [x12]
	add	x12, x11, #32
	str	x16, [sp, #24]
	b	.LBB20_14
.LBB20_13:
	cmp	x14, #8
	mov	w11, #8
	csel	x11, x14, x11, lo
	ldr	x13, [x13, x11]
.LBB20_14:
	str	x13, [x12]
.LBB20_15:
	mov	w11, #-1
	add	x12, x1, x2
	eor	w11, w11, w10, lsl #3
	ldur	x12, [x12, #-8]
	and	x10, x10, #0xfffffffffffffff8
	and	x11, x11, #0x38
	lsr	x11, x12, x11
	mov	x12, sp
	lsr	x11, x11, #8
	str	x11, [x12, x10]
.LBB20_16:
	ldp	q0, q1, [sp, #32]
	ldr	x10, [sp, #64]
	str	x10, [x0, #64]
	stp	q0, q1, [x0, #32]
	ldp	q1, q0, [sp]
	stp	q1, q0, [x0]
	ldur	x10, [x1, #28]
	ldur	x11, [x1, #52]
	ldur	x12, [x1, #4]
	ldur	x15, [x1, #60]
	ldur	x13, [x1, #12]
	ldur	x16, [x1, #36]
	eor	x10, x11, x10
	ldur	x14, [x1, #20]
	ldur	x17, [x1, #44]
	stp	x10, x15, [x0, #72]
	eor	x10, x15, x12
	stp	x10, x16, [x0, #88]
	eor	x10, x16, x13
	stp	x10, x17, [x0, #104]
	eor	x10, x17, x14
	strb	w8, [x0, #136]
	mov	w8, #1
	stp	x10, x11, [x0, #120]
	strb	w9, [x0, #137]
	add	sp, sp, #80
	.cfi_def_cfa_offset 0
.LBB20_17:
	mov	w0, w8
	ret
.LBB20_18:
	.cfi_restore_state
	cbz	x10, .LBB20_20
	lsr	x11, x10, #1
	add	x12, x1, x2
	cmp	x10, #1
	ldurb	w12, [x12, #-1]
	ldrb	w11, [x13, x11]
	lsl	x12, x12, #16
	lsl	x11, x11, #8
	csel	x11, xzr, x11, eq
	cmp	x10, #3
	ldrb	w10, [x1, #68]
	csel	x12, x12, xzr, eq
	orr	x10, x10, x12
	orr	x10, x11, x10
.LBB20_20:
	str	x10, [sp]
	b	.LBB20_16
.Lfunc_end20:
	.size	komihash_v4_resume, .Lfunc_end20-komihash_v4_resume
	.cfi_endproc

	.section	.text.komihash_v4_rand_init,"ax",@progbits
	.globl	komihash_v4_rand_init
	.p2align	6
	.type	komihash_v4_rand_init,@function
komihash_v4_rand_init:
	.cfi_startproc
	hint	#34
	umulh	x8, x0, x0
	mov	x10, #-6148914691236517206
	add	x11, x0, x10
	mul	x9, x0, x0
	add	x8, x11, x8
	eor	x9, x8, x9
	umulh	x11, x9, x8
	mul	x9, x9, x8
	add	x8, x8, x10
	add	x8, x8, x11
	eor	x9, x8, x9
	umulh	x11, x9, x8
	mul	x9, x9, x8
	add	x8, x8, x10
	add	x8, x8, x11
	eor	x9, x8, x9
	umulh	x11, x9, x8
	mul	x9, x9, x8
	add	x8, x8, x10
	add	x1, x8, x11
	eor	x0, x1, x9
	ret
.Lfunc_end21:
	.size	komihash_v4_rand_init, .Lfunc_end21-komihash_v4_rand_init
	.cfi_endproc

	.section	.text.komihash_v4_rand_init_with_extra_seed,"ax",@progbits
	.globl	komihash_v4_rand_init_with_extra_seed
	.p2align	6
	.type	komihash_v4_rand_init_with_extra_seed,@function
komihash_v4_rand_init_with_extra_seed:
	.cfi_startproc
	hint	#34
	umulh	x8, x1, x0
	mov	x10, #-6148914691236517206
	add	x11, x1, x10
	mul	x9, x1, x0
	add	x8, x11, x8
	eor	x9, x8, x9
	umulh	x11, x9, x8
	mul	x9, x9, x8
	add	x8, x8, x10
	add	x8, x8, x11
	eor	x9, x8, x9
	umulh	x11, x9, x8
	mul	x9, x9, x8
	add	x8, x8, x10
	add	x8, x8, x11
	eor	x9, x8, x9
	umulh	x11, x9, x8
	mul	x9, x9, x8
	add	x8, x8, x10
	add	x1, x8, x11
	eor	x0, x1, x9
	ret
.Lfunc_end22:
	.size	komihash_v4_rand_init_with_extra_seed, .Lfunc_end22-komihash_v4_rand_init_with_extra_seed
	.cfi_endproc

	.section	.text.komihash_v4_rand_init_words,"ax",@progbits
	.globl	komihash_v4_rand_init_words
	.p2align	6
	.type	komihash_v4_rand_init_words,@function
komihash_v4_rand_init_words:
	.cfi_startproc
	hint	#34
	ret
.Lfunc_end23:
	.size	komihash_v4_rand_init_words, .Lfunc_end23-komihash_v4_rand_init_words
	.cfi_endproc

	.section	.text.komihash_v4_rand_next,"ax",@progbits
	.globl	komihash_v4_rand_next
	.p2align	6
	.type	komihash_v4_rand_next,@function
komihash_v4_rand_next:
	.cfi_startproc
	hint	#34
	ldp	x10, x11, [x0]
	mov	x9, #-6148914691236517206
	mov	x8, x0
	umulh	x12, x11, x10
	add	x9, x11, x9
	mul	x10, x11, x10
	add	x9, x9, x12
	eor	x0, x9, x10
	stp	x0, x9, [x8]
	ret
.Lfunc_end24:
	.size	komihash_v4_rand_next, .Lfunc_end24-komihash_v4_rand_next
	.cfi_endproc

	.section	.text.komihash_v4_rand_fill,"ax",@progbits
	.globl	komihash_v4_rand_fill
	.p2align	6
	.type	komihash_v4_rand_fill,@function
komihash_v4_rand_fill:
	.cfi_startproc
	hint	#34
	sub	sp, sp, #16
	.cfi_def_cfa_offset 16
	.cfi_remember_state
	ldp	x9, x8, [x0]
	cmp	x2, #8
	b.lo	.LBB25_3
	lsr	x10, x2, #3
	mov	x11, #-6148914691236517206
	mov	x12, x1
.LBB25_2:
	umulh	x13, x8, x9
	subs	x10, x10, #1
	mul	x9, x8, x9
	add	x8, x8, x11
	add	x8, x8, x13
	eor	x9, x8, x9
	str	x9, [x12], #8
	b.ne	.LBB25_2
.LBB25_3:
	ands	x10, x2, #0x7
	b.eq	.LBB25_8
	umulh	x11, x9, x8
	mov	x12, #-6148914691236517206
	mul	x9, x9, x8
	add	x8, x8, x12
	subs	x12, x10, #4
	add	x8, x8, x11
	and	x11, x2, #0xfffffffffffffff8
	add	x11, x1, x11
	eor	x9, x8, x9
	str	x9, [sp, #8]
	b.hs	.LBB25_7
	cmp	x10, #1
	b.ne	.LBB25_9
	strb	w9, [x11]
	b	.LBB25_8
.LBB25_7:
	add	x10, sp, #8
	str	w9, [x11]
	ldr	w10, [x10, x12]
	str	w10, [x11, x12]
.LBB25_8:
	stp	x9, x8, [x0]
	add	sp, sp, #16
	.cfi_def_cfa_offset 0
	ret
.LBB25_9:
	.cfi_restore_state
	sub	x10, x10, #2
	add	x12, sp, #8
	strh	w9, [x11]
	ldrh	w12, [x12, x10]
	strh	w12, [x11, x10]
	b	.LBB25_8
.Lfunc_end25:
	.size	komihash_v4_rand_fill, .Lfunc_end25-komihash_v4_rand_fill
	.cfi_endproc

	.section	.text.komihash_v4_pad,"ax",@progbits
	.globl	komihash_v4_pad
	.p2align	6
	.type	komihash_v4_pad,@function
komihash_v4_pad:
	.cfi_startproc
	hint	#34
	lsr	x8, x1, #3
	cmp	x8, x3
	b.lo	.LBB26_2
	mov	x0, xzr
	ret
.LBB26_2:
	cmp	x1, #7
	b.hi	.LBB26_7
	cbz	x1, .LBB26_6
	add	x11, x0, x1
	ldurb	w10, [x11, #-1]
	sxtb	w9, w10
	cmp	w9, #0
	mov	w9, #1
	cinc	x9, x9, lt
	cmp	x1, #4
	b.lo	.LBB26_11
	ldur	w10, [x11, #-4]
	lsl	x11, x1, #3
	orr	x9, x10, x9, lsl #32
	neg	x10, x11
	ldr	w11, [x0]
	lsr	x9, x9, x10
	orr	x9, x11, x9, lsl #32
	b	.LBB26_10
.LBB26_6:
	mov	x9, xzr
	b	.LBB26_10
.LBB26_7:
	add	x9, x0, x1
	ubfiz	x11, x1, #3, #3
	mov	x12, x8
	ldursb	w10, [x9, #-1]
	ldur	x9, [x9, #-8]
	mov	x13, x2
	cmp	w10, #0
	mov	w10, #1
	cinc	x10, x10, lt
	lsl	x10, x10, x11
	eor	x11, x11, #0x3f
.LBB26_8:
	ldr	x14, [x0], #8
	subs	x12, x12, #1
	str	x14, [x13], #8
	b.ne	.LBB26_8
	lsr	x9, x9, #1
	lsr	x9, x9, x11
	orr	x9, x9, x10
.LBB26_10:
	add	x0, x8, #1
	str	x9, [x2, x8, lsl #3]
	ret
.LBB26_11:
	lsr	x11, x1, #1
	lsl	x12, x1, #3
	cmp	x1, #1
	lsl	x10, x10, #16
	ldrb	w13, [x0]
	ldrb	w11, [x0, x11]
	lsl	x9, x9, x12
	lsl	x11, x11, #8
	orr	x9, x9, x13
	csel	x11, xzr, x11, eq
	cmp	x1, #3
	csel	x10, x10, xzr, eq
	orr	x10, x11, x10
	orr	x9, x10, x9
	b	.LBB26_10
.Lfunc_end26:
	.size	komihash_v4_pad, .Lfunc_end26-komihash_v4_pad
	.cfi_endproc

	.section	.text.komihash_v4_unpad,"ax",@progbits
	.globl	komihash_v4_unpad
	.p2align	6
	.type	komihash_v4_unpad,@function
komihash_v4_unpad:
	.cfi_startproc
	hint	#34
	sub	x10, x1, #1
	cmp	x10, x3, lsr #3
	b.hs	.LBB27_4
	ldr	x9, [x0, x10, lsl #3]
	mov	x8, x0
	cbz	x9, .LBB27_6
	clz	x11, x9
	lsr	x11, x11, #3
	eor	x11, x11, #0x7
	orr	x0, x11, x10, lsl #3
	cbz	x0, .LBB27_4
	sub	x10, x0, #1
	lsl	x11, x11, #3
	and	x12, x10, #0xfffffffffffffff8
	ubfiz	x10, x10, #3, #3
	ldr	x12, [x8, x12]
	lsr	x9, x9, x11
	lsr	x10, x12, x10
	tst	x10, #0x80
	mov	w10, #1
	cinc	x10, x10, ne
	cmp	x10, x9
	b.eq	.LBB27_7
.LBB27_4:
	mov	x0, #-1
.LBB27_5:
	ret
.LBB27_6:
	cmp	x1, #1
	csetm	x0, ne
.LBB27_7:
	cmn	x0, #1
	b.eq	.LBB27_5
	sub	sp, sp, #16
	.cfi_def_cfa_offset 16
	.cfi_remember_state
	lsr	x9, x0, #3
	cmp	x0, #8
	b.lo	.LBB27_11
	mov	x10, x9
	mov	x11, x2
	mov	x12, x8
.LBB27_10:
	ldr	x13, [x12], #8
	subs	x10, x10, #1
	str	x13, [x11], #8
	b.ne	.LBB27_10
.LBB27_11:
	ands	x10, x0, #0x7
	b.eq	.LBB27_15
	ldr	x8, [x8, x9, lsl #3]
	and	x9, x0, #0xfffffffffffffff8
	subs	x11, x10, #4
	add	x9, x2, x9
	str	x8, [sp, #8]
	b.hs	.LBB27_16
	cmp	x10, #1
	b.ne	.LBB27_17
	strb	w8, [x9]
.LBB27_15:
	add	sp, sp, #16
	.cfi_def_cfa_offset 0
	ret
.LBB27_16:
	.cfi_restore_state
	.cfi_remember_state
	add	x10, sp, #8
	str	w8, [x9]
	ldr	w8, [x10, x11]
	str	w8, [x9, x11]
	add	sp, sp, #16
	.cfi_def_cfa_offset 0
	ret
.LBB27_17:
	.cfi_restore_state
	sub	x10, x10, #2
	add	x11, sp, #8
	strh	w8, [x9]
	ldrh	w8, [x11, x10]
	strh	w8, [x9, x10]
	add	sp, sp, #16
	.cfi_def_cfa_offset 0
	ret
.Lfunc_end27:
	.size	komihash_v4_unpad, .Lfunc_end27-komihash_v4_unpad
	.cfi_endproc

	.section	.text.komi_hash_of_blocks_v4,"ax",@progbits
	.p2align	6
	.type	komi_hash_of_blocks_v4,@function
komi_hash_of_blocks_v4:
	.cfi_startproc
	hint	#34
	mov	x8, #2259
	mov	x11, #4983
	and	x9, x2, #0x5555555555555555
	movk	x8, #34211, lsl #16
	movk	x11, #14544, lsl #16
	and	x10, x2, #0xaaaaaaaaaaaaaaaa
	movk	x8, #27272, lsl #32
	movk	x11, #8678, lsl #32
	lsl	x12, x1, #3
	movk	x8, #9279, lsl #48
	movk	x11, #17704, lsl #48
	mov	w13, #1
	eor	x8, x9, x8
	eor	x10, x10, x11
	add	x9, x0, x1
	umulh	x11, x8, x10
	mov	x2, #2327
	mov	x16, #15804
	mov	x3, #20701
	movk	x2, #46407, lsl #16
	movk	x16, #7542, lsl #16
	mul	x17, x8, x10
	ldursb	w8, [x9, #-1]
	ldur	x9, [x9, #-8]
	movk	x3, #51580, lsl #16
	movk	x2, #54709, lsl #32
	movk	x16, #24301, lsl #32
	cmp	w8, #0
	lsr	x8, x9, #1
	mvn	w9, w12
	cinc	x13, x13, lt
	and	x12, x12, #0x38
	movk	x3, #10679, lsl #32
	lsr	x8, x8, x9
	lsl	x9, x13, x12
	add	x12, x10, x11
	mov	x10, #29508
	mov	x13, #15444
	movk	x2, #16260, lsl #48
	movk	x10, #880, lsl #16
	movk	x13, #9522, lsl #16
	movk	x16, #6749, lsl #48
	movk	x10, #35374, lsl #32
	movk	x13, #54063, lsl #32
	movk	x3, #49324, lsl #48
	movk	x10, #4889, lsl #48
	movk	x13, #51330, lsl #48
	eor	x11, x12, x2
	eor	x14, x17, x10
	mov	x10, #3180
	eor	x15, x17, x13
	movk	x10, #13545, lsl #16
	cmp	x1, #191
	eor	x16, x17, x16
	movk	x10, #26319, lsl #32
	movk	x10, #48724, lsl #48
	eor	x13, x12, x10
	eor	x10, x12, x3
	b.ls	.LBB28_5
	tbz	w1, #6, .LBB28_3
	ldp	x2, x3, [x0, #16]
	sub	x1, x1, #64
	ldp	x4, x5, [x0]
	eor	x14, x14, x2
	eor	x2, x3, x13
	eor	x3, x14, x12
	eor	x17, x4, x17
	mul	x14, x2, x3
	eor	x4, x17, x12
	umulh	x2, x2, x3
	eor	x3, x5, x12
	ldp	x5, x6, [x0, #32]
	mul	x17, x3, x4
	eor	x16, x16, x5
	eor	x5, x6, x10
	umulh	x3, x3, x4
	ldp	x6, x7, [x0, #48]
	eor	x4, x16, x13
	mul	x16, x5, x4
	add	x0, x0, #64
	add	x13, x13, x2
	eor	x15, x15, x6
	umulh	x4, x5, x4
	eor	x5, x7, x11
	eor	x15, x15, x10
	add	x12, x12, x3
	umulh	x6, x5, x15
	mul	x15, x5, x15
	add	x10, x10, x4
	add	x11, x11, x6
	b	.LBB28_4
.LBB28_3:
	eor	x17, x17, x2
.LBB28_4:
	ldp	x2, x3, [x0, #16]
	eor	x14, x14, x12
	ldp	x4, x5, [x0]
	eor	x17, x17, x11
	eor	x16, x16, x13
	eor	x15, x15, x10
	sub	x1, x1, #128
	eor	x14, x14, x2
	eor	x2, x3, x13
	cmp	x1, #127
	mul	x3, x2, x14
	eor	x17, x17, x4
	umulh	x14, x2, x14
	eor	x2, x5, x12
	ldp	x5, x6, [x0, #32]
	mul	x4, x2, x17
	umulh	x17, x2, x17
	eor	x2, x6, x10
	eor	x16, x16, x5
	ldp	x6, x7, [x0, #48]
	add	x13, x13, x14
	mul	x5, x2, x16
	umulh	x16, x2, x16
	eor	x15, x15, x6
	eor	x2, x7, x11
	ldp	x7, x14, [x0, #80]
	add	x12, x12, x17
	umulh	x6, x2, x15
	eor	x17, x7, x3
	ldp	x3, x7, [x0, #64]
	mul	x15, x2, x15
	eor	x17, x17, x12
	eor	x2, x14, x13
	add	x10, x10, x16
	add	x11, x11, x6
	eor	x3, x3, x4
	mul	x14, x2, x17
	umulh	x4, x2, x17
	eor	x2, x3, x11
	eor	x3, x7, x12
	ldp	x6, x7, [x0, #96]
	mul	x17, x2, x3
	eor	x16, x6, x5
	eor	x5, x7, x10
	umulh	x3, x2, x3
	ldp	x6, x7, [x0, #112]
	eor	x2, x16, x13
	mul	x16, x5, x2
	add	x13, x13, x4
	eor	x15, x6, x15
	umulh	x5, x5, x2
	eor	x2, x7, x11
	eor	x15, x15, x10
	add	x12, x12, x3
	umulh	x6, x2, x15
	mul	x15, x2, x15
	add	x2, x0, #128
	add	x10, x10, x5
	mov	x0, x2
	add	x11, x11, x6
	b.hi	.LBB28_4
	b	.LBB28_6
.LBB28_5:
	ldp	x2, x3, [x0, #16]
	sub	x1, x1, #128
	ldp	x4, x5, [x0]
	eor	x14, x14, x2
	eor	x2, x3, x13
	eor	x14, x14, x12
	eor	x17, x4, x17
	mul	x3, x2, x14
	eor	x17, x17, x12
	umulh	x14, x2, x14
	eor	x2, x5, x12
	ldp	x5, x6, [x0, #32]
	mul	x4, x2, x17
	umulh	x17, x2, x17
	eor	x2, x6, x10
	eor	x16, x16, x5
	ldp	x6, x7, [x0, #48]
	eor	x16, x16, x13
	mul	x5, x2, x16
	add	x13, x13, x14
	eor	x15, x15, x6
	umulh	x16, x2, x16
	eor	x2, x7, x11
	eor	x15, x15, x10
	ldp	x7, x14, [x0, #80]
	umulh	x6, x2, x15
	add	x12, x12, x17
	eor	x17, x7, x3
	ldp	x3, x7, [x0, #64]
	mul	x15, x2, x15
	eor	x17, x17, x12
	eor	x2, x14, x13
	add	x10, x10, x16
	add	x11, x11, x6
	eor	x3, x3, x4
	mul	x14, x2, x17
	umulh	x4, x2, x17
	eor	x2, x3, x11
	eor	x3, x7, x12
	ldp	x6, x7, [x0, #96]
	mul	x17, x2, x3
	eor	x16, x6, x5
	eor	x5, x7, x10
	umulh	x3, x2, x3
	ldp	x6, x7, [x0, #112]
	eor	x2, x16, x13
	mul	x16, x5, x2
	add	x13, x13, x4
	eor	x15, x6, x15
	umulh	x5, x5, x2
	eor	x2, x7, x11
	eor	x15, x15, x10
	add	x12, x12, x3
	umulh	x6, x2, x15
	mul	x15, x2, x15
	add	x2, x0, #128
	add	x10, x10, x5
	add	x11, x11, x6
.LBB28_6:
	eor	x14, x14, x16
	eor	x15, x17, x15
	eor	x10, x13, x10
	eor	x12, x12, x11
	cmp	x1, #7
	orr	x9, x9, x8
	eor	x11, x14, x15
	eor	x8, x10, x12
	b.ls	.LBB28_12
	and	x10, x1, #0xfffffffffffffff8
	cmp	x1, #16
	add	x10, x2, x10
	ldur	x10, [x10, #-8]
	b.lo	.LBB28_11
	ldp	x12, x13, [x2]
	cmp	x1, #32
	eor	x11, x12, x11
	eor	x12, x13, x8
	eor	x11, x8, x11
	umulh	x13, x11, x12
	mul	x11, x11, x12
	add	x8, x8, x13
	b.lo	.LBB28_11
	ldp	x12, x13, [x2, #16]
	cmp	x1, #48
	eor	x11, x12, x11
	eor	x12, x13, x8
	eor	x11, x11, x8
	umulh	x13, x11, x12
	mul	x11, x11, x12
	add	x8, x8, x13
	b.lo	.LBB28_11
	ldp	x12, x13, [x2, #32]
	eor	x11, x12, x11
	eor	x12, x13, x8
	eor	x11, x11, x8
	umulh	x13, x11, x12
	mul	x11, x11, x12
	add	x8, x8, x13
.LBB28_11:
	lsl	x12, x1, #60
	tst	x1, #0x8
	csel	x13, x9, x10, eq
	mov	x10, x8
	and	x12, x9, x12, asr #63
	eor	x8, x11, x13
	eor	x9, x8, x10
	eor	x8, x10, x12
	b	.LBB28_13
.LBB28_12:
	eor	x10, x11, x8
	eor	x9, x10, x9
	mov	x10, x8
.LBB28_13:
	umulh	x11, x8, x9
	mul	x8, x8, x9
	add	x9, x10, x11
	eor	x8, x9, x8
	umulh	x10, x8, x9
	mul	x8, x8, x9
	add	x9, x9, x10
	eor	x0, x9, x8
	ret
.Lfunc_end28:
	.size	komi_hash_of_blocks_v4, .Lfunc_end28-komi_hash_of_blocks_v4
	.cfi_endproc

	.section	.text.komi_hash_of_blocks_v5,"ax",@progbits
	.p2align	6
	.type	komi_hash_of_blocks_v5,@function
komi_hash_of_blocks_v5:
	.cfi_startproc
	hint	#34
	mov	x8, #2259
	mov	x11, #4983
	and	x9, x2, #0x5555555555555555
	movk	x8, #34211, lsl #16
	movk	x11, #14544, lsl #16
	and	x10, x2, #0xaaaaaaaaaaaaaaaa
	movk	x8, #27272, lsl #32
	movk	x11, #8678, lsl #32
	mov	w12, #1
	movk	x8, #9279, lsl #48
	movk	x11, #17704, lsl #48
	mov	x2, #2327
	eor	x8, x9, x8
	eor	x10, x10, x11
	add	x9, x0, x1
	umulh	x11, x8, x10
	mov	x13, #15444
	mov	x15, #29508
	mov	x3, #3180
	mov	x4, #15804
	movk	x2, #46407, lsl #16
	mul	x17, x8, x10
	ldur	x8, [x9, #-8]
	lsl	x9, x1, #3
	movk	x13, #9522, lsl #16
	movk	x15, #880, lsl #16
	movk	x3, #13545, lsl #16
	lsr	x14, x8, #1
	and	x8, x9, #0x38
	movk	x4, #7542, lsl #16
	lsl	x8, x12, x8
	add	x12, x10, x11
	mov	x10, #20701
	movk	x10, #51580, lsl #16
	movk	x2, #54709, lsl #32
	movk	x13, #54063, lsl #32
	movk	x15, #35374, lsl #32
	mvn	w16, w9
	movk	x3, #26319, lsl #32
	movk	x4, #24301, lsl #32
	movk	x10, #10679, lsl #32
	movk	x2, #16260, lsl #48
	movk	x13, #51330, lsl #48
	movk	x15, #4889, lsl #48
	movk	x3, #48724, lsl #48
	lsr	x9, x14, x16
	movk	x4, #6749, lsl #48
	movk	x10, #49324, lsl #48
	eor	x16, x17, x13
	eor	x14, x17, x15
	eor	x11, x12, x2
	cmp	x1, #191
	eor	x13, x12, x3
	eor	x15, x17, x4
	eor	x10, x12, x10
	b.ls	.LBB29_5
	tbz	w1, #6, .LBB29_3
	ldp	x4, x2, [x0]
	sub	x1, x1, #64
	ldp	x5, x3, [x0, #32]
	eor	x14, x14, x2
	eor	x17, x4, x17
	eor	x2, x3, x13
	eor	x3, x14, x12
	eor	x4, x17, x12
	mul	x14, x2, x3
	umulh	x2, x2, x3
	eor	x3, x5, x12
	ldp	x5, x7, [x0, #16]
	mul	x17, x3, x4
	umulh	x3, x3, x4
	ldp	x6, x4, [x0, #48]
	eor	x15, x15, x5
	eor	x16, x16, x7
	add	x0, x0, #64
	eor	x5, x15, x13
	eor	x16, x16, x10
	add	x13, x13, x2
	eor	x6, x6, x10
	eor	x4, x4, x11
	mul	x15, x6, x5
	add	x12, x12, x3
	umulh	x5, x6, x5
	umulh	x6, x4, x16
	mul	x16, x4, x16
	add	x10, x10, x5
	add	x11, x11, x6
	b	.LBB29_4
.LBB29_3:
	eor	x17, x17, x2
.LBB29_4:
	ldp	x4, x2, [x0]
	eor	x14, x14, x12
	ldp	x5, x3, [x0, #32]
	eor	x17, x17, x11
	ldp	x6, x7, [x0, #16]
	eor	x15, x15, x13
	eor	x14, x14, x2
	eor	x17, x17, x4
	eor	x16, x16, x10
	eor	x2, x3, x13
	sub	x1, x1, #128
	mul	x3, x2, x14
	eor	x15, x15, x6
	eor	x16, x16, x7
	ldr	x7, [x0, #72]
	cmp	x1, #127
	umulh	x14, x2, x14
	eor	x2, x5, x12
	mul	x4, x2, x17
	umulh	x17, x2, x17
	ldp	x5, x2, [x0, #48]
	add	x13, x13, x14
	ldr	x14, [x0, #104]
	eor	x5, x5, x10
	eor	x2, x2, x11
	mul	x6, x5, x15
	add	x12, x12, x17
	eor	x17, x7, x3
	ldr	x3, [x0, #64]
	umulh	x15, x5, x15
	ldr	x7, [x0, #96]
	eor	x17, x17, x12
	eor	x3, x3, x4
	umulh	x5, x2, x16
	mul	x16, x2, x16
	eor	x2, x14, x13
	add	x10, x10, x15
	mul	x14, x2, x17
	add	x11, x11, x5
	umulh	x4, x2, x17
	eor	x2, x3, x11
	eor	x3, x7, x12
	ldp	x5, x7, [x0, #80]
	mul	x17, x2, x3
	umulh	x3, x2, x3
	ldp	x15, x2, [x0, #112]
	eor	x5, x5, x6
	eor	x16, x7, x16
	eor	x5, x5, x13
	eor	x16, x16, x10
	add	x13, x13, x4
	eor	x6, x15, x10
	eor	x2, x2, x11
	mul	x15, x6, x5
	add	x12, x12, x3
	umulh	x5, x6, x5
	umulh	x6, x2, x16
	mul	x16, x2, x16
	add	x2, x0, #128
	add	x10, x10, x5
	mov	x0, x2
	add	x11, x11, x6
	b.hi	.LBB29_4
	b	.LBB29_6
.LBB29_5:
	ldp	x5, x3, [x0, #32]
	sub	x1, x1, #128
	ldr	x2, [x0, #8]
	eor	x14, x14, x2
	eor	x2, x3, x13
	ldr	x3, [x0]
	eor	x14, x14, x12
	eor	x17, x3, x17
	mul	x4, x2, x14
	eor	x17, x17, x12
	umulh	x14, x2, x14
	eor	x2, x5, x12
	ldp	x5, x7, [x0, #16]
	mul	x3, x2, x17
	umulh	x17, x2, x17
	ldp	x6, x2, [x0, #48]
	eor	x15, x15, x5
	eor	x16, x16, x7
	ldr	x7, [x0, #72]
	eor	x15, x15, x13
	eor	x16, x16, x10
	add	x13, x13, x14
	eor	x5, x6, x10
	eor	x2, x2, x11
	ldr	x14, [x0, #104]
	mul	x6, x5, x15
	add	x12, x12, x17
	eor	x17, x7, x4
	ldr	x4, [x0, #64]
	umulh	x15, x5, x15
	ldr	x7, [x0, #96]
	eor	x17, x17, x12
	eor	x3, x4, x3
	umulh	x5, x2, x16
	mul	x16, x2, x16
	eor	x2, x14, x13
	add	x10, x10, x15
	mul	x14, x2, x17
	add	x11, x11, x5
	umulh	x4, x2, x17
	eor	x2, x3, x11
	eor	x3, x7, x12
	ldp	x5, x7, [x0, #80]
	mul	x17, x2, x3
	umulh	x3, x2, x3
	ldp	x15, x2, [x0, #112]
	eor	x5, x5, x6
	eor	x16, x7, x16
	eor	x5, x5, x13
	eor	x16, x16, x10
	add	x13, x13, x4
	eor	x6, x15, x10
	eor	x2, x2, x11
	mul	x15, x6, x5
	add	x12, x12, x3
	umulh	x5, x6, x5
	umulh	x6, x2, x16
	mul	x16, x2, x16
	add	x2, x0, #128
	add	x10, x10, x5
	add	x11, x11, x6
.LBB29_6:
	eor	x14, x14, x15
	eor	x15, x17, x16
	eor	x10, x13, x10
	eor	x12, x12, x11
	cmp	x1, #7
	orr	x9, x8, x9
	eor	x11, x14, x15
	eor	x8, x10, x12
	b.ls	.LBB29_12
	and	x10, x1, #0xfffffffffffffff8
	cmp	x1, #16
	add	x10, x2, x10
	ldur	x10, [x10, #-8]
	b.lo	.LBB29_11
	ldp	x12, x13, [x2]
	cmp	x1, #32
	eor	x11, x12, x11
	eor	x12, x13, x8
	eor	x11, x8, x11
	umulh	x13, x11, x12
	mul	x11, x11, x12
	add	x8, x8, x13
	b.lo	.LBB29_11
	ldp	x12, x13, [x2, #16]
	cmp	x1, #48
	eor	x11, x12, x11
	eor	x12, x13, x8
	eor	x11, x11, x8
	umulh	x13, x11, x12
	mul	x11, x11, x12
	add	x8, x8, x13
	b.lo	.LBB29_11
	ldp	x12, x13, [x2, #32]
	eor	x11, x12, x11
	eor	x12, x13, x8
	eor	x11, x11, x8
	umulh	x13, x11, x12
	mul	x11, x11, x12
	add	x8, x8, x13
.LBB29_11:
	lsl	x12, x1, #60
	tst	x1, #0x8
	csel	x13, x9, x10, eq
	mov	x10, x8
	and	x12, x9, x12, asr #63
	eor	x8, x11, x13
	eor	x9, x8, x10
	eor	x8, x10, x12
	b	.LBB29_13
.LBB29_12:
	eor	x10, x11, x8
	eor	x9, x10, x9
	mov	x10, x8
.LBB29_13:
	umulh	x11, x8, x9
	mul	x8, x8, x9
	add	x9, x10, x11
	eor	x8, x9, x8
	umulh	x10, x8, x9
	mul	x8, x8, x9
	add	x9, x9, x10
	eor	x0, x9, x8
	ret
.Lfunc_end29:
	.size	komi_hash_of_blocks_v5, .Lfunc_end29-komi_hash_of_blocks_v5
	.cfi_endproc

	.section	.text.komi_hash_of_one_block_v4,"ax",@progbits
	.p2align	6
	.type	komi_hash_of_one_block_v4,@function
komi_hash_of_one_block_v4:
	.cfi_startproc
	hint	#34
	mov	x8, #2259
	mov	x11, #4983
	and	x9, x2, #0x5555555555555555
	movk	x8, #34211, lsl #16
	movk	x11, #14544, lsl #16
	and	x10, x2, #0xaaaaaaaaaaaaaaaa
	movk	x8, #27272, lsl #32
	movk	x11, #8678, lsl #32
	mov	x13, #29508
	movk	x8, #9279, lsl #48
	movk	x11, #17704, lsl #48
	movk	x13, #880, lsl #16
	eor	x9, x9, x8
	eor	x10, x10, x11
	mov	x11, #3180
	mul	x8, x9, x10
	ldp	x12, x14, [x0]
	ldp	x15, x16, [x0, #16]
	movk	x11, #13545, lsl #16
	umulh	x9, x9, x10
	movk	x11, #26319, lsl #32
	movk	x13, #35374, lsl #32
	movk	x11, #48724, lsl #48
	movk	x13, #4889, lsl #48
	mov	x2, #20701
	ldp	x17, x3, [x0, #32]
	movk	x2, #51580, lsl #16
	movk	x2, #10679, lsl #32
	movk	x2, #49324, lsl #48
	add	x10, x10, x9
	eor	x9, x12, x8
	eor	x12, x15, x8
	eor	x11, x10, x11
	eor	x12, x12, x10
	eor	x17, x17, x8
	eor	x12, x12, x13
	eor	x13, x16, x11
	eor	x9, x9, x10
	mul	x16, x12, x13
	eor	x14, x14, x10
	eor	x2, x10, x2
	umulh	x12, x12, x13
	mov	x13, #15804
	movk	x13, #7542, lsl #16
	movk	x13, #24301, lsl #32
	mul	x15, x14, x9
	movk	x13, #6749, lsl #48
	eor	x13, x17, x13
	ldp	x17, x5, [x0, #48]
	umulh	x14, x14, x9
	eor	x9, x13, x11
	eor	x13, x3, x2
	mov	x3, #2327
	add	x11, x11, x12
	add	x12, x0, x1
	eor	x8, x17, x8
	mov	x17, #15444
	movk	x3, #46407, lsl #16
	movk	x17, #9522, lsl #16
	movk	x3, #54709, lsl #32
	mul	x4, x9, x13
	movk	x17, #54063, lsl #32
	movk	x3, #16260, lsl #48
	eor	x15, x16, x15
	movk	x17, #51330, lsl #48
	eor	x3, x10, x3
	umulh	x13, x9, x13
	eor	x8, x8, x17
	eor	x9, x5, x3
	add	x10, x10, x14
	eor	x8, x8, x2
	eor	x11, x11, x10
	umulh	x17, x8, x9
	mul	x8, x8, x9
	add	x13, x2, x13
	sub	x9, x1, #64
	add	x14, x3, x17
	ldursb	w17, [x12, #-1]
	eor	x13, x13, x14
	mov	w14, #1
	eor	x8, x4, x8
	cmp	w17, #0
	eor	x10, x15, x8
	eor	x8, x11, x13
	cinc	x11, x14, lt
	cbz	x9, .LBB30_7
	ldur	x12, [x12, #-8]
	lsl	x13, x1, #3
	and	x15, x1, #0xfffffffffffffff8
	cmp	x9, #16
	lsr	x12, x12, #1
	and	x14, x13, #0x38
	mvn	w13, w13
	lsl	x14, x11, x14
	add	x11, x0, x15
	lsr	x12, x12, x13
	ldur	x11, [x11, #-8]
	orr	x12, x14, x12
	b.lo	.LBB30_5
	ldp	x13, x14, [x0, #64]
	cmp	x9, #32
	eor	x10, x13, x10
	eor	x13, x14, x8
	eor	x10, x10, x8
	umulh	x14, x10, x13
	mul	x10, x10, x13
	add	x8, x8, x14
	b.lo	.LBB30_5
	ldp	x13, x14, [x0, #80]
	cmp	x9, #48
	eor	x10, x13, x10
	eor	x13, x14, x8
	eor	x10, x10, x8
	umulh	x14, x10, x13
	mul	x10, x10, x13
	add	x8, x8, x14
	b.lo	.LBB30_5
	ldp	x9, x13, [x0, #96]
	eor	x9, x9, x10
	eor	x10, x13, x8
	eor	x9, x9, x8
	umulh	x13, x9, x10
	mul	x10, x9, x10
	add	x8, x8, x13
.LBB30_5:
	lsl	x9, x1, #60
	tst	x1, #0x8
	csel	x13, x12, x11, eq
	mov	x11, x8
	and	x12, x12, x9, asr #63
	eor	x8, x10, x13
	eor	x9, x8, x11
	eor	x8, x11, x12
.LBB30_6:
	umulh	x10, x8, x9
	mul	x8, x8, x9
	add	x9, x11, x10
	eor	x8, x9, x8
	umulh	x10, x8, x9
	mul	x8, x8, x9
	add	x9, x9, x10
	eor	x0, x9, x8
	ret
.LBB30_7:
	eor	x9, x8, x10
	eor	x9, x9, x11
	mov	x11, x8
	b	.LBB30_6
.Lfunc_end30:
	.size	komi_hash_of_one_block_v4, .Lfunc_end30-komi_hash_of_one_block_v4
	.cfi_endproc

	.section	.text.komi_hash_of_one_block_v5,"ax",@progbits
	.p2align	6
	.type	komi_hash_of_one_block_v5,@function
komi_hash_of_one_block_v5:
	.cfi_startproc
	hint	#34
	mov	x8, #2259
	mov	x11, #4983
	and	x9, x2, #0x5555555555555555
	movk	x8, #34211, lsl #16
	movk	x11, #14544, lsl #16
	and	x10, x2, #0xaaaaaaaaaaaaaaaa
	movk	x8, #27272, lsl #32
	movk	x11, #8678, lsl #32
	mov	x13, #29508
	movk	x8, #9279, lsl #48
	movk	x11, #17704, lsl #48
	movk	x13, #880, lsl #16
	eor	x9, x9, x8
	eor	x10, x10, x11
	mov	x11, #3180
	mul	x8, x9, x10
	ldp	x12, x14, [x0]
	movk	x11, #13545, lsl #16
	ldp	x15, x16, [x0, #32]
	umulh	x9, x9, x10
	movk	x11, #26319, lsl #32
	movk	x13, #35374, lsl #32
	movk	x11, #48724, lsl #48
	movk	x13, #4889, lsl #48
	mov	x2, #20701
	mov	x3, #15804
	mov	x5, #2327
	movk	x2, #51580, lsl #16
	movk	x3, #7542, lsl #16
	movk	x5, #46407, lsl #16
	movk	x2, #10679, lsl #32
	movk	x3, #24301, lsl #32
	movk	x5, #54709, lsl #32
	movk	x2, #49324, lsl #48
	add	x9, x10, x9
	eor	x10, x12, x8
	eor	x12, x14, x8
	eor	x14, x15, x9
	eor	x15, x9, x11
	eor	x11, x12, x9
	eor	x11, x11, x13
	eor	x13, x16, x15
	eor	x10, x10, x9
	mul	x16, x13, x11
	movk	x3, #6749, lsl #48
	movk	x5, #16260, lsl #48
	eor	x2, x9, x2
	eor	x5, x9, x5
	umulh	x13, x13, x11
	ldp	x17, x11, [x0, #16]
	mul	x12, x14, x10
	eor	x17, x17, x8
	eor	x8, x11, x8
	mov	x11, #15444
	movk	x11, #9522, lsl #16
	umulh	x10, x14, x10
	eor	x17, x17, x3
	ldp	x4, x14, [x0, #48]
	movk	x11, #54063, lsl #32
	movk	x11, #51330, lsl #48
	eor	x17, x17, x15
	add	x13, x15, x13
	eor	x8, x8, x11
	eor	x12, x16, x12
	eor	x3, x4, x2
	eor	x8, x8, x2
	eor	x11, x14, x5
	mul	x4, x3, x17
	add	x9, x9, x10
	eor	x13, x13, x9
	umulh	x17, x3, x17
	umulh	x14, x11, x8
	mul	x8, x11, x8
	subs	x11, x1, #64
	add	x10, x2, x17
	add	x14, x5, x14
	eor	x10, x10, x14
	eor	x8, x4, x8
	eor	x9, x12, x8
	eor	x8, x13, x10
	b.eq	.LBB31_7
	add	x10, x0, x1
	lsl	x12, x1, #3
	mov	w14, #1
	ldur	x10, [x10, #-8]
	and	x15, x1, #0xfffffffffffffff8
	cmp	x11, #16
	mvn	w13, w12
	and	x12, x12, #0x38
	lsr	x10, x10, #1
	lsl	x12, x14, x12
	lsr	x13, x10, x13
	add	x10, x0, x15
	ldur	x10, [x10, #-8]
	orr	x12, x12, x13
	b.lo	.LBB31_5
	ldp	x13, x14, [x0, #64]
	cmp	x11, #32
	eor	x9, x13, x9
	eor	x13, x14, x8
	eor	x9, x9, x8
	umulh	x14, x9, x13
	mul	x9, x9, x13
	add	x8, x8, x14
	b.lo	.LBB31_5
	ldp	x13, x14, [x0, #80]
	cmp	x11, #48
	eor	x9, x13, x9
	eor	x13, x14, x8
	eor	x9, x9, x8
	umulh	x14, x9, x13
	mul	x9, x9, x13
	add	x8, x8, x14
	b.lo	.LBB31_5
	ldp	x11, x13, [x0, #96]
	eor	x9, x11, x9
	eor	x11, x13, x8
	eor	x9, x9, x8
	umulh	x13, x9, x11
	mul	x9, x9, x11
	add	x8, x8, x13
.LBB31_5:
	lsl	x11, x1, #60
	tst	x1, #0x8
	csel	x13, x12, x10, eq
	mov	x10, x8
	and	x11, x12, x11, asr #63
	eor	x8, x9, x13
	eor	x9, x8, x10
	eor	x8, x10, x11
.LBB31_6:
	umulh	x11, x8, x9
	mul	x8, x8, x9
	add	x9, x10, x11
	eor	x8, x9, x8
	umulh	x10, x8, x9
	mul	x8, x8, x9
	add	x9, x9, x10
	eor	x0, x9, x8
	ret
.LBB31_7:
	eor	x9, x8, x9
	mov	x10, x8
	eor	x9, x9, #0x1
	b	.LBB31_6
.Lfunc_end31:
	.size	komi_hash_of_one_block_v5, .Lfunc_end31-komi_hash_of_one_block_v5
	.cfi_endproc

	.section	.text.komi_hash_of_one_word_v4,"ax",@progbits
	.p2align	6
	.type	komi_hash_of_one_word_v4,@function
komi_hash_of_one_word_v4:
	.cfi_startproc
	hint	#34
	mov	x8, #2259
	mov	x11, #4983
	and	x9, x2, #0x5555555555555555
	movk	x8, #34211, lsl #16
	movk	x11, #14544, lsl #16
	and	x10, x2, #0xaaaaaaaaaaaaaaaa
	movk	x8, #27272, lsl #32
	movk	x11, #8678, lsl #32
	lsl	x13, x1, #3
	movk	x8, #9279, lsl #48
	movk	x11, #17704, lsl #48
	eor	x8, x9, x8
	eor	x9, x10, x11
	add	x10, x0, x1
	ldursb	w12, [x10, #-1]
	ldur	x10, [x10, #-8]
	mul	x11, x8, x9
	mvn	w14, w13
	and	x13, x13, #0x38
	umulh	x8, x8, x9
	cmp	w12, #0
	mov	w12, #1
	lsr	x10, x10, #1
	cinc	x12, x12, lt
	lsl	x12, x12, x13
	ldr	x13, [x0]
	lsr	x10, x10, x14
	orr	x10, x12, x10
	add	x8, x9, x8
	eor	x9, x13, x11
	eor	x9, x9, x8
	eor	x10, x10, x8
	umulh	x11, x10, x9
	mul	x9, x10, x9
	add	x8, x8, x11
	eor	x9, x8, x9
	umulh	x10, x9, x8
	mul	x9, x9, x8
	add	x8, x8, x10
	eor	x0, x8, x9
	ret
.Lfunc_end32:
	.size	komi_hash_of_one_word_v4, .Lfunc_end32-komi_hash_of_one_word_v4
	.cfi_endproc

	.section	.text.komi_hash_of_one_word_v5,"ax",@progbits
	.p2align	6
	.type	komi_hash_of_one_word_v5,@function
komi_hash_of_one_word_v5:
	.cfi_startproc
	hint	#34
	mov	x8, #2259
	mov	x11, #4983
	and	x9, x2, #0x5555555555555555
	movk	x8, #34211, lsl #16
	movk	x11, #14544, lsl #16
	and	x10, x2, #0xaaaaaaaaaaaaaaaa
	movk	x8, #27272, lsl #32
	movk	x11, #8678, lsl #32
	lsl	x12, x1, #3
	movk	x8, #9279, lsl #48
	movk	x11, #17704, lsl #48
	mov	w13, #1
	eor	x8, x9, x8
	eor	x9, x10, x11
	add	x10, x0, x1
	ldur	x10, [x10, #-8]
	mul	x11, x8, x9
	mvn	w14, w12
	and	x12, x12, #0x38
	umulh	x8, x8, x9
	lsr	x10, x10, #1
	lsl	x12, x13, x12
	ldr	x13, [x0]
	lsr	x10, x10, x14
	orr	x10, x12, x10
	add	x8, x9, x8
	eor	x9, x13, x11
	eor	x9, x9, x8
	eor	x10, x10, x8
	umulh	x11, x10, x9
	mul	x9, x10, x9
	add	x8, x8, x11
	eor	x9, x8, x9
	umulh	x10, x9, x8
	mul	x9, x9, x8
	add	x8, x8, x10
	eor	x0, x8, x9
	ret
.Lfunc_end33:
	.size	komi_hash_of_one_word_v5, .Lfunc_end33-komi_hash_of_one_word_v5
	.cfi_endproc

	.section	.text.komi_hash_of_words_v4,"ax",@progbits
	.p2align	6
	.type	komi_hash_of_words_v4,@function
komi_hash_of_words_v4:
	.cfi_startproc
	hint	#34
	mov	x8, #4983
	mov	x11, #2259
	and	x9, x2, #0xaaaaaaaaaaaaaaaa
	movk	x8, #14544, lsl #16
	movk	x11, #34211, lsl #16
	and	x10, x2, #0x5555555555555555
	movk	x8, #8678, lsl #32
	movk	x11, #27272, lsl #32
	cmp	x1, #32
	movk	x8, #17704, lsl #48
	movk	x11, #9279, lsl #48
	eor	x8, x9, x8
	eor	x9, x10, x11
	mul	x10, x9, x8
	ldp	x11, x12, [x0]
	umulh	x9, x9, x8
	add	x8, x8, x9
	eor	x9, x11, x10
	and	x11, x1, #0xfffffffffffffff8
	eor	x9, x9, x8
	eor	x10, x12, x8
	add	x14, x0, x11
	umulh	x13, x9, x10
	mul	x10, x9, x10
	add	x9, x0, x1
	ldursb	w12, [x9, #-1]
	ldur	x11, [x9, #-8]
	ldur	x9, [x14, #-8]
	add	x8, x8, x13
	b.lo	.LBB34_3
	ldp	x13, x14, [x0, #16]
	cmp	x1, #48
	eor	x10, x13, x10
	eor	x13, x14, x8
	eor	x10, x10, x8
	umulh	x14, x10, x13
	mul	x10, x10, x13
	add	x8, x8, x14
	b.lo	.LBB34_3
	ldp	x13, x14, [x0, #32]
	eor	x10, x13, x10
	eor	x13, x14, x8
	eor	x10, x10, x8
	umulh	x14, x10, x13
	mul	x10, x10, x13
	add	x8, x8, x14
.LBB34_3:
	lsl	x13, x1, #3
	cmp	w12, #0
	mov	w12, #1
	lsr	x11, x11, #1
	cinc	x12, x12, lt
	tst	x1, #0x8
	and	x14, x13, #0x38
	mvn	w13, w13
	lsl	x12, x12, x14
	lsr	x11, x11, x13
	lsl	x13, x1, #60
	orr	x11, x12, x11
	csel	x9, x11, x9, eq
	and	x11, x11, x13, asr #63
	eor	x9, x10, x9
	eor	x9, x9, x8
	eor	x10, x8, x11
	umulh	x11, x9, x10
	mul	x9, x9, x10
	add	x8, x8, x11
	eor	x9, x8, x9
	umulh	x10, x9, x8
	mul	x9, x9, x8
	add	x8, x8, x10
	eor	x0, x8, x9
	ret
.Lfunc_end34:
	.size	komi_hash_of_words_v4, .Lfunc_end34-komi_hash_of_words_v4
	.cfi_endproc

	.section	.text.komi_hash_of_words_v5,"ax",@progbits
	.p2align	6
	.type	komi_hash_of_words_v5,@function
komi_hash_of_words_v5:
	.cfi_startproc
	hint	#34
	mov	x8, #4983
	mov	x11, #2259
	and	x9, x2, #0xaaaaaaaaaaaaaaaa
	movk	x8, #14544, lsl #16
	movk	x11, #34211, lsl #16
	and	x10, x2, #0x5555555555555555
	movk	x8, #8678, lsl #32
	movk	x11, #27272, lsl #32
	cmp	x1, #32
	movk	x8, #17704, lsl #48
	movk	x11, #9279, lsl #48
	eor	x8, x9, x8
	eor	x9, x10, x11
	mul	x10, x9, x8
	ldp	x11, x12, [x0]
	umulh	x9, x9, x8
	add	x8, x8, x9
	eor	x9, x11, x10
	add	x11, x0, x1
	eor	x9, x9, x8
	eor	x10, x12, x8
	ldur	x11, [x11, #-8]
	umulh	x12, x9, x10
	mul	x10, x9, x10
	and	x9, x1, #0xfffffffffffffff8
	add	x9, x0, x9
	ldur	x9, [x9, #-8]
	add	x8, x8, x12
	b.lo	.LBB35_3
	ldp	x12, x13, [x0, #16]
	cmp	x1, #48
	eor	x10, x12, x10
	eor	x12, x13, x8
	eor	x10, x10, x8
	umulh	x13, x10, x12
	mul	x10, x10, x12
	add	x8, x8, x13
	b.lo	.LBB35_3
	ldp	x12, x13, [x0, #32]
	eor	x10, x12, x10
	eor	x12, x13, x8
	eor	x10, x10, x8
	umulh	x13, x10, x12
	mul	x10, x10, x12
	add	x8, x8, x13
.LBB35_3:
	lsl	x12, x1, #3
	lsr	x11, x11, #1
	mov	w13, #1
	tst	x1, #0x8
	and	x14, x12, #0x38
	mvn	w12, w12
	lsl	x13, x13, x14
	lsr	x11, x11, x12
	lsl	x12, x1, #60
	orr	x11, x13, x11
	csel	x9, x11, x9, eq
	and	x11, x11, x12, asr #63
	eor	x9, x10, x9
	eor	x9, x9, x8
	eor	x10, x8, x11
	umulh	x11, x9, x10
	mul	x9, x9, x10
	add	x8, x8, x11
	eor	x9, x8, x9
	umulh	x10, x9, x8
	mul	x9, x9, x8
	add	x8, x8, x10
	eor	x0, x8, x9
	ret
.Lfunc_end35:
	.size	komi_hash_of_words_v5, .Lfunc_end35-komi_hash_of_words_v5
	.cfi_endproc

	.section	.text.komi_hash_of_16_bytes_v4,"ax",@progbits
	.p2align	6
	.type	komi_hash_of_16_bytes_v4,@function
komi_hash_of_16_bytes_v4:
	.cfi_startproc
	hint	#34
	mov	x8, #2259
	mov	x9, #4983
	and	x10, x1, #0x5555555555555555
	movk	x8, #34211, lsl #16
	movk	x9, #14544, lsl #16
	and	x11, x1, #0xaaaaaaaaaaaaaaaa
	movk	x8, #27272, lsl #32
	movk	x9, #8678, lsl #32
	movk	x8, #9279, lsl #48
	movk	x9, #17704, lsl #48
	eor	x8, x10, x8
	eor	x9, x11, x9
	mul	x10, x8, x9
	ldp	x11, x12, [x0]
	umulh	x8, x8, x9
	cmp	x12, #0
	add	x8, x9, x8
	eor	x9, x11, x10
	eor	x9, x9, x8
	eor	x10, x12, x8
	mul	x11, x9, x10
	umulh	x9, x9, x10
	mov	w10, #1
	cinc	x10, x10, lt
	add	x8, x8, x9
	eor	x9, x10, x11
	eor	x9, x9, x8
	umulh	x10, x9, x8
	mul	x9, x9, x8
	add	x8, x8, x10
	eor	x9, x8, x9
	umulh	x10, x9, x8
	mul	x9, x9, x8
	add	x8, x8, x10
	eor	x0, x8, x9
	ret
.Lfunc_end36:
	.size	komi_hash_of_16_bytes_v4, .Lfunc_end36-komi_hash_of_16_bytes_v4
	.cfi_endproc

	.section	.text.komi_hash_of_16_bytes_v5,"ax",@progbits
	.p2align	6
	.type	komi_hash_of_16_bytes_v5,@function
komi_hash_of_16_bytes_v5:
	.cfi_startproc
	hint	#34
	mov	x8, #2259
	mov	x9, #4983
	and	x10, x1, #0x5555555555555555
	movk	x8, #34211, lsl #16
	movk	x9, #14544, lsl #16
	and	x11, x1, #0xaaaaaaaaaaaaaaaa
	movk	x8, #27272, lsl #32
	movk	x9, #8678, lsl #32
	movk	x8, #9279, lsl #48
	movk	x9, #17704, lsl #48
	eor	x8, x10, x8
	eor	x9, x11, x9
	mul	x10, x8, x9
	ldp	x11, x12, [x0]
	umulh	x8, x8, x9
	add	x8, x9, x8
	eor	x9, x11, x10
	eor	x9, x9, x8
	eor	x10, x12, x8
	umulh	x11, x9, x10
	mul	x9, x9, x10
	add	x8, x8, x11
	eor	x9, x8, x9
	eor	x9, x9, #0x1
	umulh	x10, x9, x8
	mul	x9, x9, x8
	add	x8, x8, x10
	eor	x9, x8, x9
	umulh	x10, x9, x8
	mul	x9, x9, x8
	add	x8, x8, x10
	eor	x0, x8, x9
	ret
.Lfunc_end37:
	.size	komi_hash_of_16_bytes_v5, .Lfunc_end37-komi_hash_of_16_bytes_v5
	.cfi_endproc

	.section	.text.komi_hash_of_partial_word_v4,"ax",@progbits
	.p2align	6
	.type	komi_hash_of_partial_word_v4,@function
komi_hash_of_partial_word_v4:
	.cfi_startproc
	hint	#34
	add	x10, x0, x1
	mov	w8, #1
	ldurb	w9, [x10, #-1]
	sxtb	w11, w9
	cmp	w11, #0
	cinc	x8, x8, lt
	cmp	x1, #4
	b.lo	.LBB38_2
	ldur	w9, [x10, #-4]
	lsl	x10, x1, #3
	orr	x8, x9, x8, lsl #32
	neg	x9, x10
	ldr	w10, [x0]
	lsr	x8, x8, x9
	orr	x8, x10, x8, lsl #32
	b	.LBB38_3
.LBB38_2:
	lsr	x10, x1, #1
	cmp	x1, #1
	lsl	x9, x9, #16
	ldrb	w11, [x0]
	lsl	x12, x1, #3
	ldrb	w10, [x0, x10]
	lsl	x8, x8, x12
	lsl	x10, x10, #8
	csel	x10, xzr, x10, eq
	cmp	x1, #3
	csel	x9, x9, xzr, eq
	orr	x9, x9, x11
	orr	x9, x9, x10
	orr	x8, x8, x9
.LBB38_3:
	mov	x10, #2259
	mov	x12, #4983
	and	x9, x2, #0x5555555555555555
	movk	x10, #34211, lsl #16
	movk	x12, #14544, lsl #16
	and	x11, x2, #0xaaaaaaaaaaaaaaaa
	movk	x10, #27272, lsl #32
	movk	x12, #8678, lsl #32
	movk	x10, #9279, lsl #48
	movk	x12, #17704, lsl #48
	eor	x9, x9, x10
	eor	x10, x11, x12
	umulh	x11, x9, x10
	mul	x9, x9, x10
	add	x10, x10, x11
	eor	x9, x9, x10
	eor	x8, x8, x9
	umulh	x9, x8, x10
	mul	x8, x8, x10
	add	x9, x10, x9
	eor	x8, x9, x8
	umulh	x10, x8, x9
	mul	x8, x8, x9
	add	x9, x9, x10
	eor	x0, x9, x8
	ret
.Lfunc_end38:
	.size	komi_hash_of_partial_word_v4, .Lfunc_end38-komi_hash_of_partial_word_v4
	.cfi_endproc

	.section	.text.komi_hash_of_partial_word_v5,"ax",@progbits
	.p2align	6
	.type	komi_hash_of_partial_word_v5,@function
komi_hash_of_partial_word_v5:
	.cfi_startproc
	hint	#34
	cmp	x1, #4
	b.hs	.LBB39_2
	lsr	x8, x1, #1
	add	x9, x0, x1
	lsl	x10, x1, #3
	ldurb	w9, [x9, #-1]
	mov	w11, #1
	cmp	x1, #1
	ldrb	w8, [x0, x8]
	lsl	x10, x11, x10
	ldrb	w11, [x0]
	lsl	x9, x9, #16
	lsl	x8, x8, #8
	add	x10, x10, x11
	csel	x8, xzr, x8, eq
	cmp	x1, #3
	csel	x9, x9, xzr, eq
	orr	x9, x10, x9
	orr	x8, x9, x8
	b	.LBB39_3
.LBB39_2:
	add	x8, x0, x1
	lsl	x9, x1, #3
	ldr	w10, [x0]
	ldur	w8, [x8, #-4]
	neg	x9, x9
	orr	x8, x8, #0x100000000
	lsr	x8, x8, x9
	orr	x8, x10, x8, lsl #32
.LBB39_3:
	mov	x10, #2259
	mov	x12, #4983
	and	x9, x2, #0x5555555555555555
	movk	x10, #34211, lsl #16
	movk	x12, #14544, lsl #16
	and	x11, x2, #0xaaaaaaaaaaaaaaaa
	movk	x10, #27272, lsl #32
	movk	x12, #8678, lsl #32
	movk	x10, #9279, lsl #48
	movk	x12, #17704, lsl #48
	eor	x9, x9, x10
	eor	x10, x11, x12
	mul	x11, x9, x10
	umulh	x9, x9, x10
	eor	x8, x8, x11
	add	x9, x10, x9
	eor	x8, x8, x9
	umulh	x10, x8, x9
	mul	x8, x8, x9
	add	x9, x9, x10
	eor	x8, x9, x8
	umulh	x10, x8, x9
	mul	x8, x8, x9
	add	x9, x9, x10
	eor	x0, x9, x8
	ret
.Lfunc_end39:
	.size	komi_hash_of_partial_word_v5, .Lfunc_end39-komi_hash_of_partial_word_v5
	.cfi_endproc

	.section	.text.komi_stream_complete_blocks_v4,"ax",@progbits
	.p2align	6
	.type	komi_stream_complete_blocks_v4,@function
komi_stream_complete_blocks_v4:
	.cfi_startproc
	hint	#34
	ldr	x9, [x0, #64]
	mov	w10, #1
	add	w8, w9, w2
	mvn	w8, w8
	orr	x8, x8, #0xffffffffffffffc0
	add	x8, x1, x8
	ldrb	w8, [x8, x2]
	strb	w10, [x0, #136]
	lsr	w8, w8, #7
	strb	w8, [x0, #137]
	cbz	x9, .LBB40_7
	mov	w8, #64
	sub	x10, x8, x9
	cmp	x10, #7
	add	x8, x1, x10
	sub	x2, x2, x10
	b.ls	.LBB40_8
	ldr	x11, [x1]
	ubfiz	x12, x9, #3, #3
	and	x13, x9, #0x38
	ldr	x14, [x0, x13]
	mov	w15, #8
	cmp	x10, #33
	lsl	x12, x11, x12
	and	x11, x9, #0x7
	orr	x12, x14, x12
	str	x12, [x0, x13]
	sub	x12, x15, x11
	b.hs	.LBB40_5
	cmp	x10, #17
	b.lo	.LBB40_12
	ldr	x10, [x1, x12]
	and	x9, x9, #0x8
	add	x9, x0, x9
	str	x10, [x9, #40]
	b	.LBB40_6
.LBB40_5:
	sub	x11, x1, x11
	ldr	x10, [x1, x12]
	and	x9, x9, #0x18
	ldr	x12, [x11, #16]
	add	x9, x0, x9
	stp	x10, x12, [x9, #8]
	ldr	x10, [x11, #24]
	str	x10, [x9, #24]
	ldp	x9, x10, [x8, #-32]
	stp	x9, x10, [x0, #32]
.LBB40_6:
	ldp	x9, x11, [x8, #-16]
	str	x9, [x0, #48]
	b	.LBB40_15
.LBB40_7:
	ldp	x16, x12, [x0, #72]
	mov	x8, x1
	ldp	x10, x14, [x0, #88]
	ldp	x9, x15, [x0, #104]
	ldp	x13, x11, [x0, #120]
	tbnz	w2, #6, .LBB40_16
	b	.LBB40_17
.LBB40_8:
	cmp	x10, #4
	b.hs	.LBB40_13
	cmp	x9, #64
	b.eq	.LBB40_11
	lsr	x10, x10, #1
	ldurb	w11, [x8, #-1]
	cmp	x9, #63
	ldrb	w12, [x1]
	ldrb	w10, [x1, x10]
	lsl	x11, x11, #16
	lsl	x10, x10, #8
	csel	x10, xzr, x10, eq
	cmp	x9, #61
	csel	x11, x11, xzr, eq
	orr	x11, x12, x11
	orr	x10, x10, x11
	b	.LBB40_14
.LBB40_11:
	mov	x10, xzr
	b	.LBB40_14
.LBB40_12:
	ldur	x11, [x8, #-8]
	b	.LBB40_15
.LBB40_13:
	sub	x11, x1, x9
	lsl	x10, x10, #3
	ldr	w12, [x1]
	ldr	w11, [x11, #60]
	neg	x10, x10
	lsr	x10, x11, x10
	orr	x10, x12, x10, lsl #32
.LBB40_14:
	ubfiz	x9, x9, #3, #3
	lsl	x9, x10, x9
	ldr	x10, [x0, #56]
	orr	x11, x10, x9
.LBB40_15:
	ldp	x14, x9, [x0, #96]
	movi	v0.2d, #0000000000000000
	ldp	x1, x13, [x0, #80]
	ldr	x15, [x0, #112]
	ldp	x16, x17, [x0]
	ldr	x6, [x0, #48]
	str	xzr, [x0, #64]
	ldp	x10, x12, [x0, #16]
	eor	x11, x1, x11
	stp	q0, q0, [x0]
	eor	x13, x16, x13
	eor	x16, x14, x17
	ldp	x17, x5, [x0, #120]
	eor	x9, x10, x9
	ldp	x3, x4, [x0, #32]
	eor	x10, x15, x12
	eor	x12, x9, x14
	eor	x13, x13, x1
	stp	q0, q0, [x0, #32]
	mul	x9, x10, x12
	eor	x17, x3, x17
	umulh	x12, x10, x12
	mul	x10, x16, x13
	umulh	x3, x16, x13
	eor	x16, x17, x15
	eor	x17, x5, x4
	ldr	x4, [x0, #72]
	add	x15, x15, x12
	mul	x13, x17, x16
	eor	x4, x4, x6
	umulh	x17, x17, x16
	eor	x16, x4, x5
	add	x14, x14, x3
	umulh	x4, x16, x11
	mul	x16, x16, x11
	add	x11, x5, x17
	add	x12, x1, x4
	tbz	w2, #6, .LBB40_17
.LBB40_16:
	ldp	x17, x1, [x8, #16]
	sub	x2, x2, #64
	ldp	x3, x4, [x8]
	eor	x17, x14, x17
	eor	x1, x1, x15
	eor	x17, x17, x9
	eor	x3, x12, x3
	mul	x9, x1, x17
	eor	x3, x3, x10
	umulh	x17, x1, x17
	eor	x1, x4, x14
	ldp	x4, x5, [x8, #32]
	mul	x10, x1, x3
	eor	x4, x15, x4
	umulh	x1, x1, x3
	eor	x3, x4, x13
	eor	x4, x5, x11
	add	x15, x15, x17
	ldp	x5, x6, [x8, #48]
	mul	x13, x4, x3
	add	x8, x8, #64
	umulh	x3, x4, x3
	eor	x16, x16, x5
	eor	x4, x6, x12
	add	x14, x14, x1
	eor	x16, x16, x11
	umulh	x5, x4, x16
	mul	x16, x4, x16
	add	x11, x11, x3
	add	x12, x12, x5
.LBB40_17:
	cmp	x2, #128
	b.lo	.LBB40_20
.LBB40_18:
	ldp	x17, x1, [x8, #16]
	eor	x9, x9, x14
	ldp	x3, x4, [x8]
	eor	x10, x10, x12
	eor	x13, x13, x15
	eor	x16, x16, x11
	sub	x2, x2, #128
	eor	x9, x9, x17
	eor	x17, x1, x15
	cmp	x2, #127
	mul	x1, x17, x9
	eor	x10, x10, x3
	umulh	x9, x17, x9
	eor	x17, x4, x14
	ldp	x4, x5, [x8, #32]
	mul	x3, x17, x10
	umulh	x10, x17, x10
	eor	x17, x5, x11
	eor	x13, x13, x4
	ldp	x5, x6, [x8, #48]
	add	x15, x15, x9
	mul	x4, x17, x13
	umulh	x13, x17, x13
	eor	x16, x16, x5
	eor	x17, x6, x12
	ldp	x6, x9, [x8, #80]
	add	x14, x14, x10
	umulh	x5, x17, x16
	eor	x10, x6, x1
	ldp	x1, x6, [x8, #64]
	mul	x16, x17, x16
	eor	x10, x10, x14
	eor	x17, x9, x15
	add	x11, x11, x13
	add	x12, x12, x5
	eor	x1, x1, x3
	mul	x9, x17, x10
	umulh	x3, x17, x10
	eor	x17, x1, x12
	eor	x1, x6, x14
	ldp	x5, x6, [x8, #96]
	mul	x10, x17, x1
	eor	x13, x5, x4
	eor	x4, x6, x11
	umulh	x1, x17, x1
	ldp	x5, x6, [x8, #112]
	eor	x17, x13, x15
	mul	x13, x4, x17
	add	x15, x15, x3
	eor	x16, x5, x16
	umulh	x4, x4, x17
	eor	x17, x6, x12
	eor	x16, x16, x11
	add	x14, x14, x1
	umulh	x5, x17, x16
	mul	x16, x17, x16
	add	x17, x8, #128
	add	x11, x11, x4
	mov	x8, x17
	add	x12, x12, x5
	b.hi	.LBB40_18
	mov	x8, x17
.LBB40_20:
	stp	x9, x15, [x0, #104]
	ands	x9, x2, #0x3f
	stp	x16, x12, [x0, #72]
	stp	x10, x14, [x0, #88]
	stp	x13, x11, [x0, #120]
	b.eq	.LBB40_28
	cmp	x9, #7
	b.hi	.LBB40_29
	cmp	x9, #4
	b.hs	.LBB40_24
	lsr	x10, x9, #1
	add	x11, x8, x9
	cmp	x9, #1
	ldurb	w11, [x11, #-1]
	ldrb	w10, [x8, x10]
	ldrb	w8, [x8]
	lsl	x11, x11, #16
	lsl	x10, x10, #8
	csel	x10, xzr, x10, eq
	cmp	x9, #3
	csel	x11, x11, xzr, eq
	orr	x8, x8, x11
	orr	x8, x10, x8
	str	x8, [x0]
	b	.LBB40_27
.LBB40_24:
	add	x10, x9, x8
	lsl	x11, x9, #3
	ldr	w8, [x8]
	ldur	w10, [x10, #-4]
	neg	x11, x11
	lsr	x10, x10, x11
	orr	x8, x8, x10, lsl #32
	str	x8, [x0]
	b	.LBB40_27
.LBB40_25:
	ldr	x10, [x8]
	str	x10, [x0]
	mov	w10, #1
.LBB40_26:
	mov	w11, #-1
	add	x8, x8, x9
	eor	w11, w11, w2, lsl #3
	ldur	x8, [x8, #-8]
	and	x11, x11, #0x38
	lsr	x8, x8, x11
	lsr	x8, x8, #8
	str	x8, [x0, x10, lsl #3]
.LBB40_27:
	str	x9, [x0, #64]
.LBB40_28:
	ret
.LBB40_29:
	cmp	x9, #16
	b.lo	.LBB40_25
	lsr	x10, x9, #3
	cmp	x9, #32
	lsl	x11, x10, #3
	sub	x12, x11, #16
	add	x13, x8, x12
	add	x12, x0, x12
	ldp	x14, x13, [x13]
	stp	x14, x13, [x12]
	ldp	x12, x13, [x8]
	stp	x12, x13, [x0]
	b.lo	.LBB40_26
	sub	x11, x11, #32
	add	x12, x8, x11
	add	x11, x0, x11
	ldp	x13, x12, [x12]
	stp	x13, x12, [x11]
	ldp	x11, x12, [x8, #16]
	stp	x11, x12, [x0, #16]
	b	.LBB40_26
.Lfunc_end40:
	.size	komi_stream_complete_blocks_v4, .Lfunc_end40-komi_stream_complete_blocks_v4
	.cfi_endproc

	.section	.text.komi_stream_complete_blocks_v5,"ax",@progbits
	.p2align	6
	.type	komi_stream_complete_blocks_v5,@function
komi_stream_complete_blocks_v5:
	.cfi_startproc
	hint	#34
	ldr	x9, [x0, #64]
	mov	w8, #1
	strh	w8, [x0, #136]
	cbz	x9, .LBB41_7
	mov	w8, #64
	sub	x10, x8, x9
	cmp	x10, #7
	add	x8, x1, x10
	sub	x2, x2, x10
	b.ls	.LBB41_8
	ldr	x11, [x1]
	ubfiz	x12, x9, #3, #3
	and	x13, x9, #0x38
	ldr	x14, [x0, x13]
	mov	w15, #8
	cmp	x10, #33
	lsl	x12, x11, x12
	and	x11, x9, #0x7
	orr	x12, x14, x12
	str	x12, [x0, x13]
	sub	x12, x15, x11
	b.hs	.LBB41_5
	cmp	x10, #17
	b.lo	.LBB41_12
	ldr	x10, [x1, x12]
	and	x9, x9, #0x8
	add	x9, x0, x9
	str	x10, [x9, #40]
	b	.LBB41_6
.LBB41_5:
	sub	x11, x1, x11
	ldr	x10, [x1, x12]
	and	x9, x9, #0x18
	ldr	x12, [x11, #16]
	add	x9, x0, x9
	stp	x10, x12, [x9, #8]
	ldr	x10, [x11, #24]
	str	x10, [x9, #24]
	ldp	x9, x10, [x8, #-32]
	stp	x9, x10, [x0, #32]
.LBB41_6:
	ldp	x9, x11, [x8, #-16]
	str	x9, [x0, #48]
	b	.LBB41_15
.LBB41_7:
	ldp	x16, x12, [x0, #72]
	mov	x8, x1
	ldp	x10, x14, [x0, #88]
	ldp	x9, x15, [x0, #104]
	ldp	x13, x11, [x0, #120]
	tbnz	w2, #6, .LBB41_16
	b	.LBB41_17
.LBB41_8:
	cmp	x10, #4
	b.hs	.LBB41_13
	cmp	x9, #64
	b.eq	.LBB41_11
	lsr	x10, x10, #1
	ldurb	w11, [x8, #-1]
	cmp	x9, #63
	ldrb	w12, [x1]
	ldrb	w10, [x1, x10]
	lsl	x11, x11, #16
	lsl	x10, x10, #8
	csel	x10, xzr, x10, eq
	cmp	x9, #61
	csel	x11, x11, xzr, eq
	orr	x11, x12, x11
	orr	x10, x10, x11
	b	.LBB41_14
.LBB41_11:
	mov	x10, xzr
	b	.LBB41_14
.LBB41_12:
	ldur	x11, [x8, #-8]
	b	.LBB41_15
.LBB41_13:
	sub	x11, x1, x9
	lsl	x10, x10, #3
	ldr	w12, [x1]
	ldr	w11, [x11, #60]
	neg	x10, x10
	lsr	x10, x11, x10
	orr	x10, x12, x10, lsl #32
.LBB41_14:
	ubfiz	x9, x9, #3, #3
	lsl	x9, x10, x9
	ldr	x10, [x0, #56]
	orr	x11, x10, x9
.LBB41_15:
	ldp	x13, x9, [x0]
	movi	v0.2d, #0000000000000000
	ldp	x14, x10, [x0, #96]
	ldr	x4, [x0, #48]
	ldp	x17, x12, [x0, #32]
	ldr	x5, [x0, #128]
	str	xzr, [x0, #64]
	ldp	x1, x16, [x0, #80]
	eor	x9, x9, x10
	stp	q0, q0, [x0, #32]
	ldp	x15, x3, [x0, #112]
	eor	x13, x13, x16
	eor	x16, x14, x17
	eor	x11, x1, x11
	ldp	x17, x6, [x0, #16]
	eor	x13, x13, x1
	eor	x10, x15, x12
	eor	x12, x9, x14
	stp	q0, q0, [x0]
	mul	x9, x10, x12
	eor	x17, x17, x3
	umulh	x12, x10, x12
	mul	x10, x16, x13
	umulh	x3, x16, x13
	eor	x16, x17, x15
	eor	x17, x5, x4
	ldr	x4, [x0, #72]
	add	x15, x15, x12
	mul	x13, x17, x16
	eor	x4, x4, x6
	umulh	x17, x17, x16
	eor	x16, x4, x5
	add	x14, x14, x3
	umulh	x4, x16, x11
	mul	x16, x16, x11
	add	x11, x5, x17
	add	x12, x1, x4
	tbz	w2, #6, .LBB41_17
.LBB41_16:
	ldp	x3, x17, [x8]
	sub	x2, x2, #64
	ldp	x4, x1, [x8, #32]
	eor	x17, x14, x17
	eor	x3, x12, x3
	eor	x1, x1, x15
	eor	x17, x17, x9
	eor	x3, x3, x10
	mul	x9, x1, x17
	umulh	x17, x1, x17
	eor	x1, x4, x14
	ldp	x4, x6, [x8, #16]
	mul	x10, x1, x3
	umulh	x1, x1, x3
	ldp	x5, x3, [x8, #48]
	eor	x4, x15, x4
	eor	x16, x16, x6
	add	x8, x8, #64
	eor	x4, x4, x13
	eor	x16, x16, x11
	add	x15, x15, x17
	eor	x5, x5, x11
	eor	x3, x3, x12
	mul	x13, x5, x4
	add	x14, x14, x1
	umulh	x4, x5, x4
	umulh	x5, x3, x16
	mul	x16, x3, x16
	add	x11, x11, x4
	add	x12, x12, x5
.LBB41_17:
	cmp	x2, #128
	b.lo	.LBB41_20
.LBB41_18:
	ldp	x3, x17, [x8]
	eor	x9, x9, x14
	ldp	x4, x1, [x8, #32]
	eor	x10, x10, x12
	ldp	x5, x6, [x8, #16]
	eor	x13, x13, x15
	eor	x9, x9, x17
	eor	x10, x10, x3
	eor	x16, x16, x11
	eor	x17, x1, x15
	sub	x2, x2, #128
	mul	x1, x17, x9
	eor	x13, x13, x5
	eor	x16, x16, x6
	ldr	x6, [x8, #72]
	cmp	x2, #127
	umulh	x9, x17, x9
	eor	x17, x4, x14
	mul	x3, x17, x10
	umulh	x10, x17, x10
	ldp	x4, x17, [x8, #48]
	add	x15, x15, x9
	ldr	x9, [x8, #104]
	eor	x4, x4, x11
	eor	x17, x17, x12
	mul	x5, x4, x13
	add	x14, x14, x10
	eor	x10, x6, x1
	ldr	x1, [x8, #64]
	umulh	x13, x4, x13
	ldp	x6, x7, [x8, #88]
	eor	x10, x10, x14
	eor	x1, x1, x3
	umulh	x4, x17, x16
	mul	x16, x17, x16
	eor	x17, x9, x15
	add	x11, x11, x13
	mul	x9, x17, x10
	add	x12, x12, x4
	ldr	x4, [x8, #80]
	umulh	x3, x17, x10
	eor	x17, x1, x12
	eor	x1, x7, x14
	eor	x4, x4, x5
	eor	x16, x6, x16
	mul	x10, x17, x1
	eor	x4, x4, x15
	eor	x16, x16, x11
	umulh	x1, x17, x1
	ldp	x13, x17, [x8, #112]
	add	x15, x15, x3
	eor	x5, x13, x11
	eor	x17, x17, x12
	mul	x13, x5, x4
	add	x14, x14, x1
	umulh	x4, x5, x4
	umulh	x5, x17, x16
	mul	x16, x17, x16
	add	x17, x8, #128
	add	x11, x11, x4
	mov	x8, x17
	add	x12, x12, x5
	b.hi	.LBB41_18
	mov	x8, x17
.LBB41_20:
	stp	x9, x15, [x0, #104]
	ands	x9, x2, #0x3f
	stp	x16, x12, [x0, #72]
	stp	x10, x14, [x0, #88]
	stp	x13, x11, [x0, #120]
	b.eq	.LBB41_28
	cmp	x9, #7
	b.hi	.LBB41_29
	cmp	x9, #4
	b.hs	.LBB41_24
	lsr	x10, x9, #1
	add	x11, x8, x9
	cmp	x9, #1
	ldurb	w11, [x11, #-1]
	ldrb	w10, [x8, x10]
	ldrb	w8, [x8]
	lsl	x11, x11, #16
	lsl	x10, x10, #8
	csel	x10, xzr, x10, eq
	cmp	x9, #3
	csel	x11, x11, xzr, eq
	orr	x8, x8, x11
	orr	x8, x10, x8
	str	x8, [x0]
	b	.LBB41_27
.LBB41_24:
	add	x10, x9, x8
	lsl	x11, x9, #3
	ldr	w8, [x8]
	ldur	w10, [x10, #-4]
	neg	x11, x11
	lsr	x10, x10, x11
	orr	x8, x8, x10, lsl #32
	str	x8, [x0]
	b	.LBB41_27
.LBB41_25:
	ldr	x10, [x8]
	str	x10, [x0]
	mov	w10, #1
.LBB41_26:
	mov	w11, #-1
	add	x8, x8, x9
	eor	w11, w11, w2, lsl #3
	ldur	x8, [x8, #-8]
	and	x11, x11, #0x38
	lsr	x8, x8, x11
	lsr	x8, x8, #8
	str	x8, [x0, x10, lsl #3]
.LBB41_27:
	str	x9, [x0, #64]
.LBB41_28:
	ret
.LBB41_29:
	cmp	x9, #16
	b.lo	.LBB41_25
	lsr	x10, x9, #3
	cmp	x9, #32
	lsl	x11, x10, #3
	sub	x12, x11, #16
	add	x13, x8, x12
	add	x12, x0, x12
	ldp	x14, x13, [x13]
	stp	x14, x13, [x12]
	ldp	x12, x13, [x8]
	stp	x12, x13, [x0]
	b.lo	.LBB41_26
	sub	x11, x11, #32
	add	x12, x8, x11
	add	x11, x0, x11
	ldp	x13, x12, [x12]
	stp	x13, x12, [x11]
	ldp	x11, x12, [x8, #16]
	stp	x11, x12, [x0, #16]
	b	.LBB41_26
.Lfunc_end41:
	.size	komi_stream_complete_blocks_v5, .Lfunc_end41-komi_stream_complete_blocks_v5
	.cfi_endproc

	.section	".note.GNU-stack","",@progbits
