	.file	"rattle"
	.section	".text.ct_node::lock_writing::write_name","ax",@progbits
	.p2align	2
	.type	"ct_node::lock_writing::write_name",@function
"ct_node::lock_writing::write_name":
	mov	x8, #29811
	movk	x8, #26465, lsl #16
	movk	x8, #28265, lsl #32
	movk	x8, #12135, lsl #48
	str	x8, [x1]
	adrp	x8, .Lstatic.1
	add	x8, x8, :lo12:.Lstatic.1
	ldr	x9, [x0]
	rev	x9, x9
	ubfx	x10, x9, #4, #4
	and	x11, x9, #0xf
	ubfx	x12, x9, #12, #4
	ubfx	x13, x9, #8, #4
	ubfx	x14, x9, #20, #4
	ubfx	x15, x9, #16, #4
	lsr	w16, w9, #28
	ubfx	x17, x9, #24, #4
	ubfx	x18, x9, #36, #4
	ubfx	x2, x9, #32, #4
	ubfx	x3, x9, #44, #4
	ubfx	x4, x9, #40, #4
	ubfx	x5, x9, #52, #4
	ubfx	x6, x9, #48, #4
	lsr	x7, x9, #60
	ubfx	x9, x9, #56, #4
	ldrb	w11, [x8, x11]
	ldrb	w10, [x8, x10]
	ldrb	w12, [x8, x12]
	ldrb	w13, [x8, x13]
	ldrb	w14, [x8, x14]
	ldrb	w15, [x8, x15]
	ldrb	w16, [x8, x16]
	ldrb	w17, [x8, x17]
	ldrb	w18, [x8, x18]
	ldrb	w2, [x8, x2]
	ldrb	w3, [x8, x3]
	ldrb	w4, [x8, x4]
	ldrb	w5, [x8, x5]
	ldrb	w6, [x8, x6]
	ldrb	w7, [x8, x7]
	ldrb	w9, [x8, x9]
	strb	w10, [x1, #8]
	strb	w11, [x1, #9]
	strb	w12, [x1, #10]
	strb	w13, [x1, #11]
	strb	w14, [x1, #12]
	strb	w15, [x1, #13]
	strb	w16, [x1, #14]
	strb	w17, [x1, #15]
	strb	w18, [x1, #16]
	strb	w2, [x1, #17]
	strb	w3, [x1, #18]
	strb	w4, [x1, #19]
	strb	w5, [x1, #20]
	strb	w6, [x1, #21]
	strb	w7, [x1, #22]
	strb	w9, [x1, #23]
	ldr	x9, [x0, #8]
	rev	x9, x9
	ubfx	x10, x9, #4, #4
	and	x11, x9, #0xf
	ubfx	x12, x9, #12, #4
	ubfx	x13, x9, #8, #4
	ubfx	x14, x9, #20, #4
	ubfx	x15, x9, #16, #4
	lsr	w16, w9, #28
	ubfx	x17, x9, #24, #4
	ubfx	x18, x9, #36, #4
	ubfx	x2, x9, #32, #4
	ubfx	x3, x9, #44, #4
	ubfx	x4, x9, #40, #4
	ubfx	x5, x9, #52, #4
	ubfx	x6, x9, #48, #4
	lsr	x7, x9, #60
	ubfx	x9, x9, #56, #4
	ldrb	w10, [x8, x10]
	ldrb	w11, [x8, x11]
	ldrb	w12, [x8, x12]
	ldrb	w13, [x8, x13]
	ldrb	w14, [x8, x14]
	ldrb	w15, [x8, x15]
	ldrb	w16, [x8, x16]
	ldrb	w17, [x8, x17]
	ldrb	w18, [x8, x18]
	ldrb	w2, [x8, x2]
	ldrb	w3, [x8, x3]
	ldrb	w4, [x8, x4]
	ldrb	w5, [x8, x5]
	ldrb	w6, [x8, x6]
	ldrb	w7, [x8, x7]
	ldrb	w9, [x8, x9]
	strb	w10, [x1, #24]
	strb	w11, [x1, #25]
	strb	w12, [x1, #26]
	strb	w13, [x1, #27]
	strb	w14, [x1, #28]
	strb	w15, [x1, #29]
	strb	w16, [x1, #30]
	strb	w17, [x1, #31]
	strb	w18, [x1, #32]
	strb	w2, [x1, #33]
	strb	w3, [x1, #34]
	strb	w4, [x1, #35]
	strb	w5, [x1, #36]
	strb	w6, [x1, #37]
	strb	w7, [x1, #38]
	strb	w9, [x1, #39]
	ldr	x9, [x0, #16]
	rev	x9, x9
	ubfx	x10, x9, #4, #4
	and	x11, x9, #0xf
	ubfx	x12, x9, #12, #4
	ubfx	x13, x9, #8, #4
	ubfx	x14, x9, #20, #4
	ubfx	x15, x9, #16, #4
	lsr	w16, w9, #28
	ubfx	x17, x9, #24, #4
	ubfx	x18, x9, #36, #4
	ubfx	x0, x9, #32, #4
	ubfx	x2, x9, #44, #4
	ubfx	x3, x9, #40, #4
	ubfx	x4, x9, #52, #4
	ubfx	x5, x9, #48, #4
	lsr	x6, x9, #60
	ubfx	x9, x9, #56, #4
	ldrb	w10, [x8, x10]
	ldrb	w11, [x8, x11]
	ldrb	w12, [x8, x12]
	ldrb	w13, [x8, x13]
	ldrb	w14, [x8, x14]
	ldrb	w15, [x8, x15]
	ldrb	w16, [x8, x16]
	ldrb	w17, [x8, x17]
	ldrb	w18, [x8, x18]
	ldrb	w0, [x8, x0]
	ldrb	w2, [x8, x2]
	ldrb	w3, [x8, x3]
	ldrb	w4, [x8, x4]
	ldrb	w5, [x8, x5]
	ldrb	w6, [x8, x6]
	ldrb	w8, [x8, x9]
	strb	w10, [x1, #40]
	strb	w11, [x1, #41]
	strb	w12, [x1, #42]
	strb	w13, [x1, #43]
	strb	w14, [x1, #44]
	strb	w15, [x1, #45]
	strb	w16, [x1, #46]
	strb	w17, [x1, #47]
	strb	w18, [x1, #48]
	strb	w0, [x1, #49]
	strb	w2, [x1, #50]
	strb	w3, [x1, #51]
	strb	w4, [x1, #52]
	strb	w5, [x1, #53]
	strb	w6, [x1, #54]
	strb	w8, [x1, #55]
	ret
.Lfunc_end0:
	.size	"ct_node::lock_writing::write_name", .Lfunc_end0-"ct_node::lock_writing::write_name"
	.section	".text.ct_node::lock_reading::number_in","ax",@progbits
	.p2align	2
	.type	"ct_node::lock_reading::number_in",@function
"ct_node::lock_reading::number_in":
	add	x11, x0, x1
	ldrb	w9, [x11]
	subs	w8, w9, #48
	b.lo	.LBB1_113
	ldrb	w10, [x11, #1]
	cmp	w9, #57
	b.hi	.LBB1_33
.LBB1_2:
	subs	w9, w10, #48
	b.lo	.LBB1_113
	cmp	w10, #57
	b.hi	.LBB1_36
.LBB1_4:
	ldrb	w12, [x11, #2]
	subs	w10, w12, #48
	b.lo	.LBB1_113
	ldrb	w13, [x11, #3]
	cmp	w12, #58
	b.hs	.LBB1_41
.LBB1_6:
	subs	w12, w13, #48
	b.lo	.LBB1_113
	cmp	w13, #58
	b.hs	.LBB1_46
.LBB1_8:
	ldrb	w14, [x11, #4]
	subs	w13, w14, #48
	b.lo	.LBB1_113
	ldrb	w15, [x11, #5]
	cmp	w14, #58
	b.hs	.LBB1_51
.LBB1_10:
	subs	w14, w15, #48
	b.lo	.LBB1_113
	cmp	w15, #58
	b.hs	.LBB1_56
.LBB1_12:
	ldrb	w16, [x11, #6]
	subs	w15, w16, #48
	b.lo	.LBB1_113
	ldrb	w17, [x11, #7]
	cmp	w16, #58
	b.hs	.LBB1_61
.LBB1_14:
	subs	w16, w17, #48
	b.lo	.LBB1_113
	cmp	w17, #58
	b.hs	.LBB1_66
.LBB1_16:
	ldrb	w18, [x11, #8]
	subs	w17, w18, #48
	b.lo	.LBB1_113
	ldrb	w0, [x11, #9]
	cmp	w18, #58
	b.hs	.LBB1_71
.LBB1_18:
	subs	w18, w0, #48
	b.lo	.LBB1_113
	cmp	w0, #58
	b.hs	.LBB1_76
.LBB1_20:
	ldrb	w1, [x11, #10]
	subs	w0, w1, #48
	b.lo	.LBB1_113
	ldrb	w2, [x11, #11]
	cmp	w1, #58
	b.hs	.LBB1_81
.LBB1_22:
	subs	w1, w2, #48
	b.lo	.LBB1_113
	cmp	w2, #58
	b.hs	.LBB1_86
.LBB1_24:
	ldrb	w3, [x11, #12]
	subs	w2, w3, #48
	b.lo	.LBB1_113
	ldrb	w4, [x11, #13]
	cmp	w3, #58
	b.hs	.LBB1_91
.LBB1_26:
	subs	w3, w4, #48
	b.lo	.LBB1_113
	cmp	w4, #58
	b.hs	.LBB1_96
.LBB1_28:
	ldrb	w5, [x11, #14]
	subs	w4, w5, #48
	b.lo	.LBB1_113
	ldrb	w11, [x11, #15]
	cmp	w5, #58
	b.hs	.LBB1_101
.LBB1_30:
	subs	w5, w11, #48
	b.lo	.LBB1_113
	cmp	w11, #58
	b.hs	.LBB1_106
.LBB1_32:
	add	w11, w3, w2, lsl #4
	add	w2, w5, w4, lsl #4
	add	w0, w1, w0, lsl #4
	add	w17, w18, w17, lsl #4
	add	w15, w16, w15, lsl #4
	add	w13, w14, w13, lsl #4
	and	w11, w11, #0xff
	and	w18, w0, #0xff
	add	w10, w12, w10, lsl #4
	lsl	x11, x11, #48
	and	w16, w17, #0xff
	lsl	w15, w15, #24
	add	w8, w9, w8, lsl #4
	mov	w0, #1
	orr	x11, x11, x2, lsl #56
	and	x8, x8, #0xff
	orr	x11, x11, x18, lsl #40
	orr	x11, x11, x16, lsl #32
	orr	x11, x11, x15
	bfi	x11, x13, #16, #8
	bfi	x11, x10, #8, #8
	orr	x8, x11, x8
	rev	x1, x8
	ret
.LBB1_33:
	cmp	w9, #65
	b.lo	.LBB1_113
	cmp	w9, #70
	b.hi	.LBB1_39
	sub	w8, w9, #55
	b	.LBB1_2
.LBB1_36:
	cmp	w10, #65
	b.lo	.LBB1_113
	cmp	w10, #70
	b.hi	.LBB1_44
	sub	w9, w10, #55
	b	.LBB1_4
.LBB1_39:
	sub	w8, w9, #97
	cmp	w8, #5
	b.hi	.LBB1_113
	sub	w8, w9, #87
	b	.LBB1_2
.LBB1_41:
	cmp	w12, #65
	b.lo	.LBB1_113
	cmp	w12, #71
	b.hs	.LBB1_49
	sub	w10, w12, #55
	b	.LBB1_6
.LBB1_44:
	sub	w9, w10, #97
	cmp	w9, #5
	b.hi	.LBB1_113
	sub	w9, w10, #87
	b	.LBB1_4
.LBB1_46:
	cmp	w13, #65
	b.lo	.LBB1_113
	cmp	w13, #71
	b.hs	.LBB1_54
	sub	w12, w13, #55
	b	.LBB1_8
.LBB1_49:
	sub	w10, w12, #97
	cmp	w10, #5
	b.hi	.LBB1_113
	sub	w10, w12, #87
	b	.LBB1_6
.LBB1_51:
	cmp	w14, #65
	b.lo	.LBB1_113
	cmp	w14, #71
	b.hs	.LBB1_59
	sub	w13, w14, #55
	b	.LBB1_10
.LBB1_54:
	sub	w12, w13, #97
	cmp	w12, #5
	b.hi	.LBB1_113
	sub	w12, w13, #87
	b	.LBB1_8
.LBB1_56:
	cmp	w15, #65
	b.lo	.LBB1_113
	cmp	w15, #71
	b.hs	.LBB1_64
	sub	w14, w15, #55
	b	.LBB1_12
.LBB1_59:
	sub	w13, w14, #97
	cmp	w13, #5
	b.hi	.LBB1_113
	sub	w13, w14, #87
	b	.LBB1_10
.LBB1_61:
	cmp	w16, #65
	b.lo	.LBB1_113
	cmp	w16, #71
	b.hs	.LBB1_69
	sub	w15, w16, #55
	b	.LBB1_14
.LBB1_64:
	sub	w14, w15, #97
	cmp	w14, #5
	b.hi	.LBB1_113
	sub	w14, w15, #87
	b	.LBB1_12
.LBB1_66:
	cmp	w17, #65
	b.lo	.LBB1_113
	cmp	w17, #71
	b.hs	.LBB1_74
	sub	w16, w17, #55
	b	.LBB1_16
.LBB1_69:
	sub	w15, w16, #97
	cmp	w15, #5
	b.hi	.LBB1_113
	sub	w15, w16, #87
	b	.LBB1_14
.LBB1_71:
	cmp	w18, #65
	b.lo	.LBB1_113
	cmp	w18, #71
	b.hs	.LBB1_79
	sub	w17, w18, #55
	b	.LBB1_18
.LBB1_74:
	sub	w16, w17, #97
	cmp	w16, #5
	b.hi	.LBB1_113
	sub	w16, w17, #87
	b	.LBB1_16
.LBB1_76:
	cmp	w0, #65
	b.lo	.LBB1_113
	cmp	w0, #71
	b.hs	.LBB1_84
	sub	w18, w0, #55
	b	.LBB1_20
.LBB1_79:
	sub	w17, w18, #97
	cmp	w17, #5
	b.hi	.LBB1_113
	sub	w17, w18, #87
	b	.LBB1_18
.LBB1_81:
	cmp	w1, #65
	b.lo	.LBB1_113
	cmp	w1, #71
	b.hs	.LBB1_89
	sub	w0, w1, #55
	b	.LBB1_22
.LBB1_84:
	sub	w18, w0, #97
	cmp	w18, #5
	b.hi	.LBB1_113
	sub	w18, w0, #87
	b	.LBB1_20
.LBB1_86:
	cmp	w2, #65
	b.lo	.LBB1_113
	cmp	w2, #71
	b.hs	.LBB1_94
	sub	w1, w2, #55
	b	.LBB1_24
.LBB1_89:
	sub	w0, w1, #97
	cmp	w0, #5
	b.hi	.LBB1_113
	sub	w0, w1, #87
	b	.LBB1_22
.LBB1_91:
	cmp	w3, #65
	b.lo	.LBB1_113
	cmp	w3, #71
	b.hs	.LBB1_99
	sub	w2, w3, #55
	b	.LBB1_26
.LBB1_94:
	sub	w1, w2, #97
	cmp	w1, #5
	b.hi	.LBB1_113
	sub	w1, w2, #87
	b	.LBB1_24
.LBB1_96:
	cmp	w4, #65
	b.lo	.LBB1_113
	cmp	w4, #71
	b.hs	.LBB1_104
	sub	w3, w4, #55
	b	.LBB1_28
.LBB1_99:
	sub	w2, w3, #97
	cmp	w2, #5
	b.hi	.LBB1_113
	sub	w2, w3, #87
	b	.LBB1_26
.LBB1_101:
	cmp	w5, #65
	b.lo	.LBB1_113
	cmp	w5, #71
	b.hs	.LBB1_109
	sub	w4, w5, #55
	b	.LBB1_30
.LBB1_104:
	sub	w3, w4, #97
	cmp	w3, #5
	b.hi	.LBB1_113
	sub	w3, w4, #87
	b	.LBB1_28
.LBB1_106:
	cmp	w11, #65
	b.lo	.LBB1_113
	cmp	w11, #71
	b.hs	.LBB1_111
	sub	w5, w11, #55
	b	.LBB1_32
.LBB1_109:
	sub	w4, w5, #97
	cmp	w4, #5
	b.hi	.LBB1_113
	sub	w4, w5, #87
	b	.LBB1_30
.LBB1_111:
	sub	w5, w11, #97
	cmp	w5, #5
	b.hi	.LBB1_113
	sub	w5, w11, #87
	b	.LBB1_32
.LBB1_113:
	mov	w0, wzr
	mov	x1, xzr
	ret
.Lfunc_end1:
	.size	"ct_node::lock_reading::number_in", .Lfunc_end1-"ct_node::lock_reading::number_in"
	.section	.rodata.cst16,"aM",@progbits,16
	.p2align	4, 0x0
.LCPI2_0:
	.byte	1
	.byte	2
	.byte	4
	.byte	8
	.byte	16
	.byte	32
	.byte	64
	.byte	128
	.byte	1
	.byte	2
	.byte	4
	.byte	8
	.byte	16
	.byte	32
	.byte	64
	.byte	128
	.section	".text.core::cmp::slices::groups_equal::<i8,31'core::cmp::numbers::U8PartialEq{}>","ax",@progbits
	.p2align	2
	.type	"core::cmp::slices::groups_equal::<i8,31'core::cmp::numbers::U8PartialEq{}>",@function
"core::cmp::slices::groups_equal::<i8,31'core::cmp::numbers::U8PartialEq{}>":
	subs	x9, x1, #8
	b.hi	.LBB2_2
	sub	x8, x1, #4
	ldr	s0, [x0]
	ldr	s1, [x2]
	add	x9, x0, x8
	add	x8, x2, x8
	ld1	{ v0.s }[1], [x9]
	ld1	{ v1.s }[1], [x8]
	fmov	x8, d0
	fmov	x9, d1
	cmp	x8, x9
	cset	w8, ne
	eor	w0, w8, #0x1
	ret
.LBB2_2:
	subs	x8, x1, #32
	b.hi	.LBB2_4
	cmp	x9, #8
	mov	w8, #8
	mov	w10, #16
	csel	x8, x9, x8, lo
	cmp	x9, #16
	ldr	d0, [x0]
	ldr	d1, [x2]
	ldr	d2, [x0, x8]
	ldr	d3, [x2, x8]
	csel	x8, x9, x10, lo
	ldr	d5, [x2, x9]
	ldr	d4, [x0, x8]
	mov	v0.d[1], v2.d[0]
	mov	v1.d[1], v3.d[0]
	ldr	d2, [x2, x8]
	ldr	d3, [x0, x9]
	mov	v4.d[1], v3.d[0]
	mov	v2.d[1], v5.d[0]
	cmeq	v0.16b, v0.16b, v1.16b
	cmeq	v1.16b, v4.16b, v2.16b
	b	.LBB2_17
.LBB2_4:
	cmp	x1, #65
	b.hs	.LBB2_6
	ldp	q1, q0, [x0]
	add	x9, x2, x8
	ldp	q3, q2, [x2]
	add	x8, x0, x8
	ldp	q4, q5, [x9]
	cmeq	v1.16b, v1.16b, v3.16b
	cmeq	v0.16b, v0.16b, v2.16b
	ldp	q2, q3, [x8]
	mvn	v1.16b, v1.16b
	mvn	v0.16b, v0.16b
	cmeq	v2.16b, v2.16b, v4.16b
	cmeq	v3.16b, v3.16b, v5.16b
	orn	v0.16b, v0.16b, v3.16b
	orn	v1.16b, v1.16b, v2.16b
	orr	v0.16b, v1.16b, v0.16b
	umaxv	b0, v0.16b
	fmov	w8, s0
	and	w8, w8, #0x1
	eor	w0, w8, #0x1
	ret
.LBB2_6:
	and	x9, x1, #0xffffffffffffffc0
	add	x10, x0, #32
	add	x12, x2, #32
	mov	w11, #32
	mov	x13, x1
.LBB2_7:
	ldp	q0, q3, [x12, #-32]
	ldp	q1, q2, [x10, #-32]
	ldp	q4, q5, [x12], #64
	cmeq	v0.16b, v1.16b, v0.16b
	cmeq	v1.16b, v2.16b, v3.16b
	ldp	q2, q3, [x10], #64
	mvn	v0.16b, v0.16b
	mvn	v1.16b, v1.16b
	cmeq	v2.16b, v2.16b, v4.16b
	cmeq	v3.16b, v3.16b, v5.16b
	orn	v0.16b, v0.16b, v2.16b
	orn	v1.16b, v1.16b, v3.16b
	orr	v0.16b, v1.16b, v0.16b
	umaxv	b0, v0.16b
	fmov	w14, s0
	tbnz	w14, #0, .LBB2_10
	sub	x13, x13, #64
	add	x11, x11, #64
	cmp	x13, #63
	b.hi	.LBB2_7
	sub	x10, x1, x9
	cmp	x10, #32
	b.hs	.LBB2_11
	b	.LBB2_16
.LBB2_10:
	sub	x9, x11, #32
	sub	x10, x1, x9
	cmp	x10, #32
	b.lo	.LBB2_16
.LBB2_11:
	add	x11, x0, x9
	add	x9, x2, x9
.LBB2_12:
	ldp	q0, q1, [x11], #32
	ldp	q2, q3, [x9], #32
	adrp	x12, .LCPI2_0
	cmeq	v1.16b, v1.16b, v3.16b
	cmeq	v0.16b, v0.16b, v2.16b
	ldr	q2, [x12, :lo12:.LCPI2_0]
	bic	v1.16b, v2.16b, v1.16b
	bic	v0.16b, v2.16b, v0.16b
	ext	v2.16b, v1.16b, v1.16b, #8
	ext	v3.16b, v0.16b, v0.16b, #8
	zip1	v1.16b, v1.16b, v2.16b
	zip1	v0.16b, v0.16b, v3.16b
	addv	h1, v1.8h
	addv	h0, v0.8h
	fmov	w12, s1
	fmov	w13, s0
	orr	w12, w13, w12
	tst	w12, #0xffff
	b.ne	.LBB2_14
	sub	x10, x10, #32
	cmp	x10, #31
	b.hi	.LBB2_12
	b	.LBB2_16
.LBB2_14:
	cmp	x10, #31
	b.ls	.LBB2_16
	mov	w8, #1
	eor	w0, w8, #0x1
	ret
.LBB2_16:
	add	x9, x0, x8
	add	x8, x2, x8
	ldp	q0, q3, [x8]
	ldp	q1, q2, [x9]
	cmeq	v0.16b, v1.16b, v0.16b
	cmeq	v1.16b, v2.16b, v3.16b
.LBB2_17:
	mvn	v0.16b, v0.16b
	orn	v0.16b, v0.16b, v1.16b
	umaxv	b0, v0.16b
	fmov	w8, s0
	and	w8, w8, #0x1
	eor	w0, w8, #0x1
	ret
.Lfunc_end2:
	.size	"core::cmp::slices::groups_equal::<i8,31'core::cmp::numbers::U8PartialEq{}>", .Lfunc_end2-"core::cmp::slices::groups_equal::<i8,31'core::cmp::numbers::U8PartialEq{}>"
	.section	".text.ct_promise::leaf::promised_leaf","ax",@progbits
	.p2align	2
	.type	"ct_promise::leaf::promised_leaf",@function
"ct_promise::leaf::promised_leaf":
	sub	sp, sp, #432
	movi	v0.2d, #0000000000000000
	stp	x29, x30, [sp, #336]
	add	x29, sp, #336
	stp	x24, x23, [sp, #384]
	mov	x24, x3
	mov	x3, x2
	stp	x20, x19, [sp, #416]
	mov	x2, x1
	mov	x19, x0
	add	x0, sp, #152
	mov	w1, wzr
	stp	x28, x27, [sp, #352]
	stp	x26, x25, [sp, #368]
	mov	x20, x7
	mov	x23, x4
	stp	x22, x21, [sp, #400]
	mov	x21, x6
	mov	x22, x5
	stp	xzr, xzr, [sp]
	strb	wzr, [sp, #24]
	str	xzr, [sp, #16]
	stp	q0, q0, [x29, #-160]
	stp	xzr, xzr, [sp, #160]
	stp	xzr, xzr, [sp, #144]
	stp	q0, q0, [sp, #32]
	stp	q0, q0, [sp, #64]
	stp	q0, q0, [sp, #96]
	str	q0, [sp, #128]
	bl	"ct_promise::leaf::tbs_in"
	ldrb	w8, [sp, #152]
	cbz	w8, .LBB3_2
.LBB3_1:
	ldrh	w8, [sp, #156]
	ldrb	w9, [sp, #155]
	mov	w10, wzr
	ldrb	w12, [sp, #154]
	ldrb	w11, [sp, #153]
	b	.LBB3_4
.LBB3_2:
	ldp	x2, x3, [sp, #160]
	adrp	x1, .Lstatic.3
	add	x1, x1, :lo12:.Lstatic.3
	add	x0, sp, #64
	add	x26, sp, #64
	bl	"ct_promise::entry::cut_in"
	ldrb	w8, [sp, #64]
	cbz	w8, .LBB3_7
	ldrh	w8, [sp, #68]
	ldrb	w9, [sp, #67]
	mov	w10, wzr
	ldrb	w12, [sp, #66]
	ldrb	w11, [sp, #65]
.LBB3_4:
	stur	xzr, [sp, #1]
	mov	w13, #1
	stur	xzr, [sp, #17]
.LBB3_5:
	stur	xzr, [sp, #9]
.LBB3_6:
	ldur	q0, [sp, #1]
	sturh	w8, [x19, #5]
	ldur	x8, [sp, #17]
	strb	w13, [x19]
	ldp	x22, x21, [sp, #400]
	strb	w10, [x19, #1]
	ldp	x24, x23, [sp, #384]
	strb	w11, [x19, #2]
	ldp	x26, x25, [sp, #368]
	strb	w12, [x19, #3]
	ldp	x28, x27, [sp, #352]
	strb	w9, [x19, #4]
	ldp	x29, x30, [sp, #336]
	stur	q0, [x19, #8]
	str	x8, [x19, #24]
	ldp	x20, x19, [sp, #416]
	add	sp, sp, #432
	ret
.LBB3_7:
	add	x0, sp, #152
	mov	w1, #1
	mov	x2, x24
	mov	x3, x23
	bl	"ct_promise::leaf::tbs_in"
	ldrb	w8, [sp, #152]
	cbnz	w8, .LBB3_1
	movi	v0.2d, #0000000000000000
	ldp	x1, x2, [sp, #160]
	sub	x0, x29, #48
	stp	xzr, xzr, [x29, #-120]
	stur	xzr, [x29, #-104]
	stp	q0, q0, [x29, #-32]
	stur	q0, [x29, #-48]
	bl	"ct_promise::der_reading::next_element"
	ldurb	w8, [x29, #-48]
	cbz	w8, .LBB3_10
	ldurb	w8, [x29, #-47]
	b	.LBB3_14
.LBB3_10:
	ldurb	w8, [x29, #-40]
	cmp	w8, #48
	b.ne	.LBB3_13
	ldur	x8, [x29, #-8]
	ldur	q0, [x29, #-32]
	sub	x25, x29, #160
	stur	q0, [x25, #96]
	cbz	x8, .LBB3_17
	mov	w8, #6
	b	.LBB3_14
.LBB3_13:
	mov	w8, #5
.LBB3_14:
	mov	w9, #1
	sturb	w8, [x29, #-117]
	sturb	w9, [x29, #-118]
	ldurh	w8, [x29, #-118]
.LBB3_15:
	mov	w9, wzr
.LBB3_16:
	mov	w10, wzr
	mov	w11, wzr
	stur	xzr, [sp, #1]
	stur	xzr, [sp, #17]
	mov	w13, #1
	mov	w12, #1
	b	.LBB3_5
.LBB3_17:
	sub	x8, x29, #70
	sub	x0, x29, #120
	ldur	q0, [x8, #6]
	stur	q0, [x25, #48]
	ldp	x1, x2, [x29, #-112]
	bl	"ct_promise::reading::after_subject"
	ldurb	w8, [x29, #-120]
	cbz	w8, .LBB3_19
	ldurh	w8, [x29, #-118]
	ldurb	w9, [x29, #-119]
	b	.LBB3_16
.LBB3_19:
	movi	v0.2d, #0000000000000000
	ldp	x23, x24, [x29, #-112]
	sub	x0, x29, #48
	mov	x1, x23
	mov	x2, x24
	stp	q0, q0, [x29, #-32]
	stur	q0, [x29, #-48]
	bl	"ct_promise::der_reading::next_element"
	ldurb	w8, [x29, #-48]
	cbz	w8, .LBB3_21
	ldurb	w8, [x29, #-47]
	b	.LBB3_25
.LBB3_21:
	ldurb	w8, [x29, #-40]
	cmp	w8, #48
	b.ne	.LBB3_24
	ldur	x27, [x29, #-8]
	add	x0, sp, #32
	orr	x1, x26, #0x8
	bl	"ct_promise::entry::without_cut"
	ldrb	w8, [sp, #32]
	cbz	w8, .LBB3_26
	ldurh	w8, [sp, #37]
	ldrb	w9, [sp, #36]
	ldrb	w12, [sp, #35]
	ldrb	w11, [sp, #34]
	ldrb	w10, [sp, #33]
	b	.LBB3_4
.LBB3_24:
	mov	w8, #5
.LBB3_25:
	mov	w9, #10
	orr	w8, w9, w8, lsl #8
	b	.LBB3_15
.LBB3_26:
	subs	x8, x24, x27
	ldp	x24, x5, [sp, #40]
	ldr	x26, [sp, #56]
	csel	x3, xzr, x8, lo
	sub	x0, x29, #160
	mov	x1, x22
	mov	x2, x23
	mov	x6, x21
	mov	x4, x24
	mov	x7, x20
	bl	"ct_promise::leaf::leaf_of"
	cbz	x26, .LBB3_28
	mov	x0, x24
	bl	rattle_dealloc
.LBB3_28:
	ldur	q0, [x25, #8]
	ldur	x14, [x29, #-136]
	ldurb	w13, [x29, #-160]
	ldurb	w10, [x29, #-159]
	ldurb	w11, [x29, #-158]
	ldurb	w12, [x29, #-157]
	ldurb	w9, [x29, #-156]
	ldurh	w8, [x25, #5]
	stur	q0, [sp, #1]
	stur	x14, [sp, #17]
	b	.LBB3_6
.Lfunc_end3:
	.size	"ct_promise::leaf::promised_leaf", .Lfunc_end3-"ct_promise::leaf::promised_leaf"
	.section	".text.ct_promise::entry::cut_in","ax",@progbits
	.p2align	2
	.type	"ct_promise::entry::cut_in",@function
"ct_promise::entry::cut_in":
	sub	sp, sp, #368
	movi	v0.2d, #0000000000000000
	stp	x29, x30, [sp, #272]
	add	x29, sp, #272
	stp	x22, x21, [sp, #336]
	mov	x21, x1
	mov	x1, x2
	stp	x20, x19, [sp, #352]
	mov	x19, x0
	sub	x0, x29, #64
	mov	x2, x3
	stp	x28, x27, [sp, #288]
	stp	x26, x25, [sp, #304]
	stp	x24, x23, [sp, #320]
	stp	q0, q0, [x29, #-48]
	stur	q0, [x29, #-64]
	bl	"ct_promise::der_reading::next_element"
	ldurb	w8, [x29, #-64]
	cbz	w8, .LBB4_2
	ldurb	w8, [x29, #-63]
	b	.LBB4_6
.LBB4_2:
	ldurb	w8, [x29, #-56]
	cmp	w8, #48
	b.ne	.LBB4_5
	ldur	x8, [x29, #-24]
	cbz	x8, .LBB4_8
	mov	w8, #6
	b	.LBB4_6
.LBB4_5:
	mov	w8, #5
.LBB4_6:
	mov	w18, #1
	mov	x20, xzr
	mov	x10, xzr
	mov	x13, xzr
	mov	x11, xzr
	mov	x26, xzr
	mov	x12, xzr
	mov	x16, xzr
	mov	x27, xzr
	mov	x25, xzr
	mov	x24, xzr
	orr	w9, w18, w8, lsl #8
	mov	w8, wzr
.LBB4_7:
	strb	w18, [x19]
	ldp	x22, x21, [sp, #336]
	sturh	wzr, [x19, #1]
	ldp	x29, x30, [sp, #272]
	strb	w8, [x19, #3]
	strh	w9, [x19, #4]
	stp	x20, x10, [x19, #8]
	stp	x13, x11, [x19, #24]
	stp	x26, x12, [x19, #40]
	stp	x16, x27, [x19, #56]
	ldp	x28, x27, [sp, #288]
	stp	x25, x24, [x19, #72]
	ldp	x20, x19, [sp, #352]
	ldp	x24, x23, [sp, #320]
	ldp	x26, x25, [sp, #304]
	add	sp, sp, #368
	ret
.LBB4_8:
	ldp	x20, x22, [x29, #-48]
	add	x0, sp, #48
	stp	xzr, xzr, [sp, #48]
	add	x23, sp, #48
	str	xzr, [sp, #64]
	mov	x1, x20
	mov	x2, x22
	bl	"ct_promise::reading::after_subject"
	ldrb	w8, [sp, #48]
	cbz	w8, .LBB4_10
	ldrh	w18, [sp, #50]
	ldrb	w8, [sp, #49]
	lsr	w9, w18, #8
	b	.LBB4_19
.LBB4_10:
	movi	v0.2d, #0000000000000000
	ldp	x1, x2, [sp, #56]
	sub	x0, x29, #64
	stp	q0, q0, [x29, #-64]
	stur	q0, [x29, #-32]
	bl	"ct_promise::der_reading::next_element"
	ldurb	w8, [x29, #-64]
	cbz	w8, .LBB4_12
	ldurb	w9, [x29, #-63]
	b	.LBB4_18
.LBB4_12:
	ldurb	w8, [x29, #-56]
	cmp	w8, #48
	b.ne	.LBB4_17
	ldp	q1, q0, [x29, #-48]
	stur	q0, [x23, #8]
	ldr	x2, [sp, #64]
	stp	q0, q1, [sp, #96]
	stur	q1, [sp, #80]
	cbz	x2, .LBB4_32
	ldr	x1, [sp, #56]
	ldrb	w8, [x1]
	cmp	w8, #129
	b.ne	.LBB4_24
	movi	v0.2d, #0000000000000000
	sub	x0, x29, #64
	stp	q0, q0, [x29, #-48]
	stur	q0, [x29, #-64]
	bl	"ct_promise::der_reading::next_element"
	ldurb	w8, [x29, #-64]
	cbz	w8, .LBB4_21
	ldurb	w9, [x29, #-63]
	b	.LBB4_39
.LBB4_17:
	mov	w9, #5
.LBB4_18:
	mov	w8, wzr
	mov	w18, #10
.LBB4_19:
	mov	x20, xzr
	mov	x10, xzr
	mov	x13, xzr
	mov	x11, xzr
	mov	x26, xzr
	mov	x12, xzr
	mov	x16, xzr
	mov	x27, xzr
	mov	x25, xzr
	mov	x24, xzr
	and	w18, w18, #0xff
.LBB4_20:
	orr	w9, w18, w9, lsl #8
	mov	w18, #1
	b	.LBB4_7
.LBB4_21:
	ldurb	w8, [x29, #-56]
	cmp	w8, #129
	b.ne	.LBB4_38
	ldur	x2, [x29, #-24]
	cbz	x2, .LBB4_32
	ldur	x1, [x29, #-32]
	ldrb	w8, [x1]
.LBB4_24:
	cmp	w8, #130
	b.ne	.LBB4_30
	movi	v0.2d, #0000000000000000
	sub	x0, x29, #64
	stp	q0, q0, [x29, #-48]
	stur	q0, [x29, #-64]
	bl	"ct_promise::der_reading::next_element"
	ldurb	w8, [x29, #-64]
	cbz	w8, .LBB4_27
	ldurb	w9, [x29, #-63]
	b	.LBB4_41
.LBB4_27:
	ldurb	w8, [x29, #-56]
	cmp	w8, #130
	b.ne	.LBB4_40
	ldur	x2, [x29, #-24]
	cbz	x2, .LBB4_32
	ldur	x1, [x29, #-32]
.LBB4_30:
	movi	v0.2d, #0000000000000000
	sub	x0, x29, #64
	mov	x28, x2
	stp	q0, q0, [x29, #-48]
	stur	q0, [x29, #-64]
	bl	"ct_promise::der_reading::next_element"
	ldurb	w8, [x29, #-64]
	cbz	w8, .LBB4_35
.LBB4_31:
	ldurb	w9, [x29, #-63]
	b	.LBB4_48
.LBB4_32:
	mov	w9, wzr
.LBB4_33:
	mov	w8, #1
.LBB4_34:
	mov	x20, xzr
	mov	x10, xzr
	mov	x13, xzr
	mov	x11, xzr
	mov	x26, xzr
	mov	x12, xzr
	mov	x16, xzr
	mov	x27, xzr
	mov	x25, xzr
	mov	x24, xzr
	mov	w18, #1
	b	.LBB4_7
.LBB4_35:
	ldurb	w8, [x29, #-56]
	cmp	w8, #163
	b.ne	.LBB4_47
	ldur	x8, [x29, #-24]
	cbz	x8, .LBB4_42
.LBB4_37:
	mov	w9, #6
	b	.LBB4_48
.LBB4_38:
	mov	w9, #5
.LBB4_39:
	mov	w8, wzr
	mov	w18, #11
	b	.LBB4_19
.LBB4_40:
	mov	w9, #5
.LBB4_41:
	mov	x20, xzr
	mov	x10, xzr
	mov	x13, xzr
	mov	x11, xzr
	mov	x26, xzr
	mov	x12, xzr
	mov	x16, xzr
	mov	x27, xzr
	mov	x25, xzr
	mov	x24, xzr
	mov	w8, wzr
	mov	w18, #12
	b	.LBB4_20
.LBB4_42:
	movi	v0.2d, #0000000000000000
	ldp	x1, x2, [x29, #-48]
	sub	x0, x29, #64
	stp	q0, q0, [x29, #-48]
	stur	q0, [x29, #-64]
	bl	"ct_promise::der_reading::next_element"
	ldurb	w8, [x29, #-64]
	cbnz	w8, .LBB4_31
	ldurb	w8, [x29, #-56]
	cmp	w8, #48
	b.ne	.LBB4_47
	ldur	x8, [x29, #-24]
	cbnz	x8, .LBB4_37
	movi	v0.2d, #0000000000000000
	ldp	x8, x9, [x29, #-48]
	stur	xzr, [x29, #-80]
	stp	x9, x8, [sp, #16]
	stp	q0, q0, [x29, #-112]
	stur	q0, [x29, #-128]
	cbz	x9, .LBB4_33
	ldp	x24, x25, [sp, #16]
	b	.LBB4_50
.LBB4_47:
	mov	w9, #5
.LBB4_48:
	mov	x20, xzr
	mov	x10, xzr
	mov	x13, xzr
	mov	x11, xzr
	mov	x26, xzr
	mov	x12, xzr
	mov	x16, xzr
	mov	x27, xzr
	mov	x25, xzr
	mov	x24, xzr
	mov	w8, wzr
	mov	w18, #13
	b	.LBB4_20
.LBB4_49:
	mov	w9, wzr
	mov	w8, #1
	cbz	x24, .LBB4_34
.LBB4_50:
	sub	x0, x29, #128
	mov	x1, x25
	mov	x2, x24
	mov	x23, x24
	mov	x26, x25
	bl	"ct_promise::reading::next_extension"
	ldurb	w8, [x29, #-128]
	cbnz	w8, .LBB4_62
	ldur	x8, [x29, #-112]
	ldp	x25, x24, [x29, #-88]
	cmp	x8, #10
	b.ne	.LBB4_49
	ldur	x0, [x29, #-120]
	ldr	w9, [x21]
	ldr	w8, [x0]
	cmp	w8, w9
	b.ne	.LBB4_49
	ldp	x8, x27, [x29, #-104]
	mov	w1, #10
	mov	x2, x21
	str	x8, [sp, #40]
	bl	"core::cmp::slices::groups_equal::<i8,31'core::cmp::numbers::U8PartialEq{}>"
	tbz	w0, #0, .LBB4_49
	movi	v0.2d, #0000000000000000
	stur	xzr, [x29, #-16]
	stp	q0, q0, [x29, #-48]
	stur	q0, [x29, #-64]
	cbz	x24, .LBB4_63
	str	x24, [sp, #32]
	str	x25, [sp, #8]
	b	.LBB4_57
.LBB4_56:
	ldr	x8, [sp, #32]
	cbz	x8, .LBB4_63
.LBB4_57:
	ldr	x1, [sp, #8]
	ldr	x2, [sp, #32]
	sub	x0, x29, #64
	bl	"ct_promise::reading::next_extension"
	ldurb	w8, [x29, #-64]
	cbnz	w8, .LBB4_64
	ldur	x9, [x29, #-24]
	ldur	x8, [x29, #-48]
	str	x9, [sp, #8]
	ldur	x9, [x29, #-16]
	cmp	x8, #10
	str	x9, [sp, #32]
	b.ne	.LBB4_56
	ldur	x0, [x29, #-56]
	ldr	w9, [x21]
	ldr	w8, [x0]
	cmp	w8, w9
	b.ne	.LBB4_56
	mov	w1, #10
	mov	x2, x21
	bl	"core::cmp::slices::groups_equal::<i8,31'core::cmp::numbers::U8PartialEq{}>"
	tbz	w0, #0, .LBB4_56
	mov	w9, wzr
	mov	w8, #2
	b	.LBB4_34
.LBB4_62:
	ldurh	w9, [x29, #-126]
	ldurb	w8, [x29, #-127]
	b	.LBB4_34
.LBB4_63:
	ldp	x11, x13, [sp, #16]
	subs	x10, x22, x28
	csel	x10, xzr, x10, lo
	ldr	x16, [sp, #40]
	mov	w18, wzr
	mov	w9, wzr
	mov	w8, wzr
	subs	x11, x11, x23
	csel	x11, xzr, x11, lo
	subs	x12, x23, x24
	csel	x12, xzr, x12, lo
	b	.LBB4_7
.LBB4_64:
	ldurh	w9, [x29, #-62]
	ldurb	w8, [x29, #-63]
	b	.LBB4_34
.Lfunc_end4:
	.size	"ct_promise::entry::cut_in", .Lfunc_end4-"ct_promise::entry::cut_in"
	.section	".text.ct_promise::der_reading::next_element","ax",@progbits
	.p2align	2
	.type	"ct_promise::der_reading::next_element",@function
"ct_promise::der_reading::next_element":
	sub	sp, sp, #16
	stur	wzr, [sp, #11]
	str	wzr, [sp, #8]
	cbz	x2, .LBB5_3
	ldrb	w8, [x1]
	mov	w9, #31
	bics	wzr, w9, w8
	b.ne	.LBB5_5
	movi	v0.2d, #0000000000000000
	mov	w8, #257
	strh	w8, [x0]
	stur	q0, [x0, #8]
	stur	q0, [x0, #24]
	str	xzr, [x0, #40]
	add	sp, sp, #16
	ret
.LBB5_3:
	mov	x9, xzr
	mov	x10, xzr
	mov	x12, xzr
	mov	x11, xzr
	mov	w8, wzr
	mov	w13, #1
.LBB5_4:
	strb	w13, [x0]
	ldr	w13, [sp, #8]
	strb	w8, [x0, #8]
	ldur	w8, [sp, #11]
	strb	wzr, [x0, #1]
	stur	w13, [x0, #9]
	str	w8, [x0, #12]
	stp	x9, x10, [x0, #16]
	stp	x12, x11, [x0, #32]
	add	sp, sp, #16
	ret
.LBB5_5:
	cmp	x2, #1
	b.ne	.LBB5_8
.LBB5_6:
	mov	w8, wzr
.LBB5_7:
	mov	w9, #1
	movi	v0.2d, #0000000000000000
	strb	w8, [x0, #1]
	strb	w9, [x0]
	stur	q0, [x0, #8]
	stur	q0, [x0, #24]
	str	xzr, [x0, #40]
	add	sp, sp, #16
	ret
.LBB5_8:
	ldrsb	x10, [x1, #1]
	add	x9, x1, #2
	sub	x11, x2, #2
	tbnz	x10, #63, .LBB5_11
.LBB5_9:
	subs	x11, x11, x10
	b.hs	.LBB5_18
	movi	v0.2d, #0000000000000000
	mov	w8, #1
	strh	w8, [x0]
	stur	q0, [x0, #8]
	stur	q0, [x0, #24]
	str	xzr, [x0, #40]
	add	sp, sp, #16
	ret
.LBB5_11:
	and	w10, w10, #0xff
	cmp	w10, #129
	b.le	.LBB5_19
	cmp	w10, #130
	b.eq	.LBB5_24
	cmp	w10, #131
	b.eq	.LBB5_27
	cmp	w10, #132
	b.ne	.LBB5_31
	subs	x11, x2, #6
	b.lo	.LBB5_6
	ldrb	w9, [x9]
	cbz	x9, .LBB5_32
	lsl	x9, x9, #24
	ldrb	w10, [x1, #3]
	ldrb	w12, [x1, #5]
	orr	x9, x9, x10, lsl #16
	ldrb	w10, [x1, #4]
	orr	x9, x9, x12
	orr	x10, x9, x10, lsl #8
	add	x9, x1, #6
	b	.LBB5_9
.LBB5_18:
	mov	w13, wzr
	add	x12, x9, x10
	b	.LBB5_4
.LBB5_19:
	cmp	w10, #128
	b.eq	.LBB5_30
	cmp	w10, #129
	b.ne	.LBB5_31
	cbz	x11, .LBB5_6
	ldrsb	w9, [x9]
	tbz	w9, #31, .LBB5_32
	and	x10, x9, #0xff
	sub	x11, x2, #3
	add	x9, x1, #3
	b	.LBB5_9
.LBB5_24:
	subs	x11, x2, #4
	b.lo	.LBB5_6
	ldrb	w9, [x9]
	cbz	x9, .LBB5_32
	ldrb	w10, [x1, #3]
	orr	x10, x10, x9, lsl #8
	add	x9, x1, #4
	b	.LBB5_9
.LBB5_27:
	subs	x11, x2, #5
	b.lo	.LBB5_6
	ldrb	w9, [x9]
	cbz	x9, .LBB5_32
	ldrb	w10, [x1, #4]
	ldrb	w12, [x1, #3]
	orr	x9, x10, x9, lsl #16
	orr	x10, x9, x12, lsl #8
	add	x9, x1, #5
	b	.LBB5_9
.LBB5_30:
	mov	w8, #2
	b	.LBB5_7
.LBB5_31:
	mov	w8, #3
	b	.LBB5_7
.LBB5_32:
	mov	w8, #4
	b	.LBB5_7
.Lfunc_end5:
	.size	"ct_promise::der_reading::next_element", .Lfunc_end5-"ct_promise::der_reading::next_element"
	.section	".text.ct_promise::reading::after_subject","ax",@progbits
	.p2align	2
	.type	"ct_promise::reading::after_subject",@function
"ct_promise::reading::after_subject":
	sub	sp, sp, #240
	stp	x20, x19, [sp, #224]
	mov	x19, x0
	stp	x29, x30, [sp, #208]
	add	x29, sp, #208
	stp	xzr, xzr, [sp, #24]
	str	xzr, [sp, #40]
	str	xzr, [sp]
	cbz	x2, .LBB6_6
	ldrb	w8, [x1]
	cmp	w8, #160
	b.ne	.LBB6_6
	movi	v0.2d, #0000000000000000
	sub	x0, x29, #48
	stp	q0, q0, [x29, #-32]
	stur	q0, [x29, #-48]
	bl	"ct_promise::der_reading::next_element"
	ldurb	w8, [x29, #-48]
	cbz	w8, .LBB6_4
	ldurb	w8, [x29, #-47]
	b	.LBB6_13
.LBB6_4:
	ldurb	w8, [x29, #-40]
	cmp	w8, #160
	b.ne	.LBB6_12
	ldp	x1, x2, [x29, #-16]
.LBB6_6:
	movi	v0.2d, #0000000000000000
	sub	x0, x29, #48
	stp	q0, q0, [x29, #-48]
	stur	q0, [x29, #-16]
	bl	"ct_promise::der_reading::next_element"
	ldurb	w8, [x29, #-48]
	cbz	w8, .LBB6_8
	ldurb	w8, [x29, #-47]
	mov	w9, #5
	b	.LBB6_14
.LBB6_8:
	ldurb	w8, [x29, #-40]
	cmp	w8, #2
	b.ne	.LBB6_11
	ldp	q0, q1, [x29, #-32]
	mov	x20, sp
	movi	v2.2d, #0000000000000000
	sub	x0, x29, #48
	str	wzr, [sp]
	stur	q1, [x20, #8]
	ldp	x1, x2, [sp, #8]
	stur	q0, [sp, #56]
	stur	q1, [sp, #72]
	stp	q2, q2, [x29, #-48]
	stur	q2, [x29, #-16]
	bl	"ct_promise::der_reading::next_element"
	ldurb	w8, [x29, #-48]
	cbz	w8, .LBB6_15
	ldurb	w8, [x29, #-47]
	mov	w9, #6
	b	.LBB6_14
.LBB6_11:
	mov	w8, #5
	mov	w9, #5
	b	.LBB6_14
.LBB6_12:
	mov	w8, #5
.LBB6_13:
	mov	w9, #4
.LBB6_14:
	orr	w8, w9, w8, lsl #8
	mov	w10, #1
	strh	w10, [x19]
	strh	w8, [x19, #2]
	stp	xzr, xzr, [x19, #8]
	ldp	x20, x19, [sp, #224]
	ldp	x29, x30, [sp, #208]
	add	sp, sp, #240
	ret
.LBB6_15:
	ldurb	w8, [x29, #-40]
	cmp	w8, #48
	b.ne	.LBB6_18
	ldp	q0, q1, [x29, #-32]
	movi	v2.2d, #0000000000000000
	sub	x0, x29, #48
	stur	q1, [x20, #8]
	ldp	x1, x2, [sp, #8]
	stur	q0, [sp, #56]
	stur	q1, [sp, #72]
	stp	q2, q2, [x29, #-48]
	stur	q2, [x29, #-16]
	bl	"ct_promise::der_reading::next_element"
	ldurb	w8, [x29, #-48]
	cbz	w8, .LBB6_19
	ldurb	w8, [x29, #-47]
	mov	w9, #7
	b	.LBB6_14
.LBB6_18:
	mov	w8, #5
	mov	w9, #6
	b	.LBB6_14
.LBB6_19:
	ldurb	w8, [x29, #-40]
	cmp	w8, #48
	b.ne	.LBB6_22
	ldp	q1, q0, [x29, #-32]
	mov	x0, sp
	mov	w1, #48
	mov	w2, #8
	stur	q0, [x20, #8]
	ldp	x3, x4, [sp, #8]
	stur	q1, [sp, #56]
	stur	q0, [sp, #72]
	bl	"ct_promise::reading::after_must"
	ldrb	w8, [sp]
	cbz	w8, .LBB6_23
	ldrb	w8, [sp, #1]
	ldrh	w10, [sp, #2]
	mov	w9, #1
	strb	w9, [x19]
	strb	w8, [x19, #1]
	strh	w10, [x19, #2]
	stp	xzr, xzr, [x19, #8]
	ldp	x20, x19, [sp, #224]
	ldp	x29, x30, [sp, #208]
	add	sp, sp, #240
	ret
.LBB6_22:
	mov	w8, #5
	mov	w9, #7
	b	.LBB6_14
.LBB6_23:
	ldp	x3, x4, [sp, #8]
	add	x0, sp, #24
	mov	w1, #48
	mov	w2, #9
	bl	"ct_promise::reading::after_must"
	ldr	w8, [sp, #24]
	ldur	q0, [sp, #32]
	str	w8, [x19]
	stur	q0, [x19, #8]
	ldp	x20, x19, [sp, #224]
	ldp	x29, x30, [sp, #208]
	add	sp, sp, #240
	ret
.Lfunc_end6:
	.size	"ct_promise::reading::after_subject", .Lfunc_end6-"ct_promise::reading::after_subject"
	.section	".text.ct_promise::reading::after_must","ax",@progbits
	.p2align	2
	.type	"ct_promise::reading::after_must",@function
"ct_promise::reading::after_must":
	sub	sp, sp, #208
	movi	v0.2d, #0000000000000000
	stp	x29, x30, [sp, #160]
	add	x29, sp, #160
	str	x21, [sp, #176]
	mov	w21, w1
	mov	x1, x3
	stp	x20, x19, [sp, #192]
	mov	w20, w2
	mov	x19, x0
	sub	x0, x29, #48
	mov	x2, x4
	stp	q0, q0, [x29, #-48]
	stur	q0, [x29, #-16]
	bl	"ct_promise::der_reading::next_element"
	ldurb	w8, [x29, #-48]
	cbz	w8, .LBB7_2
	ldurb	w8, [x29, #-47]
	b	.LBB7_5
.LBB7_2:
	ldurb	w8, [x29, #-40]
	cmp	w8, w21, uxtb
	b.ne	.LBB7_4
	ldp	q0, q1, [x29, #-32]
	mov	w9, wzr
	mov	w8, wzr
	str	q0, [sp, #80]
	stp	q0, q1, [sp]
	stur	q1, [x19, #8]
	b	.LBB7_6
.LBB7_4:
	mov	w8, #5
.LBB7_5:
	and	w9, w20, #0xff
	stp	xzr, xzr, [x19, #8]
	orr	w8, w9, w8, lsl #8
	mov	w9, #1
.LBB7_6:
	strb	w9, [x19]
	ldp	x29, x30, [sp, #160]
	strb	wzr, [x19, #1]
	ldr	x21, [sp, #176]
	strh	w8, [x19, #2]
	ldp	x20, x19, [sp, #192]
	add	sp, sp, #208
	ret
.Lfunc_end7:
	.size	"ct_promise::reading::after_must", .Lfunc_end7-"ct_promise::reading::after_must"
	.section	".text.ct_promise::reading::next_extension","ax",@progbits
	.p2align	2
	.type	"ct_promise::reading::next_extension",@function
"ct_promise::reading::next_extension":
	sub	sp, sp, #176
	movi	v0.2d, #0000000000000000
	stp	x29, x30, [sp, #112]
	add	x29, sp, #112
	stp	x20, x19, [sp, #160]
	mov	x19, x0
	sub	x0, x29, #48
	str	x23, [sp, #128]
	stp	x22, x21, [sp, #144]
	stp	xzr, xzr, [sp]
	str	wzr, [sp, #16]
	stp	q0, q0, [x29, #-32]
	stur	q0, [x29, #-48]
	bl	"ct_promise::der_reading::next_element"
	ldurb	w8, [x29, #-48]
	cbz	w8, .LBB8_2
.LBB8_1:
	ldurb	w8, [x29, #-47]
	b	.LBB8_15
.LBB8_2:
	ldurb	w8, [x29, #-40]
	cmp	w8, #48
	b.ne	.LBB8_14
	movi	v0.2d, #0000000000000000
	ldp	x1, x2, [x29, #-32]
	ldp	x20, x21, [x29, #-16]
	sub	x0, x29, #48
	stp	q0, q0, [x29, #-32]
	stur	q0, [x29, #-48]
	bl	"ct_promise::der_reading::next_element"
	ldurb	w8, [x29, #-48]
	cbnz	w8, .LBB8_1
	ldurb	w8, [x29, #-40]
	cmp	w8, #6
	b.ne	.LBB8_14
	ldp	x1, x2, [x29, #-16]
	ldp	x22, x23, [x29, #-32]
	cbz	x2, .LBB8_10
	ldrb	w8, [x1]
	cmp	w8, #1
	b.ne	.LBB8_10
	movi	v0.2d, #0000000000000000
	sub	x0, x29, #48
	stp	q0, q0, [x29, #-32]
	stur	q0, [x29, #-48]
	bl	"ct_promise::der_reading::next_element"
	ldurb	w8, [x29, #-48]
	cbnz	w8, .LBB8_1
	ldurb	w8, [x29, #-40]
	cmp	w8, #1
	b.ne	.LBB8_14
	ldp	x1, x2, [x29, #-16]
.LBB8_10:
	movi	v0.2d, #0000000000000000
	sub	x0, x29, #48
	stp	q0, q0, [x29, #-32]
	stur	q0, [x29, #-48]
	bl	"ct_promise::der_reading::next_element"
	ldurb	w8, [x29, #-48]
	cbnz	w8, .LBB8_1
	ldurb	w8, [x29, #-40]
	cmp	w8, #4
	b.ne	.LBB8_14
	ldur	x8, [x29, #-8]
	ldur	q0, [x29, #-32]
	stur	q0, [sp, #48]
	cbz	x8, .LBB8_16
	mov	w8, #6
	b	.LBB8_15
.LBB8_14:
	mov	w8, #5
.LBB8_15:
	movi	v0.2d, #0000000000000000
	mov	w9, #13
	mov	w10, #1
	orr	w8, w9, w8, lsl #8
	strh	w10, [x19]
	strh	w8, [x19, #2]
	stur	q0, [x19, #8]
	stur	q0, [x19, #24]
	stur	q0, [x19, #40]
	ldp	x20, x19, [sp, #160]
	ldr	x23, [sp, #128]
	ldp	x22, x21, [sp, #144]
	ldp	x29, x30, [sp, #112]
	add	sp, sp, #176
	ret
.LBB8_16:
	add	x8, sp, #42
	str	wzr, [x19]
	ldur	q0, [x8, #6]
	stp	x22, x23, [x19, #8]
	stp	x20, x21, [x19, #40]
	stur	q0, [sp, #4]
	stur	q0, [x19, #24]
	ldp	x20, x19, [sp, #160]
	ldr	x23, [sp, #128]
	ldp	x22, x21, [sp, #144]
	ldp	x29, x30, [sp, #112]
	add	sp, sp, #176
	ret
.Lfunc_end8:
	.size	"ct_promise::reading::next_extension", .Lfunc_end8-"ct_promise::reading::next_extension"
	.section	".text.ct_promise::leaf::tbs_in","ax",@progbits
	.p2align	2
	.type	"ct_promise::leaf::tbs_in",@function
"ct_promise::leaf::tbs_in":
	sub	sp, sp, #112
	movi	v0.2d, #0000000000000000
	stp	x20, x19, [sp, #96]
	mov	w20, w1
	mov	x19, x0
	mov	x0, sp
	mov	x1, x2
	mov	x2, x3
	stp	x29, x30, [sp, #48]
	add	x29, sp, #48
	str	x23, [sp, #64]
	stp	x22, x21, [sp, #80]
	stp	q0, q0, [sp, #16]
	str	q0, [sp]
	bl	"ct_promise::der_reading::next_element"
	ldrb	w8, [sp]
	cbz	w8, .LBB9_2
	ldrb	w8, [sp, #1]
	b	.LBB9_6
.LBB9_2:
	ldrb	w8, [sp, #8]
	cmp	w8, #48
	b.ne	.LBB9_5
	ldr	x8, [sp, #40]
	cbz	x8, .LBB9_9
	mov	w8, #6
	b	.LBB9_6
.LBB9_5:
	mov	w8, #5
.LBB9_6:
	mov	x21, xzr
	mov	x9, xzr
	lsl	w8, w8, #8
.LBB9_7:
	mov	w10, #1
.LBB9_8:
	strb	w10, [x19]
	ldp	x29, x30, [sp, #48]
	strb	wzr, [x19, #1]
	ldr	x23, [sp, #64]
	strb	w20, [x19, #2]
	strb	wzr, [x19, #3]
	strh	w8, [x19, #4]
	stp	x21, x9, [x19, #8]
	ldp	x20, x19, [sp, #96]
	ldp	x22, x21, [sp, #80]
	add	sp, sp, #112
	ret
.LBB9_9:
	movi	v0.2d, #0000000000000000
	ldp	x21, x22, [sp, #16]
	mov	x0, sp
	mov	x1, x21
	mov	x2, x22
	stp	q0, q0, [sp, #16]
	str	q0, [sp]
	bl	"ct_promise::der_reading::next_element"
	ldrb	w8, [sp]
	cbz	w8, .LBB9_11
	ldrb	w8, [sp, #1]
	b	.LBB9_15
.LBB9_11:
	ldrb	w8, [sp, #8]
	cmp	w8, #48
	b.ne	.LBB9_14
	movi	v0.2d, #0000000000000000
	ldp	x1, x23, [sp, #32]
	mov	x0, sp
	mov	x2, x23
	stp	q0, q0, [sp, #16]
	str	q0, [sp]
	bl	"ct_promise::der_reading::next_element"
	ldrb	w8, [sp]
	cbz	w8, .LBB9_16
	ldrb	w8, [sp, #1]
	b	.LBB9_20
.LBB9_14:
	mov	w8, #5
.LBB9_15:
	mov	w10, #1
	mov	x21, xzr
	mov	x9, xzr
	orr	w8, w10, w8, lsl #8
	b	.LBB9_8
.LBB9_16:
	ldrb	w8, [sp, #8]
	cmp	w8, #48
	b.ne	.LBB9_19
	movi	v0.2d, #0000000000000000
	ldp	x1, x2, [sp, #32]
	mov	x0, sp
	stp	q0, q0, [sp, #16]
	str	q0, [sp]
	bl	"ct_promise::der_reading::next_element"
	ldrb	w8, [sp]
	cbz	w8, .LBB9_22
	ldrb	w8, [sp, #1]
	b	.LBB9_26
.LBB9_19:
	mov	w8, #5
.LBB9_20:
	mov	x21, xzr
	mov	x9, xzr
	mov	w10, #2
.LBB9_21:
	orr	w8, w10, w8, lsl #8
	b	.LBB9_7
.LBB9_22:
	ldrb	w8, [sp, #8]
	cmp	w8, #3
	b.ne	.LBB9_25
	ldr	x8, [sp, #40]
	cbz	x8, .LBB9_27
	mov	w8, #6
	b	.LBB9_26
.LBB9_25:
	mov	w8, #5
.LBB9_26:
	mov	x21, xzr
	mov	x9, xzr
	mov	w10, #3
	b	.LBB9_21
.LBB9_27:
	subs	x9, x22, x23
	mov	w10, wzr
	mov	w20, wzr
	csel	x9, xzr, x9, lo
	b	.LBB9_8
.Lfunc_end9:
	.size	"ct_promise::leaf::tbs_in", .Lfunc_end9-"ct_promise::leaf::tbs_in"
	.section	".text.ct_promise::entry::without_cut","ax",@progbits
	.p2align	2
	.type	"ct_promise::entry::without_cut",@function
"ct_promise::entry::without_cut":
	sub	sp, sp, #176
	stp	x22, x21, [sp, #144]
	mov	x21, x1
	stp	x20, x19, [sp, #160]
	ldp	x22, x20, [x1, #16]
	stp	x29, x30, [sp, #112]
	add	x29, sp, #112
	mov	x19, x0
	stp	x24, x23, [sp, #128]
	sub	x23, x29, #1
	stp	xzr, xzr, [sp, #16]
	str	x23, [sp, #8]
	stp	xzr, xzr, [sp, #32]
	str	xzr, [sp, #48]
	cbz	x20, .LBB10_4
	tbnz	x20, #63, .LBB10_78
	mov	x0, x20
	mov	w1, #1
	bl	rattle_alloc
	tbz	w0, #0, .LBB10_78
	mov	x23, x1
.LBB10_4:
	sub	x9, x23, x22
	cmp	x9, x20
	b.hs	.LBB10_9
	cmp	x20, #8
	mov	x8, xzr
	b.lo	.LBB10_17
	cmp	x9, #32
	b.lo	.LBB10_17
	cmp	x20, #32
	b.hs	.LBB10_10
	mov	x8, xzr
	b	.LBB10_14
.LBB10_9:
	mov	x0, x23
	mov	x1, x22
	mov	x2, x20
	bl	memmove
	b	.LBB10_19
.LBB10_10:
	and	x9, x20, #0x18
	and	x8, x20, #0xffffffffffffffe0
	add	x10, x22, #16
	add	x11, x23, #16
	and	x12, x20, #0xffffffffffffffe0
.LBB10_11:
	ldp	q0, q1, [x10, #-16]
	subs	x12, x12, #32
	add	x10, x10, #32
	stp	q0, q1, [x11, #-16]
	add	x11, x11, #32
	b.ne	.LBB10_11
	cmp	x20, x8
	b.eq	.LBB10_19
	cbz	x9, .LBB10_17
.LBB10_14:
	mov	x11, x8
	and	x8, x20, #0xfffffffffffffff8
	sub	x9, x11, x8
	add	x10, x22, x11
	add	x11, x23, x11
.LBB10_15:
	ldr	d0, [x10], #8
	adds	x9, x9, #8
	str	d0, [x11], #8
	b.ne	.LBB10_15
	cmp	x20, x8
	b.eq	.LBB10_19
.LBB10_17:
	sub	x9, x20, x8
	add	x10, x22, x8
	add	x8, x23, x8
.LBB10_18:
	ldrb	w11, [x10], #1
	subs	x9, x9, #1
	strb	w11, [x8], #1
	b.ne	.LBB10_18
.LBB10_19:
	ldp	x1, x2, [x21, #64]
	mov	x8, x20
	stp	x23, x20, [sp, #56]
	str	x20, [sp, #72]
	cbnz	x2, .LBB10_42
	add	x0, x23, x8
	add	x22, x8, x2
	sub	x9, x0, x1
	cmp	x9, x2
	b.hs	.LBB10_44
.LBB10_21:
	cmp	x2, #8
	b.lo	.LBB10_23
	add	x9, x8, x23
	sub	x9, x9, x1
	cmp	x9, #32
	b.hs	.LBB10_33
.LBB10_23:
	mov	x9, xzr
.LBB10_24:
	add	x10, x9, x8
	sub	x8, x2, x9
	add	x9, x1, x9
	add	x10, x23, x10
.LBB10_25:
	ldrb	w11, [x9], #1
	subs	x8, x8, #1
	strb	w11, [x10], #1
	b.ne	.LBB10_25
.LBB10_26:
	ldp	x24, x23, [x21]
	stp	x22, x20, [sp, #64]
	cbz	x23, .LBB10_45
.LBB10_27:
	tbnz	x23, #63, .LBB10_31
	mov	x0, x23
	mov	w1, #1
	bl	rattle_alloc
	tbz	w0, #0, .LBB10_31
	mov	x21, x1
	sub	x9, x1, x24
	cmp	x9, x23
	b.lo	.LBB10_46
.LBB10_30:
	mov	x0, x21
	mov	x1, x24
	mov	x2, x23
	bl	memmove
	b	.LBB10_59
.LBB10_31:
	cbz	x20, .LBB10_78
.LBB10_32:
	ldr	x0, [sp, #56]
	b	.LBB10_67
.LBB10_33:
	cmp	x2, #32
	b.hs	.LBB10_35
	mov	x9, xzr
	b	.LBB10_39
.LBB10_35:
	add	x12, x8, x23
	and	x10, x2, #0x18
	and	x9, x2, #0xffffffffffffffe0
	add	x11, x1, #16
	add	x12, x12, #16
	and	x13, x2, #0xffffffffffffffe0
.LBB10_36:
	ldp	q0, q1, [x11, #-16]
	subs	x13, x13, #32
	add	x11, x11, #32
	stp	q0, q1, [x12, #-16]
	add	x12, x12, #32
	b.ne	.LBB10_36
	cmp	x2, x9
	b.eq	.LBB10_26
	cbz	x10, .LBB10_24
.LBB10_39:
	mov	x11, x9
	and	x9, x2, #0xfffffffffffffff8
	add	x12, x8, x11
	sub	x10, x11, x9
	add	x11, x1, x11
	add	x12, x23, x12
.LBB10_40:
	ldr	d0, [x11], #8
	adds	x10, x10, #8
	str	d0, [x12], #8
	b.ne	.LBB10_40
	cmp	x2, x9
	b.eq	.LBB10_26
	b	.LBB10_24
.LBB10_42:
	mov	x22, x1
	add	x0, sp, #56
	mov	x1, x2
	mov	x24, x2
	bl	"std_alloc::vec::Vec::grow_amortized::<#787aca9b38b283c5>"
	cbz	w0, .LBB10_82
	ldp	x8, x20, [sp, #64]
	mov	x2, x24
	ldr	x23, [sp, #56]
	mov	x1, x22
	add	x0, x23, x8
	add	x22, x8, x24
	sub	x9, x0, x1
	cmp	x9, x24
	b.lo	.LBB10_21
.LBB10_44:
	bl	memmove
	ldp	x24, x23, [x21]
	stp	x22, x20, [sp, #64]
	cbnz	x23, .LBB10_27
.LBB10_45:
	sub	x21, x29, #1
	sub	x9, x21, x24
	cmp	x9, x23
	b.hs	.LBB10_30
.LBB10_46:
	cmp	x23, #8
	mov	x8, xzr
	b.lo	.LBB10_57
	cmp	x9, #32
	b.lo	.LBB10_57
	cmp	x23, #32
	b.hs	.LBB10_50
	mov	x8, xzr
	b	.LBB10_54
.LBB10_50:
	and	x9, x23, #0x18
	and	x8, x23, #0xffffffffffffffe0
	add	x10, x24, #16
	add	x11, x21, #16
	and	x12, x23, #0xffffffffffffffe0
.LBB10_51:
	ldp	q0, q1, [x10, #-16]
	subs	x12, x12, #32
	add	x10, x10, #32
	stp	q0, q1, [x11, #-16]
	add	x11, x11, #32
	b.ne	.LBB10_51
	cmp	x23, x8
	b.eq	.LBB10_59
	cbz	x9, .LBB10_57
.LBB10_54:
	mov	x11, x8
	and	x8, x23, #0xfffffffffffffff8
	sub	x9, x11, x8
	add	x10, x24, x11
	add	x11, x21, x11
.LBB10_55:
	ldr	d0, [x10], #8
	adds	x9, x9, #8
	str	d0, [x11], #8
	b.ne	.LBB10_55
	cmp	x23, x8
	b.eq	.LBB10_59
.LBB10_57:
	sub	x9, x23, x8
	add	x10, x24, x8
	add	x8, x21, x8
.LBB10_58:
	ldrb	w11, [x10], #1
	subs	x9, x9, #1
	strb	w11, [x8], #1
	b.ne	.LBB10_58
.LBB10_59:
	ldr	x24, [sp, #56]
	stp	x21, x23, [sp, #32]
	str	x23, [sp, #48]
	cbz	x22, .LBB10_73
	sub	x8, x29, #1
	sub	x0, x29, #32
	mov	w1, #48
	mov	x2, x24
	mov	x3, x22
	stp	xzr, xzr, [x29, #-24]
	stur	x8, [x29, #-32]
	bl	"ct_promise::der_writing::push_element"
	and	w8, w0, #0xff
	tbz	w8, #0, .LBB10_68
	ldur	x8, [x29, #-16]
	cbz	x8, .LBB10_63
	ldur	x0, [x29, #-32]
	bl	rattle_dealloc
.LBB10_63:
	cbz	x23, .LBB10_65
.LBB10_64:
	ldr	x0, [sp, #32]
	bl	rattle_dealloc
.LBB10_65:
	cbz	x20, .LBB10_78
	mov	x0, x24
.LBB10_67:
	bl	rattle_dealloc
	b	.LBB10_78
.LBB10_68:
	ldp	x21, x3, [x29, #-32]
	add	x0, sp, #32
	mov	w1, #163
	mov	x2, x21
	bl	"ct_promise::der_writing::push_element"
	ldur	x8, [x29, #-16]
	and	w22, w0, #0xff
	cbz	x8, .LBB10_70
	mov	x0, x21
	bl	rattle_dealloc
.LBB10_70:
	tbz	w22, #0, .LBB10_72
	ldr	x23, [sp, #48]
	cbnz	x23, .LBB10_64
	b	.LBB10_65
.LBB10_72:
	ldp	x21, x23, [sp, #32]
.LBB10_73:
	add	x0, sp, #8
	mov	w1, #48
	mov	x2, x21
	mov	x3, x23
	bl	"ct_promise::der_writing::push_element"
	ldr	x8, [sp, #48]
	and	w20, w0, #0xff
	cbz	x8, .LBB10_75
	mov	x0, x21
	bl	rattle_dealloc
.LBB10_75:
	ldr	x8, [sp, #72]
	cbz	x8, .LBB10_77
	mov	x0, x24
	bl	rattle_dealloc
.LBB10_77:
	tbz	w20, #0, .LBB10_81
.LBB10_78:
	ldr	x8, [sp, #24]
	cbz	x8, .LBB10_80
	ldr	x0, [sp, #8]
	bl	rattle_dealloc
.LBB10_80:
	mov	w8, #257
	stur	wzr, [x19, #2]
	strh	w8, [x19]
	strb	wzr, [x19, #6]
	stp	xzr, xzr, [x19, #16]
	str	xzr, [x19, #8]
	ldp	x20, x19, [sp, #160]
	ldp	x22, x21, [sp, #144]
	ldp	x24, x23, [sp, #128]
	ldp	x29, x30, [sp, #112]
	add	sp, sp, #176
	ret
.LBB10_81:
	ldur	q0, [sp, #8]
	ldr	x8, [sp, #24]
	stur	wzr, [x19, #3]
	str	wzr, [x19]
	stur	q0, [x19, #8]
	str	x8, [x19, #24]
	ldp	x20, x19, [sp, #160]
	ldp	x22, x21, [sp, #144]
	ldp	x24, x23, [sp, #128]
	ldp	x29, x30, [sp, #112]
	add	sp, sp, #176
	ret
.LBB10_82:
	ldr	x8, [sp, #72]
	cbnz	x8, .LBB10_32
	b	.LBB10_78
.Lfunc_end10:
	.size	"ct_promise::entry::without_cut", .Lfunc_end10-"ct_promise::entry::without_cut"
	.section	".text.unlikely.std_alloc::vec::Vec::grow_amortized::<#787aca9b38b283c5>","ax",@progbits
	.p2align	2
	.type	"std_alloc::vec::Vec::grow_amortized::<#787aca9b38b283c5>",@function
"std_alloc::vec::Vec::grow_amortized::<#787aca9b38b283c5>":
	ldr	x8, [x0, #8]
	cmn	x8, x1
	b.lo	.LBB11_2
	mov	w0, wzr
	ret
.LBB11_2:
	stp	x29, x30, [sp, #-32]!
	ldr	x10, [x0, #16]
	add	x9, x8, x1
	mov	w11, #8
	cmp	x9, #8
	stp	x20, x19, [sp, #16]
	mov	x29, sp
	lsl	x12, x10, #1
	csel	x11, x9, x11, hi
	lsr	x13, x10, #62
	cmp	x11, x12
	csel	x9, x11, x12, hi
	cmp	x13, #0
	csel	x19, x9, x11, eq
	tbnz	x19, #63, .LBB11_7
	cbz	x10, .LBB11_6
	mov	x20, x0
	ldr	x0, [x0]
	mov	x1, x8
	mov	x2, x19
	mov	w3, #1
	bl	rattle_realloc
	tbz	w0, #0, .LBB11_7
.LBB11_5:
	mov	w0, #1
	str	x1, [x20]
	str	x19, [x20, #16]
	ldp	x20, x19, [sp, #16]
	ldp	x29, x30, [sp], #32
	ret
.LBB11_6:
	mov	x20, x0
	mov	x0, x9
	mov	w1, #1
	bl	rattle_alloc
	tbnz	w0, #0, .LBB11_5
.LBB11_7:
	mov	w0, wzr
	ldp	x20, x19, [sp, #16]
	ldp	x29, x30, [sp], #32
	ret
.Lfunc_end11:
	.size	"std_alloc::vec::Vec::grow_amortized::<#787aca9b38b283c5>", .Lfunc_end11-"std_alloc::vec::Vec::grow_amortized::<#787aca9b38b283c5>"
	.section	".text.ct_promise::der_writing::push_element","ax",@progbits
	.p2align	2
	.type	"ct_promise::der_writing::push_element",@function
"ct_promise::der_writing::push_element":
	stp	x29, x30, [sp, #-80]!
	stp	x22, x21, [sp, #48]
	mov	x21, x0
	mov	x29, sp
	ldp	x9, x8, [x21, #8]!
	stp	x20, x19, [sp, #64]
	mov	x19, x0
	str	x25, [sp, #16]
	cmp	x8, x9
	stp	x24, x23, [sp, #32]
	b.eq	.LBB12_4
	ldr	x10, [x19]
	add	x8, x9, #1
	cmp	x3, #127
	strb	w1, [x10, x9]
	str	x8, [x19, #8]
	b.hi	.LBB12_6
.LBB12_2:
	ldr	x20, [x19, #16]
	cmp	x20, x8
	b.eq	.LBB12_38
.LBB12_3:
	ldr	x22, [x19]
	strb	w3, [x22, x8]
	add	x8, x8, #1
	b	.LBB12_17
.LBB12_4:
	mov	w20, w1
	mov	x0, x19
	mov	w1, #1
	mov	x22, x2
	mov	x23, x3
	bl	"std_alloc::vec::Vec::grow_amortized::<#787aca9b38b283c5>"
	mov	w8, w0
	mov	w0, #1
	cbz	w8, .LBB12_37
	ldr	x9, [x21]
	mov	x3, x23
	mov	x2, x22
	ldr	x10, [x19]
	add	x8, x9, #1
	cmp	x23, #127
	strb	w20, [x10, x9]
	str	x8, [x19, #8]
	b.ls	.LBB12_2
.LBB12_6:
	cmp	x3, #255
	b.hi	.LBB12_9
	ldr	x20, [x19, #16]
	sub	x9, x20, x8
	cmp	x9, #1
	b.ls	.LBB12_40
.LBB12_8:
	ldr	x22, [x19]
	mov	w9, #129
	orr	w9, w9, w3, lsl #8
	strh	w9, [x22, x8]
	add	x8, x8, #2
	b	.LBB12_17
.LBB12_9:
	lsr	x23, x3, #16
	cbnz	x23, .LBB12_12
	ldr	x20, [x19, #16]
	sub	x9, x20, x8
	cmp	x9, #2
	b.ls	.LBB12_42
.LBB12_11:
	ldr	x22, [x19]
	lsr	x9, x3, #8
	mov	w10, #130
	add	x11, x22, x8
	add	x8, x8, #3
	strb	w10, [x11]
	strb	w9, [x11, #1]
	strb	w3, [x11, #2]
	b	.LBB12_17
.LBB12_12:
	lsr	x24, x3, #24
	cbnz	x24, .LBB12_15
	ldr	x20, [x19, #16]
	sub	x9, x20, x8
	cmp	x9, #3
	b.ls	.LBB12_44
.LBB12_14:
	ldr	x22, [x19]
	mov	w9, #-2097152000
	orr	w9, w3, w9
	rev	w9, w9
	str	w9, [x22, x8]
	add	x8, x8, #4
	b	.LBB12_17
.LBB12_15:
	ldr	x20, [x19, #16]
	sub	x9, x20, x8
	cmp	x9, #4
	b.ls	.LBB12_46
.LBB12_16:
	ldr	x22, [x19]
	mov	w9, #132
	add	x10, x22, x8
	add	x8, x8, #5
	strb	w9, [x10]
	lsr	x9, x3, #8
	strb	w24, [x10, #1]
	strb	w23, [x10, #2]
	strb	w9, [x10, #3]
	strb	w3, [x10, #4]
.LBB12_17:
	sub	x9, x20, x8
	stp	x22, x8, [x19]
	cmp	x3, x9
	str	x20, [x19, #16]
	b.hi	.LBB12_33
	add	x0, x22, x8
	add	x23, x8, x3
	stp	xzr, xzr, [x21]
	sub	x9, x0, x2
	cmp	x9, x3
	b.hs	.LBB12_35
.LBB12_19:
	cmp	x3, #8
	b.lo	.LBB12_21
	add	x9, x8, x22
	sub	x9, x9, x2
	cmp	x9, #32
	b.hs	.LBB12_24
.LBB12_21:
	mov	x9, xzr
.LBB12_22:
	add	x10, x9, x8
	sub	x8, x3, x9
	add	x9, x2, x9
	add	x10, x22, x10
.LBB12_23:
	ldrb	w11, [x9], #1
	subs	x8, x8, #1
	strb	w11, [x10], #1
	b.ne	.LBB12_23
	b	.LBB12_36
.LBB12_24:
	cmp	x3, #32
	b.hs	.LBB12_26
	mov	x9, xzr
	b	.LBB12_30
.LBB12_26:
	add	x12, x8, x22
	and	x10, x3, #0x18
	and	x9, x3, #0xffffffffffffffe0
	add	x11, x2, #16
	add	x12, x12, #16
	and	x13, x3, #0xffffffffffffffe0
.LBB12_27:
	ldp	q0, q1, [x11, #-16]
	subs	x13, x13, #32
	add	x11, x11, #32
	stp	q0, q1, [x12, #-16]
	add	x12, x12, #32
	b.ne	.LBB12_27
	cmp	x3, x9
	b.eq	.LBB12_36
	cbz	x10, .LBB12_22
.LBB12_30:
	mov	x11, x9
	and	x9, x3, #0xfffffffffffffff8
	add	x12, x8, x11
	sub	x10, x11, x9
	add	x11, x2, x11
	add	x12, x22, x12
.LBB12_31:
	ldr	d0, [x11], #8
	adds	x10, x10, #8
	str	d0, [x12], #8
	b.ne	.LBB12_31
	cmp	x3, x9
	b.eq	.LBB12_36
	b	.LBB12_22
.LBB12_33:
	mov	x0, x19
	mov	x1, x3
	mov	x23, x2
	mov	x24, x3
	bl	"std_alloc::vec::Vec::grow_amortized::<#787aca9b38b283c5>"
	cbz	w0, .LBB12_48
	ldp	x8, x20, [x19, #8]
	mov	x3, x24
	ldr	x22, [x19]
	mov	x2, x23
	add	x0, x22, x8
	add	x23, x8, x24
	stp	xzr, xzr, [x21]
	sub	x9, x0, x2
	cmp	x9, x24
	b.lo	.LBB12_19
.LBB12_35:
	mov	x1, x2
	mov	x2, x3
	bl	memmove
.LBB12_36:
	mov	w0, wzr
	stp	x22, x23, [x19]
	str	x20, [x19, #16]
.LBB12_37:
	ldp	x20, x19, [sp, #64]
	ldr	x25, [sp, #16]
	ldp	x22, x21, [sp, #48]
	ldp	x24, x23, [sp, #32]
	ldp	x29, x30, [sp], #80
	ret
.LBB12_38:
	mov	x0, x19
	mov	w1, #1
	mov	x22, x2
	mov	x23, x3
	mov	w20, #1
	bl	"std_alloc::vec::Vec::grow_amortized::<#787aca9b38b283c5>"
	mov	w8, w0
	mov	w0, w20
	cbz	w8, .LBB12_37
	ldp	x8, x20, [x19, #8]
	mov	x3, x23
	mov	x2, x22
	b	.LBB12_3
.LBB12_40:
	mov	x0, x19
	mov	w1, #2
	mov	x22, x2
	mov	x23, x3
	bl	"std_alloc::vec::Vec::grow_amortized::<#787aca9b38b283c5>"
	cbz	w0, .LBB12_48
	ldp	x8, x20, [x19, #8]
	mov	x3, x23
	mov	x2, x22
	b	.LBB12_8
.LBB12_42:
	mov	x0, x19
	mov	w1, #3
	mov	x22, x2
	mov	x23, x3
	bl	"std_alloc::vec::Vec::grow_amortized::<#787aca9b38b283c5>"
	cbz	w0, .LBB12_48
	ldp	x8, x20, [x19, #8]
	mov	x3, x23
	mov	x2, x22
	b	.LBB12_11
.LBB12_44:
	mov	x0, x19
	mov	w1, #4
	mov	x22, x2
	mov	x23, x3
	bl	"std_alloc::vec::Vec::grow_amortized::<#787aca9b38b283c5>"
	cbz	w0, .LBB12_48
	ldp	x8, x20, [x19, #8]
	mov	x3, x23
	mov	x2, x22
	b	.LBB12_14
.LBB12_46:
	mov	x0, x19
	mov	w1, #5
	mov	x22, x2
	mov	x25, x3
	bl	"std_alloc::vec::Vec::grow_amortized::<#787aca9b38b283c5>"
	cbz	w0, .LBB12_48
	ldp	x8, x20, [x19, #8]
	mov	x3, x25
	mov	x2, x22
	b	.LBB12_16
.LBB12_48:
	mov	w0, #1
	ldp	x20, x19, [sp, #64]
	ldr	x25, [sp, #16]
	ldp	x22, x21, [sp, #48]
	ldp	x24, x23, [sp, #32]
	ldp	x29, x30, [sp], #80
	ret
.Lfunc_end12:
	.size	"ct_promise::der_writing::push_element", .Lfunc_end12-"ct_promise::der_writing::push_element"
	.section	.rodata.cst8,"aM",@progbits,8
	.p2align	3, 0x0
.LCPI13_0:
	.byte	1
	.byte	0
	.byte	2
	.byte	0
	.zero	1
	.zero	1
	.zero	1
	.zero	1
	.section	".text.ct_promise::leaf::leaf_of","ax",@progbits
	.p2align	2
	.type	"ct_promise::leaf::leaf_of",@function
"ct_promise::leaf::leaf_of":
	sub	sp, sp, #240
	lsr	x8, x5, #24
	stp	x29, x30, [sp, #160]
	add	x29, sp, #160
	stp	x26, x25, [sp, #176]
	stp	x24, x23, [sp, #192]
	stp	x22, x21, [sp, #208]
	stp	x20, x19, [sp, #224]
	stp	xzr, xzr, [sp, #64]
	strb	wzr, [sp, #88]
	str	xzr, [sp, #80]
	cbz	x8, .LBB13_3
	adrp	x8, .LCPI13_0
	strb	wzr, [x0, #4]
	ldr	d0, [x8, :lo12:.LCPI13_0]
	sturh	wzr, [x0, #5]
	stp	xzr, xzr, [x0, #16]
	str	s0, [x0]
	str	xzr, [x0, #8]
.LBB13_2:
	ldp	x20, x19, [sp, #224]
	ldp	x22, x21, [sp, #208]
	ldp	x24, x23, [sp, #192]
	ldp	x26, x25, [sp, #176]
	ldp	x29, x30, [sp, #160]
	add	sp, sp, #240
	ret
.LBB13_3:
	movi	v0.2d, #0000000000000000
	mov	x26, x1
	mov	x19, x0
	stp	x2, x3, [x29, #-64]
	sub	x0, x29, #48
	sub	x1, x29, #64
	mov	w2, #1
	mov	x24, x4
	mov	x23, x5
	mov	x22, x6
	mov	x21, x7
	sub	x25, x29, #48
	stp	q0, q0, [x29, #-48]
	bl	"ct_tree::hash::Sha256HashNodeHash::hash"
	ldp	q1, q0, [x29, #-48]
	sub	x8, x29, #1
	sub	x0, x29, #48
	mov	w1, #2
	sturh	wzr, [x29, #-64]
	stp	xzr, xzr, [x29, #-40]
	stp	q1, q0, [sp]
	stp	q1, q0, [sp, #32]
	stur	x8, [x29, #-48]
	bl	"std_alloc::vec::Vec::grow_amortized::<#787aca9b38b283c5>"
	cbz	w0, .LBB13_61
	ldp	x9, x20, [x29, #-40]
	ldur	x10, [x29, #-48]
	add	x8, x9, #2
	strh	wzr, [x10, x9]
	sub	x11, x20, x8
	stur	x8, [x29, #-40]
	cmp	x11, #7
	b.ls	.LBB13_20
.LBB13_5:
	add	x11, x8, #8
	rev	x9, x26
	str	x9, [x10, x8]
	sub	x8, x20, x11
	mov	x9, x24
	stp	x11, x20, [x29, #-40]
	cmp	x8, #2
	mov	x8, x23
	b.lo	.LBB13_22
.LBB13_6:
	add	x12, x11, #2
	mov	w13, #256
	strh	w13, [x10, x11]
	sub	x11, x20, x12
	stp	x12, x20, [x29, #-40]
	cmp	x11, #32
	b.lo	.LBB13_24
.LBB13_7:
	add	x11, x10, x12
	add	x10, sp, #32
	stp	xzr, xzr, [x25, #8]
	sub	x10, x11, x10
	cmp	x10, #31
	add	x10, x12, #32
	b.hi	.LBB13_9
	ldrb	w12, [sp, #32]
	strb	w12, [x11]
	ldrb	w12, [sp, #33]
	strb	w12, [x11, #1]
	ldrb	w12, [sp, #34]
	strb	w12, [x11, #2]
	ldrb	w12, [sp, #35]
	strb	w12, [x11, #3]
	ldrb	w12, [sp, #36]
	strb	w12, [x11, #4]
	ldrb	w12, [sp, #37]
	strb	w12, [x11, #5]
	ldrb	w12, [sp, #38]
	strb	w12, [x11, #6]
	ldrb	w12, [sp, #39]
	strb	w12, [x11, #7]
	ldrb	w12, [sp, #40]
	strb	w12, [x11, #8]
	ldrb	w12, [sp, #41]
	strb	w12, [x11, #9]
	ldrb	w12, [sp, #42]
	strb	w12, [x11, #10]
	ldrb	w12, [sp, #43]
	strb	w12, [x11, #11]
	ldrb	w12, [sp, #44]
	strb	w12, [x11, #12]
	ldrb	w12, [sp, #45]
	strb	w12, [x11, #13]
	ldrb	w12, [sp, #46]
	strb	w12, [x11, #14]
	ldrb	w12, [sp, #47]
	strb	w12, [x11, #15]
	ldrb	w12, [sp, #48]
	strb	w12, [x11, #16]
	ldrb	w12, [sp, #49]
	strb	w12, [x11, #17]
	ldrb	w12, [sp, #50]
	strb	w12, [x11, #18]
	ldrb	w12, [sp, #51]
	strb	w12, [x11, #19]
	ldrb	w12, [sp, #52]
	strb	w12, [x11, #20]
	ldrb	w12, [sp, #53]
	strb	w12, [x11, #21]
	ldrb	w12, [sp, #54]
	strb	w12, [x11, #22]
	ldrb	w12, [sp, #55]
	strb	w12, [x11, #23]
	ldrb	w12, [sp, #56]
	strb	w12, [x11, #24]
	ldrb	w12, [sp, #57]
	strb	w12, [x11, #25]
	ldrb	w12, [sp, #58]
	strb	w12, [x11, #26]
	ldrb	w12, [sp, #59]
	strb	w12, [x11, #27]
	ldrb	w12, [sp, #60]
	strb	w12, [x11, #28]
	ldrb	w12, [sp, #61]
	strb	w12, [x11, #29]
	ldrb	w12, [sp, #62]
	strb	w12, [x11, #30]
	ldrb	w12, [sp, #63]
	strb	w12, [x11, #31]
	b	.LBB13_10
.LBB13_9:
	ldp	q1, q0, [sp, #32]
	stp	q1, q0, [x11]
.LBB13_10:
	sub	x11, x20, x10
	stp	x10, x20, [x29, #-40]
	cmp	x11, #2
	b.ls	.LBB13_33
.LBB13_11:
	rev	w11, w8
	ldur	x25, [x29, #-48]
	lsr	w12, w11, #24
	lsr	w11, w11, #8
	add	x13, x25, x10
	add	x10, x10, #3
	strb	w12, [x13, #2]
	sub	x12, x20, x10
	cmp	x8, x12
	strh	w11, [x13]
	stp	x10, x20, [x29, #-40]
	b.hi	.LBB13_35
	add	x0, x25, x10
	add	x23, x10, x8
	sub	x11, x0, x9
	cmp	x11, x8
	b.hs	.LBB13_37
.LBB13_13:
	cmp	x8, #8
	mov	x2, x21
	mov	x1, x22
	b.lo	.LBB13_15
	add	x11, x10, x25
	sub	x11, x11, x9
	cmp	x11, #32
	b.hs	.LBB13_18
.LBB13_15:
	mov	x11, xzr
.LBB13_16:
	add	x10, x11, x10
	sub	x8, x8, x11
	add	x9, x9, x11
	add	x10, x25, x10
.LBB13_17:
	ldrb	w11, [x9], #1
	subs	x8, x8, #1
	strb	w11, [x10], #1
	b.ne	.LBB13_17
	b	.LBB13_38
.LBB13_18:
	cmp	x8, #32
	b.hs	.LBB13_26
	mov	x11, xzr
	b	.LBB13_30
.LBB13_20:
	sub	x0, x29, #48
	mov	w1, #8
	bl	"std_alloc::vec::Vec::grow_amortized::<#787aca9b38b283c5>"
	cbz	w0, .LBB13_61
	ldp	x8, x20, [x29, #-40]
	ldur	x10, [x29, #-48]
	b	.LBB13_5
.LBB13_22:
	sub	x0, x29, #48
	mov	w1, #2
	bl	"std_alloc::vec::Vec::grow_amortized::<#787aca9b38b283c5>"
	cbz	w0, .LBB13_61
	ldp	x11, x20, [x29, #-40]
	mov	x8, x23
	ldur	x10, [x29, #-48]
	mov	x9, x24
	b	.LBB13_6
.LBB13_24:
	sub	x0, x29, #48
	mov	w1, #32
	bl	"std_alloc::vec::Vec::grow_amortized::<#787aca9b38b283c5>"
	cbz	w0, .LBB13_61
	ldp	x12, x20, [x29, #-40]
	mov	x8, x23
	ldur	x10, [x29, #-48]
	mov	x9, x24
	b	.LBB13_7
.LBB13_26:
	add	x14, x10, x25
	and	x12, x8, #0x18
	and	x11, x8, #0xffffe0
	add	x13, x9, #16
	add	x14, x14, #16
	and	x15, x8, #0xffffe0
.LBB13_27:
	ldp	q0, q1, [x13, #-16]
	subs	x15, x15, #32
	add	x13, x13, #32
	stp	q0, q1, [x14, #-16]
	add	x14, x14, #32
	b.ne	.LBB13_27
	cmp	x8, x11
	b.eq	.LBB13_38
	cbz	x12, .LBB13_16
.LBB13_30:
	mov	x13, x11
	and	x11, x8, #0xfffff8
	add	x14, x10, x13
	sub	x12, x13, x11
	add	x13, x9, x13
	add	x14, x25, x14
.LBB13_31:
	ldr	d0, [x13], #8
	adds	x12, x12, #8
	str	d0, [x14], #8
	b.ne	.LBB13_31
	cmp	x8, x11
	b.eq	.LBB13_38
	b	.LBB13_16
.LBB13_33:
	sub	x0, x29, #48
	mov	w1, #3
	bl	"std_alloc::vec::Vec::grow_amortized::<#787aca9b38b283c5>"
	cbz	w0, .LBB13_61
	ldp	x10, x20, [x29, #-40]
	mov	x8, x23
	mov	x9, x24
	b	.LBB13_11
.LBB13_35:
	sub	x0, x29, #48
	mov	x1, x8
	bl	"std_alloc::vec::Vec::grow_amortized::<#787aca9b38b283c5>"
	cbz	w0, .LBB13_61
	ldp	x10, x20, [x29, #-40]
	mov	x8, x23
	ldur	x25, [x29, #-48]
	mov	x9, x24
	add	x0, x25, x10
	add	x23, x10, x23
	sub	x11, x0, x24
	cmp	x11, x8
	b.lo	.LBB13_13
.LBB13_37:
	mov	x1, x9
	mov	x2, x8
	bl	memmove
	mov	x2, x21
	mov	x1, x22
.LBB13_38:
	rev	w8, w2
	sub	x9, x20, x23
	stp	x23, x20, [x29, #-40]
	lsr	w8, w8, #16
	cmp	x9, #1
	sturh	w8, [x29, #-64]
	b.ls	.LBB13_55
.LBB13_39:
	add	x9, x25, x23
	sub	x8, x29, #64
	ldurh	w10, [x29, #-64]
	sub	x8, x9, x8
	rev16	w11, w2
	cmp	x8, #2
	add	x8, x23, #2
	csel	w10, w10, w11, lo
	sub	x11, x20, x8
	cmp	x2, x11
	strh	w10, [x9]
	stp	x8, x20, [x29, #-40]
	b.hi	.LBB13_57
	ldur	x9, [x29, #-48]
	add	x21, x8, x2
	add	x0, x9, x8
	sub	x10, x0, x1
	cmp	x10, x2
	b.hs	.LBB13_59
.LBB13_41:
	cmp	x2, #8
	b.lo	.LBB13_43
	add	x10, x8, x9
	sub	x10, x10, x1
	cmp	x10, #32
	b.hs	.LBB13_46
.LBB13_43:
	mov	x10, xzr
.LBB13_44:
	add	x11, x10, x8
	sub	x8, x2, x10
	add	x10, x1, x10
	add	x9, x9, x11
.LBB13_45:
	ldrb	w11, [x10], #1
	subs	x8, x8, #1
	strb	w11, [x9], #1
	b.ne	.LBB13_45
	b	.LBB13_60
.LBB13_46:
	cmp	x2, #32
	b.hs	.LBB13_48
	mov	x10, xzr
	b	.LBB13_52
.LBB13_48:
	add	x13, x8, x9
	and	x11, x2, #0x18
	and	x10, x2, #0xffe0
	add	x12, x1, #16
	add	x13, x13, #16
	and	x14, x2, #0xffe0
.LBB13_49:
	ldp	q0, q1, [x12, #-16]
	subs	x14, x14, #32
	add	x12, x12, #32
	stp	q0, q1, [x13, #-16]
	add	x13, x13, #32
	b.ne	.LBB13_49
	cmp	x2, x10
	b.eq	.LBB13_60
	cbz	x11, .LBB13_44
.LBB13_52:
	mov	x12, x10
	and	x10, x2, #0xfff8
	add	x13, x8, x12
	sub	x11, x12, x10
	add	x12, x1, x12
	add	x13, x9, x13
.LBB13_53:
	ldr	d0, [x12], #8
	adds	x11, x11, #8
	str	d0, [x13], #8
	b.ne	.LBB13_53
	cmp	x2, x10
	b.eq	.LBB13_60
	b	.LBB13_44
.LBB13_55:
	sub	x0, x29, #48
	mov	w1, #2
	bl	"std_alloc::vec::Vec::grow_amortized::<#787aca9b38b283c5>"
	cbz	w0, .LBB13_61
	ldp	x23, x20, [x29, #-40]
	mov	x2, x21
	ldur	x25, [x29, #-48]
	mov	x1, x22
	b	.LBB13_39
.LBB13_57:
	sub	x0, x29, #48
	mov	x1, x2
	bl	"std_alloc::vec::Vec::grow_amortized::<#787aca9b38b283c5>"
	cbz	w0, .LBB13_61
	ldp	x8, x20, [x29, #-40]
	mov	x2, x21
	mov	x1, x22
	ldur	x9, [x29, #-48]
	add	x21, x8, x21
	add	x0, x9, x8
	sub	x10, x0, x22
	cmp	x10, x2
	b.lo	.LBB13_41
.LBB13_59:
	bl	memmove
.LBB13_60:
	stp	x21, x20, [x29, #-40]
	mov	w8, wzr
	ldur	q0, [x29, #-48]
	stur	x20, [sp, #81]
	stur	q0, [sp, #65]
	b	.LBB13_64
.LBB13_61:
	ldur	x8, [x29, #-32]
	cbz	x8, .LBB13_63
	ldur	x0, [x29, #-48]
	bl	rattle_dealloc
.LBB13_63:
	mov	w8, #1
	stur	xzr, [sp, #73]
	stur	xzr, [sp, #65]
	stur	xzr, [sp, #81]
.LBB13_64:
	strb	w8, [x19]
	ldur	q0, [sp, #65]
	strb	w8, [x19, #1]
	ldur	x8, [sp, #81]
	stur	wzr, [x19, #2]
	strb	wzr, [x19, #6]
	stur	q0, [x19, #8]
	str	x8, [x19, #24]
	b	.LBB13_2
.Lfunc_end13:
	.size	"ct_promise::leaf::leaf_of", .Lfunc_end13-"ct_promise::leaf::leaf_of"
	.section	.rodata.cst16,"aM",@progbits,16
	.p2align	4, 0x0
.LCPI14_0:
	.word	1779033703
	.word	3144134277
	.word	1013904242
	.word	2773480762
.LCPI14_1:
	.word	1359893119
	.word	2600822924
	.word	528734635
	.word	1541459225
	.section	".text.ct_tree::hash::Sha256HashNodeHash::hash","ax",@progbits
	.p2align	2
	.type	"ct_tree::hash::Sha256HashNodeHash::hash",@function
"ct_tree::hash::Sha256HashNodeHash::hash":
	sub	sp, sp, #288
	adrp	x8, .LCPI14_0
	movi	v2.2d, #0000000000000000
	stp	x22, x21, [sp, #256]
	ldr	q0, [x8, :lo12:.LCPI14_0]
	adrp	x8, .LCPI14_1
	stp	x20, x19, [sp, #272]
	ldr	q1, [x8, :lo12:.LCPI14_1]
	mov	x19, x0
	mov	x22, sp
	stp	x29, x30, [sp, #224]
	add	x29, sp, #224
	stp	x28, x23, [sp, #240]
	stp	q0, q1, [sp]
	stp	q2, q2, [sp, #32]
	stp	q2, q2, [sp, #64]
	str	xzr, [sp, #96]
	cbz	x2, .LBB14_5
	mov	x20, x1
	mov	x21, x2
	ldr	x1, [x1]
	ldr	x2, [x20, #8]
	mov	x0, sp
	bl	"sha2::block256::Core256::update"
	cmp	x21, #1
	b.eq	.LBB14_4
	ldp	x1, x2, [x20, #16]
	mov	x0, sp
	bl	"sha2::block256::Core256::update"
	cmp	x21, #2
	b.eq	.LBB14_4
	ldp	x1, x2, [x20, #32]
	mov	x0, sp
	bl	"sha2::block256::Core256::update"
.LBB14_4:
	ldp	q0, q1, [sp]
.LBB14_5:
	stp	q0, q1, [sp, #112]
	ldp	q2, q0, [x22, #48]
	ldur	x20, [x22, #96]
	mov	w8, #55
	adrp	x1, .Lstatic.5
	add	x1, x1, :lo12:.Lstatic.5
	ldur	q1, [x22, #32]
	add	x0, sp, #112
	sub	w8, w8, w20
	stp	q2, q0, [sp, #160]
	ldur	q2, [x22, #80]
	and	x8, x8, #0x3f
	lsr	x21, x20, #21
	str	x20, [sp, #208]
	add	x2, x8, #1
	str	q2, [sp, #192]
	lsr	x22, x20, #13
	lsl	x23, x20, #3
	str	q1, [sp, #144]
	bl	"sha2::block256::Core256::update"
	lsl	x8, x20, #43
	lsr	x9, x20, #5
	lsr	x10, x20, #37
	and	x11, x21, #0xff0000
	add	x0, sp, #112
	add	x1, sp, #104
	and	x8, x8, #0xff000000000000
	and	x9, x9, #0xff000000
	and	x10, x10, #0xff00
	orr	x8, x8, x20, lsl #59
	orr	x9, x9, x11
	mov	w2, #8
	orr	x9, x9, x10
	bfi	x8, x22, #40, #8
	bfi	x8, x21, #32, #8
	orr	x8, x8, x9
	orr	x8, x8, x23, lsr #56
	str	x8, [sp, #104]
	bl	"sha2::block256::Core256::update"
	ldp	q0, q1, [sp, #112]
	ldp	x22, x21, [sp, #256]
	ldp	x28, x23, [sp, #240]
	rev32	v0.16b, v0.16b
	rev32	v1.16b, v1.16b
	ldp	x29, x30, [sp, #224]
	stp	q0, q1, [x19]
	ldp	x20, x19, [sp, #272]
	add	sp, sp, #288
	ret
.Lfunc_end14:
	.size	"ct_tree::hash::Sha256HashNodeHash::hash", .Lfunc_end14-"ct_tree::hash::Sha256HashNodeHash::hash"
	.section	".text.sha2::block256::Core256::update","ax",@progbits
	.p2align	2
	.type	"sha2::block256::Core256::update",@function
"sha2::block256::Core256::update":
	stp	x29, x30, [sp, #-80]!
	ldr	x9, [x0, #96]
	stp	x22, x21, [sp, #48]
	mov	x21, x0
	stp	x20, x19, [sp, #64]
	mov	x20, x2
	mov	x19, x1
	ands	x8, x9, #0x3f
	add	x9, x9, x2
	str	x25, [sp, #16]
	stp	x24, x23, [sp, #32]
	mov	x29, sp
	str	x9, [x0, #96]
	b.eq	.LBB15_8
	mov	w9, #64
	sub	x22, x9, x8
	add	x9, x21, #32
	add	x0, x9, x8
	cmp	x20, x22
	sub	x10, x0, x19
	b.hs	.LBB15_9
	cmp	x10, x20
	b.hs	.LBB15_15
	cmp	x20, #8
	b.lo	.LBB15_5
	add	x9, x8, x21
	sub	x9, x9, x19
	add	x9, x9, #32
	cmp	x9, #32
	b.hs	.LBB15_37
.LBB15_5:
	mov	x9, xzr
.LBB15_6:
	add	x8, x9, x8
	add	x10, x8, x21
	sub	x8, x20, x9
	add	x9, x19, x9
	add	x10, x10, #32
.LBB15_7:
	ldrb	w11, [x9], #1
	subs	x8, x8, #1
	strb	w11, [x10], #1
	b.ne	.LBB15_7
	b	.LBB15_26
.LBB15_8:
	mov	x22, xzr
	sub	x24, x20, xzr
	lsr	x25, x24, #6
	cbnz	x25, .LBB15_18
	b	.LBB15_20
.LBB15_9:
	cmp	x10, x22
	b.hs	.LBB15_16
	cmp	x8, #60
	b.hi	.LBB15_12
	add	x10, x8, x21
	sub	x10, x10, x19
	add	x10, x10, #32
	cmp	x10, #16
	b.hs	.LBB15_39
.LBB15_12:
	mov	x10, xzr
.LBB15_13:
	add	x8, x10, x8
	add	x10, x19, x10
.LBB15_14:
	ldrb	w11, [x10], #1
	strb	w11, [x9, x8]
	add	x8, x8, #1
	cmp	x8, #64
	b.ne	.LBB15_14
	b	.LBB15_17
.LBB15_15:
	mov	x1, x19
	mov	x2, x20
	b	.LBB15_27
.LBB15_16:
	mov	x1, x19
	mov	x2, x22
	bl	memmove
.LBB15_17:
	add	x1, x21, #32
	mov	x0, x21
	bl	"sha2::block256::compress"
	sub	x24, x20, x22
	lsr	x25, x24, #6
	cbz	x25, .LBB15_20
.LBB15_18:
	add	x23, x19, x22
.LBB15_19:
	mov	x0, x21
	mov	x1, x23
	bl	"sha2::block256::compress"
	subs	x25, x25, #1
	add	x23, x23, #64
	b.ne	.LBB15_19
.LBB15_20:
	and	x8, x24, #0xffffffffffffffc0
	add	x0, x21, #32
	add	x9, x8, x22
	add	x1, x19, x9
	sub	x2, x20, x9
	sub	x9, x0, x1
	cmp	x9, x2
	b.hs	.LBB15_27
	cmp	x2, #8
	b.lo	.LBB15_23
	add	x9, x22, x19
	add	x9, x9, x8
	sub	x9, x21, x9
	add	x9, x9, #32
	cmp	x9, #32
	b.hs	.LBB15_28
.LBB15_23:
	mov	x9, xzr
.LBB15_24:
	add	x10, x9, x22
	add	x11, x9, x21
	add	x10, x10, x8
	sub	x8, x10, x20
	add	x9, x19, x10
	add	x10, x11, #32
.LBB15_25:
	ldrb	w11, [x9], #1
	adds	x8, x8, #1
	strb	w11, [x10], #1
	b.lo	.LBB15_25
.LBB15_26:
	ldp	x20, x19, [sp, #64]
	ldr	x25, [sp, #16]
	ldp	x22, x21, [sp, #48]
	ldp	x24, x23, [sp, #32]
	ldp	x29, x30, [sp], #80
	ret
.LBB15_27:
	ldp	x20, x19, [sp, #64]
	ldr	x25, [sp, #16]
	ldp	x22, x21, [sp, #48]
	ldp	x24, x23, [sp, #32]
	ldp	x29, x30, [sp], #80
	b	memmove
.LBB15_28:
	cmp	x2, #32
	b.hs	.LBB15_30
	mov	x9, xzr
	b	.LBB15_34
.LBB15_30:
	add	x11, x22, x8
	and	x10, x2, #0x18
	and	x9, x2, #0xffffffffffffffe0
	add	x12, x11, x19
	add	x11, x21, #48
	and	x13, x2, #0xffffffffffffffe0
	add	x12, x12, #16
.LBB15_31:
	ldp	q0, q1, [x12, #-16]
	subs	x13, x13, #32
	add	x12, x12, #32
	stp	q0, q1, [x11, #-16]
	add	x11, x11, #32
	b.ne	.LBB15_31
	cmp	x2, x9
	b.eq	.LBB15_26
	cbz	x10, .LBB15_24
.LBB15_34:
	mov	x10, x9
	and	x9, x2, #0xfffffffffffffff8
	add	x11, x10, x22
	add	x12, x10, x21
	sub	x10, x10, x9
	add	x11, x11, x8
	add	x12, x12, #32
	add	x11, x19, x11
.LBB15_35:
	ldr	d0, [x11], #8
	adds	x10, x10, #8
	str	d0, [x12], #8
	b.ne	.LBB15_35
	cmp	x2, x9
	b.eq	.LBB15_26
	b	.LBB15_24
.LBB15_37:
	cmp	x20, #32
	b.hs	.LBB15_41
	mov	x9, xzr
	b	.LBB15_45
.LBB15_39:
	cmp	x8, #48
	b.ls	.LBB15_48
	mov	x10, xzr
	b	.LBB15_53
.LBB15_41:
	add	x12, x8, x21
	and	x10, x20, #0x18
	and	x9, x20, #0xffffffffffffffe0
	add	x11, x19, #16
	add	x12, x12, #48
	and	x13, x20, #0xffffffffffffffe0
.LBB15_42:
	ldp	q0, q1, [x11, #-16]
	subs	x13, x13, #32
	add	x11, x11, #32
	stp	q0, q1, [x12, #-16]
	add	x12, x12, #32
	b.ne	.LBB15_42
	cmp	x20, x9
	b.eq	.LBB15_26
	cbz	x10, .LBB15_6
.LBB15_45:
	mov	x11, x9
	and	x9, x20, #0xfffffffffffffff8
	add	x10, x11, x8
	add	x12, x10, x21
	sub	x10, x11, x9
	add	x11, x19, x11
	add	x12, x12, #32
.LBB15_46:
	ldr	d0, [x11], #8
	adds	x10, x10, #8
	str	d0, [x12], #8
	b.ne	.LBB15_46
	cmp	x20, x9
	b.eq	.LBB15_26
	b	.LBB15_6
.LBB15_48:
	ldp	d0, d1, [x19]
	and	x10, x22, #0x70
	cmp	x10, #16
	stp	d0, d1, [x0]
	b.eq	.LBB15_51
	ldp	d0, d1, [x19, #16]
	cmp	x10, #32
	stp	d0, d1, [x0, #16]
	b.eq	.LBB15_51
	ldp	d0, d1, [x19, #32]
	stp	d0, d1, [x0, #32]
.LBB15_51:
	cmp	x22, x10
	b.eq	.LBB15_17
	and	x11, x22, #0xc
	cbz	x11, .LBB15_13
.LBB15_53:
	mov	x12, x10
	and	x10, x22, #0x7c
	add	x11, x12, x21
	add	x13, x11, x8
	sub	x11, x12, x10
	add	x12, x19, x12
	add	x13, x13, #32
.LBB15_54:
	ldr	w14, [x12], #4
	adds	x11, x11, #4
	str	w14, [x13], #4
	b.ne	.LBB15_54
	cmp	x22, x10
	b.eq	.LBB15_17
	b	.LBB15_13
.Lfunc_end15:
	.size	"sha2::block256::Core256::update", .Lfunc_end15-"sha2::block256::Core256::update"
	.section	".text.sha2::block256::compress","ax",@progbits
	.p2align	2
	.type	"sha2::block256::compress",@function
"sha2::block256::compress":
	.ifc WAGTENIB_SHA_INSTRUCTIONS,1
	.hidden	wagtenib_compress
	b	wagtenib_compress
	.globl	wagtenib_proved_compress
	.hidden	wagtenib_proved_compress
	.type	wagtenib_proved_compress,@function
wagtenib_proved_compress:
	.endif
	sub	sp, sp, #192
	ldp	w6, w17, [x0, #16]
	ldp	w16, w14, [x0, #24]
	ldp	w10, w9, [x1]
	ldp	w7, w5, [x0]
	eor	w11, w6, w6, ror #14
	bic	w12, w16, w6
	and	w13, w17, w6
	rev	w15, w10
	orr	w10, w13, w12
	mov	w8, #12184
	eor	w12, w7, w7, ror #9
	str	w15, [sp, #108]
	eor	w11, w6, w11, ror #5
	add	w13, w14, w15
	movk	w8, #17034, lsl #16
	str	w14, [sp, #28]
	ldp	w2, w15, [x0, #8]
	add	w10, w13, w10
	eor	w12, w7, w12, ror #11
	ror	w11, w11, #6
	add	w8, w10, w8
	eor	w10, w5, w7
	rev	w18, w9
	ror	w12, w12, #2
	bic	w13, w5, w10
	and	w14, w2, w10
	add	w8, w8, w11
	orr	w11, w14, w13
	str	w15, [sp, #12]
	add	w11, w12, w11
	add	w12, w8, w15
	mov	w13, #17553
	add	w8, w11, w8
	eor	w11, w12, w12, ror #14
	bic	w14, w17, w12
	eor	w9, w8, w8, ror #9
	and	w15, w6, w12
	str	w18, [sp, #104]
	eor	w11, w12, w11, ror #5
	add	w18, w16, w18
	orr	w14, w15, w14
	eor	w9, w8, w9, ror #11
	movk	w13, #28983, lsl #16
	eor	w15, w8, w7
	add	w14, w18, w14
	ror	w11, w11, #6
	and	w10, w15, w10
	add	w13, w14, w13
	ror	w9, w9, #2
	str	x0, [sp, #40]
	eor	w10, w10, w7
	add	w11, w13, w11
	str	w16, [sp, #36]
	ldp	w14, w0, [x1, #8]
	add	w9, w9, w10
	add	w13, w11, w2
	str	w2, [sp, #8]
	add	w11, w9, w11
	eor	w9, w13, w13, ror #14
	bic	w2, w6, w13
	rev	w16, w14
	eor	w14, w11, w11, ror #9
	and	w3, w12, w13
	eor	w9, w13, w9, ror #5
	mov	w10, #64463
	add	w4, w17, w16
	orr	w2, w3, w2
	eor	w14, w11, w14, ror #11
	movk	w10, #46528, lsl #16
	eor	w3, w11, w8
	add	w2, w4, w2
	ror	w9, w9, #6
	and	w15, w3, w15
	add	w10, w2, w10
	ror	w14, w14, #2
	eor	w15, w15, w8
	add	w9, w10, w9
	str	w16, [sp, #92]
	add	w10, w14, w15
	add	w14, w9, w5
	str	w5, [sp, #16]
	add	w9, w10, w9
	eor	w10, w14, w14, ror #14
	rev	w16, w0
	eor	w0, w9, w9, ror #9
	bic	w4, w12, w14
	and	w5, w13, w14
	eor	w10, w14, w10, ror #5
	mov	w15, #56229
	stp	w7, w6, [sp, #20]
	add	w6, w6, w16
	orr	w4, w5, w4
	movk	w15, #59829, lsl #16
	eor	w0, w9, w0, ror #11
	add	w4, w6, w4
	ror	w10, w10, #6
	eor	w5, w9, w11
	add	w15, w4, w15
	str	w16, [sp, #88]
	and	w3, w5, w3
	ror	w0, w0, #2
	add	w10, w15, w10
	eor	w3, w3, w11
	add	w15, w10, w7
	stp	x20, x19, [sp, #176]
	ldp	w4, w7, [x1, #16]
	add	w0, w0, w3
	bic	w19, w13, w15
	and	w20, w14, w15
	add	w10, w0, w10
	eor	w0, w15, w15, ror #14
	mov	w6, #49755
	rev	w16, w4
	eor	w4, w10, w10, ror #9
	orr	w19, w20, w19
	eor	w0, w15, w0, ror #5
	add	w12, w16, w12
	eor	w20, w10, w9
	eor	w4, w10, w4, ror #11
	movk	w6, #14678, lsl #16
	add	w12, w12, w19
	ror	w0, w0, #6
	and	w5, w20, w5
	add	w12, w12, w6
	ror	w4, w4, #2
	eor	w5, w5, w9
	str	w16, [sp, #84]
	add	w12, w12, w0
	rev	w16, w7
	stp	x22, x21, [sp, #160]
	add	w4, w4, w5
	add	w0, w12, w8
	mov	w5, #4593
	add	w8, w4, w12
	eor	w12, w0, w0, ror #14
	bic	w7, w14, w0
	eor	w6, w8, w8, ror #9
	and	w19, w15, w0
	add	w13, w16, w13
	eor	w12, w0, w12, ror #5
	orr	w7, w19, w7
	movk	w5, #23025, lsl #16
	eor	w6, w8, w6, ror #11
	eor	w19, w8, w10
	add	w13, w13, w7
	ror	w12, w12, #6
	and	w7, w19, w20
	add	w13, w13, w5
	ror	w5, w6, #2
	eor	w6, w7, w10
	str	w16, [sp, #80]
	add	w12, w13, w12
	stp	x24, x23, [sp, #144]
	ldr	w3, [sp, #108]
	add	w13, w5, w6
	add	w20, w12, w11
	mov	w11, #33444
	ldp	w7, w6, [x1, #24]
	add	w13, w13, w12
	eor	w12, w20, w20, ror #14
	bic	w21, w15, w20
	and	w22, w0, w20
	movk	w11, #37439, lsl #16
	stp	x26, x25, [sp, #128]
	rev	w16, w7
	eor	w7, w13, w13, ror #9
	eor	w12, w20, w12, ror #5
	add	w14, w16, w14
	orr	w21, w22, w21
	eor	w22, w13, w8
	eor	w7, w13, w7, ror #11
	add	w14, w14, w21
	ror	w12, w12, #6
	and	w19, w22, w19
	add	w11, w14, w11
	rev	w6, w6
	ror	w14, w7, #2
	eor	w7, w19, w8
	add	w11, w11, w12
	add	w15, w6, w15
	stp	x28, x27, [sp, #112]
	add	w12, w14, w7
	add	w14, w11, w9
	str	x30, [sp, #96]
	add	w9, w12, w11
	eor	w11, w14, w14, ror #14
	bic	w19, w0, w14
	eor	w7, w9, w9, ror #9
	and	w21, w20, w14
	mov	w12, #24277
	eor	w11, w14, w11, ror #5
	orr	w19, w21, w19
	movk	w12, #43804, lsl #16
	eor	w7, w9, w7, ror #11
	eor	w21, w9, w13
	add	w15, w15, w19
	ror	w11, w11, #6
	and	w19, w21, w22
	add	w12, w15, w12
	ror	w15, w7, #2
	eor	w7, w19, w13
	str	w17, [sp, #32]
	add	w11, w12, w11
	str	w16, [sp, #76]
	ldp	w12, w19, [x1, #32]
	add	w15, w15, w7
	add	w22, w11, w10
	eor	w10, w22, w22, ror #14
	rev	w2, w12
	add	w12, w15, w11
	bic	w11, w20, w22
	and	w15, w14, w22
	eor	w23, w12, w12, ror #9
	eor	w10, w22, w10, ror #5
	orr	w11, w15, w11
	add	w15, w2, w0
	mov	w0, #43672
	add	w11, w15, w11
	eor	w15, w12, w23, ror #11
	movk	w0, #55303, lsl #16
	ror	w10, w10, #6
	eor	w23, w12, w9
	add	w11, w11, w0
	and	w0, w23, w21
	ror	w15, w15, #2
	rev	w4, w19
	eor	w0, w0, w9
	add	w10, w11, w10
	add	w11, w15, w0
	add	w15, w10, w8
	eor	w8, w15, w15, ror #14
	add	w11, w11, w10
	bic	w10, w14, w15
	and	w0, w22, w15
	eor	w21, w11, w11, ror #9
	eor	w8, w15, w8, ror #5
	orr	w10, w0, w10
	add	w0, w4, w20
	mov	w20, #23297
	add	w10, w0, w10
	eor	w0, w11, w21, ror #11
	movk	w20, #4739, lsl #16
	ror	w8, w8, #6
	eor	w21, w11, w12
	add	w10, w10, w20
	and	w20, w21, w23
	ror	w0, w0, #2
	add	w8, w10, w8
	eor	w20, w20, w12
	ldp	w10, w24, [x1, #40]
	add	w23, w0, w20
	add	w0, w8, w13
	bic	w13, w22, w0
	rev	w5, w10
	add	w10, w23, w8
	eor	w8, w0, w0, ror #14
	and	w23, w15, w0
	eor	w25, w10, w10, ror #9
	add	w14, w5, w14
	orr	w13, w23, w13
	eor	w8, w0, w8, ror #5
	mov	w23, #34238
	add	w13, w14, w13
	eor	w14, w10, w25, ror #11
	movk	w23, #9265, lsl #16
	ror	w8, w8, #6
	eor	w25, w10, w11
	add	w13, w13, w23
	and	w21, w25, w21
	ror	w14, w14, #2
	rev	w7, w24
	add	w8, w13, w8
	eor	w13, w21, w11
	add	w22, w7, w22
	add	w14, w14, w13
	add	w13, w8, w9
	add	w8, w14, w8
	eor	w9, w13, w13, ror #14
	bic	w14, w15, w13
	eor	w24, w8, w8, ror #9
	and	w23, w0, w13
	orr	w14, w23, w14
	eor	w9, w13, w9, ror #5
	eor	w23, w8, w24, ror #11
	eor	w24, w8, w10
	add	w14, w22, w14
	and	w22, w24, w25
	mov	w25, #32195
	ror	w9, w9, #6
	ror	w23, w23, #2
	movk	w25, #21772, lsl #16
	eor	w22, w22, w10
	add	w14, w14, w25
	add	w14, w14, w9
	add	w9, w23, w22
	add	w9, w9, w14
	add	w12, w14, w12
	ldp	w22, w14, [x1, #48]
	eor	w23, w12, w12, ror #14
	bic	w25, w0, w12
	and	w26, w13, w12
	eor	w27, w9, w9, ror #9
	orr	w25, w26, w25
	mov	w26, #23924
	rev	w19, w22
	eor	w23, w12, w23, ror #5
	movk	w26, #29374, lsl #16
	add	w15, w19, w15
	eor	w30, w9, w8
	add	w15, w15, w25
	eor	w25, w9, w27, ror #11
	ror	w23, w23, #6
	add	w15, w15, w26
	and	w24, w30, w24
	ror	w25, w25, #2
	add	w15, w15, w23
	eor	w23, w24, w8
	add	w28, w15, w11
	add	w23, w25, w23
	eor	w11, w28, w28, ror #14
	mov	w25, #45566
	add	w27, w23, w15
	rev	w23, w14
	bic	w14, w13, w28
	eor	w24, w27, w27, ror #9
	and	w15, w12, w28
	eor	w11, w28, w11, ror #5
	orr	w14, w15, w14
	add	w15, w23, w0
	movk	w25, #32990, lsl #16
	eor	w0, w27, w24, ror #11
	eor	w24, w27, w9
	add	w14, w15, w14
	and	w15, w24, w30
	ror	w11, w11, #6
	add	w14, w14, w25
	ror	w0, w0, #2
	eor	w15, w15, w9
	add	w11, w14, w11
	add	w14, w0, w15
	add	w10, w11, w10
	add	w30, w14, w11
	eor	w14, w10, w10, ror #14
	and	w0, w28, w10
	ldp	w15, w11, [x1, #56]
	eor	w25, w30, w30, ror #9
	eor	w14, w10, w14, ror #5
	rev	w1, w15
	bic	w15, w12, w10
	ror	w14, w14, #6
	orr	w15, w0, w15
	add	w13, w1, w13
	mov	w0, #1703
	add	w13, w13, w15
	eor	w15, w30, w25, ror #11
	movk	w0, #39900, lsl #16
	eor	w25, w30, w27
	add	w13, w13, w0
	and	w0, w25, w24
	ror	w15, w15, #2
	add	w13, w13, w14
	eor	w14, w0, w27
	rev	w24, w11
	add	w15, w15, w14
	add	w14, w13, w8
	add	w11, w24, w12
	add	w8, w15, w13
	eor	w13, w14, w14, ror #14
	bic	w15, w28, w14
	eor	w26, w8, w8, ror #9
	and	w0, w10, w14
	orr	w15, w0, w15
	eor	w12, w14, w13, ror #5
	and	w0, w8, w25
	eor	w13, w8, w26, ror #11
	add	w11, w11, w15
	bic	w15, w30, w25
	mov	w25, #61812
	ror	w12, w12, #6
	orr	w15, w0, w15
	ror	w13, w13, #2
	movk	w25, #49563, lsl #16
	add	w11, w11, w25
	adrp	x25, .Lstatic.4+124
	add	x25, x25, :lo12:.Lstatic.4+124
	add	w11, w11, w12
	add	w12, w13, w15
	add	w15, w12, w11
	add	w9, w11, w9
	mov	w12, #3
.LBB16_1:
	mov	w22, w2
	ldr	w2, [sp, #104]
	eor	w11, w1, w1, ror #2
	eor	w17, w9, w9, ror #14
	str	x12, [sp, #64]
	bic	w26, w10, w9
	eor	w12, w2, w2, ror #11
	and	w0, w14, w9
	ror	w11, w11, #17
	orr	w0, w0, w26
	eor	w17, w9, w17, ror #5
	eor	w16, w15, w15, ror #9
	ldp	w26, w18, [x25, #-60]
	ror	w12, w12, #7
	eor	w11, w11, w1, lsr #10
	add	w0, w28, w0
	ror	w17, w17, #6
	stp	w4, w5, [sp, #52]
	add	w13, w3, w4
	add	w0, w0, w26
	eor	w12, w12, w2, lsr #3
	ldr	w4, [sp, #92]
	eor	w16, w15, w16, ror #11
	add	w11, w13, w11
	add	w13, w17, w0
	eor	w0, w24, w24, ror #2
	add	w21, w11, w12
	eor	w11, w8, w15
	eor	w12, w4, w4, ror #11
	ror	w16, w16, #2
	bic	w26, w8, w11
	and	w28, w30, w11
	ror	w0, w0, #17
	add	w17, w13, w21
	orr	w13, w28, w26
	ror	w12, w12, #7
	add	w26, w5, w2
	add	w16, w16, w13
	add	w13, w17, w27
	eor	w0, w0, w24, lsr #10
	eor	w12, w12, w4, lsr #3
	eor	w28, w13, w13, ror #14
	add	w27, w16, w17
	add	w16, w26, w0
	and	w17, w9, w13
	add	w10, w18, w10
	add	w2, w16, w12
	eor	w12, w13, w28, ror #5
	bic	w16, w14, w13
	eor	w18, w27, w27, ror #9
	orr	w16, w17, w16
	add	w10, w10, w2
	ror	w12, w12, #6
	ldr	w5, [sp, #88]
	add	w10, w10, w16
	eor	w16, w27, w18, ror #11
	eor	w17, w27, w15
	eor	w18, w21, w21, ror #2
	add	w10, w10, w12
	eor	w12, w5, w5, ror #11
	and	w11, w17, w11
	ror	w16, w16, #2
	eor	w11, w11, w15
	ror	w18, w18, #17
	ror	w12, w12, #7
	add	w26, w10, w30
	add	w28, w7, w4
	add	w11, w16, w11
	eor	w18, w18, w21, lsr #10
	eor	w0, w26, w26, ror #14
	eor	w16, w12, w5, lsr #3
	add	w12, w11, w10
	mov	w3, w7
	eor	w0, w26, w0, ror #5
	ldr	w7, [sp, #84]
	str	w19, [sp, #60]
	add	w10, w28, w16
	bic	w16, w9, w26
	eor	w28, w2, w2, ror #2
	add	w4, w10, w18
	and	w18, w13, w26
	ror	w11, w0, #6
	orr	w16, w18, w16
	eor	w0, w12, w12, ror #9
	ldr	w20, [sp, #76]
	ldp	w10, w18, [x25, #-52]
	stp	w2, w21, [sp, #104]
	add	w10, w10, w14
	eor	w14, w12, w0, ror #11
	eor	w0, w7, w7, ror #11
	add	w10, w10, w4
	add	w9, w18, w9
	eor	w18, w4, w4, ror #2
	add	w10, w10, w16
	eor	w16, w12, w27
	ror	w0, w0, #7
	and	w17, w16, w17
	ror	w14, w14, #2
	add	w10, w10, w11
	eor	w11, w17, w27
	ror	w17, w28, #17
	add	w30, w10, w8
	eor	w8, w0, w7, lsr #3
	add	w11, w14, w11
	eor	w0, w30, w30, ror #14
	eor	w14, w17, w2, lsr #10
	add	w17, w19, w5
	add	w10, w11, w10
	add	w8, w17, w8
	bic	w11, w13, w30
	ldr	w19, [sp, #80]
	add	w5, w8, w14
	eor	w8, w30, w0, ror #5
	and	w14, w26, w30
	orr	w11, w14, w11
	add	w9, w9, w5
	eor	w17, w10, w10, ror #9
	ror	w8, w8, #6
	add	w9, w9, w11
	stp	w5, w4, [sp, #88]
	eor	w11, w10, w17, ror #11
	eor	w17, w10, w12
	add	w8, w9, w8
	eor	w9, w19, w19, ror #11
	and	w16, w17, w16
	ror	w14, w11, #2
	add	w11, w8, w15
	eor	w15, w16, w12
	ror	w9, w9, #7
	ror	w16, w18, #17
	eor	w18, w11, w11, ror #14
	add	w14, w14, w15
	eor	w9, w9, w19, lsr #3
	eor	w15, w16, w4, lsr #10
	add	w16, w23, w7
	add	w14, w14, w8
	eor	w18, w11, w18, ror #5
	add	w8, w16, w9
	and	w16, w30, w11
	eor	w0, w14, w10
	add	w7, w8, w15
	bic	w15, w26, w11
	ror	w9, w18, #6
	orr	w15, w16, w15
	eor	w18, w14, w14, ror #9
	and	w17, w0, w17
	ldp	w8, w16, [x25, #-44]
	str	w7, [sp, #84]
	add	w8, w8, w13
	eor	w13, w14, w18, ror #11
	eor	w18, w20, w20, ror #11
	add	w8, w8, w7
	add	w16, w16, w26
	add	w8, w8, w15
	eor	w15, w5, w5, ror #2
	ror	w13, w13, #2
	ror	w18, w18, #7
	add	w8, w8, w9
	eor	w9, w17, w10
	ror	w15, w15, #17
	add	w9, w13, w9
	add	w28, w8, w27
	eor	w13, w18, w20, lsr #3
	add	w17, w19, w1
	eor	w18, w28, w28, ror #14
	eor	w15, w15, w5, lsr #10
	add	w8, w9, w8
	add	w9, w17, w13
	bic	w13, w30, w28
	eor	w17, w8, w8, ror #9
	add	w19, w9, w15
	eor	w9, w28, w18, ror #5
	and	w15, w11, w28
	orr	w13, w15, w13
	add	w15, w16, w19
	eor	w16, w6, w6, ror #11
	ror	w9, w9, #6
	add	w13, w15, w13
	eor	w15, w8, w17, ror #11
	eor	w18, w7, w7, ror #2
	str	w19, [sp, #80]
	add	w13, w13, w9
	ror	w17, w15, #2
	eor	w15, w8, w14
	and	w0, w15, w0
	add	w9, w13, w12
	ror	w12, w16, #7
	eor	w16, w0, w14
	ror	w18, w18, #17
	eor	w0, w9, w9, ror #14
	eor	w12, w12, w6, lsr #3
	add	w16, w17, w16
	add	w6, w6, w21
	eor	w17, w18, w7, lsr #10
	add	w18, w20, w24
	eor	w0, w9, w0, ror #5
	add	w12, w18, w12
	add	w13, w16, w13
	and	w18, w28, w9
	add	w20, w12, w17
	ror	w12, w0, #6
	bic	w17, w11, w9
	ldp	w16, w0, [x25, #-36]
	orr	w17, w18, w17
	eor	w18, w13, w13, ror #9
	eor	w26, w13, w8
	and	w15, w26, w15
	ldr	w21, [sp, #52]
	str	w20, [sp, #76]
	add	w16, w30, w16
	eor	w15, w15, w8
	add	w16, w16, w20
	add	w16, w16, w17
	eor	w17, w22, w22, ror #11
	add	w12, w16, w12
	eor	w16, w13, w18, ror #11
	eor	w18, w19, w19, ror #2
	ror	w17, w17, #7
	add	w10, w12, w10
	ror	w18, w18, #17
	ror	w16, w16, #2
	eor	w27, w10, w10, ror #14
	eor	w17, w17, w22, lsr #3
	eor	w18, w18, w19, lsr #10
	add	w15, w16, w15
	eor	w27, w10, w27, ror #5
	add	w16, w6, w17
	and	w17, w9, w10
	add	w15, w15, w12
	add	w6, w16, w18
	bic	w16, w28, w10
	ror	w12, w27, #6
	add	w18, w6, w0
	orr	w16, w17, w16
	eor	w17, w15, w15, ror #9
	add	w11, w18, w11
	eor	w0, w20, w20, ror #2
	add	w11, w11, w16
	eor	w16, w21, w21, ror #11
	add	w11, w11, w12
	eor	w12, w15, w17, ror #11
	eor	w17, w15, w13
	ror	w16, w16, #7
	add	w30, w11, w14
	and	w18, w17, w26
	ror	w12, w12, #2
	ror	w14, w0, #17
	eor	w0, w30, w30, ror #14
	eor	w16, w16, w21, lsr #3
	eor	w18, w18, w13
	add	w12, w12, w18
	eor	w14, w14, w20, lsr #10
	eor	w18, w30, w0, ror #5
	add	w16, w16, w22
	add	w27, w12, w11
	ldr	w22, [sp, #56]
	add	w11, w2, w16
	and	w16, w10, w30
	eor	w0, w6, w6, ror #2
	add	w2, w11, w14
	ror	w11, w18, #6
	bic	w14, w9, w30
	ldp	w12, w18, [x25, #-28]
	orr	w14, w16, w14
	eor	w16, w27, w27, ror #9
	add	w12, w2, w12
	add	w12, w12, w28
	add	w12, w12, w14
	eor	w14, w22, w22, ror #11
	add	w11, w12, w11
	eor	w12, w27, w16, ror #11
	eor	w16, w27, w15
	ror	w26, w14, #7
	and	w17, w16, w17
	add	w14, w11, w8
	ror	w12, w12, #2
	ror	w8, w0, #17
	eor	w17, w17, w15
	eor	w0, w26, w22, lsr #3
	eor	w26, w14, w14, ror #14
	add	w12, w12, w17
	eor	w17, w8, w6, lsr #10
	add	w0, w0, w21
	add	w8, w12, w11
	eor	w26, w14, w26, ror #5
	add	w11, w0, w4
	bic	w12, w10, w14
	eor	w0, w3, w3, ror #11
	add	w4, w11, w17
	and	w17, w30, w14
	ror	w11, w26, #6
	add	w18, w4, w18
	orr	w12, w17, w12
	eor	w17, w8, w8, ror #9
	add	w9, w18, w9
	ror	w18, w0, #7
	ldr	w21, [sp, #60]
	add	w9, w9, w12
	eor	w12, w2, w2, ror #2
	add	w9, w9, w11
	eor	w11, w8, w17, ror #11
	eor	w17, w8, w27
	eor	w18, w18, w3, lsr #3
	and	w16, w17, w16
	ror	w0, w12, #17
	ror	w11, w11, #2
	eor	w16, w16, w27
	add	w12, w9, w13
	add	w18, w18, w22
	eor	w13, w0, w2, lsr #10
	eor	w0, w12, w12, ror #14
	add	w11, w11, w16
	add	w16, w18, w5
	ldp	w18, w26, [x25, #-20]
	add	w5, w16, w13
	eor	w13, w12, w0, ror #5
	bic	w16, w30, w12
	and	w0, w14, w12
	add	w18, w5, w18
	ror	w13, w13, #6
	orr	w16, w0, w16
	add	w18, w18, w10
	add	w10, w11, w9
	eor	w11, w21, w21, ror #11
	add	w9, w18, w16
	eor	w18, w4, w4, ror #2
	eor	w16, w10, w8
	add	w9, w9, w13
	eor	w13, w10, w10, ror #9
	ror	w0, w11, #7
	add	w11, w9, w15
	ror	w15, w18, #17
	and	w17, w16, w17
	eor	w13, w10, w13, ror #11
	eor	w18, w0, w21, lsr #3
	eor	w17, w17, w8
	eor	w15, w15, w4, lsr #10
	eor	w0, w11, w11, ror #14
	ror	w13, w13, #2
	add	w18, w18, w3
	ldr	w3, [sp, #108]
	eor	w0, w11, w0, ror #5
	add	w13, w13, w17
	add	w17, w18, w7
	add	w7, w17, w15
	bic	w15, w14, w11
	and	w17, w12, w11
	add	w18, w7, w26
	add	w9, w13, w9
	orr	w15, w17, w15
	add	w17, w18, w30
	ror	w13, w0, #6
	eor	w18, w9, w9, ror #9
	add	w15, w17, w15
	eor	w17, w23, w23, ror #11
	eor	w26, w9, w10
	add	w13, w15, w13
	eor	w15, w9, w18, ror #11
	eor	w18, w5, w5, ror #2
	ror	w17, w17, #7
	and	w16, w26, w16
	ror	w0, w15, #2
	eor	w16, w16, w10
	add	w15, w13, w27
	eor	w17, w17, w23, lsr #3
	ror	w18, w18, #17
	eor	w27, w15, w15, ror #14
	add	w16, w0, w16
	add	w17, w17, w21
	eor	w18, w18, w5, lsr #10
	add	w13, w16, w13
	add	w16, w17, w19
	eor	w0, w15, w27, ror #5
	ldp	w17, w30, [x25, #-12]
	add	w19, w16, w18
	ror	w16, w0, #6
	bic	w18, w12, w15
	and	w0, w11, w15
	add	w17, w19, w17
	orr	w18, w0, w18
	add	w14, w17, w14
	eor	w17, w13, w13, ror #9
	add	w14, w14, w18
	eor	w18, w1, w1, ror #11
	add	w14, w14, w16
	eor	w16, w13, w17, ror #11
	eor	w17, w13, w9
	and	w0, w17, w26
	eor	w26, w7, w7, ror #2
	ror	w18, w18, #7
	ror	w16, w16, #2
	add	w28, w14, w8
	eor	w0, w0, w9
	ror	w8, w26, #17
	eor	w18, w18, w1, lsr #3
	eor	w26, w28, w28, ror #14
	add	w16, w16, w0
	eor	w8, w8, w7, lsr #10
	add	w18, w23, w18
	eor	w0, w28, w26, ror #5
	add	w27, w16, w14
	add	w14, w18, w20
	bic	w16, w11, w28
	add	w23, w14, w8
	ror	w14, w0, #6
	eor	w8, w27, w27, ror #9
	and	w18, w15, w28
	add	w0, w23, w30
	orr	w16, w18, w16
	add	w12, w0, w12
	eor	w18, w27, w8, ror #11
	add	w12, w12, w16
	eor	w16, w24, w24, ror #11
	eor	w8, w27, w13
	add	w12, w12, w14
	ror	w14, w18, #2
	and	w17, w8, w17
	eor	w18, w19, w19, ror #2
	ror	w16, w16, #7
	eor	w17, w17, w13
	add	w10, w12, w10
	add	w14, w14, w17
	ror	w17, w18, #17
	eor	w16, w16, w24, lsr #3
	eor	w18, w10, w10, ror #14
	add	w30, w14, w12
	eor	w12, w17, w19, lsr #10
	add	w14, w16, w1
	eor	w16, w10, w18, ror #5
	add	w14, w14, w6
	ldur	w17, [x25, #-4]
	eor	w18, w30, w30, ror #9
	add	w1, w14, w12
	ror	w12, w16, #6
	bic	w14, w15, w10
	and	w16, w28, w10
	add	w17, w1, w17
	eor	w18, w30, w18, ror #11
	orr	w14, w16, w14
	eor	w16, w3, w3, ror #11
	add	w11, w17, w11
	eor	w17, w30, w27
	add	w11, w11, w14
	ror	w14, w18, #2
	and	w8, w17, w8
	eor	w18, w23, w23, ror #2
	ror	w16, w16, #7
	eor	w8, w8, w27
	add	w11, w11, w12
	add	w8, w14, w8
	ror	w12, w18, #17
	eor	w16, w16, w3, lsr #3
	add	w8, w8, w11
	add	w14, w11, w9
	eor	w9, w12, w23, lsr #10
	add	w11, w16, w24
	eor	w12, w14, w14, ror #14
	eor	w18, w8, w8, ror #9
	add	w11, w11, w2
	ldr	w16, [x25], #64
	add	w24, w11, w9
	eor	w9, w14, w12, ror #5
	eor	w18, w8, w18, ror #11
	bic	w11, w28, w14
	and	w12, w10, w14
	add	w16, w24, w16
	orr	w11, w12, w11
	ror	w9, w9, #6
	add	w12, w16, w15
	ror	w15, w18, #2
	and	w16, w8, w17
	bic	w17, w30, w17
	add	w11, w12, w11
	orr	w12, w16, w17
	add	w9, w11, w9
	add	w11, w15, w12
	ldr	x12, [sp, #64]
	add	w15, w11, w9
	add	w9, w9, w13
	subs	x12, x12, #1
	b.ne	.LBB16_1
	ldp	w12, w11, [sp, #16]
	ldp	x20, x19, [sp, #176]
	ldp	x22, x21, [sp, #160]
	add	w8, w8, w12
	ldr	x12, [sp, #40]
	add	w11, w15, w11
	ldp	x24, x23, [sp, #144]
	stp	w11, w8, [x12]
	ldp	x26, x25, [sp, #128]
	ldp	w11, w8, [sp, #8]
	add	w11, w30, w11
	add	w8, w27, w8
	ldr	x30, [sp, #96]
	stp	w11, w8, [x12, #8]
	ldr	w11, [sp, #24]
	ldr	w8, [sp, #32]
	add	w9, w9, w11
	add	w8, w14, w8
	stp	w9, w8, [x12, #16]
	ldr	w8, [sp, #28]
	ldr	w9, [sp, #36]
	add	w8, w28, w8
	ldp	x28, x27, [sp, #112]
	add	w9, w10, w9
	stp	w9, w8, [x12, #24]
	add	sp, sp, #192
	ret
.Lfunc_end16:
	.size	"sha2::block256::compress", .Lfunc_end16-"sha2::block256::compress"
	.section	".text.ct_verify::inclusion::verify_inclusion::<#0f46d2847b2ce1ce>","ax",@progbits
	.p2align	2
	.type	"ct_verify::inclusion::verify_inclusion::<#0f46d2847b2ce1ce>",@function
"ct_verify::inclusion::verify_inclusion::<#0f46d2847b2ce1ce>":
	sub	sp, sp, #240
	movi	v0.2d, #0000000000000000
	cmp	x2, x1
	stp	x29, x30, [sp, #176]
	stp	x24, x23, [sp, #192]
	add	x29, sp, #176
	stp	x22, x21, [sp, #208]
	stp	x20, x19, [sp, #224]
	stp	q0, q0, [sp]
	b.ls	.LBB17_12
	ldp	q0, q1, [x0]
	mov	x19, x5
	mov	x20, x4
	sub	x23, x2, #1
	stp	q0, q1, [sp, #32]
	cbz	x4, .LBB17_13
	mov	x21, x3
	mov	x22, x1
	mov	x24, xzr
	b	.LBB17_5
.LBB17_3:
	movi	v0.2d, #0000000000000000
	mov	w10, #1
	stp	x9, x10, [x29, #-80]
	mov	w9, #32
	stp	x8, x9, [x29, #-64]
	add	x8, sp, #32
	stp	x8, x9, [x29, #-48]
.LBB17_4:
	stp	q0, q0, [x29, #-32]
	sub	x0, x29, #32
	sub	x1, x29, #80
	mov	w2, #3
	bl	"ct_tree::hash::Sha256HashNodeHash::hash"
	ldp	q0, q1, [x29, #-32]
	lsr	x23, x23, #1
	add	x24, x24, #1
	lsr	x22, x22, #1
	cmp	x24, x20
	stp	q0, q1, [sp, #64]
	ldp	q0, q1, [sp, #64]
	stp	q0, q1, [sp]
	stp	q0, q1, [sp, #32]
	b.eq	.LBB17_13
.LBB17_5:
	cbz	x23, .LBB17_15
	add	x8, x21, x24, lsl #5
	cmp	x22, x23
	adrp	x9, .Lstatic.8
	add	x9, x9, :lo12:.Lstatic.8
	b.eq	.LBB17_9
	tbnz	w22, #0, .LBB17_9
	movi	v0.2d, #0000000000000000
	mov	w10, #1
	stp	x9, x10, [x29, #-80]
	add	x9, sp, #32
	mov	w10, #32
	stp	x9, x10, [x29, #-64]
	stp	x8, x10, [x29, #-48]
	b	.LBB17_4
.LBB17_9:
	tbnz	w22, #0, .LBB17_3
.LBB17_10:
	mov	x10, x22
	lsr	x22, x22, #1
	lsr	x23, x23, #1
	cbz	x10, .LBB17_3
	tbz	w10, #1, .LBB17_10
	b	.LBB17_3
.LBB17_12:
	mov	w1, wzr
	b	.LBB17_16
.LBB17_13:
	cbz	x23, .LBB17_17
	mov	w0, #1
	mov	w1, #2
	ldp	x20, x19, [sp, #224]
	ldp	x22, x21, [sp, #208]
	ldp	x24, x23, [sp, #192]
	ldp	x29, x30, [sp, #176]
	add	sp, sp, #240
	ret
.LBB17_15:
	mov	w1, #1
.LBB17_16:
	mov	w0, #1
	ldp	x20, x19, [sp, #224]
	ldp	x22, x21, [sp, #208]
	ldp	x24, x23, [sp, #192]
	ldp	x29, x30, [sp, #176]
	add	sp, sp, #240
	ret
.LBB17_17:
	add	x0, sp, #32
	mov	x1, x19
	bl	"core::cmp::arrays::ArrayPartialEq::eq::<i8,=32,31'core::cmp::numbers::U8PartialEq{}>"
	mov	w8, #3
	cmp	w0, #0
	eor	w0, w0, #0x1
	csel	w1, wzr, w8, ne
	ldp	x20, x19, [sp, #224]
	ldp	x22, x21, [sp, #208]
	ldp	x24, x23, [sp, #192]
	ldp	x29, x30, [sp, #176]
	add	sp, sp, #240
	ret
.Lfunc_end17:
	.size	"ct_verify::inclusion::verify_inclusion::<#0f46d2847b2ce1ce>", .Lfunc_end17-"ct_verify::inclusion::verify_inclusion::<#0f46d2847b2ce1ce>"
	.section	".text.core::cmp::arrays::ArrayPartialEq::eq::<i8,=32,31'core::cmp::numbers::U8PartialEq{}>","ax",@progbits
	.p2align	2
	.type	"core::cmp::arrays::ArrayPartialEq::eq::<i8,=32,31'core::cmp::numbers::U8PartialEq{}>",@function
"core::cmp::arrays::ArrayPartialEq::eq::<i8,=32,31'core::cmp::numbers::U8PartialEq{}>":
	ldp	q0, q3, [x1]
	mov	w8, #1
	ldp	q1, q2, [x0]
	cmeq	v0.16b, v1.16b, v0.16b
	cmeq	v1.16b, v2.16b, v3.16b
	mvn	v0.16b, v0.16b
	orn	v0.16b, v0.16b, v1.16b
	umaxv	b0, v0.16b
	fmov	w9, s0
	bic	w0, w8, w9
	ret
.Lfunc_end18:
	.size	"core::cmp::arrays::ArrayPartialEq::eq::<i8,=32,31'core::cmp::numbers::U8PartialEq{}>", .Lfunc_end18-"core::cmp::arrays::ArrayPartialEq::eq::<i8,=32,31'core::cmp::numbers::U8PartialEq{}>"
	.section	".text.ct_data_tiles::tile::Tile::from_name","ax",@progbits
	.p2align	2
	.type	"ct_data_tiles::tile::Tile::from_name",@function
"ct_data_tiles::tile::Tile::from_name":
	sub	sp, sp, #160
	subs	x11, x2, #6
	stp	x29, x30, [sp, #64]
	add	x29, sp, #64
	str	x27, [sp, #80]
	stp	x26, x25, [sp, #96]
	stp	x24, x23, [sp, #112]
	stp	x22, x21, [sp, #128]
	stp	x20, x19, [sp, #144]
	stp	xzr, xzr, [sp, #8]
	str	xzr, [sp, #24]
	b.hs	.LBB19_4
.LBB19_1:
	mov	w8, #1
	strh	wzr, [x0, #8]
	strh	w8, [x0]
.LBB19_2:
	str	xzr, [x0, #16]
	strh	wzr, [x0, #24]
.LBB19_3:
	ldp	x20, x19, [sp, #144]
	ldr	x27, [sp, #80]
	ldp	x22, x21, [sp, #128]
	ldp	x24, x23, [sp, #112]
	ldp	x26, x25, [sp, #96]
	ldp	x29, x30, [sp, #64]
	add	sp, sp, #160
	ret
.LBB19_4:
	ldrb	w8, [x1, #5]
	mov	x9, #-7378697629483820647
	mov	x21, xzr
	mov	x10, xzr
	eor	x9, x9, #0x8000000000000003
	sub	x12, x2, #5
	b	.LBB19_6
.LBB19_5:
	add	x10, x10, #1
	cmp	x12, x10
	b.eq	.LBB19_11
.LBB19_6:
	add	x13, x1, x10
	ldrb	w13, [x13, #5]
	cmp	w13, #47
	b.eq	.LBB19_10
	sub	w14, w13, #58
	and	w14, w14, #0xff
	cmp	w14, #246
	b.lo	.LBB19_5
	cmp	x21, x9
	b.hs	.LBB19_1
	add	x14, x21, x21, lsl #2
	sub	w13, w13, #48
	lsl	x14, x14, #1
	adds	x21, x14, w13, uxtb
	b.lo	.LBB19_5
	b	.LBB19_1
.LBB19_10:
	cmp	x11, x10
	b.ne	.LBB19_22
.LBB19_11:
	mov	x22, xzr
.LBB19_12:
	mov	x11, xzr
.LBB19_13:
	cmp	w8, #100
	b.ne	.LBB19_15
	mov	w21, wzr
	mov	w23, #1
	cmp	x11, #0
	mov	w9, #256
	csel	x24, x9, x11, eq
	lsr	x9, x24, #16
	cbnz	x9, .LBB19_1
	b	.LBB19_17
.LBB19_15:
	cmp	x21, #255
	b.hi	.LBB19_1
	mov	w23, wzr
	cmp	x11, #0
	mov	w9, #256
	csel	x24, x9, x11, eq
	lsr	x9, x24, #16
	cbnz	x9, .LBB19_1
.LBB19_17:
	movi	v0.2d, #0000000000000000
	cmp	w8, #100
	mov	w8, #64
	ccmp	w21, w8, #0, ne
	strb	w23, [sp, #8]
	cset	w8, lo
	cmp	x24, #256
	strb	w21, [sp, #9]
	str	x22, [sp, #16]
	strh	w24, [sp, #24]
	stp	q0, q0, [sp, #32]
	b.hi	.LBB19_21
	cbz	w8, .LBB19_21
	mov	x20, x1
	mov	x25, x0
	add	x0, sp, #32
	add	x1, sp, #8
	mov	x27, x2
	bl	"ct_data_tiles::name_writing::written"
	ldrb	w8, [sp, #32]
	cbz	w8, .LBB19_35
	mov	w9, #1
	mov	x0, x25
.LBB19_21:
	mov	w8, #1
	strb	w9, [x0, #1]
	strb	w8, [x0]
	strh	wzr, [x0, #8]
	b	.LBB19_2
.LBB19_22:
	mov	x22, xzr
	b	.LBB19_24
.LBB19_23:
	add	x10, x10, #1
	cmp	x11, x10
	b.eq	.LBB19_12
.LBB19_24:
	add	x13, x1, x10
	ldrb	w12, [x13, #6]
	cmp	w12, #46
	b.eq	.LBB19_28
	sub	w13, w12, #58
	and	w13, w13, #0xff
	cmp	w13, #246
	b.lo	.LBB19_23
	cmp	x22, x9
	b.hs	.LBB19_1
	add	x13, x22, x22, lsl #2
	sub	w12, w12, #48
	lsl	x13, x13, #1
	adds	x22, x13, w12, uxtb
	b.lo	.LBB19_23
	b	.LBB19_1
.LBB19_28:
	sub	x11, x2, #7
	cmp	x11, x10
	b.eq	.LBB19_12
	sub	x12, x2, x10
	mov	x11, xzr
	add	x10, x13, #7
	sub	x12, x12, #7
	b	.LBB19_31
.LBB19_30:
	subs	x12, x12, #1
	b.eq	.LBB19_13
.LBB19_31:
	ldrb	w13, [x10], #1
	cmp	w13, #46
	b.eq	.LBB19_13
	sub	w14, w13, #58
	and	w14, w14, #0xff
	cmp	w14, #246
	b.lo	.LBB19_30
	cmp	x11, x9
	b.hs	.LBB19_1
	add	x11, x11, x11, lsl #2
	sub	w13, w13, #48
	lsl	x11, x11, #1
	adds	x11, x11, w13, uxtb
	b.lo	.LBB19_30
	b	.LBB19_1
.LBB19_35:
	ldp	x19, x8, [sp, #40]
	ldr	x26, [sp, #56]
	cmp	x8, x27
	b.ne	.LBB19_41
	ldr	w8, [x19]
	ldr	w9, [x20]
	cmp	w8, w9
	b.ne	.LBB19_41
	mov	x1, x27
	mov	x0, x19
	mov	x2, x20
	bl	"core::cmp::slices::groups_equal::<i8,31'core::cmp::numbers::U8PartialEq{}>"
	tbz	w0, #0, .LBB19_41
	cbz	x26, .LBB19_40
	mov	x0, x19
	bl	rattle_dealloc
.LBB19_40:
	strh	wzr, [x25]
	strb	w23, [x25, #8]
	strb	w21, [x25, #9]
	str	x22, [x25, #16]
	strh	w24, [x25, #24]
	b	.LBB19_3
.LBB19_41:
	cbz	x26, .LBB19_43
	mov	x0, x19
	bl	rattle_dealloc
.LBB19_43:
	mov	w8, #1
	strh	wzr, [x25, #8]
	strh	w8, [x25]
	str	xzr, [x25, #16]
	strh	wzr, [x25, #24]
	b	.LBB19_3
.Lfunc_end19:
	.size	"ct_data_tiles::tile::Tile::from_name", .Lfunc_end19-"ct_data_tiles::tile::Tile::from_name"
	.section	.rodata.cst8,"aM",@progbits,8
	.p2align	3, 0x0
.LCPI20_0:
	.byte	116
	.byte	105
	.byte	108
	.byte	101
	.zero	1
	.zero	1
	.zero	1
	.zero	1
	.section	".text.ct_data_tiles::name_writing::written","ax",@progbits
	.p2align	2
	.type	"ct_data_tiles::name_writing::written",@function
"ct_data_tiles::name_writing::written":
	sub	sp, sp, #80
	stp	x29, x30, [sp, #32]
	add	x29, sp, #32
	stp	x20, x19, [sp, #64]
	mov	x20, x1
	mov	x19, x0
	sub	x8, x29, #1
	mov	x0, sp
	mov	w1, #5
	stp	x22, x21, [sp, #48]
	stp	xzr, xzr, [sp, #8]
	str	x8, [sp]
	bl	"std_alloc::vec::Vec::grow_amortized::<#a1765139b7b336a0>"
	ldr	x9, [sp, #16]
	cbz	w0, .LBB20_5
	ldp	x10, x8, [sp]
	adrp	x12, .Lstatic.9
	add	x12, x12, :lo12:.Lstatic.9
	add	x11, x10, x8
	add	x8, x8, #5
	sub	x12, x11, x12
	cmp	x12, #4
	b.hi	.LBB20_8
	adrp	x12, .LCPI20_0
	ldr	d0, [x12, :lo12:.LCPI20_0]
	mov	w12, #47
	strb	w12, [x11, #4]
	str	s0, [x11]
	ldrb	w11, [x20]
	stp	x8, x9, [sp, #8]
	cbz	w11, .LBB20_9
.LBB20_3:
	sub	x11, x9, x8
	cmp	x11, #3
	b.ls	.LBB20_25
.LBB20_4:
	add	x11, x8, #4
	mov	w12, #24932
	movk	w12, #24948, lsl #16
	str	w12, [x10, x8]
	stp	x11, x9, [sp, #8]
	b	.LBB20_17
.LBB20_5:
	cbz	x9, .LBB20_7
.LBB20_6:
	ldr	x0, [sp]
	bl	rattle_dealloc
.LBB20_7:
	mov	w8, #1
	stp	xzr, xzr, [x19, #16]
	strb	w8, [x19]
	str	xzr, [x19, #8]
	ldp	x20, x19, [sp, #64]
	ldp	x22, x21, [sp, #48]
	ldp	x29, x30, [sp, #32]
	add	sp, sp, #80
	ret
.LBB20_8:
	mov	w13, #26996
	mov	w12, #47
	movk	w13, #25964, lsl #16
	strb	w12, [x11, #4]
	str	w13, [x11]
	ldrb	w11, [x20]
	stp	x8, x9, [sp, #8]
	cbnz	w11, .LBB20_3
.LBB20_9:
	ldrb	w1, [x20, #1]
	cmp	w1, #99
	b.ls	.LBB20_12
	mov	x0, sp
	bl	"ct_data_tiles::name_writing::push_three_digits"
	and	w8, w0, #0xff
	tbnz	w8, #0, .LBB20_21
	ldr	x11, [sp, #8]
	b	.LBB20_17
.LBB20_12:
	cmp	w1, #10
	b.lo	.LBB20_15
	cmp	x9, x8
	b.eq	.LBB20_29
.LBB20_14:
	mov	w9, #39322
	movk	w9, #6553, lsl #16
	umull	x9, w1, w9
	lsr	x9, x9, #32
	orr	w9, w9, #0x30
	strb	w9, [x10, x8]
	add	x8, x8, #1
	ldr	x9, [sp, #16]
	str	x8, [sp, #8]
.LBB20_15:
	cmp	x9, x8
	b.eq	.LBB20_27
.LBB20_16:
	mov	w9, #39322
	mov	w10, #10
	add	x11, x8, #1
	movk	w9, #6553, lsl #16
	str	x11, [sp, #8]
	umull	x9, w1, w9
	lsr	x9, x9, #32
	msub	w9, w9, w10, w1
	ldr	x10, [sp]
	orr	w9, w9, #0x30
	strb	w9, [x10, x8]
.LBB20_17:
	ldr	x8, [sp, #16]
	cmp	x8, x11
	b.eq	.LBB20_23
.LBB20_18:
	ldr	x8, [sp]
	mov	w9, #47
	mov	x0, sp
	mov	w1, #6
	strb	w9, [x8, x11]
	mov	x9, #63439
	ldr	x22, [x20, #8]
	movk	x9, #58195, lsl #16
	movk	x9, #39845, lsl #32
	lsr	x8, x22, #3
	movk	x9, #8388, lsl #48
	umulh	x8, x8, x9
	add	x9, x11, #1
	str	x9, [sp, #8]
	lsr	x21, x8, #4
	mov	x2, x21
	bl	"ct_data_tiles::name_writing::push_leading_groups"
	and	w8, w0, #0xff
	tbnz	w8, #0, .LBB20_21
	mov	w8, #1000
	mov	x0, sp
	msub	x1, x21, x8, x22
	bl	"ct_data_tiles::name_writing::push_three_digits"
	and	w8, w0, #0xff
	tbnz	w8, #0, .LBB20_21
	ldrh	w1, [x20, #16]
	mov	x0, sp
	bl	"ct_data_tiles::name_writing::push_width"
	and	w8, w0, #0xff
	tbz	w8, #0, .LBB20_22
.LBB20_21:
	ldr	x8, [sp, #16]
	cbnz	x8, .LBB20_6
	b	.LBB20_7
.LBB20_22:
	ldr	q0, [sp]
	ldr	x8, [sp, #16]
	strb	wzr, [x19]
	stur	q0, [x19, #8]
	str	x8, [x19, #24]
	ldp	x20, x19, [sp, #64]
	ldp	x22, x21, [sp, #48]
	ldp	x29, x30, [sp, #32]
	add	sp, sp, #80
	ret
.LBB20_23:
	mov	x0, sp
	mov	w1, #1
	bl	"std_alloc::vec::Vec::grow_amortized::<#a1765139b7b336a0>"
	cbz	w0, .LBB20_21
	ldr	x11, [sp, #8]
	b	.LBB20_18
.LBB20_25:
	mov	x0, sp
	mov	w1, #4
	bl	"std_alloc::vec::Vec::grow_amortized::<#a1765139b7b336a0>"
	cbz	w0, .LBB20_21
	ldp	x8, x9, [sp, #8]
	ldr	x10, [sp]
	b	.LBB20_4
.LBB20_27:
	mov	x21, x1
	mov	x0, sp
	mov	w1, #1
	bl	"std_alloc::vec::Vec::grow_amortized::<#a1765139b7b336a0>"
	cbz	w0, .LBB20_21
	ldr	x8, [sp, #8]
	mov	x1, x21
	b	.LBB20_16
.LBB20_29:
	mov	x21, x1
	mov	x0, sp
	mov	w1, #1
	bl	"std_alloc::vec::Vec::grow_amortized::<#a1765139b7b336a0>"
	cbz	w0, .LBB20_21
	ldp	x10, x8, [sp]
	mov	x1, x21
	b	.LBB20_14
.Lfunc_end20:
	.size	"ct_data_tiles::name_writing::written", .Lfunc_end20-"ct_data_tiles::name_writing::written"
	.section	".text.unlikely.std_alloc::vec::Vec::grow_amortized::<#a1765139b7b336a0>","ax",@progbits
	.p2align	2
	.type	"std_alloc::vec::Vec::grow_amortized::<#a1765139b7b336a0>",@function
"std_alloc::vec::Vec::grow_amortized::<#a1765139b7b336a0>":
	ldr	x8, [x0, #8]
	cmn	x8, x1
	b.lo	.LBB21_2
	mov	w0, wzr
	ret
.LBB21_2:
	stp	x29, x30, [sp, #-32]!
	ldr	x10, [x0, #16]
	add	x9, x8, x1
	mov	w11, #8
	cmp	x9, #8
	stp	x20, x19, [sp, #16]
	mov	x29, sp
	lsl	x12, x10, #1
	csel	x11, x9, x11, hi
	lsr	x13, x10, #62
	cmp	x11, x12
	csel	x9, x11, x12, hi
	cmp	x13, #0
	csel	x19, x9, x11, eq
	tbnz	x19, #63, .LBB21_7
	cbz	x10, .LBB21_6
	mov	x20, x0
	ldr	x0, [x0]
	mov	x1, x8
	mov	x2, x19
	mov	w3, #1
	bl	rattle_realloc
	tbz	w0, #0, .LBB21_7
.LBB21_5:
	mov	w0, #1
	str	x1, [x20]
	str	x19, [x20, #16]
	ldp	x20, x19, [sp, #16]
	ldp	x29, x30, [sp], #32
	ret
.LBB21_6:
	mov	x20, x0
	mov	x0, x9
	mov	w1, #1
	bl	rattle_alloc
	tbnz	w0, #0, .LBB21_5
.LBB21_7:
	mov	w0, wzr
	ldp	x20, x19, [sp, #16]
	ldp	x29, x30, [sp], #32
	ret
.Lfunc_end21:
	.size	"std_alloc::vec::Vec::grow_amortized::<#a1765139b7b336a0>", .Lfunc_end21-"std_alloc::vec::Vec::grow_amortized::<#a1765139b7b336a0>"
	.section	".text.ct_data_tiles::name_writing::push_three_digits","ax",@progbits
	.p2align	2
	.type	"ct_data_tiles::name_writing::push_three_digits",@function
"ct_data_tiles::name_writing::push_three_digits":
	stp	x29, x30, [sp, #-64]!
	ldp	x8, x9, [x0, #8]
	mov	x29, sp
	str	x23, [sp, #16]
	stp	x22, x21, [sp, #32]
	cmp	x9, x8
	stp	x20, x19, [sp, #48]
	b.eq	.LBB22_5
.LBB22_1:
	mov	x10, #62915
	lsr	x9, x1, #2
	mov	x20, #-7378697629483820647
	movk	x10, #23592, lsl #16
	eor	x20, x20, #0x8000000000000003
	mov	w21, #10
	movk	x10, #49807, lsl #32
	movk	x10, #10485, lsl #48
	umulh	x9, x9, x10
	lsr	x9, x9, #2
	umulh	x10, x9, x20
	msub	w9, w10, w21, w9
	ldr	x10, [x0]
	orr	w9, w9, #0x30
	strb	w9, [x10, x8]
	add	x8, x8, #1
	ldr	x9, [x0, #16]
	str	x8, [x0, #8]
	cmp	x9, x8
	b.eq	.LBB22_7
.LBB22_2:
	mov	x9, #-3689348814741910324
	ldr	x10, [x0]
	movk	x9, #52429
	umulh	x9, x1, x9
	lsr	x22, x9, #3
	umulh	x9, x22, x20
	msub	w9, w9, w21, w22
	orr	w9, w9, #0x30
	strb	w9, [x10, x8]
	add	x8, x8, #1
	ldr	x9, [x0, #16]
	str	x8, [x0, #8]
	cmp	x9, x8
	b.eq	.LBB22_9
.LBB22_3:
	mov	w9, #10
	ldr	x10, [x0]
	mov	w19, wzr
	msub	w9, w22, w9, w1
	add	x11, x8, #1
	orr	w9, w9, #0x30
	strb	w9, [x10, x8]
	str	x11, [x0, #8]
.LBB22_4:
	mov	w0, w19
	ldp	x20, x19, [sp, #48]
	ldp	x22, x21, [sp, #32]
	ldr	x23, [sp, #16]
	ldp	x29, x30, [sp], #64
	ret
.LBB22_5:
	mov	x20, x1
	mov	w1, #1
	mov	x21, x0
	mov	w19, #1
	bl	"std_alloc::vec::Vec::grow_amortized::<#a1765139b7b336a0>"
	cbz	w0, .LBB22_4
	ldr	x8, [x21, #8]
	mov	x0, x21
	mov	x1, x20
	b	.LBB22_1
.LBB22_7:
	mov	x22, x1
	mov	w1, #1
	mov	x23, x0
	mov	w19, #1
	bl	"std_alloc::vec::Vec::grow_amortized::<#a1765139b7b336a0>"
	cbz	w0, .LBB22_4
	ldr	x8, [x23, #8]
	mov	x0, x23
	mov	x1, x22
	b	.LBB22_2
.LBB22_9:
	mov	x20, x1
	mov	w1, #1
	mov	x21, x0
	mov	w19, #1
	bl	"std_alloc::vec::Vec::grow_amortized::<#a1765139b7b336a0>"
	cbz	w0, .LBB22_4
	ldr	x8, [x21, #8]
	mov	x0, x21
	mov	x1, x20
	b	.LBB22_3
.Lfunc_end22:
	.size	"ct_data_tiles::name_writing::push_three_digits", .Lfunc_end22-"ct_data_tiles::name_writing::push_three_digits"
	.section	".text.ct_data_tiles::name_writing::push_leading_groups","ax",@progbits
	.p2align	2
	.type	"ct_data_tiles::name_writing::push_leading_groups",@function
"ct_data_tiles::name_writing::push_leading_groups":
	stp	x29, x30, [sp, #-48]!
	stp	x20, x19, [sp, #32]
	mov	x19, x0
	mov	w0, wzr
	str	x21, [sp, #16]
	mov	x29, sp
	cbz	x1, .LBB23_4
	mov	x20, x2
	cbz	x2, .LBB23_4
	mov	x9, #63439
	lsr	x8, x20, #3
	sub	x1, x1, #1
	movk	x9, #58195, lsl #16
	mov	x0, x19
	movk	x9, #39845, lsl #32
	movk	x9, #8388, lsl #48
	umulh	x8, x8, x9
	lsr	x21, x8, #4
	mov	x2, x21
	bl	"ct_data_tiles::name_writing::push_leading_groups"
	and	w8, w0, #0xff
	tbz	w8, #0, .LBB23_5
	mov	w0, #1
.LBB23_4:
	ldp	x20, x19, [sp, #32]
	ldr	x21, [sp, #16]
	ldp	x29, x30, [sp], #48
	ret
.LBB23_5:
	ldp	x8, x9, [x19, #8]
	cmp	x9, x8
	b.eq	.LBB23_10
.LBB23_6:
	mov	w9, #1000
	mov	w10, #120
	mov	x0, x19
	msub	x1, x21, x9, x20
	ldr	x9, [x19]
	strb	w10, [x9, x8]
	add	x8, x8, #1
	str	x8, [x19, #8]
	bl	"ct_data_tiles::name_writing::push_three_digits"
	and	w8, w0, #0xff
	tbz	w8, #0, .LBB23_8
	mov	w0, #1
	ldp	x20, x19, [sp, #32]
	ldr	x21, [sp, #16]
	ldp	x29, x30, [sp], #48
	ret
.LBB23_8:
	ldp	x8, x9, [x19, #8]
	cmp	x9, x8
	b.eq	.LBB23_12
.LBB23_9:
	ldr	x9, [x19]
	mov	w0, wzr
	add	x11, x8, #1
	mov	w10, #47
	strb	w10, [x9, x8]
	str	x11, [x19, #8]
	ldp	x20, x19, [sp, #32]
	ldr	x21, [sp, #16]
	ldp	x29, x30, [sp], #48
	ret
.LBB23_10:
	mov	x0, x19
	mov	w1, #1
	bl	"std_alloc::vec::Vec::grow_amortized::<#a1765139b7b336a0>"
	mov	w8, w0
	mov	w0, #1
	cbz	w8, .LBB23_4
	ldr	x8, [x19, #8]
	b	.LBB23_6
.LBB23_12:
	mov	x0, x19
	mov	w1, #1
	mov	w20, #1
	bl	"std_alloc::vec::Vec::grow_amortized::<#a1765139b7b336a0>"
	mov	w8, w0
	mov	w0, w20
	cbz	w8, .LBB23_4
	ldr	x8, [x19, #8]
	b	.LBB23_9
.Lfunc_end23:
	.size	"ct_data_tiles::name_writing::push_leading_groups", .Lfunc_end23-"ct_data_tiles::name_writing::push_leading_groups"
	.section	".text.ct_data_tiles::name_writing::push_width","ax",@progbits
	.p2align	2
	.type	"ct_data_tiles::name_writing::push_width",@function
"ct_data_tiles::name_writing::push_width":
	stp	x29, x30, [sp, #-48]!
	and	w8, w1, #0xffff
	str	x21, [sp, #16]
	mov	x29, sp
	cmp	w8, #256
	stp	x20, x19, [sp, #32]
	b.ne	.LBB24_3
	mov	w0, wzr
.LBB24_2:
	ldp	x20, x19, [sp, #32]
	ldr	x21, [sp, #16]
	ldp	x29, x30, [sp], #48
	ret
.LBB24_3:
	ldp	x8, x9, [x0, #8]
	sub	x10, x9, x8
	cmp	x10, #2
	b.ls	.LBB24_13
.LBB24_4:
	ldr	x10, [x0]
	adrp	x12, .Lstatic.11
	add	x12, x12, :lo12:.Lstatic.11
	add	x11, x10, x8
	add	x8, x8, #3
	sub	x12, x11, x12
	cmp	x12, #2
	b.hi	.LBB24_11
	mov	w12, #28718
	mov	w13, #47
	strh	w12, [x11]
	strb	w13, [x11, #2]
	and	w11, w1, #0xffff
	stp	x10, x8, [x0]
	cmp	w11, #100
	str	x9, [x0, #16]
	b.hs	.LBB24_12
.LBB24_6:
	cmp	w11, #10
	b.lo	.LBB24_9
	cmp	x9, x8
	b.eq	.LBB24_18
.LBB24_8:
	and	w9, w1, #0xff
	mov	w11, #205
	mul	w9, w9, w11
	lsr	w9, w9, #11
	orr	w9, w9, #0x30
	strb	w9, [x10, x8]
	add	x8, x8, #1
	ldr	x9, [x0, #16]
	str	x8, [x0, #8]
.LBB24_9:
	cmp	x9, x8
	b.eq	.LBB24_16
.LBB24_10:
	and	w10, w1, #0xff
	mov	w11, #205
	mov	w9, wzr
	mul	w10, w10, w11
	mov	w11, #10
	add	x12, x8, #1
	lsr	w10, w10, #11
	msub	w10, w10, w11, w1
	ldr	x11, [x0]
	orr	w10, w10, #0x30
	strb	w10, [x11, x8]
	str	x12, [x0, #8]
	mov	x0, x9
	ldp	x20, x19, [sp, #32]
	ldr	x21, [sp, #16]
	ldp	x29, x30, [sp], #48
	ret
.LBB24_11:
	mov	w12, #47
	mov	w13, #28718
	strb	w12, [x11, #2]
	strh	w13, [x11]
	and	w11, w1, #0xffff
	stp	x10, x8, [x0]
	cmp	w11, #100
	str	x9, [x0, #16]
	b.lo	.LBB24_6
.LBB24_12:
	ldp	x20, x19, [sp, #32]
	and	x1, x1, #0xffff
	ldr	x21, [sp, #16]
	ldp	x29, x30, [sp], #48
	b	"ct_data_tiles::name_writing::push_three_digits"
.LBB24_13:
	mov	x19, x1
	mov	w1, #3
	mov	x20, x0
	bl	"std_alloc::vec::Vec::grow_amortized::<#a1765139b7b336a0>"
	cbz	w0, .LBB24_15
	ldp	x8, x9, [x20, #8]
	mov	x0, x20
	mov	x1, x19
	b	.LBB24_4
.LBB24_15:
	mov	w0, #1
	ldp	x20, x19, [sp, #32]
	ldr	x21, [sp, #16]
	ldp	x29, x30, [sp], #48
	ret
.LBB24_16:
	mov	x19, x1
	mov	w1, #1
	mov	x20, x0
	mov	w21, #1
	bl	"std_alloc::vec::Vec::grow_amortized::<#a1765139b7b336a0>"
	mov	w8, w0
	mov	w0, w21
	cbz	w8, .LBB24_2
	ldr	x8, [x20, #8]
	mov	x0, x20
	mov	x1, x19
	b	.LBB24_10
.LBB24_18:
	mov	x19, x1
	mov	w1, #1
	mov	x20, x0
	bl	"std_alloc::vec::Vec::grow_amortized::<#a1765139b7b336a0>"
	mov	w8, w0
	mov	w0, #1
	cbz	w8, .LBB24_2
	ldp	x10, x8, [x20]
	mov	x0, x20
	mov	x1, x19
	b	.LBB24_8
.Lfunc_end24:
	.size	"ct_data_tiles::name_writing::push_width", .Lfunc_end24-"ct_data_tiles::name_writing::push_width"
	.section	".text.ct_data_tiles::reading::tile_leaf_at","ax",@progbits
	.p2align	2
	.type	"ct_data_tiles::reading::tile_leaf_at",@function
"ct_data_tiles::reading::tile_leaf_at":
	sub	sp, sp, #144
	movi	v0.2d, #0000000000000000
	ldr	x8, [x1, #8]
	stp	x20, x19, [sp, #128]
	mov	x19, x0
	stp	x29, x30, [sp, #96]
	add	x29, sp, #96
	subs	x8, x8, #8
	stp	x22, x21, [sp, #112]
	stp	xzr, xzr, [sp, #8]
	stp	q0, q0, [sp, #32]
	stp	q0, q0, [sp, #64]
	stur	xzr, [sp, #23]
	b.lo	.LBB25_6
	ldr	x9, [x1]
	add	x0, sp, #32
	mov	x22, x1
	add	x21, sp, #32
	add	x10, x9, #8
	stp	x10, x8, [x1]
	ldr	x20, [x9]
	bl	"ct_codec::reading::entry_at"
	ldrb	w8, [sp, #32]
	cbz	w8, .LBB25_3
	ldrb	w8, [sp, #33]
	mov	w9, #1
	movi	v0.2d, #0000000000000000
	strh	w9, [x19]
	strb	w8, [x19, #2]
	b	.LBB25_7
.LBB25_3:
	ldr	x8, [x22, #8]
	subs	x12, x8, #2
	b.lo	.LBB25_5
	ldr	x9, [x22]
	ldrb	w10, [sp, #40]
	mov	x11, x22
	add	x8, x9, #2
	stp	x8, x12, [x22]
	ldrh	w9, [x9]
	rev	w9, w9
	lsr	w9, w9, #16
	subs	x14, x12, x9
	b.hs	.LBB25_8
.LBB25_5:
	movi	v0.2d, #0000000000000000
.LBB25_6:
	mov	w8, #1
	strb	wzr, [x19, #2]
	strh	w8, [x19]
.LBB25_7:
	stur	q0, [x19, #8]
	stur	q0, [x19, #24]
	stur	q0, [x19, #40]
	stur	q0, [x19, #56]
	stur	q0, [x19, #72]
	stur	q0, [x19, #88]
	stur	q0, [x19, #104]
	ldp	x20, x19, [sp, #128]
	ldp	x22, x21, [sp, #112]
	ldp	x29, x30, [sp, #96]
	add	sp, sp, #144
	ret
.LBB25_8:
	add	x15, x8, x9
	stp	x15, x14, [x11]
	cbz	w10, .LBB25_13
	subs	x14, x14, #3
	b.lo	.LBB25_12
	add	x12, x15, #3
	stp	x12, x14, [x11]
	ldrb	w13, [x15]
	ldrb	w16, [x15, #1]
	ldrb	w15, [x15, #2]
	lsl	w13, w13, #8
	orr	w13, w13, w16, lsl #16
	orr	w13, w13, w15, lsl #24
	cbz	w13, .LBB25_14
	rev	w13, w13
	subs	x14, x14, x13
	b.hs	.LBB25_16
.LBB25_12:
	mov	w8, wzr
	b	.LBB25_15
.LBB25_13:
	mov	x13, xzr
	adrp	x12, .Lstatic.2
	add	x12, x12, :lo12:.Lstatic.2
	b	.LBB25_17
.LBB25_14:
	mov	w8, #4
.LBB25_15:
	mov	w9, #1
	movi	v0.2d, #0000000000000000
	strb	w8, [x19, #2]
	strh	w9, [x19]
	b	.LBB25_7
.LBB25_16:
	add	x15, x12, x13
	stp	x15, x14, [x11]
.LBB25_17:
	subs	x16, x14, #2
	b.hs	.LBB25_19
.LBB25_18:
	mov	w8, wzr
	b	.LBB25_21
.LBB25_19:
	add	x14, x15, #2
	stp	x14, x16, [x11]
	ldrh	w15, [x15]
	ubfx	w17, w15, #8, #5
	cbz	w17, .LBB25_22
	mov	w8, #1
.LBB25_21:
	strb	w8, [x19, #1]
	mov	w8, #1
	movi	v0.2d, #0000000000000000
	strb	wzr, [x19, #2]
	strb	w8, [x19]
	b	.LBB25_7
.LBB25_22:
	rev16	w15, w15
	and	x15, x15, #0xffff
	subs	x16, x16, x15
	b.lo	.LBB25_18
	mov	w17, #9
	ldur	q0, [x21, #48]
	add	x18, x14, x15
	orr	x17, x21, x17
	stp	x18, x16, [x11]
	rev	x11, x20
	stur	q0, [sp, #15]
	ldp	q1, q0, [x17]
	strb	w10, [x19, #16]
	ldur	x10, [sp, #23]
	strh	wzr, [x19]
	stur	q0, [x19, #33]
	ldur	q0, [sp, #8]
	stur	q1, [x19, #17]
	strb	wzr, [x19, #2]
	str	x11, [x19, #8]
	stur	q0, [x19, #49]
	stp	x10, x8, [x19, #64]
	stp	x9, x12, [x19, #80]
	stp	x13, x14, [x19, #96]
	str	x15, [x19, #112]
	ldp	x20, x19, [sp, #128]
	ldp	x22, x21, [sp, #112]
	ldp	x29, x30, [sp, #96]
	add	sp, sp, #144
	ret
.Lfunc_end25:
	.size	"ct_data_tiles::reading::tile_leaf_at", .Lfunc_end25-"ct_data_tiles::reading::tile_leaf_at"
	.section	".text.ct_codec::reading::entry_at","ax",@progbits
	.p2align	2
	.type	"ct_codec::reading::entry_at",@function
"ct_codec::reading::entry_at":
	sub	sp, sp, #48
	ldr	x12, [x1, #8]
	stur	wzr, [sp, #43]
	str	wzr, [sp, #40]
	subs	x9, x12, #2
	str	xzr, [sp, #24]
	strb	wzr, [sp, #32]
	b.hs	.LBB26_2
.LBB26_1:
	movi	v0.2d, #0000000000000000
	mov	w8, #1
	stp	xzr, xzr, [x0, #48]
	strh	w8, [x0]
	stur	q0, [x0, #8]
	stur	q0, [x0, #24]
	strb	wzr, [x0, #40]
	add	sp, sp, #48
	ret
.LBB26_2:
	ldr	x11, [x1]
	add	x8, x11, #2
	stp	x8, x9, [x1]
	ldrh	w10, [x11]
	rev	w10, w10
	lsr	w10, w10, #16
	cbz	w10, .LBB26_9
	cmp	w10, #1
	b.ne	.LBB26_13
	cmp	x9, #32
	b.lo	.LBB26_1
	add	x9, x11, #34
	sub	x10, x12, #34
	stp	x9, x10, [x1]
	cmp	x10, #3
	ldr	w9, [x8]
	ldur	w8, [x8, #3]
	ldur	x13, [x11, #25]
	ldrb	w10, [x11, #33]
	str	w9, [sp, #16]
	ldur	x9, [x11, #17]
	stur	w8, [sp, #19]
	ldur	x8, [x11, #9]
	str	x13, [sp]
	strb	w10, [sp, #8]
	b.lo	.LBB26_12
	add	x10, x11, #37
	sub	x12, x12, #37
	stp	x10, x12, [x1]
	ldrb	w13, [x11, #34]
	ldrb	w14, [x11, #35]
	ldrb	w11, [x11, #36]
	lsl	w13, w13, #8
	orr	w13, w13, w14, lsl #16
	orr	w11, w13, w11, lsl #24
	cbz	w11, .LBB26_15
	rev	w11, w11
	subs	x14, x12, x11
	b.lo	.LBB26_12
	ldr	w16, [sp, #16]
	add	x15, x10, x11
	mov	w13, wzr
	stp	x15, x14, [x1]
	ldur	w14, [sp, #19]
	ldr	x15, [sp]
	str	w16, [sp, #40]
	ldrb	w16, [sp, #8]
	mov	w12, wzr
	stur	w14, [sp, #43]
	mov	w14, #1
	str	x15, [sp, #24]
	strb	w16, [sp, #32]
	b	.LBB26_14
.LBB26_9:
	cmp	x9, #3
	b.lo	.LBB26_12
	add	x8, x11, #5
	sub	x10, x12, #5
	stp	x8, x10, [x1]
	ldrb	w9, [x11, #2]
	ldrb	w12, [x11, #3]
	ldrb	w11, [x11, #4]
	lsl	w9, w9, #8
	orr	w9, w9, w12, lsl #16
	orr	w9, w9, w11, lsl #24
	cbz	w9, .LBB26_15
	rev	w9, w9
	subs	x15, x10, x9
	b.hs	.LBB26_17
.LBB26_12:
	mov	w8, wzr
	b	.LBB26_16
.LBB26_13:
	mov	x10, xzr
	mov	x11, xzr
	mov	x8, xzr
	mov	x9, xzr
	mov	w14, wzr
	mov	w12, #3
	mov	w13, #1
.LBB26_14:
	strb	w12, [x0, #1]
	ldr	w12, [sp, #40]
	strb	w13, [x0]
	ldur	w13, [sp, #43]
	stur	w12, [x0, #9]
	ldr	x12, [sp, #24]
	stp	x8, x9, [x0, #16]
	ldrb	w8, [sp, #32]
	strb	w14, [x0, #8]
	str	w13, [x0, #12]
	str	x12, [x0, #32]
	strb	w8, [x0, #40]
	stp	x10, x11, [x0, #48]
	add	sp, sp, #48
	ret
.LBB26_15:
	mov	w8, #4
.LBB26_16:
	strb	w8, [x0, #1]
	mov	w8, #1
	movi	v0.2d, #0000000000000000
	stp	xzr, xzr, [x0, #48]
	strb	w8, [x0]
	stur	q0, [x0, #8]
	stur	q0, [x0, #24]
	strb	wzr, [x0, #40]
	add	sp, sp, #48
	ret
.LBB26_17:
	mov	x10, xzr
	mov	x11, xzr
	mov	w13, wzr
	mov	w12, wzr
	mov	w14, wzr
	add	x16, x8, x9
	stp	x16, x15, [x1]
	str	xzr, [sp, #24]
	strb	wzr, [sp, #32]
	b	.LBB26_14
.Lfunc_end26:
	.size	"ct_codec::reading::entry_at", .Lfunc_end26-"ct_codec::reading::entry_at"
	.section	".text.unlikely.std_alloc::vec::Vec::grow_amortized::<#5bf383d46bbc8abd>","ax",@progbits
	.p2align	2
	.type	"std_alloc::vec::Vec::grow_amortized::<#5bf383d46bbc8abd>",@function
"std_alloc::vec::Vec::grow_amortized::<#5bf383d46bbc8abd>":
	ldr	x8, [x0, #8]
	cmn	x8, #1
	b.eq	.LBB27_5
	stp	x29, x30, [sp, #-32]!
	ldr	x9, [x0, #16]
	cmp	x8, #3
	mov	w10, #3
	csel	x11, x8, x10, hi
	stp	x20, x19, [sp, #16]
	mov	x29, sp
	lsl	x10, x9, #1
	add	x12, x11, #1
	lsr	x13, x9, #62
	cmp	x12, x10
	csinc	x10, x10, x11, ls
	cmp	x13, #0
	csinc	x19, x10, x11, eq
	mov	x11, #18724
	movk	x11, #9362, lsl #16
	movk	x11, #37449, lsl #32
	movk	x11, #292, lsl #48
	cmp	x19, x11
	b.hi	.LBB27_7
	cbz	x9, .LBB27_6
	lsl	x9, x8, #7
	lsl	x10, x19, #7
	mov	x20, x0
	ldr	x0, [x0]
	mov	w3, #8
	sub	x1, x9, x8, lsl #4
	sub	x2, x10, x19, lsl #4
	bl	rattle_realloc
	tbz	w0, #0, .LBB27_7
.LBB27_4:
	mov	w0, #1
	str	x1, [x20]
	str	x19, [x20, #16]
	ldp	x20, x19, [sp, #16]
	ldp	x29, x30, [sp], #32
	ret
.LBB27_5:
	mov	w0, wzr
	ret
.LBB27_6:
	lsl	x8, x10, #7
	mov	x20, x0
	mov	w1, #8
	sub	x0, x8, x10, lsl #4
	bl	rattle_alloc
	tbnz	w0, #0, .LBB27_4
.LBB27_7:
	mov	w0, wzr
	ldp	x20, x19, [sp, #16]
	ldp	x29, x30, [sp], #32
	ret
.Lfunc_end27:
	.size	"std_alloc::vec::Vec::grow_amortized::<#5bf383d46bbc8abd>", .Lfunc_end27-"std_alloc::vec::Vec::grow_amortized::<#5bf383d46bbc8abd>"
	.section	".text.ct_subtrees::consistency::rebuilt::<#0f46d2847b2ce1ce>","ax",@progbits
	.p2align	2
	.type	"ct_subtrees::consistency::rebuilt::<#0f46d2847b2ce1ce>",@function
"ct_subtrees::consistency::rebuilt::<#0f46d2847b2ce1ce>":
	sub	sp, sp, #224
	ldr	q1, [x1]
	ldr	x11, [x1, #16]
	mov	w10, #1
	movi	v0.2d, #0000000000000000
	stp	x29, x30, [sp, #192]
	add	x29, sp, #192
	str	q1, [sp, #80]
	mov	x5, x4
	mov	x8, x3
	stp	x11, xzr, [sp, #96]
	mov	x3, x2
	strb	w10, [sp, #104]
	ldp	x9, x10, [sp, #80]
	stp	x20, x19, [sp, #208]
	mov	x19, x0
	stp	q0, q0, [x29, #-80]
	cmp	x9, #0
	stp	q0, q0, [x29, #-48]
	cset	w16, eq
	stp	q0, q0, [sp]
	stp	q0, q0, [sp, #32]
	sturb	wzr, [x29, #-16]
	strb	wzr, [sp, #64]
	cbnz	x9, .LBB28_3
	cmp	x11, x10
	b.hi	.LBB28_3
	ldr	x13, [sp, #104]
	mov	x2, xzr
	b	.LBB28_28
.LBB28_3:
	mov	x2, xzr
	mov	x15, x11
	mov	x14, x10
	mov	x13, x9
	b	.LBB28_6
.LBB28_4:
	mov	x15, x17
	cmp	x13, #0
	add	x2, x12, #1
	cset	w16, eq
	cbnz	x13, .LBB28_6
.LBB28_5:
	cmp	x15, x14
	b.ls	.LBB28_15
.LBB28_6:
	mov	x12, x2
	tbz	w16, #0, .LBB28_9
	cmp	x15, x14
	b.hi	.LBB28_9
	mov	x13, xzr
	cmp	x13, #0
	add	x2, x12, #1
	cset	w16, eq
	b	.LBB28_5
.LBB28_9:
	mov	w18, #1
.LBB28_10:
	mov	x17, x18
	sub	x16, x15, x18
	lsl	x18, x18, #1
	cmp	x17, x16
	b.lo	.LBB28_10
	subs	x15, x14, x17
	b.ls	.LBB28_4
	subs	x13, x13, x17
	b.hs	.LBB28_14
	mov	x13, xzr
.LBB28_14:
	mov	x14, x15
	mov	x15, x16
	cmp	x13, #0
	add	x2, x12, #1
	cset	w16, eq
	cbz	x13, .LBB28_5
	b	.LBB28_6
.LBB28_15:
	ldr	x13, [sp, #104]
	cbz	x2, .LBB28_28
	mov	x14, xzr
	b	.LBB28_19
.LBB28_17:
	mov	x9, xzr
.LBB28_18:
	cmp	x14, x12
	add	x14, x14, #1
	b.eq	.LBB28_28
.LBB28_19:
	cbnz	x9, .LBB28_21
	cmp	x11, x10
	b.ls	.LBB28_17
.LBB28_21:
	mov	w17, #1
.LBB28_22:
	mov	x16, x17
	sub	x15, x11, x17
	lsl	x17, x17, #1
	cmp	x16, x15
	b.lo	.LBB28_22
	subs	x11, x10, x16
	b.ls	.LBB28_27
	subs	x9, x9, x16
	b.hs	.LBB28_26
	mov	x9, xzr
	mov	x13, xzr
.LBB28_26:
	mov	x10, x11
	mov	x11, x15
	b	.LBB28_18
.LBB28_27:
	mov	x11, x16
	b	.LBB28_18
.LBB28_28:
	tbz	w13, #0, .LBB28_30
	sub	x0, x29, #80
	add	x1, sp, #80
	mov	x4, x8
	sub	x20, x29, #80
	bl	"ct_subtrees::consistency::climb::<#0f46d2847b2ce1ce>"
	ldur	q0, [x29, #-79]
	ldurb	w8, [x29, #-80]
	ldur	q1, [x20, #17]
	ldur	q2, [x20, #33]
	stur	q0, [x19, #1]
	ldur	q0, [x20, #49]
	strb	w8, [x19]
	b	.LBB28_34
.LBB28_30:
	cbz	x5, .LBB28_32
	sub	x5, x5, #1
	mov	x0, sp
	add	x1, sp, #80
	add	x4, x8, #32
	mov	x3, x8
	bl	"ct_subtrees::consistency::climb::<#0f46d2847b2ce1ce>"
	ldrb	w8, [sp]
	b	.LBB28_33
.LBB28_32:
	mov	w8, #4
	strb	w8, [sp, #1]
	mov	w8, #1
.LBB28_33:
	ldur	q0, [sp, #1]
	ldur	q1, [sp, #17]
	ldur	q2, [sp, #33]
	strb	w8, [x19]
	stur	q0, [x19, #1]
	ldur	q0, [sp, #49]
.LBB28_34:
	stur	q1, [x19, #17]
	stur	q2, [x19, #33]
	ldp	x29, x30, [sp, #192]
	stur	q0, [x19, #49]
	ldp	x20, x19, [sp, #208]
	add	sp, sp, #224
	ret
.Lfunc_end28:
	.size	"ct_subtrees::consistency::rebuilt::<#0f46d2847b2ce1ce>", .Lfunc_end28-"ct_subtrees::consistency::rebuilt::<#0f46d2847b2ce1ce>"
	.section	".text.ct_subtrees::consistency::climb::<#0f46d2847b2ce1ce>","ax",@progbits
	.p2align	2
	.type	"ct_subtrees::consistency::climb::<#0f46d2847b2ce1ce>",@function
"ct_subtrees::consistency::climb::<#0f46d2847b2ce1ce>":
	sub	sp, sp, #464
	cmp	x2, x5
	stp	x29, x30, [sp, #368]
	add	x29, sp, #368
	stp	x28, x27, [sp, #384]
	stp	x26, x25, [sp, #400]
	stp	x24, x23, [sp, #416]
	stp	x22, x21, [sp, #432]
	stp	x20, x19, [sp, #448]
	str	x4, [sp, #24]
	b.hs	.LBB29_2
	movi	v0.2d, #0000000000000000
	mov	w8, #769
	b	.LBB29_4
.LBB29_2:
	mov	x24, x5
	mov	x22, x2
	cmp	x5, x2
	b.hs	.LBB29_5
	movi	v0.2d, #0000000000000000
	mov	w8, #1025
.LBB29_4:
	strh	w8, [x0]
	stur	q0, [x0, #2]
	stur	q0, [x0, #18]
	stur	q0, [x0, #34]
	stur	q0, [x0, #49]
	b	.LBB29_29
.LBB29_5:
	ldr	x8, [x1]
	ldp	q2, q1, [x3]
	ldur	q0, [x3, #1]
	ldrb	w19, [x3]
	str	x0, [sp]
	str	x8, [sp, #40]
	ldp	x8, x25, [x1, #8]
	str	q0, [sp, #48]
	stur	q1, [sp, #63]
	str	x8, [sp, #32]
	stur	q2, [sp, #79]
	stur	q1, [sp, #95]
	cbz	x24, .LBB29_28
	add	x8, sp, #144
	sub	x9, x29, #48
	mov	x26, xzr
	orr	x28, x8, #0x1
	add	x8, x8, #32
	sub	x14, x29, #160
	str	x8, [sp, #16]
	orr	x8, x9, #0x1
	str	x8, [sp, #8]
	b	.LBB29_9
.LBB29_7:
	movi	v1.2d, #0000000000000000
	ldr	q0, [sp, #48]
	ldur	q2, [sp, #63]
	mov	w8, #1
	ldr	x9, [sp, #16]
	sub	x0, x29, #48
	stp	x27, x8, [x29, #-96]
	mov	w8, #32
	sub	x1, x29, #96
	mov	w2, #3
	stur	q0, [x29, #-160]
	stur	q2, [x14, #15]
	stp	q1, q1, [x29, #-48]
	stp	x9, x8, [x29, #-80]
	stp	x20, x8, [x29, #-64]
	bl	"ct_tree::hash::Sha256HashNodeHash::hash"
	ldp	q0, q1, [x29, #-48]
	sub	x8, x29, #160
	sub	x14, x29, #160
	stur	q0, [x8, #31]
	ldp	q2, q0, [x29, #-160]
	stur	q1, [x8, #47]
	ldur	q1, [x29, #-128]
	stp	q2, q0, [sp, #48]
	ldur	q2, [x14, #47]
	str	q1, [sp, #80]
	stur	q2, [sp, #95]
.LBB29_8:
	add	x26, x26, #1
	cmp	x26, x24
	b.eq	.LBB29_28
.LBB29_9:
	ldp	x8, x23, [sp, #32]
	subs	x22, x22, #1
	mov	x9, x25
	b.eq	.LBB29_22
	ldp	x8, x23, [sp, #32]
	mov	x10, xzr
	mov	x9, x25
	b	.LBB29_13
.LBB29_11:
	mov	x23, xzr
.LBB29_12:
	add	x10, x10, #1
	cmp	x10, x22
	b.eq	.LBB29_22
.LBB29_13:
	cbnz	x23, .LBB29_15
	cmp	x9, x8
	b.ls	.LBB29_11
.LBB29_15:
	mov	w13, #1
.LBB29_16:
	mov	x12, x13
	sub	x11, x9, x13
	lsl	x13, x13, #1
	cmp	x12, x11
	b.lo	.LBB29_16
	subs	x9, x8, x12
	b.ls	.LBB29_21
	subs	x23, x23, x12
	b.hs	.LBB29_20
	mov	x23, xzr
.LBB29_20:
	mov	x8, x9
	mov	x9, x11
	b	.LBB29_12
.LBB29_21:
	mov	x9, x12
	b	.LBB29_12
.LBB29_22:
	movi	v0.2d, #0000000000000000
	ldr	x10, [sp, #24]
	strb	w19, [sp, #144]
	ldp	q1, q2, [sp, #48]
	add	x20, x10, x26, lsl #5
	mov	w10, #1
	stp	q0, q0, [x29, #-160]
	stur	q0, [x29, #-128]
	stur	q0, [x14, #47]
	ldr	q0, [sp, #80]
	stp	q1, q2, [x28]
	str	q0, [x28, #32]
	ldur	q0, [sp, #95]
	stur	q0, [x28, #47]
.LBB29_23:
	mov	x21, x10
	sub	x11, x9, x10
	lsl	x10, x10, #1
	cmp	x21, x11
	b.lo	.LBB29_23
	cmp	x8, x21
	adrp	x27, .Lstatic.8
	add	x27, x27, :lo12:.Lstatic.8
	b.ls	.LBB29_7
	movi	v0.2d, #0000000000000000
	mov	w8, #1
	ldr	x9, [sp, #16]
	stp	x27, x8, [x29, #-96]
	mov	w8, #32
	sub	x0, x29, #48
	sub	x1, x29, #96
	mov	w2, #3
	stp	x20, x8, [x29, #-80]
	stp	x9, x8, [x29, #-64]
	stp	q0, q0, [x29, #-48]
	bl	"ct_tree::hash::Sha256HashNodeHash::hash"
	ldp	q0, q1, [x29, #-48]
	cmp	x21, x23
	stp	q0, q1, [sp, #112]
	b.ls	.LBB29_27
	movi	v0.2d, #0000000000000000
	mov	w8, #1
	add	x9, sp, #144
	stp	x27, x8, [x29, #-96]
	mov	w8, #32
	sub	x0, x29, #48
	sub	x1, x29, #96
	mov	w2, #3
	stp	x20, x8, [x29, #-80]
	stp	x9, x8, [x29, #-64]
	stp	q0, q0, [x29, #-48]
	bl	"ct_tree::hash::Sha256HashNodeHash::hash"
	ldp	q0, q1, [sp, #112]
	sub	x8, x29, #160
	ldr	x9, [sp, #8]
	sub	x14, x29, #160
	ldurb	w19, [x29, #-48]
	ldur	q2, [x9, #15]
	stur	q0, [x8, #31]
	ldr	q0, [x9]
	stur	q1, [x8, #47]
	ldur	q1, [x14, #47]
	stur	q2, [x14, #15]
	stur	q0, [x29, #-160]
	stur	q1, [sp, #95]
	ldp	q1, q0, [x29, #-144]
	ldur	q2, [x29, #-160]
	stp	q1, q0, [sp, #64]
	str	q2, [sp, #48]
	b	.LBB29_8
.LBB29_27:
	ldp	q1, q0, [sp, #112]
	sub	x8, x29, #160
	sub	x14, x29, #160
	ldrb	w19, [sp, #144]
	stur	q0, [x8, #47]
	ldr	q0, [x28]
	stur	q1, [x8, #31]
	ldur	q1, [x28, #15]
	stur	q0, [x29, #-160]
	ldur	q0, [x29, #-128]
	stur	q1, [x14, #15]
	ldur	q1, [x14, #47]
	str	q0, [sp, #80]
	stur	q1, [sp, #95]
	ldp	q0, q1, [x29, #-160]
	stp	q0, q1, [sp, #48]
	b	.LBB29_8
.LBB29_28:
	ldp	q0, q1, [sp, #48]
	ldr	x8, [sp]
	ldr	q2, [sp, #80]
	strb	wzr, [x8]
	stur	q0, [x8, #2]
	ldur	q0, [sp, #95]
	strb	w19, [x8, #1]
	stur	q1, [x8, #18]
	stur	q2, [x8, #34]
	stur	q0, [x8, #49]
.LBB29_29:
	ldp	x20, x19, [sp, #448]
	ldp	x22, x21, [sp, #432]
	ldp	x24, x23, [sp, #416]
	ldp	x26, x25, [sp, #400]
	ldp	x28, x27, [sp, #384]
	ldp	x29, x30, [sp, #368]
	add	sp, sp, #464
	ret
.Lfunc_end29:
	.size	"ct_subtrees::consistency::climb::<#0f46d2847b2ce1ce>", .Lfunc_end29-"ct_subtrees::consistency::climb::<#0f46d2847b2ce1ce>"
	.section	".text.unlikely.std_alloc::vec::Vec::grow_amortized::<#5e4c92ea8d07c9f7>","ax",@progbits
	.p2align	2
	.type	"std_alloc::vec::Vec::grow_amortized::<#5e4c92ea8d07c9f7>",@function
"std_alloc::vec::Vec::grow_amortized::<#5e4c92ea8d07c9f7>":
	ldr	x8, [x0, #8]
	cmn	x8, #1
	b.eq	.LBB30_5
	stp	x29, x30, [sp, #-32]!
	ldr	x9, [x0, #16]
	cmp	x8, #3
	mov	w10, #3
	csel	x11, x8, x10, hi
	stp	x20, x19, [sp, #16]
	mov	x29, sp
	lsl	x10, x9, #1
	add	x12, x11, #1
	lsr	x13, x9, #62
	cmp	x12, x10
	csinc	x10, x10, x11, ls
	cmp	x13, #0
	csinc	x19, x10, x11, eq
	lsr	x11, x19, #59
	cbnz	x11, .LBB30_7
	cbz	x9, .LBB30_6
	mov	x20, x0
	ldr	x0, [x0]
	lsl	x1, x8, #4
	lsl	x2, x19, #4
	mov	w3, #8
	bl	rattle_realloc
	tbz	w0, #0, .LBB30_7
.LBB30_4:
	mov	w0, #1
	str	x1, [x20]
	str	x19, [x20, #16]
	ldp	x20, x19, [sp, #16]
	ldp	x29, x30, [sp], #32
	ret
.LBB30_5:
	mov	w0, wzr
	ret
.LBB30_6:
	mov	x20, x0
	lsl	x0, x10, #4
	mov	w1, #8
	bl	rattle_alloc
	tbnz	w0, #0, .LBB30_4
.LBB30_7:
	mov	w0, wzr
	ldp	x20, x19, [sp, #16]
	ldp	x29, x30, [sp], #32
	ret
.Lfunc_end30:
	.size	"std_alloc::vec::Vec::grow_amortized::<#5e4c92ea8d07c9f7>", .Lfunc_end30-"std_alloc::vec::Vec::grow_amortized::<#5e4c92ea8d07c9f7>"
	.section	".text.ct_guard::step_receipts::root_after::<#0f46d2847b2ce1ce>","ax",@progbits
	.p2align	2
	.type	"ct_guard::step_receipts::root_after::<#0f46d2847b2ce1ce>",@function
"ct_guard::step_receipts::root_after::<#0f46d2847b2ce1ce>":
	sub	sp, sp, #464
	movi	v0.2d, #0000000000000000
	stp	x20, x19, [sp, #448]
	mov	x19, x0
	stp	x29, x30, [sp, #400]
	add	x29, sp, #400
	str	x28, [sp, #416]
	stp	x22, x21, [sp, #432]
	stp	q0, q0, [sp, #80]
	stp	q0, q0, [sp, #112]
	stp	q0, q0, [sp, #160]
	stp	q0, q0, [sp, #192]
	strb	wzr, [sp, #144]
	stp	q0, q0, [sp, #32]
	strb	wzr, [sp, #64]
	cbz	x1, .LBB31_6
	add	x8, x5, x1
	mov	w10, #1
.LBB31_2:
	mov	x9, x10
	sub	x11, x8, x10
	lsl	x10, x10, #1
	cmp	x9, x11
	b.lo	.LBB31_2
	subs	x8, x1, x9
	b.hs	.LBB31_8
	sub	x20, x9, x1
	mov	x21, x5
	add	x0, sp, #112
	mov	x5, x20
	mov	x22, x4
	bl	"ct_guard::step_receipts::root_after::<#0f46d2847b2ce1ce>"
	ldrb	w8, [sp, #112]
	cmp	w8, #1
	b.ne	.LBB31_12
	ldur	q0, [sp, #113]
	ldur	q1, [sp, #129]
	add	x1, x22, x20, lsl #4
	sub	x2, x21, x20
	add	x0, sp, #80
	stp	q0, q1, [x29, #-112]
	bl	"ct_guard::step_receipts::root_of_leaves::<#0f46d2847b2ce1ce>"
	movi	v0.2d, #0000000000000000
	ldp	q1, q2, [sp, #80]
	adrp	x8, .Lstatic.8
	add	x8, x8, :lo12:.Lstatic.8
	mov	w20, #1
	stp	x8, x20, [x29, #-80]
	sub	x8, x29, #112
	mov	w9, #32
	stp	x8, x9, [x29, #-64]
	sub	x8, x29, #144
	sub	x0, x29, #32
	sub	x1, x29, #80
	mov	w2, #3
	stp	q1, q2, [x29, #-144]
	stp	q0, q0, [x29, #-32]
	stp	x8, x9, [x29, #-48]
	bl	"ct_tree::hash::Sha256HashNodeHash::hash"
	ldp	q1, q0, [x29, #-32]
	strb	w20, [x19]
	stp	q1, q0, [sp, #80]
	b	.LBB31_11
.LBB31_6:
	cbz	x3, .LBB31_13
	mov	w8, wzr
	b	.LBB31_14
.LBB31_8:
	cbz	x3, .LBB31_12
	sub	x3, x3, #1
	add	x0, sp, #32
	mov	x20, x2
	add	x2, x2, #32
	mov	x1, x8
	bl	"ct_guard::step_receipts::root_after::<#0f46d2847b2ce1ce>"
	ldrb	w8, [sp, #32]
	cmp	w8, #1
	b.ne	.LBB31_12
	movi	v1.2d, #0000000000000000
	ldur	q0, [sp, #33]
	ldur	q2, [sp, #49]
	adrp	x8, .Lstatic.8
	add	x8, x8, :lo12:.Lstatic.8
	mov	w21, #1
	stp	x8, x21, [x29, #-80]
	mov	w8, #32
	sub	x9, x29, #176
	sub	x0, x29, #32
	sub	x1, x29, #80
	mov	w2, #3
	stp	q0, q2, [x29, #-176]
	stp	q1, q1, [x29, #-32]
	stp	x20, x8, [x29, #-64]
	stp	x9, x8, [x29, #-48]
	bl	"ct_tree::hash::Sha256HashNodeHash::hash"
	ldp	q1, q0, [x29, #-32]
	strb	w21, [x19]
	stp	q1, q0, [sp]
.LBB31_11:
	stur	q1, [x19, #1]
	stur	q0, [x19, #17]
	ldp	x20, x19, [sp, #448]
	ldr	x28, [sp, #416]
	ldp	x22, x21, [sp, #432]
	ldp	x29, x30, [sp, #400]
	add	sp, sp, #464
	ret
.LBB31_12:
	movi	v0.2d, #0000000000000000
	strb	wzr, [x19, #32]
	stp	q0, q0, [x19]
	ldp	x20, x19, [sp, #448]
	ldr	x28, [sp, #416]
	ldp	x22, x21, [sp, #432]
	ldp	x29, x30, [sp, #400]
	add	sp, sp, #464
	ret
.LBB31_13:
	add	x0, sp, #160
	mov	x1, x4
	mov	x2, x5
	bl	"ct_guard::step_receipts::root_of_leaves::<#0f46d2847b2ce1ce>"
	ldp	q0, q1, [sp, #160]
	mov	w8, #1
	stp	q0, q1, [sp, #192]
.LBB31_14:
	ldp	q0, q1, [sp, #192]
	strb	w8, [x19]
	stur	q0, [x19, #1]
	stur	q1, [x19, #17]
	ldp	x20, x19, [sp, #448]
	ldr	x28, [sp, #416]
	ldp	x22, x21, [sp, #432]
	ldp	x29, x30, [sp, #400]
	add	sp, sp, #464
	ret
.Lfunc_end31:
	.size	"ct_guard::step_receipts::root_after::<#0f46d2847b2ce1ce>", .Lfunc_end31-"ct_guard::step_receipts::root_after::<#0f46d2847b2ce1ce>"
	.section	".text.ct_guard::step_receipts::root_of_leaves::<#0f46d2847b2ce1ce>","ax",@progbits
	.p2align	2
	.type	"ct_guard::step_receipts::root_of_leaves::<#0f46d2847b2ce1ce>",@function
"ct_guard::step_receipts::root_of_leaves::<#0f46d2847b2ce1ce>":
	sub	sp, sp, #256
	movi	v0.2d, #0000000000000000
	stp	x20, x19, [sp, #240]
	mov	x19, x0
	cmp	x2, #1
	stp	x29, x30, [sp, #208]
	add	x29, sp, #208
	str	x21, [sp, #224]
	stp	q0, q0, [sp]
	b.ne	.LBB32_2
	adrp	x8, .Lstatic.7
	add	x8, x8, :lo12:.Lstatic.7
	mov	w9, #1
	stp	x8, x9, [x29, #-32]
	ldp	x8, x10, [x1]
	sub	x0, x29, #80
	sub	x1, x29, #32
	mov	w2, #2
	stp	q0, q0, [x29, #-80]
	stp	x8, x10, [x29, #-16]
	bl	"ct_tree::hash::Sha256HashNodeHash::hash"
	ldp	q0, q1, [x29, #-80]
	b	.LBB32_5
.LBB32_2:
	mov	w9, #1
.LBB32_3:
	mov	x8, x9
	sub	x20, x2, x9
	lsl	x9, x9, #1
	cmp	x8, x20
	b.lo	.LBB32_3
	mov	x0, sp
	mov	x2, x8
	add	x21, x1, x8, lsl #4
	bl	"ct_guard::step_receipts::root_of_leaves::<#0f46d2847b2ce1ce>"
	ldp	q0, q1, [sp]
	mov	x0, sp
	mov	x1, x21
	mov	x2, x20
	stp	q0, q1, [sp, #64]
	bl	"ct_guard::step_receipts::root_of_leaves::<#0f46d2847b2ce1ce>"
	movi	v0.2d, #0000000000000000
	ldp	q1, q2, [sp]
	adrp	x8, .Lstatic.8
	add	x8, x8, :lo12:.Lstatic.8
	mov	w9, #1
	stp	x8, x9, [x29, #-80]
	add	x8, sp, #64
	mov	w9, #32
	stp	x8, x9, [x29, #-64]
	add	x8, sp, #32
	sub	x0, x29, #32
	sub	x1, x29, #80
	mov	w2, #3
	stp	q1, q2, [sp, #32]
	stp	q0, q0, [x29, #-32]
	stp	x8, x9, [x29, #-48]
	bl	"ct_tree::hash::Sha256HashNodeHash::hash"
	ldp	q0, q1, [x29, #-32]
.LBB32_5:
	stp	q0, q1, [x19]
	ldp	x20, x19, [sp, #240]
	ldp	x29, x30, [sp, #208]
	ldr	x21, [sp, #224]
	stp	q0, q1, [sp, #96]
	add	sp, sp, #256
	ret
.Lfunc_end32:
	.size	"ct_guard::step_receipts::root_of_leaves::<#0f46d2847b2ce1ce>", .Lfunc_end32-"ct_guard::step_receipts::root_of_leaves::<#0f46d2847b2ce1ce>"
	.section	".text.ct_node::lock_reading::said_in","ax",@progbits
	.p2align	2
	.type	"ct_node::lock_reading::said_in",@function
"ct_node::lock_reading::said_in":
	cmp	x2, #339
	b.hi	.LBB33_2
	movi	v0.2d, #0000000000000000
	str	xzr, [x0, #32]
	stp	q0, q0, [x0]
	ret
.LBB33_2:
	ldr	w8, [x1]
	mov	w9, #29287
	movk	w9, #30575, lsl #16
	cmp	w8, w9
	b.ne	.LBB33_14
	stp	x29, x30, [sp, #-64]!
	stp	x22, x21, [sp, #32]
	mov	x22, x2
	mov	x21, x0
	stp	x20, x19, [sp, #48]
	adrp	x2, .Lstatic.12
	add	x2, x2, :lo12:.Lstatic.12
	mov	x19, x1
	mov	x0, x1
	mov	w1, #7
	stp	x24, x23, [sp, #16]
	mov	x29, sp
	bl	"core::cmp::slices::groups_equal::<i8,31'core::cmp::numbers::U8PartialEq{}>"
	cbz	w0, .LBB33_15
	add	x9, x19, #295
	mov	w10, #28170
	ldr	w9, [x9]
	movk	w10, #25711, lsl #16
	cmp	w9, w10
	b.ne	.LBB33_15
	adrp	x2, .Lstatic.13
	add	x2, x2, :lo12:.Lstatic.13
	add	x0, x19, #295
	mov	w1, #6
	bl	"core::cmp::slices::groups_equal::<i8,31'core::cmp::numbers::U8PartialEq{}>"
	cbz	w0, .LBB33_15
	add	x0, x19, x22
	mov	w11, #29450
	add	x20, x19, x22
	ldr	w10, [x0, #-39]!
	movk	w11, #27745, lsl #16
	cmp	w10, w11
	b.ne	.LBB33_15
	adrp	x2, .Lstatic.14
	add	x2, x2, :lo12:.Lstatic.14
	mov	w1, #6
	bl	"core::cmp::slices::groups_equal::<i8,31'core::cmp::numbers::U8PartialEq{}>"
	cbz	w0, .LBB33_15
	ldurb	w8, [x20, #-1]
	cmp	w8, #10
	b.ne	.LBB33_15
	mov	x0, x19
	mov	w1, #7
	bl	"ct_node::lock_reading::number_in"
	tbz	w0, #0, .LBB33_15
	mov	x23, x1
	mov	x0, x19
	mov	w1, #23
	bl	"ct_node::lock_reading::number_in"
	tbz	w0, #0, .LBB33_15
	mov	x24, x1
	sub	x1, x22, #33
	mov	x0, x19
	bl	"ct_node::lock_reading::number_in"
	tbz	w0, #0, .LBB33_15
	mov	x20, x1
	sub	x1, x22, #17
	mov	x0, x19
	bl	"ct_node::lock_reading::number_in"
	tbz	w0, #0, .LBB33_15
	cmp	x20, x24
	mov	x9, x24
	mov	w8, #1
	csel	x11, x20, xzr, lo
	mov	x0, x21
	mov	x10, x23
	b	.LBB33_16
.LBB33_14:
	stp	xzr, xzr, [x0]
	stp	xzr, xzr, [x0, #16]
	str	xzr, [x0, #32]
	ret
.LBB33_15:
	mov	x8, xzr
	mov	x10, xzr
	mov	x9, xzr
	mov	x11, xzr
	mov	x1, xzr
	mov	x0, x21
.LBB33_16:
	ldp	x20, x19, [sp, #48]
	ldp	x22, x21, [sp, #32]
	ldp	x24, x23, [sp, #16]
	ldp	x29, x30, [sp], #64
	stp	x8, x10, [x0]
	stp	x9, x11, [x0, #16]
	str	x1, [x0, #32]
	ret
.Lfunc_end33:
	.size	"ct_node::lock_reading::said_in", .Lfunc_end33-"ct_node::lock_reading::said_in"
	.section	".text.ct_guard::guard::Guard::pass_head::<#0f46d2847b2ce1ce>","ax",@progbits
	.p2align	2
	.type	"ct_guard::guard::Guard::pass_head::<#0f46d2847b2ce1ce>",@function
"ct_guard::guard::Guard::pass_head::<#0f46d2847b2ce1ce>":
	sub	sp, sp, #192
	ldrb	w8, [x1]
	stp	x29, x30, [sp, #96]
	add	x29, sp, #96
	str	x27, [sp, #112]
	cmp	w8, #1
	stp	x26, x25, [sp, #128]
	stp	x24, x23, [sp, #144]
	stp	x22, x21, [sp, #160]
	stp	x20, x19, [sp, #176]
	b.ne	.LBB34_26
	ldur	q0, [x1, #8]
	ldur	q1, [x1, #24]
	mov	x19, x2
	ldr	x21, [x19], #16
	add	x20, sp, #48
	stp	q0, q1, [sp, #48]
	ldur	q0, [x1, #40]
	ldr	x22, [sp, #48]
	str	q0, [sp, #80]
	cmp	x21, x22
	b.ne	.LBB34_4
	ldr	x8, [x2, #8]
	ldr	x9, [sp, #56]
	cmp	x8, x9
	b.ne	.LBB34_4
	mov	x24, x1
	add	x1, x20, #16
	mov	x23, x0
	mov	x0, x19
	mov	x26, x2
	mov	x27, x3
	mov	x25, x4
	bl	"core::cmp::arrays::ArrayPartialEq::eq::<i8,=32,31'core::cmp::numbers::U8PartialEq{}>"
	mov	x4, x25
	mov	x3, x27
	mov	x2, x26
	mov	x1, x24
	mov	w8, w0
	mov	x0, x23
	tbnz	w8, #0, .LBB34_27
.LBB34_4:
	cmp	x21, x22
	b.hs	.LBB34_6
	mov	w8, #1
	b	.LBB34_11
.LBB34_6:
	ldr	x8, [x2, #8]
	ldr	x9, [sp, #56]
	cmp	x8, x9
	b.ls	.LBB34_10
	cmp	x21, x22
	b.ne	.LBB34_12
	mov	x21, x1
	add	x1, x20, #16
	mov	x20, x0
	mov	x0, x19
	mov	x19, x2
	bl	"core::cmp::arrays::ArrayPartialEq::eq::<i8,=32,31'core::cmp::numbers::U8PartialEq{}>"
	mov	x2, x19
	mov	x1, x21
	mov	w8, w0
	mov	x0, x20
	tbnz	w8, #0, .LBB34_26
	mov	w8, wzr
	mov	w9, #2
	b	.LBB34_25
.LBB34_10:
	mov	w8, #257
.LBB34_11:
	strh	w8, [x0]
	b	.LBB34_28
.LBB34_12:
	cbz	x22, .LBB34_26
	cmp	x21, x22
	b.ls	.LBB34_20
	cbz	x4, .LBB34_21
	sub	x10, x22, #1
	sub	x8, x21, #1
	tbnz	w10, #0, .LBB34_17
	mov	x9, x10
	b	.LBB34_18
.LBB34_17:
	lsr	x9, x10, #1
	lsr	x8, x8, #1
	mov	w11, w10
	mov	x10, x9
	tbnz	w11, #1, .LBB34_17
.LBB34_18:
	mov	x21, x2
	mov	x22, x1
	mov	x23, x0
	cbz	x9, .LBB34_22
	sub	x4, x4, #1
	mov	x2, x3
	add	x3, x3, #32
	add	x5, x20, #16
	mov	x0, x9
	b	.LBB34_23
.LBB34_20:
	mov	w9, #3
	mov	w8, #6
	b	.LBB34_25
.LBB34_21:
	mov	w9, #3
	mov	w8, #4
	b	.LBB34_25
.LBB34_22:
	add	x2, x20, #16
	add	x5, x20, #16
	mov	x0, xzr
.LBB34_23:
	mov	x1, x8
	mov	x6, x19
	bl	"ct_verify::consistency::check_from::<#0f46d2847b2ce1ce>"
	mov	w8, w1
	tst	w0, #0xff
	mov	x0, x23
	mov	x1, x22
	mov	x2, x21
	b.eq	.LBB34_26
	mov	w9, #3
.LBB34_25:
	mov	w10, #1
	strb	w9, [x0, #1]
	strb	w10, [x0]
	strb	w8, [x0, #2]
	b	.LBB34_29
.LBB34_26:
	ldp	q0, q1, [x2]
	mov	w8, #1
	ldr	q2, [x2, #32]
	str	x8, [x1]
	stp	q0, q1, [sp]
	str	q2, [sp, #32]
	stur	q0, [x1, #8]
	stur	q1, [x1, #24]
	stur	q2, [x1, #40]
.LBB34_27:
	strh	wzr, [x0]
.LBB34_28:
	strb	wzr, [x0, #2]
.LBB34_29:
	ldp	x20, x19, [sp, #176]
	ldr	x27, [sp, #112]
	ldp	x22, x21, [sp, #160]
	ldp	x24, x23, [sp, #144]
	ldp	x26, x25, [sp, #128]
	ldp	x29, x30, [sp, #96]
	add	sp, sp, #192
	ret
.Lfunc_end34:
	.size	"ct_guard::guard::Guard::pass_head::<#0f46d2847b2ce1ce>", .Lfunc_end34-"ct_guard::guard::Guard::pass_head::<#0f46d2847b2ce1ce>"
	.section	".text.ct_verify::consistency::check_from::<#0f46d2847b2ce1ce>","ax",@progbits
	.p2align	2
	.type	"ct_verify::consistency::check_from::<#0f46d2847b2ce1ce>",@function
"ct_verify::consistency::check_from::<#0f46d2847b2ce1ce>":
	sub	sp, sp, #480
	movi	v0.2d, #0000000000000000
	add	x8, sp, #80
	stp	x24, x23, [sp, #432]
	stp	x22, x21, [sp, #448]
	mov	x21, x1
	add	x24, x8, #32
	stp	x29, x30, [sp, #384]
	add	x29, sp, #384
	stp	x28, x27, [sp, #400]
	stp	q0, q0, [sp, #16]
	stp	q0, q0, [sp, #48]
	ldp	q1, q0, [x2]
	stp	x26, x25, [sp, #416]
	stp	x20, x19, [sp, #464]
	stp	x6, x5, [sp]
	stp	q1, q0, [sp, #80]
	stp	q1, q0, [sp, #112]
	cbz	x4, .LBB35_11
	mov	x22, x4
	mov	x23, x3
	mov	x25, x0
	mov	x26, xzr
	b	.LBB35_4
.LBB35_2:
	movi	v0.2d, #0000000000000000
	mov	w27, #1
	mov	w28, #32
	add	x8, sp, #80
	sub	x0, x29, #48
	add	x1, sp, #144
	mov	w2, #3
	stp	x20, x27, [sp, #144]
	stp	x19, x28, [sp, #160]
	stp	q0, q0, [x29, #-48]
	stp	x8, x28, [sp, #176]
	bl	"ct_tree::hash::Sha256HashNodeHash::hash"
	ldp	q0, q1, [x29, #-48]
	sub	x0, x29, #48
	add	x1, sp, #144
	mov	w2, #3
	stp	x20, x27, [sp, #144]
	stp	x19, x28, [sp, #160]
	stp	q0, q1, [x29, #-112]
	movi	v0.2d, #0000000000000000
	stp	x24, x28, [sp, #176]
	stp	q0, q0, [x29, #-48]
	bl	"ct_tree::hash::Sha256HashNodeHash::hash"
	ldp	q1, q0, [x29, #-48]
	sub	x8, x29, #112
	stp	q1, q0, [x8, #32]
	ldp	q0, q2, [x29, #-112]
	stp	q0, q2, [sp, #144]
	ldp	q1, q0, [x29, #-80]
.LBB35_3:
	stp	q1, q0, [sp, #176]
	ldp	q0, q1, [sp, #144]
	ldp	q2, q3, [sp, #176]
	lsr	x21, x21, #1
	add	x26, x26, #1
	lsr	x25, x25, #1
	cmp	x26, x22
	stp	q0, q1, [sp, #16]
	stp	q2, q3, [sp, #48]
	stp	q0, q1, [sp, #80]
	stp	q2, q3, [sp, #112]
	b.eq	.LBB35_11
.LBB35_4:
	cbz	x21, .LBB35_13
	add	x19, x23, x26, lsl #5
	cmp	x25, x21
	adrp	x20, .Lstatic.8
	add	x20, x20, :lo12:.Lstatic.8
	b.eq	.LBB35_8
	tbnz	w25, #0, .LBB35_8
	movi	v0.2d, #0000000000000000
	ldp	q1, q2, [sp, #80]
	mov	w8, #1
	sub	x0, x29, #48
	add	x1, sp, #144
	stp	x20, x8, [sp, #144]
	mov	w8, #32
	mov	w2, #3
	stp	q1, q2, [x29, #-176]
	stp	q0, q0, [x29, #-48]
	stp	x24, x8, [sp, #160]
	stp	x19, x8, [sp, #176]
	bl	"ct_tree::hash::Sha256HashNodeHash::hash"
	ldp	q1, q0, [x29, #-48]
	sub	x8, x29, #176
	stp	q1, q0, [x8, #32]
	ldp	q0, q2, [x29, #-176]
	stp	q0, q2, [sp, #144]
	ldp	q1, q0, [x29, #-144]
	b	.LBB35_3
.LBB35_8:
	tbnz	w25, #0, .LBB35_2
.LBB35_9:
	mov	x8, x25
	lsr	x25, x25, #1
	lsr	x21, x21, #1
	cbz	x8, .LBB35_2
	tbz	w8, #1, .LBB35_9
	b	.LBB35_2
.LBB35_11:
	cbz	x21, .LBB35_14
	mov	w0, #1
	mov	w1, #2
	b	.LBB35_17
.LBB35_13:
	mov	w1, #1
	mov	w0, #1
	b	.LBB35_17
.LBB35_14:
	ldr	x1, [sp, #8]
	add	x0, sp, #80
	bl	"core::cmp::arrays::ArrayPartialEq::eq::<i8,=32,31'core::cmp::numbers::U8PartialEq{}>"
	cbz	w0, .LBB35_16
	ldr	x1, [sp]
	mov	x0, x24
	bl	"core::cmp::arrays::ArrayPartialEq::eq::<i8,=32,31'core::cmp::numbers::U8PartialEq{}>"
	mov	w8, #3
	cmp	w0, #0
	eor	w0, w0, #0x1
	csel	w1, wzr, w8, ne
	b	.LBB35_17
.LBB35_16:
	mov	w0, #1
	mov	w1, #5
.LBB35_17:
	ldp	x20, x19, [sp, #464]
	ldp	x22, x21, [sp, #448]
	ldp	x24, x23, [sp, #432]
	ldp	x26, x25, [sp, #416]
	ldp	x28, x27, [sp, #400]
	ldp	x29, x30, [sp, #384]
	add	sp, sp, #480
	ret
.Lfunc_end35:
	.size	"ct_verify::consistency::check_from::<#0f46d2847b2ce1ce>", .Lfunc_end35-"ct_verify::consistency::check_from::<#0f46d2847b2ce1ce>"
	.section	".text.ct_tree::subtrees::with_leaf::<#0f46d2847b2ce1ce>","ax",@progbits
	.p2align	2
	.type	"ct_tree::subtrees::with_leaf::<#0f46d2847b2ce1ce>",@function
"ct_tree::subtrees::with_leaf::<#0f46d2847b2ce1ce>":
	sub	sp, sp, #288
	movi	v0.2d, #0000000000000000
	stp	x29, x30, [sp, #224]
	add	x29, sp, #224
	str	x28, [sp, #240]
	stp	x22, x21, [sp, #256]
	stp	x20, x19, [sp, #272]
	str	xzr, [sp, #64]
	stp	q0, q0, [sp, #32]
	tbnz	w3, #0, .LBB36_2
	ldp	q0, q1, [x4]
	b	.LBB36_6
.LBB36_2:
	cbz	x2, .LBB36_4
	adrp	x8, .Lstatic.8
	add	x8, x8, :lo12:.Lstatic.8
	mov	w9, #1
	sub	x19, x2, #1
	stp	x8, x9, [x29, #-80]
	mov	w9, #32
	add	x8, x1, x19, lsl #5
	mov	x21, x0
	sub	x0, x29, #32
	mov	x20, x1
	sub	x1, x29, #80
	mov	w2, #3
	stp	q0, q0, [x29, #-32]
	mov	x22, x3
	stp	x8, x9, [x29, #-64]
	stp	x4, x9, [x29, #-48]
	bl	"ct_tree::hash::Sha256HashNodeHash::hash"
	ldp	q1, q0, [x29, #-32]
	lsr	x3, x22, #1
	add	x0, sp, #32
	add	x4, sp, #112
	mov	x1, x20
	mov	x2, x19
	stp	q1, q0, [sp]
	stp	q1, q0, [sp, #112]
	bl	"ct_tree::subtrees::with_leaf::<#0f46d2847b2ce1ce>"
	ldr	x2, [sp, #32]
	mov	x0, x21
	b	.LBB36_5
.LBB36_4:
	ldp	q0, q1, [x4]
	stur	q0, [sp, #40]
	stur	q1, [sp, #56]
.LBB36_5:
	ldur	q0, [sp, #40]
	ldur	q1, [sp, #56]
.LBB36_6:
	stp	q0, q1, [sp, #80]
	ldp	x20, x19, [sp, #272]
	ldp	q0, q1, [sp, #80]
	ldr	x28, [sp, #240]
	str	x2, [x0]
	ldp	x22, x21, [sp, #256]
	ldp	x29, x30, [sp, #224]
	stur	q0, [x0, #8]
	stur	q1, [x0, #24]
	add	sp, sp, #288
	ret
.Lfunc_end36:
	.size	"ct_tree::subtrees::with_leaf::<#0f46d2847b2ce1ce>", .Lfunc_end36-"ct_tree::subtrees::with_leaf::<#0f46d2847b2ce1ce>"
	.section	".text.core::str::utf8::from_utf8","ax",@progbits
	.p2align	2
	.type	"core::str::utf8::from_utf8",@function
"core::str::utf8::from_utf8":
	sub	sp, sp, #64
	stp	x22, x21, [sp, #32]
	mov	x21, x1
	stp	x20, x19, [sp, #48]
	mov	x20, x2
	mov	x19, x0
	stp	x29, x30, [sp, #16]
	add	x29, sp, #16
	cbz	x2, .LBB37_51
	mov	x9, xzr
	sub	x22, x20, #8
	b	.LBB37_6
.LBB37_2:
	and	w11, w11, #0xff
	tbnz	w11, #7, .LBB37_23
.LBB37_3:
	mov	w12, #1
.LBB37_4:
	add	x8, x12, x9
.LBB37_5:
	cmp	x8, x20
	mov	x9, x8
	b.hs	.LBB37_51
.LBB37_6:
	add	x8, x21, x9
	sub	x10, x20, x9
	ldrsb	w11, [x8]
	cmp	x10, #2
	b.lo	.LBB37_2
	tbnz	w11, #31, .LBB37_2
	ldrsb	w11, [x8, #1]
	tbnz	w11, #31, .LBB37_3
	cmp	x10, #7
	stp	x21, x20, [sp]
	b.hi	.LBB37_28
	ldrsb	w8, [x21, x9]
	tbnz	w8, #31, .LBB37_43
	add	x8, x9, #1
	cmp	x8, x20
	b.eq	.LBB37_51
	ldrsb	w10, [x21, x8]
	tbnz	w10, #31, .LBB37_5
	add	x8, x9, #2
	cmp	x8, x20
	b.eq	.LBB37_51
	ldrsb	w10, [x21, x8]
	tbnz	w10, #31, .LBB37_5
	add	x8, x9, #3
	cmp	x8, x20
	b.eq	.LBB37_51
	ldrsb	w10, [x21, x8]
	tbnz	w10, #31, .LBB37_5
	add	x8, x9, #4
	cmp	x8, x20
	b.eq	.LBB37_51
	ldrsb	w10, [x21, x8]
	tbnz	w10, #31, .LBB37_5
	add	x8, x9, #5
	cmp	x8, x20
	b.eq	.LBB37_51
	ldrsb	w10, [x21, x8]
	tbnz	w10, #31, .LBB37_5
	add	x8, x9, #6
	cmp	x8, x20
	b.eq	.LBB37_51
	ldrsb	w9, [x21, x8]
	tbnz	w9, #31, .LBB37_5
	b	.LBB37_51
.LBB37_23:
	cmp	w11, #194
	b.lo	.LBB37_59
	cmp	w11, #223
	b.hi	.LBB37_36
	cmp	x10, #2
	b.lo	.LBB37_58
	ldrsb	w12, [x8, #1]
	cmn	w12, #65
	b.gt	.LBB37_55
	mov	w12, #2
	b	.LBB37_4
.LBB37_28:
	ldr	x8, [x8]
	mov	w10, #8
	ands	x8, x8, #0x8080808080808080
	rbit	x8, x8
	clz	x8, x8
	lsr	x8, x8, #3
	csel	x8, x10, x8, eq
	add	x8, x8, x9
	add	x9, x9, #8
	cmp	x8, x9
	b.lo	.LBB37_5
	sub	x9, x20, x8
	cmp	x9, #32
	b.lo	.LBB37_32
.LBB37_30:
	add	x9, x21, x8
	ldp	q1, q0, [x9]
	orr	v0.16b, v1.16b, v0.16b
	ext	v1.16b, v0.16b, v0.16b, #8
	orr	v0.8b, v0.8b, v1.8b
	fmov	x9, d0
	tst	x9, #0x8080808080808080
	b.ne	.LBB37_32
	mov	x0, sp
	add	x1, x8, #32
	mov	x2, x20
	bl	"core::slice::words::skip_far::<#52f9edcae2f82f51>"
	sub	x9, x20, x0
	mov	x8, x0
	cmp	x9, #31
	b.hi	.LBB37_30
.LBB37_32:
	sub	x9, x20, x8
.LBB37_33:
	cmp	x9, #9
	b.lo	.LBB37_50
	ldr	x10, [x21, x8]
	mov	w11, #8
	sub	x9, x9, #8
	ands	x10, x10, #0x8080808080808080
	rbit	x10, x10
	clz	x10, x10
	lsr	x10, x10, #3
	csel	x10, x11, x10, eq
	add	x11, x10, x8
	add	x8, x8, #8
	cmp	x11, x8
	b.hs	.LBB37_33
	add	x8, x10, x8
	sub	x8, x8, #8
	b	.LBB37_5
.LBB37_36:
	cmp	w11, #239
	b.hi	.LBB37_44
	cmp	x10, #3
	b.lo	.LBB37_53
	ldrsb	w12, [x8, #1]
	cmn	w12, #65
	b.gt	.LBB37_55
	ldrsb	w13, [x8, #2]
	cmn	w13, #65
	b.gt	.LBB37_55
	and	w13, w12, #0xff
	mov	w14, #-14464
	add	w13, w13, w11, lsl #6
	add	w13, w13, w14
	cmp	w13, #32
	b.lo	.LBB37_55
	cmp	w13, #896
	mov	w12, #3
	csel	x14, xzr, x12, lo
	cmp	w13, #864
	b.lo	.LBB37_4
	mov	x12, x14
	b	.LBB37_49
.LBB37_43:
	mov	x8, x9
	b	.LBB37_5
.LBB37_44:
	cmp	x10, #4
	b.lo	.LBB37_52
	ldrsb	w12, [x8, #1]
	cmn	w12, #65
	b.gt	.LBB37_52
	ldrsb	w13, [x8, #2]
	cmn	w13, #65
	b.gt	.LBB37_52
	ldrsb	w13, [x8, #3]
	cmn	w13, #65
	b.gt	.LBB37_52
	and	w12, w12, #0xff
	mov	w13, #-15488
	add	w12, w12, w11, lsl #6
	add	w13, w12, w13
	mov	w12, #4
	cmp	w13, #272
	csel	x12, x12, xzr, lo
	cmp	w13, #16
	b.lo	.LBB37_52
.LBB37_49:
	cbnz	x12, .LBB37_4
	b	.LBB37_52
.LBB37_50:
	ldr	x8, [x21, x22]
	mov	w9, #8
	ands	x8, x8, #0x8080808080808080
	rbit	x8, x8
	clz	x8, x8
	lsr	x8, x8, #3
	csel	x8, x9, x8, eq
	add	x8, x8, x22
	b	.LBB37_5
.LBB37_51:
	stp	xzr, x21, [x19]
	str	x20, [x19, #16]
	ldp	x20, x19, [sp, #48]
	ldp	x22, x21, [sp, #32]
	ldp	x29, x30, [sp, #16]
	add	sp, sp, #64
	ret
.LBB37_52:
	cmp	w11, #244
	b.hi	.LBB37_59
.LBB37_53:
	cmp	x10, #2
	b.lo	.LBB37_58
	ldrb	w12, [x8, #1]
.LBB37_55:
	cmp	w11, #240
	mov	w13, #-128
	mov	w14, #-112
	mov	w15, #-96
	csel	w13, w14, w13, eq
	cmp	w11, #224
	mov	w14, #-65
	csel	w13, w15, w13, eq
	mov	w15, #-113
	cmp	w11, #244
	and	w16, w13, #0xf0
	csel	w13, w15, w14, eq
	cmp	w11, #237
	mov	w11, #-97
	csel	w13, w11, w13, eq
	cmp	w16, w12, uxtb
	mov	w11, #257
	b.hi	.LBB37_60
	and	w12, w12, #0xff
	cmp	w12, w13, uxtb
	b.hi	.LBB37_60
	cmp	x10, #2
	b.ne	.LBB37_61
.LBB37_58:
	mov	x11, xzr
	b	.LBB37_60
.LBB37_59:
	mov	w11, #257
.LBB37_60:
	mov	w8, #1
	str	x11, [x19, #16]
	stp	x8, x9, [x19]
	ldp	x20, x19, [sp, #48]
	ldp	x22, x21, [sp, #32]
	ldp	x29, x30, [sp, #16]
	add	sp, sp, #64
	ret
.LBB37_61:
	ldrsb	w8, [x8, #2]
	cmn	w8, #65
	b.gt	.LBB37_63
	cmp	x10, #3
	mov	w8, #769
	csel	x11, x8, xzr, hi
	b	.LBB37_60
.LBB37_63:
	mov	w11, #513
	b	.LBB37_60
.Lfunc_end37:
	.size	"core::str::utf8::from_utf8", .Lfunc_end37-"core::str::utf8::from_utf8"
	.section	".text.core::slice::words::skip_far::<#52f9edcae2f82f51>","ax",@progbits
	.p2align	2
	.type	"core::slice::words::skip_far::<#52f9edcae2f82f51>",@function
"core::slice::words::skip_far::<#52f9edcae2f82f51>":
	sub	x8, x2, x1
	cmp	x8, #64
	b.lo	.LBB38_4
	ldr	x9, [x0]
.LBB38_2:
	add	x10, x9, x1
	ldp	q0, q1, [x10, #32]
	ldp	q2, q3, [x10]
	orr	v1.16b, v3.16b, v1.16b
	orr	v0.16b, v2.16b, v0.16b
	orr	v0.16b, v0.16b, v1.16b
	ext	v1.16b, v0.16b, v0.16b, #8
	orr	v0.8b, v0.8b, v1.8b
	fmov	x10, d0
	tst	x10, #0x8080808080808080
	b.ne	.LBB38_4
	sub	x8, x8, #64
	add	x1, x1, #64
	cmp	x8, #63
	b.hi	.LBB38_2
.LBB38_4:
	mov	x0, x1
	ret
.Lfunc_end38:
	.size	"core::slice::words::skip_far::<#52f9edcae2f82f51>", .Lfunc_end38-"core::slice::words::skip_far::<#52f9edcae2f82f51>"
	.section	.rodata.cst16,"aM",@progbits,16
	.p2align	4, 0x0
.LCPI39_0:
	.byte	65
	.byte	66
	.byte	67
	.byte	68
	.byte	69
	.byte	70
	.byte	71
	.byte	72
	.byte	73
	.byte	74
	.byte	75
	.byte	76
	.byte	77
	.byte	78
	.byte	79
	.byte	80
.LCPI39_1:
	.byte	81
	.byte	82
	.byte	83
	.byte	84
	.byte	85
	.byte	86
	.byte	87
	.byte	88
	.byte	89
	.byte	90
	.byte	97
	.byte	98
	.byte	99
	.byte	100
	.byte	101
	.byte	102
.LCPI39_2:
	.byte	103
	.byte	104
	.byte	105
	.byte	106
	.byte	107
	.byte	108
	.byte	109
	.byte	110
	.byte	111
	.byte	112
	.byte	113
	.byte	114
	.byte	115
	.byte	116
	.byte	117
	.byte	118
.LCPI39_3:
	.byte	119
	.byte	120
	.byte	121
	.byte	122
	.byte	48
	.byte	49
	.byte	50
	.byte	51
	.byte	52
	.byte	53
	.byte	54
	.byte	55
	.byte	56
	.byte	57
	.byte	43
	.byte	47
.LCPI39_6:
	.byte	0
	.byte	1
	.byte	2
	.byte	3
	.byte	4
	.byte	5
	.byte	6
	.byte	7
	.byte	8
	.byte	9
	.byte	10
	.byte	11
	.byte	12
	.byte	13
	.byte	14
	.byte	15
.LCPI39_8:
	.byte	26
	.byte	27
	.byte	28
	.byte	29
	.byte	30
	.byte	31
	.byte	32
	.byte	33
	.byte	34
	.byte	35
	.byte	36
	.byte	37
	.byte	38
	.byte	39
	.byte	40
	.byte	41
	.section	.rodata.cst8,"aM",@progbits,8
	.p2align	3, 0x0
.LCPI39_4:
	.byte	62
	.byte	255
	.byte	255
	.byte	255
	.byte	63
	.byte	52
	.byte	53
	.byte	54
.LCPI39_5:
	.byte	55
	.byte	56
	.byte	57
	.byte	58
	.zero	1
	.zero	1
	.zero	1
	.zero	1
.LCPI39_7:
	.byte	16
	.byte	17
	.byte	18
	.byte	19
	.byte	20
	.byte	21
	.byte	22
	.byte	23
.LCPI39_9:
	.byte	42
	.byte	43
	.byte	44
	.byte	45
	.byte	46
	.byte	47
	.byte	48
	.byte	49
.LCPI39_10:
	.byte	61
	.byte	1
	.byte	0
	.byte	1
	.zero	1
	.zero	1
	.zero	1
	.zero	1
	.section	".text.libwagtenib::message::checkpoint_of","ax",@progbits
	.p2align	2
	.type	"libwagtenib::message::checkpoint_of",@function
"libwagtenib::message::checkpoint_of":
	stp	x29, x30, [sp, #-96]!
	stp	x28, x27, [sp, #16]
	mov	x29, sp
	stp	x26, x25, [sp, #32]
	stp	x24, x23, [sp, #48]
	stp	x22, x21, [sp, #64]
	stp	x20, x19, [sp, #80]
	sub	sp, sp, #672
	movi	v0.2d, #0000000000000000
	mov	x22, x2
	mov	x20, x1
	mov	x19, x0
	add	x26, sp, #176
	add	x0, sp, #272
	mov	w1, #10
	mov	x2, x20
	mov	x3, x22
	stp	xzr, xzr, [sp, #176]
	stp	q0, q0, [sp, #48]
	stp	q0, q0, [sp, #80]
	stp	q0, q0, [sp, #112]
	stp	q0, q0, [sp, #208]
	str	xzr, [sp, #192]
	stur	xzr, [x26, #23]
	stp	q0, q0, [sp, #144]
	stp	xzr, xzr, [sp, #272]
	str	xzr, [sp, #288]
	bl	"core::iter::pattern::CharPattern::first_in"
	ldrb	w8, [sp, #272]
	cmp	w8, #1
	b.ne	.LBB39_78
	ldr	x21, [sp, #280]
	cbz	x21, .LBB39_78
	ldr	x27, [sp, #288]
	add	x0, sp, #272
	mov	w1, #10
	stp	xzr, xzr, [sp, #272]
	add	x2, x20, x27
	sub	x3, x22, x27
	add	x25, x20, x27
	sub	x28, x22, x27
	str	xzr, [sp, #288]
	bl	"core::iter::pattern::CharPattern::first_in"
	ldrb	w8, [sp, #272]
	cmp	w8, #1
	b.ne	.LBB39_78
	ldr	x8, [sp, #280]
	cbz	x8, .LBB39_78
	ldrb	w9, [x25]
	ldr	x24, [sp, #288]
	cmp	w9, #43
	b.ne	.LBB39_11
	subs	x8, x8, #1
	b.eq	.LBB39_78
	add	x10, x27, x20
	mov	x9, #-7378697629483820647
	mov	x23, xzr
	eor	x9, x9, #0x8000000000000003
	add	x10, x10, #1
.LBB39_7:
	cmp	x23, x9
	b.hs	.LBB39_78
	ldrb	w12, [x10], #1
	sub	w11, w12, #48
	cmp	w11, #9
	b.hi	.LBB39_78
	add	x11, x23, x23, lsl #2
	and	x12, x12, #0xf
	lsl	x11, x11, #1
	cmn	x12, x11
	b.hs	.LBB39_78
	subs	x8, x8, #1
	add	x23, x11, x12
	b.ne	.LBB39_7
	b	.LBB39_16
.LBB39_11:
	mov	x9, #-7378697629483820647
	mov	x23, xzr
	add	x10, x20, x27
	eor	x9, x9, #0x8000000000000003
.LBB39_12:
	cmp	x23, x9
	b.hs	.LBB39_78
	ldrb	w12, [x10], #1
	sub	w11, w12, #48
	cmp	w11, #9
	b.hi	.LBB39_78
	add	x11, x23, x23, lsl #2
	and	x12, x12, #0xf
	lsl	x11, x11, #1
	cmn	x12, x11
	b.hs	.LBB39_78
	subs	x8, x8, #1
	add	x23, x11, x12
	b.ne	.LBB39_12
.LBB39_16:
	cmp	x28, x24
	stp	xzr, xzr, [sp, #240]
	stur	xzr, [x26, #87]
	str	xzr, [sp, #256]
	b.eq	.LBB39_78
	movi	v0.2d, #0000000000000000
	add	x8, sp, #272
	adrp	x11, .LCPI39_2
	add	x9, x8, #136
	ldr	q3, [x11, :lo12:.LCPI39_2]
	add	x10, sp, #272
	adrp	x11, .LCPI39_6
	adrp	x13, .LCPI39_8
	mov	w12, #-1
	stur	w12, [x10, #122]
	sub	x3, x29, #64
	add	x7, x25, x24
	stp	q0, q0, [x9, #128]
	add	x25, x8, #64
	str	q0, [x9, #160]
	stur	q0, [x9, #172]
	adrp	x9, .LCPI39_0
	ldr	q1, [x9, :lo12:.LCPI39_0]
	adrp	x9, .LCPI39_1
	stur	q0, [x26, #232]
	ldr	q2, [x9, :lo12:.LCPI39_1]
	adrp	x9, .LCPI39_3
	stur	q0, [x26, #248]
	stur	q0, [x10, #168]
	stp	q1, q2, [sp, #272]
	ldr	q1, [x9, :lo12:.LCPI39_3]
	adrp	x9, .LCPI39_4
	stur	q0, [x10, #184]
	stp	q3, q1, [sp, #304]
	ldr	d1, [x9, :lo12:.LCPI39_4]
	adrp	x9, .LCPI39_5
	stur	q0, [x10, #200]
	stur	d1, [x10, #107]
	ldr	d1, [x9, :lo12:.LCPI39_5]
	mov	w9, #15419
	stur	q0, [x10, #216]
	stur	s1, [x10, #115]
	ldr	q1, [x11, :lo12:.LCPI39_6]
	adrp	x11, .LCPI39_7
	stur	q0, [x10, #232]
	stur	q1, [x10, #129]
	ldr	d1, [x11, :lo12:.LCPI39_7]
	mov	w11, #6424
	stur	q0, [x10, #248]
	movi	v0.2d, #0xffffffffffffffff
	stur	d1, [x10, #145]
	ldr	q1, [x13, :lo12:.LCPI39_8]
	adrp	x13, .LCPI39_10
	sturh	w11, [x10, #153]
	adrp	x11, .LCPI39_9
	stur	q1, [x10, #161]
	ldr	d1, [x11, :lo12:.LCPI39_9]
	mov	w11, #13106
	sturh	w11, [x10, #185]
	add	x11, x8, #187
	stur	w12, [x10, #125]
	stur	w12, [x10, #155]
	sturh	w12, [x10, #159]
	mvn	x12, x24
	stp	q0, q0, [x11, #96]
	add	x4, x28, x12
	str	q0, [x11, #80]
	mov	x11, #-1
	lsr	x12, x4, #2
	str	x11, [sp, #584]
	sub	w11, w24, w28
	mvn	w11, w11
	stur	d1, [x10, #177]
	ldr	d1, [x13, :lo12:.LCPI39_10]
	ands	x11, x11, #0x3
	sturh	w9, [x10, #119]
	mov	w9, #61
	cinc	x28, x12, ne
	stp	xzr, xzr, [x29, #-64]
	add	x6, x28, x28, lsl #1
	stur	xzr, [x29, #-48]
	stur	xzr, [x3, #23]
	stur	q0, [x10, #91]
	stp	q0, q0, [sp, #336]
	strb	w9, [sp, #393]
	stur	q0, [x10, #251]
	stur	q0, [x10, #235]
	stur	q0, [x10, #219]
	stur	q0, [x10, #203]
	stur	q0, [x10, #187]
	str	s1, [sp, #592]
	cbz	x4, .LBB39_23
	stp	x11, x7, [sp, #24]
	str	x4, [sp, #40]
	tbnz	x6, #63, .LBB39_65
	mov	x0, x6
	mov	w1, #1
	bl	rattle_alloc
	add	x8, x28, x28, lsl #1
	tbz	w0, #0, .LBB39_65
	sub	x9, x8, #1
	sub	x2, x8, #1
	mov	x0, x1
	stp	x9, x1, [sp, #8]
	mov	w1, wzr
	bl	memset
	ldp	x0, x10, [sp, #16]
	ldrb	w8, [sp, #594]
	ldrb	w9, [sp, #592]
	ldr	x11, [sp, #8]
	cmp	x10, #1
	ldrb	w10, [sp, #595]
	strb	wzr, [x0, x11]
	b.ne	.LBB39_24
	ldp	x7, x4, [sp, #32]
	add	x6, x28, x28, lsl #1
	sub	x3, x29, #64
	add	x11, x7, x4
	ldurb	w11, [x11, #-1]
	cmp	w11, w9
	b.eq	.LBB39_25
	ldrb	w11, [x25, w11, uxtw]
	cmp	w11, #255
	b.ne	.LBB39_25
	b	.LBB39_77
.LBB39_23:
	mov	w8, wzr
	sub	x0, x29, #17
	mov	w10, #1
	b	.LBB39_25
.LBB39_24:
	ldp	x7, x4, [sp, #32]
	sub	x3, x29, #64
	add	x6, x28, x28, lsl #1
.LBB39_25:
	cmp	x4, #0
	cset	w11, ne
	sub	x12, x4, x11
	lsr	x11, x12, #2
	cmp	x28, x11
	b.lo	.LBB39_83
	cbz	x11, .LBB39_33
	add	x13, x24, x27
	add	x15, x0, #2
	add	x14, x13, x20
	neg	x13, x11
	add	x14, x14, #3
.LBB39_28:
	ldurb	w16, [x14, #-1]
	ldrb	w16, [x25, x16]
	cmp	w16, #255
	b.eq	.LBB39_76
	ldurb	w17, [x14, #-3]
	ldrb	w17, [x25, x17]
	cmp	w17, #255
	b.eq	.LBB39_76
	ldurb	w18, [x14, #-2]
	ldrb	w18, [x25, x18]
	cmp	w18, #255
	b.eq	.LBB39_76
	ldrb	w1, [x14], #4
	ldrb	w5, [x25, x1]
	cmp	w5, #255
	b.eq	.LBB39_76
	lsr	w1, w18, #4
	lsr	w2, w16, #2
	add	w16, w5, w16, lsl #6
	adds	x13, x13, #1
	add	w17, w1, w17, lsl #2
	add	w18, w2, w18, lsl #4
	sturb	w17, [x15, #-2]
	sturb	w18, [x15, #-1]
	strb	w16, [x15], #3
	b.lo	.LBB39_28
.LBB39_33:
	and	x14, x12, #0xfffffffffffffffc
	subs	x16, x4, x14
	b.ne	.LBB39_39
	mov	w9, wzr
	mov	w13, wzr
	mov	w12, wzr
	mov	w15, wzr
	mov	x14, xzr
	cbz	x4, .LBB39_36
.LBB39_35:
	cmp	x14, #2
	b.lo	.LBB39_77
.LBB39_36:
	cbz	w10, .LBB39_45
	cmp	w10, #2
	b.ne	.LBB39_44
	cbnz	x16, .LBB39_76
	b	.LBB39_45
.LBB39_39:
	add	x12, x7, x14
	ldrb	w13, [x12]
	cmp	w13, w9
	b.eq	.LBB39_76
	ldrb	w13, [x25, w13, uxtw]
	cmp	w13, #255
	b.eq	.LBB39_76
	stur	wzr, [x29, #-24]
	cmp	x16, #1
	sturb	w13, [x29, #-24]
	ldur	w17, [x29, #-24]
	b.ne	.LBB39_48
	mov	x16, xzr
	lsr	w13, w17, #8
	lsr	w12, w17, #16
	lsr	w15, w17, #24
	mov	w14, #1
.LBB39_43:
	lsl	w9, w17, #2
	cbnz	x4, .LBB39_35
	b	.LBB39_36
.LBB39_44:
	add	w10, w16, w14
	tst	x10, #0x3
	b.ne	.LBB39_76
.LBB39_45:
	cmp	x14, #3
	b.eq	.LBB39_52
	cmp	x14, #2
	b.ne	.LBB39_54
	and	w10, w13, #0xf
	b	.LBB39_53
.LBB39_48:
	ldrb	w12, [x12, #1]
	cmp	w12, w9
	b.eq	.LBB39_76
	ldrb	w12, [x25, w12, uxtw]
	cmp	w12, #255
	b.eq	.LBB39_76
	stur	w17, [x29, #-24]
	cmp	x16, #2
	sturb	w12, [x29, #-23]
	ldur	w17, [x29, #-24]
	lsr	w13, w17, #8
	lsr	w12, w17, #16
	lsr	w15, w17, #24
	b.ne	.LBB39_70
	mov	x16, xzr
	mov	w14, #2
	b	.LBB39_43
.LBB39_52:
	and	w10, w12, #0x3
.LBB39_53:
	cmp	w10, #0
	csinc	w8, w8, wzr, ne
	tbz	w8, #0, .LBB39_76
.LBB39_54:
	add	x10, x14, x14, lsl #1
	add	x8, x11, x11, lsl #1
	ubfx	x10, x10, #2, #61
	sub	x11, x6, x8
	cmp	x11, x10
	b.lo	.LBB39_83
	cbz	x10, .LBB39_61
	ubfx	w11, w12, #2, #6
	and	w14, w13, #0xf0
	cmp	x10, #2
	add	w9, w9, w14, lsr #4
	add	w11, w11, w13, lsl #4
	b.eq	.LBB39_59
	cmp	x10, #1
	b.ne	.LBB39_60
	strb	w9, [x0, x8]
	b	.LBB39_61
.LBB39_59:
	bfi	w9, w11, #8, #24
	strh	w9, [x0, x8]
	b	.LBB39_61
.LBB39_60:
	bfi	w9, w11, #8, #24
	add	w11, w15, w12, lsl #6
	add	x12, x0, x8
	strh	w9, [x12]
	strb	w11, [x12, #2]
.LBB39_61:
	add	x8, x10, x8
	cmp	x6, x8
	csel	x8, x6, x8, lo
	cmp	x8, #32
	b.ne	.LBB39_76
	ldur	q0, [x0, #1]
	ldr	q1, [x0, #16]
	ldrb	w24, [x0]
	stur	q0, [x29, #-64]
	stur	q1, [x3, #15]
	cbz	x4, .LBB39_64
	bl	rattle_dealloc
	sub	x3, x29, #64
.LBB39_64:
	ldur	q0, [x29, #-64]
	ldur	q1, [x3, #15]
	add	x0, sp, #144
	add	x4, sp, #208
	mov	x1, x20
	mov	x2, x21
	str	q0, [sp, #240]
	mov	x3, x23
	stur	q1, [x26, #79]
	ldr	q0, [sp, #240]
	ldur	q1, [x26, #79]
	strb	w24, [sp, #208]
	str	q0, [sp, #176]
	stur	q1, [x26, #15]
	ldur	q0, [x26, #15]
	ldr	q1, [sp, #176]
	str	q0, [sp, #224]
	stur	q1, [x26, #33]
	bl	"ct_checkpoint::checkpoint::write_checkpoint"
	ldrb	w8, [sp, #144]
	cbz	w8, .LBB39_66
.LBB39_65:
	movi	v0.2d, #0000000000000000
	mov	w8, #1
	strb	w8, [x19]
	stur	q0, [x19, #8]
	stur	q0, [x19, #24]
	stur	q0, [x19, #40]
	stur	q0, [x19, #56]
	b	.LBB39_80
.LBB39_66:
	ldp	x24, x1, [sp, #152]
	mov	x2, x20
	ldr	x25, [sp, #168]
	mov	x3, x22
	mov	x0, x24
	bl	"core::cmp::bytes::equal"
	tbz	w0, #0, .LBB39_81
	cbz	x25, .LBB39_69
	mov	x0, x24
	bl	rattle_dealloc
.LBB39_69:
	ldp	q0, q1, [sp, #208]
	mov	w8, #1
	stp	q0, q1, [sp, #112]
	b	.LBB39_79
.LBB39_70:
	add	x18, x24, x27
	mov	x16, xzr
	add	x14, x18, x14
	sub	x18, x14, x22
	add	x14, x14, x20
	add	x18, x18, #3
	add	x2, x14, #2
	mov	w14, #2
	b	.LBB39_72
.LBB39_71:
	add	x16, x16, #1
	lsr	w13, w1, #8
	lsr	w12, w1, #16
	lsr	w15, w1, #24
	adds	x18, x18, #1
	orr	w17, w17, w1
	b.hs	.LBB39_43
.LBB39_72:
	lsl	w1, w15, #24
	bfi	w1, w12, #16, #8
	ldrb	w12, [x2], #1
	bfi	w1, w13, #8, #8
	cmp	w12, w9
	b.eq	.LBB39_71
	cbnz	x16, .LBB39_76
	ldrb	w12, [x25, w12, uxtw]
	cmp	w12, #255
	b.eq	.LBB39_76
	bfxil	w1, w17, #0, #8
	sub	x13, x29, #24
	mov	x16, xzr
	stur	w1, [x29, #-24]
	strb	w12, [x13, x14]
	add	x14, x14, #1
	ldur	w17, [x29, #-24]
	and	w1, w17, #0xffffff00
	lsr	w13, w1, #8
	lsr	w12, w1, #16
	lsr	w15, w1, #24
	adds	x18, x18, #1
	orr	w17, w17, w1
	b.lo	.LBB39_72
	b	.LBB39_43
.LBB39_76:
	cbz	x4, .LBB39_78
.LBB39_77:
	bl	rattle_dealloc
.LBB39_78:
	ldp	q0, q1, [sp, #48]
	mov	x20, xzr
	mov	x21, xzr
	mov	x23, xzr
	mov	x8, xzr
.LBB39_79:
	stp	q0, q1, [sp, #80]
	ldp	q0, q1, [sp, #80]
	strb	wzr, [x19]
	stp	x8, x20, [x19, #8]
	stp	x21, x23, [x19, #24]
	stur	q0, [x19, #40]
	stur	q1, [x19, #56]
.LBB39_80:
	add	sp, sp, #672
	ldp	x20, x19, [sp, #80]
	ldp	x22, x21, [sp, #64]
	ldp	x24, x23, [sp, #48]
	ldp	x26, x25, [sp, #32]
	ldp	x28, x27, [sp, #16]
	ldp	x29, x30, [sp], #96
	ret
.LBB39_81:
	cbz	x25, .LBB39_78
	mov	x0, x24
	b	.LBB39_77
.LBB39_83:
	brk	#0x1
.Lfunc_end39:
	.size	"libwagtenib::message::checkpoint_of", .Lfunc_end39-"libwagtenib::message::checkpoint_of"
	.section	".text.core::iter::pattern::CharPattern::first_in","ax",@progbits
	.p2align	2
	.type	"core::iter::pattern::CharPattern::first_in",@function
"core::iter::pattern::CharPattern::first_in":
	sub	sp, sp, #96
	stp	x20, x19, [sp, #80]
	mov	x19, x3
	mov	x20, x2
	cmp	w1, #127
	stp	x29, x30, [sp, #48]
	add	x29, sp, #48
	stp	x22, x21, [sp, #64]
	b.hi	.LBB40_5
	cmp	x19, #7
	stp	x20, x19, [sp, #24]
	strb	w1, [sp, #40]
	stur	wzr, [sp, #41]
	str	wzr, [sp, #44]
	b.hi	.LBB40_15
	cbz	x19, .LBB40_4
	ldrb	w8, [x20]
	cmp	w8, w1
	b.ne	.LBB40_22
.LBB40_4:
	mov	x8, xzr
	b	.LBB40_31
.LBB40_5:
	mov	x8, xzr
	cbz	x19, .LBB40_20
.LBB40_6:
	add	x10, x20, x8
	ldrsb	w11, [x10]
	and	w9, w11, #0xff
	tbnz	w11, #31, .LBB40_8
	mov	w10, #1
	b	.LBB40_13
.LBB40_8:
	ldrb	w11, [x10, #1]
	cmp	w9, #223
	and	w11, w11, #0x3f
	b.hi	.LBB40_10
	bfi	w11, w9, #6, #5
	mov	w10, #2
	mov	w9, w11
	b	.LBB40_13
.LBB40_10:
	ldrb	w12, [x10, #2]
	cmp	w9, #239
	and	w12, w12, #0x3f
	b.hi	.LBB40_12
	ubfiz	w9, w9, #12, #4
	mov	w10, #3
	orr	w9, w9, w11, lsl #6
	orr	w9, w9, w12
	b	.LBB40_13
.LBB40_12:
	ubfiz	w9, w9, #18, #3
	ldrb	w10, [x10, #3]
	orr	w9, w9, w11, lsl #12
	orr	w9, w9, w12, lsl #6
	bfxil	w9, w10, #0, #6
	mov	w10, #4
.LBB40_13:
	cmp	w9, w1
	add	x9, x10, x8
	b.eq	.LBB40_32
	cmp	x9, x19
	mov	x8, x9
	b.lo	.LBB40_6
	b	.LBB40_32
.LBB40_15:
	mov	w8, w1
	mov	x9, #72340172838076673
	mov	x10, #9187201950435737471
	mul	x21, x8, x9
	ldr	x8, [x20]
	eor	x8, x8, x21
	and	x9, x8, #0x7f7f7f7f7f7f7f7f
	add	x9, x9, x10
	orr	x8, x9, x8
	mov	x9, #-9187201950435737472
	and	x8, x8, #0x8080808080808080
	cmp	x8, x9
	b.ne	.LBB40_21
	mov	x22, x0
	cmp	x19, #40
	b.lo	.LBB40_25
	dup	v0.2d, x21
	mov	w8, #8
	str	q0, [sp]
.LBB40_18:
	add	x9, x20, x8
	ldr	q3, [sp]
	movi	v2.16b, #127
	ldp	q1, q0, [x9]
	mov	x10, #-9187201950435737472
	eor	v1.16b, v1.16b, v3.16b
	eor	v0.16b, v0.16b, v3.16b
	and	v3.16b, v0.16b, v2.16b
	and	v4.16b, v1.16b, v2.16b
	add	v4.2d, v4.2d, v2.2d
	add	v2.2d, v3.2d, v2.2d
	orr	v0.16b, v2.16b, v0.16b
	orr	v1.16b, v4.16b, v1.16b
	and	v0.16b, v1.16b, v0.16b
	ext	v1.16b, v0.16b, v0.16b, #8
	and	v0.8b, v0.8b, v1.8b
	fmov	x9, d0
	bics	xzr, x10, x9
	b.ne	.LBB40_26
	add	x0, sp, #24
	add	x1, x8, #32
	mov	x2, x19
	bl	"core::slice::words::skip_far::<#d9bf6fcacf29a880>"
	sub	x9, x19, x0
	mov	x8, x0
	cmp	x9, #31
	b.hi	.LBB40_18
	b	.LBB40_26
.LBB40_20:
	mov	x9, xzr
	b	.LBB40_32
.LBB40_21:
	eor	x8, x8, #0x8080808080808080
	rbit	x8, x8
	clz	x8, x8
	lsr	x8, x8, #3
	b	.LBB40_31
.LBB40_22:
	cmp	x19, #1
	mov	x8, x19
	b.eq	.LBB40_31
	ldrb	w8, [x20, #1]
	cmp	w8, w1
	b.ne	.LBB40_33
	mov	w8, #1
	b	.LBB40_31
.LBB40_25:
	mov	w8, #8
.LBB40_26:
	sub	x9, x19, x8
	mov	x0, x22
.LBB40_27:
	cmp	x9, #9
	b.lo	.LBB40_30
	ldr	x10, [x20, x8]
	mov	x12, #9187201950435737471
	sub	x9, x9, #8
	eor	x10, x10, x21
	and	x11, x10, #0x7f7f7f7f7f7f7f7f
	add	x11, x11, x12
	mov	x12, #-9187201950435737472
	orr	x10, x11, x10
	and	x10, x10, #0x8080808080808080
	eor	x11, x10, #0x8080808080808080
	cmp	x10, x12
	mov	w10, #8
	rbit	x11, x11
	clz	x11, x11
	lsr	x11, x11, #3
	csel	x10, x10, x11, eq
	add	x11, x10, x8
	add	x8, x8, #8
	cmp	x11, x8
	b.hs	.LBB40_27
	add	x8, x10, x8
	sub	x8, x8, #8
	b	.LBB40_31
.LBB40_30:
	sub	x8, x19, #8
	mov	x11, #9187201950435737471
	ldr	x9, [x20, x8]
	eor	x9, x9, x21
	and	x10, x9, #0x7f7f7f7f7f7f7f7f
	add	x10, x10, x11
	mov	x11, #-9187201950435737472
	orr	x9, x10, x9
	and	x9, x9, #0x8080808080808080
	eor	x10, x9, #0x8080808080808080
	cmp	x9, x11
	mov	w9, #8
	rbit	x10, x10
	clz	x10, x10
	lsr	x10, x10, #3
	csel	x9, x9, x10, eq
	add	x8, x9, x8
.LBB40_31:
	cmp	x8, x19
	cinc	x9, x8, lo
.LBB40_32:
	cmp	x8, x19
	ldp	x20, x19, [sp, #80]
	ldp	x22, x21, [sp, #64]
	cset	w10, lo
	ldp	x29, x30, [sp, #48]
	csel	x8, x8, xzr, lo
	csel	x9, x9, xzr, lo
	stp	x10, x8, [x0]
	str	x9, [x0, #16]
	add	sp, sp, #96
	ret
.LBB40_33:
	cmp	x19, #2
	mov	x8, x19
	b.eq	.LBB40_31
	ldrb	w8, [x20, #2]
	cmp	w8, w1
	b.ne	.LBB40_36
	mov	w8, #2
	b	.LBB40_31
.LBB40_36:
	cmp	x19, #3
	mov	x8, x19
	b.eq	.LBB40_31
	ldrb	w8, [x20, #3]
	cmp	w8, w1
	b.ne	.LBB40_39
	mov	w8, #3
	b	.LBB40_31
.LBB40_39:
	cmp	x19, #4
	mov	x8, x19
	b.eq	.LBB40_31
	ldrb	w8, [x20, #4]
	cmp	w8, w1
	b.ne	.LBB40_42
	mov	w8, #4
	b	.LBB40_31
.LBB40_42:
	cmp	x19, #5
	mov	x8, x19
	b.eq	.LBB40_31
	ldrb	w8, [x20, #5]
	cmp	w8, w1
	b.ne	.LBB40_45
	mov	w8, #5
	b	.LBB40_31
.LBB40_45:
	cmp	x19, #6
	mov	x8, x19
	b.eq	.LBB40_31
	ldrb	w8, [x20, #6]
	cmp	w8, w1
	mov	w8, #6
	csel	x8, x8, x19, eq
	b	.LBB40_31
.Lfunc_end40:
	.size	"core::iter::pattern::CharPattern::first_in", .Lfunc_end40-"core::iter::pattern::CharPattern::first_in"
	.section	".text.core::slice::words::skip_far::<#d9bf6fcacf29a880>","ax",@progbits
	.p2align	2
	.type	"core::slice::words::skip_far::<#d9bf6fcacf29a880>",@function
"core::slice::words::skip_far::<#d9bf6fcacf29a880>":
	sub	x8, x2, x1
	cmp	x8, #64
	b.lo	.LBB41_4
	ldrb	w9, [x0, #16]
	mov	x10, #72340172838076673
	mul	x9, x9, x10
	dup	v0.2d, x9
	ldr	x9, [x0]
.LBB41_2:
	add	x10, x9, x1
	movi	v1.16b, #127
	mov	x11, #-9187201950435737472
	ldp	q2, q4, [x10, #16]
	ldr	q3, [x10, #48]
	ldr	q5, [x10]
	eor	v3.16b, v0.16b, v3.16b
	eor	v2.16b, v0.16b, v2.16b
	eor	v5.16b, v0.16b, v5.16b
	eor	v4.16b, v0.16b, v4.16b
	and	v7.16b, v3.16b, v1.16b
	and	v6.16b, v2.16b, v1.16b
	and	v16.16b, v4.16b, v1.16b
	and	v17.16b, v5.16b, v1.16b
	add	v6.2d, v6.2d, v1.2d
	add	v17.2d, v17.2d, v1.2d
	add	v16.2d, v16.2d, v1.2d
	add	v1.2d, v7.2d, v1.2d
	orr	v2.16b, v6.16b, v2.16b
	orr	v1.16b, v1.16b, v3.16b
	orr	v3.16b, v16.16b, v4.16b
	orr	v4.16b, v17.16b, v5.16b
	and	v3.16b, v4.16b, v3.16b
	and	v1.16b, v2.16b, v1.16b
	and	v1.16b, v3.16b, v1.16b
	ext	v2.16b, v1.16b, v1.16b, #8
	and	v1.8b, v1.8b, v2.8b
	fmov	x10, d1
	bics	xzr, x11, x10
	b.ne	.LBB41_4
	sub	x8, x8, #64
	add	x1, x1, #64
	cmp	x8, #63
	b.hi	.LBB41_2
.LBB41_4:
	mov	x0, x1
	ret
.Lfunc_end41:
	.size	"core::slice::words::skip_far::<#d9bf6fcacf29a880>", .Lfunc_end41-"core::slice::words::skip_far::<#d9bf6fcacf29a880>"
	.section	".text.std_alloc::vec::Vec::drop::<#f804577450a179d9>","ax",@progbits
	.p2align	2
	.type	"std_alloc::vec::Vec::drop::<#f804577450a179d9>",@function
"std_alloc::vec::Vec::drop::<#f804577450a179d9>":
	ldr	x8, [x0, #16]
	cbz	x8, .LBB42_2
	ldr	x0, [x0]
	b	rattle_dealloc
.LBB42_2:
	ret
.Lfunc_end42:
	.size	"std_alloc::vec::Vec::drop::<#f804577450a179d9>", .Lfunc_end42-"std_alloc::vec::Vec::drop::<#f804577450a179d9>"
	.section	.rodata.cst16,"aM",@progbits,16
	.p2align	4, 0x0
.LCPI43_0:
	.byte	65
	.byte	66
	.byte	67
	.byte	68
	.byte	69
	.byte	70
	.byte	71
	.byte	72
	.byte	73
	.byte	74
	.byte	75
	.byte	76
	.byte	77
	.byte	78
	.byte	79
	.byte	80
.LCPI43_1:
	.byte	81
	.byte	82
	.byte	83
	.byte	84
	.byte	85
	.byte	86
	.byte	87
	.byte	88
	.byte	89
	.byte	90
	.byte	97
	.byte	98
	.byte	99
	.byte	100
	.byte	101
	.byte	102
.LCPI43_2:
	.byte	103
	.byte	104
	.byte	105
	.byte	106
	.byte	107
	.byte	108
	.byte	109
	.byte	110
	.byte	111
	.byte	112
	.byte	113
	.byte	114
	.byte	115
	.byte	116
	.byte	117
	.byte	118
.LCPI43_3:
	.byte	119
	.byte	120
	.byte	121
	.byte	122
	.byte	48
	.byte	49
	.byte	50
	.byte	51
	.byte	52
	.byte	53
	.byte	54
	.byte	55
	.byte	56
	.byte	57
	.byte	43
	.byte	47
.LCPI43_6:
	.byte	0
	.byte	1
	.byte	2
	.byte	3
	.byte	4
	.byte	5
	.byte	6
	.byte	7
	.byte	8
	.byte	9
	.byte	10
	.byte	11
	.byte	12
	.byte	13
	.byte	14
	.byte	15
.LCPI43_8:
	.byte	26
	.byte	27
	.byte	28
	.byte	29
	.byte	30
	.byte	31
	.byte	32
	.byte	33
	.byte	34
	.byte	35
	.byte	36
	.byte	37
	.byte	38
	.byte	39
	.byte	40
	.byte	41
	.section	.rodata.cst8,"aM",@progbits,8
	.p2align	3, 0x0
.LCPI43_4:
	.byte	62
	.byte	255
	.byte	255
	.byte	255
	.byte	63
	.byte	52
	.byte	53
	.byte	54
.LCPI43_5:
	.byte	55
	.byte	56
	.byte	57
	.byte	58
	.zero	1
	.zero	1
	.zero	1
	.zero	1
.LCPI43_7:
	.byte	16
	.byte	17
	.byte	18
	.byte	19
	.byte	20
	.byte	21
	.byte	22
	.byte	23
.LCPI43_9:
	.byte	42
	.byte	43
	.byte	44
	.byte	45
	.byte	46
	.byte	47
	.byte	48
	.byte	49
.LCPI43_10:
	.byte	61
	.byte	1
	.byte	0
	.byte	1
	.zero	1
	.zero	1
	.zero	1
	.zero	1
	.section	".text.ct_checkpoint::checkpoint::write_checkpoint","ax",@progbits
	.p2align	2
	.type	"ct_checkpoint::checkpoint::write_checkpoint",@function
"ct_checkpoint::checkpoint::write_checkpoint":
	stp	x29, x30, [sp, #-96]!
	stp	x28, x27, [sp, #16]
	mov	x29, sp
	stp	x26, x25, [sp, #32]
	stp	x24, x23, [sp, #48]
	stp	x22, x21, [sp, #64]
	stp	x20, x19, [sp, #80]
	sub	sp, sp, #576
	movi	v0.2d, #0000000000000000
	add	x24, sp, #32
	adrp	x9, .LCPI43_2
	add	x8, x24, #135
	ldr	q3, [x9, :lo12:.LCPI43_2]
	adrp	x9, .LCPI43_6
	mov	x21, x1
	mov	x19, x0
	mov	w0, #44
	mov	w1, #1
	mov	x22, x4
	mov	x20, x2
	stp	q0, q0, [x8, #128]
	mov	w25, #1
	str	q0, [x8, #160]
	stur	q0, [x8, #173]
	adrp	x8, .LCPI43_0
	ldr	q1, [x8, :lo12:.LCPI43_0]
	adrp	x8, .LCPI43_1
	stur	q0, [x24, #135]
	ldr	q2, [x8, :lo12:.LCPI43_1]
	adrp	x8, .LCPI43_3
	stur	q0, [x24, #151]
	stur	q0, [x24, #167]
	stp	q1, q2, [sp, #32]
	ldr	q1, [x8, :lo12:.LCPI43_3]
	adrp	x8, .LCPI43_4
	stur	q0, [x24, #183]
	stp	q3, q1, [sp, #64]
	ldr	d1, [x8, :lo12:.LCPI43_4]
	adrp	x8, .LCPI43_5
	stur	q0, [x24, #199]
	stur	d1, [x24, #107]
	ldr	d1, [x8, :lo12:.LCPI43_5]
	mov	w8, #15419
	stur	q0, [x24, #215]
	stur	s1, [x24, #115]
	ldr	q1, [x9, :lo12:.LCPI43_6]
	adrp	x9, .LCPI43_7
	stur	q0, [x24, #231]
	stur	q0, [x24, #247]
	movi	v0.2d, #0xffffffffffffffff
	sturh	w8, [x24, #119]
	mov	w8, #61
	stur	q1, [x24, #129]
	ldr	d1, [x9, :lo12:.LCPI43_7]
	mov	w9, #6424
	strb	w8, [sp, #153]
	mov	w8, #-1
	sturh	w9, [x24, #153]
	adrp	x9, .LCPI43_8
	stur	w8, [x24, #122]
	stur	w8, [x24, #125]
	stur	d1, [x24, #145]
	ldr	q1, [x9, :lo12:.LCPI43_8]
	adrp	x9, .LCPI43_9
	sturh	w8, [x24, #159]
	stur	w8, [x24, #155]
	mov	w8, #13106
	sturh	w8, [x24, #185]
	add	x8, x24, #187
	stur	q1, [x24, #161]
	ldr	d1, [x9, :lo12:.LCPI43_9]
	stp	q0, q0, [x8, #96]
	str	q0, [x8, #80]
	mov	x8, #-1
	str	x8, [sp, #344]
	adrp	x8, .LCPI43_10
	stur	d1, [x24, #177]
	ldr	d1, [x8, :lo12:.LCPI43_10]
	stp	xzr, xzr, [x29, #-216]
	stp	xzr, x3, [x29, #-200]
	stp	xzr, xzr, [sp, #8]
	str	xzr, [sp]
	stur	xzr, [sp, #23]
	stp	q0, q0, [sp, #96]
	stur	q0, [sp, #123]
	stur	q0, [x24, #251]
	stur	q0, [x24, #235]
	stur	q0, [x24, #219]
	stur	q0, [x24, #203]
	stur	q0, [x24, #187]
	str	s1, [sp, #352]
	stp	xzr, xzr, [x29, #-152]
	stur	xzr, [x29, #-136]
	bl	rattle_alloc
	tbz	w0, #0, .LBB43_11
	movi	v0.2d, #0000000000000000
	mov	x23, x1
	stur	q0, [x1, #28]
	stp	q0, q0, [x1]
	ldr	x8, [x22]
	rev	x8, x8
	lsr	x9, x8, #58
	ubfx	x10, x8, #52, #6
	ldrb	w9, [x24, x9]
	strb	w9, [x1]
	ldrb	w9, [x24, x10]
	ubfx	x10, x8, #46, #6
	strb	w9, [x1, #1]
	ldrb	w9, [x24, x10]
	ubfx	x10, x8, #40, #6
	strb	w9, [x1, #2]
	ldrb	w9, [x24, x10]
	ubfx	x10, x8, #34, #6
	strb	w9, [x1, #3]
	ldrb	w9, [x24, x10]
	ubfx	x10, x8, #28, #6
	strb	w9, [x1, #4]
	ldrb	w9, [x24, x10]
	ubfx	x10, x8, #22, #6
	ubfx	x8, x8, #16, #6
	strb	w9, [x1, #5]
	ldrb	w9, [x24, x10]
	strb	w9, [x1, #6]
	ldrb	w8, [x24, x8]
	strb	w8, [x1, #7]
	ldur	x8, [x22, #6]
	rev	x8, x8
	lsr	x9, x8, #58
	ubfx	x10, x8, #52, #6
	ldrb	w9, [x24, x9]
	strb	w9, [x1, #8]
	ldrb	w9, [x24, x10]
	ubfx	x10, x8, #46, #6
	strb	w9, [x1, #9]
	ldrb	w9, [x24, x10]
	ubfx	x10, x8, #40, #6
	strb	w9, [x1, #10]
	ldrb	w9, [x24, x10]
	ubfx	x10, x8, #34, #6
	strb	w9, [x1, #11]
	ldrb	w9, [x24, x10]
	ubfx	x10, x8, #28, #6
	strb	w9, [x1, #12]
	ldrb	w9, [x24, x10]
	ubfx	x10, x8, #22, #6
	ubfx	x8, x8, #16, #6
	strb	w9, [x1, #13]
	ldrb	w9, [x24, x10]
	strb	w9, [x1, #14]
	ldrb	w8, [x24, x8]
	strb	w8, [x1, #15]
	ldur	x8, [x22, #12]
	rev	x8, x8
	lsr	x9, x8, #58
	ubfx	x10, x8, #52, #6
	ldrb	w9, [x24, x9]
	strb	w9, [x1, #16]
	ldrb	w9, [x24, x10]
	ubfx	x10, x8, #46, #6
	strb	w9, [x1, #17]
	ldrb	w9, [x24, x10]
	ubfx	x10, x8, #40, #6
	strb	w9, [x1, #18]
	ldrb	w9, [x24, x10]
	ubfx	x10, x8, #34, #6
	strb	w9, [x1, #19]
	ldrb	w9, [x24, x10]
	ubfx	x10, x8, #28, #6
	strb	w9, [x1, #20]
	ldrb	w9, [x24, x10]
	ubfx	x10, x8, #22, #6
	ubfx	x8, x8, #16, #6
	strb	w9, [x1, #21]
	ldrb	w9, [x24, x10]
	strb	w9, [x1, #22]
	ldrb	w8, [x24, x8]
	strb	w8, [x1, #23]
	ldur	x8, [x22, #18]
	rev	x8, x8
	lsr	x9, x8, #58
	ubfx	x10, x8, #52, #6
	ldrb	w9, [x24, x9]
	strb	w9, [x1, #24]
	ldrb	w9, [x24, x10]
	ubfx	x10, x8, #46, #6
	strb	w9, [x1, #25]
	ldrb	w9, [x24, x10]
	ubfx	x10, x8, #40, #6
	strb	w9, [x1, #26]
	ldrb	w9, [x24, x10]
	ubfx	x10, x8, #34, #6
	strb	w9, [x1, #27]
	ldrb	w9, [x24, x10]
	ubfx	x10, x8, #28, #6
	strb	w9, [x1, #28]
	ldrb	w9, [x24, x10]
	ubfx	x10, x8, #22, #6
	ubfx	x8, x8, #16, #6
	strb	w9, [x1, #29]
	ldrb	w9, [x24, x10]
	strb	w9, [x1, #30]
	ldrb	w8, [x24, x8]
	strb	w8, [x1, #31]
	ldr	x8, [x22, #24]
	rev	x8, x8
	lsr	x9, x8, #58
	ubfx	x10, x8, #52, #6
	ldrb	w9, [x24, x9]
	strb	w9, [x1, #32]
	ldrb	w9, [x24, x10]
	ubfx	x10, x8, #46, #6
	strb	w9, [x1, #33]
	ldrb	w9, [x24, x10]
	ubfx	x10, x8, #40, #6
	strb	w9, [x1, #34]
	ldrb	w9, [x24, x10]
	ubfx	x10, x8, #34, #6
	strb	w9, [x1, #35]
	ldrb	w9, [x24, x10]
	ubfx	x10, x8, #28, #6
	strb	w9, [x1, #36]
	ldrb	w9, [x24, x10]
	ubfx	x10, x8, #22, #6
	ubfx	x8, x8, #16, #6
	strb	w9, [x1, #37]
	ldrb	w9, [x24, x10]
	strb	w9, [x1, #38]
	ldrb	w8, [x24, x8]
	strb	w8, [x1, #39]
	ldrb	w8, [x22, #31]
	ldrb	w9, [x22, #30]
	lsr	x10, x8, #4
	lsr	x11, x9, #2
	ubfiz	x8, x8, #2, #4
	bfi	x10, x9, #4, #2
	ldrb	w9, [x24, x11]
	ldrb	w8, [x24, x8]
	ldrb	w10, [x24, x10]
	strb	w9, [x1, #40]
	strb	w8, [x1, #42]
	strb	w10, [x1, #41]
	ldrb	w8, [sp, #353]
	cmp	w8, #1
	b.ne	.LBB43_3
	ldrb	w8, [sp, #352]
	strb	w8, [x23, #43]
.LBB43_3:
	sub	x0, x29, #88
	mov	x1, x23
	mov	w2, #44
	stp	xzr, xzr, [x29, #-88]
	sub	x24, x29, #88
	stur	xzr, [x29, #-72]
	bl	"core::str::utf8::from_utf8"
	ldurb	w8, [x29, #-88]
	cmp	w8, #1
	b.eq	.LBB43_73
	mov	w8, #44
	sub	x10, x29, #192
	sub	x22, x29, #216
	dup	v0.2d, x8
	mov	w8, #32
	sub	x25, x29, #1
	stur	w8, [x29, #-128]
	mov	x8, #-1
	mov	w9, #1
	stur	x8, [x29, #-112]
	adrp	x8, .Lstatic.15
	add	x8, x8, :lo12:.Lstatic.15
	stp	x10, x8, [x29, #-56]
	sub	x10, x29, #216
	stur	x23, [x29, #-216]
	stp	xzr, xzr, [x29, #-184]
	stur	xzr, [x22, #55]
	stur	q0, [x22, #8]
	stur	xzr, [x29, #-168]
	stp	xzr, xzr, [x29, #-144]
	stur	x25, [x29, #-152]
	stur	xzr, [x22, #92]
	stur	wzr, [x29, #-116]
	stp	xzr, xzr, [x29, #-104]
	stp	x21, x20, [x29, #-88]
	stp	x8, x9, [x29, #-72]
	stp	x9, x10, [x29, #-40]
	stp	x8, x9, [x29, #-24]
	stur	wzr, [x29, #-116]
	stur	xzr, [x22, #92]
	cbnz	x20, .LBB43_21
	mov	x26, xzr
	mov	x8, xzr
	add	x0, x25, xzr
	sub	x23, x29, #152
	add	x27, xzr, x20
	sub	x9, x0, x21
	cmp	x9, x20
	b.hs	.LBB43_23
.LBB43_6:
	cmp	x20, #8
	b.lo	.LBB43_8
	add	x9, x8, x25
	sub	x9, x9, x21
	cmp	x9, #32
	b.hs	.LBB43_12
.LBB43_8:
	mov	x9, xzr
.LBB43_9:
	add	x10, x9, x8
	sub	x8, x20, x9
	add	x9, x21, x9
	add	x10, x25, x10
.LBB43_10:
	ldrb	w11, [x9], #1
	subs	x8, x8, #1
	strb	w11, [x10], #1
	b.ne	.LBB43_10
	b	.LBB43_24
.LBB43_11:
	strb	w25, [x19]
	stp	xzr, xzr, [x19, #16]
	str	xzr, [x19, #8]
	b	.LBB43_69
.LBB43_12:
	cmp	x20, #32
	b.hs	.LBB43_14
	mov	x9, xzr
	b	.LBB43_18
.LBB43_14:
	add	x12, x8, x25
	and	x10, x20, #0x18
	and	x9, x20, #0xffffffffffffffe0
	add	x11, x21, #16
	add	x12, x12, #16
	and	x13, x20, #0xffffffffffffffe0
.LBB43_15:
	ldp	q0, q1, [x11, #-16]
	subs	x13, x13, #32
	add	x11, x11, #32
	stp	q0, q1, [x12, #-16]
	add	x12, x12, #32
	b.ne	.LBB43_15
	cmp	x20, x9
	b.eq	.LBB43_24
	cbz	x10, .LBB43_9
.LBB43_18:
	mov	x11, x9
	and	x9, x20, #0xfffffffffffffff8
	add	x12, x8, x11
	sub	x10, x11, x9
	add	x11, x21, x11
	add	x12, x25, x12
.LBB43_19:
	ldr	d0, [x11], #8
	adds	x10, x10, #8
	str	d0, [x12], #8
	b.ne	.LBB43_19
	cmp	x20, x9
	b.eq	.LBB43_24
	b	.LBB43_9
.LBB43_21:
	sub	x0, x29, #152
	mov	x1, x20
	bl	"std_alloc::vec::Vec::grow_amortized::<#96e799293a27154c>"
	cbz	w0, .LBB43_28
	ldp	x8, x26, [x29, #-144]
	ldur	x25, [x29, #-152]
	add	x0, x25, x8
	sub	x23, x29, #152
	add	x27, x8, x20
	sub	x9, x0, x21
	cmp	x9, x20
	b.lo	.LBB43_6
.LBB43_23:
	mov	x1, x21
	mov	x2, x20
	bl	memmove
.LBB43_24:
	mov	w8, #32
	mov	x9, #-1
	stp	x25, x27, [x29, #-152]
	stur	w8, [x29, #-128]
	ldur	x8, [x29, #-104]
	stur	x26, [x29, #-136]
	stur	xzr, [x23, #28]
	stur	wzr, [x23, #36]
	stur	x9, [x29, #-112]
	cbnz	x8, .LBB43_42
	cmp	x26, x27
	b.eq	.LBB43_43
.LBB43_26:
	mov	w8, #10
	strb	w8, [x25, x27]
	add	x8, x27, #1
	stur	x26, [x29, #-136]
	stp	x25, x8, [x29, #-152]
.LBB43_27:
	sub	x0, x29, #152
	add	x1, x24, #32
	bl	"core::fmt::formatter::Formatter::write_piece::<#3db6c1e76299e001>"
	and	w8, w0, #0xff
	tbz	w8, #0, .LBB43_31
.LBB43_28:
	ldur	x8, [x29, #-136]
	cbz	x8, .LBB43_30
	ldur	x0, [x29, #-152]
	bl	rattle_dealloc
.LBB43_30:
	mov	w20, #1
	b	.LBB43_66
.LBB43_31:
	mov	w8, #32
	ldur	x9, [x29, #-104]
	stur	xzr, [x23, #28]
	stur	w8, [x29, #-128]
	mov	x8, #-1
	stur	wzr, [x23, #36]
	stur	x8, [x29, #-112]
	cbnz	x9, .LBB43_47
	ldp	x9, x8, [x29, #-144]
	cmp	x8, x9
	b.eq	.LBB43_48
.LBB43_33:
	ldur	x10, [x29, #-152]
	add	x11, x9, #1
	mov	w12, #10
	strb	w12, [x10, x9]
	stp	x11, x8, [x29, #-144]
.LBB43_34:
	ldp	x1, x2, [x29, #-216]
	mov	w8, #32
	ldur	x10, [x29, #-104]
	mov	x9, #-1
	stur	xzr, [x23, #28]
	stur	w8, [x29, #-128]
	stur	wzr, [x23, #36]
	stur	x9, [x29, #-112]
	cbnz	x10, .LBB43_50
	ldp	x8, x20, [x29, #-144]
	sub	x9, x20, x8
	cmp	x2, x9
	b.hi	.LBB43_58
	ldur	x9, [x29, #-152]
	add	x21, x8, x2
	add	x0, x9, x8
	sub	x10, x0, x1
	cmp	x10, x2
	b.hs	.LBB43_60
.LBB43_37:
	cmp	x2, #8
	b.lo	.LBB43_39
	add	x10, x8, x9
	sub	x10, x10, x1
	cmp	x10, #32
	b.hs	.LBB43_45
.LBB43_39:
	mov	x10, xzr
.LBB43_40:
	add	x11, x10, x8
	sub	x8, x2, x10
	add	x10, x1, x10
	add	x9, x9, x11
.LBB43_41:
	ldrb	w11, [x10], #1
	subs	x8, x8, #1
	strb	w11, [x9], #1
	b.ne	.LBB43_41
	b	.LBB43_61
.LBB43_42:
	adrp	x1, .Lstatic.15
	add	x1, x1, :lo12:.Lstatic.15
	sub	x0, x29, #152
	mov	w2, #1
	bl	"core::fmt::formatter::Formatter::write_indented::<#b0033b4612f562a6>"
	and	w8, w0, #0xff
	tbnz	w8, #0, .LBB43_28
	b	.LBB43_27
.LBB43_43:
	sub	x0, x29, #152
	mov	w1, #1
	bl	"std_alloc::vec::Vec::grow_amortized::<#96e799293a27154c>"
	cbz	w0, .LBB43_28
	ldp	x27, x26, [x29, #-144]
	ldur	x25, [x29, #-152]
	b	.LBB43_26
.LBB43_45:
	cmp	x2, #32
	b.hs	.LBB43_51
	mov	x10, xzr
	b	.LBB43_55
.LBB43_47:
	adrp	x1, .Lstatic.15
	add	x1, x1, :lo12:.Lstatic.15
	sub	x0, x29, #152
	mov	w2, #1
	bl	"core::fmt::formatter::Formatter::write_indented::<#b0033b4612f562a6>"
	and	w8, w0, #0xff
	tbnz	w8, #0, .LBB43_28
	b	.LBB43_34
.LBB43_48:
	sub	x0, x29, #152
	mov	w1, #1
	bl	"std_alloc::vec::Vec::grow_amortized::<#96e799293a27154c>"
	cbz	w0, .LBB43_28
	ldp	x9, x8, [x29, #-144]
	b	.LBB43_33
.LBB43_50:
	sub	x0, x29, #152
	bl	"core::fmt::formatter::Formatter::write_indented::<#b0033b4612f562a6>"
	and	w8, w0, #0xff
	tbnz	w8, #0, .LBB43_28
	b	.LBB43_62
.LBB43_51:
	add	x13, x8, x9
	and	x11, x2, #0x18
	and	x10, x2, #0xffffffffffffffe0
	add	x12, x1, #16
	add	x13, x13, #16
	and	x14, x2, #0xffffffffffffffe0
.LBB43_52:
	ldp	q0, q1, [x12, #-16]
	subs	x14, x14, #32
	add	x12, x12, #32
	stp	q0, q1, [x13, #-16]
	add	x13, x13, #32
	b.ne	.LBB43_52
	cmp	x2, x10
	b.eq	.LBB43_61
	cbz	x11, .LBB43_40
.LBB43_55:
	mov	x12, x10
	and	x10, x2, #0xfffffffffffffff8
	add	x13, x8, x12
	sub	x11, x12, x10
	add	x12, x1, x12
	add	x13, x9, x13
.LBB43_56:
	ldr	d0, [x12], #8
	adds	x11, x11, #8
	str	d0, [x13], #8
	b.ne	.LBB43_56
	cmp	x2, x10
	b.eq	.LBB43_61
	b	.LBB43_40
.LBB43_58:
	mov	x21, x1
	sub	x0, x29, #152
	mov	x1, x2
	mov	x24, x2
	bl	"std_alloc::vec::Vec::grow_amortized::<#96e799293a27154c>"
	cbz	w0, .LBB43_28
	ldp	x8, x20, [x29, #-144]
	mov	x1, x21
	mov	x2, x24
	ldur	x9, [x29, #-152]
	add	x21, x8, x24
	add	x0, x9, x8
	sub	x10, x0, x1
	cmp	x10, x24
	b.lo	.LBB43_37
.LBB43_60:
	bl	memmove
.LBB43_61:
	stp	x21, x20, [x29, #-144]
.LBB43_62:
	mov	w8, #32
	ldur	x9, [x29, #-104]
	stur	xzr, [x23, #28]
	stur	w8, [x29, #-128]
	mov	x8, #-1
	stur	wzr, [x23, #36]
	stur	x8, [x29, #-112]
	cbnz	x9, .LBB43_70
	ldp	x9, x8, [x29, #-144]
	cmp	x8, x9
	b.eq	.LBB43_71
.LBB43_64:
	ldur	x10, [x29, #-152]
	add	x11, x9, #1
	mov	w12, #10
	strb	w12, [x10, x9]
	stp	x11, x8, [x29, #-144]
.LBB43_65:
	ldr	q0, [x22, #64]
	ldur	x8, [x29, #-136]
	mov	w20, wzr
	stur	q0, [x22, #39]
	stur	x8, [x22, #55]
.LBB43_66:
	ldur	q0, [x22, #39]
	ldur	x8, [x22, #55]
	mov	x10, sp
	ldur	x9, [x29, #-200]
	orr	x21, x10, #0x7
	stur	q0, [sp, #7]
	stur	x8, [sp, #23]
	cbz	x9, .LBB43_68
	ldur	x0, [x29, #-216]
	bl	rattle_dealloc
.LBB43_68:
	ldr	q0, [x21]
	ldr	x8, [x21, #16]
	strb	w20, [x19]
	stur	q0, [x19, #8]
	str	x8, [x19, #24]
.LBB43_69:
	add	sp, sp, #576
	ldp	x20, x19, [sp, #80]
	ldp	x22, x21, [sp, #64]
	ldp	x24, x23, [sp, #48]
	ldp	x26, x25, [sp, #32]
	ldp	x28, x27, [sp, #16]
	ldp	x29, x30, [sp], #96
	ret
.LBB43_70:
	adrp	x1, .Lstatic.15
	add	x1, x1, :lo12:.Lstatic.15
	sub	x0, x29, #152
	mov	w2, #1
	bl	"core::fmt::formatter::Formatter::write_indented::<#b0033b4612f562a6>"
	and	w8, w0, #0xff
	tbnz	w8, #0, .LBB43_28
	b	.LBB43_65
.LBB43_71:
	sub	x0, x29, #152
	mov	w1, #1
	bl	"std_alloc::vec::Vec::grow_amortized::<#96e799293a27154c>"
	tbz	w0, #0, .LBB43_28
	ldp	x9, x8, [x29, #-144]
	b	.LBB43_64
.LBB43_73:
	mov	w8, #44
	sub	x0, x29, #152
	stp	x23, x8, [x29, #-152]
	stur	x8, [x29, #-136]
	bl	"std_alloc::vec::Vec::drop::<#f804577450a179d9>"
	brk	#0x1
.Lfunc_end43:
	.size	"ct_checkpoint::checkpoint::write_checkpoint", .Lfunc_end43-"ct_checkpoint::checkpoint::write_checkpoint"
	.section	".text.core::fmt::formatter::Formatter::write_piece::<#3db6c1e76299e001>","ax",@progbits
	.p2align	2
	.type	"core::fmt::formatter::Formatter::write_piece::<#3db6c1e76299e001>",@function
"core::fmt::formatter::Formatter::write_piece::<#3db6c1e76299e001>":
	sub	sp, sp, #80
	mov	w8, #32
	stur	xzr, [x0, #28]
	str	w8, [x0, #24]
	mov	x8, #-1
	str	wzr, [x0, #36]
	str	x8, [x0, #40]
	ldr	x8, [x1]
	stp	x20, x19, [sp, #64]
	mov	x19, x0
	stp	x29, x30, [sp, #32]
	add	x29, sp, #32
	ldr	x8, [x8]
	stp	x22, x21, [sp, #48]
	stp	xzr, xzr, [sp, #8]
	cmp	x8, #100
	str	xzr, [sp, #24]
	b.lo	.LBB44_5
	mov	x9, xzr
.LBB44_2:
	mov	x11, #62915
	mov	x10, x8
	lsr	x8, x8, #2
	movk	x11, #23592, lsl #16
	mov	w12, #205
	movk	x11, #49807, lsl #32
	movk	x11, #10485, lsl #48
	umulh	x8, x8, x11
	mov	w11, #100
	lsr	x8, x8, #2
	msub	w11, w8, w11, w10
	lsr	x10, x10, #4
	cmp	x10, #624
	and	w13, w11, #0xff
	mul	w12, w13, w12
	mov	w13, #10
	lsr	w12, w12, #11
	msub	w11, w12, w13, w11
	add	x13, sp, #8
	orr	w10, w12, #0x30
	add	x13, x13, x9
	sub	x9, x9, #2
	strb	w10, [x13, #22]
	orr	w11, w11, #0x30
	strb	w11, [x13, #23]
	b.hi	.LBB44_2
	add	x9, x9, #24
	cmp	x8, #10
	b.hs	.LBB44_6
.LBB44_4:
	sub	x9, x9, #1
	add	x10, sp, #8
	orr	w8, w8, #0x30
	strb	w8, [x10, x9]
	b	.LBB44_7
.LBB44_5:
	mov	w9, #24
	cmp	x8, #10
	b.lo	.LBB44_4
.LBB44_6:
	and	w10, w8, #0xff
	mov	w11, #205
	mul	w10, w10, w11
	mov	w11, #10
	lsr	w10, w10, #11
	msub	w8, w10, w11, w8
	add	x11, sp, #8
	orr	w10, w10, #0x30
	add	x11, x11, x9
	sub	x9, x9, #2
	sturb	w10, [x11, #-2]
	orr	w8, w8, #0x30
	sturb	w8, [x11, #-1]
.LBB44_7:
	add	x8, sp, #8
	ldr	x10, [x19, #48]
	mov	w11, #24
	add	x1, x8, x9
	mov	w8, #45
	sub	x2, x11, x9
	sturb	w8, [x1, #-1]
	cbnz	x10, .LBB44_10
	ldp	x8, x20, [x19, #8]
	sub	x9, x20, x8
	cmp	x2, x9
	b.hi	.LBB44_11
.LBB44_9:
	ldr	x21, [x19]
	add	x22, x8, x2
	add	x0, x21, x8
	bl	memcpy
	mov	w0, wzr
	stp	x21, x22, [x19]
	str	x20, [x19, #16]
	ldp	x20, x19, [sp, #64]
	ldp	x22, x21, [sp, #48]
	ldp	x29, x30, [sp, #32]
	add	sp, sp, #80
	ret
.LBB44_10:
	mov	x0, x19
	bl	"core::fmt::formatter::Formatter::write_indented::<#b0033b4612f562a6>"
	and	w0, w0, #0xff
	ldp	x20, x19, [sp, #64]
	ldp	x22, x21, [sp, #48]
	ldp	x29, x30, [sp, #32]
	add	sp, sp, #80
	ret
.LBB44_11:
	mov	x21, x1
	mov	x0, x19
	mov	x1, x2
	mov	x22, x2
	bl	"std_alloc::vec::Vec::grow_amortized::<#96e799293a27154c>"
	cbz	w0, .LBB44_13
	ldp	x8, x20, [x19, #8]
	mov	x1, x21
	mov	x2, x22
	b	.LBB44_9
.LBB44_13:
	mov	w0, #1
	ldp	x20, x19, [sp, #64]
	ldp	x22, x21, [sp, #48]
	ldp	x29, x30, [sp, #32]
	add	sp, sp, #80
	ret
.Lfunc_end44:
	.size	"core::fmt::formatter::Formatter::write_piece::<#3db6c1e76299e001>", .Lfunc_end44-"core::fmt::formatter::Formatter::write_piece::<#3db6c1e76299e001>"
	.section	".text.unlikely.std_alloc::vec::Vec::grow_amortized::<#96e799293a27154c>","ax",@progbits
	.p2align	2
	.type	"std_alloc::vec::Vec::grow_amortized::<#96e799293a27154c>",@function
"std_alloc::vec::Vec::grow_amortized::<#96e799293a27154c>":
	ldr	x8, [x0, #8]
	cmn	x8, x1
	b.lo	.LBB45_2
	mov	w0, wzr
	ret
.LBB45_2:
	stp	x29, x30, [sp, #-32]!
	ldr	x10, [x0, #16]
	add	x9, x8, x1
	mov	w11, #8
	cmp	x9, #8
	stp	x20, x19, [sp, #16]
	mov	x29, sp
	lsl	x12, x10, #1
	csel	x11, x9, x11, hi
	lsr	x13, x10, #62
	cmp	x11, x12
	csel	x9, x11, x12, hi
	cmp	x13, #0
	csel	x19, x9, x11, eq
	tbnz	x19, #63, .LBB45_7
	cbz	x10, .LBB45_6
	mov	x20, x0
	ldr	x0, [x0]
	mov	x1, x8
	mov	x2, x19
	mov	w3, #1
	bl	rattle_realloc
	tbz	w0, #0, .LBB45_7
.LBB45_5:
	mov	w0, #1
	str	x1, [x20]
	str	x19, [x20, #16]
	ldp	x20, x19, [sp, #16]
	ldp	x29, x30, [sp], #32
	ret
.LBB45_6:
	mov	x20, x0
	mov	x0, x9
	mov	w1, #1
	bl	rattle_alloc
	tbnz	w0, #0, .LBB45_5
.LBB45_7:
	mov	w0, wzr
	ldp	x20, x19, [sp, #16]
	ldp	x29, x30, [sp], #32
	ret
.Lfunc_end45:
	.size	"std_alloc::vec::Vec::grow_amortized::<#96e799293a27154c>", .Lfunc_end45-"std_alloc::vec::Vec::grow_amortized::<#96e799293a27154c>"
	.section	".text.unlikely.core::fmt::formatter::Formatter::write_indented::<#b0033b4612f562a6>","ax",@progbits
	.p2align	2
	.type	"core::fmt::formatter::Formatter::write_indented::<#b0033b4612f562a6>",@function
"core::fmt::formatter::Formatter::write_indented::<#b0033b4612f562a6>":
	stp	x29, x30, [sp, #-80]!
	str	x25, [sp, #16]
	mov	x29, sp
	stp	x24, x23, [sp, #32]
	stp	x22, x21, [sp, #48]
	stp	x20, x19, [sp, #64]
	cbz	x2, .LBB46_16
	mov	x21, x2
	mov	x20, x1
	mov	x19, x0
	mov	x8, xzr
	mov	x24, xzr
	b	.LBB46_4
.LBB46_2:
	mov	w23, #1
	add	x1, x20, x25
	mov	x0, x19
	mov	x2, x22
	strb	w23, [x19, #56]
	bl	"core::fmt::formatter::Formatter::write_raw::<#b0033b4612f562a6>"
	and	w9, w0, #0xff
	mov	x8, x24
	tbnz	w9, #0, .LBB46_18
.LBB46_3:
	cmp	x24, x21
	b.eq	.LBB46_10
.LBB46_4:
	ldrb	w10, [x20, x24]
	mov	x9, x24
	add	x24, x24, #1
	cmp	w10, #10
	b.ne	.LBB46_3
	subs	x22, x24, x8
	csel	x25, xzr, x8, lo
	cmp	x8, x9
	mov	x8, x24
	b.hi	.LBB46_3
	ldrb	w8, [x19, #56]
	cmp	w8, #1
	b.ne	.LBB46_2
	ldr	x23, [x19, #48]
	cbz	x23, .LBB46_2
.LBB46_8:
	adrp	x1, .Lstatic.16
	add	x1, x1, :lo12:.Lstatic.16
	mov	x0, x19
	mov	w2, #4
	bl	"core::fmt::formatter::Formatter::write_raw::<#b0033b4612f562a6>"
	and	w8, w0, #0xff
	tbnz	w8, #0, .LBB46_17
	subs	x23, x23, #1
	b.ne	.LBB46_8
	b	.LBB46_2
.LBB46_10:
	cmp	x8, x21
	csel	x22, xzr, x8, hi
	subs	x8, x21, x8
	csel	x21, xzr, x8, lo
	b.ls	.LBB46_16
	ldrb	w8, [x19, #56]
	cmp	w8, #1
	b.ne	.LBB46_15
	ldr	x23, [x19, #48]
	cbz	x23, .LBB46_15
.LBB46_13:
	adrp	x1, .Lstatic.16
	add	x1, x1, :lo12:.Lstatic.16
	mov	x0, x19
	mov	w2, #4
	bl	"core::fmt::formatter::Formatter::write_raw::<#b0033b4612f562a6>"
	and	w8, w0, #0xff
	tbnz	w8, #0, .LBB46_17
	subs	x23, x23, #1
	b.ne	.LBB46_13
.LBB46_15:
	add	x1, x20, x22
	mov	x0, x19
	mov	x2, x21
	strb	wzr, [x19, #56]
	ldp	x20, x19, [sp, #64]
	ldp	x22, x21, [sp, #48]
	ldr	x25, [sp, #16]
	ldp	x24, x23, [sp, #32]
	ldp	x29, x30, [sp], #80
	b	"core::fmt::formatter::Formatter::write_raw::<#b0033b4612f562a6>"
.LBB46_16:
	mov	w23, wzr
	b	.LBB46_18
.LBB46_17:
	mov	w23, #1
.LBB46_18:
	mov	w0, w23
	ldp	x20, x19, [sp, #64]
	ldp	x22, x21, [sp, #48]
	ldr	x25, [sp, #16]
	ldp	x24, x23, [sp, #32]
	ldp	x29, x30, [sp], #80
	ret
.Lfunc_end46:
	.size	"core::fmt::formatter::Formatter::write_indented::<#b0033b4612f562a6>", .Lfunc_end46-"core::fmt::formatter::Formatter::write_indented::<#b0033b4612f562a6>"
	.section	".text.core::fmt::formatter::Formatter::write_raw::<#b0033b4612f562a6>","ax",@progbits
	.p2align	2
	.type	"core::fmt::formatter::Formatter::write_raw::<#b0033b4612f562a6>",@function
"core::fmt::formatter::Formatter::write_raw::<#b0033b4612f562a6>":
	cbz	x2, .LBB47_21
	mov	x9, xzr
	b	.LBB47_4
.LBB47_2:
	mov	w8, #1
.LBB47_3:
	add	x9, x8, x9
	cmp	x9, x2
	b.hs	.LBB47_21
.LBB47_4:
	ldrsb	w8, [x1, x9]
	tbz	w8, #31, .LBB47_2
	add	x10, x9, #1
	cmp	x2, x10
	b.ls	.LBB47_28
	ldrsb	w11, [x1, x10]
	tbz	w11, #31, .LBB47_28
	and	w10, w8, #0xff
	cmn	w11, #64
	mov	w8, #-64
	csel	w11, w11, w8, lo
	cmp	w10, #194
	mov	w8, #1
	b.lo	.LBB47_32
	and	w11, w11, #0x7f
	cmp	w11, #63
	b.hi	.LBB47_32
	cmp	w10, #224
	b.hs	.LBB47_11
	mov	w8, #2
	b	.LBB47_3
.LBB47_11:
	add	x8, x9, #2
	cmp	x2, x8
	b.ls	.LBB47_28
	ldrsb	w8, [x1, x8]
	cmn	w8, #65
	b.gt	.LBB47_28
	cmp	w10, #239
	b.hi	.LBB47_17
	lsl	w8, w10, #12
	add	w8, w8, w11, lsl #6
	sub	w8, w8, #224, lsl #12
	cmp	w8, #2048
	b.lo	.LBB47_28
	lsr	w8, w8, #11
	cmp	w8, #27
	mov	w8, #3
	b.lo	.LBB47_3
	cmp	w10, #238
	b.hs	.LBB47_3
	b	.LBB47_28
.LBB47_17:
	add	x8, x9, #3
	cmp	x2, x8
	b.ls	.LBB47_28
	ldrsb	w8, [x1, x8]
	cmn	w8, #65
	b.gt	.LBB47_28
	lsl	w8, w10, #18
	mov	w10, #-62980096
	add	w8, w8, w11, lsl #12
	add	w8, w8, w10
	lsr	w8, w8, #20
	cbnz	w8, .LBB47_28
	mov	w8, #4
	b	.LBB47_3
.LBB47_21:
	stp	x29, x30, [sp, #-48]!
	stp	x22, x21, [sp, #16]
	mov	x22, x0
	mov	x29, sp
	stp	x20, x19, [sp, #32]
	ldp	x9, x19, [x22, #8]!
	sub	x8, x19, x9
	cmp	x2, x8
	b.hi	.LBB47_42
.LBB47_22:
	ldr	x20, [x0]
	add	x21, x9, x2
	stp	xzr, xzr, [x22]
	add	x8, x20, x9
	sub	x10, x8, x1
	cmp	x10, x2
	b.hs	.LBB47_29
	cmp	x2, #8
	b.lo	.LBB47_25
	add	x8, x9, x20
	sub	x8, x8, x1
	cmp	x8, #32
	b.hs	.LBB47_33
.LBB47_25:
	mov	x8, xzr
.LBB47_26:
	add	x10, x8, x9
	sub	x9, x2, x8
	add	x8, x1, x8
	add	x10, x20, x10
.LBB47_27:
	ldrb	w11, [x8], #1
	subs	x9, x9, #1
	strb	w11, [x10], #1
	b.ne	.LBB47_27
	b	.LBB47_30
.LBB47_28:
	mov	w0, #1
	ret
.LBB47_29:
	mov	x22, x0
	mov	x0, x8
	bl	memmove
	mov	x0, x22
.LBB47_30:
	mov	w8, wzr
	stp	x20, x21, [x0]
	str	x19, [x0, #16]
.LBB47_31:
	ldp	x20, x19, [sp, #32]
	ldp	x22, x21, [sp, #16]
	ldp	x29, x30, [sp], #48
.LBB47_32:
	mov	w0, w8
	ret
.LBB47_33:
	cmp	x2, #32
	b.hs	.LBB47_35
	mov	x8, xzr
	b	.LBB47_39
.LBB47_35:
	add	x12, x9, x20
	and	x10, x2, #0x18
	and	x8, x2, #0xffffffffffffffe0
	add	x11, x1, #16
	add	x12, x12, #16
	and	x13, x2, #0xffffffffffffffe0
.LBB47_36:
	ldp	q0, q1, [x11, #-16]
	subs	x13, x13, #32
	add	x11, x11, #32
	stp	q0, q1, [x12, #-16]
	add	x12, x12, #32
	b.ne	.LBB47_36
	cmp	x2, x8
	b.eq	.LBB47_30
	cbz	x10, .LBB47_26
.LBB47_39:
	mov	x11, x8
	and	x8, x2, #0xfffffffffffffff8
	add	x12, x9, x11
	sub	x10, x11, x8
	add	x11, x1, x11
	add	x12, x20, x12
.LBB47_40:
	ldr	d0, [x11], #8
	adds	x10, x10, #8
	str	d0, [x12], #8
	b.ne	.LBB47_40
	cmp	x2, x8
	b.eq	.LBB47_30
	b	.LBB47_26
.LBB47_42:
	mov	x20, x1
	mov	x1, x2
	mov	x19, x0
	mov	x21, x2
	bl	"std_alloc::vec::Vec::grow_amortized::<#96e799293a27154c>"
	cbz	w0, .LBB47_44
	mov	x0, x19
	ldp	x9, x19, [x19, #8]
	mov	x2, x21
	mov	x1, x20
	b	.LBB47_22
.LBB47_44:
	mov	w8, #1
	b	.LBB47_31
.Lfunc_end47:
	.size	"core::fmt::formatter::Formatter::write_raw::<#b0033b4612f562a6>", .Lfunc_end47-"core::fmt::formatter::Formatter::write_raw::<#b0033b4612f562a6>"
	.section	.rodata.cst16,"aM",@progbits,16
	.p2align	4, 0x0
.LCPI48_0:
	.byte	1
	.byte	2
	.byte	4
	.byte	8
	.byte	16
	.byte	32
	.byte	64
	.byte	128
	.byte	1
	.byte	2
	.byte	4
	.byte	8
	.byte	16
	.byte	32
	.byte	64
	.byte	128
	.section	".text.core::cmp::bytes::equal","ax",@progbits
	.p2align	2
	.type	"core::cmp::bytes::equal",@function
"core::cmp::bytes::equal":
	cmp	x1, x3
	b.ne	.LBB48_4
	cmp	x1, #7
	b.hi	.LBB48_5
	subs	x8, x1, #4
	b.lo	.LBB48_7
	ldr	w9, [x0]
	ldr	w10, [x0, x8]
	ldr	w11, [x2]
	ldr	w8, [x2, x8]
	orr	x9, x9, x10, lsl #32
	orr	x10, x11, x8, lsl #32
	rev	x8, x9
	rev	x9, x10
	cmp	x8, x9
	cset	w0, eq
	ret
.LBB48_4:
	mov	w0, wzr
	ret
.LBB48_5:
	cmp	x1, #32
	b.hi	.LBB48_9
	sub	x8, x1, #8
	mov	w11, #8
	ldr	x9, [x0]
	cmp	x8, #8
	ldr	x10, [x2]
	mov	w12, #16
	csel	x11, x8, x11, lo
	cmp	x8, #16
	csel	x12, x8, x12, lo
	ldr	x13, [x0, x11]
	ldr	x11, [x2, x11]
	cmp	x9, x10
	ldr	x9, [x0, x12]
	ldr	x10, [x2, x12]
	ccmp	x13, x11, #0, eq
	ldr	x11, [x0, x8]
	ldr	x8, [x2, x8]
	ccmp	x9, x10, #0, eq
	ccmp	x11, x8, #0, eq
	cset	w0, eq
	ret
.LBB48_7:
	cbz	x1, .LBB48_14
	ldrb	w8, [x0]
	lsr	x9, x1, #1
	ldrb	w10, [x2]
	sub	x12, x1, #1
	ldrb	w11, [x0, x9]
	lsl	x8, x8, #16
	ldrb	w9, [x2, x9]
	lsl	x10, x10, #16
	orr	x8, x8, x11, lsl #8
	ldrb	w11, [x0, x12]
	orr	x9, x10, x9, lsl #8
	ldrb	w10, [x2, x12]
	orr	x8, x8, x11
	orr	x9, x9, x10
	cmp	x8, x9
	cset	w0, eq
	ret
.LBB48_9:
	cmp	x1, #65
	mov	x8, x0
	mov	x9, x2
	mov	x10, x1
	b.hs	.LBB48_11
	ldp	q0, q2, [x0]
	sub	x8, x1, #16
	ldp	q1, q3, [x2]
	adrp	x9, .LCPI48_0
	mov	w10, #32
	cmp	x8, #32
	ldr	q5, [x2, x8]
	cmeq	v0.16b, v0.16b, v1.16b
	ldr	q1, [x9, :lo12:.LCPI48_0]
	cmeq	v2.16b, v2.16b, v3.16b
	csel	x9, x8, x10, lo
	ldr	q3, [x0, x9]
	ldr	q4, [x2, x9]
	bic	v0.16b, v1.16b, v0.16b
	bic	v2.16b, v1.16b, v2.16b
	cmeq	v3.16b, v3.16b, v4.16b
	ldr	q4, [x0, x8]
	addp	v0.16b, v0.16b, v0.16b
	cmeq	v4.16b, v4.16b, v5.16b
	addp	v2.16b, v2.16b, v2.16b
	bic	v3.16b, v1.16b, v3.16b
	addp	v0.16b, v0.16b, v0.16b
	bic	v1.16b, v1.16b, v4.16b
	addp	v2.16b, v2.16b, v2.16b
	addp	v3.16b, v3.16b, v3.16b
	addp	v0.16b, v0.16b, v0.16b
	addp	v2.16b, v2.16b, v2.16b
	addp	v1.16b, v1.16b, v1.16b
	addp	v3.16b, v3.16b, v3.16b
	orr	v0.16b, v2.16b, v0.16b
	addp	v1.16b, v1.16b, v1.16b
	addp	v2.16b, v3.16b, v3.16b
	addp	v1.16b, v1.16b, v1.16b
	orr	v0.16b, v0.16b, v2.16b
	orr	v0.16b, v0.16b, v1.16b
	umov	w8, v0.h[0]
	tst	w8, #0xffff
	cset	w8, ne
	eor	w0, w8, #0x1
	ret
.LBB48_11:
	ldp	q0, q6, [x8]
	adrp	x11, .LCPI48_0
	ldp	q1, q2, [x8, #32]
	ldp	q3, q7, [x9]
	ldp	q5, q4, [x9, #32]
	cmeq	v3.16b, v0.16b, v3.16b
	ldr	q0, [x11, :lo12:.LCPI48_0]
	cmeq	v2.16b, v2.16b, v4.16b
	cmeq	v1.16b, v1.16b, v5.16b
	cmeq	v4.16b, v6.16b, v7.16b
	bic	v3.16b, v0.16b, v3.16b
	bic	v4.16b, v0.16b, v4.16b
	bic	v1.16b, v0.16b, v1.16b
	bic	v2.16b, v0.16b, v2.16b
	addp	v3.16b, v3.16b, v4.16b
	addp	v1.16b, v1.16b, v2.16b
	addp	v1.16b, v3.16b, v1.16b
	addp	v1.16b, v1.16b, v1.16b
	fmov	x11, d1
	cbnz	x11, .LBB48_15
	sub	x10, x10, #64
	add	x9, x9, #64
	add	x8, x8, #64
	cmp	x10, #65
	b.hs	.LBB48_11
	sub	x8, x1, #64
	add	x9, x0, x8
	add	x8, x2, x8
	ldp	q1, q2, [x9]
	ldp	q3, q4, [x9, #32]
	ldp	q5, q6, [x8]
	ldp	q7, q16, [x8, #32]
	cmeq	v1.16b, v1.16b, v5.16b
	cmeq	v2.16b, v2.16b, v6.16b
	cmeq	v4.16b, v4.16b, v16.16b
	cmeq	v3.16b, v3.16b, v7.16b
	bic	v1.16b, v0.16b, v1.16b
	bic	v2.16b, v0.16b, v2.16b
	bic	v3.16b, v0.16b, v3.16b
	bic	v0.16b, v0.16b, v4.16b
	addp	v1.16b, v1.16b, v2.16b
	addp	v0.16b, v3.16b, v0.16b
	addp	v0.16b, v1.16b, v0.16b
	addp	v0.16b, v0.16b, v0.16b
	fmov	x8, d0
	cmp	x8, #0
	cset	w8, ne
	eor	w0, w8, #0x1
	ret
.LBB48_14:
	cmp	xzr, xzr
	cset	w0, eq
	ret
.LBB48_15:
	mov	w8, #1
	eor	w0, w8, #0x1
	ret
.Lfunc_end48:
	.size	"core::cmp::bytes::equal", .Lfunc_end48-"core::cmp::bytes::equal"
	.section	".text.unlikely.std_alloc::vec::Vec::grow_amortized::<#2ae5f53fc13d7637>","ax",@progbits
	.p2align	2
	.type	"std_alloc::vec::Vec::grow_amortized::<#2ae5f53fc13d7637>",@function
"std_alloc::vec::Vec::grow_amortized::<#2ae5f53fc13d7637>":
	ldr	x8, [x0, #8]
	cmn	x8, #1
	b.eq	.LBB49_5
	stp	x29, x30, [sp, #-32]!
	ldr	x9, [x0, #16]
	cmp	x8, #3
	mov	w10, #3
	csel	x11, x8, x10, hi
	stp	x20, x19, [sp, #16]
	mov	x29, sp
	lsl	x10, x9, #1
	add	x12, x11, #1
	lsr	x13, x9, #62
	cmp	x12, x10
	csinc	x10, x10, x11, ls
	cmp	x13, #0
	csinc	x19, x10, x11, eq
	lsr	x11, x19, #58
	cbnz	x11, .LBB49_7
	cbz	x9, .LBB49_6
	mov	x20, x0
	ldr	x0, [x0]
	lsl	x1, x8, #5
	lsl	x2, x19, #5
	mov	w3, #1
	bl	rattle_realloc
	tbz	w0, #0, .LBB49_7
.LBB49_4:
	mov	w0, #1
	str	x1, [x20]
	str	x19, [x20, #16]
	ldp	x20, x19, [sp, #16]
	ldp	x29, x30, [sp], #32
	ret
.LBB49_5:
	mov	w0, wzr
	ret
.LBB49_6:
	mov	x20, x0
	lsl	x0, x10, #5
	mov	w1, #1
	bl	rattle_alloc
	tbnz	w0, #0, .LBB49_4
.LBB49_7:
	mov	w0, wzr
	ldp	x20, x19, [sp, #16]
	ldp	x29, x30, [sp], #32
	ret
.Lfunc_end49:
	.size	"std_alloc::vec::Vec::grow_amortized::<#2ae5f53fc13d7637>", .Lfunc_end49-"std_alloc::vec::Vec::grow_amortized::<#2ae5f53fc13d7637>"
	.section	.rodata.cst16,"aM",@progbits,16
	.p2align	4, 0x0
.LCPI50_0:
	.word	1779033703
	.word	3144134277
	.word	1013904242
	.word	2773480762
.LCPI50_1:
	.word	1359893119
	.word	2600822924
	.word	528734635
	.word	1541459225
	.section	".text.ct_tree::subtrees::root_of_subtrees::<#0f46d2847b2ce1ce>","ax",@progbits
	.p2align	2
	.type	"ct_tree::subtrees::root_of_subtrees::<#0f46d2847b2ce1ce>",@function
"ct_tree::subtrees::root_of_subtrees::<#0f46d2847b2ce1ce>":
	sub	sp, sp, #224
	stp	x20, x19, [sp, #208]
	mov	x19, x0
	stp	x29, x30, [sp, #176]
	add	x29, sp, #176
	str	x21, [sp, #192]
	cbz	x2, .LBB50_5
	subs	x20, x2, #1
	add	x8, x1, x20, lsl #5
	ldp	q0, q1, [x8]
	stp	q0, q1, [x29, #-64]
	b.eq	.LBB50_4
	add	x8, x1, x2, lsl #5
	sub	x21, x8, #64
.LBB50_3:
	movi	v0.2d, #0000000000000000
	adrp	x8, .Lstatic.8
	add	x8, x8, :lo12:.Lstatic.8
	mov	w9, #1
	sub	x0, x29, #32
	mov	x1, sp
	stp	x8, x9, [sp]
	mov	w8, #32
	sub	x9, x29, #64
	mov	w2, #3
	stp	x21, x8, [sp, #16]
	sub	x20, x20, #1
	stp	q0, q0, [x29, #-32]
	stp	x9, x8, [sp, #32]
	bl	"ct_tree::hash::Sha256HashNodeHash::hash"
	ldp	q0, q1, [x29, #-32]
	sub	x21, x21, #32
	stp	q0, q1, [x29, #-64]
	cbnz	x20, .LBB50_3
.LBB50_4:
	ldp	q0, q1, [x29, #-64]
	stp	q0, q1, [x19]
	ldp	x20, x19, [sp, #208]
	ldp	x29, x30, [sp, #176]
	ldr	x21, [sp, #192]
	add	sp, sp, #224
	ret
.LBB50_5:
	movi	v0.2d, #0000000000000000
	adrp	x8, .LCPI50_0
	adrp	x9, .LCPI50_1
	ldr	q1, [x8, :lo12:.LCPI50_0]
	ldr	q2, [x9, :lo12:.LCPI50_1]
	adrp	x1, .Lstatic.5
	add	x1, x1, :lo12:.Lstatic.5
	mov	x0, sp
	mov	w2, #56
	str	xzr, [sp, #96]
	stp	q1, q2, [sp]
	stp	q0, q0, [sp, #32]
	stp	q0, q0, [sp, #64]
	bl	"sha2::block256::Core256::update"
	mov	x0, sp
	sub	x1, x29, #32
	mov	w2, #8
	stur	xzr, [x29, #-32]
	bl	"sha2::block256::Core256::update"
	ldp	q0, q1, [sp]
	rev32	v0.16b, v0.16b
	rev32	v1.16b, v1.16b
	stp	q0, q1, [x19]
	ldp	x20, x19, [sp, #208]
	ldp	x29, x30, [sp, #176]
	ldr	x21, [sp, #192]
	add	sp, sp, #224
	ret
.Lfunc_end50:
	.size	"ct_tree::subtrees::root_of_subtrees::<#0f46d2847b2ce1ce>", .Lfunc_end50-"ct_tree::subtrees::root_of_subtrees::<#0f46d2847b2ce1ce>"
	.section	".text.ct_tiles::needed::needed","ax",@progbits
	.p2align	2
	.type	"ct_tiles::needed::needed",@function
"ct_tiles::needed::needed":
	sub	sp, sp, #112
	stp	x24, x23, [sp, #64]
	lsr	x23, x2, #8
	stp	x22, x21, [sp, #80]
	lsr	x22, x3, #8
	lsr	x21, x1, #8
	stp	x29, x30, [sp, #32]
	add	x29, sp, #32
	stp	x20, x19, [sp, #96]
	mov	x20, x4
	mov	x19, x0
	sub	x8, x29, #8
	cmp	x23, x22
	stp	x26, x25, [sp, #48]
	stp	xzr, xzr, [sp, #8]
	str	x8, [sp]
	b.hs	.LBB51_5
	cmp	x21, x23
	b.ne	.LBB51_5
	and	x8, x2, #0xffffffffffffff00
	ldp	x9, x10, [sp, #8]
	sub	x8, x20, x8
	mov	w11, #256
	cmp	x8, #256
	csel	x24, x8, x11, lo
	cmp	x10, x9
	b.eq	.LBB51_25
	sub	x8, x29, #8
.LBB51_4:
	mov	w10, #24
	madd	x10, x9, x10, x8
	add	x9, x9, #1
	str	x9, [sp, #8]
	stp	xzr, x23, [x10]
	str	x24, [x10, #16]
.LBB51_5:
	tst	x3, #0xff
	b.eq	.LBB51_7
	and	x9, x3, #0xffffffffffffff00
	sub	x9, x20, x9
	cmp	x9, #256
	mov	w10, #256
	csel	x24, x9, x10, lo
	ldp	x9, x10, [sp, #8]
	cmp	x10, x9
	b.ne	.LBB51_8
	b	.LBB51_23
.LBB51_7:
	sub	x9, x20, x3
	cmp	x9, #256
	mov	w10, #256
	csel	x24, x9, x10, lo
	ldp	x9, x10, [sp, #8]
	cmp	x10, x9
	b.eq	.LBB51_23
.LBB51_8:
	mov	w10, #24
	madd	x8, x9, x10, x8
	add	x9, x9, #1
	str	x24, [x8, #16]
	mov	w24, #1
	stp	xzr, x22, [x8]
	str	x9, [sp, #8]
	b	.LBB51_11
.LBB51_9:
	mov	w9, #24
	ldr	x10, [sp]
	madd	x9, x8, x9, x10
	add	x8, x8, #1
	str	x8, [sp, #8]
	stp	x24, x25, [x9]
	str	x22, [x9, #16]
.LBB51_10:
	add	x24, x24, #1
	mov	x23, x26
	mov	x22, x25
	cmp	x24, #8
	b.eq	.LBB51_21
.LBB51_11:
	lsr	x26, x23, #8
	lsr	x25, x22, #8
	lsr	x20, x20, #8
	lsr	x21, x21, #8
	cmp	x26, x25
	b.hs	.LBB51_15
	cmp	x21, x26
	b.ne	.LBB51_15
	and	x8, x23, #0xffffffffffff00
	mov	w11, #256
	sub	x9, x20, x8
	ldp	x8, x10, [sp, #8]
	cmp	x9, #256
	csel	x23, x9, x11, lo
	cmp	x10, x8
	b.eq	.LBB51_19
.LBB51_14:
	mov	w9, #24
	ldr	x10, [sp]
	madd	x9, x8, x9, x10
	add	x8, x8, #1
	str	x8, [sp, #8]
	stp	x24, x26, [x9]
	str	x23, [x9, #16]
.LBB51_15:
	tst	x22, #0xff
	b.eq	.LBB51_10
	and	x8, x22, #0xffffffffffff00
	mov	w11, #256
	sub	x9, x20, x8
	ldp	x8, x10, [sp, #8]
	cmp	x9, #256
	csel	x22, x9, x11, lo
	cmp	x10, x8
	b.ne	.LBB51_9
	mov	x0, sp
	bl	"std_alloc::vec::Vec::grow_amortized::<#e2882d26dc1c38e0>"
	cbz	w0, .LBB51_27
	ldr	x8, [sp, #8]
	b	.LBB51_9
.LBB51_19:
	mov	x0, sp
	bl	"std_alloc::vec::Vec::grow_amortized::<#e2882d26dc1c38e0>"
	cbz	w0, .LBB51_27
	ldr	x8, [sp, #8]
	b	.LBB51_14
.LBB51_21:
	ldr	q0, [sp]
	ldr	x8, [sp, #16]
	strb	wzr, [x19]
	stur	q0, [x19, #8]
	str	x8, [x19, #24]
.LBB51_22:
	ldp	x20, x19, [sp, #96]
	ldp	x22, x21, [sp, #80]
	ldp	x24, x23, [sp, #64]
	ldp	x26, x25, [sp, #48]
	ldp	x29, x30, [sp, #32]
	add	sp, sp, #112
	ret
.LBB51_23:
	mov	x0, sp
	bl	"std_alloc::vec::Vec::grow_amortized::<#e2882d26dc1c38e0>"
	cbz	w0, .LBB51_27
	ldp	x8, x9, [sp]
	b	.LBB51_8
.LBB51_25:
	mov	x0, sp
	mov	x25, x3
	bl	"std_alloc::vec::Vec::grow_amortized::<#e2882d26dc1c38e0>"
	cbz	w0, .LBB51_27
	ldp	x8, x9, [sp]
	mov	x3, x25
	b	.LBB51_4
.LBB51_27:
	ldr	x8, [sp, #16]
	cbz	x8, .LBB51_29
	ldr	x0, [sp]
	bl	rattle_dealloc
.LBB51_29:
	mov	w8, #1
	stp	xzr, xzr, [x19, #16]
	strb	w8, [x19]
	str	xzr, [x19, #8]
	b	.LBB51_22
.Lfunc_end51:
	.size	"ct_tiles::needed::needed", .Lfunc_end51-"ct_tiles::needed::needed"
	.section	".text.unlikely.std_alloc::vec::Vec::grow_amortized::<#e2882d26dc1c38e0>","ax",@progbits
	.p2align	2
	.type	"std_alloc::vec::Vec::grow_amortized::<#e2882d26dc1c38e0>",@function
"std_alloc::vec::Vec::grow_amortized::<#e2882d26dc1c38e0>":
	ldr	x8, [x0, #8]
	cmn	x8, #1
	b.eq	.LBB52_5
	stp	x29, x30, [sp, #-32]!
	ldr	x9, [x0, #16]
	cmp	x8, #3
	mov	w10, #3
	csel	x11, x8, x10, hi
	stp	x20, x19, [sp, #16]
	mov	x29, sp
	lsl	x10, x9, #1
	add	x12, x11, #1
	lsr	x13, x9, #62
	cmp	x12, x10
	csinc	x10, x10, x11, ls
	cmp	x13, #0
	csinc	x19, x10, x11, eq
	mov	x11, #6148914691236517205
	movk	x11, #1365, lsl #48
	cmp	x19, x11
	b.hi	.LBB52_7
	cbz	x9, .LBB52_6
	add	x8, x8, x8, lsl #1
	add	x9, x19, x19, lsl #1
	mov	x20, x0
	ldr	x0, [x0]
	mov	w3, #8
	lsl	x1, x8, #3
	lsl	x2, x9, #3
	bl	rattle_realloc
	tbz	w0, #0, .LBB52_7
.LBB52_4:
	mov	w0, #1
	str	x1, [x20]
	str	x19, [x20, #16]
	ldp	x20, x19, [sp, #16]
	ldp	x29, x30, [sp], #32
	ret
.LBB52_5:
	mov	w0, wzr
	ret
.LBB52_6:
	add	x8, x10, x10, lsl #1
	mov	x20, x0
	mov	w1, #8
	lsl	x0, x8, #3
	bl	rattle_alloc
	tbnz	w0, #0, .LBB52_4
.LBB52_7:
	mov	w0, wzr
	ldp	x20, x19, [sp, #16]
	ldp	x29, x30, [sp], #32
	ret
.Lfunc_end52:
	.size	"std_alloc::vec::Vec::grow_amortized::<#e2882d26dc1c38e0>", .Lfunc_end52-"std_alloc::vec::Vec::grow_amortized::<#e2882d26dc1c38e0>"
	.section	".text.libwagtenib::tiles::pieces_of","ax",@progbits
	.p2align	2
	.type	"libwagtenib::tiles::pieces_of",@function
"libwagtenib::tiles::pieces_of":
	sub	sp, sp, #160
	stp	x29, x30, [sp, #64]
	add	x29, sp, #64
	stp	x20, x19, [sp, #144]
	mov	x19, x0
	add	x8, x29, #24
	str	x27, [sp, #80]
	stp	x26, x25, [sp, #96]
	stp	x24, x23, [sp, #112]
	stp	x22, x21, [sp, #128]
	stp	xzr, xzr, [sp, #32]
	stur	xzr, [sp, #55]
	str	xzr, [sp, #48]
	stp	xzr, xzr, [sp, #16]
	str	x8, [sp, #8]
	cbz	x4, .LBB53_25
	mov	x21, x4
	mov	x22, x3
	mov	x23, x2
	mov	x26, x1
	add	x20, x29, #24
.LBB53_2:
	ldr	x8, [x22], #8
	subs	x10, x23, x8
	add	x9, x26, x8
	csel	x24, x23, x8, lo
	adrp	x8, .Lstatic.2
	add	x8, x8, :lo12:.Lstatic.2
	csel	x27, x9, x8, hi
	csel	x23, xzr, x10, lo
	cbz	x24, .LBB53_10
	tbnz	x24, #63, .LBB53_26
	mov	x0, x24
	mov	w1, #1
	bl	rattle_alloc
	tbz	w0, #0, .LBB53_26
	mov	x25, x1
	sub	x9, x1, x26
	cmp	x9, x24
	b.hs	.LBB53_11
.LBB53_6:
	cmp	x24, #8
	mov	x8, xzr
	b.lo	.LBB53_19
	cmp	x9, #32
	b.lo	.LBB53_19
	cmp	x24, #32
	b.hs	.LBB53_12
	mov	x8, xzr
	b	.LBB53_16
.LBB53_10:
	add	x25, x29, #24
	sub	x9, x25, x26
	cmp	x9, x24
	b.lo	.LBB53_6
.LBB53_11:
	mov	x0, x25
	mov	x1, x26
	mov	x2, x24
	bl	memmove
	b	.LBB53_21
.LBB53_12:
	and	x9, x24, #0x18
	and	x8, x24, #0xffffffffffffffe0
	add	x10, x26, #16
	add	x11, x25, #16
	and	x12, x24, #0xffffffffffffffe0
.LBB53_13:
	ldp	q0, q1, [x10, #-16]
	subs	x12, x12, #32
	add	x10, x10, #32
	stp	q0, q1, [x11, #-16]
	add	x11, x11, #32
	b.ne	.LBB53_13
	cmp	x24, x8
	b.eq	.LBB53_21
	cbz	x9, .LBB53_19
.LBB53_16:
	mov	x11, x8
	and	x8, x24, #0xfffffffffffffff8
	sub	x9, x11, x8
	add	x10, x26, x11
	add	x11, x25, x11
.LBB53_17:
	ldr	d0, [x10], #8
	adds	x9, x9, #8
	str	d0, [x11], #8
	b.ne	.LBB53_17
	cmp	x24, x8
	b.eq	.LBB53_21
.LBB53_19:
	sub	x9, x24, x8
	add	x10, x26, x8
	add	x8, x25, x8
.LBB53_20:
	ldrb	w11, [x10], #1
	subs	x9, x9, #1
	strb	w11, [x8], #1
	b.ne	.LBB53_20
.LBB53_21:
	ldp	x8, x9, [sp, #16]
	cmp	x9, x8
	b.eq	.LBB53_23
.LBB53_22:
	mov	w9, #24
	sub	x21, x21, #1
	mov	x26, x27
	madd	x9, x8, x9, x20
	add	x8, x8, #1
	stp	x25, x24, [x9]
	str	x24, [x9, #16]
	str	x8, [sp, #16]
	cbnz	x21, .LBB53_2
	b	.LBB53_25
.LBB53_23:
	add	x0, sp, #8
	bl	"std_alloc::vec::Vec::grow_amortized::<#9d55286b26082ac6>"
	cbz	w0, .LBB53_35
	ldp	x20, x8, [sp, #8]
	b	.LBB53_22
.LBB53_25:
	ldur	q0, [sp, #8]
	ldr	x8, [sp, #24]
	strb	wzr, [x19]
	stur	q0, [x19, #8]
	str	x8, [x19, #24]
	b	.LBB53_34
.LBB53_26:
	ldp	x22, x21, [sp, #16]
	add	x23, sp, #32
	stur	xzr, [sp, #47]
	stur	xzr, [sp, #39]
	stur	xzr, [sp, #55]
	cbz	x22, .LBB53_31
	add	x24, x20, #16
	b	.LBB53_29
.LBB53_28:
	subs	x22, x22, #1
	add	x24, x24, #24
	b.eq	.LBB53_31
.LBB53_29:
	ldr	x8, [x24]
	cbz	x8, .LBB53_28
	ldur	x0, [x24, #-16]
	bl	rattle_dealloc
	b	.LBB53_28
.LBB53_31:
	orr	x22, x23, #0x7
	cbz	x21, .LBB53_33
	mov	x0, x20
	bl	rattle_dealloc
.LBB53_33:
	ldr	q0, [x22]
	ldr	x9, [x22, #16]
	mov	w8, #1
	strb	w8, [x19]
	stur	q0, [x19, #8]
	str	x9, [x19, #24]
.LBB53_34:
	ldp	x20, x19, [sp, #144]
	ldr	x27, [sp, #80]
	ldp	x22, x21, [sp, #128]
	ldp	x24, x23, [sp, #112]
	ldp	x26, x25, [sp, #96]
	ldp	x29, x30, [sp, #64]
	add	sp, sp, #160
	ret
.LBB53_35:
	cbz	x24, .LBB53_37
	mov	x0, x25
	bl	rattle_dealloc
.LBB53_37:
	ldp	x20, x21, [sp, #8]
	ldr	x22, [sp, #24]
	cbz	x21, .LBB53_42
	add	x23, x20, #16
	b	.LBB53_40
.LBB53_39:
	subs	x21, x21, #1
	add	x23, x23, #24
	b.eq	.LBB53_42
.LBB53_40:
	ldr	x8, [x23]
	cbz	x8, .LBB53_39
	ldur	x0, [x23, #-16]
	bl	rattle_dealloc
	b	.LBB53_39
.LBB53_42:
	cbz	x22, .LBB53_44
	mov	x0, x20
	bl	rattle_dealloc
.LBB53_44:
	mov	w8, #1
	stp	xzr, xzr, [x19, #16]
	strb	w8, [x19]
	str	xzr, [x19, #8]
	b	.LBB53_34
.Lfunc_end53:
	.size	"libwagtenib::tiles::pieces_of", .Lfunc_end53-"libwagtenib::tiles::pieces_of"
	.section	".text.unlikely.std_alloc::vec::Vec::grow_amortized::<#b36209b3cdd1ff50>","ax",@progbits
	.p2align	2
	.type	"std_alloc::vec::Vec::grow_amortized::<#b36209b3cdd1ff50>",@function
"std_alloc::vec::Vec::grow_amortized::<#b36209b3cdd1ff50>":
	ldr	x8, [x0, #8]
	cmn	x8, x1
	b.lo	.LBB54_2
	mov	w0, wzr
	ret
.LBB54_2:
	stp	x29, x30, [sp, #-32]!
	ldr	x10, [x0, #16]
	add	x9, x8, x1
	mov	w11, #8
	cmp	x9, #8
	stp	x20, x19, [sp, #16]
	mov	x29, sp
	lsl	x12, x10, #1
	csel	x11, x9, x11, hi
	lsr	x13, x10, #62
	cmp	x11, x12
	csel	x9, x11, x12, hi
	cmp	x13, #0
	csel	x19, x9, x11, eq
	tbnz	x19, #63, .LBB54_7
	cbz	x10, .LBB54_6
	mov	x20, x0
	ldr	x0, [x0]
	mov	x1, x8
	mov	x2, x19
	mov	w3, #1
	bl	rattle_realloc
	tbz	w0, #0, .LBB54_7
.LBB54_5:
	mov	w0, #1
	str	x1, [x20]
	str	x19, [x20, #16]
	ldp	x20, x19, [sp, #16]
	ldp	x29, x30, [sp], #32
	ret
.LBB54_6:
	mov	x20, x0
	mov	x0, x9
	mov	w1, #1
	bl	rattle_alloc
	tbnz	w0, #0, .LBB54_5
.LBB54_7:
	mov	w0, wzr
	ldp	x20, x19, [sp, #16]
	ldp	x29, x30, [sp], #32
	ret
.Lfunc_end54:
	.size	"std_alloc::vec::Vec::grow_amortized::<#b36209b3cdd1ff50>", .Lfunc_end54-"std_alloc::vec::Vec::grow_amortized::<#b36209b3cdd1ff50>"
	.section	".text.unlikely.std_alloc::vec::Vec::grow_amortized::<#9d55286b26082ac6>","ax",@progbits
	.p2align	2
	.type	"std_alloc::vec::Vec::grow_amortized::<#9d55286b26082ac6>",@function
"std_alloc::vec::Vec::grow_amortized::<#9d55286b26082ac6>":
	ldr	x8, [x0, #8]
	cmn	x8, #1
	b.eq	.LBB55_5
	stp	x29, x30, [sp, #-32]!
	ldr	x9, [x0, #16]
	cmp	x8, #3
	mov	w10, #3
	csel	x11, x8, x10, hi
	stp	x20, x19, [sp, #16]
	mov	x29, sp
	lsl	x10, x9, #1
	add	x12, x11, #1
	lsr	x13, x9, #62
	cmp	x12, x10
	csinc	x10, x10, x11, ls
	cmp	x13, #0
	csinc	x19, x10, x11, eq
	mov	x11, #6148914691236517205
	movk	x11, #1365, lsl #48
	cmp	x19, x11
	b.hi	.LBB55_7
	cbz	x9, .LBB55_6
	add	x8, x8, x8, lsl #1
	add	x9, x19, x19, lsl #1
	mov	x20, x0
	ldr	x0, [x0]
	mov	w3, #8
	lsl	x1, x8, #3
	lsl	x2, x9, #3
	bl	rattle_realloc
	tbz	w0, #0, .LBB55_7
.LBB55_4:
	mov	w0, #1
	str	x1, [x20]
	str	x19, [x20, #16]
	ldp	x20, x19, [sp, #16]
	ldp	x29, x30, [sp], #32
	ret
.LBB55_5:
	mov	w0, wzr
	ret
.LBB55_6:
	add	x8, x10, x10, lsl #1
	mov	x20, x0
	mov	w1, #8
	lsl	x0, x8, #3
	bl	rattle_alloc
	tbnz	w0, #0, .LBB55_4
.LBB55_7:
	mov	w0, wzr
	ldp	x20, x19, [sp, #16]
	ldp	x29, x30, [sp], #32
	ret
.Lfunc_end55:
	.size	"std_alloc::vec::Vec::grow_amortized::<#9d55286b26082ac6>", .Lfunc_end55-"std_alloc::vec::Vec::grow_amortized::<#9d55286b26082ac6>"
	.section	".text.ct_tiles::source::node::<#24ff04b9227ecf06>","ax",@progbits
	.p2align	2
	.type	"ct_tiles::source::node::<#24ff04b9227ecf06>",@function
"ct_tiles::source::node::<#24ff04b9227ecf06>":
	sub	sp, sp, #256
	movi	v0.2d, #0000000000000000
	stp	x20, x19, [sp, #240]
	mov	x19, x0
	tst	x2, #0x7
	stp	x29, x30, [sp, #208]
	add	x29, sp, #208
	stp	x22, x21, [sp, #224]
	stp	q0, q0, [sp]
	b.eq	.LBB56_2
	lsl	x8, x3, #1
	sub	x20, x2, #1
	mov	x0, sp
	mov	x2, x20
	mov	x22, x3
	mov	x21, x1
	mov	x3, x8
	bl	"ct_tiles::source::node::<#24ff04b9227ecf06>"
	ldp	q0, q1, [sp]
	mov	w3, #1
	bfi	x3, x22, #1, #63
	mov	x0, sp
	mov	x1, x21
	mov	x2, x20
	mov	w22, #1
	stp	q0, q1, [sp, #64]
	bl	"ct_tiles::source::node::<#24ff04b9227ecf06>"
	ldp	q0, q1, [sp]
	adrp	x8, .Lstatic.8
	add	x8, x8, :lo12:.Lstatic.8
	mov	w9, #32
	sub	x0, x29, #32
	stp	x8, x22, [x29, #-80]
	add	x8, sp, #64
	sub	x1, x29, #80
	stp	q0, q1, [sp, #32]
	movi	v0.2d, #0000000000000000
	mov	w2, #3
	stp	x8, x9, [x29, #-64]
	add	x8, sp, #32
	stp	x8, x9, [x29, #-48]
	stp	q0, q0, [x29, #-32]
	bl	"ct_tree::hash::Sha256HashNodeHash::hash"
	ldp	q0, q1, [x29, #-32]
	stp	q0, q1, [sp, #96]
	stp	q0, q1, [x19]
	ldp	x20, x19, [sp, #240]
	ldp	x22, x21, [sp, #224]
	ldp	x29, x30, [sp, #208]
	add	sp, sp, #256
	ret
.LBB56_2:
	ldr	x8, [x1, #8]
	cbz	x8, .LBB56_10
	ldp	x13, x9, [x1, #16]
	lsr	x10, x2, #3
	ldr	x12, [x1]
	lsr	x11, x3, #8
	add	x12, x12, #8
	add	x13, x13, #8
	b	.LBB56_5
.LBB56_4:
	sub	x8, x8, #1
	add	x12, x12, #24
	add	x13, x13, #24
	sub	x9, x9, #1
	cbz	x8, .LBB56_10
.LBB56_5:
	cbz	x9, .LBB56_10
	ldur	x14, [x12, #-8]
	cmp	x14, x10
	b.ne	.LBB56_4
	ldr	x14, [x12]
	cmp	x11, x14
	b.lo	.LBB56_4
	ldr	x15, [x13]
	sub	x16, x3, x14, lsl #8
	cmp	x16, x15, lsr #5
	b.hs	.LBB56_4
	ldur	x8, [x13, #-8]
	sub	x8, x8, x14, lsl #13
	add	x8, x8, x3, lsl #5
	ldp	q0, q1, [x8]
	stp	q0, q1, [sp, #96]
	b	.LBB56_11
.LBB56_10:
	movi	v0.2d, #0000000000000000
	stp	q0, q0, [sp, #96]
.LBB56_11:
	ldp	q0, q1, [sp, #96]
	stp	q0, q1, [x19]
	ldp	x20, x19, [sp, #240]
	ldp	x22, x21, [sp, #224]
	ldp	x29, x30, [sp, #208]
	add	sp, sp, #256
	ret
.Lfunc_end56:
	.size	"ct_tiles::source::node::<#24ff04b9227ecf06>", .Lfunc_end56-"ct_tiles::source::node::<#24ff04b9227ecf06>"
	.section	".text.unlikely.std_alloc::vec::Vec::grow_amortized::<#c3a63ae5e00ff772>","ax",@progbits
	.p2align	2
	.type	"std_alloc::vec::Vec::grow_amortized::<#c3a63ae5e00ff772>",@function
"std_alloc::vec::Vec::grow_amortized::<#c3a63ae5e00ff772>":
	ldr	x8, [x0, #8]
	cmn	x8, x1
	b.lo	.LBB57_2
	mov	w0, wzr
	ret
.LBB57_2:
	stp	x29, x30, [sp, #-32]!
	ldr	x9, [x0, #16]
	add	x10, x8, x1
	mov	w11, #4
	cmp	x10, #4
	stp	x20, x19, [sp, #16]
	mov	x29, sp
	lsl	x12, x9, #1
	csel	x11, x10, x11, hi
	lsr	x13, x9, #62
	cmp	x11, x12
	csel	x10, x11, x12, hi
	cmp	x13, #0
	csel	x19, x10, x11, eq
	lsr	x11, x19, #58
	cbnz	x11, .LBB57_7
	cbz	x9, .LBB57_6
	mov	x20, x0
	ldr	x0, [x0]
	lsl	x1, x8, #5
	lsl	x2, x19, #5
	mov	w3, #1
	bl	rattle_realloc
	tbz	w0, #0, .LBB57_7
.LBB57_5:
	mov	w0, #1
	str	x1, [x20]
	str	x19, [x20, #16]
	ldp	x20, x19, [sp, #16]
	ldp	x29, x30, [sp], #32
	ret
.LBB57_6:
	mov	x20, x0
	lsl	x0, x10, #5
	mov	w1, #1
	bl	rattle_alloc
	tbnz	w0, #0, .LBB57_5
.LBB57_7:
	mov	w0, wzr
	ldp	x20, x19, [sp, #16]
	ldp	x29, x30, [sp], #32
	ret
.Lfunc_end57:
	.size	"std_alloc::vec::Vec::grow_amortized::<#c3a63ae5e00ff772>", .Lfunc_end57-"std_alloc::vec::Vec::grow_amortized::<#c3a63ae5e00ff772>"
	.section	".text.libwagtenib::message::read_message","ax",@progbits
	.p2align	2
	.type	"libwagtenib::message::read_message",@function
"libwagtenib::message::read_message":
	sub	sp, sp, #176
	movi	v0.2d, #0000000000000000
	stp	x20, x19, [sp, #160]
	mov	x20, x2
	mov	x19, x0
	subs	x2, x2, #20
	stp	x29, x30, [sp, #96]
	str	x25, [sp, #112]
	add	x29, sp, #96
	stp	x24, x23, [sp, #128]
	stp	x22, x21, [sp, #144]
	str	xzr, [sp, #64]
	stp	q0, q0, [sp]
	stp	q0, q0, [sp, #32]
	b.lo	.LBB58_23
	mov	x21, x1
	sub	x0, x29, #24
	add	x1, x1, #20
	stp	xzr, xzr, [x29, #-24]
	stur	xzr, [x29, #-8]
	bl	"core::str::utf8::from_utf8"
	movi	v0.2d, #0000000000000000
	ldurb	w8, [x29, #-24]
	cbnz	w8, .LBB58_23
	ldp	x22, x24, [x29, #-16]
	sub	x0, x29, #24
	mov	w1, #10
	stp	xzr, xzr, [x29, #-24]
	stur	xzr, [x29, #-8]
	mov	x2, x22
	mov	x3, x24
	bl	"core::iter::pattern::CharPattern::first_in"
	ldurb	w8, [x29, #-24]
	cmp	w8, #1
	b.ne	.LBB58_22
	movi	v0.2d, #0000000000000000
	ldur	x8, [x29, #-16]
	cbz	x8, .LBB58_23
	ldrb	w9, [x22]
	ldur	x25, [x29, #-8]
	cmp	w9, #43
	b.ne	.LBB58_11
	subs	x8, x8, #1
	b.eq	.LBB58_23
	mov	x9, #-7378697629483820647
	mov	x23, xzr
	add	x10, x22, #1
	eor	x9, x9, #0x8000000000000003
.LBB58_7:
	cmp	x23, x9
	b.hs	.LBB58_23
	ldrb	w12, [x10], #1
	sub	w11, w12, #48
	cmp	w11, #9
	b.hi	.LBB58_23
	add	x11, x23, x23, lsl #2
	and	x12, x12, #0xf
	lsl	x11, x11, #1
	cmn	x12, x11
	b.hs	.LBB58_23
	subs	x8, x8, #1
	add	x23, x11, x12
	b.ne	.LBB58_7
	b	.LBB58_16
.LBB58_11:
	mov	x9, #-7378697629483820647
	mov	x23, xzr
	mov	x10, x22
	eor	x9, x9, #0x8000000000000003
.LBB58_12:
	cmp	x23, x9
	b.hs	.LBB58_23
	ldrb	w12, [x10], #1
	sub	w11, w12, #48
	cmp	w11, #9
	b.hi	.LBB58_23
	add	x11, x23, x23, lsl #2
	and	x12, x12, #0xf
	lsl	x11, x11, #1
	cmn	x12, x11
	b.hs	.LBB58_23
	subs	x8, x8, #1
	add	x23, x11, x12
	b.ne	.LBB58_12
.LBB58_16:
	sub	x24, x24, x25
	add	x3, x22, x25
	mov	x0, x21
	mov	x1, x20
	mov	x2, x23
	mov	x4, x24
	bl	"libwagtenib::message::is_message"
	tst	w0, #0xff
	b.eq	.LBB58_18
.LBB58_17:
	mov	w8, #1
	movi	v0.2d, #0000000000000000
	strb	w8, [x19]
	b	.LBB58_24
.LBB58_18:
	tbz	w1, #0, .LBB58_22
	mov	x0, sp
	add	x1, x22, x25
	mov	x2, x24
	bl	"libwagtenib::message::checkpoint_of"
	ldrb	w8, [sp]
	cbnz	w8, .LBB58_17
	ldrb	w10, [sp, #8]
	ldr	x8, [sp, #16]
	mov	x9, x19
	ldur	q0, [sp, #24]
	strb	wzr, [x9], #8
	cmp	w10, #1
	b.ne	.LBB58_26
	ldur	q1, [sp, #40]
	stur	q0, [x19, #24]
	mov	w9, #1
	ldur	q0, [sp, #56]
	stp	x9, x8, [x19, #8]
	stur	q1, [x19, #40]
	stur	q0, [x19, #56]
	str	x23, [x19, #72]
	b	.LBB58_25
.LBB58_22:
	movi	v0.2d, #0000000000000000
.LBB58_23:
	strb	wzr, [x19]
.LBB58_24:
	stur	q0, [x19, #8]
	stur	q0, [x19, #24]
	stur	q0, [x19, #40]
	stur	q0, [x19, #56]
	str	xzr, [x19, #72]
.LBB58_25:
	ldp	x20, x19, [sp, #160]
	ldr	x25, [sp, #112]
	ldp	x22, x21, [sp, #144]
	ldp	x24, x23, [sp, #128]
	ldp	x29, x30, [sp, #96]
	add	sp, sp, #176
	ret
.LBB58_26:
	movi	v0.2d, #0000000000000000
	str	xzr, [x9, #64]
	stp	q0, q0, [x9]
	stp	q0, q0, [x9, #32]
	b	.LBB58_25
.Lfunc_end58:
	.size	"libwagtenib::message::read_message", .Lfunc_end58-"libwagtenib::message::read_message"
	.section	".text.unlikely.libwagtenib::message::is_message","ax",@progbits
	.p2align	2
	.type	"libwagtenib::message::is_message",@function
"libwagtenib::message::is_message":
	sub	sp, sp, #96
	movi	v0.2d, #0000000000000000
	stp	x22, x21, [sp, #64]
	mov	x21, x0
	stp	x20, x19, [sp, #80]
	mov	x20, x1
	mov	x0, sp
	mov	x1, x2
	mov	x2, x3
	mov	x3, x4
	stp	x29, x30, [sp, #32]
	add	x29, sp, #32
	str	x23, [sp, #48]
	stp	q0, q0, [sp]
	bl	"ct_checkpoint::message::cosignature_message"
	ldrb	w0, [sp]
	cbz	w0, .LBB59_3
	mov	w1, wzr
.LBB59_2:
	ldp	x20, x19, [sp, #80]
	ldr	x23, [sp, #48]
	ldp	x22, x21, [sp, #64]
	ldp	x29, x30, [sp, #32]
	add	sp, sp, #96
	ret
.LBB59_3:
	ldp	x19, x8, [sp, #8]
	ldr	x22, [sp, #24]
	cmp	x8, x20
	b.ne	.LBB59_13
	cmp	x20, #4
	b.hs	.LBB59_11
	cbz	x20, .LBB59_16
	ldrb	w8, [x19]
	ldrb	w9, [x21]
	cmp	w8, w9
	b.ne	.LBB59_17
	cmp	x20, #1
	mov	x8, x20
	b.eq	.LBB59_18
	ldrb	w8, [x19, #1]
	ldrb	w9, [x21, #1]
	cmp	w8, w9
	b.ne	.LBB59_19
	cmp	x20, #2
	mov	x8, x20
	b.eq	.LBB59_18
	ldrb	w8, [x19, #2]
	ldrb	w9, [x21, #2]
	cmp	w8, w9
	mov	w8, #2
	csel	x8, x20, x8, eq
	b	.LBB59_18
.LBB59_11:
	ldr	w8, [x19]
	ldr	w9, [x21]
	cmp	w8, w9
	b.ne	.LBB59_13
	mov	w23, w0
	mov	x0, x19
	mov	x1, x20
	mov	x2, x21
	bl	"core::cmp::slices::groups_equal::<i8,31'core::cmp::numbers::U8PartialEq{}>"
	mov	w1, w0
	mov	w0, w23
	b	.LBB59_14
.LBB59_13:
	mov	w1, wzr
.LBB59_14:
	cbz	x22, .LBB59_2
	mov	w20, w0
	mov	x0, x19
	mov	w19, w1
	bl	rattle_dealloc
	mov	w1, w19
	mov	w0, w20
	ldp	x20, x19, [sp, #80]
	ldr	x23, [sp, #48]
	ldp	x22, x21, [sp, #64]
	ldp	x29, x30, [sp, #32]
	add	sp, sp, #96
	ret
.LBB59_16:
	mov	w1, #1
	b	.LBB59_14
.LBB59_17:
	mov	x8, xzr
.LBB59_18:
	cmp	x8, x20
	cset	w1, hs
	b	.LBB59_14
.LBB59_19:
	mov	w8, #1
	b	.LBB59_18
.Lfunc_end59:
	.size	"libwagtenib::message::is_message", .Lfunc_end59-"libwagtenib::message::is_message"
	.section	.rodata.cst16,"aM",@progbits,16
	.p2align	4, 0x0
.LCPI60_0:
	.byte	99
	.byte	111
	.byte	115
	.byte	105
	.byte	103
	.byte	110
	.byte	97
	.byte	116
	.byte	117
	.byte	114
	.byte	101
	.byte	47
	.byte	118
	.byte	49
	.byte	10
	.byte	116
	.section	.rodata.cst8,"aM",@progbits,8
	.p2align	3, 0x0
.LCPI60_1:
	.byte	105
	.byte	109
	.byte	101
	.byte	32
	.zero	1
	.zero	1
	.zero	1
	.zero	1
	.section	".text.unlikely.ct_checkpoint::message::cosignature_message","ax",@progbits
	.p2align	2
	.type	"ct_checkpoint::message::cosignature_message",@function
"ct_checkpoint::message::cosignature_message":
	sub	sp, sp, #272
	stp	x29, x30, [sp, #208]
	add	x29, sp, #208
	mov	w9, #20
	stp	x28, x23, [sp, #224]
	adrp	x23, .Lstatic.19
	add	x23, x23, :lo12:.Lstatic.19
	stp	x23, x9, [x29, #-64]
	add	x9, sp, #40
	adrp	x10, .Lstatic.15
	add	x10, x10, :lo12:.Lstatic.15
	sub	x8, x29, #1
	stp	x20, x19, [sp, #256]
	stp	x9, x10, [x29, #-48]
	mov	w9, #1
	mov	x19, x0
	stp	x1, xzr, [sp, #40]
	add	x0, sp, #80
	mov	w1, #20
	str	x8, [sp, #80]
	mov	x8, #-1
	mov	x20, x3
	stp	x9, x2, [x29, #-32]
	mov	w9, #32
	stp	x22, x21, [sp, #240]
	mov	x21, x2
	add	x22, sp, #80
	stp	xzr, xzr, [sp, #8]
	stur	xzr, [sp, #31]
	str	xzr, [sp, #24]
	stur	xzr, [sp, #71]
	stp	xzr, xzr, [sp, #56]
	stp	xzr, xzr, [sp, #88]
	stp	xzr, xzr, [sp, #128]
	stur	x3, [x29, #-16]
	str	w9, [sp, #104]
	str	wzr, [sp, #116]
	stur	xzr, [sp, #108]
	str	x8, [sp, #120]
	bl	"std_alloc::vec::Vec::grow_amortized::<#96e799293a27154c>"
	cbz	w0, .LBB60_4
	ldp	x8, x10, [sp, #80]
	add	x9, x8, x10
	add	x10, x10, #20
	sub	x8, x9, x23
	cmp	x8, #19
	sub	x8, x29, #64
	b.hi	.LBB60_3
	adrp	x11, .LCPI60_0
	adrp	x12, .LCPI60_1
	ldr	q0, [x11, :lo12:.LCPI60_0]
	ldr	d1, [x12, :lo12:.LCPI60_1]
	str	q0, [x9]
	str	s1, [x9, #16]
	add	x0, sp, #80
	add	x1, x8, #16
	str	x10, [sp, #88]
	bl	"core::fmt::formatter::Formatter::write_piece::<#3db6c1e76299e001>"
	and	w8, w0, #0xff
	tbnz	w8, #0, .LBB60_4
	b	.LBB60_8
.LBB60_3:
	mov	w11, #28009
	ldr	q0, [x23]
	movk	w11, #8293, lsl #16
	str	w11, [x9, #16]
	str	q0, [x9]
	add	x0, sp, #80
	add	x1, x8, #16
	str	x10, [sp, #88]
	bl	"core::fmt::formatter::Formatter::write_piece::<#3db6c1e76299e001>"
	and	w8, w0, #0xff
	tbz	w8, #0, .LBB60_8
.LBB60_4:
	ldr	x8, [sp, #96]
	cbz	x8, .LBB60_6
	ldr	x0, [sp, #80]
	bl	rattle_dealloc
.LBB60_6:
	mov	w8, #1
.LBB60_7:
	ldur	q0, [sp, #55]
	ldur	x9, [sp, #71]
	strb	w8, [x19]
	ldp	x22, x21, [sp, #240]
	stur	q0, [x19, #8]
	ldp	x28, x23, [sp, #224]
	str	x9, [x19, #24]
	ldp	x20, x19, [sp, #256]
	stur	q0, [sp, #15]
	ldp	x29, x30, [sp, #208]
	stur	x9, [sp, #31]
	add	sp, sp, #272
	ret
.LBB60_8:
	mov	w8, #32
	ldr	x9, [sp, #128]
	stur	xzr, [x22, #28]
	str	w8, [sp, #104]
	mov	x8, #-1
	stur	wzr, [x22, #36]
	str	x8, [sp, #120]
	cbnz	x9, .LBB60_21
	ldp	x9, x8, [sp, #88]
	cmp	x8, x9
	b.eq	.LBB60_22
.LBB60_10:
	ldr	x10, [sp, #80]
	add	x11, x9, #1
	mov	w12, #10
	stp	x11, x8, [sp, #88]
	strb	w12, [x10, x9]
.LBB60_11:
	mov	w8, #32
	ldr	x9, [sp, #128]
	stur	xzr, [x22, #28]
	str	w8, [sp, #104]
	mov	x8, #-1
	stur	wzr, [x22, #36]
	str	x8, [sp, #120]
	cbnz	x9, .LBB60_24
	ldp	x8, x22, [sp, #88]
	sub	x9, x22, x8
	cmp	x20, x9
	b.hi	.LBB60_32
	ldr	x9, [sp, #80]
	add	x23, x8, x20
	add	x0, x9, x8
	sub	x10, x0, x21
	cmp	x10, x20
	b.hs	.LBB60_34
.LBB60_14:
	cmp	x20, #8
	b.lo	.LBB60_16
	add	x10, x8, x9
	sub	x10, x10, x21
	cmp	x10, #32
	b.hs	.LBB60_19
.LBB60_16:
	mov	x10, xzr
.LBB60_17:
	add	x11, x10, x8
	sub	x8, x20, x10
	add	x10, x21, x10
	add	x9, x9, x11
.LBB60_18:
	ldrb	w11, [x10], #1
	subs	x8, x8, #1
	strb	w11, [x9], #1
	b.ne	.LBB60_18
	b	.LBB60_35
.LBB60_19:
	cmp	x20, #32
	b.hs	.LBB60_25
	mov	x10, xzr
	b	.LBB60_29
.LBB60_21:
	adrp	x1, .Lstatic.15
	add	x1, x1, :lo12:.Lstatic.15
	add	x0, sp, #80
	mov	w2, #1
	bl	"core::fmt::formatter::Formatter::write_indented::<#b0033b4612f562a6>"
	and	w8, w0, #0xff
	tbnz	w8, #0, .LBB60_4
	b	.LBB60_11
.LBB60_22:
	add	x0, sp, #80
	mov	w1, #1
	bl	"std_alloc::vec::Vec::grow_amortized::<#96e799293a27154c>"
	cbz	w0, .LBB60_4
	ldp	x9, x8, [sp, #88]
	b	.LBB60_10
.LBB60_24:
	add	x0, sp, #80
	mov	x1, x21
	mov	x2, x20
	bl	"core::fmt::formatter::Formatter::write_indented::<#b0033b4612f562a6>"
	and	w8, w0, #0xff
	tbnz	w8, #0, .LBB60_4
	b	.LBB60_36
.LBB60_25:
	add	x13, x8, x9
	and	x11, x20, #0x18
	and	x10, x20, #0xffffffffffffffe0
	add	x12, x21, #16
	add	x13, x13, #16
	and	x14, x20, #0xffffffffffffffe0
.LBB60_26:
	ldp	q0, q1, [x12, #-16]
	subs	x14, x14, #32
	add	x12, x12, #32
	stp	q0, q1, [x13, #-16]
	add	x13, x13, #32
	b.ne	.LBB60_26
	cmp	x20, x10
	b.eq	.LBB60_35
	cbz	x11, .LBB60_17
.LBB60_29:
	mov	x12, x10
	and	x10, x20, #0xfffffffffffffff8
	add	x13, x8, x12
	sub	x11, x12, x10
	add	x12, x21, x12
	add	x13, x9, x13
.LBB60_30:
	ldr	d0, [x12], #8
	adds	x11, x11, #8
	str	d0, [x13], #8
	b.ne	.LBB60_30
	cmp	x20, x10
	b.eq	.LBB60_35
	b	.LBB60_17
.LBB60_32:
	add	x0, sp, #80
	mov	x1, x20
	bl	"std_alloc::vec::Vec::grow_amortized::<#96e799293a27154c>"
	tbz	w0, #0, .LBB60_4
	ldp	x8, x22, [sp, #88]
	ldr	x9, [sp, #80]
	add	x23, x8, x20
	add	x0, x9, x8
	sub	x10, x0, x21
	cmp	x10, x20
	b.lo	.LBB60_14
.LBB60_34:
	mov	x1, x21
	mov	x2, x20
	bl	memmove
.LBB60_35:
	stp	x23, x22, [sp, #88]
.LBB60_36:
	ldr	q0, [sp, #80]
	ldr	x9, [sp, #96]
	mov	w8, wzr
	stur	q0, [sp, #55]
	stur	x9, [sp, #71]
	b	.LBB60_7
.Lfunc_end60:
	.size	"ct_checkpoint::message::cosignature_message", .Lfunc_end60-"ct_checkpoint::message::cosignature_message"
	.section	.rodata.cst16,"aM",@progbits,16
	.p2align	4, 0x0
.LCPI61_0:
	.byte	1
	.byte	2
	.byte	4
	.byte	8
	.byte	16
	.byte	32
	.byte	64
	.byte	128
	.byte	1
	.byte	2
	.byte	4
	.byte	8
	.byte	16
	.byte	32
	.byte	64
	.byte	128
	.section	".text.libwagtenib::step::origin_of","ax",@progbits
	.p2align	2
	.type	"libwagtenib::step::origin_of",@function
"libwagtenib::step::origin_of":
	sub	sp, sp, #64
	stp	x29, x30, [sp, #32]
	add	x29, sp, #32
	str	x19, [sp, #48]
	strh	wzr, [x29, #28]
	str	wzr, [x29, #24]
	str	wzr, [sp]
	strh	wzr, [sp, #4]
	cbz	x2, .LBB61_22
	cmp	x2, #3
	b.hi	.LBB61_5
	ldrb	w8, [x1]
	cmp	w8, #10
	b.eq	.LBB61_22
	lsr	x8, x2, #1
	ldrb	w8, [x1, x8]
	cmp	w8, #10
	b.eq	.LBB61_22
	add	x8, x1, x2
	ldurb	w8, [x8, #-1]
	cmp	w8, #10
	b.ne	.LBB61_23
	b	.LBB61_22
.LBB61_5:
	subs	x8, x2, #8
	b.hi	.LBB61_7
	add	x8, x1, x2
	ldr	s0, [x1]
	movi	v1.8b, #10
	sub	x8, x8, #4
	ld1	{ v0.s }[1], [x8]
	cmeq	v0.8b, v0.8b, v1.8b
	umaxv	b0, v0.8b
	fmov	w8, s0
	tbnz	w8, #0, .LBB61_22
	b	.LBB61_23
.LBB61_7:
	cmp	x2, #32
	b.hi	.LBB61_9
	cmp	x8, #8
	mov	w9, #8
	mov	w10, #16
	csel	x9, x8, x9, lo
	cmp	x8, #16
	ldr	d0, [x1]
	csel	x10, x8, x10, lo
	ldr	d1, [x1, x9]
	ldr	d3, [x1, x8]
	ldr	d2, [x1, x10]
	adrp	x8, .LCPI61_0
	mov	v0.d[1], v1.d[0]
	movi	v1.16b, #10
	mov	v2.d[1], v3.d[0]
	cmeq	v0.16b, v0.16b, v1.16b
	cmeq	v2.16b, v2.16b, v1.16b
	ldr	q1, [x8, :lo12:.LCPI61_0]
	and	v0.16b, v0.16b, v1.16b
	and	v2.16b, v2.16b, v1.16b
	b	.LBB61_21
.LBB61_9:
	cmp	x2, #65
	b.hs	.LBB61_11
	movi	v0.16b, #10
	add	x8, x1, x2
	adrp	x9, .LCPI61_0
	ldp	q2, q1, [x1]
	ldr	q5, [x9, :lo12:.LCPI61_0]
	ldp	q4, q3, [x8, #-32]
	cmeq	v2.16b, v2.16b, v0.16b
	cmeq	v1.16b, v1.16b, v0.16b
	cmeq	v4.16b, v4.16b, v0.16b
	cmeq	v0.16b, v3.16b, v0.16b
	and	v2.16b, v2.16b, v5.16b
	and	v1.16b, v1.16b, v5.16b
	and	v3.16b, v4.16b, v5.16b
	and	v0.16b, v0.16b, v5.16b
	ext	v4.16b, v2.16b, v2.16b, #8
	ext	v6.16b, v1.16b, v1.16b, #8
	ext	v5.16b, v3.16b, v3.16b, #8
	ext	v7.16b, v0.16b, v0.16b, #8
	zip1	v2.16b, v2.16b, v4.16b
	zip1	v1.16b, v1.16b, v6.16b
	zip1	v3.16b, v3.16b, v5.16b
	zip1	v0.16b, v0.16b, v7.16b
	addv	h2, v2.8h
	addv	h1, v1.8h
	addv	h3, v3.8h
	addv	h0, v0.8h
	fmov	w8, s2
	fmov	w10, s1
	fmov	w9, s3
	fmov	w11, s0
	orr	w8, w8, w9
	orr	w9, w10, w11
	orr	w8, w8, w9
	tst	w8, #0xffff
	b.ne	.LBB61_22
	b	.LBB61_23
.LBB61_11:
	mov	x8, xzr
	mov	x9, x2
.LBB61_12:
	movi	v1.16b, #10
	add	x10, x1, x8
	adrp	x11, .LCPI61_0
	ldp	q3, q2, [x10, #32]
	ldr	q0, [x11, :lo12:.LCPI61_0]
	ldp	q5, q4, [x10]
	cmeq	v3.16b, v3.16b, v1.16b
	cmeq	v2.16b, v2.16b, v1.16b
	cmeq	v5.16b, v5.16b, v1.16b
	cmeq	v1.16b, v4.16b, v1.16b
	and	v3.16b, v3.16b, v0.16b
	and	v2.16b, v2.16b, v0.16b
	and	v4.16b, v5.16b, v0.16b
	and	v1.16b, v1.16b, v0.16b
	ext	v5.16b, v3.16b, v3.16b, #8
	ext	v7.16b, v2.16b, v2.16b, #8
	ext	v6.16b, v4.16b, v4.16b, #8
	ext	v16.16b, v1.16b, v1.16b, #8
	zip1	v3.16b, v3.16b, v5.16b
	zip1	v2.16b, v2.16b, v7.16b
	zip1	v4.16b, v4.16b, v6.16b
	zip1	v1.16b, v1.16b, v16.16b
	addv	h3, v3.8h
	addv	h2, v2.8h
	addv	h4, v4.8h
	addv	h1, v1.8h
	fmov	w10, s3
	fmov	w12, s2
	fmov	w11, s4
	fmov	w13, s1
	orr	w10, w11, w10
	orr	w11, w13, w12
	orr	w10, w10, w11
	tst	w10, #0xffff
	b.ne	.LBB61_15
	sub	x9, x9, #64
	add	x8, x8, #64
	cmp	x9, #63
	b.hi	.LBB61_12
	and	x8, x2, #0xffffffffffffffc0
.LBB61_15:
	sub	x9, x2, x8
	cmp	x9, #32
	b.lo	.LBB61_20
	add	x8, x1, x8
.LBB61_17:
	movi	v1.16b, #10
	ldp	q2, q3, [x8], #32
	cmeq	v3.16b, v3.16b, v1.16b
	cmeq	v1.16b, v2.16b, v1.16b
	and	v2.16b, v3.16b, v0.16b
	and	v1.16b, v1.16b, v0.16b
	ext	v3.16b, v2.16b, v2.16b, #8
	ext	v4.16b, v1.16b, v1.16b, #8
	zip1	v2.16b, v2.16b, v3.16b
	zip1	v1.16b, v1.16b, v4.16b
	addv	h2, v2.8h
	addv	h1, v1.8h
	fmov	w10, s2
	fmov	w11, s1
	orr	w10, w11, w10
	tst	w10, #0xffff
	b.ne	.LBB61_19
	sub	x9, x9, #32
	cmp	x9, #31
	b.hi	.LBB61_17
	b	.LBB61_20
.LBB61_19:
	cmp	x9, #31
	b.hi	.LBB61_22
.LBB61_20:
	movi	v1.16b, #10
	add	x8, x1, x2
	ldp	q2, q3, [x8, #-32]
	cmeq	v3.16b, v3.16b, v1.16b
	cmeq	v1.16b, v2.16b, v1.16b
	and	v2.16b, v3.16b, v0.16b
	and	v0.16b, v1.16b, v0.16b
.LBB61_21:
	ext	v1.16b, v2.16b, v2.16b, #8
	ext	v3.16b, v0.16b, v0.16b, #8
	zip1	v1.16b, v2.16b, v1.16b
	zip1	v0.16b, v0.16b, v3.16b
	addv	h1, v1.8h
	addv	h0, v0.8h
	fmov	w8, s1
	fmov	w9, s0
	orr	w8, w9, w8
	tst	w8, #0xffff
	b.eq	.LBB61_23
.LBB61_22:
	stp	xzr, xzr, [x0]
	str	xzr, [x0, #16]
	ldp	x29, x30, [sp, #32]
	ldr	x19, [sp, #48]
	add	sp, sp, #64
	ret
.LBB61_23:
	mov	x19, x0
	add	x0, sp, #8
	stp	xzr, xzr, [sp, #8]
	str	xzr, [sp, #24]
	bl	"core::str::utf8::from_utf8"
	ldur	w11, [sp, #26]
	ldrb	w12, [sp, #8]
	ldr	x8, [sp, #16]
	ldrh	w13, [sp, #30]
	ldrb	w10, [sp, #24]
	ldrb	w9, [sp, #25]
	str	w11, [sp]
	strh	w13, [sp, #4]
	cbz	w12, .LBB61_25
	mov	x11, xzr
	mov	x8, xzr
	mov	w10, wzr
	mov	w9, wzr
	strh	wzr, [x29, #28]
	str	wzr, [x29, #24]
	b	.LBB61_26
.LBB61_25:
	ldr	w11, [sp]
	ldrh	w12, [sp, #4]
	str	w11, [x29, #24]
	mov	w11, #1
	strh	w12, [x29, #28]
.LBB61_26:
	stp	x11, x8, [x19]
	ldr	w8, [x29, #24]
	strb	w9, [x19, #17]
	ldrh	w9, [x29, #28]
	strb	w10, [x19, #16]
	stur	w8, [x19, #18]
	strh	w9, [x19, #22]
	ldp	x29, x30, [sp, #32]
	ldr	x19, [sp, #48]
	add	sp, sp, #64
	ret
.Lfunc_end61:
	.size	"libwagtenib::step::origin_of", .Lfunc_end61-"libwagtenib::step::origin_of"
	.section	".text.unlikely.ct_data_tiles::entry_bytes::push_entry","ax",@progbits
	.p2align	2
	.type	"ct_data_tiles::entry_bytes::push_entry",@function
"ct_data_tiles::entry_bytes::push_entry":
	sub	sp, sp, #160
	movi	v0.2d, #0000000000000000
	stp	x26, x25, [sp, #96]
	mov	x26, x0
	stp	x22, x21, [sp, #128]
	mov	x22, x1
	add	x0, sp, #32
	mov	x1, x2
	stp	x29, x30, [sp, #64]
	add	x29, sp, #64
	stp	x28, x27, [sp, #80]
	stp	x24, x23, [sp, #112]
	stp	x20, x19, [sp, #144]
	mov	x19, x2
	stp	q0, q0, [sp, #32]
	bl	"ct_data_tiles::entry_bytes::input_of"
	ldrb	w8, [sp, #32]
	cbnz	w8, .LBB62_29
	ldrb	w8, [x19, #8]
	mov	x21, x26
	ldr	x10, [x19, #88]
	ldr	x11, [x19, #24]
	ldp	x20, x23, [sp, #40]
	ldp	x9, x27, [x21, #8]!
	cmp	w8, #0
	add	x12, x10, #3
	ldr	x28, [sp, #56]
	csel	x10, x11, x10, eq
	mov	w8, #13
	csel	x25, xzr, x12, eq
	str	x10, [sp, #24]
	sub	x10, x27, x9
	csinc	x14, x8, x23, eq
	cmp	x10, #7
	b.ls	.LBB62_18
.LBB62_2:
	ldr	x24, [x26]
	add	x8, x9, #8
	rev	x10, x23
	str	x25, [sp, #16]
	str	x10, [x24, x9]
	sub	x9, x27, x8
	cmp	x23, x9
	stp	x24, x8, [x26]
	str	x27, [x26, #16]
	b.hi	.LBB62_20
	add	x0, x24, x8
	add	x25, x8, x23
	stp	xzr, xzr, [x21]
	sub	x9, x0, x20
	cmp	x9, x23
	b.hs	.LBB62_22
.LBB62_4:
	cmp	x23, #8
	b.lo	.LBB62_6
	add	x9, x8, x24
	sub	x9, x9, x20
	cmp	x9, #32
	b.hs	.LBB62_9
.LBB62_6:
	mov	x9, xzr
.LBB62_7:
	add	x10, x9, x8
	sub	x8, x23, x9
	add	x9, x20, x9
	add	x10, x24, x10
.LBB62_8:
	ldrb	w11, [x9], #1
	subs	x8, x8, #1
	strb	w11, [x10], #1
	b.ne	.LBB62_8
	b	.LBB62_23
.LBB62_9:
	cmp	x23, #32
	b.hs	.LBB62_11
	mov	x9, xzr
	b	.LBB62_15
.LBB62_11:
	add	x12, x8, x24
	and	x10, x23, #0x18
	and	x9, x23, #0xffffffffffffffe0
	add	x11, x20, #16
	add	x12, x12, #16
	and	x13, x23, #0xffffffffffffffe0
.LBB62_12:
	ldp	q0, q1, [x11, #-16]
	subs	x13, x13, #32
	add	x11, x11, #32
	stp	q0, q1, [x12, #-16]
	add	x12, x12, #32
	b.ne	.LBB62_12
	cmp	x23, x9
	b.eq	.LBB62_23
	cbz	x10, .LBB62_7
.LBB62_15:
	mov	x11, x9
	and	x9, x23, #0xfffffffffffffff8
	add	x12, x8, x11
	sub	x10, x11, x9
	add	x11, x20, x11
	add	x12, x24, x12
.LBB62_16:
	ldr	d0, [x11], #8
	adds	x10, x10, #8
	str	d0, [x12], #8
	b.ne	.LBB62_16
	cmp	x23, x9
	b.eq	.LBB62_23
	b	.LBB62_7
.LBB62_18:
	mov	x0, x26
	mov	w1, #8
	mov	x24, x14
	bl	"std_alloc::vec::Vec::grow_amortized::<#a1765139b7b336a0>"
	cbz	w0, .LBB62_27
	ldp	x9, x27, [x26, #8]
	mov	x14, x24
	b	.LBB62_2
.LBB62_20:
	mov	x0, x26
	mov	x1, x23
	str	x14, [sp, #8]
	bl	"std_alloc::vec::Vec::grow_amortized::<#a1765139b7b336a0>"
	cbz	w0, .LBB62_27
	ldp	x8, x27, [x26, #8]
	ldr	x24, [x26]
	ldr	x14, [sp, #8]
	add	x0, x24, x8
	add	x25, x8, x23
	stp	xzr, xzr, [x21]
	sub	x9, x0, x20
	cmp	x9, x23
	b.lo	.LBB62_4
.LBB62_22:
	mov	x1, x20
	mov	x2, x23
	mov	x21, x14
	bl	memmove
	mov	x14, x21
.LBB62_23:
	sub	x8, x27, x25
	stp	x24, x25, [x26]
	cmp	x8, #7
	str	x27, [x26, #16]
	b.ls	.LBB62_34
.LBB62_24:
	add	x9, x14, x22
	add	x8, x25, #8
	ldr	x21, [sp, #16]
	rev	x9, x9
	str	x9, [x24, x25]
	sub	x9, x27, x8
	stp	x24, x8, [x26]
	cmp	x9, #7
	str	x27, [x26, #16]
	b.ls	.LBB62_36
.LBB62_25:
	ldr	x9, [sp, #24]
	mov	x0, x26
	rev	x9, x9
	str	x9, [x24, x8]
	add	x8, x8, #8
	add	x9, x23, x22
	stp	x24, x8, [x26]
	add	x22, x9, x21
	str	x27, [x26, #16]
	mov	x1, x22
	bl	"ct_data_tiles::entry_bytes::push_number"
	and	w8, w0, #0xff
	tbnz	w8, #0, .LBB62_27
	ldr	x1, [x19, #104]
	mov	x0, x26
	bl	"ct_data_tiles::entry_bytes::push_number"
	and	w8, w0, #0xff
	tbz	w8, #0, .LBB62_31
.LBB62_27:
	cbz	x28, .LBB62_29
	mov	x0, x20
	bl	rattle_dealloc
.LBB62_29:
	mov	x1, xzr
	mov	w0, #1
.LBB62_30:
	ldp	x20, x19, [sp, #144]
	ldp	x22, x21, [sp, #128]
	ldp	x24, x23, [sp, #112]
	ldp	x26, x25, [sp, #96]
	ldp	x28, x27, [sp, #80]
	ldp	x29, x30, [sp, #64]
	add	sp, sp, #160
	ret
.LBB62_31:
	ldr	x8, [x19, #104]
	add	x1, x8, x22
	cbz	x28, .LBB62_33
	mov	x0, x20
	mov	x19, x1
	bl	rattle_dealloc
	mov	x1, x19
.LBB62_33:
	mov	w0, wzr
	b	.LBB62_30
.LBB62_34:
	mov	x0, x26
	mov	w1, #8
	mov	x21, x14
	bl	"std_alloc::vec::Vec::grow_amortized::<#a1765139b7b336a0>"
	cbz	w0, .LBB62_27
	ldp	x25, x27, [x26, #8]
	mov	x14, x21
	ldr	x24, [x26]
	b	.LBB62_24
.LBB62_36:
	mov	x0, x26
	mov	w1, #8
	bl	"std_alloc::vec::Vec::grow_amortized::<#a1765139b7b336a0>"
	cbz	w0, .LBB62_27
	ldp	x8, x27, [x26, #8]
	ldr	x24, [x26]
	b	.LBB62_25
.Lfunc_end62:
	.size	"ct_data_tiles::entry_bytes::push_entry", .Lfunc_end62-"ct_data_tiles::entry_bytes::push_entry"
	.section	".text.unlikely.ct_data_tiles::entry_bytes::input_of","ax",@progbits
	.p2align	2
	.type	"ct_data_tiles::entry_bytes::input_of",@function
"ct_data_tiles::entry_bytes::input_of":
	sub	sp, sp, #160
	stp	x29, x30, [sp, #64]
	add	x29, sp, #64
	stp	x20, x19, [sp, #144]
	mov	x20, x1
	mov	x19, x0
	sub	x8, x29, #1
	add	x0, sp, #16
	mov	w1, #2
	stp	x28, x27, [sp, #80]
	stp	x26, x25, [sp, #96]
	add	x25, sp, #16
	stp	x24, x23, [sp, #112]
	stp	x22, x21, [sp, #128]
	stp	xzr, xzr, [sp, #24]
	str	x8, [sp, #16]
	bl	"std_alloc::vec::Vec::grow_amortized::<#a1765139b7b336a0>"
	cbz	w0, .LBB63_82
	ldp	x9, x26, [sp, #24]
	ldr	x27, [sp, #16]
	add	x8, x9, #2
	strh	wzr, [x27, x9]
	sub	x9, x26, x8
	ldr	x21, [x20]
	str	x8, [sp, #24]
	cmp	x9, #7
	b.ls	.LBB63_24
.LBB63_2:
	rev	x9, x21
	str	x9, [x27, x8]
	add	x8, x8, #8
	ldp	x21, x22, [x20, #16]
	ldrb	w9, [x20, #8]
	stp	x8, x26, [sp, #24]
	cbz	w9, .LBB63_13
	ldur	w9, [x20, #9]
	ldp	x23, x24, [x20, #48]
	ldr	w10, [x20, #12]
	sub	x12, x26, x8
	ldr	x11, [x20, #32]
	stur	w9, [x29, #-8]
	cmp	x12, #1
	ldrb	w9, [x20, #40]
	stur	w10, [x29, #-5]
	stur	x11, [x29, #-24]
	sturb	w9, [x29, #-16]
	b.ls	.LBB63_28
.LBB63_4:
	add	x9, x8, #2
	mov	w10, #256
	strh	w10, [x27, x8]
	sub	x8, x26, x9
	stp	x27, x9, [sp, #16]
	cmp	x8, #31
	str	x26, [sp, #32]
	b.ls	.LBB63_30
.LBB63_5:
	ldur	w8, [x29, #-5]
	ldur	w11, [x29, #-8]
	add	x10, x27, x9
	stur	x21, [x10, #7]
	stur	w8, [x10, #3]
	str	w11, [x10]
	stur	x22, [x10, #15]
	ldurb	w8, [x29, #-16]
	ldur	x11, [x29, #-24]
	strb	w8, [x10, #31]
	add	x8, x9, #32
	sub	x9, x26, x8
	stur	x11, [x10, #23]
	cmp	x9, #2
	stp	x27, x8, [sp, #16]
	str	x26, [sp, #32]
	b.ls	.LBB63_39
.LBB63_6:
	rev	w9, w24
	add	x11, x27, x8
	add	x8, x8, #3
	lsr	w10, w9, #24
	lsr	w9, w9, #8
	strh	w9, [x11]
	sub	x9, x26, x8
	cmp	x24, x9
	strb	w10, [x11, #2]
	stp	x27, x8, [sp, #16]
	str	x26, [sp, #32]
	b.hi	.LBB63_41
	add	x0, x27, x8
	add	x28, x8, x24
	sub	x9, x0, x23
	cmp	x9, x24
	b.hs	.LBB63_43
.LBB63_8:
	cmp	x24, #8
	b.lo	.LBB63_10
	add	x9, x8, x27
	sub	x9, x9, x23
	cmp	x9, #32
	b.hs	.LBB63_22
.LBB63_10:
	mov	x9, xzr
.LBB63_11:
	sub	x10, x24, x9
	add	x11, x23, x9
	add	x8, x9, x8
.LBB63_12:
	ldrb	w9, [x11], #1
	subs	x10, x10, #1
	strb	w9, [x27, x8]
	add	x8, x8, #1
	b.ne	.LBB63_12
	b	.LBB63_59
.LBB63_13:
	sub	x9, x26, x8
	cmp	x9, #1
	b.ls	.LBB63_44
.LBB63_14:
	add	x9, x8, #2
	strh	wzr, [x27, x8]
	sub	x8, x26, x9
	stp	x27, x9, [sp, #16]
	cmp	x8, #2
	str	x26, [sp, #32]
	b.ls	.LBB63_53
.LBB63_15:
	rev	w8, w22
	add	x11, x27, x9
	lsr	w10, w8, #24
	lsr	w12, w8, #8
	add	x8, x9, #3
	sub	x9, x26, x8
	cmp	x22, x9
	strb	w10, [x11, #2]
	strh	w12, [x11]
	stp	x27, x8, [sp, #16]
	str	x26, [sp, #32]
	b.hi	.LBB63_55
	add	x0, x27, x8
	add	x28, x8, x22
	sub	x9, x0, x21
	cmp	x9, x22
	b.hs	.LBB63_57
.LBB63_17:
	cmp	x22, #8
	b.lo	.LBB63_19
	add	x9, x8, x27
	sub	x9, x9, x21
	cmp	x9, #32
	b.hs	.LBB63_26
.LBB63_19:
	mov	x9, xzr
.LBB63_20:
	sub	x10, x22, x9
	add	x11, x21, x9
	add	x8, x9, x8
.LBB63_21:
	ldrb	w9, [x11], #1
	subs	x10, x10, #1
	strb	w9, [x27, x8]
	add	x8, x8, #1
	b.ne	.LBB63_21
	b	.LBB63_59
.LBB63_22:
	cmp	x24, #32
	b.hs	.LBB63_32
	mov	x9, xzr
	b	.LBB63_36
.LBB63_24:
	add	x0, sp, #16
	mov	w1, #8
	bl	"std_alloc::vec::Vec::grow_amortized::<#a1765139b7b336a0>"
	cbz	w0, .LBB63_82
	ldp	x8, x26, [sp, #24]
	ldr	x27, [sp, #16]
	b	.LBB63_2
.LBB63_26:
	cmp	x22, #32
	b.hs	.LBB63_46
	mov	x9, xzr
	b	.LBB63_50
.LBB63_28:
	add	x0, sp, #16
	mov	w1, #2
	bl	"std_alloc::vec::Vec::grow_amortized::<#a1765139b7b336a0>"
	cbz	w0, .LBB63_82
	ldp	x8, x26, [sp, #24]
	ldr	x27, [sp, #16]
	b	.LBB63_4
.LBB63_30:
	add	x0, sp, #16
	mov	w1, #32
	bl	"std_alloc::vec::Vec::grow_amortized::<#a1765139b7b336a0>"
	cbz	w0, .LBB63_82
	ldp	x9, x26, [sp, #24]
	ldr	x27, [sp, #16]
	b	.LBB63_5
.LBB63_32:
	add	x12, x8, x27
	and	x10, x24, #0x18
	and	x9, x24, #0xffffffffffffffe0
	add	x11, x23, #16
	add	x12, x12, #16
	and	x13, x24, #0xffffffffffffffe0
.LBB63_33:
	ldp	q0, q1, [x11, #-16]
	subs	x13, x13, #32
	add	x11, x11, #32
	stp	q0, q1, [x12, #-16]
	add	x12, x12, #32
	b.ne	.LBB63_33
	cmp	x24, x9
	b.eq	.LBB63_59
	cbz	x10, .LBB63_11
.LBB63_36:
	mov	x12, x9
	and	x9, x24, #0xfffffffffffffff8
	sub	x10, x12, x9
	add	x11, x23, x12
	add	x12, x8, x12
.LBB63_37:
	ldr	d0, [x11], #8
	adds	x10, x10, #8
	str	d0, [x27, x12]
	add	x12, x12, #8
	b.ne	.LBB63_37
	cmp	x24, x9
	b.eq	.LBB63_59
	b	.LBB63_11
.LBB63_39:
	add	x0, sp, #16
	mov	w1, #3
	bl	"std_alloc::vec::Vec::grow_amortized::<#a1765139b7b336a0>"
	cbz	w0, .LBB63_82
	ldp	x8, x26, [sp, #24]
	ldr	x27, [sp, #16]
	b	.LBB63_6
.LBB63_41:
	add	x0, sp, #16
	mov	x1, x24
	bl	"std_alloc::vec::Vec::grow_amortized::<#a1765139b7b336a0>"
	cbz	w0, .LBB63_82
	ldp	x8, x26, [sp, #24]
	ldr	x27, [sp, #16]
	add	x0, x27, x8
	add	x28, x8, x24
	sub	x9, x0, x23
	cmp	x9, x24
	b.lo	.LBB63_8
.LBB63_43:
	mov	x1, x23
	mov	x2, x24
	b	.LBB63_58
.LBB63_44:
	add	x0, sp, #16
	mov	w1, #2
	bl	"std_alloc::vec::Vec::grow_amortized::<#a1765139b7b336a0>"
	cbz	w0, .LBB63_82
	ldp	x8, x26, [sp, #24]
	ldr	x27, [sp, #16]
	b	.LBB63_14
.LBB63_46:
	add	x12, x8, x27
	and	x10, x22, #0x18
	and	x9, x22, #0xffffffffffffffe0
	add	x11, x21, #16
	add	x12, x12, #16
	and	x13, x22, #0xffffffffffffffe0
.LBB63_47:
	ldp	q0, q1, [x11, #-16]
	subs	x13, x13, #32
	add	x11, x11, #32
	stp	q0, q1, [x12, #-16]
	add	x12, x12, #32
	b.ne	.LBB63_47
	cmp	x22, x9
	b.eq	.LBB63_59
	cbz	x10, .LBB63_20
.LBB63_50:
	mov	x12, x9
	and	x9, x22, #0xfffffffffffffff8
	sub	x10, x12, x9
	add	x11, x21, x12
	add	x12, x8, x12
.LBB63_51:
	ldr	d0, [x11], #8
	adds	x10, x10, #8
	str	d0, [x27, x12]
	add	x12, x12, #8
	b.ne	.LBB63_51
	cmp	x22, x9
	b.eq	.LBB63_59
	b	.LBB63_20
.LBB63_53:
	add	x0, sp, #16
	mov	w1, #3
	bl	"std_alloc::vec::Vec::grow_amortized::<#a1765139b7b336a0>"
	cbz	w0, .LBB63_82
	ldp	x9, x26, [sp, #24]
	ldr	x27, [sp, #16]
	b	.LBB63_15
.LBB63_55:
	add	x0, sp, #16
	mov	x1, x22
	bl	"std_alloc::vec::Vec::grow_amortized::<#a1765139b7b336a0>"
	cbz	w0, .LBB63_82
	ldp	x8, x26, [sp, #24]
	ldr	x27, [sp, #16]
	add	x0, x27, x8
	add	x28, x8, x22
	sub	x9, x0, x21
	cmp	x9, x22
	b.lo	.LBB63_17
.LBB63_57:
	mov	x1, x21
	mov	x2, x22
.LBB63_58:
	bl	memmove
.LBB63_59:
	ldp	x1, x2, [x20, #64]
	sub	x8, x26, x28
	cmp	x8, #1
	stp	x27, x28, [sp, #16]
	str	x26, [sp, #32]
	b.ls	.LBB63_76
.LBB63_60:
	rev16	w9, w2
	add	x8, x28, #2
	strh	w9, [x27, x28]
	sub	x9, x26, x8
	stp	x27, x8, [sp, #16]
	cmp	x2, x9
	str	x26, [sp, #32]
	b.hi	.LBB63_78
	add	x0, x27, x8
	add	x20, x8, x2
	sub	x9, x0, x1
	cmp	x9, x2
	b.hs	.LBB63_80
.LBB63_62:
	cmp	x2, #8
	b.lo	.LBB63_64
	add	x9, x8, x27
	sub	x9, x9, x1
	cmp	x9, #32
	b.hs	.LBB63_67
.LBB63_64:
	mov	x9, xzr
.LBB63_65:
	add	x10, x9, x8
	sub	x8, x2, x9
	add	x9, x1, x9
	add	x10, x27, x10
.LBB63_66:
	ldrb	w11, [x9], #1
	subs	x8, x8, #1
	strb	w11, [x10], #1
	b.ne	.LBB63_66
	b	.LBB63_81
.LBB63_67:
	cmp	x2, #32
	b.hs	.LBB63_69
	mov	x9, xzr
	b	.LBB63_73
.LBB63_69:
	add	x12, x8, x27
	and	x10, x2, #0x18
	and	x9, x2, #0xffffffffffffffe0
	add	x11, x1, #16
	add	x12, x12, #16
	and	x13, x2, #0xffffffffffffffe0
.LBB63_70:
	ldp	q0, q1, [x11, #-16]
	subs	x13, x13, #32
	add	x11, x11, #32
	stp	q0, q1, [x12, #-16]
	add	x12, x12, #32
	b.ne	.LBB63_70
	cmp	x2, x9
	b.eq	.LBB63_81
	cbz	x10, .LBB63_65
.LBB63_73:
	mov	x11, x9
	and	x9, x2, #0xfffffffffffffff8
	add	x12, x8, x11
	sub	x10, x11, x9
	add	x11, x1, x11
	add	x12, x27, x12
.LBB63_74:
	ldr	d0, [x11], #8
	adds	x10, x10, #8
	str	d0, [x12], #8
	b.ne	.LBB63_74
	cmp	x2, x9
	b.eq	.LBB63_81
	b	.LBB63_65
.LBB63_76:
	mov	x21, x1
	add	x0, sp, #16
	mov	w1, #2
	mov	x20, x2
	bl	"std_alloc::vec::Vec::grow_amortized::<#a1765139b7b336a0>"
	cbz	w0, .LBB63_82
	ldp	x28, x26, [sp, #24]
	mov	x1, x21
	ldr	x27, [sp, #16]
	mov	x2, x20
	b	.LBB63_60
.LBB63_78:
	mov	x20, x1
	add	x0, sp, #16
	mov	x1, x2
	mov	x21, x2
	bl	"std_alloc::vec::Vec::grow_amortized::<#a1765139b7b336a0>"
	cbz	w0, .LBB63_82
	ldp	x8, x26, [sp, #24]
	mov	x1, x20
	ldr	x27, [sp, #16]
	mov	x2, x21
	add	x0, x27, x8
	add	x20, x8, x21
	sub	x9, x0, x1
	cmp	x9, x21
	b.lo	.LBB63_62
.LBB63_80:
	bl	memmove
.LBB63_81:
	stp	x20, x26, [sp, #24]
	ldur	q0, [x25, #8]
	strb	wzr, [x19]
	str	x27, [x19, #8]
	str	q0, [sp]
	str	q0, [x19, #16]
	b	.LBB63_85
.LBB63_82:
	ldr	x8, [sp, #32]
	cbz	x8, .LBB63_84
	ldr	x0, [sp, #16]
	bl	rattle_dealloc
.LBB63_84:
	mov	w8, #1
	stp	xzr, xzr, [x19, #16]
	strb	w8, [x19]
	str	xzr, [x19, #8]
.LBB63_85:
	ldp	x20, x19, [sp, #144]
	ldp	x22, x21, [sp, #128]
	ldp	x24, x23, [sp, #112]
	ldp	x26, x25, [sp, #96]
	ldp	x28, x27, [sp, #80]
	ldp	x29, x30, [sp, #64]
	add	sp, sp, #160
	ret
.Lfunc_end63:
	.size	"ct_data_tiles::entry_bytes::input_of", .Lfunc_end63-"ct_data_tiles::entry_bytes::input_of"
	.section	".text.ct_data_tiles::entry_bytes::push_number","ax",@progbits
	.p2align	2
	.type	"ct_data_tiles::entry_bytes::push_number",@function
"ct_data_tiles::entry_bytes::push_number":
	sub	sp, sp, #48
	ldp	x10, x9, [x0, #8]
	stp	x20, x19, [sp, #32]
	rev	x19, x1
	stp	x29, x30, [sp, #16]
	add	x29, sp, #16
	str	x19, [sp, #8]
	sub	x8, x9, x10
	cmp	x8, #7
	b.ls	.LBB64_2
.LBB64_1:
	ldr	x11, [x0]
	add	x12, sp, #8
	ldr	x14, [sp, #8]
	mov	w8, wzr
	add	x13, x11, x10
	add	x10, x10, #8
	sub	x12, x13, x12
	cmp	x12, #8
	csel	x12, x14, x19, lo
	str	x12, [x13]
	stp	x11, x10, [x0]
	str	x9, [x0, #16]
	ldp	x20, x19, [sp, #32]
	mov	w0, w8
	ldp	x29, x30, [sp, #16]
	add	sp, sp, #48
	ret
.LBB64_2:
	mov	w1, #8
	mov	x20, x0
	bl	"std_alloc::vec::Vec::grow_amortized::<#a1765139b7b336a0>"
	cbz	w0, .LBB64_4
	ldp	x10, x9, [x20, #8]
	mov	x0, x20
	b	.LBB64_1
.LBB64_4:
	mov	w8, #1
	ldp	x20, x19, [sp, #32]
	mov	w0, w8
	ldp	x29, x30, [sp, #16]
	add	sp, sp, #48
	ret
.Lfunc_end64:
	.size	"ct_data_tiles::entry_bytes::push_number", .Lfunc_end64-"ct_data_tiles::entry_bytes::push_number"
	.section	".text.ct_node::lock_writing::digits_of","ax",@progbits
	.p2align	2
	.type	"ct_node::lock_writing::digits_of",@function
"ct_node::lock_writing::digits_of":
	stp	x29, x30, [sp, #-48]!
	stp	x20, x19, [sp, #32]
	mov	x20, x1
	mov	x19, x0
	mov	w0, #16
	mov	w1, #1
	str	x21, [sp, #16]
	mov	x29, sp
	mov	w21, #1
	bl	rattle_alloc
	tbz	w0, #0, .LBB65_2
	rev	x8, x20
	adrp	x9, .Lstatic.1
	add	x9, x9, :lo12:.Lstatic.1
	ubfx	x10, x8, #4, #4
	ubfx	x11, x8, #12, #4
	mov	w21, wzr
	ldrb	w10, [x9, x10]
	strb	w10, [x1]
	and	x10, x8, #0xf
	ldrb	w10, [x9, x10]
	strb	w10, [x1, #1]
	ldrb	w10, [x9, x11]
	ubfx	x11, x8, #8, #4
	strb	w10, [x1, #2]
	ldrb	w10, [x9, x11]
	ubfx	x11, x8, #20, #4
	strb	w10, [x1, #3]
	ldrb	w10, [x9, x11]
	ubfx	x11, x8, #16, #4
	strb	w10, [x1, #4]
	ldrb	w10, [x9, x11]
	lsr	w11, w8, #28
	strb	w10, [x1, #5]
	ldrb	w10, [x9, x11]
	ubfx	x11, x8, #24, #4
	strb	w10, [x1, #6]
	ldrb	w10, [x9, x11]
	ubfx	x11, x8, #36, #4
	strb	w10, [x1, #7]
	ldrb	w10, [x9, x11]
	ubfx	x11, x8, #32, #4
	strb	w10, [x1, #8]
	ldrb	w10, [x9, x11]
	ubfx	x11, x8, #44, #4
	strb	w10, [x1, #9]
	ldrb	w10, [x9, x11]
	ubfx	x11, x8, #40, #4
	strb	w10, [x1, #10]
	ldrb	w10, [x9, x11]
	ubfx	x11, x8, #52, #4
	strb	w10, [x1, #11]
	ldrb	w10, [x9, x11]
	ubfx	x11, x8, #48, #4
	strb	w10, [x1, #12]
	ldrb	w10, [x9, x11]
	lsr	x11, x8, #60
	ubfx	x8, x8, #56, #4
	strb	w10, [x1, #13]
	ldrb	w10, [x9, x11]
	strb	w10, [x1, #14]
	ldrb	w8, [x9, x8]
	strb	w8, [x1, #15]
	mov	w8, #16
	b	.LBB65_3
.LBB65_2:
	mov	x1, xzr
	mov	x8, xzr
.LBB65_3:
	strb	w21, [x19]
	ldr	x21, [sp, #16]
	stp	x1, x8, [x19, #8]
	str	x8, [x19, #24]
	ldp	x20, x19, [sp, #32]
	ldp	x29, x30, [sp], #48
	ret
.Lfunc_end65:
	.size	"ct_node::lock_writing::digits_of", .Lfunc_end65-"ct_node::lock_writing::digits_of"
	.section	".text.unlikely.std_alloc::vec::Vec::grow_amortized::<#c54c92966a7f5a87>","ax",@progbits
	.p2align	2
	.type	"std_alloc::vec::Vec::grow_amortized::<#c54c92966a7f5a87>",@function
"std_alloc::vec::Vec::grow_amortized::<#c54c92966a7f5a87>":
	ldr	x8, [x0, #8]
	cmn	x8, x1
	b.lo	.LBB66_2
	mov	w0, wzr
	ret
.LBB66_2:
	stp	x29, x30, [sp, #-32]!
	ldr	x10, [x0, #16]
	add	x9, x8, x1
	mov	w11, #8
	cmp	x9, #8
	stp	x20, x19, [sp, #16]
	mov	x29, sp
	lsl	x12, x10, #1
	csel	x11, x9, x11, hi
	lsr	x13, x10, #62
	cmp	x11, x12
	csel	x9, x11, x12, hi
	cmp	x13, #0
	csel	x19, x9, x11, eq
	tbnz	x19, #63, .LBB66_7
	cbz	x10, .LBB66_6
	mov	x20, x0
	ldr	x0, [x0]
	mov	x1, x8
	mov	x2, x19
	mov	w3, #1
	bl	rattle_realloc
	tbz	w0, #0, .LBB66_7
.LBB66_5:
	mov	w0, #1
	str	x1, [x20]
	str	x19, [x20, #16]
	ldp	x20, x19, [sp, #16]
	ldp	x29, x30, [sp], #32
	ret
.LBB66_6:
	mov	x20, x0
	mov	x0, x9
	mov	w1, #1
	bl	rattle_alloc
	tbnz	w0, #0, .LBB66_5
.LBB66_7:
	mov	w0, wzr
	ldp	x20, x19, [sp, #16]
	ldp	x29, x30, [sp], #32
	ret
.Lfunc_end66:
	.size	"std_alloc::vec::Vec::grow_amortized::<#c54c92966a7f5a87>", .Lfunc_end66-"std_alloc::vec::Vec::grow_amortized::<#c54c92966a7f5a87>"
	.section	".text.unlikely.libwagtenib::monitor::wagtenib_monitor_begin","ax",@progbits
	.p2align	2
	.type	"libwagtenib::monitor::wagtenib_monitor_begin",@function
"libwagtenib::monitor::wagtenib_monitor_begin":
	sub	sp, sp, #96
	movi	v0.2d, #0000000000000000
	stp	x20, x19, [sp, #80]
	mov	x20, x0
	mov	x0, sp
	stp	x29, x30, [sp, #32]
	add	x29, sp, #32
	str	x23, [sp, #48]
	stp	x22, x21, [sp, #64]
	mov	x21, x2
	mov	x22, x1
	stp	q0, q0, [sp]
	bl	"ct_monitor::calls::begin"
	ldrb	w8, [sp]
	cbz	w8, .LBB67_3
	mov	w0, #8
.LBB67_2:
	ldp	x20, x19, [sp, #80]
	ldr	x23, [sp, #48]
	ldp	x22, x21, [sp, #64]
	ldp	x29, x30, [sp, #32]
	add	sp, sp, #96
	ret
.LBB67_3:
	ldp	x19, x2, [sp, #8]
	ldr	x23, [sp, #24]
	cmp	x22, x2
	str	x2, [x21]
	b.hs	.LBB67_5
	mov	w0, #9
	cbnz	x23, .LBB67_21
	b	.LBB67_2
.LBB67_5:
	sub	x9, x20, x19
	cmp	x9, x2
	b.hs	.LBB67_10
	cmp	x2, #8
	mov	x8, xzr
	b.lo	.LBB67_18
	cmp	x9, #32
	b.lo	.LBB67_18
	cmp	x2, #32
	b.hs	.LBB67_11
	mov	x8, xzr
	b	.LBB67_15
.LBB67_10:
	mov	x0, x20
	mov	x1, x19
	bl	memmove
	b	.LBB67_20
.LBB67_11:
	and	x9, x2, #0x18
	and	x8, x2, #0xffffffffffffffe0
	add	x10, x19, #16
	add	x11, x20, #16
	and	x12, x2, #0xffffffffffffffe0
.LBB67_12:
	ldp	q0, q1, [x10, #-16]
	subs	x12, x12, #32
	add	x10, x10, #32
	stp	q0, q1, [x11, #-16]
	add	x11, x11, #32
	b.ne	.LBB67_12
	cmp	x2, x8
	b.eq	.LBB67_20
	cbz	x9, .LBB67_18
.LBB67_15:
	mov	x11, x8
	and	x8, x2, #0xfffffffffffffff8
	sub	x9, x11, x8
	add	x10, x19, x11
	add	x11, x20, x11
.LBB67_16:
	ldr	d0, [x10], #8
	adds	x9, x9, #8
	str	d0, [x11], #8
	b.ne	.LBB67_16
	cmp	x2, x8
	b.eq	.LBB67_20
.LBB67_18:
	sub	x9, x2, x8
	add	x10, x19, x8
	add	x8, x20, x8
.LBB67_19:
	ldrb	w11, [x10], #1
	subs	x9, x9, #1
	strb	w11, [x8], #1
	b.ne	.LBB67_19
.LBB67_20:
	mov	w0, wzr
	cbz	x23, .LBB67_2
.LBB67_21:
	mov	w20, w0
	mov	x0, x19
	bl	rattle_dealloc
	mov	w0, w20
	ldp	x20, x19, [sp, #80]
	ldr	x23, [sp, #48]
	ldp	x22, x21, [sp, #64]
	ldp	x29, x30, [sp, #32]
	add	sp, sp, #96
	ret
.Lfunc_end67:
	.size	"libwagtenib::monitor::wagtenib_monitor_begin", .Lfunc_end67-"libwagtenib::monitor::wagtenib_monitor_begin"
	.section	".text.unlikely.ct_monitor::calls::begin","ax",@progbits
	.p2align	2
	.type	"ct_monitor::calls::begin",@function
"ct_monitor::calls::begin":
	sub	sp, sp, #272
	movi	v0.2d, #0000000000000000
	stp	x29, x30, [sp, #240]
	add	x29, sp, #240
	stp	x28, x19, [sp, #256]
	mov	x19, x0
	sub	x8, x29, #1
	sub	x0, x29, #48
	mov	x1, sp
	stp	xzr, xzr, [sp, #144]
	stp	xzr, xzr, [sp, #176]
	stp	q0, q0, [x29, #-48]
	stur	q0, [sp, #8]
	stur	q0, [sp, #24]
	stur	q0, [sp, #40]
	stp	q0, q0, [sp, #64]
	str	q0, [sp, #96]
	str	xzr, [sp]
	str	xzr, [sp, #56]
	stp	xzr, xzr, [sp, #112]
	stp	xzr, x8, [sp, #128]
	stp	xzr, x8, [sp, #160]
	bl	"ct_monitor::writing::write_state"
	ldr	x8, [sp, #152]
	cbz	x8, .LBB68_2
	sub	x0, x29, #1
	bl	rattle_dealloc
.LBB68_2:
	ldr	x8, [sp, #184]
	cbz	x8, .LBB68_4
	sub	x0, x29, #1
	bl	rattle_dealloc
.LBB68_4:
	ldurb	w8, [x29, #-48]
	ldur	q0, [x29, #-40]
	ldur	x9, [x29, #-24]
	ldp	x29, x30, [sp, #240]
	strb	w8, [x19]
	stur	q0, [x19, #8]
	str	x9, [x19, #24]
	ldp	x28, x19, [sp, #256]
	add	sp, sp, #272
	ret
.Lfunc_end68:
	.size	"ct_monitor::calls::begin", .Lfunc_end68-"ct_monitor::calls::begin"
	.section	".text.unlikely.ct_monitor::writing::write_state","ax",@progbits
	.p2align	2
	.type	"ct_monitor::writing::write_state",@function
"ct_monitor::writing::write_state":
	sub	sp, sp, #192
	movi	v0.2d, #0000000000000000
	stp	x20, x19, [sp, #176]
	mov	x19, x0
	add	x0, sp, #32
	stp	x29, x30, [sp, #144]
	add	x29, sp, #144
	str	x21, [sp, #160]
	stp	q0, q0, [sp, #32]
	bl	"ct_monitor::writing::parts_of"
	ldrb	w8, [sp, #32]
	cbz	w8, .LBB69_2
.LBB69_1:
	mov	w8, #1
	stp	xzr, xzr, [x19, #16]
	strb	w8, [x19]
	str	xzr, [x19, #8]
	ldp	x20, x19, [sp, #176]
	ldr	x21, [sp, #160]
	ldp	x29, x30, [sp, #144]
	add	sp, sp, #192
	ret
.LBB69_2:
	ldur	q0, [sp, #40]
	sub	x0, x29, #32
	sub	x1, x29, #48
	mov	w2, #1
	str	q0, [sp, #64]
	movi	v0.2d, #0000000000000000
	ldp	x8, x21, [sp, #56]
	ldr	x20, [sp, #72]
	stp	q0, q0, [x29, #-32]
	str	x8, [sp, #80]
	stp	x21, x20, [x29, #-48]
	bl	"ct_tree::hash::Sha256HashNodeHash::hash"
	ldr	x8, [sp, #80]
	ldp	q0, q1, [x29, #-32]
	sub	x9, x8, x20
	cmp	x9, #31
	stp	q0, q1, [sp]
	b.ls	.LBB69_4
.LBB69_3:
	ldp	q0, q1, [sp]
	add	x10, x20, #32
	add	x9, x21, x20
	stp	x10, x8, [sp, #72]
	stp	q0, q1, [x9]
	ldr	q0, [sp, #64]
	strb	wzr, [x19]
	str	x8, [x19, #24]
	stur	q0, [x19, #8]
	ldp	x20, x19, [sp, #176]
	ldr	x21, [sp, #160]
	ldp	x29, x30, [sp, #144]
	add	sp, sp, #192
	ret
.LBB69_4:
	add	x0, sp, #64
	mov	w1, #32
	bl	"std_alloc::vec::Vec::grow_amortized::<#112a50543f8e20a2>"
	cbz	w0, .LBB69_6
	ldp	x20, x8, [sp, #72]
	ldr	x21, [sp, #64]
	b	.LBB69_3
.LBB69_6:
	ldr	x8, [sp, #80]
	cbz	x8, .LBB69_1
	ldr	x0, [sp, #64]
	bl	rattle_dealloc
	b	.LBB69_1
.Lfunc_end69:
	.size	"ct_monitor::writing::write_state", .Lfunc_end69-"ct_monitor::writing::write_state"
	.section	".text.unlikely.ct_monitor::writing::parts_of","ax",@progbits
	.p2align	2
	.type	"ct_monitor::writing::parts_of",@function
"ct_monitor::writing::parts_of":
	sub	sp, sp, #192
	stp	x29, x30, [sp, #144]
	add	x29, sp, #144
	stp	x20, x19, [sp, #176]
	mov	x20, x1
	mov	x19, x0
	sub	x8, x29, #1
	sub	x0, x29, #32
	mov	w1, #1
	stp	x22, x21, [sp, #160]
	stp	xzr, xzr, [sp, #32]
	str	xzr, [sp, #48]
	stp	xzr, xzr, [sp, #8]
	str	xzr, [sp]
	stur	xzr, [sp, #23]
	stp	xzr, xzr, [x29, #-24]
	stur	x8, [x29, #-32]
	bl	"std_alloc::vec::Vec::grow_amortized::<#112a50543f8e20a2>"
	cbz	w0, .LBB70_3
	ldp	x9, x8, [x29, #-32]
	mov	w10, #2
	sub	x0, x29, #32
	add	x1, sp, #56
	add	x21, sp, #56
	strb	w10, [x9, x8]
	add	x8, x8, #1
	ldur	q0, [x20, #8]
	stur	x8, [x29, #-24]
	ldur	q1, [x20, #24]
	ldur	q2, [x20, #40]
	ldrb	w8, [x20]
	stp	q0, q1, [sp, #64]
	stur	q2, [sp, #96]
	str	x8, [sp, #56]
	bl	"ct_monitor::writing::push_head"
	and	w8, w0, #0xff
	tbnz	w8, #0, .LBB70_3
	ldp	q0, q1, [x20, #64]
	sub	x0, x29, #32
	ldr	q2, [x20, #96]
	ldrb	w8, [x20, #56]
	add	x1, sp, #56
	stur	q0, [x21, #8]
	stur	q1, [x21, #24]
	stur	q2, [x21, #40]
	str	x8, [sp, #56]
	bl	"ct_monitor::writing::push_head"
	and	w8, w0, #0xff
	tbz	w8, #0, .LBB70_7
.LBB70_3:
	ldur	x8, [x29, #-16]
	cbz	x8, .LBB70_6
	ldur	x0, [x29, #-32]
.LBB70_5:
	bl	rattle_dealloc
.LBB70_6:
	mov	w8, #1
	stp	xzr, xzr, [x19, #16]
	strb	w8, [x19]
	str	xzr, [x19, #8]
	ldp	x20, x19, [sp, #176]
	ldp	x22, x21, [sp, #160]
	ldp	x29, x30, [sp, #144]
	add	sp, sp, #192
	ret
.LBB70_7:
	ldp	x10, x8, [x29, #-24]
	ldp	x22, x21, [x20, #112]
	sub	x9, x8, x10
	cmp	x9, #7
	b.ls	.LBB70_14
.LBB70_8:
	add	x9, x10, #8
	ldur	x11, [x29, #-32]
	rev	x12, x22
	sub	x13, x8, x9
	stp	x9, x8, [x29, #-24]
	cmp	x13, #7
	str	x12, [x11, x10]
	b.ls	.LBB70_16
.LBB70_9:
	add	x12, x9, #8
	add	x0, sp, #32
	add	x1, x20, #128
	stur	x12, [x29, #-24]
	rev	x10, x21
	ldur	q0, [x29, #-32]
	str	x10, [x11, x9]
	stur	x8, [sp, #23]
	str	x8, [sp, #48]
	stur	q0, [sp, #7]
	str	q0, [sp, #32]
	bl	"ct_monitor::writing::push_subtrees"
	and	w8, w0, #0xff
	tbnz	w8, #0, .LBB70_11
	add	x0, sp, #32
	add	x1, x20, #160
	bl	"ct_monitor::writing::push_subtrees"
	and	w8, w0, #0xff
	tbz	w8, #0, .LBB70_13
.LBB70_11:
	ldr	x8, [sp, #48]
	cbz	x8, .LBB70_6
	ldr	x0, [sp, #32]
	b	.LBB70_5
.LBB70_13:
	ldr	q0, [sp, #32]
	ldr	x8, [sp, #48]
	strb	wzr, [x19]
	stur	q0, [x19, #8]
	str	x8, [x19, #24]
	ldp	x20, x19, [sp, #176]
	ldp	x22, x21, [sp, #160]
	ldp	x29, x30, [sp, #144]
	add	sp, sp, #192
	ret
.LBB70_14:
	sub	x0, x29, #32
	mov	w1, #8
	bl	"std_alloc::vec::Vec::grow_amortized::<#112a50543f8e20a2>"
	cbz	w0, .LBB70_3
	ldp	x10, x8, [x29, #-24]
	b	.LBB70_8
.LBB70_16:
	sub	x0, x29, #32
	mov	w1, #8
	bl	"std_alloc::vec::Vec::grow_amortized::<#112a50543f8e20a2>"
	cbz	w0, .LBB70_3
	ldp	x9, x8, [x29, #-24]
	ldur	x11, [x29, #-32]
	b	.LBB70_9
.Lfunc_end70:
	.size	"ct_monitor::writing::parts_of", .Lfunc_end70-"ct_monitor::writing::parts_of"
	.section	".text.unlikely.std_alloc::vec::Vec::grow_amortized::<#112a50543f8e20a2>","ax",@progbits
	.p2align	2
	.type	"std_alloc::vec::Vec::grow_amortized::<#112a50543f8e20a2>",@function
"std_alloc::vec::Vec::grow_amortized::<#112a50543f8e20a2>":
	ldr	x8, [x0, #8]
	cmn	x8, x1
	b.lo	.LBB71_2
	mov	w0, wzr
	ret
.LBB71_2:
	stp	x29, x30, [sp, #-32]!
	ldr	x10, [x0, #16]
	add	x9, x8, x1
	mov	w11, #8
	cmp	x9, #8
	stp	x20, x19, [sp, #16]
	mov	x29, sp
	lsl	x12, x10, #1
	csel	x11, x9, x11, hi
	lsr	x13, x10, #62
	cmp	x11, x12
	csel	x9, x11, x12, hi
	cmp	x13, #0
	csel	x19, x9, x11, eq
	tbnz	x19, #63, .LBB71_7
	cbz	x10, .LBB71_6
	mov	x20, x0
	ldr	x0, [x0]
	mov	x1, x8
	mov	x2, x19
	mov	w3, #1
	bl	rattle_realloc
	tbz	w0, #0, .LBB71_7
.LBB71_5:
	mov	w0, #1
	str	x1, [x20]
	str	x19, [x20, #16]
	ldp	x20, x19, [sp, #16]
	ldp	x29, x30, [sp], #32
	ret
.LBB71_6:
	mov	x20, x0
	mov	x0, x9
	mov	w1, #1
	bl	rattle_alloc
	tbnz	w0, #0, .LBB71_5
.LBB71_7:
	mov	w0, wzr
	ldp	x20, x19, [sp, #16]
	ldp	x29, x30, [sp], #32
	ret
.Lfunc_end71:
	.size	"std_alloc::vec::Vec::grow_amortized::<#112a50543f8e20a2>", .Lfunc_end71-"std_alloc::vec::Vec::grow_amortized::<#112a50543f8e20a2>"
	.section	".text.ct_monitor::writing::push_head","ax",@progbits
	.p2align	2
	.type	"ct_monitor::writing::push_head",@function
"ct_monitor::writing::push_head":
	sub	sp, sp, #80
	ldrb	w8, [x1]
	stp	x29, x30, [sp, #48]
	add	x29, sp, #48
	stp	x20, x19, [sp, #64]
	cbz	w8, .LBB72_7
	ldp	x9, x8, [x0, #8]
	ldur	q0, [x1, #8]
	ldur	q1, [x1, #24]
	ldur	q2, [x1, #40]
	cmp	x8, x9
	stp	q0, q1, [sp]
	str	q2, [sp, #32]
	b.eq	.LBB72_9
.LBB72_2:
	ldr	x8, [x0]
	mov	w10, #1
	ldr	x19, [sp]
	strb	w10, [x8, x9]
	add	x10, x9, #1
	ldr	x8, [x0, #16]
	str	x10, [x0, #8]
	sub	x9, x8, x10
	cmp	x9, #7
	b.ls	.LBB72_11
.LBB72_3:
	ldr	x9, [x0]
	add	x11, x10, #8
	rev	x12, x19
	ldr	x19, [sp, #8]
	str	x12, [x9, x10]
	sub	x10, x8, x11
	cmp	x10, #7
	stp	x9, x11, [x0]
	str	x8, [x0, #16]
	b.ls	.LBB72_13
.LBB72_4:
	add	x10, x11, #8
	rev	x12, x19
	str	x12, [x9, x11]
	sub	x11, x8, x10
	stp	x9, x10, [x0]
	cmp	x11, #31
	str	x8, [x0, #16]
	b.ls	.LBB72_15
.LBB72_5:
	mov	x11, sp
	add	x12, x9, x10
	add	x10, x10, #32
	mov	w19, wzr
	ldp	q1, q0, [x11, #16]!
	sub	x13, x12, x11
	cmp	x13, #31
	stp	q1, q0, [x12]
	stp	x9, x10, [x0]
	str	x8, [x0, #16]
.LBB72_6:
	mov	w0, w19
	ldp	x20, x19, [sp, #64]
	ldp	x29, x30, [sp, #48]
	add	sp, sp, #80
	ret
.LBB72_7:
	ldp	x8, x9, [x0, #8]
	cmp	x9, x8
	b.eq	.LBB72_18
.LBB72_8:
	ldr	x9, [x0]
	add	x10, x8, #1
	mov	w19, wzr
	strb	wzr, [x9, x8]
	str	x10, [x0, #8]
	mov	w0, w19
	ldp	x20, x19, [sp, #64]
	ldp	x29, x30, [sp, #48]
	add	sp, sp, #80
	ret
.LBB72_9:
	mov	w1, #1
	mov	x20, x0
	mov	w19, #1
	bl	"std_alloc::vec::Vec::grow_amortized::<#112a50543f8e20a2>"
	cbz	w0, .LBB72_6
	ldr	x9, [x20, #8]
	mov	x0, x20
	b	.LBB72_2
.LBB72_11:
	mov	w1, #8
	mov	x20, x0
	bl	"std_alloc::vec::Vec::grow_amortized::<#112a50543f8e20a2>"
	cbz	w0, .LBB72_17
	ldp	x10, x8, [x20, #8]
	mov	x0, x20
	b	.LBB72_3
.LBB72_13:
	mov	w1, #8
	mov	x20, x0
	bl	"std_alloc::vec::Vec::grow_amortized::<#112a50543f8e20a2>"
	cbz	w0, .LBB72_17
	ldp	x11, x8, [x20, #8]
	mov	x0, x20
	ldr	x9, [x20]
	b	.LBB72_4
.LBB72_15:
	mov	w1, #32
	mov	x19, x0
	bl	"std_alloc::vec::Vec::grow_amortized::<#112a50543f8e20a2>"
	cbz	w0, .LBB72_17
	ldp	x10, x8, [x19, #8]
	mov	x0, x19
	ldr	x9, [x19]
	b	.LBB72_5
.LBB72_17:
	mov	w19, #1
	mov	w0, w19
	ldp	x20, x19, [sp, #64]
	ldp	x29, x30, [sp, #48]
	add	sp, sp, #80
	ret
.LBB72_18:
	mov	w1, #1
	mov	x20, x0
	mov	w19, #1
	bl	"std_alloc::vec::Vec::grow_amortized::<#112a50543f8e20a2>"
	cbz	w0, .LBB72_6
	ldr	x8, [x20, #8]
	mov	x0, x20
	b	.LBB72_8
.Lfunc_end72:
	.size	"ct_monitor::writing::push_head", .Lfunc_end72-"ct_monitor::writing::push_head"
	.section	".text.ct_monitor::writing::push_subtrees","ax",@progbits
	.p2align	2
	.type	"ct_monitor::writing::push_subtrees",@function
"ct_monitor::writing::push_subtrees":
	stp	x29, x30, [sp, #-64]!
	stp	x24, x23, [sp, #16]
	mov	x23, x0
	ldr	x24, [x1]
	stp	x22, x21, [sp, #32]
	mov	x29, sp
	ldp	x8, x21, [x23, #8]!
	stp	x20, x19, [sp, #48]
	mov	x20, x1
	mov	x19, x0
	sub	x9, x21, x8
	cmp	x9, #7
	b.ls	.LBB73_8
.LBB73_1:
	ldr	x22, [x19]
	rev	x9, x24
	str	x9, [x22, x8]
	add	x9, x8, #8
	stp	x22, x9, [x19]
	sub	x8, x21, x9
	str	x21, [x19, #16]
	cmp	x8, #7
	ldp	x1, x20, [x20, #8]
	b.ls	.LBB73_10
.LBB73_2:
	lsl	x2, x20, #5
	add	x8, x9, #8
	rev	x10, x2
	str	x10, [x22, x9]
	sub	x9, x21, x8
	cmp	x2, x9
	stp	x22, x8, [x19]
	str	x21, [x19, #16]
	b.hi	.LBB73_12
	add	x0, x22, x8
	add	x20, x8, x2
	stp	xzr, xzr, [x23]
	sub	x9, x0, x1
	cmp	x9, x2
	b.hs	.LBB73_14
.LBB73_4:
	add	x9, x8, x22
	sub	x8, x9, x1
	cmp	x8, #32
	b.hs	.LBB73_6
.LBB73_5:
	ldrb	w8, [x1], #1
	subs	x2, x2, #1
	strb	w8, [x0], #1
	b.ne	.LBB73_5
	b	.LBB73_15
.LBB73_6:
	add	x8, x1, #16
	add	x9, x9, #16
.LBB73_7:
	ldp	q0, q1, [x8, #-16]
	subs	x2, x2, #32
	add	x8, x8, #32
	stp	q0, q1, [x9, #-16]
	add	x9, x9, #32
	b.ne	.LBB73_7
	b	.LBB73_15
.LBB73_8:
	mov	x0, x19
	mov	w1, #8
	bl	"std_alloc::vec::Vec::grow_amortized::<#112a50543f8e20a2>"
	cbz	w0, .LBB73_16
	ldp	x8, x21, [x19, #8]
	b	.LBB73_1
.LBB73_10:
	mov	x24, x1
	mov	x0, x19
	mov	w1, #8
	bl	"std_alloc::vec::Vec::grow_amortized::<#112a50543f8e20a2>"
	cbz	w0, .LBB73_16
	ldp	x9, x21, [x19, #8]
	mov	x1, x24
	ldr	x22, [x19]
	b	.LBB73_2
.LBB73_12:
	mov	x20, x1
	mov	x0, x19
	mov	x1, x2
	mov	x24, x2
	bl	"std_alloc::vec::Vec::grow_amortized::<#112a50543f8e20a2>"
	cbz	w0, .LBB73_16
	ldp	x8, x21, [x19, #8]
	mov	x1, x20
	ldr	x22, [x19]
	mov	x2, x24
	add	x0, x22, x8
	add	x20, x8, x24
	stp	xzr, xzr, [x23]
	sub	x9, x0, x1
	cmp	x9, x24
	b.lo	.LBB73_4
.LBB73_14:
	bl	memmove
.LBB73_15:
	mov	w0, wzr
	stp	x22, x20, [x19]
	str	x21, [x19, #16]
	ldp	x20, x19, [sp, #48]
	ldp	x22, x21, [sp, #32]
	ldp	x24, x23, [sp, #16]
	ldp	x29, x30, [sp], #64
	ret
.LBB73_16:
	mov	w0, #1
	ldp	x20, x19, [sp, #48]
	ldp	x22, x21, [sp, #32]
	ldp	x24, x23, [sp, #16]
	ldp	x29, x30, [sp], #64
	ret
.Lfunc_end73:
	.size	"ct_monitor::writing::push_subtrees", .Lfunc_end73-"ct_monitor::writing::push_subtrees"
	.section	.rodata.cst16,"aM",@progbits,16
	.p2align	4, 0x0
.LCPI74_0:
	.word	1779033703
	.word	3144134277
	.word	1013904242
	.word	2773480762
.LCPI74_1:
	.word	1359893119
	.word	2600822924
	.word	528734635
	.word	1541459225
	.section	".text.ct_monitor::fitting::root_of::<#0f46d2847b2ce1ce>","ax",@progbits
	.p2align	2
	.type	"ct_monitor::fitting::root_of::<#0f46d2847b2ce1ce>",@function
"ct_monitor::fitting::root_of::<#0f46d2847b2ce1ce>":
	sub	sp, sp, #224
	stp	x20, x19, [sp, #208]
	mov	x19, x0
	stp	x29, x30, [sp, #176]
	add	x29, sp, #176
	str	x21, [sp, #192]
	cbz	x2, .LBB74_5
	subs	x20, x2, #1
	add	x8, x1, x20, lsl #5
	ldp	q0, q1, [x8]
	stp	q0, q1, [x29, #-64]
	b.eq	.LBB74_4
	add	x8, x1, x2, lsl #5
	sub	x21, x8, #64
.LBB74_3:
	movi	v0.2d, #0000000000000000
	adrp	x8, .Lstatic.8
	add	x8, x8, :lo12:.Lstatic.8
	mov	w9, #1
	sub	x0, x29, #32
	mov	x1, sp
	stp	x8, x9, [sp]
	mov	w8, #32
	sub	x9, x29, #64
	mov	w2, #3
	stp	x21, x8, [sp, #16]
	sub	x20, x20, #1
	stp	q0, q0, [x29, #-32]
	stp	x9, x8, [sp, #32]
	bl	"ct_tree::hash::Sha256HashNodeHash::hash"
	ldp	q0, q1, [x29, #-32]
	sub	x21, x21, #32
	stp	q0, q1, [x29, #-64]
	cbnz	x20, .LBB74_3
.LBB74_4:
	ldp	q0, q1, [x29, #-64]
	stp	q0, q1, [x19]
	ldp	x20, x19, [sp, #208]
	ldp	x29, x30, [sp, #176]
	ldr	x21, [sp, #192]
	add	sp, sp, #224
	ret
.LBB74_5:
	movi	v0.2d, #0000000000000000
	adrp	x8, .LCPI74_0
	adrp	x9, .LCPI74_1
	ldr	q1, [x8, :lo12:.LCPI74_0]
	ldr	q2, [x9, :lo12:.LCPI74_1]
	adrp	x1, .Lstatic.5
	add	x1, x1, :lo12:.Lstatic.5
	mov	x0, sp
	mov	w2, #56
	str	xzr, [sp, #96]
	stp	q1, q2, [sp]
	stp	q0, q0, [sp, #32]
	stp	q0, q0, [sp, #64]
	bl	"sha2::block256::Core256::update"
	mov	x0, sp
	sub	x1, x29, #32
	mov	w2, #8
	stur	xzr, [x29, #-32]
	bl	"sha2::block256::Core256::update"
	ldp	q0, q1, [sp]
	rev32	v0.16b, v0.16b
	rev32	v1.16b, v1.16b
	stp	q0, q1, [x19]
	ldp	x20, x19, [sp, #208]
	ldp	x29, x30, [sp, #176]
	ldr	x21, [sp, #192]
	add	sp, sp, #224
	ret
.Lfunc_end74:
	.size	"ct_monitor::fitting::root_of::<#0f46d2847b2ce1ce>", .Lfunc_end74-"ct_monitor::fitting::root_of::<#0f46d2847b2ce1ce>"
	.section	".text.unlikely.std_alloc::vec::Vec::grow_amortized::<#f34347d6536e7913>","ax",@progbits
	.p2align	2
	.type	"std_alloc::vec::Vec::grow_amortized::<#f34347d6536e7913>",@function
"std_alloc::vec::Vec::grow_amortized::<#f34347d6536e7913>":
	ldr	x8, [x0, #8]
	cmn	x8, x1
	b.lo	.LBB75_2
	mov	w0, wzr
	ret
.LBB75_2:
	stp	x29, x30, [sp, #-32]!
	ldr	x9, [x0, #16]
	add	x10, x8, x1
	mov	w11, #4
	cmp	x10, #4
	stp	x20, x19, [sp, #16]
	mov	x29, sp
	lsl	x12, x9, #1
	csel	x11, x10, x11, hi
	lsr	x13, x9, #62
	cmp	x11, x12
	csel	x10, x11, x12, hi
	cmp	x13, #0
	csel	x19, x10, x11, eq
	lsr	x11, x19, #58
	cbnz	x11, .LBB75_7
	cbz	x9, .LBB75_6
	mov	x20, x0
	ldr	x0, [x0]
	lsl	x1, x8, #5
	lsl	x2, x19, #5
	mov	w3, #1
	bl	rattle_realloc
	tbz	w0, #0, .LBB75_7
.LBB75_5:
	mov	w0, #1
	str	x1, [x20]
	str	x19, [x20, #16]
	ldp	x20, x19, [sp, #16]
	ldp	x29, x30, [sp], #32
	ret
.LBB75_6:
	mov	x20, x0
	lsl	x0, x10, #5
	mov	w1, #1
	bl	rattle_alloc
	tbnz	w0, #0, .LBB75_5
.LBB75_7:
	mov	w0, wzr
	ldp	x20, x19, [sp, #16]
	ldp	x29, x30, [sp], #32
	ret
.Lfunc_end75:
	.size	"std_alloc::vec::Vec::grow_amortized::<#f34347d6536e7913>", .Lfunc_end75-"std_alloc::vec::Vec::grow_amortized::<#f34347d6536e7913>"
	.section	".text.ct_names::name_lists::list_of","ax",@progbits
	.p2align	2
	.type	"ct_names::name_lists::list_of",@function
"ct_names::name_lists::list_of":
	sub	sp, sp, #112
	stp	x29, x30, [sp, #64]
	add	x29, sp, #64
	stp	x20, x19, [sp, #96]
	mov	x19, x0
	sub	x8, x29, #8
	stp	x22, x21, [sp, #80]
	stp	xzr, xzr, [sp, #8]
	stp	xzr, xzr, [sp, #40]
	stp	xzr, x8, [sp, #24]
	cbz	x2, .LBB76_7
.LBB76_1:
	subs	x9, x2, #8
	b.lo	.LBB76_8
	ldr	x10, [x1], #8
	rev	x20, x10
	subs	x2, x9, x20
	b.lo	.LBB76_8
	ldp	x9, x10, [sp, #40]
	cmp	x10, x9
	b.eq	.LBB76_5
	add	x10, x8, x9, lsl #4
	add	x9, x9, #1
	stp	x1, x20, [x10]
	add	x1, x1, x20
	str	x9, [sp, #40]
	cbnz	x2, .LBB76_1
	b	.LBB76_7
.LBB76_5:
	add	x0, sp, #32
	mov	x21, x1
	mov	x22, x2
	bl	"std_alloc::vec::Vec::grow_amortized::<#aa06345a983bc44b>"
	cbz	w0, .LBB76_11
	ldp	x8, x9, [sp, #32]
	mov	x2, x22
	add	x10, x8, x9, lsl #4
	add	x9, x9, #1
	stp	x21, x20, [x10]
	add	x1, x21, x20
	str	x9, [sp, #40]
	cbnz	x22, .LBB76_1
.LBB76_7:
	ldr	q0, [sp, #32]
	ldr	x9, [sp, #48]
	mov	w8, #1
	strb	wzr, [x19]
	str	x8, [x19, #8]
	str	q0, [x19, #16]
	str	x9, [x19, #32]
	ldp	x20, x19, [sp, #96]
	ldp	x22, x21, [sp, #80]
	ldp	x29, x30, [sp, #64]
	add	sp, sp, #112
	ret
.LBB76_8:
	ldr	x8, [sp, #48]
	cbz	x8, .LBB76_10
	ldr	x0, [sp, #32]
	bl	rattle_dealloc
.LBB76_10:
	ldur	q0, [sp, #8]
	ldr	x8, [sp, #24]
	strb	wzr, [x19]
	str	xzr, [x19, #8]
	str	q0, [x19, #16]
	str	x8, [x19, #32]
	ldp	x20, x19, [sp, #96]
	ldp	x22, x21, [sp, #80]
	ldp	x29, x30, [sp, #64]
	add	sp, sp, #112
	ret
.LBB76_11:
	ldr	x8, [sp, #48]
	cbz	x8, .LBB76_13
	ldr	x0, [sp, #32]
	bl	rattle_dealloc
.LBB76_13:
	movi	v0.2d, #0000000000000000
	mov	w8, #1
	strb	w8, [x19]
	stur	q0, [x19, #8]
	stur	q0, [x19, #24]
	ldp	x20, x19, [sp, #96]
	ldp	x22, x21, [sp, #80]
	ldp	x29, x30, [sp, #64]
	add	sp, sp, #112
	ret
.Lfunc_end76:
	.size	"ct_names::name_lists::list_of", .Lfunc_end76-"ct_names::name_lists::list_of"
	.section	".text.unlikely.std_alloc::vec::Vec::grow_amortized::<#aa06345a983bc44b>","ax",@progbits
	.p2align	2
	.type	"std_alloc::vec::Vec::grow_amortized::<#aa06345a983bc44b>",@function
"std_alloc::vec::Vec::grow_amortized::<#aa06345a983bc44b>":
	ldr	x8, [x0, #8]
	cmn	x8, #1
	b.eq	.LBB77_5
	stp	x29, x30, [sp, #-32]!
	ldr	x9, [x0, #16]
	cmp	x8, #3
	mov	w10, #3
	csel	x11, x8, x10, hi
	stp	x20, x19, [sp, #16]
	mov	x29, sp
	lsl	x10, x9, #1
	add	x12, x11, #1
	lsr	x13, x9, #62
	cmp	x12, x10
	csinc	x10, x10, x11, ls
	cmp	x13, #0
	csinc	x19, x10, x11, eq
	lsr	x11, x19, #59
	cbnz	x11, .LBB77_7
	cbz	x9, .LBB77_6
	mov	x20, x0
	ldr	x0, [x0]
	lsl	x1, x8, #4
	lsl	x2, x19, #4
	mov	w3, #8
	bl	rattle_realloc
	tbz	w0, #0, .LBB77_7
.LBB77_4:
	mov	w0, #1
	str	x1, [x20]
	str	x19, [x20, #16]
	ldp	x20, x19, [sp, #16]
	ldp	x29, x30, [sp], #32
	ret
.LBB77_5:
	mov	w0, wzr
	ret
.LBB77_6:
	mov	x20, x0
	lsl	x0, x10, #4
	mov	w1, #8
	bl	rattle_alloc
	tbnz	w0, #0, .LBB77_4
.LBB77_7:
	mov	w0, wzr
	ldp	x20, x19, [sp, #16]
	ldp	x29, x30, [sp], #32
	ret
.Lfunc_end77:
	.size	"std_alloc::vec::Vec::grow_amortized::<#aa06345a983bc44b>", .Lfunc_end77-"std_alloc::vec::Vec::grow_amortized::<#aa06345a983bc44b>"
	.section	".text.unlikely.std_alloc::vec::Vec::grow_amortized::<#c0dd558b90df13b6>","ax",@progbits
	.p2align	2
	.type	"std_alloc::vec::Vec::grow_amortized::<#c0dd558b90df13b6>",@function
"std_alloc::vec::Vec::grow_amortized::<#c0dd558b90df13b6>":
	ldr	x8, [x0, #8]
	cmn	x8, x1
	b.lo	.LBB78_2
	mov	w0, wzr
	ret
.LBB78_2:
	stp	x29, x30, [sp, #-32]!
	ldr	x10, [x0, #16]
	add	x9, x8, x1
	mov	w11, #8
	cmp	x9, #8
	stp	x20, x19, [sp, #16]
	mov	x29, sp
	lsl	x12, x10, #1
	csel	x11, x9, x11, hi
	lsr	x13, x10, #62
	cmp	x11, x12
	csel	x9, x11, x12, hi
	cmp	x13, #0
	csel	x19, x9, x11, eq
	tbnz	x19, #63, .LBB78_7
	cbz	x10, .LBB78_6
	mov	x20, x0
	ldr	x0, [x0]
	mov	x1, x8
	mov	x2, x19
	mov	w3, #1
	bl	rattle_realloc
	tbz	w0, #0, .LBB78_7
.LBB78_5:
	mov	w0, #1
	str	x1, [x20]
	str	x19, [x20, #16]
	ldp	x20, x19, [sp, #16]
	ldp	x29, x30, [sp], #32
	ret
.LBB78_6:
	mov	x20, x0
	mov	x0, x9
	mov	w1, #1
	bl	rattle_alloc
	tbnz	w0, #0, .LBB78_5
.LBB78_7:
	mov	w0, wzr
	ldp	x20, x19, [sp, #16]
	ldp	x29, x30, [sp], #32
	ret
.Lfunc_end78:
	.size	"std_alloc::vec::Vec::grow_amortized::<#c0dd558b90df13b6>", .Lfunc_end78-"std_alloc::vec::Vec::grow_amortized::<#c0dd558b90df13b6>"
	.section	".text.std_alloc::vec::Vec::extend_from_slice::<#369487522aa5e614>","ax",@progbits
	.p2align	2
	.type	"std_alloc::vec::Vec::extend_from_slice::<#369487522aa5e614>",@function
"std_alloc::vec::Vec::extend_from_slice::<#369487522aa5e614>":
	stp	x29, x30, [sp, #-64]!
	str	x23, [sp, #16]
	mov	x23, x0
	mov	x29, sp
	stp	x20, x19, [sp, #48]
	mov	x19, x0
	ldp	x8, x20, [x23, #8]!
	stp	x22, x21, [sp, #32]
	sub	x9, x20, x8
	cmp	x2, x9
	b.hi	.LBB79_18
.LBB79_1:
	ldr	x21, [x19]
	add	x22, x8, x2
	stp	xzr, xzr, [x23]
	add	x0, x21, x8
	sub	x9, x0, x1
	cmp	x9, x2
	b.hs	.LBB79_7
	cmp	x2, #8
	b.lo	.LBB79_4
	add	x9, x8, x21
	sub	x9, x9, x1
	cmp	x9, #32
	b.hs	.LBB79_9
.LBB79_4:
	mov	x9, xzr
.LBB79_5:
	add	x10, x9, x8
	sub	x8, x2, x9
	add	x9, x1, x9
	add	x10, x21, x10
.LBB79_6:
	ldrb	w11, [x9], #1
	subs	x8, x8, #1
	strb	w11, [x10], #1
	b.ne	.LBB79_6
	b	.LBB79_8
.LBB79_7:
	bl	memmove
.LBB79_8:
	mov	w0, wzr
	stp	x21, x22, [x19]
	str	x20, [x19, #16]
	ldp	x20, x19, [sp, #48]
	ldr	x23, [sp, #16]
	ldp	x22, x21, [sp, #32]
	ldp	x29, x30, [sp], #64
	ret
.LBB79_9:
	cmp	x2, #32
	b.hs	.LBB79_11
	mov	x9, xzr
	b	.LBB79_15
.LBB79_11:
	add	x12, x8, x21
	and	x10, x2, #0x18
	and	x9, x2, #0xffffffffffffffe0
	add	x11, x1, #16
	add	x12, x12, #16
	and	x13, x2, #0xffffffffffffffe0
.LBB79_12:
	ldp	q0, q1, [x11, #-16]
	subs	x13, x13, #32
	add	x11, x11, #32
	stp	q0, q1, [x12, #-16]
	add	x12, x12, #32
	b.ne	.LBB79_12
	cmp	x2, x9
	b.eq	.LBB79_8
	cbz	x10, .LBB79_5
.LBB79_15:
	mov	x11, x9
	and	x9, x2, #0xfffffffffffffff8
	add	x12, x8, x11
	sub	x10, x11, x9
	add	x11, x1, x11
	add	x12, x21, x12
.LBB79_16:
	ldr	d0, [x11], #8
	adds	x10, x10, #8
	str	d0, [x12], #8
	b.ne	.LBB79_16
	cmp	x2, x9
	b.eq	.LBB79_8
	b	.LBB79_5
.LBB79_18:
	mov	x21, x1
	mov	x0, x19
	mov	x1, x2
	mov	x22, x2
	bl	"std_alloc::vec::Vec::grow_amortized::<#573e96821fb25c99>"
	cbz	w0, .LBB79_20
	ldp	x8, x20, [x19, #8]
	mov	x2, x22
	mov	x1, x21
	b	.LBB79_1
.LBB79_20:
	mov	w0, #1
	ldp	x20, x19, [sp, #48]
	ldr	x23, [sp, #16]
	ldp	x22, x21, [sp, #32]
	ldp	x29, x30, [sp], #64
	ret
.Lfunc_end79:
	.size	"std_alloc::vec::Vec::extend_from_slice::<#369487522aa5e614>", .Lfunc_end79-"std_alloc::vec::Vec::extend_from_slice::<#369487522aa5e614>"
	.section	".text.unlikely.std_alloc::vec::Vec::grow_amortized::<#573e96821fb25c99>","ax",@progbits
	.p2align	2
	.type	"std_alloc::vec::Vec::grow_amortized::<#573e96821fb25c99>",@function
"std_alloc::vec::Vec::grow_amortized::<#573e96821fb25c99>":
	ldr	x8, [x0, #8]
	cmn	x8, x1
	b.lo	.LBB80_2
	mov	w0, wzr
	ret
.LBB80_2:
	stp	x29, x30, [sp, #-32]!
	ldr	x10, [x0, #16]
	add	x9, x8, x1
	mov	w11, #8
	cmp	x9, #8
	stp	x20, x19, [sp, #16]
	mov	x29, sp
	lsl	x12, x10, #1
	csel	x11, x9, x11, hi
	lsr	x13, x10, #62
	cmp	x11, x12
	csel	x9, x11, x12, hi
	cmp	x13, #0
	csel	x19, x9, x11, eq
	tbnz	x19, #63, .LBB80_7
	cbz	x10, .LBB80_6
	mov	x20, x0
	ldr	x0, [x0]
	mov	x1, x8
	mov	x2, x19
	mov	w3, #1
	bl	rattle_realloc
	tbz	w0, #0, .LBB80_7
.LBB80_5:
	mov	w0, #1
	str	x1, [x20]
	str	x19, [x20, #16]
	ldp	x20, x19, [sp, #16]
	ldp	x29, x30, [sp], #32
	ret
.LBB80_6:
	mov	x20, x0
	mov	x0, x9
	mov	w1, #1
	bl	rattle_alloc
	tbnz	w0, #0, .LBB80_5
.LBB80_7:
	mov	w0, wzr
	ldp	x20, x19, [sp, #16]
	ldp	x29, x30, [sp], #32
	ret
.Lfunc_end80:
	.size	"std_alloc::vec::Vec::grow_amortized::<#573e96821fb25c99>", .Lfunc_end80-"std_alloc::vec::Vec::grow_amortized::<#573e96821fb25c99>"
	.section	".text.unlikely.std_alloc::vec::Vec::grow_amortized::<#c2ea2623f4a99793>","ax",@progbits
	.p2align	2
	.type	"std_alloc::vec::Vec::grow_amortized::<#c2ea2623f4a99793>",@function
"std_alloc::vec::Vec::grow_amortized::<#c2ea2623f4a99793>":
	ldr	x8, [x0, #8]
	cmn	x8, #1
	b.eq	.LBB81_5
	stp	x29, x30, [sp, #-32]!
	ldr	x9, [x0, #16]
	cmp	x8, #3
	mov	w10, #3
	csel	x11, x8, x10, hi
	stp	x20, x19, [sp, #16]
	mov	x29, sp
	lsl	x10, x9, #1
	add	x12, x11, #1
	lsr	x13, x9, #62
	cmp	x12, x10
	csinc	x10, x10, x11, ls
	cmp	x13, #0
	csinc	x19, x10, x11, eq
	mov	x11, #6148914691236517205
	movk	x11, #1365, lsl #48
	cmp	x19, x11
	b.hi	.LBB81_7
	cbz	x9, .LBB81_6
	add	x8, x8, x8, lsl #1
	add	x9, x19, x19, lsl #1
	mov	x20, x0
	ldr	x0, [x0]
	mov	w3, #8
	lsl	x1, x8, #3
	lsl	x2, x9, #3
	bl	rattle_realloc
	tbz	w0, #0, .LBB81_7
.LBB81_4:
	mov	w0, #1
	str	x1, [x20]
	str	x19, [x20, #16]
	ldp	x20, x19, [sp, #16]
	ldp	x29, x30, [sp], #32
	ret
.LBB81_5:
	mov	w0, wzr
	ret
.LBB81_6:
	add	x8, x10, x10, lsl #1
	mov	x20, x0
	mov	w1, #8
	lsl	x0, x8, #3
	bl	rattle_alloc
	tbnz	w0, #0, .LBB81_4
.LBB81_7:
	mov	w0, wzr
	ldp	x20, x19, [sp, #16]
	ldp	x29, x30, [sp], #32
	ret
.Lfunc_end81:
	.size	"std_alloc::vec::Vec::grow_amortized::<#c2ea2623f4a99793>", .Lfunc_end81-"std_alloc::vec::Vec::grow_amortized::<#c2ea2623f4a99793>"
	.section	".text.ct_step::reading::batch_of","ax",@progbits
	.p2align	2
	.type	"ct_step::reading::batch_of",@function
"ct_step::reading::batch_of":
	stp	x29, x30, [sp, #-96]!
	stp	x28, x27, [sp, #16]
	mov	x29, sp
	stp	x26, x25, [sp, #32]
	stp	x24, x23, [sp, #48]
	stp	x22, x21, [sp, #64]
	stp	x20, x19, [sp, #80]
	sub	sp, sp, #608
	movi	v0.2d, #0000000000000000
	mov	x20, x2
	mov	x21, x1
	mov	x24, x0
	add	x22, sp, #112
	stp	xzr, xzr, [sp, #80]
	str	xzr, [sp, #96]
	stp	xzr, xzr, [sp, #64]
	str	xzr, [sp, #56]
	str	xzr, [sp, #336]
	stp	q0, q0, [x22, #128]
	stp	q0, q0, [x22, #160]
	stp	q0, q0, [x22, #192]
	str	q0, [x22, #112]
	stp	x1, x2, [sp, #112]
	cbz	x2, .LBB82_3
.LBB82_1:
	add	x0, sp, #224
	add	x1, sp, #112
	bl	"ct_data_tiles::reading::tile_leaf_at"
	ldrb	w8, [sp, #224]
	cbnz	w8, .LBB82_13
	ldr	x8, [sp, #120]
	cbnz	x8, .LBB82_1
.LBB82_3:
	movi	v0.2d, #0000000000000000
	sub	x23, x29, #24
	sub	x19, x29, #232
	str	xzr, [sp, #336]
	stp	x23, xzr, [x29, #-80]
	stur	xzr, [x29, #-64]
	str	q0, [x22, #208]
	stp	q0, q0, [sp, #112]
	stp	q0, q0, [sp, #144]
	str	q0, [sp, #176]
	stp	q0, q0, [x22, #80]
	stp	q0, q0, [x22, #112]
	stp	q0, q0, [x22, #144]
	stp	q0, q0, [x22, #176]
	stp	x21, x20, [x29, #-128]
	cbz	x20, .LBB82_10
	add	x8, sp, #224
	mov	x20, xzr
	sub	x28, x29, #24
	orr	x21, x8, #0x8
.LBB82_5:
	add	x0, sp, #224
	sub	x1, x29, #128
	bl	"ct_data_tiles::reading::tile_leaf_at"
	ldrb	w8, [sp, #224]
	cbnz	w8, .LBB82_11
	ldp	q0, q1, [x21, #64]
	ldr	q2, [x21, #96]
	ldur	x8, [x29, #-64]
	str	q0, [sp, #176]
	cmp	x8, x20
	stp	q1, q2, [x22, #80]
	ldp	q0, q1, [x21]
	stp	q0, q1, [sp, #112]
	ldp	q0, q2, [x21, #32]
	stp	q0, q2, [sp, #144]
	b.eq	.LBB82_8
.LBB82_7:
	mov	w8, #112
	ldp	q6, q5, [sp, #112]
	madd	x8, x20, x8, x28
	ldp	q0, q1, [x22, #80]
	ldp	q2, q3, [sp, #144]
	add	x20, x20, #1
	ldr	q4, [sp, #176]
	stp	q6, q5, [x8]
	ldur	x9, [x29, #-120]
	stp	q3, q4, [x8, #48]
	stp	q0, q1, [x8, #80]
	str	q2, [x8, #32]
	stur	x20, [x29, #-72]
	cbnz	x9, .LBB82_5
	b	.LBB82_14
.LBB82_8:
	sub	x0, x29, #80
	bl	"std_alloc::vec::Vec::grow_amortized::<#abe0b9fcb682171c>"
	cbz	w0, .LBB82_179
	ldp	x28, x20, [x29, #-80]
	b	.LBB82_7
.LBB82_10:
	mov	w8, #1
	str	x24, [sp, #24]
	sub	x28, x29, #24
	b	.LBB82_15
.LBB82_11:
	ldur	x8, [x29, #-64]
	cbz	x8, .LBB82_13
	mov	x0, x28
	bl	rattle_dealloc
.LBB82_13:
	ldur	q0, [sp, #56]
	ldr	x8, [sp, #72]
	mov	w19, wzr
	mov	w20, wzr
	str	q0, [sp, #80]
	str	x8, [sp, #96]
	b	.LBB82_160
.LBB82_14:
	ldurh	w8, [x29, #-58]
	ldur	w9, [x19, #170]
	ldurh	w10, [x29, #-64]
	str	x24, [sp, #24]
	orr	x8, x9, x8, lsl #32
	orr	x8, x10, x8
	cmp	x8, #0
	cset	w8, eq
.LBB82_15:
	str	w8, [sp, #20]
	movi	v0.2d, #0000000000000000
	stp	xzr, xzr, [x29, #-152]
	stp	xzr, xzr, [x29, #-168]
	stur	wzr, [x29, #-232]
	stur	wzr, [x19, #3]
	stur	q0, [x19, #8]
	stur	q0, [x19, #24]
	stp	xzr, xzr, [x29, #-248]
	stur	xzr, [x29, #-256]
	stp	x23, xzr, [x29, #-184]
	cbz	x20, .LBB82_158
	mov	x21, xzr
	mov	x26, xzr
	sub	x8, x29, #24
	stp	x28, x8, [sp, #32]
.LBB82_17:
	mov	w8, #112
	movi	v0.2d, #0000000000000000
	stur	wzr, [x29, #-88]
	madd	x27, x26, x8, x28
	stur	wzr, [x19, #147]
	stur	wzr, [x29, #-136]
	stur	wzr, [x19, #99]
	stur	q0, [x19, #152]
	stur	q0, [x19, #168]
	ldr	x8, [x27]
	stur	q0, [x19, #104]
	stur	q0, [x19, #120]
	cbnz	x8, .LBB82_162
	ldr	x8, [x27, #72]
	cbnz	x8, .LBB82_162
	ldr	x8, [x27, #104]
	lsr	x9, x8, #16
	cbnz	x9, .LBB82_167
	lsr	x9, x8, #5
	ldr	x24, [x27, #96]
	str	x9, [sp, #48]
	cbz	x9, .LBB82_31
	and	x25, x8, #0xffe0
	mov	w1, #1
	mov	x0, x25
	bl	rattle_alloc
	tbz	w0, #0, .LBB82_178
	sub	x8, x1, x24
	mov	x23, x1
	cmp	x8, x25
	b.hs	.LBB82_32
	ldr	x9, [sp, #48]
	mov	x8, xzr
.LBB82_24:
	add	x10, x24, x8
	subs	x9, x9, #1
	ldp	q1, q0, [x10]
	add	x10, x23, x8
	add	x8, x8, #32
	stp	q1, q0, [x10]
	b.ne	.LBB82_24
	ldrb	w8, [x27, #8]
	cbz	w8, .LBB82_33
.LBB82_26:
	ldur	q0, [x27, #9]
	ldp	x28, x25, [x27, #48]
	ldur	q1, [x27, #25]
	ldp	x8, x27, [x27, #80]
	stp	q0, q1, [x22, #112]
	cbz	x25, .LBB82_39
	tbnz	x25, #63, .LBB82_58
	mov	x0, x25
	mov	w1, #1
	mov	x24, x8
	bl	rattle_alloc
	tbz	w0, #0, .LBB82_58
	mov	x8, x24
	mov	x24, x1
	sub	x9, x1, x28
	str	x8, [sp, #8]
	cmp	x9, x25
	b.lo	.LBB82_40
.LBB82_30:
	mov	x0, x24
	mov	x1, x28
	mov	x2, x25
	bl	memmove
	b	.LBB82_53
.LBB82_31:
	mov	x25, xzr
	sub	x23, x29, #24
.LBB82_32:
	mov	x0, x23
	mov	x1, x24
	mov	x2, x25
	bl	memmove
	ldrb	w8, [x27, #8]
	cbnz	w8, .LBB82_26
.LBB82_33:
	ldp	x25, x24, [x27, #16]
	sub	x1, x29, #24
	add	x8, sp, #224
	str	x1, [sp, #224]
	stp	xzr, xzr, [x8, #8]
	cbz	x24, .LBB82_65
	tbnz	x24, #63, .LBB82_36
	mov	x0, x24
	mov	w1, #1
	bl	rattle_alloc
	tbnz	w0, #0, .LBB82_65
.LBB82_36:
	movi	v0.2d, #0000000000000000
	mov	w8, wzr
	mov	x0, xzr
	mov	x28, xzr
	mov	x13, xzr
	mov	w9, #1
.LBB82_37:
	stp	q0, q0, [sp, #112]
	cbnz	w9, .LBB82_168
	mov	x24, xzr
	mov	x25, xzr
	mov	w27, wzr
	b	.LBB82_60
.LBB82_39:
	sub	x24, x29, #24
	sub	x9, x24, x28
	str	x8, [sp, #8]
	cmp	x9, x25
	b.hs	.LBB82_30
.LBB82_40:
	cmp	x25, #8
	mov	x8, xzr
	b.lo	.LBB82_51
	cmp	x9, #32
	b.lo	.LBB82_51
	cmp	x25, #32
	b.hs	.LBB82_44
	mov	x8, xzr
	b	.LBB82_48
.LBB82_44:
	and	x9, x25, #0x18
	and	x8, x25, #0xffffffffffffffe0
	add	x10, x28, #16
	add	x11, x24, #16
	and	x12, x25, #0xffffffffffffffe0
.LBB82_45:
	ldp	q0, q1, [x10, #-16]
	subs	x12, x12, #32
	add	x10, x10, #32
	stp	q0, q1, [x11, #-16]
	add	x11, x11, #32
	b.ne	.LBB82_45
	cmp	x25, x8
	b.eq	.LBB82_53
	cbz	x9, .LBB82_51
.LBB82_48:
	mov	x11, x8
	and	x8, x25, #0xfffffffffffffff8
	sub	x9, x11, x8
	add	x10, x28, x11
	add	x11, x24, x11
.LBB82_49:
	ldr	d0, [x10], #8
	adds	x9, x9, #8
	str	d0, [x11], #8
	b.ne	.LBB82_49
	cmp	x25, x8
	b.eq	.LBB82_53
.LBB82_51:
	sub	x9, x25, x8
	add	x10, x28, x8
	add	x8, x24, x8
.LBB82_52:
	ldrb	w11, [x10], #1
	subs	x9, x9, #1
	strb	w11, [x8], #1
	b.ne	.LBB82_52
.LBB82_53:
	sub	x1, x29, #24
	sub	x8, x29, #48
	stur	x1, [x29, #-48]
	stp	xzr, xzr, [x8, #8]
	cbz	x27, .LBB82_70
	tbnz	x27, #63, .LBB82_56
	mov	x0, x27
	mov	w1, #1
	bl	rattle_alloc
	tbnz	w0, #0, .LBB82_70
.LBB82_56:
	cbz	x25, .LBB82_58
	mov	x0, x24
	bl	rattle_dealloc
.LBB82_58:
	movi	v0.2d, #0000000000000000
	mov	w27, wzr
	mov	x24, xzr
	mov	x25, xzr
	mov	x0, xzr
	mov	x28, xzr
	mov	x13, xzr
	mov	w8, #1
	stp	q0, q0, [sp, #112]
	cbnz	w8, .LBB82_168
.LBB82_59:
	mov	w8, w27
.LBB82_60:
	cmp	w8, #1
	b.ne	.LBB82_175
	ldp	q0, q1, [sp, #112]
	ldur	x8, [x29, #-168]
	stur	wzr, [x29, #-232]
	cmp	x8, x21
	stur	wzr, [x19, #3]
	stur	q0, [x19, #8]
	stur	q1, [x19, #24]
	b.eq	.LBB82_63
.LBB82_62:
	mov	w8, #112
	ldr	x9, [sp, #40]
	add	x26, x26, #1
	madd	x8, x21, x8, x9
	add	x21, x21, #1
	cmp	x26, x20
	strb	w27, [x8]
	ldur	w9, [x19, #3]
	ldur	w10, [x29, #-232]
	ldur	q0, [x19, #24]
	ldur	q1, [x19, #8]
	stp	x28, x13, [x8, #72]
	ldr	x28, [sp, #32]
	stur	w10, [x8, #33]
	str	w9, [x8, #36]
	ldr	x9, [sp, #48]
	stp	x24, x25, [x8, #40]
	stp	x25, x0, [x8, #56]
	stur	q1, [x8, #1]
	stur	q0, [x8, #17]
	stp	x23, x9, [x8, #88]
	str	x9, [x8, #104]
	stur	x21, [x29, #-176]
	b.ne	.LBB82_17
	b	.LBB82_158
.LBB82_63:
	stp	x13, x0, [sp]
	sub	x0, x29, #184
	bl	"std_alloc::vec::Vec::grow_amortized::<#190bf94371d9ad20>"
	cbz	w0, .LBB82_182
	ldp	x8, x21, [x29, #-184]
	ldp	x13, x0, [sp]
	str	x8, [sp, #40]
	b	.LBB82_62
.LBB82_65:
	sub	x9, x1, x25
	mov	x27, x1
	cmp	x9, x24
	b.hs	.LBB82_75
	cmp	x24, #8
	mov	x8, xzr
	b.lo	.LBB82_84
	cmp	x9, #32
	b.lo	.LBB82_84
	cmp	x24, #32
	b.hs	.LBB82_77
	mov	x8, xzr
	b	.LBB82_81
.LBB82_70:
	ldr	x10, [sp, #8]
	mov	x28, x1
	sub	x9, x1, x10
	cmp	x9, x27
	b.hs	.LBB82_76
	cmp	x27, #8
	mov	x8, xzr
	b.lo	.LBB82_121
	cmp	x9, #32
	b.lo	.LBB82_121
	cmp	x27, #32
	b.hs	.LBB82_114
	mov	x8, xzr
	b	.LBB82_118
.LBB82_75:
	mov	x0, x1
	mov	x1, x25
	mov	x2, x24
	bl	memmove
	b	.LBB82_86
.LBB82_76:
	mov	x0, x1
	mov	x1, x10
	mov	x2, x27
	bl	memmove
	b	.LBB82_123
.LBB82_77:
	and	x9, x24, #0x18
	and	x8, x24, #0xffffffffffffffe0
	add	x10, x25, #16
	add	x11, x1, #16
	and	x12, x24, #0xffffffffffffffe0
.LBB82_78:
	ldp	q0, q1, [x10, #-16]
	subs	x12, x12, #32
	add	x10, x10, #32
	stp	q0, q1, [x11, #-16]
	add	x11, x11, #32
	b.ne	.LBB82_78
	cmp	x24, x8
	b.eq	.LBB82_86
	cbz	x9, .LBB82_84
.LBB82_81:
	mov	x11, x8
	and	x8, x24, #0xfffffffffffffff8
	sub	x9, x11, x8
	add	x10, x25, x11
	add	x11, x1, x11
.LBB82_82:
	ldr	d0, [x10], #8
	adds	x9, x9, #8
	str	d0, [x11], #8
	b.ne	.LBB82_82
	cmp	x24, x8
	b.eq	.LBB82_86
.LBB82_84:
	sub	x9, x24, x8
	add	x10, x25, x8
	add	x8, x1, x8
.LBB82_85:
	ldrb	w11, [x10], #1
	subs	x9, x9, #1
	strb	w11, [x8], #1
	b.ne	.LBB82_85
.LBB82_86:
	add	x0, sp, #224
	bl	"std_alloc::vec::Vec::grow_amortized::<#c2ea2623f4a99793>"
	tbz	w0, #0, .LBB82_91
	ldp	x0, x8, [sp, #224]
	mov	w9, #24
	ldr	x13, [sp, #240]
	madd	x9, x8, x9, x0
	adds	x28, x8, #1
	stp	x27, x24, [x9]
	str	x24, [x9, #16]
	b.lo	.LBB82_100
.LBB82_88:
	cbz	x13, .LBB82_90
	bl	rattle_dealloc
.LBB82_90:
	movi	v0.2d, #0000000000000000
	mov	w9, wzr
	mov	w8, wzr
	mov	x0, xzr
	mov	x28, xzr
	mov	x13, xzr
	b	.LBB82_37
.LBB82_91:
	cbz	x24, .LBB82_93
	mov	x0, x27
	bl	rattle_dealloc
.LBB82_93:
	ldp	x24, x25, [sp, #224]
	ldr	x27, [sp, #240]
	cbz	x25, .LBB82_98
	add	x28, x24, #16
	b	.LBB82_96
.LBB82_95:
	subs	x25, x25, #1
	add	x28, x28, #24
	b.eq	.LBB82_98
.LBB82_96:
	ldr	x8, [x28]
	cbz	x8, .LBB82_95
	ldur	x0, [x28, #-16]
	bl	rattle_dealloc
	b	.LBB82_95
.LBB82_98:
	cbz	x27, .LBB82_36
	mov	x0, x24
	bl	rattle_dealloc
	b	.LBB82_36
.LBB82_100:
	mov	w9, #8
	mov	x10, x28
.LBB82_101:
	ldr	x11, [x0, x9]
	mov	x12, #-16777216
	add	x11, x11, x12
	mov	x12, #-16777215
	cmp	x11, x12
	b.lo	.LBB82_110
	subs	x10, x10, #1
	add	x9, x9, #24
	b.ne	.LBB82_101
	cbz	x8, .LBB82_109
	add	x9, x0, #32
	mov	w10, #16777215
	mov	w11, #1
.LBB82_105:
	ldr	x12, [x9], #24
	sub	x10, x10, #3
	subs	x10, x10, x12
	b.lo	.LBB82_110
	mov	x12, x11
	cmp	x11, x8
	b.hs	.LBB82_108
	cmp	x10, #2
	add	x11, x12, #1
	b.hi	.LBB82_105
.LBB82_108:
	cmp	x12, x8
	b.lo	.LBB82_110
.LBB82_109:
	movi	v0.2d, #0000000000000000
	mov	w9, wzr
	mov	w8, #1
	b	.LBB82_37
.LBB82_110:
	add	x24, x0, #16
	b	.LBB82_112
.LBB82_111:
	subs	x28, x28, #1
	add	x24, x24, #24
	b.eq	.LBB82_88
.LBB82_112:
	ldr	x8, [x24]
	cbz	x8, .LBB82_111
	mov	x25, x0
	ldur	x0, [x24, #-16]
	mov	x27, x13
	bl	rattle_dealloc
	mov	x13, x27
	mov	x0, x25
	b	.LBB82_111
.LBB82_114:
	and	x9, x27, #0x18
	and	x8, x27, #0xffffffffffffffe0
	mov	x13, x10
	add	x10, x10, #16
	add	x11, x1, #16
	and	x12, x27, #0xffffffffffffffe0
.LBB82_115:
	ldp	q0, q1, [x10, #-16]
	subs	x12, x12, #32
	add	x10, x10, #32
	stp	q0, q1, [x11, #-16]
	add	x11, x11, #32
	b.ne	.LBB82_115
	cmp	x27, x8
	b.eq	.LBB82_123
	mov	x10, x13
	cbz	x9, .LBB82_121
.LBB82_118:
	mov	x11, x8
	and	x8, x27, #0xfffffffffffffff8
	mov	x12, x10
	sub	x9, x11, x8
	add	x10, x10, x11
	add	x11, x1, x11
.LBB82_119:
	ldr	d0, [x10], #8
	adds	x9, x9, #8
	str	d0, [x11], #8
	b.ne	.LBB82_119
	cmp	x27, x8
	mov	x10, x12
	b.eq	.LBB82_123
.LBB82_121:
	sub	x9, x27, x8
	add	x10, x10, x8
	add	x8, x1, x8
.LBB82_122:
	ldrb	w11, [x10], #1
	subs	x9, x9, #1
	strb	w11, [x8], #1
	b.ne	.LBB82_122
.LBB82_123:
	sub	x0, x29, #48
	bl	"std_alloc::vec::Vec::grow_amortized::<#c2ea2623f4a99793>"
	tbz	w0, #0, .LBB82_130
	ldp	x0, x8, [x29, #-48]
	mov	w9, #24
	ldur	x13, [x29, #-32]
	madd	x9, x8, x9, x0
	stp	x28, x27, [x9]
	adds	x28, x8, #1
	str	x27, [x9, #16]
	b.lo	.LBB82_139
.LBB82_125:
	cbz	x13, .LBB82_127
	bl	rattle_dealloc
.LBB82_127:
	cbz	x25, .LBB82_129
	mov	x0, x24
	bl	rattle_dealloc
.LBB82_129:
	movi	v0.2d, #0000000000000000
	mov	w27, wzr
	mov	x24, xzr
	mov	x25, xzr
	mov	x0, xzr
	mov	x28, xzr
	mov	x13, xzr
	stp	q0, q0, [sp, #112]
	b	.LBB82_59
.LBB82_130:
	cbz	x27, .LBB82_132
	mov	x0, x28
	bl	rattle_dealloc
.LBB82_132:
	ldp	x8, x28, [x29, #-48]
	str	x8, [sp, #8]
	ldur	x8, [x29, #-32]
	str	x8, [sp]
	cbz	x28, .LBB82_137
	ldr	x8, [sp, #8]
	add	x27, x8, #16
	b	.LBB82_135
.LBB82_134:
	subs	x28, x28, #1
	add	x27, x27, #24
	b.eq	.LBB82_137
.LBB82_135:
	ldr	x8, [x27]
	cbz	x8, .LBB82_134
	ldur	x0, [x27, #-16]
	bl	rattle_dealloc
	b	.LBB82_134
.LBB82_137:
	ldr	x8, [sp]
	cbz	x8, .LBB82_56
	ldr	x0, [sp, #8]
	bl	rattle_dealloc
	b	.LBB82_56
.LBB82_139:
	mov	x9, #-16777216
	mov	x10, #-16777215
	stp	x13, x0, [sp]
	add	x9, x25, x9
	cmp	x9, x10
	b.hs	.LBB82_144
	add	x27, x0, #16
	b	.LBB82_142
.LBB82_141:
	subs	x28, x28, #1
	add	x27, x27, #24
	b.eq	.LBB82_125
.LBB82_142:
	ldr	x8, [x27]
	cbz	x8, .LBB82_141
	ldur	x0, [x27, #-16]
	bl	rattle_dealloc
	ldp	x13, x0, [sp]
	b	.LBB82_141
.LBB82_144:
	mov	w9, #8
	mov	x10, x28
.LBB82_145:
	ldr	x11, [x0, x9]
	mov	x12, #-16777216
	add	x11, x11, x12
	mov	x12, #-16777215
	cmp	x11, x12
	b.lo	.LBB82_154
	subs	x10, x10, #1
	add	x9, x9, #24
	b.ne	.LBB82_145
	cbz	x8, .LBB82_153
	add	x9, x0, #32
	mov	w10, #16777215
	mov	w11, #1
.LBB82_149:
	ldr	x12, [x9], #24
	sub	x10, x10, #3
	subs	x10, x10, x12
	b.lo	.LBB82_154
	mov	x12, x11
	cmp	x11, x8
	b.hs	.LBB82_152
	cmp	x10, #2
	add	x11, x12, #1
	b.hi	.LBB82_149
.LBB82_152:
	cmp	x12, x8
	b.lo	.LBB82_154
.LBB82_153:
	ldp	q0, q1, [x22, #112]
	mov	w27, #1
	stp	q0, q1, [sp, #112]
	b	.LBB82_59
.LBB82_154:
	add	x27, x0, #16
	b	.LBB82_156
.LBB82_155:
	subs	x28, x28, #1
	add	x27, x27, #24
	b.eq	.LBB82_125
.LBB82_156:
	ldr	x8, [x27]
	cbz	x8, .LBB82_155
	ldur	x0, [x27, #-16]
	bl	rattle_dealloc
	ldp	x13, x0, [sp]
	b	.LBB82_155
.LBB82_158:
	ldur	q0, [x29, #-184]
	ldur	x8, [x29, #-168]
	mov	w19, wzr
	ldr	x24, [sp, #24]
	ldr	w25, [sp, #20]
	mov	w20, #1
	str	q0, [sp, #80]
	str	x8, [sp, #96]
	tbnz	w25, #0, .LBB82_160
.LBB82_159:
	mov	x0, x28
	bl	rattle_dealloc
.LBB82_160:
	ldr	q0, [sp, #80]
	ldr	x9, [sp, #96]
	mov	w8, w20
	strb	w19, [x24]
	str	x8, [x24, #8]
	str	q0, [x24, #16]
	str	x9, [x24, #32]
.LBB82_161:
	add	sp, sp, #608
	ldp	x20, x19, [sp, #80]
	ldp	x22, x21, [sp, #64]
	ldp	x24, x23, [sp, #48]
	ldp	x26, x25, [sp, #32]
	ldp	x28, x27, [sp, #16]
	ldp	x29, x30, [sp], #96
	ret
.LBB82_162:
	stur	q0, [x19, #24]
	stur	q0, [x19, #8]
	stur	wzr, [x29, #-232]
	ldr	x24, [sp, #24]
	stur	wzr, [x19, #3]
	ldr	w25, [sp, #20]
	ldur	x19, [x29, #-168]
	cbz	x21, .LBB82_164
.LBB82_163:
	ldr	x0, [sp, #40]
	mov	x1, xzr
	mov	x2, x21
	bl	"std_alloc::vec::opened::drop_run::<#e5da5d668adfa5c1>"
.LBB82_164:
	cbz	x19, .LBB82_166
	ldr	x0, [sp, #40]
	bl	rattle_dealloc
.LBB82_166:
	ldr	q0, [x22, #240]
	ldur	x8, [x29, #-240]
	mov	w19, wzr
	mov	w20, wzr
	str	q0, [sp, #80]
	str	x8, [sp, #96]
	tbz	w25, #0, .LBB82_159
	b	.LBB82_160
.LBB82_167:
	stur	wzr, [x29, #-232]
	stur	q0, [x19, #24]
	stur	q0, [x19, #8]
	ldr	x24, [sp, #24]
	stur	wzr, [x19, #3]
	ldr	w25, [sp, #20]
	ldur	x19, [x29, #-168]
	cbnz	x21, .LBB82_163
	b	.LBB82_164
.LBB82_168:
	movi	v0.2d, #0000000000000000
	ldr	x8, [sp, #48]
	stur	wzr, [x29, #-88]
	stur	wzr, [x19, #147]
	stur	q0, [x19, #168]
	stur	q0, [x19, #152]
	cbz	x8, .LBB82_170
	mov	x0, x23
	bl	rattle_dealloc
	ldp	x8, x21, [x29, #-184]
	str	x8, [sp, #40]
.LBB82_170:
	ldur	q0, [x19, #152]
	ldur	q1, [x19, #168]
	ldur	w8, [x29, #-88]
	ldur	w9, [x19, #147]
	ldp	x24, x28, [sp, #24]
	stur	q0, [x19, #8]
	stur	q1, [x19, #24]
	stur	w8, [x29, #-232]
	stur	w9, [x19, #3]
	ldr	w25, [sp, #20]
	ldur	x20, [x29, #-168]
	stp	xzr, xzr, [x29, #-152]
	stur	xzr, [x29, #-160]
	cbz	x21, .LBB82_172
.LBB82_171:
	ldr	x0, [sp, #40]
	mov	x1, xzr
	mov	x2, x21
	bl	"std_alloc::vec::opened::drop_run::<#e5da5d668adfa5c1>"
.LBB82_172:
	cbz	x20, .LBB82_174
	ldr	x0, [sp, #40]
	bl	rattle_dealloc
.LBB82_174:
	ldur	q0, [x19, #72]
	ldur	x8, [x29, #-144]
	mov	w20, wzr
	mov	w19, #1
	str	q0, [sp, #80]
	str	x8, [sp, #96]
	tbnz	w25, #0, .LBB82_160
	b	.LBB82_159
.LBB82_175:
	movi	v0.2d, #0000000000000000
	ldr	x8, [sp, #48]
	stur	wzr, [x29, #-136]
	stur	wzr, [x19, #99]
	stur	q0, [x19, #120]
	stur	q0, [x19, #104]
	cbz	x8, .LBB82_177
	mov	x0, x23
	bl	rattle_dealloc
	ldur	x21, [x29, #-176]
.LBB82_177:
	ldur	w8, [x29, #-136]
	ldp	x24, x28, [sp, #24]
	ldur	q0, [x19, #104]
	ldur	q1, [x19, #120]
	ldur	w9, [x19, #99]
	stur	w8, [x29, #-232]
	ldur	x8, [x29, #-184]
	stur	q0, [x19, #8]
	stur	q1, [x19, #24]
	str	x8, [sp, #40]
	stur	w9, [x19, #3]
	ldr	w25, [sp, #20]
	ldur	x19, [x29, #-168]
	cbnz	x21, .LBB82_163
	b	.LBB82_164
.LBB82_178:
	movi	v0.2d, #0000000000000000
	ldr	x24, [sp, #24]
	stur	wzr, [x29, #-232]
	stur	wzr, [x19, #3]
	stur	q0, [x19, #24]
	stur	q0, [x19, #8]
	ldr	w25, [sp, #20]
	ldur	x20, [x29, #-168]
	stp	xzr, xzr, [x29, #-152]
	stur	xzr, [x29, #-160]
	cbnz	x21, .LBB82_171
	b	.LBB82_172
.LBB82_179:
	ldur	x8, [x29, #-64]
	cbz	x8, .LBB82_181
	ldur	x0, [x29, #-80]
	bl	rattle_dealloc
.LBB82_181:
	movi	v0.2d, #0000000000000000
	mov	w8, #1
	strb	w8, [x24]
	stur	q0, [x24, #8]
	stur	q0, [x24, #24]
	b	.LBB82_161
.LBB82_182:
	cbz	w27, .LBB82_185
	cbz	x25, .LBB82_185
	mov	x0, x24
	bl	rattle_dealloc
.LBB82_185:
	ldp	x9, x0, [sp]
	ldr	x24, [sp, #24]
	ldr	w25, [sp, #20]
	cbz	x28, .LBB82_190
	add	x19, x0, #16
	b	.LBB82_188
.LBB82_187:
	subs	x28, x28, #1
	add	x19, x19, #24
	b.eq	.LBB82_190
.LBB82_188:
	ldr	x8, [x19]
	cbz	x8, .LBB82_187
	ldur	x0, [x19, #-16]
	bl	rattle_dealloc
	ldp	x9, x0, [sp]
	b	.LBB82_187
.LBB82_190:
	cbz	x9, .LBB82_192
	bl	rattle_dealloc
.LBB82_192:
	ldr	x28, [sp, #32]
	ldr	x8, [sp, #48]
	cbz	x8, .LBB82_194
	mov	x0, x23
	bl	rattle_dealloc
.LBB82_194:
	ldp	x21, x2, [x29, #-184]
	ldur	x19, [x29, #-168]
	cbz	x2, .LBB82_196
	mov	x0, x21
	mov	x1, xzr
	bl	"std_alloc::vec::opened::drop_run::<#e5da5d668adfa5c1>"
.LBB82_196:
	cbz	x19, .LBB82_198
	mov	x0, x21
	bl	rattle_dealloc
.LBB82_198:
	mov	w20, wzr
	mov	w19, #1
	stp	xzr, xzr, [sp, #80]
	str	xzr, [sp, #96]
	tbz	w25, #0, .LBB82_159
	b	.LBB82_160
.Lfunc_end82:
	.size	"ct_step::reading::batch_of", .Lfunc_end82-"ct_step::reading::batch_of"
	.section	".text.unlikely.std_alloc::vec::Vec::grow_amortized::<#abe0b9fcb682171c>","ax",@progbits
	.p2align	2
	.type	"std_alloc::vec::Vec::grow_amortized::<#abe0b9fcb682171c>",@function
"std_alloc::vec::Vec::grow_amortized::<#abe0b9fcb682171c>":
	ldr	x8, [x0, #8]
	cmn	x8, #1
	b.eq	.LBB83_5
	stp	x29, x30, [sp, #-32]!
	ldr	x9, [x0, #16]
	cmp	x8, #3
	mov	w10, #3
	csel	x11, x8, x10, hi
	stp	x20, x19, [sp, #16]
	mov	x29, sp
	lsl	x10, x9, #1
	add	x12, x11, #1
	lsr	x13, x9, #62
	cmp	x12, x10
	csinc	x10, x10, x11, ls
	cmp	x13, #0
	csinc	x19, x10, x11, eq
	mov	x11, #18724
	movk	x11, #9362, lsl #16
	movk	x11, #37449, lsl #32
	movk	x11, #292, lsl #48
	cmp	x19, x11
	b.hi	.LBB83_7
	cbz	x9, .LBB83_6
	lsl	x9, x8, #7
	lsl	x10, x19, #7
	mov	x20, x0
	ldr	x0, [x0]
	mov	w3, #8
	sub	x1, x9, x8, lsl #4
	sub	x2, x10, x19, lsl #4
	bl	rattle_realloc
	tbz	w0, #0, .LBB83_7
.LBB83_4:
	mov	w0, #1
	str	x1, [x20]
	str	x19, [x20, #16]
	ldp	x20, x19, [sp, #16]
	ldp	x29, x30, [sp], #32
	ret
.LBB83_5:
	mov	w0, wzr
	ret
.LBB83_6:
	lsl	x8, x10, #7
	mov	x20, x0
	mov	w1, #8
	sub	x0, x8, x10, lsl #4
	bl	rattle_alloc
	tbnz	w0, #0, .LBB83_4
.LBB83_7:
	mov	w0, wzr
	ldp	x20, x19, [sp, #16]
	ldp	x29, x30, [sp], #32
	ret
.Lfunc_end83:
	.size	"std_alloc::vec::Vec::grow_amortized::<#abe0b9fcb682171c>", .Lfunc_end83-"std_alloc::vec::Vec::grow_amortized::<#abe0b9fcb682171c>"
	.section	".text.unlikely.std_alloc::vec::Vec::grow_amortized::<#8c38511a3de69cfe>","ax",@progbits
	.p2align	2
	.type	"std_alloc::vec::Vec::grow_amortized::<#8c38511a3de69cfe>",@function
"std_alloc::vec::Vec::grow_amortized::<#8c38511a3de69cfe>":
	ldr	x8, [x0, #8]
	cmn	x8, x1
	b.lo	.LBB84_2
	mov	w0, wzr
	ret
.LBB84_2:
	stp	x29, x30, [sp, #-32]!
	ldr	x9, [x0, #16]
	add	x10, x8, x1
	mov	w11, #4
	cmp	x10, #4
	stp	x20, x19, [sp, #16]
	mov	x29, sp
	lsl	x12, x9, #1
	csel	x11, x10, x11, hi
	lsr	x13, x9, #62
	cmp	x11, x12
	csel	x10, x11, x12, hi
	cmp	x13, #0
	csel	x19, x10, x11, eq
	lsr	x11, x19, #58
	cbnz	x11, .LBB84_7
	cbz	x9, .LBB84_6
	mov	x20, x0
	ldr	x0, [x0]
	lsl	x1, x8, #5
	lsl	x2, x19, #5
	mov	w3, #1
	bl	rattle_realloc
	tbz	w0, #0, .LBB84_7
.LBB84_5:
	mov	w0, #1
	str	x1, [x20]
	str	x19, [x20, #16]
	ldp	x20, x19, [sp, #16]
	ldp	x29, x30, [sp], #32
	ret
.LBB84_6:
	mov	x20, x0
	lsl	x0, x10, #5
	mov	w1, #1
	bl	rattle_alloc
	tbnz	w0, #0, .LBB84_5
.LBB84_7:
	mov	w0, wzr
	ldp	x20, x19, [sp, #16]
	ldp	x29, x30, [sp], #32
	ret
.Lfunc_end84:
	.size	"std_alloc::vec::Vec::grow_amortized::<#8c38511a3de69cfe>", .Lfunc_end84-"std_alloc::vec::Vec::grow_amortized::<#8c38511a3de69cfe>"
	.section	".text.unlikely.std_alloc::vec::Vec::grow_amortized::<#190bf94371d9ad20>","ax",@progbits
	.p2align	2
	.type	"std_alloc::vec::Vec::grow_amortized::<#190bf94371d9ad20>",@function
"std_alloc::vec::Vec::grow_amortized::<#190bf94371d9ad20>":
	ldr	x8, [x0, #8]
	cmn	x8, #1
	b.eq	.LBB85_5
	stp	x29, x30, [sp, #-32]!
	ldr	x9, [x0, #16]
	cmp	x8, #3
	mov	w10, #3
	csel	x11, x8, x10, hi
	stp	x20, x19, [sp, #16]
	mov	x29, sp
	lsl	x10, x9, #1
	add	x12, x11, #1
	lsr	x13, x9, #62
	cmp	x12, x10
	csinc	x10, x10, x11, ls
	cmp	x13, #0
	csinc	x19, x10, x11, eq
	mov	x11, #18724
	movk	x11, #9362, lsl #16
	movk	x11, #37449, lsl #32
	movk	x11, #292, lsl #48
	cmp	x19, x11
	b.hi	.LBB85_7
	cbz	x9, .LBB85_6
	lsl	x9, x8, #7
	lsl	x10, x19, #7
	mov	x20, x0
	ldr	x0, [x0]
	mov	w3, #8
	sub	x1, x9, x8, lsl #4
	sub	x2, x10, x19, lsl #4
	bl	rattle_realloc
	tbz	w0, #0, .LBB85_7
.LBB85_4:
	mov	w0, #1
	str	x1, [x20]
	str	x19, [x20, #16]
	ldp	x20, x19, [sp, #16]
	ldp	x29, x30, [sp], #32
	ret
.LBB85_5:
	mov	w0, wzr
	ret
.LBB85_6:
	lsl	x8, x10, #7
	mov	x20, x0
	mov	w1, #8
	sub	x0, x8, x10, lsl #4
	bl	rattle_alloc
	tbnz	w0, #0, .LBB85_4
.LBB85_7:
	mov	w0, wzr
	ldp	x20, x19, [sp, #16]
	ldp	x29, x30, [sp], #32
	ret
.Lfunc_end85:
	.size	"std_alloc::vec::Vec::grow_amortized::<#190bf94371d9ad20>", .Lfunc_end85-"std_alloc::vec::Vec::grow_amortized::<#190bf94371d9ad20>"
	.section	.rodata.cst16,"aM",@progbits,16
	.p2align	4, 0x0
.LCPI86_0:
	.byte	1
	.byte	2
	.byte	4
	.byte	8
	.byte	16
	.byte	32
	.byte	64
	.byte	128
	.byte	1
	.byte	2
	.byte	4
	.byte	8
	.byte	16
	.byte	32
	.byte	64
	.byte	128
	.section	".text.ct_step::stepping::step_reply","ax",@progbits
	.p2align	2
	.type	"ct_step::stepping::step_reply",@function
"ct_step::stepping::step_reply":
	stp	x29, x30, [sp, #-96]!
	stp	x28, x27, [sp, #16]
	mov	x29, sp
	stp	x26, x25, [sp, #32]
	stp	x24, x23, [sp, #48]
	stp	x22, x21, [sp, #64]
	stp	x20, x19, [sp, #80]
	sub	sp, sp, #1680
	movi	v0.2d, #0000000000000000
	str	xzr, [sp]
	mov	x19, x2
	mov	x21, x1
	ldp	x1, x2, [x29, #96]
	ldp	x22, x24, [x3]
	mov	x23, x0
	ldr	x25, [x3, #16]
	add	x0, sp, #240
	mov	x20, x7
	mov	x27, x6
	mov	x28, x5
	mov	x26, x4
	stp	q0, q0, [sp, #240]
	stp	q0, q0, [sp, #272]
	stp	q0, q0, [sp, #304]
	stp	q0, q0, [sp, #336]
	str	q0, [sp, #368]
	str	xzr, [sp, #384]
	str	xzr, [sp, #208]
	stp	xzr, xzr, [sp, #216]
	stur	xzr, [sp, #230]
	bl	"ct_step::line::StateLine::read"
	ldrb	w8, [sp, #240]
	cmp	w8, #1
	b.ne	.LBB86_8
	add	x8, sp, #240
	str	x24, [sp, #176]
	add	x24, sp, #544
	ldur	q0, [x8, #104]
	ldur	q1, [x8, #120]
	ldur	q2, [x8, #136]
	add	x8, sp, #25
	str	xzr, [sp, #552]
	stp	q0, q1, [sp, #496]
	ldur	q0, [x8, #255]
	add	x8, sp, #41
	ldur	q1, [x8, #255]
	add	x8, sp, #73
	str	q2, [sp, #528]
	ldur	q2, [x8, #255]
	add	x8, sp, #57
	str	xzr, [sp, #544]
	stp	q0, q1, [sp, #432]
	ldur	q0, [x8, #255]
	add	x8, sp, #9
	ldur	q1, [x8, #255]
	stur	xzr, [x24, #22]
	stp	q0, q2, [sp, #464]
	ldur	q0, [sp, #248]
	str	x27, [sp, #120]
	stp	q0, q1, [sp, #400]
	ldr	x8, [sp, #408]
	str	xzr, [sp, #560]
	subs	x8, x27, x8
	b.ls	.LBB86_13
	cmp	x20, x8
	b.hs	.LBB86_13
	ldr	x2, [sp, #176]
	cbz	x2, .LBB86_5
	mov	x0, x22
	mov	x1, xzr
	bl	"std_alloc::vec::opened::drop_run::<#e5da5d668adfa5c1>"
.LBB86_5:
	cbz	x25, .LBB86_7
	mov	x0, x22
	bl	rattle_dealloc
.LBB86_7:
	mov	w26, wzr
	stur	xzr, [sp, #222]
	mov	w19, #3
	stur	xzr, [sp, #214]
	mov	w20, #1
	stur	xzr, [sp, #230]
	b	.LBB86_146
.LBB86_8:
	stur	xzr, [sp, #222]
	stur	xzr, [sp, #214]
	stur	xzr, [sp, #230]
	cbz	x24, .LBB86_10
	mov	x0, x22
	mov	x1, xzr
	mov	x2, x24
	bl	"std_alloc::vec::opened::drop_run::<#e5da5d668adfa5c1>"
.LBB86_10:
	cbz	x25, .LBB86_12
	mov	x0, x22
	bl	rattle_dealloc
.LBB86_12:
	mov	w26, wzr
	mov	w20, #1
	mov	w19, #1
	b	.LBB86_146
.LBB86_13:
	stp	x21, x19, [sp, #40]
	ldr	x19, [sp, #400]
	mov	x20, xzr
	stp	x23, x25, [sp, #104]
	mov	x25, xzr
	sub	x9, x29, #24
	sub	x8, x29, #24
	mov	x23, x19
	str	x22, [sp, #168]
	str	xzr, [sp, #584]
	str	xzr, [sp, #576]
	stur	xzr, [x24, #54]
	str	xzr, [sp, #592]
	str	x8, [sp, #200]
	str	x9, [sp, #640]
	str	xzr, [sp, #656]
	str	xzr, [sp, #648]
.LBB86_14:
	tst	x23, #0xff
	b.eq	.LBB86_24
	cbz	x28, .LBB86_60
	ldp	x22, x27, [x26], #24
	sub	x28, x28, #1
	cbz	x27, .LBB86_25
	tbnz	x27, #63, .LBB86_47
	mov	x0, x27
	mov	w1, #1
	bl	rattle_alloc
	tbz	w0, #0, .LBB86_47
	sub	x8, x1, x22
	mov	x21, x1
	cmp	x8, x27
	b.hs	.LBB86_26
	cmp	x27, #8
	mov	x8, xzr
	b.lo	.LBB86_38
	sub	x9, x21, x22
	cmp	x9, #32
	b.lo	.LBB86_38
	cmp	x27, #32
	b.hs	.LBB86_31
	mov	x8, xzr
	b	.LBB86_35
.LBB86_24:
	mov	x27, xzr
	adrp	x22, .Lstatic.2
	add	x22, x22, :lo12:.Lstatic.2
.LBB86_25:
	sub	x21, x29, #24
.LBB86_26:
	mov	x0, x21
	mov	x1, x22
	mov	x2, x27
	bl	memmove
.LBB86_27:
	ldr	x8, [sp, #656]
	cmp	x8, x25
	b.eq	.LBB86_29
.LBB86_28:
	mov	w8, #24
	ldr	x9, [sp, #200]
	lsr	x23, x23, #8
	madd	x8, x25, x8, x9
	add	x20, x20, #1
	mov	x10, x25
	add	x25, x25, #1
	cmp	x20, #8
	stp	x21, x27, [x8]
	str	x27, [x8, #16]
	str	x25, [sp, #648]
	b.ne	.LBB86_14
	b	.LBB86_39
.LBB86_29:
	add	x0, sp, #640
	bl	"std_alloc::vec::Vec::grow_amortized::<#c2ea2623f4a99793>"
	cbz	w0, .LBB86_188
	ldr	x25, [sp, #648]
	ldr	x8, [sp, #640]
	str	x8, [sp, #200]
	b	.LBB86_28
.LBB86_31:
	and	x9, x27, #0x18
	and	x8, x27, #0x7fffffffffffffe0
	add	x10, x22, #16
	add	x11, x21, #16
	and	x12, x27, #0x7fffffffffffffe0
.LBB86_32:
	ldp	q0, q1, [x10, #-16]
	subs	x12, x12, #32
	add	x10, x10, #32
	stp	q0, q1, [x11, #-16]
	add	x11, x11, #32
	b.ne	.LBB86_32
	cmp	x27, x8
	b.eq	.LBB86_27
	cbz	x9, .LBB86_38
.LBB86_35:
	mov	x9, x8
	and	x8, x27, #0x7ffffffffffffff8
.LBB86_36:
	ldr	d0, [x22, x9]
	str	d0, [x21, x9]
	add	x9, x9, #8
	cmp	x8, x9
	b.ne	.LBB86_36
.LBB86_37:
	cmp	x27, x8
	b.eq	.LBB86_27
.LBB86_38:
	ldrb	w9, [x22, x8]
	strb	w9, [x21, x8]
	add	x8, x8, #1
	b	.LBB86_37
.LBB86_39:
	tst	x19, #0xff
	b.eq	.LBB86_66
	cbz	x28, .LBB86_132
	ldr	x8, [x26]
	sub	x28, x28, #1
	str	x8, [sp, #8]
	ldr	x8, [x26, #8]
	str	x8, [sp, #16]
	ldr	x8, [sp, #656]
	str	x8, [sp, #32]
	cbz	x28, .LBB86_67
.LBB86_42:
	cbz	x25, .LBB86_65
	ldr	x8, [sp, #200]
	add	x19, x10, #1
	add	x20, x8, #16
	b	.LBB86_45
.LBB86_44:
	subs	x19, x19, #1
	add	x20, x20, #24
	b.eq	.LBB86_65
.LBB86_45:
	ldr	x8, [x20]
	cbz	x8, .LBB86_44
	ldur	x0, [x20, #-16]
	bl	rattle_dealloc
	b	.LBB86_44
.LBB86_47:
	ldr	x19, [sp, #656]
	cbz	x25, .LBB86_52
	ldr	x8, [sp, #200]
	add	x20, x8, #16
	b	.LBB86_50
.LBB86_49:
	subs	x25, x25, #1
	add	x20, x20, #24
	b.eq	.LBB86_52
.LBB86_50:
	ldr	x8, [x20]
	cbz	x8, .LBB86_49
	ldur	x0, [x20, #-16]
	bl	rattle_dealloc
	b	.LBB86_49
.LBB86_52:
	ldr	x23, [sp, #104]
	ldr	x25, [sp, #168]
	cbz	x19, .LBB86_55
	ldr	x0, [sp, #200]
.LBB86_54:
	bl	rattle_dealloc
.LBB86_55:
	ldr	x2, [sp, #176]
	cbz	x2, .LBB86_57
	mov	x0, x25
	mov	x1, xzr
	bl	"std_alloc::vec::opened::drop_run::<#e5da5d668adfa5c1>"
.LBB86_57:
	ldr	x8, [sp, #112]
	cbz	x8, .LBB86_59
	mov	x0, x25
	bl	rattle_dealloc
.LBB86_59:
	mov	w20, wzr
	mov	w19, wzr
	stur	xzr, [x24, #14]
	stur	xzr, [x24, #6]
	mov	w26, #1
	stur	xzr, [x24, #22]
	b	.LBB86_145
.LBB86_60:
	ldr	x19, [sp, #656]
	cbz	x25, .LBB86_137
	ldr	x8, [sp, #200]
	add	x20, x8, #16
	b	.LBB86_63
.LBB86_62:
	subs	x25, x25, #1
	add	x20, x20, #24
	b.eq	.LBB86_137
.LBB86_63:
	ldr	x8, [x20]
	cbz	x8, .LBB86_62
	ldur	x0, [x20, #-16]
	bl	rattle_dealloc
	b	.LBB86_62
.LBB86_65:
	ldr	x8, [sp, #32]
	cbnz	x8, .LBB86_138
	b	.LBB86_139
.LBB86_66:
	adrp	x8, .Lstatic.2
	add	x8, x8, :lo12:.Lstatic.2
	stp	x8, xzr, [sp, #8]
	ldr	x8, [sp, #656]
	str	x8, [sp, #32]
	cbnz	x28, .LBB86_42
.LBB86_67:
	movi	v0.2d, #0000000000000000
	mov	x9, #2259
	stur	xzr, [x24, #86]
	movk	x9, #34211, lsl #16
	ldr	x24, [sp, #176]
	sub	x8, x29, #24
	movk	x9, #27272, lsl #32
	str	xzr, [sp, #1232]
	movk	x9, #9279, lsl #48
	str	xzr, [sp, #904]
	str	q0, [sp, #1168]
	str	q0, [sp, #1184]
	str	q0, [sp, #1200]
	str	q0, [sp, #1216]
	stp	q0, q0, [sp, #784]
	stp	q0, q0, [sp, #816]
	stp	q0, q0, [sp, #848]
	stp	q0, q0, [sp, #928]
	stp	q0, q0, [sp, #960]
	stp	q0, q0, [sp, #992]
	str	q0, [sp, #1024]
	str	q0, [sp, #1040]
	str	q0, [sp, #1056]
	str	q0, [sp, #1072]
	str	q0, [sp, #1088]
	str	q0, [sp, #1104]
	str	q0, [sp, #1120]
	str	q0, [sp, #1136]
	str	q0, [sp, #1152]
	str	xzr, [sp, #896]
	str	xzr, [sp, #912]
	str	xzr, [sp, #880]
	stp	q0, q0, [sp, #656]
	stp	q0, q0, [sp, #688]
	stp	q0, q0, [sp, #720]
	stp	q0, q0, [sp, #752]
	str	q0, [sp, #640]
	str	xzr, [sp, #616]
	str	xzr, [sp, #608]
	str	xzr, [sp, #624]
	stp	xzr, xzr, [x29, #-56]
	stur	xzr, [x29, #-64]
	str	xzr, [sp, #1264]
	str	xzr, [sp, #1248]
	str	xzr, [sp, #1256]
	str	x8, [sp, #1280]
	str	xzr, [sp, #1288]
	str	xzr, [sp, #1296]
	str	x8, [sp, #1304]
	str	xzr, [sp, #1320]
	str	xzr, [sp, #1312]
	str	x8, [sp, #1328]
	str	xzr, [sp, #1336]
	str	xzr, [sp, #1344]
	str	x8, [sp, #1352]
	str	xzr, [sp, #1368]
	str	xzr, [sp, #1360]
	str	xzr, [sp, #1376]
	str	x9, [sp, #1384]
	str	x8, [sp, #1392]
	str	xzr, [sp, #1400]
	str	xzr, [sp, #1408]
	str	x8, [sp, #1416]
	str	xzr, [sp, #1424]
	str	xzr, [sp, #1432]
	str	x8, [sp, #1440]
	str	xzr, [sp, #1448]
	str	xzr, [sp, #1456]
	str	x10, [sp]
	cbz	x24, .LBB86_147
	sub	x8, x29, #208
	mov	x19, xzr
	orr	x8, x8, #0x1
	str	x8, [sp, #24]
	b	.LBB86_71
.LBB86_69:
	mov	w8, #24
	ldr	x10, [sp, #1416]
	madd	x8, x9, x8, x10
	add	x9, x9, #1
	stp	x21, x20, [x8]
	str	x19, [x8, #16]
	str	x9, [sp, #1424]
.LBB86_70:
	ldr	x19, [sp, #80]
	cbz	x24, .LBB86_147
.LBB86_71:
	mov	w8, #112
	ldr	x9, [sp, #168]
	sub	x10, x29, #96
	madd	x8, x19, x8, x9
	sub	x9, x29, #24
	sub	x0, x29, #96
	sub	x1, x29, #208
	stp	xzr, xzr, [x10, #8]
	mov	x27, x24
	stur	x9, [x29, #-96]
	sub	x24, x24, #1
	ldr	q0, [x8, #48]
	stur	q0, [x29, #-160]
	ldr	q0, [x8, #64]
	stur	q0, [x29, #-144]
	ldr	q0, [x8, #80]
	stur	q0, [x29, #-128]
	ldr	q0, [x8, #96]
	stur	q0, [x29, #-112]
	ldr	q0, [x8]
	stur	q0, [x29, #-208]
	ldr	q0, [x8, #16]
	stur	q0, [x29, #-192]
	ldr	q0, [x8, #32]
	stur	q0, [x29, #-176]
	bl	"ct_codec::writing::push_entry::<#8ca9ace9f4c467fd>"
	tst	w0, #0xff
	str	x19, [sp, #56]
	b.ne	.LBB86_171
	ldp	x28, x26, [x29, #-96]
	mov	x9, #31749
	ldr	x8, [sp, #1384]
	movk	x9, #32586, lsl #16
	str	x27, [sp, #96]
	movk	x9, #31161, lsl #32
	movk	x9, #40503, lsl #48
	eor	x8, x8, x26
	mul	x10, x8, x9
	umulh	x8, x8, x9
	add	x9, x19, #1
	eor	x8, x8, x10
	cbz	x26, .LBB86_75
	str	x9, [sp, #80]
	mov	x9, x28
	mov	x10, x26
.LBB86_74:
	ldrb	w11, [x9], #1
	mov	w12, #257
	movk	w12, #1, lsl #16
	subs	x10, x10, #1
	umull	x11, w11, w12
	mov	x12, #31767
	movk	x12, #32586, lsl #16
	movk	x12, #31161, lsl #32
	movk	x12, #40503, lsl #48
	eor	x8, x11, x8
	mul	x11, x8, x12
	umulh	x8, x8, x12
	eor	x8, x8, x11
	b.ne	.LBB86_74
	b	.LBB86_76
.LBB86_75:
	str	x9, [sp, #80]
.LBB86_76:
	eor	x9, x8, x8, lsr #32
	ldur	x8, [x29, #-80]
	ldr	x10, [sp, #1336]
	ldr	x19, [sp, #1328]
	adrp	x23, .LCPI86_0
	str	x8, [sp, #88]
	ldr	x8, [sp, #1288]
	stp	x8, x10, [sp, #64]
	lsr	w8, w9, #24
	stp	x8, x9, [sp, #128]
	cbz	x10, .LBB86_108
	ldp	x8, x11, [sp, #128]
	mov	w10, #1
	ldr	x12, [sp, #72]
	ldr	x21, [sp, #1280]
	cmp	w8, #1
	sub	w9, w12, #1
	csinc	w8, w8, wzr, hi
	and	w27, w11, w9
	dup	v0.16b, w8
	lsl	w8, w10, w8
	str	w8, [sp, #160]
	sub	x8, x12, #1
	str	q0, [sp, #176]
	stp	x8, x27, [sp, #144]
.LBB86_78:
	add	x8, x19, x27, lsl #6
	ldr	q1, [sp, #176]
	ldr	q0, [x8]
	cmeq	v0.16b, v0.16b, v1.16b
	ldr	q1, [x23, :lo12:.LCPI86_0]
	and	v0.16b, v0.16b, v1.16b
	addp	v0.16b, v0.16b, v0.16b
	addp	v0.16b, v0.16b, v0.16b
	addp	v0.16b, v0.16b, v0.16b
	umov	w8, v0.h[0]
	ands	w24, w8, #0xfff
	b.eq	.LBB86_83
	add	x8, x19, x27, lsl #6
	cmp	x26, #4
	add	x22, x8, #16
	b.hs	.LBB86_86
	cbnz	x26, .LBB86_92
.LBB86_81:
	rbit	w8, w24
	clz	w8, w8
	ldr	w20, [x22, w8, uxtw #2]
	mov	w8, #24
	umaddl	x8, w20, w8, x21
	ldr	x8, [x8, #8]
	cbz	x8, .LBB86_100
	sub	w8, w24, #1
	ands	w24, w8, w24
	b.ne	.LBB86_81
.LBB86_83:
	add	x8, x19, x27, lsl #6
	ldr	w9, [sp, #160]
	ldr	w8, [x8, #12]
	tst	w8, w9
	b.eq	.LBB86_108
	ldr	x9, [sp, #144]
	add	x8, x27, #1
	and	x27, x8, x9
	ldr	x8, [sp, #152]
	cmp	x27, x8
	b.ne	.LBB86_78
	b	.LBB86_108
.LBB86_85:
	sub	w8, w24, #1
	ands	w24, w8, w24
	b.eq	.LBB86_83
.LBB86_86:
	rbit	w8, w24
	clz	w8, w8
	ldr	w20, [x22, w8, uxtw #2]
	mov	w8, #24
	umaddl	x8, w20, w8, x21
	ldr	x9, [x8, #8]
	cmp	x26, x9
	b.ne	.LBB86_85
	ldr	x2, [x8]
	ldr	w8, [x28]
	ldr	w9, [x2]
	cmp	w8, w9
	b.ne	.LBB86_85
	mov	x0, x28
	mov	x1, x26
	bl	"core::cmp::slices::groups_equal::<i8,31'core::cmp::numbers::U8PartialEq{}>"
	tbz	w0, #0, .LBB86_85
	b	.LBB86_100
.LBB86_89:
	mov	x8, xzr
.LBB86_90:
	cmp	x8, x26
	b.hs	.LBB86_100
.LBB86_91:
	sub	w8, w24, #1
	ands	w24, w8, w24
	b.eq	.LBB86_83
.LBB86_92:
	rbit	w8, w24
	clz	w8, w8
	ldr	w20, [x22, w8, uxtw #2]
	mov	w8, #24
	umaddl	x8, w20, w8, x21
	ldr	x9, [x8, #8]
	cmp	x26, x9
	b.ne	.LBB86_91
	ldr	x8, [x8]
	ldrb	w9, [x28]
	ldrb	w10, [x8]
	cmp	w9, w10
	b.ne	.LBB86_89
	cmp	x26, #1
	b.eq	.LBB86_100
	ldrb	w9, [x28, #1]
	ldrb	w10, [x8, #1]
	cmp	w9, w10
	b.ne	.LBB86_99
	cmp	x26, #2
	b.eq	.LBB86_100
	ldrb	w9, [x28, #2]
	ldrb	w8, [x8, #2]
	cmp	w9, w8
	b.eq	.LBB86_100
	mov	w8, #2
	b	.LBB86_90
.LBB86_99:
	mov	w8, #1
	b	.LBB86_90
.LBB86_100:
	ldr	x8, [sp, #88]
	cbz	x8, .LBB86_102
	mov	x0, x28
	bl	rattle_dealloc
.LBB86_102:
	ldr	x27, [sp, #96]
	mov	w19, wzr
	sub	x24, x27, #1
	ldr	x9, [sp, #1456]
	ldr	x8, [sp, #1448]
	cmp	x9, x8
	b.eq	.LBB86_116
.LBB86_103:
	ldr	x9, [sp, #1440]
	str	x20, [x9, x8, lsl #3]
	add	x8, x8, #1
	ldurb	w23, [x29, #-208]
	str	x8, [sp, #1448]
	tbz	w19, #0, .LBB86_118
.LBB86_104:
	ldr	x9, [sp, #1408]
	ldr	x8, [sp, #1400]
	ldurb	w19, [x29, #-168]
	cmp	x9, x8
	b.eq	.LBB86_130
.LBB86_105:
	mov	w9, #88
	ldr	x10, [sp, #1392]
	sub	x11, x29, #208
	madd	x9, x8, x9, x10
	ldr	x10, [sp, #24]
	add	x8, x8, #1
	strb	w23, [x9]
	ldr	q0, [x10]
	stur	q0, [x9, #1]
	ldr	q0, [x10, #16]
	strb	w19, [x9, #40]
	stur	q0, [x9, #17]
	ldur	q0, [x11, #41]
	stur	q0, [x9, #41]
	ldur	x10, [x11, #56]
	str	x10, [x9, #56]
	ldur	q0, [x11, #64]
	str	q0, [x9, #64]
	ldur	x10, [x11, #80]
	str	x10, [x9, #80]
	ldr	x10, [sp, #1432]
	ldr	x9, [sp, #1424]
	ldur	x19, [x29, #-104]
	ldp	x21, x20, [x29, #-120]
	str	x8, [sp, #1400]
	cmp	x10, x9
	b.ne	.LBB86_69
	add	x8, sp, #1280
	add	x0, x8, #136
	bl	"std_alloc::vec::Vec::grow_amortized::<#de2ad0e0391ad1de>"
	cbz	w0, .LBB86_307
	ldr	x9, [sp, #1424]
	b	.LBB86_69
.LBB86_108:
	ldr	x8, [sp, #1296]
	ldr	x9, [sp, #1320]
	ldr	x20, [sp, #64]
	cmp	x9, x8
	csel	x8, x9, x8, lo
	ldr	x9, [sp, #1376]
	subs	x8, x8, x20
	csel	x8, xzr, x8, lo
	cmp	x8, x9
	csel	x8, x8, x9, lo
	cbz	x8, .LBB86_110
	ldr	x27, [sp, #96]
	ldr	x14, [sp, #72]
	b	.LBB86_112
.LBB86_110:
	add	x0, sp, #1280
	bl	"indexmap::map::IndexMap::grow::<#a6706983b27aaeee>"
	ldr	x27, [sp, #96]
	and	w8, w0, #0xff
	tbnz	w8, #0, .LBB86_222
	ldr	x20, [sp, #1288]
	ldr	x19, [sp, #1328]
	ldr	x14, [sp, #1336]
.LBB86_112:
	ldr	x8, [sp, #128]
	mov	w11, #1
	ldr	x9, [sp, #1360]
	sub	w13, w14, #1
	sub	x24, x27, #1
	cmp	w8, #1
	csinc	w10, w8, wzr, hi
	ldr	x8, [sp, #136]
	lsl	w12, w11, w10
	mov	w8, w8
	and	x11, x13, x8
	sub	x13, x14, #1
.LBB86_113:
	add	x14, x19, x11, lsl #6
	ldr	q1, [x23, :lo12:.LCPI86_0]
	ldr	q0, [x14]
	cmeq	v0.16b, v0.16b, #0
	and	v0.16b, v0.16b, v1.16b
	addp	v0.16b, v0.16b, v0.16b
	addp	v0.16b, v0.16b, v0.16b
	addp	v0.16b, v0.16b, v0.16b
	umov	w15, v0.h[0]
	ands	w15, w15, #0xfff
	b.ne	.LBB86_115
	ldr	w15, [x14, #12]
	add	x11, x11, #1
	and	x11, x11, x13
	orr	w15, w15, w12
	str	w15, [x14, #12]
	b	.LBB86_113
.LBB86_115:
	rbit	w12, w15
	mov	w19, #1
	clz	w12, w12
	add	x13, x14, w12, uxtw #2
	strb	w10, [x14, w12, uxtw]
	orr	w10, w12, w11, lsl #4
	str	w9, [x13, #16]
	orr	x8, x8, x10, lsl #32
	mov	w10, #24
	ldr	x9, [sp, #1360]
	ldr	x11, [sp, #1352]
	str	x8, [x11, x9, lsl #3]
	add	x9, x9, #1
	ldr	x8, [sp, #1288]
	ldr	x11, [sp, #1280]
	str	x9, [sp, #1360]
	ldr	x9, [sp, #88]
	madd	x10, x8, x10, x11
	ldr	x11, [sp, #1376]
	add	x8, x8, #1
	sub	x11, x11, #1
	str	x11, [sp, #1376]
	stp	x28, x26, [x10]
	str	x9, [x10, #16]
	ldr	x9, [sp, #1312]
	str	x8, [sp, #1288]
	add	x9, x9, #1
	str	x9, [sp, #1312]
	ldr	x9, [sp, #1456]
	ldr	x8, [sp, #1448]
	cmp	x9, x8
	b.ne	.LBB86_103
.LBB86_116:
	add	x8, sp, #1280
	add	x0, x8, #160
	bl	"std_alloc::vec::Vec::grow_amortized::<#011395025abc1f5f>"
	cbz	w0, .LBB86_255
	ldr	x8, [sp, #1448]
	ldr	x9, [sp, #1440]
	str	x20, [x9, x8, lsl #3]
	add	x8, x8, #1
	ldurb	w23, [x29, #-208]
	str	x8, [sp, #1448]
	tbnz	w19, #0, .LBB86_104
.LBB86_118:
	ldp	x21, x19, [x29, #-144]
	cmp	w23, #1
	ldur	x20, [x29, #-128]
	b.ne	.LBB86_121
	ldur	x8, [x29, #-152]
	cbz	x8, .LBB86_121
	ldur	x0, [x29, #-168]
	bl	rattle_dealloc
.LBB86_121:
	cbz	x19, .LBB86_126
	add	x22, x21, #16
	b	.LBB86_124
.LBB86_123:
	subs	x19, x19, #1
	add	x22, x22, #24
	b.eq	.LBB86_126
.LBB86_124:
	ldr	x8, [x22]
	cbz	x8, .LBB86_123
	ldur	x0, [x22, #-16]
	bl	rattle_dealloc
	b	.LBB86_123
.LBB86_126:
	cbz	x20, .LBB86_128
	mov	x0, x21
	bl	rattle_dealloc
.LBB86_128:
	ldur	x8, [x29, #-104]
	cbz	x8, .LBB86_70
	ldur	x0, [x29, #-120]
	bl	rattle_dealloc
	b	.LBB86_70
.LBB86_130:
	add	x8, sp, #1280
	add	x0, x8, #112
	bl	"std_alloc::vec::Vec::grow_amortized::<#c7acf2d08af3e8c4>"
	cbz	w0, .LBB86_297
	ldr	x8, [sp, #1400]
	b	.LBB86_105
.LBB86_132:
	ldr	x19, [sp, #656]
	cbz	x25, .LBB86_137
	ldr	x8, [sp, #200]
	add	x20, x10, #1
	add	x21, x8, #16
	b	.LBB86_135
.LBB86_134:
	subs	x20, x20, #1
	add	x21, x21, #24
	b.eq	.LBB86_137
.LBB86_135:
	ldr	x8, [x21]
	cbz	x8, .LBB86_134
	ldur	x0, [x21, #-16]
	bl	rattle_dealloc
	b	.LBB86_134
.LBB86_137:
	cbz	x19, .LBB86_139
.LBB86_138:
	ldr	x0, [sp, #200]
	bl	rattle_dealloc
.LBB86_139:
	ldp	x23, x20, [sp, #104]
	stur	xzr, [x24, #38]
	ldp	x19, x2, [sp, #168]
	stur	xzr, [x24, #54]
	stur	xzr, [x24, #46]
	cbz	x2, .LBB86_141
	mov	x0, x19
	mov	x1, xzr
	bl	"std_alloc::vec::opened::drop_run::<#e5da5d668adfa5c1>"
.LBB86_141:
	cbz	x20, .LBB86_143
	mov	x0, x19
	bl	rattle_dealloc
.LBB86_143:
	mov	w26, wzr
	mov	w19, #4
	mov	w20, #1
.LBB86_144:
	ldur	q0, [x24, #38]
	ldur	x8, [x24, #54]
	stur	q0, [x24, #6]
	stur	x8, [x24, #22]
.LBB86_145:
	ldur	q0, [x24, #6]
	ldur	x8, [x24, #22]
	stur	q0, [sp, #214]
	stur	x8, [sp, #230]
.LBB86_146:
	ldur	q0, [sp, #214]
	ldur	x8, [sp, #230]
	strb	w26, [x23]
	strb	w20, [x23, #8]
	strb	w19, [x23, #9]
	str	q0, [x23, #16]
	str	x8, [x23, #32]
	add	sp, sp, #1680
	ldp	x20, x19, [sp, #80]
	ldp	x22, x21, [sp, #64]
	ldp	x24, x23, [sp, #48]
	ldp	x26, x25, [sp, #32]
	ldp	x28, x27, [sp, #16]
	ldp	x29, x30, [sp], #96
	ret
.LBB86_147:
	ldr	x8, [sp, #112]
	cbz	x8, .LBB86_149
	ldr	x0, [sp, #168]
	bl	rattle_dealloc
.LBB86_149:
	ldr	x8, [sp, #1392]
	ldr	x21, [sp, #1424]
	ldr	x23, [sp, #1400]
	ldr	x9, [sp, #1432]
	str	x8, [sp, #152]
	ldr	x8, [sp, #1408]
	cmp	x21, x23
	str	x8, [sp, #160]
	ldr	x8, [sp, #1416]
	stp	x8, x9, [sp, #168]
	b.ne	.LBB86_378
	cbz	x23, .LBB86_154
	add	x8, x8, #8
	mov	x9, x23
.LBB86_152:
	ldr	x10, [x8], #24
	cmp	x10, #2048
	b.hs	.LBB86_378
	subs	x9, x9, #1
	b.ne	.LBB86_152
.LBB86_154:
	ldr	x9, [sp, #1328]
	add	x8, sp, #1280
	ldr	x26, [sp, #1280]
	ldur	q0, [x8, #160]
	ldur	x8, [x8, #176]
	ldr	x20, [sp, #1288]
	ldr	x21, [sp, #1296]
	ldr	x24, [sp, #1304]
	ldr	x19, [sp, #1320]
	str	x9, [sp, #136]
	ldr	x27, [sp, #1344]
	ldr	x9, [sp, #1352]
	ldr	x22, [sp, #1368]
	stur	q0, [x29, #-64]
	str	x9, [sp, #144]
	stur	x8, [x29, #-48]
	cbz	x20, .LBB86_159
	add	x28, x26, #16
	b	.LBB86_157
.LBB86_156:
	subs	x20, x20, #1
	add	x28, x28, #24
	b.eq	.LBB86_159
.LBB86_157:
	ldr	x8, [x28]
	cbz	x8, .LBB86_156
	ldur	x0, [x28, #-16]
	bl	rattle_dealloc
	b	.LBB86_156
.LBB86_159:
	cbz	x21, .LBB86_161
	mov	x0, x26
	bl	rattle_dealloc
.LBB86_161:
	cbz	x19, .LBB86_163
	mov	x0, x24
	bl	rattle_dealloc
.LBB86_163:
	ldr	x28, [sp, #168]
	cbz	x27, .LBB86_165
	ldr	x0, [sp, #136]
	bl	rattle_dealloc
.LBB86_165:
	ldr	x19, [sp, #120]
	add	x24, sp, #544
	cbz	x22, .LBB86_167
	ldr	x0, [sp, #144]
	bl	rattle_dealloc
.LBB86_167:
	ldr	x9, [sp, #152]
	ldp	x22, x4, [sp]
	ldur	q0, [x29, #-64]
	add	x0, sp, #640
	add	x1, sp, #400
	ldur	x8, [x29, #-48]
	str	x9, [sp, #1168]
	add	x6, sp, #1168
	ldr	x9, [sp, #160]
	ldr	x27, [sp, #176]
	add	x3, x22, #1
	ldr	x2, [sp, #200]
	ldr	x5, [sp, #16]
	mov	x7, x19
	str	q0, [sp, #896]
	str	x8, [sp, #912]
	str	x23, [sp, #1176]
	str	x9, [sp, #1184]
	str	x28, [sp, #1192]
	str	x23, [sp, #1200]
	str	x27, [sp, #1208]
	str	q0, [sp, #1216]
	str	x8, [sp, #1232]
	bl	"ct_step::step::take_step::<#0f46d2847b2ce1ce>"
	ldrb	w8, [sp, #640]
	cbz	w8, .LBB86_181
	ldrb	w8, [sp, #641]
	cmp	w8, #1
	b.gt	.LBB86_197
	cbnz	w8, .LBB86_211
	mov	w19, #4
	b	.LBB86_234
.LBB86_171:
	ldur	x8, [x29, #-80]
	cbz	x8, .LBB86_173
	ldur	x0, [x29, #-96]
	bl	rattle_dealloc
.LBB86_173:
	ldurb	w8, [x29, #-208]
	ldp	x21, x20, [x29, #-144]
	ldur	x19, [x29, #-128]
	cmp	w8, #1
	b.ne	.LBB86_176
	ldur	x8, [x29, #-152]
	cbz	x8, .LBB86_176
	ldur	x0, [x29, #-168]
	bl	rattle_dealloc
.LBB86_176:
	cbz	x20, .LBB86_263
	add	x22, x21, #16
	b	.LBB86_179
.LBB86_178:
	subs	x20, x20, #1
	add	x22, x22, #24
	b.eq	.LBB86_263
.LBB86_179:
	ldr	x8, [x22]
	cbz	x8, .LBB86_178
	ldur	x0, [x22, #-16]
	bl	rattle_dealloc
	b	.LBB86_178
.LBB86_181:
	add	x8, sp, #640
	ldr	x24, [sp, #1216]
	ldr	x26, [sp, #1224]
	ldur	q0, [x8, #200]
	ldur	q1, [x8, #216]
	ldur	q2, [x8, #232]
	stp	xzr, xzr, [x29, #-56]
	str	q0, [sp, #1120]
	ldur	q0, [x8, #136]
	str	q1, [sp, #1136]
	ldur	q1, [x8, #152]
	str	q0, [sp, #1056]
	ldur	q0, [x8, #168]
	str	q1, [sp, #1072]
	ldur	q1, [x8, #72]
	str	q0, [sp, #1088]
	ldur	q0, [x8, #88]
	str	q2, [sp, #1152]
	ldur	q2, [x8, #184]
	stp	q1, q0, [sp, #992]
	ldur	q0, [x8, #104]
	ldur	q1, [x8, #8]
	str	q2, [sp, #1104]
	ldur	q2, [x8, #120]
	str	q0, [sp, #1024]
	ldur	q0, [x8, #24]
	str	q2, [sp, #1040]
	ldur	q2, [x8, #56]
	stp	q1, q0, [sp, #928]
	ldur	q0, [x8, #40]
	sub	x8, x29, #208
	stur	xzr, [x8, #166]
	stp	q0, q2, [sp, #960]
	movi	v0.2d, #0000000000000000
	ldr	x2, [sp, #984]
	ldr	x1, [sp, #976]
	stur	xzr, [x29, #-64]
	cmp	x2, #2
	mov	x8, x2
	stp	q0, q0, [x29, #-208]
	stp	q0, q0, [x29, #-96]
	b.hs	.LBB86_206
.LBB86_182:
	cbz	x8, .LBB86_220
.LBB86_183:
	mov	x2, xzr
	mov	x20, xzr
	sub	x21, x29, #24
.LBB86_184:
	ldr	x3, [sp, #1000]
	ldr	x4, [sp, #1008]
	add	x8, sp, #928
	sub	x0, x29, #96
	add	x5, x8, #176
	mov	x1, x21
	bl	"ct_step::places::places_of"
	ldurb	w8, [x29, #-96]
	cbz	w8, .LBB86_213
	cbz	x20, .LBB86_187
	mov	x0, x21
	bl	rattle_dealloc
.LBB86_187:
	add	x8, sp, #544
	mov	w26, #1
	stur	xzr, [x8, #78]
	stur	xzr, [x8, #70]
	stur	xzr, [x8, #86]
	b	.LBB86_330
.LBB86_188:
	cbz	x27, .LBB86_190
	mov	x0, x21
	bl	rattle_dealloc
.LBB86_190:
	ldr	x19, [sp, #648]
	ldr	x20, [sp, #640]
	ldr	x21, [sp, #656]
	ldr	x23, [sp, #104]
	ldr	x25, [sp, #168]
	cbz	x19, .LBB86_195
	add	x22, x20, #16
	b	.LBB86_193
.LBB86_192:
	subs	x19, x19, #1
	add	x22, x22, #24
	b.eq	.LBB86_195
.LBB86_193:
	ldr	x8, [x22]
	cbz	x8, .LBB86_192
	ldur	x0, [x22, #-16]
	bl	rattle_dealloc
	b	.LBB86_192
.LBB86_195:
	cbz	x21, .LBB86_55
	mov	x0, x20
	b	.LBB86_54
.LBB86_197:
	cmp	w8, #2
	b.ne	.LBB86_212
	ldrb	w8, [sp, #642]
	cbz	w8, .LBB86_232
	cmp	w8, #2
	b.ne	.LBB86_233
	ldrb	w8, [sp, #643]
	cbnz	w8, .LBB86_386
	add	x0, sp, #1168
	bl	"std_alloc::vec::Vec::drop::<#6df2beb340a11304>"
	cbz	x23, .LBB86_245
	add	x19, x28, #16
	b	.LBB86_204
.LBB86_203:
	subs	x23, x23, #1
	add	x19, x19, #24
	b.eq	.LBB86_245
.LBB86_204:
	ldr	x8, [x19]
	cbz	x8, .LBB86_203
	ldur	x0, [x19, #-16]
	bl	rattle_dealloc
	b	.LBB86_203
.LBB86_206:
	mov	x8, x2
	mov	x9, x1
.LBB86_207:
	ldrh	w10, [x9]
	sub	x8, x8, #2
	rev	w10, w10
	lsr	w10, w10, #16
	subs	x8, x8, x10
	b.lo	.LBB86_183
	subs	x8, x8, #4
	b.lo	.LBB86_183
	add	x9, x9, x10
	ldr	w10, [x9, #2]!
	rev	w10, w10
	subs	x8, x8, x10
	b.lo	.LBB86_183
	add	x9, x9, x10
	cmp	x8, #1
	add	x9, x9, #4
	b.hi	.LBB86_207
	b	.LBB86_182
.LBB86_211:
	mov	w19, #5
	b	.LBB86_234
.LBB86_212:
	mov	w19, #8
	b	.LBB86_234
.LBB86_213:
	movi	v0.2d, #0000000000000000
	str	x24, [sp, #160]
	ldr	x1, [sp, #952]
	ldp	x24, x28, [x29, #-88]
	sub	x8, x29, #24
	ldr	x2, [sp, #960]
	ldur	x9, [x29, #-72]
	stp	xzr, xzr, [x29, #-200]
	stur	x8, [x29, #-208]
	str	q0, [sp, #1296]
	str	q0, [sp, #1280]
	str	x9, [sp, #152]
	cbnz	x2, .LBB86_319
	mov	x19, xzr
	mov	x9, xzr
	add	x0, x8, xzr
	add	x27, xzr, x2
	sub	x10, x0, x1
	cmp	x10, x2
	b.hs	.LBB86_321
.LBB86_215:
	cmp	x2, #8
	b.lo	.LBB86_217
	add	x10, x9, x8
	sub	x10, x10, x1
	cmp	x10, #32
	b.hs	.LBB86_295
.LBB86_217:
	mov	x10, xzr
.LBB86_218:
	add	x11, x10, x9
	sub	x9, x2, x10
	add	x10, x1, x10
	add	x8, x8, x11
.LBB86_219:
	ldrb	w11, [x10], #1
	subs	x9, x9, #1
	strb	w11, [x8], #1
	b.ne	.LBB86_219
	b	.LBB86_322
.LBB86_220:
	sub	x0, x29, #208
	bl	"ct_step::bundle::objects_of"
	ldurb	w8, [x29, #-208]
	cbz	w8, .LBB86_250
.LBB86_221:
	add	x8, sp, #544
	mov	w26, #1
	stur	xzr, [x8, #70]
	stur	xzr, [x8, #86]
	stur	xzr, [x8, #78]
	b	.LBB86_330
.LBB86_222:
	ldr	x8, [sp, #88]
	sub	x24, x27, #1
	cbz	x8, .LBB86_224
	mov	x0, x28
	bl	rattle_dealloc
.LBB86_224:
	ldurb	w8, [x29, #-208]
	ldp	x21, x20, [x29, #-144]
	ldur	x19, [x29, #-128]
	cmp	w8, #1
	b.ne	.LBB86_227
	ldur	x8, [x29, #-152]
	cbz	x8, .LBB86_227
	ldur	x0, [x29, #-168]
	bl	rattle_dealloc
.LBB86_227:
	cbz	x20, .LBB86_263
	add	x22, x21, #16
	b	.LBB86_230
.LBB86_229:
	subs	x20, x20, #1
	add	x22, x22, #24
	b.eq	.LBB86_263
.LBB86_230:
	ldr	x8, [x22]
	cbz	x8, .LBB86_229
	ldur	x0, [x22, #-16]
	bl	rattle_dealloc
	b	.LBB86_229
.LBB86_232:
	mov	w19, #6
	b	.LBB86_234
.LBB86_233:
	mov	w19, #7
.LBB86_234:
	add	x0, sp, #1168
	bl	"std_alloc::vec::Vec::drop::<#6df2beb340a11304>"
	cbz	x23, .LBB86_239
	add	x20, x28, #16
	b	.LBB86_237
.LBB86_236:
	subs	x23, x23, #1
	add	x20, x20, #24
	b.eq	.LBB86_239
.LBB86_237:
	ldr	x8, [x20]
	cbz	x8, .LBB86_236
	ldur	x0, [x20, #-16]
	bl	rattle_dealloc
	b	.LBB86_236
.LBB86_239:
	cbz	x27, .LBB86_241
	mov	x0, x28
	bl	rattle_dealloc
.LBB86_241:
	ldr	x8, [sp, #1232]
	cbz	x8, .LBB86_243
	ldr	x0, [sp, #1216]
	bl	rattle_dealloc
.LBB86_243:
	mov	w26, wzr
	mov	w20, #1
	stur	xzr, [x24, #46]
	stur	xzr, [x24, #38]
.LBB86_244:
	stur	xzr, [x24, #54]
	b	.LBB86_353
.LBB86_245:
	cbz	x27, .LBB86_247
	mov	x0, x28
	bl	rattle_dealloc
.LBB86_247:
	ldr	x8, [sp, #1232]
	cbz	x8, .LBB86_249
	ldr	x0, [sp, #1216]
	bl	rattle_dealloc
.LBB86_249:
	mov	w20, wzr
	mov	w19, wzr
	stur	xzr, [x24, #46]
	stur	xzr, [x24, #38]
	mov	w26, #1
	b	.LBB86_244
.LBB86_250:
	ldp	x21, x27, [x29, #-200]
	ldur	x20, [x29, #-184]
	cbz	x27, .LBB86_306
	add	x22, x21, #8
	mov	x19, x27
.LBB86_252:
	movi	v0.2d, #0000000000000000
	ldp	x1, x2, [x22, #-8]
	add	x0, sp, #1280
	str	q0, [sp, #1296]
	str	q0, [sp, #1280]
	bl	"ct_data_tiles::tile::Tile::from_name"
	ldrb	w8, [sp, #1280]
	cbnz	w8, .LBB86_309
	subs	x27, x27, #1
	add	x22, x22, #32
	b.ne	.LBB86_252
	mov	x2, x19
	b	.LBB86_374
.LBB86_255:
	ldurb	w8, [x29, #-208]
	ldp	x21, x20, [x29, #-144]
	ldur	x19, [x29, #-128]
	cmp	w8, #1
	b.ne	.LBB86_258
	ldur	x8, [x29, #-152]
	cbz	x8, .LBB86_258
	ldur	x0, [x29, #-168]
	bl	rattle_dealloc
.LBB86_258:
	cbz	x20, .LBB86_263
	add	x22, x21, #16
	b	.LBB86_261
.LBB86_260:
	subs	x20, x20, #1
	add	x22, x22, #24
	b.eq	.LBB86_263
.LBB86_261:
	ldr	x8, [x22]
	cbz	x8, .LBB86_260
	ldur	x0, [x22, #-16]
	bl	rattle_dealloc
	b	.LBB86_260
.LBB86_263:
	cbz	x19, .LBB86_265
.LBB86_264:
	mov	x0, x21
	bl	rattle_dealloc
.LBB86_265:
	ldur	x8, [x29, #-104]
	cbz	x8, .LBB86_268
	ldur	x0, [x29, #-120]
.LBB86_267:
	bl	rattle_dealloc
.LBB86_268:
	cbz	x24, .LBB86_270
	ldr	x8, [sp, #56]
	ldr	x0, [sp, #168]
	add	x1, x8, #1
	add	x2, x27, x8
	bl	"std_alloc::vec::opened::drop_run::<#e5da5d668adfa5c1>"
.LBB86_270:
	ldr	x8, [sp, #112]
	cbz	x8, .LBB86_272
	ldr	x0, [sp, #168]
	bl	rattle_dealloc
.LBB86_272:
	ldr	x24, [sp, #1280]
	ldr	x28, [sp, #1288]
	ldr	x27, [sp, #1296]
	ldr	x23, [sp, #1304]
	ldr	x22, [sp, #1320]
	ldr	x26, [sp, #1328]
	ldr	x20, [sp, #1344]
	ldr	x8, [sp, #1352]
	ldr	x19, [sp, #1368]
	str	x8, [sp, #176]
	cbz	x28, .LBB86_277
	add	x21, x24, #16
	b	.LBB86_275
.LBB86_274:
	subs	x28, x28, #1
	add	x21, x21, #24
	b.eq	.LBB86_277
.LBB86_275:
	ldr	x8, [x21]
	cbz	x8, .LBB86_274
	ldur	x0, [x21, #-16]
	bl	rattle_dealloc
	b	.LBB86_274
.LBB86_277:
	cbz	x27, .LBB86_279
	mov	x0, x24
	bl	rattle_dealloc
.LBB86_279:
	cbz	x22, .LBB86_281
	mov	x0, x23
	bl	rattle_dealloc
.LBB86_281:
	add	x24, sp, #544
	cbz	x20, .LBB86_283
	mov	x0, x26
	bl	rattle_dealloc
.LBB86_283:
	cbz	x19, .LBB86_285
	ldr	x0, [sp, #176]
	bl	rattle_dealloc
.LBB86_285:
	add	x8, sp, #1280
	add	x0, sp, #1248
	ldur	q0, [x8, #112]
	ldur	x8, [x8, #128]
	str	q0, [sp, #1248]
	str	x8, [sp, #1264]
	bl	"std_alloc::vec::Vec::drop::<#6df2beb340a11304>"
	ldr	x19, [sp, #1424]
	ldr	x21, [sp, #1416]
	ldr	x20, [sp, #1432]
	cbz	x19, .LBB86_290
	add	x22, x21, #16
	b	.LBB86_288
.LBB86_287:
	subs	x19, x19, #1
	add	x22, x22, #24
	b.eq	.LBB86_290
.LBB86_288:
	ldr	x8, [x22]
	cbz	x8, .LBB86_287
	ldur	x0, [x22, #-16]
	bl	rattle_dealloc
	b	.LBB86_287
.LBB86_290:
	cbz	x20, .LBB86_292
	mov	x0, x21
	bl	rattle_dealloc
.LBB86_292:
	ldr	x8, [sp, #1456]
	ldr	x22, [sp]
	cbz	x8, .LBB86_294
	ldr	x0, [sp, #1440]
	bl	rattle_dealloc
.LBB86_294:
	mov	w20, wzr
	mov	w19, wzr
	stur	xzr, [x24, #38]
	stur	xzr, [x24, #54]
	mov	w26, #1
	stur	xzr, [x24, #46]
	b	.LBB86_353
.LBB86_295:
	cmp	x2, #32
	b.hs	.LBB86_312
	mov	x10, xzr
	b	.LBB86_316
.LBB86_297:
	ldp	x21, x22, [x29, #-144]
	ldur	x20, [x29, #-128]
	cbz	w23, .LBB86_300
	ldur	x8, [x29, #-152]
	cbz	x8, .LBB86_300
	sub	x10, x29, #208
	ldurb	w8, [x29, #-161]
	ldurh	w9, [x10, #45]
	ldur	w10, [x10, #41]
	orr	w8, w9, w8, lsl #16
	lsl	x9, x10, #8
	orr	x8, x9, x8, lsl #40
	orr	x0, x8, x19
	bl	rattle_dealloc
.LBB86_300:
	cbz	x22, .LBB86_305
	add	x19, x21, #16
	b	.LBB86_303
.LBB86_302:
	subs	x22, x22, #1
	add	x19, x19, #24
	b.eq	.LBB86_305
.LBB86_303:
	ldr	x8, [x19]
	cbz	x8, .LBB86_302
	ldur	x0, [x19, #-16]
	bl	rattle_dealloc
	b	.LBB86_302
.LBB86_305:
	cbnz	x20, .LBB86_264
	b	.LBB86_265
.LBB86_306:
	mov	x2, xzr
	b	.LBB86_374
.LBB86_307:
	cbz	x19, .LBB86_268
	mov	x0, x21
	b	.LBB86_267
.LBB86_309:
	ldrb	w8, [sp, #1281]
	tbnz	w8, #0, .LBB86_370
	cbz	x20, .LBB86_372
	mov	x0, x21
	bl	rattle_dealloc
	mov	x2, xzr
	mov	x20, xzr
	b	.LBB86_373
.LBB86_312:
	add	x13, x9, x8
	and	x11, x2, #0x18
	and	x10, x2, #0xffffffffffffffe0
	add	x12, x1, #16
	add	x13, x13, #16
	and	x14, x2, #0xffffffffffffffe0
.LBB86_313:
	ldp	q0, q1, [x12, #-16]
	subs	x14, x14, #32
	add	x12, x12, #32
	stp	q0, q1, [x13, #-16]
	add	x13, x13, #32
	b.ne	.LBB86_313
	cmp	x2, x10
	b.eq	.LBB86_322
	cbz	x11, .LBB86_218
.LBB86_316:
	mov	x12, x10
	and	x10, x2, #0xfffffffffffffff8
	add	x13, x9, x12
	sub	x11, x12, x10
	add	x12, x1, x12
	add	x13, x8, x13
.LBB86_317:
	ldr	d0, [x12], #8
	adds	x11, x11, #8
	str	d0, [x13], #8
	b.ne	.LBB86_317
	cmp	x2, x10
	b.eq	.LBB86_322
	b	.LBB86_218
.LBB86_319:
	mov	x22, x1
	sub	x0, x29, #208
	mov	x1, x2
	mov	x27, x2
	bl	"std_alloc::vec::Vec::grow_amortized::<#573e96821fb25c99>"
	cbz	w0, .LBB86_367
	ldp	x9, x19, [x29, #-200]
	mov	x1, x22
	ldur	x8, [x29, #-208]
	mov	x2, x27
	add	x0, x8, x9
	add	x27, x9, x27
	sub	x10, x0, x22
	cmp	x10, x2
	b.lo	.LBB86_215
.LBB86_321:
	bl	memmove
.LBB86_322:
	ldp	x1, x2, [sp, #40]
	add	x22, sp, #928
	sub	x0, x29, #208
	add	x3, x22, #96
	mov	x4, x24
	mov	x5, x28
	stp	x27, x19, [x29, #-200]
	mov	x19, x24
	bl	"ct_step::replies::push_published"
	and	w8, w0, #0xff
	tbz	w8, #0, .LBB86_361
	ldp	x28, x27, [sp, #168]
	ldur	x8, [x29, #-192]
	cbz	x8, .LBB86_325
	ldur	x0, [x29, #-208]
	bl	rattle_dealloc
.LBB86_325:
	sub	x8, x29, #208
	mov	w26, #1
	stur	xzr, [x8, #158]
	stur	xzr, [x8, #150]
	stur	xzr, [x8, #166]
	ldp	x8, x24, [sp, #152]
	cbz	x8, .LBB86_327
.LBB86_326:
	mov	x0, x19
	bl	rattle_dealloc
.LBB86_327:
	cbz	x20, .LBB86_329
	mov	x0, x21
	bl	rattle_dealloc
.LBB86_329:
	sub	x8, x29, #208
	add	x9, sp, #544
	ldur	q0, [x8, #150]
	ldur	x8, [x8, #166]
	stur	q0, [x9, #70]
	stur	x8, [x9, #86]
.LBB86_330:
	ldr	x19, [sp, #936]
	ldr	x21, [sp, #928]
	ldr	x20, [sp, #944]
	cbz	x19, .LBB86_335
	add	x22, x21, #32
	b	.LBB86_333
.LBB86_332:
	subs	x19, x19, #1
	add	x22, x22, #40
	b.eq	.LBB86_335
.LBB86_333:
	ldr	x8, [x22]
	cbz	x8, .LBB86_332
	ldur	x0, [x22, #-16]
	bl	rattle_dealloc
	b	.LBB86_332
.LBB86_335:
	cbz	x20, .LBB86_337
	mov	x0, x21
	bl	rattle_dealloc
.LBB86_337:
	ldr	x8, [sp, #968]
	cbz	x8, .LBB86_339
	ldr	x0, [sp, #952]
	bl	rattle_dealloc
.LBB86_339:
	ldr	x8, [sp, #992]
	ldr	x22, [sp]
	cbz	x8, .LBB86_341
	ldr	x0, [sp, #976]
	bl	rattle_dealloc
.LBB86_341:
	ldr	x8, [sp, #1016]
	cbz	x8, .LBB86_343
	ldr	x0, [sp, #1000]
	bl	rattle_dealloc
.LBB86_343:
	add	x0, sp, #1168
	bl	"std_alloc::vec::Vec::drop::<#6df2beb340a11304>"
	cbz	x23, .LBB86_348
	add	x19, x28, #16
	b	.LBB86_346
.LBB86_345:
	subs	x23, x23, #1
	add	x19, x19, #24
	b.eq	.LBB86_348
.LBB86_346:
	ldr	x8, [x19]
	cbz	x8, .LBB86_345
	ldur	x0, [x19, #-16]
	bl	rattle_dealloc
	b	.LBB86_345
.LBB86_348:
	add	x19, sp, #608
	cbz	x27, .LBB86_350
	mov	x0, x28
	bl	rattle_dealloc
.LBB86_350:
	ldr	x8, [sp, #1232]
	orr	x21, x19, #0x6
	cbz	x8, .LBB86_352
	mov	x0, x24
	bl	rattle_dealloc
.LBB86_352:
	ldr	q0, [x21]
	ldr	x8, [x21, #16]
	add	x24, sp, #544
	mov	w20, wzr
	mov	w19, wzr
	stur	q0, [x24, #38]
	stur	x8, [x24, #54]
.LBB86_353:
	cbz	x25, .LBB86_358
	ldr	x8, [sp, #200]
	add	x21, x22, #1
	add	x22, x8, #16
	b	.LBB86_356
.LBB86_355:
	subs	x21, x21, #1
	add	x22, x22, #24
	b.eq	.LBB86_358
.LBB86_356:
	ldr	x8, [x22]
	cbz	x8, .LBB86_355
	ldur	x0, [x22, #-16]
	bl	rattle_dealloc
	b	.LBB86_355
.LBB86_358:
	ldr	x8, [sp, #32]
	cbz	x8, .LBB86_360
	ldr	x0, [sp, #200]
	bl	rattle_dealloc
.LBB86_360:
	ldr	x23, [sp, #104]
	b	.LBB86_144
.LBB86_361:
	add	x0, sp, #1280
	add	x1, x22, #96
	mov	x24, x19
	bl	"ct_step::line::StateLine::write"
	ldrb	w8, [sp, #1280]
	cbnz	w8, .LBB86_367
	ldr	x28, [sp, #1288]
	ldr	x2, [sp, #1296]
	sub	x0, x29, #208
	ldr	x19, [sp, #1304]
	mov	x1, x28
	bl	"ct_step::replies::push_vector"
	and	w8, w0, #0xff
	tbnz	w8, #0, .LBB86_365
	ldr	x1, [sp, #976]
	ldr	x2, [sp, #984]
	sub	x0, x29, #208
	bl	"ct_step::replies::push_vector"
	and	w8, w0, #0xff
	tbnz	w8, #0, .LBB86_365
	ldr	x1, [sp, #928]
	ldr	x2, [sp, #936]
	sub	x0, x29, #208
	ldr	x3, [sp, #160]
	mov	x4, x26
	bl	"ct_step::replies::push_receipts"
	and	w8, w0, #0xff
	tbz	w8, #0, .LBB86_375
.LBB86_365:
	cbz	x19, .LBB86_367
	mov	x0, x28
	bl	rattle_dealloc
.LBB86_367:
	ldur	x8, [x29, #-192]
	cbz	x8, .LBB86_369
	ldur	x0, [x29, #-208]
	bl	rattle_dealloc
.LBB86_369:
	sub	x8, x29, #208
	mov	w26, #1
	stur	xzr, [x8, #158]
	stur	xzr, [x8, #150]
	stur	xzr, [x8, #166]
	ldp	x28, x27, [sp, #168]
	mov	x19, x24
	ldp	x8, x24, [sp, #152]
	cbnz	x8, .LBB86_326
	b	.LBB86_327
.LBB86_370:
	ldr	x27, [sp, #176]
	cbz	x20, .LBB86_221
	mov	x0, x21
	bl	rattle_dealloc
	b	.LBB86_221
.LBB86_372:
	mov	x2, xzr
.LBB86_373:
	sub	x21, x29, #24
.LBB86_374:
	ldr	x27, [sp, #176]
	b	.LBB86_184
.LBB86_375:
	cbz	x19, .LBB86_377
	mov	x0, x28
	bl	rattle_dealloc
.LBB86_377:
	ldur	q0, [x29, #-208]
	ldur	x8, [x29, #-192]
	sub	x9, x29, #208
	mov	w26, wzr
	stur	q0, [x9, #150]
	stur	x8, [x9, #166]
	ldp	x28, x27, [sp, #168]
	mov	x19, x24
	ldp	x8, x24, [sp, #152]
	cbnz	x8, .LBB86_326
	b	.LBB86_327
.LBB86_378:
	cbnz	x21, .LBB86_382
.LBB86_379:
	ldr	x8, [sp, #176]
	cbz	x8, .LBB86_381
	ldr	x0, [sp, #168]
	bl	rattle_dealloc
.LBB86_381:
	ldr	x8, [sp, #152]
	sub	x0, x29, #208
	stp	x8, x23, [x29, #-208]
	ldr	x8, [sp, #160]
	stur	x8, [x29, #-192]
	bl	"std_alloc::vec::Vec::drop::<#6df2beb340a11304>"
	brk	#0x1
.LBB86_382:
	ldr	x8, [sp, #168]
	add	x19, x8, #16
	b	.LBB86_384
.LBB86_383:
	subs	x21, x21, #1
	add	x19, x19, #24
	b.eq	.LBB86_379
.LBB86_384:
	ldr	x8, [x19]
	cbz	x8, .LBB86_383
	ldur	x0, [x19, #-16]
	bl	rattle_dealloc
	b	.LBB86_383
.LBB86_386:
	brk	#0x1
.Lfunc_end86:
	.size	"ct_step::stepping::step_reply", .Lfunc_end86-"ct_step::stepping::step_reply"
	.section	".text.ct_step::line::StateLine::read","ax",@progbits
	.p2align	2
	.type	"ct_step::line::StateLine::read",@function
"ct_step::line::StateLine::read":
	stp	x29, x30, [sp, #-32]!
	stp	x28, x19, [sp, #16]
	mov	x29, sp
	sub	sp, sp, #688
	movi	v0.2d, #0000000000000000
	cmp	x2, #7
	stp	q0, q0, [sp, #64]
	stp	q0, q0, [sp, #96]
	b.lo	.LBB87_24
	ldur	w8, [x1, #3]
	mov	w9, #29815
	movk	w9, #8296, lsl #16
	cmp	w8, w9
	b.ne	.LBB87_24
	ldrb	w8, [x1]
	cmp	w8, #103
	b.ne	.LBB87_24
	ldrb	w8, [x1, #1]
	cmp	w8, #114
	b.ne	.LBB87_24
	ldrb	w8, [x1, #2]
	cmp	w8, #111
	b.ne	.LBB87_24
	cmp	x2, #295
	stp	q0, q0, [sp, #128]
	stp	q0, q0, [sp, #160]
	stp	q0, q0, [sp, #192]
	stp	q0, q0, [sp, #224]
	stp	q0, q0, [x29, #-144]
	stp	q0, q0, [x29, #-112]
	stp	q0, q0, [x29, #-80]
	stp	q0, q0, [x29, #-48]
	stur	q0, [x29, #-16]
	b.ne	.LBB87_22
	mov	x8, xzr
	add	x9, x1, #8
	b	.LBB87_9
.LBB87_7:
	sub	w12, w11, #55
.LBB87_8:
	add	w10, w12, w10, lsl #4
	sub	x11, x29, #144
	add	x9, x9, #2
	strb	w10, [x11, x8]
	add	x8, x8, #1
	cmp	x8, #144
	b.eq	.LBB87_25
.LBB87_9:
	ldurb	w12, [x9, #-1]
	subs	w10, w12, #48
	b.lo	.LBB87_22
	ldrb	w11, [x9]
	cmp	w12, #57
	b.ls	.LBB87_16
	cmp	w12, #65
	b.lo	.LBB87_22
	cmp	w12, #70
	b.hi	.LBB87_14
	sub	w10, w12, #55
	b	.LBB87_16
.LBB87_14:
	sub	w10, w12, #97
	cmp	w10, #5
	b.hi	.LBB87_22
	sub	w10, w12, #87
.LBB87_16:
	subs	w12, w11, #48
	b.lo	.LBB87_22
	cmp	w11, #57
	b.ls	.LBB87_8
	cmp	w11, #65
	b.lo	.LBB87_22
	cmp	w11, #70
	b.ls	.LBB87_7
	sub	w12, w11, #97
	cmp	w12, #5
	b.hi	.LBB87_22
	sub	w12, w11, #87
	b	.LBB87_8
.LBB87_22:
	stp	q0, q0, [sp]
	stp	q0, q0, [sp, #32]
	stp	q0, q0, [sp, #64]
	stp	q0, q0, [sp, #96]
.LBB87_23:
	movi	v0.2d, #0000000000000000
.LBB87_24:
	str	xzr, [x0, #144]
	stp	q0, q0, [x0, #16]
	stp	q0, q0, [x0, #48]
	stp	q0, q0, [x0, #80]
	stp	q0, q0, [x0, #112]
	str	q0, [x0]
	add	sp, sp, #688
	ldp	x28, x19, [sp, #16]
	ldp	x29, x30, [sp], #32
	ret
.LBB87_25:
	movi	v0.2d, #0000000000000000
	add	x9, sp, #256
	mov	x8, xzr
	orr	x9, x9, #0x1
	stp	q0, q0, [sp, #256]
	stp	q0, q0, [sp, #288]
	stp	q0, q0, [sp, #320]
	stp	q0, q0, [sp, #352]
	stp	q0, q0, [sp, #384]
	stp	q0, q0, [sp, #416]
	stp	q0, q0, [sp, #448]
	stp	q0, q0, [sp, #480]
	stp	q0, q0, [sp, #512]
.LBB87_26:
	sub	x10, x29, #144
	adrp	x12, .Lstatic.1
	add	x12, x12, :lo12:.Lstatic.1
	ldrb	w10, [x10, x8]
	add	x8, x8, #1
	cmp	x8, #144
	lsr	x11, x10, #4
	and	x10, x10, #0xf
	ldrb	w10, [x12, x10]
	ldrb	w11, [x12, x11]
	sturb	w11, [x9, #-1]
	strb	w10, [x9], #2
	b.ne	.LBB87_26
	ldr	w8, [sp, #256]
	ldur	w9, [x1, #7]
	cmp	w8, w9
	b.ne	.LBB87_30
	mov	x19, x0
	add	x0, sp, #256
	add	x2, x1, #7
	mov	w1, #288
	bl	"core::cmp::slices::groups_equal::<i8,31'core::cmp::numbers::U8PartialEq{}>"
	mov	w8, w0
	mov	x0, x19
	cbz	w8, .LBB87_30
	ldp	q0, q1, [x29, #-96]
	mov	w8, #1
	ldur	q4, [x29, #-144]
	str	x8, [x0]
	stp	q0, q1, [sp, #192]
	ldp	q2, q0, [x29, #-64]
	stp	q2, q0, [sp, #160]
	ldp	q1, q2, [x29, #-128]
	ldp	q3, q0, [x29, #-32]
	stp	q1, q2, [sp, #96]
	stp	q3, q0, [sp, #128]
	stp	q1, q2, [sp, #224]
	ldp	q1, q0, [sp, #192]
	stp	q1, q0, [sp, #64]
	ldp	q0, q2, [sp, #160]
	stp	q0, q2, [sp, #32]
	ldp	q0, q1, [sp, #128]
	rev64	v2.16b, v4.16b
	stp	q0, q1, [sp]
	ldp	q0, q1, [sp, #96]
	stur	q2, [x0, #8]
	stur	q0, [x0, #24]
	stur	q1, [x0, #40]
	ldp	q0, q1, [sp, #64]
	stur	q0, [x0, #56]
	stur	q1, [x0, #72]
	ldp	q0, q1, [sp, #32]
	stur	q0, [x0, #88]
	ldp	q2, q0, [sp]
	stur	q1, [x0, #104]
	stur	q0, [x0, #136]
	stur	q2, [x0, #120]
	add	sp, sp, #688
	ldp	x28, x19, [sp, #16]
	ldp	x29, x30, [sp], #32
	ret
.LBB87_30:
	ldp	q0, q1, [sp, #224]
	stp	q0, q1, [sp, #96]
	ldp	q0, q2, [sp, #192]
	stp	q0, q2, [sp, #64]
	ldp	q1, q0, [sp, #160]
	stp	q1, q0, [sp, #32]
	ldp	q0, q2, [sp, #128]
	stp	q0, q2, [sp]
	b	.LBB87_23
.Lfunc_end87:
	.size	"ct_step::line::StateLine::read", .Lfunc_end87-"ct_step::line::StateLine::read"
	.section	".text.ct_codec::writing::push_entry::<#8ca9ace9f4c467fd>","ax",@progbits
	.p2align	2
	.type	"ct_codec::writing::push_entry::<#8ca9ace9f4c467fd>",@function
"ct_codec::writing::push_entry::<#8ca9ace9f4c467fd>":
	sub	sp, sp, #96
	stp	x24, x23, [sp, #48]
	mov	x10, x1
	mov	x23, x0
	stp	x26, x25, [sp, #32]
	ldrb	w25, [x10], #1
	stp	x22, x21, [sp, #64]
	adrp	x11, .Lstatic.2
	add	x11, x11, :lo12:.Lstatic.2
	ldp	x8, x21, [x23, #8]!
	cmp	w25, #0
	stp	x20, x19, [sp, #80]
	mov	x20, x1
	mov	w9, #32
	mov	w12, #256
	csel	x1, x11, x10, eq
	sub	x10, x21, x8
	stp	x29, x30, [sp, #16]
	add	x29, sp, #16
	mov	x19, x0
	csel	x2, xzr, x9, eq
	csel	w24, wzr, w12, eq
	cmp	x10, #1
	sturh	w24, [x29, #-4]
	b.ls	.LBB88_9
.LBB88_1:
	ldr	x22, [x19]
	sub	x9, x29, #4
	ldurh	w11, [x29, #-4]
	add	x10, x22, x8
	add	x8, x8, #2
	sub	x9, x10, x9
	cmp	x9, #2
	csel	w9, w11, w24, lo
	strh	w9, [x10]
	sub	x9, x21, x8
	cmp	x2, x9
	stp	x22, x8, [x19]
	str	x21, [x19, #16]
	b.hi	.LBB88_11
	add	x0, x22, x8
	add	x24, x8, x2
	stp	xzr, xzr, [x23]
	sub	x9, x0, x1
	cmp	x9, x2
	b.hs	.LBB88_13
.LBB88_3:
	cbz	w25, .LBB88_5
	add	x8, x8, x22
	sub	x8, x8, x1
	cmp	x8, #16
	b.hs	.LBB88_6
.LBB88_5:
	ldrb	w8, [x1], #1
	subs	x2, x2, #1
	strb	w8, [x0], #1
	b.ne	.LBB88_5
	b	.LBB88_7
.LBB88_6:
	ldr	q0, [x1], #16
	subs	x2, x2, #16
	str	q0, [x0], #16
	b.ne	.LBB88_6
.LBB88_7:
	stp	x22, x24, [x19]
	str	x21, [x19, #16]
	ldrb	w8, [x20]
	cbz	w8, .LBB88_14
.LBB88_8:
	add	x8, x20, #40
	add	x9, x20, #48
	sub	x10, x21, x24
	ldr	x2, [x9]
	ldr	x1, [x8]
	cmp	x10, #2
	b.hi	.LBB88_15
	b	.LBB88_31
.LBB88_9:
	mov	x26, x1
	mov	x0, x19
	mov	w1, #2
	mov	x22, x2
	bl	"std_alloc::vec::Vec::grow_amortized::<#573e96821fb25c99>"
	cbz	w0, .LBB88_38
	ldp	x8, x21, [x19, #8]
	mov	x1, x26
	mov	x2, x22
	b	.LBB88_1
.LBB88_11:
	mov	x24, x1
	mov	x0, x19
	mov	x1, x2
	mov	x26, x2
	bl	"std_alloc::vec::Vec::grow_amortized::<#573e96821fb25c99>"
	cbz	w0, .LBB88_38
	ldp	x8, x21, [x19, #8]
	mov	x1, x24
	ldr	x22, [x19]
	mov	x2, x26
	add	x0, x22, x8
	add	x24, x8, x26
	stp	xzr, xzr, [x23]
	sub	x9, x0, x1
	cmp	x9, x26
	b.lo	.LBB88_3
.LBB88_13:
	bl	memmove
	stp	x22, x24, [x19]
	str	x21, [x19, #16]
	ldrb	w8, [x20]
	cbnz	w8, .LBB88_8
.LBB88_14:
	ldr	x8, [x20, #64]
	add	x9, x8, #8
	sub	x10, x21, x24
	ldr	x2, [x9]
	ldr	x1, [x8]
	cmp	x10, #2
	b.ls	.LBB88_31
.LBB88_15:
	rev	w8, w2
	add	x10, x22, x24
	lsr	w9, w8, #24
	lsr	w11, w8, #8
	add	x8, x24, #3
	strb	w9, [x10, #2]
	sub	x9, x21, x8
	cmp	x2, x9
	strh	w11, [x10]
	stp	x22, x8, [x19]
	str	x21, [x19, #16]
	b.hi	.LBB88_33
	add	x0, x22, x8
	add	x20, x8, x2
	stp	xzr, xzr, [x23]
	sub	x9, x0, x1
	cmp	x9, x2
	b.hs	.LBB88_35
.LBB88_17:
	cmp	x2, #8
	b.lo	.LBB88_19
	add	x9, x8, x22
	sub	x9, x9, x1
	cmp	x9, #32
	b.hs	.LBB88_22
.LBB88_19:
	mov	x9, xzr
.LBB88_20:
	add	x10, x9, x8
	sub	x8, x2, x9
	add	x9, x1, x9
	add	x10, x22, x10
.LBB88_21:
	ldrb	w11, [x9], #1
	subs	x8, x8, #1
	strb	w11, [x10], #1
	b.ne	.LBB88_21
	b	.LBB88_36
.LBB88_22:
	cmp	x2, #32
	b.hs	.LBB88_24
	mov	x9, xzr
	b	.LBB88_28
.LBB88_24:
	add	x12, x8, x22
	and	x10, x2, #0x18
	and	x9, x2, #0xffffffffffffffe0
	add	x11, x1, #16
	add	x12, x12, #16
	and	x13, x2, #0xffffffffffffffe0
.LBB88_25:
	ldp	q0, q1, [x11, #-16]
	subs	x13, x13, #32
	add	x11, x11, #32
	stp	q0, q1, [x12, #-16]
	add	x12, x12, #32
	b.ne	.LBB88_25
	cmp	x2, x9
	b.eq	.LBB88_36
	cbz	x10, .LBB88_20
.LBB88_28:
	mov	x11, x9
	and	x9, x2, #0xfffffffffffffff8
	add	x12, x8, x11
	sub	x10, x11, x9
	add	x11, x1, x11
	add	x12, x22, x12
.LBB88_29:
	ldr	d0, [x11], #8
	adds	x10, x10, #8
	str	d0, [x12], #8
	b.ne	.LBB88_29
	cmp	x2, x9
	b.eq	.LBB88_36
	b	.LBB88_20
.LBB88_31:
	mov	x20, x1
	mov	x0, x19
	mov	w1, #3
	mov	x25, x2
	bl	"std_alloc::vec::Vec::grow_amortized::<#573e96821fb25c99>"
	cbz	w0, .LBB88_38
	ldp	x24, x21, [x19, #8]
	mov	x2, x25
	ldr	x22, [x19]
	mov	x1, x20
	b	.LBB88_15
.LBB88_33:
	mov	x20, x1
	mov	x0, x19
	mov	x1, x2
	mov	x24, x2
	bl	"std_alloc::vec::Vec::grow_amortized::<#573e96821fb25c99>"
	cbz	w0, .LBB88_38
	ldp	x8, x21, [x19, #8]
	mov	x2, x24
	ldr	x22, [x19]
	mov	x1, x20
	add	x0, x22, x8
	add	x20, x8, x24
	stp	xzr, xzr, [x23]
	sub	x9, x0, x1
	cmp	x9, x24
	b.lo	.LBB88_17
.LBB88_35:
	bl	memmove
.LBB88_36:
	mov	w0, wzr
	stp	x22, x20, [x19]
	str	x21, [x19, #16]
.LBB88_37:
	ldp	x20, x19, [sp, #80]
	ldp	x22, x21, [sp, #64]
	ldp	x24, x23, [sp, #48]
	ldp	x26, x25, [sp, #32]
	ldp	x29, x30, [sp, #16]
	add	sp, sp, #96
	ret
.LBB88_38:
	mov	w0, #1
	b	.LBB88_37
.Lfunc_end88:
	.size	"ct_codec::writing::push_entry::<#8ca9ace9f4c467fd>", .Lfunc_end88-"ct_codec::writing::push_entry::<#8ca9ace9f4c467fd>"
	.section	".text.indexmap::map::IndexMap::grow::<#a6706983b27aaeee>","ax",@progbits
	.p2align	2
	.type	"indexmap::map::IndexMap::grow::<#a6706983b27aaeee>",@function
"indexmap::map::IndexMap::grow::<#a6706983b27aaeee>":
	stp	x29, x30, [sp, #-48]!
	stp	x20, x19, [sp, #32]
	ldr	x20, [x0, #96]
	mov	x19, x0
	str	x21, [sp, #16]
	mov	x29, sp
	cbz	x20, .LBB89_5
	ldp	x8, x9, [x19, #8]
	sub	x10, x9, x8
	cmp	x20, x10
	b.ls	.LBB89_7
.LBB89_2:
	cmn	x8, x20
	b.lo	.LBB89_12
	mov	w0, #1
.LBB89_4:
	ldp	x20, x19, [sp, #32]
	ldr	x21, [sp, #16]
	ldp	x29, x30, [sp], #48
	ret
.LBB89_5:
	add	x0, x19, #48
	bl	"indexmap::index_table::IndexTable::reserve_rehash::<#fe12c7543020194e>"
	and	w8, w0, #0xff
	tbnz	w8, #0, .LBB89_18
	ldr	x20, [x19, #96]
	ldp	x8, x9, [x19, #8]
	sub	x10, x9, x8
	cmp	x20, x10
	b.hi	.LBB89_2
.LBB89_7:
	ldp	x9, x8, [x19, #32]
	sub	x10, x8, x9
	cmp	x20, x10
	b.ls	.LBB89_16
.LBB89_8:
	cmn	x9, x20
	b.hs	.LBB89_18
	adds	x20, x9, x20
	b.mi	.LBB89_18
	cbz	x8, .LBB89_19
	ldr	x0, [x19, #24]
	mov	x1, xzr
	mov	x2, xzr
	mov	w3, #1
	bl	rattle_realloc
	mov	x8, x0
	mov	w0, #1
	tbz	w8, #0, .LBB89_4
	b	.LBB89_20
.LBB89_12:
	mov	x10, #6148914691236517205
	add	x21, x8, x20
	movk	x10, #1365, lsl #48
	cmp	x21, x10
	b.hi	.LBB89_18
	cbz	x9, .LBB89_17
	add	x8, x8, x8, lsl #1
	add	x9, x21, x21, lsl #1
	ldr	x0, [x19]
	mov	w3, #8
	lsl	x1, x8, #3
	lsl	x2, x9, #3
	bl	rattle_realloc
	tbz	w0, #0, .LBB89_18
.LBB89_15:
	str	x1, [x19]
	str	x21, [x19, #16]
	ldp	x9, x8, [x19, #32]
	sub	x10, x8, x9
	cmp	x20, x10
	b.hi	.LBB89_8
.LBB89_16:
	mov	w0, wzr
	ldp	x20, x19, [sp, #32]
	ldr	x21, [sp, #16]
	ldp	x29, x30, [sp], #48
	ret
.LBB89_17:
	add	x8, x21, x21, lsl #1
	mov	w1, #8
	lsl	x0, x8, #3
	bl	rattle_alloc
	tbnz	w0, #0, .LBB89_15
.LBB89_18:
	mov	w0, #1
	ldp	x20, x19, [sp, #32]
	ldr	x21, [sp, #16]
	ldp	x29, x30, [sp], #48
	ret
.LBB89_19:
	mov	x0, xzr
	mov	w1, #1
	mov	w21, #1
	bl	rattle_alloc
	mov	x8, x0
	mov	w0, w21
	tbz	w8, #0, .LBB89_4
.LBB89_20:
	mov	w0, wzr
	str	x1, [x19, #24]
	str	x20, [x19, #40]
	ldp	x20, x19, [sp, #32]
	ldr	x21, [sp, #16]
	ldp	x29, x30, [sp], #48
	ret
.Lfunc_end89:
	.size	"indexmap::map::IndexMap::grow::<#a6706983b27aaeee>", .Lfunc_end89-"indexmap::map::IndexMap::grow::<#a6706983b27aaeee>"
	.section	.rodata.cst16,"aM",@progbits,16
	.p2align	4, 0x0
.LCPI90_0:
	.byte	1
	.byte	2
	.byte	4
	.byte	8
	.byte	16
	.byte	32
	.byte	64
	.byte	128
	.byte	1
	.byte	2
	.byte	4
	.byte	8
	.byte	16
	.byte	32
	.byte	64
	.byte	128
	.section	".text.indexmap::index_table::IndexTable::reserve_rehash::<#fe12c7543020194e>","ax",@progbits
	.p2align	2
	.type	"indexmap::index_table::IndexTable::reserve_rehash::<#fe12c7543020194e>",@function
"indexmap::index_table::IndexTable::reserve_rehash::<#fe12c7543020194e>":
	stp	x29, x30, [sp, #-64]!
	stp	x22, x21, [sp, #32]
	ldr	x21, [x0, #32]
	mov	w8, #-1879048192
	stp	x24, x23, [sp, #16]
	mov	x29, sp
	cmp	x21, x8
	stp	x20, x19, [sp, #48]
	b.ne	.LBB90_3
	mov	w8, #1
.LBB90_2:
	ldp	x20, x19, [sp, #48]
	mov	w0, w8
	ldp	x22, x21, [sp, #32]
	ldp	x24, x23, [sp, #16]
	ldp	x29, x30, [sp], #64
	ret
.LBB90_3:
	ldr	x22, [x0, #8]
	mov	w8, #268435456
	add	x20, x22, x22, lsl #3
	cmp	x22, x8
	b.eq	.LBB90_12
	lsr	x9, x20, #1
	add	x8, x21, #1
	cmp	x8, x9
	b.ls	.LBB90_12
	add	x9, x20, #1
	cmp	x9, x8
	mov	w9, #1
	csinc	x8, x8, x20, ls
.LBB90_6:
	add	x23, x9, x9, lsl #3
	mov	x19, x9
	lsl	x9, x9, #1
	cmp	x23, x8
	b.lo	.LBB90_6
	ldr	x9, [x0, #40]
	sub	x20, x23, x21
	sub	x8, x9, x21
	cmp	x20, x8
	b.ls	.LBB90_23
	lsr	x10, x23, #60
	mov	w8, #1
	cbnz	x10, .LBB90_2
	mvn	x10, x21
	cmp	x20, x10
	b.hi	.LBB90_2
	cbz	x9, .LBB90_21
	mov	x22, x0
	ldr	x0, [x0, #24]
	lsl	x1, x21, #3
	lsl	x2, x23, #3
	mov	w3, #4
	bl	rattle_realloc
	tbnz	w0, #0, .LBB90_22
	b	.LBB90_44
.LBB90_12:
	ldr	x19, [x0]
	ldr	x23, [x0, #24]
	cbz	x22, .LBB90_14
	lsl	x2, x22, #6
	mov	x24, x0
	mov	x0, x19
	mov	w1, wzr
	bl	memset
	mov	x0, x24
.LBB90_14:
	cbz	x21, .LBB90_20
	mov	w9, #-1
	mov	x8, xzr
	sub	x10, x22, #1
	add	x9, x22, x9
	b	.LBB90_17
.LBB90_16:
	rbit	w15, w17
	clz	w15, w15
	add	x17, x16, w15, uxtw #2
	strb	w13, [x16, w15, uxtw]
	orr	w13, w15, w14, lsl #4
	str	w8, [x17, #16]
	add	x8, x8, #1
	cmp	x8, x21
	stp	w12, w13, [x11]
	b.eq	.LBB90_20
.LBB90_17:
	add	x11, x23, x8, lsl #3
	mov	w14, #1
	ldr	w12, [x11]
	lsr	w13, w12, #24
	cmp	w13, #1
	csinc	w13, w13, wzr, hi
	lsl	w15, w14, w13
	and	x14, x9, x12
.LBB90_18:
	add	x16, x19, x14, lsl #6
	adrp	x17, .LCPI90_0
	ldr	q1, [x17, :lo12:.LCPI90_0]
	ldr	q0, [x16]
	cmeq	v0.16b, v0.16b, #0
	and	v0.16b, v0.16b, v1.16b
	addp	v0.16b, v0.16b, v0.16b
	addp	v0.16b, v0.16b, v0.16b
	addp	v0.16b, v0.16b, v0.16b
	umov	w17, v0.h[0]
	ands	w17, w17, #0xfff
	b.ne	.LBB90_16
	ldr	w17, [x16, #12]
	add	x14, x14, #1
	and	x14, x14, x10
	orr	w17, w17, w15
	str	w17, [x16, #12]
	b	.LBB90_18
.LBB90_20:
	sub	x9, x20, x21
	mov	w8, wzr
	str	x9, [x0, #48]
	ldp	x20, x19, [sp, #48]
	mov	w0, w8
	ldp	x22, x21, [sp, #32]
	ldp	x24, x23, [sp, #16]
	ldp	x29, x30, [sp], #64
	ret
.LBB90_21:
	mov	x22, x0
	lsl	x0, x23, #3
	mov	w1, #4
	bl	rattle_alloc
	tbz	w0, #0, .LBB90_44
.LBB90_22:
	mov	x0, x22
	str	x1, [x22, #24]
	ldr	x22, [x22, #8]
	str	x23, [x0, #40]
.LBB90_23:
	ldr	x23, [x0, #16]
	subs	x8, x19, x22
	csel	x8, xzr, x8, lo
	sub	x9, x23, x22
	cmp	x8, x9
	b.ls	.LBB90_29
	cmn	x22, x8
	b.hs	.LBB90_44
	add	x21, x8, x22
	lsr	x8, x21, #57
	cbnz	x8, .LBB90_44
	cbz	x23, .LBB90_43
	mov	x23, x0
	ldr	x0, [x0]
	lsl	x1, x22, #6
	lsl	x2, x21, #6
	mov	w3, #4
	bl	rattle_realloc
	tbz	w0, #0, .LBB90_44
.LBB90_28:
	ldr	x22, [x23, #8]
	mov	x0, x23
	str	x1, [x23]
	mov	x23, x21
	str	x21, [x0, #16]
.LBB90_29:
	cbz	x22, .LBB90_31
	str	xzr, [x0, #8]
.LBB90_31:
	cbz	x19, .LBB90_36
	cmp	x19, x23
	b.hi	.LBB90_45
	mov	x8, xzr
	add	x22, xzr, x19
	ldr	x21, [x0]
	cmp	xzr, x22
	b.hs	.LBB90_35
.LBB90_34:
	add	x8, x21, x8, lsl #6
	lsl	x2, x19, #6
	mov	x19, x0
	mov	w1, wzr
	mov	x0, x8
	bl	memset
	mov	x0, x19
.LBB90_35:
	stp	x21, x22, [x0]
	str	x23, [x0, #16]
	ldr	x8, [x0, #32]
	cbnz	x8, .LBB90_37
	b	.LBB90_42
.LBB90_36:
	ldr	x21, [x0]
	mov	x22, xzr
	ldr	x8, [x0, #32]
	cbz	x8, .LBB90_42
.LBB90_37:
	ldr	x10, [x0, #24]
	mov	w11, #-1
	mov	x9, xzr
	add	x11, x22, x11
	sub	x12, x22, #1
	b	.LBB90_39
.LBB90_38:
	rbit	w17, w1
	clz	w17, w17
	add	x1, x18, w17, uxtw #2
	strb	w15, [x18, w17, uxtw]
	orr	w15, w17, w16, lsl #4
	str	w9, [x1, #16]
	add	x9, x9, #1
	cmp	x9, x8
	stp	w14, w15, [x13]
	b.eq	.LBB90_42
.LBB90_39:
	add	x13, x10, x9, lsl #3
	mov	w16, #1
	ldr	w14, [x13]
	lsr	w15, w14, #24
	cmp	w15, #1
	csinc	w15, w15, wzr, hi
	lsl	w17, w16, w15
	and	x16, x11, x14
.LBB90_40:
	add	x18, x21, x16, lsl #6
	adrp	x1, .LCPI90_0
	ldr	q1, [x1, :lo12:.LCPI90_0]
	ldr	q0, [x18]
	cmeq	v0.16b, v0.16b, #0
	and	v0.16b, v0.16b, v1.16b
	addp	v0.16b, v0.16b, v0.16b
	addp	v0.16b, v0.16b, v0.16b
	addp	v0.16b, v0.16b, v0.16b
	umov	w1, v0.h[0]
	ands	w1, w1, #0xfff
	b.ne	.LBB90_38
	ldr	w1, [x18, #12]
	add	x16, x16, #1
	and	x16, x16, x12
	orr	w1, w1, w17
	str	w1, [x18, #12]
	b	.LBB90_40
.LBB90_42:
	mov	w8, wzr
	str	x20, [x0, #48]
	ldp	x20, x19, [sp, #48]
	mov	w0, w8
	ldp	x22, x21, [sp, #32]
	ldp	x24, x23, [sp, #16]
	ldp	x29, x30, [sp], #64
	ret
.LBB90_43:
	mov	x23, x0
	lsl	x0, x21, #6
	mov	w1, #4
	bl	rattle_alloc
	tbnz	w0, #0, .LBB90_28
.LBB90_44:
	mov	w8, #1
	ldp	x20, x19, [sp, #48]
	mov	w0, w8
	ldp	x22, x21, [sp, #32]
	ldp	x24, x23, [sp, #16]
	ldp	x29, x30, [sp], #64
	ret
.LBB90_45:
	mov	x1, x19
	mov	x21, x0
	bl	"std_alloc::vec::Vec::grow_amortized::<#ba3995800c953670>"
	cbz	w0, .LBB90_47
	ldp	x8, x23, [x21, #8]
	mov	x0, x21
	add	x22, x8, x19
	ldr	x21, [x21]
	cmp	x8, x22
	b.lo	.LBB90_34
	b	.LBB90_35
.LBB90_47:
	brk	#0x1
.Lfunc_end90:
	.size	"indexmap::index_table::IndexTable::reserve_rehash::<#fe12c7543020194e>", .Lfunc_end90-"indexmap::index_table::IndexTable::reserve_rehash::<#fe12c7543020194e>"
	.section	".text.unlikely.std_alloc::vec::Vec::grow_amortized::<#ba3995800c953670>","ax",@progbits
	.p2align	2
	.type	"std_alloc::vec::Vec::grow_amortized::<#ba3995800c953670>",@function
"std_alloc::vec::Vec::grow_amortized::<#ba3995800c953670>":
	ldr	x8, [x0, #8]
	cmn	x8, x1
	b.lo	.LBB91_2
	mov	w0, wzr
	ret
.LBB91_2:
	stp	x29, x30, [sp, #-32]!
	ldr	x9, [x0, #16]
	add	x10, x8, x1
	mov	w11, #4
	cmp	x10, #4
	stp	x20, x19, [sp, #16]
	mov	x29, sp
	lsl	x12, x9, #1
	csel	x11, x10, x11, hi
	lsr	x13, x9, #62
	cmp	x11, x12
	csel	x10, x11, x12, hi
	cmp	x13, #0
	csel	x19, x10, x11, eq
	lsr	x11, x19, #57
	cbnz	x11, .LBB91_7
	cbz	x9, .LBB91_6
	mov	x20, x0
	ldr	x0, [x0]
	lsl	x1, x8, #6
	lsl	x2, x19, #6
	mov	w3, #4
	bl	rattle_realloc
	tbz	w0, #0, .LBB91_7
.LBB91_5:
	mov	w0, #1
	str	x1, [x20]
	str	x19, [x20, #16]
	ldp	x20, x19, [sp, #16]
	ldp	x29, x30, [sp], #32
	ret
.LBB91_6:
	mov	x20, x0
	lsl	x0, x10, #6
	mov	w1, #4
	bl	rattle_alloc
	tbnz	w0, #0, .LBB91_5
.LBB91_7:
	mov	w0, wzr
	ldp	x20, x19, [sp, #16]
	ldp	x29, x30, [sp], #32
	ret
.Lfunc_end91:
	.size	"std_alloc::vec::Vec::grow_amortized::<#ba3995800c953670>", .Lfunc_end91-"std_alloc::vec::Vec::grow_amortized::<#ba3995800c953670>"
	.section	".text.unlikely.std_alloc::vec::Vec::grow_amortized::<#011395025abc1f5f>","ax",@progbits
	.p2align	2
	.type	"std_alloc::vec::Vec::grow_amortized::<#011395025abc1f5f>",@function
"std_alloc::vec::Vec::grow_amortized::<#011395025abc1f5f>":
	ldr	x8, [x0, #8]
	cmn	x8, #1
	b.eq	.LBB92_5
	stp	x29, x30, [sp, #-32]!
	ldr	x9, [x0, #16]
	cmp	x8, #3
	mov	w10, #3
	csel	x11, x8, x10, hi
	stp	x20, x19, [sp, #16]
	mov	x29, sp
	lsl	x10, x9, #1
	add	x12, x11, #1
	lsr	x13, x9, #62
	cmp	x12, x10
	csinc	x10, x10, x11, ls
	cmp	x13, #0
	csinc	x19, x10, x11, eq
	lsr	x11, x19, #60
	cbnz	x11, .LBB92_7
	cbz	x9, .LBB92_6
	mov	x20, x0
	ldr	x0, [x0]
	lsl	x1, x8, #3
	lsl	x2, x19, #3
	mov	w3, #8
	bl	rattle_realloc
	tbz	w0, #0, .LBB92_7
.LBB92_4:
	mov	w0, #1
	str	x1, [x20]
	str	x19, [x20, #16]
	ldp	x20, x19, [sp, #16]
	ldp	x29, x30, [sp], #32
	ret
.LBB92_5:
	mov	w0, wzr
	ret
.LBB92_6:
	mov	x20, x0
	lsl	x0, x10, #3
	mov	w1, #8
	bl	rattle_alloc
	tbnz	w0, #0, .LBB92_4
.LBB92_7:
	mov	w0, wzr
	ldp	x20, x19, [sp, #16]
	ldp	x29, x30, [sp], #32
	ret
.Lfunc_end92:
	.size	"std_alloc::vec::Vec::grow_amortized::<#011395025abc1f5f>", .Lfunc_end92-"std_alloc::vec::Vec::grow_amortized::<#011395025abc1f5f>"
	.section	".text.unlikely.std_alloc::vec::Vec::grow_amortized::<#c7acf2d08af3e8c4>","ax",@progbits
	.p2align	2
	.type	"std_alloc::vec::Vec::grow_amortized::<#c7acf2d08af3e8c4>",@function
"std_alloc::vec::Vec::grow_amortized::<#c7acf2d08af3e8c4>":
	ldr	x8, [x0, #8]
	cmn	x8, #1
	b.eq	.LBB93_5
	stp	x29, x30, [sp, #-32]!
	ldr	x9, [x0, #16]
	cmp	x8, #3
	mov	w10, #3
	csel	x11, x8, x10, hi
	stp	x20, x19, [sp, #16]
	mov	x29, sp
	lsl	x10, x9, #1
	add	x12, x11, #1
	lsr	x13, x9, #62
	cmp	x12, x10
	csinc	x10, x10, x11, ls
	cmp	x13, #0
	csinc	x19, x10, x11, eq
	mov	x11, #29789
	movk	x11, #17873, lsl #16
	movk	x11, #23831, lsl #32
	movk	x11, #372, lsl #48
	cmp	x19, x11
	b.hi	.LBB93_7
	cbz	x9, .LBB93_6
	mov	w9, #88
	mov	x20, x0
	ldr	x0, [x0]
	mul	x1, x8, x9
	mov	w3, #8
	mul	x2, x19, x9
	bl	rattle_realloc
	tbz	w0, #0, .LBB93_7
.LBB93_4:
	mov	w0, #1
	str	x1, [x20]
	str	x19, [x20, #16]
	ldp	x20, x19, [sp, #16]
	ldp	x29, x30, [sp], #32
	ret
.LBB93_5:
	mov	w0, wzr
	ret
.LBB93_6:
	mov	w8, #88
	mov	x20, x0
	mov	w1, #8
	mul	x0, x10, x8
	bl	rattle_alloc
	tbnz	w0, #0, .LBB93_4
.LBB93_7:
	mov	w0, wzr
	ldp	x20, x19, [sp, #16]
	ldp	x29, x30, [sp], #32
	ret
.Lfunc_end93:
	.size	"std_alloc::vec::Vec::grow_amortized::<#c7acf2d08af3e8c4>", .Lfunc_end93-"std_alloc::vec::Vec::grow_amortized::<#c7acf2d08af3e8c4>"
	.section	".text.unlikely.std_alloc::vec::Vec::grow_amortized::<#de2ad0e0391ad1de>","ax",@progbits
	.p2align	2
	.type	"std_alloc::vec::Vec::grow_amortized::<#de2ad0e0391ad1de>",@function
"std_alloc::vec::Vec::grow_amortized::<#de2ad0e0391ad1de>":
	ldr	x8, [x0, #8]
	cmn	x8, #1
	b.eq	.LBB94_5
	stp	x29, x30, [sp, #-32]!
	ldr	x9, [x0, #16]
	cmp	x8, #3
	mov	w10, #3
	csel	x11, x8, x10, hi
	stp	x20, x19, [sp, #16]
	mov	x29, sp
	lsl	x10, x9, #1
	add	x12, x11, #1
	lsr	x13, x9, #62
	cmp	x12, x10
	csinc	x10, x10, x11, ls
	cmp	x13, #0
	csinc	x19, x10, x11, eq
	mov	x11, #6148914691236517205
	movk	x11, #1365, lsl #48
	cmp	x19, x11
	b.hi	.LBB94_7
	cbz	x9, .LBB94_6
	add	x8, x8, x8, lsl #1
	add	x9, x19, x19, lsl #1
	mov	x20, x0
	ldr	x0, [x0]
	mov	w3, #8
	lsl	x1, x8, #3
	lsl	x2, x9, #3
	bl	rattle_realloc
	tbz	w0, #0, .LBB94_7
.LBB94_4:
	mov	w0, #1
	str	x1, [x20]
	str	x19, [x20, #16]
	ldp	x20, x19, [sp, #16]
	ldp	x29, x30, [sp], #32
	ret
.LBB94_5:
	mov	w0, wzr
	ret
.LBB94_6:
	add	x8, x10, x10, lsl #1
	mov	x20, x0
	mov	w1, #8
	lsl	x0, x8, #3
	bl	rattle_alloc
	tbnz	w0, #0, .LBB94_4
.LBB94_7:
	mov	w0, wzr
	ldp	x20, x19, [sp, #16]
	ldp	x29, x30, [sp], #32
	ret
.Lfunc_end94:
	.size	"std_alloc::vec::Vec::grow_amortized::<#de2ad0e0391ad1de>", .Lfunc_end94-"std_alloc::vec::Vec::grow_amortized::<#de2ad0e0391ad1de>"
	.section	".text.std_alloc::vec::opened::drop_run::<#e5da5d668adfa5c1>","ax",@progbits
	.p2align	2
	.type	"std_alloc::vec::opened::drop_run::<#e5da5d668adfa5c1>",@function
"std_alloc::vec::opened::drop_run::<#e5da5d668adfa5c1>":
	cmp	x1, x2
	b.hs	.LBB95_15
	stp	x29, x30, [sp, #-96]!
	stp	x22, x21, [sp, #64]
	mov	x21, x0
	mov	x29, sp
	stp	x20, x19, [sp, #80]
	mov	x19, x2
	mov	x20, x1
	str	x27, [sp, #16]
	stp	x26, x25, [sp, #32]
	stp	x24, x23, [sp, #48]
	b	.LBB95_3
.LBB95_2:
	add	x20, x20, #1
	cmp	x20, x19
	b.eq	.LBB95_14
.LBB95_3:
	mov	w8, #112
	madd	x8, x20, x8, x21
	ldrb	w9, [x8]
	ldp	x10, x23, [x8, #56]
	ldp	x26, x25, [x8, #72]
	ldr	x22, [x8, #88]
	cmp	w9, #0
	ldr	x24, [x8, #104]
	ccmp	x10, #0, #4, ne
	b.eq	.LBB95_5
	ldr	x0, [x8, #40]
	bl	rattle_dealloc
.LBB95_5:
	cbz	x26, .LBB95_10
	add	x27, x23, #16
	b	.LBB95_8
.LBB95_7:
	subs	x26, x26, #1
	add	x27, x27, #24
	b.eq	.LBB95_10
.LBB95_8:
	ldr	x8, [x27]
	cbz	x8, .LBB95_7
	ldur	x0, [x27, #-16]
	bl	rattle_dealloc
	b	.LBB95_7
.LBB95_10:
	cbz	x25, .LBB95_12
	mov	x0, x23
	bl	rattle_dealloc
.LBB95_12:
	cbz	x24, .LBB95_2
	mov	x0, x22
	bl	rattle_dealloc
	b	.LBB95_2
.LBB95_14:
	ldp	x20, x19, [sp, #80]
	ldr	x27, [sp, #16]
	ldp	x22, x21, [sp, #64]
	ldp	x24, x23, [sp, #48]
	ldp	x26, x25, [sp, #32]
	ldp	x29, x30, [sp], #96
.LBB95_15:
	ret
.Lfunc_end95:
	.size	"std_alloc::vec::opened::drop_run::<#e5da5d668adfa5c1>", .Lfunc_end95-"std_alloc::vec::opened::drop_run::<#e5da5d668adfa5c1>"
	.section	.rodata.cst8,"aM",@progbits,8
	.p2align	3, 0x0
.LCPI96_0:
	.byte	1
	.byte	1
	.byte	0
	.byte	0
	.zero	1
	.zero	1
	.zero	1
	.zero	1
	.section	".text.ct_step::step::take_step::<#0f46d2847b2ce1ce>","ax",@progbits
	.p2align	2
	.type	"ct_step::step::take_step::<#0f46d2847b2ce1ce>",@function
"ct_step::step::take_step::<#0f46d2847b2ce1ce>":
	stp	x29, x30, [sp, #-96]!
	stp	x28, x27, [sp, #16]
	mov	x29, sp
	stp	x26, x25, [sp, #32]
	stp	x24, x23, [sp, #48]
	stp	x22, x21, [sp, #64]
	stp	x20, x19, [sp, #80]
	sub	sp, sp, #1616
	movi	v0.2d, #0000000000000000
	mov	x19, x0
	sub	x8, x29, #24
	str	xzr, [sp]
	str	wzr, [sp, #384]
	str	xzr, [sp, #1184]
	stp	q0, q0, [sp, #192]
	stp	q0, q0, [sp, #224]
	stp	q0, q0, [sp, #256]
	stp	q0, q0, [sp, #288]
	stp	q0, q0, [sp, #320]
	stp	q0, q0, [sp, #352]
	stp	q0, q0, [sp, #704]
	str	q0, [sp, #688]
	str	x8, [sp, #1168]
	str	xzr, [sp, #1176]
	cbz	x3, .LBB96_30
	mov	x26, x3
	mov	x27, x2
	mov	x23, xzr
	mov	x24, xzr
	sub	x20, x29, #24
	stp	x7, x4, [sp, #160]
	str	x6, [sp, #152]
	stp	x5, x1, [sp, #176]
.LBB96_2:
	mov	w8, #24
	madd	x8, x24, x8, x27
	ldr	x22, [x8, #8]
	tst	x22, #0x1f
	b.ne	.LBB96_23
	lsr	x25, x22, #5
	ldr	x21, [x8]
	cbz	x25, .LBB96_10
	tbnz	x22, #63, .LBB96_15
	mov	x0, x22
	mov	w1, #1
	bl	rattle_alloc
	tbz	w0, #0, .LBB96_15
	sub	x8, x1, x21
	mov	x28, x1
	cmp	x8, x22
	b.hs	.LBB96_11
	mov	x8, xzr
	mov	x9, x25
.LBB96_8:
	add	x10, x21, x8
	subs	x9, x9, #1
	ldp	q1, q0, [x10]
	add	x10, x28, x8
	add	x8, x8, #32
	stp	q1, q0, [x10]
	b.ne	.LBB96_8
	ldr	x8, [sp, #1184]
	cmp	x8, x23
	b.ne	.LBB96_12
	b	.LBB96_13
.LBB96_10:
	mov	x22, xzr
	sub	x28, x29, #24
.LBB96_11:
	mov	x0, x28
	mov	x1, x21
	mov	x2, x22
	bl	memmove
	ldr	x8, [sp, #1184]
	cmp	x8, x23
	b.eq	.LBB96_13
.LBB96_12:
	mov	w9, #24
	add	x24, x24, #1
	mov	x8, x23
	madd	x9, x23, x9, x20
	add	x23, x23, #1
	cmp	x24, x26
	stp	x28, x25, [x9]
	str	x25, [x9, #16]
	str	x23, [sp, #1176]
	b.ne	.LBB96_2
	b	.LBB96_33
.LBB96_13:
	add	x0, sp, #1168
	bl	"std_alloc::vec::Vec::grow_amortized::<#de2ad0e0391ad1de>"
	cbz	w0, .LBB96_48
	ldr	x23, [sp, #1176]
	ldr	x20, [sp, #1168]
	b	.LBB96_12
.LBB96_15:
	ldr	x21, [sp, #1184]
	cbz	x23, .LBB96_20
	add	x22, x20, #16
	b	.LBB96_18
.LBB96_17:
	subs	x23, x23, #1
	add	x22, x22, #24
	b.eq	.LBB96_20
.LBB96_18:
	ldr	x8, [x22]
	cbz	x8, .LBB96_17
	ldur	x0, [x22, #-16]
	bl	rattle_dealloc
	b	.LBB96_17
.LBB96_20:
	cbz	x21, .LBB96_22
.LBB96_21:
	mov	x0, x20
	bl	rattle_dealloc
.LBB96_22:
	mov	w8, #2
	b	.LBB96_31
.LBB96_23:
	ldr	x21, [sp, #1184]
	cbz	x23, .LBB96_28
	add	x22, x20, #16
	b	.LBB96_26
.LBB96_25:
	subs	x23, x23, #1
	add	x22, x22, #24
	b.eq	.LBB96_28
.LBB96_26:
	ldr	x8, [x22]
	cbz	x8, .LBB96_25
	ldur	x0, [x22, #-16]
	bl	rattle_dealloc
	b	.LBB96_25
.LBB96_28:
	cbz	x21, .LBB96_30
.LBB96_29:
	mov	x0, x20
	bl	rattle_dealloc
.LBB96_30:
	mov	w8, wzr
.LBB96_31:
	movi	v0.2d, #0000000000000000
	strb	w8, [x19, #1]
	strb	w8, [x19, #2]
	mov	w8, #1
	strb	wzr, [x19, #3]
	strb	w8, [x19]
	stur	q0, [x19, #8]
	stur	q0, [x19, #24]
	stur	q0, [x19, #40]
	stur	q0, [x19, #56]
	stur	q0, [x19, #72]
	stur	q0, [x19, #88]
	stur	q0, [x19, #104]
	stur	q0, [x19, #120]
	stur	q0, [x19, #136]
	stur	q0, [x19, #152]
	stur	q0, [x19, #168]
	stur	q0, [x19, #184]
	stur	q0, [x19, #200]
	stur	q0, [x19, #216]
	stur	q0, [x19, #232]
.LBB96_32:
	add	sp, sp, #1616
	ldp	x20, x19, [sp, #80]
	ldp	x22, x21, [sp, #64]
	ldp	x24, x23, [sp, #48]
	ldp	x26, x25, [sp, #32]
	ldp	x28, x27, [sp, #16]
	ldp	x29, x30, [sp], #96
	ret
.LBB96_33:
	ldr	x9, [sp, #184]
	movi	v1.2d, #0000000000000000
	ldr	x20, [sp, #1168]
	ldr	x22, [sp, #1184]
	cmn	x8, #1
	ldp	q0, q2, [x9]
	ldr	q3, [x9, #32]
	ldr	x9, [x9]
	str	q3, [sp, #720]
	stp	q0, q2, [sp, #688]
	str	q1, [sp, #1328]
	str	q1, [sp, #1312]
	b.eq	.LBB96_94
	cmp	x8, #7
	b.ne	.LBB96_44
	ldr	x10, [x20, #8]
	cmp	x10, w9, uxtb
	b.ne	.LBB96_44
	lsr	x10, x9, #8
	ldr	x11, [x20, #32]
	cmp	x11, w10, uxtb
	b.ne	.LBB96_44
	lsr	x10, x9, #16
	ldr	x11, [x20, #56]
	cmp	x11, w10, uxtb
	b.ne	.LBB96_44
	lsr	x10, x9, #24
	ldr	x11, [x20, #80]
	cmp	x11, w10, uxtb
	b.ne	.LBB96_44
	lsr	x10, x9, #32
	ldr	x11, [x20, #104]
	cmp	x11, w10, uxtb
	b.ne	.LBB96_44
	lsr	x10, x9, #40
	ldr	x11, [x20, #128]
	cmp	x11, w10, uxtb
	b.ne	.LBB96_44
	lsr	x10, x9, #48
	ldr	x11, [x20, #152]
	cmp	x11, w10, uxtb
	b.ne	.LBB96_44
	ldr	x10, [x20, #176]
	cmp	x10, x9, lsr #56
	b.ne	.LBB96_44
	movi	v0.2d, #0000000000000000
	mov	x23, xzr
	mov	x24, xzr
	mov	x28, xzr
	sub	x27, x29, #24
	str	q0, [sp, #1024]
	str	q0, [sp, #1040]
	stp	q0, q0, [sp, #880]
	b	.LBB96_56
.LBB96_44:
	add	x21, x8, #1
	add	x23, x20, #16
	b	.LBB96_46
.LBB96_45:
	subs	x21, x21, #1
	add	x23, x23, #24
	b.eq	.LBB96_94
.LBB96_46:
	ldr	x8, [x23]
	cbz	x8, .LBB96_45
	ldur	x0, [x23, #-16]
	bl	rattle_dealloc
	b	.LBB96_45
.LBB96_48:
	cbz	x25, .LBB96_50
	mov	x0, x28
	bl	rattle_dealloc
.LBB96_50:
	ldr	x21, [sp, #1176]
	ldr	x20, [sp, #1168]
	ldr	x22, [sp, #1184]
	cbz	x21, .LBB96_136
	add	x23, x20, #16
	b	.LBB96_53
.LBB96_52:
	subs	x21, x21, #1
	add	x23, x23, #24
	b.eq	.LBB96_136
.LBB96_53:
	ldr	x8, [x23]
	cbz	x8, .LBB96_52
	ldur	x0, [x23, #-16]
	bl	rattle_dealloc
	b	.LBB96_52
.LBB96_55:
	add	x23, x23, #24
	mov	x24, x25
	mov	x27, x26
	cmp	x23, #192
	b.eq	.LBB96_64
.LBB96_56:
	add	x8, x20, x23
	add	x0, sp, #1024
	mov	x3, x27
	ldp	x1, x2, [x8]
	mov	x4, x28
	bl	"ct_tiles::row::joined"
	ldrb	w8, [sp, #1024]
	cbnz	w8, .LBB96_118
	movi	v0.2d, #0000000000000000
	ldr	x2, [sp, #1040]
	ldr	x9, [sp, #1032]
	ldr	x21, [sp, #1048]
	sub	x26, x29, #24
	add	x8, sp, #608
	str	x26, [sp, #608]
	stp	xzr, xzr, [x8, #8]
	str	q0, [sp, #1184]
	str	q0, [sp, #1168]
	cbnz	x2, .LBB96_62
	mov	x25, xzr
	mov	x28, xzr
	cbz	x24, .LBB96_60
.LBB96_59:
	mov	x0, x27
	mov	x24, x9
	bl	rattle_dealloc
	mov	x9, x24
.LBB96_60:
	cbz	x21, .LBB96_55
	mov	x0, x9
	bl	rattle_dealloc
	b	.LBB96_55
.LBB96_62:
	add	x0, sp, #1168
	mov	x1, x9
	str	x9, [sp, #144]
	bl	"ct_tree::reference::root::<#0f46d2847b2ce1ce>"
	add	x0, sp, #608
	mov	w1, #1
	bl	"std_alloc::vec::Vec::grow_amortized::<#c3a63ae5e00ff772>"
	ldr	x25, [sp, #624]
	cbz	w0, .LBB96_114
	ldr	x26, [sp, #608]
	ldr	x8, [sp, #616]
	ldr	q0, [sp, #1168]
	ldr	q1, [sp, #1184]
	add	x9, x26, x8, lsl #5
	add	x28, x8, #1
	stp	q0, q1, [x9]
	ldr	x9, [sp, #144]
	cbnz	x24, .LBB96_59
	b	.LBB96_60
.LBB96_64:
	add	x0, sp, #880
	mov	x1, x26
	mov	x2, x28
	bl	"ct_tree::reference::root::<#0f46d2847b2ce1ce>"
	cbz	x25, .LBB96_66
	mov	x0, x26
	bl	rattle_dealloc
.LBB96_66:
	ldp	q0, q1, [sp, #880]
	add	x8, sp, #688
	add	x0, sp, #1312
	add	x1, x8, #16
	str	q0, [sp, #1312]
	str	q1, [sp, #1328]
	bl	"core::cmp::arrays::ArrayPartialEq::eq::<i8,=32,31'core::cmp::numbers::U8PartialEq{}>"
	tbz	w0, #0, .LBB96_78
	ldr	x8, [sp, #688]
	movi	v0.2d, #0000000000000000
	ldr	x23, [sp, #696]
	add	x0, sp, #688
	add	x1, sp, #1168
	mov	w2, #1
	str	x8, [sp, #64]
	ldr	x8, [sp, #168]
	str	x8, [sp, #1168]
	ldr	x8, [sp, #176]
	stp	q0, q0, [sp, #688]
	str	x8, [sp, #1176]
	bl	"ct_tree::hash::Sha256HashNodeHash::hash"
	ldr	x8, [sp, #184]
	add	x0, sp, #688
	add	x1, x8, #80
	bl	"core::cmp::arrays::ArrayPartialEq::eq::<i8,=32,31'core::cmp::numbers::U8PartialEq{}>"
	tbz	w0, #0, .LBB96_95
	ldr	x8, [sp, #160]
	movi	v0.2d, #0000000000000000
	mov	w26, wzr
	mov	w21, wzr
	str	wzr, [sp, #1360]
	cmp	x8, x23
	ldr	x8, [sp, #152]
	str	xzr, [sp, #832]
	str	xzr, [sp, #592]
	ldp	x24, x8, [x8]
	str	q0, [sp, #1312]
	str	q0, [sp, #1328]
	str	q0, [sp, #1344]
	str	q0, [sp, #1296]
	str	q0, [sp, #1280]
	str	q0, [sp, #1264]
	str	q0, [sp, #1248]
	str	q0, [sp, #1232]
	str	q0, [sp, #1216]
	str	q0, [sp, #1200]
	str	q0, [sp, #1184]
	str	q0, [sp, #1168]
	str	q0, [sp, #1152]
	str	q0, [sp, #1136]
	str	q0, [sp, #1120]
	str	q0, [sp, #1104]
	str	q0, [sp, #1088]
	str	q0, [sp, #1072]
	str	q0, [sp, #1056]
	str	q0, [sp, #1040]
	stp	q0, q0, [sp, #608]
	stp	q0, q0, [sp, #640]
	stp	q0, q0, [sp, #672]
	stp	q0, q0, [sp, #704]
	stp	q0, q0, [sp, #736]
	stp	q0, q0, [sp, #768]
	stp	q0, q0, [sp, #800]
	stp	q0, q0, [sp, #848]
	stp	q0, q0, [sp, #880]
	stp	q0, q0, [sp, #912]
	stp	q0, q0, [sp, #944]
	stp	q0, q0, [sp, #976]
	stp	q0, q0, [sp, #1008]
	str	xzr, [sp, #584]
	str	xzr, [sp, #600]
	str	xzr, [sp, #568]
	str	xzr, [sp, #560]
	str	xzr, [sp, #576]
	str	xzr, [sp, #544]
	str	xzr, [sp, #536]
	str	xzr, [sp, #552]
	str	xzr, [sp, #520]
	stp	xzr, xzr, [sp, #504]
	str	xzr, [sp, #528]
	stp	xzr, xzr, [sp, #488]
	stp	xzr, xzr, [sp, #464]
	str	xzr, [sp, #480]
	stp	xzr, xzr, [sp, #440]
	str	xzr, [sp, #456]
	stp	xzr, xzr, [sp, #416]
	str	xzr, [sp, #432]
	stp	xzr, xzr, [sp, #392]
	str	xzr, [sp, #408]
	stp	q0, q0, [x29, #-208]
	str	x8, [sp, #40]
	stp	q0, q0, [x29, #-240]
	b.ls	.LBB96_438
	ldr	x9, [sp, #64]
	mov	x8, #1099511627776
	mov	w21, wzr
	mov	w26, #1
	cmp	x9, x8
	b.hi	.LBB96_438
	ldr	x9, [sp, #64]
	sub	x8, x8, x9
	ldr	x9, [sp, #40]
	cmp	x8, x9
	b.lo	.LBB96_438
	sub	x8, x29, #24
	stp	xzr, xzr, [x29, #-104]
	stur	x8, [x29, #-112]
	ldr	x8, [sp, #40]
	stp	q0, q0, [x29, #-80]
	cbz	x8, .LBB96_143
	ldr	x26, [sp, #40]
	ldr	x27, [sp, #64]
	sub	x8, x29, #24
	stp	x8, xzr, [sp, #136]
.LBB96_73:
	mov	x8, #5497558138880
	ldr	x2, [sp, #160]
	sub	x0, x29, #80
	bfxil	x8, x27, #0, #40
	sub	x3, x29, #144
	mov	x1, x24
	rev	x8, x8
	stur	x8, [x29, #-144]
	bl	"ct_codec::signing::certificate_timestamp_signature_input_with_extensions::<#8ca9ace9f4c467fd>"
	ldurb	w8, [x29, #-80]
	cbnz	w8, .LBB96_342
	ldur	x8, [x29, #-96]
	ldp	x21, x25, [x29, #-72]
	ldr	x23, [sp, #144]
	ldur	x28, [x29, #-56]
	cmp	x8, x23
	b.eq	.LBB96_76
.LBB96_75:
	mov	w8, #40
	ldr	x9, [sp, #136]
	subs	x26, x26, #1
	madd	x8, x23, x8, x9
	ldr	x9, [sp, #160]
	add	x24, x24, #88
	stp	x27, x9, [x8]
	add	x9, x23, #1
	add	x27, x27, #1
	stp	x21, x25, [x8, #16]
	str	x28, [x8, #32]
	add	x8, x23, #1
	str	x8, [sp, #144]
	stur	x9, [x29, #-104]
	b.ne	.LBB96_73
	b	.LBB96_137
.LBB96_76:
	sub	x0, x29, #112
	bl	"std_alloc::vec::Vec::grow_amortized::<#15a860e52381fe46>"
	cbz	w0, .LBB96_647
	ldp	x8, x23, [x29, #-112]
	str	x8, [sp, #136]
	b	.LBB96_75
.LBB96_78:
	ldr	x8, [x20, #16]
	cbz	x8, .LBB96_80
	ldr	x0, [x20]
	bl	rattle_dealloc
.LBB96_80:
	ldr	x8, [x20, #40]
	cbz	x8, .LBB96_82
	ldr	x0, [x20, #24]
	bl	rattle_dealloc
.LBB96_82:
	ldr	x8, [x20, #64]
	cbz	x8, .LBB96_84
	ldr	x0, [x20, #48]
	bl	rattle_dealloc
.LBB96_84:
	ldr	x8, [x20, #88]
	cbz	x8, .LBB96_86
	ldr	x0, [x20, #72]
	bl	rattle_dealloc
.LBB96_86:
	ldr	x8, [x20, #112]
	cbz	x8, .LBB96_88
	ldr	x0, [x20, #96]
	bl	rattle_dealloc
.LBB96_88:
	ldr	x8, [x20, #136]
	cbz	x8, .LBB96_90
	ldr	x0, [x20, #120]
	bl	rattle_dealloc
.LBB96_90:
	ldr	x8, [x20, #160]
	cbz	x8, .LBB96_92
	ldr	x0, [x20, #144]
	bl	rattle_dealloc
.LBB96_92:
	ldr	x8, [x20, #184]
	cbz	x8, .LBB96_94
	ldr	x0, [x20, #168]
	bl	rattle_dealloc
.LBB96_94:
	cbnz	x22, .LBB96_29
	b	.LBB96_30
.LBB96_95:
	ldr	x8, [x20, #16]
	cbz	x8, .LBB96_97
	ldr	x0, [x20]
	bl	rattle_dealloc
.LBB96_97:
	ldr	x8, [x20, #40]
	cbz	x8, .LBB96_99
	ldr	x0, [x20, #24]
	bl	rattle_dealloc
.LBB96_99:
	ldr	x8, [x20, #64]
	cbz	x8, .LBB96_101
	ldr	x0, [x20, #48]
	bl	rattle_dealloc
.LBB96_101:
	ldr	x8, [x20, #88]
	cbz	x8, .LBB96_103
	ldr	x0, [x20, #72]
	bl	rattle_dealloc
.LBB96_103:
	ldr	x8, [x20, #112]
	cbz	x8, .LBB96_105
	ldr	x0, [x20, #96]
	bl	rattle_dealloc
.LBB96_105:
	ldr	x8, [x20, #136]
	cbz	x8, .LBB96_107
	ldr	x0, [x20, #120]
	bl	rattle_dealloc
.LBB96_107:
	ldr	x8, [x20, #160]
	cbz	x8, .LBB96_109
	ldr	x0, [x20, #144]
	bl	rattle_dealloc
.LBB96_109:
	ldr	x8, [x20, #184]
	cbz	x8, .LBB96_111
	ldr	x0, [x20, #168]
	bl	rattle_dealloc
.LBB96_111:
	cbz	x22, .LBB96_113
	mov	x0, x20
	bl	rattle_dealloc
.LBB96_113:
	add	x9, sp, #336
	adrp	x8, .LCPI96_0
	movi	v3.2d, #0000000000000000
	ldur	q0, [x9, #4]
	ldur	q1, [x9, #20]
	ldur	q2, [x9, #36]
	stur	q0, [x19, #8]
	ldr	d0, [x8, :lo12:.LCPI96_0]
	stur	q1, [x19, #24]
	str	s0, [x19]
	ldp	q0, q1, [sp, #272]
	stur	q2, [x19, #40]
	stur	q3, [x19, #56]
	stur	q0, [x19, #184]
	stur	q1, [x19, #200]
	ldp	q0, q1, [sp, #304]
	stur	q3, [x19, #72]
	stur	q3, [x19, #88]
	ldr	q3, [sp, #192]
	stur	q0, [x19, #216]
	stur	q1, [x19, #232]
	ldp	q0, q1, [sp, #208]
	stur	q3, [x19, #104]
	stur	q0, [x19, #120]
	ldp	q0, q2, [sp, #240]
	stur	q1, [x19, #136]
	stur	q0, [x19, #152]
	stur	q2, [x19, #168]
	b	.LBB96_32
.LBB96_114:
	cbz	x25, .LBB96_116
	ldr	x0, [sp, #608]
	bl	rattle_dealloc
.LBB96_116:
	cbz	x21, .LBB96_118
	ldr	x0, [sp, #144]
	bl	rattle_dealloc
.LBB96_118:
	cbz	x24, .LBB96_120
	mov	x0, x27
	bl	rattle_dealloc
.LBB96_120:
	ldr	x8, [x20, #16]
	cbz	x8, .LBB96_122
	ldr	x0, [x20]
	bl	rattle_dealloc
.LBB96_122:
	ldr	x8, [x20, #40]
	cbz	x8, .LBB96_124
	ldr	x0, [x20, #24]
	bl	rattle_dealloc
.LBB96_124:
	ldr	x8, [x20, #64]
	cbz	x8, .LBB96_126
	ldr	x0, [x20, #48]
	bl	rattle_dealloc
.LBB96_126:
	ldr	x8, [x20, #88]
	cbz	x8, .LBB96_128
	ldr	x0, [x20, #72]
	bl	rattle_dealloc
.LBB96_128:
	ldr	x8, [x20, #112]
	cbz	x8, .LBB96_130
	ldr	x0, [x20, #96]
	bl	rattle_dealloc
.LBB96_130:
	ldr	x8, [x20, #136]
	cbz	x8, .LBB96_132
	ldr	x0, [x20, #120]
	bl	rattle_dealloc
.LBB96_132:
	ldr	x8, [x20, #160]
	cbz	x8, .LBB96_134
	ldr	x0, [x20, #144]
	bl	rattle_dealloc
.LBB96_134:
	ldr	x8, [x20, #184]
	cbz	x8, .LBB96_136
	ldr	x0, [x20, #168]
	bl	rattle_dealloc
.LBB96_136:
	cbnz	x22, .LBB96_21
	b	.LBB96_22
.LBB96_137:
	ldur	x8, [x29, #-112]
	sub	x9, x29, #24
	stp	xzr, xzr, [x29, #-168]
	stur	x9, [x29, #-176]
	str	x8, [sp, #32]
	ldur	x8, [x29, #-96]
	str	x8, [sp, #16]
	sub	x8, x29, #24
	str	x8, [sp, #72]
	add	x8, x23, #1
	cbz	x8, .LBB96_145
	ldr	x8, [sp, #32]
	mov	x25, xzr
	add	x21, x23, #1
	add	x24, x8, #24
	sub	x8, x29, #24
	str	x8, [sp, #72]
	b	.LBB96_140
.LBB96_139:
	ldr	x8, [sp, #72]
	ldp	q0, q1, [x29, #-144]
	subs	x21, x21, #1
	add	x24, x24, #40
	add	x8, x8, x25, lsl #5
	add	x25, x25, #1
	stp	q0, q1, [x8]
	stur	x25, [x29, #-168]
	b.eq	.LBB96_144
.LBB96_140:
	movi	v0.2d, #0000000000000000
	ldp	x9, x10, [x24, #-8]
	adrp	x8, .Lstatic.7
	add	x8, x8, :lo12:.Lstatic.7
	mov	w11, #1
	sub	x0, x29, #80
	sub	x1, x29, #112
	mov	w2, #2
	stp	x8, x11, [x29, #-112]
	stp	q0, q0, [x29, #-80]
	stp	x9, x10, [x29, #-96]
	bl	"ct_tree::hash::Sha256HashNodeHash::hash"
	ldur	x8, [x29, #-160]
	ldp	q0, q1, [x29, #-80]
	cmp	x8, x25
	stp	q0, q1, [x29, #-144]
	b.ne	.LBB96_139
	sub	x0, x29, #176
	mov	w1, #1
	bl	"std_alloc::vec::Vec::grow_amortized::<#8c38511a3de69cfe>"
	cbz	w0, .LBB96_362
	ldp	x8, x25, [x29, #-176]
	str	x8, [sp, #72]
	b	.LBB96_139
.LBB96_143:
	sub	x8, x29, #24
	str	xzr, [sp, #144]
	str	x8, [sp, #32]
	mov	w8, #1
	stp	w8, w8, [sp, #8]
	sub	x8, x29, #24
	stp	xzr, xzr, [sp, #16]
	str	x8, [sp, #72]
	b	.LBB96_146
.LBB96_144:
	ldur	x8, [x29, #-160]
	str	x25, [sp, #24]
	cmp	x8, #0
	cset	w8, eq
	stp	wzr, w8, [sp, #8]
	b	.LBB96_146
.LBB96_145:
	mov	w8, #1
	str	xzr, [sp, #144]
	str	xzr, [sp, #24]
	stp	w8, w8, [sp, #8]
.LBB96_146:
	movi	v0.2d, #0000000000000000
	ldr	x8, [sp, #24]
	sub	x24, x29, #24
	stp	xzr, xzr, [x29, #-168]
	stur	x24, [x29, #-176]
	stp	xzr, xzr, [x29, #-40]
	stp	q0, q0, [x29, #-112]
	stur	x24, [x29, #-48]
	stp	xzr, xzr, [x29, #-72]
	stur	x24, [x29, #-80]
	cbnz	x8, .LBB96_339
	mov	x2, xzr
	mov	x25, xzr
	mov	x28, xzr
	sub	x0, x29, #24
.LBB96_148:
	ldr	x1, [sp, #72]
	bl	memmove
.LBB96_149:
	ldr	x8, [sp, #64]
	str	xzr, [sp, #128]
	str	x8, [sp, #112]
.LBB96_150:
	ldr	x9, [sp, #128]
	mov	w8, #24
	sub	x0, x29, #112
	mov	x3, x24
	mov	x4, x25
	madd	x8, x9, x8, x20
	ldp	x1, x2, [x8]
	bl	"ct_tiles::row::joined"
	ldurb	w8, [x29, #-112]
	cbnz	w8, .LBB96_195
	ldur	x8, [x29, #-96]
	movi	v0.2d, #0000000000000000
	str	x8, [sp, #120]
	lsr	x27, x8, #8
	ldur	x8, [x29, #-104]
	str	x8, [sp, #136]
	ldur	x8, [x29, #-88]
	stp	q0, q0, [x29, #-80]
	str	x8, [sp, #104]
	cbz	x27, .LBB96_159
	lsl	x0, x27, #5
	mov	w1, #1
	bl	rattle_alloc
	tbz	w0, #0, .LBB96_179
	ldr	x21, [sp, #136]
	mov	x26, x1
	mov	x25, xzr
	mov	x23, x27
	stp	x1, xzr, [x29, #-144]
	stur	x27, [x29, #-128]
	b	.LBB96_156
.LBB96_154:
	ldp	x26, x25, [x29, #-144]
.LBB96_155:
	ldp	q0, q1, [x29, #-80]
	add	x8, x26, x25, lsl #5
	add	x25, x25, #1
	subs	x23, x23, #1
	add	x21, x21, #2, lsl #12
	stp	q0, q1, [x8]
	stur	x25, [x29, #-136]
	b.eq	.LBB96_158
.LBB96_156:
	sub	x0, x29, #80
	mov	x1, x21
	mov	w2, #256
	bl	"ct_tree::reference::root::<#0f46d2847b2ce1ce>"
	ldur	x8, [x29, #-128]
	cmp	x8, x25
	b.ne	.LBB96_155
	sub	x0, x29, #144
	mov	w1, #1
	bl	"std_alloc::vec::Vec::grow_amortized::<#c3a63ae5e00ff772>"
	cbnz	w0, .LBB96_154
	b	.LBB96_177
.LBB96_158:
	ldur	x23, [x29, #-128]
	b	.LBB96_160
.LBB96_159:
	mov	x23, xzr
	mov	x25, xzr
	sub	x26, x29, #24
.LBB96_160:
	cbz	x28, .LBB96_162
	mov	x0, x24
	bl	rattle_dealloc
.LBB96_162:
	ldr	x8, [sp, #120]
	sub	x24, x29, #24
	stur	x24, [x29, #-80]
	ands	x28, x8, #0xff
	sub	x8, x29, #80
	stp	xzr, xzr, [x8, #8]
	b.ne	.LBB96_171
	str	xzr, [sp, #80]
	mov	x21, xzr
.LBB96_164:
	ldr	x8, [sp, #136]
	add	x0, x24, x21, lsl #5
	lsl	x2, x28, #5
	add	x1, x8, x27, lsl #13
	sub	x8, x0, x1
	cmp	x8, x2
	b.hs	.LBB96_167
	mov	x8, x28
.LBB96_166:
	ldp	q1, q0, [x1], #32
	subs	x8, x8, #1
	stp	q1, q0, [x0], #32
	b.ne	.LBB96_166
	b	.LBB96_168
.LBB96_167:
	bl	memmove
.LBB96_168:
	ldp	x9, x8, [x29, #-40]
	cmp	x8, x9
	str	x9, [sp, #96]
	b.eq	.LBB96_173
.LBB96_169:
	ldr	x11, [sp, #96]
	mov	w8, #24
	ldur	x9, [x29, #-48]
	ldp	x12, x10, [x29, #-168]
	madd	x8, x11, x8, x9
	str	x9, [sp, #56]
	add	x9, x21, x28
	cmp	x10, x12
	ldr	x10, [sp, #80]
	stp	x24, x9, [x8]
	add	x9, x11, #1
	str	x10, [x8, #16]
	add	x8, x11, #1
	stp	x8, x12, [sp, #80]
	stur	x9, [x29, #-40]
	b.eq	.LBB96_175
.LBB96_170:
	ldp	x9, x10, [sp, #112]
	mov	x28, x23
	ldur	x8, [x29, #-176]
	ldr	x11, [sp, #88]
	mov	x24, x26
	lsr	x9, x9, #8
	str	x8, [sp, #48]
	add	x8, x8, x11, lsl #5
	add	x21, x11, #1
	str	x9, [sp, #112]
	str	x9, [x8]
	ldr	x9, [sp, #136]
	stp	x9, x10, [x8, #8]
	ldr	x9, [sp, #128]
	add	x10, x11, #1
	stur	x10, [x29, #-168]
	add	x9, x9, #1
	str	x9, [sp, #128]
	cmp	x9, #8
	ldr	x9, [sp, #104]
	str	x9, [x8, #24]
	b.ne	.LBB96_150
	b	.LBB96_209
.LBB96_171:
	sub	x0, x29, #80
	mov	x1, x28
	bl	"std_alloc::vec::Vec::grow_amortized::<#c3a63ae5e00ff772>"
	cbz	w0, .LBB96_375
	ldp	x21, x8, [x29, #-72]
	ldur	x24, [x29, #-80]
	str	x8, [sp, #80]
	b	.LBB96_164
.LBB96_173:
	sub	x0, x29, #48
	bl	"std_alloc::vec::Vec::grow_amortized::<#079cd3d278556d52>"
	cbz	w0, .LBB96_393
	ldur	x8, [x29, #-40]
	str	x8, [sp, #96]
	b	.LBB96_169
.LBB96_175:
	sub	x0, x29, #176
	bl	"std_alloc::vec::Vec::grow_amortized::<#2052286ac88eaa2f>"
	cbz	w0, .LBB96_411
	ldur	x8, [x29, #-168]
	str	x8, [sp, #88]
	b	.LBB96_170
.LBB96_177:
	ldur	x8, [x29, #-128]
	cbz	x8, .LBB96_179
	ldur	x0, [x29, #-144]
	bl	rattle_dealloc
.LBB96_179:
	ldr	x8, [sp, #104]
	cbz	x8, .LBB96_181
	ldr	x0, [sp, #136]
	bl	rattle_dealloc
.LBB96_181:
	cbz	x28, .LBB96_183
	mov	x0, x24
	bl	rattle_dealloc
.LBB96_183:
	ldp	x21, x23, [x29, #-48]
	ldur	x24, [x29, #-32]
	cbz	x23, .LBB96_188
	add	x25, x21, #16
	b	.LBB96_186
.LBB96_185:
	subs	x23, x23, #1
	add	x25, x25, #24
	b.eq	.LBB96_188
.LBB96_186:
	ldr	x8, [x25]
	cbz	x8, .LBB96_185
	ldur	x0, [x25, #-16]
	bl	rattle_dealloc
	b	.LBB96_185
.LBB96_188:
	cbz	x24, .LBB96_190
	mov	x0, x21
	bl	rattle_dealloc
.LBB96_190:
	ldp	x21, x23, [x29, #-176]
	ldur	x24, [x29, #-160]
	cbz	x23, .LBB96_427
	add	x25, x21, #24
	b	.LBB96_193
.LBB96_192:
	subs	x23, x23, #1
	add	x25, x25, #32
	b.eq	.LBB96_427
.LBB96_193:
	ldr	x8, [x25]
	cbz	x8, .LBB96_192
	ldur	x0, [x25, #-16]
	bl	rattle_dealloc
	b	.LBB96_192
.LBB96_195:
	cbz	x28, .LBB96_197
	mov	x0, x24
	bl	rattle_dealloc
.LBB96_197:
	ldp	x21, x23, [x29, #-48]
	ldur	x24, [x29, #-32]
	cbz	x23, .LBB96_202
	add	x25, x21, #16
	b	.LBB96_200
.LBB96_199:
	subs	x23, x23, #1
	add	x25, x25, #24
	b.eq	.LBB96_202
.LBB96_200:
	ldr	x8, [x25]
	cbz	x8, .LBB96_199
	ldur	x0, [x25, #-16]
	bl	rattle_dealloc
	b	.LBB96_199
.LBB96_202:
	cbz	x24, .LBB96_204
	mov	x0, x21
	bl	rattle_dealloc
.LBB96_204:
	ldp	x21, x23, [x29, #-176]
	ldur	x24, [x29, #-160]
	cbz	x23, .LBB96_427
	add	x25, x21, #24
	b	.LBB96_207
.LBB96_206:
	subs	x23, x23, #1
	add	x25, x25, #32
	b.eq	.LBB96_427
.LBB96_207:
	ldr	x8, [x25]
	cbz	x8, .LBB96_206
	ldur	x0, [x25, #-16]
	bl	rattle_dealloc
	b	.LBB96_206
.LBB96_209:
	ldur	x8, [x29, #-160]
	str	x8, [sp, #112]
	ldur	x8, [x29, #-32]
	str	x8, [sp, #120]
	cbz	x23, .LBB96_211
	mov	x0, x26
	bl	rattle_dealloc
.LBB96_211:
	movi	v0.2d, #0000000000000000
	ldr	x8, [sp, #64]
	ldr	x9, [sp, #24]
	mov	x23, xzr
	mov	x25, xzr
	mov	x26, xzr
	add	x8, x9, x8
	sub	x24, x29, #24
	str	x8, [sp, #104]
	stp	q0, q0, [x29, #-176]
	stp	q0, q0, [x29, #-144]
	stp	q0, q0, [x29, #-112]
	b	.LBB96_213
.LBB96_212:
	add	x23, x23, #24
	mov	x25, x28
	mov	x24, x27
	cmp	x23, #192
	b.eq	.LBB96_244
.LBB96_213:
	ldr	x8, [sp, #56]
	sub	x0, x29, #144
	mov	x3, x24
	mov	x4, x26
	add	x8, x8, x23
	ldp	x1, x2, [x8]
	bl	"ct_tiles::row::joined"
	ldurb	w8, [x29, #-144]
	cbnz	w8, .LBB96_221
	ldp	x8, x2, [x29, #-136]
	movi	v0.2d, #0000000000000000
	sub	x27, x29, #24
	stur	x27, [x29, #-48]
	str	x8, [sp, #128]
	ldur	x8, [x29, #-120]
	stp	q0, q0, [x29, #-80]
	str	x8, [sp, #136]
	sub	x8, x29, #48
	stp	xzr, xzr, [x8, #8]
	cbnz	x2, .LBB96_219
	mov	x28, xzr
	mov	x26, xzr
	cbz	x25, .LBB96_217
.LBB96_216:
	mov	x0, x24
	bl	rattle_dealloc
.LBB96_217:
	ldr	x8, [sp, #136]
	cbz	x8, .LBB96_212
	ldr	x0, [sp, #128]
	bl	rattle_dealloc
	b	.LBB96_212
.LBB96_219:
	ldr	x1, [sp, #128]
	sub	x0, x29, #80
	bl	"ct_tree::reference::root::<#0f46d2847b2ce1ce>"
	sub	x0, x29, #48
	mov	w1, #1
	bl	"std_alloc::vec::Vec::grow_amortized::<#c3a63ae5e00ff772>"
	ldur	x28, [x29, #-32]
	cbz	w0, .LBB96_546
	ldp	x27, x8, [x29, #-48]
	ldur	q0, [x29, #-80]
	add	x9, x27, x8, lsl #5
	add	x26, x8, #1
	str	q0, [x9]
	ldur	q0, [x29, #-64]
	str	q0, [x9, #16]
	cbnz	x25, .LBB96_216
	b	.LBB96_217
.LBB96_221:
	movi	v0.2d, #0000000000000000
	stp	q0, q0, [x29, #-112]
	cbz	x25, .LBB96_223
.LBB96_222:
	mov	x0, x24
	bl	rattle_dealloc
.LBB96_223:
	ldp	q0, q1, [x29, #-112]
	stp	q0, q1, [x29, #-240]
	movi	v0.2d, #0000000000000000
	stp	q0, q0, [x29, #-208]
	cbz	x21, .LBB96_228
	ldr	x8, [sp, #88]
	add	x21, x8, #1
	ldr	x8, [sp, #48]
	add	x23, x8, #24
	b	.LBB96_226
.LBB96_225:
	subs	x21, x21, #1
	add	x23, x23, #32
	b.eq	.LBB96_228
.LBB96_226:
	ldr	x8, [x23]
	cbz	x8, .LBB96_225
	ldur	x0, [x23, #-16]
	bl	rattle_dealloc
	b	.LBB96_225
.LBB96_228:
	ldr	x8, [sp, #112]
	cbz	x8, .LBB96_230
	ldr	x0, [sp, #48]
	bl	rattle_dealloc
.LBB96_230:
	ldr	x8, [sp, #96]
	add	x8, x8, #1
	cbz	x8, .LBB96_235
	ldr	x8, [sp, #96]
	add	x21, x8, #1
	ldr	x8, [sp, #56]
	add	x23, x8, #16
	b	.LBB96_233
.LBB96_232:
	subs	x21, x21, #1
	add	x23, x23, #24
	b.eq	.LBB96_235
.LBB96_233:
	ldr	x8, [x23]
	cbz	x8, .LBB96_232
	ldur	x0, [x23, #-16]
	bl	rattle_dealloc
	b	.LBB96_232
.LBB96_235:
	ldr	x8, [sp, #120]
	cbz	x8, .LBB96_237
	ldr	x0, [sp, #56]
	bl	rattle_dealloc
.LBB96_237:
	ldr	w8, [sp, #12]
	tbnz	w8, #0, .LBB96_239
	ldr	x0, [sp, #72]
	bl	rattle_dealloc
.LBB96_239:
	ldr	x8, [sp, #144]
	cbz	x8, .LBB96_433
	ldr	x8, [sp, #32]
	add	x21, x8, #32
	b	.LBB96_242
.LBB96_241:
	ldr	x8, [sp, #144]
	add	x21, x21, #40
	subs	x8, x8, #1
	str	x8, [sp, #144]
	b.eq	.LBB96_433
.LBB96_242:
	ldr	x8, [x21]
	cbz	x8, .LBB96_241
	ldur	x0, [x21, #-16]
	bl	rattle_dealloc
	b	.LBB96_241
.LBB96_244:
	sub	x0, x29, #176
	mov	x1, x27
	mov	x2, x26
	bl	"ct_tree::reference::root::<#0f46d2847b2ce1ce>"
	cbz	x28, .LBB96_246
	mov	x0, x27
	bl	rattle_dealloc
.LBB96_246:
	ldr	x8, [sp, #64]
	ldr	x9, [sp, #40]
	ldp	q0, q1, [x29, #-176]
	add	x23, x9, x8
	ldr	w8, [sp, #12]
	stp	q0, q1, [x29, #-240]
	stp	q0, q1, [x29, #-208]
	tbnz	w8, #0, .LBB96_248
	ldr	x0, [sp, #72]
	bl	rattle_dealloc
.LBB96_248:
	ldr	x8, [sp, #64]
	ldp	q0, q1, [x29, #-208]
	str	x21, [sp, #1064]
	str	x8, [sp, #1024]
	ldr	x8, [sp, #32]
	stp	q0, q1, [sp, #848]
	str	x8, [sp, #1032]
	ldr	x8, [sp, #144]
	str	x23, [sp, #1080]
	str	x8, [sp, #1040]
	ldr	x8, [sp, #16]
	stp	xzr, xzr, [x29, #-104]
	str	x8, [sp, #1048]
	ldr	x8, [sp, #48]
	str	x8, [sp, #1056]
	ldp	x9, x8, [sp, #104]
	str	x8, [sp, #1072]
	add	x8, sp, #1024
	stur	q1, [x8, #88]
	stur	q0, [x8, #72]
	ldr	x8, [sp, #160]
	str	x9, [sp, #1128]
	ldr	x9, [sp, #56]
	str	x8, [sp, #1088]
	str	x8, [sp, #1160]
	ldr	x8, [sp, #152]
	str	x9, [sp, #1136]
	ldr	x9, [sp, #80]
	ldr	x10, [x8, #8]
	ldr	x8, [sp, #184]
	str	x9, [sp, #1144]
	ldr	x9, [sp, #120]
	ldr	x8, [x8]
	str	x10, [sp, #80]
	str	x9, [sp, #1152]
	sub	x9, x29, #24
	str	x8, [sp, #112]
	sub	x8, x29, #24
	str	x8, [sp, #144]
	stur	x9, [x29, #-112]
	cbz	x10, .LBB96_350
	ldr	x8, [sp, #160]
	mov	x27, xzr
	rev	x8, x8
	str	x8, [sp, #72]
.LBB96_250:
	ldr	x9, [sp, #152]
	mov	w8, #88
	mov	x11, #5497558138880
	ldr	x10, [x9]
	madd	x8, x27, x8, x10
	ldr	x9, [x9, #24]
	mov	w10, #24
	madd	x9, x27, x10, x9
	ldr	x10, [sp, #112]
	add	x10, x27, x10
	bfxil	x11, x10, #0, #40
	ldrb	w23, [x8]
	ldp	x10, x9, [x9]
	stp	x9, x10, [sp, #96]
	rev	x9, x11
	stur	x9, [x29, #-208]
	cbnz	w23, .LBB96_252
	ldr	x8, [x8, #64]
	add	x9, sp, #1312
	mov	x21, xzr
	mov	x28, xzr
	stur	wzr, [x29, #-240]
	ldp	x8, x26, [x8]
	stur	wzr, [x9, #67]
	stp	xzr, xzr, [x29, #-144]
	stp	x8, xzr, [sp, #128]
	adrp	x8, .Lstatic.2
	add	x8, x8, :lo12:.Lstatic.2
	str	x8, [sp, #120]
	b	.LBB96_253
.LBB96_252:
	ldr	x9, [x8, #64]
	ldur	w10, [x8, #1]
	ldr	w11, [x8, #4]
	ldp	x21, x28, [x8, #40]
	ldp	x12, x9, [x9]
	stur	w10, [x29, #-240]
	ldr	x10, [x8, #8]
	str	x9, [sp, #136]
	ldp	x26, x9, [x8, #16]
	stp	x12, x10, [sp, #120]
	add	x10, sp, #1312
	stur	w11, [x10, #67]
	ldrb	w10, [x8, #32]
	stur	x9, [x29, #-144]
	sturb	w10, [x29, #-136]
.LBB96_253:
	ldur	w8, [x29, #-240]
	add	x9, sp, #1312
	ldur	x10, [x29, #-144]
	ldur	w9, [x9, #67]
	sub	x0, x29, #80
	mov	w1, #8
	stur	w8, [x29, #-48]
	ldurb	w8, [x29, #-136]
	stur	w9, [x29, #-45]
	sub	x9, x29, #24
	sturb	w8, [x29, #-168]
	sub	x8, x29, #80
	stur	x10, [x29, #-176]
	stur	x9, [x29, #-80]
	stp	xzr, xzr, [x8, #8]
	bl	"std_alloc::vec::Vec::grow_amortized::<#573e96821fb25c99>"
	cbz	w0, .LBB96_368
	ldp	x25, x9, [x29, #-80]
	ldur	x24, [x29, #-64]
	ldr	x10, [sp, #72]
	add	x8, x9, #8
	str	x10, [x25, x9]
	stur	x8, [x29, #-72]
	cbz	w23, .LBB96_265
	ldur	x9, [x29, #-176]
	ldurb	w10, [x29, #-168]
	sub	x11, x24, x8
	cmp	x11, #1
	stur	x9, [x29, #-144]
	sturb	w10, [x29, #-136]
	b.ls	.LBB96_286
.LBB96_256:
	add	x9, x8, #2
	mov	w10, #256
	strh	w10, [x25, x8]
	sub	x8, x24, x9
	stp	x25, x9, [x29, #-80]
	cmp	x8, #31
	stur	x24, [x29, #-64]
	b.ls	.LBB96_288
.LBB96_257:
	ldurb	w8, [x29, #-42]
	add	x10, x25, x9
	ldurh	w11, [x29, #-44]
	ldur	w12, [x29, #-48]
	stur	x26, [x10, #15]
	strb	w8, [x10, #6]
	ldr	x8, [sp, #128]
	strh	w11, [x10, #4]
	str	w12, [x10]
	stur	x8, [x10, #7]
	ldurb	w8, [x29, #-136]
	ldur	x11, [x29, #-144]
	strb	w8, [x10, #31]
	add	x8, x9, #32
	sub	x9, x24, x8
	stur	x11, [x10, #23]
	cmp	x9, #2
	stp	x25, x8, [x29, #-80]
	stur	x24, [x29, #-64]
	b.ls	.LBB96_290
.LBB96_258:
	rev	w9, w28
	add	x11, x25, x8
	add	x8, x8, #3
	lsr	w10, w9, #24
	lsr	w9, w9, #8
	strh	w9, [x11]
	sub	x9, x24, x8
	cmp	x28, x9
	strb	w10, [x11, #2]
	stp	x25, x8, [x29, #-80]
	stur	x24, [x29, #-64]
	b.hi	.LBB96_292
	add	x0, x25, x8
	sub	x9, x0, x21
	cmp	x9, x28
	add	x9, x8, x28
	str	x9, [sp, #88]
	b.hs	.LBB96_294
.LBB96_260:
	cmp	x28, #8
	b.lo	.LBB96_262
	add	x9, x8, x25
	sub	x9, x9, x21
	cmp	x9, #32
	b.hs	.LBB96_275
.LBB96_262:
	mov	x9, xzr
.LBB96_263:
	sub	x10, x28, x9
	add	x11, x21, x9
	add	x8, x9, x8
.LBB96_264:
	ldrb	w9, [x11], #1
	subs	x10, x10, #1
	strb	w9, [x25, x8]
	add	x8, x8, #1
	b.ne	.LBB96_264
	b	.LBB96_296
.LBB96_265:
	sub	x9, x24, x8
	cmp	x9, #1
	b.ls	.LBB96_333
.LBB96_266:
	add	x9, x8, #2
	strh	wzr, [x25, x8]
	sub	x8, x24, x9
	stp	x25, x9, [x29, #-80]
	cmp	x8, #2
	stur	x24, [x29, #-64]
	b.ls	.LBB96_335
.LBB96_267:
	rev	w8, w26
	add	x11, x25, x9
	lsr	w10, w8, #24
	lsr	w12, w8, #8
	add	x8, x9, #3
	sub	x9, x24, x8
	cmp	x26, x9
	strb	w10, [x11, #2]
	strh	w12, [x11]
	stp	x25, x8, [x29, #-80]
	stur	x24, [x29, #-64]
	b.hi	.LBB96_337
.LBB96_268:
	ldr	x9, [sp, #128]
	add	x0, x25, x8
	sub	x9, x0, x9
	cmp	x9, x26
	add	x9, x8, x26
	str	x9, [sp, #88]
	b.hs	.LBB96_274
	cmp	x26, #8
	b.lo	.LBB96_271
	ldr	x10, [sp, #128]
	add	x9, x8, x25
	sub	x9, x9, x10
	cmp	x9, #32
	b.hs	.LBB96_277
.LBB96_271:
	mov	x9, xzr
.LBB96_272:
	ldr	x11, [sp, #128]
	sub	x10, x26, x9
	add	x8, x9, x8
	add	x11, x11, x9
.LBB96_273:
	ldrb	w9, [x11], #1
	subs	x10, x10, #1
	strb	w9, [x25, x8]
	add	x8, x8, #1
	b.ne	.LBB96_273
	b	.LBB96_296
.LBB96_274:
	ldr	x1, [sp, #128]
	mov	x2, x26
	b	.LBB96_295
.LBB96_275:
	cmp	x28, #32
	b.hs	.LBB96_279
	mov	x9, xzr
	b	.LBB96_283
.LBB96_277:
	cmp	x26, #32
	b.hs	.LBB96_326
	mov	x9, xzr
	b	.LBB96_330
.LBB96_279:
	add	x12, x25, x8
	and	x10, x28, #0x18
	and	x9, x28, #0xffffffffffffffe0
	add	x11, x21, #16
	add	x12, x12, #16
	and	x13, x28, #0xffffffffffffffe0
.LBB96_280:
	ldp	q0, q1, [x11, #-16]
	subs	x13, x13, #32
	add	x11, x11, #32
	stp	q0, q1, [x12, #-16]
	add	x12, x12, #32
	b.ne	.LBB96_280
	cmp	x28, x9
	b.eq	.LBB96_296
	cbz	x10, .LBB96_263
.LBB96_283:
	mov	x12, x9
	and	x9, x28, #0xfffffffffffffff8
	sub	x10, x12, x9
	add	x11, x21, x12
	add	x12, x8, x12
.LBB96_284:
	ldr	d0, [x11], #8
	adds	x10, x10, #8
	str	d0, [x25, x12]
	add	x12, x12, #8
	b.ne	.LBB96_284
	cmp	x28, x9
	b.eq	.LBB96_296
	b	.LBB96_263
.LBB96_286:
	sub	x0, x29, #80
	mov	w1, #2
	bl	"std_alloc::vec::Vec::grow_amortized::<#573e96821fb25c99>"
	cbz	w0, .LBB96_368
	ldp	x8, x24, [x29, #-72]
	ldur	x25, [x29, #-80]
	b	.LBB96_256
.LBB96_288:
	sub	x0, x29, #80
	mov	w1, #32
	bl	"std_alloc::vec::Vec::grow_amortized::<#573e96821fb25c99>"
	cbz	w0, .LBB96_368
	ldp	x9, x24, [x29, #-72]
	ldur	x25, [x29, #-80]
	b	.LBB96_257
.LBB96_290:
	sub	x0, x29, #80
	mov	w1, #3
	bl	"std_alloc::vec::Vec::grow_amortized::<#573e96821fb25c99>"
	cbz	w0, .LBB96_368
	ldp	x8, x24, [x29, #-72]
	ldur	x25, [x29, #-80]
	b	.LBB96_258
.LBB96_292:
	sub	x0, x29, #80
	mov	x1, x28
	bl	"std_alloc::vec::Vec::grow_amortized::<#573e96821fb25c99>"
	cbz	w0, .LBB96_368
	ldp	x8, x24, [x29, #-72]
	ldur	x25, [x29, #-80]
	add	x0, x25, x8
	sub	x9, x0, x21
	cmp	x9, x28
	add	x9, x8, x28
	str	x9, [sp, #88]
	b.lo	.LBB96_260
.LBB96_294:
	mov	x1, x21
	mov	x2, x28
.LBB96_295:
	bl	memmove
.LBB96_296:
	ldr	x8, [sp, #88]
	sub	x0, x29, #80
	sub	x1, x29, #208
	mov	w2, #8
	stur	x24, [x29, #-64]
	stp	x25, x8, [x29, #-80]
	bl	"ct_data_tiles::writing::push_vector_2::<#fe12c7543020194e>"
	tst	w0, #0xff
	b.ne	.LBB96_368
	cbz	w23, .LBB96_321
	ldp	x8, x21, [x29, #-72]
	sub	x9, x21, x8
	cmp	x9, #2
	b.ls	.LBB96_315
.LBB96_299:
	ldr	x12, [sp, #136]
	ldur	x23, [x29, #-80]
	add	x24, x8, #3
	rev	w9, w12
	add	x11, x23, x8
	sub	x8, x21, x24
	lsr	w10, w9, #24
	lsr	w9, w9, #8
	cmp	x12, x8
	strb	w10, [x11, #2]
	strh	w9, [x11]
	stp	x24, x21, [x29, #-72]
	b.hi	.LBB96_317
	ldr	x9, [sp, #120]
	add	x8, x23, x24
	sub	x8, x8, x9
	ldr	x9, [sp, #136]
	cmp	x8, x9
	b.hs	.LBB96_319
.LBB96_301:
	ldr	x8, [sp, #136]
	cmp	x8, #8
	b.lo	.LBB96_303
	ldr	x9, [sp, #120]
	add	x8, x24, x23
	sub	x8, x8, x9
	cmp	x8, #32
	b.hs	.LBB96_306
.LBB96_303:
	mov	x8, xzr
.LBB96_304:
	ldr	x9, [sp, #136]
	ldr	x11, [sp, #120]
	add	x10, x8, x24
	add	x10, x23, x10
	sub	x9, x9, x8
	add	x8, x11, x8
.LBB96_305:
	ldrb	w11, [x8], #1
	subs	x9, x9, #1
	strb	w11, [x10], #1
	b.ne	.LBB96_305
	b	.LBB96_320
.LBB96_306:
	ldr	x8, [sp, #136]
	cmp	x8, #32
	b.hs	.LBB96_308
	mov	x8, xzr
	b	.LBB96_312
.LBB96_308:
	ldr	x12, [sp, #136]
	ldr	x10, [sp, #120]
	add	x11, x23, x24
	add	x11, x11, #16
	and	x9, x12, #0x18
	and	x8, x12, #0xffffffffffffffe0
	add	x10, x10, #16
	and	x12, x12, #0xffffffffffffffe0
.LBB96_309:
	ldp	q0, q1, [x10, #-16]
	subs	x12, x12, #32
	add	x10, x10, #32
	stp	q0, q1, [x11, #-16]
	add	x11, x11, #32
	b.ne	.LBB96_309
	ldr	x10, [sp, #136]
	cmp	x10, x8
	b.eq	.LBB96_320
	cbz	x9, .LBB96_304
.LBB96_312:
	mov	x10, x8
	ldr	x8, [sp, #136]
	ldr	x12, [sp, #120]
	add	x11, x24, x10
	and	x8, x8, #0xfffffffffffffff8
	add	x11, x23, x11
	sub	x9, x10, x8
	add	x10, x12, x10
.LBB96_313:
	ldr	d0, [x10], #8
	adds	x9, x9, #8
	str	d0, [x11], #8
	b.ne	.LBB96_313
	ldr	x9, [sp, #136]
	cmp	x9, x8
	b.eq	.LBB96_320
	b	.LBB96_304
.LBB96_315:
	sub	x0, x29, #80
	mov	w1, #3
	bl	"std_alloc::vec::Vec::grow_amortized::<#573e96821fb25c99>"
	cbz	w0, .LBB96_368
	ldp	x8, x21, [x29, #-72]
	b	.LBB96_299
.LBB96_317:
	ldr	x1, [sp, #136]
	sub	x0, x29, #80
	bl	"std_alloc::vec::Vec::grow_amortized::<#573e96821fb25c99>"
	cbz	w0, .LBB96_368
	ldp	x24, x21, [x29, #-72]
	ldur	x23, [x29, #-80]
	ldr	x9, [sp, #120]
	add	x8, x23, x24
	sub	x8, x8, x9
	ldr	x9, [sp, #136]
	cmp	x8, x9
	b.lo	.LBB96_301
.LBB96_319:
	ldr	x1, [sp, #120]
	ldr	x2, [sp, #136]
	add	x0, x23, x24
	bl	memmove
.LBB96_320:
	ldr	x8, [sp, #136]
	stur	x21, [x29, #-64]
	add	x8, x24, x8
	stp	x23, x8, [x29, #-80]
.LBB96_321:
	ldp	x8, x1, [sp, #96]
	sub	x0, x29, #80
	lsl	x2, x8, #5
	bl	"ct_data_tiles::writing::push_vector_2::<#fe12c7543020194e>"
	tst	w0, #0xff
	b.ne	.LBB96_368
	ldp	x8, x9, [x29, #-104]
	ldur	x23, [x29, #-64]
	ldp	x21, x24, [x29, #-80]
	cmp	x9, x8
	b.eq	.LBB96_324
.LBB96_323:
	mov	w9, #24
	ldur	x10, [x29, #-112]
	add	x27, x27, #1
	madd	x9, x8, x9, x10
	str	x10, [sp, #136]
	stp	x21, x24, [x9]
	add	x24, x8, #1
	ldr	x8, [sp, #80]
	str	x23, [x9, #16]
	cmp	x27, x8
	stur	x24, [x29, #-104]
	b.ne	.LBB96_250
	b	.LBB96_349
.LBB96_324:
	sub	x0, x29, #112
	bl	"std_alloc::vec::Vec::grow_amortized::<#c2ea2623f4a99793>"
	cbz	w0, .LBB96_715
	ldur	x8, [x29, #-104]
	b	.LBB96_323
.LBB96_326:
	ldr	x11, [sp, #128]
	add	x12, x25, x8
	and	x10, x26, #0x18
	and	x9, x26, #0xffffffffffffffe0
	add	x12, x12, #16
	and	x13, x26, #0xffffffffffffffe0
	add	x11, x11, #16
.LBB96_327:
	ldp	q0, q1, [x11, #-16]
	subs	x13, x13, #32
	add	x11, x11, #32
	stp	q0, q1, [x12, #-16]
	add	x12, x12, #32
	b.ne	.LBB96_327
	cmp	x26, x9
	b.eq	.LBB96_296
	cbz	x10, .LBB96_272
.LBB96_330:
	ldr	x11, [sp, #128]
	mov	x12, x9
	and	x9, x26, #0xfffffffffffffff8
	sub	x10, x12, x9
	add	x11, x11, x12
	add	x12, x8, x12
.LBB96_331:
	ldr	d0, [x11], #8
	adds	x10, x10, #8
	str	d0, [x25, x12]
	add	x12, x12, #8
	b.ne	.LBB96_331
	cmp	x26, x9
	b.eq	.LBB96_296
	b	.LBB96_272
.LBB96_333:
	sub	x0, x29, #80
	mov	w1, #2
	bl	"std_alloc::vec::Vec::grow_amortized::<#573e96821fb25c99>"
	cbz	w0, .LBB96_368
	ldp	x8, x24, [x29, #-72]
	ldur	x25, [x29, #-80]
	b	.LBB96_266
.LBB96_335:
	sub	x0, x29, #80
	mov	w1, #3
	bl	"std_alloc::vec::Vec::grow_amortized::<#573e96821fb25c99>"
	cbz	w0, .LBB96_368
	ldp	x9, x24, [x29, #-72]
	ldur	x25, [x29, #-80]
	b	.LBB96_267
.LBB96_337:
	sub	x0, x29, #80
	mov	x1, x26
	bl	"std_alloc::vec::Vec::grow_amortized::<#573e96821fb25c99>"
	cbz	w0, .LBB96_368
	ldp	x8, x24, [x29, #-72]
	ldur	x25, [x29, #-80]
	b	.LBB96_268
.LBB96_339:
	ldr	x1, [sp, #24]
	sub	x0, x29, #80
	bl	"std_alloc::vec::Vec::grow_amortized::<#c3a63ae5e00ff772>"
	cbz	w0, .LBB96_359
	ldp	x24, x9, [x29, #-80]
	ldr	x12, [sp, #24]
	ldr	x11, [sp, #72]
	ldur	x28, [x29, #-64]
	lsl	x2, x12, #5
	lsl	x8, x9, #5
	add	x25, x9, x12
	mov	x9, x11
	add	x0, x24, x8
	sub	x10, x0, x11
	cmp	x10, x2
	mov	x10, x12
	b.hs	.LBB96_148
.LBB96_341:
	ldp	q1, q0, [x9], #32
	add	x11, x24, x8
	subs	x10, x10, #1
	add	x8, x8, #32
	stp	q1, q0, [x11]
	b.ne	.LBB96_341
	b	.LBB96_149
.LBB96_342:
	ldurb	w21, [x29, #-79]
	ldur	x23, [x29, #-96]
	ldr	x8, [sp, #144]
	cbz	x8, .LBB96_347
	ldr	x8, [sp, #136]
	add	x24, x8, #32
	b	.LBB96_345
.LBB96_344:
	ldr	x8, [sp, #144]
	add	x24, x24, #40
	subs	x8, x8, #1
	str	x8, [sp, #144]
	b.eq	.LBB96_347
.LBB96_345:
	ldr	x8, [x24]
	cbz	x8, .LBB96_344
	ldur	x0, [x24, #-16]
	bl	rattle_dealloc
	b	.LBB96_344
.LBB96_347:
	cbz	x23, .LBB96_437
	ldr	x0, [sp, #136]
	bl	rattle_dealloc
	b	.LBB96_437
.LBB96_349:
	ldur	x8, [x29, #-96]
	str	x8, [sp, #120]
	b	.LBB96_351
.LBB96_350:
	str	xzr, [sp, #120]
	mov	x24, xzr
	str	x8, [sp, #136]
.LBB96_351:
	sub	x8, x29, #24
	stp	xzr, xzr, [x29, #-72]
	stur	x8, [x29, #-80]
	ldr	x8, [sp, #176]
	cbz	x8, .LBB96_354
	ldr	x8, [sp, #176]
	tbnz	x8, #63, .LBB96_681
	ldr	x0, [sp, #176]
	mov	w1, #1
	bl	rattle_alloc
	str	x1, [sp, #144]
	tbz	w0, #0, .LBB96_681
.LBB96_354:
	ldr	x8, [sp, #168]
	ldr	x9, [sp, #144]
	sub	x9, x9, x8
	ldr	x8, [sp, #176]
	cmp	x9, x8
	b.hs	.LBB96_361
	ldr	x8, [sp, #176]
	cmp	x8, #8
	mov	x8, xzr
	b.lo	.LBB96_470
	cmp	x9, #32
	b.lo	.LBB96_470
	ldr	x8, [sp, #176]
	cmp	x8, #32
	b.hs	.LBB96_463
	mov	x8, xzr
	b	.LBB96_467
.LBB96_359:
	ldur	x8, [x29, #-64]
	cbz	x8, .LBB96_430
	ldur	x0, [x29, #-80]
	b	.LBB96_429
.LBB96_361:
	ldp	x1, x2, [sp, #168]
	ldr	x0, [sp, #144]
	bl	memmove
	b	.LBB96_472
.LBB96_362:
	ldur	x8, [x29, #-160]
	cbz	x8, .LBB96_364
	ldur	x0, [x29, #-176]
	bl	rattle_dealloc
.LBB96_364:
	ldr	x8, [sp, #32]
	add	x21, x23, #1
	add	x23, x8, #32
	b	.LBB96_366
.LBB96_365:
	subs	x21, x21, #1
	add	x23, x23, #40
	b.eq	.LBB96_433
.LBB96_366:
	ldr	x8, [x23]
	cbz	x8, .LBB96_365
	ldur	x0, [x23, #-16]
	bl	rattle_dealloc
	b	.LBB96_365
.LBB96_368:
	ldur	x8, [x29, #-64]
	cbz	x8, .LBB96_370
	ldur	x0, [x29, #-80]
	bl	rattle_dealloc
.LBB96_370:
	ldp	x21, x23, [x29, #-112]
	ldur	x24, [x29, #-96]
	cbz	x23, .LBB96_722
	add	x25, x21, #16
	b	.LBB96_373
.LBB96_372:
	subs	x23, x23, #1
	add	x25, x25, #24
	b.eq	.LBB96_722
.LBB96_373:
	ldr	x8, [x25]
	cbz	x8, .LBB96_372
	ldur	x0, [x25, #-16]
	bl	rattle_dealloc
	b	.LBB96_372
.LBB96_375:
	ldur	x8, [x29, #-64]
	cbz	x8, .LBB96_377
	ldur	x0, [x29, #-80]
	bl	rattle_dealloc
.LBB96_377:
	ldr	x8, [sp, #104]
	cbz	x8, .LBB96_379
	ldr	x0, [sp, #136]
	bl	rattle_dealloc
.LBB96_379:
	cbz	x23, .LBB96_381
	mov	x0, x26
	bl	rattle_dealloc
.LBB96_381:
	ldp	x21, x23, [x29, #-48]
	ldur	x24, [x29, #-32]
	cbz	x23, .LBB96_386
	add	x25, x21, #16
	b	.LBB96_384
.LBB96_383:
	subs	x23, x23, #1
	add	x25, x25, #24
	b.eq	.LBB96_386
.LBB96_384:
	ldr	x8, [x25]
	cbz	x8, .LBB96_383
	ldur	x0, [x25, #-16]
	bl	rattle_dealloc
	b	.LBB96_383
.LBB96_386:
	cbz	x24, .LBB96_388
	mov	x0, x21
	bl	rattle_dealloc
.LBB96_388:
	ldp	x21, x23, [x29, #-176]
	ldur	x24, [x29, #-160]
	cbz	x23, .LBB96_427
	add	x25, x21, #24
	b	.LBB96_391
.LBB96_390:
	subs	x23, x23, #1
	add	x25, x25, #32
	b.eq	.LBB96_427
.LBB96_391:
	ldr	x8, [x25]
	cbz	x8, .LBB96_390
	ldur	x0, [x25, #-16]
	bl	rattle_dealloc
	b	.LBB96_390
.LBB96_393:
	ldr	x8, [sp, #80]
	cbz	x8, .LBB96_395
	mov	x0, x24
	bl	rattle_dealloc
.LBB96_395:
	ldr	x8, [sp, #104]
	cbz	x8, .LBB96_397
	ldr	x0, [sp, #136]
	bl	rattle_dealloc
.LBB96_397:
	cbz	x23, .LBB96_399
	mov	x0, x26
	bl	rattle_dealloc
.LBB96_399:
	ldp	x21, x23, [x29, #-48]
	ldur	x24, [x29, #-32]
	cbz	x23, .LBB96_404
	add	x25, x21, #16
	b	.LBB96_402
.LBB96_401:
	subs	x23, x23, #1
	add	x25, x25, #24
	b.eq	.LBB96_404
.LBB96_402:
	ldr	x8, [x25]
	cbz	x8, .LBB96_401
	ldur	x0, [x25, #-16]
	bl	rattle_dealloc
	b	.LBB96_401
.LBB96_404:
	cbz	x24, .LBB96_406
	mov	x0, x21
	bl	rattle_dealloc
.LBB96_406:
	ldp	x21, x23, [x29, #-176]
	ldur	x24, [x29, #-160]
	cbz	x23, .LBB96_427
	add	x25, x21, #24
	b	.LBB96_409
.LBB96_408:
	subs	x23, x23, #1
	add	x25, x25, #32
	b.eq	.LBB96_427
.LBB96_409:
	ldr	x8, [x25]
	cbz	x8, .LBB96_408
	ldur	x0, [x25, #-16]
	bl	rattle_dealloc
	b	.LBB96_408
.LBB96_411:
	ldr	x8, [sp, #104]
	cbz	x8, .LBB96_413
	ldr	x0, [sp, #136]
	bl	rattle_dealloc
.LBB96_413:
	cbz	x23, .LBB96_415
	mov	x0, x26
	bl	rattle_dealloc
	ldur	x8, [x29, #-48]
	str	x8, [sp, #56]
	ldur	x8, [x29, #-40]
	str	x8, [sp, #80]
.LBB96_415:
	ldur	x21, [x29, #-32]
	ldr	x8, [sp, #80]
	cbz	x8, .LBB96_420
	ldr	x8, [sp, #56]
	add	x23, x8, #16
	b	.LBB96_418
.LBB96_417:
	ldr	x8, [sp, #80]
	add	x23, x23, #24
	subs	x8, x8, #1
	str	x8, [sp, #80]
	b.eq	.LBB96_420
.LBB96_418:
	ldr	x8, [x23]
	cbz	x8, .LBB96_417
	ldur	x0, [x23, #-16]
	bl	rattle_dealloc
	b	.LBB96_417
.LBB96_420:
	cbz	x21, .LBB96_422
	ldr	x0, [sp, #56]
	bl	rattle_dealloc
.LBB96_422:
	ldp	x21, x23, [x29, #-176]
	ldur	x24, [x29, #-160]
	cbz	x23, .LBB96_427
	add	x25, x21, #24
	b	.LBB96_425
.LBB96_424:
	subs	x23, x23, #1
	add	x25, x25, #32
	b.eq	.LBB96_427
.LBB96_425:
	ldr	x8, [x25]
	cbz	x8, .LBB96_424
	ldur	x0, [x25, #-16]
	bl	rattle_dealloc
	b	.LBB96_424
.LBB96_427:
	cbz	x24, .LBB96_430
	mov	x0, x21
.LBB96_429:
	bl	rattle_dealloc
.LBB96_430:
	movi	v0.2d, #0000000000000000
	ldr	w8, [sp, #12]
	stp	q0, q0, [x29, #-208]
	tbnz	w8, #0, .LBB96_432
	ldr	x0, [sp, #72]
	bl	rattle_dealloc
.LBB96_432:
	ldr	w8, [sp, #8]
	tbz	w8, #0, .LBB96_459
.LBB96_433:
	ldr	x8, [sp, #16]
	cbz	x8, .LBB96_436
	ldr	x0, [sp, #32]
.LBB96_435:
	bl	rattle_dealloc
.LBB96_436:
	mov	w21, wzr
.LBB96_437:
	mov	w26, #2
.LBB96_438:
	movi	v0.2d, #0000000000000000
	add	x8, sp, #336
	mov	x27, xzr
	mov	x28, xzr
	mov	x25, xzr
	str	xzr, [sp, #144]
	stp	xzr, xzr, [sp, #168]
	mov	w23, #2
	mov	w24, #1
	stur	q0, [x8, #4]
	stur	q0, [x8, #20]
	stur	q0, [x8, #36]
.LBB96_439:
	stp	q0, q0, [sp, #192]
	stp	q0, q0, [sp, #224]
	stp	q0, q0, [sp, #256]
	stp	q0, q0, [sp, #288]
	str	q0, [sp, #320]
.LBB96_440:
	ldr	x8, [x20, #16]
	cbz	x8, .LBB96_442
	ldr	x0, [x20]
	bl	rattle_dealloc
.LBB96_442:
	ldr	x8, [x20, #40]
	cbz	x8, .LBB96_444
	ldr	x0, [x20, #24]
	bl	rattle_dealloc
.LBB96_444:
	ldr	x8, [x20, #64]
	cbz	x8, .LBB96_446
	ldr	x0, [x20, #48]
	bl	rattle_dealloc
.LBB96_446:
	ldr	x8, [x20, #88]
	cbz	x8, .LBB96_448
	ldr	x0, [x20, #72]
	bl	rattle_dealloc
.LBB96_448:
	ldr	x8, [x20, #112]
	cbz	x8, .LBB96_450
	ldr	x0, [x20, #96]
	bl	rattle_dealloc
.LBB96_450:
	ldr	x8, [x20, #136]
	cbz	x8, .LBB96_452
	ldr	x0, [x20, #120]
	bl	rattle_dealloc
.LBB96_452:
	ldr	x8, [x20, #160]
	cbz	x8, .LBB96_454
	ldr	x0, [x20, #144]
	bl	rattle_dealloc
.LBB96_454:
	ldr	x8, [x20, #184]
	cbz	x8, .LBB96_456
	ldr	x0, [x20, #168]
	bl	rattle_dealloc
.LBB96_456:
	cbz	x22, .LBB96_458
	mov	x0, x20
	bl	rattle_dealloc
.LBB96_458:
	add	x8, sp, #336
	strb	w24, [x19]
	ldur	q0, [x8, #4]
	ldur	q1, [x8, #20]
	strb	w23, [x19, #1]
	strb	w26, [x19, #2]
	stur	q0, [x19, #8]
	ldur	q0, [x8, #36]
	ldr	x8, [sp, #144]
	stur	q1, [x19, #24]
	stur	q0, [x19, #40]
	ldp	q0, q2, [sp, #192]
	stp	x25, x8, [x19, #72]
	ldr	x8, [sp, #176]
	strb	w21, [x19, #3]
	stur	q0, [x19, #104]
	ldp	q1, q0, [sp, #256]
	stur	q2, [x19, #120]
	str	x8, [x19, #88]
	ldr	x8, [sp, #168]
	stur	q1, [x19, #168]
	ldp	q3, q1, [sp, #224]
	stp	x27, x28, [x19, #56]
	str	x8, [x19, #96]
	stur	q1, [x19, #152]
	ldp	q2, q1, [sp, #304]
	stur	q3, [x19, #136]
	ldr	q3, [sp, #288]
	stur	q0, [x19, #184]
	stur	q1, [x19, #232]
	stur	q2, [x19, #216]
	stur	q3, [x19, #200]
	b	.LBB96_32
.LBB96_459:
	ldr	x8, [sp, #32]
	add	x21, x8, #32
	b	.LBB96_461
.LBB96_460:
	ldr	x8, [sp, #144]
	add	x21, x21, #40
	subs	x8, x8, #1
	str	x8, [sp, #144]
	b.eq	.LBB96_433
.LBB96_461:
	ldr	x8, [x21]
	cbz	x8, .LBB96_460
	ldur	x0, [x21, #-16]
	bl	rattle_dealloc
	b	.LBB96_460
.LBB96_463:
	ldp	x10, x12, [sp, #168]
	ldr	x11, [sp, #144]
	add	x11, x11, #16
	and	x9, x12, #0x18
	and	x8, x12, #0xffffffffffffffe0
	add	x10, x10, #16
	and	x12, x12, #0xffffffffffffffe0
.LBB96_464:
	ldp	q0, q1, [x10, #-16]
	subs	x12, x12, #32
	add	x10, x10, #32
	stp	q0, q1, [x11, #-16]
	add	x11, x11, #32
	b.ne	.LBB96_464
	ldr	x10, [sp, #176]
	cmp	x10, x8
	b.eq	.LBB96_472
	cbz	x9, .LBB96_470
.LBB96_467:
	mov	x11, x8
	ldp	x10, x8, [sp, #168]
	ldr	x12, [sp, #144]
	and	x8, x8, #0xfffffffffffffff8
	add	x10, x10, x11
	sub	x9, x11, x8
	add	x11, x12, x11
.LBB96_468:
	ldr	d0, [x10], #8
	adds	x9, x9, #8
	str	d0, [x11], #8
	b.ne	.LBB96_468
	ldr	x9, [sp, #176]
	cmp	x9, x8
	b.eq	.LBB96_472
.LBB96_470:
	ldp	x10, x9, [sp, #168]
	ldr	x11, [sp, #144]
	sub	x9, x9, x8
	add	x10, x10, x8
	add	x8, x11, x8
.LBB96_471:
	ldrb	w11, [x10], #1
	subs	x9, x9, #1
	strb	w11, [x8], #1
	b.ne	.LBB96_471
.LBB96_472:
	ldr	x8, [sp, #144]
	stur	x8, [x29, #-112]
	ldr	x8, [sp, #176]
	stp	x8, x8, [x29, #-104]
	cbz	x24, .LBB96_508
	ldr	x8, [sp, #112]
	mov	x25, xzr
	sub	x23, x29, #112
	and	x26, x8, #0xff
	sub	x8, x29, #24
	str	x8, [sp, #152]
	ldr	x8, [sp, #176]
	str	x8, [sp, #168]
	b	.LBB96_476
.LBB96_474:
	mov	w9, #24
	ldr	x10, [sp, #152]
	mov	x26, xzr
	madd	x9, x8, x9, x10
	ldr	x10, [sp, #176]
	add	x8, x8, #1
	stp	x21, x10, [x9]
	ldr	x10, [sp, #168]
	stp	xzr, xzr, [sp, #168]
	str	x10, [x9, #16]
	sub	x9, x29, #24
	stur	x8, [x29, #-72]
	sub	x8, x29, #24
	str	x8, [sp, #144]
	stur	x9, [x29, #-112]
	stp	xzr, xzr, [x23, #8]
.LBB96_475:
	add	x25, x25, #1
	cmp	x25, x24
	b.eq	.LBB96_499
.LBB96_476:
	mov	w8, #24
	ldr	x9, [sp, #136]
	madd	x8, x25, x8, x9
	ldp	x10, x9, [sp, #168]
	sub	x9, x10, x9
	ldp	x28, x27, [x8]
	cmp	x27, x9
	b.hi	.LBB96_492
	ldr	x8, [sp, #176]
	ldr	x9, [sp, #144]
	add	x8, x9, x8
	sub	x8, x8, x28
	cmp	x8, x27
	b.hs	.LBB96_494
.LBB96_478:
	cmp	x27, #8
	b.lo	.LBB96_480
	ldr	x8, [sp, #176]
	ldr	x9, [sp, #144]
	add	x8, x8, x9
	sub	x8, x8, x28
	cmp	x8, #32
	b.hs	.LBB96_483
.LBB96_480:
	mov	x8, xzr
.LBB96_481:
	ldr	x9, [sp, #176]
	ldr	x11, [sp, #144]
	add	x10, x8, x9
	sub	x9, x27, x8
	add	x8, x28, x8
	add	x10, x11, x10
.LBB96_482:
	ldrb	w11, [x8], #1
	subs	x9, x9, #1
	strb	w11, [x10], #1
	b.ne	.LBB96_482
	b	.LBB96_495
.LBB96_483:
	cmp	x27, #32
	b.hs	.LBB96_485
	mov	x8, xzr
	b	.LBB96_489
.LBB96_485:
	ldr	x10, [sp, #176]
	ldr	x11, [sp, #144]
	and	x9, x27, #0x18
	and	x8, x27, #0xffffffffffffffe0
	and	x12, x27, #0xffffffffffffffe0
	add	x11, x11, x10
	add	x10, x28, #16
	add	x11, x11, #16
.LBB96_486:
	ldp	q0, q1, [x10, #-16]
	subs	x12, x12, #32
	add	x10, x10, #32
	stp	q0, q1, [x11, #-16]
	add	x11, x11, #32
	b.ne	.LBB96_486
	cmp	x27, x8
	b.eq	.LBB96_495
	cbz	x9, .LBB96_481
.LBB96_489:
	ldr	x9, [sp, #176]
	mov	x10, x8
	ldr	x12, [sp, #144]
	and	x8, x27, #0xfffffffffffffff8
	add	x11, x9, x10
	sub	x9, x10, x8
	add	x10, x28, x10
	add	x11, x12, x11
.LBB96_490:
	ldr	d0, [x10], #8
	adds	x9, x9, #8
	str	d0, [x11], #8
	b.ne	.LBB96_490
	cmp	x27, x8
	b.eq	.LBB96_495
	b	.LBB96_481
.LBB96_492:
	sub	x0, x29, #112
	mov	x1, x27
	bl	"std_alloc::vec::Vec::grow_amortized::<#a1765139b7b336a0>"
	cbz	w0, .LBB96_662
	ldur	x8, [x29, #-96]
	str	x8, [sp, #168]
	ldur	x8, [x29, #-104]
	str	x8, [sp, #176]
	ldur	x8, [x29, #-112]
	str	x8, [sp, #144]
	ldr	x8, [sp, #176]
	ldr	x9, [sp, #144]
	add	x8, x9, x8
	sub	x8, x8, x28
	cmp	x8, x27
	b.lo	.LBB96_478
.LBB96_494:
	ldr	x8, [sp, #176]
	ldr	x9, [sp, #144]
	mov	x1, x28
	mov	x2, x27
	add	x0, x9, x8
	bl	memmove
.LBB96_495:
	ldr	x8, [sp, #176]
	add	x26, x26, #1
	cmp	x26, #256
	add	x8, x8, x27
	str	x8, [sp, #176]
	stur	x8, [x29, #-104]
	ldr	x8, [sp, #168]
	stur	x8, [x29, #-96]
	b.ne	.LBB96_475
	ldp	x8, x9, [x29, #-72]
	ldur	x21, [x29, #-112]
	cmp	x9, x8
	b.ne	.LBB96_474
	sub	x0, x29, #80
	bl	"std_alloc::vec::Vec::grow_amortized::<#021260c5ab94664e>"
	cbz	w0, .LBB96_671
	ldp	x9, x8, [x29, #-80]
	str	x9, [sp, #152]
	b	.LBB96_474
.LBB96_499:
	ldur	x9, [x29, #-80]
	ldr	x8, [sp, #176]
	str	x9, [sp, #128]
	ldur	x9, [x29, #-72]
	lsr	x8, x8, #32
	str	x9, [sp, #152]
	ldur	x9, [x29, #-64]
	str	x9, [sp, #104]
	ldur	x9, [x29, #-112]
	str	x9, [sp, #144]
	cbz	x8, .LBB96_540
.LBB96_500:
	ldr	x8, [sp, #152]
	cbz	x8, .LBB96_505
	ldr	x8, [sp, #128]
	add	x21, x8, #16
	b	.LBB96_503
.LBB96_502:
	ldr	x8, [sp, #152]
	add	x21, x21, #24
	subs	x8, x8, #1
	str	x8, [sp, #152]
	b.eq	.LBB96_505
.LBB96_503:
	ldr	x8, [x21]
	cbz	x8, .LBB96_502
	ldur	x0, [x21, #-16]
	bl	rattle_dealloc
	b	.LBB96_502
.LBB96_505:
	ldr	x8, [sp, #104]
	cbz	x8, .LBB96_507
	ldr	x0, [sp, #128]
	bl	rattle_dealloc
.LBB96_507:
	ldr	x8, [sp, #168]
	cbnz	x8, .LBB96_509
	b	.LBB96_510
.LBB96_508:
	ldr	x8, [sp, #176]
	lsr	x8, x8, #32
	cbz	x8, .LBB96_545
.LBB96_509:
	ldr	x0, [sp, #144]
	bl	rattle_dealloc
.LBB96_510:
	cbz	x24, .LBB96_515
	ldr	x8, [sp, #136]
	add	x21, x8, #16
	b	.LBB96_513
.LBB96_512:
	subs	x24, x24, #1
	add	x21, x21, #24
	b.eq	.LBB96_515
.LBB96_513:
	ldr	x8, [x21]
	cbz	x8, .LBB96_512
	ldur	x0, [x21, #-16]
	bl	rattle_dealloc
	b	.LBB96_512
.LBB96_515:
	ldr	x8, [sp, #120]
	cbz	x8, .LBB96_517
	ldr	x0, [sp, #136]
	bl	rattle_dealloc
.LBB96_517:
	ldr	x23, [sp, #1040]
	ldr	x21, [sp, #1032]
	ldr	x24, [sp, #1048]
	cbz	x23, .LBB96_522
	add	x25, x21, #32
	b	.LBB96_520
.LBB96_519:
	subs	x23, x23, #1
	add	x25, x25, #40
	b.eq	.LBB96_522
.LBB96_520:
	ldr	x8, [x25]
	cbz	x8, .LBB96_519
	ldur	x0, [x25, #-16]
	bl	rattle_dealloc
	b	.LBB96_519
.LBB96_522:
	cbz	x24, .LBB96_524
	mov	x0, x21
	bl	rattle_dealloc
.LBB96_524:
	ldr	x23, [sp, #1064]
	ldr	x21, [sp, #1056]
	ldr	x24, [sp, #1072]
	cbz	x23, .LBB96_529
	add	x25, x21, #24
	b	.LBB96_527
.LBB96_526:
	subs	x23, x23, #1
	add	x25, x25, #32
	b.eq	.LBB96_529
.LBB96_527:
	ldr	x8, [x25]
	cbz	x8, .LBB96_526
	ldur	x0, [x25, #-16]
	bl	rattle_dealloc
	b	.LBB96_526
.LBB96_529:
	cbz	x24, .LBB96_531
	mov	x0, x21
	bl	rattle_dealloc
.LBB96_531:
	ldr	x23, [sp, #1144]
	ldr	x21, [sp, #1136]
	ldr	x24, [sp, #1152]
	cbz	x23, .LBB96_536
	add	x25, x21, #16
	b	.LBB96_534
.LBB96_533:
	subs	x23, x23, #1
	add	x25, x25, #24
	b.eq	.LBB96_536
.LBB96_534:
	ldr	x8, [x25]
	cbz	x8, .LBB96_533
	ldur	x0, [x25, #-16]
	bl	rattle_dealloc
	b	.LBB96_533
.LBB96_536:
	cbz	x24, .LBB96_538
	mov	x0, x21
	bl	rattle_dealloc
.LBB96_538:
	add	x9, sp, #1312
	add	x8, sp, #336
	ldr	q2, [sp, #1296]
	ldur	q0, [x9, #4]
	ldur	q1, [x9, #20]
	ldr	q3, [sp, #1248]
	str	q2, [sp, #320]
	ldr	q2, [sp, #1168]
	mov	w26, wzr
	stur	q0, [x8, #4]
	ldur	q0, [x9, #36]
	mov	w21, wzr
	stur	q1, [x8, #20]
	ldr	q1, [sp, #1264]
	mov	x27, xzr
	stur	q0, [x8, #36]
	ldr	q0, [sp, #1280]
	mov	x28, xzr
	mov	x25, xzr
	str	xzr, [sp, #144]
	mov	w23, #3
	stp	q1, q0, [sp, #288]
	ldr	q0, [sp, #1184]
	ldr	q1, [sp, #1200]
	stp	xzr, xzr, [sp, #168]
	mov	w24, #1
.LBB96_539:
	stp	q0, q1, [sp, #208]
	ldr	q0, [sp, #1216]
	str	q0, [sp, #240]
	ldr	q0, [sp, #1232]
	stp	q0, q3, [sp, #256]
	str	q2, [sp, #192]
	b	.LBB96_440
.LBB96_540:
	ldr	x8, [sp, #152]
	cbz	x8, .LBB96_551
	ldr	x9, [sp, #152]
	mov	w8, #8
.LBB96_542:
	ldr	x10, [sp, #128]
	add	x10, x10, x8
	ldr	w10, [x10, #4]
	cbnz	w10, .LBB96_500
	subs	x9, x9, #1
	add	x8, x8, #24
	b.ne	.LBB96_542
	str	wzr, [sp, #96]
	b	.LBB96_552
.LBB96_545:
	sub	x8, x29, #24
	str	xzr, [sp, #104]
	str	x8, [sp, #128]
	mov	w8, #1
	str	w8, [sp, #96]
	ldr	x8, [sp, #176]
	str	xzr, [sp, #152]
	str	x8, [sp, #168]
	b	.LBB96_552
.LBB96_546:
	cbz	x28, .LBB96_548
	ldur	x0, [x29, #-48]
	bl	rattle_dealloc
.LBB96_548:
	movi	v0.2d, #0000000000000000
	ldr	x8, [sp, #136]
	stp	q0, q0, [x29, #-112]
	cbz	x8, .LBB96_550
	ldr	x0, [sp, #128]
	bl	rattle_dealloc
.LBB96_550:
	cbnz	x25, .LBB96_222
	b	.LBB96_223
.LBB96_551:
	mov	w8, #1
	str	xzr, [sp, #152]
	str	w8, [sp, #96]
.LBB96_552:
	ldr	x9, [sp, #1056]
	ldr	x27, [sp, #1064]
	sub	x8, x29, #24
	stp	xzr, xzr, [x29, #-136]
	str	x9, [sp, #88]
	ldr	x9, [sp, #112]
	stur	x8, [x29, #-144]
	lsr	x25, x9, #8
	cbz	x27, .LBB96_600
	ldr	x8, [sp, #88]
	ldr	x9, [sp, #112]
	ldr	x8, [x8, #16]
	cmp	x8, w9, uxtb
	b.ls	.LBB96_558
	add	x9, x8, #255
	lsr	x23, x9, #8
	cbz	x23, .LBB96_558
	ldr	x9, [sp, #88]
	mov	x26, x25
	ldr	x21, [x9, #8]
.LBB96_556:
	subs	x28, x8, #256
	mov	w9, #256
	sub	x0, x29, #144
	csel	x8, x8, x9, lo
	sub	x1, x29, #80
	mov	x2, x21
	lsl	x3, x8, #5
	stp	x26, xzr, [x29, #-72]
	stur	xzr, [x29, #-80]
	sturh	w8, [x29, #-64]
	bl	"ct_step::objects::push_tile"
	and	w8, w0, #0xff
	tbnz	w8, #0, .LBB96_607
	sub	x23, x23, #1
	add	x21, x21, #2, lsl #12
	add	x26, x26, #1
	mov	x8, x28
	cbnz	x23, .LBB96_556
.LBB96_558:
	cmp	x27, #1
	b.eq	.LBB96_600
	ldr	x8, [sp, #88]
	ldr	x9, [sp, #112]
	ldr	x8, [x8, #48]
	lsr	x9, x9, #16
	cmp	x8, w25, uxtb
	str	x9, [sp, #80]
	b.ls	.LBB96_564
	add	x9, x8, #255
	lsr	x26, x9, #8
	cbz	x26, .LBB96_564
	ldp	x23, x9, [sp, #80]
	ldr	x21, [x9, #40]
.LBB96_562:
	subs	x28, x8, #256
	mov	w9, #256
	mov	w10, #1
	csel	x8, x8, x9, lo
	sub	x0, x29, #144
	sub	x1, x29, #80
	lsl	x3, x8, #5
	mov	x2, x21
	stp	xzr, x23, [x29, #-80]
	stur	xzr, [x29, #-64]
	sturb	w10, [x29, #-79]
	sturh	w8, [x29, #-64]
	bl	"ct_step::objects::push_tile"
	and	w8, w0, #0xff
	tbnz	w8, #0, .LBB96_607
	sub	x26, x26, #1
	add	x21, x21, #2, lsl #12
	add	x23, x23, #1
	mov	x8, x28
	cbnz	x26, .LBB96_562
.LBB96_564:
	cmp	x27, #2
	b.eq	.LBB96_600
	ldr	x9, [sp, #112]
	ldr	x8, [sp, #88]
	lsr	x9, x9, #24
	ldr	x8, [x8, #80]
	str	x9, [sp, #72]
	ldr	x9, [sp, #80]
	cmp	x8, w9, uxtb
	b.ls	.LBB96_570
	add	x9, x8, #255
	lsr	x23, x9, #8
	cbz	x23, .LBB96_570
	ldr	x9, [sp, #88]
	ldr	x28, [sp, #72]
	ldr	x21, [x9, #72]
.LBB96_568:
	subs	x26, x8, #256
	mov	w9, #256
	mov	w10, #2
	csel	x8, x8, x9, lo
	sub	x0, x29, #144
	sub	x1, x29, #80
	lsl	x3, x8, #5
	mov	x2, x21
	stp	xzr, x28, [x29, #-80]
	stur	xzr, [x29, #-64]
	sturb	w10, [x29, #-79]
	sturh	w8, [x29, #-64]
	bl	"ct_step::objects::push_tile"
	and	w8, w0, #0xff
	tbnz	w8, #0, .LBB96_607
	sub	x23, x23, #1
	add	x21, x21, #2, lsl #12
	add	x28, x28, #1
	mov	x8, x26
	cbnz	x23, .LBB96_568
.LBB96_570:
	cmp	x27, #3
	b.eq	.LBB96_600
	ldr	x9, [sp, #112]
	ldr	x8, [sp, #88]
	lsr	x9, x9, #32
	ldr	x8, [x8, #112]
	str	x9, [sp, #80]
	ldr	x9, [sp, #72]
	cmp	x8, w9, uxtb
	b.ls	.LBB96_576
	add	x9, x8, #255
	lsr	x26, x9, #8
	cbz	x26, .LBB96_576
	ldp	x28, x9, [sp, #80]
	ldr	x21, [x9, #104]
.LBB96_574:
	subs	x23, x8, #256
	mov	w9, #256
	mov	w10, #3
	csel	x8, x8, x9, lo
	sub	x0, x29, #144
	sub	x1, x29, #80
	lsl	x3, x8, #5
	mov	x2, x21
	stp	xzr, x28, [x29, #-80]
	stur	xzr, [x29, #-64]
	sturb	w10, [x29, #-79]
	sturh	w8, [x29, #-64]
	bl	"ct_step::objects::push_tile"
	and	w8, w0, #0xff
	tbnz	w8, #0, .LBB96_607
	sub	x26, x26, #1
	add	x21, x21, #2, lsl #12
	add	x28, x28, #1
	mov	x8, x23
	cbnz	x26, .LBB96_574
.LBB96_576:
	cmp	x27, #4
	b.eq	.LBB96_600
	ldr	x9, [sp, #112]
	ldr	x8, [sp, #88]
	lsr	x9, x9, #40
	ldr	x8, [x8, #144]
	str	x9, [sp, #72]
	ldr	x9, [sp, #80]
	cmp	x8, w9, uxtb
	b.ls	.LBB96_582
	add	x9, x8, #255
	lsr	x23, x9, #8
	cbz	x23, .LBB96_582
	ldr	x9, [sp, #88]
	ldr	x28, [sp, #72]
	ldr	x21, [x9, #136]
.LBB96_580:
	subs	x26, x8, #256
	mov	w9, #256
	mov	w10, #4
	csel	x8, x8, x9, lo
	sub	x0, x29, #144
	sub	x1, x29, #80
	lsl	x3, x8, #5
	mov	x2, x21
	stp	xzr, x28, [x29, #-80]
	stur	xzr, [x29, #-64]
	sturb	w10, [x29, #-79]
	sturh	w8, [x29, #-64]
	bl	"ct_step::objects::push_tile"
	and	w8, w0, #0xff
	tbnz	w8, #0, .LBB96_607
	sub	x23, x23, #1
	add	x21, x21, #2, lsl #12
	add	x28, x28, #1
	mov	x8, x26
	cbnz	x23, .LBB96_580
.LBB96_582:
	cmp	x27, #5
	b.eq	.LBB96_600
	ldr	x9, [sp, #112]
	ldr	x8, [sp, #88]
	lsr	x9, x9, #48
	ldr	x8, [x8, #176]
	str	x9, [sp, #80]
	ldr	x9, [sp, #72]
	cmp	x8, w9, uxtb
	b.ls	.LBB96_588
	add	x9, x8, #255
	lsr	x26, x9, #8
	cbz	x26, .LBB96_588
	ldp	x28, x9, [sp, #80]
	ldr	x21, [x9, #168]
.LBB96_586:
	subs	x23, x8, #256
	mov	w9, #256
	mov	w10, #5
	csel	x8, x8, x9, lo
	sub	x0, x29, #144
	sub	x1, x29, #80
	lsl	x3, x8, #5
	mov	x2, x21
	stp	xzr, x28, [x29, #-80]
	stur	xzr, [x29, #-64]
	sturb	w10, [x29, #-79]
	sturh	w8, [x29, #-64]
	bl	"ct_step::objects::push_tile"
	and	w8, w0, #0xff
	tbnz	w8, #0, .LBB96_607
	sub	x26, x26, #1
	add	x21, x21, #2, lsl #12
	add	x28, x28, #1
	mov	x8, x23
	cbnz	x26, .LBB96_586
.LBB96_588:
	cmp	x27, #6
	b.eq	.LBB96_600
	ldr	x9, [sp, #112]
	ldr	x8, [sp, #88]
	lsr	x9, x9, #56
	ldr	x8, [x8, #208]
	str	x9, [sp, #72]
	ldr	x9, [sp, #80]
	cmp	x8, w9, uxtb
	b.ls	.LBB96_594
	add	x9, x8, #255
	lsr	x23, x9, #8
	cbz	x23, .LBB96_594
	ldr	x9, [sp, #88]
	ldr	x28, [sp, #72]
	ldr	x21, [x9, #200]
.LBB96_592:
	subs	x26, x8, #256
	mov	w9, #256
	mov	w10, #6
	csel	x8, x8, x9, lo
	sub	x0, x29, #144
	sub	x1, x29, #80
	lsl	x3, x8, #5
	mov	x2, x21
	stp	xzr, x28, [x29, #-80]
	stur	xzr, [x29, #-64]
	sturb	w10, [x29, #-79]
	sturh	w8, [x29, #-64]
	bl	"ct_step::objects::push_tile"
	and	w8, w0, #0xff
	tbnz	w8, #0, .LBB96_607
	sub	x23, x23, #1
	add	x21, x21, #2, lsl #12
	add	x28, x28, #1
	mov	x8, x26
	cbnz	x23, .LBB96_592
.LBB96_594:
	cmp	x27, #7
	b.eq	.LBB96_600
	ldr	x8, [sp, #88]
	ldr	x9, [sp, #72]
	ldr	x8, [x8, #240]
	cmp	x8, x9
	b.ls	.LBB96_600
	add	x9, x8, #255
	lsr	x23, x9, #8
	cbz	x23, .LBB96_600
	ldr	x9, [sp, #88]
	mov	x26, xzr
	ldr	x21, [x9, #232]
.LBB96_598:
	subs	x27, x8, #256
	mov	w9, #256
	mov	w10, #7
	csel	x8, x8, x9, lo
	sub	x0, x29, #144
	sub	x1, x29, #80
	lsl	x3, x8, #5
	mov	x2, x21
	stp	xzr, x26, [x29, #-80]
	stur	xzr, [x29, #-64]
	sturb	w10, [x29, #-79]
	sturh	w8, [x29, #-64]
	bl	"ct_step::objects::push_tile"
	and	w8, w0, #0xff
	tbnz	w8, #0, .LBB96_607
	add	x26, x26, #1
	add	x21, x21, #2, lsl #12
	mov	x8, x27
	cmp	x23, x26
	b.ne	.LBB96_598
.LBB96_600:
	stp	xzr, xzr, [x29, #-112]
	stur	xzr, [x29, #-96]
	cbz	x24, .LBB96_656
	ldr	w8, [sp, #96]
	stp	xzr, xzr, [x29, #-80]
	stur	xzr, [x29, #-64]
	tbnz	w8, #0, .LBB96_605
	ldr	x8, [sp, #128]
	ldr	x23, [sp, #152]
	add	x21, x8, #8
.LBB96_603:
	mov	w8, #1
	mov	w9, #256
	stur	x25, [x29, #-72]
	sturh	w8, [x29, #-80]
	sub	x0, x29, #144
	sub	x1, x29, #80
	sturh	w9, [x29, #-64]
	ldp	x2, x3, [x21, #-8]
	bl	"ct_step::objects::push_tile"
	and	w8, w0, #0xff
	tbnz	w8, #0, .LBB96_607
	subs	x23, x23, #1
	add	x21, x21, #24
	add	x25, x25, #1
	b.ne	.LBB96_603
.LBB96_605:
	ldr	x8, [sp, #112]
	add	x9, x24, x8
	ands	x8, x9, #0xff
	b.eq	.LBB96_656
	lsr	x9, x9, #8
	ldr	x2, [sp, #144]
	ldr	x3, [sp, #176]
	mov	w10, #1
	sub	x0, x29, #144
	sub	x1, x29, #112
	sturh	w10, [x29, #-112]
	stur	x9, [x29, #-104]
	sturh	w8, [x29, #-96]
	bl	"ct_step::objects::push_tile"
	and	w8, w0, #0xff
	tbz	w8, #0, .LBB96_656
.LBB96_607:
	ldur	x8, [x29, #-128]
	cbz	x8, .LBB96_609
	ldur	x0, [x29, #-144]
	bl	rattle_dealloc
.LBB96_609:
	movi	v0.2d, #0000000000000000
	add	x8, sp, #1312
	stur	q0, [x8, #4]
	stur	q0, [x8, #20]
	stur	q0, [x8, #36]
	add	x8, sp, #1312
	orr	x23, x8, #0x4
	ldr	w8, [sp, #96]
	str	q0, [sp, #1168]
	str	q0, [sp, #1184]
	str	q0, [sp, #1200]
	str	q0, [sp, #1216]
	str	q0, [sp, #1232]
	str	q0, [sp, #1248]
	str	q0, [sp, #1264]
	str	q0, [sp, #1280]
	str	q0, [sp, #1296]
	tbz	w8, #0, .LBB96_643
.LBB96_610:
	ldr	x8, [sp, #104]
	cbz	x8, .LBB96_612
	ldr	x0, [sp, #128]
	bl	rattle_dealloc
.LBB96_612:
	ldr	x8, [sp, #168]
	cbz	x8, .LBB96_614
	ldr	x0, [sp, #144]
	bl	rattle_dealloc
.LBB96_614:
	cbz	x24, .LBB96_619
	ldr	x8, [sp, #136]
	add	x21, x8, #16
	b	.LBB96_617
.LBB96_616:
	subs	x24, x24, #1
	add	x21, x21, #24
	b.eq	.LBB96_619
.LBB96_617:
	ldr	x8, [x21]
	cbz	x8, .LBB96_616
	ldur	x0, [x21, #-16]
	bl	rattle_dealloc
	b	.LBB96_616
.LBB96_619:
	ldr	x8, [sp, #120]
	cbz	x8, .LBB96_621
	ldr	x0, [sp, #136]
	bl	rattle_dealloc
.LBB96_621:
	ldr	x24, [sp, #1040]
	ldr	x21, [sp, #1032]
	ldr	x25, [sp, #1048]
	cbz	x24, .LBB96_626
	add	x26, x21, #32
	b	.LBB96_624
.LBB96_623:
	subs	x24, x24, #1
	add	x26, x26, #40
	b.eq	.LBB96_626
.LBB96_624:
	ldr	x8, [x26]
	cbz	x8, .LBB96_623
	ldur	x0, [x26, #-16]
	bl	rattle_dealloc
	b	.LBB96_623
.LBB96_626:
	cbz	x25, .LBB96_628
	mov	x0, x21
	bl	rattle_dealloc
.LBB96_628:
	ldr	x24, [sp, #1064]
	ldr	x21, [sp, #1056]
	ldr	x25, [sp, #1072]
	cbz	x24, .LBB96_633
	add	x26, x21, #24
	b	.LBB96_631
.LBB96_630:
	subs	x24, x24, #1
	add	x26, x26, #32
	b.eq	.LBB96_633
.LBB96_631:
	ldr	x8, [x26]
	cbz	x8, .LBB96_630
	ldur	x0, [x26, #-16]
	bl	rattle_dealloc
	b	.LBB96_630
.LBB96_633:
	cbz	x25, .LBB96_635
	mov	x0, x21
	bl	rattle_dealloc
.LBB96_635:
	ldr	x24, [sp, #1144]
	ldr	x21, [sp, #1136]
	ldr	x25, [sp, #1152]
	cbz	x24, .LBB96_640
	add	x26, x21, #16
	b	.LBB96_638
.LBB96_637:
	subs	x24, x24, #1
	add	x26, x26, #24
	b.eq	.LBB96_640
.LBB96_638:
	ldr	x8, [x26]
	cbz	x8, .LBB96_637
	ldur	x0, [x26, #-16]
	bl	rattle_dealloc
	b	.LBB96_637
.LBB96_640:
	cbz	x25, .LBB96_642
	mov	x0, x21
	bl	rattle_dealloc
.LBB96_642:
	ldp	q1, q0, [x23, #16]
	add	x8, sp, #336
	ldr	q3, [sp, #1296]
	ldr	q2, [x23]
	mov	w21, wzr
	mov	x27, xzr
	mov	x28, xzr
	mov	x25, xzr
	stur	q0, [x8, #36]
	ldr	q0, [sp, #1248]
	mov	w23, #2
	stur	q1, [x8, #20]
	ldr	q1, [sp, #1264]
	mov	w24, #1
	stur	q2, [x8, #4]
	ldr	q2, [sp, #1232]
	mov	w26, #2
	stp	q0, q1, [sp, #272]
	ldr	q0, [sp, #1280]
	ldr	q1, [sp, #1200]
	str	xzr, [sp, #144]
	stp	q0, q3, [sp, #304]
	ldr	q0, [sp, #1184]
	ldr	q3, [sp, #1168]
	stp	xzr, xzr, [sp, #168]
	stp	q0, q1, [sp, #208]
	ldr	q0, [sp, #1216]
	str	q3, [sp, #192]
	stp	q0, q2, [sp, #240]
	b	.LBB96_440
.LBB96_643:
	ldr	x8, [sp, #128]
	add	x21, x8, #16
	b	.LBB96_645
.LBB96_644:
	ldr	x8, [sp, #152]
	add	x21, x21, #24
	subs	x8, x8, #1
	str	x8, [sp, #152]
	b.eq	.LBB96_610
.LBB96_645:
	ldr	x8, [x21]
	cbz	x8, .LBB96_644
	ldur	x0, [x21, #-16]
	bl	rattle_dealloc
	b	.LBB96_644
.LBB96_647:
	cbz	x28, .LBB96_649
	mov	x0, x21
	bl	rattle_dealloc
.LBB96_649:
	ldp	x21, x23, [x29, #-112]
	ldur	x24, [x29, #-96]
	cbz	x23, .LBB96_654
	add	x25, x21, #32
	b	.LBB96_652
.LBB96_651:
	subs	x23, x23, #1
	add	x25, x25, #40
	b.eq	.LBB96_654
.LBB96_652:
	ldr	x8, [x25]
	cbz	x8, .LBB96_651
	ldur	x0, [x25, #-16]
	bl	rattle_dealloc
	b	.LBB96_651
.LBB96_654:
	cbz	x24, .LBB96_436
	mov	x0, x21
	b	.LBB96_435
.LBB96_656:
	ldp	x27, x28, [x29, #-144]
	add	x8, sp, #1024
	ldp	x6, x1, [sp, #176]
	add	x26, sp, #1024
	ldr	x5, [sp, #144]
	ldur	x25, [x29, #-128]
	add	x0, sp, #688
	add	x2, x8, #56
	mov	x3, x27
	mov	x4, x28
	orr	x21, x26, #0x8
	bl	"ct_step::step::next_line::<#0f46d2847b2ce1ce>"
	ldrb	w8, [sp, #688]
	cbz	w8, .LBB96_707
	movi	v0.2d, #0000000000000000
	add	x8, sp, #1312
	add	x21, sp, #1312
	stur	q0, [x8, #36]
	stur	q0, [x8, #20]
	stur	q0, [x8, #4]
	str	q0, [sp, #1168]
	str	q0, [sp, #1184]
	str	q0, [sp, #1200]
	str	q0, [sp, #1216]
	str	q0, [sp, #1232]
	str	q0, [sp, #1248]
	str	q0, [sp, #1264]
	str	q0, [sp, #1280]
	str	q0, [sp, #1296]
	cbz	x25, .LBB96_659
	mov	x0, x27
	bl	rattle_dealloc
.LBB96_659:
	ldr	x8, [sp, #128]
	add	x0, sp, #584
	orr	x23, x21, #0x4
	str	x8, [sp, #584]
	ldr	x8, [sp, #152]
	str	x8, [sp, #592]
	ldr	x8, [sp, #104]
	str	x8, [sp, #600]
	bl	"std_alloc::vec::Vec::drop::<#12439024a2e4f779>"
	ldr	x8, [sp, #168]
	cbz	x8, .LBB96_661
	ldr	x0, [sp, #144]
	bl	rattle_dealloc
.LBB96_661:
	ldr	x8, [sp, #136]
	add	x0, sp, #560
	str	x24, [sp, #568]
	str	x8, [sp, #560]
	ldr	x8, [sp, #120]
	str	x8, [sp, #576]
	bl	"std_alloc::vec::Vec::drop::<#12439024a2e4f779>"
	orr	x0, x26, #0x8
	bl	"std_alloc::vec::Vec::drop::<#cca0c95a41e92df7>"
	add	x0, x26, #32
	bl	"std_alloc::vec::Vec::drop::<#0207b03e327f6a95>"
	add	x9, sp, #1024
	ldr	x8, [sp, #1136]
	add	x24, sp, #336
	ldur	q0, [x9, #120]
	add	x0, sp, #536
	str	x8, [sp, #536]
	stur	q0, [x24, #208]
	bl	"std_alloc::vec::Vec::drop::<#ed22912bc4daa275>"
	mov	w21, wzr
	b	.LBB96_713
.LBB96_662:
	ldur	x8, [x29, #-96]
	cbz	x8, .LBB96_664
	ldur	x0, [x29, #-112]
	bl	rattle_dealloc
.LBB96_664:
	ldp	x23, x21, [x29, #-72]
	cbz	x23, .LBB96_669
	ldr	x8, [sp, #152]
	add	x25, x8, #16
	b	.LBB96_667
.LBB96_666:
	subs	x23, x23, #1
	add	x25, x25, #24
	b.eq	.LBB96_669
.LBB96_667:
	ldr	x8, [x25]
	cbz	x8, .LBB96_666
	ldur	x0, [x25, #-16]
	bl	rattle_dealloc
	b	.LBB96_666
.LBB96_669:
	cbz	x21, .LBB96_681
	ldr	x0, [sp, #152]
	b	.LBB96_680
.LBB96_671:
	ldr	x8, [sp, #168]
	cbz	x8, .LBB96_673
	mov	x0, x21
	bl	rattle_dealloc
.LBB96_673:
	ldp	x21, x23, [x29, #-80]
	ldur	x25, [x29, #-64]
	cbz	x23, .LBB96_678
	add	x26, x21, #16
	b	.LBB96_676
.LBB96_675:
	subs	x23, x23, #1
	add	x26, x26, #24
	b.eq	.LBB96_678
.LBB96_676:
	ldr	x8, [x26]
	cbz	x8, .LBB96_675
	ldur	x0, [x26, #-16]
	bl	rattle_dealloc
	b	.LBB96_675
.LBB96_678:
	cbz	x25, .LBB96_681
	mov	x0, x21
.LBB96_680:
	bl	rattle_dealloc
.LBB96_681:
	cbz	x24, .LBB96_686
	ldr	x8, [sp, #136]
	add	x21, x8, #16
	b	.LBB96_684
.LBB96_683:
	subs	x24, x24, #1
	add	x21, x21, #24
	b.eq	.LBB96_686
.LBB96_684:
	ldr	x8, [x21]
	cbz	x8, .LBB96_683
	ldur	x0, [x21, #-16]
	bl	rattle_dealloc
	b	.LBB96_683
.LBB96_686:
	ldr	x8, [sp, #120]
	cbz	x8, .LBB96_688
	ldr	x0, [sp, #136]
	bl	rattle_dealloc
.LBB96_688:
	ldr	x23, [sp, #1040]
	ldr	x21, [sp, #1032]
	ldr	x24, [sp, #1048]
	cbz	x23, .LBB96_693
	add	x25, x21, #32
	b	.LBB96_691
.LBB96_690:
	subs	x23, x23, #1
	add	x25, x25, #40
	b.eq	.LBB96_693
.LBB96_691:
	ldr	x8, [x25]
	cbz	x8, .LBB96_690
	ldur	x0, [x25, #-16]
	bl	rattle_dealloc
	b	.LBB96_690
.LBB96_693:
	cbz	x24, .LBB96_695
	mov	x0, x21
	bl	rattle_dealloc
.LBB96_695:
	ldr	x23, [sp, #1064]
	ldr	x21, [sp, #1056]
	ldr	x24, [sp, #1072]
	cbz	x23, .LBB96_700
	add	x25, x21, #24
	b	.LBB96_698
.LBB96_697:
	subs	x23, x23, #1
	add	x25, x25, #32
	b.eq	.LBB96_700
.LBB96_698:
	ldr	x8, [x25]
	cbz	x8, .LBB96_697
	ldur	x0, [x25, #-16]
	bl	rattle_dealloc
	b	.LBB96_697
.LBB96_700:
	cbz	x24, .LBB96_702
	mov	x0, x21
	bl	rattle_dealloc
.LBB96_702:
	ldr	x23, [sp, #1144]
	ldr	x21, [sp, #1136]
	ldr	x24, [sp, #1152]
	cbz	x23, .LBB96_743
	add	x25, x21, #16
	b	.LBB96_705
.LBB96_704:
	subs	x23, x23, #1
	add	x25, x25, #24
	b.eq	.LBB96_743
.LBB96_705:
	ldr	x8, [x25]
	cbz	x8, .LBB96_704
	ldur	x0, [x25, #-16]
	bl	rattle_dealloc
	b	.LBB96_704
.LBB96_707:
	add	x8, sp, #608
	ldr	x1, [sp, #160]
	add	x0, sp, #656
	ldur	q0, [x8, #168]
	ldur	q1, [x8, #184]
	ldur	q2, [x8, #200]
	ldur	q3, [x8, #152]
	stp	q0, q1, [sp, #960]
	ldur	q0, [x8, #216]
	ldur	q1, [x8, #104]
	str	q3, [sp, #944]
	stp	q2, q0, [sp, #992]
	ldur	q0, [x8, #88]
	ldur	q2, [x8, #120]
	stp	q0, q1, [sp, #880]
	ldur	q0, [x8, #136]
	add	x8, sp, #880
	ldr	x2, [sp, #880]
	add	x3, x8, #16
	stp	q2, q0, [sp, #912]
	bl	"ct_codec::signing::tree_head_signature_input::<#fe12c7543020194e>"
	ldrb	w8, [sp, #656]
	cbz	w8, .LBB96_714
	movi	v0.2d, #0000000000000000
	add	x8, sp, #1312
	ldrb	w21, [sp, #657]
	orr	x0, x26, #0x8
	add	x23, sp, #1312
	stur	q0, [x8, #36]
	stur	q0, [x8, #20]
	stur	q0, [x8, #4]
	str	q0, [sp, #1168]
	str	q0, [sp, #1184]
	str	q0, [sp, #1200]
	str	q0, [sp, #1216]
	str	q0, [sp, #1232]
	str	q0, [sp, #1248]
	str	q0, [sp, #1264]
	str	q0, [sp, #1280]
	str	q0, [sp, #1296]
	bl	"std_alloc::vec::Vec::drop::<#cca0c95a41e92df7>"
	cbz	x25, .LBB96_710
	mov	x0, x27
	bl	rattle_dealloc
.LBB96_710:
	ldr	x8, [sp, #128]
	add	x0, sp, #512
	orr	x23, x23, #0x4
	str	x8, [sp, #512]
	ldr	x8, [sp, #152]
	str	x8, [sp, #520]
	ldr	x8, [sp, #104]
	str	x8, [sp, #528]
	bl	"std_alloc::vec::Vec::drop::<#12439024a2e4f779>"
	ldr	x8, [sp, #168]
	cbz	x8, .LBB96_712
	ldr	x0, [sp, #144]
	bl	rattle_dealloc
.LBB96_712:
	ldr	x8, [sp, #136]
	add	x0, sp, #488
	stp	x8, x24, [sp, #488]
	ldr	x8, [sp, #120]
	str	x8, [sp, #504]
	bl	"std_alloc::vec::Vec::drop::<#12439024a2e4f779>"
	add	x0, x26, #32
	bl	"std_alloc::vec::Vec::drop::<#0207b03e327f6a95>"
	add	x9, sp, #1024
	ldr	x8, [sp, #1136]
	add	x24, sp, #336
	ldur	q0, [x9, #120]
	add	x0, sp, #464
	str	x8, [sp, #464]
	stur	q0, [x24, #136]
	bl	"std_alloc::vec::Vec::drop::<#ed22912bc4daa275>"
.LBB96_713:
	ldp	q0, q1, [x23]
	mov	x27, xzr
	ldr	q2, [sp, #1296]
	ldr	q3, [sp, #1248]
	mov	x28, xzr
	mov	x25, xzr
	mov	w26, #2
	str	xzr, [sp, #144]
	stur	q0, [x24, #4]
	ldr	q0, [x23, #32]
	mov	w23, #2
	stur	q1, [x24, #20]
	ldr	q1, [sp, #1264]
	stur	q0, [x24, #36]
	ldr	q0, [sp, #1280]
	mov	w24, #1
	str	q2, [sp, #320]
	ldr	q2, [sp, #1168]
	stp	q1, q0, [sp, #288]
	ldr	q0, [sp, #1184]
	ldr	q1, [sp, #1200]
	stp	xzr, xzr, [sp, #168]
	b	.LBB96_539
.LBB96_714:
	ldr	x8, [x21, #16]
	add	x10, sp, #608
	ldr	q0, [x21]
	ldur	q1, [x10, #56]
	ldr	x9, [sp, #680]
	add	x0, sp, #440
	str	x8, [sp, #624]
	ldr	x8, [sp, #128]
	str	q0, [sp, #608]
	str	x8, [sp, #440]
	ldr	x8, [sp, #152]
	stur	q1, [x10, #24]
	str	x8, [sp, #448]
	ldr	x8, [sp, #104]
	str	x9, [sp, #648]
	str	x8, [sp, #456]
	bl	"std_alloc::vec::Vec::drop::<#12439024a2e4f779>"
	ldr	x8, [sp, #136]
	add	x0, sp, #416
	stp	x8, x24, [sp, #416]
	ldr	x8, [sp, #120]
	str	x8, [sp, #432]
	bl	"std_alloc::vec::Vec::drop::<#12439024a2e4f779>"
	add	x0, x26, #32
	bl	"std_alloc::vec::Vec::drop::<#0207b03e327f6a95>"
	ldr	x8, [sp, #1136]
	add	x9, sp, #1024
	add	x0, sp, #392
	ldur	q0, [x9, #120]
	str	x8, [sp, #392]
	add	x8, sp, #336
	stur	q0, [x8, #64]
	bl	"std_alloc::vec::Vec::drop::<#ed22912bc4daa275>"
	ldp	q0, q1, [sp, #608]
	add	x8, sp, #336
	ldr	q2, [sp, #640]
	mov	w24, wzr
	mov	w23, wzr
	mov	w26, wzr
	mov	w21, wzr
	stur	q0, [x8, #4]
	stur	q1, [x8, #20]
	ldp	q0, q1, [sp, #976]
	add	x8, sp, #336
	stur	q2, [x8, #36]
	ldr	q2, [sp, #1008]
	stp	q0, q1, [sp, #288]
	ldp	q0, q1, [sp, #912]
	str	q2, [sp, #320]
	stp	q0, q1, [sp, #224]
	ldp	q0, q2, [sp, #944]
	stp	q0, q2, [sp, #256]
	ldp	q0, q1, [sp, #880]
	stp	q0, q1, [sp, #192]
	b	.LBB96_440
.LBB96_715:
	cbz	x23, .LBB96_717
	mov	x0, x21
	bl	rattle_dealloc
.LBB96_717:
	ldp	x21, x23, [x29, #-112]
	ldur	x24, [x29, #-96]
	cbz	x23, .LBB96_722
	add	x25, x21, #16
	b	.LBB96_720
.LBB96_719:
	subs	x23, x23, #1
	add	x25, x25, #24
	b.eq	.LBB96_722
.LBB96_720:
	ldr	x8, [x25]
	cbz	x8, .LBB96_719
	ldur	x0, [x25, #-16]
	bl	rattle_dealloc
	b	.LBB96_719
.LBB96_722:
	cbz	x24, .LBB96_724
	mov	x0, x21
	bl	rattle_dealloc
.LBB96_724:
	ldr	x23, [sp, #1040]
	ldr	x21, [sp, #1032]
	ldr	x24, [sp, #1048]
	cbz	x23, .LBB96_729
	add	x25, x21, #32
	b	.LBB96_727
.LBB96_726:
	subs	x23, x23, #1
	add	x25, x25, #40
	b.eq	.LBB96_729
.LBB96_727:
	ldr	x8, [x25]
	cbz	x8, .LBB96_726
	ldur	x0, [x25, #-16]
	bl	rattle_dealloc
	b	.LBB96_726
.LBB96_729:
	cbz	x24, .LBB96_731
	mov	x0, x21
	bl	rattle_dealloc
.LBB96_731:
	ldr	x23, [sp, #1064]
	ldr	x21, [sp, #1056]
	ldr	x24, [sp, #1072]
	cbz	x23, .LBB96_736
	add	x25, x21, #24
	b	.LBB96_734
.LBB96_733:
	subs	x23, x23, #1
	add	x25, x25, #32
	b.eq	.LBB96_736
.LBB96_734:
	ldr	x8, [x25]
	cbz	x8, .LBB96_733
	ldur	x0, [x25, #-16]
	bl	rattle_dealloc
	b	.LBB96_733
.LBB96_736:
	cbz	x24, .LBB96_738
	mov	x0, x21
	bl	rattle_dealloc
.LBB96_738:
	ldr	x23, [sp, #1144]
	ldr	x21, [sp, #1136]
	ldr	x24, [sp, #1152]
	cbz	x23, .LBB96_743
	add	x25, x21, #16
	b	.LBB96_741
.LBB96_740:
	subs	x23, x23, #1
	add	x25, x25, #24
	b.eq	.LBB96_743
.LBB96_741:
	ldr	x8, [x25]
	cbz	x8, .LBB96_740
	ldur	x0, [x25, #-16]
	bl	rattle_dealloc
	b	.LBB96_740
.LBB96_743:
	cbz	x24, .LBB96_745
	mov	x0, x21
	bl	rattle_dealloc
.LBB96_745:
	movi	v0.2d, #0000000000000000
	add	x8, sp, #336
	mov	w21, wzr
	mov	x27, xzr
	mov	x28, xzr
	mov	x25, xzr
	str	xzr, [sp, #144]
	mov	w23, #2
	mov	w24, #1
	stp	xzr, xzr, [sp, #168]
	mov	w26, #2
	stur	q0, [x8, #36]
	stur	q0, [x8, #20]
	stur	q0, [x8, #4]
	b	.LBB96_439
.Lfunc_end96:
	.size	"ct_step::step::take_step::<#0f46d2847b2ce1ce>", .Lfunc_end96-"ct_step::step::take_step::<#0f46d2847b2ce1ce>"
	.section	".text.ct_tiles::row::joined","ax",@progbits
	.p2align	2
	.type	"ct_tiles::row::joined",@function
"ct_tiles::row::joined":
	sub	sp, sp, #112
	stp	x29, x30, [sp, #32]
	add	x29, sp, #32
	stp	x24, x23, [sp, #64]
	add	x23, x29, #31
	stp	x22, x21, [sp, #80]
	mov	x21, x4
	stp	x20, x19, [sp, #96]
	mov	x20, x3
	mov	x19, x0
	str	x25, [sp, #48]
	stp	xzr, xzr, [sp, #16]
	str	x23, [sp, #8]
	cbnz	x2, .LBB97_4
	mov	x22, xzr
	add	x0, x23, xzr, lsl #5
	lsl	x8, x2, #5
	add	x24, xzr, x2
	sub	x10, x0, x1
	cmp	x10, x8
	b.hs	.LBB97_6
.LBB97_2:
	cbz	x2, .LBB97_7
.LBB97_3:
	ldp	q1, q0, [x1], #32
	subs	x2, x2, #1
	stp	q1, q0, [x0], #32
	b.ne	.LBB97_3
	b	.LBB97_7
.LBB97_4:
	mov	x24, x1
	add	x0, sp, #8
	mov	x1, x2
	mov	x25, x2
	bl	"std_alloc::vec::Vec::grow_amortized::<#c3a63ae5e00ff772>"
	cbz	w0, .LBB97_16
	ldp	x9, x22, [sp, #16]
	mov	x1, x24
	ldr	x23, [sp, #8]
	mov	x2, x25
	add	x0, x23, x9, lsl #5
	lsl	x8, x25, #5
	add	x24, x9, x25
	sub	x10, x0, x1
	cmp	x10, x8
	b.lo	.LBB97_2
.LBB97_6:
	mov	x2, x8
	bl	memmove
.LBB97_7:
	sub	x8, x22, x24
	stp	x24, x22, [sp, #16]
	cmp	x21, x8
	b.hi	.LBB97_11
	add	x0, x23, x24, lsl #5
	lsl	x2, x21, #5
	add	x23, x24, x21
	sub	x8, x0, x20
	cmp	x8, x2
	b.hs	.LBB97_13
.LBB97_9:
	cbz	x21, .LBB97_14
.LBB97_10:
	ldp	q1, q0, [x20], #32
	subs	x21, x21, #1
	stp	q1, q0, [x0], #32
	b.ne	.LBB97_10
	b	.LBB97_14
.LBB97_11:
	add	x0, sp, #8
	mov	x1, x21
	bl	"std_alloc::vec::Vec::grow_amortized::<#c3a63ae5e00ff772>"
	cbz	w0, .LBB97_16
	ldp	x24, x22, [sp, #16]
	ldr	x23, [sp, #8]
	add	x0, x23, x24, lsl #5
	lsl	x2, x21, #5
	add	x23, x24, x21
	sub	x8, x0, x20
	cmp	x8, x2
	b.lo	.LBB97_9
.LBB97_13:
	mov	x1, x20
	bl	memmove
.LBB97_14:
	stp	x23, x22, [sp, #16]
	ldur	q0, [sp, #8]
	strb	wzr, [x19]
	str	x22, [x19, #24]
	stur	q0, [x19, #8]
.LBB97_15:
	ldp	x20, x19, [sp, #96]
	ldr	x25, [sp, #48]
	ldp	x22, x21, [sp, #80]
	ldp	x24, x23, [sp, #64]
	ldp	x29, x30, [sp, #32]
	add	sp, sp, #112
	ret
.LBB97_16:
	ldr	x8, [sp, #24]
	cbz	x8, .LBB97_18
	ldr	x0, [sp, #8]
	bl	rattle_dealloc
.LBB97_18:
	mov	w8, #1
	stp	xzr, xzr, [x19, #16]
	strb	w8, [x19]
	str	xzr, [x19, #8]
	b	.LBB97_15
.Lfunc_end97:
	.size	"ct_tiles::row::joined", .Lfunc_end97-"ct_tiles::row::joined"
	.section	.rodata.cst16,"aM",@progbits,16
	.p2align	4, 0x0
.LCPI98_0:
	.word	1779033703
	.word	3144134277
	.word	1013904242
	.word	2773480762
.LCPI98_1:
	.word	1359893119
	.word	2600822924
	.word	528734635
	.word	1541459225
	.section	".text.ct_tree::reference::root::<#0f46d2847b2ce1ce>","ax",@progbits
	.p2align	2
	.type	"ct_tree::reference::root::<#0f46d2847b2ce1ce>",@function
"ct_tree::reference::root::<#0f46d2847b2ce1ce>":
	sub	sp, sp, #304
	movi	v0.2d, #0000000000000000
	stp	x20, x19, [sp, #288]
	mov	x19, x0
	stp	x29, x30, [sp, #240]
	add	x29, sp, #240
	str	x28, [sp, #256]
	stp	x22, x21, [sp, #272]
	stp	q0, q0, [sp]
	cbz	x2, .LBB98_3
	cmp	x2, #1
	b.ne	.LBB98_4
	ldp	q0, q1, [x1]
	b	.LBB98_7
.LBB98_3:
	adrp	x8, .LCPI98_0
	stp	q0, q0, [sp, #128]
	adrp	x1, .Lstatic.5
	add	x1, x1, :lo12:.Lstatic.5
	ldr	q1, [x8, :lo12:.LCPI98_0]
	adrp	x8, .LCPI98_1
	stp	q0, q0, [sp, #160]
	ldr	q0, [x8, :lo12:.LCPI98_1]
	add	x0, sp, #96
	mov	w2, #56
	str	xzr, [sp, #192]
	stp	q1, q0, [sp, #96]
	bl	"sha2::block256::Core256::update"
	add	x0, sp, #96
	sub	x1, x29, #32
	mov	w2, #8
	stur	xzr, [x29, #-32]
	bl	"sha2::block256::Core256::update"
	ldp	q0, q1, [sp, #96]
	rev32	v0.16b, v0.16b
	rev32	v1.16b, v1.16b
	b	.LBB98_7
.LBB98_4:
	mov	w8, #1
.LBB98_5:
	mov	x21, x8
	sub	x20, x2, x8
	lsl	x8, x8, #1
	cmp	x21, x20
	b.lo	.LBB98_5
	mov	x0, sp
	mov	x2, x21
	mov	x22, x1
	bl	"ct_tree::reference::root::<#0f46d2847b2ce1ce>"
	ldp	q0, q1, [sp]
	add	x1, x22, x21, lsl #5
	mov	x0, sp
	mov	x2, x20
	stp	q0, q1, [sp, #64]
	bl	"ct_tree::reference::root::<#0f46d2847b2ce1ce>"
	movi	v0.2d, #0000000000000000
	ldp	q1, q2, [sp]
	adrp	x8, .Lstatic.8
	add	x8, x8, :lo12:.Lstatic.8
	mov	w9, #1
	stp	x8, x9, [sp, #96]
	add	x8, sp, #64
	mov	w9, #32
	stp	x8, x9, [sp, #112]
	add	x8, sp, #32
	sub	x0, x29, #32
	add	x1, sp, #96
	mov	w2, #3
	stp	q1, q2, [sp, #32]
	stp	q0, q0, [x29, #-32]
	stp	x8, x9, [sp, #128]
	bl	"ct_tree::hash::Sha256HashNodeHash::hash"
	ldp	q0, q1, [x29, #-32]
.LBB98_7:
	stp	q0, q1, [x19]
	ldp	x20, x19, [sp, #288]
	ldp	x22, x21, [sp, #272]
	ldr	x28, [sp, #256]
	ldp	x29, x30, [sp, #240]
	add	sp, sp, #304
	ret
.Lfunc_end98:
	.size	"ct_tree::reference::root::<#0f46d2847b2ce1ce>", .Lfunc_end98-"ct_tree::reference::root::<#0f46d2847b2ce1ce>"
	.section	".text.unlikely.ct_codec::signing::certificate_timestamp_signature_input_with_extensions::<#8ca9ace9f4c467fd>","ax",@progbits
	.p2align	2
	.type	"ct_codec::signing::certificate_timestamp_signature_input_with_extensions::<#8ca9ace9f4c467fd>",@function
"ct_codec::signing::certificate_timestamp_signature_input_with_extensions::<#8ca9ace9f4c467fd>":
	sub	sp, sp, #112
	stp	x29, x30, [sp, #64]
	add	x29, sp, #64
	stp	x22, x21, [sp, #80]
	mov	x21, x1
	sub	x8, x29, #1
	stp	x20, x19, [sp, #96]
	mov	x19, x0
	add	x0, sp, #32
	mov	w1, #2
	mov	x20, x3
	mov	x22, x2
	stp	xzr, xzr, [sp]
	stur	xzr, [sp, #22]
	str	xzr, [sp, #16]
	stp	xzr, xzr, [sp, #40]
	str	x8, [sp, #32]
	bl	"std_alloc::vec::Vec::grow_amortized::<#573e96821fb25c99>"
	cbz	w0, .LBB99_3
	ldp	x11, x8, [sp, #40]
	ldr	x10, [sp, #32]
	add	x9, x11, #2
	strh	wzr, [x10, x11]
	sub	x12, x8, x9
	str	x9, [sp, #40]
	cmp	x12, #7
	b.ls	.LBB99_11
.LBB99_2:
	add	x12, x9, #8
	add	x0, sp, #32
	mov	x1, x21
	rev	x11, x22
	str	x11, [x10, x9]
	stp	x12, x8, [sp, #40]
	bl	"ct_codec::writing::push_entry::<#8ca9ace9f4c467fd>"
	tst	w0, #0xff
	b.eq	.LBB99_7
.LBB99_3:
	ldr	x8, [sp, #48]
	cbz	x8, .LBB99_5
	ldr	x0, [sp, #32]
	bl	rattle_dealloc
.LBB99_5:
	mov	w11, #1
	stur	xzr, [sp, #14]
	stur	xzr, [sp, #6]
	stur	xzr, [sp, #22]
.LBB99_6:
	ldur	q0, [sp, #6]
	ldur	x8, [sp, #22]
	strb	w11, [x19]
	strb	wzr, [x19, #1]
	ldp	x22, x21, [sp, #80]
	stur	q0, [x19, #8]
	ldp	x29, x30, [sp, #64]
	str	x8, [x19, #24]
	ldp	x20, x19, [sp, #96]
	add	sp, sp, #112
	ret
.LBB99_7:
	ldp	x11, x8, [sp, #40]
	sub	x9, x8, x11
	cmp	x9, #1
	b.ls	.LBB99_13
.LBB99_8:
	add	x10, x11, #2
	ldr	x9, [sp, #32]
	mov	w12, #2048
	sub	x13, x8, x10
	stp	x10, x8, [sp, #40]
	cmp	x13, #7
	strh	w12, [x9, x11]
	b.ls	.LBB99_15
	add	x11, x9, x10
	add	x10, x10, #8
	sub	x12, x11, x20
	cmp	x12, #7
	b.hi	.LBB99_17
.LBB99_10:
	ldrb	w12, [x20]
	strb	w12, [x11]
	ldrb	w12, [x20, #1]
	strb	w12, [x11, #1]
	ldrb	w12, [x20, #2]
	strb	w12, [x11, #2]
	ldrb	w12, [x20, #3]
	strb	w12, [x11, #3]
	ldrb	w12, [x20, #4]
	strb	w12, [x11, #4]
	ldrb	w12, [x20, #5]
	strb	w12, [x11, #5]
	ldrb	w12, [x20, #6]
	strb	w12, [x11, #6]
	ldrb	w12, [x20, #7]
	strb	w12, [x11, #7]
	b	.LBB99_18
.LBB99_11:
	add	x0, sp, #32
	mov	w1, #8
	bl	"std_alloc::vec::Vec::grow_amortized::<#573e96821fb25c99>"
	cbz	w0, .LBB99_3
	ldp	x9, x8, [sp, #40]
	ldr	x10, [sp, #32]
	b	.LBB99_2
.LBB99_13:
	add	x0, sp, #32
	mov	w1, #2
	bl	"std_alloc::vec::Vec::grow_amortized::<#573e96821fb25c99>"
	cbz	w0, .LBB99_3
	ldp	x11, x8, [sp, #40]
	b	.LBB99_8
.LBB99_15:
	add	x0, sp, #32
	mov	w1, #8
	bl	"std_alloc::vec::Vec::grow_amortized::<#573e96821fb25c99>"
	cbz	w0, .LBB99_3
	ldp	x10, x8, [sp, #40]
	ldr	x9, [sp, #32]
	add	x11, x9, x10
	add	x10, x10, #8
	sub	x12, x11, x20
	cmp	x12, #7
	b.ls	.LBB99_10
.LBB99_17:
	ldr	x12, [x20]
	str	x12, [x11]
.LBB99_18:
	stp	x9, x10, [sp, #32]
	mov	w11, wzr
	ldr	q0, [sp, #32]
	str	x8, [sp, #48]
	stur	x8, [sp, #22]
	stur	q0, [sp, #6]
	b	.LBB99_6
.Lfunc_end99:
	.size	"ct_codec::signing::certificate_timestamp_signature_input_with_extensions::<#8ca9ace9f4c467fd>", .Lfunc_end99-"ct_codec::signing::certificate_timestamp_signature_input_with_extensions::<#8ca9ace9f4c467fd>"
	.section	".text.unlikely.std_alloc::vec::Vec::grow_amortized::<#15a860e52381fe46>","ax",@progbits
	.p2align	2
	.type	"std_alloc::vec::Vec::grow_amortized::<#15a860e52381fe46>",@function
"std_alloc::vec::Vec::grow_amortized::<#15a860e52381fe46>":
	ldr	x8, [x0, #8]
	cmn	x8, #1
	b.eq	.LBB100_5
	stp	x29, x30, [sp, #-32]!
	ldr	x9, [x0, #16]
	cmp	x8, #3
	mov	w10, #3
	csel	x11, x8, x10, hi
	stp	x20, x19, [sp, #16]
	mov	x29, sp
	lsl	x10, x9, #1
	add	x12, x11, #1
	lsr	x13, x9, #62
	cmp	x12, x10
	csinc	x10, x10, x11, ls
	cmp	x13, #0
	csinc	x19, x10, x11, eq
	mov	x11, #3689348814741910323
	movk	x11, #819, lsl #48
	cmp	x19, x11
	b.hi	.LBB100_7
	cbz	x9, .LBB100_6
	add	x8, x8, x8, lsl #2
	add	x9, x19, x19, lsl #2
	mov	x20, x0
	ldr	x0, [x0]
	mov	w3, #8
	lsl	x1, x8, #3
	lsl	x2, x9, #3
	bl	rattle_realloc
	tbz	w0, #0, .LBB100_7
.LBB100_4:
	mov	w0, #1
	str	x1, [x20]
	str	x19, [x20, #16]
	ldp	x20, x19, [sp, #16]
	ldp	x29, x30, [sp], #32
	ret
.LBB100_5:
	mov	w0, wzr
	ret
.LBB100_6:
	add	x8, x10, x10, lsl #2
	mov	x20, x0
	mov	w1, #8
	lsl	x0, x8, #3
	bl	rattle_alloc
	tbnz	w0, #0, .LBB100_4
.LBB100_7:
	mov	w0, wzr
	ldp	x20, x19, [sp, #16]
	ldp	x29, x30, [sp], #32
	ret
.Lfunc_end100:
	.size	"std_alloc::vec::Vec::grow_amortized::<#15a860e52381fe46>", .Lfunc_end100-"std_alloc::vec::Vec::grow_amortized::<#15a860e52381fe46>"
	.section	".text.unlikely.std_alloc::vec::Vec::grow_amortized::<#079cd3d278556d52>","ax",@progbits
	.p2align	2
	.type	"std_alloc::vec::Vec::grow_amortized::<#079cd3d278556d52>",@function
"std_alloc::vec::Vec::grow_amortized::<#079cd3d278556d52>":
	ldr	x8, [x0, #8]
	cmn	x8, #1
	b.eq	.LBB101_5
	stp	x29, x30, [sp, #-32]!
	ldr	x9, [x0, #16]
	cmp	x8, #3
	mov	w10, #3
	csel	x11, x8, x10, hi
	stp	x20, x19, [sp, #16]
	mov	x29, sp
	lsl	x10, x9, #1
	add	x12, x11, #1
	lsr	x13, x9, #62
	cmp	x12, x10
	csinc	x10, x10, x11, ls
	cmp	x13, #0
	csinc	x19, x10, x11, eq
	mov	x11, #6148914691236517205
	movk	x11, #1365, lsl #48
	cmp	x19, x11
	b.hi	.LBB101_7
	cbz	x9, .LBB101_6
	add	x8, x8, x8, lsl #1
	add	x9, x19, x19, lsl #1
	mov	x20, x0
	ldr	x0, [x0]
	mov	w3, #8
	lsl	x1, x8, #3
	lsl	x2, x9, #3
	bl	rattle_realloc
	tbz	w0, #0, .LBB101_7
.LBB101_4:
	mov	w0, #1
	str	x1, [x20]
	str	x19, [x20, #16]
	ldp	x20, x19, [sp, #16]
	ldp	x29, x30, [sp], #32
	ret
.LBB101_5:
	mov	w0, wzr
	ret
.LBB101_6:
	add	x8, x10, x10, lsl #1
	mov	x20, x0
	mov	w1, #8
	lsl	x0, x8, #3
	bl	rattle_alloc
	tbnz	w0, #0, .LBB101_4
.LBB101_7:
	mov	w0, wzr
	ldp	x20, x19, [sp, #16]
	ldp	x29, x30, [sp], #32
	ret
.Lfunc_end101:
	.size	"std_alloc::vec::Vec::grow_amortized::<#079cd3d278556d52>", .Lfunc_end101-"std_alloc::vec::Vec::grow_amortized::<#079cd3d278556d52>"
	.section	".text.unlikely.std_alloc::vec::Vec::grow_amortized::<#2052286ac88eaa2f>","ax",@progbits
	.p2align	2
	.type	"std_alloc::vec::Vec::grow_amortized::<#2052286ac88eaa2f>",@function
"std_alloc::vec::Vec::grow_amortized::<#2052286ac88eaa2f>":
	ldr	x8, [x0, #8]
	cmn	x8, #1
	b.eq	.LBB102_5
	stp	x29, x30, [sp, #-32]!
	ldr	x9, [x0, #16]
	cmp	x8, #3
	mov	w10, #3
	csel	x11, x8, x10, hi
	stp	x20, x19, [sp, #16]
	mov	x29, sp
	lsl	x10, x9, #1
	add	x12, x11, #1
	lsr	x13, x9, #62
	cmp	x12, x10
	csinc	x10, x10, x11, ls
	cmp	x13, #0
	csinc	x19, x10, x11, eq
	lsr	x11, x19, #58
	cbnz	x11, .LBB102_7
	cbz	x9, .LBB102_6
	mov	x20, x0
	ldr	x0, [x0]
	lsl	x1, x8, #5
	lsl	x2, x19, #5
	mov	w3, #8
	bl	rattle_realloc
	tbz	w0, #0, .LBB102_7
.LBB102_4:
	mov	w0, #1
	str	x1, [x20]
	str	x19, [x20, #16]
	ldp	x20, x19, [sp, #16]
	ldp	x29, x30, [sp], #32
	ret
.LBB102_5:
	mov	w0, wzr
	ret
.LBB102_6:
	mov	x20, x0
	lsl	x0, x10, #5
	mov	w1, #8
	bl	rattle_alloc
	tbnz	w0, #0, .LBB102_4
.LBB102_7:
	mov	w0, wzr
	ldp	x20, x19, [sp, #16]
	ldp	x29, x30, [sp], #32
	ret
.Lfunc_end102:
	.size	"std_alloc::vec::Vec::grow_amortized::<#2052286ac88eaa2f>", .Lfunc_end102-"std_alloc::vec::Vec::grow_amortized::<#2052286ac88eaa2f>"
	.section	".text.ct_data_tiles::writing::push_vector_2::<#fe12c7543020194e>","ax",@progbits
	.p2align	2
	.type	"ct_data_tiles::writing::push_vector_2::<#fe12c7543020194e>",@function
"ct_data_tiles::writing::push_vector_2::<#fe12c7543020194e>":
	sub	sp, sp, #80
	stp	x24, x23, [sp, #32]
	mov	x23, x0
	rev	w9, w2
	stp	x20, x19, [sp, #64]
	lsr	w9, w9, #16
	mov	x19, x0
	ldp	x8, x20, [x23, #8]!
	stp	x29, x30, [sp, #16]
	add	x29, sp, #16
	stp	x22, x21, [sp, #48]
	sub	x10, x20, x8
	sturh	w9, [x29, #-4]
	cmp	x10, #1
	b.ls	.LBB103_17
.LBB103_1:
	ldr	x21, [x19]
	sub	x9, x29, #4
	ldurh	w11, [x29, #-4]
	rev16	w12, w2
	add	x10, x21, x8
	add	x8, x8, #2
	sub	x9, x10, x9
	cmp	x9, #2
	csel	w9, w11, w12, lo
	strh	w9, [x10]
	sub	x9, x20, x8
	cmp	x2, x9
	stp	x21, x8, [x19]
	str	x20, [x19, #16]
	b.hi	.LBB103_19
	add	x0, x21, x8
	add	x22, x8, x2
	stp	xzr, xzr, [x23]
	sub	x9, x0, x1
	cmp	x9, x2
	b.hs	.LBB103_21
.LBB103_3:
	cmp	x2, #8
	b.lo	.LBB103_5
	add	x9, x8, x21
	sub	x9, x9, x1
	cmp	x9, #32
	b.hs	.LBB103_8
.LBB103_5:
	mov	x9, xzr
.LBB103_6:
	add	x10, x9, x8
	sub	x8, x2, x9
	add	x9, x1, x9
	add	x10, x21, x10
.LBB103_7:
	ldrb	w11, [x9], #1
	subs	x8, x8, #1
	strb	w11, [x10], #1
	b.ne	.LBB103_7
	b	.LBB103_22
.LBB103_8:
	cmp	x2, #32
	b.hs	.LBB103_10
	mov	x9, xzr
	b	.LBB103_14
.LBB103_10:
	add	x12, x8, x21
	and	x10, x2, #0x18
	and	x9, x2, #0xffffffffffffffe0
	add	x11, x1, #16
	add	x12, x12, #16
	and	x13, x2, #0xffffffffffffffe0
.LBB103_11:
	ldp	q0, q1, [x11, #-16]
	subs	x13, x13, #32
	add	x11, x11, #32
	stp	q0, q1, [x12, #-16]
	add	x12, x12, #32
	b.ne	.LBB103_11
	cmp	x2, x9
	b.eq	.LBB103_22
	cbz	x10, .LBB103_6
.LBB103_14:
	mov	x11, x9
	and	x9, x2, #0xfffffffffffffff8
	add	x12, x8, x11
	sub	x10, x11, x9
	add	x11, x1, x11
	add	x12, x21, x12
.LBB103_15:
	ldr	d0, [x11], #8
	adds	x10, x10, #8
	str	d0, [x12], #8
	b.ne	.LBB103_15
	cmp	x2, x9
	b.eq	.LBB103_22
	b	.LBB103_6
.LBB103_17:
	mov	x21, x1
	mov	x0, x19
	mov	w1, #2
	mov	x22, x2
	bl	"std_alloc::vec::Vec::grow_amortized::<#573e96821fb25c99>"
	cbz	w0, .LBB103_23
	ldp	x8, x20, [x19, #8]
	mov	x2, x22
	mov	x1, x21
	b	.LBB103_1
.LBB103_19:
	mov	x22, x1
	mov	x0, x19
	mov	x1, x2
	mov	x24, x2
	bl	"std_alloc::vec::Vec::grow_amortized::<#573e96821fb25c99>"
	cbz	w0, .LBB103_23
	ldp	x8, x20, [x19, #8]
	mov	x2, x24
	ldr	x21, [x19]
	mov	x1, x22
	add	x0, x21, x8
	add	x22, x8, x24
	stp	xzr, xzr, [x23]
	sub	x9, x0, x1
	cmp	x9, x24
	b.lo	.LBB103_3
.LBB103_21:
	bl	memmove
.LBB103_22:
	mov	w0, wzr
	stp	x21, x22, [x19]
	str	x20, [x19, #16]
	ldp	x20, x19, [sp, #64]
	ldp	x22, x21, [sp, #48]
	ldp	x24, x23, [sp, #32]
	ldp	x29, x30, [sp, #16]
	add	sp, sp, #80
	ret
.LBB103_23:
	mov	w0, #1
	ldp	x20, x19, [sp, #64]
	ldp	x22, x21, [sp, #48]
	ldp	x24, x23, [sp, #32]
	ldp	x29, x30, [sp, #16]
	add	sp, sp, #80
	ret
.Lfunc_end103:
	.size	"ct_data_tiles::writing::push_vector_2::<#fe12c7543020194e>", .Lfunc_end103-"ct_data_tiles::writing::push_vector_2::<#fe12c7543020194e>"
	.section	".text.unlikely.std_alloc::vec::Vec::grow_amortized::<#021260c5ab94664e>","ax",@progbits
	.p2align	2
	.type	"std_alloc::vec::Vec::grow_amortized::<#021260c5ab94664e>",@function
"std_alloc::vec::Vec::grow_amortized::<#021260c5ab94664e>":
	ldr	x8, [x0, #8]
	cmn	x8, #1
	b.eq	.LBB104_5
	stp	x29, x30, [sp, #-32]!
	ldr	x9, [x0, #16]
	cmp	x8, #3
	mov	w10, #3
	csel	x11, x8, x10, hi
	stp	x20, x19, [sp, #16]
	mov	x29, sp
	lsl	x10, x9, #1
	add	x12, x11, #1
	lsr	x13, x9, #62
	cmp	x12, x10
	csinc	x10, x10, x11, ls
	cmp	x13, #0
	csinc	x19, x10, x11, eq
	mov	x11, #6148914691236517205
	movk	x11, #1365, lsl #48
	cmp	x19, x11
	b.hi	.LBB104_7
	cbz	x9, .LBB104_6
	add	x8, x8, x8, lsl #1
	add	x9, x19, x19, lsl #1
	mov	x20, x0
	ldr	x0, [x0]
	mov	w3, #8
	lsl	x1, x8, #3
	lsl	x2, x9, #3
	bl	rattle_realloc
	tbz	w0, #0, .LBB104_7
.LBB104_4:
	mov	w0, #1
	str	x1, [x20]
	str	x19, [x20, #16]
	ldp	x20, x19, [sp, #16]
	ldp	x29, x30, [sp], #32
	ret
.LBB104_5:
	mov	w0, wzr
	ret
.LBB104_6:
	add	x8, x10, x10, lsl #1
	mov	x20, x0
	mov	w1, #8
	lsl	x0, x8, #3
	bl	rattle_alloc
	tbnz	w0, #0, .LBB104_4
.LBB104_7:
	mov	w0, wzr
	ldp	x20, x19, [sp, #16]
	ldp	x29, x30, [sp], #32
	ret
.Lfunc_end104:
	.size	"std_alloc::vec::Vec::grow_amortized::<#021260c5ab94664e>", .Lfunc_end104-"std_alloc::vec::Vec::grow_amortized::<#021260c5ab94664e>"
	.section	".text.ct_step::objects::push_tile","ax",@progbits
	.p2align	2
	.type	"ct_step::objects::push_tile",@function
"ct_step::objects::push_tile":
	sub	sp, sp, #128
	movi	v0.2d, #0000000000000000
	stp	x20, x19, [sp, #112]
	mov	x20, x0
	mov	x0, sp
	stp	x29, x30, [sp, #32]
	add	x29, sp, #32
	str	x27, [sp, #48]
	stp	x26, x25, [sp, #64]
	stp	x24, x23, [sp, #80]
	stp	x22, x21, [sp, #96]
	mov	x21, x3
	mov	x22, x2
	stp	q0, q0, [sp]
	bl	"ct_data_tiles::name_writing::written"
	ldrb	w8, [sp]
	cbz	w8, .LBB105_2
	mov	w0, #1
	b	.LBB105_48
.LBB105_2:
	mov	x26, x20
	ldp	x19, x2, [sp, #8]
	ldp	x9, x24, [x26, #8]!
	ldr	x23, [sp, #24]
	sub	x8, x24, x9
	cmp	x8, #1
	b.ls	.LBB105_19
.LBB105_3:
	ldr	x25, [x20]
	add	x8, x9, #2
	rev16	w10, w2
	strh	w10, [x25, x9]
	sub	x9, x24, x8
	cmp	x2, x9
	stp	x25, x8, [x20]
	str	x24, [x20, #16]
	b.hi	.LBB105_21
	add	x0, x25, x8
	add	x27, x8, x2
	stp	xzr, xzr, [x26]
	sub	x9, x0, x19
	cmp	x9, x2
	b.hs	.LBB105_23
.LBB105_5:
	cmp	x2, #8
	b.lo	.LBB105_7
	add	x9, x8, x25
	sub	x9, x9, x19
	cmp	x9, #32
	b.hs	.LBB105_10
.LBB105_7:
	mov	x9, xzr
.LBB105_8:
	add	x10, x9, x8
	sub	x8, x2, x9
	add	x9, x19, x9
	add	x10, x25, x10
.LBB105_9:
	ldrb	w11, [x9], #1
	subs	x8, x8, #1
	strb	w11, [x10], #1
	b.ne	.LBB105_9
	b	.LBB105_24
.LBB105_10:
	cmp	x2, #32
	b.hs	.LBB105_12
	mov	x9, xzr
	b	.LBB105_16
.LBB105_12:
	add	x12, x8, x25
	and	x10, x2, #0x18
	and	x9, x2, #0xffffffffffffffe0
	add	x11, x19, #16
	add	x12, x12, #16
	and	x13, x2, #0xffffffffffffffe0
.LBB105_13:
	ldp	q0, q1, [x11, #-16]
	subs	x13, x13, #32
	add	x11, x11, #32
	stp	q0, q1, [x12, #-16]
	add	x12, x12, #32
	b.ne	.LBB105_13
	cmp	x2, x9
	b.eq	.LBB105_24
	cbz	x10, .LBB105_8
.LBB105_16:
	mov	x11, x9
	and	x9, x2, #0xfffffffffffffff8
	add	x12, x8, x11
	sub	x10, x11, x9
	add	x11, x19, x11
	add	x12, x25, x12
.LBB105_17:
	ldr	d0, [x11], #8
	adds	x10, x10, #8
	str	d0, [x12], #8
	b.ne	.LBB105_17
	cmp	x2, x9
	b.eq	.LBB105_24
	b	.LBB105_8
.LBB105_19:
	mov	x0, x20
	mov	w1, #2
	mov	x25, x2
	bl	"std_alloc::vec::Vec::grow_amortized::<#573e96821fb25c99>"
	cbz	w0, .LBB105_49
	ldp	x9, x24, [x20, #8]
	mov	x2, x25
	b	.LBB105_3
.LBB105_21:
	mov	x0, x20
	mov	x1, x2
	mov	x27, x2
	bl	"std_alloc::vec::Vec::grow_amortized::<#573e96821fb25c99>"
	cbz	w0, .LBB105_49
	ldp	x8, x24, [x20, #8]
	mov	x2, x27
	ldr	x25, [x20]
	add	x0, x25, x8
	add	x27, x8, x27
	stp	xzr, xzr, [x26]
	sub	x9, x0, x19
	cmp	x9, x2
	b.lo	.LBB105_5
.LBB105_23:
	mov	x1, x19
	bl	memmove
.LBB105_24:
	sub	x8, x24, x27
	stp	x25, x27, [x20]
	cmp	x8, #3
	str	x24, [x20, #16]
	b.ls	.LBB105_41
.LBB105_25:
	rev	w9, w21
	add	x8, x27, #4
	str	w9, [x25, x27]
	sub	x9, x24, x8
	stp	x25, x8, [x20]
	cmp	x21, x9
	str	x24, [x20, #16]
	b.hi	.LBB105_43
	add	x0, x25, x8
	add	x27, x8, x21
	stp	xzr, xzr, [x26]
	sub	x9, x0, x22
	cmp	x9, x21
	b.hs	.LBB105_45
.LBB105_27:
	cmp	x21, #8
	b.lo	.LBB105_29
	add	x9, x8, x25
	sub	x9, x9, x22
	cmp	x9, #32
	b.hs	.LBB105_32
.LBB105_29:
	mov	x9, xzr
.LBB105_30:
	add	x10, x9, x8
	sub	x8, x21, x9
	add	x9, x22, x9
	add	x10, x25, x10
.LBB105_31:
	ldrb	w11, [x9], #1
	subs	x8, x8, #1
	strb	w11, [x10], #1
	b.ne	.LBB105_31
	b	.LBB105_46
.LBB105_32:
	cmp	x21, #32
	b.hs	.LBB105_34
	mov	x9, xzr
	b	.LBB105_38
.LBB105_34:
	add	x12, x8, x25
	and	x10, x21, #0x18
	and	x9, x21, #0xffffffffffffffe0
	add	x11, x22, #16
	add	x12, x12, #16
	and	x13, x21, #0xffffffffffffffe0
.LBB105_35:
	ldp	q0, q1, [x11, #-16]
	subs	x13, x13, #32
	add	x11, x11, #32
	stp	q0, q1, [x12, #-16]
	add	x12, x12, #32
	b.ne	.LBB105_35
	cmp	x21, x9
	b.eq	.LBB105_46
	cbz	x10, .LBB105_30
.LBB105_38:
	mov	x11, x9
	and	x9, x21, #0xfffffffffffffff8
	add	x12, x8, x11
	sub	x10, x11, x9
	add	x11, x22, x11
	add	x12, x25, x12
.LBB105_39:
	ldr	d0, [x11], #8
	adds	x10, x10, #8
	str	d0, [x12], #8
	b.ne	.LBB105_39
	cmp	x21, x9
	b.eq	.LBB105_46
	b	.LBB105_30
.LBB105_41:
	mov	x0, x20
	mov	w1, #4
	bl	"std_alloc::vec::Vec::grow_amortized::<#573e96821fb25c99>"
	cbz	w0, .LBB105_49
	ldp	x27, x24, [x20, #8]
	ldr	x25, [x20]
	b	.LBB105_25
.LBB105_43:
	mov	x0, x20
	mov	x1, x21
	bl	"std_alloc::vec::Vec::grow_amortized::<#573e96821fb25c99>"
	cbz	w0, .LBB105_49
	ldp	x8, x24, [x20, #8]
	ldr	x25, [x20]
	add	x0, x25, x8
	add	x27, x8, x21
	stp	xzr, xzr, [x26]
	sub	x9, x0, x22
	cmp	x9, x21
	b.lo	.LBB105_27
.LBB105_45:
	mov	x1, x22
	mov	x2, x21
	bl	memmove
.LBB105_46:
	mov	w0, wzr
	stp	x25, x27, [x20]
	str	x24, [x20, #16]
	cbz	x23, .LBB105_48
.LBB105_47:
	mov	w20, w0
	mov	x0, x19
	bl	rattle_dealloc
	mov	w0, w20
.LBB105_48:
	ldp	x20, x19, [sp, #112]
	ldr	x27, [sp, #48]
	ldp	x22, x21, [sp, #96]
	ldp	x24, x23, [sp, #80]
	ldp	x26, x25, [sp, #64]
	ldp	x29, x30, [sp, #32]
	add	sp, sp, #128
	ret
.LBB105_49:
	mov	w0, #1
	cbnz	x23, .LBB105_47
	b	.LBB105_48
.Lfunc_end105:
	.size	"ct_step::objects::push_tile", .Lfunc_end105-"ct_step::objects::push_tile"
	.section	".text.unlikely.ct_step::step::next_line::<#0f46d2847b2ce1ce>","ax",@progbits
	.p2align	2
	.type	"ct_step::step::next_line::<#0f46d2847b2ce1ce>",@function
"ct_step::step::next_line::<#0f46d2847b2ce1ce>":
	sub	sp, sp, #320
	movi	v0.2d, #0000000000000000
	stp	x29, x30, [sp, #224]
	add	x29, sp, #224
	stp	x20, x19, [sp, #304]
	mov	x19, x0
	sub	x0, x29, #48
	stp	x28, x27, [sp, #240]
	mov	x20, x6
	stp	x26, x25, [sp, #256]
	mov	x25, x2
	stp	x24, x23, [sp, #272]
	mov	x23, x4
	mov	x24, x3
	stp	x22, x21, [sp, #288]
	mov	x21, x5
	stp	q0, q0, [x29, #-48]
	stp	q0, q0, [sp, #16]
	stp	q0, q0, [sp, #64]
	stp	q0, q0, [sp, #112]
	bl	"ct_step::line::StateLine::write"
	ldurb	w8, [x29, #-48]
	cbz	w8, .LBB106_2
	movi	v0.2d, #0000000000000000
	mov	w8, #1
	strb	w8, [x19]
	stur	q0, [x19, #8]
	stur	q0, [x19, #24]
	stur	q0, [x19, #40]
	stur	q0, [x19, #56]
	stur	q0, [x19, #72]
	stur	q0, [x19, #88]
	stur	q0, [x19, #104]
	stur	q0, [x19, #120]
	stur	q0, [x19, #136]
	b	.LBB106_5
.LBB106_2:
	ldp	q0, q1, [x25, #16]
	add	x0, sp, #112
	ldp	x22, x27, [x29, #-40]
	add	x1, sp, #96
	ldp	x26, x25, [x25]
	mov	w2, #1
	ldur	x28, [x29, #-24]
	stp	q0, q1, [x29, #-80]
	stp	x24, x23, [sp, #96]
	bl	"ct_tree::hash::Sha256HashNodeHash::hash"
	add	x0, sp, #64
	add	x1, sp, #48
	mov	w2, #1
	stp	x21, x20, [sp, #48]
	bl	"ct_tree::hash::Sha256HashNodeHash::hash"
	add	x0, sp, #16
	mov	x1, sp
	mov	w2, #1
	stp	x22, x27, [sp]
	bl	"ct_tree::hash::Sha256HashNodeHash::hash"
	cbz	x28, .LBB106_4
	mov	x0, x22
	bl	rattle_dealloc
.LBB106_4:
	ldp	q0, q1, [x29, #-80]
	strb	wzr, [x19]
	stp	x26, x25, [x19, #8]
	stur	q0, [x19, #24]
	stur	q1, [x19, #40]
	ldp	q0, q1, [sp, #112]
	stur	q0, [x19, #56]
	stur	q1, [x19, #72]
	ldp	q0, q1, [sp, #64]
	stur	q0, [x19, #88]
	stur	q1, [x19, #104]
	ldp	q1, q0, [sp, #16]
	stur	q0, [x19, #136]
	stur	q1, [x19, #120]
.LBB106_5:
	ldp	x20, x19, [sp, #304]
	ldp	x22, x21, [sp, #288]
	ldp	x24, x23, [sp, #272]
	ldp	x26, x25, [sp, #256]
	ldp	x28, x27, [sp, #240]
	ldp	x29, x30, [sp, #224]
	add	sp, sp, #320
	ret
.Lfunc_end106:
	.size	"ct_step::step::next_line::<#0f46d2847b2ce1ce>", .Lfunc_end106-"ct_step::step::next_line::<#0f46d2847b2ce1ce>"
	.section	.rodata.cst8,"aM",@progbits,8
	.p2align	3, 0x0
.LCPI107_0:
	.byte	103
	.byte	114
	.byte	111
	.byte	119
	.zero	1
	.zero	1
	.zero	1
	.zero	1
	.section	".text.unlikely.ct_step::line::StateLine::write","ax",@progbits
	.p2align	2
	.type	"ct_step::line::StateLine::write",@function
"ct_step::line::StateLine::write":
	sub	sp, sp, #160
	stp	x29, x30, [sp, #80]
	add	x29, sp, #80
	stp	x22, x21, [sp, #128]
	add	x8, x29, #31
	ldr	x22, [x1]
	stp	x20, x19, [sp, #144]
	mov	x20, x1
	mov	x19, x0
	sub	x0, x29, #24
	mov	w1, #8
	str	x25, [sp, #96]
	stp	x24, x23, [sp, #112]
	sub	x21, x29, #24
	stp	xzr, xzr, [sp, #24]
	stur	xzr, [sp, #47]
	str	xzr, [sp, #40]
	stp	xzr, xzr, [sp, #8]
	str	xzr, [sp]
	stp	x8, xzr, [x29, #-24]
	stur	xzr, [x29, #-8]
	bl	"std_alloc::vec::Vec::grow_amortized::<#573e96821fb25c99>"
	cbz	w0, .LBB107_56
	ldp	x10, x23, [x29, #-16]
	rev	x11, x22
	ldur	x8, [x29, #-24]
	add	x9, x10, #8
	str	x11, [x8, x10]
	sub	x10, x23, x9
	ldr	x22, [x20, #8]
	stur	x9, [x29, #-16]
	cmp	x10, #7
	b.ls	.LBB107_46
.LBB107_2:
	add	x10, x9, #8
	rev	x11, x22
	str	x11, [x8, x9]
	sub	x9, x23, x10
	stp	x10, x23, [x29, #-16]
	cmp	x9, #32
	b.lo	.LBB107_48
.LBB107_3:
	add	x11, x20, #16
	add	x9, x8, x10
	stp	xzr, xzr, [x21, #8]
	sub	x8, x9, x11
	cmp	x8, #31
	add	x8, x10, #32
	b.hi	.LBB107_5
	ldrb	w10, [x20, #16]
	strb	w10, [x9]
	ldrb	w10, [x20, #17]
	strb	w10, [x9, #1]
	ldrb	w10, [x20, #18]
	strb	w10, [x9, #2]
	ldrb	w10, [x20, #19]
	strb	w10, [x9, #3]
	ldrb	w10, [x20, #20]
	strb	w10, [x9, #4]
	ldrb	w10, [x20, #21]
	strb	w10, [x9, #5]
	ldrb	w10, [x20, #22]
	strb	w10, [x9, #6]
	ldrb	w10, [x20, #23]
	strb	w10, [x9, #7]
	ldrb	w10, [x20, #24]
	strb	w10, [x9, #8]
	ldrb	w10, [x20, #25]
	strb	w10, [x9, #9]
	ldrb	w10, [x20, #26]
	strb	w10, [x9, #10]
	ldrb	w10, [x20, #27]
	strb	w10, [x9, #11]
	ldrb	w10, [x20, #28]
	strb	w10, [x9, #12]
	ldrb	w10, [x20, #29]
	strb	w10, [x9, #13]
	ldrb	w10, [x20, #30]
	strb	w10, [x9, #14]
	ldrb	w10, [x20, #31]
	strb	w10, [x9, #15]
	ldrb	w10, [x20, #32]
	strb	w10, [x9, #16]
	ldrb	w10, [x20, #33]
	strb	w10, [x9, #17]
	ldrb	w10, [x20, #34]
	strb	w10, [x9, #18]
	ldrb	w10, [x20, #35]
	strb	w10, [x9, #19]
	ldrb	w10, [x20, #36]
	strb	w10, [x9, #20]
	ldrb	w10, [x20, #37]
	strb	w10, [x9, #21]
	ldrb	w10, [x20, #38]
	strb	w10, [x9, #22]
	ldrb	w10, [x20, #39]
	strb	w10, [x9, #23]
	ldrb	w10, [x20, #40]
	strb	w10, [x9, #24]
	ldrb	w10, [x20, #41]
	strb	w10, [x9, #25]
	ldrb	w10, [x20, #42]
	strb	w10, [x9, #26]
	ldrb	w10, [x20, #43]
	strb	w10, [x9, #27]
	ldrb	w10, [x20, #44]
	strb	w10, [x9, #28]
	ldrb	w10, [x20, #45]
	strb	w10, [x9, #29]
	ldrb	w10, [x20, #46]
	strb	w10, [x9, #30]
	ldrb	w10, [x20, #47]
	strb	w10, [x9, #31]
	sub	x9, x23, x8
	stp	x8, x23, [x29, #-16]
	cmp	x9, #31
	b.hi	.LBB107_6
	b	.LBB107_50
.LBB107_5:
	ldp	q1, q0, [x11]
	stp	q1, q0, [x9]
	sub	x9, x23, x8
	stp	x8, x23, [x29, #-16]
	cmp	x9, #31
	b.ls	.LBB107_50
.LBB107_6:
	ldur	x9, [x29, #-24]
	add	x10, x20, #48
	stp	xzr, xzr, [x21, #8]
	add	x9, x9, x8
	add	x8, x8, #32
	sub	x11, x9, x10
	cmp	x11, #31
	b.hi	.LBB107_8
	ldrb	w10, [x20, #48]
	strb	w10, [x9]
	ldrb	w10, [x20, #49]
	strb	w10, [x9, #1]
	ldrb	w10, [x20, #50]
	strb	w10, [x9, #2]
	ldrb	w10, [x20, #51]
	strb	w10, [x9, #3]
	ldrb	w10, [x20, #52]
	strb	w10, [x9, #4]
	ldrb	w10, [x20, #53]
	strb	w10, [x9, #5]
	ldrb	w10, [x20, #54]
	strb	w10, [x9, #6]
	ldrb	w10, [x20, #55]
	strb	w10, [x9, #7]
	ldrb	w10, [x20, #56]
	strb	w10, [x9, #8]
	ldrb	w10, [x20, #57]
	strb	w10, [x9, #9]
	ldrb	w10, [x20, #58]
	strb	w10, [x9, #10]
	ldrb	w10, [x20, #59]
	strb	w10, [x9, #11]
	ldrb	w10, [x20, #60]
	strb	w10, [x9, #12]
	ldrb	w10, [x20, #61]
	strb	w10, [x9, #13]
	ldrb	w10, [x20, #62]
	strb	w10, [x9, #14]
	ldrb	w10, [x20, #63]
	strb	w10, [x9, #15]
	ldrb	w10, [x20, #64]
	strb	w10, [x9, #16]
	ldrb	w10, [x20, #65]
	strb	w10, [x9, #17]
	ldrb	w10, [x20, #66]
	strb	w10, [x9, #18]
	ldrb	w10, [x20, #67]
	strb	w10, [x9, #19]
	ldrb	w10, [x20, #68]
	strb	w10, [x9, #20]
	ldrb	w10, [x20, #69]
	strb	w10, [x9, #21]
	ldrb	w10, [x20, #70]
	strb	w10, [x9, #22]
	ldrb	w10, [x20, #71]
	strb	w10, [x9, #23]
	ldrb	w10, [x20, #72]
	strb	w10, [x9, #24]
	ldrb	w10, [x20, #73]
	strb	w10, [x9, #25]
	ldrb	w10, [x20, #74]
	strb	w10, [x9, #26]
	ldrb	w10, [x20, #75]
	strb	w10, [x9, #27]
	ldrb	w10, [x20, #76]
	strb	w10, [x9, #28]
	ldrb	w10, [x20, #77]
	strb	w10, [x9, #29]
	ldrb	w10, [x20, #78]
	strb	w10, [x9, #30]
	ldrb	w10, [x20, #79]
	strb	w10, [x9, #31]
	sub	x9, x23, x8
	stp	x8, x23, [x29, #-16]
	cmp	x9, #31
	b.hi	.LBB107_9
	b	.LBB107_52
.LBB107_8:
	ldp	q1, q0, [x10]
	stp	q1, q0, [x9]
	sub	x9, x23, x8
	stp	x8, x23, [x29, #-16]
	cmp	x9, #31
	b.ls	.LBB107_52
.LBB107_9:
	ldur	x9, [x29, #-24]
	add	x10, x20, #80
	stp	xzr, xzr, [x21, #8]
	add	x9, x9, x8
	add	x8, x8, #32
	sub	x11, x9, x10
	cmp	x11, #31
	b.hi	.LBB107_11
	ldrb	w10, [x20, #80]
	strb	w10, [x9]
	ldrb	w10, [x20, #81]
	strb	w10, [x9, #1]
	ldrb	w10, [x20, #82]
	strb	w10, [x9, #2]
	ldrb	w10, [x20, #83]
	strb	w10, [x9, #3]
	ldrb	w10, [x20, #84]
	strb	w10, [x9, #4]
	ldrb	w10, [x20, #85]
	strb	w10, [x9, #5]
	ldrb	w10, [x20, #86]
	strb	w10, [x9, #6]
	ldrb	w10, [x20, #87]
	strb	w10, [x9, #7]
	ldrb	w10, [x20, #88]
	strb	w10, [x9, #8]
	ldrb	w10, [x20, #89]
	strb	w10, [x9, #9]
	ldrb	w10, [x20, #90]
	strb	w10, [x9, #10]
	ldrb	w10, [x20, #91]
	strb	w10, [x9, #11]
	ldrb	w10, [x20, #92]
	strb	w10, [x9, #12]
	ldrb	w10, [x20, #93]
	strb	w10, [x9, #13]
	ldrb	w10, [x20, #94]
	strb	w10, [x9, #14]
	ldrb	w10, [x20, #95]
	strb	w10, [x9, #15]
	ldrb	w10, [x20, #96]
	strb	w10, [x9, #16]
	ldrb	w10, [x20, #97]
	strb	w10, [x9, #17]
	ldrb	w10, [x20, #98]
	strb	w10, [x9, #18]
	ldrb	w10, [x20, #99]
	strb	w10, [x9, #19]
	ldrb	w10, [x20, #100]
	strb	w10, [x9, #20]
	ldrb	w10, [x20, #101]
	strb	w10, [x9, #21]
	ldrb	w10, [x20, #102]
	strb	w10, [x9, #22]
	ldrb	w10, [x20, #103]
	strb	w10, [x9, #23]
	ldrb	w10, [x20, #104]
	strb	w10, [x9, #24]
	ldrb	w10, [x20, #105]
	strb	w10, [x9, #25]
	ldrb	w10, [x20, #106]
	strb	w10, [x9, #26]
	ldrb	w10, [x20, #107]
	strb	w10, [x9, #27]
	ldrb	w10, [x20, #108]
	strb	w10, [x9, #28]
	ldrb	w10, [x20, #109]
	strb	w10, [x9, #29]
	ldrb	w10, [x20, #110]
	strb	w10, [x9, #30]
	ldrb	w10, [x20, #111]
	strb	w10, [x9, #31]
	sub	x9, x23, x8
	stp	x8, x23, [x29, #-16]
	cmp	x9, #31
	b.hi	.LBB107_12
	b	.LBB107_54
.LBB107_11:
	ldp	q1, q0, [x10]
	stp	q1, q0, [x9]
	sub	x9, x23, x8
	stp	x8, x23, [x29, #-16]
	cmp	x9, #31
	b.ls	.LBB107_54
.LBB107_12:
	ldur	x22, [x29, #-24]
	add	x10, x20, #112
	add	x24, x8, #32
	stp	xzr, xzr, [x21, #8]
	add	x9, x22, x8
	sub	x11, x9, x10
	cmp	x11, #31
	b.hi	.LBB107_14
	ldrb	w8, [x20, #112]
	ldur	x22, [x29, #-24]
	strb	w8, [x9]
	ldrb	w8, [x20, #113]
	strb	w8, [x9, #1]
	ldrb	w8, [x20, #114]
	strb	w8, [x9, #2]
	ldrb	w8, [x20, #115]
	strb	w8, [x9, #3]
	ldrb	w8, [x20, #116]
	strb	w8, [x9, #4]
	ldrb	w8, [x20, #117]
	strb	w8, [x9, #5]
	ldrb	w8, [x20, #118]
	strb	w8, [x9, #6]
	ldrb	w8, [x20, #119]
	strb	w8, [x9, #7]
	ldrb	w8, [x20, #120]
	strb	w8, [x9, #8]
	ldrb	w8, [x20, #121]
	strb	w8, [x9, #9]
	ldrb	w8, [x20, #122]
	strb	w8, [x9, #10]
	ldrb	w8, [x20, #123]
	strb	w8, [x9, #11]
	ldrb	w8, [x20, #124]
	strb	w8, [x9, #12]
	ldrb	w8, [x20, #125]
	strb	w8, [x9, #13]
	ldrb	w8, [x20, #126]
	strb	w8, [x9, #14]
	ldrb	w8, [x20, #127]
	strb	w8, [x9, #15]
	ldrb	w8, [x20, #128]
	strb	w8, [x9, #16]
	ldrb	w8, [x20, #129]
	strb	w8, [x9, #17]
	ldrb	w8, [x20, #130]
	strb	w8, [x9, #18]
	ldrb	w8, [x20, #131]
	strb	w8, [x9, #19]
	ldrb	w8, [x20, #132]
	strb	w8, [x9, #20]
	ldrb	w8, [x20, #133]
	strb	w8, [x9, #21]
	ldrb	w8, [x20, #134]
	strb	w8, [x9, #22]
	ldrb	w8, [x20, #135]
	strb	w8, [x9, #23]
	ldrb	w8, [x20, #136]
	strb	w8, [x9, #24]
	ldrb	w8, [x20, #137]
	strb	w8, [x9, #25]
	ldrb	w8, [x20, #138]
	strb	w8, [x9, #26]
	ldrb	w8, [x20, #139]
	strb	w8, [x9, #27]
	ldrb	w8, [x20, #140]
	strb	w8, [x9, #28]
	ldrb	w8, [x20, #141]
	strb	w8, [x9, #29]
	ldrb	w8, [x20, #142]
	strb	w8, [x9, #30]
	ldrb	w8, [x20, #143]
	strb	w8, [x9, #31]
	tbz	x24, #63, .LBB107_15
	b	.LBB107_20
.LBB107_14:
	ldp	q1, q0, [x10]
	stp	q1, q0, [x9]
	tbnz	x24, #63, .LBB107_20
.LBB107_15:
	lsl	x21, x24, #1
	cbz	x21, .LBB107_30
	tbnz	x21, #63, .LBB107_20
	mov	x0, x21
	mov	w1, #1
	bl	rattle_alloc
	tbz	w0, #0, .LBB107_20
	mov	x20, x1
	sub	x2, x21, #1
	mov	x0, x1
	mov	w1, wzr
	sub	x25, x21, #1
	bl	memset
	strb	wzr, [x20, x25]
	cbnz	x24, .LBB107_31
.LBB107_19:
	mov	x21, xzr
	b	.LBB107_33
.LBB107_20:
	mov	w24, wzr
	mov	x20, xzr
	mov	x21, xzr
	cbz	x23, .LBB107_22
.LBB107_21:
	mov	x0, x22
	bl	rattle_dealloc
.LBB107_22:
	tbz	w24, #0, .LBB107_58
	mov	w0, #7
	mov	w1, #1
	bl	rattle_alloc
	tbz	w0, #0, .LBB107_26
	adrp	x8, .Lstatic.12
	add	x8, x8, :lo12:.Lstatic.12
	sub	x8, x1, x8
	cmp	x8, #6
	b.hi	.LBB107_34
	adrp	x8, .LCPI107_0
	mov	w9, #26740
	ldr	d0, [x8, :lo12:.LCPI107_0]
	mov	w8, #32
	strh	w9, [x1, #4]
	strb	w8, [x1, #6]
	str	s0, [x1]
	b	.LBB107_35
.LBB107_26:
	add	x8, sp, #24
	stur	xzr, [sp, #39]
	orr	x22, x8, #0x7
	stur	xzr, [sp, #31]
	stur	xzr, [sp, #47]
	cbz	x21, .LBB107_28
	mov	x0, x20
	bl	rattle_dealloc
.LBB107_28:
	ldr	q0, [x22]
	ldr	x9, [x22, #16]
.LBB107_29:
	mov	w8, #1
	strb	w8, [x19]
	stur	q0, [x19, #8]
	str	x9, [x19, #24]
	b	.LBB107_59
.LBB107_30:
	add	x20, x29, #31
	cbz	x24, .LBB107_19
.LBB107_31:
	add	x8, x20, #1
	mov	x9, x22
.LBB107_32:
	ldrb	w10, [x9], #1
	adrp	x12, .Lstatic.1
	add	x12, x12, :lo12:.Lstatic.1
	subs	x24, x24, #1
	lsr	x11, x10, #4
	and	x10, x10, #0xf
	ldrb	w11, [x12, x11]
	sturb	w11, [x8, #-1]
	ldrb	w10, [x12, x10]
	strb	w10, [x8], #2
	b.ne	.LBB107_32
.LBB107_33:
	mov	w24, #1
	cbnz	x23, .LBB107_21
	b	.LBB107_22
.LBB107_34:
	mov	w8, #29815
	mov	w9, #29287
	movk	w8, #8296, lsl #16
	movk	w9, #30575, lsl #16
	stur	w8, [x1, #3]
	str	w9, [x1]
.LBB107_35:
	mov	w22, #7
	mov	w8, #7
	str	x1, [sp]
	dup	v0.2d, x22
	stur	q0, [sp, #8]
	cbnz	x21, .LBB107_69
.LBB107_36:
	add	x0, x1, x8
	mov	x9, sp
	add	x23, x8, x21
	sub	x10, x0, x20
	stp	xzr, xzr, [x9, #8]
	cmp	x10, x21
	b.hs	.LBB107_43
	cmp	x21, #8
	b.lo	.LBB107_39
	add	x9, x8, x1
	sub	x9, x9, x20
	cmp	x9, #32
	b.hs	.LBB107_60
.LBB107_39:
	mov	x9, xzr
.LBB107_40:
	add	x10, x9, x8
	sub	x8, x21, x9
	add	x9, x20, x9
	add	x10, x1, x10
.LBB107_41:
	ldrb	w11, [x9], #1
	subs	x8, x8, #1
	strb	w11, [x10], #1
	b.ne	.LBB107_41
.LBB107_42:
	stp	x23, x22, [sp, #8]
	add	x8, sp, #24
	ldr	q0, [sp]
	stur	x22, [sp, #47]
	orr	x22, x8, #0x7
	stur	q0, [sp, #31]
	b	.LBB107_44
.LBB107_43:
	mov	x1, x20
	mov	x2, x21
	bl	memmove
	stp	x23, x22, [sp, #8]
	add	x8, sp, #24
	ldr	q0, [sp]
	stur	x22, [sp, #47]
	orr	x22, x8, #0x7
	stur	q0, [sp, #31]
	cbz	x21, .LBB107_45
.LBB107_44:
	mov	x0, x20
	bl	rattle_dealloc
.LBB107_45:
	strb	wzr, [x19]
	ldr	x8, [x22, #16]
	ldr	q0, [x22]
	str	x8, [x19, #24]
	stur	q0, [x19, #8]
	b	.LBB107_59
.LBB107_46:
	sub	x0, x29, #24
	mov	w1, #8
	bl	"std_alloc::vec::Vec::grow_amortized::<#573e96821fb25c99>"
	cbz	w0, .LBB107_56
	ldp	x9, x23, [x29, #-16]
	ldur	x8, [x29, #-24]
	b	.LBB107_2
.LBB107_48:
	sub	x0, x29, #24
	mov	w1, #32
	bl	"std_alloc::vec::Vec::grow_amortized::<#573e96821fb25c99>"
	cbz	w0, .LBB107_56
	ldp	x10, x23, [x29, #-16]
	ldur	x8, [x29, #-24]
	b	.LBB107_3
.LBB107_50:
	sub	x0, x29, #24
	mov	w1, #32
	bl	"std_alloc::vec::Vec::grow_amortized::<#573e96821fb25c99>"
	cbz	w0, .LBB107_56
	ldp	x8, x23, [x29, #-16]
	b	.LBB107_6
.LBB107_52:
	sub	x0, x29, #24
	mov	w1, #32
	bl	"std_alloc::vec::Vec::grow_amortized::<#573e96821fb25c99>"
	cbz	w0, .LBB107_56
	ldp	x8, x23, [x29, #-16]
	b	.LBB107_9
.LBB107_54:
	sub	x0, x29, #24
	mov	w1, #32
	bl	"std_alloc::vec::Vec::grow_amortized::<#573e96821fb25c99>"
	cbz	w0, .LBB107_56
	ldp	x8, x23, [x29, #-16]
	b	.LBB107_12
.LBB107_56:
	ldur	x8, [x29, #-8]
	cbz	x8, .LBB107_58
	ldur	x0, [x29, #-24]
	bl	rattle_dealloc
.LBB107_58:
	mov	w8, #1
	stp	xzr, xzr, [x19, #16]
	strb	w8, [x19]
	str	xzr, [x19, #8]
.LBB107_59:
	ldp	x20, x19, [sp, #144]
	ldr	x25, [sp, #96]
	ldp	x22, x21, [sp, #128]
	ldp	x24, x23, [sp, #112]
	ldp	x29, x30, [sp, #80]
	add	sp, sp, #160
	ret
.LBB107_60:
	cmp	x21, #32
	b.hs	.LBB107_62
	mov	x9, xzr
	b	.LBB107_66
.LBB107_62:
	add	x12, x8, x1
	and	x10, x21, #0x18
	and	x9, x21, #0xffffffffffffffe0
	add	x11, x20, #16
	add	x12, x12, #16
	and	x13, x21, #0xffffffffffffffe0
.LBB107_63:
	ldp	q0, q1, [x11, #-16]
	subs	x13, x13, #32
	add	x11, x11, #32
	stp	q0, q1, [x12, #-16]
	add	x12, x12, #32
	b.ne	.LBB107_63
	cmp	x21, x9
	b.eq	.LBB107_42
	cbz	x10, .LBB107_40
.LBB107_66:
	mov	x11, x9
	and	x9, x21, #0xfffffffffffffff8
	add	x12, x8, x11
	sub	x10, x11, x9
	add	x11, x20, x11
	add	x12, x1, x12
.LBB107_67:
	ldr	d0, [x11], #8
	adds	x10, x10, #8
	str	d0, [x12], #8
	b.ne	.LBB107_67
	cmp	x21, x9
	b.eq	.LBB107_42
	b	.LBB107_40
.LBB107_69:
	mov	x0, sp
	mov	x1, x21
	bl	"std_alloc::vec::Vec::grow_amortized::<#573e96821fb25c99>"
	cbz	w0, .LBB107_71
	ldp	x8, x22, [sp, #8]
	ldr	x1, [sp]
	b	.LBB107_36
.LBB107_71:
	ldr	x8, [sp, #16]
	add	x9, sp, #24
	stur	xzr, [sp, #39]
	orr	x21, x9, #0x7
	stur	xzr, [sp, #31]
	stur	xzr, [sp, #47]
	cbz	x8, .LBB107_73
	ldr	x0, [sp]
	bl	rattle_dealloc
.LBB107_73:
	mov	x0, x20
	bl	rattle_dealloc
	ldr	q0, [x21]
	ldr	x9, [x21, #16]
	b	.LBB107_29
.Lfunc_end107:
	.size	"ct_step::line::StateLine::write", .Lfunc_end107-"ct_step::line::StateLine::write"
	.section	.rodata.cst16,"aM",@progbits,16
	.p2align	4, 0x0
.LCPI108_0:
	.xword	18
	.xword	50
	.section	".text.ct_codec::signing::tree_head_signature_input::<#fe12c7543020194e>","ax",@progbits
	.p2align	2
	.type	"ct_codec::signing::tree_head_signature_input::<#fe12c7543020194e>",@function
"ct_codec::signing::tree_head_signature_input::<#fe12c7543020194e>":
	sub	sp, sp, #96
	stp	x22, x21, [sp, #64]
	mov	x22, x1
	mov	w1, #1
	stp	x20, x19, [sp, #80]
	mov	x19, x0
	mov	w0, #50
	stp	x29, x30, [sp, #32]
	add	x29, sp, #32
	mov	x20, x3
	str	x23, [sp, #48]
	mov	x21, x2
	mov	w23, #1
	bl	rattle_alloc
	tbz	w0, #0, .LBB108_5
	adrp	x8, .Lstatic.23
	add	x8, x8, :lo12:.Lstatic.23
	adrp	x9, .LCPI108_0
	sub	x8, x1, x8
	ldr	q0, [x9, :lo12:.LCPI108_0]
	stp	x1, xzr, [sp, #8]
	cmp	x8, #1
	mov	w8, #256
	add	x0, sp, #8
	strh	w8, [x1]
	rev	x8, x22
	mov	w2, #32
	stur	x8, [x1, #2]
	rev	x8, x21
	stur	x8, [x1, #10]
	mov	x1, x20
	stur	q0, [sp, #16]
	bl	"std_alloc::vec::Vec::extend_from_slice::<#369487522aa5e614>"
	and	w8, w0, #0xff
	tbz	w8, #0, .LBB108_7
	ldr	x8, [sp, #24]
	cbz	x8, .LBB108_4
	ldr	x0, [sp, #8]
	bl	rattle_dealloc
.LBB108_4:
	mov	w8, #1
	str	xzr, [x19, #24]
	strh	w8, [x19]
	b	.LBB108_6
.LBB108_5:
	strh	w23, [x19]
	str	xzr, [x19, #24]
.LBB108_6:
	stp	xzr, xzr, [x19, #8]
	ldp	x20, x19, [sp, #80]
	ldr	x23, [sp, #48]
	ldp	x22, x21, [sp, #64]
	ldp	x29, x30, [sp, #32]
	add	sp, sp, #96
	ret
.LBB108_7:
	ldur	q0, [sp, #8]
	ldr	x8, [sp, #24]
	strh	wzr, [x19]
	stur	q0, [x19, #8]
	str	x8, [x19, #24]
	ldp	x20, x19, [sp, #80]
	ldr	x23, [sp, #48]
	ldp	x22, x21, [sp, #64]
	ldp	x29, x30, [sp, #32]
	add	sp, sp, #96
	ret
.Lfunc_end108:
	.size	"ct_codec::signing::tree_head_signature_input::<#fe12c7543020194e>", .Lfunc_end108-"ct_codec::signing::tree_head_signature_input::<#fe12c7543020194e>"
	.section	".text.std_alloc::vec::Vec::drop::<#0207b03e327f6a95>","ax",@progbits
	.p2align	2
	.type	"std_alloc::vec::Vec::drop::<#0207b03e327f6a95>",@function
"std_alloc::vec::Vec::drop::<#0207b03e327f6a95>":
	stp	x29, x30, [sp, #-48]!
	stp	x20, x19, [sp, #32]
	ldp	x19, x20, [x0]
	stp	x22, x21, [sp, #16]
	mov	x29, sp
	ldr	x21, [x0, #16]
	cbz	x20, .LBB109_5
	add	x22, x19, #24
	b	.LBB109_3
.LBB109_2:
	subs	x20, x20, #1
	add	x22, x22, #32
	b.eq	.LBB109_5
.LBB109_3:
	ldr	x8, [x22]
	cbz	x8, .LBB109_2
	ldur	x0, [x22, #-16]
	bl	rattle_dealloc
	b	.LBB109_2
.LBB109_5:
	cbz	x21, .LBB109_7
	mov	x0, x19
	ldp	x20, x19, [sp, #32]
	ldp	x22, x21, [sp, #16]
	ldp	x29, x30, [sp], #48
	b	rattle_dealloc
.LBB109_7:
	ldp	x20, x19, [sp, #32]
	ldp	x22, x21, [sp, #16]
	ldp	x29, x30, [sp], #48
	ret
.Lfunc_end109:
	.size	"std_alloc::vec::Vec::drop::<#0207b03e327f6a95>", .Lfunc_end109-"std_alloc::vec::Vec::drop::<#0207b03e327f6a95>"
	.section	".text.ct_step::bundle::objects_of","ax",@progbits
	.p2align	2
	.type	"ct_step::bundle::objects_of",@function
"ct_step::bundle::objects_of":
	sub	sp, sp, #96
	stp	x29, x30, [sp, #32]
	add	x29, sp, #32
	stp	x22, x21, [sp, #64]
	mov	x21, x2
	sub	x8, x29, #8
	stp	x20, x19, [sp, #80]
	mov	x20, x1
	mov	x19, x0
	stp	x24, x23, [sp, #48]
	stp	xzr, xzr, [sp, #8]
	str	x8, [sp]
	b	.LBB110_2
.LBB110_1:
	add	x10, x8, x9, lsl #5
	add	x9, x9, #1
	stp	x20, x22, [x10]
	add	x20, x23, x24
	stp	x23, x24, [x10, #16]
	str	x9, [sp, #8]
.LBB110_2:
	cbz	x21, .LBB110_10
	cmp	x21, #1
	b.eq	.LBB110_14
	ldrh	w9, [x20], #2
	rev	w9, w9
	lsr	w22, w9, #16
	sub	x9, x21, #2
	subs	x9, x9, x22
	b.lo	.LBB110_14
	subs	x9, x9, #4
	b.lo	.LBB110_14
	add	x23, x20, x22
	ldr	w10, [x23], #4
	rev	w24, w10
	subs	x21, x9, x24
	b.lo	.LBB110_14
	ldp	x9, x10, [sp, #8]
	cmp	x10, x9
	b.ne	.LBB110_1
	mov	x0, sp
	bl	"std_alloc::vec::Vec::grow_amortized::<#46f314877f8d0b01>"
	cbz	w0, .LBB110_11
	ldp	x8, x9, [sp]
	b	.LBB110_1
.LBB110_10:
	ldr	q0, [sp]
	ldr	x8, [sp, #16]
	strb	wzr, [x19]
	stur	q0, [x19, #8]
	str	x8, [x19, #24]
	ldp	x20, x19, [sp, #80]
	ldp	x22, x21, [sp, #64]
	ldp	x24, x23, [sp, #48]
	ldp	x29, x30, [sp, #32]
	add	sp, sp, #96
	ret
.LBB110_11:
	ldr	x8, [sp, #16]
	cbz	x8, .LBB110_13
	ldr	x0, [sp]
	bl	rattle_dealloc
.LBB110_13:
	mov	w8, #1
	stp	xzr, xzr, [x19, #16]
	strb	w8, [x19]
	str	xzr, [x19, #8]
	ldp	x20, x19, [sp, #80]
	ldp	x22, x21, [sp, #64]
	ldp	x24, x23, [sp, #48]
	ldp	x29, x30, [sp, #32]
	add	sp, sp, #96
	ret
.LBB110_14:
	brk	#0x1
.Lfunc_end110:
	.size	"ct_step::bundle::objects_of", .Lfunc_end110-"ct_step::bundle::objects_of"
	.section	".text.unlikely.std_alloc::vec::Vec::grow_amortized::<#46f314877f8d0b01>","ax",@progbits
	.p2align	2
	.type	"std_alloc::vec::Vec::grow_amortized::<#46f314877f8d0b01>",@function
"std_alloc::vec::Vec::grow_amortized::<#46f314877f8d0b01>":
	ldr	x8, [x0, #8]
	cmn	x8, #1
	b.eq	.LBB111_5
	stp	x29, x30, [sp, #-32]!
	ldr	x9, [x0, #16]
	cmp	x8, #3
	mov	w10, #3
	csel	x11, x8, x10, hi
	stp	x20, x19, [sp, #16]
	mov	x29, sp
	lsl	x10, x9, #1
	add	x12, x11, #1
	lsr	x13, x9, #62
	cmp	x12, x10
	csinc	x10, x10, x11, ls
	cmp	x13, #0
	csinc	x19, x10, x11, eq
	lsr	x11, x19, #58
	cbnz	x11, .LBB111_7
	cbz	x9, .LBB111_6
	mov	x20, x0
	ldr	x0, [x0]
	lsl	x1, x8, #5
	lsl	x2, x19, #5
	mov	w3, #8
	bl	rattle_realloc
	tbz	w0, #0, .LBB111_7
.LBB111_4:
	mov	w0, #1
	str	x1, [x20]
	str	x19, [x20, #16]
	ldp	x20, x19, [sp, #16]
	ldp	x29, x30, [sp], #32
	ret
.LBB111_5:
	mov	w0, wzr
	ret
.LBB111_6:
	mov	x20, x0
	lsl	x0, x10, #5
	mov	w1, #8
	bl	rattle_alloc
	tbnz	w0, #0, .LBB111_4
.LBB111_7:
	mov	w0, wzr
	ldp	x20, x19, [sp, #16]
	ldp	x29, x30, [sp], #32
	ret
.Lfunc_end111:
	.size	"std_alloc::vec::Vec::grow_amortized::<#46f314877f8d0b01>", .Lfunc_end111-"std_alloc::vec::Vec::grow_amortized::<#46f314877f8d0b01>"
	.section	".text.ct_step::places::places_of","ax",@progbits
	.p2align	2
	.type	"ct_step::places::places_of",@function
"ct_step::places::places_of":
	sub	sp, sp, #256
	movi	v0.2d, #0000000000000000
	stp	x29, x30, [sp, #160]
	add	x29, sp, #160
	sub	x8, x29, #8
	stp	x28, x27, [sp, #176]
	stp	x26, x25, [sp, #192]
	stp	x24, x23, [sp, #208]
	stp	x22, x21, [sp, #224]
	stp	x20, x19, [sp, #240]
	str	x0, [sp, #8]
	stp	xzr, xzr, [sp, #80]
	stp	q0, q0, [sp, #16]
	str	x8, [sp, #72]
	cbz	x2, .LBB112_20
	mov	x20, x5
	mov	x21, x4
	mov	x22, x3
	mov	x23, x2
	mov	x27, xzr
	add	x25, x1, #16
	sub	x26, x29, #8
	b	.LBB112_3
.LBB112_2:
	sub	x0, x29, #48
	sub	x1, x29, #64
	mov	w2, #1
	stp	x24, x28, [x29, #-64]
	bl	"ct_tree::hash::Sha256HashNodeHash::hash"
	ldp	x8, x9, [sp, #80]
	ldp	q0, q1, [x29, #-48]
	cmp	x9, x8
	stp	q0, q1, [sp, #16]
	stp	q0, q1, [x29, #-48]
	b.ne	.LBB112_16
	b	.LBB112_17
.LBB112_3:
	movi	v0.2d, #0000000000000000
	ldp	x24, x28, [x25]
	ldur	q1, [x25, #-16]
	ldur	x19, [x25, #-8]
	cmp	x28, x21
	str	q1, [sp, #48]
	stp	q0, q0, [x29, #-48]
	b.ne	.LBB112_2
	cmp	x21, #4
	b.hs	.LBB112_12
	cbz	x21, .LBB112_15
	ldrb	w8, [x24]
	ldrb	w9, [x22]
	cmp	w8, w9
	b.ne	.LBB112_14
	cmp	x21, #1
	b.eq	.LBB112_15
	ldrb	w8, [x24, #1]
	ldrb	w9, [x22, #1]
	cmp	w8, w9
	b.ne	.LBB112_19
	cmp	x21, #2
	b.eq	.LBB112_15
	ldrb	w8, [x24, #2]
	ldrb	w9, [x22, #2]
	cmp	w8, w9
	b.eq	.LBB112_15
	mov	w8, #2
	cmp	x8, x21
	b.lo	.LBB112_2
	b	.LBB112_15
.LBB112_12:
	ldr	w8, [x24]
	ldr	w9, [x22]
	cmp	w8, w9
	b.ne	.LBB112_2
	mov	x0, x24
	mov	x1, x21
	mov	x2, x22
	bl	"core::cmp::slices::groups_equal::<i8,31'core::cmp::numbers::U8PartialEq{}>"
	cbz	w0, .LBB112_2
	b	.LBB112_15
.LBB112_14:
	cmp	xzr, x21
	b.lo	.LBB112_2
.LBB112_15:
	ldp	q0, q1, [x20]
	stp	q0, q1, [x29, #-48]
	ldp	x8, x9, [sp, #80]
	ldp	q0, q1, [x29, #-48]
	cmp	x9, x8
	stp	q0, q1, [sp, #16]
	stp	q0, q1, [x29, #-48]
	b.eq	.LBB112_17
.LBB112_16:
	add	x9, x26, x8, lsl #6
	ldr	q0, [sp, #48]
	add	x10, x27, x19
	add	x10, x10, #6
	add	x8, x8, #1
	subs	x23, x23, #1
	str	q0, [x9]
	add	x25, x25, #32
	add	x27, x10, x28
	stp	x10, x28, [x9, #16]
	ldp	q0, q1, [x29, #-48]
	stp	q0, q1, [x9, #32]
	str	x8, [sp, #80]
	b.ne	.LBB112_3
	b	.LBB112_20
.LBB112_17:
	add	x0, sp, #72
	bl	"std_alloc::vec::Vec::grow_amortized::<#bd7c5596c4b418e6>"
	cbz	w0, .LBB112_22
	ldp	x26, x8, [sp, #72]
	b	.LBB112_16
.LBB112_19:
	mov	w8, #1
	cmp	x8, x21
	b.lo	.LBB112_2
	b	.LBB112_15
.LBB112_20:
	ldur	q0, [sp, #72]
	ldr	x9, [sp, #8]
	ldr	x8, [sp, #88]
	strb	wzr, [x9]
	stur	q0, [x9, #8]
	str	x8, [x9, #24]
.LBB112_21:
	ldp	x20, x19, [sp, #240]
	ldp	x22, x21, [sp, #224]
	ldp	x24, x23, [sp, #208]
	ldp	x26, x25, [sp, #192]
	ldp	x28, x27, [sp, #176]
	ldp	x29, x30, [sp, #160]
	add	sp, sp, #256
	ret
.LBB112_22:
	ldr	x8, [sp, #88]
	cbz	x8, .LBB112_24
	ldr	x0, [sp, #72]
	bl	rattle_dealloc
.LBB112_24:
	ldr	x9, [sp, #8]
	mov	w8, #1
	stp	xzr, xzr, [x9, #16]
	strb	w8, [x9]
	str	xzr, [x9, #8]
	b	.LBB112_21
.Lfunc_end112:
	.size	"ct_step::places::places_of", .Lfunc_end112-"ct_step::places::places_of"
	.section	".text.unlikely.std_alloc::vec::Vec::grow_amortized::<#bd7c5596c4b418e6>","ax",@progbits
	.p2align	2
	.type	"std_alloc::vec::Vec::grow_amortized::<#bd7c5596c4b418e6>",@function
"std_alloc::vec::Vec::grow_amortized::<#bd7c5596c4b418e6>":
	ldr	x8, [x0, #8]
	cmn	x8, #1
	b.eq	.LBB113_5
	stp	x29, x30, [sp, #-32]!
	ldr	x9, [x0, #16]
	cmp	x8, #3
	mov	w10, #3
	csel	x11, x8, x10, hi
	stp	x20, x19, [sp, #16]
	mov	x29, sp
	lsl	x10, x9, #1
	add	x12, x11, #1
	lsr	x13, x9, #62
	cmp	x12, x10
	csinc	x10, x10, x11, ls
	cmp	x13, #0
	csinc	x19, x10, x11, eq
	lsr	x11, x19, #57
	cbnz	x11, .LBB113_7
	cbz	x9, .LBB113_6
	mov	x20, x0
	ldr	x0, [x0]
	lsl	x1, x8, #6
	lsl	x2, x19, #6
	mov	w3, #8
	bl	rattle_realloc
	tbz	w0, #0, .LBB113_7
.LBB113_4:
	mov	w0, #1
	str	x1, [x20]
	str	x19, [x20, #16]
	ldp	x20, x19, [sp, #16]
	ldp	x29, x30, [sp], #32
	ret
.LBB113_5:
	mov	w0, wzr
	ret
.LBB113_6:
	mov	x20, x0
	lsl	x0, x10, #6
	mov	w1, #8
	bl	rattle_alloc
	tbnz	w0, #0, .LBB113_4
.LBB113_7:
	mov	w0, wzr
	ldp	x20, x19, [sp, #16]
	ldp	x29, x30, [sp], #32
	ret
.Lfunc_end113:
	.size	"std_alloc::vec::Vec::grow_amortized::<#bd7c5596c4b418e6>", .Lfunc_end113-"std_alloc::vec::Vec::grow_amortized::<#bd7c5596c4b418e6>"
	.section	".text.ct_step::replies::push_published","ax",@progbits
	.p2align	2
	.type	"ct_step::replies::push_published",@function
"ct_step::replies::push_published":
	sub	sp, sp, #192
	movi	v0.2d, #0000000000000000
	stp	x22, x21, [sp, #160]
	mov	x22, x4
	mov	x4, x3
	stp	x28, x27, [sp, #112]
	mov	x28, x0
	ldr	x3, [x4], #16
	add	x0, sp, #32
	stp	x29, x30, [sp, #96]
	add	x29, sp, #96
	mov	x21, x5
	stp	x26, x25, [sp, #128]
	stp	x24, x23, [sp, #144]
	stp	x20, x19, [sp, #176]
	stp	q0, q0, [sp, #32]
	bl	"ct_checkpoint::checkpoint::write_checkpoint"
	ldrb	w8, [sp, #32]
	cbz	w8, .LBB114_2
.LBB114_1:
	mov	w0, #1
	b	.LBB114_74
.LBB114_2:
	mov	x23, x28
	ldp	x26, x2, [sp, #40]
	ldp	x9, x24, [x23, #8]!
	ldr	x27, [sp, #56]
	sub	x8, x24, x9
	cmp	x8, #7
	b.ls	.LBB114_19
.LBB114_3:
	ldr	x19, [x28]
	add	x8, x9, #8
	rev	x10, x2
	str	x10, [x19, x9]
	sub	x9, x24, x8
	cmp	x2, x9
	stp	x19, x8, [x28]
	str	x24, [x28, #16]
	b.hi	.LBB114_21
	add	x0, x19, x8
	add	x25, x8, x2
	stp	xzr, xzr, [x23]
	sub	x9, x0, x26
	cmp	x9, x2
	b.hs	.LBB114_23
.LBB114_5:
	cmp	x2, #8
	b.lo	.LBB114_7
	add	x9, x8, x19
	sub	x9, x9, x26
	cmp	x9, #32
	b.hs	.LBB114_10
.LBB114_7:
	mov	x9, xzr
.LBB114_8:
	add	x10, x9, x8
	sub	x8, x2, x9
	add	x9, x26, x9
	add	x10, x19, x10
.LBB114_9:
	ldrb	w11, [x9], #1
	subs	x8, x8, #1
	strb	w11, [x10], #1
	b.ne	.LBB114_9
	b	.LBB114_24
.LBB114_10:
	cmp	x2, #32
	b.hs	.LBB114_12
	mov	x9, xzr
	b	.LBB114_16
.LBB114_12:
	add	x12, x8, x19
	and	x10, x2, #0x18
	and	x9, x2, #0xffffffffffffffe0
	add	x11, x26, #16
	add	x12, x12, #16
	and	x13, x2, #0xffffffffffffffe0
.LBB114_13:
	ldp	q0, q1, [x11, #-16]
	subs	x13, x13, #32
	add	x11, x11, #32
	stp	q0, q1, [x12, #-16]
	add	x12, x12, #32
	b.ne	.LBB114_13
	cmp	x2, x9
	b.eq	.LBB114_24
	cbz	x10, .LBB114_8
.LBB114_16:
	mov	x11, x9
	and	x9, x2, #0xfffffffffffffff8
	add	x12, x8, x11
	sub	x10, x11, x9
	add	x11, x26, x11
	add	x12, x19, x12
.LBB114_17:
	ldr	d0, [x11], #8
	adds	x10, x10, #8
	str	d0, [x12], #8
	b.ne	.LBB114_17
	cmp	x2, x9
	b.eq	.LBB114_24
	b	.LBB114_8
.LBB114_19:
	mov	x0, x28
	mov	w1, #8
	mov	x19, x2
	bl	"std_alloc::vec::Vec::grow_amortized::<#573e96821fb25c99>"
	cbz	w0, .LBB114_80
	ldp	x9, x24, [x28, #8]
	mov	x2, x19
	b	.LBB114_3
.LBB114_21:
	mov	x0, x28
	mov	x1, x2
	mov	x20, x2
	bl	"std_alloc::vec::Vec::grow_amortized::<#573e96821fb25c99>"
	cbz	w0, .LBB114_80
	ldp	x8, x24, [x28, #8]
	mov	x2, x20
	ldr	x19, [x28]
	add	x0, x19, x8
	add	x25, x8, x20
	stp	xzr, xzr, [x23]
	sub	x9, x0, x26
	cmp	x9, x20
	b.lo	.LBB114_5
.LBB114_23:
	mov	x1, x26
	bl	memmove
.LBB114_24:
	str	x23, [sp, #24]
	sub	x23, x29, #1
	stp	x19, x25, [x28]
	str	x24, [x28, #16]
	stp	xzr, xzr, [x29, #-24]
	stur	x23, [x29, #-32]
	cbz	x21, .LBB114_61
	stp	x28, x27, [sp]
	mov	x2, xzr
	mov	x19, xzr
	mov	x27, xzr
	sub	x28, x29, #32
	str	x26, [sp, #16]
	b	.LBB114_27
.LBB114_26:
	ldp	q1, q0, [x10]
	stp	q1, q0, [x9]
	add	x27, x27, #1
	add	x2, x8, #32
	stur	x19, [x29, #-16]
	cmp	x27, x21
	stp	x23, x2, [x29, #-32]
	b.eq	.LBB114_60
.LBB114_27:
	add	x25, x22, x27, lsl #6
	sub	x8, x19, x2
	cmp	x8, #7
	ldp	x1, x24, [x25]
	b.ls	.LBB114_44
.LBB114_28:
	add	x26, x2, #8
	rev	x8, x24
	str	x8, [x23, x2]
	sub	x8, x19, x26
	stp	x26, x19, [x29, #-24]
	cmp	x24, x8
	b.hi	.LBB114_46
	add	x8, x23, x26
	sub	x8, x8, x1
	cmp	x8, x24
	b.hs	.LBB114_48
.LBB114_30:
	cmp	x24, #8
	b.lo	.LBB114_32
	add	x8, x26, x23
	sub	x8, x8, x1
	cmp	x8, #32
	b.hs	.LBB114_35
.LBB114_32:
	mov	x8, xzr
.LBB114_33:
	add	x10, x8, x26
	sub	x9, x24, x8
	add	x8, x1, x8
	add	x10, x23, x10
.LBB114_34:
	ldrb	w11, [x8], #1
	subs	x9, x9, #1
	strb	w11, [x10], #1
	b.ne	.LBB114_34
	b	.LBB114_49
.LBB114_35:
	cmp	x24, #32
	b.hs	.LBB114_37
	mov	x8, xzr
	b	.LBB114_41
.LBB114_37:
	add	x11, x23, x26
	and	x9, x24, #0x18
	and	x8, x24, #0xffffffffffffffe0
	add	x10, x1, #16
	add	x11, x11, #16
	and	x12, x24, #0xffffffffffffffe0
.LBB114_38:
	ldp	q0, q1, [x10, #-16]
	subs	x12, x12, #32
	add	x10, x10, #32
	stp	q0, q1, [x11, #-16]
	add	x11, x11, #32
	b.ne	.LBB114_38
	cmp	x24, x8
	b.eq	.LBB114_49
	cbz	x9, .LBB114_33
.LBB114_41:
	mov	x10, x8
	and	x8, x24, #0xfffffffffffffff8
	add	x11, x26, x10
	sub	x9, x10, x8
	add	x10, x1, x10
	add	x11, x23, x11
.LBB114_42:
	ldr	d0, [x10], #8
	adds	x9, x9, #8
	str	d0, [x11], #8
	b.ne	.LBB114_42
	cmp	x24, x8
	b.eq	.LBB114_49
	b	.LBB114_33
.LBB114_44:
	mov	x26, x1
	sub	x0, x29, #32
	mov	w1, #8
	bl	"std_alloc::vec::Vec::grow_amortized::<#573e96821fb25c99>"
	cbz	w0, .LBB114_75
	ldp	x2, x19, [x29, #-24]
	mov	x1, x26
	ldur	x23, [x29, #-32]
	b	.LBB114_28
.LBB114_46:
	mov	x20, x1
	sub	x0, x29, #32
	mov	x1, x24
	bl	"std_alloc::vec::Vec::grow_amortized::<#573e96821fb25c99>"
	cbz	w0, .LBB114_75
	ldp	x26, x19, [x29, #-24]
	mov	x1, x20
	ldur	x23, [x29, #-32]
	add	x8, x23, x26
	sub	x8, x8, x20
	cmp	x8, x24
	b.lo	.LBB114_30
.LBB114_48:
	add	x0, x23, x26
	mov	x2, x24
	bl	memmove
.LBB114_49:
	add	x8, x26, x24
	ldr	x24, [x25, #16]
	stur	x19, [x29, #-16]
	sub	x9, x19, x8
	stp	x23, x8, [x29, #-32]
	cmp	x9, #7
	b.ls	.LBB114_54
.LBB114_50:
	rev	x10, x24
	add	x9, x8, #8
	str	x10, [x23, x8]
	sub	x8, x19, x9
	ldr	x24, [x25, #24]
	stp	x23, x9, [x29, #-32]
	cmp	x8, #7
	stur	x19, [x29, #-16]
	b.ls	.LBB114_56
.LBB114_51:
	add	x8, x9, #8
	rev	x10, x24
	str	x10, [x23, x9]
	sub	x9, x19, x8
	stp	x23, x8, [x29, #-32]
	cmp	x9, #31
	stur	x19, [x29, #-16]
	b.ls	.LBB114_58
	add	x10, x25, #32
	add	x9, x23, x8
	stp	xzr, xzr, [x28, #8]
	sub	x11, x9, x10
	cmp	x11, #31
	b.hi	.LBB114_26
.LBB114_53:
	ldrb	w10, [x25, #32]
	strb	w10, [x9]
	ldrb	w10, [x25, #33]
	strb	w10, [x9, #1]
	ldrb	w10, [x25, #34]
	strb	w10, [x9, #2]
	ldrb	w10, [x25, #35]
	strb	w10, [x9, #3]
	ldrb	w10, [x25, #36]
	strb	w10, [x9, #4]
	ldrb	w10, [x25, #37]
	strb	w10, [x9, #5]
	ldrb	w10, [x25, #38]
	strb	w10, [x9, #6]
	ldrb	w10, [x25, #39]
	strb	w10, [x9, #7]
	ldrb	w10, [x25, #40]
	strb	w10, [x9, #8]
	ldrb	w10, [x25, #41]
	strb	w10, [x9, #9]
	ldrb	w10, [x25, #42]
	strb	w10, [x9, #10]
	ldrb	w10, [x25, #43]
	strb	w10, [x9, #11]
	ldrb	w10, [x25, #44]
	strb	w10, [x9, #12]
	ldrb	w10, [x25, #45]
	strb	w10, [x9, #13]
	ldrb	w10, [x25, #46]
	strb	w10, [x9, #14]
	ldrb	w10, [x25, #47]
	strb	w10, [x9, #15]
	ldrb	w10, [x25, #48]
	strb	w10, [x9, #16]
	ldrb	w10, [x25, #49]
	strb	w10, [x9, #17]
	ldrb	w10, [x25, #50]
	strb	w10, [x9, #18]
	ldrb	w10, [x25, #51]
	strb	w10, [x9, #19]
	ldrb	w10, [x25, #52]
	strb	w10, [x9, #20]
	ldrb	w10, [x25, #53]
	strb	w10, [x9, #21]
	ldrb	w10, [x25, #54]
	strb	w10, [x9, #22]
	ldrb	w10, [x25, #55]
	strb	w10, [x9, #23]
	ldrb	w10, [x25, #56]
	strb	w10, [x9, #24]
	ldrb	w10, [x25, #57]
	strb	w10, [x9, #25]
	ldrb	w10, [x25, #58]
	strb	w10, [x9, #26]
	ldrb	w10, [x25, #59]
	strb	w10, [x9, #27]
	ldrb	w10, [x25, #60]
	strb	w10, [x9, #28]
	ldrb	w10, [x25, #61]
	strb	w10, [x9, #29]
	ldrb	w10, [x25, #62]
	strb	w10, [x9, #30]
	ldrb	w10, [x25, #63]
	strb	w10, [x9, #31]
	add	x27, x27, #1
	add	x2, x8, #32
	stur	x19, [x29, #-16]
	cmp	x27, x21
	stp	x23, x2, [x29, #-32]
	b.ne	.LBB114_27
	b	.LBB114_60
.LBB114_54:
	sub	x0, x29, #32
	mov	w1, #8
	bl	"std_alloc::vec::Vec::grow_amortized::<#573e96821fb25c99>"
	cbz	w0, .LBB114_75
	ldp	x8, x19, [x29, #-24]
	ldur	x23, [x29, #-32]
	b	.LBB114_50
.LBB114_56:
	sub	x0, x29, #32
	mov	w1, #8
	bl	"std_alloc::vec::Vec::grow_amortized::<#573e96821fb25c99>"
	cbz	w0, .LBB114_75
	ldp	x9, x19, [x29, #-24]
	ldur	x23, [x29, #-32]
	b	.LBB114_51
.LBB114_58:
	sub	x0, x29, #32
	mov	w1, #32
	bl	"std_alloc::vec::Vec::grow_amortized::<#573e96821fb25c99>"
	cbz	w0, .LBB114_75
	ldp	x8, x19, [x29, #-24]
	ldur	x23, [x29, #-32]
	add	x10, x25, #32
	add	x9, x23, x8
	stp	xzr, xzr, [x28, #8]
	sub	x11, x9, x10
	cmp	x11, #31
	b.hi	.LBB114_26
	b	.LBB114_53
.LBB114_60:
	ldp	x28, x27, [sp]
	cmp	x19, #0
	ldr	x26, [sp, #16]
	cset	w19, eq
	ldp	x25, x24, [x28, #8]
	sub	x8, x24, x25
	cmp	x8, #7
	b.hi	.LBB114_62
	b	.LBB114_90
.LBB114_61:
	mov	x2, xzr
	mov	w19, #1
	sub	x8, x24, x25
	cmp	x8, #7
	b.ls	.LBB114_90
.LBB114_62:
	ldr	x21, [x28]
	rev	x9, x2
	add	x8, x25, #8
	str	x9, [x21, x25]
	sub	x9, x24, x8
	cmp	x2, x9
	stp	x21, x8, [x28]
	str	x24, [x28, #16]
	b.hi	.LBB114_92
.LBB114_63:
	add	x0, x21, x8
	ldr	x10, [sp, #24]
	add	x22, x8, x2
	sub	x9, x0, x23
	cmp	x9, x2
	stp	xzr, xzr, [x10]
	b.hs	.LBB114_69
	cmp	x2, #8
	b.lo	.LBB114_66
	add	x9, x8, x21
	sub	x9, x9, x23
	cmp	x9, #32
	b.hs	.LBB114_78
.LBB114_66:
	mov	x9, xzr
.LBB114_67:
	add	x10, x9, x8
	sub	x8, x2, x9
	add	x9, x23, x9
	add	x10, x21, x10
.LBB114_68:
	ldrb	w11, [x9], #1
	subs	x8, x8, #1
	strb	w11, [x10], #1
	b.ne	.LBB114_68
	b	.LBB114_70
.LBB114_69:
	mov	x1, x23
	bl	memmove
.LBB114_70:
	mov	w0, wzr
	stp	x21, x22, [x28]
	str	x24, [x28, #16]
	tbnz	w19, #0, .LBB114_72
.LBB114_71:
	mov	w19, w0
	mov	x0, x23
	bl	rattle_dealloc
	mov	w0, w19
.LBB114_72:
	cbz	x27, .LBB114_74
	mov	w19, w0
	mov	x0, x26
	bl	rattle_dealloc
	mov	w0, w19
.LBB114_74:
	ldp	x20, x19, [sp, #176]
	ldp	x22, x21, [sp, #160]
	ldp	x24, x23, [sp, #144]
	ldp	x26, x25, [sp, #128]
	ldp	x28, x27, [sp, #112]
	ldp	x29, x30, [sp, #96]
	add	sp, sp, #192
	ret
.LBB114_75:
	ldur	x8, [x29, #-16]
	cbz	x8, .LBB114_77
	ldur	x0, [x29, #-32]
	bl	rattle_dealloc
.LBB114_77:
	ldp	x8, x0, [sp, #8]
	cbnz	x8, .LBB114_82
	b	.LBB114_1
.LBB114_78:
	cmp	x2, #32
	b.hs	.LBB114_83
	mov	x9, xzr
	b	.LBB114_87
.LBB114_80:
	cbz	x27, .LBB114_1
	mov	x0, x26
.LBB114_82:
	bl	rattle_dealloc
	b	.LBB114_1
.LBB114_83:
	add	x12, x8, x21
	and	x10, x2, #0x18
	and	x9, x2, #0xffffffffffffffe0
	add	x11, x23, #16
	add	x12, x12, #16
	and	x13, x2, #0xffffffffffffffe0
.LBB114_84:
	ldp	q0, q1, [x11, #-16]
	subs	x13, x13, #32
	add	x11, x11, #32
	stp	q0, q1, [x12, #-16]
	add	x12, x12, #32
	b.ne	.LBB114_84
	cmp	x2, x9
	b.eq	.LBB114_70
	cbz	x10, .LBB114_67
.LBB114_87:
	mov	x11, x9
	and	x9, x2, #0xfffffffffffffff8
	add	x12, x8, x11
	sub	x10, x11, x9
	add	x11, x23, x11
	add	x12, x21, x12
.LBB114_88:
	ldr	d0, [x11], #8
	adds	x10, x10, #8
	str	d0, [x12], #8
	b.ne	.LBB114_88
	cmp	x2, x9
	b.eq	.LBB114_70
	b	.LBB114_67
.LBB114_90:
	mov	x0, x28
	mov	w1, #8
	mov	x20, x2
	bl	"std_alloc::vec::Vec::grow_amortized::<#573e96821fb25c99>"
	cbz	w0, .LBB114_94
	ldp	x25, x24, [x28, #8]
	mov	x2, x20
	b	.LBB114_62
.LBB114_92:
	mov	x0, x28
	mov	x1, x2
	mov	x20, x2
	bl	"std_alloc::vec::Vec::grow_amortized::<#573e96821fb25c99>"
	cbz	w0, .LBB114_94
	ldp	x8, x24, [x28, #8]
	mov	x2, x20
	ldr	x21, [x28]
	b	.LBB114_63
.LBB114_94:
	mov	w0, #1
	tbnz	w19, #0, .LBB114_72
	b	.LBB114_71
.Lfunc_end114:
	.size	"ct_step::replies::push_published", .Lfunc_end114-"ct_step::replies::push_published"
	.section	".text.ct_step::replies::push_vector","ax",@progbits
	.p2align	2
	.type	"ct_step::replies::push_vector",@function
"ct_step::replies::push_vector":
	stp	x29, x30, [sp, #-64]!
	stp	x24, x23, [sp, #16]
	mov	x23, x0
	mov	x29, sp
	stp	x20, x19, [sp, #48]
	mov	x19, x0
	ldp	x9, x20, [x23, #8]!
	stp	x22, x21, [sp, #32]
	sub	x8, x20, x9
	cmp	x8, #7
	b.ls	.LBB115_17
.LBB115_1:
	ldr	x21, [x19]
	add	x8, x9, #8
	rev	x10, x2
	str	x10, [x21, x9]
	sub	x9, x20, x8
	cmp	x2, x9
	stp	x21, x8, [x19]
	str	x20, [x19, #16]
	b.hi	.LBB115_19
	add	x0, x21, x8
	add	x22, x8, x2
	stp	xzr, xzr, [x23]
	sub	x9, x0, x1
	cmp	x9, x2
	b.hs	.LBB115_21
.LBB115_3:
	cmp	x2, #8
	b.lo	.LBB115_5
	add	x9, x8, x21
	sub	x9, x9, x1
	cmp	x9, #32
	b.hs	.LBB115_8
.LBB115_5:
	mov	x9, xzr
.LBB115_6:
	add	x10, x9, x8
	sub	x8, x2, x9
	add	x9, x1, x9
	add	x10, x21, x10
.LBB115_7:
	ldrb	w11, [x9], #1
	subs	x8, x8, #1
	strb	w11, [x10], #1
	b.ne	.LBB115_7
	b	.LBB115_22
.LBB115_8:
	cmp	x2, #32
	b.hs	.LBB115_10
	mov	x9, xzr
	b	.LBB115_14
.LBB115_10:
	add	x12, x8, x21
	and	x10, x2, #0x18
	and	x9, x2, #0xffffffffffffffe0
	add	x11, x1, #16
	add	x12, x12, #16
	and	x13, x2, #0xffffffffffffffe0
.LBB115_11:
	ldp	q0, q1, [x11, #-16]
	subs	x13, x13, #32
	add	x11, x11, #32
	stp	q0, q1, [x12, #-16]
	add	x12, x12, #32
	b.ne	.LBB115_11
	cmp	x2, x9
	b.eq	.LBB115_22
	cbz	x10, .LBB115_6
.LBB115_14:
	mov	x11, x9
	and	x9, x2, #0xfffffffffffffff8
	add	x12, x8, x11
	sub	x10, x11, x9
	add	x11, x1, x11
	add	x12, x21, x12
.LBB115_15:
	ldr	d0, [x11], #8
	adds	x10, x10, #8
	str	d0, [x12], #8
	b.ne	.LBB115_15
	cmp	x2, x9
	b.eq	.LBB115_22
	b	.LBB115_6
.LBB115_17:
	mov	x21, x1
	mov	x0, x19
	mov	w1, #8
	mov	x22, x2
	bl	"std_alloc::vec::Vec::grow_amortized::<#573e96821fb25c99>"
	cbz	w0, .LBB115_23
	ldp	x9, x20, [x19, #8]
	mov	x2, x22
	mov	x1, x21
	b	.LBB115_1
.LBB115_19:
	mov	x22, x1
	mov	x0, x19
	mov	x1, x2
	mov	x24, x2
	bl	"std_alloc::vec::Vec::grow_amortized::<#573e96821fb25c99>"
	cbz	w0, .LBB115_23
	ldp	x8, x20, [x19, #8]
	mov	x2, x24
	ldr	x21, [x19]
	mov	x1, x22
	add	x0, x21, x8
	add	x22, x8, x24
	stp	xzr, xzr, [x23]
	sub	x9, x0, x1
	cmp	x9, x24
	b.lo	.LBB115_3
.LBB115_21:
	bl	memmove
.LBB115_22:
	mov	w0, wzr
	stp	x21, x22, [x19]
	str	x20, [x19, #16]
	ldp	x20, x19, [sp, #48]
	ldp	x22, x21, [sp, #32]
	ldp	x24, x23, [sp, #16]
	ldp	x29, x30, [sp], #64
	ret
.LBB115_23:
	mov	w0, #1
	ldp	x20, x19, [sp, #48]
	ldp	x22, x21, [sp, #32]
	ldp	x24, x23, [sp, #16]
	ldp	x29, x30, [sp], #64
	ret
.Lfunc_end115:
	.size	"ct_step::replies::push_vector", .Lfunc_end115-"ct_step::replies::push_vector"
	.section	".text.ct_step::replies::push_receipts","ax",@progbits
	.p2align	2
	.type	"ct_step::replies::push_receipts",@function
"ct_step::replies::push_receipts":
	cbz	x4, .LBB116_35
	sub	sp, sp, #112
	stp	x26, x25, [sp, #48]
	mov	x25, xzr
	stp	x24, x23, [sp, #64]
	mov	x23, x0
	stp	x22, x21, [sp, #80]
	mov	x21, x2
	mov	x22, x1
	stp	x20, x19, [sp, #96]
	mov	x19, x4
	mov	x20, x3
	stp	x29, x30, [sp, #16]
	add	x29, sp, #16
	stp	x28, x27, [sp, #32]
	b	.LBB116_5
.LBB116_2:
	add	x0, x27, x28
	mov	x2, x24
	bl	memmove
.LBB116_3:
	add	x8, x28, x24
	str	x26, [x23, #16]
	stp	x27, x8, [x23]
.LBB116_4:
	add	x25, x25, #1
	cmp	x25, x19
	b.eq	.LBB116_33
.LBB116_5:
	ldr	x8, [x20, x25, lsl #3]
	cmp	x8, x21
	b.hs	.LBB116_4
	mov	w9, #40
	madd	x24, x8, x9, x22
	ldp	x8, x26, [x23, #8]
	sub	x9, x26, x8
	cmp	x9, #7
	ldr	x28, [x24]
	b.ls	.LBB116_25
.LBB116_7:
	ldr	x27, [x23]
	rev	x9, x28
	str	x9, [x27, x8]
	add	x8, x8, #8
	stp	x27, x8, [x23]
	sub	x9, x26, x8
	str	x26, [x23, #16]
	cmp	x9, #7
	ldr	x28, [x24, #8]
	b.ls	.LBB116_27
.LBB116_8:
	rev	x9, x28
	str	x9, [x27, x8]
	add	x8, x8, #8
	stp	x27, x8, [x23]
	sub	x9, x26, x8
	str	x26, [x23, #16]
	cmp	x9, #7
	ldp	x1, x24, [x24, #16]
	b.ls	.LBB116_29
.LBB116_9:
	add	x28, x8, #8
	rev	x9, x24
	str	x9, [x27, x8]
	sub	x8, x26, x28
	stp	x27, x28, [x23]
	cmp	x24, x8
	str	x26, [x23, #16]
	b.hi	.LBB116_31
	add	x8, x27, x28
	stp	xzr, xzr, [x23, #8]
	sub	x8, x8, x1
	cmp	x8, x24
	b.hs	.LBB116_2
.LBB116_11:
	cmp	x24, #8
	b.lo	.LBB116_13
	add	x8, x28, x27
	sub	x8, x8, x1
	cmp	x8, #32
	b.hs	.LBB116_16
.LBB116_13:
	mov	x8, xzr
.LBB116_14:
	add	x10, x8, x28
	sub	x9, x24, x8
	add	x8, x1, x8
	add	x10, x27, x10
.LBB116_15:
	ldrb	w11, [x8], #1
	subs	x9, x9, #1
	strb	w11, [x10], #1
	b.ne	.LBB116_15
	b	.LBB116_3
.LBB116_16:
	cmp	x24, #32
	b.hs	.LBB116_18
	mov	x8, xzr
	b	.LBB116_22
.LBB116_18:
	add	x11, x27, x28
	and	x9, x24, #0x18
	and	x8, x24, #0xffffffffffffffe0
	add	x10, x1, #16
	add	x11, x11, #16
	and	x12, x24, #0xffffffffffffffe0
.LBB116_19:
	ldp	q0, q1, [x10, #-16]
	subs	x12, x12, #32
	add	x10, x10, #32
	stp	q0, q1, [x11, #-16]
	add	x11, x11, #32
	b.ne	.LBB116_19
	cmp	x24, x8
	b.eq	.LBB116_3
	cbz	x9, .LBB116_14
.LBB116_22:
	mov	x10, x8
	and	x8, x24, #0xfffffffffffffff8
	add	x11, x28, x10
	sub	x9, x10, x8
	add	x10, x1, x10
	add	x11, x27, x11
.LBB116_23:
	ldr	d0, [x10], #8
	adds	x9, x9, #8
	str	d0, [x11], #8
	b.ne	.LBB116_23
	cmp	x24, x8
	b.eq	.LBB116_3
	b	.LBB116_14
.LBB116_25:
	mov	x0, x23
	mov	w1, #8
	bl	"std_alloc::vec::Vec::grow_amortized::<#573e96821fb25c99>"
	cbz	w0, .LBB116_36
	ldp	x8, x26, [x23, #8]
	b	.LBB116_7
.LBB116_27:
	mov	x0, x23
	mov	w1, #8
	bl	"std_alloc::vec::Vec::grow_amortized::<#573e96821fb25c99>"
	cbz	w0, .LBB116_36
	ldp	x8, x26, [x23, #8]
	ldr	x27, [x23]
	b	.LBB116_8
.LBB116_29:
	mov	x28, x1
	mov	x0, x23
	mov	w1, #8
	bl	"std_alloc::vec::Vec::grow_amortized::<#573e96821fb25c99>"
	cbz	w0, .LBB116_36
	ldp	x8, x26, [x23, #8]
	mov	x1, x28
	ldr	x27, [x23]
	b	.LBB116_9
.LBB116_31:
	str	x22, [sp, #8]
	mov	x22, x1
	mov	x0, x23
	mov	x1, x24
	bl	"std_alloc::vec::Vec::grow_amortized::<#573e96821fb25c99>"
	cbz	w0, .LBB116_36
	ldp	x28, x26, [x23, #8]
	mov	x1, x22
	ldr	x27, [x23]
	ldr	x22, [sp, #8]
	add	x8, x27, x28
	stp	xzr, xzr, [x23, #8]
	sub	x8, x8, x1
	cmp	x8, x24
	b.hs	.LBB116_2
	b	.LBB116_11
.LBB116_33:
	mov	w0, wzr
.LBB116_34:
	ldp	x20, x19, [sp, #96]
	ldp	x22, x21, [sp, #80]
	ldp	x24, x23, [sp, #64]
	ldp	x26, x25, [sp, #48]
	ldp	x28, x27, [sp, #32]
	ldp	x29, x30, [sp, #16]
	add	sp, sp, #112
	ret
.LBB116_35:
	mov	w0, wzr
	ret
.LBB116_36:
	mov	w0, #1
	b	.LBB116_34
.Lfunc_end116:
	.size	"ct_step::replies::push_receipts", .Lfunc_end116-"ct_step::replies::push_receipts"
	.section	".text.std_alloc::vec::Vec::drop::<#cca0c95a41e92df7>","ax",@progbits
	.p2align	2
	.type	"std_alloc::vec::Vec::drop::<#cca0c95a41e92df7>",@function
"std_alloc::vec::Vec::drop::<#cca0c95a41e92df7>":
	stp	x29, x30, [sp, #-48]!
	stp	x20, x19, [sp, #32]
	ldp	x19, x20, [x0]
	stp	x22, x21, [sp, #16]
	mov	x29, sp
	ldr	x21, [x0, #16]
	cbz	x20, .LBB117_5
	add	x22, x19, #32
	b	.LBB117_3
.LBB117_2:
	subs	x20, x20, #1
	add	x22, x22, #40
	b.eq	.LBB117_5
.LBB117_3:
	ldr	x8, [x22]
	cbz	x8, .LBB117_2
	ldur	x0, [x22, #-16]
	bl	rattle_dealloc
	b	.LBB117_2
.LBB117_5:
	cbz	x21, .LBB117_7
	mov	x0, x19
	ldp	x20, x19, [sp, #32]
	ldp	x22, x21, [sp, #16]
	ldp	x29, x30, [sp], #48
	b	rattle_dealloc
.LBB117_7:
	ldp	x20, x19, [sp, #32]
	ldp	x22, x21, [sp, #16]
	ldp	x29, x30, [sp], #48
	ret
.Lfunc_end117:
	.size	"std_alloc::vec::Vec::drop::<#cca0c95a41e92df7>", .Lfunc_end117-"std_alloc::vec::Vec::drop::<#cca0c95a41e92df7>"
	.section	".text.std_alloc::vec::Vec::drop::<#6df2beb340a11304>","ax",@progbits
	.p2align	2
	.type	"std_alloc::vec::Vec::drop::<#6df2beb340a11304>",@function
"std_alloc::vec::Vec::drop::<#6df2beb340a11304>":
	stp	x29, x30, [sp, #-80]!
	stp	x22, x21, [sp, #48]
	ldr	x22, [x0, #16]
	mov	x29, sp
	stp	x20, x19, [sp, #64]
	ldp	x19, x21, [x0]
	stp	x26, x25, [sp, #16]
	stp	x24, x23, [sp, #32]
	cbz	x21, .LBB118_12
	mov	x23, xzr
	b	.LBB118_3
.LBB118_2:
	add	x23, x23, #1
	cmp	x23, x21
	b.eq	.LBB118_12
.LBB118_3:
	mov	w8, #88
	madd	x8, x23, x8, x19
	ldrb	w9, [x8]
	ldp	x10, x20, [x8, #56]
	ldp	x25, x24, [x8, #72]
	cmp	w9, #0
	ccmp	x10, #0, #4, ne
	b.eq	.LBB118_5
	ldr	x0, [x8, #40]
	bl	rattle_dealloc
.LBB118_5:
	cbz	x25, .LBB118_10
	add	x26, x20, #16
	b	.LBB118_8
.LBB118_7:
	subs	x25, x25, #1
	add	x26, x26, #24
	b.eq	.LBB118_10
.LBB118_8:
	ldr	x8, [x26]
	cbz	x8, .LBB118_7
	ldur	x0, [x26, #-16]
	bl	rattle_dealloc
	b	.LBB118_7
.LBB118_10:
	cbz	x24, .LBB118_2
	mov	x0, x20
	bl	rattle_dealloc
	b	.LBB118_2
.LBB118_12:
	cbz	x22, .LBB118_14
	mov	x0, x19
	ldp	x20, x19, [sp, #64]
	ldp	x22, x21, [sp, #48]
	ldp	x24, x23, [sp, #32]
	ldp	x26, x25, [sp, #16]
	ldp	x29, x30, [sp], #80
	b	rattle_dealloc
.LBB118_14:
	ldp	x20, x19, [sp, #64]
	ldp	x22, x21, [sp, #48]
	ldp	x24, x23, [sp, #32]
	ldp	x26, x25, [sp, #16]
	ldp	x29, x30, [sp], #80
	ret
.Lfunc_end118:
	.size	"std_alloc::vec::Vec::drop::<#6df2beb340a11304>", .Lfunc_end118-"std_alloc::vec::Vec::drop::<#6df2beb340a11304>"
	.section	".text.std_alloc::vec::Vec::drop::<#ed22912bc4daa275>","ax",@progbits
	.p2align	2
	.type	"std_alloc::vec::Vec::drop::<#ed22912bc4daa275>",@function
"std_alloc::vec::Vec::drop::<#ed22912bc4daa275>":
	stp	x29, x30, [sp, #-48]!
	stp	x20, x19, [sp, #32]
	ldp	x19, x20, [x0]
	stp	x22, x21, [sp, #16]
	mov	x29, sp
	ldr	x21, [x0, #16]
	cbz	x20, .LBB119_5
	add	x22, x19, #16
	b	.LBB119_3
.LBB119_2:
	subs	x20, x20, #1
	add	x22, x22, #24
	b.eq	.LBB119_5
.LBB119_3:
	ldr	x8, [x22]
	cbz	x8, .LBB119_2
	ldur	x0, [x22, #-16]
	bl	rattle_dealloc
	b	.LBB119_2
.LBB119_5:
	cbz	x21, .LBB119_7
	mov	x0, x19
	ldp	x20, x19, [sp, #32]
	ldp	x22, x21, [sp, #16]
	ldp	x29, x30, [sp], #48
	b	rattle_dealloc
.LBB119_7:
	ldp	x20, x19, [sp, #32]
	ldp	x22, x21, [sp, #16]
	ldp	x29, x30, [sp], #48
	ret
.Lfunc_end119:
	.size	"std_alloc::vec::Vec::drop::<#ed22912bc4daa275>", .Lfunc_end119-"std_alloc::vec::Vec::drop::<#ed22912bc4daa275>"
	.section	".text.std_alloc::vec::Vec::drop::<#12439024a2e4f779>","ax",@progbits
	.p2align	2
	.type	"std_alloc::vec::Vec::drop::<#12439024a2e4f779>",@function
"std_alloc::vec::Vec::drop::<#12439024a2e4f779>":
	stp	x29, x30, [sp, #-48]!
	stp	x20, x19, [sp, #32]
	ldp	x19, x20, [x0]
	stp	x22, x21, [sp, #16]
	mov	x29, sp
	ldr	x21, [x0, #16]
	cbz	x20, .LBB120_5
	add	x22, x19, #16
	b	.LBB120_3
.LBB120_2:
	subs	x20, x20, #1
	add	x22, x22, #24
	b.eq	.LBB120_5
.LBB120_3:
	ldr	x8, [x22]
	cbz	x8, .LBB120_2
	ldur	x0, [x22, #-16]
	bl	rattle_dealloc
	b	.LBB120_2
.LBB120_5:
	cbz	x21, .LBB120_7
	mov	x0, x19
	ldp	x20, x19, [sp, #32]
	ldp	x22, x21, [sp, #16]
	ldp	x29, x30, [sp], #48
	b	rattle_dealloc
.LBB120_7:
	ldp	x20, x19, [sp, #32]
	ldp	x22, x21, [sp, #16]
	ldp	x29, x30, [sp], #48
	ret
.Lfunc_end120:
	.size	"std_alloc::vec::Vec::drop::<#12439024a2e4f779>", .Lfunc_end120-"std_alloc::vec::Vec::drop::<#12439024a2e4f779>"
	.section	".text.ct_step::stepping::edge_refusal","ax",@progbits
	.p2align	2
	.type	"ct_step::stepping::edge_refusal",@function
"ct_step::stepping::edge_refusal":
	sub	sp, sp, #192
	movi	v0.2d, #0000000000000000
	stp	x20, x19, [sp, #176]
	mov	x20, x2
	mov	x2, x1
	mov	x1, x0
	mov	x0, sp
	stp	x29, x30, [sp, #160]
	add	x29, sp, #160
	mov	x19, x3
	str	xzr, [sp, #144]
	stp	q0, q0, [sp, #16]
	stp	q0, q0, [sp, #48]
	stp	q0, q0, [sp, #80]
	stp	q0, q0, [sp, #112]
	str	q0, [sp]
	bl	"ct_step::line::StateLine::read"
	ldrb	w8, [sp]
	cmp	w8, #1
	b.ne	.LBB121_2
	ldr	x8, [sp, #16]
	subs	x8, x20, x8
	ccmp	x19, x8, #2, hi
	mov	w8, #3
	cinc	w0, w8, hs
	ldp	x20, x19, [sp, #176]
	ldp	x29, x30, [sp, #160]
	add	sp, sp, #192
	ret
.LBB121_2:
	mov	w0, #1
	ldp	x20, x19, [sp, #176]
	ldp	x29, x30, [sp, #160]
	add	sp, sp, #192
	ret
.Lfunc_end121:
	.size	"ct_step::stepping::edge_refusal", .Lfunc_end121-"ct_step::stepping::edge_refusal"
	.section	".text.std_alloc::vec::Vec::drop::<#719f27dfc7bdb6c0>","ax",@progbits
	.p2align	2
	.type	"std_alloc::vec::Vec::drop::<#719f27dfc7bdb6c0>",@function
"std_alloc::vec::Vec::drop::<#719f27dfc7bdb6c0>":
	stp	x29, x30, [sp, #-32]!
	stp	x20, x19, [sp, #16]
	ldp	x19, x2, [x0]
	ldr	x20, [x0, #16]
	mov	x29, sp
	cbz	x2, .LBB122_2
	mov	x0, x19
	mov	x1, xzr
	bl	"std_alloc::vec::opened::drop_run::<#e5da5d668adfa5c1>"
.LBB122_2:
	cbz	x20, .LBB122_4
	mov	x0, x19
	ldp	x20, x19, [sp, #16]
	ldp	x29, x30, [sp], #32
	b	rattle_dealloc
.LBB122_4:
	ldp	x20, x19, [sp, #16]
	ldp	x29, x30, [sp], #32
	ret
.Lfunc_end122:
	.size	"std_alloc::vec::Vec::drop::<#719f27dfc7bdb6c0>", .Lfunc_end122-"std_alloc::vec::Vec::drop::<#719f27dfc7bdb6c0>"
	.section	".text.unlikely.libwagtenib::step::wagtenib_step_begin","ax",@progbits
	.p2align	2
	.type	"libwagtenib::step::wagtenib_step_begin",@function
"libwagtenib::step::wagtenib_step_begin":
	sub	sp, sp, #112
	movi	v0.2d, #0000000000000000
	stp	x20, x19, [sp, #96]
	mov	x20, x1
	mov	x1, x0
	mov	x0, sp
	stp	x29, x30, [sp, #48]
	str	x23, [sp, #64]
	add	x29, sp, #48
	stp	x22, x21, [sp, #80]
	mov	x21, x3
	mov	x22, x2
	str	xzr, [sp, #32]
	stp	q0, q0, [sp]
	bl	"ct_step::calls::begin"
	ldrb	w8, [sp]
	cbz	w8, .LBB123_3
	mov	w0, #8
.LBB123_2:
	ldp	x20, x19, [sp, #96]
	ldr	x23, [sp, #64]
	ldp	x22, x21, [sp, #80]
	ldp	x29, x30, [sp, #48]
	add	sp, sp, #112
	ret
.LBB123_3:
	ldrb	w8, [sp, #8]
	cbz	w8, .LBB123_5
	ldrb	w8, [sp, #9]
	adrp	x9, .Lswitch.table.wagtenib_step
	add	x9, x9, :lo12:.Lswitch.table.wagtenib_step
	ldr	w0, [x9, x8, lsl #2]
	ldp	x20, x19, [sp, #96]
	ldr	x23, [sp, #64]
	ldp	x22, x21, [sp, #80]
	ldp	x29, x30, [sp, #48]
	add	sp, sp, #112
	ret
.LBB123_5:
	ldp	x19, x2, [sp, #16]
	ldr	x23, [sp, #32]
	cmp	x22, x2
	str	x2, [x21]
	b.hs	.LBB123_7
	mov	w0, #9
	cbnz	x23, .LBB123_23
	b	.LBB123_2
.LBB123_7:
	sub	x9, x20, x19
	cmp	x9, x2
	b.hs	.LBB123_12
	cmp	x2, #8
	mov	x8, xzr
	b.lo	.LBB123_20
	cmp	x9, #32
	b.lo	.LBB123_20
	cmp	x2, #32
	b.hs	.LBB123_13
	mov	x8, xzr
	b	.LBB123_17
.LBB123_12:
	mov	x0, x20
	mov	x1, x19
	bl	memmove
	b	.LBB123_22
.LBB123_13:
	and	x9, x2, #0x18
	and	x8, x2, #0xffffffffffffffe0
	add	x10, x19, #16
	add	x11, x20, #16
	and	x12, x2, #0xffffffffffffffe0
.LBB123_14:
	ldp	q0, q1, [x10, #-16]
	subs	x12, x12, #32
	add	x10, x10, #32
	stp	q0, q1, [x11, #-16]
	add	x11, x11, #32
	b.ne	.LBB123_14
	cmp	x2, x8
	b.eq	.LBB123_22
	cbz	x9, .LBB123_20
.LBB123_17:
	mov	x11, x8
	and	x8, x2, #0xfffffffffffffff8
	sub	x9, x11, x8
	add	x10, x19, x11
	add	x11, x20, x11
.LBB123_18:
	ldr	d0, [x10], #8
	adds	x9, x9, #8
	str	d0, [x11], #8
	b.ne	.LBB123_18
	cmp	x2, x8
	b.eq	.LBB123_22
.LBB123_20:
	sub	x9, x2, x8
	add	x10, x19, x8
	add	x8, x20, x8
.LBB123_21:
	ldrb	w11, [x10], #1
	subs	x9, x9, #1
	strb	w11, [x8], #1
	b.ne	.LBB123_21
.LBB123_22:
	mov	w0, wzr
	cbz	x23, .LBB123_2
.LBB123_23:
	mov	w20, w0
	mov	x0, x19
	bl	rattle_dealloc
	mov	w0, w20
	ldp	x20, x19, [sp, #96]
	ldr	x23, [sp, #64]
	ldp	x22, x21, [sp, #80]
	ldp	x29, x30, [sp, #48]
	add	sp, sp, #112
	ret
.Lfunc_end123:
	.size	"libwagtenib::step::wagtenib_step_begin", .Lfunc_end123-"libwagtenib::step::wagtenib_step_begin"
	.section	.rodata.cst16,"aM",@progbits,16
	.p2align	4, 0x0
.LCPI124_0:
	.word	1779033703
	.word	3144134277
	.word	1013904242
	.word	2773480762
.LCPI124_1:
	.word	1359893119
	.word	2600822924
	.word	528734635
	.word	1541459225
	.section	".text.unlikely.ct_step::calls::begin","ax",@progbits
	.p2align	2
	.type	"ct_step::calls::begin",@function
"ct_step::calls::begin":
	sub	sp, sp, #352
	adrp	x8, .LCPI124_0
	movi	v1.2d, #0000000000000000
	stp	x28, x21, [sp, #320]
	ldr	q0, [x8, :lo12:.LCPI124_0]
	add	x21, sp, #152
	adrp	x8, .LCPI124_1
	stp	x29, x30, [sp, #304]
	add	x29, sp, #304
	mov	w2, #56
	stur	q0, [x21, #40]
	ldr	q0, [x8, :lo12:.LCPI124_1]
	stp	x20, x19, [sp, #336]
	mov	x20, x1
	mov	x19, x0
	adrp	x1, .Lstatic.5
	add	x1, x1, :lo12:.Lstatic.5
	sub	x0, x29, #112
	stp	xzr, xzr, [sp, #152]
	stur	xzr, [x21, #22]
	str	xzr, [sp, #168]
	stur	xzr, [x29, #-16]
	stur	q1, [x21, #120]
	stur	q1, [x21, #104]
	stur	q1, [x21, #88]
	stur	q1, [x21, #72]
	stur	q0, [x21, #56]
	bl	"sha2::block256::Core256::update"
	sub	x0, x29, #112
	sub	x1, x29, #120
	mov	w2, #8
	stur	xzr, [x29, #-120]
	bl	"sha2::block256::Core256::update"
	ldur	q0, [x21, #40]
	ldur	q1, [x21, #56]
	movi	v2.2d, #0000000000000000
	sub	x0, x29, #112
	add	x1, sp, #8
	stp	xzr, x20, [sp, #8]
	rev32	v0.16b, v0.16b
	rev32	v1.16b, v1.16b
	stur	q2, [sp, #56]
	stur	q2, [sp, #72]
	stur	q0, [sp, #24]
	stur	q1, [sp, #40]
	stur	q0, [sp, #88]
	stur	q1, [sp, #104]
	stur	q2, [sp, #120]
	stur	q2, [sp, #136]
	stur	q2, [x21, #56]
	stur	q2, [x21, #40]
	bl	"ct_step::line::StateLine::write"
	ldurb	w8, [x29, #-112]
	cbz	w8, .LBB124_2
	mov	w8, #1
	stur	xzr, [x21, #14]
	stur	xzr, [x21, #6]
	stur	xzr, [x21, #22]
	b	.LBB124_3
.LBB124_2:
	ldur	q0, [x21, #48]
	ldur	x9, [x29, #-88]
	stur	q0, [x21, #6]
	stur	x9, [x21, #22]
.LBB124_3:
	strb	w8, [x19]
	ldur	q0, [x21, #6]
	ldur	x8, [x21, #22]
	strh	wzr, [x19, #8]
	ldp	x28, x21, [sp, #320]
	str	q0, [x19, #16]
	ldp	x29, x30, [sp, #304]
	str	x8, [x19, #32]
	ldp	x20, x19, [sp, #336]
	add	sp, sp, #352
	ret
.Lfunc_end124:
	.size	"ct_step::calls::begin", .Lfunc_end124-"ct_step::calls::begin"
	.section	".text.libwagtenib::witness::cosign_after","ax",@progbits
	.p2align	2
	.type	"libwagtenib::witness::cosign_after",@function
"libwagtenib::witness::cosign_after":
	sub	sp, sp, #288
	stp	x22, x21, [sp, #256]
	mov	x21, x0
	add	x0, sp, #32
	stp	x29, x30, [sp, #192]
	add	x29, sp, #192
	stp	x28, x27, [sp, #208]
	stp	x26, x25, [sp, #224]
	mov	x25, x4
	mov	x26, x3
	stp	x24, x23, [sp, #240]
	mov	x24, x5
	stp	x20, x19, [sp, #272]
	mov	x19, x7
	mov	x20, x6
	stp	xzr, xzr, [sp, #32]
	str	xzr, [sp, #48]
	bl	"core::str::utf8::from_utf8"
	ldrb	w8, [sp, #32]
	cbz	w8, .LBB125_2
.LBB125_1:
	mov	w0, #96
	b	.LBB125_4
.LBB125_2:
	movi	v0.2d, #0000000000000000
	ldp	x22, x23, [sp, #40]
	add	x0, sp, #32
	str	xzr, [sp, #96]
	mov	x1, x22
	mov	x2, x23
	stp	q0, q0, [sp]
	stp	q0, q0, [sp, #32]
	stp	q0, q0, [sp, #64]
	bl	"libwagtenib::message::checkpoint_of"
	ldrb	w8, [sp, #32]
	cbz	w8, .LBB125_5
.LBB125_3:
	mov	w0, #8
.LBB125_4:
	ldp	x20, x19, [sp, #272]
	ldp	x22, x21, [sp, #256]
	ldp	x24, x23, [sp, #240]
	ldp	x26, x25, [sp, #224]
	ldp	x28, x27, [sp, #208]
	ldp	x29, x30, [sp, #192]
	add	sp, sp, #288
	ret
.LBB125_5:
	ldrb	w8, [sp, #40]
	cmp	w8, #1
	b.ne	.LBB125_1
	ldr	x1, [sp, #56]
	ldr	x8, [x21, #8]
	cmp	x1, x8
	b.ne	.LBB125_24
	ldr	x0, [sp, #48]
	ldr	x27, [sp, #64]
	cmp	x1, #4
	ldr	x2, [x21]
	b.hs	.LBB125_15
	cbz	x1, .LBB125_17
	ldrb	w8, [x0]
	ldrb	w9, [x2]
	cmp	w8, w9
	b.ne	.LBB125_23
	cmp	x1, #1
	b.eq	.LBB125_17
	ldrb	w8, [x0, #1]
	ldrb	w9, [x2, #1]
	cmp	w8, w9
	b.ne	.LBB125_36
	cmp	x1, #2
	b.eq	.LBB125_17
	ldrb	w8, [x0, #2]
	ldrb	w9, [x2, #2]
	cmp	w8, w9
	b.eq	.LBB125_17
	mov	w8, #2
	cmp	x8, x1
	b.lo	.LBB125_24
	b	.LBB125_17
.LBB125_15:
	ldr	w8, [x0]
	ldr	w9, [x2]
	cmp	w8, w9
	b.ne	.LBB125_24
	bl	"core::cmp::slices::groups_equal::<i8,31'core::cmp::numbers::U8PartialEq{}>"
	cbz	w0, .LBB125_24
.LBB125_17:
	add	x8, sp, #32
	ldp	q0, q2, [x21, #16]
	ldur	q1, [x8, #40]
	ldur	q3, [x8, #56]
	sub	x9, x29, #40
	ldr	x8, [x21, #48]
	cmp	x27, x26
	stp	q0, q2, [x29, #-80]
	stur	q1, [x9, #8]
	stur	q3, [x9, #24]
	stp	x8, x27, [x29, #-48]
	b.hs	.LBB125_19
	mov	w0, #98
	b	.LBB125_4
.LBB125_19:
	ldur	x8, [x29, #-80]
	cmp	x26, x8
	b.ne	.LBB125_25
	cmp	x27, x26
	sub	x8, x29, #40
	b.ne	.LBB125_26
	sub	x9, x29, #80
	add	x0, x8, #8
	orr	x1, x9, #0x8
	bl	"core::cmp::arrays::ArrayPartialEq::eq::<i8,=32,31'core::cmp::numbers::U8PartialEq{}>"
	cbnz	w0, .LBB125_34
	mov	w0, #34
	b	.LBB125_4
.LBB125_23:
	cmp	xzr, x1
	b.hs	.LBB125_17
.LBB125_24:
	mov	w0, #97
	b	.LBB125_4
.LBB125_25:
	mov	w0, #99
	b	.LBB125_4
.LBB125_26:
	cbz	x26, .LBB125_34
	cmp	x27, x26
	b.ls	.LBB125_37
	cbz	x24, .LBB125_38
	sub	x9, x26, #1
	sub	x1, x27, #1
	tbnz	w9, #0, .LBB125_31
	mov	x0, x9
	b	.LBB125_32
.LBB125_31:
	lsr	x0, x9, #1
	lsr	x1, x1, #1
	mov	w10, w9
	mov	x9, x0
	tbnz	w10, #1, .LBB125_31
.LBB125_32:
	sub	x9, x29, #80
	cbz	x0, .LBB125_39
	sub	x4, x24, #1
	add	x3, x25, #32
	orr	x5, x9, #0x8
	add	x6, x8, #8
	mov	x2, x25
	b	.LBB125_40
.LBB125_34:
	cbz	x24, .LBB125_42
	mov	w0, #100
	b	.LBB125_4
.LBB125_36:
	mov	w8, #1
	cmp	x8, x1
	b.lo	.LBB125_24
	b	.LBB125_17
.LBB125_37:
	mov	w1, #6
	b	.LBB125_41
.LBB125_38:
	mov	w1, #4
	b	.LBB125_41
.LBB125_39:
	orr	x2, x9, #0x8
	orr	x5, x9, #0x8
	add	x6, x8, #8
	mov	x3, x25
	mov	x4, x24
.LBB125_40:
	bl	"ct_verify::consistency::check_from::<#0f46d2847b2ce1ce>"
	tst	w0, #0xff
	b.eq	.LBB125_42
.LBB125_41:
	and	w8, w1, #0xff
	add	w0, w8, #1
	b	.LBB125_4
.LBB125_42:
	mov	w0, #101
	cbz	x20, .LBB125_4
	ldr	x8, [x21, #56]
	cmp	x8, x20
	b.hi	.LBB125_4
	mov	x0, sp
	mov	x1, x20
	mov	x2, x22
	mov	x3, x23
	bl	"ct_checkpoint::message::cosignature_message"
	ldrb	w8, [sp]
	cbnz	w8, .LBB125_3
	ldp	x20, x2, [sp, #8]
	ldr	x21, [sp, #24]
	ldp	x8, x9, [x29, #96]
	cmp	x8, x2
	str	x2, [x9]
	b.hs	.LBB125_47
	mov	w19, #9
	b	.LBB125_63
.LBB125_47:
	sub	x9, x19, x20
	cmp	x9, x2
	b.hs	.LBB125_52
	cmp	x2, #8
	mov	x8, xzr
	b.lo	.LBB125_60
	cmp	x9, #32
	b.lo	.LBB125_60
	cmp	x2, #32
	b.hs	.LBB125_53
	mov	x8, xzr
	b	.LBB125_57
.LBB125_52:
	mov	x0, x19
	mov	x1, x20
	bl	memmove
	b	.LBB125_62
.LBB125_53:
	and	x9, x2, #0x18
	and	x8, x2, #0xffffffffffffffe0
	add	x10, x20, #16
	add	x11, x19, #16
	and	x12, x2, #0xffffffffffffffe0
.LBB125_54:
	ldp	q0, q1, [x10, #-16]
	subs	x12, x12, #32
	add	x10, x10, #32
	stp	q0, q1, [x11, #-16]
	add	x11, x11, #32
	b.ne	.LBB125_54
	cmp	x2, x8
	b.eq	.LBB125_62
	cbz	x9, .LBB125_60
.LBB125_57:
	mov	x11, x8
	and	x8, x2, #0xfffffffffffffff8
	sub	x9, x11, x8
	add	x10, x20, x11
	add	x11, x19, x11
.LBB125_58:
	ldr	d0, [x10], #8
	adds	x9, x9, #8
	str	d0, [x11], #8
	b.ne	.LBB125_58
	cmp	x2, x8
	b.eq	.LBB125_62
.LBB125_60:
	sub	x9, x2, x8
	add	x10, x20, x8
	add	x8, x19, x8
.LBB125_61:
	ldrb	w11, [x10], #1
	subs	x9, x9, #1
	strb	w11, [x8], #1
	b.ne	.LBB125_61
.LBB125_62:
	mov	w19, wzr
.LBB125_63:
	cbz	x21, .LBB125_65
	mov	x0, x20
	bl	rattle_dealloc
.LBB125_65:
	mov	w0, w19
	b	.LBB125_4
.Lfunc_end125:
	.size	"libwagtenib::witness::cosign_after", .Lfunc_end125-"libwagtenib::witness::cosign_after"
	.section	".text.ct_names::name_bytes::read_names","ax",@progbits
	.p2align	2
	.type	"ct_names::name_bytes::read_names",@function
"ct_names::name_bytes::read_names":
	sub	sp, sp, #192
	movi	v0.2d, #0000000000000000
	stp	x20, x19, [sp, #176]
	mov	x19, x0
	stp	x29, x30, [sp, #144]
	add	x29, sp, #144
	str	x21, [sp, #160]
	stp	xzr, xzr, [sp]
	str	wzr, [sp, #24]
	str	xzr, [sp, #16]
	tbz	w1, #0, .LBB126_3
	sub	x0, x29, #48
	mov	x1, x2
	mov	x2, x3
	stp	xzr, xzr, [sp, #32]
	str	wzr, [sp, #56]
	str	xzr, [sp, #48]
	stp	q0, q0, [sp, #64]
	stp	q0, q0, [x29, #-32]
	stur	q0, [x29, #-48]
	bl	"ct_promise::der_reading::next_element"
	ldurb	w8, [x29, #-48]
	cbz	w8, .LBB126_5
	ldurb	w10, [x29, #-47]
	b	.LBB126_12
.LBB126_3:
	sub	x0, x29, #48
	mov	x1, x2
	mov	x2, x3
	stp	xzr, xzr, [sp, #32]
	str	wzr, [sp, #56]
	str	xzr, [sp, #48]
	stp	q0, q0, [sp, #64]
	stp	q0, q0, [x29, #-32]
	stur	q0, [x29, #-48]
	bl	"ct_promise::der_reading::next_element"
	ldurb	w8, [x29, #-48]
	cbz	w8, .LBB126_8
	ldurb	w8, [x29, #-47]
	b	.LBB126_14
.LBB126_5:
	ldurb	w8, [x29, #-40]
	cmp	w8, #48
	b.ne	.LBB126_11
	ldur	x8, [x29, #-8]
	cbz	x8, .LBB126_18
	mov	w10, #6
	b	.LBB126_12
.LBB126_8:
	ldurb	w8, [x29, #-40]
	cmp	w8, #48
	b.ne	.LBB126_13
	ldur	x8, [x29, #-8]
	cbz	x8, .LBB126_20
	mov	w10, wzr
	mov	w8, #6
	b	.LBB126_15
.LBB126_11:
	mov	w10, #5
.LBB126_12:
	mov	w8, #1
	mov	w9, wzr
	stur	xzr, [sp, #44]
	orr	w10, w8, w10, lsl #8
	stur	xzr, [sp, #36]
	b	.LBB126_16
.LBB126_13:
	mov	w8, #5
.LBB126_14:
	mov	w10, wzr
.LBB126_15:
	mov	w9, wzr
	stur	xzr, [sp, #44]
	orr	w10, w10, w8, lsl #8
	stur	xzr, [sp, #36]
	mov	w8, #1
.LBB126_16:
	stur	xzr, [sp, #52]
.LBB126_17:
	ldur	q0, [sp, #36]
	ldur	x11, [sp, #52]
	strb	w8, [x19]
	strb	w9, [x19, #1]
	ldr	x21, [sp, #160]
	stur	q0, [sp, #4]
	ldur	q0, [sp, #4]
	strh	w10, [x19, #2]
	str	x11, [x19, #24]
	ldp	x29, x30, [sp, #144]
	stur	q0, [x19, #8]
	ldp	x20, x19, [sp, #176]
	stur	x11, [sp, #20]
	add	sp, sp, #192
	ret
.LBB126_18:
	ldp	x1, x2, [x29, #-32]
	add	x0, sp, #64
.LBB126_19:
	bl	"ct_names::reading::names_in"
	ldur	q0, [sp, #72]
	ldr	x11, [sp, #88]
	ldrb	w8, [sp, #64]
	ldrb	w9, [sp, #65]
	ldrh	w10, [sp, #66]
	stur	q0, [sp, #36]
	stur	x11, [sp, #52]
	b	.LBB126_17
.LBB126_20:
	movi	v0.2d, #0000000000000000
	ldp	x1, x2, [x29, #-32]
	sub	x0, x29, #48
	stp	q0, q0, [x29, #-32]
	stur	q0, [x29, #-48]
	bl	"ct_promise::der_reading::next_element"
	ldurb	w8, [x29, #-48]
	cbz	w8, .LBB126_22
	ldurb	w8, [x29, #-47]
	mov	w10, #1
	b	.LBB126_15
.LBB126_22:
	ldurb	w8, [x29, #-40]
	cmp	w8, #48
	b.ne	.LBB126_25
	movi	v0.2d, #0000000000000000
	ldp	x1, x2, [x29, #-16]
	ldp	x20, x21, [x29, #-32]
	sub	x0, x29, #48
	stp	q0, q0, [x29, #-32]
	stur	q0, [x29, #-48]
	bl	"ct_promise::der_reading::next_element"
	ldurb	w8, [x29, #-48]
	cbz	w8, .LBB126_26
	ldurb	w8, [x29, #-47]
	b	.LBB126_30
.LBB126_25:
	mov	w8, #5
	mov	w10, #1
	b	.LBB126_15
.LBB126_26:
	ldurb	w8, [x29, #-40]
	cmp	w8, #48
	b.ne	.LBB126_29
	movi	v0.2d, #0000000000000000
	ldp	x1, x2, [x29, #-16]
	sub	x0, x29, #48
	stp	q0, q0, [x29, #-32]
	stur	q0, [x29, #-48]
	bl	"ct_promise::der_reading::next_element"
	ldurb	w8, [x29, #-48]
	cbz	w8, .LBB126_31
	ldurb	w8, [x29, #-47]
	mov	w10, #3
	b	.LBB126_15
.LBB126_29:
	mov	w8, #5
.LBB126_30:
	mov	w10, #2
	b	.LBB126_15
.LBB126_31:
	ldurb	w8, [x29, #-40]
	cmp	w8, #3
	b.ne	.LBB126_34
	ldur	x8, [x29, #-8]
	cbz	x8, .LBB126_35
	mov	w8, #6
	mov	w10, #3
	b	.LBB126_15
.LBB126_34:
	mov	w8, #5
	mov	w10, #3
	b	.LBB126_15
.LBB126_35:
	add	x0, sp, #64
	mov	x1, x20
	mov	x2, x21
	b	.LBB126_19
.Lfunc_end126:
	.size	"ct_names::name_bytes::read_names", .Lfunc_end126-"ct_names::name_bytes::read_names"
	.section	".text.ct_names::reading::expected_in","ax",@progbits
	.p2align	2
	.type	"ct_names::reading::expected_in",@function
"ct_names::reading::expected_in":
	sub	sp, sp, #208
	movi	v0.2d, #0000000000000000
	stp	x29, x30, [sp, #160]
	add	x29, sp, #160
	str	x21, [sp, #176]
	mov	w21, w2
	mov	x2, x4
	stp	x20, x19, [sp, #192]
	mov	w20, w1
	mov	x19, x0
	sub	x0, x29, #48
	mov	x1, x3
	stur	xzr, [sp, #29]
	stp	q0, q0, [sp]
	stp	q0, q0, [x29, #-48]
	stur	q0, [x29, #-16]
	bl	"ct_promise::der_reading::next_element"
	ldurb	w8, [x29, #-48]
	cbz	w8, .LBB127_2
	ldurb	w8, [x29, #-47]
	b	.LBB127_5
.LBB127_2:
	ldurb	w8, [x29, #-40]
	cmp	w8, w21, uxtb
	b.ne	.LBB127_4
	ldp	q0, q1, [x29, #-32]
	mov	w9, wzr
	mov	w20, wzr
	mov	w8, wzr
	stp	q1, q0, [sp, #64]
	str	q0, [sp, #48]
	stur	q0, [sp, #5]
	stur	q1, [sp, #21]
	b	.LBB127_6
.LBB127_4:
	mov	w8, #5
.LBB127_5:
	mov	w9, #1
.LBB127_6:
	ldur	q0, [sp, #5]
	ldur	q1, [sp, #21]
	strb	w9, [x19]
	strb	w20, [x19, #1]
	ldr	x21, [sp, #176]
	strb	w8, [x19, #2]
	ldp	x29, x30, [sp, #160]
	stur	q0, [x19, #8]
	stur	q1, [x19, #24]
	ldp	x20, x19, [sp, #192]
	add	sp, sp, #208
	ret
.Lfunc_end127:
	.size	"ct_names::reading::expected_in", .Lfunc_end127-"ct_names::reading::expected_in"
	.section	".text.ct_names::reading::only_in","ax",@progbits
	.p2align	2
	.type	"ct_names::reading::only_in",@function
"ct_names::reading::only_in":
	sub	sp, sp, #176
	movi	v0.2d, #0000000000000000
	stp	x29, x30, [sp, #128]
	add	x29, sp, #128
	str	x21, [sp, #144]
	mov	w21, w2
	mov	x2, x4
	stp	x20, x19, [sp, #160]
	mov	w20, w1
	mov	x19, x0
	sub	x0, x29, #48
	mov	x1, x3
	stp	xzr, xzr, [sp, #8]
	stur	xzr, [sp, #21]
	stp	q0, q0, [x29, #-32]
	stur	q0, [x29, #-48]
	bl	"ct_promise::der_reading::next_element"
	ldurb	w8, [x29, #-48]
	cbz	w8, .LBB128_2
	ldurb	w8, [x29, #-47]
	b	.LBB128_6
.LBB128_2:
	ldurb	w8, [x29, #-40]
	cmp	w8, w21, uxtb
	b.ne	.LBB128_5
	ldur	x8, [x29, #-8]
	ldur	q0, [x29, #-32]
	stur	q0, [sp, #64]
	cbz	x8, .LBB128_8
	mov	w8, #6
	b	.LBB128_6
.LBB128_5:
	mov	w8, #5
.LBB128_6:
	mov	w9, #1
.LBB128_7:
	ldur	q0, [sp, #13]
	strb	w9, [x19]
	ldr	x21, [sp, #144]
	strb	w20, [x19, #1]
	ldp	x29, x30, [sp, #128]
	strb	w8, [x19, #2]
	stur	q0, [x19, #8]
	ldp	x20, x19, [sp, #160]
	add	sp, sp, #176
	ret
.LBB128_8:
	add	x10, sp, #58
	mov	w9, wzr
	mov	w20, wzr
	ldur	q0, [x10, #6]
	str	q0, [sp, #32]
	stur	q0, [sp, #13]
	b	.LBB128_7
.Lfunc_end128:
	.size	"ct_names::reading::only_in", .Lfunc_end128-"ct_names::reading::only_in"
	.section	".text.ct_names::reading::names_in","ax",@progbits
	.p2align	2
	.type	"ct_names::reading::names_in",@function
"ct_names::reading::names_in":
	sub	sp, sp, #336
	movi	v0.2d, #0000000000000000
	stp	x29, x30, [sp, #240]
	add	x29, sp, #240
	stp	x24, x23, [sp, #288]
	sub	x24, x29, #80
	stp	x20, x19, [sp, #320]
	mov	x19, x0
	stp	x28, x27, [sp, #256]
	stp	x26, x25, [sp, #272]
	stp	x22, x21, [sp, #304]
	stp	xzr, xzr, [sp, #24]
	str	xzr, [sp, #40]
	str	xzr, [sp, #80]
	stp	q0, q0, [sp, #48]
	cbz	x2, .LBB129_6
	ldrb	w8, [x1]
	cmp	w8, #160
	b.ne	.LBB129_6
	sub	x0, x29, #80
	stp	q0, q0, [x24, #16]
	str	q0, [x24]
	bl	"ct_promise::der_reading::next_element"
	ldurb	w8, [x29, #-80]
	cbz	w8, .LBB129_4
	ldurb	w8, [x29, #-79]
	mov	w9, #4
	b	.LBB129_20
.LBB129_4:
	movi	v0.2d, #0000000000000000
	ldurb	w8, [x29, #-72]
	cmp	w8, #160
	b.ne	.LBB129_12
	ldp	x1, x2, [x29, #-48]
.LBB129_6:
	sub	x0, x29, #80
	stp	q0, q0, [x24]
	str	q0, [x24, #32]
	bl	"ct_promise::der_reading::next_element"
	ldurb	w8, [x29, #-80]
	cbz	w8, .LBB129_8
	ldurb	w8, [x29, #-79]
	mov	w9, #5
	b	.LBB129_18
.LBB129_8:
	ldurb	w8, [x29, #-72]
	cmp	w8, #2
	b.ne	.LBB129_11
	ldp	q2, q1, [x24, #16]
	movi	v0.2d, #0000000000000000
	sub	x0, x29, #80
	strh	wzr, [sp, #48]
	strb	wzr, [sp, #50]
	stur	q1, [sp, #72]
	ldp	x1, x2, [sp, #72]
	stur	q2, [sp, #56]
	stp	q0, q0, [x24]
	str	q0, [x24, #32]
	bl	"ct_promise::der_reading::next_element"
	ldurb	w8, [x29, #-80]
	cbz	w8, .LBB129_13
	ldurb	w8, [x29, #-79]
	b	.LBB129_17
.LBB129_11:
	mov	w8, #5
	mov	w9, #5
	b	.LBB129_18
.LBB129_12:
	mov	w8, #5
	mov	w9, #4
	b	.LBB129_20
.LBB129_13:
	ldurb	w8, [x29, #-72]
	cmp	w8, #48
	b.ne	.LBB129_16
	ldp	q0, q1, [x24, #16]
	add	x8, sp, #48
	orr	x20, x8, #0x8
	movi	v2.2d, #0000000000000000
	sub	x0, x29, #80
	stp	q0, q1, [x20]
	ldp	x1, x2, [sp, #72]
	stur	q0, [sp, #94]
	stur	q1, [sp, #110]
	stp	q2, q2, [x24]
	str	q2, [x24, #32]
	bl	"ct_promise::der_reading::next_element"
	ldurb	w8, [x29, #-80]
	cbz	w8, .LBB129_23
	ldurb	w8, [x29, #-79]
	mov	w9, #7
	b	.LBB129_18
.LBB129_16:
	mov	w8, #5
.LBB129_17:
	mov	w9, #6
.LBB129_18:
	strb	w9, [sp, #49]
	strb	w8, [sp, #50]
.LBB129_19:
	ldurh	w9, [sp, #49]
	lsr	w8, w9, #8
.LBB129_20:
	bfi	w9, w8, #8, #8
	mov	w8, #1
	str	xzr, [x19, #24]
	strh	w8, [x19]
	strh	w9, [x19, #2]
.LBB129_21:
	stp	xzr, xzr, [x19, #8]
.LBB129_22:
	ldp	x20, x19, [sp, #320]
	ldp	x22, x21, [sp, #304]
	ldp	x24, x23, [sp, #288]
	ldp	x26, x25, [sp, #272]
	ldp	x28, x27, [sp, #256]
	ldp	x29, x30, [sp, #240]
	add	sp, sp, #336
	ret
.LBB129_23:
	ldurb	w8, [x29, #-72]
	cmp	w8, #48
	b.ne	.LBB129_27
	ldp	q0, q1, [x24, #16]
	add	x0, sp, #48
	mov	w1, #8
	mov	w2, #48
	stp	q0, q1, [x20]
	ldp	x3, x4, [sp, #72]
	stur	q0, [sp, #94]
	stur	q1, [sp, #110]
	bl	"ct_names::reading::expected_in"
	ldrb	w8, [sp, #48]
	cbnz	w8, .LBB129_19
	movi	v0.2d, #0000000000000000
	ldp	x1, x2, [sp, #72]
	sub	x0, x29, #80
	stp	q0, q0, [x24, #16]
	str	q0, [x24]
	bl	"ct_promise::der_reading::next_element"
	ldurb	w8, [x29, #-80]
	cbz	w8, .LBB129_28
	ldurb	w8, [x29, #-79]
	b	.LBB129_32
.LBB129_27:
	mov	w8, #5
	mov	w9, #7
	b	.LBB129_18
.LBB129_28:
	ldurb	w8, [x29, #-72]
	cmp	w8, #48
	b.ne	.LBB129_31
	movi	v0.2d, #0000000000000000
	ldp	x1, x2, [x29, #-48]
	ldp	x20, x21, [x29, #-64]
	sub	x0, x29, #80
	stp	q0, q0, [x24, #16]
	str	q0, [x24]
	bl	"ct_promise::der_reading::next_element"
	ldurb	w8, [x29, #-80]
	cbz	w8, .LBB129_33
	ldurb	w8, [x29, #-79]
	mov	w9, #10
	b	.LBB129_20
.LBB129_31:
	mov	w8, #5
.LBB129_32:
	mov	w9, #9
	b	.LBB129_20
.LBB129_33:
	ldurb	w8, [x29, #-72]
	cmp	w8, #48
	b.ne	.LBB129_38
	str	x20, [sp, #16]
	ldp	x20, x2, [x29, #-48]
	cbz	x2, .LBB129_49
	ldrb	w8, [x20]
	cmp	w8, #129
	b.ne	.LBB129_42
	movi	v0.2d, #0000000000000000
	sub	x0, x29, #80
	mov	x1, x20
	stp	q0, q0, [x24, #16]
	str	q0, [x24]
	bl	"ct_promise::der_reading::next_element"
	ldurb	w8, [x29, #-80]
	cbz	w8, .LBB129_39
	ldurb	w8, [x29, #-79]
	mov	w9, #11
	b	.LBB129_20
.LBB129_38:
	mov	w8, #5
	mov	w9, #10
	b	.LBB129_20
.LBB129_39:
	ldurb	w8, [x29, #-72]
	cmp	w8, #129
	b.ne	.LBB129_118
	ldp	x20, x2, [x29, #-48]
	cbz	x2, .LBB129_49
	ldrb	w8, [x20]
.LBB129_42:
	cmp	w8, #130
	b.ne	.LBB129_47
	movi	v0.2d, #0000000000000000
	sub	x0, x29, #80
	mov	x1, x20
	stp	q0, q0, [x24, #16]
	str	q0, [x24]
	bl	"ct_promise::der_reading::next_element"
	ldurb	w8, [x29, #-80]
	cbz	w8, .LBB129_45
	ldurb	w8, [x29, #-79]
	mov	w9, #12
	b	.LBB129_20
.LBB129_45:
	ldurb	w8, [x29, #-72]
	cmp	w8, #130
	b.ne	.LBB129_122
	ldp	x20, x2, [x29, #-48]
	cbz	x2, .LBB129_49
.LBB129_47:
	movi	v0.2d, #0000000000000000
	sub	x0, x29, #80
	mov	x1, x20
	stp	q0, q0, [x24, #16]
	str	q0, [x24]
	bl	"ct_promise::der_reading::next_element"
	ldurb	w8, [x29, #-80]
	cbz	w8, .LBB129_115
.LBB129_48:
	ldurb	w8, [x29, #-79]
	mov	w9, #13
	b	.LBB129_20
.LBB129_49:
	mov	x22, xzr
	sub	x8, x29, #24
	stp	xzr, xzr, [sp, #32]
	str	x8, [sp, #24]
	cbz	x21, .LBB129_85
.LBB129_50:
	sub	x26, x29, #24
.LBB129_51:
	movi	v0.2d, #0000000000000000
	ldr	x1, [sp, #16]
	sub	x0, x29, #80
	mov	x2, x21
	stp	q0, q0, [x24, #16]
	str	q0, [x24]
	bl	"ct_promise::der_reading::next_element"
	ldurb	w8, [x29, #-80]
	cbnz	w8, .LBB129_107
	ldurb	w8, [x29, #-72]
	cmp	w8, #49
	b.ne	.LBB129_108
	ldp	x9, x8, [x29, #-56]
	ldur	x21, [x29, #-40]
	str	x8, [sp, #16]
	cbz	x9, .LBB129_84
	ldur	x23, [x29, #-64]
	mov	x2, x9
	b	.LBB129_60
.LBB129_55:
	cmp	x10, x8
	b.eq	.LBB129_78
.LBB129_56:
	mov	w9, #24
	mov	w10, #2
.LBB129_57:
	madd	x9, x8, x9, x26
	strb	w10, [x9]
	stur	wzr, [x9, #1]
	str	wzr, [x9, #4]
.LBB129_58:
	ldr	x10, [sp, #8]
	add	x8, x8, #1
	stp	x28, x10, [x9, #8]
	str	x8, [sp, #32]
.LBB129_59:
	mov	x2, x25
	cbz	x25, .LBB129_84
.LBB129_60:
	movi	v0.2d, #0000000000000000
	sub	x0, x29, #80
	mov	x1, x23
	stp	q0, q0, [x24, #16]
	str	q0, [x24]
	bl	"ct_promise::der_reading::next_element"
	ldurb	w8, [x29, #-80]
	cbnz	w8, .LBB129_107
	ldurb	w8, [x29, #-72]
	cmp	w8, #48
	b.ne	.LBB129_108
	movi	v0.2d, #0000000000000000
	ldp	x1, x2, [x29, #-64]
	ldp	x23, x25, [x29, #-48]
	sub	x0, x29, #80
	stp	q0, q0, [x24, #16]
	str	q0, [x24]
	bl	"ct_promise::der_reading::next_element"
	ldurb	w8, [x29, #-80]
	cbnz	w8, .LBB129_107
	ldurb	w8, [x29, #-72]
	cmp	w8, #6
	b.ne	.LBB129_108
	movi	v0.2d, #0000000000000000
	ldp	x1, x2, [x29, #-48]
	ldp	x27, x28, [x29, #-64]
	sub	x0, x29, #80
	stp	q0, q0, [x24, #16]
	str	q0, [x24]
	bl	"ct_promise::der_reading::next_element"
	ldurb	w8, [x29, #-80]
	cbnz	w8, .LBB129_107
	ldur	x8, [x29, #-40]
	cbnz	x8, .LBB129_121
	cmp	x28, #3
	b.ne	.LBB129_59
	ldrb	w8, [x27]
	cmp	w8, #85
	b.ne	.LBB129_59
	ldrb	w8, [x27, #1]
	cmp	w8, #4
	b.ne	.LBB129_59
	ldp	x28, x8, [x29, #-64]
	ldurb	w9, [x29, #-72]
	cmp	w9, #32
	str	x8, [sp, #8]
	ldrb	w8, [x27, #2]
	b.lo	.LBB129_71
	cmp	w8, #3
	b.eq	.LBB129_129
.LBB129_71:
	cmp	w8, #3
	b.ne	.LBB129_59
	ldp	x8, x10, [sp, #32]
	cmp	w9, #28
	b.eq	.LBB129_55
	cmp	w9, #30
	b.ne	.LBB129_76
	cmp	x10, x8
	b.eq	.LBB129_80
.LBB129_75:
	mov	w9, #24
	ldr	x26, [sp, #24]
	mov	w10, #1
	b	.LBB129_57
.LBB129_76:
	cmp	x10, x8
	b.eq	.LBB129_82
.LBB129_77:
	mov	w9, #24
	ldr	x26, [sp, #24]
	madd	x9, x8, x9, x26
	str	xzr, [x9]
	b	.LBB129_58
.LBB129_78:
	add	x0, sp, #24
	bl	"std_alloc::vec::Vec::grow_amortized::<#c3b58fef72b7f9a6>"
	cbz	w0, .LBB129_131
	ldp	x26, x8, [sp, #24]
	b	.LBB129_56
.LBB129_80:
	add	x0, sp, #24
	bl	"std_alloc::vec::Vec::grow_amortized::<#c3b58fef72b7f9a6>"
	cbz	w0, .LBB129_131
	ldr	x8, [sp, #32]
	b	.LBB129_75
.LBB129_82:
	add	x0, sp, #24
	bl	"std_alloc::vec::Vec::grow_amortized::<#c3b58fef72b7f9a6>"
	cbz	w0, .LBB129_131
	ldr	x8, [sp, #32]
	b	.LBB129_77
.LBB129_84:
	cbnz	x21, .LBB129_51
.LBB129_85:
	cbnz	x22, .LBB129_88
.LBB129_86:
	ldur	q0, [sp, #24]
	ldr	x8, [sp, #40]
	str	wzr, [x19]
	stur	q0, [x19, #8]
	str	x8, [x19, #24]
	b	.LBB129_22
.LBB129_87:
	cbz	x22, .LBB129_86
.LBB129_88:
	movi	v0.2d, #0000000000000000
	sub	x0, x29, #80
	mov	x1, x20
	mov	x2, x22
	stp	xzr, xzr, [sp, #56]
	str	xzr, [sp, #48]
	str	wzr, [sp, #88]
	stp	q0, q0, [x24, #16]
	str	q0, [x24]
	bl	"ct_promise::der_reading::next_element"
	ldurb	w8, [x29, #-80]
	cbnz	w8, .LBB129_119
	ldurb	w8, [x29, #-72]
	cmp	w8, #48
	b.ne	.LBB129_120
	movi	v0.2d, #0000000000000000
	ldp	x1, x2, [x29, #-64]
	ldp	x20, x22, [x29, #-48]
	sub	x0, x29, #80
	stp	q0, q0, [x24, #16]
	str	q0, [x24]
	bl	"ct_promise::der_reading::next_element"
	ldurb	w8, [x29, #-80]
	cbnz	w8, .LBB129_119
	ldurb	w8, [x29, #-72]
	cmp	w8, #6
	b.ne	.LBB129_120
	ldp	x1, x2, [x29, #-48]
	ldp	x21, x23, [x29, #-64]
	cbz	x2, .LBB129_97
	ldrb	w8, [x1]
	cmp	w8, #1
	b.ne	.LBB129_97
	movi	v0.2d, #0000000000000000
	sub	x0, x29, #80
	stp	q0, q0, [x24, #16]
	str	q0, [x24]
	bl	"ct_promise::der_reading::next_element"
	ldurb	w8, [x29, #-80]
	cbnz	w8, .LBB129_119
	ldurb	w8, [x29, #-72]
	cmp	w8, #1
	b.ne	.LBB129_120
	ldp	x1, x2, [x29, #-48]
.LBB129_97:
	movi	v0.2d, #0000000000000000
	sub	x0, x29, #80
	stp	q0, q0, [x24, #16]
	str	q0, [x24]
	bl	"ct_promise::der_reading::next_element"
	ldurb	w8, [x29, #-80]
	cbnz	w8, .LBB129_119
	ldurb	w8, [x29, #-72]
	cmp	w8, #4
	b.ne	.LBB129_120
	ldur	x8, [x29, #-40]
	cbnz	x8, .LBB129_128
	cmp	x23, #3
	b.ne	.LBB129_87
	ldrb	w8, [x21]
	cmp	w8, #85
	b.ne	.LBB129_87
	ldrb	w8, [x21, #1]
	cmp	w8, #29
	b.ne	.LBB129_87
	ldrb	w8, [x21, #2]
	cmp	w8, #17
	b.ne	.LBB129_87
	ldp	x3, x4, [x29, #-64]
	add	x0, sp, #48
	mov	w1, #14
	mov	w2, #48
	bl	"ct_names::reading::only_in"
	ldrb	w8, [sp, #48]
	cbnz	w8, .LBB129_130
	ldp	x2, x3, [sp, #56]
	add	x0, sp, #88
	add	x1, sp, #24
	bl	"ct_names::reading::push_alts"
	ldrb	w8, [sp, #88]
	cbz	w8, .LBB129_87
	ldrh	w20, [sp, #90]
	ldrb	w21, [sp, #89]
	b	.LBB129_112
.LBB129_107:
	ldurb	w8, [x29, #-79]
	b	.LBB129_109
.LBB129_108:
	mov	w8, #5
.LBB129_109:
	mov	w9, #9
.LBB129_110:
	orr	w20, w9, w8, lsl #8
.LBB129_111:
	mov	w21, wzr
.LBB129_112:
	ldr	x8, [sp, #40]
	cbz	x8, .LBB129_114
	ldr	x0, [sp, #24]
	bl	rattle_dealloc
.LBB129_114:
	mov	w8, #1
	strb	w21, [x19, #1]
	strb	w8, [x19]
	strh	w20, [x19, #2]
	str	xzr, [x19, #24]
	b	.LBB129_21
.LBB129_115:
	ldurb	w8, [x29, #-72]
	cmp	w8, #163
	b.ne	.LBB129_127
	ldur	x8, [x29, #-40]
	cbz	x8, .LBB129_123
.LBB129_117:
	mov	w8, #6
	mov	w9, #13
	b	.LBB129_20
.LBB129_118:
	mov	w8, #5
	mov	w9, #11
	b	.LBB129_20
.LBB129_119:
	ldurb	w8, [x29, #-79]
	mov	w9, #13
	b	.LBB129_110
.LBB129_120:
	mov	w8, #5
	mov	w9, #13
	b	.LBB129_110
.LBB129_121:
	mov	w21, wzr
	mov	w20, #1545
	b	.LBB129_112
.LBB129_122:
	mov	w8, #5
	mov	w9, #12
	b	.LBB129_20
.LBB129_123:
	movi	v0.2d, #0000000000000000
	ldp	x1, x2, [x29, #-64]
	sub	x0, x29, #80
	stp	q0, q0, [x24, #16]
	str	q0, [x24]
	bl	"ct_promise::der_reading::next_element"
	ldurb	w8, [x29, #-80]
	cbnz	w8, .LBB129_48
	ldurb	w8, [x29, #-72]
	cmp	w8, #48
	b.ne	.LBB129_127
	ldur	x8, [x29, #-40]
	cbnz	x8, .LBB129_117
	ldp	x20, x22, [x29, #-64]
	sub	x8, x29, #24
	stp	xzr, xzr, [sp, #32]
	str	x8, [sp, #24]
	cbnz	x21, .LBB129_50
	b	.LBB129_85
.LBB129_127:
	mov	w8, #5
	mov	w9, #13
	b	.LBB129_20
.LBB129_128:
	mov	w8, #6
	mov	w9, #13
	b	.LBB129_110
.LBB129_129:
	mov	w21, wzr
	mov	w20, #1289
	b	.LBB129_112
.LBB129_130:
	ldurh	w20, [sp, #49]
	b	.LBB129_111
.LBB129_131:
	mov	w20, wzr
	mov	w21, #1
	b	.LBB129_112
.Lfunc_end129:
	.size	"ct_names::reading::names_in", .Lfunc_end129-"ct_names::reading::names_in"
	.section	".text.unlikely.std_alloc::vec::Vec::grow_amortized::<#c3b58fef72b7f9a6>","ax",@progbits
	.p2align	2
	.type	"std_alloc::vec::Vec::grow_amortized::<#c3b58fef72b7f9a6>",@function
"std_alloc::vec::Vec::grow_amortized::<#c3b58fef72b7f9a6>":
	ldr	x8, [x0, #8]
	cmn	x8, #1
	b.eq	.LBB130_5
	stp	x29, x30, [sp, #-32]!
	ldr	x9, [x0, #16]
	cmp	x8, #3
	mov	w10, #3
	csel	x11, x8, x10, hi
	stp	x20, x19, [sp, #16]
	mov	x29, sp
	lsl	x10, x9, #1
	add	x12, x11, #1
	lsr	x13, x9, #62
	cmp	x12, x10
	csinc	x10, x10, x11, ls
	cmp	x13, #0
	csinc	x19, x10, x11, eq
	mov	x11, #6148914691236517205
	movk	x11, #1365, lsl #48
	cmp	x19, x11
	b.hi	.LBB130_7
	cbz	x9, .LBB130_6
	add	x8, x8, x8, lsl #1
	add	x9, x19, x19, lsl #1
	mov	x20, x0
	ldr	x0, [x0]
	mov	w3, #8
	lsl	x1, x8, #3
	lsl	x2, x9, #3
	bl	rattle_realloc
	tbz	w0, #0, .LBB130_7
.LBB130_4:
	mov	w0, #1
	str	x1, [x20]
	str	x19, [x20, #16]
	ldp	x20, x19, [sp, #16]
	ldp	x29, x30, [sp], #32
	ret
.LBB130_5:
	mov	w0, wzr
	ret
.LBB130_6:
	add	x8, x10, x10, lsl #1
	mov	x20, x0
	mov	w1, #8
	lsl	x0, x8, #3
	bl	rattle_alloc
	tbnz	w0, #0, .LBB130_4
.LBB130_7:
	mov	w0, wzr
	ldp	x20, x19, [sp, #16]
	ldp	x29, x30, [sp], #32
	ret
.Lfunc_end130:
	.size	"std_alloc::vec::Vec::grow_amortized::<#c3b58fef72b7f9a6>", .Lfunc_end130-"std_alloc::vec::Vec::grow_amortized::<#c3b58fef72b7f9a6>"
	.section	".text.ct_names::reading::push_alts","ax",@progbits
	.p2align	2
	.type	"ct_names::reading::push_alts",@function
"ct_names::reading::push_alts":
	sub	sp, sp, #112
	stp	x20, x19, [sp, #96]
	mov	x19, x0
	stp	x29, x30, [sp, #48]
	add	x29, sp, #48
	stp	x24, x23, [sp, #64]
	stp	x22, x21, [sp, #80]
	cbz	x3, .LBB131_27
	mov	x8, x2
	mov	x2, x3
	mov	x20, x1
	mov	x1, x8
	b	.LBB131_6
.LBB131_2:
	ldp	x8, x9, [x20, #8]
	cmp	x9, x8
	b.eq	.LBB131_19
.LBB131_3:
	mov	w9, #24
	ldr	x10, [x20]
	madd	x9, x8, x9, x10
	mov	w10, #4
.LBB131_4:
	add	x8, x8, #1
	strb	w10, [x9]
	stur	wzr, [x9, #1]
	str	wzr, [x9, #4]
	stp	x22, x21, [x9, #8]
	str	x8, [x20, #8]
.LBB131_5:
	cbz	x2, .LBB131_27
.LBB131_6:
	movi	v0.2d, #0000000000000000
	mov	x0, sp
	stp	q0, q0, [sp, #16]
	str	q0, [sp]
	bl	"ct_promise::der_reading::next_element"
	ldrb	w8, [sp]
	cbnz	w8, .LBB131_28
	ldrb	w8, [sp, #8]
	ldp	x22, x21, [sp, #16]
	ldp	x1, x2, [sp, #32]
	sub	w9, w8, #134
	cmp	w9, #33
	b.hi	.LBB131_15
	cbz	x9, .LBB131_12
	cmp	x9, #1
	b.ne	.LBB131_14
	ldp	x8, x9, [x20, #8]
	cmp	x9, x8
	b.eq	.LBB131_21
.LBB131_11:
	mov	w9, #24
	ldr	x10, [x20]
	madd	x9, x8, x9, x10
	mov	w10, #6
	b	.LBB131_4
.LBB131_12:
	ldp	x8, x9, [x20, #8]
	cmp	x9, x8
	b.eq	.LBB131_25
.LBB131_13:
	mov	w9, #24
	ldr	x10, [x20]
	madd	x9, x8, x9, x10
	mov	w10, #5
	b	.LBB131_4
.LBB131_14:
	mov	w10, #1
	lsl	x9, x10, x9
	mov	x10, #402653184
	movk	x10, #3, lsl #32
	tst	x9, x10
	b.ne	.LBB131_29
.LBB131_15:
	cmp	w8, #129
	b.eq	.LBB131_2
	cmp	w8, #130
	b.ne	.LBB131_5
	ldp	x8, x9, [x20, #8]
	cmp	x9, x8
	b.eq	.LBB131_23
.LBB131_18:
	mov	w9, #24
	ldr	x10, [x20]
	madd	x9, x8, x9, x10
	mov	w10, #3
	b	.LBB131_4
.LBB131_19:
	mov	x0, x20
	mov	x23, x1
	mov	x24, x2
	bl	"std_alloc::vec::Vec::grow_amortized::<#c3b58fef72b7f9a6>"
	cbz	w0, .LBB131_31
	ldr	x8, [x20, #8]
	mov	x2, x24
	mov	x1, x23
	b	.LBB131_3
.LBB131_21:
	mov	x0, x20
	mov	x23, x1
	mov	x24, x2
	bl	"std_alloc::vec::Vec::grow_amortized::<#c3b58fef72b7f9a6>"
	cbz	w0, .LBB131_31
	ldr	x8, [x20, #8]
	mov	x2, x24
	mov	x1, x23
	b	.LBB131_11
.LBB131_23:
	mov	x0, x20
	mov	x23, x1
	mov	x24, x2
	bl	"std_alloc::vec::Vec::grow_amortized::<#c3b58fef72b7f9a6>"
	cbz	w0, .LBB131_31
	ldr	x8, [x20, #8]
	mov	x2, x24
	mov	x1, x23
	b	.LBB131_18
.LBB131_25:
	mov	x0, x20
	mov	x23, x1
	mov	x24, x2
	bl	"std_alloc::vec::Vec::grow_amortized::<#c3b58fef72b7f9a6>"
	cbz	w0, .LBB131_31
	ldr	x8, [x20, #8]
	mov	x2, x24
	mov	x1, x23
	b	.LBB131_13
.LBB131_27:
	str	wzr, [x19]
	ldp	x20, x19, [sp, #96]
	ldp	x22, x21, [sp, #80]
	ldp	x24, x23, [sp, #64]
	ldp	x29, x30, [sp, #48]
	add	sp, sp, #112
	ret
.LBB131_28:
	ldrb	w8, [sp, #1]
	mov	w9, #14
	orr	w8, w9, w8, lsl #8
	mov	w9, wzr
	b	.LBB131_30
.LBB131_29:
	mov	w9, wzr
	mov	w8, #1294
.LBB131_30:
	mov	w10, #1
	strb	w9, [x19, #1]
	strb	w10, [x19]
	strh	w8, [x19, #2]
	ldp	x20, x19, [sp, #96]
	ldp	x22, x21, [sp, #80]
	ldp	x24, x23, [sp, #64]
	ldp	x29, x30, [sp, #48]
	add	sp, sp, #112
	ret
.LBB131_31:
	mov	w8, wzr
	mov	w9, #1
	b	.LBB131_30
.Lfunc_end131:
	.size	"ct_names::reading::push_alts", .Lfunc_end131-"ct_names::reading::push_alts"
	.section	".text.ct_names::watched::is_some_told","ax",@progbits
	.p2align	2
	.type	"ct_names::watched::is_some_told",@function
"ct_names::watched::is_some_told":
	cbz	x1, .LBB132_98
	sub	sp, sp, #240
	stp	x26, x25, [sp, #176]
	mov	x8, x0
	add	x25, sp, #16
	stp	x22, x21, [sp, #208]
	mov	w21, w2
	mov	x22, x1
	stp	x20, x19, [sp, #224]
	mov	x19, x4
	mov	x20, x3
	mov	x26, x0
	stp	x29, x30, [sp, #144]
	add	x29, sp, #144
	str	x27, [sp, #160]
	stp	x24, x23, [sp, #192]
	b	.LBB132_4
.LBB132_2:
	tbnz	w23, #0, .LBB132_99
.LBB132_3:
	sub	x22, x22, #1
	mov	x8, x26
	cbz	x22, .LBB132_97
.LBB132_4:
	ldrb	w9, [x26], #24
	cmp	w9, #3
	cset	w10, lo
	cmp	w21, w10
	b.eq	.LBB132_3
	ldp	x0, x23, [x8, #8]
	cmp	w9, #2
	b.le	.LBB132_13
	cmp	w9, #4
	b.gt	.LBB132_25
	cmp	w9, #3
	b.eq	.LBB132_23
	cbz	x23, .LBB132_3
	mov	x1, xzr
	mov	x8, xzr
	mov	w9, wzr
	sub	x10, x23, #1
	add	x11, x0, #1
.LBB132_10:
	ldurb	w12, [x11, #-1]
	cmp	w12, #64
	csel	x1, x10, x1, eq
	sub	x10, x10, #1
	csinc	w9, w9, wzr, ne
	csel	x8, x11, x8, eq
	cmn	x10, #1
	add	x11, x11, #1
	b.ne	.LBB132_10
	tst	w9, #0xff
	b.eq	.LBB132_3
	mov	x0, x8
	b	.LBB132_24
.LBB132_13:
	cbz	w9, .LBB132_23
	add	x8, x29, #31
	cmp	w9, #1
	b.ne	.LBB132_30
	cmp	x23, #2
	str	x8, [sp, #16]
	stp	xzr, xzr, [x25, #8]
	b.lo	.LBB132_31
	mov	x1, xzr
	add	x24, x0, #1
	b	.LBB132_19
.LBB132_17:
	ldrb	w27, [x24]
	ldr	x9, [sp, #32]
	cmp	x9, x1
	b.eq	.LBB132_21
.LBB132_18:
	sub	x23, x23, #2
	strb	w27, [x8, x1]
	add	x1, x1, #1
	cmp	x23, #2
	add	x24, x24, #2
	str	x1, [sp, #24]
	b.lo	.LBB132_62
.LBB132_19:
	ldurb	w9, [x24, #-1]
	cbz	w9, .LBB132_17
	mov	w27, #255
	ldr	x9, [sp, #32]
	cmp	x9, x1
	b.ne	.LBB132_18
.LBB132_21:
	add	x0, sp, #16
	mov	w1, #1
	bl	"std_alloc::vec::Vec::grow_amortized::<#c0dd558b90df13b6>"
	cbz	w0, .LBB132_100
	ldp	x8, x1, [sp, #16]
	b	.LBB132_18
.LBB132_23:
	mov	x1, x23
.LBB132_24:
	mov	x2, x20
	mov	x3, x19
	bl	"ct_names::watched::is_told_for"
	tbz	w0, #0, .LBB132_3
	b	.LBB132_99
.LBB132_25:
	cmp	w9, #6
	b.ne	.LBB132_34
	cmp	x23, #4
	b.lo	.LBB132_3
	cmp	x23, #16
	b.eq	.LBB132_64
	cmp	x23, #4
	b.ne	.LBB132_3
	ldr	w8, [x0]
	add	x9, x29, #31
	add	x0, sp, #16
	add	x1, sp, #12
	stp	xzr, xzr, [x25, #8]
	str	w8, [sp, #12]
	mov	w8, #32
	str	w8, [sp, #40]
	mov	x8, #-1
	str	x9, [sp, #16]
	stp	xzr, xzr, [x25, #48]
	stur	xzr, [x25, #28]
	stur	wzr, [x25, #36]
	str	x8, [sp, #56]
	bl	"core::fmt::formatter::Formatter::write_piece::<#c725ec2a2561d75b>"
	tst	w0, #0xff
	b.eq	.LBB132_77
	b	.LBB132_100
.LBB132_30:
	cmp	x23, #4
	str	x8, [sp, #16]
	stp	xzr, xzr, [x25, #8]
	b.hs	.LBB132_53
.LBB132_31:
	cbz	x19, .LBB132_99
	cmp	x19, #1
	b.ne	.LBB132_3
	ldrb	w8, [x20]
	cmp	w8, #46
	b.ne	.LBB132_3
	b	.LBB132_99
.LBB132_34:
	add	x9, x23, #1
	add	x8, x0, #2
	add	x11, x0, #4
.LBB132_35:
	subs	x9, x9, #1
	b.eq	.LBB132_3
	mov	x10, x11
	ldurb	w11, [x8, #-2]
	add	x8, x8, #1
	cmp	w11, #58
	add	x11, x10, #1
	b.ne	.LBB132_35
	subs	x9, x9, #3
	b.lo	.LBB132_3
	ldurb	w11, [x8, #-2]
	cmp	w11, #47
	b.ne	.LBB132_3
	ldurb	w11, [x8, #-1]
	cmp	w11, #47
	b.ne	.LBB132_3
	mov	x11, xzr
	mov	x12, x9
.LBB132_41:
	cbz	x12, .LBB132_45
	ldrb	w13, [x8, x11]
	sub	x12, x12, #1
	add	x11, x11, #1
	cmp	w13, #63
	b.hi	.LBB132_41
	mov	w14, #1
	lsl	x13, x14, x13
	mov	x14, #140771848093696
	movk	x14, #32768, lsl #48
	tst	x13, x14
	b.eq	.LBB132_41
	sub	x9, x11, #1
.LBB132_45:
	cbz	x9, .LBB132_84
	mov	x1, xzr
	mov	x0, xzr
	mov	w11, wzr
	sub	x12, x9, #1
.LBB132_47:
	ldurb	w13, [x10, #-1]
	cmp	w13, #64
	csel	x1, x12, x1, eq
	sub	x12, x12, #1
	csinc	w11, w11, wzr, ne
	csel	x0, x10, x0, eq
	cmn	x12, #1
	add	x10, x10, #1
	b.ne	.LBB132_47
	tst	w11, #0xff
	b.eq	.LBB132_84
	mov	x8, xzr
.LBB132_50:
	cmp	x1, x8
	b.eq	.LBB132_24
	ldrb	w9, [x0, x8]
	add	x8, x8, #1
	cmp	w9, #58
	b.ne	.LBB132_50
	sub	x1, x8, #1
	b	.LBB132_24
.LBB132_53:
	mov	x1, xzr
	add	x24, x0, #1
	b	.LBB132_56
.LBB132_54:
	ldp	x8, x1, [sp, #16]
.LBB132_55:
	sub	x23, x23, #4
	strb	w27, [x8, x1]
	add	x1, x1, #1
	cmp	x23, #4
	add	x24, x24, #4
	str	x1, [sp, #24]
	b.lo	.LBB132_62
.LBB132_56:
	ldurb	w9, [x24, #-1]
	cbnz	w9, .LBB132_59
	ldrb	w9, [x24]
	cbnz	w9, .LBB132_59
	ldrb	w9, [x24, #1]
	cbz	w9, .LBB132_61
.LBB132_59:
	mov	w27, #255
	ldr	x9, [sp, #32]
	cmp	x9, x1
	b.ne	.LBB132_55
.LBB132_60:
	add	x0, sp, #16
	mov	w1, #1
	bl	"std_alloc::vec::Vec::grow_amortized::<#c0dd558b90df13b6>"
	cbnz	w0, .LBB132_54
	b	.LBB132_100
.LBB132_61:
	ldrb	w27, [x24, #2]
	ldr	x9, [sp, #32]
	cmp	x9, x1
	b.ne	.LBB132_55
	b	.LBB132_60
.LBB132_62:
	ldr	x24, [sp, #16]
	ldr	x27, [sp, #32]
	mov	x2, x20
	mov	x3, x19
	mov	x0, x24
	bl	"ct_names::watched::is_told_for"
	mov	w23, w0
	cbz	x27, .LBB132_2
	mov	x0, x24
	b	.LBB132_83
.LBB132_64:
	ldrh	w8, [x0]
	ldrh	w9, [x0, #2]
	add	x10, x29, #31
	ldrh	w11, [x0, #4]
	ldrh	w12, [x0, #6]
	mov	x16, #-1
	ldrh	w13, [x0, #8]
	ldrh	w17, [x0, #10]
	rev16	w15, w9
	ldrh	w18, [x0, #12]
	ldrh	w0, [x0, #14]
	rev16	w14, w11
	str	x10, [sp, #16]
	rev16	w10, w8
	rev16	w12, w12
	rev16	w13, w13
	rev16	w11, w17
	rev16	w8, w18
	rev16	w9, w0
	stp	xzr, xzr, [x25, #8]
	stp	xzr, xzr, [x25, #48]
	str	x16, [sp, #56]
	cbnz	w10, .LBB132_70
	cbnz	w15, .LBB132_70
	cbnz	w14, .LBB132_70
	cbnz	w12, .LBB132_70
	cbnz	w13, .LBB132_70
	mov	w16, #65535
	cmp	w11, w16
	b.eq	.LBB132_89
.LBB132_70:
	cmp	w9, #0
	mov	w16, #1
	sturh	w15, [x29, #-30]
	cset	w17, eq
	cinc	x16, x16, eq
	tst	w8, #0xffff
	csel	x16, xzr, x16, ne
	sturh	w14, [x29, #-28]
	cmp	x17, x16
	sturh	w12, [x29, #-26]
	csel	x3, x17, x16, hi
	cmp	w11, #0
	sturh	w10, [x29, #-32]
	csinc	x5, xzr, x16, ne
	sturh	w13, [x29, #-24]
	cmp	x3, x5
	sturh	w11, [x29, #-22]
	csel	x1, x3, x5, hi
	cmp	w13, #0
	sturh	w8, [x29, #-20]
	csinc	x4, xzr, x5, ne
	sturh	w9, [x29, #-18]
	cmp	x1, x4
	csel	x18, x1, x4, hi
	cmp	w12, #0
	csinc	x2, xzr, x4, ne
	cmp	x18, x2
	csel	x16, x18, x2, hi
	cmp	w14, #0
	csinc	x0, xzr, x2, ne
	cmp	x16, x0
	csel	x17, x16, x0, hi
	cmp	w15, #0
	csinc	x15, xzr, x0, ne
	cmp	x17, x15
	csel	x14, x17, x15, hi
	cmp	w10, #0
	csinc	x12, xzr, x15, ne
	cmp	x14, x12
	csel	x10, x14, x12, hi
	cmp	x10, #2
	b.lo	.LBB132_76
	and	w8, w8, #0xffff
	cmp	w9, #0
	mov	w9, #6
	ccmp	w8, #0, #4, eq
	mov	w8, #5
	mov	w11, #4
	cinc	x9, x9, ne
	cmp	x3, x5
	mov	w23, #32
	csel	x8, x9, x8, hi
	cmp	x1, x4
	mov	w9, #3
	csel	x8, x8, x11, hi
	cmp	x18, x2
	mov	w11, #2
	csel	x8, x8, x9, hi
	cmp	x16, x0
	sub	x9, x29, #32
	csel	x8, x8, x11, hi
	cmp	x17, x15
	mov	w11, #8
	csinc	x8, x8, xzr, hi
	cmp	x14, x12
	sub	x0, x29, #48
	csel	x8, x8, xzr, hi
	add	x1, sp, #16
	stur	xzr, [x25, #28]
	add	x10, x8, x10
	stp	x9, x8, [x29, #-48]
	add	x9, x9, x10, lsl #1
	sub	x8, x11, x10
	str	w23, [sp, #40]
	stur	wzr, [x25, #36]
	stp	x9, x8, [x29, #-64]
	bl	"std::net::display::GroupsDisplay::fmt::<#4f73c0417896e14a>"
	and	w8, w0, #0xff
	tbnz	w8, #0, .LBB132_100
	ldr	x8, [sp, #64]
	mov	x9, #-1
	str	w23, [sp, #40]
	stur	xzr, [x25, #28]
	stur	wzr, [x25, #36]
	str	x9, [sp, #56]
	cbnz	x8, .LBB132_94
	ldp	x9, x8, [sp, #24]
	sub	x10, x8, x9
	cmp	x10, #1
	b.ls	.LBB132_95
.LBB132_74:
	ldr	x10, [sp, #16]
	add	x11, x9, #2
	mov	w12, #14906
	strh	w12, [x10, x9]
	stp	x11, x8, [sp, #24]
.LBB132_75:
	mov	w8, #32
	stur	xzr, [x25, #28]
	sub	x0, x29, #64
	str	w8, [sp, #40]
	mov	x8, #-1
	stur	wzr, [x25, #36]
	str	x8, [sp, #56]
	add	x1, sp, #16
	bl	"std::net::display::GroupsDisplay::fmt::<#4f73c0417896e14a>"
	and	w8, w0, #0xff
	tbz	w8, #0, .LBB132_77
	b	.LBB132_100
.LBB132_76:
	sub	x8, x29, #32
	mov	w9, #8
	sub	x0, x29, #16
	stp	x8, x9, [x29, #-16]
	mov	w8, #32
	str	w8, [sp, #40]
	stur	xzr, [x25, #28]
	stur	wzr, [x25, #36]
	add	x1, sp, #16
	bl	"std::net::display::GroupsDisplay::fmt::<#4f73c0417896e14a>"
	and	w8, w0, #0xff
	tbnz	w8, #0, .LBB132_100
.LBB132_77:
	ldp	x0, x9, [sp, #16]
	ldr	x8, [sp, #32]
	cmp	x9, x19
	cset	w23, eq
	b.ne	.LBB132_82
	cbz	x19, .LBB132_82
	mov	x9, x0
	mov	x10, x20
	sub	x11, x19, #1
.LBB132_80:
	ldrb	w12, [x9], #1
	ldrb	w13, [x10], #1
	sub	w14, w12, #65
	add	w15, w12, #32
	cmp	w14, #26
	sub	w14, w13, #65
	csel	w15, w15, w12, lo
	add	w12, w13, #32
	cmp	w14, #26
	csel	w13, w12, w13, lo
	subs	x11, x11, #1
	cset	w12, hs
	cmp	w15, w13
	cset	w23, eq
	b.ne	.LBB132_82
	tbnz	w12, #0, .LBB132_80
.LBB132_82:
	cbz	x8, .LBB132_2
.LBB132_83:
	bl	rattle_dealloc
	tbz	w23, #0, .LBB132_3
	b	.LBB132_99
.LBB132_84:
	mov	x10, xzr
.LBB132_85:
	cmp	x9, x10
	b.eq	.LBB132_88
	ldrb	w11, [x8, x10]
	add	x10, x10, #1
	cmp	w11, #58
	b.ne	.LBB132_85
	sub	x1, x10, #1
	mov	x0, x8
	b	.LBB132_24
.LBB132_88:
	mov	x0, x8
	mov	x1, x9
	b	.LBB132_24
.LBB132_89:
	rev	w9, w9
	rev	w8, w8
	mov	w10, #32
	bfxil	w9, w8, #16, #16
	add	x0, sp, #16
	mov	w1, #7
	stur	xzr, [x25, #28]
	str	w10, [sp, #40]
	str	w9, [x29, #24]
	stur	wzr, [x25, #36]
	bl	"std_alloc::vec::Vec::grow_amortized::<#c0dd558b90df13b6>"
	tbz	w0, #0, .LBB132_100
	ldp	x9, x8, [sp, #16]
	adrp	x10, .Lstatic.27
	add	x10, x10, :lo12:.Lstatic.27
	add	x9, x9, x8
	sub	x10, x9, x10
	cmp	x10, #6
	b.hi	.LBB132_92
	mov	w10, #14906
	mov	w11, #1717986918
	strh	w10, [x9]
	mov	w10, #58
	stur	w11, [x9, #2]
	strb	w10, [x9, #6]
	b	.LBB132_93
.LBB132_92:
	mov	w10, #26214
	mov	w11, #14906
	movk	w10, #14950, lsl #16
	movk	w11, #26214, lsl #16
	stur	w10, [x9, #3]
	str	w11, [x9]
.LBB132_93:
	add	x8, x8, #7
	add	x0, sp, #16
	add	x1, x29, #24
	str	x8, [sp, #24]
	bl	"core::fmt::formatter::Formatter::write_piece::<#c725ec2a2561d75b>"
	and	w8, w0, #0xff
	tbz	w8, #0, .LBB132_77
	b	.LBB132_100
.LBB132_94:
	adrp	x1, .Lstatic.28
	add	x1, x1, :lo12:.Lstatic.28
	add	x0, sp, #16
	mov	w2, #2
	bl	"core::fmt::formatter::Formatter::write_indented::<#4f73c0417896e14a>"
	tst	w0, #0xff
	b.eq	.LBB132_75
	b	.LBB132_100
.LBB132_95:
	add	x0, sp, #16
	mov	w1, #2
	bl	"std_alloc::vec::Vec::grow_amortized::<#c0dd558b90df13b6>"
	cbz	w0, .LBB132_100
	ldp	x9, x8, [sp, #24]
	b	.LBB132_74
.LBB132_97:
	mov	w1, wzr
	mov	w0, wzr
	b	.LBB132_103
.LBB132_98:
	mov	w0, wzr
	ret
.LBB132_99:
	mov	w0, wzr
	mov	w1, #1
	b	.LBB132_103
.LBB132_100:
	ldr	x8, [sp, #32]
	cbz	x8, .LBB132_102
	ldr	x0, [sp, #16]
	bl	rattle_dealloc
.LBB132_102:
	mov	w1, wzr
	mov	w0, #1
.LBB132_103:
	ldp	x20, x19, [sp, #224]
	ldr	x27, [sp, #160]
	ldp	x22, x21, [sp, #208]
	ldp	x24, x23, [sp, #192]
	ldp	x26, x25, [sp, #176]
	ldp	x29, x30, [sp, #144]
	add	sp, sp, #240
	ret
.Lfunc_end132:
	.size	"ct_names::watched::is_some_told", .Lfunc_end132-"ct_names::watched::is_some_told"
	.section	".text.ct_names::watched::is_told_for","ax",@progbits
	.p2align	2
	.type	"ct_names::watched::is_told_for",@function
"ct_names::watched::is_told_for":
	cbz	x3, .LBB133_17
	ldrb	w8, [x2]
	cmp	w8, #46
	b.ne	.LBB133_22
	sub	x10, x3, #1
	add	x8, x2, #1
	cbz	x1, .LBB133_4
	sub	x9, x1, #1
	ldrb	w11, [x0, x9]
	cmp	w11, #46
	b.eq	.LBB133_5
.LBB133_4:
	mov	x9, x1
.LBB133_5:
	subs	x11, x9, x10
	b.hs	.LBB133_39
.LBB133_6:
	cmp	x9, #2
	b.lo	.LBB133_38
	ldrb	w10, [x0]
	cmp	w10, #42
	b.ne	.LBB133_38
	ldrb	w10, [x0, #1]
	cmp	w10, #46
	b.ne	.LBB133_38
	add	x10, x0, #2
	sub	x11, x3, #2
.LBB133_10:
	cmn	x11, #1
	b.eq	.LBB133_38
	ldrb	w12, [x8], #1
	sub	x11, x11, #1
	cmp	w12, #46
	b.ne	.LBB133_10
	sub	x9, x11, x9
	cmn	x9, #3
	b.ne	.LBB133_38
	cmn	x11, #1
	b.eq	.LBB133_45
	mov	x9, xzr
.LBB133_15:
	ldrb	w12, [x8, x9]
	ldrb	w13, [x10, x9]
	sub	w14, w12, #65
	add	w15, w12, #32
	cmp	w14, #26
	sub	w14, w13, #65
	csel	w15, w15, w12, lo
	add	w12, w13, #32
	cmp	w14, #26
	csel	w13, w12, w13, lo
	subs	x11, x11, #1
	cset	w12, hs
	cmp	w15, w13
	cset	w0, eq
	b.ne	.LBB133_21
	add	x9, x9, #1
	tbnz	w12, #0, .LBB133_15
	b	.LBB133_21
.LBB133_17:
	cbz	x1, .LBB133_19
	sub	x8, x1, #1
	ldrb	w9, [x0, x8]
	cmp	w9, #46
	b.eq	.LBB133_20
.LBB133_19:
	mov	x8, x1
.LBB133_20:
	cmp	x8, #0
	cset	w0, eq
.LBB133_21:
	ret
.LBB133_22:
	cbz	x1, .LBB133_24
	sub	x8, x1, #1
	ldrb	w9, [x0, x8]
	cmp	w9, #46
	b.eq	.LBB133_25
.LBB133_24:
	mov	x8, x1
.LBB133_25:
	cmp	x8, x3
	mov	x9, x0
	mov	x10, x2
	mov	x11, x3
	b.ne	.LBB133_28
.LBB133_26:
	ldrb	w12, [x9], #1
	ldrb	w13, [x10], #1
	sub	w14, w12, #65
	add	w15, w12, #32
	cmp	w14, #26
	sub	w14, w13, #65
	csel	w12, w15, w12, lo
	add	w15, w13, #32
	cmp	w14, #26
	csel	w13, w15, w13, lo
	cmp	w12, w13
	b.ne	.LBB133_28
	subs	x11, x11, #1
	b.ne	.LBB133_26
	b	.LBB133_45
.LBB133_28:
	subs	x9, x8, #2
	b.lo	.LBB133_38
	ldrb	w8, [x0]
	cmp	w8, #42
	b.ne	.LBB133_38
	ldrb	w8, [x0, #1]
	cmp	w8, #46
	b.ne	.LBB133_38
	add	x8, x0, #2
.LBB133_32:
	cbz	x3, .LBB133_38
	ldrb	w10, [x2], #1
	sub	x3, x3, #1
	cmp	w10, #46
	b.ne	.LBB133_32
	cmp	x9, x3
	b.ne	.LBB133_38
	cbz	x3, .LBB133_45
	mov	x10, xzr
	sub	x9, x3, #1
.LBB133_37:
	ldrb	w11, [x2, x10]
	ldrb	w12, [x8, x10]
	sub	w13, w11, #65
	add	w14, w11, #32
	cmp	w13, #26
	sub	w13, w12, #65
	csel	w11, w14, w11, lo
	add	w14, w12, #32
	cmp	w13, #26
	csel	w12, w14, w12, lo
	cmp	w11, w12
	cset	w0, eq
	ccmp	x9, x10, #4, eq
	add	x10, x10, #1
	b.ne	.LBB133_37
	b	.LBB133_21
.LBB133_38:
	mov	w0, wzr
	ret
.LBB133_39:
	b.eq	.LBB133_41
	add	x11, x0, x11
	ldurb	w11, [x11, #-1]
	cmp	w11, #46
	b.ne	.LBB133_6
.LBB133_41:
	cbz	x10, .LBB133_45
	mov	w10, #1
	add	x11, x0, x9
	mov	x12, x8
	sub	x10, x10, x3
.LBB133_43:
	ldrb	w13, [x11, x10]
	ldrb	w14, [x12], #1
	sub	w15, w13, #65
	add	w16, w13, #32
	cmp	w15, #26
	sub	w15, w14, #65
	csel	w13, w16, w13, lo
	add	w16, w14, #32
	cmp	w15, #26
	csel	w14, w16, w14, lo
	cmp	w13, w14
	b.ne	.LBB133_6
	adds	x10, x10, #1
	b.lo	.LBB133_43
.LBB133_45:
	mov	w0, #1
	ret
.Lfunc_end133:
	.size	"ct_names::watched::is_told_for", .Lfunc_end133-"ct_names::watched::is_told_for"
	.section	".text.core::fmt::formatter::Formatter::write_piece::<#c725ec2a2561d75b>","ax",@progbits
	.p2align	2
	.type	"core::fmt::formatter::Formatter::write_piece::<#c725ec2a2561d75b>",@function
"core::fmt::formatter::Formatter::write_piece::<#c725ec2a2561d75b>":
	sub	sp, sp, #208
	stp	x24, x23, [sp, #160]
	mov	w23, #32
	mov	x24, #-1
	stp	x22, x21, [sp, #176]
	mov	x22, x0
	add	x21, sp, #16
	stp	x20, x19, [sp, #192]
	mov	x20, x0
	mov	x19, x0
	str	w23, [x20, #24]!
	str	xzr, [x22, #28]!
	str	wzr, [x0, #36]
	str	x24, [x0, #40]
	ldr	q0, [x20]
	ldr	w8, [x1]
	stp	x29, x30, [sp, #128]
	add	x29, sp, #128
	str	x25, [sp, #144]
	mov	w25, #1
	add	x1, sp, #16
	lsr	w9, w8, #8
	lsr	w10, w8, #16
	strb	w8, [x29, #28]
	lsr	w8, w8, #24
	stur	q0, [x29, #-32]
	strb	w9, [x29, #24]
	add	x9, x29, #28
	strb	w8, [sp, #8]
	adrp	x8, .Lstatic.24
	add	x8, x8, :lo12:.Lstatic.24
	stp	x9, x8, [sp, #16]
	add	x9, x29, #24
	stp	x25, x9, [sp, #32]
	add	x9, sp, #12
	stp	x8, x25, [sp, #48]
	stp	x9, x8, [sp, #64]
	add	x8, sp, #8
	stp	x25, x8, [sp, #80]
	ldr	x8, [x0, #40]
	strb	w10, [sp, #12]
	stur	x8, [x29, #-16]
	str	w23, [x20]
	str	xzr, [x22]
	str	wzr, [x0, #36]
	bl	"core::fmt::formatter::Formatter::write_piece::<#1a79a68594d16a2e>"
	and	w8, w0, #0xff
	mov	w0, w25
	tbnz	w8, #0, .LBB134_14
	ldr	x8, [x19, #48]
	str	w23, [x19, #24]
	str	xzr, [x22]
	str	wzr, [x22, #8]
	str	x24, [x19, #40]
	cbnz	x8, .LBB134_15
	ldp	x9, x8, [x19, #8]
	cmp	x8, x9
	b.eq	.LBB134_16
.LBB134_3:
	ldr	x10, [x19]
	mov	w11, #46
	strb	w11, [x10, x9]
	add	x9, x9, #1
	stp	x10, x9, [x19]
	str	x8, [x19, #16]
.LBB134_4:
	add	x1, x21, #24
	mov	x0, x19
	bl	"core::fmt::formatter::Formatter::write_piece::<#1a79a68594d16a2e>"
	and	w8, w0, #0xff
	tbnz	w8, #0, .LBB134_9
	mov	w8, #32
	ldr	x9, [x19, #48]
	str	xzr, [x22]
	str	w8, [x19, #24]
	mov	x8, #-1
	str	wzr, [x22, #8]
	str	x8, [x19, #40]
	cbnz	x9, .LBB134_18
	ldp	x9, x8, [x19, #8]
	cmp	x8, x9
	b.eq	.LBB134_19
.LBB134_7:
	ldr	x10, [x19]
	mov	w11, #46
	strb	w11, [x10, x9]
	add	x9, x9, #1
	stp	x10, x9, [x19]
	str	x8, [x19, #16]
.LBB134_8:
	add	x1, x21, #48
	mov	x0, x19
	bl	"core::fmt::formatter::Formatter::write_piece::<#1a79a68594d16a2e>"
	and	w8, w0, #0xff
	tbz	w8, #0, .LBB134_10
.LBB134_9:
	mov	w0, #1
	b	.LBB134_14
.LBB134_10:
	mov	w8, #32
	ldr	x9, [x19, #48]
	str	xzr, [x22]
	str	w8, [x19, #24]
	mov	x8, #-1
	str	wzr, [x22, #8]
	str	x8, [x19, #40]
	cbnz	x9, .LBB134_21
	ldp	x9, x8, [x19, #8]
	cmp	x8, x9
	b.eq	.LBB134_22
.LBB134_12:
	ldr	x10, [x19]
	mov	w11, #46
	strb	w11, [x10, x9]
	add	x9, x9, #1
	stp	x10, x9, [x19]
	str	x8, [x19, #16]
.LBB134_13:
	add	x1, x21, #72
	mov	x0, x19
	bl	"core::fmt::formatter::Formatter::write_piece::<#1a79a68594d16a2e>"
	and	w0, w0, #0xff
.LBB134_14:
	ldur	q0, [x29, #-32]
	ldur	x8, [x29, #-16]
	ldr	x25, [sp, #144]
	ldp	x22, x21, [sp, #176]
	str	q0, [x20]
	ldp	x24, x23, [sp, #160]
	str	x8, [x20, #16]
	ldp	x20, x19, [sp, #192]
	ldp	x29, x30, [sp, #128]
	add	sp, sp, #208
	ret
.LBB134_15:
	adrp	x1, .Lstatic.24
	add	x1, x1, :lo12:.Lstatic.24
	mov	x0, x19
	mov	w2, #1
	mov	w23, #1
	bl	"core::fmt::formatter::Formatter::write_indented::<#4f73c0417896e14a>"
	and	w8, w0, #0xff
	mov	w0, w23
	tbz	w8, #0, .LBB134_4
	b	.LBB134_14
.LBB134_16:
	mov	x0, x19
	mov	w1, #1
	bl	"std_alloc::vec::Vec::grow_amortized::<#c0dd558b90df13b6>"
	mov	w8, w0
	mov	w0, #1
	cbz	w8, .LBB134_14
	ldp	x9, x8, [x19, #8]
	b	.LBB134_3
.LBB134_18:
	adrp	x1, .Lstatic.24
	add	x1, x1, :lo12:.Lstatic.24
	mov	x0, x19
	mov	w2, #1
	mov	w23, #1
	bl	"core::fmt::formatter::Formatter::write_indented::<#4f73c0417896e14a>"
	and	w8, w0, #0xff
	mov	w0, w23
	tbz	w8, #0, .LBB134_8
	b	.LBB134_14
.LBB134_19:
	mov	x0, x19
	mov	w1, #1
	mov	w23, #1
	bl	"std_alloc::vec::Vec::grow_amortized::<#c0dd558b90df13b6>"
	mov	w8, w0
	mov	w0, w23
	cbz	w8, .LBB134_14
	ldp	x9, x8, [x19, #8]
	b	.LBB134_7
.LBB134_21:
	adrp	x1, .Lstatic.24
	add	x1, x1, :lo12:.Lstatic.24
	mov	x0, x19
	mov	w2, #1
	mov	w22, #1
	bl	"core::fmt::formatter::Formatter::write_indented::<#4f73c0417896e14a>"
	and	w8, w0, #0xff
	mov	w0, w22
	tbz	w8, #0, .LBB134_13
	b	.LBB134_14
.LBB134_22:
	mov	x0, x19
	mov	w1, #1
	mov	w22, #1
	bl	"std_alloc::vec::Vec::grow_amortized::<#c0dd558b90df13b6>"
	mov	w8, w0
	mov	w0, w22
	cbz	w8, .LBB134_14
	ldp	x9, x8, [x19, #8]
	b	.LBB134_12
.Lfunc_end134:
	.size	"core::fmt::formatter::Formatter::write_piece::<#c725ec2a2561d75b>", .Lfunc_end134-"core::fmt::formatter::Formatter::write_piece::<#c725ec2a2561d75b>"
	.section	".text.core::fmt::formatter::Formatter::write_piece::<#1a79a68594d16a2e>","ax",@progbits
	.p2align	2
	.type	"core::fmt::formatter::Formatter::write_piece::<#1a79a68594d16a2e>",@function
"core::fmt::formatter::Formatter::write_piece::<#1a79a68594d16a2e>":
	sub	sp, sp, #80
	mov	w8, #32
	stur	xzr, [x0, #28]
	str	w8, [x0, #24]
	mov	x8, #-1
	str	wzr, [x0, #36]
	str	x8, [x0, #40]
	ldr	x8, [x1]
	stp	x20, x19, [sp, #64]
	mov	x19, x0
	stp	x29, x30, [sp, #32]
	add	x29, sp, #32
	ldrb	w10, [x8]
	stp	x22, x21, [sp, #48]
	stp	xzr, xzr, [sp, #8]
	cmp	w10, #100
	str	xzr, [sp, #24]
	b.lo	.LBB135_2
	mov	w8, #41
	mul	w8, w10, w8
	lsr	w9, w8, #12
	mov	w8, #100
	msub	w8, w9, w8, w10
	mov	w10, #205
	and	w11, w8, #0xff
	mul	w10, w11, w10
	mov	w11, #10
	lsr	w10, w10, #11
	msub	w8, w10, w11, w8
	orr	w10, w10, #0x30
	strb	w10, [sp, #30]
	orr	w8, w8, #0x30
	strb	w8, [sp, #31]
	mov	w8, #21
	b	.LBB135_5
.LBB135_2:
	cmp	w10, #10
	b.lo	.LBB135_4
	mov	w8, #205
	mov	w9, #10
	mul	w8, w10, w8
	lsr	w8, w8, #11
	msub	w9, w8, w9, w10
	orr	w8, w8, #0x30
	strb	w8, [sp, #30]
	mov	w8, #22
	orr	w9, w9, #0x30
	strb	w9, [sp, #31]
	b	.LBB135_6
.LBB135_4:
	mov	w8, #23
	mov	w9, w10
.LBB135_5:
	add	x10, sp, #8
	orr	w9, w9, #0x30
	strb	w9, [x10, x8]
.LBB135_6:
	add	x9, sp, #8
	ldr	x10, [x19, #48]
	mov	w11, #24
	add	x1, x9, x8
	mov	w9, #45
	sub	x2, x11, x8
	sturb	w9, [x1, #-1]
	cbnz	x10, .LBB135_9
	ldp	x8, x20, [x19, #8]
	sub	x9, x20, x8
	cmp	x2, x9
	b.hi	.LBB135_10
.LBB135_8:
	ldr	x21, [x19]
	add	x22, x8, x2
	add	x0, x21, x8
	bl	memcpy
	mov	w0, wzr
	stp	x21, x22, [x19]
	str	x20, [x19, #16]
	ldp	x20, x19, [sp, #64]
	ldp	x22, x21, [sp, #48]
	ldp	x29, x30, [sp, #32]
	add	sp, sp, #80
	ret
.LBB135_9:
	mov	x0, x19
	bl	"core::fmt::formatter::Formatter::write_indented::<#4f73c0417896e14a>"
	and	w0, w0, #0xff
	ldp	x20, x19, [sp, #64]
	ldp	x22, x21, [sp, #48]
	ldp	x29, x30, [sp, #32]
	add	sp, sp, #80
	ret
.LBB135_10:
	mov	x21, x1
	mov	x0, x19
	mov	x1, x2
	mov	x22, x2
	bl	"std_alloc::vec::Vec::grow_amortized::<#c0dd558b90df13b6>"
	cbz	w0, .LBB135_12
	ldp	x8, x20, [x19, #8]
	mov	x1, x21
	mov	x2, x22
	b	.LBB135_8
.LBB135_12:
	mov	w0, #1
	ldp	x20, x19, [sp, #64]
	ldp	x22, x21, [sp, #48]
	ldp	x29, x30, [sp, #32]
	add	sp, sp, #80
	ret
.Lfunc_end135:
	.size	"core::fmt::formatter::Formatter::write_piece::<#1a79a68594d16a2e>", .Lfunc_end135-"core::fmt::formatter::Formatter::write_piece::<#1a79a68594d16a2e>"
	.section	".text.unlikely.core::fmt::formatter::Formatter::write_indented::<#4f73c0417896e14a>","ax",@progbits
	.p2align	2
	.type	"core::fmt::formatter::Formatter::write_indented::<#4f73c0417896e14a>",@function
"core::fmt::formatter::Formatter::write_indented::<#4f73c0417896e14a>":
	stp	x29, x30, [sp, #-80]!
	str	x25, [sp, #16]
	mov	x29, sp
	stp	x24, x23, [sp, #32]
	stp	x22, x21, [sp, #48]
	stp	x20, x19, [sp, #64]
	cbz	x2, .LBB136_16
	mov	x21, x2
	mov	x20, x1
	mov	x19, x0
	mov	x8, xzr
	mov	x24, xzr
	b	.LBB136_4
.LBB136_2:
	mov	w23, #1
	add	x1, x20, x25
	mov	x0, x19
	mov	x2, x22
	strb	w23, [x19, #56]
	bl	"core::fmt::formatter::Formatter::write_raw::<#4f73c0417896e14a>"
	and	w9, w0, #0xff
	mov	x8, x24
	tbnz	w9, #0, .LBB136_18
.LBB136_3:
	cmp	x24, x21
	b.eq	.LBB136_10
.LBB136_4:
	ldrb	w10, [x20, x24]
	mov	x9, x24
	add	x24, x24, #1
	cmp	w10, #10
	b.ne	.LBB136_3
	subs	x22, x24, x8
	csel	x25, xzr, x8, lo
	cmp	x8, x9
	mov	x8, x24
	b.hi	.LBB136_3
	ldrb	w8, [x19, #56]
	cmp	w8, #1
	b.ne	.LBB136_2
	ldr	x23, [x19, #48]
	cbz	x23, .LBB136_2
.LBB136_8:
	adrp	x1, .Lstatic.16
	add	x1, x1, :lo12:.Lstatic.16
	mov	x0, x19
	mov	w2, #4
	bl	"core::fmt::formatter::Formatter::write_raw::<#4f73c0417896e14a>"
	and	w8, w0, #0xff
	tbnz	w8, #0, .LBB136_17
	subs	x23, x23, #1
	b.ne	.LBB136_8
	b	.LBB136_2
.LBB136_10:
	cmp	x8, x21
	csel	x22, xzr, x8, hi
	subs	x8, x21, x8
	csel	x21, xzr, x8, lo
	b.ls	.LBB136_16
	ldrb	w8, [x19, #56]
	cmp	w8, #1
	b.ne	.LBB136_15
	ldr	x23, [x19, #48]
	cbz	x23, .LBB136_15
.LBB136_13:
	adrp	x1, .Lstatic.16
	add	x1, x1, :lo12:.Lstatic.16
	mov	x0, x19
	mov	w2, #4
	bl	"core::fmt::formatter::Formatter::write_raw::<#4f73c0417896e14a>"
	and	w8, w0, #0xff
	tbnz	w8, #0, .LBB136_17
	subs	x23, x23, #1
	b.ne	.LBB136_13
.LBB136_15:
	add	x1, x20, x22
	mov	x0, x19
	mov	x2, x21
	strb	wzr, [x19, #56]
	ldp	x20, x19, [sp, #64]
	ldp	x22, x21, [sp, #48]
	ldr	x25, [sp, #16]
	ldp	x24, x23, [sp, #32]
	ldp	x29, x30, [sp], #80
	b	"core::fmt::formatter::Formatter::write_raw::<#4f73c0417896e14a>"
.LBB136_16:
	mov	w23, wzr
	b	.LBB136_18
.LBB136_17:
	mov	w23, #1
.LBB136_18:
	mov	w0, w23
	ldp	x20, x19, [sp, #64]
	ldp	x22, x21, [sp, #48]
	ldr	x25, [sp, #16]
	ldp	x24, x23, [sp, #32]
	ldp	x29, x30, [sp], #80
	ret
.Lfunc_end136:
	.size	"core::fmt::formatter::Formatter::write_indented::<#4f73c0417896e14a>", .Lfunc_end136-"core::fmt::formatter::Formatter::write_indented::<#4f73c0417896e14a>"
	.section	".text.core::fmt::formatter::Formatter::write_raw::<#4f73c0417896e14a>","ax",@progbits
	.p2align	2
	.type	"core::fmt::formatter::Formatter::write_raw::<#4f73c0417896e14a>",@function
"core::fmt::formatter::Formatter::write_raw::<#4f73c0417896e14a>":
	cbz	x2, .LBB137_21
	mov	x9, xzr
	b	.LBB137_4
.LBB137_2:
	mov	w8, #1
.LBB137_3:
	add	x9, x8, x9
	cmp	x9, x2
	b.hs	.LBB137_21
.LBB137_4:
	ldrsb	w8, [x1, x9]
	tbz	w8, #31, .LBB137_2
	add	x10, x9, #1
	cmp	x2, x10
	b.ls	.LBB137_28
	ldrsb	w11, [x1, x10]
	tbz	w11, #31, .LBB137_28
	and	w10, w8, #0xff
	cmn	w11, #64
	mov	w8, #-64
	csel	w11, w11, w8, lo
	cmp	w10, #194
	mov	w8, #1
	b.lo	.LBB137_32
	and	w11, w11, #0x7f
	cmp	w11, #63
	b.hi	.LBB137_32
	cmp	w10, #224
	b.hs	.LBB137_11
	mov	w8, #2
	b	.LBB137_3
.LBB137_11:
	add	x8, x9, #2
	cmp	x2, x8
	b.ls	.LBB137_28
	ldrsb	w8, [x1, x8]
	cmn	w8, #65
	b.gt	.LBB137_28
	cmp	w10, #239
	b.hi	.LBB137_17
	lsl	w8, w10, #12
	add	w8, w8, w11, lsl #6
	sub	w8, w8, #224, lsl #12
	cmp	w8, #2048
	b.lo	.LBB137_28
	lsr	w8, w8, #11
	cmp	w8, #27
	mov	w8, #3
	b.lo	.LBB137_3
	cmp	w10, #238
	b.hs	.LBB137_3
	b	.LBB137_28
.LBB137_17:
	add	x8, x9, #3
	cmp	x2, x8
	b.ls	.LBB137_28
	ldrsb	w8, [x1, x8]
	cmn	w8, #65
	b.gt	.LBB137_28
	lsl	w8, w10, #18
	mov	w10, #-62980096
	add	w8, w8, w11, lsl #12
	add	w8, w8, w10
	lsr	w8, w8, #20
	cbnz	w8, .LBB137_28
	mov	w8, #4
	b	.LBB137_3
.LBB137_21:
	stp	x29, x30, [sp, #-48]!
	stp	x22, x21, [sp, #16]
	mov	x22, x0
	mov	x29, sp
	stp	x20, x19, [sp, #32]
	ldp	x9, x19, [x22, #8]!
	sub	x8, x19, x9
	cmp	x2, x8
	b.hi	.LBB137_42
.LBB137_22:
	ldr	x20, [x0]
	add	x21, x9, x2
	stp	xzr, xzr, [x22]
	add	x8, x20, x9
	sub	x10, x8, x1
	cmp	x10, x2
	b.hs	.LBB137_29
	cmp	x2, #8
	b.lo	.LBB137_25
	add	x8, x9, x20
	sub	x8, x8, x1
	cmp	x8, #32
	b.hs	.LBB137_33
.LBB137_25:
	mov	x8, xzr
.LBB137_26:
	add	x10, x8, x9
	sub	x9, x2, x8
	add	x8, x1, x8
	add	x10, x20, x10
.LBB137_27:
	ldrb	w11, [x8], #1
	subs	x9, x9, #1
	strb	w11, [x10], #1
	b.ne	.LBB137_27
	b	.LBB137_30
.LBB137_28:
	mov	w0, #1
	ret
.LBB137_29:
	mov	x22, x0
	mov	x0, x8
	bl	memmove
	mov	x0, x22
.LBB137_30:
	mov	w8, wzr
	stp	x20, x21, [x0]
	str	x19, [x0, #16]
.LBB137_31:
	ldp	x20, x19, [sp, #32]
	ldp	x22, x21, [sp, #16]
	ldp	x29, x30, [sp], #48
.LBB137_32:
	mov	w0, w8
	ret
.LBB137_33:
	cmp	x2, #32
	b.hs	.LBB137_35
	mov	x8, xzr
	b	.LBB137_39
.LBB137_35:
	add	x12, x9, x20
	and	x10, x2, #0x18
	and	x8, x2, #0xffffffffffffffe0
	add	x11, x1, #16
	add	x12, x12, #16
	and	x13, x2, #0xffffffffffffffe0
.LBB137_36:
	ldp	q0, q1, [x11, #-16]
	subs	x13, x13, #32
	add	x11, x11, #32
	stp	q0, q1, [x12, #-16]
	add	x12, x12, #32
	b.ne	.LBB137_36
	cmp	x2, x8
	b.eq	.LBB137_30
	cbz	x10, .LBB137_26
.LBB137_39:
	mov	x11, x8
	and	x8, x2, #0xfffffffffffffff8
	add	x12, x9, x11
	sub	x10, x11, x8
	add	x11, x1, x11
	add	x12, x20, x12
.LBB137_40:
	ldr	d0, [x11], #8
	adds	x10, x10, #8
	str	d0, [x12], #8
	b.ne	.LBB137_40
	cmp	x2, x8
	b.eq	.LBB137_30
	b	.LBB137_26
.LBB137_42:
	mov	x20, x1
	mov	x1, x2
	mov	x19, x0
	mov	x21, x2
	bl	"std_alloc::vec::Vec::grow_amortized::<#c0dd558b90df13b6>"
	cbz	w0, .LBB137_44
	mov	x0, x19
	ldp	x9, x19, [x19, #8]
	mov	x2, x21
	mov	x1, x20
	b	.LBB137_22
.LBB137_44:
	mov	w8, #1
	b	.LBB137_31
.Lfunc_end137:
	.size	"core::fmt::formatter::Formatter::write_raw::<#4f73c0417896e14a>", .Lfunc_end137-"core::fmt::formatter::Formatter::write_raw::<#4f73c0417896e14a>"
	.section	".text.std::net::display::GroupsDisplay::fmt::<#4f73c0417896e14a>","ax",@progbits
	.p2align	2
	.type	"std::net::display::GroupsDisplay::fmt::<#4f73c0417896e14a>",@function
"std::net::display::GroupsDisplay::fmt::<#4f73c0417896e14a>":
	sub	sp, sp, #96
	stp	x22, x21, [sp, #64]
	ldr	x22, [x0, #8]
	stp	x29, x30, [sp, #32]
	add	x29, sp, #32
	str	x23, [sp, #48]
	stp	x20, x19, [sp, #80]
	cbz	x22, .LBB138_12
	ldr	x20, [x0]
	ldr	x8, [x1, #40]
	mov	w9, #32
	ldur	q0, [x1, #24]
	mov	x21, x1
	mov	x19, x1
	ldrh	w0, [x20], #2
	str	x8, [sp, #16]
	mov	x8, #-1
	str	q0, [sp]
	str	w9, [x1, #24]
	str	xzr, [x21, #28]!
	str	wzr, [x1, #36]
	str	x8, [x1, #40]
	bl	"std::net::display::HexDisplay::fmt::<#4f73c0417896e14a>"
	ldr	q0, [sp]
	ldr	x8, [sp, #16]
	and	w9, w0, #0xff
	stur	q0, [x19, #24]
	str	x8, [x19, #40]
	tbz	w9, #0, .LBB138_3
.LBB138_2:
	mov	w0, #1
	ldp	x20, x19, [sp, #80]
	ldr	x23, [sp, #48]
	ldp	x22, x21, [sp, #64]
	ldp	x29, x30, [sp, #32]
	add	sp, sp, #96
	ret
.LBB138_3:
	sub	x22, x22, #1
	cbz	x22, .LBB138_12
.LBB138_4:
	ldp	x8, x10, [x19, #40]
	mov	w9, #32
	ldur	q0, [x19, #24]
	ldrh	w0, [x20], #2
	str	w9, [x19, #24]
	str	x8, [sp, #16]
	mov	x8, #-1
	str	q0, [sp]
	str	xzr, [x21]
	str	wzr, [x21, #8]
	str	x8, [x19, #40]
	cbnz	x10, .LBB138_9
	ldp	x9, x8, [x19, #8]
	cmp	x8, x9
	b.eq	.LBB138_10
.LBB138_6:
	ldr	x10, [x19]
	mov	w11, #58
	strb	w11, [x10, x9]
	add	x9, x9, #1
	stp	x10, x9, [x19]
	str	x8, [x19, #16]
.LBB138_7:
	mov	w8, #32
	mov	x1, x19
	str	xzr, [x21]
	str	w8, [x19, #24]
	mov	x8, #-1
	str	wzr, [x21, #8]
	str	x8, [x19, #40]
	bl	"std::net::display::HexDisplay::fmt::<#4f73c0417896e14a>"
	ldr	q0, [sp]
	ldr	x8, [sp, #16]
	tst	w0, #0xff
	stur	q0, [x19, #24]
	stur	x8, [x19, #40]
	b.ne	.LBB138_2
	subs	x22, x22, #1
	b.ne	.LBB138_4
	b	.LBB138_12
.LBB138_9:
	adrp	x1, .Lstatic.29
	add	x1, x1, :lo12:.Lstatic.29
	mov	w23, w0
	mov	x0, x19
	mov	w2, #1
	bl	"core::fmt::formatter::Formatter::write_indented::<#4f73c0417896e14a>"
	mov	w8, w0
	mov	w0, w23
	tst	w8, #0xff
	b.eq	.LBB138_7
	b	.LBB138_13
.LBB138_10:
	mov	w23, w0
	mov	x0, x19
	mov	w1, #1
	bl	"std_alloc::vec::Vec::grow_amortized::<#c0dd558b90df13b6>"
	cbz	w0, .LBB138_13
	ldp	x9, x8, [x19, #8]
	mov	w0, w23
	b	.LBB138_6
.LBB138_12:
	mov	w0, wzr
	ldp	x20, x19, [sp, #80]
	ldr	x23, [sp, #48]
	ldp	x22, x21, [sp, #64]
	ldp	x29, x30, [sp, #32]
	add	sp, sp, #96
	ret
.LBB138_13:
	ldr	q0, [sp]
	ldr	x8, [sp, #16]
	stur	q0, [x19, #24]
	stur	x8, [x19, #40]
	b	.LBB138_2
.Lfunc_end138:
	.size	"std::net::display::GroupsDisplay::fmt::<#4f73c0417896e14a>", .Lfunc_end138-"std::net::display::GroupsDisplay::fmt::<#4f73c0417896e14a>"
	.section	.rodata.cst8,"aM",@progbits,8
	.p2align	3, 0x0
.LCPI139_0:
	.hword	0
	.hword	65528
	.hword	65532
	.hword	0
.LCPI139_1:
	.hword	65535
	.hword	15
	.hword	15
	.hword	15
.LCPI139_2:
	.hword	40960
	.hword	10
	.hword	10
	.hword	10
	.section	".text.std::net::display::HexDisplay::fmt::<#4f73c0417896e14a>","ax",@progbits
	.p2align	2
	.type	"std::net::display::HexDisplay::fmt::<#4f73c0417896e14a>",@function
"std::net::display::HexDisplay::fmt::<#4f73c0417896e14a>":
	sub	sp, sp, #112
	dup	v0.4h, w0
	adrp	x8, .LCPI139_0
	ubfx	w9, w0, #12, #4
	ldr	d1, [x8, :lo12:.LCPI139_0]
	adrp	x8, .LCPI139_1
	movi	v2.4h, #87
	stp	x29, x30, [sp, #32]
	add	x29, sp, #32
	stp	x20, x19, [sp, #96]
	mov	x19, x1
	ushl	v0.4h, v0.4h, v1.4h
	ldr	d1, [x8, :lo12:.LCPI139_1]
	adrp	x8, .LCPI139_2
	stp	x26, x25, [sp, #48]
	stp	x24, x23, [sp, #64]
	and	v0.8b, v0.8b, v1.8b
	ldr	d1, [x8, :lo12:.LCPI139_2]
	and	w8, w0, #0xffff
	cmp	w8, #16
	stp	x22, x21, [sp, #80]
	stp	xzr, xzr, [sp]
	cmhi	v1.4h, v1.4h, v0.4h
	mov	v0.h[0], w9
	str	xzr, [sp, #16]
	add	v2.4h, v0.4h, v2.4h
	orr	v0.4h, #48
	bif	v0.8b, v2.8b, v1.8b
	uzp1	v0.8b, v0.8b, v0.8b
	stur	s0, [x29, #-4]
	b.hs	.LBB139_2
	mov	w8, #3
	b	.LBB139_5
.LBB139_2:
	cmp	w8, #256
	b.hs	.LBB139_4
	mov	w8, #2
	b	.LBB139_5
.LBB139_4:
	tst	w0, #0xf000
	cset	w8, eq
.LBB139_5:
	mov	w9, #4
	sub	x10, x29, #4
	mov	x0, sp
	sub	x2, x9, x8
	orr	x1, x10, x8
	bl	"core::str::utf8::from_utf8"
	ldrb	w8, [sp]
	cbz	w8, .LBB139_7
.LBB139_6:
	mov	w0, #1
	b	.LBB139_17
.LBB139_7:
	ldur	w8, [sp, #18]
	ldrb	w21, [sp, #16]
	ldrb	w25, [sp, #17]
	ldrh	w9, [sp, #22]
	ldr	x1, [sp, #8]
	lsl	x8, x8, #16
	mov	x10, x21
	bfi	x10, x25, #8, #8
	orr	x23, x8, x9, lsl #48
	ldr	x8, [x19, #48]
	orr	x2, x10, x23
	cbnz	x8, .LBB139_20
	mov	x26, x19
	ldp	x8, x20, [x26, #8]!
	sub	x9, x20, x8
	cmp	x2, x9
	b.hi	.LBB139_28
.LBB139_9:
	ldr	x22, [x19]
	add	x24, x8, x2
	stp	xzr, xzr, [x26]
	add	x0, x22, x8
	sub	x9, x0, x1
	cmp	x9, x2
	b.hs	.LBB139_15
	lsl	x9, x25, #8
	orr	x10, x23, x9
	orr	x11, x10, x21
	cmp	x11, #8
	b.lo	.LBB139_12
	add	x10, x8, x22
	sub	x10, x10, x1
	cmp	x10, #32
	b.hs	.LBB139_18
.LBB139_12:
	mov	x10, xzr
.LBB139_13:
	add	x9, x23, x9
	add	x11, x10, x8
	add	x9, x9, x21
	sub	x8, x9, x10
	add	x9, x1, x10
	add	x10, x22, x11
.LBB139_14:
	ldrb	w11, [x9], #1
	subs	x8, x8, #1
	strb	w11, [x10], #1
	b.ne	.LBB139_14
	b	.LBB139_16
.LBB139_15:
	bl	memmove
.LBB139_16:
	mov	w0, wzr
	stp	x22, x24, [x19]
	str	x20, [x19, #16]
.LBB139_17:
	ldp	x20, x19, [sp, #96]
	ldp	x22, x21, [sp, #80]
	ldp	x24, x23, [sp, #64]
	ldp	x26, x25, [sp, #48]
	ldp	x29, x30, [sp, #32]
	add	sp, sp, #112
	ret
.LBB139_18:
	cmp	x11, #32
	b.hs	.LBB139_21
	mov	x10, xzr
	b	.LBB139_25
.LBB139_20:
	mov	x0, x19
	bl	"core::fmt::formatter::Formatter::write_indented::<#4f73c0417896e14a>"
	and	w0, w0, #0xff
	b	.LBB139_17
.LBB139_21:
	and	x12, x21, #0x1f
	add	x14, x8, x22
	add	x13, x1, #16
	sub	x10, x11, x12
	add	x14, x14, #16
	sub	x15, x11, x12
.LBB139_22:
	ldp	q0, q1, [x13, #-16]
	subs	x15, x15, #32
	add	x13, x13, #32
	stp	q0, q1, [x14, #-16]
	add	x14, x14, #32
	b.ne	.LBB139_22
	cbz	x12, .LBB139_16
	cmp	x12, #8
	b.lo	.LBB139_13
.LBB139_25:
	and	x12, x21, #0x7
	add	x15, x8, x10
	add	x13, x10, x12
	sub	x13, x13, x21
	sub	x14, x13, x9
	add	x13, x1, x10
	sub	x10, x11, x12
	sub	x11, x14, x23
	add	x14, x22, x15
.LBB139_26:
	ldr	d0, [x13], #8
	adds	x11, x11, #8
	str	d0, [x14], #8
	b.ne	.LBB139_26
	cbnz	x12, .LBB139_13
	b	.LBB139_16
.LBB139_28:
	mov	x22, x1
	mov	x0, x19
	mov	x1, x2
	mov	x24, x2
	bl	"std_alloc::vec::Vec::grow_amortized::<#c0dd558b90df13b6>"
	cbz	w0, .LBB139_6
	ldp	x8, x20, [x19, #8]
	mov	x1, x22
	mov	x2, x24
	b	.LBB139_9
.Lfunc_end139:
	.size	"std::net::display::HexDisplay::fmt::<#4f73c0417896e14a>", .Lfunc_end139-"std::net::display::HexDisplay::fmt::<#4f73c0417896e14a>"
	.section	".text.libwagtenib::tiles::write_names","ax",@progbits
	.p2align	2
	.type	"libwagtenib::tiles::write_names",@function
"libwagtenib::tiles::write_names":
	sub	sp, sp, #208
	stp	x29, x30, [sp, #112]
	add	x29, sp, #112
	stp	x22, x21, [sp, #176]
	mov	x22, x4
	sub	x8, x29, #1
	stp	x28, x27, [sp, #128]
	stp	x26, x25, [sp, #144]
	stp	x24, x23, [sp, #160]
	stp	x20, x19, [sp, #192]
	stp	xzr, xzr, [sp, #16]
	stp	xzr, xzr, [sp, #48]
	stp	xzr, x8, [sp, #32]
	cbz	x1, .LBB140_28
	mov	x23, x3
	mov	x24, x1
	mov	x25, x0
	mov	x21, xzr
	sub	x20, x29, #1
	str	x2, [sp, #8]
	b	.LBB140_3
.LBB140_2:
	sub	x24, x24, #1
	add	x25, x25, #24
	cbz	x24, .LBB140_33
.LBB140_3:
	movi	v0.2d, #0000000000000000
	ldp	x8, x9, [x25]
	ldr	x10, [x25, #16]
	sub	x0, x29, #48
	add	x1, sp, #16
	strb	wzr, [sp, #16]
	strb	w8, [sp, #17]
	str	x9, [sp, #24]
	strh	w10, [sp, #32]
	stp	q0, q0, [x29, #-48]
	bl	"ct_data_tiles::name_writing::written"
	ldurb	w8, [x29, #-48]
	ldr	x19, [sp, #56]
	cbnz	w8, .LBB140_29
	ldp	x26, x27, [x29, #-40]
	sub	x8, x19, x21
	ldur	x28, [x29, #-24]
	cmp	x27, x8
	b.hi	.LBB140_20
	add	x0, x20, x21
	sub	x8, x0, x26
	cmp	x8, x27
	b.hs	.LBB140_22
.LBB140_6:
	cmp	x27, #8
	b.lo	.LBB140_8
	add	x8, x21, x20
	sub	x8, x8, x26
	cmp	x8, #32
	b.hs	.LBB140_11
.LBB140_8:
	mov	x8, xzr
.LBB140_9:
	add	x10, x8, x21
	sub	x9, x27, x8
	add	x8, x26, x8
	add	x10, x20, x10
.LBB140_10:
	ldrb	w11, [x8], #1
	subs	x9, x9, #1
	strb	w11, [x10], #1
	b.ne	.LBB140_10
	b	.LBB140_23
.LBB140_11:
	cmp	x27, #32
	b.hs	.LBB140_13
	mov	x8, xzr
	b	.LBB140_17
.LBB140_13:
	add	x11, x20, x21
	and	x9, x27, #0x18
	and	x8, x27, #0xffffffffffffffe0
	add	x10, x26, #16
	add	x11, x11, #16
	and	x12, x27, #0xffffffffffffffe0
.LBB140_14:
	ldp	q0, q1, [x10, #-16]
	subs	x12, x12, #32
	add	x10, x10, #32
	stp	q0, q1, [x11, #-16]
	add	x11, x11, #32
	b.ne	.LBB140_14
	cmp	x27, x8
	b.eq	.LBB140_23
	cbz	x9, .LBB140_9
.LBB140_17:
	mov	x10, x8
	and	x8, x27, #0xfffffffffffffff8
	add	x11, x21, x10
	sub	x9, x10, x8
	add	x10, x26, x10
	add	x11, x20, x11
.LBB140_18:
	ldr	d0, [x10], #8
	adds	x9, x9, #8
	str	d0, [x11], #8
	b.ne	.LBB140_18
	cmp	x27, x8
	b.eq	.LBB140_23
	b	.LBB140_9
.LBB140_20:
	add	x0, sp, #40
	mov	x1, x27
	bl	"std_alloc::vec::Vec::grow_amortized::<#b36209b3cdd1ff50>"
	cbz	w0, .LBB140_43
	ldp	x21, x19, [sp, #48]
	ldr	x20, [sp, #40]
	add	x0, x20, x21
	sub	x8, x0, x26
	cmp	x8, x27
	b.lo	.LBB140_6
.LBB140_22:
	mov	x1, x26
	mov	x2, x27
	bl	memmove
.LBB140_23:
	add	x27, x21, x27
	cmp	x19, x27
	stp	x27, x19, [sp, #48]
	b.eq	.LBB140_26
	ldr	x20, [sp, #40]
	add	x21, x27, #1
	mov	w8, #10
	str	x21, [sp, #48]
	strb	w8, [x20, x27]
	cbz	x28, .LBB140_2
.LBB140_25:
	mov	x0, x26
	bl	rattle_dealloc
	b	.LBB140_2
.LBB140_26:
	add	x0, sp, #40
	mov	w1, #1
	bl	"std_alloc::vec::Vec::grow_amortized::<#b36209b3cdd1ff50>"
	cbz	w0, .LBB140_43
	ldp	x20, x27, [sp, #40]
	add	x21, x27, #1
	mov	w8, #10
	str	x21, [sp, #48]
	strb	w8, [x20, x27]
	cbnz	x28, .LBB140_25
	b	.LBB140_2
.LBB140_28:
	mov	w0, wzr
	str	xzr, [x22]
	b	.LBB140_36
.LBB140_29:
	cbz	x19, .LBB140_32
	mov	x0, x20
.LBB140_31:
	bl	rattle_dealloc
.LBB140_32:
	mov	w0, #8
	b	.LBB140_36
.LBB140_33:
	ldr	x19, [sp, #56]
	cmp	x23, x21
	str	x21, [x22]
	b.hs	.LBB140_37
	mov	w0, #9
	cbz	x19, .LBB140_36
.LBB140_35:
	mov	w19, w0
	mov	x0, x20
	bl	rattle_dealloc
	mov	w0, w19
.LBB140_36:
	ldp	x20, x19, [sp, #192]
	ldp	x22, x21, [sp, #176]
	ldp	x24, x23, [sp, #160]
	ldp	x26, x25, [sp, #144]
	ldp	x28, x27, [sp, #128]
	ldp	x29, x30, [sp, #112]
	add	sp, sp, #208
	ret
.LBB140_37:
	ldr	x0, [sp, #8]
	sub	x9, x0, x20
	cmp	x9, x21
	b.hs	.LBB140_42
	cmp	x21, #8
	mov	x8, xzr
	b.lo	.LBB140_54
	cmp	x9, #32
	b.lo	.LBB140_54
	cmp	x21, #32
	b.hs	.LBB140_47
	mov	x8, xzr
	b	.LBB140_51
.LBB140_42:
	mov	x1, x20
	mov	x2, x21
	bl	memmove
	mov	w0, wzr
	cbnz	x19, .LBB140_35
	b	.LBB140_36
.LBB140_43:
	cbz	x28, .LBB140_45
	mov	x0, x26
	bl	rattle_dealloc
.LBB140_45:
	ldr	x8, [sp, #56]
	cbz	x8, .LBB140_32
	ldr	x0, [sp, #40]
	b	.LBB140_31
.LBB140_47:
	and	x9, x21, #0x18
	and	x8, x21, #0xffffffffffffffe0
	add	x10, x20, #16
	add	x11, x0, #16
	and	x12, x21, #0xffffffffffffffe0
.LBB140_48:
	ldp	q0, q1, [x10, #-16]
	subs	x12, x12, #32
	add	x10, x10, #32
	stp	q0, q1, [x11, #-16]
	add	x11, x11, #32
	b.ne	.LBB140_48
	cmp	x21, x8
	b.eq	.LBB140_56
	ldr	x0, [sp, #8]
	cbz	x9, .LBB140_54
.LBB140_51:
	mov	x11, x8
	and	x8, x21, #0xfffffffffffffff8
	sub	x9, x11, x8
	add	x10, x20, x11
	add	x11, x0, x11
.LBB140_52:
	ldr	d0, [x10], #8
	adds	x9, x9, #8
	str	d0, [x11], #8
	b.ne	.LBB140_52
	ldr	x0, [sp, #8]
	cmp	x21, x8
	b.eq	.LBB140_56
.LBB140_54:
	sub	x9, x27, x8
	add	x10, x20, x8
	add	x8, x0, x8
	add	x9, x9, #1
.LBB140_55:
	ldrb	w11, [x10], #1
	subs	x9, x9, #1
	strb	w11, [x8], #1
	b.ne	.LBB140_55
.LBB140_56:
	mov	w0, wzr
	cbnz	x19, .LBB140_35
	b	.LBB140_36
.Lfunc_end140:
	.size	"libwagtenib::tiles::write_names", .Lfunc_end140-"libwagtenib::tiles::write_names"
	.section	".text.libwagtenib::head::write_state","ax",@progbits
	.p2align	2
	.type	"libwagtenib::head::write_state",@function
"libwagtenib::head::write_state":
	adrp	x8, .Lstatic.23
	add	x8, x8, :lo12:.Lstatic.23
	add	x9, x0, #16
	sub	x8, x1, x8
	cmp	x8, #1
	mov	w8, #256
	strh	w8, [x1]
	ldr	x8, [x0, #8]
	rev	x8, x8
	stur	x8, [x1, #2]
	add	x8, x1, #18
	ldr	x10, [x0]
	sub	x11, x8, x9
	cmp	x11, #31
	rev	x10, x10
	stur	x10, [x1, #10]
	b.hi	.LBB141_2
	ldrb	w8, [x0, #16]
	strb	w8, [x1, #18]
	ldrb	w8, [x0, #17]
	strb	w8, [x1, #19]
	ldrb	w8, [x0, #18]
	strb	w8, [x1, #20]
	ldrb	w8, [x0, #19]
	strb	w8, [x1, #21]
	ldrb	w8, [x0, #20]
	strb	w8, [x1, #22]
	ldrb	w8, [x0, #21]
	strb	w8, [x1, #23]
	ldrb	w8, [x0, #22]
	strb	w8, [x1, #24]
	ldrb	w8, [x0, #23]
	strb	w8, [x1, #25]
	ldrb	w8, [x0, #24]
	strb	w8, [x1, #26]
	ldrb	w8, [x0, #25]
	strb	w8, [x1, #27]
	ldrb	w8, [x0, #26]
	strb	w8, [x1, #28]
	ldrb	w8, [x0, #27]
	strb	w8, [x1, #29]
	ldrb	w8, [x0, #28]
	strb	w8, [x1, #30]
	ldrb	w8, [x0, #29]
	strb	w8, [x1, #31]
	ldrb	w8, [x0, #30]
	strb	w8, [x1, #32]
	ldrb	w8, [x0, #31]
	strb	w8, [x1, #33]
	ldrb	w8, [x0, #32]
	strb	w8, [x1, #34]
	ldrb	w8, [x0, #33]
	strb	w8, [x1, #35]
	ldrb	w8, [x0, #34]
	strb	w8, [x1, #36]
	ldrb	w8, [x0, #35]
	strb	w8, [x1, #37]
	ldrb	w8, [x0, #36]
	strb	w8, [x1, #38]
	ldrb	w8, [x0, #37]
	strb	w8, [x1, #39]
	ldrb	w8, [x0, #38]
	strb	w8, [x1, #40]
	ldrb	w8, [x0, #39]
	strb	w8, [x1, #41]
	ldrb	w8, [x0, #40]
	strb	w8, [x1, #42]
	ldrb	w8, [x0, #41]
	strb	w8, [x1, #43]
	ldrb	w8, [x0, #42]
	strb	w8, [x1, #44]
	ldrb	w8, [x0, #43]
	strb	w8, [x1, #45]
	ldrb	w8, [x0, #44]
	strb	w8, [x1, #46]
	ldrb	w8, [x0, #45]
	strb	w8, [x1, #47]
	ldrb	w8, [x0, #46]
	strb	w8, [x1, #48]
	ldrb	w8, [x0, #47]
	strb	w8, [x1, #49]
	ret
.LBB141_2:
	ldp	q1, q0, [x9]
	stp	q1, q0, [x8]
	ret
.Lfunc_end141:
	.size	"libwagtenib::head::write_state", .Lfunc_end141-"libwagtenib::head::write_state"
	.section	".text.ct_monitor::reading::read_state","ax",@progbits
	.p2align	2
	.type	"ct_monitor::reading::read_state",@function
"ct_monitor::reading::read_state":
	stp	x29, x30, [sp, #-96]!
	stp	x28, x27, [sp, #16]
	mov	x29, sp
	stp	x26, x25, [sp, #32]
	stp	x24, x23, [sp, #48]
	stp	x22, x21, [sp, #64]
	stp	x20, x19, [sp, #80]
	sub	sp, sp, #1376
	movi	v0.2d, #0000000000000000
	mov	x19, x0
	cmp	x2, #31
	str	xzr, [sp]
	stp	q0, q0, [sp, #64]
	stp	q0, q0, [sp, #96]
	stp	q0, q0, [sp, #128]
	stp	q0, q0, [sp, #160]
	stp	q0, q0, [sp, #192]
	stp	q0, q0, [sp, #224]
	stp	q0, q0, [sp, #256]
	stp	q0, q0, [sp, #288]
	stp	q0, q0, [sp, #320]
	stp	q0, q0, [sp, #352]
	stp	q0, q0, [sp, #384]
	stp	q0, q0, [sp, #416]
	stp	q0, q0, [sp, #448]
	stp	q0, q0, [sp, #480]
	stp	q0, q0, [sp, #512]
	stp	q0, q0, [sp, #544]
	stp	q0, q0, [sp, #576]
	stp	q0, q0, [sp, #608]
	stp	q0, q0, [sp, #640]
	stp	q0, q0, [sp, #672]
	stp	q0, q0, [sp, #704]
	stp	q0, q0, [sp, #736]
	stp	q0, q0, [sp, #768]
	stp	q0, q0, [sp, #800]
	stp	q0, q0, [sp, #832]
	stp	q0, q0, [sp, #864]
	b.ls	.LBB142_15
	sub	x22, x2, #32
	mov	x20, x2
	mov	x21, x1
	stp	x1, x22, [x29, #-128]
	sub	x0, x29, #64
	sub	x1, x29, #128
	mov	w2, #1
	stp	q0, q0, [x29, #-64]
	bl	"ct_tree::hash::Sha256HashNodeHash::hash"
	ldp	q0, q1, [x29, #-64]
	sub	x0, x29, #96
	add	x1, x21, x22
	stp	q0, q1, [x29, #-96]
	bl	"core::cmp::arrays::ArrayPartialEq::eq::<i8,=32,31'core::cmp::numbers::U8PartialEq{}>"
	cbz	w0, .LBB142_15
	movi	v0.2d, #0000000000000000
	stp	q0, q0, [x29, #-256]
	str	q0, [sp, #1088]
	str	q0, [sp, #1104]
	str	q0, [sp, #1056]
	str	q0, [sp, #1072]
	stp	q0, q0, [sp, #1008]
	str	q0, [sp, #1040]
	stp	q0, q0, [sp, #912]
	stp	q0, q0, [sp, #944]
	stp	q0, q0, [sp, #976]
	str	q0, [sp, #896]
	cbz	x22, .LBB142_56
	mov	x8, x21
	sub	x9, x20, #33
	ldrb	w10, [x8], #1
	cmp	w10, #1
	b.eq	.LBB142_17
	cmp	w10, #2
	b.ne	.LBB142_56
	cbz	x9, .LBB142_46
	ldrb	w23, [x21, #1]
	add	x8, x21, #2
	sub	x9, x20, #34
	cmp	w23, #1
	b.eq	.LBB142_25
	cbnz	w23, .LBB142_46
	mov	x24, xzr
	mov	x25, xzr
	stp	q0, q0, [x29, #-64]
	cbz	x9, .LBB142_33
.LBB142_9:
	mov	x11, x8
	sub	x12, x9, #1
	ldrb	w26, [x11], #1
	cmp	w26, #1
	b.eq	.LBB142_37
	cbnz	w26, .LBB142_45
	movi	v0.2d, #0000000000000000
	mov	x27, xzr
	mov	x28, xzr
	stp	q0, q0, [x29, #-96]
	ldp	q0, q1, [x29, #-64]
	subs	x8, x12, #8
	stp	q0, q1, [x29, #-128]
	ldp	q0, q2, [x29, #-96]
	stp	q0, q2, [x29, #-160]
	b.lo	.LBB142_14
.LBB142_12:
	cmp	x8, #8
	b.hs	.LBB142_43
	add	x11, x11, #8
	mov	x12, x8
.LBB142_14:
	movi	v0.2d, #0000000000000000
	mov	w10, wzr
	mov	w23, wzr
	mov	x25, xzr
	mov	x24, xzr
	mov	w26, wzr
	mov	x28, xzr
	mov	x27, xzr
	mov	x20, xzr
	mov	x22, xzr
	mov	x8, x11
	mov	x9, x12
	b	.LBB142_49
.LBB142_15:
	movi	v0.2d, #0000000000000000
	strb	wzr, [x19]
.LBB142_16:
	stur	q0, [x19, #8]
	stur	q0, [x19, #24]
	stur	q0, [x19, #40]
	stur	q0, [x19, #56]
	stur	q0, [x19, #72]
	stur	q0, [x19, #88]
	stur	q0, [x19, #104]
	stur	q0, [x19, #120]
	stur	q0, [x19, #136]
	stur	q0, [x19, #152]
	stur	q0, [x19, #168]
	stur	q0, [x19, #184]
	str	xzr, [x19, #200]
	b	.LBB142_59
.LBB142_17:
	cbz	x9, .LBB142_48
	ldrb	w23, [x21, #1]
	add	x8, x21, #2
	sub	x9, x20, #34
	cmp	w23, #1
	b.eq	.LBB142_28
	cbnz	w23, .LBB142_48
	mov	x24, xzr
	mov	x25, xzr
	stp	q0, q0, [x29, #-64]
	mov	x10, x8
	mov	x11, x9
	cbz	x9, .LBB142_36
.LBB142_21:
	mov	x8, x10
	sub	x9, x11, #1
	ldrb	w26, [x8], #1
	cmp	w26, #1
	b.eq	.LBB142_40
	cbnz	w26, .LBB142_48
	movi	v0.2d, #0000000000000000
	mov	x27, xzr
	mov	x28, xzr
	stp	q0, q0, [x29, #-96]
.LBB142_24:
	ldp	q0, q1, [x29, #-64]
	cmp	w23, #1
	csel	x20, x24, xzr, eq
	cmp	w26, #1
	mov	w10, #1
	csel	x22, x27, xzr, eq
	stp	q0, q1, [x29, #-192]
	ldp	q0, q2, [x29, #-96]
	stp	q0, q2, [x29, #-224]
	b	.LBB142_50
.LBB142_25:
	cmp	x22, #10
	b.lo	.LBB142_46
	sub	x9, x20, #42
	cmp	x9, #8
	b.hs	.LBB142_31
	add	x8, x21, #10
	b	.LBB142_46
.LBB142_28:
	cmp	x22, #10
	b.lo	.LBB142_48
	sub	x9, x20, #42
	cmp	x9, #8
	b.hs	.LBB142_34
	add	x8, x21, #10
	b	.LBB142_48
.LBB142_31:
	sub	x9, x20, #50
	add	x8, x21, #18
	cmp	x9, #32
	b.lo	.LBB142_46
	ldur	x9, [x21, #2]
	ldur	x10, [x21, #10]
	ldp	q0, q1, [x8]
	add	x8, x21, #50
	rev	x25, x9
	rev	x24, x10
	sub	x9, x20, #82
	stp	q0, q1, [x29, #-64]
	cbnz	x9, .LBB142_9
.LBB142_33:
	mov	x12, xzr
	mov	x11, x8
	b	.LBB142_45
.LBB142_34:
	sub	x9, x20, #50
	add	x8, x21, #18
	cmp	x9, #32
	b.lo	.LBB142_48
	ldur	x9, [x21, #2]
	ldur	x10, [x21, #10]
	sub	x11, x20, #82
	ldp	q0, q1, [x8]
	rev	x25, x9
	rev	x24, x10
	add	x10, x21, #50
	stp	q0, q1, [x29, #-64]
	cbnz	x11, .LBB142_21
.LBB142_36:
	mov	x9, xzr
	mov	x8, x10
	b	.LBB142_48
.LBB142_37:
	subs	x10, x9, #9
	b.lo	.LBB142_45
	cmp	x10, #8
	b.hs	.LBB142_44
	add	x11, x8, #9
	mov	x12, x10
	b	.LBB142_45
.LBB142_40:
	subs	x12, x11, #9
	b.lo	.LBB142_48
	cmp	x12, #8
	b.hs	.LBB142_47
	add	x8, x10, #9
	mov	x9, x12
	b	.LBB142_48
.LBB142_43:
	ldp	q0, q1, [x29, #-128]
	sub	x9, x12, #16
	ldp	x8, x10, [x11]
	stp	q0, q1, [x29, #-192]
	ldp	q2, q0, [x29, #-160]
	rev	x20, x8
	add	x8, x11, #16
	rev	x22, x10
	mov	w10, #1
	stp	q2, q0, [x29, #-224]
	b	.LBB142_50
.LBB142_44:
	sub	x12, x9, #17
	add	x11, x8, #17
	cmp	x12, #32
	b.hs	.LBB142_75
.LBB142_45:
	movi	v0.2d, #0000000000000000
	mov	x8, x11
	mov	x9, x12
.LBB142_46:
	stp	q0, q0, [x29, #-128]
	mov	w10, wzr
	mov	w23, wzr
	mov	x25, xzr
	mov	x24, xzr
	mov	w26, wzr
	mov	x28, xzr
	mov	x27, xzr
	mov	x20, xzr
	mov	x22, xzr
	b	.LBB142_49
.LBB142_47:
	sub	x9, x11, #17
	add	x8, x10, #17
	cmp	x9, #32
	b.hs	.LBB142_76
.LBB142_48:
	mov	w10, wzr
	mov	w23, wzr
	mov	x25, xzr
	mov	x24, xzr
	mov	w26, wzr
	mov	x28, xzr
	mov	x27, xzr
	mov	x20, xzr
	mov	x22, xzr
	movi	v0.2d, #0000000000000000
.LBB142_49:
	stp	q0, q0, [x29, #-224]
	stp	q0, q0, [x29, #-192]
.LBB142_50:
	ldp	q0, q1, [x29, #-192]
	stp	q0, q1, [x29, #-256]
	ldp	q0, q2, [x29, #-224]
	str	q0, [sp, #1088]
	str	q2, [sp, #1104]
	cbz	w10, .LBB142_56
	cmp	x9, #8
	b.lo	.LBB142_55
	and	x10, x9, #0xfffffffffffffff8
	cmp	x10, #8
	b.eq	.LBB142_55
	ldr	x10, [x8, #8]
	sub	x9, x9, #16
	rev	x21, x10
	subs	x9, x9, x21
	b.lo	.LBB142_55
	tst	x21, #0x1f
	b.eq	.LBB142_60
.LBB142_55:
	ldp	q0, q2, [sp, #928]
	ldp	q1, q3, [sp, #896]
	str	q0, [sp, #992]
	str	q1, [sp, #960]
	stp	q1, q3, [sp, #640]
	stp	q0, q2, [sp, #672]
	b	.LBB142_57
.LBB142_56:
	ldr	q0, [sp, #1056]
	ldr	q1, [sp, #1072]
	ldr	q2, [sp, #1040]
	stp	q0, q1, [sp, #672]
	ldr	q0, [sp, #1024]
	stp	q0, q2, [sp, #640]
.LBB142_57:
	ldp	q0, q1, [sp, #576]
	strb	wzr, [x19]
	str	xzr, [x19, #8]
	stp	q0, q1, [x19, #144]
	ldp	q2, q0, [sp, #608]
	stp	q2, q0, [x19, #176]
	ldp	q1, q0, [sp, #512]
	stp	q1, q0, [x19, #80]
	ldp	q2, q0, [sp, #544]
	stp	q2, q0, [x19, #112]
	ldp	q1, q0, [sp, #448]
	stp	q1, q0, [x19, #16]
	ldp	q2, q0, [sp, #480]
.LBB142_58:
	stp	q2, q0, [x19, #48]
.LBB142_59:
	add	sp, sp, #1376
	ldp	x20, x19, [sp, #80]
	ldp	x22, x21, [sp, #64]
	ldp	x24, x23, [sp, #48]
	ldp	x26, x25, [sp, #32]
	ldp	x28, x27, [sp, #16]
	ldp	x29, x30, [sp], #96
	ret
.LBB142_60:
	str	x9, [sp, #48]
	lsr	x9, x21, #5
	ldr	x10, [x8]
	add	x1, x8, #16
	str	x10, [sp, #24]
	str	x9, [sp, #56]
	str	x1, [sp, #40]
	cbz	x9, .LBB142_67
	tbnz	x21, #63, .LBB142_86
	mov	x0, x21
	mov	w1, #1
	bl	rattle_alloc
	tbz	w0, #0, .LBB142_86
	mov	x12, x1
	ldr	x1, [sp, #40]
	mov	x2, x21
	sub	x8, x12, x1
	cmp	x8, x21
	b.hs	.LBB142_68
	ldr	x11, [sp, #56]
	mov	x8, xzr
	mov	x9, x11
.LBB142_65:
	add	x10, x1, x8
	subs	x9, x9, #1
	ldp	q1, q0, [x10]
	add	x10, x12, x8
	add	x8, x8, #32
	stp	q1, q0, [x10]
	b.ne	.LBB142_65
	str	x12, [sp, #32]
	b	.LBB142_69
.LBB142_67:
	mov	x2, xzr
	sub	x12, x29, #17
.LBB142_68:
	mov	x0, x12
	str	x12, [sp, #32]
	bl	memmove
	ldr	x11, [sp, #56]
.LBB142_69:
	ldr	x8, [sp, #48]
	cmp	x8, #8
	b.lo	.LBB142_73
	subs	x9, x8, #16
	b.lo	.LBB142_73
	ldr	x8, [sp, #40]
	add	x21, x8, x21
	ldr	x8, [x21, #8]
	rev	x10, x8
	cmp	x9, x10
	b.lo	.LBB142_73
	tst	x10, #0x1f
	b.eq	.LBB142_77
.LBB142_73:
	ldr	x0, [sp, #32]
	cbz	x11, .LBB142_55
.LBB142_74:
	bl	rattle_dealloc
	b	.LBB142_55
.LBB142_75:
	ldur	x10, [x8, #1]
	ldur	x12, [x8, #9]
	ldp	q0, q1, [x11]
	add	x11, x8, #49
	rev	x28, x10
	rev	x27, x12
	sub	x12, x9, #49
	stp	q0, q1, [x29, #-96]
	ldp	q0, q1, [x29, #-64]
	subs	x8, x12, #8
	stp	q0, q1, [x29, #-128]
	ldp	q0, q2, [x29, #-96]
	stp	q0, q2, [x29, #-160]
	b.hs	.LBB142_12
	b	.LBB142_14
.LBB142_76:
	ldur	x9, [x10, #1]
	ldur	x12, [x10, #9]
	ldp	q0, q1, [x8]
	add	x8, x10, #49
	rev	x28, x9
	rev	x27, x12
	sub	x9, x11, #49
	stp	q0, q1, [x29, #-96]
	b	.LBB142_24
.LBB142_77:
	str	x9, [sp, #40]
	lsr	x8, x10, #5
	ldr	x9, [x21]
	str	x9, [sp]
	str	x8, [sp, #48]
	cbz	x8, .LBB142_87
	str	x10, [sp, #16]
	tbnz	x10, #63, .LBB142_84
	ldr	x0, [sp, #16]
	mov	w1, #1
	bl	rattle_alloc
	str	x1, [sp, #8]
	tbz	w0, #0, .LBB142_84
	ldp	x8, x9, [sp, #8]
	add	x1, x21, #16
	sub	x8, x8, x1
	cmp	x8, x9
	b.hs	.LBB142_89
	ldr	x9, [sp, #48]
	ldr	x11, [sp, #8]
	mov	x8, xzr
.LBB142_82:
	add	x10, x1, x8
	subs	x9, x9, #1
	ldp	q1, q0, [x10]
	add	x10, x11, x8
	add	x8, x8, #32
	stp	q1, q0, [x10]
	b.ne	.LBB142_82
	ldr	x8, [sp, #40]
	ldr	x9, [sp, #16]
	cmp	x8, x9
	b.eq	.LBB142_90
	b	.LBB142_97
.LBB142_84:
	ldr	x8, [sp, #56]
	ldr	x0, [sp, #32]
	cbz	x8, .LBB142_86
	bl	rattle_dealloc
.LBB142_86:
	mov	w8, #1
	movi	v0.2d, #0000000000000000
	strb	w8, [x19]
	b	.LBB142_16
.LBB142_87:
	ldr	x8, [sp, #40]
	cmp	x8, x10
	b.ne	.LBB142_98
	sub	x8, x29, #17
	str	x8, [sp, #8]
	b	.LBB142_90
.LBB142_89:
	ldp	x0, x21, [sp, #8]
	mov	x2, x21
	bl	memmove
	ldr	x8, [sp, #40]
	cmp	x8, x21
	b.ne	.LBB142_97
.LBB142_90:
	ldp	q0, q1, [x29, #-256]
	mov	w8, w23
	ldr	q2, [sp, #1104]
	str	x8, [sp, #704]
	add	x8, sp, #704
	ldr	x9, [sp, #56]
	add	x0, sp, #704
	str	x25, [sp, #712]
	stp	q0, q1, [sp, #672]
	ldr	q0, [sp, #1088]
	str	x24, [sp, #720]
	stp	q0, q2, [sp, #640]
	ldp	q1, q0, [sp, #672]
	str	x28, [sp, #768]
	str	x27, [sp, #776]
	stur	q0, [x8, #40]
	stur	q1, [x8, #24]
	mov	w8, w26
	str	x8, [sp, #760]
	ldr	x8, [sp, #24]
	ldp	q1, q0, [sp, #640]
	str	x20, [sp, #816]
	rev	x8, x8
	str	x22, [sp, #824]
	str	x8, [sp, #832]
	ldr	x8, [sp, #32]
	stp	q1, q0, [sp, #784]
	str	x8, [sp, #840]
	ldr	x8, [sp]
	str	x9, [sp, #848]
	rev	x8, x8
	str	x9, [sp, #856]
	str	x8, [sp, #864]
	ldr	x8, [sp, #8]
	str	x8, [sp, #872]
	ldr	x8, [sp, #48]
	str	x8, [sp, #880]
	str	x8, [sp, #888]
	bl	"ct_monitor::fitting::fits_together"
	tbz	w0, #0, .LBB142_92
	ldp	q0, q1, [sp, #832]
	mov	w8, #1
	stp	q0, q1, [sp, #384]
	ldp	q0, q2, [sp, #864]
	stp	q0, q2, [sp, #416]
	ldp	q1, q0, [sp, #768]
	stp	q1, q0, [sp, #320]
	ldp	q2, q0, [sp, #800]
	stp	q2, q0, [sp, #352]
	ldp	q1, q0, [sp, #704]
	stp	q1, q0, [sp, #256]
	ldp	q2, q0, [sp, #736]
	stp	q2, q0, [sp, #288]
	b	.LBB142_96
.LBB142_92:
	ldp	q0, q1, [sp, #192]
	ldr	x8, [sp, #56]
	stp	q0, q1, [sp, #384]
	ldp	q0, q2, [sp, #224]
	stp	q0, q2, [sp, #416]
	ldp	q1, q0, [sp, #128]
	stp	q1, q0, [sp, #320]
	ldp	q2, q0, [sp, #160]
	stp	q2, q0, [sp, #352]
	ldp	q1, q0, [sp, #64]
	stp	q1, q0, [sp, #256]
	ldp	q2, q0, [sp, #96]
	stp	q2, q0, [sp, #288]
	cbz	x8, .LBB142_94
	ldr	x0, [sp, #32]
	bl	rattle_dealloc
	ldr	x8, [sp, #888]
	str	x8, [sp, #48]
.LBB142_94:
	ldr	x8, [sp, #48]
	cbz	x8, .LBB142_96
	ldr	x0, [sp, #872]
	bl	rattle_dealloc
	mov	x8, xzr
.LBB142_96:
	ldp	q0, q1, [sp, #384]
	strb	wzr, [x19]
	str	x8, [x19, #8]
	stp	q0, q1, [x19, #144]
	ldp	q2, q0, [sp, #416]
	stp	q2, q0, [x19, #176]
	ldp	q1, q0, [sp, #320]
	stp	q1, q0, [x19, #80]
	ldp	q2, q0, [sp, #352]
	stp	q2, q0, [x19, #112]
	ldp	q1, q0, [sp, #256]
	stp	q1, q0, [x19, #16]
	ldp	q2, q0, [sp, #288]
	b	.LBB142_58
.LBB142_97:
	ldr	x0, [sp, #8]
	bl	rattle_dealloc
.LBB142_98:
	ldr	x8, [sp, #56]
	ldr	x0, [sp, #32]
	cbnz	x8, .LBB142_74
	b	.LBB142_55
.Lfunc_end142:
	.size	"ct_monitor::reading::read_state", .Lfunc_end142-"ct_monitor::reading::read_state"
	.section	.rodata.cst16,"aM",@progbits,16
	.p2align	4, 0x0
.LCPI143_0:
	.byte	1
	.byte	2
	.byte	4
	.byte	8
	.byte	16
	.byte	32
	.byte	64
	.byte	128
	.byte	1
	.byte	2
	.byte	4
	.byte	8
	.byte	16
	.byte	32
	.byte	64
	.byte	128
	.section	".text.ct_monitor::fitting::fits_together","ax",@progbits
	.p2align	2
	.type	"ct_monitor::fitting::fits_together",@function
"ct_monitor::fitting::fits_together":
	ldr	x9, [x0, #128]
	ldr	x2, [x0, #144]
	fmov	d0, x9
	cnt	v0.8b, v0.8b
	addv	b0, v0.8b
	fmov	x8, d0
	cmp	x2, x8
	b.ne	.LBB143_9
	ldr	x8, [x0, #160]
	ldr	x10, [x0, #176]
	fmov	d0, x8
	cnt	v0.8b, v0.8b
	addv	b0, v0.8b
	fmov	x11, d0
	cmp	x10, x11
	b.ne	.LBB143_9
	sub	sp, sp, #160
	movi	v0.2d, #0000000000000000
	stp	x26, x25, [sp, #96]
	ldur	q1, [x0, #40]
	stp	x24, x23, [sp, #112]
	ldp	x24, x23, [x0, #112]
	stp	x22, x21, [sp, #128]
	ldrb	w21, [x0]
	ldur	q2, [x0, #24]
	stp	x20, x19, [sp, #144]
	ldrb	w20, [x0, #56]
	stp	x29, x30, [sp, #64]
	add	x29, sp, #64
	ldp	x26, x19, [x0, #8]
	str	x27, [sp, #80]
	stp	q0, q0, [sp, #32]
	ldp	x25, x22, [x0, #64]
	cbz	w21, .LBB143_10
	ldr	x1, [x0, #136]
	mov	x27, x0
	add	x0, sp, #32
	stp	q2, q1, [sp]
	bl	"ct_monitor::fitting::root_of::<#0f46d2847b2ce1ce>"
	ldr	x8, [x27, #128]
	cmp	x26, x8
	b.ne	.LBB143_22
	ldp	q1, q0, [sp, #32]
	adrp	x8, .LCPI143_0
	ldr	q2, [sp]
	cmeq	v1.16b, v2.16b, v1.16b
	ldr	q2, [sp, #16]
	cmeq	v0.16b, v2.16b, v0.16b
	ldr	q2, [x8, :lo12:.LCPI143_0]
	bic	v1.16b, v2.16b, v1.16b
	bic	v0.16b, v2.16b, v0.16b
	ext	v2.16b, v1.16b, v1.16b, #8
	ext	v3.16b, v0.16b, v0.16b, #8
	zip1	v1.16b, v1.16b, v2.16b
	zip1	v0.16b, v0.16b, v3.16b
	addv	h1, v1.8h
	addv	h0, v0.8h
	fmov	w8, s1
	fmov	w9, s0
	orr	w8, w8, w9
	tst	w8, #0xffff
	b.ne	.LBB143_22
	mov	x0, x27
	cbz	w20, .LBB143_17
	cmp	x26, x25
	mov	w8, wzr
	b.hs	.LBB143_23
	cmp	x24, x22
	b.hs	.LBB143_23
	ldr	x8, [x0, #160]
	b	.LBB143_12
.LBB143_9:
	mov	w0, wzr
	ret
.LBB143_10:
	cbnz	x9, .LBB143_22
	cbz	w20, .LBB143_16
.LBB143_12:
	cmp	x8, x25
	b.hs	.LBB143_22
	ldr	x9, [x0, #128]
	cmp	x9, x8
	b.lo	.LBB143_20
	b.ne	.LBB143_22
	ldp	x8, x1, [x0, #136]
	ldp	x2, x3, [x0, #168]
	mov	x0, x8
	bl	"ct_monitor::fitting::are_same"
	cbz	w0, .LBB143_22
	b	.LBB143_20
.LBB143_16:
	mov	x9, xzr
	b	.LBB143_18
.LBB143_17:
	ldr	x9, [x0, #128]
	ldr	x8, [x0, #160]
.LBB143_18:
	cmp	x9, x8
	b.ne	.LBB143_22
	ldp	x8, x1, [x0, #136]
	ldp	x2, x3, [x0, #168]
	mov	x0, x8
	bl	"ct_monitor::fitting::are_same"
	tbz	w0, #0, .LBB143_22
.LBB143_20:
	cbz	w21, .LBB143_24
	cmp	x19, x24
	b.ls	.LBB143_24
.LBB143_22:
	mov	w8, wzr
.LBB143_23:
	ldp	x20, x19, [sp, #144]
	ldr	x27, [sp, #80]
	ldp	x22, x21, [sp, #128]
	ldp	x24, x23, [sp, #112]
	ldp	x26, x25, [sp, #96]
	ldp	x29, x30, [sp, #64]
	add	sp, sp, #160
	mov	w0, w8
	ret
.LBB143_24:
	cmp	w20, #0
	ccmp	x22, x23, #0, ne
	cset	w8, ls
	b	.LBB143_23
.Lfunc_end143:
	.size	"ct_monitor::fitting::fits_together", .Lfunc_end143-"ct_monitor::fitting::fits_together"
	.section	.rodata.cst16,"aM",@progbits,16
	.p2align	4, 0x0
.LCPI144_0:
	.byte	1
	.byte	2
	.byte	4
	.byte	8
	.byte	16
	.byte	32
	.byte	64
	.byte	128
	.byte	1
	.byte	2
	.byte	4
	.byte	8
	.byte	16
	.byte	32
	.byte	64
	.byte	128
	.section	".text.ct_monitor::fitting::are_same","ax",@progbits
	.p2align	2
	.type	"ct_monitor::fitting::are_same",@function
"ct_monitor::fitting::are_same":
	cmp	x1, x3
	b.ne	.LBB144_13
	stp	x29, x30, [sp, #-48]!
	stp	x20, x19, [sp, #32]
	mov	x19, x1
	cmp	x1, #4
	stp	x22, x21, [sp, #16]
	mov	x29, sp
	b.lo	.LBB144_14
	mov	x8, xzr
	and	x22, x19, #0xfffffffffffffffc
	add	x9, x0, #64
	add	x10, x2, #64
	mov	w11, #4
	mov	x12, x19
	b	.LBB144_6
.LBB144_3:
	orr	x13, x8, #0x1
.LBB144_4:
	cmp	x13, x11
	b.lo	.LBB144_22
.LBB144_5:
	sub	x12, x12, #4
	add	x11, x11, #4
	add	x9, x9, #128
	cmp	x12, #3
	add	x10, x10, #128
	add	x8, x8, #4
	b.ls	.LBB144_15
.LBB144_6:
	cbz	x11, .LBB144_5
	ldp	q0, q1, [x9, #-64]
	adrp	x13, .LCPI144_0
	ldp	q2, q3, [x10, #-64]
	cmeq	v1.16b, v1.16b, v3.16b
	cmeq	v2.16b, v0.16b, v2.16b
	ldr	q0, [x13, :lo12:.LCPI144_0]
	bic	v1.16b, v0.16b, v1.16b
	bic	v2.16b, v0.16b, v2.16b
	ext	v3.16b, v1.16b, v1.16b, #8
	ext	v4.16b, v2.16b, v2.16b, #8
	zip1	v1.16b, v1.16b, v3.16b
	zip1	v2.16b, v2.16b, v4.16b
	addv	h1, v1.8h
	addv	h2, v2.8h
	fmov	w13, s1
	fmov	w14, s2
	orr	w13, w14, w13
	tst	w13, #0xffff
	mov	x13, x8
	b.ne	.LBB144_4
	ldp	q1, q2, [x9, #-32]
	ldp	q3, q4, [x10, #-32]
	cmeq	v2.16b, v2.16b, v4.16b
	cmeq	v1.16b, v1.16b, v3.16b
	bic	v2.16b, v0.16b, v2.16b
	bic	v1.16b, v0.16b, v1.16b
	ext	v3.16b, v2.16b, v2.16b, #8
	ext	v4.16b, v1.16b, v1.16b, #8
	zip1	v2.16b, v2.16b, v3.16b
	zip1	v1.16b, v1.16b, v4.16b
	addv	h2, v2.8h
	addv	h1, v1.8h
	fmov	w13, s2
	fmov	w14, s1
	orr	w13, w14, w13
	tst	w13, #0xffff
	b.ne	.LBB144_3
	ldp	q1, q2, [x9]
	ldp	q3, q4, [x10]
	cmeq	v2.16b, v2.16b, v4.16b
	cmeq	v1.16b, v1.16b, v3.16b
	bic	v2.16b, v0.16b, v2.16b
	bic	v1.16b, v0.16b, v1.16b
	ext	v3.16b, v2.16b, v2.16b, #8
	ext	v4.16b, v1.16b, v1.16b, #8
	zip1	v2.16b, v2.16b, v3.16b
	zip1	v1.16b, v1.16b, v4.16b
	addv	h2, v2.8h
	addv	h1, v1.8h
	fmov	w13, s2
	fmov	w14, s1
	orr	w13, w14, w13
	tst	w13, #0xffff
	b.eq	.LBB144_11
	orr	x13, x8, #0x2
	b	.LBB144_4
.LBB144_11:
	ldp	q1, q2, [x9, #32]
	ldp	q3, q4, [x10, #32]
	cmeq	v2.16b, v2.16b, v4.16b
	cmeq	v1.16b, v1.16b, v3.16b
	bic	v2.16b, v0.16b, v2.16b
	bic	v0.16b, v0.16b, v1.16b
	ext	v1.16b, v2.16b, v2.16b, #8
	ext	v3.16b, v0.16b, v0.16b, #8
	zip1	v1.16b, v2.16b, v1.16b
	zip1	v0.16b, v0.16b, v3.16b
	addv	h1, v1.8h
	addv	h0, v0.8h
	fmov	w13, s1
	fmov	w14, s0
	orr	w13, w14, w13
	tst	w13, #0xffff
	b.eq	.LBB144_5
	sub	x13, x11, #1
	b	.LBB144_4
.LBB144_13:
	mov	w0, wzr
	ret
.LBB144_14:
	mov	x22, xzr
.LBB144_15:
	cmp	x22, x19
	b.hs	.LBB144_21
	lsl	x8, x22, #5
	add	x20, x2, x8
	add	x21, x0, x8
.LBB144_17:
	mov	x0, x21
	mov	x1, x20
	bl	"core::cmp::arrays::ArrayPartialEq::eq::<i8,=32,31'core::cmp::numbers::U8PartialEq{}>"
	cbz	w0, .LBB144_20
	add	x22, x22, #1
	add	x20, x20, #32
	add	x21, x21, #32
	cmp	x19, x22
	b.ne	.LBB144_17
	mov	x22, x19
.LBB144_20:
	cmp	x22, x19
	cset	w0, hs
	ldp	x20, x19, [sp, #32]
	ldp	x22, x21, [sp, #16]
	ldp	x29, x30, [sp], #48
	ret
.LBB144_21:
	mov	w0, #1
	ldp	x20, x19, [sp, #32]
	ldp	x22, x21, [sp, #16]
	ldp	x29, x30, [sp], #48
	ret
.LBB144_22:
	mov	w0, wzr
	ldp	x20, x19, [sp, #32]
	ldp	x22, x21, [sp, #16]
	ldp	x29, x30, [sp], #48
	ret
.Lfunc_end144:
	.size	"ct_monitor::fitting::are_same", .Lfunc_end144-"ct_monitor::fitting::are_same"
	.section	".text.ct_monitor::peaks::Peaks::copied::<#731e1d2bba769a9a>","ax",@progbits
	.p2align	2
	.type	"ct_monitor::peaks::Peaks::copied::<#731e1d2bba769a9a>",@function
"ct_monitor::peaks::Peaks::copied::<#731e1d2bba769a9a>":
	sub	sp, sp, #96
	stp	x22, x21, [sp, #64]
	ldr	x22, [x1, #16]
	stp	x20, x19, [sp, #80]
	mov	x20, x1
	mov	x19, x0
	stp	x29, x30, [sp, #32]
	add	x29, sp, #32
	str	x23, [sp, #48]
	stp	xzr, xzr, [sp, #8]
	str	xzr, [sp, #24]
	cbz	x22, .LBB145_5
	lsr	x8, x22, #58
	cbnz	x8, .LBB145_15
	lsl	x0, x22, #5
	mov	w1, #1
	bl	rattle_alloc
	tbz	w0, #0, .LBB145_15
	mov	x8, x1
	stp	x1, xzr, [sp, #8]
	ldp	x1, x21, [x20, #8]
	str	x22, [sp, #24]
	cmp	x21, x22
	b.hi	.LBB145_11
	mov	x9, xzr
	b	.LBB145_6
.LBB145_5:
	add	x8, x29, #31
	ldr	x1, [x20, #8]
	mov	x21, xzr
	mov	x9, xzr
	str	x8, [sp, #8]
.LBB145_6:
	add	x0, x8, x9, lsl #5
	lsl	x2, x21, #5
	add	x23, x9, x21
	str	xzr, [sp, #24]
	sub	x8, x0, x1
	cmp	x8, x2
	b.hs	.LBB145_9
	cbz	x21, .LBB145_10
.LBB145_8:
	ldp	q1, q0, [x1], #32
	subs	x21, x21, #1
	stp	q1, q0, [x0], #32
	b.ne	.LBB145_8
	b	.LBB145_10
.LBB145_9:
	bl	memmove
.LBB145_10:
	stp	x23, x22, [sp, #16]
	ldr	x8, [x20]
	ldur	q0, [sp, #8]
	strb	wzr, [x19]
	str	x8, [x19, #8]
	str	x22, [x19, #32]
	str	q0, [x19, #16]
	ldp	x20, x19, [sp, #80]
	ldr	x23, [sp, #48]
	ldp	x22, x21, [sp, #64]
	ldp	x29, x30, [sp, #32]
	add	sp, sp, #96
	ret
.LBB145_11:
	mov	x23, x1
	add	x0, sp, #8
	mov	x1, x21
	bl	"std_alloc::vec::Vec::grow_amortized::<#f34347d6536e7913>"
	cbz	w0, .LBB145_13
	ldp	x9, x22, [sp, #16]
	mov	x1, x23
	ldr	x8, [sp, #8]
	b	.LBB145_6
.LBB145_13:
	ldr	x8, [sp, #24]
	cbz	x8, .LBB145_15
	ldr	x0, [sp, #8]
	bl	rattle_dealloc
.LBB145_15:
	movi	v0.2d, #0000000000000000
	mov	w8, #1
	strb	w8, [x19]
	stur	q0, [x19, #8]
	stur	q0, [x19, #24]
	ldp	x20, x19, [sp, #80]
	ldr	x23, [sp, #48]
	ldp	x22, x21, [sp, #64]
	ldp	x29, x30, [sp, #32]
	add	sp, sp, #96
	ret
.Lfunc_end145:
	.size	"ct_monitor::peaks::Peaks::copied::<#731e1d2bba769a9a>", .Lfunc_end145-"ct_monitor::peaks::Peaks::copied::<#731e1d2bba769a9a>"
	.section	".text.ct_monitor::watcher::Watcher::settle::<#e78d81957da20adf>","ax",@progbits
	.p2align	2
	.type	"ct_monitor::watcher::Watcher::settle::<#e78d81957da20adf>",@function
"ct_monitor::watcher::Watcher::settle::<#e78d81957da20adf>":
	stp	x29, x30, [sp, #-96]!
	stp	x28, x27, [sp, #16]
	mov	x29, sp
	stp	x26, x25, [sp, #32]
	stp	x24, x23, [sp, #48]
	stp	x22, x21, [sp, #64]
	stp	x20, x19, [sp, #80]
	sub	sp, sp, #480
	ldrb	w8, [x2, #20]
	ldp	q0, q1, [x4]
	ldp	x24, x28, [x2]
	mov	x20, x1
	stur	w8, [x29, #-228]
	ldrb	w8, [x2, #21]
	ldrb	w9, [x2, #38]
	stur	q0, [x29, #-80]
	movi	v0.2d, #0000000000000000
	ldrb	w23, [x2, #16]
	stur	w8, [x29, #-232]
	ldrb	w8, [x2, #22]
	ldrb	w18, [x2, #17]
	ldrb	w27, [x2, #18]
	ldrb	w19, [x2, #19]
	str	w9, [sp, #180]
	stur	w8, [x29, #-236]
	ldrb	w8, [x2, #23]
	ldrb	w9, [x2, #39]
	ldrb	w14, [x2, #41]
	ldrb	w22, [x2, #42]
	ldrb	w12, [x2, #43]
	str	w8, [sp, #240]
	ldrb	w8, [x2, #24]
	ldrb	w26, [x2, #44]
	ldrb	w25, [x2, #45]
	ldrb	w5, [x2, #46]
	ldrb	w21, [x2, #47]
	str	w8, [sp, #236]
	ldrb	w8, [x2, #25]
	str	x0, [sp, #168]
	str	w8, [sp, #232]
	ldrb	w8, [x2, #26]
	stp	xzr, xzr, [x29, #-112]
	str	w8, [sp, #228]
	ldrb	w8, [x2, #27]
	stur	xzr, [x29, #-97]
	str	w8, [sp, #224]
	ldrb	w8, [x2, #28]
	stp	q0, q0, [x29, #-160]
	str	w8, [sp, #220]
	ldrb	w8, [x2, #29]
	stur	xzr, [x29, #-128]
	str	w8, [sp, #216]
	ldrb	w8, [x2, #30]
	stp	xzr, xzr, [x29, #-184]
	str	w8, [sp, #212]
	ldrb	w8, [x2, #31]
	str	w9, [sp, #176]
	str	w8, [sp, #208]
	ldrb	w8, [x2, #32]
	stur	xzr, [x29, #-169]
	str	w8, [sp, #204]
	ldrb	w8, [x2, #33]
	stp	q0, q0, [x29, #-224]
	str	w8, [sp, #200]
	ldrb	w8, [x2, #34]
	stur	xzr, [x29, #-192]
	str	w8, [sp, #196]
	ldrb	w8, [x2, #35]
	stur	q1, [x29, #-64]
	str	w8, [sp, #192]
	ldrb	w8, [x2, #36]
	str	w8, [sp, #188]
	ldrb	w8, [x2, #37]
	str	w8, [sp, #184]
	ldur	x8, [x29, #-80]
	cmp	x8, x24
	ldrb	w8, [x2, #40]
	str	w8, [sp, #164]
	b.ne	.LBB146_39
	ldp	x1, x2, [x29, #-72]
	sub	x0, x29, #48
	stp	w5, w14, [sp, #152]
	stp	w12, w22, [sp, #104]
	stp	x24, x28, [sp, #56]
	stp	w25, w26, [sp, #96]
	str	w21, [sp, #92]
	str	w18, [sp, #160]
	stp	w19, w27, [sp, #124]
	str	x3, [sp, #136]
	stp	q0, q0, [x29, #-48]
	str	x1, [sp, #80]
	bl	"ct_tree::subtrees::root_of_subtrees::<#0f46d2847b2ce1ce>"
	ldurb	w8, [x29, #-47]
	ldurb	w9, [x29, #-48]
	mov	w10, w23
	ldurb	w19, [x29, #-31]
	ldurb	w28, [x29, #-27]
	ldurb	w11, [x29, #-46]
	str	w8, [sp, #148]
	cmp	w23, w9
	ldurb	w8, [x29, #-32]
	ldurb	w12, [x29, #-45]
	ldurb	w16, [x29, #-44]
	ldurb	w14, [x29, #-43]
	str	w8, [sp, #120]
	ldurb	w8, [x29, #-28]
	ldurb	w13, [x29, #-42]
	ldurb	w17, [x29, #-41]
	ldurb	w18, [x29, #-40]
	ldurb	w4, [x29, #-39]
	ldurb	w0, [x29, #-38]
	ldurb	w5, [x29, #-37]
	ldurb	w1, [x29, #-36]
	ldurb	w3, [x29, #-35]
	ldurb	w2, [x29, #-34]
	ldurb	w6, [x29, #-33]
	ldurb	w30, [x29, #-30]
	ldurb	w7, [x29, #-29]
	stp	w28, w8, [sp, #112]
	ldurb	w28, [x29, #-26]
	ldurb	w24, [x29, #-25]
	ldurb	w22, [x29, #-24]
	ldurb	w21, [x29, #-23]
	ldurb	w27, [x29, #-22]
	ldurb	w26, [x29, #-21]
	ldurb	w25, [x29, #-20]
	ldurb	w23, [x29, #-19]
	ldurb	w8, [x29, #-18]
	stp	w9, w19, [sp, #72]
	ldurb	w9, [x29, #-17]
	str	w10, [sp, #132]
	b.ne	.LBB146_42
	ldr	w10, [sp, #160]
	ldr	w15, [sp, #148]
	cmp	w10, w15
	b.ne	.LBB146_42
	ldr	w10, [sp, #128]
	cmp	w10, w11
	b.ne	.LBB146_42
	ldr	w10, [sp, #124]
	cmp	w10, w12
	b.ne	.LBB146_42
	ldur	w10, [x29, #-228]
	cmp	w10, w16
	b.ne	.LBB146_42
	ldur	w10, [x29, #-232]
	cmp	w10, w14
	b.ne	.LBB146_42
	ldur	w10, [x29, #-236]
	cmp	w10, w13
	b.ne	.LBB146_42
	ldr	w10, [sp, #240]
	cmp	w10, w17
	b.ne	.LBB146_42
	ldr	w10, [sp, #236]
	cmp	w10, w18
	b.ne	.LBB146_42
	ldr	w10, [sp, #232]
	cmp	w10, w4
	b.ne	.LBB146_42
	ldr	w10, [sp, #228]
	cmp	w10, w0
	b.ne	.LBB146_42
	ldr	w10, [sp, #224]
	cmp	w10, w5
	b.ne	.LBB146_42
	ldr	w10, [sp, #220]
	cmp	w10, w1
	b.ne	.LBB146_42
	ldr	w10, [sp, #216]
	cmp	w10, w3
	b.ne	.LBB146_42
	ldr	w10, [sp, #212]
	cmp	w10, w2
	b.ne	.LBB146_42
	ldr	w10, [sp, #208]
	cmp	w10, w6
	b.ne	.LBB146_42
	ldr	w10, [sp, #204]
	ldr	w15, [sp, #120]
	cmp	w10, w15
	b.ne	.LBB146_42
	ldr	w10, [sp, #200]
	cmp	w10, w19
	b.ne	.LBB146_42
	ldr	w10, [sp, #196]
	cmp	w10, w30
	b.ne	.LBB146_42
	ldr	w10, [sp, #192]
	cmp	w10, w7
	b.ne	.LBB146_42
	ldr	w10, [sp, #188]
	ldr	w15, [sp, #116]
	cmp	w10, w15
	b.ne	.LBB146_42
	mov	w10, w9
	mov	w9, w8
	mov	w8, w23
	mov	w23, w25
	mov	w25, w26
	mov	w26, w27
	mov	w27, w21
	mov	w21, w22
	mov	w22, w24
	mov	w24, w28
	ldr	w28, [sp, #112]
	ldr	w15, [sp, #184]
	mov	w19, w30
	mov	w30, w7
	mov	w7, w6
	mov	w6, w2
	mov	w2, w3
	mov	w3, w5
	mov	w5, w1
	mov	w1, w0
	mov	w0, w4
	mov	w4, w18
	mov	w18, w17
	mov	w17, w13
	mov	w13, w14
	cmp	w15, w28
	mov	w14, w13
	mov	w13, w17
	mov	w17, w18
	mov	w18, w4
	mov	w4, w0
	mov	w0, w1
	mov	w1, w5
	mov	w5, w3
	mov	w3, w2
	mov	w2, w6
	mov	w6, w7
	mov	w7, w30
	mov	w30, w19
	mov	w28, w24
	mov	w24, w22
	mov	w22, w21
	mov	w21, w27
	mov	w27, w26
	mov	w26, w25
	mov	w25, w23
	mov	w23, w8
	mov	w8, w9
	mov	w9, w10
	b.ne	.LBB146_42
	ldr	w10, [sp, #180]
	cmp	w10, w28
	b.ne	.LBB146_42
	ldr	w10, [sp, #176]
	cmp	w10, w24
	b.ne	.LBB146_42
	ldr	w10, [sp, #164]
	cmp	w10, w22
	b.ne	.LBB146_42
	ldr	w10, [sp, #156]
	cmp	w10, w21
	b.ne	.LBB146_42
	ldr	w10, [sp, #108]
	cmp	w10, w27
	b.ne	.LBB146_42
	ldr	w10, [sp, #104]
	cmp	w10, w26
	b.ne	.LBB146_42
	ldr	w10, [sp, #100]
	cmp	w10, w25
	b.ne	.LBB146_42
	ldr	w10, [sp, #96]
	cmp	w10, w23
	b.ne	.LBB146_42
	ldr	w10, [sp, #152]
	cmp	w10, w8
	b.ne	.LBB146_42
	ldr	w10, [sp, #92]
	cmp	w10, w9
	b.ne	.LBB146_42
	sub	x0, x29, #160
	sub	x1, x29, #80
	bl	"ct_monitor::peaks::Peaks::copied::<#731e1d2bba769a9a>"
	ldurb	w8, [x29, #-160]
	cbnz	w8, .LBB146_43
	ldur	q0, [x29, #-152]
	ldr	x8, [x20, #152]
	ldur	q1, [x29, #-136]
	ldr	x0, [x20, #136]
	stp	q0, q1, [x20, #128]
	cbz	x8, .LBB146_36
	bl	rattle_dealloc
.LBB146_36:
	ldp	q0, q1, [x29, #-80]
	ldr	x8, [x20, #184]
	ldr	x0, [x20, #168]
	stp	q0, q1, [x20, #160]
	cbz	x8, .LBB146_38
	bl	rattle_dealloc
.LBB146_38:
	ldr	x9, [sp, #136]
	ldur	q0, [x29, #-184]
	mov	w8, wzr
	mov	w12, wzr
	mov	w13, wzr
	mov	w15, wzr
	str	x9, [x20, #112]
	mov	w9, #1
	mov	w16, wzr
	str	x9, [x20]
	ldr	x9, [sp, #56]
	mov	w17, wzr
	mov	w18, wzr
	mov	w0, wzr
	mov	w1, wzr
	str	x9, [x20, #8]
	mov	w2, wzr
	mov	w3, wzr
	stp	xzr, x9, [x20, #56]
	ldr	x9, [sp, #64]
	mov	w4, wzr
	mov	w5, wzr
	mov	w6, wzr
	mov	w7, wzr
	str	x9, [x20, #16]
	mov	w30, wzr
	mov	w10, wzr
	str	x9, [x20, #72]
	ldr	w9, [sp, #132]
	mov	w28, wzr
	mov	w24, wzr
	mov	w22, wzr
	mov	w21, wzr
	strb	w9, [x20, #24]
	mov	w27, wzr
	mov	w26, wzr
	strb	w9, [x20, #80]
	ldr	w9, [sp, #160]
	mov	w25, wzr
	mov	w23, wzr
	mov	w11, wzr
	str	xzr, [x20, #120]
	strb	w9, [x20, #25]
	strb	w9, [x20, #81]
	ldr	w9, [sp, #128]
	stur	q0, [x29, #-112]
	strb	w9, [x20, #26]
	strb	w9, [x20, #82]
	ldr	w9, [sp, #124]
	str	wzr, [sp, #148]
	strb	w9, [x20, #27]
	strb	w9, [x20, #83]
	ldur	w9, [x29, #-228]
	str	wzr, [sp, #44]
	strb	w9, [x20, #28]
	strb	w9, [x20, #84]
	ldur	w9, [x29, #-232]
	str	xzr, [sp, #48]
	strb	w9, [x20, #29]
	strb	w9, [x20, #85]
	ldur	w9, [x29, #-236]
	str	wzr, [sp, #80]
	strb	w9, [x20, #30]
	strb	w9, [x20, #86]
	ldr	w9, [sp, #240]
	strb	w9, [x20, #31]
	strb	w9, [x20, #87]
	ldr	w9, [sp, #236]
	strb	w9, [x20, #32]
	strb	w9, [x20, #88]
	ldr	w9, [sp, #232]
	strb	w9, [x20, #33]
	strb	w9, [x20, #89]
	ldr	w9, [sp, #228]
	strb	w9, [x20, #34]
	strb	w9, [x20, #90]
	ldr	w9, [sp, #224]
	strb	w9, [x20, #35]
	strb	w9, [x20, #91]
	ldr	w9, [sp, #220]
	strb	w9, [x20, #36]
	strb	w9, [x20, #92]
	ldr	w9, [sp, #216]
	strb	w9, [x20, #37]
	strb	w9, [x20, #93]
	ldr	w9, [sp, #212]
	strb	w9, [x20, #38]
	strb	w9, [x20, #94]
	ldr	w9, [sp, #208]
	strb	w9, [x20, #39]
	strb	w9, [x20, #95]
	ldr	w9, [sp, #204]
	strb	w9, [x20, #40]
	strb	w9, [x20, #96]
	ldr	w9, [sp, #200]
	strb	w9, [x20, #41]
	strb	w9, [x20, #97]
	ldr	w9, [sp, #196]
	strb	w9, [x20, #42]
	strb	w9, [x20, #98]
	ldr	w9, [sp, #192]
	strb	w9, [x20, #43]
	strb	w9, [x20, #99]
	ldr	w9, [sp, #188]
	strb	w9, [x20, #44]
	strb	w9, [x20, #100]
	ldr	w9, [sp, #184]
	strb	w9, [x20, #45]
	strb	w9, [x20, #101]
	ldr	w9, [sp, #180]
	strb	w9, [x20, #46]
	strb	w9, [x20, #102]
	ldr	w9, [sp, #176]
	strb	w9, [x20, #47]
	strb	w9, [x20, #103]
	ldr	w9, [sp, #164]
	strb	w9, [x20, #48]
	strb	w9, [x20, #104]
	ldr	w9, [sp, #156]
	strb	w9, [x20, #49]
	strb	w9, [x20, #105]
	ldr	w9, [sp, #108]
	strb	w9, [x20, #50]
	strb	w9, [x20, #106]
	ldr	w9, [sp, #104]
	strb	w9, [x20, #51]
	strb	w9, [x20, #107]
	ldr	w9, [sp, #100]
	strb	w9, [x20, #52]
	strb	w9, [x20, #108]
	ldr	w9, [sp, #96]
	strb	w9, [x20, #53]
	strb	w9, [x20, #109]
	ldr	w9, [sp, #152]
	strb	w9, [x20, #54]
	strb	w9, [x20, #110]
	ldr	w9, [sp, #92]
	strb	w9, [x20, #55]
	strb	w9, [x20, #111]
	ldur	x9, [x29, #-169]
	mov	w20, wzr
	stur	x9, [x29, #-97]
	mov	w9, wzr
	b	.LBB146_53
.LBB146_39:
	ldp	q0, q1, [x4]
	ldr	x8, [x20, #184]
	ldr	x0, [x20, #168]
	stp	q0, q1, [x20, #160]
	cbz	x8, .LBB146_41
	str	x3, [sp, #136]
	str	w23, [sp, #132]
	mov	w23, w12
	stp	w14, w18, [sp, #156]
	str	w5, [sp, #152]
	bl	rattle_dealloc
	ldp	w5, w14, [sp, #152]
	ldr	w18, [sp, #160]
	mov	w12, w23
	ldr	w23, [sp, #132]
	ldr	x3, [sp, #136]
.LBB146_41:
	ldp	w11, w15, [x29, #-232]
	movi	v0.2d, #0000000000000000
	ldr	x9, [sp, #168]
	mov	w8, #1
	stp	x24, x28, [x20, #64]
	strb	w11, [x20, #85]
	ldur	w11, [x29, #-236]
	strb	w23, [x20, #80]
	strb	w11, [x20, #86]
	ldr	w11, [sp, #240]
	strb	w18, [x20, #81]
	strb	w11, [x20, #87]
	ldr	w11, [sp, #236]
	strb	w27, [x20, #82]
	strb	w11, [x20, #88]
	ldr	w11, [sp, #232]
	strb	w19, [x20, #83]
	strb	w11, [x20, #89]
	ldr	w11, [sp, #228]
	strb	w15, [x20, #84]
	strb	w11, [x20, #90]
	ldr	w11, [sp, #224]
	str	x8, [x20, #56]
	strb	w11, [x20, #91]
	ldr	w11, [sp, #220]
	strb	w14, [x20, #105]
	strb	w11, [x20, #92]
	ldr	w11, [sp, #216]
	strb	w22, [x20, #106]
	strb	w11, [x20, #93]
	ldr	w11, [sp, #212]
	strb	w12, [x20, #107]
	strb	w11, [x20, #94]
	ldr	w11, [sp, #208]
	strb	w26, [x20, #108]
	strb	w11, [x20, #95]
	ldr	w11, [sp, #204]
	strb	w25, [x20, #109]
	strb	w11, [x20, #96]
	ldr	w11, [sp, #200]
	strb	w5, [x20, #110]
	strb	w11, [x20, #97]
	ldr	w11, [sp, #196]
	strb	w21, [x20, #111]
	strb	w11, [x20, #98]
	ldr	w11, [sp, #192]
	str	x3, [x20, #120]
	strb	w11, [x20, #99]
	ldr	w11, [sp, #188]
	strb	w11, [x20, #100]
	ldr	w11, [sp, #184]
	strb	w11, [x20, #101]
	ldr	w11, [sp, #180]
	strb	w11, [x20, #102]
	ldr	w11, [sp, #176]
	strb	w11, [x20, #103]
	ldr	w11, [sp, #164]
	strb	w11, [x20, #104]
	strb	wzr, [x9]
	strb	w8, [x9, #8]
	stur	q0, [x9, #9]
	stur	q0, [x9, #25]
	stur	q0, [x9, #41]
	b	.LBB146_46
.LBB146_42:
	str	w1, [sp, #240]
	add	x1, x20, #128
	stp	w5, w0, [x29, #-236]
	sub	x0, x29, #224
	stp	w9, w7, [sp, #48]
	stp	w8, w23, [sp, #8]
	mov	w23, w12
	stp	w25, w26, [sp, #16]
	mov	w26, w13
	mov	w25, w14
	stp	w27, w21, [sp, #24]
	mov	w27, w17
	stp	w22, w24, [sp, #32]
	mov	w24, w16
	mov	w22, w11
	str	w28, [sp, #40]
	mov	w28, w18
	stp	w30, w6, [sp, #224]
	stp	w2, w3, [sp, #232]
	stur	w4, [x29, #-228]
	bl	"ct_monitor::peaks::Peaks::copied::<#731e1d2bba769a9a>"
	ldurb	w8, [x29, #-224]
	cbz	w8, .LBB146_48
.LBB146_43:
	ldur	x8, [x29, #-56]
	cbz	x8, .LBB146_45
	ldr	x0, [sp, #80]
	bl	rattle_dealloc
.LBB146_45:
	movi	v0.2d, #0000000000000000
	ldr	x9, [sp, #168]
	mov	w8, #1
	strb	w8, [x9]
	stur	q0, [x9, #8]
	stur	q0, [x9, #24]
	stur	q0, [x9, #40]
.LBB146_46:
	str	xzr, [x9, #56]
.LBB146_47:
	add	sp, sp, #480
	ldp	x20, x19, [sp, #80]
	ldp	x22, x21, [sp, #64]
	ldp	x24, x23, [sp, #48]
	ldp	x26, x25, [sp, #32]
	ldp	x28, x27, [sp, #16]
	ldp	x29, x30, [sp], #96
	ret
.LBB146_48:
	ldur	q0, [x29, #-216]
	ldr	x8, [x20, #184]
	ldur	q1, [x29, #-200]
	ldr	x0, [x20, #168]
	stp	q0, q1, [x20, #160]
	cbz	x8, .LBB146_50
	bl	rattle_dealloc
.LBB146_50:
	movi	v0.2d, #0000000000000000
	ldur	x8, [x29, #-56]
	str	xzr, [x20, #120]
	str	xzr, [x20, #104]
	stp	xzr, xzr, [x29, #-112]
	stur	xzr, [x29, #-97]
	stur	q0, [x20, #56]
	stur	q0, [x20, #72]
	stur	q0, [x20, #88]
	str	w25, [sp, #44]
	cbz	x8, .LBB146_52
	ldr	x0, [sp, #80]
	bl	rattle_dealloc
.LBB146_52:
	mov	w8, #7
	mov	w9, w22
	mov	w12, w23
	str	w8, [sp, #80]
	mov	w13, w24
	mov	w15, w26
	mov	w16, w27
	mov	w17, w28
	ldur	w1, [x29, #-236]
	ldp	w0, w18, [x29, #-232]
	ldp	w3, w2, [sp, #236]
	ldp	w5, w4, [sp, #228]
	ldp	w10, w6, [sp, #116]
	ldp	w8, w7, [sp, #72]
	ldp	w24, w28, [sp, #36]
	ldp	w21, w22, [sp, #28]
	ldp	w26, w27, [sp, #20]
	ldp	w23, w25, [sp, #12]
	ldr	w30, [sp, #224]
	ldr	w20, [sp, #112]
	ldr	w11, [sp, #8]
.LBB146_53:
	ldr	x19, [sp, #168]
	ldr	w14, [sp, #80]
	ldur	q0, [x29, #-112]
	strb	w8, [x19, #9]
	ldr	w8, [sp, #148]
	strb	w14, [x19, #8]
	strb	w8, [x19, #10]
	ldr	w8, [sp, #44]
	strb	wzr, [x19]
	strb	w8, [x19, #14]
	ldr	w8, [sp, #52]
	strb	w9, [x19, #11]
	strb	w8, [x19, #28]
	ldr	w8, [sp, #48]
	strb	w12, [x19, #12]
	strb	w8, [x19, #40]
	ldur	x8, [x29, #-97]
	strb	w13, [x19, #13]
	strb	w15, [x19, #15]
	strb	w16, [x19, #16]
	strb	w17, [x19, #17]
	strb	w18, [x19, #18]
	strb	w0, [x19, #19]
	strb	w1, [x19, #20]
	strb	w2, [x19, #21]
	strb	w3, [x19, #22]
	strb	w4, [x19, #23]
	strb	w5, [x19, #24]
	strb	w6, [x19, #25]
	strb	w7, [x19, #26]
	strb	w30, [x19, #27]
	strb	w10, [x19, #29]
	strb	w20, [x19, #30]
	strb	w28, [x19, #31]
	strb	w24, [x19, #32]
	strb	w22, [x19, #33]
	strb	w21, [x19, #34]
	strb	w27, [x19, #35]
	strb	w26, [x19, #36]
	strb	w25, [x19, #37]
	strb	w23, [x19, #38]
	strb	w11, [x19, #39]
	stur	q0, [x19, #41]
	str	x8, [x19, #56]
	b	.LBB146_47
.Lfunc_end146:
	.size	"ct_monitor::watcher::Watcher::settle::<#e78d81957da20adf>", .Lfunc_end146-"ct_monitor::watcher::Watcher::settle::<#e78d81957da20adf>"
	.section	".text.ct_monitor::calls::answer_after","ax",@progbits
	.p2align	2
	.type	"ct_monitor::calls::answer_after",@function
"ct_monitor::calls::answer_after":
	stp	x29, x30, [sp, #-80]!
	str	x28, [sp, #16]
	mov	x29, sp
	stp	x24, x23, [sp, #32]
	stp	x22, x21, [sp, #48]
	stp	x20, x19, [sp, #64]
	sub	sp, sp, #672
	ldur	q1, [x3, #17]
	add	x24, sp, #120
	ldur	q0, [x3, #1]
	ldrb	w23, [x3]
	ldr	x8, [x3, #48]
	mov	x19, x0
	stur	q1, [x24, #17]
	movi	v1.2d, #0000000000000000
	mov	x0, x4
	stur	q0, [sp, #121]
	ldur	q0, [x3, #33]
	mov	x22, x4
	mov	x20, x2
	mov	x21, x1
	strb	w23, [sp, #120]
	stur	q0, [x24, #33]
	str	x8, [sp, #168]
	stp	q1, q1, [sp]
	stp	q1, q1, [sp, #32]
	stp	q1, q1, [sp, #64]
	str	q1, [sp, #96]
	bl	"ct_monitor::fitting::fits_together"
	tbnz	w0, #0, .LBB147_9
	orr	x8, x24, #0x1
	sub	x9, x29, #56
	add	x0, sp, #400
	ldp	q0, q1, [x8]
	mov	x1, x21
	mov	x2, x20
	sturb	w23, [x29, #-56]
	stur	q0, [x9, #1]
	ldr	q0, [x8, #32]
	ldur	x8, [x8, #47]
	stur	q1, [x9, #17]
	stur	q0, [x9, #33]
	movi	v0.2d, #0000000000000000
	stur	x8, [x29, #-8]
	stp	q0, q0, [sp, #304]
	stp	q0, q0, [sp, #336]
	stp	q0, q0, [sp, #368]
	stp	q0, q0, [sp, #400]
	stp	q0, q0, [sp, #432]
	stp	q0, q0, [sp, #464]
	stp	q0, q0, [sp, #496]
	stp	q0, q0, [sp, #528]
	stp	q0, q0, [sp, #560]
	str	q0, [sp, #592]
	str	q0, [sp, #288]
	bl	"ct_monitor::reading::read_state"
	ldrb	w8, [sp, #400]
	cbz	w8, .LBB147_3
.LBB147_2:
	movi	v0.2d, #0000000000000000
	mov	x8, xzr
	mov	w9, #1
	b	.LBB147_5
.LBB147_3:
	ldrb	w8, [sp, #408]
	cmp	w8, #1
	b.eq	.LBB147_12
	movi	v0.2d, #0000000000000000
	mov	w9, wzr
	mov	x8, xzr
.LBB147_5:
	str	xzr, [sp, #272]
	stp	q0, q0, [sp, #208]
	stp	q0, q0, [sp, #240]
	stp	q0, q0, [sp, #176]
.LBB147_6:
	ldp	q0, q1, [sp, #240]
	str	x8, [x19, #8]
	ldr	x8, [sp, #272]
	strb	w9, [x19]
	stp	q0, q1, [x19, #80]
	ldp	q0, q1, [sp, #176]
	str	x8, [x19, #112]
	stp	q0, q1, [x19, #16]
	ldp	q0, q2, [sp, #208]
.LBB147_7:
	stp	q0, q2, [x19, #48]
.LBB147_8:
	add	sp, sp, #672
	ldp	x20, x19, [sp, #64]
	ldr	x28, [sp, #16]
	ldp	x22, x21, [sp, #48]
	ldp	x24, x23, [sp, #32]
	ldp	x29, x30, [sp], #80
	ret
.LBB147_9:
	mov	x0, sp
	add	x1, sp, #120
	mov	x2, x22
	bl	"ct_monitor::calls::answer_of"
	ldrb	w8, [sp]
	cbz	w8, .LBB147_11
	movi	v0.2d, #0000000000000000
	mov	w8, #1
	strb	w8, [x19]
	stur	q0, [x19, #8]
	stur	q0, [x19, #24]
	stur	q0, [x19, #40]
	stur	q0, [x19, #56]
	stur	q0, [x19, #72]
	stur	q0, [x19, #88]
	stur	q0, [x19, #104]
	b	.LBB147_8
.LBB147_11:
	ldur	q0, [sp, #72]
	ldur	q1, [sp, #88]
	mov	w8, #1
	str	x8, [x19, #8]
	ldr	x8, [sp, #104]
	ldur	q2, [sp, #56]
	stp	q0, q1, [x19, #80]
	ldur	q0, [sp, #8]
	ldur	q1, [sp, #24]
	strb	wzr, [x19]
	stp	q0, q1, [x19, #16]
	ldur	q0, [sp, #40]
	str	x8, [x19, #112]
	b	.LBB147_7
.LBB147_12:
	add	x8, sp, #400
	ldr	x21, [sp, #552]
	ldr	x23, [sp, #568]
	ldr	x20, [sp, #584]
	ldr	x22, [sp, #600]
	add	x0, sp, #288
	sub	x1, x29, #56
	add	x2, x8, #16
	add	x24, sp, #288
	bl	"ct_monitor::calls::answer_of"
	ldrb	w8, [sp, #288]
	cbz	w8, .LBB147_17
	cbz	x23, .LBB147_15
	mov	x0, x21
	bl	rattle_dealloc
.LBB147_15:
	cbz	x22, .LBB147_2
	mov	x0, x20
	bl	rattle_dealloc
	b	.LBB147_2
.LBB147_17:
	cbz	x23, .LBB147_19
	mov	x0, x21
	bl	rattle_dealloc
.LBB147_19:
	orr	x21, x24, #0x8
	cbz	x22, .LBB147_21
	mov	x0, x20
	bl	rattle_dealloc
.LBB147_21:
	ldp	q0, q1, [x21, #48]
	mov	w9, wzr
	ldr	q2, [x21, #80]
	ldr	x8, [x21, #96]
	stp	q0, q1, [sp, #224]
	ldp	q1, q3, [x21, #16]
	ldr	q0, [x21]
	str	q2, [sp, #256]
	str	x8, [sp, #272]
	mov	w8, #1
	stp	q0, q1, [sp, #176]
	str	q3, [sp, #208]
	b	.LBB147_6
.Lfunc_end147:
	.size	"ct_monitor::calls::answer_after", .Lfunc_end147-"ct_monitor::calls::answer_after"
	.section	".text.unlikely.ct_monitor::calls::answer_of","ax",@progbits
	.p2align	2
	.type	"ct_monitor::calls::answer_of",@function
"ct_monitor::calls::answer_of":
	sub	sp, sp, #144
	movi	v3.2d, #0000000000000000
	ldur	q0, [x1, #1]
	ldur	q1, [x1, #17]
	ldur	q2, [x1, #33]
	ldr	x8, [x1, #48]
	str	x21, [sp, #112]
	stp	x20, x19, [sp, #128]
	mov	x19, x0
	mov	x0, sp
	ldrb	w21, [x1]
	mov	x1, x2
	stp	x29, x30, [sp, #96]
	add	x29, sp, #96
	mov	x20, x2
	str	q2, [sp, #64]
	stur	x8, [sp, #79]
	stp	q3, q3, [sp]
	stp	q0, q1, [sp, #32]
	bl	"ct_monitor::writing::write_state"
	ldrb	w8, [sp]
	cbz	w8, .LBB148_2
	movi	v0.2d, #0000000000000000
	mov	w21, wzr
	mov	x8, xzr
	mov	x10, xzr
	mov	x11, xzr
	str	xzr, [x19, #56]
	stp	xzr, xzr, [x19, #88]
	mov	w9, #1
	str	xzr, [x19, #104]
	stur	q0, [x19, #41]
	stur	q0, [x19, #25]
	stur	q0, [x19, #9]
	b	.LBB148_3
.LBB148_2:
	ldrb	w10, [x20, #56]
	ldp	q0, q1, [sp, #32]
	mov	w11, #160
	ldr	x8, [x20, #128]
	mov	w9, wzr
	cmp	w10, #1
	mov	w10, #64
	ldur	x12, [sp, #79]
	csel	x11, x10, x11, eq
	ldr	x10, [x20, #160]
	ldr	x11, [x20, x11]
	stur	q0, [x19, #9]
	ldr	q0, [sp, #64]
	stur	q1, [x19, #25]
	stur	q0, [x19, #41]
	ldur	q0, [sp, #8]
	str	x12, [x19, #56]
	ldr	x12, [sp, #24]
	stur	q0, [x19, #88]
	str	x12, [x19, #104]
.LBB148_3:
	strb	w9, [x19]
	ldp	x29, x30, [sp, #96]
	strb	w21, [x19, #8]
	ldr	x21, [sp, #112]
	stp	x8, x10, [x19, #64]
	str	x11, [x19, #80]
	ldp	x20, x19, [sp, #128]
	add	sp, sp, #144
	ret
.Lfunc_end148:
	.size	"ct_monitor::calls::answer_of", .Lfunc_end148-"ct_monitor::calls::answer_of"
	.section	".text.libwagtenib::monitor::give","ax",@progbits
	.p2align	2
	.type	"libwagtenib::monitor::give",@function
"libwagtenib::monitor::give":
	sub	sp, sp, #112
	stp	x20, x19, [sp, #96]
	ldp	x8, x19, [x0, #80]
	stp	x29, x30, [sp, #64]
	add	x29, sp, #64
	stp	x22, x21, [sp, #80]
	cmp	x3, x19
	str	x19, [x4]
	b.hs	.LBB149_4
	mov	w8, #9
	cmp	x3, x19
	b.lo	.LBB149_27
.LBB149_2:
	ldrb	w10, [x0]
	ldr	x9, [x0, #72]
	ldur	q0, [x0, #8]
	cmp	w10, #4
	b.gt	.LBB149_10
	cmp	w10, #3
	b.lo	.LBB149_11
	b	.LBB149_14
.LBB149_4:
	sub	x10, x2, x8
	cmp	x10, x19
	b.hs	.LBB149_9
	cmp	x19, #8
	mov	x9, xzr
	b.lo	.LBB149_24
	cmp	x10, #32
	b.lo	.LBB149_24
	cmp	x19, #32
	b.hs	.LBB149_17
	mov	x9, xzr
	b	.LBB149_21
.LBB149_9:
	mov	x20, x0
	mov	x0, x2
	mov	x21, x1
	mov	x1, x8
	mov	x2, x19
	mov	x22, x3
	bl	memmove
	mov	x3, x22
	mov	x0, x20
	mov	x1, x21
	b	.LBB149_26
.LBB149_10:
	sub	w11, w10, #7
	cmp	w11, #4
	b.hs	.LBB149_13
.LBB149_11:
	movi	v0.2d, #0000000000000000
	cmp	w10, #7
	stp	q0, q0, [sp]
	b.ne	.LBB149_15
	ldur	q1, [x0, #1]
	ldur	q2, [x0, #17]
	stp	q1, q2, [sp, #32]
	b	.LBB149_16
.LBB149_13:
	cmp	w10, #5
.LBB149_14:
	ldur	q1, [x0, #24]
	ldur	q2, [x0, #40]
	stp	q1, q2, [sp]
.LBB149_15:
	movi	v1.2d, #0000000000000000
	stp	q1, q1, [sp, #32]
.LBB149_16:
	ldurb	w12, [x0, #1]
	ldur	q1, [x0, #56]
	cmp	w10, #10
	orr	w11, w10, #0x80
	csinc	w10, wzr, w12, ne
	b	.LBB149_28
.LBB149_17:
	and	x10, x19, #0x18
	and	x9, x19, #0xffffffffffffffe0
	add	x11, x8, #16
	add	x12, x2, #16
	and	x13, x19, #0xffffffffffffffe0
.LBB149_18:
	ldp	q0, q1, [x11, #-16]
	subs	x13, x13, #32
	add	x11, x11, #32
	stp	q0, q1, [x12, #-16]
	add	x12, x12, #32
	b.ne	.LBB149_18
	cmp	x19, x9
	b.eq	.LBB149_26
	cbz	x10, .LBB149_24
.LBB149_21:
	mov	x12, x9
	and	x9, x19, #0xfffffffffffffff8
	sub	x10, x12, x9
	add	x11, x8, x12
	add	x12, x2, x12
.LBB149_22:
	ldr	d0, [x11], #8
	adds	x10, x10, #8
	str	d0, [x12], #8
	b.ne	.LBB149_22
	cmp	x19, x9
	b.eq	.LBB149_26
.LBB149_24:
	sub	x10, x19, x9
	add	x8, x8, x9
	add	x9, x2, x9
.LBB149_25:
	ldrb	w11, [x8], #1
	subs	x10, x10, #1
	strb	w11, [x9], #1
	b.ne	.LBB149_25
.LBB149_26:
	mov	w8, wzr
	cmp	x3, x19
	b.hs	.LBB149_2
.LBB149_27:
	ldur	q0, [x1, #40]
	ldur	q1, [x1, #56]
	ldur	q2, [x1, #72]
	ldp	w11, w10, [x1, #104]
	stp	q0, q1, [sp]
	ldur	q0, [x1, #24]
	ldur	q3, [x1, #88]
	ldr	x9, [x1, #16]
	ldr	q1, [x1]
	stp	q2, q3, [sp, #32]
.LBB149_28:
	str	q1, [x1]
	ldp	x20, x19, [sp, #96]
	stur	q0, [x1, #24]
	mov	w0, w8
	ldp	q1, q0, [sp]
	str	x9, [x1, #16]
	ldp	x22, x21, [sp, #80]
	stp	w11, w10, [x1, #104]
	ldp	x29, x30, [sp, #64]
	stur	q1, [x1, #40]
	stur	q0, [x1, #56]
	ldp	q1, q0, [sp, #32]
	stur	q1, [x1, #72]
	stur	q0, [x1, #88]
	add	sp, sp, #112
	ret
.Lfunc_end149:
	.size	"libwagtenib::monitor::give", .Lfunc_end149-"libwagtenib::monitor::give"
	.section	.text.wagtenib_batch_name,"ax",@progbits
	.globl	wagtenib_batch_name
	.p2align	2
	.type	wagtenib_batch_name,@function
wagtenib_batch_name:
	sub	sp, sp, #48
	ldr	q0, [x0]
	ldr	x8, [x0, #16]
	mov	x0, sp
	stp	x29, x30, [sp, #32]
	add	x29, sp, #32
	str	q0, [sp]
	str	x8, [sp, #16]
	bl	"ct_node::lock_writing::write_name"
	ldp	x29, x30, [sp, #32]
	add	sp, sp, #48
	ret
.Lfunc_end150:
	.size	wagtenib_batch_name, .Lfunc_end150-wagtenib_batch_name
	.section	.text.wagtenib_batch_state,"ax",@progbits
	.globl	wagtenib_batch_state
	.p2align	2
	.type	wagtenib_batch_state,@function
wagtenib_batch_state:
	sub	sp, sp, #160
	mov	w8, #4096
	cmp	x0, #0
	stp	x24, x23, [sp, #112]
	csel	x23, x8, xzr, eq
	cmp	x1, #56
	stp	x29, x30, [sp, #96]
	stp	x22, x21, [sp, #128]
	add	x29, sp, #96
	stp	x20, x19, [sp, #144]
	b.ne	.LBB151_7
	mov	x20, x0
	add	x0, x0, x23
	mov	w1, #8
	mov	x19, x2
	bl	"ct_node::lock_reading::number_in"
	tbz	w0, #0, .LBB151_7
	mov	x21, x1
	add	x0, x20, x23
	mov	w1, #24
	bl	"ct_node::lock_reading::number_in"
	tbz	w0, #0, .LBB151_7
	mov	x22, x1
	add	x0, x20, x23
	mov	w1, #40
	bl	"ct_node::lock_reading::number_in"
	tbz	w0, #0, .LBB151_7
	movi	v0.2d, #0000000000000000
	mov	x24, x1
	str	x1, [sp, #24]
	add	x0, sp, #8
	add	x1, sp, #32
	stp	x21, x22, [sp, #8]
	str	xzr, [sp, #80]
	stp	q0, q0, [sp, #48]
	str	q0, [sp, #32]
	bl	"ct_node::lock_writing::write_name"
	ldr	w8, [sp, #32]
	ldr	w9, [x20, x23]
	cmp	w8, w9
	b.ne	.LBB151_7
	add	x0, sp, #32
	add	x2, x20, x23
	mov	w1, #56
	bl	"core::cmp::slices::groups_equal::<i8,31'core::cmp::numbers::U8PartialEq{}>"
	tbz	w0, #0, .LBB151_7
	mov	w0, wzr
	stp	x21, x22, [x19]
	str	x24, [x19, #16]
	ldp	x20, x19, [sp, #144]
	ldp	x22, x21, [sp, #128]
	ldp	x24, x23, [sp, #112]
	ldp	x29, x30, [sp, #96]
	add	sp, sp, #160
	ret
.LBB151_7:
	mov	w0, #115
	ldp	x20, x19, [sp, #144]
	ldp	x22, x21, [sp, #128]
	ldp	x24, x23, [sp, #112]
	ldp	x29, x30, [sp, #96]
	add	sp, sp, #160
	ret
.Lfunc_end151:
	.size	wagtenib_batch_state, .Lfunc_end151-wagtenib_batch_state
	.section	.text.wagtenib_check_promise,"ax",@progbits
	.globl	wagtenib_check_promise
	.p2align	2
	.type	wagtenib_check_promise,@function
wagtenib_check_promise:
	sub	sp, sp, #176
	stp	x29, x30, [sp, #96]
	add	x29, sp, #96
	lsr	x10, x6, #16
	stp	x24, x23, [sp, #128]
	ldr	x24, [x29, #88]
	mov	w11, #4096
	stp	x26, x25, [sp, #112]
	cmp	x24, #0
	stp	x22, x21, [sp, #144]
	csel	x25, x11, xzr, eq
	stp	x20, x19, [sp, #160]
	cbz	x10, .LBB152_2
	mov	w0, #91
	b	.LBB152_21
.LBB152_2:
	cmp	x5, #0
	mov	w10, #4096
	movi	v0.2d, #0000000000000000
	csel	x11, x10, xzr, eq
	cmp	x2, #0
	mov	x8, x4
	csel	x12, x10, xzr, eq
	cmp	x0, #0
	mov	x9, x1
	csel	x10, x10, xzr, eq
	mov	x13, x0
	mov	x19, x7
	mov	x7, x6
	mov	x4, x3
	mov	x0, sp
	add	x1, x13, x10
	add	x3, x2, x12
	add	x6, x5, x11
	mov	x2, x9
	mov	x5, x8
	stp	q0, q0, [sp]
	bl	"ct_promise::leaf::promised_leaf"
	ldrb	w8, [sp]
	cbz	w8, .LBB152_5
	ldrb	w8, [sp, #1]
	cbz	w8, .LBB152_9
	mov	w0, #8
	b	.LBB152_21
.LBB152_5:
	movi	v0.2d, #0000000000000000
	adrp	x8, .Lstatic.7
	add	x8, x8, :lo12:.Lstatic.7
	str	x8, [sp, #32]
	ldp	x20, x8, [sp, #8]
	ldp	x22, x21, [x29, #96]
	mov	w9, #1
	ldr	x23, [x29, #80]
	ldr	x26, [sp, #24]
	sub	x0, x29, #32
	add	x1, sp, #32
	mov	w2, #2
	stp	q0, q0, [x29, #-32]
	str	x9, [sp, #40]
	stp	x20, x8, [sp, #48]
	bl	"ct_tree::hash::Sha256HashNodeHash::hash"
	sub	x0, x29, #32
	add	x3, x24, x25
	mov	x1, x19
	mov	x2, x23
	mov	x4, x22
	mov	x5, x21
	bl	"ct_verify::inclusion::verify_inclusion::<#0f46d2847b2ce1ce>"
	tst	w0, #0xff
	b.eq	.LBB152_12
	mov	w19, w1
	cbz	x26, .LBB152_8
	mov	x0, x20
	bl	rattle_dealloc
.LBB152_8:
	and	w8, w19, #0xff
	add	w0, w8, #1
	b	.LBB152_21
.LBB152_9:
	ldrb	w9, [sp, #2]
	ldr	x8, [x29, #112]
	cbz	w9, .LBB152_15
	cmp	w9, #2
	b.ne	.LBB152_18
	mov	w0, #90
	str	w9, [x8]
	b	.LBB152_21
.LBB152_12:
	cbz	x26, .LBB152_14
	mov	x0, x20
	bl	rattle_dealloc
.LBB152_14:
	mov	w0, wzr
	b	.LBB152_21
.LBB152_15:
	ldrb	w10, [sp, #4]
	ldurh	w9, [sp, #5]
	mov	w13, #14
	ldrb	w11, [sp, #3]
	and	w12, w9, #0xff
	cmp	w10, #0
	csinc	w12, w13, w12, ne
	cmp	w11, #0
	orr	w13, w12, #0x10
	csel	w11, w12, w13, eq
	cmp	w10, #2
	str	w11, [x8]
	b.eq	.LBB152_19
	cmp	w10, #1
	b.ne	.LBB152_20
	mov	w0, #87
	b	.LBB152_21
.LBB152_18:
	mov	w9, #14
	mov	w0, #89
	str	w9, [x8]
	b	.LBB152_21
.LBB152_19:
	mov	w0, #88
	b	.LBB152_21
.LBB152_20:
	lsr	w8, w9, #8
	add	w0, w8, #80
.LBB152_21:
	ldp	x20, x19, [sp, #160]
	ldp	x22, x21, [sp, #144]
	ldp	x24, x23, [sp, #128]
	ldp	x26, x25, [sp, #112]
	ldp	x29, x30, [sp, #96]
	add	sp, sp, #176
	ret
.Lfunc_end152:
	.size	wagtenib_check_promise, .Lfunc_end152-wagtenib_check_promise
	.section	.text.wagtenib_check_subtree,"ax",@progbits
	.globl	wagtenib_check_subtree
	.p2align	2
	.type	wagtenib_check_subtree,@function
wagtenib_check_subtree:
	subs	x8, x1, x0
	b.ls	.LBB153_5
	cmp	x8, #2
	b.lo	.LBB153_4
.LBB153_2:
	tbnz	w0, #0, .LBB153_5
	and	x9, x8, #0x1
	lsr	x0, x0, #1
	add	x8, x9, x8, lsr #1
	cmp	x8, #1
	b.hi	.LBB153_2
.LBB153_4:
	mov	w0, wzr
	ret
.LBB153_5:
	mov	w0, #160
	ret
.Lfunc_end153:
	.size	wagtenib_check_subtree, .Lfunc_end153-wagtenib_check_subtree
	.section	.text.wagtenib_compare_data_tile,"ax",@progbits
	.globl	wagtenib_compare_data_tile
	.p2align	2
	.type	wagtenib_compare_data_tile,@function
wagtenib_compare_data_tile:
	sub	sp, sp, #368
	movi	v0.2d, #0000000000000000
	mov	w9, #4096
	cmp	x0, #0
	mov	x8, x0
	csel	x10, x9, xzr, eq
	stp	x20, x19, [sp, #352]
	mov	x20, x2
	mov	x2, x1
	cmp	x3, #0
	add	x0, sp, #112
	add	x1, x8, x10
	stp	x29, x30, [sp, #288]
	stp	x28, x25, [sp, #304]
	add	x29, sp, #288
	mov	x19, x5
	stp	x24, x23, [sp, #320]
	csel	x25, x9, xzr, eq
	stp	x22, x21, [sp, #336]
	mov	x21, x4
	mov	x22, x3
	stp	q0, q0, [sp, #112]
	bl	"ct_data_tiles::tile::Tile::from_name"
	ldrb	w8, [sp, #112]
	cbz	w8, .LBB154_3
	ldrb	w8, [sp, #113]
	cbz	w8, .LBB154_6
.LBB154_2:
	mov	w0, #8
	b	.LBB154_7
.LBB154_3:
	ldrb	w8, [sp, #120]
	cmp	w8, #1
	b.ne	.LBB154_6
	ldr	x9, [sp, #128]
	lsr	x10, x20, #8
	sub	x8, x20, x9, lsl #8
	cmp	x10, x9
	csel	x23, xzr, x8, lo
	b.hs	.LBB154_8
	mov	w0, #147
	b	.LBB154_7
.LBB154_6:
	mov	w0, #146
.LBB154_7:
	ldp	x20, x19, [sp, #352]
	ldp	x22, x21, [sp, #336]
	ldp	x24, x23, [sp, #320]
	ldp	x28, x25, [sp, #304]
	ldp	x29, x30, [sp, #288]
	add	sp, sp, #368
	ret
.LBB154_8:
	ldrh	w24, [sp, #136]
	cmp	x8, x24
	b.hs	.LBB154_20
	movi	v0.2d, #0000000000000000
	add	x25, x22, x25
	str	xzr, [sp, #224]
	stp	x25, x21, [sp]
	stp	q0, q0, [sp, #128]
	stp	q0, q0, [sp, #160]
	stp	q0, q0, [sp, #192]
	str	q0, [sp, #112]
	cbz	x21, .LBB154_13
	mov	x22, xzr
.LBB154_11:
	add	x0, sp, #112
	mov	x1, sp
	bl	"ct_data_tiles::reading::tile_leaf_at"
	ldrb	w8, [sp, #112]
	cbnz	w8, .LBB154_21
	ldr	x8, [sp, #8]
	add	x22, x22, #1
	cbnz	x8, .LBB154_11
.LBB154_13:
	movi	v0.2d, #0000000000000000
	sub	x8, x29, #8
	mov	x22, xzr
	str	xzr, [sp, #224]
	stp	x8, xzr, [x29, #-32]
	stur	xzr, [x29, #-16]
	stp	q0, q0, [sp]
	stp	q0, q0, [sp, #32]
	stp	q0, q0, [sp, #64]
	stp	q0, q0, [sp, #112]
	stp	q0, q0, [sp, #144]
	stp	q0, q0, [sp, #176]
	str	q0, [sp, #208]
	str	q0, [sp, #96]
	stp	x25, x21, [x29, #-48]
	cbz	x21, .LBB154_32
	add	x8, sp, #112
	sub	x21, x29, #8
	orr	x25, x8, #0x8
.LBB154_15:
	add	x0, sp, #112
	sub	x1, x29, #48
	bl	"ct_data_tiles::reading::tile_leaf_at"
	ldrb	w8, [sp, #112]
	cbnz	w8, .LBB154_22
	ldp	q0, q1, [x25, #64]
	ldr	q2, [x25, #96]
	ldur	x8, [x29, #-16]
	str	q2, [sp, #96]
	stp	q0, q1, [sp, #64]
	ldp	q0, q1, [x25]
	cmp	x8, x22
	stp	q0, q1, [sp]
	ldp	q0, q2, [x25, #32]
	stp	q0, q2, [sp, #32]
	b.eq	.LBB154_18
.LBB154_17:
	mov	w8, #112
	ldp	q1, q0, [sp]
	madd	x8, x22, x8, x21
	ldp	q2, q3, [sp, #32]
	ldp	q6, q4, [sp, #80]
	add	x22, x22, #1
	ldr	q5, [sp, #64]
	stp	q1, q0, [x8]
	ldur	x9, [x29, #-40]
	stp	q3, q5, [x8, #48]
	stp	q6, q4, [x8, #80]
	str	q2, [x8, #32]
	stur	x22, [x29, #-24]
	cbnz	x9, .LBB154_15
	b	.LBB154_26
.LBB154_18:
	sub	x0, x29, #32
	bl	"std_alloc::vec::Vec::grow_amortized::<#5bf383d46bbc8abd>"
	cbz	w0, .LBB154_49
	ldp	x21, x22, [x29, #-32]
	b	.LBB154_17
.LBB154_20:
	mov	w0, #148
	b	.LBB154_7
.LBB154_21:
	ldrb	w20, [sp, #113]
	ldrb	w23, [sp, #114]
	b	.LBB154_24
.LBB154_22:
	ldur	x8, [x29, #-16]
	ldrb	w20, [sp, #113]
	ldrb	w23, [sp, #114]
	cbz	x8, .LBB154_24
	mov	x0, x21
	bl	rattle_dealloc
.LBB154_24:
	str	x22, [x19]
	cbz	w20, .LBB154_29
	mov	w0, #139
	b	.LBB154_7
.LBB154_26:
	ldur	x25, [x29, #-16]
	cmp	x22, x24
	b.ne	.LBB154_30
	subs	x22, x24, x23
	b.ne	.LBB154_33
	mov	x20, xzr
	b	.LBB154_44
.LBB154_29:
	adrp	x8, .Lswitch.table.wagtenib_data_tile_leaves
	add	x8, x8, :lo12:.Lswitch.table.wagtenib_data_tile_leaves
	ldr	w0, [x8, w23, uxtw #2]
	b	.LBB154_7
.LBB154_30:
	cbz	x25, .LBB154_32
	mov	x0, x21
	bl	rattle_dealloc
.LBB154_32:
	str	x22, [x19]
	mov	w0, #149
	b	.LBB154_7
.LBB154_33:
	lsl	x8, x23, #7
	mov	x9, #1099511627776
	mov	x10, #-1099511627776
	cmp	x20, x9
	sub	x8, x8, x23, lsl #4
	csel	x9, x20, x9, lo
	add	x24, x9, x10
	add	x8, x8, x21
	add	x23, x8, #72
.LBB154_34:
	cbz	x24, .LBB154_43
	mov	x8, #5497558138880
	add	x8, x20, x8
	rev	x8, x8
	str	x8, [sp, #112]
	ldr	x9, [x23]
	cmp	x9, #8
	b.ne	.LBB154_43
	ldur	x0, [x23, #-8]
	ldrb	w9, [x0]
	ldrb	w10, [x0, #1]
	orr	w9, w10, w9
	cbnz	w9, .LBB154_43
	ldrb	w9, [x0, #2]
	cmp	w9, #5
	b.ne	.LBB154_43
	lsr	x8, x8, #24
	ldrb	w9, [x0, #3]
	cmp	w9, w8, uxtb
	b.ne	.LBB154_43
	add	x2, sp, #112
	mov	w1, #8
	bl	"core::cmp::slices::groups_equal::<i8,31'core::cmp::numbers::U8PartialEq{}>"
	tbz	w0, #0, .LBB154_42
	subs	x22, x22, #1
	add	x23, x23, #112
	add	x24, x24, #1
	add	x20, x20, #1
	b.ne	.LBB154_34
	mov	x20, xzr
.LBB154_42:
	eor	w22, w0, #0x1
	b	.LBB154_44
.LBB154_43:
	mov	w22, #1
.LBB154_44:
	cbz	x25, .LBB154_46
	mov	x0, x21
	bl	rattle_dealloc
.LBB154_46:
	cbz	w22, .LBB154_48
	str	x20, [x19]
	mov	w0, #150
	b	.LBB154_7
.LBB154_48:
	mov	w0, wzr
	b	.LBB154_7
.LBB154_49:
	ldur	x8, [x29, #-16]
	cbz	x8, .LBB154_2
	ldur	x0, [x29, #-32]
	bl	rattle_dealloc
	b	.LBB154_2
.Lfunc_end154:
	.size	wagtenib_compare_data_tile, .Lfunc_end154-wagtenib_compare_data_tile
	.section	.rodata.cst16,"aM",@progbits,16
	.p2align	4, 0x0
.LCPI155_0:
	.byte	1
	.byte	2
	.byte	4
	.byte	8
	.byte	16
	.byte	32
	.byte	64
	.byte	128
	.byte	1
	.byte	2
	.byte	4
	.byte	8
	.byte	16
	.byte	32
	.byte	64
	.byte	128
	.section	.text.wagtenib_compare_heads,"ax",@progbits
	.globl	wagtenib_compare_heads
	.p2align	2
	.type	wagtenib_compare_heads,@function
wagtenib_compare_heads:
	ldp	x10, x9, [x1]
	ldp	x11, x8, [x0]
	cmp	x11, x10
	b.hs	.LBB155_3
	cmp	x8, x9
	b.hs	.LBB155_5
	mov	w0, wzr
	ret
.LBB155_3:
	cmp	x10, x11
	b.hs	.LBB155_6
	cmp	x9, x8
	mov	w8, #3
	cinc	w8, w8, hs
	orr	w0, w8, #0x80
	ret
.LBB155_5:
	mov	w8, #6
	orr	w0, w8, #0x80
	ret
.LBB155_6:
	ldp	q1, q0, [x1, #16]
	adrp	x8, .LCPI155_0
	ldp	q3, q2, [x0, #16]
	cmeq	v1.16b, v1.16b, v3.16b
	cmeq	v0.16b, v0.16b, v2.16b
	ldr	q2, [x8, :lo12:.LCPI155_0]
	bic	v1.16b, v2.16b, v1.16b
	bic	v0.16b, v2.16b, v0.16b
	ext	v2.16b, v1.16b, v1.16b, #8
	ext	v3.16b, v0.16b, v0.16b, #8
	zip1	v1.16b, v1.16b, v2.16b
	zip1	v0.16b, v0.16b, v3.16b
	addv	h1, v1.8h
	addv	h0, v0.8h
	fmov	w8, s1
	fmov	w9, s0
	orr	w8, w8, w9
	mov	w9, #2
	tst	w8, #0xffff
	mov	w8, #5
	csel	w8, w9, w8, eq
	orr	w0, w8, #0x80
	ret
.Lfunc_end155:
	.size	wagtenib_compare_heads, .Lfunc_end155-wagtenib_compare_heads
	.section	.text.wagtenib_cover_range,"ax",@progbits
	.globl	wagtenib_cover_range
	.p2align	2
	.type	wagtenib_cover_range,@function
wagtenib_cover_range:
	subs	x8, x1, x0
	b.ls	.LBB156_3
	cmp	x8, #1
	b.ne	.LBB156_4
	str	x0, [x3]
	str	x0, [x2]
	mov	w0, wzr
	ret
.LBB156_3:
	mov	w0, #162
	ret
.LBB156_4:
	sub	x10, x1, #1
	mov	w9, #1
	mov	x11, x0
.LBB156_5:
	mov	x12, x10
	lsr	x11, x11, #1
	lsr	x10, x10, #1
	mov	x8, x9
	lsl	x9, x9, #1
	cmp	x11, x10
	b.lo	.LBB156_5
	mul	x9, x12, x8
	sub	x10, x9, x0
.LBB156_7:
	mov	x11, x8
	lsr	x8, x8, #1
	cmp	x10, x8
	b.ls	.LBB156_7
	sub	x0, x9, x11
	str	x9, [x3]
	str	x0, [x2]
	mov	w0, wzr
	ret
.Lfunc_end156:
	.size	wagtenib_cover_range, .Lfunc_end156-wagtenib_cover_range
	.section	.text.wagtenib_decode_leaf,"ax",@progbits
	.globl	wagtenib_decode_leaf
	.p2align	2
	.type	wagtenib_decode_leaf,@function
wagtenib_decode_leaf:
	sub	sp, sp, #112
	movi	v0.2d, #0000000000000000
	mov	w8, #4096
	cmp	x0, #0
	csel	x8, x8, xzr, eq
	stp	x29, x30, [sp, #80]
	add	x29, sp, #80
	stp	x20, x19, [sp, #96]
	stp	q0, q0, [sp]
	stp	q0, q0, [sp, #32]
	cbz	x1, .LBB157_4
	add	x8, x0, x8
	ldrb	w9, [x8]
	cbz	w9, .LBB157_3
	mov	w0, #18
	ldp	x20, x19, [sp, #96]
	ldp	x29, x30, [sp, #80]
	add	sp, sp, #112
	ret
.LBB157_3:
	cmp	x1, #1
	b.ne	.LBB157_5
.LBB157_4:
	mov	w0, #17
	ldp	x20, x19, [sp, #96]
	ldp	x29, x30, [sp, #80]
	add	sp, sp, #112
	ret
.LBB157_5:
	ldrb	w9, [x8, #1]
	cbz	w9, .LBB157_7
	mov	w0, #19
	ldp	x20, x19, [sp, #96]
	ldp	x29, x30, [sp, #80]
	add	sp, sp, #112
	ret
.LBB157_7:
	subs	x9, x1, #10
	b.lo	.LBB157_4
	add	x10, x8, #10
	ldur	x20, [x8, #2]
	mov	x0, sp
	sub	x1, x29, #16
	mov	x19, x2
	stp	x10, x9, [x29, #-16]
	bl	"ct_codec::reading::entry_at"
	ldrb	w8, [sp]
	cbz	w8, .LBB157_10
	ldrb	w8, [sp, #1]
	adrp	x9, .Lswitch.table.wagtenib_data_tile_leaves
	add	x9, x9, :lo12:.Lswitch.table.wagtenib_data_tile_leaves
	ldr	w0, [x9, x8, lsl #2]
	ldp	x20, x19, [sp, #96]
	ldp	x29, x30, [sp, #80]
	add	sp, sp, #112
	ret
.LBB157_10:
	ldur	x8, [x29, #-8]
	subs	x8, x8, #2
	b.lo	.LBB157_12
	ldur	x9, [x29, #-16]
	ldrh	w9, [x9]
	rev	w9, w9
	lsr	w9, w9, #16
	cmp	x8, x9
	b.hs	.LBB157_13
.LBB157_12:
	mov	w0, #17
	ldp	x20, x19, [sp, #96]
	ldp	x29, x30, [sp, #80]
	add	sp, sp, #112
	ret
.LBB157_13:
	b.ne	.LBB157_15
	ldrb	w9, [sp, #8]
	mov	x10, sp
	mov	w0, wzr
	add	x11, x10, #56
	add	x10, x10, #24
	cmp	w9, #0
	rev	x9, x20
	csel	x10, x11, x10, ne
	ldr	x10, [x10]
	str	x8, [x19, #16]
	cset	w8, ne
	stp	w8, wzr, [x19, #24]
	stp	x9, x10, [x19]
	ldp	x20, x19, [sp, #96]
	ldp	x29, x30, [sp, #80]
	add	sp, sp, #112
	ret
.LBB157_15:
	mov	w0, #22
	ldp	x20, x19, [sp, #96]
	ldp	x29, x30, [sp, #80]
	add	sp, sp, #112
	ret
.Lfunc_end157:
	.size	wagtenib_decode_leaf, .Lfunc_end157-wagtenib_decode_leaf
	.section	.text.wagtenib_evaluate_subtree_path,"ax",@progbits
	.globl	wagtenib_evaluate_subtree_path
	.p2align	2
	.type	wagtenib_evaluate_subtree_path,@function
wagtenib_evaluate_subtree_path:
	sub	sp, sp, #176
	movi	v0.2d, #0000000000000000
	mov	w8, #4096
	cmp	x4, #0
	csel	x8, x8, xzr, eq
	subs	x9, x3, x2
	stp	x29, x30, [sp, #144]
	str	x19, [sp, #160]
	add	x29, sp, #144
	strb	wzr, [sp, #128]
	stp	q0, q0, [sp, #64]
	stp	q0, q0, [sp, #96]
	b.ls	.LBB158_9
	cmp	x9, #2
	b.lo	.LBB158_5
	mov	x10, x2
	mov	x11, x9
.LBB158_3:
	tbnz	w10, #0, .LBB158_9
	and	x12, x11, #0x1
	lsr	x10, x10, #1
	add	x11, x12, x11, lsr #1
	cmp	x11, #1
	b.hi	.LBB158_3
.LBB158_5:
	subs	x10, x1, x2
	b.lo	.LBB158_10
	cmp	x3, x1
	b.ls	.LBB158_10
	add	x11, x10, #1
	mov	x2, x0
	add	x0, sp, #64
	add	x1, sp, #40
	add	x3, x4, x8
	mov	x4, x5
	mov	x19, x6
	stp	x10, x11, [sp, #40]
	str	x9, [sp, #56]
	bl	"ct_subtrees::consistency::rebuilt::<#0f46d2847b2ce1ce>"
	ldrb	w8, [sp, #64]
	cbz	w8, .LBB158_11
	ldrb	w8, [sp, #65]
	adrp	x9, .Lswitch.table.wagtenib_verify_subtree
	add	x9, x9, :lo12:.Lswitch.table.wagtenib_verify_subtree
	ldr	w0, [x9, x8, lsl #2]
	ldp	x29, x30, [sp, #144]
	ldr	x19, [sp, #160]
	add	sp, sp, #176
	ret
.LBB158_9:
	mov	w0, #160
	ldp	x29, x30, [sp, #144]
	ldr	x19, [sp, #160]
	add	sp, sp, #176
	ret
.LBB158_10:
	mov	w0, #1
	ldp	x29, x30, [sp, #144]
	ldr	x19, [sp, #160]
	add	sp, sp, #176
	ret
.LBB158_11:
	ldur	q0, [sp, #98]
	ldur	q1, [sp, #113]
	mov	w0, wzr
	ldrb	w8, [sp, #97]
	str	q0, [sp]
	stur	q1, [sp, #15]
	ldr	q0, [sp]
	ldur	q1, [sp, #15]
	strb	w8, [x19]
	stur	q0, [x19, #1]
	str	q1, [x19, #16]
	ldp	x29, x30, [sp, #144]
	ldr	x19, [sp, #160]
	add	sp, sp, #176
	ret
.Lfunc_end158:
	.size	wagtenib_evaluate_subtree_path, .Lfunc_end158-wagtenib_evaluate_subtree_path
	.section	.text.wagtenib_guard_receipt,"ax",@progbits
	.globl	wagtenib_guard_receipt
	.p2align	2
	.type	wagtenib_guard_receipt,@function
wagtenib_guard_receipt:
	sub	sp, sp, #256
	cmp	x0, #0
	mov	w10, #4096
	stp	x24, x23, [sp, #208]
	csel	x9, x10, xzr, eq
	cmp	x2, #0
	stp	x29, x30, [sp, #160]
	csel	x8, x10, xzr, eq
	cmp	x5, #0
	stp	x28, x27, [sp, #176]
	csel	x23, x10, xzr, eq
	stp	x26, x25, [sp, #192]
	add	x29, sp, #160
	stp	x22, x21, [sp, #224]
	stp	x20, x19, [sp, #240]
	cbz	x1, .LBB159_11
	cmp	x1, #1
	b.eq	.LBB159_11
	cmp	x1, #10
	b.lo	.LBB159_11
	subs	x10, x1, #18
	b.lo	.LBB159_11
	cmp	x10, #32
	b.lo	.LBB159_11
	mov	x10, x0
	mov	w0, #36
	b.ne	.LBB159_12
	add	x9, x10, x9
	ldrb	w10, [x9]
	cbnz	w10, .LBB159_12
	ldrb	w10, [x9, #1]
	cmp	w10, #1
	b.ne	.LBB159_12
	movi	v2.2d, #0000000000000000
	ldur	q0, [x9, #18]
	ldur	x10, [x9, #10]
	ldur	q1, [x9, #34]
	ldur	x9, [x9, #2]
	rev	x20, x10
	rev	x24, x9
	stp	q0, q1, [sp, #32]
	stp	x20, x24, [sp, #16]
	stp	q2, q2, [sp, #64]
	stp	q2, q2, [sp, #96]
	cbz	x3, .LBB159_14
	add	x28, x2, x8
	ldrb	w8, [x28]
	cbz	w8, .LBB159_13
	mov	w0, #18
	b	.LBB159_12
.LBB159_11:
	mov	w0, #36
.LBB159_12:
	ldp	x20, x19, [sp, #240]
	ldp	x22, x21, [sp, #224]
	ldp	x24, x23, [sp, #208]
	ldp	x26, x25, [sp, #192]
	ldp	x28, x27, [sp, #176]
	ldp	x29, x30, [sp, #160]
	add	sp, sp, #256
	ret
.LBB159_13:
	cmp	x3, #1
	b.ne	.LBB159_15
.LBB159_14:
	mov	w0, #17
	b	.LBB159_12
.LBB159_15:
	ldrb	w8, [x28, #1]
	cbz	w8, .LBB159_17
	mov	w0, #19
	b	.LBB159_12
.LBB159_17:
	subs	x8, x3, #10
	b.lo	.LBB159_14
	add	x9, x28, #10
	ldur	x25, [x28, #2]
	add	x0, sp, #64
	sub	x1, x29, #32
	mov	x27, x3
	mov	x26, x5
	mov	x22, x6
	mov	x21, x4
	stp	x9, x8, [x29, #-32]
	bl	"ct_codec::reading::entry_at"
	ldrb	w8, [sp, #64]
	cbz	w8, .LBB159_20
	ldrb	w8, [sp, #65]
	adrp	x9, .Lswitch.table.wagtenib_data_tile_leaves
	add	x9, x9, :lo12:.Lswitch.table.wagtenib_data_tile_leaves
	ldr	w0, [x9, x8, lsl #2]
	b	.LBB159_12
.LBB159_20:
	ldur	x8, [x29, #-24]
	subs	x8, x8, #2
	b.lo	.LBB159_14
	ldur	x19, [x29, #-32]
	str	x19, [sp, #8]
	ldrh	w9, [x19], #2
	rev	w9, w9
	lsr	w9, w9, #16
	cmp	x8, x9
	b.lo	.LBB159_14
	str	x8, [sp]
	b.ne	.LBB159_25
	movi	v0.2d, #0000000000000000
	adrp	x8, .Lstatic.7
	add	x8, x8, :lo12:.Lstatic.7
	mov	w9, #1
	add	x0, sp, #64
	sub	x1, x29, #32
	mov	w2, #2
	stur	x8, [x29, #-32]
	stp	x9, x28, [x29, #-24]
	add	x28, sp, #16
	stp	q0, q0, [sp, #64]
	stur	x27, [x29, #-8]
	bl	"ct_tree::hash::Sha256HashNodeHash::hash"
	add	x0, sp, #64
	add	x3, x26, x23
	add	x5, x28, #16
	mov	x1, x21
	mov	x2, x20
	mov	x4, x22
	bl	"ct_verify::inclusion::verify_inclusion::<#0f46d2847b2ce1ce>"
	tst	w0, #0xff
	b.eq	.LBB159_26
	and	w8, w1, #0xff
	add	w0, w8, #1
	b	.LBB159_12
.LBB159_25:
	mov	w0, #22
	b	.LBB159_12
.LBB159_26:
	rev	x8, x25
	cmp	x24, x8
	b.hs	.LBB159_28
	mov	w0, #38
	b	.LBB159_12
.LBB159_28:
	ldr	x8, [sp]
	cbz	x8, .LBB159_35
	lsr	x8, x21, #40
	cbnz	x8, .LBB159_36
	mov	x8, #5497558138880
	ldr	x9, [sp]
	orr	x8, x21, x8
	rev	x8, x8
	cmp	x9, #8
	stur	x8, [x29, #-32]
	b.ne	.LBB159_36
	ldr	x10, [sp, #8]
	ldrb	w9, [x10, #2]
	ldrb	w10, [x10, #3]
	orr	w9, w10, w9
	cbnz	w9, .LBB159_36
	ldr	x9, [sp, #8]
	ldrb	w9, [x9, #4]
	cmp	w9, #5
	b.ne	.LBB159_36
	ldr	x9, [sp, #8]
	lsr	x8, x8, #24
	ldrb	w9, [x9, #5]
	cmp	w9, w8, uxtb
	b.ne	.LBB159_36
	sub	x2, x29, #32
	mov	x0, x19
	mov	w1, #8
	bl	"core::cmp::slices::groups_equal::<i8,31'core::cmp::numbers::U8PartialEq{}>"
	cbz	w0, .LBB159_36
.LBB159_35:
	mov	w0, wzr
	b	.LBB159_12
.LBB159_36:
	mov	w0, #39
	b	.LBB159_12
.Lfunc_end159:
	.size	wagtenib_guard_receipt, .Lfunc_end159-wagtenib_guard_receipt
	.section	.rodata.cst16,"aM",@progbits,16
	.p2align	4, 0x0
.LCPI160_0:
	.byte	1
	.byte	2
	.byte	4
	.byte	8
	.byte	16
	.byte	32
	.byte	64
	.byte	128
	.byte	1
	.byte	2
	.byte	4
	.byte	8
	.byte	16
	.byte	32
	.byte	64
	.byte	128
	.section	.text.wagtenib_guard_receipts,"ax",@progbits
	.globl	wagtenib_guard_receipts
	.p2align	2
	.type	wagtenib_guard_receipts,@function
wagtenib_guard_receipts:
	sub	sp, sp, #256
	cmp	x0, #0
	mov	w9, #4096
	stp	x24, x23, [sp, #208]
	csel	x10, x9, xzr, eq
	cmp	x3, #0
	stp	x29, x30, [sp, #160]
	csel	x23, x9, xzr, eq
	cmp	x5, #0
	stp	x28, x27, [sp, #176]
	csel	x8, x9, xzr, eq
	cmp	x7, #0
	stp	x26, x25, [sp, #192]
	csel	x9, x9, xzr, eq
	stp	x22, x21, [sp, #224]
	add	x29, sp, #160
	stp	x20, x19, [sp, #240]
	cbz	x1, .LBB160_10
	cmp	x1, #1
	b.eq	.LBB160_10
	cmp	x1, #10
	b.lo	.LBB160_10
	subs	x11, x1, #18
	b.lo	.LBB160_10
	cmp	x11, #32
	b.lo	.LBB160_10
	mov	x11, x0
	mov	w0, #36
	b.ne	.LBB160_11
	add	x10, x11, x10
	ldrb	w11, [x10]
	cbnz	w11, .LBB160_11
	ldrb	w11, [x10, #1]
	cmp	w11, #1
	b.ne	.LBB160_11
	ldur	x11, [x10, #2]
	ldur	q0, [x10, #34]
	sub	x20, x29, #8
	ldr	x21, [x29, #96]
	stp	xzr, xzr, [sp, #72]
	str	x11, [sp]
	ldur	x11, [x10, #10]
	str	q0, [sp, #32]
	ldur	q0, [x10, #18]
	stp	x2, x20, [sp, #56]
	str	q0, [sp, #16]
	cbz	x21, .LBB160_20
	mov	x19, xzr
	add	x26, x5, x8
	add	x20, x7, x9
	sub	x8, x29, #8
	str	x11, [sp, #8]
	b	.LBB160_14
.LBB160_10:
	mov	w0, #36
.LBB160_11:
	ldp	x20, x19, [sp, #240]
	ldp	x22, x21, [sp, #224]
	ldp	x24, x23, [sp, #208]
	ldp	x26, x25, [sp, #192]
	ldp	x28, x27, [sp, #176]
	ldp	x29, x30, [sp, #160]
	add	sp, sp, #256
	ret
.LBB160_12:
	ldp	x8, x19, [sp, #64]
	mov	x3, x25
	ldr	x2, [sp, #56]
	mov	x4, x24
	mov	x6, x22
.LBB160_13:
	add	x9, x8, x19, lsl #4
	sub	x21, x21, #1
	add	x19, x19, #1
	stp	x26, x28, [x9]
	mov	x26, x27
	str	x19, [sp, #72]
	cbz	x21, .LBB160_19
.LBB160_14:
	ldr	x9, [x20], #8
	ldr	x11, [sp, #80]
	adrp	x10, .Lstatic.2
	add	x10, x10, :lo12:.Lstatic.2
	subs	x12, x6, x9
	add	x13, x26, x9
	csel	x28, x6, x9, lo
	csel	x27, x13, x10, hi
	csel	x6, xzr, x12, lo
	cmp	x11, x19
	b.ne	.LBB160_13
	add	x0, sp, #64
	mov	x22, x6
	mov	x24, x4
	mov	x25, x3
	bl	"std_alloc::vec::Vec::grow_amortized::<#5e4c92ea8d07c9f7>"
	cbnz	w0, .LBB160_12
	ldr	x8, [sp, #80]
	cbz	x8, .LBB160_18
	ldr	x0, [sp, #64]
	bl	rattle_dealloc
.LBB160_18:
	mov	w0, #8
	b	.LBB160_11
.LBB160_19:
	ldr	x8, [sp, #80]
	ldr	x20, [sp, #64]
	ldr	x11, [sp, #8]
	cmp	x8, #0
	cset	w21, eq
	b	.LBB160_21
.LBB160_20:
	mov	x19, xzr
	mov	w21, #1
.LBB160_21:
	rev	x8, x11
	mov	w0, #1
	subs	x8, x8, x2
	b.ls	.LBB160_26
	cmp	x8, x19
	b.ne	.LBB160_26
	movi	v0.2d, #0000000000000000
	add	x0, sp, #64
	mov	x1, x2
	add	x2, x3, x23
	mov	x3, x4
	mov	x4, x20
	mov	x5, x19
	strb	wzr, [sp, #96]
	stp	q0, q0, [sp, #64]
	bl	"ct_guard::step_receipts::root_after::<#0f46d2847b2ce1ce>"
	ldrb	w8, [sp, #64]
	cmp	w8, #1
	b.ne	.LBB160_25
	ldur	q1, [sp, #65]
	ldr	q2, [sp, #16]
	adrp	x8, .LCPI160_0
	ldur	q0, [sp, #81]
	cmeq	v1.16b, v1.16b, v2.16b
	ldr	q2, [sp, #32]
	cmeq	v0.16b, v0.16b, v2.16b
	ldr	q2, [x8, :lo12:.LCPI160_0]
	bic	v1.16b, v2.16b, v1.16b
	bic	v0.16b, v2.16b, v0.16b
	ext	v2.16b, v1.16b, v1.16b, #8
	ext	v3.16b, v0.16b, v0.16b, #8
	zip1	v1.16b, v1.16b, v2.16b
	zip1	v0.16b, v0.16b, v3.16b
	addv	h1, v1.8h
	addv	h0, v0.8h
	fmov	w8, s1
	fmov	w9, s0
	orr	w8, w8, w9
	tst	w8, #0xffff
	b.eq	.LBB160_28
.LBB160_25:
	mov	w0, #4
.LBB160_26:
	tbnz	w21, #0, .LBB160_11
	mov	w19, w0
	mov	x0, x20
	bl	rattle_dealloc
	mov	w0, w19
	b	.LBB160_11
.LBB160_28:
	ldr	x8, [sp]
	mov	x9, #5497558138880
	add	x24, x20, #8
	rev	x22, x8
	ldr	x8, [sp, #56]
	add	x23, x8, x9
.LBB160_29:
	movi	v0.2d, #0000000000000000
	ldp	x9, x10, [x24, #-8]
	stp	q0, q0, [sp, #64]
	stp	q0, q0, [sp, #96]
	cbz	x10, .LBB160_47
	ldrb	w11, [x9]
	cbnz	w11, .LBB160_49
	cmp	x10, #1
	b.eq	.LBB160_47
	ldrb	w11, [x9, #1]
	cbnz	w11, .LBB160_50
	subs	x10, x10, #10
	b.lo	.LBB160_47
	mov	x25, x8
	add	x8, x9, #10
	ldur	x26, [x9, #2]
	add	x0, sp, #64
	sub	x1, x29, #24
	stp	x8, x10, [x29, #-24]
	bl	"ct_codec::reading::entry_at"
	ldrb	w8, [sp, #64]
	cbnz	w8, .LBB160_51
	ldur	x8, [x29, #-16]
	subs	x10, x8, #2
	b.lo	.LBB160_47
	ldur	x9, [x29, #-24]
	mov	x0, x9
	ldrh	w11, [x0], #2
	rev	w11, w11
	lsr	w11, w11, #16
	cmp	x10, x11
	b.lo	.LBB160_47
	b.ne	.LBB160_52
	rev	x11, x26
	cmp	x22, x11
	b.lo	.LBB160_53
	mov	x8, x25
	cbz	x10, .LBB160_46
	lsr	x8, x8, #40
	cbnz	x8, .LBB160_48
	rev	x8, x23
	cmp	x10, #8
	str	x8, [sp, #64]
	b.ne	.LBB160_48
	ldrb	w10, [x9, #2]
	ldrb	w11, [x9, #3]
	orr	w10, w11, w10
	cbnz	w10, .LBB160_48
	ldrb	w10, [x9, #4]
	cmp	w10, #5
	b.ne	.LBB160_48
	lsr	x8, x8, #24
	ldrb	w9, [x9, #5]
	cmp	w9, w8, uxtb
	b.ne	.LBB160_48
	add	x2, sp, #64
	mov	w1, #8
	bl	"core::cmp::slices::groups_equal::<i8,31'core::cmp::numbers::U8PartialEq{}>"
	mov	x8, x25
	cbz	w0, .LBB160_48
.LBB160_46:
	mov	w0, wzr
	subs	x19, x19, #1
	add	x24, x24, #16
	add	x23, x23, #1
	add	x8, x8, #1
	b.ne	.LBB160_29
	b	.LBB160_26
.LBB160_47:
	mov	w0, #17
	b	.LBB160_26
.LBB160_48:
	mov	w0, #39
	b	.LBB160_26
.LBB160_49:
	mov	w0, #18
	b	.LBB160_26
.LBB160_50:
	mov	w0, #19
	b	.LBB160_26
.LBB160_51:
	ldrb	w8, [sp, #65]
	adrp	x9, .Lswitch.table.wagtenib_data_tile_leaves
	add	x9, x9, :lo12:.Lswitch.table.wagtenib_data_tile_leaves
	ldr	w0, [x9, x8, lsl #2]
	b	.LBB160_26
.LBB160_52:
	mov	w0, #22
	b	.LBB160_26
.LBB160_53:
	mov	w0, #38
	b	.LBB160_26
.Lfunc_end160:
	.size	wagtenib_guard_receipts, .Lfunc_end160-wagtenib_guard_receipts
	.section	.text.wagtenib_guard_state,"ax",@progbits
	.globl	wagtenib_guard_state
	.p2align	2
	.type	wagtenib_guard_state,@function
wagtenib_guard_state:
	mov	w9, #4096
	cmp	x0, #0
	csel	x8, x9, xzr, eq
	cmp	x2, #0
	csel	x9, x9, xzr, eq
	cbz	x3, .LBB161_23
	cmp	x3, #1
	b.eq	.LBB161_23
	cmp	x3, #10
	b.lo	.LBB161_23
	subs	x10, x3, #18
	b.lo	.LBB161_23
	cmp	x10, #32
	b.lo	.LBB161_23
	mov	x11, x0
	mov	w0, #36
	b.ne	.LBB161_24
	sub	sp, sp, #192
	stp	x20, x19, [sp, #176]
	add	x19, x2, x9
	ldrb	w9, [x19]
	stp	x29, x30, [sp, #128]
	add	x29, sp, #128
	str	x23, [sp, #144]
	stp	x22, x21, [sp, #160]
	cbnz	w9, .LBB161_22
	ldrb	w9, [x19, #1]
	cmp	w9, #1
	b.ne	.LBB161_22
	ldur	x9, [x19, #10]
	ldur	x10, [x19, #2]
	mov	w0, #36
	ldur	q0, [x19, #18]
	ldur	q1, [x19, #34]
	rev	x20, x9
	rev	x21, x10
	stp	x20, x21, [x29, #-48]
	stp	q0, q1, [x29, #-32]
	cbz	x1, .LBB161_22
	cmp	x1, #1
	b.eq	.LBB161_22
	cmp	x1, #10
	b.lo	.LBB161_22
	subs	x12, x1, #18
	b.lo	.LBB161_22
	cmp	x12, #32
	b.lo	.LBB161_22
	b.ne	.LBB161_22
	add	x8, x11, x8
	ldrb	w11, [x8]
	cbnz	w11, .LBB161_22
	ldrb	w11, [x8, #1]
	cmp	w11, #1
	b.ne	.LBB161_22
	ldur	x11, [x8, #10]
	ldur	x12, [x8, #2]
	ldur	q0, [x8, #18]
	ldur	q1, [x8, #34]
	rev	x22, x11
	rev	x23, x12
	cmp	x10, x12
	stp	x22, x23, [sp, #32]
	stp	q0, q1, [sp, #48]
	b.ne	.LBB161_19
	cmp	x9, x11
	b.ne	.LBB161_19
	sub	x8, x29, #48
	add	x9, sp, #32
	str	x4, [x29, #24]
	add	x0, x8, #16
	add	x1, x9, #16
	bl	"core::cmp::arrays::ArrayPartialEq::eq::<i8,=32,31'core::cmp::numbers::U8PartialEq{}>"
	ldr	x4, [x29, #24]
	tbnz	w0, #0, .LBB161_21
.LBB161_19:
	cmp	x23, x21
	mov	w0, #37
	b.hs	.LBB161_22
	cmp	x22, x20
	b.hi	.LBB161_22
.LBB161_21:
	ldur	q0, [x19, #18]
	ldur	q1, [x19, #34]
	mov	w0, wzr
	stp	x20, x21, [x4]
	stp	q0, q1, [sp]
	stp	q0, q1, [x4, #16]
.LBB161_22:
	ldp	x20, x19, [sp, #176]
	ldr	x23, [sp, #144]
	ldp	x22, x21, [sp, #160]
	ldp	x29, x30, [sp, #128]
	add	sp, sp, #192
	ret
.LBB161_23:
	mov	w0, #36
.LBB161_24:
	ret
.Lfunc_end161:
	.size	wagtenib_guard_state, .Lfunc_end161-wagtenib_guard_state
	.section	.text.wagtenib_leaf_hash,"ax",@progbits
	.globl	wagtenib_leaf_hash
	.p2align	2
	.type	wagtenib_leaf_hash,@function
wagtenib_leaf_hash:
	adrp	x8, .Lstatic.7
	add	x8, x8, :lo12:.Lstatic.7
	mov	w9, #1
	movi	v0.2d, #0000000000000000
	stp	x8, x9, [sp, #-96]!
	mov	w8, #4096
	cmp	x0, #0
	str	x19, [sp, #80]
	mov	x19, x2
	csel	x8, x8, xzr, eq
	mov	w2, #2
	stp	x29, x30, [sp, #64]
	add	x8, x0, x8
	add	x0, sp, #32
	add	x29, sp, #64
	stp	x8, x1, [sp, #16]
	mov	x1, sp
	stp	q0, q0, [sp, #32]
	bl	"ct_tree::hash::Sha256HashNodeHash::hash"
	ldp	q0, q1, [sp, #32]
	ldp	x29, x30, [sp, #64]
	stp	q0, q1, [x19]
	ldr	x19, [sp, #80]
	add	sp, sp, #96
	ret
.Lfunc_end162:
	.size	wagtenib_leaf_hash, .Lfunc_end162-wagtenib_leaf_hash
	.section	.text.wagtenib_lock_state,"ax",@progbits
	.globl	wagtenib_lock_state
	.p2align	2
	.type	wagtenib_lock_state,@function
wagtenib_lock_state:
	sub	sp, sp, #80
	mov	w9, #4096
	cmp	x0, #0
	mov	x8, x0
	csel	x9, x9, xzr, eq
	stp	x20, x19, [sp, #64]
	mov	x20, x2
	mov	x2, x1
	add	x0, sp, #8
	add	x1, x8, x9
	stp	x29, x30, [sp, #48]
	add	x29, sp, #48
	mov	x19, x3
	bl	"ct_node::lock_reading::said_in"
	ldrb	w8, [sp, #8]
	cmp	w8, #1
	b.ne	.LBB163_2
	ldur	q0, [sp, #24]
	ldr	x8, [sp, #40]
	mov	w0, wzr
	ldr	x9, [sp, #16]
	str	q0, [x20]
	str	x8, [x20, #16]
	str	x9, [x19]
	ldp	x20, x19, [sp, #64]
	ldp	x29, x30, [sp, #48]
	add	sp, sp, #80
	ret
.LBB163_2:
	mov	w0, #114
	ldp	x20, x19, [sp, #64]
	ldp	x29, x30, [sp, #48]
	add	sp, sp, #80
	ret
.Lfunc_end163:
	.size	wagtenib_lock_state, .Lfunc_end163-wagtenib_lock_state
	.section	.text.wagtenib_log_id,"ax",@progbits
	.globl	wagtenib_log_id
	.p2align	2
	.type	wagtenib_log_id,@function
wagtenib_log_id:
	sub	sp, sp, #80
	movi	v0.2d, #0000000000000000
	mov	w8, #4096
	cmp	x0, #0
	csel	x8, x8, xzr, eq
	str	x19, [sp, #64]
	mov	x19, x2
	add	x8, x0, x8
	add	x0, sp, #16
	mov	w2, #1
	stp	x8, x1, [sp]
	mov	x1, sp
	stp	x29, x30, [sp, #48]
	add	x29, sp, #48
	stp	q0, q0, [sp, #16]
	bl	"ct_tree::hash::Sha256HashNodeHash::hash"
	ldp	q0, q1, [sp, #16]
	ldp	x29, x30, [sp, #48]
	stp	q0, q1, [x19]
	ldr	x19, [sp, #64]
	add	sp, sp, #80
	ret
.Lfunc_end164:
	.size	wagtenib_log_id, .Lfunc_end164-wagtenib_log_id
	.section	.text.wagtenib_monitor_entry,"ax",@progbits
	.globl	wagtenib_monitor_entry
	.p2align	2
	.type	wagtenib_monitor_entry,@function
wagtenib_monitor_entry:
	sub	sp, sp, #128
	movi	v0.2d, #0000000000000000
	mov	w8, #4096
	cmp	x1, #0
	csel	x8, x8, xzr, eq
	stp	x29, x30, [sp, #80]
	add	x29, sp, #80
	str	x21, [sp, #96]
	stp	x20, x19, [sp, #112]
	stp	q0, q0, [sp]
	stp	q0, q0, [sp, #32]
	cbz	x2, .LBB165_4
	add	x8, x1, x8
	ldrb	w9, [x8]
	cbz	w9, .LBB165_3
	mov	w0, #18
	ldp	x20, x19, [sp, #112]
	ldr	x21, [sp, #96]
	ldp	x29, x30, [sp, #80]
	add	sp, sp, #128
	ret
.LBB165_3:
	cmp	x2, #1
	b.ne	.LBB165_5
.LBB165_4:
	mov	w0, #17
	ldp	x20, x19, [sp, #112]
	ldr	x21, [sp, #96]
	ldp	x29, x30, [sp, #80]
	add	sp, sp, #128
	ret
.LBB165_5:
	ldrb	w9, [x8, #1]
	cbz	w9, .LBB165_7
	mov	w0, #19
	ldp	x20, x19, [sp, #112]
	ldr	x21, [sp, #96]
	ldp	x29, x30, [sp, #80]
	add	sp, sp, #128
	ret
.LBB165_7:
	subs	x9, x2, #10
	b.lo	.LBB165_4
	mov	x20, x0
	add	x10, x8, #10
	ldur	x21, [x8, #2]
	mov	x0, sp
	sub	x1, x29, #16
	mov	x19, x3
	stp	x10, x9, [x29, #-16]
	bl	"ct_codec::reading::entry_at"
	ldrb	w8, [sp]
	cbz	w8, .LBB165_10
	ldrb	w8, [sp, #1]
	adrp	x9, .Lswitch.table.wagtenib_data_tile_leaves
	add	x9, x9, :lo12:.Lswitch.table.wagtenib_data_tile_leaves
	ldr	w0, [x9, x8, lsl #2]
	ldp	x20, x19, [sp, #112]
	ldr	x21, [sp, #96]
	ldp	x29, x30, [sp, #80]
	add	sp, sp, #128
	ret
.LBB165_10:
	ldur	x8, [x29, #-8]
	subs	x8, x8, #2
	b.lo	.LBB165_12
	ldur	x9, [x29, #-16]
	ldrh	w9, [x9]
	rev	w9, w9
	lsr	w9, w9, #16
	cmp	x8, x9
	b.hs	.LBB165_13
.LBB165_12:
	mov	w0, #17
	ldp	x20, x19, [sp, #112]
	ldr	x21, [sp, #96]
	ldp	x29, x30, [sp, #80]
	add	sp, sp, #128
	ret
.LBB165_13:
	b.ne	.LBB165_15
	rev	x8, x21
	mov	w9, #142
	cmp	x20, x8
	str	x8, [x19]
	csel	w0, w9, wzr, lo
	ldp	x20, x19, [sp, #112]
	ldr	x21, [sp, #96]
	ldp	x29, x30, [sp, #80]
	add	sp, sp, #128
	ret
.LBB165_15:
	mov	w0, #22
	ldp	x20, x19, [sp, #112]
	ldr	x21, [sp, #96]
	ldp	x29, x30, [sp, #80]
	add	sp, sp, #128
	ret
.Lfunc_end165:
	.size	wagtenib_monitor_entry, .Lfunc_end165-wagtenib_monitor_entry
	.section	.text.wagtenib_node_accept,"ax",@progbits
	.globl	wagtenib_node_accept
	.p2align	2
	.type	wagtenib_node_accept,@function
wagtenib_node_accept:
	sub	sp, sp, #128
	ldp	q1, q2, [x0, #16]
	mov	w9, #1
	cmp	x2, #0
	mov	w10, #4096
	mov	x8, x2
	ldr	q3, [x0]
	str	x9, [sp, #56]
	csel	x9, x10, xzr, eq
	stp	q1, q2, [sp, #80]
	ldp	q0, q1, [x1]
	mov	x4, x3
	add	x0, sp, #52
	mov	x2, sp
	add	x3, x8, x9
	stp	x29, x30, [sp, #112]
	add	x29, sp, #112
	stp	q0, q1, [sp]
	ldr	q0, [x1, #32]
	add	x1, sp, #56
	stur	q3, [sp, #64]
	strh	wzr, [sp, #52]
	strb	wzr, [sp, #54]
	str	q0, [sp, #32]
	bl	"ct_guard::guard::Guard::pass_head::<#0f46d2847b2ce1ce>"
	ldrb	w8, [sp, #52]
	cbz	w8, .LBB166_4
	ldrb	w8, [sp, #53]
	cmp	w8, #1
	b.gt	.LBB166_5
	cbnz	w8, .LBB166_7
	mov	w0, #32
	ldp	x29, x30, [sp, #112]
	add	sp, sp, #128
	ret
.LBB166_4:
	mov	w0, wzr
	ldp	x29, x30, [sp, #112]
	add	sp, sp, #128
	ret
.LBB166_5:
	cmp	w8, #2
	b.ne	.LBB166_8
	mov	w0, #34
	ldp	x29, x30, [sp, #112]
	add	sp, sp, #128
	ret
.LBB166_7:
	mov	w0, #33
	ldp	x29, x30, [sp, #112]
	add	sp, sp, #128
	ret
.LBB166_8:
	ldrb	w8, [sp, #54]
	add	w0, w8, #1
	ldp	x29, x30, [sp, #112]
	add	sp, sp, #128
	ret
.Lfunc_end166:
	.size	wagtenib_node_accept, .Lfunc_end166-wagtenib_node_accept
	.section	.text.wagtenib_node_next,"ax",@progbits
	.globl	wagtenib_node_next
	.p2align	2
	.type	wagtenib_node_next,@function
wagtenib_node_next:
	ldr	w10, [x0, #56]
	cmp	w10, #9
	b.hi	.LBB167_22
	ldp	x5, x18, [x0]
	adrp	x8, .LJTI167_0
	add	x8, x8, :lo12:.LJTI167_0
	ldp	x17, x15, [x0, #16]
	ldp	x16, x11, [x0, #32]
	adr	x6, .LBB167_2
	ldrb	w9, [x8, x10]
	add	x6, x6, x9, lsl #2
	mov	w14, wzr
	mov	x8, x10
	mov	x9, x10
	mov	x3, x10
	mov	x4, x10
	mov	x13, x10
	mov	x12, x10
	br	x6
.LBB167_2:
	mov	x3, xzr
	mov	x4, xzr
	mov	x13, xzr
	mov	x12, xzr
	mov	w14, #1
	b	.LBB167_6
.LBB167_3:
	ldr	x12, [x0, #48]
	mov	w14, #4
	b	.LBB167_10
.LBB167_4:
	mov	x3, xzr
	mov	x4, xzr
	mov	x13, xzr
	mov	x12, xzr
	mov	w14, #9
	b	.LBB167_24
.LBB167_5:
	mov	x3, xzr
	mov	x4, xzr
	mov	x13, xzr
	mov	x12, xzr
	mov	w14, #2
.LBB167_6:
	mov	x10, x5
	mov	x8, x18
	mov	x9, x17
	ldr	w6, [x1, #32]
	ldp	x11, x18, [x1]
	ldr	x16, [x1, #16]
	mov	w0, #113
	cmp	w6, #2
	b.gt	.LBB167_12
	b	.LBB167_25
.LBB167_7:
	ldr	x12, [x0, #48]
	mov	w14, #3
	b	.LBB167_10
.LBB167_8:
	mov	x3, xzr
	mov	x4, xzr
	mov	x13, xzr
	mov	x12, xzr
	mov	w14, #7
	b	.LBB167_24
.LBB167_9:
	mov	x12, xzr
	mov	w14, #5
.LBB167_10:
	mov	x10, x5
	mov	x8, x18
	mov	x9, x17
	mov	x3, x16
	mov	x4, x11
	mov	x13, x15
.LBB167_11:
	ldr	w6, [x1, #32]
	ldp	x11, x18, [x1]
	ldr	x16, [x1, #16]
	mov	w0, #113
	cmp	w6, #2
	b.le	.LBB167_25
.LBB167_12:
	cmp	w6, #4
	b.gt	.LBB167_16
	cmp	w6, #3
	b.eq	.LBB167_19
	cmp	w6, #4
	b.ne	.LBB167_74
	ldr	x11, [x1, #24]
	mov	x18, xzr
	mov	x16, xzr
	mov	w15, wzr
	mov	w17, wzr
	mov	x6, xzr
	mov	w0, #4
	b	.LBB167_31
.LBB167_16:
	cmp	w6, #5
	b.eq	.LBB167_20
	cmp	w6, #6
	b.ne	.LBB167_74
	mov	w15, wzr
	mov	w17, wzr
	mov	x6, xzr
	mov	w0, #6
	b	.LBB167_31
.LBB167_19:
	mov	x18, xzr
	mov	x16, xzr
	mov	w15, wzr
	mov	w17, wzr
	mov	x11, xzr
	mov	x6, xzr
	mov	w0, #3
	b	.LBB167_31
.LBB167_20:
	ldr	x6, [x1, #24]
	mov	w15, wzr
	mov	w17, wzr
	mov	w0, #5
	b	.LBB167_31
.LBB167_21:
	ldr	x13, [x0, #48]
	mov	x3, xzr
	mov	x4, xzr
	mov	x12, xzr
	mov	w14, #6
	b	.LBB167_24
.LBB167_22:
	mov	w0, #112
	ret
.LBB167_23:
	mov	x3, xzr
	mov	x4, xzr
	mov	x13, xzr
	mov	x12, xzr
	mov	w14, #8
.LBB167_24:
	mov	x10, x15
	mov	x8, x16
	mov	x9, x11
	ldr	w6, [x1, #32]
	ldp	x11, x18, [x1]
	ldr	x16, [x1, #16]
	mov	w0, #113
	cmp	w6, #2
	b.gt	.LBB167_12
.LBB167_25:
	cbz	w6, .LBB167_29
	cmp	w6, #1
	b.eq	.LBB167_30
	cmp	w6, #2
	b.ne	.LBB167_74
	mov	w15, wzr
	mov	x6, xzr
	mov	w0, #2
	mov	w17, #1
	b	.LBB167_31
.LBB167_29:
	mov	w17, wzr
	mov	w0, wzr
	mov	w15, #1
	mov	x18, x6
	mov	x16, x6
	mov	x11, x6
	b	.LBB167_31
.LBB167_30:
	mov	x18, xzr
	mov	x16, xzr
	mov	w17, wzr
	mov	x11, xzr
	mov	x6, xzr
	mov	w15, #1
	mov	w0, #1
.LBB167_31:
	mov	w14, w14
	adrp	x1, .LJTI167_1
	add	x1, x1, :lo12:.LJTI167_1
	adr	x5, .LBB167_32
	ldrb	w7, [x1, x14]
	add	x5, x5, x7, lsl #2
	br	x5
.LBB167_32:
	cbz	w17, .LBB167_72
	mov	x5, xzr
	mov	x8, xzr
	mov	x9, xzr
	mov	w14, #1
	mov	x15, x11
	mov	x17, x18
	mov	x1, x16
	mov	x11, xzr
	b	.LBB167_73
.LBB167_34:
	sub	w11, w0, #2
	cmp	w11, #5
	b.hs	.LBB167_61
.LBB167_35:
	mov	w14, #4
	b	.LBB167_43
.LBB167_36:
	tbnz	w15, #0, .LBB167_72
	mov	x15, xzr
	mov	x17, xzr
	mov	x1, xzr
	mov	x11, xzr
	mov	w14, #9
	b	.LBB167_56
.LBB167_38:
	mov	x5, xzr
	cmp	w0, #1
	mov	w14, #2
	b.le	.LBB167_71
	sub	w12, w0, #2
	cmp	w12, #3
	b.hs	.LBB167_75
	mov	x15, x10
	mov	x17, x8
	mov	x1, x9
	mov	x8, x5
	mov	x9, x5
	mov	x11, x5
	b	.LBB167_73
.LBB167_41:
	sub	w11, w0, #2
	cmp	w11, #5
	b.hs	.LBB167_63
	mov	w14, #3
.LBB167_43:
	mov	x15, x10
	mov	x17, x8
	mov	x1, x9
	mov	x5, x13
.LBB167_44:
	mov	x8, x3
	mov	x9, x4
	mov	x11, x12
	b	.LBB167_73
.LBB167_45:
	sub	w11, w0, #2
	cmp	w11, #5
	b.hs	.LBB167_64
	mov	x15, xzr
	mov	x17, xzr
	mov	x1, xzr
	mov	x11, xzr
	mov	w14, #7
	b	.LBB167_56
.LBB167_47:
	cmp	w0, #2
	b.gt	.LBB167_58
	cbz	w0, .LBB167_59
	cmp	w0, #1
	b.ne	.LBB167_59
	b	.LBB167_72
.LBB167_50:
	tbz	w15, #0, .LBB167_57
.LBB167_51:
	mov	x5, xzr
	mov	x11, xzr
	mov	w14, #2
	b	.LBB167_60
.LBB167_52:
	sub	w11, w0, #2
	cmp	w11, #5
	b.hs	.LBB167_66
	mov	x15, xzr
	mov	x17, xzr
	mov	x1, xzr
	mov	w14, #6
	mov	x5, x10
	mov	x11, x13
	b	.LBB167_73
.LBB167_54:
	sub	w11, w0, #2
	cmp	w11, #5
	b.hs	.LBB167_68
	mov	x15, xzr
	mov	x17, xzr
	mov	x1, xzr
	mov	x11, xzr
	mov	w14, #8
.LBB167_56:
	mov	x5, x10
	b	.LBB167_73
.LBB167_57:
	mov	x11, xzr
	mov	w14, #5
	mov	x15, x10
	mov	x17, x8
	mov	x1, x9
	mov	x5, x13
	mov	x8, x3
	mov	x9, x4
	b	.LBB167_73
.LBB167_58:
	sub	w12, w0, #5
	cmp	w12, #2
	b.hs	.LBB167_80
.LBB167_59:
	mov	x5, xzr
	mov	x11, xzr
	mov	w14, #1
.LBB167_60:
	mov	x15, x10
	mov	x17, x8
	mov	x1, x9
	mov	x8, xzr
	mov	x9, xzr
	b	.LBB167_73
.LBB167_61:
	cbnz	w0, .LBB167_72
	mov	w15, w0
	mov	w14, #6
	mov	x5, x13
	mov	x17, x15
	mov	x1, x15
	b	.LBB167_44
.LBB167_63:
	cbz	w0, .LBB167_35
	b	.LBB167_72
.LBB167_64:
	cbnz	w0, .LBB167_72
	mov	w15, w0
	mov	w14, #8
	b	.LBB167_70
.LBB167_66:
	cbnz	w0, .LBB167_72
	mov	w15, w0
	mov	w14, #7
	b	.LBB167_70
.LBB167_68:
	cbnz	w0, .LBB167_72
	mov	w15, w0
	mov	w14, #9
.LBB167_70:
	mov	x17, x15
	mov	x1, x15
	mov	x5, x10
	mov	x11, x15
	b	.LBB167_73
.LBB167_71:
	mov	x15, x10
	mov	x17, x8
	mov	x1, x9
	mov	x8, x5
	mov	x9, x5
	mov	x11, x5
	cbz	w0, .LBB167_73
.LBB167_72:
	mov	x15, xzr
	mov	x17, xzr
	mov	x1, xzr
	mov	x5, xzr
	mov	x8, xzr
	mov	x9, xzr
	mov	x11, xzr
	mov	w14, wzr
.LBB167_73:
	mov	w0, wzr
	stp	x15, x17, [x2]
	stp	x1, x5, [x2, #16]
	stp	x8, x9, [x2, #32]
	str	x11, [x2, #48]
	stp	w14, wzr, [x2, #56]
.LBB167_74:
	ret
.LBB167_75:
	cmp	w0, #6
	b.ne	.LBB167_82
	cmp	x18, x10
	b.hs	.LBB167_51
	cmp	x16, x9
	mov	w14, #5
	b.ne	.LBB167_79
	cmp	x11, x10
	b.eq	.LBB167_51
.LBB167_79:
	mov	x15, x10
	mov	x17, x8
	mov	x1, x9
	mov	x5, x11
	mov	x8, x18
	mov	x9, x16
	mov	x11, xzr
	b	.LBB167_73
.LBB167_80:
	cmp	w0, #3
	b.eq	.LBB167_51
	mov	x15, xzr
	mov	x17, xzr
	mov	x1, xzr
	mov	w14, #6
	b	.LBB167_56
.LBB167_82:
	cmp	x18, x10
	b.ne	.LBB167_51
	cmp	x10, x11
	b.hs	.LBB167_51
	mov	w14, #3
	mov	x15, x10
	mov	x17, x8
	mov	x1, x9
	mov	x5, x11
	mov	x8, x10
	mov	x9, x16
	mov	x11, x6
	b	.LBB167_73
.Lfunc_end167:
	.size	wagtenib_node_next, .Lfunc_end167-wagtenib_node_next
	.section	.rodata.wagtenib_node_next,"a",@progbits
.LJTI167_0:
	.byte	(.LBB167_11-.LBB167_2)>>2
	.byte	(.LBB167_2-.LBB167_2)>>2
	.byte	(.LBB167_5-.LBB167_2)>>2
	.byte	(.LBB167_7-.LBB167_2)>>2
	.byte	(.LBB167_3-.LBB167_2)>>2
	.byte	(.LBB167_9-.LBB167_2)>>2
	.byte	(.LBB167_21-.LBB167_2)>>2
	.byte	(.LBB167_8-.LBB167_2)>>2
	.byte	(.LBB167_23-.LBB167_2)>>2
	.byte	(.LBB167_4-.LBB167_2)>>2
.LJTI167_1:
	.byte	(.LBB167_32-.LBB167_32)>>2
	.byte	(.LBB167_47-.LBB167_32)>>2
	.byte	(.LBB167_38-.LBB167_32)>>2
	.byte	(.LBB167_41-.LBB167_32)>>2
	.byte	(.LBB167_34-.LBB167_32)>>2
	.byte	(.LBB167_50-.LBB167_32)>>2
	.byte	(.LBB167_52-.LBB167_32)>>2
	.byte	(.LBB167_45-.LBB167_32)>>2
	.byte	(.LBB167_54-.LBB167_32)>>2
	.byte	(.LBB167_36-.LBB167_32)>>2
	.section	.text.wagtenib_node_start,"ax",@progbits
	.globl	wagtenib_node_start
	.p2align	2
	.type	wagtenib_node_start,@function
wagtenib_node_start:
	sub	sp, sp, #192
	cmp	x0, #0
	mov	w8, #4096
	stp	x22, x21, [sp, #160]
	csel	x8, x8, xzr, eq
	stp	x20, x19, [sp, #176]
	mov	x21, x2
	mov	x19, x1
	add	x20, x0, x8
	stp	x29, x30, [sp, #96]
	stp	x28, x27, [sp, #112]
	add	x29, sp, #96
	stp	x26, x25, [sp, #128]
	stp	x24, x23, [sp, #144]
	cbz	x1, .LBB168_16
	add	x0, sp, #32
	mov	x1, x20
	mov	x2, x19
	bl	"ct_node::lock_reading::said_in"
	ldrb	w8, [sp, #32]
	cmp	w8, #1
	b.ne	.LBB168_23
	ldp	x13, x14, [sp, #40]
	ldr	w27, [x21, #192]
	adrp	x28, .Lstatic.1
	add	x28, x28, :lo12:.Lstatic.1
	tbnz	w27, #0, .LBB168_18
.LBB168_3:
	mov	x16, xzr
	mov	x15, xzr
	mov	w1, wzr
	tbnz	w27, #2, .LBB168_25
.LBB168_4:
	mov	x17, xzr
	mov	x18, xzr
	mov	w2, wzr
	tbnz	w27, #3, .LBB168_31
.LBB168_5:
	mov	x4, xzr
	mov	x3, xzr
	mov	w5, wzr
	tbnz	w27, #1, .LBB168_37
.LBB168_6:
	mov	x7, xzr
	mov	x6, xzr
	mov	w8, wzr
	and	w9, w27, #0xff
	cbz	x19, .LBB168_43
.LBB168_7:
	tbz	w27, #0, .LBB168_11
	cmp	x13, x16
	ccmp	x14, x15, #0, eq
	csel	w10, wzr, w1, ne
	tbnz	w10, #0, .LBB168_11
	cmp	x16, x13
	mov	w0, #118
	b.hi	.LBB168_54
	cmp	x15, x14
	b.hs	.LBB168_54
.LBB168_11:
	tbnz	w9, #4, .LBB168_45
	tbz	w27, #3, .LBB168_50
.LBB168_13:
	cmp	x13, x4
	ccmp	x14, x3, #0, eq
	csel	w8, wzr, w5, ne
	tbnz	w8, #0, .LBB168_50
	cmp	x4, x13
	mov	w0, #122
	b.hi	.LBB168_54
	cmp	x3, x14
	b.lo	.LBB168_50
	b	.LBB168_54
.LBB168_16:
	ldr	w27, [x21, #192]
	tbnz	w27, #7, .LBB168_23
	mov	x14, xzr
	mov	x13, xzr
	adrp	x28, .Lstatic.1
	add	x28, x28, :lo12:.Lstatic.1
	tbz	w27, #0, .LBB168_3
.LBB168_18:
	movi	v0.2d, #0000000000000000
	ldp	x16, x15, [x21]
	mov	x8, xzr
	add	x9, x21, #16
	stp	q0, q0, [sp, #32]
	stp	q0, q0, [sp, #64]
.LBB168_19:
	ldrb	w10, [x9], #1
	add	x12, sp, #32
	add	x12, x12, x8
	add	x8, x8, #2
	lsr	x11, x10, #4
	and	x10, x10, #0xf
	cmp	x8, #64
	ldrb	w10, [x28, x10]
	ldrb	w11, [x28, x11]
	strb	w10, [x12, #1]
	strb	w11, [x12]
	b.ne	.LBB168_19
	cmp	x19, #103
	b.lo	.LBB168_24
	mov	x0, x20
	ldr	w9, [sp, #32]
	ldr	w8, [x0, #39]!
	cmp	w8, w9
	b.ne	.LBB168_24
	add	x2, sp, #32
	mov	w1, #64
	mov	x22, x13
	mov	x23, x14
	mov	x24, x15
	mov	x25, x16
	bl	"core::cmp::slices::groups_equal::<i8,31'core::cmp::numbers::U8PartialEq{}>"
	mov	x16, x25
	mov	x15, x24
	mov	x14, x23
	mov	x13, x22
	mov	w1, w0
	tbnz	w27, #2, .LBB168_25
	b	.LBB168_4
.LBB168_23:
	mov	w0, #114
	b	.LBB168_54
.LBB168_24:
	mov	w1, wzr
	tbz	w27, #2, .LBB168_4
.LBB168_25:
	movi	v0.2d, #0000000000000000
	ldp	x17, x18, [x21, #96]
	mov	x8, xzr
	add	x9, x21, #112
	stp	q0, q0, [sp, #32]
	stp	q0, q0, [sp, #64]
.LBB168_26:
	ldrb	w10, [x9], #1
	add	x12, sp, #32
	add	x12, x12, x8
	add	x8, x8, #2
	lsr	x11, x10, #4
	and	x10, x10, #0xf
	cmp	x8, #64
	ldrb	w10, [x28, x10]
	ldrb	w11, [x28, x11]
	strb	w10, [x12, #1]
	strb	w11, [x12]
	b.ne	.LBB168_26
	cmp	x19, #103
	b.lo	.LBB168_30
	mov	x0, x20
	ldr	w9, [sp, #32]
	ldr	w8, [x0, #39]!
	cmp	w8, w9
	b.ne	.LBB168_30
	add	x2, sp, #32
	str	w1, [sp, #20]
	mov	w1, #64
	str	x13, [sp, #24]
	mov	x23, x14
	mov	x24, x15
	mov	x25, x16
	mov	x26, x17
	mov	x22, x18
	bl	"core::cmp::slices::groups_equal::<i8,31'core::cmp::numbers::U8PartialEq{}>"
	ldr	w1, [sp, #20]
	ldr	x13, [sp, #24]
	mov	x18, x22
	mov	x17, x26
	mov	x16, x25
	mov	x15, x24
	mov	x14, x23
	mov	w2, w0
	tbnz	w27, #3, .LBB168_31
	b	.LBB168_5
.LBB168_30:
	mov	w2, wzr
	tbz	w27, #3, .LBB168_5
.LBB168_31:
	movi	v0.2d, #0000000000000000
	ldp	x4, x3, [x21, #144]
	mov	x8, xzr
	add	x9, x21, #160
	stp	q0, q0, [sp, #32]
	stp	q0, q0, [sp, #64]
.LBB168_32:
	ldrb	w10, [x9], #1
	add	x12, sp, #32
	add	x12, x12, x8
	add	x8, x8, #2
	lsr	x11, x10, #4
	and	x10, x10, #0xf
	cmp	x8, #64
	ldrb	w10, [x28, x10]
	ldrb	w11, [x28, x11]
	strb	w10, [x12, #1]
	strb	w11, [x12]
	b.ne	.LBB168_32
	cmp	x19, #103
	b.lo	.LBB168_36
	mov	x0, x20
	ldr	w9, [sp, #32]
	ldr	w8, [x0, #39]!
	cmp	w8, w9
	b.ne	.LBB168_36
	stp	w2, w1, [sp, #16]
	add	x2, sp, #32
	mov	w1, #64
	str	x13, [sp, #24]
	mov	x25, x14
	mov	x26, x15
	mov	x23, x16
	stp	x3, x17, [sp]
	mov	x22, x18
	mov	x24, x4
	bl	"core::cmp::slices::groups_equal::<i8,31'core::cmp::numbers::U8PartialEq{}>"
	ldp	x3, x17, [sp]
	mov	x4, x24
	ldp	w2, w1, [sp, #16]
	ldr	x13, [sp, #24]
	mov	x18, x22
	mov	x16, x23
	mov	x15, x26
	mov	x14, x25
	mov	w5, w0
	tbnz	w27, #1, .LBB168_37
	b	.LBB168_6
.LBB168_36:
	mov	w5, wzr
	tbz	w27, #1, .LBB168_6
.LBB168_37:
	movi	v0.2d, #0000000000000000
	ldp	x7, x6, [x21, #48]
	mov	x8, xzr
	add	x9, x21, #64
	stp	q0, q0, [sp, #32]
	stp	q0, q0, [sp, #64]
.LBB168_38:
	ldrb	w10, [x9], #1
	add	x12, sp, #32
	add	x12, x12, x8
	add	x8, x8, #2
	lsr	x11, x10, #4
	and	x10, x10, #0xf
	cmp	x8, #64
	ldrb	w10, [x28, x10]
	ldrb	w11, [x28, x11]
	strb	w10, [x12, #1]
	strb	w11, [x12]
	b.ne	.LBB168_38
	cmp	x19, #103
	b.lo	.LBB168_42
	ldr	w8, [x20, #39]!
	ldr	w9, [sp, #32]
	cmp	w8, w9
	b.ne	.LBB168_42
	stp	w2, w1, [sp, #16]
	add	x2, sp, #32
	mov	x0, x20
	mov	w1, #64
	str	x13, [sp, #24]
	mov	x21, x14
	mov	x28, x15
	mov	x23, x16
	mov	x22, x17
	mov	x24, x18
	mov	x25, x3
	mov	x26, x4
	str	w5, [sp, #8]
	mov	x20, x6
	str	x7, [sp]
	bl	"core::cmp::slices::groups_equal::<i8,31'core::cmp::numbers::U8PartialEq{}>"
	ldp	w2, w1, [sp, #16]
	ldr	x7, [sp]
	ldr	w5, [sp, #8]
	mov	x6, x20
	ldr	x13, [sp, #24]
	mov	x4, x26
	mov	x3, x25
	mov	x18, x24
	mov	x17, x22
	mov	x16, x23
	mov	x15, x28
	mov	x14, x21
	mov	w8, w0
	and	w9, w27, #0xff
	cbnz	x19, .LBB168_7
	b	.LBB168_43
.LBB168_42:
	mov	w8, wzr
	and	w9, w27, #0xff
	cbnz	x19, .LBB168_7
.LBB168_43:
	and	w8, w9, #0x60
	and	w9, w27, #0xf
	cmp	w8, #64
	mov	w8, #116
	ccmp	w9, #0, #0, eq
.LBB168_44:
	cinc	w0, w8, ne
	b	.LBB168_54
.LBB168_45:
	tbnz	w27, #1, .LBB168_48
	tbz	w27, #3, .LBB168_50
	mov	w0, #121
	b	.LBB168_54
.LBB168_48:
	cmp	x13, x7
	ccmp	x14, x6, #0, eq
	csel	w9, wzr, w8, ne
	cset	w8, eq
	tbz	w9, #0, .LBB168_55
	tbnz	w27, #3, .LBB168_58
.LBB168_50:
	tbz	w27, #2, .LBB168_53
	cmp	x13, x17
	ccmp	x14, x18, #0, eq
	csel	w8, wzr, w2, ne
	tbnz	w8, #0, .LBB168_53
	cmp	x18, x14
	ccmp	x17, x13, #2, lo
	b.hi	.LBB168_62
.LBB168_53:
	mov	w0, wzr
.LBB168_54:
	ldp	x20, x19, [sp, #176]
	ldp	x22, x21, [sp, #160]
	ldp	x24, x23, [sp, #144]
	ldp	x26, x25, [sp, #128]
	ldp	x28, x27, [sp, #112]
	ldp	x29, x30, [sp, #96]
	add	sp, sp, #192
	ret
.LBB168_55:
	cmp	x7, x13
	b.hi	.LBB168_63
	cmp	x6, x14
	b.hs	.LBB168_63
	tbz	w27, #3, .LBB168_50
.LBB168_58:
	cmp	x7, x4
	b.ne	.LBB168_60
	cmp	x6, x3
	b.eq	.LBB168_13
.LBB168_60:
	cmp	x4, x7
	mov	w0, #121
	b.hi	.LBB168_54
	cmp	x3, x6
	b.lo	.LBB168_13
	b	.LBB168_54
.LBB168_62:
	mov	w0, #123
	b	.LBB168_54
.LBB168_63:
	cmp	w8, #0
	mov	w8, #119
	b	.LBB168_44
.Lfunc_end168:
	.size	wagtenib_node_start, .Lfunc_end168-wagtenib_node_start
	.section	.text.wagtenib_note_key_id,"ax",@progbits
	.globl	wagtenib_note_key_id
	.p2align	2
	.type	wagtenib_note_key_id,@function
wagtenib_note_key_id:
	sub	sp, sp, #112
	stp	x29, x30, [sp, #80]
	add	x29, sp, #80
	mov	w8, #10
	movi	v0.2d, #0000000000000000
	strh	w8, [x29, #28]
	mov	w8, #4096
	cmp	x0, #0
	strb	w2, [x29, #29]
	mov	w10, #2
	csel	x9, x8, xzr, eq
	cmp	x3, #0
	mov	w2, #3
	add	x9, x0, x9
	csel	x8, x8, xzr, eq
	sub	x0, x29, #32
	stp	x9, x1, [sp]
	add	x9, x29, #28
	add	x8, x3, x8
	mov	x1, sp
	str	x19, [sp, #96]
	mov	x19, x5
	stp	q0, q0, [x29, #-32]
	stp	x9, x10, [sp, #16]
	stp	x8, x4, [sp, #32]
	bl	"ct_tree::hash::Sha256HashNodeHash::hash"
	ldur	w8, [x29, #-32]
	ldp	x29, x30, [sp, #80]
	str	w8, [x19]
	ldr	x19, [sp, #96]
	add	sp, sp, #112
	ret
.Lfunc_end169:
	.size	wagtenib_note_key_id, .Lfunc_end169-wagtenib_note_key_id
	.section	.text.wagtenib_push,"ax",@progbits
	.globl	wagtenib_push
	.p2align	2
	.type	wagtenib_push,@function
wagtenib_push:
	mov	w9, #4096
	cmp	x2, #0
	csel	x9, x9, xzr, eq
	cmp	x3, x1
	b.hs	.LBB170_2
	mov	w0, #9
	ret
.LBB170_2:
	sub	sp, sp, #96
	str	x21, [sp, #64]
	mov	x8, x1
	add	x21, x2, x9
	stp	x20, x19, [sp, #80]
	mov	x20, x3
	mov	x3, x0
	add	x0, sp, #8
	mov	x1, x21
	mov	x2, x8
	stp	x29, x30, [sp, #48]
	add	x29, sp, #48
	mov	x19, x5
	bl	"ct_tree::subtrees::with_leaf::<#0f46d2847b2ce1ce>"
	ldr	x8, [sp, #8]
	cmp	x20, x8
	b.ls	.LBB170_4
	ldp	q0, q1, [sp, #16]
	add	x9, x21, x8, lsl #5
	mov	w0, wzr
	add	x8, x8, #1
	stp	q0, q1, [x9]
	str	x8, [x19]
	ldp	x20, x19, [sp, #80]
	ldr	x21, [sp, #64]
	ldp	x29, x30, [sp, #48]
	add	sp, sp, #96
	ret
.LBB170_4:
	mov	w0, #9
	ldp	x20, x19, [sp, #80]
	ldr	x21, [sp, #64]
	ldp	x29, x30, [sp, #48]
	add	sp, sp, #96
	ret
.Lfunc_end170:
	.size	wagtenib_push, .Lfunc_end170-wagtenib_push
	.section	.text.wagtenib_read_checkpoint,"ax",@progbits
	.globl	wagtenib_read_checkpoint
	.p2align	2
	.type	wagtenib_read_checkpoint,@function
wagtenib_read_checkpoint:
	sub	sp, sp, #112
	cmp	x0, #0
	mov	w9, #4096
	mov	x8, x0
	csel	x9, x9, xzr, eq
	str	x19, [sp, #96]
	mov	x19, x2
	mov	x2, x1
	mov	x0, sp
	add	x1, x8, x9
	stp	x29, x30, [sp, #80]
	add	x29, sp, #80
	stp	xzr, xzr, [sp]
	str	xzr, [sp, #16]
	bl	"core::str::utf8::from_utf8"
	ldrb	w8, [sp]
	cbz	w8, .LBB171_2
.LBB171_1:
	mov	w0, #96
	ldp	x29, x30, [sp, #80]
	ldr	x19, [sp, #96]
	add	sp, sp, #112
	ret
.LBB171_2:
	movi	v0.2d, #0000000000000000
	ldp	x1, x2, [sp, #8]
	mov	x0, sp
	str	xzr, [sp, #64]
	stp	q0, q0, [sp]
	stp	q0, q0, [sp, #32]
	bl	"libwagtenib::message::checkpoint_of"
	ldrb	w8, [sp]
	cbz	w8, .LBB171_4
	mov	w0, #8
	ldp	x29, x30, [sp, #80]
	ldr	x19, [sp, #96]
	add	sp, sp, #112
	ret
.LBB171_4:
	ldrb	w8, [sp, #8]
	cmp	w8, #1
	b.ne	.LBB171_1
	ldur	q0, [sp, #24]
	ldur	q1, [sp, #40]
	mov	w0, wzr
	ldur	q2, [sp, #56]
	ext	v0.16b, v0.16b, v0.16b, #8
	str	q2, [x19, #32]
	stp	q0, q1, [x19]
	ldp	x29, x30, [sp, #80]
	ldr	x19, [sp, #96]
	add	sp, sp, #112
	ret
.Lfunc_end171:
	.size	wagtenib_read_checkpoint, .Lfunc_end171-wagtenib_read_checkpoint
	.section	.rodata.cst16,"aM",@progbits,16
	.p2align	4, 0x0
.LCPI172_0:
	.word	1779033703
	.word	3144134277
	.word	1013904242
	.word	2773480762
.LCPI172_1:
	.word	1359893119
	.word	2600822924
	.word	528734635
	.word	1541459225
	.section	.text.wagtenib_root,"ax",@progbits
	.globl	wagtenib_root
	.p2align	2
	.type	wagtenib_root,@function
wagtenib_root:
	sub	sp, sp, #336
	stp	x29, x30, [sp, #256]
	add	x29, sp, #256
	movi	v0.2d, #0000000000000000
	add	x8, x29, #31
	cmp	x0, #0
	stp	x20, x19, [sp, #320]
	stp	xzr, x8, [sp, #64]
	mov	w8, #4096
	mov	x19, x2
	csel	x8, x8, xzr, eq
	str	x28, [sp, #272]
	stp	x24, x23, [sp, #288]
	stp	x22, x21, [sp, #304]
	stp	q0, q0, [sp]
	stp	q0, q0, [sp, #32]
	stp	xzr, xzr, [sp, #80]
	cbz	x1, .LBB172_12
	mov	x20, x1
	mov	x3, xzr
	add	x21, x0, x8
	sub	x24, x29, #112
	add	x22, x29, #31
	b	.LBB172_5
.LBB172_2:
	ldr	x8, [sp, #88]
	cmp	x8, x23
	b.eq	.LBB172_8
.LBB172_3:
	add	x8, x22, x23, lsl #5
	ldur	q0, [x24, #24]
	ldur	q1, [x24, #8]
	add	x9, x23, #1
	stp	q1, q0, [x8]
	str	x9, [sp, #80]
.LBB172_4:
	ldr	x8, [sp, #64]
	subs	x20, x20, #1
	add	x21, x21, #32
	add	x3, x8, #1
	str	x3, [sp, #64]
	b.eq	.LBB172_10
.LBB172_5:
	ldr	x23, [sp, #80]
	sub	x0, x29, #112
	mov	x1, x22
	mov	x4, x21
	mov	x2, x23
	bl	"ct_tree::subtrees::with_leaf::<#0f46d2847b2ce1ce>"
	ldur	x8, [x29, #-112]
	cmp	x8, x23
	b.eq	.LBB172_2
	add	x9, x22, x8, lsl #5
	ldur	q0, [x24, #24]
	ldur	q1, [x24, #8]
	add	x8, x8, #1
	cmp	x23, x8
	stp	q1, q0, [x9]
	b.ls	.LBB172_4
	str	x8, [sp, #80]
	b	.LBB172_4
.LBB172_8:
	add	x8, sp, #64
	add	x0, x8, #8
	bl	"std_alloc::vec::Vec::grow_amortized::<#2ae5f53fc13d7637>"
	cbz	w0, .LBB172_15
	ldp	x22, x23, [sp, #72]
	b	.LBB172_3
.LBB172_10:
	movi	v0.2d, #0000000000000000
	ldp	x20, x2, [sp, #72]
	ldr	x21, [sp, #88]
	add	x0, sp, #96
	mov	x1, x20
	stp	q0, q0, [sp, #96]
	bl	"ct_tree::subtrees::root_of_subtrees::<#0f46d2847b2ce1ce>"
	ldp	q0, q1, [sp, #96]
	stp	q0, q1, [sp, #32]
	cbz	x21, .LBB172_13
	mov	x0, x20
	bl	rattle_dealloc
	b	.LBB172_13
.LBB172_12:
	adrp	x8, .LCPI172_0
	stp	q0, q0, [x29, #-80]
	adrp	x1, .Lstatic.5
	add	x1, x1, :lo12:.Lstatic.5
	ldr	q1, [x8, :lo12:.LCPI172_0]
	adrp	x8, .LCPI172_1
	stp	q0, q0, [x29, #-48]
	ldr	q0, [x8, :lo12:.LCPI172_1]
	sub	x0, x29, #112
	mov	w2, #56
	stur	xzr, [x29, #-16]
	stp	q1, q0, [x29, #-112]
	bl	"sha2::block256::Core256::update"
	sub	x0, x29, #112
	sub	x1, x29, #120
	mov	w2, #8
	stur	xzr, [x29, #-120]
	bl	"sha2::block256::Core256::update"
	ldp	q0, q1, [x29, #-112]
	rev32	v0.16b, v0.16b
	rev32	v1.16b, v1.16b
	stp	q0, q1, [sp, #96]
	ldp	q0, q1, [sp, #96]
	stp	q0, q1, [sp, #32]
.LBB172_13:
	ldp	q0, q1, [sp, #32]
	mov	w0, wzr
	stp	q0, q1, [sp]
	stp	q0, q1, [x19]
.LBB172_14:
	ldp	x20, x19, [sp, #320]
	ldr	x28, [sp, #272]
	ldp	x22, x21, [sp, #304]
	ldp	x24, x23, [sp, #288]
	ldp	x29, x30, [sp, #256]
	add	sp, sp, #336
	ret
.LBB172_15:
	ldr	x8, [sp, #88]
	cbz	x8, .LBB172_17
	ldr	x0, [sp, #72]
	bl	rattle_dealloc
.LBB172_17:
	mov	w0, #8
	b	.LBB172_14
.Lfunc_end172:
	.size	wagtenib_root, .Lfunc_end172-wagtenib_root
	.section	.text.wagtenib_root_of_tiles,"ax",@progbits
	.globl	wagtenib_root_of_tiles
	.p2align	2
	.type	wagtenib_root_of_tiles,@function
wagtenib_root_of_tiles:
	sub	sp, sp, #384
	cmp	x1, #0
	mov	w8, #4096
	stp	x24, x23, [sp, #336]
	csel	x24, x8, xzr, eq
	cmp	x3, #0
	stp	x26, x25, [sp, #320]
	csel	x25, x8, xzr, eq
	stp	x29, x30, [sp, #288]
	add	x29, sp, #288
	stp	x28, x27, [sp, #304]
	stp	x22, x21, [sp, #352]
	stp	x20, x19, [sp, #368]
	cbz	x0, .LBB173_3
	movi	v0.2d, #0000000000000000
	mov	x21, x0
	mov	x20, x4
	mov	x23, x1
	mov	x22, x2
	mov	x19, x3
	sub	x26, x29, #128
	sub	x27, x0, #1
	sub	x0, x29, #96
	sub	x1, x21, #1
	sub	x2, x21, #1
	sub	x3, x21, #1
	mov	x4, x21
	mov	x28, x5
	stp	q0, q0, [x26, #32]
	bl	"ct_tiles::needed::needed"
	ldurb	w8, [x29, #-96]
	cbz	w8, .LBB173_4
	mov	w22, #8
	b	.LBB173_46
.LBB173_3:
	mov	w22, #64
	b	.LBB173_46
.LBB173_4:
	ldp	x0, x8, [x29, #-88]
	movi	v0.2d, #0000000000000000
	str	x28, [sp, #16]
	ldur	x28, [x29, #-72]
	cmp	x8, x20
	stp	q0, q0, [x26, #32]
	b.hs	.LBB173_6
	mov	x20, xzr
	mov	x24, xzr
	mov	w25, wzr
	mov	w22, #65
	mov	w19, #1
	cbnz	x28, .LBB173_8
	b	.LBB173_9
.LBB173_6:
	str	x0, [sp, #8]
	sub	x0, x29, #96
	add	x1, x23, x24
	add	x3, x19, x25
	mov	x2, x22
	mov	x4, x20
	bl	"libwagtenib::tiles::pieces_of"
	ldurb	w8, [x29, #-96]
	cbz	w8, .LBB173_12
	mov	x20, xzr
	mov	x24, xzr
	mov	w25, wzr
	mov	w22, #8
	mov	w19, #1
	ldr	x0, [sp, #8]
	cbz	x28, .LBB173_9
.LBB173_8:
	bl	rattle_dealloc
.LBB173_9:
	cbz	w25, .LBB173_46
	movi	v0.2d, #0000000000000000
	sub	x0, x29, #96
	sub	x1, x21, #1
	sub	x2, x21, #1
	sub	x3, x21, #1
	mov	x4, x21
	strb	wzr, [sp, #26]
	strh	wzr, [sp, #24]
	stp	q0, q0, [x26, #32]
	bl	"ct_tiles::needed::needed"
	ldurb	w8, [x29, #-96]
	cbz	w8, .LBB173_13
	mov	w26, w19
	mov	w21, wzr
	mov	x25, xzr
	mov	x27, xzr
	mov	x28, xzr
	mov	w23, wzr
	mov	w22, #8
	cbnz	x24, .LBB173_38
	b	.LBB173_42
.LBB173_12:
	ldp	x24, x8, [x29, #-80]
	mov	w22, wzr
	ldur	x20, [x29, #-88]
	mov	w25, #1
	cmp	x8, #0
	cset	w19, eq
	ldr	x0, [sp, #8]
	cbnz	x28, .LBB173_8
	b	.LBB173_9
.LBB173_13:
	ldp	x21, x8, [x29, #-88]
	mov	x22, xzr
	ldur	x16, [x29, #-72]
	mov	x9, xzr
	add	x25, x24, #1
.LBB173_14:
	cmp	x8, x22
	b.eq	.LBB173_21
	add	x22, x22, #1
	cmp	x25, x22
	b.eq	.LBB173_18
	add	x10, x20, x9
	ldr	x10, [x10, #8]
	tst	x10, #0x1f
	b.ne	.LBB173_18
	add	x11, x21, x9
	add	x9, x9, #24
	ldr	x11, [x11, #16]
	cmp	x11, x10, lsr #5
	b.eq	.LBB173_14
.LBB173_18:
	mov	w26, w19
	cbz	x16, .LBB173_20
	mov	x0, x21
	bl	rattle_dealloc
.LBB173_20:
	cmp	x25, x22
	mov	w8, #66
	mov	w21, wzr
	mov	x27, xzr
	mov	x28, xzr
	mov	w23, wzr
	mov	x25, xzr
	cinc	w22, w8, ne
	cbnz	x24, .LBB173_38
	b	.LBB173_42
.LBB173_21:
	stp	x21, x8, [sp, #32]
	stp	x20, x24, [sp, #48]
	cbz	x8, .LBB173_29
	lsr	x9, x27, #8
	add	x10, x21, #8
	add	x11, x20, #8
	mov	x12, x24
	b	.LBB173_24
.LBB173_23:
	sub	x8, x8, #1
	add	x10, x10, #24
	add	x11, x11, #24
	sub	x12, x12, #1
	cbz	x8, .LBB173_29
.LBB173_24:
	cbz	x12, .LBB173_29
	ldur	x13, [x10, #-8]
	cbnz	x13, .LBB173_23
	ldr	x13, [x10]
	cmp	x9, x13
	b.lo	.LBB173_23
	ldr	x14, [x11]
	sub	x15, x27, x13, lsl #8
	cmp	x15, x14, lsr #5
	b.hs	.LBB173_23
	ldur	x8, [x11, #-8]
	sub	x8, x8, x13, lsl #13
	add	x8, x8, x27, lsl #5
	ldp	q0, q1, [x8]
	stp	q0, q1, [sp, #128]
	b	.LBB173_30
.LBB173_29:
	movi	v0.2d, #0000000000000000
	stp	q0, q0, [sp, #128]
.LBB173_30:
	ldp	q0, q1, [sp, #128]
	mov	x25, x16
	stp	q0, q1, [sp, #96]
	cbz	x27, .LBB173_35
	mov	x22, xzr
	b	.LBB173_33
.LBB173_32:
	movi	v0.2d, #0000000000000000
	sub	x0, x29, #96
	add	x1, sp, #32
	sub	x3, x27, #1
	mov	x2, x22
	stp	q0, q0, [x26, #32]
	bl	"ct_tiles::source::node::<#24ff04b9227ecf06>"
	ldp	q0, q1, [x26, #32]
	adrp	x8, .Lstatic.8
	add	x8, x8, :lo12:.Lstatic.8
	mov	w9, #1
	sub	x0, x29, #48
	stp	x8, x9, [x29, #-96]
	sub	x8, x29, #128
	mov	w9, #32
	stp	q0, q1, [x26]
	movi	v0.2d, #0000000000000000
	sub	x1, x29, #96
	stp	x8, x9, [x29, #-80]
	add	x8, sp, #96
	mov	w2, #3
	stp	x8, x9, [x29, #-64]
	stp	q0, q0, [x26, #80]
	bl	"ct_tree::hash::Sha256HashNodeHash::hash"
	ldp	q0, q1, [x26, #80]
	stp	q0, q1, [sp, #64]
	lsr	x27, x27, #1
	add	x22, x22, #1
	ldp	q0, q1, [sp, #64]
	stp	q0, q1, [sp, #96]
	cbz	x27, .LBB173_35
.LBB173_33:
	tbnz	w27, #0, .LBB173_32
	ldp	q0, q1, [sp, #96]
	stp	q0, q1, [sp, #64]
	lsr	x27, x27, #1
	add	x22, x22, #1
	ldp	q0, q1, [sp, #64]
	stp	q0, q1, [sp, #96]
	cbnz	x27, .LBB173_33
.LBB173_35:
	mov	w26, w19
	ldrh	w8, [sp, #96]
	ldrb	w9, [sp, #98]
	ldur	w22, [sp, #99]
	ldur	x19, [sp, #103]
	ldur	x27, [sp, #111]
	ldur	x28, [sp, #119]
	ldrb	w23, [sp, #127]
	strh	w8, [sp, #28]
	strb	w9, [sp, #30]
	cbz	x25, .LBB173_37
	mov	x0, x21
	bl	rattle_dealloc
.LBB173_37:
	ldrh	w8, [sp, #28]
	ldrb	w9, [sp, #30]
	mov	w21, #1
	mov	x25, x19
	strh	w8, [sp, #24]
	strb	w9, [sp, #26]
	cbz	x24, .LBB173_42
.LBB173_38:
	add	x19, x20, #16
	b	.LBB173_40
.LBB173_39:
	subs	x24, x24, #1
	add	x19, x19, #24
	b.eq	.LBB173_42
.LBB173_40:
	ldr	x8, [x19]
	cbz	x8, .LBB173_39
	ldur	x0, [x19, #-16]
	bl	rattle_dealloc
	b	.LBB173_39
.LBB173_42:
	tbnz	w26, #0, .LBB173_44
	mov	x0, x20
	bl	rattle_dealloc
.LBB173_44:
	cbz	w21, .LBB173_46
	ldr	x10, [sp, #16]
	ldrh	w8, [sp, #24]
	ldrb	w9, [sp, #26]
	stur	w22, [x10, #3]
	mov	w22, wzr
	strh	w8, [x10]
	strb	w9, [x10, #2]
	stur	x25, [x10, #7]
	stur	x27, [x10, #15]
	stur	x28, [x10, #23]
	strb	w23, [x10, #31]
.LBB173_46:
	mov	w0, w22
	ldp	x20, x19, [sp, #368]
	ldp	x22, x21, [sp, #352]
	ldp	x24, x23, [sp, #336]
	ldp	x26, x25, [sp, #320]
	ldp	x28, x27, [sp, #304]
	ldp	x29, x30, [sp, #288]
	add	sp, sp, #384
	ret
.Lfunc_end173:
	.size	wagtenib_root_of_tiles, .Lfunc_end173-wagtenib_root_of_tiles
	.section	.text.wagtenib_subtrees_root,"ax",@progbits
	.globl	wagtenib_subtrees_root
	.p2align	2
	.type	wagtenib_subtrees_root,@function
wagtenib_subtrees_root:
	sub	sp, sp, #64
	movi	v0.2d, #0000000000000000
	mov	w9, #4096
	cmp	x0, #0
	mov	x8, x0
	csel	x9, x9, xzr, eq
	str	x19, [sp, #48]
	mov	x19, x2
	mov	x2, x1
	mov	x0, sp
	add	x1, x8, x9
	stp	x29, x30, [sp, #32]
	add	x29, sp, #32
	stp	q0, q0, [sp]
	bl	"ct_tree::subtrees::root_of_subtrees::<#0f46d2847b2ce1ce>"
	ldp	q0, q1, [sp]
	ldp	x29, x30, [sp, #32]
	stp	q0, q1, [x19]
	ldr	x19, [sp, #48]
	add	sp, sp, #64
	ret
.Lfunc_end174:
	.size	wagtenib_subtrees_root, .Lfunc_end174-wagtenib_subtrees_root
	.section	.text.wagtenib_verify_consistency,"ax",@progbits
	.globl	wagtenib_verify_consistency
	.p2align	2
	.type	wagtenib_verify_consistency,@function
wagtenib_verify_consistency:
	cmp	x4, #0
	mov	w8, #4096
	mov	x9, x1
	csel	x8, x8, xzr, eq
	mov	w1, #6
	cbz	x0, .LBB175_8
	cmp	x9, x0
	b.ls	.LBB175_8
	cbz	x5, .LBB175_9
	mov	x6, x3
	sub	x10, x0, #1
	add	x8, x4, x8
	sub	x1, x9, #1
	tbnz	w10, #0, .LBB175_5
	mov	x0, x10
	b	.LBB175_6
.LBB175_5:
	lsr	x0, x10, #1
	lsr	x1, x1, #1
	mov	w9, w10
	mov	x10, x0
	tbnz	w9, #1, .LBB175_5
.LBB175_6:
	stp	x29, x30, [sp, #-16]!
	mov	x29, sp
	cbz	x0, .LBB175_10
	sub	x4, x5, #1
	add	x3, x8, #32
	mov	x5, x2
	mov	x2, x8
	bl	"ct_verify::consistency::check_from::<#0f46d2847b2ce1ce>"
	tst	w0, #0xff
	ldp	x29, x30, [sp], #16
	b.eq	.LBB175_11
.LBB175_8:
	and	w8, w1, #0xff
	add	w0, w8, #1
	ret
.LBB175_9:
	mov	w1, #4
	and	w8, w1, #0xff
	add	w0, w8, #1
	ret
.LBB175_10:
	mov	x3, x8
	mov	x4, x5
	mov	x5, x2
	bl	"ct_verify::consistency::check_from::<#0f46d2847b2ce1ce>"
	tst	w0, #0xff
	ldp	x29, x30, [sp], #16
	b.ne	.LBB175_8
.LBB175_11:
	mov	w0, wzr
	ret
.Lfunc_end175:
	.size	wagtenib_verify_consistency, .Lfunc_end175-wagtenib_verify_consistency
	.section	.text.wagtenib_verify_inclusion,"ax",@progbits
	.globl	wagtenib_verify_inclusion
	.p2align	2
	.type	wagtenib_verify_inclusion,@function
wagtenib_verify_inclusion:
	stp	x29, x30, [sp, #-16]!
	cmp	x3, #0
	mov	w8, #4096
	mov	x29, sp
	csel	x8, x8, xzr, eq
	add	x3, x3, x8
	bl	"ct_verify::inclusion::verify_inclusion::<#0f46d2847b2ce1ce>"
	and	w8, w1, #0xff
	tst	w0, #0xff
	csinc	w0, wzr, w8, eq
	ldp	x29, x30, [sp], #16
	ret
.Lfunc_end176:
	.size	wagtenib_verify_inclusion, .Lfunc_end176-wagtenib_verify_inclusion
	.section	.text.wagtenib_verify_subtree,"ax",@progbits
	.globl	wagtenib_verify_subtree
	.p2align	2
	.type	wagtenib_verify_subtree,@function
wagtenib_verify_subtree:
	sub	sp, sp, #192
	movi	v0.2d, #0000000000000000
	mov	w8, #4096
	cmp	x5, #0
	csel	x8, x8, xzr, eq
	subs	x9, x1, x0
	stp	x29, x30, [sp, #160]
	stp	x20, x19, [sp, #176]
	add	x29, sp, #160
	strb	wzr, [sp, #64]
	stp	q0, q0, [sp]
	stp	q0, q0, [sp, #32]
	b.ls	.LBB177_7
	cmp	x9, #2
	b.lo	.LBB177_5
	mov	x10, x0
.LBB177_3:
	tbnz	w10, #0, .LBB177_7
	and	x11, x9, #0x1
	lsr	x10, x10, #1
	add	x9, x11, x9, lsr #1
	cmp	x9, #1
	b.hi	.LBB177_3
.LBB177_5:
	cmp	x2, x1
	b.hs	.LBB177_8
	mov	w0, #161
	ldp	x20, x19, [sp, #176]
	ldp	x29, x30, [sp, #160]
	add	sp, sp, #192
	ret
.LBB177_7:
	mov	w0, #160
	ldp	x20, x19, [sp, #176]
	ldp	x29, x30, [sp, #160]
	add	sp, sp, #192
	ret
.LBB177_8:
	mov	x19, x4
	stp	x0, x1, [x29, #-24]
	mov	x0, sp
	stur	x2, [x29, #-8]
	sub	x1, x29, #24
	mov	x2, x3
	add	x3, x5, x8
	mov	x4, x6
	mov	x20, x2
	bl	"ct_subtrees::consistency::rebuilt::<#0f46d2847b2ce1ce>"
	ldrb	w9, [sp]
	ldrb	w8, [sp, #1]
	cbz	w9, .LBB177_10
	adrp	x9, .Lswitch.table.wagtenib_verify_subtree
	add	x9, x9, :lo12:.Lswitch.table.wagtenib_verify_subtree
	ldr	w0, [x9, x8, lsl #2]
	ldp	x20, x19, [sp, #176]
	ldp	x29, x30, [sp, #160]
	add	sp, sp, #192
	ret
.LBB177_10:
	ldur	q0, [sp, #2]
	ldur	q1, [sp, #18]
	add	x0, sp, #72
	ldur	q2, [sp, #34]
	mov	x1, x20
	strb	w8, [sp, #72]
	stur	q0, [sp, #73]
	ldur	q0, [sp, #49]
	add	x20, sp, #72
	stur	q1, [sp, #89]
	stur	q2, [sp, #105]
	stur	q0, [sp, #120]
	bl	"core::cmp::arrays::ArrayPartialEq::eq::<i8,=32,31'core::cmp::numbers::U8PartialEq{}>"
	tbz	w0, #0, .LBB177_12
	add	x0, x20, #32
	mov	x1, x19
	bl	"core::cmp::arrays::ArrayPartialEq::eq::<i8,=32,31'core::cmp::numbers::U8PartialEq{}>"
	mov	w8, #4
	cmp	w0, #0
	csel	w0, wzr, w8, ne
	ldp	x20, x19, [sp, #176]
	ldp	x29, x30, [sp, #160]
	add	sp, sp, #192
	ret
.LBB177_12:
	mov	w0, #6
	ldp	x20, x19, [sp, #176]
	ldp	x29, x30, [sp, #160]
	add	sp, sp, #192
	ret
.Lfunc_end177:
	.size	wagtenib_verify_subtree, .Lfunc_end177-wagtenib_verify_subtree
	.section	.text.wagtenib_version,"ax",@progbits
	.globl	wagtenib_version
	.p2align	2
	.type	wagtenib_version,@function
wagtenib_version:
	mov	w0, #1000
	ret
.Lfunc_end178:
	.size	wagtenib_version, .Lfunc_end178-wagtenib_version
	.section	.text.wagtenib_path_of_tiles,"ax",@progbits
	.globl	wagtenib_path_of_tiles
	.p2align	2
	.type	wagtenib_path_of_tiles,@function
wagtenib_path_of_tiles:
	sub	sp, sp, #464
	cmp	x2, #0
	mov	w8, #4096
	stp	x24, x23, [sp, #416]
	csel	x24, x8, xzr, eq
	cmp	x4, #0
	stp	x28, x27, [sp, #384]
	csel	x27, x8, xzr, eq
	cmp	x6, #0
	stp	x29, x30, [sp, #368]
	csel	x8, x8, xzr, eq
	cmp	x1, x0
	stp	x26, x25, [sp, #400]
	stp	x22, x21, [sp, #432]
	add	x29, sp, #368
	stp	x20, x19, [sp, #448]
	b.ls	.LBB179_3
	movi	v0.2d, #0000000000000000
	mov	x23, x1
	mov	x22, x0
	mov	x21, x3
	mov	x19, x2
	mov	x20, x4
	sub	x28, x1, #1
	sub	x0, x29, #96
	sub	x3, x1, #1
	mov	x1, x22
	mov	x2, x22
	mov	x4, x23
	stp	x8, x7, [sp, #32]
	mov	x26, x6
	mov	x25, x5
	stp	q0, q0, [x29, #-96]
	bl	"ct_tiles::needed::needed"
	ldurb	w8, [x29, #-96]
	cbz	w8, .LBB179_5
	mov	w24, #8
	b	.LBB179_4
.LBB179_3:
	mov	w24, #1
.LBB179_4:
	mov	w0, w24
	ldp	x20, x19, [sp, #448]
	ldp	x22, x21, [sp, #432]
	ldp	x24, x23, [sp, #416]
	ldp	x26, x25, [sp, #400]
	ldp	x28, x27, [sp, #384]
	ldp	x29, x30, [sp, #368]
	add	sp, sp, #464
	ret
.LBB179_5:
	ldp	x0, x8, [x29, #-88]
	movi	v0.2d, #0000000000000000
	str	x26, [sp, #24]
	ldur	x26, [x29, #-72]
	cmp	x8, x25
	stp	q0, q0, [x29, #-96]
	b.hs	.LBB179_11
	mov	x19, xzr
	mov	x27, xzr
	mov	w21, wzr
	mov	w24, #65
	mov	w20, #1
	cbz	x26, .LBB179_8
.LBB179_7:
	bl	rattle_dealloc
.LBB179_8:
	ldr	x26, [sp, #24]
	cbz	w21, .LBB179_4
	movi	v0.2d, #0000000000000000
	sub	x0, x29, #96
	sub	x3, x23, #1
	mov	x1, x22
	mov	x2, x22
	mov	x4, x23
	stp	q0, q0, [x29, #-96]
	bl	"ct_tiles::needed::needed"
	ldurb	w8, [x29, #-96]
	str	w20, [sp, #20]
	cbz	w8, .LBB179_13
.LBB179_10:
	mov	x28, x19
	mov	w25, wzr
	mov	x21, xzr
	mov	x23, xzr
	mov	w24, #8
	mov	w22, #1
	cbnz	x27, .LBB179_21
	b	.LBB179_65
.LBB179_11:
	mov	x4, x25
	mov	x25, x0
	sub	x0, x29, #96
	add	x1, x19, x24
	add	x3, x20, x27
	mov	x2, x21
	bl	"libwagtenib::tiles::pieces_of"
	ldurb	w8, [x29, #-96]
	cbz	w8, .LBB179_25
	mov	x19, xzr
	mov	x27, xzr
	mov	w21, wzr
	mov	w24, #8
	mov	w20, #1
	mov	x0, x25
	cbnz	x26, .LBB179_7
	b	.LBB179_8
.LBB179_13:
	ldp	x24, x23, [x29, #-88]
	mov	x26, xzr
	ldur	x11, [x29, #-72]
	mov	x8, xzr
	add	x21, x27, #1
.LBB179_14:
	cmp	x23, x26
	b.eq	.LBB179_26
	add	x26, x26, #1
	cmp	x21, x26
	b.eq	.LBB179_18
	add	x9, x19, x8
	ldr	x9, [x9, #8]
	tst	x9, #0x1f
	b.ne	.LBB179_18
	add	x10, x24, x8
	add	x8, x8, #24
	ldr	x10, [x10, #16]
	cmp	x10, x9, lsr #5
	b.eq	.LBB179_14
.LBB179_18:
	mov	x28, x19
	cbz	x11, .LBB179_20
	mov	x0, x24
	bl	rattle_dealloc
.LBB179_20:
	cmp	x21, x26
	mov	w8, #66
	ldr	x26, [sp, #24]
	mov	w25, wzr
	mov	x23, xzr
	mov	x21, xzr
	cinc	w24, w8, ne
	mov	w22, #1
	cbz	x27, .LBB179_65
.LBB179_21:
	add	x19, x28, #16
	b	.LBB179_23
.LBB179_22:
	subs	x27, x27, #1
	add	x19, x19, #24
	b.eq	.LBB179_65
.LBB179_23:
	ldr	x8, [x19]
	cbz	x8, .LBB179_22
	ldur	x0, [x19, #-16]
	bl	rattle_dealloc
	b	.LBB179_22
.LBB179_25:
	ldp	x27, x8, [x29, #-80]
	mov	w24, wzr
	ldur	x19, [x29, #-88]
	mov	w21, #1
	cmp	x8, #0
	cset	w20, eq
	mov	x0, x25
	cbnz	x26, .LBB179_7
	b	.LBB179_8
.LBB179_26:
	mov	x25, xzr
	str	x11, [sp, #8]
	stp	x24, x23, [sp, #48]
	stp	x19, x27, [sp, #64]
	cbz	x28, .LBB179_33
	ldr	x26, [sp, #24]
	mov	x8, x22
	mov	x9, x28
.LBB179_28:
	cmp	x8, x9
	lsr	x9, x9, #1
	cset	w10, lo
	orr	w10, w10, w8
	lsr	x8, x8, #1
	and	x10, x10, #0x1
	add	x25, x25, x10
	cbnz	x9, .LBB179_28
	cbz	x25, .LBB179_34
	lsr	x8, x25, #58
	cbnz	x8, .LBB179_80
	lsl	x0, x25, #5
	mov	w1, #1
	bl	rattle_alloc
	tbz	w0, #0, .LBB179_80
	mov	x21, x1
	b	.LBB179_35
.LBB179_33:
	ldr	x26, [sp, #24]
.LBB179_34:
	sub	x21, x29, #9
.LBB179_35:
	stp	x21, xzr, [sp, #184]
	str	x25, [sp, #200]
	cbz	x23, .LBB179_43
	lsr	x8, x28, #8
	add	x9, x24, #8
	add	x10, x19, #8
	mov	x11, x27
	b	.LBB179_38
.LBB179_37:
	sub	x23, x23, #1
	add	x9, x9, #24
	add	x10, x10, #24
	sub	x11, x11, #1
	cbz	x23, .LBB179_43
.LBB179_38:
	cbz	x11, .LBB179_43
	ldur	x12, [x9, #-8]
	cbnz	x12, .LBB179_37
	ldr	x12, [x9]
	cmp	x8, x12
	b.lo	.LBB179_37
	ldr	x13, [x10]
	sub	x14, x28, x12, lsl #8
	cmp	x14, x13, lsr #5
	b.hs	.LBB179_37
	ldur	x8, [x10, #-8]
	sub	x8, x8, x12, lsl #13
	add	x8, x8, x28, lsl #5
	ldp	q0, q1, [x8]
	stp	q0, q1, [x29, #-160]
	b	.LBB179_44
.LBB179_43:
	movi	v0.2d, #0000000000000000
	stp	q0, q0, [x29, #-160]
.LBB179_44:
	ldp	q0, q1, [x29, #-160]
	mov	x23, xzr
	stp	q0, q1, [sp, #144]
	cbz	x28, .LBB179_62
	mov	x25, xzr
	b	.LBB179_48
.LBB179_46:
	movi	v0.2d, #0000000000000000
	sub	x0, x29, #96
	add	x1, sp, #48
	sub	x3, x28, #1
	mov	x2, x25
	stp	q0, q0, [x29, #-96]
	bl	"ct_tiles::source::node::<#24ff04b9227ecf06>"
	ldp	q0, q1, [x29, #-96]
	adrp	x8, .Lstatic.8
	add	x8, x8, :lo12:.Lstatic.8
	mov	w9, #1
	sub	x0, x29, #48
	stp	x8, x9, [x29, #-96]
	sub	x8, x29, #128
	mov	w9, #32
	stp	q0, q1, [x29, #-128]
	movi	v0.2d, #0000000000000000
	sub	x1, x29, #96
	stp	x8, x9, [x29, #-80]
	add	x8, sp, #144
	mov	w2, #3
	stp	x8, x9, [x29, #-64]
	stp	q0, q0, [x29, #-48]
	bl	"ct_tree::hash::Sha256HashNodeHash::hash"
	ldp	q0, q1, [x29, #-48]
.LBB179_47:
	stp	q0, q1, [sp, #80]
	lsr	x28, x28, #1
	lsr	x22, x22, #1
	ldp	q0, q1, [sp, #80]
	add	x25, x25, #1
	stp	q0, q1, [sp, #144]
	cbz	x28, .LBB179_61
.LBB179_48:
	tbnz	w22, #0, .LBB179_51
	cmp	x22, x28
	b.ne	.LBB179_52
	movi	v0.2d, #0000000000000000
	stp	q0, q0, [sp, #112]
	b	.LBB179_57
.LBB179_51:
	movi	v0.2d, #0000000000000000
	sub	x0, x29, #96
	add	x1, sp, #48
	sub	x3, x22, #1
	mov	x2, x25
	stp	q0, q0, [x29, #-96]
	bl	"ct_tiles::source::node::<#24ff04b9227ecf06>"
	ldp	q0, q1, [x29, #-96]
	ldr	x8, [sp, #200]
	stp	q0, q1, [sp, #112]
	cmp	x8, x23
	b.ne	.LBB179_56
	b	.LBB179_59
.LBB179_52:
	orr	x8, x22, #0x1
	cmp	x8, x28
	b.ne	.LBB179_54
	ldp	q0, q1, [sp, #144]
	b	.LBB179_55
.LBB179_54:
	movi	v0.2d, #0000000000000000
	sub	x0, x29, #96
	add	x1, sp, #48
	orr	x3, x22, #0x1
	mov	x2, x25
	stp	q0, q0, [x29, #-96]
	bl	"ct_tiles::source::node::<#24ff04b9227ecf06>"
	ldp	q0, q1, [x29, #-96]
.LBB179_55:
	stp	q0, q1, [x29, #-48]
	ldp	q0, q1, [x29, #-48]
	ldr	x8, [sp, #200]
	stp	q0, q1, [sp, #112]
	cmp	x8, x23
	b.eq	.LBB179_59
.LBB179_56:
	ldp	q0, q1, [sp, #112]
	add	x8, x21, x23, lsl #5
	add	x23, x23, #1
	stp	q0, q1, [x8]
	str	x23, [sp, #192]
.LBB179_57:
	tbnz	w28, #0, .LBB179_46
	ldp	q0, q1, [sp, #144]
	b	.LBB179_47
.LBB179_59:
	add	x0, sp, #184
	mov	w1, #1
	bl	"std_alloc::vec::Vec::grow_amortized::<#c3a63ae5e00ff772>"
	cbz	w0, .LBB179_78
	ldp	x21, x23, [sp, #184]
	b	.LBB179_56
.LBB179_61:
	ldr	x25, [sp, #200]
.LBB179_62:
	ldr	x8, [sp, #8]
	mov	x28, x19
	cbz	x8, .LBB179_64
	mov	x0, x24
	bl	rattle_dealloc
.LBB179_64:
	cmp	x25, #0
	mov	w24, wzr
	mov	w25, #1
	cset	w22, eq
	cbnz	x27, .LBB179_21
.LBB179_65:
	ldr	w8, [sp, #20]
	tbnz	w8, #0, .LBB179_67
	mov	x0, x28
	bl	rattle_dealloc
.LBB179_67:
	cbz	w25, .LBB179_4
	ldr	x9, [sp, #40]
	ldr	x8, [x29, #96]
	cmp	x9, x23
	str	x23, [x8]
	b.hs	.LBB179_70
	mov	w24, #9
	b	.LBB179_76
.LBB179_70:
	ldr	x8, [sp, #32]
	lsl	x2, x23, #5
	add	x0, x26, x8
	sub	x8, x0, x21
	cmp	x8, x2
	b.hs	.LBB179_74
	cbz	x23, .LBB179_75
	mov	x8, x21
.LBB179_73:
	ldp	q1, q0, [x8], #32
	subs	x23, x23, #1
	stp	q1, q0, [x0], #32
	b.ne	.LBB179_73
	b	.LBB179_75
.LBB179_74:
	mov	x1, x21
	bl	memmove
.LBB179_75:
	mov	w24, wzr
.LBB179_76:
	tbnz	w22, #0, .LBB179_4
	mov	x0, x21
	bl	rattle_dealloc
	b	.LBB179_4
.LBB179_78:
	ldr	x8, [sp, #200]
	cbz	x8, .LBB179_80
	ldr	x0, [sp, #184]
	bl	rattle_dealloc
.LBB179_80:
	ldr	x8, [sp, #8]
	cbz	x8, .LBB179_10
	mov	x0, x24
	bl	rattle_dealloc
	b	.LBB179_10
.Lfunc_end179:
	.size	wagtenib_path_of_tiles, .Lfunc_end179-wagtenib_path_of_tiles
	.section	.text.wagtenib_proof_of_tiles,"ax",@progbits
	.globl	wagtenib_proof_of_tiles
	.p2align	2
	.type	wagtenib_proof_of_tiles,@function
wagtenib_proof_of_tiles:
	sub	sp, sp, #496
	cmp	x2, #0
	mov	w8, #4096
	stp	x28, x27, [sp, #416]
	csel	x28, x8, xzr, eq
	cmp	x4, #0
	stp	x20, x19, [sp, #480]
	csel	x19, x8, xzr, eq
	cmp	x6, #0
	stp	x24, x23, [sp, #448]
	csel	x8, x8, xzr, eq
	mov	w23, #7
	stp	x29, x30, [sp, #400]
	stp	x26, x25, [sp, #432]
	add	x29, sp, #400
	stp	x22, x21, [sp, #464]
	cbz	x0, .LBB180_86
	mov	x24, x0
	mov	x25, x1
	cmp	x1, x0
	stp	x8, x7, [sp, #32]
	b.ls	.LBB180_86
	movi	v0.2d, #0000000000000000
	mov	x21, x3
	mov	x26, x2
	mov	x23, x4
	sub	x0, x29, #96
	sub	x2, x24, #1
	sub	x3, x25, #1
	mov	x1, x24
	mov	x4, x25
	mov	x20, x6
	mov	x22, x5
	sub	x27, x25, #1
	stp	q0, q0, [x29, #-96]
	bl	"ct_tiles::needed::needed"
	ldurb	w8, [x29, #-96]
	cbz	w8, .LBB180_4
	mov	w23, #8
	b	.LBB180_86
.LBB180_4:
	sub	x8, x24, #1
	movi	v0.2d, #0000000000000000
	stp	x8, x20, [sp, #16]
	ldp	x0, x8, [x29, #-88]
	ldur	x20, [x29, #-72]
	cmp	x8, x22
	stp	q0, q0, [x29, #-96]
	b.hs	.LBB180_6
	mov	x19, xzr
	mov	x28, xzr
	mov	w21, wzr
	mov	w23, #65
	mov	w26, #1
	cbnz	x20, .LBB180_8
	b	.LBB180_9
.LBB180_6:
	mov	x4, x22
	mov	x22, x0
	sub	x0, x29, #96
	add	x1, x26, x28
	add	x3, x23, x19
	mov	x2, x21
	bl	"libwagtenib::tiles::pieces_of"
	ldurb	w8, [x29, #-96]
	cbz	w8, .LBB180_12
	mov	x19, xzr
	mov	x28, xzr
	mov	w21, wzr
	mov	w23, #8
	mov	w26, #1
	mov	x0, x22
	cbz	x20, .LBB180_9
.LBB180_8:
	bl	rattle_dealloc
.LBB180_9:
	ldr	x20, [sp, #24]
	cbz	w21, .LBB180_86
	movi	v0.2d, #0000000000000000
	ldr	x21, [sp, #16]
	sub	x0, x29, #96
	sub	x3, x25, #1
	mov	x1, x24
	mov	x4, x25
	mov	x2, x21
	mov	w22, w26
	stp	q0, q0, [x29, #-96]
	bl	"ct_tiles::needed::needed"
	ldurb	w8, [x29, #-96]
	cbz	w8, .LBB180_13
.LBB180_11:
	mov	x27, x19
	mov	w24, wzr
	mov	x25, xzr
	mov	x26, xzr
	mov	w23, #8
	mov	w21, #1
	cbnz	x28, .LBB180_21
	b	.LBB180_58
.LBB180_12:
	ldp	x28, x8, [x29, #-80]
	mov	w23, wzr
	ldur	x19, [x29, #-88]
	mov	w21, #1
	cmp	x8, #0
	cset	w26, eq
	mov	x0, x22
	cbnz	x20, .LBB180_8
	b	.LBB180_9
.LBB180_13:
	ldp	x23, x8, [x29, #-88]
	mov	x12, x21
	ldur	x26, [x29, #-72]
	mov	x20, xzr
	mov	x9, xzr
	add	x21, x28, #1
.LBB180_14:
	cmp	x8, x20
	b.eq	.LBB180_25
	add	x20, x20, #1
	cmp	x21, x20
	b.eq	.LBB180_18
	add	x10, x19, x9
	ldr	x10, [x10, #8]
	tst	x10, #0x1f
	b.ne	.LBB180_18
	add	x11, x23, x9
	add	x9, x9, #24
	ldr	x11, [x11, #16]
	cmp	x11, x10, lsr #5
	b.eq	.LBB180_14
.LBB180_18:
	mov	x27, x19
	cbz	x26, .LBB180_20
	mov	x0, x23
	bl	rattle_dealloc
.LBB180_20:
	cmp	x21, x20
	mov	w8, #66
	ldr	x20, [sp, #24]
	mov	w24, wzr
	mov	x25, xzr
	mov	x26, xzr
	cinc	w23, w8, ne
	mov	w21, #1
	cbz	x28, .LBB180_58
.LBB180_21:
	add	x19, x27, #16
	b	.LBB180_23
.LBB180_22:
	subs	x28, x28, #1
	add	x19, x19, #24
	b.eq	.LBB180_58
.LBB180_23:
	ldr	x8, [x19]
	cbz	x8, .LBB180_22
	ldur	x0, [x19, #-16]
	bl	rattle_dealloc
	b	.LBB180_22
.LBB180_25:
	movi	v0.2d, #0000000000000000
	mov	x21, x12
	stp	x23, x8, [sp, #48]
	stp	x19, x28, [sp, #64]
	stp	q0, q0, [sp, #80]
	stp	q0, q0, [sp, #112]
	stp	q0, q0, [sp, #144]
	cbz	x8, .LBB180_34
	lsr	x9, x27, #8
	add	x10, x23, #8
	add	x11, x19, #8
	mov	x12, x28
	b	.LBB180_28
.LBB180_27:
	sub	x8, x8, #1
	add	x10, x10, #24
	add	x11, x11, #24
	sub	x12, x12, #1
	cbz	x8, .LBB180_34
.LBB180_28:
	cbz	x12, .LBB180_33
	ldur	x13, [x10, #-8]
	cbnz	x13, .LBB180_27
	ldr	x13, [x10]
	cmp	x9, x13
	b.lo	.LBB180_27
	ldr	x14, [x11]
	sub	x15, x27, x13, lsl #8
	cmp	x15, x14, lsr #5
	b.hs	.LBB180_27
	ldur	x8, [x11, #-8]
	sub	x8, x8, x13, lsl #13
	add	x8, x8, x27, lsl #5
	ldp	q0, q1, [x8]
	stp	q0, q1, [x29, #-96]
	b	.LBB180_35
.LBB180_33:
	movi	v0.2d, #0000000000000000
.LBB180_34:
	stp	q0, q0, [x29, #-96]
.LBB180_35:
	ldp	q0, q1, [x29, #-96]
	adrp	x20, .Lstatic.8
	add	x20, x20, :lo12:.Lstatic.8
	mov	x24, xzr
	stp	q0, q1, [x29, #-160]
	tbnz	w21, #0, .LBB180_43
.LBB180_36:
	cmp	x21, #0
	mov	x9, xzr
	cset	w8, ne
	cbz	x27, .LBB180_39
	mov	x10, x21
	mov	x11, x27
.LBB180_38:
	cmp	x10, x11
	lsr	x11, x11, #1
	cset	w12, lo
	orr	w12, w12, w10
	lsr	x10, x10, #1
	and	x12, x12, #0x1
	add	x9, x9, x12
	cbnz	x11, .LBB180_38
.LBB180_39:
	adds	x20, x9, x8
	b.eq	.LBB180_48
	lsr	x8, x20, #58
	cbnz	x8, .LBB180_91
	lsl	x0, x20, #5
	mov	w1, #1
	bl	rattle_alloc
	tbz	w0, #0, .LBB180_91
	mov	x25, x1
	b	.LBB180_49
.LBB180_43:
	mov	x25, x21
	b	.LBB180_46
.LBB180_44:
	movi	v0.2d, #0000000000000000
	sub	x0, x29, #96
	add	x1, sp, #48
	sub	x3, x27, #1
	mov	x2, x24
	stp	q0, q0, [x29, #-96]
	bl	"ct_tiles::source::node::<#24ff04b9227ecf06>"
	ldp	q0, q1, [x29, #-96]
	mov	w8, #1
	stp	x20, x8, [x29, #-96]
	sub	x8, x29, #128
	mov	w9, #32
	stp	x8, x9, [x29, #-80]
	sub	x8, x29, #160
	sub	x0, x29, #48
	stp	q0, q1, [x29, #-128]
	movi	v0.2d, #0000000000000000
	sub	x1, x29, #96
	mov	w2, #3
	stp	x8, x9, [x29, #-64]
	stp	q0, q0, [x29, #-48]
	bl	"ct_tree::hash::Sha256HashNodeHash::hash"
	ldp	q0, q1, [x29, #-48]
.LBB180_45:
	stp	q0, q1, [sp, #176]
	lsr	x21, x25, #1
	lsr	x27, x27, #1
	ldp	q0, q1, [sp, #176]
	mov	w8, w25
	add	x24, x24, #1
	mov	x25, x21
	stp	q0, q1, [x29, #-160]
	tbz	w8, #1, .LBB180_36
.LBB180_46:
	tbnz	w27, #0, .LBB180_44
	ldp	q0, q1, [x29, #-160]
	b	.LBB180_45
.LBB180_48:
	sub	x25, x29, #9
.LBB180_49:
	stp	x25, xzr, [x29, #-184]
	stur	x20, [x29, #-168]
	str	x26, [sp, #8]
	cbz	x21, .LBB180_53
	movi	v0.2d, #0000000000000000
	sub	x0, x29, #96
	add	x1, sp, #48
	mov	x2, x24
	mov	x3, x21
	stp	q0, q0, [x29, #-96]
	bl	"ct_tiles::source::node::<#24ff04b9227ecf06>"
	ldp	q0, q1, [x29, #-96]
	stp	q0, q1, [sp, #144]
	cbz	x20, .LBB180_87
	mov	x8, xzr
.LBB180_52:
	ldp	q0, q1, [sp, #144]
	add	x9, x25, x8, lsl #5
	ldr	x20, [sp, #24]
	add	x26, x8, #1
	stp	q0, q1, [x9]
	stur	x26, [x29, #-176]
	b	.LBB180_54
.LBB180_53:
	ldr	x20, [sp, #24]
	mov	x26, xzr
.LBB180_54:
	cbnz	x27, .LBB180_65
.LBB180_55:
	mov	x27, x19
	ldur	x19, [x29, #-168]
	ldr	x8, [sp, #8]
	cbz	x8, .LBB180_57
	mov	x0, x23
	bl	rattle_dealloc
.LBB180_57:
	cmp	x19, #0
	mov	w23, wzr
	mov	w24, #1
	cset	w21, eq
	cbnz	x28, .LBB180_21
.LBB180_58:
	tbnz	w22, #0, .LBB180_60
	mov	x0, x27
	bl	rattle_dealloc
.LBB180_60:
	cbz	w24, .LBB180_86
	ldr	x9, [sp, #40]
	ldr	x8, [x29, #96]
	cmp	x9, x26
	str	x26, [x8]
	b.hs	.LBB180_78
	mov	w23, #9
	b	.LBB180_84
.LBB180_63:
	movi	v0.2d, #0000000000000000
	sub	x0, x29, #96
	add	x1, sp, #48
	sub	x3, x27, #1
	mov	x2, x24
	stp	q0, q0, [x29, #-96]
	bl	"ct_tiles::source::node::<#24ff04b9227ecf06>"
	ldp	q0, q1, [x29, #-96]
	mov	w8, #1
	adrp	x9, .Lstatic.8
	add	x9, x9, :lo12:.Lstatic.8
	sub	x0, x29, #48
	stp	x9, x8, [x29, #-96]
	sub	x8, x29, #128
	mov	w9, #32
	stp	q0, q1, [x29, #-128]
	movi	v0.2d, #0000000000000000
	sub	x1, x29, #96
	stp	x8, x9, [x29, #-80]
	sub	x8, x29, #160
	mov	w2, #3
	stp	x8, x9, [x29, #-64]
	stp	q0, q0, [x29, #-48]
	bl	"ct_tree::hash::Sha256HashNodeHash::hash"
	ldp	q0, q1, [x29, #-48]
.LBB180_64:
	stp	q0, q1, [sp, #80]
	lsr	x27, x27, #1
	lsr	x21, x21, #1
	ldp	q0, q1, [sp, #80]
	add	x24, x24, #1
	stp	q0, q1, [x29, #-160]
	cbz	x27, .LBB180_55
.LBB180_65:
	tbnz	w21, #0, .LBB180_68
	cmp	x21, x27
	b.ne	.LBB180_69
	movi	v0.2d, #0000000000000000
	stp	q0, q0, [sp, #112]
	b	.LBB180_74
.LBB180_68:
	movi	v0.2d, #0000000000000000
	sub	x0, x29, #96
	add	x1, sp, #48
	sub	x3, x21, #1
	mov	x2, x24
	stp	q0, q0, [x29, #-96]
	bl	"ct_tiles::source::node::<#24ff04b9227ecf06>"
	ldp	q0, q1, [x29, #-96]
	ldur	x8, [x29, #-168]
	stp	q0, q1, [sp, #112]
	cmp	x8, x26
	b.ne	.LBB180_73
	b	.LBB180_76
.LBB180_69:
	orr	x8, x21, #0x1
	cmp	x8, x27
	b.ne	.LBB180_71
	ldp	q0, q1, [x29, #-160]
	b	.LBB180_72
.LBB180_71:
	movi	v0.2d, #0000000000000000
	sub	x0, x29, #96
	add	x1, sp, #48
	orr	x3, x21, #0x1
	mov	x2, x24
	stp	q0, q0, [x29, #-96]
	bl	"ct_tiles::source::node::<#24ff04b9227ecf06>"
	ldp	q0, q1, [x29, #-96]
.LBB180_72:
	stp	q0, q1, [x29, #-48]
	ldp	q0, q1, [x29, #-48]
	ldur	x8, [x29, #-168]
	stp	q0, q1, [sp, #112]
	cmp	x8, x26
	b.eq	.LBB180_76
.LBB180_73:
	ldp	q0, q1, [sp, #112]
	add	x8, x25, x26, lsl #5
	add	x26, x26, #1
	stp	q0, q1, [x8]
	stur	x26, [x29, #-176]
.LBB180_74:
	tbnz	w27, #0, .LBB180_63
	ldp	q0, q1, [x29, #-160]
	b	.LBB180_64
.LBB180_76:
	sub	x0, x29, #184
	mov	w1, #1
	bl	"std_alloc::vec::Vec::grow_amortized::<#c3a63ae5e00ff772>"
	cbz	w0, .LBB180_89
	ldp	x25, x26, [x29, #-184]
	b	.LBB180_73
.LBB180_78:
	ldr	x8, [sp, #32]
	lsl	x2, x26, #5
	add	x0, x20, x8
	sub	x8, x0, x25
	cmp	x8, x2
	b.hs	.LBB180_82
	cbz	x26, .LBB180_83
	mov	x8, x25
.LBB180_81:
	ldp	q1, q0, [x8], #32
	subs	x26, x26, #1
	stp	q1, q0, [x0], #32
	b.ne	.LBB180_81
	b	.LBB180_83
.LBB180_82:
	mov	x1, x25
	bl	memmove
.LBB180_83:
	mov	w23, wzr
.LBB180_84:
	tbnz	w21, #0, .LBB180_86
	mov	x0, x25
	bl	rattle_dealloc
.LBB180_86:
	mov	w0, w23
	ldp	x20, x19, [sp, #480]
	ldp	x22, x21, [sp, #464]
	ldp	x24, x23, [sp, #448]
	ldp	x26, x25, [sp, #432]
	ldp	x28, x27, [sp, #416]
	ldp	x29, x30, [sp, #400]
	add	sp, sp, #496
	ret
.LBB180_87:
	sub	x0, x29, #184
	mov	w1, #1
	bl	"std_alloc::vec::Vec::grow_amortized::<#c3a63ae5e00ff772>"
	cbz	w0, .LBB180_93
	ldp	x25, x8, [x29, #-184]
	b	.LBB180_52
.LBB180_89:
	ldur	x8, [x29, #-168]
	ldr	x26, [sp, #8]
	cbz	x8, .LBB180_91
.LBB180_90:
	ldur	x0, [x29, #-184]
	bl	rattle_dealloc
.LBB180_91:
	ldr	x20, [sp, #24]
	cbz	x26, .LBB180_11
	mov	x0, x23
	bl	rattle_dealloc
	b	.LBB180_11
.LBB180_93:
	ldur	x8, [x29, #-168]
	cbnz	x8, .LBB180_90
	b	.LBB180_91
.Lfunc_end180:
	.size	wagtenib_proof_of_tiles, .Lfunc_end180-wagtenib_proof_of_tiles
	.section	.text.wagtenib_witness_state,"ax",@progbits
	.globl	wagtenib_witness_state
	.p2align	2
	.type	wagtenib_witness_state,@function
wagtenib_witness_state:
	sub	sp, sp, #336
	movi	v0.2d, #0000000000000000
	mov	w8, #4096
	cmp	x0, #0
	stp	x28, x23, [sp, #288]
	csel	x23, x8, xzr, eq
	cmp	x2, #0
	csel	x8, x8, xzr, eq
	stp	x22, x21, [sp, #304]
	mov	x21, x1
	stp	x20, x19, [sp, #320]
	mov	x20, x0
	add	x0, sp, #128
	add	x1, x2, x8
	mov	x2, x3
	stp	x29, x30, [sp, #272]
	add	x29, sp, #272
	mov	x19, x4
	stp	q0, q0, [sp, #144]
	stp	q0, q0, [sp, #176]
	add	x22, sp, #128
	str	q0, [sp, #128]
	bl	"libwagtenib::message::read_message"
	ldrb	w8, [sp, #128]
	cbz	w8, .LBB181_2
.LBB181_1:
	mov	w0, #8
	ldp	x20, x19, [sp, #320]
	ldp	x22, x21, [sp, #304]
	ldp	x28, x23, [sp, #288]
	ldp	x29, x30, [sp, #272]
	add	sp, sp, #336
	ret
.LBB181_2:
	ldrb	w8, [sp, #136]
	cmp	w8, #1
	b.ne	.LBB181_14
	ldp	q0, q1, [x22, #16]
	add	x0, sp, #128
	add	x1, x20, x23
	mov	x2, x21
	stp	q0, q1, [x29, #-64]
	ldp	q0, q2, [x22, #48]
	stp	q0, q2, [x29, #-32]
	bl	"libwagtenib::message::read_message"
	ldrb	w8, [sp, #128]
	cbnz	w8, .LBB181_1
	ldrb	w8, [sp, #136]
	cmp	w8, #1
	b.ne	.LBB181_14
	ldp	q0, q1, [x22, #16]
	stp	q0, q1, [sp]
	ldp	q0, q2, [x22, #48]
	ldr	x8, [sp, #8]
	stp	q0, q2, [sp, #32]
	ldp	q1, q0, [x29, #-64]
	stp	q1, q0, [sp, #64]
	ldp	q1, q0, [x29, #-32]
	ldr	x1, [sp, #72]
	cmp	x1, x8
	stp	q1, q0, [sp, #96]
	b.ne	.LBB181_19
	ldr	x0, [sp, #64]
	ldr	x2, [sp]
	cmp	x1, #4
	b.hs	.LBB181_15
	cbz	x1, .LBB181_18
	ldrb	w8, [x0]
	ldrb	w9, [x2]
	cmp	w8, w9
	b.ne	.LBB181_17
	cmp	x1, #1
	b.eq	.LBB181_18
	ldrb	w8, [x0, #1]
	ldrb	w9, [x2, #1]
	cmp	w8, w9
	b.ne	.LBB181_24
	cmp	x1, #2
	b.eq	.LBB181_18
	ldrb	w8, [x0, #2]
	ldrb	w9, [x2, #2]
	cmp	w8, w9
	b.eq	.LBB181_18
	mov	w8, #2
	cmp	x8, x1
	b.hs	.LBB181_18
	b	.LBB181_19
.LBB181_14:
	mov	w0, #36
	ldp	x20, x19, [sp, #320]
	ldp	x22, x21, [sp, #304]
	ldp	x28, x23, [sp, #288]
	ldp	x29, x30, [sp, #272]
	add	sp, sp, #336
	ret
.LBB181_15:
	ldr	w8, [x0]
	ldr	w9, [x2]
	cmp	w8, w9
	b.ne	.LBB181_19
	bl	"core::cmp::slices::groups_equal::<i8,31'core::cmp::numbers::U8PartialEq{}>"
	cbnz	w0, .LBB181_18
	b	.LBB181_19
.LBB181_17:
	cmp	xzr, x1
	b.lo	.LBB181_19
.LBB181_18:
	ldr	x8, [sp, #56]
	ldr	x20, [sp, #120]
	cmp	x8, x20
	b.ls	.LBB181_20
.LBB181_19:
	mov	w0, #37
	ldp	x20, x19, [sp, #320]
	ldp	x22, x21, [sp, #304]
	ldp	x28, x23, [sp, #288]
	ldp	x29, x30, [sp, #272]
	add	sp, sp, #336
	ret
.LBB181_20:
	ldr	x21, [sp, #80]
	ldr	x8, [sp, #16]
	cmp	x21, x8
	b.ne	.LBB181_22
	mov	x8, sp
	add	x0, x8, #88
	add	x1, x8, #24
	bl	"core::cmp::arrays::ArrayPartialEq::eq::<i8,=32,31'core::cmp::numbers::U8PartialEq{}>"
	tbz	w0, #0, .LBB181_19
	b	.LBB181_23
.LBB181_22:
	cmp	x8, x21
	b.hs	.LBB181_19
.LBB181_23:
	ldur	q0, [sp, #88]
	ldur	q1, [sp, #104]
	mov	w0, wzr
	stp	x21, x20, [x19]
	stp	q0, q1, [x19, #16]
	ldp	x20, x19, [sp, #320]
	ldp	x22, x21, [sp, #304]
	ldp	x28, x23, [sp, #288]
	ldp	x29, x30, [sp, #272]
	add	sp, sp, #336
	ret
.LBB181_24:
	mov	w8, #1
	cmp	x8, x1
	b.lo	.LBB181_19
	b	.LBB181_18
.Lfunc_end181:
	.size	wagtenib_witness_state, .Lfunc_end181-wagtenib_witness_state
	.section	.text.wagtenib_checkpoint_text,"ax",@progbits
	.globl	wagtenib_checkpoint_text
	.p2align	2
	.type	wagtenib_checkpoint_text,@function
wagtenib_checkpoint_text:
	sub	sp, sp, #128
	movi	v0.2d, #0000000000000000
	mov	w9, #4096
	cmp	x0, #0
	stp	x29, x30, [sp, #64]
	add	x29, sp, #64
	mov	x8, x0
	csel	x10, x9, xzr, eq
	stp	x24, x23, [sp, #80]
	mov	x23, x2
	mov	x2, x1
	cmp	x4, #0
	sub	x0, x29, #24
	add	x1, x8, x10
	stp	x22, x21, [sp, #96]
	mov	x21, x6
	stp	x20, x19, [sp, #112]
	mov	x22, x5
	mov	x20, x4
	mov	x19, x3
	stp	xzr, xzr, [x29, #-24]
	csel	x24, x9, xzr, eq
	stur	xzr, [x29, #-8]
	stp	q0, q0, [sp]
	bl	"libwagtenib::step::origin_of"
	ldurb	w8, [x29, #-24]
	cmp	w8, #1
	b.ne	.LBB182_4
	ldp	x1, x2, [x29, #-16]
	mov	x0, sp
	mov	x3, x23
	mov	x4, x19
	bl	"ct_checkpoint::checkpoint::write_checkpoint"
	ldrb	w8, [sp]
	cbz	w8, .LBB182_5
	mov	w0, #8
.LBB182_3:
	ldp	x20, x19, [sp, #112]
	ldp	x22, x21, [sp, #96]
	ldp	x24, x23, [sp, #80]
	ldp	x29, x30, [sp, #64]
	add	sp, sp, #128
	ret
.LBB182_4:
	mov	w0, #10
	ldp	x20, x19, [sp, #112]
	ldp	x22, x21, [sp, #96]
	ldp	x24, x23, [sp, #80]
	ldp	x29, x30, [sp, #64]
	add	sp, sp, #128
	ret
.LBB182_5:
	ldp	x19, x2, [sp, #8]
	ldr	x23, [sp, #24]
	cmp	x22, x2
	str	x2, [x21]
	b.hs	.LBB182_7
	mov	w0, #9
	cbnz	x23, .LBB182_15
	b	.LBB182_3
.LBB182_7:
	add	x0, x20, x24
	sub	x8, x0, x19
	cmp	x8, x2
	b.hs	.LBB182_13
	cmp	x2, #8
	b.lo	.LBB182_10
	add	x8, x24, x20
	sub	x8, x8, x19
	cmp	x8, #32
	b.hs	.LBB182_16
.LBB182_10:
	mov	x8, xzr
.LBB182_11:
	add	x10, x24, x8
	sub	x9, x2, x8
	add	x8, x19, x8
	add	x10, x20, x10
.LBB182_12:
	ldrb	w11, [x8], #1
	subs	x9, x9, #1
	strb	w11, [x10], #1
	b.ne	.LBB182_12
	b	.LBB182_14
.LBB182_13:
	mov	x1, x19
	bl	memmove
.LBB182_14:
	mov	w0, wzr
	cbz	x23, .LBB182_3
.LBB182_15:
	mov	w20, w0
	mov	x0, x19
	bl	rattle_dealloc
	mov	w0, w20
	ldp	x20, x19, [sp, #112]
	ldp	x22, x21, [sp, #96]
	ldp	x24, x23, [sp, #80]
	ldp	x29, x30, [sp, #64]
	add	sp, sp, #128
	ret
.LBB182_16:
	cmp	x2, #32
	b.hs	.LBB182_18
	mov	x8, xzr
	b	.LBB182_22
.LBB182_18:
	add	x11, x24, x20
	and	x9, x2, #0x18
	and	x8, x2, #0xffffffffffffffe0
	add	x10, x19, #16
	add	x11, x11, #16
	and	x12, x2, #0xffffffffffffffe0
.LBB182_19:
	ldp	q0, q1, [x10, #-16]
	subs	x12, x12, #32
	add	x10, x10, #32
	stp	q0, q1, [x11, #-16]
	add	x11, x11, #32
	b.ne	.LBB182_19
	cmp	x2, x8
	b.eq	.LBB182_14
	cbz	x9, .LBB182_11
.LBB182_22:
	mov	x10, x8
	and	x8, x2, #0xfffffffffffffff8
	add	x11, x24, x10
	sub	x9, x10, x8
	add	x10, x19, x10
	add	x11, x20, x11
.LBB182_23:
	ldr	d0, [x10], #8
	adds	x9, x9, #8
	str	d0, [x11], #8
	b.ne	.LBB182_23
	cmp	x2, x8
	b.eq	.LBB182_14
	b	.LBB182_11
.Lfunc_end182:
	.size	wagtenib_checkpoint_text, .Lfunc_end182-wagtenib_checkpoint_text
	.section	.text.wagtenib_cosignature_message,"ax",@progbits
	.globl	wagtenib_cosignature_message
	.p2align	2
	.type	wagtenib_cosignature_message,@function
wagtenib_cosignature_message:
	sub	sp, sp, #128
	movi	v0.2d, #0000000000000000
	mov	w8, #4096
	cmp	x1, #0
	stp	x29, x30, [sp, #64]
	add	x29, sp, #64
	csel	x9, x8, xzr, eq
	stp	x20, x19, [sp, #112]
	mov	x19, x0
	cmp	x3, #0
	sub	x0, x29, #24
	add	x1, x1, x9
	stp	x24, x23, [sp, #80]
	stp	x22, x21, [sp, #96]
	mov	x21, x5
	mov	x22, x4
	mov	x20, x3
	stp	xzr, xzr, [x29, #-24]
	csel	x24, x8, xzr, eq
	stp	q0, q0, [sp]
	stur	xzr, [x29, #-8]
	bl	"core::str::utf8::from_utf8"
	ldurb	w8, [x29, #-24]
	cbz	w8, .LBB183_3
	mov	w0, #145
.LBB183_2:
	ldp	x20, x19, [sp, #112]
	ldp	x22, x21, [sp, #96]
	ldp	x24, x23, [sp, #80]
	ldp	x29, x30, [sp, #64]
	add	sp, sp, #128
	ret
.LBB183_3:
	ldp	x2, x3, [x29, #-16]
	mov	x0, sp
	mov	x1, x19
	bl	"ct_checkpoint::message::cosignature_message"
	ldrb	w8, [sp]
	cbz	w8, .LBB183_5
	mov	w0, #8
	ldp	x20, x19, [sp, #112]
	ldp	x22, x21, [sp, #96]
	ldp	x24, x23, [sp, #80]
	ldp	x29, x30, [sp, #64]
	add	sp, sp, #128
	ret
.LBB183_5:
	ldp	x19, x2, [sp, #8]
	ldr	x23, [sp, #24]
	cmp	x22, x2
	str	x2, [x21]
	b.hs	.LBB183_7
	mov	w0, #9
	b	.LBB183_15
.LBB183_7:
	add	x0, x20, x24
	sub	x8, x0, x19
	cmp	x8, x2
	b.hs	.LBB183_13
	cmp	x2, #8
	b.lo	.LBB183_10
	add	x8, x24, x20
	sub	x8, x8, x19
	cmp	x8, #32
	b.hs	.LBB183_17
.LBB183_10:
	mov	x8, xzr
.LBB183_11:
	add	x10, x24, x8
	sub	x9, x2, x8
	add	x8, x19, x8
	add	x10, x20, x10
.LBB183_12:
	ldrb	w11, [x8], #1
	subs	x9, x9, #1
	strb	w11, [x10], #1
	b.ne	.LBB183_12
	b	.LBB183_14
.LBB183_13:
	mov	x1, x19
	bl	memmove
.LBB183_14:
	mov	w0, wzr
.LBB183_15:
	cbz	x23, .LBB183_2
	mov	w20, w0
	mov	x0, x19
	bl	rattle_dealloc
	mov	w0, w20
	ldp	x20, x19, [sp, #112]
	ldp	x22, x21, [sp, #96]
	ldp	x24, x23, [sp, #80]
	ldp	x29, x30, [sp, #64]
	add	sp, sp, #128
	ret
.LBB183_17:
	cmp	x2, #32
	b.hs	.LBB183_19
	mov	x8, xzr
	b	.LBB183_23
.LBB183_19:
	add	x11, x24, x20
	and	x9, x2, #0x18
	and	x8, x2, #0xffffffffffffffe0
	add	x10, x19, #16
	add	x11, x11, #16
	and	x12, x2, #0xffffffffffffffe0
.LBB183_20:
	ldp	q0, q1, [x10, #-16]
	subs	x12, x12, #32
	add	x10, x10, #32
	stp	q0, q1, [x11, #-16]
	add	x11, x11, #32
	b.ne	.LBB183_20
	cmp	x2, x8
	b.eq	.LBB183_14
	cbz	x9, .LBB183_11
.LBB183_23:
	mov	x10, x8
	and	x8, x2, #0xfffffffffffffff8
	add	x11, x24, x10
	sub	x9, x10, x8
	add	x10, x19, x10
	add	x11, x20, x11
.LBB183_24:
	ldr	d0, [x10], #8
	adds	x9, x9, #8
	str	d0, [x11], #8
	b.ne	.LBB183_24
	cmp	x2, x8
	b.eq	.LBB183_14
	b	.LBB183_11
.Lfunc_end183:
	.size	wagtenib_cosignature_message, .Lfunc_end183-wagtenib_cosignature_message
	.section	.text.wagtenib_data_tile_leaves,"ax",@progbits
	.globl	wagtenib_data_tile_leaves
	.p2align	2
	.type	wagtenib_data_tile_leaves,@function
wagtenib_data_tile_leaves:
	sub	sp, sp, #272
	movi	v0.2d, #0000000000000000
	mov	w8, #4096
	cmp	x0, #0
	csel	x9, x8, xzr, eq
	cmp	x2, #0
	stp	x29, x30, [sp, #176]
	stp	x26, x25, [sp, #208]
	add	x29, sp, #176
	csel	x25, x8, xzr, eq
	stp	x24, x23, [sp, #224]
	mov	x23, x1
	add	x24, x0, x9
	stp	x22, x21, [sp, #240]
	mov	x21, x4
	mov	x22, x3
	stp	x20, x19, [sp, #256]
	mov	x20, x5
	mov	x19, x2
	stp	x28, x27, [sp, #192]
	str	xzr, [sp, #112]
	stp	q0, q0, [sp, #16]
	stp	q0, q0, [sp, #48]
	stp	q0, q0, [sp, #80]
	str	q0, [sp]
	stp	x24, x1, [x29, #-32]
	cbz	x1, .LBB184_4
	mov	x26, xzr
.LBB184_2:
	mov	x0, sp
	sub	x1, x29, #32
	bl	"ct_data_tiles::reading::tile_leaf_at"
	ldrb	w8, [sp]
	cbnz	w8, .LBB184_15
	ldur	x8, [x29, #-24]
	add	x26, x26, #1
	cbnz	x8, .LBB184_2
.LBB184_4:
	movi	v0.2d, #0000000000000000
	sub	x8, x29, #1
	str	xzr, [sp, #112]
	stp	xzr, xzr, [x29, #-24]
	stp	x23, x8, [x29, #-40]
	stur	x24, [x29, #-48]
	stp	q0, q0, [sp, #16]
	stp	q0, q0, [sp, #48]
	stp	q0, q0, [sp, #80]
	str	q0, [sp]
	cbz	x23, .LBB184_17
	mov	x24, xzr
	mov	x26, xzr
	add	x23, x19, x25
.LBB184_6:
	mov	x0, sp
	sub	x1, x29, #48
	mov	x27, sp
	bl	"ct_data_tiles::reading::tile_leaf_at"
	ldrb	w8, [sp]
	cbnz	w8, .LBB184_11
	sub	x0, x29, #32
	orr	x2, x27, #0x8
	mov	x1, x24
	bl	"ct_data_tiles::entry_bytes::push_entry"
	tst	w0, #0xff
	b.ne	.LBB184_19
	ldur	x8, [x29, #-40]
	mov	x24, x1
	add	x26, x26, #1
	cbnz	x8, .LBB184_6
	ldurb	w8, [x29, #-16]
	ldurb	w9, [x29, #-15]
	ldurh	w10, [x29, #-10]
	ldur	w11, [x29, #-14]
	ldp	x20, x2, [x29, #-32]
	orr	w8, w9, w8
	orr	x10, x11, x10, lsl #32
	and	x8, x8, #0xff
	cmp	x22, x2
	str	x2, [x21]
	orr	x22, x10, x8
	b.hs	.LBB184_22
	mov	w0, #9
	b	.LBB184_29
.LBB184_11:
	ldur	x8, [x29, #-16]
	ldrb	w19, [sp, #1]
	ldrb	w21, [sp, #2]
	cbz	x8, .LBB184_13
	ldur	x0, [x29, #-32]
	bl	rattle_dealloc
.LBB184_13:
	str	x26, [x20]
	cbz	w19, .LBB184_16
.LBB184_14:
	mov	w0, #139
	b	.LBB184_18
.LBB184_15:
	ldrb	w19, [sp, #1]
	ldrb	w21, [sp, #2]
	str	x26, [x20]
	cbnz	w19, .LBB184_14
.LBB184_16:
	adrp	x8, .Lswitch.table.wagtenib_data_tile_leaves
	add	x8, x8, :lo12:.Lswitch.table.wagtenib_data_tile_leaves
	ldr	w0, [x8, w21, uxtw #2]
	b	.LBB184_18
.LBB184_17:
	mov	w0, wzr
	str	xzr, [x21]
.LBB184_18:
	ldp	x20, x19, [sp, #256]
	ldp	x22, x21, [sp, #240]
	ldp	x24, x23, [sp, #224]
	ldp	x26, x25, [sp, #208]
	ldp	x28, x27, [sp, #192]
	ldp	x29, x30, [sp, #176]
	add	sp, sp, #272
	ret
.LBB184_19:
	ldur	x8, [x29, #-16]
	cbz	x8, .LBB184_21
	ldur	x0, [x29, #-32]
	bl	rattle_dealloc
.LBB184_21:
	mov	w0, #8
	b	.LBB184_18
.LBB184_22:
	sub	x8, x23, x20
	cmp	x8, x2
	b.hs	.LBB184_30
	cmp	x2, #8
	b.lo	.LBB184_25
	add	x8, x25, x19
	sub	x8, x8, x20
	cmp	x8, #32
	b.hs	.LBB184_32
.LBB184_25:
	mov	x8, xzr
.LBB184_26:
	add	x10, x25, x8
	sub	x9, x2, x8
	add	x8, x20, x8
	add	x10, x19, x10
.LBB184_27:
	ldrb	w11, [x8], #1
	subs	x9, x9, #1
	strb	w11, [x10], #1
	b.ne	.LBB184_27
.LBB184_28:
	mov	w0, wzr
.LBB184_29:
	cbnz	x22, .LBB184_31
	b	.LBB184_18
.LBB184_30:
	mov	x0, x23
	mov	x1, x20
	bl	memmove
	mov	w0, wzr
	cbz	x22, .LBB184_18
.LBB184_31:
	mov	w19, w0
	mov	x0, x20
	bl	rattle_dealloc
	mov	w0, w19
	b	.LBB184_18
.LBB184_32:
	cmp	x2, #32
	b.hs	.LBB184_34
	mov	x8, xzr
	b	.LBB184_38
.LBB184_34:
	add	x11, x25, x19
	and	x9, x2, #0x18
	and	x8, x2, #0xffffffffffffffe0
	add	x10, x20, #16
	add	x11, x11, #16
	and	x12, x2, #0xffffffffffffffe0
.LBB184_35:
	ldp	q0, q1, [x10, #-16]
	subs	x12, x12, #32
	add	x10, x10, #32
	stp	q0, q1, [x11, #-16]
	add	x11, x11, #32
	b.ne	.LBB184_35
	cmp	x2, x8
	b.eq	.LBB184_28
	cbz	x9, .LBB184_26
.LBB184_38:
	mov	x10, x8
	and	x8, x2, #0xfffffffffffffff8
	add	x11, x25, x10
	sub	x9, x10, x8
	add	x10, x20, x10
	add	x11, x19, x11
.LBB184_39:
	ldr	d0, [x10], #8
	adds	x9, x9, #8
	str	d0, [x11], #8
	b.ne	.LBB184_39
	cmp	x2, x8
	b.eq	.LBB184_28
	b	.LBB184_26
.Lfunc_end184:
	.size	wagtenib_data_tile_leaves, .Lfunc_end184-wagtenib_data_tile_leaves
	.section	.rodata.cst8,"aM",@progbits,8
	.p2align	3, 0x0
.LCPI185_0:
	.byte	10
	.byte	110
	.byte	111
	.byte	100
	.zero	1
	.zero	1
	.zero	1
	.zero	1
.LCPI185_1:
	.byte	10
	.byte	115
	.byte	97
	.byte	108
	.zero	1
	.zero	1
	.zero	1
	.zero	1
	.section	.text.wagtenib_lock_text,"ax",@progbits
	.globl	wagtenib_lock_text
	.p2align	2
	.type	wagtenib_lock_text,@function
wagtenib_lock_text:
	sub	sp, sp, #288
	movi	v0.2d, #0000000000000000
	mov	w8, #4096
	cmp	x0, #0
	stp	x29, x30, [sp, #192]
	add	x29, sp, #192
	stp	x22, x21, [sp, #256]
	csel	x22, x8, xzr, eq
	cmp	x2, #0
	stp	x28, x27, [sp, #208]
	mov	x28, x0
	mov	x27, x1
	stp	x26, x25, [sp, #224]
	csel	x26, x8, xzr, eq
	cmp	x6, #0
	sub	x0, x29, #80
	mov	x1, x4
	stp	x24, x23, [sp, #240]
	stp	x20, x19, [sp, #272]
	mov	x23, x7
	mov	x19, x6
	mov	x21, x5
	mov	x24, x3
	mov	x25, x2
	stp	q0, q0, [x29, #-80]
	csel	x20, x8, xzr, eq
	stp	q0, q0, [sp, #80]
	bl	"ct_node::lock_writing::digits_of"
	ldurb	w8, [x29, #-80]
	cbnz	w8, .LBB185_5
	stp	x24, x25, [sp, #64]
	ldp	x24, x25, [x29, #-72]
	str	x23, [sp, #56]
	mov	x23, x19
	add	x0, sp, #80
	ldur	x19, [x29, #-56]
	mov	x1, x21
	bl	"ct_node::lock_writing::digits_of"
	ldrb	w8, [sp, #80]
	cbz	w8, .LBB185_7
	cbz	x19, .LBB185_5
.LBB185_3:
	mov	x0, x24
.LBB185_4:
	bl	rattle_dealloc
.LBB185_5:
	mov	w0, #8
.LBB185_6:
	ldp	x20, x19, [sp, #272]
	ldp	x22, x21, [sp, #256]
	ldp	x24, x23, [sp, #240]
	ldp	x26, x25, [sp, #224]
	ldp	x28, x27, [sp, #208]
	ldp	x29, x30, [sp, #192]
	add	sp, sp, #288
	ret
.LBB185_7:
	stp	x24, x19, [sp, #40]
	ldp	x19, x8, [sp, #88]
	ldr	x21, [sp, #104]
	stp	x23, x20, [sp]
	sub	x20, x29, #9
	stp	xzr, xzr, [x29, #-32]
	stp	x8, x25, [sp, #16]
	stur	x20, [x29, #-40]
	str	x21, [sp, #32]
	cbnz	x27, .LBB185_23
	mov	x21, xzr
	mov	x8, xzr
	add	x1, x28, x22
	add	x0, x20, xzr
	add	x24, xzr, x27
	sub	x9, x0, x1
	cmp	x9, x27
	b.hs	.LBB185_25
.LBB185_9:
	cmp	x27, #8
	b.lo	.LBB185_11
	add	x9, x8, x20
	add	x10, x22, x28
	sub	x9, x9, x10
	cmp	x9, #32
	b.hs	.LBB185_14
.LBB185_11:
	mov	x9, xzr
.LBB185_12:
	add	x10, x22, x9
	add	x11, x9, x8
	sub	x8, x27, x9
	add	x9, x28, x10
	add	x10, x20, x11
.LBB185_13:
	ldrb	w11, [x9], #1
	subs	x8, x8, #1
	strb	w11, [x10], #1
	b.ne	.LBB185_13
	b	.LBB185_26
.LBB185_14:
	cmp	x27, #32
	b.hs	.LBB185_16
	mov	x9, xzr
	b	.LBB185_20
.LBB185_16:
	add	x11, x22, x28
	add	x12, x8, x20
	and	x10, x27, #0x18
	and	x9, x27, #0xffffffffffffffe0
	add	x11, x11, #16
	add	x12, x12, #16
	and	x13, x27, #0xffffffffffffffe0
.LBB185_17:
	ldp	q0, q1, [x11, #-16]
	subs	x13, x13, #32
	add	x11, x11, #32
	stp	q0, q1, [x12, #-16]
	add	x12, x12, #32
	b.ne	.LBB185_17
	cmp	x27, x9
	b.eq	.LBB185_26
	cbz	x10, .LBB185_12
.LBB185_20:
	mov	x10, x9
	and	x9, x27, #0xfffffffffffffff8
	add	x11, x22, x10
	add	x12, x8, x10
	sub	x10, x10, x9
	add	x11, x28, x11
	add	x12, x20, x12
.LBB185_21:
	ldr	d0, [x11], #8
	adds	x10, x10, #8
	str	d0, [x12], #8
	b.ne	.LBB185_21
	cmp	x27, x9
	b.eq	.LBB185_26
	b	.LBB185_12
.LBB185_23:
	sub	x0, x29, #40
	mov	x1, x27
	bl	"std_alloc::vec::Vec::grow_amortized::<#c54c92966a7f5a87>"
	cbz	w0, .LBB185_120
	ldp	x8, x21, [x29, #-32]
	ldur	x20, [x29, #-40]
	add	x1, x28, x22
	add	x0, x20, x8
	add	x24, x8, x27
	sub	x9, x0, x1
	cmp	x9, x27
	b.lo	.LBB185_9
.LBB185_25:
	mov	x2, x27
	bl	memmove
.LBB185_26:
	sub	x8, x21, x24
	stp	x24, x21, [x29, #-32]
	cmp	x8, #5
	b.ls	.LBB185_60
.LBB185_27:
	add	x9, x20, x24
	adrp	x8, .Lstatic.13
	add	x8, x8, :lo12:.Lstatic.13
	sub	x8, x9, x8
	cmp	x8, #5
	add	x8, x24, #6
	b.hi	.LBB185_29
	adrp	x10, .LCPI185_0
	ldr	d0, [x10, :lo12:.LCPI185_0]
	mov	w10, #8293
	strh	w10, [x9, #4]
	str	s0, [x9]
	b	.LBB185_30
.LBB185_29:
	mov	w11, #28170
	mov	w10, #8293
	movk	w11, #25711, lsl #16
	strh	w10, [x9, #4]
	str	w11, [x9]
.LBB185_30:
	ldr	x2, [sp, #64]
	ldr	x22, [sp, #40]
	sub	x9, x21, x8
	stp	x8, x21, [x29, #-32]
	cmp	x2, x9
	b.hi	.LBB185_62
.LBB185_31:
	ldur	x27, [x29, #-40]
	ldr	x9, [sp, #72]
	add	x20, x8, x2
	add	x1, x9, x26
	add	x0, x27, x8
	sub	x9, x0, x1
	cmp	x9, x2
	b.hs	.LBB185_37
	cmp	x2, #8
	b.lo	.LBB185_34
	ldr	x10, [sp, #72]
	add	x9, x8, x27
	add	x10, x26, x10
	sub	x9, x9, x10
	cmp	x9, #32
	b.hs	.LBB185_49
.LBB185_34:
	mov	x9, xzr
.LBB185_35:
	add	x10, x26, x9
	add	x11, x9, x8
	sub	x8, x2, x9
	ldr	x9, [sp, #72]
	add	x9, x9, x10
	add	x10, x27, x11
.LBB185_36:
	ldrb	w11, [x9], #1
	subs	x8, x8, #1
	strb	w11, [x10], #1
	b.ne	.LBB185_36
	b	.LBB185_38
.LBB185_37:
	bl	memmove
.LBB185_38:
	sub	x8, x21, x20
	mov	x26, x19
	stp	x20, x21, [x29, #-32]
	cmp	x8, #5
	b.ls	.LBB185_71
.LBB185_39:
	add	x9, x27, x20
	adrp	x8, .Lstatic.14
	add	x8, x8, :lo12:.Lstatic.14
	sub	x8, x9, x8
	cmp	x8, #5
	add	x8, x20, #6
	b.hi	.LBB185_41
	adrp	x10, .LCPI185_1
	ldr	d0, [x10, :lo12:.LCPI185_1]
	mov	w10, #8308
	strh	w10, [x9, #4]
	str	s0, [x9]
	b	.LBB185_42
.LBB185_41:
	mov	w11, #29450
	mov	w10, #8308
	movk	w11, #27745, lsl #16
	strh	w10, [x9, #4]
	str	w11, [x9]
.LBB185_42:
	ldr	x2, [sp, #24]
	sub	x9, x21, x8
	stp	x8, x21, [x29, #-32]
	cmp	x2, x9
	b.hi	.LBB185_73
	add	x0, x27, x8
	add	x23, x8, x2
	sub	x9, x0, x22
	cmp	x9, x2
	b.hs	.LBB185_75
.LBB185_44:
	cmp	x2, #8
	b.lo	.LBB185_46
	add	x9, x8, x27
	sub	x9, x9, x22
	cmp	x9, #32
	b.hs	.LBB185_51
.LBB185_46:
	mov	x9, xzr
.LBB185_47:
	add	x10, x9, x8
	sub	x8, x2, x9
	add	x9, x22, x9
	add	x10, x27, x10
.LBB185_48:
	ldrb	w11, [x9], #1
	subs	x8, x8, #1
	strb	w11, [x10], #1
	b.ne	.LBB185_48
	b	.LBB185_76
.LBB185_49:
	cmp	x2, #32
	b.hs	.LBB185_53
	mov	x9, xzr
	b	.LBB185_57
.LBB185_51:
	cmp	x2, #32
	b.hs	.LBB185_64
	mov	x9, xzr
	b	.LBB185_68
.LBB185_53:
	ldr	x11, [sp, #72]
	add	x12, x8, x27
	and	x10, x2, #0x18
	and	x9, x2, #0xffffffffffffffe0
	add	x12, x12, #16
	and	x13, x2, #0xffffffffffffffe0
	add	x11, x26, x11
	add	x11, x11, #16
.LBB185_54:
	ldp	q0, q1, [x11, #-16]
	subs	x13, x13, #32
	add	x11, x11, #32
	stp	q0, q1, [x12, #-16]
	add	x12, x12, #32
	b.ne	.LBB185_54
	cmp	x2, x9
	b.eq	.LBB185_38
	cbz	x10, .LBB185_35
.LBB185_57:
	mov	x10, x9
	ldr	x13, [sp, #72]
	and	x9, x2, #0xfffffffffffffff8
	add	x11, x26, x10
	add	x12, x8, x10
	sub	x10, x10, x9
	add	x11, x13, x11
	add	x12, x27, x12
.LBB185_58:
	ldr	d0, [x11], #8
	adds	x10, x10, #8
	str	d0, [x12], #8
	b.ne	.LBB185_58
	cmp	x2, x9
	b.eq	.LBB185_38
	b	.LBB185_35
.LBB185_60:
	sub	x0, x29, #40
	mov	w1, #6
	bl	"std_alloc::vec::Vec::grow_amortized::<#c54c92966a7f5a87>"
	cbz	w0, .LBB185_125
	ldp	x24, x21, [x29, #-32]
	ldur	x20, [x29, #-40]
	b	.LBB185_27
.LBB185_62:
	sub	x0, x29, #40
	mov	x1, x2
	mov	x20, x2
	bl	"std_alloc::vec::Vec::grow_amortized::<#c54c92966a7f5a87>"
	cbz	w0, .LBB185_131
	ldp	x8, x21, [x29, #-32]
	mov	x2, x20
	b	.LBB185_31
.LBB185_64:
	add	x12, x8, x27
	and	x10, x2, #0x18
	and	x9, x2, #0xffffffffffffffe0
	add	x11, x22, #16
	add	x12, x12, #16
	and	x13, x2, #0xffffffffffffffe0
.LBB185_65:
	ldp	q0, q1, [x11, #-16]
	subs	x13, x13, #32
	add	x11, x11, #32
	stp	q0, q1, [x12, #-16]
	add	x12, x12, #32
	b.ne	.LBB185_65
	cmp	x2, x9
	b.eq	.LBB185_76
	cbz	x10, .LBB185_47
.LBB185_68:
	mov	x11, x9
	and	x9, x2, #0xfffffffffffffff8
	add	x12, x8, x11
	sub	x10, x11, x9
	add	x11, x22, x11
	add	x12, x27, x12
.LBB185_69:
	ldr	d0, [x11], #8
	adds	x10, x10, #8
	str	d0, [x12], #8
	b.ne	.LBB185_69
	cmp	x2, x9
	b.eq	.LBB185_76
	b	.LBB185_47
.LBB185_71:
	sub	x0, x29, #40
	mov	w1, #6
	bl	"std_alloc::vec::Vec::grow_amortized::<#c54c92966a7f5a87>"
	cbz	w0, .LBB185_115
	ldp	x20, x21, [x29, #-32]
	ldur	x27, [x29, #-40]
	b	.LBB185_39
.LBB185_73:
	sub	x0, x29, #40
	mov	x1, x2
	mov	x19, x2
	bl	"std_alloc::vec::Vec::grow_amortized::<#c54c92966a7f5a87>"
	cbz	w0, .LBB185_115
	ldp	x8, x21, [x29, #-32]
	mov	x2, x19
	ldur	x27, [x29, #-40]
	add	x0, x27, x8
	add	x23, x8, x19
	sub	x9, x0, x22
	cmp	x9, x19
	b.lo	.LBB185_44
.LBB185_75:
	mov	x1, x22
	bl	memmove
.LBB185_76:
	ldr	x2, [sp, #16]
	sub	x8, x21, x23
	stp	x23, x21, [x29, #-32]
	cmp	x2, x8
	b.hi	.LBB185_92
	ldur	x24, [x29, #-40]
	add	x25, x23, x2
	add	x0, x24, x23
	sub	x8, x0, x26
	cmp	x8, x2
	b.hs	.LBB185_94
.LBB185_78:
	cmp	x2, #8
	b.lo	.LBB185_80
	add	x8, x23, x24
	sub	x8, x8, x26
	cmp	x8, #32
	b.hs	.LBB185_83
.LBB185_80:
	mov	x8, xzr
.LBB185_81:
	add	x10, x8, x23
	sub	x9, x2, x8
	add	x8, x26, x8
	add	x10, x24, x10
.LBB185_82:
	ldrb	w11, [x8], #1
	subs	x9, x9, #1
	strb	w11, [x10], #1
	b.ne	.LBB185_82
	b	.LBB185_95
.LBB185_83:
	cmp	x2, #32
	b.hs	.LBB185_85
	mov	x8, xzr
	b	.LBB185_89
.LBB185_85:
	add	x11, x23, x24
	and	x9, x2, #0x18
	and	x8, x2, #0xffffffffffffffe0
	add	x10, x26, #16
	add	x11, x11, #16
	and	x12, x2, #0xffffffffffffffe0
.LBB185_86:
	ldp	q0, q1, [x10, #-16]
	subs	x12, x12, #32
	add	x10, x10, #32
	stp	q0, q1, [x11, #-16]
	add	x11, x11, #32
	b.ne	.LBB185_86
	cmp	x2, x8
	b.eq	.LBB185_95
	cbz	x9, .LBB185_81
.LBB185_89:
	mov	x10, x8
	and	x8, x2, #0xfffffffffffffff8
	add	x11, x23, x10
	sub	x9, x10, x8
	add	x10, x26, x10
	add	x11, x24, x11
.LBB185_90:
	ldr	d0, [x10], #8
	adds	x9, x9, #8
	str	d0, [x11], #8
	b.ne	.LBB185_90
	cmp	x2, x8
	b.eq	.LBB185_95
	b	.LBB185_81
.LBB185_92:
	sub	x0, x29, #40
	mov	x1, x2
	mov	x19, x2
	bl	"std_alloc::vec::Vec::grow_amortized::<#c54c92966a7f5a87>"
	cbz	w0, .LBB185_115
	ldp	x23, x21, [x29, #-32]
	mov	x2, x19
	ldur	x24, [x29, #-40]
	add	x25, x23, x19
	add	x0, x24, x23
	sub	x8, x0, x26
	cmp	x8, x19
	b.lo	.LBB185_78
.LBB185_94:
	mov	x1, x26
	bl	memmove
.LBB185_95:
	cmp	x21, x25
	stp	x25, x21, [x29, #-32]
	b.eq	.LBB185_113
	mov	w8, #10
	ldr	x20, [x29, #96]
	strb	w8, [x24, x25]
	ldr	x8, [sp, #32]
	add	x23, x25, #1
	cbz	x8, .LBB185_98
.LBB185_97:
	mov	x0, x26
	bl	rattle_dealloc
.LBB185_98:
	ldr	x8, [sp, #48]
	cbz	x8, .LBB185_100
	mov	x0, x22
	bl	rattle_dealloc
.LBB185_100:
	ldr	x8, [sp, #56]
	str	x23, [x20]
	cmp	x8, x23
	b.hs	.LBB185_102
	mov	w0, #9
	cbnz	x21, .LBB185_110
	b	.LBB185_6
.LBB185_102:
	ldp	x14, x13, [sp]
	add	x0, x14, x13
	sub	x8, x0, x24
	cmp	x8, x23
	b.hs	.LBB185_108
	cmp	x23, #8
	b.lo	.LBB185_105
	add	x8, x13, x14
	sub	x8, x8, x24
	cmp	x8, #32
	b.hs	.LBB185_111
.LBB185_105:
	mov	x8, xzr
.LBB185_106:
	sub	x9, x25, x8
	add	x10, x13, x8
	add	x8, x24, x8
	add	x9, x9, #1
	add	x10, x14, x10
.LBB185_107:
	ldrb	w11, [x8], #1
	subs	x9, x9, #1
	strb	w11, [x10], #1
	b.ne	.LBB185_107
	b	.LBB185_109
.LBB185_108:
	mov	x1, x24
	mov	x2, x23
	bl	memmove
.LBB185_109:
	mov	w0, wzr
	cbz	x21, .LBB185_6
.LBB185_110:
	mov	w19, w0
	mov	x0, x24
	bl	rattle_dealloc
	mov	w0, w19
	b	.LBB185_6
.LBB185_111:
	cmp	x23, #32
	b.hs	.LBB185_137
	mov	x8, xzr
	b	.LBB185_141
.LBB185_113:
	sub	x0, x29, #40
	mov	w1, #1
	bl	"std_alloc::vec::Vec::grow_amortized::<#c54c92966a7f5a87>"
	cbz	w0, .LBB185_115
	ldp	x25, x21, [x29, #-32]
	ldur	x24, [x29, #-40]
	mov	w8, #10
	ldr	x20, [x29, #96]
	strb	w8, [x24, x25]
	ldr	x8, [sp, #32]
	add	x23, x25, #1
	cbnz	x8, .LBB185_97
	b	.LBB185_98
.LBB185_115:
	ldur	x8, [x29, #-24]
	cbz	x8, .LBB185_117
	ldur	x0, [x29, #-40]
	bl	rattle_dealloc
.LBB185_117:
	ldr	x19, [sp, #48]
	ldr	x8, [sp, #32]
	cbz	x8, .LBB185_119
	mov	x0, x26
	bl	rattle_dealloc
.LBB185_119:
	cbnz	x19, .LBB185_136
	b	.LBB185_5
.LBB185_120:
	ldur	x8, [x29, #-24]
	cbz	x8, .LBB185_122
	ldur	x0, [x29, #-40]
	bl	rattle_dealloc
.LBB185_122:
	ldr	x20, [sp, #48]
	cbz	x21, .LBB185_124
	mov	x0, x19
	bl	rattle_dealloc
.LBB185_124:
	cbnz	x20, .LBB185_3
	b	.LBB185_5
.LBB185_125:
	ldur	x8, [x29, #-24]
	cbz	x8, .LBB185_127
	ldur	x0, [x29, #-40]
	bl	rattle_dealloc
.LBB185_127:
	ldp	x8, x20, [sp, #32]
	cbz	x8, .LBB185_129
	mov	x0, x19
	bl	rattle_dealloc
.LBB185_129:
	ldr	x8, [sp, #48]
	cbz	x8, .LBB185_5
	mov	x0, x20
	b	.LBB185_4
.LBB185_131:
	ldur	x8, [x29, #-24]
	cbz	x8, .LBB185_133
	ldur	x0, [x29, #-40]
	bl	rattle_dealloc
.LBB185_133:
	ldr	x20, [sp, #48]
	ldr	x8, [sp, #32]
	cbz	x8, .LBB185_135
	mov	x0, x19
	bl	rattle_dealloc
.LBB185_135:
	cbz	x20, .LBB185_5
.LBB185_136:
	mov	x0, x22
	b	.LBB185_4
.LBB185_137:
	add	x11, x13, x14
	and	x9, x23, #0x18
	and	x8, x23, #0xffffffffffffffe0
	add	x10, x24, #16
	add	x11, x11, #16
	and	x12, x23, #0xffffffffffffffe0
.LBB185_138:
	ldp	q0, q1, [x10, #-16]
	subs	x12, x12, #32
	add	x10, x10, #32
	stp	q0, q1, [x11, #-16]
	add	x11, x11, #32
	b.ne	.LBB185_138
	cmp	x23, x8
	b.eq	.LBB185_109
	cbz	x9, .LBB185_106
.LBB185_141:
	mov	x10, x8
	and	x8, x23, #0xfffffffffffffff8
	add	x11, x13, x10
	sub	x9, x10, x8
	add	x10, x24, x10
	add	x11, x14, x11
.LBB185_142:
	ldr	d0, [x10], #8
	adds	x9, x9, #8
	str	d0, [x11], #8
	b.ne	.LBB185_142
	cmp	x23, x8
	b.eq	.LBB185_109
	b	.LBB185_106
.Lfunc_end185:
	.size	wagtenib_lock_text, .Lfunc_end185-wagtenib_lock_text
	.section	.text.unlikely.wagtenib_monitor_begin,"ax",@progbits
	.globl	wagtenib_monitor_begin
	.p2align	2
	.type	wagtenib_monitor_begin,@function
wagtenib_monitor_begin:
	cmp	x0, #0
	mov	w8, #4096
	csel	x8, x8, xzr, eq
	add	x0, x0, x8
	b	"libwagtenib::monitor::wagtenib_monitor_begin"
.Lfunc_end186:
	.size	wagtenib_monitor_begin, .Lfunc_end186-wagtenib_monitor_begin
	.section	.rodata.cst16,"aM",@progbits,16
	.p2align	4, 0x0
.LCPI187_0:
	.byte	1
	.byte	2
	.byte	4
	.byte	8
	.byte	16
	.byte	32
	.byte	64
	.byte	128
	.byte	1
	.byte	2
	.byte	4
	.byte	8
	.byte	16
	.byte	32
	.byte	64
	.byte	128
	.section	.text.wagtenib_monitor_start,"ax",@progbits
	.globl	wagtenib_monitor_start
	.p2align	2
	.type	wagtenib_monitor_start,@function
wagtenib_monitor_start:
	sub	sp, sp, #416
	stp	x28, x27, [sp, #336]
	movi	v0.2d, #0000000000000000
	cmp	x1, #0
	stp	x26, x25, [sp, #352]
	ldp	x26, x28, [x0]
	mov	w9, #4096
	ldp	q3, q2, [x0, #16]
	csel	x8, x9, xzr, eq
	cmp	x3, #0
	stp	x24, x23, [sp, #368]
	fmov	d1, x26
	csel	x23, x9, xzr, eq
	stp	x29, x30, [sp, #320]
	stp	x22, x21, [sp, #384]
	add	x29, sp, #320
	stp	x20, x19, [sp, #400]
	cnt	v1.8b, v1.8b
	stp	q0, q0, [sp, #48]
	stp	q0, q0, [sp, #80]
	stp	q0, q0, [sp, #112]
	stp	q0, q0, [sp, #144]
	addv	b1, v1.8b
	stp	q0, q0, [sp, #176]
	stp	q0, q0, [sp, #208]
	stp	q0, q0, [sp, #240]
	fmov	x10, d1
	cmp	x2, x10
	b.ne	.LBB187_3
	add	x20, x1, x8
	sub	x0, x29, #48
	mov	x19, x2
	mov	x1, x20
	mov	x27, x4
	mov	x25, x5
	mov	x24, x3
	stp	q0, q0, [x29, #-48]
	stp	q3, q2, [sp, #16]
	bl	"ct_monitor::fitting::root_of::<#0f46d2847b2ce1ce>"
	ldp	q0, q1, [x29, #-48]
	adrp	x8, .LCPI187_0
	ldr	q2, [sp, #32]
	cmeq	v1.16b, v2.16b, v1.16b
	ldr	q2, [sp, #16]
	cmeq	v0.16b, v2.16b, v0.16b
	ldr	q2, [x8, :lo12:.LCPI187_0]
	bic	v1.16b, v2.16b, v1.16b
	bic	v0.16b, v2.16b, v0.16b
	ext	v2.16b, v1.16b, v1.16b, #8
	ext	v3.16b, v0.16b, v0.16b, #8
	zip1	v1.16b, v1.16b, v2.16b
	zip1	v0.16b, v0.16b, v3.16b
	addv	h1, v1.8h
	addv	h0, v0.8h
	fmov	w8, s1
	fmov	w9, s0
	orr	w8, w9, w8
	tst	w8, #0xffff
	b.eq	.LBB187_4
	mov	w0, #4
	b	.LBB187_14
.LBB187_3:
	mov	w0, #140
	b	.LBB187_14
.LBB187_4:
	cbz	x19, .LBB187_15
	lsl	x22, x19, #5
	mov	w1, #1
	mov	x0, x22
	bl	rattle_alloc
	tbz	w0, #0, .LBB187_13
	sub	x8, x1, x20
	mov	x21, x1
	cmp	x8, x22
	b.hs	.LBB187_9
	mov	x8, x21
	mov	x9, x20
	mov	x10, x19
.LBB187_8:
	ldp	q1, q0, [x9], #32
	subs	x10, x10, #1
	stp	q1, q0, [x8], #32
	b.ne	.LBB187_8
	b	.LBB187_10
.LBB187_9:
	mov	x0, x21
	mov	x1, x20
	mov	x2, x22
	bl	memmove
.LBB187_10:
	mov	x0, x22
	mov	w1, #1
	bl	rattle_alloc
	tbnz	w0, #0, .LBB187_28
	mov	x0, x21
.LBB187_12:
	bl	rattle_dealloc
.LBB187_13:
	mov	w0, #8
.LBB187_14:
	ldp	x20, x19, [sp, #400]
	ldp	x22, x21, [sp, #384]
	ldp	x24, x23, [sp, #368]
	ldp	x26, x25, [sp, #352]
	ldp	x28, x27, [sp, #336]
	ldp	x29, x30, [sp, #320]
	add	sp, sp, #416
	ret
.LBB187_15:
	mov	x22, xzr
	sub	x21, x29, #9
	sub	x1, x29, #9
.LBB187_16:
	str	x1, [sp, #8]
	mov	x0, x1
	mov	x1, x20
	mov	x2, x22
	bl	memmove
	ldp	q3, q2, [sp, #16]
	ldr	x1, [sp, #8]
.LBB187_17:
	movi	v0.2d, #0000000000000000
	mov	w8, #1
	stp	x1, x19, [sp, #248]
	add	x0, sp, #48
	add	x1, sp, #80
	stur	q3, [sp, #104]
	stp	x8, x26, [sp, #80]
	str	x28, [sp, #96]
	stur	q2, [sp, #120]
	stur	q0, [sp, #136]
	stur	q0, [sp, #152]
	stur	q0, [sp, #168]
	stp	xzr, x28, [sp, #184]
	stp	xzr, x26, [sp, #200]
	stp	x21, x19, [sp, #216]
	stp	x19, x26, [sp, #232]
	str	x19, [sp, #264]
	bl	"ct_monitor::writing::write_state"
	ldrb	w9, [sp, #48]
	ldr	x8, [sp, #232]
	cbz	w9, .LBB187_22
	cbz	x8, .LBB187_20
	ldr	x0, [sp, #216]
	bl	rattle_dealloc
.LBB187_20:
	ldr	x8, [sp, #264]
	cbz	x8, .LBB187_13
	ldr	x0, [sp, #248]
	b	.LBB187_12
.LBB187_22:
	cbz	x8, .LBB187_24
	ldr	x0, [sp, #216]
	bl	rattle_dealloc
.LBB187_24:
	ldr	x8, [sp, #264]
	cbz	x8, .LBB187_26
	ldr	x0, [sp, #248]
	bl	rattle_dealloc
.LBB187_26:
	ldp	x19, x2, [sp, #56]
	ldr	x20, [sp, #72]
	cmp	x27, x2
	str	x2, [x25]
	b.hs	.LBB187_31
	mov	w0, #9
	b	.LBB187_39
.LBB187_28:
	sub	x8, x1, x20
	cmp	x8, x22
	b.hs	.LBB187_16
	ldp	q3, q2, [sp, #16]
	mov	x8, xzr
	mov	x9, x19
.LBB187_30:
	add	x10, x20, x8
	subs	x9, x9, #1
	ldp	q1, q0, [x10]
	add	x10, x1, x8
	add	x8, x8, #32
	stp	q1, q0, [x10]
	b.ne	.LBB187_30
	b	.LBB187_17
.LBB187_31:
	add	x0, x24, x23
	sub	x8, x0, x19
	cmp	x8, x2
	b.hs	.LBB187_37
	cmp	x2, #8
	b.lo	.LBB187_34
	add	x8, x23, x24
	sub	x8, x8, x19
	cmp	x8, #32
	b.hs	.LBB187_41
.LBB187_34:
	mov	x8, xzr
.LBB187_35:
	add	x10, x23, x8
	sub	x9, x2, x8
	add	x8, x19, x8
	add	x10, x24, x10
.LBB187_36:
	ldrb	w11, [x8], #1
	subs	x9, x9, #1
	strb	w11, [x10], #1
	b.ne	.LBB187_36
	b	.LBB187_38
.LBB187_37:
	mov	x1, x19
	bl	memmove
.LBB187_38:
	mov	w0, wzr
.LBB187_39:
	cbz	x20, .LBB187_14
	mov	w20, w0
	mov	x0, x19
	bl	rattle_dealloc
	mov	w0, w20
	b	.LBB187_14
.LBB187_41:
	cmp	x2, #32
	b.hs	.LBB187_43
	mov	x8, xzr
	b	.LBB187_47
.LBB187_43:
	add	x11, x23, x24
	and	x9, x2, #0x18
	and	x8, x2, #0xffffffffffffffe0
	add	x10, x19, #16
	add	x11, x11, #16
	and	x12, x2, #0xffffffffffffffe0
.LBB187_44:
	ldp	q0, q1, [x10, #-16]
	subs	x12, x12, #32
	add	x10, x10, #32
	stp	q0, q1, [x11, #-16]
	add	x11, x11, #32
	b.ne	.LBB187_44
	cmp	x2, x8
	b.eq	.LBB187_38
	cbz	x9, .LBB187_35
.LBB187_47:
	mov	x10, x8
	and	x8, x2, #0xfffffffffffffff8
	add	x11, x23, x10
	sub	x9, x10, x8
	add	x10, x19, x10
	add	x11, x24, x11
.LBB187_48:
	ldr	d0, [x10], #8
	adds	x9, x9, #8
	str	d0, [x11], #8
	b.ne	.LBB187_48
	cmp	x2, x8
	b.eq	.LBB187_38
	b	.LBB187_35
.Lfunc_end187:
	.size	wagtenib_monitor_start, .Lfunc_end187-wagtenib_monitor_start
	.section	.rodata.cst16,"aM",@progbits,16
	.p2align	4, 0x0
.LCPI188_0:
	.byte	1
	.byte	2
	.byte	4
	.byte	8
	.byte	16
	.byte	32
	.byte	64
	.byte	128
	.byte	1
	.byte	2
	.byte	4
	.byte	8
	.byte	16
	.byte	32
	.byte	64
	.byte	128
	.section	.text.wagtenib_names_in_bytes,"ax",@progbits
	.globl	wagtenib_names_in_bytes
	.p2align	2
	.type	wagtenib_names_in_bytes,@function
wagtenib_names_in_bytes:
	stp	d15, d14, [sp, #-160]!
	stp	d13, d12, [sp, #16]
	stp	d11, d10, [sp, #32]
	stp	d9, d8, [sp, #48]
	stp	x29, x30, [sp, #64]
	add	x29, sp, #64
	stp	x28, x27, [sp, #80]
	stp	x26, x25, [sp, #96]
	stp	x24, x23, [sp, #112]
	stp	x22, x21, [sp, #128]
	stp	x20, x19, [sp, #144]
	sub	sp, sp, #448
	movi	v0.2d, #0000000000000000
	cmp	x0, #0
	mov	w8, #4096
	csel	x19, x8, xzr, eq
	cmp	x2, #0
	mov	x26, x0
	csel	x9, x8, xzr, eq
	mov	x24, x1
	cmp	x4, #0
	sub	x0, x29, #176
	add	x1, x2, x9
	mov	x2, x3
	mov	x22, x6
	mov	x23, x5
	mov	x20, x4
	stur	xzr, [x29, #-144]
	csel	x21, x8, xzr, eq
	stp	q0, q0, [x29, #-176]
	bl	"ct_names::name_lists::list_of"
	ldurb	w8, [x29, #-176]
	cbz	w8, .LBB188_2
.LBB188_1:
	mov	w0, #8
	b	.LBB188_13
.LBB188_2:
	ldurb	w8, [x29, #-168]
	cmp	w8, #1
	b.ne	.LBB188_12
	ldp	x27, x28, [x29, #-160]
	sub	x25, x29, #73
	ldur	x8, [x29, #-144]
	stur	x8, [x29, #-240]
	cbz	x24, .LBB188_16
	tbnz	x24, #63, .LBB188_14
	mov	x0, x24
	mov	w1, #1
	bl	rattle_alloc
	tbz	w0, #0, .LBB188_14
	mov	x13, x1
	add	x1, x26, x19
	sub	x8, x13, x1
	cmp	x8, x24
	b.hs	.LBB188_17
	cmp	x24, #8
	b.lo	.LBB188_9
	add	x8, x19, x26
	sub	x8, x13, x8
	cmp	x8, #32
	b.hs	.LBB188_28
.LBB188_9:
	mov	x8, xzr
.LBB188_10:
	add	x10, x19, x8
	sub	x9, x24, x8
	add	x8, x13, x8
	add	x10, x26, x10
.LBB188_11:
	ldrb	w11, [x10], #1
	subs	x9, x9, #1
	strb	w11, [x8], #1
	b.ne	.LBB188_11
	b	.LBB188_18
.LBB188_12:
	mov	w0, #144
.LBB188_13:
	add	sp, sp, #448
	ldp	x20, x19, [sp, #144]
	ldp	x22, x21, [sp, #128]
	ldp	x24, x23, [sp, #112]
	ldp	x26, x25, [sp, #96]
	ldp	x28, x27, [sp, #80]
	ldp	x29, x30, [sp, #64]
	ldp	d9, d8, [sp, #48]
	ldp	d11, d10, [sp, #32]
	ldp	d13, d12, [sp, #16]
	ldp	d15, d14, [sp], #160
	ret
.LBB188_14:
	ldur	x8, [x29, #-240]
	cbz	x8, .LBB188_1
	mov	x0, x27
	b	.LBB188_405
.LBB188_16:
	sub	x13, x29, #73
	b	.LBB188_39
.LBB188_17:
	mov	x0, x13
	mov	x2, x24
	mov	x19, x13
	bl	memmove
	mov	x13, x19
.LBB188_18:
	cmp	x24, #8
	b.hs	.LBB188_20
	mov	x8, xzr
	b	.LBB188_37
.LBB188_20:
	cmp	x24, #32
	b.hs	.LBB188_22
	mov	x8, xzr
	b	.LBB188_26
.LBB188_22:
	and	x9, x24, #0x18
	and	x8, x24, #0x7fffffffffffffe0
	add	x10, x13, #16
	and	x11, x24, #0x7fffffffffffffe0
.LBB188_23:
	movi	v0.16b, #191
	ldp	q1, q2, [x10, #-16]
	movi	v3.16b, #26
	movi	v5.16b, #32
	subs	x11, x11, #32
	add	v4.16b, v1.16b, v0.16b
	add	v0.16b, v2.16b, v0.16b
	cmhi	v4.16b, v3.16b, v4.16b
	cmhi	v0.16b, v3.16b, v0.16b
	and	v3.16b, v4.16b, v5.16b
	and	v0.16b, v0.16b, v5.16b
	add	v1.16b, v1.16b, v3.16b
	add	v0.16b, v2.16b, v0.16b
	stp	q1, q0, [x10, #-16]
	add	x10, x10, #32
	b.ne	.LBB188_23
	cmp	x24, x8
	b.eq	.LBB188_39
	cbz	x9, .LBB188_37
.LBB188_26:
	mov	x9, x8
	and	x8, x24, #0x7ffffffffffffff8
.LBB188_27:
	movi	v0.8b, #191
	ldr	d1, [x13, x9]
	movi	v2.8b, #26
	movi	v3.8b, #32
	add	v0.8b, v1.8b, v0.8b
	cmhi	v0.8b, v2.8b, v0.8b
	and	v0.8b, v0.8b, v3.8b
	add	v0.8b, v1.8b, v0.8b
	str	d0, [x13, x9]
	add	x9, x9, #8
	cmp	x8, x9
	b.ne	.LBB188_27
	b	.LBB188_38
.LBB188_28:
	cmp	x24, #32
	b.hs	.LBB188_30
	mov	x8, xzr
	b	.LBB188_34
.LBB188_30:
	add	x10, x19, x26
	and	x9, x24, #0x18
	and	x8, x24, #0x7fffffffffffffe0
	add	x10, x10, #16
	add	x11, x13, #16
	and	x12, x24, #0x7fffffffffffffe0
.LBB188_31:
	ldp	q0, q1, [x10, #-16]
	subs	x12, x12, #32
	add	x10, x10, #32
	stp	q0, q1, [x11, #-16]
	add	x11, x11, #32
	b.ne	.LBB188_31
	cmp	x24, x8
	b.eq	.LBB188_18
	cbz	x9, .LBB188_10
.LBB188_34:
	mov	x11, x8
	and	x8, x24, #0x7ffffffffffffff8
	add	x10, x19, x11
	sub	x9, x11, x8
	add	x11, x13, x11
	add	x10, x26, x10
.LBB188_35:
	ldr	d0, [x10], #8
	adds	x9, x9, #8
	str	d0, [x11], #8
	b.ne	.LBB188_35
	cmp	x24, x8
	b.eq	.LBB188_18
	b	.LBB188_10
.LBB188_37:
	ldrb	w9, [x13, x8]
	sub	w10, w9, #65
	add	w11, w9, #32
	cmp	w10, #26
	csel	w9, w11, w9, lo
	strb	w9, [x13, x8]
	add	x8, x8, #1
.LBB188_38:
	cmp	x24, x8
	b.ne	.LBB188_37
.LBB188_39:
	stp	xzr, xzr, [x29, #-128]
	stur	x25, [x29, #-136]
	cbz	x28, .LBB188_393
	add	x8, x24, #1
	stp	x21, x20, [sp, #88]
	mov	x20, x27
	stur	x8, [x29, #-232]
	add	x8, x13, x24
	stp	x8, x27, [sp, #128]
	add	x8, x13, #32
	str	x8, [sp, #208]
	sub	x8, x24, #63
	str	x8, [sp, #200]
	add	x8, x13, #96
	str	x8, [sp, #216]
	add	x8, x13, #160
	str	x8, [sp, #152]
	sub	x8, x13, #1
	str	x8, [sp, #144]
	sub	x8, x24, #64
	stp	x23, x22, [sp, #72]
	stur	xzr, [x29, #-208]
	str	x8, [sp, #32]
	stur	x24, [x29, #-200]
	stur	x13, [x29, #-216]
	b	.LBB188_43
.LBB188_41:
	mov	x0, x26
	bl	rattle_dealloc
	ldur	x13, [x29, #-216]
.LBB188_42:
	ldp	x8, x24, [x29, #-208]
	add	x20, x20, #16
	ldur	x28, [x29, #-224]
	subs	x28, x28, #1
	add	x8, x8, #1
	stur	x8, [x29, #-208]
	b.eq	.LBB188_412
.LBB188_43:
	ldp	x27, x8, [x20]
	cbz	x8, .LBB188_45
	sub	x25, x8, #1
	ldrb	w9, [x27, x25]
	cmp	w9, #46
	b.eq	.LBB188_46
.LBB188_45:
	mov	x25, x8
.LBB188_46:
	subs	x8, x25, #2
	stur	x28, [x29, #-224]
	b.hs	.LBB188_49
	cbz	x25, .LBB188_61
	ldrb	w9, [x27]
	b	.LBB188_52
.LBB188_49:
	ldrb	w9, [x27]
	cmp	w9, #42
	b.ne	.LBB188_52
	ldrb	w9, [x27, #1]
	cmp	w9, #46
	b.ne	.LBB188_54
	add	x27, x27, #2
	mov	x25, x8
	cbnz	x8, .LBB188_54
	b	.LBB188_61
.LBB188_52:
	cmp	w9, #46
	b.ne	.LBB188_54
	sub	x25, x25, #1
	add	x27, x27, #1
	cbz	x25, .LBB188_61
.LBB188_54:
	tbnz	x25, #63, .LBB188_399
	mov	x0, x25
	mov	w1, #1
	bl	rattle_alloc
	tbz	w0, #0, .LBB188_399
	sub	x8, x1, x27
	mov	x26, x1
	cmp	x8, x25
	b.hs	.LBB188_62
	cmp	x25, #8
	mov	x8, xzr
	b.lo	.LBB188_70
	sub	x9, x26, x27
	cmp	x9, #32
	b.lo	.LBB188_70
	cmp	x25, #32
	b.hs	.LBB188_63
	mov	x8, xzr
	b	.LBB188_67
.LBB188_61:
	mov	w13, wzr
	mov	w11, wzr
	mov	x12, xzr
	mov	x8, xzr
	mov	x9, xzr
	mov	x14, xzr
	mov	x10, xzr
	mov	w19, wzr
	mov	w27, wzr
	sub	x26, x29, #73
	cmp	x24, x25
	b.lo	.LBB188_41
	b	.LBB188_132
.LBB188_62:
	mov	x0, x26
	mov	x1, x27
	mov	x2, x25
	bl	memmove
	b	.LBB188_72
.LBB188_63:
	and	x9, x25, #0x18
	and	x8, x25, #0x7fffffffffffffe0
	add	x10, x27, #16
	add	x11, x26, #16
	and	x12, x25, #0x7fffffffffffffe0
.LBB188_64:
	ldp	q0, q1, [x10, #-16]
	subs	x12, x12, #32
	add	x10, x10, #32
	stp	q0, q1, [x11, #-16]
	add	x11, x11, #32
	b.ne	.LBB188_64
	cmp	x25, x8
	b.eq	.LBB188_72
	cbz	x9, .LBB188_70
.LBB188_67:
	mov	x11, x8
	and	x8, x25, #0x7ffffffffffffff8
	sub	x9, x11, x8
	add	x10, x27, x11
	add	x11, x26, x11
.LBB188_68:
	ldr	d0, [x10], #8
	adds	x9, x9, #8
	str	d0, [x11], #8
	b.ne	.LBB188_68
	cmp	x25, x8
	b.eq	.LBB188_72
.LBB188_70:
	sub	x9, x25, x8
	add	x10, x27, x8
	add	x8, x26, x8
.LBB188_71:
	ldrb	w11, [x10], #1
	subs	x9, x9, #1
	strb	w11, [x8], #1
	b.ne	.LBB188_71
.LBB188_72:
	cmp	x25, #8
	b.hs	.LBB188_74
	mov	x8, xzr
	b	.LBB188_83
.LBB188_74:
	cmp	x25, #32
	b.hs	.LBB188_76
	mov	x8, xzr
	b	.LBB188_80
.LBB188_76:
	and	x9, x25, #0x18
	and	x8, x25, #0x7fffffffffffffe0
	add	x10, x26, #16
	and	x11, x25, #0x7fffffffffffffe0
.LBB188_77:
	movi	v0.16b, #191
	ldp	q1, q2, [x10, #-16]
	movi	v3.16b, #26
	movi	v5.16b, #32
	subs	x11, x11, #32
	add	v4.16b, v1.16b, v0.16b
	add	v0.16b, v2.16b, v0.16b
	cmhi	v4.16b, v3.16b, v4.16b
	cmhi	v0.16b, v3.16b, v0.16b
	and	v3.16b, v4.16b, v5.16b
	and	v0.16b, v0.16b, v5.16b
	add	v1.16b, v1.16b, v3.16b
	add	v0.16b, v2.16b, v0.16b
	stp	q1, q0, [x10, #-16]
	add	x10, x10, #32
	b.ne	.LBB188_77
	cmp	x25, x8
	b.eq	.LBB188_85
	cbz	x9, .LBB188_83
.LBB188_80:
	mov	x10, x8
	and	x8, x25, #0x7ffffffffffffff8
	sub	x9, x10, x8
	add	x10, x26, x10
.LBB188_81:
	movi	v0.8b, #191
	ldr	d1, [x10]
	movi	v2.8b, #26
	movi	v3.8b, #32
	adds	x9, x9, #8
	add	v0.8b, v1.8b, v0.8b
	cmhi	v0.8b, v2.8b, v0.8b
	and	v0.8b, v0.8b, v3.8b
	add	v0.8b, v1.8b, v0.8b
	str	d0, [x10], #8
	b.ne	.LBB188_81
	cmp	x25, x8
	b.eq	.LBB188_85
.LBB188_83:
	sub	x9, x25, x8
	add	x8, x26, x8
.LBB188_84:
	ldrb	w10, [x8]
	sub	w11, w10, #65
	add	w12, w10, #32
	cmp	w11, #26
	csel	w10, w12, w10, lo
	subs	x9, x9, #1
	strb	w10, [x8], #1
	b.ne	.LBB188_84
.LBB188_85:
	ldrb	w1, [x26]
	cmp	x25, #1
	b.ne	.LBB188_87
	mov	x12, xzr
	mov	x8, xzr
	mov	x9, xzr
	mov	x14, xzr
	mov	x10, xzr
	mov	w19, wzr
	mov	w27, wzr
	mov	w13, #1
	mov	w11, w1
	cmp	x24, x25
	b.lo	.LBB188_41
	b	.LBB188_132
.LBB188_87:
	ldrb	w9, [x26, #1]
	adrp	x8, .Lstatic.20
	add	x8, x8, :lo12:.Lstatic.20
	ldrb	w11, [x8, x1]
	ldrb	w10, [x8, x9]
	cmp	w10, w11
	b.hs	.LBB188_89
	mov	w27, wzr
	mov	w19, #1
	mov	w10, w1
	cmp	x25, #2
	b.eq	.LBB188_90
	b	.LBB188_96
.LBB188_89:
	mov	w19, wzr
	mov	w27, #1
	mov	w10, w9
	mov	w9, w1
	cmp	x25, #2
	b.ne	.LBB188_96
.LBB188_90:
	mov	w9, w27
	and	x8, x19, #0xff
	and	x9, x9, #0xff
	ldrb	w10, [x26, x8]
	ldrb	w9, [x26, x9]
	cmp	w9, w10
	b.ne	.LBB188_94
	cmp	x25, #255
	mov	w11, #255
	mov	x9, xzr
	csel	x11, x25, x11, lo
.LBB188_92:
	ldrb	w12, [x26, x9]
	cmp	w12, w10
	b.ne	.LBB188_103
	add	x9, x9, #1
	cmp	x11, x9
	b.ne	.LBB188_92
.LBB188_94:
	cmp	x25, #33
	b.hs	.LBB188_104
.LBB188_95:
	movi	v0.2d, #0000000000000000
	sub	x0, x29, #112
	mov	x21, x1
	mov	x1, x26
	mov	x2, x25
	stp	q0, q0, [x29, #-112]
	bl	memcpy
	ldp	x8, x9, [x29, #-112]
	mov	x1, x21
	ldp	x14, x10, [x29, #-96]
	and	x12, x27, #0xff
	mov	w13, #2
	mov	w11, w19
	mov	w19, w25
	mov	w27, wzr
	cmp	x24, x25
	b.lo	.LBB188_41
	b	.LBB188_132
.LBB188_96:
	cmp	x25, #255
	mov	w11, #255
	mov	w12, #2
	csel	x11, x25, x11, lo
	b	.LBB188_98
.LBB188_97:
	mov	w13, w9
	add	x12, x12, #1
	mov	w9, w13
	cmp	x11, x12
	b.eq	.LBB188_90
.LBB188_98:
	ldrb	w13, [x26, x12]
	and	x15, x9, #0xff
	ldrb	w15, [x8, x15]
	ldrb	w14, [x8, x13]
	cmp	w14, w15
	b.hs	.LBB188_100
	mov	w27, w19
	mov	w10, w9
	mov	w19, w12
	add	x12, x12, #1
	mov	w9, w13
	cmp	x11, x12
	b.ne	.LBB188_98
	b	.LBB188_90
.LBB188_100:
	cmp	w13, w9, uxtb
	b.eq	.LBB188_97
	and	x15, x10, #0xff
	ldrb	w15, [x8, x15]
	cmp	w14, w15
	b.hs	.LBB188_97
	mov	w27, w12
	mov	w10, w13
	b	.LBB188_97
.LBB188_103:
	and	w10, w19, #0xff
	cmp	w10, w9, uxtb
	and	x10, x9, #0xff
	ccmp	x25, x10, #0, ne
	ccmp	x25, x8, #0, hi
	csel	w27, w9, w27, hi
	cmp	x25, #33
	b.lo	.LBB188_95
.LBB188_104:
	movi	v1.2d, #0000000000000000
	movi	v2.2d, #0000000000000000
	and	x11, x25, #0x1c
	movi	v6.2d, #0000000000000000
	movi	v26.2d, #0000000000000000
	and	x10, x25, #0x7fffffffffffffe0
	movi	v17.2d, #0000000000000000
	movi	v4.2d, #0000000000000000
	and	x9, x25, #0x7fffffffffffffe0
	movi	v5.2d, #0000000000000000
	movi	v3.2d, #0000000000000000
	add	x8, x26, #16
	movi	v21.2d, #0000000000000000
	movi	v16.2d, #0000000000000000
	and	x12, x25, #0x7fffffffffffffe0
	movi	v7.2d, #0000000000000000
	movi	v22.2d, #0000000000000000
	movi	v19.2d, #0000000000000000
	movi	v20.2d, #0000000000000000
	movi	v18.2d, #0000000000000000
	movi	v23.2d, #0000000000000000
.LBB188_105:
	movi	v24.16b, #63
	stur	q26, [x29, #-192]
	mov	w13, #1
	ldp	q25, q26, [x8, #-16]
	dup	v28.2d, x13
	subs	x12, x12, #32
	add	x8, x8, #32
	and	v25.16b, v25.16b, v24.16b
	and	v24.16b, v26.16b, v24.16b
	ushll2	v26.8h, v25.16b, #0
	ushll	v25.8h, v25.8b, #0
	ushll2	v27.8h, v24.16b, #0
	ushll	v24.8h, v24.8b, #0
	ushll2	v29.4s, v26.8h, #0
	ushll	v26.4s, v26.4h, #0
	ushll2	v30.4s, v25.8h, #0
	ushll	v25.4s, v25.4h, #0
	ushll2	v31.4s, v27.8h, #0
	ushll	v27.4s, v27.4h, #0
	ushll2	v8.4s, v24.8h, #0
	ushll	v24.4s, v24.4h, #0
	ushll2	v10.2d, v26.4s, #0
	ushll	v26.2d, v26.2s, #0
	ushll2	v9.2d, v29.4s, #0
	ushll	v29.2d, v29.2s, #0
	ushll2	v11.2d, v30.4s, #0
	ushll	v30.2d, v30.2s, #0
	ushll2	v12.2d, v25.4s, #0
	ushll	v25.2d, v25.2s, #0
	ushll2	v13.2d, v31.4s, #0
	ushll	v31.2d, v31.2s, #0
	ushll2	v14.2d, v27.4s, #0
	ushll2	v15.2d, v8.4s, #0
	ushll	v27.2d, v27.2s, #0
	ushll	v8.2d, v8.2s, #0
	ushll2	v0.2d, v24.4s, #0
	ushll	v24.2d, v24.2s, #0
	ushl	v26.2d, v28.2d, v26.2d
	ushl	v25.2d, v28.2d, v25.2d
	ushl	v12.2d, v28.2d, v12.2d
	ushl	v30.2d, v28.2d, v30.2d
	ushl	v11.2d, v28.2d, v11.2d
	ushl	v10.2d, v28.2d, v10.2d
	ushl	v29.2d, v28.2d, v29.2d
	ushl	v9.2d, v28.2d, v9.2d
	ushl	v24.2d, v28.2d, v24.2d
	ushl	v0.2d, v28.2d, v0.2d
	ushl	v8.2d, v28.2d, v8.2d
	ushl	v27.2d, v28.2d, v27.2d
	ushl	v15.2d, v28.2d, v15.2d
	ushl	v14.2d, v28.2d, v14.2d
	ushl	v31.2d, v28.2d, v31.2d
	ushl	v28.2d, v28.2d, v13.2d
	orr	v4.16b, v26.16b, v4.16b
	ldur	q26, [x29, #-192]
	orr	v21.16b, v9.16b, v21.16b
	orr	v3.16b, v29.16b, v3.16b
	orr	v5.16b, v10.16b, v5.16b
	orr	v17.16b, v11.16b, v17.16b
	orr	v6.16b, v12.16b, v6.16b
	orr	v26.16b, v30.16b, v26.16b
	orr	v2.16b, v25.16b, v2.16b
	orr	v23.16b, v28.16b, v23.16b
	orr	v18.16b, v31.16b, v18.16b
	orr	v20.16b, v14.16b, v20.16b
	orr	v22.16b, v15.16b, v22.16b
	orr	v19.16b, v27.16b, v19.16b
	orr	v7.16b, v8.16b, v7.16b
	orr	v1.16b, v0.16b, v1.16b
	orr	v16.16b, v24.16b, v16.16b
	b.ne	.LBB188_105
	orr	v0.16b, v22.16b, v17.16b
	orr	v17.16b, v23.16b, v21.16b
	cmp	x25, x10
	orr	v1.16b, v1.16b, v6.16b
	orr	v2.16b, v16.16b, v2.16b
	orr	v4.16b, v19.16b, v4.16b
	orr	v5.16b, v20.16b, v5.16b
	orr	v6.16b, v7.16b, v26.16b
	orr	v3.16b, v18.16b, v3.16b
	orr	v0.16b, v0.16b, v17.16b
	orr	v2.16b, v2.16b, v4.16b
	orr	v3.16b, v6.16b, v3.16b
	orr	v1.16b, v1.16b, v5.16b
	orr	v2.16b, v2.16b, v3.16b
	orr	v0.16b, v1.16b, v0.16b
	orr	v0.16b, v2.16b, v0.16b
	ext	v1.16b, v0.16b, v0.16b, #8
	orr	v0.8b, v0.8b, v1.8b
	fmov	x8, d0
	b.eq	.LBB188_113
	cbz	x11, .LBB188_111
	movi	v0.2d, #0000000000000000
	movi	v1.2d, #0000000000000000
	and	x9, x25, #0x7ffffffffffffffc
	mov	v0.d[0], x8
	sub	x8, x9, x10
	add	x10, x26, x10
.LBB188_109:
	ldr	s2, [x10], #4
	movi	v3.2d, #0x000000000000ff
	mov	w11, #1
	subs	x8, x8, #4
	ushll	v2.8h, v2.8b, #0
	bic	v2.4h, #192
	ushll	v2.4s, v2.4h, #0
	ushll2	v4.2d, v2.4s, #0
	ushll	v2.2d, v2.2s, #0
	and	v4.16b, v4.16b, v3.16b
	and	v2.16b, v2.16b, v3.16b
	dup	v3.2d, x11
	ushl	v2.2d, v3.2d, v2.2d
	ushl	v3.2d, v3.2d, v4.2d
	orr	v1.16b, v3.16b, v1.16b
	orr	v0.16b, v2.16b, v0.16b
	b.ne	.LBB188_109
	orr	v0.16b, v0.16b, v1.16b
	cmp	x25, x9
	ext	v1.16b, v0.16b, v0.16b, #8
	orr	v0.8b, v0.8b, v1.8b
	fmov	x8, d0
	b.eq	.LBB188_113
.LBB188_111:
	sub	x10, x25, x9
	add	x9, x26, x9
.LBB188_112:
	ldrb	w11, [x9], #1
	mov	w12, #1
	subs	x10, x10, #1
	lsl	x11, x12, x11
	orr	x8, x11, x8
	b.ne	.LBB188_112
.LBB188_113:
	mov	x9, xzr
	mov	x10, xzr
	mov	w15, #1
	mov	w12, #1
	mov	w11, #1
.LBB188_114:
	add	x13, x26, x9
	add	x14, x10, #1
	ldrb	w12, [x26, x12]
	ldrb	w10, [x13, x10]
	cmp	x14, x15
	add	x13, x14, x11
	csel	x16, x15, xzr, eq
	csel	x14, xzr, x14, eq
	sub	x17, x13, x9
	cmp	w10, w12
	add	x16, x16, x11
	csel	x14, xzr, x14, lo
	csel	x13, x13, x16, lo
	csel	x15, x17, x15, lo
	cmp	w12, w10
	csel	x10, xzr, x14, lo
	csinc	x13, x13, x11, hs
	csel	x9, x11, x9, lo
	add	x12, x13, x10
	csinc	x15, x15, xzr, hs
	mov	x11, x13
	cmp	x12, x25
	b.lo	.LBB188_114
	mov	x16, xzr
	mov	x10, xzr
	mov	w17, #1
	mov	w12, #1
	mov	w11, #1
.LBB188_116:
	add	x13, x26, x16
	add	x14, x10, #1
	ldrb	w12, [x26, x12]
	ldrb	w10, [x13, x10]
	cmp	x14, x17
	add	x13, x14, x11
	csel	x18, x17, xzr, eq
	csel	x14, xzr, x14, eq
	sub	x0, x13, x16
	cmp	w12, w10
	add	x18, x18, x11
	csel	x14, xzr, x14, lo
	csel	x13, x13, x18, lo
	csel	x17, x0, x17, lo
	cmp	w10, w12
	csel	x10, xzr, x14, lo
	csinc	x13, x13, x11, hs
	csel	x16, x11, x16, lo
	add	x12, x13, x10
	csinc	x17, x17, xzr, hs
	mov	x11, x13
	cmp	x12, x25
	b.lo	.LBB188_116
	cmp	x16, x9
	b.hs	.LBB188_123
	sub	x10, x25, x9
	cmp	x10, x9
	csel	x10, x10, x9, hi
	cmp	x25, x9, lsl #1
	b.ls	.LBB188_129
	mov	x11, xzr
	add	x12, x26, x15
.LBB188_120:
	ldrb	w13, [x26, x11]
	ldrb	w14, [x12, x11]
	cmp	w13, w14
	b.ne	.LBB188_129
	add	x11, x11, #1
	mov	w13, #4
	cmp	x9, x11
	b.ne	.LBB188_120
	mov	w11, wzr
	mov	x12, xzr
	mov	x14, xzr
	mov	x10, x15
	cmp	x24, x25
	b.lo	.LBB188_41
	b	.LBB188_132
.LBB188_123:
	sub	x9, x25, x16
	cmp	x9, x16
	csel	x10, x9, x16, hi
	cmp	x25, x16, lsl #1
	b.ls	.LBB188_130
	cbz	x16, .LBB188_131
	mov	x9, xzr
	add	x11, x26, x17
.LBB188_126:
	ldrb	w12, [x26, x9]
	ldrb	w13, [x11, x9]
	cmp	w12, w13
	b.ne	.LBB188_130
	add	x9, x9, #1
	mov	w13, #4
	cmp	x16, x9
	b.ne	.LBB188_126
	mov	w11, wzr
	mov	x12, xzr
	mov	x14, xzr
	mov	x9, x16
	mov	x10, x17
	cmp	x24, x25
	b.lo	.LBB188_41
	b	.LBB188_132
.LBB188_129:
	mov	w11, wzr
	mov	x12, xzr
	mov	w13, #4
	mov	w14, #1
	cmp	x24, x25
	b.hs	.LBB188_132
	b	.LBB188_41
.LBB188_130:
	mov	w11, wzr
	mov	x12, xzr
	mov	w13, #4
	mov	w14, #1
	mov	x9, x16
	cmp	x24, x25
	b.lo	.LBB188_41
	b	.LBB188_132
.LBB188_131:
	mov	w11, wzr
	mov	x12, xzr
	mov	x9, xzr
	mov	x14, xzr
	mov	w13, #4
	mov	x10, x17
	cmp	x24, x25
	b.lo	.LBB188_41
.LBB188_132:
	cmp	w13, #1
	adrp	x15, .LCPI188_0
	b.gt	.LBB188_135
	cbnz	w13, .LBB188_159
.LBB188_134:
	mov	w22, #1
	b	.LBB188_381
.LBB188_135:
	fmov	d26, x14
	cmp	w13, #2
	and	x6, x19, #0xff
	mov	v26.d[1], x10
	b.ne	.LBB188_164
	fmov	d27, x8
	ldur	x8, [x29, #-232]
	bfi	x6, x27, #8, #8
	ldur	x13, [x29, #-216]
	stur	x1, [x29, #-248]
	sub	x16, x8, x25
	stur	x6, [x29, #-192]
	mov	v27.d[1], x9
	subs	x17, x16, #32
	stp	q27, q26, [sp, #224]
	b.hs	.LBB188_232
	cbz	x16, .LBB188_380
	mov	x8, #-1
	sub	x21, x25, #1
	mov	x27, x13
	lsl	x8, x8, x6
	mvn	x19, x8
	b	.LBB188_141
.LBB188_139:
	ldp	q0, q1, [x27]
	ldr	q2, [x15, :lo12:.LCPI188_0]
	cmeq	v1.16b, v1.16b, v26.16b
	cmeq	v0.16b, v0.16b, v27.16b
	bic	v0.16b, v2.16b, v0.16b
	bic	v1.16b, v2.16b, v1.16b
	addp	v0.16b, v0.16b, v1.16b
	addp	v0.16b, v0.16b, v0.16b
	addp	v0.16b, v0.16b, v0.16b
	fmov	w8, s0
	tst	x8, x19
	b.eq	.LBB188_134
.LBB188_140:
	sub	x24, x24, #1
	add	x27, x27, #1
	cmp	x21, x24
	b.eq	.LBB188_380
.LBB188_141:
	cmp	x6, #32
	b.hi	.LBB188_143
	cmp	x24, #32
	b.hs	.LBB188_139
.LBB188_143:
	cmp	x25, x24
	b.hi	.LBB188_140
	cmp	x25, #4
	b.hs	.LBB188_152
	cbz	x25, .LBB188_383
	ldrb	w8, [x27]
	ldrb	w9, [x26]
	cmp	w8, w9
	b.ne	.LBB188_157
	cmp	x25, #1
	b.eq	.LBB188_390
	ldrb	w8, [x27, #1]
	ldrb	w9, [x26, #1]
	cmp	w8, w9
	b.ne	.LBB188_158
	cmp	x25, #2
	b.eq	.LBB188_390
	ldrb	w8, [x27, #2]
	ldrb	w9, [x26, #2]
	cmp	w8, w9
	b.eq	.LBB188_390
	mov	w8, #2
	cmp	x8, x25
	b.lo	.LBB188_140
	b	.LBB188_134
.LBB188_152:
	ldrb	w8, [x27]
	cmp	w8, w1, uxtb
	b.ne	.LBB188_140
	ldrb	w8, [x27, #1]
	ldrb	w9, [x26, #1]
	cmp	w8, w9
	b.ne	.LBB188_140
	ldrb	w8, [x27, #2]
	ldrb	w9, [x26, #2]
	cmp	w8, w9
	b.ne	.LBB188_140
	ldrb	w8, [x27, #3]
	ldrb	w9, [x26, #3]
	cmp	w8, w9
	b.ne	.LBB188_140
	mov	x0, x27
	mov	x1, x25
	mov	x2, x26
	bl	"core::cmp::slices::groups_equal::<i8,31'core::cmp::numbers::U8PartialEq{}>"
	ldp	q27, q26, [sp, #224]
	adrp	x15, .LCPI188_0
	ldur	x1, [x29, #-248]
	ldur	x6, [x29, #-192]
	ldur	x13, [x29, #-216]
	tbz	w0, #0, .LBB188_140
	b	.LBB188_390
.LBB188_157:
	cmp	xzr, x25
	b.lo	.LBB188_140
	b	.LBB188_134
.LBB188_158:
	mov	w8, #1
	cmp	x8, x25
	b.lo	.LBB188_140
	b	.LBB188_134
.LBB188_159:
	cmp	x24, #32
	b.hs	.LBB188_275
	ldur	x8, [x29, #-216]
	cbz	x24, .LBB188_380
	sub	x9, x24, #1
.LBB188_162:
	ldrb	w10, [x8], #1
	cmp	w10, w11, uxtb
	cset	w22, eq
	b.eq	.LBB188_381
	mov	x10, x9
	sub	x9, x9, #1
	cbnz	x10, .LBB188_162
	b	.LBB188_381
.LBB188_164:
	ldur	x13, [x29, #-216]
	cbz	x25, .LBB188_383
	and	x11, x27, #0xff
	ldrb	w12, [x26, x6]
	mov	x0, x13
	ldur	x13, [x29, #-232]
	umov	w17, v26.b[0]
	add	x14, x26, x11
	dup	v0.16b, w12
	ld1r	{ v1.16b }, [x14]
	add	x14, x0, x6
	sub	x13, x13, x25
	add	x15, x0, x11
	mov	x5, x6
	add	x16, x0, x13
	sub	x16, x16, #32
	cbz	w17, .LBB188_314
	ldp	x1, x17, [sp, #200]
	mov	w18, wzr
	ldr	x2, [sp, #216]
	ldr	x4, [sp, #152]
	mov	x7, xzr
	mov	w21, #1
	mov	w19, #1
	sub	x30, x1, x25
	add	x1, x2, x6
	add	x17, x17, x6
	stur	x1, [x29, #-192]
	add	x2, x2, x11
	add	x3, x4, x11
	add	x4, x4, x6
	add	x1, x0, x9
	sub	x6, x26, #1
.LBB188_167:
	cbz	w19, .LBB188_171
	cmp	w19, #51
	b.lo	.LBB188_181
	lsl	w0, w19, #3
	mov	w22, #536870912
	cmp	w19, w22
	sub	w0, w0, #8
	csinv	w0, w0, wzr, ls
	cmp	w0, w18
	b.ls	.LBB188_181
	mov	w21, wzr
.LBB188_171:
	cmp	x7, x13
	mov	w19, wzr
	b.hs	.LBB188_380
	ldur	x22, [x29, #-216]
	add	x0, x7, x25
	add	x22, x22, x0
	ldurb	w22, [x22, #-1]
	lsr	x22, x8, x22
	tbz	w22, #0, .LBB188_230
.LBB188_173:
	cmp	x25, x9
	b.ls	.LBB188_177
	mvn	x0, x7
	add	x22, x1, x7
	add	x23, x26, x9
	sub	x24, x25, x9
.LBB188_175:
	ldrb	w27, [x23], #1
	ldrb	w28, [x22], #1
	cmp	w27, w28
	b.ne	.LBB188_231
	subs	x24, x24, #1
	sub	x0, x0, #1
	b.ne	.LBB188_175
.LBB188_177:
	ldr	x0, [sp, #144]
	mov	x22, x9
	add	x0, x0, x7
.LBB188_178:
	cbz	x22, .LBB188_134
	ldrb	w23, [x6, x22]
	ldrb	w24, [x0, x22]
	sub	x22, x22, #1
	cmp	w23, w24
	b.eq	.LBB188_178
	add	x7, x7, x10
	ldur	x22, [x29, #-200]
	add	x0, x7, x25
	cmp	x0, x22
	mov	w22, wzr
	b.ls	.LBB188_167
	b	.LBB188_381
.LBB188_181:
	cmp	x13, #32
	b.hs	.LBB188_186
	cmp	x7, x13
	b.hs	.LBB188_380
	mov	x0, x7
.LBB188_184:
	ldrb	w19, [x14, x0]
	cmp	w19, w12
	b.eq	.LBB188_226
	add	x0, x0, #1
	cmp	x13, x0
	b.ne	.LBB188_184
	b	.LBB188_380
.LBB188_186:
	cmp	x7, x13
	mov	x27, x7
	b.hs	.LBB188_380
.LBB188_187:
	sub	x0, x13, x27
	cmp	x0, #191
	b.ls	.LBB188_190
	ldur	x0, [x29, #-216]
	add	x0, x0, x27
	add	x19, x0, x5
	add	x22, x0, x11
	add	x0, x0, #32
	ldp	q3, q2, [x19]
	add	x19, x0, x5
	add	x0, x0, x11
	ldp	q5, q4, [x22]
	ldp	q7, q6, [x19]
	add	x22, x27, #64
	ldp	q17, q16, [x0]
	cmeq	v3.16b, v3.16b, v0.16b
	cmeq	v2.16b, v2.16b, v0.16b
	cmeq	v5.16b, v5.16b, v1.16b
	cmeq	v4.16b, v4.16b, v1.16b
	cmeq	v7.16b, v7.16b, v0.16b
	cmeq	v6.16b, v6.16b, v0.16b
	adrp	x0, .LCPI188_0
	cmeq	v17.16b, v17.16b, v1.16b
	cmeq	v16.16b, v16.16b, v1.16b
	and	v4.16b, v2.16b, v4.16b
	and	v3.16b, v3.16b, v5.16b
	ldr	q2, [x0, :lo12:.LCPI188_0]
	and	v5.16b, v6.16b, v16.16b
	and	v6.16b, v7.16b, v17.16b
	and	v3.16b, v3.16b, v2.16b
	and	v4.16b, v4.16b, v2.16b
	and	v6.16b, v6.16b, v2.16b
	and	v5.16b, v5.16b, v2.16b
	addp	v3.16b, v3.16b, v4.16b
	addp	v4.16b, v6.16b, v5.16b
	addp	v3.16b, v3.16b, v4.16b
	addp	v3.16b, v3.16b, v3.16b
	fmov	x23, d3
	cbz	x23, .LBB188_196
	add	x19, x27, #64
	mov	x22, x27
	b	.LBB188_219
.LBB188_190:
	cmp	x0, #64
	adrp	x28, .LCPI188_0
	b.lo	.LBB188_195
	neg	x19, x27
	add	x22, x15, x27
	add	x23, x17, x27
.LBB188_192:
	ldp	q3, q2, [x23, #-32]
	ldp	q4, q5, [x22]
	ldp	q6, q7, [x23], #64
	ldp	q16, q17, [x22, #32]
	cmeq	v2.16b, v2.16b, v0.16b
	cmeq	v3.16b, v3.16b, v0.16b
	cmeq	v5.16b, v5.16b, v1.16b
	cmeq	v4.16b, v4.16b, v1.16b
	cmeq	v7.16b, v7.16b, v0.16b
	cmeq	v6.16b, v6.16b, v0.16b
	cmeq	v17.16b, v17.16b, v1.16b
	cmeq	v16.16b, v16.16b, v1.16b
	and	v3.16b, v3.16b, v4.16b
	and	v2.16b, v2.16b, v5.16b
	and	v4.16b, v6.16b, v16.16b
	and	v5.16b, v7.16b, v17.16b
	orr	v5.16b, v2.16b, v5.16b
	orr	v3.16b, v3.16b, v4.16b
	ldr	q2, [x28, :lo12:.LCPI188_0]
	and	v3.16b, v3.16b, v2.16b
	and	v4.16b, v5.16b, v2.16b
	addp	v3.16b, v3.16b, v4.16b
	addp	v3.16b, v3.16b, v3.16b
	addp	v3.16b, v3.16b, v3.16b
	fmov	w0, s3
	cbnz	w0, .LBB188_205
	sub	x19, x19, #64
	add	x22, x22, #64
	add	x0, x13, x19
	cmp	x0, #63
	b.hi	.LBB188_192
	neg	x22, x19
	b	.LBB188_212
.LBB188_195:
	mov	x22, x27
	b	.LBB188_212
.LBB188_196:
	sub	x19, x13, x22
	cmp	x19, #128
	b.lo	.LBB188_200
.LBB188_197:
	add	x22, x3, x27
	add	x0, x4, x27
	ldp	q18, q17, [x22, #-64]
	ldp	q4, q3, [x0, #-96]
	ldp	q6, q5, [x22, #-96]
	ldp	q16, q7, [x0, #-64]
	cmeq	v21.16b, v18.16b, v1.16b
	ldp	q20, q19, [x0, #-32]
	cmeq	v22.16b, v17.16b, v1.16b
	ldp	q25, q17, [x0]
	cmeq	v4.16b, v4.16b, v0.16b
	ldp	q26, q18, [x22]
	cmeq	v3.16b, v3.16b, v0.16b
	ldp	q24, q23, [x22, #-32]
	cmeq	v6.16b, v6.16b, v1.16b
	cmeq	v5.16b, v5.16b, v1.16b
	cmeq	v16.16b, v16.16b, v0.16b
	cmeq	v7.16b, v7.16b, v0.16b
	cmeq	v20.16b, v20.16b, v0.16b
	cmeq	v19.16b, v19.16b, v0.16b
	cmeq	v27.16b, v17.16b, v0.16b
	cmeq	v23.16b, v23.16b, v1.16b
	cmeq	v28.16b, v18.16b, v1.16b
	cmeq	v24.16b, v24.16b, v1.16b
	cmeq	v25.16b, v25.16b, v0.16b
	cmeq	v26.16b, v26.16b, v1.16b
	and	v18.16b, v3.16b, v5.16b
	and	v17.16b, v4.16b, v6.16b
	and	v7.16b, v7.16b, v22.16b
	and	v16.16b, v16.16b, v21.16b
	and	v5.16b, v19.16b, v23.16b
	and	v3.16b, v27.16b, v28.16b
	and	v6.16b, v20.16b, v24.16b
	and	v4.16b, v25.16b, v26.16b
	orr	v21.16b, v18.16b, v7.16b
	orr	v22.16b, v17.16b, v16.16b
	orr	v19.16b, v5.16b, v3.16b
	orr	v20.16b, v6.16b, v4.16b
	orr	v19.16b, v21.16b, v19.16b
	orr	v20.16b, v22.16b, v20.16b
	and	v19.16b, v19.16b, v2.16b
	and	v20.16b, v20.16b, v2.16b
	addp	v19.16b, v20.16b, v19.16b
	addp	v19.16b, v19.16b, v19.16b
	addp	v19.16b, v19.16b, v19.16b
	fmov	w0, s19
	cbnz	w0, .LBB188_222
	sub	x19, x19, #128
	add	x27, x27, #128
	cmp	x19, #127
	b.hi	.LBB188_197
	add	x22, x27, #64
.LBB188_200:
	cmp	x19, #32
	b.lo	.LBB188_204
	sub	x0, x13, x22
.LBB188_202:
	add	x19, x14, x22
	add	x23, x15, x22
	ldp	q3, q4, [x19]
	ldp	q6, q5, [x23]
	cmeq	v3.16b, v3.16b, v0.16b
	cmeq	v4.16b, v4.16b, v0.16b
	cmeq	v6.16b, v6.16b, v1.16b
	cmeq	v5.16b, v5.16b, v1.16b
	and	v4.16b, v4.16b, v5.16b
	and	v3.16b, v3.16b, v6.16b
	and	v3.16b, v3.16b, v2.16b
	and	v4.16b, v4.16b, v2.16b
	addp	v3.16b, v3.16b, v4.16b
	addp	v3.16b, v3.16b, v3.16b
	addp	v3.16b, v3.16b, v3.16b
	fmov	w23, s3
	cbnz	w23, .LBB188_218
	sub	x0, x0, #32
	add	x22, x22, #32
	cmp	x0, #31
	b.hi	.LBB188_202
.LBB188_204:
	add	x0, x16, x5
	add	x19, x16, x11
	ldp	q3, q4, [x0]
	ldp	q6, q5, [x19]
	cmeq	v3.16b, v3.16b, v0.16b
	cmeq	v4.16b, v4.16b, v0.16b
	cmeq	v6.16b, v6.16b, v1.16b
	cmeq	v5.16b, v5.16b, v1.16b
	and	v4.16b, v4.16b, v5.16b
	and	v3.16b, v3.16b, v6.16b
	and	v3.16b, v3.16b, v2.16b
	and	v2.16b, v4.16b, v2.16b
	addp	v2.16b, v3.16b, v2.16b
	b	.LBB188_217
.LBB188_205:
	add	x0, x13, x19
	neg	x22, x19
	cmp	x0, #64
	b.lo	.LBB188_212
.LBB188_206:
	ldur	x0, [x29, #-216]
	add	x0, x0, x22
	add	x19, x0, x5
	add	x23, x0, x11
	add	x0, x0, #32
	ldp	q4, q3, [x19]
	add	x19, x0, x5
	add	x0, x0, x11
	ldp	q6, q5, [x23]
	ldp	q16, q7, [x19]
	ldp	q18, q17, [x0]
	cmeq	v4.16b, v4.16b, v0.16b
	cmeq	v3.16b, v3.16b, v0.16b
	cmeq	v6.16b, v6.16b, v1.16b
	cmeq	v5.16b, v5.16b, v1.16b
	cmeq	v16.16b, v16.16b, v0.16b
	cmeq	v7.16b, v7.16b, v0.16b
	cmeq	v18.16b, v18.16b, v1.16b
	cmeq	v17.16b, v17.16b, v1.16b
	and	v4.16b, v4.16b, v6.16b
	and	v3.16b, v3.16b, v5.16b
	and	v5.16b, v7.16b, v17.16b
	and	v6.16b, v16.16b, v18.16b
	and	v4.16b, v4.16b, v2.16b
	and	v3.16b, v3.16b, v2.16b
	and	v6.16b, v6.16b, v2.16b
	and	v5.16b, v5.16b, v2.16b
	addp	v3.16b, v4.16b, v3.16b
	addp	v4.16b, v6.16b, v5.16b
	addp	v3.16b, v3.16b, v4.16b
	addp	v3.16b, v3.16b, v3.16b
	fmov	x23, d3
	cbnz	x23, .LBB188_225
	ldur	x19, [x29, #-192]
	sub	x0, x30, x22
	add	x23, x19, x22
	neg	x19, x22
	add	x22, x2, x22
.LBB188_208:
	subs	x24, x0, #64
	b.lo	.LBB188_211
	ldp	q4, q3, [x23, #-32]
	sub	x19, x19, #64
	ldp	q5, q6, [x22, #-32]
	mov	x0, x24
	ldp	q7, q16, [x23], #64
	ldp	q17, q18, [x22], #64
	cmeq	v3.16b, v3.16b, v0.16b
	cmeq	v4.16b, v4.16b, v0.16b
	cmeq	v6.16b, v6.16b, v1.16b
	cmeq	v5.16b, v5.16b, v1.16b
	cmeq	v16.16b, v16.16b, v0.16b
	cmeq	v7.16b, v7.16b, v0.16b
	cmeq	v18.16b, v18.16b, v1.16b
	cmeq	v17.16b, v17.16b, v1.16b
	and	v3.16b, v3.16b, v6.16b
	and	v4.16b, v4.16b, v5.16b
	and	v5.16b, v7.16b, v17.16b
	and	v6.16b, v16.16b, v18.16b
	orr	v3.16b, v3.16b, v6.16b
	orr	v4.16b, v4.16b, v5.16b
	and	v4.16b, v4.16b, v2.16b
	and	v3.16b, v3.16b, v2.16b
	addp	v3.16b, v4.16b, v3.16b
	addp	v3.16b, v3.16b, v3.16b
	addp	v3.16b, v3.16b, v3.16b
	fmov	w27, s3
	cbz	w27, .LBB188_208
	neg	x22, x19
	b	.LBB188_206
.LBB188_211:
	mov	w22, #64
	sub	x22, x22, x19
.LBB188_212:
	cmp	x0, #32
	b.lo	.LBB188_216
	sub	x0, x13, x22
.LBB188_214:
	add	x19, x14, x22
	add	x23, x15, x22
	ldp	q2, q3, [x19]
	ldp	q5, q4, [x23]
	cmeq	v2.16b, v2.16b, v0.16b
	cmeq	v3.16b, v3.16b, v0.16b
	cmeq	v5.16b, v5.16b, v1.16b
	cmeq	v4.16b, v4.16b, v1.16b
	and	v3.16b, v3.16b, v4.16b
	and	v2.16b, v2.16b, v5.16b
	ldr	q4, [x28, :lo12:.LCPI188_0]
	and	v2.16b, v2.16b, v4.16b
	and	v3.16b, v3.16b, v4.16b
	addp	v2.16b, v2.16b, v3.16b
	addp	v2.16b, v2.16b, v2.16b
	addp	v2.16b, v2.16b, v2.16b
	fmov	w23, s2
	cbnz	w23, .LBB188_218
	sub	x0, x0, #32
	add	x22, x22, #32
	cmp	x0, #31
	b.hi	.LBB188_214
.LBB188_216:
	add	x0, x16, x5
	add	x19, x16, x11
	ldp	q2, q3, [x0]
	ldp	q5, q4, [x19]
	cmeq	v2.16b, v2.16b, v0.16b
	cmeq	v3.16b, v3.16b, v0.16b
	cmeq	v5.16b, v5.16b, v1.16b
	cmeq	v4.16b, v4.16b, v1.16b
	and	v3.16b, v3.16b, v4.16b
	and	v2.16b, v2.16b, v5.16b
	ldr	q4, [x28, :lo12:.LCPI188_0]
	and	v2.16b, v2.16b, v4.16b
	and	v3.16b, v3.16b, v4.16b
	addp	v2.16b, v2.16b, v3.16b
.LBB188_217:
	addp	v2.16b, v2.16b, v2.16b
	sub	x19, x22, x13
	add	x19, x19, #32
	addp	v2.16b, v2.16b, v2.16b
	fmov	w0, s2
	lsr	x23, x0, x19
	ldur	x0, [x29, #-232]
	sub	x0, x0, x25
	mov	x19, x0
	cbnz	x23, .LBB188_219
	b	.LBB188_221
.LBB188_218:
	add	x19, x22, #32
.LBB188_219:
	rbit	x0, x23
	clz	x24, x0
	add	x0, x24, x22
	ldrb	w27, [x14, x0]
	cmp	w27, w12
	b.eq	.LBB188_226
	mov	w0, #1
	lsl	x0, x0, x24
	bics	x23, x23, x0
	b.ne	.LBB188_219
.LBB188_221:
	mov	w22, wzr
	cmp	x19, x13
	mov	x27, x19
	b.lo	.LBB188_187
	b	.LBB188_381
.LBB188_222:
	umov	w22, v18.b[0]
	umov	w28, v17.b[0]
	stur	x30, [x29, #-248]
	umov	w0, v7.b[0]
	umov	w23, v16.b[0]
	umov	w30, v18.b[1]
	umov	w24, v17.b[1]
	umov	w19, v7.b[1]
	fmov	s19, w22
	umov	w22, v16.b[1]
	fmov	s20, w28
	fmov	s21, w0
	fmov	s22, w23
	umov	w0, v17.b[2]
	umov	w23, v18.b[3]
	mov	v19.b[1], w30
	umov	w30, v18.b[2]
	mov	v20.b[1], w24
	mov	v21.b[1], w19
	umov	w19, v7.b[2]
	mov	v22.b[1], w22
	umov	w22, v16.b[2]
	mov	v19.b[2], w30
	mov	v20.b[2], w0
	umov	w0, v17.b[3]
	mov	v21.b[2], w19
	umov	w19, v7.b[3]
	mov	v22.b[2], w22
	umov	w22, v16.b[3]
	mov	v19.b[3], w23
	umov	w23, v18.b[4]
	mov	v20.b[3], w0
	umov	w0, v17.b[4]
	mov	v21.b[3], w19
	umov	w19, v7.b[4]
	mov	v22.b[3], w22
	umov	w22, v16.b[4]
	mov	v19.b[4], w23
	umov	w23, v18.b[5]
	mov	v20.b[4], w0
	umov	w0, v17.b[5]
	mov	v21.b[4], w19
	umov	w19, v7.b[5]
	mov	v22.b[4], w22
	umov	w22, v16.b[5]
	mov	v19.b[5], w23
	umov	w23, v18.b[6]
	mov	v20.b[5], w0
	umov	w0, v17.b[6]
	mov	v21.b[5], w19
	umov	w19, v7.b[6]
	mov	v22.b[5], w22
	umov	w22, v16.b[6]
	mov	v19.b[6], w23
	umov	w23, v18.b[7]
	mov	v20.b[6], w0
	umov	w0, v17.b[7]
	mov	v21.b[6], w19
	umov	w19, v7.b[7]
	mov	v22.b[6], w22
	umov	w22, v16.b[7]
	mov	v19.b[7], w23
	umov	w23, v18.b[8]
	mov	v20.b[7], w0
	umov	w0, v17.b[8]
	mov	v21.b[7], w19
	umov	w19, v7.b[8]
	mov	v22.b[7], w22
	umov	w22, v16.b[8]
	mov	v19.b[8], w23
	umov	w23, v18.b[9]
	mov	v20.b[8], w0
	umov	w0, v17.b[9]
	mov	v21.b[8], w19
	umov	w19, v7.b[9]
	mov	v22.b[8], w22
	umov	w22, v16.b[9]
	mov	v19.b[9], w23
	umov	w23, v18.b[10]
	mov	v20.b[9], w0
	umov	w0, v17.b[10]
	mov	v21.b[9], w19
	umov	w19, v7.b[10]
	mov	v22.b[9], w22
	umov	w22, v16.b[10]
	mov	v19.b[10], w23
	umov	w23, v18.b[11]
	mov	v20.b[10], w0
	umov	w0, v17.b[11]
	mov	v21.b[10], w19
	umov	w19, v7.b[11]
	mov	v22.b[10], w22
	umov	w22, v16.b[11]
	mov	v19.b[11], w23
	umov	w23, v18.b[12]
	mov	v20.b[11], w0
	umov	w0, v17.b[12]
	mov	v21.b[11], w19
	umov	w19, v7.b[12]
	mov	v22.b[11], w22
	umov	w22, v16.b[12]
	mov	v19.b[12], w23
	umov	w23, v18.b[13]
	mov	v20.b[12], w0
	umov	w0, v17.b[13]
	mov	v21.b[12], w19
	umov	w19, v7.b[13]
	mov	v22.b[12], w22
	umov	w22, v16.b[13]
	mov	v19.b[13], w23
	umov	w23, v18.b[14]
	mov	v20.b[13], w0
	umov	w0, v17.b[14]
	mov	v21.b[13], w19
	umov	w19, v7.b[14]
	mov	v22.b[13], w22
	umov	w22, v16.b[14]
	mov	v19.b[14], w23
	umov	w23, v18.b[15]
	mov	v20.b[14], w0
	umov	w0, v17.b[15]
	mov	v21.b[14], w19
	umov	w19, v7.b[15]
	mov	v22.b[14], w22
	umov	w22, v16.b[15]
	mov	v19.b[15], w23
	mov	v20.b[15], w0
	mov	v21.b[15], w19
	add	x19, x27, #128
	mov	v22.b[15], w22
	shl	v16.16b, v19.16b, #7
	shl	v7.16b, v20.16b, #7
	shl	v17.16b, v21.16b, #7
	shl	v18.16b, v22.16b, #7
	cmlt	v16.16b, v16.16b, #0
	cmlt	v7.16b, v7.16b, #0
	cmlt	v17.16b, v17.16b, #0
	cmlt	v18.16b, v18.16b, #0
	and	v16.16b, v16.16b, v2.16b
	and	v7.16b, v7.16b, v2.16b
	and	v17.16b, v17.16b, v2.16b
	and	v18.16b, v18.16b, v2.16b
	addp	v7.16b, v7.16b, v16.16b
	addp	v16.16b, v18.16b, v17.16b
	addp	v7.16b, v7.16b, v16.16b
	addp	v7.16b, v7.16b, v7.16b
	fmov	x23, d7
	cbz	x23, .LBB188_224
	ldur	x30, [x29, #-248]
	add	x22, x27, #64
	b	.LBB188_219
.LBB188_224:
	umov	w23, v3.b[1]
	umov	w22, v5.b[0]
	umov	w28, v6.b[0]
	umov	w30, v3.b[0]
	umov	w0, v5.b[1]
	umov	w24, v6.b[1]
	str	w23, [sp, #240]
	umov	w23, v4.b[0]
	fmov	s7, w22
	umov	w22, v4.b[1]
	fmov	s16, w28
	fmov	s17, w30
	ldur	x30, [x29, #-248]
	mov	v7.b[1], w0
	umov	w0, v5.b[2]
	fmov	s18, w23
	ldr	w23, [sp, #240]
	mov	v16.b[1], w24
	umov	w24, v6.b[2]
	mov	v17.b[1], w23
	umov	w23, v3.b[2]
	mov	v18.b[1], w22
	umov	w22, v4.b[2]
	mov	v7.b[2], w0
	umov	w0, v5.b[3]
	mov	v16.b[2], w24
	umov	w24, v6.b[3]
	mov	v17.b[2], w23
	umov	w23, v3.b[3]
	mov	v18.b[2], w22
	umov	w22, v4.b[3]
	mov	v7.b[3], w0
	umov	w0, v5.b[4]
	mov	v16.b[3], w24
	umov	w24, v6.b[4]
	mov	v17.b[3], w23
	umov	w23, v3.b[4]
	mov	v18.b[3], w22
	umov	w22, v4.b[4]
	mov	v7.b[4], w0
	umov	w0, v5.b[5]
	mov	v16.b[4], w24
	umov	w24, v6.b[5]
	mov	v17.b[4], w23
	umov	w23, v3.b[5]
	mov	v18.b[4], w22
	umov	w22, v4.b[5]
	mov	v7.b[5], w0
	umov	w0, v5.b[6]
	mov	v16.b[5], w24
	umov	w24, v6.b[6]
	mov	v17.b[5], w23
	umov	w23, v3.b[6]
	mov	v18.b[5], w22
	umov	w22, v4.b[6]
	mov	v7.b[6], w0
	umov	w0, v5.b[7]
	mov	v16.b[6], w24
	umov	w24, v6.b[7]
	mov	v17.b[6], w23
	umov	w23, v3.b[7]
	mov	v18.b[6], w22
	umov	w22, v4.b[7]
	mov	v7.b[7], w0
	umov	w0, v5.b[8]
	mov	v16.b[7], w24
	umov	w24, v6.b[8]
	mov	v17.b[7], w23
	umov	w23, v3.b[8]
	mov	v18.b[7], w22
	umov	w22, v4.b[8]
	mov	v7.b[8], w0
	umov	w0, v5.b[9]
	mov	v16.b[8], w24
	umov	w24, v6.b[9]
	mov	v17.b[8], w23
	umov	w23, v3.b[9]
	mov	v18.b[8], w22
	umov	w22, v4.b[9]
	mov	v7.b[9], w0
	umov	w0, v5.b[10]
	mov	v16.b[9], w24
	umov	w24, v6.b[10]
	mov	v17.b[9], w23
	umov	w23, v3.b[10]
	mov	v18.b[9], w22
	umov	w22, v4.b[10]
	mov	v7.b[10], w0
	umov	w0, v5.b[11]
	mov	v16.b[10], w24
	umov	w24, v6.b[11]
	mov	v17.b[10], w23
	umov	w23, v3.b[11]
	mov	v18.b[10], w22
	umov	w22, v4.b[11]
	mov	v7.b[11], w0
	umov	w0, v5.b[12]
	mov	v16.b[11], w24
	umov	w24, v6.b[12]
	mov	v17.b[11], w23
	umov	w23, v3.b[12]
	mov	v18.b[11], w22
	umov	w22, v4.b[12]
	mov	v7.b[12], w0
	umov	w0, v5.b[13]
	mov	v16.b[12], w24
	umov	w24, v6.b[13]
	mov	v17.b[12], w23
	umov	w23, v3.b[13]
	mov	v18.b[12], w22
	umov	w22, v4.b[13]
	mov	v7.b[13], w0
	umov	w0, v5.b[14]
	mov	v16.b[13], w24
	umov	w24, v6.b[14]
	mov	v17.b[13], w23
	umov	w23, v3.b[14]
	mov	v18.b[13], w22
	umov	w22, v4.b[14]
	mov	v7.b[14], w0
	umov	w0, v5.b[15]
	mov	v16.b[14], w24
	umov	w24, v6.b[15]
	mov	v17.b[14], w23
	umov	w23, v3.b[15]
	mov	v18.b[14], w22
	umov	w22, v4.b[15]
	mov	v7.b[15], w0
	add	x0, x27, #192
	mov	v16.b[15], w24
	mov	v17.b[15], w23
	mov	v18.b[15], w22
	shl	v4.16b, v7.16b, #7
	shl	v3.16b, v16.16b, #7
	shl	v5.16b, v17.16b, #7
	shl	v6.16b, v18.16b, #7
	cmlt	v4.16b, v4.16b, #0
	cmlt	v3.16b, v3.16b, #0
	cmlt	v5.16b, v5.16b, #0
	cmlt	v6.16b, v6.16b, #0
	and	v4.16b, v4.16b, v2.16b
	and	v3.16b, v3.16b, v2.16b
	and	v6.16b, v6.16b, v2.16b
	and	v2.16b, v5.16b, v2.16b
	addp	v3.16b, v3.16b, v4.16b
	addp	v2.16b, v6.16b, v2.16b
	addp	v2.16b, v3.16b, v2.16b
	addp	v2.16b, v2.16b, v2.16b
	fmov	x23, d2
	mov	x22, x19
	mov	x19, x0
	cbnz	x23, .LBB188_219
	b	.LBB188_221
.LBB188_225:
	add	x19, x22, #64
	b	.LBB188_219
.LBB188_226:
	sub	x7, x0, x7
	adds	w19, w21, #1
	lsr	x22, x7, #32
	csinv	w19, w19, wzr, lo
	cbz	x22, .LBB188_228
	mov	w18, #-1
	b	.LBB188_229
.LBB188_228:
	adds	w18, w7, w18
	csinv	w18, w18, wzr, lo
.LBB188_229:
	mov	x7, x0
	mov	w21, w19
	ldur	x22, [x29, #-216]
	add	x0, x0, x25
	add	x22, x22, x0
	ldurb	w22, [x22, #-1]
	lsr	x22, x8, x22
	tbnz	w22, #0, .LBB188_173
.LBB188_230:
	mov	x7, x0
	ldur	x22, [x29, #-200]
	add	x0, x0, x25
	cmp	x0, x22
	mov	w22, wzr
	b.ls	.LBB188_167
	b	.LBB188_381
.LBB188_231:
	neg	x7, x0
	ldur	x22, [x29, #-200]
	add	x0, x7, x25
	cmp	x0, x22
	mov	w22, wzr
	b.ls	.LBB188_167
	b	.LBB188_381
.LBB188_232:
	add	x8, x26, x12
	and	x9, x11, #0xff
	mov	x10, #-1
	ld1r	{ v29.16b }, [x8]
	sub	x8, x25, #1
	add	x11, x26, x9
	add	x8, x13, x8
	ld1r	{ v28.16b }, [x11]
	dup	v0.16b, w1
	str	x8, [sp, #40]
	ldr	x8, [sp, #208]
	lsl	x10, x10, x6
	add	x23, x13, x9
	mov	x24, xzr
	add	x27, x13, x12
	add	x8, x8, x9
	str	q0, [sp, #48]
	mvn	x28, x10
	stp	x8, x17, [sp, #104]
	ldr	x8, [sp, #200]
	str	x16, [sp, #120]
	sub	x8, x8, x25
	stp	q29, q28, [sp, #160]
	str	x8, [sp, #24]
	ldr	x8, [sp, #216]
	add	x9, x8, x9
	add	x8, x8, x12
	stp	x8, x9, [sp, #8]
.LBB188_233:
	sub	x9, x16, x24
	cmp	x9, #64
	b.lo	.LBB188_238
	ldr	x9, [sp, #104]
	ldur	x13, [x29, #-216]
	neg	x8, x24
	ldur	x15, [x29, #-192]
	add	x10, x27, x24
	adrp	x14, .LCPI188_0
	add	x11, x9, x24
.LBB188_235:
	ldp	q7, q2, [x11, #-32]
	ldp	q16, q6, [x10]
	ldp	q3, q5, [x11], #64
	ldp	q4, q17, [x10, #32]
	cmeq	v0.16b, v2.16b, v28.16b
	cmeq	v1.16b, v7.16b, v28.16b
	cmeq	v18.16b, v6.16b, v29.16b
	cmeq	v19.16b, v16.16b, v29.16b
	cmeq	v20.16b, v5.16b, v28.16b
	cmeq	v21.16b, v3.16b, v28.16b
	cmeq	v22.16b, v17.16b, v29.16b
	cmeq	v23.16b, v4.16b, v29.16b
	and	v1.16b, v1.16b, v19.16b
	and	v0.16b, v0.16b, v18.16b
	and	v18.16b, v21.16b, v23.16b
	and	v19.16b, v20.16b, v22.16b
	orr	v19.16b, v0.16b, v19.16b
	orr	v1.16b, v1.16b, v18.16b
	ldr	q0, [x14, :lo12:.LCPI188_0]
	and	v1.16b, v1.16b, v0.16b
	and	v18.16b, v19.16b, v0.16b
	addp	v1.16b, v1.16b, v18.16b
	addp	v1.16b, v1.16b, v1.16b
	addp	v1.16b, v1.16b, v1.16b
	fmov	w9, s1
	cbnz	w9, .LBB188_239
	sub	x8, x8, #64
	add	x10, x10, #64
	add	x9, x16, x8
	cmp	x9, #63
	b.hi	.LBB188_235
	neg	x22, x8
	b	.LBB188_247
.LBB188_238:
	ldur	x13, [x29, #-216]
	ldur	x15, [x29, #-192]
	mov	x22, x24
	adrp	x14, .LCPI188_0
	b	.LBB188_247
.LBB188_239:
	add	x9, x16, x8
	neg	x22, x8
	cmp	x9, #64
	b.lo	.LBB188_247
	sub	x8, x25, #1
	add	x8, x26, x8
	ld1r	{ v1.16b }, [x8]
.LBB188_241:
	add	x8, x13, x22
	cmeq	v7.16b, v7.16b, v28.16b
	cmeq	v16.16b, v16.16b, v29.16b
	ldp	q18, q19, [x8]
	ldr	x10, [sp, #40]
	ldr	q25, [sp, #48]
	cmeq	v2.16b, v2.16b, v28.16b
	cmeq	v6.16b, v6.16b, v29.16b
	add	x8, x10, x22
	and	v7.16b, v16.16b, v7.16b
	cmeq	v5.16b, v5.16b, v28.16b
	cmeq	v16.16b, v19.16b, v25.16b
	ldp	q19, q20, [x8]
	add	x8, x22, #32
	cmeq	v3.16b, v3.16b, v28.16b
	cmeq	v17.16b, v17.16b, v29.16b
	add	x9, x13, x8
	add	x8, x10, x8
	cmeq	v4.16b, v4.16b, v29.16b
	ldp	q21, q22, [x9]
	cmeq	v18.16b, v18.16b, v25.16b
	ldp	q23, q24, [x8]
	cmeq	v20.16b, v20.16b, v1.16b
	cmeq	v19.16b, v19.16b, v1.16b
	and	v2.16b, v6.16b, v2.16b
	and	v3.16b, v4.16b, v3.16b
	cmeq	v22.16b, v22.16b, v25.16b
	cmeq	v21.16b, v21.16b, v25.16b
	and	v4.16b, v17.16b, v5.16b
	cmeq	v24.16b, v24.16b, v1.16b
	cmeq	v23.16b, v23.16b, v1.16b
	and	v6.16b, v16.16b, v20.16b
	and	v5.16b, v18.16b, v19.16b
	and	v7.16b, v7.16b, v0.16b
	and	v2.16b, v2.16b, v0.16b
	and	v3.16b, v3.16b, v0.16b
	and	v4.16b, v4.16b, v0.16b
	and	v16.16b, v21.16b, v23.16b
	and	v17.16b, v22.16b, v24.16b
	and	v5.16b, v7.16b, v5.16b
	and	v2.16b, v2.16b, v6.16b
	and	v3.16b, v3.16b, v16.16b
	and	v4.16b, v4.16b, v17.16b
	addp	v2.16b, v5.16b, v2.16b
	addp	v3.16b, v3.16b, v4.16b
	addp	v2.16b, v2.16b, v3.16b
	addp	v2.16b, v2.16b, v2.16b
	fmov	x21, d2
	cbnz	x21, .LBB188_253
	ldr	x8, [sp, #24]
	sub	x9, x8, x22
	ldp	x11, x8, [sp, #8]
	add	x10, x8, x22
	neg	x8, x22
	add	x11, x11, x22
.LBB188_243:
	subs	x12, x9, #64
	b.lo	.LBB188_246
	ldp	q7, q2, [x10, #-32]
	sub	x8, x8, #64
	ldp	q16, q6, [x11, #-32]
	mov	x9, x12
	ldp	q3, q5, [x10], #64
	ldp	q4, q17, [x11], #64
	cmeq	v18.16b, v2.16b, v28.16b
	cmeq	v19.16b, v7.16b, v28.16b
	cmeq	v20.16b, v6.16b, v29.16b
	cmeq	v21.16b, v16.16b, v29.16b
	cmeq	v22.16b, v5.16b, v28.16b
	cmeq	v23.16b, v3.16b, v28.16b
	cmeq	v24.16b, v17.16b, v29.16b
	cmeq	v25.16b, v4.16b, v29.16b
	and	v18.16b, v18.16b, v20.16b
	and	v19.16b, v19.16b, v21.16b
	and	v20.16b, v23.16b, v25.16b
	and	v21.16b, v22.16b, v24.16b
	orr	v18.16b, v18.16b, v21.16b
	orr	v19.16b, v19.16b, v20.16b
	and	v19.16b, v19.16b, v0.16b
	and	v18.16b, v18.16b, v0.16b
	addp	v18.16b, v19.16b, v18.16b
	addp	v18.16b, v18.16b, v18.16b
	addp	v18.16b, v18.16b, v18.16b
	fmov	w13, s18
	cbz	w13, .LBB188_243
	ldur	x13, [x29, #-216]
	neg	x22, x8
	b	.LBB188_241
.LBB188_246:
	mov	w10, #64
	ldur	x13, [x29, #-216]
	sub	x22, x10, x8
.LBB188_247:
	cmp	x9, #32
	b.lo	.LBB188_251
	sub	x8, x16, x22
.LBB188_249:
	add	x9, x23, x22
	add	x10, x27, x22
	ldp	q0, q1, [x9]
	ldp	q3, q2, [x10]
	cmeq	v0.16b, v0.16b, v28.16b
	cmeq	v1.16b, v1.16b, v28.16b
	cmeq	v3.16b, v3.16b, v29.16b
	cmeq	v2.16b, v2.16b, v29.16b
	and	v1.16b, v1.16b, v2.16b
	and	v0.16b, v0.16b, v3.16b
	ldr	q2, [x14, :lo12:.LCPI188_0]
	and	v0.16b, v0.16b, v2.16b
	and	v1.16b, v1.16b, v2.16b
	addp	v0.16b, v0.16b, v1.16b
	addp	v0.16b, v0.16b, v0.16b
	addp	v0.16b, v0.16b, v0.16b
	fmov	w21, s0
	cbnz	w21, .LBB188_252
	sub	x8, x8, #32
	add	x22, x22, #32
	cmp	x8, #31
	b.hi	.LBB188_249
.LBB188_251:
	add	x8, x23, x17
	add	x9, x27, x17
	ldp	q0, q1, [x8]
	ldp	q3, q2, [x9]
	sub	x9, x22, x16
	add	x9, x9, #32
	cmeq	v0.16b, v0.16b, v28.16b
	cmeq	v1.16b, v1.16b, v28.16b
	cmeq	v3.16b, v3.16b, v29.16b
	cmeq	v2.16b, v2.16b, v29.16b
	and	v1.16b, v1.16b, v2.16b
	and	v0.16b, v0.16b, v3.16b
	ldr	q2, [x14, :lo12:.LCPI188_0]
	and	v0.16b, v0.16b, v2.16b
	and	v1.16b, v1.16b, v2.16b
	addp	v0.16b, v0.16b, v1.16b
	addp	v0.16b, v0.16b, v0.16b
	addp	v0.16b, v0.16b, v0.16b
	fmov	w8, s0
	lsr	x21, x8, x9
	ldur	x8, [x29, #-232]
	sub	x24, x8, x25
	cbnz	x21, .LBB188_256
	b	.LBB188_380
.LBB188_252:
	add	x24, x22, #32
	b	.LBB188_256
.LBB188_253:
	add	x24, x22, #64
	b	.LBB188_256
.LBB188_254:
	add	x8, x13, x8
	ldr	q2, [x14, :lo12:.LCPI188_0]
	ldp	q0, q1, [x8]
	cmeq	v1.16b, v1.16b, v26.16b
	cmeq	v0.16b, v0.16b, v27.16b
	bic	v0.16b, v2.16b, v0.16b
	bic	v1.16b, v2.16b, v1.16b
	addp	v0.16b, v0.16b, v1.16b
	addp	v0.16b, v0.16b, v0.16b
	addp	v0.16b, v0.16b, v0.16b
	fmov	w8, s0
	tst	x8, x28
	b.eq	.LBB188_134
.LBB188_255:
	mov	w8, #1
	lsl	x8, x8, x19
	bics	x21, x21, x8
	b.eq	.LBB188_274
.LBB188_256:
	rbit	x8, x21
	ldur	x9, [x29, #-200]
	cmp	x15, #32
	clz	x19, x8
	add	x8, x19, x22
	sub	x9, x9, x8
	b.hi	.LBB188_258
	cmp	x9, #32
	b.hs	.LBB188_254
.LBB188_258:
	cmp	x25, x9
	b.hi	.LBB188_255
	cmp	x25, #4
	add	x0, x13, x8
	b.hs	.LBB188_267
	cbz	x25, .LBB188_383
	ldrb	w8, [x0]
	ldrb	w9, [x26]
	cmp	w8, w9
	b.ne	.LBB188_272
	cmp	x25, #1
	b.eq	.LBB188_390
	ldrb	w8, [x0, #1]
	ldrb	w9, [x26, #1]
	cmp	w8, w9
	b.ne	.LBB188_273
	cmp	x25, #2
	b.eq	.LBB188_390
	ldrb	w8, [x0, #2]
	ldrb	w9, [x26, #2]
	cmp	w8, w9
	b.eq	.LBB188_390
	mov	w8, #2
	cmp	x8, x25
	b.lo	.LBB188_255
	b	.LBB188_134
.LBB188_267:
	ldrb	w8, [x0]
	cmp	w8, w1, uxtb
	b.ne	.LBB188_255
	ldrb	w8, [x0, #1]
	ldrb	w9, [x26, #1]
	cmp	w8, w9
	b.ne	.LBB188_255
	ldrb	w8, [x0, #2]
	ldrb	w9, [x26, #2]
	cmp	w8, w9
	b.ne	.LBB188_255
	ldrb	w8, [x0, #3]
	ldrb	w9, [x26, #3]
	cmp	w8, w9
	b.ne	.LBB188_255
	mov	x1, x25
	mov	x2, x26
	bl	"core::cmp::slices::groups_equal::<i8,31'core::cmp::numbers::U8PartialEq{}>"
	ldp	q29, q28, [sp, #160]
	adrp	x14, .LCPI188_0
	ldp	q27, q26, [sp, #224]
	ldur	x1, [x29, #-248]
	ldur	x15, [x29, #-192]
	ldur	x13, [x29, #-216]
	tbz	w0, #0, .LBB188_255
	b	.LBB188_390
.LBB188_272:
	cmp	xzr, x25
	b.lo	.LBB188_255
	b	.LBB188_134
.LBB188_273:
	mov	w8, #1
	cmp	x8, x25
	b.lo	.LBB188_255
	b	.LBB188_134
.LBB188_274:
	ldp	x17, x16, [sp, #112]
	mov	w22, wzr
	cmp	x24, x16
	b.lo	.LBB188_233
	b	.LBB188_381
.LBB188_275:
	dup	v0.16b, w11
	mov	x8, xzr
.LBB188_276:
	ldur	x14, [x29, #-200]
	sub	x9, x14, x8
	cmp	x9, #191
	b.ls	.LBB188_283
	ldur	x13, [x29, #-216]
	add	x10, x8, #64
	add	x9, x13, x8
	ldp	q2, q3, [x9]
	ldp	q4, q5, [x9, #32]
	adrp	x9, .LCPI188_0
	ldr	q1, [x9, :lo12:.LCPI188_0]
	cmeq	v2.16b, v2.16b, v0.16b
	cmeq	v3.16b, v3.16b, v0.16b
	cmeq	v5.16b, v5.16b, v0.16b
	cmeq	v4.16b, v4.16b, v0.16b
	and	v2.16b, v2.16b, v1.16b
	and	v3.16b, v3.16b, v1.16b
	and	v4.16b, v4.16b, v1.16b
	and	v5.16b, v5.16b, v1.16b
	addp	v2.16b, v2.16b, v3.16b
	addp	v3.16b, v4.16b, v5.16b
	addp	v2.16b, v2.16b, v3.16b
	addp	v2.16b, v2.16b, v2.16b
	fmov	x12, d2
	cbnz	x12, .LBB188_306
	sub	x12, x14, x10
	cmp	x12, #128
	b.lo	.LBB188_292
	ldr	x10, [sp, #152]
	add	x9, x8, #192
	add	x8, x10, x8
.LBB188_280:
	ldp	q2, q3, [x8, #-96]
	ldp	q4, q5, [x8, #-64]
	ldp	q19, q17, [x8, #-32]
	ldp	q20, q18, [x8], #128
	cmeq	v6.16b, v2.16b, v0.16b
	cmeq	v7.16b, v3.16b, v0.16b
	cmeq	v16.16b, v5.16b, v0.16b
	cmeq	v2.16b, v17.16b, v0.16b
	cmeq	v17.16b, v4.16b, v0.16b
	cmeq	v5.16b, v19.16b, v0.16b
	cmeq	v3.16b, v18.16b, v0.16b
	cmeq	v4.16b, v20.16b, v0.16b
	orr	v20.16b, v7.16b, v16.16b
	orr	v21.16b, v6.16b, v17.16b
	orr	v18.16b, v2.16b, v3.16b
	orr	v19.16b, v5.16b, v4.16b
	orr	v18.16b, v20.16b, v18.16b
	orr	v19.16b, v21.16b, v19.16b
	and	v19.16b, v19.16b, v1.16b
	and	v18.16b, v18.16b, v1.16b
	addp	v18.16b, v19.16b, v18.16b
	addp	v18.16b, v18.16b, v18.16b
	addp	v18.16b, v18.16b, v18.16b
	fmov	w10, s18
	cbnz	w10, .LBB188_310
	sub	x12, x12, #128
	add	x9, x9, #128
	cmp	x12, #127
	b.hi	.LBB188_280
	sub	x8, x9, #128
	b	.LBB188_293
.LBB188_283:
	ldur	x13, [x29, #-216]
	cmp	x9, #64
	adrp	x15, .LCPI188_0
	b.lo	.LBB188_299
.LBB188_284:
	add	x10, x13, x8
	ldp	q2, q3, [x10]
	ldp	q5, q4, [x10, #32]
	cmeq	v1.16b, v2.16b, v0.16b
	cmeq	v6.16b, v3.16b, v0.16b
	cmeq	v7.16b, v5.16b, v0.16b
	cmeq	v16.16b, v4.16b, v0.16b
	orr	v6.16b, v6.16b, v16.16b
	orr	v7.16b, v1.16b, v7.16b
	ldr	q1, [x15, :lo12:.LCPI188_0]
	and	v7.16b, v7.16b, v1.16b
	and	v6.16b, v6.16b, v1.16b
	addp	v6.16b, v7.16b, v6.16b
	addp	v6.16b, v6.16b, v6.16b
	addp	v6.16b, v6.16b, v6.16b
	fmov	w10, s6
	cbnz	w10, .LBB188_286
	sub	x9, x9, #64
	add	x8, x8, #64
	cmp	x9, #63
	b.hi	.LBB188_284
	b	.LBB188_299
.LBB188_286:
	cmp	x9, #64
	b.lo	.LBB188_299
.LBB188_287:
	cmeq	v2.16b, v2.16b, v0.16b
	cmeq	v3.16b, v3.16b, v0.16b
	cmeq	v4.16b, v4.16b, v0.16b
	cmeq	v5.16b, v5.16b, v0.16b
	and	v2.16b, v2.16b, v1.16b
	and	v3.16b, v3.16b, v1.16b
	and	v4.16b, v4.16b, v1.16b
	and	v5.16b, v5.16b, v1.16b
	addp	v2.16b, v2.16b, v3.16b
	addp	v3.16b, v5.16b, v4.16b
	addp	v2.16b, v2.16b, v3.16b
	addp	v2.16b, v2.16b, v2.16b
	fmov	x12, d2
	cbnz	x12, .LBB188_313
	ldr	x9, [sp, #32]
	ldr	x12, [sp, #216]
	neg	x10, x8
	sub	x9, x9, x8
	add	x8, x12, x8
.LBB188_289:
	subs	x12, x9, #64
	b.lo	.LBB188_298
	ldp	q2, q3, [x8, #-32]
	sub	x10, x10, #64
	ldp	q5, q4, [x8], #64
	mov	x9, x12
	cmeq	v6.16b, v2.16b, v0.16b
	cmeq	v7.16b, v3.16b, v0.16b
	cmeq	v16.16b, v5.16b, v0.16b
	cmeq	v17.16b, v4.16b, v0.16b
	orr	v7.16b, v7.16b, v17.16b
	orr	v6.16b, v6.16b, v16.16b
	and	v6.16b, v6.16b, v1.16b
	and	v7.16b, v7.16b, v1.16b
	addp	v6.16b, v6.16b, v7.16b
	addp	v6.16b, v6.16b, v6.16b
	addp	v6.16b, v6.16b, v6.16b
	fmov	w13, s6
	cbz	w13, .LBB188_289
	ldur	x13, [x29, #-216]
	neg	x8, x10
	b	.LBB188_287
.LBB188_292:
	mov	x8, x10
.LBB188_293:
	cmp	x12, #32
	b.lo	.LBB188_297
	sub	x9, x14, x8
.LBB188_295:
	add	x10, x13, x8
	ldp	q2, q3, [x10]
	cmeq	v3.16b, v3.16b, v0.16b
	cmeq	v2.16b, v2.16b, v0.16b
	and	v2.16b, v2.16b, v1.16b
	and	v3.16b, v3.16b, v1.16b
	addp	v2.16b, v2.16b, v3.16b
	addp	v2.16b, v2.16b, v2.16b
	addp	v2.16b, v2.16b, v2.16b
	fmov	w12, s2
	cbnz	w12, .LBB188_305
	sub	x9, x9, #32
	add	x8, x8, #32
	cmp	x9, #31
	b.hi	.LBB188_295
.LBB188_297:
	ldr	x9, [sp, #128]
	ldp	q2, q3, [x9, #-32]
	cmeq	v3.16b, v3.16b, v0.16b
	cmeq	v2.16b, v2.16b, v0.16b
	and	v2.16b, v2.16b, v1.16b
	and	v1.16b, v3.16b, v1.16b
	addp	v1.16b, v2.16b, v1.16b
	b	.LBB188_304
.LBB188_298:
	mov	w8, #64
	ldur	x13, [x29, #-216]
	sub	x8, x8, x10
.LBB188_299:
	cmp	x9, #32
	b.lo	.LBB188_303
	sub	x9, x14, x8
.LBB188_301:
	add	x10, x13, x8
	ldr	q3, [x15, :lo12:.LCPI188_0]
	ldp	q1, q2, [x10]
	cmeq	v2.16b, v2.16b, v0.16b
	cmeq	v1.16b, v1.16b, v0.16b
	and	v1.16b, v1.16b, v3.16b
	and	v2.16b, v2.16b, v3.16b
	addp	v1.16b, v1.16b, v2.16b
	addp	v1.16b, v1.16b, v1.16b
	addp	v1.16b, v1.16b, v1.16b
	fmov	w12, s1
	cbnz	w12, .LBB188_305
	sub	x9, x9, #32
	add	x8, x8, #32
	cmp	x9, #31
	b.hi	.LBB188_301
.LBB188_303:
	ldr	x9, [sp, #128]
	ldr	q3, [x15, :lo12:.LCPI188_0]
	ldp	q1, q2, [x9, #-32]
	cmeq	v2.16b, v2.16b, v0.16b
	cmeq	v1.16b, v1.16b, v0.16b
	and	v1.16b, v1.16b, v3.16b
	and	v2.16b, v2.16b, v3.16b
	addp	v1.16b, v1.16b, v2.16b
.LBB188_304:
	addp	v1.16b, v1.16b, v1.16b
	sub	x10, x8, x14
	add	x10, x10, #32
	addp	v1.16b, v1.16b, v1.16b
	fmov	w9, s1
	lsr	x12, x9, x10
	mov	x9, x14
	mov	x10, x9
	cbnz	x12, .LBB188_306
	b	.LBB188_309
.LBB188_305:
	add	x10, x8, #32
.LBB188_306:
	add	x8, x13, x8
.LBB188_307:
	rbit	x9, x12
	clz	x9, x9
	ldrb	w13, [x8, x9]
	cmp	w13, w11, uxtb
	b.eq	.LBB188_134
	mov	w13, #1
	lsl	x9, x13, x9
	bics	x12, x12, x9
	b.ne	.LBB188_307
.LBB188_309:
	mov	w22, wzr
	cmp	x10, x14
	mov	x8, x10
	b.lo	.LBB188_276
	b	.LBB188_381
.LBB188_310:
	and	v6.16b, v6.16b, v1.16b
	and	v7.16b, v7.16b, v1.16b
	sub	x10, x9, #64
	and	v17.16b, v17.16b, v1.16b
	and	v16.16b, v16.16b, v1.16b
	addp	v6.16b, v6.16b, v7.16b
	addp	v7.16b, v17.16b, v16.16b
	addp	v6.16b, v6.16b, v7.16b
	addp	v6.16b, v6.16b, v6.16b
	fmov	x12, d6
	cbz	x12, .LBB188_312
	sub	x8, x9, #128
	b	.LBB188_306
.LBB188_312:
	and	v5.16b, v5.16b, v1.16b
	and	v2.16b, v2.16b, v1.16b
	and	v4.16b, v4.16b, v1.16b
	and	v1.16b, v3.16b, v1.16b
	addp	v2.16b, v5.16b, v2.16b
	addp	v1.16b, v4.16b, v1.16b
	addp	v1.16b, v2.16b, v1.16b
	addp	v1.16b, v1.16b, v1.16b
	fmov	x12, d1
	mov	x8, x10
	mov	x10, x9
	cbnz	x12, .LBB188_306
	b	.LBB188_309
.LBB188_313:
	add	x10, x8, #64
	b	.LBB188_306
.LBB188_314:
	ldp	x0, x18, [sp, #200]
	mov	w7, #1
	mov	x21, xzr
	mov	x27, xzr
	mov	w19, #1
	add	x18, x18, x6
	stur	x18, [x29, #-192]
	sub	x18, x0, x25
	ldr	x0, [sp, #216]
	stur	x18, [x29, #-248]
	add	x18, x0, x6
	str	x18, [sp, #240]
	add	x18, x0, x11
	ldr	x0, [sp, #152]
	str	x18, [sp, #224]
	sub	x18, x7, x9
	add	x3, x0, x11
	add	x4, x0, x6
	sub	x6, x26, #1
.LBB188_315:
	cbz	w19, .LBB188_319
	cmp	w19, #51
	b.lo	.LBB188_320
	lsl	w0, w19, #3
	mov	w1, #536870912
	cmp	w19, w1
	sub	w0, w0, #8
	csinv	w0, w0, wzr, ls
	cmp	w0, w17
	b.ls	.LBB188_320
	mov	w7, wzr
.LBB188_319:
	mov	w19, wzr
	cmp	x21, x13
	mov	x23, x21
	b.lo	.LBB188_369
	b	.LBB188_380
.LBB188_320:
	cmp	x13, #32
	b.hs	.LBB188_325
	cmp	x21, x13
	b.hs	.LBB188_380
	mov	x23, x21
.LBB188_323:
	ldrb	w0, [x14, x23]
	cmp	w0, w12
	b.eq	.LBB188_365
	add	x23, x23, #1
	mov	w22, wzr
	cmp	x13, x23
	b.ne	.LBB188_323
	b	.LBB188_381
.LBB188_325:
	cmp	x21, x13
	mov	x30, x21
	b.hs	.LBB188_380
.LBB188_326:
	sub	x0, x13, x30
	cmp	x0, #191
	b.ls	.LBB188_329
	ldur	x0, [x29, #-216]
	add	x22, x30, #64
	add	x0, x0, x30
	add	x1, x0, x5
	add	x2, x0, x11
	add	x0, x0, #32
	ldp	q3, q2, [x1]
	add	x1, x0, x5
	add	x0, x0, x11
	ldp	q5, q4, [x2]
	ldp	q7, q6, [x1]
	ldp	q17, q16, [x0]
	cmeq	v3.16b, v3.16b, v0.16b
	cmeq	v2.16b, v2.16b, v0.16b
	cmeq	v5.16b, v5.16b, v1.16b
	cmeq	v4.16b, v4.16b, v1.16b
	cmeq	v7.16b, v7.16b, v0.16b
	cmeq	v6.16b, v6.16b, v0.16b
	adrp	x0, .LCPI188_0
	cmeq	v17.16b, v17.16b, v1.16b
	cmeq	v16.16b, v16.16b, v1.16b
	and	v4.16b, v2.16b, v4.16b
	and	v3.16b, v3.16b, v5.16b
	ldr	q2, [x0, :lo12:.LCPI188_0]
	and	v5.16b, v6.16b, v16.16b
	and	v6.16b, v7.16b, v17.16b
	and	v3.16b, v3.16b, v2.16b
	and	v4.16b, v4.16b, v2.16b
	and	v6.16b, v6.16b, v2.16b
	and	v5.16b, v5.16b, v2.16b
	addp	v3.16b, v3.16b, v4.16b
	addp	v4.16b, v6.16b, v5.16b
	addp	v3.16b, v3.16b, v4.16b
	addp	v3.16b, v3.16b, v3.16b
	fmov	x24, d3
	cbz	x24, .LBB188_335
	add	x19, x30, #64
	mov	x22, x30
	b	.LBB188_358
.LBB188_329:
	cmp	x0, #64
	b.lo	.LBB188_334
	ldur	x0, [x29, #-192]
	neg	x1, x30
	add	x2, x15, x30
	adrp	x28, .LCPI188_0
	add	x19, x0, x30
.LBB188_331:
	ldp	q3, q2, [x19, #-32]
	ldp	q4, q5, [x2]
	ldp	q6, q7, [x19], #64
	ldp	q16, q17, [x2, #32]
	cmeq	v2.16b, v2.16b, v0.16b
	cmeq	v3.16b, v3.16b, v0.16b
	cmeq	v5.16b, v5.16b, v1.16b
	cmeq	v4.16b, v4.16b, v1.16b
	cmeq	v7.16b, v7.16b, v0.16b
	cmeq	v6.16b, v6.16b, v0.16b
	cmeq	v17.16b, v17.16b, v1.16b
	cmeq	v16.16b, v16.16b, v1.16b
	and	v3.16b, v3.16b, v4.16b
	and	v2.16b, v2.16b, v5.16b
	and	v4.16b, v6.16b, v16.16b
	and	v5.16b, v7.16b, v17.16b
	orr	v5.16b, v2.16b, v5.16b
	orr	v3.16b, v3.16b, v4.16b
	ldr	q2, [x28, :lo12:.LCPI188_0]
	and	v3.16b, v3.16b, v2.16b
	and	v4.16b, v5.16b, v2.16b
	addp	v3.16b, v3.16b, v4.16b
	addp	v3.16b, v3.16b, v3.16b
	addp	v3.16b, v3.16b, v3.16b
	fmov	w0, s3
	cbnz	w0, .LBB188_344
	sub	x1, x1, #64
	add	x2, x2, #64
	add	x0, x13, x1
	cmp	x0, #63
	b.hi	.LBB188_331
	neg	x22, x1
	b	.LBB188_351
.LBB188_334:
	mov	x22, x30
	adrp	x28, .LCPI188_0
	b	.LBB188_351
.LBB188_335:
	sub	x19, x13, x22
	cmp	x19, #128
	b.lo	.LBB188_339
.LBB188_336:
	add	x1, x3, x30
	add	x0, x4, x30
	ldp	q18, q17, [x1, #-64]
	ldp	q4, q3, [x0, #-96]
	ldp	q6, q5, [x1, #-96]
	ldp	q16, q7, [x0, #-64]
	cmeq	v21.16b, v18.16b, v1.16b
	ldp	q20, q19, [x0, #-32]
	cmeq	v22.16b, v17.16b, v1.16b
	ldp	q25, q17, [x0]
	cmeq	v4.16b, v4.16b, v0.16b
	ldp	q26, q18, [x1]
	cmeq	v3.16b, v3.16b, v0.16b
	ldp	q24, q23, [x1, #-32]
	cmeq	v6.16b, v6.16b, v1.16b
	cmeq	v5.16b, v5.16b, v1.16b
	cmeq	v16.16b, v16.16b, v0.16b
	cmeq	v7.16b, v7.16b, v0.16b
	cmeq	v20.16b, v20.16b, v0.16b
	cmeq	v19.16b, v19.16b, v0.16b
	cmeq	v27.16b, v17.16b, v0.16b
	cmeq	v23.16b, v23.16b, v1.16b
	cmeq	v28.16b, v18.16b, v1.16b
	cmeq	v24.16b, v24.16b, v1.16b
	cmeq	v25.16b, v25.16b, v0.16b
	cmeq	v26.16b, v26.16b, v1.16b
	and	v18.16b, v3.16b, v5.16b
	and	v17.16b, v4.16b, v6.16b
	and	v7.16b, v7.16b, v22.16b
	and	v16.16b, v16.16b, v21.16b
	and	v5.16b, v19.16b, v23.16b
	and	v3.16b, v27.16b, v28.16b
	and	v6.16b, v20.16b, v24.16b
	and	v4.16b, v25.16b, v26.16b
	orr	v21.16b, v18.16b, v7.16b
	orr	v22.16b, v17.16b, v16.16b
	orr	v19.16b, v5.16b, v3.16b
	orr	v20.16b, v6.16b, v4.16b
	orr	v19.16b, v21.16b, v19.16b
	orr	v20.16b, v22.16b, v20.16b
	and	v19.16b, v19.16b, v2.16b
	and	v20.16b, v20.16b, v2.16b
	addp	v19.16b, v20.16b, v19.16b
	addp	v19.16b, v19.16b, v19.16b
	addp	v19.16b, v19.16b, v19.16b
	fmov	w0, s19
	cbnz	w0, .LBB188_361
	sub	x19, x19, #128
	add	x30, x30, #128
	cmp	x19, #127
	b.hi	.LBB188_336
	add	x22, x30, #64
.LBB188_339:
	cmp	x19, #32
	b.lo	.LBB188_343
	sub	x0, x13, x22
.LBB188_341:
	add	x1, x14, x22
	add	x2, x15, x22
	ldp	q3, q4, [x1]
	ldp	q6, q5, [x2]
	cmeq	v3.16b, v3.16b, v0.16b
	cmeq	v4.16b, v4.16b, v0.16b
	cmeq	v6.16b, v6.16b, v1.16b
	cmeq	v5.16b, v5.16b, v1.16b
	and	v4.16b, v4.16b, v5.16b
	and	v3.16b, v3.16b, v6.16b
	and	v3.16b, v3.16b, v2.16b
	and	v4.16b, v4.16b, v2.16b
	addp	v3.16b, v3.16b, v4.16b
	addp	v3.16b, v3.16b, v3.16b
	addp	v3.16b, v3.16b, v3.16b
	fmov	w24, s3
	cbnz	w24, .LBB188_357
	sub	x0, x0, #32
	add	x22, x22, #32
	cmp	x0, #31
	b.hi	.LBB188_341
.LBB188_343:
	add	x0, x16, x5
	add	x1, x16, x11
	ldp	q3, q4, [x0]
	ldp	q6, q5, [x1]
	cmeq	v3.16b, v3.16b, v0.16b
	cmeq	v4.16b, v4.16b, v0.16b
	cmeq	v6.16b, v6.16b, v1.16b
	cmeq	v5.16b, v5.16b, v1.16b
	and	v4.16b, v4.16b, v5.16b
	and	v3.16b, v3.16b, v6.16b
	and	v3.16b, v3.16b, v2.16b
	and	v2.16b, v4.16b, v2.16b
	addp	v2.16b, v3.16b, v2.16b
	b	.LBB188_356
.LBB188_344:
	add	x0, x13, x1
	neg	x22, x1
	cmp	x0, #64
	b.lo	.LBB188_351
.LBB188_345:
	ldur	x0, [x29, #-216]
	add	x0, x0, x22
	add	x1, x0, x5
	add	x2, x0, x11
	add	x0, x0, #32
	ldp	q4, q3, [x1]
	add	x1, x0, x5
	add	x0, x0, x11
	ldp	q6, q5, [x2]
	ldp	q16, q7, [x1]
	ldp	q18, q17, [x0]
	cmeq	v4.16b, v4.16b, v0.16b
	cmeq	v3.16b, v3.16b, v0.16b
	cmeq	v6.16b, v6.16b, v1.16b
	cmeq	v5.16b, v5.16b, v1.16b
	cmeq	v16.16b, v16.16b, v0.16b
	cmeq	v7.16b, v7.16b, v0.16b
	cmeq	v18.16b, v18.16b, v1.16b
	cmeq	v17.16b, v17.16b, v1.16b
	and	v4.16b, v4.16b, v6.16b
	and	v3.16b, v3.16b, v5.16b
	and	v5.16b, v7.16b, v17.16b
	and	v6.16b, v16.16b, v18.16b
	and	v4.16b, v4.16b, v2.16b
	and	v3.16b, v3.16b, v2.16b
	and	v6.16b, v6.16b, v2.16b
	and	v5.16b, v5.16b, v2.16b
	addp	v3.16b, v4.16b, v3.16b
	addp	v4.16b, v6.16b, v5.16b
	addp	v3.16b, v3.16b, v4.16b
	addp	v3.16b, v3.16b, v3.16b
	fmov	x24, d3
	cbnz	x24, .LBB188_364
	ldur	x0, [x29, #-248]
	ldr	x1, [sp, #240]
	ldr	x19, [sp, #224]
	sub	x0, x0, x22
	add	x2, x1, x22
	neg	x1, x22
	add	x19, x19, x22
.LBB188_347:
	subs	x22, x0, #64
	b.lo	.LBB188_350
	ldp	q4, q3, [x2, #-32]
	sub	x1, x1, #64
	ldp	q5, q6, [x19, #-32]
	mov	x0, x22
	ldp	q7, q16, [x2], #64
	ldp	q17, q18, [x19], #64
	cmeq	v3.16b, v3.16b, v0.16b
	cmeq	v4.16b, v4.16b, v0.16b
	cmeq	v6.16b, v6.16b, v1.16b
	cmeq	v5.16b, v5.16b, v1.16b
	cmeq	v16.16b, v16.16b, v0.16b
	cmeq	v7.16b, v7.16b, v0.16b
	cmeq	v18.16b, v18.16b, v1.16b
	cmeq	v17.16b, v17.16b, v1.16b
	and	v3.16b, v3.16b, v6.16b
	and	v4.16b, v4.16b, v5.16b
	and	v5.16b, v7.16b, v17.16b
	and	v6.16b, v16.16b, v18.16b
	orr	v3.16b, v3.16b, v6.16b
	orr	v4.16b, v4.16b, v5.16b
	and	v4.16b, v4.16b, v2.16b
	and	v3.16b, v3.16b, v2.16b
	addp	v3.16b, v4.16b, v3.16b
	addp	v3.16b, v3.16b, v3.16b
	addp	v3.16b, v3.16b, v3.16b
	fmov	w23, s3
	cbz	w23, .LBB188_347
	neg	x22, x1
	b	.LBB188_345
.LBB188_350:
	mov	w2, #64
	sub	x22, x2, x1
.LBB188_351:
	cmp	x0, #32
	b.lo	.LBB188_355
	sub	x0, x13, x22
.LBB188_353:
	add	x1, x14, x22
	add	x2, x15, x22
	ldp	q2, q3, [x1]
	ldp	q5, q4, [x2]
	cmeq	v2.16b, v2.16b, v0.16b
	cmeq	v3.16b, v3.16b, v0.16b
	cmeq	v5.16b, v5.16b, v1.16b
	cmeq	v4.16b, v4.16b, v1.16b
	and	v3.16b, v3.16b, v4.16b
	and	v2.16b, v2.16b, v5.16b
	ldr	q4, [x28, :lo12:.LCPI188_0]
	and	v2.16b, v2.16b, v4.16b
	and	v3.16b, v3.16b, v4.16b
	addp	v2.16b, v2.16b, v3.16b
	addp	v2.16b, v2.16b, v2.16b
	addp	v2.16b, v2.16b, v2.16b
	fmov	w24, s2
	cbnz	w24, .LBB188_357
	sub	x0, x0, #32
	add	x22, x22, #32
	cmp	x0, #31
	b.hi	.LBB188_353
.LBB188_355:
	add	x0, x16, x5
	add	x1, x16, x11
	ldp	q2, q3, [x0]
	ldp	q5, q4, [x1]
	cmeq	v2.16b, v2.16b, v0.16b
	cmeq	v3.16b, v3.16b, v0.16b
	cmeq	v5.16b, v5.16b, v1.16b
	cmeq	v4.16b, v4.16b, v1.16b
	and	v3.16b, v3.16b, v4.16b
	and	v2.16b, v2.16b, v5.16b
	ldr	q4, [x28, :lo12:.LCPI188_0]
	and	v2.16b, v2.16b, v4.16b
	and	v3.16b, v3.16b, v4.16b
	addp	v2.16b, v2.16b, v3.16b
.LBB188_356:
	addp	v2.16b, v2.16b, v2.16b
	sub	x1, x22, x13
	add	x1, x1, #32
	addp	v2.16b, v2.16b, v2.16b
	fmov	w0, s2
	lsr	x24, x0, x1
	ldur	x0, [x29, #-232]
	sub	x0, x0, x25
	mov	x19, x0
	cbnz	x24, .LBB188_358
	b	.LBB188_360
.LBB188_357:
	add	x19, x22, #32
.LBB188_358:
	rbit	x0, x24
	clz	x0, x0
	add	x23, x0, x22
	ldrb	w1, [x14, x23]
	cmp	w1, w12
	b.eq	.LBB188_365
	mov	w1, #1
	lsl	x0, x1, x0
	bics	x24, x24, x0
	b.ne	.LBB188_358
.LBB188_360:
	mov	w22, wzr
	cmp	x19, x13
	mov	x30, x19
	b.lo	.LBB188_326
	b	.LBB188_381
.LBB188_361:
	umov	w22, v18.b[0]
	umov	w2, v17.b[0]
	umov	w0, v7.b[0]
	umov	w23, v16.b[0]
	umov	w1, v18.b[1]
	umov	w24, v17.b[1]
	umov	w19, v7.b[1]
	fmov	s19, w22
	umov	w22, v16.b[1]
	fmov	s20, w2
	fmov	s21, w0
	fmov	s22, w23
	umov	w0, v17.b[2]
	umov	w2, v7.b[2]
	mov	v19.b[1], w1
	umov	w1, v18.b[2]
	mov	v20.b[1], w24
	mov	v21.b[1], w19
	mov	v22.b[1], w22
	umov	w19, v16.b[2]
	mov	v19.b[2], w1
	umov	w1, v18.b[3]
	mov	v20.b[2], w0
	umov	w0, v17.b[3]
	mov	v21.b[2], w2
	umov	w2, v7.b[3]
	mov	v22.b[2], w19
	umov	w19, v16.b[3]
	mov	v19.b[3], w1
	umov	w1, v18.b[4]
	mov	v20.b[3], w0
	umov	w0, v17.b[4]
	mov	v21.b[3], w2
	umov	w2, v7.b[4]
	mov	v22.b[3], w19
	umov	w19, v16.b[4]
	mov	v19.b[4], w1
	umov	w1, v18.b[5]
	mov	v20.b[4], w0
	umov	w0, v17.b[5]
	mov	v21.b[4], w2
	umov	w2, v7.b[5]
	mov	v22.b[4], w19
	umov	w19, v16.b[5]
	mov	v19.b[5], w1
	umov	w1, v18.b[6]
	mov	v20.b[5], w0
	umov	w0, v17.b[6]
	mov	v21.b[5], w2
	umov	w2, v7.b[6]
	mov	v22.b[5], w19
	umov	w19, v16.b[6]
	mov	v19.b[6], w1
	umov	w1, v18.b[7]
	mov	v20.b[6], w0
	umov	w0, v17.b[7]
	mov	v21.b[6], w2
	umov	w2, v7.b[7]
	mov	v22.b[6], w19
	umov	w19, v16.b[7]
	mov	v19.b[7], w1
	umov	w1, v18.b[8]
	mov	v20.b[7], w0
	umov	w0, v17.b[8]
	mov	v21.b[7], w2
	umov	w2, v7.b[8]
	mov	v22.b[7], w19
	umov	w19, v16.b[8]
	mov	v19.b[8], w1
	umov	w1, v18.b[9]
	mov	v20.b[8], w0
	umov	w0, v17.b[9]
	mov	v21.b[8], w2
	umov	w2, v7.b[9]
	mov	v22.b[8], w19
	umov	w19, v16.b[9]
	mov	v19.b[9], w1
	umov	w1, v18.b[10]
	mov	v20.b[9], w0
	umov	w0, v17.b[10]
	mov	v21.b[9], w2
	umov	w2, v7.b[10]
	mov	v22.b[9], w19
	umov	w19, v16.b[10]
	mov	v19.b[10], w1
	umov	w1, v18.b[11]
	mov	v20.b[10], w0
	umov	w0, v17.b[11]
	mov	v21.b[10], w2
	umov	w2, v7.b[11]
	mov	v22.b[10], w19
	umov	w19, v16.b[11]
	mov	v19.b[11], w1
	umov	w1, v18.b[12]
	mov	v20.b[11], w0
	umov	w0, v17.b[12]
	mov	v21.b[11], w2
	umov	w2, v7.b[12]
	mov	v22.b[11], w19
	umov	w19, v16.b[12]
	mov	v19.b[12], w1
	umov	w1, v18.b[13]
	mov	v20.b[12], w0
	umov	w0, v17.b[13]
	mov	v21.b[12], w2
	umov	w2, v7.b[13]
	mov	v22.b[12], w19
	umov	w19, v16.b[13]
	mov	v19.b[13], w1
	umov	w1, v18.b[14]
	mov	v20.b[13], w0
	umov	w0, v17.b[14]
	mov	v21.b[13], w2
	umov	w2, v7.b[14]
	mov	v22.b[13], w19
	umov	w19, v16.b[14]
	mov	v19.b[14], w1
	umov	w1, v18.b[15]
	mov	v20.b[14], w0
	umov	w0, v17.b[15]
	mov	v21.b[14], w2
	umov	w2, v7.b[15]
	mov	v22.b[14], w19
	umov	w19, v16.b[15]
	mov	v19.b[15], w1
	mov	v20.b[15], w0
	mov	v21.b[15], w2
	mov	v22.b[15], w19
	add	x19, x30, #128
	shl	v16.16b, v19.16b, #7
	shl	v7.16b, v20.16b, #7
	shl	v17.16b, v21.16b, #7
	shl	v18.16b, v22.16b, #7
	cmlt	v16.16b, v16.16b, #0
	cmlt	v7.16b, v7.16b, #0
	cmlt	v17.16b, v17.16b, #0
	cmlt	v18.16b, v18.16b, #0
	and	v16.16b, v16.16b, v2.16b
	and	v7.16b, v7.16b, v2.16b
	and	v17.16b, v17.16b, v2.16b
	and	v18.16b, v18.16b, v2.16b
	addp	v7.16b, v7.16b, v16.16b
	addp	v16.16b, v18.16b, v17.16b
	addp	v7.16b, v7.16b, v16.16b
	addp	v7.16b, v7.16b, v7.16b
	fmov	x24, d7
	cbz	x24, .LBB188_363
	add	x22, x30, #64
	b	.LBB188_358
.LBB188_363:
	umov	w28, v5.b[0]
	umov	w2, v6.b[0]
	umov	w0, v3.b[0]
	umov	w23, v4.b[0]
	umov	w1, v5.b[1]
	umov	w24, v6.b[1]
	umov	w22, v3.b[1]
	fmov	s7, w28
	umov	w28, v4.b[1]
	fmov	s16, w2
	fmov	s17, w0
	fmov	s18, w23
	umov	w0, v6.b[2]
	umov	w2, v3.b[2]
	mov	v7.b[1], w1
	umov	w1, v5.b[2]
	mov	v16.b[1], w24
	mov	v17.b[1], w22
	mov	v18.b[1], w28
	umov	w22, v4.b[2]
	mov	v7.b[2], w1
	umov	w1, v5.b[3]
	mov	v16.b[2], w0
	umov	w0, v6.b[3]
	mov	v17.b[2], w2
	umov	w2, v3.b[3]
	mov	v18.b[2], w22
	umov	w22, v4.b[3]
	mov	v7.b[3], w1
	umov	w1, v5.b[4]
	mov	v16.b[3], w0
	umov	w0, v6.b[4]
	mov	v17.b[3], w2
	umov	w2, v3.b[4]
	mov	v18.b[3], w22
	umov	w22, v4.b[4]
	mov	v7.b[4], w1
	umov	w1, v5.b[5]
	mov	v16.b[4], w0
	umov	w0, v6.b[5]
	mov	v17.b[4], w2
	umov	w2, v3.b[5]
	mov	v18.b[4], w22
	umov	w22, v4.b[5]
	mov	v7.b[5], w1
	umov	w1, v5.b[6]
	mov	v16.b[5], w0
	umov	w0, v6.b[6]
	mov	v17.b[5], w2
	umov	w2, v3.b[6]
	mov	v18.b[5], w22
	umov	w22, v4.b[6]
	mov	v7.b[6], w1
	umov	w1, v5.b[7]
	mov	v16.b[6], w0
	umov	w0, v6.b[7]
	mov	v17.b[6], w2
	umov	w2, v3.b[7]
	mov	v18.b[6], w22
	umov	w22, v4.b[7]
	mov	v7.b[7], w1
	umov	w1, v5.b[8]
	mov	v16.b[7], w0
	umov	w0, v6.b[8]
	mov	v17.b[7], w2
	umov	w2, v3.b[8]
	mov	v18.b[7], w22
	umov	w22, v4.b[8]
	mov	v7.b[8], w1
	umov	w1, v5.b[9]
	mov	v16.b[8], w0
	umov	w0, v6.b[9]
	mov	v17.b[8], w2
	umov	w2, v3.b[9]
	mov	v18.b[8], w22
	umov	w22, v4.b[9]
	mov	v7.b[9], w1
	umov	w1, v5.b[10]
	mov	v16.b[9], w0
	umov	w0, v6.b[10]
	mov	v17.b[9], w2
	umov	w2, v3.b[10]
	mov	v18.b[9], w22
	umov	w22, v4.b[10]
	mov	v7.b[10], w1
	umov	w1, v5.b[11]
	mov	v16.b[10], w0
	umov	w0, v6.b[11]
	mov	v17.b[10], w2
	umov	w2, v3.b[11]
	mov	v18.b[10], w22
	umov	w22, v4.b[11]
	mov	v7.b[11], w1
	umov	w1, v5.b[12]
	mov	v16.b[11], w0
	umov	w0, v6.b[12]
	mov	v17.b[11], w2
	umov	w2, v3.b[12]
	mov	v18.b[11], w22
	umov	w22, v4.b[12]
	mov	v7.b[12], w1
	umov	w1, v5.b[13]
	mov	v16.b[12], w0
	umov	w0, v6.b[13]
	mov	v17.b[12], w2
	umov	w2, v3.b[13]
	mov	v18.b[12], w22
	umov	w22, v4.b[13]
	mov	v7.b[13], w1
	umov	w1, v5.b[14]
	mov	v16.b[13], w0
	umov	w0, v6.b[14]
	mov	v17.b[13], w2
	umov	w2, v3.b[14]
	mov	v18.b[13], w22
	umov	w22, v4.b[14]
	mov	v7.b[14], w1
	umov	w1, v5.b[15]
	mov	v16.b[14], w0
	umov	w0, v6.b[15]
	mov	v17.b[14], w2
	umov	w2, v3.b[15]
	mov	v18.b[14], w22
	umov	w22, v4.b[15]
	mov	v7.b[15], w1
	mov	v16.b[15], w0
	add	x0, x30, #192
	mov	v17.b[15], w2
	mov	v18.b[15], w22
	shl	v4.16b, v7.16b, #7
	shl	v3.16b, v16.16b, #7
	shl	v5.16b, v17.16b, #7
	shl	v6.16b, v18.16b, #7
	cmlt	v4.16b, v4.16b, #0
	cmlt	v3.16b, v3.16b, #0
	cmlt	v5.16b, v5.16b, #0
	cmlt	v6.16b, v6.16b, #0
	and	v4.16b, v4.16b, v2.16b
	and	v3.16b, v3.16b, v2.16b
	and	v6.16b, v6.16b, v2.16b
	and	v2.16b, v5.16b, v2.16b
	addp	v3.16b, v3.16b, v4.16b
	addp	v2.16b, v6.16b, v2.16b
	addp	v2.16b, v3.16b, v2.16b
	addp	v2.16b, v2.16b, v2.16b
	fmov	x24, d2
	mov	x22, x19
	mov	x19, x0
	cbnz	x24, .LBB188_358
	b	.LBB188_360
.LBB188_364:
	add	x19, x22, #64
	b	.LBB188_358
.LBB188_365:
	sub	x0, x23, x21
	adds	w2, w7, #1
	lsr	x1, x0, #32
	csinv	w19, w2, wzr, lo
	cbz	x1, .LBB188_367
	mov	w17, #-1
	b	.LBB188_368
.LBB188_367:
	adds	w17, w0, w17
	csinv	w17, w17, wzr, lo
.LBB188_368:
	mov	w7, w19
.LBB188_369:
	ldur	x0, [x29, #-216]
	cmp	x23, x21
	add	x21, x23, x25
	add	x0, x0, x21
	ldurb	w0, [x0, #-1]
	lsr	x1, x8, x0
	csel	x0, x27, xzr, eq
	tbz	w1, #0, .LBB188_378
	cmp	x0, x9
	csel	x22, x0, x9, hi
	subs	x1, x25, x22
	b.ls	.LBB188_374
	ldur	x24, [x29, #-216]
	add	x2, x23, x22
	add	x22, x26, x22
	add	x21, x2, x18
	add	x2, x24, x2
.LBB188_372:
	ldrb	w24, [x22], #1
	ldrb	w27, [x2], #1
	cmp	w24, w27
	b.ne	.LBB188_378
	subs	x1, x1, #1
	add	x21, x21, #1
	b.ne	.LBB188_372
.LBB188_374:
	ldr	x1, [sp, #144]
	ldur	x24, [x29, #-200]
	mov	x2, x9
	add	x1, x1, x23
.LBB188_375:
	cmp	x0, x2
	b.hs	.LBB188_134
	ldrb	w21, [x6, x2]
	ldrb	w22, [x1, x2]
	sub	x2, x2, #1
	cmp	w21, w22
	b.eq	.LBB188_375
	add	x21, x23, x10
	sub	x27, x25, x10
	b	.LBB188_379
.LBB188_378:
	ldur	x24, [x29, #-200]
	mov	x27, xzr
.LBB188_379:
	add	x0, x21, x25
	mov	w22, wzr
	cmp	x0, x24
	b.ls	.LBB188_315
	b	.LBB188_381
.LBB188_380:
	mov	w22, wzr
.LBB188_381:
	cbz	x25, .LBB188_387
	mov	x0, x26
	bl	rattle_dealloc
	ldur	x13, [x29, #-216]
	tbz	w22, #0, .LBB188_42
.LBB188_383:
	ldp	x10, x8, [x29, #-128]
	sub	x9, x8, x10
	cmp	x9, #7
	b.ls	.LBB188_391
.LBB188_384:
	ldur	x24, [x29, #-200]
.LBB188_385:
	ldur	x9, [x29, #-208]
	ldur	x11, [x29, #-136]
	rev	x12, x9
	add	x9, x10, #8
	str	x12, [x11, x10]
	cmp	x8, x9
	stp	x9, x8, [x29, #-128]
	b.eq	.LBB188_388
.LBB188_386:
	mov	w8, #3
	strb	w8, [x11, x9]
	add	x8, x9, #1
	stur	x8, [x29, #-128]
	b	.LBB188_42
.LBB188_387:
	ldur	x13, [x29, #-216]
	cbz	w22, .LBB188_42
	b	.LBB188_383
.LBB188_388:
	sub	x0, x29, #136
	mov	w1, #1
	bl	"std_alloc::vec::Vec::grow_amortized::<#c0dd558b90df13b6>"
	cbz	w0, .LBB188_399
	ldp	x11, x9, [x29, #-136]
	ldur	x13, [x29, #-216]
	b	.LBB188_386
.LBB188_390:
	mov	x0, x26
	bl	rattle_dealloc
	ldur	x13, [x29, #-216]
	ldp	x10, x8, [x29, #-128]
	sub	x9, x8, x10
	cmp	x9, #7
	b.hi	.LBB188_384
.LBB188_391:
	sub	x0, x29, #136
	mov	w1, #8
	bl	"std_alloc::vec::Vec::grow_amortized::<#c0dd558b90df13b6>"
	ldur	x24, [x29, #-200]
	cbz	w0, .LBB188_399
	ldp	x10, x8, [x29, #-128]
	ldur	x13, [x29, #-216]
	b	.LBB188_385
.LBB188_393:
	mov	x26, xzr
	mov	w19, #1
	cbz	x24, .LBB188_395
.LBB188_394:
	mov	x0, x13
	bl	rattle_dealloc
.LBB188_395:
	ldur	x8, [x29, #-240]
	cbz	x8, .LBB188_397
	mov	x0, x27
	bl	rattle_dealloc
.LBB188_397:
	cmp	x23, x26
	str	x26, [x22]
	b.hs	.LBB188_406
	mov	w0, #9
	b	.LBB188_415
.LBB188_399:
	ldur	x8, [x29, #-120]
	cbz	x8, .LBB188_401
	ldur	x0, [x29, #-136]
	bl	rattle_dealloc
.LBB188_401:
	ldr	x19, [sp, #136]
	cbz	x24, .LBB188_403
	ldur	x0, [x29, #-216]
	bl	rattle_dealloc
.LBB188_403:
	ldur	x8, [x29, #-240]
	cbz	x8, .LBB188_1
	mov	x0, x19
.LBB188_405:
	bl	rattle_dealloc
	b	.LBB188_1
.LBB188_406:
	add	x0, x20, x21
	sub	x8, x0, x25
	cmp	x8, x26
	b.hs	.LBB188_413
	cmp	x26, #8
	b.lo	.LBB188_409
	add	x8, x21, x20
	sub	x8, x8, x25
	cmp	x8, #32
	b.hs	.LBB188_417
.LBB188_409:
	mov	x8, xzr
.LBB188_410:
	add	x10, x21, x8
	sub	x9, x26, x8
	add	x8, x25, x8
	add	x10, x20, x10
.LBB188_411:
	ldrb	w11, [x8], #1
	subs	x9, x9, #1
	strb	w11, [x10], #1
	b.ne	.LBB188_411
	b	.LBB188_414
.LBB188_412:
	ldp	x26, x8, [x29, #-128]
	ldur	x25, [x29, #-136]
	ldp	x21, x20, [sp, #88]
	ldr	x27, [sp, #136]
	ldp	x23, x22, [sp, #72]
	cmp	x8, #0
	cset	w19, eq
	cbnz	x24, .LBB188_394
	b	.LBB188_395
.LBB188_413:
	mov	x1, x25
	mov	x2, x26
	bl	memmove
.LBB188_414:
	mov	w0, wzr
.LBB188_415:
	tbnz	w19, #0, .LBB188_13
	mov	w19, w0
	mov	x0, x25
	bl	rattle_dealloc
	mov	w0, w19
	b	.LBB188_13
.LBB188_417:
	cmp	x26, #32
	b.hs	.LBB188_419
	mov	x8, xzr
	b	.LBB188_423
.LBB188_419:
	add	x11, x21, x20
	and	x9, x26, #0x18
	and	x8, x26, #0xffffffffffffffe0
	add	x10, x25, #16
	add	x11, x11, #16
	and	x12, x26, #0xffffffffffffffe0
.LBB188_420:
	ldp	q0, q1, [x10, #-16]
	subs	x12, x12, #32
	add	x10, x10, #32
	stp	q0, q1, [x11, #-16]
	add	x11, x11, #32
	b.ne	.LBB188_420
	cmp	x26, x8
	b.eq	.LBB188_414
	cbz	x9, .LBB188_410
.LBB188_423:
	mov	x10, x8
	and	x8, x26, #0xfffffffffffffff8
	add	x11, x21, x10
	sub	x9, x10, x8
	add	x10, x25, x10
	add	x11, x20, x11
.LBB188_424:
	ldr	d0, [x10], #8
	adds	x9, x9, #8
	str	d0, [x11], #8
	b.ne	.LBB188_424
	cmp	x26, x8
	b.eq	.LBB188_414
	b	.LBB188_410
.Lfunc_end188:
	.size	wagtenib_names_in_bytes, .Lfunc_end188-wagtenib_names_in_bytes
	.section	.text.wagtenib_precertificate_entry,"ax",@progbits
	.globl	wagtenib_precertificate_entry
	.p2align	2
	.type	wagtenib_precertificate_entry,@function
wagtenib_precertificate_entry:
	sub	sp, sp, #192
	movi	v0.2d, #0000000000000000
	mov	w9, #4096
	cmp	x0, #0
	mov	x8, x0
	csel	x10, x9, xzr, eq
	stp	x22, x21, [sp, #160]
	stp	x20, x19, [sp, #176]
	mov	x22, x3
	mov	x19, x2
	mov	x3, x1
	cmp	x2, #0
	adrp	x1, .Lstatic.21
	add	x1, x1, :lo12:.Lstatic.21
	add	x0, sp, #32
	add	x2, x8, x10
	stp	x29, x30, [sp, #128]
	add	x29, sp, #128
	mov	x20, x5
	stp	x24, x23, [sp, #144]
	mov	x21, x4
	csel	x24, x9, xzr, eq
	stp	q0, q0, [sp]
	add	x23, sp, #32
	stp	q0, q0, [sp, #32]
	stp	q0, q0, [sp, #64]
	str	q0, [sp, #96]
	str	xzr, [sp, #112]
	bl	"ct_promise::entry::cut_in"
	ldrb	w8, [sp, #32]
	cbz	w8, .LBB189_5
	ldrb	w11, [sp, #33]
	ldrb	w10, [sp, #34]
	ldrb	w9, [sp, #35]
	ldrh	w8, [sp, #36]
	cbz	w11, .LBB189_15
.LBB189_2:
	cmp	w11, #2
	b.ne	.LBB189_11
	mov	w8, #2
	mov	w0, #90
	str	w8, [x20]
.LBB189_4:
	ldp	x20, x19, [sp, #176]
	ldp	x22, x21, [sp, #160]
	ldp	x24, x23, [sp, #144]
	ldp	x29, x30, [sp, #128]
	add	sp, sp, #192
	ret
.LBB189_5:
	ldr	x8, [sp, #80]
	cmp	x8, #21
	b.ne	.LBB189_11
	ldr	x0, [sp, #72]
	mov	w9, #4912
	movk	w9, #2566, lsl #16
	ldr	w8, [x0]
	cmp	w8, w9
	b.ne	.LBB189_11
	adrp	x2, .Lstatic.22
	add	x2, x2, :lo12:.Lstatic.22
	mov	w1, #21
	bl	"core::cmp::slices::groups_equal::<i8,31'core::cmp::numbers::U8PartialEq{}>"
	tbz	w0, #0, .LBB189_11
	mov	x0, sp
	orr	x1, x23, #0x8
	bl	"ct_promise::entry::without_cut"
	ldrb	w8, [sp]
	cbz	w8, .LBB189_12
	ldrb	w8, [sp, #1]
	cbz	w8, .LBB189_14
	mov	w0, #8
	ldp	x20, x19, [sp, #176]
	ldp	x22, x21, [sp, #160]
	ldp	x24, x23, [sp, #144]
	ldp	x29, x30, [sp, #128]
	add	sp, sp, #192
	ret
.LBB189_11:
	mov	w8, #14
	mov	w0, #89
	str	w8, [x20]
	ldp	x20, x19, [sp, #176]
	ldp	x22, x21, [sp, #160]
	ldp	x24, x23, [sp, #144]
	ldp	x29, x30, [sp, #128]
	add	sp, sp, #192
	ret
.LBB189_12:
	ldp	x20, x2, [sp, #8]
	ldr	x23, [sp, #24]
	cmp	x22, x2
	str	x2, [x21]
	b.hs	.LBB189_20
	mov	w0, #9
	b	.LBB189_28
.LBB189_14:
	ldrb	w11, [sp, #2]
	ldrb	w10, [sp, #3]
	ldrb	w9, [sp, #4]
	ldurh	w8, [sp, #5]
	cbnz	w11, .LBB189_2
.LBB189_15:
	and	w11, w8, #0xff
	cmp	w9, #0
	mov	w12, #14
	csinc	w11, w12, w11, ne
	cmp	w10, #0
	orr	w12, w11, #0x10
	csel	w10, w11, w12, eq
	cmp	w9, #2
	str	w10, [x20]
	b.eq	.LBB189_18
	cmp	w9, #1
	b.ne	.LBB189_19
	mov	w0, #87
	ldp	x20, x19, [sp, #176]
	ldp	x22, x21, [sp, #160]
	ldp	x24, x23, [sp, #144]
	ldp	x29, x30, [sp, #128]
	add	sp, sp, #192
	ret
.LBB189_18:
	mov	w0, #88
	ldp	x20, x19, [sp, #176]
	ldp	x22, x21, [sp, #160]
	ldp	x24, x23, [sp, #144]
	ldp	x29, x30, [sp, #128]
	add	sp, sp, #192
	ret
.LBB189_19:
	lsr	w8, w8, #8
	add	w0, w8, #80
	ldp	x20, x19, [sp, #176]
	ldp	x22, x21, [sp, #160]
	ldp	x24, x23, [sp, #144]
	ldp	x29, x30, [sp, #128]
	add	sp, sp, #192
	ret
.LBB189_20:
	add	x0, x19, x24
	sub	x8, x0, x20
	cmp	x8, x2
	b.hs	.LBB189_26
	cmp	x2, #8
	b.lo	.LBB189_23
	add	x8, x24, x19
	sub	x8, x8, x20
	cmp	x8, #32
	b.hs	.LBB189_30
.LBB189_23:
	mov	x8, xzr
.LBB189_24:
	add	x10, x24, x8
	sub	x9, x2, x8
	add	x8, x20, x8
	add	x10, x19, x10
.LBB189_25:
	ldrb	w11, [x8], #1
	subs	x9, x9, #1
	strb	w11, [x10], #1
	b.ne	.LBB189_25
	b	.LBB189_27
.LBB189_26:
	mov	x1, x20
	bl	memmove
.LBB189_27:
	mov	w0, wzr
.LBB189_28:
	cbz	x23, .LBB189_4
	mov	w19, w0
	mov	x0, x20
	bl	rattle_dealloc
	mov	w0, w19
	ldp	x20, x19, [sp, #176]
	ldp	x22, x21, [sp, #160]
	ldp	x24, x23, [sp, #144]
	ldp	x29, x30, [sp, #128]
	add	sp, sp, #192
	ret
.LBB189_30:
	cmp	x2, #32
	b.hs	.LBB189_32
	mov	x8, xzr
	b	.LBB189_36
.LBB189_32:
	add	x11, x24, x19
	and	x9, x2, #0x18
	and	x8, x2, #0xffffffffffffffe0
	add	x10, x20, #16
	add	x11, x11, #16
	and	x12, x2, #0xffffffffffffffe0
.LBB189_33:
	ldp	q0, q1, [x10, #-16]
	subs	x12, x12, #32
	add	x10, x10, #32
	stp	q0, q1, [x11, #-16]
	add	x11, x11, #32
	b.ne	.LBB189_33
	cmp	x2, x8
	b.eq	.LBB189_27
	cbz	x9, .LBB189_24
.LBB189_36:
	mov	x10, x8
	and	x8, x2, #0xfffffffffffffff8
	add	x11, x24, x10
	sub	x9, x10, x8
	add	x10, x20, x10
	add	x11, x19, x11
.LBB189_37:
	ldr	d0, [x10], #8
	adds	x9, x9, #8
	str	d0, [x11], #8
	b.ne	.LBB189_37
	cmp	x2, x8
	b.eq	.LBB189_27
	b	.LBB189_24
.Lfunc_end189:
	.size	wagtenib_precertificate_entry, .Lfunc_end189-wagtenib_precertificate_entry
	.section	.text.wagtenib_promised_leaf,"ax",@progbits
	.globl	wagtenib_promised_leaf
	.p2align	2
	.type	wagtenib_promised_leaf,@function
wagtenib_promised_leaf:
	sub	sp, sp, #80
	movi	v0.2d, #0000000000000000
	lsr	x11, x6, #16
	mov	w12, #4096
	cmp	x7, #0
	stp	x22, x21, [sp, #48]
	csel	x21, x12, xzr, eq
	stp	x29, x30, [sp, #32]
	add	x29, sp, #32
	stp	x20, x19, [sp, #64]
	stp	q0, q0, [sp]
	cbz	x11, .LBB190_3
	mov	w0, #91
.LBB190_2:
	ldp	x20, x19, [sp, #64]
	ldp	x22, x21, [sp, #48]
	ldp	x29, x30, [sp, #32]
	add	sp, sp, #80
	ret
.LBB190_3:
	cmp	x5, #0
	mov	w11, #4096
	mov	x10, x6
	csel	x12, x11, xzr, eq
	cmp	x2, #0
	mov	x8, x4
	csel	x13, x11, xzr, eq
	cmp	x0, #0
	mov	x9, x1
	csel	x11, x11, xzr, eq
	mov	x14, x0
	mov	x4, x3
	mov	x22, x7
	mov	x0, sp
	add	x1, x14, x11
	add	x3, x2, x13
	add	x6, x5, x12
	mov	x2, x9
	mov	x5, x8
	mov	x7, x10
	bl	"ct_promise::leaf::promised_leaf"
	ldrb	w8, [sp]
	cbz	w8, .LBB190_6
	ldrb	w8, [sp, #1]
	cbz	w8, .LBB190_8
	mov	w0, #8
	ldp	x20, x19, [sp, #64]
	ldp	x22, x21, [sp, #48]
	ldp	x29, x30, [sp, #32]
	add	sp, sp, #80
	ret
.LBB190_6:
	ldp	x19, x2, [sp, #8]
	ldr	x20, [sp, #24]
	ldp	x8, x9, [x29, #48]
	cmp	x8, x2
	str	x2, [x9]
	b.hs	.LBB190_11
	mov	w0, #9
	cbnz	x20, .LBB190_19
	b	.LBB190_2
.LBB190_8:
	ldrb	w9, [sp, #2]
	ldr	x8, [x29, #64]
	cbz	w9, .LBB190_20
	cmp	w9, #2
	b.ne	.LBB190_23
	mov	w0, #90
	str	w9, [x8]
	ldp	x20, x19, [sp, #64]
	ldp	x22, x21, [sp, #48]
	ldp	x29, x30, [sp, #32]
	add	sp, sp, #80
	ret
.LBB190_11:
	add	x0, x22, x21
	sub	x9, x0, x19
	cmp	x9, x2
	b.hs	.LBB190_17
	mov	x8, x22
	cmp	x2, #8
	b.lo	.LBB190_14
	add	x9, x21, x8
	sub	x9, x9, x19
	cmp	x9, #32
	b.hs	.LBB190_26
.LBB190_14:
	mov	x9, xzr
.LBB190_15:
	add	x11, x21, x9
	sub	x10, x2, x9
	add	x9, x19, x9
	add	x8, x8, x11
.LBB190_16:
	ldrb	w11, [x9], #1
	subs	x10, x10, #1
	strb	w11, [x8], #1
	b.ne	.LBB190_16
	b	.LBB190_18
.LBB190_17:
	mov	x1, x19
	bl	memmove
.LBB190_18:
	mov	w0, wzr
	cbz	x20, .LBB190_2
.LBB190_19:
	mov	w20, w0
	mov	x0, x19
	bl	rattle_dealloc
	mov	w0, w20
	ldp	x20, x19, [sp, #64]
	ldp	x22, x21, [sp, #48]
	ldp	x29, x30, [sp, #32]
	add	sp, sp, #80
	ret
.LBB190_20:
	ldurh	w9, [sp, #5]
	ldrb	w10, [sp, #4]
	mov	w13, #14
	ldrb	w11, [sp, #3]
	and	w12, w9, #0xff
	cmp	w10, #0
	csinc	w12, w13, w12, ne
	cmp	w11, #0
	orr	w13, w12, #0x10
	csel	w11, w12, w13, eq
	cmp	w10, #2
	str	w11, [x8]
	b.eq	.LBB190_24
	cmp	w10, #1
	b.ne	.LBB190_25
	mov	w0, #87
	ldp	x20, x19, [sp, #64]
	ldp	x22, x21, [sp, #48]
	ldp	x29, x30, [sp, #32]
	add	sp, sp, #80
	ret
.LBB190_23:
	mov	w9, #14
	mov	w0, #89
	str	w9, [x8]
	ldp	x20, x19, [sp, #64]
	ldp	x22, x21, [sp, #48]
	ldp	x29, x30, [sp, #32]
	add	sp, sp, #80
	ret
.LBB190_24:
	mov	w0, #88
	ldp	x20, x19, [sp, #64]
	ldp	x22, x21, [sp, #48]
	ldp	x29, x30, [sp, #32]
	add	sp, sp, #80
	ret
.LBB190_25:
	lsr	w8, w9, #8
	add	w0, w8, #80
	ldp	x20, x19, [sp, #64]
	ldp	x22, x21, [sp, #48]
	ldp	x29, x30, [sp, #32]
	add	sp, sp, #80
	ret
.LBB190_26:
	cmp	x2, #32
	b.hs	.LBB190_28
	mov	x9, xzr
	b	.LBB190_32
.LBB190_28:
	add	x12, x21, x8
	and	x10, x2, #0x18
	and	x9, x2, #0xffffffffffffffe0
	add	x11, x19, #16
	add	x12, x12, #16
	and	x13, x2, #0xffffffffffffffe0
.LBB190_29:
	ldp	q0, q1, [x11, #-16]
	subs	x13, x13, #32
	add	x11, x11, #32
	stp	q0, q1, [x12, #-16]
	add	x12, x12, #32
	b.ne	.LBB190_29
	cmp	x2, x9
	b.eq	.LBB190_18
	cbz	x10, .LBB190_15
.LBB190_32:
	mov	x11, x9
	and	x9, x2, #0xfffffffffffffff8
	add	x12, x21, x11
	sub	x10, x11, x9
	add	x11, x19, x11
	add	x12, x8, x12
.LBB190_33:
	ldr	d0, [x11], #8
	adds	x10, x10, #8
	str	d0, [x12], #8
	b.ne	.LBB190_33
	cmp	x2, x9
	b.eq	.LBB190_18
	b	.LBB190_15
.Lfunc_end190:
	.size	wagtenib_promised_leaf, .Lfunc_end190-wagtenib_promised_leaf
	.section	.text.wagtenib_step,"ax",@progbits
	.globl	wagtenib_step
	.p2align	2
	.type	wagtenib_step,@function
wagtenib_step:
	sub	sp, sp, #448
	stp	x22, x21, [sp, #416]
	mov	x21, x2
	cmp	x0, #0
	mov	w9, #4096
	stp	x29, x30, [sp, #352]
	add	x29, sp, #352
	csel	x10, x9, xzr, eq
	cmp	x2, #0
	stp	x28, x27, [sp, #368]
	stp	x20, x19, [sp, #432]
	ldr	x19, [x29, #112]
	csel	x28, x9, xzr, eq
	cmp	x4, #0
	mov	x8, x0
	mov	x2, x1
	csel	x20, x9, xzr, eq
	cmp	x6, #0
	add	x0, sp, #88
	csel	x11, x9, xzr, eq
	cmp	x19, #0
	add	x1, x8, x10
	stp	x26, x25, [sp, #384]
	mov	x26, x5
	mov	x25, x4
	stp	x24, x23, [sp, #400]
	mov	x24, x7
	mov	x23, x6
	mov	x27, x3
	stp	xzr, xzr, [sp, #88]
	csel	x22, x9, xzr, eq
	str	x11, [sp, #80]
	str	xzr, [sp, #104]
	bl	"libwagtenib::step::origin_of"
	ldrb	w8, [sp, #88]
	cmp	w8, #1
	b.ne	.LBB191_29
	movi	v0.2d, #0000000000000000
	sub	x8, x29, #144
	str	x24, [sp, #72]
	sub	x24, x29, #24
	stp	x22, x19, [sp, #24]
	stur	xzr, [x29, #-64]
	stur	xzr, [x29, #-112]
	stp	q0, q0, [x8, #48]
	str	q0, [x8, #16]
	ldr	x8, [sp, #96]
	stur	q0, [x29, #-144]
	str	x8, [sp, #48]
	ldr	x8, [sp, #104]
	stp	xzr, xzr, [x29, #-160]
	stur	xzr, [x29, #-168]
	stp	xzr, xzr, [sp, #168]
	stp	xzr, xzr, [sp, #152]
	stp	xzr, xzr, [sp, #136]
	stp	xzr, xzr, [sp, #112]
	str	xzr, [sp, #128]
	stp	xzr, xzr, [x29, #-40]
	str	x8, [sp, #40]
	stur	x24, [x29, #-48]
	cbz	x26, .LBB191_30
	stp	x28, x27, [sp, #56]
	mov	x19, xzr
	add	x20, x25, x20
	sub	x27, x29, #24
.LBB191_3:
	subs	x8, x26, #8
	b.lo	.LBB191_37
	mov	x28, x20
	ldr	x22, [x28], #8
	rev	x24, x22
	subs	x26, x8, x24
	b.lo	.LBB191_37
	cbz	x22, .LBB191_14
	tbnz	x24, #63, .LBB191_46
	mov	x0, x24
	mov	w1, #1
	bl	rattle_alloc
	tbz	w0, #0, .LBB191_46
	mov	x25, x1
	sub	x8, x1, x28
	cmp	x8, x24
	b.hs	.LBB191_15
.LBB191_9:
	cmp	x24, #8
	b.lo	.LBB191_11
	sub	x8, x25, x20
	sub	x8, x8, #8
	cmp	x8, #32
	b.hs	.LBB191_18
.LBB191_11:
	mov	x8, xzr
.LBB191_12:
	add	x10, x20, x8
	sub	x9, x24, x8
	add	x8, x25, x8
	add	x10, x10, #8
.LBB191_13:
	ldrb	w11, [x10], #1
	subs	x9, x9, #1
	strb	w11, [x8], #1
	b.ne	.LBB191_13
	b	.LBB191_16
.LBB191_14:
	sub	x25, x29, #24
	sub	x8, x25, x28
	cmp	x8, x24
	b.lo	.LBB191_9
.LBB191_15:
	mov	x0, x25
	mov	x1, x28
	mov	x2, x24
	bl	memmove
.LBB191_16:
	ldur	x8, [x29, #-32]
	cmp	x8, x19
	b.eq	.LBB191_27
.LBB191_17:
	mov	w8, #24
	add	x20, x28, x24
	madd	x8, x19, x8, x27
	add	x19, x19, #1
	stp	x25, x24, [x8]
	str	x24, [x8, #16]
	stur	x19, [x29, #-40]
	cbnz	x26, .LBB191_3
	b	.LBB191_55
.LBB191_18:
	cmp	x24, #32
	b.hs	.LBB191_20
	mov	x8, xzr
	b	.LBB191_24
.LBB191_20:
	and	x9, x24, #0x18
	and	x8, x24, #0xffffffffffffffe0
	add	x10, x20, #24
	add	x11, x25, #16
	and	x12, x24, #0xffffffffffffffe0
.LBB191_21:
	ldp	q0, q1, [x10, #-16]
	subs	x12, x12, #32
	add	x10, x10, #32
	stp	q0, q1, [x11, #-16]
	add	x11, x11, #32
	b.ne	.LBB191_21
	cmp	x24, x8
	b.eq	.LBB191_16
	cbz	x9, .LBB191_12
.LBB191_24:
	mov	x11, x8
	and	x8, x24, #0xfffffffffffffff8
	add	x10, x20, x11
	sub	x9, x11, x8
	add	x11, x25, x11
	add	x10, x10, #8
.LBB191_25:
	ldr	d0, [x10], #8
	adds	x9, x9, #8
	str	d0, [x11], #8
	b.ne	.LBB191_25
	cmp	x24, x8
	b.eq	.LBB191_16
	b	.LBB191_12
.LBB191_27:
	sub	x0, x29, #48
	bl	"std_alloc::vec::Vec::grow_amortized::<#c2ea2623f4a99793>"
	cbz	w0, .LBB191_81
	ldp	x27, x19, [x29, #-48]
	b	.LBB191_17
.LBB191_29:
	mov	w0, #10
	b	.LBB191_78
.LBB191_30:
	mov	x19, xzr
	mov	x20, xzr
	mov	w25, #1
	ldp	x2, x8, [sp, #72]
	sub	x0, x29, #96
	add	x1, x23, x8
	bl	"ct_step::reading::batch_of"
	ldurb	w8, [x29, #-96]
	cbz	w8, .LBB191_58
.LBB191_31:
	cbz	w25, .LBB191_54
	cbz	x19, .LBB191_44
	add	x21, x24, #16
	b	.LBB191_35
.LBB191_34:
	subs	x19, x19, #1
	add	x21, x21, #24
	b.eq	.LBB191_44
.LBB191_35:
	ldr	x8, [x21]
	cbz	x8, .LBB191_34
	ldur	x0, [x21, #-16]
	bl	rattle_dealloc
	b	.LBB191_34
.LBB191_37:
	ldur	x24, [x29, #-48]
	ldur	x20, [x29, #-32]
	ldr	x27, [sp, #64]
	cbz	x19, .LBB191_42
	add	x22, x24, #16
	b	.LBB191_40
.LBB191_39:
	subs	x19, x19, #1
	add	x22, x22, #24
	b.eq	.LBB191_42
.LBB191_40:
	ldr	x8, [x22]
	cbz	x8, .LBB191_39
	ldur	x0, [x22, #-16]
	bl	rattle_dealloc
	b	.LBB191_39
.LBB191_42:
	ldr	x28, [sp, #56]
	cbz	x20, .LBB191_56
	mov	x0, x24
	bl	rattle_dealloc
	mov	x24, xzr
	mov	x19, xzr
	mov	x20, xzr
	b	.LBB191_57
.LBB191_44:
	cbz	x20, .LBB191_54
	mov	x0, x24
	b	.LBB191_53
.LBB191_46:
	ldur	x20, [x29, #-32]
	cbz	x19, .LBB191_51
	add	x21, x27, #16
	b	.LBB191_49
.LBB191_48:
	subs	x19, x19, #1
	add	x21, x21, #24
	b.eq	.LBB191_51
.LBB191_49:
	ldr	x8, [x21]
	cbz	x8, .LBB191_48
	ldur	x0, [x21, #-16]
	bl	rattle_dealloc
	b	.LBB191_48
.LBB191_51:
	cbz	x20, .LBB191_54
	mov	x0, x27
.LBB191_53:
	bl	rattle_dealloc
.LBB191_54:
	mov	w0, #8
	b	.LBB191_78
.LBB191_55:
	ldp	x28, x27, [sp, #56]
	mov	w25, #1
	ldur	x24, [x29, #-48]
	ldur	x20, [x29, #-32]
	ldp	x2, x8, [sp, #72]
	sub	x0, x29, #96
	add	x1, x23, x8
	bl	"ct_step::reading::batch_of"
	ldurb	w8, [x29, #-96]
	cbnz	w8, .LBB191_31
	b	.LBB191_58
.LBB191_56:
	mov	x24, xzr
	mov	x19, xzr
.LBB191_57:
	mov	w25, wzr
	ldp	x2, x8, [sp, #72]
	sub	x0, x29, #96
	add	x1, x23, x8
	bl	"ct_step::reading::batch_of"
	ldurb	w8, [x29, #-96]
	cbnz	w8, .LBB191_31
.LBB191_58:
	ldurb	w8, [x29, #-88]
	cmp	w8, #1
	b.ne	.LBB191_64
	ldp	x22, x23, [x29, #-80]
	ldur	x26, [x29, #-64]
	cmp	x23, #1, lsl #12
	b.ls	.LBB191_70
	mov	x0, x22
	mov	x1, xzr
	mov	x2, x23
	bl	"std_alloc::vec::opened::drop_run::<#e5da5d668adfa5c1>"
	cbz	x26, .LBB191_62
	mov	x0, x22
	bl	rattle_dealloc
.LBB191_62:
	cbz	w25, .LBB191_79
	add	x0, sp, #160
	stp	x24, x19, [sp, #160]
	str	x20, [sp, #176]
	bl	"std_alloc::vec::Vec::drop::<#12439024a2e4f779>"
	mov	w19, #2
	b	.LBB191_77
.LBB191_64:
	cbz	w25, .LBB191_76
	cbz	x19, .LBB191_74
	add	x21, x24, #16
	b	.LBB191_68
.LBB191_67:
	subs	x19, x19, #1
	add	x21, x21, #24
	b.eq	.LBB191_74
.LBB191_68:
	ldr	x8, [x21]
	cbz	x8, .LBB191_67
	ldur	x0, [x21, #-16]
	bl	rattle_dealloc
	b	.LBB191_67
.LBB191_70:
	ldp	x6, x7, [x29, #96]
	add	x8, x21, x28
	tbz	w25, #0, .LBB191_80
	ldp	x2, x1, [sp, #40]
	sub	x0, x29, #144
	sub	x3, x29, #168
	mov	x4, x24
	mov	x5, x19
	stp	x22, x23, [x29, #-168]
	stur	x26, [x29, #-152]
	stp	x8, x27, [sp]
	bl	"ct_step::stepping::step_reply"
	add	x0, sp, #136
	stp	x24, x19, [sp, #136]
	str	x20, [sp, #152]
	bl	"std_alloc::vec::Vec::drop::<#12439024a2e4f779>"
	ldurb	w8, [x29, #-144]
	cbnz	w8, .LBB191_54
	ldurb	w8, [x29, #-136]
	cbz	w8, .LBB191_90
	ldurb	w19, [x29, #-135]
	b	.LBB191_77
.LBB191_74:
	cbz	x20, .LBB191_76
	mov	x0, x24
	bl	rattle_dealloc
.LBB191_76:
	mov	w19, wzr
.LBB191_77:
	and	x8, x19, #0xff
	adrp	x9, .Lswitch.table.wagtenib_step
	add	x9, x9, :lo12:.Lswitch.table.wagtenib_step
	ldr	w0, [x9, x8, lsl #2]
.LBB191_78:
	ldp	x20, x19, [sp, #432]
	ldp	x22, x21, [sp, #416]
	ldp	x24, x23, [sp, #400]
	ldp	x26, x25, [sp, #384]
	ldp	x28, x27, [sp, #368]
	ldp	x29, x30, [sp, #352]
	add	sp, sp, #448
	ret
.LBB191_79:
	mov	w19, #2
	b	.LBB191_77
.LBB191_80:
	mov	x0, x8
	mov	x1, x27
	mov	x2, x6
	mov	x3, x7
	bl	"ct_step::stepping::edge_refusal"
	mov	w19, w0
	add	x0, sp, #112
	stp	x22, x23, [sp, #112]
	str	x26, [sp, #128]
	bl	"std_alloc::vec::Vec::drop::<#719f27dfc7bdb6c0>"
	b	.LBB191_77
.LBB191_81:
	cbz	x22, .LBB191_83
	mov	x0, x25
	bl	rattle_dealloc
.LBB191_83:
	ldp	x19, x20, [x29, #-48]
	ldur	x21, [x29, #-32]
	cbz	x20, .LBB191_88
	add	x22, x19, #16
	b	.LBB191_86
.LBB191_85:
	subs	x20, x20, #1
	add	x22, x22, #24
	b.eq	.LBB191_88
.LBB191_86:
	ldr	x8, [x22]
	cbz	x8, .LBB191_85
	ldur	x0, [x22, #-16]
	bl	rattle_dealloc
	b	.LBB191_85
.LBB191_88:
	cbz	x21, .LBB191_54
	mov	x0, x19
	b	.LBB191_53
.LBB191_90:
	ldp	x19, x2, [x29, #-128]
	ldur	x20, [x29, #-112]
	ldp	x8, x9, [x29, #120]
	cmp	x8, x2
	str	x2, [x9]
	b.hs	.LBB191_92
	mov	w0, #9
	b	.LBB191_100
.LBB191_92:
	ldp	x13, x12, [sp, #24]
	add	x0, x12, x13
	sub	x8, x0, x19
	cmp	x8, x2
	b.hs	.LBB191_98
	cmp	x2, #8
	b.lo	.LBB191_95
	add	x8, x13, x12
	sub	x8, x8, x19
	cmp	x8, #32
	b.hs	.LBB191_102
.LBB191_95:
	mov	x8, xzr
.LBB191_96:
	add	x10, x13, x8
	sub	x9, x2, x8
	add	x8, x19, x8
	add	x10, x12, x10
.LBB191_97:
	ldrb	w11, [x8], #1
	subs	x9, x9, #1
	strb	w11, [x10], #1
	b.ne	.LBB191_97
	b	.LBB191_99
.LBB191_98:
	mov	x1, x19
	bl	memmove
.LBB191_99:
	mov	w0, wzr
.LBB191_100:
	cbz	x20, .LBB191_78
	mov	w20, w0
	mov	x0, x19
	bl	rattle_dealloc
	mov	w0, w20
	b	.LBB191_78
.LBB191_102:
	cmp	x2, #32
	b.hs	.LBB191_104
	mov	x8, xzr
	b	.LBB191_108
.LBB191_104:
	add	x11, x13, x12
	and	x9, x2, #0x18
	and	x8, x2, #0xffffffffffffffe0
	add	x10, x19, #16
	add	x11, x11, #16
	and	x12, x2, #0xffffffffffffffe0
.LBB191_105:
	ldp	q0, q1, [x10, #-16]
	subs	x12, x12, #32
	add	x10, x10, #32
	stp	q0, q1, [x11, #-16]
	add	x11, x11, #32
	b.ne	.LBB191_105
	cmp	x2, x8
	b.eq	.LBB191_99
	ldp	x13, x12, [sp, #24]
	cbz	x9, .LBB191_96
.LBB191_108:
	mov	x10, x8
	and	x8, x2, #0xfffffffffffffff8
	add	x11, x13, x10
	sub	x9, x10, x8
	add	x10, x19, x10
	add	x11, x12, x11
.LBB191_109:
	ldr	d0, [x10], #8
	adds	x9, x9, #8
	str	d0, [x11], #8
	b.ne	.LBB191_109
	cmp	x2, x8
	b.eq	.LBB191_99
	b	.LBB191_96
.Lfunc_end191:
	.size	wagtenib_step, .Lfunc_end191-wagtenib_step
	.section	.text.unlikely.wagtenib_step_begin,"ax",@progbits
	.globl	wagtenib_step_begin
	.p2align	2
	.type	wagtenib_step_begin,@function
wagtenib_step_begin:
	mov	w8, #4096
	cmp	x1, #0
	csel	x8, x8, xzr, eq
	add	x1, x1, x8
	b	"libwagtenib::step::wagtenib_step_begin"
.Lfunc_end192:
	.size	wagtenib_step_begin, .Lfunc_end192-wagtenib_step_begin
	.section	.text.wagtenib_step_claim,"ax",@progbits
	.globl	wagtenib_step_claim
	.p2align	2
	.type	wagtenib_step_claim,@function
wagtenib_step_claim:
	stp	x29, x30, [sp, #-96]!
	stp	x28, x27, [sp, #16]
	mov	x29, sp
	stp	x26, x25, [sp, #32]
	stp	x24, x23, [sp, #48]
	stp	x22, x21, [sp, #64]
	stp	x20, x19, [sp, #80]
	sub	sp, sp, #448
	cmp	x0, #0
	mov	w8, #4096
	movi	v0.2d, #0000000000000000
	csel	x21, x8, xzr, eq
	cmp	x4, #0
	ldr	x28, [x29, #96]
	csel	x19, x8, xzr, eq
	cmp	x6, #0
	mov	x26, x0
	csel	x9, x8, xzr, eq
	mov	x23, x2
	mov	x27, x1
	cmp	x28, #0
	add	x0, sp, #64
	add	x1, x6, x9
	mov	x2, x7
	mov	x22, x5
	mov	x24, x4
	mov	x25, x3
	str	xzr, [sp, #96]
	csel	x20, x8, xzr, eq
	stp	q0, q0, [sp, #64]
	bl	"ct_step::reading::batch_of"
	ldrb	w8, [sp, #64]
	cbz	w8, .LBB193_2
.LBB193_1:
	mov	w0, #8
	b	.LBB193_22
.LBB193_2:
	ldrb	w8, [sp, #72]
	cmp	w8, #1
	b.ne	.LBB193_21
	ldp	x8, x2, [sp, #80]
	ldr	x9, [sp, #96]
	str	x20, [sp, #16]
	mov	w20, wzr
	str	x8, [sp, #56]
	mov	w8, #1
	stp	wzr, w8, [sp, #32]
	cbz	x2, .LBB193_10
	str	x9, [sp, #24]
	mov	x9, xzr
	cmp	x2, #1
	str	xzr, [sp, #40]
	str	w8, [sp, #52]
	b.ne	.LBB193_12
	movi	v0.2d, #0000000000000000
	str	x2, [sp, #8]
	add	x0, sp, #112
	add	x1, x26, x21
	mov	x2, x27
	str	xzr, [sp, #256]
	stp	q0, q0, [sp, #128]
	stp	q0, q0, [sp, #160]
	stp	q0, q0, [sp, #192]
	stp	q0, q0, [sp, #224]
	str	q0, [sp, #112]
	bl	"ct_step::line::StateLine::read"
	ldrb	w8, [sp, #112]
	cmp	w8, #1
	b.ne	.LBB193_11
	ldur	q0, [sp, #136]
	ldur	q1, [sp, #152]
	lsr	x8, x23, #40
	ldur	q2, [sp, #120]
	ldr	x26, [sp, #120]
	ldr	x2, [sp, #8]
	stp	q0, q1, [x29, #-160]
	movi	v0.2d, #0000000000000000
	stur	q2, [x29, #-176]
	stp	q0, q0, [x29, #-128]
	cbz	x8, .LBB193_36
.LBB193_7:
	mov	w8, #10
	mov	w20, wzr
	str	xzr, [sp, #40]
	mov	x9, xzr
	str	w8, [sp, #32]
	mov	w10, #1
.LBB193_8:
	mov	w8, #1
	str	w8, [sp, #36]
.LBB193_9:
	str	w10, [sp, #52]
	b	.LBB193_12
.LBB193_10:
	ldr	x19, [sp, #56]
	str	xzr, [sp, #40]
	mov	w21, #1
	cbnz	x9, .LBB193_13
	b	.LBB193_14
.LBB193_11:
	mov	w8, #1
	ldr	x2, [sp, #8]
	mov	w20, wzr
	str	xzr, [sp, #40]
	mov	x9, xzr
	str	w8, [sp, #52]
	stp	w8, w8, [sp, #32]
.LBB193_12:
	ldr	x19, [sp, #56]
	mov	x1, xzr
	mov	x21, x9
	mov	x0, x19
	bl	"std_alloc::vec::opened::drop_run::<#e5da5d668adfa5c1>"
	mov	x2, x21
	ldr	x9, [sp, #24]
	ldr	w21, [sp, #52]
	cbz	x9, .LBB193_14
.LBB193_13:
	mov	x0, x19
	mov	x19, x2
	bl	rattle_dealloc
	mov	x2, x19
.LBB193_14:
	cbz	w21, .LBB193_1
	cbz	w20, .LBB193_18
	ldp	x8, x9, [x29, #104]
	cmp	x8, x2
	str	x2, [x9]
	b.hs	.LBB193_23
	ldr	x20, [sp, #40]
	mov	w0, #9
	b	.LBB193_32
.LBB193_18:
	ldr	w8, [sp, #32]
	cbz	w8, .LBB193_21
	cmp	w8, #1
	b.ne	.LBB193_29
	mov	w0, #36
	b	.LBB193_22
.LBB193_21:
	mov	w0, #55
.LBB193_22:
	add	sp, sp, #448
	ldp	x20, x19, [sp, #80]
	ldp	x22, x21, [sp, #64]
	ldp	x24, x23, [sp, #48]
	ldp	x26, x25, [sp, #32]
	ldp	x28, x27, [sp, #16]
	ldp	x29, x30, [sp], #96
	ret
.LBB193_23:
	ldr	x13, [sp, #16]
	ldr	x20, [sp, #40]
	add	x0, x28, x13
	sub	x8, x0, x20
	cmp	x8, x2
	b.hs	.LBB193_30
	cmp	x2, #8
	b.lo	.LBB193_26
	add	x8, x13, x28
	sub	x8, x8, x20
	cmp	x8, #32
	b.hs	.LBB193_34
.LBB193_26:
	mov	x8, xzr
.LBB193_27:
	add	x10, x13, x8
	sub	x9, x2, x8
	add	x8, x20, x8
	add	x10, x28, x10
.LBB193_28:
	ldrb	w11, [x8], #1
	subs	x9, x9, #1
	strb	w11, [x10], #1
	b.ne	.LBB193_28
	b	.LBB193_31
.LBB193_29:
	mov	w0, #54
	b	.LBB193_22
.LBB193_30:
	mov	x1, x20
	bl	memmove
.LBB193_31:
	mov	w0, wzr
.LBB193_32:
	ldr	w8, [sp, #36]
	tbnz	w8, #0, .LBB193_22
	mov	w19, w0
	mov	x0, x20
	bl	rattle_dealloc
	mov	w0, w19
	b	.LBB193_22
.LBB193_34:
	cmp	x2, #32
	b.hs	.LBB193_39
	mov	x8, xzr
	b	.LBB193_43
.LBB193_36:
	mov	x8, #5497558138880
	ldr	x1, [sp, #56]
	sub	x0, x29, #128
	orr	x8, x23, x8
	sub	x3, x29, #88
	mov	x2, x25
	rev	x8, x8
	stur	x8, [x29, #-88]
	bl	"ct_codec::signing::certificate_timestamp_signature_input_with_extensions::<#8ca9ace9f4c467fd>"
	ldurb	w8, [x29, #-128]
	cbz	w8, .LBB193_46
	ldurb	w8, [x29, #-127]
	ldr	x2, [sp, #8]
	cbnz	w8, .LBB193_7
	mov	w10, wzr
	mov	x9, xzr
	mov	w20, #1
	str	wzr, [sp, #32]
	str	xzr, [sp, #40]
	b	.LBB193_8
.LBB193_39:
	add	x11, x13, x28
	and	x9, x2, #0x18
	and	x8, x2, #0xffffffffffffffe0
	add	x10, x20, #16
	add	x11, x11, #16
	and	x12, x2, #0xffffffffffffffe0
.LBB193_40:
	ldp	q0, q1, [x10, #-16]
	subs	x12, x12, #32
	add	x10, x10, #32
	stp	q0, q1, [x11, #-16]
	add	x11, x11, #32
	b.ne	.LBB193_40
	cmp	x2, x8
	b.eq	.LBB193_31
	cbz	x9, .LBB193_27
.LBB193_43:
	mov	x10, x8
	and	x8, x2, #0xfffffffffffffff8
	add	x11, x13, x10
	sub	x9, x10, x8
	add	x10, x20, x10
	add	x11, x28, x11
.LBB193_44:
	ldr	d0, [x10], #8
	adds	x9, x9, #8
	str	d0, [x11], #8
	b.ne	.LBB193_44
	cmp	x2, x8
	b.eq	.LBB193_31
	b	.LBB193_27
.LBB193_46:
	movi	v0.2d, #0000000000000000
	ldp	x10, x25, [x29, #-120]
	adrp	x8, .Lstatic.7
	add	x8, x8, :lo12:.Lstatic.7
	mov	w9, #1
	ldur	x20, [x29, #-104]
	sub	x0, x29, #48
	sub	x1, x29, #80
	mov	w2, #2
	stp	x8, x9, [x29, #-80]
	sub	x21, x29, #176
	str	x10, [sp, #40]
	stp	x10, x25, [x29, #-64]
	stp	q0, q0, [x29, #-48]
	bl	"ct_tree::hash::Sha256HashNodeHash::hash"
	sub	x0, x29, #48
	add	x3, x24, x19
	add	x5, x21, #16
	mov	x1, x23
	mov	x2, x26
	mov	x4, x22
	bl	"ct_verify::inclusion::verify_inclusion::<#0f46d2847b2ce1ce>"
	tst	w0, #0xff
	b.eq	.LBB193_49
	ldr	x2, [sp, #8]
	cbz	x20, .LBB193_7
	ldr	x0, [sp, #40]
	bl	rattle_dealloc
	ldr	x2, [sp, #8]
	b	.LBB193_7
.LBB193_49:
	cmp	x20, #0
	ldr	x2, [sp, #8]
	mov	w10, #1
	cset	w8, eq
	mov	w20, #1
	mov	x9, x25
	stp	wzr, w8, [sp, #32]
	b	.LBB193_9
.Lfunc_end193:
	.size	wagtenib_step_claim, .Lfunc_end193-wagtenib_step_claim
	.section	.text.wagtenib_step_needs,"ax",@progbits
	.globl	wagtenib_step_needs
	.p2align	2
	.type	wagtenib_step_needs,@function
wagtenib_step_needs:
	sub	sp, sp, #384
	movi	v0.2d, #0000000000000000
	cmp	x0, #0
	mov	w9, #4096
	stp	x20, x19, [sp, #368]
	mov	x19, x2
	mov	x8, x0
	csel	x10, x9, xzr, eq
	mov	x2, x1
	cmp	x19, #0
	add	x0, sp, #32
	add	x1, x8, x10
	stp	x29, x30, [sp, #288]
	stp	x28, x27, [sp, #304]
	add	x29, sp, #288
	stp	x26, x25, [sp, #320]
	csel	x26, x9, xzr, eq
	stp	x24, x23, [sp, #336]
	stp	x22, x21, [sp, #352]
	mov	x21, x4
	mov	x22, x3
	str	xzr, [sp, #176]
	stp	q0, q0, [sp, #48]
	stp	q0, q0, [sp, #80]
	stp	q0, q0, [sp, #112]
	stp	q0, q0, [sp, #144]
	str	q0, [sp, #32]
	bl	"ct_step::line::StateLine::read"
	ldrb	w8, [sp, #32]
	cmp	w8, #1
	b.ne	.LBB194_5
	ldr	x28, [sp, #40]
	sub	x25, x29, #16
	stp	xzr, xzr, [x29, #-88]
	stur	x25, [x29, #-96]
	lsr	x24, x28, #8
	ands	x23, x28, #0xff
	stp	xzr, xzr, [x29, #-72]
	stur	xzr, [x29, #-56]
	b.eq	.LBB194_6
	movi	v0.2d, #0000000000000000
	sub	x0, x29, #48
	sub	x1, x29, #72
	stur	x24, [x29, #-64]
	sturh	w23, [x29, #-56]
	stp	q0, q0, [x29, #-48]
	bl	"ct_data_tiles::name_writing::written"
	ldurb	w8, [x29, #-48]
	cbnz	w8, .LBB194_44
	ldp	x27, x20, [x29, #-40]
	sub	x0, x29, #96
	str	x22, [sp, #24]
	ldur	x22, [x29, #-24]
	bl	"std_alloc::vec::Vec::grow_amortized::<#c2ea2623f4a99793>"
	cbz	w0, .LBB194_42
	ldp	x25, x8, [x29, #-96]
	mov	w9, #24
	madd	x9, x8, x9, x25
	str	x22, [x9, #16]
	ldr	x22, [sp, #24]
	stp	x27, x20, [x9]
	add	x27, x8, #1
	stur	x27, [x29, #-88]
	b	.LBB194_7
.LBB194_5:
	mov	w0, #36
	b	.LBB194_52
.LBB194_6:
	mov	x27, xzr
.LBB194_7:
	ubfx	x8, x28, #8, #8
	stp	xzr, xzr, [x29, #-72]
	stur	xzr, [x29, #-56]
	cbz	x8, .LBB194_11
	movi	v0.2d, #0000000000000000
	lsr	x9, x28, #16
	mov	w10, #1
	sub	x0, x29, #48
	sub	x1, x29, #72
	sturh	w8, [x29, #-56]
	sturb	w10, [x29, #-71]
	stur	x9, [x29, #-64]
	stp	q0, q0, [x29, #-48]
	bl	"ct_data_tiles::name_writing::written"
	ldurb	w8, [x29, #-48]
	cbnz	w8, .LBB194_44
	ldur	x8, [x29, #-80]
	ldp	x9, x20, [x29, #-40]
	ldur	x10, [x29, #-24]
	cmp	x8, x27
	b.eq	.LBB194_53
.LBB194_10:
	mov	w8, #24
	madd	x8, x27, x8, x25
	add	x27, x27, #1
	stp	x9, x20, [x8]
	str	x10, [x8, #16]
	stur	x27, [x29, #-88]
.LBB194_11:
	ubfx	x8, x28, #16, #8
	stp	xzr, xzr, [x29, #-72]
	stur	xzr, [x29, #-56]
	cbz	x8, .LBB194_15
	movi	v0.2d, #0000000000000000
	lsr	x9, x28, #24
	mov	w10, #2
	sub	x0, x29, #48
	sub	x1, x29, #72
	sturh	w8, [x29, #-56]
	sturb	w10, [x29, #-71]
	stur	x9, [x29, #-64]
	stp	q0, q0, [x29, #-48]
	bl	"ct_data_tiles::name_writing::written"
	ldurb	w8, [x29, #-48]
	cbnz	w8, .LBB194_44
	ldur	x8, [x29, #-80]
	ldp	x9, x20, [x29, #-40]
	ldur	x10, [x29, #-24]
	cmp	x8, x27
	b.eq	.LBB194_56
.LBB194_14:
	mov	w8, #24
	madd	x8, x27, x8, x25
	add	x27, x27, #1
	stp	x9, x20, [x8]
	str	x10, [x8, #16]
	stur	x27, [x29, #-88]
.LBB194_15:
	lsr	w8, w28, #24
	stp	xzr, xzr, [x29, #-72]
	stur	xzr, [x29, #-56]
	cbz	x8, .LBB194_19
	movi	v0.2d, #0000000000000000
	lsr	x9, x28, #32
	mov	w10, #3
	sub	x0, x29, #48
	sub	x1, x29, #72
	sturh	w8, [x29, #-56]
	sturb	w10, [x29, #-71]
	stur	x9, [x29, #-64]
	stp	q0, q0, [x29, #-48]
	bl	"ct_data_tiles::name_writing::written"
	ldurb	w8, [x29, #-48]
	cbnz	w8, .LBB194_44
	ldur	x8, [x29, #-80]
	ldp	x9, x20, [x29, #-40]
	ldur	x10, [x29, #-24]
	cmp	x8, x27
	b.eq	.LBB194_97
.LBB194_18:
	mov	w8, #24
	madd	x8, x27, x8, x25
	add	x27, x27, #1
	stp	x9, x20, [x8]
	str	x10, [x8, #16]
	stur	x27, [x29, #-88]
.LBB194_19:
	ubfx	x8, x28, #32, #8
	stp	xzr, xzr, [x29, #-72]
	stur	xzr, [x29, #-56]
	cbz	x8, .LBB194_23
	movi	v0.2d, #0000000000000000
	lsr	x9, x28, #40
	mov	w10, #4
	sub	x0, x29, #48
	sub	x1, x29, #72
	sturh	w8, [x29, #-56]
	sturb	w10, [x29, #-71]
	stur	x9, [x29, #-64]
	stp	q0, q0, [x29, #-48]
	bl	"ct_data_tiles::name_writing::written"
	ldurb	w8, [x29, #-48]
	cbnz	w8, .LBB194_44
	ldur	x8, [x29, #-80]
	ldp	x9, x20, [x29, #-40]
	ldur	x10, [x29, #-24]
	cmp	x8, x27
	b.eq	.LBB194_105
.LBB194_22:
	mov	w8, #24
	madd	x8, x27, x8, x25
	add	x27, x27, #1
	stp	x9, x20, [x8]
	str	x10, [x8, #16]
	stur	x27, [x29, #-88]
.LBB194_23:
	ubfx	x8, x28, #40, #8
	stp	xzr, xzr, [x29, #-72]
	stur	xzr, [x29, #-56]
	cbz	x8, .LBB194_27
	movi	v0.2d, #0000000000000000
	lsr	x9, x28, #48
	mov	w10, #5
	sub	x0, x29, #48
	sub	x1, x29, #72
	sturh	w8, [x29, #-56]
	sturb	w10, [x29, #-71]
	stur	x9, [x29, #-64]
	stp	q0, q0, [x29, #-48]
	bl	"ct_data_tiles::name_writing::written"
	ldurb	w8, [x29, #-48]
	cbnz	w8, .LBB194_44
	ldur	x8, [x29, #-80]
	ldp	x9, x20, [x29, #-40]
	ldur	x10, [x29, #-24]
	cmp	x8, x27
	b.eq	.LBB194_111
.LBB194_26:
	mov	w8, #24
	madd	x8, x27, x8, x25
	add	x27, x27, #1
	stp	x9, x20, [x8]
	str	x10, [x8, #16]
	stur	x27, [x29, #-88]
.LBB194_27:
	ubfx	x8, x28, #48, #8
	lsr	x28, x28, #56
	stp	xzr, xzr, [x29, #-72]
	stur	xzr, [x29, #-56]
	cbz	x8, .LBB194_31
	movi	v0.2d, #0000000000000000
	mov	w9, #6
	sub	x0, x29, #48
	sub	x1, x29, #72
	stur	x28, [x29, #-64]
	sturh	w8, [x29, #-56]
	sturb	w9, [x29, #-71]
	stp	q0, q0, [x29, #-48]
	bl	"ct_data_tiles::name_writing::written"
	ldurb	w8, [x29, #-48]
	cbnz	w8, .LBB194_44
	ldur	x8, [x29, #-80]
	ldp	x9, x20, [x29, #-40]
	ldur	x10, [x29, #-24]
	cmp	x8, x27
	b.eq	.LBB194_116
.LBB194_30:
	mov	w8, #24
	madd	x8, x27, x8, x25
	add	x27, x27, #1
	stp	x9, x20, [x8]
	str	x10, [x8, #16]
	stur	x27, [x29, #-88]
.LBB194_31:
	stp	xzr, xzr, [x29, #-72]
	stur	xzr, [x29, #-56]
	cbz	x28, .LBB194_35
	movi	v0.2d, #0000000000000000
	mov	w8, #7
	sub	x0, x29, #48
	sub	x1, x29, #72
	sturh	w28, [x29, #-56]
	sturb	w8, [x29, #-71]
	stp	q0, q0, [x29, #-48]
	bl	"ct_data_tiles::name_writing::written"
	ldurb	w8, [x29, #-48]
	cbnz	w8, .LBB194_44
	ldur	x8, [x29, #-80]
	ldp	x28, x20, [x29, #-40]
	ldur	x9, [x29, #-24]
	cmp	x8, x27
	b.eq	.LBB194_119
.LBB194_34:
	mov	w8, #24
	madd	x8, x27, x8, x25
	add	x27, x27, #1
	stp	x28, x20, [x8]
	str	x9, [x8, #16]
	stur	x27, [x29, #-88]
.LBB194_35:
	stp	xzr, xzr, [x29, #-72]
	stur	xzr, [x29, #-56]
	cbz	x23, .LBB194_55
	movi	v0.2d, #0000000000000000
	mov	w8, #1
	sub	x0, x29, #48
	sub	x1, x29, #72
	stur	x24, [x29, #-64]
	sturh	w23, [x29, #-56]
	sturb	w8, [x29, #-72]
	stp	q0, q0, [x29, #-48]
	bl	"ct_data_tiles::name_writing::written"
	ldurb	w8, [x29, #-48]
	cbz	w8, .LBB194_58
.LBB194_37:
	ldp	x19, x20, [x29, #-96]
	ldur	x21, [x29, #-80]
	cbz	x20, .LBB194_49
	add	x22, x19, #16
	b	.LBB194_40
.LBB194_39:
	subs	x20, x20, #1
	add	x22, x22, #24
	b.eq	.LBB194_49
.LBB194_40:
	ldr	x8, [x22]
	cbz	x8, .LBB194_39
	ldur	x0, [x22, #-16]
	bl	rattle_dealloc
	b	.LBB194_39
.LBB194_42:
	mov	x0, x27
	cbz	x22, .LBB194_44
.LBB194_43:
	bl	rattle_dealloc
.LBB194_44:
	ldp	x19, x20, [x29, #-96]
	ldur	x21, [x29, #-80]
	cbz	x20, .LBB194_49
	add	x22, x19, #16
	b	.LBB194_47
.LBB194_46:
	subs	x20, x20, #1
	add	x22, x22, #24
	b.eq	.LBB194_49
.LBB194_47:
	ldr	x8, [x22]
	cbz	x8, .LBB194_46
	ldur	x0, [x22, #-16]
	bl	rattle_dealloc
	b	.LBB194_46
.LBB194_49:
	cbz	x21, .LBB194_51
	mov	x0, x19
	bl	rattle_dealloc
.LBB194_51:
	mov	w0, #8
.LBB194_52:
	ldp	x20, x19, [sp, #368]
	ldp	x22, x21, [sp, #352]
	ldp	x24, x23, [sp, #336]
	ldp	x26, x25, [sp, #320]
	ldp	x28, x27, [sp, #304]
	ldp	x29, x30, [sp, #288]
	add	sp, sp, #384
	ret
.LBB194_53:
	sub	x0, x29, #96
	stp	x9, x10, [sp, #8]
	bl	"std_alloc::vec::Vec::grow_amortized::<#c2ea2623f4a99793>"
	cbz	w0, .LBB194_118
	ldp	x25, x27, [x29, #-96]
	ldp	x9, x10, [sp, #8]
	b	.LBB194_10
.LBB194_55:
	ldur	x8, [x29, #-96]
	str	x8, [sp, #16]
	b	.LBB194_60
.LBB194_56:
	sub	x0, x29, #96
	stp	x9, x10, [sp, #8]
	bl	"std_alloc::vec::Vec::grow_amortized::<#c2ea2623f4a99793>"
	cbz	w0, .LBB194_118
	ldp	x25, x27, [x29, #-96]
	ldp	x9, x10, [sp, #8]
	b	.LBB194_14
.LBB194_58:
	mov	x24, x22
	ldur	x8, [x29, #-80]
	ldur	x20, [x29, #-24]
	ldp	x22, x23, [x29, #-40]
	cmp	x8, x27
	b.eq	.LBB194_123
.LBB194_59:
	mov	w8, #24
	ldur	x9, [x29, #-96]
	madd	x8, x27, x8, x9
	add	x27, x27, #1
	str	x9, [sp, #16]
	stp	x22, x23, [x8]
	mov	x22, x24
	str	x20, [x8, #16]
.LBB194_60:
	ldur	x9, [x29, #-80]
	sub	x8, x29, #16
	str	x22, [sp, #24]
	stp	xzr, xzr, [x29, #-40]
	stur	x8, [x29, #-48]
	cbz	x27, .LBB194_91
	ldr	x20, [sp, #16]
	stp	x9, x26, [sp]
	mov	x24, xzr
	mov	x26, xzr
	mov	x28, xzr
	sub	x22, x29, #16
	b	.LBB194_64
.LBB194_62:
	add	x0, x22, x23
	mov	x2, x25
	bl	memmove
.LBB194_63:
	add	x28, x28, #1
	add	x24, x23, x25
	stur	x26, [x29, #-32]
	cmp	x28, x27
	stp	x22, x24, [x29, #-48]
	b.eq	.LBB194_85
.LBB194_64:
	mov	w8, #24
	sub	x9, x26, x24
	madd	x8, x28, x8, x20
	cmp	x9, #7
	ldp	x1, x25, [x8]
	b.ls	.LBB194_81
.LBB194_65:
	add	x23, x24, #8
	rev	x8, x25
	str	x8, [x22, x24]
	sub	x8, x26, x23
	stp	x23, x26, [x29, #-40]
	cmp	x25, x8
	b.hi	.LBB194_83
	add	x8, x22, x23
	sub	x8, x8, x1
	cmp	x8, x25
	b.hs	.LBB194_62
.LBB194_67:
	cmp	x25, #8
	b.lo	.LBB194_69
	add	x8, x23, x22
	sub	x8, x8, x1
	cmp	x8, #32
	b.hs	.LBB194_72
.LBB194_69:
	mov	x8, xzr
.LBB194_70:
	add	x10, x8, x23
	sub	x9, x25, x8
	add	x8, x1, x8
	add	x10, x22, x10
.LBB194_71:
	ldrb	w11, [x8], #1
	subs	x9, x9, #1
	strb	w11, [x10], #1
	b.ne	.LBB194_71
	b	.LBB194_63
.LBB194_72:
	cmp	x25, #32
	b.hs	.LBB194_74
	mov	x8, xzr
	b	.LBB194_78
.LBB194_74:
	add	x11, x22, x23
	and	x9, x25, #0x18
	and	x8, x25, #0xffffffffffffffe0
	add	x10, x1, #16
	add	x11, x11, #16
	and	x12, x25, #0xffffffffffffffe0
.LBB194_75:
	ldp	q0, q1, [x10, #-16]
	subs	x12, x12, #32
	add	x10, x10, #32
	stp	q0, q1, [x11, #-16]
	add	x11, x11, #32
	b.ne	.LBB194_75
	cmp	x25, x8
	b.eq	.LBB194_63
	cbz	x9, .LBB194_70
.LBB194_78:
	mov	x10, x8
	and	x8, x25, #0xfffffffffffffff8
	add	x11, x23, x10
	sub	x9, x10, x8
	add	x10, x1, x10
	add	x11, x22, x11
.LBB194_79:
	ldr	d0, [x10], #8
	adds	x9, x9, #8
	str	d0, [x11], #8
	b.ne	.LBB194_79
	cmp	x25, x8
	b.eq	.LBB194_63
	b	.LBB194_70
.LBB194_81:
	mov	x20, x1
	sub	x0, x29, #48
	mov	w1, #8
	bl	"std_alloc::vec::Vec::grow_amortized::<#573e96821fb25c99>"
	cbz	w0, .LBB194_113
	ldp	x24, x26, [x29, #-40]
	mov	x1, x20
	ldur	x22, [x29, #-48]
	ldr	x20, [sp, #16]
	b	.LBB194_65
.LBB194_83:
	mov	x20, x1
	sub	x0, x29, #48
	mov	x1, x25
	bl	"std_alloc::vec::Vec::grow_amortized::<#573e96821fb25c99>"
	cbz	w0, .LBB194_113
	ldp	x23, x26, [x29, #-40]
	mov	x1, x20
	ldur	x22, [x29, #-48]
	ldr	x20, [sp, #16]
	add	x8, x22, x23
	sub	x8, x8, x1
	cmp	x8, x25
	b.hs	.LBB194_62
	b	.LBB194_67
.LBB194_85:
	cmp	x26, #0
	ldr	x26, [sp, #8]
	mov	w23, #1
	cset	w25, eq
.LBB194_86:
	add	x20, x20, #16
	b	.LBB194_88
.LBB194_87:
	subs	x27, x27, #1
	add	x20, x20, #24
	b.eq	.LBB194_90
.LBB194_88:
	ldr	x8, [x20]
	cbz	x8, .LBB194_87
	ldur	x0, [x20, #-16]
	bl	rattle_dealloc
	b	.LBB194_87
.LBB194_90:
	ldr	x0, [sp, #16]
	ldr	x9, [sp]
	b	.LBB194_92
.LBB194_91:
	ldr	x0, [sp, #16]
	mov	x24, xzr
	sub	x22, x29, #16
	mov	w23, #1
	mov	w25, #1
.LBB194_92:
	cbz	x9, .LBB194_94
	bl	rattle_dealloc
.LBB194_94:
	cbz	w23, .LBB194_51
	ldr	x8, [sp, #24]
	str	x24, [x21]
	cmp	x8, x24
	b.hs	.LBB194_99
	mov	w0, #9
	b	.LBB194_109
.LBB194_97:
	sub	x0, x29, #96
	stp	x9, x10, [sp, #8]
	bl	"std_alloc::vec::Vec::grow_amortized::<#c2ea2623f4a99793>"
	cbz	w0, .LBB194_118
	ldp	x25, x27, [x29, #-96]
	ldp	x9, x10, [sp, #8]
	b	.LBB194_18
.LBB194_99:
	add	x0, x19, x26
	sub	x8, x0, x22
	cmp	x8, x24
	b.hs	.LBB194_107
	cmp	x24, #8
	b.lo	.LBB194_102
	add	x8, x26, x19
	sub	x8, x8, x22
	cmp	x8, #32
	b.hs	.LBB194_121
.LBB194_102:
	mov	x8, xzr
.LBB194_103:
	add	x10, x26, x8
	sub	x9, x24, x8
	add	x8, x22, x8
	add	x10, x19, x10
.LBB194_104:
	ldrb	w11, [x8], #1
	subs	x9, x9, #1
	strb	w11, [x10], #1
	b.ne	.LBB194_104
	b	.LBB194_108
.LBB194_105:
	sub	x0, x29, #96
	stp	x9, x10, [sp, #8]
	bl	"std_alloc::vec::Vec::grow_amortized::<#c2ea2623f4a99793>"
	cbz	w0, .LBB194_118
	ldp	x25, x27, [x29, #-96]
	ldp	x9, x10, [sp, #8]
	b	.LBB194_22
.LBB194_107:
	mov	x1, x22
	mov	x2, x24
	bl	memmove
.LBB194_108:
	mov	w0, wzr
.LBB194_109:
	tbnz	w25, #0, .LBB194_52
	mov	w19, w0
	mov	x0, x22
	bl	rattle_dealloc
	mov	w0, w19
	b	.LBB194_52
.LBB194_111:
	sub	x0, x29, #96
	stp	x9, x10, [sp, #8]
	bl	"std_alloc::vec::Vec::grow_amortized::<#c2ea2623f4a99793>"
	cbz	w0, .LBB194_118
	ldp	x25, x27, [x29, #-96]
	ldp	x9, x10, [sp, #8]
	b	.LBB194_26
.LBB194_113:
	ldur	x8, [x29, #-32]
	cbz	x8, .LBB194_115
	ldur	x0, [x29, #-48]
	bl	rattle_dealloc
.LBB194_115:
	ldp	x26, x20, [sp, #8]
	mov	w23, wzr
	mov	x24, xzr
	mov	x22, xzr
	mov	w25, #1
	b	.LBB194_86
.LBB194_116:
	sub	x0, x29, #96
	stp	x9, x10, [sp, #8]
	bl	"std_alloc::vec::Vec::grow_amortized::<#c2ea2623f4a99793>"
	cbz	w0, .LBB194_118
	ldp	x25, x27, [x29, #-96]
	ldp	x9, x10, [sp, #8]
	b	.LBB194_30
.LBB194_118:
	ldp	x0, x22, [sp, #8]
	cbnz	x22, .LBB194_43
	b	.LBB194_44
.LBB194_119:
	sub	x0, x29, #96
	str	x9, [sp, #16]
	bl	"std_alloc::vec::Vec::grow_amortized::<#c2ea2623f4a99793>"
	cbz	w0, .LBB194_125
	ldp	x25, x27, [x29, #-96]
	ldr	x9, [sp, #16]
	b	.LBB194_34
.LBB194_121:
	cmp	x24, #32
	b.hs	.LBB194_126
	mov	x8, xzr
	b	.LBB194_130
.LBB194_123:
	sub	x0, x29, #96
	bl	"std_alloc::vec::Vec::grow_amortized::<#c2ea2623f4a99793>"
	cbz	w0, .LBB194_133
	ldur	x27, [x29, #-88]
	b	.LBB194_59
.LBB194_125:
	ldr	x22, [sp, #16]
	mov	x0, x28
	cbnz	x22, .LBB194_43
	b	.LBB194_44
.LBB194_126:
	add	x11, x26, x19
	and	x9, x24, #0x18
	and	x8, x24, #0xffffffffffffffe0
	mov	x13, x26
	add	x10, x22, #16
	add	x11, x11, #16
	and	x12, x24, #0xffffffffffffffe0
.LBB194_127:
	ldp	q0, q1, [x10, #-16]
	subs	x12, x12, #32
	add	x10, x10, #32
	stp	q0, q1, [x11, #-16]
	add	x11, x11, #32
	b.ne	.LBB194_127
	cmp	x24, x8
	b.eq	.LBB194_108
	mov	x26, x13
	cbz	x9, .LBB194_103
.LBB194_130:
	mov	x10, x8
	and	x8, x24, #0xfffffffffffffff8
	add	x11, x26, x10
	sub	x9, x10, x8
	add	x10, x22, x10
	add	x11, x19, x11
.LBB194_131:
	ldr	d0, [x10], #8
	adds	x9, x9, #8
	str	d0, [x11], #8
	b.ne	.LBB194_131
	cmp	x24, x8
	b.eq	.LBB194_108
	b	.LBB194_103
.LBB194_133:
	cbz	x20, .LBB194_37
	mov	x0, x22
	bl	rattle_dealloc
	b	.LBB194_37
.Lfunc_end194:
	.size	wagtenib_step_needs, .Lfunc_end194-wagtenib_step_needs
	.section	.rodata.cst16,"aM",@progbits,16
	.p2align	4, 0x0
.LCPI195_0:
	.byte	1
	.byte	2
	.byte	4
	.byte	8
	.byte	16
	.byte	32
	.byte	64
	.byte	128
	.byte	1
	.byte	2
	.byte	4
	.byte	8
	.byte	16
	.byte	32
	.byte	64
	.byte	128
.LCPI195_1:
	.word	1779033703
	.word	3144134277
	.word	1013904242
	.word	2773480762
.LCPI195_2:
	.word	1359893119
	.word	2600822924
	.word	528734635
	.word	1541459225
	.section	.text.wagtenib_step_resume,"ax",@progbits
	.globl	wagtenib_step_resume
	.p2align	2
	.type	wagtenib_step_resume,@function
wagtenib_step_resume:
	stp	x29, x30, [sp, #-96]!
	stp	x28, x27, [sp, #16]
	mov	x29, sp
	stp	x26, x25, [sp, #32]
	stp	x24, x23, [sp, #48]
	stp	x22, x21, [sp, #64]
	stp	x20, x19, [sp, #80]
	sub	sp, sp, #592
	cmp	x0, #0
	mov	w9, #4096
	mov	x8, x0
	csel	x10, x9, xzr, eq
	cmp	x4, #0
	mov	x26, x2
	mov	x2, x1
	csel	x21, x9, xzr, eq
	cmp	x6, #0
	add	x0, sp, #24
	add	x1, x8, x10
	mov	x20, x7
	mov	x19, x6
	mov	x23, x5
	mov	x24, x4
	mov	x25, x3
	stp	xzr, xzr, [sp, #24]
	csel	x27, x9, xzr, eq
	str	xzr, [sp, #40]
	bl	"libwagtenib::step::origin_of"
	ldrb	w8, [sp, #24]
	cmp	w8, #1
	b.ne	.LBB195_4
	movi	v0.2d, #0000000000000000
	cmp	x26, #0
	mov	w8, #4096
	ldp	x9, x22, [sp, #32]
	csel	x8, x8, xzr, eq
	add	x28, sp, #48
	add	x0, sp, #48
	add	x1, x26, x8
	mov	x2, x25
	str	xzr, [sp, #192]
	stp	q0, q0, [x28, #112]
	stp	q0, q0, [sp, #64]
	stp	q0, q0, [sp, #96]
	stp	q0, q0, [sp, #128]
	str	x9, [sp, #16]
	str	q0, [sp, #48]
	bl	"ct_step::line::StateLine::read"
	ldrb	w8, [sp, #48]
	cmp	w8, #1
	b.ne	.LBB195_5
	ldur	q0, [x28, #104]
	ldur	q1, [x28, #120]
	add	x24, x24, x21
	ldur	q2, [x28, #136]
	sub	x0, x29, #128
	sub	x1, x29, #144
	stp	q0, q1, [x28, #256]
	ldur	q0, [sp, #88]
	ldur	q1, [sp, #104]
	str	q2, [x28, #288]
	ldur	q2, [sp, #136]
	mov	w2, #1
	stp	q0, q1, [x28, #192]
	ldur	q0, [sp, #120]
	ldur	q1, [sp, #72]
	stp	x24, x23, [x29, #-144]
	stp	q0, q2, [x28, #224]
	ldur	q0, [sp, #56]
	stp	q0, q1, [x28, #160]
	movi	v0.2d, #0000000000000000
	stp	q0, q0, [x28, #336]
	stp	q0, q0, [x28, #368]
	stp	q0, q0, [x28, #416]
	bl	"ct_tree::hash::Sha256HashNodeHash::hash"
	ldp	q0, q1, [x28, #416]
	adrp	x8, .LCPI195_0
	ldp	q2, q3, [x28, #208]
	cmeq	v1.16b, v1.16b, v3.16b
	cmeq	v0.16b, v0.16b, v2.16b
	ldr	q2, [x8, :lo12:.LCPI195_0]
	bic	v1.16b, v2.16b, v1.16b
	bic	v0.16b, v2.16b, v0.16b
	ext	v2.16b, v1.16b, v1.16b, #8
	ext	v3.16b, v0.16b, v0.16b, #8
	zip1	v1.16b, v1.16b, v2.16b
	zip1	v0.16b, v0.16b, v3.16b
	addv	h1, v1.8h
	addv	h0, v0.8h
	fmov	w8, s1
	fmov	w9, s0
	orr	w8, w9, w8
	tst	w8, #0xffff
	b.eq	.LBB195_7
.LBB195_3:
	mov	w0, #53
	b	.LBB195_6
.LBB195_4:
	mov	w0, #10
	b	.LBB195_6
.LBB195_5:
	mov	w0, #36
.LBB195_6:
	add	sp, sp, #592
	ldp	x20, x19, [sp, #80]
	ldp	x22, x21, [sp, #64]
	ldp	x24, x23, [sp, #48]
	ldp	x26, x25, [sp, #32]
	ldp	x28, x27, [sp, #16]
	ldp	x29, x30, [sp], #96
	ret
.LBB195_7:
	cmp	x23, #2
	mov	x8, x23
	b.hs	.LBB195_11
.LBB195_8:
	cbnz	x8, .LBB195_3
	sub	x0, x29, #176
	mov	x1, x24
	mov	x2, x23
	bl	"ct_step::bundle::objects_of"
	ldurb	w8, [x29, #-176]
	cbz	w8, .LBB195_16
.LBB195_10:
	mov	w0, #8
	b	.LBB195_6
.LBB195_11:
	mov	x8, x23
	mov	x9, x24
.LBB195_12:
	ldrh	w10, [x9]
	sub	x8, x8, #2
	rev	w10, w10
	lsr	w10, w10, #16
	subs	x8, x8, x10
	b.lo	.LBB195_3
	subs	x8, x8, #4
	b.lo	.LBB195_3
	add	x9, x9, x10
	ldr	w10, [x9, #2]!
	rev	w10, w10
	subs	x8, x8, x10
	b.lo	.LBB195_3
	add	x9, x9, x10
	cmp	x8, #1
	add	x9, x9, #4
	b.hi	.LBB195_12
	b	.LBB195_8
.LBB195_16:
	ldp	x23, x24, [x29, #-168]
	ldur	x26, [x29, #-152]
	cbz	x24, .LBB195_20
	add	x21, x23, #8
	mov	x25, x24
.LBB195_18:
	movi	v0.2d, #0000000000000000
	ldp	x1, x2, [x21, #-8]
	sub	x0, x29, #128
	stp	q0, q0, [x28, #416]
	bl	"ct_data_tiles::tile::Tile::from_name"
	ldurb	w8, [x29, #-128]
	cbnz	w8, .LBB195_24
	subs	x25, x25, #1
	add	x21, x21, #32
	b.ne	.LBB195_18
.LBB195_20:
	movi	v0.2d, #0000000000000000
	adrp	x8, .LCPI195_1
	adrp	x9, .LCPI195_2
	ldr	q1, [x8, :lo12:.LCPI195_1]
	ldr	q2, [x9, :lo12:.LCPI195_2]
	adrp	x1, .Lstatic.5
	add	x1, x1, :lo12:.Lstatic.5
	sub	x0, x29, #128
	mov	w2, #56
	stur	xzr, [x29, #-32]
	stp	q1, q2, [x28, #416]
	stp	q0, q0, [x28, #448]
	stp	q0, q0, [x28, #480]
	bl	"sha2::block256::Core256::update"
	sub	x0, x29, #128
	sub	x1, x29, #176
	mov	w2, #8
	stur	xzr, [x29, #-176]
	bl	"sha2::block256::Core256::update"
	ldp	q0, q1, [x28, #416]
	adrp	x3, .Lstatic.2
	add	x3, x3, :lo12:.Lstatic.2
	sub	x0, x29, #208
	sub	x5, x29, #240
	mov	x1, x23
	mov	x2, x24
	mov	x4, xzr
	rev32	v0.16b, v0.16b
	rev32	v1.16b, v1.16b
	stp	q0, q1, [x28, #304]
	bl	"ct_step::places::places_of"
	ldurb	w8, [x29, #-208]
	cbnz	w8, .LBB195_27
	ldp	x8, x25, [x29, #-200]
	mov	w0, #50
	ldp	x21, x24, [sp, #208]
	mov	w1, #1
	stp	xzr, xzr, [x29, #-128]
	str	x8, [sp, #8]
	ldur	x8, [x29, #-184]
	stur	xzr, [x29, #-112]
	str	x8, [sp]
	bl	rattle_alloc
	tbz	w0, #0, .LBB195_29
	adrp	x8, .Lstatic.23
	add	x8, x8, :lo12:.Lstatic.23
	add	x9, sp, #208
	sub	x8, x1, x8
	rev	x10, x24
	cmp	x8, #1
	add	x8, x9, #16
	mov	w9, #256
	strh	w9, [x1]
	add	x9, x1, #18
	sub	x8, x9, x8
	stur	x10, [x1, #2]
	rev	x10, x21
	cmp	x8, #31
	stur	x10, [x1, #10]
	b.hi	.LBB195_30
	ldrb	w8, [sp, #224]
	ldur	w9, [x28, #177]
	strb	w8, [x1, #18]
	ldur	x8, [x28, #181]
	stur	w9, [x1, #19]
	ldur	x9, [x28, #189]
	stur	x8, [x1, #23]
	ldur	w8, [x28, #197]
	stur	x9, [x1, #31]
	ldur	w9, [x28, #201]
	stur	w8, [x1, #39]
	ldurh	w8, [x28, #205]
	stur	w9, [x1, #43]
	ldrb	w9, [sp, #255]
	sturh	w8, [x1, #47]
	strb	w9, [x1, #49]
	b	.LBB195_31
.LBB195_24:
	ldurb	w8, [x29, #-127]
	tbnz	w8, #0, .LBB195_27
	cbz	x26, .LBB195_3
	mov	x0, x23
	bl	rattle_dealloc
	b	.LBB195_3
.LBB195_27:
	cbz	x26, .LBB195_10
	mov	x0, x23
	bl	rattle_dealloc
	b	.LBB195_10
.LBB195_29:
	ldr	x28, [sp, #8]
	mov	x21, xzr
	mov	x22, xzr
	mov	w25, wzr
	mov	w24, #1
	b	.LBB195_36
.LBB195_30:
	ldur	q0, [sp, #72]
	ldur	q1, [sp, #88]
	stp	q0, q1, [x9]
.LBB195_31:
	mov	w8, #50
	stur	x1, [x29, #-128]
	sub	x0, x29, #128
	ldp	x28, x1, [sp, #8]
	dup	v0.2d, x8
	add	x3, sp, #208
	mov	x2, x22
	mov	x5, x25
	mov	x4, x28
	stur	q0, [x29, #-120]
	bl	"ct_step::replies::push_published"
	and	w8, w0, #0xff
	tbz	w8, #0, .LBB195_35
	ldur	x8, [x29, #-112]
	cbz	x8, .LBB195_34
	ldur	x0, [x29, #-128]
	bl	rattle_dealloc
.LBB195_34:
	mov	x21, xzr
	mov	x22, xzr
	mov	w25, wzr
	mov	w24, #1
	b	.LBB195_36
.LBB195_35:
	ldp	x22, x8, [x29, #-120]
	mov	w25, #1
	ldur	x21, [x29, #-128]
	cmp	x8, #0
	cset	w24, eq
.LBB195_36:
	ldr	x8, [sp]
	cbz	x8, .LBB195_38
	mov	x0, x28
	bl	rattle_dealloc
.LBB195_38:
	cbz	x26, .LBB195_40
	mov	x0, x23
	bl	rattle_dealloc
.LBB195_40:
	cbz	w25, .LBB195_10
	ldr	x8, [x29, #96]
	cmp	x20, x22
	str	x22, [x8]
	b.hs	.LBB195_43
	mov	w0, #9
	tbnz	w24, #0, .LBB195_6
	b	.LBB195_51
.LBB195_43:
	add	x0, x19, x27
	sub	x8, x0, x21
	cmp	x8, x22
	b.hs	.LBB195_49
	cmp	x22, #8
	b.lo	.LBB195_46
	add	x8, x27, x19
	sub	x8, x8, x21
	cmp	x8, #32
	b.hs	.LBB195_52
.LBB195_46:
	mov	x8, xzr
.LBB195_47:
	add	x10, x27, x8
	sub	x9, x22, x8
	add	x8, x21, x8
	add	x10, x19, x10
.LBB195_48:
	ldrb	w11, [x8], #1
	subs	x9, x9, #1
	strb	w11, [x10], #1
	b.ne	.LBB195_48
	b	.LBB195_50
.LBB195_49:
	mov	x1, x21
	mov	x2, x22
	bl	memmove
.LBB195_50:
	mov	w0, wzr
	tbnz	w24, #0, .LBB195_6
.LBB195_51:
	mov	w19, w0
	mov	x0, x21
	bl	rattle_dealloc
	mov	w0, w19
	b	.LBB195_6
.LBB195_52:
	mov	x13, x24
	cmp	x22, #32
	b.hs	.LBB195_54
	mov	x8, xzr
	b	.LBB195_59
.LBB195_54:
	add	x11, x27, x19
	and	x9, x22, #0x18
	and	x8, x22, #0xffffffffffffffe0
	add	x10, x21, #16
	add	x11, x11, #16
	and	x12, x22, #0xffffffffffffffe0
.LBB195_55:
	ldp	q0, q1, [x10, #-16]
	subs	x12, x12, #32
	add	x10, x10, #32
	stp	q0, q1, [x11, #-16]
	add	x11, x11, #32
	b.ne	.LBB195_55
	cmp	x22, x8
	b.ne	.LBB195_58
	mov	w0, wzr
	mov	x24, x13
	tbnz	w24, #0, .LBB195_6
	b	.LBB195_51
.LBB195_58:
	mov	x24, x13
	cbz	x9, .LBB195_47
.LBB195_59:
	mov	x10, x8
	and	x8, x22, #0xfffffffffffffff8
	add	x11, x27, x10
	sub	x9, x10, x8
	add	x10, x21, x10
	add	x11, x19, x11
.LBB195_60:
	ldr	d0, [x10], #8
	adds	x9, x9, #8
	str	d0, [x11], #8
	b.ne	.LBB195_60
	cmp	x22, x8
	mov	x24, x13
	b.eq	.LBB195_50
	b	.LBB195_47
.Lfunc_end195:
	.size	wagtenib_step_resume, .Lfunc_end195-wagtenib_step_resume
	.section	.text.wagtenib_witness_cosign,"ax",@progbits
	.globl	wagtenib_witness_cosign
	.p2align	2
	.type	wagtenib_witness_cosign,@function
wagtenib_witness_cosign:
	sub	sp, sp, #192
	stp	x29, x30, [sp, #96]
	add	x29, sp, #96
	movi	v0.2d, #0000000000000000
	stp	x24, x23, [sp, #144]
	mov	x24, x2
	mov	w9, #4096
	cmp	x0, #0
	stp	x26, x25, [sp, #128]
	ldr	x25, [x29, #96]
	csel	x10, x9, xzr, eq
	cmp	x2, #0
	mov	x8, x0
	csel	x26, x9, xzr, eq
	cmp	x5, #0
	stp	x28, x27, [sp, #112]
	mov	x2, x1
	csel	x27, x9, xzr, eq
	cmp	x25, #0
	add	x0, sp, #16
	add	x1, x8, x10
	stp	x22, x21, [sp, #160]
	stp	x20, x19, [sp, #176]
	mov	x19, x7
	mov	x20, x6
	mov	x23, x5
	mov	x21, x4
	mov	x22, x3
	stp	q0, q0, [sp, #32]
	csel	x28, x9, xzr, eq
	stp	q0, q0, [sp, #64]
	str	q0, [sp, #16]
	bl	"libwagtenib::message::read_message"
	ldrb	w8, [sp, #16]
	cbz	w8, .LBB196_2
	mov	w0, #8
	b	.LBB196_5
.LBB196_2:
	ldrb	w8, [sp, #24]
	cmp	w8, #1
	b.ne	.LBB196_4
	ldp	x9, x8, [x29, #104]
	add	x10, sp, #16
	add	x0, x10, #16
	add	x1, x24, x26
	add	x4, x23, x27
	add	x7, x25, x28
	mov	x2, x22
	mov	x3, x21
	mov	x5, x20
	mov	x6, x19
	stp	x9, x8, [sp]
	bl	"libwagtenib::witness::cosign_after"
	b	.LBB196_5
.LBB196_4:
	mov	w0, #36
.LBB196_5:
	ldp	x20, x19, [sp, #176]
	ldp	x22, x21, [sp, #160]
	ldp	x24, x23, [sp, #144]
	ldp	x26, x25, [sp, #128]
	ldp	x28, x27, [sp, #112]
	ldp	x29, x30, [sp, #96]
	add	sp, sp, #192
	ret
.Lfunc_end196:
	.size	wagtenib_witness_cosign, .Lfunc_end196-wagtenib_witness_cosign
	.section	.rodata.cst16,"aM",@progbits,16
	.p2align	4, 0x0
.LCPI197_0:
	.word	1779033703
	.word	3144134277
	.word	1013904242
	.word	2773480762
.LCPI197_1:
	.word	1359893119
	.word	2600822924
	.word	528734635
	.word	1541459225
	.section	.text.wagtenib_witness_first,"ax",@progbits
	.globl	wagtenib_witness_first
	.p2align	2
	.type	wagtenib_witness_first,@function
wagtenib_witness_first:
	sub	sp, sp, #272
	movi	v0.2d, #0000000000000000
	adrp	x8, .LCPI197_0
	stp	x29, x30, [sp, #176]
	add	x29, sp, #176
	ldr	q1, [x8, :lo12:.LCPI197_0]
	adrp	x8, .LCPI197_1
	stp	x28, x27, [sp, #192]
	cmp	x0, #0
	ldr	x28, [x29, #112]
	stp	x26, x25, [sp, #208]
	ldp	x27, x26, [x29, #96]
	stp	q0, q0, [sp, #96]
	mov	x25, x1
	adrp	x1, .Lstatic.5
	add	x1, x1, :lo12:.Lstatic.5
	stp	q0, q0, [sp, #128]
	ldr	q0, [x8, :lo12:.LCPI197_1]
	mov	w8, #4096
	stp	x20, x19, [sp, #256]
	csel	x9, x8, xzr, eq
	cmp	x2, #0
	stp	x24, x23, [sp, #224]
	csel	x19, x8, xzr, eq
	cmp	x5, #0
	stp	x22, x21, [sp, #240]
	mov	x24, x2
	csel	x20, x8, xzr, eq
	cmp	x27, #0
	add	x21, x0, x9
	add	x0, sp, #64
	mov	w2, #56
	stp	x6, x7, [sp, #40]
	mov	x23, x5
	csel	x22, x8, xzr, eq
	stp	x3, x4, [sp, #24]
	stp	q1, q0, [sp, #64]
	str	xzr, [sp, #160]
	bl	"sha2::block256::Core256::update"
	add	x0, sp, #64
	add	x1, sp, #56
	mov	w2, #8
	str	xzr, [sp, #56]
	bl	"sha2::block256::Core256::update"
	ldp	q0, q1, [sp, #64]
	add	x0, sp, #64
	ldp	x2, x3, [sp, #24]
	add	x1, x24, x19
	ldp	x5, x6, [sp, #40]
	add	x4, x23, x20
	rev32	v0.16b, v0.16b
	rev32	v1.16b, v1.16b
	add	x7, x27, x22
	stp	x21, x25, [sp, #64]
	str	xzr, [sp, #80]
	str	xzr, [sp, #120]
	stur	q0, [sp, #88]
	stur	q1, [sp, #104]
	stp	x26, x28, [sp]
	bl	"libwagtenib::witness::cosign_after"
	ldp	x20, x19, [sp, #256]
	ldp	x22, x21, [sp, #240]
	ldp	x24, x23, [sp, #224]
	ldp	x26, x25, [sp, #208]
	ldp	x28, x27, [sp, #192]
	ldp	x29, x30, [sp, #176]
	add	sp, sp, #272
	ret
.Lfunc_end197:
	.size	wagtenib_witness_first, .Lfunc_end197-wagtenib_witness_first
	.section	.text.wagtenib_watched_names,"ax",@progbits
	.globl	wagtenib_watched_names
	.p2align	2
	.type	wagtenib_watched_names,@function
wagtenib_watched_names:
	sub	sp, sp, #272
	cmp	x1, #0
	mov	w9, #4096
	stp	x24, x23, [sp, #224]
	csel	x23, x9, xzr, eq
	cmp	x3, #0
	stp	x28, x27, [sp, #192]
	csel	x8, x9, xzr, eq
	cmp	x5, #0
	stp	x22, x21, [sp, #240]
	stp	x20, x19, [sp, #256]
	mov	x20, x7
	mov	x21, x6
	mov	x19, x5
	mov	x22, x1
	mov	x24, x2
	csel	x27, x9, xzr, eq
	stp	x29, x30, [sp, #176]
	add	x29, sp, #176
	stp	x26, x25, [sp, #208]
	cbz	w0, .LBB198_3
	cmp	w0, #1
	b.ne	.LBB198_6
	mov	w25, #1
	b	.LBB198_4
.LBB198_3:
	mov	w25, wzr
.LBB198_4:
	movi	v0.2d, #0000000000000000
	sub	x0, x29, #80
	add	x1, x3, x8
	mov	x2, x4
	stur	xzr, [x29, #-48]
	stp	q0, q0, [x29, #-80]
	stp	q0, q0, [sp, #64]
	bl	"ct_names::name_lists::list_of"
	ldurb	w8, [x29, #-80]
	cbz	w8, .LBB198_7
.LBB198_5:
	mov	w0, #8
	b	.LBB198_14
.LBB198_6:
	mov	w0, #20
	b	.LBB198_14
.LBB198_7:
	ldurb	w8, [x29, #-72]
	cmp	w8, #1
	b.ne	.LBB198_13
	str	x20, [sp, #40]
	ldp	x28, x20, [x29, #-64]
	ldur	x26, [x29, #-48]
	add	x0, sp, #64
	add	x2, x22, x23
	mov	w1, w25
	mov	x3, x24
	bl	"ct_names::name_bytes::read_names"
	ldrb	w8, [sp, #64]
	cbz	w8, .LBB198_15
	ldrb	w20, [sp, #65]
	ldrh	w19, [sp, #66]
	cbz	x26, .LBB198_11
	mov	x0, x28
	bl	rattle_dealloc
.LBB198_11:
	cbnz	w20, .LBB198_5
	lsr	w9, w19, #8
	ldr	x8, [x29, #96]
	and	w10, w19, #0xff
	add	w10, w10, #1
	add	w0, w9, #80
	str	w10, [x8]
	b	.LBB198_14
.LBB198_13:
	mov	w0, #144
.LBB198_14:
	ldp	x20, x19, [sp, #256]
	ldp	x22, x21, [sp, #240]
	ldp	x24, x23, [sp, #224]
	ldp	x26, x25, [sp, #208]
	ldp	x28, x27, [sp, #192]
	ldp	x29, x30, [sp, #176]
	add	sp, sp, #272
	ret
.LBB198_15:
	ldr	x8, [sp, #72]
	sub	x24, x29, #9
	str	x26, [sp, #32]
	stp	xzr, xzr, [x29, #-32]
	str	x8, [sp, #56]
	ldr	x8, [sp, #80]
	stur	x24, [x29, #-40]
	str	x8, [sp, #48]
	ldr	x8, [sp, #88]
	cbz	x20, .LBB198_38
	mov	x22, xzr
	mov	x23, xzr
	add	x25, x28, #8
	sub	x26, x29, #9
	stp	x27, x8, [sp, #8]
	str	x28, [sp, #24]
	b	.LBB198_19
.LBB198_17:
	mov	w8, #2
	add	x22, x9, #1
	sub	w8, w8, w24
	strb	w8, [x26, x9]
	stur	x22, [x29, #-32]
.LBB198_18:
	add	x23, x23, #1
	add	x25, x25, #16
	cmp	x20, x23
	b.eq	.LBB198_39
.LBB198_19:
	ldp	x27, x8, [x25, #-8]
	cbz	x8, .LBB198_21
	sub	x28, x8, #1
	ldrb	w9, [x27, x28]
	cmp	w9, #46
	b.eq	.LBB198_22
.LBB198_21:
	mov	x28, x8
.LBB198_22:
	ldp	x1, x0, [sp, #48]
	mov	w2, #1
	mov	x3, x27
	mov	x4, x28
	bl	"ct_names::watched::is_some_told"
	tst	w0, #0xff
	b.ne	.LBB198_32
	mov	w24, w1
	tbnz	w1, #0, .LBB198_26
	ldp	x1, x0, [sp, #48]
	mov	w2, wzr
	mov	x3, x27
	mov	x4, x28
	bl	"ct_names::watched::is_some_told"
	tst	w0, #0xff
	b.ne	.LBB198_32
	tbz	w1, #0, .LBB198_18
.LBB198_26:
	ldur	x8, [x29, #-24]
	sub	x9, x8, x22
	cmp	x9, #7
	b.ls	.LBB198_30
	add	x9, x22, #8
	rev	x10, x23
	str	x10, [x26, x22]
	cmp	x8, x9
	stp	x9, x8, [x29, #-32]
	b.ne	.LBB198_17
.LBB198_28:
	sub	x0, x29, #40
	mov	w1, #1
	bl	"std_alloc::vec::Vec::grow_amortized::<#c0dd558b90df13b6>"
	cbz	w0, .LBB198_32
	ldp	x26, x9, [x29, #-40]
	b	.LBB198_17
.LBB198_30:
	sub	x0, x29, #40
	mov	w1, #8
	bl	"std_alloc::vec::Vec::grow_amortized::<#c0dd558b90df13b6>"
	cbz	w0, .LBB198_32
	ldp	x22, x8, [x29, #-32]
	ldur	x26, [x29, #-40]
	add	x9, x22, #8
	rev	x10, x23
	str	x10, [x26, x22]
	cmp	x8, x9
	stp	x9, x8, [x29, #-32]
	b.ne	.LBB198_17
	b	.LBB198_28
.LBB198_32:
	ldur	x8, [x29, #-24]
	cbz	x8, .LBB198_34
	ldur	x0, [x29, #-40]
	bl	rattle_dealloc
.LBB198_34:
	ldp	x19, x20, [sp, #24]
	ldr	x8, [sp, #16]
	cbz	x8, .LBB198_36
	ldr	x0, [sp, #56]
	bl	rattle_dealloc
.LBB198_36:
	cbz	x20, .LBB198_5
	mov	x0, x19
	bl	rattle_dealloc
	b	.LBB198_5
.LBB198_38:
	mov	x22, xzr
	mov	w26, #1
	b	.LBB198_40
.LBB198_39:
	ldur	x8, [x29, #-24]
	ldur	x24, [x29, #-40]
	ldr	x28, [sp, #24]
	cmp	x8, #0
	ldp	x27, x8, [sp, #8]
	cset	w26, eq
.LBB198_40:
	ldr	x20, [sp, #40]
	cbz	x8, .LBB198_42
	ldr	x0, [sp, #56]
	bl	rattle_dealloc
.LBB198_42:
	ldr	x8, [sp, #32]
	cbz	x8, .LBB198_44
	mov	x0, x28
	bl	rattle_dealloc
.LBB198_44:
	cmp	x21, x22
	str	x22, [x20]
	b.hs	.LBB198_46
	mov	w0, #9
	b	.LBB198_54
.LBB198_46:
	add	x0, x19, x27
	sub	x8, x0, x24
	cmp	x8, x22
	b.hs	.LBB198_52
	cmp	x22, #8
	b.lo	.LBB198_49
	add	x8, x27, x19
	sub	x8, x8, x24
	cmp	x8, #32
	b.hs	.LBB198_56
.LBB198_49:
	mov	x8, xzr
.LBB198_50:
	add	x10, x27, x8
	sub	x9, x22, x8
	add	x8, x24, x8
	add	x10, x19, x10
.LBB198_51:
	ldrb	w11, [x8], #1
	subs	x9, x9, #1
	strb	w11, [x10], #1
	b.ne	.LBB198_51
	b	.LBB198_53
.LBB198_52:
	mov	x1, x24
	mov	x2, x22
	bl	memmove
.LBB198_53:
	mov	w0, wzr
.LBB198_54:
	tbnz	w26, #0, .LBB198_14
	mov	w19, w0
	mov	x0, x24
	bl	rattle_dealloc
	mov	w0, w19
	b	.LBB198_14
.LBB198_56:
	cmp	x22, #32
	b.hs	.LBB198_58
	mov	x8, xzr
	b	.LBB198_62
.LBB198_58:
	add	x11, x27, x19
	and	x9, x22, #0x18
	and	x8, x22, #0xffffffffffffffe0
	add	x10, x24, #16
	add	x11, x11, #16
	and	x12, x22, #0xffffffffffffffe0
.LBB198_59:
	ldp	q0, q1, [x10, #-16]
	subs	x12, x12, #32
	add	x10, x10, #32
	stp	q0, q1, [x11, #-16]
	add	x11, x11, #32
	b.ne	.LBB198_59
	cmp	x22, x8
	b.eq	.LBB198_53
	cbz	x9, .LBB198_50
.LBB198_62:
	mov	x10, x8
	and	x8, x22, #0xfffffffffffffff8
	add	x11, x27, x10
	sub	x9, x10, x8
	add	x10, x24, x10
	add	x11, x19, x11
.LBB198_63:
	ldr	d0, [x10], #8
	adds	x9, x9, #8
	str	d0, [x11], #8
	b.ne	.LBB198_63
	cmp	x22, x8
	b.eq	.LBB198_53
	b	.LBB198_50
.Lfunc_end198:
	.size	wagtenib_watched_names, .Lfunc_end198-wagtenib_watched_names
	.section	.text.wagtenib_certificate_names,"ax",@progbits
	.globl	wagtenib_certificate_names
	.p2align	2
	.type	wagtenib_certificate_names,@function
wagtenib_certificate_names:
	sub	sp, sp, #192
	stp	x20, x19, [sp, #176]
	mov	x19, x3
	cmp	x1, #0
	mov	w8, #4096
	stp	x26, x25, [sp, #128]
	mov	x20, x6
	csel	x9, x8, xzr, eq
	cmp	x3, #0
	stp	x22, x21, [sp, #160]
	mov	x25, x5
	mov	x22, x4
	mov	x3, x2
	csel	x21, x8, xzr, eq
	stp	x29, x30, [sp, #96]
	add	x29, sp, #96
	stp	x28, x27, [sp, #112]
	stp	x24, x23, [sp, #144]
	cbz	w0, .LBB199_3
	cmp	w0, #1
	b.ne	.LBB199_7
	mov	w8, #1
	b	.LBB199_4
.LBB199_3:
	mov	w8, wzr
.LBB199_4:
	movi	v0.2d, #0000000000000000
	add	x0, sp, #32
	add	x2, x1, x9
	mov	w1, w8
	stp	q0, q0, [sp, #32]
	bl	"ct_names::name_bytes::read_names"
	ldrb	w8, [sp, #32]
	cbz	w8, .LBB199_8
	ldrb	w8, [sp, #33]
	cbz	w8, .LBB199_36
.LBB199_6:
	mov	w0, #8
	b	.LBB199_51
.LBB199_7:
	mov	w0, #20
	b	.LBB199_51
.LBB199_8:
	ldp	x23, x27, [sp, #40]
	sub	x20, x29, #1
	ldr	x8, [sp, #56]
	stp	xzr, xzr, [x29, #-24]
	stur	x20, [x29, #-32]
	cbz	x27, .LBB199_47
	mov	x24, xzr
	mov	x26, xzr
	mov	x28, xzr
	stp	x21, x8, [sp, #16]
	str	x25, [sp, #8]
	b	.LBB199_12
.LBB199_10:
	add	x0, x20, x25
	mov	x2, x24
	bl	memmove
.LBB199_11:
	add	x28, x28, #1
	add	x24, x25, x24
	stur	x26, [x29, #-16]
	cmp	x28, x27
	stp	x20, x24, [x29, #-32]
	b.eq	.LBB199_37
.LBB199_12:
	mov	w8, #24
	cmp	x26, x24
	madd	x21, x28, x8, x23
	ldrb	w25, [x21]
	b.eq	.LBB199_30
.LBB199_13:
	add	w8, w25, #1
	strb	w8, [x20, x24]
	ldur	x26, [x29, #-16]
	add	x8, x24, #1
	ldr	x24, [x21, #16]
	stur	x8, [x29, #-24]
	sub	x9, x26, x8
	cmp	x9, #7
	b.ls	.LBB199_32
.LBB199_14:
	ldur	x20, [x29, #-32]
	rev	x9, x24
	add	x25, x8, #8
	stp	x25, x26, [x29, #-24]
	str	x9, [x20, x8]
	sub	x8, x26, x25
	ldp	x1, x24, [x21, #8]
	cmp	x24, x8
	b.hi	.LBB199_34
	add	x8, x20, x25
	sub	x8, x8, x1
	cmp	x8, x24
	b.hs	.LBB199_10
.LBB199_16:
	cmp	x24, #8
	b.lo	.LBB199_18
	add	x8, x25, x20
	sub	x8, x8, x1
	cmp	x8, #32
	b.hs	.LBB199_21
.LBB199_18:
	mov	x8, xzr
.LBB199_19:
	add	x10, x8, x25
	sub	x9, x24, x8
	add	x8, x1, x8
	add	x10, x20, x10
.LBB199_20:
	ldrb	w11, [x8], #1
	subs	x9, x9, #1
	strb	w11, [x10], #1
	b.ne	.LBB199_20
	b	.LBB199_11
.LBB199_21:
	cmp	x24, #32
	b.hs	.LBB199_23
	mov	x8, xzr
	b	.LBB199_27
.LBB199_23:
	add	x11, x20, x25
	and	x9, x24, #0x18
	and	x8, x24, #0xffffffffffffffe0
	add	x10, x1, #16
	add	x11, x11, #16
	and	x12, x24, #0xffffffffffffffe0
.LBB199_24:
	ldp	q0, q1, [x10, #-16]
	subs	x12, x12, #32
	add	x10, x10, #32
	stp	q0, q1, [x11, #-16]
	add	x11, x11, #32
	b.ne	.LBB199_24
	cmp	x24, x8
	b.eq	.LBB199_11
	cbz	x9, .LBB199_19
.LBB199_27:
	mov	x10, x8
	and	x8, x24, #0xfffffffffffffff8
	add	x11, x25, x10
	sub	x9, x10, x8
	add	x10, x1, x10
	add	x11, x20, x11
.LBB199_28:
	ldr	d0, [x10], #8
	adds	x9, x9, #8
	str	d0, [x11], #8
	b.ne	.LBB199_28
	cmp	x24, x8
	b.eq	.LBB199_11
	b	.LBB199_19
.LBB199_30:
	sub	x0, x29, #32
	mov	w1, #1
	bl	"std_alloc::vec::Vec::grow_amortized::<#c0dd558b90df13b6>"
	cbz	w0, .LBB199_52
	ldp	x20, x24, [x29, #-32]
	b	.LBB199_13
.LBB199_32:
	sub	x0, x29, #32
	mov	w1, #8
	bl	"std_alloc::vec::Vec::grow_amortized::<#c0dd558b90df13b6>"
	cbz	w0, .LBB199_52
	ldp	x8, x26, [x29, #-24]
	b	.LBB199_14
.LBB199_34:
	mov	x21, x1
	sub	x0, x29, #32
	mov	x1, x24
	bl	"std_alloc::vec::Vec::grow_amortized::<#c0dd558b90df13b6>"
	cbz	w0, .LBB199_52
	ldp	x25, x26, [x29, #-24]
	mov	x1, x21
	ldur	x20, [x29, #-32]
	add	x8, x20, x25
	sub	x8, x8, x21
	cmp	x8, x24
	b.hs	.LBB199_10
	b	.LBB199_16
.LBB199_36:
	ldrh	w8, [sp, #34]
	lsr	w9, w8, #8
	and	w8, w8, #0xff
	add	w8, w8, #1
	add	w0, w9, #80
	str	w8, [x20]
	b	.LBB199_51
.LBB199_37:
	ldp	x25, x21, [sp, #8]
	cmp	x26, #0
	ldr	x8, [sp, #24]
	cset	w26, eq
	cbz	x8, .LBB199_39
.LBB199_38:
	mov	x0, x23
	bl	rattle_dealloc
.LBB199_39:
	cmp	x22, x24
	str	x24, [x25]
	b.hs	.LBB199_41
	mov	w0, #9
	tbz	w26, #0, .LBB199_50
	b	.LBB199_51
.LBB199_41:
	add	x0, x19, x21
	sub	x8, x0, x20
	cmp	x8, x24
	b.hs	.LBB199_48
	cmp	x24, #8
	b.lo	.LBB199_44
	add	x8, x21, x19
	sub	x8, x8, x20
	cmp	x8, #32
	b.hs	.LBB199_56
.LBB199_44:
	mov	x8, xzr
.LBB199_45:
	add	x10, x21, x8
	sub	x9, x24, x8
	add	x8, x20, x8
	add	x10, x19, x10
.LBB199_46:
	ldrb	w11, [x8], #1
	subs	x9, x9, #1
	strb	w11, [x10], #1
	b.ne	.LBB199_46
	b	.LBB199_49
.LBB199_47:
	mov	x24, xzr
	mov	w26, #1
	cbnz	x8, .LBB199_38
	b	.LBB199_39
.LBB199_48:
	mov	x1, x20
	mov	x2, x24
	bl	memmove
.LBB199_49:
	mov	w0, wzr
	tbnz	w26, #0, .LBB199_51
.LBB199_50:
	mov	w19, w0
	mov	x0, x20
	bl	rattle_dealloc
	mov	w0, w19
.LBB199_51:
	ldp	x20, x19, [sp, #176]
	ldp	x22, x21, [sp, #160]
	ldp	x24, x23, [sp, #144]
	ldp	x26, x25, [sp, #128]
	ldp	x28, x27, [sp, #112]
	ldp	x29, x30, [sp, #96]
	add	sp, sp, #192
	ret
.LBB199_52:
	ldur	x8, [x29, #-16]
	cbz	x8, .LBB199_54
	ldur	x0, [x29, #-32]
	bl	rattle_dealloc
.LBB199_54:
	ldr	x8, [sp, #24]
	cbz	x8, .LBB199_6
	mov	x0, x23
	bl	rattle_dealloc
	b	.LBB199_6
.LBB199_56:
	cmp	x24, #32
	b.hs	.LBB199_58
	mov	x8, xzr
	b	.LBB199_62
.LBB199_58:
	add	x11, x21, x19
	and	x9, x24, #0x18
	and	x8, x24, #0xffffffffffffffe0
	add	x10, x20, #16
	add	x11, x11, #16
	and	x12, x24, #0xffffffffffffffe0
.LBB199_59:
	ldp	q0, q1, [x10, #-16]
	subs	x12, x12, #32
	add	x10, x10, #32
	stp	q0, q1, [x11, #-16]
	add	x11, x11, #32
	b.ne	.LBB199_59
	cmp	x24, x8
	b.eq	.LBB199_49
	cbz	x9, .LBB199_45
.LBB199_62:
	mov	x10, x8
	and	x8, x24, #0xfffffffffffffff8
	add	x11, x21, x10
	sub	x9, x10, x8
	add	x10, x20, x10
	add	x11, x19, x11
.LBB199_63:
	ldr	d0, [x10], #8
	adds	x9, x9, #8
	str	d0, [x11], #8
	b.ne	.LBB199_63
	cmp	x24, x8
	b.eq	.LBB199_49
	b	.LBB199_45
.Lfunc_end199:
	.size	wagtenib_certificate_names, .Lfunc_end199-wagtenib_certificate_names
	.section	.text.wagtenib_path_tiles,"ax",@progbits
	.globl	wagtenib_path_tiles
	.p2align	2
	.type	wagtenib_path_tiles,@function
wagtenib_path_tiles:
	sub	sp, sp, #96
	cmp	x2, #0
	mov	w8, #4096
	stp	x22, x21, [sp, #64]
	stp	x20, x19, [sp, #80]
	mov	x19, x4
	mov	x4, x1
	csel	x22, x8, xzr, eq
	cmp	x1, x0
	stp	x29, x30, [sp, #32]
	stp	x24, x23, [sp, #48]
	add	x29, sp, #32
	b.ls	.LBB200_4
	movi	v0.2d, #0000000000000000
	mov	x1, x0
	mov	x20, x3
	mov	x23, x2
	mov	x0, sp
	sub	x3, x4, #1
	mov	x2, x1
	stp	q0, q0, [sp]
	bl	"ct_tiles::needed::needed"
	ldrb	w8, [sp]
	cbz	w8, .LBB200_5
	mov	w0, #8
.LBB200_3:
	ldp	x20, x19, [sp, #80]
	ldp	x22, x21, [sp, #64]
	ldp	x24, x23, [sp, #48]
	ldp	x29, x30, [sp, #32]
	add	sp, sp, #96
	ret
.LBB200_4:
	mov	w0, #1
	ldp	x20, x19, [sp, #80]
	ldp	x22, x21, [sp, #64]
	ldp	x24, x23, [sp, #48]
	ldp	x29, x30, [sp, #32]
	add	sp, sp, #96
	ret
.LBB200_5:
	ldp	x21, x1, [sp, #8]
	add	x2, x23, x22
	ldr	x24, [sp, #24]
	mov	x3, x20
	mov	x4, x19
	mov	x0, x21
	bl	"libwagtenib::tiles::write_names"
	cbz	x24, .LBB200_3
	mov	w19, w0
	mov	x0, x21
	bl	rattle_dealloc
	mov	w0, w19
	ldp	x20, x19, [sp, #80]
	ldp	x22, x21, [sp, #64]
	ldp	x24, x23, [sp, #48]
	ldp	x29, x30, [sp, #32]
	add	sp, sp, #96
	ret
.Lfunc_end200:
	.size	wagtenib_path_tiles, .Lfunc_end200-wagtenib_path_tiles
	.section	.text.wagtenib_proof_tiles,"ax",@progbits
	.globl	wagtenib_proof_tiles
	.p2align	2
	.type	wagtenib_proof_tiles,@function
wagtenib_proof_tiles:
	sub	sp, sp, #96
	cmp	x2, #0
	mov	w8, #4096
	stp	x22, x21, [sp, #64]
	stp	x20, x19, [sp, #80]
	mov	x19, x4
	mov	x4, x1
	mov	x1, x0
	csel	x22, x8, xzr, eq
	mov	w0, #7
	stp	x29, x30, [sp, #32]
	add	x29, sp, #32
	stp	x24, x23, [sp, #48]
	cbz	x1, .LBB201_4
	cmp	x4, x1
	b.ls	.LBB201_4
	movi	v0.2d, #0000000000000000
	mov	x23, x2
	mov	x20, x3
	sub	x2, x1, #1
	mov	x0, sp
	sub	x3, x4, #1
	stp	q0, q0, [sp]
	bl	"ct_tiles::needed::needed"
	ldrb	w8, [sp]
	cbz	w8, .LBB201_5
	mov	w0, #8
.LBB201_4:
	ldp	x20, x19, [sp, #80]
	ldp	x22, x21, [sp, #64]
	ldp	x24, x23, [sp, #48]
	ldp	x29, x30, [sp, #32]
	add	sp, sp, #96
	ret
.LBB201_5:
	ldp	x21, x1, [sp, #8]
	add	x2, x23, x22
	ldr	x24, [sp, #24]
	mov	x3, x20
	mov	x4, x19
	mov	x0, x21
	bl	"libwagtenib::tiles::write_names"
	cbz	x24, .LBB201_4
	mov	w19, w0
	mov	x0, x21
	bl	rattle_dealloc
	mov	w0, w19
	ldp	x20, x19, [sp, #80]
	ldp	x22, x21, [sp, #64]
	ldp	x24, x23, [sp, #48]
	ldp	x29, x30, [sp, #32]
	add	sp, sp, #96
	ret
.Lfunc_end201:
	.size	wagtenib_proof_tiles, .Lfunc_end201-wagtenib_proof_tiles
	.section	.text.wagtenib_root_tiles,"ax",@progbits
	.globl	wagtenib_root_tiles
	.p2align	2
	.type	wagtenib_root_tiles,@function
wagtenib_root_tiles:
	sub	sp, sp, #96
	cmp	x1, #0
	mov	w8, #4096
	stp	x24, x23, [sp, #48]
	csel	x23, x8, xzr, eq
	stp	x29, x30, [sp, #32]
	add	x29, sp, #32
	stp	x22, x21, [sp, #64]
	stp	x20, x19, [sp, #80]
	cbz	x0, .LBB202_4
	movi	v0.2d, #0000000000000000
	mov	x4, x0
	mov	x19, x3
	mov	x20, x2
	mov	x21, x1
	mov	x0, sp
	sub	x1, x4, #1
	sub	x2, x4, #1
	sub	x3, x4, #1
	stp	q0, q0, [sp]
	bl	"ct_tiles::needed::needed"
	ldrb	w8, [sp]
	cbz	w8, .LBB202_5
	mov	w0, #8
.LBB202_3:
	ldp	x20, x19, [sp, #80]
	ldp	x22, x21, [sp, #64]
	ldp	x24, x23, [sp, #48]
	ldp	x29, x30, [sp, #32]
	add	sp, sp, #96
	ret
.LBB202_4:
	mov	w0, #64
	ldp	x20, x19, [sp, #80]
	ldp	x22, x21, [sp, #64]
	ldp	x24, x23, [sp, #48]
	ldp	x29, x30, [sp, #32]
	add	sp, sp, #96
	ret
.LBB202_5:
	ldp	x22, x1, [sp, #8]
	add	x2, x21, x23
	ldr	x24, [sp, #24]
	mov	x3, x20
	mov	x4, x19
	mov	x0, x22
	bl	"libwagtenib::tiles::write_names"
	cbz	x24, .LBB202_3
	mov	w19, w0
	mov	x0, x22
	bl	rattle_dealloc
	mov	w0, w19
	ldp	x20, x19, [sp, #80]
	ldp	x22, x21, [sp, #64]
	ldp	x24, x23, [sp, #48]
	ldp	x29, x30, [sp, #32]
	add	sp, sp, #96
	ret
.Lfunc_end202:
	.size	wagtenib_root_tiles, .Lfunc_end202-wagtenib_root_tiles
	.section	.rodata.cst16,"aM",@progbits,16
	.p2align	4, 0x0
.LCPI203_0:
	.byte	1
	.byte	2
	.byte	4
	.byte	8
	.byte	16
	.byte	32
	.byte	64
	.byte	128
	.byte	1
	.byte	2
	.byte	4
	.byte	8
	.byte	16
	.byte	32
	.byte	64
	.byte	128
.LCPI203_1:
	.word	1779033703
	.word	3144134277
	.word	1013904242
	.word	2773480762
.LCPI203_2:
	.word	1359893119
	.word	2600822924
	.word	528734635
	.word	1541459225
.LCPI203_3:
	.word	0
	.word	4294967288
	.word	4294967280
	.word	4294967272
	.section	.text.wagtenib_guard_first_head,"ax",@progbits
	.globl	wagtenib_guard_first_head
	.p2align	2
	.type	wagtenib_guard_first_head,@function
wagtenib_guard_first_head:
	sub	sp, sp, #192
	ldp	x8, x9, [x0]
	str	x19, [sp, #176]
	ldp	q0, q1, [x0, #16]
	mov	x19, x2
	stp	x29, x30, [sp, #160]
	add	x29, sp, #160
	stp	x8, x9, [sp]
	stp	q0, q1, [sp, #16]
	cbz	x8, .LBB203_5
	ldr	x10, [x1, #8]
	mov	w0, #40
	cmp	x9, x10
	b.ne	.LBB203_4
	ldr	x9, [x1]
	cmp	x8, x9
	b.ne	.LBB203_4
	ldp	q1, q0, [x1, #16]
	adrp	x8, .LCPI203_0
	ldp	q3, q2, [sp, #16]
	cmeq	v1.16b, v3.16b, v1.16b
	cmeq	v0.16b, v2.16b, v0.16b
	ldr	q2, [x8, :lo12:.LCPI203_0]
	bic	v1.16b, v2.16b, v1.16b
	bic	v0.16b, v2.16b, v0.16b
	ext	v2.16b, v1.16b, v1.16b, #8
	ext	v3.16b, v0.16b, v0.16b, #8
	zip1	v1.16b, v1.16b, v2.16b
	zip1	v0.16b, v0.16b, v3.16b
	addv	h1, v1.8h
	addv	h0, v0.8h
	fmov	w8, s1
	fmov	w9, s0
	orr	w8, w8, w9
	tst	w8, #0xffff
	b.eq	.LBB203_7
.LBB203_4:
	ldp	x29, x30, [sp, #160]
	ldr	x19, [sp, #176]
	add	sp, sp, #192
	ret
.LBB203_5:
	movi	v0.2d, #0000000000000000
	adrp	x8, .LCPI203_1
	adrp	x9, .LCPI203_2
	ldr	q1, [x8, :lo12:.LCPI203_1]
	ldr	q2, [x9, :lo12:.LCPI203_2]
	adrp	x1, .Lstatic.5
	add	x1, x1, :lo12:.Lstatic.5
	add	x0, sp, #48
	mov	w2, #56
	str	xzr, [sp, #144]
	stp	q1, q2, [sp, #48]
	stp	q0, q0, [sp, #80]
	stp	q0, q0, [sp, #112]
	bl	"sha2::block256::Core256::update"
	add	x0, sp, #48
	add	x1, x29, #24
	mov	w2, #8
	str	xzr, [x29, #24]
	bl	"sha2::block256::Core256::update"
	ldp	q1, q0, [sp, #48]
	adrp	x8, .LCPI203_3
	ldr	q2, [x8, :lo12:.LCPI203_3]
	adrp	x8, .LCPI203_0
	rev32	v0.16b, v0.16b
	rev32	v1.16b, v1.16b
	dup	v3.4s, v0.s[0]
	dup	v4.4s, v0.s[1]
	dup	v5.4s, v1.s[2]
	dup	v6.4s, v1.s[3]
	dup	v7.4s, v0.s[3]
	dup	v16.4s, v1.s[0]
	dup	v1.4s, v1.s[1]
	dup	v0.4s, v0.s[2]
	ushl	v4.4s, v4.4s, v2.4s
	ushl	v3.4s, v3.4s, v2.4s
	ushl	v5.4s, v5.4s, v2.4s
	ushl	v7.4s, v7.4s, v2.4s
	ushl	v6.4s, v6.4s, v2.4s
	ushl	v0.4s, v0.4s, v2.4s
	ushl	v1.4s, v1.4s, v2.4s
	ushl	v2.4s, v16.4s, v2.4s
	uzp1	v5.8h, v5.8h, v6.8h
	uzp1	v1.8h, v2.8h, v1.8h
	uzp1	v0.8h, v0.8h, v7.8h
	uzp1	v2.8h, v3.8h, v4.8h
	uzp1	v1.16b, v1.16b, v5.16b
	uzp1	v0.16b, v2.16b, v0.16b
	ldp	q2, q3, [sp, #16]
	cmeq	v0.16b, v3.16b, v0.16b
	cmeq	v1.16b, v2.16b, v1.16b
	ldr	q2, [x8, :lo12:.LCPI203_0]
	bic	v0.16b, v2.16b, v0.16b
	bic	v1.16b, v2.16b, v1.16b
	ext	v2.16b, v0.16b, v0.16b, #8
	ext	v3.16b, v1.16b, v1.16b, #8
	zip1	v0.16b, v0.16b, v2.16b
	zip1	v1.16b, v1.16b, v3.16b
	addv	h0, v0.8h
	addv	h1, v1.8h
	fmov	w8, s0
	fmov	w9, s1
	orr	w8, w9, w8
	tst	w8, #0xffff
	b.eq	.LBB203_7
	mov	w0, #40
	ldp	x29, x30, [sp, #160]
	ldr	x19, [sp, #176]
	add	sp, sp, #192
	ret
.LBB203_7:
	mov	x0, sp
	mov	x1, x19
	bl	"libwagtenib::head::write_state"
	mov	w0, wzr
	ldp	x29, x30, [sp, #160]
	ldr	x19, [sp, #176]
	add	sp, sp, #192
	ret
.Lfunc_end203:
	.size	wagtenib_guard_first_head, .Lfunc_end203-wagtenib_guard_first_head
	.section	.text.wagtenib_guard_head,"ax",@progbits
	.globl	wagtenib_guard_head
	.p2align	2
	.type	wagtenib_guard_head,@function
wagtenib_guard_head:
	cmp	x0, #0
	mov	w8, #4096
	csel	x9, x8, xzr, eq
	cmp	x3, #0
	csel	x8, x8, xzr, eq
	cbz	x1, .LBB204_11
	cmp	x1, #1
	b.eq	.LBB204_11
	cmp	x1, #10
	b.lo	.LBB204_11
	subs	x10, x1, #18
	b.lo	.LBB204_11
	cmp	x10, #32
	b.lo	.LBB204_11
	mov	x10, x0
	mov	w0, #36
	b.ne	.LBB204_12
	add	x9, x10, x9
	ldrb	w10, [x9]
	cbnz	w10, .LBB204_12
	ldrb	w10, [x9, #1]
	cmp	w10, #1
	b.ne	.LBB204_12
	sub	sp, sp, #144
	ldur	x10, [x9, #2]
	ldr	x11, [x2, #8]
	ldr	q2, [x2, #32]
	ldp	q0, q1, [x2]
	stp	x29, x30, [sp, #112]
	rev	x10, x10
	add	x29, sp, #112
	str	x19, [sp, #128]
	subs	x12, x11, x10
	ldur	x11, [x9, #10]
	str	q2, [sp, #32]
	stp	q0, q1, [sp]
	strb	wzr, [x29, #30]
	strh	wzr, [x29, #28]
	b.ls	.LBB204_13
	cmp	x5, x12
	b.hs	.LBB204_13
	mov	w0, #35
	ldp	x29, x30, [sp, #112]
	ldr	x19, [sp, #128]
	add	sp, sp, #144
	ret
.LBB204_11:
	mov	w0, #36
.LBB204_12:
	ret
.LBB204_13:
	ldur	q0, [x9, #18]
	ldur	q1, [x9, #34]
	mov	w12, #1
	rev	x11, x11
	add	x0, x29, #28
	add	x1, sp, #56
	mov	x2, sp
	add	x3, x3, x8
	mov	x19, x6
	stp	x12, x11, [sp, #56]
	str	x10, [sp, #72]
	stp	q0, q1, [sp, #80]
	bl	"ct_guard::guard::Guard::pass_head::<#0f46d2847b2ce1ce>"
	ldrb	w8, [x29, #28]
	cbz	w8, .LBB204_17
	ldrb	w8, [x29, #29]
	cmp	w8, #1
	b.gt	.LBB204_18
	cbnz	w8, .LBB204_20
	mov	w0, #32
	ldp	x29, x30, [sp, #112]
	ldr	x19, [sp, #128]
	add	sp, sp, #144
	ret
.LBB204_17:
	mov	x0, sp
	mov	x1, x19
	bl	"libwagtenib::head::write_state"
	mov	w0, wzr
	ldp	x29, x30, [sp, #112]
	ldr	x19, [sp, #128]
	add	sp, sp, #144
	ret
.LBB204_18:
	cmp	w8, #2
	b.ne	.LBB204_21
	mov	w0, #34
	ldp	x29, x30, [sp, #112]
	ldr	x19, [sp, #128]
	add	sp, sp, #144
	ret
.LBB204_20:
	mov	w0, #33
	ldp	x29, x30, [sp, #112]
	ldr	x19, [sp, #128]
	add	sp, sp, #144
	ret
.LBB204_21:
	ldrb	w8, [x29, #30]
	add	w0, w8, #1
	ldp	x29, x30, [sp, #112]
	ldr	x19, [sp, #128]
	add	sp, sp, #144
	ret
.Lfunc_end204:
	.size	wagtenib_guard_head, .Lfunc_end204-wagtenib_guard_head
	.section	.text.wagtenib_tree_head_signature,"ax",@progbits
	.globl	wagtenib_tree_head_signature
	.p2align	2
	.type	wagtenib_tree_head_signature,@function
wagtenib_tree_head_signature:
	sub	sp, sp, #64
	ldp	q1, q0, [x0, #16]
	ldr	q2, [x0]
	mov	x0, sp
	stp	x29, x30, [sp, #48]
	add	x29, sp, #48
	str	q2, [sp]
	stp	q1, q0, [sp, #16]
	bl	"libwagtenib::head::write_state"
	ldp	x29, x30, [sp, #48]
	add	sp, sp, #64
	ret
.Lfunc_end205:
	.size	wagtenib_tree_head_signature, .Lfunc_end205-wagtenib_tree_head_signature
	.section	.text.wagtenib_monitor_entries,"ax",@progbits
	.globl	wagtenib_monitor_entries
	.p2align	2
	.type	wagtenib_monitor_entries,@function
wagtenib_monitor_entries:
	stp	x29, x30, [sp, #-96]!
	stp	x28, x27, [sp, #16]
	mov	x29, sp
	stp	x26, x25, [sp, #32]
	stp	x24, x23, [sp, #48]
	stp	x22, x21, [sp, #64]
	stp	x20, x19, [sp, #80]
	sub	sp, sp, #1824
	cmp	x0, #0
	mov	w10, #4096
	ldr	x26, [x29, #104]
	csel	x21, x10, xzr, eq
	cmp	x3, #0
	str	xzr, [sp]
	csel	x9, x10, xzr, eq
	cmp	x5, #0
	csel	x8, x10, xzr, eq
	cmp	x26, #0
	add	x8, x5, x8
	csel	x27, x10, xzr, eq
	mov	x10, x4
	cbz	x6, .LBB206_4
	mov	x10, x4
	mov	x11, x6
	mov	x12, x8
.LBB206_2:
	ldr	x13, [x12], #8
	subs	x10, x10, x13
	b.lo	.LBB206_5
	sub	x11, x11, #1
	cbnz	x11, .LBB206_2
.LBB206_4:
	cbz	x10, .LBB206_7
.LBB206_5:
	mov	w0, #141
.LBB206_6:
	add	sp, sp, #1824
	ldp	x20, x19, [sp, #80]
	ldp	x22, x21, [sp, #64]
	ldp	x24, x23, [sp, #48]
	ldp	x26, x25, [sp, #32]
	ldp	x28, x27, [sp, #16]
	ldp	x29, x30, [sp], #96
	ret
.LBB206_7:
	movi	v0.2d, #0000000000000000
	mov	x24, x2
	stp	x0, x1, [sp, #120]
	add	x28, sp, #256
	add	x0, sp, #416
	add	x1, x3, x9
	mov	x2, x4
	mov	x3, x8
	mov	x4, x6
	mov	x25, x7
	str	xzr, [sp, #240]
	str	q0, [sp, #256]
	stp	q0, q0, [x28, #16]
	stp	q0, q0, [x28, #48]
	stp	q0, q0, [x28, #80]
	stp	q0, q0, [x28, #112]
	stp	q0, q0, [sp, #144]
	stp	q0, q0, [sp, #176]
	stp	q0, q0, [sp, #208]
	str	wzr, [sp, #136]
	stur	wzr, [sp, #139]
	stp	q0, q0, [x28, #144]
	stp	q0, q0, [x28, #208]
	stp	q0, q0, [x28, #240]
	stp	q0, q0, [x28, #272]
	str	xzr, [sp, #560]
	str	wzr, [sp, #456]
	stur	wzr, [x28, #203]
	str	q0, [x28, #176]
	bl	"libwagtenib::tiles::pieces_of"
	ldrb	w8, [sp, #416]
	cbz	w8, .LBB206_9
	mov	w0, #8
	b	.LBB206_6
.LBB206_9:
	ldp	x8, x22, [sp, #424]
	movi	v0.2d, #0000000000000000
	add	x20, sp, #1096
	add	x19, sp, #816
	add	x9, sp, #568
	add	x0, sp, #880
	str	xzr, [sp, #1152]
	str	x8, [sp, #112]
	ldr	x8, [sp, #440]
	stur	q0, [x20, #8]
	str	x8, [sp, #96]
	ldp	x8, x2, [sp, #120]
	stur	q0, [x20, #24]
	stur	q0, [x20, #40]
	add	x1, x8, x21
	str	wzr, [sp, #1096]
	stur	wzr, [x20, #3]
	stp	q0, q0, [x19, #64]
	stp	q0, q0, [x19, #96]
	stp	q0, q0, [x19, #128]
	stp	q0, q0, [x19, #160]
	stp	q0, q0, [x19, #192]
	stp	q0, q0, [x19, #224]
	str	q0, [x19, #256]
	stur	xzr, [x19, #47]
	stp	q0, q0, [x19, #16]
	str	q0, [x19]
	stur	q0, [x9, #120]
	stur	q0, [x9, #136]
	stur	q0, [x9, #152]
	stur	q0, [x9, #168]
	stur	q0, [x9, #184]
	stur	q0, [x9, #200]
	stur	q0, [x9, #216]
	str	xzr, [sp, #800]
	stur	q0, [x9, #8]
	stur	q0, [x9, #24]
	stur	q0, [x9, #40]
	stur	q0, [x9, #56]
	stur	q0, [x9, #72]
	stur	q0, [x9, #88]
	str	xzr, [sp, #672]
	stur	wzr, [x9, #3]
	str	wzr, [sp, #568]
	bl	"ct_monitor::reading::read_state"
	ldrb	w8, [sp, #880]
	cbz	w8, .LBB206_22
.LBB206_10:
	movi	v0.2d, #0000000000000000
	mov	x20, xzr
	mov	x19, xzr
	mov	w21, #1
	stp	xzr, xzr, [sp, #64]
	stp	xzr, xzr, [sp, #80]
.LBB206_11:
	str	wzr, [sp, #104]
	str	xzr, [sp, #560]
	stp	q0, q0, [x28, #208]
	stp	q0, q0, [x28, #240]
	stp	q0, q0, [x28, #272]
	str	wzr, [sp, #456]
	mov	w23, #1
	stur	wzr, [x28, #203]
.LBB206_12:
	cbz	x22, .LBB206_17
	ldr	x8, [sp, #112]
	add	x24, x8, #16
	b	.LBB206_15
.LBB206_14:
	subs	x22, x22, #1
	add	x24, x24, #24
	b.eq	.LBB206_17
.LBB206_15:
	ldr	x8, [x24]
	cbz	x8, .LBB206_14
	ldur	x0, [x24, #-16]
	bl	rattle_dealloc
	b	.LBB206_14
.LBB206_17:
	ldr	x8, [sp, #96]
	cbz	x8, .LBB206_19
	ldr	x0, [sp, #112]
	bl	rattle_dealloc
.LBB206_19:
	ldp	q0, q1, [x28, #256]
	cmp	w21, #0
	ldr	x8, [sp, #560]
	ldr	w9, [sp, #456]
	mov	w11, #8
	ldr	q2, [x28, #288]
	ldr	w24, [sp, #104]
	orr	w10, w21, w23
	stp	q0, q1, [sp, #192]
	ldp	q1, q3, [x28, #224]
	ldr	q0, [x28, #208]
	str	x8, [sp, #240]
	ldur	w8, [x28, #203]
	str	w9, [sp, #136]
	mov	w9, #36
	csel	w0, w11, w9, ne
	str	q2, [sp, #224]
	stp	q0, q1, [sp, #144]
	str	q3, [sp, #176]
	stur	w8, [sp, #139]
	tbnz	w10, #0, .LBB206_6
	ldr	x8, [sp, #240]
	ldp	q0, q1, [sp, #192]
	ldp	x3, x4, [x29, #112]
	add	x0, sp, #256
	str	x8, [sp, #352]
	add	x2, x26, x27
	mov	x1, x25
	ldp	x8, x23, [sp, #64]
	stp	q0, q1, [x28, #48]
	ldp	q1, q3, [sp, #160]
	ldr	q2, [sp, #224]
	ldr	q0, [sp, #144]
	ldr	w9, [sp, #136]
	ldr	x21, [x29, #96]
	str	x8, [sp, #360]
	ldp	x8, x22, [sp, #80]
	str	q2, [x28, #80]
	str	q0, [sp, #256]
	stp	x8, x20, [sp, #368]
	ldur	w8, [sp, #139]
	stp	q1, q3, [x28, #16]
	stp	x23, x22, [sp, #384]
	str	x19, [sp, #400]
	strb	w24, [sp, #408]
	str	w8, [sp, #412]
	stur	w9, [x28, #153]
	bl	"libwagtenib::monitor::give"
	cbz	w0, .LBB206_38
	ldp	x12, x11, [x21, #8]
	mov	x8, x21
	ldp	w9, w10, [x21, #32]
	ldr	x19, [x21, #24]
	b	.LBB206_46
.LBB206_22:
	ldrb	w8, [sp, #888]
	cmp	w8, #1
	b.ne	.LBB206_43
	ldp	q0, q1, [x19, #208]
	mov	x10, xzr
	stp	x27, x25, [sp, #32]
	mov	w25, wzr
	add	x27, sp, #1360
	str	x21, [sp, #24]
	stur	q0, [x20, #200]
	ldp	q0, q2, [x19, #240]
	stur	q1, [x20, #216]
	stur	q0, [x20, #232]
	ldp	q0, q1, [x19, #144]
	stur	q2, [x20, #248]
	ldr	x11, [sp, #1328]
	stur	q0, [x20, #136]
	stur	q1, [x20, #152]
	ldp	q0, q1, [x19, #176]
	str	x11, [sp, #48]
	stur	q0, [x20, #168]
	ldp	q2, q0, [x19, #112]
	stur	q1, [x20, #184]
	ldr	x8, [sp, #1232]
	ldr	x9, [sp, #1240]
	stur	q0, [x20, #120]
	ldp	q0, q1, [x19, #80]
	ldrb	w12, [sp, #1224]
	stur	q2, [x20, #104]
	cmp	w12, #1
	stur	q0, [x20, #72]
	csel	x8, x8, x11, eq
	csel	x9, x9, xzr, eq
	stur	q1, [x20, #88]
	str	x9, [sp, #64]
	subs	x9, x8, x11
	mov	x20, xzr
	cmp	x9, x22
	str	w12, [sp, #80]
	csel	x9, x9, x22, lo
	cmp	x8, x11
	b.ls	.LBB206_63
	mov	x8, x24
	cbz	x9, .LBB206_64
	mov	x25, x9
	ldr	x9, [sp, #112]
	mov	x20, x11
	str	x25, [sp, #104]
	add	x23, x9, #8
	str	x11, [sp, #56]
	b	.LBB206_27
.LBB206_26:
	subs	x25, x25, #1
	add	x23, x23, #24
	add	x20, x20, #1
	b.eq	.LBB206_48
.LBB206_27:
	movi	v0.2d, #0000000000000000
	ldp	x9, x10, [x23, #-8]
	stp	q0, q0, [x27, #192]
	stp	q0, q0, [x27, #224]
	cbz	x10, .LBB206_26
	cmp	x10, #1
	b.eq	.LBB206_26
	ldrb	w11, [x9]
	cbnz	w11, .LBB206_26
	subs	x10, x10, #10
	b.lo	.LBB206_26
	ldrb	w11, [x9, #1]
	cbnz	w11, .LBB206_26
	add	x8, x9, #10
	ldur	x21, [x9, #2]
	add	x0, sp, #1552
	add	x1, sp, #1360
	str	x8, [sp, #1360]
	str	x10, [sp, #1368]
	bl	"ct_codec::reading::entry_at"
	ldrb	w9, [sp, #1552]
	mov	x8, x24
	cbnz	w9, .LBB206_26
	ldr	x9, [sp, #1368]
	subs	x9, x9, #2
	b.lo	.LBB206_26
	ldr	x10, [sp, #1360]
	ldrh	w10, [x10]
	rev	w10, w10
	lsr	w10, w10, #16
	cmp	x9, x10
	b.lo	.LBB206_26
	b.ne	.LBB206_26
	ldr	x10, [sp, #64]
	rev	x9, x21
	cmp	x9, x10
	b.ls	.LBB206_26
	str	x9, [sp, #72]
	mov	w25, #1
	b	.LBB206_49
.LBB206_38:
	add	x8, sp, #256
	add	x8, x8, #104
	cbz	x22, .LBB206_44
	cmp	w24, #2
	b.le	.LBB206_91
	cmp	w24, #4
	b.gt	.LBB206_99
	cmp	w24, #3
	b.ne	.LBB206_108
	mov	w9, #20
	b	.LBB206_45
.LBB206_43:
	movi	v0.2d, #0000000000000000
	mov	w21, wzr
	stp	xzr, xzr, [sp, #64]
	stp	xzr, xzr, [sp, #80]
	mov	x20, xzr
	mov	x19, xzr
	b	.LBB206_11
.LBB206_44:
	mov	x19, xzr
	mov	w9, wzr
.LBB206_45:
	ldr	x11, [sp, #80]
	mov	w10, wzr
	cmp	x11, #1
	csel	x11, x23, xzr, eq
	csel	x12, x20, xzr, eq
.LBB206_46:
	ldr	x8, [x8]
	stp	x11, x19, [x21, #16]
	stp	w9, w10, [x21, #32]
	stp	x8, x12, [x21]
	ldr	x8, [sp, #352]
	cbz	x8, .LBB206_6
	ldr	x8, [sp, #336]
	mov	w19, w0
	mov	x0, x8
	bl	rattle_dealloc
	mov	w0, w19
	b	.LBB206_6
.LBB206_48:
	mov	x20, xzr
	str	xzr, [sp, #72]
.LBB206_49:
	ldr	x9, [sp, #112]
	str	w25, [sp, #20]
	add	x23, x9, #8
.LBB206_50:
	movi	v0.2d, #0000000000000000
	ldp	x9, x10, [x23, #-8]
	stp	q0, q0, [x27, #192]
	stp	q0, q0, [x27, #224]
	cbz	x10, .LBB206_61
	ldrb	w11, [x9]
	cbnz	w11, .LBB206_110
	cmp	x10, #1
	b.eq	.LBB206_61
	ldrb	w11, [x9, #1]
	cbnz	w11, .LBB206_111
	subs	x10, x10, #10
	b.lo	.LBB206_61
	add	x8, x9, #10
	add	x0, sp, #1552
	add	x1, sp, #1360
	str	x8, [sp, #1360]
	str	x10, [sp, #1368]
	bl	"ct_codec::reading::entry_at"
	ldrb	w8, [sp, #1552]
	cbnz	w8, .LBB206_112
	ldr	x8, [sp, #1368]
	subs	x9, x8, #2
	mov	x8, x24
	b.lo	.LBB206_61
	ldr	x10, [sp, #1360]
	ldrh	w10, [x10]
	rev	w10, w10
	lsr	w10, w10, #16
	cmp	x9, x10
	b.lo	.LBB206_61
	b.ne	.LBB206_113
	ldr	x9, [sp, #104]
	add	x23, x23, #24
	subs	x9, x9, #1
	str	x9, [sp, #104]
	ldr	x9, [sp, #56]
	add	x9, x9, #1
	str	x9, [sp, #56]
	b.ne	.LBB206_50
	ldr	x10, [sp, #72]
	b	.LBB206_64
.LBB206_61:
	mov	w21, wzr
.LBB206_62:
	ldr	x23, [sp, #56]
	str	wzr, [sp, #1552]
	mov	w25, #1
	stur	wzr, [x27, #195]
	b	.LBB206_65
.LBB206_63:
	mov	x8, x24
.LBB206_64:
	str	w25, [sp, #20]
	mov	x25, xzr
	mov	x23, xzr
	mov	w21, wzr
	str	x10, [sp, #72]
	stur	wzr, [x27, #195]
	str	wzr, [sp, #1552]
.LBB206_65:
	ldr	w9, [sp, #1552]
	movi	v0.2d, #0000000000000000
	add	x10, sp, #1096
	stur	xzr, [x27, #47]
	str	w9, [sp, #1160]
	ldur	w9, [x27, #195]
	stur	w9, [x10, #67]
	ldr	w9, [sp, #80]
	stp	q0, q0, [x27, #16]
	cmp	w9, #1
	str	q0, [x27]
	stp	q0, q0, [x27, #64]
	stp	q0, q0, [x27, #96]
	stp	q0, q0, [x27, #192]
	stp	q0, q0, [x27, #224]
	stur	xzr, [x27, #127]
	b.ne	.LBB206_79
	ldp	q0, q1, [x19, #144]
	ldr	x9, [sp, #48]
	ldr	q2, [x19, #176]
	cmp	x8, x9
	stp	q0, q1, [x27, #144]
	str	q2, [x27, #176]
	b.ne	.LBB206_78
	ldr	x9, [sp, #1504]
	movi	v0.2d, #0000000000000000
	ldr	x24, [sp, #1288]
	sub	x0, x29, #208
	stur	xzr, [x29, #-176]
	subs	x10, x9, x8
	cmp	x10, x22
	csel	x10, x10, x22, lo
	cmp	x9, x8
	add	x8, sp, #1168
	csel	x9, x10, xzr, hi
	add	x1, x8, #160
	stp	q0, q0, [x27, #256]
	str	x9, [sp, #80]
	bl	"ct_monitor::peaks::Peaks::copied::<#731e1d2bba769a9a>"
	ldurb	w8, [x29, #-208]
	cbnz	w8, .LBB206_102
	sub	x8, x29, #208
	ldr	x9, [sp, #80]
	str	x24, [sp, #8]
	ldur	q0, [x8, #8]
	ldur	q1, [x8, #24]
	str	w21, [sp, #104]
	str	x23, [sp, #56]
	stp	q0, q1, [x8, #48]
	movi	v0.2d, #0000000000000000
	stp	q0, q0, [x8, #80]
	cbz	x9, .LBB206_101
	ldp	x24, x8, [x29, #-160]
	str	x25, [sp, #88]
	str	x8, [sp, #48]
	ldr	x8, [sp, #112]
	add	x23, x8, #8
	b	.LBB206_73
.LBB206_70:
	ldur	x8, [x29, #-136]
	cmp	x8, x25
	b.eq	.LBB206_76
.LBB206_71:
	ldur	x8, [x29, #-152]
	sub	x9, x29, #64
	ldur	q0, [x9, #8]
	ldur	q1, [x9, #24]
	add	x9, x25, #1
	str	x8, [sp, #48]
	add	x8, x8, x25, lsl #5
	stur	x9, [x29, #-144]
	stp	q0, q1, [x8]
.LBB206_72:
	ldp	x9, x25, [sp, #80]
	add	x23, x23, #24
	ldur	x8, [x29, #-160]
	add	x24, x8, #1
	subs	x9, x9, #1
	stur	x24, [x29, #-160]
	b.eq	.LBB206_101
.LBB206_73:
	str	x9, [sp, #80]
	movi	v0.2d, #0000000000000000
	adrp	x8, .Lstatic.7
	add	x8, x8, :lo12:.Lstatic.7
	mov	w9, #1
	sub	x21, x29, #208
	stp	x8, x9, [x29, #-96]
	ldp	x8, x9, [x23, #-8]
	sub	x0, x29, #64
	sub	x1, x29, #96
	mov	w2, #2
	stp	q0, q0, [x21, #144]
	stp	x8, x9, [x29, #-80]
	bl	"ct_tree::hash::Sha256HashNodeHash::hash"
	ldp	q0, q1, [x21, #144]
	sub	x0, x29, #64
	ldur	x25, [x29, #-144]
	sub	x4, x29, #128
	mov	x3, x24
	stp	q0, q1, [x21, #80]
	ldr	x21, [sp, #48]
	mov	x2, x25
	mov	x1, x21
	bl	"ct_tree::subtrees::with_leaf::<#0f46d2847b2ce1ce>"
	ldur	x8, [x29, #-64]
	cmp	x8, x25
	b.eq	.LBB206_70
	sub	x10, x29, #64
	add	x9, x21, x8, lsl #5
	add	x8, x8, #1
	ldur	q0, [x10, #24]
	ldur	q1, [x10, #8]
	cmp	x25, x8
	stp	q1, q0, [x9]
	b.ls	.LBB206_72
	stur	x8, [x29, #-144]
	b	.LBB206_72
.LBB206_76:
	sub	x8, x29, #160
	mov	w1, #1
	orr	x0, x8, #0x8
	bl	"std_alloc::vec::Vec::grow_amortized::<#f34347d6536e7913>"
	cbz	w0, .LBB206_116
	ldur	x25, [x29, #-144]
	b	.LBB206_71
.LBB206_78:
	movi	v0.2d, #0000000000000000
.LBB206_79:
	stur	xzr, [x27, #47]
	stp	q0, q0, [x27, #16]
	str	q0, [x27]
	ldp	q1, q0, [x27, #16]
	ldur	x8, [x27, #47]
	stur	x8, [x19, #47]
	mov	w8, #8
	stp	q1, q0, [x19, #16]
	ldr	q0, [x27]
	strb	w8, [sp, #1104]
	ldur	x8, [x19, #47]
	ldr	q2, [x19, #32]
	str	q0, [x19]
	str	x8, [sp, #1152]
	add	x8, sp, #1096
	stur	q2, [x8, #41]
	stur	q1, [x8, #25]
	stur	q0, [x8, #9]
.LBB206_80:
	mov	x20, xzr
	mov	x23, xzr
	mov	x19, xzr
	str	wzr, [sp, #104]
	mov	x25, xzr
	str	xzr, [sp, #80]
	stur	wzr, [x27, #195]
	str	wzr, [sp, #1552]
.LBB206_81:
	ldr	w8, [sp, #1552]
	ldur	w9, [x27, #195]
	add	x0, sp, #688
	add	x3, sp, #1104
	add	x4, sp, #1168
	add	x24, sp, #688
	str	w8, [sp, #1096]
	add	x8, sp, #1096
	stur	w9, [x8, #3]
	ldp	x8, x2, [sp, #120]
	ldr	x9, [sp, #24]
	add	x1, x8, x9
	bl	"ct_monitor::calls::answer_after"
	ldrb	w8, [sp, #688]
	cbz	w8, .LBB206_85
	ldp	x27, x25, [sp, #32]
	ldr	x8, [sp, #1320]
	cbz	x8, .LBB206_84
	ldr	x0, [sp, #1304]
	bl	rattle_dealloc
.LBB206_84:
	ldr	x8, [sp, #1352]
	cbnz	x8, .LBB206_105
	b	.LBB206_10
.LBB206_85:
	str	x25, [sp, #88]
	ldrb	w9, [sp, #696]
	ldr	x8, [sp, #1320]
	ldp	x27, x25, [sp, #32]
	cmp	w9, #1
	b.ne	.LBB206_94
	cbz	x8, .LBB206_88
	ldr	x0, [sp, #1304]
	bl	rattle_dealloc
.LBB206_88:
	ldr	x8, [sp, #1352]
	str	x23, [sp, #72]
	cbz	x8, .LBB206_90
	ldr	x0, [sp, #1336]
	bl	rattle_dealloc
.LBB206_90:
	ldp	q0, q1, [x24, #80]
	mov	w21, wzr
	ldur	x8, [x24, #112]
	mov	w23, wzr
	stp	q0, q1, [x28, #272]
	ldp	q0, q1, [x24, #16]
	str	x8, [sp, #560]
	ldr	w8, [sp, #1096]
	stp	q0, q1, [x28, #208]
	ldp	q1, q0, [x24, #48]
	str	w8, [sp, #456]
	add	x8, sp, #1096
	ldur	w8, [x8, #3]
	stp	q1, q0, [x28, #240]
	stur	w8, [x28, #203]
	b	.LBB206_12
.LBB206_91:
	cbz	w24, .LBB206_106
	cmp	w24, #1
	b.ne	.LBB206_107
	mov	w9, #18
	b	.LBB206_45
.LBB206_94:
	cbz	x8, .LBB206_96
	ldr	x0, [sp, #1304]
	bl	rattle_dealloc
.LBB206_96:
	ldr	x8, [sp, #1352]
	add	x23, sp, #568
	cbz	x8, .LBB206_98
	ldr	x0, [sp, #1336]
	bl	rattle_dealloc
.LBB206_98:
	ldur	q0, [x23, #72]
	ldur	q1, [x23, #88]
	mov	w21, wzr
	ldr	x8, [sp, #672]
	ldur	q2, [x23, #8]
	mov	x20, xzr
	stp	q0, q1, [x28, #272]
	ldur	q0, [x23, #24]
	mov	x19, xzr
	ldr	w9, [sp, #568]
	str	x8, [sp, #560]
	ldur	q1, [x23, #56]
	stp	q2, q0, [x28, #208]
	ldur	q0, [x23, #40]
	ldur	w8, [x23, #3]
	mov	w23, #1
	stp	xzr, xzr, [sp, #64]
	stp	xzr, xzr, [sp, #80]
	str	wzr, [sp, #104]
	str	w9, [sp, #456]
	stp	q0, q1, [x28, #240]
	stur	w8, [x28, #203]
	b	.LBB206_12
.LBB206_99:
	cmp	w24, #5
	b.ne	.LBB206_109
	mov	w9, #22
	b	.LBB206_45
.LBB206_101:
	sub	x8, x29, #208
	ldr	x3, [sp, #8]
	add	x0, sp, #1552
	ldp	q0, q1, [x8, #48]
	add	x1, sp, #1168
	add	x2, sp, #1504
	add	x4, sp, #1424
	stur	q0, [x27, #103]
	stur	q1, [x27, #119]
	stp	q0, q1, [x27, #64]
	bl	"ct_monitor::watcher::Watcher::settle::<#e78d81957da20adf>"
	ldr	x8, [sp, #1608]
	ldur	q0, [x27, #233]
	ldur	q1, [x27, #217]
	ldur	q2, [x27, #201]
	ldrb	w9, [sp, #1552]
	stur	x8, [x27, #47]
	stp	q1, q0, [x27, #16]
	ldur	x8, [x27, #47]
	ldr	q0, [x27, #32]
	str	q2, [x27]
	str	q2, [x19]
	stur	x8, [x19, #47]
	ldrb	w8, [sp, #1560]
	stp	q1, q0, [x19, #16]
	cbz	w9, .LBB206_114
.LBB206_102:
	ldr	x8, [sp, #1320]
	cbz	x8, .LBB206_104
	ldr	x0, [sp, #1304]
	bl	rattle_dealloc
.LBB206_104:
	ldp	x27, x25, [sp, #32]
	ldr	x8, [sp, #1352]
	cbz	x8, .LBB206_10
.LBB206_105:
	ldr	x0, [sp, #1336]
	bl	rattle_dealloc
	b	.LBB206_10
.LBB206_106:
	mov	w9, #17
	b	.LBB206_45
.LBB206_107:
	mov	w9, #19
	b	.LBB206_45
.LBB206_108:
	mov	w9, #21
	b	.LBB206_45
.LBB206_109:
	mov	w9, #8
	b	.LBB206_45
.LBB206_110:
	mov	w21, #1
	b	.LBB206_62
.LBB206_111:
	mov	w21, #2
	b	.LBB206_62
.LBB206_112:
	ldrb	w21, [sp, #1553]
	mov	x8, x24
	b	.LBB206_62
.LBB206_113:
	mov	w21, #5
	b	.LBB206_62
.LBB206_114:
	ldp	q0, q1, [x19]
	add	x10, sp, #1096
	ldr	q2, [x19, #32]
	ldur	x9, [x19, #47]
	cmp	w8, #8
	strb	w8, [sp, #1104]
	stur	q0, [x10, #9]
	stur	q1, [x10, #25]
	stur	q2, [x10, #41]
	str	x9, [sp, #1152]
	b.eq	.LBB206_80
	ldr	w8, [sp, #1160]
	ldur	w9, [x10, #67]
	ldr	x19, [sp, #56]
	ldr	x23, [sp, #72]
	str	w8, [sp, #1552]
	ldr	w8, [sp, #20]
	stur	w9, [x27, #195]
	mov	w8, w8
	str	x8, [sp, #80]
	b	.LBB206_81
.LBB206_116:
	ldur	x8, [x29, #-136]
	cbz	x8, .LBB206_102
	ldur	x0, [x29, #-152]
	bl	rattle_dealloc
	b	.LBB206_102
.Lfunc_end206:
	.size	wagtenib_monitor_entries, .Lfunc_end206-wagtenib_monitor_entries
	.section	.text.wagtenib_monitor_head,"ax",@progbits
	.globl	wagtenib_monitor_head
	.p2align	2
	.type	wagtenib_monitor_head,@function
wagtenib_monitor_head:
	stp	x29, x30, [sp, #-96]!
	stp	x28, x27, [sp, #16]
	mov	x29, sp
	stp	x26, x25, [sp, #32]
	stp	x24, x23, [sp, #48]
	stp	x22, x21, [sp, #64]
	stp	x20, x19, [sp, #80]
	sub	sp, sp, #1776
	str	xzr, [sp]
	movi	v0.2d, #0000000000000000
	cmp	x0, #0
	ldr	x8, [x2]
	ldrb	w9, [x2, #37]
	mov	x10, x1
	mov	x11, x0
	ldrb	w28, [x2, #40]
	ldrb	w25, [x2, #41]
	str	x8, [sp, #536]
	ldr	x8, [x2, #8]
	ldrb	w19, [x2, #42]
	str	w9, [sp, #428]
	ldrb	w9, [x2, #38]
	add	x0, sp, #832
	str	x8, [sp, #528]
	ldrb	w8, [x2, #16]
	ldrb	w21, [x2, #43]
	str	w9, [sp, #440]
	ldrb	w9, [x2, #39]
	ldrb	w20, [x2, #44]
	str	w8, [sp, #384]
	ldrb	w8, [x2, #17]
	ldrb	w23, [x2, #45]
	str	w9, [sp, #452]
	add	x9, sp, #768
	ldrb	w22, [x2, #46]
	str	w8, [sp, #388]
	ldrb	w8, [x2, #18]
	ldrb	w24, [x2, #47]
	stp	x5, x6, [sp, #504]
	str	w8, [sp, #396]
	ldrb	w8, [x2, #19]
	str	x3, [sp, #496]
	str	w8, [sp, #392]
	ldrb	w8, [x2, #20]
	str	xzr, [sp, #640]
	str	w8, [sp, #404]
	ldrb	w8, [x2, #21]
	stp	q0, q0, [sp, #544]
	str	w8, [sp, #400]
	ldrb	w8, [x2, #22]
	stp	q0, q0, [sp, #576]
	str	w8, [sp, #412]
	ldrb	w8, [x2, #23]
	stp	q0, q0, [sp, #608]
	str	w8, [sp, #408]
	ldrb	w8, [x2, #24]
	str	xzr, [sp, #752]
	str	w8, [sp, #524]
	ldrb	w8, [x2, #25]
	stp	q0, q0, [sp, #656]
	str	w8, [sp, #416]
	ldrb	w8, [x2, #26]
	stp	q0, q0, [sp, #688]
	str	w8, [sp, #424]
	ldrb	w8, [x2, #27]
	stp	q0, q0, [sp, #720]
	str	w8, [sp, #420]
	ldrb	w8, [x2, #28]
	str	q0, [sp, #1296]
	str	w8, [sp, #436]
	ldrb	w8, [x2, #29]
	str	q0, [sp, #1312]
	str	w8, [sp, #432]
	ldrb	w8, [x2, #30]
	str	q0, [sp, #1328]
	str	w8, [sp, #448]
	ldrb	w8, [x2, #31]
	str	q0, [sp, #1344]
	str	w8, [sp, #444]
	ldrb	w8, [x2, #32]
	str	q0, [sp, #1360]
	str	w8, [sp, #460]
	ldrb	w8, [x2, #33]
	str	q0, [sp, #1376]
	str	w8, [sp, #456]
	ldrb	w8, [x2, #34]
	str	q0, [sp, #1392]
	str	w8, [sp, #468]
	ldrb	w8, [x2, #35]
	str	xzr, [sp, #1408]
	str	w8, [sp, #464]
	ldrb	w8, [x2, #36]
	mov	x2, x10
	str	q0, [sp, #1104]
	str	w8, [sp, #520]
	mov	w8, #4096
	csel	x27, x8, xzr, eq
	cmp	x4, #0
	str	q0, [sp, #1120]
	add	x1, x11, x27
	str	q0, [sp, #1136]
	csel	x26, x8, xzr, eq
	str	q0, [sp, #1152]
	str	q0, [sp, #1168]
	str	q0, [sp, #1184]
	str	q0, [sp, #1200]
	str	q0, [sp, #1216]
	str	q0, [sp, #1232]
	str	q0, [sp, #1248]
	str	q0, [sp, #1264]
	str	q0, [sp, #1280]
	str	xzr, [sp, #1088]
	str	q0, [sp, #1072]
	str	q0, [sp, #1056]
	str	q0, [sp, #1040]
	stp	q0, q0, [sp, #768]
	stp	q0, q0, [sp, #832]
	stp	q0, q0, [sp, #864]
	stp	q0, q0, [sp, #896]
	stp	q0, q0, [sp, #928]
	stp	q0, q0, [sp, #960]
	stp	q0, q0, [sp, #992]
	str	q0, [sp, #1024]
	str	x4, [sp, #488]
	str	q0, [sp, #800]
	stur	xzr, [x9, #47]
	stp	x11, x10, [sp, #472]
	bl	"ct_monitor::reading::read_state"
	ldrb	w8, [sp, #832]
	cbz	w8, .LBB207_2
.LBB207_1:
	mov	w0, #8
	b	.LBB207_60
.LBB207_2:
	ldrb	w8, [sp, #840]
	str	w28, [sp, #320]
	str	w25, [sp, #324]
	cmp	w8, #1
	str	w19, [sp, #328]
	str	w21, [sp, #332]
	str	w20, [sp, #336]
	str	w23, [sp, #340]
	str	w24, [sp, #344]
	stp	x27, x26, [sp, #360]
	b.ne	.LBB207_59
	ldp	q0, q1, [sp, #976]
	add	x8, sp, #1424
	stur	xzr, [x8, #47]
	sub	x12, x29, #80
	str	xzr, [sp, #1520]
	str	q0, [sp, #1232]
	ldp	q0, q2, [sp, #1008]
	str	q1, [sp, #1248]
	str	w22, [sp, #76]
	str	q0, [sp, #1264]
	ldp	q1, q0, [sp, #912]
	str	q2, [sp, #1280]
	str	q0, [sp, #1184]
	ldp	q2, q0, [sp, #944]
	str	q1, [sp, #1168]
	ldrb	w14, [sp, #1187]
	ldrb	w16, [sp, #1188]
	ldrb	w3, [sp, #1189]
	ldrb	w0, [sp, #1190]
	ldrb	w4, [sp, #1191]
	str	q0, [sp, #1216]
	ldp	q1, q0, [sp, #848]
	ldr	x8, [sp, #1216]
	str	q2, [sp, #1200]
	ldr	x13, [sp, #1224]
	ldrb	w25, [sp, #1202]
	ldrb	w10, [sp, #1204]
	ldrb	w23, [sp, #1205]
	str	x8, [sp, #112]
	ldr	x8, [sp, #1168]
	ldrb	w22, [sp, #1207]
	str	q0, [sp, #1120]
	ldrb	w9, [sp, #1213]
	ldrb	w17, [sp, #1214]
	str	x8, [sp, #376]
	ldr	x8, [sp, #1176]
	ldrb	w18, [sp, #1215]
	str	q1, [sp, #1104]
	movi	v1.2d, #0000000000000000
	str	x8, [sp, #272]
	ldrb	w8, [sp, #1184]
	ldrb	w26, [sp, #1104]
	stp	w8, w9, [sp, #200]
	ldp	q2, q0, [sp, #880]
	cmp	w26, #1
	ldrb	w8, [sp, #1185]
	str	q1, [sp, #1456]
	str	w8, [sp, #176]
	ldrb	w8, [sp, #1186]
	str	q0, [sp, #1152]
	str	w8, [sp, #172]
	ldrb	w8, [sp, #1192]
	ldrb	w19, [sp, #1160]
	str	q2, [sp, #1136]
	str	w8, [sp, #168]
	ldrb	w8, [sp, #1193]
	str	q1, [sp, #1440]
	str	w8, [sp, #188]
	ldrb	w8, [sp, #1194]
	str	q1, [sp, #1424]
	str	w8, [sp, #184]
	ldrb	w8, [sp, #1195]
	stp	q1, q1, [x29, #-240]
	str	w8, [sp, #192]
	ldrb	w8, [sp, #1196]
	stp	q1, q1, [x29, #-192]
	str	w8, [sp, #196]
	ldrb	w8, [sp, #1197]
	stp	q1, q1, [x29, #-160]
	str	w8, [sp, #224]
	ldrb	w8, [sp, #1198]
	stur	q1, [x29, #-208]
	str	w8, [sp, #236]
	ldrb	w8, [sp, #1199]
	str	q1, [sp, #1488]
	str	w8, [sp, #232]
	ldrb	w8, [sp, #1200]
	str	q1, [sp, #1504]
	str	w8, [sp, #228]
	ldrb	w8, [sp, #1201]
	str	x13, [sp, #288]
	str	w8, [sp, #316]
	ldrb	w8, [sp, #1203]
	str	x26, [sp, #40]
	str	w8, [sp, #312]
	ldrb	w8, [sp, #1206]
	stp	w23, w25, [sp, #156]
	str	w8, [sp, #220]
	ldrb	w8, [sp, #1208]
	str	w10, [sp, #180]
	str	w8, [sp, #216]
	ldrb	w8, [sp, #1209]
	str	w22, [sp, #152]
	str	w8, [sp, #212]
	ldrb	w8, [sp, #1210]
	str	w18, [sp, #140]
	str	w8, [sp, #208]
	ldrb	w8, [sp, #1211]
	str	w16, [sp, #308]
	str	w8, [sp, #300]
	ldrb	w8, [sp, #1212]
	b.ne	.LBB207_6
	str	w8, [sp, #148]
	ldrb	w8, [sp, #1150]
	ldrb	w30, [sp, #1159]
	ldr	x11, [sp, #1112]
	mov	w9, w14
	ldr	x27, [sp, #536]
	str	w8, [sp, #280]
	ldrb	w8, [sp, #1151]
	ldrb	w25, [sp, #1128]
	cmp	x11, x27
	str	x19, [sp, #104]
	ldrb	w18, [sp, #1129]
	str	w8, [sp, #268]
	ldrb	w8, [sp, #1152]
	ldrb	w23, [sp, #1130]
	stp	w4, w0, [sp]
	ldrb	w22, [sp, #1131]
	ldrb	w15, [sp, #1132]
	str	w8, [sp, #284]
	ldrb	w8, [sp, #1153]
	ldrb	w4, [sp, #1133]
	str	w3, [sp, #8]
	ldrb	w3, [sp, #1134]
	ldrb	w16, [sp, #1135]
	str	w8, [sp, #256]
	ldrb	w8, [sp, #1154]
	ldrb	w0, [sp, #1136]
	ldrb	w13, [sp, #1137]
	ldrb	w12, [sp, #1138]
	ldrb	w10, [sp, #1139]
	str	w8, [sp, #348]
	ldrb	w8, [sp, #1155]
	ldrb	w28, [sp, #1140]
	ldrb	w20, [sp, #1141]
	ldrb	w26, [sp, #1142]
	ldrb	w6, [sp, #1143]
	str	w8, [sp, #352]
	ldrb	w8, [sp, #1156]
	ldrb	w19, [sp, #1144]
	ldrb	w14, [sp, #1145]
	ldrb	w7, [sp, #1146]
	ldrb	w1, [sp, #1147]
	ldrb	w21, [sp, #1148]
	ldrb	w24, [sp, #1149]
	str	w8, [sp, #356]
	ldrb	w8, [sp, #1157]
	ldrb	w2, [sp, #1158]
	str	w30, [sp, #304]
	ldr	x30, [sp, #528]
	str	w17, [sp, #144]
	str	w9, [sp, #136]
	b.hs	.LBB207_8
	ldr	x5, [sp, #112]
	sub	x17, x29, #80
	stur	wzr, [x17, #35]
	cmp	x5, x30
	stur	wzr, [x29, #-48]
	csel	w9, w10, wzr, hs
	ldr	w10, [sp, #280]
	csel	w12, w12, wzr, hs
	csel	w6, w6, wzr, hs
	csel	w8, w8, wzr, hs
	csel	w15, w15, wzr, hs
	csel	w10, w10, wzr, hs
	csel	w4, w4, wzr, hs
	csel	w3, w3, wzr, hs
	str	w10, [sp, #280]
	ldr	w10, [sp, #268]
	csel	w0, w0, wzr, hs
	stp	w12, w6, [sp, #60]
	csel	w14, w14, wzr, hs
	csel	w7, w7, wzr, hs
	csel	w10, w10, wzr, hs
	csel	w24, w24, wzr, hs
	ldr	w12, [sp, #256]
	str	w10, [sp, #268]
	ldr	w10, [sp, #284]
	csel	w16, w16, wzr, hs
	str	w8, [sp, #72]
	mov	w8, #6
	csel	w13, w13, wzr, hs
	csel	w10, w10, wzr, hs
	stp	w15, w4, [sp, #124]
	csel	w21, w21, wzr, hs
	stp	w3, w0, [sp, #80]
	ldr	w15, [sp, #348]
	csel	w8, w8, wzr, hs
	stp	w14, w7, [sp, #248]
	ldr	w7, [sp, #356]
	cset	w17, hs
	str	w24, [sp, #264]
	ldr	w24, [sp, #352]
	csel	w25, w25, wzr, hs
	str	w10, [sp, #284]
	ldr	w10, [sp, #304]
	csel	w18, w18, wzr, hs
	ldp	w0, w3, [sp, #4]
	csel	w23, w23, wzr, hs
	csel	w22, w22, wzr, hs
	str	w16, [sp, #132]
	csel	w20, w20, wzr, hs
	csel	w26, w26, wzr, hs
	csel	w19, w19, wzr, hs
	csel	w1, w1, wzr, hs
	stp	w13, w21, [sp, #88]
	csel	w12, w12, wzr, hs
	csel	w2, w2, wzr, hs
	stp	w8, w19, [sp, #28]
	csel	x8, x5, xzr, hs
	ldr	w16, [sp, #308]
	ldr	w4, [sp]
	ldr	x13, [sp, #288]
	stp	w2, w17, [sp, #96]
	csel	w30, w28, wzr, hs
	csel	w15, w15, wzr, hs
	str	w25, [sp, #164]
	csel	w24, w24, wzr, hs
	csel	w7, w7, wzr, hs
	stp	w23, w18, [sp, #20]
	csel	w10, w10, wzr, hs
	mov	w28, w9
	str	w22, [sp, #16]
	stp	w20, w26, [sp, #240]
	mov	x20, x27
	str	w1, [sp, #68]
	str	w12, [sp, #256]
	csel	x2, x11, xzr, hs
	str	x8, [sp, #48]
	b	.LBB207_16
.LBB207_6:
	ldr	x20, [sp, #536]
	ldr	w5, [sp, #524]
	cmp	w19, #1
	stur	wzr, [x12, #35]
	stur	wzr, [x29, #-48]
	b.ne	.LBB207_12
	str	w14, [sp, #136]
	mov	w28, wzr
	mov	w30, wzr
	str	x19, [sp, #104]
	mov	w7, wzr
	mov	w19, wzr
	stp	w17, w8, [sp, #144]
	mov	w8, wzr
	mov	w14, wzr
	mov	w6, wzr
	mov	w9, wzr
	mov	w15, wzr
	mov	w24, wzr
	mov	w21, wzr
	mov	w10, wzr
	mov	x2, xzr
	str	wzr, [sp, #24]
	str	xzr, [sp, #16]
	str	wzr, [sp, #124]
	str	xzr, [sp, #128]
	stp	xzr, xzr, [sp, #80]
	str	wzr, [sp, #60]
	str	xzr, [sp, #64]
	stp	wzr, wzr, [sp, #28]
	str	xzr, [sp, #280]
	str	wzr, [sp, #268]
	str	wzr, [sp, #256]
	str	wzr, [sp, #72]
	str	xzr, [sp, #96]
	str	xzr, [sp, #48]
	b	.LBB207_18
.LBB207_8:
	str	w28, [sp, #260]
	ldr	w28, [sp, #280]
	ldr	x9, [sp, #1120]
	stp	w6, w1, [sp, #64]
	cmp	x27, x11
	ldr	w1, [sp, #284]
	stp	w14, w7, [sp, #248]
	mov	w14, w10
	stp	w21, w2, [sp, #92]
	mov	x2, x11
	stp	w20, w26, [sp, #240]
	str	w24, [sp, #264]
	stp	w15, w4, [sp, #124]
	stp	w3, w0, [sp, #80]
	str	w16, [sp, #132]
	str	w13, [sp, #88]
	str	w12, [sp, #60]
	str	w8, [sp, #72]
	str	x9, [sp, #48]
	b.hs	.LBB207_15
	sub	x8, x29, #80
	ldr	w16, [sp, #308]
	ldr	w4, [sp]
	stur	wzr, [x8, #35]
	ldr	x8, [sp, #528]
	mov	x20, x27
	ldp	w0, w3, [sp, #4]
	cmp	x8, x9
	mov	w8, #3
	ldr	x13, [sp, #288]
	cinc	w8, w8, hs
	ldr	w30, [sp, #260]
	ldr	w24, [sp, #352]
	stp	w18, w8, [sp, #24]
	mov	w8, #1
	ldr	w7, [sp, #356]
	ldr	w15, [sp, #348]
	ldr	w10, [sp, #304]
	stp	w22, w23, [sp, #16]
	str	w25, [sp, #164]
	mov	w28, w14
	add	x27, sp, #1424
	stur	wzr, [x29, #-48]
	str	w8, [sp, #100]
	str	w19, [sp, #32]
	ldr	x19, [sp, #104]
	ldr	w22, [sp, #152]
	ldr	w18, [sp, #140]
	ldp	w23, w25, [sp, #156]
	cmp	w19, #1
	b.eq	.LBB207_17
.LBB207_10:
	ldp	w17, w8, [sp, #144]
	mov	x11, x2
	ldr	w14, [sp, #136]
	ldr	w5, [sp, #524]
	ldr	w2, [sp, #100]
	sub	x12, x29, #80
	cbz	w2, .LBB207_12
	str	w15, [sp, #348]
	ldur	w8, [x29, #-48]
	ldur	w9, [x12, #35]
	str	w24, [sp, #352]
	ldr	w12, [sp, #60]
	ldr	w5, [sp, #132]
	str	w7, [sp, #356]
	ldr	w6, [sp, #80]
	ldr	w16, [sp, #264]
	str	w30, [sp, #260]
	ldr	w0, [sp, #240]
	ldr	w30, [sp, #284]
	str	w10, [sp, #304]
	ldr	w2, [sp, #268]
	ldr	x26, [sp, #48]
	ldr	w1, [sp, #280]
	ldr	w10, [sp, #68]
	stur	w8, [x29, #-112]
	stur	w9, [x27, #243]
	ldp	w7, w13, [sp, #84]
	ldp	w14, w24, [sp, #28]
	ldp	w15, w4, [sp, #92]
	ldp	w18, w17, [sp, #248]
	b	.LBB207_26
.LBB207_12:
	cbz	w19, .LBB207_14
	ldp	w12, w11, [sp, #216]
	mov	w16, w14
	ldr	w6, [sp, #168]
	ldr	w1, [sp, #192]
	ldp	w14, w13, [sp, #208]
	ldp	w2, w9, [sp, #196]
	ldp	w15, w5, [sp, #172]
	ldp	w20, w10, [sp, #184]
	ldp	w7, w24, [sp, #224]
	ldp	w21, w19, [sp, #232]
	ldr	x26, [sp, #272]
	ldr	w27, [sp, #204]
	mov	w28, w8
	ldr	w30, [sp, #180]
	b	.LBB207_34
.LBB207_14:
	ldr	w8, [sp, #404]
	str	x20, [sp, #376]
	mov	w6, w5
	ldr	w9, [sp, #384]
	ldr	w5, [sp, #388]
	ldr	w15, [sp, #396]
	str	w8, [sp, #308]
	ldr	w8, [sp, #456]
	ldr	w16, [sp, #392]
	ldr	w3, [sp, #400]
	ldr	w0, [sp, #412]
	ldr	w4, [sp, #408]
	str	w8, [sp, #316]
	ldr	w8, [sp, #464]
	ldr	w10, [sp, #416]
	ldr	w20, [sp, #424]
	ldr	w1, [sp, #420]
	ldr	w2, [sp, #436]
	str	w8, [sp, #312]
	ldr	w8, [sp, #332]
	ldr	w7, [sp, #432]
	ldr	w19, [sp, #448]
	ldr	w21, [sp, #444]
	ldr	w24, [sp, #460]
	str	w8, [sp, #300]
	ldr	x8, [sp, #528]
	ldr	w25, [sp, #468]
	ldr	w30, [sp, #520]
	ldr	w23, [sp, #428]
	ldr	w11, [sp, #440]
	mov	x26, x8
	ldr	w22, [sp, #452]
	ldr	w12, [sp, #320]
	ldr	w13, [sp, #324]
	ldr	w14, [sp, #328]
	ldr	w28, [sp, #336]
	ldr	w27, [sp, #340]
	ldr	w17, [sp, #76]
	ldr	w18, [sp, #344]
	str	x8, [sp, #288]
	b	.LBB207_34
.LBB207_15:
	ldr	w8, [sp, #384]
	ldr	w10, [sp, #124]
	mov	w7, w18
	ldp	w30, w0, [sp, #80]
	cmp	w8, w25
	ldr	w8, [sp, #388]
	ldr	w12, [sp, #524]
	ldr	w6, [sp, #88]
	ldr	w15, [sp, #424]
	mov	x13, x2
	ccmp	w8, w18, #0, eq
	ldr	w8, [sp, #396]
	ldr	w11, [sp, #260]
	ldp	w26, w17, [sp, #240]
	ccmp	w8, w23, #0, eq
	ldr	w8, [sp, #392]
	ldr	w24, [sp, #68]
	ldr	w4, [sp, #264]
	ldr	w5, [sp, #268]
	mov	w2, w1
	ccmp	w8, w22, #0, eq
	ldr	w8, [sp, #404]
	ldr	w27, [sp, #256]
	ldr	w16, [sp, #348]
	ccmp	w8, w10, #0, eq
	ldr	w8, [sp, #400]
	ldp	w10, w9, [sp, #128]
	ccmp	w8, w10, #0, eq
	ldr	w8, [sp, #412]
	ldp	w20, w10, [sp, #72]
	ccmp	w8, w30, #0, eq
	ldr	w8, [sp, #408]
	ccmp	w8, w9, #0, eq
	cset	w8, ne
	cmp	w12, w0
	ldr	w12, [sp, #416]
	str	w14, [sp, #36]
	mov	w9, #2
	ccmp	w12, w6, #0, eq
	ldp	w18, w12, [sp, #60]
	ccmp	w15, w18, #0, eq
	ldr	w15, [sp, #420]
	ccmp	w15, w14, #0, eq
	ldr	w15, [sp, #436]
	ldp	w14, w21, [sp, #248]
	ccmp	w15, w11, #0, eq
	ldr	w15, [sp, #432]
	ldr	w11, [sp, #92]
	ccmp	w15, w26, #0, eq
	ldr	w15, [sp, #448]
	ccmp	w15, w17, #0, eq
	ldr	w15, [sp, #444]
	ccmp	w15, w12, #0, eq
	ldr	w15, [sp, #460]
	csinc	w8, w8, wzr, eq
	cmp	w15, w19
	ldr	w15, [sp, #456]
	ccmp	w15, w14, #0, eq
	ldr	w15, [sp, #468]
	ccmp	w15, w21, #0, eq
	ldr	w15, [sp, #464]
	ccmp	w15, w24, #0, eq
	ldr	w15, [sp, #520]
	ccmp	w15, w11, #0, eq
	ldr	w15, [sp, #428]
	ccmp	w15, w4, #0, eq
	ldr	w15, [sp, #440]
	ccmp	w15, w28, #0, eq
	ldr	w15, [sp, #452]
	ccmp	w15, w5, #0, eq
	ldr	w15, [sp, #320]
	csinc	w8, w8, wzr, eq
	cmp	w15, w1
	ldr	w15, [sp, #324]
	ldr	w1, [sp, #304]
	ccmp	w15, w27, #0, eq
	ldr	w15, [sp, #328]
	ccmp	w15, w16, #0, eq
	ldr	w15, [sp, #332]
	ldr	w16, [sp, #352]
	ccmp	w15, w16, #0, eq
	ldr	w15, [sp, #336]
	ldr	w16, [sp, #356]
	ccmp	w15, w16, #0, eq
	ldr	w15, [sp, #340]
	ldr	w16, [sp, #96]
	ccmp	w15, w20, #0, eq
	sub	x15, x29, #80
	ccmp	w10, w16, #0, eq
	mov	w10, w24
	ldr	w24, [sp, #344]
	stur	wzr, [x15, #35]
	ccmp	w24, w1, #0, eq
	mov	x24, x13
	mov	w13, w12
	csinc	w8, w8, wzr, eq
	ldr	w12, [sp, #124]
	stur	wzr, [x29, #-48]
	tst	w8, #0x1
	mov	w8, #5
	csel	w12, w12, wzr, ne
	csel	w18, w18, wzr, ne
	csel	w1, w10, wzr, ne
	str	w12, [sp, #124]
	ldr	w12, [sp, #128]
	csel	w10, w11, wzr, ne
	str	w18, [sp, #60]
	ldr	w18, [sp, #36]
	ldr	w11, [sp, #348]
	csel	w12, w12, wzr, ne
	csel	w30, w30, wzr, ne
	csel	w0, w0, wzr, ne
	str	w12, [sp, #128]
	ldr	w12, [sp, #132]
	csel	w18, w18, wzr, ne
	csel	w3, w26, wzr, ne
	csel	w26, w17, wzr, ne
	csel	w19, w19, wzr, ne
	csel	w12, w12, wzr, ne
	csel	w11, w11, wzr, ne
	csel	w8, w8, w9, ne
	str	w12, [sp, #132]
	ldr	w12, [sp, #260]
	csel	w13, w13, wzr, ne
	stp	w30, w0, [sp, #80]
	csel	w4, w4, wzr, ne
	csel	w28, w28, wzr, ne
	csel	w12, w12, wzr, ne
	stp	w3, w26, [sp, #240]
	csel	w2, w2, wzr, ne
	str	w12, [sp, #260]
	ldr	w12, [sp, #352]
	csel	w20, w20, wzr, ne
	stp	w19, w18, [sp, #32]
	mov	w15, w11
	csel	w16, w16, wzr, ne
	csel	w12, w12, wzr, ne
	str	w10, [sp, #92]
	ldr	w10, [sp, #304]
	str	w12, [sp, #352]
	ldr	w12, [sp, #356]
	csel	w7, w7, wzr, ne
	str	w11, [sp, #348]
	ldr	x11, [sp, #48]
	csel	w23, w23, wzr, ne
	str	w8, [sp, #28]
	mov	w8, #1
	csel	w12, w12, wzr, ne
	ldp	w0, w3, [sp, #4]
	stp	w13, w1, [sp, #64]
	ldr	w30, [sp, #260]
	ldr	x13, [sp, #288]
	str	w4, [sp, #264]
	ldr	w4, [sp]
	csel	w25, w25, wzr, ne
	str	w28, [sp, #280]
	ldr	w28, [sp, #36]
	csel	w22, w22, wzr, ne
	str	w2, [sp, #284]
	mov	x2, x24
	ldr	w24, [sp, #352]
	str	w20, [sp, #72]
	ldr	x20, [sp, #536]
	csel	w6, w6, wzr, ne
	stp	w16, w8, [sp, #96]
	ldr	w16, [sp, #308]
	csel	w14, w14, wzr, ne
	stp	w23, w7, [sp, #20]
	csel	w21, w21, wzr, ne
	csel	w5, w5, wzr, ne
	csel	w27, w27, wzr, ne
	mov	w7, w12
	csel	w10, w10, wzr, ne
	csel	x2, x2, xzr, ne
	csel	x11, x11, xzr, ne
	str	w25, [sp, #164]
	str	w22, [sp, #16]
	str	w6, [sp, #88]
	stp	w14, w21, [sp, #248]
	str	w5, [sp, #268]
	str	w27, [sp, #256]
	str	w12, [sp, #356]
	str	x11, [sp, #48]
.LBB207_16:
	add	x27, sp, #1424
	ldr	x19, [sp, #104]
	ldr	w22, [sp, #152]
	ldr	w18, [sp, #140]
	ldp	w23, w25, [sp, #156]
	cmp	w19, #1
	b.ne	.LBB207_10
.LBB207_17:
	ldp	w19, w14, [sp, #244]
	mov	w21, w7
	ldr	w8, [sp, #164]
	ldr	w5, [sp, #524]
	ldr	w9, [sp, #264]
	ldr	w6, [sp, #252]
	sub	x12, x29, #80
	ldr	w7, [sp, #240]
.LBB207_18:
	ldr	x17, [sp, #376]
	ldr	w27, [sp, #520]
	ldr	x11, [sp, #528]
	str	x2, [sp, #8]
	cmp	x17, x20
	str	w8, [sp, #164]
	str	w10, [sp, #304]
	str	w21, [sp, #356]
	str	w24, [sp, #352]
	str	w15, [sp, #348]
	str	w9, [sp, #264]
	stp	w14, w6, [sp, #248]
	stp	w7, w19, [sp, #240]
	str	w30, [sp, #260]
	str	w28, [sp, #36]
	b.hs	.LBB207_23
	ldr	w8, [sp, #144]
	cmp	x13, x11
	ldp	w30, w5, [sp, #180]
	ldr	w21, [sp, #136]
	csel	w2, w8, wzr, hs
	ldr	w8, [sp, #204]
	stur	wzr, [x12, #3]
	stur	wzr, [x29, #-80]
	cset	w26, hs
	csel	w24, w18, wzr, hs
	csel	w8, w8, wzr, hs
	mov	w20, w3
	csel	w19, w16, wzr, hs
	str	w8, [sp, #392]
	ldr	w8, [sp, #148]
	mov	w17, w21
	csel	w21, w21, wzr, hs
	csel	x10, x13, xzr, hs
	csel	w8, w8, wzr, hs
	str	w8, [sp, #388]
	ldr	w8, [sp, #300]
	csel	w8, w8, wzr, hs
	str	w8, [sp, #384]
	ldr	w8, [sp, #208]
	csel	w8, w8, wzr, hs
	str	w8, [sp, #524]
	ldr	w8, [sp, #212]
	csel	w8, w8, wzr, hs
	str	w8, [sp, #520]
	ldr	w8, [sp, #216]
	csel	w8, w8, wzr, hs
	str	w8, [sp, #468]
	csel	w8, w22, wzr, hs
	str	w8, [sp, #464]
	ldr	w8, [sp, #220]
	ldp	w7, w22, [sp, #168]
	csel	w8, w8, wzr, hs
	str	w8, [sp, #460]
	csel	w8, w23, wzr, hs
	ldr	w23, [sp, #176]
	str	w8, [sp, #456]
	csel	w8, w30, wzr, hs
	mov	w15, w22
	str	w8, [sp, #452]
	ldr	w8, [sp, #312]
	csel	w22, w22, wzr, hs
	mov	w14, w23
	csel	w23, w23, wzr, hs
	csel	w8, w8, wzr, hs
	str	w8, [sp, #448]
	csel	w8, w25, wzr, hs
	ldr	w25, [sp, #200]
	str	w8, [sp, #444]
	ldr	w8, [sp, #316]
	mov	w13, w25
	csel	w25, w25, wzr, hs
	csel	w8, w8, wzr, hs
	str	w8, [sp, #440]
	ldr	w8, [sp, #228]
	csel	w8, w8, wzr, hs
	str	w8, [sp, #436]
	ldr	w8, [sp, #232]
	csel	w8, w8, wzr, hs
	str	w8, [sp, #432]
	ldr	w8, [sp, #236]
	csel	w8, w8, wzr, hs
	str	w8, [sp, #428]
	ldr	w8, [sp, #224]
	csel	w8, w8, wzr, hs
	str	w8, [sp, #424]
	ldr	w8, [sp, #196]
	csel	w8, w8, wzr, hs
	str	w8, [sp, #420]
	ldp	w6, w8, [sp, #188]
	csel	w9, w6, wzr, hs
	csel	w8, w8, wzr, hs
	mov	w6, w7
	str	w9, [sp, #408]
	csel	w9, w7, wzr, hs
	mov	w7, w0
	str	w9, [sp, #404]
	csel	w9, w0, wzr, hs
	str	w9, [sp, #400]
	csel	w9, w3, wzr, hs
	str	w9, [sp, #396]
	mov	w9, #6
	csel	w11, w9, wzr, hs
	ldr	x9, [sp, #376]
	str	w8, [sp, #416]
	csel	w8, w5, wzr, hs
	sub	x5, x29, #80
	str	w8, [sp, #412]
	mov	w8, w4
	csel	w4, w4, wzr, hs
	csel	x9, x9, xzr, hs
	ldr	w16, [sp, #100]
	cbz	w16, .LBB207_28
.LBB207_20:
	ldur	w30, [x29, #-48]
	ldur	w27, [x5, #35]
	mov	w7, w4
	mov	w8, w24
	mov	w6, w2
	ldr	w2, [sp, #268]
	stur	w30, [x29, #-112]
	add	x30, sp, #1424
	ldr	w20, [sp, #280]
	ldp	w15, w4, [sp, #92]
	ldp	w24, w28, [sp, #32]
	stur	w27, [x30, #243]
	ldr	w30, [sp, #284]
	add	x27, sp, #1424
	sub	x3, x29, #80
	cbz	w26, .LBB207_25
	ldr	w17, [sp, #28]
	ldr	x1, [sp, #8]
	mov	w5, w15
	ldp	w14, w13, [sp, #84]
	ldr	w16, [sp, #132]
	ldr	w18, [sp, #80]
	cmp	w17, #3
	b.ls	.LBB207_62
	ldur	w8, [x29, #-48]
	ldur	w9, [x3, #35]
	mov	w11, w17
	ldp	w21, w22, [sp, #16]
	stur	w8, [x29, #-248]
	ldr	w23, [sp, #24]
	ldr	w25, [sp, #164]
	ldp	w19, w8, [sp, #124]
	stur	w9, [x27, #107]
	mov	w9, w16
	ldr	w16, [sp, #352]
	str	w24, [sp, #436]
	ldr	w24, [sp, #304]
	ldr	x10, [sp, #48]
	str	w8, [sp, #396]
	ldr	w8, [sp, #60]
	str	w5, [sp, #452]
	ldr	w5, [sp, #356]
	str	w8, [sp, #412]
	ldr	w8, [sp, #260]
	str	w2, [sp, #464]
	mov	w2, w4
	mov	w4, w9
	str	w8, [sp, #420]
	mov	x9, x1
	ldr	w8, [sp, #240]
	str	w18, [sp, #400]
	str	w8, [sp, #424]
	ldr	w8, [sp, #244]
	str	w14, [sp, #404]
	str	w8, [sp, #428]
	ldr	w8, [sp, #64]
	str	w13, [sp, #408]
	str	w8, [sp, #432]
	ldr	w8, [sp, #248]
	str	w28, [sp, #416]
	str	w8, [sp, #440]
	ldr	w8, [sp, #252]
	str	w20, [sp, #460]
	str	w8, [sp, #444]
	ldp	w8, w3, [sp, #68]
	str	w30, [sp, #468]
	str	w8, [sp, #448]
	ldr	w8, [sp, #264]
	str	w8, [sp, #456]
	ldr	w8, [sp, #256]
	str	w8, [sp, #520]
	ldr	w8, [sp, #348]
	str	w8, [sp, #524]
	ldr	x1, [sp, #472]
	cmp	w17, #2
	b.eq	.LBB207_30
	b	.LBB207_50
.LBB207_23:
	ldr	x8, [sp, #376]
	ldr	w19, [sp, #144]
	cmp	x20, x8
	b.hs	.LBB207_27
	ldr	x10, [sp, #272]
	mov	w8, #3
	str	w22, [sp, #464]
	ldp	w30, w5, [sp, #180]
	cmp	x11, x10
	str	w23, [sp, #456]
	ldr	w21, [sp, #136]
	cinc	w11, w8, hs
	ldr	w8, [sp, #204]
	str	w25, [sp, #444]
	ldp	w7, w22, [sp, #168]
	str	w8, [sp, #392]
	ldr	w8, [sp, #148]
	mov	w26, #1
	ldr	w23, [sp, #176]
	ldr	w25, [sp, #200]
	mov	w24, w18
	str	w8, [sp, #388]
	ldr	w8, [sp, #300]
	mov	w2, w19
	ldr	x9, [sp, #376]
	str	w5, [sp, #412]
	sub	x5, x29, #80
	str	w8, [sp, #384]
	ldr	w8, [sp, #208]
	mov	w20, w3
	str	w7, [sp, #404]
	mov	w19, w16
	mov	w17, w21
	str	w8, [sp, #524]
	ldr	w8, [sp, #212]
	mov	w15, w22
	mov	w14, w23
	mov	w13, w25
	stur	wzr, [x12, #3]
	str	w8, [sp, #520]
	ldr	w8, [sp, #216]
	stur	wzr, [x29, #-80]
	str	w8, [sp, #468]
	ldr	w8, [sp, #220]
	str	w30, [sp, #452]
	str	w8, [sp, #460]
	ldr	w8, [sp, #312]
	str	w0, [sp, #400]
	str	w8, [sp, #448]
	ldr	w8, [sp, #316]
	str	w3, [sp, #396]
	str	w8, [sp, #440]
	ldr	w8, [sp, #228]
	str	w8, [sp, #436]
	ldr	w8, [sp, #232]
	str	w8, [sp, #432]
	ldr	w8, [sp, #236]
	str	w8, [sp, #428]
	ldr	w8, [sp, #224]
	str	w8, [sp, #424]
	ldr	w8, [sp, #196]
	str	w8, [sp, #420]
	ldp	w6, w8, [sp, #188]
	str	w8, [sp, #416]
	mov	w8, w4
	str	w6, [sp, #408]
	mov	w6, w7
	mov	w7, w0
	ldr	w16, [sp, #100]
	cbnz	w16, .LBB207_20
	b	.LBB207_28
.LBB207_25:
	ldp	w18, w17, [sp, #248]
	ldp	w7, w13, [sp, #84]
	ldr	x11, [sp, #8]
	ldr	w16, [sp, #264]
	mov	w1, w20
	ldr	w10, [sp, #68]
	ldr	w0, [sp, #240]
	ldr	w12, [sp, #60]
	ldr	w5, [sp, #132]
	ldr	w6, [sp, #80]
	ldr	x26, [sp, #48]
	ldr	w14, [sp, #28]
.LBB207_26:
	ldur	w8, [x29, #-112]
	ldur	w9, [x27, #243]
	str	w24, [sp, #436]
	ldp	w21, w22, [sp, #16]
	stur	w8, [x29, #-248]
	ldr	w3, [sp, #72]
	ldr	w24, [sp, #304]
	stur	w9, [x27, #107]
	mov	w9, w5
	ldr	w5, [sp, #356]
	str	w16, [sp, #456]
	ldr	w16, [sp, #352]
	ldr	w23, [sp, #24]
	ldr	w25, [sp, #164]
	str	w6, [sp, #400]
	str	w7, [sp, #404]
	str	w13, [sp, #408]
	ldp	w19, w8, [sp, #124]
	str	w12, [sp, #412]
	str	w28, [sp, #416]
	str	w8, [sp, #396]
	ldr	w8, [sp, #260]
	str	w0, [sp, #424]
	str	w8, [sp, #420]
	ldr	w8, [sp, #244]
	str	w18, [sp, #440]
	str	w8, [sp, #428]
	ldr	w8, [sp, #64]
	str	w17, [sp, #444]
	str	w8, [sp, #432]
	ldr	w8, [sp, #256]
	str	w10, [sp, #448]
	mov	x10, x26
	str	w8, [sp, #520]
	ldr	w8, [sp, #348]
	str	w15, [sp, #452]
	str	w1, [sp, #460]
	str	w2, [sp, #464]
	mov	w2, w4
	mov	w4, w9
	str	w30, [sp, #468]
	mov	x9, x11
	mov	w11, w14
	str	w8, [sp, #524]
	b	.LBB207_29
.LBB207_27:
	ldr	w8, [sp, #384]
	ldr	w9, [sp, #200]
	ldr	w7, [sp, #168]
	ldp	w2, w28, [sp, #172]
	cmp	w8, w9
	ldr	w8, [sp, #388]
	ldr	w9, [sp, #136]
	ldp	w14, w13, [sp, #192]
	ccmp	w8, w28, #0, eq
	ldr	w8, [sp, #396]
	stur	wzr, [x12, #3]
	ldp	w12, w24, [sp, #224]
	ccmp	w8, w2, #0, eq
	ldr	w8, [sp, #392]
	ldr	w11, [sp, #236]
	ldr	w10, [sp, #444]
	ldr	w15, [sp, #316]
	ldr	w26, [sp, #180]
	ccmp	w8, w9, #0, eq
	ldr	w8, [sp, #404]
	ldr	w9, [sp, #416]
	ldr	w21, [sp, #148]
	stur	wzr, [x29, #-80]
	ccmp	w8, w16, #0, eq
	mov	w16, w0
	ldr	w8, [sp, #400]
	ldp	w20, w1, [sp, #216]
	ccmp	w8, w3, #0, eq
	ldr	w8, [sp, #412]
	ccmp	w8, w0, #0, eq
	ldr	w8, [sp, #408]
	ldr	w0, [sp, #300]
	ccmp	w8, w4, #0, eq
	cset	w8, ne
	cmp	w5, w7
	ldp	w5, w6, [sp, #184]
	ccmp	w9, w6, #0, eq
	ldr	w9, [sp, #424]
	ccmp	w9, w5, #0, eq
	ldr	w9, [sp, #420]
	ccmp	w9, w14, #0, eq
	ldr	w9, [sp, #436]
	ccmp	w9, w13, #0, eq
	ldr	w9, [sp, #432]
	ccmp	w9, w12, #0, eq
	ldr	w9, [sp, #448]
	ccmp	w9, w11, #0, eq
	ldr	w9, [sp, #232]
	ccmp	w10, w9, #0, eq
	ldr	w10, [sp, #460]
	csinc	w8, w8, wzr, eq
	cmp	w10, w24
	ldr	w10, [sp, #456]
	ccmp	w10, w15, #0, eq
	ldr	w10, [sp, #468]
	ldr	w15, [sp, #312]
	ccmp	w10, w25, #0, eq
	ldr	w10, [sp, #464]
	ccmp	w10, w15, #0, eq
	ldr	w10, [sp, #428]
	ldr	w15, [sp, #204]
	ccmp	w27, w26, #0, eq
	ccmp	w10, w23, #0, eq
	ldr	w10, [sp, #440]
	ldp	w30, w27, [sp, #208]
	ccmp	w10, w1, #0, eq
	ldr	w10, [sp, #452]
	ccmp	w10, w22, #0, eq
	ldr	w10, [sp, #320]
	csinc	w8, w8, wzr, eq
	cmp	w10, w20
	ldr	w10, [sp, #324]
	ccmp	w10, w27, #0, eq
	ldr	w10, [sp, #328]
	ccmp	w10, w30, #0, eq
	ldr	w10, [sp, #332]
	ccmp	w10, w0, #0, eq
	ldr	w10, [sp, #336]
	ccmp	w10, w21, #0, eq
	ldr	w10, [sp, #340]
	ccmp	w10, w15, #0, eq
	ldr	w10, [sp, #76]
	ccmp	w10, w19, #0, eq
	ldr	w10, [sp, #344]
	ccmp	w10, w18, #0, eq
	mov	w10, w24
	csinc	w8, w8, wzr, eq
	tst	w8, #0x1
	csel	w8, w15, wzr, ne
	csel	w24, w18, wzr, ne
	csel	w18, w19, wzr, ne
	str	w8, [sp, #392]
	csel	w8, w21, wzr, ne
	ldr	w21, [sp, #136]
	str	w8, [sp, #388]
	csel	w8, w0, wzr, ne
	mov	w15, w2
	str	w8, [sp, #384]
	csel	w8, w30, wzr, ne
	mov	w30, w26
	str	w8, [sp, #524]
	csel	w8, w27, wzr, ne
	mov	w17, w21
	str	w8, [sp, #520]
	csel	w8, w20, wzr, ne
	mov	w20, w3
	str	w8, [sp, #468]
	csel	w8, w22, wzr, ne
	mov	w22, w2
	str	w8, [sp, #464]
	csel	w8, w1, wzr, ne
	csel	w21, w21, wzr, ne
	str	w8, [sp, #460]
	csel	w8, w23, wzr, ne
	mov	w2, w18
	str	w8, [sp, #456]
	csel	w8, w26, wzr, ne
	csel	w22, w22, wzr, ne
	str	w8, [sp, #452]
	ldr	w8, [sp, #312]
	csel	w23, w28, wzr, ne
	mov	w26, #1
	csel	w8, w8, wzr, ne
	str	w8, [sp, #448]
	csel	w8, w25, wzr, ne
	ldr	w25, [sp, #200]
	str	w8, [sp, #444]
	ldr	w8, [sp, #316]
	csel	w8, w8, wzr, ne
	str	w8, [sp, #440]
	csel	w8, w10, wzr, ne
	mov	w10, #5
	str	w8, [sp, #436]
	csel	w8, w9, wzr, ne
	csel	w9, w6, wzr, ne
	str	w9, [sp, #408]
	csel	w9, w7, wzr, ne
	mov	w6, w7
	str	w9, [sp, #404]
	csel	w9, w16, wzr, ne
	mov	w7, w16
	str	w9, [sp, #400]
	csel	w9, w3, wzr, ne
	ldr	x16, [sp, #272]
	str	w8, [sp, #432]
	csel	w8, w11, wzr, ne
	str	w9, [sp, #396]
	ldr	w9, [sp, #308]
	str	w8, [sp, #428]
	csel	w8, w12, wzr, ne
	str	w8, [sp, #424]
	csel	w8, w13, wzr, ne
	csel	w19, w9, wzr, ne
	mov	w9, #2
	str	w8, [sp, #420]
	csel	w8, w14, wzr, ne
	csel	w11, w10, w9, ne
	ldr	x9, [sp, #376]
	str	w8, [sp, #416]
	csel	w8, w5, wzr, ne
	sub	x5, x29, #80
	mov	w14, w28
	str	w8, [sp, #412]
	mov	w8, w4
	csel	w4, w4, wzr, ne
	mov	w13, w25
	csel	w25, w25, wzr, ne
	csel	x9, x9, xzr, ne
	csel	x10, x16, xzr, ne
	ldr	w16, [sp, #100]
	cbnz	w16, .LBB207_20
.LBB207_28:
	ldur	w18, [x29, #-80]
	ldur	w27, [x5, #3]
	ldr	w3, [sp, #392]
	ldr	w5, [sp, #388]
	ldr	w16, [sp, #384]
	stur	w18, [x29, #-248]
	add	x18, sp, #1424
	stur	w27, [x18, #107]
	add	x27, sp, #1424
	cbz	w26, .LBB207_33
.LBB207_29:
	ldr	x1, [sp, #472]
	cmp	w11, #2
	b.ne	.LBB207_50
.LBB207_30:
	ldr	x30, [sp, #528]
	ldr	x13, [sp, #112]
	movi	v0.2d, #0000000000000000
	ldr	x18, [sp, #1112]
	ldr	x14, [sp, #536]
	mov	w8, w16
	cmp	x30, x13
	ldr	x15, [sp, #288]
	ldr	x17, [sp, #376]
	csel	x27, x30, x13, hi
	cmp	x18, x14
	ldr	x14, [sp, #40]
	ldr	x12, [sp, #536]
	ldr	x28, [sp, #1120]
	ldr	x16, [sp, #536]
	ccmp	w14, #0, #4, eq
	stp	q0, q0, [x29, #-112]
	csel	x27, x27, x13, ne
	mov	x13, x14
	ldr	x14, [sp, #104]
	cmp	x30, x15
	str	x27, [sp, #1216]
	csel	x30, x30, x15, hi
	cmp	x17, x12
	mov	x17, x14
	ccmp	w14, #0, #4, eq
	csel	x30, x30, x15, ne
	str	x30, [sp, #1224]
	add	x30, sp, #1104
	cbz	w13, .LBB207_40
	add	x27, sp, #768
	cmp	x18, x16
	b.ne	.LBB207_41
	ldur	q1, [x27, #104]
	ldur	q2, [x27, #120]
	ldr	x27, [sp, #528]
	cmp	x27, x28
	stur	q1, [x29, #-48]
	csel	x28, x27, x28, lo
	b	.LBB207_42
.LBB207_33:
	mov	w9, w13
	mov	w5, w14
	mov	w16, w17
	mov	w3, w20
	mov	w0, w7
	ldr	x26, [sp, #272]
	ldp	w20, w10, [sp, #184]
	ldp	w1, w2, [sp, #192]
	ldp	w7, w24, [sp, #224]
	ldp	w21, w19, [sp, #232]
	ldp	w23, w25, [sp, #156]
	ldp	w12, w11, [sp, #216]
	ldp	w28, w22, [sp, #148]
	ldp	w14, w13, [sp, #208]
	ldp	w18, w17, [sp, #140]
	ldr	w27, [sp, #204]
	mov	w4, w8
.LBB207_34:
	sturb	w9, [x29, #-224]
	ldr	w9, [sp, #308]
	ldr	x8, [sp, #376]
	sturb	w0, [x29, #-218]
	add	x0, sp, #1488
	sturb	w9, [x29, #-220]
	ldr	w9, [sp, #316]
	stp	x8, x26, [x29, #-240]
	add	x8, sp, #1104
	sturb	w9, [x29, #-207]
	ldr	w9, [sp, #312]
	sturb	w1, [x29, #-213]
	add	x1, x8, #160
	sturb	w9, [x29, #-205]
	ldr	w9, [sp, #300]
	sturb	w5, [x29, #-223]
	sturb	w15, [x29, #-222]
	sturb	w16, [x29, #-221]
	sturb	w3, [x29, #-219]
	sturb	w4, [x29, #-217]
	sturb	w6, [x29, #-216]
	sturb	w10, [x29, #-215]
	sturb	w20, [x29, #-214]
	sturb	w2, [x29, #-212]
	sturb	w7, [x29, #-211]
	sturb	w19, [x29, #-210]
	add	x19, sp, #1488
	sturb	w21, [x29, #-209]
	sturb	w24, [x29, #-208]
	sturb	w25, [x29, #-206]
	sturb	w30, [x29, #-204]
	sturb	w23, [x29, #-203]
	sturb	w11, [x29, #-202]
	sturb	w22, [x29, #-201]
	sturb	w12, [x29, #-200]
	sturb	w13, [x29, #-199]
	sturb	w14, [x29, #-198]
	sturb	w9, [x29, #-197]
	sturb	w28, [x29, #-196]
	sturb	w27, [x29, #-195]
	sturb	w17, [x29, #-194]
	sturb	w18, [x29, #-193]
	bl	"ct_monitor::peaks::Peaks::copied::<#731e1d2bba769a9a>"
	ldrb	w8, [sp, #1488]
	ldr	x25, [sp, #368]
	cbnz	w8, .LBB207_36
	ldr	x3, [sp, #288]
	sub	x0, x29, #192
	add	x1, sp, #1104
	sub	x2, x29, #240
	orr	x4, x19, #0x8
	bl	"ct_monitor::watcher::Watcher::settle::<#e78d81957da20adf>"
	add	x9, sp, #1424
	ldur	x8, [x29, #-136]
	ldurb	w11, [x29, #-184]
	ldur	q0, [x9, #201]
	ldur	q1, [x9, #185]
	ldur	q2, [x9, #169]
	stur	x8, [x9, #47]
	str	q0, [sp, #1456]
	ldur	x8, [x9, #47]
	add	x9, sp, #768
	ldr	q0, [sp, #1456]
	str	q1, [sp, #1440]
	stur	x8, [x9, #47]
	ldurb	w8, [x29, #-192]
	str	q2, [sp, #1424]
	stp	q1, q0, [sp, #784]
	str	q2, [sp, #768]
	cbz	w8, .LBB207_61
.LBB207_36:
	ldr	x8, [sp, #1256]
	cbz	x8, .LBB207_38
	ldr	x0, [sp, #1240]
	bl	rattle_dealloc
.LBB207_38:
	ldr	x8, [sp, #1288]
	cbz	x8, .LBB207_1
	ldr	x0, [sp, #1272]
	bl	rattle_dealloc
	b	.LBB207_1
.LBB207_40:
	mov	x18, xzr
	mov	x28, xzr
	add	x27, sp, #1424
	mov	x15, x17
	b	.LBB207_43
.LBB207_41:
	ldur	q1, [x27, #104]
	ldur	q2, [x27, #120]
	stur	q1, [x29, #-48]
.LBB207_42:
	stur	q2, [x29, #-32]
	mov	x15, x17
	add	x27, sp, #1424
	ldp	q1, q2, [x29, #-48]
	stp	q1, q2, [x29, #-112]
.LBB207_43:
	ldp	q1, q2, [x29, #-112]
	str	x18, [sp, #1112]
	add	x18, sp, #1104
	str	x13, [sp, #1104]
	str	x28, [sp, #1120]
	stur	q1, [x30, #24]
	stur	q2, [x30, #40]
	stp	q0, q0, [x29, #-48]
	cbz	w15, .LBB207_46
	ldr	x17, [sp, #376]
	cmp	x17, x16
	b.ne	.LBB207_47
	ldr	x28, [sp, #528]
	ldr	x16, [sp, #272]
	ldp	q0, q1, [x18, #80]
	cmp	x28, x16
	csel	x16, x28, x16, lo
	stur	q0, [x29, #-80]
	str	x16, [sp, #272]
	b	.LBB207_48
.LBB207_46:
	mov	x28, xzr
	mov	x16, xzr
	b	.LBB207_49
.LBB207_47:
	ldp	q0, q1, [x18, #80]
	stur	q0, [x29, #-80]
.LBB207_48:
	stur	q1, [x29, #-64]
	ldr	x28, [sp, #376]
	ldr	x16, [sp, #272]
	ldp	q0, q1, [x29, #-80]
	stp	q0, q1, [x29, #-48]
.LBB207_49:
	ldp	q0, q1, [x29, #-48]
	str	x16, [sp, #1176]
	mov	w16, w8
	str	x15, [sp, #1160]
	str	x28, [sp, #1168]
	stp	q0, q1, [x29, #-112]
	stp	q0, q1, [x18, #80]
.LBB207_50:
	ldr	w8, [sp, #396]
	stp	x9, x10, [x29, #-176]
	ldur	w9, [x29, #-248]
	sturb	w25, [x29, #-160]
	ldp	x10, x25, [sp, #360]
	sturb	w8, [x29, #-155]
	ldr	w8, [sp, #400]
	sturb	w23, [x29, #-159]
	sturb	w8, [x29, #-154]
	ldr	w8, [sp, #404]
	sturb	w22, [x29, #-158]
	sturb	w8, [x29, #-152]
	ldr	w8, [sp, #408]
	sturb	w21, [x29, #-157]
	sturb	w8, [x29, #-151]
	ldr	w8, [sp, #412]
	sturb	w19, [x29, #-156]
	sturb	w8, [x29, #-150]
	ldr	w8, [sp, #416]
	sturb	w4, [x29, #-153]
	sturb	w8, [x29, #-149]
	ldr	w8, [sp, #420]
	stur	w9, [x27, #169]
	add	x9, sp, #768
	sturb	w8, [x29, #-148]
	ldr	w8, [sp, #424]
	sturb	w16, [x29, #-133]
	sturb	w8, [x29, #-147]
	ldr	w8, [sp, #428]
	sturb	w5, [x29, #-132]
	sturb	w8, [x29, #-146]
	ldr	w8, [sp, #432]
	sturb	w3, [x29, #-131]
	sturb	w8, [x29, #-145]
	ldr	w8, [sp, #436]
	sturb	w2, [x29, #-130]
	ldr	x2, [sp, #480]
	sturb	w8, [x29, #-144]
	ldr	w8, [sp, #440]
	sturb	w24, [x29, #-129]
	sturb	w8, [x29, #-143]
	ldr	w8, [sp, #444]
	sturb	w8, [x29, #-142]
	ldr	w8, [sp, #448]
	sturb	w8, [x29, #-141]
	ldr	w8, [sp, #452]
	sturb	w8, [x29, #-140]
	ldr	w8, [sp, #456]
	sturb	w8, [x29, #-139]
	ldr	w8, [sp, #460]
	sturb	w8, [x29, #-138]
	ldr	w8, [sp, #464]
	sturb	w8, [x29, #-137]
	ldr	w8, [sp, #468]
	sturb	w8, [x29, #-136]
	ldr	w8, [sp, #520]
	ldur	q0, [x27, #201]
	sturb	w8, [x29, #-135]
	ldr	w8, [sp, #524]
	str	q0, [sp, #1456]
	ldur	q0, [x27, #185]
	sturb	w8, [x29, #-134]
	ldur	w8, [x27, #107]
	str	q0, [sp, #1440]
	stur	w8, [x29, #-180]
	ldur	x8, [x29, #-136]
	ldur	q1, [x27, #169]
	stur	x8, [x27, #47]
	str	q1, [sp, #1424]
	ldr	q0, [sp, #1456]
	ldr	q1, [sp, #1440]
	ldr	q2, [sp, #1424]
	stur	x8, [x9, #47]
	stp	q1, q0, [sp, #784]
	str	q2, [sp, #768]
.LBB207_51:
	ldp	q0, q1, [sp, #768]
	add	x8, sp, #1040
	ldr	q2, [sp, #800]
	ldur	x9, [x9, #47]
	add	x0, sp, #1296
	add	x1, x1, x10
	add	x3, sp, #1040
	add	x4, sp, #1104
	strb	w11, [sp, #1040]
	stur	q0, [x8, #1]
	stur	q1, [x8, #17]
	stur	q2, [x8, #33]
	str	x9, [sp, #1088]
	bl	"ct_monitor::calls::answer_after"
	ldr	x8, [sp, #1256]
	cbz	x8, .LBB207_53
	ldr	x0, [sp, #1240]
	bl	rattle_dealloc
.LBB207_53:
	ldp	x21, x20, [sp, #504]
	ldr	x8, [sp, #1288]
	ldp	x24, x22, [sp, #488]
	cbz	x8, .LBB207_55
	ldr	x0, [sp, #1272]
	bl	rattle_dealloc
.LBB207_55:
	ldr	q0, [sp, #1360]
	ldr	q1, [sp, #1376]
	ldr	q2, [sp, #1392]
	ldr	q3, [sp, #1344]
	ldr	x8, [sp, #1408]
	ldrb	w9, [sp, #1296]
	stp	q0, q1, [sp, #704]
	ldr	q0, [sp, #1312]
	ldr	q1, [sp, #1328]
	str	q2, [sp, #736]
	stp	q0, q1, [sp, #656]
	ldp	q1, q0, [sp, #656]
	str	q3, [sp, #688]
	str	x8, [sp, #752]
	str	x8, [sp, #640]
	ldrb	w8, [sp, #1304]
	stp	q1, q0, [sp, #544]
	ldp	q1, q0, [sp, #720]
	stp	q1, q0, [sp, #608]
	ldp	q2, q0, [sp, #688]
	stp	q2, q0, [sp, #576]
	cbnz	w9, .LBB207_1
	cmp	w8, #1
	b.ne	.LBB207_59
	ldr	x23, [sp, #624]
	ldr	x19, [sp, #640]
	add	x0, sp, #544
	add	x2, x24, x25
	mov	x1, x22
	mov	x3, x21
	mov	x4, x20
	bl	"libwagtenib::monitor::give"
	cbz	x19, .LBB207_60
	mov	w19, w0
	mov	x0, x23
	bl	rattle_dealloc
	mov	w0, w19
	b	.LBB207_60
.LBB207_59:
	mov	w0, #36
.LBB207_60:
	add	sp, sp, #1776
	ldp	x20, x19, [sp, #80]
	ldp	x22, x21, [sp, #64]
	ldp	x24, x23, [sp, #48]
	ldp	x26, x25, [sp, #32]
	ldp	x28, x27, [sp, #16]
	ldp	x29, x30, [sp], #96
	ret
.LBB207_61:
	ldp	x1, x2, [sp, #472]
	ldr	x10, [sp, #360]
	b	.LBB207_51
.LBB207_62:
	ldp	w15, w0, [sp, #124]
	ldr	w12, [sp, #264]
	cmp	w11, #4
	b.lo	.LBB207_64
	ldur	w18, [x29, #-80]
	ldur	w27, [x3, #3]
	add	x28, sp, #1424
	ldr	w3, [sp, #392]
	ldr	w5, [sp, #388]
	mov	w24, w8
	ldr	w16, [sp, #384]
	stur	w18, [x29, #-120]
	mov	w2, w6
	stur	w27, [x28, #235]
	b	.LBB207_65
.LBB207_64:
	ldur	w8, [x29, #-48]
	ldur	w9, [x3, #35]
	mov	w7, w16
	ldp	w22, w23, [sp, #20]
	stur	w8, [x29, #-120]
	ldr	w8, [sp, #60]
	mov	w19, w15
	ldr	w25, [sp, #164]
	ldr	w21, [sp, #16]
	mov	w11, w17
	str	w8, [sp, #412]
	ldr	w8, [sp, #260]
	ldr	w16, [sp, #352]
	str	w24, [sp, #436]
	ldr	w24, [sp, #304]
	ldr	x10, [sp, #48]
	str	w8, [sp, #420]
	ldr	w8, [sp, #240]
	str	w5, [sp, #452]
	ldr	w5, [sp, #356]
	str	w8, [sp, #424]
	ldr	w8, [sp, #244]
	stur	w9, [x27, #235]
	mov	x9, x1
	str	w8, [sp, #428]
	ldr	w8, [sp, #64]
	str	w2, [sp, #464]
	mov	w2, w4
	str	w8, [sp, #432]
	ldr	w8, [sp, #248]
	str	w0, [sp, #396]
	str	w8, [sp, #440]
	ldr	w8, [sp, #252]
	str	w18, [sp, #400]
	str	w8, [sp, #444]
	ldp	w8, w3, [sp, #68]
	str	w14, [sp, #404]
	str	w13, [sp, #408]
	str	w8, [sp, #448]
	ldr	w8, [sp, #256]
	str	w28, [sp, #416]
	str	w8, [sp, #520]
	ldr	w8, [sp, #348]
	str	w12, [sp, #456]
	str	w20, [sp, #460]
	str	w30, [sp, #468]
	str	w8, [sp, #524]
.LBB207_65:
	add	x28, sp, #1424
	ldur	w18, [x29, #-120]
	mov	w4, w7
	ldur	w27, [x28, #235]
	stur	w18, [x29, #-248]
	stur	w27, [x28, #107]
	add	x27, sp, #1424
	ldr	x1, [sp, #472]
	cmp	w11, #2
	b.eq	.LBB207_30
	b	.LBB207_50
.Lfunc_end207:
	.size	wagtenib_monitor_head, .Lfunc_end207-wagtenib_monitor_head
	.section	.rodata.cst16,"aM",@progbits,16
	.p2align	4, 0x0
.LCPI208_0:
	.word	1779033703
	.word	3144134277
	.word	1013904242
	.word	2773480762
.LCPI208_1:
	.word	1359893119
	.word	2600822924
	.word	528734635
	.word	1541459225
.LCPI208_2:
	.word	0
	.word	4294967288
	.word	4294967280
	.word	4294967272
.LCPI208_3:
	.byte	1
	.byte	2
	.byte	4
	.byte	8
	.byte	16
	.byte	32
	.byte	64
	.byte	128
	.byte	1
	.byte	2
	.byte	4
	.byte	8
	.byte	16
	.byte	32
	.byte	64
	.byte	128
	.section	.text.wagtenib_monitor_older,"ax",@progbits
	.globl	wagtenib_monitor_older
	.p2align	2
	.type	wagtenib_monitor_older,@function
wagtenib_monitor_older:
	stp	x29, x30, [sp, #-96]!
	stp	x28, x27, [sp, #16]
	mov	x29, sp
	stp	x26, x25, [sp, #32]
	stp	x24, x23, [sp, #48]
	stp	x22, x21, [sp, #64]
	stp	x20, x19, [sp, #80]
	sub	sp, sp, #896
	movi	v0.2d, #0000000000000000
	ldp	q1, q2, [x2, #16]
	cmp	x0, #0
	mov	w10, #4096
	mov	x8, x1
	mov	x9, x0
	csel	x11, x10, xzr, eq
	cmp	x3, #0
	ldp	x28, x22, [x2]
	csel	x27, x10, xzr, eq
	cmp	x6, #0
	add	x0, sp, #256
	add	x1, x9, x11
	mov	x2, x8
	mov	x19, x7
	mov	x21, x6
	mov	x20, x5
	mov	x24, x4
	mov	x25, x3
	str	q0, [sp, #496]
	csel	x26, x10, xzr, eq
	stp	q0, q0, [sp, #144]
	stp	q0, q0, [sp, #208]
	stp	q0, q0, [sp, #256]
	stp	q0, q0, [sp, #288]
	stp	q0, q0, [sp, #464]
	stp	q1, q2, [sp, #528]
	str	xzr, [sp, #512]
	stp	q0, q0, [sp, #176]
	stp	q0, q0, [sp, #320]
	stp	q0, q0, [sp, #352]
	stp	q0, q0, [sp, #384]
	stp	q0, q0, [sp, #416]
	str	q0, [sp, #448]
	str	q0, [sp, #240]
	bl	"ct_monitor::reading::read_state"
	ldrb	w8, [sp, #256]
	cbz	w8, .LBB208_2
.LBB208_1:
	mov	w0, #8
	b	.LBB208_4
.LBB208_2:
	ldrb	w8, [sp, #264]
	cmp	w8, #1
	b.eq	.LBB208_5
	mov	w0, #36
.LBB208_4:
	add	sp, sp, #896
	ldp	x20, x19, [sp, #80]
	ldp	x22, x21, [sp, #64]
	ldp	x24, x23, [sp, #48]
	ldp	x26, x25, [sp, #32]
	ldp	x28, x27, [sp, #16]
	ldp	x29, x30, [sp], #96
	ret
.LBB208_5:
	ldrb	w11, [sp, #272]
	ldr	x12, [sp, #408]
	add	x23, sp, #608
	ldp	q0, q1, [sp, #528]
	ldr	x9, [sp, #280]
	cmp	w11, #1
	ldr	x11, [sp, #424]
	ldrb	w10, [sp, #328]
	ldr	x8, [sp, #336]
	stp	x28, x22, [x29, #-240]
	add	x22, sp, #256
	str	x11, [sp, #16]
	ldr	x11, [sp, #440]
	stp	q0, q1, [x29, #-224]
	stp	x12, x11, [sp]
	ldr	x11, [sp, #456]
	str	x11, [sp, #24]
	b.ne	.LBB208_8
	cmp	x28, x9
	b.hs	.LBB208_8
	ldp	q0, q1, [sp, #288]
	ldr	x8, [sp, #320]
	str	x8, [sp, #592]
	b	.LBB208_11
.LBB208_8:
	cmp	w10, #1
	b.ne	.LBB208_15
	cmp	x28, x8
	b.hs	.LBB208_15
	ldr	x9, [sp, #376]
	ldur	q0, [x22, #88]
	ldur	q1, [x22, #104]
	str	x9, [sp, #592]
	mov	x9, x8
.LBB208_11:
	stp	q0, q1, [sp, #560]
	ldp	q0, q1, [sp, #560]
	ldr	x8, [sp, #592]
	str	x9, [sp, #608]
	str	x8, [sp, #648]
	stur	q0, [x23, #8]
	stur	q1, [x23, #24]
	cbnz	x28, .LBB208_13
	movi	v2.2d, #0000000000000000
	adrp	x8, .LCPI208_0
	adrp	x9, .LCPI208_1
	ldr	q0, [x8, :lo12:.LCPI208_0]
	ldr	q1, [x9, :lo12:.LCPI208_1]
	adrp	x1, .Lstatic.5
	add	x1, x1, :lo12:.Lstatic.5
	sub	x0, x29, #128
	mov	w2, #56
	stur	xzr, [x29, #-32]
	stp	q0, q1, [x29, #-128]
	stp	q2, q2, [x29, #-96]
	stp	q2, q2, [x29, #-64]
	bl	"sha2::block256::Core256::update"
	sub	x0, x29, #128
	sub	x1, x29, #136
	mov	w2, #8
	stur	xzr, [x29, #-136]
	bl	"sha2::block256::Core256::update"
	ldp	q1, q0, [x29, #-128]
	adrp	x8, .LCPI208_2
	ldr	q2, [x8, :lo12:.LCPI208_2]
	adrp	x8, .LCPI208_3
	mov	w10, #5
	rev32	v0.16b, v0.16b
	rev32	v1.16b, v1.16b
	dup	v3.4s, v0.s[0]
	dup	v4.4s, v0.s[1]
	dup	v5.4s, v1.s[2]
	dup	v6.4s, v1.s[3]
	dup	v7.4s, v0.s[3]
	dup	v16.4s, v1.s[0]
	dup	v1.4s, v1.s[1]
	dup	v0.4s, v0.s[2]
	ushl	v4.4s, v4.4s, v2.4s
	ushl	v3.4s, v3.4s, v2.4s
	ushl	v5.4s, v5.4s, v2.4s
	ushl	v7.4s, v7.4s, v2.4s
	ushl	v6.4s, v6.4s, v2.4s
	ushl	v0.4s, v0.4s, v2.4s
	ushl	v1.4s, v1.4s, v2.4s
	ushl	v2.4s, v16.4s, v2.4s
	uzp1	v5.8h, v5.8h, v6.8h
	uzp1	v1.8h, v2.8h, v1.8h
	uzp1	v0.8h, v0.8h, v7.8h
	uzp1	v2.8h, v3.8h, v4.8h
	uzp1	v1.16b, v1.16b, v5.16b
	uzp1	v0.16b, v2.16b, v0.16b
	ldp	q2, q3, [x29, #-224]
	cmeq	v0.16b, v3.16b, v0.16b
	cmeq	v1.16b, v2.16b, v1.16b
	ldr	q2, [x8, :lo12:.LCPI208_3]
	bic	v0.16b, v2.16b, v0.16b
	bic	v1.16b, v2.16b, v1.16b
	ext	v2.16b, v0.16b, v0.16b, #8
	ext	v3.16b, v1.16b, v1.16b, #8
	zip1	v0.16b, v0.16b, v2.16b
	zip1	v1.16b, v1.16b, v3.16b
	addv	h0, v0.8h
	addv	h1, v1.8h
	fmov	w8, s0
	fmov	w9, s1
	movi	v0.2d, #0000000000000000
	bfi	w9, w8, #16, #16
	mov	w8, #9
	stp	q0, q0, [x29, #-192]
	cmp	w9, #0
	stur	q0, [x29, #-160]
	cinc	w9, w8, ne
	csel	w8, wzr, w10, eq
	stur	xzr, [x23, #142]
	b	.LBB208_25
.LBB208_13:
	cbnz	x24, .LBB208_16
	mov	w9, #10
	mov	w8, #4
	b	.LBB208_23
.LBB208_15:
	movi	v0.2d, #0000000000000000
	mov	w8, wzr
	mov	w9, #8
	b	.LBB208_24
.LBB208_16:
	sub	x10, x28, #1
	add	x8, x25, x27
	sub	x1, x9, #1
	tbnz	w10, #0, .LBB208_18
	mov	x0, x10
	b	.LBB208_19
.LBB208_18:
	lsr	x0, x10, #1
	lsr	x1, x1, #1
	mov	w9, w10
	mov	x10, x0
	tbnz	w9, #1, .LBB208_18
.LBB208_19:
	sub	x10, x29, #240
	add	x9, sp, #608
	cbnz	x0, .LBB208_21
	add	x2, x10, #16
	add	x5, x10, #16
	add	x6, x9, #16
	mov	x3, x8
	mov	x4, x24
	b	.LBB208_22
.LBB208_21:
	sub	x4, x24, #1
	add	x3, x8, #32
	add	x5, x10, #16
	add	x6, x9, #16
	mov	x2, x8
.LBB208_22:
	bl	"ct_verify::consistency::check_from::<#0f46d2847b2ce1ce>"
	tst	w0, #0xff
	mov	w9, #9
	csel	w8, wzr, w1, eq
	cinc	w9, w9, ne
.LBB208_23:
	movi	v0.2d, #0000000000000000
.LBB208_24:
	stur	xzr, [x23, #142]
	stp	q0, q0, [x29, #-176]
	stur	q0, [x29, #-192]
.LBB208_25:
	ldp	q0, q1, [x29, #-192]
	add	x0, sp, #144
	strb	w9, [sp, #464]
	ldur	q2, [x29, #-160]
	add	x9, sp, #256
	strb	w8, [sp, #465]
	ldur	x8, [x23, #142]
	add	x1, sp, #464
	add	x2, x9, #16
	stur	q0, [x22, #210]
	stur	q1, [x22, #226]
	stur	q2, [x22, #242]
	add	x22, sp, #144
	str	x8, [sp, #512]
	bl	"ct_monitor::calls::answer_of"
	ldrb	w8, [sp, #144]
	cbz	w8, .LBB208_30
	ldr	x8, [sp, #16]
	cbz	x8, .LBB208_28
	ldr	x0, [sp]
	bl	rattle_dealloc
.LBB208_28:
	ldr	x8, [sp, #24]
	cbz	x8, .LBB208_1
	ldr	x0, [sp, #8]
	bl	rattle_dealloc
	b	.LBB208_1
.LBB208_30:
	ldr	x24, [x29, #96]
	ldr	x8, [sp, #16]
	cbz	x8, .LBB208_32
	ldr	x0, [sp]
	bl	rattle_dealloc
.LBB208_32:
	ldr	x8, [sp, #24]
	orr	x22, x22, #0x8
	cbz	x8, .LBB208_34
	ldr	x0, [sp, #8]
	bl	rattle_dealloc
.LBB208_34:
	ldp	q0, q1, [x22, #48]
	add	x0, sp, #256
	ldr	q2, [x22, #80]
	ldr	x8, [x22, #96]
	add	x2, x21, x26
	mov	x1, x20
	mov	x3, x19
	mov	x4, x24
	stp	q0, q1, [sp, #80]
	ldp	q1, q3, [x22, #16]
	ldr	q0, [x22]
	str	q2, [sp, #112]
	mov	x23, x8
	str	x8, [sp, #128]
	stp	q0, q1, [sp, #32]
	ldp	q1, q0, [sp, #32]
	str	q3, [sp, #64]
	str	x8, [sp, #352]
	stp	q1, q0, [sp, #256]
	ldp	q1, q0, [sp, #96]
	stp	q1, q0, [sp, #320]
	ldp	q0, q2, [sp, #64]
	ldr	x22, [sp, #336]
	stp	q0, q2, [sp, #288]
	bl	"libwagtenib::monitor::give"
	cbz	x23, .LBB208_4
	mov	w19, w0
	mov	x0, x22
	bl	rattle_dealloc
	mov	w0, w19
	b	.LBB208_4
.Lfunc_end208:
	.size	wagtenib_monitor_older, .Lfunc_end208-wagtenib_monitor_older
	.section	.text.wagtenib_monitor_proof,"ax",@progbits
	.globl	wagtenib_monitor_proof
	.p2align	2
	.type	wagtenib_monitor_proof,@function
wagtenib_monitor_proof:
	stp	x29, x30, [sp, #-96]!
	stp	x28, x27, [sp, #16]
	mov	x29, sp
	stp	x26, x25, [sp, #32]
	stp	x24, x23, [sp, #48]
	stp	x22, x21, [sp, #64]
	stp	x20, x19, [sp, #80]
	sub	sp, sp, #640
	movi	v0.2d, #0000000000000000
	mov	x26, x2
	cmp	x0, #0
	mov	w9, #4096
	mov	x8, x0
	mov	x2, x1
	csel	x10, x9, xzr, eq
	cmp	x26, #0
	add	x0, sp, #256
	csel	x28, x9, xzr, eq
	cmp	x5, #0
	add	x1, x8, x10
	mov	x19, x7
	mov	x20, x6
	mov	x22, x5
	mov	x21, x4
	mov	x25, x3
	stp	q0, q0, [sp, #256]
	stp	q0, q0, [sp, #288]
	csel	x27, x9, xzr, eq
	stp	q0, q0, [sp, #176]
	stp	q0, q0, [sp, #320]
	stp	q0, q0, [sp, #352]
	stp	q0, q0, [sp, #384]
	stp	q0, q0, [sp, #416]
	str	q0, [sp, #448]
	stp	q0, q0, [sp, #144]
	stp	q0, q0, [sp, #208]
	str	q0, [sp, #240]
	bl	"ct_monitor::reading::read_state"
	ldrb	w8, [sp, #256]
	cbz	w8, .LBB209_2
.LBB209_1:
	mov	w0, #8
	b	.LBB209_4
.LBB209_2:
	ldrb	w8, [sp, #264]
	cmp	w8, #1
	b.eq	.LBB209_5
	mov	w0, #36
.LBB209_4:
	add	sp, sp, #640
	ldp	x20, x19, [sp, #80]
	ldp	x22, x21, [sp, #64]
	ldp	x24, x23, [sp, #48]
	ldp	x26, x25, [sp, #32]
	ldp	x28, x27, [sp, #16]
	ldp	x29, x30, [sp], #96
	ret
.LBB209_5:
	ldr	x9, [sp, #408]
	ldrb	w8, [sp, #272]
	add	x24, sp, #256
	ldr	x23, [sp, #424]
	ldr	x10, [sp, #456]
	str	x9, [sp, #8]
	ldr	x9, [sp, #440]
	cmp	w8, #1
	stp	x9, x10, [sp, #16]
	b.ne	.LBB209_11
	ldrb	w8, [sp, #328]
	cmp	w8, #1
	b.ne	.LBB209_11
	ldur	q0, [x24, #24]
	ldur	q1, [x24, #40]
	mov	w9, #10
	ldur	q2, [x24, #56]
	mov	w8, #6
	stp	q0, q1, [x29, #-64]
	ldp	q0, q1, [sp, #336]
	stur	q2, [x29, #-32]
	ldr	q2, [sp, #368]
	ldur	x10, [x29, #-64]
	stp	q0, q1, [x29, #-112]
	stur	q2, [x29, #-80]
	cbz	x10, .LBB209_19
	ldur	x11, [x29, #-112]
	cmp	x11, x10
	b.ls	.LBB209_19
	cbnz	x25, .LBB209_12
	mov	w8, #4
	b	.LBB209_19
.LBB209_11:
	movi	v0.2d, #0000000000000000
	mov	w8, wzr
	mov	w9, #8
	b	.LBB209_20
.LBB209_12:
	sub	x9, x10, #1
	add	x8, x26, x28
	sub	x1, x11, #1
	tbnz	w9, #0, .LBB209_14
	mov	x0, x9
	b	.LBB209_15
.LBB209_14:
	lsr	x0, x9, #1
	lsr	x1, x1, #1
	mov	w10, w9
	mov	x9, x0
	tbnz	w10, #1, .LBB209_14
.LBB209_15:
	sub	x10, x29, #64
	sub	x9, x29, #112
	cbnz	x0, .LBB209_17
	add	x2, x10, #16
	add	x5, x10, #16
	add	x6, x9, #16
	mov	x3, x8
	mov	x4, x25
	b	.LBB209_18
.LBB209_17:
	sub	x4, x25, #1
	add	x3, x8, #32
	add	x5, x10, #16
	add	x6, x9, #16
	mov	x2, x8
.LBB209_18:
	bl	"ct_verify::consistency::check_from::<#0f46d2847b2ce1ce>"
	tst	w0, #0xff
	mov	w9, #9
	csel	w8, wzr, w1, eq
	cinc	w9, w9, ne
.LBB209_19:
	movi	v0.2d, #0000000000000000
.LBB209_20:
	stur	xzr, [sp, #78]
	stp	q0, q0, [sp, #48]
	str	q0, [sp, #32]
	ldp	q0, q1, [sp, #32]
	add	x0, sp, #144
	sturb	w9, [x29, #-168]
	ldr	q2, [sp, #64]
	add	x9, sp, #256
	sturb	w8, [x29, #-167]
	ldur	x8, [sp, #78]
	sub	x1, x29, #168
	add	x2, x9, #16
	stur	q0, [x24, #218]
	stur	q1, [x24, #234]
	stur	q2, [x24, #250]
	add	x24, sp, #144
	stur	x8, [x29, #-120]
	bl	"ct_monitor::calls::answer_of"
	ldrb	w8, [sp, #144]
	cbz	w8, .LBB209_25
	cbz	x23, .LBB209_23
	ldr	x0, [sp, #8]
	bl	rattle_dealloc
.LBB209_23:
	ldr	x8, [sp, #24]
	cbz	x8, .LBB209_1
	ldr	x0, [sp, #16]
	bl	rattle_dealloc
	b	.LBB209_1
.LBB209_25:
	cbz	x23, .LBB209_27
	ldr	x0, [sp, #8]
	bl	rattle_dealloc
.LBB209_27:
	ldr	x8, [sp, #24]
	orr	x23, x24, #0x8
	cbz	x8, .LBB209_29
	ldr	x0, [sp, #16]
	bl	rattle_dealloc
.LBB209_29:
	ldp	q0, q1, [x23, #64]
	add	x0, sp, #32
	ldr	x24, [x23, #96]
	add	x2, x22, x27
	mov	x1, x21
	mov	x3, x20
	mov	x4, x19
	stp	q0, q1, [sp, #96]
	ldp	q0, q1, [x23]
	str	x24, [sp, #128]
	stp	q0, q1, [sp, #32]
	ldp	q0, q2, [x23, #32]
	ldr	x23, [sp, #112]
	stp	q0, q2, [sp, #64]
	bl	"libwagtenib::monitor::give"
	cbz	x24, .LBB209_4
	mov	w19, w0
	mov	x0, x23
	bl	rattle_dealloc
	mov	w0, w19
	b	.LBB209_4
.Lfunc_end209:
	.size	wagtenib_monitor_proof, .Lfunc_end209-wagtenib_monitor_proof
	.type	.Lstatic.1,@object
	.section	.rodata.cst16,"aM",@progbits,16
.Lstatic.1:
	.ascii	"0123456789abcdef"
	.size	.Lstatic.1, 16
	.type	.Lstatic.2,@object
	.section	.rodata..Lstatic.2,"a",@progbits
.Lstatic.2:
	.size	.Lstatic.2, 0
	.type	.Lstatic.3,@object
	.section	.rodata..Lstatic.3,"a",@progbits
.Lstatic.3:
	.ascii	"+\006\001\004\001\326y\002\004\002"
	.size	.Lstatic.3, 10
	.type	.Lstatic.4,@object
	.section	.rodata..Lstatic.4,"a",@progbits
	.p2align	2, 0x0
.Lstatic.4:
	.ascii	"\230/\212B\221D7q\317\373\300\265\245\333\265\351[\302V9\361\021\361Y\244\202?\222\325^\034\253\230\252\007\330\001[\203\022\276\2051$\303}\fUt]\276r\376\261\336\200\247\006\334\233t\361\233\301\301i\233\344\206G\276\357\306\235\301\017\314\241\f$o,\351-\252\204tJ\334\251\260\\\332\210\371vRQ>\230m\3061\250\310'\003\260\307\177Y\277\363\013\340\306G\221\247\325Qc\312\006g))\024\205\n\267'8!\033.\374m,M\023\r8STs\ne\273\njv.\311\302\201\205,r\222\241\350\277\242Kf\032\250p\213K\302\243Ql\307\031\350\222\321$\006\231\326\2055\016\364p\240j\020\026\301\244\031\bl7\036LwH'\265\274\2604\263\f\0349J\252\330NO\312\234[\363o.h\356\202\217toc\245x\024x\310\204\b\002\307\214\372\377\276\220\353lP\244\367\243\371\276\362xq\306"
	.size	.Lstatic.4, 256
	.type	.Lstatic.5,@object
	.section	.rodata..Lstatic.5,"a",@progbits
.Lstatic.5:
	.asciz	"\200\000\000\000\000\000\000\000\000\000\000\000\000\000\000\000\000\000\000\000\000\000\000\000\000\000\000\000\000\000\000\000\000\000\000\000\000\000\000\000\000\000\000\000\000\000\000\000\000\000\000\000\000\000\000\000\000\000\000\000\000\000\000"
	.size	.Lstatic.5, 64
	.type	.Lstatic.7,@object
	.section	.rodata.str1.1,"aMS",@progbits,1
.Lstatic.7:
	.zero	1
	.size	.Lstatic.7, 1
	.type	.Lstatic.8,@object
	.section	.rodata..Lstatic.8,"a",@progbits
.Lstatic.8:
	.byte	1
	.size	.Lstatic.8, 1
	.type	.Lstatic.9,@object
	.section	.rodata..Lstatic.9,"a",@progbits
.Lstatic.9:
	.ascii	"tile/"
	.size	.Lstatic.9, 5
	.type	.Lstatic.11,@object
	.section	.rodata..Lstatic.11,"a",@progbits
.Lstatic.11:
	.ascii	".p/"
	.size	.Lstatic.11, 3
	.type	.Lstatic.12,@object
	.section	.rodata..Lstatic.12,"a",@progbits
.Lstatic.12:
	.ascii	"growth "
	.size	.Lstatic.12, 7
	.type	.Lstatic.13,@object
	.section	.rodata..Lstatic.13,"a",@progbits
.Lstatic.13:
	.ascii	"\nnode "
	.size	.Lstatic.13, 6
	.type	.Lstatic.14,@object
	.section	.rodata..Lstatic.14,"a",@progbits
.Lstatic.14:
	.ascii	"\nsalt "
	.size	.Lstatic.14, 6
	.type	.Lstatic.15,@object
	.section	.rodata..Lstatic.15,"a",@progbits
.Lstatic.15:
	.byte	10
	.size	.Lstatic.15, 1
	.type	.Lstatic.16,@object
	.section	.rodata.cst4,"aM",@progbits,4
.Lstatic.16:
	.zero	4,32
	.size	.Lstatic.16, 4
	.type	.Lstatic.19,@object
	.section	.rodata..Lstatic.19,"a",@progbits
.Lstatic.19:
	.ascii	"cosignature/v1\ntime "
	.size	.Lstatic.19, 20
	.type	.Lstatic.20,@object
	.section	.rodata..Lstatic.20,"a",@progbits
.Lstatic.20:
	.ascii	"743210/.-g\362BC\345,+*)('&%$#\"!8 \037\036\035\034\377\224\244\225\210\240\233\255\335\336\206z\350\312\327\340\320\334\314\273\267\263\261\250\262\310\342\303\232\270\256~x\277\235\302\252\275\242\241\226\301\216\211\253\260\271\247\272p\257\300\274\234\214\217{\205\200\223\212\222r\337\227\371\330\356\354\375\343\332\346\367\207\264\361\351\366\364\347\213\365\363\373\353\311\304\360\326\230\266\315\265\177\033\324\323\322\325\344\305\251\237\203\254iPb`aQ\317\221ts\220\202\231yk\204mn|oRlv\215q\201w}\245u\\jSHc]AO\246\355\243\307\276\341\321\313\306\331\333\316\352\370\236\357\377\377\377\377\377\377\377\377\377\377\377\377\377\377\377\377\377\377\377\377\377\377\377\377\377\377\377\377\377\377\377\377\377\377\377\377\377\377\377\377\377\377\377\377\377\377\377\377\377\377\377\377\377\377\377\377\377\377\377\377\377\377\377\377"
	.size	.Lstatic.20, 256
	.type	.Lstatic.21,@object
	.section	.rodata..Lstatic.21,"a",@progbits
.Lstatic.21:
	.ascii	"+\006\001\004\001\326y\002\004\003"
	.size	.Lstatic.21, 10
	.type	.Lstatic.22,@object
	.section	.rodata.str1.1,"aMS",@progbits,1
.Lstatic.22:
	.asciz	"0\023\006\n+\006\001\004\001\326y\002\004\003\001\001\377\004\002\005"
	.size	.Lstatic.22, 21
	.type	.Lstatic.23,@object
	.section	.rodata..Lstatic.23,"a",@progbits
.Lstatic.23:
	.ascii	"\000\001"
	.size	.Lstatic.23, 2
	.type	.Lstatic.24,@object
	.section	.rodata..Lstatic.24,"a",@progbits
.Lstatic.24:
	.byte	46
	.size	.Lstatic.24, 1
	.type	.Lstatic.27,@object
	.section	.rodata..Lstatic.27,"a",@progbits
.Lstatic.27:
	.ascii	"::ffff:"
	.size	.Lstatic.27, 7
	.type	.Lstatic.28,@object
	.section	.rodata..Lstatic.28,"a",@progbits
.Lstatic.28:
	.zero	2,58
	.size	.Lstatic.28, 2
	.type	.Lstatic.29,@object
	.section	.rodata..Lstatic.29,"a",@progbits
.Lstatic.29:
	.byte	58
	.size	.Lstatic.29, 1
	.type	.Lswitch.table.wagtenib_verify_subtree,@object
	.section	.rodata..Lswitch.table.wagtenib_verify_subtree,"a",@progbits
	.p2align	2, 0x0
.Lswitch.table.wagtenib_verify_subtree:
	.word	160
	.word	161
	.word	1
	.word	2
	.word	3
	.word	6
	.word	4
	.size	.Lswitch.table.wagtenib_verify_subtree, 28
	.type	.Lswitch.table.wagtenib_data_tile_leaves,@object
	.section	.rodata..Lswitch.table.wagtenib_data_tile_leaves,"a",@progbits
	.p2align	2, 0x0
.Lswitch.table.wagtenib_data_tile_leaves:
	.word	17
	.word	18
	.word	19
	.word	20
	.word	21
	.word	22
	.word	8
	.size	.Lswitch.table.wagtenib_data_tile_leaves, 28
	.type	.Lswitch.table.wagtenib_step,@object
	.section	.rodata..Lswitch.table.wagtenib_step,"a",@progbits
	.p2align	2, 0x0
.Lswitch.table.wagtenib_step:
	.word	55
	.word	36
	.word	56
	.word	35
	.word	48
	.word	49
	.word	50
	.word	51
	.word	52
	.word	53
	.word	54
	.size	.Lswitch.table.wagtenib_step, 44
	.ident	"rattle logic=dac8208d650f15bf3e2dc313a14fa4c783a3acf887bdfab66e1714b038d9e11b"
	.section	".note.GNU-stack","",@progbits
