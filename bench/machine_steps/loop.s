f:
	ldr	r0, .L4
	movs	r1, #0
.L2:
	ldr	r2, [r0]
	adds	r2, r2, #1
	str	r2, [r0]
	uxtb	r3, r2
	ldrb	r4, [r0, r3]
	adds	r4, r4, r2
	strb	r4, [r0, r3]
	strh	r4, [r0, #6]
	ldrh	r5, [r0, #6]
	cmp	r5, #200
	bhi	.L3
	str	r5, [r0, #8]
	adds	r1, r1, #1
.L3:
	b	.L2
	.align	2
.L4:
	.word	0x20000000
