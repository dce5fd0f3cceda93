	.cpu cortex-m0
	.syntax unified
	.code	16
	.text
	.global	green
	.thumb_func
	.type	green, %function
green:
	@ the second of the three bytes that a palette has for each colour
	movs	r3, #3
	muls	r0, r3
	ldr	r3, .Lpalette
	adds	r0, r3, r0
	ldrb	r0, [r0, #1]
	bx	lr
	.align	2
.Lpalette:
	.word	palette
	.size	green, .-green
	.global	day
	.thumb_func
	.type	day, %function
day:
	@ the number of a day, from that of its week and its place there
	movs	r3, #7
	muls	r3, r0
	adds	r0, r3, r1
	bx	lr
	.size	day, .-day
