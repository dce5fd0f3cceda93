	.cpu cortex-m0
	.syntax unified
	.code	16
	.text
	.global	sign
	.thumb_func
	.type	sign, %function
sign:
	@ gives 1, 0 or -1, as a number is above, at or below 0, by branches that lead to branches
	cmp	r0, #0
	bgt	.Labove
	beq	.Lat
	movs	r0, #0
	mvns	r0, r0
	b	.Lend
	nop
.Labove:
	movs	r0, #1
	b	.Lend
.Lat:
	b	.Lend
.Lend:
	bx	lr
	.size	sign, .-sign
