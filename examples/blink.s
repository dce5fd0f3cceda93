	.cpu cortex-m0
	.syntax unified
	.code	16
	.text
	.global	blink
	.thumb_func
	.type	blink, %function
blink:
	@ waits until the status word of a device is even, and then writes how often it looked
	push	{r4, lr}
	movs	r4, #0
	ldr	r3, .Lstatus
.Lwait:
	adds	r4, r4, #1
	ldr	r0, [r3]
	lsls	r0, r0, #31
	bne	.Lwait
	mov	r0, r4
	bl	report
	pop	{r4, pc}
	.align	2
.Lstatus:
	.word	0x40000000
	.size	blink, .-blink
