	.cpu cortex-m0
	.syntax unified
	.code	16
	.text
	.global	read
	.thumb_func
	.type	read, %function
read:
	@ waits until the device is ready, and gives the low byte of its data word
	ldr	r3, .Ldevice
.Lwait:
	ldr	r2, [r3]
	lsls	r2, r2, #24
	lsrs	r2, r2, #24
	beq	.Lwait
	ldr	r0, [r3, #4]
	lsls	r0, r0, #24
	lsrs	r0, r0, #24
	bx	lr
	.align	2
.Ldevice:
	.word	0x40000000
	.size	read, .-read
