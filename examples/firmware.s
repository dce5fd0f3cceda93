	.cpu cortex-m0
	.arch armv6s-m
	.fpu softvfp
	.eabi_attribute 20, 1
	.eabi_attribute 21, 1
	.eabi_attribute 23, 3
	.eabi_attribute 24, 1
	.eabi_attribute 25, 1
	.eabi_attribute 26, 1
	.eabi_attribute 30, 4
	.eabi_attribute 34, 0
	.eabi_attribute 18, 4
	.file	"firmware.c"
	.text
	.global	vectors
	.section	.text.vectors,"a"
	.align	2
	.type	vectors, %object
	.size	vectors, 8
vectors:
	.word	536887296
	.word	reset
	.text
	.align	1
	.syntax unified
	.code	16
	.thumb_func
	.type	saturate, %function
saturate:
	@ args = 0, pretend = 0, frame = 0
	@ frame_needed = 0, uses_anonymous_args = 0
	@ link register save eliminated.
	movs	r2, #128
	movs	r3, r0
	lsls	r2, r2, #8
	cmp	r0, r2
	bge	.L3
	ldr	r2, .L5
	movs	r0, r2
	cmp	r3, r2
	blt	.L2
	sxth	r0, r3
.L2:
	@ sp needed
	bx	lr
.L3:
	ldr	r0, .L5+4
	b	.L2
.L6:
	.align	2
.L5:
	.word	-32768
	.word	32767
	.size	saturate, .-saturate
	.align	1
	.global	q15_add
	.syntax unified
	.code	16
	.thumb_func
	.type	q15_add, %function
q15_add:
	@ args = 0, pretend = 0, frame = 0
	@ frame_needed = 0, uses_anonymous_args = 0
	push	{r4, lr}
	adds	r0, r0, r1
	bl	saturate
	@ sp needed
	pop	{r4, pc}
	.size	q15_add, .-q15_add
	.align	1
	.global	q15_mul
	.syntax unified
	.code	16
	.thumb_func
	.type	q15_mul, %function
q15_mul:
	@ args = 0, pretend = 0, frame = 0
	@ frame_needed = 0, uses_anonymous_args = 0
	movs	r3, #128
	muls	r0, r1
	push	{r4, lr}
	lsls	r3, r3, #7
	adds	r0, r0, r3
	asrs	r0, r0, #15
	bl	saturate
	@ sp needed
	pop	{r4, pc}
	.size	q15_mul, .-q15_mul
	.align	1
	.global	q15_abs
	.syntax unified
	.code	16
	.thumb_func
	.type	q15_abs, %function
q15_abs:
	@ args = 0, pretend = 0, frame = 0
	@ frame_needed = 0, uses_anonymous_args = 0
	push	{r4, lr}
	cmp	r0, #0
	bge	.L10
	rsbs	r0, r0, #0
	bl	saturate
.L10:
	@ sp needed
	pop	{r4, pc}
	.size	q15_abs, .-q15_abs
	.align	1
	.global	mean
	.syntax unified
	.code	16
	.thumb_func
	.type	mean, %function
mean:
	@ args = 0, pretend = 0, frame = 0
	@ frame_needed = 0, uses_anonymous_args = 0
	push	{r4, lr}
	movs	r4, #128
	movs	r2, #0
	adds	r1, r0, r1
	rsbs	r4, r4, #0
.L12:
	cmp	r0, r1
	bne	.L13
	@ sp needed
	movs	r3, #15
	asrs	r0, r2, #31
	ands	r0, r3
	adds	r0, r0, r2
	asrs	r0, r0, #4
	sxtb	r0, r0
	pop	{r4, pc}
.L13:
	ldrb	r3, [r0]
	adds	r0, r0, #1
	eors	r3, r4
	sxtb	r3, r3
	adds	r2, r3, r2
	sxth	r2, r2
	b	.L12
	.size	mean, .-mean
	.align	1
	.global	q16_between
	.syntax unified
	.code	16
	.thumb_func
	.type	q16_between, %function
q16_between:
	@ args = 0, pretend = 0, frame = 0
	@ frame_needed = 0, uses_anonymous_args = 0
	@ link register save eliminated.
	subs	r1, r1, r0
	asrs	r1, r1, #8
	muls	r2, r1
	@ sp needed
	adds	r0, r2, r0
	bx	lr
	.size	q16_between, .-q16_between
	.align	1
	.global	square_root
	.syntax unified
	.code	16
	.thumb_func
	.type	square_root, %function
square_root:
	@ args = 0, pretend = 0, frame = 0
	@ frame_needed = 0, uses_anonymous_args = 0
	movs	r2, #128
	movs	r1, #16
	movs	r3, #0
	push	{r4, lr}
	lsls	r2, r2, #23
.L17:
	adds	r4, r3, r2
	lsrs	r3, r3, #1
	cmp	r4, r0
	bhi	.L16
	subs	r0, r0, r4
	adds	r3, r3, r2
.L16:
	subs	r1, r1, #1
	lsrs	r2, r2, #2
	cmp	r1, #0
	bne	.L17
	uxth	r0, r3
	@ sp needed
	pop	{r4, pc}
	.size	square_root, .-square_root
	.align	1
	.global	divide
	.syntax unified
	.code	16
	.thumb_func
	.type	divide, %function
divide:
	@ args = 0, pretend = 0, frame = 0
	@ frame_needed = 0, uses_anonymous_args = 0
	push	{r4, r5, lr}
	movs	r2, #16
	movs	r3, #0
	movs	r4, #1
.L21:
	lsls	r3, r3, #1
	lsrs	r5, r0, #15
	uxth	r3, r3
	lsls	r0, r0, #1
	orrs	r3, r5
	uxth	r0, r0
	cmp	r1, r3
	bhi	.L20
	subs	r3, r3, r1
	uxth	r3, r3
	orrs	r0, r4
.L20:
	subs	r2, r2, #1
	uxtb	r2, r2
	cmp	r2, #0
	bne	.L21
	@ sp needed
	pop	{r4, r5, pc}
	.size	divide, .-divide
	.align	1
	.syntax unified
	.code	16
	.thumb_func
	.type	tell, %function
tell:
	@ args = 0, pretend = 0, frame = 8
	@ frame_needed = 0, uses_anonymous_args = 0
	push	{r0, r1, r4, lr}
	movs	r4, r0
	mov	r0, sp
	bl	hex_write
	movs	r0, r4
	bl	uart_put
	movs	r0, #32
	bl	uart_put
	movs	r4, #0
.L24:
	mov	r3, sp
	ldrb	r0, [r3, r4]
	cmp	r0, #0
	bne	.L25
	@ sp needed
	adds	r0, r0, #10
	bl	uart_put
	pop	{r0, r1, r4, pc}
.L25:
	adds	r4, r4, #1
	bl	uart_put
	uxtb	r4, r4
	b	.L24
	.size	tell, .-tell
	.align	1
	.syntax unified
	.code	16
	.thumb_func
	.type	tell_fixed, %function
tell_fixed:
	@ args = 0, pretend = 0, frame = 0
	@ frame_needed = 0, uses_anonymous_args = 0
	push	{r4, r5, r6, lr}
	movs	r4, r0
	@ sp needed
	adds	r0, r0, r1
	movs	r5, r1
	bl	saturate
	uxth	r1, r0
	movs	r0, #97
	bl	tell
	movs	r1, r5
	movs	r0, r4
	bl	q15_mul
	uxth	r1, r0
	movs	r0, #98
	bl	tell
	movs	r0, r4
	bl	q15_abs
	uxth	r1, r0
	movs	r0, #99
	bl	tell
	subs	r1, r5, r4
	uxtb	r6, r5
	asrs	r1, r1, #8
	muls	r1, r6
	adds	r1, r1, r4
	uxth	r1, r1
	movs	r0, #100
	bl	tell
	uxth	r5, r5
	lsls	r0, r4, #16
	orrs	r0, r5
	bl	square_root
	movs	r1, r0
	movs	r0, #101
	bl	tell
	movs	r1, #1
	uxth	r0, r4
	orrs	r1, r6
	bl	divide
	movs	r1, r0
	movs	r0, #102
	bl	tell
	pop	{r4, r5, r6, pc}
	.size	tell_fixed, .-tell_fixed
	.align	1
	.syntax unified
	.code	16
	.thumb_func
	.type	tell_bytes, %function
tell_bytes:
	@ args = 0, pretend = 0, frame = 8
	@ frame_needed = 0, uses_anonymous_args = 0
	push	{r0, r1, r2, r4, r5, r6, r7, lr}
	movs	r4, r0
	movs	r5, r1
	movs	r7, r0
	adds	r3, r1, r0
	ldr	r6, .L30
	str	r3, [sp, #4]
.L28:
	ldr	r3, [sp, #4]
	cmp	r7, r3
	bne	.L29
	@ sp needed
	movs	r1, r5
	movs	r0, r4
	bl	mean
	uxth	r1, r0
	movs	r0, #103
	bl	tell
	movs	r1, r6
	movs	r0, #104
	bl	tell
	movs	r1, r5
	movs	r0, r4
	bl	fletcher16
	movs	r1, r0
	movs	r0, #105
	bl	tell
	ldrb	r1, [r4, #1]
	ldrb	r3, [r4]
	lsls	r1, r1, #8
	orrs	r1, r3
	rev16	r1, r1
	uxth	r1, r1
	movs	r0, #106
	bl	tell
	movs	r0, r4
	bl	big_endian32
	lsrs	r1, r0, #8
	uxth	r1, r1
	movs	r0, #107
	bl	tell
	adds	r1, r4, #1
	movs	r0, r4
	bl	text_compare
	uxth	r1, r0
	movs	r0, #108
	bl	tell
	pop	{r0, r1, r2, r4, r5, r6, r7, pc}
.L29:
	movs	r0, r6
	ldrb	r1, [r7]
	bl	crc16
	adds	r7, r7, #1
	movs	r6, r0
	b	.L28
.L31:
	.align	2
.L30:
	.word	65535
	.size	tell_bytes, .-tell_bytes
	.align	1
	.syntax unified
	.code	16
	.thumb_func
	.type	tell_states, %function
tell_states:
	@ args = 0, pretend = 0, frame = 32
	@ frame_needed = 0, uses_anonymous_args = 0
	push	{r4, r5, r6, r7, lr}
	movs	r4, #0
	movs	r7, #100
	sub	sp, sp, #36
	str	r0, [sp, #4]
	movs	r5, r1
	movs	r2, #20
	movs	r1, #0
	add	r0, sp, #12
	bl	memset
	ldr	r6, .L37
	add	r3, sp, #8
	strh	r4, [r3]
.L33:
	movs	r0, r6
	bl	random_next
	lsrs	r1, r0, #3
	lsrs	r3, r4, #7
	movs	r6, r0
	uxtb	r1, r1
	lsls	r4, r4, #1
	add	r0, sp, #8
	orrs	r4, r3
	bl	button_take
	uxtb	r4, r4
	subs	r7, r7, #1
	adds	r4, r4, r0
	uxtb	r1, r6
	add	r0, sp, #12
	uxtb	r7, r7
	bl	frame_take
	uxtb	r4, r4
	cmp	r7, #0
	bne	.L33
	movs	r1, r6
	movs	r0, #109
	bl	tell
	movs	r1, r4
	movs	r0, #110
	bl	tell
	movs	r3, #1
	add	r2, sp, #8
	movs	r1, r5
	add	r0, sp, #12
	strb	r3, [r2, #4]
	bl	frame_take
	ldr	r4, [sp, #4]
	adds	r7, r4, r5
.L34:
	cmp	r4, r7
	bne	.L35
	rsbs	r1, r5, #0
	uxtb	r1, r1
	add	r0, sp, #12
	bl	frame_take
	uxth	r1, r0
	movs	r0, #111
	bl	tell
	add	r3, sp, #8
	movs	r0, #112
	ldrb	r1, [r3, #6]
	bl	tell
	add	sp, sp, #36
	@ sp needed
	pop	{r4, r5, r6, r7, pc}
.L35:
	ldrb	r6, [r4]
	add	r0, sp, #12
	movs	r1, r6
	adds	r5, r6, r5
	bl	frame_take
	uxtb	r5, r5
	adds	r4, r4, #1
	b	.L34
.L38:
	.align	2
.L37:
	.word	44257
	.size	tell_states, .-tell_states
	.align	1
	.global	reset
	.syntax unified
	.code	16
	.thumb_func
	.type	reset, %function
reset:
	@ args = 0, pretend = 0, frame = 40
	@ frame_needed = 0, uses_anonymous_args = 0
	push	{r4, lr}
	movs	r4, #0
	sub	sp, sp, #40
	movs	r2, #18
	movs	r1, #0
	add	r0, sp, #20
	bl	memset
	movs	r2, #12
	movs	r1, r4
	add	r0, sp, #8
	str	r4, [sp, #4]
	bl	memset
	ldr	r0, .L47
	bl	uart_start
	movs	r0, #62
	bl	uart_put
.L42:
	ldr	r1, .L47+4
	add	r0, sp, #20
	bl	uart_get
	cmp	r0, #10
	beq	.L40
	cmp	r4, #15
	beq	.L41
	cmp	r0, #0
	blt	.L42
	add	r3, sp, #4
	strb	r0, [r4, r3]
	adds	r4, r4, #1
	b	.L42
.L40:
	uxtb	r4, r4
.L41:
	mov	r1, sp
	add	r0, sp, #4
	bl	hex_read
	movs	r1, r0
	movs	r0, #113
	bl	tell
	ldr	r0, [sp]
	sxth	r1, r0
	asrs	r0, r0, #16
	bl	tell_fixed
	movs	r1, r4
	add	r0, sp, #4
	bl	tell_bytes
	movs	r1, r4
	add	r0, sp, #4
	bl	tell_states
	movs	r1, r4
	add	r0, sp, #4
	bl	uart_send
	ldr	r3, .L47+8
	ldr	r2, .L47+12
	str	r2, [r3]
.L44:
	b	.L44
.L48:
	.align	2
.L47:
	.word	30924800
	.word	65535
	.word	-536810228
	.word	100270084
	.size	reset, .-reset
	.align	1
	.global	frame_take
	.syntax unified
	.code	16
	.thumb_func
	.type	frame_take, %function
frame_take:
	@ args = 0, pretend = 0, frame = 0
	@ frame_needed = 0, uses_anonymous_args = 0
	@ link register save eliminated.
	ldrb	r3, [r0]
	cmp	r3, #2
	beq	.L50
	bhi	.L51
	cmp	r3, #0
	bne	.L62
	movs	r3, #1
	cmp	r1, #126
	bne	.L57
.L63:
	strb	r3, [r0]
	b	.L57
.L51:
	cmp	r3, #3
	beq	.L54
.L57:
	movs	r0, #0
.L55:
	@ sp needed
	bx	lr
.L62:
	movs	r3, #15
	movs	r2, #0
	ands	r3, r1
	strb	r3, [r0, #1]
	strb	r2, [r0, #2]
	rsbs	r2, r3, #0
	adcs	r3, r3, r2
	strb	r1, [r0, #3]
	adds	r3, r3, #2
	b	.L63
.L50:
	ldrb	r2, [r0, #2]
	adds	r3, r2, #1
	uxtb	r3, r3
	adds	r2, r0, r2
	strb	r3, [r0, #2]
	strb	r1, [r2, #4]
	ldrb	r2, [r0, #3]
	adds	r2, r1, r2
	strb	r2, [r0, #3]
	ldrb	r2, [r0, #1]
	cmp	r2, r3
	bne	.L57
	movs	r3, #3
	b	.L63
.L54:
	movs	r3, #0
	strb	r3, [r0]
	ldrb	r3, [r0, #3]
	movs	r0, #1
	adds	r1, r1, r3
	uxtb	r1, r1
	cmp	r1, #0
	beq	.L55
	rsbs	r0, r0, #0
	b	.L55
	.size	frame_take, .-frame_take
	.align	1
	.global	button_take
	.syntax unified
	.code	16
	.thumb_func
	.type	button_take, %function
button_take:
	@ args = 0, pretend = 0, frame = 0
	@ frame_needed = 0, uses_anonymous_args = 0
	push	{r4, lr}
	movs	r4, #1
	ldrb	r3, [r0]
	ands	r1, r4
	lsls	r3, r3, #1
	orrs	r1, r3
	movs	r3, #15
	uxtb	r1, r1
	strb	r1, [r0]
	movs	r2, r0
	ldrb	r0, [r0, #1]
	ands	r1, r3
	cmp	r0, #0
	bne	.L65
	cmp	r1, r3
	bne	.L66
	movs	r0, r4
	strb	r4, [r2, #1]
.L66:
	@ sp needed
	pop	{r4, pc}
.L65:
	movs	r0, #0
	cmp	r1, r0
	bne	.L66
	strb	r0, [r2, #1]
	subs	r0, r0, #1
	b	.L66
	.size	button_take, .-button_take
	.align	1
	.global	random_next
	.syntax unified
	.code	16
	.thumb_func
	.type	random_next, %function
random_next:
	@ args = 0, pretend = 0, frame = 0
	@ frame_needed = 0, uses_anonymous_args = 0
	@ link register save eliminated.
	movs	r3, r0
	@ sp needed
	lsrs	r2, r3, #3
	lsrs	r0, r0, #2
	eors	r0, r2
	eors	r0, r3
	lsrs	r2, r3, #5
	eors	r0, r2
	movs	r2, #1
	lsrs	r3, r3, r2
	ands	r0, r2
	lsls	r0, r0, #15
	orrs	r0, r3
	bx	lr
	.size	random_next, .-random_next
	.align	1
	.global	memset
	.syntax unified
	.code	16
	.thumb_func
	.type	memset, %function
memset:
	@ args = 0, pretend = 0, frame = 0
	@ frame_needed = 0, uses_anonymous_args = 0
	@ link register save eliminated.
	movs	r3, r0
	adds	r2, r0, r2
.L71:
	cmp	r3, r2
	bne	.L72
	@ sp needed
	bx	lr
.L72:
	strb	r1, [r3]
	adds	r3, r3, #1
	b	.L71
	.size	memset, .-memset
	.align	1
	.global	hex_digit
	.syntax unified
	.code	16
	.thumb_func
	.type	hex_digit, %function
hex_digit:
	@ args = 0, pretend = 0, frame = 0
	@ frame_needed = 0, uses_anonymous_args = 0
	@ link register save eliminated.
	movs	r3, r0
	subs	r3, r3, #48
	uxtb	r3, r3
	movs	r2, r0
	cmp	r3, #9
	bhi	.L74
	sxtb	r0, r3
.L75:
	@ sp needed
	bx	lr
.L74:
	movs	r0, #32
	orrs	r0, r2
	movs	r3, r0
	subs	r3, r3, #97
	cmp	r3, #5
	bhi	.L76
	subs	r0, r0, #87
	sxtb	r0, r0
	b	.L75
.L76:
	movs	r0, #1
	rsbs	r0, r0, #0
	b	.L75
	.size	hex_digit, .-hex_digit
	.align	1
	.global	hex_read
	.syntax unified
	.code	16
	.thumb_func
	.type	hex_read, %function
hex_read:
	@ args = 0, pretend = 0, frame = 0
	@ frame_needed = 0, uses_anonymous_args = 0
	push	{r3, r4, r5, r6, r7, lr}
	movs	r5, #0
	movs	r6, r0
	movs	r7, r1
	movs	r4, r5
.L78:
	str	r5, [r7]
	ldrb	r0, [r6, r4]
	bl	hex_digit
	cmp	r0, #0
	bge	.L79
	@ sp needed
	movs	r0, r4
	pop	{r3, r4, r5, r6, r7, pc}
.L79:
	lsls	r5, r5, #4
	adds	r4, r4, #1
	orrs	r5, r0
	uxtb	r4, r4
	b	.L78
	.size	hex_read, .-hex_read
	.align	1
	.global	hex_write
	.syntax unified
	.code	16
	.thumb_func
	.type	hex_write, %function
hex_write:
	@ args = 0, pretend = 0, frame = 0
	@ frame_needed = 0, uses_anonymous_args = 0
	push	{r4, r5, lr}
	movs	r5, #15
	adds	r3, r0, #3
.L83:
	movs	r2, r1
	ands	r2, r5
	movs	r4, r2
	adds	r4, r4, #87
	cmp	r2, #9
	bhi	.L82
	adds	r2, r2, #48
	movs	r4, r2
.L82:
	strb	r4, [r3]
	lsrs	r1, r1, #4
	subs	r2, r3, #1
	cmp	r0, r3
	bne	.L84
	@ sp needed
	movs	r3, #0
	strb	r3, [r0, #4]
	pop	{r4, r5, pc}
.L84:
	movs	r3, r2
	b	.L83
	.size	hex_write, .-hex_write
	.align	1
	.global	text_compare
	.syntax unified
	.code	16
	.thumb_func
	.type	text_compare, %function
text_compare:
	@ args = 0, pretend = 0, frame = 0
	@ frame_needed = 0, uses_anonymous_args = 0
	push	{r4, r5, r6, lr}
	movs	r5, #0
.L91:
	ldrb	r2, [r0, r5]
	ldrb	r3, [r1, r5]
	movs	r6, r2
	movs	r4, r3
	subs	r6, r6, #65
	subs	r4, r4, #65
	cmp	r6, #25
	bhi	.L86
	adds	r2, r2, #32
	uxtb	r4, r4
	uxtb	r2, r2
	cmp	r4, #25
	bls	.L87
.L99:
	cmp	r2, r3
	bne	.L88
.L97:
	adds	r5, r5, #1
	b	.L91
.L86:
	uxtb	r4, r4
	cmp	r4, #25
	bhi	.L90
.L87:
	adds	r3, r3, #32
	uxtb	r3, r3
	b	.L99
.L90:
	cmp	r2, r3
	bne	.L88
	cmp	r2, #0
	bne	.L97
.L88:
	cmp	r3, r2
	sbcs	r0, r0, r0
	cmp	r2, r3
	bcs	.L100
	movs	r0, #1
.L100:
	@ sp needed
	rsbs	r0, r0, #0
	pop	{r4, r5, r6, pc}
	.size	text_compare, .-text_compare
	.align	1
	.global	fletcher16
	.syntax unified
	.code	16
	.thumb_func
	.type	fletcher16, %function
fletcher16:
	@ args = 0, pretend = 0, frame = 0
	@ frame_needed = 0, uses_anonymous_args = 0
	push	{r4, r5, r6, lr}
	movs	r3, #0
	movs	r2, #1
	movs	r5, #255
	ldr	r6, .L104
.L102:
	subs	r1, r1, #1
	uxth	r1, r1
	cmp	r1, r6
	bne	.L103
	@ sp needed
	lsls	r0, r3, #8
	orrs	r0, r2
	pop	{r4, r5, r6, pc}
.L103:
	ldrb	r4, [r0]
	adds	r0, r0, #1
	adds	r2, r2, r4
	ands	r2, r5
	adds	r3, r3, r2
	ands	r3, r5
	b	.L102
.L105:
	.align	2
.L104:
	.word	65535
	.size	fletcher16, .-fletcher16
	.align	1
	.global	crc16
	.syntax unified
	.code	16
	.thumb_func
	.type	crc16, %function
crc16:
	@ args = 0, pretend = 0, frame = 0
	@ frame_needed = 0, uses_anonymous_args = 0
	@ link register save eliminated.
	movs	r2, #255
	@ sp needed
	rev16	r0, r0
	uxth	r0, r0
	eors	r1, r0
	uxtb	r3, r1
	lsrs	r3, r3, #4
	eors	r3, r1
	lsls	r1, r3, #12
	eors	r1, r3
	lsls	r3, r1, #5
	lsls	r2, r2, #5
	ands	r3, r2
	uxth	r0, r1
	eors	r0, r3
	bx	lr
	.size	crc16, .-crc16
	.align	1
	.global	big_endian16
	.syntax unified
	.code	16
	.thumb_func
	.type	big_endian16, %function
big_endian16:
	@ args = 0, pretend = 0, frame = 0
	@ frame_needed = 0, uses_anonymous_args = 0
	@ link register save eliminated.
	ldrb	r3, [r0]
	ldrb	r0, [r0, #1]
	@ sp needed
	lsls	r0, r0, #8
	orrs	r0, r3
	revsh	r0, r0
	bx	lr
	.size	big_endian16, .-big_endian16
	.align	1
	.global	big_endian32
	.syntax unified
	.code	16
	.thumb_func
	.type	big_endian32, %function
big_endian32:
	@ args = 0, pretend = 0, frame = 0
	@ frame_needed = 0, uses_anonymous_args = 0
	@ link register save eliminated.
	ldrb	r2, [r0, #1]
	ldrb	r3, [r0]
	lsls	r2, r2, #8
	orrs	r2, r3
	ldrb	r3, [r0, #2]
	ldrb	r0, [r0, #3]
	lsls	r3, r3, #16
	orrs	r3, r2
	lsls	r0, r0, #24
	orrs	r0, r3
	rev	r0, r0
	@ sp needed
	bx	lr
	.size	big_endian32, .-big_endian32
	.align	1
	.global	uart_start
	.syntax unified
	.code	16
	.thumb_func
	.type	uart_start, %function
uart_start:
	@ args = 0, pretend = 0, frame = 0
	@ frame_needed = 0, uses_anonymous_args = 0
	@ link register save eliminated.
	movs	r2, #24
	@ sp needed
	ldr	r3, .L110
	str	r2, [r3]
	ldr	r3, .L110+4
	adds	r2, r2, #1
	str	r2, [r3]
	ldr	r3, .L110+8
	subs	r2, r2, #21
	str	r0, [r3]
	ldr	r3, .L110+12
	str	r2, [r3]
	movs	r3, #1
	ldr	r2, .L110+16
	str	r3, [r2]
	ldr	r2, .L110+20
	str	r3, [r2]
	bx	lr
.L111:
	.align	2
.L110:
	.word	1073751308
	.word	1073751316
	.word	1073751332
	.word	1073751296
	.word	1073750016
	.word	1073750024
	.size	uart_start, .-uart_start
	.align	1
	.global	uart_put
	.syntax unified
	.code	16
	.thumb_func
	.type	uart_put, %function
uart_put:
	@ args = 0, pretend = 0, frame = 0
	@ frame_needed = 0, uses_anonymous_args = 0
	@ link register save eliminated.
	movs	r2, #0
	ldr	r3, .L116
	str	r2, [r3]
	ldr	r2, .L116+4
	str	r0, [r2]
	movs	r2, #1
.L113:
	ldr	r1, [r3]
	tst	r1, r2
	beq	.L113
	@ sp needed
	bx	lr
.L117:
	.align	2
.L116:
	.word	1073750300
	.word	1073751324
	.size	uart_put, .-uart_put
	.align	1
	.global	uart_errors
	.syntax unified
	.code	16
	.thumb_func
	.type	uart_errors, %function
uart_errors:
	@ args = 0, pretend = 0, frame = 0
	@ frame_needed = 0, uses_anonymous_args = 0
	@ link register save eliminated.
	ldr	r3, .L123
	movs	r2, #15
	ldr	r1, [r3]
	movs	r0, r1
	ands	r0, r2
	tst	r1, r2
	beq	.L119
	str	r0, [r3]
.L119:
	uxtb	r0, r0
	@ sp needed
	bx	lr
.L124:
	.align	2
.L123:
	.word	1073751168
	.size	uart_errors, .-uart_errors
	.align	1
	.global	uart_poll
	.syntax unified
	.code	16
	.thumb_func
	.type	uart_poll, %function
uart_poll:
	@ args = 0, pretend = 0, frame = 0
	@ frame_needed = 0, uses_anonymous_args = 0
	push	{r3, r4, r5, r6, r7, lr}
	movs	r4, r0
	bl	uart_errors
	movs	r7, #0
	movs	r3, r0
	ldr	r5, .L130
.L126:
	movs	r1, #1
	ldr	r2, [r5]
	tst	r2, r1
	beq	.L128
	movs	r6, #15
	ldrb	r1, [r4]
	adds	r2, r1, #1
	ands	r2, r6
	ldrb	r6, [r4, #1]
	cmp	r6, r2
	bne	.L127
	movs	r0, #128
	rsbs	r0, r0, #0
	orrs	r0, r3
	uxtb	r0, r0
.L128:
	@ sp needed
	pop	{r3, r4, r5, r6, r7, pc}
.L127:
	ldr	r6, .L130+4
	str	r7, [r5]
	ldr	r6, [r6]
	adds	r1, r4, r1
	strb	r6, [r1, #2]
	strb	r2, [r4]
	b	.L126
.L131:
	.align	2
.L130:
	.word	1073750280
	.word	1073751320
	.size	uart_poll, .-uart_poll
	.align	1
	.global	uart_get
	.syntax unified
	.code	16
	.thumb_func
	.type	uart_get, %function
uart_get:
	@ args = 0, pretend = 0, frame = 0
	@ frame_needed = 0, uses_anonymous_args = 0
	push	{r4, r5, r6, lr}
	movs	r4, r0
	movs	r5, r1
.L133:
	ldrb	r3, [r4, #1]
	ldrb	r2, [r4]
	cmp	r2, r3
	beq	.L135
	adds	r2, r4, r3
	ldrb	r0, [r2, #2]
	movs	r2, #15
	adds	r3, r3, #1
	ands	r3, r2
	strb	r3, [r4, #1]
	sxth	r0, r0
.L134:
	@ sp needed
	pop	{r4, r5, r6, pc}
.L135:
	cmp	r5, #0
	beq	.L136
	movs	r0, r4
	subs	r5, r5, #1
	bl	uart_poll
	uxth	r5, r5
	b	.L133
.L136:
	movs	r0, #1
	rsbs	r0, r0, #0
	b	.L134
	.size	uart_get, .-uart_get
	.align	1
	.global	uart_send
	.syntax unified
	.code	16
	.thumb_func
	.type	uart_send, %function
uart_send:
	@ args = 0, pretend = 0, frame = 0
	@ frame_needed = 0, uses_anonymous_args = 0
	push	{r4, r5, r6, lr}
	movs	r4, r1
	movs	r5, r0
	movs	r0, #126
	bl	uart_put
	movs	r0, r4
	bl	uart_put
	adds	r6, r5, r4
.L138:
	cmp	r5, r6
	bne	.L139
	@ sp needed
	rsbs	r0, r4, #0
	uxtb	r0, r0
	bl	uart_put
	pop	{r4, r5, r6, pc}
.L139:
	ldrb	r0, [r5]
	bl	uart_put
	ldrb	r3, [r5]
	adds	r5, r5, #1
	adds	r4, r4, r3
	uxtb	r4, r4
	b	.L138
	.size	uart_send, .-uart_send
	.ident	"GCC: (15:12.2.rel1-1) 12.2.1 20221205"
