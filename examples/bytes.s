f:
	movs	r2, #24
	adds	r3, r3, r2
	movs	r2, #200
	adds	r3, r3, r2
	movs	r2, #0
	bx	lr
