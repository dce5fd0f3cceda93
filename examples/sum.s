f:
mov r3, r3
adds r0, r0, r1
mov r0, r0
bx lr
