! The start of a program without a C library: main is called, and what it returns is the argument of the service exit.
! Also the two services of which the programs make use. A service has its number in %g1 and its arguments in %o0 to %o2.
	.text
	.global _start, read, write
_start:
	clr	%fp
	call	main
	 sub	%sp, 96, %sp
	mov	1, %g1
	ta	0x10

read:
	mov	3, %g1
	ta	0x10
	retl
	 nop

write:
	mov	4, %g1
	ta	0x10
	retl
	 nop

	.section ".note.GNU-stack"
