/* The stored program, byte by byte; INSIDE names its file. */

#ifdef __ELF__
	.section .rodata
	.hidden	j39_inside
	.hidden	j39_inside_end
#else
	.section .rdata, "dr"
#endif
	.globl	j39_inside
	.globl	j39_inside_end
	.balign	16
j39_inside:
	.incbin	INSIDE
j39_inside_end:

#ifdef __ELF__
	.section	.note.GNU-stack, "", @progbits
#endif
