/* enter(entry): runs the entry of the program, which wants a count of words and the words on the stack, and calls __libc_start_main with the
   program's main in rdi and the address of the words in rdx. That call is enter_back, which takes back the stack, noted as the first word, and has
   `enter` answer main. */

	.text
	.globl	enter
enter:
	endbr64
	pushq	%rbp
	pushq	%rbx
	pushq	%r12
	pushq	%r13
	pushq	%r14
	pushq	%r15
	movq	%rsp, %rax
	pushq	$0		/* the end of the environment */
	pushq	$0		/* the end of the words */
	pushq	%rax		/* the first word: the stack */
	pushq	$1		/* their count */
	xorl	%edx, %edx	/* nothing is to be run at the end */
	jmpq	*%rdi

	.globl	enter_back
enter_back:
	endbr64
	movq	(%rdx), %rsp
	popq	%r15
	popq	%r14
	popq	%r13
	popq	%r12
	popq	%rbx
	popq	%rbp
	movq	%rdi, %rax
	retq

#ifdef __ELF__
	.section	.note.GNU-stack, "", @progbits
#endif
