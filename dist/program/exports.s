# Made by dist/refresh of what is proved.

	.section	.rodata.cst16,"aM",@progbits,16
	.p2align	4, 0x0
1:
	.byte	116,104,105,115,32,109,97,99,104,105,110,101,32,108,97,99
2:
	.byte	107,115,32,97,32,102,101,97,116,117,114,101,32,111,102,32
3:
	.byte	120,56,54,45,54,52,45,118,50,44,32,119,104,105,99,104
4:
	.byte	32,116,104,105,115,32,112,114,111,103,114,97,109,32,119,97
5:
	.byte	115,32,98,117,105,108,116,32,102,111,114,58,32,114,117,110
6:
	.byte	32,105,116,32,111,110,32,97,110,111,116,104,101,114,32,109
7:
	.byte	97,99,104,105,110,101,44,32,111,114,32,98,117,105,108,100
8:
	.byte	32,105,116,32,119,105,116,104,32,45,45,99,112,117,32,120
	.text
	.globl	main
	.p2align	4
	.type	main,@function
main:
	pushq	%rbp
	movq	%rsp, %rbp
	pushq	%rbx
	pushq	%rax
	movl	$1, %esi
	movl	$13, %edi
	callq	__sysv_signal@PLT
	xorl	%edi, %edi
	callq	__x86_get_cpuid_feature_leaf@PLT
	movl	24(%rax), %ebx
	movl	$2, %edi
	callq	__x86_get_cpuid_feature_leaf@PLT
	notl	%ebx
	testl	$9970177, %ebx
	jne	9f
	movl	24(%rax), %eax
	andl	$1, %eax
	je	9f
	leaq	-8(%rbp), %rsp
	popq	%rbx
	popq	%rbp
	jmp	"mimelook::main+start"
9:
	movq	%rsp, %rsi
	subq	$144, %rsi
	cmpq	%rsp, %rsi
	jge	11f
10:
	xorq	$0, (%rsp)
	subq	$3072, %rsp
	cmpq	%rsp, %rsi
	jl	10b
11:
	movq	%rsi, %rsp
	movaps	1b(%rip), %xmm0
	movaps	%xmm0, (%rsi)
	movaps	2b(%rip), %xmm0
	movaps	%xmm0, 16(%rsi)
	movaps	3b(%rip), %xmm0
	movaps	%xmm0, 32(%rsi)
	movaps	4b(%rip), %xmm0
	movaps	%xmm0, 48(%rsi)
	movaps	5b(%rip), %xmm0
	movaps	%xmm0, 64(%rsi)
	movaps	6b(%rip), %xmm0
	movaps	%xmm0, 80(%rsi)
	movaps	7b(%rip), %xmm0
	movaps	%xmm0, 96(%rsi)
	movaps	8b(%rip), %xmm0
	movaps	%xmm0, 112(%rsi)
	movl	$908932664, 128(%rsi)
	movw	$2612, 132(%rsi)
	movl	$134, %edx
	movl	$2, %edi
	callq	__write@PLT
	movl	$127, %eax
	leaq	-8(%rbp), %rsp
	popq	%rbx
	popq	%rbp
	retq
12:
	.size	main, 12b-main
