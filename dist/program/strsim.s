# Made by dist/refresh of what is proved.

	.text
	.p2align	4
	.type	"strsim::chars_of::<#27635608fafc1f64>",@function
"strsim::chars_of::<#27635608fafc1f64>":
	pushq	%rbp
	pushq	%r15
	pushq	%r14
	pushq	%r12
	pushq	%rbx
	subq	$128, %rsp
	xorps	%xmm0, %xmm0
	movups	%xmm0, 47(%rsp)
	movaps	%xmm0, 32(%rsp)
	movups	%xmm0, 111(%rsp)
	movaps	%xmm0, 96(%rsp)
	movups	%xmm0, 79(%rsp)
	movaps	%xmm0, 64(%rsp)
	leaq	4(%rsp), %rax
	movq	%rax, 8(%rsp)
	movups	%xmm0, 16(%rsp)
	testq	%rdx, %rdx
	je	11f
	leaq	16(%rsp), %rbx
	xorl	%r8d, %r8d
	xorl	%ecx, %ecx
	xorl	%r9d, %r9d
	.p2align	4
1:
	movzbl	(%rsi), %ebp
	movl	$1, %r14d
	testb	%bpl, %bpl
	jns	3f
	movzbl	1(%rsi), %r10d
	andl	$63, %r10d
	cmpb	$-33, %bpl
	ja	2f
	andl	$31, %ebp
	shll	$6, %ebp
	orl	%r10d, %ebp
	movl	$2, %r14d
	addq	%r14, %rsi
	subq	%r14, %rdx
	cmpq	%r9, %r8
	jne	4f
	jmp	6f
2:
	movzbl	2(%rsi), %r11d
	andl	$63, %r11d
	cmpb	$-17, %bpl
	ja	5f
	shll	$12, %ebp
	movzwl	%bp, %ebp
	shll	$6, %r10d
	orl	%ebp, %r10d
	orl	%r11d, %r10d
	movl	$3, %r14d
	movl	%r10d, %ebp
	.p2align	4
3:
	addq	%r14, %rsi
	subq	%r14, %rdx
	cmpq	%r9, %r8
	je	6f
4:
	movl	%ebp, (%rax,%r9,4)
	incq	%r9
	testq	%rdx, %rdx
	jne	1b
	jmp	12f
5:
	movzbl	3(%rsi), %r14d
	andl	$63, %r14d
	andl	$7, %ebp
	shll	$18, %ebp
	shll	$12, %r10d
	orl	%ebp, %r10d
	shll	$6, %r11d
	orl	%r10d, %r11d
	orl	%r14d, %r11d
	movl	$4, %r14d
	movl	%r11d, %ebp
	addq	%r14, %rsi
	subq	%r14, %rdx
	cmpq	%r9, %r8
	jne	4b
6:
	movq	%rax, 8(%rsp)
	movq	%r8, 16(%rsp)
	movq	%rdx, %rax
	shrq	$2, %rax
	movl	%edx, %r9d
	andl	$3, %r9d
	cmpq	$1, %r9
	sbbq	$-1, %rax
	movq	%rcx, 24(%rsp)
	movq	%rcx, %r9
	subq	%r8, %r9
	cmpq	%r9, %rax
	jae	8f
7:
	movq	8(%rsp), %rax
	movl	%ebp, (%rax,%r8,4)
	movq	%r8, %r9
	xorl	%r8d, %r8d
	incq	%r9
	cmovneq	%rcx, %r8
	xorps	%xmm0, %xmm0
	movups	%xmm0, (%rbx)
	testq	%rdx, %rdx
	jne	1b
	jmp	12f
8:
	movq	%rsi, %r15
	movq	%rdx, %r12
	movq	%rdi, %r14
	incq	%rax
	leaq	8(%rsp), %rdi
	movq	%rax, %rsi
	callq	"std_alloc::vec::Vec::grow_amortized::<#4a1b0eae23e6b5cb>"
	movq	16(%rsp), %r8
	movq	24(%rsp), %rcx
	cmpq	%r8, %rcx
	setne	%dl
	orb	%al, %dl
	je	10f
9:
	movq	%r14, %rdi
	movq	%r12, %rdx
	movq	%r15, %rsi
	jmp	7b
10:
	leaq	8(%rsp), %rdi
	movl	$1, %esi
	callq	"std_alloc::vec::Vec::grow_amortized::<#4a1b0eae23e6b5cb>"
	testb	%al, %al
	je	14f
	movq	16(%rsp), %r8
	movq	24(%rsp), %rcx
	jmp	9b
11:
	xorl	%ecx, %ecx
	xorl	%r9d, %r9d
12:
	movq	%rax, 8(%rsp)
	movq	%r9, 16(%rsp)
	movq	%rcx, 24(%rsp)
	movq	%rcx, 87(%rsp)
	movq	8(%rsp), %rax
	movq	%rax, 71(%rsp)
	movq	16(%rsp), %rax
	movq	%rax, 79(%rsp)
	xorl	%ebx, %ebx
13:
	movq	87(%rsp), %rax
	movq	71(%rsp), %rcx
	movq	%rcx, 39(%rsp)
	movq	79(%rsp), %rcx
	movq	%rcx, 47(%rsp)
	movq	%rax, 55(%rsp)
	movb	%bl, (%rdi)
	movq	39(%rsp), %rax
	movq	%rax, 8(%rdi)
	movq	47(%rsp), %rax
	movq	%rax, 16(%rdi)
	movq	55(%rsp), %rax
	movq	%rax, 24(%rdi)
	addq	$128, %rsp
	popq	%rbx
	popq	%r12
	popq	%r14
	popq	%r15
	popq	%rbp
	retq
14:
	movb	$1, %bl
	cmpq	$0, 24(%rsp)
	je	15f
	movq	8(%rsp), %rdi
	callq	rattle_dealloc@PLT
15:
	movq	%r14, %rdi
	jmp	13b
16:
	.size	"strsim::chars_of::<#27635608fafc1f64>", 16b-"strsim::chars_of::<#27635608fafc1f64>"
