# Made by dist/refresh of what is proved.

	.text
	.p2align	4
	.type	"mime_load::holding::first_line_matches",@function
"mime_load::holding::first_line_matches":
	pushq	%rbp
	pushq	%r15
	pushq	%r14
	pushq	%r13
	pushq	%r12
	pushq	%rbx
	subq	$88, %rsp
	movq	%r9, 40(%rsp)
	movq	%rdx, 32(%rsp)
	testq	%rsi, %rsi
	je	7f
	movq	%rdi, %r13
	movq	24(%rdi), %r15
	xorl	%eax, %eax
	cmpb	$1, 32(%rdi)
	leaq	.L22d5119de29e(%rip), %rdx
	cmoveq	40(%rdi), %rdx
	movq	%rdx, 64(%rsp)
	movq	48(%rdi), %r14
	cmovneq	%rax, %r14
	movq	%rcx, 80(%rsp)
	movq	%rcx, %rbp
	subq	%r15, %rbp
	jb	8f
	movl	(%r13), %ebx
	cmpq	%rbx, %rbp
	jb	7f
	movq	%rsi, %r12
	movq	16(%r13), %rax
	movq	%rax, 48(%rsp)
	movl	8(%r13), %eax
	movl	%eax, 28(%rsp)
	movl	4(%r13), %eax
	movq	%rax, %rcx
	xorq	$1, %rcx
	orq	%r14, %rcx
	jne	1f
	testq	%r15, %r15
	sete	%cl
	cmpl	$1, 28(%rsp)
	setne	%dl
	orb	%cl, %dl
	jne	1f
	movq	32(%rsp), %rcx
	movzbl	(%rcx,%rbx), %ecx
	movq	48(%rsp), %rdx
	cmpb	(%rdx), %cl
	jne	6f
1:
	addq	%rbx, %rax
	incq	%rbp
	cmpq	%rax, %rbp
	cmovaeq	%rax, %rbp
	movq	%rbp, %r9
	subq	%rbx, %r9
	jbe	7f
	movl	28(%rsp), %eax
	cmpl	$2, %eax
	sete	%cl
	testb	$1, %r15b
	sete	%dil
	cmpl	$4, %eax
	sete	%dl
	testb	$3, %r15b
	sete	%al
	movzbl	%r8b, %esi
	movl	%esi, 60(%rsp)
	testq	%r15, %r15
	je	4f
	testq	%r14, %r14
	jne	4f
	movl	%edi, %r14d
	andb	%cl, %r14b
	andb	%dl, %al
	cmpq	$1, %r15
	jne	9f
	testb	%r8b, %r8b
	je	24f
2:
	movq	%rbp, %r14
	subq	%rbx, %r14
	cmpq	$2, %r14
	jb	3f
	movq	32(%rsp), %rax
	leaq	(%rax,%rbx), %rsi
	movq	48(%rsp), %rax
	movzbl	(%rax), %edi
	movq	%r14, %rdx
	callq	"memchr::bytes::memchr"
	testb	$1, %al
	cmoveq	%r14, %rdx
	movq	40(%rsp), %rsi
	movq	8(%rsi), %rax
	addq	%rdx, %rax
	movq	$-1, %rcx
	cmovaeq	%rax, %rcx
	movq	%rcx, 8(%rsi)
	addq	%rdx, %rbx
3:
	cmpq	%rbp, %rbx
	je	7f
	movq	32(%rsp), %rax
	addq	%rbx, %rax
	movq	40(%rsp), %rcx
	movq	%rcx, 16(%rsp)
	movq	%rax, (%rsp)
	movq	$1, 8(%rsp)
	movl	$1, %esi
	movq	48(%rsp), %rdi
	movq	64(%rsp), %rdx
	xorl	%ecx, %ecx
	movl	28(%rsp), %r8d
	movl	60(%rsp), %r9d
	callq	"mime_base::magic::ranges::value_is"
	testb	%al, %al
	jne	30f
	incq	%rbx
	xorl	%eax, %eax
	cmpq	%rbp, %rbx
	jb	2b
	jmp	8f
4:
	subq	%rbx, %rbp
	addq	32(%rsp), %rbx
	.p2align	4
5:
	movq	40(%rsp), %rax
	movq	%rax, 16(%rsp)
	movq	%r15, 8(%rsp)
	movq	%rbx, (%rsp)
	movq	48(%rsp), %rdi
	movq	%r15, %rsi
	movq	64(%rsp), %rdx
	movq	%r14, %rcx
	movl	28(%rsp), %r8d
	movl	60(%rsp), %r9d
	callq	"mime_base::magic::ranges::value_is"
	testb	%al, %al
	jne	30f
	incq	%rbx
	xorl	%eax, %eax
	decq	%rbp
	jne	5b
	jmp	8f
6:
	movq	40(%rsp), %rdx
	movq	8(%rdx), %rax
	incq	%rax
	movq	$-1, %rcx
	cmovneq	%rax, %rcx
	movq	%rcx, 8(%rdx)
7:
	xorl	%eax, %eax
8:
	addq	$88, %rsp
	popq	%rbx
	popq	%r12
	popq	%r13
	popq	%r14
	popq	%r15
	popq	%rbp
	retq
9:
	testb	%r8b, %r8b
	sete	%cl
	orb	%al, %r14b
	andb	%cl, %r14b
	movq	32(%rsp), %rax
	incq	%rax
	movq	%rax, 72(%rsp)
10:
	movq	%rbp, %rsi
	subq	%rbx, %rsi
	cmpq	$2, %rsi
	setb	%al
	orb	%r14b, %al
	jne	23f
	movq	48(%rsp), %rax
	movzbl	(%rax), %r8d
	movzbl	1(%rax), %edi
	cmpq	$32, %rsi
	jb	14f
	movzbl	%r8b, %eax
	movd	%eax, %xmm0
	pxor	%xmm2, %xmm2
	pshufb	%xmm2, %xmm0
	movzbl	%dil, %eax
	movd	%eax, %xmm1
	pshufb	%xmm2, %xmm1
	movq	72(%rsp), %rax
	leaq	(%rax,%rbx), %rcx
	xorl	%eax, %eax
	movq	%rsi, %r9
	xorl	%edx, %edx
	jmp	13f
	.p2align	4
11:
	xorl	%r10d, %r10d
12:
	addq	$32, %rax
	addq	%r10, %rdx
	addq	$-32, %r9
	cmpq	$31, %r9
	jbe	15f
13:
	movdqu	-1(%rcx,%rax), %xmm2
	movdqu	15(%rcx,%rax), %xmm3
	pcmpeqb	%xmm0, %xmm2
	pmovmskb	%xmm2, %r11d
	pcmpeqb	%xmm0, %xmm3
	pmovmskb	%xmm3, %r10d
	shll	$16, %r10d
	orl	%r11d, %r10d
	je	11b
	movdqu	(%rcx,%rax), %xmm4
	movdqu	16(%rcx,%rax), %xmm5
	pcmpeqb	%xmm1, %xmm4
	pcmpeqb	%xmm1, %xmm5
	pand	%xmm3, %xmm5
	pand	%xmm2, %xmm4
	por	%xmm5, %xmm4
	pmovmskb	%xmm4, %r11d
	testl	%r11d, %r11d
	jne	15f
	popcntl	%r10d, %r10d
	jmp	12b
14:
	xorl	%edx, %edx
	xorl	%eax, %eax
15:
	leaq	(%rbx,%rax), %r10
	movq	80(%rsp), %rcx
	subq	%r10, %rcx
	subq	%rax, %rsi
	cmpq	$33, %rcx
	jb	16f
	cmpq	$3, %rsi
	jbe	16f
	movq	32(%rsp), %rcx
	addq	%rbx, %rcx
	movzbl	%r8b, %r8d
	movd	%r8d, %xmm0
	pxor	%xmm1, %xmm1
	pshufb	%xmm1, %xmm0
	movdqu	(%rcx,%rax), %xmm2
	movdqu	1(%rcx,%rax), %xmm3
	movdqu	16(%rcx,%rax), %xmm4
	movdqu	17(%rcx,%rax), %xmm5
	pcmpeqb	%xmm0, %xmm2
	pmovmskb	%xmm2, %ecx
	pcmpeqb	%xmm0, %xmm4
	pmovmskb	%xmm4, %r8d
	shll	$16, %r8d
	orl	%ecx, %r8d
	movzbl	%dil, %ecx
	movd	%ecx, %xmm0
	pshufb	%xmm1, %xmm0
	pcmpeqb	%xmm0, %xmm3
	pcmpeqb	%xmm5, %xmm0
	pand	%xmm4, %xmm0
	pand	%xmm2, %xmm3
	pmovmskb	%xmm3, %ecx
	pmovmskb	%xmm0, %edi
	shll	$16, %edi
	orl	%ecx, %edi
	movl	$64, %r9d
	rep		bsfq	%rdi, %r9
	cmpq	%r9, %rsi
	cmovbq	%rsi, %r9
	cmpq	$32, %r9
	movl	$32, %ecx
	cmovbq	%r9, %rcx
	movq	$-1, %rsi
	shlq	%cl, %rsi
	notl	%esi
	andl	%r8d, %esi
	xorl	%r9d, %r9d
	popcntl	%esi, %r9d
	jmp	22f
16:
	testq	%rsi, %rsi
	je	21f
	movq	%rbp, %r11
	subq	%rax, %r11
	subq	%rbx, %r11
	addq	72(%rsp), %r10
	xorl	%r9d, %r9d
	xorl	%ecx, %ecx
	jmp	19f
	.p2align	4
17:
	incq	%r9
18:
	incq	%rcx
	cmpq	%rcx, %r11
	je	20f
19:
	cmpb	%r8b, -1(%r10,%rcx)
	jne	18b
	cmpb	%dil, (%r10,%rcx)
	jne	17b
	jmp	22f
20:
	movq	%rsi, %rcx
	jmp	22f
21:
	xorl	%ecx, %ecx
	xorl	%r9d, %r9d
22:
	addq	%rdx, %r9
	addq	%rax, %rcx
	movq	40(%rsp), %rsi
	movq	8(%rsi), %rax
	addq	%rcx, %rax
	movq	$-1, %rdx
	cmovbq	%rdx, %rax
	addq	%r9, %rax
	cmovbq	%rdx, %rax
	movq	%rax, 8(%rsi)
	addq	%rcx, %rbx
23:
	cmpq	%rbp, %rbx
	je	7b
	movq	32(%rsp), %rax
	addq	%rbx, %rax
	movq	40(%rsp), %rcx
	movq	%rcx, 16(%rsp)
	movq	%r15, 8(%rsp)
	movq	%rax, (%rsp)
	movq	48(%rsp), %rdi
	movq	%r15, %rsi
	movq	64(%rsp), %rdx
	xorl	%ecx, %ecx
	movl	28(%rsp), %r8d
	movl	60(%rsp), %r9d
	callq	"mime_base::magic::ranges::value_is"
	testb	%al, %al
	jne	30f
	incq	%rbx
	xorl	%eax, %eax
	cmpq	%rbp, %rbx
	jb	10b
	jmp	8b
24:
	testb	%r14b, %r14b
	je	26f
	subq	%rbx, %rbp
	addq	32(%rsp), %rbx
25:
	movq	40(%rsp), %rax
	movq	%rax, 16(%rsp)
	movq	%rbx, (%rsp)
	movq	$1, 8(%rsp)
	movl	$1, %esi
	movq	48(%rsp), %rdi
	movq	64(%rsp), %rdx
	xorl	%ecx, %ecx
	movl	$2, %r8d
	xorl	%r9d, %r9d
	callq	"mime_base::magic::ranges::value_is"
	testb	%al, %al
	jne	30f
	incq	%rbx
	xorl	%eax, %eax
	decq	%rbp
	jne	25b
	jmp	8b
26:
	testb	%al, %al
	je	28f
	addq	32(%rsp), %rbx
27:
	movq	%r9, %r14
	movq	40(%rsp), %rax
	movq	%rax, 16(%rsp)
	movq	%rbx, (%rsp)
	movq	$1, 8(%rsp)
	movl	$1, %esi
	movq	48(%rsp), %rdi
	movq	64(%rsp), %rdx
	xorl	%ecx, %ecx
	movl	$4, %r8d
	xorl	%r9d, %r9d
	callq	"mime_base::magic::ranges::value_is"
	testb	%al, %al
	jne	30f
	incq	%rbx
	xorl	%eax, %eax
	movq	%r14, %r9
	decq	%r9
	jne	27b
	jmp	8b
28:
	movq	%rbp, %r14
	subq	%rbx, %r14
	cmpq	$2, %r14
	jb	29f
	movq	32(%rsp), %rax
	leaq	(%rax,%rbx), %rsi
	movq	48(%rsp), %rax
	movzbl	(%rax), %edi
	movq	%r14, %rdx
	callq	"memchr::bytes::memchr"
	testb	$1, %al
	cmoveq	%r14, %rdx
	movq	40(%rsp), %rsi
	movq	8(%rsi), %rax
	addq	%rdx, %rax
	movq	$-1, %rcx
	cmovaeq	%rax, %rcx
	movq	%rcx, 8(%rsi)
	addq	%rdx, %rbx
29:
	cmpq	%rbp, %rbx
	je	7b
	movq	32(%rsp), %rax
	addq	%rbx, %rax
	movq	40(%rsp), %rcx
	movq	%rcx, 16(%rsp)
	movq	%rax, (%rsp)
	movq	$1, 8(%rsp)
	movl	$1, %esi
	movq	48(%rsp), %rdi
	movq	64(%rsp), %rdx
	xorl	%ecx, %ecx
	movl	28(%rsp), %r8d
	xorl	%r9d, %r9d
	callq	"mime_base::magic::ranges::value_is"
	testb	%al, %al
	jne	30f
	incq	%rbx
	xorl	%eax, %eax
	cmpq	%rbp, %rbx
	jb	28b
	jmp	8b
30:
	decq	%r12
	movq	56(%r13), %rax
	cmpq	%rax, %r12
	cmovaeq	%rax, %r12
	testq	%r12, %r12
	je	32f
	addq	$64, %r13
	.p2align	4
31:
	movq	%r13, %rdi
	movq	%r12, %rsi
	movq	32(%rsp), %rdx
	movq	80(%rsp), %rcx
	movl	60(%rsp), %r8d
	movq	40(%rsp), %r9
	callq	"mime_load::holding::first_line_matches"
	testb	%al, %al
	jne	8b
	leaq	-1(%r12), %rcx
	movq	56(%r13), %rdx
	cmpq	%rdx, %rcx
	cmovbq	%rcx, %rdx
	incq	%rdx
	movq	%rdx, %rcx
	shlq	$6, %rcx
	addq	%rcx, %r13
	subq	%rdx, %r12
	jne	31b
	jmp	8b
32:
	movb	$1, %al
	jmp	8b
33:
	.size	"mime_load::holding::first_line_matches", 33b-"mime_load::holding::first_line_matches"

	.text
	.p2align	4
	.type	"mime_load::lines::push_lines",@function
"mime_load::lines::push_lines":
	pushq	%rbp
	pushq	%r15
	pushq	%r14
	pushq	%r13
	pushq	%r12
	pushq	%rbx
	subq	$88, %rsp
	movq	%rdi, %r13
	testl	%ecx, %ecx
	sete	%dil
	testl	%edx, %edx
	sete	%r10b
	setne	%al
	orb	%dil, %r10b
	je	3f
	andb	%dil, %al
1:
	xorl	%ecx, %ecx
2:
	movl	%ecx, %edx
	addq	$88, %rsp
	popq	%rbx
	popq	%r12
	popq	%r13
	popq	%r14
	popq	%r15
	popq	%rbp
	retq
3:
	movl	%esi, %r15d
	decl	%ecx
	movl	%ecx, 20(%rsp)
	movl	%edx, %edi
	movq	%r15, %r10
	negq	%r10
	movq	%r8, 24(%rsp)
	movq	%r13, 64(%rsp)
	jmp	5f
	.p2align	4
4:
	movq	72(%rsp), %r15
	addq	$32, %r15
	movq	80(%rsp), %r10
	addq	$-32, %r10
	decq	%rdi
	movq	24(%rsp), %r8
	je	14f
5:
	movq	16(%r8), %rcx
	movb	$1, %al
	cmpq	$32, %rcx
	jb	1b
	addq	$-32, %rcx
	movq	%rcx, 16(%r8)
	movq	(%r13), %rsi
	movq	(%r8), %rcx
	incq	%rcx
	movq	$-1, %rdx
	cmovneq	%rcx, %rdx
	movq	%rdx, (%r8)
	movq	8(%rsi), %rdx
	xorl	%ecx, %ecx
	cmpq	%r15, %rdx
	jb	2b
	addq	%r10, %rdx
	cmpq	$32, %rdx
	jb	2b
	movq	%r10, 80(%rsp)
	movq	(%rsi), %rsi
	movl	16(%rsi,%r15), %ecx
	movl	12(%rsi,%r15), %ebx
	shlq	$32, %rbx
	orq	%rcx, %rbx
	bswapq	%rbx
	xorl	%ecx, %ecx
	cmpl	$65535, %ebx
	ja	2b
	movl	(%rsi,%r15), %r14d
	movl	4(%rsi,%r15), %ebp
	bswapl	%r14d
	movl	8(%rsi,%r15), %edx
	shlq	$32, %rbp
	orq	%rdx, %rbp
	bswapq	%rbp
	movl	%ebp, %edx
	addq	%r14, %rdx
	movl	%ebx, %r12d
	addq	%r12, %rdx
	shrq	$32, %rdx
	jne	2b
	movq	%rdi, 32(%rsp)
	movl	20(%rsi,%r15), %r10d
	movl	24(%rsi,%r15), %edx
	movl	28(%rsi,%r15), %esi
	movq	%rbp, %rcx
	shrq	$32, %rcx
	cmpq	$1, %rcx
	je	8f
	cmpl	$2, %ecx
	jne	6f
	movl	%ebx, %edi
	xorb	$1, %dil
	jmp	7f
	.p2align	4
6:
	xorl	%edi, %edi
7:
	cmpl	$4, %ecx
	sete	%cl
	testb	$3, %bl
	sete	%r11b
	testb	%r11b, %cl
	jne	8f
	testb	$1, %dil
	je	1b
8:
	movq	24(%r8), %rcx
	subq	%r12, %rcx
	jb	1b
	movq	%r15, 72(%rsp)
	movq	%rcx, 24(%r8)
	movq	8(%r8), %rcx
	movq	$-1, %rdi
	addq	%r12, %rcx
	jb	9f
	movq	%rcx, %rdi
9:
	shrq	$32, %rbx
	movq	(%r13), %r15
	movq	%rdi, 8(%r8)
	movq	8(%r15), %r11
	xorl	%ecx, %ecx
	subq	%rbx, %r11
	jb	2b
	cmpq	%r12, %r11
	jb	2b
	addq	(%r15), %rbx
	testl	%r10d, %r10d
	je	11f
	movq	$-1, %rcx
	addq	%r12, %rdi
	jb	10f
	movq	%rdi, %rcx
10:
	bswapl	%r10d
	movq	(%r13), %rdi
	movl	%r10d, %r13d
	movq	%rcx, 8(%r8)
	movq	8(%rdi), %r8
	xorl	%ecx, %ecx
	subq	%r13, %r8
	jb	2b
	cmpq	%r12, %r8
	jb	2b
	addq	(%rdi), %r13
	movl	$1, %r8d
	movq	%r12, %r10
	movq	8(%r9), %r15
	movq	%r15, %rax
	cmpq	%r15, 16(%r9)
	jne	12f
	jmp	13f
	.p2align	4
11:
	xorl	%r8d, %r8d
	xorl	%r13d, %r13d
	xorl	%r10d, %r10d
	movq	8(%r9), %r15
	movq	%r15, %rax
	cmpq	%r15, 16(%r9)
	je	13f
12:
	movq	(%r9), %rcx
	movq	%rax, %rdi
	shlq	$6, %rdi
	movl	%r14d, (%rcx,%rdi)
	movq	%rbp, 4(%rcx,%rdi)
	movl	$0, 12(%rcx,%rdi)
	movq	%rbx, 16(%rcx,%rdi)
	movq	%r12, 24(%rcx,%rdi)
	movq	%r8, 32(%rcx,%rdi)
	movq	%r13, 40(%rcx,%rdi)
	movq	%r10, 48(%rcx,%rdi)
	movq	$0, 56(%rcx,%rdi)
	incq	%rax
	movq	%rax, 8(%r9)
	testl	%edx, %edx
	movl	20(%rsp), %ecx
	movq	64(%rsp), %r13
	movq	32(%rsp), %rdi
	je	4b
	bswapl	%edx
	bswapl	%esi
	movq	%r13, %rdi
	movq	24(%rsp), %r8
	movq	%r9, %rbx
	callq	"mime_load::lines::push_lines"
	testb	%al, %al
	jne	15f
	movq	(%rbx), %rax
	movq	%r15, %rcx
	notq	%rcx
	addq	8(%rbx), %rcx
	shlq	$6, %r15
	movq	%rcx, 56(%rax,%r15)
	movq	%rbx, %r9
	movq	32(%rsp), %rdi
	jmp	4b
13:
	movq	%r10, 48(%rsp)
	movq	%r8, 56(%rsp)
	movl	%esi, 16(%rsp)
	movl	%edx, 12(%rsp)
	movq	%r9, %rdi
	movq	%r9, 40(%rsp)
	callq	"std_alloc::vec::Vec::grow_amortized::<#1a30988f8987f99f>"
	testb	%al, %al
	je	16f
	movq	40(%rsp), %r9
	movq	8(%r9), %rax
	movl	12(%rsp), %edx
	movl	16(%rsp), %esi
	movq	56(%rsp), %r8
	movq	48(%rsp), %r10
	jmp	12b
14:
	xorl	%ecx, %ecx
	xorl	%eax, %eax
	jmp	2b
15:
	movl	%edx, %ecx
	movb	$1, %al
	jmp	2b
16:
	movb	$1, %cl
	movb	$1, %al
	jmp	2b
17:
	.size	"mime_load::lines::push_lines", 17b-"mime_load::lines::push_lines"

	.text
	.p2align	4
	.type	"mime_load::pairs::pairs_at",@function
"mime_load::pairs::pairs_at":
	pushq	%rbp
	pushq	%r15
	pushq	%r14
	pushq	%r13
	pushq	%r12
	pushq	%rbx
	subq	$152, %rsp
	movq	%rcx, %r14
	movq	%rdx, %r15
	pxor	%xmm0, %xmm0
	movdqu	%xmm0, 126(%rsp)
	movdqa	%xmm0, 112(%rsp)
	movdqa	%xmm0, 16(%rsp)
	movq	$0, 32(%rsp)
	movq	(%rcx), %rax
	incq	%rax
	movq	$-1, %rcx
	cmovneq	%rax, %rcx
	movq	(%rsi), %rax
	movq	%rcx, (%r14)
	movq	8(%rax), %rcx
	subq	%rdx, %rcx
	setb	%dl
	cmpq	$4, %rcx
	setb	%cl
	orb	%dl, %cl
	jne	1f
	movq	%rsi, %r13
	movq	(%rax), %rax
	movl	(%rax,%r15), %eax
	movl	%eax, %r12d
	bswapl	%r12d
	movq	(%rsi), %rcx
	leaq	(%r15,%r12,8), %rdx
	addq	$4, %rdx
	cmpq	%rdx, 8(%rcx)
	jae	3f
1:
	movw	$1, (%rdi)
	movdqu	%xmm0, 8(%rdi)
	movq	$0, 24(%rdi)
2:
	addq	$152, %rsp
	popq	%rbx
	popq	%r12
	popq	%r13
	popq	%r14
	popq	%r15
	popq	%rbp
	retq
3:
	testl	%eax, %eax
	je	16f
	movq	%rdi, %rbx
	movq	%r12, %rdi
	shlq	$5, %rdi
	movl	$8, %esi
	callq	rattle_alloc@PLT
	testb	$1, %al
	je	19f
	movq	%rbx, 48(%rsp)
	movq	%rdx, 16(%rsp)
	movq	$0, 24(%rsp)
	movq	%r12, 32(%rsp)
	movq	$-4, %rax
	subq	%r15, %rax
	movq	%rax, 88(%rsp)
	addq	$4, %r15
	xorl	%edi, %edi
	movq	%rdx, %rbx
	movq	%r14, 80(%rsp)
	.p2align	4
4:
	movq	%rbx, 104(%rsp)
	movq	%r12, 96(%rsp)
	movq	(%r14), %rax
	incq	%rax
	movq	$-1, %rcx
	cmovneq	%rax, %rcx
	movq	(%r13), %rax
	movq	%rcx, (%r14)
	movq	8(%rax), %rcx
	cmpq	%r15, %rcx
	jb	22f
	addq	88(%rsp), %rcx
	cmpq	$8, %rcx
	jb	22f
	movq	(%rax), %rax
	movl	(%rax,%r15), %ebp
	movl	4(%rax,%r15), %eax
	shlq	$32, %rbp
	orq	%rax, %rbp
	bswapq	%rbp
	movq	(%r13), %rcx
	movl	%ebp, %esi
	movq	8(%rcx), %rax
	subq	%rsi, %rax
	jbe	22f
	addq	(%rcx), %rsi
	cmpq	$32, %rax
	movq	%rdi, 72(%rsp)
	movq	%rsi, 56(%rsp)
	jae	6f
5:
	cmpq	$256, %rax
	movl	$256, %r12d
	cmovbq	%rax, %r12
	xorl	%edi, %edi
	movq	%r12, %rdx
	callq	"memchr::bytes::memchr"
	cmpb	$1, %al
	jne	20f
	movq	%rdx, %r8
	movq	%rdx, %rax
	incq	%rax
	addq	8(%r14), %rax
	movq	$-1, %rbx
	cmovaeq	%rax, %rbx
	movq	72(%rsp), %rdi
	movq	56(%rsp), %rsi
	jmp	8f
	.p2align	4
6:
	movdqu	(%rsi), %xmm1
	pxor	%xmm0, %xmm0
	pcmpeqb	%xmm0, %xmm1
	pmovmskb	%xmm1, %edx
	movl	$64, %ecx
	movl	$64, %r8d
	rep		bsfq	%rdx, %r8
	cmpq	$16, %r8
	jb	7f
	movdqu	16(%rsi), %xmm1
	pcmpeqb	%xmm0, %xmm1
	pmovmskb	%xmm1, %edx
	rep		bsfq	%rdx, %rcx
	cmpq	$15, %rcx
	ja	5b
	orq	$16, %rcx
	movq	%rcx, %r8
7:
	leaq	1(%r8), %rax
	addq	8(%r14), %rax
	movq	$-1, %rbx
	cmovaeq	%rax, %rbx
8:
	movq	%rbx, 8(%r14)
	shrq	$32, %rbp
	movq	(%r13), %rcx
	movq	8(%rcx), %rax
	subq	%rbp, %rax
	jbe	22f
	addq	(%rcx), %rbp
	cmpq	$32, %rax
	movq	%r15, 64(%rsp)
	jae	11f
9:
	movq	%r8, %r15
	cmpq	$256, %rax
	movl	$256, %r14d
	cmovbq	%rax, %r14
	xorl	%edi, %edi
	movq	%rbp, %rsi
	movq	%r14, %rdx
	callq	"memchr::bytes::memchr"
	cmpb	$1, %al
	jne	21f
	movq	%rdx, %r12
	movq	%rdx, %rcx
	incq	%rcx
	addq	%rbx, %rcx
	movq	$-1, %rax
	cmovaeq	%rcx, %rax
	movq	80(%rsp), %r14
	movq	72(%rsp), %rdi
	movq	56(%rsp), %rsi
	movq	%r15, %r8
	movq	64(%rsp), %r15
	movq	%rax, 8(%r14)
	testq	%rdi, %rdi
	movq	104(%rsp), %rbx
	je	13f
10:
	movq	%rdi, %rax
	shlq	$5, %rax
	movq	-32(%rbx,%rax), %rdx
	movq	-24(%rbx,%rax), %rcx
	movq	%rsi, %rdi
	movq	%r8, %r15
	movq	%r8, %rsi
	callq	"core::cmp::slices::RefSliceOrd::cmp::<#914af4d8504a0b72>"
	movq	32(%rsp), %rcx
	testb	%al, %al
	je	25f
	movq	72(%rsp), %rdi
	movq	56(%rsp), %rsi
	movq	%r15, %r8
	movq	64(%rsp), %r15
	cmpq	%rdi, %rcx
	jne	14f
	jmp	15f
	.p2align	4
11:
	movdqu	(%rbp), %xmm1
	pxor	%xmm0, %xmm0
	pcmpeqb	%xmm0, %xmm1
	pmovmskb	%xmm1, %edx
	movl	$64, %ecx
	movl	$64, %r12d
	rep		bsfq	%rdx, %r12
	cmpq	$16, %r12
	jb	12f
	movdqu	16(%rbp), %xmm1
	pcmpeqb	%xmm0, %xmm1
	pmovmskb	%xmm1, %edx
	rep		bsfq	%rdx, %rcx
	cmpq	$15, %rcx
	ja	9b
	orq	$16, %rcx
	movq	%rcx, %r12
12:
	leaq	1(%r12), %rcx
	addq	%rbx, %rcx
	movq	$-1, %rax
	cmovaeq	%rcx, %rax
	movq	%rax, 8(%r14)
	testq	%rdi, %rdi
	movq	104(%rsp), %rbx
	jne	10b
13:
	movq	32(%rsp), %rcx
	cmpq	%rdi, %rcx
	je	15f
14:
	movq	%rdi, %rax
	shlq	$5, %rax
	movq	%rsi, (%rbx,%rax)
	movq	%r8, 8(%rbx,%rax)
	movq	%rbp, 16(%rbx,%rax)
	movq	%r12, 24(%rbx,%rax)
	incq	%rdi
	movq	%rdi, 24(%rsp)
	addq	$8, %r15
	addq	$-8, 88(%rsp)
	movq	96(%rsp), %r12
	decq	%r12
	jne	4b
	jmp	17f
15:
	movq	%r8, %r15
	leaq	16(%rsp), %rdi
	callq	"std_alloc::vec::Vec::grow_amortized::<#dd15b8e9b635a37b>"
	testb	%al, %al
	je	27f
	movq	16(%rsp), %rbx
	movq	24(%rsp), %rdi
	movq	56(%rsp), %rsi
	movq	%r15, %r8
	movq	64(%rsp), %r15
	jmp	14b
16:
	movq	%rdi, 48(%rsp)
	leaq	8(%rsp), %rax
	movq	%rax, 16(%rsp)
	movq	%r12, 32(%rsp)
17:
	movq	48(%rsp), %rcx
	movw	$0, (%rcx)
	movq	16(%rsp), %rax
	movq	%rax, 8(%rcx)
	movq	24(%rsp), %rax
	movq	%rax, 16(%rcx)
	movq	32(%rsp), %rax
18:
	movq	%rax, 24(%rcx)
	jmp	2b
19:
	movw	$257, (%rbx)
	pxor	%xmm0, %xmm0
	movdqu	%xmm0, 8(%rbx)
	movq	$0, 24(%rbx)
	jmp	2b
20:
	addq	8(%r14), %r12
	movq	$-1, %rax
	cmovaeq	%r12, %rax
	movq	%rax, 8(%r14)
	jmp	22f
21:
	addq	%rbx, %r14
	movq	$-1, %rax
	cmovaeq	%r14, %rax
	movq	80(%rsp), %rcx
	movq	%rax, 8(%rcx)
22:
	cmpq	$0, 32(%rsp)
	je	23f
	movq	16(%rsp), %rdi
	callq	rattle_dealloc@PLT
23:
	movq	48(%rsp), %rax
	movw	$1, (%rax)
24:
	pxor	%xmm0, %xmm0
	movdqu	%xmm0, 8(%rax)
	movq	$0, 24(%rax)
	jmp	2b
25:
	testq	%rcx, %rcx
	je	26f
	movq	%rbx, %rdi
	callq	rattle_dealloc@PLT
26:
	movq	48(%rsp), %rcx
	movw	$1, (%rcx)
	movups	118(%rsp), %xmm0
	movups	%xmm0, 8(%rcx)
	movq	134(%rsp), %rax
	jmp	18b
27:
	cmpq	$0, 32(%rsp)
	je	28f
	movq	16(%rsp), %rdi
	callq	rattle_dealloc@PLT
28:
	movq	48(%rsp), %rax
	movw	$257, (%rax)
	jmp	24b
29:
	.size	"mime_load::pairs::pairs_at", 29b-"mime_load::pairs::pairs_at"

	.section	.rodata.cst16,"aM",@progbits,16
	.p2align	4, 0x0
1:
	.byte	42,42,42,42,42,42,42,42
	.zero	1
	.zero	1
	.zero	1
	.zero	1
	.zero	1
	.zero	1
	.zero	1
	.zero	1
2:
	.byte	63,63,63,63,63,63,63,63
	.zero	1
	.zero	1
	.zero	1
	.zero	1
	.zero	1
	.zero	1
	.zero	1
	.zero	1
3:
	.byte	92,92,92,92,92,92,92,92
	.zero	1
	.zero	1
	.zero	1
	.zero	1
	.zero	1
	.zero	1
	.zero	1
	.zero	1
4:
	.byte	91,91,91,91,91,91,91,91
	.zero	1
	.zero	1
	.zero	1
	.zero	1
	.zero	1
	.zero	1
	.zero	1
	.zero	1
	.text
	.p2align	4
	.type	"mime_load::rules::globs_at",@function
"mime_load::rules::globs_at":
	pushq	%rbp
	pushq	%r15
	pushq	%r14
	pushq	%r13
	pushq	%r12
	pushq	%rbx
	subq	$168, %rsp
	movq	%rcx, %r14
	movq	%rdi, %rbx
	pxor	%xmm0, %xmm0
	movdqu	%xmm0, 94(%rsp)
	movdqa	%xmm0, 80(%rsp)
	movdqa	%xmm0, 16(%rsp)
	movq	$0, 32(%rsp)
	movdqa	%xmm0, 112(%rsp)
	movdqa	%xmm0, 128(%rsp)
	movdqa	%xmm0, 144(%rsp)
	movq	$0, 160(%rsp)
	movl	%edx, %r13d
	movq	(%rcx), %rax
	incq	%rax
	movq	$-1, %rcx
	cmovneq	%rax, %rcx
	movq	(%rsi), %rax
	movq	%rcx, (%r14)
	movq	8(%rax), %rcx
	subq	%r13, %rcx
	setb	%dl
	cmpq	$4, %rcx
	setb	%cl
	orb	%dl, %cl
	jne	5f
	movq	%rsi, %rbp
	movq	(%rax), %rax
	movl	(%rax,%r13), %eax
	movl	%eax, %r15d
	bswapl	%r15d
	movq	(%rsi), %rcx
	leaq	(%r15,%r15,2), %rdx
	leaq	4(,%rdx,4), %rdx
	addq	%r13, %rdx
	cmpq	%rdx, 8(%rcx)
	jae	8f
5:
	movw	$1, (%rbx)
6:
	movdqu	%xmm0, 8(%rbx)
	movq	$0, 24(%rbx)
7:
	addq	$168, %rsp
	popq	%rbx
	popq	%r12
	popq	%r13
	popq	%r14
	popq	%r15
	popq	%rbp
	retq
8:
	testl	%eax, %eax
	je	21f
	movq	%r15, %rax
	shlq	$4, %rax
	leaq	(%rax,%rax,2), %rdi
	movl	$8, %esi
	callq	rattle_alloc@PLT
	testb	$1, %al
	je	27f
	addq	$4, %r13
	movq	%rdx, 16(%rsp)
	movq	$0, 24(%rsp)
	movq	%r15, 64(%rsp)
	movq	%r15, 32(%rsp)
	xorl	%r15d, %r15d
	xorl	%r12d, %r12d
	movq	%rbp, 72(%rsp)
	.p2align	4
9:
	movq	%rdx, 48(%rsp)
	leaq	(%r12,%r12,2), %rax
	leaq	(,%rax,4), %rdx
	addq	%r13, %rdx
	leaq	112(%rsp), %rdi
	movq	%rbp, %rsi
	movq	%r14, %rcx
	callq	"mime_load::rules::read_rule"
	cmpb	$0, 112(%rsp)
	jne	24f
	movq	144(%rsp), %rbp
	movq	152(%rsp), %rax
	movups	152(%rsp), %xmm3
	movabsq	$1688849862361089, %rcx
	testq	%rax, %rax
	je	13f
	cmpb	$42, (%rbp)
	jne	12f
	leaq	-1(%rax), %rdx
	cmpq	$8, %rdx
	jb	10f
	movq	1(%rbp), %xmm0
	movdqa	1b(%rip), %xmm1
	pcmpeqb	%xmm0, %xmm1
	movdqa	2b(%rip), %xmm2
	pcmpeqb	%xmm0, %xmm2
	por	%xmm1, %xmm2
	movdqa	3b(%rip), %xmm1
	pcmpeqb	%xmm0, %xmm1
	pcmpeqb	4b(%rip), %xmm0
	por	%xmm1, %xmm0
	por	%xmm2, %xmm0
	pmovmskb	%xmm0, %edx
	testb	%dl, %dl
	jne	15f
10:
	movl	$1, %edx
	.p2align	4
11:
	cmpq	%rdx, %rax
	je	18f
	movzbl	(%rbp,%rdx), %esi
	incq	%rdx
	addl	$-42, %esi
	cmpl	$50, %esi
	ja	11b
	btq	%rsi, %rcx
	jae	11b
	jmp	15f
12:
	cmpq	$8, %rax
	jb	13f
	movq	(%rbp), %xmm0
	movdqa	1b(%rip), %xmm1
	pcmpeqb	%xmm0, %xmm1
	movdqa	2b(%rip), %xmm2
	pcmpeqb	%xmm0, %xmm2
	por	%xmm1, %xmm2
	movdqa	3b(%rip), %xmm1
	pcmpeqb	%xmm0, %xmm1
	pcmpeqb	4b(%rip), %xmm0
	por	%xmm1, %xmm0
	por	%xmm2, %xmm0
	pmovmskb	%xmm0, %edx
	testb	%dl, %dl
	jne	15f
	.p2align	4
13:
	xorl	%edx, %edx
	.p2align	4
14:
	cmpq	%rdx, %rax
	je	19f
	movzbl	(%rbp,%rdx), %esi
	incq	%rdx
	addl	$-42, %esi
	cmpl	$50, %esi
	ja	14b
	btq	%rsi, %rcx
	jae	14b
15:
	cmpq	%r15, 32(%rsp)
	movq	48(%rsp), %rdx
	je	17f
16:
	leaq	(%r15,%r15,2), %rax
	shlq	$4, %rax
	leaq	120(%rsp), %rcx
	movdqu	(%rcx), %xmm0
	movq	16(%rcx), %rcx
	movq	%rcx, 16(%rdx,%rax)
	movdqu	%xmm0, (%rdx,%rax)
	movq	%rbp, 24(%rdx,%rax)
	movups	%xmm3, 32(%rdx,%rax)
	incq	%r15
	movq	%r15, 24(%rsp)
	incq	%r12
	cmpq	64(%rsp), %r12
	movq	72(%rsp), %rbp
	jne	9b
	jmp	22f
17:
	movaps	%xmm3, 48(%rsp)
	leaq	16(%rsp), %rdi
	callq	"std_alloc::vec::Vec::grow_amortized::<#923caa80388ab1e5>"
	testb	%al, %al
	je	26f
	movq	16(%rsp), %rdx
	movq	24(%rsp), %r15
	movaps	48(%rsp), %xmm3
	jmp	16b
18:
	cmpq	$1, %rax
	je	15b
19:
	cmpq	$0, 32(%rsp)
	je	20f
	movq	16(%rsp), %rdi
	callq	rattle_dealloc@PLT
20:
	movw	$1, (%rbx)
	movdqu	86(%rsp), %xmm0
	movdqu	%xmm0, 8(%rbx)
	movq	102(%rsp), %rax
	jmp	23f
21:
	leaq	8(%rsp), %rax
	movq	%rax, 16(%rsp)
	movq	%r15, 32(%rsp)
22:
	movw	$0, (%rbx)
	movq	16(%rsp), %rax
	movq	%rax, 8(%rbx)
	movq	24(%rsp), %rax
	movq	%rax, 16(%rbx)
	movq	32(%rsp), %rax
23:
	movq	%rax, 24(%rbx)
	jmp	7b
24:
	movzbl	113(%rsp), %ebp
	leaq	86(%rsp), %r14
	pxor	%xmm0, %xmm0
	movdqu	%xmm0, 86(%rsp)
	movq	$0, 102(%rsp)
	cmpq	$0, 32(%rsp)
	je	25f
	movq	48(%rsp), %rdi
	callq	rattle_dealloc@PLT
25:
	movb	$1, (%rbx)
	movb	%bpl, 1(%rbx)
	movups	(%r14), %xmm0
	movups	%xmm0, 8(%rbx)
	movq	16(%r14), %rax
	jmp	23b
26:
	cmpq	$0, 32(%rsp)
	je	27f
	movq	16(%rsp), %rdi
	callq	rattle_dealloc@PLT
27:
	movw	$257, (%rbx)
	pxor	%xmm0, %xmm0
	jmp	6b
28:
	.size	"mime_load::rules::globs_at", 28b-"mime_load::rules::globs_at"

	.text
	.p2align	4
	.type	"mime_load::rules::read_rule",@function
"mime_load::rules::read_rule":
	pushq	%rbp
	pushq	%r15
	pushq	%r14
	pushq	%r13
	pushq	%r12
	pushq	%rbx
	subq	$24, %rsp
	movq	16(%rcx), %rax
	cmpq	$12, %rax
	jb	14f
	addq	$-12, %rax
	movq	%rax, 16(%rcx)
	movq	(%rcx), %rax
	incq	%rax
	movq	$-1, %r8
	cmovneq	%rax, %r8
	movq	(%rsi), %rax
	movq	%r8, (%rcx)
	movq	8(%rax), %r8
	subq	%rdx, %r8
	setb	%r9b
	cmpq	$12, %r8
	setb	%r8b
	orb	%r9b, %r8b
	jne	14f
	movq	(%rax), %r8
	movl	(%r8,%rdx), %ebx
	bswapl	%ebx
	movq	(%rsi), %r9
	movq	8(%r9), %rax
	subq	%rbx, %rax
	jbe	14f
	movl	4(%r8,%rdx), %r12d
	movl	8(%r8,%rdx), %r10d
	addq	(%r9), %rbx
	cmpq	$32, %rax
	jae	2f
1:
	movq	%r10, 8(%rsp)
	movq	%rsi, %r15
	movq	%rcx, %r13
	movq	%rdi, %rbp
	cmpq	$256, %rax
	movl	$256, %r14d
	cmovbq	%rax, %r14
	xorl	%edi, %edi
	movq	%rbx, %rsi
	movq	%r14, %rdx
	callq	"memchr::bytes::memchr"
	cmpb	$1, %al
	jne	6f
	movq	%rdx, %rax
	incq	%rax
	movq	%r13, %rcx
	addq	8(%r13), %rax
	movq	$-1, %r13
	cmovaeq	%rax, %r13
	movq	%r13, 8(%rcx)
	movq	%rbp, %rdi
	movq	%r15, %rsi
	movq	8(%rsp), %r10
	jmp	4f
2:
	movdqu	(%rbx), %xmm1
	pxor	%xmm0, %xmm0
	pcmpeqb	%xmm0, %xmm1
	pmovmskb	%xmm1, %r9d
	movl	$64, %r8d
	movl	$64, %edx
	rep		bsfq	%r9, %rdx
	cmpq	$16, %rdx
	jb	3f
	movdqu	16(%rbx), %xmm1
	pcmpeqb	%xmm0, %xmm1
	pmovmskb	%xmm1, %edx
	rep		bsfq	%rdx, %r8
	cmpq	$15, %r8
	ja	1b
	orq	$16, %r8
	movq	%r8, %rdx
3:
	leaq	1(%rdx), %rax
	addq	8(%rcx), %rax
	movq	$-1, %r13
	cmovaeq	%rax, %r13
	movq	%r13, 8(%rcx)
4:
	shlq	$32, %r12
	orq	%r10, %r12
	bswapq	%r12
	movq	(%rsi), %rsi
	movl	%r12d, %r14d
	movq	8(%rsi), %rax
	subq	%r14, %rax
	jbe	14f
	addq	(%rsi), %r14
	cmpq	$32, %rax
	jae	7f
5:
	movq	%rdx, 16(%rsp)
	movq	%rcx, %rbp
	movq	%rdi, 8(%rsp)
	cmpq	$256, %rax
	movl	$256, %r15d
	cmovbq	%rax, %r15
	xorl	%edi, %edi
	movq	%r14, %rsi
	movq	%r15, %rdx
	callq	"memchr::bytes::memchr"
	cmpb	$1, %al
	jne	11f
	movq	%rdx, %rsi
	movq	%rdx, %rax
	incq	%rax
	addq	%r13, %rax
	movq	$-1, %rcx
	cmovaeq	%rax, %rcx
	movq	%rcx, 8(%rbp)
	movq	8(%rsp), %rdi
	movq	16(%rsp), %rdx
	jmp	9f
6:
	addq	8(%r13), %r14
	movq	$-1, %rax
	cmovaeq	%r14, %rax
	movq	%rax, 8(%r13)
	movq	%rbp, %rdi
	jmp	14f
7:
	movdqu	(%r14), %xmm1
	pxor	%xmm0, %xmm0
	pcmpeqb	%xmm0, %xmm1
	pmovmskb	%xmm1, %r9d
	movl	$64, %r8d
	movl	$64, %esi
	rep		bsfq	%r9, %rsi
	cmpq	$16, %rsi
	jb	8f
	movdqu	16(%r14), %xmm1
	pcmpeqb	%xmm0, %xmm1
	pmovmskb	%xmm1, %esi
	rep		bsfq	%rsi, %r8
	cmpq	$15, %r8
	ja	5b
	orq	$16, %r8
	movq	%r8, %rsi
8:
	leaq	1(%rsi), %rax
	addq	%r13, %rax
	movq	$-1, %r8
	cmovaeq	%rax, %r8
	movq	%r8, 8(%rcx)
9:
	movq	%r12, %rcx
	shrq	$40, %rcx
	setne	%al
	movq	%r12, %r8
	shrq	$41, %r8
	jne	14f
	testq	%rcx, %rcx
	je	12f
10:
	shrq	$32, %r12
	movw	$0, (%rdi)
	movb	%r12b, 8(%rdi)
	movl	$0, 9(%rdi)
	movl	$0, 12(%rdi)
	movq	%r14, 16(%rdi)
	movq	%rsi, 24(%rdi)
	movq	%rbx, 32(%rdi)
	movq	%rdx, 40(%rdi)
	movb	%al, 48(%rdi)
	movl	$0, 49(%rdi)
	movl	$0, 52(%rdi)
	jmp	15f
11:
	addq	%r13, %r15
	movq	$-1, %rax
	cmovaeq	%r15, %rax
	movq	%rax, 8(%rbp)
	movq	8(%rsp), %rdi
	jmp	14f
12:
	xorl	%ecx, %ecx
13:
	cmpq	%rcx, %rdx
	je	10b
	movzbl	(%rbx,%rcx), %r8d
	addb	$-91, %r8b
	incq	%rcx
	cmpb	$-26, %r8b
	jb	13b
14:
	movw	$1, (%rdi)
	pxor	%xmm0, %xmm0
	movdqu	%xmm0, 8(%rdi)
	movdqu	%xmm0, 24(%rdi)
	movdqu	%xmm0, 40(%rdi)
15:
	addq	$24, %rsp
	popq	%rbx
	popq	%r12
	popq	%r13
	popq	%r14
	popq	%r15
	popq	%rbp
	retq
16:
	.size	"mime_load::rules::read_rule", 16b-"mime_load::rules::read_rule"

	.section	.rodata.cst16,"aM",@progbits,16
	.p2align	4, 0x0
1:
	.byte	42,42,42,42,42,42,42,42
	.zero	1
	.zero	1
	.zero	1
	.zero	1
	.zero	1
	.zero	1
	.zero	1
	.zero	1
2:
	.byte	63,63,63,63,63,63,63,63
	.zero	1
	.zero	1
	.zero	1
	.zero	1
	.zero	1
	.zero	1
	.zero	1
	.zero	1
3:
	.byte	92,92,92,92,92,92,92,92
	.zero	1
	.zero	1
	.zero	1
	.zero	1
	.zero	1
	.zero	1
	.zero	1
	.zero	1
4:
	.byte	91,91,91,91,91,91,91,91
	.zero	1
	.zero	1
	.zero	1
	.zero	1
	.zero	1
	.zero	1
	.zero	1
	.zero	1
	.text
	.p2align	4
	.type	"mime_load::suffix_tree::read_siblings",@function
"mime_load::suffix_tree::read_siblings":
	pushq	%rbp
	pushq	%r15
	pushq	%r14
	pushq	%r13
	pushq	%r12
	pushq	%rbx
	subq	$72, %rsp
	testl	%edx, %edx
	je	33f
	movq	%rcx, %rbx
	movl	%edx, %r8d
	movq	%rdi, %r9
	movl	%esi, %eax
	movq	%rax, 64(%rsp)
	movl	%edx, %eax
	movq	%rax, 56(%rsp)
	movl	$256, %eax
	xorl	%r13d, %r13d
	movl	%edx, 52(%rsp)
5:
	movq	328(%rbx), %rdx
	movb	$1, %r12b
	cmpq	$12, %rdx
	jb	32f
	movl	%r13d, %ecx
	notl	%ecx
	addl	%r8d, %ecx
	leaq	(%rcx,%rcx,2), %rcx
	movq	64(%rsp), %rsi
	leaq	(%rsi,%rcx,4), %rcx
	addq	$-12, %rdx
	movq	%rdx, 328(%rbx)
	movq	(%r9), %rsi
	movq	312(%rbx), %rdx
	incq	%rdx
	movq	$-1, %rdi
	cmovneq	%rdx, %rdi
	movq	%rdi, 312(%rbx)
	movq	8(%rsi), %rdi
	xorl	%edx, %edx
	subq	%rcx, %rdi
	jb	34f
	cmpq	$12, %rdi
	jb	34f
	movq	(%rsi), %rdi
	movl	(%rdi,%rcx), %esi
	movl	%esi, %ebp
	bswapl	%ebp
	cmpl	%ebp, %eax
	jbe	32f
	movl	4(%rdi,%rcx), %edx
	movl	8(%rdi,%rcx), %eax
	shlq	$32, %rdx
	orq	%rax, %rdx
	bswapq	%rdx
	movq	%rdx, %r8
	shrq	$32, %r8
	testl	%esi, %esi
	je	7f
	movq	256(%rbx), %rax
	testq	%rax, %rax
	je	32f
	movq	272(%rbx), %r14
	movb	%bpl, (%rbx,%rax)
	movq	256(%rbx), %rax
	leaq	-1(%rax), %rcx
	movq	%rcx, 256(%rbx)
	movb	$42, -1(%rbx,%rax)
	movq	%r9, %r15
	movq	%r9, %rdi
	movl	%r8d, %esi
	movq	%rbx, %rcx
	callq	"mime_load::suffix_tree::read_siblings"
	testb	%al, %al
	jne	34f
	cmpq	%r14, 272(%rbx)
	je	32f
	movq	256(%rbx), %rax
	leaq	1(%rax), %rcx
	movq	%rcx, 256(%rbx)
	movb	$42, 1(%rbx,%rax)
	movq	%r15, %r9
6:
	incq	%r13
	movl	%ebp, %eax
	cmpq	56(%rsp), %r13
	movl	52(%rsp), %r8d
	jne	5b
	jmp	33f
	.p2align	4
7:
	movq	(%r9), %rcx
	movl	%edx, %r10d
	movq	8(%rcx), %rax
	subq	%r10, %rax
	jbe	32f
	addq	(%rcx), %r10
	cmpq	$32, %rax
	jae	9f
8:
	movq	%r13, 8(%rsp)
	movq	%r8, %r12
	movq	%r9, %r15
	movq	%rdx, %rbp
	cmpq	$256, %rax
	movl	$256, %r14d
	cmovbq	%rax, %r14
	xorl	%edi, %edi
	movq	%r10, %r13
	movq	%r10, %rsi
	movq	%r14, %rdx
	callq	"memchr::bytes::memchr"
	cmpb	$1, %al
	jne	35f
	movq	%rdx, %r11
	movq	%rdx, %rcx
	incq	%rcx
	addq	320(%rbx), %rcx
	movq	$-1, %rax
	cmovaeq	%rcx, %rax
	movq	%rbp, %rdx
	movq	%r15, %r9
	movq	%r12, %r8
	movb	$1, %r12b
	movq	%r13, %r10
	movq	8(%rsp), %r13
	jmp	11f
9:
	movdqu	(%r10), %xmm1
	pxor	%xmm0, %xmm0
	pcmpeqb	%xmm0, %xmm1
	pmovmskb	%xmm1, %esi
	movl	$64, %ecx
	movl	$64, %r11d
	rep		bsfq	%rsi, %r11
	cmpq	$16, %r11
	jb	10f
	movdqu	16(%r10), %xmm1
	pcmpeqb	%xmm0, %xmm1
	pmovmskb	%xmm1, %esi
	rep		bsfq	%rsi, %rcx
	cmpq	$15, %rcx
	ja	8b
	orq	$16, %rcx
	movq	%rcx, %r11
10:
	leaq	1(%r11), %rcx
	addq	320(%rbx), %rcx
	movq	$-1, %rax
	cmovaeq	%rcx, %rax
11:
	movq	%rax, 320(%rbx)
	movq	%rdx, %rax
	shrq	$40, %rax
	setne	%sil
	shrq	$41, %rdx
	jne	32f
	movq	256(%rbx), %r14
	testq	%rax, %rax
	je	15f
12:
	cmpq	$255, %r14
	je	32f
	leaq	(%rbx,%r14), %rbp
	cmpb	$42, (%rbp)
	jne	32f
	movl	$254, %eax
	subq	%r14, %rax
	cmpq	$8, %rax
	jb	13f
	movq	1(%rbp), %xmm0
	movdqa	1b(%rip), %xmm1
	pcmpeqb	%xmm0, %xmm1
	movdqa	2b(%rip), %xmm2
	pcmpeqb	%xmm0, %xmm2
	por	%xmm1, %xmm2
	movdqa	3b(%rip), %xmm1
	pcmpeqb	%xmm0, %xmm1
	pcmpeqb	4b(%rip), %xmm0
	por	%xmm1, %xmm0
	por	%xmm2, %xmm0
	pmovmskb	%xmm0, %eax
	testb	%al, %al
	jne	32f
13:
	movl	$255, %edx
	subq	%r14, %rdx
	movq	%r14, %rax
	.p2align	4
14:
	cmpq	$254, %rax
	je	17f
	movzbl	1(%rbx,%rax), %ecx
	incq	%rax
	addl	$-42, %ecx
	cmpl	$50, %ecx
	ja	14b
	movabsq	$1688849862361089, %rdi
	btq	%rcx, %rdi
	jae	14b
	jmp	32f
15:
	movq	%r14, %rax
	.p2align	4
16:
	cmpq	$255, %rax
	je	12b
	movzbl	(%rbx,%rax), %ecx
	addb	$-91, %cl
	incq	%rax
	cmpb	$-26, %cl
	jb	16b
	jmp	32f
17:
	cmpq	$254, %r14
	je	32f
	movq	296(%rbx), %r12
	movq	304(%rbx), %r15
	movq	%r15, %rax
	subq	%r12, %rax
	movq	%r12, %rcx
	cmpq	%rax, %rdx
	ja	26f
18:
	movq	288(%rbx), %rdi
	pxor	%xmm0, %xmm0
	leaq	296(%rbx), %rax
	movdqu	%xmm0, (%rax)
	movq	%rdi, 32(%rsp)
	addq	%rcx, %rdi
	movq	%rdi, %rax
	subq	%rbp, %rax
	cmpq	%rdx, %rax
	movq	%rcx, 8(%rsp)
	jae	20f
	cmpq	$4, %rdx
	jb	19f
	cmpq	$32, %rax
	jae	21f
19:
	xorl	%eax, %eax
	jmp	27f
20:
	movb	%sil, 7(%rsp)
	movq	%rbp, %rsi
	movq	%r9, %r14
	movq	%rdx, 40(%rsp)
	movq	%r15, 16(%rsp)
	movq	%r8, %r15
	movq	%r13, %rbp
	movq	%r10, %r13
	movq	%r12, 24(%rsp)
	movq	%r11, %r12
	callq	memmove@PLT
	movzbl	7(%rsp), %esi
	movq	%r12, %r11
	movq	24(%rsp), %r12
	movq	%r13, %r10
	movq	%rbp, %r13
	movq	%r15, %r8
	movq	16(%rsp), %r15
	movq	40(%rsp), %rdx
	movq	%r14, %r9
	jmp	29f
21:
	cmpq	$32, %rdx
	jae	22f
	xorl	%eax, %eax
	jmp	24f
22:
	movq	%r15, 16(%rsp)
	movq	%rdx, %rax
	andq	$-32, %rax
	leaq	16(%rbx), %rcx
	addq	%rcx, %r14
	movq	8(%rsp), %rcx
	movq	32(%rsp), %r15
	addq	%r15, %rcx
	addq	$16, %rcx
	xorl	%r15d, %r15d
23:
	movdqu	-16(%r14,%r15), %xmm0
	movdqu	(%r14,%r15), %xmm1
	movdqu	%xmm0, -16(%rcx,%r15)
	movdqu	%xmm1, (%rcx,%r15)
	addq	$32, %r15
	cmpq	%r15, %rax
	jne	23b
	cmpq	%rax, %rdx
	movq	16(%rsp), %r15
	je	29f
	testb	$28, %dl
	je	27f
24:
	movq	%rax, %rcx
	movq	%rdx, %rax
	andq	$-4, %rax
25:
	movl	(%rbp,%rcx), %r14d
	movl	%r14d, (%rdi,%rcx)
	addq	$4, %rcx
	cmpq	%rcx, %rax
	jne	25b
	jmp	28f
26:
	movq	%r12, 24(%rsp)
	movb	%sil, 7(%rsp)
	movq	%r11, 16(%rsp)
	movq	%r13, 8(%rsp)
	movq	%r10, %r13
	movq	%r8, 32(%rsp)
	movq	%rdx, %rsi
	movq	%r9, %r15
	leaq	288(%rbx), %rdi
	movq	%rdx, %r12
	callq	"std_alloc::vec::Vec::grow_amortized::<#c924a0b5c89ac0c8>"
	testb	%al, %al
	je	37f
	movq	296(%rbx), %rcx
	movq	304(%rbx), %rax
	movq	%r15, %r9
	movq	%rax, %r15
	movq	32(%rsp), %r8
	movq	%r13, %r10
	movq	8(%rsp), %r13
	movq	16(%rsp), %r11
	movzbl	7(%rsp), %esi
	movq	%r12, %rdx
	movq	24(%rsp), %r12
	jmp	18b
	.p2align	4
27:
	movzbl	(%rbp,%rax), %ecx
	movb	%cl, (%rdi,%rax)
	incq	%rax
28:
	cmpq	%rax, %rdx
	jne	27b
29:
	movq	8(%rsp), %rax
	addq	%rdx, %rax
	movq	32(%rsp), %rcx
	movq	%rcx, 288(%rbx)
	movq	%rax, 296(%rbx)
	movq	%r15, 304(%rbx)
	movq	272(%rbx), %rax
	cmpq	%rax, 280(%rbx)
	je	31f
30:
	movq	264(%rbx), %rcx
	movq	%rax, %rdi
	shlq	$5, %rdi
	movq	%r10, (%rcx,%rdi)
	movq	%r11, 8(%rcx,%rdi)
	movq	%r12, 16(%rcx,%rdi)
	movb	%dl, 24(%rcx,%rdi)
	movb	%r8b, 25(%rcx,%rdi)
	movb	%sil, 26(%rcx,%rdi)
	movl	$0, 27(%rcx,%rdi)
	movb	$0, 31(%rcx,%rdi)
	incq	%rax
	movq	%rax, 272(%rbx)
	movl	$1, %ebp
	jmp	6b
31:
	movq	%r12, 24(%rsp)
	movq	%rdx, 40(%rsp)
	movb	%sil, 7(%rsp)
	movq	%r11, %rbp
	movq	%r10, %r12
	movq	%r8, %r15
	movq	%r9, %r14
	leaq	264(%rbx), %rdi
	callq	"std_alloc::vec::Vec::grow_amortized::<#225cbcfbbb5ee30d>"
	testb	%al, %al
	je	37f
	movq	272(%rbx), %rax
	movq	%r14, %r9
	movq	%r15, %r8
	movq	%r12, %r10
	movq	%rbp, %r11
	movzbl	7(%rsp), %esi
	movq	40(%rsp), %rdx
	movq	24(%rsp), %r12
	jmp	30b
32:
	xorl	%edx, %edx
	jmp	34f
33:
	xorl	%edx, %edx
	xorl	%r12d, %r12d
34:
	movl	%r12d, %eax
	addq	$72, %rsp
	popq	%rbx
	popq	%r12
	popq	%r13
	popq	%r14
	popq	%r15
	popq	%rbp
	retq
35:
	addq	320(%rbx), %r14
	movq	$-1, %rax
	cmovaeq	%r14, %rax
	movq	%rax, 320(%rbx)
	xorl	%edx, %edx
36:
	movb	$1, %r12b
	jmp	34b
37:
	movb	$1, %dl
	jmp	36b
38:
	.size	"mime_load::suffix_tree::read_siblings", 38b-"mime_load::suffix_tree::read_siblings"
