# Made by dist/refresh of what is proved.

	.text
	.p2align	4
	.type	"mime_base::magic::extent::lines_extent",@function
"mime_base::magic::extent::lines_extent":
	pushq	%r15
	pushq	%r14
	pushq	%r12
	pushq	%rbx
	pushq	%rax
	testq	%rsi, %rsi
	je	3f
	movq	%rsi, %r14
	movq	%rdi, %r15
	xorl	%ebx, %ebx
	jmp	2f
	.p2align	4
1:
	cmpq	%r12, %rbx
	cmovbeq	%r12, %rbx
	addq	$96, %r15
	decq	%r14
	je	4f
2:
	movl	(%r15), %eax
	movl	4(%r15), %r12d
	addq	%rax, %r12
	addq	24(%r15), %r12
	movq	80(%r15), %rsi
	testq	%rsi, %rsi
	je	1b
	movq	72(%r15), %rdi
	callq	"mime_base::magic::extent::lines_extent"
	cmpq	%r12, %rax
	cmovaq	%rax, %r12
	jmp	1b
3:
	xorl	%ebx, %ebx
4:
	movq	%rbx, %rax
	addq	$8, %rsp
	popq	%rbx
	popq	%r12
	popq	%r14
	popq	%r15
	retq
5:
	.size	"mime_base::magic::extent::lines_extent", 5b-"mime_base::magic::extent::lines_extent"

	.text
	.p2align	4
	.type	"mime_base::magic::holding::equals_in_range",@function
"mime_base::magic::holding::equals_in_range":
	pushq	%rbp
	pushq	%r15
	pushq	%r14
	pushq	%r13
	pushq	%r12
	pushq	%rbx
	subq	$72, %rsp
	movq	%r8, 48(%rsp)
	movl	%ecx, %r13d
	movq	%rsi, %r14
	movq	24(%rdi), %r12
	cmpb	$1, 40(%rdi)
	jne	1f
	movq	48(%rdi), %rax
	movq	%rax, 56(%rsp)
	movq	56(%rdi), %r15
	movq	%rdx, %rbx
	subq	%r12, %rbx
	jb	9f
	jmp	2f
1:
	leaq	.L22d5119de29e(%rip), %rax
	movq	%rax, 56(%rsp)
	xorl	%r15d, %r15d
	movq	%rdx, %rbx
	subq	%r12, %rbx
	jb	9f
2:
	movl	(%rdi), %ebp
	cmpq	%rbp, %rbx
	jb	9f
	movq	%rdx, 64(%rsp)
	movq	16(%rdi), %rax
	movq	%rax, 40(%rsp)
	movl	8(%rdi), %eax
	movl	%eax, 36(%rsp)
	movl	4(%rdi), %eax
	movq	%rax, %rcx
	xorq	$1, %rcx
	orq	%r15, %rcx
	jne	3f
	testq	%r12, %r12
	sete	%cl
	cmpl	$1, 36(%rsp)
	setne	%dl
	orb	%cl, %dl
	jne	3f
	movzbl	(%r14,%rbp), %ecx
	movq	40(%rsp), %rdx
	cmpb	(%rdx), %cl
	jne	8f
3:
	addq	%rbp, %rax
	incq	%rbx
	cmpq	%rax, %rbx
	cmovaeq	%rax, %rbx
	cmpq	%rbp, %rbx
	jbe	9f
	testq	%r15, %r15
	sete	%sil
	testq	%r12, %r12
	setne	%dil
	movl	36(%rsp), %eax
	cmpl	$2, %eax
	sete	%cl
	testb	$1, %r12b
	sete	%r8b
	cmpl	$4, %eax
	sete	%dl
	testb	$3, %r12b
	sete	%al
	testb	%dil, %sil
	jne	5f
	addq	%rbp, %r14
	notq	%rbp
	addq	%rbx, %rbp
	.p2align	4
4:
	movq	48(%rsp), %rax
	movq	%rax, 16(%rsp)
	movq	%r12, 8(%rsp)
	movq	%r14, (%rsp)
	movzbl	%r13b, %r9d
	movq	40(%rsp), %rdi
	movq	%r12, %rsi
	movq	56(%rsp), %rdx
	movq	%r15, %rcx
	movl	36(%rsp), %r8d
	callq	"mime_base::magic::ranges::value_is"
	subq	$1, %rbp
	setb	%cl
	testb	%al, %al
	jne	10f
	incq	%r14
	testb	%cl, %cl
	je	4b
	jmp	10f
5:
	andb	%cl, %r8b
	andb	%dl, %al
	cmpq	$1, %r12
	jne	11f
	testb	%r13b, %r13b
	je	25f
6:
	movq	%rbx, %r15
	subq	%rbp, %r15
	cmpq	$2, %r15
	jb	7f
	leaq	(%r14,%rbp), %rsi
	movq	40(%rsp), %rax
	movzbl	(%rax), %edi
	movq	%r15, %rdx
	callq	"memchr::bytes::memchr"
	testb	$1, %al
	cmoveq	%r15, %rdx
	movq	48(%rsp), %rsi
	movq	8(%rsi), %rax
	addq	%rdx, %rax
	movq	$-1, %rcx
	cmovaeq	%rax, %rcx
	movq	%rcx, 8(%rsi)
	addq	%rdx, %rbp
7:
	cmpq	%rbx, %rbp
	je	9f
	leaq	(%r14,%rbp), %rax
	movq	48(%rsp), %rcx
	movq	%rcx, 16(%rsp)
	movq	%rax, (%rsp)
	movq	$1, 8(%rsp)
	movzbl	%r13b, %r9d
	movl	$1, %esi
	movq	40(%rsp), %rdi
	movq	56(%rsp), %rdx
	xorl	%ecx, %ecx
	movl	36(%rsp), %r8d
	callq	"mime_base::magic::ranges::value_is"
	testb	%al, %al
	jne	31f
	incq	%rbp
	xorl	%eax, %eax
	cmpq	%rbx, %rbp
	jb	6b
	jmp	10f
8:
	movq	48(%rsp), %rdx
	movq	8(%rdx), %rax
	incq	%rax
	movq	$-1, %rcx
	cmovneq	%rax, %rcx
	movq	%rcx, 8(%rdx)
9:
	xorl	%eax, %eax
10:
	addq	$72, %rsp
	popq	%rbx
	popq	%r12
	popq	%r13
	popq	%r14
	popq	%r15
	popq	%rbp
	retq
11:
	testb	%r13b, %r13b
	sete	%cl
	orb	%al, %r8b
	andb	%cl, %r8b
	movl	%r8d, %r15d
	.p2align	4
12:
	movq	%rbx, %rsi
	subq	%rbp, %rsi
	cmpq	$2, %rsi
	setb	%al
	orb	%r15b, %al
	jne	24f
	movq	40(%rsp), %rax
	movzbl	(%rax), %r8d
	movzbl	1(%rax), %edi
	cmpq	$32, %rsi
	jb	16f
	movzbl	%r8b, %eax
	movd	%eax, %xmm0
	pxor	%xmm2, %xmm2
	pshufb	%xmm2, %xmm0
	movzbl	%dil, %eax
	movd	%eax, %xmm1
	pshufb	%xmm2, %xmm1
	leaq	1(%r14), %rax
	leaq	(%rax,%rbp), %rcx
	xorl	%eax, %eax
	movq	%rsi, %r9
	xorl	%edx, %edx
	jmp	15f
	.p2align	4
13:
	xorl	%r10d, %r10d
14:
	addq	$32, %rax
	addq	%r10, %rdx
	addq	$-32, %r9
	cmpq	$31, %r9
	jbe	17f
15:
	movdqu	-1(%rcx,%rax), %xmm2
	movdqu	15(%rcx,%rax), %xmm3
	pcmpeqb	%xmm0, %xmm2
	pmovmskb	%xmm2, %r11d
	pcmpeqb	%xmm0, %xmm3
	pmovmskb	%xmm3, %r10d
	shll	$16, %r10d
	orl	%r11d, %r10d
	je	13b
	movdqu	(%rcx,%rax), %xmm4
	movdqu	16(%rcx,%rax), %xmm5
	pcmpeqb	%xmm1, %xmm4
	pcmpeqb	%xmm1, %xmm5
	pand	%xmm3, %xmm5
	pand	%xmm2, %xmm4
	por	%xmm5, %xmm4
	pmovmskb	%xmm4, %r11d
	testl	%r11d, %r11d
	jne	17f
	popcntl	%r10d, %r10d
	jmp	14b
16:
	xorl	%edx, %edx
	xorl	%eax, %eax
17:
	leaq	(%rax,%rbp), %r10
	movq	64(%rsp), %rcx
	subq	%r10, %rcx
	subq	%rax, %rsi
	cmpq	$33, %rcx
	jb	18f
	cmpq	$3, %rsi
	jbe	18f
	leaq	(%r14,%rbp), %rcx
	movzbl	%r8b, %r8d
	movd	%r8d, %xmm0
	pxor	%xmm1, %xmm1
	pshufb	%xmm1, %xmm0
	movdqu	(%rcx,%rax), %xmm2
	movdqu	1(%rcx,%rax), %xmm3
	movdqu	16(%rcx,%rax), %xmm4
	movdqu	17(%rcx,%rax), %xmm5
	pcmpeqb	%xmm0, %xmm2
	pmovmskb	%xmm2, %ecx
	pcmpeqb	%xmm0, %xmm4
	pmovmskb	%xmm4, %r8d
	shll	$16, %r8d
	orl	%ecx, %r8d
	movzbl	%dil, %ecx
	movd	%ecx, %xmm0
	pshufb	%xmm1, %xmm0
	pcmpeqb	%xmm0, %xmm3
	pcmpeqb	%xmm5, %xmm0
	pand	%xmm4, %xmm0
	pand	%xmm2, %xmm3
	pmovmskb	%xmm3, %ecx
	pmovmskb	%xmm0, %edi
	shll	$16, %edi
	orl	%ecx, %edi
	movl	$64, %r9d
	rep		bsfq	%rdi, %r9
	cmpq	%r9, %rsi
	cmovbq	%rsi, %r9
	cmpq	$32, %r9
	movl	$32, %ecx
	cmovbq	%r9, %rcx
	movq	$-1, %rsi
	shlq	%cl, %rsi
	notl	%esi
	andl	%r8d, %esi
	xorl	%r9d, %r9d
	popcntl	%esi, %r9d
	jmp	23f
18:
	testq	%rsi, %rsi
	je	22f
	movq	%rbx, %r11
	subq	%rax, %r11
	subq	%rbp, %r11
	leaq	1(%r14), %rcx
	addq	%rcx, %r10
	xorl	%r9d, %r9d
	xorl	%ecx, %ecx
	jmp	20f
	.p2align	4
19:
	incq	%rcx
	cmpq	%rcx, %r11
	je	21f
20:
	cmpb	%r8b, -1(%r10,%rcx)
	jne	19b
	cmpb	%dil, (%r10,%rcx)
	je	23f
	incq	%r9
	jmp	19b
21:
	movq	%rsi, %rcx
	jmp	23f
22:
	xorl	%ecx, %ecx
	xorl	%r9d, %r9d
23:
	addq	%rdx, %r9
	addq	%rax, %rcx
	movq	48(%rsp), %rsi
	movq	8(%rsi), %rax
	addq	%rcx, %rax
	movq	$-1, %rdx
	cmovbq	%rdx, %rax
	addq	%r9, %rax
	cmovbq	%rdx, %rax
	movq	%rax, 8(%rsi)
	addq	%rcx, %rbp
24:
	cmpq	%rbx, %rbp
	je	9b
	leaq	(%r14,%rbp), %rax
	movq	48(%rsp), %rcx
	movq	%rcx, 16(%rsp)
	movq	%r12, 8(%rsp)
	movq	%rax, (%rsp)
	movzbl	%r13b, %r9d
	movq	40(%rsp), %rdi
	movq	%r12, %rsi
	movq	56(%rsp), %rdx
	xorl	%ecx, %ecx
	movl	36(%rsp), %r8d
	callq	"mime_base::magic::ranges::value_is"
	testb	%al, %al
	jne	31f
	incq	%rbp
	xorl	%eax, %eax
	cmpq	%rbx, %rbp
	jb	12b
	jmp	10b
25:
	testb	%r8b, %r8b
	je	27f
	addq	%rbp, %r14
	notq	%rbp
	addq	%rbx, %rbp
26:
	movq	48(%rsp), %rax
	movq	%rax, 16(%rsp)
	movq	%r14, (%rsp)
	movq	$1, 8(%rsp)
	movl	$1, %esi
	movq	40(%rsp), %rdi
	movq	56(%rsp), %rdx
	xorl	%ecx, %ecx
	movl	$2, %r8d
	xorl	%r9d, %r9d
	callq	"mime_base::magic::ranges::value_is"
	subq	$1, %rbp
	setb	%cl
	testb	%al, %al
	jne	10b
	incq	%r14
	testb	%cl, %cl
	je	26b
	jmp	10b
27:
	testb	%al, %al
	je	29f
	addq	%rbp, %r14
	notq	%rbp
	addq	%rbx, %rbp
28:
	movq	48(%rsp), %rax
	movq	%rax, 16(%rsp)
	movq	%r14, (%rsp)
	movq	$1, 8(%rsp)
	movl	$1, %esi
	movq	40(%rsp), %rdi
	movq	56(%rsp), %rdx
	xorl	%ecx, %ecx
	movl	$4, %r8d
	xorl	%r9d, %r9d
	callq	"mime_base::magic::ranges::value_is"
	subq	$1, %rbp
	setb	%cl
	testb	%al, %al
	jne	10b
	incq	%r14
	testb	%cl, %cl
	je	28b
	jmp	10b
29:
	movq	%rbx, %r15
	subq	%rbp, %r15
	cmpq	$2, %r15
	jb	30f
	leaq	(%r14,%rbp), %rsi
	movq	40(%rsp), %rax
	movzbl	(%rax), %edi
	movq	%r15, %rdx
	callq	"memchr::bytes::memchr"
	testb	$1, %al
	cmoveq	%r15, %rdx
	movq	48(%rsp), %rsi
	movq	8(%rsi), %rax
	addq	%rdx, %rax
	movq	$-1, %rcx
	cmovaeq	%rax, %rcx
	movq	%rcx, 8(%rsi)
	addq	%rdx, %rbp
30:
	cmpq	%rbx, %rbp
	je	9b
	leaq	(%r14,%rbp), %rax
	movq	48(%rsp), %rcx
	movq	%rcx, 16(%rsp)
	movq	%rax, (%rsp)
	movq	$1, 8(%rsp)
	movl	$1, %esi
	movq	40(%rsp), %rdi
	movq	56(%rsp), %rdx
	xorl	%ecx, %ecx
	movl	36(%rsp), %r8d
	xorl	%r9d, %r9d
	callq	"mime_base::magic::ranges::value_is"
	testb	%al, %al
	jne	31f
	incq	%rbp
	xorl	%eax, %eax
	cmpq	%rbx, %rbp
	jb	29b
	jmp	10b
31:
	movb	$1, %al
	jmp	10b
32:
	.size	"mime_base::magic::holding::equals_in_range", 32b-"mime_base::magic::holding::equals_in_range"

	.text
	.p2align	4
	.type	"mime_base::magic::holding::some_line_matches",@function
"mime_base::magic::holding::some_line_matches":
	pushq	%rbp
	pushq	%r15
	pushq	%r14
	pushq	%r13
	pushq	%r12
	pushq	%rbx
	subq	$24, %rsp
	movq	%r9, 16(%rsp)
	movl	%r8d, 12(%rsp)
	testq	%rsi, %rsi
	je	3f
	movq	%rcx, %r14
	movq	%rdx, %r15
	movq	%rsi, %r12
	movq	%rdi, %r13
	jmp	2f
	.p2align	4
1:
	addq	$96, %r13
	decq	%r12
	je	3f
2:
	movzbl	12(%rsp), %ebx
	movq	%r13, %rdi
	movq	%r15, %rsi
	movq	%r14, %rdx
	movl	%ebx, %ecx
	movq	16(%rsp), %r8
	callq	"mime_base::magic::holding::equals_in_range"
	testb	%al, %al
	je	1b
	movq	80(%r13), %rsi
	movb	$1, %bpl
	testq	%rsi, %rsi
	je	4f
	movq	72(%r13), %rdi
	movq	%r15, %rdx
	movq	%r14, %rcx
	movl	%ebx, %r8d
	movq	16(%rsp), %r9
	callq	"mime_base::magic::holding::some_line_matches"
	testb	%al, %al
	je	1b
	jmp	4f
3:
	xorl	%ebp, %ebp
4:
	movl	%ebp, %eax
	addq	$24, %rsp
	popq	%rbx
	popq	%r12
	popq	%r13
	popq	%r14
	popq	%r15
	popq	%rbp
	retq
5:
	.size	"mime_base::magic::holding::some_line_matches", 5b-"mime_base::magic::holding::some_line_matches"

	.text
	.p2align	4
	.type	"mime_base::magic::pairs::pass_pairs",@function
"mime_base::magic::pairs::pass_pairs":
	pushq	%rbp
	pushq	%r14
	pushq	%rbx
	movzbl	%dil, %r11d
	movzbl	%sil, %eax
	cmpq	$32, %r8
	jb	4f
	movd	%r11d, %xmm0
	pxor	%xmm2, %xmm2
	pshufb	%xmm2, %xmm0
	movd	%eax, %xmm1
	pshufb	%xmm2, %xmm1
	xorl	%r9d, %r9d
	movq	%r8, %rbx
	xorl	%r10d, %r10d
	jmp	3f
	.p2align	4
1:
	xorl	%r14d, %r14d
2:
	addq	$32, %r9
	addq	%r14, %r10
	addq	$-32, %rbx
	cmpq	$31, %rbx
	jbe	5f
3:
	movdqu	(%rdx,%r9), %xmm2
	movdqu	16(%rdx,%r9), %xmm3
	pcmpeqb	%xmm0, %xmm2
	pmovmskb	%xmm2, %r14d
	pcmpeqb	%xmm0, %xmm3
	pmovmskb	%xmm3, %ebp
	shll	$16, %ebp
	orl	%r14d, %ebp
	je	1b
	movdqu	1(%rdx,%r9), %xmm4
	movdqu	17(%rdx,%r9), %xmm5
	pcmpeqb	%xmm1, %xmm4
	pcmpeqb	%xmm1, %xmm5
	pand	%xmm3, %xmm5
	pand	%xmm2, %xmm4
	por	%xmm5, %xmm4
	pmovmskb	%xmm4, %r14d
	testl	%r14d, %r14d
	jne	5f
	xorl	%r14d, %r14d
	popcntl	%ebp, %r14d
	jmp	2b
4:
	xorl	%r10d, %r10d
	xorl	%r9d, %r9d
5:
	subq	%r9, %rcx
	subq	%r9, %r8
	cmpq	$4, %r8
	setae	%bl
	cmpq	$33, %rcx
	setae	%cl
	testb	%bl, %cl
	jne	9f
	testq	%r8, %r8
	je	11f
	leaq	(%r9,%rdx), %rcx
	incq	%rcx
	xorl	%edx, %edx
	xorl	%eax, %eax
	jmp	8f
	.p2align	4
6:
	incq	%rdx
7:
	incq	%rax
	cmpq	%rax, %r8
	je	10f
8:
	cmpb	%dil, -1(%rcx,%rax)
	jne	7b
	cmpb	%sil, (%rcx,%rax)
	jne	6b
	jmp	12f
9:
	movd	%r11d, %xmm0
	pxor	%xmm1, %xmm1
	pshufb	%xmm1, %xmm0
	movdqu	(%rdx,%r9), %xmm2
	movdqu	1(%rdx,%r9), %xmm3
	movdqu	16(%rdx,%r9), %xmm4
	movdqu	17(%rdx,%r9), %xmm5
	pcmpeqb	%xmm0, %xmm2
	pmovmskb	%xmm2, %ecx
	pcmpeqb	%xmm0, %xmm4
	pmovmskb	%xmm4, %edx
	shll	$16, %edx
	orl	%ecx, %edx
	movd	%eax, %xmm0
	pshufb	%xmm1, %xmm0
	pcmpeqb	%xmm0, %xmm3
	pcmpeqb	%xmm5, %xmm0
	pand	%xmm4, %xmm0
	pand	%xmm2, %xmm3
	pmovmskb	%xmm3, %eax
	pmovmskb	%xmm0, %ecx
	shll	$16, %ecx
	orl	%eax, %ecx
	movl	$64, %esi
	rep		bsfq	%rcx, %rsi
	cmpq	%rsi, %r8
	cmovbq	%r8, %rsi
	cmpq	$32, %rsi
	movl	$32, %eax
	cmovbq	%rsi, %rax
	movq	$-1, %rsi
	movl	%eax, %ecx
	shlq	%cl, %rsi
	notl	%esi
	andl	%edx, %esi
	xorl	%edx, %edx
	popcntl	%esi, %edx
	jmp	12f
10:
	movq	%r8, %rax
	jmp	12f
11:
	xorl	%eax, %eax
	xorl	%edx, %edx
12:
	addq	%r10, %rdx
	addq	%r9, %rax
	popq	%rbx
	popq	%r14
	popq	%rbp
	retq
13:
	.size	"mime_base::magic::pairs::pass_pairs", 13b-"mime_base::magic::pairs::pass_pairs"

	.text
	.p2align	4
	.type	"mime_base::magic::ranges::value_is",@function
"mime_base::magic::ranges::value_is":
	pushq	%rbp
	pushq	%r14
	pushq	%rbx
	movq	40(%rsp), %rax
	testb	%r9b, %r9b
	je	2f
1:
	movl	$1, %r9d
	jmp	3f
2:
	cmpl	$2, %r8d
	sete	%r10b
	testb	$1, %sil
	sete	%r11b
	movl	$2, %r9d
	testb	%r10b, %r11b
	jne	3f
	cmpl	$4, %r8d
	sete	%r8b
	testb	$3, %sil
	sete	%r10b
	movl	$4, %r9d
	testb	%r8b, %r10b
	je	1b
3:
	movq	48(%rsp), %r8
	testq	%rax, %rax
	je	6f
	movq	32(%rsp), %r10
	cmpl	$2, %r9d
	je	7f
	cmpl	$4, %r9d
	jne	10f
	addq	$3, %rdx
	addq	$3, %rdi
	xorl	%r11d, %r11d
	xorl	%r9d, %r9d
	.p2align	4
4:
	movl	%r11d, %ebx
	andl	$6, %ebx
	movq	%r9, %r14
	subq	%rbx, %r14
	addq	$3, %r14
	movb	$-1, %bpl
	cmpq	%rcx, %r14
	jae	5f
	movq	%rdx, %r14
	subq	%rbx, %r14
	movzbl	(%r14,%r9), %ebp
5:
	movq	%rdi, %r14
	subq	%rbx, %r14
	movzbl	(%r14,%r9), %ebx
	xorb	(%r10,%r9), %bl
	testb	%bpl, %bl
	jne	14f
	incq	%r9
	addq	$2, %r11
	cmpq	%r9, %rax
	jne	4b
	jmp	13f
6:
	xorl	%r9d, %r9d
	jmp	14f
7:
	incq	%rdx
	incq	%rdi
	xorl	%r11d, %r11d
	xorl	%r9d, %r9d
	.p2align	4
8:
	movl	%r11d, %ebx
	andl	$2, %ebx
	movq	%r9, %r14
	subq	%rbx, %r14
	incq	%r14
	movb	$-1, %bpl
	cmpq	%rcx, %r14
	jae	9f
	movq	%rdx, %r14
	subq	%rbx, %r14
	movzbl	(%r14,%r9), %ebp
9:
	movq	%rdi, %r14
	subq	%rbx, %r14
	movzbl	(%r14,%r9), %ebx
	xorb	(%r10,%r9), %bl
	testb	%bpl, %bl
	jne	14f
	incq	%r9
	addq	$2, %r11
	cmpq	%r9, %rax
	jne	8b
	jmp	13f
10:
	xorl	%r9d, %r9d
	.p2align	4
11:
	movb	$-1, %r11b
	cmpq	%rcx, %r9
	jae	12f
	movzbl	(%rdx,%r9), %r11d
12:
	movzbl	(%rdi,%r9), %ebx
	xorb	(%r10,%r9), %bl
	testb	%r11b, %bl
	jne	14f
	incq	%r9
	cmpq	%r9, %rax
	jne	11b
13:
	movq	%rax, %r9
14:
	movq	%r9, %rcx
	incq	%rcx
	movq	$-1, %rdx
	cmoveq	%rdx, %rcx
	cmpq	%rcx, %rsi
	cmovbq	%rsi, %rcx
	addq	8(%r8), %rcx
	cmovbq	%rdx, %rcx
	movq	%rcx, 8(%r8)
	cmpq	%rax, %r9
	sete	%al
	popq	%rbx
	popq	%r14
	popq	%rbp
	retq
15:
	.size	"mime_base::magic::ranges::value_is", 15b-"mime_base::magic::ranges::value_is"

	.text
	.p2align	4
	.type	"mime_base::matching::attempt::attempt",@function
"mime_base::matching::attempt::attempt":
	pushq	%rbp
	pushq	%r15
	pushq	%r14
	pushq	%r13
	pushq	%r12
	pushq	%rbx
	movq	%rcx, -8(%rsp)
	movq	56(%rsp), %r14
	xorl	%eax, %eax
	testq	%rdx, %rdx
	je	25f
	movq	%rsi, %r12
	jmp	4f
	.p2align	4
1:
	cmpb	%bpl, %cl
	jne	23f
2:
	movq	%r10, %rsi
	movq	%r11, %rdx
3:
	incq	%r9
	incq	%rax
	movq	%rsi, %r12
	testq	%rdx, %rdx
	je	25f
4:
	leaq	1(%r12), %r10
	leaq	-1(%rdx), %r11
	movzbl	(%r12), %esi
	cmpb	$42, %sil
	je	21f
	movl	$1, %ebx
	testq	%r14, %r14
	je	22f
	decq	%r14
	leal	-65(%rsi), %ecx
	leal	32(%rsi), %ebp
	cmpb	$26, %cl
	movzbl	%bpl, %ecx
	movzbl	%sil, %esi
	cmovael	%esi, %ecx
	movzbl	(%r9), %r15d
	leal	-65(%r15), %ebp
	leal	32(%r15), %r13d
	cmpb	$26, %bpl
	movzbl	%r13b, %ebp
	cmovael	%r15d, %ebp
	testb	%r8b, %r8b
	cmovnel	%esi, %ecx
	cmovnel	%r15d, %ebp
	cmpb	$63, %cl
	je	2b
	movzbl	%cl, %esi
	cmpl	$91, %esi
	je	5f
	cmpl	$92, %esi
	jne	1b
	testq	%r11, %r11
	je	24f
	movzbl	1(%r12), %ecx
	leal	-65(%rcx), %esi
	movl	%r8d, %r15d
	leal	32(%rcx), %r8d
	cmpb	$26, %sil
	movzbl	%r8b, %esi
	movl	%r15d, %r8d
	cmovael	%ecx, %esi
	testb	%r8b, %r8b
	cmovnel	%ecx, %esi
	cmpb	%bpl, %sil
	jne	23f
	addq	$2, %r12
	addq	$-2, %rdx
	movq	%r12, %rsi
	jmp	3b
	.p2align	4
5:
	testq	%r11, %r11
	je	8f
	movzbl	1(%r12), %ecx
	addq	$2, %r12
	addq	$-2, %rdx
	movb	$1, %r13b
	cmpl	$33, %ecx
	je	6f
	cmpl	$94, %ecx
	je	6f
	xorl	%r13d, %r13d
	movq	%r10, %r12
	movq	%r11, %rdx
6:
	testq	%rdx, %rdx
	sete	%sil
	leaq	-1(%rdx), %rcx
	cmpq	-8(%rsp), %rcx
	setbe	%r15b
	orb	%sil, %r15b
	jne	8f
	xorl	%r15d, %r15d
	.p2align	4
7:
	cmpb	$93, 1(%r12,%r15)
	je	9f
	incq	%r15
	cmpq	%r15, %rcx
	jne	7b
8:
	cmpb	$91, %bpl
	je	2b
	jmp	23f
9:
	movl	%r13d, -20(%rsp)
	movl	%r8d, -24(%rsp)
	movq	%rdi, -16(%rsp)
	subq	%r15, %rdx
	addq	$-2, %rdx
	leaq	(%r12,%r15), %rsi
	addq	$2, %rsi
	incq	%r15
	jne	11f
10:
	cmpb	$0, -20(%rsp)
	movq	-16(%rsp), %rdi
	movl	-24(%rsp), %r8d
	jne	3b
	jmp	23f
11:
	cmpb	$0, -24(%rsp)
	je	13f
	jmp	20f
	.p2align	4
12:
	testq	%r15, %r15
	je	10b
13:
	cmpq	$3, %r15
	jb	14f
	cmpb	$45, 1(%r12)
	jne	14f
	movzbl	(%r12), %r13d
	movzbl	2(%r12), %r8d
	addq	$3, %r12
	addq	$-3, %r15
	jmp	15f
	.p2align	4
14:
	decq	%r15
	movzbl	(%r12), %r13d
	incq	%r12
	movl	%r13d, %r8d
15:
	leal	-65(%r13), %ecx
	leal	32(%r13), %edi
	cmpb	$26, %cl
	movzbl	%r13b, %ecx
	movzbl	%dil, %edi
	cmovael	%ecx, %edi
	cmpb	%bpl, %dil
	ja	12b
	leal	-65(%r8), %ecx
	leal	32(%r8), %edi
	cmpb	$26, %cl
	movzbl	%r8b, %ecx
	movzbl	%dil, %edi
	cmovael	%ecx, %edi
	cmpb	%dil, %bpl
	ja	12b
16:
	cmpb	$0, -20(%rsp)
	movq	-16(%rsp), %rdi
	movl	-24(%rsp), %r8d
	je	3b
	jmp	23f
	.p2align	4
17:
	decq	%r15
	movzbl	(%r12), %ecx
	incq	%r12
	movl	%ecx, %r13d
	cmpb	%bpl, %cl
	ja	19f
18:
	cmpb	%r13b, %bpl
	jbe	16b
19:
	testq	%r15, %r15
	je	10b
20:
	cmpq	$3, %r15
	jb	17b
	cmpb	$45, 1(%r12)
	jne	17b
	movzbl	(%r12), %ecx
	movzbl	2(%r12), %r13d
	addq	$3, %r12
	addq	$-3, %r15
	cmpb	%bpl, %cl
	jbe	18b
	jmp	19b
21:
	movb	$3, %cl
	jmp	26f
22:
	movb	$2, %cl
	movq	56(%rsp), %rax
	jmp	27f
23:
	movb	$4, %cl
	jmp	27f
24:
	cmpb	$92, %bpl
	jne	28f
	incq	%rax
	movq	%r10, %rsi
25:
	testq	%r14, %r14
	setne	%cl
	xorl	%r11d, %r11d
	movq	%rsi, %r10
26:
	xorl	%ebx, %ebx
27:
	addq	%rax, %rbx
	movb	%cl, (%rdi)
	movl	$0, 1(%rdi)
	movl	$0, 4(%rdi)
	movq	%rax, 8(%rdi)
	movq	%r10, 16(%rdi)
	movq	%r11, 24(%rdi)
	movq	%rbx, 32(%rdi)
	popq	%rbx
	popq	%r12
	popq	%r13
	popq	%r14
	popq	%r15
	popq	%rbp
	retq
28:
	movb	$4, %cl
	xorl	%r11d, %r11d
	jmp	27b
29:
	.size	"mime_base::matching::attempt::attempt", 29b-"mime_base::matching::attempt::attempt"

	.section	.rodata.cst16,"aM",@progbits,16
	.p2align	4, 0x0
1:
	.byte	33,33,33,33,33,33,33,33
	.zero	1
	.zero	1
	.zero	1
	.zero	1
	.zero	1
	.zero	1
	.zero	1
	.zero	1
2:
	.byte	58,58,58,58,58,58,58,58
	.zero	1
	.zero	1
	.zero	1
	.zero	1
	.zero	1
	.zero	1
	.zero	1
	.zero	1
3:
	.zero	16,32
4:
	.zero	16,58
5:
	.zero	16,47
6:
	.byte	47,47,47,47,47,47,47,47
	.zero	1
	.zero	1
	.zero	1
	.zero	1
	.zero	1
	.zero	1
	.zero	1
	.zero	1
	.text
	.p2align	4
	.type	"mime_base::names::TypeName::new",@function
"mime_base::names::TypeName::new":
	pushq	%rbx
	subq	$112, %rsp
	xorps	%xmm0, %xmm0
	movaps	%xmm0, 80(%rsp)
	movaps	%xmm0, 64(%rsp)
	movaps	%xmm0, 48(%rsp)
	movq	$0, 96(%rsp)
	movaps	%xmm0, (%rsp)
	movaps	%xmm0, 16(%rsp)
	movq	$0, 32(%rsp)
	leaq	-3(%rdx), %rax
	cmpq	$252, %rax
	ja	24f
	cmpq	$16, %rdx
	jb	9f
	movq	%rdx, %rax
	addq	$-16, %rax
	je	8f
	xorl	%ecx, %ecx
	.p2align	4
7:
	movdqu	(%rsi,%rcx), %xmm1
	movdqa	3b(%rip), %xmm2
	pminub	%xmm1, %xmm2
	pcmpeqb	%xmm1, %xmm2
	pcmpeqb	4b(%rip), %xmm1
	por	%xmm2, %xmm1
	pmovmskb	%xmm1, %r8d
	testl	%r8d, %r8d
	jne	24f
	addq	$16, %rcx
	cmpq	%rax, %rcx
	jb	7b
8:
	movdqu	(%rsi,%rax), %xmm1
	movdqa	3b(%rip), %xmm2
	pminub	%xmm1, %xmm2
	pcmpeqb	%xmm1, %xmm2
	pcmpeqb	4b(%rip), %xmm1
	por	%xmm2, %xmm1
	pmovmskb	%xmm1, %eax
	testl	%eax, %eax
	jne	24f
	jmp	11f
9:
	cmpq	$8, %rdx
	jb	10f
	movq	(%rsi), %xmm2
	movdqa	1b(%rip), %xmm3
	pmaxub	%xmm2, %xmm3
	pcmpeqb	%xmm2, %xmm3
	pcmpeqd	%xmm1, %xmm1
	pcmpeqb	2b(%rip), %xmm2
	pxor	%xmm1, %xmm3
	por	%xmm3, %xmm2
	pmovmskb	%xmm2, %eax
	testb	%al, %al
	jne	24f
	movq	-8(%rsi,%rdx), %xmm2
	movdqa	1b(%rip), %xmm3
	pmaxub	%xmm2, %xmm3
	pcmpeqb	%xmm2, %xmm3
	pcmpeqb	2b(%rip), %xmm2
	pxor	%xmm1, %xmm3
	por	%xmm3, %xmm2
	pmovmskb	%xmm2, %eax
	testb	%al, %al
	jne	24f
	jmp	12f
10:
	testq	%rdx, %rdx
	je	11f
	movzbl	(%rsi), %eax
	cmpb	$33, %al
	setb	%cl
	cmpb	$58, %al
	sete	%al
	orb	%cl, %al
	jne	24f
	cmpq	$1, %rdx
	jne	16f
11:
	cmpq	$3, %rdx
	ja	12f
	testq	%rdx, %rdx
	je	24f
	cmpb	$47, (%rsi)
	je	23f
	movq	%rdx, %rax
	shrq	%rax
	cmpb	$47, (%rsi,%rax)
	je	23f
	cmpb	$47, -1(%rsi,%rdx)
	jne	24f
	jmp	23f
12:
	cmpq	$8, %rdx
	ja	13f
	movd	(%rsi), %xmm1
	pinsrd	$1, -4(%rsi,%rdx), %xmm1
	pcmpeqb	6b(%rip), %xmm1
	pmovmskb	%xmm1, %eax
	testb	%al, %al
	jne	23f
	jmp	24f
13:
	cmpq	$32, %rdx
	ja	14f
	leaq	-8(%rdx), %rax
	cmpq	$8, %rax
	movl	$8, %ecx
	cmovbq	%rax, %rcx
	cmpq	$16, %rax
	movl	$16, %r8d
	cmovbq	%rax, %r8
	movq	(%rsi,%rcx), %xmm1
	movq	(%rsi), %xmm2
	punpcklqdq	%xmm1, %xmm2
	movq	(%rsi,%r8), %xmm1
	movq	-8(%rsi,%rdx), %xmm3
	punpcklqdq	%xmm3, %xmm1
	movdqa	5b(%rip), %xmm3
	pcmpeqb	%xmm3, %xmm1
	pcmpeqb	%xmm3, %xmm2
	jmp	15f
14:
	cmpq	$65, %rdx
	jae	17f
	movdqu	(%rsi), %xmm1
	movdqu	16(%rsi), %xmm2
	movdqu	-32(%rsi,%rdx), %xmm3
	movdqu	-16(%rsi,%rdx), %xmm4
	movdqa	5b(%rip), %xmm5
	pcmpeqb	%xmm5, %xmm3
	pcmpeqb	%xmm5, %xmm1
	por	%xmm3, %xmm1
	pcmpeqb	%xmm5, %xmm4
	pcmpeqb	%xmm5, %xmm2
	por	%xmm4, %xmm2
15:
	por	%xmm1, %xmm2
	pmovmskb	%xmm2, %eax
	testl	%eax, %eax
	jne	23f
	jmp	24f
16:
	movzbl	1(%rsi), %eax
	cmpb	$33, %al
	setb	%cl
	cmpb	$58, %al
	sete	%al
	orb	%cl, %al
	jne	24f
	cmpq	$2, %rdx
	je	11b
	movzbl	2(%rsi), %eax
	cmpb	$33, %al
	setb	%cl
	cmpb	$58, %al
	sete	%al
	orb	%cl, %al
	jne	24f
	cmpq	$3, %rdx
	je	11b
	movzbl	3(%rsi), %eax
	cmpb	$33, %al
	setb	%cl
	cmpb	$58, %al
	sete	%al
	orb	%cl, %al
	jne	24f
	cmpq	$4, %rdx
	je	11b
	movzbl	4(%rsi), %eax
	cmpb	$33, %al
	setb	%cl
	cmpb	$58, %al
	sete	%al
	orb	%cl, %al
	jne	24f
	cmpq	$5, %rdx
	je	11b
	movzbl	5(%rsi), %eax
	cmpb	$33, %al
	setb	%cl
	cmpb	$58, %al
	sete	%al
	orb	%cl, %al
	jne	24f
	cmpq	$6, %rdx
	je	11b
	movzbl	6(%rsi), %eax
	cmpb	$33, %al
	setae	%cl
	cmpb	$58, %al
	setne	%al
	andb	%cl, %al
	cmpq	$7, %rdx
	sete	%cl
	testb	%cl, %al
	jne	11b
	jmp	24f
17:
	xorl	%eax, %eax
	movq	%rdx, %rcx
18:
	movdqu	(%rsi,%rax), %xmm2
	movdqu	16(%rsi,%rax), %xmm3
	movdqu	32(%rsi,%rax), %xmm4
	movdqu	48(%rsi,%rax), %xmm5
	movdqa	5b(%rip), %xmm1
	pcmpeqb	%xmm1, %xmm4
	pcmpeqb	%xmm1, %xmm2
	por	%xmm4, %xmm2
	pcmpeqb	%xmm1, %xmm5
	pcmpeqb	%xmm1, %xmm3
	por	%xmm5, %xmm3
	por	%xmm2, %xmm3
	pmovmskb	%xmm3, %r8d
	testl	%r8d, %r8d
	jne	19f
	addq	$64, %rax
	addq	$-64, %rcx
	cmpq	$63, %rcx
	ja	18b
19:
	cmpq	$32, %rcx
	jb	22f
	movq	%rdx, %rcx
	subq	%rax, %rcx
	addq	%rsi, %rax
20:
	movdqu	(%rax), %xmm2
	movdqu	16(%rax), %xmm3
	pcmpeqb	%xmm1, %xmm3
	pcmpeqb	%xmm1, %xmm2
	por	%xmm3, %xmm2
	pmovmskb	%xmm2, %r8d
	testl	%r8d, %r8d
	jne	21f
	addq	$-32, %rcx
	addq	$32, %rax
	cmpq	$32, %rcx
	jae	20b
	jmp	22f
21:
	cmpq	$31, %rcx
	ja	23f
22:
	movdqu	-32(%rsi,%rdx), %xmm2
	movdqu	-16(%rsi,%rdx), %xmm3
	pcmpeqb	%xmm1, %xmm3
	pcmpeqb	%xmm1, %xmm2
	por	%xmm3, %xmm2
	pmovmskb	%xmm2, %eax
	testl	%eax, %eax
	je	24f
23:
	cmpb	$47, (%rsi)
	je	24f
	cmpb	$47, -1(%rsi,%rdx)
	jne	25f
24:
	movw	$1, (%rdi)
	movups	%xmm0, 8(%rdi)
	movups	%xmm0, 24(%rdi)
	movups	%xmm0, 40(%rdi)
	addq	$112, %rsp
	popq	%rbx
	retq
25:
	movq	%rdi, %rbx
	leaq	48(%rsp), %rdi
	callq	"smallvec::small_vec::SmallVec::from_slice::<#940dc9c6c8ede164>"
	movzbl	48(%rsp), %eax
	testb	%al, %al
	je	26f
	movb	$2, %dl
	xorl	%ecx, %ecx
	jmp	27f
26:
	movzbl	56(%rsp), %ecx
	movaps	64(%rsp), %xmm0
	movdqa	80(%rsp), %xmm1
	movaps	%xmm0, (%rsp)
	movdqa	%xmm1, 16(%rsp)
	movq	96(%rsp), %rdx
	movq	%rdx, 32(%rsp)
	xorl	%edx, %edx
27:
	movb	%al, (%rbx)
	movb	%dl, 1(%rbx)
	movq	%rcx, 8(%rbx)
	movaps	(%rsp), %xmm0
	movaps	16(%rsp), %xmm1
	movups	%xmm0, 16(%rbx)
	movups	%xmm1, 32(%rbx)
	movq	32(%rsp), %rax
	movq	%rax, 48(%rbx)
	addq	$112, %rsp
	popq	%rbx
	retq
28:
	.size	"mime_base::names::TypeName::new", 28b-"mime_base::names::TypeName::new"
