# Made by dist/refresh of what is proved.

	.text
	.p2align	4
	.type	"core::cmp::declared::OptionPartialEq::eq::<#a18ca2343ae6f068>",@function
"core::cmp::declared::OptionPartialEq::eq::<#a18ca2343ae6f068>":
	cmpb	$1, (%rdi)
	movzbl	(%rsi), %eax
	jne	1f
	cmpb	$1, %al
	jne	2f
	movq	16(%rdi), %rax
	cmpq	16(%rsi), %rax
	jne	2f
	movq	8(%rdi), %rdx
	movq	8(%rsi), %rcx
	cmpq	$7, %rax
	ja	3f
	cmpq	$4, %rax
	jb	4f
	movl	(%rdx), %esi
	movl	-4(%rdx,%rax), %edx
	shlq	$32, %rdx
	orq	%rsi, %rdx
	bswapq	%rdx
	movl	(%rcx), %esi
	movl	-4(%rcx,%rax), %eax
	shlq	$32, %rax
	orq	%rsi, %rax
	bswapq	%rax
	cmpq	%rax, %rdx
	sete	%al
	retq
1:
	cmpb	$1, %al
	setne	%al
	retq
2:
	xorl	%eax, %eax
	retq
3:
	cmpq	$32, %rax
	ja	5f
	leaq	-8(%rax), %rsi
	movq	(%rdx), %rdi
	xorq	(%rcx), %rdi
	cmpq	$8, %rsi
	movl	$8, %r8d
	cmovbq	%rsi, %r8
	movq	(%rdx,%r8), %r9
	xorq	(%rcx,%r8), %r9
	orq	%rdi, %r9
	cmpq	$16, %rsi
	movl	$16, %edi
	cmovbq	%rsi, %rdi
	movq	(%rdx,%rdi), %rsi
	xorq	(%rcx,%rdi), %rsi
	orq	%r9, %rsi
	movq	-8(%rdx,%rax), %rdx
	xorq	-8(%rcx,%rax), %rdx
	orq	%rsi, %rdx
	sete	%al
	retq
4:
	testq	%rax, %rax
	je	8f
	movzbl	(%rdx), %esi
	movq	%rax, %rdi
	shrq	%rdi
	movzbl	(%rdx,%rdi), %r8d
	shll	$16, %esi
	shll	$8, %r8d
	orl	%esi, %r8d
	movzbl	-1(%rdx,%rax), %edx
	orq	%r8, %rdx
	movzbl	(%rcx), %esi
	movzbl	(%rcx,%rdi), %edi
	shll	$16, %esi
	shll	$8, %edi
	orl	%esi, %edi
	movzbl	-1(%rcx,%rax), %eax
	orq	%rdi, %rax
	cmpq	%rax, %rdx
	sete	%al
	retq
5:
	cmpq	$65, %rax
	jae	6f
	leaq	-16(%rax), %rsi
	movdqu	(%rdx), %xmm0
	movdqu	16(%rdx), %xmm1
	movdqu	(%rcx), %xmm2
	pcmpeqb	%xmm0, %xmm2
	movdqu	16(%rcx), %xmm0
	pcmpeqb	%xmm1, %xmm0
	cmpq	$32, %rsi
	movl	$32, %edi
	cmovbq	%rsi, %rdi
	pand	%xmm2, %xmm0
	movdqu	(%rdx,%rdi), %xmm1
	movdqu	(%rcx,%rdi), %xmm2
	pcmpeqb	%xmm1, %xmm2
	movdqu	-16(%rdx,%rax), %xmm1
	movdqu	-16(%rcx,%rax), %xmm3
	pcmpeqb	%xmm1, %xmm3
	pand	%xmm0, %xmm3
	pand	%xmm2, %xmm3
	pmovmskb	%xmm3, %eax
	cmpl	$65535, %eax
	setne	%al
	xorb	$1, %al
	retq
6:
	xorl	%esi, %esi
	movq	%rax, %rdi
	.p2align	4
7:
	movdqu	(%rdx,%rsi), %xmm0
	movdqu	16(%rdx,%rsi), %xmm1
	movdqu	32(%rdx,%rsi), %xmm2
	movdqu	48(%rdx,%rsi), %xmm3
	movdqu	(%rcx,%rsi), %xmm4
	pcmpeqb	%xmm0, %xmm4
	movdqu	16(%rcx,%rsi), %xmm0
	pcmpeqb	%xmm1, %xmm0
	pand	%xmm4, %xmm0
	movdqu	32(%rcx,%rsi), %xmm1
	pcmpeqb	%xmm2, %xmm1
	movdqu	48(%rcx,%rsi), %xmm2
	pcmpeqb	%xmm3, %xmm2
	pand	%xmm1, %xmm2
	pand	%xmm0, %xmm2
	pmovmskb	%xmm2, %r8d
	cmpl	$65535, %r8d
	jne	9f
	addq	$64, %rsi
	addq	$-64, %rdi
	cmpq	$65, %rdi
	jae	7b
	movdqu	-64(%rdx,%rax), %xmm0
	movdqu	-48(%rdx,%rax), %xmm1
	movdqu	-32(%rdx,%rax), %xmm2
	movdqu	-16(%rdx,%rax), %xmm3
	movdqu	-64(%rcx,%rax), %xmm4
	pcmpeqb	%xmm0, %xmm4
	movdqu	-48(%rcx,%rax), %xmm0
	pcmpeqb	%xmm1, %xmm0
	pand	%xmm4, %xmm0
	movdqu	-32(%rcx,%rax), %xmm1
	pcmpeqb	%xmm2, %xmm1
	movdqu	-16(%rcx,%rax), %xmm2
	pcmpeqb	%xmm3, %xmm2
	pand	%xmm1, %xmm2
	pand	%xmm0, %xmm2
	pmovmskb	%xmm2, %eax
	cmpl	$65535, %eax
	setne	%al
	xorb	$1, %al
	retq
8:
	xorl	%eax, %eax
	xorl	%edx, %edx
	cmpq	%rax, %rdx
	sete	%al
	retq
9:
	movb	$1, %al
	xorb	$1, %al
	retq
10:
	.size	"core::cmp::declared::OptionPartialEq::eq::<#a18ca2343ae6f068>", 10b-"core::cmp::declared::OptionPartialEq::eq::<#a18ca2343ae6f068>"

	.text
	.p2align	4
	.type	"core::cmp::slices::RefSliceOrd::cmp::<#914af4d8504a0b72>",@function
"core::cmp::slices::RefSliceOrd::cmp::<#914af4d8504a0b72>":
	cmpq	%rsi, %rcx
	movq	%rsi, %rax
	cmovbq	%rcx, %rax
	xorl	%r8d, %r8d
	cmpq	$64, %rax
	jb	2f
	movq	%rax, %r9
	.p2align	4
1:
	movdqu	(%rdi,%r8), %xmm0
	movdqu	16(%rdi,%r8), %xmm1
	movdqu	32(%rdi,%r8), %xmm2
	movdqu	48(%rdi,%r8), %xmm3
	movdqu	(%rdx,%r8), %xmm4
	pcmpeqb	%xmm0, %xmm4
	movdqu	16(%rdx,%r8), %xmm0
	pcmpeqb	%xmm1, %xmm0
	movdqu	32(%rdx,%r8), %xmm1
	pcmpeqb	%xmm2, %xmm1
	pand	%xmm4, %xmm1
	movdqu	48(%rdx,%r8), %xmm2
	pcmpeqb	%xmm3, %xmm2
	pand	%xmm0, %xmm2
	pand	%xmm1, %xmm2
	pmovmskb	%xmm2, %r10d
	cmpl	$65535, %r10d
	jne	2f
	addq	$64, %r8
	addq	$-64, %r9
	cmpq	$63, %r9
	ja	1b
2:
	movq	%rax, %r9
	subq	%r8, %r9
	cmpq	$8, %r9
	jb	4f
	.p2align	4
3:
	movq	(%rdi,%r8), %r10
	cmpq	(%rdx,%r8), %r10
	jne	4f
	addq	$8, %r8
	addq	$-8, %r9
	cmpq	$7, %r9
	ja	3b
4:
	cmpq	%rax, %r8
	jae	6f
	.p2align	4
5:
	movzbl	(%rdx,%r8), %r9d
	cmpb	%r9b, (%rdi,%r8)
	jne	7f
	incq	%r8
	cmpq	%r8, %rax
	jne	5b
6:
	cmpq	%rcx, %rsi
	setae	%al
	addb	%al, %al
	cmpq	%rcx, %rsi
	movzbl	%al, %ecx
	movl	$1, %eax
	cmovnel	%ecx, %eax
	retq
7:
	setae	%al
	addb	%al, %al
	retq
8:
	.size	"core::cmp::slices::RefSliceOrd::cmp::<#914af4d8504a0b72>", 8b-"core::cmp::slices::RefSliceOrd::cmp::<#914af4d8504a0b72>"

	.text
	.p2align	4
	.type	"core::cmp::slices::groups_equal::<i8,31'core::cmp::numbers::U8PartialEq{}>",@function
"core::cmp::slices::groups_equal::<i8,31'core::cmp::numbers::U8PartialEq{}>":
	cmpq	$8, %rsi
	ja	1f
	movd	(%rdi), %xmm0
	pinsrd	$1, -4(%rdi,%rsi), %xmm0
	movd	(%rdx), %xmm1
	pinsrd	$1, -4(%rdx,%rsi), %xmm1
	movq	%xmm0, %rax
	movq	%xmm1, %rcx
	cmpq	%rcx, %rax
	jmp	9f
1:
	cmpq	$32, %rsi
	ja	2f
	leaq	-8(%rsi), %rax
	cmpq	$8, %rax
	movl	$8, %ecx
	cmovbq	%rax, %rcx
	cmpq	$16, %rax
	movl	$16, %r8d
	cmovbq	%rax, %r8
	movq	(%rdi,%rcx), %xmm0
	movq	(%rdi), %xmm1
	punpcklqdq	%xmm0, %xmm1
	movq	(%rdi,%r8), %xmm0
	movq	-8(%rdi,%rsi), %xmm2
	punpcklqdq	%xmm2, %xmm0
	movq	(%rdx,%rcx), %xmm2
	movq	(%rdx), %xmm3
	punpcklqdq	%xmm2, %xmm3
	pxor	%xmm1, %xmm3
	movq	(%rdx,%r8), %xmm1
	movq	-8(%rdx,%rsi), %xmm2
	punpcklqdq	%xmm2, %xmm1
	pxor	%xmm0, %xmm1
	por	%xmm3, %xmm1
	ptest	%xmm1, %xmm1
	jmp	9f
2:
	cmpq	$65, %rsi
	jae	3f
	movdqu	(%rdi), %xmm0
	movdqu	16(%rdi), %xmm1
	movdqu	(%rdx), %xmm2
	pxor	%xmm0, %xmm2
	movdqu	16(%rdx), %xmm0
	pxor	%xmm1, %xmm0
	movdqu	-32(%rdi,%rsi), %xmm1
	movdqu	-16(%rdi,%rsi), %xmm3
	movdqu	-32(%rdx,%rsi), %xmm4
	pxor	%xmm1, %xmm4
	por	%xmm2, %xmm4
	movdqu	-16(%rdx,%rsi), %xmm1
	pxor	%xmm3, %xmm1
	por	%xmm0, %xmm1
	por	%xmm4, %xmm1
	ptest	%xmm1, %xmm1
	jmp	9f
3:
	xorl	%eax, %eax
	movq	%rsi, %rcx
	.p2align	4
4:
	movdqu	(%rdi,%rax), %xmm0
	movdqu	16(%rdi,%rax), %xmm1
	movdqu	32(%rdi,%rax), %xmm2
	movdqu	48(%rdi,%rax), %xmm3
	movdqu	(%rdx,%rax), %xmm4
	pcmpeqb	%xmm0, %xmm4
	movdqu	16(%rdx,%rax), %xmm0
	pcmpeqb	%xmm1, %xmm0
	movdqu	32(%rdx,%rax), %xmm1
	pcmpeqb	%xmm2, %xmm1
	pand	%xmm4, %xmm1
	movdqu	48(%rdx,%rax), %xmm2
	pcmpeqb	%xmm3, %xmm2
	pand	%xmm0, %xmm2
	pand	%xmm1, %xmm2
	pmovmskb	%xmm2, %r8d
	cmpl	$65535, %r8d
	jne	5f
	addq	$64, %rax
	addq	$-64, %rcx
	cmpq	$63, %rcx
	ja	4b
5:
	cmpq	$32, %rcx
	jb	8f
	movq	%rsi, %rcx
	subq	%rax, %rcx
	.p2align	4
6:
	movdqu	(%rdi,%rax), %xmm0
	movdqu	16(%rdi,%rax), %xmm1
	movdqu	(%rdx,%rax), %xmm2
	pxor	%xmm0, %xmm2
	movdqu	16(%rdx,%rax), %xmm0
	pxor	%xmm1, %xmm0
	por	%xmm2, %xmm0
	ptest	%xmm0, %xmm0
	jne	7f
	addq	$32, %rax
	addq	$-32, %rcx
	cmpq	$31, %rcx
	ja	6b
	jmp	8f
7:
	movb	$1, %al
	cmpq	$31, %rcx
	ja	10f
8:
	movdqu	-32(%rdi,%rsi), %xmm0
	movdqu	-16(%rdi,%rsi), %xmm1
	movdqu	-32(%rdx,%rsi), %xmm2
	pxor	%xmm0, %xmm2
	movdqu	-16(%rdx,%rsi), %xmm0
	pxor	%xmm1, %xmm0
	por	%xmm2, %xmm0
	ptest	%xmm0, %xmm0
9:
	setne	%al
10:
	xorb	$1, %al
	retq
11:
	.size	"core::cmp::slices::groups_equal::<i8,31'core::cmp::numbers::U8PartialEq{}>", 11b-"core::cmp::slices::groups_equal::<i8,31'core::cmp::numbers::U8PartialEq{}>"

	.section	.text.unlikely,"ax",@progbits
	.p2align	4
	.type	"core::dec2flt::decimal::break_tie::<#1d521972340cebc2>",@function
"core::dec2flt::decimal::break_tie::<#1d521972340cebc2>":
	pushq	%rbp
	pushq	%r15
	pushq	%r14
	pushq	%r13
	pushq	%r12
	pushq	%rbx
	subq	$1208, %rsp
	movq	%r9, %rbx
	movq	%r8, %r14
	movq	%rcx, %r15
	movq	%rdx, %r12
	movl	%esi, %ebp
	movq	%rdi, %rsi
	leaq	608(%rsp), %rdi
	movl	$600, %edx
	callq	memcpy@PLT
	cmpq	$20, %r12
	jb	8f
	movq	1200(%rsp), %r8
	testq	%r8, %r8
	jne	2f
	addq	$-20, %r12
	movabsq	$-2912643801112034465, %rcx
	movq	%r12, %rax
	mulq	%rcx
	shrq	$4, %rdx
	leaq	(%rdx,%rdx,8), %rax
	leaq	(%rdx,%rax,2), %rax
	subq	%rax, %r12
	incq	%r12
	jmp	8f
	.p2align	4
1:
	movq	1200(%rsp), %r8
2:
	testq	%r8, %r8
	je	7f
	cmpq	$1, %r8
	jne	3f
	xorl	%r9d, %r9d
	xorl	%r10d, %r10d
	jmp	5f
	.p2align	4
3:
	movq	%r8, %r11
	andq	$-2, %r11
	xorl	%r9d, %r9d
	xorl	%r10d, %r10d
	.p2align	4
4:
	movabsq	$-8446744073709551616, %rcx
	movq	%rcx, %rax
	mulq	608(%rsp,%r10,8)
	movq	%rdx, %rsi
	movq	%rax, %rdi
	movq	%rcx, %rax
	mulq	616(%rsp,%r10,8)
	addq	%r9, %rdi
	adcq	%rsi, %rax
	movq	%rdx, %r9
	adcq	$0, %r9
	movq	%rdi, 608(%rsp,%r10,8)
	movq	%rax, 616(%rsp,%r10,8)
	addq	$2, %r10
	cmpq	%r10, %r11
	jne	4b
	testb	$1, %r8b
	je	6f
5:
	movabsq	$-8446744073709551616, %rax
	mulq	608(%rsp,%r10,8)
	addq	%r9, %rax
	adcq	$0, %rdx
	movq	%rax, 608(%rsp,%r10,8)
	movq	%rdx, %r9
6:
	testq	%r9, %r9
	je	7f
	movq	%r9, 608(%rsp,%r8,8)
	incq	%r8
	movq	%r8, 1200(%rsp)
7:
	addq	$-19, %r12
	cmpq	$19, %r12
	ja	1b
8:
	movq	1200(%rsp), %r8
	testq	%r8, %r8
	je	26f
	leaq	.L1f00a5318f3f(%rip), %rax
	movq	(%rax,%r12,8), %rcx
	cmpq	$1, %r8
	jne	9f
	xorl	%r9d, %r9d
	xorl	%r10d, %r10d
	jmp	11f
9:
	movq	%r8, %r11
	andq	$-2, %r11
	xorl	%r9d, %r9d
	xorl	%r10d, %r10d
	.p2align	4
10:
	movq	%rcx, %rax
	mulq	608(%rsp,%r10,8)
	movq	%rdx, %rsi
	movq	%rax, %rdi
	movq	%rcx, %rax
	mulq	616(%rsp,%r10,8)
	addq	%r9, %rdi
	adcq	%rsi, %rax
	movq	%rdx, %r9
	adcq	$0, %r9
	movq	%rdi, 608(%rsp,%r10,8)
	movq	%rax, 616(%rsp,%r10,8)
	addq	$2, %r10
	cmpq	%r10, %r11
	jne	10b
	testb	$1, %r8b
	je	12f
11:
	movq	%rcx, %rax
	mulq	608(%rsp,%r10,8)
	addq	%r9, %rax
	adcq	$0, %rdx
	movq	%rax, 608(%rsp,%r10,8)
	movq	%rdx, %r9
12:
	testq	%r9, %r9
	je	13f
	movq	%r9, 608(%rsp,%r8,8)
	incq	%r8
	movq	%r8, 1200(%rsp)
	jmp	14f
13:
	movq	1200(%rsp), %r8
14:
	xorl	%ecx, %ecx
	movl	$1075, %eax
	subq	%rbx, %rax
	cmovaeq	%rax, %rcx
	cmpq	$64, %rcx
	jb	21f
	testq	%r8, %r8
	jne	16f
	jmp	26f
	.p2align	4
15:
	addq	$-63, %rcx
	movq	1200(%rsp), %r8
	cmpq	$63, %rcx
	jbe	21f
16:
	testq	%r8, %r8
	je	15b
	cmpq	$1, %r8
	jne	17f
	xorl	%eax, %eax
	xorl	%edx, %edx
	jmp	19f
	.p2align	4
17:
	movq	%r8, %rsi
	andq	$-2, %rsi
	xorl	%eax, %eax
	xorl	%edx, %edx
	.p2align	4
18:
	movq	608(%rsp,%rdx,8), %rdi
	movq	%rdi, %r9
	shlq	$63, %r9
	orq	%rax, %r9
	movq	616(%rsp,%rdx,8), %rax
	movq	%r9, 608(%rsp,%rdx,8)
	shrdq	$1, %rax, %rdi
	movq	%rdi, 616(%rsp,%rdx,8)
	shrq	%rax
	addq	$2, %rdx
	cmpq	%rdx, %rsi
	jne	18b
	testb	$1, %r8b
	je	20f
19:
	movq	608(%rsp,%rdx,8), %rsi
	movq	%rsi, %rdi
	shlq	$63, %rdi
	orq	%rax, %rdi
	movq	%rdi, 608(%rsp,%rdx,8)
	shrq	%rsi
	movq	%rsi, %rax
20:
	testq	%rax, %rax
	je	15b
	movq	%rax, 608(%rsp,%r8,8)
	incq	%r8
	movq	%r8, 1200(%rsp)
	jmp	15b
21:
	testq	%r8, %r8
	je	26f
	cmpq	$1, %r8
	jne	22f
	xorl	%eax, %eax
	xorl	%edx, %edx
	jmp	24f
22:
	movq	%r8, %rsi
	andq	$-2, %rsi
	xorl	%eax, %eax
	xorl	%edx, %edx
	.p2align	4
23:
	movq	616(%rsp,%rdx,8), %r9
	movq	%r9, %r10
	shlq	%cl, %r10
	xorl	%edi, %edi
	testb	$64, %cl
	movq	%r10, %r11
	cmovneq	%rdi, %r11
	xorl	%r12d, %r12d
	shldq	%cl, %r9, %r12
	movq	608(%rsp,%rdx,8), %r9
	testb	$64, %cl
	cmovneq	%r10, %r12
	movq	%r9, %r10
	shlq	%cl, %r10
	testb	$64, %cl
	movq	%r10, %r13
	cmovneq	%rdi, %r13
	shldq	%cl, %r9, %rdi
	testb	$64, %cl
	cmovneq	%r10, %rdi
	addq	%rax, %r13
	adcq	$0, %rdi
	addq	%r11, %rdi
	movq	%r12, %rax
	adcq	$0, %rax
	movq	%r13, 608(%rsp,%rdx,8)
	movq	%rdi, 616(%rsp,%rdx,8)
	addq	$2, %rdx
	cmpq	%rdx, %rsi
	jne	23b
	testb	$1, %r8b
	je	25f
24:
	movq	608(%rsp,%rdx,8), %rsi
	xorl	%edi, %edi
	shldq	%cl, %rsi, %rdi
	shlq	%cl, %rsi
	xorl	%r9d, %r9d
	testb	$64, %cl
	cmovneq	%rsi, %rdi
	cmovneq	%r9, %rsi
	addq	%rax, %rsi
	adcq	$0, %rdi
	movq	%rsi, 608(%rsp,%rdx,8)
	movq	%rdi, %rax
25:
	testq	%rax, %rax
	je	26f
	movq	%rax, 608(%rsp,%r8,8)
	incq	%r8
	movq	%r8, 1200(%rsp)
26:
	leaq	1(,%r14,2), %rax
	movq	%rax, 8(%rsp)
	leaq	16(%rsp), %rdi
	movl	$584, %edx
	xorl	%esi, %esi
	callq	memset@PLT
	movq	$1, 600(%rsp)
	movl	$1, %r8d
	cmpq	$20, %r15
	jae	28f
	jmp	34f
	.p2align	4
27:
	addq	$-19, %r15
	movq	600(%rsp), %r8
	cmpq	$19, %r15
	jbe	33f
28:
	testq	%r8, %r8
	je	27b
	cmpq	$1, %r8
	jne	29f
	xorl	%r9d, %r9d
	xorl	%r10d, %r10d
	jmp	31f
	.p2align	4
29:
	movq	%r8, %r11
	andq	$-2, %r11
	xorl	%r9d, %r9d
	xorl	%r10d, %r10d
	.p2align	4
30:
	movabsq	$-8446744073709551616, %rcx
	movq	%rcx, %rax
	mulq	8(%rsp,%r10,8)
	movq	%rdx, %rsi
	movq	%rax, %rdi
	movq	%rcx, %rax
	mulq	16(%rsp,%r10,8)
	addq	%r9, %rdi
	adcq	%rsi, %rax
	movq	%rdx, %r9
	adcq	$0, %r9
	movq	%rdi, 8(%rsp,%r10,8)
	movq	%rax, 16(%rsp,%r10,8)
	addq	$2, %r10
	cmpq	%r10, %r11
	jne	30b
	testb	$1, %r8b
	je	32f
31:
	movabsq	$-8446744073709551616, %rax
	mulq	8(%rsp,%r10,8)
	addq	%r9, %rax
	adcq	$0, %rdx
	movq	%rax, 8(%rsp,%r10,8)
	movq	%rdx, %r9
32:
	testq	%r9, %r9
	je	27b
	movq	%r9, 8(%rsp,%r8,8)
	incq	%r8
	movq	%r8, 600(%rsp)
	jmp	27b
33:
	testq	%r8, %r8
	je	48f
34:
	leaq	.L1f00a5318f3f(%rip), %rax
	movq	(%rax,%r15,8), %rcx
	cmpq	$1, %r8
	jne	35f
	xorl	%r9d, %r9d
	xorl	%r10d, %r10d
	jmp	37f
35:
	movq	%r8, %r11
	andq	$-2, %r11
	xorl	%r9d, %r9d
	xorl	%r10d, %r10d
	.p2align	4
36:
	movq	%rcx, %rax
	mulq	8(%rsp,%r10,8)
	movq	%rdx, %rsi
	movq	%rax, %rdi
	movq	%rcx, %rax
	mulq	16(%rsp,%r10,8)
	addq	%r9, %rdi
	adcq	%rsi, %rax
	movq	%rdx, %r9
	adcq	$0, %r9
	movq	%rdi, 8(%rsp,%r10,8)
	movq	%rax, 16(%rsp,%r10,8)
	addq	$2, %r10
	cmpq	%r10, %r11
	jne	36b
	testb	$1, %r8b
	je	38f
37:
	movq	%rcx, %rax
	mulq	8(%rsp,%r10,8)
	addq	%r9, %rax
	adcq	$0, %rdx
	movq	%rax, 8(%rsp,%r10,8)
	movq	%rdx, %r9
38:
	testq	%r9, %r9
	je	39f
	movq	%r9, 8(%rsp,%r8,8)
	incq	%r8
	movq	%r8, 600(%rsp)
	jmp	40f
39:
	movq	600(%rsp), %r8
40:
	xorl	%ecx, %ecx
	movq	%rbx, %rax
	subq	$1075, %rax
	cmovaeq	%rax, %rcx
	cmpq	$64, %rcx
	jb	47f
	testq	%r8, %r8
	jne	42f
	jmp	48f
	.p2align	4
41:
	addq	$-63, %rcx
	movq	600(%rsp), %r8
	cmpq	$63, %rcx
	jbe	47f
42:
	testq	%r8, %r8
	je	41b
	cmpq	$1, %r8
	jne	43f
	xorl	%eax, %eax
	xorl	%edx, %edx
	jmp	45f
	.p2align	4
43:
	movq	%r8, %rsi
	andq	$-2, %rsi
	xorl	%eax, %eax
	xorl	%edx, %edx
	.p2align	4
44:
	movq	8(%rsp,%rdx,8), %rdi
	movq	%rdi, %r9
	shlq	$63, %r9
	orq	%rax, %r9
	movq	16(%rsp,%rdx,8), %rax
	movq	%r9, 8(%rsp,%rdx,8)
	shrdq	$1, %rax, %rdi
	movq	%rdi, 16(%rsp,%rdx,8)
	shrq	%rax
	addq	$2, %rdx
	cmpq	%rdx, %rsi
	jne	44b
	testb	$1, %r8b
	je	46f
45:
	movq	8(%rsp,%rdx,8), %rsi
	movq	%rsi, %rdi
	shlq	$63, %rdi
	orq	%rax, %rdi
	movq	%rdi, 8(%rsp,%rdx,8)
	shrq	%rsi
	movq	%rsi, %rax
46:
	testq	%rax, %rax
	je	41b
	movq	%rax, 8(%rsp,%r8,8)
	incq	%r8
	movq	%r8, 600(%rsp)
	jmp	41b
47:
	testq	%r8, %r8
	je	48f
	cmpq	$1, %r8
	jne	49f
	xorl	%eax, %eax
	xorl	%edx, %edx
	jmp	51f
48:
	xorl	%r8d, %r8d
	jmp	54f
49:
	movq	%r8, %rsi
	andq	$-2, %rsi
	xorl	%eax, %eax
	xorl	%edx, %edx
	.p2align	4
50:
	movq	16(%rsp,%rdx,8), %r9
	movq	%r9, %r10
	shlq	%cl, %r10
	xorl	%edi, %edi
	testb	$64, %cl
	movq	%r10, %r11
	cmovneq	%rdi, %r11
	xorl	%r15d, %r15d
	shldq	%cl, %r9, %r15
	movq	8(%rsp,%rdx,8), %r9
	testb	$64, %cl
	cmovneq	%r10, %r15
	movq	%r9, %r10
	shlq	%cl, %r10
	testb	$64, %cl
	movq	%r10, %r12
	cmovneq	%rdi, %r12
	shldq	%cl, %r9, %rdi
	testb	$64, %cl
	cmovneq	%r10, %rdi
	addq	%rax, %r12
	adcq	$0, %rdi
	addq	%r11, %rdi
	movq	%r15, %rax
	adcq	$0, %rax
	movq	%r12, 8(%rsp,%rdx,8)
	movq	%rdi, 16(%rsp,%rdx,8)
	addq	$2, %rdx
	cmpq	%rdx, %rsi
	jne	50b
	testb	$1, %r8b
	je	52f
51:
	movq	8(%rsp,%rdx,8), %rsi
	xorl	%edi, %edi
	shldq	%cl, %rsi, %rdi
	shlq	%cl, %rsi
	xorl	%r9d, %r9d
	testb	$64, %cl
	cmovneq	%rsi, %rdi
	cmovneq	%r9, %rsi
	addq	%rax, %rsi
	adcq	$0, %rdi
	movq	%rsi, 8(%rsp,%rdx,8)
	movq	%rdi, %rax
52:
	testq	%rax, %rax
	je	53f
	movq	%rax, 8(%rsp,%r8,8)
	incq	%r8
	movq	%r8, 600(%rsp)
	jmp	54f
53:
	movq	600(%rsp), %r8
54:
	movq	1200(%rsp), %rax
	cmpq	%rax, %r8
	cmovaq	%r8, %rax
	.p2align	4
55:
	subq	$1, %rax
	jb	56f
	movq	608(%rsp,%rax,8), %rcx
	movq	8(%rsp,%rax,8), %rdx
	cmpq	%rdx, %rcx
	jb	58f
	jbe	55b
	jmp	57f
56:
	testb	%bpl, %bpl
	je	59f
57:
	shlq	$52, %rbx
	leaq	(%r14,%rbx), %rcx
	incq	%rcx
	movabsq	$9218868437227405312, %rax
	cmpq	%rax, %rcx
	cmovbq	%rcx, %rax
	jmp	61f
58:
	shlq	$52, %rbx
	addq	%r14, %rbx
	jmp	60f
59:
	movl	%r14d, %eax
	andl	$1, %eax
	addq	%r14, %rax
	shlq	$52, %rbx
	addq	%rax, %rbx
60:
	movabsq	$9218868437227405312, %rax
	cmpq	%rax, %rbx
	cmovaeq	%rax, %rbx
	movq	%rbx, %rax
61:
	addq	$1208, %rsp
	popq	%rbx
	popq	%r12
	popq	%r13
	popq	%r14
	popq	%r15
	popq	%rbp
	retq
62:
	.size	"core::dec2flt::decimal::break_tie::<#1d521972340cebc2>", 62b-"core::dec2flt::decimal::break_tie::<#1d521972340cebc2>"

	.section	.text.unlikely,"ax",@progbits
	.p2align	4
	.type	"core::dec2flt::lemire::eisel_lemire_wide::<#1d521972340cebc2>",@function
"core::dec2flt::lemire::eisel_lemire_wide::<#1d521972340cebc2>":
	pushq	%r14
	pushq	%rbx
	movq	%rcx, %r9
	movq	%rsi, %r10
	movl	$127, %ecx
	bsrq	%rsi, %rcx
	xorq	$63, %rcx
	shlq	%cl, %r10
	movq	%rdx, %rsi
	movq	%r9, %rbx
	shlq	$4, %rbx
	leaq	.Ld973209b3923(%rip), %r14
	movq	%r10, %rax
	mulq	8(%rbx,%r14)
	movq	%rdx, %r8
	movq	%rax, %r11
	movq	%r10, %rax
	mulq	(%rbx,%r14)
	addq	%r11, %rdx
	adcq	$0, %r8
	movq	%r8, %r11
	shrq	$63, %r11
	imulq	$217706, %r9, %rax
	addq	$58980, %rax
	shrq	$16, %rax
	addq	%r11, %rax
	addq	$1139, %rax
	movq	%rcx, %r9
	addq	$1191, %r9
	shlq	%cl, %rsi
	xorl	%r10d, %r10d
	movq	%r9, %rcx
	subq	%rax, %rcx
	cmovbq	%r10, %rcx
	subq	%r9, %rax
	cmovbq	%r10, %rax
	addq	%r11, %rcx
	addq	$72, %rcx
	movl	$0, %r9d
	movl	$0, %r11d
	cmpq	$127, %rcx
	ja	4f
	shrdq	$2, %r8, %rdx
	shrq	$2, %r8
	movq	%rdx, %r10
	shrdq	%cl, %r8, %r10
	movq	%r8, %r9
	shrq	%cl, %r9
	movq	$-1, %r11
	shlq	%cl, %r11
	xorl	%r14d, %r14d
	testb	$64, %cl
	cmoveq	%r10, %r9
	movq	$-1, %r10
	movq	%r11, %rbx
	cmovneq	%r14, %rbx
	cmoveq	%r10, %r11
	notq	%rbx
	andq	%rdx, %rbx
	decb	%cl
	movl	$1, %r10d
	xorl	%edx, %edx
	shldq	%cl, %r10, %rdx
	notq	%r11
	andq	%r8, %r11
	movl	$1, %r8d
	shlq	%cl, %r8
	testb	$64, %cl
	cmovneq	%r8, %rdx
	cmovneq	%r14, %r8
	cmpq	%rbx, %r8
	movq	%rdx, %rcx
	sbbq	%r11, %rcx
	jae	1f
	shlq	$52, %rax
	addq	%r9, %rax
	incq	%rax
	movabsq	$9218868437227405312, %r9
	cmpq	%r9, %rax
	cmovbq	%rax, %r9
	xorl	%r10d, %r10d
	jmp	3f
1:
	movq	%rsi, %rcx
	shrq	$2, %rcx
	shlq	$62, %rsi
	orq	$2, %rsi
	subq	%rbx, %r8
	sbbq	%r11, %rdx
	cmpq	%rsi, %r8
	sbbq	%rcx, %rdx
	jae	2f
	movq	%rax, %r11
	jmp	4f
2:
	shlq	$52, %rax
	addq	%r9, %rax
	movabsq	$9218868437227405312, %rcx
	cmpq	%rcx, %rax
	cmovaeq	%rcx, %rax
	xorl	%r10d, %r10d
	movq	%rax, %r9
3:
	xorl	%r11d, %r11d
4:
	movq	%r10, (%rdi)
	movq	%r9, 8(%rdi)
	movq	%r11, 16(%rdi)
	popq	%rbx
	popq	%r14
	retq
5:
	.size	"core::dec2flt::lemire::eisel_lemire_wide::<#1d521972340cebc2>", 5b-"core::dec2flt::lemire::eisel_lemire_wide::<#1d521972340cebc2>"

	.section	.text.unlikely,"ax",@progbits
	.p2align	4
	.type	"core::dec2flt::long::from_long::<#1d521972340cebc2>",@function
"core::dec2flt::long::from_long::<#1d521972340cebc2>":
	pushq	%rbp
	pushq	%r15
	pushq	%r14
	pushq	%r13
	pushq	%r12
	pushq	%rbx
	subq	$1288, %rsp
	movq	%rcx, %r13
	addq	%rsi, %r13
	je	2f
	movq	%rdx, %r11
	subq	%rsi, %r11
	xorl	%eax, %eax
	.p2align	4
1:
	cmpq	%rsi, %rax
	movq	%r11, %r10
	cmovbq	%rdi, %r10
	cmpb	$48, (%r10,%rax)
	jne	3f
	incq	%rax
	cmpq	%rax, %r13
	jne	1b
	jmp	8f
2:
	xorl	%eax, %eax
3:
	movq	%r13, %r14
	subq	%rax, %r14
	je	8f
	xorl	%ebp, %ebp
	addq	%rcx, %r9
	setb	%bpl
	cmpq	$19, %r14
	movl	$19, %r12d
	cmovbq	%r14, %r12
	movq	%r14, %r10
	subq	%r12, %r10
	xorl	%r11d, %r11d
	addq	%r8, %r10
	setb	%r11b
	addq	$342, %r10
	adcq	$0, %r11
	cmpq	%r9, %r10
	movq	%r11, %rbx
	sbbq	%rbp, %rbx
	jb	8f
	subq	%r9, %r10
	sbbq	%rbp, %r11
	xorl	%ebx, %ebx
	movl	$650, %r15d
	cmpq	%r10, %r15
	sbbq	%r11, %rbx
	jb	8f
	movq	%r8, 8(%rsp)
	movq	%r9, 16(%rsp)
	cmpq	$1, %r14
	jne	4f
	movq	%rcx, %r15
	movq	%rdx, %r9
	xorl	%r12d, %r12d
	xorl	%r11d, %r11d
	jmp	6f
4:
	movq	%rbp, (%rsp)
	movq	%r12, 40(%rsp)
	movl	%r12d, %r15d
	andl	$30, %r15d
	movq	%rax, %rbp
	subq	%rsi, %rbp
	movq	%rdx, %r9
	addq	%rdx, %rbp
	leaq	(%rdi,%rax), %rbx
	xorl	%r12d, %r12d
	xorl	%r11d, %r11d
	.p2align	4
5:
	leaq	(%r11,%r11,4), %r11
	leaq	(%rax,%r12), %r8
	cmpq	%rsi, %r8
	movq	%rbp, %r8
	cmovbq	%rbx, %r8
	movzbl	(%r8,%r12), %r8d
	addb	$-48, %r8b
	movzbl	%r8b, %r8d
	leaq	(%r8,%r11,2), %r8
	leaq	(%r8,%r8,4), %r8
	leaq	(%rax,%r12), %r11
	incq	%r11
	cmpq	%rsi, %r11
	movq	%rbp, %r11
	cmovbq	%rbx, %r11
	movzbl	1(%r11,%r12), %r11d
	addb	$-48, %r11b
	movzbl	%r11b, %r11d
	leaq	(%r11,%r8,2), %r11
	addq	$2, %r12
	cmpq	%r12, %r15
	jne	5b
	movq	%rcx, %r15
	testb	$1, 40(%rsp)
	movq	(%rsp), %rbp
	je	7f
6:
	leaq	(%r11,%r11,4), %rcx
	addq	%rax, %r12
	leaq	(%rdi,%r12), %rax
	subq	%rsi, %r12
	leaq	(%r9,%r12), %r8
	cmovbq	%rax, %r8
	movzbl	(%r8), %eax
	addb	$-48, %al
	movzbl	%al, %eax
	leaq	(%rax,%rcx,2), %r11
7:
	movq	%r9, (%rsp)
	xorl	%ebx, %ebx
	cmpq	$20, %r14
	setae	%bl
	movl	$127, %ecx
	bsrq	%r11, %rcx
	xorq	$63, %rcx
	movq	%r11, %rax
	shlq	%cl, %rax
	movq	%r10, %rdx
	shlq	$4, %rdx
	leaq	.Ld973209b3923(%rip), %r8
	mulq	8(%rdx,%r8)
	movq	%rdx, %rax
	shrq	$63, %rax
	imulq	$217706, %r10, %r8
	addq	$58980, %r8
	shrq	$16, %r8
	addq	%rax, %r8
	addq	$1139, %r8
	leaq	1191(%rcx), %r9
	cmpq	%r8, %r9
	ja	9f
	movq	%rbx, %r8
	shlq	%cl, %r8
	addq	$2, %r8
	movl	$-1024, %r9d
	movl	%eax, %ecx
	shll	%cl, %r9d
	movl	$512, %r14d
	shlq	%cl, %r14
	notl	%r9d
	andl	%r9d, %edx
	subq	%rdx, %r14
	cmpq	%r8, %r14
	jb	9f
8:
	addq	$1288, %rsp
	popq	%rbx
	popq	%r12
	popq	%r13
	popq	%r14
	popq	%r15
	popq	%rbp
	retq
9:
	leaq	64(%rsp), %rax
	movq	%rdi, 32(%rsp)
	movq	%rax, %rdi
	movq	%rsi, 24(%rsp)
	movq	%r11, %rsi
	movq	%rbx, %rdx
	movq	%r10, %rcx
	movq	16(%rsp), %rbx
	movq	8(%rsp), %r14
	callq	"core::dec2flt::lemire::eisel_lemire_wide::<#1d521972340cebc2>"
	movq	32(%rsp), %rcx
	cmpb	$0, 64(%rsp)
	movq	(%rsp), %rdx
	je	8b
	movq	%rbx, %rax
	movq	72(%rsp), %r10
	movq	80(%rsp), %r9
	xorl	%r11d, %r11d
	movl	$1075, %edi
	subq	%r9, %rdi
	cmovaeq	%rdi, %r11
	xorl	%edi, %edi
	movq	%r11, %r8
	addq	%r14, %r8
	setb	%dil
	cmpq	%rbx, %r8
	movq	%rdi, %rsi
	sbbq	%rbp, %rsi
	movq	%r9, 56(%rsp)
	movq	%r10, 48(%rsp)
	jae	23f
	movq	%r11, 8(%rsp)
	subq	%r8, %rax
	sbbq	%rdi, %rbp
	xorl	%edi, %edi
	movq	%r13, %r14
	subq	%rax, %r14
	movl	$0, %esi
	sbbq	%rbp, %rsi
	cmovbq	%rdi, %r14
	cmpq	%r14, %r13
	jbe	12f
	cmpq	%r13, %rax
	movq	%rbp, %rsi
	sbbq	$0, %rsi
	movq	%r13, %rsi
	cmovbq	%rax, %rsi
	subq	%rsi, %r15
	addq	%rdx, %r15
	movq	%r14, %rdx
	movq	24(%rsp), %rsi
10:
	leaq	(%rcx,%rdx), %rdi
	cmpq	%rsi, %rdx
	cmovaeq	%r15, %rdi
	cmpb	$48, (%rdi)
	jne	11f
	incq	%rdx
	incq	%r15
	cmpq	%r13, %rdx
	jb	10b
	movq	%r13, %rdx
11:
	cmpq	%r13, %rdx
	setb	%dil
12:
	movq	%rdi, 16(%rsp)
	leaq	688(%rsp), %rdi
	movl	$600, %edx
	xorl	%esi, %esi
	movq	%rax, %rbx
	callq	memset@PLT
	movq	32(%rsp), %r8
	movq	(%rsp), %rsi
	cmpq	%r13, %rbx
	sbbq	$0, %rbp
	movq	24(%rsp), %r9
	jae	25f
	movq	%rsi, %r12
	subq	%r9, %r12
	xorl	%r11d, %r11d
	jmp	14f
13:
	addq	%r13, %r11
	cmpq	%r14, %r11
	jae	25f
14:
	movq	%r14, %rax
	subq	%r11, %rax
	cmpq	$19, %rax
	movl	$19, %r13d
	cmovbq	%rax, %r13
	cmpq	$1, %rax
	jne	15f
	xorl	%eax, %eax
	xorl	%r15d, %r15d
	jmp	17f
15:
	movl	%r13d, %ecx
	andl	$30, %ecx
	leaq	(%r12,%r11), %rdx
	leaq	(%r8,%r11), %rdi
	xorl	%eax, %eax
	xorl	%r15d, %r15d
	.p2align	4
16:
	leaq	(%r15,%r15,4), %r10
	leaq	(%r11,%rax), %rbx
	cmpq	%r9, %rbx
	movq	%rdx, %rbx
	cmovbq	%rdi, %rbx
	movzbl	(%rbx,%rax), %ebx
	addb	$-48, %bl
	movzbl	%bl, %ebx
	leaq	(%rbx,%r10,2), %r10
	leaq	(%r10,%r10,4), %r10
	leaq	(%r11,%rax), %rbx
	incq	%rbx
	cmpq	%r9, %rbx
	movq	%rdx, %rbx
	cmovbq	%rdi, %rbx
	movzbl	1(%rbx,%rax), %ebx
	addb	$-48, %bl
	movzbl	%bl, %ebx
	leaq	(%rbx,%r10,2), %r15
	addq	$2, %rax
	cmpq	%rax, %rcx
	jne	16b
	testb	$1, %r13b
	je	18f
17:
	leaq	(%r15,%r15,4), %rcx
	addq	%r11, %rax
	leaq	(%r8,%rax), %rdx
	subq	%r9, %rax
	leaq	(%rsi,%rax), %rax
	cmovbq	%rdx, %rax
	movzbl	(%rax), %eax
	addb	$-48, %al
	movzbl	%al, %eax
	leaq	(%rax,%rcx,2), %r15
18:
	movq	1280(%rsp), %r10
	testq	%r10, %r10
	je	22f
	movl	%r13d, %eax
	leaq	.L1f00a5318f3f(%rip), %rcx
	movq	(%rcx,%rax,8), %rcx
	cmpq	$1, %r10
	jne	19f
	xorl	%ebx, %ebx
	jmp	21f
19:
	movq	%r10, %rbp
	andq	$-2, %rbp
	xorl	%ebx, %ebx
	.p2align	4
20:
	movq	%rcx, %rax
	mulq	688(%rsp,%rbx,8)
	movq	%rdx, %rsi
	movq	%rax, %rdi
	movq	%rcx, %rax
	mulq	696(%rsp,%rbx,8)
	addq	%r15, %rdi
	adcq	%rsi, %rax
	movq	%rdx, %r15
	adcq	$0, %r15
	movq	%rdi, 688(%rsp,%rbx,8)
	movq	%rax, 696(%rsp,%rbx,8)
	addq	$2, %rbx
	cmpq	%rbx, %rbp
	jne	20b
	testb	$1, %r10b
	movq	(%rsp), %rsi
	je	22f
21:
	movq	%rcx, %rax
	mulq	688(%rsp,%rbx,8)
	addq	%r15, %rax
	movq	(%rsp), %rsi
	adcq	$0, %rdx
	movq	%rax, 688(%rsp,%rbx,8)
	movq	%rdx, %r15
22:
	testq	%r15, %r15
	je	13b
	movq	%r15, 688(%rsp,%r10,8)
	incq	%r10
	movq	%r10, 1280(%rsp)
	jmp	13b
23:
	leaq	88(%rsp), %rdi
	movl	$600, %edx
	xorl	%esi, %esi
	callq	memset@PLT
	movq	32(%rsp), %r10
	movq	(%rsp), %rdi
	testq	%r13, %r13
	movq	24(%rsp), %r11
	jne	27f
24:
	xorl	%eax, %eax
	movq	8(%rsp), %rdi
	movq	%rdi, %rdx
	movq	16(%rsp), %rcx
	subq	%rcx, %rdx
	movl	$0, %esi
	sbbq	%rbp, %rsi
	cmovbq	%rax, %rdx
	subq	%rdi, %rcx
	sbbq	$0, %rbp
	cmovbq	%rax, %rcx
	leaq	88(%rsp), %rdi
	xorl	%esi, %esi
	jmp	26f
25:
	movzbl	16(%rsp), %esi
	leaq	688(%rsp), %rdi
	xorl	%edx, %edx
	movq	8(%rsp), %rcx
26:
	movq	48(%rsp), %r8
	movq	56(%rsp), %r9
	callq	"core::dec2flt::decimal::break_tie::<#1d521972340cebc2>"
	jmp	8b
27:
	movq	%rdi, %rax
	subq	%r11, %rax
	movq	%rax, 40(%rsp)
	xorl	%r14d, %r14d
	jmp	29f
28:
	addq	%r15, %r14
	cmpq	%r13, %r14
	jae	24b
29:
	movq	%r13, %rax
	subq	%r14, %rax
	cmpq	$19, %rax
	movl	$19, %r15d
	cmovbq	%rax, %r15
	cmpq	$1, %rax
	jne	30f
	xorl	%eax, %eax
	xorl	%r9d, %r9d
	jmp	32f
30:
	movl	%r15d, %ecx
	andl	$30, %ecx
	movq	40(%rsp), %rax
	leaq	(%rax,%r14), %rdx
	leaq	(%r10,%r14), %rsi
	xorl	%eax, %eax
	xorl	%r9d, %r9d
	.p2align	4
31:
	leaq	(%r9,%r9,4), %r8
	leaq	(%r14,%rax), %r9
	cmpq	%r11, %r9
	movq	%rdx, %r9
	cmovbq	%rsi, %r9
	movzbl	(%r9,%rax), %r9d
	addb	$-48, %r9b
	movzbl	%r9b, %r9d
	leaq	(%r9,%r8,2), %r8
	leaq	(%r8,%r8,4), %r8
	leaq	(%r14,%rax), %r9
	incq	%r9
	cmpq	%r11, %r9
	movq	%rdx, %r9
	cmovbq	%rsi, %r9
	movzbl	1(%r9,%rax), %r9d
	addb	$-48, %r9b
	movzbl	%r9b, %r9d
	leaq	(%r9,%r8,2), %r9
	addq	$2, %rax
	cmpq	%rax, %rcx
	jne	31b
	testb	$1, %r15b
	je	33f
32:
	leaq	(%r9,%r9,4), %rcx
	addq	%r14, %rax
	leaq	(%r10,%rax), %rdx
	subq	%r11, %rax
	leaq	(%rdi,%rax), %rax
	cmovbq	%rdx, %rax
	movzbl	(%rax), %eax
	addb	$-48, %al
	movzbl	%al, %eax
	leaq	(%rax,%rcx,2), %r9
33:
	movq	680(%rsp), %rbx
	testq	%rbx, %rbx
	je	37f
	movl	%r15d, %eax
	leaq	.L1f00a5318f3f(%rip), %rcx
	movq	(%rcx,%rax,8), %rsi
	cmpq	$1, %rbx
	jne	34f
	xorl	%ecx, %ecx
	jmp	36f
34:
	movq	%rbp, %r12
	movq	%rbx, %rbp
	andq	$-2, %rbp
	xorl	%ecx, %ecx
	.p2align	4
35:
	movq	%rsi, %rax
	mulq	88(%rsp,%rcx,8)
	movq	%rdx, %rdi
	movq	%rax, %r8
	movq	%rsi, %rax
	mulq	96(%rsp,%rcx,8)
	addq	%r9, %r8
	adcq	%rdi, %rax
	movq	%rdx, %r9
	adcq	$0, %r9
	movq	%r8, 88(%rsp,%rcx,8)
	movq	%rax, 96(%rsp,%rcx,8)
	addq	$2, %rcx
	cmpq	%rcx, %rbp
	jne	35b
	testb	$1, %bl
	movq	(%rsp), %rdi
	movq	%r12, %rbp
	je	37f
36:
	movq	%rsi, %rax
	mulq	88(%rsp,%rcx,8)
	addq	%r9, %rax
	movq	%rdx, %r9
	movq	(%rsp), %rdi
	adcq	$0, %r9
	movq	%rax, 88(%rsp,%rcx,8)
37:
	testq	%r9, %r9
	je	28b
	movq	%r9, 88(%rsp,%rbx,8)
	incq	%rbx
	movq	%rbx, 680(%rsp)
	jmp	28b
38:
	.size	"core::dec2flt::long::from_long::<#1d521972340cebc2>", 38b-"core::dec2flt::long::from_long::<#1d521972340cebc2>"

	.section	.rodata.cst8,"aM",@progbits,8
	.p2align	3, 0x0
1:
	.quad	0xfff0000000000000
2:
	.quad	0x7ff0000000000000
3:
	.quad	0xfff8000000000000
4:
	.quad	0x7ff8000000000000
	.section	.text.unlikely,"ax",@progbits
	.p2align	4
	.type	"core::dec2flt::words::read_word::<#1d521972340cebc2>",@function
"core::dec2flt::words::read_word::<#1d521972340cebc2>":
	testl	%ecx, %ecx
	jne	6f
	movsd	2b(%rip), %xmm0
	cmpq	$8, %rdx
	jb	7f
5:
	movzbl	(%rsi), %eax
	leal	-65(%rax), %edx
	leal	32(%rax), %r8d
	cmpb	$26, %dl
	movzbl	%r8b, %edx
	cmovael	%eax, %edx
	cmpb	$105, %dl
	jne	8f
	movzbl	1(%rsi), %eax
	leal	-65(%rax), %edx
	leal	32(%rax), %r8d
	cmpb	$26, %dl
	movzbl	%r8b, %edx
	cmovael	%eax, %edx
	cmpb	$110, %dl
	jne	8f
	movzbl	2(%rsi), %eax
	leal	-65(%rax), %edx
	leal	32(%rax), %r8d
	cmpb	$26, %dl
	movzbl	%r8b, %edx
	cmovael	%eax, %edx
	cmpb	$102, %dl
	jne	8f
	movzbl	3(%rsi), %eax
	leal	-65(%rax), %edx
	leal	32(%rax), %r8d
	cmpb	$26, %dl
	movzbl	%r8b, %edx
	cmovael	%eax, %edx
	cmpb	$105, %dl
	jne	8f
	movzbl	4(%rsi), %eax
	leal	-65(%rax), %edx
	leal	32(%rax), %r8d
	cmpb	$26, %dl
	movzbl	%r8b, %edx
	cmovael	%eax, %edx
	cmpb	$110, %dl
	jne	8f
	movzbl	5(%rsi), %eax
	leal	-65(%rax), %edx
	leal	32(%rax), %r8d
	cmpb	$26, %dl
	movzbl	%r8b, %edx
	cmovael	%eax, %edx
	cmpb	$105, %dl
	jne	8f
	movzbl	6(%rsi), %eax
	leal	-65(%rax), %edx
	leal	32(%rax), %r8d
	cmpb	$26, %dl
	movzbl	%r8b, %edx
	cmovael	%eax, %edx
	cmpb	$116, %dl
	jne	8f
	movzbl	7(%rsi), %eax
	leal	-65(%rax), %edx
	leal	32(%rax), %r8d
	cmpb	$26, %dl
	movzbl	%r8b, %edx
	cmovael	%eax, %edx
	cmpb	$121, %dl
	jne	8f
	movl	$8, %ecx
	jmp	9f
6:
	movsd	1b(%rip), %xmm0
	cmpq	$8, %rdx
	jae	5b
7:
	cmpq	$3, %rdx
	jae	8f
	xorps	%xmm1, %xmm1
	jmp	11f
8:
	movzbl	(%rsi), %edx
	leal	-65(%rdx), %eax
	leal	32(%rdx), %r8d
	cmpb	$26, %al
	movzbl	%r8b, %eax
	cmovael	%edx, %eax
	xorps	%xmm1, %xmm1
	cmpb	$110, %al
	je	10f
	movzbl	%al, %eax
	cmpl	$105, %eax
	jne	11f
	movzbl	1(%rsi), %eax
	leal	-65(%rax), %ecx
	leal	32(%rax), %edx
	cmpb	$26, %cl
	movzbl	%dl, %ecx
	cmovael	%eax, %ecx
	cmpb	$110, %cl
	jne	11f
	movzbl	2(%rsi), %eax
	leal	-65(%rax), %ecx
	leal	32(%rax), %edx
	cmpb	$26, %cl
	movzbl	%dl, %ecx
	cmovael	%eax, %ecx
	cmpb	$102, %cl
	jne	11f
	movl	$3, %ecx
9:
	movl	$1, %eax
	movaps	%xmm0, %xmm1
	movq	%rax, (%rdi)
	movsd	%xmm1, 8(%rdi)
	movq	%rcx, 16(%rdi)
	retq
10:
	movzbl	1(%rsi), %eax
	leal	-65(%rax), %edx
	leal	32(%rax), %r8d
	cmpb	$26, %dl
	movzbl	%r8b, %edx
	cmovael	%eax, %edx
	cmpb	$97, %dl
	jne	11f
	movzbl	2(%rsi), %eax
	leal	-65(%rax), %edx
	leal	32(%rax), %esi
	cmpb	$26, %dl
	movzbl	%sil, %edx
	cmovael	%eax, %edx
	cmpb	$110, %dl
	jne	11f
	testb	%cl, %cl
	jne	12f
	movsd	4b(%rip), %xmm1
	jmp	13f
11:
	xorl	%eax, %eax
	xorl	%ecx, %ecx
	movq	%rax, (%rdi)
	movsd	%xmm1, 8(%rdi)
	movq	%rcx, 16(%rdi)
	retq
12:
	movsd	3b(%rip), %xmm1
13:
	movl	$3, %ecx
	movl	$1, %eax
	movq	%rax, (%rdi)
	movsd	%xmm1, 8(%rdi)
	movq	%rcx, 16(%rdi)
	retq
14:
	.size	"core::dec2flt::words::read_word::<#1d521972340cebc2>", 14b-"core::dec2flt::words::read_word::<#1d521972340cebc2>"

	.section	.rodata.cst16,"aM",@progbits,16
	.p2align	4, 0x0
1:
	.byte	255,63,63,63
	.zero	1
	.zero	1
	.zero	1
	.zero	1
	.zero	1
	.zero	1
	.zero	1
	.zero	1
	.zero	1
	.zero	1
	.zero	1
	.zero	1
2:
	.byte	240,128,128,128
	.zero	1
	.zero	1
	.zero	1
	.zero	1
	.zero	1
	.zero	1
	.zero	1
	.zero	1
	.zero	1
	.zero	1
	.zero	1
	.zero	1
	.text
	.p2align	4
	.type	"core::fmt::formatter::Formatter::write_code_point::<#86a172efa8724158>",@function
"core::fmt::formatter::Formatter::write_code_point::<#86a172efa8724158>":
	pushq	%rax
	movl	$0, 4(%rsp)
	cmpl	$127, %esi
	ja	3f
	movb	%sil, 4(%rsp)
	movl	$1, %edx
	cmpq	$0, 48(%rdi)
	je	6f
	jmp	8f
3:
	cmpl	$2047, %esi
	ja	4f
	movl	%esi, %eax
	shrl	$6, %eax
	orb	$-64, %al
	movb	%al, 4(%rsp)
	andb	$63, %sil
	orb	$-128, %sil
	movb	%sil, 5(%rsp)
	movl	$2, %edx
	cmpq	$0, 48(%rdi)
	je	6f
	jmp	8f
4:
	cmpl	$55296, %esi
	setb	%al
	leal	-57344(%rsi), %ecx
	cmpl	$1056768, %ecx
	setb	%cl
	orb	%al, %cl
	je	5f
	movl	%esi, %eax
	cmpl	$65535, %esi
	ja	7f
	shrl	$12, %eax
	orb	$-32, %al
	movb	%al, 4(%rsp)
	movl	%esi, %eax
	shrl	$6, %eax
	andb	$63, %al
	orb	$-128, %al
	movb	%al, 5(%rsp)
	andb	$63, %sil
	orb	$-128, %sil
	movb	%sil, 6(%rsp)
	movl	$3, %edx
	cmpq	$0, 48(%rdi)
	je	6f
	jmp	8f
5:
	movw	$-16401, 4(%rsp)
	movb	$-67, 6(%rsp)
	movl	$3, %edx
	cmpq	$0, 48(%rdi)
	jne	8f
6:
	leaq	4(%rsp), %rsi
	callq	"core::fmt::formatter::Formatter::write_raw::<#0a7ff941e43d6b30>"
	popq	%rcx
	retq
7:
	shrl	$6, %eax
	movl	%esi, %ecx
	shrl	$12, %ecx
	movd	%esi, %xmm0
	psrld	$18, %xmm0
	pinsrb	$1, %ecx, %xmm0
	pinsrb	$2, %eax, %xmm0
	pinsrb	$3, %esi, %xmm0
	pand	1b(%rip), %xmm0
	por	2b(%rip), %xmm0
	movd	%xmm0, 4(%rsp)
	movl	$4, %edx
	cmpq	$0, 48(%rdi)
	je	6b
8:
	leaq	4(%rsp), %rsi
	callq	"core::fmt::formatter::Formatter::write_indented::<#0a7ff941e43d6b30>"
	popq	%rcx
	retq
9:
	.size	"core::fmt::formatter::Formatter::write_code_point::<#86a172efa8724158>", 9b-"core::fmt::formatter::Formatter::write_code_point::<#86a172efa8724158>"

	.section	.text.unlikely,"ax",@progbits
	.p2align	4
	.type	"core::fmt::formatter::Formatter::write_indented::<#0a7ff941e43d6b30>",@function
"core::fmt::formatter::Formatter::write_indented::<#0a7ff941e43d6b30>":
	pushq	%rbp
	pushq	%r15
	pushq	%r14
	pushq	%r13
	pushq	%r12
	pushq	%rbx
	pushq	%rax
	testq	%rdx, %rdx
	je	5f
	movq	%rsi, %r14
	movq	%rdi, %r15
	xorl	%ecx, %ecx
	xorl	%ebp, %ebp
	movq	%rdx, (%rsp)
	jmp	3f
	.p2align	4
1:
	addq	%r14, %r13
	movb	$1, 56(%r15)
	movq	%r15, %rdi
	movq	%r13, %rsi
	movq	%r12, %rdx
	callq	"core::fmt::formatter::Formatter::write_raw::<#0a7ff941e43d6b30>"
	movq	%rbp, %rcx
	testb	%al, %al
	movq	(%rsp), %rdx
	jne	9f
2:
	cmpq	%rdx, %rbp
	je	6f
3:
	movq	%rbp, %rax
	incq	%rbp
	cmpb	$10, (%r14,%rax)
	jne	2b
	xorl	%r13d, %r13d
	movq	%rbp, %r12
	subq	%rcx, %r12
	cmovaeq	%rcx, %r13
	cmpq	%rax, %rcx
	movq	%rbp, %rcx
	ja	2b
	cmpb	$1, 56(%r15)
	jne	1b
	movq	48(%r15), %rbx
	testq	%rbx, %rbx
	je	1b
	.p2align	4
4:
	leaq	.L8db0c9845b42(%rip), %rsi
	movl	$4, %edx
	movq	%r15, %rdi
	callq	"core::fmt::formatter::Formatter::write_raw::<#0a7ff941e43d6b30>"
	testb	%al, %al
	jne	9f
	decq	%rbx
	jne	4b
	jmp	1b
5:
	xorl	%eax, %eax
	jmp	10f
6:
	xorl	%eax, %eax
	cmpq	%rdx, %rcx
	movq	%rcx, %r12
	cmovaq	%rax, %r12
	subq	%rcx, %rdx
	cmovbq	%rax, %rdx
	jbe	10f
	movq	%rdx, %r13
	cmpb	$1, 56(%r15)
	jne	8f
	movq	48(%r15), %rbx
	testq	%rbx, %rbx
	je	8f
	.p2align	4
7:
	leaq	.L8db0c9845b42(%rip), %rsi
	movl	$4, %edx
	movq	%r15, %rdi
	callq	"core::fmt::formatter::Formatter::write_raw::<#0a7ff941e43d6b30>"
	testb	%al, %al
	jne	9f
	decq	%rbx
	jne	7b
8:
	addq	%r12, %r14
	movb	$0, 56(%r15)
	movq	%r15, %rdi
	movq	%r14, %rsi
	movq	%r13, %rdx
	addq	$8, %rsp
	popq	%rbx
	popq	%r12
	popq	%r13
	popq	%r14
	popq	%r15
	popq	%rbp
	jmp	"core::fmt::formatter::Formatter::write_raw::<#0a7ff941e43d6b30>"
9:
	movb	$1, %al
10:
	addq	$8, %rsp
	popq	%rbx
	popq	%r12
	popq	%r13
	popq	%r14
	popq	%r15
	popq	%rbp
	retq
11:
	.size	"core::fmt::formatter::Formatter::write_indented::<#0a7ff941e43d6b30>", 11b-"core::fmt::formatter::Formatter::write_indented::<#0a7ff941e43d6b30>"

	.section	.text.unlikely,"ax",@progbits
	.p2align	4
	.type	"core::fmt::formatter::Formatter::write_indented::<#bf264aed5fa78656>",@function
"core::fmt::formatter::Formatter::write_indented::<#bf264aed5fa78656>":
	pushq	%rbp
	pushq	%r15
	pushq	%r14
	pushq	%r13
	pushq	%r12
	pushq	%rbx
	pushq	%rax
	testq	%rdx, %rdx
	je	5f
	movq	%rsi, %r14
	movq	%rdi, %r15
	xorl	%ecx, %ecx
	xorl	%ebp, %ebp
	movq	%rdx, (%rsp)
	jmp	3f
	.p2align	4
1:
	addq	%r14, %r13
	movb	$1, 1168(%r15)
	movq	%r15, %rdi
	movq	%r13, %rsi
	movq	%r12, %rdx
	callq	"core::fmt::formatter::Formatter::write_raw::<#bf264aed5fa78656>"
	movq	%rbp, %rcx
	testb	%al, %al
	movq	(%rsp), %rdx
	jne	9f
2:
	cmpq	%rdx, %rbp
	je	6f
3:
	movq	%rbp, %rax
	incq	%rbp
	cmpb	$10, (%r14,%rax)
	jne	2b
	xorl	%r13d, %r13d
	movq	%rbp, %r12
	subq	%rcx, %r12
	cmovaeq	%rcx, %r13
	cmpq	%rax, %rcx
	movq	%rbp, %rcx
	ja	2b
	cmpb	$1, 1168(%r15)
	jne	1b
	movq	1160(%r15), %rbx
	testq	%rbx, %rbx
	je	1b
	.p2align	4
4:
	leaq	.L8db0c9845b42(%rip), %rsi
	movl	$4, %edx
	movq	%r15, %rdi
	callq	"core::fmt::formatter::Formatter::write_raw::<#bf264aed5fa78656>"
	testb	%al, %al
	jne	9f
	decq	%rbx
	jne	4b
	jmp	1b
5:
	xorl	%eax, %eax
	jmp	10f
6:
	xorl	%eax, %eax
	cmpq	%rdx, %rcx
	movq	%rcx, %r12
	cmovaq	%rax, %r12
	subq	%rcx, %rdx
	cmovbq	%rax, %rdx
	jbe	10f
	movq	%rdx, %r13
	cmpb	$1, 1168(%r15)
	jne	8f
	movq	1160(%r15), %rbx
	testq	%rbx, %rbx
	je	8f
	.p2align	4
7:
	leaq	.L8db0c9845b42(%rip), %rsi
	movl	$4, %edx
	movq	%r15, %rdi
	callq	"core::fmt::formatter::Formatter::write_raw::<#bf264aed5fa78656>"
	testb	%al, %al
	jne	9f
	decq	%rbx
	jne	7b
8:
	addq	%r12, %r14
	movb	$0, 1168(%r15)
	movq	%r15, %rdi
	movq	%r14, %rsi
	movq	%r13, %rdx
	addq	$8, %rsp
	popq	%rbx
	popq	%r12
	popq	%r13
	popq	%r14
	popq	%r15
	popq	%rbp
	jmp	"core::fmt::formatter::Formatter::write_raw::<#bf264aed5fa78656>"
9:
	movb	$1, %al
10:
	addq	$8, %rsp
	popq	%rbx
	popq	%r12
	popq	%r13
	popq	%r14
	popq	%r15
	popq	%rbp
	retq
11:
	.size	"core::fmt::formatter::Formatter::write_indented::<#bf264aed5fa78656>", 11b-"core::fmt::formatter::Formatter::write_indented::<#bf264aed5fa78656>"

	.text
	.p2align	4
	.type	"core::fmt::formatter::Formatter::write_piece::<#0584b03bf03810b7>",@function
"core::fmt::formatter::Formatter::write_piece::<#0584b03bf03810b7>":
	pushq	%r15
	pushq	%r14
	pushq	%r13
	pushq	%r12
	pushq	%rbx
	subq	$32, %rsp
	movq	%rdi, %rbx
	movl	$32, 24(%rdi)
	movq	$0, 28(%rdi)
	movl	$0, 36(%rdi)
	movq	$-1, 40(%rdi)
	movq	(%rsi), %rax
	movq	(%rax), %rsi
	xorps	%xmm0, %xmm0
	movaps	%xmm0, (%rsp)
	movq	$0, 16(%rsp)
	movl	$24, %ecx
	cmpq	$100, %rsi
	jb	3f
	.p2align	4
1:
	movq	%rsi, %rax
	shrq	$2, %rax
	movabsq	$2951479051793528259, %rdx
	mulq	%rdx
	shrq	$2, %rdx
	imull	$100, %edx, %eax
	movl	%esi, %edi
	subl	%eax, %edi
	movzbl	%dil, %eax
	imull	$205, %eax, %edi
	shrl	$11, %edi
	leal	(%rdi,%rdi), %r8d
	leal	(%r8,%r8,4), %r8d
	subb	%r8b, %al
	orb	$48, %al
	movb	%al, -1(%rsp,%rcx)
	orb	$48, %dil
	movb	%dil, -2(%rsp,%rcx)
	addq	$-2, %rcx
	cmpq	$9999, %rsi
	movq	%rdx, %rsi
	ja	1b
	cmpq	$10, %rdx
	jb	4f
2:
	movzbl	%dl, %eax
	imull	$205, %eax, %eax
	shrl	$11, %eax
	leal	(%rax,%rax), %esi
	leal	(%rsi,%rsi,4), %esi
	subb	%sil, %dl
	orb	$48, %dl
	movb	%dl, -1(%rsp,%rcx)
	orb	$48, %al
	movb	%al, -2(%rsp,%rcx)
	addq	$-2, %rcx
	jmp	5f
3:
	movq	%rsi, %rdx
	cmpq	$10, %rdx
	jae	2b
4:
	orb	$48, %dl
	movb	%dl, -1(%rsp,%rcx)
	decq	%rcx
5:
	leaq	(%rsp,%rcx), %rsi
	movb	$45, -1(%rsp,%rcx)
	movl	$24, %edx
	subq	%rcx, %rdx
	cmpq	$0, 48(%rbx)
	jne	8f
	movq	8(%rbx), %r14
	movq	16(%rbx), %r15
	movq	%r15, %rax
	subq	%r14, %rax
	cmpq	%rax, %rdx
	ja	9f
6:
	movq	(%rbx), %r12
	leaq	(%r12,%r14), %rdi
	addq	%rdx, %r14
	callq	memcpy@PLT
	movq	%r12, (%rbx)
	movq	%r14, 8(%rbx)
	movq	%r15, 16(%rbx)
	xorl	%eax, %eax
7:
	addq	$32, %rsp
	popq	%rbx
	popq	%r12
	popq	%r13
	popq	%r14
	popq	%r15
	retq
8:
	movq	%rbx, %rdi
	callq	"core::fmt::formatter::Formatter::write_indented::<#0a7ff941e43d6b30>"
	jmp	7b
9:
	movq	%rsi, %r12
	movq	%rbx, %rdi
	movq	%rdx, %r13
	movq	%rdx, %rsi
	callq	"std_alloc::vec::Vec::grow_amortized::<#1d775b5957dec42c>"
	movl	%eax, %ecx
	movb	$1, %al
	testb	%cl, %cl
	je	7b
	movq	8(%rbx), %r14
	movq	16(%rbx), %r15
	movq	%r12, %rsi
	movq	%r13, %rdx
	jmp	6b
10:
	.size	"core::fmt::formatter::Formatter::write_piece::<#0584b03bf03810b7>", 10b-"core::fmt::formatter::Formatter::write_piece::<#0584b03bf03810b7>"

	.text
	.p2align	4
	.type	"core::fmt::formatter::Formatter::write_piece::<#499173829830abb3>",@function
"core::fmt::formatter::Formatter::write_piece::<#499173829830abb3>":
	pushq	%r15
	pushq	%r14
	pushq	%r13
	pushq	%r12
	pushq	%rbx
	subq	$32, %rsp
	movq	%rdi, %rbx
	movl	$32, 24(%rdi)
	movq	$0, 28(%rdi)
	movl	$0, 36(%rdi)
	movq	$-1, 40(%rdi)
	movq	(%rsi), %rsi
	xorps	%xmm0, %xmm0
	movaps	%xmm0, (%rsp)
	movq	$0, 16(%rsp)
	movl	$24, %ecx
	cmpq	$100, %rsi
	jb	3f
	.p2align	4
1:
	movq	%rsi, %rax
	shrq	$2, %rax
	movabsq	$2951479051793528259, %rdx
	mulq	%rdx
	shrq	$2, %rdx
	imull	$100, %edx, %eax
	movl	%esi, %edi
	subl	%eax, %edi
	movzbl	%dil, %eax
	imull	$205, %eax, %edi
	shrl	$11, %edi
	leal	(%rdi,%rdi), %r8d
	leal	(%r8,%r8,4), %r8d
	subb	%r8b, %al
	orb	$48, %al
	movb	%al, -1(%rsp,%rcx)
	orb	$48, %dil
	movb	%dil, -2(%rsp,%rcx)
	addq	$-2, %rcx
	cmpq	$9999, %rsi
	movq	%rdx, %rsi
	ja	1b
	cmpq	$10, %rdx
	jb	4f
2:
	movzbl	%dl, %eax
	imull	$205, %eax, %eax
	shrl	$11, %eax
	leal	(%rax,%rax), %esi
	leal	(%rsi,%rsi,4), %esi
	subb	%sil, %dl
	orb	$48, %dl
	movb	%dl, -1(%rsp,%rcx)
	orb	$48, %al
	movb	%al, -2(%rsp,%rcx)
	addq	$-2, %rcx
	jmp	5f
3:
	movq	%rsi, %rdx
	cmpq	$10, %rdx
	jae	2b
4:
	orb	$48, %dl
	movb	%dl, -1(%rsp,%rcx)
	decq	%rcx
5:
	leaq	(%rsp,%rcx), %rsi
	movb	$45, -1(%rsp,%rcx)
	movl	$24, %edx
	subq	%rcx, %rdx
	cmpq	$0, 48(%rbx)
	jne	8f
	movq	8(%rbx), %r14
	movq	16(%rbx), %r15
	movq	%r15, %rax
	subq	%r14, %rax
	cmpq	%rax, %rdx
	ja	9f
6:
	movq	(%rbx), %r12
	leaq	(%r12,%r14), %rdi
	addq	%rdx, %r14
	callq	memcpy@PLT
	movq	%r12, (%rbx)
	movq	%r14, 8(%rbx)
	movq	%r15, 16(%rbx)
	xorl	%eax, %eax
7:
	addq	$32, %rsp
	popq	%rbx
	popq	%r12
	popq	%r13
	popq	%r14
	popq	%r15
	retq
8:
	movq	%rbx, %rdi
	callq	"core::fmt::formatter::Formatter::write_indented::<#0a7ff941e43d6b30>"
	jmp	7b
9:
	movq	%rsi, %r12
	movq	%rbx, %rdi
	movq	%rdx, %r13
	movq	%rdx, %rsi
	callq	"std_alloc::vec::Vec::grow_amortized::<#1d775b5957dec42c>"
	movl	%eax, %ecx
	movb	$1, %al
	testb	%cl, %cl
	je	7b
	movq	8(%rbx), %r14
	movq	16(%rbx), %r15
	movq	%r12, %rsi
	movq	%r13, %rdx
	jmp	6b
10:
	.size	"core::fmt::formatter::Formatter::write_piece::<#499173829830abb3>", 10b-"core::fmt::formatter::Formatter::write_piece::<#499173829830abb3>"

	.text
	.p2align	4
	.type	"core::fmt::formatter::Formatter::write_piece::<#6604b212283e4c39>",@function
"core::fmt::formatter::Formatter::write_piece::<#6604b212283e4c39>":
	pushq	%r15
	pushq	%r14
	pushq	%r13
	pushq	%r12
	pushq	%rbx
	subq	$32, %rsp
	movq	%rdi, %rbx
	movl	$32, 24(%rdi)
	movq	$0, 28(%rdi)
	movl	$0, 36(%rdi)
	movq	$-1, 40(%rdi)
	movzwl	(%rsi), %edx
	xorps	%xmm0, %xmm0
	movaps	%xmm0, (%rsp)
	movq	$0, 16(%rsp)
	movl	$24, %eax
	cmpq	$100, %rdx
	jb	3f
	.p2align	4
1:
	movl	%edx, %ecx
	imulq	$1374389535, %rcx, %rcx
	shrq	$37, %rcx
	imull	$100, %ecx, %esi
	movl	%edx, %edi
	subl	%esi, %edi
	imull	$103, %edi, %esi
	movzwl	%si, %esi
	shrl	$10, %esi
	leal	(%rsi,%rsi), %r8d
	leal	(%r8,%r8,4), %r8d
	subb	%r8b, %dil
	orb	$48, %dil
	movb	%dil, -1(%rsp,%rax)
	orb	$48, %sil
	movb	%sil, -2(%rsp,%rax)
	addq	$-2, %rax
	cmpq	$9999, %rdx
	movq	%rcx, %rdx
	ja	1b
	cmpq	$10, %rcx
	jb	4f
2:
	movzbl	%cl, %edx
	imull	$205, %edx, %edx
	shrl	$11, %edx
	leal	(%rdx,%rdx), %esi
	leal	(%rsi,%rsi,4), %esi
	subb	%sil, %cl
	orb	$48, %cl
	movb	%cl, -1(%rsp,%rax)
	orb	$48, %dl
	movb	%dl, -2(%rsp,%rax)
	addq	$-2, %rax
	jmp	5f
3:
	movq	%rdx, %rcx
	cmpq	$10, %rcx
	jae	2b
4:
	orb	$48, %cl
	movb	%cl, -1(%rsp,%rax)
	decq	%rax
5:
	leaq	(%rsp,%rax), %rsi
	movb	$45, -1(%rsp,%rax)
	movl	$24, %edx
	subq	%rax, %rdx
	cmpq	$0, 48(%rbx)
	jne	8f
	movq	8(%rbx), %r14
	movq	16(%rbx), %r15
	movq	%r15, %rax
	subq	%r14, %rax
	cmpq	%rax, %rdx
	ja	9f
6:
	movq	(%rbx), %r12
	leaq	(%r12,%r14), %rdi
	addq	%rdx, %r14
	callq	memcpy@PLT
	movq	%r12, (%rbx)
	movq	%r14, 8(%rbx)
	movq	%r15, 16(%rbx)
	xorl	%eax, %eax
7:
	addq	$32, %rsp
	popq	%rbx
	popq	%r12
	popq	%r13
	popq	%r14
	popq	%r15
	retq
8:
	movq	%rbx, %rdi
	callq	"core::fmt::formatter::Formatter::write_indented::<#0a7ff941e43d6b30>"
	jmp	7b
9:
	movq	%rsi, %r12
	movq	%rbx, %rdi
	movq	%rdx, %r13
	movq	%rdx, %rsi
	callq	"std_alloc::vec::Vec::grow_amortized::<#1d775b5957dec42c>"
	movl	%eax, %ecx
	movb	$1, %al
	testb	%cl, %cl
	je	7b
	movq	8(%rbx), %r14
	movq	16(%rbx), %r15
	movq	%r12, %rsi
	movq	%r13, %rdx
	jmp	6b
10:
	.size	"core::fmt::formatter::Formatter::write_piece::<#6604b212283e4c39>", 10b-"core::fmt::formatter::Formatter::write_piece::<#6604b212283e4c39>"

	.section	.rodata.cst16,"aM",@progbits,16
	.p2align	4, 0x0
1:
	.byte	255,63,63,63
	.zero	1
	.zero	1
	.zero	1
	.zero	1
	.zero	1
	.zero	1
	.zero	1
	.zero	1
	.zero	1
	.zero	1
	.zero	1
	.zero	1
2:
	.byte	240,128,128,128
	.zero	1
	.zero	1
	.zero	1
	.zero	1
	.zero	1
	.zero	1
	.zero	1
	.zero	1
	.zero	1
	.zero	1
	.zero	1
	.zero	1
	.text
	.p2align	4
	.type	"core::fmt::formatter::Formatter::write_piece::<#8b9b65c5604fc23d>",@function
"core::fmt::formatter::Formatter::write_piece::<#8b9b65c5604fc23d>":
	pushq	%r15
	pushq	%r14
	pushq	%r12
	pushq	%rbx
	pushq	%rax
	movq	%rdi, %rbx
	movl	$32, 24(%rdi)
	movq	$0, 28(%rdi)
	movl	$0, 36(%rdi)
	movq	$-1, 40(%rdi)
	movl	(%rsi), %eax
	movl	$0, 4(%rsp)
	cmpl	$127, %eax
	ja	3f
	movb	%al, 4(%rsp)
	movl	$1, %edx
	jmp	6f
3:
	movl	%eax, %ecx
	cmpl	$2047, %eax
	ja	4f
	shrl	$6, %ecx
	orb	$-64, %cl
	movb	%cl, 4(%rsp)
	andb	$63, %al
	orb	$-128, %al
	movb	%al, 5(%rsp)
	movl	$2, %edx
	jmp	6f
4:
	cmpl	$65535, %eax
	ja	5f
	shrl	$12, %ecx
	orb	$-32, %cl
	movb	%cl, 4(%rsp)
	movl	%eax, %ecx
	shrl	$6, %ecx
	andb	$63, %cl
	orb	$-128, %cl
	movb	%cl, 5(%rsp)
	andb	$63, %al
	orb	$-128, %al
	movb	%al, 6(%rsp)
	movl	$3, %edx
	jmp	6f
5:
	shrl	$6, %ecx
	movl	%eax, %edx
	shrl	$12, %edx
	movd	%eax, %xmm0
	psrld	$18, %xmm0
	pinsrb	$1, %edx, %xmm0
	pinsrb	$2, %ecx, %xmm0
	pinsrb	$3, %eax, %xmm0
	pand	1b(%rip), %xmm0
	paddb	2b(%rip), %xmm0
	movd	%xmm0, 4(%rsp)
	movl	$4, %edx
6:
	cmpq	$0, 48(%rbx)
	jne	9f
	movq	8(%rbx), %r14
	movq	16(%rbx), %r15
	movq	%r15, %rax
	subq	%r14, %rax
	cmpq	%rax, %rdx
	ja	10f
7:
	movq	(%rbx), %r12
	leaq	(%r12,%r14), %rdi
	addq	%rdx, %r14
	leaq	4(%rsp), %rsi
	callq	memcpy@PLT
	movq	%r12, (%rbx)
	movq	%r14, 8(%rbx)
	movq	%r15, 16(%rbx)
	xorl	%eax, %eax
8:
	addq	$8, %rsp
	popq	%rbx
	popq	%r12
	popq	%r14
	popq	%r15
	retq
9:
	leaq	4(%rsp), %rsi
	movq	%rbx, %rdi
	callq	"core::fmt::formatter::Formatter::write_indented::<#0a7ff941e43d6b30>"
	jmp	8b
10:
	movq	%rbx, %rdi
	movq	%rdx, %r12
	movq	%rdx, %rsi
	callq	"std_alloc::vec::Vec::grow_amortized::<#1d775b5957dec42c>"
	movl	%eax, %ecx
	movb	$1, %al
	testb	%cl, %cl
	je	8b
	movq	8(%rbx), %r14
	movq	16(%rbx), %r15
	movq	%r12, %rdx
	jmp	7b
11:
	.size	"core::fmt::formatter::Formatter::write_piece::<#8b9b65c5604fc23d>", 11b-"core::fmt::formatter::Formatter::write_piece::<#8b9b65c5604fc23d>"

	.text
	.p2align	4
	.type	"core::fmt::formatter::Formatter::write_piece::<#fec9bc1a24fe1fcf>",@function
"core::fmt::formatter::Formatter::write_piece::<#fec9bc1a24fe1fcf>":
	pushq	%r15
	pushq	%r14
	pushq	%r13
	pushq	%r12
	pushq	%rbx
	subq	$32, %rsp
	movq	%rdi, %rbx
	movl	$32, 24(%rdi)
	movq	$0, 28(%rdi)
	movl	$0, 36(%rdi)
	movq	$-1, 40(%rdi)
	movq	(%rsi), %rcx
	movq	%rcx, %rdi
	negq	%rdi
	cmovsq	%rcx, %rdi
	xorps	%xmm0, %xmm0
	movaps	%xmm0, (%rsp)
	movq	$0, 16(%rsp)
	movl	$24, %esi
	cmpq	$100, %rdi
	jb	3f
	.p2align	4
1:
	movq	%rdi, %rax
	shrq	$2, %rax
	movabsq	$2951479051793528259, %rdx
	mulq	%rdx
	shrq	$2, %rdx
	imull	$100, %edx, %eax
	movl	%edi, %r8d
	subl	%eax, %r8d
	movzbl	%r8b, %eax
	imull	$205, %eax, %r8d
	shrl	$11, %r8d
	leal	(%r8,%r8), %r9d
	leal	(%r9,%r9,4), %r9d
	subb	%r9b, %al
	orb	$48, %al
	movb	%al, -1(%rsp,%rsi)
	orb	$48, %r8b
	movb	%r8b, -2(%rsp,%rsi)
	addq	$-2, %rsi
	cmpq	$9999, %rdi
	movq	%rdx, %rdi
	ja	1b
	cmpq	$10, %rdx
	jb	4f
2:
	movzbl	%dl, %eax
	imull	$205, %eax, %eax
	shrl	$11, %eax
	leal	(%rax,%rax), %edi
	leal	(%rdi,%rdi,4), %edi
	subb	%dil, %dl
	orb	$48, %dl
	movb	%dl, -1(%rsp,%rsi)
	orb	$48, %al
	movb	%al, -2(%rsp,%rsi)
	addq	$-2, %rsi
	jmp	5f
3:
	movq	%rdi, %rdx
	cmpq	$10, %rdx
	jae	2b
4:
	orb	$48, %dl
	movb	%dl, -1(%rsp,%rsi)
	decq	%rsi
5:
	leaq	-1(%rsi), %rax
	testq	%rcx, %rcx
	movb	$45, -1(%rsp,%rsi)
	cmovnsq	%rsi, %rax
	leaq	(%rsp,%rax), %rsi
	movl	$24, %edx
	subq	%rax, %rdx
	cmpq	$0, 48(%rbx)
	jne	8f
	movq	8(%rbx), %r14
	movq	16(%rbx), %r15
	movq	%r15, %rax
	subq	%r14, %rax
	cmpq	%rax, %rdx
	ja	9f
6:
	movq	(%rbx), %r12
	leaq	(%r12,%r14), %rdi
	addq	%rdx, %r14
	callq	memcpy@PLT
	movq	%r12, (%rbx)
	movq	%r14, 8(%rbx)
	movq	%r15, 16(%rbx)
	xorl	%eax, %eax
7:
	addq	$32, %rsp
	popq	%rbx
	popq	%r12
	popq	%r13
	popq	%r14
	popq	%r15
	retq
8:
	movq	%rbx, %rdi
	callq	"core::fmt::formatter::Formatter::write_indented::<#0a7ff941e43d6b30>"
	jmp	7b
9:
	movq	%rsi, %r12
	movq	%rbx, %rdi
	movq	%rdx, %r13
	movq	%rdx, %rsi
	callq	"std_alloc::vec::Vec::grow_amortized::<#1d775b5957dec42c>"
	movl	%eax, %ecx
	movb	$1, %al
	testb	%cl, %cl
	je	7b
	movq	8(%rbx), %r14
	movq	16(%rbx), %r15
	movq	%r13, %rdx
	movq	%r12, %rsi
	jmp	6b
10:
	.size	"core::fmt::formatter::Formatter::write_piece::<#fec9bc1a24fe1fcf>", 10b-"core::fmt::formatter::Formatter::write_piece::<#fec9bc1a24fe1fcf>"

	.text
	.p2align	4
	.type	"core::fmt::formatter::Formatter::write_quoted_in_runs::<#86a172efa8724158>",@function
"core::fmt::formatter::Formatter::write_quoted_in_runs::<#86a172efa8724158>":
	pushq	%rbp
	pushq	%r15
	pushq	%r14
	pushq	%r13
	pushq	%r12
	pushq	%rbx
	subq	$328, %rsp
	movq	%rdx, %r14
	movq	%rsi, %r15
	movq	%rdi, %rbx
	cmpq	$0, 48(%rdi)
	jne	49f
	leaq	.Lce444474aa36(%rip), %rsi
	movl	$1, %edx
	movq	%rbx, %rdi
	callq	"core::fmt::formatter::Formatter::write_raw::<#0a7ff941e43d6b30>"
	movb	$1, %bpl
	testb	%al, %al
	jne	48f
1:
	testq	%r14, %r14
	je	46f
	xorl	%r13d, %r13d
	movq	%r13, %r12
	jmp	6f
2:
	movq	%rbx, %rdi
	movl	%r12d, %esi
	callq	"core::fmt::formatter::Formatter::write_code_point::<#86a172efa8724158>"
3:
	testb	%al, %al
	jne	48f
4:
	incq	%r13
	movq	%r13, %r12
5:
	movq	%r12, %r13
	cmpq	%r14, %r12
	jae	46f
	.p2align	4
6:
	movzbl	(%r15,%r12), %eax
	leal	-32(%rax), %ecx
	cmpb	$94, %cl
	ja	7f
	cmpl	$34, %eax
	je	7f
	cmpl	$92, %eax
	je	7f
	incq	%r12
	cmpq	%r12, %r14
	jne	6b
	movq	%r14, %r12
7:
	leaq	(%r15,%r13), %rsi
	movq	%r12, %rdx
	subq	%r13, %rdx
	jbe	8f
	cmpq	$0, 48(%rbx)
	jne	19f
	movq	%rbx, %rdi
	callq	"core::fmt::formatter::Formatter::write_raw::<#0a7ff941e43d6b30>"
	testb	%al, %al
	je	5b
	jmp	48f
8:
	movzbl	(%rsi), %r12d
	cmpb	$-64, %r12b
	jl	4b
	testb	%r12b, %r12b
	js	11f
9:
	pxor	%xmm0, %xmm0
	movdqa	%xmm0, 304(%rsp)
	movdqa	%xmm0, 288(%rsp)
	movdqa	%xmm0, 272(%rsp)
	movdqa	%xmm0, 256(%rsp)
	cmpl	$34, %r12d
	ja	17f
	movl	%r12d, %eax
	leaq	52f(%rip), %rcx
	movslq	(%rcx,%rax,4), %rax
	addq	%rcx, %rax
	jmpq	*%rax
10:
	movl	$48, %r12d
	jmp	23f
11:
	leaq	1(%r13), %rax
	cmpq	%rax, %r14
	jbe	12f
	movzbl	(%r15,%rax), %eax
	testb	%al, %al
	jns	12f
	movzbl	%al, %ecx
	cmpb	$-64, %al
	movl	$192, %eax
	cmovbl	%ecx, %eax
	movl	%eax, %ecx
	andb	$127, %cl
	cmpb	$64, %cl
	jne	29f
12:
	pxor	%xmm0, %xmm0
	movdqa	%xmm0, 304(%rsp)
	movdqa	%xmm0, 288(%rsp)
	movdqa	%xmm0, 272(%rsp)
	movdqa	%xmm0, 256(%rsp)
	movl	$-1, %r12d
13:
	leal	-210042(%r12), %edx
	pcmpeqd	%xmm0, %xmm0
	movdqa	%xmm0, (%rsp)
	movabsq	$-32370726145097729, %rax
	movq	%rax, 16(%rsp)
	movabsq	$-72340172838010881, %rax
	addq	$16777216, %rax
	movq	%rax, 24(%rsp)
	movq	$-184, 32(%rsp)
	movq	%rsp, %rdi
	movl	$5, %esi
14:
	callq	"core::fmt::unicode::is_in_odd_run"
	testb	%al, %al
	jne	2b
15:
	pxor	%xmm0, %xmm0
	movdqa	%xmm0, 304(%rsp)
	movdqa	%xmm0, 288(%rsp)
	movdqa	%xmm0, 272(%rsp)
	movdqa	%xmm0, 256(%rsp)
	movl	%r12d, %eax
	movl	$64, %ecx
	.p2align	4
16:
	testq	%rcx, %rcx
	je	24f
	movl	%eax, %edx
	andl	$15, %edx
	leal	48(%rdx), %esi
	leal	87(%rdx), %edi
	cmpq	$10, %rdx
	movzbl	%sil, %edx
	movzbl	%dil, %esi
	cmovbl	%edx, %esi
	movb	%sil, 255(%rsp,%rcx)
	movq	%rax, %rdx
	shrq	$4, %rdx
	je	25f
	andl	$15, %edx
	leal	48(%rdx), %esi
	leal	87(%rdx), %edi
	cmpq	$10, %rdx
	movzbl	%sil, %edx
	movzbl	%dil, %esi
	cmovbl	%edx, %esi
	leaq	-2(%rcx), %r12
	movb	%sil, 254(%rsp,%rcx)
	shrq	$8, %rax
	movq	%r12, %rcx
	jne	16b
	jmp	26f
17:
	cmpl	$92, %r12d
	je	23f
18:
	cmpl	$210042, %r12d
	jae	13b
	cmpl	$125279, %r12d
	jbe	31f
	leal	-125280(%r12), %edx
	movabsq	$-4450317001428107522, %rax
	movq	%rax, (%rsp)
	movabsq	$144397771171102977, %rax
	leaq	1572867(%rax), %rcx
	movq	%rcx, 8(%rsp)
	movabsq	$72340185723175175, %rcx
	leaq	393210(%rcx), %rsi
	movq	%rsi, 16(%rsp)
	movabsq	$72340172838076673, %rsi
	leaq	50332928(%rsi), %rdi
	movq	%rdi, 24(%rsp)
	movq	%rax, 32(%rsp)
	movq	%rsi, 40(%rsp)
	movabsq	$73185697279901953, %rax
	movq	%rax, 48(%rsp)
	movq	%rcx, 56(%rsp)
	movabsq	$73466081403011338, %rax
	movq	%rax, 64(%rsp)
	movabsq	$7206933755192292369, %rax
	movq	%rax, 72(%rsp)
	movabsq	$2666428951601221388, %rax
	movq	%rax, 80(%rsp)
	movabsq	$649692681084579594, %rax
	movq	%rax, 88(%rsp)
	movabsq	$-72340606511349241, %rax
	movq	%rax, 96(%rsp)
	movabsq	$350158225448960736, %rax
	movq	%rax, 104(%rsp)
	movabsq	$435169350674809868, %rax
	movq	%rax, 112(%rsp)
	movabsq	$1009373716106053672, %rax
	movq	%rax, 120(%rsp)
	movabsq	$937327101495617289, %rax
	movq	%rax, 128(%rsp)
	movabsq	$937050001580836611, %rax
	movq	%rax, 136(%rsp)
	movabsq	$-72507287532139517, %rax
	movq	%rax, 144(%rsp)
	movq	$-15859970, 152(%rsp)
	movq	$-1, 160(%rsp)
	movabsq	$-72057594037927937, %rax
	movq	%rax, 168(%rsp)
	movabsq	$-62789814839214338, %rax
	movq	%rax, 176(%rsp)
	movabsq	$-72339073290600705, %rax
	movq	%rax, 184(%rsp)
	movabsq	$-278610250367234, %rax
	movq	%rax, 192(%rsp)
	movabsq	$1097751305348120319, %rax
	movq	%rax, 200(%rsp)
	movabsq	$-72439128876974338, %rax
	movq	%rax, 208(%rsp)
	movabsq	$-5349128380940766, %rax
	movq	%rax, 216(%rsp)
	movabsq	$-275625248096513, %rax
	movq	%rax, 224(%rsp)
	movabsq	$-3540058113, %rax
	movq	%rax, 232(%rsp)
	movq	%rsp, %rdi
	movl	$30, %esi
	jmp	14b
19:
	movq	%rbx, %rdi
	callq	"core::fmt::formatter::Formatter::write_indented::<#0a7ff941e43d6b30>"
	testb	%al, %al
	je	5b
	jmp	48f
20:
	movl	$114, %r12d
	jmp	23f
21:
	movl	$116, %r12d
	jmp	23f
22:
	movl	$110, %r12d
23:
	cmpq	$0, 48(%rbx)
	jne	30f
	leaq	.L96ff05348ebf(%rip), %rsi
	movl	$1, %edx
	movq	%rbx, %rdi
	callq	"core::fmt::formatter::Formatter::write_raw::<#0a7ff941e43d6b30>"
	testb	%al, %al
	je	2b
	jmp	48f
24:
	xorl	%r12d, %r12d
	jmp	26f
25:
	decq	%rcx
	movq	%rcx, %r12
26:
	cmpq	$0, 48(%rbx)
	jne	33f
	leaq	.L27dbf9885ebd(%rip), %rsi
	movl	$3, %edx
	movq	%rbx, %rdi
	callq	"core::fmt::formatter::Formatter::write_raw::<#0a7ff941e43d6b30>"
27:
	xorl	%ecx, %ecx
	movl	$64, %edx
	subq	%r12, %rdx
	cmovbq	%rcx, %rdx
	cmpq	$65, %r12
	cmovbq	%r12, %rcx
	testb	%al, %al
	jne	48f
	cmpq	$63, %r12
	ja	28f
	leaq	(%rsp,%rcx), %rsi
	addq	$256, %rsi
	cmpq	$0, 48(%rbx)
	jne	36f
	movq	%rbx, %rdi
	callq	"core::fmt::formatter::Formatter::write_raw::<#0a7ff941e43d6b30>"
	testb	%al, %al
	jne	48f
28:
	cmpq	$0, 48(%rbx)
	jne	35f
	leaq	.Lf989c82a9506(%rip), %rsi
	movl	$1, %edx
	movq	%rbx, %rdi
	callq	"core::fmt::formatter::Formatter::write_raw::<#0a7ff941e43d6b30>"
	jmp	3b
29:
	andl	$127, %eax
	cmpb	$-33, %r12b
	ja	32f
	andl	$31, %r12d
	shll	$6, %r12d
	leal	(%r12,%rax), %ecx
	addl	$-128, %ecx
	cmpl	$1920, %ecx
	jae	12b
	addl	%eax, %r12d
	jmp	9b
30:
	leaq	.L96ff05348ebf(%rip), %rsi
	movl	$1, %edx
	movq	%rbx, %rdi
	callq	"core::fmt::formatter::Formatter::write_indented::<#0a7ff941e43d6b30>"
	testb	%al, %al
	je	2b
	jmp	48f
31:
	cmpl	$93881, %r12d
	jb	34f
	leal	-93881(%r12), %edx
	movabsq	$939906542624053506, %rax
	movq	%rax, (%rsp)
	movabsq	$-1060772117440, %rax
	movq	%rax, 8(%rsp)
	movabsq	$6855082144465616638, %rax
	movq	%rax, 16(%rsp)
	movabsq	$3679046166575451507, %rax
	movq	%rax, 24(%rsp)
	movabsq	$-72340172838010881, %rcx
	movq	%rcx, 32(%rsp)
	movabsq	$72621673584798206, %rax
	movq	%rax, 40(%rsp)
	movabsq	$72623967097662462, %rax
	movq	%rax, 48(%rsp)
	movabsq	$504121197924386062, %rax
	movq	%rax, 56(%rsp)
	movabsq	$146937673130247531, %rax
	movq	%rax, 64(%rsp)
	leaq	66050(%rcx), %rax
	movq	%rax, 72(%rsp)
	movabsq	$-5260762927698346242, %rax
	movq	%rax, 80(%rsp)
	movabsq	$8381798174783772422, %rax
	movq	%rax, 88(%rsp)
	movabsq	$217646136939968060, %rax
	movq	%rax, 96(%rsp)
	movabsq	$73064764372615702, %rax
	movq	%rax, 104(%rsp)
	movabsq	$1459201467968784397, %rax
	movq	%rax, 112(%rsp)
	movabsq	$6162922142985622540, %rax
	movq	%rax, 120(%rsp)
	movabsq	$144679246164477697, %rax
	movq	%rax, 128(%rsp)
	movabsq	$504685737250194434, %rax
	movq	%rax, 136(%rsp)
	movabsq	$504693437992354049, %rax
	movq	%rax, 144(%rsp)
	movabsq	$72344570934926337, %rax
	movq	%rax, 152(%rsp)
	movabsq	$2809684694961030915, %rax
	movq	%rax, 160(%rsp)
	movabsq	$590539136331349506, %rax
	movq	%rax, 168(%rsp)
	movabsq	$-72588159820427775, %rax
	movq	%rax, 176(%rsp)
	movabsq	$3473179141568915966, %rax
	movq	%rax, 184(%rsp)
	movabsq	$291047355177603646, %rax
	movq	%rax, 192(%rsp)
	movabsq	$721750296614862338, %rax
	movq	%rax, 200(%rsp)
	movabsq	$-3023599677980409595, %rax
	movq	%rax, 208(%rsp)
	movabsq	$80994428911288862, %rax
	movq	%rax, 216(%rsp)
	movabsq	$649927950329839875, %rax
	movq	%rax, 224(%rsp)
	movabsq	$72621660700139522, %rax
	movq	%rax, 232(%rsp)
	movabsq	$523596271941124367, %rax
	movq	%rax, 240(%rsp)
	movabsq	$-1090853927935, %rax
	jmp	38f
32:
	leaq	2(%r13), %rcx
	cmpq	%rcx, %r14
	jbe	12b
	movzbl	(%r15,%rcx), %ecx
	testb	%cl, %cl
	jns	12b
	movzbl	%cl, %edx
	cmpb	$-64, %cl
	movl	$192, %ecx
	cmovbl	%edx, %ecx
	movl	%ecx, %edx
	andb	$127, %dl
	cmpb	$64, %dl
	je	12b
	andl	$127, %ecx
	cmpb	$-17, %r12b
	ja	42f
	shll	$12, %r12d
	movzwl	%r12w, %r12d
	shll	$6, %eax
	addl	%ecx, %r12d
	addl	%eax, %r12d
	leal	-57344(%r12), %eax
	cmpl	$-2048, %eax
	setb	%al
	movl	%r12d, %ecx
	addl	$-2048, %ecx
	cmpl	$63488, %ecx
	setb	%cl
	testb	%cl, %al
	jne	9b
	jmp	12b
33:
	leaq	.L27dbf9885ebd(%rip), %rsi
	movl	$3, %edx
	movq	%rbx, %rdi
	callq	"core::fmt::formatter::Formatter::write_indented::<#0a7ff941e43d6b30>"
	jmp	27b
34:
	cmpl	$71132, %r12d
	jb	37f
	leal	-71132(%r12), %edx
	movabsq	$288794429945819940, %rax
	movq	%rax, (%rsp)
	movabsq	$72386429837511179, %rax
	movq	%rax, 8(%rsp)
	movabsq	$1442851751538983425, %rax
	movq	%rax, 16(%rsp)
	movabsq	$73185697279901953, %rax
	addq	$72219, %rax
	movq	%rax, 24(%rsp)
	movabsq	$72621682958341897, %rax
	movq	%rax, 32(%rsp)
	movabsq	$577024810493432676, %rax
	movq	%rax, 40(%rsp)
	movabsq	$144402165308391937, %rax
	movq	%rax, 48(%rsp)
	movabsq	$596175034494551046, %rax
	movq	%rax, 56(%rsp)
	movabsq	$79661820818237954, %rax
	movq	%rax, 64(%rsp)
	movabsq	$74599682135173130, %rax
	movq	%rax, 72(%rsp)
	movabsq	$649082452412924422, %rax
	movq	%rax, 80(%rsp)
	movabsq	$72903488031901965, %rax
	movq	%rax, 88(%rsp)
	movabsq	$650218252023628033, %rax
	movq	%rax, 96(%rsp)
	movabsq	$2092491578249455105, %rax
	movq	%rax, 104(%rsp)
	movabsq	$72621673584798206, %rax
	addq	$1373701, %rax
	movq	%rax, 112(%rsp)
	movabsq	$78010354319296331, %rax
	movq	%rax, 120(%rsp)
	movabsq	$2666414657799326217, %rax
	movq	%rax, 128(%rsp)
	movabsq	$722547369039692292, %rax
	movq	%rax, 136(%rsp)
	movabsq	$1436086460922211334, %rax
	movq	%rax, 144(%rsp)
	movabsq	$146406574855357442, %rax
	movq	%rax, 152(%rsp)
	movabsq	$-140400973350299901, %rax
	movq	%rax, 160(%rsp)
	movabsq	$-140659429897797890, %rax
	movq	%rax, 168(%rsp)
	movabsq	$-72605824937164999, %rax
	movq	%rax, 176(%rsp)
	movabsq	$-72311555165192450, %rax
	movq	%rax, 184(%rsp)
	movabsq	$408137612407013118, %rax
	movq	%rax, 192(%rsp)
	movabsq	$-72339069026435330, %rax
	movq	%rax, 200(%rsp)
	movabsq	$-72609535939043651, %rax
	movq	%rax, 208(%rsp)
	movabsq	$4467288062572822270, %rax
	movq	%rax, 216(%rsp)
	movabsq	$720946493145554695, %rax
	movq	%rax, 224(%rsp)
	movabsq	$1082887054930943494, %rax
	movq	%rax, 232(%rsp)
	movabsq	$1370524755760843274, %rax
	movq	%rax, 240(%rsp)
	movabsq	$-65014827894263042, %rax
	jmp	38f
35:
	leaq	.Lf989c82a9506(%rip), %rsi
	movl	$1, %edx
	movq	%rbx, %rdi
	callq	"core::fmt::formatter::Formatter::write_indented::<#0a7ff941e43d6b30>"
	jmp	3b
36:
	movq	%rbx, %rdi
	callq	"core::fmt::formatter::Formatter::write_indented::<#0a7ff941e43d6b30>"
	testb	%al, %al
	je	28b
	jmp	48f
37:
	cmpl	$67641, %r12d
	jb	39f
	leal	-67641(%r12), %edx
	movabsq	$650849315673211139, %rax
	movq	%rax, (%rsp)
	movabsq	$1946435769346364208, %rax
	movq	%rax, 8(%rsp)
	movabsq	$3387291878090480389, %rax
	movq	%rax, 16(%rsp)
	movabsq	$651364986291029007, %rax
	movq	%rax, 24(%rsp)
	movabsq	$866420798758783239, %rax
	movq	%rax, 32(%rsp)
	movabsq	$1874934515760313865, %rax
	movq	%rax, 40(%rsp)
	movabsq	$3690499027717850119, %rax
	movq	%rax, 48(%rsp)
	movabsq	$2739888470662525709, %rax
	movq	%rax, 56(%rsp)
	movabsq	$3026735402817427464, %rax
	movq	%rax, 64(%rsp)
	movabsq	$144403328875495683, %rax
	movq	%rax, 72(%rsp)
	movabsq	$651638795372928773, %rax
	movq	%rax, 80(%rsp)
	movabsq	$1662985112008266262, %rax
	movq	%rax, 88(%rsp)
	movabsq	$2162861482956620041, %rax
	movq	%rax, 96(%rsp)
	movabsq	$145295015608975873, %rax
	movq	%rax, 104(%rsp)
	movabsq	$722573813203665410, %rax
	movq	%rax, 112(%rsp)
	movabsq	$2524287421022282761, %rax
	movq	%rax, 120(%rsp)
	movabsq	$576743366319604481, %rax
	movq	%rax, 128(%rsp)
	movabsq	$1300154912222544388, %rax
	movq	%rax, 136(%rsp)
	movabsq	$144403277335960577, %rax
	movq	%rax, 144(%rsp)
	movabsq	$1081149787903952703, %rax
	movq	%rax, 152(%rsp)
	movabsq	$724238418695293697, %rax
	movq	%rax, 160(%rsp)
	movabsq	$1585832226535309832, %rax
	movq	%rax, 168(%rsp)
	movabsq	$72907520854787841, %rax
	movq	%rax, 176(%rsp)
	movabsq	$144680345709641985, %rax
	movq	%rax, 184(%rsp)
	movabsq	$72350184508227843, %rax
	movq	%rax, 192(%rsp)
	movabsq	$144397767496761602, %rax
	movq	%rax, 200(%rsp)
	movabsq	$216455369520644367, %rax
	movq	%rax, 208(%rsp)
	movabsq	$72904253293134337, %rax
	movq	%rax, 216(%rsp)
	movabsq	$3467212065968559361, %rax
	movq	%rax, 224(%rsp)
	movabsq	$72341272350032385, %rax
	movq	%rax, 232(%rsp)
	movabsq	$3433442795459838210, %rax
	movq	%rax, 240(%rsp)
	movabsq	$1946119097146540545, %rax
38:
	movq	%rax, 248(%rsp)
	movq	%rsp, %rdi
	movl	$32, %esi
	jmp	14b
39:
	cmpl	$43066, %r12d
	jb	40f
	leal	-43066(%r12), %edi
	callq	"core::fmt::unicode::from_a83a"
	jmp	44f
40:
	cmpl	$6431, %r12d
	jb	41f
	leal	-6431(%r12), %edi
	callq	"core::fmt::unicode::from_191f"
	jmp	44f
41:
	cmpl	$3130, %r12d
	jb	43f
	leal	-3130(%r12), %edi
	callq	"core::fmt::unicode::from_c3a"
	jmp	44f
42:
	leaq	3(%r13), %rdx
	cmpq	%rdx, %r14
	jbe	12b
	movzbl	(%r15,%rdx), %edx
	testb	%dl, %dl
	jns	12b
	movzbl	%dl, %esi
	cmpb	$-64, %dl
	movl	$192, %edx
	cmovbl	%esi, %edx
	cmpb	$-9, %r12b
	ja	12b
	andb	$127, %dl
	cmpb	$64, %dl
	je	12b
	movzbl	%dl, %edx
	andl	$7, %r12d
	shll	$18, %r12d
	shll	$12, %eax
	addl	%r12d, %eax
	shll	$6, %ecx
	addl	%edx, %ecx
	addl	%eax, %ecx
	cmpl	$55296, %ecx
	setb	%al
	leal	-57344(%rcx), %edx
	cmpl	$1056768, %edx
	setb	%dl
	orb	%al, %dl
	cmpl	$65536, %ecx
	setae	%al
	movl	%ecx, %r12d
	testb	%al, %dl
	jne	9b
	jmp	12b
43:
	cmpl	$128, %r12d
	jb	45f
	leal	-128(%r12), %edi
	callq	"core::fmt::unicode::from_80"
44:
	testb	%al, %al
	je	2b
	jmp	15b
45:
	cmpl	$32, %r12d
	setb	%al
	cmpl	$127, %r12d
	sete	%cl
	orb	%al, %cl
	je	2b
	jmp	15b
46:
	cmpq	$0, 48(%rbx)
	jne	50f
	leaq	.Lce444474aa36(%rip), %rsi
	movl	$1, %edx
	movq	%rbx, %rdi
	callq	"core::fmt::formatter::Formatter::write_raw::<#0a7ff941e43d6b30>"
47:
	movl	%eax, %ebp
48:
	movl	%ebp, %eax
	addq	$328, %rsp
	popq	%rbx
	popq	%r12
	popq	%r13
	popq	%r14
	popq	%r15
	popq	%rbp
	retq
49:
	leaq	.Lce444474aa36(%rip), %rsi
	movl	$1, %edx
	movq	%rbx, %rdi
	callq	"core::fmt::formatter::Formatter::write_indented::<#0a7ff941e43d6b30>"
	movb	$1, %bpl
	testb	%al, %al
	je	1b
	jmp	48b
50:
	leaq	.Lce444474aa36(%rip), %rsi
	movl	$1, %edx
	movq	%rbx, %rdi
	callq	"core::fmt::formatter::Formatter::write_indented::<#0a7ff941e43d6b30>"
	jmp	47b
51:
	.size	"core::fmt::formatter::Formatter::write_quoted_in_runs::<#86a172efa8724158>", 51b-"core::fmt::formatter::Formatter::write_quoted_in_runs::<#86a172efa8724158>"
	.section	.rodata,"a",@progbits
	.p2align	2, 0x0
52:
	.long	10b-52b
	.long	18b-52b
	.long	18b-52b
	.long	18b-52b
	.long	18b-52b
	.long	18b-52b
	.long	18b-52b
	.long	18b-52b
	.long	18b-52b
	.long	21b-52b
	.long	22b-52b
	.long	18b-52b
	.long	18b-52b
	.long	20b-52b
	.long	18b-52b
	.long	18b-52b
	.long	18b-52b
	.long	18b-52b
	.long	18b-52b
	.long	18b-52b
	.long	18b-52b
	.long	18b-52b
	.long	18b-52b
	.long	18b-52b
	.long	18b-52b
	.long	18b-52b
	.long	18b-52b
	.long	18b-52b
	.long	18b-52b
	.long	18b-52b
	.long	18b-52b
	.long	18b-52b
	.long	18b-52b
	.long	18b-52b
	.long	23b-52b

	.text
	.p2align	4
	.type	"core::fmt::formatter::Formatter::write_raw::<#0a7ff941e43d6b30>",@function
"core::fmt::formatter::Formatter::write_raw::<#0a7ff941e43d6b30>":
	testq	%rdx, %rdx
	je	5f
	xorl	%ecx, %ecx
	jmp	2f
	.p2align	4
1:
	addq	%r10, %rcx
	cmpq	%rdx, %rcx
	jae	5f
2:
	movzbl	(%rsi,%rcx), %r8d
	movl	$1, %r10d
	testb	%r8b, %r8b
	jns	1b
	leaq	1(%rcx), %r9
	movb	$1, %al
	cmpq	%r9, %rdx
	jbe	4f
	movzbl	(%rsi,%r9), %r9d
	testb	%r9b, %r9b
	jns	4f
	movzbl	%r9b, %r10d
	cmpb	$-64, %r9b
	movl	$192, %r9d
	cmovbl	%r10d, %r9d
	cmpb	$-62, %r8b
	jb	4f
	movl	%r9d, %r10d
	andb	$127, %r10b
	cmpb	$63, %r10b
	ja	4f
	movl	$2, %r10d
	cmpb	$-32, %r8b
	jb	1b
	leaq	2(%rcx), %r10
	cmpq	%r10, %rdx
	jbe	4f
	cmpb	$-65, (%rsi,%r10)
	jg	4f
	andl	$127, %r9d
	cmpb	$-17, %r8b
	ja	3f
	movl	%r8d, %r10d
	shll	$12, %r10d
	shll	$6, %r9d
	addl	%r10d, %r9d
	addl	$-917504, %r9d
	cmpl	$2048, %r9d
	jb	4f
	movl	$3, %r10d
	cmpl	$55296, %r9d
	jb	1b
	cmpb	$-18, %r8b
	jae	1b
	jmp	4f
3:
	leaq	3(%rcx), %r10
	cmpq	%r10, %rdx
	jbe	4f
	cmpb	$-65, (%rsi,%r10)
	jg	4f
	shll	$18, %r8d
	shll	$12, %r9d
	addl	%r9d, %r8d
	addl	$-62980096, %r8d
	movl	$4, %r10d
	cmpl	$1048575, %r8d
	jbe	1b
4:
	retq
5:
	pushq	%r15
	pushq	%r14
	pushq	%r12
	pushq	%rbx
	pushq	%rax
	movq	8(%rdi), %rcx
	movq	16(%rdi), %rbx
	movq	%rbx, %rax
	subq	%rcx, %rax
	cmpq	%rax, %rdx
	ja	20f
6:
	leaq	8(%rdi), %rax
	leaq	(%rcx,%rdx), %r14
	movq	(%rdi), %r15
	xorps	%xmm0, %xmm0
	movups	%xmm0, (%rax)
	leaq	(%r15,%rcx), %rax
	movq	%rax, %r8
	subq	%rsi, %r8
	cmpq	%rdx, %r8
	jae	12f
	cmpq	$4, %rdx
	jb	7f
	cmpq	$32, %r8
	jae	15f
7:
	xorl	%r8d, %r8d
8:
	movq	%rdx, %r10
	movq	%r8, %r9
	andq	$3, %r10
	je	10f
	movq	%r8, %r9
	.p2align	4
9:
	movzbl	(%rsi,%r9), %r11d
	movb	%r11b, (%rax,%r9)
	incq	%r9
	decq	%r10
	jne	9b
10:
	subq	%rdx, %r8
	cmpq	$-4, %r8
	ja	13f
	leaq	(%rcx,%r15), %rax
	addq	$3, %rax
	.p2align	4
11:
	movzbl	(%rsi,%r9), %ecx
	movb	%cl, -3(%rax,%r9)
	movzbl	1(%rsi,%r9), %ecx
	movb	%cl, -2(%rax,%r9)
	movzbl	2(%rsi,%r9), %ecx
	movb	%cl, -1(%rax,%r9)
	movzbl	3(%rsi,%r9), %ecx
	movb	%cl, (%rax,%r9)
	addq	$4, %r9
	cmpq	%r9, %rdx
	jne	11b
	jmp	13f
12:
	movq	%rdi, %r12
	movq	%rax, %rdi
	callq	memmove@PLT
	movq	%r12, %rdi
13:
	movq	%r15, (%rdi)
	movq	%r14, 8(%rdi)
	movq	%rbx, 16(%rdi)
	xorl	%eax, %eax
14:
	addq	$8, %rsp
	popq	%rbx
	popq	%r12
	popq	%r14
	popq	%r15
	retq
15:
	cmpq	$32, %rdx
	jae	16f
	xorl	%r8d, %r8d
	jmp	18f
16:
	movq	%rdx, %r8
	andq	$-32, %r8
	leaq	(%rcx,%r15), %r9
	addq	$16, %r9
	xorl	%r10d, %r10d
	.p2align	4
17:
	movups	(%rsi,%r10), %xmm0
	movups	16(%rsi,%r10), %xmm1
	movups	%xmm0, -16(%r9,%r10)
	movups	%xmm1, (%r9,%r10)
	addq	$32, %r10
	cmpq	%r10, %r8
	jne	17b
	cmpq	%r8, %rdx
	je	13b
	testb	$28, %dl
	je	8b
18:
	movq	%r8, %r9
	movq	%rdx, %r8
	andq	$-4, %r8
	.p2align	4
19:
	movl	(%rsi,%r9), %r10d
	movl	%r10d, (%rax,%r9)
	addq	$4, %r9
	cmpq	%r9, %r8
	jne	19b
	cmpq	%r8, %rdx
	je	13b
	jmp	8b
20:
	movq	%rdi, %rbx
	movq	%rsi, %r14
	movq	%rdx, %rsi
	movq	%rdx, %r15
	callq	"std_alloc::vec::Vec::grow_amortized::<#1d775b5957dec42c>"
	movl	%eax, %ecx
	movb	$1, %al
	testb	%cl, %cl
	je	14b
	movq	%r14, %rsi
	movq	%r15, %rdx
	movq	%rbx, %rdi
	movq	8(%rbx), %rcx
	movq	16(%rbx), %rbx
	jmp	6b
21:
	.size	"core::fmt::formatter::Formatter::write_raw::<#0a7ff941e43d6b30>", 21b-"core::fmt::formatter::Formatter::write_raw::<#0a7ff941e43d6b30>"

	.text
	.p2align	4
	.type	"core::fmt::formatter::Formatter::write_raw::<#bf264aed5fa78656>",@function
"core::fmt::formatter::Formatter::write_raw::<#bf264aed5fa78656>":
	testq	%rdx, %rdx
	je	4f
	pushq	%rbp
	pushq	%r15
	pushq	%r14
	pushq	%r12
	pushq	%rbx
	movq	%rdx, %rbx
	movq	%rsi, %r14
	movq	%rdi, %r15
	xorl	%ecx, %ecx
	jmp	2f
	.p2align	4
1:
	addq	%rdi, %rcx
	cmpq	%rbx, %rcx
	jae	5f
2:
	movzbl	(%r14,%rcx), %edx
	movl	$1, %edi
	testb	%dl, %dl
	jns	1b
	leaq	1(%rcx), %rsi
	movb	$1, %al
	cmpq	%rsi, %rbx
	jbe	9f
	movzbl	(%r14,%rsi), %esi
	testb	%sil, %sil
	jns	9f
	movzbl	%sil, %edi
	cmpb	$-64, %sil
	movl	$192, %esi
	cmovbl	%edi, %esi
	cmpb	$-62, %dl
	jb	9f
	movl	%esi, %edi
	andb	$127, %dil
	cmpb	$63, %dil
	ja	9f
	movl	$2, %edi
	cmpb	$-32, %dl
	jb	1b
	leaq	2(%rcx), %rdi
	cmpq	%rdi, %rbx
	jbe	9f
	cmpb	$-65, (%r14,%rdi)
	jg	9f
	andl	$127, %esi
	cmpb	$-17, %dl
	ja	3f
	movl	%edx, %edi
	shll	$12, %edi
	shll	$6, %esi
	addl	%edi, %esi
	addl	$-917504, %esi
	cmpl	$2048, %esi
	jb	9f
	movl	$3, %edi
	cmpl	$55296, %esi
	jb	1b
	cmpb	$-18, %dl
	jae	1b
	jmp	9f
3:
	leaq	3(%rcx), %rdi
	cmpq	%rdi, %rbx
	jbe	9f
	cmpb	$-65, (%r14,%rdi)
	jg	9f
	shll	$18, %edx
	shll	$12, %esi
	addl	%esi, %edx
	addl	$-62980096, %edx
	movl	$4, %edi
	cmpl	$1048575, %edx
	jbe	1b
	jmp	9f
4:
	xorl	%eax, %eax
	retq
5:
	movq	1032(%r15), %rcx
	xorl	%r12d, %r12d
	jmp	7f
	.p2align	4
6:
	movb	%bpl, 4(%r15,%rcx)
	incq	%rcx
	movq	%rcx, 1032(%r15)
	incq	%r12
	cmpq	%r12, %rbx
	je	8f
7:
	movzbl	(%r14,%r12), %ebp
	cmpq	$1024, %rcx
	jb	6b
	movq	%r15, %rdi
	callq	"std_io::io::buffer::Buffer::flush"
	movl	%eax, %ecx
	movb	$1, %al
	testb	%cl, %cl
	je	9f
	movq	1032(%r15), %rcx
	cmpq	$1023, %rcx
	jbe	6b
	jmp	9f
8:
	xorl	%eax, %eax
9:
	popq	%rbx
	popq	%r12
	popq	%r14
	popq	%r15
	popq	%rbp
	retq
10:
	.size	"core::fmt::formatter::Formatter::write_raw::<#bf264aed5fa78656>", 10b-"core::fmt::formatter::Formatter::write_raw::<#bf264aed5fa78656>"

	.text
	.p2align	4
	.type	"core::fmt::unicode::from_191f",@function
"core::fmt::unicode::from_191f":
	subq	$264, %rsp
	movl	%edi, %edx
	movabsq	$432629255457866756, %rax
	movq	%rax, 8(%rsp)
	movabsq	$3173635869265559815, %rax
	movq	%rax, 16(%rsp)
	movabsq	$144740823261911556, %rax
	movq	%rax, 24(%rsp)
	movabsq	$144397801235757059, %rax
	movq	%rax, 32(%rsp)
	movabsq	$1010506187445962248, %rax
	movq	%rax, 40(%rsp)
	movabsq	$2089960511122321494, %rax
	movq	%rax, 48(%rsp)
	movabsq	$4036916332724358153, %rax
	movq	%rax, 56(%rsp)
	movabsq	$3462424792374837505, %rax
	movq	%rax, 64(%rsp)
	movabsq	$3099952101372264968, %rax
	movq	%rax, 72(%rsp)
	movabsq	$290201856352389890, %rax
	movq	%rax, 80(%rsp)
	movabsq	$-4610277535391873535, %rax
	movq	%rax, 88(%rsp)
	movabsq	$154813462019112512, %rax
	movq	%rax, 96(%rsp)
	movabsq	$72340172838535686, %rax
	movq	%rax, 104(%rsp)
	movabsq	$76281045869068545, %rax
	movq	%rax, 112(%rsp)
	movabsq	$72904299612865038, %rax
	movq	%rax, 120(%rsp)
	movabsq	$144697031726207241, %rax
	movq	%rax, 128(%rsp)
	movabsq	$1630020482106145617, %rax
	movq	%rax, 136(%rsp)
	movabsq	$-72340172838136565, %rax
	movq	%rax, 144(%rsp)
	movabsq	$360854751220474622, %rax
	movq	%rax, 152(%rsp)
	movabsq	$520167960363467053, %rax
	movq	%rax, 160(%rsp)
	movabsq	$74029048468537607, %rax
	leaq	135269883(%rax), %rcx
	movq	%rcx, 168(%rsp)
	movq	%rax, 176(%rsp)
	movabsq	$2018741136273113351, %rax
	movq	%rax, 184(%rsp)
	movabsq	$76590700297781530, %rax
	movq	%rax, 192(%rsp)
	movabsq	$388721710268941865, %rax
	movq	%rax, 200(%rsp)
	movabsq	$85578657914814763, %rax
	movq	%rax, 208(%rsp)
	movq	$-1, 216(%rsp)
	movabsq	$-72339069014638593, %rax
	movq	%rax, 224(%rsp)
	movabsq	$3392440864486130545, %rax
	movq	%rax, 232(%rsp)
	movabsq	$432996484238672132, %rax
	movq	%rax, 240(%rsp)
	movabsq	$216473008934805000, %rax
	movq	%rax, 248(%rsp)
	movabsq	$721707346853692417, %rax
	movq	%rax, 256(%rsp)
	leaq	8(%rsp), %rdi
	movl	$32, %esi
	callq	"core::fmt::unicode::is_in_odd_run"
	xorb	$1, %al
	addq	$264, %rsp
	retq
1:
	.size	"core::fmt::unicode::from_191f", 1b-"core::fmt::unicode::from_191f"

	.text
	.p2align	4
	.type	"core::fmt::unicode::from_80",@function
"core::fmt::unicode::from_80":
	subq	$264, %rsp
	movl	%edi, %edx
	movabsq	$608081602878180385, %rax
	movq	%rax, 8(%rsp)
	movabsq	$1441434459659568642, %rax
	movq	%rax, 16(%rsp)
	movabsq	$4035548529623031809, %rax
	movq	%rax, 24(%rsp)
	movabsq	$72621652109754670, %rax
	movq	%rax, 32(%rsp)
	movabsq	$75164887013399305, %rax
	movq	%rax, 40(%rsp)
	movabsq	$74420449090809345, %rax
	movq	%rax, 48(%rsp)
	movabsq	$72655745560216070, %rax
	movq	%rax, 56(%rsp)
	movabsq	$3102418341556198913, %rax
	movq	%rax, 64(%rsp)
	movabsq	$74591985922672393, %rax
	movq	%rax, 72(%rsp)
	movabsq	$73492461259260163, %rax
	movq	%rax, 80(%rsp)
	movabsq	$3979257994503588609, %rax
	movq	%rax, 88(%rsp)
	movabsq	$216458689563918593, %rax
	movq	%rax, 96(%rsp)
	movabsq	$576744431085029895, %rax
	movq	%rax, 104(%rsp)
	movabsq	$72346770260230658, %rax
	movq	%rax, 112(%rsp)
	movabsq	$145806241271317507, %rax
	movq	%rax, 120(%rsp)
	movabsq	$216456511965168130, %rax
	movq	%rax, 128(%rsp)
	movabsq	$145247689364543492, %rax
	movq	%rax, 136(%rsp)
	movabsq	$144398866488301058, %rax
	movq	%rax, 144(%rsp)
	movabsq	$72343570190959105, %rax
	movq	%rax, 152(%rsp)
	movabsq	$75436397615516167, %rax
	movq	%rax, 160(%rsp)
	movabsq	$504708826843384065, %rax
	movq	%rax, 168(%rsp)
	movabsq	$74313804866978305, %rax
	movq	%rax, 176(%rsp)
	movabsq	$865819291826717185, %rax
	movq	%rax, 184(%rsp)
	movabsq	$144686938451345671, %rax
	movq	%rax, 192(%rsp)
	movabsq	$360571648602084866, %rax
	movq	%rax, 200(%rsp)
	movabsq	$144680362839245059, %rax
	movq	%rax, 208(%rsp)
	movabsq	$75173627221312015, %rax
	movq	%rax, 216(%rsp)
	movabsq	$144964015397996033, %rax
	movq	%rax, 224(%rsp)
	movabsq	$217019418985693441, %rax
	movq	%rax, 232(%rsp)
	movabsq	$217019410379246595, %rax
	movq	%rax, 240(%rsp)
	movabsq	$217884811929518849, %rax
	movq	%rax, 248(%rsp)
	movabsq	$1153228272696363009, %rax
	movq	%rax, 256(%rsp)
	leaq	8(%rsp), %rdi
	movl	$32, %esi
	callq	"core::fmt::unicode::is_in_odd_run"
	xorb	$1, %al
	addq	$264, %rsp
	retq
1:
	.size	"core::fmt::unicode::from_80", 1b-"core::fmt::unicode::from_80"

	.text
	.p2align	4
	.type	"core::fmt::unicode::from_a83a",@function
"core::fmt::unicode::from_a83a":
	subq	$264, %rsp
	movl	%edi, %edx
	movabsq	$943517360164714502, %rax
	movq	%rax, 8(%rsp)
	movabsq	$2165106668034598401, %rax
	movq	%rax, 16(%rsp)
	movabsq	$144680354266034182, %rax
	movq	%rax, 24(%rsp)
	movabsq	$1801729039870790913, %rax
	movq	%rax, 32(%rsp)
	movabsq	$219271214504749313, %rax
	movq	%rax, 40(%rsp)
	movabsq	$2306416962890172417, %rax
	movq	%rax, 48(%rsp)
	movabsq	$360853132068074241, %rax
	movq	%rax, 56(%rsp)
	movabsq	$577042497050575106, %rax
	movq	%rax, 64(%rsp)
	movabsq	$506943038816388619, %rax
	movq	%rax, 72(%rsp)
	movabsq	$144525315543205633, %rax
	movq	%rax, 80(%rsp)
	movabsq	$-1073573854207, %rax
	movq	%rax, 88(%rsp)
	movabsq	$1660890374769410047, %rax
	movq	%rax, 96(%rsp)
	movabsq	$504121683288731908, %rax
	movq	%rax, 104(%rsp)
	movabsq	$363673531478864126, %rax
	movq	%rax, 112(%rsp)
	movabsq	$72344571270463749, %rax
	movq	%rax, 120(%rsp)
	movabsq	$-8142791795957235199, %rax
	movq	%rax, 128(%rsp)
	movabsq	$1369414339262418976, %rax
	movq	%rax, 136(%rsp)
	movabsq	$-7132427471399156735, %rax
	movq	%rax, 144(%rsp)
	movabsq	$432915119941558018, %rax
	movq	%rax, 152(%rsp)
	movabsq	$147782063767094018, %rax
	movq	%rax, 160(%rsp)
	movabsq	$144417558504737794, %rax
	movq	%rax, 168(%rsp)
	movabsq	$217715543191457537, %rax
	movq	%rax, 176(%rsp)
	movabsq	$72916318390791428, %rax
	movq	%rax, 184(%rsp)
	movabsq	$1950112528101223727, %rax
	movq	%rax, 192(%rsp)
	movabsq	$2164584374325552132, %rax
	movq	%rax, 200(%rsp)
	movabsq	$721312793793668353, %rax
	movq	%rax, 208(%rsp)
	movabsq	$3749290688035169286, %rax
	movq	%rax, 216(%rsp)
	movabsq	$144404364180654849, %rax
	leaq	266(%rax), %rcx
	movq	%rcx, 224(%rsp)
	movq	%rax, 232(%rsp)
	movabsq	$726778534546912259, %rax
	movq	%rax, 240(%rsp)
	movabsq	$4615627948018767880, %rax
	movq	%rax, 248(%rsp)
	movabsq	$-71493355577474554, %rax
	movq	%rax, 256(%rsp)
	leaq	8(%rsp), %rdi
	movl	$32, %esi
	callq	"core::fmt::unicode::is_in_odd_run"
	xorb	$1, %al
	addq	$264, %rsp
	retq
1:
	.size	"core::fmt::unicode::from_a83a", 1b-"core::fmt::unicode::from_a83a"

	.text
	.p2align	4
	.type	"core::fmt::unicode::from_c3a",@function
"core::fmt::unicode::from_c3a":
	subq	$264, %rsp
	movl	%edi, %edx
	movabsq	$144400043259134211, %rax
	movq	%rax, 8(%rsp)
	movabsq	$792926034743001602, %rax
	movq	%rax, 16(%rsp)
	movabsq	$360580444963537665, %rax
	movq	%rax, 24(%rsp)
	movabsq	$222648909913260547, %rax
	movq	%rax, 32(%rsp)
	movabsq	$796577487089041921, %rax
	movq	%rax, 40(%rsp)
	movabsq	$144397771842061057, %rax
	movq	%rax, 48(%rsp)
	movabsq	$217300885389247237, %rax
	movq	%rax, 56(%rsp)
	movabsq	$1297320375709075969, %rax
	movq	%rax, 64(%rsp)
	movabsq	$504967212176578563, %rax
	movq	%rax, 72(%rsp)
	movabsq	$216746757366088201, %rax
	movq	%rax, 80(%rsp)
	movabsq	$939009365678043148, %rax
	movq	%rax, 88(%rsp)
	movabsq	$1729669233756930597, %rax
	movq	%rax, 96(%rsp)
	movabsq	$74593072314384641, %rax
	movq	%rax, 104(%rsp)
	movabsq	$288804359892960514, %rax
	movq	%rax, 112(%rsp)
	movabsq	$72340173274355744, %rax
	movq	%rax, 120(%rsp)
	movabsq	$73466146346569217, %rax
	movq	%rax, 128(%rsp)
	movabsq	$937036798971938050, %rax
	movq	%rax, 136(%rsp)
	movabsq	$144679263327759653, %rax
	movq	%rax, 144(%rsp)
	movabsq	$937892227538098434, %rax
	movq	%rax, 152(%rsp)
	movabsq	$2882601733564006913, %rax
	movq	%rax, 160(%rsp)
	movabsq	$106958300733833473, %rax
	movq	%rax, 168(%rsp)
	movabsq	$145242191806530052, %rax
	movq	%rax, 176(%rsp)
	movabsq	$145242329262063913, %rax
	movq	%rax, 184(%rsp)
	movabsq	$76281934908555527, %rax
	movq	%rax, 192(%rsp)
	movabsq	$224341341793157433, %rax
	movq	%rax, 200(%rsp)
	movabsq	$-72618319159097830, %rax
	movq	%rax, 208(%rsp)
	movabsq	$941823350959505796, %rax
	movq	%rax, 216(%rsp)
	movabsq	$75732239358493459, %rax
	movq	%rax, 224(%rsp)
	movabsq	$74317094764941059, %rax
	movq	%rax, 232(%rsp)
	movabsq	$435166954065038082, %rax
	movq	%rax, 240(%rsp)
	movabsq	$145530641894212875, %rax
	movq	%rax, 248(%rsp)
	movabsq	$-63320573911957214, %rax
	movq	%rax, 256(%rsp)
	leaq	8(%rsp), %rdi
	movl	$32, %esi
	callq	"core::fmt::unicode::is_in_odd_run"
	xorb	$1, %al
	addq	$264, %rsp
	retq
1:
	.size	"core::fmt::unicode::from_c3a", 1b-"core::fmt::unicode::from_c3a"

	.text
	.p2align	4
	.type	"core::fmt::unicode::is_in_odd_run",@function
"core::fmt::unicode::is_in_odd_run":
	pushq	%rbp
	pushq	%rbx
	movl	%edx, %ecx
	xorl	%eax, %eax
	xorl	%edx, %edx
1:
	movq	(%rdi,%rdx,8), %rbx
	movzbl	%bl, %r9d
	cmpq	$255, %r9
	movl	$2048, %r8d
	movq	%r9, %r10
	cmoveq	%r8, %r10
	subq	%r10, %rcx
	jb	2f
	cmpl	$254, %r9d
	setb	%r9b
	xorb	%r9b, %al
	movzbl	%bh, %ebp
	cmpl	$255, %ebp
	cmovneq	%rbp, %r8
	subq	%r8, %rcx
	jb	2f
	cmpl	$254, %ebp
	setb	%r8b
	xorb	%r8b, %al
	movl	%ebx, %r8d
	shrl	$16, %r8d
	movzbl	%r8b, %r9d
	cmpl	$255, %r9d
	movl	$2048, %r8d
	movq	%r9, %r10
	cmoveq	%r8, %r10
	subq	%r10, %rcx
	jb	2f
	cmpl	$254, %r9d
	setb	%r9b
	xorb	%r9b, %al
	movl	%ebx, %r9d
	shrl	$24, %r9d
	cmpl	$255, %r9d
	cmovneq	%r9, %r8
	subq	%r8, %rcx
	jb	2f
	cmpl	$254, %r9d
	setb	%r8b
	xorb	%r8b, %al
	movq	%rbx, %r8
	shrq	$32, %r8
	movzbl	%r8b, %r9d
	cmpq	$255, %r9
	movl	$2048, %r8d
	movq	%r9, %r10
	cmoveq	%r8, %r10
	subq	%r10, %rcx
	jb	2f
	cmpl	$254, %r9d
	setb	%r9b
	xorb	%r9b, %al
	movq	%rbx, %r9
	shrq	$40, %r9
	movzbl	%r9b, %r9d
	cmpq	$255, %r9
	cmovneq	%r9, %r8
	subq	%r8, %rcx
	jb	2f
	cmpl	$254, %r9d
	setb	%r8b
	xorb	%r8b, %al
	movq	%rbx, %r8
	shrq	$48, %r8
	movzbl	%r8b, %r9d
	cmpq	$255, %r9
	movl	$2048, %r8d
	movq	%r9, %r10
	cmoveq	%r8, %r10
	subq	%r10, %rcx
	jb	2f
	cmpl	$254, %r9d
	setb	%r9b
	xorb	%r9b, %al
	movq	%rbx, %r9
	shrq	$56, %r9
	cmpq	$255, %r9
	cmoveq	%r8, %r9
	subq	%r9, %rcx
	jb	2f
	shrq	$57, %rbx
	cmpl	$127, %ebx
	setb	%r8b
	xorb	%r8b, %al
	incq	%rdx
	cmpq	%rdx, %rsi
	jne	1b
2:
	andb	$1, %al
	popq	%rbx
	popq	%rbp
	retq
3:
	.size	"core::fmt::unicode::is_in_odd_run", 3b-"core::fmt::unicode::is_in_odd_run"

	.section	.rodata.cst16,"aM",@progbits,16
	.p2align	4, 0x0
1:
	.zero	16,127
	.text
	.p2align	4
	.type	"core::iter::pattern::CharPattern::first_in",@function
"core::iter::pattern::CharPattern::first_in":
	pushq	%rbp
	pushq	%r15
	pushq	%r14
	pushq	%r13
	pushq	%r12
	pushq	%rbx
	subq	$56, %rsp
	movq	%rcx, %r14
	movq	%rdx, %r15
	movq	%rdi, %rbx
	cmpl	$127, %esi
	ja	3f
	movq	%r15, 8(%rsp)
	movq	%r14, 16(%rsp)
	movb	%sil, 24(%rsp)
	movl	$0, 25(%rsp)
	movl	$0, 28(%rsp)
	cmpq	$7, %r14
	ja	8f
	testq	%r14, %r14
	je	2f
	cmpb	%sil, (%r15)
	jne	15f
2:
	xorl	%ecx, %ecx
	jmp	17f
3:
	xorl	%ecx, %ecx
	testq	%r14, %r14
	je	13f
	.p2align	4
4:
	movzbl	(%r15,%rcx), %edx
	movl	$1, %eax
	testb	%dl, %dl
	jns	7f
	movzbl	1(%r15,%rcx), %edi
	andl	$63, %edi
	cmpb	$-32, %dl
	jae	5f
	andl	$31, %edx
	shll	$6, %edx
	orl	%edi, %edx
	movl	$2, %eax
	jmp	7f
5:
	movzbl	2(%r15,%rcx), %r8d
	andl	$63, %r8d
	cmpb	$-16, %dl
	jae	6f
	shll	$12, %edx
	movzwl	%dx, %eax
	shll	$6, %edi
	orl	%eax, %edi
	orl	%r8d, %edi
	movl	$3, %eax
	movl	%edi, %edx
	jmp	7f
6:
	movzbl	3(%r15,%rcx), %eax
	andl	$63, %eax
	andl	$7, %edx
	shll	$18, %edx
	shll	$12, %edi
	orl	%edx, %edi
	shll	$6, %r8d
	orl	%edi, %r8d
	orl	%eax, %r8d
	movl	$4, %eax
	movl	%r8d, %edx
	.p2align	4
7:
	addq	%rcx, %rax
	cmpl	%esi, %edx
	je	18f
	movq	%rax, %rcx
	cmpq	%r14, %rax
	jb	4b
	jmp	18f
8:
	movabsq	$-9187201950435737472, %r12
	movabsq	$9187201950435737471, %r13
	movl	%esi, %eax
	movabsq	$72340172838076673, %rbp
	imulq	%rax, %rbp
	movq	(%r15), %rcx
	xorq	%rbp, %rcx
	movq	%rcx, %rax
	andq	%r13, %rax
	addq	%r13, %rax
	orq	%rcx, %rax
	andq	%r12, %rax
	cmpq	%r12, %rax
	jne	14f
	movl	$8, %eax
	cmpq	$40, %r14
	jb	10f
	movq	%rbp, %xmm0
	pshufd	$68, %xmm0, %xmm0
	movdqa	%xmm0, 32(%rsp)
	.p2align	4
9:
	movdqu	(%r15,%rax), %xmm0
	movdqu	16(%r15,%rax), %xmm1
	movdqa	32(%rsp), %xmm2
	pxor	%xmm2, %xmm0
	pxor	%xmm2, %xmm1
	movdqa	1b(%rip), %xmm2
	movdqa	%xmm1, %xmm3
	pand	%xmm2, %xmm3
	movdqa	%xmm0, %xmm4
	pand	%xmm2, %xmm4
	paddq	%xmm2, %xmm4
	paddq	%xmm2, %xmm3
	por	%xmm1, %xmm3
	por	%xmm0, %xmm4
	pand	%xmm3, %xmm4
	pshufd	$238, %xmm4, %xmm0
	pand	%xmm4, %xmm0
	movq	%xmm0, %rcx
	notq	%rcx
	testq	%rcx, %r12
	jne	10f
	addq	$32, %rax
	leaq	8(%rsp), %rdi
	movq	%rax, %rsi
	movq	%r14, %rdx
	callq	"core::slice::words::skip_far::<#d9bf6fcacf29a880>"
	movq	%r14, %rcx
	subq	%rax, %rcx
	cmpq	$31, %rcx
	ja	9b
10:
	movq	%r14, %rdx
	subq	%rax, %rdx
	jmp	12f
	.p2align	4
11:
	xorq	%r12, %rcx
	rep		bsfq	%rcx, %rcx
	shrl	$3, %ecx
	addq	%rax, %rcx
	addq	$8, %rax
	addq	$-8, %rdx
	cmpq	%rax, %rcx
	jb	17f
12:
	cmpq	$9, %rdx
	jb	16f
	movq	(%r15,%rax), %rsi
	xorq	%rbp, %rsi
	movq	%rsi, %rcx
	andq	%r13, %rcx
	addq	%r13, %rcx
	orq	%rsi, %rcx
	andq	%r12, %rcx
	cmpq	%r12, %rcx
	jne	11b
	leaq	8(%rax), %rcx
	addq	$8, %rax
	addq	$-8, %rdx
	cmpq	%rax, %rcx
	jae	12b
	jmp	17f
13:
	xorl	%eax, %eax
	jmp	18f
14:
	xorq	%r12, %rax
	rep		bsfq	%rax, %rcx
	shrl	$3, %ecx
	jmp	17f
15:
	movq	%r14, %rcx
	cmpq	$1, %r14
	je	17f
	movl	$1, %ecx
	cmpb	%sil, 1(%r15)
	je	17f
	movq	%r14, %rcx
	cmpq	$2, %r14
	je	17f
	movl	$2, %ecx
	cmpb	%sil, 2(%r15)
	je	17f
	movq	%r14, %rcx
	cmpq	$3, %r14
	je	17f
	movl	$3, %ecx
	cmpb	%sil, 3(%r15)
	je	17f
	movq	%r14, %rcx
	cmpq	$4, %r14
	je	17f
	movl	$4, %ecx
	cmpb	%sil, 4(%r15)
	je	17f
	movq	%r14, %rcx
	cmpq	$5, %r14
	je	17f
	movl	$5, %ecx
	cmpb	%sil, 5(%r15)
	je	17f
	movq	%r14, %rcx
	cmpq	$6, %r14
	je	17f
	cmpb	%sil, 6(%r15)
	movl	$6, %ecx
	cmovneq	%r14, %rcx
	jmp	17f
16:
	xorq	-8(%r15,%r14), %rbp
	movq	%rbp, %rax
	andq	%r13, %rax
	addq	%r13, %rax
	orq	%rbp, %rax
	andq	%r12, %rax
	movq	%r14, %rcx
	cmpq	%r12, %rax
	je	17f
	leaq	-8(%r14), %rdx
	xorq	%r12, %rax
	rep		bsfq	%rax, %rcx
	shrl	$3, %ecx
	addq	%rdx, %rcx
17:
	cmpq	%r14, %rcx
	movq	%rcx, %rax
	adcq	$0, %rax
18:
	xorl	%edx, %edx
	xorl	%esi, %esi
	cmpq	%r14, %rcx
	cmovaeq	%rdx, %rcx
	cmovaeq	%rdx, %rax
	setb	%sil
	movq	%rsi, (%rbx)
	movq	%rcx, 8(%rbx)
	movq	%rax, 16(%rbx)
	addq	$56, %rsp
	popq	%rbx
	popq	%r12
	popq	%r13
	popq	%r14
	popq	%r15
	popq	%rbp
	retq
19:
	.size	"core::iter::pattern::CharPattern::first_in", 19b-"core::iter::pattern::CharPattern::first_in"

	.section	.rodata.cst16,"aM",@progbits,16
	.p2align	4, 0x0
1:
	.long	4294967295,4294967295,4294967295,2097150
2:
	.long	133,160,5760,8232
	.text
	.p2align	4
	.type	"core::iter::words::str::trim_end",@function
"core::iter::words::str::trim_end":
	movq	%rdi, %rax
	jmp	4f
	.p2align	4
3:
	leal	-9(%rcx), %edi
	cmpl	$5, %edi
	jae	7f
4:
	testq	%rsi, %rsi
	je	11f
	movq	%rsi, %rdx
	movq	$-1, %rsi
	cmpb	$0, -1(%rax,%rdx)
	jns	5f
	movq	$-2, %rsi
	cmpb	$-65, -2(%rax,%rdx)
	ja	5f
	xorl	%esi, %esi
	cmpb	$-64, -3(%rax,%rdx)
	setae	%sil
	orq	$-4, %rsi
	.p2align	4
5:
	addq	%rdx, %rsi
	movzbl	(%rax,%rsi), %ecx
	testb	%cl, %cl
	jns	3b
	movzbl	1(%rax,%rsi), %edi
	andl	$63, %edi
	cmpb	$-33, %cl
	ja	6f
	andl	$31, %ecx
	shll	$6, %ecx
	orl	%edi, %ecx
	cmpl	$127, %ecx
	jbe	3b
	jmp	9f
6:
	movzbl	2(%rax,%rsi), %r8d
	andl	$63, %r8d
	cmpb	$-17, %cl
	ja	8f
	shll	$12, %ecx
	movzwl	%cx, %ecx
	shll	$6, %edi
	orl	%ecx, %edi
	orl	%r8d, %edi
	movl	%edi, %ecx
	cmpl	$127, %ecx
	jbe	3b
	jmp	9f
7:
	cmpl	$32, %ecx
	je	4b
	jmp	10f
8:
	movzbl	3(%rax,%rsi), %r9d
	andl	$63, %r9d
	andl	$7, %ecx
	shll	$18, %ecx
	shll	$12, %edi
	orl	%ecx, %edi
	shll	$6, %r8d
	orl	%edi, %r8d
	orl	%r9d, %r8d
	movl	%r8d, %ecx
	cmpl	$127, %ecx
	jbe	3b
9:
	movd	%ecx, %xmm0
	pshufd	$0, %xmm0, %xmm0
	pand	1b(%rip), %xmm0
	pcmpeqd	2b(%rip), %xmm0
	movmskps	%xmm0, %edi
	testl	%edi, %edi
	jne	4b
	cmpl	$8239, %ecx
	je	4b
	cmpl	$8287, %ecx
	je	4b
	cmpl	$12288, %ecx
	je	4b
	addl	$-8192, %ecx
	cmpl	$10, %ecx
	jbe	4b
10:
	retq
11:
	xorl	%edx, %edx
	retq
12:
	.size	"core::iter::words::str::trim_end", 12b-"core::iter::words::str::trim_end"

	.text
	.p2align	4
	.type	"core::result::ResultFromResidualErrResidual::from_residual::<#5c597c011e3a171b>",@function
"core::result::ResultFromResidualErrResidual::from_residual::<#5c597c011e3a171b>":
	pushq	%rbp
	pushq	%r15
	pushq	%r14
	pushq	%r13
	pushq	%r12
	pushq	%rbx
	subq	$40, %rsp
	movq	%rdi, 32(%rsp)
	movq	16(%rsi), %rax
	movq	%rax, 8(%rsp)
	movq	24(%rsi), %rbp
	movq	32(%rsi), %rax
	movq	%rax, 16(%rsp)
	movzbl	40(%rsi), %eax
	movb	%al, 7(%rsp)
	movq	48(%rsi), %rax
	movq	%rax, 24(%rsp)
	testq	%rbp, %rbp
	je	5f
	movq	8(%rsp), %rax
	leaq	88(%rax), %r14
	jmp	2f
	.p2align	4
1:
	addq	$104, %r14
	decq	%rbp
	je	5f
2:
	movq	-40(%r14), %r13
	movq	-24(%r14), %rbx
	movq	-16(%r14), %r12
	movq	(%r14), %r15
	cmpq	$0, -48(%r14)
	je	3f
	movq	-64(%r14), %rdi
	callq	rattle_dealloc@PLT
3:
	testq	%rbx, %rbx
	je	4f
	movq	%r13, %rdi
	callq	rattle_dealloc@PLT
4:
	testq	%r15, %r15
	je	1b
	movq	%r12, %rdi
	callq	rattle_dealloc@PLT
	jmp	1b
5:
	cmpq	$0, 16(%rsp)
	je	6f
	movq	8(%rsp), %rdi
	callq	rattle_dealloc@PLT
6:
	movzbl	7(%rsp), %edi
	movq	24(%rsp), %rsi
	callq	"clap::core++option++Option+Destruct::drop::<#6d0680e8511e5366>"
	movq	32(%rsp), %rax
	movq	$1, (%rax)
	movb	$16, 8(%rax)
	xorps	%xmm0, %xmm0
	movups	%xmm0, 16(%rax)
	movups	%xmm0, 32(%rax)
	addq	$40, %rsp
	popq	%rbx
	popq	%r12
	popq	%r13
	popq	%r14
	popq	%r15
	popq	%rbp
	retq
7:
	.size	"core::result::ResultFromResidualErrResidual::from_residual::<#5c597c011e3a171b>", 7b-"core::result::ResultFromResidualErrResidual::from_residual::<#5c597c011e3a171b>"

	.text
	.p2align	4
	.type	"core::slice::edits::mirror::<#20cb9571558e0242>",@function
"core::slice::edits::mirror::<#20cb9571558e0242>":
	imulq	$56, %rdx, %rax
	addq	%rsi, %rax
	addq	$-56, %rax
	.p2align	4
1:
	movq	48(%rdi), %rcx
	movq	%rcx, -8(%rsp)
	movups	(%rdi), %xmm0
	movups	16(%rdi), %xmm1
	movups	32(%rdi), %xmm2
	movaps	%xmm2, -24(%rsp)
	movaps	%xmm1, -40(%rsp)
	movaps	%xmm0, -56(%rsp)
	movq	48(%rax), %rcx
	movups	(%rax), %xmm0
	movups	16(%rax), %xmm1
	movups	32(%rax), %xmm2
	movups	%xmm0, (%rdi)
	movq	%rcx, 48(%rdi)
	movups	%xmm2, 32(%rdi)
	movups	%xmm1, 16(%rdi)
	movq	-8(%rsp), %rcx
	movq	%rcx, 48(%rax)
	movaps	-56(%rsp), %xmm0
	movaps	-40(%rsp), %xmm1
	movaps	-24(%rsp), %xmm2
	movups	%xmm2, 32(%rax)
	movups	%xmm1, 16(%rax)
	movups	%xmm0, (%rax)
	addq	$56, %rdi
	addq	$-56, %rax
	decq	%rdx
	jne	1b
	retq
2:
	.size	"core::slice::edits::mirror::<#20cb9571558e0242>", 2b-"core::slice::edits::mirror::<#20cb9571558e0242>"

	.text
	.p2align	4
	.type	"core::slice::edits::mirror::<#2262cf5b90b10fda>",@function
"core::slice::edits::mirror::<#2262cf5b90b10fda>":
	leaq	(%rdx,%rdx,2), %rax
	leaq	(%rsi,%rax,8), %rax
	addq	$-24, %rax
	.p2align	4
1:
	movq	16(%rdi), %rcx
	movq	%rcx, -8(%rsp)
	movups	(%rdi), %xmm0
	movaps	%xmm0, -24(%rsp)
	movq	16(%rax), %rcx
	movups	(%rax), %xmm0
	movups	%xmm0, (%rdi)
	movq	%rcx, 16(%rdi)
	movq	-8(%rsp), %rcx
	movq	%rcx, 16(%rax)
	movaps	-24(%rsp), %xmm0
	movups	%xmm0, (%rax)
	addq	$24, %rdi
	addq	$-24, %rax
	decq	%rdx
	jne	1b
	retq
2:
	.size	"core::slice::edits::mirror::<#2262cf5b90b10fda>", 2b-"core::slice::edits::mirror::<#2262cf5b90b10fda>"

	.text
	.p2align	4
	.type	"core::slice::edits::mirror::<*>",@function
"core::slice::edits::mirror::<*>":
	leaq	(%rdi,%rdx,8), %rax
	leaq	(%rsi,%rdx,8), %rcx
	cmpq	%rcx, %rdi
	setb	%cl
	cmpq	%rax, %rsi
	setb	%al
	testb	%al, %cl
	je	1f
	xorl	%eax, %eax
	jmp	3f
1:
	movabsq	$9223372036854775806, %rax
	andq	%rdx, %rax
	movq	%rdx, %rcx
	andq	$-2, %rcx
	negq	%rcx
	leaq	(%rsi,%rdx,8), %r8
	addq	$-16, %r8
	xorl	%r9d, %r9d
	movq	%rdi, %r10
	.p2align	4
2:
	movdqu	(%r10), %xmm0
	movdqu	(%r8,%r9,8), %xmm1
	pshufd	$78, %xmm1, %xmm1
	movdqu	%xmm1, (%r10)
	pshufd	$78, %xmm0, %xmm0
	movdqu	%xmm0, (%r8,%r9,8)
	addq	$-2, %r9
	addq	$16, %r10
	cmpq	%r9, %rcx
	jne	2b
	cmpq	%rax, %rdx
	je	6f
3:
	movq	%rax, %rcx
	orq	$1, %rcx
	testb	$1, %dl
	je	4f
	movq	%rax, %r8
	notq	%r8
	addq	%rdx, %r8
	movq	(%rdi,%rax,8), %r9
	movq	(%rsi,%r8,8), %r10
	movq	%r10, (%rdi,%rax,8)
	movq	%r9, (%rsi,%r8,8)
	movq	%rcx, %rax
4:
	cmpq	%rcx, %rdx
	je	6f
	subq	%rax, %rdx
	leaq	(%rdi,%rax,8), %rax
	addq	$8, %rax
	.p2align	4
5:
	movq	-8(%rax), %rcx
	movq	-8(%rsi,%rdx,8), %rdi
	movq	%rdi, -8(%rax)
	movq	%rcx, -8(%rsi,%rdx,8)
	movq	(%rax), %rcx
	movq	-16(%rsi,%rdx,8), %rdi
	movq	%rdi, (%rax)
	movq	%rcx, -16(%rsi,%rdx,8)
	addq	$16, %rax
	addq	$-2, %rdx
	jne	5b
6:
	retq
7:
	.size	"core::slice::edits::mirror::<*>", 7b-"core::slice::edits::mirror::<*>"

	.text
	.p2align	4
	.type	"core::slice::edits::mirror::<14'(,)::<i32,i32>>",@function
"core::slice::edits::mirror::<14'(,)::<i32,i32>>":
	leaq	(%rdi,%rsi,8), %r8
	leaq	(%r8,%rcx,8), %rax
	leaq	(%rdx,%rcx,8), %r9
	cmpq	%r9, %r8
	setb	%r9b
	cmpq	%rax, %rdx
	setb	%al
	testb	%al, %r9b
	je	1f
	xorl	%eax, %eax
	jmp	3f
1:
	movabsq	$9223372036854775806, %rax
	andq	%rcx, %rax
	movq	%rcx, %r9
	andq	$-2, %r9
	negq	%r9
	leaq	(%rdx,%rcx,8), %r10
	addq	$-16, %r10
	xorl	%r11d, %r11d
	.p2align	4
2:
	movdqu	(%r8), %xmm0
	movdqu	(%r10,%r11,8), %xmm1
	pshufd	$78, %xmm1, %xmm1
	movdqu	%xmm1, (%r8)
	pshufd	$78, %xmm0, %xmm0
	movdqu	%xmm0, (%r10,%r11,8)
	addq	$-2, %r11
	addq	$16, %r8
	cmpq	%r11, %r9
	jne	2b
	cmpq	%rax, %rcx
	je	6f
3:
	movq	%rax, %r8
	orq	$1, %r8
	testb	$1, %cl
	je	4f
	leaq	(%rax,%rsi), %r9
	notq	%rax
	addq	%rcx, %rax
	movq	(%rdi,%r9,8), %r10
	movq	(%rdx,%rax,8), %r11
	movq	%r11, (%rdi,%r9,8)
	movq	%r10, (%rdx,%rax,8)
	movq	%r8, %rax
4:
	cmpq	%r8, %rcx
	je	6f
	addq	%rax, %rsi
	leaq	(%rdi,%rsi,8), %rsi
	addq	$8, %rsi
	subq	%rax, %rcx
	.p2align	4
5:
	movq	-8(%rsi), %rax
	movq	-8(%rdx,%rcx,8), %rdi
	movq	%rdi, -8(%rsi)
	movq	%rax, -8(%rdx,%rcx,8)
	movq	(%rsi), %rax
	movq	-16(%rdx,%rcx,8), %rdi
	movq	%rdi, (%rsi)
	movq	%rax, -16(%rdx,%rcx,8)
	addq	$16, %rsi
	addq	$-2, %rcx
	jne	5b
6:
	retq
7:
	.size	"core::slice::edits::mirror::<14'(,)::<i32,i32>>", 7b-"core::slice::edits::mirror::<14'(,)::<i32,i32>>"

	.text
	.p2align	4
	.type	"core::slice::edits::mirror::<24'(,)::<#ee13f2425f1aee9b>>",@function
"core::slice::edits::mirror::<24'(,)::<#ee13f2425f1aee9b>>":
	movq	%rdx, %rax
	shlq	$5, %rax
	addq	%rsi, %rax
	addq	$-32, %rax
	.p2align	4
1:
	movups	(%rdi), %xmm0
	movups	16(%rdi), %xmm1
	movaps	%xmm1, -24(%rsp)
	movaps	%xmm0, -40(%rsp)
	movups	(%rax), %xmm0
	movups	16(%rax), %xmm1
	movups	%xmm0, (%rdi)
	movups	%xmm1, 16(%rdi)
	movaps	-40(%rsp), %xmm0
	movaps	-24(%rsp), %xmm1
	movups	%xmm1, 16(%rax)
	movups	%xmm0, (%rax)
	addq	$32, %rdi
	addq	$-32, %rax
	decq	%rdx
	jne	1b
	retq
2:
	.size	"core::slice::edits::mirror::<24'(,)::<#ee13f2425f1aee9b>>", 2b-"core::slice::edits::mirror::<24'(,)::<#ee13f2425f1aee9b>>"

	.text
	.p2align	4
	.type	"core::slice::edits::mirror::<25'mime_base::magic::Section>",@function
"core::slice::edits::mirror::<25'mime_base::magic::Section>":
	subq	$24, %rsp
	leaq	(%rdx,%rdx,4), %rax
	shlq	$4, %rax
	addq	%rsi, %rax
	addq	$-80, %rax
	.p2align	4
1:
	movl	(%rdi), %ecx
	movzbl	8(%rdi), %esi
	movq	48(%rdi), %r8
	movq	%r8, -32(%rsp)
	movups	32(%rdi), %xmm0
	movaps	%xmm0, -48(%rsp)
	movups	16(%rdi), %xmm0
	movaps	%xmm0, -64(%rsp)
	movq	72(%rdi), %r8
	movq	%r8, -112(%rsp)
	movups	56(%rdi), %xmm0
	movaps	%xmm0, -128(%rsp)
	movl	(%rax), %r8d
	movzbl	8(%rax), %r9d
	movq	48(%rax), %r10
	movq	%r10, 16(%rsp)
	movups	32(%rax), %xmm0
	movaps	%xmm0, (%rsp)
	movups	16(%rax), %xmm0
	movaps	%xmm0, -16(%rsp)
	movq	72(%rax), %r10
	movq	%r10, -80(%rsp)
	movups	56(%rax), %xmm0
	movaps	%xmm0, -96(%rsp)
	movl	%r8d, (%rdi)
	movq	%r9, 8(%rdi)
	movaps	-16(%rsp), %xmm0
	movaps	(%rsp), %xmm1
	movups	%xmm0, 16(%rdi)
	movups	%xmm1, 32(%rdi)
	movq	16(%rsp), %r8
	movq	%r8, 48(%rdi)
	movaps	-96(%rsp), %xmm0
	movups	%xmm0, 56(%rdi)
	movq	-80(%rsp), %r8
	movq	%r8, 72(%rdi)
	movl	%ecx, (%rax)
	movq	%rsi, 8(%rax)
	movaps	-64(%rsp), %xmm0
	movaps	-48(%rsp), %xmm1
	movups	%xmm0, 16(%rax)
	movups	%xmm1, 32(%rax)
	movq	-32(%rsp), %rcx
	movq	%rcx, 48(%rax)
	movaps	-128(%rsp), %xmm0
	movups	%xmm0, 56(%rax)
	movq	-112(%rsp), %rcx
	movq	%rcx, 72(%rax)
	addq	$80, %rdi
	addq	$-80, %rax
	decq	%rdx
	jne	1b
	addq	$24, %rsp
	retq
2:
	.size	"core::slice::edits::mirror::<25'mime_base::magic::Section>", 2b-"core::slice::edits::mirror::<25'mime_base::magic::Section>"

	.text
	.p2align	4
	.type	"core::slice::edits::mirror::<26'mime_store::ending::Ending>",@function
"core::slice::edits::mirror::<26'mime_store::ending::Ending>":
	leaq	(%rdx,%rdx,4), %rax
	leaq	(%rsi,%rax,8), %rax
	addq	$-40, %rax
	.p2align	4
1:
	movq	32(%rdi), %rcx
	movq	%rcx, -8(%rsp)
	movups	(%rdi), %xmm0
	movups	16(%rdi), %xmm1
	movaps	%xmm1, -24(%rsp)
	movaps	%xmm0, -40(%rsp)
	movq	32(%rax), %rcx
	movups	(%rax), %xmm0
	movups	16(%rax), %xmm1
	movups	%xmm0, (%rdi)
	movups	%xmm1, 16(%rdi)
	movq	%rcx, 32(%rdi)
	movq	-8(%rsp), %rcx
	movq	%rcx, 32(%rax)
	movaps	-40(%rsp), %xmm0
	movaps	-24(%rsp), %xmm1
	movups	%xmm1, 16(%rax)
	movups	%xmm0, (%rax)
	addq	$40, %rdi
	addq	$-40, %rax
	decq	%rdx
	jne	1b
	retq
2:
	.size	"core::slice::edits::mirror::<26'mime_store::ending::Ending>", 2b-"core::slice::edits::mirror::<26'mime_store::ending::Ending>"

	.text
	.p2align	4
	.type	"core::slice::edits::mirror::<3'&[](*,i64,)>",@function
"core::slice::edits::mirror::<3'&[](*,i64,)>":
	movq	%rdx, %rax
	shlq	$4, %rax
	addq	%rsi, %rax
	addq	$-16, %rax
	.p2align	4
1:
	movups	(%rdi), %xmm0
	movaps	%xmm0, -24(%rsp)
	movups	(%rax), %xmm0
	movups	%xmm0, (%rdi)
	movaps	-24(%rsp), %xmm0
	movups	%xmm0, (%rax)
	addq	$16, %rdi
	addq	$-16, %rax
	decq	%rdx
	jne	1b
	retq
2:
	.size	"core::slice::edits::mirror::<3'&[](*,i64,)>", 2b-"core::slice::edits::mirror::<3'&[](*,i64,)>"

	.text
	.p2align	4
	.type	"core::slice::edits::mirror::<31'mime_base::database::icon::Icon>",@function
"core::slice::edits::mirror::<31'mime_base::database::icon::Icon>":
	subq	$56, %rsp
	addq	$56, %rdi
	leaq	(%rdx,%rdx,2), %rax
	shlq	$5, %rax
	addq	%rsi, %rax
	addq	$-40, %rax
	.p2align	4
1:
	movzbl	-56(%rdi), %ecx
	movq	-16(%rdi), %rsi
	movq	%rsi, -48(%rsp)
	movups	-48(%rdi), %xmm0
	movups	-32(%rdi), %xmm1
	movaps	%xmm1, -64(%rsp)
	movaps	%xmm0, -80(%rsp)
	movzbl	-8(%rdi), %esi
	movups	(%rdi), %xmm0
	movups	16(%rdi), %xmm1
	movaps	%xmm1, -112(%rsp)
	movaps	%xmm0, -128(%rsp)
	movq	32(%rdi), %r8
	movq	%r8, -96(%rsp)
	movzbl	-56(%rax), %r8d
	movups	-48(%rax), %xmm0
	movups	-32(%rax), %xmm1
	movaps	%xmm1, 32(%rsp)
	movaps	%xmm0, 16(%rsp)
	movq	-16(%rax), %r9
	movq	%r9, 48(%rsp)
	movzbl	-8(%rax), %r9d
	movups	(%rax), %xmm0
	movups	16(%rax), %xmm1
	movaps	%xmm1, -16(%rsp)
	movaps	%xmm0, -32(%rsp)
	movq	32(%rax), %r10
	movq	%r10, (%rsp)
	movq	%r8, -56(%rdi)
	movaps	16(%rsp), %xmm0
	movaps	32(%rsp), %xmm1
	movups	%xmm0, -48(%rdi)
	movups	%xmm1, -32(%rdi)
	movq	48(%rsp), %r8
	movq	%r8, -16(%rdi)
	movq	%r9, -8(%rdi)
	movaps	-32(%rsp), %xmm0
	movaps	-16(%rsp), %xmm1
	movups	%xmm0, (%rdi)
	movups	%xmm1, 16(%rdi)
	movq	(%rsp), %r8
	movq	%r8, 32(%rdi)
	movq	%rcx, -56(%rax)
	movaps	-80(%rsp), %xmm0
	movaps	-64(%rsp), %xmm1
	movups	%xmm0, -48(%rax)
	movups	%xmm1, -32(%rax)
	movq	-48(%rsp), %rcx
	movq	%rcx, -16(%rax)
	movq	%rsi, -8(%rax)
	movaps	-128(%rsp), %xmm0
	movaps	-112(%rsp), %xmm1
	movups	%xmm0, (%rax)
	movups	%xmm1, 16(%rax)
	movq	-96(%rsp), %rcx
	movq	%rcx, 32(%rax)
	addq	$96, %rdi
	addq	$-96, %rax
	decq	%rdx
	jne	1b
	addq	$56, %rsp
	retq
2:
	.size	"core::slice::edits::mirror::<31'mime_base::database::icon::Icon>", 2b-"core::slice::edits::mirror::<31'mime_base::database::icon::Icon>"

	.text
	.p2align	4
	.type	"core::slice::edits::mirror::<35'mime_base::database::rule::GlobRule>",@function
"core::slice::edits::mirror::<35'mime_base::database::rule::GlobRule>":
	imulq	$104, %rdx, %rax
	addq	%rsi, %rax
	addq	$-104, %rax
	.p2align	4
1:
	movq	96(%rdi), %rcx
	movq	%rcx, -8(%rsp)
	movups	80(%rdi), %xmm0
	movaps	%xmm0, -24(%rsp)
	movups	64(%rdi), %xmm0
	movaps	%xmm0, -40(%rsp)
	movups	(%rdi), %xmm0
	movups	16(%rdi), %xmm1
	movups	32(%rdi), %xmm2
	movups	48(%rdi), %xmm3
	movaps	%xmm3, -56(%rsp)
	movaps	%xmm2, -72(%rsp)
	movaps	%xmm1, -88(%rsp)
	movaps	%xmm0, -104(%rsp)
	movq	96(%rax), %rcx
	movups	80(%rax), %xmm0
	movups	64(%rax), %xmm1
	movups	(%rax), %xmm2
	movups	16(%rax), %xmm3
	movups	32(%rax), %xmm4
	movups	48(%rax), %xmm5
	movups	%xmm2, (%rdi)
	movups	%xmm3, 16(%rdi)
	movups	%xmm4, 32(%rdi)
	movups	%xmm5, 48(%rdi)
	movups	%xmm1, 64(%rdi)
	movups	%xmm0, 80(%rdi)
	movq	%rcx, 96(%rdi)
	movq	-8(%rsp), %rcx
	movq	%rcx, 96(%rax)
	movaps	-24(%rsp), %xmm0
	movups	%xmm0, 80(%rax)
	movaps	-40(%rsp), %xmm0
	movups	%xmm0, 64(%rax)
	movaps	-104(%rsp), %xmm0
	movaps	-88(%rsp), %xmm1
	movaps	-72(%rsp), %xmm2
	movaps	-56(%rsp), %xmm3
	movups	%xmm3, 48(%rax)
	movups	%xmm2, 32(%rax)
	movups	%xmm1, 16(%rax)
	movups	%xmm0, (%rax)
	addq	$104, %rdi
	addq	$-104, %rax
	decq	%rdx
	jne	1b
	retq
2:
	.size	"core::slice::edits::mirror::<35'mime_base::database::rule::GlobRule>", 2b-"core::slice::edits::mirror::<35'mime_base::database::rule::GlobRule>"

	.section	.rodata.cst16,"aM",@progbits,16
	.p2align	4, 0x0
1:
	.byte	14,15,12,13,10,11,8,9,6,7,4,5,2,3,0,1
	.text
	.p2align	4
	.type	"core::slice::edits::mirror::<i16>",@function
"core::slice::edits::mirror::<i16>":
	leaq	(%rdi,%rdx,2), %rax
	leaq	(%rsi,%rdx,2), %rcx
	cmpq	%rcx, %rdi
	setb	%cl
	cmpq	%rax, %rsi
	setb	%al
	testb	%al, %cl
	je	2f
	xorl	%eax, %eax
	jmp	4f
2:
	movabsq	$9223372036854775800, %rax
	andq	%rdx, %rax
	movq	%rdx, %rcx
	andq	$-8, %rcx
	negq	%rcx
	leaq	(%rsi,%rdx,2), %r8
	addq	$-16, %r8
	xorl	%r9d, %r9d
	movq	%rdi, %r10
	.p2align	4
3:
	movdqu	(%r10), %xmm0
	movdqu	(%r8,%r9,2), %xmm1
	movdqa	1b(%rip), %xmm2
	pshufb	%xmm2, %xmm1
	movdqu	%xmm1, (%r10)
	pshufb	%xmm2, %xmm0
	movdqu	%xmm0, (%r8,%r9,2)
	addq	$-8, %r9
	addq	$16, %r10
	cmpq	%r9, %rcx
	jne	3b
	cmpq	%rax, %rdx
	je	7f
4:
	movq	%rax, %rcx
	orq	$1, %rcx
	testb	$1, %dl
	je	5f
	movq	%rax, %r8
	notq	%r8
	addq	%rdx, %r8
	movzwl	(%rdi,%rax,2), %r9d
	movzwl	(%rsi,%r8,2), %r10d
	movw	%r10w, (%rdi,%rax,2)
	movw	%r9w, (%rsi,%r8,2)
	movq	%rcx, %rax
5:
	cmpq	%rcx, %rdx
	je	7f
	subq	%rax, %rdx
	leaq	(%rdi,%rax,2), %rax
	addq	$2, %rax
	.p2align	4
6:
	movzwl	-2(%rax), %ecx
	movzwl	-2(%rsi,%rdx,2), %edi
	movw	%di, -2(%rax)
	movw	%cx, -2(%rsi,%rdx,2)
	movzwl	(%rax), %ecx
	movzwl	-4(%rsi,%rdx,2), %edi
	movw	%di, (%rax)
	movw	%cx, -4(%rsi,%rdx,2)
	addq	$4, %rax
	addq	$-2, %rdx
	jne	6b
7:
	retq
8:
	.size	"core::slice::edits::mirror::<i16>", 8b-"core::slice::edits::mirror::<i16>"

	.text
	.p2align	4
	.type	"core::slice::edits::mirror::<i32>",@function
"core::slice::edits::mirror::<i32>":
	leaq	(%rdi,%rsi,4), %r8
	leaq	(%r8,%rcx,4), %rax
	leaq	(%rdx,%rcx,4), %r9
	cmpq	%r9, %r8
	setb	%r9b
	cmpq	%rax, %rdx
	setb	%al
	testb	%al, %r9b
	je	1f
	xorl	%eax, %eax
	jmp	3f
1:
	movabsq	$9223372036854775804, %rax
	andq	%rcx, %rax
	movq	%rcx, %r9
	andq	$-4, %r9
	negq	%r9
	leaq	(%rdx,%rcx,4), %r10
	addq	$-16, %r10
	xorl	%r11d, %r11d
	.p2align	4
2:
	movdqu	(%r8), %xmm0
	movdqu	(%r10,%r11,4), %xmm1
	pshufd	$27, %xmm1, %xmm1
	movdqu	%xmm1, (%r8)
	pshufd	$27, %xmm0, %xmm0
	movdqu	%xmm0, (%r10,%r11,4)
	addq	$-4, %r11
	addq	$16, %r8
	cmpq	%r11, %r9
	jne	2b
	cmpq	%rax, %rcx
	je	6f
3:
	movq	%rax, %r8
	orq	$1, %r8
	testb	$1, %cl
	je	4f
	leaq	(%rax,%rsi), %r9
	notq	%rax
	addq	%rcx, %rax
	movl	(%rdi,%r9,4), %r10d
	movl	(%rdx,%rax,4), %r11d
	movl	%r11d, (%rdi,%r9,4)
	movl	%r10d, (%rdx,%rax,4)
	movq	%r8, %rax
4:
	cmpq	%r8, %rcx
	je	6f
	addq	%rax, %rsi
	leaq	(%rdi,%rsi,4), %rsi
	addq	$4, %rsi
	subq	%rax, %rcx
	.p2align	4
5:
	movl	-4(%rsi), %eax
	movl	-4(%rdx,%rcx,4), %edi
	movl	%edi, -4(%rsi)
	movl	%eax, -4(%rdx,%rcx,4)
	movl	(%rsi), %eax
	movl	-8(%rdx,%rcx,4), %edi
	movl	%edi, (%rsi)
	movl	%eax, -8(%rdx,%rcx,4)
	addq	$8, %rsi
	addq	$-2, %rcx
	jne	5b
6:
	retq
7:
	.size	"core::slice::edits::mirror::<i32>", 7b-"core::slice::edits::mirror::<i32>"

	.text
	.p2align	4
	.type	"core::slice::edits::mirror::<i64>",@function
"core::slice::edits::mirror::<i64>":
	leaq	(%rdi,%rsi,8), %r8
	leaq	(%r8,%rcx,8), %rax
	leaq	(%rdx,%rcx,8), %r9
	cmpq	%r9, %r8
	setb	%r9b
	cmpq	%rax, %rdx
	setb	%al
	testb	%al, %r9b
	je	1f
	xorl	%eax, %eax
	jmp	3f
1:
	movabsq	$9223372036854775806, %rax
	andq	%rcx, %rax
	movq	%rcx, %r9
	andq	$-2, %r9
	negq	%r9
	leaq	(%rdx,%rcx,8), %r10
	addq	$-16, %r10
	xorl	%r11d, %r11d
	.p2align	4
2:
	movdqu	(%r8), %xmm0
	movdqu	(%r10,%r11,8), %xmm1
	pshufd	$78, %xmm1, %xmm1
	movdqu	%xmm1, (%r8)
	pshufd	$78, %xmm0, %xmm0
	movdqu	%xmm0, (%r10,%r11,8)
	addq	$-2, %r11
	addq	$16, %r8
	cmpq	%r11, %r9
	jne	2b
	cmpq	%rax, %rcx
	je	6f
3:
	movq	%rax, %r8
	orq	$1, %r8
	testb	$1, %cl
	je	4f
	leaq	(%rax,%rsi), %r9
	notq	%rax
	addq	%rcx, %rax
	movq	(%rdi,%r9,8), %r10
	movq	(%rdx,%rax,8), %r11
	movq	%r11, (%rdi,%r9,8)
	movq	%r10, (%rdx,%rax,8)
	movq	%r8, %rax
4:
	cmpq	%r8, %rcx
	je	6f
	addq	%rax, %rsi
	leaq	(%rdi,%rsi,8), %rsi
	addq	$8, %rsi
	subq	%rax, %rcx
	.p2align	4
5:
	movq	-8(%rsi), %rax
	movq	-8(%rdx,%rcx,8), %rdi
	movq	%rdi, -8(%rsi)
	movq	%rax, -8(%rdx,%rcx,8)
	movq	(%rsi), %rax
	movq	-16(%rdx,%rcx,8), %rdi
	movq	%rdi, (%rsi)
	movq	%rax, -16(%rdx,%rcx,8)
	addq	$16, %rsi
	addq	$-2, %rcx
	jne	5b
6:
	retq
7:
	.size	"core::slice::edits::mirror::<i64>", 7b-"core::slice::edits::mirror::<i64>"

	.section	.rodata.cst16,"aM",@progbits,16
	.p2align	4, 0x0
1:
	.byte	15,14,13,12,11,10,9,8,7,6,5,4,3,2,1,0
2:
	.byte	7,6,5,4,3,2,1,0
	.zero	1
	.zero	1
	.zero	1
	.zero	1
	.zero	1
	.zero	1
	.zero	1
	.zero	1
3:
	.byte	7,6,5,4,3,2,1,0,0,0,0,0,0,0,0,0
	.text
	.p2align	4
	.type	"core::slice::edits::mirror::<i8>",@function
"core::slice::edits::mirror::<i8>":
	pushq	%rbp
	pushq	%r15
	pushq	%r14
	pushq	%rbx
	leaq	(%rdi,%rsi), %rax
	leaq	(%rdx,%rcx), %r8
	leaq	(%rax,%rcx), %r9
	cmpq	%r8, %rax
	setb	%r10b
	cmpq	%r9, %rdx
	setb	%r9b
	testb	%r9b, %r10b
	je	4f
	xorl	%r9d, %r9d
	jmp	9f
4:
	movabsq	$9223372036854775776, %r10
	cmpq	$32, %rcx
	jae	5f
	xorl	%r9d, %r9d
	jmp	7f
5:
	movq	%rcx, %r9
	andq	%r10, %r9
	movq	%rcx, %r11
	andq	$-32, %r11
	negq	%r11
	leaq	(%rcx,%rdx), %rbx
	addq	$-16, %rbx
	leaq	(%rsi,%rdi), %r14
	addq	$16, %r14
	xorl	%r15d, %r15d
	.p2align	4
6:
	movdqu	-16(%r14), %xmm0
	movdqu	(%r14), %xmm1
	movdqu	-16(%rbx,%r15), %xmm2
	movdqu	(%rbx,%r15), %xmm3
	movdqa	1b(%rip), %xmm4
	pshufb	%xmm4, %xmm3
	pshufb	%xmm4, %xmm2
	movdqu	%xmm3, -16(%r14)
	movdqu	%xmm2, (%r14)
	pshufb	%xmm4, %xmm0
	pshufb	%xmm4, %xmm1
	movdqu	%xmm0, (%rbx,%r15)
	movdqu	%xmm1, -16(%rbx,%r15)
	addq	$-32, %r15
	addq	$32, %r14
	cmpq	%r15, %r11
	jne	6b
	cmpq	%r9, %rcx
	je	12f
	testb	$24, %cl
	je	9f
7:
	movq	%r9, %r11
	addq	$24, %r10
	movq	%r10, %r9
	andq	%rcx, %r9
	movq	%rcx, %r10
	andq	$-8, %r10
	negq	%r10
	leaq	(%rcx,%rdx), %rbx
	addq	$-8, %rbx
	leaq	(%rax,%r11), %r14
	negq	%r11
	.p2align	4
8:
	movq	(%r14), %xmm0
	movq	(%rbx,%r11), %xmm1
	movq	3b(%rip), %xmm2
	pshufb	%xmm2, %xmm1
	movq	%xmm1, (%r14)
	pshufb	%xmm2, %xmm0
	movq	%xmm0, (%rbx,%r11)
	addq	$-8, %r11
	addq	$8, %r14
	cmpq	%r11, %r10
	jne	8b
	cmpq	%r9, %rcx
	je	12f
9:
	movq	%r9, %r10
	orq	$1, %r10
	testb	$1, %cl
	je	10f
	movq	%r9, %r11
	notq	%r11
	movzbl	(%rax,%r9), %ebx
	movzbl	(%r8,%r11), %ebp
	movb	%bpl, (%rax,%r9)
	movb	%bl, (%r8,%r11)
	movq	%r10, %r9
10:
	cmpq	%r10, %rcx
	je	12f
	addq	%r9, %rsi
	leaq	(%rdi,%rsi), %rax
	incq	%rax
	subq	%r9, %rcx
	.p2align	4
11:
	movzbl	-1(%rax), %esi
	movzbl	-1(%rdx,%rcx), %edi
	movb	%dil, -1(%rax)
	movb	%sil, -1(%rdx,%rcx)
	movzbl	(%rax), %esi
	movzbl	-2(%rdx,%rcx), %edi
	movb	%dil, (%rax)
	movb	%sil, -2(%rdx,%rcx)
	addq	$2, %rax
	addq	$-2, %rcx
	jne	11b
12:
	popq	%rbx
	popq	%r14
	popq	%r15
	popq	%rbp
	retq
13:
	.size	"core::slice::edits::mirror::<i8>", 13b-"core::slice::edits::mirror::<i8>"

	.text
	.p2align	4
	.type	"core::slice::edits::slice+T::reverse::<25'mime_base::magic::Section>",@function
"core::slice::edits::slice+T::reverse::<25'mime_base::magic::Section>":
	cmpq	$15, %rsi
	jbe	1f
	movq	%rsi, %rdx
	shrq	%rdx
	subq	%rdx, %rsi
	leaq	(%rsi,%rsi,4), %rsi
	shlq	$4, %rsi
	addq	%rdi, %rsi
	jmp	"core::slice::edits::mirror::<25'mime_base::magic::Section>"
1:
	cmpq	$2, %rsi
	jb	6f
	pushq	%rbx
	subq	$32, %rsp
	leaq	-2(%rsi), %rax
	shrq	%rax
	incq	%rax
	leaq	(%rsi,%rsi,4), %rcx
	shlq	$4, %rcx
	addq	%rdi, %rcx
	addq	$-80, %rcx
	decq	%rsi
	xorl	%edx, %edx
	jmp	4f
	.p2align	4
2:
	movl	(%rdi), %r8d
	movzbl	8(%rdi), %r9d
	movq	48(%rdi), %r10
	movq	%r10, -32(%rsp)
	movups	32(%rdi), %xmm0
	movaps	%xmm0, -48(%rsp)
	movups	16(%rdi), %xmm0
	movaps	%xmm0, -64(%rsp)
	movq	72(%rdi), %r10
	movq	%r10, -112(%rsp)
	movups	56(%rdi), %xmm0
	movaps	%xmm0, -128(%rsp)
	movl	(%rcx), %r10d
	movzbl	8(%rcx), %r11d
	movups	32(%rcx), %xmm0
	movaps	%xmm0, (%rsp)
	movups	16(%rcx), %xmm0
	movaps	%xmm0, -16(%rsp)
	movq	48(%rcx), %rbx
	movq	%rbx, 16(%rsp)
	movups	56(%rcx), %xmm0
	movaps	%xmm0, -96(%rsp)
	movq	72(%rcx), %rbx
	movq	%rbx, -80(%rsp)
	movl	%r10d, (%rdi)
	movq	%r11, 8(%rdi)
	movaps	-16(%rsp), %xmm0
	movaps	(%rsp), %xmm1
	movups	%xmm0, 16(%rdi)
	movups	%xmm1, 32(%rdi)
	movq	16(%rsp), %r10
	movq	%r10, 48(%rdi)
	movaps	-96(%rsp), %xmm0
	movups	%xmm0, 56(%rdi)
	movq	-80(%rsp), %r10
	movq	%r10, 72(%rdi)
	movl	%r8d, (%rcx)
	movq	%r9, 8(%rcx)
	movaps	-64(%rsp), %xmm0
	movaps	-48(%rsp), %xmm1
	movups	%xmm0, 16(%rcx)
	movups	%xmm1, 32(%rcx)
	movq	-32(%rsp), %r8
	movq	%r8, 48(%rcx)
	movaps	-128(%rsp), %xmm0
	movups	%xmm0, 56(%rcx)
	movq	-112(%rsp), %r8
	movq	%r8, 72(%rcx)
3:
	incq	%rdx
	addq	$80, %rdi
	addq	$-80, %rcx
	decq	%rsi
	cmpq	%rdx, %rax
	je	5f
4:
	cmpq	%rsi, %rdx
	jb	2b
	jbe	3b
	movl	(%rcx), %r8d
	movzbl	8(%rcx), %r9d
	movq	48(%rcx), %r10
	movq	%r10, -32(%rsp)
	movups	32(%rcx), %xmm0
	movaps	%xmm0, -48(%rsp)
	movups	16(%rcx), %xmm0
	movaps	%xmm0, -64(%rsp)
	movq	72(%rcx), %r10
	movq	%r10, -112(%rsp)
	movups	56(%rcx), %xmm0
	movaps	%xmm0, -128(%rsp)
	movl	(%rdi), %r10d
	movzbl	8(%rdi), %r11d
	movups	32(%rdi), %xmm0
	movaps	%xmm0, (%rsp)
	movups	16(%rdi), %xmm0
	movaps	%xmm0, -16(%rsp)
	movq	48(%rdi), %rbx
	movq	%rbx, 16(%rsp)
	movups	56(%rdi), %xmm0
	movaps	%xmm0, -96(%rsp)
	movq	72(%rdi), %rbx
	movq	%rbx, -80(%rsp)
	movl	%r10d, (%rcx)
	movq	%r11, 8(%rcx)
	movaps	-16(%rsp), %xmm0
	movaps	(%rsp), %xmm1
	movups	%xmm0, 16(%rcx)
	movups	%xmm1, 32(%rcx)
	movq	16(%rsp), %r10
	movq	%r10, 48(%rcx)
	movaps	-96(%rsp), %xmm0
	movups	%xmm0, 56(%rcx)
	movq	-80(%rsp), %r10
	movq	%r10, 72(%rcx)
	movl	%r8d, (%rdi)
	movq	%r9, 8(%rdi)
	movaps	-64(%rsp), %xmm0
	movaps	-48(%rsp), %xmm1
	movups	%xmm0, 16(%rdi)
	movups	%xmm1, 32(%rdi)
	movq	-32(%rsp), %r8
	movq	%r8, 48(%rdi)
	movaps	-128(%rsp), %xmm0
	movups	%xmm0, 56(%rdi)
	movq	-112(%rsp), %r8
	movq	%r8, 72(%rdi)
	jmp	3b
5:
	addq	$32, %rsp
	popq	%rbx
6:
	retq
7:
	.size	"core::slice::edits::slice+T::reverse::<25'mime_base::magic::Section>", 7b-"core::slice::edits::slice+T::reverse::<25'mime_base::magic::Section>"

	.text
	.p2align	4
	.type	"core::slice::edits::slice+T::swap_with_slice::<i32>",@function
"core::slice::edits::slice+T::swap_with_slice::<i32>":
	testq	%rsi, %rsi
	je	7f
	cmpq	$8, %rsi
	jb	1f
	leaq	(%rdi,%rsi,4), %rax
	leaq	(%rdx,%rsi,4), %rcx
	cmpq	%rcx, %rdi
	setb	%cl
	cmpq	%rax, %rdx
	setb	%al
	testb	%al, %cl
	je	5f
1:
	xorl	%eax, %eax
2:
	movq	%rax, %rcx
	orq	$1, %rcx
	testb	$1, %sil
	je	3f
	movl	(%rdi,%rax,4), %r8d
	movl	(%rdx,%rax,4), %r9d
	movl	%r9d, (%rdi,%rax,4)
	movl	%r8d, (%rdx,%rax,4)
	movq	%rcx, %rax
3:
	cmpq	%rcx, %rsi
	je	7f
	.p2align	4
4:
	movl	(%rdi,%rax,4), %ecx
	movl	(%rdx,%rax,4), %r8d
	movl	%r8d, (%rdi,%rax,4)
	movl	%ecx, (%rdx,%rax,4)
	movl	4(%rdi,%rax,4), %ecx
	movl	4(%rdx,%rax,4), %r8d
	movl	%r8d, 4(%rdi,%rax,4)
	movl	%ecx, 4(%rdx,%rax,4)
	addq	$2, %rax
	cmpq	%rax, %rsi
	jne	4b
	jmp	7f
5:
	movq	%rsi, %rax
	andq	$-8, %rax
	xorl	%ecx, %ecx
	.p2align	4
6:
	movups	(%rdi,%rcx,4), %xmm0
	movups	16(%rdi,%rcx,4), %xmm1
	movups	(%rdx,%rcx,4), %xmm2
	movups	16(%rdx,%rcx,4), %xmm3
	movups	%xmm2, (%rdi,%rcx,4)
	movups	%xmm3, 16(%rdi,%rcx,4)
	movups	%xmm0, (%rdx,%rcx,4)
	movups	%xmm1, 16(%rdx,%rcx,4)
	addq	$8, %rcx
	cmpq	%rcx, %rax
	jne	6b
	cmpq	%rax, %rsi
	jne	2b
7:
	retq
8:
	.size	"core::slice::edits::slice+T::swap_with_slice::<i32>", 8b-"core::slice::edits::slice+T::swap_with_slice::<i32>"

	.text
	.p2align	4
	.type	"core::slice::edits::slice+T::swap_with_slice::<i8>",@function
"core::slice::edits::slice+T::swap_with_slice::<i8>":
	testq	%rsi, %rsi
	je	5f
	cmpq	$4, %rsi
	jb	1f
	leaq	(%rdi,%rsi), %rax
	leaq	(%rdx,%rsi), %rcx
	cmpq	%rcx, %rdi
	setb	%cl
	cmpq	%rax, %rdx
	setb	%al
	testb	%al, %cl
	je	6f
1:
	xorl	%eax, %eax
2:
	movq	%rax, %rcx
	orq	$1, %rcx
	testb	$1, %sil
	je	3f
	movzbl	(%rdi,%rax), %r8d
	movzbl	(%rdx,%rax), %r9d
	movb	%r9b, (%rdi,%rax)
	movb	%r8b, (%rdx,%rax)
	movq	%rcx, %rax
3:
	cmpq	%rcx, %rsi
	je	5f
	.p2align	4
4:
	movzbl	(%rdi,%rax), %ecx
	movzbl	(%rdx,%rax), %r8d
	movb	%r8b, (%rdi,%rax)
	movb	%cl, (%rdx,%rax)
	movzbl	1(%rdi,%rax), %ecx
	movzbl	1(%rdx,%rax), %r8d
	movb	%r8b, 1(%rdi,%rax)
	movb	%cl, 1(%rdx,%rax)
	addq	$2, %rax
	cmpq	%rax, %rsi
	jne	4b
5:
	retq
6:
	cmpq	$32, %rsi
	jae	7f
	xorl	%eax, %eax
	jmp	9f
7:
	movq	%rsi, %rax
	andq	$-32, %rax
	xorl	%ecx, %ecx
	.p2align	4
8:
	movups	(%rdi,%rcx), %xmm0
	movups	16(%rdi,%rcx), %xmm1
	movups	(%rdx,%rcx), %xmm2
	movups	16(%rdx,%rcx), %xmm3
	movups	%xmm2, (%rdi,%rcx)
	movups	%xmm3, 16(%rdi,%rcx)
	movups	%xmm0, (%rdx,%rcx)
	movups	%xmm1, 16(%rdx,%rcx)
	addq	$32, %rcx
	cmpq	%rcx, %rax
	jne	8b
	cmpq	%rax, %rsi
	je	5b
	testb	$28, %sil
	je	2b
9:
	movq	%rax, %rcx
	movq	%rsi, %rax
	andq	$-4, %rax
	.p2align	4
10:
	movl	(%rdi,%rcx), %r8d
	movl	(%rdx,%rcx), %r9d
	movl	%r9d, (%rdi,%rcx)
	movl	%r8d, (%rdx,%rcx)
	addq	$4, %rcx
	cmpq	%rcx, %rax
	jne	10b
	cmpq	%rax, %rsi
	je	5b
	jmp	2b
11:
	.size	"core::slice::edits::slice+T::swap_with_slice::<i8>", 11b-"core::slice::edits::slice+T::swap_with_slice::<i8>"

	.text
	.p2align	4
	.type	"core::slice::edits::turn_through_room::<i32>",@function
"core::slice::edits::turn_through_room::<i32>":
	pushq	%rbp
	pushq	%r15
	pushq	%r14
	pushq	%r13
	pushq	%r12
	pushq	%rbx
	subq	$3072, %rsp
	movq	$0, (%rsp)
	subq	$1032, %rsp
	movq	%rcx, %r14
	movq	%rdx, %r15
	movq	%rsi, %r13
	movq	%rdi, %rbx
	movq	%rsi, %rbp
	subq	%rcx, %rbp
	movq	%rsp, %r12
	movl	$4096, %edx
	movq	%r12, %rdi
	xorl	%esi, %esi
	callq	memset@PLT
	cmpq	%r15, %r14
	jne	10f
	leaq	(,%r14,4), %r15
	movq	%rsp, %rdi
	movq	%rbx, %rsi
	movq	%r15, %rdx
	callq	memcpy@PLT
	cmpq	$513, %rbp
	jb	11f
	movabsq	$4611686018427387896, %rcx
	movq	%r15, %rdx
	negq	%rdx
	leaq	(%rbx,%r14,4), %rdi
	xorl	%esi, %esi
	movq	%rbx, %r8
	jmp	2f
	.p2align	4
1:
	addq	$512, %rsi
	movq	%rbp, %rax
	subq	%rsi, %rax
	addq	$2048, %rdi
	addq	$2048, %r8
	cmpq	$512, %rax
	jbe	12f
2:
	leaq	(%rsi,%r14), %rax
	cmpq	%rax, %rsi
	jae	4f
	leaq	(%r8,%r15), %rax
	cmpq	$32, %rdx
	jae	6f
	movl	$3, %r9d
	.p2align	4
3:
	movl	-12(%rax,%r9,4), %r10d
	movl	%r10d, -12(%r8,%r9,4)
	movl	-8(%rax,%r9,4), %r10d
	movl	%r10d, -8(%r8,%r9,4)
	movl	-4(%rax,%r9,4), %r10d
	movl	%r10d, -4(%r8,%r9,4)
	movl	(%rax,%r9,4), %r10d
	movl	%r10d, (%r8,%r9,4)
	addq	$4, %r9
	cmpq	$515, %r9
	jne	3b
	jmp	1b
	.p2align	4
4:
	testq	%rcx, %r14
	je	8f
	movl	$496, %eax
	.p2align	4
5:
	movups	32(%rdi,%rax,4), %xmm0
	movups	48(%rdi,%rax,4), %xmm1
	movups	%xmm1, 48(%r8,%rax,4)
	movups	%xmm0, 32(%r8,%rax,4)
	movups	(%rdi,%rax,4), %xmm0
	movups	16(%rdi,%rax,4), %xmm1
	movups	%xmm1, 16(%r8,%rax,4)
	movups	%xmm0, (%r8,%rax,4)
	addq	$-16, %rax
	cmpq	$-16, %rax
	jne	5b
	jmp	1b
	.p2align	4
6:
	movl	$12, %r9d
	.p2align	4
7:
	movups	-48(%rax,%r9,4), %xmm0
	movups	-32(%rax,%r9,4), %xmm1
	movups	%xmm0, -48(%r8,%r9,4)
	movups	%xmm1, -32(%r8,%r9,4)
	movups	-16(%rax,%r9,4), %xmm0
	movups	(%rax,%r9,4), %xmm1
	movups	%xmm0, -16(%r8,%r9,4)
	movups	%xmm1, (%r8,%r9,4)
	addq	$16, %r9
	cmpq	$524, %r9
	jne	7b
	jmp	1b
8:
	movl	$508, %eax
	.p2align	4
9:
	movl	12(%rdi,%rax,4), %r9d
	movl	%r9d, 12(%r8,%rax,4)
	movl	8(%rdi,%rax,4), %r9d
	movl	%r9d, 8(%r8,%rax,4)
	movl	4(%rdi,%rax,4), %r9d
	movl	%r9d, 4(%r8,%rax,4)
	movl	(%rdi,%rax,4), %r9d
	movl	%r9d, (%r8,%rax,4)
	addq	$-4, %rax
	cmpq	$-4, %rax
	jne	9b
	jmp	1b
10:
	leaq	(%rbx,%rbp,4), %rsi
	leaq	(,%r14,4), %r15
	movq	%r12, %rax
	subq	%rsi, %rax
	cmpq	%r15, %rax
	jae	18f
	testq	%r14, %r14
	je	25f
	movq	%rsp, %rdi
	movq	%r15, %rdx
	callq	memcpy@PLT
	jmp	19f
11:
	xorl	%esi, %esi
	movq	%rbp, %rax
12:
	leaq	(%rsi,%r14), %r9
	leaq	(,%r9,4), %r8
	leaq	(%rbx,%r9,4), %rdx
	leaq	(,%rsi,4), %rcx
	leaq	(%rbx,%rsi,4), %rdi
	cmpq	%r9, %rsi
	jae	24f
	cmpq	%rsi, %rbp
	je	32f
	xorl	%esi, %esi
	cmpq	$8, %rax
	jb	14f
	movq	%r15, %r9
	negq	%r9
	cmpq	$32, %r9
	jb	14f
	movl	%eax, %esi
	andl	$1016, %esi
	addq	%rbx, %r8
	addq	$16, %r8
	leaq	(%rcx,%rbx), %r9
	addq	$16, %r9
	xorl	%r10d, %r10d
	.p2align	4
13:
	movups	-16(%r8,%r10,4), %xmm0
	movups	(%r8,%r10,4), %xmm1
	movups	%xmm0, -16(%r9,%r10,4)
	movups	%xmm1, (%r9,%r10,4)
	addq	$8, %r10
	cmpq	%r10, %rsi
	jne	13b
	cmpq	%rsi, %rax
	je	32f
14:
	movq	%rax, %r9
	movq	%rsi, %r8
	andq	$3, %r9
	je	16f
	movq	%rsi, %r8
	.p2align	4
15:
	movl	(%rdx,%r8,4), %r10d
	movl	%r10d, (%rdi,%r8,4)
	incq	%r8
	decq	%r9
	jne	15b
16:
	subq	%rax, %rsi
	cmpq	$-4, %rsi
	ja	32f
	leaq	(%rcx,%r8,4), %rdx
	leaq	(%rbx,%rdx), %rcx
	addq	$12, %rcx
	addq	%rbx, %rdx
	leaq	(%rdx,%r14,4), %rdx
	addq	$12, %rdx
	subq	%r8, %rax
	xorl	%esi, %esi
	.p2align	4
17:
	movl	-12(%rdx,%rsi,4), %edi
	movl	%edi, -12(%rcx,%rsi,4)
	movl	-8(%rdx,%rsi,4), %edi
	movl	%edi, -8(%rcx,%rsi,4)
	movl	-4(%rdx,%rsi,4), %edi
	movl	%edi, -4(%rcx,%rsi,4)
	movl	(%rdx,%rsi,4), %edi
	movl	%edi, (%rcx,%rsi,4)
	addq	$4, %rsi
	cmpq	%rsi, %rax
	jne	17b
	jmp	32f
18:
	movq	%rsp, %rdi
	movq	%r15, %rdx
	callq	memcpy@PLT
	testq	%r14, %r14
	je	25f
19:
	cmpq	%r14, %r13
	je	23f
	xorl	%eax, %eax
	cmpq	$8, %rbp
	jb	21f
	movq	%r15, %rcx
	negq	%rcx
	cmpq	$32, %rcx
	jb	21f
	movq	%rbp, %rax
	andq	$-8, %rax
	movq	%rax, %rcx
	negq	%rcx
	leaq	-16(,%r13,4), %rdx
	subq	%r15, %rdx
	addq	%rbx, %rdx
	leaq	(%rbx,%r13,4), %rsi
	addq	$-16, %rsi
	xorl	%edi, %edi
	.p2align	4
20:
	movups	-16(%rdx,%rdi,4), %xmm0
	movups	(%rdx,%rdi,4), %xmm1
	movups	%xmm1, (%rsi,%rdi,4)
	movups	%xmm0, -16(%rsi,%rdi,4)
	addq	$-8, %rdi
	cmpq	%rdi, %rcx
	jne	20b
	cmpq	%rax, %rbp
	je	23f
21:
	subq	%r13, %r14
	negq	%rax
	leaq	-4(,%r13,4), %rcx
	subq	%r15, %rcx
	addq	%rbx, %rcx
	leaq	(%rbx,%r13,4), %rdx
	addq	$-4, %rdx
	.p2align	4
22:
	movl	(%rcx,%rax,4), %esi
	movl	%esi, (%rdx,%rax,4)
	decq	%rax
	cmpq	%rax, %r14
	jne	22b
23:
	movq	%rbx, %rax
	subq	%r12, %rax
	cmpq	%r15, %rax
	jmp	26f
24:
	cmpq	%rsi, %rbp
	je	32f
	cmpq	$8, %rax
	setb	%sil
	movabsq	$4611686018427387896, %r9
	testq	%r9, %r14
	sete	%r9b
	orb	%sil, %r9b
	je	27f
	xorl	%esi, %esi
	jmp	29f
25:
	movq	%rbx, %rax
	subq	%r12, %rax
	cmpq	%r15, %rax
	jb	34f
26:
	movq	%rsp, %rsi
	movq	%rbx, %rdi
	jmp	33f
27:
	movl	%eax, %esi
	andl	$1016, %esi
	movq	%rsi, %r9
	negq	%r9
	leaq	(%r8,%rax,4), %r8
	addq	%rbx, %r8
	addq	$-16, %r8
	leaq	(%rcx,%rax,4), %r10
	addq	%rbx, %r10
	addq	$-16, %r10
	xorl	%r11d, %r11d
	.p2align	4
28:
	movups	-16(%r8,%r11,4), %xmm0
	movups	(%r8,%r11,4), %xmm1
	movups	%xmm1, (%r10,%r11,4)
	movups	%xmm0, -16(%r10,%r11,4)
	addq	$-8, %r11
	cmpq	%r11, %r9
	jne	28b
	cmpq	%rsi, %rax
	je	32f
29:
	movq	%rsi, %r8
	orq	$1, %r8
	testb	$1, %al
	je	30f
	notq	%rsi
	addq	%rax, %rsi
	movl	(%rdx,%rsi,4), %edx
	movl	%edx, (%rdi,%rsi,4)
	movq	%r8, %rsi
30:
	cmpq	%r8, %rax
	je	32f
	leaq	(%rcx,%rax,4), %rcx
	leal	(,%rsi,4), %edi
	leaq	(%rcx,%r14,4), %rdx
	subq	%rdi, %rcx
	addq	%rbx, %rcx
	subq	%rdi, %rdx
	addq	%rbx, %rdx
	subq	%rax, %rsi
	xorl	%eax, %eax
	.p2align	4
31:
	movl	-4(%rdx,%rax,4), %edi
	movl	%edi, -4(%rcx,%rax,4)
	movl	-8(%rdx,%rax,4), %edi
	movl	%edi, -8(%rcx,%rax,4)
	addq	$-2, %rax
	cmpq	%rax, %rsi
	jne	31b
32:
	leaq	(%rbx,%rbp,4), %rdi
	movq	%rsp, %rsi
33:
	movq	%r15, %rdx
	callq	memcpy@PLT
34:
	addq	$4104, %rsp
	popq	%rbx
	popq	%r12
	popq	%r13
	popq	%r14
	popq	%r15
	popq	%rbp
	retq
35:
	.size	"core::slice::edits::turn_through_room::<i32>", 35b-"core::slice::edits::turn_through_room::<i32>"

	.text
	.p2align	4
	.type	"core::slice::edits::turn_through_room::<i8>",@function
"core::slice::edits::turn_through_room::<i8>":
	pushq	%r15
	pushq	%r14
	pushq	%r13
	pushq	%r12
	pushq	%rbx
	subq	$3072, %rsp
	movq	$0, (%rsp)
	subq	$1024, %rsp
	movq	%rcx, %rbx
	movq	%rdx, %r12
	movq	%rsi, %r15
	movq	%rdi, %r14
	movq	%rsi, %r13
	subq	%rcx, %r13
	movq	%rsp, %rdi
	movl	$4096, %edx
	xorl	%esi, %esi
	callq	memset@PLT
	cmpq	%r12, %rbx
	jne	10f
	movq	%rsp, %rdi
	movq	%r14, %rsi
	movq	%rbx, %rdx
	callq	memcpy@PLT
	cmpq	$2049, %r13
	jb	11f
	leaq	31(%rbx), %rdx
	leaq	(%r14,%rbx), %rsi
	addq	$2032, %rsi
	leaq	2032(%r14), %rdi
	leaq	(%r14,%rbx), %r8
	xorl	%eax, %eax
	movq	%r14, %r9
	jmp	2f
	.p2align	4
1:
	addq	$2048, %rax
	movq	%r13, %rcx
	subq	%rax, %rcx
	addq	$2048, %rsi
	addq	$2048, %rdi
	addq	$2048, %r8
	addq	$2048, %r9
	cmpq	$2048, %rcx
	jbe	12f
2:
	leaq	(%rax,%rbx), %rcx
	cmpq	%rcx, %rax
	jae	4f
	leaq	(%r9,%rbx), %rcx
	cmpq	$32, %rdx
	jae	6f
	movl	$3, %r10d
	.p2align	4
3:
	movzbl	-3(%rcx,%r10), %r11d
	movb	%r11b, -3(%r9,%r10)
	movzbl	-2(%rcx,%r10), %r11d
	movb	%r11b, -2(%r9,%r10)
	movzbl	-1(%rcx,%r10), %r11d
	movb	%r11b, -1(%r9,%r10)
	movzbl	(%rcx,%r10), %r11d
	movb	%r11b, (%r9,%r10)
	addq	$4, %r10
	cmpq	$2051, %r10
	jne	3b
	jmp	1b
	.p2align	4
4:
	cmpq	$32, %rbx
	jae	8f
	movl	$2048, %ecx
	.p2align	4
5:
	movzbl	-1(%r8,%rcx), %r10d
	movb	%r10b, -1(%r9,%rcx)
	movzbl	-2(%r8,%rcx), %r10d
	movb	%r10b, -2(%r9,%rcx)
	movzbl	-3(%r8,%rcx), %r10d
	movb	%r10b, -3(%r9,%rcx)
	movzbl	-4(%r8,%rcx), %r10d
	movb	%r10b, -4(%r9,%rcx)
	addq	$-4, %rcx
	jne	5b
	jmp	1b
	.p2align	4
6:
	movl	$112, %r10d
	.p2align	4
7:
	movups	-112(%rcx,%r10), %xmm0
	movups	-96(%rcx,%r10), %xmm1
	movups	%xmm0, -112(%r9,%r10)
	movups	%xmm1, -96(%r9,%r10)
	movups	-80(%rcx,%r10), %xmm0
	movups	-64(%rcx,%r10), %xmm1
	movups	%xmm0, -80(%r9,%r10)
	movups	%xmm1, -64(%r9,%r10)
	movups	-48(%rcx,%r10), %xmm0
	movups	-32(%rcx,%r10), %xmm1
	movups	%xmm0, -48(%r9,%r10)
	movups	%xmm1, -32(%r9,%r10)
	movups	-16(%rcx,%r10), %xmm0
	movups	(%rcx,%r10), %xmm1
	movups	%xmm0, -16(%r9,%r10)
	movups	%xmm1, (%r9,%r10)
	subq	$-128, %r10
	cmpq	$2160, %r10
	jne	7b
	jmp	1b
	.p2align	4
8:
	xorl	%ecx, %ecx
	.p2align	4
9:
	movups	-16(%rsi,%rcx), %xmm0
	movups	(%rsi,%rcx), %xmm1
	movups	%xmm1, (%rdi,%rcx)
	movups	%xmm0, -16(%rdi,%rcx)
	movups	-48(%rsi,%rcx), %xmm0
	movups	-32(%rsi,%rcx), %xmm1
	movups	%xmm1, -32(%rdi,%rcx)
	movups	%xmm0, -48(%rdi,%rcx)
	movups	-80(%rsi,%rcx), %xmm0
	movups	-64(%rsi,%rcx), %xmm1
	movups	%xmm1, -64(%rdi,%rcx)
	movups	%xmm0, -80(%rdi,%rcx)
	movups	-112(%rsi,%rcx), %xmm0
	movups	-96(%rsi,%rcx), %xmm1
	movups	%xmm1, -96(%rdi,%rcx)
	movups	%xmm0, -112(%rdi,%rcx)
	addq	$-128, %rcx
	cmpq	$-2048, %rcx
	jne	9b
	jmp	1b
10:
	leaq	(%r14,%r13), %rsi
	movq	%rsp, %rdi
	movq	%rbx, %rdx
	callq	memcpy@PLT
	testq	%rbx, %rbx
	je	40f
	cmpq	%rbx, %r15
	je	40f
	cmpq	$8, %r13
	setb	%al
	leaq	31(%rbx), %rcx
	cmpq	$32, %rcx
	setb	%cl
	orb	%al, %cl
	je	14f
	xorl	%eax, %eax
	jmp	21f
11:
	xorl	%eax, %eax
	movq	%r13, %rcx
12:
	leaq	(%rax,%rbx), %rdx
	cmpq	%rdx, %rax
	jae	13f
	cmpq	%rax, %r13
	je	39f
	addq	%r14, %rdx
	leaq	(%r14,%rax), %rsi
	cmpq	$4, %rcx
	setb	%dil
	leaq	31(%rbx), %r8
	cmpq	$32, %r8
	setb	%r8b
	orb	%dil, %r8b
	je	15f
	xorl	%edi, %edi
	jmp	27f
13:
	cmpq	%rax, %r13
	je	39f
	cmpq	$8, %rcx
	setb	%dl
	cmpq	$32, %rbx
	setb	%sil
	orb	%dl, %sil
	je	16f
	xorl	%edx, %edx
	jmp	35f
14:
	cmpq	$32, %r13
	jae	17f
	xorl	%eax, %eax
	jmp	19f
15:
	cmpq	$32, %rcx
	jae	23f
	xorl	%edi, %edi
	jmp	25f
16:
	cmpq	$32, %rcx
	jae	31f
	xorl	%edx, %edx
	jmp	33f
17:
	movq	%r13, %rax
	andq	$-32, %rax
	movq	%rax, %rcx
	negq	%rcx
	leaq	-16(%r15), %rdx
	subq	%rbx, %rdx
	addq	%r14, %rdx
	leaq	(%r14,%r15), %rsi
	addq	$-16, %rsi
	xorl	%edi, %edi
	.p2align	4
18:
	movups	-16(%rdx,%rdi), %xmm0
	movups	(%rdx,%rdi), %xmm1
	movups	%xmm1, (%rsi,%rdi)
	movups	%xmm0, -16(%rsi,%rdi)
	addq	$-32, %rdi
	cmpq	%rdi, %rcx
	jne	18b
	cmpq	%rax, %r13
	je	40f
	testb	$24, %r13b
	je	21f
19:
	movq	%rax, %rcx
	movq	%r13, %rax
	andq	$-8, %rax
	movq	%rax, %rdx
	negq	%rdx
	negq	%rcx
	leaq	-8(%r15), %rsi
	subq	%rbx, %rsi
	addq	%r14, %rsi
	leaq	(%r14,%r15), %rdi
	addq	$-8, %rdi
	.p2align	4
20:
	movq	(%rsi,%rcx), %r8
	movq	%r8, (%rdi,%rcx)
	addq	$-8, %rcx
	cmpq	%rcx, %rdx
	jne	20b
	cmpq	%rax, %r13
	je	40f
21:
	subq	%rax, %r15
	movq	%rbx, %rax
	notq	%rax
	addq	%r14, %rax
	.p2align	4
22:
	movzbl	(%rax,%r15), %ecx
	movb	%cl, -1(%r14,%r15)
	decq	%r15
	cmpq	%r15, %rbx
	jne	22b
	jmp	40f
23:
	movl	%ecx, %edi
	andl	$4064, %edi
	leaq	(%rbx,%rsi), %r8
	addq	$16, %r8
	leaq	(%rax,%r14), %r9
	addq	$16, %r9
	xorl	%r10d, %r10d
	.p2align	4
24:
	movups	-16(%r8,%r10), %xmm0
	movups	(%r8,%r10), %xmm1
	movups	%xmm0, -16(%r9,%r10)
	movups	%xmm1, (%r9,%r10)
	addq	$32, %r10
	cmpq	%r10, %rdi
	jne	24b
	cmpq	%rdi, %rcx
	je	39f
	testb	$28, %cl
	je	27f
25:
	movq	%rdi, %r8
	movl	%ecx, %edi
	andl	$4092, %edi
	.p2align	4
26:
	movl	(%rdx,%r8), %r9d
	movl	%r9d, (%rsi,%r8)
	addq	$4, %r8
	cmpq	%r8, %rdi
	jne	26b
	cmpq	%rdi, %rcx
	je	39f
27:
	movq	%rcx, %r9
	movq	%rdi, %r8
	andq	$3, %r9
	je	29f
	movq	%rdi, %r8
	.p2align	4
28:
	movzbl	(%rdx,%r8), %r10d
	movb	%r10b, (%rsi,%r8)
	incq	%r8
	decq	%r9
	jne	28b
29:
	subq	%rcx, %rdi
	cmpq	$-4, %rdi
	ja	39f
	leaq	(%rbx,%rsi), %rdx
	addq	$3, %rdx
	addq	%r14, %rax
	addq	$3, %rax
	.p2align	4
30:
	movzbl	-3(%rdx,%r8), %esi
	movb	%sil, -3(%rax,%r8)
	movzbl	-2(%rdx,%r8), %esi
	movb	%sil, -2(%rax,%r8)
	movzbl	-1(%rdx,%r8), %esi
	movb	%sil, -1(%rax,%r8)
	movzbl	(%rdx,%r8), %esi
	movb	%sil, (%rax,%r8)
	addq	$4, %r8
	cmpq	%r8, %rcx
	jne	30b
	jmp	39f
31:
	movl	%ecx, %edx
	andl	$4064, %edx
	movq	%rdx, %rsi
	negq	%rsi
	leaq	(%rcx,%rax), %r8
	leaq	(%r8,%r14), %rdi
	addq	%rbx, %rdi
	addq	$-16, %rdi
	addq	%r14, %r8
	addq	$-16, %r8
	xorl	%r9d, %r9d
	.p2align	4
32:
	movups	-16(%rdi,%r9), %xmm0
	movups	(%rdi,%r9), %xmm1
	movups	%xmm1, (%r8,%r9)
	movups	%xmm0, -16(%r8,%r9)
	addq	$-32, %r9
	cmpq	%r9, %rsi
	jne	32b
	cmpq	%rdx, %rcx
	je	39f
	testb	$24, %cl
	je	35f
33:
	movq	%rdx, %rsi
	leaq	(%rcx,%rax), %r8
	leaq	(%r8,%rbx), %rdi
	subq	%rdx, %rdi
	subq	%rdx, %r8
	movl	%ecx, %edx
	andl	$4088, %edx
	subq	%rdx, %rsi
	addq	%r14, %rdi
	addq	$-8, %rdi
	addq	%r14, %r8
	addq	$-8, %r8
	xorl	%r9d, %r9d
	.p2align	4
34:
	movq	(%rdi,%r9), %r10
	movq	%r10, (%r8,%r9)
	addq	$-8, %r9
	cmpq	%r9, %rsi
	jne	34b
	cmpq	%rdx, %rcx
	je	39f
35:
	movq	%rcx, %rdi
	movq	%rdx, %rsi
	andq	$3, %rdi
	je	37f
	leaq	(%rcx,%rax), %r9
	leaq	(%r9,%rbx), %rsi
	movq	%rdx, %r8
	notq	%r8
	addq	%r14, %rsi
	addq	%r8, %rsi
	addq	%r9, %r8
	addq	%r14, %r8
	negq	%rdi
	xorl	%r9d, %r9d
	.p2align	4
36:
	movzbl	(%rsi,%r9), %r10d
	movb	%r10b, (%r8,%r9)
	decq	%r9
	cmpq	%r9, %rdi
	jne	36b
	movq	%rdx, %rsi
	subq	%r9, %rsi
37:
	subq	%rcx, %rdx
	cmpq	$-4, %rdx
	ja	39f
	addq	%rcx, %rax
	movq	%rsi, %rdi
	notq	%rdi
	leaq	(%r14,%rax), %rdx
	addq	%rdi, %rdx
	addq	%rbx, %rax
	addq	%r14, %rax
	addq	%rdi, %rax
	subq	%rcx, %rsi
	xorl	%ecx, %ecx
	.p2align	4
38:
	movzbl	(%rax,%rcx), %edi
	movb	%dil, (%rdx,%rcx)
	movzbl	-1(%rax,%rcx), %edi
	movb	%dil, -1(%rdx,%rcx)
	movzbl	-2(%rax,%rcx), %edi
	movb	%dil, -2(%rdx,%rcx)
	movzbl	-3(%rax,%rcx), %edi
	movb	%dil, -3(%rdx,%rcx)
	addq	$-4, %rcx
	cmpq	%rcx, %rsi
	jne	38b
39:
	addq	%r13, %r14
40:
	movq	%rsp, %rsi
	movq	%r14, %rdi
	movq	%rbx, %rdx
	callq	memcpy@PLT
	addq	$4096, %rsp
	popq	%rbx
	popq	%r12
	popq	%r13
	popq	%r14
	popq	%r15
	retq
41:
	.size	"core::slice::edits::turn_through_room::<i8>", 41b-"core::slice::edits::turn_through_room::<i8>"

	.text
	.p2align	4
	.type	"core::slice::sort::merge::merge::<#12eb916b83b0f891>",@function
"core::slice::sort::merge::merge::<#12eb916b83b0f891>":
	pushq	%rbp
	pushq	%r15
	pushq	%r14
	pushq	%r13
	pushq	%r12
	pushq	%rbx
	subq	$24, %rsp
	movq	%rcx, %rbp
	movq	%rdx, %r12
	movq	%rsi, %r15
	movq	%rdi, %r14
	movq	%rsi, %rcx
	shrq	$2, %rcx
	cmpq	%rdx, %rcx
	setbe	%al
	movq	%rsi, %rbx
	subq	%rdx, %rbx
	cmpq	%rbx, %rcx
	setbe	%cl
	cmpq	$4097, %rsi
	jb	1f
	andb	%cl, %al
	jne	1f
	leaq	(,%r12,8), %rdx
	movq	(%rbp), %r13
	movq	8(%rbp), %rax
	movq	%rax, 16(%rsp)
	cmpq	%rbx, %r12
	jbe	11f
	movq	%rbp, 8(%rsp)
	leaq	(%r14,%rdx), %rsi
	leaq	(%rdx,%r13), %rbp
	leaq	(,%rbx,8), %r8
	movq	%rbp, %rax
	subq	%rsi, %rax
	cmpq	%r8, %rax
	jae	12f
	cmpq	%r12, %r15
	je	40f
	cmpq	$4, %rbx
	setb	%al
	movq	%r13, %rcx
	subq	%r14, %rcx
	cmpq	$32, %rcx
	setb	%cl
	orb	%al, %cl
	je	36f
	xorl	%eax, %eax
	jmp	38f
1:
	movq	(%rbp), %r13
	movq	8(%rbp), %rbx
	leaq	(,%r15,8), %rdx
	movq	%r13, %rax
	subq	%r14, %rax
	cmpq	%rdx, %rax
	jae	2f
	testq	%r15, %r15
	je	3f
	cmpq	$4, %r15
	setb	%cl
	cmpq	$32, %rax
	setb	%al
	orb	%cl, %al
	je	20f
	xorl	%eax, %eax
	jmp	22f
2:
	movq	%r13, %rdi
	movq	%r14, %rsi
	callq	memmove@PLT
3:
	testq	%r12, %r12
	sete	%al
	cmpq	%r12, %r15
	setbe	%cl
	orb	%al, %cl
	jne	7f
	xorl	%eax, %eax
	xorl	%edx, %edx
	movq	%r12, %rcx
	movq	%r15, %rsi
	.p2align	4
4:
	movq	%rcx, %rdi
	movl	(%r13,%rdx,8), %r8d
	movl	(%r13,%rcx,8), %r9d
	cmpl	%r9d, %r8d
	adcq	$0, %rcx
	cmpl	%r9d, %r8d
	cmovaeq	%rdx, %rdi
	movq	(%r13,%rdi,8), %rdi
	movq	%rdi, (%r14,%rax,8)
	sbbq	$-1, %rdx
	cmpq	%r12, %rdx
	jae	5f
	cmpq	%rsi, %rcx
	jae	5f
	movl	-8(%r13,%r12,8), %edi
	movl	-8(%r13,%rsi,8), %r8d
	cmpl	%r8d, %edi
	movq	%r12, %r9
	sbbq	$0, %r9
	cmpl	%r8d, %edi
	cmovaeq	%rsi, %r12
	adcq	$-1, %rsi
	movq	-8(%r13,%r12,8), %rdi
	movq	%rdi, -8(%r14,%r15,8)
	decq	%r15
	movq	%r9, %r12
5:
	incq	%rax
	cmpq	%r12, %rdx
	jae	6f
	cmpq	%rsi, %rcx
	jb	4b
6:
	cmpq	%r12, %rdx
	cmovbq	%rdx, %rcx
	shlq	$3, %rcx
	jmp	8f
7:
	xorl	%eax, %eax
	xorl	%ecx, %ecx
8:
	movq	%r15, %r8
	subq	%rax, %r8
	leaq	(%rcx,%r13), %rsi
	leaq	(%r14,%rax,8), %rdi
	leaq	(,%r8,8), %rdx
	movq	%rdi, %r9
	subq	%rsi, %r9
	cmpq	%rdx, %r9
	jae	10f
	cmpq	%rax, %r15
	je	58f
	cmpq	$8, %r8
	jb	9f
	shlq	$3, %rax
	leaq	(%rax,%r14), %rdx
	subq	%rsi, %rdx
	cmpq	$32, %rdx
	jae	34f
9:
	xorl	%edx, %edx
	jmp	56f
10:
	callq	memmove@PLT
	jmp	58f
11:
	movq	%r13, %rax
	subq	%r14, %rax
	cmpq	%rdx, %rax
	jae	13f
	testq	%r12, %r12
	je	26f
	cmpq	$4, %r12
	setb	%cl
	cmpq	$32, %rax
	setb	%al
	orb	%cl, %al
	je	28f
	xorl	%eax, %eax
	jmp	30f
12:
	movq	%rbp, %rdi
	movq	%r8, %rdx
	callq	memmove@PLT
	leaq	(,%rbx,8), %r8
	leaq	(,%r12,8), %rdx
	jmp	40f
13:
	movq	%r13, %rdi
	movq	%r14, %rsi
	callq	memmove@PLT
14:
	testq	%r12, %r12
	sete	%al
	cmpq	%r12, %r15
	setbe	%cl
	orb	%al, %cl
	jne	16f
	xorl	%eax, %eax
	xorl	%r8d, %r8d
	movq	%r12, %rcx
	.p2align	4
15:
	movq	%rcx, %rdx
	movl	(%r13,%r8,8), %esi
	movl	(%r14,%rcx,8), %edi
	cmpl	%edi, %esi
	adcq	$0, %rcx
	cmpl	%edi, %esi
	movq	%r13, %rsi
	cmovbq	%r14, %rsi
	cmovaeq	%r8, %rdx
	movq	(%rsi,%rdx,8), %rdx
	movq	%rdx, (%r14,%rax)
	sbbq	$-1, %r8
	addq	$8, %rax
	cmpq	%r12, %r8
	jae	17f
	cmpq	%r15, %rcx
	jb	15b
	jmp	17f
16:
	xorl	%eax, %eax
	xorl	%r8d, %r8d
17:
	movq	%r12, %rcx
	subq	%r8, %rcx
	leaq	(,%r8,8), %rsi
	addq	%r13, %rsi
	leaq	(%r14,%rax), %rdi
	leaq	(,%rcx,8), %rdx
	movq	%rdi, %r9
	subq	%rsi, %r9
	cmpq	%rdx, %r9
	jae	19f
	cmpq	%r8, %r12
	je	61f
	cmpq	$8, %rcx
	jb	18f
	shlq	$3, %r8
	leaq	(%r14,%rax), %rdx
	subq	%r8, %rdx
	subq	%r13, %rdx
	cmpq	$32, %rdx
	jae	54f
18:
	xorl	%edx, %edx
	jmp	59f
19:
	movq	%rdi, %r14
	jmp	27f
20:
	movq	%r15, %rax
	andq	$-4, %rax
	xorl	%ecx, %ecx
	.p2align	4
21:
	movups	(%r14,%rcx,8), %xmm0
	movups	16(%r14,%rcx,8), %xmm1
	movups	%xmm0, (%r13,%rcx,8)
	movups	%xmm1, 16(%r13,%rcx,8)
	addq	$4, %rcx
	cmpq	%rcx, %rax
	jne	21b
	cmpq	%rax, %r15
	je	3b
22:
	movq	%r15, %rdx
	movq	%rax, %rcx
	andq	$3, %rdx
	je	24f
	movq	%rax, %rcx
	.p2align	4
23:
	movq	(%r14,%rcx,8), %rsi
	movq	%rsi, (%r13,%rcx,8)
	incq	%rcx
	decq	%rdx
	jne	23b
24:
	subq	%r15, %rax
	cmpq	$-4, %rax
	ja	3b
	.p2align	4
25:
	movq	(%r14,%rcx,8), %rax
	movq	%rax, (%r13,%rcx,8)
	movq	8(%r14,%rcx,8), %rax
	movq	%rax, 8(%r13,%rcx,8)
	movq	16(%r14,%rcx,8), %rax
	movq	%rax, 16(%r13,%rcx,8)
	movq	24(%r14,%rcx,8), %rax
	movq	%rax, 24(%r13,%rcx,8)
	addq	$4, %rcx
	cmpq	%rcx, %r15
	jne	25b
	jmp	3b
26:
	xorl	%edx, %edx
	movq	%r13, %rsi
27:
	movq	%r14, %rdi
	callq	memmove@PLT
	jmp	61f
28:
	movq	%r12, %rax
	andq	$-4, %rax
	xorl	%ecx, %ecx
	.p2align	4
29:
	movups	(%r14,%rcx,8), %xmm0
	movups	16(%r14,%rcx,8), %xmm1
	movups	%xmm0, (%r13,%rcx,8)
	movups	%xmm1, 16(%r13,%rcx,8)
	addq	$4, %rcx
	cmpq	%rcx, %rax
	jne	29b
	cmpq	%rax, %r12
	je	14b
30:
	movq	%r12, %rdx
	movq	%rax, %rcx
	andq	$3, %rdx
	je	32f
	movq	%rax, %rcx
	.p2align	4
31:
	movq	(%r14,%rcx,8), %rsi
	movq	%rsi, (%r13,%rcx,8)
	incq	%rcx
	decq	%rdx
	jne	31b
32:
	subq	%r12, %rax
	cmpq	$-4, %rax
	ja	14b
	.p2align	4
33:
	movq	(%r14,%rcx,8), %rax
	movq	%rax, (%r13,%rcx,8)
	movq	8(%r14,%rcx,8), %rax
	movq	%rax, 8(%r13,%rcx,8)
	movq	16(%r14,%rcx,8), %rax
	movq	%rax, 16(%r13,%rcx,8)
	movq	24(%r14,%rcx,8), %rax
	movq	%rax, 24(%r13,%rcx,8)
	addq	$4, %rcx
	cmpq	%rcx, %r12
	jne	33b
	jmp	14b
34:
	movq	%r8, %rdx
	andq	$-4, %rdx
	addq	%r13, %rcx
	addq	$16, %rcx
	addq	%r14, %rax
	addq	$16, %rax
	xorl	%r9d, %r9d
	.p2align	4
35:
	movups	-16(%rcx,%r9,8), %xmm0
	movups	(%rcx,%r9,8), %xmm1
	movups	%xmm0, -16(%rax,%r9,8)
	movups	%xmm1, (%rax,%r9,8)
	addq	$4, %r9
	cmpq	%r9, %rdx
	jne	35b
	jmp	57f
36:
	movq	%rbx, %rax
	andq	$-4, %rax
	leaq	(%r14,%rdx), %rcx
	addq	$16, %rcx
	leaq	(%rdx,%r13), %rdi
	addq	$16, %rdi
	xorl	%esi, %esi
	.p2align	4
37:
	movups	-16(%rcx,%rsi,8), %xmm0
	movups	(%rcx,%rsi,8), %xmm1
	movups	%xmm0, -16(%rdi,%rsi,8)
	movups	%xmm1, (%rdi,%rsi,8)
	addq	$4, %rsi
	cmpq	%rsi, %rax
	jne	37b
	cmpq	%rax, %rbx
	je	40f
38:
	addq	%r12, %rax
	.p2align	4
39:
	movq	(%r14,%rax,8), %rcx
	movq	%rcx, (%r13,%rax,8)
	incq	%rax
	cmpq	%rax, %r15
	jne	39b
40:
	cmpq	%r12, %r15
	jbe	43f
	leaq	(%r14,%r15,8), %rcx
	addq	$-8, %rcx
	movq	%r12, %rax
	.p2align	4
41:
	leaq	-1(%r15), %r9
	leaq	-1(%rax), %rsi
	movl	-8(%r14,%rax,8), %edi
	movl	-8(%r13,%r15,8), %r8d
	cmpl	%r8d, %edi
	adcq	$-1, %r15
	cmpl	%r8d, %edi
	movq	%r13, %rdi
	cmovbq	%r14, %rdi
	cmovbq	%rsi, %r9
	movq	(%rdi,%r9,8), %rsi
	movq	%rsi, (%rcx)
	sbbq	$0, %rax
	je	42f
	addq	$-8, %rcx
	cmpq	%r12, %r15
	ja	41b
42:
	movq	%r15, %rbx
	subq	%r12, %rbx
	shlq	$3, %rax
	leaq	(,%rbx,8), %r8
	jmp	44f
43:
	movq	%rdx, %rax
44:
	leaq	(%r14,%rax), %rdi
	movq	%rdi, %rcx
	subq	%rbp, %rcx
	cmpq	%r8, %rcx
	jae	50f
	cmpq	%r12, %r15
	movq	8(%rsp), %r9
	je	51f
	cmpq	$8, %rbx
	jb	45f
	cmpq	$32, %rcx
	jae	52f
45:
	xorl	%ecx, %ecx
46:
	movq	%rbx, %rsi
	movq	%rcx, %r10
	andq	$3, %rsi
	je	48f
	movq	%rcx, %r10
	.p2align	4
47:
	movq	(%rbp,%r10,8), %r8
	movq	%r8, (%rdi,%r10,8)
	incq	%r10
	decq	%rsi
	jne	47b
48:
	subq	%rbx, %rcx
	cmpq	$-4, %rcx
	ja	51f
	addq	%r14, %rax
	addq	$24, %rax
	leaq	(%rdx,%r13), %rcx
	addq	$24, %rcx
	.p2align	4
49:
	movq	-24(%rcx,%r10,8), %rsi
	movq	%rsi, -24(%rax,%r10,8)
	movq	-16(%rcx,%r10,8), %rsi
	movq	%rsi, -16(%rax,%r10,8)
	movq	-8(%rcx,%r10,8), %rsi
	movq	%rsi, -8(%rax,%r10,8)
	movq	(%rcx,%r10,8), %rsi
	movq	%rsi, (%rax,%r10,8)
	addq	$4, %r10
	cmpq	%r10, %rbx
	jne	49b
	jmp	51f
50:
	movq	%rbp, %rsi
	movq	%r8, %rdx
	callq	memmove@PLT
	movq	8(%rsp), %r9
51:
	movq	%r13, (%r9)
	movq	16(%rsp), %rax
	movq	%rax, 8(%r9)
	jmp	62f
52:
	movq	%rbx, %rcx
	andq	$-4, %rcx
	leaq	(%rdx,%r13), %r10
	addq	$16, %r10
	leaq	(%rax,%r14), %rsi
	addq	$16, %rsi
	xorl	%r8d, %r8d
	.p2align	4
53:
	movups	-16(%r10,%r8,8), %xmm0
	movups	(%r10,%r8,8), %xmm1
	movups	%xmm0, -16(%rsi,%r8,8)
	movups	%xmm1, (%rsi,%r8,8)
	addq	$4, %r8
	cmpq	%r8, %rcx
	jne	53b
	cmpq	%rcx, %rbx
	je	51b
	jmp	46b
54:
	movq	%rcx, %rdx
	andq	$-4, %rdx
	addq	%r13, %r8
	addq	$16, %r8
	addq	%r14, %rax
	addq	$16, %rax
	xorl	%r9d, %r9d
	.p2align	4
55:
	movups	-16(%r8,%r9,8), %xmm0
	movups	(%r8,%r9,8), %xmm1
	movups	%xmm0, -16(%rax,%r9,8)
	movups	%xmm1, (%rax,%r9,8)
	addq	$4, %r9
	cmpq	%r9, %rdx
	jne	55b
	jmp	60f
56:
	movq	(%rsi,%rdx,8), %rax
	movq	%rax, (%rdi,%rdx,8)
	incq	%rdx
57:
	cmpq	%rdx, %r8
	jne	56b
58:
	movq	%r13, (%rbp)
	movq	%rbx, 8(%rbp)
	jmp	62f
59:
	movq	(%rsi,%rdx,8), %rax
	movq	%rax, (%rdi,%rdx,8)
	incq	%rdx
60:
	cmpq	%rdx, %rcx
	jne	59b
61:
	movq	%r13, (%rbp)
	movq	16(%rsp), %rax
	movq	%rax, 8(%rbp)
62:
	addq	$24, %rsp
	popq	%rbx
	popq	%r12
	popq	%r13
	popq	%r14
	popq	%r15
	popq	%rbp
	retq
63:
	.size	"core::slice::sort::merge::merge::<#12eb916b83b0f891>", 63b-"core::slice::sort::merge::merge::<#12eb916b83b0f891>"

	.text
	.p2align	4
	.type	"core::slice::sort::merge::merge::<#196989f31ad14034>",@function
"core::slice::sort::merge::merge::<#196989f31ad14034>":
	pushq	%rbp
	pushq	%r15
	pushq	%r14
	pushq	%r13
	pushq	%r12
	pushq	%rbx
	subq	$24, %rsp
	movq	%rcx, %rbp
	movq	%rdx, %r12
	movq	%rsi, %r15
	movq	%rdi, %r14
	movq	%rsi, %rcx
	shrq	$2, %rcx
	cmpq	%rdx, %rcx
	setbe	%al
	movq	%rsi, %rbx
	subq	%rdx, %rbx
	cmpq	%rbx, %rcx
	setbe	%cl
	cmpq	$4097, %rsi
	jb	1f
	andb	%cl, %al
	jne	1f
	leaq	(,%r12,8), %rdx
	movq	(%rbp), %r13
	movq	8(%rbp), %rax
	movq	%rax, 16(%rsp)
	cmpq	%rbx, %r12
	jbe	11f
	movq	%rbp, 8(%rsp)
	leaq	(%r14,%rdx), %rsi
	leaq	(%rdx,%r13), %rbp
	leaq	(,%rbx,8), %r8
	movq	%rbp, %rax
	subq	%rsi, %rax
	cmpq	%r8, %rax
	jae	12f
	cmpq	%r12, %r15
	je	40f
	cmpq	$4, %rbx
	setb	%al
	movq	%r13, %rcx
	subq	%r14, %rcx
	cmpq	$32, %rcx
	setb	%cl
	orb	%al, %cl
	je	36f
	xorl	%eax, %eax
	jmp	38f
1:
	movq	(%rbp), %r13
	movq	8(%rbp), %rbx
	leaq	(,%r15,8), %rdx
	movq	%r13, %rax
	subq	%r14, %rax
	cmpq	%rdx, %rax
	jae	2f
	testq	%r15, %r15
	je	3f
	cmpq	$4, %r15
	setb	%cl
	cmpq	$32, %rax
	setb	%al
	orb	%cl, %al
	je	20f
	xorl	%eax, %eax
	jmp	22f
2:
	movq	%r13, %rdi
	movq	%r14, %rsi
	callq	memmove@PLT
3:
	testq	%r12, %r12
	sete	%al
	cmpq	%r12, %r15
	setbe	%cl
	orb	%al, %cl
	jne	7f
	xorl	%eax, %eax
	xorl	%edx, %edx
	movq	%r12, %rcx
	movq	%r15, %rsi
	.p2align	4
4:
	movq	%rcx, %rdi
	movq	(%r13,%rcx,8), %r8
	movq	(%r13,%rdx,8), %r9
	movl	56(%r9), %r9d
	movl	56(%r8), %r8d
	cmpl	%r8d, %r9d
	adcq	$0, %rcx
	cmpl	%r8d, %r9d
	cmovaeq	%rdx, %rdi
	movq	(%r13,%rdi,8), %rdi
	movq	%rdi, (%r14,%rax,8)
	sbbq	$-1, %rdx
	cmpq	%r12, %rdx
	jae	5f
	cmpq	%rsi, %rcx
	jae	5f
	movq	-8(%r13,%rsi,8), %rdi
	movq	-8(%r13,%r12,8), %r8
	movl	56(%r8), %r8d
	movl	56(%rdi), %edi
	cmpl	%edi, %r8d
	movq	%r12, %r9
	sbbq	$0, %r9
	cmpl	%edi, %r8d
	cmovaeq	%rsi, %r12
	adcq	$-1, %rsi
	movq	-8(%r13,%r12,8), %rdi
	movq	%rdi, -8(%r14,%r15,8)
	decq	%r15
	movq	%r9, %r12
5:
	incq	%rax
	cmpq	%r12, %rdx
	jae	6f
	cmpq	%rsi, %rcx
	jb	4b
6:
	cmpq	%r12, %rdx
	cmovbq	%rdx, %rcx
	shlq	$3, %rcx
	jmp	8f
7:
	xorl	%eax, %eax
	xorl	%ecx, %ecx
8:
	movq	%r15, %r8
	subq	%rax, %r8
	leaq	(%rcx,%r13), %rsi
	leaq	(%r14,%rax,8), %rdi
	leaq	(,%r8,8), %rdx
	movq	%rdi, %r9
	subq	%rsi, %r9
	cmpq	%rdx, %r9
	jae	10f
	cmpq	%rax, %r15
	je	58f
	cmpq	$8, %r8
	jb	9f
	shlq	$3, %rax
	leaq	(%rax,%r14), %rdx
	subq	%rsi, %rdx
	cmpq	$32, %rdx
	jae	34f
9:
	xorl	%edx, %edx
	jmp	56f
10:
	callq	memmove@PLT
	jmp	58f
11:
	movq	%r13, %rax
	subq	%r14, %rax
	cmpq	%rdx, %rax
	jae	13f
	testq	%r12, %r12
	je	26f
	cmpq	$4, %r12
	setb	%cl
	cmpq	$32, %rax
	setb	%al
	orb	%cl, %al
	je	28f
	xorl	%eax, %eax
	jmp	30f
12:
	movq	%rbp, %rdi
	movq	%r8, %rdx
	callq	memmove@PLT
	leaq	(,%rbx,8), %r8
	leaq	(,%r12,8), %rdx
	jmp	40f
13:
	movq	%r13, %rdi
	movq	%r14, %rsi
	callq	memmove@PLT
14:
	testq	%r12, %r12
	sete	%al
	cmpq	%r12, %r15
	setbe	%cl
	orb	%al, %cl
	jne	16f
	xorl	%eax, %eax
	xorl	%r8d, %r8d
	movq	%r12, %rcx
	.p2align	4
15:
	movq	%rcx, %rdx
	movq	(%r14,%rcx,8), %rsi
	movq	(%r13,%r8,8), %rdi
	movl	56(%rdi), %edi
	movl	56(%rsi), %esi
	cmpl	%esi, %edi
	adcq	$0, %rcx
	cmpl	%esi, %edi
	movq	%r13, %rsi
	cmovbq	%r14, %rsi
	cmovaeq	%r8, %rdx
	movq	(%rsi,%rdx,8), %rdx
	movq	%rdx, (%r14,%rax)
	sbbq	$-1, %r8
	addq	$8, %rax
	cmpq	%r12, %r8
	jae	17f
	cmpq	%r15, %rcx
	jb	15b
	jmp	17f
16:
	xorl	%eax, %eax
	xorl	%r8d, %r8d
17:
	movq	%r12, %rcx
	subq	%r8, %rcx
	leaq	(,%r8,8), %rsi
	addq	%r13, %rsi
	leaq	(%r14,%rax), %rdi
	leaq	(,%rcx,8), %rdx
	movq	%rdi, %r9
	subq	%rsi, %r9
	cmpq	%rdx, %r9
	jae	19f
	cmpq	%r8, %r12
	je	61f
	cmpq	$8, %rcx
	jb	18f
	shlq	$3, %r8
	leaq	(%r14,%rax), %rdx
	subq	%r8, %rdx
	subq	%r13, %rdx
	cmpq	$32, %rdx
	jae	54f
18:
	xorl	%edx, %edx
	jmp	59f
19:
	movq	%rdi, %r14
	jmp	27f
20:
	movq	%r15, %rax
	andq	$-4, %rax
	xorl	%ecx, %ecx
	.p2align	4
21:
	movups	(%r14,%rcx,8), %xmm0
	movups	16(%r14,%rcx,8), %xmm1
	movups	%xmm0, (%r13,%rcx,8)
	movups	%xmm1, 16(%r13,%rcx,8)
	addq	$4, %rcx
	cmpq	%rcx, %rax
	jne	21b
	cmpq	%rax, %r15
	je	3b
22:
	movq	%r15, %rdx
	movq	%rax, %rcx
	andq	$3, %rdx
	je	24f
	movq	%rax, %rcx
	.p2align	4
23:
	movq	(%r14,%rcx,8), %rsi
	movq	%rsi, (%r13,%rcx,8)
	incq	%rcx
	decq	%rdx
	jne	23b
24:
	subq	%r15, %rax
	cmpq	$-4, %rax
	ja	3b
	.p2align	4
25:
	movq	(%r14,%rcx,8), %rax
	movq	%rax, (%r13,%rcx,8)
	movq	8(%r14,%rcx,8), %rax
	movq	%rax, 8(%r13,%rcx,8)
	movq	16(%r14,%rcx,8), %rax
	movq	%rax, 16(%r13,%rcx,8)
	movq	24(%r14,%rcx,8), %rax
	movq	%rax, 24(%r13,%rcx,8)
	addq	$4, %rcx
	cmpq	%rcx, %r15
	jne	25b
	jmp	3b
26:
	xorl	%edx, %edx
	movq	%r13, %rsi
27:
	movq	%r14, %rdi
	callq	memmove@PLT
	jmp	61f
28:
	movq	%r12, %rax
	andq	$-4, %rax
	xorl	%ecx, %ecx
	.p2align	4
29:
	movups	(%r14,%rcx,8), %xmm0
	movups	16(%r14,%rcx,8), %xmm1
	movups	%xmm0, (%r13,%rcx,8)
	movups	%xmm1, 16(%r13,%rcx,8)
	addq	$4, %rcx
	cmpq	%rcx, %rax
	jne	29b
	cmpq	%rax, %r12
	je	14b
30:
	movq	%r12, %rdx
	movq	%rax, %rcx
	andq	$3, %rdx
	je	32f
	movq	%rax, %rcx
	.p2align	4
31:
	movq	(%r14,%rcx,8), %rsi
	movq	%rsi, (%r13,%rcx,8)
	incq	%rcx
	decq	%rdx
	jne	31b
32:
	subq	%r12, %rax
	cmpq	$-4, %rax
	ja	14b
	.p2align	4
33:
	movq	(%r14,%rcx,8), %rax
	movq	%rax, (%r13,%rcx,8)
	movq	8(%r14,%rcx,8), %rax
	movq	%rax, 8(%r13,%rcx,8)
	movq	16(%r14,%rcx,8), %rax
	movq	%rax, 16(%r13,%rcx,8)
	movq	24(%r14,%rcx,8), %rax
	movq	%rax, 24(%r13,%rcx,8)
	addq	$4, %rcx
	cmpq	%rcx, %r12
	jne	33b
	jmp	14b
34:
	movq	%r8, %rdx
	andq	$-4, %rdx
	addq	%r13, %rcx
	addq	$16, %rcx
	addq	%r14, %rax
	addq	$16, %rax
	xorl	%r9d, %r9d
	.p2align	4
35:
	movups	-16(%rcx,%r9,8), %xmm0
	movups	(%rcx,%r9,8), %xmm1
	movups	%xmm0, -16(%rax,%r9,8)
	movups	%xmm1, (%rax,%r9,8)
	addq	$4, %r9
	cmpq	%r9, %rdx
	jne	35b
	jmp	57f
36:
	movq	%rbx, %rax
	andq	$-4, %rax
	leaq	(%r14,%rdx), %rcx
	addq	$16, %rcx
	leaq	(%rdx,%r13), %rdi
	addq	$16, %rdi
	xorl	%esi, %esi
	.p2align	4
37:
	movups	-16(%rcx,%rsi,8), %xmm0
	movups	(%rcx,%rsi,8), %xmm1
	movups	%xmm0, -16(%rdi,%rsi,8)
	movups	%xmm1, (%rdi,%rsi,8)
	addq	$4, %rsi
	cmpq	%rsi, %rax
	jne	37b
	cmpq	%rax, %rbx
	je	40f
38:
	addq	%r12, %rax
	.p2align	4
39:
	movq	(%r14,%rax,8), %rcx
	movq	%rcx, (%r13,%rax,8)
	incq	%rax
	cmpq	%rax, %r15
	jne	39b
40:
	cmpq	%r12, %r15
	jbe	43f
	leaq	(%r14,%r15,8), %rcx
	addq	$-8, %rcx
	movq	%r12, %rax
	.p2align	4
41:
	leaq	-1(%r15), %r9
	leaq	-1(%rax), %rsi
	movq	-8(%r13,%r15,8), %rdi
	movq	-8(%r14,%rax,8), %r8
	movl	56(%r8), %r8d
	movl	56(%rdi), %edi
	cmpl	%edi, %r8d
	adcq	$-1, %r15
	cmpl	%edi, %r8d
	movq	%r13, %rdi
	cmovbq	%r14, %rdi
	cmovbq	%rsi, %r9
	movq	(%rdi,%r9,8), %rsi
	movq	%rsi, (%rcx)
	sbbq	$0, %rax
	je	42f
	addq	$-8, %rcx
	cmpq	%r12, %r15
	ja	41b
42:
	movq	%r15, %rbx
	subq	%r12, %rbx
	shlq	$3, %rax
	leaq	(,%rbx,8), %r8
	jmp	44f
43:
	movq	%rdx, %rax
44:
	leaq	(%r14,%rax), %rdi
	movq	%rdi, %rcx
	subq	%rbp, %rcx
	cmpq	%r8, %rcx
	jae	50f
	cmpq	%r12, %r15
	movq	8(%rsp), %r9
	je	51f
	cmpq	$8, %rbx
	jb	45f
	cmpq	$32, %rcx
	jae	52f
45:
	xorl	%ecx, %ecx
46:
	movq	%rbx, %rsi
	movq	%rcx, %r10
	andq	$3, %rsi
	je	48f
	movq	%rcx, %r10
	.p2align	4
47:
	movq	(%rbp,%r10,8), %r8
	movq	%r8, (%rdi,%r10,8)
	incq	%r10
	decq	%rsi
	jne	47b
48:
	subq	%rbx, %rcx
	cmpq	$-4, %rcx
	ja	51f
	addq	%r14, %rax
	addq	$24, %rax
	leaq	(%rdx,%r13), %rcx
	addq	$24, %rcx
	.p2align	4
49:
	movq	-24(%rcx,%r10,8), %rsi
	movq	%rsi, -24(%rax,%r10,8)
	movq	-16(%rcx,%r10,8), %rsi
	movq	%rsi, -16(%rax,%r10,8)
	movq	-8(%rcx,%r10,8), %rsi
	movq	%rsi, -8(%rax,%r10,8)
	movq	(%rcx,%r10,8), %rsi
	movq	%rsi, (%rax,%r10,8)
	addq	$4, %r10
	cmpq	%r10, %rbx
	jne	49b
	jmp	51f
50:
	movq	%rbp, %rsi
	movq	%r8, %rdx
	callq	memmove@PLT
	movq	8(%rsp), %r9
51:
	movq	%r13, (%r9)
	movq	16(%rsp), %rax
	movq	%rax, 8(%r9)
	jmp	62f
52:
	movq	%rbx, %rcx
	andq	$-4, %rcx
	leaq	(%rdx,%r13), %r10
	addq	$16, %r10
	leaq	(%rax,%r14), %rsi
	addq	$16, %rsi
	xorl	%r8d, %r8d
	.p2align	4
53:
	movups	-16(%r10,%r8,8), %xmm0
	movups	(%r10,%r8,8), %xmm1
	movups	%xmm0, -16(%rsi,%r8,8)
	movups	%xmm1, (%rsi,%r8,8)
	addq	$4, %r8
	cmpq	%r8, %rcx
	jne	53b
	cmpq	%rcx, %rbx
	je	51b
	jmp	46b
54:
	movq	%rcx, %rdx
	andq	$-4, %rdx
	addq	%r13, %r8
	addq	$16, %r8
	addq	%r14, %rax
	addq	$16, %rax
	xorl	%r9d, %r9d
	.p2align	4
55:
	movups	-16(%r8,%r9,8), %xmm0
	movups	(%r8,%r9,8), %xmm1
	movups	%xmm0, -16(%rax,%r9,8)
	movups	%xmm1, (%rax,%r9,8)
	addq	$4, %r9
	cmpq	%r9, %rdx
	jne	55b
	jmp	60f
56:
	movq	(%rsi,%rdx,8), %rax
	movq	%rax, (%rdi,%rdx,8)
	incq	%rdx
57:
	cmpq	%rdx, %r8
	jne	56b
58:
	movq	%r13, (%rbp)
	movq	%rbx, 8(%rbp)
	jmp	62f
59:
	movq	(%rsi,%rdx,8), %rax
	movq	%rax, (%rdi,%rdx,8)
	incq	%rdx
60:
	cmpq	%rdx, %rcx
	jne	59b
61:
	movq	%r13, (%rbp)
	movq	16(%rsp), %rax
	movq	%rax, 8(%rbp)
62:
	addq	$24, %rsp
	popq	%rbx
	popq	%r12
	popq	%r13
	popq	%r14
	popq	%r15
	popq	%rbp
	retq
63:
	.size	"core::slice::sort::merge::merge::<#196989f31ad14034>", 63b-"core::slice::sort::merge::merge::<#196989f31ad14034>"

	.text
	.p2align	4
	.type	"core::slice::sort::merge::merge::<#24df1801f4a811cc>",@function
"core::slice::sort::merge::merge::<#24df1801f4a811cc>":
	pushq	%rbp
	pushq	%r15
	pushq	%r14
	pushq	%r13
	pushq	%r12
	pushq	%rbx
	subq	$40, %rsp
	movq	%rcx, %rbx
	movq	%rdx, %r13
	movq	%rsi, %r15
	movq	%rdi, %r14
	movq	%rsi, %rax
	shrq	$2, %rax
	cmpq	%rdx, %rax
	setbe	%cl
	movq	%rsi, %r8
	subq	%rdx, %r8
	cmpq	%r8, %rax
	setbe	%al
	andb	%cl, %al
	cmpq	$4097, %rsi
	setb	%cl
	xorb	$1, %al
	orb	%al, %cl
	je	2f
	cmpq	$4097, %r15
	setae	%cl
	testb	%al, %cl
	je	3f
1:
	imulq	$56, %r13, %rbp
	movq	(%rbx), %r12
	movq	8(%rbx), %rax
	movq	%rax, 8(%rsp)
	cmpq	%r8, %r13
	jbe	4f
	movq	%rbx, 32(%rsp)
	leaq	(%r14,%rbp), %rsi
	leaq	(%r12,%rbp), %rbx
	imulq	$56, %r8, %rdx
	movq	%rbx, %rax
	subq	%rsi, %rax
	cmpq	%rdx, %rax
	jae	6f
	cmpq	%r13, %r15
	je	43f
	movl	%r8d, %eax
	andl	$7, %eax
	movq	%r13, %rcx
	subq	%r15, %rcx
	cmpq	$-8, %rcx
	jbe	39f
	xorl	%ecx, %ecx
	jmp	41f
2:
	cmpq	$65537, %r15
	jae	1b
3:
	movq	(%rbx), %r12
	movq	%rbx, %rbp
	movq	8(%rbx), %rbx
	imulq	$56, %r15, %rdx
	movq	%r12, %rax
	subq	%r14, %rax
	cmpq	%rdx, %rax
	jae	5f
	testq	%r15, %r15
	je	12f
	movl	%r15d, %eax
	andl	$7, %eax
	cmpq	$8, %r15
	jae	8f
	xorl	%ecx, %ecx
	jmp	10f
4:
	movq	%r12, %rax
	subq	%r14, %rax
	cmpq	%rbp, %rax
	jae	7f
	testq	%r13, %r13
	je	27f
	movl	%r13d, %eax
	andl	$7, %eax
	cmpq	$8, %r13
	jae	28f
	xorl	%ecx, %ecx
	jmp	30f
5:
	movq	%r12, %rdi
	movq	%r14, %rsi
	callq	memmove@PLT
	jmp	12f
6:
	movq	%rbx, %rdi
	movq	%r8, 24(%rsp)
	movq	%rdx, 16(%rsp)
	callq	memmove@PLT
	movq	16(%rsp), %rdx
	movq	24(%rsp), %r8
	jmp	43f
7:
	movq	%r12, %rdi
	movq	%r14, %rsi
	movq	%rbp, %rdx
	callq	memmove@PLT
	jmp	32f
8:
	movq	%r15, %rdx
	andq	$-8, %rdx
	xorl	%ecx, %ecx
	xorl	%esi, %esi
	.p2align	4
9:
	movups	(%r14,%rsi), %xmm0
	movups	16(%r14,%rsi), %xmm1
	movups	32(%r14,%rsi), %xmm2
	movq	48(%r14,%rsi), %rdi
	movq	%rdi, 48(%r12,%rsi)
	movups	%xmm2, 32(%r12,%rsi)
	movups	%xmm1, 16(%r12,%rsi)
	movups	%xmm0, (%r12,%rsi)
	movups	56(%r14,%rsi), %xmm0
	movups	72(%r14,%rsi), %xmm1
	movups	88(%r14,%rsi), %xmm2
	movq	104(%r14,%rsi), %rdi
	movq	%rdi, 104(%r12,%rsi)
	movups	%xmm2, 88(%r12,%rsi)
	movups	%xmm1, 72(%r12,%rsi)
	movups	%xmm0, 56(%r12,%rsi)
	movups	112(%r14,%rsi), %xmm0
	movups	128(%r14,%rsi), %xmm1
	movups	144(%r14,%rsi), %xmm2
	movq	160(%r14,%rsi), %rdi
	movq	%rdi, 160(%r12,%rsi)
	movups	%xmm2, 144(%r12,%rsi)
	movups	%xmm1, 128(%r12,%rsi)
	movups	%xmm0, 112(%r12,%rsi)
	movups	168(%r14,%rsi), %xmm0
	movups	184(%r14,%rsi), %xmm1
	movups	200(%r14,%rsi), %xmm2
	movq	216(%r14,%rsi), %rdi
	movq	%rdi, 216(%r12,%rsi)
	movups	%xmm2, 200(%r12,%rsi)
	movups	%xmm1, 184(%r12,%rsi)
	movups	%xmm0, 168(%r12,%rsi)
	movups	224(%r14,%rsi), %xmm0
	movups	240(%r14,%rsi), %xmm1
	movups	256(%r14,%rsi), %xmm2
	movq	272(%r14,%rsi), %rdi
	movq	%rdi, 272(%r12,%rsi)
	movups	%xmm2, 256(%r12,%rsi)
	movups	%xmm1, 240(%r12,%rsi)
	movups	%xmm0, 224(%r12,%rsi)
	movups	280(%r14,%rsi), %xmm0
	movups	296(%r14,%rsi), %xmm1
	movups	312(%r14,%rsi), %xmm2
	movq	328(%r14,%rsi), %rdi
	movq	%rdi, 328(%r12,%rsi)
	movups	%xmm2, 312(%r12,%rsi)
	movups	%xmm1, 296(%r12,%rsi)
	movups	%xmm0, 280(%r12,%rsi)
	movups	336(%r14,%rsi), %xmm0
	movups	352(%r14,%rsi), %xmm1
	movups	368(%r14,%rsi), %xmm2
	movq	384(%r14,%rsi), %rdi
	movq	%rdi, 384(%r12,%rsi)
	movups	%xmm2, 368(%r12,%rsi)
	movups	%xmm1, 352(%r12,%rsi)
	movups	%xmm0, 336(%r12,%rsi)
	movups	392(%r14,%rsi), %xmm0
	movups	408(%r14,%rsi), %xmm1
	movups	424(%r14,%rsi), %xmm2
	movq	440(%r14,%rsi), %rdi
	movq	%rdi, 440(%r12,%rsi)
	movups	%xmm2, 424(%r12,%rsi)
	movups	%xmm1, 408(%r12,%rsi)
	movups	%xmm0, 392(%r12,%rsi)
	addq	$8, %rcx
	addq	$448, %rsi
	cmpq	%rcx, %rdx
	jne	9b
	testq	%rax, %rax
	je	12f
10:
	imulq	$56, %rcx, %rcx
	leaq	(%r14,%rcx), %rdx
	addq	%r12, %rcx
	imulq	$56, %rax, %rax
	xorl	%esi, %esi
	.p2align	4
11:
	movups	(%rdx,%rsi), %xmm0
	movups	16(%rdx,%rsi), %xmm1
	movups	32(%rdx,%rsi), %xmm2
	movq	48(%rdx,%rsi), %rdi
	movq	%rdi, 48(%rcx,%rsi)
	movups	%xmm2, 32(%rcx,%rsi)
	movups	%xmm1, 16(%rcx,%rsi)
	movups	%xmm0, (%rcx,%rsi)
	addq	$56, %rsi
	cmpq	%rsi, %rax
	jne	11b
12:
	testq	%r13, %r13
	sete	%al
	cmpq	%r15, %r13
	setae	%cl
	orb	%al, %cl
	jne	19f
	xorl	%eax, %eax
	movq	%r14, %rsi
	movq	%r13, %rdx
	movq	%r15, %rdi
	xorl	%ecx, %ecx
	jmp	15f
	.p2align	4
13:
	movq	%r13, %r8
	incq	%rcx
	cmpq	%r8, %rax
	jae	18f
14:
	addq	$56, %rsi
	movq	%r8, %r13
	cmpq	%rdi, %rdx
	jae	18f
15:
	movq	%rdx, %r8
	imulq	$56, %rdx, %r9
	imulq	$56, %rax, %r10
	movl	(%r12,%r10), %r10d
	movl	(%r12,%r9), %r9d
	cmpl	%r9d, %r10d
	adcq	$0, %rdx
	cmpl	%r9d, %r10d
	jb	16f
	movq	%rax, %r8
16:
	sbbq	$-1, %rax
	imulq	$56, %r8, %r8
	movups	(%r12,%r8), %xmm0
	movups	16(%r12,%r8), %xmm1
	movups	32(%r12,%r8), %xmm2
	movq	48(%r12,%r8), %r8
	movq	%r8, 48(%rsi)
	movups	%xmm2, 32(%rsi)
	movups	%xmm1, 16(%rsi)
	movups	%xmm0, (%rsi)
	cmpq	%r13, %rax
	jae	13b
	cmpq	%rdi, %rdx
	jae	13b
	imulq	$56, %rdi, %r8
	imulq	$56, %r13, %r9
	movl	-56(%r12,%r9), %r9d
	movl	-56(%r12,%r8), %r10d
	cmpl	%r10d, %r9d
	movq	%r13, %r8
	sbbq	$0, %r8
	cmpl	%r10d, %r9d
	jb	17f
	movq	%rdi, %r13
17:
	adcq	$-1, %rdi
	decq	%r15
	imulq	$56, %r13, %r9
	imulq	$56, %r15, %r10
	movups	-56(%r12,%r9), %xmm0
	movups	-40(%r12,%r9), %xmm1
	movups	-24(%r12,%r9), %xmm2
	movq	-8(%r12,%r9), %r9
	movq	%r9, 48(%r14,%r10)
	movups	%xmm2, 32(%r14,%r10)
	movups	%xmm1, 16(%r14,%r10)
	movups	%xmm0, (%r14,%r10)
	incq	%rcx
	cmpq	%r8, %rax
	jb	14b
18:
	cmpq	%r8, %rax
	cmovbq	%rax, %rdx
	imulq	$56, %rdx, %rax
	jmp	20f
19:
	xorl	%ecx, %ecx
	xorl	%eax, %eax
20:
	movq	%r15, %r9
	subq	%rcx, %r9
	leaq	(%r12,%rax), %rsi
	imulq	$56, %rcx, %r8
	leaq	(%r14,%r8), %rdi
	imulq	$56, %r9, %rdx
	movq	%rdi, %r10
	subq	%rsi, %r10
	cmpq	%rdx, %r10
	jae	21f
	cmpq	%rcx, %r15
	je	26f
	movl	%r9d, %edx
	andl	$7, %edx
	subq	%r15, %rcx
	cmpq	$-8, %rcx
	jbe	22f
	xorl	%ecx, %ecx
	jmp	24f
21:
	callq	memmove@PLT
	jmp	26f
22:
	andq	$-8, %r9
	movl	$392, %r10d
	xorl	%ecx, %ecx
	.p2align	4
23:
	movups	-392(%rsi,%r10), %xmm0
	movups	-376(%rsi,%r10), %xmm1
	movups	-360(%rsi,%r10), %xmm2
	movq	-344(%rsi,%r10), %r11
	movq	%r11, -344(%rdi,%r10)
	movups	%xmm2, -360(%rdi,%r10)
	movups	%xmm1, -376(%rdi,%r10)
	movups	%xmm0, -392(%rdi,%r10)
	movups	-336(%rsi,%r10), %xmm0
	movups	-320(%rsi,%r10), %xmm1
	movups	-304(%rsi,%r10), %xmm2
	movq	-288(%rsi,%r10), %r11
	movq	%r11, -288(%rdi,%r10)
	movups	%xmm2, -304(%rdi,%r10)
	movups	%xmm1, -320(%rdi,%r10)
	movups	%xmm0, -336(%rdi,%r10)
	movups	-280(%rsi,%r10), %xmm0
	movups	-264(%rsi,%r10), %xmm1
	movups	-248(%rsi,%r10), %xmm2
	movq	-232(%rsi,%r10), %r11
	movq	%r11, -232(%rdi,%r10)
	movups	%xmm2, -248(%rdi,%r10)
	movups	%xmm1, -264(%rdi,%r10)
	movups	%xmm0, -280(%rdi,%r10)
	movups	-224(%rsi,%r10), %xmm0
	movups	-208(%rsi,%r10), %xmm1
	movups	-192(%rsi,%r10), %xmm2
	movq	-176(%rsi,%r10), %r11
	movq	%r11, -176(%rdi,%r10)
	movups	%xmm2, -192(%rdi,%r10)
	movups	%xmm1, -208(%rdi,%r10)
	movups	%xmm0, -224(%rdi,%r10)
	movups	-168(%rsi,%r10), %xmm0
	movups	-152(%rsi,%r10), %xmm1
	movups	-136(%rsi,%r10), %xmm2
	movq	-120(%rsi,%r10), %r11
	movq	%r11, -120(%rdi,%r10)
	movups	%xmm2, -136(%rdi,%r10)
	movups	%xmm1, -152(%rdi,%r10)
	movups	%xmm0, -168(%rdi,%r10)
	movups	-112(%rsi,%r10), %xmm0
	movups	-96(%rsi,%r10), %xmm1
	movups	-80(%rsi,%r10), %xmm2
	movq	-64(%rsi,%r10), %r11
	movq	%r11, -64(%rdi,%r10)
	movups	%xmm2, -80(%rdi,%r10)
	movups	%xmm1, -96(%rdi,%r10)
	movups	%xmm0, -112(%rdi,%r10)
	movups	-56(%rsi,%r10), %xmm0
	movups	-40(%rsi,%r10), %xmm1
	movups	-24(%rsi,%r10), %xmm2
	movq	-8(%rsi,%r10), %r11
	movq	%r11, -8(%rdi,%r10)
	movups	%xmm2, -24(%rdi,%r10)
	movups	%xmm1, -40(%rdi,%r10)
	movups	%xmm0, -56(%rdi,%r10)
	movups	(%rsi,%r10), %xmm0
	movups	16(%rsi,%r10), %xmm1
	movups	32(%rsi,%r10), %xmm2
	movq	48(%rsi,%r10), %r11
	movq	%r11, 48(%rdi,%r10)
	movups	%xmm2, 32(%rdi,%r10)
	movups	%xmm1, 16(%rdi,%r10)
	movups	%xmm0, (%rdi,%r10)
	addq	$8, %rcx
	addq	$448, %r10
	cmpq	%rcx, %r9
	jne	23b
	testq	%rdx, %rdx
	je	26f
24:
	imulq	$56, %rcx, %rcx
	addq	%rcx, %rax
	addq	%r12, %rax
	addq	%rcx, %r8
	addq	%r8, %r14
	imulq	$56, %rdx, %rcx
	xorl	%edx, %edx
	.p2align	4
25:
	movups	(%rax,%rdx), %xmm0
	movups	16(%rax,%rdx), %xmm1
	movups	32(%rax,%rdx), %xmm2
	movq	48(%rax,%rdx), %rsi
	movq	%rsi, 48(%r14,%rdx)
	movups	%xmm2, 32(%r14,%rdx)
	movups	%xmm1, 16(%r14,%rdx)
	movups	%xmm0, (%r14,%rdx)
	addq	$56, %rdx
	cmpq	%rdx, %rcx
	jne	25b
26:
	movq	%r12, (%rbp)
	movq	%rbx, 8(%rbp)
	jmp	61f
27:
	movq	%r14, %rax
	subq	%r12, %rax
	cmpq	%rbp, %rax
	jb	60f
	xorl	%edx, %edx
	movq	%r12, %rsi
	jmp	38f
28:
	movq	%r13, %rdx
	andq	$-8, %rdx
	xorl	%ecx, %ecx
	xorl	%esi, %esi
	.p2align	4
29:
	movups	(%r14,%rsi), %xmm0
	movups	16(%r14,%rsi), %xmm1
	movups	32(%r14,%rsi), %xmm2
	movq	48(%r14,%rsi), %rdi
	movq	%rdi, 48(%r12,%rsi)
	movups	%xmm2, 32(%r12,%rsi)
	movups	%xmm1, 16(%r12,%rsi)
	movups	%xmm0, (%r12,%rsi)
	movups	56(%r14,%rsi), %xmm0
	movups	72(%r14,%rsi), %xmm1
	movups	88(%r14,%rsi), %xmm2
	movq	104(%r14,%rsi), %rdi
	movq	%rdi, 104(%r12,%rsi)
	movups	%xmm2, 88(%r12,%rsi)
	movups	%xmm1, 72(%r12,%rsi)
	movups	%xmm0, 56(%r12,%rsi)
	movups	112(%r14,%rsi), %xmm0
	movups	128(%r14,%rsi), %xmm1
	movups	144(%r14,%rsi), %xmm2
	movq	160(%r14,%rsi), %rdi
	movq	%rdi, 160(%r12,%rsi)
	movups	%xmm2, 144(%r12,%rsi)
	movups	%xmm1, 128(%r12,%rsi)
	movups	%xmm0, 112(%r12,%rsi)
	movups	168(%r14,%rsi), %xmm0
	movups	184(%r14,%rsi), %xmm1
	movups	200(%r14,%rsi), %xmm2
	movq	216(%r14,%rsi), %rdi
	movq	%rdi, 216(%r12,%rsi)
	movups	%xmm2, 200(%r12,%rsi)
	movups	%xmm1, 184(%r12,%rsi)
	movups	%xmm0, 168(%r12,%rsi)
	movups	224(%r14,%rsi), %xmm0
	movups	240(%r14,%rsi), %xmm1
	movups	256(%r14,%rsi), %xmm2
	movq	272(%r14,%rsi), %rdi
	movq	%rdi, 272(%r12,%rsi)
	movups	%xmm2, 256(%r12,%rsi)
	movups	%xmm1, 240(%r12,%rsi)
	movups	%xmm0, 224(%r12,%rsi)
	movups	280(%r14,%rsi), %xmm0
	movups	296(%r14,%rsi), %xmm1
	movups	312(%r14,%rsi), %xmm2
	movq	328(%r14,%rsi), %rdi
	movq	%rdi, 328(%r12,%rsi)
	movups	%xmm2, 312(%r12,%rsi)
	movups	%xmm1, 296(%r12,%rsi)
	movups	%xmm0, 280(%r12,%rsi)
	movups	336(%r14,%rsi), %xmm0
	movups	352(%r14,%rsi), %xmm1
	movups	368(%r14,%rsi), %xmm2
	movq	384(%r14,%rsi), %rdi
	movq	%rdi, 384(%r12,%rsi)
	movups	%xmm2, 368(%r12,%rsi)
	movups	%xmm1, 352(%r12,%rsi)
	movups	%xmm0, 336(%r12,%rsi)
	movups	392(%r14,%rsi), %xmm0
	movups	408(%r14,%rsi), %xmm1
	movups	424(%r14,%rsi), %xmm2
	movq	440(%r14,%rsi), %rdi
	movq	%rdi, 440(%r12,%rsi)
	movups	%xmm2, 424(%r12,%rsi)
	movups	%xmm1, 408(%r12,%rsi)
	movups	%xmm0, 392(%r12,%rsi)
	addq	$8, %rcx
	addq	$448, %rsi
	cmpq	%rcx, %rdx
	jne	29b
	testq	%rax, %rax
	je	32f
30:
	imulq	$56, %rcx, %rcx
	leaq	(%r14,%rcx), %rdx
	addq	%r12, %rcx
	imulq	$56, %rax, %rax
	xorl	%esi, %esi
	.p2align	4
31:
	movups	(%rdx,%rsi), %xmm0
	movups	16(%rdx,%rsi), %xmm1
	movups	32(%rdx,%rsi), %xmm2
	movq	48(%rdx,%rsi), %rdi
	movq	%rdi, 48(%rcx,%rsi)
	movups	%xmm2, 32(%rcx,%rsi)
	movups	%xmm1, 16(%rcx,%rsi)
	movups	%xmm0, (%rcx,%rsi)
	addq	$56, %rsi
	cmpq	%rsi, %rax
	jne	31b
32:
	testq	%r13, %r13
	sete	%al
	cmpq	%r15, %r13
	setae	%cl
	orb	%al, %cl
	jne	35f
	xorl	%eax, %eax
	xorl	%r9d, %r9d
	movq	%r13, %rcx
	.p2align	4
33:
	movq	%rcx, %rdx
	imulq	$56, %rcx, %rsi
	imulq	$56, %r9, %rdi
	movl	(%r12,%rdi), %edi
	movl	(%r14,%rsi), %r8d
	cmpl	%r8d, %edi
	adcq	$0, %rcx
	movq	%r14, %rsi
	cmpl	%r8d, %edi
	jb	34f
	movq	%r12, %rsi
	movq	%r9, %rdx
34:
	sbbq	$-1, %r9
	imulq	$56, %rdx, %rdx
	movups	(%rsi,%rdx), %xmm0
	movups	16(%rsi,%rdx), %xmm1
	movups	32(%rsi,%rdx), %xmm2
	movq	48(%rsi,%rdx), %rdx
	movq	%rdx, 48(%r14,%rax)
	movups	%xmm2, 32(%r14,%rax)
	movups	%xmm1, 16(%r14,%rax)
	movups	%xmm0, (%r14,%rax)
	addq	$56, %rax
	cmpq	%r13, %r9
	jae	36f
	cmpq	%r15, %rcx
	jb	33b
	jmp	36f
35:
	xorl	%eax, %eax
	xorl	%r9d, %r9d
36:
	movq	%r13, %rdi
	subq	%r9, %rdi
	imulq	$56, %r9, %rcx
	leaq	(%r12,%rcx), %rsi
	leaq	(%r14,%rax), %r8
	imulq	$56, %rdi, %rdx
	movq	%r8, %r10
	subq	%rsi, %r10
	cmpq	%rdx, %r10
	jae	37f
	cmpq	%r9, %r13
	je	60f
	movl	%edi, %edx
	andl	$7, %edx
	subq	%r13, %r9
	cmpq	$-8, %r9
	jbe	56f
	xorl	%r9d, %r9d
	jmp	58f
37:
	movq	%r8, %r14
38:
	movq	%r14, %rdi
	callq	memmove@PLT
	jmp	60f
39:
	movq	%r8, %r9
	andq	$-8, %r9
	xorl	%ecx, %ecx
	movq	%rbp, %rsi
	.p2align	4
40:
	movups	(%r14,%rsi), %xmm0
	movups	16(%r14,%rsi), %xmm1
	movups	32(%r14,%rsi), %xmm2
	movq	48(%r14,%rsi), %rdi
	movq	%rdi, 48(%r12,%rsi)
	movups	%xmm2, 32(%r12,%rsi)
	movups	%xmm1, 16(%r12,%rsi)
	movups	%xmm0, (%r12,%rsi)
	movups	56(%r14,%rsi), %xmm0
	movups	72(%r14,%rsi), %xmm1
	movups	88(%r14,%rsi), %xmm2
	movq	104(%r14,%rsi), %rdi
	movq	%rdi, 104(%r12,%rsi)
	movups	%xmm2, 88(%r12,%rsi)
	movups	%xmm1, 72(%r12,%rsi)
	movups	%xmm0, 56(%r12,%rsi)
	movups	112(%r14,%rsi), %xmm0
	movups	128(%r14,%rsi), %xmm1
	movups	144(%r14,%rsi), %xmm2
	movq	160(%r14,%rsi), %rdi
	movq	%rdi, 160(%r12,%rsi)
	movups	%xmm2, 144(%r12,%rsi)
	movups	%xmm1, 128(%r12,%rsi)
	movups	%xmm0, 112(%r12,%rsi)
	movups	168(%r14,%rsi), %xmm0
	movups	184(%r14,%rsi), %xmm1
	movups	200(%r14,%rsi), %xmm2
	movq	216(%r14,%rsi), %rdi
	movq	%rdi, 216(%r12,%rsi)
	movups	%xmm2, 200(%r12,%rsi)
	movups	%xmm1, 184(%r12,%rsi)
	movups	%xmm0, 168(%r12,%rsi)
	movups	224(%r14,%rsi), %xmm0
	movups	240(%r14,%rsi), %xmm1
	movups	256(%r14,%rsi), %xmm2
	movq	272(%r14,%rsi), %rdi
	movq	%rdi, 272(%r12,%rsi)
	movups	%xmm2, 256(%r12,%rsi)
	movups	%xmm1, 240(%r12,%rsi)
	movups	%xmm0, 224(%r12,%rsi)
	movups	280(%r14,%rsi), %xmm0
	movups	296(%r14,%rsi), %xmm1
	movups	312(%r14,%rsi), %xmm2
	movq	328(%r14,%rsi), %rdi
	movq	%rdi, 328(%r12,%rsi)
	movups	%xmm2, 312(%r12,%rsi)
	movups	%xmm1, 296(%r12,%rsi)
	movups	%xmm0, 280(%r12,%rsi)
	movups	336(%r14,%rsi), %xmm0
	movups	352(%r14,%rsi), %xmm1
	movups	368(%r14,%rsi), %xmm2
	movq	384(%r14,%rsi), %rdi
	movq	%rdi, 384(%r12,%rsi)
	movups	%xmm2, 368(%r12,%rsi)
	movups	%xmm1, 352(%r12,%rsi)
	movups	%xmm0, 336(%r12,%rsi)
	movups	392(%r14,%rsi), %xmm0
	movups	408(%r14,%rsi), %xmm1
	movups	424(%r14,%rsi), %xmm2
	movq	440(%r14,%rsi), %rdi
	movq	%rdi, 440(%r12,%rsi)
	movups	%xmm2, 424(%r12,%rsi)
	movups	%xmm1, 408(%r12,%rsi)
	movups	%xmm0, 392(%r12,%rsi)
	addq	$8, %rcx
	addq	$448, %rsi
	cmpq	%rcx, %r9
	jne	40b
	testq	%rax, %rax
	je	43f
41:
	imulq	$56, %rcx, %rcx
	addq	%rbp, %rcx
	leaq	(%r14,%rcx), %r9
	addq	%r12, %rcx
	imulq	$56, %rax, %rax
	xorl	%esi, %esi
	.p2align	4
42:
	movups	(%r9,%rsi), %xmm0
	movups	16(%r9,%rsi), %xmm1
	movups	32(%r9,%rsi), %xmm2
	movq	48(%r9,%rsi), %rdi
	movq	%rdi, 48(%rcx,%rsi)
	movups	%xmm2, 32(%rcx,%rsi)
	movups	%xmm1, 16(%rcx,%rsi)
	movups	%xmm0, (%rcx,%rsi)
	addq	$56, %rsi
	cmpq	%rsi, %rax
	jne	42b
43:
	cmpq	%r15, %r13
	jae	48f
	imulq	$56, %r15, %rax
	leaq	(%rax,%r14), %rcx
	addq	$-56, %rcx
	movq	%r13, %rax
	.p2align	4
44:
	leaq	-1(%r15), %r8
	imulq	$56, %r8, %rdi
	leaq	-1(%rax), %rdx
	imulq	$56, %rdx, %rsi
	movl	(%r14,%rsi), %esi
	movl	(%r12,%rdi), %edi
	cmpl	%edi, %esi
	jb	45f
	movq	%r8, %rdx
45:
	adcq	$-1, %r15
	imulq	$56, %rdx, %r8
	leaq	-56(%rcx), %rdx
	movq	%r14, %r9
	cmpl	%edi, %esi
	jb	46f
	movq	%r12, %r9
46:
	movups	(%r9,%r8), %xmm0
	movups	16(%r9,%r8), %xmm1
	movups	32(%r9,%r8), %xmm2
	movq	48(%r9,%r8), %rsi
	movq	%rsi, 48(%rcx)
	movups	%xmm2, 32(%rcx)
	movups	%xmm1, 16(%rcx)
	movups	%xmm0, (%rcx)
	sbbq	$0, %rax
	je	47f
	movq	%rdx, %rcx
	cmpq	%r13, %r15
	ja	44b
47:
	movq	%r15, %r8
	subq	%r13, %r8
	imulq	$56, %rax, %rax
	imulq	$56, %r8, %rdx
	jmp	49f
48:
	movq	%rbp, %rax
49:
	addq	%rax, %r14
	movq	%r14, %rax
	subq	%rbx, %rax
	cmpq	%rdx, %rax
	jae	50f
	cmpq	%r13, %r15
	je	55f
	leaq	-1(%r8), %rcx
	movl	%r8d, %eax
	andl	$7, %eax
	cmpq	$7, %rcx
	jae	51f
	xorl	%ecx, %ecx
	jmp	53f
50:
	movq	%r14, %rdi
	movq	%rbx, %rsi
	callq	memmove@PLT
	jmp	55f
51:
	andq	$-8, %r8
	movl	$392, %edx
	xorl	%ecx, %ecx
	.p2align	4
52:
	movups	-392(%rbx,%rdx), %xmm0
	movups	-376(%rbx,%rdx), %xmm1
	movups	-360(%rbx,%rdx), %xmm2
	movq	-344(%rbx,%rdx), %rsi
	movq	%rsi, -344(%r14,%rdx)
	movups	%xmm2, -360(%r14,%rdx)
	movups	%xmm1, -376(%r14,%rdx)
	movups	%xmm0, -392(%r14,%rdx)
	movups	-336(%rbx,%rdx), %xmm0
	movups	-320(%rbx,%rdx), %xmm1
	movups	-304(%rbx,%rdx), %xmm2
	movq	-288(%rbx,%rdx), %rsi
	movq	%rsi, -288(%r14,%rdx)
	movups	%xmm2, -304(%r14,%rdx)
	movups	%xmm1, -320(%r14,%rdx)
	movups	%xmm0, -336(%r14,%rdx)
	movups	-280(%rbx,%rdx), %xmm0
	movups	-264(%rbx,%rdx), %xmm1
	movups	-248(%rbx,%rdx), %xmm2
	movq	-232(%rbx,%rdx), %rsi
	movq	%rsi, -232(%r14,%rdx)
	movups	%xmm2, -248(%r14,%rdx)
	movups	%xmm1, -264(%r14,%rdx)
	movups	%xmm0, -280(%r14,%rdx)
	movups	-224(%rbx,%rdx), %xmm0
	movups	-208(%rbx,%rdx), %xmm1
	movups	-192(%rbx,%rdx), %xmm2
	movq	-176(%rbx,%rdx), %rsi
	movq	%rsi, -176(%r14,%rdx)
	movups	%xmm2, -192(%r14,%rdx)
	movups	%xmm1, -208(%r14,%rdx)
	movups	%xmm0, -224(%r14,%rdx)
	movups	-168(%rbx,%rdx), %xmm0
	movups	-152(%rbx,%rdx), %xmm1
	movups	-136(%rbx,%rdx), %xmm2
	movq	-120(%rbx,%rdx), %rsi
	movq	%rsi, -120(%r14,%rdx)
	movups	%xmm2, -136(%r14,%rdx)
	movups	%xmm1, -152(%r14,%rdx)
	movups	%xmm0, -168(%r14,%rdx)
	movups	-112(%rbx,%rdx), %xmm0
	movups	-96(%rbx,%rdx), %xmm1
	movups	-80(%rbx,%rdx), %xmm2
	movq	-64(%rbx,%rdx), %rsi
	movq	%rsi, -64(%r14,%rdx)
	movups	%xmm2, -80(%r14,%rdx)
	movups	%xmm1, -96(%r14,%rdx)
	movups	%xmm0, -112(%r14,%rdx)
	movups	-56(%rbx,%rdx), %xmm0
	movups	-40(%rbx,%rdx), %xmm1
	movups	-24(%rbx,%rdx), %xmm2
	movq	-8(%rbx,%rdx), %rsi
	movq	%rsi, -8(%r14,%rdx)
	movups	%xmm2, -24(%r14,%rdx)
	movups	%xmm1, -40(%r14,%rdx)
	movups	%xmm0, -56(%r14,%rdx)
	movups	(%rbx,%rdx), %xmm0
	movups	16(%rbx,%rdx), %xmm1
	movups	32(%rbx,%rdx), %xmm2
	movq	48(%rbx,%rdx), %rsi
	movq	%rsi, 48(%r14,%rdx)
	movups	%xmm2, 32(%r14,%rdx)
	movups	%xmm1, 16(%r14,%rdx)
	movups	%xmm0, (%r14,%rdx)
	addq	$8, %rcx
	addq	$448, %rdx
	cmpq	%rcx, %r8
	jne	52b
	testq	%rax, %rax
	je	55f
53:
	imulq	$56, %rcx, %rcx
	addq	%rcx, %rbp
	addq	%r12, %rbp
	addq	%rcx, %r14
	imulq	$56, %rax, %rax
	xorl	%ecx, %ecx
	.p2align	4
54:
	movups	(%rbp,%rcx), %xmm0
	movups	16(%rbp,%rcx), %xmm1
	movups	32(%rbp,%rcx), %xmm2
	movq	48(%rbp,%rcx), %rdx
	movq	%rdx, 48(%r14,%rcx)
	movups	%xmm2, 32(%r14,%rcx)
	movups	%xmm1, 16(%r14,%rcx)
	movups	%xmm0, (%r14,%rcx)
	addq	$56, %rcx
	cmpq	%rcx, %rax
	jne	54b
55:
	movq	32(%rsp), %rax
	movq	%r12, (%rax)
	movq	8(%rsp), %rcx
	movq	%rcx, 8(%rax)
	jmp	61f
56:
	andq	$-8, %rdi
	movl	$392, %r10d
	xorl	%r9d, %r9d
	.p2align	4
57:
	movups	-392(%rsi,%r10), %xmm0
	movups	-376(%rsi,%r10), %xmm1
	movups	-360(%rsi,%r10), %xmm2
	movq	-344(%rsi,%r10), %r11
	movq	%r11, -344(%r8,%r10)
	movups	%xmm2, -360(%r8,%r10)
	movups	%xmm1, -376(%r8,%r10)
	movups	%xmm0, -392(%r8,%r10)
	movups	-336(%rsi,%r10), %xmm0
	movups	-320(%rsi,%r10), %xmm1
	movups	-304(%rsi,%r10), %xmm2
	movq	-288(%rsi,%r10), %r11
	movq	%r11, -288(%r8,%r10)
	movups	%xmm2, -304(%r8,%r10)
	movups	%xmm1, -320(%r8,%r10)
	movups	%xmm0, -336(%r8,%r10)
	movups	-280(%rsi,%r10), %xmm0
	movups	-264(%rsi,%r10), %xmm1
	movups	-248(%rsi,%r10), %xmm2
	movq	-232(%rsi,%r10), %r11
	movq	%r11, -232(%r8,%r10)
	movups	%xmm2, -248(%r8,%r10)
	movups	%xmm1, -264(%r8,%r10)
	movups	%xmm0, -280(%r8,%r10)
	movups	-224(%rsi,%r10), %xmm0
	movups	-208(%rsi,%r10), %xmm1
	movups	-192(%rsi,%r10), %xmm2
	movq	-176(%rsi,%r10), %r11
	movq	%r11, -176(%r8,%r10)
	movups	%xmm2, -192(%r8,%r10)
	movups	%xmm1, -208(%r8,%r10)
	movups	%xmm0, -224(%r8,%r10)
	movups	-168(%rsi,%r10), %xmm0
	movups	-152(%rsi,%r10), %xmm1
	movups	-136(%rsi,%r10), %xmm2
	movq	-120(%rsi,%r10), %r11
	movq	%r11, -120(%r8,%r10)
	movups	%xmm2, -136(%r8,%r10)
	movups	%xmm1, -152(%r8,%r10)
	movups	%xmm0, -168(%r8,%r10)
	movups	-112(%rsi,%r10), %xmm0
	movups	-96(%rsi,%r10), %xmm1
	movups	-80(%rsi,%r10), %xmm2
	movq	-64(%rsi,%r10), %r11
	movq	%r11, -64(%r8,%r10)
	movups	%xmm2, -80(%r8,%r10)
	movups	%xmm1, -96(%r8,%r10)
	movups	%xmm0, -112(%r8,%r10)
	movups	-56(%rsi,%r10), %xmm0
	movups	-40(%rsi,%r10), %xmm1
	movups	-24(%rsi,%r10), %xmm2
	movq	-8(%rsi,%r10), %r11
	movq	%r11, -8(%r8,%r10)
	movups	%xmm2, -24(%r8,%r10)
	movups	%xmm1, -40(%r8,%r10)
	movups	%xmm0, -56(%r8,%r10)
	movups	(%rsi,%r10), %xmm0
	movups	16(%rsi,%r10), %xmm1
	movups	32(%rsi,%r10), %xmm2
	movq	48(%rsi,%r10), %r11
	movq	%r11, 48(%r8,%r10)
	movups	%xmm2, 32(%r8,%r10)
	movups	%xmm1, 16(%r8,%r10)
	movups	%xmm0, (%r8,%r10)
	addq	$8, %r9
	addq	$448, %r10
	cmpq	%r9, %rdi
	jne	57b
	testq	%rdx, %rdx
	je	60f
58:
	imulq	$56, %r9, %rsi
	addq	%r12, %rcx
	addq	%rsi, %rcx
	addq	%rax, %r14
	addq	%rsi, %r14
	imulq	$56, %rdx, %rax
	xorl	%edx, %edx
	.p2align	4
59:
	movups	(%rcx,%rdx), %xmm0
	movups	16(%rcx,%rdx), %xmm1
	movups	32(%rcx,%rdx), %xmm2
	movq	48(%rcx,%rdx), %rsi
	movq	%rsi, 48(%r14,%rdx)
	movups	%xmm2, 32(%r14,%rdx)
	movups	%xmm1, 16(%r14,%rdx)
	movups	%xmm0, (%r14,%rdx)
	addq	$56, %rdx
	cmpq	%rdx, %rax
	jne	59b
60:
	movq	%r12, (%rbx)
	movq	8(%rsp), %rax
	movq	%rax, 8(%rbx)
61:
	addq	$40, %rsp
	popq	%rbx
	popq	%r12
	popq	%r13
	popq	%r14
	popq	%r15
	popq	%rbp
	retq
62:
	.size	"core::slice::sort::merge::merge::<#24df1801f4a811cc>", 62b-"core::slice::sort::merge::merge::<#24df1801f4a811cc>"

	.text
	.p2align	4
	.type	"core::slice::sort::merge::merge::<#32fabb223415b920>",@function
"core::slice::sort::merge::merge::<#32fabb223415b920>":
	pushq	%rbp
	pushq	%r15
	pushq	%r14
	pushq	%r13
	pushq	%r12
	pushq	%rbx
	subq	$56, %rsp
	movq	%rcx, %r12
	movq	%rdx, %r9
	movq	%rsi, %r10
	movq	%rdi, %r15
	movq	%rsi, %rax
	shrq	$2, %rax
	cmpq	%rdx, %rax
	setbe	%cl
	movq	%rsi, %rbp
	subq	%rdx, %rbp
	cmpq	%rbp, %rax
	setbe	%al
	andb	%cl, %al
	cmpq	$4097, %rsi
	setb	%cl
	xorb	$1, %al
	orb	%al, %cl
	movq	%rsi, 8(%rsp)
	movq	%rdi, 48(%rsp)
	movq	%rdx, 16(%rsp)
	je	2f
	cmpq	$4097, %r10
	setae	%cl
	testb	%al, %cl
	je	3f
1:
	leaq	(,%r9,8), %rax
	movq	(%r12), %r13
	movq	8(%r12), %r14
	leaq	(%rax,%rax,4), %rdx
	cmpq	%rbp, %r9
	jbe	4f
	leaq	(%r15,%rdx), %rsi
	movq	%rdx, 32(%rsp)
	leaq	(%rdx,%r13), %rbx
	leaq	(,%rbp,8), %rax
	leaq	(%rax,%rax,4), %r8
	movq	%rbx, %rax
	subq	%rsi, %rax
	cmpq	%r8, %rax
	movq	%r12, 40(%rsp)
	jae	6f
	cmpq	%r9, %r10
	je	47f
	movl	%ebp, %eax
	andl	$7, %eax
	movq	%r9, %rcx
	subq	%r10, %rcx
	cmpq	$-8, %rcx
	jbe	43f
	xorl	%ecx, %ecx
	jmp	45f
2:
	cmpq	$65537, %r10
	jae	1b
3:
	movq	(%r12), %r13
	movq	8(%r12), %rbx
	leaq	(,%r10,8), %rax
	leaq	(%rax,%rax,4), %rdx
	movq	%r13, %rax
	subq	%r15, %rax
	cmpq	%rdx, %rax
	jae	5f
	testq	%r10, %r10
	je	12f
	movl	%r10d, %eax
	andl	$7, %eax
	cmpq	$8, %r10
	jae	8f
	xorl	%ecx, %ecx
	jmp	10f
4:
	movq	%r13, %rax
	subq	%r15, %rax
	cmpq	%rdx, %rax
	movq	%r14, 24(%rsp)
	jae	7f
	testq	%r9, %r9
	je	30f
	movl	%r9d, %eax
	andl	$7, %eax
	cmpq	$8, %r9
	jae	31f
	xorl	%ecx, %ecx
	jmp	33f
5:
	movq	%r13, %rdi
	movq	%r15, %rsi
	callq	memmove@PLT
	movq	16(%rsp), %r9
	movq	8(%rsp), %r10
	jmp	12f
6:
	movq	%rbx, %rdi
	movq	%r8, %rdx
	movq	%r14, %r12
	movq	%r8, %r14
	callq	memmove@PLT
	movq	%r14, %r8
	movq	%r12, %r14
	movq	40(%rsp), %r12
	movq	16(%rsp), %r9
	movq	8(%rsp), %r10
	jmp	47f
7:
	movq	%r13, %rdi
	movq	%r15, %rsi
	callq	memmove@PLT
	movq	16(%rsp), %r9
	movq	8(%rsp), %r10
	jmp	35f
8:
	movq	%r10, %rdx
	andq	$-8, %rdx
	xorl	%ecx, %ecx
	xorl	%esi, %esi
	.p2align	4
9:
	movups	(%r15,%rsi), %xmm0
	movups	16(%r15,%rsi), %xmm1
	movq	32(%r15,%rsi), %rdi
	movq	%rdi, 32(%r13,%rsi)
	movups	%xmm1, 16(%r13,%rsi)
	movups	%xmm0, (%r13,%rsi)
	movups	40(%r15,%rsi), %xmm0
	movups	56(%r15,%rsi), %xmm1
	movq	72(%r15,%rsi), %rdi
	movq	%rdi, 72(%r13,%rsi)
	movups	%xmm1, 56(%r13,%rsi)
	movups	%xmm0, 40(%r13,%rsi)
	movups	80(%r15,%rsi), %xmm0
	movups	96(%r15,%rsi), %xmm1
	movq	112(%r15,%rsi), %rdi
	movq	%rdi, 112(%r13,%rsi)
	movups	%xmm1, 96(%r13,%rsi)
	movups	%xmm0, 80(%r13,%rsi)
	movups	120(%r15,%rsi), %xmm0
	movups	136(%r15,%rsi), %xmm1
	movq	152(%r15,%rsi), %rdi
	movq	%rdi, 152(%r13,%rsi)
	movups	%xmm1, 136(%r13,%rsi)
	movups	%xmm0, 120(%r13,%rsi)
	movups	160(%r15,%rsi), %xmm0
	movups	176(%r15,%rsi), %xmm1
	movq	192(%r15,%rsi), %rdi
	movq	%rdi, 192(%r13,%rsi)
	movups	%xmm1, 176(%r13,%rsi)
	movups	%xmm0, 160(%r13,%rsi)
	movups	200(%r15,%rsi), %xmm0
	movups	216(%r15,%rsi), %xmm1
	movq	232(%r15,%rsi), %rdi
	movq	%rdi, 232(%r13,%rsi)
	movups	%xmm1, 216(%r13,%rsi)
	movups	%xmm0, 200(%r13,%rsi)
	movups	240(%r15,%rsi), %xmm0
	movups	256(%r15,%rsi), %xmm1
	movq	272(%r15,%rsi), %rdi
	movq	%rdi, 272(%r13,%rsi)
	movups	%xmm1, 256(%r13,%rsi)
	movups	%xmm0, 240(%r13,%rsi)
	movups	280(%r15,%rsi), %xmm0
	movups	296(%r15,%rsi), %xmm1
	movq	312(%r15,%rsi), %rdi
	movq	%rdi, 312(%r13,%rsi)
	movups	%xmm1, 296(%r13,%rsi)
	movups	%xmm0, 280(%r13,%rsi)
	addq	$8, %rcx
	addq	$320, %rsi
	cmpq	%rcx, %rdx
	jne	9b
	testq	%rax, %rax
	je	12f
10:
	shlq	$3, %rcx
	leaq	(%rcx,%rcx,4), %rcx
	leaq	(%r15,%rcx), %rdx
	addq	%r13, %rcx
	shll	$3, %eax
	leaq	(%rax,%rax,4), %rax
	xorl	%esi, %esi
	.p2align	4
11:
	movups	(%rdx,%rsi), %xmm0
	movups	16(%rdx,%rsi), %xmm1
	movq	32(%rdx,%rsi), %rdi
	movq	%rdi, 32(%rcx,%rsi)
	movups	%xmm1, 16(%rcx,%rsi)
	movups	%xmm0, (%rcx,%rsi)
	addq	$40, %rsi
	cmpq	%rsi, %rax
	jne	11b
12:
	testq	%r9, %r9
	sete	%al
	cmpq	%r10, %r9
	setae	%cl
	orb	%al, %cl
	jne	22f
	movq	%rbx, 24(%rsp)
	movq	%r12, 40(%rsp)
	xorl	%edi, %edi
	movq	%r15, %r14
	movq	%r9, %rbx
	movq	%r10, %r12
	xorl	%r11d, %r11d
	movq	%r13, 16(%rsp)
	.p2align	4
13:
	leaq	(,%rbx,8), %rax
	leaq	(%rax,%rax,4), %rax
	leaq	(,%rdi,8), %rcx
	leaq	(%rcx,%rcx,4), %rcx
	movq	(%r13,%rax), %rdx
	movq	(%r13,%rcx), %rsi
	cmpq	%rsi, %rdx
	jne	14f
	movq	%rdi, 8(%rsp)
	movq	8(%r13,%rax), %rdi
	movq	16(%r13,%rax), %rsi
	movq	8(%r13,%rcx), %rdx
	movq	16(%r13,%rcx), %rcx
	movq	%r10, %r15
	movq	%r9, %rbp
	movq	%rbx, %r13
	movq	%r11, %rbx
	callq	"core::cmp::slices::RefSliceOrd::cmp::<#914af4d8504a0b72>"
	movq	8(%rsp), %rdi
	movq	%rbx, %r11
	movq	%r13, %rbx
	movq	%rbp, %r9
	movq	%r15, %r10
	movq	48(%rsp), %r15
	testb	%al, %al
	sete	%al
	movq	%rbx, %rcx
	testb	%al, %al
	je	15f
	jmp	16f
	.p2align	4
14:
	bswapq	%rsi
	bswapq	%rdx
	cmpq	%rsi, %rdx
	setb	%al
	movq	%rbx, %rcx
	testb	%al, %al
	jne	16f
15:
	movq	%rdi, %rcx
16:
	leaq	(%rcx,%rcx,4), %rcx
	movq	16(%rsp), %r13
	movups	(%r13,%rcx,8), %xmm0
	movups	16(%r13,%rcx,8), %xmm1
	movq	32(%r13,%rcx,8), %rcx
	movq	%rcx, 32(%r14)
	movups	%xmm1, 16(%r14)
	movups	%xmm0, (%r14)
	movzbl	%al, %ecx
	addq	%rcx, %rbx
	xorb	$1, %al
	movzbl	%al, %eax
	addq	%rax, %rdi
	cmpq	%r9, %rdi
	jae	20f
	cmpq	%r12, %rbx
	jae	20f
	leaq	(,%r12,8), %rax
	leaq	(%rax,%rax,4), %rax
	leaq	(,%r9,8), %rcx
	leaq	(%rcx,%rcx,4), %rcx
	movq	-40(%r13,%rax), %rdx
	movq	-40(%r13,%rcx), %rsi
	cmpq	%rsi, %rdx
	jne	17f
	movq	%rdi, 8(%rsp)
	movq	-32(%r13,%rax), %rdi
	movq	-24(%r13,%rax), %rsi
	movq	-32(%r13,%rcx), %rdx
	movq	-24(%r13,%rcx), %rcx
	movq	%r10, %r15
	movq	%r9, %rbp
	movq	%rbx, %r13
	movq	%r11, %rbx
	callq	"core::cmp::slices::RefSliceOrd::cmp::<#914af4d8504a0b72>"
	movq	8(%rsp), %rdi
	movq	%rbx, %r11
	movq	%r13, %rbx
	movq	%rbp, %r9
	movq	%r15, %r10
	movq	48(%rsp), %r15
	testb	%al, %al
	sete	%al
	movq	%r9, %rcx
	testb	%al, %al
	je	18f
	jmp	19f
	.p2align	4
17:
	bswapq	%rsi
	bswapq	%rdx
	cmpq	%rsi, %rdx
	setb	%al
	movq	%r9, %rcx
	testb	%al, %al
	jne	19f
18:
	movq	%r12, %rcx
19:
	decq	%r10
	leaq	(%rcx,%rcx,4), %rcx
	leaq	(%r10,%r10,4), %rdx
	movq	16(%rsp), %r13
	movups	-40(%r13,%rcx,8), %xmm0
	movups	-24(%r13,%rcx,8), %xmm1
	movq	-8(%r13,%rcx,8), %rcx
	movq	%rcx, 32(%r15,%rdx,8)
	movups	%xmm1, 16(%r15,%rdx,8)
	movups	%xmm0, (%r15,%rdx,8)
	movzbl	%al, %ecx
	subq	%rcx, %r9
	xorb	$1, %al
	movzbl	%al, %eax
	subq	%rax, %r12
20:
	incq	%r11
	cmpq	%r9, %rdi
	jae	21f
	addq	$40, %r14
	cmpq	%r12, %rbx
	jb	13b
21:
	cmpq	%r9, %rdi
	cmovbq	%rdi, %rbx
	shlq	$3, %rbx
	leaq	(%rbx,%rbx,4), %rax
	movq	40(%rsp), %r12
	movq	24(%rsp), %rbx
	jmp	23f
22:
	xorl	%r11d, %r11d
	xorl	%eax, %eax
23:
	movq	%r10, %r8
	subq	%r11, %r8
	leaq	(%rax,%r13), %rsi
	leaq	(,%r11,8), %rcx
	leaq	(%rcx,%rcx,4), %rcx
	leaq	(%r15,%rcx), %rdi
	leaq	(,%r8,8), %rdx
	leaq	(%rdx,%rdx,4), %rdx
	movq	%rdi, %r9
	subq	%rsi, %r9
	cmpq	%rdx, %r9
	jae	24f
	cmpq	%r11, %r10
	je	29f
	movl	%r8d, %edx
	andl	$7, %edx
	subq	%r10, %r11
	cmpq	$-8, %r11
	jbe	25f
	xorl	%r9d, %r9d
	jmp	27f
24:
	callq	memmove@PLT
	jmp	29f
25:
	andq	$-8, %r8
	movl	$280, %r10d
	xorl	%r9d, %r9d
	.p2align	4
26:
	movups	-280(%rsi,%r10), %xmm0
	movups	-264(%rsi,%r10), %xmm1
	movq	-248(%rsi,%r10), %r11
	movq	%r11, -248(%rdi,%r10)
	movups	%xmm1, -264(%rdi,%r10)
	movups	%xmm0, -280(%rdi,%r10)
	movups	-240(%rsi,%r10), %xmm0
	movups	-224(%rsi,%r10), %xmm1
	movq	-208(%rsi,%r10), %r11
	movq	%r11, -208(%rdi,%r10)
	movups	%xmm1, -224(%rdi,%r10)
	movups	%xmm0, -240(%rdi,%r10)
	movups	-200(%rsi,%r10), %xmm0
	movups	-184(%rsi,%r10), %xmm1
	movq	-168(%rsi,%r10), %r11
	movq	%r11, -168(%rdi,%r10)
	movups	%xmm1, -184(%rdi,%r10)
	movups	%xmm0, -200(%rdi,%r10)
	movups	-160(%rsi,%r10), %xmm0
	movups	-144(%rsi,%r10), %xmm1
	movq	-128(%rsi,%r10), %r11
	movq	%r11, -128(%rdi,%r10)
	movups	%xmm1, -144(%rdi,%r10)
	movups	%xmm0, -160(%rdi,%r10)
	movups	-120(%rsi,%r10), %xmm0
	movups	-104(%rsi,%r10), %xmm1
	movq	-88(%rsi,%r10), %r11
	movq	%r11, -88(%rdi,%r10)
	movups	%xmm1, -104(%rdi,%r10)
	movups	%xmm0, -120(%rdi,%r10)
	movups	-80(%rsi,%r10), %xmm0
	movups	-64(%rsi,%r10), %xmm1
	movq	-48(%rsi,%r10), %r11
	movq	%r11, -48(%rdi,%r10)
	movups	%xmm1, -64(%rdi,%r10)
	movups	%xmm0, -80(%rdi,%r10)
	movups	-40(%rsi,%r10), %xmm0
	movups	-24(%rsi,%r10), %xmm1
	movq	-8(%rsi,%r10), %r11
	movq	%r11, -8(%rdi,%r10)
	movups	%xmm1, -24(%rdi,%r10)
	movups	%xmm0, -40(%rdi,%r10)
	movups	(%rsi,%r10), %xmm0
	movups	16(%rsi,%r10), %xmm1
	movq	32(%rsi,%r10), %r11
	movq	%r11, 32(%rdi,%r10)
	movups	%xmm1, 16(%rdi,%r10)
	movups	%xmm0, (%rdi,%r10)
	addq	$8, %r9
	addq	$320, %r10
	cmpq	%r9, %r8
	jne	26b
	testq	%rdx, %rdx
	je	29f
27:
	shlq	$3, %r9
	leaq	(%r9,%r9,4), %rsi
	addq	%rsi, %rax
	addq	%r13, %rax
	addq	%rsi, %rcx
	addq	%rcx, %r15
	shll	$3, %edx
	leaq	(%rdx,%rdx,4), %rcx
	xorl	%edx, %edx
	.p2align	4
28:
	movups	(%rax,%rdx), %xmm0
	movups	16(%rax,%rdx), %xmm1
	movq	32(%rax,%rdx), %rsi
	movq	%rsi, 32(%r15,%rdx)
	movups	%xmm1, 16(%r15,%rdx)
	movups	%xmm0, (%r15,%rdx)
	addq	$40, %rdx
	cmpq	%rdx, %rcx
	jne	28b
29:
	movq	%r13, (%r12)
	movq	%rbx, 8(%r12)
	jmp	67f
30:
	movq	%r15, %rax
	subq	%r13, %rax
	cmpq	%rdx, %rax
	jb	66f
	xorl	%edx, %edx
	movq	%r13, %rsi
	jmp	42f
31:
	movq	%r9, %rdx
	andq	$-8, %rdx
	xorl	%ecx, %ecx
	xorl	%esi, %esi
	.p2align	4
32:
	movups	(%r15,%rsi), %xmm0
	movups	16(%r15,%rsi), %xmm1
	movq	32(%r15,%rsi), %rdi
	movq	%rdi, 32(%r13,%rsi)
	movups	%xmm1, 16(%r13,%rsi)
	movups	%xmm0, (%r13,%rsi)
	movups	40(%r15,%rsi), %xmm0
	movups	56(%r15,%rsi), %xmm1
	movq	72(%r15,%rsi), %rdi
	movq	%rdi, 72(%r13,%rsi)
	movups	%xmm1, 56(%r13,%rsi)
	movups	%xmm0, 40(%r13,%rsi)
	movups	80(%r15,%rsi), %xmm0
	movups	96(%r15,%rsi), %xmm1
	movq	112(%r15,%rsi), %rdi
	movq	%rdi, 112(%r13,%rsi)
	movups	%xmm1, 96(%r13,%rsi)
	movups	%xmm0, 80(%r13,%rsi)
	movups	120(%r15,%rsi), %xmm0
	movups	136(%r15,%rsi), %xmm1
	movq	152(%r15,%rsi), %rdi
	movq	%rdi, 152(%r13,%rsi)
	movups	%xmm1, 136(%r13,%rsi)
	movups	%xmm0, 120(%r13,%rsi)
	movups	160(%r15,%rsi), %xmm0
	movups	176(%r15,%rsi), %xmm1
	movq	192(%r15,%rsi), %rdi
	movq	%rdi, 192(%r13,%rsi)
	movups	%xmm1, 176(%r13,%rsi)
	movups	%xmm0, 160(%r13,%rsi)
	movups	200(%r15,%rsi), %xmm0
	movups	216(%r15,%rsi), %xmm1
	movq	232(%r15,%rsi), %rdi
	movq	%rdi, 232(%r13,%rsi)
	movups	%xmm1, 216(%r13,%rsi)
	movups	%xmm0, 200(%r13,%rsi)
	movups	240(%r15,%rsi), %xmm0
	movups	256(%r15,%rsi), %xmm1
	movq	272(%r15,%rsi), %rdi
	movq	%rdi, 272(%r13,%rsi)
	movups	%xmm1, 256(%r13,%rsi)
	movups	%xmm0, 240(%r13,%rsi)
	movups	280(%r15,%rsi), %xmm0
	movups	296(%r15,%rsi), %xmm1
	movq	312(%r15,%rsi), %rdi
	movq	%rdi, 312(%r13,%rsi)
	movups	%xmm1, 296(%r13,%rsi)
	movups	%xmm0, 280(%r13,%rsi)
	addq	$8, %rcx
	addq	$320, %rsi
	cmpq	%rcx, %rdx
	jne	32b
	testq	%rax, %rax
	je	35f
33:
	shlq	$3, %rcx
	leaq	(%rcx,%rcx,4), %rcx
	leaq	(%r15,%rcx), %rdx
	addq	%r13, %rcx
	shll	$3, %eax
	leaq	(%rax,%rax,4), %rax
	xorl	%esi, %esi
	.p2align	4
34:
	movups	(%rdx,%rsi), %xmm0
	movups	16(%rdx,%rsi), %xmm1
	movq	32(%rdx,%rsi), %rdi
	movq	%rdi, 32(%rcx,%rsi)
	movups	%xmm1, 16(%rcx,%rsi)
	movups	%xmm0, (%rcx,%rsi)
	addq	$40, %rsi
	cmpq	%rsi, %rax
	jne	34b
35:
	movq	%r12, %rbp
	testq	%r9, %r9
	sete	%al
	cmpq	%r10, %r9
	setae	%cl
	xorl	%ebx, %ebx
	xorl	%r14d, %r14d
	orb	%al, %cl
	jne	40f
	movq	%r9, %r12
	.p2align	4
36:
	leaq	(,%r12,8), %rax
	leaq	(%rax,%rax,4), %rax
	leaq	(,%r14,8), %rcx
	leaq	(%rcx,%rcx,4), %rcx
	movq	(%r15,%rax), %rdx
	movq	(%r13,%rcx), %rsi
	cmpq	%rsi, %rdx
	jne	37f
	movq	8(%r15,%rax), %rdi
	movq	16(%r15,%rax), %rsi
	movq	8(%r13,%rcx), %rdx
	movq	16(%r13,%rcx), %rcx
	callq	"core::cmp::slices::RefSliceOrd::cmp::<#914af4d8504a0b72>"
	movq	16(%rsp), %r9
	movq	8(%rsp), %r10
	testb	%al, %al
	sete	%al
	movq	%r15, %rcx
	movq	%r12, %rdx
	testb	%al, %al
	je	38f
	jmp	39f
	.p2align	4
37:
	bswapq	%rsi
	bswapq	%rdx
	cmpq	%rsi, %rdx
	setb	%al
	movq	%r15, %rcx
	movq	%r12, %rdx
	testb	%al, %al
	jne	39f
38:
	movq	%r13, %rcx
	movq	%r14, %rdx
39:
	leaq	(%rdx,%rdx,4), %rdx
	movups	(%rcx,%rdx,8), %xmm0
	movups	16(%rcx,%rdx,8), %xmm1
	movq	32(%rcx,%rdx,8), %rcx
	movq	%rcx, 32(%r15,%rbx)
	movups	%xmm1, 16(%r15,%rbx)
	movups	%xmm0, (%r15,%rbx)
	movl	%eax, %ecx
	xorb	$1, %cl
	movzbl	%cl, %ecx
	addq	%rcx, %r14
	addq	$40, %rbx
	cmpq	%r9, %r14
	jae	40f
	movzbl	%al, %eax
	addq	%rax, %r12
	cmpq	%r10, %r12
	jb	36b
40:
	movq	%r9, %rdi
	subq	%r14, %rdi
	leaq	(,%r14,8), %rax
	leaq	(%rax,%rax,4), %rax
	leaq	(%rax,%r13), %rsi
	leaq	(%r15,%rbx), %r8
	leaq	(,%rdi,8), %rcx
	leaq	(%rcx,%rcx,4), %rdx
	movq	%r8, %rcx
	subq	%rsi, %rcx
	cmpq	%rdx, %rcx
	jae	41f
	cmpq	%r14, %r9
	movq	%rbp, %r12
	je	66f
	movl	%edi, %ecx
	andl	$7, %ecx
	subq	%r9, %r14
	cmpq	$-8, %r14
	jbe	62f
	xorl	%edx, %edx
	jmp	64f
41:
	movq	%r8, %r15
	movq	%rbp, %r12
42:
	movq	%r15, %rdi
	callq	memmove@PLT
	jmp	66f
43:
	movq	%rbp, %rdx
	andq	$-8, %rdx
	xorl	%ecx, %ecx
	movq	32(%rsp), %rsi
	.p2align	4
44:
	movups	(%r15,%rsi), %xmm0
	movups	16(%r15,%rsi), %xmm1
	movq	32(%r15,%rsi), %rdi
	movq	%rdi, 32(%r13,%rsi)
	movups	%xmm1, 16(%r13,%rsi)
	movups	%xmm0, (%r13,%rsi)
	movups	40(%r15,%rsi), %xmm0
	movups	56(%r15,%rsi), %xmm1
	movq	72(%r15,%rsi), %rdi
	movq	%rdi, 72(%r13,%rsi)
	movups	%xmm1, 56(%r13,%rsi)
	movups	%xmm0, 40(%r13,%rsi)
	movups	80(%r15,%rsi), %xmm0
	movups	96(%r15,%rsi), %xmm1
	movq	112(%r15,%rsi), %rdi
	movq	%rdi, 112(%r13,%rsi)
	movups	%xmm1, 96(%r13,%rsi)
	movups	%xmm0, 80(%r13,%rsi)
	movups	120(%r15,%rsi), %xmm0
	movups	136(%r15,%rsi), %xmm1
	movq	152(%r15,%rsi), %rdi
	movq	%rdi, 152(%r13,%rsi)
	movups	%xmm1, 136(%r13,%rsi)
	movups	%xmm0, 120(%r13,%rsi)
	movups	160(%r15,%rsi), %xmm0
	movups	176(%r15,%rsi), %xmm1
	movq	192(%r15,%rsi), %rdi
	movq	%rdi, 192(%r13,%rsi)
	movups	%xmm1, 176(%r13,%rsi)
	movups	%xmm0, 160(%r13,%rsi)
	movups	200(%r15,%rsi), %xmm0
	movups	216(%r15,%rsi), %xmm1
	movq	232(%r15,%rsi), %rdi
	movq	%rdi, 232(%r13,%rsi)
	movups	%xmm1, 216(%r13,%rsi)
	movups	%xmm0, 200(%r13,%rsi)
	movups	240(%r15,%rsi), %xmm0
	movups	256(%r15,%rsi), %xmm1
	movq	272(%r15,%rsi), %rdi
	movq	%rdi, 272(%r13,%rsi)
	movups	%xmm1, 256(%r13,%rsi)
	movups	%xmm0, 240(%r13,%rsi)
	movups	280(%r15,%rsi), %xmm0
	movups	296(%r15,%rsi), %xmm1
	movq	312(%r15,%rsi), %rdi
	movq	%rdi, 312(%r13,%rsi)
	movups	%xmm1, 296(%r13,%rsi)
	movups	%xmm0, 280(%r13,%rsi)
	addq	$8, %rcx
	addq	$320, %rsi
	cmpq	%rcx, %rdx
	jne	44b
	testq	%rax, %rax
	je	47f
45:
	leaq	(%rcx,%rcx,4), %rcx
	movq	32(%rsp), %rdx
	leaq	(%rdx,%rcx,8), %rcx
	leaq	(%r15,%rcx), %rdx
	addq	%r13, %rcx
	shll	$3, %eax
	leaq	(%rax,%rax,4), %rax
	xorl	%esi, %esi
	.p2align	4
46:
	movups	(%rdx,%rsi), %xmm0
	movups	16(%rdx,%rsi), %xmm1
	movq	32(%rdx,%rsi), %rdi
	movq	%rdi, 32(%rcx,%rsi)
	movups	%xmm1, 16(%rcx,%rsi)
	movups	%xmm0, (%rcx,%rsi)
	addq	$40, %rsi
	cmpq	%rsi, %rax
	jne	46b
47:
	cmpq	%r10, %r9
	jae	54f
	movq	%r14, 24(%rsp)
	leaq	(%r10,%r10,4), %rax
	leaq	(%r15,%rax,8), %r12
	addq	$-40, %r12
	movq	%r9, %r14
	.p2align	4
48:
	leaq	-8(,%r10,8), %rax
	leaq	(%rax,%rax,4), %rax
	leaq	-8(,%r14,8), %rcx
	leaq	(%rcx,%rcx,4), %rcx
	movq	(%r13,%rax), %rdx
	movq	(%r15,%rcx), %rsi
	cmpq	%rsi, %rdx
	jne	50f
	movq	8(%r13,%rax), %rdi
	movq	16(%r13,%rax), %rsi
	movq	8(%r15,%rcx), %rdx
	movq	16(%r15,%rcx), %rcx
	movq	%r10, %r15
	callq	"core::cmp::slices::RefSliceOrd::cmp::<#914af4d8504a0b72>"
	movq	16(%rsp), %r9
	movq	%r15, %r10
	testb	%al, %al
	sete	%al
	testb	%al, %al
	je	51f
49:
	leaq	-1(%r14), %rdx
	movq	48(%rsp), %r15
	movq	%r15, %rcx
	jmp	52f
	.p2align	4
50:
	bswapq	%rsi
	bswapq	%rdx
	cmpq	%rsi, %rdx
	setb	%al
	testb	%al, %al
	jne	49b
51:
	leaq	-1(%r10), %rdx
	movq	%r13, %rcx
	movq	48(%rsp), %r15
52:
	leaq	(%rdx,%rdx,4), %rdx
	movups	(%rcx,%rdx,8), %xmm0
	movups	16(%rcx,%rdx,8), %xmm1
	movq	32(%rcx,%rdx,8), %rcx
	movq	%rcx, 32(%r12)
	movups	%xmm1, 16(%r12)
	movups	%xmm0, (%r12)
	movzbl	%al, %ecx
	xorb	$1, %al
	movzbl	%al, %eax
	subq	%rax, %r10
	subq	%rcx, %r14
	je	53f
	addq	$-40, %r12
	cmpq	%r9, %r10
	ja	48b
53:
	movq	%r10, %rbp
	subq	%r9, %rbp
	shlq	$3, %r14
	leaq	(%r14,%r14,4), %rax
	leaq	(,%rbp,8), %rcx
	leaq	(%rcx,%rcx,4), %r8
	movq	40(%rsp), %r12
	movq	24(%rsp), %r14
	jmp	55f
54:
	movq	32(%rsp), %rax
55:
	addq	%rax, %r15
	movq	%r15, %rax
	subq	%rbx, %rax
	cmpq	%r8, %rax
	jae	56f
	cmpq	%r9, %r10
	movq	32(%rsp), %rdi
	je	61f
	leaq	-1(%rbp), %rcx
	movl	%ebp, %eax
	andl	$7, %eax
	cmpq	$7, %rcx
	jae	57f
	xorl	%ecx, %ecx
	jmp	59f
56:
	movq	%r15, %rdi
	movq	%rbx, %rsi
	movq	%r8, %rdx
	callq	memmove@PLT
	jmp	61f
57:
	andq	$-8, %rbp
	movl	$280, %edx
	xorl	%ecx, %ecx
	.p2align	4
58:
	movups	-280(%rbx,%rdx), %xmm0
	movups	-264(%rbx,%rdx), %xmm1
	movq	-248(%rbx,%rdx), %rsi
	movq	%rsi, -248(%r15,%rdx)
	movups	%xmm1, -264(%r15,%rdx)
	movups	%xmm0, -280(%r15,%rdx)
	movups	-240(%rbx,%rdx), %xmm0
	movups	-224(%rbx,%rdx), %xmm1
	movq	-208(%rbx,%rdx), %rsi
	movq	%rsi, -208(%r15,%rdx)
	movups	%xmm1, -224(%r15,%rdx)
	movups	%xmm0, -240(%r15,%rdx)
	movups	-200(%rbx,%rdx), %xmm0
	movups	-184(%rbx,%rdx), %xmm1
	movq	-168(%rbx,%rdx), %rsi
	movq	%rsi, -168(%r15,%rdx)
	movups	%xmm1, -184(%r15,%rdx)
	movups	%xmm0, -200(%r15,%rdx)
	movups	-160(%rbx,%rdx), %xmm0
	movups	-144(%rbx,%rdx), %xmm1
	movq	-128(%rbx,%rdx), %rsi
	movq	%rsi, -128(%r15,%rdx)
	movups	%xmm1, -144(%r15,%rdx)
	movups	%xmm0, -160(%r15,%rdx)
	movups	-120(%rbx,%rdx), %xmm0
	movups	-104(%rbx,%rdx), %xmm1
	movq	-88(%rbx,%rdx), %rsi
	movq	%rsi, -88(%r15,%rdx)
	movups	%xmm1, -104(%r15,%rdx)
	movups	%xmm0, -120(%r15,%rdx)
	movups	-80(%rbx,%rdx), %xmm0
	movups	-64(%rbx,%rdx), %xmm1
	movq	-48(%rbx,%rdx), %rsi
	movq	%rsi, -48(%r15,%rdx)
	movups	%xmm1, -64(%r15,%rdx)
	movups	%xmm0, -80(%r15,%rdx)
	movups	-40(%rbx,%rdx), %xmm0
	movups	-24(%rbx,%rdx), %xmm1
	movq	-8(%rbx,%rdx), %rsi
	movq	%rsi, -8(%r15,%rdx)
	movups	%xmm1, -24(%r15,%rdx)
	movups	%xmm0, -40(%r15,%rdx)
	movups	(%rbx,%rdx), %xmm0
	movups	16(%rbx,%rdx), %xmm1
	movq	32(%rbx,%rdx), %rsi
	movq	%rsi, 32(%r15,%rdx)
	movups	%xmm1, 16(%r15,%rdx)
	movups	%xmm0, (%r15,%rdx)
	addq	$8, %rcx
	addq	$320, %rdx
	cmpq	%rcx, %rbp
	jne	58b
	testq	%rax, %rax
	je	61f
59:
	shlq	$3, %rcx
	leaq	(%rcx,%rcx,4), %rcx
	addq	%rcx, %rdi
	addq	%r13, %rdi
	addq	%rcx, %r15
	shll	$3, %eax
	leaq	(%rax,%rax,4), %rax
	xorl	%ecx, %ecx
	.p2align	4
60:
	movups	(%rdi,%rcx), %xmm0
	movups	16(%rdi,%rcx), %xmm1
	movq	32(%rdi,%rcx), %rdx
	movq	%rdx, 32(%r15,%rcx)
	movups	%xmm1, 16(%r15,%rcx)
	movups	%xmm0, (%r15,%rcx)
	addq	$40, %rcx
	cmpq	%rcx, %rax
	jne	60b
61:
	movq	%r13, (%r12)
	movq	%r14, 8(%r12)
	jmp	67f
62:
	andq	$-8, %rdi
	movl	$280, %r9d
	xorl	%edx, %edx
	.p2align	4
63:
	movups	-280(%rsi,%r9), %xmm0
	movups	-264(%rsi,%r9), %xmm1
	movq	-248(%rsi,%r9), %r10
	movq	%r10, -248(%r8,%r9)
	movups	%xmm1, -264(%r8,%r9)
	movups	%xmm0, -280(%r8,%r9)
	movups	-240(%rsi,%r9), %xmm0
	movups	-224(%rsi,%r9), %xmm1
	movq	-208(%rsi,%r9), %r10
	movq	%r10, -208(%r8,%r9)
	movups	%xmm1, -224(%r8,%r9)
	movups	%xmm0, -240(%r8,%r9)
	movups	-200(%rsi,%r9), %xmm0
	movups	-184(%rsi,%r9), %xmm1
	movq	-168(%rsi,%r9), %r10
	movq	%r10, -168(%r8,%r9)
	movups	%xmm1, -184(%r8,%r9)
	movups	%xmm0, -200(%r8,%r9)
	movups	-160(%rsi,%r9), %xmm0
	movups	-144(%rsi,%r9), %xmm1
	movq	-128(%rsi,%r9), %r10
	movq	%r10, -128(%r8,%r9)
	movups	%xmm1, -144(%r8,%r9)
	movups	%xmm0, -160(%r8,%r9)
	movups	-120(%rsi,%r9), %xmm0
	movups	-104(%rsi,%r9), %xmm1
	movq	-88(%rsi,%r9), %r10
	movq	%r10, -88(%r8,%r9)
	movups	%xmm1, -104(%r8,%r9)
	movups	%xmm0, -120(%r8,%r9)
	movups	-80(%rsi,%r9), %xmm0
	movups	-64(%rsi,%r9), %xmm1
	movq	-48(%rsi,%r9), %r10
	movq	%r10, -48(%r8,%r9)
	movups	%xmm1, -64(%r8,%r9)
	movups	%xmm0, -80(%r8,%r9)
	movups	-40(%rsi,%r9), %xmm0
	movups	-24(%rsi,%r9), %xmm1
	movq	-8(%rsi,%r9), %r10
	movq	%r10, -8(%r8,%r9)
	movups	%xmm1, -24(%r8,%r9)
	movups	%xmm0, -40(%r8,%r9)
	movups	(%rsi,%r9), %xmm0
	movups	16(%rsi,%r9), %xmm1
	movq	32(%rsi,%r9), %r10
	movq	%r10, 32(%r8,%r9)
	movups	%xmm1, 16(%r8,%r9)
	movups	%xmm0, (%r8,%r9)
	addq	$8, %rdx
	addq	$320, %r9
	cmpq	%rdx, %rdi
	jne	63b
	testq	%rcx, %rcx
	je	66f
64:
	shlq	$3, %rdx
	leaq	(%rdx,%rdx,4), %rdx
	addq	%rdx, %rax
	addq	%r13, %rax
	addq	%rbx, %r15
	addq	%rdx, %r15
	shll	$3, %ecx
	leaq	(%rcx,%rcx,4), %rcx
	xorl	%edx, %edx
	.p2align	4
65:
	movups	(%rax,%rdx), %xmm0
	movups	16(%rax,%rdx), %xmm1
	movq	32(%rax,%rdx), %rsi
	movq	%rsi, 32(%r15,%rdx)
	movups	%xmm1, 16(%r15,%rdx)
	movups	%xmm0, (%r15,%rdx)
	addq	$40, %rdx
	cmpq	%rdx, %rcx
	jne	65b
66:
	movq	%r13, (%r12)
	movq	24(%rsp), %rax
	movq	%rax, 8(%r12)
67:
	addq	$56, %rsp
	popq	%rbx
	popq	%r12
	popq	%r13
	popq	%r14
	popq	%r15
	popq	%rbp
	retq
68:
	.size	"core::slice::sort::merge::merge::<#32fabb223415b920>", 68b-"core::slice::sort::merge::merge::<#32fabb223415b920>"

	.text
	.p2align	4
	.type	"core::slice::sort::merge::merge::<#54047240e3f04dbb>",@function
"core::slice::sort::merge::merge::<#54047240e3f04dbb>":
	pushq	%rbp
	pushq	%r15
	pushq	%r14
	pushq	%r13
	pushq	%r12
	pushq	%rbx
	subq	$104, %rsp
	movq	%rcx, %rbp
	movq	%rdx, %r12
	movq	%rsi, %rbx
	movq	%rdi, %r14
	movq	%rsi, %rax
	shrq	$2, %rax
	cmpq	%rdx, %rax
	setbe	%cl
	movq	%rsi, %r15
	subq	%rdx, %r15
	cmpq	%r15, %rax
	setbe	%al
	andb	%cl, %al
	cmpq	$4097, %rsi
	setb	%cl
	xorb	$1, %al
	orb	%al, %cl
	je	3f
	cmpq	$4097, %rbx
	setae	%cl
	testb	%al, %cl
	je	4f
1:
	movq	(%rbp), %r13
	movq	8(%rbp), %r9
	cmpq	%r15, %r12
	jbe	6f
	movq	%rbp, 96(%rsp)
	movq	%r12, %rax
	shlq	$4, %rax
	leaq	(%rax,%rax,4), %r10
	leaq	(%r14,%r10), %rsi
	leaq	(%r10,%r13), %rbp
	movq	%r15, %rax
	shlq	$4, %rax
	leaq	(%rax,%rax,4), %rdx
	movq	%rbp, %rax
	subq	%rsi, %rax
	cmpq	%rdx, %rax
	movq	%r9, 72(%rsp)
	jae	21f
	movq	%r10, %rax
	movq	%r15, %rcx
	cmpq	%r12, %rbx
	je	22f
	.p2align	4
2:
	movl	(%r14,%rax), %r8d
	movzbl	8(%r14,%rax), %esi
	movq	48(%r14,%rax), %rdi
	movq	%rdi, 64(%rsp)
	movups	32(%r14,%rax), %xmm0
	movaps	%xmm0, 48(%rsp)
	movups	16(%r14,%rax), %xmm0
	movaps	%xmm0, 32(%rsp)
	movq	72(%r14,%rax), %rdi
	movq	%rdi, 16(%rsp)
	movups	56(%r14,%rax), %xmm0
	movaps	%xmm0, (%rsp)
	movl	%r8d, (%r13,%rax)
	movq	%rsi, 8(%r13,%rax)
	movaps	32(%rsp), %xmm0
	movaps	48(%rsp), %xmm1
	movups	%xmm0, 16(%r13,%rax)
	movups	%xmm1, 32(%r13,%rax)
	movq	64(%rsp), %rsi
	movq	%rsi, 48(%r13,%rax)
	movaps	(%rsp), %xmm0
	movups	%xmm0, 56(%r13,%rax)
	movq	16(%rsp), %rsi
	movq	%rsi, 72(%r13,%rax)
	addq	$80, %rax
	decq	%rcx
	jne	2b
	jmp	22f
3:
	cmpq	$65537, %rbx
	jae	1b
4:
	movq	(%rbp), %r13
	movq	8(%rbp), %r15
	movq	%rbx, %rax
	shlq	$4, %rax
	leaq	(%rax,%rax,4), %rdx
	movq	%r13, %rax
	subq	%r14, %rax
	cmpq	%rdx, %rax
	jae	8f
	testq	%rbx, %rbx
	je	9f
	xorl	%eax, %eax
	movq	%rbx, %rcx
	.p2align	4
5:
	movl	(%r14,%rax), %edx
	movzbl	8(%r14,%rax), %esi
	movq	48(%r14,%rax), %rdi
	movq	%rdi, 64(%rsp)
	movups	32(%r14,%rax), %xmm0
	movaps	%xmm0, 48(%rsp)
	movups	16(%r14,%rax), %xmm0
	movaps	%xmm0, 32(%rsp)
	movq	72(%r14,%rax), %rdi
	movq	%rdi, 16(%rsp)
	movups	56(%r14,%rax), %xmm0
	movaps	%xmm0, (%rsp)
	movl	%edx, (%r13,%rax)
	movq	%rsi, 8(%r13,%rax)
	movaps	32(%rsp), %xmm0
	movaps	48(%rsp), %xmm1
	movups	%xmm0, 16(%r13,%rax)
	movups	%xmm1, 32(%r13,%rax)
	movq	64(%rsp), %rdx
	movq	%rdx, 48(%r13,%rax)
	movaps	(%rsp), %xmm0
	movups	%xmm0, 56(%r13,%rax)
	movq	16(%rsp), %rdx
	movq	%rdx, 72(%r13,%rax)
	addq	$80, %rax
	decq	%rcx
	jne	5b
	jmp	9f
6:
	movq	%r12, %rax
	shlq	$4, %rax
	leaq	(%rax,%rax,4), %rdx
	movq	%r13, %rax
	subq	%r14, %rax
	cmpq	%rdx, %rax
	jae	29f
	testq	%r12, %r12
	je	38f
	movq	%r9, %r15
	xorl	%eax, %eax
	movq	%r12, %rcx
	.p2align	4
7:
	movl	(%r14,%rax), %edx
	movzbl	8(%r14,%rax), %esi
	movq	48(%r14,%rax), %rdi
	movq	%rdi, 64(%rsp)
	movups	32(%r14,%rax), %xmm0
	movaps	%xmm0, 48(%rsp)
	movups	16(%r14,%rax), %xmm0
	movaps	%xmm0, 32(%rsp)
	movq	72(%r14,%rax), %rdi
	movq	%rdi, 16(%rsp)
	movups	56(%r14,%rax), %xmm0
	movaps	%xmm0, (%rsp)
	movl	%edx, (%r13,%rax)
	movq	%rsi, 8(%r13,%rax)
	movaps	32(%rsp), %xmm0
	movaps	48(%rsp), %xmm1
	movups	%xmm0, 16(%r13,%rax)
	movups	%xmm1, 32(%r13,%rax)
	movq	64(%rsp), %rdx
	movq	%rdx, 48(%r13,%rax)
	movaps	(%rsp), %xmm0
	movups	%xmm0, 56(%r13,%rax)
	movq	16(%rsp), %rdx
	movq	%rdx, 72(%r13,%rax)
	addq	$80, %rax
	decq	%rcx
	jne	7b
	jmp	30f
8:
	movq	%r13, %rdi
	movq	%r14, %rsi
	callq	memmove@PLT
9:
	testq	%r12, %r12
	sete	%al
	cmpq	%r12, %rbx
	setbe	%cl
	orb	%al, %cl
	jne	16f
	xorl	%ecx, %ecx
	movq	%r14, %rsi
	movq	%r12, %rdx
	movq	%rbx, %rdi
	xorl	%eax, %eax
	jmp	12f
	.p2align	4
10:
	movq	%r12, %r8
	incq	%rax
	cmpq	%r8, %rcx
	jae	15f
11:
	addq	$80, %rsi
	movq	%r8, %r12
	cmpq	%rdi, %rdx
	jae	15f
12:
	movq	%rdx, %r8
	leaq	(%rdx,%rdx,4), %r9
	shlq	$4, %r9
	leaq	(%rcx,%rcx,4), %r10
	shlq	$4, %r10
	movl	(%r13,%r10), %r10d
	movl	(%r13,%r9), %r9d
	cmpl	%r9d, %r10d
	adcq	$0, %rdx
	cmpl	%r9d, %r10d
	jb	13f
	movq	%rcx, %r8
13:
	leaq	(%r8,%r8,4), %r8
	sbbq	$-1, %rcx
	shlq	$4, %r8
	movl	(%r13,%r8), %r9d
	movzbl	8(%r13,%r8), %r10d
	movq	48(%r13,%r8), %r11
	movq	%r11, 64(%rsp)
	movups	16(%r13,%r8), %xmm0
	movups	32(%r13,%r8), %xmm1
	movaps	%xmm1, 48(%rsp)
	movaps	%xmm0, 32(%rsp)
	movq	72(%r13,%r8), %r11
	movq	%r11, 16(%rsp)
	movups	56(%r13,%r8), %xmm0
	movaps	%xmm0, (%rsp)
	movl	%r9d, (%rsi)
	movq	%r10, 8(%rsi)
	movaps	32(%rsp), %xmm0
	movaps	48(%rsp), %xmm1
	movups	%xmm0, 16(%rsi)
	movups	%xmm1, 32(%rsi)
	movq	64(%rsp), %r8
	movq	%r8, 48(%rsi)
	movaps	(%rsp), %xmm0
	movups	%xmm0, 56(%rsi)
	movq	16(%rsp), %r8
	movq	%r8, 72(%rsi)
	cmpq	%r12, %rcx
	jae	10b
	cmpq	%rdi, %rdx
	jae	10b
	leaq	(%rdi,%rdi,4), %r8
	shlq	$4, %r8
	leaq	(%r12,%r12,4), %r9
	shlq	$4, %r9
	movl	-80(%r13,%r9), %r9d
	movl	-80(%r13,%r8), %r10d
	cmpl	%r10d, %r9d
	movq	%r12, %r8
	sbbq	$0, %r8
	cmpl	%r10d, %r9d
	jb	14f
	movq	%rdi, %r12
14:
	adcq	$-1, %rdi
	decq	%rbx
	leaq	(%r12,%r12,4), %r9
	shlq	$4, %r9
	movl	-80(%r13,%r9), %r10d
	movzbl	-72(%r13,%r9), %r11d
	movq	-32(%r13,%r9), %r12
	movq	%r12, 64(%rsp)
	movups	-64(%r13,%r9), %xmm0
	movups	-48(%r13,%r9), %xmm1
	movaps	%xmm1, 48(%rsp)
	movaps	%xmm0, 32(%rsp)
	movq	-8(%r13,%r9), %r12
	movq	%r12, 16(%rsp)
	movups	-24(%r13,%r9), %xmm0
	movaps	%xmm0, (%rsp)
	leaq	(%rbx,%rbx,4), %r9
	shlq	$4, %r9
	movl	%r10d, (%r14,%r9)
	movq	%r11, 8(%r14,%r9)
	movaps	32(%rsp), %xmm0
	movaps	48(%rsp), %xmm1
	movups	%xmm0, 16(%r14,%r9)
	movups	%xmm1, 32(%r14,%r9)
	movq	64(%rsp), %r10
	movq	%r10, 48(%r14,%r9)
	movaps	(%rsp), %xmm0
	movups	%xmm0, 56(%r14,%r9)
	movq	16(%rsp), %r10
	movq	%r10, 72(%r14,%r9)
	incq	%rax
	cmpq	%r8, %rcx
	jb	11b
15:
	cmpq	%r8, %rcx
	cmovbq	%rcx, %rdx
	shlq	$4, %rdx
	leaq	(%rdx,%rdx,4), %rsi
	jmp	17f
16:
	xorl	%eax, %eax
	xorl	%esi, %esi
17:
	movq	%rbx, %rcx
	subq	%rax, %rcx
	addq	%r13, %rsi
	leaq	(%rax,%rax,4), %rdx
	shlq	$4, %rdx
	addq	%rdx, %r14
	movq	%rcx, %rdx
	shlq	$4, %rdx
	leaq	(%rdx,%rdx,4), %rdx
	movq	%r14, %rdi
	subq	%rsi, %rdi
	cmpq	%rdx, %rdi
	jae	19f
	cmpq	%rax, %rbx
	je	20f
	xorl	%eax, %eax
	.p2align	4
18:
	movl	(%rsi,%rax), %edx
	movzbl	8(%rsi,%rax), %edi
	movq	48(%rsi,%rax), %r8
	movq	%r8, 64(%rsp)
	movups	32(%rsi,%rax), %xmm0
	movaps	%xmm0, 48(%rsp)
	movups	16(%rsi,%rax), %xmm0
	movaps	%xmm0, 32(%rsp)
	movq	72(%rsi,%rax), %r8
	movq	%r8, 16(%rsp)
	movups	56(%rsi,%rax), %xmm0
	movaps	%xmm0, (%rsp)
	movl	%edx, (%r14,%rax)
	movq	%rdi, 8(%r14,%rax)
	movaps	32(%rsp), %xmm0
	movaps	48(%rsp), %xmm1
	movups	%xmm0, 16(%r14,%rax)
	movups	%xmm1, 32(%r14,%rax)
	movq	64(%rsp), %rdx
	movq	%rdx, 48(%r14,%rax)
	movaps	(%rsp), %xmm0
	movups	%xmm0, 56(%r14,%rax)
	movq	16(%rsp), %rdx
	movq	%rdx, 72(%r14,%rax)
	addq	$80, %rax
	decq	%rcx
	jne	18b
	jmp	20f
19:
	movq	%r14, %rdi
	callq	memmove@PLT
20:
	movq	%r13, (%rbp)
	movq	%r15, 8(%rbp)
	jmp	41f
21:
	movq	%rbp, %rdi
	movq	%rdx, 88(%rsp)
	movq	%r10, 80(%rsp)
	callq	memmove@PLT
	movq	80(%rsp), %r10
	movq	88(%rsp), %rdx
22:
	cmpq	%r12, %rbx
	jbe	27f
	leaq	(%rbx,%rbx,4), %rax
	shlq	$4, %rax
	leaq	(%rax,%r14), %rcx
	addq	$-80, %rcx
	movq	%r12, %rax
	.p2align	4
23:
	leaq	-1(%rbx), %rdx
	leaq	(%rdx,%rdx,4), %r8
	shlq	$4, %r8
	leaq	-1(%rax), %rsi
	leaq	(%rsi,%rsi,4), %rdi
	shlq	$4, %rdi
	movl	(%r14,%rdi), %edi
	movl	(%r13,%r8), %r9d
	cmpl	%r9d, %edi
	jb	24f
	movq	%rdx, %rsi
24:
	leaq	(%rsi,%rsi,4), %rsi
	adcq	$-1, %rbx
	shlq	$4, %rsi
	leaq	-80(%rcx), %rdx
	movq	%r14, %r8
	cmpl	%r9d, %edi
	jb	25f
	movq	%r13, %r8
25:
	movl	(%r8,%rsi), %edi
	movzbl	8(%r8,%rsi), %r9d
	movups	16(%r8,%rsi), %xmm0
	movups	32(%r8,%rsi), %xmm1
	movaps	%xmm0, 32(%rsp)
	movaps	%xmm1, 48(%rsp)
	movq	48(%r8,%rsi), %r10
	movq	%r10, 64(%rsp)
	movups	56(%r8,%rsi), %xmm0
	movaps	%xmm0, (%rsp)
	movq	72(%r8,%rsi), %rsi
	movq	%rsi, 16(%rsp)
	movl	%edi, (%rcx)
	movq	%r9, 8(%rcx)
	movaps	32(%rsp), %xmm0
	movaps	48(%rsp), %xmm1
	movups	%xmm0, 16(%rcx)
	movups	%xmm1, 32(%rcx)
	movq	64(%rsp), %rsi
	movq	%rsi, 48(%rcx)
	movaps	(%rsp), %xmm0
	movups	%xmm0, 56(%rcx)
	movq	16(%rsp), %rsi
	movq	%rsi, 72(%rcx)
	sbbq	$0, %rax
	je	26f
	movq	%rdx, %rcx
	cmpq	%r12, %rbx
	ja	23b
26:
	movq	%rbx, %r15
	subq	%r12, %r15
	shlq	$4, %rax
	leaq	(%rax,%rax,4), %r10
	movq	%r15, %rax
	shlq	$4, %rax
	leaq	(%rax,%rax,4), %rdx
27:
	addq	%r10, %r14
	movq	%r14, %rax
	subq	%rbp, %rax
	cmpq	%rdx, %rax
	jae	33f
	cmpq	%r12, %rbx
	movq	72(%rsp), %rdi
	je	34f
	xorl	%eax, %eax
	.p2align	4
28:
	movl	(%rbp,%rax), %ecx
	movzbl	8(%rbp,%rax), %edx
	movq	48(%rbp,%rax), %rsi
	movq	%rsi, 64(%rsp)
	movups	32(%rbp,%rax), %xmm0
	movaps	%xmm0, 48(%rsp)
	movups	16(%rbp,%rax), %xmm0
	movaps	%xmm0, 32(%rsp)
	movq	72(%rbp,%rax), %rsi
	movq	%rsi, 16(%rsp)
	movups	56(%rbp,%rax), %xmm0
	movaps	%xmm0, (%rsp)
	movl	%ecx, (%r14,%rax)
	movq	%rdx, 8(%r14,%rax)
	movaps	32(%rsp), %xmm0
	movaps	48(%rsp), %xmm1
	movups	%xmm0, 16(%r14,%rax)
	movups	%xmm1, 32(%r14,%rax)
	movq	64(%rsp), %rcx
	movq	%rcx, 48(%r14,%rax)
	movaps	(%rsp), %xmm0
	movups	%xmm0, 56(%r14,%rax)
	movq	16(%rsp), %rcx
	movq	%rcx, 72(%r14,%rax)
	addq	$80, %rax
	decq	%r15
	jne	28b
	jmp	34f
29:
	movq	%r9, %r15
	movq	%r13, %rdi
	movq	%r14, %rsi
	callq	memmove@PLT
30:
	testq	%r12, %r12
	sete	%al
	cmpq	%r12, %rbx
	setbe	%cl
	orb	%al, %cl
	jne	35f
	xorl	%ecx, %ecx
	xorl	%eax, %eax
	movq	%r12, %rdx
	.p2align	4
31:
	movq	%rdx, %rdi
	leaq	(%rdx,%rdx,4), %rsi
	shlq	$4, %rsi
	leaq	(%rax,%rax,4), %r8
	shlq	$4, %r8
	movl	(%r13,%r8), %r8d
	movl	(%r14,%rsi), %r9d
	cmpl	%r9d, %r8d
	adcq	$0, %rdx
	movq	%r14, %rsi
	cmpl	%r9d, %r8d
	jb	32f
	movq	%r13, %rsi
	movq	%rax, %rdi
32:
	sbbq	$-1, %rax
	leaq	(%rdi,%rdi,4), %rdi
	shlq	$4, %rdi
	movl	(%rsi,%rdi), %r8d
	movzbl	8(%rsi,%rdi), %r9d
	movups	16(%rsi,%rdi), %xmm0
	movups	32(%rsi,%rdi), %xmm1
	movaps	%xmm0, 32(%rsp)
	movaps	%xmm1, 48(%rsp)
	movq	48(%rsi,%rdi), %r10
	movq	%r10, 64(%rsp)
	movups	56(%rsi,%rdi), %xmm0
	movaps	%xmm0, (%rsp)
	movq	72(%rsi,%rdi), %rsi
	movq	%rsi, 16(%rsp)
	movl	%r8d, (%r14,%rcx)
	movq	%r9, 8(%r14,%rcx)
	movaps	32(%rsp), %xmm0
	movaps	48(%rsp), %xmm1
	movups	%xmm0, 16(%r14,%rcx)
	movups	%xmm1, 32(%r14,%rcx)
	movq	64(%rsp), %rsi
	movq	%rsi, 48(%r14,%rcx)
	movaps	(%rsp), %xmm0
	movups	%xmm0, 56(%r14,%rcx)
	movq	16(%rsp), %rsi
	movq	%rsi, 72(%r14,%rcx)
	addq	$80, %rcx
	cmpq	%r12, %rax
	jae	36f
	cmpq	%rbx, %rdx
	jb	31b
	jmp	36f
33:
	movq	%r14, %rdi
	movq	%rbp, %rsi
	callq	memmove@PLT
	movq	72(%rsp), %rdi
34:
	movq	96(%rsp), %rax
	movq	%r13, (%rax)
	movq	%rdi, 8(%rax)
	jmp	41f
35:
	xorl	%ecx, %ecx
	xorl	%eax, %eax
36:
	movq	%r12, %rdi
	subq	%rax, %rdi
	leaq	(%rax,%rax,4), %rsi
	shlq	$4, %rsi
	addq	%r13, %rsi
	addq	%rcx, %r14
	movq	%rdi, %rcx
	shlq	$4, %rcx
	leaq	(%rcx,%rcx,4), %rdx
	movq	%r14, %rcx
	subq	%rsi, %rcx
	cmpq	%rdx, %rcx
	jae	39f
	cmpq	%rax, %r12
	movq	%r15, %r9
	je	40f
	xorl	%eax, %eax
	.p2align	4
37:
	movl	(%rsi,%rax), %ecx
	movzbl	8(%rsi,%rax), %edx
	movq	48(%rsi,%rax), %r8
	movq	%r8, 64(%rsp)
	movups	32(%rsi,%rax), %xmm0
	movaps	%xmm0, 48(%rsp)
	movups	16(%rsi,%rax), %xmm0
	movaps	%xmm0, 32(%rsp)
	movq	72(%rsi,%rax), %r8
	movq	%r8, 16(%rsp)
	movups	56(%rsi,%rax), %xmm0
	movaps	%xmm0, (%rsp)
	movl	%ecx, (%r14,%rax)
	movq	%rdx, 8(%r14,%rax)
	movaps	32(%rsp), %xmm0
	movaps	48(%rsp), %xmm1
	movups	%xmm0, 16(%r14,%rax)
	movups	%xmm1, 32(%r14,%rax)
	movq	64(%rsp), %rcx
	movq	%rcx, 48(%r14,%rax)
	movaps	(%rsp), %xmm0
	movups	%xmm0, 56(%r14,%rax)
	movq	16(%rsp), %rcx
	movq	%rcx, 72(%r14,%rax)
	addq	$80, %rax
	decq	%rdi
	jne	37b
	jmp	40f
38:
	movq	%r14, %rax
	subq	%r13, %rax
	cmpq	%rdx, %rax
	jb	40f
	movq	%r9, %r15
	xorl	%edx, %edx
	movq	%r13, %rsi
39:
	movq	%r14, %rdi
	callq	memmove@PLT
	movq	%r15, %r9
40:
	movq	%r13, (%rbp)
	movq	%r9, 8(%rbp)
41:
	addq	$104, %rsp
	popq	%rbx
	popq	%r12
	popq	%r13
	popq	%r14
	popq	%r15
	popq	%rbp
	retq
42:
	.size	"core::slice::sort::merge::merge::<#54047240e3f04dbb>", 42b-"core::slice::sort::merge::merge::<#54047240e3f04dbb>"

	.text
	.p2align	4
	.type	"core::slice::sort::merge::merge::<#b4bd7111e818b46c>",@function
"core::slice::sort::merge::merge::<#b4bd7111e818b46c>":
	pushq	%rbp
	pushq	%r15
	pushq	%r14
	pushq	%r13
	pushq	%r12
	pushq	%rbx
	subq	$72, %rsp
	movq	%rcx, %r12
	movq	%rdx, %r9
	movq	%rsi, %rbx
	movq	%rdi, %r15
	movq	%rsi, %rax
	shrq	$2, %rax
	cmpq	%rdx, %rax
	setbe	%cl
	movq	%rsi, %rbp
	subq	%rdx, %rbp
	cmpq	%rbp, %rax
	setbe	%al
	andb	%cl, %al
	cmpq	$4097, %rsi
	setb	%cl
	xorb	$1, %al
	orb	%al, %cl
	movq	%rdi, 24(%rsp)
	movq	%rdx, 16(%rsp)
	je	2f
	cmpq	$4097, %rbx
	setae	%cl
	testb	%al, %cl
	je	3f
1:
	movq	%r9, %r14
	shlq	$5, %r14
	movq	(%r12), %r11
	movq	8(%r12), %r13
	cmpq	%rbp, %r9
	movq	%r11, 8(%rsp)
	movq	%r13, 32(%rsp)
	jbe	4f
	leaq	(%r15,%r14), %rsi
	leaq	(%r11,%r14), %r8
	movq	%rbp, %rdx
	shlq	$5, %rdx
	movq	%r8, %rax
	subq	%rsi, %rax
	cmpq	%rdx, %rax
	movq	%r12, 40(%rsp)
	jae	6f
	cmpq	%r9, %rbx
	je	42f
	movl	%ebp, %eax
	andl	$7, %eax
	movq	%r9, %rcx
	subq	%rbx, %rcx
	cmpq	$-8, %rcx
	jbe	38f
	xorl	%ecx, %ecx
	jmp	40f
2:
	cmpq	$65537, %rbx
	jae	1b
3:
	movq	(%r12), %r13
	movq	8(%r12), %r14
	movq	%rbx, %rdx
	shlq	$5, %rdx
	movq	%r13, %rax
	subq	%r15, %rax
	cmpq	%rdx, %rax
	jae	5f
	testq	%rbx, %rbx
	je	12f
	movl	%ebx, %eax
	andl	$7, %eax
	cmpq	$8, %rbx
	jae	8f
	xorl	%ecx, %ecx
	jmp	10f
4:
	movq	%r11, %rax
	subq	%r15, %rax
	cmpq	%r14, %rax
	jae	7f
	testq	%r9, %r9
	je	26f
	movl	%r9d, %eax
	andl	$7, %eax
	cmpq	$8, %r9
	jae	27f
	xorl	%ecx, %ecx
	jmp	29f
5:
	movq	%r13, %rdi
	movq	%r15, %rsi
	callq	memmove@PLT
	movq	16(%rsp), %r9
	jmp	12f
6:
	movq	%r8, %rdi
	movq	%r8, %r13
	movq	%rdx, %r12
	callq	memmove@PLT
	movq	%r12, %rdx
	movq	%r13, %r8
	movq	32(%rsp), %r13
	movq	40(%rsp), %r12
	movq	8(%rsp), %r11
	movq	16(%rsp), %r9
	jmp	42f
7:
	movq	%r11, %rdi
	movq	%r15, %rsi
	movq	%r14, %rdx
	callq	memmove@PLT
	movq	8(%rsp), %r11
	movq	16(%rsp), %r9
	jmp	31f
8:
	movq	%rbx, %rdx
	andq	$-8, %rdx
	movl	$224, %esi
	xorl	%ecx, %ecx
	.p2align	4
9:
	movups	-224(%r15,%rsi), %xmm0
	movups	-208(%r15,%rsi), %xmm1
	movups	%xmm1, -208(%r13,%rsi)
	movups	%xmm0, -224(%r13,%rsi)
	movups	-192(%r15,%rsi), %xmm0
	movups	-176(%r15,%rsi), %xmm1
	movups	%xmm1, -176(%r13,%rsi)
	movups	%xmm0, -192(%r13,%rsi)
	movups	-160(%r15,%rsi), %xmm0
	movups	-144(%r15,%rsi), %xmm1
	movups	%xmm1, -144(%r13,%rsi)
	movups	%xmm0, -160(%r13,%rsi)
	movups	-128(%r15,%rsi), %xmm0
	movups	-112(%r15,%rsi), %xmm1
	movups	%xmm1, -112(%r13,%rsi)
	movups	%xmm0, -128(%r13,%rsi)
	movups	-96(%r15,%rsi), %xmm0
	movups	-80(%r15,%rsi), %xmm1
	movups	%xmm1, -80(%r13,%rsi)
	movups	%xmm0, -96(%r13,%rsi)
	movups	-64(%r15,%rsi), %xmm0
	movups	-48(%r15,%rsi), %xmm1
	movups	%xmm1, -48(%r13,%rsi)
	movups	%xmm0, -64(%r13,%rsi)
	movups	-32(%r15,%rsi), %xmm0
	movups	-16(%r15,%rsi), %xmm1
	movups	%xmm1, -16(%r13,%rsi)
	movups	%xmm0, -32(%r13,%rsi)
	movups	(%r15,%rsi), %xmm0
	movups	16(%r15,%rsi), %xmm1
	movups	%xmm1, 16(%r13,%rsi)
	movups	%xmm0, (%r13,%rsi)
	addq	$8, %rcx
	addq	$256, %rsi
	cmpq	%rcx, %rdx
	jne	9b
	testq	%rax, %rax
	je	12f
10:
	shlq	$5, %rcx
	leaq	(%r15,%rcx), %rdx
	addq	%r13, %rcx
	shll	$5, %eax
	xorl	%esi, %esi
	.p2align	4
11:
	movups	(%rdx,%rsi), %xmm0
	movups	16(%rdx,%rsi), %xmm1
	movups	%xmm1, 16(%rcx,%rsi)
	movups	%xmm0, (%rcx,%rsi)
	addq	$32, %rsi
	cmpq	%rsi, %rax
	jne	11b
12:
	testq	%r9, %r9
	sete	%al
	cmpq	%rbx, %r9
	setae	%cl
	orb	%al, %cl
	movq	%rbx, 48(%rsp)
	jne	18f
	movq	%r14, 32(%rsp)
	movq	%r12, 40(%rsp)
	xorl	%r12d, %r12d
	movq	%r15, %r14
	movq	%r9, %r11
	movq	%rbx, %r10
	xorl	%ebx, %ebx
	.p2align	4
13:
	movq	%r9, 16(%rsp)
	movq	%r10, %rbp
	movq	%r11, %rax
	shlq	$5, %rax
	movq	%r12, %rcx
	shlq	$5, %rcx
	movq	(%r13,%rax), %rdi
	movq	8(%r13,%rax), %rsi
	movq	(%r13,%rcx), %rdx
	movq	8(%r13,%rcx), %rcx
	movq	%r11, %r15
	callq	"core::cmp::slices::RefSliceOrd::cmp::<#914af4d8504a0b72>"
	movq	%r15, %r11
	xorl	%ecx, %ecx
	xorl	%edx, %edx
	movq	%r15, %rdi
	testb	%al, %al
	setne	%al
	sete	%sil
	je	14f
	movq	%r12, %rdi
14:
	shlq	$5, %rdi
	movups	(%r13,%rdi), %xmm0
	movups	16(%r13,%rdi), %xmm1
	movups	%xmm0, (%r14)
	movups	%xmm1, 16(%r14)
	movb	%sil, %dl
	addq	%rdx, %r11
	movb	%al, %cl
	addq	%rcx, %r12
	movq	16(%rsp), %r9
	cmpq	%r9, %r12
	movq	%rbp, %r10
	jae	16f
	cmpq	%r10, %r11
	jae	16f
	movq	%r11, 8(%rsp)
	movq	%r10, %rax
	shlq	$5, %rax
	shlq	$5, %r9
	movq	-32(%r13,%rax), %rdi
	movq	-24(%r13,%rax), %rsi
	movq	-32(%r13,%r9), %rdx
	movq	-24(%r13,%r9), %rcx
	callq	"core::cmp::slices::RefSliceOrd::cmp::<#914af4d8504a0b72>"
	movq	%rbp, %r10
	movq	16(%rsp), %r9
	xorl	%ecx, %ecx
	xorl	%edx, %edx
	movq	%r9, %rdi
	testb	%al, %al
	setne	%al
	sete	%sil
	je	15f
	movq	%r10, %rdi
15:
	movq	48(%rsp), %r8
	decq	%r8
	shlq	$5, %rdi
	movq	%r8, 48(%rsp)
	shlq	$5, %r8
	movups	-32(%r13,%rdi), %xmm0
	movups	-16(%r13,%rdi), %xmm1
	movq	24(%rsp), %rdi
	movups	%xmm0, (%rdi,%r8)
	movups	%xmm1, 16(%rdi,%r8)
	movb	%sil, %dl
	subq	%rdx, %r9
	movb	%al, %cl
	subq	%rcx, %r10
	movq	8(%rsp), %r11
16:
	incq	%rbx
	cmpq	%r9, %r12
	jae	17f
	addq	$32, %r14
	cmpq	%r10, %r11
	jb	13b
17:
	cmpq	%r9, %r12
	cmovbq	%r12, %r11
	shlq	$5, %r11
	movq	40(%rsp), %r12
	movq	24(%rsp), %r15
	movq	32(%rsp), %r14
	jmp	19f
18:
	xorl	%ebx, %ebx
	xorl	%r11d, %r11d
19:
	movq	48(%rsp), %r9
	movq	%r9, %r8
	subq	%rbx, %r8
	leaq	(%r11,%r13), %rsi
	movq	%rbx, %rcx
	shlq	$5, %rcx
	leaq	(%r15,%rcx), %rdi
	movq	%r8, %rdx
	shlq	$5, %rdx
	movq	%rdi, %rax
	subq	%rsi, %rax
	cmpq	%rdx, %rax
	jae	20f
	cmpq	%rbx, %r9
	je	25f
	movl	%r8d, %eax
	andl	$7, %eax
	subq	%r9, %rbx
	cmpq	$-8, %rbx
	jbe	21f
	xorl	%edx, %edx
	jmp	23f
20:
	callq	memmove@PLT
	jmp	25f
21:
	andq	$-8, %r8
	movl	$224, %r9d
	xorl	%edx, %edx
	.p2align	4
22:
	movups	-224(%rsi,%r9), %xmm0
	movups	-208(%rsi,%r9), %xmm1
	movups	%xmm1, -208(%rdi,%r9)
	movups	%xmm0, -224(%rdi,%r9)
	movups	-192(%rsi,%r9), %xmm0
	movups	-176(%rsi,%r9), %xmm1
	movups	%xmm1, -176(%rdi,%r9)
	movups	%xmm0, -192(%rdi,%r9)
	movups	-160(%rsi,%r9), %xmm0
	movups	-144(%rsi,%r9), %xmm1
	movups	%xmm1, -144(%rdi,%r9)
	movups	%xmm0, -160(%rdi,%r9)
	movups	-128(%rsi,%r9), %xmm0
	movups	-112(%rsi,%r9), %xmm1
	movups	%xmm1, -112(%rdi,%r9)
	movups	%xmm0, -128(%rdi,%r9)
	movups	-96(%rsi,%r9), %xmm0
	movups	-80(%rsi,%r9), %xmm1
	movups	%xmm1, -80(%rdi,%r9)
	movups	%xmm0, -96(%rdi,%r9)
	movups	-64(%rsi,%r9), %xmm0
	movups	-48(%rsi,%r9), %xmm1
	movups	%xmm1, -48(%rdi,%r9)
	movups	%xmm0, -64(%rdi,%r9)
	movups	-32(%rsi,%r9), %xmm0
	movups	-16(%rsi,%r9), %xmm1
	movups	%xmm1, -16(%rdi,%r9)
	movups	%xmm0, -32(%rdi,%r9)
	movups	(%rsi,%r9), %xmm0
	movups	16(%rsi,%r9), %xmm1
	movups	%xmm1, 16(%rdi,%r9)
	movups	%xmm0, (%rdi,%r9)
	addq	$8, %rdx
	addq	$256, %r9
	cmpq	%rdx, %r8
	jne	22b
	testq	%rax, %rax
	je	25f
23:
	shlq	$5, %rdx
	addq	%rdx, %r11
	addq	%r13, %r11
	addq	%rcx, %rdx
	addq	%rdx, %r15
	shll	$5, %eax
	xorl	%ecx, %ecx
	.p2align	4
24:
	movups	(%r11,%rcx), %xmm0
	movups	16(%r11,%rcx), %xmm1
	movups	%xmm1, 16(%r15,%rcx)
	movups	%xmm0, (%r15,%rcx)
	addq	$32, %rcx
	cmpq	%rcx, %rax
	jne	24b
25:
	movq	%r13, (%r12)
	movq	%r14, 8(%r12)
	jmp	50f
26:
	xorl	%edx, %edx
	movq	%r11, %rsi
	jmp	37f
27:
	movq	%r9, %rdx
	andq	$-8, %rdx
	movl	$224, %esi
	xorl	%ecx, %ecx
	.p2align	4
28:
	movups	-224(%r15,%rsi), %xmm0
	movups	-208(%r15,%rsi), %xmm1
	movups	%xmm1, -208(%r11,%rsi)
	movups	%xmm0, -224(%r11,%rsi)
	movups	-192(%r15,%rsi), %xmm0
	movups	-176(%r15,%rsi), %xmm1
	movups	%xmm1, -176(%r11,%rsi)
	movups	%xmm0, -192(%r11,%rsi)
	movups	-160(%r15,%rsi), %xmm0
	movups	-144(%r15,%rsi), %xmm1
	movups	%xmm1, -144(%r11,%rsi)
	movups	%xmm0, -160(%r11,%rsi)
	movups	-128(%r15,%rsi), %xmm0
	movups	-112(%r15,%rsi), %xmm1
	movups	%xmm1, -112(%r11,%rsi)
	movups	%xmm0, -128(%r11,%rsi)
	movups	-96(%r15,%rsi), %xmm0
	movups	-80(%r15,%rsi), %xmm1
	movups	%xmm1, -80(%r11,%rsi)
	movups	%xmm0, -96(%r11,%rsi)
	movups	-64(%r15,%rsi), %xmm0
	movups	-48(%r15,%rsi), %xmm1
	movups	%xmm1, -48(%r11,%rsi)
	movups	%xmm0, -64(%r11,%rsi)
	movups	-32(%r15,%rsi), %xmm0
	movups	-16(%r15,%rsi), %xmm1
	movups	%xmm1, -16(%r11,%rsi)
	movups	%xmm0, -32(%r11,%rsi)
	movups	(%r15,%rsi), %xmm0
	movups	16(%r15,%rsi), %xmm1
	movups	%xmm1, 16(%r11,%rsi)
	movups	%xmm0, (%r11,%rsi)
	addq	$8, %rcx
	addq	$256, %rsi
	cmpq	%rcx, %rdx
	jne	28b
	testq	%rax, %rax
	je	31f
29:
	shlq	$5, %rcx
	leaq	(%r15,%rcx), %rdx
	addq	%r11, %rcx
	shll	$5, %eax
	xorl	%esi, %esi
	.p2align	4
30:
	movups	(%rdx,%rsi), %xmm0
	movups	16(%rdx,%rsi), %xmm1
	movups	%xmm1, 16(%rcx,%rsi)
	movups	%xmm0, (%rcx,%rsi)
	addq	$32, %rsi
	cmpq	%rsi, %rax
	jne	30b
31:
	movq	%r12, %r13
	testq	%r9, %r9
	sete	%al
	cmpq	%rbx, %r9
	setae	%cl
	orb	%al, %cl
	jne	34f
	movq	%rbx, %r12
	xorl	%ebx, %ebx
	xorl	%r14d, %r14d
	movq	%r9, %r15
	.p2align	4
32:
	movq	%r15, %rax
	shlq	$5, %rax
	movq	%r14, %rcx
	shlq	$5, %rcx
	movq	24(%rsp), %rbp
	movq	(%rbp,%rax), %rdi
	movq	8(%rbp,%rax), %rsi
	movq	(%r11,%rcx), %rdx
	movq	8(%r11,%rcx), %rcx
	callq	"core::cmp::slices::RefSliceOrd::cmp::<#914af4d8504a0b72>"
	movq	8(%rsp), %r11
	xorl	%edx, %edx
	xorl	%ecx, %ecx
	movq	%rbp, %rdi
	movq	%r15, %r8
	testb	%al, %al
	setne	%sil
	sete	%al
	je	33f
	movq	%r11, %rdi
	movq	%r14, %r8
33:
	shlq	$5, %r8
	movups	(%rdi,%r8), %xmm0
	movups	16(%rdi,%r8), %xmm1
	movq	24(%rsp), %rdi
	movups	%xmm0, (%rdi,%rbx)
	movups	%xmm1, 16(%rdi,%rbx)
	movb	%sil, %dl
	addq	%rdx, %r14
	addq	$32, %rbx
	movq	16(%rsp), %r9
	cmpq	%r9, %r14
	jae	35f
	movb	%al, %cl
	addq	%rcx, %r15
	cmpq	%r12, %r15
	jb	32b
	jmp	35f
34:
	xorl	%ebx, %ebx
	xorl	%r14d, %r14d
35:
	movq	%r9, %rdi
	subq	%r14, %rdi
	movq	%r14, %rax
	shlq	$5, %rax
	leaq	(%r11,%rax), %rsi
	movq	24(%rsp), %r10
	leaq	(%r10,%rbx), %r15
	movq	%rdi, %rdx
	shlq	$5, %rdx
	movq	%r15, %rcx
	subq	%rsi, %rcx
	cmpq	%rdx, %rcx
	jae	36f
	cmpq	%r14, %r9
	movq	%r13, %r12
	movq	32(%rsp), %r13
	je	49f
	movl	%edi, %ecx
	andl	$7, %ecx
	subq	%r9, %r14
	cmpq	$-8, %r14
	jbe	55f
	xorl	%edx, %edx
	jmp	57f
36:
	movq	%r13, %r12
	movq	32(%rsp), %r13
37:
	movq	%r15, %rdi
	jmp	48f
38:
	movq	%rbp, %rdi
	andq	$-8, %rdi
	leaq	224(%r14), %rsi
	xorl	%ecx, %ecx
	.p2align	4
39:
	movups	-224(%r15,%rsi), %xmm0
	movups	-208(%r15,%rsi), %xmm1
	movups	%xmm1, -208(%r11,%rsi)
	movups	%xmm0, -224(%r11,%rsi)
	movups	-192(%r15,%rsi), %xmm0
	movups	-176(%r15,%rsi), %xmm1
	movups	%xmm1, -176(%r11,%rsi)
	movups	%xmm0, -192(%r11,%rsi)
	movups	-160(%r15,%rsi), %xmm0
	movups	-144(%r15,%rsi), %xmm1
	movups	%xmm1, -144(%r11,%rsi)
	movups	%xmm0, -160(%r11,%rsi)
	movups	-128(%r15,%rsi), %xmm0
	movups	-112(%r15,%rsi), %xmm1
	movups	%xmm1, -112(%r11,%rsi)
	movups	%xmm0, -128(%r11,%rsi)
	movups	-96(%r15,%rsi), %xmm0
	movups	-80(%r15,%rsi), %xmm1
	movups	%xmm1, -80(%r11,%rsi)
	movups	%xmm0, -96(%r11,%rsi)
	movups	-64(%r15,%rsi), %xmm0
	movups	-48(%r15,%rsi), %xmm1
	movups	%xmm1, -48(%r11,%rsi)
	movups	%xmm0, -64(%r11,%rsi)
	movups	-32(%r15,%rsi), %xmm0
	movups	-16(%r15,%rsi), %xmm1
	movups	%xmm1, -16(%r11,%rsi)
	movups	%xmm0, -32(%r11,%rsi)
	movups	(%r15,%rsi), %xmm0
	movups	16(%r15,%rsi), %xmm1
	movups	%xmm1, 16(%r11,%rsi)
	movups	%xmm0, (%r11,%rsi)
	addq	$8, %rcx
	addq	$256, %rsi
	cmpq	%rcx, %rdi
	jne	39b
	testq	%rax, %rax
	je	42f
40:
	shlq	$5, %rcx
	addq	%r14, %rcx
	leaq	(%r15,%rcx), %rdi
	addq	%r11, %rcx
	shll	$5, %eax
	xorl	%esi, %esi
	.p2align	4
41:
	movups	(%rdi,%rsi), %xmm0
	movups	16(%rdi,%rsi), %xmm1
	movups	%xmm1, 16(%rcx,%rsi)
	movups	%xmm0, (%rcx,%rsi)
	addq	$32, %rsi
	cmpq	%rsi, %rax
	jne	41b
42:
	cmpq	%rbx, %r9
	movq	%r14, 64(%rsp)
	jae	46f
	movq	%r8, 56(%rsp)
	movq	%rbx, %rax
	shlq	$5, %rax
	addq	%rax, %r15
	addq	$-32, %r15
	movq	%r9, %r14
	.p2align	4
43:
	movq	%rbx, %r13
	leaq	-1(%rbx), %rbp
	movq	%rbp, %rax
	shlq	$5, %rax
	leaq	-1(%r14), %r12
	movq	%r12, %rcx
	shlq	$5, %rcx
	movq	(%r11,%rax), %rdi
	movq	8(%r11,%rax), %rsi
	movq	24(%rsp), %rbx
	movq	(%rbx,%rcx), %rdx
	movq	8(%rbx,%rcx), %rcx
	callq	"core::cmp::slices::RefSliceOrd::cmp::<#914af4d8504a0b72>"
	movq	8(%rsp), %r11
	xorl	%edx, %edx
	xorl	%ecx, %ecx
	testb	%al, %al
	setne	%al
	sete	%sil
	je	44f
	movq	%r11, %rbx
	movq	%rbp, %r12
44:
	shlq	$5, %r12
	movups	(%rbx,%r12), %xmm0
	movups	16(%rbx,%r12), %xmm1
	movups	%xmm0, (%r15)
	movups	%xmm1, 16(%r15)
	movb	%sil, %cl
	movb	%al, %dl
	movq	%r13, %rbx
	subq	%rdx, %rbx
	subq	%rcx, %r14
	movq	16(%rsp), %r9
	je	45f
	addq	$-32, %r15
	cmpq	%r9, %rbx
	ja	43b
45:
	movq	%rbx, %rbp
	subq	%r9, %rbp
	shlq	$5, %r14
	movq	%rbp, %rdx
	shlq	$5, %rdx
	movq	40(%rsp), %r12
	movq	24(%rsp), %r15
	movq	32(%rsp), %r13
	movq	56(%rsp), %r8
46:
	addq	%r14, %r15
	movq	%r15, %rax
	subq	%r8, %rax
	cmpq	%rdx, %rax
	jae	47f
	cmpq	%r9, %rbx
	movq	64(%rsp), %rsi
	je	49f
	leaq	-1(%rbp), %rcx
	movl	%ebp, %eax
	andl	$7, %eax
	cmpq	$7, %rcx
	jae	51f
	xorl	%ecx, %ecx
	jmp	53f
47:
	movq	%r15, %rdi
	movq	%r8, %rsi
48:
	callq	memmove@PLT
	movq	8(%rsp), %r11
49:
	movq	%r11, (%r12)
	movq	%r13, 8(%r12)
50:
	addq	$72, %rsp
	popq	%rbx
	popq	%r12
	popq	%r13
	popq	%r14
	popq	%r15
	popq	%rbp
	retq
51:
	andq	$-8, %rbp
	movl	$224, %edx
	xorl	%ecx, %ecx
	.p2align	4
52:
	movups	-224(%r8,%rdx), %xmm0
	movups	-208(%r8,%rdx), %xmm1
	movups	%xmm1, -208(%r15,%rdx)
	movups	%xmm0, -224(%r15,%rdx)
	movups	-192(%r8,%rdx), %xmm0
	movups	-176(%r8,%rdx), %xmm1
	movups	%xmm1, -176(%r15,%rdx)
	movups	%xmm0, -192(%r15,%rdx)
	movups	-160(%r8,%rdx), %xmm0
	movups	-144(%r8,%rdx), %xmm1
	movups	%xmm1, -144(%r15,%rdx)
	movups	%xmm0, -160(%r15,%rdx)
	movups	-128(%r8,%rdx), %xmm0
	movups	-112(%r8,%rdx), %xmm1
	movups	%xmm1, -112(%r15,%rdx)
	movups	%xmm0, -128(%r15,%rdx)
	movups	-96(%r8,%rdx), %xmm0
	movups	-80(%r8,%rdx), %xmm1
	movups	%xmm1, -80(%r15,%rdx)
	movups	%xmm0, -96(%r15,%rdx)
	movups	-64(%r8,%rdx), %xmm0
	movups	-48(%r8,%rdx), %xmm1
	movups	%xmm1, -48(%r15,%rdx)
	movups	%xmm0, -64(%r15,%rdx)
	movups	-32(%r8,%rdx), %xmm0
	movups	-16(%r8,%rdx), %xmm1
	movups	%xmm1, -16(%r15,%rdx)
	movups	%xmm0, -32(%r15,%rdx)
	movups	(%r8,%rdx), %xmm0
	movups	16(%r8,%rdx), %xmm1
	movups	%xmm1, 16(%r15,%rdx)
	movups	%xmm0, (%r15,%rdx)
	addq	$8, %rcx
	addq	$256, %rdx
	cmpq	%rcx, %rbp
	jne	52b
	testq	%rax, %rax
	je	49b
53:
	shlq	$5, %rcx
	addq	%rcx, %rsi
	addq	%r11, %rsi
	addq	%rcx, %r15
	shll	$5, %eax
	xorl	%ecx, %ecx
	.p2align	4
54:
	movups	(%rsi,%rcx), %xmm0
	movups	16(%rsi,%rcx), %xmm1
	movups	%xmm1, 16(%r15,%rcx)
	movups	%xmm0, (%r15,%rcx)
	addq	$32, %rcx
	cmpq	%rcx, %rax
	jne	54b
	jmp	49b
55:
	andq	$-8, %rdi
	movl	$224, %r9d
	xorl	%edx, %edx
	.p2align	4
56:
	movups	-224(%rsi,%r9), %xmm0
	movups	-208(%rsi,%r9), %xmm1
	movups	%xmm1, -208(%r15,%r9)
	movups	%xmm0, -224(%r15,%r9)
	movups	-192(%rsi,%r9), %xmm0
	movups	-176(%rsi,%r9), %xmm1
	movups	%xmm1, -176(%r15,%r9)
	movups	%xmm0, -192(%r15,%r9)
	movups	-160(%rsi,%r9), %xmm0
	movups	-144(%rsi,%r9), %xmm1
	movups	%xmm1, -144(%r15,%r9)
	movups	%xmm0, -160(%r15,%r9)
	movups	-128(%rsi,%r9), %xmm0
	movups	-112(%rsi,%r9), %xmm1
	movups	%xmm1, -112(%r15,%r9)
	movups	%xmm0, -128(%r15,%r9)
	movups	-96(%rsi,%r9), %xmm0
	movups	-80(%rsi,%r9), %xmm1
	movups	%xmm1, -80(%r15,%r9)
	movups	%xmm0, -96(%r15,%r9)
	movups	-64(%rsi,%r9), %xmm0
	movups	-48(%rsi,%r9), %xmm1
	movups	%xmm1, -48(%r15,%r9)
	movups	%xmm0, -64(%r15,%r9)
	movups	-32(%rsi,%r9), %xmm0
	movups	-16(%rsi,%r9), %xmm1
	movups	%xmm1, -16(%r15,%r9)
	movups	%xmm0, -32(%r15,%r9)
	movups	(%rsi,%r9), %xmm0
	movups	16(%rsi,%r9), %xmm1
	movups	%xmm1, 16(%r15,%r9)
	movups	%xmm0, (%r15,%r9)
	addq	$8, %rdx
	addq	$256, %r9
	cmpq	%rdx, %rdi
	jne	56b
	testq	%rcx, %rcx
	je	49b
57:
	shlq	$5, %rdx
	addq	%rdx, %rax
	addq	%r11, %rax
	addq	%rbx, %r10
	addq	%rdx, %r10
	shll	$5, %ecx
	xorl	%edx, %edx
	.p2align	4
58:
	movups	(%rax,%rdx), %xmm0
	movups	16(%rax,%rdx), %xmm1
	movups	%xmm1, 16(%r10,%rdx)
	movups	%xmm0, (%r10,%rdx)
	addq	$32, %rdx
	cmpq	%rdx, %rcx
	jne	58b
	jmp	49b
59:
	.size	"core::slice::sort::merge::merge::<#b4bd7111e818b46c>", 59b-"core::slice::sort::merge::merge::<#b4bd7111e818b46c>"

	.text
	.p2align	4
	.type	"core::slice::sort::merge::merge::<#cc3e8e382a4904f8>",@function
"core::slice::sort::merge::merge::<#cc3e8e382a4904f8>":
	pushq	%rbp
	pushq	%r15
	pushq	%r14
	pushq	%r13
	pushq	%r12
	pushq	%rbx
	subq	$56, %rsp
	movq	%rcx, %r12
	movq	%rdx, %r8
	movq	%rsi, %r14
	movq	%rdi, (%rsp)
	movq	%rsi, %rcx
	shrq	$2, %rcx
	cmpq	%rdx, %rcx
	setbe	%al
	movq	%rsi, %rbp
	subq	%rdx, %rbp
	cmpq	%rbp, %rcx
	setbe	%cl
	cmpq	$4097, %rsi
	movq	%rdx, 8(%rsp)
	movq	%rsi, 16(%rsp)
	jb	1f
	andb	%cl, %al
	jne	1f
	leaq	(,%r8,8), %r15
	movq	(%r12), %rbx
	movq	8(%r12), %r13
	cmpq	%rbp, %r8
	movq	%rbx, 32(%rsp)
	jbe	11f
	movq	(%rsp), %rax
	leaq	(%rax,%r15), %rsi
	leaq	(%rbx,%r15), %r9
	leaq	(,%rbp,8), %r10
	movq	%r9, %rax
	subq	%rsi, %rax
	cmpq	%r10, %rax
	jae	12f
	cmpq	%r8, %r14
	movq	(%rsp), %rdx
	je	39f
	cmpq	$4, %rbp
	setb	%al
	movq	%rbx, %rcx
	subq	%rdx, %rcx
	cmpq	$32, %rcx
	setb	%cl
	orb	%al, %cl
	je	35f
	xorl	%eax, %eax
	jmp	37f
1:
	movq	(%r12), %r13
	movq	8(%r12), %rbp
	leaq	(,%r14,8), %rdx
	movq	%r13, %rax
	movq	(%rsp), %rbx
	subq	%rbx, %rax
	cmpq	%rdx, %rax
	jae	2f
	testq	%r14, %r14
	je	3f
	cmpq	$4, %r14
	setb	%cl
	cmpq	$32, %rax
	setb	%al
	orb	%cl, %al
	je	19f
	xorl	%eax, %eax
	jmp	21f
2:
	movq	%r13, %rdi
	movq	%rbx, %rsi
	callq	memmove@PLT
	movq	8(%rsp), %r8
3:
	testq	%r8, %r8
	sete	%al
	cmpq	%r8, %r14
	setbe	%cl
	orb	%al, %cl
	jne	7f
	movq	%rbp, 8(%rsp)
	movq	%r12, 40(%rsp)
	movq	%r14, %r12
	xorl	%r14d, %r14d
	movq	%r8, %rbp
	xorl	%r15d, %r15d
	.p2align	4
4:
	movq	%r14, %rbx
	leaq	(,%r8,8), %rdi
	addq	%r13, %rdi
	movq	(%r13,%r14,8), %rsi
	movq	%r8, %r14
	callq	"core::slice::sort::order::ByOrder::less::<#878f6745e8fab0b2>"
	testb	%al, %al
	movq	%rbx, %rcx
	cmovneq	%r14, %rcx
	movq	(%r13,%rcx,8), %rcx
	movq	(%rsp), %rdx
	movq	%rcx, (%rdx,%r15,8)
	movzbl	%al, %eax
	leaq	(%rax,%r14), %r8
	xorb	$1, %al
	movzbl	%al, %r14d
	addq	%rbx, %r14
	cmpq	%rbp, %r14
	jae	5f
	cmpq	%r12, %r8
	jae	5f
	leaq	-8(,%r12,8), %rdi
	addq	%r13, %rdi
	movq	-8(%r13,%rbp,8), %rsi
	movq	%r8, %rbx
	callq	"core::slice::sort::order::ByOrder::less::<#878f6745e8fab0b2>"
	movq	%rbx, %r8
	testb	%al, %al
	movq	%r12, %rcx
	cmovneq	%rbp, %rcx
	movq	-8(%r13,%rcx,8), %rcx
	movq	(%rsp), %rdx
	movq	16(%rsp), %rsi
	movq	%rcx, -8(%rdx,%rsi,8)
	leaq	-1(%rsi), %rcx
	movzbl	%al, %eax
	subq	%rax, %rbp
	xorb	$1, %al
	movzbl	%al, %eax
	subq	%rax, %r12
	movq	%rcx, 16(%rsp)
5:
	incq	%r15
	cmpq	%rbp, %r14
	jae	6f
	cmpq	%r12, %r8
	jb	4b
6:
	cmpq	%rbp, %r14
	cmovbq	%r14, %r8
	shlq	$3, %r8
	movq	40(%rsp), %r12
	movq	(%rsp), %rbx
	movq	16(%rsp), %r14
	movq	8(%rsp), %rbp
	jmp	8f
7:
	xorl	%r15d, %r15d
	xorl	%r8d, %r8d
8:
	movq	%r14, %rax
	subq	%r15, %rax
	leaq	(%r8,%r13), %rsi
	leaq	(%rbx,%r15,8), %rdi
	leaq	(,%rax,8), %rdx
	movq	%rdi, %rcx
	subq	%rsi, %rcx
	cmpq	%rdx, %rcx
	jae	10f
	cmpq	%r15, %r14
	je	57f
	cmpq	$8, %rax
	jb	9f
	shlq	$3, %r15
	leaq	(%r15,%rbx), %rcx
	subq	%rsi, %rcx
	cmpq	$32, %rcx
	jae	33f
9:
	xorl	%ecx, %ecx
	jmp	55f
10:
	callq	memmove@PLT
	jmp	57f
11:
	movq	%rbx, %rax
	movq	(%rsp), %rbp
	subq	%rbp, %rax
	cmpq	%r15, %rax
	jae	13f
	testq	%r8, %r8
	je	25f
	cmpq	$4, %r8
	setb	%cl
	cmpq	$32, %rax
	setb	%al
	orb	%cl, %al
	je	27f
	xorl	%eax, %eax
	jmp	29f
12:
	movq	%r9, %rdi
	movq	%r10, %rdx
	callq	memmove@PLT
	leaq	(,%rbp,8), %r10
	leaq	(%rbx,%r15), %r9
	movq	8(%rsp), %r8
	jmp	39f
13:
	movq	%rbx, %rdi
	movq	%rbp, %rsi
	movq	%r15, %rdx
	callq	memmove@PLT
	movq	8(%rsp), %r8
14:
	movq	%r13, 24(%rsp)
	testq	%r8, %r8
	sete	%al
	cmpq	%r8, %r14
	setbe	%cl
	xorl	%r15d, %r15d
	xorl	%edi, %edi
	orb	%al, %cl
	jne	16f
	movq	%r8, %rbx
	.p2align	4
15:
	movq	%rdi, %r14
	leaq	(,%rbx,8), %rdi
	addq	%rbp, %rdi
	movq	32(%rsp), %r13
	movq	(%r13,%r14,8), %rsi
	callq	"core::slice::sort::order::ByOrder::less::<#878f6745e8fab0b2>"
	testb	%al, %al
	cmovneq	%rbp, %r13
	movq	%r14, %rdx
	cmovneq	%rbx, %rdx
	movq	(%r13,%rdx,8), %rcx
	movq	%rcx, (%rbp,%r15)
	movl	%eax, %ecx
	xorb	$1, %cl
	movzbl	%cl, %edi
	addq	%r14, %rdi
	addq	$8, %r15
	cmpq	8(%rsp), %rdi
	jae	16f
	movzbl	%al, %eax
	addq	%rax, %rbx
	cmpq	16(%rsp), %rbx
	jb	15b
16:
	movq	8(%rsp), %r9
	movq	%r9, %rax
	subq	%rdi, %rax
	movq	32(%rsp), %rbx
	leaq	(%rbx,%rdi,8), %rsi
	leaq	(%r15,%rbp), %rcx
	leaq	(,%rax,8), %rdx
	movq	%rcx, %r8
	subq	%rsi, %r8
	cmpq	%rdx, %r8
	jae	18f
	cmpq	%rdi, %r9
	movq	24(%rsp), %r13
	je	50f
	cmpq	$8, %rax
	jb	17f
	shlq	$3, %rdi
	leaq	(%r15,%rbp), %rdx
	subq	%rdi, %rdx
	subq	%rbx, %rdx
	cmpq	$32, %rdx
	jae	53f
17:
	xorl	%edx, %edx
	jmp	60f
18:
	movq	%rcx, %rbp
	movq	24(%rsp), %r13
	jmp	26f
19:
	movq	%r14, %rax
	andq	$-4, %rax
	xorl	%ecx, %ecx
	.p2align	4
20:
	movups	(%rbx,%rcx,8), %xmm0
	movups	16(%rbx,%rcx,8), %xmm1
	movups	%xmm0, (%r13,%rcx,8)
	movups	%xmm1, 16(%r13,%rcx,8)
	addq	$4, %rcx
	cmpq	%rcx, %rax
	jne	20b
	cmpq	%rax, %r14
	je	3b
21:
	movq	%r14, %rdx
	movq	%rax, %rcx
	andq	$3, %rdx
	je	23f
	movq	%rax, %rcx
	.p2align	4
22:
	movq	(%rbx,%rcx,8), %rsi
	movq	%rsi, (%r13,%rcx,8)
	incq	%rcx
	decq	%rdx
	jne	22b
23:
	subq	%r14, %rax
	cmpq	$-4, %rax
	ja	3b
	.p2align	4
24:
	movq	(%rbx,%rcx,8), %rax
	movq	%rax, (%r13,%rcx,8)
	movq	8(%rbx,%rcx,8), %rax
	movq	%rax, 8(%r13,%rcx,8)
	movq	16(%rbx,%rcx,8), %rax
	movq	%rax, 16(%r13,%rcx,8)
	movq	24(%rbx,%rcx,8), %rax
	movq	%rax, 24(%r13,%rcx,8)
	addq	$4, %rcx
	cmpq	%rcx, %r14
	jne	24b
	jmp	3b
25:
	xorl	%edx, %edx
	movq	%rbx, %rsi
26:
	movq	%rbp, %rdi
	jmp	49f
27:
	movq	%r8, %rax
	andq	$-4, %rax
	xorl	%ecx, %ecx
	.p2align	4
28:
	movups	(%rbp,%rcx,8), %xmm0
	movups	16(%rbp,%rcx,8), %xmm1
	movups	%xmm0, (%rbx,%rcx,8)
	movups	%xmm1, 16(%rbx,%rcx,8)
	addq	$4, %rcx
	cmpq	%rcx, %rax
	jne	28b
	cmpq	%rax, %r8
	je	14b
29:
	movq	%r8, %rdx
	movq	%rax, %rcx
	andq	$3, %rdx
	je	31f
	movq	%rax, %rcx
	.p2align	4
30:
	movq	(%rbp,%rcx,8), %rsi
	movq	%rsi, (%rbx,%rcx,8)
	incq	%rcx
	decq	%rdx
	jne	30b
31:
	subq	%r8, %rax
	cmpq	$-4, %rax
	ja	14b
	.p2align	4
32:
	movq	(%rbp,%rcx,8), %rax
	movq	%rax, (%rbx,%rcx,8)
	movq	8(%rbp,%rcx,8), %rax
	movq	%rax, 8(%rbx,%rcx,8)
	movq	16(%rbp,%rcx,8), %rax
	movq	%rax, 16(%rbx,%rcx,8)
	movq	24(%rbp,%rcx,8), %rax
	movq	%rax, 24(%rbx,%rcx,8)
	addq	$4, %rcx
	cmpq	%rcx, %r8
	jne	32b
	jmp	14b
33:
	movq	%rax, %rcx
	andq	$-4, %rcx
	leaq	(%r8,%r13), %rdx
	addq	$16, %rdx
	leaq	(%r15,%rbx), %r8
	addq	$16, %r8
	xorl	%r9d, %r9d
	.p2align	4
34:
	movups	-16(%rdx,%r9,8), %xmm0
	movups	(%rdx,%r9,8), %xmm1
	movups	%xmm0, -16(%r8,%r9,8)
	movups	%xmm1, (%r8,%r9,8)
	addq	$4, %r9
	cmpq	%r9, %rcx
	jne	34b
	jmp	56f
35:
	movq	%rbp, %rax
	andq	$-4, %rax
	leaq	(%rdx,%r15), %rcx
	addq	$16, %rcx
	leaq	(%rbx,%r15), %rdx
	addq	$16, %rdx
	xorl	%esi, %esi
	.p2align	4
36:
	movups	-16(%rcx,%rsi,8), %xmm0
	movups	(%rcx,%rsi,8), %xmm1
	movups	%xmm0, -16(%rdx,%rsi,8)
	movups	%xmm1, (%rdx,%rsi,8)
	addq	$4, %rsi
	cmpq	%rsi, %rax
	jne	36b
	cmpq	%rax, %rbp
	movq	(%rsp), %rdx
	je	39f
37:
	addq	%r8, %rax
	.p2align	4
38:
	movq	(%rdx,%rax,8), %rcx
	movq	%rcx, (%rbx,%rax,8)
	incq	%rax
	cmpq	%rax, %r14
	jne	38b
39:
	cmpq	%r8, %r14
	movq	%r15, 48(%rsp)
	jbe	42f
	movq	%r9, 16(%rsp)
	movq	%r13, 24(%rsp)
	movq	%r12, 40(%rsp)
	movq	(%rsp), %rbp
	leaq	-8(,%r14,8), %rbx
	addq	%rbp, %rbx
	movq	%r8, %r15
	.p2align	4
40:
	movq	%r14, %r13
	decq	%r14
	movq	32(%rsp), %r12
	leaq	(%r12,%r13,8), %rdi
	addq	$-8, %rdi
	movq	-8(%rbp,%r15,8), %rsi
	callq	"core::slice::sort::order::ByOrder::less::<#878f6745e8fab0b2>"
	movq	8(%rsp), %r8
	testb	%al, %al
	cmovneq	%rbp, %r12
	leaq	-1(%r15), %rdx
	cmovneq	%rdx, %r14
	movq	(%r12,%r14,8), %rcx
	movq	%r13, %r14
	movq	%rcx, (%rbx)
	movzbl	%al, %eax
	movl	%eax, %ecx
	xorb	$1, %cl
	movzbl	%cl, %ecx
	subq	%rcx, %r14
	subq	%rax, %r15
	je	41f
	addq	$-8, %rbx
	cmpq	%r8, %r14
	ja	40b
41:
	movq	%r14, %rbp
	subq	%r8, %rbp
	shlq	$3, %r15
	leaq	(,%rbp,8), %r10
	movq	40(%rsp), %r12
	movq	24(%rsp), %r13
	movq	32(%rsp), %rbx
	movq	16(%rsp), %r9
42:
	movq	(%rsp), %rax
	leaq	(%rax,%r15), %rdi
	movq	%rdi, %rax
	subq	%r9, %rax
	cmpq	%r10, %rax
	jae	48f
	cmpq	%r8, %r14
	je	50f
	cmpq	$8, %rbp
	jb	43f
	cmpq	$32, %rax
	jae	51f
43:
	xorl	%eax, %eax
44:
	movq	%rbp, %rdx
	movq	%rax, %rcx
	andq	$3, %rdx
	je	46f
	movq	%rax, %rcx
	.p2align	4
45:
	movq	(%r9,%rcx,8), %rsi
	movq	%rsi, (%rdi,%rcx,8)
	incq	%rcx
	decq	%rdx
	jne	45b
46:
	subq	%rbp, %rax
	cmpq	$-4, %rax
	ja	50f
	movq	(%rsp), %rax
	addq	%r15, %rax
	addq	$24, %rax
	movq	48(%rsp), %rdx
	addq	%rbx, %rdx
	addq	$24, %rdx
	.p2align	4
47:
	movq	-24(%rdx,%rcx,8), %rsi
	movq	%rsi, -24(%rax,%rcx,8)
	movq	-16(%rdx,%rcx,8), %rsi
	movq	%rsi, -16(%rax,%rcx,8)
	movq	-8(%rdx,%rcx,8), %rsi
	movq	%rsi, -8(%rax,%rcx,8)
	movq	(%rdx,%rcx,8), %rsi
	movq	%rsi, (%rax,%rcx,8)
	addq	$4, %rcx
	cmpq	%rcx, %rbp
	jne	47b
	jmp	50f
48:
	movq	%r9, %rsi
	movq	%r10, %rdx
49:
	callq	memmove@PLT
50:
	movq	%rbx, (%r12)
	movq	%r13, 8(%r12)
	jmp	58f
51:
	movq	%rbp, %rax
	andq	$-4, %rax
	movq	48(%rsp), %rcx
	addq	%rbx, %rcx
	addq	$16, %rcx
	movq	(%rsp), %rdx
	addq	%r15, %rdx
	addq	$16, %rdx
	xorl	%esi, %esi
	.p2align	4
52:
	movups	-16(%rcx,%rsi,8), %xmm0
	movups	(%rcx,%rsi,8), %xmm1
	movups	%xmm0, -16(%rdx,%rsi,8)
	movups	%xmm1, (%rdx,%rsi,8)
	addq	$4, %rsi
	cmpq	%rsi, %rax
	jne	52b
	cmpq	%rax, %rbp
	je	50b
	jmp	44b
53:
	movq	%rax, %rdx
	andq	$-4, %rdx
	addq	%rbx, %rdi
	addq	$16, %rdi
	leaq	(%r15,%rbp), %r8
	addq	$16, %r8
	xorl	%r9d, %r9d
	.p2align	4
54:
	movups	-16(%rdi,%r9,8), %xmm0
	movups	(%rdi,%r9,8), %xmm1
	movups	%xmm0, -16(%r8,%r9,8)
	movups	%xmm1, (%r8,%r9,8)
	addq	$4, %r9
	cmpq	%r9, %rdx
	jne	54b
	jmp	59f
55:
	movq	(%rsi,%rcx,8), %rdx
	movq	%rdx, (%rdi,%rcx,8)
	incq	%rcx
56:
	cmpq	%rcx, %rax
	jne	55b
57:
	movq	%r13, (%r12)
	movq	%rbp, 8(%r12)
58:
	addq	$56, %rsp
	popq	%rbx
	popq	%r12
	popq	%r13
	popq	%r14
	popq	%r15
	popq	%rbp
	retq
59:
	cmpq	%rdx, %rax
	je	50b
60:
	movq	(%rsi,%rdx,8), %rdi
	movq	%rdi, (%rcx,%rdx,8)
	incq	%rdx
	jmp	59b
61:
	.size	"core::slice::sort::merge::merge::<#cc3e8e382a4904f8>", 61b-"core::slice::sort::merge::merge::<#cc3e8e382a4904f8>"

	.text
	.p2align	4
	.type	"core::slice::sort::merge::merge::<#f98e8d76978ecc20>",@function
"core::slice::sort::merge::merge::<#f98e8d76978ecc20>":
	pushq	%rbp
	pushq	%r15
	pushq	%r14
	pushq	%r13
	pushq	%r12
	pushq	%rbx
	subq	$56, %rsp
	movq	%rcx, %rbp
	movq	%rdx, %r11
	movq	%rsi, %rbx
	movq	%rdi, %r14
	movq	%rsi, %rax
	shrq	$2, %rax
	cmpq	%rdx, %rax
	setbe	%cl
	movq	%rsi, %r12
	subq	%rdx, %r12
	cmpq	%r12, %rax
	setbe	%al
	andb	%cl, %al
	cmpq	$4097, %rsi
	setb	%cl
	xorb	$1, %al
	orb	%al, %cl
	movq	%rdx, 8(%rsp)
	je	2f
	cmpq	$4097, %rbx
	setae	%cl
	testb	%al, %cl
	je	3f
1:
	movq	%r11, %r15
	shlq	$5, %r15
	movq	(%rbp), %r13
	movq	8(%rbp), %rax
	movq	%rax, 32(%rsp)
	cmpq	%r12, %r11
	jbe	4f
	leaq	(%r14,%r15), %rsi
	leaq	(%r15,%r13), %r8
	movq	%r12, %rdx
	shlq	$5, %rdx
	movq	%r8, %rax
	subq	%rsi, %rax
	cmpq	%rdx, %rax
	movq	%rbp, 16(%rsp)
	jae	6f
	cmpq	%r11, %rbx
	je	55f
	movl	%r12d, %eax
	andl	$7, %eax
	movq	%r11, %rcx
	subq	%rbx, %rcx
	cmpq	$-8, %rcx
	jbe	51f
	xorl	%ecx, %ecx
	jmp	53f
2:
	cmpq	$65537, %rbx
	jae	1b
3:
	movq	(%rbp), %r13
	movq	8(%rbp), %r15
	movq	%rbx, %rdx
	shlq	$5, %rdx
	movq	%r13, %rax
	subq	%r14, %rax
	cmpq	%rdx, %rax
	jae	5f
	testq	%rbx, %rbx
	je	12f
	movl	%ebx, %eax
	andl	$7, %eax
	cmpq	$8, %rbx
	jae	8f
	xorl	%ecx, %ecx
	jmp	10f
4:
	movq	%r13, %rax
	subq	%r14, %rax
	cmpq	%r15, %rax
	jae	7f
	testq	%r11, %r11
	je	34f
	movl	%r11d, %eax
	andl	$7, %eax
	cmpq	$8, %r11
	jae	35f
	xorl	%ecx, %ecx
	jmp	37f
5:
	movq	%r13, %rdi
	movq	%r14, %rsi
	callq	memmove@PLT
	movq	8(%rsp), %r11
	jmp	12f
6:
	movq	%r8, %rdi
	movq	%rdx, %rbp
	callq	memmove@PLT
	movq	%rbp, %rdx
	movq	16(%rsp), %rbp
	leaq	(%r15,%r13), %r8
	movq	8(%rsp), %r11
	jmp	55f
7:
	movq	%r13, %rdi
	movq	%r14, %rsi
	movq	%r15, %rdx
	callq	memmove@PLT
	movq	8(%rsp), %r11
	jmp	39f
8:
	movq	%rbx, %rdx
	andq	$-8, %rdx
	movl	$224, %esi
	xorl	%ecx, %ecx
	.p2align	4
9:
	movups	-224(%r14,%rsi), %xmm0
	movups	-208(%r14,%rsi), %xmm1
	movups	%xmm1, -208(%r13,%rsi)
	movups	%xmm0, -224(%r13,%rsi)
	movups	-192(%r14,%rsi), %xmm0
	movups	-176(%r14,%rsi), %xmm1
	movups	%xmm1, -176(%r13,%rsi)
	movups	%xmm0, -192(%r13,%rsi)
	movups	-160(%r14,%rsi), %xmm0
	movups	-144(%r14,%rsi), %xmm1
	movups	%xmm1, -144(%r13,%rsi)
	movups	%xmm0, -160(%r13,%rsi)
	movups	-128(%r14,%rsi), %xmm0
	movups	-112(%r14,%rsi), %xmm1
	movups	%xmm1, -112(%r13,%rsi)
	movups	%xmm0, -128(%r13,%rsi)
	movups	-96(%r14,%rsi), %xmm0
	movups	-80(%r14,%rsi), %xmm1
	movups	%xmm1, -80(%r13,%rsi)
	movups	%xmm0, -96(%r13,%rsi)
	movups	-64(%r14,%rsi), %xmm0
	movups	-48(%r14,%rsi), %xmm1
	movups	%xmm1, -48(%r13,%rsi)
	movups	%xmm0, -64(%r13,%rsi)
	movups	-32(%r14,%rsi), %xmm0
	movups	-16(%r14,%rsi), %xmm1
	movups	%xmm1, -16(%r13,%rsi)
	movups	%xmm0, -32(%r13,%rsi)
	movups	(%r14,%rsi), %xmm0
	movups	16(%r14,%rsi), %xmm1
	movups	%xmm1, 16(%r13,%rsi)
	movups	%xmm0, (%r13,%rsi)
	addq	$8, %rcx
	addq	$256, %rsi
	cmpq	%rcx, %rdx
	jne	9b
	testq	%rax, %rax
	je	12f
10:
	shlq	$5, %rcx
	leaq	(%r14,%rcx), %rdx
	addq	%r13, %rcx
	shll	$5, %eax
	xorl	%esi, %esi
	.p2align	4
11:
	movups	(%rdx,%rsi), %xmm0
	movups	16(%rdx,%rsi), %xmm1
	movups	%xmm1, 16(%rcx,%rsi)
	movups	%xmm0, (%rcx,%rsi)
	addq	$32, %rsi
	cmpq	%rsi, %rax
	jne	11b
12:
	movq	%rbp, 16(%rsp)
	testq	%r11, %r11
	sete	%al
	cmpq	%rbx, %r11
	setae	%cl
	orb	%al, %cl
	movq	%rbx, 24(%rsp)
	jne	26f
	movq	%r15, 32(%rsp)
	xorl	%r12d, %r12d
	movq	%r11, %rbp
	movq	%rbx, %r15
	xorl	%ebx, %ebx
	.p2align	4
13:
	movq	%r11, 8(%rsp)
	movq	%rbp, %rax
	shlq	$5, %rax
	movq	%r12, %rcx
	shlq	$5, %rcx
	movq	(%r13,%rax), %rdi
	movq	8(%r13,%rax), %rsi
	movq	(%r13,%rcx), %rdx
	movq	8(%r13,%rcx), %rcx
	cmpq	%rsi, %rcx
	movq	%rsi, %rax
	cmovbq	%rcx, %rax
	cmpq	$24, %rax
	movl	$24, %r8d
	cmovbq	%rax, %r8
	cmpq	$8, %rax
	jb	15f
	xorl	%eax, %eax
	.p2align	4
14:
	movq	(%rdi,%rax), %r9
	movq	(%rdx,%rax), %r10
	cmpq	%r10, %r9
	jne	17f
	addq	$8, %rax
	addq	$-8, %r8
	cmpq	$7, %r8
	ja	14b
	jmp	16f
	.p2align	4
15:
	xorl	%eax, %eax
16:
	addq	%rax, %rdi
	subq	%rax, %rsi
	addq	%rax, %rdx
	subq	%rax, %rcx
	callq	"core::cmp::slices::RefSliceOrd::cmp::<#914af4d8504a0b72>"
	testb	%al, %al
	sete	%al
	jmp	18f
	.p2align	4
17:
	bswapq	%r10
	bswapq	%r9
	cmpq	%r10, %r9
	setb	%al
18:
	testb	%al, %al
	movq	%r12, %rcx
	cmovneq	%rbp, %rcx
	shlq	$5, %rcx
	movq	%rbx, %rdx
	shlq	$5, %rdx
	movups	(%r13,%rcx), %xmm0
	movups	16(%r13,%rcx), %xmm1
	movups	%xmm1, 16(%r14,%rdx)
	movups	%xmm0, (%r14,%rdx)
	movzbl	%al, %eax
	addq	%rax, %rbp
	xorb	$1, %al
	movzbl	%al, %eax
	addq	%rax, %r12
	movq	8(%rsp), %r11
	cmpq	%r11, %r12
	jae	24f
	cmpq	%r15, %rbp
	jae	24f
	movq	%r15, %rax
	shlq	$5, %rax
	movq	%r11, %rcx
	shlq	$5, %rcx
	movq	-32(%r13,%rax), %rdi
	movq	-24(%r13,%rax), %rsi
	movq	-32(%r13,%rcx), %rdx
	movq	-24(%r13,%rcx), %rcx
	cmpq	%rsi, %rcx
	movq	%rsi, %rax
	cmovbq	%rcx, %rax
	cmpq	$24, %rax
	movl	$24, %r8d
	cmovbq	%rax, %r8
	cmpq	$8, %rax
	jb	20f
	xorl	%eax, %eax
	.p2align	4
19:
	movq	(%rdi,%rax), %r9
	movq	(%rdx,%rax), %r10
	cmpq	%r10, %r9
	jne	22f
	addq	$8, %rax
	addq	$-8, %r8
	cmpq	$7, %r8
	ja	19b
	jmp	21f
	.p2align	4
20:
	xorl	%eax, %eax
21:
	addq	%rax, %rdi
	subq	%rax, %rsi
	addq	%rax, %rdx
	subq	%rax, %rcx
	callq	"core::cmp::slices::RefSliceOrd::cmp::<#914af4d8504a0b72>"
	movq	8(%rsp), %r11
	testb	%al, %al
	sete	%al
	jmp	23f
22:
	bswapq	%r10
	bswapq	%r9
	cmpq	%r10, %r9
	setb	%al
23:
	movq	24(%rsp), %rdx
	decq	%rdx
	testb	%al, %al
	movq	%r15, %rcx
	cmovneq	%r11, %rcx
	shlq	$5, %rcx
	movq	%rdx, 24(%rsp)
	shlq	$5, %rdx
	movups	-32(%r13,%rcx), %xmm0
	movups	-16(%r13,%rcx), %xmm1
	movups	%xmm1, 16(%r14,%rdx)
	movups	%xmm0, (%r14,%rdx)
	movzbl	%al, %eax
	subq	%rax, %r11
	xorb	$1, %al
	movzbl	%al, %eax
	subq	%rax, %r15
24:
	incq	%rbx
	cmpq	%r11, %r12
	jae	25f
	cmpq	%r15, %rbp
	jb	13b
25:
	cmpq	%r11, %r12
	cmovbq	%r12, %rbp
	shlq	$5, %rbp
	movq	32(%rsp), %r15
	jmp	27f
26:
	xorl	%ebx, %ebx
	xorl	%ebp, %ebp
27:
	movq	24(%rsp), %r9
	movq	%r9, %r8
	subq	%rbx, %r8
	movq	%r13, %rsi
	addq	%rbp, %rsi
	movq	%rbx, %rcx
	shlq	$5, %rcx
	leaq	(%r14,%rcx), %rdi
	movq	%r8, %rdx
	shlq	$5, %rdx
	movq	%rdi, %rax
	subq	%rsi, %rax
	cmpq	%rdx, %rax
	jae	28f
	cmpq	%rbx, %r9
	je	33f
	movl	%r8d, %eax
	andl	$7, %eax
	subq	%r9, %rbx
	cmpq	$-8, %rbx
	jbe	29f
	xorl	%edx, %edx
	jmp	31f
28:
	callq	memmove@PLT
	jmp	33f
29:
	andq	$-8, %r8
	movl	$224, %r9d
	xorl	%edx, %edx
	.p2align	4
30:
	movups	-224(%rsi,%r9), %xmm0
	movups	-208(%rsi,%r9), %xmm1
	movups	%xmm1, -208(%rdi,%r9)
	movups	%xmm0, -224(%rdi,%r9)
	movups	-192(%rsi,%r9), %xmm0
	movups	-176(%rsi,%r9), %xmm1
	movups	%xmm1, -176(%rdi,%r9)
	movups	%xmm0, -192(%rdi,%r9)
	movups	-160(%rsi,%r9), %xmm0
	movups	-144(%rsi,%r9), %xmm1
	movups	%xmm1, -144(%rdi,%r9)
	movups	%xmm0, -160(%rdi,%r9)
	movups	-128(%rsi,%r9), %xmm0
	movups	-112(%rsi,%r9), %xmm1
	movups	%xmm1, -112(%rdi,%r9)
	movups	%xmm0, -128(%rdi,%r9)
	movups	-96(%rsi,%r9), %xmm0
	movups	-80(%rsi,%r9), %xmm1
	movups	%xmm1, -80(%rdi,%r9)
	movups	%xmm0, -96(%rdi,%r9)
	movups	-64(%rsi,%r9), %xmm0
	movups	-48(%rsi,%r9), %xmm1
	movups	%xmm1, -48(%rdi,%r9)
	movups	%xmm0, -64(%rdi,%r9)
	movups	-32(%rsi,%r9), %xmm0
	movups	-16(%rsi,%r9), %xmm1
	movups	%xmm1, -16(%rdi,%r9)
	movups	%xmm0, -32(%rdi,%r9)
	movups	(%rsi,%r9), %xmm0
	movups	16(%rsi,%r9), %xmm1
	movups	%xmm1, 16(%rdi,%r9)
	movups	%xmm0, (%rdi,%r9)
	addq	$8, %rdx
	addq	$256, %r9
	cmpq	%rdx, %r8
	jne	30b
	testq	%rax, %rax
	je	33f
31:
	shlq	$5, %rdx
	addq	%rdx, %rbp
	addq	%r13, %rbp
	addq	%rcx, %rdx
	addq	%rdx, %r14
	shll	$5, %eax
	xorl	%ecx, %ecx
	.p2align	4
32:
	movups	(%rbp,%rcx), %xmm0
	movups	16(%rbp,%rcx), %xmm1
	movups	%xmm1, 16(%r14,%rcx)
	movups	%xmm0, (%r14,%rcx)
	addq	$32, %rcx
	cmpq	%rcx, %rax
	jne	32b
33:
	movq	16(%rsp), %rax
	movq	%r13, (%rax)
	movq	%r15, 8(%rax)
	jmp	74f
34:
	xorl	%edx, %edx
	movq	%r13, %rsi
	jmp	50f
35:
	movq	%r11, %rdx
	andq	$-8, %rdx
	movl	$224, %esi
	xorl	%ecx, %ecx
	.p2align	4
36:
	movups	-224(%r14,%rsi), %xmm0
	movups	-208(%r14,%rsi), %xmm1
	movups	%xmm1, -208(%r13,%rsi)
	movups	%xmm0, -224(%r13,%rsi)
	movups	-192(%r14,%rsi), %xmm0
	movups	-176(%r14,%rsi), %xmm1
	movups	%xmm1, -176(%r13,%rsi)
	movups	%xmm0, -192(%r13,%rsi)
	movups	-160(%r14,%rsi), %xmm0
	movups	-144(%r14,%rsi), %xmm1
	movups	%xmm1, -144(%r13,%rsi)
	movups	%xmm0, -160(%r13,%rsi)
	movups	-128(%r14,%rsi), %xmm0
	movups	-112(%r14,%rsi), %xmm1
	movups	%xmm1, -112(%r13,%rsi)
	movups	%xmm0, -128(%r13,%rsi)
	movups	-96(%r14,%rsi), %xmm0
	movups	-80(%r14,%rsi), %xmm1
	movups	%xmm1, -80(%r13,%rsi)
	movups	%xmm0, -96(%r13,%rsi)
	movups	-64(%r14,%rsi), %xmm0
	movups	-48(%r14,%rsi), %xmm1
	movups	%xmm1, -48(%r13,%rsi)
	movups	%xmm0, -64(%r13,%rsi)
	movups	-32(%r14,%rsi), %xmm0
	movups	-16(%r14,%rsi), %xmm1
	movups	%xmm1, -16(%r13,%rsi)
	movups	%xmm0, -32(%r13,%rsi)
	movups	(%r14,%rsi), %xmm0
	movups	16(%r14,%rsi), %xmm1
	movups	%xmm1, 16(%r13,%rsi)
	movups	%xmm0, (%r13,%rsi)
	addq	$8, %rcx
	addq	$256, %rsi
	cmpq	%rcx, %rdx
	jne	36b
	testq	%rax, %rax
	je	39f
37:
	shlq	$5, %rcx
	leaq	(%r14,%rcx), %rdx
	addq	%r13, %rcx
	shll	$5, %eax
	xorl	%esi, %esi
	.p2align	4
38:
	movups	(%rdx,%rsi), %xmm0
	movups	16(%rdx,%rsi), %xmm1
	movups	%xmm1, 16(%rcx,%rsi)
	movups	%xmm0, (%rcx,%rsi)
	addq	$32, %rsi
	cmpq	%rsi, %rax
	jne	38b
39:
	testq	%r11, %r11
	sete	%al
	cmpq	%rbx, %r11
	setae	%cl
	orb	%al, %cl
	jne	47f
	movq	%rbp, 16(%rsp)
	movq	%rbx, %rbp
	xorl	%r15d, %r15d
	movq	%r11, %r12
	xorl	%ebx, %ebx
	.p2align	4
40:
	movq	%r12, %rax
	shlq	$5, %rax
	movq	%r15, %rcx
	shlq	$5, %rcx
	movq	(%r14,%rax), %rdi
	movq	8(%r14,%rax), %rsi
	movq	(%r13,%rcx), %rdx
	movq	8(%r13,%rcx), %rcx
	cmpq	%rsi, %rcx
	movq	%rsi, %rax
	cmovbq	%rcx, %rax
	cmpq	$24, %rax
	movl	$24, %r8d
	cmovbq	%rax, %r8
	cmpq	$8, %rax
	jb	42f
	xorl	%eax, %eax
	.p2align	4
41:
	movq	(%rdi,%rax), %r9
	movq	(%rdx,%rax), %r10
	cmpq	%r10, %r9
	jne	44f
	addq	$8, %rax
	addq	$-8, %r8
	cmpq	$7, %r8
	ja	41b
	jmp	43f
	.p2align	4
42:
	xorl	%eax, %eax
43:
	addq	%rax, %rdi
	subq	%rax, %rsi
	addq	%rax, %rdx
	subq	%rax, %rcx
	callq	"core::cmp::slices::RefSliceOrd::cmp::<#914af4d8504a0b72>"
	testb	%al, %al
	sete	%al
	jmp	45f
	.p2align	4
44:
	bswapq	%r10
	bswapq	%r9
	cmpq	%r10, %r9
	setb	%al
45:
	testb	%al, %al
	movq	%r13, %rcx
	cmovneq	%r14, %rcx
	movq	%r15, %rdx
	cmovneq	%r12, %rdx
	shlq	$5, %rdx
	movq	%rbx, %rsi
	shlq	$5, %rsi
	movups	(%rcx,%rdx), %xmm0
	movups	16(%rcx,%rdx), %xmm1
	movups	%xmm1, 16(%r14,%rsi)
	movups	%xmm0, (%r14,%rsi)
	movl	%eax, %ecx
	xorb	$1, %cl
	movzbl	%cl, %ecx
	addq	%rcx, %r15
	incq	%rbx
	movq	8(%rsp), %r11
	cmpq	%r11, %r15
	jae	46f
	movzbl	%al, %eax
	addq	%rax, %r12
	cmpq	%rbp, %r12
	jb	40b
46:
	shlq	$5, %rbx
	movq	16(%rsp), %rbp
	jmp	48f
47:
	xorl	%ebx, %ebx
	xorl	%r15d, %r15d
48:
	movq	%r11, %rdi
	subq	%r15, %rdi
	movq	%r15, %rax
	shlq	$5, %rax
	leaq	(%rax,%r13), %rsi
	leaq	(%r14,%rbx), %r8
	movq	%rdi, %rdx
	shlq	$5, %rdx
	movq	%r8, %rcx
	subq	%rsi, %rcx
	cmpq	%rdx, %rcx
	jae	49f
	cmpq	%r15, %r11
	je	73f
	movl	%edi, %ecx
	andl	$7, %ecx
	subq	%r11, %r15
	cmpq	$-8, %r15
	jbe	69f
	xorl	%edx, %edx
	jmp	71f
49:
	movq	%r8, %r14
50:
	movq	%r14, %rdi
	callq	memmove@PLT
	jmp	73f
51:
	movq	%r12, %rdi
	andq	$-8, %rdi
	leaq	224(%r15), %rsi
	xorl	%ecx, %ecx
	.p2align	4
52:
	movups	-224(%r14,%rsi), %xmm0
	movups	-208(%r14,%rsi), %xmm1
	movups	%xmm1, -208(%r13,%rsi)
	movups	%xmm0, -224(%r13,%rsi)
	movups	-192(%r14,%rsi), %xmm0
	movups	-176(%r14,%rsi), %xmm1
	movups	%xmm1, -176(%r13,%rsi)
	movups	%xmm0, -192(%r13,%rsi)
	movups	-160(%r14,%rsi), %xmm0
	movups	-144(%r14,%rsi), %xmm1
	movups	%xmm1, -144(%r13,%rsi)
	movups	%xmm0, -160(%r13,%rsi)
	movups	-128(%r14,%rsi), %xmm0
	movups	-112(%r14,%rsi), %xmm1
	movups	%xmm1, -112(%r13,%rsi)
	movups	%xmm0, -128(%r13,%rsi)
	movups	-96(%r14,%rsi), %xmm0
	movups	-80(%r14,%rsi), %xmm1
	movups	%xmm1, -80(%r13,%rsi)
	movups	%xmm0, -96(%r13,%rsi)
	movups	-64(%r14,%rsi), %xmm0
	movups	-48(%r14,%rsi), %xmm1
	movups	%xmm1, -48(%r13,%rsi)
	movups	%xmm0, -64(%r13,%rsi)
	movups	-32(%r14,%rsi), %xmm0
	movups	-16(%r14,%rsi), %xmm1
	movups	%xmm1, -16(%r13,%rsi)
	movups	%xmm0, -32(%r13,%rsi)
	movups	(%r14,%rsi), %xmm0
	movups	16(%r14,%rsi), %xmm1
	movups	%xmm1, 16(%r13,%rsi)
	movups	%xmm0, (%r13,%rsi)
	addq	$8, %rcx
	addq	$256, %rsi
	cmpq	%rcx, %rdi
	jne	52b
	testq	%rax, %rax
	je	55f
53:
	shlq	$5, %rcx
	addq	%r15, %rcx
	leaq	(%r14,%rcx), %rdi
	addq	%r13, %rcx
	shll	$5, %eax
	xorl	%esi, %esi
	.p2align	4
54:
	movups	(%rdi,%rsi), %xmm0
	movups	16(%rdi,%rsi), %xmm1
	movups	%xmm1, 16(%rcx,%rsi)
	movups	%xmm0, (%rcx,%rsi)
	addq	$32, %rsi
	cmpq	%rsi, %rax
	jne	54b
55:
	cmpq	%rbx, %r11
	movq	%r15, 48(%rsp)
	jae	63f
	movq	%r8, 40(%rsp)
	movq	%r11, %r15
	movq	%rbx, %r12
	.p2align	4
56:
	movq	%rbx, 24(%rsp)
	leaq	-1(%rbx), %rbp
	movq	%rbp, %rax
	shlq	$5, %rax
	leaq	-1(%r15), %rbx
	movq	%rbx, %rcx
	shlq	$5, %rcx
	movq	(%r13,%rax), %rdi
	movq	8(%r13,%rax), %rsi
	movq	(%r14,%rcx), %rdx
	movq	8(%r14,%rcx), %rcx
	cmpq	%rsi, %rcx
	movq	%rsi, %rax
	cmovbq	%rcx, %rax
	cmpq	$24, %rax
	movl	$24, %r8d
	cmovbq	%rax, %r8
	cmpq	$8, %rax
	jb	58f
	xorl	%eax, %eax
	.p2align	4
57:
	movq	(%rdi,%rax), %r9
	movq	(%rdx,%rax), %r10
	cmpq	%r10, %r9
	jne	60f
	addq	$8, %rax
	addq	$-8, %r8
	cmpq	$7, %r8
	ja	57b
	jmp	59f
	.p2align	4
58:
	xorl	%eax, %eax
59:
	addq	%rax, %rdi
	subq	%rax, %rsi
	addq	%rax, %rdx
	subq	%rax, %rcx
	callq	"core::cmp::slices::RefSliceOrd::cmp::<#914af4d8504a0b72>"
	movq	8(%rsp), %r11
	testb	%al, %al
	sete	%al
	jmp	61f
	.p2align	4
60:
	bswapq	%r10
	bswapq	%r9
	cmpq	%r10, %r9
	setb	%al
61:
	testb	%al, %al
	movq	%r13, %rcx
	cmovneq	%r14, %rcx
	cmovneq	%rbx, %rbp
	shlq	$5, %rbp
	decq	%r12
	movq	%r12, %rdx
	shlq	$5, %rdx
	movups	(%rcx,%rbp), %xmm0
	movups	16(%rcx,%rbp), %xmm1
	movups	%xmm1, 16(%r14,%rdx)
	movups	%xmm0, (%r14,%rdx)
	movzbl	%al, %eax
	movl	%eax, %ecx
	xorb	$1, %cl
	movzbl	%cl, %ecx
	movq	24(%rsp), %rbx
	subq	%rcx, %rbx
	subq	%rax, %r15
	je	62f
	cmpq	%r11, %rbx
	ja	56b
62:
	movq	%rbx, %r12
	subq	%r11, %r12
	shlq	$5, %r15
	movq	%r12, %rdx
	shlq	$5, %rdx
	movq	16(%rsp), %rbp
	movq	40(%rsp), %r8
63:
	addq	%r15, %r14
	movq	%r14, %rax
	subq	%r8, %rax
	cmpq	%rdx, %rax
	jae	64f
	cmpq	%r11, %rbx
	movq	48(%rsp), %rsi
	je	73f
	leaq	-1(%r12), %rcx
	movl	%r12d, %eax
	andl	$7, %eax
	cmpq	$7, %rcx
	jae	65f
	xorl	%ecx, %ecx
	jmp	67f
64:
	movq	%r14, %rdi
	movq	%r8, %rsi
	callq	memmove@PLT
	jmp	73f
65:
	andq	$-8, %r12
	movl	$224, %edx
	xorl	%ecx, %ecx
	.p2align	4
66:
	movups	-224(%r8,%rdx), %xmm0
	movups	-208(%r8,%rdx), %xmm1
	movups	%xmm1, -208(%r14,%rdx)
	movups	%xmm0, -224(%r14,%rdx)
	movups	-192(%r8,%rdx), %xmm0
	movups	-176(%r8,%rdx), %xmm1
	movups	%xmm1, -176(%r14,%rdx)
	movups	%xmm0, -192(%r14,%rdx)
	movups	-160(%r8,%rdx), %xmm0
	movups	-144(%r8,%rdx), %xmm1
	movups	%xmm1, -144(%r14,%rdx)
	movups	%xmm0, -160(%r14,%rdx)
	movups	-128(%r8,%rdx), %xmm0
	movups	-112(%r8,%rdx), %xmm1
	movups	%xmm1, -112(%r14,%rdx)
	movups	%xmm0, -128(%r14,%rdx)
	movups	-96(%r8,%rdx), %xmm0
	movups	-80(%r8,%rdx), %xmm1
	movups	%xmm1, -80(%r14,%rdx)
	movups	%xmm0, -96(%r14,%rdx)
	movups	-64(%r8,%rdx), %xmm0
	movups	-48(%r8,%rdx), %xmm1
	movups	%xmm1, -48(%r14,%rdx)
	movups	%xmm0, -64(%r14,%rdx)
	movups	-32(%r8,%rdx), %xmm0
	movups	-16(%r8,%rdx), %xmm1
	movups	%xmm1, -16(%r14,%rdx)
	movups	%xmm0, -32(%r14,%rdx)
	movups	(%r8,%rdx), %xmm0
	movups	16(%r8,%rdx), %xmm1
	movups	%xmm1, 16(%r14,%rdx)
	movups	%xmm0, (%r14,%rdx)
	addq	$8, %rcx
	addq	$256, %rdx
	cmpq	%rcx, %r12
	jne	66b
	testq	%rax, %rax
	je	73f
67:
	shlq	$5, %rcx
	addq	%rcx, %rsi
	addq	%r13, %rsi
	addq	%rcx, %r14
	shll	$5, %eax
	xorl	%ecx, %ecx
	.p2align	4
68:
	movups	(%rsi,%rcx), %xmm0
	movups	16(%rsi,%rcx), %xmm1
	movups	%xmm1, 16(%r14,%rcx)
	movups	%xmm0, (%r14,%rcx)
	addq	$32, %rcx
	cmpq	%rcx, %rax
	jne	68b
	jmp	73f
69:
	andq	$-8, %rdi
	movl	$224, %r9d
	xorl	%edx, %edx
	.p2align	4
70:
	movups	-224(%rsi,%r9), %xmm0
	movups	-208(%rsi,%r9), %xmm1
	movups	%xmm1, -208(%r8,%r9)
	movups	%xmm0, -224(%r8,%r9)
	movups	-192(%rsi,%r9), %xmm0
	movups	-176(%rsi,%r9), %xmm1
	movups	%xmm1, -176(%r8,%r9)
	movups	%xmm0, -192(%r8,%r9)
	movups	-160(%rsi,%r9), %xmm0
	movups	-144(%rsi,%r9), %xmm1
	movups	%xmm1, -144(%r8,%r9)
	movups	%xmm0, -160(%r8,%r9)
	movups	-128(%rsi,%r9), %xmm0
	movups	-112(%rsi,%r9), %xmm1
	movups	%xmm1, -112(%r8,%r9)
	movups	%xmm0, -128(%r8,%r9)
	movups	-96(%rsi,%r9), %xmm0
	movups	-80(%rsi,%r9), %xmm1
	movups	%xmm1, -80(%r8,%r9)
	movups	%xmm0, -96(%r8,%r9)
	movups	-64(%rsi,%r9), %xmm0
	movups	-48(%rsi,%r9), %xmm1
	movups	%xmm1, -48(%r8,%r9)
	movups	%xmm0, -64(%r8,%r9)
	movups	-32(%rsi,%r9), %xmm0
	movups	-16(%rsi,%r9), %xmm1
	movups	%xmm1, -16(%r8,%r9)
	movups	%xmm0, -32(%r8,%r9)
	movups	(%rsi,%r9), %xmm0
	movups	16(%rsi,%r9), %xmm1
	movups	%xmm1, 16(%r8,%r9)
	movups	%xmm0, (%r8,%r9)
	addq	$8, %rdx
	addq	$256, %r9
	cmpq	%rdx, %rdi
	jne	70b
	testq	%rcx, %rcx
	je	73f
71:
	shlq	$5, %rdx
	addq	%rdx, %rax
	addq	%r13, %rax
	addq	%rbx, %r14
	addq	%rdx, %r14
	shll	$5, %ecx
	xorl	%edx, %edx
	.p2align	4
72:
	movups	(%rax,%rdx), %xmm0
	movups	16(%rax,%rdx), %xmm1
	movups	%xmm1, 16(%r14,%rdx)
	movups	%xmm0, (%r14,%rdx)
	addq	$32, %rdx
	cmpq	%rdx, %rcx
	jne	72b
73:
	movq	%r13, (%rbp)
	movq	32(%rsp), %rax
	movq	%rax, 8(%rbp)
74:
	addq	$56, %rsp
	popq	%rbx
	popq	%r12
	popq	%r13
	popq	%r14
	popq	%r15
	popq	%rbp
	retq
75:
	.size	"core::slice::sort::merge::merge::<#f98e8d76978ecc20>", 75b-"core::slice::sort::merge::merge::<#f98e8d76978ecc20>"

	.section	.rodata.cst16,"aM",@progbits,16
	.p2align	4, 0x0
1:
	.byte	42,42,42,42,42,42,42,42
	.zero	1
	.zero	1
	.zero	1
	.zero	1
	.zero	1
	.zero	1
	.zero	1
	.zero	1
2:
	.byte	63,63,63,63,63,63,63,63
	.zero	1
	.zero	1
	.zero	1
	.zero	1
	.zero	1
	.zero	1
	.zero	1
	.zero	1
3:
	.byte	92,92,92,92,92,92,92,92
	.zero	1
	.zero	1
	.zero	1
	.zero	1
	.zero	1
	.zero	1
	.zero	1
	.zero	1
4:
	.byte	91,91,91,91,91,91,91,91
	.zero	1
	.zero	1
	.zero	1
	.zero	1
	.zero	1
	.zero	1
	.zero	1
	.zero	1
	.text
	.p2align	4
	.type	"core::slice::sort::order::ByOrder::less::<#878f6745e8fab0b2>",@function
"core::slice::sort::order::ByOrder::less::<#878f6745e8fab0b2>":
	pushq	%rbx
	cmpb	$0, 56(%rsi)
	je	5f
	movq	64(%rsi), %rdx
	leaq	72(%rsi), %rax
	movq	(%rax), %rax
	movabsq	$1688849862361089, %rcx
	testq	%rax, %rax
	jne	6f
	jmp	10f
5:
	leaq	64(%rsi), %rdx
	leaq	80(%rsi), %rax
	movq	(%rax), %rax
	movabsq	$1688849862361089, %rcx
	testq	%rax, %rax
	je	10f
6:
	cmpb	$42, (%rdx)
	jne	9f
	leaq	-1(%rax), %r8
	cmpq	$8, %r8
	jb	7f
	movq	1(%rdx), %xmm0
	movdqa	1b(%rip), %xmm1
	pcmpeqb	%xmm0, %xmm1
	movdqa	2b(%rip), %xmm2
	pcmpeqb	%xmm0, %xmm2
	por	%xmm1, %xmm2
	movdqa	3b(%rip), %xmm1
	pcmpeqb	%xmm0, %xmm1
	pcmpeqb	4b(%rip), %xmm0
	por	%xmm1, %xmm0
	por	%xmm2, %xmm0
	pmovmskb	%xmm0, %r8d
	testb	%r8b, %r8b
	jne	12f
7:
	movl	$1, %r8d
	.p2align	4
8:
	cmpq	%r8, %rax
	je	25f
	movzbl	(%rdx,%r8), %r9d
	incq	%r8
	addl	$-42, %r9d
	cmpl	$50, %r9d
	ja	8b
	btq	%r9, %rcx
	jae	8b
	jmp	12f
9:
	cmpq	$8, %rax
	jb	10f
	movq	(%rdx), %xmm0
	movdqa	1b(%rip), %xmm1
	pcmpeqb	%xmm0, %xmm1
	movdqa	2b(%rip), %xmm2
	pcmpeqb	%xmm0, %xmm2
	por	%xmm1, %xmm2
	movdqa	3b(%rip), %xmm1
	pcmpeqb	%xmm0, %xmm1
	pcmpeqb	4b(%rip), %xmm0
	por	%xmm1, %xmm0
	por	%xmm2, %xmm0
	pmovmskb	%xmm0, %r8d
	testb	%r8b, %r8b
	jne	12f
10:
	xorl	%r8d, %r8d
	.p2align	4
11:
	cmpq	%r8, %rax
	je	23f
	movzbl	(%rdx,%r8), %r9d
	incq	%r8
	addl	$-42, %r9d
	cmpl	$50, %r9d
	ja	11b
	btq	%r9, %rcx
	jae	11b
12:
	xorl	%edx, %edx
13:
	movq	(%rdi), %rdi
	cmpb	$0, 56(%rdi)
	je	14f
	movq	64(%rdi), %r10
	leaq	72(%rdi), %r11
	jmp	15f
14:
	leaq	64(%rdi), %r10
	leaq	80(%rdi), %r11
15:
	movzbl	(%rsi), %r9d
	movzbl	96(%rsi), %r8d
	movq	(%r11), %rsi
	testq	%rsi, %rsi
	je	19f
	cmpb	$42, (%r10)
	jne	18f
	leaq	-1(%rsi), %r11
	cmpq	$8, %r11
	jb	16f
	movq	1(%r10), %xmm0
	movdqa	1b(%rip), %xmm1
	pcmpeqb	%xmm0, %xmm1
	movdqa	2b(%rip), %xmm2
	pcmpeqb	%xmm0, %xmm2
	por	%xmm1, %xmm2
	movdqa	3b(%rip), %xmm1
	pcmpeqb	%xmm0, %xmm1
	pcmpeqb	4b(%rip), %xmm0
	por	%xmm1, %xmm0
	por	%xmm2, %xmm0
	pmovmskb	%xmm0, %r11d
	testb	%r11b, %r11b
	jne	21f
16:
	movl	$1, %r11d
	.p2align	4
17:
	cmpq	%r11, %rsi
	je	26f
	movzbl	(%r10,%r11), %ebx
	incq	%r11
	addl	$-42, %ebx
	cmpl	$50, %ebx
	ja	17b
	btq	%rbx, %rcx
	jae	17b
	jmp	21f
18:
	cmpq	$8, %rsi
	jb	19f
	movq	(%r10), %xmm0
	movdqa	1b(%rip), %xmm1
	pcmpeqb	%xmm0, %xmm1
	movdqa	2b(%rip), %xmm2
	pcmpeqb	%xmm0, %xmm2
	por	%xmm1, %xmm2
	movdqa	3b(%rip), %xmm1
	pcmpeqb	%xmm0, %xmm1
	pcmpeqb	4b(%rip), %xmm0
	por	%xmm1, %xmm0
	por	%xmm2, %xmm0
	pmovmskb	%xmm0, %r11d
	testb	%r11b, %r11b
	jne	21f
19:
	xorl	%r11d, %r11d
	.p2align	4
20:
	cmpq	%r11, %rsi
	je	24f
	movzbl	(%r10,%r11), %ebx
	incq	%r11
	addl	$-42, %ebx
	cmpl	$50, %ebx
	ja	20b
	btq	%rbx, %rcx
	jae	20b
21:
	xorl	%ecx, %ecx
22:
	orl	%r9d, %edx
	shll	$17, %edx
	movzwl	%ax, %eax
	leal	(%rdx,%rax,2), %eax
	orl	%r8d, %eax
	movzbl	(%rdi), %edx
	orl	%ecx, %edx
	movzbl	96(%rdi), %ecx
	shll	$17, %edx
	movzwl	%si, %esi
	leal	(%rdx,%rsi,2), %edx
	orl	%ecx, %edx
	cmpl	%edx, %eax
	setb	%al
	popq	%rbx
	retq
23:
	movl	$512, %edx
	jmp	13b
24:
	movl	$512, %ecx
	jmp	22b
25:
	movl	$256, %edx
	jmp	13b
26:
	movl	$256, %ecx
	jmp	22b
27:
	.size	"core::slice::sort::order::ByOrder::less::<#878f6745e8fab0b2>", 27b-"core::slice::sort::order::ByOrder::less::<#878f6745e8fab0b2>"

	.text
	.p2align	4
	.type	"core::slice::sort::pivot::median_of_medians::<#12eb916b83b0f891>",@function
"core::slice::sort::pivot::median_of_medians::<#12eb916b83b0f891>":
	pushq	%rbp
	pushq	%r15
	pushq	%r14
	pushq	%r13
	pushq	%r12
	pushq	%rbx
	pushq	%rax
	movq	%rcx, %r14
	movq	%rdx, %rbx
	cmpq	$8, %r8
	jae	1f
	movl	(%rdi,%rsi,8), %eax
	movl	(%rdi,%rbx,8), %ecx
	cmpl	%eax, %ecx
	setb	%dl
	movl	(%rdi,%r14,8), %edi
	cmpl	%eax, %edi
	setb	%al
	xorb	%dl, %al
	cmpl	%ecx, %edi
	setb	%cl
	xorb	%dl, %cl
	cmovneq	%r14, %rbx
	testb	%al, %al
	cmovneq	%rsi, %rbx
	jmp	2f
1:
	movq	%r8, %r12
	shrq	$3, %r12
	leaq	(%rsi,%r12,4), %rdx
	andq	$-8, %r8
	subq	%r12, %r8
	leaq	(%r8,%rsi), %rcx
	movq	%rdi, %r13
	movq	%r8, %rbp
	movq	%r12, %r8
	callq	"core::slice::sort::pivot::median_of_medians::<#12eb916b83b0f891>"
	movq	%rax, %r15
	leaq	(%rbx,%r12,4), %rdx
	leaq	(%rbx,%rbp), %rcx
	movq	%r13, %rdi
	movq	%rbx, %rsi
	movq	%r12, %r8
	callq	"core::slice::sort::pivot::median_of_medians::<#12eb916b83b0f891>"
	movq	%rax, %rbx
	leaq	(%r14,%r12,4), %rdx
	addq	%r14, %rbp
	movq	%r13, %rdi
	movq	%r14, %rsi
	movq	%rbp, %rcx
	movq	%r12, %r8
	callq	"core::slice::sort::pivot::median_of_medians::<#12eb916b83b0f891>"
	movl	(%r13,%r15,8), %ecx
	movl	(%r13,%rbx,8), %edx
	cmpl	%ecx, %edx
	setb	%sil
	movl	(%r13,%rax,8), %edi
	cmpl	%ecx, %edi
	setb	%cl
	xorb	%sil, %cl
	cmpl	%edx, %edi
	setb	%dl
	xorb	%sil, %dl
	cmovneq	%rax, %rbx
	testb	%cl, %cl
	cmovneq	%r15, %rbx
2:
	movq	%rbx, %rax
	addq	$8, %rsp
	popq	%rbx
	popq	%r12
	popq	%r13
	popq	%r14
	popq	%r15
	popq	%rbp
	retq
3:
	.size	"core::slice::sort::pivot::median_of_medians::<#12eb916b83b0f891>", 3b-"core::slice::sort::pivot::median_of_medians::<#12eb916b83b0f891>"

	.text
	.p2align	4
	.type	"core::slice::sort::pivot::median_of_medians::<#196989f31ad14034>",@function
"core::slice::sort::pivot::median_of_medians::<#196989f31ad14034>":
	pushq	%rbp
	pushq	%r15
	pushq	%r14
	pushq	%r13
	pushq	%r12
	pushq	%rbx
	pushq	%rax
	movq	%rcx, %r14
	movq	%rdx, %rbx
	cmpq	$8, %r8
	jae	1f
	movq	(%rdi,%rsi,8), %rax
	movq	(%rdi,%rbx,8), %rcx
	movl	56(%rax), %eax
	movl	56(%rcx), %ecx
	cmpl	%eax, %ecx
	setb	%dl
	movq	(%rdi,%r14,8), %rdi
	movl	56(%rdi), %edi
	cmpl	%eax, %edi
	setb	%al
	xorb	%dl, %al
	cmpl	%ecx, %edi
	setb	%cl
	xorb	%dl, %cl
	cmovneq	%r14, %rbx
	testb	%al, %al
	cmovneq	%rsi, %rbx
	jmp	2f
1:
	movq	%r8, %r13
	shrq	$3, %r13
	leaq	(%rsi,%r13,4), %rdx
	andq	$-8, %r8
	subq	%r13, %r8
	leaq	(%r8,%rsi), %rcx
	movq	%rdi, %r12
	movq	%r8, %rbp
	movq	%r13, %r8
	callq	"core::slice::sort::pivot::median_of_medians::<#196989f31ad14034>"
	movq	%rax, %r15
	leaq	(%rbx,%r13,4), %rdx
	leaq	(%rbx,%rbp), %rcx
	movq	%r12, %rdi
	movq	%rbx, %rsi
	movq	%r13, %r8
	callq	"core::slice::sort::pivot::median_of_medians::<#196989f31ad14034>"
	movq	%rax, %rbx
	leaq	(%r14,%r13,4), %rdx
	addq	%r14, %rbp
	movq	%r12, %rdi
	movq	%r14, %rsi
	movq	%rbp, %rcx
	movq	%r13, %r8
	callq	"core::slice::sort::pivot::median_of_medians::<#196989f31ad14034>"
	movq	(%r12,%r15,8), %rcx
	movq	(%r12,%rbx,8), %rdx
	movl	56(%rcx), %ecx
	movl	56(%rdx), %edx
	cmpl	%ecx, %edx
	setb	%sil
	movq	(%r12,%rax,8), %rdi
	movl	56(%rdi), %edi
	cmpl	%ecx, %edi
	setb	%cl
	xorb	%sil, %cl
	cmpl	%edx, %edi
	setb	%dl
	xorb	%sil, %dl
	cmovneq	%rax, %rbx
	testb	%cl, %cl
	cmovneq	%r15, %rbx
2:
	movq	%rbx, %rax
	addq	$8, %rsp
	popq	%rbx
	popq	%r12
	popq	%r13
	popq	%r14
	popq	%r15
	popq	%rbp
	retq
3:
	.size	"core::slice::sort::pivot::median_of_medians::<#196989f31ad14034>", 3b-"core::slice::sort::pivot::median_of_medians::<#196989f31ad14034>"

	.text
	.p2align	4
	.type	"core::slice::sort::pivot::median_of_medians::<#24df1801f4a811cc>",@function
"core::slice::sort::pivot::median_of_medians::<#24df1801f4a811cc>":
	pushq	%rbp
	pushq	%r15
	pushq	%r14
	pushq	%r13
	pushq	%r12
	pushq	%rbx
	pushq	%rax
	movq	%rcx, %r14
	movq	%rdx, %rbx
	cmpq	$8, %r8
	jae	1f
	imulq	$56, %rsi, %rax
	imulq	$56, %rbx, %rcx
	movl	(%rdi,%rax), %eax
	movl	(%rdi,%rcx), %ecx
	cmpl	%eax, %ecx
	setb	%dl
	imulq	$56, %r14, %r8
	movl	(%rdi,%r8), %edi
	cmpl	%eax, %edi
	setb	%al
	xorb	%dl, %al
	cmpl	%ecx, %edi
	setb	%cl
	xorb	%dl, %cl
	cmovneq	%r14, %rbx
	testb	%al, %al
	cmovneq	%rsi, %rbx
	jmp	2f
1:
	movq	%r8, %r13
	shrq	$3, %r13
	leaq	(%rsi,%r13,4), %rdx
	andq	$-8, %r8
	subq	%r13, %r8
	leaq	(%r8,%rsi), %rcx
	movq	%rdi, %r12
	movq	%r8, %rbp
	movq	%r13, %r8
	callq	"core::slice::sort::pivot::median_of_medians::<#24df1801f4a811cc>"
	movq	%rax, %r15
	leaq	(%rbx,%r13,4), %rdx
	leaq	(%rbx,%rbp), %rcx
	movq	%r12, %rdi
	movq	%rbx, %rsi
	movq	%r13, %r8
	callq	"core::slice::sort::pivot::median_of_medians::<#24df1801f4a811cc>"
	movq	%rax, %rbx
	leaq	(%r14,%r13,4), %rdx
	addq	%r14, %rbp
	movq	%r12, %rdi
	movq	%r14, %rsi
	movq	%rbp, %rcx
	movq	%r13, %r8
	callq	"core::slice::sort::pivot::median_of_medians::<#24df1801f4a811cc>"
	imulq	$56, %r15, %rcx
	imulq	$56, %rbx, %rdx
	movl	(%r12,%rcx), %ecx
	movl	(%r12,%rdx), %edx
	cmpl	%ecx, %edx
	setb	%sil
	imulq	$56, %rax, %rdi
	movl	(%r12,%rdi), %edi
	cmpl	%ecx, %edi
	setb	%cl
	xorb	%sil, %cl
	cmpl	%edx, %edi
	setb	%dl
	xorb	%sil, %dl
	cmovneq	%rax, %rbx
	testb	%cl, %cl
	cmovneq	%r15, %rbx
2:
	movq	%rbx, %rax
	addq	$8, %rsp
	popq	%rbx
	popq	%r12
	popq	%r13
	popq	%r14
	popq	%r15
	popq	%rbp
	retq
3:
	.size	"core::slice::sort::pivot::median_of_medians::<#24df1801f4a811cc>", 3b-"core::slice::sort::pivot::median_of_medians::<#24df1801f4a811cc>"

	.text
	.p2align	4
	.type	"core::slice::sort::pivot::median_of_medians::<#32fabb223415b920>",@function
"core::slice::sort::pivot::median_of_medians::<#32fabb223415b920>":
	cmpq	$7, %r8
	ja	1f
	jmp	"core::slice::sort::pivot::median_of_three::<#32fabb223415b920>"
1:
	pushq	%rbp
	pushq	%r15
	pushq	%r14
	pushq	%r13
	pushq	%r12
	pushq	%rbx
	pushq	%rax
	movq	%r8, %rbx
	shrq	$3, %rbx
	leaq	(%rsi,%rbx,4), %rax
	andq	$-8, %r8
	subq	%rbx, %r8
	leaq	(%r8,%rsi), %r9
	movq	%rdi, %r14
	movq	%rdx, %r15
	movq	%rax, %rdx
	movq	%rcx, %r12
	movq	%r9, %rcx
	movq	%r8, %r13
	movq	%rbx, %r8
	callq	"core::slice::sort::pivot::median_of_medians::<#32fabb223415b920>"
	movq	%rax, %rbp
	leaq	(%r15,%rbx,4), %rdx
	leaq	(%r15,%r13), %rcx
	movq	%r14, %rdi
	movq	%r15, %rsi
	movq	%rbx, %r8
	callq	"core::slice::sort::pivot::median_of_medians::<#32fabb223415b920>"
	movq	%rax, %r15
	leaq	(%r12,%rbx,4), %rdx
	addq	%r12, %r13
	movq	%r14, %rdi
	movq	%r12, %rsi
	movq	%r13, %rcx
	movq	%rbx, %r8
	callq	"core::slice::sort::pivot::median_of_medians::<#32fabb223415b920>"
	movq	%r14, %rdi
	movq	%rbp, %rsi
	movq	%r15, %rdx
	movq	%rax, %rcx
	addq	$8, %rsp
	popq	%rbx
	popq	%r12
	popq	%r13
	popq	%r14
	popq	%r15
	popq	%rbp
	jmp	"core::slice::sort::pivot::median_of_three::<#32fabb223415b920>"
2:
	.size	"core::slice::sort::pivot::median_of_medians::<#32fabb223415b920>", 2b-"core::slice::sort::pivot::median_of_medians::<#32fabb223415b920>"

	.text
	.p2align	4
	.type	"core::slice::sort::pivot::median_of_medians::<#54047240e3f04dbb>",@function
"core::slice::sort::pivot::median_of_medians::<#54047240e3f04dbb>":
	pushq	%rbp
	pushq	%r15
	pushq	%r14
	pushq	%r13
	pushq	%r12
	pushq	%rbx
	pushq	%rax
	movq	%rcx, %r14
	movq	%rdx, %rbx
	cmpq	$8, %r8
	jae	1f
	leaq	(%rsi,%rsi,4), %rax
	shlq	$4, %rax
	leaq	(%rbx,%rbx,4), %rcx
	shlq	$4, %rcx
	movl	(%rdi,%rax), %eax
	movl	(%rdi,%rcx), %ecx
	cmpl	%eax, %ecx
	setb	%dl
	leaq	(%r14,%r14,4), %r8
	shlq	$4, %r8
	movl	(%rdi,%r8), %edi
	cmpl	%eax, %edi
	setb	%al
	xorb	%dl, %al
	cmpl	%ecx, %edi
	setb	%cl
	xorb	%dl, %cl
	cmovneq	%r14, %rbx
	testb	%al, %al
	cmovneq	%rsi, %rbx
	jmp	2f
1:
	movq	%r8, %r13
	shrq	$3, %r13
	leaq	(%rsi,%r13,4), %rdx
	andq	$-8, %r8
	subq	%r13, %r8
	leaq	(%r8,%rsi), %rcx
	movq	%rdi, %r12
	movq	%r8, %rbp
	movq	%r13, %r8
	callq	"core::slice::sort::pivot::median_of_medians::<#54047240e3f04dbb>"
	movq	%rax, %r15
	leaq	(%rbx,%r13,4), %rdx
	leaq	(%rbx,%rbp), %rcx
	movq	%r12, %rdi
	movq	%rbx, %rsi
	movq	%r13, %r8
	callq	"core::slice::sort::pivot::median_of_medians::<#54047240e3f04dbb>"
	movq	%rax, %rbx
	leaq	(%r14,%r13,4), %rdx
	addq	%r14, %rbp
	movq	%r12, %rdi
	movq	%r14, %rsi
	movq	%rbp, %rcx
	movq	%r13, %r8
	callq	"core::slice::sort::pivot::median_of_medians::<#54047240e3f04dbb>"
	leaq	(%r15,%r15,4), %rcx
	shlq	$4, %rcx
	leaq	(%rbx,%rbx,4), %rdx
	shlq	$4, %rdx
	movl	(%r12,%rcx), %ecx
	movl	(%r12,%rdx), %edx
	cmpl	%ecx, %edx
	setb	%sil
	leaq	(%rax,%rax,4), %rdi
	shlq	$4, %rdi
	movl	(%r12,%rdi), %edi
	cmpl	%ecx, %edi
	setb	%cl
	xorb	%sil, %cl
	cmpl	%edx, %edi
	setb	%dl
	xorb	%sil, %dl
	cmovneq	%rax, %rbx
	testb	%cl, %cl
	cmovneq	%r15, %rbx
2:
	movq	%rbx, %rax
	addq	$8, %rsp
	popq	%rbx
	popq	%r12
	popq	%r13
	popq	%r14
	popq	%r15
	popq	%rbp
	retq
3:
	.size	"core::slice::sort::pivot::median_of_medians::<#54047240e3f04dbb>", 3b-"core::slice::sort::pivot::median_of_medians::<#54047240e3f04dbb>"

	.text
	.p2align	4
	.type	"core::slice::sort::pivot::median_of_medians::<#7ab9c65c4fe95e6e>",@function
"core::slice::sort::pivot::median_of_medians::<#7ab9c65c4fe95e6e>":
	pushq	%rbp
	pushq	%r15
	pushq	%r14
	pushq	%r13
	pushq	%r12
	pushq	%rbx
	pushq	%rax
	movq	%rcx, %r14
	movq	%rdx, %rbx
	cmpq	$8, %r8
	jae	1f
	movq	(%rdi,%rsi,8), %rax
	movq	(%rdi,%rbx,8), %rcx
	cmpq	%rcx, %rax
	setb	%dl
	movq	(%rdi,%r14,8), %rdi
	cmpq	%rdi, %rax
	setb	%al
	xorb	%dl, %al
	cmpq	%rdi, %rcx
	setb	%cl
	xorb	%dl, %cl
	cmovneq	%r14, %rbx
	testb	%al, %al
	cmovneq	%rsi, %rbx
	jmp	2f
1:
	movq	%r8, %r12
	shrq	$3, %r12
	leaq	(%rsi,%r12,4), %rdx
	andq	$-8, %r8
	subq	%r12, %r8
	leaq	(%r8,%rsi), %rcx
	movq	%rdi, %r13
	movq	%r8, %rbp
	movq	%r12, %r8
	callq	"core::slice::sort::pivot::median_of_medians::<#7ab9c65c4fe95e6e>"
	movq	%rax, %r15
	leaq	(%rbx,%r12,4), %rdx
	leaq	(%rbx,%rbp), %rcx
	movq	%r13, %rdi
	movq	%rbx, %rsi
	movq	%r12, %r8
	callq	"core::slice::sort::pivot::median_of_medians::<#7ab9c65c4fe95e6e>"
	movq	%rax, %rbx
	leaq	(%r14,%r12,4), %rdx
	addq	%r14, %rbp
	movq	%r13, %rdi
	movq	%r14, %rsi
	movq	%rbp, %rcx
	movq	%r12, %r8
	callq	"core::slice::sort::pivot::median_of_medians::<#7ab9c65c4fe95e6e>"
	movq	(%r13,%r15,8), %rcx
	movq	(%r13,%rbx,8), %rdx
	cmpq	%rdx, %rcx
	setb	%sil
	movq	(%r13,%rax,8), %rdi
	cmpq	%rdi, %rcx
	setb	%cl
	xorb	%sil, %cl
	cmpq	%rdi, %rdx
	setb	%dl
	xorb	%sil, %dl
	cmovneq	%rax, %rbx
	testb	%cl, %cl
	cmovneq	%r15, %rbx
2:
	movq	%rbx, %rax
	addq	$8, %rsp
	popq	%rbx
	popq	%r12
	popq	%r13
	popq	%r14
	popq	%r15
	popq	%rbp
	retq
3:
	.size	"core::slice::sort::pivot::median_of_medians::<#7ab9c65c4fe95e6e>", 3b-"core::slice::sort::pivot::median_of_medians::<#7ab9c65c4fe95e6e>"

	.text
	.p2align	4
	.type	"core::slice::sort::pivot::median_of_medians::<#b4bd7111e818b46c>",@function
"core::slice::sort::pivot::median_of_medians::<#b4bd7111e818b46c>":
	pushq	%rbp
	pushq	%r15
	pushq	%r14
	pushq	%r13
	pushq	%r12
	pushq	%rbx
	subq	$40, %rsp
	movq	%rcx, %r14
	movq	%rdx, %r12
	movq	%rsi, %rbx
	movq	%rdi, %r15
	cmpq	$8, %r8
	jae	1f
	movq	%rbx, %rax
	shlq	$5, %rax
	movq	%r12, %rcx
	shlq	$5, %rcx
	movq	(%r15,%rax), %r13
	movq	8(%r15,%rax), %rbp
	movq	(%r15,%rcx), %rdx
	movq	8(%r15,%rcx), %rcx
	movq	%r13, %rdi
	movq	%rbp, %rsi
	movq	%rdx, 24(%rsp)
	movq	%rcx, 16(%rsp)
	callq	"core::cmp::slices::RefSliceOrd::cmp::<#914af4d8504a0b72>"
	movb	%al, 8(%rsp)
	testb	%al, %al
	sete	7(%rsp)
	movq	%r14, %rax
	shlq	$5, %rax
	movq	(%r15,%rax), %rcx
	movq	8(%r15,%rax), %r15
	movq	%r13, %rdi
	movq	%rcx, %r13
	movq	%rbp, %rsi
	movq	%rcx, %rdx
	movq	%r15, %rcx
	callq	"core::cmp::slices::RefSliceOrd::cmp::<#914af4d8504a0b72>"
	testb	%al, %al
	sete	%al
	xorb	7(%rsp), %al
	jne	2f
	cmpb	$0, 8(%rsp)
	sete	%bl
	movq	24(%rsp), %rdi
	movq	16(%rsp), %rsi
	movq	%r13, %rdx
	movq	%r15, %rcx
	callq	"core::cmp::slices::RefSliceOrd::cmp::<#914af4d8504a0b72>"
	testb	%al, %al
	sete	%al
	xorb	%bl, %al
	cmovneq	%r14, %r12
	movq	%r12, %rbx
	jmp	2f
1:
	movq	%r8, %r13
	shrq	$3, %r13
	leaq	(%rbx,%r13,4), %rdx
	andq	$-8, %r8
	subq	%r13, %r8
	leaq	(%r8,%rbx), %rcx
	movq	%r15, %rdi
	movq	%rbx, %rsi
	movq	%r8, %rbp
	movq	%r13, %r8
	callq	"core::slice::sort::pivot::median_of_medians::<#b4bd7111e818b46c>"
	movq	%rax, %rbx
	leaq	(%r12,%r13,4), %rdx
	leaq	(%r12,%rbp), %rcx
	movq	%r15, %rdi
	movq	%r12, %rsi
	movq	%r13, %r8
	callq	"core::slice::sort::pivot::median_of_medians::<#b4bd7111e818b46c>"
	movq	%rax, %r12
	leaq	(%r14,%r13,4), %rdx
	addq	%r14, %rbp
	movq	%r15, %rdi
	movq	%r14, %rsi
	movq	%rbp, %rcx
	movq	%r13, %r8
	callq	"core::slice::sort::pivot::median_of_medians::<#b4bd7111e818b46c>"
	movq	%rax, %r14
	movq	%rbx, %rax
	shlq	$5, %rax
	movq	%r12, 24(%rsp)
	shlq	$5, %r12
	movq	(%r15,%rax), %r13
	movq	8(%r15,%rax), %rbp
	movq	(%r15,%r12), %rdx
	movq	8(%r15,%r12), %rcx
	movq	%r13, %rdi
	movq	%rbp, %rsi
	movq	%rdx, 8(%rsp)
	movq	%rcx, 32(%rsp)
	callq	"core::cmp::slices::RefSliceOrd::cmp::<#914af4d8504a0b72>"
	movl	%eax, %r12d
	testb	%al, %al
	sete	7(%rsp)
	movq	%r14, 16(%rsp)
	movq	%r14, %rax
	shlq	$5, %rax
	movq	(%r15,%rax), %r14
	movq	8(%r15,%rax), %r15
	movq	%r13, %rdi
	movq	%rbp, %rsi
	movq	%r14, %rdx
	movq	%r15, %rcx
	callq	"core::cmp::slices::RefSliceOrd::cmp::<#914af4d8504a0b72>"
	testb	%al, %al
	sete	%al
	xorb	7(%rsp), %al
	jne	2f
	testb	%r12b, %r12b
	sete	%bl
	movq	8(%rsp), %rdi
	movq	32(%rsp), %rsi
	movq	%r14, %rdx
	movq	%r15, %rcx
	callq	"core::cmp::slices::RefSliceOrd::cmp::<#914af4d8504a0b72>"
	testb	%al, %al
	sete	%al
	xorb	%bl, %al
	movq	24(%rsp), %rbx
	cmovneq	16(%rsp), %rbx
2:
	movq	%rbx, %rax
	addq	$40, %rsp
	popq	%rbx
	popq	%r12
	popq	%r13
	popq	%r14
	popq	%r15
	popq	%rbp
	retq
3:
	.size	"core::slice::sort::pivot::median_of_medians::<#b4bd7111e818b46c>", 3b-"core::slice::sort::pivot::median_of_medians::<#b4bd7111e818b46c>"

	.text
	.p2align	4
	.type	"core::slice::sort::pivot::median_of_medians::<#cc3e8e382a4904f8>",@function
"core::slice::sort::pivot::median_of_medians::<#cc3e8e382a4904f8>":
	pushq	%rbp
	pushq	%r15
	pushq	%r14
	pushq	%r13
	pushq	%r12
	pushq	%rbx
	pushq	%rax
	movq	%rcx, %r15
	movq	%rdx, %r12
	movq	%rsi, %r14
	movq	%rdi, %rbx
	cmpq	$8, %r8
	jb	1f
	movq	%r8, %r13
	shrq	$3, %r13
	leaq	(%r14,%r13,4), %rdx
	andq	$-8, %r8
	subq	%r13, %r8
	leaq	(%r8,%r14), %rcx
	movq	%rbx, %rdi
	movq	%r14, %rsi
	movq	%r8, %rbp
	movq	%r13, %r8
	callq	"core::slice::sort::pivot::median_of_medians::<#cc3e8e382a4904f8>"
	movq	%rax, %r14
	leaq	(%r12,%r13,4), %rdx
	leaq	(%r12,%rbp), %rcx
	movq	%rbx, %rdi
	movq	%r12, %rsi
	movq	%r13, %r8
	callq	"core::slice::sort::pivot::median_of_medians::<#cc3e8e382a4904f8>"
	movq	%rax, %r12
	leaq	(%r15,%r13,4), %rdx
	addq	%r15, %rbp
	movq	%rbx, %rdi
	movq	%r15, %rsi
	movq	%rbp, %rcx
	movq	%r13, %r8
	callq	"core::slice::sort::pivot::median_of_medians::<#cc3e8e382a4904f8>"
	movq	%rax, %r15
1:
	leaq	(%rbx,%r14,8), %rdi
	movq	(%rbx,%r12,8), %rsi
	callq	"core::slice::sort::order::ByOrder::less::<#878f6745e8fab0b2>"
	movl	%eax, %ebp
	movq	(%rbx,%r15,8), %r13
	leaq	(%rbx,%r14,8), %rdi
	movq	%r13, %rsi
	callq	"core::slice::sort::order::ByOrder::less::<#878f6745e8fab0b2>"
	cmpb	%al, %bpl
	jne	2f
	leaq	(%rbx,%r12,8), %rdi
	movq	%r13, %rsi
	callq	"core::slice::sort::order::ByOrder::less::<#878f6745e8fab0b2>"
	xorb	%al, %bpl
	cmoveq	%r12, %r15
	movq	%r15, %r14
2:
	movq	%r14, %rax
	addq	$8, %rsp
	popq	%rbx
	popq	%r12
	popq	%r13
	popq	%r14
	popq	%r15
	popq	%rbp
	retq
3:
	.size	"core::slice::sort::pivot::median_of_medians::<#cc3e8e382a4904f8>", 3b-"core::slice::sort::pivot::median_of_medians::<#cc3e8e382a4904f8>"

	.text
	.p2align	4
	.type	"core::slice::sort::pivot::median_of_medians::<#f98e8d76978ecc20>",@function
"core::slice::sort::pivot::median_of_medians::<#f98e8d76978ecc20>":
	cmpq	$7, %r8
	ja	1f
	jmp	"core::slice::sort::pivot::median_of_three::<#f98e8d76978ecc20>"
1:
	pushq	%rbp
	pushq	%r15
	pushq	%r14
	pushq	%r13
	pushq	%r12
	pushq	%rbx
	pushq	%rax
	movq	%r8, %rbx
	shrq	$3, %rbx
	leaq	(%rsi,%rbx,4), %rax
	andq	$-8, %r8
	subq	%rbx, %r8
	leaq	(%r8,%rsi), %r9
	movq	%rdi, %r14
	movq	%rdx, %r15
	movq	%rax, %rdx
	movq	%rcx, %r12
	movq	%r9, %rcx
	movq	%r8, %r13
	movq	%rbx, %r8
	callq	"core::slice::sort::pivot::median_of_medians::<#f98e8d76978ecc20>"
	movq	%rax, %rbp
	leaq	(%r15,%rbx,4), %rdx
	leaq	(%r15,%r13), %rcx
	movq	%r14, %rdi
	movq	%r15, %rsi
	movq	%rbx, %r8
	callq	"core::slice::sort::pivot::median_of_medians::<#f98e8d76978ecc20>"
	movq	%rax, %r15
	leaq	(%r12,%rbx,4), %rdx
	addq	%r12, %r13
	movq	%r14, %rdi
	movq	%r12, %rsi
	movq	%r13, %rcx
	movq	%rbx, %r8
	callq	"core::slice::sort::pivot::median_of_medians::<#f98e8d76978ecc20>"
	movq	%r14, %rdi
	movq	%rbp, %rsi
	movq	%r15, %rdx
	movq	%rax, %rcx
	addq	$8, %rsp
	popq	%rbx
	popq	%r12
	popq	%r13
	popq	%r14
	popq	%r15
	popq	%rbp
	jmp	"core::slice::sort::pivot::median_of_three::<#f98e8d76978ecc20>"
2:
	.size	"core::slice::sort::pivot::median_of_medians::<#f98e8d76978ecc20>", 2b-"core::slice::sort::pivot::median_of_medians::<#f98e8d76978ecc20>"

	.text
	.p2align	4
	.type	"core::slice::sort::pivot::median_of_three::<#32fabb223415b920>",@function
"core::slice::sort::pivot::median_of_three::<#32fabb223415b920>":
	pushq	%rbp
	pushq	%r15
	pushq	%r14
	pushq	%r13
	pushq	%r12
	pushq	%rbx
	subq	$40, %rsp
	movq	%rcx, %r14
	movq	%rdi, %r15
	movq	%rsi, 32(%rsp)
	leaq	(,%rsi,8), %rax
	leaq	(%rax,%rax,4), %rbx
	movq	%rdx, 24(%rsp)
	leaq	(,%rdx,8), %rax
	leaq	(%rax,%rax,4), %rcx
	movq	(%rdi,%rbx), %rbp
	movq	(%rdi,%rcx), %rax
	movq	%rbp, %r13
	bswapq	%r13
	cmpq	%rax, %rbp
	movq	%rax, 8(%rsp)
	movq	%rcx, (%rsp)
	jne	1f
	movq	8(%r15,%rbx), %rdi
	movq	16(%r15,%rbx), %rsi
	movq	8(%r15,%rcx), %rdx
	movq	16(%r15,%rcx), %rcx
	callq	"core::cmp::slices::RefSliceOrd::cmp::<#914af4d8504a0b72>"
	testb	%al, %al
	sete	%cl
	jmp	2f
1:
	bswapq	%rax
	cmpq	%rax, %r13
	setb	%cl
2:
	movq	%r14, 16(%rsp)
	leaq	(,%r14,8), %rax
	leaq	(%rax,%rax,4), %r14
	movq	(%r15,%r14), %r12
	cmpq	%r12, %rbp
	jne	3f
	movq	8(%r15,%rbx), %rdi
	movq	16(%r15,%rbx), %rsi
	movq	8(%r15,%r14), %rdx
	movl	%ecx, %ebx
	movq	16(%r15,%r14), %rcx
	callq	"core::cmp::slices::RefSliceOrd::cmp::<#914af4d8504a0b72>"
	movl	%ebx, %ecx
	testb	%al, %al
	sete	%al
	cmpb	%al, %cl
	movq	32(%rsp), %rax
	je	4f
	jmp	7f
3:
	movq	%r12, %rax
	bswapq	%rax
	cmpq	%rax, %r13
	setb	%al
	cmpb	%al, %cl
	movq	32(%rsp), %rax
	jne	7f
4:
	movq	8(%rsp), %rax
	cmpq	%r12, %rax
	jne	5f
	movq	(%rsp), %rax
	movq	8(%r15,%rax), %rdi
	movq	16(%r15,%rax), %rsi
	movq	8(%r15,%r14), %rdx
	movl	%ecx, %ebx
	movq	16(%r15,%r14), %rcx
	callq	"core::cmp::slices::RefSliceOrd::cmp::<#914af4d8504a0b72>"
	movl	%ebx, %ecx
	testb	%al, %al
	sete	%al
	jmp	6f
5:
	bswapq	%r12
	bswapq	%rax
	cmpq	%r12, %rax
	setb	%al
6:
	xorb	%al, %cl
	movq	24(%rsp), %rax
	cmovneq	16(%rsp), %rax
7:
	addq	$40, %rsp
	popq	%rbx
	popq	%r12
	popq	%r13
	popq	%r14
	popq	%r15
	popq	%rbp
	retq
8:
	.size	"core::slice::sort::pivot::median_of_three::<#32fabb223415b920>", 8b-"core::slice::sort::pivot::median_of_three::<#32fabb223415b920>"

	.text
	.p2align	4
	.type	"core::slice::sort::pivot::median_of_three::<#f98e8d76978ecc20>",@function
"core::slice::sort::pivot::median_of_three::<#f98e8d76978ecc20>":
	pushq	%rbp
	pushq	%r15
	pushq	%r14
	pushq	%r13
	pushq	%r12
	pushq	%rbx
	subq	$40, %rsp
	movq	%rcx, %rbp
	movq	%rdi, %r14
	movq	%rsi, 32(%rsp)
	movq	%rsi, %rax
	shlq	$5, %rax
	movq	%rdx, 24(%rsp)
	movq	%rdx, %rcx
	shlq	$5, %rcx
	movq	(%rdi,%rax), %rbx
	movq	8(%rdi,%rax), %r13
	movq	(%rdi,%rcx), %r15
	movq	8(%rdi,%rcx), %r12
	cmpq	%r13, %r12
	movq	%r13, %rax
	cmovbq	%r12, %rax
	cmpq	$24, %rax
	movl	$24, %ecx
	cmovbq	%rax, %rcx
	cmpq	$8, %rax
	jb	2f
	xorl	%eax, %eax
	.p2align	4
1:
	movq	(%rbx,%rax), %rdx
	movq	(%r15,%rax), %rsi
	cmpq	%rsi, %rdx
	jne	4f
	addq	$8, %rax
	addq	$-8, %rcx
	cmpq	$7, %rcx
	ja	1b
	jmp	3f
2:
	xorl	%eax, %eax
3:
	leaq	(%rbx,%rax), %rdi
	movq	%r13, %rsi
	subq	%rax, %rsi
	leaq	(%r15,%rax), %rdx
	movq	%r12, %rcx
	subq	%rax, %rcx
	callq	"core::cmp::slices::RefSliceOrd::cmp::<#914af4d8504a0b72>"
	testb	%al, %al
	sete	15(%rsp)
	jmp	5f
4:
	bswapq	%rsi
	bswapq	%rdx
	cmpq	%rsi, %rdx
	setb	15(%rsp)
5:
	movq	%rbp, 16(%rsp)
	movq	%rbp, %rax
	shlq	$5, %rax
	movq	(%r14,%rax), %rbp
	movq	8(%r14,%rax), %r14
	cmpq	%r13, %r14
	movq	%r13, %rax
	cmovbq	%r14, %rax
	cmpq	$24, %rax
	movl	$24, %ecx
	cmovbq	%rax, %rcx
	cmpq	$8, %rax
	jb	7f
	xorl	%eax, %eax
	.p2align	4
6:
	movq	(%rbx,%rax), %rdx
	movq	(%rbp,%rax), %rsi
	cmpq	%rsi, %rdx
	jne	9f
	addq	$8, %rax
	addq	$-8, %rcx
	cmpq	$7, %rcx
	ja	6b
	jmp	8f
7:
	xorl	%eax, %eax
8:
	addq	%rax, %rbx
	subq	%rax, %r13
	leaq	(%rax,%rbp), %rdx
	movq	%r14, %rcx
	subq	%rax, %rcx
	movq	%rbx, %rdi
	movq	%r13, %rsi
	callq	"core::cmp::slices::RefSliceOrd::cmp::<#914af4d8504a0b72>"
	testb	%al, %al
	sete	%al
	movzbl	15(%rsp), %ebx
	cmpb	%al, %bl
	movq	32(%rsp), %rax
	je	10f
	jmp	16f
9:
	bswapq	%rsi
	bswapq	%rdx
	cmpq	%rsi, %rdx
	setb	%al
	movzbl	15(%rsp), %ebx
	cmpb	%al, %bl
	movq	32(%rsp), %rax
	jne	16f
10:
	cmpq	%r12, %r14
	movq	%r12, %rax
	cmovbq	%r14, %rax
	cmpq	$24, %rax
	movl	$24, %ecx
	cmovbq	%rax, %rcx
	cmpq	$8, %rax
	jb	12f
	xorl	%eax, %eax
	.p2align	4
11:
	movq	(%r15,%rax), %rdx
	movq	(%rbp,%rax), %rsi
	cmpq	%rsi, %rdx
	jne	14f
	addq	$8, %rax
	addq	$-8, %rcx
	cmpq	$7, %rcx
	ja	11b
	jmp	13f
12:
	xorl	%eax, %eax
13:
	addq	%rax, %r15
	subq	%rax, %r12
	addq	%rax, %rbp
	subq	%rax, %r14
	movq	%r15, %rdi
	movq	%r12, %rsi
	movq	%rbp, %rdx
	movq	%r14, %rcx
	callq	"core::cmp::slices::RefSliceOrd::cmp::<#914af4d8504a0b72>"
	testb	%al, %al
	sete	%al
	jmp	15f
14:
	bswapq	%rsi
	bswapq	%rdx
	cmpq	%rsi, %rdx
	setb	%al
15:
	xorb	%al, %bl
	movq	24(%rsp), %rax
	cmovneq	16(%rsp), %rax
16:
	addq	$40, %rsp
	popq	%rbx
	popq	%r12
	popq	%r13
	popq	%r14
	popq	%r15
	popq	%rbp
	retq
17:
	.size	"core::slice::sort::pivot::median_of_three::<#f98e8d76978ecc20>", 17b-"core::slice::sort::pivot::median_of_three::<#f98e8d76978ecc20>"

	.text
	.p2align	4
	.type	"core::slice::sort::pivot::run_from::<#32fabb223415b920>",@function
"core::slice::sort::pivot::run_from::<#32fabb223415b920>":
	pushq	%rbp
	pushq	%r15
	pushq	%r14
	pushq	%r12
	pushq	%rbx
	movq	%rdx, %r12
	movq	%rsi, %r14
	movq	%rdi, %r15
	leaq	2(%rdx), %rbx
	leaq	(,%rdx,8), %rax
	leaq	(%rax,%rax,4), %rax
	movq	(%rdi,%rax), %rcx
	movq	40(%rdi,%rax), %rdx
	cmpq	%rcx, %rdx
	jne	6f
	movq	48(%r15,%rax), %rdi
	movq	56(%r15,%rax), %rsi
	movq	8(%r15,%rax), %rdx
	movq	16(%r15,%rax), %rcx
	callq	"core::cmp::slices::RefSliceOrd::cmp::<#914af4d8504a0b72>"
	testb	%al, %al
	je	7f
1:
	cmpq	%r14, %rbx
	jae	5f
	leaq	(%r12,%r12,4), %rax
	leaq	(%r15,%rax,8), %r15
	addq	$96, %r15
	jmp	4f
	.p2align	4
2:
	bswapq	%rax
	bswapq	%rcx
	cmpq	%rax, %rcx
	jb	5f
3:
	incq	%rbx
	addq	$40, %r15
	cmpq	%rbx, %r14
	je	11f
4:
	movq	-56(%r15), %rax
	movq	-16(%r15), %rcx
	cmpq	%rax, %rcx
	jne	2b
	movq	-8(%r15), %rdi
	movq	(%r15), %rsi
	movq	-48(%r15), %rdx
	movq	-40(%r15), %rcx
	callq	"core::cmp::slices::RefSliceOrd::cmp::<#914af4d8504a0b72>"
	testb	%al, %al
	jne	3b
5:
	xorl	%ebp, %ebp
	jmp	13f
6:
	bswapq	%rcx
	bswapq	%rdx
	cmpq	%rcx, %rdx
	jae	1b
7:
	movb	$1, %bpl
	cmpq	%r14, %rbx
	jae	13f
	leaq	(%r12,%r12,4), %rax
	leaq	(%r15,%rax,8), %r15
	addq	$96, %r15
	jmp	10f
	.p2align	4
8:
	movq	-8(%r15), %rdi
	movq	(%r15), %rsi
	movq	-48(%r15), %rdx
	movq	-40(%r15), %rcx
	callq	"core::cmp::slices::RefSliceOrd::cmp::<#914af4d8504a0b72>"
	testb	%al, %al
	jne	13f
9:
	incq	%rbx
	addq	$40, %r15
	cmpq	%rbx, %r14
	je	12f
10:
	movq	-56(%r15), %rax
	movq	-16(%r15), %rcx
	cmpq	%rax, %rcx
	je	8b
	bswapq	%rax
	bswapq	%rcx
	cmpq	%rax, %rcx
	jb	9b
	jmp	13f
11:
	xorl	%ebp, %ebp
12:
	movq	%r14, %rbx
13:
	movq	%rbx, %rax
	movl	%ebp, %edx
	popq	%rbx
	popq	%r12
	popq	%r14
	popq	%r15
	popq	%rbp
	retq
14:
	.size	"core::slice::sort::pivot::run_from::<#32fabb223415b920>", 14b-"core::slice::sort::pivot::run_from::<#32fabb223415b920>"

	.text
	.p2align	4
	.type	"core::slice::sort::pivot::run_from::<#b4bd7111e818b46c>",@function
"core::slice::sort::pivot::run_from::<#b4bd7111e818b46c>":
	pushq	%r15
	pushq	%r14
	pushq	%r12
	pushq	%rbx
	pushq	%rax
	movq	%rdx, %r15
	movq	%rsi, %r14
	movq	%rdi, %r12
	leaq	2(%rdx), %rbx
	shlq	$5, %r15
	movq	32(%rdi,%r15), %rdi
	movq	40(%r12,%r15), %rsi
	movq	(%r12,%r15), %rdx
	movq	8(%r12,%r15), %rcx
	callq	"core::cmp::slices::RefSliceOrd::cmp::<#914af4d8504a0b72>"
	testb	%al, %al
	je	3f
	cmpq	%r14, %rbx
	jae	2f
	addq	%r12, %r15
	addq	$72, %r15
	.p2align	4
1:
	movq	-8(%r15), %rdi
	movq	(%r15), %rsi
	movq	-40(%r15), %rdx
	movq	-32(%r15), %rcx
	callq	"core::cmp::slices::RefSliceOrd::cmp::<#914af4d8504a0b72>"
	testb	%al, %al
	je	2f
	incq	%rbx
	addq	$32, %r15
	cmpq	%rbx, %r14
	jne	1b
	xorl	%edx, %edx
	movq	%r14, %rbx
	jmp	6f
2:
	xorl	%edx, %edx
	jmp	6f
3:
	movb	$1, %dl
	cmpq	%r14, %rbx
	jae	6f
	addq	%r12, %r15
	addq	$72, %r15
	.p2align	4
4:
	movq	-8(%r15), %rdi
	movq	(%r15), %rsi
	movq	-40(%r15), %rdx
	movq	-32(%r15), %rcx
	callq	"core::cmp::slices::RefSliceOrd::cmp::<#914af4d8504a0b72>"
	testb	%al, %al
	jne	5f
	incq	%rbx
	addq	$32, %r15
	cmpq	%rbx, %r14
	jne	4b
	movq	%r14, %rbx
5:
	movb	$1, %dl
6:
	movq	%rbx, %rax
	addq	$8, %rsp
	popq	%rbx
	popq	%r12
	popq	%r14
	popq	%r15
	retq
7:
	.size	"core::slice::sort::pivot::run_from::<#b4bd7111e818b46c>", 7b-"core::slice::sort::pivot::run_from::<#b4bd7111e818b46c>"

	.text
	.p2align	4
	.type	"core::slice::sort::pivot::run_from::<#f98e8d76978ecc20>",@function
"core::slice::sort::pivot::run_from::<#f98e8d76978ecc20>":
	pushq	%rbp
	pushq	%r15
	pushq	%r14
	pushq	%rbx
	pushq	%rax
	movq	%rdx, %rax
	movq	%rsi, %r14
	movq	%rdi, %r15
	leaq	2(%rdx), %rbx
	shlq	$5, %rax
	movq	32(%rdi,%rax), %rdi
	movq	40(%r15,%rax), %rsi
	movq	(%r15,%rax), %rdx
	movq	8(%r15,%rax), %rcx
	cmpq	%rsi, %rcx
	movq	%rsi, %rax
	cmovbq	%rcx, %rax
	cmpq	$24, %rax
	movl	$24, %r8d
	cmovbq	%rax, %r8
	cmpq	$8, %rax
	jb	2f
	xorl	%eax, %eax
	.p2align	4
1:
	movq	(%rdi,%rax), %r9
	movq	(%rdx,%rax), %r10
	cmpq	%r10, %r9
	jne	12f
	addq	$8, %rax
	addq	$-8, %r8
	cmpq	$7, %r8
	ja	1b
	jmp	3f
2:
	xorl	%eax, %eax
3:
	addq	%rax, %rdi
	subq	%rax, %rsi
	addq	%rax, %rdx
	subq	%rax, %rcx
	callq	"core::cmp::slices::RefSliceOrd::cmp::<#914af4d8504a0b72>"
	testb	%al, %al
	je	13f
4:
	cmpq	%r14, %rbx
	jb	7f
	jmp	11f
	.p2align	4
5:
	bswapq	%r10
	bswapq	%r9
	cmpq	%r10, %r9
	jb	11f
6:
	incq	%rbx
	cmpq	%r14, %rbx
	je	20f
7:
	movq	%rbx, %rax
	shlq	$5, %rax
	movq	(%r15,%rax), %rdi
	movq	8(%r15,%rax), %rsi
	movq	-32(%r15,%rax), %rdx
	movq	-24(%r15,%rax), %rcx
	cmpq	%rsi, %rcx
	movq	%rsi, %rax
	cmovbq	%rcx, %rax
	cmpq	$24, %rax
	movl	$24, %r8d
	cmovbq	%rax, %r8
	cmpq	$8, %rax
	jb	9f
	xorl	%eax, %eax
	.p2align	4
8:
	movq	(%rdi,%rax), %r9
	movq	(%rdx,%rax), %r10
	cmpq	%r10, %r9
	jne	5b
	addq	$8, %rax
	addq	$-8, %r8
	cmpq	$7, %r8
	ja	8b
	jmp	10f
	.p2align	4
9:
	xorl	%eax, %eax
10:
	addq	%rax, %rdi
	subq	%rax, %rsi
	addq	%rax, %rdx
	subq	%rax, %rcx
	callq	"core::cmp::slices::RefSliceOrd::cmp::<#914af4d8504a0b72>"
	testb	%al, %al
	jne	6b
11:
	xorl	%ebp, %ebp
	jmp	22f
12:
	bswapq	%r10
	bswapq	%r9
	cmpq	%r10, %r9
	jae	4b
13:
	movb	$1, %bpl
	cmpq	%r14, %rbx
	jb	16f
	jmp	22f
	.p2align	4
14:
	bswapq	%r10
	bswapq	%r9
	cmpq	%r10, %r9
	jae	22f
15:
	incq	%rbx
	cmpq	%r14, %rbx
	je	21f
16:
	movq	%rbx, %rax
	shlq	$5, %rax
	movq	(%r15,%rax), %rdi
	movq	8(%r15,%rax), %rsi
	movq	-32(%r15,%rax), %rdx
	movq	-24(%r15,%rax), %rcx
	cmpq	%rsi, %rcx
	movq	%rsi, %rax
	cmovbq	%rcx, %rax
	cmpq	$24, %rax
	movl	$24, %r8d
	cmovbq	%rax, %r8
	cmpq	$8, %rax
	jb	18f
	xorl	%eax, %eax
	.p2align	4
17:
	movq	(%rdi,%rax), %r9
	movq	(%rdx,%rax), %r10
	cmpq	%r10, %r9
	jne	14b
	addq	$8, %rax
	addq	$-8, %r8
	cmpq	$7, %r8
	ja	17b
	jmp	19f
	.p2align	4
18:
	xorl	%eax, %eax
19:
	addq	%rax, %rdi
	subq	%rax, %rsi
	addq	%rax, %rdx
	subq	%rax, %rcx
	callq	"core::cmp::slices::RefSliceOrd::cmp::<#914af4d8504a0b72>"
	testb	%al, %al
	je	15b
	jmp	22f
20:
	xorl	%ebp, %ebp
21:
	movq	%r14, %rbx
22:
	movq	%rbx, %rax
	movl	%ebp, %edx
	addq	$8, %rsp
	popq	%rbx
	popq	%r14
	popq	%r15
	popq	%rbp
	retq
23:
	.size	"core::slice::sort::pivot::run_from::<#f98e8d76978ecc20>", 23b-"core::slice::sort::pivot::run_from::<#f98e8d76978ecc20>"

	.text
	.p2align	4
	.type	"core::slice::sort::runs::climb::<#12eb916b83b0f891>",@function
"core::slice::sort::runs::climb::<#12eb916b83b0f891>":
	pushq	%rbp
	pushq	%r15
	pushq	%r14
	pushq	%r13
	pushq	%r12
	pushq	%rbx
	subq	$104, %rsp
	movl	%r9d, %ebp
	movq	%r8, %rbx
	movq	%rsi, 32(%rsp)
	movq	$0, 72(%rsp)
	movq	%rdx, %rax
	subq	%r8, %rax
	jne	1f
	movq	%rbx, (%rdi)
	movb	%bpl, 8(%rdi)
	movl	$0, 9(%rdi)
	movl	$0, 12(%rdi)
	movq	%rbx, 16(%rdi)
	movb	%bpl, 24(%rdi)
	movq	$0, 25(%rdi)
	movq	$0, 32(%rdi)
	jmp	24f
1:
	movq	%rdx, %r12
	movq	%rcx, 80(%rsp)
	movq	%rdi, 96(%rsp)
	xorl	%r13d, %r13d
	movq	%rdx, %r15
	movl	$0, %r14d
	cmpq	168(%rsp), %rax
	jb	15f
	leaq	2(%rbx), %r15
	movq	32(%rsp), %rax
	leaq	(%rax,%rbx,8), %rdi
	movl	(%rax,%rbx,8), %ecx
	movl	8(%rax,%rbx,8), %edx
	cmpl	%edx, %ecx
	jae	3f
	cmpq	%r12, %r15
	jae	7f
	.p2align	4
2:
	movq	32(%rsp), %rsi
	movl	-8(%rsi,%r15,8), %eax
	cmpl	(%rsi,%r15,8), %eax
	jae	6f
	incq	%r15
	cmpq	%r15, %r12
	jne	2b
	jmp	5f
3:
	cmpq	%r12, %r15
	jae	12f
	.p2align	4
4:
	movq	32(%rsp), %rsi
	movl	-8(%rsi,%r15,8), %eax
	cmpl	(%rsi,%r15,8), %eax
	jb	6f
	incq	%r15
	cmpq	%r15, %r12
	jne	4b
5:
	movq	%r12, %r15
6:
	movq	%r15, %rax
	subq	%rbx, %rax
	cmpq	168(%rsp), %rax
	jb	13f
	movb	$1, %r14b
	cmpl	%edx, %ecx
	jae	15f
	cmpq	$15, %rax
	jbe	25f
	movq	%rax, %rcx
	shrq	%rcx
	subq	%rcx, %rax
	leaq	(%rdi,%rax,8), %rdx
	xorl	%esi, %esi
	callq	"core::slice::edits::mirror::<14'(,)::<i32,i32>>"
	jmp	15f
7:
	movl	$2, %eax
	cmpq	$2, 168(%rsp)
	ja	13f
8:
	leaq	-2(%rax), %rcx
	shrq	%rcx
	incq	%rcx
	decq	%rax
	xorl	%edx, %edx
	jmp	11f
	.p2align	4
9:
	movq	(%rdi,%rdx,8), %rsi
	movq	(%rdi,%rax,8), %r8
	movq	%r8, (%rdi,%rdx,8)
	movq	%rsi, (%rdi,%rax,8)
10:
	incq	%rdx
	decq	%rax
	cmpq	%rdx, %rcx
	je	14f
11:
	cmpq	%rax, %rdx
	jb	9b
	jbe	10b
	movq	(%rdi,%rax,8), %rsi
	movq	(%rdi,%rdx,8), %r8
	movq	%r8, (%rdi,%rax,8)
	movq	%rsi, (%rdi,%rdx,8)
	jmp	10b
12:
	movb	$1, %r14b
	cmpq	$3, 168(%rsp)
	jb	15f
13:
	movq	168(%rsp), %rax
	leaq	(%rax,%rbx), %r15
	xorl	%r14d, %r14d
	jmp	15f
14:
	movb	$1, %r14b
15:
	movq	80(%rsp), %rsi
	leaq	(%rbx,%rsi), %rax
	movq	176(%rsp), %rdx
	imulq	%rdx, %rax
	leaq	(%r15,%rbx), %rcx
	imulq	%rdx, %rcx
	xorq	%rax, %rcx
	movl	$127, %edx
	bsrq	%rcx, %rdx
	xorl	$63, %edx
	leal	1(%rdx), %eax
	movq	%rbx, 40(%rsp)
	movb	%bpl, 48(%rsp)
	movl	$0, 49(%rsp)
	movl	$0, 52(%rsp)
	movq	%r15, 56(%rsp)
	movb	%r14b, 64(%rsp)
	movl	$0, 65(%rsp)
	movl	$0, 68(%rsp)
	movl	%eax, 72(%rsp)
	cmpl	%edx, 160(%rsp)
	ja	23f
	movq	32(%rsp), %rcx
	leaq	(%rcx,%rsi,8), %rcx
	movq	%rcx, 88(%rsp)
	movq	%rsi, %r15
	jmp	18f
	.p2align	4
16:
	movl	%r12d, %ebp
	movq	%r13, %r12
17:
	movb	%bpl, 48(%rsp)
	leaq	49(%rsp), %rax
	movl	$0, 3(%rax)
	movl	$0, (%rax)
	movl	72(%rsp), %eax
	cmpl	%eax, 160(%rsp)
	jae	22f
18:
	movq	%rbx, %r14
	movq	56(%rsp), %r8
	movl	64(%rsp), %r9d
	movq	184(%rsp), %rcx
	movq	%rcx, 24(%rsp)
	movq	176(%rsp), %rcx
	movq	%rcx, 16(%rsp)
	movq	168(%rsp), %rcx
	movq	%rcx, 8(%rsp)
	movl	%eax, (%rsp)
	leaq	40(%rsp), %rdi
	movq	32(%rsp), %rsi
	movq	%r12, %r13
	movq	%r12, %rdx
	movq	%rbx, %rcx
	callq	"core::slice::sort::runs::climb::<#12eb916b83b0f891>"
	movq	40(%rsp), %rbx
	movzbl	48(%rsp), %r12d
	movl	%r12d, %eax
	orb	%bpl, %al
	testb	$1, %al
	je	16b
	testb	$1, %bpl
	jne	19f
	movq	%r14, %rdx
	subq	%r15, %rdx
	movl	$127, %eax
	bsrq	%rdx, %rax
	xorl	$63, %eax
	addl	%eax, %eax
	movl	$126, %ecx
	subl	%eax, %ecx
	movq	88(%rsp), %rdi
	movq	%rdx, %rsi
	movq	184(%rsp), %r8
	callq	"core::slice::sort::stable::quicksort::<#12eb916b83b0f891>"
19:
	leaq	(,%r14,8), %r15
	testb	$1, %r12b
	jne	20f
	movq	32(%rsp), %rax
	leaq	(%rax,%r15), %rdi
	movq	%rbx, %rdx
	subq	%r14, %rdx
	movl	$127, %eax
	bsrq	%rdx, %rax
	xorl	$63, %eax
	addl	%eax, %eax
	movl	$126, %ecx
	subl	%eax, %ecx
	movq	%rdx, %rsi
	movq	184(%rsp), %r8
	callq	"core::slice::sort::stable::quicksort::<#12eb916b83b0f891>"
20:
	movq	32(%rsp), %rcx
	movl	-8(%rcx,%r15), %eax
	movb	$1, %bpl
	cmpl	(%rcx,%r15), %eax
	movq	%r13, %r12
	jae	21f
	movq	%rbx, %rsi
	movq	80(%rsp), %r15
	subq	%r15, %rsi
	subq	%r15, %r14
	movq	88(%rsp), %rdi
	movq	%r14, %rdx
	movq	184(%rsp), %rcx
	callq	"core::slice::sort::merge::merge::<#12eb916b83b0f891>"
	jmp	17b
	.p2align	4
21:
	movq	80(%rsp), %r15
	jmp	17b
22:
	movq	56(%rsp), %r15
	movzbl	64(%rsp), %r14d
	movl	76(%rsp), %r13d
23:
	movq	96(%rsp), %rsi
	movq	%rbx, (%rsi)
	movb	%bpl, 8(%rsi)
	leaq	49(%rsp), %rdi
	movl	(%rdi), %ecx
	movl	3(%rdi), %edx
	movl	%ecx, 9(%rsi)
	movl	%edx, 12(%rsi)
	movq	%r15, 16(%rsi)
	movb	%r14b, 24(%rsi)
	movl	16(%rdi), %ecx
	movl	19(%rdi), %edx
	movl	%ecx, 25(%rsi)
	movl	%edx, 28(%rsi)
	movl	%eax, 32(%rsi)
	movl	%r13d, 36(%rsi)
24:
	addq	$104, %rsp
	popq	%rbx
	popq	%r12
	popq	%r13
	popq	%r14
	popq	%r15
	popq	%rbp
	retq
25:
	cmpq	$2, %rax
	jae	8b
	jmp	15b
26:
	.size	"core::slice::sort::runs::climb::<#12eb916b83b0f891>", 26b-"core::slice::sort::runs::climb::<#12eb916b83b0f891>"

	.text
	.p2align	4
	.type	"core::slice::sort::runs::climb::<#196989f31ad14034>",@function
"core::slice::sort::runs::climb::<#196989f31ad14034>":
	pushq	%rbp
	pushq	%r15
	pushq	%r14
	pushq	%r13
	pushq	%r12
	pushq	%rbx
	subq	$104, %rsp
	movl	%r9d, %ebp
	movq	%r8, %rbx
	movq	$0, 72(%rsp)
	movq	%rdx, %rax
	subq	%r8, %rax
	jne	1f
	movq	%rbx, (%rdi)
	movb	%bpl, 8(%rdi)
	movl	$0, 9(%rdi)
	movl	$0, 12(%rdi)
	movq	%rbx, 16(%rdi)
	movb	%bpl, 24(%rdi)
	movq	$0, 25(%rdi)
	movq	$0, 32(%rdi)
	jmp	23f
1:
	movq	%rdx, %r12
	movq	%rsi, %r13
	movq	%rcx, 80(%rsp)
	movq	%rdi, 96(%rsp)
	xorl	%r9d, %r9d
	movq	%rdx, %r15
	movl	$0, %r14d
	cmpq	168(%rsp), %rax
	jb	15f
	leaq	2(%rbx), %r15
	leaq	(,%rbx,8), %rdi
	addq	%r13, %rdi
	movq	(%r13,%rbx,8), %rax
	movq	8(%r13,%rbx,8), %rcx
	movl	56(%rcx), %ecx
	movl	56(%rax), %edx
	cmpl	%ecx, %edx
	jae	3f
	cmpq	%r12, %r15
	jae	7f
	.p2align	4
2:
	movq	-8(%r13,%r15,8), %rax
	movq	(%r13,%r15,8), %rsi
	movl	56(%rax), %eax
	cmpl	56(%rsi), %eax
	jae	6f
	incq	%r15
	cmpq	%r15, %r12
	jne	2b
	jmp	5f
3:
	cmpq	%r12, %r15
	jae	12f
	.p2align	4
4:
	movq	-8(%r13,%r15,8), %rax
	movq	(%r13,%r15,8), %rsi
	movl	56(%rax), %eax
	cmpl	56(%rsi), %eax
	jb	6f
	incq	%r15
	cmpq	%r15, %r12
	jne	4b
5:
	movq	%r12, %r15
6:
	movq	%r15, %rax
	subq	%rbx, %rax
	cmpq	168(%rsp), %rax
	jb	13f
	movb	$1, %r14b
	cmpl	%ecx, %edx
	jae	15f
	cmpq	$15, %rax
	jbe	24f
	movq	%rax, %rdx
	shrq	%rdx
	subq	%rdx, %rax
	leaq	(%rdi,%rax,8), %rsi
	callq	"core::slice::edits::mirror::<*>"
	xorl	%r9d, %r9d
	jmp	15f
7:
	movl	$2, %eax
	cmpq	$2, 168(%rsp)
	ja	13f
8:
	leaq	-2(%rax), %rcx
	shrq	%rcx
	incq	%rcx
	decq	%rax
	xorl	%edx, %edx
	jmp	11f
	.p2align	4
9:
	movq	(%rdi,%rdx,8), %rsi
	movq	(%rdi,%rax,8), %r8
	movq	%r8, (%rdi,%rdx,8)
	movq	%rsi, (%rdi,%rax,8)
10:
	incq	%rdx
	decq	%rax
	cmpq	%rdx, %rcx
	je	14f
11:
	cmpq	%rax, %rdx
	jb	9b
	jbe	10b
	movq	(%rdi,%rax,8), %rsi
	movq	(%rdi,%rdx,8), %r8
	movq	%r8, (%rdi,%rax,8)
	movq	%rsi, (%rdi,%rdx,8)
	jmp	10b
12:
	movb	$1, %r14b
	cmpq	$3, 168(%rsp)
	jb	15f
13:
	movq	168(%rsp), %rax
	leaq	(%rax,%rbx), %r15
	xorl	%r14d, %r14d
	jmp	15f
14:
	movb	$1, %r14b
15:
	movq	80(%rsp), %rsi
	leaq	(%rbx,%rsi), %rax
	movq	176(%rsp), %rdx
	imulq	%rdx, %rax
	leaq	(%r15,%rbx), %rcx
	imulq	%rdx, %rcx
	xorq	%rax, %rcx
	movl	$127, %edx
	bsrq	%rcx, %rdx
	xorl	$63, %edx
	leal	1(%rdx), %eax
	movq	%rbx, 40(%rsp)
	movb	%bpl, 48(%rsp)
	movl	$0, 49(%rsp)
	movl	$0, 52(%rsp)
	movq	%r15, 56(%rsp)
	movb	%r14b, 64(%rsp)
	movl	$0, 65(%rsp)
	movl	$0, 68(%rsp)
	movl	%eax, 72(%rsp)
	cmpl	%edx, 160(%rsp)
	ja	22f
	leaq	(,%rsi,8), %rcx
	addq	%r13, %rcx
	movq	%rcx, 88(%rsp)
	jmp	18f
	.p2align	4
16:
	movl	%r12d, %ebp
	movq	%r15, %r12
17:
	movb	%bpl, 48(%rsp)
	leaq	49(%rsp), %rax
	movl	$0, 3(%rax)
	movl	$0, (%rax)
	movl	72(%rsp), %eax
	cmpl	%eax, 160(%rsp)
	jae	21f
18:
	movq	%rbx, %r14
	movq	56(%rsp), %r8
	movl	64(%rsp), %r9d
	movq	184(%rsp), %rcx
	movq	%rcx, 24(%rsp)
	movq	176(%rsp), %rcx
	movq	%rcx, 16(%rsp)
	movq	168(%rsp), %rcx
	movq	%rcx, 8(%rsp)
	movl	%eax, (%rsp)
	leaq	40(%rsp), %rdi
	movq	%r13, %rsi
	movq	%r12, %r15
	movq	%r12, %rdx
	movq	%rbx, %rcx
	callq	"core::slice::sort::runs::climb::<#196989f31ad14034>"
	movq	40(%rsp), %rbx
	movzbl	48(%rsp), %r12d
	movl	%r12d, %eax
	orb	%bpl, %al
	testb	$1, %al
	je	16b
	testb	$1, %bpl
	jne	19f
	movq	%r14, %rdx
	subq	80(%rsp), %rdx
	movl	$127, %eax
	bsrq	%rdx, %rax
	xorl	$63, %eax
	addl	%eax, %eax
	movl	$126, %ecx
	subl	%eax, %ecx
	movq	88(%rsp), %rdi
	movq	%rdx, %rsi
	movq	184(%rsp), %r8
	callq	"core::slice::sort::stable::quicksort::<#196989f31ad14034>"
19:
	leaq	(,%r14,8), %rbp
	testb	$1, %r12b
	jne	20f
	movq	%r13, %rdi
	addq	%rbp, %rdi
	movq	%rbx, %rdx
	subq	%r14, %rdx
	movl	$127, %eax
	bsrq	%rdx, %rax
	xorl	$63, %eax
	addl	%eax, %eax
	movl	$126, %ecx
	subl	%eax, %ecx
	movq	%rdx, %rsi
	movq	184(%rsp), %r8
	callq	"core::slice::sort::stable::quicksort::<#196989f31ad14034>"
20:
	movq	-8(%r13,%rbp), %rax
	movq	(%r13,%rbp), %rcx
	movl	56(%rax), %eax
	movb	$1, %bpl
	cmpl	56(%rcx), %eax
	movq	%r15, %r12
	jae	17b
	movq	%rbx, %rsi
	movq	80(%rsp), %rax
	subq	%rax, %rsi
	subq	%rax, %r14
	movq	88(%rsp), %rdi
	movq	%r14, %rdx
	movq	184(%rsp), %rcx
	callq	"core::slice::sort::merge::merge::<#196989f31ad14034>"
	jmp	17b
21:
	movq	56(%rsp), %r15
	movzbl	64(%rsp), %r14d
	movl	76(%rsp), %r9d
22:
	movq	96(%rsp), %rsi
	movq	%rbx, (%rsi)
	movb	%bpl, 8(%rsi)
	leaq	49(%rsp), %rdi
	movl	(%rdi), %ecx
	movl	3(%rdi), %edx
	movl	%ecx, 9(%rsi)
	movl	%edx, 12(%rsi)
	movq	%r15, 16(%rsi)
	movb	%r14b, 24(%rsi)
	movl	16(%rdi), %ecx
	movl	19(%rdi), %edx
	movl	%ecx, 25(%rsi)
	movl	%edx, 28(%rsi)
	movl	%eax, 32(%rsi)
	movl	%r9d, 36(%rsi)
23:
	addq	$104, %rsp
	popq	%rbx
	popq	%r12
	popq	%r13
	popq	%r14
	popq	%r15
	popq	%rbp
	retq
24:
	cmpq	$2, %rax
	jae	8b
	jmp	15b
25:
	.size	"core::slice::sort::runs::climb::<#196989f31ad14034>", 25b-"core::slice::sort::runs::climb::<#196989f31ad14034>"

	.text
	.p2align	4
	.type	"core::slice::sort::runs::climb::<#24df1801f4a811cc>",@function
"core::slice::sort::runs::climb::<#24df1801f4a811cc>":
	pushq	%rbp
	pushq	%r15
	pushq	%r14
	pushq	%r13
	pushq	%r12
	pushq	%rbx
	subq	$168, %rsp
	movl	%r9d, %ebp
	movq	%r8, %r12
	movq	%rsi, 32(%rsp)
	movq	$0, 80(%rsp)
	movq	%rdx, %rax
	subq	%r8, %rax
	jne	1f
	movq	%r12, (%rdi)
	movb	%bpl, 8(%rdi)
	movl	$0, 9(%rdi)
	movl	$0, 12(%rdi)
	movq	%r12, 16(%rdi)
	movb	%bpl, 24(%rdi)
	movq	$0, 25(%rdi)
	movq	$0, 32(%rdi)
	jmp	25f
1:
	movq	%rcx, %rbx
	movq	%rdi, 160(%rsp)
	xorl	%r13d, %r13d
	movq	%rdx, 40(%rsp)
	movq	%rdx, %r14
	movl	$0, %r15d
	cmpq	232(%rsp), %rax
	jb	15f
	leaq	2(%r12), %r14
	imulq	$56, %r12, %rcx
	movq	32(%rsp), %rax
	leaq	(%rax,%rcx), %rdi
	movl	(%rax,%rcx), %edx
	movl	56(%rax,%rcx), %esi
	cmpl	%esi, %edx
	jae	3f
	movq	40(%rsp), %r9
	cmpq	%r9, %r14
	jae	7f
	movq	32(%rsp), %rax
	addq	%rcx, %rax
	addq	$112, %rax
	.p2align	4
2:
	movl	-56(%rax), %r8d
	cmpl	(%rax), %r8d
	jae	6f
	incq	%r14
	addq	$56, %rax
	cmpq	%r14, %r9
	jne	2b
	jmp	5f
3:
	movq	40(%rsp), %r9
	cmpq	%r9, %r14
	jae	12f
	movq	32(%rsp), %rax
	addq	%rcx, %rax
	addq	$112, %rax
	.p2align	4
4:
	movl	-56(%rax), %r8d
	cmpl	(%rax), %r8d
	jb	6f
	incq	%r14
	addq	$56, %rax
	cmpq	%r14, %r9
	jne	4b
5:
	movq	%r9, %r14
6:
	movq	%r14, %rax
	subq	%r12, %rax
	cmpq	232(%rsp), %rax
	jb	13f
	movb	$1, %r15b
	cmpl	%esi, %edx
	jae	15f
	cmpq	$15, %rax
	jbe	26f
	movq	%rax, %rdx
	shrq	%rdx
	subq	%rdx, %rax
	imulq	$56, %rax, %rsi
	addq	%rdi, %rsi
	callq	"core::slice::edits::mirror::<#20cb9571558e0242>"
	jmp	15f
7:
	movl	$2, %eax
	cmpq	$2, 232(%rsp)
	ja	13f
8:
	leaq	-2(%rax), %rdx
	shrq	%rdx
	incq	%rdx
	imulq	$56, %rax, %rsi
	addq	%rcx, %rsi
	movq	32(%rsp), %rcx
	addq	%rsi, %rcx
	addq	$-56, %rcx
	decq	%rax
	xorl	%esi, %esi
	jmp	11f
	.p2align	4
9:
	movq	48(%rdi), %r8
	movq	%r8, 144(%rsp)
	movups	(%rdi), %xmm0
	movups	16(%rdi), %xmm1
	movups	32(%rdi), %xmm2
	movaps	%xmm2, 128(%rsp)
	movaps	%xmm1, 112(%rsp)
	movaps	%xmm0, 96(%rsp)
	movq	48(%rcx), %r8
	movups	(%rcx), %xmm0
	movups	16(%rcx), %xmm1
	movups	32(%rcx), %xmm2
	movups	%xmm0, (%rdi)
	movq	%r8, 48(%rdi)
	movups	%xmm2, 32(%rdi)
	movups	%xmm1, 16(%rdi)
	movq	144(%rsp), %r8
	movq	%r8, 48(%rcx)
	movaps	96(%rsp), %xmm0
	movaps	112(%rsp), %xmm1
	movaps	128(%rsp), %xmm2
	movups	%xmm2, 32(%rcx)
	movups	%xmm1, 16(%rcx)
	movups	%xmm0, (%rcx)
10:
	incq	%rsi
	addq	$56, %rdi
	addq	$-56, %rcx
	decq	%rax
	cmpq	%rsi, %rdx
	je	14f
11:
	cmpq	%rax, %rsi
	jb	9b
	jbe	10b
	movq	48(%rcx), %r8
	movq	%r8, 144(%rsp)
	movups	(%rcx), %xmm0
	movups	16(%rcx), %xmm1
	movups	32(%rcx), %xmm2
	movaps	%xmm2, 128(%rsp)
	movaps	%xmm1, 112(%rsp)
	movaps	%xmm0, 96(%rsp)
	movq	48(%rdi), %r8
	movups	(%rdi), %xmm0
	movups	16(%rdi), %xmm1
	movups	32(%rdi), %xmm2
	movups	%xmm0, (%rcx)
	movq	%r8, 48(%rcx)
	movups	%xmm2, 32(%rcx)
	movups	%xmm1, 16(%rcx)
	movq	144(%rsp), %r8
	movq	%r8, 48(%rdi)
	movaps	96(%rsp), %xmm0
	movaps	112(%rsp), %xmm1
	movaps	128(%rsp), %xmm2
	movups	%xmm2, 32(%rdi)
	movups	%xmm1, 16(%rdi)
	movups	%xmm0, (%rdi)
	jmp	10b
12:
	movb	$1, %r15b
	cmpq	$3, 232(%rsp)
	jb	15f
13:
	movq	232(%rsp), %rax
	leaq	(%rax,%r12), %r14
	xorl	%r15d, %r15d
	jmp	15f
14:
	movb	$1, %r15b
15:
	leaq	(%r12,%rbx), %rax
	movq	240(%rsp), %rdx
	imulq	%rdx, %rax
	leaq	(%r14,%r12), %rcx
	imulq	%rdx, %rcx
	xorq	%rax, %rcx
	movl	$127, %edx
	bsrq	%rcx, %rdx
	xorl	$63, %edx
	leal	1(%rdx), %eax
	movq	%r12, 48(%rsp)
	movb	%bpl, 56(%rsp)
	movl	$0, 57(%rsp)
	movl	$0, 60(%rsp)
	movq	%r14, 64(%rsp)
	movb	%r15b, 72(%rsp)
	movl	$0, 73(%rsp)
	movl	$0, 76(%rsp)
	movl	%eax, 80(%rsp)
	cmpl	%edx, 224(%rsp)
	ja	24f
	imulq	$56, %rbx, %rcx
	addq	32(%rsp), %rcx
	movq	%rcx, 88(%rsp)
	movq	40(%rsp), %r15
	jmp	18f
	.p2align	4
16:
	movl	%r13d, %ebp
17:
	movb	%bpl, 56(%rsp)
	leaq	57(%rsp), %rax
	movl	$0, 3(%rax)
	movl	$0, (%rax)
	movl	80(%rsp), %eax
	cmpl	%eax, 224(%rsp)
	jae	23f
18:
	movq	%r12, %r14
	movq	64(%rsp), %r8
	movl	72(%rsp), %r9d
	movq	248(%rsp), %rcx
	movq	%rcx, 24(%rsp)
	movq	240(%rsp), %rcx
	movq	%rcx, 16(%rsp)
	movq	232(%rsp), %rcx
	movq	%rcx, 8(%rsp)
	movl	%eax, (%rsp)
	leaq	48(%rsp), %rdi
	movq	32(%rsp), %rsi
	movq	%r15, %rdx
	movq	%r12, %rcx
	callq	"core::slice::sort::runs::climb::<#24df1801f4a811cc>"
	movq	48(%rsp), %r12
	movzbl	56(%rsp), %r13d
	movl	%r13d, %eax
	orb	%bpl, %al
	testb	$1, %al
	je	16b
	testb	$1, %bpl
	jne	19f
	movq	%r14, %rdx
	subq	%rbx, %rdx
	movl	$127, %eax
	bsrq	%rdx, %rax
	xorl	$63, %eax
	addl	%eax, %eax
	movl	$126, %ecx
	subl	%eax, %ecx
	movq	88(%rsp), %rdi
	movq	%rdx, %rsi
	movq	248(%rsp), %r8
	callq	"core::slice::sort::stable::quicksort::<#24df1801f4a811cc>"
19:
	movq	%rbx, %r15
	imulq	$56, %r14, %rbx
	testb	$1, %r13b
	jne	20f
	movq	32(%rsp), %rax
	leaq	(%rax,%rbx), %rdi
	movq	%r12, %rdx
	subq	%r14, %rdx
	movl	$127, %eax
	bsrq	%rdx, %rax
	xorl	$63, %eax
	addl	%eax, %eax
	movl	$126, %ecx
	subl	%eax, %ecx
	movq	%rdx, %rsi
	movq	248(%rsp), %r8
	callq	"core::slice::sort::stable::quicksort::<#24df1801f4a811cc>"
20:
	movq	32(%rsp), %rcx
	movl	-56(%rcx,%rbx), %eax
	movb	$1, %bpl
	cmpl	(%rcx,%rbx), %eax
	jae	21f
	movq	%r12, %rsi
	movq	%r15, %rbx
	subq	%r15, %rsi
	subq	%r15, %r14
	movq	88(%rsp), %rdi
	movq	%r14, %rdx
	movq	248(%rsp), %rcx
	callq	"core::slice::sort::merge::merge::<#24df1801f4a811cc>"
	jmp	22f
	.p2align	4
21:
	movq	%r15, %rbx
22:
	movq	40(%rsp), %r15
	jmp	17b
23:
	movq	64(%rsp), %r14
	movzbl	72(%rsp), %r15d
	movl	84(%rsp), %r13d
24:
	movq	160(%rsp), %rsi
	movq	%r12, (%rsi)
	movb	%bpl, 8(%rsi)
	leaq	57(%rsp), %rdi
	movl	(%rdi), %ecx
	movl	3(%rdi), %edx
	movl	%ecx, 9(%rsi)
	movl	%edx, 12(%rsi)
	movq	%r14, 16(%rsi)
	movb	%r15b, 24(%rsi)
	movl	16(%rdi), %ecx
	movl	19(%rdi), %edx
	movl	%ecx, 25(%rsi)
	movl	%edx, 28(%rsi)
	movl	%eax, 32(%rsi)
	movl	%r13d, 36(%rsi)
25:
	addq	$168, %rsp
	popq	%rbx
	popq	%r12
	popq	%r13
	popq	%r14
	popq	%r15
	popq	%rbp
	retq
26:
	cmpq	$2, %rax
	jae	8b
	jmp	15b
27:
	.size	"core::slice::sort::runs::climb::<#24df1801f4a811cc>", 27b-"core::slice::sort::runs::climb::<#24df1801f4a811cc>"

	.text
	.p2align	4
	.type	"core::slice::sort::runs::climb::<#32fabb223415b920>",@function
"core::slice::sort::runs::climb::<#32fabb223415b920>":
	pushq	%rbp
	pushq	%r15
	pushq	%r14
	pushq	%r13
	pushq	%r12
	pushq	%rbx
	subq	$152, %rsp
	movl	%r9d, %ebp
	movq	%r8, %r12
	movq	%rsi, %r13
	movq	$0, 136(%rsp)
	movq	%rdx, %rsi
	subq	%r8, %rsi
	jne	1f
	movq	%r12, (%rdi)
	movb	%bpl, 8(%rdi)
	movl	$0, 9(%rdi)
	movl	$0, 12(%rdi)
	movq	%r12, 16(%rdi)
	movb	%bpl, 24(%rdi)
	movq	$0, 25(%rdi)
	movq	$0, 32(%rdi)
	jmp	14f
1:
	movq	216(%rsp), %r10
	xorl	%r15d, %r15d
	movq	%rdx, %rax
	movl	$0, %r14d
	cmpq	%r10, %rsi
	movq	%rcx, 40(%rsp)
	movq	%rdx, 96(%rsp)
	movq	%rdi, 88(%rsp)
	jb	4f
	movq	%r13, %rdi
	movq	%rdx, %rsi
	movq	%r12, %rdx
	callq	"core::slice::sort::pivot::run_from::<#32fabb223415b920>"
	movq	216(%rsp), %r10
	movq	%rax, %r9
	subq	%r12, %r9
	cmpq	%r10, %r9
	jae	2f
	leaq	(%r10,%r12), %rax
	xorl	%r14d, %r14d
	jmp	3f
2:
	movb	$1, %r14b
	cmpb	$1, %dl
	jne	3f
	movq	%rax, %rbx
	leaq	(%r12,%r12,4), %rcx
	leaq	(,%rcx,8), %rdi
	addq	%r13, %rdi
	cmpq	$15, %r9
	jbe	15f
	movq	%r9, %rdx
	shrq	%rdx
	subq	%rdx, %r9
	leaq	(%r9,%r9,4), %rax
	leaq	(%rdi,%rax,8), %rsi
	callq	"core::slice::edits::mirror::<26'mime_store::ending::Ending>"
	movq	88(%rsp), %rdi
	movq	40(%rsp), %rcx
	movq	96(%rsp), %rdx
	movq	216(%rsp), %r10
	movq	%rbx, %rax
	jmp	4f
3:
	movq	88(%rsp), %rdi
	movq	40(%rsp), %rcx
	movq	96(%rsp), %rdx
4:
	movq	%rdx, %r8
	leaq	(%r12,%rcx), %r9
	movq	224(%rsp), %rdx
	imulq	%rdx, %r9
	movq	%rcx, %rsi
	leaq	(%rax,%r12), %rcx
	imulq	%rdx, %rcx
	xorq	%r9, %rcx
	movl	$127, %edx
	bsrq	%rcx, %rdx
	xorl	$63, %edx
	leal	1(%rdx), %r11d
	movq	%r12, 104(%rsp)
	movb	%bpl, 112(%rsp)
	leaq	113(%rsp), %rbx
	movl	$0, 113(%rsp)
	movl	$0, 116(%rsp)
	movq	%rax, 120(%rsp)
	movb	%r14b, 128(%rsp)
	movl	$0, 129(%rsp)
	movl	$0, 132(%rsp)
	movl	%r11d, 136(%rsp)
	cmpl	%edx, 208(%rsp)
	ja	13f
	leaq	(%rsi,%rsi,4), %rcx
	leaq	(,%rcx,8), %rax
	addq	%r13, %rax
	movq	%rax, 144(%rsp)
	movq	%r8, %rdx
	jmp	7f
	.p2align	4
5:
	movl	%r12d, %ebp
	movq	%r15, %r12
6:
	movb	%bpl, 112(%rsp)
	movl	$0, 3(%rbx)
	movl	$0, (%rbx)
	movl	136(%rsp), %r11d
	cmpl	%r11d, 208(%rsp)
	movq	96(%rsp), %rdx
	movq	216(%rsp), %r10
	jae	12f
7:
	movq	%r12, %r14
	movq	120(%rsp), %r8
	movl	128(%rsp), %r9d
	movq	232(%rsp), %rax
	movq	%rax, 24(%rsp)
	movq	224(%rsp), %rcx
	movq	%rcx, 16(%rsp)
	movq	%r10, 8(%rsp)
	movl	%r11d, (%rsp)
	leaq	104(%rsp), %rdi
	movq	%r13, %rsi
	movq	%r12, %rcx
	callq	"core::slice::sort::runs::climb::<#32fabb223415b920>"
	movq	104(%rsp), %r15
	movzbl	112(%rsp), %r12d
	movl	%r12d, %eax
	orb	%bpl, %al
	testb	$1, %al
	je	5b
	testb	$1, %bpl
	jne	8f
	movq	%r14, %rdx
	subq	40(%rsp), %rdx
	movl	$127, %eax
	bsrq	%rdx, %rax
	xorl	$63, %eax
	addl	%eax, %eax
	movl	$126, %ecx
	subl	%eax, %ecx
	movq	144(%rsp), %rdi
	movq	%rdx, %rsi
	movq	232(%rsp), %r8
	callq	"core::slice::sort::stable::quicksort::<#32fabb223415b920>"
8:
	leaq	(,%r14,8), %rax
	leaq	(%rax,%rax,4), %rbp
	testb	$1, %r12b
	movq	%r15, %r12
	jne	9f
	movq	%r13, %rdi
	addq	%rbp, %rdi
	movq	%r12, %rdx
	subq	%r14, %rdx
	movl	$127, %eax
	bsrq	%rdx, %rax
	xorl	$63, %eax
	addl	%eax, %eax
	movl	$126, %ecx
	subl	%eax, %ecx
	movq	%rdx, %rsi
	movq	232(%rsp), %r8
	callq	"core::slice::sort::stable::quicksort::<#32fabb223415b920>"
9:
	movq	-40(%r13,%rbp), %rax
	movq	(%r13,%rbp), %rcx
	cmpq	%rax, %rcx
	jne	10f
	movq	8(%r13,%rbp), %rdi
	movq	16(%r13,%rbp), %rsi
	movq	-32(%r13,%rbp), %rdx
	movq	-24(%r13,%rbp), %rcx
	callq	"core::cmp::slices::RefSliceOrd::cmp::<#914af4d8504a0b72>"
	movb	$1, %bpl
	testb	%al, %al
	jne	6b
	jmp	11f
	.p2align	4
10:
	bswapq	%rax
	bswapq	%rcx
	movb	$1, %bpl
	cmpq	%rax, %rcx
	jae	6b
11:
	movq	%r12, %rsi
	movq	40(%rsp), %rax
	subq	%rax, %rsi
	subq	%rax, %r14
	movq	144(%rsp), %rdi
	movq	%r14, %rdx
	movq	232(%rsp), %rcx
	callq	"core::slice::sort::merge::merge::<#32fabb223415b920>"
	movb	$1, %bpl
	jmp	6b
12:
	movq	120(%rsp), %rax
	movzbl	128(%rsp), %r14d
	movl	140(%rsp), %r15d
	movq	88(%rsp), %rdi
13:
	movq	%r12, (%rdi)
	movb	%bpl, 8(%rdi)
	movl	(%rbx), %ecx
	movl	3(%rbx), %edx
	movl	%ecx, 9(%rdi)
	movl	%edx, 12(%rdi)
	movq	%rax, 16(%rdi)
	movb	%r14b, 24(%rdi)
	movl	16(%rbx), %ecx
	movl	19(%rbx), %edx
	movl	%ecx, 25(%rdi)
	movl	%edx, 28(%rdi)
	movl	%r11d, 32(%rdi)
	movl	%r15d, 36(%rdi)
14:
	addq	$152, %rsp
	popq	%rbx
	popq	%r12
	popq	%r13
	popq	%r14
	popq	%r15
	popq	%rbp
	retq
15:
	cmpq	$2, %r9
	jb	17f
	leaq	-2(%r9), %rdx
	movq	%rdx, %rcx
	shrq	%rcx
	movq	%r9, %rsi
	decq	%rsi
	je	16f
	leaq	(%rsi,%rsi,4), %rsi
	movq	32(%rdi), %r8
	movq	%r8, 80(%rsp)
	movups	(%rdi), %xmm0
	movups	16(%rdi), %xmm1
	movaps	%xmm1, 64(%rsp)
	movaps	%xmm0, 48(%rsp)
	movq	32(%rdi,%rsi,8), %r8
	movups	(%rdi,%rsi,8), %xmm0
	movups	16(%rdi,%rsi,8), %xmm1
	movups	%xmm0, (%rdi)
	movups	%xmm1, 16(%rdi)
	movq	%r8, 32(%rdi)
	movq	80(%rsp), %r8
	movq	%r8, 32(%rdi,%rsi,8)
	movaps	48(%rsp), %xmm0
	movaps	64(%rsp), %xmm1
	movups	%xmm1, 16(%rdi,%rsi,8)
	movups	%xmm0, (%rdi,%rsi,8)
16:
	testq	%rcx, %rcx
	movq	96(%rsp), %r8
	movq	%rbx, %rax
	je	28f
	cmpq	$1, %rdx
	jbe	18f
	leaq	(%rdx,%rdx,4), %rdx
	movq	72(%rdi), %rsi
	movq	%rsi, 80(%rsp)
	movups	40(%rdi), %xmm0
	movups	56(%rdi), %xmm1
	movaps	%xmm1, 64(%rsp)
	movaps	%xmm0, 48(%rsp)
	movq	32(%rdi,%rdx,8), %rsi
	movups	(%rdi,%rdx,8), %xmm0
	movups	16(%rdi,%rdx,8), %xmm1
	movups	%xmm0, 40(%rdi)
	movups	%xmm1, 56(%rdi)
	movq	%rsi, 72(%rdi)
	movq	80(%rsp), %rsi
	movq	%rsi, 32(%rdi,%rdx,8)
	movaps	48(%rsp), %xmm0
	movaps	64(%rsp), %xmm1
	movups	%xmm1, 16(%rdi,%rdx,8)
	movups	%xmm0, (%rdi,%rdx,8)
	jmp	19f
17:
	movq	88(%rsp), %rdi
	movq	40(%rsp), %rcx
	movq	96(%rsp), %rdx
	movq	%rbx, %rax
	jmp	4b
18:
	testq	%rdx, %rdx
	jne	19f
	leaq	(%rdx,%rdx,4), %rdx
	movq	32(%rdi,%rdx,8), %rsi
	movq	%rsi, 80(%rsp)
	movups	(%rdi,%rdx,8), %xmm0
	movups	16(%rdi,%rdx,8), %xmm1
	movaps	%xmm1, 64(%rsp)
	movaps	%xmm0, 48(%rsp)
	movq	72(%rdi), %rsi
	movups	40(%rdi), %xmm0
	movups	56(%rdi), %xmm1
	movups	%xmm0, (%rdi,%rdx,8)
	movups	%xmm1, 16(%rdi,%rdx,8)
	movq	%rsi, 32(%rdi,%rdx,8)
	movq	80(%rsp), %rdx
	movq	%rdx, 72(%rdi)
	movaps	48(%rsp), %xmm0
	movaps	64(%rsp), %xmm1
	movups	%xmm1, 56(%rdi)
	movups	%xmm0, 40(%rdi)
19:
	cmpq	$1, %rcx
	je	28f
	leaq	-3(%r9), %rdx
	cmpq	$2, %rdx
	jbe	20f
	leaq	(%rdx,%rdx,4), %rdx
	movq	112(%rdi), %rsi
	movq	%rsi, 80(%rsp)
	movups	80(%rdi), %xmm0
	movups	96(%rdi), %xmm1
	movaps	%xmm1, 64(%rsp)
	movaps	%xmm0, 48(%rsp)
	movq	32(%rdi,%rdx,8), %rsi
	movups	(%rdi,%rdx,8), %xmm0
	movups	16(%rdi,%rdx,8), %xmm1
	movups	%xmm0, 80(%rdi)
	movups	%xmm1, 96(%rdi)
	movq	%rsi, 112(%rdi)
	movq	80(%rsp), %rsi
	movq	%rsi, 32(%rdi,%rdx,8)
	movaps	48(%rsp), %xmm0
	movaps	64(%rsp), %xmm1
	movups	%xmm1, 16(%rdi,%rdx,8)
	movups	%xmm0, (%rdi,%rdx,8)
	jmp	21f
20:
	je	21f
	leaq	(%rdx,%rdx,4), %rdx
	movq	32(%rdi,%rdx,8), %rsi
	movq	%rsi, 80(%rsp)
	movups	(%rdi,%rdx,8), %xmm0
	movups	16(%rdi,%rdx,8), %xmm1
	movaps	%xmm1, 64(%rsp)
	movaps	%xmm0, 48(%rsp)
	movq	112(%rdi), %rsi
	movups	80(%rdi), %xmm0
	movups	96(%rdi), %xmm1
	movups	%xmm0, (%rdi,%rdx,8)
	movups	%xmm1, 16(%rdi,%rdx,8)
	movq	%rsi, 32(%rdi,%rdx,8)
	movq	80(%rsp), %rdx
	movq	%rdx, 112(%rdi)
	movaps	48(%rsp), %xmm0
	movaps	64(%rsp), %xmm1
	movups	%xmm1, 96(%rdi)
	movups	%xmm0, 80(%rdi)
21:
	cmpq	$2, %rcx
	je	28f
	leaq	-4(%r9), %rdx
	cmpq	$3, %rdx
	jbe	22f
	leaq	(%rdx,%rdx,4), %rdx
	movq	152(%rdi), %rsi
	movq	%rsi, 80(%rsp)
	movups	120(%rdi), %xmm0
	movups	136(%rdi), %xmm1
	movaps	%xmm1, 64(%rsp)
	movaps	%xmm0, 48(%rsp)
	movq	32(%rdi,%rdx,8), %rsi
	movups	(%rdi,%rdx,8), %xmm0
	movups	16(%rdi,%rdx,8), %xmm1
	movups	%xmm0, 120(%rdi)
	movups	%xmm1, 136(%rdi)
	movq	%rsi, 152(%rdi)
	movq	80(%rsp), %rsi
	movq	%rsi, 32(%rdi,%rdx,8)
	movaps	48(%rsp), %xmm0
	movaps	64(%rsp), %xmm1
	movups	%xmm1, 16(%rdi,%rdx,8)
	movups	%xmm0, (%rdi,%rdx,8)
	jmp	23f
22:
	je	23f
	leaq	(%rdx,%rdx,4), %rdx
	movq	32(%rdi,%rdx,8), %rsi
	movq	%rsi, 80(%rsp)
	movups	(%rdi,%rdx,8), %xmm0
	movups	16(%rdi,%rdx,8), %xmm1
	movaps	%xmm1, 64(%rsp)
	movaps	%xmm0, 48(%rsp)
	movq	152(%rdi), %rsi
	movups	120(%rdi), %xmm0
	movups	136(%rdi), %xmm1
	movups	%xmm0, (%rdi,%rdx,8)
	movups	%xmm1, 16(%rdi,%rdx,8)
	movq	%rsi, 32(%rdi,%rdx,8)
	movq	80(%rsp), %rdx
	movq	%rdx, 152(%rdi)
	movaps	48(%rsp), %xmm0
	movaps	64(%rsp), %xmm1
	movups	%xmm1, 136(%rdi)
	movups	%xmm0, 120(%rdi)
23:
	cmpq	$3, %rcx
	je	28f
	leaq	-5(%r9), %rdx
	cmpq	$4, %rdx
	jbe	24f
	leaq	(%rdx,%rdx,4), %rdx
	movq	192(%rdi), %rsi
	movq	%rsi, 80(%rsp)
	movups	160(%rdi), %xmm0
	movups	176(%rdi), %xmm1
	movaps	%xmm1, 64(%rsp)
	movaps	%xmm0, 48(%rsp)
	movq	32(%rdi,%rdx,8), %rsi
	movups	(%rdi,%rdx,8), %xmm0
	movups	16(%rdi,%rdx,8), %xmm1
	movups	%xmm0, 160(%rdi)
	movups	%xmm1, 176(%rdi)
	movq	%rsi, 192(%rdi)
	movq	80(%rsp), %rsi
	movq	%rsi, 32(%rdi,%rdx,8)
	movaps	48(%rsp), %xmm0
	movaps	64(%rsp), %xmm1
	movups	%xmm1, 16(%rdi,%rdx,8)
	movups	%xmm0, (%rdi,%rdx,8)
	jmp	25f
24:
	je	25f
	leaq	(%rdx,%rdx,4), %rdx
	movq	32(%rdi,%rdx,8), %rsi
	movq	%rsi, 80(%rsp)
	movups	(%rdi,%rdx,8), %xmm0
	movups	16(%rdi,%rdx,8), %xmm1
	movaps	%xmm1, 64(%rsp)
	movaps	%xmm0, 48(%rsp)
	movq	192(%rdi), %rsi
	movups	160(%rdi), %xmm0
	movups	176(%rdi), %xmm1
	movups	%xmm0, (%rdi,%rdx,8)
	movups	%xmm1, 16(%rdi,%rdx,8)
	movq	%rsi, 32(%rdi,%rdx,8)
	movq	80(%rsp), %rdx
	movq	%rdx, 192(%rdi)
	movaps	48(%rsp), %xmm0
	movaps	64(%rsp), %xmm1
	movups	%xmm1, 176(%rdi)
	movups	%xmm0, 160(%rdi)
25:
	cmpq	$4, %rcx
	je	28f
	leaq	-6(%r9), %rdx
	cmpq	$5, %rdx
	jbe	26f
	leaq	(%rdx,%rdx,4), %rdx
	movq	232(%rdi), %rsi
	movq	%rsi, 80(%rsp)
	movups	200(%rdi), %xmm0
	movups	216(%rdi), %xmm1
	movaps	%xmm1, 64(%rsp)
	movaps	%xmm0, 48(%rsp)
	movq	32(%rdi,%rdx,8), %rsi
	movups	(%rdi,%rdx,8), %xmm0
	movups	16(%rdi,%rdx,8), %xmm1
	movups	%xmm0, 200(%rdi)
	movups	%xmm1, 216(%rdi)
	movq	%rsi, 232(%rdi)
	movq	80(%rsp), %rsi
	movq	%rsi, 32(%rdi,%rdx,8)
	movaps	48(%rsp), %xmm0
	movaps	64(%rsp), %xmm1
	movups	%xmm1, 16(%rdi,%rdx,8)
	movups	%xmm0, (%rdi,%rdx,8)
	jmp	27f
26:
	je	27f
	leaq	(%rdx,%rdx,4), %rdx
	movq	32(%rdi,%rdx,8), %rsi
	movq	%rsi, 80(%rsp)
	movups	(%rdi,%rdx,8), %xmm0
	movups	16(%rdi,%rdx,8), %xmm1
	movaps	%xmm1, 64(%rsp)
	movaps	%xmm0, 48(%rsp)
	movq	232(%rdi), %rsi
	movups	200(%rdi), %xmm0
	movups	216(%rdi), %xmm1
	movups	%xmm0, (%rdi,%rdx,8)
	movups	%xmm1, 16(%rdi,%rdx,8)
	movq	%rsi, 32(%rdi,%rdx,8)
	movq	80(%rsp), %rdx
	movq	%rdx, 232(%rdi)
	movaps	48(%rsp), %xmm0
	movaps	64(%rsp), %xmm1
	movups	%xmm1, 216(%rdi)
	movups	%xmm0, 200(%rdi)
27:
	cmpq	$5, %rcx
	jne	29f
28:
	movq	88(%rsp), %rdi
	movq	40(%rsp), %rcx
	movq	%r8, %rdx
	jmp	4b
29:
	addq	$-7, %r9
	cmpq	$6, %r9
	movq	%r8, %rdx
	jbe	30f
	leaq	(%r9,%r9,4), %rsi
	movq	272(%rdi), %rcx
	movq	%rcx, 80(%rsp)
	movups	240(%rdi), %xmm0
	movups	256(%rdi), %xmm1
	movaps	%xmm1, 64(%rsp)
	movaps	%xmm0, 48(%rsp)
	movq	32(%rdi,%rsi,8), %rcx
	movups	(%rdi,%rsi,8), %xmm0
	movups	16(%rdi,%rsi,8), %xmm1
	movups	%xmm0, 240(%rdi)
	movups	%xmm1, 256(%rdi)
	movq	%rcx, 272(%rdi)
	movq	80(%rsp), %rcx
	movq	%rcx, 32(%rdi,%rsi,8)
	movaps	48(%rsp), %xmm0
	movaps	64(%rsp), %xmm1
	movups	%xmm1, 16(%rdi,%rsi,8)
	movups	%xmm0, (%rdi,%rsi,8)
	jmp	31f
30:
	je	31f
	leaq	(%r9,%r9,4), %rsi
	movq	32(%rdi,%rsi,8), %rcx
	movq	%rcx, 80(%rsp)
	movups	(%rdi,%rsi,8), %xmm0
	movups	16(%rdi,%rsi,8), %xmm1
	movaps	%xmm1, 64(%rsp)
	movaps	%xmm0, 48(%rsp)
	movq	272(%rdi), %rcx
	movups	240(%rdi), %xmm0
	movups	256(%rdi), %xmm1
	movups	%xmm0, (%rdi,%rsi,8)
	movups	%xmm1, 16(%rdi,%rsi,8)
	movq	%rcx, 32(%rdi,%rsi,8)
	movq	80(%rsp), %rcx
	movq	%rcx, 272(%rdi)
	movaps	48(%rsp), %xmm0
	movaps	64(%rsp), %xmm1
	movups	%xmm1, 256(%rdi)
	movups	%xmm0, 240(%rdi)
31:
	movq	88(%rsp), %rdi
	movq	40(%rsp), %rcx
	jmp	4b
32:
	.size	"core::slice::sort::runs::climb::<#32fabb223415b920>", 32b-"core::slice::sort::runs::climb::<#32fabb223415b920>"

	.text
	.p2align	4
	.type	"core::slice::sort::runs::climb::<#54047240e3f04dbb>",@function
"core::slice::sort::runs::climb::<#54047240e3f04dbb>":
	pushq	%rbp
	pushq	%r15
	pushq	%r14
	pushq	%r13
	pushq	%r12
	pushq	%rbx
	subq	$104, %rsp
	movl	%r9d, %ebp
	movq	%r8, %rbx
	movq	%rdx, %r12
	movq	%rsi, 32(%rsp)
	movq	$0, 72(%rsp)
	subq	%r8, %rdx
	jne	1f
	movq	%rbx, (%rdi)
	movb	%bpl, 8(%rdi)
	movl	$0, 9(%rdi)
	movl	$0, 12(%rdi)
	movq	%rbx, 16(%rdi)
	movb	%bpl, 24(%rdi)
	movq	$0, 25(%rdi)
	movq	$0, 32(%rdi)
	jmp	20f
1:
	movq	%rcx, 80(%rsp)
	movq	%rdi, 96(%rsp)
	xorl	%r14d, %r14d
	movq	%r12, %r15
	movl	$0, %eax
	cmpq	168(%rsp), %rdx
	jb	11f
	leaq	2(%rbx), %r15
	leaq	(%rbx,%rbx,4), %rdi
	shlq	$4, %rdi
	movq	32(%rsp), %rax
	movl	(%rax,%rdi), %ecx
	movl	80(%rax,%rdi), %edx
	cmpl	%edx, %ecx
	jae	3f
	cmpq	%r12, %r15
	jae	7f
	movq	32(%rsp), %rax
	addq	%rdi, %rax
	addq	$160, %rax
	.p2align	4
2:
	movl	-80(%rax), %esi
	cmpl	(%rax), %esi
	jae	6f
	incq	%r15
	addq	$80, %rax
	cmpq	%r15, %r12
	jne	2b
	jmp	5f
3:
	cmpq	%r12, %r15
	jae	9f
	movq	32(%rsp), %rax
	addq	%rdi, %rax
	addq	$160, %rax
	.p2align	4
4:
	movl	-80(%rax), %esi
	cmpl	(%rax), %esi
	jb	6f
	incq	%r15
	addq	$80, %rax
	cmpq	%r15, %r12
	jne	4b
5:
	movq	%r12, %r15
6:
	movq	%r15, %rsi
	subq	%rbx, %rsi
	cmpq	168(%rsp), %rsi
	jb	10f
	movb	$1, %al
	cmpl	%edx, %ecx
	jb	8f
	jmp	11f
7:
	movl	$2, %esi
	cmpq	$2, 168(%rsp)
	ja	10f
8:
	addq	32(%rsp), %rdi
	callq	"core::slice::edits::slice+T::reverse::<25'mime_base::magic::Section>"
	movb	$1, %al
	jmp	11f
9:
	movb	$1, %al
	cmpq	$3, 168(%rsp)
	jb	11f
10:
	movq	168(%rsp), %rax
	leaq	(%rax,%rbx), %r15
	xorl	%eax, %eax
11:
	movq	80(%rsp), %rdi
	leaq	(%rbx,%rdi), %rcx
	movq	176(%rsp), %rsi
	imulq	%rsi, %rcx
	leaq	(%r15,%rbx), %rdx
	imulq	%rsi, %rdx
	xorq	%rcx, %rdx
	movl	$127, %esi
	bsrq	%rdx, %rsi
	xorl	$63, %esi
	leal	1(%rsi), %ecx
	movq	%rbx, 40(%rsp)
	movb	%bpl, 48(%rsp)
	movl	$0, 49(%rsp)
	movl	$0, 52(%rsp)
	movq	%r15, 56(%rsp)
	movb	%al, 64(%rsp)
	movl	$0, 65(%rsp)
	movl	$0, 68(%rsp)
	movl	%ecx, 72(%rsp)
	cmpl	%esi, 160(%rsp)
	ja	19f
	leaq	(%rdi,%rdi,4), %rax
	shlq	$4, %rax
	addq	32(%rsp), %rax
	movq	%rax, 88(%rsp)
	movq	%rdi, %r15
	jmp	14f
	.p2align	4
12:
	movl	%r12d, %ebp
	movq	%r13, %r12
13:
	movb	%bpl, 48(%rsp)
	leaq	49(%rsp), %rax
	movl	$0, 3(%rax)
	movl	$0, (%rax)
	movl	72(%rsp), %ecx
	cmpl	%ecx, 160(%rsp)
	jae	18f
14:
	movq	%rbx, %r14
	movq	56(%rsp), %r8
	movl	64(%rsp), %r9d
	movq	184(%rsp), %rax
	movq	%rax, 24(%rsp)
	movq	176(%rsp), %rax
	movq	%rax, 16(%rsp)
	movq	168(%rsp), %rax
	movq	%rax, 8(%rsp)
	movl	%ecx, (%rsp)
	leaq	40(%rsp), %rdi
	movq	32(%rsp), %rsi
	movq	%r12, %r13
	movq	%r12, %rdx
	movq	%rbx, %rcx
	callq	"core::slice::sort::runs::climb::<#54047240e3f04dbb>"
	movq	40(%rsp), %rbx
	movzbl	48(%rsp), %r12d
	movl	%r12d, %eax
	orb	%bpl, %al
	testb	$1, %al
	je	12b
	testb	$1, %bpl
	jne	15f
	movq	%r14, %rdx
	subq	%r15, %rdx
	movl	$127, %eax
	bsrq	%rdx, %rax
	xorl	$63, %eax
	addl	%eax, %eax
	movl	$126, %ecx
	subl	%eax, %ecx
	movq	88(%rsp), %rdi
	movq	%rdx, %rsi
	movq	184(%rsp), %r8
	callq	"core::slice::sort::stable::quicksort::<#54047240e3f04dbb>"
15:
	movq	%r14, %rax
	shlq	$4, %rax
	leaq	(%rax,%rax,4), %r15
	testb	$1, %r12b
	jne	16f
	movq	32(%rsp), %rax
	leaq	(%rax,%r15), %rdi
	movq	%rbx, %rdx
	subq	%r14, %rdx
	movl	$127, %eax
	bsrq	%rdx, %rax
	xorl	$63, %eax
	addl	%eax, %eax
	movl	$126, %ecx
	subl	%eax, %ecx
	movq	%rdx, %rsi
	movq	184(%rsp), %r8
	callq	"core::slice::sort::stable::quicksort::<#54047240e3f04dbb>"
16:
	movq	32(%rsp), %rcx
	movl	-80(%rcx,%r15), %eax
	movb	$1, %bpl
	cmpl	(%rcx,%r15), %eax
	movq	%r13, %r12
	jae	17f
	movq	%rbx, %rsi
	movq	80(%rsp), %r15
	subq	%r15, %rsi
	subq	%r15, %r14
	movq	88(%rsp), %rdi
	movq	%r14, %rdx
	movq	184(%rsp), %rcx
	callq	"core::slice::sort::merge::merge::<#54047240e3f04dbb>"
	jmp	13b
	.p2align	4
17:
	movq	80(%rsp), %r15
	jmp	13b
18:
	movq	56(%rsp), %r15
	movzbl	64(%rsp), %eax
	movl	76(%rsp), %r14d
19:
	movq	96(%rsp), %rdi
	movq	%rbx, (%rdi)
	movb	%bpl, 8(%rdi)
	leaq	49(%rsp), %r8
	movl	(%r8), %edx
	movl	3(%r8), %esi
	movl	%edx, 9(%rdi)
	movl	%esi, 12(%rdi)
	movq	%r15, 16(%rdi)
	movb	%al, 24(%rdi)
	movl	16(%r8), %eax
	movl	19(%r8), %edx
	movl	%eax, 25(%rdi)
	movl	%edx, 28(%rdi)
	movl	%ecx, 32(%rdi)
	movl	%r14d, 36(%rdi)
20:
	addq	$104, %rsp
	popq	%rbx
	popq	%r12
	popq	%r13
	popq	%r14
	popq	%r15
	popq	%rbp
	retq
21:
	.size	"core::slice::sort::runs::climb::<#54047240e3f04dbb>", 21b-"core::slice::sort::runs::climb::<#54047240e3f04dbb>"

	.text
	.p2align	4
	.type	"core::slice::sort::runs::climb::<#b4bd7111e818b46c>",@function
"core::slice::sort::runs::climb::<#b4bd7111e818b46c>":
	pushq	%rbp
	pushq	%r15
	pushq	%r14
	pushq	%r13
	pushq	%r12
	pushq	%rbx
	subq	$152, %rsp
	movl	%r9d, %ebp
	movq	%rsi, %r13
	movq	$0, 136(%rsp)
	movq	%rdx, %rsi
	subq	%r8, %rsi
	jne	1f
	movq	%r8, (%rdi)
	movb	%bpl, 8(%rdi)
	movl	$0, 9(%rdi)
	movl	$0, 12(%rdi)
	movq	%r8, 16(%rdi)
	movb	%bpl, 24(%rdi)
	movq	$0, 25(%rdi)
	movq	$0, 32(%rdi)
	jmp	15f
1:
	movq	216(%rsp), %r10
	xorl	%r15d, %r15d
	movq	%rdx, 96(%rsp)
	movq	%rdx, %rax
	movl	$0, %r14d
	cmpq	%r10, %rsi
	movq	%rcx, 88(%rsp)
	movq	%rdi, 40(%rsp)
	jb	6f
	movq	%r13, %rdi
	movq	96(%rsp), %rsi
	movq	%r8, %rdx
	movq	%r8, %r12
	callq	"core::slice::sort::pivot::run_from::<#b4bd7111e818b46c>"
	movq	216(%rsp), %r10
	movq	%r12, %r8
	movq	%rax, %rsi
	subq	%r12, %rsi
	cmpq	%r10, %rsi
	jae	2f
	leaq	(%r10,%r8), %rax
	xorl	%r14d, %r14d
	jmp	5f
2:
	movb	$1, %r14b
	cmpb	$1, %dl
	jne	5f
	movq	%r8, %rdi
	shlq	$5, %rdi
	addq	%r13, %rdi
	cmpq	$15, %rsi
	jbe	3f
	movq	%rsi, %rdx
	shrq	%rdx
	subq	%rdx, %rsi
	shlq	$5, %rsi
	addq	%rdi, %rsi
	movq	%rax, %rbx
	callq	"core::slice::edits::mirror::<24'(,)::<#ee13f2425f1aee9b>>"
	movq	%rbx, %rax
	movq	%r12, %r8
	movq	40(%rsp), %rdi
	movq	88(%rsp), %rcx
	movq	216(%rsp), %r10
	jmp	6f
3:
	cmpq	$2, %rsi
	jb	5f
	leaq	-2(%rsi), %r9
	movq	%r9, %r11
	shrq	%r11
	movq	%rsi, %rdx
	decq	%rdx
	je	4f
	shlq	$5, %rdx
	movups	(%rdi), %xmm0
	movups	16(%rdi), %xmm1
	movaps	%xmm1, 64(%rsp)
	movaps	%xmm0, 48(%rsp)
	movups	(%rdi,%rdx), %xmm0
	movups	16(%rdi,%rdx), %xmm1
	movups	%xmm0, (%rdi)
	movups	%xmm1, 16(%rdi)
	movaps	48(%rsp), %xmm0
	movaps	64(%rsp), %xmm1
	movups	%xmm1, 16(%rdi,%rdx)
	movups	%xmm0, (%rdi,%rdx)
4:
	testq	%r11, %r11
	movq	88(%rsp), %rcx
	je	27f
	cmpq	$1, %r9
	jbe	16f
	shlq	$5, %r9
	movups	32(%rdi), %xmm0
	movups	48(%rdi), %xmm1
	movaps	%xmm1, 64(%rsp)
	movaps	%xmm0, 48(%rsp)
	movups	(%rdi,%r9), %xmm0
	movups	16(%rdi,%r9), %xmm1
	movups	%xmm0, 32(%rdi)
	movups	%xmm1, 48(%rdi)
	movaps	48(%rsp), %xmm0
	movaps	64(%rsp), %xmm1
	movups	%xmm1, 16(%rdi,%r9)
	movups	%xmm0, (%rdi,%r9)
	jmp	17f
5:
	movq	40(%rsp), %rdi
	movq	88(%rsp), %rcx
6:
	leaq	(%r8,%rcx), %r9
	movq	224(%rsp), %rdx
	imulq	%rdx, %r9
	leaq	(%rax,%r8), %rsi
	imulq	%rdx, %rsi
	xorq	%r9, %rsi
	movl	$127, %edx
	bsrq	%rsi, %rdx
	xorl	$63, %edx
	leal	1(%rdx), %esi
	movq	%r8, 104(%rsp)
	movb	%bpl, 112(%rsp)
	leaq	113(%rsp), %rbx
	movl	$0, 113(%rsp)
	movl	$0, 116(%rsp)
	movq	%rax, 120(%rsp)
	movb	%r14b, 128(%rsp)
	movl	$0, 129(%rsp)
	movl	$0, 132(%rsp)
	movl	%esi, 136(%rsp)
	cmpl	%edx, 208(%rsp)
	ja	14f
	shlq	$5, %rcx
	addq	%r13, %rcx
	movq	%rcx, 144(%rsp)
	movq	96(%rsp), %r15
	jmp	9f
	.p2align	4
7:
	movl	%r12d, %ebp
8:
	movb	%bpl, 112(%rsp)
	movl	$0, 3(%rbx)
	movl	$0, (%rbx)
	movl	136(%rsp), %esi
	cmpl	%esi, 208(%rsp)
	movq	216(%rsp), %r10
	jae	13f
9:
	movq	%r8, %r14
	movq	120(%rsp), %r8
	movl	128(%rsp), %r9d
	movq	232(%rsp), %rax
	movq	%rax, 24(%rsp)
	movq	224(%rsp), %rcx
	movq	%rcx, 16(%rsp)
	movq	%r10, 8(%rsp)
	movl	%esi, (%rsp)
	leaq	104(%rsp), %rdi
	movq	%r13, %rsi
	movq	%r15, %rdx
	movq	%r14, %rcx
	callq	"core::slice::sort::runs::climb::<#b4bd7111e818b46c>"
	movq	104(%rsp), %r8
	movzbl	112(%rsp), %r12d
	movl	%r12d, %eax
	orb	%bpl, %al
	testb	$1, %al
	je	7b
	movq	%r8, %r15
	testb	$1, %bpl
	jne	10f
	movq	%r14, %rdx
	subq	88(%rsp), %rdx
	movl	$127, %eax
	bsrq	%rdx, %rax
	xorl	$63, %eax
	addl	%eax, %eax
	movl	$126, %ecx
	subl	%eax, %ecx
	movq	144(%rsp), %rdi
	movq	%rdx, %rsi
	movq	232(%rsp), %r8
	callq	"core::slice::sort::stable::quicksort::<#b4bd7111e818b46c>"
10:
	movq	%r14, %rbp
	shlq	$5, %rbp
	testb	$1, %r12b
	jne	11f
	movq	%r13, %rdi
	addq	%rbp, %rdi
	movq	%r15, %rdx
	subq	%r14, %rdx
	movl	$127, %eax
	bsrq	%rdx, %rax
	xorl	$63, %eax
	addl	%eax, %eax
	movl	$126, %ecx
	subl	%eax, %ecx
	movq	%rdx, %rsi
	movq	232(%rsp), %r8
	callq	"core::slice::sort::stable::quicksort::<#b4bd7111e818b46c>"
11:
	movq	(%r13,%rbp), %rdi
	movq	8(%r13,%rbp), %rsi
	movq	-32(%r13,%rbp), %rdx
	movq	-24(%r13,%rbp), %rcx
	callq	"core::cmp::slices::RefSliceOrd::cmp::<#914af4d8504a0b72>"
	movb	$1, %bpl
	testb	%al, %al
	jne	12f
	movq	%r15, %rsi
	movq	88(%rsp), %rax
	subq	%rax, %rsi
	subq	%rax, %r14
	movq	144(%rsp), %rdi
	movq	%r14, %rdx
	movq	232(%rsp), %rcx
	callq	"core::slice::sort::merge::merge::<#b4bd7111e818b46c>"
12:
	movq	%r15, %r8
	movq	96(%rsp), %r15
	jmp	8b
13:
	movq	120(%rsp), %rax
	movzbl	128(%rsp), %r14d
	movl	140(%rsp), %r15d
	movq	40(%rsp), %rdi
14:
	movq	%r8, (%rdi)
	movb	%bpl, 8(%rdi)
	movl	(%rbx), %ecx
	movl	3(%rbx), %edx
	movl	%ecx, 9(%rdi)
	movl	%edx, 12(%rdi)
	movq	%rax, 16(%rdi)
	movb	%r14b, 24(%rdi)
	movl	16(%rbx), %ecx
	movl	19(%rbx), %edx
	movl	%ecx, 25(%rdi)
	movl	%edx, 28(%rdi)
	movl	%esi, 32(%rdi)
	movl	%r15d, 36(%rdi)
15:
	addq	$152, %rsp
	popq	%rbx
	popq	%r12
	popq	%r13
	popq	%r14
	popq	%r15
	popq	%rbp
	retq
16:
	testq	%r9, %r9
	jne	17f
	movups	(%rdi), %xmm0
	movups	16(%rdi), %xmm1
	movaps	%xmm1, 64(%rsp)
	movaps	%xmm0, 48(%rsp)
	movups	32(%rdi), %xmm0
	movups	48(%rdi), %xmm1
	movups	%xmm0, (%rdi)
	movups	%xmm1, 16(%rdi)
	movaps	48(%rsp), %xmm0
	movaps	64(%rsp), %xmm1
	movups	%xmm0, 32(%rdi)
	movups	%xmm1, 48(%rdi)
17:
	cmpq	$1, %r11
	je	27f
	leaq	-3(%rsi), %rdx
	cmpq	$2, %rdx
	jbe	18f
	shlq	$5, %rdx
	movups	64(%rdi), %xmm0
	movups	80(%rdi), %xmm1
	movaps	%xmm1, 64(%rsp)
	movaps	%xmm0, 48(%rsp)
	movups	(%rdi,%rdx), %xmm0
	movups	16(%rdi,%rdx), %xmm1
	movups	%xmm0, 64(%rdi)
	movups	%xmm1, 80(%rdi)
	movaps	48(%rsp), %xmm0
	movaps	64(%rsp), %xmm1
	movups	%xmm1, 16(%rdi,%rdx)
	movups	%xmm0, (%rdi,%rdx)
	jmp	19f
18:
	je	19f
	shlq	$5, %rdx
	movups	(%rdi,%rdx), %xmm0
	movups	16(%rdi,%rdx), %xmm1
	movaps	%xmm1, 64(%rsp)
	movaps	%xmm0, 48(%rsp)
	movups	64(%rdi), %xmm0
	movups	80(%rdi), %xmm1
	movups	%xmm0, (%rdi,%rdx)
	movups	%xmm1, 16(%rdi,%rdx)
	movaps	48(%rsp), %xmm0
	movaps	64(%rsp), %xmm1
	movups	%xmm1, 80(%rdi)
	movups	%xmm0, 64(%rdi)
19:
	cmpq	$2, %r11
	je	27f
	leaq	-4(%rsi), %rdx
	cmpq	$3, %rdx
	jbe	20f
	shlq	$5, %rdx
	movups	96(%rdi), %xmm0
	movups	112(%rdi), %xmm1
	movaps	%xmm1, 64(%rsp)
	movaps	%xmm0, 48(%rsp)
	movups	(%rdi,%rdx), %xmm0
	movups	16(%rdi,%rdx), %xmm1
	movups	%xmm0, 96(%rdi)
	movups	%xmm1, 112(%rdi)
	movaps	48(%rsp), %xmm0
	movaps	64(%rsp), %xmm1
	movups	%xmm1, 16(%rdi,%rdx)
	movups	%xmm0, (%rdi,%rdx)
	jmp	21f
20:
	je	21f
	shlq	$5, %rdx
	movups	(%rdi,%rdx), %xmm0
	movups	16(%rdi,%rdx), %xmm1
	movaps	%xmm1, 64(%rsp)
	movaps	%xmm0, 48(%rsp)
	movups	96(%rdi), %xmm0
	movups	112(%rdi), %xmm1
	movups	%xmm0, (%rdi,%rdx)
	movups	%xmm1, 16(%rdi,%rdx)
	movaps	48(%rsp), %xmm0
	movaps	64(%rsp), %xmm1
	movups	%xmm1, 112(%rdi)
	movups	%xmm0, 96(%rdi)
21:
	cmpq	$3, %r11
	je	27f
	leaq	-5(%rsi), %rdx
	cmpq	$4, %rdx
	jbe	22f
	shlq	$5, %rdx
	movups	128(%rdi), %xmm0
	movups	144(%rdi), %xmm1
	movaps	%xmm1, 64(%rsp)
	movaps	%xmm0, 48(%rsp)
	movups	(%rdi,%rdx), %xmm0
	movups	16(%rdi,%rdx), %xmm1
	movups	%xmm0, 128(%rdi)
	movups	%xmm1, 144(%rdi)
	movaps	48(%rsp), %xmm0
	movaps	64(%rsp), %xmm1
	movups	%xmm1, 16(%rdi,%rdx)
	movups	%xmm0, (%rdi,%rdx)
	jmp	23f
22:
	je	23f
	shlq	$5, %rdx
	movups	(%rdi,%rdx), %xmm0
	movups	16(%rdi,%rdx), %xmm1
	movaps	%xmm1, 64(%rsp)
	movaps	%xmm0, 48(%rsp)
	movups	128(%rdi), %xmm0
	movups	144(%rdi), %xmm1
	movups	%xmm0, (%rdi,%rdx)
	movups	%xmm1, 16(%rdi,%rdx)
	movaps	48(%rsp), %xmm0
	movaps	64(%rsp), %xmm1
	movups	%xmm1, 144(%rdi)
	movups	%xmm0, 128(%rdi)
23:
	cmpq	$4, %r11
	je	27f
	leaq	-6(%rsi), %rdx
	cmpq	$5, %rdx
	jbe	24f
	shlq	$5, %rdx
	movups	160(%rdi), %xmm0
	movups	176(%rdi), %xmm1
	movaps	%xmm1, 64(%rsp)
	movaps	%xmm0, 48(%rsp)
	movups	(%rdi,%rdx), %xmm0
	movups	16(%rdi,%rdx), %xmm1
	movups	%xmm0, 160(%rdi)
	movups	%xmm1, 176(%rdi)
	movaps	48(%rsp), %xmm0
	movaps	64(%rsp), %xmm1
	movups	%xmm1, 16(%rdi,%rdx)
	movups	%xmm0, (%rdi,%rdx)
	jmp	25f
24:
	je	25f
	shlq	$5, %rdx
	movups	(%rdi,%rdx), %xmm0
	movups	16(%rdi,%rdx), %xmm1
	movaps	%xmm1, 64(%rsp)
	movaps	%xmm0, 48(%rsp)
	movups	160(%rdi), %xmm0
	movups	176(%rdi), %xmm1
	movups	%xmm0, (%rdi,%rdx)
	movups	%xmm1, 16(%rdi,%rdx)
	movaps	48(%rsp), %xmm0
	movaps	64(%rsp), %xmm1
	movups	%xmm1, 176(%rdi)
	movups	%xmm0, 160(%rdi)
25:
	cmpq	$5, %r11
	je	27f
	addq	$-7, %rsi
	cmpq	$6, %rsi
	jbe	26f
	shlq	$5, %rsi
	movups	192(%rdi), %xmm0
	movups	208(%rdi), %xmm1
	movaps	%xmm1, 64(%rsp)
	movaps	%xmm0, 48(%rsp)
	movups	(%rdi,%rsi), %xmm0
	movups	16(%rdi,%rsi), %xmm1
	movups	%xmm0, 192(%rdi)
	movups	%xmm1, 208(%rdi)
	movaps	48(%rsp), %xmm0
	movaps	64(%rsp), %xmm1
	movups	%xmm1, 16(%rdi,%rsi)
	movups	%xmm0, (%rdi,%rsi)
	jmp	27f
26:
	je	27f
	shlq	$5, %rsi
	movups	(%rdi,%rsi), %xmm0
	movups	16(%rdi,%rsi), %xmm1
	movaps	%xmm1, 64(%rsp)
	movaps	%xmm0, 48(%rsp)
	movups	192(%rdi), %xmm0
	movups	208(%rdi), %xmm1
	movups	%xmm0, (%rdi,%rsi)
	movups	%xmm1, 16(%rdi,%rsi)
	movaps	48(%rsp), %xmm0
	movaps	64(%rsp), %xmm1
	movups	%xmm1, 208(%rdi)
	movups	%xmm0, 192(%rdi)
27:
	movq	40(%rsp), %rdi
	jmp	6b
28:
	.size	"core::slice::sort::runs::climb::<#b4bd7111e818b46c>", 28b-"core::slice::sort::runs::climb::<#b4bd7111e818b46c>"

	.text
	.p2align	4
	.type	"core::slice::sort::runs::climb::<#cc3e8e382a4904f8>",@function
"core::slice::sort::runs::climb::<#cc3e8e382a4904f8>":
	pushq	%rbp
	pushq	%r15
	pushq	%r14
	pushq	%r13
	pushq	%r12
	pushq	%rbx
	subq	$104, %rsp
	movl	%r9d, %ebp
	movq	%r8, %rbx
	movq	$0, 72(%rsp)
	movq	%rdx, %rax
	subq	%r8, %rax
	jne	1f
	movq	%rbx, (%rdi)
	movb	%bpl, 8(%rdi)
	movl	$0, 9(%rdi)
	movl	$0, 12(%rdi)
	movq	%rbx, 16(%rdi)
	movb	%bpl, 24(%rdi)
	movq	$0, 25(%rdi)
	movq	$0, 32(%rdi)
	jmp	24f
1:
	movq	%rsi, %r13
	movq	%rcx, 80(%rsp)
	movq	%rdi, 96(%rsp)
	xorl	%r9d, %r9d
	movq	%rdx, %r12
	movl	$0, %r15d
	cmpq	168(%rsp), %rax
	movq	%rdx, 32(%rsp)
	jb	16f
	leaq	2(%rbx), %r12
	leaq	(,%rbx,8), %r15
	leaq	8(,%rbx,8), %rdi
	addq	%r13, %rdi
	movq	(%r13,%rbx,8), %rsi
	callq	"core::slice::sort::order::ByOrder::less::<#878f6745e8fab0b2>"
	movl	%eax, %r14d
	testb	%al, %al
	je	3f
	movq	32(%rsp), %rdx
	cmpq	%rdx, %r12
	jae	8f
	addq	%r13, %r15
	addq	$16, %r15
	.p2align	4
2:
	movq	-8(%r15), %rsi
	movq	%r15, %rdi
	callq	"core::slice::sort::order::ByOrder::less::<#878f6745e8fab0b2>"
	testb	%al, %al
	je	6f
	incq	%r12
	addq	$8, %r15
	movq	32(%rsp), %rdx
	cmpq	%r12, %rdx
	jne	2b
	jmp	5f
3:
	movq	32(%rsp), %rdx
	cmpq	%rdx, %r12
	jae	13f
	addq	%r13, %r15
	addq	$16, %r15
	.p2align	4
4:
	movq	-8(%r15), %rsi
	movq	%r15, %rdi
	callq	"core::slice::sort::order::ByOrder::less::<#878f6745e8fab0b2>"
	testb	%al, %al
	jne	6f
	incq	%r12
	addq	$8, %r15
	movq	32(%rsp), %rdx
	cmpq	%r12, %rdx
	jne	4b
5:
	movq	%rdx, %r12
	jmp	7f
6:
	movq	32(%rsp), %rdx
7:
	movq	%r12, %rax
	subq	%rbx, %rax
	cmpq	168(%rsp), %rax
	movl	$0, %r9d
	jb	14f
	movb	$1, %r15b
	testb	%r14b, %r14b
	je	16f
	cmpq	$15, %rax
	jbe	25f
	movq	%rax, %rdx
	shrq	%rdx
	subq	%rdx, %rax
	leaq	(,%rbx,8), %rdi
	addq	%r13, %rdi
	leaq	(%rdi,%rax,8), %rsi
	callq	"core::slice::edits::mirror::<*>"
	xorl	%r9d, %r9d
	movq	32(%rsp), %rdx
	jmp	16f
8:
	movl	$2, %eax
	cmpq	$2, 168(%rsp)
	movl	$0, %r9d
	ja	14f
9:
	leaq	-2(%rax), %rcx
	shrq	%rcx
	incq	%rcx
	decq	%rax
	xorl	%r8d, %r8d
	leaq	(,%rbx,8), %r10
	addq	%r13, %r10
	jmp	12f
	.p2align	4
10:
	movq	(%r10,%r8,8), %rsi
	movq	(%r10,%rax,8), %rdi
	movq	%rdi, (%r10,%r8,8)
	movq	%rsi, (%r10,%rax,8)
11:
	incq	%r8
	decq	%rax
	cmpq	%r8, %rcx
	je	15f
12:
	cmpq	%rax, %r8
	jb	10b
	jbe	11b
	movq	(%r10,%rax,8), %rsi
	movq	(%r10,%r8,8), %rdi
	movq	%rdi, (%r10,%rax,8)
	movq	%rsi, (%r10,%r8,8)
	jmp	11b
13:
	movb	$1, %r15b
	cmpq	$3, 168(%rsp)
	movl	$0, %r9d
	jb	16f
14:
	movq	168(%rsp), %rax
	leaq	(%rax,%rbx), %r12
	xorl	%r15d, %r15d
	jmp	16f
15:
	movb	$1, %r15b
16:
	movq	80(%rsp), %rsi
	leaq	(%rbx,%rsi), %rax
	movq	176(%rsp), %rdi
	imulq	%rdi, %rax
	leaq	(%r12,%rbx), %rcx
	imulq	%rdi, %rcx
	xorq	%rax, %rcx
	movl	$127, %edi
	bsrq	%rcx, %rdi
	xorl	$63, %edi
	leal	1(%rdi), %eax
	movq	%rbx, 40(%rsp)
	movb	%bpl, 48(%rsp)
	movl	$0, 49(%rsp)
	movl	$0, 52(%rsp)
	movq	%r12, 56(%rsp)
	movb	%r15b, 64(%rsp)
	movl	$0, 65(%rsp)
	movl	$0, 68(%rsp)
	movl	%eax, 72(%rsp)
	cmpl	%edi, 160(%rsp)
	ja	23f
	movq	184(%rsp), %r15
	leaq	(,%rsi,8), %rcx
	addq	%r13, %rcx
	movq	%rcx, 88(%rsp)
	jmp	19f
	.p2align	4
17:
	movl	%r12d, %ebp
18:
	movq	32(%rsp), %rdx
	movb	%bpl, 48(%rsp)
	leaq	49(%rsp), %rax
	movl	$0, 3(%rax)
	movl	$0, (%rax)
	movl	72(%rsp), %eax
	cmpl	%eax, 160(%rsp)
	jae	22f
19:
	movq	%rbx, %r14
	movq	56(%rsp), %r8
	movl	64(%rsp), %r9d
	movq	%r15, 24(%rsp)
	movq	176(%rsp), %rcx
	movq	%rcx, 16(%rsp)
	movq	168(%rsp), %rcx
	movq	%rcx, 8(%rsp)
	movl	%eax, (%rsp)
	leaq	40(%rsp), %rdi
	movq	%r13, %rsi
	movq	%rbx, %rcx
	callq	"core::slice::sort::runs::climb::<#cc3e8e382a4904f8>"
	movq	40(%rsp), %rbx
	movzbl	48(%rsp), %r12d
	movl	%r12d, %eax
	orb	%bpl, %al
	testb	$1, %al
	je	17b
	testb	$1, %bpl
	jne	20f
	movq	%r14, %rdx
	subq	80(%rsp), %rdx
	movl	$127, %eax
	bsrq	%rdx, %rax
	xorl	$63, %eax
	addl	%eax, %eax
	movl	$126, %ecx
	subl	%eax, %ecx
	movq	88(%rsp), %rdi
	movq	%rdx, %rsi
	movq	%r15, %r8
	callq	"core::slice::sort::stable::quicksort::<#cc3e8e382a4904f8>"
20:
	leaq	(,%r14,8), %rbp
	testb	$1, %r12b
	jne	21f
	movq	%r13, %rdi
	addq	%rbp, %rdi
	movq	%rbx, %rdx
	subq	%r14, %rdx
	movl	$127, %eax
	bsrq	%rdx, %rax
	xorl	$63, %eax
	addl	%eax, %eax
	movl	$126, %ecx
	subl	%eax, %ecx
	movq	%rdx, %rsi
	movq	%r15, %r8
	callq	"core::slice::sort::stable::quicksort::<#cc3e8e382a4904f8>"
21:
	movq	%r13, %rdi
	addq	%rbp, %rdi
	movq	-8(%r13,%rbp), %rsi
	callq	"core::slice::sort::order::ByOrder::less::<#878f6745e8fab0b2>"
	movb	$1, %bpl
	testb	%al, %al
	je	18b
	movq	%rbx, %rsi
	movq	80(%rsp), %rax
	subq	%rax, %rsi
	subq	%rax, %r14
	movq	88(%rsp), %rdi
	movq	%r14, %rdx
	movq	%r15, %rcx
	callq	"core::slice::sort::merge::merge::<#cc3e8e382a4904f8>"
	jmp	18b
22:
	movq	56(%rsp), %r12
	movzbl	64(%rsp), %r15d
	movl	76(%rsp), %r9d
23:
	movq	96(%rsp), %rsi
	movq	%rbx, (%rsi)
	movb	%bpl, 8(%rsi)
	leaq	49(%rsp), %rdi
	movl	(%rdi), %ecx
	movl	3(%rdi), %edx
	movl	%ecx, 9(%rsi)
	movl	%edx, 12(%rsi)
	movq	%r12, 16(%rsi)
	movb	%r15b, 24(%rsi)
	movl	16(%rdi), %ecx
	movl	19(%rdi), %edx
	movl	%ecx, 25(%rsi)
	movl	%edx, 28(%rsi)
	movl	%eax, 32(%rsi)
	movl	%r9d, 36(%rsi)
24:
	addq	$104, %rsp
	popq	%rbx
	popq	%r12
	popq	%r13
	popq	%r14
	popq	%r15
	popq	%rbp
	retq
25:
	cmpq	$2, %rax
	jae	9b
	jmp	16b
26:
	.size	"core::slice::sort::runs::climb::<#cc3e8e382a4904f8>", 26b-"core::slice::sort::runs::climb::<#cc3e8e382a4904f8>"

	.text
	.p2align	4
	.type	"core::slice::sort::runs::climb::<#f98e8d76978ecc20>",@function
"core::slice::sort::runs::climb::<#f98e8d76978ecc20>":
	pushq	%rbp
	pushq	%r15
	pushq	%r14
	pushq	%r13
	pushq	%r12
	pushq	%rbx
	subq	$152, %rsp
	movl	%r9d, %ebp
	movq	%r8, %r12
	movq	%rsi, %r13
	movq	$0, 136(%rsp)
	movq	%rdx, %rsi
	subq	%r8, %rsi
	jne	1f
	movq	%r12, (%rdi)
	movb	%bpl, 8(%rdi)
	movl	$0, 9(%rdi)
	movl	$0, 12(%rdi)
	movq	%r12, 16(%rdi)
	movb	%bpl, 24(%rdi)
	movq	$0, 25(%rdi)
	movq	$0, 32(%rdi)
	jmp	17f
1:
	movq	216(%rsp), %r10
	xorl	%r15d, %r15d
	movq	%rdx, %rax
	movl	$0, %r14d
	cmpq	%r10, %rsi
	movq	%rcx, 88(%rsp)
	movq	%rdx, 96(%rsp)
	movq	%rdi, 40(%rsp)
	jb	4f
	movq	%r13, %rdi
	movq	%rdx, %rsi
	movq	%r12, %rdx
	callq	"core::slice::sort::pivot::run_from::<#f98e8d76978ecc20>"
	movq	216(%rsp), %r10
	movq	%rax, %rsi
	subq	%r12, %rsi
	cmpq	%r10, %rsi
	jae	2f
	leaq	(%r10,%r12), %rax
	xorl	%r14d, %r14d
	jmp	3f
2:
	movb	$1, %r14b
	cmpb	$1, %dl
	jne	3f
	movq	%rax, %rbx
	movq	%r12, %rdi
	shlq	$5, %rdi
	addq	%r13, %rdi
	cmpq	$15, %rsi
	jbe	18f
	movq	%rsi, %rdx
	shrq	%rdx
	subq	%rdx, %rsi
	shlq	$5, %rsi
	addq	%rdi, %rsi
	callq	"core::slice::edits::mirror::<24'(,)::<#ee13f2425f1aee9b>>"
	movq	40(%rsp), %rdi
	movq	88(%rsp), %rcx
	movq	96(%rsp), %rdx
	movq	216(%rsp), %r10
	movq	%rbx, %rax
	jmp	4f
3:
	movq	40(%rsp), %rdi
	movq	88(%rsp), %rcx
	movq	96(%rsp), %rdx
4:
	leaq	(%r12,%rcx), %r9
	movq	224(%rsp), %r8
	imulq	%r8, %r9
	leaq	(%rax,%r12), %rsi
	imulq	%r8, %rsi
	xorq	%r9, %rsi
	movl	$127, %r8d
	bsrq	%rsi, %r8
	xorl	$63, %r8d
	leal	1(%r8), %esi
	movq	%r12, 104(%rsp)
	movb	%bpl, 112(%rsp)
	leaq	113(%rsp), %rbx
	movl	$0, 113(%rsp)
	movl	$0, 116(%rsp)
	movq	%rax, 120(%rsp)
	movb	%r14b, 128(%rsp)
	movl	$0, 129(%rsp)
	movl	$0, 132(%rsp)
	movl	%esi, 136(%rsp)
	cmpl	%r8d, 208(%rsp)
	ja	16f
	shlq	$5, %rcx
	addq	%r13, %rcx
	movq	%rcx, 144(%rsp)
	jmp	7f
	.p2align	4
5:
	movl	%r15d, %ebp
6:
	movb	%bpl, 112(%rsp)
	movl	$0, 3(%rbx)
	movl	$0, (%rbx)
	movl	136(%rsp), %esi
	cmpl	%esi, 208(%rsp)
	movq	96(%rsp), %rdx
	movq	216(%rsp), %r10
	jae	15f
7:
	movq	%r12, %r14
	movq	120(%rsp), %r8
	movl	128(%rsp), %r9d
	movq	232(%rsp), %rax
	movq	%rax, 24(%rsp)
	movq	224(%rsp), %rcx
	movq	%rcx, 16(%rsp)
	movq	%r10, 8(%rsp)
	movl	%esi, (%rsp)
	leaq	104(%rsp), %rdi
	movq	%r13, %rsi
	movq	%r12, %rcx
	callq	"core::slice::sort::runs::climb::<#f98e8d76978ecc20>"
	movq	104(%rsp), %r12
	movzbl	112(%rsp), %r15d
	movl	%r15d, %eax
	orb	%bpl, %al
	testb	$1, %al
	je	5b
	testb	$1, %bpl
	jne	8f
	movq	%r14, %rdx
	subq	88(%rsp), %rdx
	movl	$127, %eax
	bsrq	%rdx, %rax
	xorl	$63, %eax
	addl	%eax, %eax
	movl	$126, %ecx
	subl	%eax, %ecx
	movq	144(%rsp), %rdi
	movq	%rdx, %rsi
	movq	232(%rsp), %r8
	callq	"core::slice::sort::stable::quicksort::<#f98e8d76978ecc20>"
8:
	movq	%r14, %rbp
	shlq	$5, %rbp
	testb	$1, %r15b
	jne	9f
	movq	%r13, %rdi
	addq	%rbp, %rdi
	movq	%r12, %rdx
	subq	%r14, %rdx
	movl	$127, %eax
	bsrq	%rdx, %rax
	xorl	$63, %eax
	addl	%eax, %eax
	movl	$126, %ecx
	subl	%eax, %ecx
	movq	%rdx, %rsi
	movq	232(%rsp), %r8
	callq	"core::slice::sort::stable::quicksort::<#f98e8d76978ecc20>"
9:
	movq	(%r13,%rbp), %rdi
	movq	8(%r13,%rbp), %rsi
	movq	-32(%r13,%rbp), %rdx
	movq	-24(%r13,%rbp), %rcx
	cmpq	%rsi, %rcx
	movq	%rsi, %rax
	cmovbq	%rcx, %rax
	cmpq	$24, %rax
	movl	$24, %r8d
	cmovbq	%rax, %r8
	cmpq	$8, %rax
	jb	11f
	xorl	%eax, %eax
	.p2align	4
10:
	movq	(%rdi,%rax), %r9
	movq	(%rdx,%rax), %r10
	cmpq	%r10, %r9
	jne	13f
	addq	$8, %rax
	addq	$-8, %r8
	cmpq	$7, %r8
	ja	10b
	jmp	12f
	.p2align	4
11:
	xorl	%eax, %eax
12:
	addq	%rax, %rdi
	subq	%rax, %rsi
	addq	%rax, %rdx
	subq	%rax, %rcx
	callq	"core::cmp::slices::RefSliceOrd::cmp::<#914af4d8504a0b72>"
	movb	$1, %bpl
	testb	%al, %al
	jne	6b
	jmp	14f
13:
	bswapq	%r10
	bswapq	%r9
	movb	$1, %bpl
	cmpq	%r10, %r9
	jae	6b
14:
	movq	%r12, %rsi
	movq	88(%rsp), %rax
	subq	%rax, %rsi
	subq	%rax, %r14
	movq	144(%rsp), %rdi
	movq	%r14, %rdx
	movq	232(%rsp), %rcx
	callq	"core::slice::sort::merge::merge::<#f98e8d76978ecc20>"
	movb	$1, %bpl
	jmp	6b
15:
	movq	120(%rsp), %rax
	movzbl	128(%rsp), %r14d
	movl	140(%rsp), %r15d
	movq	40(%rsp), %rdi
16:
	movq	%r12, (%rdi)
	movb	%bpl, 8(%rdi)
	movl	(%rbx), %ecx
	movl	3(%rbx), %edx
	movl	%ecx, 9(%rdi)
	movl	%edx, 12(%rdi)
	movq	%rax, 16(%rdi)
	movb	%r14b, 24(%rdi)
	movl	16(%rbx), %ecx
	movl	19(%rbx), %edx
	movl	%ecx, 25(%rdi)
	movl	%edx, 28(%rdi)
	movl	%esi, 32(%rdi)
	movl	%r15d, 36(%rdi)
17:
	addq	$152, %rsp
	popq	%rbx
	popq	%r12
	popq	%r13
	popq	%r14
	popq	%r15
	popq	%rbp
	retq
18:
	cmpq	$2, %rsi
	jb	20f
	leaq	-2(%rsi), %r8
	movq	%r8, %r9
	shrq	%r9
	movq	%rsi, %rdx
	decq	%rdx
	je	19f
	shlq	$5, %rdx
	movups	(%rdi), %xmm0
	movups	16(%rdi), %xmm1
	movaps	%xmm1, 64(%rsp)
	movaps	%xmm0, 48(%rsp)
	movups	(%rdi,%rdx), %xmm0
	movups	16(%rdi,%rdx), %xmm1
	movups	%xmm0, (%rdi)
	movups	%xmm1, 16(%rdi)
	movaps	48(%rsp), %xmm0
	movaps	64(%rsp), %xmm1
	movups	%xmm1, 16(%rdi,%rdx)
	movups	%xmm0, (%rdi,%rdx)
19:
	testq	%r9, %r9
	movq	88(%rsp), %rcx
	movq	96(%rsp), %rdx
	movq	%rbx, %rax
	je	32f
	cmpq	$1, %r8
	jbe	21f
	shlq	$5, %r8
	movups	32(%rdi), %xmm0
	movups	48(%rdi), %xmm1
	movaps	%xmm1, 64(%rsp)
	movaps	%xmm0, 48(%rsp)
	movups	(%rdi,%r8), %xmm0
	movups	16(%rdi,%r8), %xmm1
	movups	%xmm0, 32(%rdi)
	movups	%xmm1, 48(%rdi)
	movaps	48(%rsp), %xmm0
	movaps	64(%rsp), %xmm1
	movups	%xmm1, 16(%rdi,%r8)
	movups	%xmm0, (%rdi,%r8)
	jmp	22f
20:
	movq	40(%rsp), %rdi
	movq	88(%rsp), %rcx
	movq	96(%rsp), %rdx
	movq	%rbx, %rax
	jmp	4b
21:
	testq	%r8, %r8
	jne	22f
	movups	(%rdi), %xmm0
	movups	16(%rdi), %xmm1
	movaps	%xmm1, 64(%rsp)
	movaps	%xmm0, 48(%rsp)
	movups	32(%rdi), %xmm0
	movups	48(%rdi), %xmm1
	movups	%xmm0, (%rdi)
	movups	%xmm1, 16(%rdi)
	movaps	48(%rsp), %xmm0
	movaps	64(%rsp), %xmm1
	movups	%xmm0, 32(%rdi)
	movups	%xmm1, 48(%rdi)
22:
	cmpq	$1, %r9
	je	32f
	leaq	-3(%rsi), %r8
	cmpq	$2, %r8
	jbe	23f
	shlq	$5, %r8
	movups	64(%rdi), %xmm0
	movups	80(%rdi), %xmm1
	movaps	%xmm1, 64(%rsp)
	movaps	%xmm0, 48(%rsp)
	movups	(%rdi,%r8), %xmm0
	movups	16(%rdi,%r8), %xmm1
	movups	%xmm0, 64(%rdi)
	movups	%xmm1, 80(%rdi)
	movaps	48(%rsp), %xmm0
	movaps	64(%rsp), %xmm1
	movups	%xmm1, 16(%rdi,%r8)
	movups	%xmm0, (%rdi,%r8)
	jmp	24f
23:
	je	24f
	shlq	$5, %r8
	movups	(%rdi,%r8), %xmm0
	movups	16(%rdi,%r8), %xmm1
	movaps	%xmm1, 64(%rsp)
	movaps	%xmm0, 48(%rsp)
	movups	64(%rdi), %xmm0
	movups	80(%rdi), %xmm1
	movups	%xmm0, (%rdi,%r8)
	movups	%xmm1, 16(%rdi,%r8)
	movaps	48(%rsp), %xmm0
	movaps	64(%rsp), %xmm1
	movups	%xmm1, 80(%rdi)
	movups	%xmm0, 64(%rdi)
24:
	cmpq	$2, %r9
	je	32f
	leaq	-4(%rsi), %r8
	cmpq	$3, %r8
	jbe	25f
	shlq	$5, %r8
	movups	96(%rdi), %xmm0
	movups	112(%rdi), %xmm1
	movaps	%xmm1, 64(%rsp)
	movaps	%xmm0, 48(%rsp)
	movups	(%rdi,%r8), %xmm0
	movups	16(%rdi,%r8), %xmm1
	movups	%xmm0, 96(%rdi)
	movups	%xmm1, 112(%rdi)
	movaps	48(%rsp), %xmm0
	movaps	64(%rsp), %xmm1
	movups	%xmm1, 16(%rdi,%r8)
	movups	%xmm0, (%rdi,%r8)
	jmp	26f
25:
	je	26f
	shlq	$5, %r8
	movups	(%rdi,%r8), %xmm0
	movups	16(%rdi,%r8), %xmm1
	movaps	%xmm1, 64(%rsp)
	movaps	%xmm0, 48(%rsp)
	movups	96(%rdi), %xmm0
	movups	112(%rdi), %xmm1
	movups	%xmm0, (%rdi,%r8)
	movups	%xmm1, 16(%rdi,%r8)
	movaps	48(%rsp), %xmm0
	movaps	64(%rsp), %xmm1
	movups	%xmm1, 112(%rdi)
	movups	%xmm0, 96(%rdi)
26:
	cmpq	$3, %r9
	je	32f
	leaq	-5(%rsi), %r8
	cmpq	$4, %r8
	jbe	27f
	shlq	$5, %r8
	movups	128(%rdi), %xmm0
	movups	144(%rdi), %xmm1
	movaps	%xmm1, 64(%rsp)
	movaps	%xmm0, 48(%rsp)
	movups	(%rdi,%r8), %xmm0
	movups	16(%rdi,%r8), %xmm1
	movups	%xmm0, 128(%rdi)
	movups	%xmm1, 144(%rdi)
	movaps	48(%rsp), %xmm0
	movaps	64(%rsp), %xmm1
	movups	%xmm1, 16(%rdi,%r8)
	movups	%xmm0, (%rdi,%r8)
	jmp	28f
27:
	je	28f
	shlq	$5, %r8
	movups	(%rdi,%r8), %xmm0
	movups	16(%rdi,%r8), %xmm1
	movaps	%xmm1, 64(%rsp)
	movaps	%xmm0, 48(%rsp)
	movups	128(%rdi), %xmm0
	movups	144(%rdi), %xmm1
	movups	%xmm0, (%rdi,%r8)
	movups	%xmm1, 16(%rdi,%r8)
	movaps	48(%rsp), %xmm0
	movaps	64(%rsp), %xmm1
	movups	%xmm1, 144(%rdi)
	movups	%xmm0, 128(%rdi)
28:
	cmpq	$4, %r9
	je	32f
	leaq	-6(%rsi), %r8
	cmpq	$5, %r8
	jbe	29f
	shlq	$5, %r8
	movups	160(%rdi), %xmm0
	movups	176(%rdi), %xmm1
	movaps	%xmm1, 64(%rsp)
	movaps	%xmm0, 48(%rsp)
	movups	(%rdi,%r8), %xmm0
	movups	16(%rdi,%r8), %xmm1
	movups	%xmm0, 160(%rdi)
	movups	%xmm1, 176(%rdi)
	movaps	48(%rsp), %xmm0
	movaps	64(%rsp), %xmm1
	movups	%xmm1, 16(%rdi,%r8)
	movups	%xmm0, (%rdi,%r8)
	jmp	30f
29:
	je	30f
	shlq	$5, %r8
	movups	(%rdi,%r8), %xmm0
	movups	16(%rdi,%r8), %xmm1
	movaps	%xmm1, 64(%rsp)
	movaps	%xmm0, 48(%rsp)
	movups	160(%rdi), %xmm0
	movups	176(%rdi), %xmm1
	movups	%xmm0, (%rdi,%r8)
	movups	%xmm1, 16(%rdi,%r8)
	movaps	48(%rsp), %xmm0
	movaps	64(%rsp), %xmm1
	movups	%xmm1, 176(%rdi)
	movups	%xmm0, 160(%rdi)
30:
	cmpq	$5, %r9
	je	32f
	addq	$-7, %rsi
	cmpq	$6, %rsi
	jbe	31f
	shlq	$5, %rsi
	movups	192(%rdi), %xmm0
	movups	208(%rdi), %xmm1
	movaps	%xmm1, 64(%rsp)
	movaps	%xmm0, 48(%rsp)
	movups	(%rdi,%rsi), %xmm0
	movups	16(%rdi,%rsi), %xmm1
	movups	%xmm0, 192(%rdi)
	movups	%xmm1, 208(%rdi)
	movaps	48(%rsp), %xmm0
	movaps	64(%rsp), %xmm1
	movups	%xmm1, 16(%rdi,%rsi)
	movups	%xmm0, (%rdi,%rsi)
	jmp	32f
31:
	je	32f
	shlq	$5, %rsi
	movups	(%rdi,%rsi), %xmm0
	movups	16(%rdi,%rsi), %xmm1
	movaps	%xmm1, 64(%rsp)
	movaps	%xmm0, 48(%rsp)
	movups	192(%rdi), %xmm0
	movups	208(%rdi), %xmm1
	movups	%xmm0, (%rdi,%rsi)
	movups	%xmm1, 16(%rdi,%rsi)
	movaps	48(%rsp), %xmm0
	movaps	64(%rsp), %xmm1
	movups	%xmm1, 208(%rdi)
	movups	%xmm0, 192(%rdi)
32:
	movq	40(%rsp), %rdi
	jmp	4b
33:
	.size	"core::slice::sort::runs::climb::<#f98e8d76978ecc20>", 33b-"core::slice::sort::runs::climb::<#f98e8d76978ecc20>"

	.text
	.p2align	4
	.type	"core::slice::sort::short::sort::<#12eb916b83b0f891>",@function
"core::slice::sort::short::sort::<#12eb916b83b0f891>":
	pushq	%rbp
	pushq	%r15
	pushq	%r14
	pushq	%r13
	pushq	%r12
	pushq	%rbx
	subq	$56, %rsp
	movq	%rdx, %rbx
	cmpq	$16, %rsi
	jae	1f
	movq	%rbx, %rdx
	addq	$56, %rsp
	popq	%rbx
	popq	%r12
	popq	%r13
	popq	%r14
	popq	%r15
	popq	%rbp
	jmp	"core::slice::sort::short::sort_half::<#12eb916b83b0f891>"
1:
	movq	%rsi, %r12
	shrq	%r12
	leaq	(%rdi,%r12,8), %r15
	movq	%rsi, %r13
	subq	%r12, %r13
	movq	%rdi, %r14
	movq	%rsi, %rbp
	movq	%r12, %rsi
	movq	%rbx, %rdx
	callq	"core::slice::sort::short::sort_half::<#12eb916b83b0f891>"
	movq	%r15, %rdi
	movq	%r13, %rsi
	movq	%rbx, %rdx
	callq	"core::slice::sort::short::sort_half::<#12eb916b83b0f891>"
	movq	%rbp, %rax
	movq	%r14, %rdi
	movq	(%rbx), %r14
	movq	8(%rbx), %rcx
	movq	%rcx, 8(%rsp)
	xorps	%xmm0, %xmm0
	movaps	%xmm0, 32(%rsp)
	movaps	%xmm0, 16(%rsp)
	leaq	16(%rsp), %rcx
	leaq	(%rcx,%rbp), %r9
	decq	%r9
	xorl	%ecx, %ecx
	movq	%r12, %r15
	movq	%r12, %rsi
	movq	%rbp, %r8
	xorl	%r10d, %r10d
	.p2align	4
2:
	movq	%rsi, %r11
	movl	(%rdi,%rcx,8), %ebp
	movl	(%rdi,%rsi,8), %r13d
	cmpl	%r13d, %ebp
	adcq	$0, %rsi
	movq	%r15, %rdx
	cmpl	%r13d, %ebp
	cmovael	%ecx, %r11d
	movb	%r11b, 16(%rsp,%r10)
	sbbq	$-1, %rcx
	movl	-8(%rdi,%r15,8), %r11d
	movl	-8(%rdi,%r8,8), %ebp
	cmpl	%ebp, %r11d
	sbbq	$0, %r15
	cmpl	%ebp, %r11d
	cmovael	%r8d, %edx
	adcq	$-1, %r8
	decb	%dl
	movb	%dl, (%r9)
	incq	%r10
	decq	%r9
	cmpq	%r10, %r12
	jne	2b
	testb	$1, %al
	je	3f
	cmpq	%r15, %rcx
	movl	%esi, %edx
	cmovbl	%ecx, %edx
	movb	%dl, 16(%rsp,%r12)
3:
	cmpq	%r8, %rsi
	ja	6f
	cmpq	%r15, %rcx
	ja	6f
	movl	%eax, %edx
	andl	$62, %edx
	xorl	%ecx, %ecx
	.p2align	4
4:
	movzbl	16(%rsp,%rcx), %esi
	movq	(%rdi,%rsi,8), %rsi
	movq	%rsi, (%r14,%rcx,8)
	movzbl	17(%rsp,%rcx), %esi
	movq	(%rdi,%rsi,8), %rsi
	movq	%rsi, 8(%r14,%rcx,8)
	addq	$2, %rcx
	cmpq	%rcx, %rdx
	jne	4b
	testb	$1, %al
	je	5f
	movzbl	16(%rsp,%rcx), %edx
	movq	(%rdi,%rdx,8), %rdx
	movq	%rdx, (%r14,%rcx,8)
5:
	leaq	(,%rax,8), %rdx
	movq	%rdi, %rcx
	subq	%r14, %rcx
	cmpq	%rdx, %rcx
	jae	13f
	cmpq	$32, %rcx
	movq	8(%rsp), %r9
	jae	14f
	xorl	%ecx, %ecx
	jmp	16f
6:
	movl	$1, %ecx
	jmp	10f
7:
	xorl	%esi, %esi
8:
	movq	%rdx, (%rdi,%rsi)
9:
	incq	%rcx
	cmpq	%rax, %rcx
	je	21f
10:
	movl	-8(%rdi,%rcx,8), %edx
	cmpl	(%rdi,%rcx,8), %edx
	jae	9b
	movq	%rcx, %rsi
	movq	-8(%rdi,%rcx,8), %r8
	movq	(%rdi,%rcx,8), %rdx
	movq	%r8, (%rdi,%rcx,8)
	decq	%rsi
	je	7b
	.p2align	4
11:
	cmpl	%edx, -8(%rdi,%rsi,8)
	jae	12f
	movq	-8(%rdi,%rsi,8), %r8
	movq	%r8, (%rdi,%rsi,8)
	decq	%rsi
	jne	11b
	xorl	%esi, %esi
12:
	shlq	$3, %rsi
	jmp	8b
13:
	movq	%r14, %rsi
	callq	memmove@PLT
	movq	8(%rsp), %r9
	jmp	20f
14:
	movl	%eax, %ecx
	andl	$60, %ecx
	xorl	%edx, %edx
	.p2align	4
15:
	movups	(%r14,%rdx,8), %xmm0
	movups	16(%r14,%rdx,8), %xmm1
	movups	%xmm0, (%rdi,%rdx,8)
	movups	%xmm1, 16(%rdi,%rdx,8)
	addq	$4, %rdx
	cmpq	%rdx, %rcx
	jne	15b
	cmpq	%rcx, %rax
	je	20f
16:
	movq	%rax, %rsi
	movq	%rcx, %rdx
	andq	$3, %rsi
	je	18f
	movq	%rcx, %rdx
	.p2align	4
17:
	movq	(%r14,%rdx,8), %r8
	movq	%r8, (%rdi,%rdx,8)
	incq	%rdx
	decq	%rsi
	jne	17b
18:
	subq	%rax, %rcx
	cmpq	$-4, %rcx
	ja	20f
	.p2align	4
19:
	movq	(%r14,%rdx,8), %rcx
	movq	%rcx, (%rdi,%rdx,8)
	movq	8(%r14,%rdx,8), %rcx
	movq	%rcx, 8(%rdi,%rdx,8)
	movq	16(%r14,%rdx,8), %rcx
	movq	%rcx, 16(%rdi,%rdx,8)
	movq	24(%r14,%rdx,8), %rcx
	movq	%rcx, 24(%rdi,%rdx,8)
	addq	$4, %rdx
	cmpq	%rdx, %rax
	jne	19b
20:
	movq	%r14, (%rbx)
	movq	%r9, 8(%rbx)
21:
	addq	$56, %rsp
	popq	%rbx
	popq	%r12
	popq	%r13
	popq	%r14
	popq	%r15
	popq	%rbp
	retq
22:
	.size	"core::slice::sort::short::sort::<#12eb916b83b0f891>", 22b-"core::slice::sort::short::sort::<#12eb916b83b0f891>"

	.text
	.p2align	4
	.type	"core::slice::sort::short::sort::<#196989f31ad14034>",@function
"core::slice::sort::short::sort::<#196989f31ad14034>":
	pushq	%rbp
	pushq	%r15
	pushq	%r14
	pushq	%r13
	pushq	%r12
	pushq	%rbx
	subq	$56, %rsp
	movq	%rdx, %rbx
	cmpq	$16, %rsi
	jae	1f
	movq	%rbx, %rdx
	addq	$56, %rsp
	popq	%rbx
	popq	%r12
	popq	%r13
	popq	%r14
	popq	%r15
	popq	%rbp
	jmp	"core::slice::sort::short::sort_half::<#196989f31ad14034>"
1:
	movq	%rsi, %r15
	shrq	%r15
	leaq	(%rdi,%r15,8), %r12
	movq	%rsi, %r13
	subq	%r15, %r13
	movq	%rdi, %r14
	movq	%rsi, %rbp
	movq	%r15, %rsi
	movq	%rbx, %rdx
	callq	"core::slice::sort::short::sort_half::<#196989f31ad14034>"
	movq	%r12, %rdi
	movq	%r13, %rsi
	movq	%rbx, %rdx
	callq	"core::slice::sort::short::sort_half::<#196989f31ad14034>"
	movq	%rbp, %rax
	movq	%r14, %rdi
	movq	(%rbx), %r14
	movq	8(%rbx), %rcx
	movq	%rcx, 8(%rsp)
	xorps	%xmm0, %xmm0
	movaps	%xmm0, 32(%rsp)
	movaps	%xmm0, 16(%rsp)
	leaq	16(%rsp), %rcx
	leaq	(%rcx,%rbp), %r9
	decq	%r9
	xorl	%ecx, %ecx
	movq	%r15, %rdx
	movq	%r15, %rsi
	movq	%rbp, %r8
	xorl	%r10d, %r10d
	.p2align	4
2:
	movq	%rsi, %r13
	movq	%rdx, %r11
	movq	(%rdi,%rsi,8), %rbp
	movq	(%rdi,%rcx,8), %r12
	movl	56(%r12), %r12d
	movl	56(%rbp), %ebp
	cmpl	%ebp, %r12d
	adcq	$0, %rsi
	cmpl	%ebp, %r12d
	cmovael	%ecx, %r13d
	sbbq	$-1, %rcx
	movb	%r13b, 16(%rsp,%r10)
	movq	-8(%rdi,%r8,8), %r12
	movq	-8(%rdi,%rdx,8), %r13
	movl	56(%r13), %ebp
	movl	56(%r12), %r12d
	cmpl	%r12d, %ebp
	sbbq	$0, %rdx
	cmpl	%r12d, %ebp
	cmovael	%r8d, %r11d
	adcq	$-1, %r8
	decb	%r11b
	movb	%r11b, (%r9)
	incq	%r10
	decq	%r9
	cmpq	%r10, %r15
	jne	2b
	testb	$1, %al
	je	3f
	cmpq	%rdx, %rcx
	movl	%esi, %r9d
	cmovbl	%ecx, %r9d
	movb	%r9b, 16(%rsp,%r15)
3:
	cmpq	%r8, %rsi
	ja	6f
	cmpq	%rdx, %rcx
	ja	6f
	movl	%eax, %edx
	andl	$62, %edx
	xorl	%ecx, %ecx
	.p2align	4
4:
	movzbl	16(%rsp,%rcx), %esi
	movq	(%rdi,%rsi,8), %rsi
	movq	%rsi, (%r14,%rcx,8)
	movzbl	17(%rsp,%rcx), %esi
	movq	(%rdi,%rsi,8), %rsi
	movq	%rsi, 8(%r14,%rcx,8)
	addq	$2, %rcx
	cmpq	%rcx, %rdx
	jne	4b
	testb	$1, %al
	je	5f
	movzbl	16(%rsp,%rcx), %edx
	movq	(%rdi,%rdx,8), %rdx
	movq	%rdx, (%r14,%rcx,8)
5:
	leaq	(,%rax,8), %rdx
	movq	%rdi, %rcx
	subq	%r14, %rcx
	cmpq	%rdx, %rcx
	jae	13f
	cmpq	$32, %rcx
	movq	8(%rsp), %r9
	jae	14f
	xorl	%ecx, %ecx
	jmp	16f
6:
	movl	$1, %ecx
	jmp	10f
7:
	xorl	%esi, %esi
8:
	movq	%rdx, (%rdi,%rsi)
9:
	incq	%rcx
	cmpq	%rax, %rcx
	je	21f
10:
	movq	-8(%rdi,%rcx,8), %r8
	movq	(%rdi,%rcx,8), %rdx
	movl	56(%r8), %esi
	cmpl	56(%rdx), %esi
	jae	9b
	movq	%rcx, %rsi
	movq	%r8, (%rdi,%rcx,8)
	decq	%rsi
	je	7b
	.p2align	4
11:
	movq	-8(%rdi,%rsi,8), %r8
	movl	56(%r8), %r9d
	cmpl	56(%rdx), %r9d
	jae	12f
	movq	%r8, (%rdi,%rsi,8)
	decq	%rsi
	jne	11b
	xorl	%esi, %esi
12:
	shlq	$3, %rsi
	jmp	8b
13:
	movq	%r14, %rsi
	callq	memmove@PLT
	movq	8(%rsp), %r9
	jmp	20f
14:
	movl	%eax, %ecx
	andl	$60, %ecx
	xorl	%edx, %edx
	.p2align	4
15:
	movups	(%r14,%rdx,8), %xmm0
	movups	16(%r14,%rdx,8), %xmm1
	movups	%xmm0, (%rdi,%rdx,8)
	movups	%xmm1, 16(%rdi,%rdx,8)
	addq	$4, %rdx
	cmpq	%rdx, %rcx
	jne	15b
	cmpq	%rcx, %rax
	je	20f
16:
	movq	%rax, %rsi
	movq	%rcx, %rdx
	andq	$3, %rsi
	je	18f
	movq	%rcx, %rdx
	.p2align	4
17:
	movq	(%r14,%rdx,8), %r8
	movq	%r8, (%rdi,%rdx,8)
	incq	%rdx
	decq	%rsi
	jne	17b
18:
	subq	%rax, %rcx
	cmpq	$-4, %rcx
	ja	20f
	.p2align	4
19:
	movq	(%r14,%rdx,8), %rcx
	movq	%rcx, (%rdi,%rdx,8)
	movq	8(%r14,%rdx,8), %rcx
	movq	%rcx, 8(%rdi,%rdx,8)
	movq	16(%r14,%rdx,8), %rcx
	movq	%rcx, 16(%rdi,%rdx,8)
	movq	24(%r14,%rdx,8), %rcx
	movq	%rcx, 24(%rdi,%rdx,8)
	addq	$4, %rdx
	cmpq	%rdx, %rax
	jne	19b
20:
	movq	%r14, (%rbx)
	movq	%r9, 8(%rbx)
21:
	addq	$56, %rsp
	popq	%rbx
	popq	%r12
	popq	%r13
	popq	%r14
	popq	%r15
	popq	%rbp
	retq
22:
	.size	"core::slice::sort::short::sort::<#196989f31ad14034>", 22b-"core::slice::sort::short::sort::<#196989f31ad14034>"

	.text
	.p2align	4
	.type	"core::slice::sort::short::sort::<#24df1801f4a811cc>",@function
"core::slice::sort::short::sort::<#24df1801f4a811cc>":
	cmpq	$16, %rsi
	jb	"core::slice::sort::short::sort_half::<#24df1801f4a811cc>"
	pushq	%rbp
	pushq	%r15
	pushq	%r14
	pushq	%r13
	pushq	%r12
	pushq	%rbx
	subq	$88, %rsp
	movq	%rsi, %r15
	shrq	%r15
	imulq	$56, %r15, %r12
	addq	%rdi, %r12
	movq	%rsi, %r13
	subq	%r15, %r13
	movq	%rdi, %r14
	movq	%rsi, %rbp
	movq	%r15, %rsi
	movq	%rdx, %rbx
	callq	"core::slice::sort::short::sort_half::<#24df1801f4a811cc>"
	movq	%r12, %rdi
	movq	%r13, %rsi
	movq	%rbx, %rdx
	callq	"core::slice::sort::short::sort_half::<#24df1801f4a811cc>"
	movq	%rbp, %rax
	movq	%r14, %rdi
	movq	(%rbx), %r14
	movq	%rbx, 80(%rsp)
	movq	8(%rbx), %rcx
	movq	%rcx, 8(%rsp)
	xorps	%xmm0, %xmm0
	movaps	%xmm0, 32(%rsp)
	movaps	%xmm0, 16(%rsp)
	leaq	16(%rsp), %rcx
	leaq	(%rcx,%rbp), %r10
	decq	%r10
	xorl	%edx, %edx
	movq	%r15, %rsi
	movq	%r15, %r8
	movq	%rbp, %r9
	xorl	%r11d, %r11d
	.p2align	4
1:
	movq	%r8, %rbp
	movq	%rsi, %r13
	imulq	$56, %r8, %r12
	imulq	$56, %rdx, %rbx
	movl	(%rdi,%rbx), %ebx
	movl	(%rdi,%r12), %r12d
	cmpl	%r12d, %ebx
	adcq	$0, %r8
	cmpl	%r12d, %ebx
	cmovael	%edx, %ebp
	sbbq	$-1, %rdx
	movb	%bpl, 16(%rsp,%r11)
	imulq	$56, %r9, %rbx
	imulq	$56, %rsi, %r12
	movl	-56(%rdi,%r12), %ebp
	movl	-56(%rdi,%rbx), %ebx
	cmpl	%ebx, %ebp
	sbbq	$0, %rsi
	cmpl	%ebx, %ebp
	cmovael	%r9d, %r13d
	adcq	$-1, %r9
	decb	%r13b
	movb	%r13b, (%r10)
	incq	%r11
	decq	%r10
	cmpq	%r11, %r15
	jne	1b
	testb	$1, %al
	je	2f
	cmpq	%rsi, %rdx
	movl	%r8d, %r10d
	cmovbl	%edx, %r10d
	movb	%r10b, 16(%rsp,%r15)
2:
	cmpq	%r9, %r8
	ja	8f
	cmpq	%rsi, %rdx
	ja	8f
	movl	%eax, %edx
	andl	$3, %edx
	movq	%rax, %rsi
	shrq	$2, %rsi
	imulq	$224, %rsi, %r8
	xorl	%esi, %esi
	.p2align	4
3:
	movzbl	(%rcx), %r9d
	imulq	$56, %r9, %r9
	movups	(%rdi,%r9), %xmm0
	movups	16(%rdi,%r9), %xmm1
	movups	32(%rdi,%r9), %xmm2
	movq	48(%rdi,%r9), %r9
	movq	%r9, 48(%r14,%rsi)
	movups	%xmm2, 32(%r14,%rsi)
	movups	%xmm1, 16(%r14,%rsi)
	movups	%xmm0, (%r14,%rsi)
	movzbl	1(%rcx), %r9d
	imulq	$56, %r9, %r9
	movups	(%rdi,%r9), %xmm0
	movups	16(%rdi,%r9), %xmm1
	movups	32(%rdi,%r9), %xmm2
	movq	48(%rdi,%r9), %r9
	movq	%r9, 104(%r14,%rsi)
	movups	%xmm2, 88(%r14,%rsi)
	movups	%xmm1, 72(%r14,%rsi)
	movups	%xmm0, 56(%r14,%rsi)
	movzbl	2(%rcx), %r9d
	imulq	$56, %r9, %r9
	movups	(%rdi,%r9), %xmm0
	movups	16(%rdi,%r9), %xmm1
	movups	32(%rdi,%r9), %xmm2
	movq	48(%rdi,%r9), %r9
	movq	%r9, 160(%r14,%rsi)
	movups	%xmm2, 144(%r14,%rsi)
	movups	%xmm1, 128(%r14,%rsi)
	movups	%xmm0, 112(%r14,%rsi)
	movzbl	3(%rcx), %r9d
	imulq	$56, %r9, %r9
	movups	(%rdi,%r9), %xmm0
	movups	16(%rdi,%r9), %xmm1
	movups	32(%rdi,%r9), %xmm2
	movq	48(%rdi,%r9), %r9
	movq	%r9, 216(%r14,%rsi)
	movups	%xmm2, 200(%r14,%rsi)
	movups	%xmm1, 184(%r14,%rsi)
	movups	%xmm0, 168(%r14,%rsi)
	addq	$4, %rcx
	addq	$224, %rsi
	cmpq	%rsi, %r8
	jne	3b
	testq	%rdx, %rdx
	movq	80(%rsp), %rbx
	je	5f
	addq	%r14, %rsi
	.p2align	4
4:
	movzbl	(%rcx), %r8d
	imulq	$56, %r8, %r8
	movups	(%rdi,%r8), %xmm0
	movups	16(%rdi,%r8), %xmm1
	movups	32(%rdi,%r8), %xmm2
	movq	48(%rdi,%r8), %r8
	movq	%r8, 48(%rsi)
	movups	%xmm2, 32(%rsi)
	movups	%xmm1, 16(%rsi)
	movups	%xmm0, (%rsi)
	addq	$56, %rsi
	incq	%rcx
	decq	%rdx
	jne	4b
5:
	imulq	$56, %rax, %rdx
	movq	%rdi, %rcx
	subq	%r14, %rcx
	cmpq	%rdx, %rcx
	jae	15f
	movl	%eax, %ecx
	andl	$7, %ecx
	shrq	$3, %rax
	imulq	$448, %rax, %rdx
	xorl	%eax, %eax
	.p2align	4
6:
	movups	(%r14,%rax), %xmm0
	movups	16(%r14,%rax), %xmm1
	movups	32(%r14,%rax), %xmm2
	movq	48(%r14,%rax), %rsi
	movq	%rsi, 48(%rdi,%rax)
	movups	%xmm2, 32(%rdi,%rax)
	movups	%xmm1, 16(%rdi,%rax)
	movups	%xmm0, (%rdi,%rax)
	movups	56(%r14,%rax), %xmm0
	movups	72(%r14,%rax), %xmm1
	movups	88(%r14,%rax), %xmm2
	movq	104(%r14,%rax), %rsi
	movq	%rsi, 104(%rdi,%rax)
	movups	%xmm2, 88(%rdi,%rax)
	movups	%xmm1, 72(%rdi,%rax)
	movups	%xmm0, 56(%rdi,%rax)
	movups	112(%r14,%rax), %xmm0
	movups	128(%r14,%rax), %xmm1
	movups	144(%r14,%rax), %xmm2
	movq	160(%r14,%rax), %rsi
	movq	%rsi, 160(%rdi,%rax)
	movups	%xmm2, 144(%rdi,%rax)
	movups	%xmm1, 128(%rdi,%rax)
	movups	%xmm0, 112(%rdi,%rax)
	movups	168(%r14,%rax), %xmm0
	movups	184(%r14,%rax), %xmm1
	movups	200(%r14,%rax), %xmm2
	movq	216(%r14,%rax), %rsi
	movq	%rsi, 216(%rdi,%rax)
	movups	%xmm2, 200(%rdi,%rax)
	movups	%xmm1, 184(%rdi,%rax)
	movups	%xmm0, 168(%rdi,%rax)
	movups	224(%r14,%rax), %xmm0
	movups	240(%r14,%rax), %xmm1
	movups	256(%r14,%rax), %xmm2
	movq	272(%r14,%rax), %rsi
	movq	%rsi, 272(%rdi,%rax)
	movups	%xmm2, 256(%rdi,%rax)
	movups	%xmm1, 240(%rdi,%rax)
	movups	%xmm0, 224(%rdi,%rax)
	movups	280(%r14,%rax), %xmm0
	movups	296(%r14,%rax), %xmm1
	movups	312(%r14,%rax), %xmm2
	movq	328(%r14,%rax), %rsi
	movq	%rsi, 328(%rdi,%rax)
	movups	%xmm2, 312(%rdi,%rax)
	movups	%xmm1, 296(%rdi,%rax)
	movups	%xmm0, 280(%rdi,%rax)
	movups	336(%r14,%rax), %xmm0
	movups	352(%r14,%rax), %xmm1
	movups	368(%r14,%rax), %xmm2
	movq	384(%r14,%rax), %rsi
	movq	%rsi, 384(%rdi,%rax)
	movups	%xmm2, 368(%rdi,%rax)
	movups	%xmm1, 352(%rdi,%rax)
	movups	%xmm0, 336(%rdi,%rax)
	movups	392(%r14,%rax), %xmm0
	movups	408(%r14,%rax), %xmm1
	movups	424(%r14,%rax), %xmm2
	movq	440(%r14,%rax), %rsi
	movq	%rsi, 440(%rdi,%rax)
	movups	%xmm2, 424(%rdi,%rax)
	movups	%xmm1, 408(%rdi,%rax)
	movups	%xmm0, 392(%rdi,%rax)
	addq	$448, %rax
	cmpq	%rax, %rdx
	jne	6b
	testq	%rcx, %rcx
	movq	8(%rsp), %rsi
	je	16f
	.p2align	4
7:
	movups	(%r14,%rax), %xmm0
	movups	16(%r14,%rax), %xmm1
	movups	32(%r14,%rax), %xmm2
	movq	48(%r14,%rax), %rdx
	movq	%rdx, 48(%rdi,%rax)
	movups	%xmm2, 32(%rdi,%rax)
	movups	%xmm1, 16(%rdi,%rax)
	movups	%xmm0, (%rdi,%rax)
	addq	$56, %rax
	decq	%rcx
	jne	7b
	jmp	16f
8:
	leaq	-56(%rdi), %rcx
	movl	$1, %edx
	jmp	12f
9:
	xorl	%r8d, %r8d
10:
	movl	%esi, (%rdi,%r8)
	movaps	16(%rsp), %xmm0
	movaps	32(%rsp), %xmm1
	movaps	48(%rsp), %xmm2
	movups	%xmm0, 4(%rdi,%r8)
	movups	%xmm1, 20(%rdi,%r8)
	movups	%xmm2, 36(%rdi,%r8)
	movl	64(%rsp), %esi
	movl	%esi, 52(%rdi,%r8)
11:
	incq	%rdx
	addq	$56, %rcx
	cmpq	%rax, %rdx
	je	17f
12:
	imulq	$56, %rdx, %r9
	movl	(%rdi,%r9), %esi
	cmpl	%esi, -56(%rdi,%r9)
	jae	11b
	leaq	(%rdi,%r9), %r10
	movq	%rdx, %r8
	addq	%rdi, %r9
	addq	$-56, %r9
	movl	52(%r10), %r11d
	movl	%r11d, 64(%rsp)
	movups	4(%r10), %xmm0
	movups	20(%r10), %xmm1
	movups	36(%r10), %xmm2
	movaps	%xmm2, 48(%rsp)
	movaps	%xmm1, 32(%rsp)
	movaps	%xmm0, 16(%rsp)
	movups	(%r9), %xmm0
	movups	16(%r9), %xmm1
	movups	32(%r9), %xmm2
	movups	%xmm0, (%r10)
	movups	%xmm1, 16(%r10)
	movups	%xmm2, 32(%r10)
	movq	48(%r9), %r9
	movq	%r9, 48(%r10)
	decq	%r8
	je	9b
	movq	%rcx, %r9
	.p2align	4
13:
	cmpl	%esi, (%r9)
	jae	14f
	decq	%r8
	movq	48(%r9), %r10
	movq	%r10, 104(%r9)
	movups	(%r9), %xmm0
	movups	16(%r9), %xmm1
	movups	32(%r9), %xmm2
	movups	%xmm2, 88(%r9)
	movups	%xmm1, 72(%r9)
	movups	%xmm0, 56(%r9)
	addq	$-56, %r9
	testq	%r8, %r8
	jne	13b
	xorl	%r8d, %r8d
14:
	imulq	$56, %r8, %r8
	jmp	10b
15:
	movq	%r14, %rsi
	callq	memmove@PLT
	movq	8(%rsp), %rsi
16:
	movq	%r14, (%rbx)
	movq	%rsi, 8(%rbx)
17:
	addq	$88, %rsp
	popq	%rbx
	popq	%r12
	popq	%r13
	popq	%r14
	popq	%r15
	popq	%rbp
	retq
18:
	.size	"core::slice::sort::short::sort::<#24df1801f4a811cc>", 18b-"core::slice::sort::short::sort::<#24df1801f4a811cc>"

	.text
	.p2align	4
	.type	"core::slice::sort::short::sort::<#32fabb223415b920>",@function
"core::slice::sort::short::sort::<#32fabb223415b920>":
	pushq	%rbp
	pushq	%r15
	pushq	%r14
	pushq	%r13
	pushq	%r12
	pushq	%rbx
	subq	$104, %rsp
	movq	%rdi, %r15
	cmpq	$15, %rsi
	ja	1f
	movq	%r15, %rdi
	addq	$104, %rsp
	popq	%rbx
	popq	%r12
	popq	%r13
	popq	%r14
	popq	%r15
	popq	%rbp
	jmp	"core::slice::sort::short::sort_half::<#32fabb223415b920>"
1:
	movq	%rsi, %r14
	shrq	%r14
	leaq	(%r14,%r14,4), %rax
	movq	%rsi, %r12
	leaq	(%r15,%rax,8), %r13
	movq	%rsi, %rbp
	subq	%r14, %rbp
	movq	%r15, %rdi
	movq	%r14, %rsi
	movq	%rdx, %rbx
	callq	"core::slice::sort::short::sort_half::<#32fabb223415b920>"
	movq	%r13, %rdi
	movq	%rbp, %rsi
	movq	%rbx, %rdx
	callq	"core::slice::sort::short::sort_half::<#32fabb223415b920>"
	movq	(%rbx), %rax
	movq	%rax, 32(%rsp)
	movq	%rbx, 40(%rsp)
	movq	8(%rbx), %rax
	movq	%rax, 24(%rsp)
	xorps	%xmm0, %xmm0
	movaps	%xmm0, 80(%rsp)
	movaps	%xmm0, 64(%rsp)
	leaq	64(%rsp), %rax
	leaq	(%r12,%rax), %rdx
	decq	%rdx
	xorl	%edi, %edi
	movq	%r14, %r13
	movq	%r14, 8(%rsp)
	movq	%r12, 48(%rsp)
	movq	%r12, %rbp
	xorl	%r12d, %r12d
	jmp	4f
	.p2align	4
2:
	movq	%rdi, 56(%rsp)
	movq	-32(%r15,%rax), %rdi
	movq	-24(%r15,%rax), %rsi
	movq	-32(%r15,%rcx), %rdx
	movq	-24(%r15,%rcx), %rcx
	callq	"core::cmp::slices::RefSliceOrd::cmp::<#914af4d8504a0b72>"
	movq	56(%rsp), %rdi
	testb	%al, %al
	sete	%al
3:
	movq	16(%rsp), %rdx
	movzbl	%bl, %ecx
	addq	%rcx, %r14
	xorb	$1, %bl
	movzbl	%bl, %ecx
	addq	%rcx, %rdi
	testb	%al, %al
	movl	%ebp, %ecx
	cmovnel	%r13d, %ecx
	decb	%cl
	movb	%cl, (%rdx)
	movzbl	%al, %eax
	subq	%rax, %r13
	xorb	$1, %al
	movzbl	%al, %eax
	subq	%rax, %rbp
	incq	%r12
	decq	%rdx
	cmpq	%r12, 8(%rsp)
	je	7f
4:
	movq	%rdx, 16(%rsp)
	leaq	(,%r14,8), %rax
	leaq	(%rax,%rax,4), %rax
	leaq	(,%rdi,8), %rcx
	leaq	(%rcx,%rcx,4), %rcx
	movq	(%r15,%rax), %rdx
	movq	(%r15,%rcx), %rsi
	cmpq	%rsi, %rdx
	jne	5f
	movq	%rdi, %rbx
	movq	8(%r15,%rax), %rdi
	movq	16(%r15,%rax), %rsi
	movq	8(%r15,%rcx), %rdx
	movq	16(%r15,%rcx), %rcx
	callq	"core::cmp::slices::RefSliceOrd::cmp::<#914af4d8504a0b72>"
	movq	%rbx, %rdi
	testb	%al, %al
	sete	%bl
	jmp	6f
	.p2align	4
5:
	bswapq	%rsi
	bswapq	%rdx
	cmpq	%rsi, %rdx
	setb	%bl
6:
	testb	%bl, %bl
	movl	%edi, %eax
	cmovnel	%r14d, %eax
	movb	%al, 64(%rsp,%r12)
	leaq	(,%rbp,8), %rax
	leaq	(%rax,%rax,4), %rax
	leaq	(,%r13,8), %rcx
	leaq	(%rcx,%rcx,4), %rcx
	movq	-40(%r15,%rax), %rdx
	movq	-40(%r15,%rcx), %rsi
	cmpq	%rsi, %rdx
	je	2b
	bswapq	%rsi
	bswapq	%rdx
	cmpq	%rsi, %rdx
	setb	%al
	jmp	3b
7:
	movq	48(%rsp), %rsi
	testb	$1, %sil
	je	8f
	cmpq	%r13, %rdi
	movl	%r14d, %eax
	cmovbl	%edi, %eax
	movq	8(%rsp), %rcx
	movb	%al, 64(%rsp,%rcx)
8:
	cmpq	%rbp, %r14
	ja	14f
	cmpq	%r13, %rdi
	ja	14f
	movl	%esi, %ecx
	andl	$3, %ecx
	leaq	(,%rsi,8), %rax
	movq	%rax, %rdx
	andq	$-32, %rdx
	leaq	(%rdx,%rdx,4), %r8
	xorl	%edx, %edx
	movq	32(%rsp), %r14
	leaq	64(%rsp), %r9
	.p2align	4
9:
	movzbl	(%r9), %edi
	leaq	(%rdi,%rdi,4), %rdi
	movups	(%r15,%rdi,8), %xmm0
	movups	16(%r15,%rdi,8), %xmm1
	movq	32(%r15,%rdi,8), %rdi
	movq	%rdi, 32(%r14,%rdx)
	movups	%xmm1, 16(%r14,%rdx)
	movups	%xmm0, (%r14,%rdx)
	movzbl	1(%r9), %edi
	leaq	(%rdi,%rdi,4), %rdi
	movups	(%r15,%rdi,8), %xmm0
	movups	16(%r15,%rdi,8), %xmm1
	movq	32(%r15,%rdi,8), %rdi
	movq	%rdi, 72(%r14,%rdx)
	movups	%xmm1, 56(%r14,%rdx)
	movups	%xmm0, 40(%r14,%rdx)
	movzbl	2(%r9), %edi
	leaq	(%rdi,%rdi,4), %rdi
	movups	(%r15,%rdi,8), %xmm0
	movups	16(%r15,%rdi,8), %xmm1
	movq	32(%r15,%rdi,8), %rdi
	movq	%rdi, 112(%r14,%rdx)
	movups	%xmm1, 96(%r14,%rdx)
	movups	%xmm0, 80(%r14,%rdx)
	movzbl	3(%r9), %edi
	leaq	(%rdi,%rdi,4), %rdi
	movups	(%r15,%rdi,8), %xmm0
	movups	16(%r15,%rdi,8), %xmm1
	movq	32(%r15,%rdi,8), %rdi
	movq	%rdi, 152(%r14,%rdx)
	movups	%xmm1, 136(%r14,%rdx)
	movups	%xmm0, 120(%r14,%rdx)
	addq	$4, %r9
	addq	$160, %rdx
	cmpq	%rdx, %r8
	jne	9b
	testq	%rcx, %rcx
	movq	40(%rsp), %rbx
	je	11f
	addq	%r14, %rdx
	.p2align	4
10:
	movzbl	(%r9), %edi
	leaq	(%rdi,%rdi,4), %rdi
	movups	(%r15,%rdi,8), %xmm0
	movups	16(%r15,%rdi,8), %xmm1
	movq	32(%r15,%rdi,8), %rdi
	movq	%rdi, 32(%rdx)
	movups	%xmm1, 16(%rdx)
	movups	%xmm0, (%rdx)
	addq	$40, %rdx
	incq	%r9
	decq	%rcx
	jne	10b
11:
	leaq	(%rax,%rax,4), %rdx
	movq	%r15, %rcx
	subq	%r14, %rcx
	cmpq	%rdx, %rcx
	jae	15f
	andl	$7, %esi
	andq	$-64, %rax
	leaq	(%rax,%rax,4), %rcx
	xorl	%eax, %eax
	.p2align	4
12:
	movups	(%r14,%rax), %xmm0
	movups	16(%r14,%rax), %xmm1
	movq	32(%r14,%rax), %rdx
	movq	%rdx, 32(%r15,%rax)
	movups	%xmm1, 16(%r15,%rax)
	movups	%xmm0, (%r15,%rax)
	movups	40(%r14,%rax), %xmm0
	movups	56(%r14,%rax), %xmm1
	movq	72(%r14,%rax), %rdx
	movq	%rdx, 72(%r15,%rax)
	movups	%xmm1, 56(%r15,%rax)
	movups	%xmm0, 40(%r15,%rax)
	movups	80(%r14,%rax), %xmm0
	movups	96(%r14,%rax), %xmm1
	movq	112(%r14,%rax), %rdx
	movq	%rdx, 112(%r15,%rax)
	movups	%xmm1, 96(%r15,%rax)
	movups	%xmm0, 80(%r15,%rax)
	movups	120(%r14,%rax), %xmm0
	movups	136(%r14,%rax), %xmm1
	movq	152(%r14,%rax), %rdx
	movq	%rdx, 152(%r15,%rax)
	movups	%xmm1, 136(%r15,%rax)
	movups	%xmm0, 120(%r15,%rax)
	movups	160(%r14,%rax), %xmm0
	movups	176(%r14,%rax), %xmm1
	movq	192(%r14,%rax), %rdx
	movq	%rdx, 192(%r15,%rax)
	movups	%xmm1, 176(%r15,%rax)
	movups	%xmm0, 160(%r15,%rax)
	movups	200(%r14,%rax), %xmm0
	movups	216(%r14,%rax), %xmm1
	movq	232(%r14,%rax), %rdx
	movq	%rdx, 232(%r15,%rax)
	movups	%xmm1, 216(%r15,%rax)
	movups	%xmm0, 200(%r15,%rax)
	movups	240(%r14,%rax), %xmm0
	movups	256(%r14,%rax), %xmm1
	movq	272(%r14,%rax), %rdx
	movq	%rdx, 272(%r15,%rax)
	movups	%xmm1, 256(%r15,%rax)
	movups	%xmm0, 240(%r15,%rax)
	movups	280(%r14,%rax), %xmm0
	movups	296(%r14,%rax), %xmm1
	movq	312(%r14,%rax), %rdx
	movq	%rdx, 312(%r15,%rax)
	movups	%xmm1, 296(%r15,%rax)
	movups	%xmm0, 280(%r15,%rax)
	addq	$320, %rax
	cmpq	%rax, %rcx
	jne	12b
	testq	%rsi, %rsi
	je	16f
	.p2align	4
13:
	movups	(%r14,%rax), %xmm0
	movups	16(%r14,%rax), %xmm1
	movq	32(%r14,%rax), %rcx
	movq	%rcx, 32(%r15,%rax)
	movups	%xmm1, 16(%r15,%rax)
	movups	%xmm0, (%r15,%rax)
	addq	$40, %rax
	decq	%rsi
	jne	13b
	jmp	16f
14:
	movl	$1, %edx
	movq	%r15, %rdi
	addq	$104, %rsp
	popq	%rbx
	popq	%r12
	popq	%r13
	popq	%r14
	popq	%r15
	popq	%rbp
	jmp	"core::slice::sort::small::insert_from::<#32fabb223415b920>"
15:
	movq	%r15, %rdi
	movq	%r14, %rsi
	callq	memmove@PLT
16:
	movq	%r14, (%rbx)
	movq	24(%rsp), %rax
	movq	%rax, 8(%rbx)
	addq	$104, %rsp
	popq	%rbx
	popq	%r12
	popq	%r13
	popq	%r14
	popq	%r15
	popq	%rbp
	retq
17:
	.size	"core::slice::sort::short::sort::<#32fabb223415b920>", 17b-"core::slice::sort::short::sort::<#32fabb223415b920>"

	.text
	.p2align	4
	.type	"core::slice::sort::short::sort::<#54047240e3f04dbb>",@function
"core::slice::sort::short::sort::<#54047240e3f04dbb>":
	cmpq	$16, %rsi
	jb	"core::slice::sort::short::sort_half::<#54047240e3f04dbb>"
	pushq	%rbp
	pushq	%r15
	pushq	%r14
	pushq	%r13
	pushq	%r12
	pushq	%rbx
	subq	$120, %rsp
	movq	%rsi, %r15
	shrq	%r15
	leaq	(%r15,%r15,4), %r12
	shlq	$4, %r12
	addq	%rdi, %r12
	movq	%rsi, %r13
	subq	%r15, %r13
	movq	%rdi, %r14
	movq	%rsi, %rbp
	movq	%r15, %rsi
	movq	%rdx, %rbx
	callq	"core::slice::sort::short::sort_half::<#54047240e3f04dbb>"
	movq	%r12, %rdi
	movq	%r13, %rsi
	movq	%rbx, %rdx
	callq	"core::slice::sort::short::sort_half::<#54047240e3f04dbb>"
	movq	%rbp, %rax
	movq	%r14, %rdi
	movq	(%rbx), %r14
	movq	%rbx, 112(%rsp)
	movq	8(%rbx), %rcx
	movq	%rcx, 40(%rsp)
	xorps	%xmm0, %xmm0
	movaps	%xmm0, 96(%rsp)
	movaps	%xmm0, 80(%rsp)
	leaq	80(%rsp), %rcx
	leaq	(%rcx,%rbp), %r10
	decq	%r10
	xorl	%edx, %edx
	movq	%r15, %rsi
	movq	%r15, %r8
	movq	%rbp, %r9
	xorl	%r11d, %r11d
	.p2align	4
1:
	movq	%r8, %rbp
	leaq	(%r8,%r8,4), %r13
	shlq	$4, %r13
	leaq	(%rdx,%rdx,4), %r12
	shlq	$4, %r12
	movl	(%rdi,%r12), %r12d
	movl	(%rdi,%r13), %ebx
	cmpl	%ebx, %r12d
	adcq	$0, %r8
	movq	%rsi, %r13
	cmpl	%ebx, %r12d
	cmovael	%edx, %ebp
	movb	%bpl, 80(%rsp,%r11)
	sbbq	$-1, %rdx
	leaq	(%r9,%r9,4), %rbx
	shlq	$4, %rbx
	leaq	(%rsi,%rsi,4), %r12
	shlq	$4, %r12
	movl	-80(%rdi,%r12), %ebp
	movl	-80(%rdi,%rbx), %ebx
	cmpl	%ebx, %ebp
	sbbq	$0, %rsi
	cmpl	%ebx, %ebp
	cmovael	%r9d, %r13d
	adcq	$-1, %r9
	decb	%r13b
	movb	%r13b, (%r10)
	incq	%r11
	decq	%r10
	cmpq	%r11, %r15
	jne	1b
	testb	$1, %al
	je	2f
	cmpq	%rsi, %rdx
	movl	%r8d, %r10d
	cmovbl	%edx, %r10d
	movb	%r10b, 80(%rsp,%r15)
2:
	cmpq	%r9, %r8
	ja	5f
	cmpq	%rsi, %rdx
	ja	5f
	shlq	$4, %rax
	leaq	(%rax,%rax,4), %rdx
	xorl	%eax, %eax
	.p2align	4
3:
	movzbl	(%rcx), %esi
	leaq	(%rsi,%rsi,4), %rsi
	shll	$4, %esi
	movl	(%rdi,%rsi), %r8d
	movzbl	8(%rdi,%rsi), %r9d
	movq	48(%rdi,%rsi), %r10
	movq	%r10, 32(%rsp)
	movups	16(%rdi,%rsi), %xmm0
	movups	32(%rdi,%rsi), %xmm1
	movaps	%xmm1, 16(%rsp)
	movaps	%xmm0, (%rsp)
	movq	72(%rdi,%rsi), %r10
	movq	%r10, 64(%rsp)
	movups	56(%rdi,%rsi), %xmm0
	movaps	%xmm0, 48(%rsp)
	movl	%r8d, (%r14,%rax)
	movq	%r9, 8(%r14,%rax)
	movaps	(%rsp), %xmm0
	movaps	16(%rsp), %xmm1
	movups	%xmm0, 16(%r14,%rax)
	movups	%xmm1, 32(%r14,%rax)
	movq	32(%rsp), %rsi
	movq	%rsi, 48(%r14,%rax)
	movaps	48(%rsp), %xmm0
	movups	%xmm0, 56(%r14,%rax)
	movq	64(%rsp), %rsi
	movq	%rsi, 72(%r14,%rax)
	addq	$80, %rax
	incq	%rcx
	cmpq	%rax, %rdx
	jne	3b
	movq	%rdi, %rax
	subq	%r14, %rax
	cmpq	%rdx, %rax
	movq	112(%rsp), %rbx
	jae	12f
	xorl	%eax, %eax
	movq	40(%rsp), %r9
	.p2align	4
4:
	movl	(%r14,%rax), %ecx
	movzbl	8(%r14,%rax), %esi
	movq	48(%r14,%rax), %r8
	movq	%r8, 32(%rsp)
	movups	32(%r14,%rax), %xmm0
	movaps	%xmm0, 16(%rsp)
	movups	16(%r14,%rax), %xmm0
	movaps	%xmm0, (%rsp)
	movq	72(%r14,%rax), %r8
	movq	%r8, 64(%rsp)
	movups	56(%r14,%rax), %xmm0
	movaps	%xmm0, 48(%rsp)
	movl	%ecx, (%rdi,%rax)
	movq	%rsi, 8(%rdi,%rax)
	movaps	(%rsp), %xmm0
	movaps	16(%rsp), %xmm1
	movups	%xmm0, 16(%rdi,%rax)
	movups	%xmm1, 32(%rdi,%rax)
	movq	32(%rsp), %rcx
	movq	%rcx, 48(%rdi,%rax)
	movaps	48(%rsp), %xmm0
	movups	%xmm0, 56(%rdi,%rax)
	movq	64(%rsp), %rcx
	movq	%rcx, 72(%rdi,%rax)
	addq	$80, %rax
	cmpq	%rax, %rdx
	jne	4b
	jmp	13f
5:
	movl	$1, %ecx
	movq	%rdi, %rdx
	jmp	9f
6:
	xorl	%r9d, %r9d
7:
	movl	%esi, (%rdi,%r9)
	movq	%r8, 8(%rdi,%r9)
	movaps	(%rsp), %xmm0
	movaps	16(%rsp), %xmm1
	movups	%xmm0, 16(%rdi,%r9)
	movups	%xmm1, 32(%rdi,%r9)
	movq	32(%rsp), %rsi
	movq	%rsi, 48(%rdi,%r9)
	movaps	80(%rsp), %xmm0
	movups	%xmm0, 56(%rdi,%r9)
	movq	96(%rsp), %rsi
	movq	%rsi, 72(%rdi,%r9)
8:
	incq	%rcx
	addq	$80, %rdx
	cmpq	%rax, %rcx
	je	14f
9:
	leaq	(%rcx,%rcx,4), %r8
	shlq	$4, %r8
	movl	-80(%rdi,%r8), %r10d
	movl	(%rdi,%r8), %esi
	cmpl	%esi, %r10d
	jae	8b
	leaq	(%rdi,%r8), %r11
	movq	%rcx, %r9
	leaq	(%rdi,%r8), %rbx
	addq	$-80, %rbx
	movzbl	8(%r11), %r8d
	movq	48(%r11), %r14
	movq	%r14, 32(%rsp)
	movups	16(%r11), %xmm0
	movups	32(%r11), %xmm1
	movaps	%xmm1, 16(%rsp)
	movaps	%xmm0, (%rsp)
	movups	56(%r11), %xmm0
	movaps	%xmm0, 80(%rsp)
	movq	72(%r11), %r14
	movq	%r14, 96(%rsp)
	movzbl	8(%rbx), %r14d
	movl	%r10d, (%r11)
	movq	%r14, 8(%r11)
	movq	48(%rbx), %r10
	movq	%r10, 48(%r11)
	movups	16(%rbx), %xmm0
	movups	32(%rbx), %xmm1
	movups	%xmm1, 32(%r11)
	movups	%xmm0, 16(%r11)
	movq	72(%rbx), %r10
	movq	%r10, 72(%r11)
	movups	56(%rbx), %xmm0
	movups	%xmm0, 56(%r11)
	decq	%r9
	je	6b
	movq	%rdx, %r10
	.p2align	4
10:
	movl	-80(%r10), %r11d
	cmpl	%esi, %r11d
	jae	11f
	decq	%r9
	movzbl	-72(%r10), %ebx
	movl	%r11d, (%r10)
	movq	%rbx, 8(%r10)
	movups	-64(%r10), %xmm0
	movups	-48(%r10), %xmm1
	movups	%xmm0, 16(%r10)
	movups	%xmm1, 32(%r10)
	movq	-32(%r10), %r11
	movq	%r11, 48(%r10)
	movups	-24(%r10), %xmm0
	movups	%xmm0, 56(%r10)
	movq	-8(%r10), %r11
	movq	%r11, 72(%r10)
	addq	$-80, %r10
	testq	%r9, %r9
	jne	10b
	xorl	%r9d, %r9d
11:
	shlq	$4, %r9
	leaq	(%r9,%r9,4), %r9
	jmp	7b
12:
	movq	%r14, %rsi
	callq	memmove@PLT
	movq	40(%rsp), %r9
13:
	movq	%r14, (%rbx)
	movq	%r9, 8(%rbx)
14:
	addq	$120, %rsp
	popq	%rbx
	popq	%r12
	popq	%r13
	popq	%r14
	popq	%r15
	popq	%rbp
	retq
15:
	.size	"core::slice::sort::short::sort::<#54047240e3f04dbb>", 15b-"core::slice::sort::short::sort::<#54047240e3f04dbb>"

	.text
	.p2align	4
	.type	"core::slice::sort::short::sort::<#b4bd7111e818b46c>",@function
"core::slice::sort::short::sort::<#b4bd7111e818b46c>":
	pushq	%rbp
	pushq	%r15
	pushq	%r14
	pushq	%r13
	pushq	%r12
	pushq	%rbx
	subq	$120, %rsp
	cmpq	$15, %rsi
	ja	1f
	addq	$120, %rsp
	popq	%rbx
	popq	%r12
	popq	%r13
	popq	%r14
	popq	%r15
	popq	%rbp
	jmp	"core::slice::sort::short::sort_half::<#b4bd7111e818b46c>"
1:
	movq	%rsi, %r13
	shrq	%r13
	movq	%r13, %rbx
	shlq	$5, %rbx
	addq	%rdi, %rbx
	movq	%rsi, %rbp
	subq	%r13, %rbp
	movq	%rsi, %r12
	movq	%r13, %rsi
	movq	%rdi, 16(%rsp)
	movq	%rdx, %r14
	callq	"core::slice::sort::short::sort_half::<#b4bd7111e818b46c>"
	movq	%rbx, %rdi
	movq	%rbp, %rsi
	movq	%r14, %rdx
	callq	"core::slice::sort::short::sort_half::<#b4bd7111e818b46c>"
	movq	(%r14), %rax
	movq	%rax, 40(%rsp)
	movq	%r14, 48(%rsp)
	movq	8(%r14), %rax
	movq	%rax, 32(%rsp)
	xorps	%xmm0, %xmm0
	movaps	%xmm0, 96(%rsp)
	movaps	%xmm0, 80(%rsp)
	leaq	80(%rsp), %rax
	addq	%r12, %rax
	decq	%rax
	xorl	%r15d, %r15d
	movq	%r13, 8(%rsp)
	movq	%r13, %r14
	movq	%r12, 56(%rsp)
	xorl	%ebp, %ebp
	movq	%r13, 64(%rsp)
	.p2align	4
2:
	movq	%rax, 24(%rsp)
	movq	%r12, 72(%rsp)
	movq	%r14, %r13
	movq	%r15, %r12
	movq	%r14, %rax
	shlq	$5, %rax
	movq	%r15, %rcx
	shlq	$5, %rcx
	movq	16(%rsp), %rbx
	movq	(%rbx,%rax), %rdi
	movq	8(%rbx,%rax), %rsi
	movq	(%rbx,%rcx), %rdx
	movq	8(%rbx,%rcx), %rcx
	callq	"core::cmp::slices::RefSliceOrd::cmp::<#914af4d8504a0b72>"
	xorl	%r15d, %r15d
	xorl	%r14d, %r14d
	testb	%al, %al
	setne	%r15b
	movl	%r12d, %eax
	cmovel	%r13d, %eax
	sete	%r14b
	movb	%al, 80(%rsp,%rbp)
	addq	%r13, %r14
	addq	%r12, %r15
	movq	72(%rsp), %r12
	movq	%r12, %rax
	shlq	$5, %rax
	movq	8(%rsp), %r13
	movq	%r13, %rcx
	shlq	$5, %rcx
	movq	-32(%rbx,%rax), %rdi
	movq	-24(%rbx,%rax), %rsi
	movq	-32(%rbx,%rcx), %rdx
	movq	-24(%rbx,%rcx), %rcx
	callq	"core::cmp::slices::RefSliceOrd::cmp::<#914af4d8504a0b72>"
	xorl	%ecx, %ecx
	xorl	%edx, %edx
	testb	%al, %al
	setne	%cl
	movl	%r12d, %eax
	cmovel	%r13d, %eax
	sete	%dl
	decb	%al
	movq	24(%rsp), %rsi
	movb	%al, (%rsi)
	movq	24(%rsp), %rax
	subq	%rdx, %r13
	movq	%r13, 8(%rsp)
	subq	%rcx, %r12
	incq	%rbp
	decq	%rax
	movq	64(%rsp), %rcx
	cmpq	%rbp, %rcx
	jne	2b
	movq	%rcx, %rdx
	movq	16(%rsp), %rdi
	movq	56(%rsp), %rsi
	testb	$1, %sil
	movq	8(%rsp), %rcx
	je	3f
	cmpq	%rcx, %r15
	movl	%r14d, %eax
	cmovbl	%r15d, %eax
	movb	%al, 80(%rsp,%rdx)
3:
	cmpq	%r12, %r14
	ja	9f
	cmpq	%rcx, %r15
	ja	9f
	movl	%esi, %eax
	andl	$3, %eax
	movl	%esi, %edx
	andl	$60, %edx
	movq	40(%rsp), %r14
	movq	%r14, %rcx
	leaq	80(%rsp), %r9
	.p2align	4
4:
	movzbl	(%r9), %r8d
	shll	$5, %r8d
	movups	(%rdi,%r8), %xmm0
	movups	16(%rdi,%r8), %xmm1
	movups	%xmm1, 16(%rcx)
	movups	%xmm0, (%rcx)
	movzbl	1(%r9), %r8d
	shll	$5, %r8d
	movups	(%rdi,%r8), %xmm0
	movups	16(%rdi,%r8), %xmm1
	movups	%xmm1, 48(%rcx)
	movups	%xmm0, 32(%rcx)
	movzbl	2(%r9), %r8d
	shll	$5, %r8d
	movups	(%rdi,%r8), %xmm0
	movups	16(%rdi,%r8), %xmm1
	movups	%xmm1, 80(%rcx)
	movups	%xmm0, 64(%rcx)
	movzbl	3(%r9), %r8d
	shll	$5, %r8d
	movups	(%rdi,%r8), %xmm0
	movups	16(%rdi,%r8), %xmm1
	movups	%xmm1, 112(%rcx)
	movups	%xmm0, 96(%rcx)
	addq	$4, %r9
	subq	$-128, %rcx
	addq	$-4, %rdx
	jne	4b
	testq	%rax, %rax
	movq	48(%rsp), %rbx
	je	6f
	.p2align	4
5:
	movzbl	(%r9), %edx
	shll	$5, %edx
	movups	(%rdi,%rdx), %xmm0
	movups	16(%rdi,%rdx), %xmm1
	movups	%xmm1, 16(%rcx)
	movups	%xmm0, (%rcx)
	addq	$32, %rcx
	incq	%r9
	decq	%rax
	jne	5b
6:
	movq	%rsi, %rdx
	shlq	$5, %rdx
	movq	%rdi, %rax
	subq	%r14, %rax
	cmpq	%rdx, %rax
	jae	10f
	movl	%esi, %eax
	andl	$7, %eax
	andl	$56, %esi
	leaq	224(%rdi), %rdx
	leaq	224(%r14), %r8
	xorl	%ecx, %ecx
	.p2align	4
7:
	movups	-224(%r8,%rcx), %xmm0
	movups	-208(%r8,%rcx), %xmm1
	movups	%xmm1, -208(%rdx,%rcx)
	movups	%xmm0, -224(%rdx,%rcx)
	movups	-192(%r8,%rcx), %xmm0
	movups	-176(%r8,%rcx), %xmm1
	movups	%xmm1, -176(%rdx,%rcx)
	movups	%xmm0, -192(%rdx,%rcx)
	movups	-160(%r8,%rcx), %xmm0
	movups	-144(%r8,%rcx), %xmm1
	movups	%xmm1, -144(%rdx,%rcx)
	movups	%xmm0, -160(%rdx,%rcx)
	movups	-128(%r8,%rcx), %xmm0
	movups	-112(%r8,%rcx), %xmm1
	movups	%xmm1, -112(%rdx,%rcx)
	movups	%xmm0, -128(%rdx,%rcx)
	movups	-96(%r8,%rcx), %xmm0
	movups	-80(%r8,%rcx), %xmm1
	movups	%xmm1, -80(%rdx,%rcx)
	movups	%xmm0, -96(%rdx,%rcx)
	movups	-64(%r8,%rcx), %xmm0
	movups	-48(%r8,%rcx), %xmm1
	movups	%xmm1, -48(%rdx,%rcx)
	movups	%xmm0, -64(%rdx,%rcx)
	movups	-32(%r8,%rcx), %xmm0
	movups	-16(%r8,%rcx), %xmm1
	movups	%xmm1, -16(%rdx,%rcx)
	movups	%xmm0, -32(%rdx,%rcx)
	movups	(%r8,%rcx), %xmm0
	movups	16(%r8,%rcx), %xmm1
	movups	%xmm1, 16(%rdx,%rcx)
	movups	%xmm0, (%rdx,%rcx)
	addq	$256, %rcx
	addq	$-8, %rsi
	jne	7b
	testq	%rax, %rax
	je	11f
	.p2align	4
8:
	movups	(%r14,%rcx), %xmm0
	movups	16(%r14,%rcx), %xmm1
	movups	%xmm1, 16(%rdi,%rcx)
	movups	%xmm0, (%rdi,%rcx)
	addq	$32, %rcx
	decq	%rax
	jne	8b
	jmp	11f
9:
	movl	$1, %edx
	addq	$120, %rsp
	popq	%rbx
	popq	%r12
	popq	%r13
	popq	%r14
	popq	%r15
	popq	%rbp
	jmp	"core::slice::sort::small::insert_from::<#b4bd7111e818b46c>"
10:
	movq	%r14, %rsi
	callq	memmove@PLT
11:
	movq	%r14, (%rbx)
	movq	32(%rsp), %rax
	movq	%rax, 8(%rbx)
	addq	$120, %rsp
	popq	%rbx
	popq	%r12
	popq	%r13
	popq	%r14
	popq	%r15
	popq	%rbp
	retq
12:
	.size	"core::slice::sort::short::sort::<#b4bd7111e818b46c>", 12b-"core::slice::sort::short::sort::<#b4bd7111e818b46c>"

	.text
	.p2align	4
	.type	"core::slice::sort::short::sort::<#cc3e8e382a4904f8>",@function
"core::slice::sort::short::sort::<#cc3e8e382a4904f8>":
	pushq	%rbp
	pushq	%r15
	pushq	%r14
	pushq	%r13
	pushq	%r12
	pushq	%rbx
	subq	$104, %rsp
	cmpq	$15, %rsi
	ja	1f
	addq	$104, %rsp
	popq	%rbx
	popq	%r12
	popq	%r13
	popq	%r14
	popq	%r15
	popq	%rbp
	jmp	"core::slice::sort::short::sort_half::<#cc3e8e382a4904f8>"
1:
	movq	%rsi, %r13
	shrq	%r13
	leaq	(%rdi,%r13,8), %r12
	movq	%rsi, %rbp
	subq	%r13, %rbp
	movq	%rdi, 8(%rsp)
	movq	%rsi, %r15
	movq	%r13, %rsi
	movq	%rdx, %rbx
	callq	"core::slice::sort::short::sort_half::<#cc3e8e382a4904f8>"
	movq	%r12, %rdi
	movq	%rbp, %rsi
	movq	%rbx, %rdx
	callq	"core::slice::sort::short::sort_half::<#cc3e8e382a4904f8>"
	movq	(%rbx), %rax
	movq	%rax, 56(%rsp)
	movq	%rbx, 64(%rsp)
	movq	8(%rbx), %rax
	movq	%rax, 48(%rsp)
	xorps	%xmm0, %xmm0
	movaps	%xmm0, 32(%rsp)
	movaps	%xmm0, 16(%rsp)
	leaq	16(%rsp), %rax
	leaq	(%r15,%rax), %rdx
	decq	%rdx
	xorl	%ebx, %ebx
	movq	%r13, %r12
	movq	%r13, %r14
	movq	%r15, 72(%rsp)
	movq	%r15, %rbp
	xorl	%r15d, %r15d
	movq	%r13, 80(%rsp)
	.p2align	4
2:
	movq	%r12, 88(%rsp)
	movq	%rdx, 96(%rsp)
	movq	%rbx, %r12
	movq	8(%rsp), %r13
	leaq	(,%r14,8), %rdi
	addq	%r13, %rdi
	movq	(%r13,%rbx,8), %rsi
	callq	"core::slice::sort::order::ByOrder::less::<#878f6745e8fab0b2>"
	testb	%al, %al
	movl	%r12d, %ecx
	cmovnel	%r14d, %ecx
	movb	%cl, 16(%rsp,%r15)
	movzbl	%al, %eax
	addq	%rax, %r14
	xorb	$1, %al
	movzbl	%al, %ebx
	addq	%r12, %rbx
	movq	88(%rsp), %r12
	leaq	-8(,%rbp,8), %rdi
	addq	%r13, %rdi
	movq	-8(%r13,%r12,8), %rsi
	callq	"core::slice::sort::order::ByOrder::less::<#878f6745e8fab0b2>"
	movq	96(%rsp), %rdx
	testb	%al, %al
	movl	%ebp, %ecx
	cmovnel	%r12d, %ecx
	decb	%cl
	movb	%cl, (%rdx)
	movq	80(%rsp), %r13
	movzbl	%al, %eax
	subq	%rax, %r12
	xorb	$1, %al
	movzbl	%al, %eax
	subq	%rax, %rbp
	incq	%r15
	decq	%rdx
	cmpq	%r15, %r13
	jne	2b
	movq	8(%rsp), %rdi
	movq	72(%rsp), %rsi
	testb	$1, %sil
	je	3f
	cmpq	%r12, %rbx
	movl	%r14d, %eax
	cmovbl	%ebx, %eax
	movb	%al, 16(%rsp,%r13)
3:
	cmpq	%rbp, %r14
	ja	6f
	cmpq	%r12, %rbx
	ja	6f
	movl	%esi, %ecx
	andl	$62, %ecx
	xorl	%eax, %eax
	movq	56(%rsp), %r14
	.p2align	4
4:
	movzbl	16(%rsp,%rax), %edx
	movq	(%rdi,%rdx,8), %rdx
	movq	%rdx, (%r14,%rax,8)
	movzbl	17(%rsp,%rax), %edx
	movq	(%rdi,%rdx,8), %rdx
	movq	%rdx, 8(%r14,%rax,8)
	addq	$2, %rax
	cmpq	%rax, %rcx
	jne	4b
	testb	$1, %sil
	movq	64(%rsp), %rbx
	je	5f
	movzbl	16(%rsp,%rax), %ecx
	movq	(%rdi,%rcx,8), %rcx
	movq	%rcx, (%r14,%rax,8)
5:
	leaq	(,%rsi,8), %rdx
	movq	%rdi, %rax
	subq	%r14, %rax
	cmpq	%rdx, %rax
	jae	7f
	cmpq	$32, %rax
	jae	8f
	xorl	%eax, %eax
	jmp	10f
6:
	movl	$1, %edx
	addq	$104, %rsp
	popq	%rbx
	popq	%r12
	popq	%r13
	popq	%r14
	popq	%r15
	popq	%rbp
	jmp	"core::slice::sort::small::insert_from::<#cc3e8e382a4904f8>"
7:
	movq	%r14, %rsi
	callq	memmove@PLT
	jmp	14f
8:
	movl	%esi, %eax
	andl	$60, %eax
	xorl	%ecx, %ecx
	.p2align	4
9:
	movups	(%r14,%rcx,8), %xmm0
	movups	16(%r14,%rcx,8), %xmm1
	movups	%xmm0, (%rdi,%rcx,8)
	movups	%xmm1, 16(%rdi,%rcx,8)
	addq	$4, %rcx
	cmpq	%rcx, %rax
	jne	9b
	cmpq	%rax, %rsi
	je	14f
10:
	movq	%rsi, %rdx
	movq	%rax, %rcx
	andq	$3, %rdx
	je	12f
	movq	%rax, %rcx
	.p2align	4
11:
	movq	(%r14,%rcx,8), %r8
	movq	%r8, (%rdi,%rcx,8)
	incq	%rcx
	decq	%rdx
	jne	11b
12:
	subq	%rsi, %rax
	cmpq	$-4, %rax
	ja	14f
	.p2align	4
13:
	movq	(%r14,%rcx,8), %rax
	movq	%rax, (%rdi,%rcx,8)
	movq	8(%r14,%rcx,8), %rax
	movq	%rax, 8(%rdi,%rcx,8)
	movq	16(%r14,%rcx,8), %rax
	movq	%rax, 16(%rdi,%rcx,8)
	movq	24(%r14,%rcx,8), %rax
	movq	%rax, 24(%rdi,%rcx,8)
	addq	$4, %rcx
	cmpq	%rcx, %rsi
	jne	13b
14:
	movq	%r14, (%rbx)
	movq	48(%rsp), %rax
	movq	%rax, 8(%rbx)
	addq	$104, %rsp
	popq	%rbx
	popq	%r12
	popq	%r13
	popq	%r14
	popq	%r15
	popq	%rbp
	retq
15:
	.size	"core::slice::sort::short::sort::<#cc3e8e382a4904f8>", 15b-"core::slice::sort::short::sort::<#cc3e8e382a4904f8>"

	.text
	.p2align	4
	.type	"core::slice::sort::short::sort::<#f98e8d76978ecc20>",@function
"core::slice::sort::short::sort::<#f98e8d76978ecc20>":
	pushq	%rbp
	pushq	%r15
	pushq	%r14
	pushq	%r13
	pushq	%r12
	pushq	%rbx
	subq	$104, %rsp
	cmpq	$15, %rsi
	ja	1f
	addq	$104, %rsp
	popq	%rbx
	popq	%r12
	popq	%r13
	popq	%r14
	popq	%r15
	popq	%rbp
	jmp	"core::slice::sort::short::sort_half::<#f98e8d76978ecc20>"
1:
	movq	%rsi, %r15
	shrq	%r15
	movq	%r15, %r12
	shlq	$5, %r12
	addq	%rdi, %r12
	movq	%rsi, %rbp
	subq	%r15, %rbp
	movq	%rsi, %r14
	movq	%r15, %rsi
	movq	%rdx, %rbx
	movq	%rdi, 8(%rsp)
	callq	"core::slice::sort::short::sort_half::<#f98e8d76978ecc20>"
	movq	%r12, %rdi
	movq	%rbp, %rsi
	movq	%rbx, %rdx
	callq	"core::slice::sort::short::sort_half::<#f98e8d76978ecc20>"
	movq	8(%rsp), %r11
	movq	(%rbx), %rax
	movq	%rax, 32(%rsp)
	movq	%rbx, 40(%rsp)
	movq	8(%rbx), %rax
	movq	%rax, 24(%rsp)
	leaq	64(%rsp,%r14), %rax
	movq	%rax, 56(%rsp)
	xorps	%xmm0, %xmm0
	movaps	%xmm0, 80(%rsp)
	movaps	%xmm0, 64(%rsp)
	xorl	%ebp, %ebp
	movq	%r15, %r13
	movq	%r15, 16(%rsp)
	movq	%r14, 48(%rsp)
	movq	%r14, %r12
	xorl	%ebx, %ebx
	jmp	4f
	.p2align	4
2:
	bswapq	%r10
	bswapq	%r9
	cmpq	%r10, %r9
	setb	%al
3:
	movzbl	%r14b, %ecx
	addq	%rcx, %r15
	xorb	$1, %r14b
	movzbl	%r14b, %ecx
	addq	%rcx, %rbp
	testb	%al, %al
	movl	%r12d, %ecx
	cmovnel	%r13d, %ecx
	decb	%cl
	movq	%rbx, %rdx
	notq	%rdx
	movq	56(%rsp), %rsi
	movb	%cl, (%rsi,%rdx)
	movzbl	%al, %eax
	subq	%rax, %r13
	xorb	$1, %al
	movzbl	%al, %eax
	subq	%rax, %r12
	incq	%rbx
	cmpq	16(%rsp), %rbx
	je	13f
4:
	movq	%r15, %rax
	shlq	$5, %rax
	movq	%rbp, %rcx
	shlq	$5, %rcx
	movq	(%r11,%rax), %rdi
	movq	8(%r11,%rax), %rsi
	movq	(%r11,%rcx), %rdx
	movq	8(%r11,%rcx), %rcx
	cmpq	%rsi, %rcx
	movq	%rsi, %rax
	cmovbq	%rcx, %rax
	cmpq	$24, %rax
	movl	$24, %r8d
	cmovbq	%rax, %r8
	cmpq	$8, %rax
	jb	6f
	xorl	%eax, %eax
	.p2align	4
5:
	movq	(%rdi,%rax), %r9
	movq	(%rdx,%rax), %r10
	cmpq	%r10, %r9
	jne	8f
	addq	$8, %rax
	addq	$-8, %r8
	cmpq	$7, %r8
	ja	5b
	jmp	7f
	.p2align	4
6:
	xorl	%eax, %eax
7:
	addq	%rax, %rdi
	subq	%rax, %rsi
	addq	%rax, %rdx
	subq	%rax, %rcx
	callq	"core::cmp::slices::RefSliceOrd::cmp::<#914af4d8504a0b72>"
	movq	8(%rsp), %r11
	testb	%al, %al
	sete	%r14b
	jmp	9f
	.p2align	4
8:
	bswapq	%r10
	bswapq	%r9
	cmpq	%r10, %r9
	setb	%r14b
9:
	testb	%r14b, %r14b
	movl	%ebp, %eax
	cmovnel	%r15d, %eax
	movb	%al, 64(%rsp,%rbx)
	movq	%r12, %rax
	shlq	$5, %rax
	movq	%r13, %rcx
	shlq	$5, %rcx
	movq	-32(%r11,%rax), %rdi
	movq	-24(%r11,%rax), %rsi
	movq	-32(%r11,%rcx), %rdx
	movq	-24(%r11,%rcx), %rcx
	cmpq	%rsi, %rcx
	movq	%rsi, %rax
	cmovbq	%rcx, %rax
	cmpq	$24, %rax
	movl	$24, %r8d
	cmovbq	%rax, %r8
	cmpq	$8, %rax
	jb	11f
	xorl	%eax, %eax
	.p2align	4
10:
	movq	(%rdi,%rax), %r9
	movq	(%rdx,%rax), %r10
	cmpq	%r10, %r9
	jne	2b
	addq	$8, %rax
	addq	$-8, %r8
	cmpq	$7, %r8
	ja	10b
	jmp	12f
	.p2align	4
11:
	xorl	%eax, %eax
12:
	addq	%rax, %rdi
	subq	%rax, %rsi
	addq	%rax, %rdx
	subq	%rax, %rcx
	callq	"core::cmp::slices::RefSliceOrd::cmp::<#914af4d8504a0b72>"
	movq	8(%rsp), %r11
	testb	%al, %al
	sete	%al
	jmp	3b
13:
	movq	48(%rsp), %rsi
	testb	$1, %sil
	je	14f
	cmpq	%r13, %rbp
	movl	%r15d, %eax
	cmovbl	%ebp, %eax
	movq	16(%rsp), %rcx
	movb	%al, 64(%rsp,%rcx)
14:
	cmpq	%r12, %r15
	ja	20f
	cmpq	%r13, %rbp
	ja	20f
	movl	%esi, %eax
	andl	$3, %eax
	movl	%esi, %r8d
	andl	$60, %r8d
	leaq	64(%rsp), %rcx
	movq	32(%rsp), %r14
	movq	%r14, %rdx
	.p2align	4
15:
	movzbl	(%rcx), %edi
	shll	$5, %edi
	movups	(%r11,%rdi), %xmm0
	movups	16(%r11,%rdi), %xmm1
	movups	%xmm1, 16(%rdx)
	movups	%xmm0, (%rdx)
	movzbl	1(%rcx), %edi
	shll	$5, %edi
	movups	(%r11,%rdi), %xmm0
	movups	16(%r11,%rdi), %xmm1
	movups	%xmm1, 48(%rdx)
	movups	%xmm0, 32(%rdx)
	movzbl	2(%rcx), %edi
	shll	$5, %edi
	movups	(%r11,%rdi), %xmm0
	movups	16(%r11,%rdi), %xmm1
	movups	%xmm1, 80(%rdx)
	movups	%xmm0, 64(%rdx)
	movzbl	3(%rcx), %edi
	shll	$5, %edi
	movups	(%r11,%rdi), %xmm0
	movups	16(%r11,%rdi), %xmm1
	movups	%xmm1, 112(%rdx)
	movups	%xmm0, 96(%rdx)
	addq	$4, %rcx
	subq	$-128, %rdx
	addq	$-4, %r8
	jne	15b
	testq	%rax, %rax
	movq	40(%rsp), %rbx
	je	17f
	.p2align	4
16:
	movzbl	(%rcx), %edi
	shll	$5, %edi
	movups	(%r11,%rdi), %xmm0
	movups	16(%r11,%rdi), %xmm1
	movups	%xmm1, 16(%rdx)
	movups	%xmm0, (%rdx)
	addq	$32, %rdx
	incq	%rcx
	decq	%rax
	jne	16b
17:
	movq	%rsi, %rdx
	shlq	$5, %rdx
	movq	%r11, %rax
	subq	%r14, %rax
	cmpq	%rdx, %rax
	jae	21f
	movl	%esi, %eax
	andl	$7, %eax
	andl	$56, %esi
	leaq	224(%r11), %rdx
	leaq	224(%r14), %rdi
	xorl	%ecx, %ecx
	.p2align	4
18:
	movups	-224(%rdi,%rcx), %xmm0
	movups	-208(%rdi,%rcx), %xmm1
	movups	%xmm1, -208(%rdx,%rcx)
	movups	%xmm0, -224(%rdx,%rcx)
	movups	-192(%rdi,%rcx), %xmm0
	movups	-176(%rdi,%rcx), %xmm1
	movups	%xmm1, -176(%rdx,%rcx)
	movups	%xmm0, -192(%rdx,%rcx)
	movups	-160(%rdi,%rcx), %xmm0
	movups	-144(%rdi,%rcx), %xmm1
	movups	%xmm1, -144(%rdx,%rcx)
	movups	%xmm0, -160(%rdx,%rcx)
	movups	-128(%rdi,%rcx), %xmm0
	movups	-112(%rdi,%rcx), %xmm1
	movups	%xmm1, -112(%rdx,%rcx)
	movups	%xmm0, -128(%rdx,%rcx)
	movups	-96(%rdi,%rcx), %xmm0
	movups	-80(%rdi,%rcx), %xmm1
	movups	%xmm1, -80(%rdx,%rcx)
	movups	%xmm0, -96(%rdx,%rcx)
	movups	-64(%rdi,%rcx), %xmm0
	movups	-48(%rdi,%rcx), %xmm1
	movups	%xmm1, -48(%rdx,%rcx)
	movups	%xmm0, -64(%rdx,%rcx)
	movups	-32(%rdi,%rcx), %xmm0
	movups	-16(%rdi,%rcx), %xmm1
	movups	%xmm1, -16(%rdx,%rcx)
	movups	%xmm0, -32(%rdx,%rcx)
	movups	(%rdi,%rcx), %xmm0
	movups	16(%rdi,%rcx), %xmm1
	movups	%xmm1, 16(%rdx,%rcx)
	movups	%xmm0, (%rdx,%rcx)
	addq	$256, %rcx
	addq	$-8, %rsi
	jne	18b
	testq	%rax, %rax
	je	22f
	.p2align	4
19:
	movups	(%r14,%rcx), %xmm0
	movups	16(%r14,%rcx), %xmm1
	movups	%xmm1, 16(%r11,%rcx)
	movups	%xmm0, (%r11,%rcx)
	addq	$32, %rcx
	decq	%rax
	jne	19b
	jmp	22f
20:
	movl	$1, %edx
	movq	%r11, %rdi
	addq	$104, %rsp
	popq	%rbx
	popq	%r12
	popq	%r13
	popq	%r14
	popq	%r15
	popq	%rbp
	jmp	"core::slice::sort::small::insert_from::<#f98e8d76978ecc20>"
21:
	movq	%r11, %rdi
	movq	%r14, %rsi
	callq	memmove@PLT
22:
	movq	%r14, (%rbx)
	movq	24(%rsp), %rax
	movq	%rax, 8(%rbx)
	addq	$104, %rsp
	popq	%rbx
	popq	%r12
	popq	%r13
	popq	%r14
	popq	%r15
	popq	%rbp
	retq
23:
	.size	"core::slice::sort::short::sort::<#f98e8d76978ecc20>", 23b-"core::slice::sort::short::sort::<#f98e8d76978ecc20>"

	.text
	.p2align	4
	.type	"core::slice::sort::short::sort_half::<#12eb916b83b0f891>",@function
"core::slice::sort::short::sort_half::<#12eb916b83b0f891>":
	pushq	%rbp
	pushq	%r15
	pushq	%r14
	pushq	%r13
	pushq	%r12
	pushq	%rbx
	subq	$16, %rsp
	cmpq	$8, %rsi
	jb	1f
	movl	(%rdi), %ecx
	xorl	%eax, %eax
	xorl	%r14d, %r14d
	cmpl	8(%rdi), %ecx
	movl	16(%rdi), %r8d
	setae	%al
	setb	%r14b
	xorl	%ecx, %ecx
	cmpl	24(%rdi), %r8d
	setb	%cl
	leal	2(%rcx), %r8d
	xorl	$3, %ecx
	movl	(%rdi,%r14,8), %r10d
	movl	(%rdi,%r8,8), %r11d
	cmpl	%r11d, %r10d
	movl	(%rdi,%rax,8), %ebx
	movl	%r8d, %r9d
	cmovbl	%eax, %r9d
	cmpl	(%rdi,%rcx,8), %ebx
	cmovbl	%ecx, %r9d
	cmovbl	%eax, %ecx
	movl	%eax, %ebx
	cmovbl	%r8d, %ebx
	cmpl	%r11d, %r10d
	movq	(%rdx), %rax
	movq	%rdx, -128(%rsp)
	movq	8(%rdx), %rdx
	movq	%rdx, 8(%rsp)
	cmovbl	%r14d, %ebx
	movl	(%rdi,%rbx,8), %r10d
	cmovbl	%r8d, %r14d
	cmpl	(%rdi,%r9,8), %r10d
	movq	(%rdi,%r14,8), %r15
	movl	%ebx, %edx
	cmovbl	%r9d, %edx
	movq	%r15, (%rax)
	movq	(%rdi,%rdx,8), %rdx
	cmovael	%r9d, %ebx
	movq	%rdx, 8(%rax)
	movq	(%rdi,%rbx,8), %rdx
	movq	%rdx, 16(%rax)
	movq	(%rdi,%rcx,8), %r12
	movq	%r12, 24(%rax)
	movl	32(%rdi), %ecx
	movl	48(%rdi), %edx
	xorl	%r8d, %r8d
	cmpl	40(%rdi), %ecx
	setb	%r8b
	xorl	%ecx, %ecx
	cmpl	56(%rdi), %edx
	setb	%cl
	leal	4(%r8), %edx
	xorl	$5, %r8d
	leal	6(%rcx), %r9d
	xorl	$7, %ecx
	movl	(%rdi,%rdx,8), %r10d
	movl	(%rdi,%r9,8), %r11d
	cmpl	%r11d, %r10d
	movl	(%rdi,%r8,8), %ebx
	movl	%r9d, %r14d
	cmovbl	%r8d, %r14d
	cmpl	(%rdi,%rcx,8), %ebx
	cmovbl	%ecx, %r14d
	cmovbl	%r8d, %ecx
	cmovbl	%r9d, %r8d
	cmpl	%r11d, %r10d
	cmovbl	%edx, %r8d
	movl	(%rdi,%r8,8), %r10d
	cmovbl	%r9d, %edx
	cmpl	(%rdi,%r14,8), %r10d
	movq	(%rdi,%rdx,8), %r11
	movq	%r11, 32(%rax)
	movl	%r8d, %edx
	cmovbl	%r14d, %edx
	movq	(%rdi,%rdx,8), %rdx
	movq	%rdx, 40(%rax)
	cmovael	%r14d, %r8d
	movq	(%rdi,%r8,8), %rdx
	movq	%rdx, 48(%rax)
	movq	(%rdi,%rcx,8), %rdx
	movq	%rdx, 56(%rax)
	xorl	%ecx, %ecx
	movq	%r12, -8(%rsp)
	movq	%rdx, -56(%rsp)
	cmpl	%edx, %r12d
	setb	%cl
	movl	$4, %r10d
	movl	$4, %edx
	subq	%rcx, %rdx
	leaq	7(%rcx), %r12
	movl	48(%rax,%rcx,8), %r9d
	movq	%rdx, -16(%rsp)
	movl	-8(%rax,%rdx,8), %edx
	cmpl	%r9d, %edx
	sbbq	%rcx, %r10
	movl	%r9d, -84(%rsp)
	movl	%edx, -88(%rsp)
	cmpl	%r9d, %edx
	movq	%r12, -24(%rsp)
	adcq	$-1, %r12
	movl	-8(%rax,%r12,8), %edx
	movl	-8(%rax,%r10,8), %r8d
	xorl	%ecx, %ecx
	movl	%edx, -92(%rsp)
	movl	%r8d, -96(%rsp)
	cmpl	%edx, %r8d
	setb	%cl
	movq	%r12, -48(%rsp)
	adcq	$-1, %r12
	movq	%r10, %rdx
	subq	%rcx, %rdx
	movl	-8(%rax,%r12,8), %r8d
	movq	%rdx, -64(%rsp)
	movl	-8(%rax,%rdx,8), %edx
	cmpl	%r8d, %edx
	movq	%r10, -32(%rsp)
	sbbq	%rcx, %r10
	movq	%r10, (%rsp)
	movl	%r8d, -100(%rsp)
	movl	%edx, -104(%rsp)
	cmpl	%r8d, %edx
	movl	%r12d, %ecx
	adcl	$-1, %ecx
	xorl	%ebp, %ebp
	movq	%r15, -80(%rsp)
	movq	%r11, -40(%rsp)
	cmpl	%r11d, %r15d
	setae	%bpl
	movq	%rbp, %rdx
	xorq	$5, %rdx
	movl	(%rax,%rdx,8), %r9d
	movl	(%rax,%rbp,8), %r10d
	xorl	%r8d, %r8d
	movl	%r9d, -108(%rsp)
	movl	%r10d, -112(%rsp)
	cmpl	%r9d, %r10d
	setb	%r8b
	movq	%rbp, %r11
	sbbq	$-1, %r11
	movl	%r11d, %r9d
	movl	(%rax,%r9,8), %r10d
	leaq	(%rdx,%r8), %r9
	movq	%r9, -72(%rsp)
	movl	(%rax,%r9,8), %r13d
	cmpl	%r13d, %r10d
	adcq	%rdx, %r8
	movl	%r10d, -116(%rsp)
	cmpl	%r13d, %r10d
	movq	%r11, %r10
	sbbq	$-1, %r10
	movl	%r8d, %r9d
	movl	(%rax,%r9,8), %r14d
	movl	%r10d, %r9d
	movl	(%rax,%r9,8), %r15d
	cmpl	%r14d, %r15d
	movl	%r8d, %ebx
	adcl	$0, %ebx
	cmpl	%r14d, %r15d
	movq	%r10, %r9
	sbbq	$-1, %r9
	cmpl	%ecx, %ebx
	ja	2f
	cmpq	(%rsp), %r9
	ja	2f
	xorl	%ebx, %ebx
	movq	-56(%rsp), %rcx
	cmpl	%ecx, -8(%rsp)
	setae	%bl
	xorl	%ecx, %ecx
	movq	-40(%rsp), %r9
	cmpl	%r9d, -80(%rsp)
	setb	%cl
	cmpl	%r14d, %r15d
	cmovbq	%r8, %r10
	cmpl	%r13d, -116(%rsp)
	cmovbq	-72(%rsp), %r11
	shll	$5, %ecx
	movl	-112(%rsp), %r8d
	cmpl	-108(%rsp), %r8d
	cmovbl	%edx, %ebp
	movl	-104(%rsp), %edx
	cmpl	-100(%rsp), %edx
	cmovbl	-64(%rsp), %r12d
	leal	2040(,%r12,8), %edx
	andl	$2040, %edx
	movl	-96(%rsp), %r8d
	cmpl	-92(%rsp), %r8d
	movq	-48(%rsp), %r8
	cmovbl	-32(%rsp), %r8d
	leal	2040(,%r8,8), %r8d
	andl	$2040, %r8d
	movl	-88(%rsp), %r9d
	cmpl	-84(%rsp), %r9d
	movq	(%rax,%rcx), %rcx
	movq	%rcx, (%rdi)
	movq	(%rax,%rbp,8), %rcx
	movq	%rcx, 8(%rdi)
	movq	(%rax,%r11,8), %rcx
	movq	%rcx, 16(%rdi)
	movq	(%rax,%r10,8), %rcx
	movq	%rcx, 24(%rdi)
	movq	(%rax,%rdx), %rcx
	movq	%rcx, 32(%rdi)
	movq	(%rax,%r8), %rcx
	movq	%rcx, 40(%rdi)
	movq	-24(%rsp), %rcx
	cmovbl	-16(%rsp), %ecx
	leal	2040(,%rcx,8), %ecx
	andl	$2040, %ecx
	movq	(%rax,%rcx), %rcx
	movq	%rcx, 48(%rdi)
	shll	$5, %ebx
	movq	24(%rax,%rbx), %rcx
	movq	%rcx, 56(%rdi)
	movl	$8, %ecx
	jmp	5f
1:
	movl	$1, %ecx
	cmpq	$4, %rsi
	jb	6f
	movl	(%rdi), %eax
	xorl	%r14d, %r14d
	xorl	%ecx, %ecx
	cmpl	8(%rdi), %eax
	movl	16(%rdi), %r8d
	setae	%r14b
	setb	%cl
	xorl	%eax, %eax
	cmpl	24(%rdi), %r8d
	setb	%al
	leal	2(%rax), %r9d
	xorl	$3, %eax
	movl	(%rdi,%rcx,8), %r8d
	movl	(%rdi,%r9,8), %r11d
	cmpl	%r11d, %r8d
	movl	(%rdi,%r14,8), %ebx
	movl	%r9d, %r10d
	cmovbl	%r14d, %r10d
	cmpl	(%rdi,%rax,8), %ebx
	cmovbl	%eax, %r10d
	cmovbl	%r14d, %eax
	movl	%r14d, %ebx
	cmovbl	%r9d, %ebx
	cmpl	%r11d, %r8d
	movq	(%rdx), %r14
	movq	8(%rdx), %r8
	cmovbl	%ecx, %ebx
	movl	(%rdi,%rbx,8), %r11d
	cmovbl	%r9d, %ecx
	cmpl	(%rdi,%r10,8), %r11d
	movq	(%rdi,%rcx,8), %rcx
	movl	%ebx, %r9d
	cmovbl	%r10d, %r9d
	movq	%rcx, (%r14)
	movq	(%rdi,%r9,8), %r9
	cmovael	%r10d, %ebx
	movq	%r9, 8(%r14)
	movq	(%rdi,%rbx,8), %r9
	movq	%r9, 16(%r14)
	movq	(%rdi,%rax,8), %rax
	movq	%rax, 24(%r14)
	movq	%rdi, %rax
	subq	%r14, %rax
	cmpq	$31, %rax
	ja	8f
	movq	%rcx, (%rdi)
	movq	8(%r14), %rax
	movq	%rax, 8(%rdi)
	movq	16(%r14), %rax
	movq	%rax, 16(%rdi)
	movq	24(%r14), %rax
	movq	%rax, 24(%rdi)
	jmp	9f
2:
	movq	%rdi, %rcx
	subq	%rax, %rcx
	cmpq	$63, %rcx
	ja	3f
	movq	-80(%rsp), %rcx
	movq	%rcx, (%rdi)
	movq	8(%rax), %rcx
	movq	%rcx, 8(%rdi)
	movq	16(%rax), %rcx
	movq	%rcx, 16(%rdi)
	movq	24(%rax), %rcx
	movq	%rcx, 24(%rdi)
	movq	32(%rax), %rcx
	movq	%rcx, 32(%rdi)
	movq	40(%rax), %rcx
	movq	%rcx, 40(%rdi)
	movq	48(%rax), %rcx
	movq	%rcx, 48(%rdi)
	movq	56(%rax), %rcx
	movq	%rcx, 56(%rdi)
	jmp	4f
3:
	movups	(%rax), %xmm0
	movups	16(%rax), %xmm1
	movups	32(%rax), %xmm2
	movups	48(%rax), %xmm3
	movups	%xmm3, 48(%rdi)
	movups	%xmm2, 32(%rdi)
	movups	%xmm1, 16(%rdi)
	movups	%xmm0, (%rdi)
4:
	movl	$4, %ecx
5:
	movq	-128(%rsp), %rdx
	movq	%rax, (%rdx)
	movq	8(%rsp), %rax
	movq	%rax, 8(%rdx)
6:
	cmpq	%rsi, %rcx
	jb	13f
7:
	addq	$16, %rsp
	popq	%rbx
	popq	%r12
	popq	%r13
	popq	%r14
	popq	%r15
	popq	%rbp
	retq
8:
	movups	(%r14), %xmm0
	movups	16(%r14), %xmm1
	movups	%xmm1, 16(%rdi)
	movups	%xmm0, (%rdi)
9:
	movq	%r14, (%rdx)
	movq	%r8, 8(%rdx)
	movl	$4, %ecx
	cmpq	%rsi, %rcx
	jb	13f
	jmp	7b
10:
	xorl	%edx, %edx
11:
	movq	%rax, (%rdi,%rdx)
12:
	incq	%rcx
	cmpq	%rsi, %rcx
	je	7b
13:
	movl	-8(%rdi,%rcx,8), %eax
	cmpl	(%rdi,%rcx,8), %eax
	jae	12b
	movq	%rcx, %rdx
	movq	-8(%rdi,%rcx,8), %r8
	movq	(%rdi,%rcx,8), %rax
	movq	%r8, (%rdi,%rcx,8)
	decq	%rdx
	je	10b
	.p2align	4
14:
	cmpl	%eax, -8(%rdi,%rdx,8)
	jae	15f
	movq	%rdx, %r8
	decq	%r8
	movq	(%rdi,%r8,8), %r9
	movq	%r9, (%rdi,%rdx,8)
	movq	%r8, %rdx
	jne	14b
	xorl	%edx, %edx
15:
	shlq	$3, %rdx
	jmp	11b
16:
	.size	"core::slice::sort::short::sort_half::<#12eb916b83b0f891>", 16b-"core::slice::sort::short::sort_half::<#12eb916b83b0f891>"

	.text
	.p2align	4
	.type	"core::slice::sort::short::sort_half::<#196989f31ad14034>",@function
"core::slice::sort::short::sort_half::<#196989f31ad14034>":
	pushq	%rbp
	pushq	%r15
	pushq	%r14
	pushq	%r13
	pushq	%r12
	pushq	%rbx
	pushq	%rax
	cmpq	$8, %rsi
	jb	1f
	movq	(%rdi), %rax
	movq	8(%rdi), %rcx
	movl	56(%rax), %r8d
	xorl	%eax, %eax
	xorl	%r14d, %r14d
	cmpl	56(%rcx), %r8d
	setae	%al
	setb	%r14b
	movq	24(%rdi), %r8
	movq	16(%rdi), %rcx
	movl	56(%rcx), %r9d
	xorl	%ecx, %ecx
	cmpl	56(%r8), %r9d
	setb	%cl
	leal	2(%rcx), %r8d
	xorl	$3, %ecx
	movq	(%rdi,%r8,8), %r9
	movq	(%rdi,%r14,8), %r10
	movl	56(%r10), %r10d
	movl	56(%r9), %r11d
	cmpl	%r11d, %r10d
	movq	(%rdi,%rcx,8), %rbx
	movq	(%rdi,%rax,8), %r9
	movl	56(%r9), %ebp
	movl	%r8d, %r9d
	cmovbl	%eax, %r9d
	cmpl	56(%rbx), %ebp
	cmovbl	%ecx, %r9d
	cmovbl	%eax, %ecx
	movl	%eax, %ebx
	cmovbl	%r8d, %ebx
	cmpl	%r11d, %r10d
	movq	(%rdx), %rax
	cmovbl	%r14d, %ebx
	movq	%rdx, -120(%rsp)
	movq	8(%rdx), %rdx
	movq	%rdx, (%rsp)
	movq	(%rdi,%r9,8), %r10
	movq	(%rdi,%rbx,8), %r11
	movl	56(%r11), %r11d
	cmovbl	%r8d, %r14d
	cmpl	56(%r10), %r11d
	movq	(%rdi,%r14,8), %r13
	movl	%ebx, %edx
	cmovbl	%r9d, %edx
	movq	%r13, (%rax)
	movq	(%rdi,%rdx,8), %rdx
	cmovael	%r9d, %ebx
	movq	%rdx, 8(%rax)
	movq	(%rdi,%rbx,8), %rdx
	movq	%rdx, 16(%rax)
	movq	(%rdi,%rcx,8), %rcx
	movq	%rcx, 24(%rax)
	movq	32(%rdi), %rdx
	movq	40(%rdi), %r8
	movl	56(%rdx), %edx
	xorl	%r9d, %r9d
	cmpl	56(%r8), %edx
	setb	%r9b
	movq	56(%rdi), %r8
	movq	48(%rdi), %rdx
	movl	56(%rdx), %r10d
	xorl	%edx, %edx
	cmpl	56(%r8), %r10d
	setb	%dl
	leal	4(%r9), %r8d
	xorl	$5, %r9d
	leal	6(%rdx), %r10d
	xorl	$7, %edx
	movq	(%rdi,%r10,8), %r11
	movq	(%rdi,%r8,8), %rbx
	movl	56(%rbx), %ebx
	movl	56(%r11), %ebp
	cmpl	%ebp, %ebx
	movq	(%rdi,%rdx,8), %r14
	movq	(%rdi,%r9,8), %r11
	movl	56(%r11), %r15d
	movl	%r10d, %r11d
	cmovbl	%r9d, %r11d
	cmpl	56(%r14), %r15d
	cmovbl	%edx, %r11d
	cmovbl	%r9d, %edx
	cmovbl	%r10d, %r9d
	cmpl	%ebp, %ebx
	cmovbl	%r8d, %r9d
	movq	(%rdi,%r11,8), %rbx
	movq	(%rdi,%r9,8), %r14
	movl	56(%r14), %ebp
	cmovbl	%r10d, %r8d
	cmpl	56(%rbx), %ebp
	movq	(%rdi,%r8,8), %r8
	movq	%r8, 32(%rax)
	movl	%r9d, %r10d
	cmovbl	%r11d, %r10d
	movq	(%rdi,%r10,8), %r10
	movq	%r10, 40(%rax)
	cmovael	%r11d, %r9d
	movq	(%rdi,%r9,8), %r9
	movq	%r9, 48(%rax)
	movq	(%rdi,%rdx,8), %rdx
	movq	%rdx, 56(%rax)
	movl	56(%rdx), %edx
	movl	56(%rcx), %r9d
	xorl	%ecx, %ecx
	movl	%edx, -84(%rsp)
	movl	%r9d, -88(%rsp)
	cmpl	%edx, %r9d
	setb	%cl
	movl	$4, %r11d
	movl	$4, %r9d
	subq	%rcx, %r9
	leaq	7(%rcx), %r12
	movq	48(%rax,%rcx,8), %rdx
	movq	%r9, -16(%rsp)
	movq	-8(%rax,%r9,8), %r9
	movl	56(%rdx), %edx
	movl	56(%r9), %r9d
	cmpl	%edx, %r9d
	sbbq	%rcx, %r11
	movl	%edx, -68(%rsp)
	movl	%r9d, -72(%rsp)
	cmpl	%edx, %r9d
	movq	%r12, -24(%rsp)
	adcq	$-1, %r12
	movq	-8(%rax,%r12,8), %rcx
	movq	-8(%rax,%r11,8), %rdx
	movl	56(%rcx), %r9d
	movl	56(%rdx), %edx
	xorl	%ecx, %ecx
	movl	%r9d, -76(%rsp)
	movl	%edx, -80(%rsp)
	cmpl	%r9d, %edx
	setb	%cl
	movq	%r12, -40(%rsp)
	adcq	$-1, %r12
	movq	%r11, %r9
	subq	%rcx, %r9
	movq	-8(%rax,%r12,8), %rdx
	movl	56(%rdx), %r10d
	movq	%r9, -48(%rsp)
	movq	-8(%rax,%r9,8), %rdx
	movl	56(%rdx), %edx
	cmpl	%r10d, %edx
	movq	%r11, -32(%rsp)
	sbbq	%rcx, %r11
	movq	%r11, -8(%rsp)
	movl	%r10d, -92(%rsp)
	movl	%edx, -96(%rsp)
	cmpl	%r10d, %edx
	movl	56(%r8), %ecx
	movl	%r12d, %edx
	adcl	$-1, %edx
	movl	%edx, -128(%rsp)
	movq	%r13, -64(%rsp)
	movl	56(%r13), %edx
	xorl	%r8d, %r8d
	movl	%ecx, -100(%rsp)
	movl	%edx, -108(%rsp)
	cmpl	%ecx, %edx
	setae	%r8b
	movq	%r8, %r15
	xorq	$5, %r15
	movq	(%rax,%r15,8), %rcx
	movl	56(%rcx), %edx
	movq	(%rax,%r8,8), %rcx
	movl	56(%rcx), %ecx
	xorl	%ebp, %ebp
	movl	%edx, -104(%rsp)
	movl	%ecx, -112(%rsp)
	cmpl	%edx, %ecx
	setb	%bpl
	movq	%r8, %r10
	sbbq	$-1, %r10
	movl	%r10d, %ecx
	movq	(%rax,%rcx,8), %rcx
	leaq	(%r15,%rbp), %rdx
	movq	%rdx, -56(%rsp)
	movq	(%rax,%rdx,8), %rdx
	movl	56(%rdx), %r13d
	movl	56(%rcx), %edx
	cmpl	%r13d, %edx
	adcq	%r15, %rbp
	cmpl	%r13d, %edx
	movq	%r10, %rbx
	sbbq	$-1, %rbx
	movl	%ebp, %ecx
	movq	(%rax,%rcx,8), %rcx
	movl	%ebx, %r9d
	movq	(%rax,%r9,8), %r9
	movl	56(%rcx), %r11d
	movl	56(%r9), %r9d
	cmpl	%r11d, %r9d
	movl	%ebp, %r14d
	adcl	$0, %r14d
	cmpl	%r11d, %r9d
	movq	%rbx, %rcx
	sbbq	$-1, %rcx
	cmpl	-128(%rsp), %r14d
	ja	2f
	cmpq	-8(%rsp), %rcx
	ja	2f
	xorl	%r14d, %r14d
	movl	-88(%rsp), %ecx
	cmpl	-84(%rsp), %ecx
	setae	%r14b
	movq	%r14, -128(%rsp)
	xorl	%ecx, %ecx
	movl	-108(%rsp), %r14d
	cmpl	-100(%rsp), %r14d
	setb	%cl
	cmpl	%r11d, %r9d
	cmovbq	%rbp, %rbx
	cmpl	%r13d, %edx
	cmovbq	-56(%rsp), %r10
	shll	$5, %ecx
	movl	-112(%rsp), %edx
	cmpl	-104(%rsp), %edx
	cmovbl	%r15d, %r8d
	movl	-96(%rsp), %edx
	cmpl	-92(%rsp), %edx
	cmovbl	-48(%rsp), %r12d
	leal	2040(,%r12,8), %edx
	andl	$2040, %edx
	movl	-80(%rsp), %r9d
	cmpl	-76(%rsp), %r9d
	movq	-40(%rsp), %r9
	cmovbl	-32(%rsp), %r9d
	leal	2040(,%r9,8), %r9d
	andl	$2040, %r9d
	movl	-72(%rsp), %r11d
	cmpl	-68(%rsp), %r11d
	movq	(%rax,%rcx), %rcx
	movq	%rcx, (%rdi)
	movq	(%rax,%r8,8), %rcx
	movq	%rcx, 8(%rdi)
	movq	(%rax,%r10,8), %rcx
	movq	%rcx, 16(%rdi)
	movq	(%rax,%rbx,8), %rcx
	movq	%rcx, 24(%rdi)
	movq	(%rax,%rdx), %rcx
	movq	%rcx, 32(%rdi)
	movq	(%rax,%r9), %rcx
	movq	%rcx, 40(%rdi)
	movq	-24(%rsp), %rcx
	cmovbl	-16(%rsp), %ecx
	leal	2040(,%rcx,8), %ecx
	andl	$2040, %ecx
	movq	(%rax,%rcx), %rcx
	movq	%rcx, 48(%rdi)
	movq	-128(%rsp), %rcx
	shll	$5, %ecx
	movq	24(%rax,%rcx), %rcx
	movq	%rcx, 56(%rdi)
	movl	$8, %ecx
	jmp	5f
1:
	movl	$1, %ecx
	cmpq	$4, %rsi
	jb	6f
	movq	(%rdi), %rax
	movq	8(%rdi), %r8
	movl	56(%rax), %eax
	xorl	%r14d, %r14d
	xorl	%ecx, %ecx
	cmpl	56(%r8), %eax
	setae	%r14b
	setb	%cl
	movq	24(%rdi), %r8
	movq	16(%rdi), %rax
	movl	56(%rax), %r9d
	xorl	%eax, %eax
	cmpl	56(%r8), %r9d
	setb	%al
	leal	2(%rax), %r9d
	xorl	$3, %eax
	movq	(%rdi,%r9,8), %r8
	movq	(%rdi,%rcx,8), %r10
	movl	56(%r10), %r11d
	movl	56(%r8), %r8d
	cmpl	%r8d, %r11d
	movq	(%rdi,%rax,8), %rbx
	movq	(%rdi,%r14,8), %r10
	movl	56(%r10), %ebp
	movl	%r9d, %r10d
	cmovbl	%r14d, %r10d
	cmpl	56(%rbx), %ebp
	cmovbl	%eax, %r10d
	cmovbl	%r14d, %eax
	movl	%r14d, %ebx
	cmovbl	%r9d, %ebx
	cmpl	%r8d, %r11d
	movq	(%rdx), %r15
	cmovbl	%ecx, %ebx
	movq	8(%rdx), %r8
	movq	(%rdi,%r10,8), %r11
	movq	(%rdi,%rbx,8), %r14
	movl	56(%r14), %ebp
	cmovbl	%r9d, %ecx
	cmpl	56(%r11), %ebp
	movq	(%rdi,%rcx,8), %rcx
	movl	%ebx, %r9d
	cmovbl	%r10d, %r9d
	movq	%rcx, (%r15)
	movq	(%rdi,%r9,8), %r9
	cmovael	%r10d, %ebx
	movq	%r9, 8(%r15)
	movq	(%rdi,%rbx,8), %r9
	movq	%r9, 16(%r15)
	movq	(%rdi,%rax,8), %rax
	movq	%rax, 24(%r15)
	movq	%rdi, %rax
	subq	%r15, %rax
	cmpq	$31, %rax
	ja	8f
	movq	%rcx, (%rdi)
	movq	8(%r15), %rax
	movq	%rax, 8(%rdi)
	movq	16(%r15), %rax
	movq	%rax, 16(%rdi)
	movq	24(%r15), %rax
	movq	%rax, 24(%rdi)
	jmp	9f
2:
	movq	%rdi, %rcx
	subq	%rax, %rcx
	cmpq	$63, %rcx
	ja	3f
	movq	-64(%rsp), %rcx
	movq	%rcx, (%rdi)
	movq	8(%rax), %rcx
	movq	%rcx, 8(%rdi)
	movq	16(%rax), %rcx
	movq	%rcx, 16(%rdi)
	movq	24(%rax), %rcx
	movq	%rcx, 24(%rdi)
	movq	32(%rax), %rcx
	movq	%rcx, 32(%rdi)
	movq	40(%rax), %rcx
	movq	%rcx, 40(%rdi)
	movq	48(%rax), %rcx
	movq	%rcx, 48(%rdi)
	movq	56(%rax), %rcx
	movq	%rcx, 56(%rdi)
	jmp	4f
3:
	movups	(%rax), %xmm0
	movups	16(%rax), %xmm1
	movups	32(%rax), %xmm2
	movups	48(%rax), %xmm3
	movups	%xmm3, 48(%rdi)
	movups	%xmm2, 32(%rdi)
	movups	%xmm1, 16(%rdi)
	movups	%xmm0, (%rdi)
4:
	movl	$4, %ecx
5:
	movq	-120(%rsp), %rdx
	movq	%rax, (%rdx)
	movq	(%rsp), %rax
	movq	%rax, 8(%rdx)
6:
	cmpq	%rsi, %rcx
	jb	13f
7:
	addq	$8, %rsp
	popq	%rbx
	popq	%r12
	popq	%r13
	popq	%r14
	popq	%r15
	popq	%rbp
	retq
8:
	movups	(%r15), %xmm0
	movups	16(%r15), %xmm1
	movups	%xmm1, 16(%rdi)
	movups	%xmm0, (%rdi)
9:
	movq	%r15, (%rdx)
	movq	%r8, 8(%rdx)
	movl	$4, %ecx
	cmpq	%rsi, %rcx
	jb	13f
	jmp	7b
10:
	xorl	%edx, %edx
11:
	movq	%rax, (%rdi,%rdx)
12:
	incq	%rcx
	cmpq	%rsi, %rcx
	je	7b
13:
	movq	-8(%rdi,%rcx,8), %r8
	movq	(%rdi,%rcx,8), %rax
	movl	56(%r8), %edx
	cmpl	56(%rax), %edx
	jae	12b
	movq	%rcx, %rdx
	movq	%r8, (%rdi,%rcx,8)
	decq	%rdx
	je	10b
	.p2align	4
14:
	movq	-8(%rdi,%rdx,8), %r8
	movl	56(%r8), %r9d
	cmpl	56(%rax), %r9d
	jae	15f
	movq	%r8, (%rdi,%rdx,8)
	decq	%rdx
	jne	14b
	xorl	%edx, %edx
15:
	shlq	$3, %rdx
	jmp	11b
16:
	.size	"core::slice::sort::short::sort_half::<#196989f31ad14034>", 16b-"core::slice::sort::short::sort_half::<#196989f31ad14034>"

	.text
	.p2align	4
	.type	"core::slice::sort::short::sort_half::<#24df1801f4a811cc>",@function
"core::slice::sort::short::sort_half::<#24df1801f4a811cc>":
	pushq	%rbp
	pushq	%r15
	pushq	%r14
	pushq	%r13
	pushq	%r12
	pushq	%rbx
	subq	$184, %rsp
	movq	%rdx, 8(%rsp)
	cmpq	$8, %rsi
	jb	1f
	movl	(%rdi), %r9d
	movl	112(%rdi), %eax
	xorl	%edx, %edx
	cmpl	168(%rdi), %eax
	setb	%dl
	leaq	2(%rdx), %rcx
	xorq	$3, %rdx
	imulq	$56, %rcx, %r10
	imulq	$56, %rdx, %r11
	xorl	%eax, %eax
	xorl	%r8d, %r8d
	cmpl	56(%rdi), %r9d
	leaq	56(%rdi), %rbx
	setae	%al
	setb	%r8b
	movq	%rdi, %r9
	cmovbq	%rbx, %r9
	movl	(%r9), %r9d
	cmovbq	%rdi, %rbx
	movl	(%rbx), %ebx
	movl	(%rdi,%r11), %r11d
	cmpl	%r11d, %ebx
	movq	%rax, %r14
	cmovbq	%rcx, %r14
	cmpl	(%rdi,%r10), %r9d
	cmovbq	%r8, %r14
	cmovbq	%rcx, %r8
	cmovbq	%rax, %rcx
	cmpl	%r11d, %ebx
	cmovaeq	%rdx, %rax
	cmovbq	%rdx, %rcx
	imulq	$56, %rcx, %rdx
	imulq	$56, %r14, %r9
	movl	(%rdi,%r9), %r9d
	cmpl	(%rdi,%rdx), %r9d
	movq	8(%rsp), %rdx
	movq	(%rdx), %rbx
	movq	%r14, %r9
	cmovbq	%rcx, %r9
	movq	8(%rdx), %rdx
	movq	%rdx, 120(%rsp)
	cmovbq	%r14, %rcx
	imulq	$56, %r8, %rdx
	movups	(%rdi,%rdx), %xmm0
	movups	16(%rdi,%rdx), %xmm1
	movups	32(%rdi,%rdx), %xmm2
	movq	48(%rdi,%rdx), %rdx
	movq	%rdx, 48(%rbx)
	movups	%xmm2, 32(%rbx)
	movups	%xmm1, 16(%rbx)
	movups	%xmm0, (%rbx)
	imulq	$56, %r9, %rdx
	movups	(%rdi,%rdx), %xmm0
	movups	16(%rdi,%rdx), %xmm1
	movups	32(%rdi,%rdx), %xmm2
	movq	48(%rdi,%rdx), %rdx
	movq	%rdx, 104(%rbx)
	movups	%xmm2, 88(%rbx)
	movups	%xmm1, 72(%rbx)
	movups	%xmm0, 56(%rbx)
	imulq	$56, %rcx, %rcx
	movups	(%rdi,%rcx), %xmm0
	movups	16(%rdi,%rcx), %xmm1
	movups	32(%rdi,%rcx), %xmm2
	movq	48(%rdi,%rcx), %rcx
	movq	%rcx, 160(%rbx)
	movups	%xmm2, 144(%rbx)
	movups	%xmm1, 128(%rbx)
	movups	%xmm0, 112(%rbx)
	imulq	$56, %rax, %rax
	movups	(%rdi,%rax), %xmm0
	movups	16(%rdi,%rax), %xmm1
	movups	32(%rdi,%rax), %xmm2
	movq	48(%rdi,%rax), %rax
	movq	%rax, 216(%rbx)
	movups	%xmm2, 200(%rbx)
	movups	%xmm1, 184(%rbx)
	movups	%xmm0, 168(%rbx)
	movl	224(%rdi), %ecx
	movl	336(%rdi), %edx
	xorl	%eax, %eax
	cmpl	280(%rdi), %ecx
	setb	%al
	xorl	%r8d, %r8d
	cmpl	392(%rdi), %edx
	setb	%r8b
	leaq	4(%rax), %rdx
	xorq	$5, %rax
	leaq	6(%r8), %rcx
	xorq	$7, %r8
	imulq	$56, %rcx, %r9
	imulq	$56, %rdx, %r10
	movl	(%rdi,%r10), %r10d
	imulq	$56, %r8, %r11
	imulq	$56, %rax, %r14
	movl	(%rdi,%r14), %ebp
	movl	(%rdi,%r11), %r11d
	cmpl	%r11d, %ebp
	movq	%rax, %r14
	cmovbq	%rcx, %r14
	cmpl	(%rdi,%r9), %r10d
	cmovbq	%rdx, %r14
	cmovbq	%rcx, %rdx
	cmovbq	%rax, %rcx
	cmpl	%r11d, %ebp
	cmovaeq	%r8, %rax
	cmovbq	%r8, %rcx
	imulq	$56, %rcx, %r8
	imulq	$56, %r14, %r9
	movl	(%rdi,%r9), %r9d
	cmpl	(%rdi,%r8), %r9d
	movq	%r14, %r8
	cmovbq	%rcx, %r8
	cmovbq	%r14, %rcx
	imulq	$56, %rdx, %rdx
	movups	(%rdi,%rdx), %xmm0
	movups	16(%rdi,%rdx), %xmm1
	movups	32(%rdi,%rdx), %xmm2
	movq	48(%rdi,%rdx), %rdx
	movq	%rdx, 272(%rbx)
	movups	%xmm2, 256(%rbx)
	movups	%xmm1, 240(%rbx)
	movups	%xmm0, 224(%rbx)
	imulq	$56, %r8, %rdx
	movups	(%rdi,%rdx), %xmm0
	movups	16(%rdi,%rdx), %xmm1
	movups	32(%rdi,%rdx), %xmm2
	movq	48(%rdi,%rdx), %rdx
	movq	%rdx, 328(%rbx)
	movups	%xmm2, 312(%rbx)
	movups	%xmm1, 296(%rbx)
	movups	%xmm0, 280(%rbx)
	imulq	$56, %rcx, %rcx
	movups	(%rdi,%rcx), %xmm0
	movups	16(%rdi,%rcx), %xmm1
	movups	32(%rdi,%rcx), %xmm2
	movq	48(%rdi,%rcx), %rcx
	movq	%rcx, 384(%rbx)
	movups	%xmm2, 368(%rbx)
	movups	%xmm1, 352(%rbx)
	movups	%xmm0, 336(%rbx)
	imulq	$56, %rax, %rax
	movups	(%rdi,%rax), %xmm0
	movups	16(%rdi,%rax), %xmm1
	movups	32(%rdi,%rax), %xmm2
	movq	48(%rdi,%rax), %rax
	movq	%rax, 440(%rbx)
	movups	%xmm2, 424(%rbx)
	movups	%xmm1, 408(%rbx)
	movups	%xmm0, 392(%rbx)
	movl	392(%rbx), %ecx
	movl	168(%rbx), %edx
	xorl	%eax, %eax
	movl	%ecx, 68(%rsp)
	movl	%edx, 64(%rsp)
	cmpl	%ecx, %edx
	setb	%al
	movl	$4, %r8d
	movl	$4, %edx
	subq	%rax, %rdx
	leaq	7(%rax), %r14
	movq	%rdx, 96(%rsp)
	imulq	$56, %rdx, %rcx
	imulq	$56, %rax, %rdx
	movl	336(%rdx,%rbx), %edx
	movl	-56(%rbx,%rcx), %ecx
	cmpl	%edx, %ecx
	sbbq	%rax, %r8
	movl	%edx, 60(%rsp)
	movl	%ecx, 56(%rsp)
	cmpl	%edx, %ecx
	movq	%r14, 104(%rsp)
	adcq	$-1, %r14
	imulq	$56, %r14, %rax
	imulq	$56, %r8, %rcx
	movl	-56(%rbx,%rax), %edx
	movl	-56(%rbx,%rcx), %ecx
	xorl	%eax, %eax
	movl	%edx, 52(%rsp)
	movl	%ecx, 48(%rsp)
	cmpl	%edx, %ecx
	setb	%al
	movq	%r14, %r13
	adcq	$-1, %r13
	movq	%r8, %rdx
	subq	%rax, %rdx
	imulq	$56, %r13, %rcx
	movl	-56(%rbx,%rcx), %r9d
	movq	%rdx, 80(%rsp)
	imulq	$56, %rdx, %rcx
	movl	-56(%rbx,%rcx), %edx
	cmpl	%r9d, %edx
	movq	%r8, 88(%rsp)
	sbbq	%rax, %r8
	movq	%r8, 112(%rsp)
	movl	%r9d, 28(%rsp)
	movl	%edx, 24(%rsp)
	cmpl	%r9d, %edx
	movl	%r13d, %r12d
	adcl	$-1, %r12d
	movl	(%rbx), %eax
	movl	224(%rbx), %ecx
	xorl	%r15d, %r15d
	movl	%eax, 44(%rsp)
	movl	%ecx, 40(%rsp)
	cmpl	%ecx, %eax
	setae	%r15b
	leaq	56(%rbx), %rcx
	movq	%rbx, %rax
	cmovaeq	%rcx, %rax
	movq	%r15, %rdx
	xorq	$5, %rdx
	imulq	$56, %rdx, %rcx
	movl	(%rbx,%rcx), %ecx
	movl	(%rax), %eax
	xorl	%r9d, %r9d
	movl	%ecx, 36(%rsp)
	movl	%eax, 32(%rsp)
	cmpl	%ecx, %eax
	setb	%r9b
	movq	%r15, %rax
	sbbq	$-1, %rax
	leaq	(%rdx,%r9), %rcx
	movq	%rcx, 72(%rsp)
	imulq	$56, %rcx, %rcx
	movl	(%rbx,%rcx), %r8d
	imulq	$56, %rax, %rcx
	movl	(%rbx,%rcx), %ecx
	cmpl	%r8d, %ecx
	adcq	%rdx, %r9
	movl	%r8d, 20(%rsp)
	movl	%ecx, 16(%rsp)
	cmpl	%r8d, %ecx
	movq	%rax, %r8
	sbbq	$-1, %r8
	imulq	$56, %r9, %rcx
	movl	(%rbx,%rcx), %ecx
	imulq	$56, %r8, %r11
	movl	(%rbx,%r11), %r11d
	cmpl	%ecx, %r11d
	movl	%r9d, %r10d
	adcl	$0, %r10d
	cmpl	%ecx, %r11d
	movq	%r8, %rbp
	sbbq	$-1, %rbp
	cmpl	%r12d, %r10d
	ja	2f
	cmpq	112(%rsp), %rbp
	ja	2f
	movl	24(%rsp), %r10d
	cmpl	28(%rsp), %r10d
	cmovbl	80(%rsp), %r13d
	decl	%r13d
	cmpl	%ecx, %r11d
	cmovbq	%r9, %r8
	movl	48(%rsp), %ecx
	cmpl	52(%rsp), %ecx
	cmovbl	88(%rsp), %r14d
	decl	%r14d
	movl	16(%rsp), %ecx
	cmpl	20(%rsp), %ecx
	cmovbq	72(%rsp), %rax
	movl	56(%rsp), %ecx
	cmpl	60(%rsp), %ecx
	movq	104(%rsp), %r11
	cmovbl	96(%rsp), %r11d
	decl	%r11d
	movl	32(%rsp), %ecx
	cmpl	36(%rsp), %ecx
	cmovbq	%rdx, %r15
	movl	40(%rsp), %ecx
	cmpl	%ecx, 44(%rsp)
	leaq	224(%rbx), %r12
	cmovaeq	%rbx, %r12
	imulq	$56, %r15, %r10
	imulq	$56, %rax, %r9
	imulq	$56, %r8, %r8
	movzbl	%r13b, %eax
	imulq	$56, %rax, %rdx
	movzbl	%r14b, %eax
	imulq	$56, %rax, %rcx
	movzbl	%r11b, %eax
	imulq	$56, %rax, %rax
	movl	64(%rsp), %r11d
	cmpl	68(%rsp), %r11d
	movups	(%r12), %xmm0
	movups	16(%r12), %xmm1
	movups	32(%r12), %xmm2
	movq	48(%r12), %r11
	movq	%r11, 48(%rdi)
	movups	%xmm2, 32(%rdi)
	movups	%xmm1, 16(%rdi)
	movups	%xmm0, (%rdi)
	movups	(%rbx,%r10), %xmm0
	movups	16(%rbx,%r10), %xmm1
	movups	32(%rbx,%r10), %xmm2
	movq	48(%rbx,%r10), %r10
	leaq	56(%rdi), %r11
	movq	%r10, 48(%r11)
	movups	%xmm2, 32(%r11)
	movups	%xmm1, 16(%r11)
	movups	%xmm0, (%r11)
	movups	(%rbx,%r9), %xmm0
	movups	16(%rbx,%r9), %xmm1
	movups	32(%rbx,%r9), %xmm2
	movq	48(%rbx,%r9), %r9
	leaq	112(%rdi), %r10
	movq	%r9, 48(%r10)
	movups	%xmm2, 32(%r10)
	movups	%xmm1, 16(%r10)
	movups	%xmm0, (%r10)
	movups	(%rbx,%r8), %xmm0
	movups	16(%rbx,%r8), %xmm1
	movups	32(%rbx,%r8), %xmm2
	movq	48(%rbx,%r8), %r8
	leaq	168(%rdi), %r9
	movq	%r8, 48(%r9)
	movups	%xmm2, 32(%r9)
	movups	%xmm1, 16(%r9)
	movups	%xmm0, (%r9)
	movups	(%rbx,%rdx), %xmm0
	movups	16(%rbx,%rdx), %xmm1
	movups	32(%rbx,%rdx), %xmm2
	movq	48(%rbx,%rdx), %rdx
	leaq	224(%rdi), %r8
	movq	%rdx, 48(%r8)
	movups	%xmm2, 32(%r8)
	movups	%xmm1, 16(%r8)
	movups	%xmm0, (%r8)
	movups	(%rbx,%rcx), %xmm0
	movups	16(%rbx,%rcx), %xmm1
	movups	32(%rbx,%rcx), %xmm2
	movq	48(%rbx,%rcx), %rcx
	leaq	280(%rdi), %rdx
	movq	%rcx, 48(%rdx)
	movups	%xmm2, 32(%rdx)
	movups	%xmm1, 16(%rdx)
	movups	%xmm0, (%rdx)
	movups	(%rbx,%rax), %xmm0
	movups	16(%rbx,%rax), %xmm1
	movups	32(%rbx,%rax), %xmm2
	movq	48(%rbx,%rax), %rax
	leaq	336(%rdi), %rcx
	movq	%rax, 48(%rcx)
	movups	%xmm2, 32(%rcx)
	movups	%xmm1, 16(%rcx)
	movups	%xmm0, (%rcx)
	leaq	392(%rbx), %rax
	leaq	168(%rbx), %rcx
	cmovbq	%rcx, %rax
	movups	(%rax), %xmm0
	movups	16(%rax), %xmm1
	movups	32(%rax), %xmm2
	movq	48(%rax), %rax
	leaq	392(%rdi), %rcx
	movq	%rax, 48(%rcx)
	movups	%xmm2, 32(%rcx)
	movups	%xmm1, 16(%rcx)
	movups	%xmm0, (%rcx)
	movl	$8, %eax
	jmp	5f
1:
	movl	$1, %eax
	cmpq	$4, %rsi
	jb	6f
	leaq	56(%rdi), %rax
	movl	(%rdi), %edx
	movl	112(%rdi), %ecx
	xorl	%r8d, %r8d
	cmpl	168(%rdi), %ecx
	setb	%r8b
	leaq	2(%r8), %rcx
	xorq	$3, %r8
	imulq	$56, %rcx, %r11
	imulq	$56, %r8, %rbx
	xorl	%r10d, %r10d
	xorl	%r9d, %r9d
	cmpl	56(%rdi), %edx
	setae	%r10b
	movq	%rdi, %rdx
	cmovbq	%rax, %rdx
	setb	%r9b
	movq	%rax, %r14
	cmovbq	%rdi, %r14
	movl	(%rdx), %ebp
	movl	(%r14), %r14d
	movl	(%rdi,%rbx), %ebx
	cmpl	%ebx, %r14d
	movq	%r8, %rdx
	cmovbq	%r10, %rdx
	movq	%r10, %r15
	cmovbq	%rcx, %r15
	cmpl	(%rdi,%r11), %ebp
	cmovbq	%r9, %r15
	cmovbq	%rcx, %r9
	cmovbq	%r10, %rcx
	cmpl	%ebx, %r14d
	movq	8(%rsp), %r10
	movq	(%r10), %rbx
	cmovbq	%r8, %rcx
	imulq	$56, %rcx, %r8
	imulq	$56, %r15, %r11
	movl	(%rdi,%r11), %r11d
	cmpl	(%rdi,%r8), %r11d
	movq	%r15, %r8
	cmovbq	%rcx, %r8
	cmovbq	%r15, %rcx
	movq	8(%r10), %r15
	imulq	$56, %r9, %r9
	movups	(%rdi,%r9), %xmm0
	movups	16(%rdi,%r9), %xmm1
	movups	32(%rdi,%r9), %xmm2
	movq	48(%rdi,%r9), %r9
	movq	%r9, 48(%rbx)
	movups	%xmm2, 32(%rbx)
	movups	%xmm1, 16(%rbx)
	movups	%xmm0, (%rbx)
	imulq	$56, %r8, %r8
	movups	(%rdi,%r8), %xmm0
	movups	16(%rdi,%r8), %xmm1
	movups	32(%rdi,%r8), %xmm2
	movq	48(%rdi,%r8), %r8
	movq	%r8, 104(%rbx)
	movups	%xmm2, 88(%rbx)
	movups	%xmm1, 72(%rbx)
	movups	%xmm0, 56(%rbx)
	imulq	$56, %rcx, %rcx
	movups	(%rdi,%rcx), %xmm0
	movups	16(%rdi,%rcx), %xmm1
	movups	32(%rdi,%rcx), %xmm2
	movq	48(%rdi,%rcx), %rcx
	movq	%rcx, 160(%rbx)
	movups	%xmm2, 144(%rbx)
	movups	%xmm1, 128(%rbx)
	movups	%xmm0, 112(%rbx)
	imulq	$56, %rdx, %rcx
	movups	(%rdi,%rcx), %xmm0
	movups	16(%rdi,%rcx), %xmm1
	movups	32(%rdi,%rcx), %xmm2
	movq	48(%rdi,%rcx), %rcx
	movq	%rcx, 216(%rbx)
	movups	%xmm2, 200(%rbx)
	movups	%xmm1, 184(%rbx)
	movups	%xmm0, 168(%rbx)
	movq	%rdi, %rcx
	subq	%rbx, %rcx
	cmpq	$223, %rcx
	ja	14f
	leaq	168(%rdi), %rcx
	leaq	112(%rdi), %rdx
	leaq	56(%rbx), %r8
	leaq	112(%rbx), %r9
	leaq	168(%rbx), %r10
	movups	(%rbx), %xmm0
	movups	16(%rbx), %xmm1
	movups	32(%rbx), %xmm2
	movq	48(%rbx), %r11
	movq	%r11, 48(%rdi)
	movups	%xmm2, 32(%rdi)
	movups	%xmm1, 16(%rdi)
	movups	%xmm0, (%rdi)
	movups	(%r8), %xmm0
	movups	16(%r8), %xmm1
	movups	32(%r8), %xmm2
	movq	48(%r8), %r8
	movq	%r8, 48(%rax)
	movups	%xmm2, 32(%rax)
	movups	%xmm1, 16(%rax)
	movups	%xmm0, (%rax)
	movups	(%r9), %xmm0
	movups	16(%r9), %xmm1
	movups	32(%r9), %xmm2
	movq	48(%r9), %rax
	movq	%rax, 48(%rdx)
	movups	%xmm2, 32(%rdx)
	movups	%xmm1, 16(%rdx)
	movups	%xmm0, (%rdx)
	movups	(%r10), %xmm0
	movups	16(%r10), %xmm1
	movups	32(%r10), %xmm2
	movq	48(%r10), %rax
	movq	%rax, 48(%rcx)
	movups	%xmm2, 32(%rcx)
	movups	%xmm1, 16(%rcx)
	movups	%xmm0, (%rcx)
	jmp	15f
2:
	movq	%rdi, %rax
	subq	%rbx, %rax
	cmpq	$447, %rax
	ja	3f
	movups	(%rbx), %xmm0
	movups	16(%rbx), %xmm1
	movups	32(%rbx), %xmm2
	movq	48(%rbx), %rax
	movq	%rax, 48(%rdi)
	movups	%xmm2, 32(%rdi)
	movups	%xmm1, 16(%rdi)
	movups	%xmm0, (%rdi)
	leaq	56(%rbx), %rax
	movups	(%rax), %xmm0
	movups	16(%rax), %xmm1
	movups	32(%rax), %xmm2
	movq	48(%rax), %rax
	leaq	56(%rdi), %rcx
	movq	%rax, 48(%rcx)
	movups	%xmm2, 32(%rcx)
	movups	%xmm1, 16(%rcx)
	movups	%xmm0, (%rcx)
	leaq	112(%rbx), %rax
	movups	(%rax), %xmm0
	movups	16(%rax), %xmm1
	movups	32(%rax), %xmm2
	movq	48(%rax), %rax
	leaq	112(%rdi), %rcx
	movq	%rax, 48(%rcx)
	movups	%xmm2, 32(%rcx)
	movups	%xmm1, 16(%rcx)
	movups	%xmm0, (%rcx)
	leaq	168(%rbx), %rax
	movups	(%rax), %xmm0
	movups	16(%rax), %xmm1
	movups	32(%rax), %xmm2
	movq	48(%rax), %rax
	leaq	168(%rdi), %rcx
	movq	%rax, 48(%rcx)
	movups	%xmm2, 32(%rcx)
	movups	%xmm1, 16(%rcx)
	movups	%xmm0, (%rcx)
	leaq	224(%rbx), %rax
	movups	(%rax), %xmm0
	movups	16(%rax), %xmm1
	movups	32(%rax), %xmm2
	movq	48(%rax), %rax
	leaq	224(%rdi), %rcx
	movq	%rax, 48(%rcx)
	movups	%xmm2, 32(%rcx)
	movups	%xmm1, 16(%rcx)
	movups	%xmm0, (%rcx)
	leaq	280(%rbx), %rax
	movups	(%rax), %xmm0
	movups	16(%rax), %xmm1
	movups	32(%rax), %xmm2
	movq	48(%rax), %rax
	leaq	280(%rdi), %rcx
	movq	%rax, 48(%rcx)
	movups	%xmm2, 32(%rcx)
	movups	%xmm1, 16(%rcx)
	movups	%xmm0, (%rcx)
	leaq	336(%rbx), %rax
	movups	(%rax), %xmm0
	movups	16(%rax), %xmm1
	movups	32(%rax), %xmm2
	movq	48(%rax), %rax
	leaq	336(%rdi), %rcx
	movq	%rax, 48(%rcx)
	movups	%xmm2, 32(%rcx)
	movups	%xmm1, 16(%rcx)
	movups	%xmm0, (%rcx)
	leaq	392(%rbx), %rax
	movups	(%rax), %xmm0
	movups	16(%rax), %xmm1
	movups	32(%rax), %xmm2
	movq	48(%rax), %rax
	leaq	392(%rdi), %rcx
	movq	%rax, 48(%rcx)
	movups	%xmm2, 32(%rcx)
	movups	%xmm1, 16(%rcx)
	movups	%xmm0, (%rcx)
	jmp	4f
3:
	movl	$448, %edx
	movq	%rdi, %r14
	movq	%rsi, %r15
	movq	%rbx, %rsi
	callq	memmove@PLT
	movq	%r14, %rdi
	movq	%r15, %rsi
4:
	movl	$4, %eax
5:
	movq	8(%rsp), %rcx
	movq	%rbx, (%rcx)
	movq	120(%rsp), %rdx
	movq	%rdx, 8(%rcx)
6:
	cmpq	%rsi, %rax
	jae	16f
7:
	imulq	$56, %rax, %rcx
	addq	%rdi, %rcx
	addq	$-112, %rcx
	jmp	11f
8:
	xorl	%r8d, %r8d
9:
	movl	%edx, (%rdi,%r8)
	movaps	128(%rsp), %xmm0
	movaps	144(%rsp), %xmm1
	movaps	160(%rsp), %xmm2
	movups	%xmm0, 4(%rdi,%r8)
	movups	%xmm1, 20(%rdi,%r8)
	movups	%xmm2, 36(%rdi,%r8)
	movl	176(%rsp), %edx
	movl	%edx, 52(%rdi,%r8)
10:
	incq	%rax
	addq	$56, %rcx
	cmpq	%rsi, %rax
	je	16f
11:
	imulq	$56, %rax, %r9
	movl	(%rdi,%r9), %edx
	cmpl	%edx, -56(%rdi,%r9)
	jae	10b
	leaq	(%rdi,%r9), %r10
	movq	%rax, %r8
	addq	%rdi, %r9
	addq	$-56, %r9
	movl	52(%r10), %r11d
	movl	%r11d, 176(%rsp)
	movups	4(%r10), %xmm0
	movups	20(%r10), %xmm1
	movups	36(%r10), %xmm2
	movaps	%xmm2, 160(%rsp)
	movaps	%xmm1, 144(%rsp)
	movaps	%xmm0, 128(%rsp)
	movups	(%r9), %xmm0
	movups	16(%r9), %xmm1
	movups	32(%r9), %xmm2
	movups	%xmm0, (%r10)
	movups	%xmm1, 16(%r10)
	movups	%xmm2, 32(%r10)
	movq	48(%r9), %r9
	movq	%r9, 48(%r10)
	decq	%r8
	je	8b
	movq	%rcx, %r9
	.p2align	4
12:
	cmpl	%edx, (%r9)
	jae	13f
	decq	%r8
	movq	48(%r9), %r10
	movq	%r10, 104(%r9)
	movups	(%r9), %xmm0
	movups	16(%r9), %xmm1
	movups	32(%r9), %xmm2
	movups	%xmm2, 88(%r9)
	movups	%xmm1, 72(%r9)
	movups	%xmm0, 56(%r9)
	addq	$-56, %r9
	testq	%r8, %r8
	jne	12b
	xorl	%r8d, %r8d
13:
	imulq	$56, %r8, %r8
	jmp	9b
14:
	movl	$224, %edx
	movq	%rdi, %r14
	movq	%rsi, %r12
	movq	%rbx, %rsi
	callq	memmove@PLT
	movq	%r14, %rdi
	movq	%r12, %rsi
15:
	movq	8(%rsp), %rax
	movq	%rbx, (%rax)
	movq	%r15, 8(%rax)
	movl	$4, %eax
	cmpq	%rsi, %rax
	jb	7b
16:
	addq	$184, %rsp
	popq	%rbx
	popq	%r12
	popq	%r13
	popq	%r14
	popq	%r15
	popq	%rbp
	retq
17:
	.size	"core::slice::sort::short::sort_half::<#24df1801f4a811cc>", 17b-"core::slice::sort::short::sort_half::<#24df1801f4a811cc>"

	.text
	.p2align	4
	.type	"core::slice::sort::short::sort_half::<#32fabb223415b920>",@function
"core::slice::sort::short::sort_half::<#32fabb223415b920>":
	pushq	%rbp
	pushq	%r15
	pushq	%r14
	pushq	%r13
	pushq	%r12
	pushq	%rbx
	subq	$88, %rsp
	movq	%rdx, %rax
	movq	%rdi, %r14
	cmpq	$8, %rsi
	jb	2f
	movq	(%rax), %r12
	movq	%rax, 32(%rsp)
	movq	8(%rax), %rax
	movq	%rax, 24(%rsp)
	movq	(%r14), %rax
	movq	40(%r14), %rcx
	cmpq	%rax, %rcx
	movq	%rsi, 40(%rsp)
	jne	4f
	movq	48(%r14), %rdi
	movq	56(%r14), %rsi
	movq	8(%r14), %rdx
	movq	16(%r14), %rcx
	callq	"core::cmp::slices::RefSliceOrd::cmp::<#914af4d8504a0b72>"
	testb	%al, %al
	sete	%bl
	movq	80(%r14), %rax
	movq	120(%r14), %rcx
	cmpq	%rax, %rcx
	je	5f
1:
	bswapq	%rax
	bswapq	%rcx
	cmpq	%rax, %rcx
	setb	%al
	jmp	6f
2:
	movl	$1, %edx
	cmpq	$4, %rsi
	jb	55f
	movq	(%rax), %r12
	movq	%rax, 32(%rsp)
	movq	8(%rax), %rax
	movq	%rax, 24(%rsp)
	movq	(%r14), %rax
	movq	40(%r14), %rcx
	cmpq	%rax, %rcx
	movq	%rsi, 40(%rsp)
	jne	43f
	movq	48(%r14), %rdi
	movq	56(%r14), %rsi
	movq	8(%r14), %rdx
	movq	16(%r14), %rcx
	callq	"core::cmp::slices::RefSliceOrd::cmp::<#914af4d8504a0b72>"
	testb	%al, %al
	sete	%bl
	movq	80(%r14), %rax
	movq	120(%r14), %rcx
	cmpq	%rax, %rcx
	je	44f
3:
	bswapq	%rax
	bswapq	%rcx
	cmpq	%rax, %rcx
	setb	%al
	jmp	45f
4:
	bswapq	%rax
	bswapq	%rcx
	cmpq	%rax, %rcx
	setb	%bl
	movq	80(%r14), %rax
	movq	120(%r14), %rcx
	cmpq	%rax, %rcx
	jne	1b
5:
	movq	128(%r14), %rdi
	movq	136(%r14), %rsi
	movq	88(%r14), %rdx
	movq	96(%r14), %rcx
	callq	"core::cmp::slices::RefSliceOrd::cmp::<#914af4d8504a0b72>"
	testb	%al, %al
	sete	%al
6:
	movzbl	%bl, %r13d
	movl	%r13d, %ecx
	xorb	$1, %cl
	movzbl	%cl, %ebx
	movzbl	%al, %ebp
	leaq	2(%rbp), %r15
	xorq	$3, %rbp
	leal	(,%r15,8), %ecx
	xorl	%edx, %edx
	testb	%r13b, %r13b
	movl	$40, %eax
	cmoveq	%rdx, %rax
	leaq	(%rcx,%rcx,4), %rsi
	movq	(%r14,%rsi), %rcx
	movq	(%r14,%rax), %rdx
	cmpq	%rdx, %rcx
	jne	7f
	movq	8(%r14,%rsi), %rdi
	movq	16(%r14,%rsi), %rsi
	movq	8(%r14,%rax), %rdx
	movq	16(%r14,%rax), %rcx
	callq	"core::cmp::slices::RefSliceOrd::cmp::<#914af4d8504a0b72>"
	testb	%al, %al
	sete	%dil
	jmp	8f
7:
	bswapq	%rdx
	bswapq	%rcx
	cmpq	%rdx, %rcx
	setb	%dil
8:
	leal	(,%rbp,8), %ecx
	xorl	%edx, %edx
	testb	%r13b, %r13b
	movl	$40, %eax
	cmovneq	%rdx, %rax
	leaq	(%rcx,%rcx,4), %rsi
	movq	(%r14,%rsi), %rcx
	movq	(%r14,%rax), %rdx
	cmpq	%rdx, %rcx
	jne	9f
	movq	%rbx, 8(%rsp)
	movl	%edi, %ebx
	movq	8(%r14,%rsi), %rdi
	movq	16(%r14,%rsi), %rsi
	movq	8(%r14,%rax), %rdx
	movq	16(%r14,%rax), %rcx
	callq	"core::cmp::slices::RefSliceOrd::cmp::<#914af4d8504a0b72>"
	movl	%ebx, %edi
	movq	8(%rsp), %rbx
	testb	%al, %al
	sete	%al
	jmp	10f
9:
	bswapq	%rdx
	bswapq	%rcx
	cmpq	%rdx, %rcx
	setb	%al
10:
	testb	%al, %al
	movq	%rbx, %rcx
	cmovneq	%r15, %rbx
	testb	%dil, %dil
	cmovneq	%r13, %rbx
	cmovneq	%r15, %r13
	cmovneq	%rcx, %r15
	testb	%al, %al
	cmoveq	%rbp, %rcx
	movq	%rcx, 8(%rsp)
	cmovneq	%rbp, %r15
	leal	(,%r15,8), %eax
	leaq	(%rax,%rax,4), %rax
	leal	(,%rbx,8), %ecx
	leaq	(%rcx,%rcx,4), %rcx
	movq	(%r14,%rax), %rdx
	movq	(%r14,%rcx), %rsi
	cmpq	%rsi, %rdx
	jne	11f
	movq	8(%r14,%rax), %rdi
	movq	16(%r14,%rax), %rsi
	movq	8(%r14,%rcx), %rdx
	movq	16(%r14,%rcx), %rcx
	callq	"core::cmp::slices::RefSliceOrd::cmp::<#914af4d8504a0b72>"
	testb	%al, %al
	sete	%al
	jmp	12f
11:
	bswapq	%rsi
	bswapq	%rdx
	cmpq	%rsi, %rdx
	setb	%al
12:
	testb	%al, %al
	movq	%rbx, %rax
	cmovneq	%r15, %rax
	cmovneq	%rbx, %r15
	leaq	(,%r13,4), %rcx
	addq	%r13, %rcx
	movups	(%r14,%rcx,8), %xmm0
	movups	16(%r14,%rcx,8), %xmm1
	movq	32(%r14,%rcx,8), %rcx
	movq	%rcx, 32(%r12)
	movups	%xmm1, 16(%r12)
	movups	%xmm0, (%r12)
	leaq	(%rax,%rax,4), %rax
	movups	(%r14,%rax,8), %xmm0
	movups	16(%r14,%rax,8), %xmm1
	movq	32(%r14,%rax,8), %rax
	movq	%rax, 72(%r12)
	movups	%xmm1, 56(%r12)
	movups	%xmm0, 40(%r12)
	leaq	(%r15,%r15,4), %rax
	movups	(%r14,%rax,8), %xmm0
	movups	16(%r14,%rax,8), %xmm1
	movq	32(%r14,%rax,8), %rax
	movq	%rax, 112(%r12)
	movups	%xmm1, 96(%r12)
	movups	%xmm0, 80(%r12)
	movq	8(%rsp), %rax
	leaq	(%rax,%rax,4), %rax
	movups	(%r14,%rax,8), %xmm0
	movups	16(%r14,%rax,8), %xmm1
	movq	32(%r14,%rax,8), %rax
	movq	%rax, 152(%r12)
	movups	%xmm1, 136(%r12)
	movups	%xmm0, 120(%r12)
	movq	160(%r14), %rax
	movq	200(%r14), %rcx
	cmpq	%rax, %rcx
	jne	14f
	movq	208(%r14), %rdi
	movq	216(%r14), %rsi
	movq	168(%r14), %rdx
	movq	176(%r14), %rcx
	callq	"core::cmp::slices::RefSliceOrd::cmp::<#914af4d8504a0b72>"
	testb	%al, %al
	sete	%bl
	movq	240(%r14), %rax
	movq	280(%r14), %rcx
	cmpq	%rax, %rcx
	je	15f
13:
	bswapq	%rax
	bswapq	%rcx
	cmpq	%rax, %rcx
	setb	%al
	jmp	16f
14:
	bswapq	%rax
	bswapq	%rcx
	cmpq	%rax, %rcx
	setb	%bl
	movq	240(%r14), %rax
	movq	280(%r14), %rcx
	cmpq	%rax, %rcx
	jne	13b
15:
	movq	288(%r14), %rdi
	movq	296(%r14), %rsi
	movq	248(%r14), %rdx
	movq	256(%r14), %rcx
	callq	"core::cmp::slices::RefSliceOrd::cmp::<#914af4d8504a0b72>"
	testb	%al, %al
	sete	%al
16:
	movzbl	%bl, %r13d
	leaq	4(%r13), %rbx
	xorq	$5, %r13
	movzbl	%al, %ebp
	leaq	6(%rbp), %r15
	xorq	$7, %rbp
	leal	(,%r15,8), %eax
	leaq	(%rax,%rax,4), %rax
	leal	(,%rbx,8), %ecx
	leaq	(%rcx,%rcx,4), %rcx
	movq	(%r14,%rax), %rdx
	movq	(%r14,%rcx), %rsi
	cmpq	%rsi, %rdx
	movq	%rbx, 8(%rsp)
	jne	17f
	movq	8(%r14,%rax), %rdi
	movq	16(%r14,%rax), %rsi
	movq	8(%r14,%rcx), %rdx
	movq	16(%r14,%rcx), %rcx
	callq	"core::cmp::slices::RefSliceOrd::cmp::<#914af4d8504a0b72>"
	testb	%al, %al
	sete	%r8b
	jmp	18f
17:
	bswapq	%rsi
	bswapq	%rdx
	cmpq	%rsi, %rdx
	setb	%r8b
18:
	leal	(,%rbp,8), %eax
	leaq	(%rax,%rax,4), %rax
	leal	(,%r13,8), %ecx
	leaq	(%rcx,%rcx,4), %rcx
	movq	(%r14,%rax), %rdx
	movq	(%r14,%rcx), %rsi
	cmpq	%rsi, %rdx
	jne	19f
	movq	8(%r14,%rax), %rdi
	movq	16(%r14,%rax), %rsi
	movq	8(%r14,%rcx), %rdx
	movq	16(%r14,%rcx), %rcx
	movl	%r8d, %ebx
	callq	"core::cmp::slices::RefSliceOrd::cmp::<#914af4d8504a0b72>"
	movl	%ebx, %r8d
	testb	%al, %al
	sete	%al
	jmp	20f
19:
	bswapq	%rsi
	bswapq	%rdx
	cmpq	%rsi, %rdx
	setb	%al
20:
	movq	8(%rsp), %rdi
	testb	%al, %al
	movq	%r13, %rbx
	cmovneq	%r15, %rbx
	testb	%r8b, %r8b
	cmovneq	%rdi, %rbx
	cmovneq	%r15, %rdi
	cmovneq	%r13, %r15
	testb	%al, %al
	cmoveq	%rbp, %r13
	cmovneq	%rbp, %r15
	leal	(,%r15,8), %eax
	leaq	(%rax,%rax,4), %rax
	leal	(,%rbx,8), %ecx
	leaq	(%rcx,%rcx,4), %rcx
	movq	(%r14,%rax), %rdx
	movq	(%r14,%rcx), %rsi
	cmpq	%rsi, %rdx
	jne	21f
	movq	%rdi, %rbp
	movq	8(%r14,%rax), %rdi
	movq	16(%r14,%rax), %rsi
	movq	8(%r14,%rcx), %rdx
	movq	16(%r14,%rcx), %rcx
	callq	"core::cmp::slices::RefSliceOrd::cmp::<#914af4d8504a0b72>"
	movq	%rbp, %rdi
	testb	%al, %al
	sete	%al
	jmp	22f
21:
	bswapq	%rsi
	bswapq	%rdx
	cmpq	%rsi, %rdx
	setb	%al
22:
	leaq	120(%r12), %rbp
	testb	%al, %al
	movq	%rbx, %rax
	cmovneq	%r15, %rax
	cmovneq	%rbx, %r15
	leaq	(%rdi,%rdi,4), %rcx
	movups	(%r14,%rcx,8), %xmm0
	movups	16(%r14,%rcx,8), %xmm1
	movq	32(%r14,%rcx,8), %rcx
	movq	%rcx, 192(%r12)
	movups	%xmm1, 176(%r12)
	movups	%xmm0, 160(%r12)
	leaq	(%rax,%rax,4), %rax
	movups	(%r14,%rax,8), %xmm0
	movups	16(%r14,%rax,8), %xmm1
	movq	32(%r14,%rax,8), %rax
	movq	%rax, 232(%r12)
	movups	%xmm1, 216(%r12)
	movups	%xmm0, 200(%r12)
	leaq	(%r15,%r15,4), %rax
	movups	(%r14,%rax,8), %xmm0
	movups	16(%r14,%rax,8), %xmm1
	movq	32(%r14,%rax,8), %rax
	movq	%rax, 272(%r12)
	movups	%xmm1, 256(%r12)
	movups	%xmm0, 240(%r12)
	leaq	(%r13,%r13,4), %rax
	leaq	280(%r12), %r15
	movups	(%r14,%rax,8), %xmm0
	movups	16(%r14,%rax,8), %xmm1
	movq	32(%r14,%rax,8), %rax
	movq	%rax, 312(%r12)
	movups	%xmm1, 296(%r12)
	movups	%xmm0, 280(%r12)
	movq	(%r12), %rax
	movq	160(%r12), %rcx
	cmpq	%rax, %rcx
	jne	23f
	movq	168(%r12), %rdi
	movq	176(%r12), %rsi
	movq	8(%r12), %rdx
	movq	16(%r12), %rcx
	callq	"core::cmp::slices::RefSliceOrd::cmp::<#914af4d8504a0b72>"
	testb	%al, %al
	sete	%sil
	jmp	24f
23:
	bswapq	%rax
	bswapq	%rcx
	cmpq	%rax, %rcx
	setb	%sil
24:
	movzbl	%sil, %eax
	leaq	4(%rax), %rbx
	xorb	$1, %al
	movzbl	%al, %eax
	movq	%rax, 8(%rsp)
	movq	(%r15), %rax
	movq	(%rbp), %rcx
	cmpq	%rcx, %rax
	jne	25f
	movq	288(%r12), %rdi
	movl	%esi, %ebp
	movq	296(%r12), %rsi
	movq	128(%r12), %rdx
	movq	136(%r12), %rcx
	callq	"core::cmp::slices::RefSliceOrd::cmp::<#914af4d8504a0b72>"
	movl	%ebp, %esi
	testb	%al, %al
	sete	%al
	jmp	26f
25:
	bswapq	%rcx
	bswapq	%rax
	cmpq	%rcx, %rax
	setb	%al
26:
	movb	%al, 23(%rsp)
	movzbl	%al, %r13d
	movl	$4, %r15d
	subq	%r13, %r15
	addq	$7, %r13
	leal	(,%rbx,8), %ecx
	xorl	%edx, %edx
	movb	%sil, 22(%rsp)
	testb	%sil, %sil
	movl	$40, %eax
	cmovneq	%rdx, %rax
	leaq	(%rcx,%rcx,4), %rsi
	movq	(%r12,%rsi), %rcx
	movq	(%r12,%rax), %rdx
	cmpq	%rdx, %rcx
	jne	27f
	movq	8(%r12,%rsi), %rdi
	movq	16(%r12,%rsi), %rsi
	movq	8(%r12,%rax), %rdx
	movq	16(%r12,%rax), %rcx
	callq	"core::cmp::slices::RefSliceOrd::cmp::<#914af4d8504a0b72>"
	testb	%al, %al
	sete	%al
	jmp	28f
27:
	bswapq	%rdx
	bswapq	%rcx
	cmpq	%rdx, %rcx
	setb	%al
28:
	testb	%al, %al
	movq	8(%rsp), %rdx
	movq	%rdx, %rcx
	cmovneq	%rbx, %rcx
	movq	%rcx, 80(%rsp)
	movzbl	%al, %eax
	addq	%rax, %rbx
	xorb	$1, %al
	movzbl	%al, %ebp
	addq	%rdx, %rbp
	leal	(,%r13,8), %eax
	leaq	(%rax,%rax,4), %rax
	leal	(,%r15,8), %ecx
	leaq	(%rcx,%rcx,4), %rcx
	movq	-40(%r12,%rax), %rdx
	movq	-40(%r12,%rcx), %rsi
	cmpq	%rsi, %rdx
	jne	29f
	movq	-32(%r12,%rax), %rdi
	movq	-24(%r12,%rax), %rsi
	movq	-32(%r12,%rcx), %rdx
	movq	-24(%r12,%rcx), %rcx
	callq	"core::cmp::slices::RefSliceOrd::cmp::<#914af4d8504a0b72>"
	testb	%al, %al
	sete	%al
	jmp	30f
29:
	bswapq	%rsi
	bswapq	%rdx
	cmpq	%rsi, %rdx
	setb	%al
30:
	testb	%al, %al
	movq	%r13, %rcx
	cmovneq	%r15, %rcx
	movq	%rcx, 72(%rsp)
	movzbl	%al, %eax
	subq	%rax, %r15
	xorb	$1, %al
	movzbl	%al, %eax
	subq	%rax, %r13
	leal	(,%rbx,8), %eax
	leaq	(%rax,%rax,4), %rax
	leal	(,%rbp,8), %ecx
	leaq	(%rcx,%rcx,4), %rcx
	movq	(%r12,%rax), %rdx
	movq	(%r12,%rcx), %rsi
	cmpq	%rsi, %rdx
	jne	31f
	movq	8(%r12,%rax), %rdi
	movq	16(%r12,%rax), %rsi
	movq	8(%r12,%rcx), %rdx
	movq	16(%r12,%rcx), %rcx
	callq	"core::cmp::slices::RefSliceOrd::cmp::<#914af4d8504a0b72>"
	testb	%al, %al
	sete	%al
	jmp	32f
31:
	bswapq	%rsi
	bswapq	%rdx
	cmpq	%rsi, %rdx
	setb	%al
32:
	testb	%al, %al
	movq	%rbp, %rcx
	cmovneq	%rbx, %rcx
	movq	%rcx, 64(%rsp)
	movzbl	%al, %eax
	leaq	(%rax,%rbx), %rdi
	xorb	$1, %al
	movzbl	%al, %ebx
	addq	%rbp, %rbx
	leaq	(,%r13,8), %rax
	leaq	(%rax,%rax,4), %rax
	leaq	(,%r15,8), %rcx
	leaq	(%rcx,%rcx,4), %rcx
	movq	-40(%r12,%rax), %rdx
	movq	-40(%r12,%rcx), %rsi
	cmpq	%rsi, %rdx
	jne	33f
	movq	%rdi, %rbp
	movq	-32(%r12,%rax), %rdi
	movq	-24(%r12,%rax), %rsi
	movq	-32(%r12,%rcx), %rdx
	movq	-24(%r12,%rcx), %rcx
	callq	"core::cmp::slices::RefSliceOrd::cmp::<#914af4d8504a0b72>"
	movq	%rbp, %rdi
	testb	%al, %al
	sete	%al
	jmp	34f
33:
	bswapq	%rsi
	bswapq	%rdx
	cmpq	%rsi, %rdx
	setb	%al
34:
	testb	%al, %al
	movq	%r13, %rcx
	cmovneq	%r15, %rcx
	movq	%rcx, 56(%rsp)
	movzbl	%al, %eax
	subq	%rax, %r15
	xorb	$1, %al
	movzbl	%al, %eax
	subq	%rax, %r13
	leal	(,%rdi,8), %eax
	leaq	(%rax,%rax,4), %rax
	leal	(,%rbx,8), %ecx
	leaq	(%rcx,%rcx,4), %rcx
	movq	(%r12,%rax), %rdx
	movq	(%r12,%rcx), %rsi
	cmpq	%rsi, %rdx
	movq	%r15, 8(%rsp)
	jne	35f
	movq	%rdi, %r15
	movq	8(%r12,%rax), %rdi
	movq	16(%r12,%rax), %rsi
	movq	8(%r12,%rcx), %rdx
	movq	16(%r12,%rcx), %rcx
	callq	"core::cmp::slices::RefSliceOrd::cmp::<#914af4d8504a0b72>"
	movq	%r15, %rdi
	testb	%al, %al
	sete	%bpl
	jmp	36f
35:
	bswapq	%rsi
	bswapq	%rdx
	cmpq	%rsi, %rdx
	setb	%bpl
36:
	testb	%bpl, %bpl
	movq	%rbx, %rax
	cmovneq	%rdi, %rax
	movq	%rax, 48(%rsp)
	movzbl	%bpl, %r15d
	addq	%rdi, %r15
	leaq	(,%r13,8), %rax
	leaq	(%rax,%rax,4), %rax
	movq	8(%rsp), %rcx
	leaq	(,%rcx,8), %rcx
	leaq	(%rcx,%rcx,4), %rcx
	movq	-40(%r12,%rax), %rdx
	movq	-40(%r12,%rcx), %rsi
	cmpq	%rsi, %rdx
	jne	37f
	movq	-32(%r12,%rax), %rdi
	movq	-24(%r12,%rax), %rsi
	movq	-32(%r12,%rcx), %rdx
	movq	-24(%r12,%rcx), %rcx
	callq	"core::cmp::slices::RefSliceOrd::cmp::<#914af4d8504a0b72>"
	testb	%al, %al
	sete	%al
	jmp	38f
37:
	bswapq	%rsi
	bswapq	%rdx
	cmpq	%rsi, %rdx
	setb	%al
38:
	leaq	40(%r14), %r9
	leaq	120(%r14), %rdi
	leaq	80(%r14), %r8
	leaq	200(%r14), %rdx
	leaq	160(%r14), %rsi
	leaq	160(%r12), %r10
	movl	%eax, %r11d
	xorb	$1, %r11b
	movzbl	%r11b, %r11d
	movl	%r13d, %ecx
	subl	%r11d, %ecx
	cmpl	%ecx, %r15d
	movq	8(%rsp), %r15
	ja	39f
	xorb	$1, %bpl
	movzbl	%bpl, %ecx
	addq	%rcx, %rbx
	movzbl	%al, %ecx
	movq	%r15, %r11
	subq	%rcx, %r11
	cmpl	%r11d, %ebx
	ja	39f
	movq	72(%rsp), %rcx
	addq	$255, %rcx
	movq	56(%rsp), %r11
	addq	$255, %r11
	testb	%al, %al
	cmovnel	%r15d, %r13d
	decl	%r13d
	cmpb	$0, 22(%rsp)
	cmoveq	%r12, %r10
	movups	(%r10), %xmm0
	movups	16(%r10), %xmm1
	movq	32(%r10), %rax
	movq	%rax, 32(%r14)
	movups	%xmm1, 16(%r14)
	movups	%xmm0, (%r14)
	movq	80(%rsp), %rax
	leaq	(%rax,%rax,4), %rax
	movups	(%r12,%rax,8), %xmm0
	movups	16(%r12,%rax,8), %xmm1
	movq	32(%r12,%rax,8), %rax
	movq	%rax, 32(%r9)
	movups	%xmm1, 16(%r9)
	movups	%xmm0, (%r9)
	movq	64(%rsp), %rax
	leaq	(%rax,%rax,4), %rax
	movups	(%r12,%rax,8), %xmm0
	movups	16(%r12,%rax,8), %xmm1
	movq	32(%r12,%rax,8), %rax
	movq	%rax, 32(%r8)
	movups	%xmm1, 16(%r8)
	movups	%xmm0, (%r8)
	movq	48(%rsp), %rax
	leaq	(%rax,%rax,4), %rax
	movups	(%r12,%rax,8), %xmm0
	movups	16(%r12,%rax,8), %xmm1
	movq	32(%r12,%rax,8), %rax
	movq	%rax, 32(%rdi)
	movups	%xmm1, 16(%rdi)
	movups	%xmm0, (%rdi)
	movzbl	%r13b, %eax
	leaq	(%rax,%rax,4), %rax
	movups	(%r12,%rax,8), %xmm0
	movups	16(%r12,%rax,8), %xmm1
	movq	32(%r12,%rax,8), %rax
	movq	%rax, 32(%rsi)
	movups	%xmm1, 16(%rsi)
	movups	%xmm0, (%rsi)
	movzbl	%r11b, %eax
	leaq	(%rax,%rax,4), %rax
	movups	(%r12,%rax,8), %xmm0
	movups	16(%r12,%rax,8), %xmm1
	movq	32(%r12,%rax,8), %rax
	movq	%rax, 32(%rdx)
	movups	%xmm1, 16(%rdx)
	movups	%xmm0, (%rdx)
	movzbl	%cl, %eax
	leaq	(%rax,%rax,4), %rax
	movups	(%r12,%rax,8), %xmm0
	movups	16(%r12,%rax,8), %xmm1
	movq	32(%r12,%rax,8), %rax
	leaq	240(%r14), %rdx
	movq	%rax, 32(%rdx)
	cmpb	$0, 23(%rsp)
	leaq	280(%r12), %rax
	leaq	120(%r12), %rcx
	cmovneq	%rcx, %rax
	movups	%xmm1, 16(%rdx)
	movups	%xmm0, (%rdx)
	movups	(%rax), %xmm0
	movups	16(%rax), %xmm1
	movq	32(%rax), %rax
	leaq	280(%r14), %rcx
	movq	%rax, 32(%rcx)
	movups	%xmm1, 16(%rcx)
	movups	%xmm0, (%rcx)
	movl	$8, %edx
	jmp	42f
39:
	movq	%r14, %rax
	subq	%r12, %rax
	cmpq	$319, %rax
	ja	40f
	movups	(%r12), %xmm0
	movups	16(%r12), %xmm1
	movq	32(%r12), %rax
	movq	%rax, 32(%r14)
	leaq	40(%r12), %rax
	movups	%xmm1, 16(%r14)
	movups	%xmm0, (%r14)
	movups	(%rax), %xmm0
	movups	16(%rax), %xmm1
	movq	32(%rax), %rax
	movq	%rax, 32(%r9)
	movups	%xmm1, 16(%r9)
	movups	%xmm0, (%r9)
	leaq	80(%r12), %rax
	movups	(%rax), %xmm0
	movups	16(%rax), %xmm1
	movq	32(%rax), %rax
	movq	%rax, 32(%r8)
	movups	%xmm1, 16(%r8)
	movups	%xmm0, (%r8)
	leaq	120(%r12), %rax
	movups	(%rax), %xmm0
	movups	16(%rax), %xmm1
	movq	32(%rax), %rax
	movq	%rax, 32(%rdi)
	movups	%xmm1, 16(%rdi)
	movups	%xmm0, (%rdi)
	movups	(%r10), %xmm0
	movups	16(%r10), %xmm1
	movq	32(%r10), %rax
	movq	%rax, 32(%rsi)
	movups	%xmm1, 16(%rsi)
	movups	%xmm0, (%rsi)
	leaq	200(%r12), %rax
	movups	(%rax), %xmm0
	movups	16(%rax), %xmm1
	movq	32(%rax), %rax
	movq	%rax, 32(%rdx)
	movups	%xmm1, 16(%rdx)
	movups	%xmm0, (%rdx)
	leaq	240(%r12), %rax
	movups	(%rax), %xmm0
	movups	16(%rax), %xmm1
	movq	32(%rax), %rax
	leaq	240(%r14), %rcx
	movq	%rax, 32(%rcx)
	movups	%xmm1, 16(%rcx)
	movups	%xmm0, (%rcx)
	leaq	280(%r12), %rax
	movups	(%rax), %xmm0
	movups	16(%rax), %xmm1
	movq	32(%rax), %rax
	leaq	280(%r14), %rcx
	movq	%rax, 32(%rcx)
	movups	%xmm1, 16(%rcx)
	movups	%xmm0, (%rcx)
	jmp	41f
40:
	movl	$320, %edx
	movq	%r14, %rdi
	movq	%r12, %rsi
	callq	memmove@PLT
41:
	movl	$4, %edx
42:
	movq	32(%rsp), %rax
	movq	%r12, (%rax)
	movq	24(%rsp), %rcx
	movq	%rcx, 8(%rax)
	jmp	54f
43:
	bswapq	%rax
	bswapq	%rcx
	cmpq	%rax, %rcx
	setb	%bl
	movq	80(%r14), %rax
	movq	120(%r14), %rcx
	cmpq	%rax, %rcx
	jne	3b
44:
	movq	128(%r14), %rdi
	movq	136(%r14), %rsi
	movq	88(%r14), %rdx
	movq	96(%r14), %rcx
	callq	"core::cmp::slices::RefSliceOrd::cmp::<#914af4d8504a0b72>"
	testb	%al, %al
	sete	%al
45:
	movzbl	%bl, %ebp
	movl	%ebp, %ecx
	xorb	$1, %cl
	movzbl	%cl, %r15d
	movzbl	%al, %ebx
	leaq	2(%rbx), %r13
	xorq	$3, %rbx
	leal	(,%r13,8), %ecx
	xorl	%edx, %edx
	testb	%bpl, %bpl
	movl	$40, %eax
	cmoveq	%rdx, %rax
	leaq	(%rcx,%rcx,4), %rsi
	movq	(%r14,%rsi), %rcx
	movq	(%r14,%rax), %rdx
	cmpq	%rdx, %rcx
	jne	46f
	movq	8(%r14,%rsi), %rdi
	movq	16(%r14,%rsi), %rsi
	movq	8(%r14,%rax), %rdx
	movq	16(%r14,%rax), %rcx
	callq	"core::cmp::slices::RefSliceOrd::cmp::<#914af4d8504a0b72>"
	testb	%al, %al
	sete	%dil
	jmp	47f
46:
	bswapq	%rdx
	bswapq	%rcx
	cmpq	%rdx, %rcx
	setb	%dil
47:
	leal	(,%rbx,8), %ecx
	xorl	%edx, %edx
	testb	%bpl, %bpl
	movl	$40, %eax
	cmovneq	%rdx, %rax
	leaq	(%rcx,%rcx,4), %rsi
	movq	(%r14,%rsi), %rcx
	movq	(%r14,%rax), %rdx
	cmpq	%rdx, %rcx
	jne	48f
	movq	%r15, 8(%rsp)
	movl	%edi, %r15d
	movq	8(%r14,%rsi), %rdi
	movq	16(%r14,%rsi), %rsi
	movq	8(%r14,%rax), %rdx
	movq	16(%r14,%rax), %rcx
	callq	"core::cmp::slices::RefSliceOrd::cmp::<#914af4d8504a0b72>"
	movl	%r15d, %edi
	movq	8(%rsp), %r15
	testb	%al, %al
	sete	%al
	jmp	49f
48:
	bswapq	%rdx
	bswapq	%rcx
	cmpq	%rdx, %rcx
	setb	%al
49:
	testb	%al, %al
	movq	%r15, %rcx
	cmovneq	%r13, %r15
	testb	%dil, %dil
	cmovneq	%rbp, %r15
	cmovneq	%r13, %rbp
	cmovneq	%rcx, %r13
	testb	%al, %al
	cmoveq	%rbx, %rcx
	movq	%rcx, 8(%rsp)
	cmovneq	%rbx, %r13
	leal	(,%r13,8), %eax
	leaq	(%rax,%rax,4), %rax
	leal	(,%r15,8), %ecx
	leaq	(%rcx,%rcx,4), %rcx
	movq	(%r14,%rax), %rdx
	movq	(%r14,%rcx), %rsi
	cmpq	%rsi, %rdx
	jne	50f
	movq	8(%r14,%rax), %rdi
	movq	16(%r14,%rax), %rsi
	movq	8(%r14,%rcx), %rdx
	movq	16(%r14,%rcx), %rcx
	callq	"core::cmp::slices::RefSliceOrd::cmp::<#914af4d8504a0b72>"
	testb	%al, %al
	sete	%al
	jmp	51f
50:
	bswapq	%rsi
	bswapq	%rdx
	cmpq	%rsi, %rdx
	setb	%al
51:
	testb	%al, %al
	movq	%r15, %rax
	cmovneq	%r13, %rax
	cmovneq	%r15, %r13
	leaq	(,%rbp,4), %rcx
	addq	%rbp, %rcx
	movups	(%r14,%rcx,8), %xmm0
	movups	16(%r14,%rcx,8), %xmm1
	movq	32(%r14,%rcx,8), %rcx
	movq	%rcx, 32(%r12)
	movups	%xmm1, 16(%r12)
	movups	%xmm0, (%r12)
	leaq	(%rax,%rax,4), %rax
	movups	(%r14,%rax,8), %xmm0
	movups	16(%r14,%rax,8), %xmm1
	movq	32(%r14,%rax,8), %rax
	movq	%rax, 72(%r12)
	movups	%xmm1, 56(%r12)
	movups	%xmm0, 40(%r12)
	leaq	(%r13,%r13,4), %rax
	movups	(%r14,%rax,8), %xmm0
	movups	16(%r14,%rax,8), %xmm1
	movq	32(%r14,%rax,8), %rax
	movq	%rax, 112(%r12)
	movups	%xmm1, 96(%r12)
	movups	%xmm0, 80(%r12)
	movq	8(%rsp), %rax
	leaq	(%rax,%rax,4), %rax
	movups	(%r14,%rax,8), %xmm0
	movups	16(%r14,%rax,8), %xmm1
	movq	32(%r14,%rax,8), %rax
	movq	%rax, 152(%r12)
	movups	%xmm1, 136(%r12)
	movups	%xmm0, 120(%r12)
	movq	%r14, %rax
	subq	%r12, %rax
	cmpq	$159, %rax
	ja	52f
	leaq	40(%r14), %rax
	leaq	120(%r14), %rcx
	leaq	80(%r14), %rdx
	leaq	40(%r12), %rsi
	leaq	80(%r12), %rdi
	leaq	120(%r12), %r8
	movups	(%r12), %xmm0
	movups	16(%r12), %xmm1
	movq	32(%r12), %r9
	movq	%r9, 32(%r14)
	movups	%xmm1, 16(%r14)
	movups	%xmm0, (%r14)
	movups	(%rsi), %xmm0
	movups	16(%rsi), %xmm1
	movq	32(%rsi), %rsi
	movq	%rsi, 32(%rax)
	movups	%xmm1, 16(%rax)
	movups	%xmm0, (%rax)
	movups	(%rdi), %xmm0
	movups	16(%rdi), %xmm1
	movq	32(%rdi), %rax
	movq	%rax, 32(%rdx)
	movups	%xmm1, 16(%rdx)
	movups	%xmm0, (%rdx)
	movups	(%r8), %xmm0
	movups	16(%r8), %xmm1
	movq	32(%r8), %rax
	movq	%rax, 32(%rcx)
	movups	%xmm1, 16(%rcx)
	movups	%xmm0, (%rcx)
	jmp	53f
52:
	movl	$160, %edx
	movq	%r14, %rdi
	movq	%r12, %rsi
	callq	memmove@PLT
53:
	movq	32(%rsp), %rax
	movq	%r12, (%rax)
	movq	24(%rsp), %rcx
	movq	%rcx, 8(%rax)
	movl	$4, %edx
54:
	movq	40(%rsp), %rsi
55:
	movq	%r14, %rdi
	addq	$88, %rsp
	popq	%rbx
	popq	%r12
	popq	%r13
	popq	%r14
	popq	%r15
	popq	%rbp
	jmp	"core::slice::sort::small::insert_from::<#32fabb223415b920>"
56:
	.size	"core::slice::sort::short::sort_half::<#32fabb223415b920>", 56b-"core::slice::sort::short::sort_half::<#32fabb223415b920>"

	.text
	.p2align	4
	.type	"core::slice::sort::short::sort_half::<#54047240e3f04dbb>",@function
"core::slice::sort::short::sort_half::<#54047240e3f04dbb>":
	pushq	%rbp
	pushq	%r15
	pushq	%r14
	pushq	%r13
	pushq	%r12
	pushq	%rbx
	subq	$216, %rsp
	movq	%rdx, 88(%rsp)
	movq	%rsi, 96(%rsp)
	cmpq	$8, %rsi
	jb	1f
	leaq	80(%rdi), %rsi
	movl	160(%rdi), %ecx
	xorl	%eax, %eax
	cmpl	240(%rdi), %ecx
	movl	(%rdi), %r10d
	setb	%al
	leaq	2(%rax), %r8
	xorq	$3, %rax
	leaq	(%r8,%r8,4), %r9
	shll	$4, %r9d
	leaq	(%rax,%rax,4), %r11
	shll	$4, %r11d
	xorl	%ecx, %ecx
	xorl	%edx, %edx
	cmpl	80(%rdi), %r10d
	setae	%cl
	movq	%rdi, %r10
	cmovbq	%rsi, %r10
	setb	%dl
	movl	(%r10), %r10d
	cmovbq	%rdi, %rsi
	movl	(%rsi), %ebx
	movl	(%rdi,%r11), %r11d
	cmpl	%r11d, %ebx
	movq	%rcx, %rsi
	cmovbq	%r8, %rsi
	cmpl	(%rdi,%r9), %r10d
	cmovbq	%rdx, %rsi
	cmovbq	%r8, %rdx
	cmovbq	%rcx, %r8
	cmpl	%r11d, %ebx
	movq	88(%rsp), %r9
	movq	(%r9), %rbx
	cmovaeq	%rax, %rcx
	cmovbq	%rax, %r8
	leaq	(%r8,%r8,4), %rax
	shll	$4, %eax
	leaq	(%rsi,%rsi,4), %r10
	shll	$4, %r10d
	movl	(%rdi,%r10), %r10d
	cmpl	(%rdi,%rax), %r10d
	movq	%rsi, %rax
	cmovbq	%r8, %rax
	cmovbq	%rsi, %r8
	movq	8(%r9), %rsi
	movq	%rsi, 208(%rsp)
	leaq	(%rdx,%rdx,4), %rdx
	shll	$4, %edx
	movl	(%rdi,%rdx), %ebp
	movzbl	8(%rdi,%rdx), %esi
	movq	48(%rdi,%rdx), %r9
	movq	%r9, 64(%rsp)
	movups	16(%rdi,%rdx), %xmm0
	movups	32(%rdi,%rdx), %xmm1
	movaps	%xmm1, 48(%rsp)
	movaps	%xmm0, 32(%rsp)
	movq	72(%rdi,%rdx), %r9
	movq	%r9, 16(%rsp)
	movups	56(%rdi,%rdx), %xmm0
	movaps	%xmm0, (%rsp)
	movl	%ebp, (%rbx)
	movq	%rsi, 8(%rbx)
	movaps	32(%rsp), %xmm0
	movaps	48(%rsp), %xmm1
	movups	%xmm0, 16(%rbx)
	movups	%xmm1, 32(%rbx)
	movq	64(%rsp), %rdx
	movq	%rdx, 48(%rbx)
	movaps	(%rsp), %xmm0
	movups	%xmm0, 56(%rbx)
	movq	16(%rsp), %rdx
	movq	%rdx, 72(%rbx)
	leaq	(%rax,%rax,4), %rax
	shlq	$4, %rax
	movl	(%rdi,%rax), %edx
	movzbl	8(%rdi,%rax), %esi
	movq	48(%rdi,%rax), %r9
	movq	%r9, 64(%rsp)
	movups	16(%rdi,%rax), %xmm0
	movups	32(%rdi,%rax), %xmm1
	movaps	%xmm1, 48(%rsp)
	movaps	%xmm0, 32(%rsp)
	movq	72(%rdi,%rax), %r9
	movq	%r9, 16(%rsp)
	movups	56(%rdi,%rax), %xmm0
	movaps	%xmm0, (%rsp)
	movl	%edx, 80(%rbx)
	movq	%rsi, 88(%rbx)
	movaps	32(%rsp), %xmm0
	movaps	48(%rsp), %xmm1
	movups	%xmm0, 96(%rbx)
	movups	%xmm1, 112(%rbx)
	movq	64(%rsp), %rax
	movq	%rax, 128(%rbx)
	movaps	(%rsp), %xmm0
	movups	%xmm0, 136(%rbx)
	movq	16(%rsp), %rax
	movq	%rax, 152(%rbx)
	leaq	(%r8,%r8,4), %rax
	shlq	$4, %rax
	movl	(%rdi,%rax), %edx
	movzbl	8(%rdi,%rax), %esi
	movq	48(%rdi,%rax), %r8
	movq	%r8, 64(%rsp)
	movups	16(%rdi,%rax), %xmm0
	movups	32(%rdi,%rax), %xmm1
	movaps	%xmm1, 48(%rsp)
	movaps	%xmm0, 32(%rsp)
	movq	72(%rdi,%rax), %r8
	movq	%r8, 16(%rsp)
	movups	56(%rdi,%rax), %xmm0
	movaps	%xmm0, (%rsp)
	movl	%edx, 160(%rbx)
	movq	%rsi, 168(%rbx)
	movaps	32(%rsp), %xmm0
	movaps	48(%rsp), %xmm1
	movups	%xmm0, 176(%rbx)
	movups	%xmm1, 192(%rbx)
	movq	64(%rsp), %rax
	movq	%rax, 208(%rbx)
	movaps	(%rsp), %xmm0
	movups	%xmm0, 216(%rbx)
	movq	16(%rsp), %rax
	movq	%rax, 232(%rbx)
	leaq	(%rcx,%rcx,4), %rax
	shll	$4, %eax
	movl	(%rdi,%rax), %r15d
	movzbl	8(%rdi,%rax), %ecx
	movq	48(%rdi,%rax), %rdx
	movq	%rdx, 64(%rsp)
	movups	16(%rdi,%rax), %xmm0
	movups	32(%rdi,%rax), %xmm1
	movaps	%xmm1, 48(%rsp)
	movaps	%xmm0, 32(%rsp)
	movq	72(%rdi,%rax), %rdx
	movq	%rdx, 16(%rsp)
	movups	56(%rdi,%rax), %xmm0
	movaps	%xmm0, (%rsp)
	movl	%r15d, 240(%rbx)
	movq	%rcx, 248(%rbx)
	movaps	32(%rsp), %xmm0
	movaps	48(%rsp), %xmm1
	movups	%xmm0, 256(%rbx)
	movups	%xmm1, 272(%rbx)
	movq	64(%rsp), %rax
	movq	%rax, 288(%rbx)
	movaps	(%rsp), %xmm0
	movups	%xmm0, 296(%rbx)
	movq	16(%rsp), %rax
	movq	%rax, 312(%rbx)
	movl	320(%rdi), %eax
	movl	480(%rdi), %edx
	xorl	%r9d, %r9d
	cmpl	400(%rdi), %eax
	setb	%r9b
	xorl	%ecx, %ecx
	cmpl	560(%rdi), %edx
	setb	%cl
	leaq	4(%r9), %rax
	xorq	$5, %r9
	leaq	6(%rcx), %r10
	xorq	$7, %rcx
	leaq	(%r10,%r10,4), %rdx
	shll	$4, %edx
	leaq	(%rax,%rax,4), %rsi
	shll	$4, %esi
	movl	(%rdi,%rsi), %esi
	leaq	(%rcx,%rcx,4), %r8
	shll	$4, %r8d
	leaq	(%r9,%r9,4), %r11
	shll	$4, %r11d
	movl	(%rdi,%r11), %r11d
	movl	(%rdi,%r8), %r8d
	cmpl	%r8d, %r11d
	movq	%r9, %r14
	cmovbq	%r10, %r14
	cmpl	(%rdi,%rdx), %esi
	cmovbq	%rax, %r14
	cmovbq	%r10, %rax
	cmovbq	%r9, %r10
	cmpl	%r8d, %r11d
	cmovaeq	%rcx, %r9
	cmovbq	%rcx, %r10
	leaq	(%r10,%r10,4), %rcx
	shll	$4, %ecx
	leaq	(%r14,%r14,4), %rdx
	shll	$4, %edx
	movl	(%rdi,%rdx), %edx
	cmpl	(%rdi,%rcx), %edx
	movq	%r14, %rcx
	cmovbq	%r10, %rcx
	cmovbq	%r14, %r10
	leaq	(%rax,%rax,4), %rax
	shll	$4, %eax
	movl	(%rdi,%rax), %r8d
	movzbl	8(%rdi,%rax), %edx
	movq	48(%rdi,%rax), %rsi
	movq	%rsi, 64(%rsp)
	movups	16(%rdi,%rax), %xmm0
	movups	32(%rdi,%rax), %xmm1
	movaps	%xmm1, 48(%rsp)
	movaps	%xmm0, 32(%rsp)
	movq	72(%rdi,%rax), %rsi
	movq	%rsi, 16(%rsp)
	movups	56(%rdi,%rax), %xmm0
	movaps	%xmm0, (%rsp)
	movl	%r8d, 320(%rbx)
	movq	%rdx, 328(%rbx)
	movaps	32(%rsp), %xmm0
	movaps	48(%rsp), %xmm1
	movups	%xmm0, 336(%rbx)
	movups	%xmm1, 352(%rbx)
	movq	64(%rsp), %rax
	movq	%rax, 368(%rbx)
	movaps	(%rsp), %xmm0
	movups	%xmm0, 376(%rbx)
	movq	16(%rsp), %rax
	movq	%rax, 392(%rbx)
	leaq	(%rcx,%rcx,4), %rax
	shlq	$4, %rax
	movl	(%rdi,%rax), %ecx
	movzbl	8(%rdi,%rax), %edx
	movq	48(%rdi,%rax), %rsi
	movq	%rsi, 64(%rsp)
	movups	16(%rdi,%rax), %xmm0
	movups	32(%rdi,%rax), %xmm1
	movaps	%xmm1, 48(%rsp)
	movaps	%xmm0, 32(%rsp)
	movq	72(%rdi,%rax), %rsi
	movq	%rsi, 16(%rsp)
	movups	56(%rdi,%rax), %xmm0
	movaps	%xmm0, (%rsp)
	movl	%ecx, 400(%rbx)
	movq	%rdx, 408(%rbx)
	movaps	32(%rsp), %xmm0
	movaps	48(%rsp), %xmm1
	movups	%xmm0, 416(%rbx)
	movups	%xmm1, 432(%rbx)
	movq	64(%rsp), %rax
	movq	%rax, 448(%rbx)
	movaps	(%rsp), %xmm0
	movups	%xmm0, 456(%rbx)
	movq	16(%rsp), %rax
	movq	%rax, 472(%rbx)
	leaq	(%r10,%r10,4), %rax
	shlq	$4, %rax
	movl	(%rdi,%rax), %ecx
	movzbl	8(%rdi,%rax), %edx
	movq	48(%rdi,%rax), %rsi
	movq	%rsi, 64(%rsp)
	movups	16(%rdi,%rax), %xmm0
	movups	32(%rdi,%rax), %xmm1
	movaps	%xmm1, 48(%rsp)
	movaps	%xmm0, 32(%rsp)
	movq	72(%rdi,%rax), %rsi
	movq	%rsi, 16(%rsp)
	movups	56(%rdi,%rax), %xmm0
	movaps	%xmm0, (%rsp)
	movl	%ecx, 480(%rbx)
	movq	%rdx, 488(%rbx)
	movaps	32(%rsp), %xmm0
	movaps	48(%rsp), %xmm1
	movups	%xmm0, 496(%rbx)
	movups	%xmm1, 512(%rbx)
	movq	64(%rsp), %rax
	movq	%rax, 528(%rbx)
	movaps	(%rsp), %xmm0
	movups	%xmm0, 536(%rbx)
	movq	16(%rsp), %rax
	movq	%rax, 552(%rbx)
	leaq	(%r9,%r9,4), %rax
	shll	$4, %eax
	movl	(%rdi,%rax), %esi
	movzbl	8(%rdi,%rax), %ecx
	movq	48(%rdi,%rax), %rdx
	movq	%rdx, 64(%rsp)
	movups	16(%rdi,%rax), %xmm0
	movups	32(%rdi,%rax), %xmm1
	movaps	%xmm1, 48(%rsp)
	movaps	%xmm0, 32(%rsp)
	movq	72(%rdi,%rax), %rdx
	movq	%rdx, 16(%rsp)
	movups	56(%rdi,%rax), %xmm0
	movaps	%xmm0, (%rsp)
	movl	%esi, 560(%rbx)
	movq	%rcx, 568(%rbx)
	movaps	32(%rsp), %xmm0
	movaps	48(%rsp), %xmm1
	movups	%xmm0, 576(%rbx)
	movups	%xmm1, 592(%rbx)
	movq	64(%rsp), %rax
	movq	%rax, 608(%rbx)
	movaps	(%rsp), %xmm0
	movups	%xmm0, 616(%rbx)
	movq	16(%rsp), %rax
	movq	%rax, 632(%rbx)
	xorl	%eax, %eax
	movl	%r15d, 148(%rsp)
	movl	%esi, 140(%rsp)
	cmpl	%esi, %r15d
	setb	%al
	movl	$4, %r9d
	movl	$4, %ecx
	subq	%rax, %rcx
	leaq	7(%rax), %r13
	movq	%rcx, 176(%rsp)
	leaq	(%rcx,%rcx,4), %rcx
	shll	$4, %ecx
	leaq	(%rax,%rax,4), %rdx
	shll	$4, %edx
	movl	480(%rdx,%rbx), %edx
	movl	-80(%rbx,%rcx), %ecx
	cmpl	%edx, %ecx
	sbbq	%rax, %r9
	movl	%edx, 136(%rsp)
	movl	%ecx, 132(%rsp)
	cmpl	%edx, %ecx
	movq	%r13, 192(%rsp)
	adcq	$-1, %r13
	leaq	(,%r13,4), %rax
	addq	%r13, %rax
	shlq	$4, %rax
	leaq	(%r9,%r9,4), %rcx
	shlq	$4, %rcx
	movl	-80(%rbx,%rax), %edx
	movl	-80(%rbx,%rcx), %ecx
	xorl	%eax, %eax
	movl	%edx, 128(%rsp)
	movl	%ecx, 124(%rsp)
	cmpl	%edx, %ecx
	setb	%al
	movq	%r13, 184(%rsp)
	adcq	$-1, %r13
	movq	%r9, %rdx
	subq	%rax, %rdx
	leaq	(,%r13,4), %rcx
	addq	%r13, %rcx
	shlq	$4, %rcx
	movq	%rdx, 160(%rsp)
	leaq	(%rdx,%rdx,4), %rdx
	shlq	$4, %rdx
	movl	-80(%rbx,%rcx), %ecx
	movl	-80(%rbx,%rdx), %edx
	cmpl	%ecx, %edx
	movq	%r9, 168(%rsp)
	sbbq	%rax, %r9
	movq	%r9, 200(%rsp)
	movl	%ecx, 112(%rsp)
	movl	%edx, 108(%rsp)
	cmpl	%ecx, %edx
	movl	%r13d, %r14d
	adcl	$-1, %r14d
	xorl	%r12d, %r12d
	movl	%ebp, 84(%rsp)
	movl	%r8d, 144(%rsp)
	cmpl	%r8d, %ebp
	setae	%r12b
	leaq	80(%rbx), %rax
	cmovbq	%rbx, %rax
	movq	%r12, %rcx
	xorq	$5, %rcx
	leaq	(%rcx,%rcx,4), %rdx
	shll	$4, %edx
	movl	(%rbx,%rdx), %edx
	movl	(%rax), %eax
	xorl	%esi, %esi
	movl	%edx, 120(%rsp)
	movl	%eax, 116(%rsp)
	cmpl	%edx, %eax
	setb	%sil
	movq	%r12, %r10
	sbbq	$-1, %r10
	leaq	(%rcx,%rsi), %rax
	movq	%rax, 152(%rsp)
	leaq	(%rax,%rax,4), %rax
	shll	$4, %eax
	leaq	(%r10,%r10,4), %rdx
	shll	$4, %edx
	movl	(%rbx,%rax), %ebp
	movl	(%rbx,%rdx), %r15d
	cmpl	%ebp, %r15d
	adcq	%rcx, %rsi
	cmpl	%ebp, %r15d
	movq	%r10, %rax
	sbbq	$-1, %rax
	leaq	(%rsi,%rsi,4), %rdx
	shll	$4, %edx
	leaq	(%rax,%rax,4), %r8
	shll	$4, %r8d
	movl	(%rbx,%rdx), %edx
	movl	(%rbx,%r8), %r8d
	cmpl	%edx, %r8d
	movl	%esi, %r11d
	adcl	$0, %r11d
	cmpl	%edx, %r8d
	movq	%rax, %r9
	sbbq	$-1, %r9
	cmpl	%r14d, %r11d
	ja	2f
	cmpq	200(%rsp), %r9
	ja	2f
	movl	108(%rsp), %r9d
	cmpl	112(%rsp), %r9d
	cmovbl	160(%rsp), %r13d
	decl	%r13d
	cmpl	%edx, %r8d
	cmovbq	%rsi, %rax
	movl	124(%rsp), %edx
	cmpl	128(%rsp), %edx
	movq	184(%rsp), %r8
	cmovbl	168(%rsp), %r8d
	decl	%r8d
	cmpl	%ebp, %r15d
	cmovbq	152(%rsp), %r10
	movl	132(%rsp), %edx
	cmpl	136(%rsp), %edx
	movq	192(%rsp), %r9
	cmovbl	176(%rsp), %r9d
	decl	%r9d
	movl	116(%rsp), %edx
	cmpl	120(%rsp), %edx
	cmovbq	%rcx, %r12
	movl	144(%rsp), %ecx
	cmpl	%ecx, 84(%rsp)
	leaq	320(%rbx), %rsi
	cmovaeq	%rbx, %rsi
	leaq	(%r12,%r12,4), %rdx
	shll	$4, %edx
	leaq	(%r10,%r10,4), %rcx
	shlq	$4, %rcx
	leaq	(%rax,%rax,4), %r15
	shlq	$4, %r15
	movzbl	%r13b, %eax
	leaq	(%rax,%rax,4), %r14
	shll	$4, %r14d
	movzbl	%r8b, %eax
	leaq	(%rax,%rax,4), %r8
	shll	$4, %r8d
	movzbl	%r9b, %eax
	leaq	(%rax,%rax,4), %rax
	shll	$4, %eax
	movl	140(%rsp), %r9d
	cmpl	%r9d, 148(%rsp)
	movl	(%rsi), %r9d
	movzbl	8(%rsi), %r10d
	movq	48(%rsi), %r11
	movq	%r11, 64(%rsp)
	movups	16(%rsi), %xmm0
	movups	32(%rsi), %xmm1
	movaps	%xmm1, 48(%rsp)
	movaps	%xmm0, 32(%rsp)
	movq	72(%rsi), %r11
	movq	%r11, 16(%rsp)
	movups	56(%rsi), %xmm0
	movaps	%xmm0, (%rsp)
	movl	%r9d, (%rdi)
	movq	%r10, 8(%rdi)
	movaps	32(%rsp), %xmm0
	movaps	48(%rsp), %xmm1
	movups	%xmm0, 16(%rdi)
	movups	%xmm1, 32(%rdi)
	movq	64(%rsp), %rsi
	movq	%rsi, 48(%rdi)
	movaps	(%rsp), %xmm0
	movups	%xmm0, 56(%rdi)
	movq	16(%rsp), %rsi
	movq	%rsi, 72(%rdi)
	movl	(%rbx,%rdx), %esi
	movzbl	8(%rbx,%rdx), %r9d
	movq	48(%rbx,%rdx), %r10
	movq	%r10, 64(%rsp)
	movups	16(%rbx,%rdx), %xmm0
	movups	32(%rbx,%rdx), %xmm1
	movaps	%xmm1, 48(%rsp)
	movaps	%xmm0, 32(%rsp)
	movq	72(%rbx,%rdx), %r10
	movq	%r10, 16(%rsp)
	movups	56(%rbx,%rdx), %xmm0
	movaps	%xmm0, (%rsp)
	movl	%esi, 80(%rdi)
	movq	%r9, 88(%rdi)
	movaps	32(%rsp), %xmm0
	movaps	48(%rsp), %xmm1
	movups	%xmm0, 96(%rdi)
	movups	%xmm1, 112(%rdi)
	movq	64(%rsp), %rdx
	movq	%rdx, 128(%rdi)
	movaps	(%rsp), %xmm0
	movups	%xmm0, 136(%rdi)
	movq	16(%rsp), %rdx
	movq	%rdx, 152(%rdi)
	movl	(%rbx,%rcx), %edx
	movzbl	8(%rbx,%rcx), %esi
	movq	48(%rbx,%rcx), %r9
	movq	%r9, 64(%rsp)
	movups	16(%rbx,%rcx), %xmm0
	movups	32(%rbx,%rcx), %xmm1
	movaps	%xmm1, 48(%rsp)
	movaps	%xmm0, 32(%rsp)
	movq	72(%rbx,%rcx), %r9
	movq	%r9, 16(%rsp)
	movups	56(%rbx,%rcx), %xmm0
	movaps	%xmm0, (%rsp)
	movl	%edx, 160(%rdi)
	movq	%rsi, 168(%rdi)
	movaps	32(%rsp), %xmm0
	movaps	48(%rsp), %xmm1
	movups	%xmm0, 176(%rdi)
	movups	%xmm1, 192(%rdi)
	movq	64(%rsp), %rcx
	movq	%rcx, 208(%rdi)
	movaps	(%rsp), %xmm0
	movups	%xmm0, 216(%rdi)
	movq	16(%rsp), %rcx
	movq	%rcx, 232(%rdi)
	movl	(%rbx,%r15), %ecx
	movzbl	8(%rbx,%r15), %edx
	movq	48(%rbx,%r15), %rsi
	movq	%rsi, 64(%rsp)
	movups	16(%rbx,%r15), %xmm0
	movups	32(%rbx,%r15), %xmm1
	movaps	%xmm1, 48(%rsp)
	movaps	%xmm0, 32(%rsp)
	movq	72(%rbx,%r15), %rsi
	movq	%rsi, 16(%rsp)
	movups	56(%rbx,%r15), %xmm0
	movaps	%xmm0, (%rsp)
	movl	%ecx, 240(%rdi)
	movq	%rdx, 248(%rdi)
	movaps	32(%rsp), %xmm0
	movaps	48(%rsp), %xmm1
	movups	%xmm0, 256(%rdi)
	movups	%xmm1, 272(%rdi)
	movq	64(%rsp), %rcx
	movq	%rcx, 288(%rdi)
	movaps	(%rsp), %xmm0
	movups	%xmm0, 296(%rdi)
	movq	16(%rsp), %rcx
	movq	%rcx, 312(%rdi)
	movl	(%rbx,%r14), %ecx
	movzbl	8(%rbx,%r14), %edx
	movq	48(%rbx,%r14), %rsi
	movq	%rsi, 64(%rsp)
	movups	16(%rbx,%r14), %xmm0
	movups	32(%rbx,%r14), %xmm1
	movaps	%xmm1, 48(%rsp)
	movaps	%xmm0, 32(%rsp)
	movq	72(%rbx,%r14), %rsi
	movq	%rsi, 16(%rsp)
	movups	56(%rbx,%r14), %xmm0
	movaps	%xmm0, (%rsp)
	movl	%ecx, 320(%rdi)
	movq	%rdx, 328(%rdi)
	movaps	32(%rsp), %xmm0
	movaps	48(%rsp), %xmm1
	movups	%xmm0, 336(%rdi)
	movups	%xmm1, 352(%rdi)
	movq	64(%rsp), %rcx
	movq	%rcx, 368(%rdi)
	movaps	(%rsp), %xmm0
	movups	%xmm0, 376(%rdi)
	movq	16(%rsp), %rcx
	movq	%rcx, 392(%rdi)
	movl	(%rbx,%r8), %ecx
	movzbl	8(%rbx,%r8), %edx
	movq	48(%rbx,%r8), %rsi
	movq	%rsi, 64(%rsp)
	movups	16(%rbx,%r8), %xmm0
	movups	32(%rbx,%r8), %xmm1
	movaps	%xmm1, 48(%rsp)
	movaps	%xmm0, 32(%rsp)
	movq	72(%rbx,%r8), %rsi
	movq	%rsi, 16(%rsp)
	movups	56(%rbx,%r8), %xmm0
	movaps	%xmm0, (%rsp)
	movl	%ecx, 400(%rdi)
	movq	%rdx, 408(%rdi)
	movaps	32(%rsp), %xmm0
	movaps	48(%rsp), %xmm1
	movups	%xmm0, 416(%rdi)
	movups	%xmm1, 432(%rdi)
	movq	64(%rsp), %rcx
	movq	%rcx, 448(%rdi)
	movaps	(%rsp), %xmm0
	movups	%xmm0, 456(%rdi)
	movq	16(%rsp), %rcx
	movq	%rcx, 472(%rdi)
	movl	(%rbx,%rax), %ecx
	movzbl	8(%rbx,%rax), %edx
	movq	48(%rbx,%rax), %rsi
	movq	%rsi, 64(%rsp)
	movups	16(%rbx,%rax), %xmm0
	movups	32(%rbx,%rax), %xmm1
	movaps	%xmm1, 48(%rsp)
	movaps	%xmm0, 32(%rsp)
	movq	72(%rbx,%rax), %rsi
	movq	%rsi, 16(%rsp)
	leaq	560(%rbx), %rsi
	movups	56(%rbx,%rax), %xmm0
	leaq	240(%rbx), %rax
	movaps	%xmm0, (%rsp)
	movl	%ecx, 480(%rdi)
	movq	%rdx, 488(%rdi)
	movaps	32(%rsp), %xmm0
	movaps	48(%rsp), %xmm1
	movups	%xmm0, 496(%rdi)
	movups	%xmm1, 512(%rdi)
	movq	64(%rsp), %rcx
	movq	%rcx, 528(%rdi)
	movaps	(%rsp), %xmm0
	movups	%xmm0, 536(%rdi)
	movq	16(%rsp), %rcx
	movq	%rcx, 552(%rdi)
	cmovbq	%rax, %rsi
	movl	(%rsi), %eax
	movzbl	8(%rsi), %ecx
	movq	48(%rsi), %rdx
	movq	%rdx, 64(%rsp)
	movups	16(%rsi), %xmm0
	movups	32(%rsi), %xmm1
	movaps	%xmm1, 48(%rsp)
	movaps	%xmm0, 32(%rsp)
	movq	72(%rsi), %rdx
	movq	%rdx, 16(%rsp)
	movups	56(%rsi), %xmm0
	movaps	%xmm0, (%rsp)
	movl	%eax, 560(%rdi)
	movq	%rcx, 568(%rdi)
	movaps	32(%rsp), %xmm0
	movaps	48(%rsp), %xmm1
	movups	%xmm0, 576(%rdi)
	movups	%xmm1, 592(%rdi)
	movq	64(%rsp), %rax
	movq	%rax, 608(%rdi)
	movaps	(%rsp), %xmm0
	movups	%xmm0, 616(%rdi)
	movq	16(%rsp), %rax
	movq	%rax, 632(%rdi)
	movl	$8, %eax
	jmp	5f
1:
	movl	$1, %eax
	cmpq	$4, 96(%rsp)
	jb	6f
	leaq	80(%rdi), %rsi
	movl	160(%rdi), %eax
	xorl	%ecx, %ecx
	cmpl	240(%rdi), %eax
	movl	(%rdi), %r10d
	setb	%cl
	leaq	2(%rcx), %r9
	xorq	$3, %rcx
	leaq	(%r9,%r9,4), %r8
	shll	$4, %r8d
	leaq	(%rcx,%rcx,4), %r11
	shll	$4, %r11d
	xorl	%eax, %eax
	xorl	%edx, %edx
	cmpl	80(%rdi), %r10d
	setae	%al
	movq	%rdi, %r10
	cmovbq	%rsi, %r10
	setb	%dl
	movl	(%r10), %ebx
	cmovbq	%rdi, %rsi
	movl	(%rsi), %esi
	movl	(%rdi,%r11), %r11d
	cmpl	%r11d, %esi
	movq	%rax, %r10
	cmovbq	%r9, %r10
	cmpl	(%rdi,%r8), %ebx
	cmovbq	%rdx, %r10
	cmovbq	%r9, %rdx
	cmovbq	%rax, %r9
	cmpl	%r11d, %esi
	movq	88(%rsp), %r8
	movq	(%r8), %rbx
	cmovaeq	%rcx, %rax
	cmovbq	%rcx, %r9
	leaq	(%r9,%r9,4), %rcx
	shll	$4, %ecx
	leaq	(%r10,%r10,4), %rsi
	shll	$4, %esi
	movl	(%rdi,%rsi), %esi
	cmpl	(%rdi,%rcx), %esi
	movq	%r10, %rsi
	cmovbq	%r9, %rsi
	cmovbq	%r10, %r9
	movq	8(%r8), %r15
	leaq	(%rdx,%rdx,4), %rdx
	shll	$4, %edx
	movl	(%rdi,%rdx), %ecx
	movzbl	8(%rdi,%rdx), %r8d
	movq	48(%rdi,%rdx), %r10
	movq	%r10, 64(%rsp)
	movups	16(%rdi,%rdx), %xmm0
	movups	32(%rdi,%rdx), %xmm1
	movaps	%xmm1, 48(%rsp)
	movaps	%xmm0, 32(%rsp)
	movq	72(%rdi,%rdx), %r10
	movq	%r10, 16(%rsp)
	movups	56(%rdi,%rdx), %xmm0
	movaps	%xmm0, (%rsp)
	movl	%ecx, (%rbx)
	movq	%r8, 8(%rbx)
	movaps	32(%rsp), %xmm0
	movaps	48(%rsp), %xmm1
	movups	%xmm0, 16(%rbx)
	movups	%xmm1, 32(%rbx)
	movq	64(%rsp), %rdx
	movq	%rdx, 48(%rbx)
	movaps	(%rsp), %xmm0
	movups	%xmm0, 56(%rbx)
	movq	16(%rsp), %rdx
	movq	%rdx, 72(%rbx)
	leaq	(%rsi,%rsi,4), %rdx
	shlq	$4, %rdx
	movl	(%rdi,%rdx), %esi
	movzbl	8(%rdi,%rdx), %r10d
	movq	48(%rdi,%rdx), %r11
	movq	%r11, 64(%rsp)
	movups	16(%rdi,%rdx), %xmm0
	movups	32(%rdi,%rdx), %xmm1
	movaps	%xmm1, 48(%rsp)
	movaps	%xmm0, 32(%rsp)
	movq	72(%rdi,%rdx), %r11
	movq	%r11, 16(%rsp)
	movups	56(%rdi,%rdx), %xmm0
	movaps	%xmm0, (%rsp)
	movl	%esi, 80(%rbx)
	movq	%r10, 88(%rbx)
	movaps	32(%rsp), %xmm0
	movaps	48(%rsp), %xmm1
	movups	%xmm0, 96(%rbx)
	movups	%xmm1, 112(%rbx)
	movq	64(%rsp), %rdx
	movq	%rdx, 128(%rbx)
	movaps	(%rsp), %xmm0
	movups	%xmm0, 136(%rbx)
	movq	16(%rsp), %rdx
	movq	%rdx, 152(%rbx)
	leaq	(%r9,%r9,4), %rdx
	shlq	$4, %rdx
	movl	(%rdi,%rdx), %esi
	movzbl	8(%rdi,%rdx), %r9d
	movq	48(%rdi,%rdx), %r10
	movq	%r10, 64(%rsp)
	movups	16(%rdi,%rdx), %xmm0
	movups	32(%rdi,%rdx), %xmm1
	movaps	%xmm1, 48(%rsp)
	movaps	%xmm0, 32(%rsp)
	movq	72(%rdi,%rdx), %r10
	movq	%r10, 16(%rsp)
	movups	56(%rdi,%rdx), %xmm0
	movaps	%xmm0, (%rsp)
	movl	%esi, 160(%rbx)
	movq	%r9, 168(%rbx)
	movaps	32(%rsp), %xmm0
	movaps	48(%rsp), %xmm1
	movups	%xmm0, 176(%rbx)
	movups	%xmm1, 192(%rbx)
	movq	64(%rsp), %rdx
	movq	%rdx, 208(%rbx)
	movaps	(%rsp), %xmm0
	movups	%xmm0, 216(%rbx)
	movq	16(%rsp), %rdx
	movq	%rdx, 232(%rbx)
	leaq	(%rax,%rax,4), %rax
	shll	$4, %eax
	movl	(%rdi,%rax), %edx
	movzbl	8(%rdi,%rax), %esi
	movq	48(%rdi,%rax), %r9
	movq	%r9, 64(%rsp)
	movups	16(%rdi,%rax), %xmm0
	movups	32(%rdi,%rax), %xmm1
	movaps	%xmm1, 48(%rsp)
	movaps	%xmm0, 32(%rsp)
	movq	72(%rdi,%rax), %r9
	movq	%r9, 16(%rsp)
	movups	56(%rdi,%rax), %xmm0
	movaps	%xmm0, (%rsp)
	movl	%edx, 240(%rbx)
	movq	%rsi, 248(%rbx)
	movaps	32(%rsp), %xmm0
	movaps	48(%rsp), %xmm1
	movups	%xmm0, 256(%rbx)
	movups	%xmm1, 272(%rbx)
	movq	64(%rsp), %rax
	movq	%rax, 288(%rbx)
	movaps	(%rsp), %xmm0
	movups	%xmm0, 296(%rbx)
	movq	16(%rsp), %rax
	movq	%rax, 312(%rbx)
	movq	%rdi, %rax
	subq	%rbx, %rax
	cmpq	$319, %rax
	ja	14f
	leaq	16(%rbx), %r14
	leaq	56(%rbx), %r12
	leaq	96(%rbx), %r11
	leaq	136(%rbx), %r10
	leaq	176(%rbx), %r9
	leaq	216(%rbx), %rsi
	leaq	256(%rbx), %rdx
	leaq	296(%rbx), %rax
	movq	32(%r14), %r13
	movq	%r13, 64(%rsp)
	movups	(%r14), %xmm0
	movups	16(%r14), %xmm1
	movaps	%xmm1, 48(%rsp)
	movaps	%xmm0, 32(%rsp)
	movups	(%r12), %xmm0
	movaps	%xmm0, (%rsp)
	movq	16(%r12), %r14
	movq	%r14, 16(%rsp)
	movl	%ecx, (%rdi)
	movq	%r8, 8(%rdi)
	movq	64(%rsp), %rcx
	movq	%rcx, 48(%rdi)
	movaps	32(%rsp), %xmm0
	movaps	48(%rsp), %xmm1
	movups	%xmm1, 32(%rdi)
	movups	%xmm0, 16(%rdi)
	movq	16(%rsp), %rcx
	movq	%rcx, 72(%rdi)
	movaps	(%rsp), %xmm0
	movups	%xmm0, 56(%rdi)
	movl	80(%rbx), %ecx
	movzbl	88(%rbx), %r8d
	movups	(%r11), %xmm0
	movups	16(%r11), %xmm1
	movaps	%xmm0, 32(%rsp)
	movaps	%xmm1, 48(%rsp)
	movq	32(%r11), %r11
	movq	%r11, 64(%rsp)
	movups	(%r10), %xmm0
	movaps	%xmm0, (%rsp)
	movq	16(%r10), %r10
	movq	%r10, 16(%rsp)
	movl	%ecx, 80(%rdi)
	movq	%r8, 88(%rdi)
	movq	64(%rsp), %rcx
	movq	%rcx, 128(%rdi)
	movaps	32(%rsp), %xmm0
	movaps	48(%rsp), %xmm1
	movups	%xmm1, 112(%rdi)
	movups	%xmm0, 96(%rdi)
	movq	16(%rsp), %rcx
	movq	%rcx, 152(%rdi)
	movaps	(%rsp), %xmm0
	movups	%xmm0, 136(%rdi)
	movl	160(%rbx), %ecx
	movzbl	168(%rbx), %r8d
	movups	(%r9), %xmm0
	movups	16(%r9), %xmm1
	movaps	%xmm0, 32(%rsp)
	movaps	%xmm1, 48(%rsp)
	movq	32(%r9), %r9
	movq	%r9, 64(%rsp)
	movups	(%rsi), %xmm0
	movaps	%xmm0, (%rsp)
	movq	16(%rsi), %rsi
	movq	%rsi, 16(%rsp)
	movl	%ecx, 160(%rdi)
	movq	%r8, 168(%rdi)
	movq	64(%rsp), %rcx
	movq	%rcx, 208(%rdi)
	movaps	32(%rsp), %xmm0
	movaps	48(%rsp), %xmm1
	movups	%xmm1, 192(%rdi)
	movups	%xmm0, 176(%rdi)
	movq	16(%rsp), %rcx
	movq	%rcx, 232(%rdi)
	movaps	(%rsp), %xmm0
	movups	%xmm0, 216(%rdi)
	movl	240(%rbx), %ecx
	movzbl	248(%rbx), %esi
	movups	(%rdx), %xmm0
	movups	16(%rdx), %xmm1
	movaps	%xmm0, 32(%rsp)
	movaps	%xmm1, 48(%rsp)
	movq	32(%rdx), %rdx
	movq	%rdx, 64(%rsp)
	movups	(%rax), %xmm0
	movaps	%xmm0, (%rsp)
	movq	16(%rax), %rax
	movq	%rax, 16(%rsp)
	movl	%ecx, 240(%rdi)
	movq	%rsi, 248(%rdi)
	movaps	32(%rsp), %xmm0
	movaps	48(%rsp), %xmm1
	movups	%xmm0, 256(%rdi)
	movups	%xmm1, 272(%rdi)
	movq	64(%rsp), %rax
	movq	%rax, 288(%rdi)
	movaps	(%rsp), %xmm0
	movups	%xmm0, 296(%rdi)
	movq	16(%rsp), %rax
	movq	%rax, 312(%rdi)
	jmp	15f
2:
	movq	%rdi, %rax
	subq	%rbx, %rax
	cmpq	$639, %rax
	ja	3f
	leaq	16(%rbx), %rax
	movzbl	8(%rbx), %ecx
	movq	32(%rax), %rdx
	movq	%rdx, 64(%rsp)
	movups	(%rax), %xmm0
	movups	16(%rax), %xmm1
	leaq	56(%rbx), %rax
	movaps	%xmm1, 48(%rsp)
	movaps	%xmm0, 32(%rsp)
	movups	(%rax), %xmm0
	movaps	%xmm0, (%rsp)
	movq	16(%rax), %rax
	movq	%rax, 16(%rsp)
	leaq	96(%rbx), %rax
	movl	84(%rsp), %edx
	movl	%edx, (%rdi)
	movq	%rcx, 8(%rdi)
	movq	64(%rsp), %rcx
	movq	%rcx, 48(%rdi)
	movaps	32(%rsp), %xmm0
	movaps	48(%rsp), %xmm1
	movups	%xmm1, 32(%rdi)
	movups	%xmm0, 16(%rdi)
	movq	16(%rsp), %rcx
	movq	%rcx, 72(%rdi)
	movaps	(%rsp), %xmm0
	movups	%xmm0, 56(%rdi)
	movl	80(%rbx), %ecx
	movzbl	88(%rbx), %edx
	movups	(%rax), %xmm0
	movups	16(%rax), %xmm1
	movaps	%xmm0, 32(%rsp)
	movaps	%xmm1, 48(%rsp)
	movq	32(%rax), %rax
	movq	%rax, 64(%rsp)
	leaq	136(%rbx), %rax
	movups	(%rax), %xmm0
	movaps	%xmm0, (%rsp)
	movq	16(%rax), %rax
	movq	%rax, 16(%rsp)
	leaq	176(%rbx), %rax
	movl	%ecx, 80(%rdi)
	movq	%rdx, 88(%rdi)
	movq	64(%rsp), %rcx
	movq	%rcx, 128(%rdi)
	movaps	32(%rsp), %xmm0
	movaps	48(%rsp), %xmm1
	movups	%xmm1, 112(%rdi)
	movups	%xmm0, 96(%rdi)
	movq	16(%rsp), %rcx
	movq	%rcx, 152(%rdi)
	movaps	(%rsp), %xmm0
	movups	%xmm0, 136(%rdi)
	movl	160(%rbx), %ecx
	movzbl	168(%rbx), %edx
	movups	(%rax), %xmm0
	movups	16(%rax), %xmm1
	movaps	%xmm0, 32(%rsp)
	movaps	%xmm1, 48(%rsp)
	movq	32(%rax), %rax
	movq	%rax, 64(%rsp)
	leaq	216(%rbx), %rax
	movups	(%rax), %xmm0
	movaps	%xmm0, (%rsp)
	movq	16(%rax), %rax
	movq	%rax, 16(%rsp)
	leaq	256(%rbx), %rax
	movl	%ecx, 160(%rdi)
	movq	%rdx, 168(%rdi)
	movq	64(%rsp), %rcx
	movq	%rcx, 208(%rdi)
	movaps	32(%rsp), %xmm0
	movaps	48(%rsp), %xmm1
	movups	%xmm1, 192(%rdi)
	movups	%xmm0, 176(%rdi)
	movq	16(%rsp), %rcx
	movq	%rcx, 232(%rdi)
	movaps	(%rsp), %xmm0
	movups	%xmm0, 216(%rdi)
	movl	240(%rbx), %ecx
	movzbl	248(%rbx), %edx
	movups	(%rax), %xmm0
	movups	16(%rax), %xmm1
	movaps	%xmm0, 32(%rsp)
	movaps	%xmm1, 48(%rsp)
	movq	32(%rax), %rax
	movq	%rax, 64(%rsp)
	leaq	296(%rbx), %rax
	movups	(%rax), %xmm0
	movaps	%xmm0, (%rsp)
	movq	16(%rax), %rax
	movq	%rax, 16(%rsp)
	leaq	336(%rbx), %rax
	movl	%ecx, 240(%rdi)
	movq	%rdx, 248(%rdi)
	movq	64(%rsp), %rcx
	movq	%rcx, 288(%rdi)
	movaps	32(%rsp), %xmm0
	movaps	48(%rsp), %xmm1
	movups	%xmm1, 272(%rdi)
	movups	%xmm0, 256(%rdi)
	movq	16(%rsp), %rcx
	movq	%rcx, 312(%rdi)
	movaps	(%rsp), %xmm0
	movups	%xmm0, 296(%rdi)
	movl	320(%rbx), %ecx
	movzbl	328(%rbx), %edx
	movups	(%rax), %xmm0
	movups	16(%rax), %xmm1
	movaps	%xmm0, 32(%rsp)
	movaps	%xmm1, 48(%rsp)
	movq	32(%rax), %rax
	movq	%rax, 64(%rsp)
	leaq	376(%rbx), %rax
	movups	(%rax), %xmm0
	movaps	%xmm0, (%rsp)
	movq	16(%rax), %rax
	movq	%rax, 16(%rsp)
	leaq	416(%rbx), %rax
	movl	%ecx, 320(%rdi)
	movq	%rdx, 328(%rdi)
	movq	64(%rsp), %rcx
	movq	%rcx, 368(%rdi)
	movaps	32(%rsp), %xmm0
	movaps	48(%rsp), %xmm1
	movups	%xmm1, 352(%rdi)
	movups	%xmm0, 336(%rdi)
	movq	16(%rsp), %rcx
	movq	%rcx, 392(%rdi)
	movaps	(%rsp), %xmm0
	movups	%xmm0, 376(%rdi)
	movl	400(%rbx), %ecx
	movzbl	408(%rbx), %edx
	movups	(%rax), %xmm0
	movups	16(%rax), %xmm1
	movaps	%xmm0, 32(%rsp)
	movaps	%xmm1, 48(%rsp)
	movq	32(%rax), %rax
	movq	%rax, 64(%rsp)
	leaq	456(%rbx), %rax
	movups	(%rax), %xmm0
	movaps	%xmm0, (%rsp)
	movq	16(%rax), %rax
	movq	%rax, 16(%rsp)
	leaq	496(%rbx), %rax
	movl	%ecx, 400(%rdi)
	movq	%rdx, 408(%rdi)
	movq	64(%rsp), %rcx
	movq	%rcx, 448(%rdi)
	movaps	32(%rsp), %xmm0
	movaps	48(%rsp), %xmm1
	movups	%xmm1, 432(%rdi)
	movups	%xmm0, 416(%rdi)
	movq	16(%rsp), %rcx
	movq	%rcx, 472(%rdi)
	movaps	(%rsp), %xmm0
	movups	%xmm0, 456(%rdi)
	movl	480(%rbx), %ecx
	movzbl	488(%rbx), %edx
	movups	(%rax), %xmm0
	movups	16(%rax), %xmm1
	movaps	%xmm0, 32(%rsp)
	movaps	%xmm1, 48(%rsp)
	movq	32(%rax), %rax
	movq	%rax, 64(%rsp)
	leaq	536(%rbx), %rax
	movups	(%rax), %xmm0
	movaps	%xmm0, (%rsp)
	movq	16(%rax), %rax
	movq	%rax, 16(%rsp)
	leaq	576(%rbx), %rax
	movl	%ecx, 480(%rdi)
	movq	%rdx, 488(%rdi)
	movq	64(%rsp), %rcx
	movq	%rcx, 528(%rdi)
	movaps	32(%rsp), %xmm0
	movaps	48(%rsp), %xmm1
	movups	%xmm1, 512(%rdi)
	movups	%xmm0, 496(%rdi)
	movq	16(%rsp), %rcx
	movq	%rcx, 552(%rdi)
	movaps	(%rsp), %xmm0
	movups	%xmm0, 536(%rdi)
	movl	560(%rbx), %ecx
	movzbl	568(%rbx), %edx
	movups	(%rax), %xmm0
	movups	16(%rax), %xmm1
	movaps	%xmm0, 32(%rsp)
	movaps	%xmm1, 48(%rsp)
	movq	32(%rax), %rax
	movq	%rax, 64(%rsp)
	leaq	616(%rbx), %rax
	movups	(%rax), %xmm0
	movaps	%xmm0, (%rsp)
	movq	16(%rax), %rax
	movq	%rax, 16(%rsp)
	movl	%ecx, 560(%rdi)
	movq	%rdx, 568(%rdi)
	movaps	32(%rsp), %xmm0
	movaps	48(%rsp), %xmm1
	movups	%xmm0, 576(%rdi)
	movups	%xmm1, 592(%rdi)
	movq	64(%rsp), %rax
	movq	%rax, 608(%rdi)
	movaps	(%rsp), %xmm0
	movups	%xmm0, 616(%rdi)
	movq	16(%rsp), %rax
	movq	%rax, 632(%rdi)
	jmp	4f
3:
	movl	$640, %edx
	movq	%rdi, %r14
	movq	%rbx, %rsi
	callq	memmove@PLT
	movq	%r14, %rdi
4:
	movl	$4, %eax
5:
	movq	88(%rsp), %rcx
	movq	%rbx, (%rcx)
	movq	208(%rsp), %rdx
	movq	%rdx, 8(%rcx)
6:
	cmpq	96(%rsp), %rax
	jae	16f
7:
	leaq	(%rax,%rax,4), %rcx
	shll	$4, %ecx
	addq	%rdi, %rcx
	addq	$-160, %rcx
	jmp	11f
8:
	xorl	%esi, %esi
9:
	movl	%edx, (%rdi,%rsi)
	movq	%r8, 8(%rdi,%rsi)
	movaps	32(%rsp), %xmm0
	movaps	48(%rsp), %xmm1
	movups	%xmm0, 16(%rdi,%rsi)
	movups	%xmm1, 32(%rdi,%rsi)
	movq	64(%rsp), %rdx
	movq	%rdx, 48(%rdi,%rsi)
	movaps	(%rsp), %xmm0
	movups	%xmm0, 56(%rdi,%rsi)
	movq	16(%rsp), %rdx
	movq	%rdx, 72(%rdi,%rsi)
10:
	incq	%rax
	addq	$80, %rcx
	cmpq	96(%rsp), %rax
	je	16f
11:
	leaq	(%rax,%rax,4), %r8
	shlq	$4, %r8
	movl	-80(%rdi,%r8), %esi
	movl	(%rdi,%r8), %edx
	cmpl	%edx, %esi
	jae	10b
	leaq	(%rdi,%r8), %r10
	movq	%rax, %r9
	leaq	(%rdi,%r8), %r11
	addq	$-80, %r11
	movzbl	8(%r10), %r8d
	movq	48(%r10), %rbx
	movq	%rbx, 64(%rsp)
	movups	16(%r10), %xmm0
	movups	32(%r10), %xmm1
	movaps	%xmm1, 48(%rsp)
	movaps	%xmm0, 32(%rsp)
	movups	56(%r10), %xmm0
	movaps	%xmm0, (%rsp)
	movq	72(%r10), %rbx
	movq	%rbx, 16(%rsp)
	movzbl	8(%r11), %ebx
	movl	%esi, (%r10)
	movq	%rbx, 8(%r10)
	movq	48(%r11), %rsi
	movq	%rsi, 48(%r10)
	movups	16(%r11), %xmm0
	movups	32(%r11), %xmm1
	movups	%xmm1, 32(%r10)
	movups	%xmm0, 16(%r10)
	movq	72(%r11), %rsi
	movq	%rsi, 72(%r10)
	movups	56(%r11), %xmm0
	movups	%xmm0, 56(%r10)
	decq	%r9
	je	8b
	movq	%rcx, %rsi
	.p2align	4
12:
	movl	(%rsi), %r10d
	cmpl	%edx, %r10d
	jae	13f
	decq	%r9
	movzbl	8(%rsi), %r11d
	movl	%r10d, 80(%rsi)
	movq	%r11, 88(%rsi)
	movups	16(%rsi), %xmm0
	movups	32(%rsi), %xmm1
	movups	%xmm0, 96(%rsi)
	movups	%xmm1, 112(%rsi)
	movq	48(%rsi), %r10
	movq	%r10, 128(%rsi)
	movups	56(%rsi), %xmm0
	movups	%xmm0, 136(%rsi)
	movq	72(%rsi), %r10
	movq	%r10, 152(%rsi)
	addq	$-80, %rsi
	testq	%r9, %r9
	jne	12b
	xorl	%r9d, %r9d
13:
	shlq	$4, %r9
	leaq	(%r9,%r9,4), %rsi
	jmp	9b
14:
	movl	$320, %edx
	movq	%rdi, %r14
	movq	%rbx, %rsi
	callq	memmove@PLT
	movq	%r14, %rdi
15:
	movq	88(%rsp), %rax
	movq	%rbx, (%rax)
	movq	%r15, 8(%rax)
	movl	$4, %eax
	cmpq	96(%rsp), %rax
	jb	7b
16:
	addq	$216, %rsp
	popq	%rbx
	popq	%r12
	popq	%r13
	popq	%r14
	popq	%r15
	popq	%rbp
	retq
17:
	.size	"core::slice::sort::short::sort_half::<#54047240e3f04dbb>", 17b-"core::slice::sort::short::sort_half::<#54047240e3f04dbb>"

	.text
	.p2align	4
	.type	"core::slice::sort::short::sort_half::<#b4bd7111e818b46c>",@function
"core::slice::sort::short::sort_half::<#b4bd7111e818b46c>":
	pushq	%rbp
	pushq	%r15
	pushq	%r14
	pushq	%r13
	pushq	%r12
	pushq	%rbx
	subq	$120, %rsp
	movq	%rdx, %rax
	movq	%rdi, %r14
	cmpq	$8, %rsi
	jb	1f
	movq	%rsi, 24(%rsp)
	movq	(%rax), %r12
	movq	%rax, 40(%rsp)
	movq	8(%rax), %rax
	movq	%rax, 112(%rsp)
	movq	32(%r14), %rdi
	movq	40(%r14), %rsi
	movq	(%r14), %rdx
	movq	8(%r14), %rcx
	callq	"core::cmp::slices::RefSliceOrd::cmp::<#914af4d8504a0b72>"
	xorl	%ebx, %ebx
	xorl	%r13d, %r13d
	testb	%al, %al
	setne	%bl
	sete	%r13b
	movq	96(%r14), %rdi
	movq	104(%r14), %rsi
	movq	64(%r14), %rdx
	movq	72(%r14), %rcx
	callq	"core::cmp::slices::RefSliceOrd::cmp::<#914af4d8504a0b72>"
	xorl	%r15d, %r15d
	testb	%al, %al
	sete	%r15b
	leal	2(%r15), %eax
	movl	%eax, 16(%rsp)
	xorl	$3, %r15d
	shll	$5, %eax
	movl	%r13d, %ecx
	shll	$5, %ecx
	movq	(%r14,%rax), %rdi
	movq	8(%r14,%rax), %rsi
	movq	(%r14,%rcx), %rdx
	movq	8(%r14,%rcx), %rcx
	callq	"core::cmp::slices::RefSliceOrd::cmp::<#914af4d8504a0b72>"
	movl	%eax, %ebp
	movl	%r15d, %eax
	shll	$5, %eax
	movl	%ebx, %ecx
	shll	$5, %ecx
	movq	(%r14,%rax), %rdi
	movq	8(%r14,%rax), %rsi
	movq	(%r14,%rcx), %rdx
	movq	8(%r14,%rcx), %rcx
	callq	"core::cmp::slices::RefSliceOrd::cmp::<#914af4d8504a0b72>"
	movl	%ebp, %esi
	testb	%bpl, %bpl
	movl	16(%rsp), %edx
	movl	%edx, %ebp
	movl	%ebx, %ecx
	cmovel	%ebx, %ebp
	testb	%al, %al
	cmovel	%edx, %ebx
	cmovel	%r15d, %ebp
	cmovel	%ecx, %r15d
	testb	%sil, %sil
	cmovel	%r13d, %ebx
	cmovel	%edx, %r13d
	movl	%ebp, %eax
	shll	$5, %eax
	movl	%ebx, %ecx
	shll	$5, %ecx
	movq	(%r14,%rax), %rdi
	movq	8(%r14,%rax), %rsi
	movq	(%r14,%rcx), %rdx
	movq	8(%r14,%rcx), %rcx
	callq	"core::cmp::slices::RefSliceOrd::cmp::<#914af4d8504a0b72>"
	shll	$5, %r13d
	testb	%al, %al
	movups	(%r14,%r13), %xmm0
	movups	16(%r14,%r13), %xmm1
	movups	%xmm0, (%r12)
	movl	%ebx, %eax
	cmovel	%ebp, %eax
	cmovnel	%ebp, %ebx
	movups	%xmm1, 16(%r12)
	shll	$5, %eax
	movups	(%r14,%rax), %xmm0
	movups	16(%r14,%rax), %xmm1
	movups	%xmm1, 48(%r12)
	movups	%xmm0, 32(%r12)
	shll	$5, %ebx
	movups	(%r14,%rbx), %xmm0
	movups	16(%r14,%rbx), %xmm1
	movups	%xmm0, 64(%r12)
	movups	%xmm1, 80(%r12)
	shll	$5, %r15d
	movups	(%r14,%r15), %xmm0
	movups	16(%r14,%r15), %xmm1
	movups	%xmm1, 112(%r12)
	movups	%xmm0, 96(%r12)
	movq	160(%r14), %rdi
	movq	168(%r14), %rsi
	movq	128(%r14), %rdx
	movq	136(%r14), %rcx
	callq	"core::cmp::slices::RefSliceOrd::cmp::<#914af4d8504a0b72>"
	xorl	%ebx, %ebx
	testb	%al, %al
	sete	%bl
	movq	224(%r14), %rdi
	movq	232(%r14), %rsi
	movq	192(%r14), %rdx
	movq	200(%r14), %rcx
	callq	"core::cmp::slices::RefSliceOrd::cmp::<#914af4d8504a0b72>"
	xorl	%r15d, %r15d
	testb	%al, %al
	sete	%r15b
	leal	4(%rbx), %ecx
	movq	%rcx, 16(%rsp)
	xorl	$5, %ebx
	leal	6(%r15), %ebp
	xorl	$7, %r15d
	movl	%ebp, %eax
	shll	$5, %eax
	shll	$5, %ecx
	movq	(%r14,%rax), %rdi
	movq	8(%r14,%rax), %rsi
	movq	(%r14,%rcx), %rdx
	movq	8(%r14,%rcx), %rcx
	callq	"core::cmp::slices::RefSliceOrd::cmp::<#914af4d8504a0b72>"
	movl	%eax, %r13d
	movl	%r15d, %eax
	shll	$5, %eax
	movl	%ebx, %ecx
	shll	$5, %ecx
	movq	(%r14,%rax), %rdi
	movq	8(%r14,%rax), %rsi
	movq	(%r14,%rcx), %rdx
	movq	8(%r14,%rcx), %rcx
	callq	"core::cmp::slices::RefSliceOrd::cmp::<#914af4d8504a0b72>"
	movl	%r13d, %edx
	testb	%r13b, %r13b
	movl	%ebp, %ecx
	movl	%ebp, %r13d
	cmovel	%ebx, %r13d
	testb	%al, %al
	movl	%ebx, %ebp
	cmovel	%ecx, %ebp
	cmovel	%r15d, %r13d
	cmovel	%ebx, %r15d
	testb	%dl, %dl
	movq	16(%rsp), %rax
	cmovel	%eax, %ebp
	cmovel	%ecx, %eax
	movq	%rax, %rbx
	movl	%r13d, %eax
	shll	$5, %eax
	movl	%ebp, %ecx
	shll	$5, %ecx
	movq	(%r14,%rax), %rdi
	movq	8(%r14,%rax), %rsi
	movq	(%r14,%rcx), %rdx
	movq	8(%r14,%rcx), %rcx
	callq	"core::cmp::slices::RefSliceOrd::cmp::<#914af4d8504a0b72>"
	shll	$5, %ebx
	testb	%al, %al
	movups	(%r14,%rbx), %xmm0
	movups	16(%r14,%rbx), %xmm1
	movups	%xmm1, 144(%r12)
	movl	%ebp, %eax
	cmovel	%r13d, %eax
	cmovnel	%r13d, %ebp
	movups	%xmm0, 128(%r12)
	shll	$5, %eax
	movups	(%r14,%rax), %xmm0
	movups	16(%r14,%rax), %xmm1
	movups	%xmm0, 160(%r12)
	movups	%xmm1, 176(%r12)
	shll	$5, %ebp
	movups	(%r14,%rbp), %xmm0
	movups	16(%r14,%rbp), %xmm1
	movups	%xmm0, 192(%r12)
	movups	%xmm1, 208(%r12)
	shll	$5, %r15d
	movups	(%r14,%r15), %xmm0
	movups	16(%r14,%r15), %xmm1
	movups	%xmm1, 240(%r12)
	movups	%xmm0, 224(%r12)
	movq	128(%r12), %rdi
	movq	136(%r12), %rsi
	movq	(%r12), %rdx
	movq	8(%r12), %rcx
	callq	"core::cmp::slices::RefSliceOrd::cmp::<#914af4d8504a0b72>"
	xorl	%ebp, %ebp
	movb	%al, 13(%rsp)
	testb	%al, %al
	setne	%bpl
	movq	%rbp, %rbx
	xorq	$5, %rbx
	movq	224(%r12), %rdi
	movq	232(%r12), %rsi
	movq	96(%r12), %rdx
	movq	104(%r12), %rcx
	callq	"core::cmp::slices::RefSliceOrd::cmp::<#914af4d8504a0b72>"
	movb	%al, 12(%rsp)
	testb	%al, %al
	movl	$0, %eax
	sete	%al
	movq	%rax, 16(%rsp)
	movl	$4, %ecx
	subq	%rax, %rcx
	movq	%rcx, 56(%rsp)
	addq	$7, %rax
	movq	%rax, 32(%rsp)
	movl	%ebx, %eax
	shll	$5, %eax
	movl	%ebp, %ecx
	shll	$5, %ecx
	movq	(%r12,%rax), %rdi
	movq	8(%r12,%rax), %rsi
	movq	(%r12,%rcx), %rdx
	movq	8(%r12,%rcx), %rcx
	callq	"core::cmp::slices::RefSliceOrd::cmp::<#914af4d8504a0b72>"
	xorl	%r15d, %r15d
	xorl	%r13d, %r13d
	movb	%al, 11(%rsp)
	testb	%al, %al
	setne	%r15b
	sete	%r13b
	movq	%rbx, 104(%rsp)
	addq	%rbx, %r13
	movq	%rbp, 88(%rsp)
	addq	%rbp, %r15
	movq	32(%rsp), %rax
	shll	$5, %eax
	movq	56(%rsp), %rbx
	movl	%ebx, %ecx
	shll	$5, %ecx
	movq	-32(%r12,%rax), %rdi
	movq	-24(%r12,%rax), %rsi
	movq	-32(%r12,%rcx), %rdx
	movq	-24(%r12,%rcx), %rcx
	callq	"core::cmp::slices::RefSliceOrd::cmp::<#914af4d8504a0b72>"
	xorl	%esi, %esi
	xorl	%ecx, %ecx
	movb	%al, 14(%rsp)
	testb	%al, %al
	setne	%sil
	sete	%cl
	subq	%rcx, %rbx
	negq	%rsi
	movq	16(%rsp), %rax
	addq	%rsi, %rax
	addq	$7, %rax
	movq	%rax, 48(%rsp)
	movl	%r13d, %eax
	shll	$5, %eax
	movl	%r15d, %ecx
	shll	$5, %ecx
	movq	(%r12,%rax), %rdi
	movq	8(%r12,%rax), %rsi
	movq	(%r12,%rcx), %rdx
	movq	8(%r12,%rcx), %rcx
	callq	"core::cmp::slices::RefSliceOrd::cmp::<#914af4d8504a0b72>"
	xorl	%ecx, %ecx
	xorl	%ebp, %ebp
	movb	%al, 10(%rsp)
	testb	%al, %al
	setne	%cl
	sete	%bpl
	movq	%r13, 80(%rsp)
	addq	%r13, %rbp
	movq	%r15, 96(%rsp)
	addq	%r15, %rcx
	movq	%rcx, 16(%rsp)
	movq	48(%rsp), %r13
	movq	%r13, %rax
	shlq	$5, %rax
	movq	%rbx, %rcx
	shlq	$5, %rcx
	movq	-32(%r12,%rax), %rdi
	movq	-24(%r12,%rax), %rsi
	movq	-32(%r12,%rcx), %rdx
	movq	-24(%r12,%rcx), %rcx
	callq	"core::cmp::slices::RefSliceOrd::cmp::<#914af4d8504a0b72>"
	xorl	%esi, %esi
	xorl	%ecx, %ecx
	movb	%al, 9(%rsp)
	testb	%al, %al
	setne	%sil
	sete	%cl
	movq	%rbx, 64(%rsp)
	movq	%rbx, %r15
	subq	%rcx, %r15
	subq	%rsi, %r13
	movl	%ebp, %eax
	shll	$5, %eax
	movq	16(%rsp), %rcx
	shll	$5, %ecx
	movq	(%r12,%rax), %rdi
	movq	8(%r12,%rax), %rsi
	movq	(%r12,%rcx), %rdx
	movq	8(%r12,%rcx), %rcx
	callq	"core::cmp::slices::RefSliceOrd::cmp::<#914af4d8504a0b72>"
	xorl	%ebx, %ebx
	movb	%al, 8(%rsp)
	testb	%al, %al
	setne	15(%rsp)
	sete	%bl
	movq	%rbp, 72(%rsp)
	addl	%ebp, %ebx
	movq	%r13, %rax
	shlq	$5, %rax
	movq	%r15, %rcx
	shlq	$5, %rcx
	movq	-32(%r12,%rax), %rdi
	movq	-24(%r12,%rax), %rsi
	movq	-32(%r12,%rcx), %rdx
	movq	-24(%r12,%rcx), %rcx
	callq	"core::cmp::slices::RefSliceOrd::cmp::<#914af4d8504a0b72>"
	movq	16(%rsp), %r9
	xorl	%esi, %esi
	xorl	%ecx, %ecx
	testb	%al, %al
	setne	%sil
	sete	%dl
	movl	%r13d, %edi
	subl	%esi, %edi
	cmpl	%edi, %ebx
	ja	2f
	xorl	%esi, %esi
	movzbl	15(%rsp), %edi
	movb	%dil, %sil
	addq	%r9, %rsi
	movb	%dl, %cl
	movq	%r15, %rdx
	subq	%rcx, %rdx
	cmpl	%edx, %esi
	ja	2f
	xorl	%ecx, %ecx
	cmpb	$0, 12(%rsp)
	setne	%cl
	xorl	%edx, %edx
	cmpb	$0, 13(%rsp)
	sete	%dl
	shll	$7, %ecx
	shll	$7, %edx
	cmpb	$0, 11(%rsp)
	movq	104(%rsp), %rsi
	cmovnel	88(%rsp), %esi
	shll	$5, %esi
	cmpb	$0, 10(%rsp)
	movq	96(%rsp), %rdi
	cmovel	80(%rsp), %edi
	shll	$5, %edi
	cmpb	$0, 8(%rsp)
	cmovel	72(%rsp), %r9d
	shll	$5, %r9d
	testb	%al, %al
	cmovel	%r15d, %r13d
	shll	$5, %r13d
	addl	$8160, %r13d
	andl	$8160, %r13d
	cmpb	$0, 9(%rsp)
	movq	48(%rsp), %r8
	cmovel	64(%rsp), %r8d
	movups	(%r12,%rdx), %xmm0
	movups	16(%r12,%rdx), %xmm1
	movups	%xmm1, 16(%r14)
	movups	%xmm0, (%r14)
	movups	(%r12,%rsi), %xmm0
	movups	16(%r12,%rsi), %xmm1
	leaq	32(%r14), %rax
	movups	%xmm1, 16(%rax)
	movups	%xmm0, (%rax)
	movups	(%r12,%rdi), %xmm0
	movups	16(%r12,%rdi), %xmm1
	leaq	64(%r14), %rax
	movups	%xmm1, 16(%rax)
	movups	%xmm0, (%rax)
	movups	(%r12,%r9), %xmm0
	movups	16(%r12,%r9), %xmm1
	leaq	96(%r14), %rax
	movups	%xmm1, 16(%rax)
	movups	%xmm0, (%rax)
	movups	(%r12,%r13), %xmm0
	movups	16(%r12,%r13), %xmm1
	leaq	128(%r14), %rax
	movups	%xmm1, 16(%rax)
	movups	%xmm0, (%rax)
	shll	$5, %r8d
	addl	$8160, %r8d
	andl	$8160, %r8d
	movups	(%r12,%r8), %xmm0
	movups	16(%r12,%r8), %xmm1
	leaq	160(%r14), %rax
	movups	%xmm1, 16(%rax)
	movups	%xmm0, (%rax)
	cmpb	$0, 14(%rsp)
	movq	32(%rsp), %rax
	cmovel	56(%rsp), %eax
	shll	$5, %eax
	addl	$8160, %eax
	andl	$8160, %eax
	movups	(%r12,%rax), %xmm0
	movups	16(%r12,%rax), %xmm1
	leaq	192(%r14), %rax
	movups	%xmm1, 16(%rax)
	movups	%xmm0, (%rax)
	movups	96(%r12,%rcx), %xmm0
	movups	112(%r12,%rcx), %xmm1
	leaq	224(%r14), %rax
	movups	%xmm1, 16(%rax)
	movups	%xmm0, (%rax)
	movl	$8, %edx
	jmp	5f
1:
	movl	$1, %edx
	cmpq	$4, %rsi
	jb	8f
	movq	%rsi, 24(%rsp)
	movq	(%rax), %r15
	movq	%rax, 40(%rsp)
	movq	8(%rax), %rax
	movq	%rax, 16(%rsp)
	movq	32(%r14), %rdi
	movq	40(%r14), %rsi
	movq	(%r14), %rdx
	movq	8(%r14), %rcx
	callq	"core::cmp::slices::RefSliceOrd::cmp::<#914af4d8504a0b72>"
	xorl	%ebx, %ebx
	xorl	%ebp, %ebp
	testb	%al, %al
	setne	%bl
	sete	%bpl
	movq	96(%r14), %rdi
	movq	104(%r14), %rsi
	movq	64(%r14), %rdx
	movq	72(%r14), %rcx
	callq	"core::cmp::slices::RefSliceOrd::cmp::<#914af4d8504a0b72>"
	xorl	%r13d, %r13d
	testb	%al, %al
	sete	%r13b
	leal	2(%r13), %eax
	movl	%eax, 32(%rsp)
	xorl	$3, %r13d
	shll	$5, %eax
	movl	%ebp, %ecx
	shll	$5, %ecx
	movq	(%r14,%rax), %rdi
	movq	8(%r14,%rax), %rsi
	movq	(%r14,%rcx), %rdx
	movq	8(%r14,%rcx), %rcx
	callq	"core::cmp::slices::RefSliceOrd::cmp::<#914af4d8504a0b72>"
	movl	%eax, %r12d
	movl	%r13d, %eax
	shll	$5, %eax
	movl	%ebx, %ecx
	shll	$5, %ecx
	movq	(%r14,%rax), %rdi
	movq	8(%r14,%rax), %rsi
	movq	(%r14,%rcx), %rdx
	movq	8(%r14,%rcx), %rcx
	callq	"core::cmp::slices::RefSliceOrd::cmp::<#914af4d8504a0b72>"
	movl	%r12d, %esi
	testb	%r12b, %r12b
	movl	32(%rsp), %edx
	movl	%edx, %r12d
	movl	%ebx, %ecx
	cmovel	%ebx, %r12d
	testb	%al, %al
	cmovel	%edx, %ebx
	cmovel	%r13d, %r12d
	cmovel	%ecx, %r13d
	testb	%sil, %sil
	cmovel	%ebp, %ebx
	cmovel	%edx, %ebp
	movl	%r12d, %eax
	shll	$5, %eax
	movl	%ebx, %ecx
	shll	$5, %ecx
	movq	(%r14,%rax), %rdi
	movq	8(%r14,%rax), %rsi
	movq	(%r14,%rcx), %rdx
	movq	8(%r14,%rcx), %rcx
	callq	"core::cmp::slices::RefSliceOrd::cmp::<#914af4d8504a0b72>"
	shll	$5, %ebp
	testb	%al, %al
	movups	(%r14,%rbp), %xmm0
	movups	16(%r14,%rbp), %xmm1
	movups	%xmm1, 16(%r15)
	movups	%xmm0, (%r15)
	movl	%ebx, %eax
	cmovel	%r12d, %eax
	cmovnel	%r12d, %ebx
	shll	$5, %eax
	movups	(%r14,%rax), %xmm0
	movups	16(%r14,%rax), %xmm1
	movups	%xmm0, 32(%r15)
	movups	%xmm1, 48(%r15)
	shll	$5, %ebx
	movups	(%r14,%rbx), %xmm0
	movups	16(%r14,%rbx), %xmm1
	movups	%xmm0, 64(%r15)
	movups	%xmm1, 80(%r15)
	shll	$5, %r13d
	movups	(%r14,%r13), %xmm0
	movups	16(%r14,%r13), %xmm1
	movups	%xmm1, 112(%r15)
	movups	%xmm0, 96(%r15)
	movq	%r14, %rax
	subq	%r15, %rax
	cmpq	$127, %rax
	ja	6f
	leaq	32(%r14), %rax
	leaq	96(%r14), %rcx
	leaq	64(%r14), %rdx
	leaq	32(%r15), %rsi
	leaq	64(%r15), %rdi
	leaq	96(%r15), %r8
	movups	(%r15), %xmm0
	movups	16(%r15), %xmm1
	movups	%xmm1, 16(%r14)
	movups	%xmm0, (%r14)
	movups	(%rsi), %xmm0
	movups	16(%rsi), %xmm1
	movups	%xmm1, 16(%rax)
	movups	%xmm0, (%rax)
	movups	(%rdi), %xmm0
	movups	16(%rdi), %xmm1
	movups	%xmm1, 16(%rdx)
	movups	%xmm0, (%rdx)
	movups	(%r8), %xmm0
	movups	16(%r8), %xmm1
	movups	%xmm1, 16(%rcx)
	movups	%xmm0, (%rcx)
	jmp	7f
2:
	movq	%r14, %rax
	subq	%r12, %rax
	cmpq	$255, %rax
	ja	3f
	leaq	32(%r12), %rax
	movups	(%r12), %xmm0
	movups	16(%r12), %xmm1
	movups	%xmm1, 16(%r14)
	movups	%xmm0, (%r14)
	movups	(%rax), %xmm0
	movups	16(%rax), %xmm1
	leaq	32(%r14), %rax
	movups	%xmm1, 16(%rax)
	movups	%xmm0, (%rax)
	leaq	64(%r12), %rax
	movups	(%rax), %xmm0
	movups	16(%rax), %xmm1
	leaq	64(%r14), %rax
	movups	%xmm1, 16(%rax)
	movups	%xmm0, (%rax)
	leaq	96(%r12), %rax
	movups	(%rax), %xmm0
	movups	16(%rax), %xmm1
	leaq	96(%r14), %rax
	movups	%xmm1, 16(%rax)
	movups	%xmm0, (%rax)
	leaq	128(%r12), %rax
	movups	(%rax), %xmm0
	movups	16(%rax), %xmm1
	leaq	128(%r14), %rax
	movups	%xmm1, 16(%rax)
	movups	%xmm0, (%rax)
	leaq	160(%r12), %rax
	movups	(%rax), %xmm0
	movups	16(%rax), %xmm1
	leaq	160(%r14), %rax
	movups	%xmm1, 16(%rax)
	movups	%xmm0, (%rax)
	leaq	192(%r12), %rax
	movups	(%rax), %xmm0
	movups	16(%rax), %xmm1
	leaq	192(%r14), %rax
	movups	%xmm1, 16(%rax)
	movups	%xmm0, (%rax)
	leaq	224(%r12), %rax
	movups	(%rax), %xmm0
	movups	16(%rax), %xmm1
	leaq	224(%r14), %rax
	movups	%xmm1, 16(%rax)
	movups	%xmm0, (%rax)
	jmp	4f
3:
	movl	$256, %edx
	movq	%r14, %rdi
	movq	%r12, %rsi
	callq	memmove@PLT
4:
	movl	$4, %edx
5:
	movq	24(%rsp), %rsi
	movq	40(%rsp), %rax
	movq	%r12, (%rax)
	movq	112(%rsp), %rcx
	movq	%rcx, 8(%rax)
	jmp	8f
6:
	movups	(%r15), %xmm0
	movups	16(%r15), %xmm1
	movups	32(%r15), %xmm2
	movups	48(%r15), %xmm3
	movups	64(%r15), %xmm4
	movups	80(%r15), %xmm5
	movups	96(%r15), %xmm6
	movups	112(%r15), %xmm7
	movups	%xmm7, 112(%r14)
	movups	%xmm6, 96(%r14)
	movups	%xmm5, 80(%r14)
	movups	%xmm4, 64(%r14)
	movups	%xmm3, 48(%r14)
	movups	%xmm2, 32(%r14)
	movups	%xmm1, 16(%r14)
	movups	%xmm0, (%r14)
7:
	movq	40(%rsp), %rax
	movq	%r15, (%rax)
	movq	16(%rsp), %rcx
	movq	%rcx, 8(%rax)
	movl	$4, %edx
	movq	24(%rsp), %rsi
8:
	movq	%r14, %rdi
	addq	$120, %rsp
	popq	%rbx
	popq	%r12
	popq	%r13
	popq	%r14
	popq	%r15
	popq	%rbp
	jmp	"core::slice::sort::small::insert_from::<#b4bd7111e818b46c>"
9:
	.size	"core::slice::sort::short::sort_half::<#b4bd7111e818b46c>", 9b-"core::slice::sort::short::sort_half::<#b4bd7111e818b46c>"

	.text
	.p2align	4
	.type	"core::slice::sort::short::sort_half::<#cc3e8e382a4904f8>",@function
"core::slice::sort::short::sort_half::<#cc3e8e382a4904f8>":
	pushq	%rbp
	pushq	%r15
	pushq	%r14
	pushq	%r13
	pushq	%r12
	pushq	%rbx
	subq	$136, %rsp
	movq	%rdx, %rax
	movq	%rdi, %r14
	cmpq	$8, %rsi
	jb	1f
	movq	%rsi, 32(%rsp)
	movq	(%rax), %rcx
	movq	%rcx, 16(%rsp)
	movq	%rax, 24(%rsp)
	movq	8(%rax), %rax
	movq	%rax, 128(%rsp)
	leaq	8(%r14), %rdi
	movq	(%r14), %rsi
	callq	"core::slice::sort::order::ByOrder::less::<#878f6745e8fab0b2>"
	movl	%eax, %ebx
	leaq	24(%r14), %rdi
	movq	16(%r14), %rsi
	callq	"core::slice::sort::order::ByOrder::less::<#878f6745e8fab0b2>"
	movzbl	%al, %r15d
	leal	2(%r15), %r12d
	xorl	$3, %r15d
	leaq	(%r14,%r12,8), %rdi
	movzbl	%bl, %r13d
	xorb	$1, %bl
	movq	(%r14,%r13,8), %rsi
	callq	"core::slice::sort::order::ByOrder::less::<#878f6745e8fab0b2>"
	movb	%al, 8(%rsp)
	leaq	(%r14,%r15,8), %rdi
	movzbl	%bl, %ebp
	movq	(%r14,%rbp,8), %rsi
	callq	"core::slice::sort::order::ByOrder::less::<#878f6745e8fab0b2>"
	movzbl	8(%rsp), %edx
	testb	%dl, %dl
	movq	%r12, %rcx
	movl	%ecx, %ebx
	cmovnel	%ebp, %ebx
	testb	%al, %al
	movl	%ebp, %r12d
	cmovnel	%ecx, %r12d
	cmovnel	%r15d, %ebx
	cmovnel	%ebp, %r15d
	testb	%dl, %dl
	cmovnel	%r13d, %r12d
	leaq	(%r14,%rbx,8), %rdi
	movq	(%r14,%r12,8), %rsi
	cmovnel	%ecx, %r13d
	callq	"core::slice::sort::order::ByOrder::less::<#878f6745e8fab0b2>"
	movq	(%r14,%r13,8), %rdx
	movq	%rdx, 40(%rsp)
	movq	16(%rsp), %rcx
	movq	%rdx, (%rcx)
	testb	%al, %al
	movl	%r12d, %eax
	cmovnel	%ebx, %eax
	movq	(%r14,%rax,8), %rax
	movq	%rax, 8(%rcx)
	cmovel	%ebx, %r12d
	movq	(%r14,%r12,8), %rax
	movq	%rax, 16(%rcx)
	movq	(%r14,%r15,8), %rax
	movq	%rax, 48(%rsp)
	movq	%rax, 24(%rcx)
	leaq	40(%r14), %rdi
	movq	32(%r14), %rsi
	callq	"core::slice::sort::order::ByOrder::less::<#878f6745e8fab0b2>"
	movl	%eax, %ebp
	leaq	56(%r14), %rdi
	movq	48(%r14), %rsi
	callq	"core::slice::sort::order::ByOrder::less::<#878f6745e8fab0b2>"
	movzbl	%bpl, %r13d
	leal	4(%r13), %ecx
	movq	%rcx, 8(%rsp)
	xorl	$5, %r13d
	movzbl	%al, %r15d
	leal	6(%r15), %r12d
	xorl	$7, %r15d
	leaq	(%r14,%r12,8), %rdi
	movq	(%r14,%rcx,8), %rsi
	callq	"core::slice::sort::order::ByOrder::less::<#878f6745e8fab0b2>"
	movl	%eax, %ebx
	leaq	(%r14,%r15,8), %rdi
	movq	(%r14,%r13,8), %rsi
	callq	"core::slice::sort::order::ByOrder::less::<#878f6745e8fab0b2>"
	movl	%ebx, %ecx
	testb	%bl, %bl
	movl	%r12d, %ebx
	cmovnel	%r13d, %ebx
	testb	%al, %al
	movl	%r13d, %ebp
	cmovnel	%r12d, %ebp
	cmovnel	%r15d, %ebx
	cmovnel	%r13d, %r15d
	testb	%cl, %cl
	movq	8(%rsp), %rax
	cmovnel	%eax, %ebp
	leaq	(%r14,%rbx,8), %rdi
	movq	(%r14,%rbp,8), %rsi
	cmovnel	%r12d, %eax
	movq	%rax, %r12
	callq	"core::slice::sort::order::ByOrder::less::<#878f6745e8fab0b2>"
	movq	(%r14,%r12,8), %rcx
	movq	16(%rsp), %rdx
	movq	%rcx, 32(%rdx)
	leaq	32(%rdx), %rdi
	testb	%al, %al
	movl	%ebp, %eax
	cmovnel	%ebx, %eax
	movq	(%r14,%rax,8), %rax
	movq	%rax, 40(%rdx)
	cmovel	%ebx, %ebp
	movq	(%r14,%rbp,8), %rax
	movq	%rax, 48(%rdx)
	movq	%r14, 56(%rsp)
	movq	(%r14,%r15,8), %rax
	leaq	56(%rdx), %rbx
	movq	%rax, 56(%rdx)
	movq	%rdx, %rbp
	movq	40(%rsp), %rsi
	callq	"core::slice::sort::order::ByOrder::less::<#878f6745e8fab0b2>"
	movzbl	%al, %r12d
	movl	%r12d, %eax
	xorb	$1, %al
	movzbl	%al, %r14d
	movq	%r14, 8(%rsp)
	movq	%rbx, %rdi
	movq	48(%rsp), %rsi
	callq	"core::slice::sort::order::ByOrder::less::<#878f6745e8fab0b2>"
	movb	%al, 7(%rsp)
	movzbl	%al, %ebx
	movl	$4, %r15d
	subq	%rbx, %r15
	leaq	32(,%r12,8), %rdi
	addq	%rbp, %rdi
	movq	(%rbp,%r14,8), %rsi
	callq	"core::slice::sort::order::ByOrder::less::<#878f6745e8fab0b2>"
	movb	%al, 5(%rsp)
	movzbl	%al, %eax
	movq	%r12, 104(%rsp)
	leaq	(%r12,%rax), %r14
	addq	$4, %r14
	xorb	$1, %al
	movzbl	%al, %r13d
	addq	8(%rsp), %r13
	leaq	48(,%rbx,8), %rdi
	addq	%rbp, %rdi
	movq	-8(%rbp,%r15,8), %rsi
	callq	"core::slice::sort::order::ByOrder::less::<#878f6745e8fab0b2>"
	movb	%al, 6(%rsp)
	movzbl	%al, %eax
	movq	%r15, 112(%rsp)
	movq	%r15, %r12
	subq	%rax, %r12
	xorb	$1, %al
	movzbl	%al, %eax
	negq	%rax
	movq	%rbx, 120(%rsp)
	addq	%rax, %rbx
	addq	$7, %rbx
	leaq	(,%r14,8), %rdi
	addq	%rbp, %rdi
	movq	(%rbp,%r13,8), %rsi
	callq	"core::slice::sort::order::ByOrder::less::<#878f6745e8fab0b2>"
	movb	%al, 3(%rsp)
	movzbl	%al, %eax
	movq	%r14, 88(%rsp)
	leaq	(%rax,%r14), %r15
	xorb	$1, %al
	movzbl	%al, %eax
	movq	%r13, 80(%rsp)
	addq	%r13, %rax
	movq	%rax, %r14
	movq	%rax, 48(%rsp)
	leaq	-8(,%rbx,8), %rdi
	addq	%rbp, %rdi
	movq	-8(%rbp,%r12,8), %rsi
	callq	"core::slice::sort::order::ByOrder::less::<#878f6745e8fab0b2>"
	movb	%al, 4(%rsp)
	movzbl	%al, %eax
	movq	%r12, 96(%rsp)
	subq	%rax, %r12
	xorb	$1, %al
	movzbl	%al, %eax
	movq	%rbx, 72(%rsp)
	subq	%rax, %rbx
	leaq	(,%r15,8), %rdi
	addq	%rbp, %rdi
	movq	(%rbp,%r14,8), %rsi
	callq	"core::slice::sort::order::ByOrder::less::<#878f6745e8fab0b2>"
	movl	%eax, %r13d
	movzbl	%al, %r14d
	movq	%r15, 64(%rsp)
	addl	%r15d, %r14d
	leaq	-8(,%rbx,8), %rdi
	addq	%rbp, %rdi
	movq	-8(%rbp,%r12,8), %rsi
	callq	"core::slice::sort::order::ByOrder::less::<#878f6745e8fab0b2>"
	movq	48(%rsp), %r9
	movl	%eax, %ecx
	xorb	$1, %cl
	movzbl	%cl, %ecx
	movl	%ebx, %edx
	subl	%ecx, %edx
	cmpl	%edx, %r14d
	ja	2f
	movl	%r13d, %ecx
	xorb	$1, %cl
	movzbl	%cl, %ecx
	addq	%r9, %rcx
	movzbl	%al, %edx
	movq	%r12, %rsi
	subq	%rdx, %rsi
	cmpl	%esi, %ecx
	ja	2f
	movq	120(%rsp), %rdx
	addq	$7, %rdx
	movq	104(%rsp), %rsi
	leaq	4(%rsi), %rcx
	shll	$5, %esi
	cmpb	$0, 5(%rsp)
	movq	8(%rsp), %r8
	cmovnel	%ecx, %r8d
	movq	16(%rsp), %rdi
	movq	(%rdi,%rsi), %rcx
	movq	56(%rsp), %r14
	movq	%rcx, (%r14)
	movq	(%rdi,%r8,8), %rcx
	movq	%rcx, 8(%r14)
	cmpb	$0, 3(%rsp)
	movq	80(%rsp), %rcx
	cmovnel	88(%rsp), %ecx
	movq	(%rdi,%rcx,8), %rcx
	movq	%rcx, 16(%r14)
	testb	%r13b, %r13b
	cmovnel	64(%rsp), %r9d
	movq	(%rdi,%r9,8), %rcx
	movq	%rcx, 24(%r14)
	testb	%al, %al
	cmovnel	%r12d, %ebx
	leal	2040(,%rbx,8), %eax
	andl	$2040, %eax
	movq	(%rdi,%rax), %rax
	movq	%rax, 32(%r14)
	cmpb	$0, 4(%rsp)
	movq	72(%rsp), %rax
	cmovnel	96(%rsp), %eax
	leal	2040(,%rax,8), %eax
	andl	$2040, %eax
	movq	(%rdi,%rax), %rax
	movq	%rax, 40(%r14)
	cmpb	$0, 6(%rsp)
	cmovnel	112(%rsp), %edx
	leal	2040(,%rdx,8), %eax
	andl	$2040, %eax
	movq	(%rdi,%rax), %rax
	movq	%rax, 48(%r14)
	movzbl	7(%rsp), %eax
	xorb	$1, %al
	movzbl	%al, %eax
	shll	$5, %eax
	movq	24(%rdi,%rax), %rax
	movq	%rax, 56(%r14)
	movl	$8, %edx
	jmp	5f
1:
	movl	$1, %edx
	cmpq	$4, %rsi
	jb	8f
	movq	%rsi, 32(%rsp)
	movq	(%rax), %rcx
	movq	%rcx, 8(%rsp)
	movq	%rax, 24(%rsp)
	movq	8(%rax), %rax
	movq	%rax, 16(%rsp)
	leaq	8(%r14), %rdi
	movq	(%r14), %rsi
	callq	"core::slice::sort::order::ByOrder::less::<#878f6745e8fab0b2>"
	movl	%eax, %ebx
	leaq	24(%r14), %rdi
	movq	16(%r14), %rsi
	callq	"core::slice::sort::order::ByOrder::less::<#878f6745e8fab0b2>"
	movzbl	%al, %r13d
	leal	2(%r13), %r15d
	xorl	$3, %r13d
	leaq	(%r14,%r15,8), %rdi
	movzbl	%bl, %r12d
	xorb	$1, %bl
	movq	(%r14,%r12,8), %rsi
	callq	"core::slice::sort::order::ByOrder::less::<#878f6745e8fab0b2>"
	movb	%al, 40(%rsp)
	leaq	(%r14,%r13,8), %rdi
	movzbl	%bl, %ebp
	movq	(%r14,%rbp,8), %rsi
	callq	"core::slice::sort::order::ByOrder::less::<#878f6745e8fab0b2>"
	movzbl	40(%rsp), %edx
	testb	%dl, %dl
	movq	%r15, %rcx
	movl	%ecx, %ebx
	cmovnel	%ebp, %ebx
	testb	%al, %al
	movl	%ebp, %r15d
	cmovnel	%ecx, %r15d
	cmovnel	%r13d, %ebx
	cmovnel	%ebp, %r13d
	testb	%dl, %dl
	cmovnel	%r12d, %r15d
	leaq	(%r14,%rbx,8), %rdi
	movq	(%r14,%r15,8), %rsi
	cmovnel	%ecx, %r12d
	callq	"core::slice::sort::order::ByOrder::less::<#878f6745e8fab0b2>"
	movq	8(%rsp), %rdx
	movq	(%r14,%r12,8), %rcx
	testb	%al, %al
	movl	%r15d, %eax
	cmovnel	%ebx, %eax
	movq	%rcx, (%rdx)
	movq	(%r14,%rax,8), %rax
	cmovel	%ebx, %r15d
	movq	%rax, 8(%rdx)
	movq	(%r14,%r15,8), %rax
	movq	%rax, 16(%rdx)
	movq	(%r14,%r13,8), %rax
	movq	%rax, 24(%rdx)
	movq	%r14, %rax
	subq	%rdx, %rax
	cmpq	$31, %rax
	ja	6f
	movq	%rcx, (%r14)
	movq	8(%rdx), %rax
	movq	%rax, 8(%r14)
	movq	16(%rdx), %rax
	movq	%rax, 16(%r14)
	movq	24(%rdx), %rax
	movq	%rax, 24(%r14)
	jmp	7f
2:
	movq	56(%rsp), %r14
	movq	%r14, %rax
	movq	16(%rsp), %rdi
	subq	%rdi, %rax
	cmpq	$63, %rax
	ja	3f
	movq	40(%rsp), %rax
	movq	%rax, (%r14)
	movq	8(%rdi), %rax
	movq	%rax, 8(%r14)
	movq	16(%rdi), %rax
	movq	%rax, 16(%r14)
	movq	24(%rdi), %rax
	movq	%rax, 24(%r14)
	movq	32(%rdi), %rax
	movq	%rax, 32(%r14)
	movq	40(%rdi), %rax
	movq	%rax, 40(%r14)
	movq	48(%rdi), %rax
	movq	%rax, 48(%r14)
	movq	56(%rdi), %rax
	movq	%rax, 56(%r14)
	jmp	4f
3:
	movups	(%rdi), %xmm0
	movups	16(%rdi), %xmm1
	movups	32(%rdi), %xmm2
	movups	48(%rdi), %xmm3
	movups	%xmm3, 48(%r14)
	movups	%xmm2, 32(%r14)
	movups	%xmm1, 16(%r14)
	movups	%xmm0, (%r14)
4:
	movl	$4, %edx
5:
	movq	32(%rsp), %rsi
	movq	24(%rsp), %rax
	movq	%rdi, (%rax)
	movq	128(%rsp), %rcx
	movq	%rcx, 8(%rax)
	jmp	8f
6:
	movups	(%rdx), %xmm0
	movups	16(%rdx), %xmm1
	movups	%xmm1, 16(%r14)
	movups	%xmm0, (%r14)
7:
	movq	24(%rsp), %rax
	movq	%rdx, (%rax)
	movq	16(%rsp), %rcx
	movq	%rcx, 8(%rax)
	movl	$4, %edx
	movq	32(%rsp), %rsi
8:
	movq	%r14, %rdi
	addq	$136, %rsp
	popq	%rbx
	popq	%r12
	popq	%r13
	popq	%r14
	popq	%r15
	popq	%rbp
	jmp	"core::slice::sort::small::insert_from::<#cc3e8e382a4904f8>"
9:
	.size	"core::slice::sort::short::sort_half::<#cc3e8e382a4904f8>", 9b-"core::slice::sort::short::sort_half::<#cc3e8e382a4904f8>"

	.text
	.p2align	4
	.type	"core::slice::sort::short::sort_half::<#f98e8d76978ecc20>",@function
"core::slice::sort::short::sort_half::<#f98e8d76978ecc20>":
	pushq	%rbp
	pushq	%r15
	pushq	%r14
	pushq	%r13
	pushq	%r12
	pushq	%rbx
	subq	$184, %rsp
	movq	%rdx, %rax
	movq	%rdi, %r15
	cmpq	$8, %rsi
	movq	%rdi, (%rsp)
	jb	2f
	movq	%rsi, 24(%rsp)
	movq	(%rax), %rcx
	movq	%rcx, 8(%rsp)
	movq	%rax, 16(%rsp)
	movq	8(%rax), %rax
	movq	%rax, 176(%rsp)
	movq	32(%r15), %rdi
	movq	40(%r15), %rsi
	movq	(%r15), %rdx
	movq	8(%r15), %rcx
	cmpq	%rsi, %rcx
	movq	%rsi, %rax
	cmovbq	%rcx, %rax
	cmpq	$24, %rax
	movl	$24, %r8d
	cmovbq	%rax, %r8
	cmpq	$8, %rax
	jb	4f
	xorl	%eax, %eax
	.p2align	4
1:
	movq	(%rdi,%rax), %r9
	movq	(%rdx,%rax), %r10
	cmpq	%r10, %r9
	jne	6f
	addq	$8, %rax
	addq	$-8, %r8
	cmpq	$7, %r8
	ja	1b
	jmp	5f
2:
	movl	$1, %edx
	cmpq	$4, %rsi
	jb	95f
	movq	%rsi, 24(%rsp)
	movq	(%rax), %r12
	movq	%rax, 16(%rsp)
	movq	8(%rax), %rax
	movq	%rax, 8(%rsp)
	movq	32(%r15), %rdi
	movq	40(%r15), %rsi
	movq	(%r15), %rdx
	movq	8(%r15), %rcx
	cmpq	%rsi, %rcx
	movq	%rsi, %rax
	cmovbq	%rcx, %rax
	cmpq	$24, %rax
	movl	$24, %r8d
	cmovbq	%rax, %r8
	cmpq	$8, %rax
	jb	69f
	xorl	%eax, %eax
	.p2align	4
3:
	movq	(%rdi,%rax), %r9
	movq	(%rdx,%rax), %r10
	cmpq	%r10, %r9
	jne	71f
	addq	$8, %rax
	addq	$-8, %r8
	cmpq	$7, %r8
	ja	3b
	jmp	70f
4:
	xorl	%eax, %eax
5:
	addq	%rax, %rdi
	subq	%rax, %rsi
	addq	%rax, %rdx
	subq	%rax, %rcx
	callq	"core::cmp::slices::RefSliceOrd::cmp::<#914af4d8504a0b72>"
	testb	%al, %al
	sete	%bl
	jmp	7f
6:
	bswapq	%r10
	bswapq	%r9
	cmpq	%r10, %r9
	setb	%bl
7:
	movq	96(%r15), %rdi
	movq	104(%r15), %rsi
	movq	64(%r15), %rdx
	movq	72(%r15), %rcx
	cmpq	%rsi, %rcx
	movq	%rsi, %rax
	cmovbq	%rcx, %rax
	cmpq	$24, %rax
	movl	$24, %r8d
	cmovbq	%rax, %r8
	cmpq	$8, %rax
	jb	9f
	xorl	%eax, %eax
	.p2align	4
8:
	movq	(%rdi,%rax), %r9
	movq	(%rdx,%rax), %r10
	cmpq	%r10, %r9
	jne	11f
	addq	$8, %rax
	addq	$-8, %r8
	cmpq	$7, %r8
	ja	8b
	jmp	10f
9:
	xorl	%eax, %eax
10:
	addq	%rax, %rdi
	subq	%rax, %rsi
	addq	%rax, %rdx
	subq	%rax, %rcx
	callq	"core::cmp::slices::RefSliceOrd::cmp::<#914af4d8504a0b72>"
	testb	%al, %al
	sete	%al
	jmp	12f
11:
	bswapq	%r10
	bswapq	%r9
	cmpq	%r10, %r9
	setb	%al
12:
	movzbl	%bl, %ebx
	movl	%ebx, %ecx
	xorb	$1, %cl
	movzbl	%cl, %r12d
	movzbl	%al, %r14d
	leaq	2(%r14), %r13
	xorq	$3, %r14
	movl	%r13d, %eax
	shll	$5, %eax
	movl	%ebx, %ecx
	shll	$5, %ecx
	movq	(%r15,%rax), %rdi
	movq	8(%r15,%rax), %rsi
	movq	(%r15,%rcx), %rdx
	movq	8(%r15,%rcx), %rcx
	cmpq	%rsi, %rcx
	movq	%rsi, %rax
	cmovbq	%rcx, %rax
	cmpq	$24, %rax
	movl	$24, %r8d
	cmovbq	%rax, %r8
	cmpq	$8, %rax
	jb	14f
	xorl	%eax, %eax
	.p2align	4
13:
	movq	(%rdi,%rax), %r9
	movq	(%rdx,%rax), %r10
	cmpq	%r10, %r9
	jne	16f
	addq	$8, %rax
	addq	$-8, %r8
	cmpq	$7, %r8
	ja	13b
	jmp	15f
14:
	xorl	%eax, %eax
15:
	addq	%rax, %rdi
	subq	%rax, %rsi
	addq	%rax, %rdx
	subq	%rax, %rcx
	callq	"core::cmp::slices::RefSliceOrd::cmp::<#914af4d8504a0b72>"
	testb	%al, %al
	sete	%bpl
	jmp	17f
16:
	bswapq	%r10
	bswapq	%r9
	cmpq	%r10, %r9
	setb	%bpl
17:
	movl	%r14d, %eax
	shll	$5, %eax
	movl	%r12d, %ecx
	shll	$5, %ecx
	movq	(%r15,%rax), %rdi
	movq	8(%r15,%rax), %rsi
	movq	(%r15,%rcx), %rdx
	movq	8(%r15,%rcx), %rcx
	cmpq	%rsi, %rcx
	movq	%rsi, %rax
	cmovbq	%rcx, %rax
	cmpq	$24, %rax
	movl	$24, %r8d
	cmovbq	%rax, %r8
	cmpq	$8, %rax
	jb	19f
	xorl	%eax, %eax
	.p2align	4
18:
	movq	(%rdi,%rax), %r9
	movq	(%rdx,%rax), %r10
	cmpq	%r10, %r9
	jne	21f
	addq	$8, %rax
	addq	$-8, %r8
	cmpq	$7, %r8
	ja	18b
	jmp	20f
19:
	xorl	%eax, %eax
20:
	addq	%rax, %rdi
	subq	%rax, %rsi
	addq	%rax, %rdx
	subq	%rax, %rcx
	callq	"core::cmp::slices::RefSliceOrd::cmp::<#914af4d8504a0b72>"
	testb	%al, %al
	sete	%al
	jmp	22f
21:
	bswapq	%r10
	bswapq	%r9
	cmpq	%r10, %r9
	setb	%al
22:
	testb	%al, %al
	movq	%r12, %r15
	cmovneq	%r13, %r15
	testb	%bpl, %bpl
	cmovneq	%rbx, %r15
	cmovneq	%r13, %rbx
	cmovneq	%r12, %r13
	testb	%al, %al
	movq	%r14, %rbp
	cmovneq	%r12, %rbp
	cmovneq	%r14, %r13
	movl	%r13d, %eax
	shll	$5, %eax
	movl	%r15d, %ecx
	shll	$5, %ecx
	movq	(%rsp), %r8
	movq	(%r8,%rax), %rdi
	movq	8(%r8,%rax), %rsi
	movq	(%r8,%rcx), %rdx
	movq	8(%r8,%rcx), %rcx
	cmpq	%rsi, %rcx
	movq	%rsi, %rax
	cmovbq	%rcx, %rax
	cmpq	$24, %rax
	movl	$24, %r8d
	cmovbq	%rax, %r8
	cmpq	$8, %rax
	jb	24f
	xorl	%eax, %eax
	.p2align	4
23:
	movq	(%rdi,%rax), %r9
	movq	(%rdx,%rax), %r10
	cmpq	%r10, %r9
	jne	26f
	addq	$8, %rax
	addq	$-8, %r8
	cmpq	$7, %r8
	ja	23b
	jmp	25f
24:
	xorl	%eax, %eax
25:
	addq	%rax, %rdi
	subq	%rax, %rsi
	addq	%rax, %rdx
	subq	%rax, %rcx
	callq	"core::cmp::slices::RefSliceOrd::cmp::<#914af4d8504a0b72>"
	testb	%al, %al
	sete	%al
	jmp	27f
26:
	bswapq	%r10
	bswapq	%r9
	cmpq	%r10, %r9
	setb	%al
27:
	shll	$5, %ebx
	movq	(%rsp), %rcx
	movups	(%rcx,%rbx), %xmm0
	movups	16(%rcx,%rbx), %xmm1
	movq	8(%rsp), %rdx
	movups	%xmm0, (%rdx)
	movups	%xmm1, 16(%rdx)
	testb	%al, %al
	movl	%r15d, %eax
	cmovnel	%r13d, %eax
	cmovnel	%r15d, %r13d
	movq	%rcx, %r15
	shll	$5, %eax
	movups	(%rcx,%rax), %xmm0
	movups	16(%rcx,%rax), %xmm1
	movups	%xmm0, 32(%rdx)
	movups	%xmm1, 48(%rdx)
	shll	$5, %r13d
	movups	(%rcx,%r13), %xmm0
	movups	16(%rcx,%r13), %xmm1
	movups	%xmm1, 80(%rdx)
	movups	%xmm0, 64(%rdx)
	shll	$5, %ebp
	movups	(%rcx,%rbp), %xmm0
	movups	16(%rcx,%rbp), %xmm1
	movups	%xmm1, 112(%rdx)
	movups	%xmm0, 96(%rdx)
	movq	160(%rcx), %rdi
	movq	168(%rcx), %rsi
	movq	128(%rcx), %rdx
	movq	136(%rcx), %rcx
	cmpq	%rsi, %rcx
	movq	%rsi, %rax
	cmovbq	%rcx, %rax
	cmpq	$24, %rax
	movl	$24, %r8d
	cmovbq	%rax, %r8
	cmpq	$8, %rax
	jb	29f
	xorl	%eax, %eax
	.p2align	4
28:
	movq	(%rdi,%rax), %r9
	movq	(%rdx,%rax), %r10
	cmpq	%r10, %r9
	jne	31f
	addq	$8, %rax
	addq	$-8, %r8
	cmpq	$7, %r8
	ja	28b
	jmp	30f
29:
	xorl	%eax, %eax
30:
	addq	%rax, %rdi
	subq	%rax, %rsi
	addq	%rax, %rdx
	subq	%rax, %rcx
	callq	"core::cmp::slices::RefSliceOrd::cmp::<#914af4d8504a0b72>"
	testb	%al, %al
	sete	%bl
	jmp	32f
31:
	bswapq	%r10
	bswapq	%r9
	cmpq	%r10, %r9
	setb	%bl
32:
	movq	224(%r15), %rdi
	movq	232(%r15), %rsi
	movq	192(%r15), %rdx
	movq	200(%r15), %rcx
	cmpq	%rsi, %rcx
	movq	%rsi, %rax
	cmovbq	%rcx, %rax
	cmpq	$24, %rax
	movl	$24, %r8d
	cmovbq	%rax, %r8
	cmpq	$8, %rax
	jb	34f
	xorl	%eax, %eax
	.p2align	4
33:
	movq	(%rdi,%rax), %r9
	movq	(%rdx,%rax), %r10
	cmpq	%r10, %r9
	jne	36f
	addq	$8, %rax
	addq	$-8, %r8
	cmpq	$7, %r8
	ja	33b
	jmp	35f
34:
	xorl	%eax, %eax
35:
	addq	%rax, %rdi
	subq	%rax, %rsi
	addq	%rax, %rdx
	subq	%rax, %rcx
	callq	"core::cmp::slices::RefSliceOrd::cmp::<#914af4d8504a0b72>"
	testb	%al, %al
	sete	%al
	jmp	37f
36:
	bswapq	%r10
	bswapq	%r9
	cmpq	%r10, %r9
	setb	%al
37:
	movzbl	%bl, %ebp
	leaq	4(%rbp), %rbx
	xorq	$5, %rbp
	movzbl	%al, %r14d
	leaq	6(%r14), %r13
	xorq	$7, %r14
	movl	%r13d, %eax
	shll	$5, %eax
	movl	%ebx, %ecx
	shll	$5, %ecx
	movq	(%r15,%rax), %rdi
	movq	8(%r15,%rax), %rsi
	movq	(%r15,%rcx), %rdx
	movq	8(%r15,%rcx), %rcx
	cmpq	%rsi, %rcx
	movq	%rsi, %rax
	cmovbq	%rcx, %rax
	cmpq	$24, %rax
	movl	$24, %r8d
	cmovbq	%rax, %r8
	cmpq	$8, %rax
	jb	39f
	xorl	%eax, %eax
	.p2align	4
38:
	movq	(%rdi,%rax), %r9
	movq	(%rdx,%rax), %r10
	cmpq	%r10, %r9
	jne	41f
	addq	$8, %rax
	addq	$-8, %r8
	cmpq	$7, %r8
	ja	38b
	jmp	40f
39:
	xorl	%eax, %eax
40:
	addq	%rax, %rdi
	subq	%rax, %rsi
	addq	%rax, %rdx
	subq	%rax, %rcx
	callq	"core::cmp::slices::RefSliceOrd::cmp::<#914af4d8504a0b72>"
	testb	%al, %al
	sete	%r12b
	jmp	42f
41:
	bswapq	%r10
	bswapq	%r9
	cmpq	%r10, %r9
	setb	%r12b
42:
	movl	%r14d, %eax
	shll	$5, %eax
	movl	%ebp, %ecx
	shll	$5, %ecx
	movq	(%r15,%rax), %rdi
	movq	8(%r15,%rax), %rsi
	movq	(%r15,%rcx), %rdx
	movq	8(%r15,%rcx), %rcx
	cmpq	%rsi, %rcx
	movq	%rsi, %rax
	cmovbq	%rcx, %rax
	cmpq	$24, %rax
	movl	$24, %r8d
	cmovbq	%rax, %r8
	cmpq	$8, %rax
	jb	44f
	xorl	%eax, %eax
	.p2align	4
43:
	movq	(%rdi,%rax), %r9
	movq	(%rdx,%rax), %r10
	cmpq	%r10, %r9
	jne	46f
	addq	$8, %rax
	addq	$-8, %r8
	cmpq	$7, %r8
	ja	43b
	jmp	45f
44:
	xorl	%eax, %eax
45:
	addq	%rax, %rdi
	subq	%rax, %rsi
	addq	%rax, %rdx
	subq	%rax, %rcx
	callq	"core::cmp::slices::RefSliceOrd::cmp::<#914af4d8504a0b72>"
	testb	%al, %al
	sete	%al
	jmp	47f
46:
	bswapq	%r10
	bswapq	%r9
	cmpq	%r10, %r9
	setb	%al
47:
	testb	%al, %al
	movq	%rbp, %r15
	cmovneq	%r13, %r15
	testb	%r12b, %r12b
	cmovneq	%rbx, %r15
	cmovneq	%r13, %rbx
	cmovneq	%rbp, %r13
	testb	%al, %al
	cmoveq	%r14, %rbp
	cmovneq	%r14, %r13
	movl	%r13d, %eax
	shll	$5, %eax
	movl	%r15d, %ecx
	shll	$5, %ecx
	movq	(%rsp), %r8
	movq	(%r8,%rax), %rdi
	movq	8(%r8,%rax), %rsi
	movq	(%r8,%rcx), %rdx
	movq	8(%r8,%rcx), %rcx
	cmpq	%rsi, %rcx
	movq	%rsi, %rax
	cmovbq	%rcx, %rax
	cmpq	$24, %rax
	movl	$24, %r8d
	cmovbq	%rax, %r8
	cmpq	$8, %rax
	jb	49f
	xorl	%eax, %eax
	.p2align	4
48:
	movq	(%rdi,%rax), %r9
	movq	(%rdx,%rax), %r10
	cmpq	%r10, %r9
	jne	51f
	addq	$8, %rax
	addq	$-8, %r8
	cmpq	$7, %r8
	ja	48b
	jmp	50f
49:
	xorl	%eax, %eax
50:
	addq	%rax, %rdi
	subq	%rax, %rsi
	addq	%rax, %rdx
	subq	%rax, %rcx
	callq	"core::cmp::slices::RefSliceOrd::cmp::<#914af4d8504a0b72>"
	testb	%al, %al
	sete	%al
	jmp	52f
51:
	bswapq	%r10
	bswapq	%r9
	cmpq	%r10, %r9
	setb	%al
52:
	movq	(%rsp), %rcx
	leaq	32(%rcx), %rdx
	movq	%rdx, 64(%rsp)
	leaq	96(%rcx), %rdx
	movq	%rdx, 80(%rsp)
	leaq	64(%rcx), %rdx
	movq	%rdx, 72(%rsp)
	movq	8(%rsp), %r11
	leaq	32(%r11), %rdx
	movq	%rdx, 152(%rsp)
	leaq	64(%r11), %rdx
	movq	%rdx, 160(%rsp)
	leaq	96(%r11), %rdx
	movq	%rdx, 168(%rsp)
	leaq	160(%rcx), %rdx
	movq	%rdx, 96(%rsp)
	leaq	128(%rcx), %rdx
	movq	%rdx, 88(%rsp)
	leaq	224(%rcx), %rdx
	movq	%rdx, 112(%rsp)
	leaq	192(%rcx), %rdx
	movq	%rdx, 104(%rsp)
	shll	$5, %ebx
	movups	(%rcx,%rbx), %xmm0
	movups	16(%rcx,%rbx), %xmm1
	leaq	128(%r11), %rdx
	movq	%rdx, 144(%rsp)
	movups	%xmm0, 128(%r11)
	movups	%xmm1, 144(%r11)
	testb	%al, %al
	movl	%r15d, %eax
	cmovnel	%r13d, %eax
	cmovnel	%r15d, %r13d
	shll	$5, %eax
	leaq	160(%r11), %rdx
	movq	%rdx, 136(%rsp)
	movups	(%rcx,%rax), %xmm0
	movups	16(%rcx,%rax), %xmm1
	movups	%xmm0, 160(%r11)
	movups	%xmm1, 176(%r11)
	shll	$5, %r13d
	leaq	192(%r11), %rax
	movq	%rax, 128(%rsp)
	movups	(%rcx,%r13), %xmm0
	movups	16(%rcx,%r13), %xmm1
	movups	%xmm1, 208(%r11)
	movups	%xmm0, 192(%r11)
	shll	$5, %ebp
	leaq	224(%r11), %rax
	movq	%rax, 120(%rsp)
	movups	(%rcx,%rbp), %xmm0
	movups	16(%rcx,%rbp), %xmm1
	movups	%xmm1, 240(%r11)
	movups	%xmm0, 224(%r11)
	xorps	%xmm0, %xmm0
	movaps	%xmm0, 48(%rsp)
	movaps	%xmm0, 32(%rsp)
	movl	$8, %r13d
	movl	$4, %ebp
	xorl	%ebx, %ebx
	movl	$4, %r15d
	xorl	%r14d, %r14d
	jmp	55f
	.p2align	4
53:
	bswapq	%r10
	bswapq	%r9
	cmpq	%r10, %r9
	setb	%al
54:
	movzbl	%r12b, %ecx
	addq	%rcx, %r15
	xorb	$1, %r12b
	movzbl	%r12b, %ecx
	addq	%rcx, %rbx
	testb	%al, %al
	movl	%r13d, %ecx
	cmovnel	%ebp, %ecx
	decb	%cl
	movq	%r14, %rdx
	notq	%rdx
	movb	%cl, 40(%rsp,%rdx)
	movzbl	%al, %eax
	subq	%rax, %rbp
	xorb	$1, %al
	movzbl	%al, %eax
	subq	%rax, %r13
	incq	%r14
	cmpq	$4, %r14
	je	64f
55:
	movq	%r15, %rax
	shlq	$5, %rax
	movq	%rbx, %rcx
	shlq	$5, %rcx
	movq	(%r11,%rax), %rdi
	movq	8(%r11,%rax), %rsi
	movq	(%r11,%rcx), %rdx
	movq	8(%r11,%rcx), %rcx
	cmpq	%rsi, %rcx
	movq	%rsi, %rax
	cmovbq	%rcx, %rax
	cmpq	$24, %rax
	movl	$24, %r8d
	cmovbq	%rax, %r8
	cmpq	$8, %rax
	jb	57f
	xorl	%eax, %eax
	.p2align	4
56:
	movq	(%rdi,%rax), %r9
	movq	(%rdx,%rax), %r10
	cmpq	%r10, %r9
	jne	59f
	addq	$8, %rax
	addq	$-8, %r8
	cmpq	$7, %r8
	ja	56b
	jmp	58f
	.p2align	4
57:
	xorl	%eax, %eax
58:
	addq	%rax, %rdi
	subq	%rax, %rsi
	addq	%rax, %rdx
	subq	%rax, %rcx
	callq	"core::cmp::slices::RefSliceOrd::cmp::<#914af4d8504a0b72>"
	movq	8(%rsp), %r11
	testb	%al, %al
	sete	%r12b
	jmp	60f
	.p2align	4
59:
	bswapq	%r10
	bswapq	%r9
	cmpq	%r10, %r9
	setb	%r12b
60:
	testb	%r12b, %r12b
	movl	%ebx, %eax
	cmovnel	%r15d, %eax
	movb	%al, 32(%rsp,%r14)
	movq	%r13, %rax
	shlq	$5, %rax
	movq	%rbp, %rcx
	shlq	$5, %rcx
	movq	-32(%r11,%rax), %rdi
	movq	-24(%r11,%rax), %rsi
	movq	-32(%r11,%rcx), %rdx
	movq	-24(%r11,%rcx), %rcx
	cmpq	%rsi, %rcx
	movq	%rsi, %rax
	cmovbq	%rcx, %rax
	cmpq	$24, %rax
	movl	$24, %r8d
	cmovbq	%rax, %r8
	cmpq	$8, %rax
	jb	62f
	xorl	%eax, %eax
	.p2align	4
61:
	movq	(%rdi,%rax), %r9
	movq	(%rdx,%rax), %r10
	cmpq	%r10, %r9
	jne	53b
	addq	$8, %rax
	addq	$-8, %r8
	cmpq	$7, %r8
	ja	61b
	jmp	63f
	.p2align	4
62:
	xorl	%eax, %eax
63:
	addq	%rax, %rdi
	subq	%rax, %rsi
	addq	%rax, %rdx
	subq	%rax, %rcx
	callq	"core::cmp::slices::RefSliceOrd::cmp::<#914af4d8504a0b72>"
	movq	8(%rsp), %r11
	testb	%al, %al
	sete	%al
	jmp	54b
64:
	cmpq	%r13, %r15
	ja	65f
	cmpq	%rbp, %rbx
	ja	65f
	movzbl	32(%rsp), %eax
	shll	$5, %eax
	movups	(%r11,%rax), %xmm0
	movups	16(%r11,%rax), %xmm1
	movq	(%rsp), %r15
	movups	%xmm1, 16(%r15)
	movups	%xmm0, (%r15)
	movzbl	33(%rsp), %eax
	shll	$5, %eax
	movups	(%r11,%rax), %xmm0
	movups	16(%r11,%rax), %xmm1
	movq	64(%rsp), %rax
	movups	%xmm1, 16(%rax)
	movups	%xmm0, (%rax)
	movzbl	34(%rsp), %eax
	shll	$5, %eax
	movups	(%r11,%rax), %xmm0
	movups	16(%r11,%rax), %xmm1
	movq	72(%rsp), %rax
	movups	%xmm1, 16(%rax)
	movups	%xmm0, (%rax)
	movzbl	35(%rsp), %eax
	shll	$5, %eax
	movups	(%r11,%rax), %xmm0
	movups	16(%r11,%rax), %xmm1
	movq	80(%rsp), %rax
	movups	%xmm1, 16(%rax)
	movups	%xmm0, (%rax)
	movzbl	36(%rsp), %eax
	shll	$5, %eax
	movups	(%r11,%rax), %xmm0
	movups	16(%r11,%rax), %xmm1
	movq	88(%rsp), %rax
	movups	%xmm1, 16(%rax)
	movups	%xmm0, (%rax)
	movzbl	37(%rsp), %eax
	shll	$5, %eax
	movups	(%r11,%rax), %xmm0
	movups	16(%r11,%rax), %xmm1
	movq	96(%rsp), %rax
	movups	%xmm1, 16(%rax)
	movups	%xmm0, (%rax)
	movzbl	38(%rsp), %eax
	shll	$5, %eax
	movups	(%r11,%rax), %xmm0
	movups	16(%r11,%rax), %xmm1
	movq	104(%rsp), %rax
	movups	%xmm1, 16(%rax)
	movups	%xmm0, (%rax)
	movzbl	39(%rsp), %eax
	shll	$5, %eax
	movups	(%r11,%rax), %xmm0
	movups	16(%r11,%rax), %xmm1
	movq	112(%rsp), %rax
	movups	%xmm1, 16(%rax)
	movups	%xmm0, (%rax)
	movl	$8, %edx
	jmp	68f
65:
	movq	(%rsp), %r15
	movq	%r15, %rax
	subq	%r11, %rax
	cmpq	$255, %rax
	ja	66f
	movups	(%r11), %xmm0
	movups	16(%r11), %xmm1
	movups	%xmm1, 16(%r15)
	movups	%xmm0, (%r15)
	movq	152(%rsp), %rax
	movups	(%rax), %xmm0
	movups	16(%rax), %xmm1
	movq	64(%rsp), %rax
	movups	%xmm1, 16(%rax)
	movups	%xmm0, (%rax)
	movq	160(%rsp), %rax
	movups	(%rax), %xmm0
	movups	16(%rax), %xmm1
	movq	72(%rsp), %rax
	movups	%xmm1, 16(%rax)
	movups	%xmm0, (%rax)
	movq	168(%rsp), %rax
	movups	(%rax), %xmm0
	movups	16(%rax), %xmm1
	movq	80(%rsp), %rax
	movups	%xmm1, 16(%rax)
	movups	%xmm0, (%rax)
	movq	144(%rsp), %rax
	movups	(%rax), %xmm0
	movups	16(%rax), %xmm1
	movq	88(%rsp), %rax
	movups	%xmm1, 16(%rax)
	movups	%xmm0, (%rax)
	movq	136(%rsp), %rax
	movups	(%rax), %xmm0
	movups	16(%rax), %xmm1
	movq	96(%rsp), %rax
	movups	%xmm1, 16(%rax)
	movups	%xmm0, (%rax)
	movq	128(%rsp), %rax
	movups	(%rax), %xmm0
	movups	16(%rax), %xmm1
	movq	104(%rsp), %rax
	movups	%xmm1, 16(%rax)
	movups	%xmm0, (%rax)
	movq	120(%rsp), %rax
	movups	(%rax), %xmm0
	movups	16(%rax), %xmm1
	movq	112(%rsp), %rax
	movups	%xmm1, 16(%rax)
	movups	%xmm0, (%rax)
	jmp	67f
66:
	movl	$256, %edx
	movq	%r15, %rdi
	movq	%r11, %rsi
	callq	memmove@PLT
	movq	8(%rsp), %r11
67:
	movl	$4, %edx
68:
	movq	24(%rsp), %rsi
	movq	16(%rsp), %rax
	movq	%r11, (%rax)
	movq	176(%rsp), %rcx
	movq	%rcx, 8(%rax)
	jmp	95f
69:
	xorl	%eax, %eax
70:
	addq	%rax, %rdi
	subq	%rax, %rsi
	addq	%rax, %rdx
	subq	%rax, %rcx
	callq	"core::cmp::slices::RefSliceOrd::cmp::<#914af4d8504a0b72>"
	testb	%al, %al
	sete	%bl
	jmp	72f
71:
	bswapq	%r10
	bswapq	%r9
	cmpq	%r10, %r9
	setb	%bl
72:
	movq	96(%r15), %rdi
	movq	104(%r15), %rsi
	movq	64(%r15), %rdx
	movq	72(%r15), %rcx
	cmpq	%rsi, %rcx
	movq	%rsi, %rax
	cmovbq	%rcx, %rax
	cmpq	$24, %rax
	movl	$24, %r8d
	cmovbq	%rax, %r8
	cmpq	$8, %rax
	jb	74f
	xorl	%eax, %eax
	.p2align	4
73:
	movq	(%rdi,%rax), %r9
	movq	(%rdx,%rax), %r10
	cmpq	%r10, %r9
	jne	76f
	addq	$8, %rax
	addq	$-8, %r8
	cmpq	$7, %r8
	ja	73b
	jmp	75f
74:
	xorl	%eax, %eax
75:
	addq	%rax, %rdi
	subq	%rax, %rsi
	addq	%rax, %rdx
	subq	%rax, %rcx
	callq	"core::cmp::slices::RefSliceOrd::cmp::<#914af4d8504a0b72>"
	testb	%al, %al
	sete	%al
	jmp	77f
76:
	bswapq	%r10
	bswapq	%r9
	cmpq	%r10, %r9
	setb	%al
77:
	movzbl	%bl, %ebx
	movl	%ebx, %ecx
	xorb	$1, %cl
	movzbl	%cl, %r11d
	movzbl	%al, %r13d
	leaq	2(%r13), %rbp
	xorq	$3, %r13
	movl	%ebp, %eax
	shll	$5, %eax
	movl	%ebx, %ecx
	shll	$5, %ecx
	movq	(%r15,%rax), %rdi
	movq	8(%r15,%rax), %rsi
	movq	(%r15,%rcx), %rdx
	movq	8(%r15,%rcx), %rcx
	cmpq	%rsi, %rcx
	movq	%rsi, %rax
	cmovbq	%rcx, %rax
	cmpq	$24, %rax
	movl	$24, %r8d
	cmovbq	%rax, %r8
	cmpq	$8, %rax
	jb	79f
	xorl	%eax, %eax
	.p2align	4
78:
	movq	(%rdi,%rax), %r9
	movq	(%rdx,%rax), %r10
	cmpq	%r10, %r9
	jne	81f
	addq	$8, %rax
	addq	$-8, %r8
	cmpq	$7, %r8
	ja	78b
	jmp	80f
79:
	xorl	%eax, %eax
80:
	addq	%rax, %rdi
	subq	%rax, %rsi
	addq	%rax, %rdx
	subq	%rax, %rcx
	movq	%r11, %r14
	callq	"core::cmp::slices::RefSliceOrd::cmp::<#914af4d8504a0b72>"
	movq	%r14, %r11
	testb	%al, %al
	sete	%r14b
	jmp	82f
81:
	bswapq	%r10
	bswapq	%r9
	cmpq	%r10, %r9
	setb	%r14b
82:
	movl	%r13d, %eax
	shll	$5, %eax
	movl	%r11d, %ecx
	shll	$5, %ecx
	movq	(%r15,%rax), %rdi
	movq	8(%r15,%rax), %rsi
	movq	(%r15,%rcx), %rdx
	movq	8(%r15,%rcx), %rcx
	cmpq	%rsi, %rcx
	movq	%rsi, %rax
	cmovbq	%rcx, %rax
	cmpq	$24, %rax
	movl	$24, %r8d
	cmovbq	%rax, %r8
	cmpq	$8, %rax
	jb	84f
	xorl	%eax, %eax
	.p2align	4
83:
	movq	(%rdi,%rax), %r9
	movq	(%rdx,%rax), %r10
	cmpq	%r10, %r9
	jne	86f
	addq	$8, %rax
	addq	$-8, %r8
	cmpq	$7, %r8
	ja	83b
	jmp	85f
84:
	xorl	%eax, %eax
85:
	addq	%rax, %rdi
	subq	%rax, %rsi
	addq	%rax, %rdx
	subq	%rax, %rcx
	movq	%r11, %r15
	callq	"core::cmp::slices::RefSliceOrd::cmp::<#914af4d8504a0b72>"
	movq	%r15, %r11
	testb	%al, %al
	sete	%al
	jmp	87f
86:
	bswapq	%r10
	bswapq	%r9
	cmpq	%r10, %r9
	setb	%al
87:
	testb	%al, %al
	movq	%r11, %r15
	cmovneq	%rbp, %r15
	testb	%r14b, %r14b
	cmovneq	%rbx, %r15
	cmovneq	%rbp, %rbx
	cmovneq	%r11, %rbp
	testb	%al, %al
	movq	%r13, %r14
	cmovneq	%r11, %r14
	cmovneq	%r13, %rbp
	movl	%ebp, %eax
	shll	$5, %eax
	movl	%r15d, %ecx
	shll	$5, %ecx
	movq	(%rsp), %r8
	movq	(%r8,%rax), %rdi
	movq	8(%r8,%rax), %rsi
	movq	(%r8,%rcx), %rdx
	movq	8(%r8,%rcx), %rcx
	cmpq	%rsi, %rcx
	movq	%rsi, %rax
	cmovbq	%rcx, %rax
	cmpq	$24, %rax
	movl	$24, %r8d
	cmovbq	%rax, %r8
	cmpq	$8, %rax
	jb	89f
	xorl	%eax, %eax
	.p2align	4
88:
	movq	(%rdi,%rax), %r9
	movq	(%rdx,%rax), %r10
	cmpq	%r10, %r9
	jne	91f
	addq	$8, %rax
	addq	$-8, %r8
	cmpq	$7, %r8
	ja	88b
	jmp	90f
89:
	xorl	%eax, %eax
90:
	addq	%rax, %rdi
	subq	%rax, %rsi
	addq	%rax, %rdx
	subq	%rax, %rcx
	callq	"core::cmp::slices::RefSliceOrd::cmp::<#914af4d8504a0b72>"
	testb	%al, %al
	sete	%al
	jmp	92f
91:
	bswapq	%r10
	bswapq	%r9
	cmpq	%r10, %r9
	setb	%al
92:
	shll	$5, %ebx
	movq	(%rsp), %rcx
	movups	(%rcx,%rbx), %xmm0
	movups	16(%rcx,%rbx), %xmm1
	movups	%xmm0, (%r12)
	movups	%xmm1, 16(%r12)
	testb	%al, %al
	movl	%r15d, %eax
	cmovnel	%ebp, %eax
	cmovnel	%r15d, %ebp
	movq	%rcx, %r15
	shll	$5, %eax
	movups	(%rcx,%rax), %xmm0
	movups	16(%rcx,%rax), %xmm1
	movups	%xmm0, 32(%r12)
	movups	%xmm1, 48(%r12)
	shll	$5, %ebp
	movups	(%rcx,%rbp), %xmm0
	movups	16(%rcx,%rbp), %xmm1
	movups	%xmm1, 80(%r12)
	movups	%xmm0, 64(%r12)
	shll	$5, %r14d
	movups	(%rcx,%r14), %xmm0
	movups	16(%rcx,%r14), %xmm1
	movups	%xmm1, 112(%r12)
	movups	%xmm0, 96(%r12)
	movq	%rcx, %rax
	subq	%r12, %rax
	cmpq	$127, %rax
	ja	93f
	leaq	32(%r15), %rax
	leaq	96(%r15), %rcx
	leaq	64(%r15), %rdx
	leaq	32(%r12), %rsi
	leaq	64(%r12), %rdi
	leaq	96(%r12), %r8
	movups	(%r12), %xmm0
	movups	16(%r12), %xmm1
	movups	%xmm1, 16(%r15)
	movups	%xmm0, (%r15)
	movups	(%rsi), %xmm0
	movups	16(%rsi), %xmm1
	movups	%xmm1, 16(%rax)
	movups	%xmm0, (%rax)
	movups	(%rdi), %xmm0
	movups	16(%rdi), %xmm1
	movups	%xmm1, 16(%rdx)
	movups	%xmm0, (%rdx)
	movups	(%r8), %xmm0
	movups	16(%r8), %xmm1
	movups	%xmm1, 16(%rcx)
	movups	%xmm0, (%rcx)
	jmp	94f
93:
	movups	(%r12), %xmm0
	movups	16(%r12), %xmm1
	movups	32(%r12), %xmm2
	movups	48(%r12), %xmm3
	movups	64(%r12), %xmm4
	movups	80(%r12), %xmm5
	movups	96(%r12), %xmm6
	movups	112(%r12), %xmm7
	movups	%xmm7, 112(%r15)
	movups	%xmm6, 96(%r15)
	movups	%xmm5, 80(%r15)
	movups	%xmm4, 64(%r15)
	movups	%xmm3, 48(%r15)
	movups	%xmm2, 32(%r15)
	movups	%xmm1, 16(%r15)
	movups	%xmm0, (%r15)
94:
	movq	24(%rsp), %rsi
	movq	16(%rsp), %rax
	movq	%r12, (%rax)
	movq	8(%rsp), %rcx
	movq	%rcx, 8(%rax)
	movl	$4, %edx
95:
	movq	%r15, %rdi
	addq	$184, %rsp
	popq	%rbx
	popq	%r12
	popq	%r13
	popq	%r14
	popq	%r15
	popq	%rbp
	jmp	"core::slice::sort::small::insert_from::<#f98e8d76978ecc20>"
96:
	.size	"core::slice::sort::short::sort_half::<#f98e8d76978ecc20>", 96b-"core::slice::sort::short::sort_half::<#f98e8d76978ecc20>"

	.text
	.p2align	4
	.type	"core::slice::sort::slice+T::sort_unstable::<#17f159365526a5ba>",@function
"core::slice::sort::slice+T::sort_unstable::<#17f159365526a5ba>":
	movq	%rsi, %rdx
	cmpq	$20, %rsi
	ja	7f
	cmpq	$2, %rdx
	jb	13f
	movl	$1, %eax
	jmp	4f
1:
	xorl	%esi, %esi
2:
	movq	%rcx, (%rdi,%rsi)
3:
	incq	%rax
	cmpq	%rdx, %rax
	je	13f
4:
	movq	-8(%rdi,%rax,8), %r8
	movq	(%rdi,%rax,8), %rcx
	cmpq	%r8, %rcx
	jae	3b
	movq	%rax, %rsi
	movq	%r8, (%rdi,%rax,8)
	decq	%rsi
	je	1b
	.p2align	4
5:
	movq	-8(%rdi,%rsi,8), %r8
	cmpq	%r8, %rcx
	jae	6f
	movq	%r8, (%rdi,%rsi,8)
	decq	%rsi
	jne	5b
	xorl	%esi, %esi
6:
	shlq	$3, %rsi
	jmp	2b
7:
	movq	(%rdi), %rax
	movq	8(%rdi), %rcx
	movl	$2, %esi
	cmpq	%rax, %rcx
	jae	9f
	.p2align	4
8:
	movq	(%rdi,%rsi,8), %r8
	cmpq	-8(%rdi,%rsi,8), %r8
	jae	10f
	incq	%rsi
	cmpq	%rsi, %rdx
	jne	8b
	jmp	12f
	.p2align	4
9:
	movq	(%rdi,%rsi,8), %r8
	cmpq	-8(%rdi,%rsi,8), %r8
	jb	10f
	incq	%rsi
	cmpq	%rsi, %rdx
	jne	9b
	jmp	13f
10:
	cmpq	%rdx, %rsi
	jae	11f
	bsrq	%rdx, %rcx
	xorl	$63, %ecx
	addl	%ecx, %ecx
	xorl	$126, %ecx
	xorl	%esi, %esi
	jmp	"core::slice::sort::unstable::quicksort::<#7ab9c65c4fe95e6e>"
11:
	cmpq	%rax, %rcx
	jae	13f
12:
	movq	%rdx, %rcx
	shrq	%rcx
	subq	%rcx, %rdx
	leaq	(%rdi,%rdx,8), %rdx
	xorl	%esi, %esi
	jmp	"core::slice::edits::mirror::<i64>"
13:
	retq
14:
	.size	"core::slice::sort::slice+T::sort_unstable::<#17f159365526a5ba>", 14b-"core::slice::sort::slice+T::sort_unstable::<#17f159365526a5ba>"

	.text
	.p2align	4
	.type	"core::slice::sort::small::insert_from::<#32fabb223415b920>",@function
"core::slice::sort::small::insert_from::<#32fabb223415b920>":
	pushq	%rbp
	pushq	%r15
	pushq	%r14
	pushq	%r13
	pushq	%r12
	pushq	%rbx
	subq	$40, %rsp
	movq	%rsi, 8(%rsp)
	cmpq	%rsi, %rdx
	jae	19f
	movq	%rdx, %rbx
	movq	%rdi, %r15
	jmp	4f
1:
	xorl	%eax, %eax
2:
	movq	%rbp, (%r15,%rax)
	movq	%r12, 8(%r15,%rax)
	movq	%r13, 16(%r15,%rax)
	movdqa	16(%rsp), %xmm0
	movdqu	%xmm0, 24(%r15,%rax)
3:
	incq	%rbx
	cmpq	8(%rsp), %rbx
	je	19f
4:
	leaq	(%rbx,%rbx,4), %rcx
	leaq	(%r15,%rcx,8), %r14
	movq	-40(%r15,%rcx,8), %rax
	movq	(%r15,%rcx,8), %rbp
	cmpq	%rax, %rbp
	jne	5f
	movq	8(%r14), %r12
	movq	16(%r14), %r13
	movq	-32(%r14), %rdx
	movq	-24(%r14), %rcx
	movq	%r12, %rdi
	movq	%r13, %rsi
	callq	"core::cmp::slices::RefSliceOrd::cmp::<#914af4d8504a0b72>"
	testb	%al, %al
	jne	3b
	jmp	6f
	.p2align	4
5:
	bswapq	%rax
	movq	%rbp, %rcx
	bswapq	%rcx
	cmpq	%rax, %rcx
	jae	3b
	movq	8(%r14), %r12
	movq	16(%r14), %r13
6:
	movq	%rbx, %rax
	movups	24(%r14), %xmm0
	movaps	%xmm0, 16(%rsp)
	movdqu	-40(%r14), %xmm0
	movdqu	-24(%r14), %xmm1
	movdqu	%xmm0, (%r14)
	movq	-8(%r14), %rcx
	movq	%rcx, 32(%r14)
	movdqu	%xmm1, 16(%r14)
	decq	%rax
	je	1b
	movq	%rbp, %rdx
	bswapq	%rdx
	jmp	9f
	.p2align	4
7:
	bswapq	%rdi
	cmpq	%rdi, %rdx
	jae	18f
8:
	leaq	(%rcx,%rcx,4), %rcx
	movq	32(%rsi), %rdi
	movq	%rdi, 32(%r15,%rcx,8)
	movdqu	(%rsi), %xmm0
	movdqu	16(%rsi), %xmm1
	movdqu	%xmm1, 16(%r15,%rcx,8)
	movdqu	%xmm0, (%r15,%rcx,8)
	testq	%rax, %rax
	je	17f
9:
	movq	%rax, %rcx
	decq	%rax
	leaq	(%rax,%rax,4), %rdi
	leaq	(%r15,%rdi,8), %rsi
	movq	(%r15,%rdi,8), %rdi
	cmpq	%rdi, %rbp
	jne	7b
	movq	8(%rsi), %r8
	movq	16(%rsi), %rdi
	cmpq	%r13, %rdi
	movq	%r13, %r9
	cmovbq	%rdi, %r9
	xorl	%r10d, %r10d
	cmpq	$64, %r9
	jb	11f
	movq	%r9, %r11
	.p2align	4
10:
	movdqu	(%r12,%r10), %xmm0
	movdqu	16(%r12,%r10), %xmm1
	movdqu	32(%r12,%r10), %xmm2
	movdqu	48(%r12,%r10), %xmm3
	movdqu	(%r8,%r10), %xmm4
	pcmpeqb	%xmm0, %xmm4
	movdqu	16(%r8,%r10), %xmm0
	pcmpeqb	%xmm1, %xmm0
	movdqu	32(%r8,%r10), %xmm1
	pcmpeqb	%xmm2, %xmm1
	pand	%xmm4, %xmm1
	movdqu	48(%r8,%r10), %xmm2
	pcmpeqb	%xmm3, %xmm2
	pand	%xmm0, %xmm2
	pand	%xmm1, %xmm2
	pmovmskb	%xmm2, %r14d
	cmpl	$65535, %r14d
	jne	11f
	addq	$64, %r10
	addq	$-64, %r11
	cmpq	$63, %r11
	ja	10b
11:
	movq	%r9, %r11
	subq	%r10, %r11
	cmpq	$8, %r11
	jb	13f
	.p2align	4
12:
	movq	(%r12,%r10), %r14
	cmpq	(%r8,%r10), %r14
	jne	13f
	addq	$8, %r10
	addq	$-8, %r11
	cmpq	$7, %r11
	ja	12b
13:
	cmpq	%r9, %r10
	jae	15f
	.p2align	4
14:
	movzbl	(%r8,%r10), %r11d
	cmpb	%r11b, (%r12,%r10)
	jne	16f
	incq	%r10
	cmpq	%r10, %r9
	jne	14b
15:
	cmpq	%rdi, %r13
16:
	jb	8b
	jmp	18f
17:
	xorl	%ecx, %ecx
18:
	shlq	$3, %rcx
	leaq	(%rcx,%rcx,4), %rax
	jmp	2b
19:
	addq	$40, %rsp
	popq	%rbx
	popq	%r12
	popq	%r13
	popq	%r14
	popq	%r15
	popq	%rbp
	retq
20:
	.size	"core::slice::sort::small::insert_from::<#32fabb223415b920>", 20b-"core::slice::sort::small::insert_from::<#32fabb223415b920>"

	.text
	.p2align	4
	.type	"core::slice::sort::small::insert_from::<#b4bd7111e818b46c>",@function
"core::slice::sort::small::insert_from::<#b4bd7111e818b46c>":
	pushq	%rbp
	pushq	%r15
	pushq	%r14
	pushq	%r13
	pushq	%r12
	pushq	%rbx
	subq	$40, %rsp
	movq	%rsi, (%rsp)
	cmpq	%rsi, %rdx
	jae	16f
	movq	%rdx, %r13
	movq	%rdi, %r15
	jmp	4f
1:
	xorl	%ebp, %ebp
	movq	%rax, %rbx
2:
	movq	%r12, (%r15,%rbp)
	movq	%rbx, 8(%r15,%rbp)
	movdqa	16(%rsp), %xmm0
	movdqu	%xmm0, 16(%r15,%rbp)
3:
	incq	%r13
	cmpq	(%rsp), %r13
	je	16f
4:
	movq	%r13, %rbx
	shlq	$5, %rbx
	leaq	-1(%r13), %rbp
	movq	%rbp, %r14
	shlq	$5, %r14
	movq	(%r15,%rbx), %r12
	movq	8(%r15,%rbx), %rsi
	movq	(%r15,%r14), %rdx
	movq	8(%r15,%r14), %rcx
	movq	%r12, %rdi
	movq	%rsi, 8(%rsp)
	callq	"core::cmp::slices::RefSliceOrd::cmp::<#914af4d8504a0b72>"
	testb	%al, %al
	jne	3b
	movq	8(%rsp), %rax
	addq	%r15, %rbx
	addq	%r15, %r14
	movups	16(%rbx), %xmm0
	movaps	%xmm0, 16(%rsp)
	movdqu	(%r14), %xmm0
	movdqu	16(%r14), %xmm1
	movdqu	%xmm0, (%rbx)
	movdqu	%xmm1, 16(%rbx)
	testq	%rbp, %rbp
	je	1b
	movq	%rax, %rbx
	jmp	7f
	.p2align	4
5:
	cmpq	%rdx, %rbx
	jae	15f
6:
	addq	%r15, %rcx
	shlq	$5, %rbp
	movdqu	(%rcx), %xmm0
	movdqu	16(%rcx), %xmm1
	movdqu	%xmm1, 16(%r15,%rbp)
	movdqu	%xmm0, (%r15,%rbp)
	movq	%rax, %rbp
	testq	%rax, %rax
	je	14f
7:
	leaq	-1(%rbp), %rax
	movq	%rax, %rcx
	shlq	$5, %rcx
	movq	(%r15,%rcx), %rsi
	movq	8(%r15,%rcx), %rdx
	cmpq	%rbx, %rdx
	movq	%rbx, %rdi
	cmovbq	%rdx, %rdi
	xorl	%r8d, %r8d
	cmpq	$64, %rdi
	jb	9f
	movq	%rdi, %r9
	.p2align	4
8:
	movdqu	(%r12,%r8), %xmm0
	movdqu	16(%r12,%r8), %xmm1
	movdqu	32(%r12,%r8), %xmm2
	movdqu	48(%r12,%r8), %xmm3
	movdqu	(%rsi,%r8), %xmm4
	pcmpeqb	%xmm0, %xmm4
	movdqu	16(%rsi,%r8), %xmm0
	pcmpeqb	%xmm1, %xmm0
	movdqu	32(%rsi,%r8), %xmm1
	pcmpeqb	%xmm2, %xmm1
	pand	%xmm4, %xmm1
	movdqu	48(%rsi,%r8), %xmm2
	pcmpeqb	%xmm3, %xmm2
	pand	%xmm0, %xmm2
	pand	%xmm1, %xmm2
	pmovmskb	%xmm2, %r10d
	cmpl	$65535, %r10d
	jne	9f
	addq	$64, %r8
	addq	$-64, %r9
	cmpq	$63, %r9
	ja	8b
9:
	movq	%rdi, %r9
	subq	%r8, %r9
	cmpq	$8, %r9
	jb	11f
	.p2align	4
10:
	movq	(%r12,%r8), %r10
	cmpq	(%rsi,%r8), %r10
	jne	11f
	addq	$8, %r8
	addq	$-8, %r9
	cmpq	$7, %r9
	ja	10b
11:
	cmpq	%rdi, %r8
	jae	5b
	.p2align	4
12:
	movzbl	(%rsi,%r8), %r9d
	cmpb	%r9b, (%r12,%r8)
	jne	13f
	incq	%r8
	cmpq	%r8, %rdi
	jne	12b
	jmp	5b
	.p2align	4
13:
	jb	6b
	jmp	15f
14:
	xorl	%ebp, %ebp
15:
	shlq	$5, %rbp
	jmp	2b
16:
	addq	$40, %rsp
	popq	%rbx
	popq	%r12
	popq	%r13
	popq	%r14
	popq	%r15
	popq	%rbp
	retq
17:
	.size	"core::slice::sort::small::insert_from::<#b4bd7111e818b46c>", 17b-"core::slice::sort::small::insert_from::<#b4bd7111e818b46c>"

	.section	.rodata.cst16,"aM",@progbits,16
	.p2align	4, 0x0
1:
	.byte	42,42,42,42,42,42,42,42
	.zero	1
	.zero	1
	.zero	1
	.zero	1
	.zero	1
	.zero	1
	.zero	1
	.zero	1
2:
	.byte	63,63,63,63,63,63,63,63
	.zero	1
	.zero	1
	.zero	1
	.zero	1
	.zero	1
	.zero	1
	.zero	1
	.zero	1
3:
	.byte	92,92,92,92,92,92,92,92
	.zero	1
	.zero	1
	.zero	1
	.zero	1
	.zero	1
	.zero	1
	.zero	1
	.zero	1
4:
	.byte	91,91,91,91,91,91,91,91
	.zero	1
	.zero	1
	.zero	1
	.zero	1
	.zero	1
	.zero	1
	.zero	1
	.zero	1
	.text
	.p2align	4
	.type	"core::slice::sort::small::insert_from::<#cc3e8e382a4904f8>",@function
"core::slice::sort::small::insert_from::<#cc3e8e382a4904f8>":
	cmpq	%rsi, %rdx
	jae	34f
	pushq	%rbp
	pushq	%r15
	pushq	%r14
	pushq	%r13
	pushq	%r12
	pushq	%rbx
	pushq	%rax
	movq	%rdx, %rbx
	movq	%rsi, %r14
	movq	%rdi, %r15
	movq	%rsi, (%rsp)
	jmp	8f
5:
	xorl	%ecx, %ecx
6:
	movq	%rax, (%r15,%rcx)
7:
	incq	%rbx
	cmpq	%r14, %rbx
	je	33f
8:
	leaq	(%r15,%rbx,8), %r12
	movq	-8(%r15,%rbx,8), %r13
	movq	%r12, %rdi
	movq	%r13, %rsi
	callq	"core::slice::sort::order::ByOrder::less::<#878f6745e8fab0b2>"
	testb	%al, %al
	je	7b
	movq	%rbx, %rcx
	movq	(%r12), %rax
	movq	%r13, (%r12)
	decq	%rcx
	je	5b
	leaq	64(%rax), %r14
	.p2align	4
9:
	movq	-8(%r15,%rcx,8), %r8
	cmpb	$0, 56(%r8)
	je	10f
	movq	64(%r8), %r11
	leaq	72(%r8), %rdx
	movq	(%rdx), %r9
	movabsq	$1688849862361089, %r10
	testq	%r9, %r9
	jne	11f
	jmp	15f
	.p2align	4
10:
	leaq	64(%r8), %r11
	leaq	80(%r8), %rdx
	movq	(%rdx), %r9
	movabsq	$1688849862361089, %r10
	testq	%r9, %r9
	je	15f
11:
	cmpb	$42, (%r11)
	jne	14f
	leaq	-1(%r9), %rdx
	cmpq	$8, %rdx
	jb	12f
	movq	1(%r11), %xmm0
	movdqa	1b(%rip), %xmm1
	pcmpeqb	%xmm0, %xmm1
	movdqa	2b(%rip), %xmm2
	pcmpeqb	%xmm0, %xmm2
	por	%xmm1, %xmm2
	movdqa	3b(%rip), %xmm1
	pcmpeqb	%xmm0, %xmm1
	pcmpeqb	4b(%rip), %xmm0
	por	%xmm1, %xmm0
	por	%xmm2, %xmm0
	pmovmskb	%xmm0, %edx
	testb	%dl, %dl
	jne	17f
12:
	movl	$1, %edx
	.p2align	4
13:
	cmpq	%rdx, %r9
	je	29f
	movzbl	(%r11,%rdx), %esi
	incq	%rdx
	addl	$-42, %esi
	cmpl	$50, %esi
	ja	13b
	btq	%rsi, %r10
	jae	13b
	jmp	17f
	.p2align	4
14:
	cmpq	$8, %r9
	jb	15f
	movq	(%r11), %xmm0
	movdqa	1b(%rip), %xmm1
	pcmpeqb	%xmm0, %xmm1
	movdqa	2b(%rip), %xmm2
	pcmpeqb	%xmm0, %xmm2
	por	%xmm1, %xmm2
	movdqa	3b(%rip), %xmm1
	pcmpeqb	%xmm0, %xmm1
	pcmpeqb	4b(%rip), %xmm0
	por	%xmm1, %xmm0
	por	%xmm2, %xmm0
	pmovmskb	%xmm0, %edx
	testb	%dl, %dl
	jne	17f
	.p2align	4
15:
	xorl	%edx, %edx
	.p2align	4
16:
	cmpq	%rdx, %r9
	je	27f
	movzbl	(%r11,%rdx), %esi
	incq	%rdx
	addl	$-42, %esi
	cmpl	$50, %esi
	ja	16b
	btq	%rsi, %r10
	jae	16b
17:
	xorl	%r11d, %r11d
18:
	cmpb	$0, 56(%rax)
	movq	%r14, %rdx
	leaq	80(%rax), %rsi
	je	19f
	movq	(%r14), %rdx
	leaq	72(%rax), %rsi
19:
	movzbl	(%r8), %r13d
	movzbl	96(%r8), %ebp
	movq	(%rsi), %r12
	testq	%r12, %r12
	je	23f
	cmpb	$42, (%rdx)
	jne	22f
	leaq	-1(%r12), %rsi
	cmpq	$8, %rsi
	jb	20f
	movq	1(%rdx), %xmm0
	movdqa	1b(%rip), %xmm1
	pcmpeqb	%xmm0, %xmm1
	movdqa	2b(%rip), %xmm2
	pcmpeqb	%xmm0, %xmm2
	por	%xmm1, %xmm2
	movdqa	3b(%rip), %xmm1
	pcmpeqb	%xmm0, %xmm1
	pcmpeqb	4b(%rip), %xmm0
	por	%xmm1, %xmm0
	por	%xmm2, %xmm0
	pmovmskb	%xmm0, %esi
	testb	%sil, %sil
	jne	25f
20:
	movl	$1, %esi
	.p2align	4
21:
	cmpq	%rsi, %r12
	je	30f
	movzbl	(%rdx,%rsi), %edi
	incq	%rsi
	addl	$-42, %edi
	cmpl	$50, %edi
	ja	21b
	btq	%rdi, %r10
	jae	21b
	jmp	25f
	.p2align	4
22:
	cmpq	$8, %r12
	jb	23f
	movq	(%rdx), %xmm0
	movdqa	1b(%rip), %xmm1
	pcmpeqb	%xmm0, %xmm1
	movdqa	2b(%rip), %xmm2
	pcmpeqb	%xmm0, %xmm2
	por	%xmm1, %xmm2
	movdqa	3b(%rip), %xmm1
	pcmpeqb	%xmm0, %xmm1
	pcmpeqb	4b(%rip), %xmm0
	por	%xmm1, %xmm0
	por	%xmm2, %xmm0
	pmovmskb	%xmm0, %esi
	testb	%sil, %sil
	jne	25f
	.p2align	4
23:
	xorl	%esi, %esi
	.p2align	4
24:
	cmpq	%rsi, %r12
	je	28f
	movzbl	(%rdx,%rsi), %edi
	incq	%rsi
	addl	$-42, %edi
	cmpl	$50, %edi
	ja	24b
	btq	%rdi, %r10
	jae	24b
25:
	xorl	%edx, %edx
26:
	orl	%r13d, %r11d
	shll	$17, %r11d
	movzwl	%r9w, %esi
	leal	(%r11,%rsi,2), %esi
	orl	%ebp, %esi
	movzbl	(%rax), %edi
	orl	%edx, %edi
	movzbl	96(%rax), %edx
	shll	$17, %edi
	movzwl	%r12w, %r9d
	leal	(%rdi,%r9,2), %edi
	orl	%edx, %edi
	cmpl	%edi, %esi
	jae	32f
	movq	%r8, (%r15,%rcx,8)
	decq	%rcx
	jne	9b
	jmp	31f
27:
	movl	$512, %r11d
	jmp	18b
28:
	movl	$512, %edx
	jmp	26b
29:
	movl	$256, %r11d
	jmp	18b
30:
	movl	$256, %edx
	jmp	26b
31:
	xorl	%ecx, %ecx
32:
	shlq	$3, %rcx
	movq	(%rsp), %r14
	jmp	6b
33:
	addq	$8, %rsp
	popq	%rbx
	popq	%r12
	popq	%r13
	popq	%r14
	popq	%r15
	popq	%rbp
34:
	retq
35:
	.size	"core::slice::sort::small::insert_from::<#cc3e8e382a4904f8>", 35b-"core::slice::sort::small::insert_from::<#cc3e8e382a4904f8>"

	.text
	.p2align	4
	.type	"core::slice::sort::small::insert_from::<#f98e8d76978ecc20>",@function
"core::slice::sort::small::insert_from::<#f98e8d76978ecc20>":
	pushq	%rbp
	pushq	%r15
	pushq	%r14
	pushq	%r13
	pushq	%r12
	pushq	%rbx
	subq	$56, %rsp
	movq	%rsi, 16(%rsp)
	cmpq	%rsi, %rdx
	jae	26f
	movq	%rdi, %r15
	jmp	4f
1:
	xorl	%eax, %eax
2:
	movq	%r12, (%r15,%rax)
	movq	%rbx, 8(%r15,%rax)
	movdqa	32(%rsp), %xmm0
	movdqu	%xmm0, 16(%r15,%rax)
3:
	movq	24(%rsp), %rdx
	incq	%rdx
	cmpq	16(%rsp), %rdx
	je	26f
4:
	movq	%rdx, %r14
	shlq	$5, %r14
	movq	%rdx, 24(%rsp)
	leaq	-1(%rdx), %r13
	movq	%r13, %rbp
	shlq	$5, %rbp
	movq	(%r15,%r14), %r12
	movq	8(%r15,%r14), %rbx
	movq	(%r15,%rbp), %rdx
	movq	8(%r15,%rbp), %rcx
	cmpq	%rbx, %rcx
	movq	%rbx, %rax
	cmovbq	%rcx, %rax
	cmpq	$24, %rax
	movl	$24, %esi
	cmovbq	%rax, %rsi
	cmpq	$8, %rax
	jb	6f
	xorl	%eax, %eax
	.p2align	4
5:
	movq	(%r12,%rax), %rdi
	movq	(%rdx,%rax), %r8
	cmpq	%r8, %rdi
	jne	8f
	addq	$8, %rax
	addq	$-8, %rsi
	cmpq	$7, %rsi
	ja	5b
	jmp	7f
	.p2align	4
6:
	xorl	%eax, %eax
7:
	leaq	(%r12,%rax), %rdi
	movq	%rbx, %rsi
	subq	%rax, %rsi
	addq	%rax, %rdx
	subq	%rax, %rcx
	callq	"core::cmp::slices::RefSliceOrd::cmp::<#914af4d8504a0b72>"
	testb	%al, %al
	jne	3b
	jmp	9f
	.p2align	4
8:
	bswapq	%r8
	bswapq	%rdi
	cmpq	%r8, %rdi
	jae	3b
9:
	addq	%r15, %r14
	addq	%r15, %rbp
	movups	16(%r14), %xmm0
	movaps	%xmm0, 32(%rsp)
	movdqu	(%rbp), %xmm0
	movdqu	16(%rbp), %xmm1
	movdqu	%xmm0, (%r14)
	movdqu	%xmm1, 16(%r14)
	testq	%r13, %r13
	je	1b
	movq	%rbx, 8(%rsp)
	jmp	12f
	.p2align	4
10:
	bswapq	%r9
	bswapq	%r8
	cmpq	%r9, %r8
	jae	25f
11:
	addq	%r15, %rdx
	shlq	$5, %rax
	movdqu	(%rdx), %xmm0
	movdqu	16(%rdx), %xmm1
	movdqu	%xmm1, 16(%r15,%rax)
	movdqu	%xmm0, (%r15,%rax)
	testq	%r13, %r13
	je	24f
12:
	movq	%r13, %rax
	decq	%r13
	movq	%r13, %rdx
	shlq	$5, %rdx
	movq	(%r15,%rdx), %rdi
	movq	8(%r15,%rdx), %rsi
	cmpq	%rbx, %rsi
	movq	%rbx, %r8
	cmovbq	%rsi, %r8
	cmpq	$24, %r8
	movl	$24, %ecx
	cmovbq	%r8, %rcx
	xorl	%r14d, %r14d
	cmpq	$8, %r8
	jb	14f
	.p2align	4
13:
	movq	(%r12,%r14), %r8
	movq	(%rdi,%r14), %r9
	cmpq	%r9, %r8
	jne	10b
	addq	$8, %r14
	addq	$-8, %rcx
	cmpq	$7, %rcx
	ja	13b
14:
	movq	%rbx, %r13
	subq	%r14, %r13
	movq	%rsi, %r9
	subq	%r14, %r9
	cmpq	%r13, %r9
	movq	%r13, %r8
	cmovbq	%r9, %r8
	cmpq	$64, %r8
	jb	16f
	leaq	48(%r12), %rcx
	leaq	(%rcx,%r14), %rbp
	leaq	(%rdi,%r14), %rcx
	addq	$48, %rcx
	xorl	%r11d, %r11d
	movq	%r8, %r10
	.p2align	4
15:
	movdqu	-48(%rbp,%r11), %xmm0
	movdqu	-32(%rbp,%r11), %xmm1
	movdqu	-16(%rbp,%r11), %xmm2
	movdqu	(%rbp,%r11), %xmm3
	movdqu	-48(%rcx,%r11), %xmm4
	pcmpeqb	%xmm0, %xmm4
	movdqu	-32(%rcx,%r11), %xmm0
	pcmpeqb	%xmm1, %xmm0
	movdqu	-16(%rcx,%r11), %xmm1
	pcmpeqb	%xmm2, %xmm1
	pand	%xmm4, %xmm1
	movdqu	(%rcx,%r11), %xmm2
	pcmpeqb	%xmm3, %xmm2
	pand	%xmm0, %xmm2
	pand	%xmm1, %xmm2
	pmovmskb	%xmm2, %ebx
	cmpl	$65535, %ebx
	jne	17f
	addq	$64, %r11
	addq	$-64, %r10
	cmpq	$63, %r10
	ja	15b
	jmp	17f
	.p2align	4
16:
	xorl	%r11d, %r11d
17:
	leaq	(%r12,%r14), %rbp
	addq	%r14, %rdi
	movq	%r8, %rcx
	subq	%r11, %rcx
	cmpq	$8, %rcx
	jb	21f
	movq	8(%rsp), %rbx
	.p2align	4
18:
	movq	(%rbp,%r11), %r10
	cmpq	(%rdi,%r11), %r10
	jne	19f
	addq	$8, %r11
	addq	$-8, %rcx
	cmpq	$7, %rcx
	ja	18b
19:
	cmpq	%r8, %r11
	jae	22f
	.p2align	4
20:
	movzbl	(%rdi,%r11), %ecx
	cmpb	%cl, (%rbp,%r11)
	jne	23f
	incq	%r11
	cmpq	%r11, %r8
	jne	20b
	jmp	22f
	.p2align	4
21:
	movq	8(%rsp), %rbx
	cmpq	%r8, %r11
	jb	20b
22:
	cmpq	%rsi, %rbx
	je	25f
	cmpq	%r9, %r13
23:
	leaq	-1(%rax), %r13
	jb	11b
	jmp	25f
24:
	xorl	%eax, %eax
25:
	shlq	$5, %rax
	jmp	2b
26:
	addq	$56, %rsp
	popq	%rbx
	popq	%r12
	popq	%r13
	popq	%r14
	popq	%r15
	popq	%rbp
	retq
27:
	.size	"core::slice::sort::small::insert_from::<#f98e8d76978ecc20>", 27b-"core::slice::sort::small::insert_from::<#f98e8d76978ecc20>"

	.text
	.p2align	4
	.type	"core::slice::sort::stable::merge_sort::<#12eb916b83b0f891>",@function
"core::slice::sort::stable::merge_sort::<#12eb916b83b0f891>":
	cmpq	$32, %rsi
	ja	1f
	jmp	"core::slice::sort::short::sort::<#12eb916b83b0f891>"
1:
	pushq	%rbp
	pushq	%r15
	pushq	%r14
	pushq	%r13
	pushq	%r12
	pushq	%rbx
	pushq	%rax
	movq	%rsi, %rbx
	shrq	%rbx
	leaq	(%rdi,%rbx,8), %r14
	movq	%rsi, %r15
	subq	%rbx, %r15
	movq	%rdi, %r12
	movq	%rsi, %r13
	movq	%rbx, %rsi
	movq	%rdx, %rbp
	callq	"core::slice::sort::stable::merge_sort::<#12eb916b83b0f891>"
	movq	%r14, %rdi
	movq	%r15, %rsi
	movq	%rbp, %rdx
	callq	"core::slice::sort::stable::merge_sort::<#12eb916b83b0f891>"
	movq	%r12, %rdi
	movq	%r13, %rsi
	movq	%rbx, %rdx
	movq	%rbp, %rcx
	addq	$8, %rsp
	popq	%rbx
	popq	%r12
	popq	%r13
	popq	%r14
	popq	%r15
	popq	%rbp
	jmp	"core::slice::sort::merge::merge::<#12eb916b83b0f891>"
2:
	.size	"core::slice::sort::stable::merge_sort::<#12eb916b83b0f891>", 2b-"core::slice::sort::stable::merge_sort::<#12eb916b83b0f891>"

	.text
	.p2align	4
	.type	"core::slice::sort::stable::merge_sort::<#196989f31ad14034>",@function
"core::slice::sort::stable::merge_sort::<#196989f31ad14034>":
	cmpq	$32, %rsi
	ja	1f
	jmp	"core::slice::sort::short::sort::<#196989f31ad14034>"
1:
	pushq	%rbp
	pushq	%r15
	pushq	%r14
	pushq	%r13
	pushq	%r12
	pushq	%rbx
	pushq	%rax
	movq	%rsi, %rbx
	shrq	%rbx
	leaq	(%rdi,%rbx,8), %r14
	movq	%rsi, %r15
	subq	%rbx, %r15
	movq	%rdi, %r12
	movq	%rsi, %r13
	movq	%rbx, %rsi
	movq	%rdx, %rbp
	callq	"core::slice::sort::stable::merge_sort::<#196989f31ad14034>"
	movq	%r14, %rdi
	movq	%r15, %rsi
	movq	%rbp, %rdx
	callq	"core::slice::sort::stable::merge_sort::<#196989f31ad14034>"
	movq	%r12, %rdi
	movq	%r13, %rsi
	movq	%rbx, %rdx
	movq	%rbp, %rcx
	addq	$8, %rsp
	popq	%rbx
	popq	%r12
	popq	%r13
	popq	%r14
	popq	%r15
	popq	%rbp
	jmp	"core::slice::sort::merge::merge::<#196989f31ad14034>"
2:
	.size	"core::slice::sort::stable::merge_sort::<#196989f31ad14034>", 2b-"core::slice::sort::stable::merge_sort::<#196989f31ad14034>"

	.text
	.p2align	4
	.type	"core::slice::sort::stable::merge_sort::<#24df1801f4a811cc>",@function
"core::slice::sort::stable::merge_sort::<#24df1801f4a811cc>":
	cmpq	$32, %rsi
	ja	1f
	jmp	"core::slice::sort::short::sort::<#24df1801f4a811cc>"
1:
	pushq	%rbp
	pushq	%r15
	pushq	%r14
	pushq	%r13
	pushq	%r12
	pushq	%rbx
	pushq	%rax
	movq	%rsi, %rbx
	shrq	%rbx
	imulq	$56, %rbx, %r14
	addq	%rdi, %r14
	movq	%rsi, %r15
	subq	%rbx, %r15
	movq	%rdi, %r12
	movq	%rsi, %r13
	movq	%rbx, %rsi
	movq	%rdx, %rbp
	callq	"core::slice::sort::stable::merge_sort::<#24df1801f4a811cc>"
	movq	%r14, %rdi
	movq	%r15, %rsi
	movq	%rbp, %rdx
	callq	"core::slice::sort::stable::merge_sort::<#24df1801f4a811cc>"
	movq	%r12, %rdi
	movq	%r13, %rsi
	movq	%rbx, %rdx
	movq	%rbp, %rcx
	addq	$8, %rsp
	popq	%rbx
	popq	%r12
	popq	%r13
	popq	%r14
	popq	%r15
	popq	%rbp
	jmp	"core::slice::sort::merge::merge::<#24df1801f4a811cc>"
2:
	.size	"core::slice::sort::stable::merge_sort::<#24df1801f4a811cc>", 2b-"core::slice::sort::stable::merge_sort::<#24df1801f4a811cc>"

	.text
	.p2align	4
	.type	"core::slice::sort::stable::merge_sort::<#32fabb223415b920>",@function
"core::slice::sort::stable::merge_sort::<#32fabb223415b920>":
	cmpq	$32, %rsi
	ja	1f
	jmp	"core::slice::sort::short::sort::<#32fabb223415b920>"
1:
	pushq	%rbp
	pushq	%r15
	pushq	%r14
	pushq	%r13
	pushq	%r12
	pushq	%rbx
	pushq	%rax
	movq	%rsi, %rbx
	shrq	%rbx
	leaq	(%rbx,%rbx,4), %rax
	leaq	(%rdi,%rax,8), %r14
	movq	%rsi, %r15
	subq	%rbx, %r15
	movq	%rdi, %r12
	movq	%rsi, %r13
	movq	%rbx, %rsi
	movq	%rdx, %rbp
	callq	"core::slice::sort::stable::merge_sort::<#32fabb223415b920>"
	movq	%r14, %rdi
	movq	%r15, %rsi
	movq	%rbp, %rdx
	callq	"core::slice::sort::stable::merge_sort::<#32fabb223415b920>"
	movq	%r12, %rdi
	movq	%r13, %rsi
	movq	%rbx, %rdx
	movq	%rbp, %rcx
	addq	$8, %rsp
	popq	%rbx
	popq	%r12
	popq	%r13
	popq	%r14
	popq	%r15
	popq	%rbp
	jmp	"core::slice::sort::merge::merge::<#32fabb223415b920>"
2:
	.size	"core::slice::sort::stable::merge_sort::<#32fabb223415b920>", 2b-"core::slice::sort::stable::merge_sort::<#32fabb223415b920>"

	.text
	.p2align	4
	.type	"core::slice::sort::stable::merge_sort::<#54047240e3f04dbb>",@function
"core::slice::sort::stable::merge_sort::<#54047240e3f04dbb>":
	cmpq	$32, %rsi
	ja	1f
	jmp	"core::slice::sort::short::sort::<#54047240e3f04dbb>"
1:
	pushq	%rbp
	pushq	%r15
	pushq	%r14
	pushq	%r13
	pushq	%r12
	pushq	%rbx
	pushq	%rax
	movq	%rsi, %rbx
	shrq	%rbx
	leaq	(%rbx,%rbx,4), %r14
	shlq	$4, %r14
	addq	%rdi, %r14
	movq	%rsi, %r15
	subq	%rbx, %r15
	movq	%rdi, %r12
	movq	%rsi, %r13
	movq	%rbx, %rsi
	movq	%rdx, %rbp
	callq	"core::slice::sort::stable::merge_sort::<#54047240e3f04dbb>"
	movq	%r14, %rdi
	movq	%r15, %rsi
	movq	%rbp, %rdx
	callq	"core::slice::sort::stable::merge_sort::<#54047240e3f04dbb>"
	movq	%r12, %rdi
	movq	%r13, %rsi
	movq	%rbx, %rdx
	movq	%rbp, %rcx
	addq	$8, %rsp
	popq	%rbx
	popq	%r12
	popq	%r13
	popq	%r14
	popq	%r15
	popq	%rbp
	jmp	"core::slice::sort::merge::merge::<#54047240e3f04dbb>"
2:
	.size	"core::slice::sort::stable::merge_sort::<#54047240e3f04dbb>", 2b-"core::slice::sort::stable::merge_sort::<#54047240e3f04dbb>"

	.text
	.p2align	4
	.type	"core::slice::sort::stable::merge_sort::<#b4bd7111e818b46c>",@function
"core::slice::sort::stable::merge_sort::<#b4bd7111e818b46c>":
	cmpq	$32, %rsi
	ja	1f
	jmp	"core::slice::sort::short::sort::<#b4bd7111e818b46c>"
1:
	pushq	%rbp
	pushq	%r15
	pushq	%r14
	pushq	%r13
	pushq	%r12
	pushq	%rbx
	pushq	%rax
	movq	%rsi, %rbx
	shrq	%rbx
	movq	%rbx, %r14
	shlq	$5, %r14
	addq	%rdi, %r14
	movq	%rsi, %r15
	subq	%rbx, %r15
	movq	%rdi, %r12
	movq	%rsi, %r13
	movq	%rbx, %rsi
	movq	%rdx, %rbp
	callq	"core::slice::sort::stable::merge_sort::<#b4bd7111e818b46c>"
	movq	%r14, %rdi
	movq	%r15, %rsi
	movq	%rbp, %rdx
	callq	"core::slice::sort::stable::merge_sort::<#b4bd7111e818b46c>"
	movq	%r12, %rdi
	movq	%r13, %rsi
	movq	%rbx, %rdx
	movq	%rbp, %rcx
	addq	$8, %rsp
	popq	%rbx
	popq	%r12
	popq	%r13
	popq	%r14
	popq	%r15
	popq	%rbp
	jmp	"core::slice::sort::merge::merge::<#b4bd7111e818b46c>"
2:
	.size	"core::slice::sort::stable::merge_sort::<#b4bd7111e818b46c>", 2b-"core::slice::sort::stable::merge_sort::<#b4bd7111e818b46c>"

	.text
	.p2align	4
	.type	"core::slice::sort::stable::merge_sort::<#cc3e8e382a4904f8>",@function
"core::slice::sort::stable::merge_sort::<#cc3e8e382a4904f8>":
	cmpq	$32, %rsi
	ja	1f
	jmp	"core::slice::sort::short::sort::<#cc3e8e382a4904f8>"
1:
	pushq	%rbp
	pushq	%r15
	pushq	%r14
	pushq	%r13
	pushq	%r12
	pushq	%rbx
	pushq	%rax
	movq	%rsi, %rbx
	shrq	%rbx
	leaq	(%rdi,%rbx,8), %r14
	movq	%rsi, %r15
	subq	%rbx, %r15
	movq	%rdi, %r12
	movq	%rsi, %r13
	movq	%rbx, %rsi
	movq	%rdx, %rbp
	callq	"core::slice::sort::stable::merge_sort::<#cc3e8e382a4904f8>"
	movq	%r14, %rdi
	movq	%r15, %rsi
	movq	%rbp, %rdx
	callq	"core::slice::sort::stable::merge_sort::<#cc3e8e382a4904f8>"
	movq	%r12, %rdi
	movq	%r13, %rsi
	movq	%rbx, %rdx
	movq	%rbp, %rcx
	addq	$8, %rsp
	popq	%rbx
	popq	%r12
	popq	%r13
	popq	%r14
	popq	%r15
	popq	%rbp
	jmp	"core::slice::sort::merge::merge::<#cc3e8e382a4904f8>"
2:
	.size	"core::slice::sort::stable::merge_sort::<#cc3e8e382a4904f8>", 2b-"core::slice::sort::stable::merge_sort::<#cc3e8e382a4904f8>"

	.text
	.p2align	4
	.type	"core::slice::sort::stable::merge_sort::<#f98e8d76978ecc20>",@function
"core::slice::sort::stable::merge_sort::<#f98e8d76978ecc20>":
	cmpq	$32, %rsi
	ja	1f
	jmp	"core::slice::sort::short::sort::<#f98e8d76978ecc20>"
1:
	pushq	%rbp
	pushq	%r15
	pushq	%r14
	pushq	%r13
	pushq	%r12
	pushq	%rbx
	pushq	%rax
	movq	%rsi, %rbx
	shrq	%rbx
	movq	%rbx, %r14
	shlq	$5, %r14
	addq	%rdi, %r14
	movq	%rsi, %r15
	subq	%rbx, %r15
	movq	%rdi, %r12
	movq	%rsi, %r13
	movq	%rbx, %rsi
	movq	%rdx, %rbp
	callq	"core::slice::sort::stable::merge_sort::<#f98e8d76978ecc20>"
	movq	%r14, %rdi
	movq	%r15, %rsi
	movq	%rbp, %rdx
	callq	"core::slice::sort::stable::merge_sort::<#f98e8d76978ecc20>"
	movq	%r12, %rdi
	movq	%r13, %rsi
	movq	%rbx, %rdx
	movq	%rbp, %rcx
	addq	$8, %rsp
	popq	%rbx
	popq	%r12
	popq	%r13
	popq	%r14
	popq	%r15
	popq	%rbp
	jmp	"core::slice::sort::merge::merge::<#f98e8d76978ecc20>"
2:
	.size	"core::slice::sort::stable::merge_sort::<#f98e8d76978ecc20>", 2b-"core::slice::sort::stable::merge_sort::<#f98e8d76978ecc20>"

	.text
	.p2align	4
	.type	"core::slice::sort::stable::quicksort::<#12eb916b83b0f891>",@function
"core::slice::sort::stable::quicksort::<#12eb916b83b0f891>":
	pushq	%rbp
	pushq	%r15
	pushq	%r14
	pushq	%r13
	pushq	%r12
	pushq	%rbx
	subq	$40, %rsp
	movq	%r8, 8(%rsp)
	movl	%ecx, %r12d
	movq	%rdx, %rbx
	movq	%rsi, %r14
	movq	%rdi, %r15
	cmpq	$33, %rsi
	jae	5f
1:
	movq	%r15, %rdi
	movq	%r14, %rsi
	movq	8(%rsp), %rdx
	addq	$40, %rsp
	popq	%rbx
	popq	%r12
	popq	%r13
	popq	%r14
	popq	%r15
	popq	%rbp
	jmp	"core::slice::sort::short::sort::<#12eb916b83b0f891>"
	.p2align	4
2:
	leaq	(%r15,%rbx,8), %rdi
	movq	%r12, %rsi
	movq	%r9, 24(%rsp)
	callq	memmove@PLT
	movq	24(%rsp), %r9
3:
	movq	8(%rsp), %r8
	movq	%r12, (%r8)
	movq	%r9, 8(%r8)
	movl	20(%rsp), %r12d
	decl	%r12d
	movq	%r15, %rdi
	movq	%rbx, %rsi
	movq	%r14, %rdx
	movl	%r12d, %ecx
	callq	"core::slice::sort::stable::quicksort::<#12eb916b83b0f891>"
	movq	32(%rsp), %rdi
	movq	%r13, %r14
4:
	movq	%r14, %rbx
	movq	%rdi, %r15
	movq	%rbp, %r14
	cmpq	$33, %rbp
	jb	1b
5:
	testl	%r12d, %r12d
	je	31f
	movq	%r14, %r8
	shrq	$3, %r8
	leaq	(,%r8,4), %rdx
	movq	%r14, %rcx
	andq	$-8, %rcx
	subq	%r8, %rcx
	cmpq	$63, %r14
	ja	7f
	imulq	$56, %r8, %rax
	shlq	$5, %r8
	movl	(%r15), %esi
	movl	(%r15,%r8), %edi
	cmpl	%esi, %edi
	setb	%r8b
	movl	(%r15,%rax), %eax
	cmpl	%esi, %eax
	setb	%sil
	xorb	%r8b, %sil
	cmpl	%edi, %eax
	setb	%al
	xorb	%r8b, %al
	cmovneq	%rcx, %rdx
	xorl	%r13d, %r13d
	testb	%sil, %sil
	cmoveq	%rdx, %r13
	movl	%r12d, 20(%rsp)
	cmpq	%r14, %rbx
	jb	8f
6:
	movq	8(%rsp), %rax
	movq	(%rax), %r12
	movq	8(%rax), %r9
	jmp	9f
	.p2align	4
7:
	movq	%r15, %rdi
	xorl	%esi, %esi
	callq	"core::slice::sort::pivot::median_of_medians::<#12eb916b83b0f891>"
	movq	%rax, %r13
	movl	%r12d, 20(%rsp)
	cmpq	%r14, %rbx
	jae	6b
8:
	movl	(%r15,%r13,8), %eax
	movq	8(%rsp), %rcx
	movq	(%rcx), %r12
	movq	8(%rcx), %r9
	cmpl	(%r15,%rbx,8), %eax
	jae	15f
9:
	movq	(%r15,%r13,8), %rax
	xorl	%ecx, %ecx
	testq	%r13, %r13
	je	11f
	xorl	%edx, %edx
	.p2align	4
10:
	leaq	(,%rcx,8), %rsi
	movq	%r12, %rdi
	subq	%rsi, %rdi
	cmpl	(%r15,%rdx,8), %eax
	movq	(%r15,%rdx,8), %rsi
	movq	%rsi, (%r15,%rcx,8)
	movq	%rsi, (%rdi,%rdx,8)
	adcq	$0, %rcx
	incq	%rdx
	cmpq	%rdx, %r13
	jne	10b
11:
	leaq	1(%r13), %rdx
	movq	%rcx, %rbx
	cmpq	%r14, %rdx
	jae	13f
	movq	%rcx, %rbx
	.p2align	4
12:
	leaq	(,%rbx,8), %rsi
	movq	%r12, %rdi
	subq	%rsi, %rdi
	cmpl	(%r15,%rdx,8), %eax
	movq	(%r15,%rdx,8), %rsi
	movq	%rsi, (%r15,%rbx,8)
	movq	%rsi, (%rdi,%rdx,8)
	adcq	$0, %rbx
	incq	%rdx
	cmpq	%rdx, %r14
	jne	12b
13:
	subq	%rcx, %r13
	movq	%rax, (%r12,%r13,8)
	movq	%r14, %rbp
	subq	%rbx, %rbp
	leaq	(%r15,%rbx,8), %rsi
	leaq	(,%rbp,8), %rdx
	movq	%rsi, %rax
	subq	%r12, %rax
	cmpq	%rdx, %rax
	movq	%rsi, 32(%rsp)
	jae	2b
	cmpq	%rbx, %r14
	je	3b
	cmpq	$4, %rbp
	jb	14f
	leaq	(,%rbx,8), %rcx
	leaq	(%rcx,%r15), %rax
	subq	%r12, %rax
	cmpq	$32, %rax
	jae	22f
14:
	xorl	%eax, %eax
	jmp	26f
	.p2align	4
15:
	movq	(%r15,%r13,8), %rax
	xorl	%ecx, %ecx
	testq	%r13, %r13
	je	17f
	xorl	%edx, %edx
	.p2align	4
16:
	leaq	(,%rcx,8), %rsi
	movq	%r12, %rdi
	subq	%rsi, %rdi
	cmpl	%eax, (%r15,%rdx,8)
	movq	(%r15,%rdx,8), %rsi
	movq	%rsi, (%r15,%rcx,8)
	movq	%rsi, (%rdi,%rdx,8)
	sbbq	$-1, %rcx
	incq	%rdx
	cmpq	%rdx, %r13
	jne	16b
17:
	leaq	1(%rcx), %rsi
	incq	%r13
	cmpq	%r14, %r13
	jae	19f
	.p2align	4
18:
	leaq	(,%rsi,8), %rdx
	movq	%r12, %rdi
	subq	%rdx, %rdi
	cmpl	%eax, (%r15,%r13,8)
	movq	(%r15,%r13,8), %rdx
	movq	%rdx, (%r15,%rsi,8)
	movq	%rdx, (%rdi,%r13,8)
	sbbq	$-1, %rsi
	incq	%r13
	cmpq	%r13, %r14
	jne	18b
19:
	movq	%rax, (%r15,%rcx,8)
	movq	%r14, %rbp
	subq	%rsi, %rbp
	leaq	(%r15,%rsi,8), %rdi
	leaq	(,%rbp,8), %rdx
	movq	%rdi, %rax
	subq	%r12, %rax
	cmpq	%rdx, %rax
	jae	21f
	cmpq	%rsi, %r14
	je	30f
	cmpq	$4, %rbp
	jb	20f
	shlq	$3, %rsi
	leaq	(%rsi,%r15), %rax
	subq	%r12, %rax
	cmpq	$32, %rax
	jae	24f
20:
	xorl	%eax, %eax
	jmp	28f
21:
	movq	%rdi, %r15
	movq	%r12, %rsi
	movq	%r9, %rbx
	callq	memmove@PLT
	movq	%r15, %rdi
	movq	%rbx, %r9
	jmp	30f
22:
	movq	%rbp, %rax
	andq	$-4, %rax
	addq	%r15, %rcx
	addq	$16, %rcx
	xorl	%edx, %edx
	.p2align	4
23:
	movups	(%r12,%rdx,8), %xmm0
	movups	16(%r12,%rdx,8), %xmm1
	movups	%xmm0, -16(%rcx,%rdx,8)
	movups	%xmm1, (%rcx,%rdx,8)
	addq	$4, %rdx
	cmpq	%rdx, %rax
	jne	23b
	jmp	27f
24:
	movq	%rbp, %rax
	andq	$-4, %rax
	leaq	(%r15,%rsi), %rcx
	addq	$16, %rcx
	xorl	%edx, %edx
	.p2align	4
25:
	movups	(%r12,%rdx,8), %xmm0
	movups	16(%r12,%rdx,8), %xmm1
	movups	%xmm0, -16(%rcx,%rdx,8)
	movups	%xmm1, (%rcx,%rdx,8)
	addq	$4, %rdx
	cmpq	%rdx, %rax
	jne	25b
	jmp	29f
	.p2align	4
26:
	movq	(%r12,%rax,8), %rcx
	movq	%rcx, (%rsi,%rax,8)
	incq	%rax
27:
	cmpq	%rax, %rbp
	jne	26b
	jmp	3b
	.p2align	4
28:
	movq	(%r12,%rax,8), %rcx
	movq	%rcx, (%rdi,%rax,8)
	incq	%rax
29:
	cmpq	%rax, %rbp
	jne	28b
30:
	movq	8(%rsp), %rax
	movq	%r12, (%rax)
	movq	%r9, 8(%rax)
	movl	20(%rsp), %r12d
	decl	%r12d
	jmp	4b
31:
	movq	%r15, %rdi
	movq	%r14, %rsi
	movq	8(%rsp), %rdx
	addq	$40, %rsp
	popq	%rbx
	popq	%r12
	popq	%r13
	popq	%r14
	popq	%r15
	popq	%rbp
	jmp	"core::slice::sort::stable::merge_sort::<#12eb916b83b0f891>"
32:
	.size	"core::slice::sort::stable::quicksort::<#12eb916b83b0f891>", 32b-"core::slice::sort::stable::quicksort::<#12eb916b83b0f891>"

	.text
	.p2align	4
	.type	"core::slice::sort::stable::quicksort::<#196989f31ad14034>",@function
"core::slice::sort::stable::quicksort::<#196989f31ad14034>":
	pushq	%rbp
	pushq	%r15
	pushq	%r14
	pushq	%r13
	pushq	%r12
	pushq	%rbx
	subq	$40, %rsp
	movq	%r8, 8(%rsp)
	movl	%ecx, %r12d
	movq	%rdx, %rbx
	movq	%rsi, %r14
	movq	%rdi, %r15
	cmpq	$33, %rsi
	jae	5f
1:
	movq	%r15, %rdi
	movq	%r14, %rsi
	movq	8(%rsp), %rdx
	addq	$40, %rsp
	popq	%rbx
	popq	%r12
	popq	%r13
	popq	%r14
	popq	%r15
	popq	%rbp
	jmp	"core::slice::sort::short::sort::<#196989f31ad14034>"
	.p2align	4
2:
	leaq	(%r15,%rbx,8), %rdi
	movq	%r12, %rsi
	movq	%r10, 24(%rsp)
	callq	memmove@PLT
	movq	24(%rsp), %r10
3:
	movq	8(%rsp), %r8
	movq	%r12, (%r8)
	movq	%r10, 8(%r8)
	movl	20(%rsp), %r12d
	decl	%r12d
	movq	%r15, %rdi
	movq	%rbx, %rsi
	movq	%r14, %rdx
	movl	%r12d, %ecx
	callq	"core::slice::sort::stable::quicksort::<#196989f31ad14034>"
	movq	32(%rsp), %rdi
	movq	%r13, %r14
4:
	movq	%r14, %rbx
	movq	%rdi, %r15
	movq	%rbp, %r14
	cmpq	$33, %rbp
	jb	1b
5:
	testl	%r12d, %r12d
	je	31f
	movq	%r14, %r8
	shrq	$3, %r8
	leaq	(,%r8,4), %rdx
	movq	%r14, %rcx
	andq	$-8, %rcx
	subq	%r8, %rcx
	cmpq	$63, %r14
	ja	7f
	imulq	$56, %r8, %rax
	shlq	$5, %r8
	movq	(%r15), %rsi
	movq	(%r15,%r8), %rdi
	movl	56(%rsi), %esi
	movl	56(%rdi), %edi
	cmpl	%esi, %edi
	setb	%r8b
	movq	(%r15,%rax), %rax
	movl	56(%rax), %eax
	cmpl	%esi, %eax
	setb	%sil
	xorb	%r8b, %sil
	cmpl	%edi, %eax
	setb	%al
	xorb	%r8b, %al
	cmovneq	%rcx, %rdx
	xorl	%r13d, %r13d
	testb	%sil, %sil
	cmoveq	%rdx, %r13
	movl	%r12d, 20(%rsp)
	cmpq	%r14, %rbx
	jb	8f
6:
	movq	8(%rsp), %rax
	movq	(%rax), %r12
	movq	8(%rax), %r10
	movq	(%r15,%r13,8), %rax
	jmp	9f
	.p2align	4
7:
	movq	%r15, %rdi
	xorl	%esi, %esi
	callq	"core::slice::sort::pivot::median_of_medians::<#196989f31ad14034>"
	movq	%rax, %r13
	movl	%r12d, 20(%rsp)
	cmpq	%r14, %rbx
	jae	6b
8:
	movq	(%r15,%rbx,8), %rcx
	movq	(%r15,%r13,8), %rax
	movl	56(%rax), %edx
	movq	8(%rsp), %rsi
	movq	(%rsi), %r12
	movq	8(%rsi), %r10
	cmpl	56(%rcx), %edx
	jae	15f
9:
	xorl	%ecx, %ecx
	testq	%r13, %r13
	je	11f
	xorl	%edx, %edx
	.p2align	4
10:
	movq	(%r15,%rdx,8), %rsi
	movl	56(%rax), %edi
	leaq	(,%rcx,8), %r8
	movq	%r12, %r9
	subq	%r8, %r9
	cmpl	56(%rsi), %edi
	movq	%rsi, (%r15,%rcx,8)
	movq	%rsi, (%r9,%rdx,8)
	adcq	$0, %rcx
	incq	%rdx
	cmpq	%rdx, %r13
	jne	10b
11:
	leaq	1(%r13), %rdx
	movq	%rcx, %rbx
	cmpq	%r14, %rdx
	jae	13f
	movq	%rcx, %rbx
	.p2align	4
12:
	movq	(%r15,%rdx,8), %rsi
	movl	56(%rax), %edi
	leaq	(,%rbx,8), %r8
	movq	%r12, %r9
	subq	%r8, %r9
	cmpl	56(%rsi), %edi
	movq	%rsi, (%r15,%rbx,8)
	movq	%rsi, (%r9,%rdx,8)
	adcq	$0, %rbx
	incq	%rdx
	cmpq	%rdx, %r14
	jne	12b
13:
	subq	%rcx, %r13
	movq	%rax, (%r12,%r13,8)
	movq	%r14, %rbp
	subq	%rbx, %rbp
	leaq	(%r15,%rbx,8), %rsi
	leaq	(,%rbp,8), %rdx
	movq	%rsi, %rax
	subq	%r12, %rax
	cmpq	%rdx, %rax
	movq	%rsi, 32(%rsp)
	jae	2b
	cmpq	%rbx, %r14
	je	3b
	cmpq	$4, %rbp
	jb	14f
	leaq	(,%rbx,8), %rcx
	leaq	(%rcx,%r15), %rax
	subq	%r12, %rax
	cmpq	$32, %rax
	jae	22f
14:
	xorl	%eax, %eax
	jmp	26f
	.p2align	4
15:
	xorl	%ecx, %ecx
	testq	%r13, %r13
	je	17f
	xorl	%edx, %edx
	.p2align	4
16:
	movq	(%r15,%rdx,8), %rsi
	movl	56(%rsi), %edi
	leaq	(,%rcx,8), %r8
	movq	%r12, %r9
	subq	%r8, %r9
	cmpl	56(%rax), %edi
	movq	%rsi, (%r15,%rcx,8)
	movq	%rsi, (%r9,%rdx,8)
	sbbq	$-1, %rcx
	incq	%rdx
	cmpq	%rdx, %r13
	jne	16b
17:
	leaq	1(%rcx), %rsi
	incq	%r13
	cmpq	%r14, %r13
	jae	19f
	.p2align	4
18:
	movq	(%r15,%r13,8), %rdx
	movl	56(%rdx), %edi
	leaq	(,%rsi,8), %r8
	movq	%r12, %r9
	subq	%r8, %r9
	cmpl	56(%rax), %edi
	movq	%rdx, (%r15,%rsi,8)
	movq	%rdx, (%r9,%r13,8)
	sbbq	$-1, %rsi
	incq	%r13
	cmpq	%r13, %r14
	jne	18b
19:
	movq	%rax, (%r15,%rcx,8)
	movq	%r14, %rbp
	subq	%rsi, %rbp
	leaq	(%r15,%rsi,8), %rdi
	leaq	(,%rbp,8), %rdx
	movq	%rdi, %rax
	subq	%r12, %rax
	cmpq	%rdx, %rax
	jae	21f
	cmpq	%rsi, %r14
	je	30f
	cmpq	$4, %rbp
	jb	20f
	shlq	$3, %rsi
	leaq	(%rsi,%r15), %rax
	subq	%r12, %rax
	cmpq	$32, %rax
	jae	24f
20:
	xorl	%eax, %eax
	jmp	28f
21:
	movq	%rdi, %r15
	movq	%r12, %rsi
	movq	%r10, %rbx
	callq	memmove@PLT
	movq	%r15, %rdi
	movq	%rbx, %r10
	jmp	30f
22:
	movq	%rbp, %rax
	andq	$-4, %rax
	addq	%r15, %rcx
	addq	$16, %rcx
	xorl	%edx, %edx
	.p2align	4
23:
	movups	(%r12,%rdx,8), %xmm0
	movups	16(%r12,%rdx,8), %xmm1
	movups	%xmm0, -16(%rcx,%rdx,8)
	movups	%xmm1, (%rcx,%rdx,8)
	addq	$4, %rdx
	cmpq	%rdx, %rax
	jne	23b
	jmp	27f
24:
	movq	%rbp, %rax
	andq	$-4, %rax
	leaq	(%r15,%rsi), %rcx
	addq	$16, %rcx
	xorl	%edx, %edx
	.p2align	4
25:
	movups	(%r12,%rdx,8), %xmm0
	movups	16(%r12,%rdx,8), %xmm1
	movups	%xmm0, -16(%rcx,%rdx,8)
	movups	%xmm1, (%rcx,%rdx,8)
	addq	$4, %rdx
	cmpq	%rdx, %rax
	jne	25b
	jmp	29f
	.p2align	4
26:
	movq	(%r12,%rax,8), %rcx
	movq	%rcx, (%rsi,%rax,8)
	incq	%rax
27:
	cmpq	%rax, %rbp
	jne	26b
	jmp	3b
	.p2align	4
28:
	movq	(%r12,%rax,8), %rcx
	movq	%rcx, (%rdi,%rax,8)
	incq	%rax
29:
	cmpq	%rax, %rbp
	jne	28b
30:
	movq	8(%rsp), %rax
	movq	%r12, (%rax)
	movq	%r10, 8(%rax)
	movl	20(%rsp), %r12d
	decl	%r12d
	jmp	4b
31:
	movq	%r15, %rdi
	movq	%r14, %rsi
	movq	8(%rsp), %rdx
	addq	$40, %rsp
	popq	%rbx
	popq	%r12
	popq	%r13
	popq	%r14
	popq	%r15
	popq	%rbp
	jmp	"core::slice::sort::stable::merge_sort::<#196989f31ad14034>"
32:
	.size	"core::slice::sort::stable::quicksort::<#196989f31ad14034>", 32b-"core::slice::sort::stable::quicksort::<#196989f31ad14034>"

	.text
	.p2align	4
	.type	"core::slice::sort::stable::quicksort::<#24df1801f4a811cc>",@function
"core::slice::sort::stable::quicksort::<#24df1801f4a811cc>":
	pushq	%rbp
	pushq	%r15
	pushq	%r14
	pushq	%r13
	pushq	%r12
	pushq	%rbx
	subq	$104, %rsp
	movq	%r8, 8(%rsp)
	movl	%ecx, %r12d
	movq	%rdx, %rbx
	movq	%rsi, %r14
	movq	%rdi, %rbp
	cmpq	$33, %rsi
	jae	5f
1:
	movq	%rbp, %rdi
	movq	%r14, %rsi
	movq	8(%rsp), %rdx
	addq	$104, %rsp
	popq	%rbx
	popq	%r12
	popq	%r13
	popq	%r14
	popq	%r15
	popq	%rbp
	jmp	"core::slice::sort::short::sort::<#24df1801f4a811cc>"
	.p2align	4
2:
	movq	%r15, %rdi
	movq	%r12, %rsi
	movq	%r14, 96(%rsp)
	movq	%r13, %r14
	movq	%r11, %r13
	callq	memmove@PLT
	movq	%r13, %r11
	movq	%r14, %r13
	movq	96(%rsp), %r14
3:
	movq	8(%rsp), %r8
	movq	%r12, (%r8)
	movq	%r11, 8(%r8)
	movl	20(%rsp), %r12d
	decl	%r12d
	movq	%rbp, %rdi
	movq	%rbx, %rsi
	movq	%r14, %rdx
	movl	%r12d, %ecx
	callq	"core::slice::sort::stable::quicksort::<#24df1801f4a811cc>"
	movq	%r13, %r14
	movq	24(%rsp), %r13
4:
	movq	%r14, %rbx
	movq	%r15, %rbp
	movq	%r13, %r14
	cmpq	$33, %r13
	jb	1b
5:
	testl	%r12d, %r12d
	je	37f
	movq	%r14, %r8
	shrq	$3, %r8
	leaq	(,%r8,4), %rdx
	movq	%r14, %rcx
	andq	$-8, %rcx
	subq	%r8, %rcx
	cmpq	$63, %r14
	ja	6f
	imulq	$224, %r8, %rax
	movl	(%rbp), %esi
	movl	(%rbp,%rax), %eax
	cmpl	%esi, %eax
	setb	%dil
	imulq	$392, %r8, %r8
	movl	(%rbp,%r8), %r8d
	cmpl	%esi, %r8d
	setb	%sil
	xorb	%dil, %sil
	cmpl	%eax, %r8d
	setb	%al
	xorb	%dil, %al
	cmovneq	%rcx, %rdx
	xorl	%r13d, %r13d
	testb	%sil, %sil
	cmoveq	%rdx, %r13
	jmp	7f
	.p2align	4
6:
	movq	%rbp, %rdi
	xorl	%esi, %esi
	callq	"core::slice::sort::pivot::median_of_medians::<#24df1801f4a811cc>"
	movq	%rax, %r13
7:
	movl	%r12d, 20(%rsp)
	imulq	$56, %r13, %rcx
	leaq	(%rcx,%rbp), %rdx
	cmpq	%r14, %rbx
	jae	8f
	imulq	$56, %rbx, %rsi
	movl	(%rdx), %eax
	movq	8(%rsp), %rdi
	movq	(%rdi), %r12
	movq	8(%rdi), %r11
	cmpl	(%rbp,%rsi), %eax
	jb	9f
	movl	52(%rdx), %ecx
	movl	%ecx, 80(%rsp)
	movups	4(%rdx), %xmm0
	movups	20(%rdx), %xmm1
	movups	36(%rdx), %xmm2
	movaps	%xmm2, 64(%rsp)
	movaps	%xmm1, 48(%rsp)
	movaps	%xmm0, 32(%rsp)
	testq	%r13, %r13
	je	19f
	cmpq	$1, %r13
	jne	24f
	xorl	%ecx, %ecx
	xorl	%edx, %edx
	jmp	26f
	.p2align	4
8:
	movq	8(%rsp), %rax
	movq	(%rax), %r12
	movq	8(%rax), %r11
	movl	(%rdx), %eax
9:
	movl	52(%rbp,%rcx), %edx
	movl	%edx, 80(%rsp)
	movups	4(%rbp,%rcx), %xmm0
	movups	20(%rbp,%rcx), %xmm1
	movups	36(%rbp,%rcx), %xmm2
	movaps	%xmm2, 64(%rsp)
	movaps	%xmm1, 48(%rsp)
	movaps	%xmm0, 32(%rsp)
	testq	%r13, %r13
	je	10f
	cmpq	$1, %r13
	jne	11f
	xorl	%ecx, %ecx
	xorl	%edx, %edx
	jmp	13f
	.p2align	4
10:
	xorl	%ecx, %ecx
	jmp	14f
	.p2align	4
11:
	movq	%r11, %rbx
	movq	%r13, %rsi
	andq	$-2, %rsi
	xorl	%ecx, %ecx
	movq	%rbp, %rdi
	xorl	%edx, %edx
	.p2align	4
12:
	movq	%rdx, %r9
	subq	%rcx, %r9
	xorl	%r8d, %r8d
	cmpl	(%rdi), %eax
	movq	%r12, %r10
	cmovbq	%rbp, %r10
	cmovbq	%rcx, %r9
	setb	%r8b
	imulq	$56, %r9, %r9
	movups	(%rdi), %xmm0
	movups	16(%rdi), %xmm1
	movups	32(%rdi), %xmm2
	movq	48(%rdi), %r11
	movq	%r11, 48(%r10,%r9)
	movups	%xmm2, 32(%r10,%r9)
	movups	%xmm1, 16(%r10,%r9)
	movups	%xmm0, (%r10,%r9)
	leaq	(%rcx,%r8), %r9
	movq	%rdx, %r10
	subq	%r9, %r10
	incq	%r10
	cmpl	56(%rdi), %eax
	movq	%r12, %r11
	cmovbq	%rbp, %r11
	cmovbq	%r9, %r10
	adcq	%r8, %rcx
	imulq	$56, %r10, %r8
	movq	104(%rdi), %r9
	movups	56(%rdi), %xmm0
	movups	72(%rdi), %xmm1
	movups	88(%rdi), %xmm2
	movups	%xmm0, (%r11,%r8)
	movups	%xmm1, 16(%r11,%r8)
	movups	%xmm2, 32(%r11,%r8)
	movq	%r9, 48(%r11,%r8)
	addq	$2, %rdx
	addq	$112, %rdi
	cmpq	%rdx, %rsi
	jne	12b
	testb	$1, %r13b
	movq	%rbx, %r11
	je	14f
13:
	imulq	$56, %rdx, %rsi
	subq	%rcx, %rdx
	cmpl	(%rbp,%rsi), %eax
	movq	%r12, %rdi
	cmovbq	%rbp, %rdi
	cmovbq	%rcx, %rdx
	adcq	$0, %rcx
	imulq	$56, %rdx, %rdx
	movq	48(%rbp,%rsi), %r8
	movups	(%rbp,%rsi), %xmm0
	movups	16(%rbp,%rsi), %xmm1
	movups	32(%rbp,%rsi), %xmm2
	movups	%xmm0, (%rdi,%rdx)
	movups	%xmm1, 16(%rdi,%rdx)
	movups	%xmm2, 32(%rdi,%rdx)
	movq	%r8, 48(%rdi,%rdx)
14:
	leaq	1(%r13), %rdx
	movq	%rcx, %rbx
	cmpq	%r14, %rdx
	jae	18f
	movl	%r13d, %esi
	subl	%r14d, %esi
	testb	$1, %sil
	jne	15f
	imulq	$56, %rdx, %rsi
	subq	%rcx, %rdx
	cmpl	(%rbp,%rsi), %eax
	movq	%r12, %rdi
	cmovbq	%rbp, %rdi
	cmovbq	%rcx, %rdx
	movq	%rcx, %rbx
	adcq	$0, %rbx
	imulq	$56, %rdx, %rdx
	movq	48(%rbp,%rsi), %r8
	movups	(%rbp,%rsi), %xmm0
	movups	16(%rbp,%rsi), %xmm1
	movups	32(%rbp,%rsi), %xmm2
	movups	%xmm0, (%rdi,%rdx)
	movups	%xmm1, 16(%rdi,%rdx)
	movups	%xmm2, 32(%rdi,%rdx)
	movq	%r8, 48(%rdi,%rdx)
	leaq	2(%r13), %rdx
	leaq	-2(%r14), %rsi
	cmpq	%r13, %rsi
	jne	16f
	jmp	18f
15:
	movq	%rcx, %rbx
	leaq	-2(%r14), %rsi
	cmpq	%r13, %rsi
	je	18f
16:
	imulq	$56, %rdx, %rsi
	addq	%rbp, %rsi
	.p2align	4
17:
	movq	%rdx, %r8
	subq	%rbx, %r8
	xorl	%edi, %edi
	cmpl	(%rsi), %eax
	movq	%r12, %r9
	cmovbq	%rbp, %r9
	cmovbq	%rbx, %r8
	setb	%dil
	imulq	$56, %r8, %r8
	movups	(%rsi), %xmm0
	movups	16(%rsi), %xmm1
	movups	32(%rsi), %xmm2
	movq	48(%rsi), %r10
	movq	%r10, 48(%r9,%r8)
	movups	%xmm2, 32(%r9,%r8)
	movups	%xmm1, 16(%r9,%r8)
	movups	%xmm0, (%r9,%r8)
	leaq	(%rbx,%rdi), %r8
	movq	%rdx, %r9
	subq	%r8, %r9
	incq	%r9
	cmpl	56(%rsi), %eax
	movq	%r12, %r10
	cmovbq	%rbp, %r10
	cmovbq	%r8, %r9
	adcq	%rdi, %rbx
	imulq	$56, %r9, %rdi
	movq	104(%rsi), %r8
	movups	56(%rsi), %xmm0
	movups	72(%rsi), %xmm1
	movups	88(%rsi), %xmm2
	movups	%xmm0, (%r10,%rdi)
	movups	%xmm1, 16(%r10,%rdi)
	movups	%xmm2, 32(%r10,%rdi)
	movq	%r8, 48(%r10,%rdi)
	addq	$2, %rdx
	addq	$112, %rsi
	cmpq	%rdx, %r14
	jne	17b
18:
	subq	%rcx, %r13
	imulq	$56, %r13, %rcx
	movl	%eax, (%r12,%rcx)
	movaps	32(%rsp), %xmm0
	movaps	48(%rsp), %xmm1
	movaps	64(%rsp), %xmm2
	movups	%xmm0, 4(%r12,%rcx)
	movups	%xmm1, 20(%r12,%rcx)
	movups	%xmm2, 36(%r12,%rcx)
	movl	80(%rsp), %eax
	movl	%eax, 52(%r12,%rcx)
	movq	%r14, %rcx
	subq	%rbx, %rcx
	imulq	$56, %rbx, %rax
	leaq	(%rax,%rbp), %r15
	movq	%rcx, 24(%rsp)
	imulq	$56, %rcx, %rdx
	movq	%r15, %rcx
	subq	%r12, %rcx
	cmpq	%rdx, %rcx
	jae	2b
	cmpq	%rbx, %r14
	je	3b
	movq	24(%rsp), %rsi
	movl	%esi, %ecx
	andl	$7, %ecx
	movq	%rbx, %rdx
	subq	%r14, %rdx
	cmpq	$-8, %rdx
	jbe	20f
	xorl	%edx, %edx
	jmp	22f
19:
	xorl	%ecx, %ecx
	jmp	27f
20:
	andq	$-8, %rsi
	movl	$392, %edi
	xorl	%edx, %edx
	.p2align	4
21:
	movups	-392(%r12,%rdi), %xmm0
	movups	-376(%r12,%rdi), %xmm1
	movups	-360(%r12,%rdi), %xmm2
	movq	-344(%r12,%rdi), %r8
	movq	%r8, -344(%r15,%rdi)
	movups	%xmm2, -360(%r15,%rdi)
	movups	%xmm1, -376(%r15,%rdi)
	movups	%xmm0, -392(%r15,%rdi)
	movups	-336(%r12,%rdi), %xmm0
	movups	-320(%r12,%rdi), %xmm1
	movups	-304(%r12,%rdi), %xmm2
	movq	-288(%r12,%rdi), %r8
	movq	%r8, -288(%r15,%rdi)
	movups	%xmm2, -304(%r15,%rdi)
	movups	%xmm1, -320(%r15,%rdi)
	movups	%xmm0, -336(%r15,%rdi)
	movups	-280(%r12,%rdi), %xmm0
	movups	-264(%r12,%rdi), %xmm1
	movups	-248(%r12,%rdi), %xmm2
	movq	-232(%r12,%rdi), %r8
	movq	%r8, -232(%r15,%rdi)
	movups	%xmm2, -248(%r15,%rdi)
	movups	%xmm1, -264(%r15,%rdi)
	movups	%xmm0, -280(%r15,%rdi)
	movups	-224(%r12,%rdi), %xmm0
	movups	-208(%r12,%rdi), %xmm1
	movups	-192(%r12,%rdi), %xmm2
	movq	-176(%r12,%rdi), %r8
	movq	%r8, -176(%r15,%rdi)
	movups	%xmm2, -192(%r15,%rdi)
	movups	%xmm1, -208(%r15,%rdi)
	movups	%xmm0, -224(%r15,%rdi)
	movups	-168(%r12,%rdi), %xmm0
	movups	-152(%r12,%rdi), %xmm1
	movups	-136(%r12,%rdi), %xmm2
	movq	-120(%r12,%rdi), %r8
	movq	%r8, -120(%r15,%rdi)
	movups	%xmm2, -136(%r15,%rdi)
	movups	%xmm1, -152(%r15,%rdi)
	movups	%xmm0, -168(%r15,%rdi)
	movups	-112(%r12,%rdi), %xmm0
	movups	-96(%r12,%rdi), %xmm1
	movups	-80(%r12,%rdi), %xmm2
	movq	-64(%r12,%rdi), %r8
	movq	%r8, -64(%r15,%rdi)
	movups	%xmm2, -80(%r15,%rdi)
	movups	%xmm1, -96(%r15,%rdi)
	movups	%xmm0, -112(%r15,%rdi)
	movups	-56(%r12,%rdi), %xmm0
	movups	-40(%r12,%rdi), %xmm1
	movups	-24(%r12,%rdi), %xmm2
	movq	-8(%r12,%rdi), %r8
	movq	%r8, -8(%r15,%rdi)
	movups	%xmm2, -24(%r15,%rdi)
	movups	%xmm1, -40(%r15,%rdi)
	movups	%xmm0, -56(%r15,%rdi)
	movups	(%r12,%rdi), %xmm0
	movups	16(%r12,%rdi), %xmm1
	movups	32(%r12,%rdi), %xmm2
	movq	48(%r12,%rdi), %r8
	movq	%r8, 48(%r15,%rdi)
	movups	%xmm2, 32(%r15,%rdi)
	movups	%xmm1, 16(%r15,%rdi)
	movups	%xmm0, (%r15,%rdi)
	addq	$8, %rdx
	addq	$448, %rdi
	cmpq	%rdx, %rsi
	jne	21b
	testq	%rcx, %rcx
	je	3b
22:
	imulq	$56, %rdx, %rdx
	leaq	(%r12,%rdx), %rsi
	addq	%rbp, %rdx
	addq	%rax, %rdx
	imulq	$56, %rcx, %rax
	xorl	%ecx, %ecx
	.p2align	4
23:
	movups	(%rsi,%rcx), %xmm0
	movups	16(%rsi,%rcx), %xmm1
	movups	32(%rsi,%rcx), %xmm2
	movq	48(%rsi,%rcx), %rdi
	movq	%rdi, 48(%rdx,%rcx)
	movups	%xmm2, 32(%rdx,%rcx)
	movups	%xmm1, 16(%rdx,%rcx)
	movups	%xmm0, (%rdx,%rcx)
	addq	$56, %rcx
	cmpq	%rcx, %rax
	jne	23b
	jmp	3b
24:
	movq	%r13, %rsi
	andq	$-2, %rsi
	xorl	%ecx, %ecx
	movq	%rbp, %rdi
	xorl	%edx, %edx
	.p2align	4
25:
	movq	%rdx, %r8
	subq	%rcx, %r8
	cmpl	%eax, (%rdi)
	movq	%r12, %r9
	cmovaeq	%rbp, %r9
	cmovaeq	%rcx, %r8
	sbbq	$-1, %rcx
	imulq	$56, %r8, %r8
	movq	48(%rdi), %r10
	movups	(%rdi), %xmm0
	movups	16(%rdi), %xmm1
	movups	32(%rdi), %xmm2
	movups	%xmm0, (%r9,%r8)
	movups	%xmm1, 16(%r9,%r8)
	movups	%xmm2, 32(%r9,%r8)
	movq	%r10, 48(%r9,%r8)
	movq	%rdx, %r8
	subq	%rcx, %r8
	incq	%r8
	cmpl	%eax, 56(%rdi)
	movq	%r12, %r9
	cmovaeq	%rbp, %r9
	cmovaeq	%rcx, %r8
	sbbq	$-1, %rcx
	imulq	$56, %r8, %r8
	movq	104(%rdi), %r10
	movups	56(%rdi), %xmm0
	movups	72(%rdi), %xmm1
	movups	88(%rdi), %xmm2
	movups	%xmm0, (%r9,%r8)
	movups	%xmm1, 16(%r9,%r8)
	movups	%xmm2, 32(%r9,%r8)
	movq	%r10, 48(%r9,%r8)
	addq	$2, %rdx
	addq	$112, %rdi
	cmpq	%rdx, %rsi
	jne	25b
	testb	$1, %r13b
	je	27f
26:
	imulq	$56, %rdx, %rsi
	subq	%rcx, %rdx
	cmpl	%eax, (%rbp,%rsi)
	movq	%r12, %rdi
	cmovaeq	%rbp, %rdi
	cmovaeq	%rcx, %rdx
	sbbq	$-1, %rcx
	imulq	$56, %rdx, %rdx
	movq	48(%rbp,%rsi), %r8
	movups	(%rbp,%rsi), %xmm0
	movups	16(%rbp,%rsi), %xmm1
	movups	32(%rbp,%rsi), %xmm2
	movups	%xmm0, (%rdi,%rdx)
	movups	%xmm1, 16(%rdi,%rdx)
	movups	%xmm2, 32(%rdi,%rdx)
	movq	%r8, 48(%rdi,%rdx)
27:
	leaq	1(%rcx), %rsi
	leaq	1(%r13), %rdx
	cmpq	%r14, %rdx
	jae	30f
	movl	%r13d, %edi
	subl	%r14d, %edi
	testb	$1, %dil
	jne	28f
	imulq	$56, %rdx, %rdx
	movq	%r13, %rdi
	subq	%rcx, %rdi
	cmpl	%eax, (%rbp,%rdx)
	movq	%r12, %r8
	cmovaeq	%rbp, %r8
	cmovaeq	%rsi, %rdi
	sbbq	$-1, %rsi
	imulq	$56, %rdi, %rdi
	movq	48(%rbp,%rdx), %r9
	movups	(%rbp,%rdx), %xmm0
	movups	16(%rbp,%rdx), %xmm1
	movups	32(%rbp,%rdx), %xmm2
	movups	%xmm0, (%r8,%rdi)
	movups	%xmm1, 16(%r8,%rdi)
	movups	%xmm2, 32(%r8,%rdi)
	movq	%r9, 48(%r8,%rdi)
	leaq	2(%r13), %rdx
28:
	leaq	-2(%r14), %rdi
	cmpq	%r13, %rdi
	je	30f
	imulq	$56, %rdx, %rdi
	addq	%rbp, %rdi
	.p2align	4
29:
	movq	%rdx, %r8
	subq	%rsi, %r8
	cmpl	%eax, (%rdi)
	movq	%r12, %r9
	cmovaeq	%rbp, %r9
	cmovaeq	%rsi, %r8
	sbbq	$-1, %rsi
	imulq	$56, %r8, %r8
	movq	48(%rdi), %r10
	movups	(%rdi), %xmm0
	movups	16(%rdi), %xmm1
	movups	32(%rdi), %xmm2
	movups	%xmm0, (%r9,%r8)
	movups	%xmm1, 16(%r9,%r8)
	movups	%xmm2, 32(%r9,%r8)
	movq	%r10, 48(%r9,%r8)
	movq	%rdx, %r8
	subq	%rsi, %r8
	incq	%r8
	cmpl	%eax, 56(%rdi)
	movq	%r12, %r9
	cmovaeq	%rbp, %r9
	cmovaeq	%rsi, %r8
	sbbq	$-1, %rsi
	imulq	$56, %r8, %r8
	movq	104(%rdi), %r10
	movups	56(%rdi), %xmm0
	movups	72(%rdi), %xmm1
	movups	88(%rdi), %xmm2
	movups	%xmm0, (%r9,%r8)
	movups	%xmm1, 16(%r9,%r8)
	movups	%xmm2, 32(%r9,%r8)
	movq	%r10, 48(%r9,%r8)
	addq	$2, %rdx
	addq	$112, %rdi
	cmpq	%rdx, %r14
	jne	29b
30:
	imulq	$56, %rcx, %rcx
	movl	%eax, (%rbp,%rcx)
	movaps	32(%rsp), %xmm0
	movaps	48(%rsp), %xmm1
	movaps	64(%rsp), %xmm2
	movups	%xmm0, 4(%rbp,%rcx)
	movups	%xmm1, 20(%rbp,%rcx)
	movups	%xmm2, 36(%rbp,%rcx)
	movl	80(%rsp), %eax
	movl	%eax, 52(%rbp,%rcx)
	movq	%r14, %r13
	subq	%rsi, %r13
	imulq	$56, %rsi, %rax
	leaq	(%rax,%rbp), %r15
	imulq	$56, %r13, %rdx
	movq	%r15, %rcx
	subq	%r12, %rcx
	cmpq	%rdx, %rcx
	jae	31f
	cmpq	%rsi, %r14
	je	36f
	movl	%r13d, %ecx
	andl	$7, %ecx
	subq	%r14, %rsi
	cmpq	$-8, %rsi
	jbe	32f
	xorl	%edx, %edx
	jmp	34f
31:
	movq	%r15, %rdi
	movq	%r12, %rsi
	movq	%r11, %rbx
	callq	memmove@PLT
	movq	%rbx, %r11
	jmp	36f
32:
	movq	%r13, %rsi
	andq	$-8, %rsi
	movl	$392, %edi
	xorl	%edx, %edx
	.p2align	4
33:
	movups	-392(%r12,%rdi), %xmm0
	movups	-376(%r12,%rdi), %xmm1
	movups	-360(%r12,%rdi), %xmm2
	movq	-344(%r12,%rdi), %r8
	movq	%r8, -344(%r15,%rdi)
	movups	%xmm2, -360(%r15,%rdi)
	movups	%xmm1, -376(%r15,%rdi)
	movups	%xmm0, -392(%r15,%rdi)
	movups	-336(%r12,%rdi), %xmm0
	movups	-320(%r12,%rdi), %xmm1
	movups	-304(%r12,%rdi), %xmm2
	movq	-288(%r12,%rdi), %r8
	movq	%r8, -288(%r15,%rdi)
	movups	%xmm2, -304(%r15,%rdi)
	movups	%xmm1, -320(%r15,%rdi)
	movups	%xmm0, -336(%r15,%rdi)
	movups	-280(%r12,%rdi), %xmm0
	movups	-264(%r12,%rdi), %xmm1
	movups	-248(%r12,%rdi), %xmm2
	movq	-232(%r12,%rdi), %r8
	movq	%r8, -232(%r15,%rdi)
	movups	%xmm2, -248(%r15,%rdi)
	movups	%xmm1, -264(%r15,%rdi)
	movups	%xmm0, -280(%r15,%rdi)
	movups	-224(%r12,%rdi), %xmm0
	movups	-208(%r12,%rdi), %xmm1
	movups	-192(%r12,%rdi), %xmm2
	movq	-176(%r12,%rdi), %r8
	movq	%r8, -176(%r15,%rdi)
	movups	%xmm2, -192(%r15,%rdi)
	movups	%xmm1, -208(%r15,%rdi)
	movups	%xmm0, -224(%r15,%rdi)
	movups	-168(%r12,%rdi), %xmm0
	movups	-152(%r12,%rdi), %xmm1
	movups	-136(%r12,%rdi), %xmm2
	movq	-120(%r12,%rdi), %r8
	movq	%r8, -120(%r15,%rdi)
	movups	%xmm2, -136(%r15,%rdi)
	movups	%xmm1, -152(%r15,%rdi)
	movups	%xmm0, -168(%r15,%rdi)
	movups	-112(%r12,%rdi), %xmm0
	movups	-96(%r12,%rdi), %xmm1
	movups	-80(%r12,%rdi), %xmm2
	movq	-64(%r12,%rdi), %r8
	movq	%r8, -64(%r15,%rdi)
	movups	%xmm2, -80(%r15,%rdi)
	movups	%xmm1, -96(%r15,%rdi)
	movups	%xmm0, -112(%r15,%rdi)
	movups	-56(%r12,%rdi), %xmm0
	movups	-40(%r12,%rdi), %xmm1
	movups	-24(%r12,%rdi), %xmm2
	movq	-8(%r12,%rdi), %r8
	movq	%r8, -8(%r15,%rdi)
	movups	%xmm2, -24(%r15,%rdi)
	movups	%xmm1, -40(%r15,%rdi)
	movups	%xmm0, -56(%r15,%rdi)
	movups	(%r12,%rdi), %xmm0
	movups	16(%r12,%rdi), %xmm1
	movups	32(%r12,%rdi), %xmm2
	movq	48(%r12,%rdi), %r8
	movq	%r8, 48(%r15,%rdi)
	movups	%xmm2, 32(%r15,%rdi)
	movups	%xmm1, 16(%r15,%rdi)
	movups	%xmm0, (%r15,%rdi)
	addq	$8, %rdx
	addq	$448, %rdi
	cmpq	%rdx, %rsi
	jne	33b
	testq	%rcx, %rcx
	je	36f
34:
	imulq	$56, %rdx, %rsi
	leaq	(%r12,%rsi), %rdx
	addq	%rsi, %rbp
	addq	%rax, %rbp
	imulq	$56, %rcx, %rax
	xorl	%ecx, %ecx
	.p2align	4
35:
	movups	(%rdx,%rcx), %xmm0
	movups	16(%rdx,%rcx), %xmm1
	movups	32(%rdx,%rcx), %xmm2
	movq	48(%rdx,%rcx), %rsi
	movq	%rsi, 48(%rbp,%rcx)
	movups	%xmm2, 32(%rbp,%rcx)
	movups	%xmm1, 16(%rbp,%rcx)
	movups	%xmm0, (%rbp,%rcx)
	addq	$56, %rcx
	cmpq	%rcx, %rax
	jne	35b
36:
	movq	8(%rsp), %rax
	movq	%r12, (%rax)
	movq	%r11, 8(%rax)
	movl	20(%rsp), %r12d
	decl	%r12d
	jmp	4b
37:
	movq	%rbp, %rdi
	movq	%r14, %rsi
	movq	8(%rsp), %rdx
	addq	$104, %rsp
	popq	%rbx
	popq	%r12
	popq	%r13
	popq	%r14
	popq	%r15
	popq	%rbp
	jmp	"core::slice::sort::stable::merge_sort::<#24df1801f4a811cc>"
38:
	.size	"core::slice::sort::stable::quicksort::<#24df1801f4a811cc>", 38b-"core::slice::sort::stable::quicksort::<#24df1801f4a811cc>"

	.text
	.p2align	4
	.type	"core::slice::sort::stable::quicksort::<#32fabb223415b920>",@function
"core::slice::sort::stable::quicksort::<#32fabb223415b920>":
	pushq	%rbp
	pushq	%r15
	pushq	%r14
	pushq	%r13
	pushq	%r12
	pushq	%rbx
	subq	$104, %rsp
	movq	%r8, %rbp
	movl	%ecx, %r13d
	movq	%rdx, %rbx
	movq	%rsi, %r14
	cmpq	$33, %rsi
	movq	%r8, 64(%rsp)
	jae	4f
1:
	movq	%r14, %rsi
	movq	%rbp, %rdx
	addq	$104, %rsp
	popq	%rbx
	popq	%r12
	popq	%r13
	popq	%r14
	popq	%r15
	popq	%rbp
	jmp	"core::slice::sort::short::sort::<#32fabb223415b920>"
	.p2align	4
2:
	movq	%r15, %rdi
	movq	%r13, %rsi
	callq	memmove@PLT
	movq	40(%rsp), %r9
	movq	64(%rsp), %rbp
3:
	movq	%r13, (%rbp)
	movq	72(%rsp), %rax
	movq	%rax, 8(%rbp)
	movl	52(%rsp), %r13d
	decl	%r13d
	movq	%r9, %rdi
	movq	%r14, %rsi
	movq	32(%rsp), %rdx
	movl	%r13d, %ecx
	movq	%rbp, %r8
	callq	"core::slice::sort::stable::quicksort::<#32fabb223415b920>"
	movq	%r15, %rdi
	movq	%r12, %r14
	cmpq	$33, %r12
	jb	1b
4:
	testl	%r13d, %r13d
	je	38f
	movq	%r14, %r8
	shrq	$3, %r8
	leaq	(,%r8,4), %rdx
	movq	%r14, %rcx
	andq	$-8, %rcx
	subq	%r8, %rcx
	cmpq	$63, %r14
	movq	%rdi, 40(%rsp)
	ja	5f
	xorl	%esi, %esi
	callq	"core::slice::sort::pivot::median_of_three::<#32fabb223415b920>"
	jmp	6f
	.p2align	4
5:
	xorl	%esi, %esi
	callq	"core::slice::sort::pivot::median_of_medians::<#32fabb223415b920>"
6:
	movq	%rax, 8(%rsp)
	movq	%r14, 32(%rsp)
	cmpq	%r14, %rbx
	movl	%r13d, 52(%rsp)
	jae	7f
	shlq	$3, %rbx
	leaq	(%rbx,%rbx,4), %rax
	movq	8(%rsp), %rcx
	leaq	(,%rcx,8), %rcx
	leaq	(%rcx,%rcx,4), %r15
	movq	40(%rsp), %r9
	leaq	(%r9,%r15), %rbx
	movq	(%r9,%rax), %rcx
	movq	(%r9,%r15), %r14
	cmpq	%r14, %rcx
	jne	17f
	movq	8(%r9,%rax), %rdi
	movq	16(%r9,%rax), %rsi
	movq	8(%rbx), %rdx
	movq	16(%rbx), %rcx
	movq	%rdx, 24(%rsp)
	movq	%rcx, 16(%rsp)
	callq	"core::cmp::slices::RefSliceOrd::cmp::<#914af4d8504a0b72>"
	movq	40(%rsp), %r9
	testb	%al, %al
	jne	18f
	jmp	8f
	.p2align	4
7:
	movq	8(%rsp), %rax
	leaq	(,%rax,8), %rax
	leaq	(%rax,%rax,4), %r15
	movq	40(%rsp), %r9
8:
	movq	(%rbp), %r13
	movq	8(%rbp), %rax
	movq	%rax, 72(%rsp)
	movq	(%r9,%r15), %r12
	movq	8(%r9,%r15), %rax
	movq	%rax, 24(%rsp)
	movq	16(%r9,%r15), %rax
	movq	%rax, 16(%rsp)
	movups	24(%r9,%r15), %xmm0
	movaps	%xmm0, 80(%rsp)
	movq	%r12, %rax
	bswapq	%rax
	movq	%rax, 56(%rsp)
	movq	8(%rsp), %rbp
	xorl	%ebx, %ebx
	testq	%rbp, %rbp
	je	12f
	movq	%r9, %r14
	xorl	%r15d, %r15d
	jmp	11f
	.p2align	4
9:
	movq	8(%r14), %rdi
	movq	16(%r14), %rsi
	movq	24(%rsp), %rdx
	movq	16(%rsp), %rcx
	callq	"core::cmp::slices::RefSliceOrd::cmp::<#914af4d8504a0b72>"
	movq	40(%rsp), %r9
	testb	%al, %al
	sete	%al
10:
	movq	%r15, %rcx
	subq	%rbx, %rcx
	testb	%al, %al
	movq	%r13, %rdx
	cmovneq	%r9, %rdx
	cmovneq	%rbx, %rcx
	leaq	(%rcx,%rcx,4), %rcx
	movups	(%r14), %xmm0
	movups	16(%r14), %xmm1
	movq	32(%r14), %rsi
	movq	%rsi, 32(%rdx,%rcx,8)
	movups	%xmm1, 16(%rdx,%rcx,8)
	movups	%xmm0, (%rdx,%rcx,8)
	movzbl	%al, %eax
	addq	%rax, %rbx
	incq	%r15
	addq	$40, %r14
	cmpq	%r15, %rbp
	je	12f
11:
	movq	(%r14), %rax
	cmpq	%r12, %rax
	je	9b
	bswapq	%rax
	cmpq	56(%rsp), %rax
	setb	%al
	jmp	10b
	.p2align	4
12:
	leaq	1(%rbp), %r15
	movq	%rbx, %r14
	cmpq	32(%rsp), %r15
	jae	16f
	movq	8(%rsp), %rax
	leaq	(%rax,%rax,4), %rax
	leaq	(%r9,%rax,8), %rbp
	addq	$40, %rbp
	movq	%rbx, %r14
	jmp	15f
	.p2align	4
13:
	movq	8(%rbp), %rdi
	movq	16(%rbp), %rsi
	movq	24(%rsp), %rdx
	movq	16(%rsp), %rcx
	callq	"core::cmp::slices::RefSliceOrd::cmp::<#914af4d8504a0b72>"
	movq	40(%rsp), %r9
	testb	%al, %al
	sete	%al
14:
	movq	%r15, %rcx
	subq	%r14, %rcx
	testb	%al, %al
	movq	%r13, %rdx
	cmovneq	%r9, %rdx
	cmovneq	%r14, %rcx
	leaq	(%rcx,%rcx,4), %rcx
	movups	(%rbp), %xmm0
	movups	16(%rbp), %xmm1
	movq	32(%rbp), %rsi
	movq	%rsi, 32(%rdx,%rcx,8)
	movups	%xmm1, 16(%rdx,%rcx,8)
	movups	%xmm0, (%rdx,%rcx,8)
	movzbl	%al, %eax
	addq	%rax, %r14
	incq	%r15
	addq	$40, %rbp
	cmpq	%r15, 32(%rsp)
	je	16f
15:
	movq	(%rbp), %rax
	cmpq	%r12, %rax
	je	13b
	bswapq	%rax
	cmpq	56(%rsp), %rax
	setb	%al
	jmp	14b
	.p2align	4
16:
	movq	8(%rsp), %rax
	subq	%rbx, %rax
	movq	%rax, %rbx
	leaq	(%rax,%rax,4), %rax
	movq	%r12, (%r13,%rax,8)
	movq	24(%rsp), %rcx
	movq	%rcx, 8(%r13,%rax,8)
	movq	16(%rsp), %rcx
	movq	%rcx, 16(%r13,%rax,8)
	movaps	80(%rsp), %xmm0
	movups	%xmm0, 24(%r13,%rax,8)
	movq	32(%rsp), %rsi
	movq	%rsi, %r12
	subq	%r14, %r12
	leaq	(,%r14,8), %rax
	leaq	(%rax,%rax,4), %rax
	leaq	(%r9,%rax), %r15
	leaq	(,%r12,8), %rcx
	leaq	(%rcx,%rcx,4), %rdx
	movq	%r15, %rcx
	subq	%r13, %rcx
	cmpq	%rdx, %rcx
	jae	2b
	cmpq	%r14, %rsi
	movq	64(%rsp), %rbp
	je	3b
	movl	%r12d, %ecx
	andl	$7, %ecx
	movq	%r14, %rdx
	subq	32(%rsp), %rdx
	cmpq	$-8, %rdx
	jbe	29f
	xorl	%edx, %edx
	jmp	31f
	.p2align	4
17:
	movq	%r14, %rax
	bswapq	%rax
	bswapq	%rcx
	cmpq	%rax, %rcx
	jb	8b
	movq	8(%rbx), %rax
	movq	%rax, 24(%rsp)
	movq	16(%rbx), %rax
	movq	%rax, 16(%rsp)
18:
	movq	(%rbp), %r13
	movq	8(%rbp), %rax
	movq	%rax, 72(%rsp)
	movups	24(%rbx), %xmm0
	movaps	%xmm0, 80(%rsp)
	cmpq	$0, 8(%rsp)
	je	22f
	movq	%r14, %rbx
	bswapq	%rbx
	xorl	%r12d, %r12d
	movq	%r9, %r15
	xorl	%ebp, %ebp
	jmp	21f
	.p2align	4
19:
	movq	8(%r15), %rdx
	movq	16(%r15), %rcx
	movq	24(%rsp), %rdi
	movq	16(%rsp), %rsi
	callq	"core::cmp::slices::RefSliceOrd::cmp::<#914af4d8504a0b72>"
	movq	40(%rsp), %r9
	testb	%al, %al
	sete	%al
20:
	movl	%eax, %ecx
	xorb	$1, %cl
	movq	%rbp, %rdx
	subq	%r12, %rdx
	testb	%al, %al
	movq	%r9, %rax
	cmovneq	%r13, %rax
	cmoveq	%r12, %rdx
	leaq	(%rdx,%rdx,4), %rdx
	movups	(%r15), %xmm0
	movups	16(%r15), %xmm1
	movq	32(%r15), %rsi
	movq	%rsi, 32(%rax,%rdx,8)
	movups	%xmm1, 16(%rax,%rdx,8)
	movups	%xmm0, (%rax,%rdx,8)
	movzbl	%cl, %eax
	addq	%rax, %r12
	incq	%rbp
	addq	$40, %r15
	cmpq	%rbp, 8(%rsp)
	je	23f
21:
	movq	(%r15), %rax
	cmpq	%rax, %r14
	je	19b
	bswapq	%rax
	cmpq	%rax, %rbx
	setb	%al
	jmp	20b
22:
	xorl	%r12d, %r12d
23:
	leaq	1(%r12), %rbp
	movq	8(%rsp), %rax
	leaq	1(%rax), %rbx
	cmpq	32(%rsp), %rbx
	jae	27f
	movq	%r14, %rcx
	bswapq	%rcx
	movq	%rcx, 56(%rsp)
	leaq	(%rax,%rax,4), %rax
	leaq	(%r9,%rax,8), %r15
	addq	$40, %r15
	jmp	26f
	.p2align	4
24:
	movq	8(%r15), %rdx
	movq	16(%r15), %rcx
	movq	24(%rsp), %rdi
	movq	16(%rsp), %rsi
	callq	"core::cmp::slices::RefSliceOrd::cmp::<#914af4d8504a0b72>"
	movq	40(%rsp), %r9
	testb	%al, %al
	sete	%al
25:
	movl	%eax, %ecx
	xorb	$1, %cl
	movq	%rbx, %rdx
	subq	%rbp, %rdx
	testb	%al, %al
	movq	%r9, %rax
	cmovneq	%r13, %rax
	cmoveq	%rbp, %rdx
	leaq	(%rdx,%rdx,4), %rdx
	movups	(%r15), %xmm0
	movups	16(%r15), %xmm1
	movq	32(%r15), %rsi
	movq	%rsi, 32(%rax,%rdx,8)
	movups	%xmm1, 16(%rax,%rdx,8)
	movups	%xmm0, (%rax,%rdx,8)
	movzbl	%cl, %eax
	addq	%rax, %rbp
	incq	%rbx
	addq	$40, %r15
	cmpq	%rbx, 32(%rsp)
	je	27f
26:
	movq	(%r15), %rax
	cmpq	%rax, %r14
	je	24b
	bswapq	%rax
	cmpq	%rax, 56(%rsp)
	setb	%al
	jmp	25b
	.p2align	4
27:
	leaq	(%r12,%r12,4), %rax
	movq	%r14, (%r9,%rax,8)
	movq	24(%rsp), %rcx
	movq	%rcx, 8(%r9,%rax,8)
	movq	16(%rsp), %rcx
	movq	%rcx, 16(%r9,%rax,8)
	movaps	80(%rsp), %xmm0
	movups	%xmm0, 24(%r9,%rax,8)
	movq	32(%rsp), %rbx
	movq	%rbx, %r12
	subq	%rbp, %r12
	leaq	(,%rbp,8), %rax
	leaq	(%rax,%rax,4), %rax
	leaq	(%r9,%rax), %r15
	leaq	(,%r12,8), %rcx
	leaq	(%rcx,%rcx,4), %rdx
	movq	%r15, %rcx
	subq	%r13, %rcx
	cmpq	%rdx, %rcx
	jae	28f
	cmpq	%rbp, %rbx
	je	37f
	movl	%r12d, %ecx
	andl	$7, %ecx
	subq	%rbx, %rbp
	cmpq	$-8, %rbp
	jbe	33f
	xorl	%edx, %edx
	jmp	35f
28:
	movq	%r15, %rdi
	movq	%r13, %rsi
	callq	memmove@PLT
	jmp	37f
29:
	movq	%r12, %rsi
	andq	$-8, %rsi
	movl	$280, %edi
	xorl	%edx, %edx
	.p2align	4
30:
	movups	-280(%r13,%rdi), %xmm0
	movups	-264(%r13,%rdi), %xmm1
	movq	-248(%r13,%rdi), %r8
	movq	%r8, -248(%r15,%rdi)
	movups	%xmm1, -264(%r15,%rdi)
	movups	%xmm0, -280(%r15,%rdi)
	movups	-240(%r13,%rdi), %xmm0
	movups	-224(%r13,%rdi), %xmm1
	movq	-208(%r13,%rdi), %r8
	movq	%r8, -208(%r15,%rdi)
	movups	%xmm1, -224(%r15,%rdi)
	movups	%xmm0, -240(%r15,%rdi)
	movups	-200(%r13,%rdi), %xmm0
	movups	-184(%r13,%rdi), %xmm1
	movq	-168(%r13,%rdi), %r8
	movq	%r8, -168(%r15,%rdi)
	movups	%xmm1, -184(%r15,%rdi)
	movups	%xmm0, -200(%r15,%rdi)
	movups	-160(%r13,%rdi), %xmm0
	movups	-144(%r13,%rdi), %xmm1
	movq	-128(%r13,%rdi), %r8
	movq	%r8, -128(%r15,%rdi)
	movups	%xmm1, -144(%r15,%rdi)
	movups	%xmm0, -160(%r15,%rdi)
	movups	-120(%r13,%rdi), %xmm0
	movups	-104(%r13,%rdi), %xmm1
	movq	-88(%r13,%rdi), %r8
	movq	%r8, -88(%r15,%rdi)
	movups	%xmm1, -104(%r15,%rdi)
	movups	%xmm0, -120(%r15,%rdi)
	movups	-80(%r13,%rdi), %xmm0
	movups	-64(%r13,%rdi), %xmm1
	movq	-48(%r13,%rdi), %r8
	movq	%r8, -48(%r15,%rdi)
	movups	%xmm1, -64(%r15,%rdi)
	movups	%xmm0, -80(%r15,%rdi)
	movups	-40(%r13,%rdi), %xmm0
	movups	-24(%r13,%rdi), %xmm1
	movq	-8(%r13,%rdi), %r8
	movq	%r8, -8(%r15,%rdi)
	movups	%xmm1, -24(%r15,%rdi)
	movups	%xmm0, -40(%r15,%rdi)
	movups	(%r13,%rdi), %xmm0
	movups	16(%r13,%rdi), %xmm1
	movq	32(%r13,%rdi), %r8
	movq	%r8, 32(%r15,%rdi)
	movups	%xmm1, 16(%r15,%rdi)
	movups	%xmm0, (%r15,%rdi)
	addq	$8, %rdx
	addq	$320, %rdi
	cmpq	%rdx, %rsi
	jne	30b
	testq	%rcx, %rcx
	je	3b
31:
	shlq	$3, %rdx
	leaq	(%rdx,%rdx,4), %rdx
	leaq	(%rdx,%r13), %rsi
	addq	%r9, %rdx
	addq	%rax, %rdx
	shll	$3, %ecx
	leaq	(%rcx,%rcx,4), %rax
	xorl	%ecx, %ecx
	.p2align	4
32:
	movups	(%rsi,%rcx), %xmm0
	movups	16(%rsi,%rcx), %xmm1
	movq	32(%rsi,%rcx), %rdi
	movq	%rdi, 32(%rdx,%rcx)
	movups	%xmm1, 16(%rdx,%rcx)
	movups	%xmm0, (%rdx,%rcx)
	addq	$40, %rcx
	cmpq	%rcx, %rax
	jne	32b
	jmp	3b
33:
	movq	%r12, %rsi
	andq	$-8, %rsi
	movl	$280, %edi
	xorl	%edx, %edx
	.p2align	4
34:
	movups	-280(%r13,%rdi), %xmm0
	movups	-264(%r13,%rdi), %xmm1
	movq	-248(%r13,%rdi), %r8
	movq	%r8, -248(%r15,%rdi)
	movups	%xmm1, -264(%r15,%rdi)
	movups	%xmm0, -280(%r15,%rdi)
	movups	-240(%r13,%rdi), %xmm0
	movups	-224(%r13,%rdi), %xmm1
	movq	-208(%r13,%rdi), %r8
	movq	%r8, -208(%r15,%rdi)
	movups	%xmm1, -224(%r15,%rdi)
	movups	%xmm0, -240(%r15,%rdi)
	movups	-200(%r13,%rdi), %xmm0
	movups	-184(%r13,%rdi), %xmm1
	movq	-168(%r13,%rdi), %r8
	movq	%r8, -168(%r15,%rdi)
	movups	%xmm1, -184(%r15,%rdi)
	movups	%xmm0, -200(%r15,%rdi)
	movups	-160(%r13,%rdi), %xmm0
	movups	-144(%r13,%rdi), %xmm1
	movq	-128(%r13,%rdi), %r8
	movq	%r8, -128(%r15,%rdi)
	movups	%xmm1, -144(%r15,%rdi)
	movups	%xmm0, -160(%r15,%rdi)
	movups	-120(%r13,%rdi), %xmm0
	movups	-104(%r13,%rdi), %xmm1
	movq	-88(%r13,%rdi), %r8
	movq	%r8, -88(%r15,%rdi)
	movups	%xmm1, -104(%r15,%rdi)
	movups	%xmm0, -120(%r15,%rdi)
	movups	-80(%r13,%rdi), %xmm0
	movups	-64(%r13,%rdi), %xmm1
	movq	-48(%r13,%rdi), %r8
	movq	%r8, -48(%r15,%rdi)
	movups	%xmm1, -64(%r15,%rdi)
	movups	%xmm0, -80(%r15,%rdi)
	movups	-40(%r13,%rdi), %xmm0
	movups	-24(%r13,%rdi), %xmm1
	movq	-8(%r13,%rdi), %r8
	movq	%r8, -8(%r15,%rdi)
	movups	%xmm1, -24(%r15,%rdi)
	movups	%xmm0, -40(%r15,%rdi)
	movups	(%r13,%rdi), %xmm0
	movups	16(%r13,%rdi), %xmm1
	movq	32(%r13,%rdi), %r8
	movq	%r8, 32(%r15,%rdi)
	movups	%xmm1, 16(%r15,%rdi)
	movups	%xmm0, (%r15,%rdi)
	addq	$8, %rdx
	addq	$320, %rdi
	cmpq	%rdx, %rsi
	jne	34b
	testq	%rcx, %rcx
	je	37f
35:
	shlq	$3, %rdx
	leaq	(%rdx,%rdx,4), %rsi
	leaq	(%rsi,%r13), %rdx
	addq	%rsi, %r9
	addq	%rax, %r9
	shll	$3, %ecx
	leaq	(%rcx,%rcx,4), %rax
	xorl	%ecx, %ecx
	.p2align	4
36:
	movups	(%rdx,%rcx), %xmm0
	movups	16(%rdx,%rcx), %xmm1
	movq	32(%rdx,%rcx), %rsi
	movq	%rsi, 32(%r9,%rcx)
	movups	%xmm1, 16(%r9,%rcx)
	movups	%xmm0, (%r9,%rcx)
	addq	$40, %rcx
	cmpq	%rcx, %rax
	jne	36b
37:
	movq	64(%rsp), %rbp
	movq	%r13, (%rbp)
	movq	72(%rsp), %rax
	movq	%rax, 8(%rbp)
	movl	52(%rsp), %r13d
	decl	%r13d
	movq	%r15, %rdi
	movq	%r12, %r14
	cmpq	$33, %r12
	jae	4b
	jmp	1b
38:
	movq	%r14, %rsi
	movq	%rbp, %rdx
	addq	$104, %rsp
	popq	%rbx
	popq	%r12
	popq	%r13
	popq	%r14
	popq	%r15
	popq	%rbp
	jmp	"core::slice::sort::stable::merge_sort::<#32fabb223415b920>"
39:
	.size	"core::slice::sort::stable::quicksort::<#32fabb223415b920>", 39b-"core::slice::sort::stable::quicksort::<#32fabb223415b920>"

	.text
	.p2align	4
	.type	"core::slice::sort::stable::quicksort::<#54047240e3f04dbb>",@function
"core::slice::sort::stable::quicksort::<#54047240e3f04dbb>":
	pushq	%rbp
	pushq	%r15
	pushq	%r14
	pushq	%r13
	pushq	%r12
	pushq	%rbx
	subq	$184, %rsp
	movq	%r8, 80(%rsp)
	movl	%ecx, %r12d
	movq	%rdx, %rbx
	movq	%rsi, %r14
	movq	%rdi, %rbp
	cmpq	$33, %rsi
	jae	5f
1:
	movq	%rbp, %rdi
	movq	%r14, %rsi
	movq	80(%rsp), %rdx
	addq	$184, %rsp
	popq	%rbx
	popq	%r12
	popq	%r13
	popq	%r14
	popq	%r15
	popq	%rbp
	jmp	"core::slice::sort::short::sort::<#54047240e3f04dbb>"
	.p2align	4
2:
	movq	%r15, %rdi
	movq	%r12, %rsi
	callq	memmove@PLT
	movq	88(%rsp), %r9
3:
	movq	80(%rsp), %r8
	movq	%r12, (%r8)
	movq	%r9, 8(%r8)
	movl	100(%rsp), %r12d
	decl	%r12d
	movq	%rbp, %rdi
	movq	%rbx, %rsi
	movq	%r14, %rdx
	movl	%r12d, %ecx
	callq	"core::slice::sort::stable::quicksort::<#54047240e3f04dbb>"
	movq	%r13, %r14
	movq	104(%rsp), %r13
4:
	movq	%r14, %rbx
	movq	%r15, %rbp
	movq	%r13, %r14
	cmpq	$33, %r13
	jb	1b
5:
	testl	%r12d, %r12d
	je	22f
	movq	%r14, %r8
	shrq	$3, %r8
	leaq	(,%r8,4), %rdx
	movq	%r14, %rcx
	andq	$-8, %rcx
	subq	%r8, %rcx
	cmpq	$63, %r14
	ja	6f
	leaq	(%r8,%r8,4), %rax
	shlq	$6, %rax
	movl	(%rbp), %esi
	movl	(%rbp,%rax), %eax
	cmpl	%esi, %eax
	setb	%dil
	imulq	$560, %r8, %r8
	movl	(%rbp,%r8), %r8d
	cmpl	%esi, %r8d
	setb	%sil
	xorb	%dil, %sil
	cmpl	%eax, %r8d
	setb	%al
	xorb	%dil, %al
	cmovneq	%rcx, %rdx
	xorl	%r13d, %r13d
	testb	%sil, %sil
	cmoveq	%rdx, %r13
	jmp	7f
	.p2align	4
6:
	movq	%rbp, %rdi
	xorl	%esi, %esi
	callq	"core::slice::sort::pivot::median_of_medians::<#54047240e3f04dbb>"
	movq	%rax, %r13
7:
	movl	%r12d, 100(%rsp)
	movq	%r13, %rax
	shlq	$4, %rax
	leaq	(%rax,%rax,4), %rdx
	leaq	(%rdx,%rbp), %rsi
	cmpq	%r14, %rbx
	jae	13f
	leaq	(%rbx,%rbx,4), %rcx
	shlq	$4, %rcx
	movl	(%rsi), %eax
	movq	80(%rsp), %rdi
	movq	(%rdi), %r12
	movq	8(%rdi), %rdi
	cmpl	(%rbp,%rcx), %eax
	jb	14f
	movq	%rdi, 88(%rsp)
	movzbl	8(%rsi), %ecx
	movq	48(%rsi), %rdx
	movq	%rdx, 176(%rsp)
	movups	16(%rsi), %xmm0
	movups	32(%rsi), %xmm1
	movaps	%xmm1, 160(%rsp)
	movaps	%xmm0, 144(%rsp)
	movups	56(%rsi), %xmm0
	movaps	%xmm0, 112(%rsp)
	movq	72(%rsi), %rdx
	movq	%rdx, 128(%rsp)
	xorl	%edx, %edx
	testq	%r13, %r13
	je	9f
	movq	%rbp, %rsi
	xorl	%edi, %edi
	.p2align	4
8:
	movl	(%rsi), %r8d
	movq	%rdi, %r9
	subq	%rdx, %r9
	cmpl	%eax, %r8d
	movzbl	8(%rsi), %r10d
	movq	48(%rsi), %r11
	movq	%r11, 64(%rsp)
	movups	16(%rsi), %xmm0
	movups	32(%rsi), %xmm1
	movaps	%xmm1, 48(%rsp)
	movaps	%xmm0, 32(%rsp)
	movq	72(%rsi), %r11
	movq	%r11, 16(%rsp)
	movups	56(%rsi), %xmm0
	movq	%r12, %r11
	cmovaeq	%rbp, %r11
	cmovaeq	%rdx, %r9
	movaps	%xmm0, (%rsp)
	leaq	(%r9,%r9,4), %r9
	sbbq	$-1, %rdx
	shlq	$4, %r9
	movl	%r8d, (%r11,%r9)
	movq	%r10, 8(%r11,%r9)
	movaps	32(%rsp), %xmm0
	movaps	48(%rsp), %xmm1
	movups	%xmm0, 16(%r11,%r9)
	movups	%xmm1, 32(%r11,%r9)
	movq	64(%rsp), %r8
	movq	%r8, 48(%r11,%r9)
	movaps	(%rsp), %xmm0
	movups	%xmm0, 56(%r11,%r9)
	movq	16(%rsp), %r8
	movq	%r8, 72(%r11,%r9)
	incq	%rdi
	addq	$80, %rsi
	cmpq	%rdi, %r13
	jne	8b
9:
	leaq	1(%rdx), %rsi
	leaq	1(%r13), %rdi
	cmpq	%r14, %rdi
	jae	11f
	leaq	(,%r13,4), %r8
	addq	%r13, %r8
	shlq	$4, %r8
	addq	%rbp, %r8
	addq	$80, %r8
	.p2align	4
10:
	movl	(%r8), %r9d
	movq	%rdi, %r10
	subq	%rsi, %r10
	cmpl	%eax, %r9d
	movzbl	8(%r8), %r11d
	movq	48(%r8), %rbx
	movq	%rbx, 64(%rsp)
	movups	16(%r8), %xmm0
	movups	32(%r8), %xmm1
	movaps	%xmm1, 48(%rsp)
	movaps	%xmm0, 32(%rsp)
	movq	72(%r8), %rbx
	movq	%rbx, 16(%rsp)
	movups	56(%r8), %xmm0
	movq	%r12, %rbx
	cmovaeq	%rbp, %rbx
	cmovaeq	%rsi, %r10
	movaps	%xmm0, (%rsp)
	leaq	(%r10,%r10,4), %r10
	sbbq	$-1, %rsi
	shlq	$4, %r10
	movl	%r9d, (%rbx,%r10)
	movq	%r11, 8(%rbx,%r10)
	movaps	32(%rsp), %xmm0
	movaps	48(%rsp), %xmm1
	movups	%xmm0, 16(%rbx,%r10)
	movups	%xmm1, 32(%rbx,%r10)
	movq	64(%rsp), %r9
	movq	%r9, 48(%rbx,%r10)
	movaps	(%rsp), %xmm0
	movups	%xmm0, 56(%rbx,%r10)
	movq	16(%rsp), %r9
	movq	%r9, 72(%rbx,%r10)
	incq	%rdi
	addq	$80, %r8
	cmpq	%rdi, %r14
	jne	10b
11:
	leaq	(%rdx,%rdx,4), %rdx
	shlq	$4, %rdx
	movl	%eax, (%rbp,%rdx)
	movq	%rcx, 8(%rbp,%rdx)
	movaps	144(%rsp), %xmm0
	movaps	160(%rsp), %xmm1
	movups	%xmm0, 16(%rbp,%rdx)
	movups	%xmm1, 32(%rbp,%rdx)
	movq	176(%rsp), %rax
	movq	%rax, 48(%rbp,%rdx)
	movaps	112(%rsp), %xmm0
	movups	%xmm0, 56(%rbp,%rdx)
	movq	128(%rsp), %rax
	movq	%rax, 72(%rbp,%rdx)
	movq	%r14, %r13
	subq	%rsi, %r13
	leaq	(%rsi,%rsi,4), %r15
	shlq	$4, %r15
	addq	%rbp, %r15
	movq	%r13, %rax
	shlq	$4, %rax
	leaq	(%rax,%rax,4), %rdx
	movq	%r15, %rax
	subq	%r12, %rax
	cmpq	%rdx, %rax
	jae	20f
	cmpq	%rsi, %r14
	movq	88(%rsp), %r8
	je	21f
	xorl	%eax, %eax
	movq	%r13, %rcx
	.p2align	4
12:
	movl	(%r12,%rax), %edx
	movzbl	8(%r12,%rax), %esi
	movq	48(%r12,%rax), %rdi
	movq	%rdi, 64(%rsp)
	movups	32(%r12,%rax), %xmm0
	movaps	%xmm0, 48(%rsp)
	movups	16(%r12,%rax), %xmm0
	movaps	%xmm0, 32(%rsp)
	movq	72(%r12,%rax), %rdi
	movq	%rdi, 16(%rsp)
	movups	56(%r12,%rax), %xmm0
	movaps	%xmm0, (%rsp)
	movl	%edx, (%r15,%rax)
	movq	%rsi, 8(%r15,%rax)
	movaps	32(%rsp), %xmm0
	movaps	48(%rsp), %xmm1
	movups	%xmm0, 16(%r15,%rax)
	movups	%xmm1, 32(%r15,%rax)
	movq	64(%rsp), %rdx
	movq	%rdx, 48(%r15,%rax)
	movaps	(%rsp), %xmm0
	movups	%xmm0, 56(%r15,%rax)
	movq	16(%rsp), %rdx
	movq	%rdx, 72(%r15,%rax)
	addq	$80, %rax
	decq	%rcx
	jne	12b
	jmp	21f
	.p2align	4
13:
	movq	80(%rsp), %rax
	movq	(%rax), %r12
	movq	8(%rax), %rdi
	movl	(%rsi), %eax
14:
	movq	%rdi, 88(%rsp)
	movzbl	8(%rbp,%rdx), %ecx
	movq	48(%rbp,%rdx), %rsi
	movq	%rsi, 176(%rsp)
	movups	16(%rbp,%rdx), %xmm0
	movups	32(%rbp,%rdx), %xmm1
	movaps	%xmm1, 160(%rsp)
	movaps	%xmm0, 144(%rsp)
	movups	56(%rbp,%rdx), %xmm0
	movaps	%xmm0, 112(%rsp)
	movq	72(%rbp,%rdx), %rdx
	movq	%rdx, 128(%rsp)
	xorl	%edx, %edx
	testq	%r13, %r13
	je	16f
	movq	%rbp, %rsi
	xorl	%edi, %edi
	.p2align	4
15:
	movl	(%rsi), %r8d
	movq	%rdi, %r9
	subq	%rdx, %r9
	cmpl	%r8d, %eax
	movzbl	8(%rsi), %r10d
	movq	48(%rsi), %r11
	movq	%r11, 64(%rsp)
	movups	16(%rsi), %xmm0
	movups	32(%rsi), %xmm1
	movaps	%xmm1, 48(%rsp)
	movaps	%xmm0, 32(%rsp)
	movq	72(%rsi), %r11
	movq	%r11, 16(%rsp)
	movups	56(%rsi), %xmm0
	movq	%r12, %r11
	cmovbq	%rbp, %r11
	cmovbq	%rdx, %r9
	movaps	%xmm0, (%rsp)
	leaq	(%r9,%r9,4), %r9
	adcq	$0, %rdx
	shlq	$4, %r9
	movl	%r8d, (%r11,%r9)
	movq	%r10, 8(%r11,%r9)
	movaps	32(%rsp), %xmm0
	movaps	48(%rsp), %xmm1
	movups	%xmm0, 16(%r11,%r9)
	movups	%xmm1, 32(%r11,%r9)
	movq	64(%rsp), %r8
	movq	%r8, 48(%r11,%r9)
	movaps	(%rsp), %xmm0
	movups	%xmm0, 56(%r11,%r9)
	movq	16(%rsp), %r8
	movq	%r8, 72(%r11,%r9)
	incq	%rdi
	addq	$80, %rsi
	cmpq	%rdi, %r13
	jne	15b
16:
	leaq	1(%r13), %rsi
	movq	%rdx, %rbx
	cmpq	%r14, %rsi
	jae	18f
	leaq	(,%r13,4), %rdi
	addq	%r13, %rdi
	shlq	$4, %rdi
	addq	%rbp, %rdi
	addq	$80, %rdi
	movq	%rdx, %rbx
	.p2align	4
17:
	movl	(%rdi), %r8d
	movq	%rsi, %r9
	subq	%rbx, %r9
	cmpl	%r8d, %eax
	movzbl	8(%rdi), %r10d
	movq	48(%rdi), %r11
	movq	%r11, 64(%rsp)
	movups	16(%rdi), %xmm0
	movups	32(%rdi), %xmm1
	movaps	%xmm1, 48(%rsp)
	movaps	%xmm0, 32(%rsp)
	movq	72(%rdi), %r11
	movq	%r11, 16(%rsp)
	movups	56(%rdi), %xmm0
	movq	%r12, %r11
	cmovbq	%rbp, %r11
	cmovbq	%rbx, %r9
	movaps	%xmm0, (%rsp)
	leaq	(%r9,%r9,4), %r9
	adcq	$0, %rbx
	shlq	$4, %r9
	movl	%r8d, (%r11,%r9)
	movq	%r10, 8(%r11,%r9)
	movaps	32(%rsp), %xmm0
	movaps	48(%rsp), %xmm1
	movups	%xmm0, 16(%r11,%r9)
	movups	%xmm1, 32(%r11,%r9)
	movq	64(%rsp), %r8
	movq	%r8, 48(%r11,%r9)
	movaps	(%rsp), %xmm0
	movups	%xmm0, 56(%r11,%r9)
	movq	16(%rsp), %r8
	movq	%r8, 72(%r11,%r9)
	incq	%rsi
	addq	$80, %rdi
	cmpq	%rsi, %r14
	jne	17b
18:
	subq	%rdx, %r13
	leaq	(,%r13,4), %rdx
	addq	%r13, %rdx
	shlq	$4, %rdx
	movl	%eax, (%r12,%rdx)
	movq	%rcx, 8(%r12,%rdx)
	movaps	144(%rsp), %xmm0
	movaps	160(%rsp), %xmm1
	movups	%xmm0, 16(%r12,%rdx)
	movups	%xmm1, 32(%r12,%rdx)
	movq	176(%rsp), %rax
	movq	%rax, 48(%r12,%rdx)
	movaps	112(%rsp), %xmm0
	movups	%xmm0, 56(%r12,%rdx)
	movq	128(%rsp), %rax
	movq	%rax, 72(%r12,%rdx)
	movq	%r14, %rax
	subq	%rbx, %rax
	leaq	(%rbx,%rbx,4), %r15
	shlq	$4, %r15
	addq	%rbp, %r15
	movq	%rax, 104(%rsp)
	shlq	$4, %rax
	leaq	(%rax,%rax,4), %rdx
	movq	%r15, %rax
	subq	%r12, %rax
	cmpq	%rdx, %rax
	jae	2b
	cmpq	%rbx, %r14
	movq	88(%rsp), %r9
	je	3b
	xorl	%eax, %eax
	movq	104(%rsp), %rcx
	.p2align	4
19:
	movl	(%r12,%rax), %edx
	movzbl	8(%r12,%rax), %esi
	movq	48(%r12,%rax), %rdi
	movq	%rdi, 64(%rsp)
	movups	32(%r12,%rax), %xmm0
	movaps	%xmm0, 48(%rsp)
	movups	16(%r12,%rax), %xmm0
	movaps	%xmm0, 32(%rsp)
	movq	72(%r12,%rax), %rdi
	movq	%rdi, 16(%rsp)
	movups	56(%r12,%rax), %xmm0
	movaps	%xmm0, (%rsp)
	movl	%edx, (%r15,%rax)
	movq	%rsi, 8(%r15,%rax)
	movaps	32(%rsp), %xmm0
	movaps	48(%rsp), %xmm1
	movups	%xmm0, 16(%r15,%rax)
	movups	%xmm1, 32(%r15,%rax)
	movq	64(%rsp), %rdx
	movq	%rdx, 48(%r15,%rax)
	movaps	(%rsp), %xmm0
	movups	%xmm0, 56(%r15,%rax)
	movq	16(%rsp), %rdx
	movq	%rdx, 72(%r15,%rax)
	addq	$80, %rax
	decq	%rcx
	jne	19b
	jmp	3b
20:
	movq	%r15, %rdi
	movq	%r12, %rsi
	callq	memmove@PLT
	movq	88(%rsp), %r8
21:
	movq	80(%rsp), %rax
	movq	%r12, (%rax)
	movq	%r8, 8(%rax)
	movl	100(%rsp), %r12d
	decl	%r12d
	jmp	4b
22:
	movq	%rbp, %rdi
	movq	%r14, %rsi
	movq	80(%rsp), %rdx
	addq	$184, %rsp
	popq	%rbx
	popq	%r12
	popq	%r13
	popq	%r14
	popq	%r15
	popq	%rbp
	jmp	"core::slice::sort::stable::merge_sort::<#54047240e3f04dbb>"
23:
	.size	"core::slice::sort::stable::quicksort::<#54047240e3f04dbb>", 23b-"core::slice::sort::stable::quicksort::<#54047240e3f04dbb>"

	.text
	.p2align	4
	.type	"core::slice::sort::stable::quicksort::<#b4bd7111e818b46c>",@function
"core::slice::sort::stable::quicksort::<#b4bd7111e818b46c>":
	pushq	%rbp
	pushq	%r15
	pushq	%r14
	pushq	%r13
	pushq	%r12
	pushq	%rbx
	subq	$104, %rsp
	movq	%r8, %r13
	movl	%ecx, %r12d
	movq	%rdx, %r14
	movq	%rdi, 8(%rsp)
	movq	%rsi, 16(%rsp)
	cmpq	$33, %rsi
	movq	%r8, 40(%rsp)
	jae	4f
1:
	movq	8(%rsp), %rdi
	movq	16(%rsp), %rsi
	movq	%r13, %rdx
	addq	$104, %rsp
	popq	%rbx
	popq	%r12
	popq	%r13
	popq	%r14
	popq	%r15
	popq	%rbp
	jmp	"core::slice::sort::short::sort::<#b4bd7111e818b46c>"
	.p2align	4
2:
	movq	%rbx, %rdi
	movq	%r12, %rsi
	callq	memmove@PLT
	movq	40(%rsp), %r13
3:
	movq	%r12, (%r13)
	movq	72(%rsp), %rax
	movq	%rax, 8(%r13)
	movl	60(%rsp), %r12d
	decl	%r12d
	movq	8(%rsp), %rdi
	movq	%r15, %rsi
	movq	16(%rsp), %rdx
	movl	%r12d, %ecx
	movq	%r13, %r8
	callq	"core::slice::sort::stable::quicksort::<#b4bd7111e818b46c>"
	movq	%rbx, 8(%rsp)
	movq	%rbp, 16(%rsp)
	cmpq	$33, %rbp
	jb	1b
4:
	testl	%r12d, %r12d
	je	32f
	movq	16(%rsp), %r15
	movq	%r15, %rbp
	shrq	$3, %rbp
	cmpq	$63, %r15
	movl	%r12d, 60(%rsp)
	ja	5f
	movq	%rbp, %rax
	shlq	$7, %rax
	movq	8(%rsp), %r13
	movq	(%r13), %rbx
	movq	8(%r13), %r15
	movq	(%r13,%rax), %rdx
	movq	8(%r13,%rax), %rcx
	movq	%rbx, %rdi
	movq	%r15, %rsi
	movq	%rdx, 24(%rsp)
	movq	%rcx, 48(%rsp)
	callq	"core::cmp::slices::RefSliceOrd::cmp::<#914af4d8504a0b72>"
	movl	%eax, %r12d
	testb	%al, %al
	sete	32(%rsp)
	imulq	$224, %rbp, %rax
	movq	(%r13,%rax), %rdx
	movq	8(%r13,%rax), %rcx
	movq	%rdx, %r13
	movq	%rbx, %rdi
	movq	%r15, %rsi
	movq	%rcx, %rbx
	callq	"core::cmp::slices::RefSliceOrd::cmp::<#914af4d8504a0b72>"
	testb	%al, %al
	sete	%al
	xorb	32(%rsp), %al
	je	6f
	xorl	%ebp, %ebp
	jmp	7f
	.p2align	4
5:
	leaq	(,%rbp,4), %rdx
	leaq	(,%rbp,8), %rcx
	subq	%rbp, %rcx
	movq	8(%rsp), %r12
	movq	%r12, %rdi
	xorl	%esi, %esi
	movq	%rbp, %r8
	callq	"core::slice::sort::pivot::median_of_medians::<#b4bd7111e818b46c>"
	movq	%rax, %rbp
	jmp	8f
	.p2align	4
6:
	testb	%r12b, %r12b
	sete	%r12b
	leaq	(,%rbp,8), %r15
	subq	%rbp, %r15
	shlq	$2, %rbp
	movq	24(%rsp), %rdi
	movq	48(%rsp), %rsi
	movq	%r13, %rdx
	movq	%rbx, %rcx
	callq	"core::cmp::slices::RefSliceOrd::cmp::<#914af4d8504a0b72>"
	testb	%al, %al
	sete	%al
	xorb	%r12b, %al
	cmovneq	%r15, %rbp
7:
	movq	16(%rsp), %r15
	movq	8(%rsp), %r12
	movq	40(%rsp), %r13
8:
	movq	%rbp, %rsi
	shlq	$5, %rsi
	leaq	(%r12,%rsi), %rbx
	cmpq	%r15, %r14
	movq	%rbp, 48(%rsp)
	movq	%rsi, 64(%rsp)
	jae	10f
	shlq	$5, %r14
	movq	(%r12,%r14), %rdi
	movq	8(%r12,%r14), %rsi
	movq	(%rbx), %rdx
	movq	8(%rbx), %rcx
	movq	%rdx, 32(%rsp)
	movq	%rcx, 24(%rsp)
	callq	"core::cmp::slices::RefSliceOrd::cmp::<#914af4d8504a0b72>"
	movq	(%r13), %r12
	movq	8(%r13), %rcx
	movq	%rcx, 72(%rsp)
	testb	%al, %al
	je	11f
	movups	16(%rbx), %xmm0
	movaps	%xmm0, 80(%rsp)
	xorl	%r14d, %r14d
	testq	%rbp, %rbp
	je	18f
	movq	8(%rsp), %r13
	movq	%r13, %rbx
	xorl	%r15d, %r15d
	movq	32(%rsp), %rdi
	movq	24(%rsp), %rsi
	.p2align	4
9:
	movq	%r14, %rbp
	movq	(%rbx), %rdx
	movq	8(%rbx), %rcx
	callq	"core::cmp::slices::RefSliceOrd::cmp::<#914af4d8504a0b72>"
	movq	24(%rsp), %rsi
	movq	32(%rsp), %rdi
	movq	%r15, %rcx
	subq	%r14, %rcx
	xorl	%r14d, %r14d
	testb	%al, %al
	movq	%r12, %rax
	cmovneq	%r13, %rax
	setne	%r14b
	cmovneq	%rbp, %rcx
	shlq	$5, %rcx
	movups	(%rbx), %xmm0
	movups	16(%rbx), %xmm1
	movups	%xmm0, (%rax,%rcx)
	movups	%xmm1, 16(%rax,%rcx)
	addq	%rbp, %r14
	movq	48(%rsp), %rbp
	incq	%r15
	addq	$32, %rbx
	cmpq	%r15, %rbp
	jne	9b
	jmp	19f
	.p2align	4
10:
	movq	(%r13), %r12
	movq	8(%r13), %rax
	movq	%rax, 72(%rsp)
	movq	(%rbx), %rdx
	movq	8(%rbx), %rcx
	jmp	12f
11:
	movq	32(%rsp), %rdx
	movq	24(%rsp), %rcx
	movq	64(%rsp), %rsi
12:
	movq	8(%rsp), %r13
	movups	16(%r13,%rsi), %xmm0
	movaps	%xmm0, 80(%rsp)
	testq	%rbp, %rbp
	movq	%rdx, 32(%rsp)
	movq	%rcx, 24(%rsp)
	je	14f
	xorl	%r14d, %r14d
	movq	%r13, %rbx
	xorl	%r15d, %r15d
	.p2align	4
13:
	movq	%r14, %rbp
	movq	(%rbx), %rdi
	movq	8(%rbx), %rsi
	callq	"core::cmp::slices::RefSliceOrd::cmp::<#914af4d8504a0b72>"
	movq	24(%rsp), %rcx
	movq	32(%rsp), %rdx
	movq	%r15, %rsi
	subq	%r14, %rsi
	xorl	%r14d, %r14d
	testb	%al, %al
	movq	%r12, %rax
	cmoveq	%r13, %rax
	sete	%r14b
	cmoveq	%rbp, %rsi
	shlq	$5, %rsi
	movups	(%rbx), %xmm0
	movups	16(%rbx), %xmm1
	movups	%xmm0, (%rax,%rsi)
	movups	%xmm1, 16(%rax,%rsi)
	addq	%rbp, %r14
	movq	48(%rsp), %rbp
	incq	%r15
	addq	$32, %rbx
	cmpq	%r15, %rbp
	jne	13b
	jmp	15f
	.p2align	4
14:
	xorl	%r14d, %r14d
15:
	leaq	1(%rbp), %rbx
	movq	%r14, %r15
	movq	16(%rsp), %rsi
	cmpq	%rsi, %rbx
	movq	%r13, 8(%rsp)
	movq	%r12, %rdi
	jae	17f
	movq	64(%rsp), %rax
	movq	8(%rsp), %r8
	leaq	(%r8,%rax), %rbp
	addq	$32, %rbp
	movq	%r14, %r15
	.p2align	4
16:
	movq	%r15, %r13
	movq	%rdi, %r15
	movq	(%rbp), %rdi
	movq	%rsi, %r12
	movq	8(%rbp), %rsi
	callq	"core::cmp::slices::RefSliceOrd::cmp::<#914af4d8504a0b72>"
	movq	%r15, %rdi
	movq	24(%rsp), %rcx
	movq	32(%rsp), %rdx
	movq	%rbx, %rsi
	subq	%r13, %rsi
	xorl	%r15d, %r15d
	testb	%al, %al
	movq	%rdi, %rax
	cmoveq	8(%rsp), %rax
	sete	%r15b
	cmoveq	%r13, %rsi
	shlq	$5, %rsi
	movups	(%rbp), %xmm0
	movups	16(%rbp), %xmm1
	movups	%xmm0, (%rax,%rsi)
	movups	%xmm1, 16(%rax,%rsi)
	movq	%r12, %rsi
	addq	%r13, %r15
	incq	%rbx
	addq	$32, %rbp
	cmpq	%rbx, %r12
	jne	16b
17:
	movq	48(%rsp), %rax
	subq	%r14, %rax
	movq	%rax, %r14
	shlq	$5, %rax
	movq	%rdx, (%rdi,%rax)
	movq	%rcx, 8(%rdi,%rax)
	movaps	80(%rsp), %xmm0
	movups	%xmm0, 16(%rdi,%rax)
	movq	%rsi, %rbp
	subq	%r15, %rbp
	movq	%r15, %rax
	shlq	$5, %rax
	movq	8(%rsp), %rcx
	leaq	(%rcx,%rax), %rbx
	movq	%rbp, %rdx
	shlq	$5, %rdx
	movq	%rbx, %rcx
	subq	%rdi, %rcx
	cmpq	%rdx, %rcx
	movq	%rdi, %r12
	jae	2b
	cmpq	%r15, %rsi
	movq	40(%rsp), %r13
	je	3b
	movl	%ebp, %ecx
	andl	$7, %ecx
	movq	%r15, %rdx
	subq	16(%rsp), %rdx
	cmpq	$-8, %rdx
	jbe	23f
	xorl	%edx, %edx
	jmp	25f
18:
	movq	32(%rsp), %rdi
	movq	24(%rsp), %rsi
19:
	leaq	1(%r14), %r8
	incq	%rbp
	movq	16(%rsp), %r13
	cmpq	%r13, %rbp
	jae	21f
	movq	64(%rsp), %rax
	movq	8(%rsp), %rdx
	leaq	(%rdx,%rax), %rbx
	addq	$32, %rbx
	.p2align	4
20:
	movq	%r8, %r15
	movq	(%rbx), %rdx
	movq	8(%rbx), %rcx
	callq	"core::cmp::slices::RefSliceOrd::cmp::<#914af4d8504a0b72>"
	movq	24(%rsp), %rsi
	movq	32(%rsp), %rdi
	movq	%rbp, %rcx
	subq	%r15, %rcx
	xorl	%r8d, %r8d
	testb	%al, %al
	movq	%r12, %rax
	cmovneq	8(%rsp), %rax
	setne	%r8b
	cmovneq	%r15, %rcx
	shlq	$5, %rcx
	movups	(%rbx), %xmm0
	movups	16(%rbx), %xmm1
	movups	%xmm0, (%rax,%rcx)
	movups	%xmm1, 16(%rax,%rcx)
	addq	%r15, %r8
	incq	%rbp
	addq	$32, %rbx
	cmpq	%rbp, %r13
	jne	20b
21:
	shlq	$5, %r14
	movq	8(%rsp), %rax
	movq	%rdi, (%rax,%r14)
	movq	%rsi, 8(%rax,%r14)
	movaps	80(%rsp), %xmm0
	movups	%xmm0, 16(%rax,%r14)
	movq	%r13, %rbp
	subq	%r8, %rbp
	movq	%r8, %rcx
	shlq	$5, %rcx
	leaq	(%rax,%rcx), %rbx
	movq	%rbp, %rdx
	shlq	$5, %rdx
	movq	%rbx, %rax
	subq	%r12, %rax
	cmpq	%rdx, %rax
	jae	22f
	cmpq	%r8, %r13
	movq	40(%rsp), %r13
	je	31f
	movl	%ebp, %eax
	andl	$7, %eax
	subq	16(%rsp), %r8
	cmpq	$-8, %r8
	jbe	27f
	xorl	%edx, %edx
	movq	8(%rsp), %rdi
	jmp	29f
22:
	movq	%rbx, %rdi
	movq	%r12, %rsi
	callq	memmove@PLT
	movq	40(%rsp), %r13
	jmp	31f
23:
	movq	%rbp, %rsi
	andq	$-8, %rsi
	movl	$224, %edi
	xorl	%edx, %edx
	.p2align	4
24:
	movups	-224(%r12,%rdi), %xmm0
	movups	-208(%r12,%rdi), %xmm1
	movups	%xmm1, -208(%rbx,%rdi)
	movups	%xmm0, -224(%rbx,%rdi)
	movups	-192(%r12,%rdi), %xmm0
	movups	-176(%r12,%rdi), %xmm1
	movups	%xmm1, -176(%rbx,%rdi)
	movups	%xmm0, -192(%rbx,%rdi)
	movups	-160(%r12,%rdi), %xmm0
	movups	-144(%r12,%rdi), %xmm1
	movups	%xmm1, -144(%rbx,%rdi)
	movups	%xmm0, -160(%rbx,%rdi)
	movups	-128(%r12,%rdi), %xmm0
	movups	-112(%r12,%rdi), %xmm1
	movups	%xmm1, -112(%rbx,%rdi)
	movups	%xmm0, -128(%rbx,%rdi)
	movups	-96(%r12,%rdi), %xmm0
	movups	-80(%r12,%rdi), %xmm1
	movups	%xmm1, -80(%rbx,%rdi)
	movups	%xmm0, -96(%rbx,%rdi)
	movups	-64(%r12,%rdi), %xmm0
	movups	-48(%r12,%rdi), %xmm1
	movups	%xmm1, -48(%rbx,%rdi)
	movups	%xmm0, -64(%rbx,%rdi)
	movups	-32(%r12,%rdi), %xmm0
	movups	-16(%r12,%rdi), %xmm1
	movups	%xmm1, -16(%rbx,%rdi)
	movups	%xmm0, -32(%rbx,%rdi)
	movups	(%r12,%rdi), %xmm0
	movups	16(%r12,%rdi), %xmm1
	movups	%xmm1, 16(%rbx,%rdi)
	movups	%xmm0, (%rbx,%rdi)
	addq	$8, %rdx
	addq	$256, %rdi
	cmpq	%rdx, %rsi
	jne	24b
	testq	%rcx, %rcx
	je	3b
25:
	shlq	$5, %rdx
	leaq	(%r12,%rdx), %rsi
	addq	8(%rsp), %rax
	addq	%rdx, %rax
	shll	$5, %ecx
	xorl	%edx, %edx
	.p2align	4
26:
	movups	(%rsi,%rdx), %xmm0
	movups	16(%rsi,%rdx), %xmm1
	movups	%xmm1, 16(%rax,%rdx)
	movups	%xmm0, (%rax,%rdx)
	addq	$32, %rdx
	cmpq	%rdx, %rcx
	jne	26b
	jmp	3b
27:
	movq	%rbp, %rsi
	andq	$-8, %rsi
	movl	$224, %edi
	xorl	%edx, %edx
	.p2align	4
28:
	movups	-224(%r12,%rdi), %xmm0
	movups	-208(%r12,%rdi), %xmm1
	movups	%xmm1, -208(%rbx,%rdi)
	movups	%xmm0, -224(%rbx,%rdi)
	movups	-192(%r12,%rdi), %xmm0
	movups	-176(%r12,%rdi), %xmm1
	movups	%xmm1, -176(%rbx,%rdi)
	movups	%xmm0, -192(%rbx,%rdi)
	movups	-160(%r12,%rdi), %xmm0
	movups	-144(%r12,%rdi), %xmm1
	movups	%xmm1, -144(%rbx,%rdi)
	movups	%xmm0, -160(%rbx,%rdi)
	movups	-128(%r12,%rdi), %xmm0
	movups	-112(%r12,%rdi), %xmm1
	movups	%xmm1, -112(%rbx,%rdi)
	movups	%xmm0, -128(%rbx,%rdi)
	movups	-96(%r12,%rdi), %xmm0
	movups	-80(%r12,%rdi), %xmm1
	movups	%xmm1, -80(%rbx,%rdi)
	movups	%xmm0, -96(%rbx,%rdi)
	movups	-64(%r12,%rdi), %xmm0
	movups	-48(%r12,%rdi), %xmm1
	movups	%xmm1, -48(%rbx,%rdi)
	movups	%xmm0, -64(%rbx,%rdi)
	movups	-32(%r12,%rdi), %xmm0
	movups	-16(%r12,%rdi), %xmm1
	movups	%xmm1, -16(%rbx,%rdi)
	movups	%xmm0, -32(%rbx,%rdi)
	movups	(%r12,%rdi), %xmm0
	movups	16(%r12,%rdi), %xmm1
	movups	%xmm1, 16(%rbx,%rdi)
	movups	%xmm0, (%rbx,%rdi)
	addq	$8, %rdx
	addq	$256, %rdi
	cmpq	%rdx, %rsi
	jne	28b
	testq	%rax, %rax
	movq	8(%rsp), %rdi
	je	31f
29:
	shlq	$5, %rdx
	leaq	(%r12,%rdx), %rsi
	addq	%rcx, %rdi
	addq	%rdx, %rdi
	shll	$5, %eax
	xorl	%ecx, %ecx
	.p2align	4
30:
	movups	(%rsi,%rcx), %xmm0
	movups	16(%rsi,%rcx), %xmm1
	movups	%xmm1, 16(%rdi,%rcx)
	movups	%xmm0, (%rdi,%rcx)
	addq	$32, %rcx
	cmpq	%rcx, %rax
	jne	30b
31:
	movq	%r12, (%r13)
	movq	72(%rsp), %rax
	movq	%rax, 8(%r13)
	movl	60(%rsp), %r12d
	decl	%r12d
	movq	16(%rsp), %r14
	movq	%rbx, 8(%rsp)
	movq	%rbp, 16(%rsp)
	cmpq	$33, %rbp
	jae	4b
	jmp	1b
32:
	movq	8(%rsp), %rdi
	movq	16(%rsp), %rsi
	movq	%r13, %rdx
	addq	$104, %rsp
	popq	%rbx
	popq	%r12
	popq	%r13
	popq	%r14
	popq	%r15
	popq	%rbp
	jmp	"core::slice::sort::stable::merge_sort::<#b4bd7111e818b46c>"
33:
	.size	"core::slice::sort::stable::quicksort::<#b4bd7111e818b46c>", 33b-"core::slice::sort::stable::quicksort::<#b4bd7111e818b46c>"

	.text
	.p2align	4
	.type	"core::slice::sort::stable::quicksort::<#cc3e8e382a4904f8>",@function
"core::slice::sort::stable::quicksort::<#cc3e8e382a4904f8>":
	pushq	%rbp
	pushq	%r15
	pushq	%r14
	pushq	%r13
	pushq	%r12
	pushq	%rbx
	subq	$72, %rsp
	movq	%r8, %r13
	movl	%ecx, %r15d
	movq	%rdx, %rbx
	movq	%rsi, %rax
	movq	%rdi, %rbp
	cmpq	$33, %rsi
	movq	%r8, 24(%rsp)
	jae	5f
1:
	movq	%rbp, %rdi
	movq	%rax, %rsi
	movq	%r13, %rdx
	addq	$72, %rsp
	popq	%rbx
	popq	%r12
	popq	%r13
	popq	%r14
	popq	%r15
	popq	%rbp
	jmp	"core::slice::sort::short::sort::<#cc3e8e382a4904f8>"
	.p2align	4
2:
	movq	%r12, %rdi
	movq	%rsi, %r15
	callq	memmove@PLT
	movq	%r15, %rsi
	movl	4(%rsp), %r15d
	movq	32(%rsp), %rdi
3:
	movq	24(%rsp), %rax
	movq	%rsi, (%rax)
	movq	%rdi, 8(%rax)
	decl	%r15d
	movq	%r13, %rdi
	movq	%rbp, %rsi
	movq	%rax, %r13
	movq	%rbx, %rdx
	movl	%r15d, %ecx
	movq	%rax, %r8
	callq	"core::slice::sort::stable::quicksort::<#cc3e8e382a4904f8>"
	movq	16(%rsp), %r8
4:
	movq	%r8, %rbx
	movq	%r12, %rbp
	movq	%r14, %rax
	cmpq	$33, %r14
	jb	1b
5:
	testl	%r15d, %r15d
	je	35f
	movq	%rax, %r12
	shrq	$3, %r12
	cmpq	$63, %rax
	movl	%r15d, 4(%rsp)
	movq	%rax, 8(%rsp)
	ja	6f
	movq	%r12, %r14
	shlq	$5, %r14
	movq	(%rbp,%r14), %rsi
	movq	%rbp, %rdi
	callq	"core::slice::sort::order::ByOrder::less::<#878f6745e8fab0b2>"
	movl	%eax, %r15d
	imulq	$56, %r12, %rax
	movq	(%rbp,%rax), %r13
	movq	%rbp, %rdi
	movq	%r13, %rsi
	callq	"core::slice::sort::order::ByOrder::less::<#878f6745e8fab0b2>"
	cmpb	%al, %r15b
	je	7f
	xorl	%r12d, %r12d
	jmp	8f
	.p2align	4
6:
	leaq	(,%r12,4), %rdx
	leaq	(,%r12,8), %rcx
	subq	%r12, %rcx
	movq	%rbp, %rdi
	xorl	%esi, %esi
	movq	%rax, %r14
	movq	%r12, %r8
	callq	"core::slice::sort::pivot::median_of_medians::<#cc3e8e382a4904f8>"
	movq	%r14, %rdx
	movq	%rax, %r12
	jmp	9f
	.p2align	4
7:
	addq	%rbp, %r14
	leaq	(,%r12,8), %rax
	subq	%r12, %rax
	movq	%rax, 40(%rsp)
	shlq	$2, %r12
	movq	%r14, %rdi
	movq	%r13, %rsi
	callq	"core::slice::sort::order::ByOrder::less::<#878f6745e8fab0b2>"
	xorb	%al, %r15b
	cmovneq	40(%rsp), %r12
8:
	movq	8(%rsp), %rdx
	movq	24(%rsp), %r13
9:
	movq	(%rbp,%r12,8), %r8
	cmpq	%rdx, %rbx
	movq	%r12, 16(%rsp)
	movq	%r8, 40(%rsp)
	jae	11f
	leaq	(,%rbx,8), %rdi
	addq	%rbp, %rdi
	movq	%r8, %rsi
	movq	%r8, %rbx
	callq	"core::slice::sort::order::ByOrder::less::<#878f6745e8fab0b2>"
	movq	(%r13), %rsi
	movq	8(%r13), %rcx
	testb	%al, %al
	je	18f
	movq	%rbx, %r8
	movq	%rcx, 32(%rsp)
	testq	%r12, %r12
	movq	%rsi, 56(%rsp)
	jne	12f
10:
	xorl	%r13d, %r13d
	jmp	14f
	.p2align	4
11:
	movq	(%r13), %rsi
	movq	8(%r13), %rcx
	movq	%rcx, 32(%rsp)
	testq	%r12, %r12
	movq	%rsi, 56(%rsp)
	je	10b
12:
	xorl	%r13d, %r13d
	movq	%rbp, %rbx
	movq	%rsi, %r14
	movq	%r12, %r15
	.p2align	4
13:
	movq	%r13, %r12
	movq	%rbx, %rdi
	movq	%r8, %rsi
	callq	"core::slice::sort::order::ByOrder::less::<#878f6745e8fab0b2>"
	movq	40(%rsp), %r8
	movq	(%rbx), %rcx
	leaq	(,%r13,8), %rdx
	movq	%rcx, (%rbp,%r13,8)
	movq	%r14, %rsi
	subq	%rdx, %rsi
	movq	%rcx, (%rsi)
	movzbl	%al, %r13d
	addq	%r12, %r13
	addq	$8, %r14
	addq	$8, %rbx
	decq	%r15
	jne	13b
14:
	movq	16(%rsp), %rax
	incq	%rax
	movq	%rbp, 48(%rsp)
	movq	%r13, %rbp
	cmpq	8(%rsp), %rax
	jae	16f
	movq	16(%rsp), %rax
	movq	%rax, %r12
	notq	%r12
	addq	8(%rsp), %r12
	movq	56(%rsp), %rcx
	leaq	(%rcx,%rax,8), %r15
	addq	$8, %r15
	movq	48(%rsp), %rcx
	leaq	(%rcx,%rax,8), %r14
	addq	$8, %r14
	movq	%r13, %rbp
	.p2align	4
15:
	movq	%rbp, %rbx
	movq	%r14, %rdi
	movq	%r8, %rsi
	callq	"core::slice::sort::order::ByOrder::less::<#878f6745e8fab0b2>"
	movq	40(%rsp), %r8
	movq	(%r14), %rcx
	leaq	(,%rbp,8), %rdx
	movq	48(%rsp), %rsi
	movq	%rcx, (%rsi,%rbp,8)
	movq	%r15, %rsi
	subq	%rdx, %rsi
	movq	%rcx, (%rsi)
	movzbl	%al, %ebp
	addq	%rbx, %rbp
	addq	$8, %r15
	addq	$8, %r14
	decq	%r12
	jne	15b
16:
	movq	16(%rsp), %rax
	subq	%r13, %rax
	movq	%rax, 16(%rsp)
	movq	56(%rsp), %rsi
	movq	%r8, (%rsi,%rax,8)
	movq	8(%rsp), %rbx
	movq	%rbx, %r14
	subq	%rbp, %r14
	movq	48(%rsp), %rax
	movq	%rax, %r13
	leaq	(%rax,%rbp,8), %r12
	leaq	(,%r14,8), %rdx
	movq	%r12, %rax
	subq	%rsi, %rax
	cmpq	%rdx, %rax
	jae	2b
	cmpq	%rbp, %rbx
	movl	4(%rsp), %r15d
	movq	32(%rsp), %rdi
	je	3b
	cmpq	$4, %r14
	jb	17f
	leaq	(,%rbp,8), %rcx
	leaq	(%rcx,%r13), %rax
	subq	%rsi, %rax
	cmpq	$32, %rax
	jae	26f
17:
	xorl	%eax, %eax
	jmp	33f
	.p2align	4
18:
	movq	%rcx, 32(%rsp)
	movq	%rbx, 64(%rsp)
	testq	%r12, %r12
	movq	%rsi, %r13
	je	20f
	xorl	%r14d, %r14d
	xorl	%r15d, %r15d
	.p2align	4
19:
	movq	%r14, %r12
	movq	(%rbp,%r15,8), %rbx
	leaq	64(%rsp), %rdi
	movq	%rbx, %rsi
	callq	"core::slice::sort::order::ByOrder::less::<#878f6745e8fab0b2>"
	movq	%r13, %rsi
	xorb	$1, %al
	leaq	(,%r14,8), %rcx
	movq	%rbx, (%rbp,%r14,8)
	movq	%r13, %rdx
	subq	%rcx, %rdx
	movq	%rbx, (%rdx,%r15,8)
	movzbl	%al, %r14d
	addq	%r12, %r14
	movq	16(%rsp), %r12
	incq	%r15
	cmpq	%r15, %r12
	jne	19b
	jmp	21f
20:
	xorl	%r14d, %r14d
21:
	leaq	1(%r14), %rax
	incq	%r12
	movq	8(%rsp), %r8
	cmpq	%r8, %r12
	jae	23f
	.p2align	4
22:
	movq	%rax, %r15
	movq	(%rbp,%r12,8), %rbx
	leaq	64(%rsp), %rdi
	movq	%rbx, %rsi
	callq	"core::slice::sort::order::ByOrder::less::<#878f6745e8fab0b2>"
	movq	8(%rsp), %r8
	movq	%r13, %rsi
	xorb	$1, %al
	leaq	(,%r15,8), %rcx
	movq	%rbx, (%rbp,%r15,8)
	movq	%r13, %rdx
	subq	%rcx, %rdx
	movq	%rbx, (%rdx,%r12,8)
	movzbl	%al, %eax
	addq	%r15, %rax
	incq	%r12
	cmpq	%r12, %r8
	jne	22b
23:
	movq	40(%rsp), %rcx
	movq	%rcx, (%rbp,%r14,8)
	movq	%r8, %r14
	subq	%rax, %r14
	leaq	(,%rax,8), %r12
	addq	%rbp, %r12
	leaq	(,%r14,8), %rdx
	movq	%r12, %rcx
	subq	%rsi, %rcx
	cmpq	%rdx, %rcx
	jae	25f
	cmpq	%rax, %r8
	movl	4(%rsp), %r15d
	movq	32(%rsp), %rdi
	movq	24(%rsp), %r13
	je	32f
	cmpq	$4, %r14
	jb	24f
	shlq	$3, %rax
	leaq	(%rax,%rbp), %rcx
	subq	%rsi, %rcx
	cmpq	$32, %rcx
	jae	28f
24:
	xorl	%ecx, %ecx
	jmp	30f
25:
	movq	%r12, %rdi
	callq	memmove@PLT
	movq	8(%rsp), %r8
	movq	%r13, %rsi
	movl	4(%rsp), %r15d
	movq	32(%rsp), %rdi
	movq	24(%rsp), %r13
	jmp	32f
26:
	movq	%r14, %rax
	andq	$-4, %rax
	addq	%r13, %rcx
	addq	$16, %rcx
	xorl	%edx, %edx
	.p2align	4
27:
	movups	(%rsi,%rdx,8), %xmm0
	movups	16(%rsi,%rdx,8), %xmm1
	movups	%xmm0, -16(%rcx,%rdx,8)
	movups	%xmm1, (%rcx,%rdx,8)
	addq	$4, %rdx
	cmpq	%rdx, %rax
	jne	27b
	jmp	34f
28:
	movq	%r14, %rcx
	andq	$-4, %rcx
	addq	%rbp, %rax
	addq	$16, %rax
	xorl	%edx, %edx
	.p2align	4
29:
	movups	(%rsi,%rdx,8), %xmm0
	movups	16(%rsi,%rdx,8), %xmm1
	movups	%xmm0, -16(%rax,%rdx,8)
	movups	%xmm1, (%rax,%rdx,8)
	addq	$4, %rdx
	cmpq	%rdx, %rcx
	jne	29b
	jmp	31f
	.p2align	4
30:
	movq	(%rsi,%rcx,8), %rax
	movq	%rax, (%r12,%rcx,8)
	incq	%rcx
31:
	cmpq	%rcx, %r14
	jne	30b
32:
	movq	%rsi, (%r13)
	movq	%rdi, 8(%r13)
	decl	%r15d
	jmp	4b
	.p2align	4
33:
	movq	(%rsi,%rax,8), %rcx
	movq	%rcx, (%r12,%rax,8)
	incq	%rax
34:
	cmpq	%rax, %r14
	jne	33b
	jmp	3b
35:
	movq	%rbp, %rdi
	movq	%rax, %rsi
	movq	%r13, %rdx
	addq	$72, %rsp
	popq	%rbx
	popq	%r12
	popq	%r13
	popq	%r14
	popq	%r15
	popq	%rbp
	jmp	"core::slice::sort::stable::merge_sort::<#cc3e8e382a4904f8>"
36:
	.size	"core::slice::sort::stable::quicksort::<#cc3e8e382a4904f8>", 36b-"core::slice::sort::stable::quicksort::<#cc3e8e382a4904f8>"

	.text
	.p2align	4
	.type	"core::slice::sort::stable::quicksort::<#f98e8d76978ecc20>",@function
"core::slice::sort::stable::quicksort::<#f98e8d76978ecc20>":
	pushq	%rbp
	pushq	%r15
	pushq	%r14
	pushq	%r13
	pushq	%r12
	pushq	%rbx
	subq	$88, %rsp
	movq	%r8, %r14
	movl	%ecx, %ebp
	movq	%rdx, %rbx
	movq	%rsi, %r15
	cmpq	$33, %rsi
	movq	%r8, 48(%rsp)
	jae	4f
1:
	movq	%r15, %rsi
	movq	%r14, %rdx
	addq	$88, %rsp
	popq	%rbx
	popq	%r12
	popq	%r13
	popq	%r14
	popq	%r15
	popq	%rbp
	jmp	"core::slice::sort::short::sort::<#f98e8d76978ecc20>"
	.p2align	4
2:
	movq	%r15, %rdi
	callq	memmove@PLT
	movq	32(%rsp), %rsi
	movq	24(%rsp), %r9
	movq	48(%rsp), %r14
	movl	12(%rsp), %ebp
3:
	movq	%rsi, (%r14)
	movq	56(%rsp), %rax
	movq	%rax, 8(%r14)
	decl	%ebp
	movq	%r9, %rdi
	movq	%r12, %rsi
	movq	%rbx, %rdx
	movl	%ebp, %ecx
	movq	%r14, %r8
	callq	"core::slice::sort::stable::quicksort::<#f98e8d76978ecc20>"
	movq	%r13, %rbx
	movq	40(%rsp), %r8
	movq	%r15, %rdi
	movq	%r8, %r15
	cmpq	$33, %r8
	jb	1b
4:
	testl	%ebp, %ebp
	je	54f
	movq	%r15, %r8
	shrq	$3, %r8
	leaq	(,%r8,4), %rdx
	movq	%r15, %rcx
	andq	$-8, %rcx
	subq	%r8, %rcx
	cmpq	$63, %r15
	movq	%rdi, 24(%rsp)
	ja	5f
	xorl	%esi, %esi
	callq	"core::slice::sort::pivot::median_of_three::<#f98e8d76978ecc20>"
	jmp	6f
	.p2align	4
5:
	xorl	%esi, %esi
	callq	"core::slice::sort::pivot::median_of_medians::<#f98e8d76978ecc20>"
6:
	movq	%rax, %r13
	cmpq	%r15, %rbx
	movq	%r15, 16(%rsp)
	movl	%ebp, 12(%rsp)
	movq	%rax, 40(%rsp)
	jae	8f
	shlq	$5, %rbx
	movq	%r13, %r12
	shlq	$5, %r12
	movq	24(%rsp), %r9
	movq	(%r9,%rbx), %rdi
	movq	8(%r9,%rbx), %rsi
	movq	(%r9,%r12), %r15
	movq	8(%r9,%r12), %rbx
	cmpq	%rsi, %rbx
	movq	%rsi, %rax
	cmovbq	%rbx, %rax
	cmpq	$24, %rax
	movl	$24, %ecx
	cmovbq	%rax, %rcx
	cmpq	$8, %rax
	jb	9f
	xorl	%eax, %eax
	.p2align	4
7:
	movq	(%rdi,%rax), %rdx
	movq	(%r15,%rax), %r8
	cmpq	%r8, %rdx
	jne	18f
	addq	$8, %rax
	addq	$-8, %rcx
	cmpq	$7, %rcx
	ja	7b
	jmp	10f
	.p2align	4
8:
	movq	%r13, %r12
	shlq	$5, %r12
	movq	24(%rsp), %r9
	jmp	19f
	.p2align	4
9:
	xorl	%eax, %eax
10:
	addq	%rax, %rdi
	subq	%rax, %rsi
	leaq	(%r15,%rax), %rdx
	movq	%rbx, %rcx
	subq	%rax, %rcx
	callq	"core::cmp::slices::RefSliceOrd::cmp::<#914af4d8504a0b72>"
	movq	24(%rsp), %r9
	testb	%al, %al
	je	19f
11:
	addq	%r9, %r12
	movq	(%r14), %rax
	movq	%rax, 32(%rsp)
	movq	8(%r14), %rax
	movups	16(%r12), %xmm0
	movaps	%xmm0, 64(%rsp)
	testq	%r13, %r13
	movq	%rax, 56(%rsp)
	je	35f
	xorl	%r14d, %r14d
	xorl	%r12d, %r12d
	movq	32(%rsp), %r13
	jmp	14f
	.p2align	4
12:
	bswapq	%r8
	bswapq	%rdi
	cmpq	%r8, %rdi
	setb	%al
13:
	addq	%r9, %rbp
	movl	%eax, %ecx
	xorb	$1, %cl
	movq	%r12, %rdx
	subq	%r14, %rdx
	testb	%al, %al
	movq	%r9, %rax
	cmovneq	%r13, %rax
	cmoveq	%r14, %rdx
	shlq	$5, %rdx
	movups	(%rbp), %xmm0
	movups	16(%rbp), %xmm1
	movups	%xmm1, 16(%rax,%rdx)
	movups	%xmm0, (%rax,%rdx)
	movzbl	%cl, %eax
	addq	%rax, %r14
	incq	%r12
	cmpq	40(%rsp), %r12
	je	36f
14:
	movq	%r12, %rbp
	shlq	$5, %rbp
	movq	(%r9,%rbp), %rdx
	movq	8(%r9,%rbp), %rcx
	cmpq	%rbx, %rcx
	movq	%rbx, %rax
	cmovbq	%rcx, %rax
	cmpq	$24, %rax
	movl	$24, %esi
	cmovbq	%rax, %rsi
	cmpq	$8, %rax
	jb	16f
	xorl	%eax, %eax
	.p2align	4
15:
	movq	(%r15,%rax), %rdi
	movq	(%rdx,%rax), %r8
	cmpq	%r8, %rdi
	jne	12b
	addq	$8, %rax
	addq	$-8, %rsi
	cmpq	$7, %rsi
	ja	15b
	jmp	17f
	.p2align	4
16:
	xorl	%eax, %eax
17:
	leaq	(%r15,%rax), %rdi
	movq	%rbx, %rsi
	subq	%rax, %rsi
	addq	%rax, %rdx
	subq	%rax, %rcx
	callq	"core::cmp::slices::RefSliceOrd::cmp::<#914af4d8504a0b72>"
	movq	24(%rsp), %r9
	testb	%al, %al
	sete	%al
	jmp	13b
18:
	bswapq	%r8
	bswapq	%rdx
	cmpq	%r8, %rdx
	jae	11b
	.p2align	4
19:
	movq	(%r14), %rsi
	movq	8(%r14), %rax
	movq	%rax, 56(%rsp)
	movq	(%r9,%r12), %r15
	movq	8(%r9,%r12), %r14
	movups	16(%r9,%r12), %xmm0
	movaps	%xmm0, 64(%rsp)
	testq	%r13, %r13
	movq	%rsi, 32(%rsp)
	je	26f
	xorl	%ebx, %ebx
	xorl	%r12d, %r12d
	jmp	22f
	.p2align	4
20:
	bswapq	%r8
	bswapq	%rdx
	cmpq	%r8, %rdx
	setb	%al
21:
	addq	%r9, %rbp
	movq	%r12, %rcx
	subq	%rbx, %rcx
	testb	%al, %al
	movq	32(%rsp), %rsi
	movq	%rsi, %rdx
	cmovneq	%r9, %rdx
	cmovneq	%rbx, %rcx
	shlq	$5, %rcx
	movups	(%rbp), %xmm0
	movups	16(%rbp), %xmm1
	movups	%xmm1, 16(%rdx,%rcx)
	movups	%xmm0, (%rdx,%rcx)
	movzbl	%al, %eax
	addq	%rax, %rbx
	incq	%r12
	cmpq	%r13, %r12
	je	27f
22:
	movq	%r12, %rbp
	shlq	$5, %rbp
	movq	(%r9,%rbp), %rdi
	movq	8(%r9,%rbp), %rsi
	cmpq	%rsi, %r14
	movq	%rsi, %rax
	cmovbq	%r14, %rax
	cmpq	$24, %rax
	movl	$24, %ecx
	cmovbq	%rax, %rcx
	cmpq	$8, %rax
	jb	24f
	xorl	%eax, %eax
	.p2align	4
23:
	movq	(%rdi,%rax), %rdx
	movq	(%r15,%rax), %r8
	cmpq	%r8, %rdx
	jne	20b
	addq	$8, %rax
	addq	$-8, %rcx
	cmpq	$7, %rcx
	ja	23b
	jmp	25f
	.p2align	4
24:
	xorl	%eax, %eax
25:
	addq	%rax, %rdi
	subq	%rax, %rsi
	leaq	(%r15,%rax), %rdx
	movq	%r14, %rcx
	subq	%rax, %rcx
	callq	"core::cmp::slices::RefSliceOrd::cmp::<#914af4d8504a0b72>"
	movq	24(%rsp), %r9
	testb	%al, %al
	sete	%al
	jmp	21b
	.p2align	4
26:
	xorl	%ebx, %ebx
27:
	incq	%r13
	movq	%rbx, %r12
	cmpq	16(%rsp), %r13
	jae	34f
	movq	%rbx, %r12
	jmp	30f
	.p2align	4
28:
	bswapq	%r8
	bswapq	%rdx
	cmpq	%r8, %rdx
	setb	%al
29:
	addq	%r9, %rbp
	movq	%r13, %rcx
	subq	%r12, %rcx
	testb	%al, %al
	movq	32(%rsp), %rsi
	movq	%rsi, %rdx
	cmovneq	%r9, %rdx
	cmovneq	%r12, %rcx
	shlq	$5, %rcx
	movups	(%rbp), %xmm0
	movups	16(%rbp), %xmm1
	movups	%xmm1, 16(%rdx,%rcx)
	movups	%xmm0, (%rdx,%rcx)
	movzbl	%al, %eax
	addq	%rax, %r12
	incq	%r13
	cmpq	16(%rsp), %r13
	je	34f
30:
	movq	%r13, %rbp
	shlq	$5, %rbp
	movq	(%r9,%rbp), %rdi
	movq	8(%r9,%rbp), %rsi
	cmpq	%rsi, %r14
	movq	%rsi, %rax
	cmovbq	%r14, %rax
	cmpq	$24, %rax
	movl	$24, %ecx
	cmovbq	%rax, %rcx
	cmpq	$8, %rax
	jb	32f
	xorl	%eax, %eax
	.p2align	4
31:
	movq	(%rdi,%rax), %rdx
	movq	(%r15,%rax), %r8
	cmpq	%r8, %rdx
	jne	28b
	addq	$8, %rax
	addq	$-8, %rcx
	cmpq	$7, %rcx
	ja	31b
	jmp	33f
	.p2align	4
32:
	xorl	%eax, %eax
33:
	addq	%rax, %rdi
	subq	%rax, %rsi
	leaq	(%r15,%rax), %rdx
	movq	%r14, %rcx
	subq	%rax, %rcx
	callq	"core::cmp::slices::RefSliceOrd::cmp::<#914af4d8504a0b72>"
	movq	24(%rsp), %r9
	testb	%al, %al
	sete	%al
	jmp	29b
	.p2align	4
34:
	movq	40(%rsp), %r13
	subq	%rbx, %r13
	movq	%r13, %rax
	shlq	$5, %rax
	movq	%r15, (%rsi,%rax)
	movq	%r14, 8(%rsi,%rax)
	movaps	64(%rsp), %xmm0
	movups	%xmm0, 16(%rsi,%rax)
	movq	16(%rsp), %rbx
	movq	%rbx, %rdx
	subq	%r12, %rdx
	movq	%r12, %rax
	shlq	$5, %rax
	leaq	(%r9,%rax), %r15
	movq	%rdx, 40(%rsp)
	shlq	$5, %rdx
	movq	%r15, %rcx
	subq	%rsi, %rcx
	cmpq	%rdx, %rcx
	jae	2b
	cmpq	%r12, %rbx
	movq	48(%rsp), %r14
	movl	12(%rsp), %ebp
	je	3b
	movq	40(%rsp), %rdi
	movl	%edi, %ecx
	andl	$7, %ecx
	movq	%r12, %rdx
	subq	%rbx, %rdx
	cmpq	$-8, %rdx
	jbe	45f
	xorl	%edx, %edx
	jmp	47f
35:
	xorl	%r14d, %r14d
	movq	32(%rsp), %r13
36:
	leaq	1(%r14), %r12
	movq	40(%rsp), %rax
	incq	%rax
	cmpq	16(%rsp), %rax
	jae	43f
	movq	%rax, %rsi
	jmp	39f
	.p2align	4
37:
	bswapq	%r8
	bswapq	%rdi
	cmpq	%r8, %rdi
	setb	%al
38:
	addq	%r9, %rbp
	movl	%eax, %ecx
	xorb	$1, %cl
	movq	%r13, %rsi
	movq	%r13, %rdx
	subq	%r12, %rdx
	testb	%al, %al
	movq	%r9, %rax
	movq	32(%rsp), %r13
	cmovneq	%r13, %rax
	cmoveq	%r12, %rdx
	shlq	$5, %rdx
	movups	(%rbp), %xmm0
	movups	16(%rbp), %xmm1
	movups	%xmm1, 16(%rax,%rdx)
	movups	%xmm0, (%rax,%rdx)
	movzbl	%cl, %eax
	addq	%rax, %r12
	incq	%rsi
	cmpq	16(%rsp), %rsi
	je	43f
39:
	movq	%rsi, %r13
	movq	%rsi, %rbp
	shlq	$5, %rbp
	movq	(%r9,%rbp), %rdx
	movq	8(%r9,%rbp), %rcx
	cmpq	%rbx, %rcx
	movq	%rbx, %rax
	cmovbq	%rcx, %rax
	cmpq	$24, %rax
	movl	$24, %esi
	cmovbq	%rax, %rsi
	cmpq	$8, %rax
	jb	41f
	xorl	%eax, %eax
	.p2align	4
40:
	movq	(%r15,%rax), %rdi
	movq	(%rdx,%rax), %r8
	cmpq	%r8, %rdi
	jne	37b
	addq	$8, %rax
	addq	$-8, %rsi
	cmpq	$7, %rsi
	ja	40b
	jmp	42f
	.p2align	4
41:
	xorl	%eax, %eax
42:
	leaq	(%r15,%rax), %rdi
	movq	%rbx, %rsi
	subq	%rax, %rsi
	addq	%rax, %rdx
	subq	%rax, %rcx
	callq	"core::cmp::slices::RefSliceOrd::cmp::<#914af4d8504a0b72>"
	movq	24(%rsp), %r9
	testb	%al, %al
	sete	%al
	jmp	38b
	.p2align	4
43:
	shlq	$5, %r14
	movq	%r15, (%r9,%r14)
	movq	%rbx, 8(%r9,%r14)
	movaps	64(%rsp), %xmm0
	movups	%xmm0, 16(%r9,%r14)
	movq	16(%rsp), %rsi
	movq	%rsi, %r8
	subq	%r12, %r8
	movq	%r12, %rcx
	shlq	$5, %rcx
	leaq	(%r9,%rcx), %r15
	movq	%r8, %rdx
	shlq	$5, %rdx
	movq	%r15, %rax
	subq	%r13, %rax
	cmpq	%rdx, %rax
	jae	44f
	cmpq	%r12, %rsi
	movq	48(%rsp), %r14
	movl	12(%rsp), %ebp
	je	53f
	movl	%r8d, %eax
	andl	$7, %eax
	subq	16(%rsp), %r12
	cmpq	$-8, %r12
	jbe	49f
	xorl	%edx, %edx
	jmp	51f
44:
	movq	%r15, %rdi
	movq	%r13, %rsi
	movq	%r8, %rbx
	callq	memmove@PLT
	movq	%rbx, %r8
	movq	48(%rsp), %r14
	movl	12(%rsp), %ebp
	jmp	53f
45:
	movq	%rdi, %r8
	andq	$-8, %r8
	movl	$224, %edi
	xorl	%edx, %edx
	.p2align	4
46:
	movups	-224(%rsi,%rdi), %xmm0
	movups	-208(%rsi,%rdi), %xmm1
	movups	%xmm1, -208(%r15,%rdi)
	movups	%xmm0, -224(%r15,%rdi)
	movups	-192(%rsi,%rdi), %xmm0
	movups	-176(%rsi,%rdi), %xmm1
	movups	%xmm1, -176(%r15,%rdi)
	movups	%xmm0, -192(%r15,%rdi)
	movups	-160(%rsi,%rdi), %xmm0
	movups	-144(%rsi,%rdi), %xmm1
	movups	%xmm1, -144(%r15,%rdi)
	movups	%xmm0, -160(%r15,%rdi)
	movups	-128(%rsi,%rdi), %xmm0
	movups	-112(%rsi,%rdi), %xmm1
	movups	%xmm1, -112(%r15,%rdi)
	movups	%xmm0, -128(%r15,%rdi)
	movups	-96(%rsi,%rdi), %xmm0
	movups	-80(%rsi,%rdi), %xmm1
	movups	%xmm1, -80(%r15,%rdi)
	movups	%xmm0, -96(%r15,%rdi)
	movups	-64(%rsi,%rdi), %xmm0
	movups	-48(%rsi,%rdi), %xmm1
	movups	%xmm1, -48(%r15,%rdi)
	movups	%xmm0, -64(%r15,%rdi)
	movups	-32(%rsi,%rdi), %xmm0
	movups	-16(%rsi,%rdi), %xmm1
	movups	%xmm1, -16(%r15,%rdi)
	movups	%xmm0, -32(%r15,%rdi)
	movups	(%rsi,%rdi), %xmm0
	movups	16(%rsi,%rdi), %xmm1
	movups	%xmm1, 16(%r15,%rdi)
	movups	%xmm0, (%r15,%rdi)
	addq	$8, %rdx
	addq	$256, %rdi
	cmpq	%rdx, %r8
	jne	46b
	testq	%rcx, %rcx
	je	3b
47:
	shlq	$5, %rdx
	leaq	(%rsi,%rdx), %rdi
	addq	%r9, %rax
	addq	%rdx, %rax
	shll	$5, %ecx
	xorl	%edx, %edx
	.p2align	4
48:
	movups	(%rdi,%rdx), %xmm0
	movups	16(%rdi,%rdx), %xmm1
	movups	%xmm1, 16(%rax,%rdx)
	movups	%xmm0, (%rax,%rdx)
	addq	$32, %rdx
	cmpq	%rdx, %rcx
	jne	48b
	jmp	3b
49:
	movq	%r8, %rsi
	andq	$-8, %rsi
	movl	$224, %edi
	xorl	%edx, %edx
	.p2align	4
50:
	movups	-224(%r13,%rdi), %xmm0
	movups	-208(%r13,%rdi), %xmm1
	movups	%xmm1, -208(%r15,%rdi)
	movups	%xmm0, -224(%r15,%rdi)
	movups	-192(%r13,%rdi), %xmm0
	movups	-176(%r13,%rdi), %xmm1
	movups	%xmm1, -176(%r15,%rdi)
	movups	%xmm0, -192(%r15,%rdi)
	movups	-160(%r13,%rdi), %xmm0
	movups	-144(%r13,%rdi), %xmm1
	movups	%xmm1, -144(%r15,%rdi)
	movups	%xmm0, -160(%r15,%rdi)
	movups	-128(%r13,%rdi), %xmm0
	movups	-112(%r13,%rdi), %xmm1
	movups	%xmm1, -112(%r15,%rdi)
	movups	%xmm0, -128(%r15,%rdi)
	movups	-96(%r13,%rdi), %xmm0
	movups	-80(%r13,%rdi), %xmm1
	movups	%xmm1, -80(%r15,%rdi)
	movups	%xmm0, -96(%r15,%rdi)
	movups	-64(%r13,%rdi), %xmm0
	movups	-48(%r13,%rdi), %xmm1
	movups	%xmm1, -48(%r15,%rdi)
	movups	%xmm0, -64(%r15,%rdi)
	movups	-32(%r13,%rdi), %xmm0
	movups	-16(%r13,%rdi), %xmm1
	movups	%xmm1, -16(%r15,%rdi)
	movups	%xmm0, -32(%r15,%rdi)
	movups	(%r13,%rdi), %xmm0
	movups	16(%r13,%rdi), %xmm1
	movups	%xmm1, 16(%r15,%rdi)
	movups	%xmm0, (%r15,%rdi)
	addq	$8, %rdx
	addq	$256, %rdi
	cmpq	%rdx, %rsi
	jne	50b
	testq	%rax, %rax
	je	53f
51:
	shlq	$5, %rdx
	leaq	(%rdx,%r13), %rsi
	addq	%rcx, %r9
	addq	%rdx, %r9
	shll	$5, %eax
	xorl	%ecx, %ecx
	.p2align	4
52:
	movups	(%rsi,%rcx), %xmm0
	movups	16(%rsi,%rcx), %xmm1
	movups	%xmm1, 16(%r9,%rcx)
	movups	%xmm0, (%r9,%rcx)
	addq	$32, %rcx
	cmpq	%rcx, %rax
	jne	52b
53:
	movq	%r13, (%r14)
	movq	56(%rsp), %rax
	movq	%rax, 8(%r14)
	decl	%ebp
	movq	16(%rsp), %rbx
	movq	%r15, %rdi
	movq	%r8, %r15
	cmpq	$33, %r8
	jae	4b
	jmp	1b
54:
	movq	%r15, %rsi
	movq	%r14, %rdx
	addq	$88, %rsp
	popq	%rbx
	popq	%r12
	popq	%r13
	popq	%r14
	popq	%r15
	popq	%rbp
	jmp	"core::slice::sort::stable::merge_sort::<#f98e8d76978ecc20>"
55:
	.size	"core::slice::sort::stable::quicksort::<#f98e8d76978ecc20>", 55b-"core::slice::sort::stable::quicksort::<#f98e8d76978ecc20>"

	.text
	.p2align	4
	.type	"core::slice::sort::unstable::quicksort::<#7ab9c65c4fe95e6e>",@function
"core::slice::sort::unstable::quicksort::<#7ab9c65c4fe95e6e>":
	pushq	%rbp
	pushq	%r15
	pushq	%r14
	pushq	%r13
	pushq	%r12
	pushq	%rbx
	subq	$72, %rsp
	movq	%rdx, %rbx
	movq	%rdi, %r14
	movq	%rdx, %r12
	subq	%rsi, %r12
	cmpq	$17, %r12
	jb	24f
	movl	%ecx, %ebp
	movq	%rsi, %r15
	movq	%rbx, 40(%rsp)
	jmp	4f
	.p2align	4
1:
	xorl	%ecx, %ecx
2:
	movq	%rax, (%rsi,%rcx)
	addq	%r15, %rdx
	movq	%r14, %rdi
	movq	%r15, %rsi
	movl	%ebp, %ecx
	callq	"core::slice::sort::unstable::quicksort::<#7ab9c65c4fe95e6e>"
3:
	addq	%r13, %r15
	movq	%rbx, %r12
	subq	%r15, %r12
	cmpq	$16, %r12
	jbe	24f
4:
	testl	%ebp, %ebp
	je	25f
	movq	%r12, %r8
	shrq	$3, %r8
	movq	%r12, %rcx
	andq	$-8, %rcx
	subq	%r8, %rcx
	addq	%r15, %rcx
	leaq	(%r15,%r8,4), %rax
	cmpq	$63, %r12
	ja	13f
	movq	(%r14,%r15,8), %rdx
	movq	(%r14,%rax,8), %rsi
	cmpq	%rsi, %rdx
	setb	%dil
	movq	(%r14,%rcx,8), %r8
	cmpq	%r8, %rdx
	setb	%dl
	xorb	%dil, %dl
	cmpq	%r8, %rsi
	setb	%sil
	xorb	%dil, %sil
	cmovneq	%rcx, %rax
	testb	%dl, %dl
	cmovneq	%r15, %rax
	decl	%ebp
	testq	%r15, %r15
	je	14f
5:
	leaq	(,%r15,8), %rcx
	movq	-8(%r14,%r15,8), %rdx
	cmpq	(%r14,%rax,8), %rdx
	jb	15f
	leaq	(%r14,%r15,8), %rdx
	subq	%r15, %rax
	je	6f
	movq	(%rdx), %rsi
	movq	(%rdx,%rax,8), %rdi
	movq	%rdi, (%rdx)
	movq	%rsi, (%rdx,%rax,8)
6:
	movq	(%rdx), %rax
	movl	$1, %r13d
	.p2align	4
7:
	cmpq	(%rdx,%r13,8), %rax
	jb	8f
	incq	%r13
	cmpq	%r13, %r12
	jne	7b
	movq	%r12, %r13
8:
	leaq	-1(%r12), %r8
	cmpq	%r8, %r13
	jae	12f
	leaq	1(%r13), %rdi
	movq	8(%rdx,%r13,8), %rsi
	cmpq	%r8, %rdi
	jae	11f
	movl	%r12d, %r8d
	subl	%r13d, %r8d
	movq	%r13, %r9
	testb	$1, %r8b
	je	9f
	leaq	2(%r13), %rdi
	movq	(%rdx,%r13,8), %r8
	movq	16(%rdx,%r13,8), %r9
	cmpq	%r9, %rax
	movq	%r8, 8(%rdx,%r13,8)
	movq	%r9, (%rdx,%r13,8)
	movq	%r13, %r9
	sbbq	$-1, %r9
9:
	leaq	-3(%r12), %r8
	cmpq	%r13, %r8
	movq	%r9, %r13
	je	11f
	movq	%r12, %r8
	subq	%rdi, %r8
	leaq	(%rcx,%rdi,8), %rcx
	addq	%r14, %rcx
	movl	$1, %edi
	movq	%r9, %r13
	.p2align	4
10:
	movq	(%rcx,%rdi,8), %r9
	cmpq	%r9, %rax
	movq	(%rdx,%r13,8), %r10
	movq	%r10, -8(%rcx,%rdi,8)
	movq	%r9, (%rdx,%r13,8)
	sbbq	$-1, %r13
	movq	8(%rcx,%rdi,8), %r9
	cmpq	%r9, %rax
	movq	(%rdx,%r13,8), %r10
	movq	%r10, (%rcx,%rdi,8)
	movq	%r9, (%rdx,%r13,8)
	sbbq	$-1, %r13
	addq	$2, %rdi
	cmpq	%rdi, %r8
	jne	10b
11:
	cmpq	%rsi, %rax
	movq	(%rdx,%r13,8), %rcx
	movq	%rcx, -8(%rdx,%r12,8)
	movq	%rsi, (%rdx,%r13,8)
	sbbq	$-1, %r13
12:
	movq	%r13, %rcx
	decq	%rcx
	je	23f
	movq	(%rdx,%rcx,8), %rsi
	shlq	$3, %rcx
	movq	%rsi, (%rdx)
	movq	%rax, (%rdx,%rcx)
	jmp	3b
	.p2align	4
13:
	movq	%r14, %rdi
	movq	%r15, %rsi
	movq	%rax, %rdx
	callq	"core::slice::sort::pivot::median_of_medians::<#7ab9c65c4fe95e6e>"
	decl	%ebp
	testq	%r15, %r15
	jne	5b
14:
	xorl	%ecx, %ecx
15:
	leaq	(%r14,%rcx), %rsi
	subq	%r15, %rax
	je	16f
	movq	(%rsi), %rdx
	movq	(%rsi,%rax,8), %rdi
	movq	%rdi, (%rsi)
	movq	%rdx, (%rsi,%rax,8)
16:
	movq	(%rsi), %rax
	movl	$1, %r13d
	.p2align	4
17:
	cmpq	%rax, (%rsi,%r13,8)
	jae	18f
	incq	%r13
	cmpq	%r13, %r12
	jne	17b
	movq	%r12, %r13
18:
	leaq	-1(%r12), %r8
	cmpq	%r8, %r13
	jae	22f
	leaq	1(%r13), %rdi
	movq	8(%rsi,%r13,8), %rdx
	cmpq	%r8, %rdi
	jae	21f
	movl	%r12d, %r8d
	subl	%r13d, %r8d
	movq	%r13, %r9
	testb	$1, %r8b
	je	19f
	leaq	2(%r13), %rdi
	movq	(%rsi,%r13,8), %r8
	movq	16(%rsi,%r13,8), %r9
	cmpq	%rax, %r9
	movq	%r8, 8(%rsi,%r13,8)
	movq	%r9, (%rsi,%r13,8)
	movq	%r13, %r9
	adcq	$0, %r9
19:
	leaq	-3(%r12), %r8
	cmpq	%r13, %r8
	movq	%r9, %r13
	je	21f
	movq	%r12, %r8
	subq	%rdi, %r8
	leaq	(%rcx,%rdi,8), %rcx
	addq	%r14, %rcx
	movl	$1, %edi
	movq	%r9, %r13
	.p2align	4
20:
	movq	(%rcx,%rdi,8), %r9
	xorl	%r10d, %r10d
	cmpq	%rax, %r9
	setb	%r10b
	movq	(%rsi,%r13,8), %r11
	movq	%r11, -8(%rcx,%rdi,8)
	movq	%r9, (%rsi,%r13,8)
	leaq	(%r10,%r13), %r9
	movq	8(%rcx,%rdi,8), %r11
	cmpq	%rax, %r11
	movq	(%rsi,%r9,8), %rbx
	movq	%rbx, (%rcx,%rdi,8)
	movq	%r11, (%rsi,%r9,8)
	adcq	%r10, %r13
	addq	$2, %rdi
	cmpq	%rdi, %r8
	jne	20b
21:
	cmpq	%rax, %rdx
	movq	(%rsi,%r13,8), %rcx
	movq	%rcx, -8(%rsi,%r12,8)
	movq	%rdx, (%rsi,%r13,8)
	adcq	$0, %r13
	movq	40(%rsp), %rbx
22:
	movq	%r13, %rdx
	decq	%rdx
	je	1b
	leaq	(,%rdx,8), %rcx
	movq	(%rsi,%rdx,8), %rdi
	movq	%rdi, (%rsi)
	jmp	2b
23:
	xorl	%ecx, %ecx
	movq	%rax, (%rdx,%rcx)
	jmp	3b
24:
	cmpq	$2, %r12
	jb	50f
	xorl	%eax, %eax
	cmpq	$13, %r12
	setae	%al
	leaq	12(,%rax,4), %rax
	cmpq	$9, %r12
	movl	$8, %ecx
	cmovaeq	%rax, %rcx
	xorl	%edx, %edx
	movq	%rbx, %rax
	subq	%rcx, %rax
	cmovaeq	%rax, %rdx
	leaq	(%r14,%rdx,8), %rax
	subq	%rdx, %rbx
	cmpq	$16, %rbx
	jb	40f
	movq	104(%rax), %rcx
	movq	(%rax), %rsi
	movq	8(%rax), %rdx
	cmpq	%rsi, %rcx
	movq	%rsi, %rdi
	cmovbq	%rcx, %rdi
	movq	%rdi, 40(%rsp)
	cmovaq	%rcx, %rsi
	movq	%rsi, 8(%rsp)
	movq	96(%rax), %rcx
	cmpq	%rdx, %rcx
	movq	%rdx, %rsi
	cmovbq	%rcx, %rsi
	movq	%rsi, 24(%rsp)
	cmovaq	%rcx, %rdx
	movq	%rdx, 48(%rsp)
	movq	16(%rax), %rdx
	movq	120(%rax), %rcx
	cmpq	%rdx, %rcx
	movq	%rdx, %r11
	cmovaq	%rcx, %rdx
	movq	%rdx, 16(%rsp)
	cmovbq	%rcx, %r11
	movq	24(%rax), %r10
	movq	112(%rax), %rcx
	cmpq	%r10, %rcx
	movq	%r10, %r12
	cmovbq	%rcx, %r12
	cmovaq	%rcx, %r10
	movq	32(%rax), %rbp
	movq	64(%rax), %rcx
	cmpq	%rbp, %rcx
	movq	%rbp, %rdx
	cmovaq	%rcx, %rbp
	cmovbq	%rcx, %rdx
	movq	%rdx, 56(%rsp)
	movq	40(%rax), %r8
	movq	48(%rax), %rcx
	cmpq	%r8, %rcx
	movq	%r8, %r15
	cmovbq	%rcx, %r15
	cmovaq	%rcx, %r8
	movq	56(%rax), %rdi
	movq	88(%rax), %rdx
	cmpq	%rdi, %rdx
	movq	%rdi, %rsi
	cmovaq	%rdx, %rdi
	cmovbq	%rdx, %rsi
	movq	72(%rax), %r13
	movq	80(%rax), %r9
	cmpq	%r13, %r9
	movq	%r13, %r14
	cmovbq	%r9, %r14
	cmovaq	%r9, %r13
	movq	40(%rsp), %rcx
	cmpq	%rcx, %r15
	movq	%rcx, %r9
	cmovbq	%r15, %r9
	cmovbeq	%rcx, %r15
	movq	24(%rsp), %rdx
	cmpq	%rdx, %rsi
	movq	%rdx, %rcx
	cmovbq	%rsi, %rcx
	movq	%rcx, 32(%rsp)
	cmovbeq	%rdx, %rsi
	cmpq	%r11, %r14
	movq	%rbx, 40(%rsp)
	movq	%r11, %rbx
	cmovbq	%r14, %rbx
	cmovbeq	%r11, %r14
	movq	56(%rsp), %rcx
	cmpq	%r12, %rcx
	movq	%r12, %r11
	cmovbq	%rcx, %r11
	cmovbeq	%r12, %rcx
	movq	%rcx, 56(%rsp)
	movq	8(%rsp), %r12
	cmpq	%r8, %r12
	movq	%r8, %rcx
	cmovbq	%r12, %rcx
	cmovaq	%r12, %r8
	cmpq	%rbp, %r10
	movq	%rbp, %rdx
	cmovbq	%r10, %rdx
	movq	%rdx, 8(%rsp)
	cmovaq	%r10, %rbp
	movq	%rbp, 24(%rsp)
	movq	16(%rsp), %rdx
	cmpq	%r13, %rdx
	movq	%r13, %r12
	cmovbq	%rdx, %r12
	cmovaq	%rdx, %r13
	movq	48(%rsp), %r10
	cmpq	%rdi, %r10
	movq	%rdi, %rdx
	cmovbq	%r10, %rdx
	cmovaq	%r10, %rdi
	movq	32(%rsp), %r10
	cmpq	%r9, %r10
	movq	%r9, %rbp
	cmovbq	%r10, %rbp
	movq	%rbp, 16(%rsp)
	cmovbeq	%r9, %r10
	movq	%r10, 32(%rsp)
	cmpq	%rbx, %r11
	movq	%rbx, %rbp
	cmovbq	%r11, %rbp
	cmovbeq	%rbx, %r11
	movq	56(%rsp), %rbx
	cmpq	%rbx, %r15
	movq	%rbx, %r9
	cmovbq	%r15, %r9
	movq	%r9, 48(%rsp)
	cmovaq	%r15, %rbx
	movq	8(%rsp), %r9
	cmpq	%rcx, %r9
	movq	%rcx, %r15
	cmovbq	%r9, %r15
	cmovbeq	%rcx, %r9
	movq	%r9, 8(%rsp)
	cmpq	%rsi, %r14
	movq	%rsi, %r10
	cmovbq	%r14, %r10
	cmovbeq	%rsi, %r14
	cmpq	%r12, %rdx
	movq	%r12, %r9
	cmovbq	%rdx, %r9
	cmovbeq	%r12, %rdx
	cmpq	%rdi, %r8
	movq	%rdi, %rcx
	cmovbq	%r8, %rcx
	movq	%rcx, 64(%rsp)
	cmovaq	%r8, %rdi
	movq	24(%rsp), %rsi
	cmpq	%rsi, %r13
	movq	%rsi, %r8
	cmovbq	%r13, %r8
	cmovbeq	%rsi, %r13
	movq	16(%rsp), %r12
	cmpq	%r12, %rbp
	movq	%r12, %rsi
	cmovbq	%rbp, %rsi
	movq	%rsi, 56(%rsp)
	cmovbeq	%r12, %rbp
	movq	32(%rsp), %rsi
	cmpq	%rsi, %r11
	movq	%rsi, %r12
	cmovbq	%r11, %r12
	cmovbeq	%rsi, %r11
	movq	48(%rsp), %rcx
	cmpq	%rcx, %r9
	movq	%rcx, %rsi
	cmovbq	%r9, %rsi
	movq	%rsi, 24(%rsp)
	cmovbeq	%rcx, %r9
	cmpq	%rbx, %rdx
	movq	%rbx, %rcx
	cmovbq	%rdx, %rcx
	movq	%rcx, 16(%rsp)
	cmovbeq	%rbx, %rdx
	cmpq	%r15, %r10
	movq	%r15, %rsi
	cmovbq	%r10, %rsi
	cmovbeq	%r15, %r10
	movq	8(%rsp), %rbx
	cmpq	%rbx, %r14
	movq	%rbx, %r15
	cmovbq	%r14, %r15
	cmovbeq	%rbx, %r14
	movq	64(%rsp), %rcx
	cmpq	%rcx, %r8
	movq	%rcx, %rbx
	cmovbq	%r8, %rbx
	cmovbeq	%rcx, %r8
	movq	%r13, %rcx
	cmpq	%rdi, %r13
	movq	%rdi, %r13
	cmovbq	%rcx, %r13
	cmovbeq	%rdi, %rcx
	movq	%rcx, 8(%rsp)
	cmpq	%r12, %rbp
	movq	%r12, %rdi
	cmovbq	%rbp, %rdi
	cmovaq	%rbp, %r12
	cmpq	%r11, %rbx
	movq	%r11, %rcx
	cmovbq	%rbx, %rcx
	movq	%rcx, 48(%rsp)
	cmovbeq	%r11, %rbx
	movq	%rbx, 32(%rsp)
	movq	24(%rsp), %r11
	cmpq	%r11, %rsi
	movq	%r11, %rcx
	cmovbq	%rsi, %rcx
	cmovbeq	%r11, %rsi
	movq	16(%rsp), %r11
	cmpq	%r11, %r10
	movq	%r11, %rbx
	cmovbq	%r10, %rbx
	cmovbeq	%r11, %r10
	cmpq	%r15, %r9
	movq	%r15, %r11
	cmovbq	%r9, %r11
	cmovaq	%r9, %r15
	cmpq	%r14, %rdx
	movq	%r14, %rbp
	cmovbq	%rdx, %rbp
	cmovaq	%rdx, %r14
	cmpq	%r13, %r8
	movq	%r13, %r9
	cmovbq	%r8, %r9
	cmovaq	%r8, %r13
	movq	%r13, %rdx
	cmpq	%rdi, %rcx
	movq	%rdi, %r8
	cmovbq	%rcx, %r8
	movq	%r8, 24(%rsp)
	cmovbeq	%rdi, %rcx
	cmpq	%r12, %rsi
	movq	%r12, %r13
	cmovbq	%rsi, %r13
	cmovbeq	%r12, %rsi
	cmpq	%rbx, %r11
	movq	%rbx, %r12
	cmovbq	%r11, %r12
	cmovbeq	%rbx, %r11
	cmpq	%r10, %r15
	movq	%r10, %rdi
	cmovbq	%r15, %rdi
	movq	%rdi, 16(%rsp)
	cmovbeq	%r10, %r15
	cmpq	%rbp, %r9
	movq	%rbp, %rdi
	cmovbq	%r9, %rdi
	cmovbeq	%rbp, %r9
	cmpq	%r14, %rdx
	movq	%r14, %r8
	cmovbq	%rdx, %r8
	cmovbeq	%r14, %rdx
	movq	%rdx, %r14
	cmpq	%r13, %rcx
	movq	%r13, %rdx
	cmovbq	%rcx, %rdx
	movq	%rdx, 64(%rsp)
	cmovaq	%rcx, %r13
	movq	48(%rsp), %rcx
	cmpq	%rcx, %rsi
	movq	%rcx, %rbp
	cmovbq	%rsi, %rbp
	cmovbeq	%rcx, %rsi
	movq	32(%rsp), %rcx
	cmpq	%rdi, %rcx
	movq	%rdi, %r10
	cmovbq	%rcx, %r10
	cmovaq	%rcx, %rdi
	cmpq	%r8, %r9
	movq	%r8, %rdx
	cmovbq	%r9, %rdx
	movq	56(%rsp), %rcx
	movq	%rcx, (%rax)
	cmovaq	%r9, %r8
	cmpq	%rbp, %r12
	movq	%rbp, %rbx
	cmovbq	%r12, %rbx
	movq	8(%rsp), %rcx
	movq	%rcx, 120(%rax)
	cmovaq	%r12, %rbp
	cmpq	%rsi, %r11
	movq	%rsi, %r9
	cmovbq	%r11, %r9
	movq	24(%rsp), %rcx
	movq	%rcx, 8(%rax)
	cmovaq	%r11, %rsi
	movq	16(%rsp), %r11
	cmpq	%r11, %r10
	movq	%r11, %rcx
	cmovbq	%r10, %rcx
	movq	%r14, 112(%rax)
	cmovbeq	%r11, %r10
	cmpq	%r15, %rdi
	movq	%r15, %r11
	cmovbq	%rdi, %r11
	movq	64(%rsp), %r12
	movq	%r12, 16(%rax)
	cmovbeq	%r15, %rdi
	cmpq	%rbx, %r13
	movq	%rbx, %r15
	cmovbq	%r13, %r15
	movq	%r8, 104(%rax)
	cmovaq	%r13, %rbx
	cmpq	%rbp, %r9
	movq	%rbp, %r14
	cmovbq	%r9, %r14
	movq	%r15, 24(%rax)
	cmovbeq	%rbp, %r9
	cmpq	%rcx, %rsi
	movq	%rcx, %r8
	cmovbq	%rsi, %r8
	movq	%rbx, 32(%rax)
	movq	40(%rsp), %rbx
	cmovaq	%rsi, %rcx
	cmpq	%r10, %r11
	movq	%r10, %rsi
	cmovbq	%r11, %rsi
	movq	%r14, 40(%rax)
	cmovbeq	%r10, %r11
	cmpq	%rdx, %rdi
	movq	%rdx, %r10
	cmovbq	%rdi, %r10
	movq	%r11, 80(%rax)
	cmovbeq	%rdx, %rdi
	cmpq	%r9, %r8
	movq	%r9, %rdx
	cmovbq	%r8, %rdx
	movq	%r10, 88(%rax)
	cmovbeq	%r9, %r8
	cmpq	%rcx, %rsi
	movq	%rcx, %r9
	cmovbq	%rsi, %r9
	movq	%rdi, 96(%rax)
	cmovbeq	%rcx, %rsi
	movq	%rdx, 48(%rax)
	movq	%r8, 56(%rax)
	movq	%r9, 64(%rax)
	movq	%rsi, 72(%rax)
	jmp	43f
25:
	leaq	(%r14,%r15,8), %rax
	movq	%r12, %rcx
	shrq	%rcx
	movq	%rcx, %rdx
	jmp	27f
	.p2align	4
26:
	testq	%rdx, %rdx
	je	34f
27:
	decq	%rdx
	movq	%rdx, %rsi
	jmp	30f
	.p2align	4
28:
	movq	%r9, (%rax,%rdi,8)
	movq	%r8, (%rax,%rsi,8)
29:
	cmpq	%rcx, %rsi
	jae	26b
30:
	movq	%rsi, %rdi
	leaq	1(,%rsi,2), %rsi
	leaq	2(,%rdi,2), %r8
	cmpq	%r12, %r8
	je	32f
	leaq	(%rdi,%rdi), %r9
	movq	(%rax,%rsi,8), %r10
	cmpq	16(%rax,%r9,8), %r10
	jb	31f
	movq	%rsi, %r8
31:
	movq	%r8, %rsi
32:
	movq	(%rax,%rdi,8), %r8
	movq	(%rax,%rsi,8), %r9
	cmpq	%r9, %r8
	jae	26b
	cmpq	%rsi, %rdi
	jb	28b
	jbe	29b
	movq	%r8, (%rax,%rsi,8)
	movq	%r9, (%rax,%rdi,8)
	jmp	29b
	.p2align	4
33:
	cmpq	$1, %r12
	jbe	50f
34:
	movq	(%rax), %rcx
	movq	-8(%rax,%r12,8), %rdx
	movq	%rdx, (%rax)
	movq	%rcx, -8(%rax,%r12,8)
	decq	%r12
	movq	%r12, %rcx
	shrq	%rcx
	je	33b
	xorl	%edx, %edx
	jmp	37f
	.p2align	4
35:
	movq	%r8, (%rax,%rsi,8)
	movq	%rdi, (%rax,%rdx,8)
36:
	cmpq	%rcx, %rdx
	jae	33b
37:
	movq	%rdx, %rsi
	leaq	1(,%rdx,2), %rdx
	leaq	2(,%rsi,2), %rdi
	cmpq	%r12, %rdi
	je	39f
	leaq	(%rsi,%rsi), %r8
	movq	(%rax,%rdx,8), %r9
	cmpq	16(%rax,%r8,8), %r9
	jb	38f
	movq	%rdx, %rdi
38:
	movq	%rdi, %rdx
39:
	movq	(%rax,%rsi,8), %rdi
	movq	(%rax,%rdx,8), %r8
	cmpq	%r8, %rdi
	jae	33b
	cmpq	%rdx, %rsi
	jb	35b
	jbe	36b
	movq	%rdi, (%rax,%rdx,8)
	movq	%r8, (%rax,%rsi,8)
	jmp	36b
40:
	cmpq	$12, %rbx
	jb	41f
	movq	64(%rax), %rcx
	movq	(%rax), %r12
	movq	8(%rax), %rbp
	cmpq	%r12, %rcx
	movq	%r12, %r9
	cmovbq	%rcx, %r9
	cmovaq	%rcx, %r12
	movq	56(%rax), %rcx
	cmpq	%rbp, %rcx
	movq	%rbp, %rsi
	cmovbq	%rcx, %rsi
	cmovaq	%rcx, %rbp
	movq	16(%rax), %r14
	movq	48(%rax), %rcx
	cmpq	%r14, %rcx
	movq	%r14, %rdx
	cmovaq	%rcx, %r14
	cmovbq	%rcx, %rdx
	movq	24(%rax), %r10
	movq	88(%rax), %rcx
	cmpq	%r10, %rcx
	movq	%rbx, 40(%rsp)
	movq	%r10, %rbx
	cmovbq	%rcx, %rbx
	cmovaq	%rcx, %r10
	movq	32(%rax), %rcx
	movq	80(%rax), %r8
	cmpq	%rcx, %r8
	movq	%rcx, %rdi
	cmovaq	%r8, %rcx
	cmovbq	%r8, %rdi
	movq	40(%rax), %r11
	movq	72(%rax), %r8
	cmpq	%r11, %r8
	movq	%r11, %r15
	cmovbq	%r8, %r15
	cmovaq	%r8, %r11
	cmpq	%r9, %rsi
	movq	%r9, %r8
	cmovbq	%rsi, %r8
	cmovbeq	%r9, %rsi
	cmpq	%rdx, %r15
	movq	%rdx, %r13
	cmovbq	%r15, %r13
	cmovbeq	%rdx, %r15
	cmpq	%rbx, %rdi
	movq	%rbx, %rdx
	cmovbq	%rdi, %rdx
	cmovbeq	%rbx, %rdi
	cmpq	%r14, %r11
	movq	%r14, %r9
	cmovbq	%r11, %r9
	cmovbeq	%r14, %r11
	cmpq	%rbp, %r12
	movq	%rbp, %rbx
	cmovbq	%r12, %rbx
	movq	%rbx, 32(%rsp)
	cmovaq	%r12, %rbp
	cmpq	%rcx, %r10
	movq	%rcx, %r12
	cmovbq	%r10, %r12
	cmovaq	%r10, %rcx
	cmpq	%r8, %r13
	movq	%r8, %r14
	cmovbq	%r13, %r14
	cmovbeq	%r8, %r13
	cmpq	%rsi, %r9
	movq	%rsi, %r10
	cmovbq	%r9, %r10
	cmovbeq	%rsi, %r9
	cmpq	%r15, %r12
	movq	%r15, %r8
	cmovbq	%r12, %r8
	cmovbeq	%r15, %r12
	cmpq	%r11, %rcx
	movq	%r11, %rsi
	cmovbq	%rcx, %rsi
	cmovbeq	%r11, %rcx
	cmpq	%r14, %rdx
	movq	%r14, %r11
	cmovbq	%rdx, %r11
	movq	%r11, 8(%rsp)
	cmovaq	%rdx, %r14
	cmpq	%r10, %r13
	movq	%r10, %rbx
	cmovbq	%r13, %rbx
	cmovaq	%r13, %r10
	cmpq	%rdi, %r9
	movq	%rdi, %r11
	cmovbq	%r9, %r11
	cmovbeq	%rdi, %r9
	movq	32(%rsp), %rdx
	cmpq	%r8, %rdx
	movq	%r8, %rdi
	cmovbq	%rdx, %rdi
	cmovaq	%rdx, %r8
	cmpq	%rbp, %rcx
	movq	%rbp, %r13
	cmovbq	%rcx, %r13
	cmovbeq	%rbp, %rcx
	cmpq	%rsi, %r12
	movq	%rsi, %r15
	cmovbq	%r12, %r15
	cmovaq	%r12, %rsi
	cmpq	%rbx, %r11
	movq	%rbx, %rdx
	cmovbq	%r11, %rdx
	cmovbeq	%rbx, %r11
	cmpq	%r14, %rdi
	movq	%r14, %rbx
	cmovbq	%rdi, %rbx
	cmovbeq	%r14, %rdi
	cmpq	%r9, %r13
	movq	%r9, %r14
	cmovbq	%r13, %r14
	cmovbeq	%r9, %r13
	cmpq	%r8, %rsi
	movq	%r8, %r12
	cmovbq	%rsi, %r12
	cmovbeq	%r8, %rsi
	cmpq	%rdx, %rbx
	movq	%rdx, %rbp
	cmovbq	%rbx, %rbp
	cmovbeq	%rdx, %rbx
	cmpq	%r10, %rdi
	movq	%r10, %r9
	cmovbq	%rdi, %r9
	cmovbeq	%r10, %rdi
	cmpq	%r14, %r15
	movq	%r14, %rdx
	cmovbq	%r15, %rdx
	cmovaq	%r15, %r14
	cmpq	%r13, %rsi
	movq	%r13, %r8
	cmovbq	%rsi, %r8
	cmovbeq	%r13, %rsi
	cmpq	%r9, %rbx
	movq	%r9, %r15
	cmovbq	%rbx, %r15
	cmovaq	%rbx, %r9
	cmpq	%r11, %rdi
	movq	%r11, %rbx
	cmovbq	%rdi, %rbx
	movq	8(%rsp), %r10
	movq	%r10, (%rax)
	cmovbeq	%r11, %rdi
	cmpq	%rdx, %r12
	movq	%rdx, %r10
	cmovbq	%r12, %r10
	movq	%rcx, 88(%rax)
	cmovaq	%r12, %rdx
	cmpq	%r8, %r14
	movq	%r8, %rcx
	cmovbq	%r14, %rcx
	movq	%rbp, 8(%rax)
	cmovaq	%r14, %r8
	cmpq	%rbx, %r10
	movq	%rbx, %r11
	cmovbq	%r10, %r11
	movq	%rsi, 80(%rax)
	cmovbeq	%rbx, %r10
	movq	40(%rsp), %rbx
	cmpq	%rdi, %rdx
	movq	%rdi, %rsi
	cmovbq	%rdx, %rsi
	movq	%r15, 16(%rax)
	cmovbeq	%rdi, %rdx
	cmpq	%r9, %r11
	movq	%r9, %rdi
	cmovbq	%r11, %rdi
	movq	%r8, 72(%rax)
	cmovbeq	%r9, %r11
	cmpq	%rsi, %r10
	movq	%rsi, %r8
	cmovbq	%r10, %r8
	movq	%rdi, 24(%rax)
	cmovaq	%r10, %rsi
	movq	%r11, 32(%rax)
	movq	%r8, 40(%rax)
	movq	%rsi, 48(%rax)
	cmpq	%rdx, %rcx
	movq	%rdx, %rsi
	cmovaq	%rcx, %rdx
	cmovbq	%rcx, %rsi
	movq	%rsi, 56(%rax)
	movq	%rdx, 64(%rax)
	jmp	43f
41:
	cmpq	$8, %rbx
	jb	42f
	movq	16(%rax), %rcx
	movq	(%rax), %r10
	movq	8(%rax), %r9
	cmpq	%r10, %rcx
	movq	%r10, %rdi
	cmovbq	%rcx, %rdi
	cmovaq	%rcx, %r10
	movq	24(%rax), %rcx
	cmpq	%r9, %rcx
	movq	%r9, %r11
	cmovbq	%rcx, %r11
	cmovaq	%rcx, %r9
	movq	32(%rax), %rsi
	movq	48(%rax), %rcx
	cmpq	%rsi, %rcx
	movq	%rsi, %r8
	cmovaq	%rcx, %rsi
	cmovbq	%rcx, %r8
	movq	40(%rax), %rdx
	movq	%rbx, %r15
	movq	56(%rax), %rbx
	cmpq	%rdx, %rbx
	movq	%rdx, %rcx
	cmovbq	%rbx, %rcx
	cmovaq	%rbx, %rdx
	cmpq	%rdi, %r8
	movq	%rdi, %rbx
	cmovbq	%r8, %rbx
	cmovbeq	%rdi, %r8
	cmpq	%r11, %rcx
	movq	%r11, %rdi
	cmovbq	%rcx, %rdi
	cmovbeq	%r11, %rcx
	cmpq	%r10, %rsi
	movq	%r10, %r14
	cmovbq	%rsi, %r14
	cmovbeq	%r10, %rsi
	cmpq	%r9, %rdx
	movq	%r9, %r11
	cmovbq	%rdx, %r11
	cmovbeq	%r9, %rdx
	cmpq	%rbx, %rdi
	movq	%rbx, %r10
	cmovbq	%rdi, %r10
	cmovbeq	%rbx, %rdi
	cmpq	%r14, %r11
	movq	%r14, %rbx
	cmovbq	%r11, %rbx
	cmovbeq	%r14, %r11
	cmpq	%r8, %rcx
	movq	%r8, %r9
	cmovbq	%rcx, %r9
	cmovbeq	%r8, %rcx
	cmpq	%rsi, %rdx
	movq	%rsi, %r8
	cmovbq	%rdx, %r8
	cmovbeq	%rsi, %rdx
	cmpq	%rbx, %r9
	movq	%rbx, %r14
	cmovbq	%r9, %r14
	cmovbeq	%rbx, %r9
	movq	%r15, %rbx
	cmpq	%r11, %rcx
	movq	%r11, %rsi
	cmovbq	%rcx, %rsi
	cmovbeq	%r11, %rcx
	cmpq	%rdi, %r9
	movq	%rdi, %r11
	cmovbq	%r9, %r11
	cmovbeq	%rdi, %r9
	cmpq	%rsi, %r8
	movq	%rsi, %rdi
	cmovbq	%r8, %rdi
	movq	%r10, (%rax)
	cmovaq	%r8, %rsi
	cmpq	%r11, %r14
	movq	%r11, %r8
	cmovbq	%r14, %r8
	movq	%rdx, 56(%rax)
	cmovaq	%r14, %r11
	cmpq	%rdi, %r9
	movq	%rdi, %rdx
	cmovbq	%r9, %rdx
	movq	%r8, 8(%rax)
	cmovaq	%r9, %rdi
	cmpq	%rcx, %rsi
	movq	%rcx, %r8
	cmovbq	%rsi, %r8
	movq	%r11, 16(%rax)
	cmovbeq	%rcx, %rsi
	movq	%rdx, 24(%rax)
	movq	%rdi, 32(%rax)
	movq	%r8, 40(%rax)
	movq	%rsi, 48(%rax)
	jmp	43f
42:
	cmpq	$2, %rbx
	jb	50f
43:
	movl	$1, %ecx
	jmp	47f
44:
	xorl	%esi, %esi
45:
	movq	%rdx, (%rax,%rsi)
46:
	incq	%rcx
	cmpq	%rbx, %rcx
	je	50f
47:
	movq	-8(%rax,%rcx,8), %rdi
	movq	(%rax,%rcx,8), %rdx
	cmpq	%rdi, %rdx
	jae	46b
	movq	%rcx, %rsi
	movq	%rdi, (%rax,%rcx,8)
	decq	%rsi
	je	44b
	.p2align	4
48:
	movq	-8(%rax,%rsi,8), %rdi
	cmpq	%rdi, %rdx
	jae	49f
	movq	%rdi, (%rax,%rsi,8)
	decq	%rsi
	jne	48b
	xorl	%esi, %esi
49:
	shlq	$3, %rsi
	jmp	45b
50:
	addq	$72, %rsp
	popq	%rbx
	popq	%r12
	popq	%r13
	popq	%r14
	popq	%r15
	popq	%rbp
	retq
51:
	.size	"core::slice::sort::unstable::quicksort::<#7ab9c65c4fe95e6e>", 51b-"core::slice::sort::unstable::quicksort::<#7ab9c65c4fe95e6e>"

	.section	.rodata.cst16,"aM",@progbits,16
	.p2align	4, 0x0
1:
	.zero	16,128
	.text
	.p2align	4
	.type	"core::slice::words::skip_far::<#52f9edcae2f82f51>",@function
"core::slice::words::skip_far::<#52f9edcae2f82f51>":
	movq	%rsi, %rax
	subq	%rsi, %rdx
	cmpq	$64, %rdx
	jb	3f
	movq	(%rdi), %rcx
	.p2align	4
2:
	movdqu	(%rcx,%rax), %xmm0
	movdqu	16(%rcx,%rax), %xmm1
	movdqu	32(%rcx,%rax), %xmm2
	por	%xmm0, %xmm2
	movdqu	48(%rcx,%rax), %xmm0
	por	%xmm1, %xmm0
	por	%xmm2, %xmm0
	ptest	1b(%rip), %xmm0
	jne	3f
	addq	$64, %rax
	addq	$-64, %rdx
	cmpq	$63, %rdx
	ja	2b
3:
	retq
4:
	.size	"core::slice::words::skip_far::<#52f9edcae2f82f51>", 4b-"core::slice::words::skip_far::<#52f9edcae2f82f51>"

	.section	.rodata.cst16,"aM",@progbits,16
	.p2align	4, 0x0
1:
	.zero	16,127
	.text
	.p2align	4
	.type	"core::slice::words::skip_far::<#878162fd265b9cd6>",@function
"core::slice::words::skip_far::<#878162fd265b9cd6>":
	movq	%rsi, %rax
	subq	%rsi, %rdx
	cmpq	$64, %rdx
	jb	3f
	movabsq	$-9187201950435737472, %rcx
	movq	(%rdi), %rsi
	movzbl	16(%rdi), %r8d
	movabsq	$72340172838076673, %r9
	imulq	%r9, %r8
	movzbl	17(%rdi), %r10d
	imulq	%r9, %r10
	movq	%r10, %xmm0
	pshufd	$68, %xmm0, %xmm0
	movq	%r8, %xmm1
	pshufd	$68, %xmm1, %xmm1
	movq	24(%rdi), %rdi
	addq	%rsi, %rdi
	.p2align	4
2:
	movdqu	(%rsi,%rax), %xmm6
	movdqu	16(%rsi,%rax), %xmm7
	movdqu	32(%rsi,%rax), %xmm8
	movdqu	48(%rsi,%rax), %xmm9
	pxor	%xmm1, %xmm7
	pxor	%xmm1, %xmm9
	pxor	%xmm1, %xmm6
	pxor	%xmm1, %xmm8
	movdqu	(%rdi,%rax), %xmm3
	movdqu	16(%rdi,%rax), %xmm5
	movdqu	32(%rdi,%rax), %xmm2
	movdqu	48(%rdi,%rax), %xmm4
	pxor	%xmm0, %xmm5
	por	%xmm7, %xmm5
	pxor	%xmm0, %xmm4
	por	%xmm9, %xmm4
	pxor	%xmm0, %xmm3
	por	%xmm6, %xmm3
	pxor	%xmm0, %xmm2
	por	%xmm8, %xmm2
	movdqa	1b(%rip), %xmm6
	movdqa	%xmm5, %xmm7
	pand	%xmm6, %xmm7
	movdqa	%xmm4, %xmm8
	pand	%xmm6, %xmm8
	movdqa	%xmm3, %xmm9
	pand	%xmm6, %xmm9
	movdqa	%xmm2, %xmm10
	pand	%xmm6, %xmm10
	paddq	%xmm6, %xmm10
	paddq	%xmm6, %xmm9
	paddq	%xmm6, %xmm8
	paddq	%xmm6, %xmm7
	por	%xmm5, %xmm7
	por	%xmm4, %xmm8
	pand	%xmm7, %xmm8
	por	%xmm3, %xmm9
	por	%xmm2, %xmm10
	pand	%xmm9, %xmm10
	pand	%xmm8, %xmm10
	pshufd	$238, %xmm10, %xmm2
	pand	%xmm10, %xmm2
	movq	%xmm2, %r8
	notq	%r8
	testq	%r8, %rcx
	jne	3f
	addq	$64, %rax
	addq	$-64, %rdx
	cmpq	$63, %rdx
	ja	2b
3:
	retq
4:
	.size	"core::slice::words::skip_far::<#878162fd265b9cd6>", 4b-"core::slice::words::skip_far::<#878162fd265b9cd6>"

	.section	.rodata.cst16,"aM",@progbits,16
	.p2align	4, 0x0
1:
	.zero	16,127
	.text
	.p2align	4
	.type	"core::slice::words::skip_far::<#d9bf6fcacf29a880>",@function
"core::slice::words::skip_far::<#d9bf6fcacf29a880>":
	movq	%rsi, %rax
	subq	%rsi, %rdx
	cmpq	$64, %rdx
	jb	3f
	movabsq	$-9187201950435737472, %rcx
	movq	(%rdi), %rsi
	movzbl	16(%rdi), %edi
	movabsq	$72340172838076673, %r8
	imulq	%rdi, %r8
	movq	%r8, %xmm0
	pshufd	$68, %xmm0, %xmm0
	.p2align	4
2:
	movdqu	(%rsi,%rax), %xmm2
	movdqu	16(%rsi,%rax), %xmm3
	movdqu	32(%rsi,%rax), %xmm1
	movdqu	48(%rsi,%rax), %xmm4
	pxor	%xmm0, %xmm1
	pxor	%xmm0, %xmm2
	pxor	%xmm0, %xmm4
	pxor	%xmm0, %xmm3
	movdqa	1b(%rip), %xmm5
	movdqa	%xmm3, %xmm6
	pand	%xmm5, %xmm6
	movdqa	%xmm4, %xmm7
	pand	%xmm5, %xmm7
	movdqa	%xmm2, %xmm8
	pand	%xmm5, %xmm8
	movdqa	%xmm1, %xmm9
	pand	%xmm5, %xmm9
	paddq	%xmm5, %xmm9
	paddq	%xmm5, %xmm8
	paddq	%xmm5, %xmm7
	paddq	%xmm5, %xmm6
	por	%xmm3, %xmm6
	por	%xmm4, %xmm7
	pand	%xmm6, %xmm7
	por	%xmm2, %xmm8
	por	%xmm1, %xmm9
	pand	%xmm8, %xmm9
	pand	%xmm7, %xmm9
	pshufd	$238, %xmm9, %xmm1
	pand	%xmm9, %xmm1
	movq	%xmm1, %rdi
	notq	%rdi
	testq	%rdi, %rcx
	jne	3f
	addq	$64, %rax
	addq	$-64, %rdx
	cmpq	$63, %rdx
	ja	2b
3:
	retq
4:
	.size	"core::slice::words::skip_far::<#d9bf6fcacf29a880>", 4b-"core::slice::words::skip_far::<#d9bf6fcacf29a880>"

	.text
	.p2align	4
	.type	"core::str::utf8::from_utf8",@function
"core::str::utf8::from_utf8":
	pushq	%r15
	pushq	%r14
	pushq	%r13
	pushq	%r12
	pushq	%rbx
	subq	$16, %rsp
	movq	%rdx, %r15
	movq	%rsi, %r14
	movq	%rdi, %rbx
	testq	%rdx, %rdx
	je	21f
	movabsq	$-9187201950435737472, %r12
	leaq	-8(%r15), %r13
	xorl	%ecx, %ecx
	jmp	4f
1:
	movl	$1, %edi
2:
	addq	%rcx, %rdi
3:
	movq	%rdi, %rcx
	cmpq	%r15, %rdi
	jae	21f
4:
	movzbl	(%r14,%rcx), %esi
	testb	%sil, %sil
	sets	%dl
	movq	%r15, %rax
	subq	%rcx, %rax
	cmpq	$2, %rax
	setb	%dil
	orb	%dl, %dil
	jne	5f
	cmpb	$0, 1(%r14,%rcx)
	js	1b
	movq	%r14, (%rsp)
	movq	%r15, 8(%rsp)
	cmpq	$7, %rax
	ja	6f
	cmpb	$0, (%r14,%rcx)
	js	8f
	leaq	1(%rcx), %rdi
	cmpq	%r15, %rdi
	je	21f
	cmpb	$0, (%r14,%rdi)
	js	3b
	leaq	2(%rcx), %rdi
	cmpq	%r15, %rdi
	je	21f
	cmpb	$0, (%r14,%rdi)
	js	3b
	leaq	3(%rcx), %rdi
	cmpq	%r15, %rdi
	je	21f
	cmpb	$0, (%r14,%rdi)
	js	3b
	leaq	4(%rcx), %rdi
	cmpq	%r15, %rdi
	je	21f
	cmpb	$0, (%r14,%rdi)
	js	3b
	leaq	5(%rcx), %rdi
	cmpq	%r15, %rdi
	je	21f
	cmpb	$0, (%r14,%rdi)
	js	3b
	addq	$6, %rcx
	cmpq	%r15, %rcx
	je	21f
	cmpb	$0, (%r14,%rcx)
	movq	%rcx, %rdi
	js	3b
	jmp	21f
	.p2align	4
5:
	movl	$1, %edi
	testb	%sil, %sil
	jns	2b
	movl	$257, %edx
	cmpb	$-62, %sil
	jb	20f
	cmpb	$-33, %sil
	ja	7f
	cmpq	$2, %rax
	jb	19f
	movzbl	1(%r14,%rcx), %r8d
	movl	$2, %edi
	cmpb	$-65, %r8b
	jle	2b
	jmp	18f
6:
	movq	(%r14,%rcx), %rax
	andq	%r12, %rax
	je	9f
	rep		bsfq	%rax, %rax
	shrl	$3, %eax
	addq	%rcx, %rax
	addq	$8, %rcx
	movq	%rax, %rdi
	cmpq	%rcx, %rax
	jb	3b
	movq	%r15, %rcx
	subq	%rax, %rcx
	cmpq	$32, %rcx
	jae	10f
	jmp	11f
7:
	cmpb	$-17, %sil
	ja	15f
	cmpq	$3, %rax
	jb	17f
	movzbl	1(%r14,%rcx), %r8d
	cmpb	$-65, %r8b
	jg	18f
	cmpb	$-65, 2(%r14,%rcx)
	jg	18f
	movzbl	%r8b, %edi
	movl	%esi, %r9d
	shll	$6, %r9d
	addl	%edi, %r9d
	addl	$-14464, %r9d
	cmpl	$32, %r9d
	jb	18f
	xorl	%r8d, %r8d
	cmpl	$896, %r9d
	setae	%r10b
	movl	$3, %edi
	cmpl	$864, %r9d
	jb	2b
	movb	%r10b, %r8b
	leaq	(%r8,%r8,2), %rdi
	testq	%rdi, %rdi
	jne	2b
	jmp	16f
8:
	movq	%rcx, %rdi
	jmp	3b
9:
	addq	$8, %rcx
	movq	%rcx, %rax
	movq	%r15, %rcx
	subq	%rax, %rcx
	cmpq	$32, %rcx
	jb	11f
	.p2align	4
10:
	movdqu	(%r14,%rax), %xmm0
	movdqu	16(%r14,%rax), %xmm1
	por	%xmm0, %xmm1
	pshufd	$238, %xmm1, %xmm0
	por	%xmm1, %xmm0
	movq	%xmm0, %rcx
	testq	%r12, %rcx
	jne	11f
	addq	$32, %rax
	movq	%rsp, %rdi
	movq	%rax, %rsi
	movq	%r15, %rdx
	callq	"core::slice::words::skip_far::<#52f9edcae2f82f51>"
	movq	%r15, %rcx
	subq	%rax, %rcx
	cmpq	$31, %rcx
	ja	10b
11:
	movq	%r15, %rcx
	subq	%rax, %rcx
	jmp	13f
	.p2align	4
12:
	rep		bsfq	%rdx, %rdi
	shrl	$3, %edi
	addq	%rax, %rdi
	addq	$8, %rax
	addq	$-8, %rcx
	cmpq	%rax, %rdi
	jb	3b
13:
	cmpq	$9, %rcx
	jb	14f
	movq	(%r14,%rax), %rdx
	andq	%r12, %rdx
	jne	12b
	leaq	8(%rax), %rdi
	addq	$8, %rax
	addq	$-8, %rcx
	cmpq	%rax, %rdi
	jae	13b
	jmp	3b
14:
	movq	(%r14,%r13), %rax
	andq	%r12, %rax
	je	21f
	rep		bsfq	%rax, %rdi
	shrl	$3, %edi
	addq	%r13, %rdi
	jmp	3b
15:
	cmpq	$4, %rax
	jb	16f
	movzbl	1(%r14,%rcx), %edi
	cmpb	$-65, %dil
	jg	16f
	cmpb	$-65, 2(%r14,%rcx)
	jg	16f
	cmpb	$-65, 3(%r14,%rcx)
	jg	16f
	movl	%esi, %r8d
	shll	$6, %r8d
	leal	(%r8,%rdi), %r9d
	addl	$-15488, %r9d
	xorl	%edi, %edi
	cmpl	$272, %r9d
	setb	%r8b
	cmpl	$16, %r9d
	jb	16f
	movb	%r8b, %dil
	shll	$2, %edi
	testq	%rdi, %rdi
	jne	2b
16:
	cmpb	$-12, %sil
	ja	20f
17:
	cmpq	$2, %rax
	jb	19f
	movzbl	1(%r14,%rcx), %r8d
18:
	cmpl	$240, %esi
	sete	%dil
	shlb	$4, %dil
	orb	$-128, %dil
	cmpl	$224, %esi
	movzbl	%dil, %edi
	movl	$160, %r9d
	cmovnel	%edi, %r9d
	cmpl	$244, %esi
	movl	$143, %edi
	movl	$191, %r10d
	cmovel	%edi, %r10d
	cmpl	$237, %esi
	movl	$159, %esi
	cmovnel	%r10d, %esi
	cmpb	%r8b, %r9b
	ja	20f
	cmpb	%sil, %r8b
	ja	20f
	cmpq	$2, %rax
	jne	23f
19:
	xorl	%edx, %edx
20:
	movq	$1, (%rbx)
	movq	%rcx, 8(%rbx)
	movq	%rdx, 16(%rbx)
	jmp	22f
21:
	movq	$0, (%rbx)
	movq	%r14, 8(%rbx)
	movq	%r15, 16(%rbx)
22:
	addq	$16, %rsp
	popq	%rbx
	popq	%r12
	popq	%r13
	popq	%r14
	popq	%r15
	retq
23:
	movl	$513, %edx
	cmpb	$-65, 2(%r14,%rcx)
	jg	20b
	xorl	%esi, %esi
	cmpq	$4, %rax
	movl	$769, %edx
	cmovbq	%rsi, %rdx
	jmp	20b
24:
	.size	"core::str::utf8::from_utf8", 24b-"core::str::utf8::from_utf8"
