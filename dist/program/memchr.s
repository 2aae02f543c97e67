# Made by dist/refresh of what is proved.

	.text
	.p2align	4
	.type	"memchr::bytes::memchr",@function
"memchr::bytes::memchr":
	cmpq	$32, %rdx
	jae	3f
	testq	%rdx, %rdx
	je	2f
	xorl	%r8d, %r8d
	.p2align	4
1:
	cmpb	%dil, (%rsi,%r8)
	je	24f
	incq	%r8
	cmpq	%r8, %rdx
	jne	1b
2:
	xorl	%r8d, %r8d
	xorl	%eax, %eax
	movq	%r8, %rdx
	retq
3:
	movzbl	%dil, %eax
	movd	%eax, %xmm0
	pxor	%xmm1, %xmm1
	pshufb	%xmm1, %xmm0
	leaq	-64(%rdx), %rax
	xorl	%r9d, %r9d
4:
	movq	%rdx, %rcx
	subq	%r9, %rcx
	cmpq	$191, %rcx
	jbe	8f
	movdqu	(%rsi,%r9), %xmm1
	movdqu	16(%rsi,%r9), %xmm2
	movdqu	32(%rsi,%r9), %xmm3
	movdqu	48(%rsi,%r9), %xmm4
	pcmpeqb	%xmm0, %xmm4
	pcmpeqb	%xmm0, %xmm3
	pcmpeqb	%xmm0, %xmm1
	pmovmskb	%xmm1, %ecx
	pcmpeqb	%xmm0, %xmm2
	pmovmskb	%xmm2, %r8d
	shll	$16, %r8d
	orl	%ecx, %r8d
	pmovmskb	%xmm3, %ecx
	shlq	$32, %rcx
	orq	%r8, %rcx
	pmovmskb	%xmm4, %r11d
	shlq	$48, %r11
	leaq	64(%r9), %r10
	orq	%rcx, %r11
	jne	19f
	movq	%rdx, %rcx
	subq	%r10, %rcx
	cmpq	$128, %rcx
	jb	6f
	subq	$-128, %r9
	movq	%r9, %r10
	.p2align	4
5:
	movdqu	-64(%rsi,%r10), %xmm8
	movdqu	-48(%rsi,%r10), %xmm7
	movdqu	-32(%rsi,%r10), %xmm6
	movdqu	-16(%rsi,%r10), %xmm3
	pcmpeqb	%xmm0, %xmm7
	pcmpeqb	%xmm0, %xmm8
	pcmpeqb	%xmm0, %xmm6
	pcmpeqb	%xmm0, %xmm3
	movdqu	(%rsi,%r10), %xmm5
	movdqu	16(%rsi,%r10), %xmm4
	pcmpeqb	%xmm0, %xmm4
	pcmpeqb	%xmm0, %xmm5
	movdqu	32(%rsi,%r10), %xmm2
	movdqu	48(%rsi,%r10), %xmm1
	pcmpeqb	%xmm0, %xmm1
	pcmpeqb	%xmm0, %xmm2
	movdqa	%xmm5, %xmm9
	por	%xmm2, %xmm9
	movdqa	%xmm4, %xmm10
	por	%xmm1, %xmm10
	movdqa	%xmm6, %xmm11
	por	%xmm8, %xmm11
	por	%xmm9, %xmm11
	movdqa	%xmm3, %xmm9
	por	%xmm7, %xmm9
	por	%xmm10, %xmm9
	por	%xmm11, %xmm9
	pmovmskb	%xmm9, %r8d
	testl	%r8d, %r8d
	jne	21f
	subq	$-128, %r10
	addq	$-128, %rcx
	cmpq	$127, %rcx
	ja	5b
	addq	$-64, %r10
6:
	movq	%r10, %r9
	cmpq	$32, %rcx
	jb	16f
	movq	%rdx, %rcx
	subq	%r9, %rcx
	.p2align	4
7:
	movdqu	(%rsi,%r9), %xmm1
	movdqu	16(%rsi,%r9), %xmm2
	pcmpeqb	%xmm0, %xmm1
	pmovmskb	%xmm1, %r10d
	pcmpeqb	%xmm0, %xmm2
	pmovmskb	%xmm2, %r8d
	shll	$16, %r8d
	orl	%r10d, %r8d
	jne	18f
	addq	$-32, %rcx
	addq	$32, %r9
	cmpq	$31, %rcx
	ja	7b
	jmp	16f
	.p2align	4
8:
	cmpq	$64, %rcx
	jb	14f
	.p2align	4
9:
	movdqu	(%rsi,%r9), %xmm1
	movdqu	16(%rsi,%r9), %xmm2
	movdqu	32(%rsi,%r9), %xmm3
	movdqu	48(%rsi,%r9), %xmm4
	pcmpeqb	%xmm0, %xmm2
	pcmpeqb	%xmm0, %xmm1
	pcmpeqb	%xmm0, %xmm4
	por	%xmm2, %xmm4
	pcmpeqb	%xmm0, %xmm3
	por	%xmm1, %xmm3
	por	%xmm4, %xmm3
	pmovmskb	%xmm3, %r8d
	testl	%r8d, %r8d
	jne	10f
	addq	$64, %r9
	addq	$-64, %rcx
	cmpq	$63, %rcx
	ja	9b
	jmp	14f
10:
	cmpq	$64, %rcx
	jb	14f
11:
	movdqu	(%rsi,%r9), %xmm1
	movdqu	16(%rsi,%r9), %xmm2
	movdqu	32(%rsi,%r9), %xmm3
	movdqu	48(%rsi,%r9), %xmm4
	pcmpeqb	%xmm0, %xmm4
	pcmpeqb	%xmm0, %xmm3
	pcmpeqb	%xmm0, %xmm1
	pmovmskb	%xmm1, %ecx
	pcmpeqb	%xmm0, %xmm2
	pmovmskb	%xmm2, %r8d
	shll	$16, %r8d
	orl	%ecx, %r8d
	pmovmskb	%xmm3, %ecx
	shlq	$32, %rcx
	orq	%r8, %rcx
	pmovmskb	%xmm4, %r11d
	shlq	$48, %r11
	orq	%rcx, %r11
	jne	23f
	movq	%rax, %rcx
	subq	%r9, %rcx
	.p2align	4
12:
	cmpq	$64, %rcx
	jb	13f
	movdqu	64(%rsi,%r9), %xmm1
	movdqu	80(%rsi,%r9), %xmm2
	movdqu	96(%rsi,%r9), %xmm3
	movdqu	112(%rsi,%r9), %xmm4
	pcmpeqb	%xmm0, %xmm2
	pcmpeqb	%xmm0, %xmm1
	pcmpeqb	%xmm0, %xmm4
	por	%xmm2, %xmm4
	pcmpeqb	%xmm0, %xmm3
	por	%xmm1, %xmm3
	por	%xmm4, %xmm3
	pmovmskb	%xmm3, %r8d
	addq	$-64, %rcx
	addq	$64, %r9
	testl	%r8d, %r8d
	je	12b
	jmp	11b
13:
	addq	$64, %r9
	.p2align	4
14:
	cmpq	$32, %rcx
	jb	16f
	movq	%rdx, %rcx
	subq	%r9, %rcx
	.p2align	4
15:
	movdqu	(%rsi,%r9), %xmm1
	movdqu	16(%rsi,%r9), %xmm2
	pcmpeqb	%xmm0, %xmm1
	pmovmskb	%xmm1, %r10d
	pcmpeqb	%xmm0, %xmm2
	pmovmskb	%xmm2, %r8d
	shll	$16, %r8d
	orl	%r10d, %r8d
	jne	18f
	addq	$-32, %rcx
	addq	$32, %r9
	cmpq	$31, %rcx
	ja	15b
16:
	movdqu	-32(%rsi,%rdx), %xmm1
	movdqu	-16(%rsi,%rdx), %xmm2
	pcmpeqb	%xmm0, %xmm1
	pmovmskb	%xmm1, %ecx
	pcmpeqb	%xmm0, %xmm2
	pmovmskb	%xmm2, %r11d
	shll	$16, %r11d
	orl	%ecx, %r11d
	movl	%r9d, %ecx
	subl	%edx, %ecx
	addb	$32, %cl
	shrq	%cl, %r11
	movq	%r9, %r10
	movq	%rdx, %rcx
17:
	movq	%r10, %r9
	movq	%rcx, %r10
	testq	%r11, %r11
	jne	19f
	jmp	20f
18:
	movl	%r8d, %r11d
	leaq	32(%r9), %r10
	.p2align	4
19:
	rep		bsfq	%r11, %rcx
	leaq	(%rcx,%r9), %r8
	cmpb	%dil, (%rsi,%r8)
	je	24f
	movq	$-2, %r8
	rolq	%cl, %r8
	andq	%r8, %r11
	jne	19b
20:
	movq	%r10, %r9
	cmpq	%rdx, %r10
	jb	4b
	jmp	2b
21:
	pmovmskb	%xmm8, %ecx
	pmovmskb	%xmm7, %r8d
	shll	$16, %r8d
	orl	%ecx, %r8d
	pmovmskb	%xmm6, %ecx
	shlq	$32, %rcx
	orq	%r8, %rcx
	pmovmskb	%xmm3, %r11d
	shlq	$48, %r11
	orq	%rcx, %r11
	je	22f
	leaq	-64(%r10), %r9
	jmp	19b
22:
	leaq	64(%r10), %rcx
	pmovmskb	%xmm5, %r8d
	pmovmskb	%xmm4, %r9d
	shll	$16, %r9d
	orl	%r8d, %r9d
	pmovmskb	%xmm2, %r8d
	shlq	$32, %r8
	orq	%r9, %r8
	pmovmskb	%xmm1, %r11d
	shlq	$48, %r11
	orq	%r8, %r11
	jmp	17b
23:
	leaq	64(%r9), %r10
	jmp	19b
24:
	movb	$1, %al
	movq	%r8, %rdx
	retq
25:
	.size	"memchr::bytes::memchr", 25b-"memchr::bytes::memchr"
