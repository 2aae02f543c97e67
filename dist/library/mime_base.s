# Made by dist/refresh of what is proved.

	.text
	.p2align	4
	.type	"mime_base::magic::pairs::pass_pairs",@function
"mime_base::magic::pairs::pass_pairs":
	pushq	%rbp
	pushq	%r14
	pushq	%rbx
	movzbl	%dil, %r11d
	movzbl	%sil, %eax
	cmpq	$32, %r8
	jb	4f
	movd	%r11d, %xmm0
	pxor	%xmm2, %xmm2
	pshufb	%xmm2, %xmm0
	movd	%eax, %xmm1
	pshufb	%xmm2, %xmm1
	xorl	%r9d, %r9d
	movq	%r8, %rbx
	xorl	%r10d, %r10d
	jmp	3f
	.p2align	4
1:
	xorl	%r14d, %r14d
2:
	addq	$32, %r9
	addq	%r14, %r10
	addq	$-32, %rbx
	cmpq	$31, %rbx
	jbe	5f
3:
	movdqu	(%rdx,%r9), %xmm2
	movdqu	16(%rdx,%r9), %xmm3
	pcmpeqb	%xmm0, %xmm2
	pmovmskb	%xmm2, %r14d
	pcmpeqb	%xmm0, %xmm3
	pmovmskb	%xmm3, %ebp
	shll	$16, %ebp
	orl	%r14d, %ebp
	je	1b
	movdqu	1(%rdx,%r9), %xmm4
	movdqu	17(%rdx,%r9), %xmm5
	pcmpeqb	%xmm1, %xmm4
	pcmpeqb	%xmm1, %xmm5
	pand	%xmm3, %xmm5
	pand	%xmm2, %xmm4
	por	%xmm5, %xmm4
	pmovmskb	%xmm4, %r14d
	testl	%r14d, %r14d
	jne	5f
	xorl	%r14d, %r14d
	popcntl	%ebp, %r14d
	jmp	2b
4:
	xorl	%r10d, %r10d
	xorl	%r9d, %r9d
5:
	subq	%r9, %rcx
	subq	%r9, %r8
	cmpq	$4, %r8
	setae	%bl
	cmpq	$33, %rcx
	setae	%cl
	testb	%bl, %cl
	jne	9f
	testq	%r8, %r8
	je	11f
	leaq	(%r9,%rdx), %rcx
	incq	%rcx
	xorl	%edx, %edx
	xorl	%eax, %eax
	jmp	8f
	.p2align	4
6:
	incq	%rdx
7:
	incq	%rax
	cmpq	%rax, %r8
	je	10f
8:
	cmpb	%dil, -1(%rcx,%rax)
	jne	7b
	cmpb	%sil, (%rcx,%rax)
	jne	6b
	jmp	12f
9:
	movd	%r11d, %xmm0
	pxor	%xmm1, %xmm1
	pshufb	%xmm1, %xmm0
	movdqu	(%rdx,%r9), %xmm2
	movdqu	1(%rdx,%r9), %xmm3
	movdqu	16(%rdx,%r9), %xmm4
	movdqu	17(%rdx,%r9), %xmm5
	pcmpeqb	%xmm0, %xmm2
	pmovmskb	%xmm2, %ecx
	pcmpeqb	%xmm0, %xmm4
	pmovmskb	%xmm4, %edx
	shll	$16, %edx
	orl	%ecx, %edx
	movd	%eax, %xmm0
	pshufb	%xmm1, %xmm0
	pcmpeqb	%xmm0, %xmm3
	pcmpeqb	%xmm5, %xmm0
	pand	%xmm4, %xmm0
	pand	%xmm2, %xmm3
	pmovmskb	%xmm3, %eax
	pmovmskb	%xmm0, %ecx
	shll	$16, %ecx
	orl	%eax, %ecx
	movl	$64, %esi
	rep		bsfq	%rcx, %rsi
	cmpq	%rsi, %r8
	cmovbq	%r8, %rsi
	cmpq	$32, %rsi
	movl	$32, %eax
	cmovbq	%rsi, %rax
	movq	$-1, %rsi
	movl	%eax, %ecx
	shlq	%cl, %rsi
	notl	%esi
	andl	%edx, %esi
	xorl	%edx, %edx
	popcntl	%esi, %edx
	jmp	12f
10:
	movq	%r8, %rax
	jmp	12f
11:
	xorl	%eax, %eax
	xorl	%edx, %edx
12:
	addq	%r10, %rdx
	addq	%r9, %rax
	popq	%rbx
	popq	%r14
	popq	%rbp
	retq
13:
	.size	"mime_base::magic::pairs::pass_pairs", 13b-"mime_base::magic::pairs::pass_pairs"

	.text
	.p2align	4
	.type	"mime_base::magic::ranges::value_is",@function
"mime_base::magic::ranges::value_is":
	pushq	%rbp
	pushq	%r14
	pushq	%rbx
	movq	40(%rsp), %rax
	testb	%r9b, %r9b
	je	2f
1:
	movl	$1, %r9d
	jmp	3f
2:
	cmpl	$2, %r8d
	sete	%r10b
	testb	$1, %sil
	sete	%r11b
	movl	$2, %r9d
	testb	%r10b, %r11b
	jne	3f
	cmpl	$4, %r8d
	sete	%r8b
	testb	$3, %sil
	sete	%r10b
	movl	$4, %r9d
	testb	%r8b, %r10b
	je	1b
3:
	movq	48(%rsp), %r8
	testq	%rax, %rax
	je	6f
	movq	32(%rsp), %r10
	cmpl	$2, %r9d
	je	7f
	cmpl	$4, %r9d
	jne	10f
	addq	$3, %rdx
	addq	$3, %rdi
	xorl	%r11d, %r11d
	xorl	%r9d, %r9d
	.p2align	4
4:
	movl	%r11d, %ebx
	andl	$6, %ebx
	movq	%r9, %r14
	subq	%rbx, %r14
	addq	$3, %r14
	movb	$-1, %bpl
	cmpq	%rcx, %r14
	jae	5f
	movq	%rdx, %r14
	subq	%rbx, %r14
	movzbl	(%r14,%r9), %ebp
5:
	movq	%rdi, %r14
	subq	%rbx, %r14
	movzbl	(%r14,%r9), %ebx
	xorb	(%r10,%r9), %bl
	testb	%bpl, %bl
	jne	14f
	incq	%r9
	addq	$2, %r11
	cmpq	%r9, %rax
	jne	4b
	jmp	13f
6:
	xorl	%r9d, %r9d
	jmp	14f
7:
	incq	%rdx
	incq	%rdi
	xorl	%r11d, %r11d
	xorl	%r9d, %r9d
	.p2align	4
8:
	movl	%r11d, %ebx
	andl	$2, %ebx
	movq	%r9, %r14
	subq	%rbx, %r14
	incq	%r14
	movb	$-1, %bpl
	cmpq	%rcx, %r14
	jae	9f
	movq	%rdx, %r14
	subq	%rbx, %r14
	movzbl	(%r14,%r9), %ebp
9:
	movq	%rdi, %r14
	subq	%rbx, %r14
	movzbl	(%r14,%r9), %ebx
	xorb	(%r10,%r9), %bl
	testb	%bpl, %bl
	jne	14f
	incq	%r9
	addq	$2, %r11
	cmpq	%r9, %rax
	jne	8b
	jmp	13f
10:
	xorl	%r9d, %r9d
	.p2align	4
11:
	movb	$-1, %r11b
	cmpq	%rcx, %r9
	jae	12f
	movzbl	(%rdx,%r9), %r11d
12:
	movzbl	(%rdi,%r9), %ebx
	xorb	(%r10,%r9), %bl
	testb	%r11b, %bl
	jne	14f
	incq	%r9
	cmpq	%r9, %rax
	jne	11b
13:
	movq	%rax, %r9
14:
	movq	%r9, %rcx
	incq	%rcx
	movq	$-1, %rdx
	cmoveq	%rdx, %rcx
	cmpq	%rcx, %rsi
	cmovbq	%rsi, %rcx
	addq	8(%r8), %rcx
	cmovbq	%rdx, %rcx
	movq	%rcx, 8(%r8)
	cmpq	%rax, %r9
	sete	%al
	popq	%rbx
	popq	%r14
	popq	%rbp
	retq
15:
	.size	"mime_base::magic::ranges::value_is", 15b-"mime_base::magic::ranges::value_is"

	.text
	.p2align	4
	.type	"mime_base::matching::attempt::attempt",@function
"mime_base::matching::attempt::attempt":
	pushq	%rbp
	pushq	%r15
	pushq	%r14
	pushq	%r13
	pushq	%r12
	pushq	%rbx
	movq	%rcx, -8(%rsp)
	movq	56(%rsp), %r14
	xorl	%eax, %eax
	testq	%rdx, %rdx
	je	25f
	movq	%rsi, %r12
	jmp	4f
	.p2align	4
1:
	cmpb	%bpl, %cl
	jne	23f
2:
	movq	%r10, %rsi
	movq	%r11, %rdx
3:
	incq	%r9
	incq	%rax
	movq	%rsi, %r12
	testq	%rdx, %rdx
	je	25f
4:
	leaq	1(%r12), %r10
	leaq	-1(%rdx), %r11
	movzbl	(%r12), %esi
	cmpb	$42, %sil
	je	21f
	movl	$1, %ebx
	testq	%r14, %r14
	je	22f
	decq	%r14
	leal	-65(%rsi), %ecx
	leal	32(%rsi), %ebp
	cmpb	$26, %cl
	movzbl	%bpl, %ecx
	movzbl	%sil, %esi
	cmovael	%esi, %ecx
	movzbl	(%r9), %r15d
	leal	-65(%r15), %ebp
	leal	32(%r15), %r13d
	cmpb	$26, %bpl
	movzbl	%r13b, %ebp
	cmovael	%r15d, %ebp
	testb	%r8b, %r8b
	cmovnel	%esi, %ecx
	cmovnel	%r15d, %ebp
	cmpb	$63, %cl
	je	2b
	movzbl	%cl, %esi
	cmpl	$91, %esi
	je	5f
	cmpl	$92, %esi
	jne	1b
	testq	%r11, %r11
	je	24f
	movzbl	1(%r12), %ecx
	leal	-65(%rcx), %esi
	movl	%r8d, %r15d
	leal	32(%rcx), %r8d
	cmpb	$26, %sil
	movzbl	%r8b, %esi
	movl	%r15d, %r8d
	cmovael	%ecx, %esi
	testb	%r8b, %r8b
	cmovnel	%ecx, %esi
	cmpb	%bpl, %sil
	jne	23f
	addq	$2, %r12
	addq	$-2, %rdx
	movq	%r12, %rsi
	jmp	3b
	.p2align	4
5:
	testq	%r11, %r11
	je	8f
	movzbl	1(%r12), %ecx
	addq	$2, %r12
	addq	$-2, %rdx
	movb	$1, %r13b
	cmpl	$33, %ecx
	je	6f
	cmpl	$94, %ecx
	je	6f
	xorl	%r13d, %r13d
	movq	%r10, %r12
	movq	%r11, %rdx
6:
	testq	%rdx, %rdx
	sete	%sil
	leaq	-1(%rdx), %rcx
	cmpq	-8(%rsp), %rcx
	setbe	%r15b
	orb	%sil, %r15b
	jne	8f
	xorl	%r15d, %r15d
	.p2align	4
7:
	cmpb	$93, 1(%r12,%r15)
	je	9f
	incq	%r15
	cmpq	%r15, %rcx
	jne	7b
8:
	cmpb	$91, %bpl
	je	2b
	jmp	23f
9:
	movl	%r13d, -20(%rsp)
	movl	%r8d, -24(%rsp)
	movq	%rdi, -16(%rsp)
	subq	%r15, %rdx
	addq	$-2, %rdx
	leaq	(%r12,%r15), %rsi
	addq	$2, %rsi
	incq	%r15
	jne	11f
10:
	cmpb	$0, -20(%rsp)
	movq	-16(%rsp), %rdi
	movl	-24(%rsp), %r8d
	jne	3b
	jmp	23f
11:
	cmpb	$0, -24(%rsp)
	je	13f
	jmp	20f
	.p2align	4
12:
	testq	%r15, %r15
	je	10b
13:
	cmpq	$3, %r15
	jb	14f
	cmpb	$45, 1(%r12)
	jne	14f
	movzbl	(%r12), %r13d
	movzbl	2(%r12), %r8d
	addq	$3, %r12
	addq	$-3, %r15
	jmp	15f
	.p2align	4
14:
	decq	%r15
	movzbl	(%r12), %r13d
	incq	%r12
	movl	%r13d, %r8d
15:
	leal	-65(%r13), %ecx
	leal	32(%r13), %edi
	cmpb	$26, %cl
	movzbl	%r13b, %ecx
	movzbl	%dil, %edi
	cmovael	%ecx, %edi
	cmpb	%bpl, %dil
	ja	12b
	leal	-65(%r8), %ecx
	leal	32(%r8), %edi
	cmpb	$26, %cl
	movzbl	%r8b, %ecx
	movzbl	%dil, %edi
	cmovael	%ecx, %edi
	cmpb	%dil, %bpl
	ja	12b
16:
	cmpb	$0, -20(%rsp)
	movq	-16(%rsp), %rdi
	movl	-24(%rsp), %r8d
	je	3b
	jmp	23f
	.p2align	4
17:
	decq	%r15
	movzbl	(%r12), %ecx
	incq	%r12
	movl	%ecx, %r13d
	cmpb	%bpl, %cl
	ja	19f
18:
	cmpb	%r13b, %bpl
	jbe	16b
19:
	testq	%r15, %r15
	je	10b
20:
	cmpq	$3, %r15
	jb	17b
	cmpb	$45, 1(%r12)
	jne	17b
	movzbl	(%r12), %ecx
	movzbl	2(%r12), %r13d
	addq	$3, %r12
	addq	$-3, %r15
	cmpb	%bpl, %cl
	jbe	18b
	jmp	19b
21:
	movb	$3, %cl
	jmp	26f
22:
	movb	$2, %cl
	movq	56(%rsp), %rax
	jmp	27f
23:
	movb	$4, %cl
	jmp	27f
24:
	cmpb	$92, %bpl
	jne	28f
	incq	%rax
	movq	%r10, %rsi
25:
	testq	%r14, %r14
	setne	%cl
	xorl	%r11d, %r11d
	movq	%rsi, %r10
26:
	xorl	%ebx, %ebx
27:
	addq	%rax, %rbx
	movb	%cl, (%rdi)
	movl	$0, 1(%rdi)
	movl	$0, 4(%rdi)
	movq	%rax, 8(%rdi)
	movq	%r10, 16(%rdi)
	movq	%r11, 24(%rdi)
	movq	%rbx, 32(%rdi)
	popq	%rbx
	popq	%r12
	popq	%r13
	popq	%r14
	popq	%r15
	popq	%rbp
	retq
28:
	movb	$4, %cl
	xorl	%r11d, %r11d
	jmp	27b
29:
	.size	"mime_base::matching::attempt::attempt", 29b-"mime_base::matching::attempt::attempt"

	.section	.rodata.cst16,"aM",@progbits,16
	.p2align	4, 0x0
1:
	.byte	33,33,33,33,33,33,33,33
	.zero	1
	.zero	1
	.zero	1
	.zero	1
	.zero	1
	.zero	1
	.zero	1
	.zero	1
2:
	.byte	58,58,58,58,58,58,58,58
	.zero	1
	.zero	1
	.zero	1
	.zero	1
	.zero	1
	.zero	1
	.zero	1
	.zero	1
3:
	.zero	16,32
4:
	.zero	16,58
5:
	.zero	16,47
6:
	.byte	47,47,47,47,47,47,47,47
	.zero	1
	.zero	1
	.zero	1
	.zero	1
	.zero	1
	.zero	1
	.zero	1
	.zero	1
	.text
	.p2align	4
	.type	"mime_base::names::is_type_name",@function
"mime_base::names::is_type_name":
	leaq	-3(%rsi), %rax
	cmpq	$252, %rax
	ja	23f
	cmpq	$16, %rsi
	jb	9f
	movq	%rsi, %rax
	addq	$-16, %rax
	je	8f
	xorl	%ecx, %ecx
	.p2align	4
7:
	movdqu	(%rdi,%rcx), %xmm0
	movdqa	3b(%rip), %xmm1
	pminub	%xmm0, %xmm1
	pcmpeqb	%xmm0, %xmm1
	pcmpeqb	4b(%rip), %xmm0
	por	%xmm1, %xmm0
	pmovmskb	%xmm0, %edx
	testl	%edx, %edx
	jne	23f
	addq	$16, %rcx
	cmpq	%rax, %rcx
	jb	7b
8:
	movdqu	(%rdi,%rax), %xmm0
	movdqa	3b(%rip), %xmm1
	pminub	%xmm0, %xmm1
	pcmpeqb	%xmm0, %xmm1
	pcmpeqb	4b(%rip), %xmm0
	por	%xmm1, %xmm0
	pmovmskb	%xmm0, %eax
	testl	%eax, %eax
	jne	23f
	jmp	11f
9:
	cmpq	$8, %rsi
	jb	10f
	movq	(%rdi), %xmm1
	movdqa	1b(%rip), %xmm2
	pmaxub	%xmm1, %xmm2
	pcmpeqb	%xmm1, %xmm2
	pcmpeqd	%xmm0, %xmm0
	pcmpeqb	2b(%rip), %xmm1
	pxor	%xmm0, %xmm2
	por	%xmm2, %xmm1
	pmovmskb	%xmm1, %eax
	testb	%al, %al
	jne	23f
	movq	-8(%rdi,%rsi), %xmm1
	movdqa	1b(%rip), %xmm2
	pmaxub	%xmm1, %xmm2
	pcmpeqb	%xmm1, %xmm2
	pcmpeqb	2b(%rip), %xmm1
	pxor	%xmm0, %xmm2
	por	%xmm2, %xmm1
	pmovmskb	%xmm1, %eax
	testb	%al, %al
	jne	23f
	jmp	12f
10:
	testq	%rsi, %rsi
	je	11f
	movzbl	(%rdi), %eax
	cmpb	$33, %al
	setb	%cl
	cmpb	$58, %al
	sete	%al
	orb	%cl, %al
	jne	23f
	cmpq	$1, %rsi
	jne	15f
11:
	cmpq	$3, %rsi
	ja	12f
	testq	%rsi, %rsi
	je	23f
	cmpb	$47, (%rdi)
	je	22f
	movq	%rsi, %rax
	shrq	%rax
	cmpb	$47, (%rdi,%rax)
	je	22f
	cmpb	$47, -1(%rdi,%rsi)
	jne	23f
	jmp	22f
12:
	cmpq	$8, %rsi
	ja	13f
	movd	(%rdi), %xmm0
	pinsrd	$1, -4(%rdi,%rsi), %xmm0
	pcmpeqb	6b(%rip), %xmm0
	pmovmskb	%xmm0, %eax
	testb	%al, %al
	jne	22f
	jmp	23f
13:
	cmpq	$32, %rsi
	ja	14f
	leaq	-8(%rsi), %rax
	cmpq	$8, %rax
	movl	$8, %ecx
	cmovbq	%rax, %rcx
	cmpq	$16, %rax
	movl	$16, %edx
	cmovbq	%rax, %rdx
	movq	(%rdi,%rcx), %xmm0
	movq	(%rdi), %xmm1
	punpcklqdq	%xmm0, %xmm1
	movq	(%rdi,%rdx), %xmm0
	movq	-8(%rdi,%rsi), %xmm2
	punpcklqdq	%xmm2, %xmm0
	movdqa	5b(%rip), %xmm2
	pcmpeqb	%xmm2, %xmm0
	pcmpeqb	%xmm2, %xmm1
	por	%xmm0, %xmm1
	pmovmskb	%xmm1, %eax
	testl	%eax, %eax
	jne	22f
	jmp	23f
14:
	cmpq	$65, %rsi
	jae	16f
	movdqu	(%rdi), %xmm0
	movdqu	16(%rdi), %xmm1
	movdqu	-32(%rdi,%rsi), %xmm2
	movdqu	-16(%rdi,%rsi), %xmm3
	movdqa	5b(%rip), %xmm4
	pcmpeqb	%xmm4, %xmm2
	pcmpeqb	%xmm4, %xmm0
	por	%xmm2, %xmm0
	pcmpeqb	%xmm4, %xmm3
	pcmpeqb	%xmm4, %xmm1
	por	%xmm3, %xmm1
	por	%xmm0, %xmm1
	pmovmskb	%xmm1, %eax
	testl	%eax, %eax
	jne	22f
	jmp	23f
15:
	movzbl	1(%rdi), %eax
	cmpb	$33, %al
	setb	%cl
	cmpb	$58, %al
	sete	%al
	orb	%cl, %al
	jne	23f
	cmpq	$2, %rsi
	je	11b
	movzbl	2(%rdi), %eax
	cmpb	$33, %al
	setb	%cl
	cmpb	$58, %al
	sete	%al
	orb	%cl, %al
	jne	23f
	cmpq	$3, %rsi
	je	11b
	movzbl	3(%rdi), %eax
	cmpb	$33, %al
	setb	%cl
	cmpb	$58, %al
	sete	%al
	orb	%cl, %al
	jne	23f
	cmpq	$4, %rsi
	je	11b
	movzbl	4(%rdi), %eax
	cmpb	$33, %al
	setb	%cl
	cmpb	$58, %al
	sete	%al
	orb	%cl, %al
	jne	23f
	cmpq	$5, %rsi
	je	11b
	movzbl	5(%rdi), %eax
	cmpb	$33, %al
	setb	%cl
	cmpb	$58, %al
	sete	%al
	orb	%cl, %al
	jne	23f
	cmpq	$6, %rsi
	je	11b
	movzbl	6(%rdi), %eax
	cmpb	$33, %al
	setae	%cl
	cmpb	$58, %al
	setne	%al
	andb	%cl, %al
	cmpq	$7, %rsi
	sete	%cl
	testb	%cl, %al
	je	23f
	jmp	11b
16:
	xorl	%eax, %eax
	movq	%rsi, %rcx
17:
	movdqu	(%rdi,%rax), %xmm1
	movdqu	16(%rdi,%rax), %xmm2
	movdqu	32(%rdi,%rax), %xmm3
	movdqu	48(%rdi,%rax), %xmm4
	movdqa	5b(%rip), %xmm0
	pcmpeqb	%xmm0, %xmm3
	pcmpeqb	%xmm0, %xmm1
	por	%xmm3, %xmm1
	pcmpeqb	%xmm0, %xmm4
	pcmpeqb	%xmm0, %xmm2
	por	%xmm4, %xmm2
	por	%xmm1, %xmm2
	pmovmskb	%xmm2, %edx
	testl	%edx, %edx
	jne	18f
	addq	$64, %rax
	addq	$-64, %rcx
	cmpq	$63, %rcx
	ja	17b
18:
	cmpq	$32, %rcx
	jb	21f
	movq	%rsi, %rcx
	subq	%rax, %rcx
	addq	%rdi, %rax
19:
	movdqu	(%rax), %xmm1
	movdqu	16(%rax), %xmm2
	pcmpeqb	%xmm0, %xmm2
	pcmpeqb	%xmm0, %xmm1
	por	%xmm2, %xmm1
	pmovmskb	%xmm1, %edx
	testl	%edx, %edx
	jne	20f
	addq	$-32, %rcx
	addq	$32, %rax
	cmpq	$31, %rcx
	ja	19b
	jmp	21f
20:
	cmpq	$31, %rcx
	ja	22f
21:
	movdqu	-32(%rdi,%rsi), %xmm1
	movdqu	-16(%rdi,%rsi), %xmm2
	pcmpeqb	%xmm0, %xmm2
	pcmpeqb	%xmm0, %xmm1
	por	%xmm2, %xmm1
	pmovmskb	%xmm1, %eax
	testl	%eax, %eax
	je	23f
22:
	cmpb	$47, (%rdi)
	jne	24f
23:
	xorl	%eax, %eax
	retq
24:
	cmpb	$47, -1(%rdi,%rsi)
	setne	%al
	retq
25:
	.size	"mime_base::names::is_type_name", 25b-"mime_base::names::is_type_name"
