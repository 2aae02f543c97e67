# Made by dist/refresh of what is proved.

	.section	.rodata.cst16,"aM",@progbits,16
	.p2align	4, 0x0
1:
	.byte	42,42,42,42,42,42,42,42
	.zero	1
	.zero	1
	.zero	1
	.zero	1
	.zero	1
	.zero	1
	.zero	1
	.zero	1
2:
	.byte	63,63,63,63,63,63,63,63
	.zero	1
	.zero	1
	.zero	1
	.zero	1
	.zero	1
	.zero	1
	.zero	1
	.zero	1
3:
	.byte	92,92,92,92,92,92,92,92
	.zero	1
	.zero	1
	.zero	1
	.zero	1
	.zero	1
	.zero	1
	.zero	1
	.zero	1
4:
	.byte	91,91,91,91,91,91,91,91
	.zero	1
	.zero	1
	.zero	1
	.zero	1
	.zero	1
	.zero	1
	.zero	1
	.zero	1
5:
	.zero	16,93
	.text
	.p2align	4
	.type	"mime_names::indexed_rule::is_general_match",@function
"mime_names::indexed_rule::is_general_match":
	pushq	%rbp
	pushq	%r15
	pushq	%r14
	pushq	%r13
	pushq	%r12
	pushq	%rbx
	subq	$104, %rsp
	movq	%r9, %rbx
	movq	%r8, %r12
	movq	%rcx, %r14
	movl	%edx, %ebp
	movq	%rsi, %r10
	movq	%rdi, %r15
	movabsq	$1688849862361089, %rdi
	testq	%rsi, %rsi
	je	15f
	movzbl	(%r15), %ecx
	cmpl	$42, %ecx
	jne	8f
	leaq	-1(%r10), %rax
	cmpq	$8, %rax
	jb	6f
	movq	1(%r15), %xmm0
	movdqa	1b(%rip), %xmm1
	pcmpeqb	%xmm0, %xmm1
	movdqa	2b(%rip), %xmm2
	pcmpeqb	%xmm0, %xmm2
	por	%xmm1, %xmm2
	movdqa	3b(%rip), %xmm1
	pcmpeqb	%xmm0, %xmm1
	pcmpeqb	4b(%rip), %xmm0
	por	%xmm1, %xmm0
	por	%xmm2, %xmm0
	pmovmskb	%xmm0, %edx
	testb	%dl, %dl
	jne	8f
6:
	movl	$1, %edx
	.p2align	4
7:
	cmpq	%rdx, %r10
	je	54f
	movzbl	(%r15,%rdx), %esi
	incq	%rdx
	addl	$-42, %esi
	cmpl	$50, %esi
	ja	7b
	btq	%rsi, %rdi
	jae	7b
8:
	testq	%r12, %r12
	je	9f
	leal	-42(%rcx), %eax
	cmpl	$50, %eax
	ja	53f
	btq	%rax, %rdi
	jae	53f
9:
	movq	%r10, %rcx
	cmpq	$32, %r10
	jb	16f
	movq	%r10, %rax
10:
	movdqu	-32(%r15,%rax), %xmm1
	movdqu	-16(%r15,%rax), %xmm2
	movdqa	5b(%rip), %xmm0
	pcmpeqb	%xmm0, %xmm1
	pmovmskb	%xmm1, %edx
	pcmpeqb	%xmm0, %xmm2
	pmovmskb	%xmm2, %ecx
	shll	$16, %ecx
	orl	%edx, %ecx
	je	12f
	leaq	-32(%rax), %rdx
	movl	%ecx, %esi
	.p2align	4
11:
	bsrq	%rsi, %rcx
	leaq	(%rcx,%rdx), %r13
	cmpb	$93, (%r15,%r13)
	je	17f
	movq	$-2, %rdi
	rolq	%cl, %rdi
	andq	%rdi, %rsi
	jne	11b
12:
	movq	%rax, %rdx
	.p2align	4
13:
	movq	%rdx, %rcx
	leaq	-32(%rdx), %rax
	cmpq	$128, %rax
	jb	14f
	movdqu	-160(%r15,%rcx), %xmm1
	movdqu	-144(%r15,%rcx), %xmm2
	movdqu	-128(%r15,%rcx), %xmm3
	movdqu	-112(%r15,%rcx), %xmm4
	pcmpeqb	%xmm0, %xmm1
	pcmpeqb	%xmm0, %xmm2
	pcmpeqb	%xmm0, %xmm3
	por	%xmm1, %xmm3
	pcmpeqb	%xmm0, %xmm4
	por	%xmm2, %xmm4
	movdqu	-80(%r15,%rcx), %xmm1
	movdqu	-96(%r15,%rcx), %xmm2
	pcmpeqb	%xmm0, %xmm2
	pcmpeqb	%xmm0, %xmm1
	movdqu	-48(%r15,%rcx), %xmm5
	movdqu	-64(%r15,%rcx), %xmm6
	pcmpeqb	%xmm0, %xmm6
	por	%xmm2, %xmm6
	por	%xmm3, %xmm6
	pcmpeqb	%xmm0, %xmm5
	por	%xmm1, %xmm5
	por	%xmm4, %xmm5
	por	%xmm6, %xmm5
	pmovmskb	%xmm5, %esi
	leaq	-128(%rcx), %rdx
	testl	%esi, %esi
	je	13b
14:
	cmpq	$31, %rax
	ja	10b
	addq	$-32, %rcx
	jmp	16f
15:
	xorl	%ecx, %ecx
	.p2align	4
16:
	testq	%rcx, %rcx
	je	18f
	leaq	-1(%rcx), %r13
	cmpb	$93, -1(%r15,%rcx)
	movq	%r13, %rcx
	jne	16b
17:
	notq	%r13
	addq	%r10, %r13
	jmp	19f
18:
	movq	%r10, %r13
19:
	pxor	%xmm0, %xmm0
	movdqa	%xmm0, 32(%rsp)
	movdqa	%xmm0, 16(%rsp)
	movq	$0, 48(%rsp)
	testq	%r10, %r10
	je	20f
	cmpb	$42, (%r15)
	jne	20f
	incq	%r15
	decq	%r10
	xorl	%eax, %eax
	xorl	%r11d, %r11d
	addq	%rax, %r14
	subq	%rax, %r12
	cmpq	$8, %r10
	jae	23f
	jmp	24f
20:
	movq	%r12, (%rsp)
	movzbl	%bpl, %r8d
	leaq	16(%rsp), %rdi
	movq	%r15, %rsi
	movq	%r10, %rdx
	movq	%r13, %rcx
	movq	%r14, %r9
	callq	"mime_base::matching::attempt::attempt"
	movzbl	16(%rsp), %eax
	movq	48(%rsp), %r11
	leaq	68f(%rip), %rcx
	movslq	(%rcx,%rax,4), %rax
	addq	%rcx, %rax
	jmpq	*%rax
21:
	xorl	%eax, %eax
	jmp	52f
22:
	movq	24(%rsp), %rax
	movq	32(%rsp), %r15
	movq	40(%rsp), %r10
	addq	%rax, %r14
	subq	%rax, %r12
	cmpq	$8, %r10
	jb	24f
23:
	movq	(%r15), %xmm0
	movdqa	1b(%rip), %xmm1
	pcmpeqb	%xmm0, %xmm1
	movdqa	2b(%rip), %xmm2
	pcmpeqb	%xmm0, %xmm2
	por	%xmm1, %xmm2
	movdqa	3b(%rip), %xmm1
	pcmpeqb	%xmm0, %xmm1
	pcmpeqb	4b(%rip), %xmm0
	por	%xmm1, %xmm0
	por	%xmm2, %xmm0
	pmovmskb	%xmm0, %eax
	orl	$256, %eax
	rep		bsfl	%eax, %eax
	jmp	25f
	.p2align	4
24:
	xorl	%eax, %eax
25:
	movq	%r10, %rdi
	subq	%rax, %rdi
	je	47f
	leaq	(%r15,%rax), %rsi
	jmp	28f
	.p2align	4
26:
	xorl	%esi, %esi
	testq	%rdx, %rdx
	setne	%sil
	addq	%rsi, %rcx
	subq	%rsi, %rdx
27:
	incq	%rax
	movq	%rdx, %rdi
	movq	%rcx, %rsi
	testq	%rdx, %rdx
	je	47f
28:
	leaq	1(%rsi), %rcx
	leaq	-1(%rdi), %rdx
	movzbl	(%rsi), %r8d
	cmpl	$91, %r8d
	je	29f
	cmpl	$92, %r8d
	je	26b
	cmpl	$42, %r8d
	jne	27b
	jmp	33f
	.p2align	4
29:
	testq	%rdx, %rdx
	je	46f
	movzbl	1(%rsi), %r8d
	addq	$2, %rsi
	addq	$-2, %rdi
	cmpl	$33, %r8d
	je	30f
	cmpl	$94, %r8d
	je	30f
	movq	%rcx, %rsi
	movq	%rdx, %rdi
30:
	movq	%rdi, %r8
	addq	$-1, %r8
	jae	27b
	cmpq	%r13, %r8
	jbe	27b
	addq	$2, %rsi
	movl	$2, %r8d
	subq	%rdi, %r8
	.p2align	4
31:
	cmpb	$93, -1(%rsi)
	je	32f
	incq	%rsi
	incq	%r8
	cmpq	$1, %r8
	jne	31b
	jmp	27b
32:
	negq	%r8
	movq	%rsi, %rcx
	movq	%r8, %rdx
	jmp	27b
33:
	movq	%r11, 96(%rsp)
	movq	%r14, 64(%rsp)
	movq	%rbx, 56(%rsp)
	pxor	%xmm0, %xmm0
	movdqa	%xmm0, 32(%rsp)
	movdqa	%xmm0, 16(%rsp)
	movq	$0, 48(%rsp)
	movl	%ebp, 12(%rsp)
	movzbl	%bpl, %r8d
	testq	%r10, %r10
	movq	%r12, 80(%rsp)
	je	42f
	movl	%r8d, 92(%rsp)
	movq	%r10, 72(%rsp)
	xorl	%ebp, %ebp
	xorl	%ebx, %ebx
	subq	%rbx, %r12
	movzbl	(%r15), %r14d
	cmpl	$64, %r14d
	ja	36f
	.p2align	4
34:
	cmpl	$42, %r14d
	movq	72(%rsp), %rdx
	je	37f
	cmpl	$63, %r14d
	je	37f
	movq	64(%rsp), %rax
	leaq	(%rax,%rbx), %rsi
	movl	%r14d, %edi
	movq	%r12, %rdx
	callq	"memchr::bytes::memchr"
	cmpb	$1, %al
	cmovneq	%r12, %rdx
	addq	%rdx, %rbx
	movq	%rbp, %rax
	addq	%rdx, %rax
	movq	$-1, %rbp
	cmovaeq	%rax, %rbp
	testq	%rdx, %rdx
	movq	80(%rsp), %r12
	je	35f
	cmpq	%rbx, %r12
	je	61f
35:
	subq	%rbx, %r12
36:
	movq	72(%rsp), %rdx
37:
	movq	64(%rsp), %rax
	leaq	(%rax,%rbx), %r9
	testq	%r12, %r12
	je	38f
	leal	-42(%r14), %eax
	cmpl	$50, %eax
	ja	40f
	movabsq	$1688849862361089, %rcx
	btq	%rax, %rcx
	jae	40f
38:
	movq	%r12, (%rsp)
	leaq	16(%rsp), %rdi
	movq	%r15, %rsi
	movq	%r13, %rcx
	movl	92(%rsp), %r8d
	callq	"mime_base::matching::attempt::attempt"
	addq	48(%rsp), %rbp
	movq	$-1, %r14
	cmovaeq	%rbp, %r14
	movzbl	16(%rsp), %eax
	cmpb	$4, %al
	jne	44f
39:
	incq	%rbx
	movq	%r14, %rbp
	movq	80(%rsp), %r12
	subq	%rbx, %r12
	movzbl	(%r15), %r14d
	cmpl	$64, %r14d
	jbe	34b
	jmp	36b
	.p2align	4
40:
	leal	-65(%r14), %eax
	leal	32(%r14), %ecx
	cmpb	$26, %al
	movzbl	%cl, %eax
	cmovael	%r14d, %eax
	movzbl	(%r9), %ecx
	movq	%rdx, %r8
	leal	-65(%rcx), %edx
	leal	32(%rcx), %esi
	cmpb	$26, %dl
	movzbl	%sil, %edx
	cmovael	%ecx, %edx
	cmpb	$0, 12(%rsp)
	cmovnel	%r14d, %eax
	cmovnel	%ecx, %edx
	cmpb	%dl, %al
	movq	%r8, %rdx
	jne	38b
	cmpq	$1, %rdx
	je	38b
	cmpq	$1, %r12
	je	38b
	movzbl	1(%r15), %eax
	leal	-42(%rax), %ecx
	cmpl	$50, %ecx
	ja	41f
	movabsq	$1688849862361089, %rdx
	btq	%rcx, %rdx
	movq	%r8, %rdx
	jb	38b
41:
	leal	-65(%rax), %ecx
	leal	32(%rax), %edx
	cmpb	$26, %cl
	movzbl	%dl, %ecx
	movzbl	%al, %eax
	cmovael	%eax, %ecx
	movzbl	1(%r9), %edx
	leal	-65(%rdx), %esi
	leal	32(%rdx), %edi
	cmpb	$26, %sil
	movzbl	%dil, %esi
	cmovael	%edx, %esi
	cmpb	$0, 12(%rsp)
	cmovnel	%eax, %ecx
	cmovnel	%edx, %esi
	movq	%r8, %rdx
	cmpb	%sil, %cl
	je	38b
	addq	$2, %rbp
	movq	$-1, %r14
	cmovaeq	%rbp, %r14
	jmp	39b
42:
	xorl	%r14d, %r14d
	movq	%r12, %rbp
	movq	$-1, %rbx
	.p2align	4
43:
	movq	64(%rsp), %rax
	leaq	(%rbx,%rax), %r9
	incq	%r9
	movq	%rbp, (%rsp)
	leaq	16(%rsp), %rdi
	movq	%r15, %rsi
	xorl	%edx, %edx
	movq	%r13, %rcx
	movl	%r8d, %r12d
	callq	"mime_base::matching::attempt::attempt"
	movl	%r12d, %r8d
	addq	48(%rsp), %r14
	movq	$-1, %rax
	cmovbq	%rax, %r14
	movzbl	16(%rsp), %eax
	incq	%rbx
	decq	%rbp
	cmpb	$4, %al
	je	43b
44:
	addq	96(%rsp), %r14
	movq	$-1, %r11
	cmovaeq	%r14, %r11
	cmpb	$3, %al
	jne	64f
	movq	32(%rsp), %r15
	movq	40(%rsp), %r10
	addq	24(%rsp), %rbx
	movq	64(%rsp), %r14
	addq	%rbx, %r14
	movq	80(%rsp), %r12
	subq	%rbx, %r12
	movq	56(%rsp), %rbx
	movl	12(%rsp), %ebp
	cmpq	$8, %r10
	jae	23b
	jmp	24b
45:
	movb	$1, %al
	jmp	52f
46:
	incq	%rax
47:
	pxor	%xmm0, %xmm0
	movdqa	%xmm0, 32(%rsp)
	movdqa	%xmm0, 16(%rsp)
	movq	$0, 48(%rsp)
	movl	$1, %ecx
	subq	%rax, %r12
	jae	49f
48:
	xorl	%eax, %eax
	jmp	51f
49:
	addq	%r12, %r14
	testq	%r10, %r10
	je	50f
	testq	%rax, %rax
	je	50f
	movzbl	(%r15), %edx
	leal	-42(%rdx), %esi
	cmpl	$50, %esi
	ja	60f
	movabsq	$1688849862361089, %rdi
	btq	%rsi, %rdi
	jae	60f
50:
	movq	%rax, (%rsp)
	movzbl	%bpl, %r8d
	leaq	16(%rsp), %rdi
	movq	%r15, %rsi
	movq	%r10, %rdx
	movq	%r13, %rcx
	movq	%r14, %r9
	movq	%r11, %r14
	callq	"mime_base::matching::attempt::attempt"
	movq	%r14, %r11
	cmpb	$0, 16(%rsp)
	sete	%al
	movq	48(%rsp), %rcx
51:
	addq	%r11, %rcx
	movq	$-1, %r11
	cmovaeq	%rcx, %r11
52:
	addq	8(%rbx), %r11
	movq	$-1, %rcx
	cmovaeq	%r11, %rcx
	movq	%rcx, 8(%rbx)
	addq	$104, %rsp
	popq	%rbx
	popq	%r12
	popq	%r13
	popq	%r14
	popq	%r15
	popq	%rbp
	retq
53:
	leal	-65(%rcx), %eax
	leal	32(%rcx), %edx
	cmpb	$26, %al
	movzbl	%dl, %eax
	cmovael	%ecx, %eax
	movzbl	(%r14), %edx
	leal	-65(%rdx), %esi
	leal	32(%rdx), %edi
	cmpb	$26, %sil
	movzbl	%dil, %esi
	cmovael	%edx, %esi
	testb	%bpl, %bpl
	cmovnel	%ecx, %eax
	cmovnel	%edx, %esi
	cmpb	%sil, %al
	je	9b
	jmp	55f
54:
	subq	%rax, %r12
	jae	56f
55:
	movl	$1, %r11d
	xorl	%eax, %eax
	jmp	52b
56:
	testq	%rax, %rax
	je	62f
	addq	%r12, %r14
	xorl	%ecx, %ecx
	testb	%bpl, %bpl
	je	58f
57:
	movzbl	1(%r15,%rcx), %edx
	cmpb	(%r14,%rcx), %dl
	jne	63f
	incq	%rcx
	cmpq	%rcx, %rax
	jne	57b
	jmp	59f
58:
	movzbl	1(%r15,%rcx), %edx
	leal	-65(%rdx), %esi
	leal	32(%rdx), %edi
	cmpb	$26, %sil
	movzbl	%dil, %esi
	cmovael	%edx, %esi
	movzbl	(%r14,%rcx), %edx
	leal	-65(%rdx), %edi
	leal	32(%rdx), %r8d
	cmpb	$26, %dil
	movzbl	%r8b, %edi
	cmovael	%edx, %edi
	cmpb	%dil, %sil
	jne	63f
	incq	%rcx
	cmpq	%rcx, %rax
	jne	58b
59:
	movq	%rax, %rcx
	jmp	63f
60:
	leal	-65(%rdx), %esi
	leal	32(%rdx), %edi
	cmpb	$26, %sil
	movzbl	%dil, %esi
	movzbl	%dl, %edx
	cmovael	%edx, %esi
	movzbl	(%r14), %edi
	leal	-65(%rdi), %r8d
	leal	32(%rdi), %r9d
	cmpb	$26, %r8b
	movzbl	%r9b, %r8d
	cmovael	%edi, %r8d
	testb	%bpl, %bpl
	cmovnel	%edx, %esi
	cmovnel	%edi, %r8d
	cmpb	%r8b, %sil
	jne	48b
	jmp	50b
61:
	incq	%rbp
	movq	$-1, %rax
	cmoveq	%rax, %rbp
	addq	96(%rsp), %rbp
	cmovbq	%rax, %rbp
	xorl	%eax, %eax
	movq	%rbp, %r11
	jmp	66f
62:
	xorl	%ecx, %ecx
63:
	xorl	%r11d, %r11d
	cmpq	%rax, %rcx
	sete	%al
	setne	%r11b
	addq	%rcx, %r11
	jmp	52b
64:
	movzbl	%al, %eax
	decl	%eax
	cmpl	$2, %eax
	jae	65f
	xorl	%eax, %eax
	jmp	66f
65:
	movb	$1, %al
66:
	movq	56(%rsp), %rbx
	jmp	52b
67:
	.size	"mime_names::indexed_rule::is_general_match", 67b-"mime_names::indexed_rule::is_general_match"
	.section	.rodata,"a",@progbits
	.p2align	2, 0x0
68:
	.long	45b-68b
	.long	21b-68b
	.long	21b-68b
	.long	22b-68b
	.long	21b-68b

	.text
	.p2align	4
	.type	"mime_names::indexed_rules::is_equal",@function
"mime_names::indexed_rules::is_equal":
	cmpq	%rcx, %rsi
	jne	2f
	cmpq	$4, %rsi
	jae	1f
	testq	%rsi, %rsi
	je	3f
	movzbl	(%rdi), %eax
	cmpb	(%rdx), %al
	jne	4f
	movq	%rsi, %rax
	cmpq	$1, %rsi
	je	5f
	movzbl	1(%rdi), %ecx
	movl	$1, %eax
	cmpb	1(%rdx), %cl
	jne	5f
	movq	%rsi, %rax
	cmpq	$2, %rsi
	je	5f
	movzbl	2(%rdi), %eax
	cmpb	2(%rdx), %al
	movl	$2, %eax
	cmoveq	%rsi, %rax
	cmpq	%rsi, %rax
	setae	%al
	retq
1:
	movl	(%rdi), %eax
	cmpl	(%rdx), %eax
	jne	2f
	pushq	%rax
	callq	"core::cmp::slices::groups_equal::<i8,31'core::cmp::numbers::U8PartialEq{}>"
	addq	$8, %rsp
	retq
2:
	xorl	%eax, %eax
	retq
3:
	movb	$1, %al
	retq
4:
	xorl	%eax, %eax
5:
	cmpq	%rsi, %rax
	setae	%al
	retq
6:
	.size	"mime_names::indexed_rules::is_equal", 6b-"mime_names::indexed_rules::is_equal"

	.text
	.p2align	4
	.type	"mime_names::kept::other_kinds",@function
"mime_names::kept::other_kinds":
	pushq	%rbp
	pushq	%r15
	pushq	%r14
	pushq	%r13
	pushq	%r12
	pushq	%rbx
	subq	$200, %rsp
	movq	%r8, %rax
	movq	%rdx, %r14
	movq	%rsi, 96(%rsp)
	movq	%rdi, %rbx
	movq	256(%rsp), %r8
	xorps	%xmm0, %xmm0
	movaps	%xmm0, 176(%rsp)
	movaps	%xmm0, 160(%rsp)
	movaps	%xmm0, 144(%rsp)
	movaps	%xmm0, 128(%rsp)
	movaps	%xmm0, 112(%rsp)
	leaq	112(%rsp), %rdi
	movq	%rcx, %rsi
	movq	%rax, 40(%rsp)
	movq	%rax, %rdx
	movq	%r9, 64(%rsp)
	movq	%r9, %rcx
	callq	"mime_names::places::push_fronts"
	movzbl	112(%rsp), %ecx
	testb	%al, %al
	je	2f
	cmpb	$1, %cl
	jne	1f
	cmpq	$0, 136(%rsp)
	je	1f
	movq	120(%rsp), %rdi
	callq	rattle_dealloc@PLT
1:
	movb	$1, (%rbx)
	xorps	%xmm0, %xmm0
	movups	%xmm0, 8(%rbx)
	movups	%xmm0, 24(%rbx)
	jmp	39f
2:
	movq	%rbx, 80(%rsp)
	leaq	120(%rsp), %rbx
	testb	%cl, %cl
	movq	120(%rsp), %rbp
	movq	%rbp, %rdi
	cmoveq	%rbx, %rdi
	leaq	184(%rsp), %r15
	leaq	128(%rsp), %r12
	movq	%r12, %rax
	cmoveq	%r15, %rax
	movq	(%rax), %rsi
	cmpq	$2, %rsi
	jb	5f
	movl	$1, %eax
	.p2align	4
3:
	movq	-8(%rdi,%rax,8), %rdx
	cmpq	(%rdi,%rax,8), %rdx
	ja	4f
	incq	%rax
	cmpq	%rax, %rsi
	jne	3b
	jmp	5f
4:
	callq	"core::slice::sort::slice+T::sort_unstable::<#17f159365526a5ba>"
	movzbl	112(%rsp), %ecx
	movq	120(%rsp), %rbp
5:
	testb	%cl, %cl
	cmoveq	%rbx, %rbp
	cmoveq	%r15, %r12
	movq	(%r12), %r8
	leaq	8(%rsp), %rcx
	xorl	%edx, %edx
	testq	%r8, %r8
	je	32f
	movq	64(%rsp), %rbx
	leaq	-1(%rbx), %rax
	movq	%rax, 72(%rsp)
	movq	40(%rsp), %rax
	addq	%rbx, %rax
	decq	%rax
	movq	%rax, 56(%rsp)
	movq	%rbx, %rax
	negq	%rax
	movq	%rax, 104(%rsp)
	xorl	%r11d, %r11d
	xorl	%r12d, %r12d
	xorl	%eax, %eax
	xorl	%r9d, %r9d
	movq	%r8, 24(%rsp)
	movq	%rbp, 88(%rsp)
	jmp	10f
6:
	movq	%r13, (%rbp,%r11,8)
	incq	%r11
7:
	movl	%eax, %edx
8:
	incq	%r13
	movq	%r13, %rax
9:
	incq	%r12
	cmpq	%r8, %r12
	je	31f
10:
	movq	(%rbp,%r12,8), %r13
	cmpq	%r13, %rax
	ja	9b
	movq	%r13, %r15
	shlq	$6, %r15
	cmpq	%r13, %r9
	jne	12f
	cmpb	$0, 63(%r14,%r15)
	je	12f
11:
	leaq	1(%r13), %r9
	movl	56(%r14,%r15), %eax
	cmpl	%edx, %eax
	jb	8b
	jbe	6b
	movq	%r13, (%rbp)
	movl	$1, %r11d
	jmp	7b
	.p2align	4
12:
	movq	40(%r14,%r15), %rax
	movq	48(%r14,%r15), %rsi
	movq	96(%rsp), %rcx
	leaq	(%rcx,%rax), %rdi
	cmpb	$0, 32(%r14,%r15)
	cmoveq	%rax, %rdi
	movzbl	62(%r14,%r15), %eax
	cmpl	$2, %eax
	je	13f
	cmpl	$1, %eax
	jne	14f
	movq	%rdx, 16(%rsp)
	xorl	%ecx, %ecx
	testq	%rsi, %rsi
	setne	%cl
	movq	%rsi, %rax
	subq	%rcx, %rax
	movq	%rbx, %rdx
	subq	%rax, %rdx
	jae	18f
	movq	16(%rsp), %rdx
	jmp	8b
13:
	movq	%rdx, 16(%rsp)
	movzbl	61(%r14,%r15), %edx
	movq	40(%rsp), %rcx
	movq	%rbx, %r8
	movq	%r9, %rbp
	movq	256(%rsp), %r9
	movq	%r11, %rbx
	callq	"mime_names::indexed_rule::is_general_match"
	movq	%rbp, %r9
	movq	24(%rsp), %r8
	movq	16(%rsp), %rdx
	movq	88(%rsp), %rbp
	movq	%rbx, %r11
	movq	64(%rsp), %rbx
	testb	%al, %al
	je	8b
	jmp	11b
14:
	cmpq	%rbx, %rsi
	jne	8b
	movq	%r9, 32(%rsp)
	movq	%rdx, 16(%rsp)
	testq	%rbx, %rbx
	je	20f
	movzbl	61(%r14,%r15), %eax
	movzbl	(%rdi), %edx
	movq	40(%rsp), %rcx
	movzbl	(%rcx), %ecx
	cmpb	%cl, %dl
	je	15f
	leal	-65(%rdx), %esi
	leal	32(%rdx), %r8d
	cmpb	$26, %sil
	movzbl	%r8b, %esi
	movzbl	%dl, %edx
	cmovael	%edx, %esi
	leal	-65(%rcx), %r8d
	leal	32(%rcx), %r9d
	cmpb	$26, %r8b
	movzbl	%r9b, %r8d
	movzbl	%cl, %ecx
	cmovael	%ecx, %r8d
	testb	%al, %al
	cmovnel	%edx, %esi
	cmovnel	%ecx, %r8d
	cmpb	%r8b, %sil
	jne	25f
15:
	addq	72(%rsp), %rdi
	xorl	%ecx, %ecx
	jmp	17f
	.p2align	4
16:
	decq	%rcx
	cmpq	%rcx, 104(%rsp)
	je	20f
17:
	movzbl	(%rdi,%rcx), %esi
	movq	56(%rsp), %rdx
	movzbl	(%rdx,%rcx), %edx
	cmpb	%dl, %sil
	je	16b
	leal	-65(%rsi), %r8d
	leal	32(%rsi), %r9d
	cmpb	$26, %r8b
	movzbl	%r9b, %r8d
	movzbl	%sil, %esi
	cmovael	%esi, %r8d
	leal	-65(%rdx), %r9d
	leal	32(%rdx), %r10d
	cmpb	$26, %r9b
	movzbl	%r10b, %r9d
	movzbl	%dl, %edx
	cmovael	%edx, %r9d
	testb	%al, %al
	cmovnel	%esi, %r8d
	cmovnel	%edx, %r9d
	cmpb	%r9b, %r8b
	je	16b
	movl	$1, %eax
	subq	%rcx, %rax
	movq	256(%rsp), %rdx
	addq	8(%rdx), %rax
	movq	$-1, %rcx
	cmovaeq	%rax, %rcx
	jmp	26f
18:
	cmpq	$2, %rsi
	jae	22f
19:
	movq	256(%rsp), %rdx
	addq	8(%rdx), %rax
	jmp	21f
20:
	movq	256(%rsp), %rdx
	movq	8(%rdx), %rax
	addq	%rbx, %rax
21:
	movq	$-1, %rcx
	cmovaeq	%rax, %rcx
	movq	%rcx, 8(%rdx)
	movq	16(%rsp), %rdx
	movq	24(%rsp), %r8
	jmp	11b
22:
	movq	%r9, 32(%rsp)
	addq	%rcx, %rdi
	movzbl	61(%r14,%r15), %ecx
	movzbl	(%rdi), %r8d
	movq	40(%rsp), %r9
	movzbl	(%r9,%rdx), %edx
	cmpb	%dl, %r8b
	je	23f
	leal	-65(%r8), %r9d
	leal	32(%r8), %r10d
	cmpb	$26, %r9b
	movzbl	%r10b, %r9d
	movzbl	%r8b, %r8d
	cmovael	%r8d, %r9d
	leal	-65(%rdx), %r10d
	movq	%r11, 48(%rsp)
	leal	32(%rdx), %r11d
	cmpb	$26, %r10b
	movzbl	%r11b, %r10d
	movq	48(%rsp), %r11
	movzbl	%dl, %edx
	cmovael	%edx, %r10d
	testb	%cl, %cl
	cmovnel	%r8d, %r9d
	cmovnel	%edx, %r10d
	cmpb	%r10b, %r9b
	jne	25f
23:
	testb	%cl, %cl
	je	27f
	cmpq	$1, %rsi
	movl	$1, %ecx
	cmovbq	%rsi, %rcx
	notq	%rcx
	addq	%rsi, %rcx
	movq	56(%rsp), %rdx
	movq	32(%rsp), %r9
	.p2align	4
24:
	movzbl	(%rdi,%rcx), %esi
	cmpb	(%rdx), %sil
	jne	30f
	decq	%rdx
	addq	$-1, %rcx
	jb	24b
	jmp	19b
25:
	movq	256(%rsp), %rdx
	movq	8(%rdx), %rax
	incq	%rax
	movq	$-1, %rcx
	cmovneq	%rax, %rcx
26:
	movq	%rcx, 8(%rdx)
	movq	16(%rsp), %rdx
	movq	24(%rsp), %r8
	movq	32(%rsp), %r9
	jmp	8b
27:
	cmpq	$1, %rsi
	movl	$1, %ecx
	cmovbq	%rsi, %rcx
	notq	%rcx
	addq	%rsi, %rcx
	movq	56(%rsp), %rdx
	jmp	29f
	.p2align	4
28:
	decq	%rdx
	addq	$-1, %rcx
	jae	19b
29:
	movzbl	(%rdi,%rcx), %r8d
	movzbl	(%rdx), %esi
	cmpb	%sil, %r8b
	je	28b
	leal	-65(%r8), %r9d
	leal	32(%r8), %r10d
	cmpb	$26, %r9b
	movzbl	%r8b, %r8d
	movzbl	%r10b, %r9d
	cmovael	%r8d, %r9d
	leal	-65(%rsi), %r8d
	leal	32(%rsi), %r10d
	cmpb	$26, %r8b
	movzbl	%sil, %esi
	movzbl	%r10b, %r8d
	cmovael	%esi, %r8d
	cmpb	%r8b, %r9b
	movq	32(%rsp), %r9
	je	28b
30:
	subq	%rcx, %rax
	movq	256(%rsp), %rdx
	addq	8(%rdx), %rax
	movq	$-1, %rcx
	cmovaeq	%rax, %rcx
	movq	%rcx, 8(%rdx)
	movq	16(%rsp), %rdx
	movq	24(%rsp), %r8
	jmp	8b
31:
	cmpq	$1, %r11
	je	34f
	testq	%r11, %r11
	jne	35f
	xorl	%ebx, %ebx
	movq	%r11, %r15
	movq	%r11, %r12
	movl	$1, %r13d
	leaq	8(%rsp), %rcx
	jmp	37f
32:
	xorl	%r15d, %r15d
	xorl	%r12d, %r12d
	xorl	%ebx, %ebx
33:
	movl	$1, %r13d
	jmp	37f
34:
	movq	(%rbp), %rax
	shlq	$6, %rax
	movq	(%r14,%rax), %rcx
	movq	8(%r14,%rax), %r15
	xorl	%r12d, %r12d
	xorl	%ebx, %ebx
	xorl	%r13d, %r13d
	jmp	37f
35:
	movabsq	$576460752303423486, %rax
	addq	$2, %rax
	movb	$1, %bl
	cmpq	%rax, %r11
	jae	36f
	movq	%r11, %rdi
	shlq	$4, %rdi
	movl	$8, %esi
	movq	%r11, 48(%rsp)
	callq	rattle_alloc@PLT
	xorl	%ecx, %ecx
	movl	$0, %r15d
	movl	$0, %r12d
	movl	$0, %r13d
	testb	$1, %al
	je	37f
	movq	48(%rsp), %r12
	cmpq	$1, %r12
	jne	40f
	xorl	%eax, %eax
	jmp	42f
36:
	xorl	%r15d, %r15d
	xorl	%r12d, %r12d
	xorl	%r13d, %r13d
	xorl	%ecx, %ecx
37:
	cmpb	$1, 112(%rsp)
	jne	38f
	cmpq	$0, 136(%rsp)
	je	38f
	movq	120(%rsp), %rdi
	movq	%rcx, %r14
	callq	rattle_dealloc@PLT
	movq	%r14, %rcx
38:
	movq	80(%rsp), %rax
	movb	%bl, (%rax)
	movq	%r13, 8(%rax)
	movq	%rcx, 16(%rax)
	movq	%r15, 24(%rax)
	movq	%r12, 32(%rax)
39:
	addq	$200, %rsp
	popq	%rbx
	popq	%r12
	popq	%r13
	popq	%r14
	popq	%r15
	popq	%rbp
	retq
40:
	movabsq	$576460752303423486, %rdi
	andq	%r12, %rdi
	leaq	24(%rdx), %rcx
	xorl	%eax, %eax
	.p2align	4
41:
	movq	(%rbp,%rax,8), %rsi
	shlq	$6, %rsi
	movups	(%r14,%rsi), %xmm0
	movups	%xmm0, -24(%rcx)
	movq	8(%rbp,%rax,8), %rsi
	shlq	$6, %rsi
	movups	(%r14,%rsi), %xmm0
	movups	%xmm0, -8(%rcx)
	addq	$2, %rax
	addq	$32, %rcx
	cmpq	%rax, %rdi
	jne	41b
	testb	$1, %r12b
	je	43f
42:
	movq	(%rbp,%rax,8), %rcx
	shlq	$6, %rcx
	movups	(%r14,%rcx), %xmm0
	shlq	$4, %rax
	movups	%xmm0, (%rdx,%rax)
43:
	xorl	%ebx, %ebx
	movq	%rdx, %rcx
	movq	%r12, %r15
	jmp	33b
44:
	.size	"mime_names::kept::other_kinds", 44b-"mime_names::kept::other_kinds"

	.text
	.p2align	4
	.type	"mime_names::places::push_fronts",@function
"mime_names::places::push_fronts":
	pushq	%rbp
	pushq	%r15
	pushq	%r14
	pushq	%r13
	pushq	%r12
	pushq	%rbx
	pushq	%rax
	movq	%r8, %rbx
	movq	%rcx, %r13
	movq	%rdx, (%rsp)
	movq	%rsi, %r15
	movq	%rdi, %r14
	movq	72(%rsi), %rax
	movq	2048(%rax), %rbp
	testq	%rbp, %rbp
	je	8f
	movq	96(%r15), %r12
	movq	(%rbx), %rax
	incq	%rax
	movq	$-1, %rcx
	cmovneq	%rax, %rcx
	movq	%rcx, (%rbx)
	jmp	3f
	.p2align	4
1:
	movq	8(%r14), %rax
	movq	16(%r14), %rdx
	movq	%rcx, (%rax,%rdx,8)
	incq	%rdx
	movq	%rdx, 16(%r14)
2:
	movq	(%rbx), %rcx
	incq	%rcx
	movq	$-1, %rax
	cmovneq	%rcx, %rax
	movq	%rax, (%rbx)
	movq	-8(%r12,%rbp,8), %rbp
	testq	%rbp, %rbp
	je	9f
3:
	movzbl	(%r14), %eax
	leaq	16(%r14), %rcx
	leaq	72(%r14), %rdx
	testb	%al, %al
	cmoveq	%rdx, %rcx
	je	6f
	movq	24(%r14), %rdx
	cmpq	%rdx, (%rcx)
	je	7f
4:
	leaq	-1(%rbp), %rcx
	testb	%al, %al
	jne	1b
5:
	movq	72(%r14), %rax
	movq	%rcx, 8(%r14,%rax,8)
	incq	%rax
	movq	%rax, 72(%r14)
	jmp	2b
	.p2align	4
6:
	movl	$8, %edx
	cmpq	%rdx, (%rcx)
	jne	4b
7:
	movq	%r14, %rdi
	callq	"smallvec::small_vec::SmallVec::reserve_one::<#1d7ca747d7f7d6e4>"
	testb	%al, %al
	jne	20f
	movzbl	(%r14), %eax
	leaq	-1(%rbp), %rcx
	testb	%al, %al
	jne	1b
	jmp	5b
8:
	movq	(%rbx), %rcx
	incq	%rcx
	movq	$-1, %rax
	cmovneq	%rcx, %rax
	movq	%rax, (%rbx)
9:
	testq	%r13, %r13
	je	18f
	movq	(%rsp), %rcx
	movzbl	(%rcx), %ecx
	leal	-65(%rcx), %edx
	leal	32(%rcx), %esi
	cmpb	$26, %dl
	movzbl	%sil, %edx
	cmovael	%ecx, %edx
	movq	72(%r15), %rcx
	movzbl	%dl, %edx
	movq	(%rcx,%rdx,8), %r12
	testq	%r12, %r12
	je	17f
	movq	96(%r15), %r15
	incq	%rax
	movq	$-1, %rcx
	cmovneq	%rax, %rcx
	movq	%rcx, (%rbx)
	jmp	12f
	.p2align	4
10:
	movq	8(%r14), %rax
	movq	16(%r14), %rdx
	movq	%rcx, (%rax,%rdx,8)
	incq	%rdx
	movq	%rdx, 16(%r14)
11:
	movq	(%rbx), %rax
	incq	%rax
	movq	$-1, %rcx
	cmovneq	%rax, %rcx
	movq	%rcx, (%rbx)
	movq	-8(%r15,%r12,8), %r12
	testq	%r12, %r12
	je	18f
12:
	movzbl	(%r14), %eax
	leaq	16(%r14), %rcx
	leaq	72(%r14), %rdx
	testb	%al, %al
	cmoveq	%rdx, %rcx
	je	15f
	movq	24(%r14), %rdx
	cmpq	%rdx, (%rcx)
	je	16f
13:
	leaq	-1(%r12), %rcx
	testb	%al, %al
	jne	10b
14:
	movq	72(%r14), %rax
	movq	%rcx, 8(%r14,%rax,8)
	incq	%rax
	movq	%rax, 72(%r14)
	jmp	11b
	.p2align	4
15:
	movl	$8, %edx
	cmpq	%rdx, (%rcx)
	jne	13b
16:
	movq	%r14, %rdi
	callq	"smallvec::small_vec::SmallVec::reserve_one::<#1d7ca747d7f7d6e4>"
	testb	%al, %al
	jne	20f
	movzbl	(%r14), %eax
	leaq	-1(%r12), %rcx
	testb	%al, %al
	jne	10b
	jmp	14b
17:
	incq	%rax
	movq	$-1, %rcx
	cmovneq	%rax, %rcx
	movq	%rcx, (%rbx)
18:
	xorl	%eax, %eax
19:
	addq	$8, %rsp
	popq	%rbx
	popq	%r12
	popq	%r13
	popq	%r14
	popq	%r15
	popq	%rbp
	retq
20:
	movb	$1, %al
	jmp	19b
21:
	.size	"mime_names::places::push_fronts", 21b-"mime_names::places::push_fronts"

	.text
	.p2align	4
	.type	"mime_names::ranked::ranked_rules",@function
"mime_names::ranked::ranked_rules":
	pushq	%rbp
	pushq	%r15
	pushq	%r14
	pushq	%r13
	pushq	%r12
	pushq	%rbx
	subq	$392, %rsp
	movq	%r8, %r15
	movq	%rcx, 56(%rsp)
	movq	%rdx, 160(%rsp)
	movq	%rsi, %r14
	movq	%rdi, 152(%rsp)
	xorps	%xmm0, %xmm0
	movaps	%xmm0, 272(%rsp)
	movaps	%xmm0, 256(%rsp)
	movaps	%xmm0, 240(%rsp)
	movaps	%xmm0, 224(%rsp)
	movaps	%xmm0, 208(%rsp)
	movaps	%xmm0, 320(%rsp)
	movaps	%xmm0, 336(%rsp)
	movaps	%xmm0, 352(%rsp)
	movaps	%xmm0, 368(%rsp)
	movq	$0, 384(%rsp)
	movaps	%xmm0, 128(%rsp)
	movaps	%xmm0, 112(%rsp)
	movaps	%xmm0, 96(%rsp)
	movaps	%xmm0, 80(%rsp)
	movaps	%xmm0, 64(%rsp)
	movq	120(%rsi), %rax
	movq	2056(%rax), %rbx
	testq	%rbx, %rbx
	je	6f
	movq	144(%r14), %r12
	movq	(%r15), %rax
	incq	%rax
	movq	$-1, %rcx
	cmovneq	%rax, %rcx
	movq	%rcx, (%r15)
	jmp	3f
	.p2align	4
1:
	movq	72(%rsp), %rax
	movq	80(%rsp), %rdx
	movq	%rcx, (%rax,%rdx,8)
	incq	%rdx
	movq	%rdx, 80(%rsp)
2:
	movq	(%r15), %rcx
	incq	%rcx
	movq	$-1, %rax
	cmovneq	%rcx, %rax
	movq	%rax, (%r15)
	movq	-8(%r12,%rbx,8), %rbx
	testq	%rbx, %rbx
	je	7f
3:
	movzbl	64(%rsp), %eax
	testb	%al, %al
	leaq	136(%rsp), %rcx
	leaq	80(%rsp), %rdx
	movl	$8, %esi
	cmovneq	88(%rsp), %rsi
	cmoveq	%rcx, %rdx
	cmpq	%rsi, (%rdx)
	je	5f
	leaq	-1(%rbx), %rcx
	testb	%al, %al
	jne	1b
4:
	movq	136(%rsp), %rax
	movq	%rcx, 72(%rsp,%rax,8)
	incq	%rax
	movq	%rax, 136(%rsp)
	jmp	2b
5:
	leaq	64(%rsp), %rdi
	callq	"smallvec::small_vec::SmallVec::reserve_one::<#1d7ca747d7f7d6e4>"
	testb	%al, %al
	jne	23f
	movzbl	64(%rsp), %eax
	leaq	-1(%rbx), %rcx
	testb	%al, %al
	jne	1b
	jmp	4b
6:
	movq	(%r15), %rcx
	incq	%rcx
	movq	$-1, %rax
	cmovneq	%rcx, %rax
7:
	movq	56(%rsp), %r12
	xorl	%ebx, %ebx
	testq	%r12, %r12
	jne	10f
	jmp	17f
	.p2align	4
8:
	movq	%rax, %rcx
	addq	$2, %rcx
	movq	$-1, %rax
	cmovaeq	%rcx, %rax
	movq	%rax, (%r15)
9:
	decq	%r12
	je	16f
10:
	movq	%rax, %rcx
	incq	%rcx
	movq	$-1, %rdx
	cmovneq	%rcx, %rdx
	movq	%rdx, (%r15)
	movq	160(%rsp), %rcx
	movzbl	-1(%rcx,%r12), %ecx
	leaq	.L2f9e9aa9650f(%rip), %rdx
	movzbl	(%rcx,%rdx), %ecx
	movq	48(%r14), %rdx
	movq	72(%r14), %rsi
	addq	(%rdx,%rbx,8), %rcx
	movl	(%rsi,%rcx,4), %ebx
	testq	%rbx, %rbx
	je	25f
	movq	120(%r14), %rcx
	movq	2056(%rcx,%rbx,8), %r13
	testq	%r13, %r13
	je	8b
	movq	144(%r14), %rbp
	addq	$2, %rax
	movq	$-1, %rcx
	cmovaeq	%rax, %rcx
	movq	%rcx, (%r15)
	jmp	13f
	.p2align	4
11:
	movq	72(%rsp), %rax
	movq	80(%rsp), %rdx
	movq	%rcx, (%rax,%rdx,8)
	incq	%rdx
	movq	%rdx, 80(%rsp)
12:
	movq	(%r15), %rcx
	incq	%rcx
	movq	$-1, %rax
	cmovneq	%rcx, %rax
	movq	%rax, (%r15)
	movq	-8(%rbp,%r13,8), %r13
	testq	%r13, %r13
	je	9b
13:
	movzbl	64(%rsp), %eax
	testb	%al, %al
	leaq	136(%rsp), %rcx
	leaq	80(%rsp), %rdx
	movl	$8, %esi
	cmovneq	88(%rsp), %rsi
	cmoveq	%rcx, %rdx
	cmpq	%rsi, (%rdx)
	je	15f
	leaq	-1(%r13), %rcx
	testb	%al, %al
	jne	11b
14:
	movq	136(%rsp), %rax
	movq	%rcx, 72(%rsp,%rax,8)
	incq	%rax
	movq	%rax, 136(%rsp)
	jmp	12b
15:
	leaq	64(%rsp), %rdi
	callq	"smallvec::small_vec::SmallVec::reserve_one::<#1d7ca747d7f7d6e4>"
	testb	%al, %al
	jne	23f
	movzbl	64(%rsp), %eax
	leaq	-1(%r13), %rcx
	testb	%al, %al
	jne	11b
	jmp	14b
16:
	shlq	$3, %rbx
17:
	movq	%rax, %rcx
	incq	%rcx
	movq	$-1, %rdx
	cmovneq	%rcx, %rdx
	movq	%rdx, (%r15)
	movq	48(%r14), %rcx
	movq	72(%r14), %rdx
	movq	(%rcx,%rbx), %rcx
	movl	(%rdx,%rcx,4), %ecx
	testq	%rcx, %rcx
	je	25f
	movq	120(%r14), %rdx
	movq	2056(%rdx,%rcx,8), %rbx
	testq	%rbx, %rbx
	je	24f
	movq	144(%r14), %r12
	addq	$2, %rax
	movq	$-1, %rcx
	cmovaeq	%rax, %rcx
	movq	%rcx, (%r15)
	jmp	20f
	.p2align	4
18:
	movq	72(%rsp), %rax
	movq	80(%rsp), %rdx
	movq	%rcx, (%rax,%rdx,8)
	incq	%rdx
	movq	%rdx, 80(%rsp)
19:
	movq	(%r15), %rax
	incq	%rax
	movq	$-1, %rcx
	cmovneq	%rax, %rcx
	movq	%rcx, (%r15)
	movq	-8(%r12,%rbx,8), %rbx
	testq	%rbx, %rbx
	je	25f
20:
	movzbl	64(%rsp), %eax
	testb	%al, %al
	leaq	136(%rsp), %rcx
	leaq	80(%rsp), %rdx
	movl	$8, %esi
	cmovneq	88(%rsp), %rsi
	cmoveq	%rcx, %rdx
	cmpq	%rsi, (%rdx)
	je	22f
	leaq	-1(%rbx), %rcx
	testb	%al, %al
	jne	18b
21:
	movq	136(%rsp), %rax
	movq	%rcx, 72(%rsp,%rax,8)
	incq	%rax
	movq	%rax, 136(%rsp)
	jmp	19b
22:
	leaq	64(%rsp), %rdi
	callq	"smallvec::small_vec::SmallVec::reserve_one::<#1d7ca747d7f7d6e4>"
	testb	%al, %al
	jne	23f
	movzbl	64(%rsp), %eax
	leaq	-1(%rbx), %rcx
	testb	%al, %al
	jne	18b
	jmp	21b
23:
	cmpb	$1, 64(%rsp)
	je	26f
	jmp	27f
24:
	addq	$2, %rax
	movq	$-1, %rcx
	cmovaeq	%rax, %rcx
	movq	%rcx, (%r15)
25:
	leaq	48(%r14), %rsi
	leaq	64(%rsp), %rdi
	movq	160(%rsp), %rdx
	movq	56(%rsp), %rcx
	movq	%r15, %r8
	callq	"mime_names::places::push_fronts"
	movzbl	64(%rsp), %ecx
	testb	%al, %al
	je	28f
	cmpb	$1, %cl
	jne	27f
26:
	cmpq	$0, 88(%rsp)
	je	27f
	movq	72(%rsp), %rdi
	callq	rattle_dealloc@PLT
27:
	movq	152(%rsp), %rax
	movb	$1, (%rax)
	xorps	%xmm0, %xmm0
	movups	%xmm0, 8(%rax)
	movups	%xmm0, 24(%rax)
	jmp	97f
28:
	leaq	72(%rsp), %rbx
	testb	%cl, %cl
	movq	72(%rsp), %rdi
	cmoveq	%rbx, %rdi
	leaq	136(%rsp), %rax
	leaq	80(%rsp), %rdx
	cmoveq	%rax, %rdx
	movq	(%rdx), %rsi
	cmpq	$2, %rsi
	jb	31f
	movl	$1, %eax
	.p2align	4
29:
	movq	-8(%rdi,%rax,8), %rdx
	cmpq	(%rdi,%rax,8), %rdx
	ja	30f
	incq	%rax
	cmpq	%rax, %rsi
	jne	29b
	jmp	31f
30:
	callq	"core::slice::sort::slice+T::sort_unstable::<#17f159365526a5ba>"
	movzbl	64(%rsp), %ecx
31:
	movq	64(%rbx), %rax
	movq	%rax, 384(%rsp)
	movups	(%rbx), %xmm0
	movups	16(%rbx), %xmm1
	movups	32(%rbx), %xmm2
	movups	48(%rbx), %xmm3
	movaps	%xmm3, 368(%rsp)
	movaps	%xmm2, 352(%rsp)
	movaps	%xmm1, 336(%rsp)
	movaps	%xmm0, 320(%rsp)
	movzbl	%cl, %ecx
	movq	%rcx, 208(%rsp)
	leaq	216(%rsp), %rbp
	movq	%rax, 280(%rsp)
	movups	%xmm3, 264(%rsp)
	movups	%xmm2, 248(%rsp)
	movups	%xmm1, 232(%rsp)
	movups	%xmm0, 216(%rsp)
	leaq	280(%rsp), %rax
	movq	(%r14), %rbx
	movq	24(%r14), %r12
	testb	%cl, %cl
	cmovneq	216(%rsp), %rbp
	leaq	224(%rsp), %rcx
	cmoveq	%rax, %rcx
	movq	(%rcx), %r13
	leaq	32(%rsp), %rax
	movq	%rax, 184(%rsp)
	movq	%rax, 64(%rsp)
	xorps	%xmm0, %xmm0
	movups	%xmm0, 72(%rsp)
	testq	%r13, %r13
	je	62f
	movq	56(%rsp), %rax
	leaq	-1(%rax), %rcx
	movq	%rcx, 296(%rsp)
	movq	160(%rsp), %rcx
	addq	%rax, %rcx
	decq	%rcx
	movq	%rcx, 176(%rsp)
	negq	%rax
	movq	%rax, 312(%rsp)
	xorl	%r11d, %r11d
	xorl	%eax, %eax
	xorl	%r14d, %r14d
	movq	%r13, 304(%rsp)
	jmp	37f
32:
	movq	8(%r15), %rax
	incq	%rax
	movq	$-1, %rcx
	cmovneq	%rax, %rcx
33:
	movq	%rcx, 8(%r15)
	.p2align	4
34:
	movq	48(%rsp), %r8
35:
	incq	%r8
	movq	%r8, %rax
36:
	incq	%r14
	cmpq	%r13, %r14
	je	55f
37:
	movq	(%rbp,%r14,8), %r8
	cmpq	%r8, %rax
	ja	36b
	movq	%r8, %rax
	shlq	$6, %rax
	leaq	(%rbx,%rax), %rdx
	movq	40(%rbx,%rax), %rdi
	movq	48(%rbx,%rax), %rsi
	leaq	(%r12,%rdi), %rcx
	cmpb	$0, 32(%rbx,%rax)
	cmovneq	%rcx, %rdi
	movzbl	62(%rbx,%rax), %eax
	cmpl	$2, %eax
	movq	%rdx, 168(%rsp)
	je	39f
	cmpl	$1, %eax
	jne	40f
	xorl	%ecx, %ecx
	testq	%rsi, %rsi
	setne	%cl
	movq	%rsi, %rax
	subq	%rcx, %rax
	movq	56(%rsp), %rdx
	subq	%rax, %rdx
	jb	35b
	movq	%r8, 48(%rsp)
	cmpq	$2, %rsi
	jae	47f
38:
	addq	8(%r15), %rax
	jmp	45f
39:
	movq	%r8, 48(%rsp)
	movzbl	61(%rdx), %edx
	movq	160(%rsp), %rcx
	movq	56(%rsp), %r8
	movq	%r15, %r9
	movq	%rbx, %r13
	movq	%r12, %rbx
	movq	%rbp, %r12
	movq	%r11, %rbp
	callq	"mime_names::indexed_rule::is_general_match"
	movq	%rbp, %r11
	movq	%r12, %rbp
	movq	%rbx, %r12
	movq	%r13, %rbx
	movq	304(%rsp), %r13
	testb	%al, %al
	je	34b
	cmpq	%r11, 80(%rsp)
	jne	46f
	jmp	54f
40:
	movq	56(%rsp), %rax
	cmpq	%rax, %rsi
	jne	35b
	movq	%r8, 48(%rsp)
	testq	%rax, %rax
	je	44f
	movq	168(%rsp), %rax
	movzbl	61(%rax), %eax
	movzbl	(%rdi), %edx
	movq	160(%rsp), %rcx
	movzbl	(%rcx), %ecx
	cmpb	%cl, %dl
	je	41f
	leal	-65(%rdx), %esi
	leal	32(%rdx), %r8d
	cmpb	$26, %sil
	movzbl	%r8b, %esi
	movzbl	%dl, %edx
	cmovael	%edx, %esi
	leal	-65(%rcx), %r8d
	leal	32(%rcx), %r9d
	cmpb	$26, %r8b
	movzbl	%r9b, %r8d
	movzbl	%cl, %ecx
	cmovael	%ecx, %r8d
	testb	%al, %al
	cmovnel	%edx, %esi
	cmovnel	%ecx, %r8d
	cmpb	%r8b, %sil
	jne	32b
41:
	addq	296(%rsp), %rdi
	xorl	%ecx, %ecx
	jmp	43f
	.p2align	4
42:
	decq	%rcx
	cmpq	%rcx, 312(%rsp)
	je	44f
43:
	movzbl	(%rdi,%rcx), %esi
	movq	176(%rsp), %rdx
	movzbl	(%rdx,%rcx), %edx
	cmpb	%dl, %sil
	je	42b
	leal	-65(%rsi), %r8d
	leal	32(%rsi), %r9d
	cmpb	$26, %r8b
	movzbl	%r9b, %r8d
	movzbl	%sil, %esi
	cmovael	%esi, %r8d
	leal	-65(%rdx), %r9d
	leal	32(%rdx), %r10d
	cmpb	$26, %r9b
	movzbl	%r10b, %r9d
	movzbl	%dl, %edx
	cmovael	%edx, %r9d
	testb	%al, %al
	cmovnel	%esi, %r8d
	cmovnel	%edx, %r9d
	cmpb	%r9b, %r8b
	je	42b
	movl	$1, %eax
	jmp	53f
44:
	movq	8(%r15), %rax
	addq	56(%rsp), %rax
45:
	movq	$-1, %rcx
	cmovaeq	%rax, %rcx
	movq	%rcx, 8(%r15)
	cmpq	%r11, 80(%rsp)
	je	54f
46:
	movq	184(%rsp), %rax
	movq	168(%rsp), %rcx
	movq	%rcx, (%rax,%r11,8)
	incq	%r11
	movq	%r11, 72(%rsp)
	jmp	34b
47:
	addq	%rcx, %rdi
	movq	168(%rsp), %rcx
	movzbl	61(%rcx), %ecx
	movzbl	(%rdi), %r8d
	movq	160(%rsp), %r9
	movzbl	(%r9,%rdx), %edx
	cmpb	%dl, %r8b
	je	48f
	leal	-65(%r8), %r9d
	leal	32(%r8), %r10d
	cmpb	$26, %r9b
	movzbl	%r10b, %r9d
	movzbl	%r8b, %r8d
	cmovael	%r8d, %r9d
	leal	-65(%rdx), %r10d
	movq	%r11, 40(%rsp)
	leal	32(%rdx), %r11d
	cmpb	$26, %r10b
	movzbl	%r11b, %r10d
	movq	40(%rsp), %r11
	movzbl	%dl, %edx
	cmovael	%edx, %r10d
	testb	%cl, %cl
	cmovnel	%r8d, %r9d
	cmovnel	%edx, %r10d
	cmpb	%r10b, %r9b
	jne	32b
48:
	testb	%cl, %cl
	je	50f
	cmpq	$1, %rsi
	movl	$1, %ecx
	cmovbq	%rsi, %rcx
	notq	%rcx
	addq	%rsi, %rcx
	movq	176(%rsp), %rdx
	.p2align	4
49:
	movzbl	(%rdi,%rcx), %esi
	cmpb	(%rdx), %sil
	jne	53f
	decq	%rdx
	addq	$-1, %rcx
	jb	49b
	jmp	38b
50:
	cmpq	$1, %rsi
	movl	$1, %ecx
	cmovbq	%rsi, %rcx
	notq	%rcx
	addq	%rsi, %rcx
	movq	176(%rsp), %rdx
	jmp	52f
	.p2align	4
51:
	decq	%rdx
	addq	$-1, %rcx
	jae	38b
52:
	movzbl	(%rdi,%rcx), %r8d
	movzbl	(%rdx), %esi
	cmpb	%sil, %r8b
	je	51b
	leal	-65(%r8), %r9d
	leal	32(%r8), %r10d
	cmpb	$26, %r9b
	movzbl	%r8b, %r8d
	movzbl	%r10b, %r9d
	cmovael	%r8d, %r9d
	leal	-65(%rsi), %r8d
	leal	32(%rsi), %r10d
	cmpb	$26, %r8b
	movzbl	%sil, %esi
	movzbl	%r10b, %r8d
	cmovael	%esi, %r8d
	cmpb	%r8b, %r9b
	je	51b
53:
	subq	%rcx, %rax
	addq	8(%r15), %rax
	movq	$-1, %rcx
	cmovaeq	%rax, %rcx
	jmp	33b
54:
	leaq	64(%rsp), %rdi
	callq	"std_alloc::vec::Vec::grow_amortized::<#4e4eb83fc8bacb48>"
	testb	%al, %al
	je	77f
	movq	64(%rsp), %rax
	movq	%rax, 184(%rsp)
	movq	72(%rsp), %r11
	jmp	46b
55:
	movq	64(%rsp), %r15
	movq	80(%rsp), %r13
	cmpq	$20, %r11
	ja	64f
	cmpq	$2, %r11
	jb	90f
	movl	$1, %eax
	jmp	59f
56:
	xorl	%edx, %edx
57:
	movq	%rcx, (%r15,%rdx)
58:
	incq	%rax
	cmpq	%r11, %rax
	je	91f
59:
	movq	-8(%r15,%rax,8), %rsi
	movq	(%r15,%rax,8), %rcx
	movl	56(%rsi), %edx
	cmpl	56(%rcx), %edx
	jae	58b
	movq	%rax, %rdx
	movq	%rsi, (%r15,%rax,8)
	decq	%rdx
	je	56b
	.p2align	4
60:
	movq	-8(%r15,%rdx,8), %rsi
	movl	56(%rsi), %edi
	cmpl	56(%rcx), %edi
	jae	61f
	movq	%rsi, (%r15,%rdx,8)
	decq	%rdx
	jne	60b
	xorl	%edx, %edx
61:
	shlq	$3, %rdx
	jmp	57b
62:
	leaq	32(%rsp), %r15
	xorl	%r11d, %r11d
	xorl	%r13d, %r13d
63:
	xorl	%ebx, %ebx
	movq	152(%rsp), %r14
	jmp	95f
64:
	movq	(%r15), %rax
	movq	8(%r15), %rcx
	movl	56(%rcx), %ebp
	movl	56(%rax), %r14d
	movl	$2, %ebx
	cmpl	%ebp, %r14d
	jae	66f
	.p2align	4
65:
	movq	-8(%r15,%rbx,8), %rax
	movq	(%r15,%rbx,8), %rcx
	movl	56(%rax), %eax
	cmpl	56(%rcx), %eax
	jae	67f
	incq	%rbx
	cmpq	%rbx, %r11
	jne	65b
	jmp	68f
	.p2align	4
66:
	movq	-8(%r15,%rbx,8), %rax
	movq	(%r15,%rbx,8), %rcx
	movl	56(%rax), %eax
	cmpl	56(%rcx), %eax
	jb	67f
	incq	%rbx
	cmpq	%rbx, %r11
	jne	66b
	jmp	91f
67:
	cmpq	%r11, %rbx
	jne	69f
	cmpl	%ebp, %r14d
	jae	91f
68:
	movq	%r11, %rdx
	shrq	%rdx
	movq	%r11, %rax
	subq	%rdx, %rax
	leaq	(%r15,%rax,8), %rsi
	movq	%r15, %rdi
	movq	%r11, %rbx
	callq	"core::slice::edits::mirror::<*>"
	movq	%rbx, %r11
	jmp	91f
69:
	leaq	(,%r11,8), %rdi
	testq	%rdi, %rdi
	js	70f
	movl	$8, %esi
	movq	%r11, 40(%rsp)
	callq	rattle_alloc@PLT
	movq	40(%rsp), %r10
	xorl	%r12d, %r12d
	testb	$1, %al
	cmovneq	%rdx, %r12
	je	70f
	movq	%rdx, 192(%rsp)
	movq	%r10, 200(%rsp)
	cmpq	$65, %r10
	setae	%cl
	movq	%r10, %rax
	shrq	%rax
	cmpq	%rax, %rbx
	setae	%dl
	orb	%cl, %dl
	jne	74f
	bsrq	%r10, %rcx
	xorl	$63, %ecx
	addl	%ecx, %ecx
	xorl	$126, %ecx
	leaq	192(%rsp), %r8
	movq	%r15, %rdi
	movq	%r10, %rsi
	movq	%r10, %rdx
	jmp	88f
70:
	testq	%r13, %r13
	je	72f
	movq	%r15, %rdi
71:
	callq	rattle_dealloc@PLT
72:
	cmpb	$1, 208(%rsp)
	movq	152(%rsp), %rbx
	jne	73f
	cmpq	$0, 232(%rsp)
	je	73f
	movq	216(%rsp), %rdi
	callq	rattle_dealloc@PLT
73:
	movb	$1, (%rbx)
	xorps	%xmm0, %xmm0
	movups	%xmm0, 8(%rbx)
	movups	%xmm0, 24(%rbx)
	jmp	97f
74:
	xorps	%xmm0, %xmm0
	movaps	%xmm0, 80(%rsp)
	movaps	%xmm0, 64(%rsp)
	movq	$0, 96(%rsp)
	movl	$64, %r9d
	cmpq	$4097, %r10
	jb	76f
	movabsq	$4294967296, %rdx
	xorl	%ecx, %ecx
75:
	movq	%rcx, %rsi
	addq	%rdx, %rcx
	shrq	%rcx
	movq	%rcx, %rdi
	imulq	%rcx, %rdi
	cmpq	%r10, %rdi
	cmovaq	%rcx, %rdx
	cmovaq	%rsi, %rcx
	leaq	1(%rcx), %rsi
	cmpq	%rdx, %rsi
	jb	75b
	cmpq	$65, %rcx
	movl	$64, %r9d
	cmovaeq	%rcx, %r9
76:
	cmpq	%r9, %rax
	cmovbq	%rax, %r9
	movabsq	$4611686018427387904, %rax
	xorl	%edx, %edx
	divq	%r10
	incq	%rax
	cmpq	%r9, %rbx
	setae	%cl
	movq	%r9, %r8
	cmovaq	%rbx, %r8
	cmpl	%ebp, %r14d
	jae	87f
	cmpq	%r9, %rbx
	jb	87f
	cmpq	$15, %rbx
	jbe	78f
	movq	%rbx, %rdx
	shrq	%rdx
	movq	%rbx, %rcx
	subq	%rdx, %rcx
	leaq	(%r15,%rcx,8), %rsi
	movq	%r15, %rdi
	movq	%rax, %r14
	movq	%r9, %rbp
	callq	"core::slice::edits::mirror::<*>"
	movq	%rbp, %r9
	movq	40(%rsp), %r10
	movq	%r14, %rax
	movb	$1, %cl
	movq	%rbx, %r8
	jmp	87f
77:
	cmpq	$0, 80(%rsp)
	je	72b
	movq	64(%rsp), %rdi
	jmp	71b
78:
	leaq	-2(%rbx), %rsi
	movq	%rsi, %rdx
	shrq	%rdx
	cmpq	$1, %rbx
	je	79f
	movq	(%r15), %rcx
	movq	-8(%r15,%rbx,8), %rdi
	movq	%rdi, (%r15)
	movq	%rcx, -8(%r15,%rbx,8)
79:
	movb	$1, %cl
	testq	%rdx, %rdx
	je	86f
	cmpq	$1, %rsi
	jbe	80f
	movq	8(%r15), %rsi
	movq	-16(%r15,%rbx,8), %rdi
	movq	%rdi, 8(%r15)
	movq	%rsi, -16(%r15,%rbx,8)
	jmp	81f
80:
	testq	%rsi, %rsi
	jne	81f
	movq	(%r15), %rsi
	movq	8(%r15), %rdi
	movq	%rdi, (%r15)
	movq	%rsi, 8(%r15)
81:
	cmpq	$1, %rdx
	je	86f
	leaq	-3(%rbx), %rsi
	cmpq	$2, %rsi
	jbe	82f
	movq	16(%r15), %rsi
	movq	-24(%r15,%rbx,8), %rdi
	movq	%rdi, 16(%r15)
	movq	%rsi, -24(%r15,%rbx,8)
	jmp	83f
82:
	je	83f
	movq	-24(%r15,%rbx,8), %rsi
	movq	16(%r15), %rdi
	movq	%rdi, -24(%r15,%rbx,8)
	movq	%rsi, 16(%r15)
83:
	cmpq	$2, %rdx
	je	86f
	leaq	-4(%rbx), %rsi
	cmpq	$3, %rsi
	jbe	84f
	movq	24(%r15), %rsi
	movq	-32(%r15,%rbx,8), %rdi
	movq	%rdi, 24(%r15)
	movq	%rsi, -32(%r15,%rbx,8)
	jmp	85f
84:
	je	85f
	movq	-32(%r15,%rbx,8), %rsi
	movq	24(%r15), %rdi
	movq	%rdi, -32(%r15,%rbx,8)
	movq	%rsi, 24(%r15)
85:
	cmpq	$3, %rdx
	jne	99f
86:
	movq	%rbx, %r8
87:
	leaq	192(%rsp), %rdx
	movq	%rdx, 24(%rsp)
	movq	%rax, 16(%rsp)
	movq	%r9, 8(%rsp)
	movl	$0, (%rsp)
	movzbl	%cl, %r9d
	leaq	64(%rsp), %rdi
	movq	%r15, %rsi
	movq	%r10, %rdx
	xorl	%ecx, %ecx
	callq	"core::slice::sort::runs::climb::<#196989f31ad14034>"
	testb	$1, 72(%rsp)
	jne	89f
	movq	64(%rsp), %rdx
	movl	$127, %eax
	bsrq	%rdx, %rax
	xorl	$63, %eax
	addl	%eax, %eax
	movl	$126, %ecx
	subl	%eax, %ecx
	leaq	192(%rsp), %r8
	movq	%r15, %rdi
	movq	%rdx, %rsi
88:
	callq	"core::slice::sort::stable::quicksort::<#196989f31ad14034>"
89:
	movq	%r12, %rdi
	callq	rattle_dealloc@PLT
	movq	40(%rsp), %r11
90:
	testq	%r11, %r11
	je	98f
91:
	movq	(%r15), %rax
	movl	56(%rax), %eax
	cmpq	$1, %r11
	movq	152(%rsp), %r14
	jne	92f
	xorl	%ebx, %ebx
	xorl	%ecx, %ecx
	jmp	94f
92:
	movq	%r11, %rdx
	andq	$-2, %rdx
	xorl	%ebx, %ebx
	xorl	%ecx, %ecx
	.p2align	4
93:
	movq	(%r15,%rcx,8), %rsi
	movq	8(%r15,%rcx,8), %rdi
	xorl	%r8d, %r8d
	cmpl	%eax, 56(%rsi)
	sete	%r8b
	addq	%rbx, %r8
	xorl	%ebx, %ebx
	cmpl	%eax, 56(%rdi)
	sete	%bl
	addq	%r8, %rbx
	addq	$2, %rcx
	cmpq	%rcx, %rdx
	jne	93b
	testb	$1, %r11b
	je	95f
94:
	movq	(%r15,%rcx,8), %rcx
	xorl	%edx, %edx
	cmpl	%eax, 56(%rcx)
	sete	%dl
	addq	%rdx, %rbx
95:
	cmpb	$1, 208(%rsp)
	jne	96f
	cmpq	$0, 232(%rsp)
	je	96f
	movq	216(%rsp), %rdi
	movq	%r11, %r12
	callq	rattle_dealloc@PLT
	movq	%r12, %r11
96:
	movb	$0, (%r14)
	movq	%r15, 8(%r14)
	movq	%r11, 16(%r14)
	movq	%r13, 24(%r14)
	movq	%rbx, 32(%r14)
97:
	addq	$392, %rsp
	popq	%rbx
	popq	%r12
	popq	%r13
	popq	%r14
	popq	%r15
	popq	%rbp
	retq
98:
	xorl	%r11d, %r11d
	jmp	63b
99:
	leaq	-5(%rbx), %rsi
	cmpq	$4, %rsi
	jbe	100f
	movq	32(%r15), %rsi
	movq	-40(%r15,%rbx,8), %rdi
	movq	%rdi, 32(%r15)
	movq	%rsi, -40(%r15,%rbx,8)
	jmp	101f
100:
	je	101f
	movq	-40(%r15,%rbx,8), %rsi
	movq	32(%r15), %rdi
	movq	%rdi, -40(%r15,%rbx,8)
	movq	%rsi, 32(%r15)
101:
	cmpq	$4, %rdx
	je	105f
	leaq	-6(%rbx), %rsi
	cmpq	$5, %rsi
	jbe	102f
	movq	40(%r15), %rsi
	movq	-48(%r15,%rbx,8), %rdi
	movq	%rdi, 40(%r15)
	movq	%rsi, -48(%r15,%rbx,8)
	jmp	103f
102:
	je	103f
	movq	-48(%r15,%rbx,8), %rsi
	movq	40(%r15), %rdi
	movq	%rdi, -48(%r15,%rbx,8)
	movq	%rsi, 40(%r15)
103:
	cmpq	$5, %rdx
	je	105f
	leaq	-7(%rbx), %rdx
	cmpq	$6, %rdx
	jbe	104f
	movq	48(%r15), %rdx
	movq	-56(%r15,%rbx,8), %rsi
	movq	%rsi, 48(%r15)
	movq	%rdx, -56(%r15,%rbx,8)
	jmp	105f
104:
	je	105f
	movq	-56(%r15,%rbx,8), %rdx
	movq	48(%r15), %rsi
	movq	%rsi, -56(%r15,%rbx,8)
	movq	%rdx, 48(%r15)
105:
	movq	%rbx, %r8
	movq	40(%rsp), %r10
	jmp	87b
106:
	.size	"mime_names::ranked::ranked_rules", 106b-"mime_names::ranked::ranked_rules"

	.text
	.p2align	4
	.type	"mime_names::tree::add_whole",@function
"mime_names::tree::add_whole":
	pushq	%rbp
	pushq	%r15
	pushq	%r14
	pushq	%r13
	pushq	%r12
	pushq	%rbx
	subq	$24, %rsp
	movq	%rdi, %r14
	xorl	%ecx, %ecx
	movq	%rdx, %rax
	.p2align	4
1:
	movq	%rcx, %r13
	movq	%rax, %r15
	subq	$1, %rax
	jb	6f
	movzbl	-1(%rsi,%r15), %ecx
	leaq	.L2f9e9aa9650f(%rip), %rdi
	movzbl	(%rcx,%rdi), %ecx
	movq	(%r14), %rdi
	movq	24(%r14), %r8
	addq	(%rdi,%r13,8), %rcx
	movl	(%r8,%rcx,4), %ecx
	testq	%rcx, %rcx
	jne	1b
	jmp	6f
2:
	movq	32(%r14), %rcx
	movq	40(%r14), %rax
	movq	16(%rsp), %rdx
	movq	8(%rsp), %rsi
	.p2align	4
3:
	leaq	64(%rcx), %rdi
	movq	24(%r14), %r8
	xorps	%xmm0, %xmm0
	movups	%xmm0, 240(%r8,%rcx,4)
	movups	%xmm0, 224(%r8,%rcx,4)
	movups	%xmm0, 208(%r8,%rcx,4)
	movups	%xmm0, 192(%r8,%rcx,4)
	movups	%xmm0, 176(%r8,%rcx,4)
	movups	%xmm0, 160(%r8,%rcx,4)
	movups	%xmm0, 144(%r8,%rcx,4)
	movups	%xmm0, 128(%r8,%rcx,4)
	movups	%xmm0, 112(%r8,%rcx,4)
	movups	%xmm0, 96(%r8,%rcx,4)
	movups	%xmm0, 80(%r8,%rcx,4)
	movups	%xmm0, 64(%r8,%rcx,4)
	movups	%xmm0, 48(%r8,%rcx,4)
	movups	%xmm0, 32(%r8,%rcx,4)
	movups	%xmm0, 16(%r8,%rcx,4)
	movups	%xmm0, (%r8,%rcx,4)
	movq	%r8, 24(%r14)
	movq	%rdi, 32(%r14)
	movq	%rax, 40(%r14)
	movq	(%r14), %rax
	movq	%r12, (%rax,%r13,8)
	movq	8(%r14), %rax
4:
	cmpq	%rax, 16(%r14)
	je	7f
5:
	leaq	-1(%r15), %rcx
	movq	(%r14), %rdi
	movq	$0, (%rdi,%rax,8)
	incq	%rax
	movq	%rax, 8(%r14)
	addq	%rbp, %r12
	movq	24(%r14), %rax
	movl	%ebx, (%rax,%r12,4)
	incq	%r15
	movq	%rbx, %r13
	cmpq	%rdx, %r15
	movq	%rcx, %r15
	jbe	8f
6:
	testq	%r15, %r15
	je	9f
	movq	8(%r14), %rbx
	movq	%rbx, %rax
	shrq	$32, %rax
	movb	$1, %al
	jne	10f
	movzbl	-1(%rsi,%r15), %eax
	leaq	.L2f9e9aa9650f(%rip), %rcx
	movzbl	(%rax,%rcx), %ebp
	movq	(%r14), %rax
	movq	(%rax,%r13,8), %r12
	movq	%rbx, %rax
	testq	%r12, %r12
	jne	4b
	movq	32(%r14), %r12
	movq	40(%r14), %rax
	movq	%rax, %rdi
	subq	%r12, %rdi
	movq	%r12, %rcx
	cmpq	$63, %rdi
	ja	3b
	movq	%rsi, 8(%rsp)
	movq	%rdx, 16(%rsp)
	leaq	24(%r14), %rdi
	callq	"std_alloc::vec::Vec::grow_amortized::<#9e03e38e8c3bbb30>"
	testb	%al, %al
	jne	2b
	jmp	19f
7:
	movq	%rsi, 8(%rsp)
	movq	%rdx, %r13
	movq	%r14, %rdi
	callq	"std_alloc::vec::Vec::grow_amortized::<#5eba103c2f25e3e5>"
	testb	%al, %al
	je	19f
	movq	8(%r14), %rax
	movq	%r13, %rdx
	movq	8(%rsp), %rsi
	jmp	5b
8:
	testq	%rcx, %rcx
	jne	15f
	movq	%rbx, %r13
9:
	movq	(%r14), %rcx
	movq	24(%r14), %rdi
	movq	(%rcx,%r13,8), %r15
	movl	(%rdi,%r15,4), %ebx
	testq	%rbx, %rbx
	jne	15f
	movq	8(%r14), %rbx
	movq	%rbx, %rcx
	shrq	$32, %rcx
	movb	$1, %al
	je	11f
10:
	xorl	%ebx, %ebx
	jmp	16f
11:
	movq	%rbx, %rcx
	testq	%r15, %r15
	jne	13f
	movq	32(%r14), %r15
	movq	40(%r14), %rcx
	movq	%rcx, %rsi
	subq	%r15, %rsi
	movq	%r15, %rdx
	cmpq	$63, %rsi
	jbe	18f
12:
	leaq	64(%rdx), %rsi
	xorps	%xmm0, %xmm0
	movups	%xmm0, 240(%rdi,%rdx,4)
	movups	%xmm0, 224(%rdi,%rdx,4)
	movups	%xmm0, 208(%rdi,%rdx,4)
	movups	%xmm0, 192(%rdi,%rdx,4)
	movups	%xmm0, 176(%rdi,%rdx,4)
	movups	%xmm0, 160(%rdi,%rdx,4)
	movups	%xmm0, 144(%rdi,%rdx,4)
	movups	%xmm0, 128(%rdi,%rdx,4)
	movups	%xmm0, 112(%rdi,%rdx,4)
	movups	%xmm0, 96(%rdi,%rdx,4)
	movups	%xmm0, 80(%rdi,%rdx,4)
	movups	%xmm0, 64(%rdi,%rdx,4)
	movups	%xmm0, 48(%rdi,%rdx,4)
	movups	%xmm0, 32(%rdi,%rdx,4)
	movups	%xmm0, 16(%rdi,%rdx,4)
	movups	%xmm0, (%rdi,%rdx,4)
	movq	%rdi, 24(%r14)
	movq	%rsi, 32(%r14)
	movq	%rcx, 40(%r14)
	movq	(%r14), %rax
	movq	%r15, (%rax,%r13,8)
	movq	8(%r14), %rcx
13:
	cmpq	%rcx, 16(%r14)
	je	17f
14:
	movq	(%r14), %rax
	movq	$0, (%rax,%rcx,8)
	incq	%rcx
	movq	%rcx, 8(%r14)
	movq	24(%r14), %rax
	movl	%ebx, (%rax,%r15,4)
15:
	xorl	%eax, %eax
16:
	movq	%rbx, %rdx
	addq	$24, %rsp
	popq	%rbx
	popq	%r12
	popq	%r13
	popq	%r14
	popq	%r15
	popq	%rbp
	retq
17:
	movq	%r14, %rdi
	callq	"std_alloc::vec::Vec::grow_amortized::<#5eba103c2f25e3e5>"
	testb	%al, %al
	je	19f
	movq	8(%r14), %rcx
	jmp	14b
18:
	leaq	24(%r14), %rdi
	callq	"std_alloc::vec::Vec::grow_amortized::<#9e03e38e8c3bbb30>"
	testb	%al, %al
	je	19f
	movq	24(%r14), %rdi
	movq	32(%r14), %rdx
	movq	40(%r14), %rcx
	jmp	12b
19:
	xorl	%ebx, %ebx
	movb	$1, %al
	jmp	16b
20:
	.size	"mime_names::tree::add_whole", 20b-"mime_names::tree::add_whole"
