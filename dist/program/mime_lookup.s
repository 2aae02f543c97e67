# Made by dist/refresh of what is proved.

	.text
	.p2align	4
	.type	"mime_lookup::ancestry::first_at",@function
"mime_lookup::ancestry::first_at":
	pushq	%rbp
	pushq	%r15
	pushq	%r14
	pushq	%r13
	pushq	%r12
	pushq	%rbx
	subq	$152, %rsp
	movq	%r9, 24(%rsp)
	movq	%r8, 16(%rsp)
	movq	%rdi, 32(%rsp)
	leaq	8(%rsp), %r14
	movq	%r14, 40(%rsp)
	xorps	%xmm0, %xmm0
	movups	%xmm0, 48(%rsp)
	movq	%r14, 64(%rsp)
	movups	%xmm0, 72(%rsp)
	movq	%r14, 88(%rsp)
	movups	%xmm0, 96(%rsp)
	movq	%r14, 112(%rsp)
	movups	%xmm0, 120(%rsp)
	movq	$0, 136(%rsp)
	movabsq	$2611923443488327891, %rax
	movq	%rax, 144(%rsp)
	testq	%rcx, %rcx
	je	2f
	movq	%rcx, %r13
	movq	%rdx, %r12
	movq	%rsi, %rbp
	movq	224(%rsp), %rbx
	movq	216(%rsp), %r14
	movq	208(%rsp), %r15
	addq	$8, %r12
	.p2align	4
1:
	movq	-8(%r12), %rdx
	movq	(%r12), %rcx
	movq	%rbx, (%rsp)
	leaq	40(%rsp), %rsi
	movq	%rbp, %rdi
	movq	%r15, %r8
	movq	%r14, %r9
	callq	"mime_lookup::ancestry::is_a"
	testb	%al, %al
	jne	8f
	testb	$1, %dl
	jne	13f
	addq	$16, %r12
	decq	%r13
	jne	1b
	movq	64(%rsp), %r14
	movq	88(%rsp), %r15
	movq	112(%rsp), %r12
	jmp	3f
2:
	movq	%r14, %r12
	movq	%r14, %r15
3:
	movq	80(%rsp), %rbp
	movq	104(%rsp), %r13
	movq	128(%rsp), %rbx
	cmpq	$0, 56(%rsp)
	je	4f
	movq	40(%rsp), %rdi
	callq	rattle_dealloc@PLT
4:
	testq	%rbp, %rbp
	je	5f
	movq	%r14, %rdi
	callq	rattle_dealloc@PLT
5:
	testq	%r13, %r13
	je	6f
	movq	%r15, %rdi
	callq	rattle_dealloc@PLT
6:
	testq	%rbx, %rbx
	je	7f
	movq	%r12, %rdi
	callq	rattle_dealloc@PLT
7:
	movq	32(%rsp), %rax
	movb	$0, (%rax)
	movq	16(%rsp), %rcx
	movq	%rcx, 8(%rax)
	movq	24(%rsp), %rcx
	movq	%rcx, 16(%rax)
	jmp	18f
8:
	movq	64(%rsp), %r12
	movq	80(%rsp), %rbp
	movq	88(%rsp), %r15
	movq	104(%rsp), %r13
	movq	112(%rsp), %r14
	movq	128(%rsp), %rbx
	cmpq	$0, 56(%rsp)
	je	9f
	movq	40(%rsp), %rdi
	callq	rattle_dealloc@PLT
9:
	testq	%rbp, %rbp
	je	10f
	movq	%r12, %rdi
	callq	rattle_dealloc@PLT
10:
	testq	%r13, %r13
	je	11f
	movq	%r15, %rdi
	callq	rattle_dealloc@PLT
11:
	testq	%rbx, %rbx
	je	12f
	movq	%r14, %rdi
	callq	rattle_dealloc@PLT
12:
	movq	32(%rsp), %rax
	movb	$1, (%rax)
	xorps	%xmm0, %xmm0
	movups	%xmm0, 8(%rax)
	jmp	18f
13:
	movq	-8(%r12), %rax
	movq	%rax, 24(%rsp)
	movq	(%r12), %rbp
	movq	64(%rsp), %r12
	movq	80(%rsp), %r13
	movq	88(%rsp), %r15
	movq	104(%rsp), %r14
	movq	112(%rsp), %rax
	movq	%rax, 16(%rsp)
	movq	128(%rsp), %rbx
	cmpq	$0, 56(%rsp)
	je	14f
	movq	40(%rsp), %rdi
	callq	rattle_dealloc@PLT
14:
	testq	%r13, %r13
	je	15f
	movq	%r12, %rdi
	callq	rattle_dealloc@PLT
15:
	testq	%r14, %r14
	je	16f
	movq	%r15, %rdi
	callq	rattle_dealloc@PLT
16:
	testq	%rbx, %rbx
	je	17f
	movq	16(%rsp), %rdi
	callq	rattle_dealloc@PLT
17:
	movq	32(%rsp), %rax
	movb	$0, (%rax)
	movq	24(%rsp), %rcx
	movq	%rcx, 8(%rax)
	movq	%rbp, 16(%rax)
18:
	addq	$152, %rsp
	popq	%rbx
	popq	%r12
	popq	%r13
	popq	%r14
	popq	%r15
	popq	%rbp
	retq
19:
	.size	"mime_lookup::ancestry::first_at", 19b-"mime_lookup::ancestry::first_at"

	.text
	.p2align	4
	.type	"mime_lookup::ancestry::is_a",@function
"mime_lookup::ancestry::is_a":
	pushq	%rbp
	pushq	%r15
	pushq	%r14
	pushq	%r13
	pushq	%r12
	pushq	%rbx
	subq	$248, %rsp
	movq	%rsi, %r15
	movq	304(%rsp), %r11
	leaq	64(%rsp), %rsi
	movq	%rsi, 152(%rsp)
	pxor	%xmm0, %xmm0
	movdqu	%xmm0, 160(%rsp)
	movdqu	%xmm0, 176(%rsp)
	movq	$1, 128(%rsp)
	movq	%rdx, 136(%rsp)
	movq	%rcx, 144(%rsp)
	cmpq	$10, %r9
	movl	$10, %eax
	cmovbq	%r9, %rax
	movq	%rax, 120(%rsp)
	cmpq	$24, %r9
	movl	$24, %r14d
	cmovbq	%r9, %r14
	leaq	216(%rdi), %rax
	movq	%rax, 224(%rsp)
	leaq	16(%rdi), %rax
	movq	%rax, 240(%rsp)
	movb	$1, %al
	movq	$0, 40(%rsp)
	xorl	%r10d, %r10d
	movq	%r15, 24(%rsp)
	movq	%r9, 16(%rsp)
	movq	%r8, 8(%rsp)
	movq	%rdi, 56(%rsp)
	movq	%r14, (%rsp)
	jmp	4f
	.p2align	4
1:
	movq	16(%rsp), %r9
	movq	8(%rsp), %r8
	movq	24(%rsp), %r15
2:
	movq	304(%rsp), %r11
	movq	(%rsp), %r14
3:
	movzbl	128(%rsp), %eax
	movq	112(%rsp), %rsi
	movq	208(%rsp), %r10
4:
	testq	%r10, %r10
	movq	%rsi, 112(%rsp)
	je	5f
	cmpq	%r10, 184(%rsp)
	jne	6f
	movq	$0, 184(%rsp)
	xorl	%edx, %edx
	jmp	7f
	.p2align	4
5:
	movq	$0, 208(%rsp)
	xorl	%esi, %esi
	xorl	%ecx, %ecx
	xorl	%edx, %edx
	jmp	8f
	.p2align	4
6:
	movq	176(%rsp), %rdx
7:
	leaq	1(%rdx), %rcx
	movq	%rcx, 176(%rsp)
	decq	%r10
	movq	%r10, 160(%rsp)
	shlq	$4, %rdx
	movq	(%rsi,%rdx), %rcx
	movq	8(%rsi,%rdx), %rdx
	movl	$1, %esi
	movq	%r10, 208(%rsp)
	movq	%r10, 40(%rsp)
8:
	movq	136(%rsp), %rbp
	movq	144(%rsp), %r10
	movq	%rsi, 128(%rsp)
	movq	%rcx, 136(%rsp)
	movq	%rdx, 144(%rsp)
	cmpb	$1, %al
	jne	101f
	cmpq	%r9, %r10
	movq	%r9, %rcx
	cmovbq	%r10, %rcx
	xorl	%eax, %eax
	.p2align	4
9:
	movq	%rcx, %rdx
	subq	%rax, %rdx
	cmpq	$8, %rdx
	jb	10f
	pmovzxbw	(%r8,%rax), %xmm0
	pmovzxbw	(%rbp,%rax), %xmm1
	pcmpeqw	%xmm0, %xmm1
	packsswb	%xmm1, %xmm1
	pmovmskb	%xmm1, %edx
	notl	%edx
	orl	$256, %edx
	rep		bsfl	%edx, %edx
	addq	%rdx, %rax
	cmpb	$7, %dl
	ja	9b
10:
	cmpq	%rcx, %rax
	jae	13f
	.p2align	4
11:
	movzbl	(%r8,%rax), %edx
	cmpb	(%rbp,%rax), %dl
	jne	12f
	incq	%rax
	cmpq	%rax, %rcx
	jne	11b
	jmp	13f
	.p2align	4
12:
	movq	%rax, %rcx
13:
	leaq	1(%rcx), %rdx
	addq	8(%r11), %rdx
	movq	$-1, %rax
	cmovaeq	%rdx, %rax
	movq	%rax, 8(%r11)
	movq	%rcx, %rdx
	xorq	%r9, %rdx
	xorq	%r10, %rcx
	orq	%rdx, %rcx
	je	100f
	cmpq	$5, %r10
	jb	20f
	movl	$1, %ecx
	cmpb	$116, (%rbp)
	jne	17f
	movl	$2, %ecx
	cmpb	$101, 1(%rbp)
	jne	17f
	movl	$3, %ecx
	cmpb	$120, 2(%rbp)
	jne	17f
	movl	$4, %ecx
	cmpb	$116, 3(%rbp)
	jne	17f
	movl	$5, %ecx
	cmpb	$47, 4(%rbp)
	jne	17f
	addq	$6, %rax
	movq	$-1, %rcx
	cmovaeq	%rax, %rcx
	movq	%rcx, 8(%r11)
	xorl	%eax, %eax
	.p2align	4
14:
	movq	120(%rsp), %rsi
	subq	%rax, %rsi
	leaq	.Laafe98300121(%rip), %rdx
	cmpq	$8, %rsi
	jb	15f
	pmovzxbw	(%rax,%rdx), %xmm0
	pmovzxbw	(%r8,%rax), %xmm1
	pcmpeqw	%xmm0, %xmm1
	packsswb	%xmm1, %xmm1
	pmovmskb	%xmm1, %esi
	notl	%esi
	orl	$256, %esi
	rep		bsfl	%esi, %esi
	addq	%rsi, %rax
	cmpb	$7, %sil
	ja	14b
15:
	movq	120(%rsp), %rbx
	movq	%rbx, %rsi
	cmpq	%rbx, %rax
	jae	99f
	.p2align	4
16:
	movzbl	(%rax,%rdx), %esi
	cmpb	(%r8,%rax), %sil
	jne	98f
	incq	%rax
	cmpq	%rax, 120(%rsp)
	jne	16b
	movq	120(%rsp), %rsi
	jmp	99f
	.p2align	4
17:
	addq	%rax, %rcx
	movq	$-1, %rax
	cmovaeq	%rcx, %rax
	movq	%rax, 8(%r11)
18:
	cmpq	$5, %r10
	je	20f
	movl	$1, %ecx
	cmpb	$105, (%rbp)
	jne	19f
	movl	$2, %ecx
	cmpb	$110, 1(%rbp)
	jne	19f
	movl	$3, %ecx
	cmpb	$111, 2(%rbp)
	jne	19f
	movl	$4, %ecx
	cmpb	$100, 3(%rbp)
	jne	19f
	movl	$5, %ecx
	cmpb	$101, 4(%rbp)
	jne	19f
	movl	$6, %ecx
	cmpb	$47, 5(%rbp)
	jne	19f
	addq	$7, %rax
	movq	$-1, %rcx
	cmovaeq	%rax, %rcx
	movq	%rcx, 8(%r11)
	jmp	26f
	.p2align	4
19:
	addq	%rax, %rcx
	movq	$-1, %rax
	cmovaeq	%rcx, %rax
	movq	%rax, 8(%r11)
20:
	xorl	%ecx, %ecx
	.p2align	4
21:
	movq	%r14, %rsi
	subq	%rcx, %rsi
	leaq	.L67248b46a1a0(%rip), %rdx
	cmpq	$8, %rsi
	jb	22f
	pmovzxbw	(%rcx,%rdx), %xmm0
	pmovzxbw	(%r8,%rcx), %xmm1
	pcmpeqw	%xmm0, %xmm1
	packsswb	%xmm1, %xmm1
	pmovmskb	%xmm1, %esi
	notl	%esi
	orl	$256, %esi
	rep		bsfl	%esi, %esi
	addq	%rsi, %rcx
	cmpb	$7, %sil
	ja	21b
22:
	movq	%r14, %rsi
	cmpq	%r14, %rcx
	jae	25f
	.p2align	4
23:
	movzbl	(%rcx,%rdx), %esi
	cmpb	(%r8,%rcx), %sil
	jne	24f
	incq	%rcx
	cmpq	%rcx, %r14
	jne	23b
	movq	%r14, %rsi
	jmp	25f
	.p2align	4
24:
	movq	%rcx, %rsi
25:
	leaq	1(%rsi), %rcx
	addq	%rax, %rcx
	movq	$-1, %rax
	cmovaeq	%rcx, %rax
	movq	%rax, 8(%r11)
	cmpq	$24, %r9
	jne	26f
	cmpq	$24, %rsi
	je	100f
26:
	movq	104(%r15), %rax
	xorq	%r10, %rax
	movabsq	$-7046029254386353147, %rcx
	mulq	%rcx
	movq	%rdx, %r13
	xorq	%rax, %r13
	movabsq	$-7046029254386353129, %r8
	movq	%r13, %rdx
	testq	%r10, %r10
	je	30f
	cmpq	$1, %r10
	jne	27f
	xorl	%ecx, %ecx
	movq	%r13, %rdx
	jmp	29f
	.p2align	4
27:
	movq	%r10, %rsi
	andq	$-2, %rsi
	xorl	%ecx, %ecx
	movq	%r13, %rdx
	.p2align	4
28:
	movzbl	(%rbp,%rcx), %eax
	imulq	$65793, %rax, %rax
	xorq	%rdx, %rax
	mulq	%r8
	movzbl	1(%rbp,%rcx), %edi
	imulq	$65793, %rdi, %rdi
	xorq	%rdx, %rdi
	xorq	%rdi, %rax
	mulq	%r8
	xorq	%rax, %rdx
	addq	$2, %rcx
	cmpq	%rcx, %rsi
	jne	28b
	testb	$1, %r10b
	je	30f
29:
	movzbl	(%rbp,%rcx), %eax
	imulq	$65793, %rax, %rax
	xorq	%rdx, %rax
	mulq	%r8
	xorq	%rax, %rdx
30:
	movq	56(%r15), %r11
	testq	%r11, %r11
	movq	%r10, 48(%rsp)
	je	41f
	movq	(%r15), %r12
	movq	48(%r15), %rax
	movq	%rax, 32(%rsp)
	movq	%rdx, %rax
	shrq	$32, %rax
	xorl	%edx, %eax
	movl	%eax, %ecx
	shrl	$24, %ecx
	cmpb	$1, %cl
	adcl	$0, %ecx
	movl	$4294967295, %edx
	leal	(%r11,%rdx), %ebx
	andl	%eax, %ebx
	movd	%ecx, %xmm1
	pxor	%xmm0, %xmm0
	movl	$1, %eax
	shll	%cl, %eax
	movl	%eax, 104(%rsp)
	pshufb	%xmm0, %xmm1
	movdqa	%xmm1, 80(%rsp)
	decq	%r11
	movq	%rbx, 72(%rsp)
	cmpq	$4, %r10
	movq	%r11, 200(%rsp)
	jae	37f
	movq	72(%rsp), %rax
	movq	%rax, %rcx
	testq	%r10, %r10
	je	42f
31:
	movq	%rax, %rdx
	shlq	$6, %rdx
	movq	32(%rsp), %rsi
	leaq	(%rsi,%rdx), %rcx
	movdqu	(%rsi,%rdx), %xmm0
	pcmpeqb	80(%rsp), %xmm0
	pmovmskb	%xmm0, %edx
	andl	$4095, %edx
	je	36f
	movzwl	%dx, %edx
	jmp	35f
	.p2align	4
32:
	xorl	%r9d, %r9d
33:
	cmpq	%r10, %r9
	jae	45f
34:
	leal	-1(%rdx), %esi
	andl	%edx, %esi
	movl	%esi, %edx
	je	36f
35:
	rep		bsfl	%edx, %esi
	movl	16(%rcx,%rsi,4), %esi
	shlq	$4, %rsi
	cmpq	8(%r12,%rsi), %r10
	jne	34b
	movq	(%r12,%rsi), %rsi
	movzbl	(%rbp), %r8d
	cmpb	(%rsi), %r8b
	jne	32b
	cmpq	$1, %r10
	je	45f
	movzbl	1(%rbp), %r8d
	movl	$1, %r9d
	cmpb	1(%rsi), %r8b
	jne	33b
	cmpq	$2, %r10
	je	45f
	movzbl	2(%rbp), %r8d
	movl	$2, %r9d
	cmpb	2(%rsi), %r8b
	jne	33b
	jmp	45f
	.p2align	4
36:
	movl	104(%rsp), %edx
	testl	%edx, 12(%rcx)
	je	41f
	incq	%rax
	andq	%r11, %rax
	cmpq	72(%rsp), %rax
	jne	31b
	jmp	41f
	.p2align	4
37:
	movq	%rbx, %rax
	shlq	$6, %rax
	movq	32(%rsp), %rcx
	leaq	(%rcx,%rax), %r14
	movdqu	(%rcx,%rax), %xmm0
	pcmpeqb	80(%rsp), %xmm0
	pmovmskb	%xmm0, %eax
	andl	$4095, %eax
	je	40f
	movzwl	%ax, %r15d
	jmp	39f
	.p2align	4
38:
	leal	-1(%r15), %eax
	andl	%r15d, %eax
	movl	%eax, %r15d
	je	40f
39:
	rep		bsfl	%r15d, %eax
	movl	16(%r14,%rax,4), %eax
	shlq	$4, %rax
	cmpq	8(%r12,%rax), %r10
	jne	38b
	movq	(%r12,%rax), %rdx
	movl	(%rbp), %eax
	cmpl	(%rdx), %eax
	jne	38b
	movq	%rbp, %rdi
	movq	%r10, %rsi
	callq	"core::cmp::slices::groups_equal::<i8,31'core::cmp::numbers::U8PartialEq{}>"
	movq	48(%rsp), %r10
	testb	%al, %al
	je	38b
	jmp	1b
	.p2align	4
40:
	movl	104(%rsp), %eax
	testl	%eax, 12(%r14)
	movq	24(%rsp), %r15
	movq	200(%rsp), %r11
	je	41f
	incq	%rbx
	andq	%r11, %rbx
	cmpq	72(%rsp), %rbx
	jne	37b
	.p2align	4
41:
	cmpq	$8, %r10
	jb	46f
	movq	%r10, %rax
	shrq	%rax
	movq	-4(%rbp,%rax), %rax
	leaq	(%rax,%rax,2), %rax
	addq	-8(%rbp,%r10), %rax
	movabsq	$-4658895280553007687, %rcx
	imulq	%rcx, %rax
	shrq	$49, %rax
	andl	$-2, %eax
	jmp	47f
	.p2align	4
42:
	movq	%rcx, %rdx
	shlq	$6, %rdx
	movq	32(%rsp), %rsi
	leaq	(%rsi,%rdx), %rax
	movdqu	(%rsi,%rdx), %xmm0
	pcmpeqb	80(%rsp), %xmm0
	pmovmskb	%xmm0, %edx
	andl	$4095, %edx
	je	44f
	movzwl	%dx, %edx
	.p2align	4
43:
	rep		bsfl	%edx, %esi
	movl	16(%rax,%rsi,4), %esi
	shlq	$4, %rsi
	cmpq	$0, 8(%r12,%rsi)
	je	45f
	leal	-1(%rdx), %esi
	andl	%edx, %esi
	movl	%esi, %edx
	jne	43b
44:
	movl	104(%rsp), %edx
	testl	%edx, 12(%rax)
	je	41b
	incq	%rcx
	andq	%r11, %rcx
	cmpq	72(%rsp), %rcx
	jne	42b
	jmp	41b
	.p2align	4
45:
	movq	16(%rsp), %r9
	movq	8(%rsp), %r8
	jmp	2b
	.p2align	4
46:
	xorl	%eax, %eax
47:
	movq	56(%rsp), %rdx
	movq	216(%rdx), %rcx
	movzwl	(%rcx,%rax), %ebx
	cmpq	%rbx, 248(%rdx)
	jbe	77f
	movq	200(%rdx), %r9
	movq	208(%rdx), %r11
	movq	240(%rdx), %r14
	shll	$5, %ebx
	cmpq	%r10, 8(%r14,%rbx)
	movq	%r9, 32(%rsp)
	movq	%r11, 80(%rsp)
	jne	52f
	movq	(%r14,%rbx), %rdi
	cmpq	$4, %r10
	jae	48f
	testq	%r10, %r10
	je	49f
	movzbl	(%rdi), %eax
	cmpb	(%rbp), %al
	jne	50f
	cmpq	$1, %r10
	je	49f
	movzbl	1(%rdi), %ecx
	movl	$1, %eax
	cmpb	1(%rbp), %cl
	jne	51f
	cmpq	$2, %r10
	je	49f
	movzbl	2(%rdi), %ecx
	movl	$2, %eax
	cmpb	2(%rbp), %cl
	je	49f
	jmp	51f
48:
	movl	(%rdi), %eax
	cmpl	(%rbp), %eax
	jne	52f
	movq	%r10, %rsi
	movq	%rbp, %rdx
	callq	"core::cmp::slices::groups_equal::<i8,31'core::cmp::numbers::U8PartialEq{}>"
	movq	80(%rsp), %r11
	movq	32(%rsp), %r9
	movq	48(%rsp), %r10
	testb	%al, %al
	je	52f
49:
	movq	16(%r14,%rbx), %r15
	movq	56(%rsp), %r14
	movq	40(%rsp), %r8
	jmp	55f
50:
	xorl	%eax, %eax
51:
	cmpq	%r10, %rax
	jae	49b
52:
	cmpb	$1, 24(%r14,%rbx)
	jne	77f
	movq	224(%rsp), %rdi
	movq	%rbp, %rsi
	movq	%r10, %rdx
	callq	"mime_lookup::name_map::other_value::<i64,23'core::clone::UsizeClone{}>"
	cmpb	$1, %al
	movq	56(%rsp), %r14
	movq	40(%rsp), %r8
	jne	79f
	movq	%rdx, %r15
	movq	48(%rsp), %r10
	movq	32(%rsp), %r9
	movq	80(%rsp), %r11
	jmp	55f
	.p2align	4
53:
	movq	$1, 128(%rsp)
	movq	%r13, 136(%rsp)
	movq	%r12, 144(%rsp)
54:
	notq	%r15
	addq	%r11, %r15
	movq	376(%r14), %rax
	shlq	$4, %r15
	cmpb	$1, (%rax,%r15)
	movq	8(%rax,%r15), %r15
	jne	78f
55:
	leaq	(%r15,%r15,2), %rcx
	shlq	$5, %rcx
	leaq	(%r9,%rcx), %rax
	cmpb	$0, 48(%r9,%rcx)
	je	58f
	movq	56(%rax), %r13
	addq	$64, %rax
	movq	(%rax), %r12
	cmpq	$8, %r12
	movq	%r8, 40(%rsp)
	jb	59f
56:
	movq	%r12, %rax
	shrq	%rax
	movq	-4(%r13,%rax), %rax
	leaq	(%rax,%rax,2), %rax
	addq	-8(%r13,%r12), %rax
	movabsq	$-4658895280553007687, %rcx
	imulq	%rcx, %rax
	shrq	$49, %rax
	andl	$-2, %eax
	movq	16(%r14), %rcx
	movzwl	(%rcx,%rax), %ebx
	cmpq	%rbx, 48(%r14)
	ja	60f
57:
	movq	40(%rsp), %r8
	cmpb	$1, 128(%rsp)
	jne	53b
	jmp	69f
	.p2align	4
58:
	leaq	(%r9,%rcx), %r13
	addq	$56, %r13
	addq	$88, %rax
	movq	(%rax), %r12
	cmpq	$8, %r12
	movq	%r8, 40(%rsp)
	jae	56b
59:
	xorl	%eax, %eax
	movq	16(%r14), %rcx
	movzwl	(%rcx,%rax), %ebx
	cmpq	%rbx, 48(%r14)
	jbe	57b
60:
	movq	40(%r14), %r14
	shll	$5, %ebx
	cmpq	%r12, 8(%r14,%rbx)
	jne	65f
	movq	(%r14,%rbx), %rdi
	cmpq	$4, %r12
	jae	62f
	testq	%r12, %r12
	je	63f
	movzbl	(%rdi), %eax
	cmpb	(%r13), %al
	jne	64f
	cmpq	$1, %r12
	je	63f
	movzbl	1(%rdi), %ecx
	movl	$1, %eax
	cmpb	1(%r13), %cl
	jne	61f
	cmpq	$2, %r12
	je	63f
	movzbl	2(%rdi), %ecx
	movl	$2, %eax
	cmpb	2(%r13), %cl
	je	63f
61:
	cmpq	%r12, %rax
	jae	63f
	jmp	65f
62:
	movl	(%rdi), %eax
	cmpl	(%r13), %eax
	jne	65f
	movq	%r12, %rsi
	movq	%r13, %rdx
	callq	"core::cmp::slices::groups_equal::<i8,31'core::cmp::numbers::U8PartialEq{}>"
	movq	80(%rsp), %r11
	movq	32(%rsp), %r9
	movq	48(%rsp), %r10
	testb	%al, %al
	je	65f
63:
	movq	16(%r14,%rbx), %rdx
	movq	56(%rsp), %r14
	jmp	66f
64:
	xorl	%eax, %eax
	cmpq	%r12, %rax
	jae	63b
	.p2align	4
65:
	cmpb	$1, 24(%r14,%rbx)
	jne	67f
	movq	240(%rsp), %rdi
	movq	%r13, %rsi
	movq	%r12, %rdx
	callq	"mime_lookup::name_map::other_value::<i64,23'core::clone::UsizeClone{}>"
	movq	80(%rsp), %r11
	movq	32(%rsp), %r9
	movq	48(%rsp), %r10
	cmpb	$1, %al
	movq	56(%rsp), %r14
	movq	40(%rsp), %r8
	jne	68f
66:
	movq	(%r14), %rcx
	leaq	(%rdx,%rdx,2), %rdx
	shlq	$5, %rdx
	leaq	(%rcx,%rdx), %rax
	cmpb	$0, 48(%rcx,%rdx)
	je	72f
	movq	56(%rax), %r13
	addq	$64, %rax
	jmp	73f
67:
	movq	56(%rsp), %r14
	movq	40(%rsp), %r8
	.p2align	4
68:
	cmpb	$1, 128(%rsp)
	jne	53b
69:
	movq	168(%rsp), %rsi
	cmpq	%rsi, %r8
	jae	74f
	movq	176(%rsp), %rdx
	movq	184(%rsp), %rax
	movq	%r8, %rcx
	subq	%rax, %rcx
	subq	%rdx, %rsi
	cmpq	%rsi, %rcx
	jae	70f
	addq	%rdx, %rcx
	shlq	$4, %rcx
	movq	112(%rsp), %rax
	movq	%r13, (%rax,%rcx)
	movq	%r12, 8(%rax,%rcx)
	jmp	71f
	.p2align	4
70:
	movq	%rax, %rcx
	shlq	$4, %rcx
	movq	112(%rsp), %rdx
	movq	%r13, (%rdx,%rcx)
	movq	%r12, 8(%rdx,%rcx)
	incq	%rax
	movq	%rax, 184(%rsp)
71:
	incq	%r8
	movq	%r8, 160(%rsp)
	movq	%r8, 208(%rsp)
	jmp	54b
72:
	leaq	(%rcx,%rdx), %r13
	addq	$56, %r13
	addq	$88, %rax
73:
	movq	40(%rsp), %r8
	movq	(%rax), %r12
	cmpb	$1, 128(%rsp)
	jne	53b
	jmp	69b
74:
	leaq	152(%rsp), %rdi
	callq	"std_alloc::vec::deque::VecDeque::grow::<#25095d740b27081c>"
	testb	%al, %al
	je	105f
	movq	152(%rsp), %rdi
	movq	160(%rsp), %r8
	movq	184(%rsp), %rax
	movq	%r8, %rdx
	subq	%rax, %rdx
	movq	168(%rsp), %rsi
	movq	176(%rsp), %rcx
	subq	%rcx, %rsi
	cmpq	%rsi, %rdx
	movq	32(%rsp), %r9
	movq	80(%rsp), %r11
	movq	%rdi, 112(%rsp)
	jae	75f
	addq	%rdx, %rcx
	shlq	$4, %rcx
	movq	%r13, (%rdi,%rcx)
	movq	%r12, 8(%rdi,%rcx)
	jmp	76f
75:
	movq	%rax, %rcx
	shlq	$4, %rcx
	movq	%r13, (%rdi,%rcx)
	movq	%r12, 8(%rdi,%rcx)
	incq	%rax
	movq	%rax, 184(%rsp)
76:
	movq	48(%rsp), %r10
	jmp	71b
	.p2align	4
77:
	movq	40(%rsp), %r8
	movabsq	$-7046029254386353129, %r9
	testq	%r10, %r10
	movq	%r8, 40(%rsp)
	jne	80f
	jmp	84f
78:
	movq	24(%rsp), %r15
	movq	104(%r15), %rax
	xorq	%r10, %rax
	movabsq	$-7046029254386353147, %rcx
	mulq	%rcx
	movq	%rdx, %r13
	xorq	%rax, %r13
	movabsq	$-7046029254386353129, %r9
	testq	%r10, %r10
	movq	%r8, 40(%rsp)
	jne	80f
	jmp	84f
79:
	movq	24(%rsp), %r15
	movq	48(%rsp), %r10
	movabsq	$-7046029254386353129, %r9
	testq	%r10, %r10
	movq	%r8, 40(%rsp)
	je	84f
	.p2align	4
80:
	cmpq	$1, %r10
	jne	81f
	xorl	%ecx, %ecx
	jmp	83f
81:
	movq	%r10, %rsi
	andq	$-2, %rsi
	xorl	%ecx, %ecx
	.p2align	4
82:
	movzbl	(%rbp,%rcx), %eax
	imulq	$65793, %rax, %rax
	xorq	%r13, %rax
	mulq	%r9
	movzbl	1(%rbp,%rcx), %edi
	imulq	$65793, %rdi, %rdi
	xorq	%rdx, %rdi
	xorq	%rdi, %rax
	mulq	%r9
	movq	%rdx, %r13
	xorq	%rax, %r13
	addq	$2, %rcx
	cmpq	%rcx, %rsi
	jne	82b
	testb	$1, %r10b
	je	84f
83:
	movzbl	(%rbp,%rcx), %eax
	imulq	$65793, %rax, %rax
	xorq	%r13, %rax
	mulq	%r9
	movq	%rdx, %r13
	xorq	%rax, %r13
84:
	movq	%r13, %rax
	shrq	$32, %rax
	xorq	%r13, %rax
	movq	%rax, 216(%rsp)
	movq	8(%r15), %rax
	movq	%rax, 232(%rsp)
	movq	48(%r15), %r12
	movq	56(%r15), %rax
	movq	%rax, 192(%rsp)
	testq	%rax, %rax
	je	94f
	movq	24(%rsp), %rax
	movq	(%rax), %r15
	movq	216(%rsp), %rdx
	movl	%edx, %ecx
	shrl	$24, %ecx
	cmpb	$1, %cl
	adcl	$0, %ecx
	movl	$4294967295, %eax
	movq	192(%rsp), %rsi
	leal	(%rsi,%rax), %r14d
	andl	%edx, %r14d
	movd	%ecx, %xmm1
	movl	$1, %eax
	shll	%cl, %eax
	movl	%eax, 72(%rsp)
	pxor	%xmm0, %xmm0
	pshufb	%xmm0, %xmm1
	movdqa	%xmm1, 80(%rsp)
	leaq	-1(%rsi), %rax
	movq	%rax, 200(%rsp)
	movq	%r14, 104(%rsp)
85:
	movq	%r14, %rax
	shlq	$6, %rax
	leaq	(%r12,%rax), %rcx
	movq	%rcx, 32(%rsp)
	movdqu	(%r12,%rax), %xmm0
	pcmpeqb	80(%rsp), %xmm0
	pmovmskb	%xmm0, %r13d
	andl	$4095, %r13d
	je	87f
	movq	32(%rsp), %rax
	leaq	16(%rax), %rbx
	cmpq	$4, %r10
	jae	89f
	testq	%r10, %r10
	jne	93f
	.p2align	4
86:
	rep		bsfl	%r13d, %eax
	movl	(%rbx,%rax,4), %eax
	shlq	$4, %rax
	cmpq	$0, 8(%r15,%rax)
	je	1b
	leal	-1(%r13), %eax
	andl	%r13d, %eax
	movl	%eax, %r13d
	jne	86b
	.p2align	4
87:
	movl	72(%rsp), %eax
	movq	32(%rsp), %rcx
	testl	%eax, 12(%rcx)
	je	94f
	incq	%r14
	andq	200(%rsp), %r14
	cmpq	104(%rsp), %r14
	jne	85b
	jmp	94f
	.p2align	4
88:
	leal	-1(%r13), %eax
	andl	%r13d, %eax
	movl	%eax, %r13d
	je	87b
89:
	rep		bsfl	%r13d, %eax
	movl	(%rbx,%rax,4), %eax
	shlq	$4, %rax
	cmpq	8(%r15,%rax), %r10
	jne	88b
	movq	(%r15,%rax), %rdx
	movl	(%rbp), %eax
	cmpl	(%rdx), %eax
	jne	88b
	movq	%rbp, %rdi
	movq	%r10, %rsi
	callq	"core::cmp::slices::groups_equal::<i8,31'core::cmp::numbers::U8PartialEq{}>"
	movq	48(%rsp), %r10
	testb	%al, %al
	je	88b
	jmp	1b
	.p2align	4
90:
	xorl	%ecx, %ecx
91:
	cmpq	%r10, %rcx
	jae	1b
92:
	leal	-1(%r13), %eax
	andl	%r13d, %eax
	movl	%eax, %r13d
	je	87b
93:
	rep		bsfl	%r13d, %eax
	movl	(%rbx,%rax,4), %eax
	shlq	$4, %rax
	cmpq	8(%r15,%rax), %r10
	jne	92b
	movq	(%r15,%rax), %rax
	movzbl	(%rbp), %ecx
	cmpb	(%rax), %cl
	jne	90b
	cmpq	$1, %r10
	je	1b
	movzbl	1(%rbp), %edx
	movl	$1, %ecx
	cmpb	1(%rax), %dl
	jne	91b
	cmpq	$2, %r10
	je	1b
	movzbl	2(%rbp), %edx
	movl	$2, %ecx
	cmpb	2(%rax), %dl
	jne	91b
	jmp	1b
	.p2align	4
94:
	movq	24(%rsp), %r15
	movq	16(%r15), %rax
	movq	40(%r15), %rcx
	cmpq	%rax, %rcx
	cmovbq	%rcx, %rax
	xorl	%ecx, %ecx
	subq	232(%rsp), %rax
	cmovaeq	%rax, %rcx
	movq	96(%r15), %rax
	cmpq	%rax, %rcx
	cmovaeq	%rax, %rcx
	testq	%rcx, %rcx
	jne	95f
	movq	%r15, %rdi
	callq	"indexmap::map::IndexMap::grow::<#89aee5ca7bf01086>"
	testb	%al, %al
	jne	105f
	movq	24(%rsp), %r15
	movq	48(%r15), %r12
	movq	56(%r15), %rax
	movq	%rax, 192(%rsp)
95:
	movq	80(%r15), %rsi
	movq	216(%rsp), %r8
	movl	%r8d, %eax
	movl	$4294967295, %ecx
	movq	192(%rsp), %rbx
	leal	(%rbx,%rcx), %edx
	andl	%r8d, %edx
	shrl	$24, %r8d
	cmpb	$1, %r8b
	adcl	$0, %r8d
	movl	$1, %edi
	movq	%r8, %r13
	movl	%r8d, %ecx
	shll	%cl, %edi
	decq	%rbx
	movq	16(%rsp), %r9
	movq	8(%rsp), %r8
	movq	304(%rsp), %r11
	movq	(%rsp), %r14
	.p2align	4
96:
	movq	%rdx, %r10
	shlq	$6, %r10
	leaq	(%r12,%r10), %rcx
	movdqu	(%r12,%r10), %xmm0
	pxor	%xmm1, %xmm1
	pcmpeqb	%xmm0, %xmm1
	pmovmskb	%xmm1, %r10d
	andl	$4095, %r10d
	jne	97f
	orl	%edi, 12(%rcx)
	incq	%rdx
	andq	%rbx, %rdx
	jmp	96b
	.p2align	4
97:
	rep		bsfl	%r10d, %edi
	movb	%r13b, (%rcx,%rdi)
	movl	%esi, 16(%rcx,%rdi,4)
	shll	$4, %edx
	movq	72(%r15), %rcx
	movq	80(%r15), %rsi
	orl	%edi, %edx
	shlq	$32, %rdx
	orq	%rax, %rdx
	movq	%rdx, (%rcx,%rsi,8)
	incq	%rsi
	movq	%rsi, 80(%r15)
	decq	96(%r15)
	movq	(%r15), %rax
	movq	8(%r15), %rcx
	movq	%rcx, %rdx
	shlq	$4, %rdx
	movq	%rbp, (%rax,%rdx)
	movq	48(%rsp), %rsi
	movq	%rsi, 8(%rax,%rdx)
	incq	%rcx
	movq	%rcx, 8(%r15)
	incq	32(%r15)
	jmp	3b
98:
	movq	%rax, %rsi
99:
	leaq	1(%rsi), %rdx
	addq	%rcx, %rdx
	movq	$-1, %rax
	cmovaeq	%rdx, %rax
	movq	%rax, 8(%r11)
	cmpq	$10, %r9
	jne	18b
	cmpq	$10, %rsi
	jne	18b
100:
	movb	$1, %bl
	cmpq	$0, 168(%rsp)
	je	103f
	movq	152(%rsp), %rdi
	callq	rattle_dealloc@PLT
	jmp	103f
101:
	cmpq	$0, 168(%rsp)
	je	102f
	movq	112(%rsp), %rdi
	callq	rattle_dealloc@PLT
102:
	xorl	%ebx, %ebx
103:
	xorl	%eax, %eax
104:
	movl	%ebx, %edx
	addq	$248, %rsp
	popq	%rbx
	popq	%r12
	popq	%r13
	popq	%r14
	popq	%r15
	popq	%rbp
	retq
105:
	movb	$1, %al
	cmpq	$0, 168(%rsp)
	je	106f
	movq	152(%rsp), %rdi
	callq	rattle_dealloc@PLT
	movb	$1, %al
106:
	xorl	%ebx, %ebx
	jmp	104b
107:
	.size	"mime_lookup::ancestry::is_a", 107b-"mime_lookup::ancestry::is_a"

	.text
	.p2align	4
	.type	"mime_lookup::cached::ancestry::climbs_to",@function
"mime_lookup::cached::ancestry::climbs_to":
	pushq	%rbp
	pushq	%r15
	pushq	%r14
	pushq	%r13
	pushq	%r12
	pushq	%rbx
	subq	$136, %rsp
	movq	%rdi, %rbx
	movq	200(%rsp), %rbp
	movq	192(%rsp), %r14
	xorps	%xmm0, %xmm0
	movaps	%xmm0, 48(%rsp)
	movq	$0, 64(%rsp)
	movaps	%xmm0, 80(%rsp)
	movq	$0, 96(%rsp)
	movaps	%xmm0, 16(%rsp)
	movq	$0, 32(%rsp)
	cmpb	$1, 104(%rsi)
	jne	1f
	movq	24(%rsi), %rdi
	movq	112(%rsi), %r10
	movabsq	$-6148914691236517205, %r11
	movq	%rdi, %rax
	movq	%rdx, %r15
	mulq	%r11
	movq	%rdx, %rax
	movq	%r15, %rdx
	shrq	$2, %rax
	shrq	$4, %rdi
	addq	%rax, %rdi
	movq	16(%rbp), %rax
	xorl	%r11d, %r11d
	subq	336(%r10), %rax
	cmovaeq	%rax, %r11
	cmpq	%r11, %rdi
	jbe	3f
1:
	movq	%rbp, 8(%rsp)
	movq	%r14, (%rsp)
	leaq	48(%rsp), %rdi
	callq	"mime_lookup::cached::ancestry::leads_to"
	movzbl	48(%rsp), %edx
	movzbl	49(%rsp), %eax
	movzbl	56(%rsp), %ecx
	movss	58(%rsp), %xmm0
	movq	64(%rsp), %rsi
2:
	movzbl	%cl, %ecx
	movb	%dl, (%rbx)
	movb	%al, 1(%rbx)
	movw	%cx, 8(%rbx)
	movss	%xmm0, 10(%rbx)
	movq	%rsi, 16(%rbx)
	addq	$136, %rsp
	popq	%rbx
	popq	%r12
	popq	%r13
	popq	%r14
	popq	%r15
	popq	%rbp
	retq
3:
	movq	%rsi, %r12
	movaps	%xmm0, 112(%rsp)
	leaq	112(%rsp), %rax
	movq	%rax, (%rsp)
	leaq	80(%rsp), %rdi
	movq	%r10, %rsi
	movq	%rcx, %rdx
	movq	%r8, %rcx
	movq	%r9, %r13
	movq	%r9, %r8
	movq	%r14, %r9
	callq	"mime_lookup::climb::climb::<#70fb81388c984f40>"
	cmpb	$0, 80(%rsp)
	je	4f
	movq	88(%rsp), %rcx
	movq	96(%rsp), %r8
	movq	%rbp, 8(%rsp)
	movq	%r14, (%rsp)
	leaq	16(%rsp), %rdi
	movq	%r12, %rsi
	movq	%r15, %rdx
	movq	%r13, %r9
	callq	"mime_lookup::cached::ancestry::leads_to"
	movzbl	16(%rsp), %edx
	movzbl	17(%rsp), %eax
	movzbl	24(%rsp), %ecx
	movss	26(%rsp), %xmm0
	movq	32(%rsp), %rsi
	jmp	2b
4:
	movzbl	81(%rsp), %eax
	xorl	%ecx, %ecx
	xorl	%esi, %esi
	xorl	%edx, %edx
	xorps	%xmm0, %xmm0
	jmp	2b
5:
	.size	"mime_lookup::cached::ancestry::climbs_to", 5b-"mime_lookup::cached::ancestry::climbs_to"

	.text
	.p2align	4
	.type	"mime_lookup::cached::ancestry::leads_to",@function
"mime_lookup::cached::ancestry::leads_to":
	pushq	%rbp
	pushq	%r15
	pushq	%r14
	pushq	%r13
	pushq	%r12
	pushq	%rbx
	subq	$392, %rsp
	movq	%rsi, 144(%rsp)
	movq	%rdi, 240(%rsp)
	movq	456(%rsp), %rdi
	movq	448(%rsp), %r10
	movq	$0, 168(%rsp)
	movq	%rsp, %rax
	movq	%rax, 192(%rsp)
	pxor	%xmm0, %xmm0
	movdqu	%xmm0, 200(%rsp)
	movdqu	%xmm0, 216(%rsp)
	movq	%rcx, 176(%rsp)
	movq	%r8, 184(%rsp)
	cmpq	$10, %r10
	movl	$10, %r8d
	cmovbq	%r10, %r8
	cmpq	$24, %r10
	movl	$24, %r11d
	cmovbq	%r10, %r11
	leaq	16(%rsi), %rax
	movq	%rax, 320(%rsp)
	movq	%rdx, 72(%rsp)
	leaq	16(%rdx), %rax
	movq	%rax, 64(%rsp)
	movb	$1, %sil
	movq	%r9, 312(%rsp)
	movq	%r8, 296(%rsp)
	movq	%r11, 304(%rsp)
1:
	movq	200(%rsp), %rax
	testq	%rax, %rax
	je	2f
	cmpq	%rax, 224(%rsp)
	jne	3f
	movq	$0, 224(%rsp)
	xorl	%ecx, %ecx
	jmp	4f
	.p2align	4
2:
	xorl	%eax, %eax
	xorl	%edx, %edx
	xorl	%ecx, %ecx
	jmp	5f
	.p2align	4
3:
	movq	216(%rsp), %rcx
4:
	leaq	1(%rcx), %rdx
	movq	%rdx, 216(%rsp)
	decq	%rax
	movq	%rax, 200(%rsp)
	movq	192(%rsp), %rax
	shlq	$4, %rcx
	movq	(%rax,%rcx), %rdx
	movq	8(%rax,%rcx), %rcx
	movl	$1, %eax
5:
	movq	176(%rsp), %rbp
	movq	184(%rsp), %r13
	movq	%rax, 168(%rsp)
	movq	%rdx, 176(%rsp)
	movq	%rcx, 184(%rsp)
	cmpb	$1, %sil
	jne	164f
	movl	%eax, %ebx
	cmpq	%r10, %r13
	movq	%r10, %rcx
	cmovbq	%r13, %rcx
	xorl	%eax, %eax
	.p2align	4
6:
	movq	%rcx, %rdx
	subq	%rax, %rdx
	cmpq	$8, %rdx
	jb	7f
	pmovzxbw	(%r9,%rax), %xmm0
	pmovzxbw	(%rbp,%rax), %xmm1
	pcmpeqw	%xmm0, %xmm1
	packsswb	%xmm1, %xmm1
	pmovmskb	%xmm1, %edx
	notl	%edx
	orl	$256, %edx
	rep		bsfl	%edx, %edx
	addq	%rdx, %rax
	cmpb	$7, %dl
	ja	6b
7:
	cmpq	%rcx, %rax
	jae	10f
	.p2align	4
8:
	movzbl	(%r9,%rax), %edx
	cmpb	(%rbp,%rax), %dl
	jne	9f
	incq	%rax
	cmpq	%rax, %rcx
	jne	8b
	jmp	10f
	.p2align	4
9:
	movq	%rax, %rcx
10:
	leaq	1(%rcx), %rdx
	addq	8(%rdi), %rdx
	movq	$-1, %rax
	cmovaeq	%rdx, %rax
	movq	%rax, 8(%rdi)
	movq	%rcx, %rdx
	xorq	%r10, %rdx
	xorq	%r13, %rcx
	orq	%rdx, %rcx
	je	161f
	cmpq	$5, %r13
	jb	17f
	movl	$1, %ecx
	cmpb	$116, (%rbp)
	jne	14f
	movl	$2, %ecx
	cmpb	$101, 1(%rbp)
	jne	14f
	movl	$3, %ecx
	cmpb	$120, 2(%rbp)
	jne	14f
	movl	$4, %ecx
	cmpb	$116, 3(%rbp)
	jne	14f
	movl	$5, %ecx
	cmpb	$47, 4(%rbp)
	jne	14f
	addq	$6, %rax
	movq	$-1, %rcx
	cmovaeq	%rax, %rcx
	movq	%rcx, 8(%rdi)
	xorl	%eax, %eax
	.p2align	4
11:
	movq	%r8, %rsi
	subq	%rax, %rsi
	leaq	.Laafe98300121(%rip), %rdx
	cmpq	$8, %rsi
	jb	12f
	pmovzxbw	(%rax,%rdx), %xmm0
	pmovzxbw	(%r9,%rax), %xmm1
	pcmpeqw	%xmm0, %xmm1
	packsswb	%xmm1, %xmm1
	pmovmskb	%xmm1, %esi
	notl	%esi
	orl	$256, %esi
	rep		bsfl	%esi, %esi
	addq	%rsi, %rax
	cmpb	$7, %sil
	ja	11b
12:
	movq	%r8, %rsi
	cmpq	%r8, %rax
	jae	115f
	.p2align	4
13:
	movzbl	(%rax,%rdx), %esi
	cmpb	(%r9,%rax), %sil
	jne	114f
	incq	%rax
	cmpq	%rax, %r8
	jne	13b
	movq	%r8, %rsi
	jmp	115f
	.p2align	4
14:
	addq	%rax, %rcx
	movq	$-1, %rax
	cmovaeq	%rcx, %rax
	movq	%rax, 8(%rdi)
15:
	cmpq	$5, %r13
	je	17f
	movl	$1, %ecx
	cmpb	$105, (%rbp)
	jne	16f
	movl	$2, %ecx
	cmpb	$110, 1(%rbp)
	jne	16f
	movl	$3, %ecx
	cmpb	$111, 2(%rbp)
	jne	16f
	movl	$4, %ecx
	cmpb	$100, 3(%rbp)
	jne	16f
	movl	$5, %ecx
	cmpb	$101, 4(%rbp)
	jne	16f
	movl	$6, %ecx
	cmpb	$47, 5(%rbp)
	jne	16f
	addq	$7, %rax
	movq	$-1, %rcx
	cmovaeq	%rax, %rcx
	movq	%rcx, 16(%rsp)
	movq	%rcx, 8(%rdi)
	jmp	23f
	.p2align	4
16:
	addq	%rax, %rcx
	movq	$-1, %rax
	cmovaeq	%rcx, %rax
	movq	%rax, 8(%rdi)
17:
	xorl	%ecx, %ecx
	.p2align	4
18:
	movq	%r11, %rsi
	subq	%rcx, %rsi
	leaq	.L67248b46a1a0(%rip), %rdx
	cmpq	$8, %rsi
	jb	19f
	pmovzxbw	(%rcx,%rdx), %xmm0
	pmovzxbw	(%r9,%rcx), %xmm1
	pcmpeqw	%xmm0, %xmm1
	packsswb	%xmm1, %xmm1
	pmovmskb	%xmm1, %esi
	notl	%esi
	orl	$256, %esi
	rep		bsfl	%esi, %esi
	addq	%rsi, %rcx
	cmpb	$7, %sil
	ja	18b
19:
	movq	%r11, %rsi
	cmpq	%r11, %rcx
	jae	22f
	.p2align	4
20:
	movzbl	(%rcx,%rdx), %esi
	cmpb	(%r9,%rcx), %sil
	jne	21f
	incq	%rcx
	cmpq	%rcx, %r11
	jne	20b
	movq	%r11, %rsi
	jmp	22f
	.p2align	4
21:
	movq	%rcx, %rsi
22:
	leaq	1(%rsi), %rcx
	addq	%rax, %rcx
	movq	$-1, %rax
	cmovaeq	%rcx, %rax
	movq	%rax, 16(%rsp)
	movq	%rax, 8(%rdi)
	cmpq	$24, %r10
	jne	23f
	cmpq	$24, %rsi
	je	161f
23:
	pxor	%xmm1, %xmm1
	movdqa	%xmm1, 368(%rsp)
	pxor	%xmm0, %xmm0
	movdqa	%xmm0, 272(%rsp)
	movdqa	%xmm1, 352(%rsp)
	movq	$0, 384(%rsp)
	movq	144(%rsp), %rcx
	movl	40(%rcx), %r12d
	movq	(%rdi), %rax
	movq	16(%rdi), %r9
	movq	24(%rdi), %r10
	leaq	4(%r12), %rdx
	movq	24(%rcx), %rsi
	incq	%rax
	movq	$-1, %r14
	cmovneq	%rax, %r14
	movb	$3, %dil
	cmpq	%rdx, %rsi
	jb	167f
	movb	%bl, 80(%rsp)
	movq	320(%rsp), %rax
	movq	(%rax), %rbx
	movl	(%rbx,%r12), %eax
	movl	%eax, %r15d
	bswapl	%r15d
	leaq	(%rdx,%r15,8), %rcx
	cmpq	%rcx, %rsi
	movq	16(%rsp), %r11
	jb	182f
	testl	%eax, %eax
	je	60f
	movdqa	%xmm0, 256(%rsp)
	cmpq	$15, %r13
	movq	%r10, 32(%rsp)
	movq	%rsi, 24(%rsp)
	movq	%r9, 40(%rsp)
	ja	24f
	movq	%rdx, %r12
	leaq	256(%rsp), %rdi
	movq	%rbp, %rsi
	movq	%r13, %rdx
	callq	memcpy@PLT
	movq	%r12, %rdx
	movq	24(%rsp), %rsi
	movq	16(%rsp), %r11
	jmp	25f
	.p2align	4
24:
	movdqu	(%rbp), %xmm0
	movdqa	%xmm0, 256(%rsp)
25:
	movaps	256(%rsp), %xmm0
	leaq	112(%rsp), %rax
	movups	%xmm0, (%rax)
	addq	%rbx, %rdx
	movq	%rdx, 16(%rsp)
	movzbl	112(%rsp), %eax
	movb	%al, 88(%rsp)
	movdqu	112(%rsp), %xmm0
	xorl	%r8d, %r8d
	movl	$0, 8(%rsp)
	jmp	30f
26:
	testb	%dl, %dl
	je	55f
27:
	movl	$0, 8(%rsp)
	movq	%rdi, %r15
28:
	movq	24(%rsp), %rsi
29:
	cmpq	%r15, %r8
	jae	58f
30:
	movq	%r14, %rax
	leaq	(%r15,%r8), %rdi
	shrq	%rdi
	movq	%r14, %rcx
	incq	%rcx
	movq	$-1, %r14
	cmovneq	%rcx, %r14
	movq	16(%rsp), %rcx
	movl	(%rcx,%rdi,8), %r12d
	bswapl	%r12d
	movq	%rsi, %r10
	subq	%r12, %r10
	jbe	154f
	leaq	(%rbx,%r12), %r9
	cmpq	$16, %r10
	jae	32f
31:
	testq	%r13, %r13
	je	42f
	movzbl	(%r9), %ecx
	cmpb	(%rbp), %cl
	jne	36f
	cmpq	$8, %r13
	jb	42f
	cmpq	$33, %r10
	jb	42f
	cmpq	$15, %r13
	ja	40f
	movq	(%r9), %xmm3
	movq	(%rbp), %xmm4
	pcmpeqb	%xmm3, %xmm4
	pcmpeqd	%xmm2, %xmm2
	pxor	%xmm2, %xmm4
	pxor	%xmm1, %xmm1
	pcmpeqb	%xmm1, %xmm3
	por	%xmm4, %xmm3
	pmovmskb	%xmm3, %ecx
	orl	$256, %ecx
	rep		bsfl	%ecx, %edx
	cmpb	$8, %dl
	jb	37f
	leaq	-8(%r13), %r10
	movq	(%r9,%r10), %xmm3
	movq	(%rbp,%r10), %xmm4
	pcmpeqb	%xmm3, %xmm4
	pxor	%xmm2, %xmm4
	pcmpeqb	%xmm3, %xmm1
	por	%xmm4, %xmm1
	pmovmskb	%xmm1, %ecx
	orl	$256, %ecx
	jmp	41f
	.p2align	4
32:
	movzbl	(%r9), %edx
	cmpb	88(%rsp), %dl
	jne	33f
	movdqu	(%r9), %xmm1
	pxor	%xmm2, %xmm2
	pcmpeqb	%xmm1, %xmm2
	pcmpeqb	%xmm0, %xmm1
	pcmpeqd	%xmm3, %xmm3
	pxor	%xmm1, %xmm3
	por	%xmm3, %xmm2
	pmovmskb	%xmm2, %ecx
	testl	%ecx, %ecx
	je	31b
	rep		bsfl	%ecx, %esi
	movzbl	(%r9,%rsi), %edx
	jmp	34f
	.p2align	4
33:
	xorl	%esi, %esi
34:
	movzbl	112(%rsp,%rsi), %ecx
	leaq	1(%rsi), %r9
	addq	%r11, %r9
	movq	$-1, %r11
	cmovaeq	%r9, %r11
	cmpb	%cl, %dl
	jne	35f
	cmpq	%r13, %rsi
	je	26b
	testb	%dl, %dl
	je	53f
	cmpb	(%rbp,%rsi), %dl
35:
	jae	27b
	jmp	53f
36:
	xorl	%edx, %edx
37:
	leaq	1(%rdx), %rcx
	addq	%r11, %rcx
	movq	$-1, %r11
	cmovaeq	%rcx, %r11
	movzbl	(%r9,%rdx), %ecx
	cmpq	%r13, %rdx
	jne	38f
	testb	%cl, %cl
	jne	39f
	jmp	56f
38:
	testb	%cl, %cl
	je	54f
	cmpb	(%rbp,%rdx), %cl
	jb	54f
39:
	movl	$0, 8(%rsp)
	jmp	57f
40:
	cmpq	$32, %r13
	ja	42f
	movdqu	(%r9), %xmm3
	movdqu	(%rbp), %xmm4
	pcmpeqb	%xmm3, %xmm4
	pcmpeqd	%xmm2, %xmm2
	pxor	%xmm2, %xmm4
	pxor	%xmm1, %xmm1
	pcmpeqb	%xmm1, %xmm3
	por	%xmm4, %xmm3
	pmovmskb	%xmm3, %ecx
	orl	$65536, %ecx
	rep		bsfl	%ecx, %edx
	cmpw	$16, %dx
	jb	37b
	leaq	-16(%r13), %r10
	movdqu	(%r9,%r10), %xmm3
	movdqu	(%rbp,%r10), %xmm4
	pcmpeqb	%xmm3, %xmm4
	pxor	%xmm2, %xmm4
	pcmpeqb	%xmm3, %xmm1
	por	%xmm4, %xmm1
	pmovmskb	%xmm1, %ecx
	orl	$65536, %ecx
41:
	rep		bsfl	%ecx, %edx
	addq	%r10, %rdx
	jmp	37b
	.p2align	4
42:
	movq	%r8, 48(%rsp)
	movq	%r11, %r8
	cmpq	$256, %r10
	movl	$256, %ecx
	cmovbq	%r10, %rcx
	cmpq	%rcx, %r13
	movq	%rcx, %rsi
	cmovbq	%r13, %rsi
	xorl	%r11d, %r11d
	.p2align	4
43:
	movq	%rsi, %rdx
	subq	%r11, %rdx
	cmpq	$16, %rdx
	jb	44f
	movdqu	(%r9,%r11), %xmm1
	movdqu	(%rbp,%r11), %xmm2
	pcmpeqb	%xmm1, %xmm2
	pcmpeqd	%xmm3, %xmm3
	pxor	%xmm2, %xmm3
	pxor	%xmm2, %xmm2
	pcmpeqb	%xmm1, %xmm2
	por	%xmm3, %xmm2
	pmovmskb	%xmm2, %edx
	orl	$65536, %edx
	rep		bsfl	%edx, %edx
	addq	%rdx, %r11
	cmpw	$15, %dx
	ja	43b
	movq	%rsi, %rdx
	subq	%r11, %rdx
44:
	cmpq	$8, %rdx
	jb	45f
	movl	%r11d, %edx
	andl	$15, %edx
	jne	45f
	movq	(%r9,%r11), %xmm1
	movq	(%rbp,%r11), %xmm2
	pcmpeqb	%xmm1, %xmm2
	pcmpeqd	%xmm3, %xmm3
	pxor	%xmm2, %xmm3
	pxor	%xmm2, %xmm2
	pcmpeqb	%xmm1, %xmm2
	por	%xmm3, %xmm2
	pmovmskb	%xmm2, %edx
	orl	$256, %edx
	rep		bsfl	%edx, %edx
	orq	%rdx, %r11
45:
	cmpq	%rsi, %r11
	jae	47f
	.p2align	4
46:
	movzbl	(%r9,%r11), %edx
	testb	%dl, %dl
	je	52f
	cmpb	(%rbp,%r11), %dl
	jne	51f
	incq	%r11
	cmpq	%r11, %rsi
	jne	46b
47:
	cmpq	%r13, %rcx
	jbe	163f
	cmpb	$0, (%r9,%rsi)
	je	49f
	movq	%rsi, %r11
48:
	incq	%r11
	addq	%r8, %r11
	movq	$-1, %rcx
	cmovaeq	%r11, %rcx
	movq	%rcx, %r11
	movl	$0, 8(%rsp)
	jmp	50f
49:
	incq	%rsi
	addq	%r8, %rsi
	movq	$-1, %r11
	cmovaeq	%rsi, %r11
	movb	$1, %cl
	movl	%ecx, 8(%rsp)
50:
	movq	%rdi, %r15
	movq	48(%rsp), %r8
	jmp	28b
51:
	jae	48b
52:
	incq	%r11
	addq	%r8, %r11
	movq	$-1, %rcx
	cmovaeq	%r11, %rcx
	movq	%rcx, %r11
53:
	movq	24(%rsp), %rsi
54:
	incq	%rdi
	movq	%rdi, %r8
	jmp	29b
55:
	movq	24(%rsp), %rsi
56:
	movb	$1, %cl
	movl	%ecx, 8(%rsp)
57:
	movq	%rdi, %r15
	jmp	29b
	.p2align	4
58:
	testb	$1, 8(%rsp)
	je	59f
	movq	%rax, %r14
	addq	$2, %r14
	movq	$-1, %rcx
	cmovbq	%rcx, %r14
	movq	16(%rsp), %rdx
	movl	4(%rdx,%r8,8), %r13d
	movq	72(%rsp), %rdx
	movzbl	(%rdx), %edx
	movb	%dl, 16(%rsp)
	cmpb	$1, %dl
	movq	144(%rsp), %rbp
	movq	32(%rsp), %r10
	movq	40(%rsp), %r9
	movq	%r8, 48(%rsp)
	jne	68f
	movq	%rsp, %r15
	movq	72(%rsp), %rdx
	cmpl	%r8d, 4(%rdx)
	jne	61f
	movb	$1, %dl
	xorl	%r12d, %r12d
	xorl	%ecx, %ecx
	movq	456(%rsp), %rax
	jmp	96f
59:
	movq	296(%rsp), %r8
60:
	movq	456(%rsp), %rdi
	movq	%r14, (%rdi)
	movq	%r11, 8(%rdi)
	movq	312(%rsp), %r9
	movq	448(%rsp), %r10
	movq	304(%rsp), %r11
	movzbl	80(%rsp), %esi
	jmp	1b
61:
	cmpb	$1, 8(%rdx)
	jne	68f
	movq	64(%rsp), %rdx
	movq	(%rdx), %rdx
	movzwl	(%rdx), %edi
	testq	%rdi, %rdi
	je	66f
62:
	movq	%r9, %r15
	xorl	%esi, %esi
	.p2align	4
63:
	movl	4(%rdx,%rsi,4), %r8d
	movq	48(%rsp), %r12
	cmpl	%r12d, %r8d
	setbe	%r9b
	addb	%r9b, %r9b
	cmpl	%r12d, %r8d
	movzbl	%r9b, %r8d
	movl	$1, %r9d
	cmovnel	%r8d, %r9d
	cmpb	$2, %r9b
	jne	64f
	incq	%rsi
	cmpq	%rsi, %rdi
	jne	63b
	movq	%rdi, %rsi
	jmp	65f
64:
	movzbl	%r9b, %edi
	testl	%edi, %edi
	jne	86f
65:
	movq	%r15, %r9
	movq	48(%rsp), %r8
	shlq	$3, %rsi
	jmp	67f
66:
	xorl	%esi, %esi
67:
	cmpw	$0, 2(%rdx)
	je	68f
	addq	%rsi, %rdx
	addq	$64, %rdx
	movq	(%rdx), %rdx
	movzwl	(%rdx), %edi
	testq	%rdi, %rdi
	jne	62b
	jmp	66b
68:
	bswapl	%r13d
	leaq	4(%r13), %rdx
	movq	%rax, %r14
	addq	$3, %r14
	cmovbq	%rcx, %r14
	movb	$3, %dil
	movq	24(%rsp), %rcx
	cmpq	%rdx, %rcx
	jb	172f
	movq	%rcx, %rdi
	movq	%r13, %r15
	movl	(%rbx,%r13), %esi
	movl	%esi, %ecx
	bswapl	%ecx
	movq	%rcx, %r12
	leaq	(%rdx,%rcx,4), %rcx
	cmpq	%rcx, %rdi
	jb	173f
	cmpl	$16777216, %esi
	movl	%esi, 252(%rsp)
	jne	70f
	testq	%r9, %r9
	je	175f
	decq	%r9
	addq	$4, %rax
	movq	$-1, %r14
	cmovaeq	%rax, %r14
	movl	(%rbx,%rdx), %r12d
	bswapl	%r12d
	movq	24(%rsp), %rbp
	subq	%r12, %rbp
	jbe	174f
	movq	%rbx, %rsi
	addq	%r12, %rsi
	cmpq	$32, %rbp
	jae	79f
69:
	movq	%r9, 40(%rsp)
	movq	%r11, %r15
	cmpq	$256, %rbp
	movl	$256, %r13d
	cmovbq	%rbp, %r13
	xorl	%edi, %edi
	movq	%rsi, %rbx
	movq	%r13, %rdx
	callq	"memchr::bytes::memchr"
	cmpb	$1, %al
	jne	176f
	movq	%rdx, %rax
	incq	%rax
	addq	%r15, %rax
	movq	$-1, %r11
	cmovaeq	%rax, %r11
	movq	32(%rsp), %r10
	movq	40(%rsp), %r9
	movq	48(%rsp), %r8
	jmp	81f
70:
	movq	%rsp, %rax
	movq	%rax, 96(%rsp)
	pxor	%xmm0, %xmm0
	leaq	112(%rsp), %rcx
	movdqu	%xmm0, -8(%rcx)
	testl	%esi, %esi
	je	83f
	movq	%r9, %rax
	movq	%r12, %rsi
	subq	%r12, %rax
	movq	%rax, 56(%rsp)
	decq	%r9
	movq	%rsp, %rax
	movq	%rax, 80(%rsp)
	xorl	%r12d, %r12d
	movq	456(%rsp), %rbx
	movq	%r15, %rdx
	jmp	73f
	.p2align	4
71:
	movq	456(%rsp), %rbx
	movq	40(%rsp), %r9
	movq	24(%rsp), %r12
	movq	88(%rsp), %rdx
	movq	8(%rsp), %rsi
	cmpq	%r12, 112(%rsp)
	je	78f
72:
	movq	%r12, %rax
	shlq	$4, %rax
	movq	80(%rsp), %rcx
	movq	%r13, (%rcx,%rax)
	movq	%rbp, 8(%rcx,%rax)
	incq	%r12
	movq	%r12, 104(%rsp)
	decq	%r9
	addq	$4, %rdx
	decq	%rsi
	movq	72(%rsp), %rax
	movq	144(%rsp), %rbp
	je	113f
73:
	cmpq	$-1, %r9
	je	168f
	movq	%r12, 24(%rsp)
	movq	%r14, %rax
	incq	%rax
	movq	$-1, %r14
	cmovneq	%rax, %r14
	movq	16(%rbp), %r13
	movq	24(%rbp), %r15
	movl	4(%r13,%rdx), %r12d
	bswapl	%r12d
	subq	%r12, %r15
	jbe	169f
	addq	%r12, %r13
	cmpq	$32, %r15
	jae	75f
74:
	movq	%rsi, 8(%rsp)
	movq	%rdx, 88(%rsp)
	movq	%r9, 40(%rsp)
	movq	%r11, 16(%rsp)
	cmpq	$256, %r15
	movl	$256, %ebx
	cmovbq	%r15, %rbx
	xorl	%edi, %edi
	movq	%r13, %rsi
	movq	%rbx, %rdx
	callq	"memchr::bytes::memchr"
	cmpb	$1, %al
	jne	170f
	movq	%rdx, %rbp
	leaq	1(%rdx), %rax
	addq	16(%rsp), %rax
	movq	$-1, %r11
	movq	32(%rsp), %r10
	movq	48(%rsp), %r8
	jb	71b
	movq	%rax, %r11
	jmp	71b
75:
	movdqu	(%r13), %xmm1
	pxor	%xmm0, %xmm0
	pcmpeqb	%xmm0, %xmm1
	pmovmskb	%xmm1, %ecx
	movl	$64, %eax
	movl	$64, %ebp
	rep		bsfq	%rcx, %rbp
	cmpq	$16, %rbp
	jb	76f
	movdqu	16(%r13), %xmm1
	pcmpeqb	%xmm0, %xmm1
	pmovmskb	%xmm1, %ecx
	rep		bsfq	%rcx, %rax
	cmpq	$15, %rax
	ja	74b
	orq	$16, %rax
	movq	%rax, %rbp
76:
	leaq	1(%rbp), %rax
	addq	%r11, %rax
	movq	$-1, %r11
	jb	77f
	movq	%rax, %r11
77:
	movq	24(%rsp), %r12
	cmpq	%r12, 112(%rsp)
	jne	72b
78:
	movq	%rsi, 8(%rsp)
	movq	%rdx, %r15
	movq	%r9, 40(%rsp)
	movq	%r11, 16(%rsp)
	leaq	96(%rsp), %rdi
	callq	"std_alloc::vec::Vec::grow_amortized::<#25095d740b27081c>"
	testb	%al, %al
	je	177f
	movq	96(%rsp), %rax
	movq	%rax, 80(%rsp)
	movq	104(%rsp), %r12
	movq	16(%rsp), %r11
	movq	32(%rsp), %r10
	movq	40(%rsp), %r9
	movq	48(%rsp), %r8
	movq	%r15, %rdx
	movq	8(%rsp), %rsi
	jmp	72b
79:
	movq	%rsi, %rbx
	movdqu	(%rsi), %xmm1
	pxor	%xmm0, %xmm0
	pcmpeqb	%xmm0, %xmm1
	pmovmskb	%xmm1, %ecx
	movl	$64, %eax
	movl	$64, %edx
	rep		bsfq	%rcx, %rdx
	cmpq	$16, %rdx
	jb	80f
	movq	%rbx, %rsi
	movdqu	16(%rbx), %xmm1
	pcmpeqb	%xmm0, %xmm1
	pmovmskb	%xmm1, %ecx
	rep		bsfq	%rcx, %rax
	cmpq	$15, %rax
	ja	69b
	orq	$16, %rax
	movq	%rax, %rdx
80:
	leaq	1(%rdx), %rax
	addq	%r11, %rax
	movq	$-1, %r11
	cmovaeq	%rax, %r11
81:
	movq	%rdx, %r12
	xorl	%edx, %edx
	movq	%rbx, %r15
	movq	$0, 8(%rsp)
	movq	72(%rsp), %rax
	movq	144(%rsp), %rbp
	movzbl	16(%rsp), %ecx
	cmpb	$1, %cl
	jne	84f
82:
	movq	%r15, 88(%rsp)
	movq	%r12, 24(%rsp)
	movq	%rdx, 80(%rsp)
	cmpb	$1, 8(%rax)
	jne	87f
	movq	64(%rsp), %rax
	movq	(%rax), %rdx
	jmp	88f
83:
	movb	$1, %dl
	xorl	%r12d, %r12d
	movq	%rax, %r15
	movq	$0, 8(%rsp)
	movq	72(%rsp), %rax
	movzbl	16(%rsp), %ecx
	cmpb	$1, %cl
	je	82b
84:
	movl	$1, (%rax)
	movl	%r8d, 4(%rax)
	movq	456(%rsp), %rax
85:
	movq	8(%rsp), %rcx
	jmp	96f
86:
	movq	%r9, %rdx
	xorl	%r12d, %r12d
	xorl	%ecx, %ecx
	movq	456(%rsp), %rax
	movq	%r15, %r9
	movq	48(%rsp), %r8
	movq	%rsp, %r15
	jmp	96f
87:
	movl	$64, %edi
	movl	$8, %esi
	movq	%r11, %rbx
	movq	%r9, %r15
	callq	rattle_alloc@PLT
	movq	48(%rsp), %r8
	movq	%r15, %r9
	movq	32(%rsp), %r10
	movq	%rbx, %r11
	testb	$1, %al
	je	181f
	movl	$0, (%rdx)
	movq	72(%rsp), %rcx
	movzbl	8(%rcx), %eax
	movq	$1, 8(%rcx)
	movq	%rdx, 16(%rcx)
	cmpb	$1, %al
	je	183f
88:
	movzwl	2(%rdx), %eax
	movl	$15, %r12d
	subq	%rax, %r12
	movq	%rax, 136(%rsp)
	movl	%eax, %edi
	negb	%dil
	xorl	%ebp, %ebp
	movq	%rdx, %rsi
	xorl	%r13d, %r13d
	movq	%rdx, 128(%rsp)
	movq	%rdx, %rbx
	movq	%r12, 160(%rsp)
	xorl	%r15d, %r15d
	movq	%rsi, %rcx
	movzwl	(%rsi), %esi
	testq	%rsi, %rsi
	je	93f
89:
	movb	%dil, 56(%rsp)
	movq	%rbp, %rdx
	movq	%rbx, %rbp
	xorl	%eax, %eax
	.p2align	4
90:
	movl	4(%rcx,%rax,4), %edi
	cmpl	%r8d, %edi
	movq	%r8, %rbx
	setbe	%r8b
	addb	%r8b, %r8b
	cmpl	%ebx, %edi
	movzbl	%r8b, %r8d
	movl	$1, %edi
	cmovnel	%r8d, %edi
	cmpb	$2, %dil
	jne	91f
	incq	%rax
	cmpq	%rax, %rsi
	movq	48(%rsp), %r8
	jne	90b
	movq	%rsi, %rax
	jmp	92f
91:
	movzbl	%dil, %esi
	testl	%esi, %esi
	movq	48(%rsp), %r8
	jne	95f
92:
	movq	%rbp, %rbx
	movq	%rdx, %rbp
	movzbl	56(%rsp), %edi
	jmp	94f
93:
	xorl	%eax, %eax
94:
	shlq	$4, %r15
	addq	%rax, %r15
	incq	%r12
	cmpw	$0, 2(%rcx)
	je	116f
	movq	64(%rcx,%rax,8), %rsi
	incq	%rbp
	incb	%dil
	movq	%rax, %r13
	movq	%rcx, %rbx
	movq	%rsi, %rcx
	movzwl	(%rsi), %esi
	testq	%rsi, %rsi
	jne	89b
	jmp	93b
95:
	andl	$15, %eax
	movq	136(%rsp), %rcx
	addq	%r12, %rcx
	cmpq	$15, %rcx
	leaq	64(%rbp,%r13,8), %rcx
	cmoveq	64(%rsp), %rcx
	movq	(%rcx), %rcx
	movzwl	(%rcx), %ecx
	cmpl	%ecx, %eax
	movq	456(%rsp), %rax
	movq	144(%rsp), %rbp
	movq	80(%rsp), %rdx
	movq	24(%rsp), %r12
	movq	88(%rsp), %r15
	movq	8(%rsp), %rcx
	jae	183f
96:
	movq	%r14, (%rax)
	movq	%r11, 8(%rax)
	movq	%r9, 16(%rax)
	movq	%r10, 24(%rax)
	movq	%rdx, 80(%rsp)
	movzbl	%dl, %eax
	movl	%r8d, 352(%rsp)
	movq	%rax, 360(%rsp)
	movq	%r15, 368(%rsp)
	movq	%r12, 376(%rsp)
	movq	%rcx, 8(%rsp)
	movq	%rcx, 384(%rsp)
	testb	%al, %al
	movq	%r15, 88(%rsp)
	je	97f
	testq	%r12, %r12
	jne	98f
	pxor	%xmm0, %xmm0
	movdqa	%xmm0, 272(%rsp)
	movb	$1, %bl
	xorl	%r14d, %r14d
	jmp	109f
97:
	movl	$1, %r12d
	leaq	368(%rsp), %r15
98:
	addq	$8, %r15
	jmp	100f
	.p2align	4
99:
	movq	$1, 168(%rsp)
	movq	%r14, 176(%rsp)
	movq	%rbx, 184(%rsp)
	addq	$16, %r15
	decq	%r12
	je	108f
100:
	movq	-8(%r15), %r14
	movq	(%r15), %rbx
	cmpb	$1, 72(%rbp)
	jne	101f
	movl	$192, %edi
	addq	80(%rbp), %rdi
	movq	%r14, %rsi
	movq	%rbx, %rdx
	callq	"mime_lookup::read_back::targets::target_of"
	movq	%rax, %r14
	movq	%rdx, %rbx
	cmpb	$1, 168(%rsp)
	jne	99b
	jmp	103f
	.p2align	4
101:
	movq	%r12, %r13
	pxor	%xmm0, %xmm0
	movdqa	%xmm0, 112(%rsp)
	movdqa	%xmm0, 96(%rsp)
	movl	36(%rbp), %edx
	leaq	96(%rsp), %rdi
	movq	320(%rsp), %rsi
	movq	%r14, %rcx
	movq	%rbx, %r8
	movq	456(%rsp), %r9
	callq	"mime_view::pairs::look_up_pair"
	movzbl	104(%rsp), %eax
	movq	112(%rsp), %r12
	cmpb	$0, 96(%rsp)
	jne	110f
	cmpb	$1, %al
	jne	102f
	movq	120(%rsp), %rbx
	movq	%r12, %r14
102:
	movq	%r13, %r12
	cmpb	$1, 168(%rsp)
	jne	99b
103:
	movq	200(%rsp), %rax
	movq	208(%rsp), %rdi
	cmpq	%rdi, %rax
	jae	105f
	movq	224(%rsp), %rdx
	movq	%rax, %rsi
	subq	%rdx, %rsi
	movq	192(%rsp), %rcx
	movq	216(%rsp), %r8
	subq	%r8, %rdi
	cmpq	%rdi, %rsi
	jae	106f
	addq	%r8, %rsi
104:
	shlq	$4, %rsi
	movq	%r14, (%rcx,%rsi)
	movq	%rbx, 8(%rcx,%rsi)
	jmp	107f
105:
	leaq	192(%rsp), %rdi
	callq	"std_alloc::vec::deque::VecDeque::grow::<#25095d740b27081c>"
	testb	%al, %al
	je	117f
	movq	192(%rsp), %rcx
	movq	200(%rsp), %rax
	movq	224(%rsp), %rdx
	movq	%rax, %rdi
	subq	%rdx, %rdi
	movq	208(%rsp), %r8
	movq	216(%rsp), %rsi
	subq	%rsi, %r8
	cmpq	%r8, %rdi
	jae	106f
	addq	%rdi, %rsi
	jmp	104b
	.p2align	4
106:
	movq	%rdx, %rsi
	shlq	$4, %rsi
	movq	%r14, (%rcx,%rsi)
	movq	%rbx, 8(%rcx,%rsi)
	incq	%rdx
	movq	%rdx, 224(%rsp)
107:
	incq	%rax
	movq	%rax, 200(%rsp)
	addq	$16, %r15
	decq	%r12
	jne	100b
108:
	xorl	%r14d, %r14d
	pxor	%xmm0, %xmm0
	movdqa	%xmm0, 272(%rsp)
	movb	$1, %bl
109:
	xorl	%r12d, %r12d
	cmpb	$1, 80(%rsp)
	movq	88(%rsp), %rdi
	movq	8(%rsp), %rax
	je	111f
	jmp	112f
110:
	movq	%rax, %r14
	movd	106(%rsp), %xmm0
	movdqa	%xmm0, 272(%rsp)
	xorl	%ebx, %ebx
	cmpb	$1, 80(%rsp)
	movq	88(%rsp), %rdi
	movq	8(%rsp), %rax
	jne	112f
111:
	testq	%rax, %rax
	je	112f
	callq	rattle_dealloc@PLT
112:
	testb	%bl, %bl
	movq	296(%rsp), %r8
	movq	%r14, %rdi
	je	158f
	movzbl	168(%rsp), %esi
	movq	456(%rsp), %rdi
	movq	312(%rsp), %r9
	movq	448(%rsp), %r10
	movq	304(%rsp), %r11
	jmp	1b
113:
	movb	$1, %dl
	movq	96(%rsp), %r15
	movq	112(%rsp), %rcx
	movq	%rcx, 8(%rsp)
	movzbl	(%rax), %ecx
	movq	56(%rsp), %r9
	cmpb	$1, %cl
	je	82b
	jmp	84b
114:
	movq	%rax, %rsi
115:
	leaq	1(%rsi), %rdx
	addq	%rcx, %rdx
	movq	$-1, %rax
	cmovaeq	%rdx, %rax
	movq	%rax, 8(%rdi)
	cmpq	$10, %r10
	jne	15b
	cmpq	$10, %rsi
	jne	15b
	jmp	161f
116:
	movabsq	$9223372036854775806, %rax
	movq	72(%rsp), %rcx
	cmpq	%rax, 24(%rcx)
	ja	181f
	movq	%r12, %rcx
	movq	160(%rsp), %rsi
	subq	%rsi, %rcx
	cmpq	$1, %rcx
	leaq	64(%rbx,%r13,8), %rax
	cmoveq	64(%rsp), %rax
	movq	(%rax), %rax
	cmpw	$15, (%rax)
	movq	%r9, 40(%rsp)
	jae	118f
	shlq	$3, %r13
	movq	72(%rsp), %rax
	jmp	152f
117:
	pxor	%xmm0, %xmm0
	movdqa	%xmm0, 272(%rsp)
	movb	$7, %r14b
	xorl	%ebx, %ebx
	jmp	109b
118:
	movq	128(%rsp), %rax
	cmpw	$15, (%rax)
	movq	%rsi, %rax
	movq	%r11, 16(%rsp)
	jb	119f
	movb	%dil, 56(%rsp)
	cmpw	$10, 136(%rsp)
	ja	181f
	movl	$192, %edi
	movl	$8, %esi
	callq	rattle_alloc@PLT
	movq	48(%rsp), %r8
	movq	40(%rsp), %r9
	movq	32(%rsp), %r10
	movq	16(%rsp), %r11
	testb	$1, %al
	je	181f
	movq	136(%rsp), %rsi
	leal	1(%rsi), %eax
	movw	%ax, 2(%rdx)
	movq	64(%rsp), %rcx
	movq	(%rcx), %rax
	movq	%rax, 64(%rdx)
	movw	$0, (%rdx)
	movq	%rdx, 128(%rsp)
	movq	%rdx, (%rcx)
	movl	$14, %eax
	subq	%rsi, %rax
	movzbl	56(%rsp), %edi
119:
	pxor	%xmm0, %xmm0
	movdqa	%xmm0, 96(%rsp)
	movq	%r12, %rcx
	subq	%rax, %rcx
	movq	%rcx, 328(%rsp)
	jbe	123f
	movl	%r12d, %ecx
	subl	%eax, %ecx
	testb	$3, %cl
	je	121f
	subb	%al, %dil
	movzbl	%dil, %ecx
	andl	$3, %ecx
120:
	movl	%r15d, %esi
	andb	$15, %sil
	movb	%sil, 95(%rsp,%r12)
	decq	%r12
	shrq	$4, %r15
	decq	%rcx
	jne	120b
121:
	addq	160(%rsp), %rbp
	subq	%rax, %rbp
	cmpq	$3, %rbp
	jb	123f
122:
	movl	%r15d, %ecx
	andb	$15, %cl
	movb	%cl, 95(%rsp,%r12)
	movl	%r15d, %ecx
	shrb	$4, %cl
	movb	%cl, 94(%rsp,%r12)
	movl	%r15d, %ecx
	shrl	$8, %ecx
	andb	$15, %cl
	movb	%cl, 93(%rsp,%r12)
	movl	%r15d, %ecx
	shrl	$12, %ecx
	andb	$15, %cl
	movb	%cl, 92(%rsp,%r12)
	addq	$-4, %r12
	shrq	$16, %r15
	cmpq	%r12, %rax
	jb	122b
123:
	movdqa	96(%rsp), %xmm0
	movdqa	%xmm0, 256(%rsp)
	movl	$16, %ebp
	subq	%rax, %rbp
	cmpq	$2, %rbp
	movq	128(%rsp), %rdi
	jb	151f
	leaq	(%rsp,%rax), %r15
	addq	$256, %r15
	movq	64(%rsp), %rdx
	jmp	126f
124:
	incl	%ecx
	movb	%cl, (%r15)
	addb	$-8, %al
	movb	%al, 1(%r15)
125:
	movzbl	%cl, %r13d
	leaq	(%rbx,%r13,8), %rdx
	addq	$64, %rdx
	incq	%r15
	cmpq	$2, %rbp
	leaq	-1(%rbp), %rbp
	jbe	150f
126:
	movzbl	(%r15), %r13d
	movl	%r13d, %ecx
	movq	(%rdx), %rbx
	movq	64(%rbx,%r13,8), %rax
	cmpw	$15, (%rax)
	jb	125b
	movq	%rdx, 56(%rsp)
	movq	%rcx, 128(%rsp)
	movzwl	2(%rbx), %r12d
	decq	%r12
	movq	%rbp, 160(%rsp)
	je	127f
	movl	$192, %edi
	jmp	128f
127:
	movl	$64, %edi
128:
	movl	$8, %esi
	callq	rattle_alloc@PLT
	testb	$1, %al
	je	179f
	movq	%rdx, %rbx
	movw	%r12w, 2(%rdx)
	leaq	4(%rdx), %rdi
	movq	56(%rsp), %rax
	movq	(%rax), %rax
	movzwl	(%rax), %r10d
	xorl	%edx, %edx
	cmpw	$0, 2(%rax)
	leaq	1(%r10), %rcx
	cmovneq	%rcx, %rdx
	movq	%rdx, 336(%rsp)
	movq	%rax, 136(%rsp)
	movq	64(%rax,%r13,8), %r12
	movzwl	2(%r12), %ebp
	movzwl	(%r12), %r9d
	leaq	-8(%r9), %r11
	leaq	36(%r12), %rsi
	leaq	-32(,%r9,4), %rdx
	movq	%rdi, %rax
	subq	%rsi, %rax
	cmpq	%rdx, %rax
	movq	%rcx, 344(%rsp)
	jae	134f
	testq	%r11, %r11
	je	135f
	cmpl	$8, %r11d
	jb	129f
	movq	%rbx, %rax
	subq	%r12, %rax
	addq	$-32, %rax
	cmpq	$32, %rax
	jae	146f
129:
	xorl	%eax, %eax
130:
	movq	%r9, %rdx
	movq	%rax, %rcx
	andq	$3, %rdx
	je	132f
	movq	%rax, %rcx
131:
	movl	(%rsi,%rcx,4), %r8d
	movl	%r8d, (%rdi,%rcx,4)
	incq	%rcx
	decq	%rdx
	jne	131b
132:
	negq	%rax
	addq	%r9, %rax
	addq	$-9, %rax
	cmpl	$3, %eax
	jb	135f
133:
	movl	36(%r12,%rcx,4), %eax
	movl	%eax, 4(%rbx,%rcx,4)
	movl	40(%r12,%rcx,4), %eax
	movl	%eax, 8(%rbx,%rcx,4)
	movl	44(%r12,%rcx,4), %eax
	movl	%eax, 12(%rbx,%rcx,4)
	movl	48(%r12,%rcx,4), %eax
	movl	%eax, 16(%rbx,%rcx,4)
	addq	$4, %rcx
	cmpq	%rcx, %r11
	jne	133b
	jmp	135f
134:
	movw	%bp, 232(%rsp)
	movq	%r10, %rbp
	movq	%r15, 152(%rsp)
	movq	%r9, %r15
	callq	memmove@PLT
	movq	%r15, %r9
	movq	152(%rsp), %r15
	leaq	-8(%r9), %r11
	movq	%rbp, %r10
	movzwl	232(%rsp), %ebp
135:
	movl	32(%r12), %r8d
	testw	%bp, %bp
	movl	%r8d, 152(%rsp)
	je	142f
	leaq	64(%rbx), %rdi
	leaq	128(%r12), %rsi
	leaq	-56(,%r9,8), %rdx
	movq	%rdi, %rax
	subq	%rsi, %rax
	cmpq	%rdx, %rax
	jae	141f
	movq	%r9, %rax
	addq	$-7, %rax
	je	142f
	cmpl	$4, %eax
	jb	136f
	movq	%rbx, %rcx
	subq	%r12, %rcx
	addq	$-64, %rcx
	cmpq	$32, %rcx
	jae	148f
136:
	xorl	%ecx, %ecx
137:
	movq	%r9, %rbp
	movl	%r9d, %r8d
	notl	%r8d
	movq	%rcx, %rdx
	testb	$3, %r8b
	je	139f
	leal	1(%rbp), %r8d
	andl	$3, %r8d
	movq	%rcx, %rdx
138:
	movq	(%rsi,%rdx,8), %r9
	movq	%r9, (%rdi,%rdx,8)
	incq	%rdx
	decq	%r8
	jne	138b
139:
	negq	%rcx
	addq	%rbp, %rcx
	addq	$-8, %rcx
	cmpl	$3, %ecx
	movl	152(%rsp), %r8d
	jb	142f
140:
	movq	128(%r12,%rdx,8), %rcx
	movq	%rcx, 64(%rbx,%rdx,8)
	movq	136(%r12,%rdx,8), %rcx
	movq	%rcx, 72(%rbx,%rdx,8)
	movq	144(%r12,%rdx,8), %rcx
	movq	%rcx, 80(%rbx,%rdx,8)
	movq	152(%r12,%rdx,8), %rcx
	movq	%rcx, 88(%rbx,%rdx,8)
	addq	$4, %rdx
	cmpq	%rdx, %rax
	jne	140b
	jmp	142f
141:
	movq	%r10, 232(%rsp)
	movq	%r11, %rbp
	callq	memmove@PLT
	movl	152(%rsp), %r8d
	movq	%rbp, %r11
	movq	232(%rsp), %r10
142:
	movq	136(%rsp), %rax
	leaq	64(%rax), %rbp
	addq	$4, %rax
	movw	$7, (%r12)
	movw	%r11w, (%rbx)
	movq	%r12, (%rbp,%r13,8)
	leaq	(%rax,%r13,4), %r12
	cmpl	%r13d, %r10d
	je	143f
	leaq	4(%r12), %rdi
	subq	%r13, %r10
	shlq	$2, %r10
	movq	%r12, %rsi
	movq	%r10, %rdx
	callq	memmove@PLT
	movl	152(%rsp), %r8d
143:
	movl	%r8d, (%r12)
	incq	%r13
	movq	336(%rsp), %rsi
	cmpl	%r13d, %esi
	jne	144f
	shll	$3, %esi
	jmp	145f
144:
	leal	(,%r13,8), %r12d
	leaq	(%r12,%rbp), %rdi
	addq	$8, %rdi
	addq	%r12, %rbp
	subq	%r13, %rsi
	shlq	$3, %rsi
	movq	%rsi, %rdx
	movq	%rbp, %rsi
	callq	memmove@PLT
	movq	%r12, %rsi
145:
	movq	16(%rsp), %r11
	movq	32(%rsp), %r10
	movq	40(%rsp), %r9
	movq	48(%rsp), %r8
	movq	160(%rsp), %rbp
	movq	128(%rsp), %rcx
	movq	56(%rsp), %rdx
	movq	136(%rsp), %rax
	movq	%rbx, 64(%rax,%rsi)
	movq	%rax, %rbx
	movq	344(%rsp), %rax
	movw	%ax, (%rbx)
	movq	%rbx, (%rdx)
	movzbl	1(%r15), %eax
	cmpb	$7, %al
	ja	124b
	movzbl	(%r15), %ecx
	jmp	125b
146:
	movq	%r11, %rax
	andq	$-8, %rax
	xorl	%ecx, %ecx
147:
	movdqu	36(%r12,%rcx,4), %xmm0
	movdqu	52(%r12,%rcx,4), %xmm1
	movdqu	%xmm0, 4(%rbx,%rcx,4)
	movdqu	%xmm1, 20(%rbx,%rcx,4)
	addq	$8, %rcx
	cmpq	%rcx, %rax
	jne	147b
	cmpl	%eax, %r11d
	je	135b
	jmp	130b
148:
	movq	%rax, %rcx
	andq	$-4, %rcx
	xorl	%edx, %edx
149:
	movdqu	128(%r12,%rdx,8), %xmm0
	movdqu	144(%r12,%rdx,8), %xmm1
	movdqu	%xmm0, 64(%rbx,%rdx,8)
	movdqu	%xmm1, 80(%rbx,%rdx,8)
	addq	$4, %rdx
	cmpq	%rdx, %rcx
	jne	149b
	cmpl	%ecx, %eax
	je	142b
	jmp	137b
150:
	movq	64(%rsp), %rax
	movq	(%rax), %rdi
151:
	cmpw	$0, (%rdi)
	je	180f
	movq	72(%rsp), %rax
	cmpb	$1, 8(%rax)
	movq	328(%rsp), %rcx
	jne	183f
	movzbl	271(%rsp), %r15d
	shlq	$3, %r13
152:
	cmpq	$1, %rcx
	leaq	64(%rbx,%r13), %rbx
	cmoveq	64(%rsp), %rbx
	andl	$15, %r15d
	movq	(%rbx), %r12
	movzwl	(%r12), %r13d
	leal	(,%r15,4), %ebp
	movq	%r13, %rdx
	subq	%r15, %rdx
	je	153f
	leaq	4(%r12), %rsi
	leaq	(%rsi,%rbp), %rdi
	addq	$4, %rdi
	addq	%rbp, %rsi
	shlq	$2, %rdx
	movq	%r11, %r15
	callq	memmove@PLT
	movq	48(%rsp), %r8
	movq	40(%rsp), %r9
	movq	32(%rsp), %r10
	movq	%r15, %r11
	movq	72(%rsp), %rax
153:
	incl	%r13d
	movl	%r8d, 4(%r12,%rbp)
	movw	%r13w, (%r12)
	movq	%r12, (%rbx)
	incq	24(%rax)
	movq	456(%rsp), %rax
	movq	144(%rsp), %rbp
	movq	80(%rsp), %rdx
	movq	24(%rsp), %r12
	movq	88(%rsp), %r15
	jmp	85b
154:
	movb	$3, %dil
155:
	movq	456(%rsp), %rbx
156:
	movq	32(%rsp), %r10
	movq	40(%rsp), %r9
157:
	movq	%r14, (%rbx)
	movq	%r11, 8(%rbx)
	movq	%r9, 16(%rbx)
	movq	%r10, 24(%rbx)
158:
	movzbl	%dil, %ebx
	cmpq	$0, 208(%rsp)
	je	159f
	movq	192(%rsp), %rdi
	callq	rattle_dealloc@PLT
159:
	movq	240(%rsp), %rax
	movw	$1, (%rax)
	movw	%bx, 8(%rax)
	movdqa	272(%rsp), %xmm0
	movd	%xmm0, 10(%rax)
	movq	%r12, 16(%rax)
160:
	addq	$392, %rsp
	popq	%rbx
	popq	%r12
	popq	%r13
	popq	%r14
	popq	%r15
	popq	%rbp
	retq
161:
	cmpq	$0, 208(%rsp)
	je	162f
	movq	192(%rsp), %rdi
	callq	rattle_dealloc@PLT
162:
	movq	240(%rsp), %rax
	movw	$256, (%rax)
	jmp	166f
163:
	addq	%r8, %rsi
	movq	$-1, %r11
	cmovaeq	%rsi, %r11
	cmpq	$256, %r10
	movb	$4, %dil
	sbbb	$0, %dil
	jmp	155b
164:
	cmpq	$0, 208(%rsp)
	je	165f
	movq	192(%rsp), %rdi
	callq	rattle_dealloc@PLT
165:
	movq	240(%rsp), %rax
	movw	$0, (%rax)
166:
	movl	$0, 8(%rax)
	movw	$0, 12(%rax)
	movq	$0, 16(%rax)
	jmp	160b
167:
	movq	456(%rsp), %rbx
	movq	16(%rsp), %r11
	jmp	157b
168:
	movb	$5, %dil
	xorl	%r9d, %r9d
	xorl	%r12d, %r12d
	jmp	171f
169:
	movb	$3, %dil
	jmp	171f
170:
	addq	16(%rsp), %rbx
	movq	$-1, %r11
	cmovaeq	%rbx, %r11
	cmpq	$256, %r15
	movb	$4, %dil
	sbbb	$0, %dil
	movq	456(%rsp), %rbx
	movq	32(%rsp), %r10
	movq	40(%rsp), %r9
171:
	cmpq	$0, 112(%rsp)
	je	157b
	movq	%rdi, %rbp
	movq	80(%rsp), %rdi
	movq	%r11, %r15
	movq	%r9, %r13
	callq	rattle_dealloc@PLT
	movq	%rbp, %rdi
	movq	%r13, %r9
	movq	32(%rsp), %r10
	movq	%r15, %r11
	jmp	157b
172:
	movq	%r13, %r12
	movq	456(%rsp), %rbx
	jmp	157b
173:
	movq	%r15, %r12
174:
	movq	456(%rsp), %rbx
	movb	$3, %dil
	jmp	157b
175:
	movb	$5, %dil
	xorl	%r9d, %r9d
	xorl	%r12d, %r12d
	movq	456(%rsp), %rbx
	jmp	157b
176:
	addq	%r15, %r13
	movq	$-1, %r11
	cmovaeq	%r13, %r11
	cmpq	$256, %rbp
	movb	$4, %dil
	sbbb	$0, %dil
	jmp	155b
177:
	movb	$7, %dil
	cmpq	$0, 112(%rsp)
	je	178f
	movq	96(%rsp), %rdi
	callq	rattle_dealloc@PLT
	movb	$7, %dil
178:
	xorl	%r12d, %r12d
	movq	16(%rsp), %r11
	jmp	156b
179:
	movq	64(%rsp), %rax
	movq	(%rax), %rdi
	cmpw	$0, (%rdi)
	movq	16(%rsp), %r11
	movq	32(%rsp), %r10
	movq	40(%rsp), %r9
	jne	181f
180:
	cmpw	$0, 2(%rdi)
	je	181f
	movq	64(%rdi), %rbx
	movq	%r11, %r15
	movq	%r9, %r12
	callq	rattle_dealloc@PLT
	movq	%r12, %r9
	movq	32(%rsp), %r10
	movq	%r15, %r11
	movq	64(%rsp), %rax
	movq	%rbx, (%rax)
181:
	xorl	%r12d, %r12d
	movb	$7, %dil
	cmpl	$16777216, 252(%rsp)
	je	182f
	cmpq	$0, 8(%rsp)
	movq	456(%rsp), %rbx
	je	157b
	movq	88(%rsp), %rdi
	movq	%r11, %r15
	movq	%r9, %r12
	callq	rattle_dealloc@PLT
	movb	$7, %dil
	movq	%r12, %r9
	movq	32(%rsp), %r10
	movq	%r15, %r11
	xorl	%r12d, %r12d
	jmp	157b
182:
	movq	456(%rsp), %rbx
	jmp	157b
183:
	ud2
184:
	.size	"mime_lookup::cached::ancestry::leads_to", 184b-"mime_lookup::cached::ancestry::leads_to"

	.text
	.p2align	4
	.type	"mime_lookup::cached::by_content::by_globs",@function
"mime_lookup::cached::by_content::by_globs":
	pushq	%rbp
	pushq	%r15
	pushq	%r14
	pushq	%r13
	pushq	%r12
	pushq	%rbx
	subq	$472, %rsp
	movq	%r9, %r14
	movq	%rcx, %r9
	movq	%rsi, %r11
	movq	%rdi, %r13
	movzbl	(%r8), %eax
	movdqu	8(%r8), %xmm0
	movdqa	%xmm0, 448(%rsp)
	movl	24(%r8), %ecx
	pxor	%xmm0, %xmm0
	movdqa	%xmm0, 256(%rsp)
	movdqa	%xmm0, 240(%rsp)
	movdqa	%xmm0, 416(%rsp)
	movdqa	%xmm0, 96(%rsp)
	movq	$0, 112(%rsp)
	movdqa	%xmm0, 400(%rsp)
	movdqa	%xmm0, 384(%rsp)
	movdqa	%xmm0, 176(%rsp)
	movdqa	%xmm0, 160(%rsp)
	movdqa	%xmm0, 144(%rsp)
	movq	$0, 192(%rsp)
	cmpb	$1, 72(%rsi)
	movq	%rsi, 80(%rsp)
	movq	%rax, 328(%rsp)
	movl	%ecx, 92(%rsp)
	jne	2f
	movq	%rdx, %r8
	leaq	16(%r11), %rsi
	movq	80(%r11), %r10
	movb	$1, %al
	cmpb	$1, 104(%r11)
	jne	1f
	movq	24(%r11), %rdi
	movq	112(%r11), %rcx
	movabsq	$-6148914691236517205, %rdx
	movq	%rdi, %rax
	mulq	%rdx
	shrq	$2, %rdx
	shrq	$4, %rdi
	addq	%rdx, %rdi
	movq	16(%r14), %rax
	xorl	%edx, %edx
	subq	336(%rcx), %rax
	cmovaeq	%rax, %rdx
	cmpq	%rdi, %rdx
	movb	$2, %al
	sbbb	$0, %al
1:
	movq	%r14, 8(%rsp)
	movl	$0, (%rsp)
	movzbl	%al, %ecx
	leaq	144(%rsp), %rdi
	movq	%r10, %rdx
	callq	"mime_lookup::read_back::name_types::types_of"
	movzbl	144(%rsp), %eax
	movzbl	152(%rsp), %ecx
	movzwl	154(%rsp), %ebp
	movzwl	156(%rsp), %ebx
	movq	160(%rsp), %rsi
	movq	168(%rsp), %r12
	jmp	4f
2:
	leaq	16(%r11), %r12
	movdqa	%xmm0, 272(%rsp)
	movdqa	%xmm0, 288(%rsp)
	movq	$0, 304(%rsp)
	movdqa	%xmm0, 432(%rsp)
	movdqa	%xmm0, 368(%rsp)
	movdqa	%xmm0, 352(%rsp)
	movdqa	%xmm0, 336(%rsp)
	leaq	16(%r14), %rax
	movq	%rax, (%rsp)
	leaq	336(%rsp), %rdi
	movq	%r12, %rsi
	movq	%r9, %rcx
	xorl	%r8d, %r8d
	movq	%r14, %r9
	callq	"mime_view::cache::Cache::glob_hits"
	movzbl	344(%rsp), %ecx
	movq	352(%rsp), %r15
	cmpb	$0, 336(%rsp)
	je	7f
	movzwl	346(%rsp), %ebp
	movzwl	348(%rsp), %ebx
3:
	pxor	%xmm0, %xmm0
	movdqu	%xmm0, 168(%rsp)
	movdqu	%xmm0, 184(%rsp)
	movb	$1, %al
	xorl	%r12d, %r12d
	movq	%r15, %rsi
4:
	movaps	176(%rsp), %xmm0
	movaps	%xmm0, 416(%rsp)
	testb	%al, %al
	je	5f
	movzbl	%cl, %eax
	movq	$1, (%r13)
	movw	%ax, 8(%r13)
	movw	%bp, 10(%r13)
	movw	%bx, 12(%r13)
	movw	$0, 14(%r13)
	movq	%rsi, 16(%r13)
	jmp	23f
5:
	testb	%cl, %cl
	je	11f
	movq	%r13, 24(%rsp)
	movzbl	%sil, %r15d
	movq	%r15, 240(%rsp)
	leaq	248(%rsp), %rdx
	movq	%r12, 248(%rsp)
	movaps	416(%rsp), %xmm0
	movaps	%xmm0, 256(%rsp)
	testb	%r15b, %r15b
	cmovneq	%r12, %rdx
	movl	$1, %ecx
	cmovneq	256(%rsp), %rcx
	movq	328(%rsp), %rax
	movq	%rax, 384(%rsp)
	movaps	448(%rsp), %xmm0
	movups	%xmm0, 392(%rsp)
	movl	92(%rsp), %eax
	movl	%eax, 408(%rsp)
	leaq	96(%rsp), %rdi
	leaq	384(%rsp), %r8
	movq	80(%rsp), %rsi
	movq	%r14, %r9
	callq	"mime_lookup::cached::by_content::choose"
	movzwl	104(%rsp), %esi
	movzwl	106(%rsp), %ebx
	movzwl	108(%rsp), %r14d
	movl	%esi, %ecx
	shrl	$8, %ecx
	cmpb	$1, %r15b
	setne	%dl
	cmpq	$0, 264(%rsp)
	movq	112(%rsp), %r13
	sete	%al
	orb	%dl, %al
	xorl	%ebp, %ebp
	cmpb	$0, 96(%rsp)
	cmovel	%ecx, %ebp
	je	20f
	movzbl	%sil, %ebp
	testb	%al, %al
	jne	6f
	movq	%r12, %rdi
	callq	rattle_dealloc@PLT
6:
	movq	24(%rsp), %rax
	movq	$1, (%rax)
	movw	%bp, 8(%rax)
	movw	%bx, 10(%rax)
	movw	%r14w, 12(%rax)
	movw	$0, 14(%rax)
	movq	%r13, 16(%rax)
	jmp	23f
7:
	movzbl	%cl, %eax
	movq	376(%rsp), %rdx
	movq	%rdx, 320(%rsp)
	movq	%rax, 208(%rsp)
	movq	%r15, 216(%rsp)
	movdqu	360(%rsp), %xmm0
	movdqu	%xmm0, 224(%rsp)
	movl	$1, %ebx
	testb	%al, %al
	je	8f
	movq	224(%rsp), %rbx
8:
	leaq	224(%rsp), %rdx
	testq	%rbx, %rbx
	movq	%r14, 32(%rsp)
	movq	%rax, 128(%rsp)
	movq	%rcx, 40(%rsp)
	movq	%r13, 24(%rsp)
	je	12f
	movq	%r12, 136(%rsp)
	testb	%cl, %cl
	je	35f
	leaq	8(%r15), %r14
	jmp	10f
	.p2align	4
9:
	cmpq	$1, %rax
	cmoveq	%r13, %r12
	movq	%r12, -8(%r14)
	movq	%rbp, (%r14)
	addq	$16, %r14
	decq	%rbx
	je	12f
10:
	movq	-8(%r14), %r12
	movq	(%r14), %rbp
	pxor	%xmm0, %xmm0
	movdqa	%xmm0, 64(%rsp)
	movdqa	%xmm0, 48(%rsp)
	movq	80(%rsp), %rax
	movl	36(%rax), %edx
	leaq	48(%rsp), %rdi
	movq	136(%rsp), %rsi
	movq	%r12, %rcx
	movq	%rbp, %r8
	movq	32(%rsp), %r9
	callq	"mime_view::pairs::look_up_pair"
	movzbl	56(%rsp), %eax
	movq	64(%rsp), %r13
	cmpb	$0, 48(%rsp)
	jne	38f
	cmpl	$1, %eax
	jne	9b
	movq	72(%rsp), %rbp
	jmp	9b
11:
	movl	%esi, %ebp
	shrl	$8, %ebp
	movl	%esi, %ebx
	shrl	$16, %ebx
	movq	%rsi, %r14
	shrq	$32, %r14
	movq	%rsi, %r15
	shrq	$48, %r15
	jmp	22f
12:
	movq	%r15, %r12
13:
	leaq	224(%rsp), %rax
	movdqu	(%rax), %xmm0
	movdqa	%xmm0, 432(%rsp)
	movq	128(%rsp), %rax
	movq	%rax, 272(%rsp)
	movq	%r12, 280(%rsp)
	movdqa	%xmm0, 288(%rsp)
	movq	320(%rsp), %r15
	movq	%r15, 304(%rsp)
	movq	40(%rsp), %rdi
	testb	%dil, %dil
	je	24f
	movq	288(%rsp), %rax
	testq	%rax, %rax
	movq	24(%rsp), %r13
	movq	32(%rsp), %r14
	je	27f
	movq	%rax, %rcx
	movq	%r12, %rdx
	decq	%rcx
	movq	40(%rsp), %rdi
	je	25f
	xorl	%edx, %edx
	.p2align	4
14:
	movq	%rdx, %rsi
	shlq	$4, %rsi
	movq	(%r12), %r9
	movq	8(%r12), %rdi
	movq	16(%r12,%rsi), %r10
	movq	24(%r12,%rsi), %rsi
	cmpq	%rdi, %rsi
	movq	%rdi, %r8
	cmovbq	%rsi, %r8
	xorl	%r11d, %r11d
	.p2align	4
15:
	movq	%r8, %rbx
	subq	%r11, %rbx
	cmpq	$8, %rbx
	jb	16f
	pmovzxbw	(%r9,%r11), %xmm0
	pmovzxbw	(%r10,%r11), %xmm1
	pcmpeqw	%xmm0, %xmm1
	packsswb	%xmm1, %xmm1
	pmovmskb	%xmm1, %ebx
	notl	%ebx
	orl	$256, %ebx
	rep		bsfl	%ebx, %ebx
	addq	%rbx, %r11
	cmpb	$7, %bl
	ja	15b
16:
	cmpq	%r8, %r11
	jae	19f
	.p2align	4
17:
	movzbl	(%r9,%r11), %ebx
	cmpb	(%r10,%r11), %bl
	jne	18f
	incq	%r11
	cmpq	%r11, %r8
	jne	17b
	jmp	19f
18:
	movq	%r11, %r8
19:
	leaq	1(%r8), %r9
	addq	8(%r14), %r9
	movq	$-1, %r10
	cmovaeq	%r9, %r10
	movq	%r10, 8(%r14)
	cmpq	%rdi, %r8
	jne	27f
	cmpq	%rsi, %r8
	jne	27f
	incq	%rdx
	cmpq	%rcx, %rdx
	jne	14b
	movq	%r12, %rdx
	movq	40(%rsp), %rdi
	jmp	25f
20:
	movzwl	110(%rsp), %r15d
	testb	%al, %al
	jne	21f
	movq	%r12, %rdi
	movq	%rsi, %r12
	callq	rattle_dealloc@PLT
	movq	%r12, %rsi
21:
	movq	%r13, %r12
	movq	24(%rsp), %r13
22:
	movq	$0, (%r13)
	shll	$8, %ebp
	movzbl	%sil, %eax
	orl	%ebp, %eax
	movw	%ax, 8(%r13)
	movw	%bx, 10(%r13)
	movw	%r14w, 12(%r13)
	movw	%r15w, 14(%r13)
	movq	%r12, 16(%r13)
23:
	addq	$472, %rsp
	popq	%rbx
	popq	%r12
	popq	%r13
	popq	%r14
	popq	%r15
	popq	%rbp
	retq
24:
	leaq	280(%rsp), %rdx
	movq	24(%rsp), %r13
25:
	movq	(%rdx), %rsi
	movq	8(%rdx), %r14
	cmpb	$1, %dil
	jne	26f
	cmpq	$0, 296(%rsp)
	je	26f
	movq	%r12, %rdi
	movq	%rsi, %rbx
	callq	rattle_dealloc@PLT
	movq	%rbx, %rsi
26:
	pxor	%xmm0, %xmm0
	movdqa	%xmm0, 176(%rsp)
	movq	$0, 192(%rsp)
	xorl	%ebx, %ebx
	movq	%r14, %r12
	xorl	%ebp, %ebp
	xorl	%ecx, %ecx
	xorl	%eax, %eax
	movq	32(%rsp), %r14
	jmp	4b
27:
	cmpq	%rax, %r15
	je	34f
	testq	%r15, %r15
	je	34f
	decq	%r15
	je	34f
	xorl	%eax, %eax
	.p2align	4
28:
	movq	%rax, %rcx
	shlq	$4, %rcx
	movq	(%r12), %rdi
	movq	8(%r12), %rdx
	movq	16(%r12,%rcx), %r8
	movq	24(%r12,%rcx), %rcx
	cmpq	%rdx, %rcx
	movq	%rdx, %rsi
	cmovbq	%rcx, %rsi
	xorl	%r9d, %r9d
	.p2align	4
29:
	movq	%rsi, %r10
	subq	%r9, %r10
	cmpq	$8, %r10
	jb	30f
	pmovzxbw	(%rdi,%r9), %xmm0
	pmovzxbw	(%r8,%r9), %xmm1
	pcmpeqw	%xmm0, %xmm1
	packsswb	%xmm1, %xmm1
	pmovmskb	%xmm1, %r10d
	notl	%r10d
	orl	$256, %r10d
	rep		bsfl	%r10d, %r10d
	addq	%r10, %r9
	cmpb	$7, %r10b
	ja	29b
30:
	cmpq	%rsi, %r9
	jae	33f
	.p2align	4
31:
	movzbl	(%rdi,%r9), %r10d
	cmpb	(%r8,%r9), %r10b
	jne	32f
	incq	%r9
	cmpq	%r9, %rsi
	jne	31b
	jmp	33f
32:
	movq	%r9, %rsi
33:
	leaq	1(%rsi), %rdi
	addq	8(%r14), %rdi
	movq	$-1, %r8
	cmovaeq	%rdi, %r8
	movq	%r8, 8(%r14)
	cmpq	%rdx, %rsi
	jne	34f
	cmpq	%rcx, %rsi
	jne	34f
	incq	%rax
	cmpq	%r15, %rax
	jne	28b
34:
	movdqa	432(%rsp), %xmm0
	movdqa	%xmm0, 176(%rsp)
	movb	$1, %cl
	xorl	%ebx, %ebx
	xorl	%ebp, %ebp
	xorl	%eax, %eax
	movq	128(%rsp), %rsi
	jmp	4b
35:
	movq	%rdx, %r14
	jmp	37f
	.p2align	4
36:
	cmpq	$1, %rax
	cmoveq	%r13, %r12
	movq	%r12, 216(%rsp)
	movq	%rbp, 224(%rsp)
	addq	$16, %r14
	movq	%r12, %r15
	decq	%rbx
	je	13b
37:
	movq	-8(%r14), %r12
	movq	(%r14), %rbp
	pxor	%xmm0, %xmm0
	movdqa	%xmm0, 64(%rsp)
	movdqa	%xmm0, 48(%rsp)
	movq	80(%rsp), %rax
	movl	36(%rax), %edx
	leaq	48(%rsp), %rdi
	movq	136(%rsp), %rsi
	movq	%r12, %rcx
	movq	%rbp, %r8
	movq	32(%rsp), %r9
	callq	"mime_view::pairs::look_up_pair"
	movzbl	56(%rsp), %eax
	movq	64(%rsp), %r13
	cmpb	$0, 48(%rsp)
	jne	38f
	cmpl	$1, %eax
	jne	36b
	movq	72(%rsp), %rbp
	jmp	36b
38:
	movzwl	60(%rsp), %r14d
	movzwl	58(%rsp), %ecx
	shll	$16, %ecx
	shlq	$32, %r14
	orq	%rax, %r14
	orq	%rcx, %r14
	movq	40(%rsp), %rax
	movl	%r14d, %ebp
	shrl	$16, %ebp
	movq	%r14, %rbx
	shrq	$32, %rbx
	cmpb	$1, %al
	jne	39f
	cmpq	$0, 232(%rsp)
	je	39f
	movq	%r15, %rdi
	callq	rattle_dealloc@PLT
39:
	movl	%r14d, %ecx
	movq	%r13, %r15
	movq	24(%rsp), %r13
	movq	32(%rsp), %r14
	jmp	3b
40:
	.size	"mime_lookup::cached::by_content::by_globs", 40b-"mime_lookup::cached::by_content::by_globs"

	.text
	.p2align	4
	.type	"mime_lookup::cached::by_content::choose",@function
"mime_lookup::cached::by_content::choose":
	pushq	%rbp
	pushq	%r15
	pushq	%r14
	pushq	%r13
	pushq	%r12
	pushq	%rbx
	subq	$104, %rsp
	movq	%r9, %r15
	movq	%rcx, %r12
	movq	%rdx, %r14
	movq	%rsi, %r13
	movq	8(%r8), %rbp
	movq	16(%r8), %rbx
	cmpb	$0, (%r8)
	je	2f
	testq	%r12, %r12
	je	3f
1:
	cmpq	$1, %r12
	jne	4f
	movups	(%r14), %xmm0
	movq	$0, (%rdi)
	movups	%xmm0, 8(%rdi)
	jmp	13f
2:
	movq	%rdi, 24(%rsp)
	cmpb	$1, 72(%r13)
	jne	7f
	movl	$192, %edi
	addq	80(%r13), %rdi
	movq	%rbp, %rsi
	movq	%rbx, %rdx
	callq	"mime_lookup::read_back::targets::target_of"
	movq	%rax, %rbp
	movq	%rdx, %rbx
	movq	24(%rsp), %rdi
	testq	%r12, %r12
	jne	1b
3:
	movq	$0, (%rdi)
	movq	%rbp, 8(%rdi)
	movq	%rbx, 16(%rdi)
	jmp	13f
4:
	movq	%rdi, 24(%rsp)
	movq	(%r14), %rax
	movq	%rax, 96(%rsp)
	movq	8(%r14), %rax
	movq	%rax, 88(%rsp)
	addq	$8, %r14
	xorps	%xmm0, %xmm0
	movaps	%xmm0, 64(%rsp)
	movq	$0, 80(%rsp)
	movaps	%xmm0, 32(%rsp)
	movaps	%xmm0, 48(%rsp)
	.p2align	4
5:
	movq	-8(%r14), %rcx
	movq	(%r14), %r8
	movq	%r15, 8(%rsp)
	movq	%rbx, (%rsp)
	leaq	64(%rsp), %rdi
	leaq	32(%rsp), %rdx
	movq	%r13, %rsi
	movq	%rbp, %r9
	callq	"mime_lookup::cached::ancestry::climbs_to"
	cmpb	$0, 64(%rsp)
	jne	8f
	testb	$1, 65(%rsp)
	jne	10f
	addq	$16, %r14
	decq	%r12
	jne	5b
	cmpb	$1, 40(%rsp)
	jne	6f
	movq	48(%rsp), %rdi
	callq	"std_collections::btree::node::Node::destroy::<#edcdc2349bef7e9b>"
6:
	movq	24(%rsp), %rax
	movq	96(%rsp), %rbx
	movq	88(%rsp), %r14
	jmp	12f
7:
	leaq	16(%r13), %rsi
	xorps	%xmm0, %xmm0
	movaps	%xmm0, 48(%rsp)
	movaps	%xmm0, 32(%rsp)
	movl	36(%r13), %edx
	leaq	32(%rsp), %rdi
	movq	%rbp, %rcx
	movq	%rbx, %r8
	movq	%r15, %r9
	callq	"mime_view::pairs::look_up_pair"
	movzbl	40(%rsp), %ecx
	movq	48(%rsp), %rax
	cmpb	$0, 32(%rsp)
	je	14f
	movzwl	44(%rsp), %edx
	movzwl	42(%rsp), %esi
	shll	$16, %esi
	shlq	$32, %rdx
	orq	%rcx, %rdx
	orq	%rsi, %rdx
	movq	24(%rsp), %rcx
	movq	$1, (%rcx)
	movq	%rdx, 8(%rcx)
	movq	%rax, 16(%rcx)
	jmp	13f
8:
	movq	80(%rsp), %rbx
	movzwl	76(%rsp), %r14d
	movzbl	72(%rsp), %eax
	movzwl	74(%rsp), %ecx
	shll	$16, %ecx
	shlq	$32, %r14
	orq	%rax, %r14
	orq	%rcx, %r14
	cmpb	$1, 40(%rsp)
	jne	9f
	movq	48(%rsp), %rdi
	callq	"std_collections::btree::node::Node::destroy::<#edcdc2349bef7e9b>"
9:
	movq	24(%rsp), %rax
	movq	$1, (%rax)
	movq	%r14, 8(%rax)
	movq	%rbx, 16(%rax)
	jmp	13f
10:
	movq	-8(%r14), %rbx
	movq	(%r14), %r14
	cmpb	$1, 40(%rsp)
	jne	11f
	movq	48(%rsp), %rdi
	callq	"std_collections::btree::node::Node::destroy::<#edcdc2349bef7e9b>"
11:
	movq	24(%rsp), %rax
12:
	movq	$0, (%rax)
	movq	%rbx, 8(%rax)
	movq	%r14, 16(%rax)
13:
	addq	$104, %rsp
	popq	%rbx
	popq	%r12
	popq	%r13
	popq	%r14
	popq	%r15
	popq	%rbp
	retq
14:
	cmpl	$1, %ecx
	jne	15f
	movq	56(%rsp), %rbx
15:
	cmpq	$1, %rcx
	cmoveq	%rax, %rbp
	movq	24(%rsp), %rdi
	testq	%r12, %r12
	jne	1b
	jmp	3b
16:
	.size	"mime_lookup::cached::by_content::choose", 16b-"mime_lookup::cached::by_content::choose"

	.section	.text.unlikely,"ax",@progbits
	.p2align	4
	.type	"mime_lookup::cached::icons::long_generic",@function
"mime_lookup::cached::icons::long_generic":
	pushq	%r15
	pushq	%r14
	pushq	%r13
	pushq	%r12
	pushq	%rbx
	subq	$128, %rsp
	movq	%rdi, %rbx
	leaq	10(%rdx), %r14
	xorps	%xmm0, %xmm0
	movaps	%xmm0, 80(%rsp)
	movaps	%xmm0, 64(%rsp)
	xorl	%ecx, %ecx
	movl	$0, %eax
	movl	$0, %r15d
	cmpq	$49, %r14
	jb	1f
	testq	%r14, %r14
	js	4f
	movl	$1, %r15d
	movq	%rsi, %r13
	movl	$1, %esi
	movq	%r14, %rdi
	movq	%rdx, %r12
	callq	rattle_alloc@PLT
	testb	$1, %al
	je	4f
	movq	%r13, %rsi
	movq	%rdx, %rcx
	movq	%r12, %rdx
	xorps	%xmm0, %xmm0
	movaps	%xmm0, 80(%rsp)
	movaps	%xmm0, 64(%rsp)
	movq	%r14, %rax
1:
	movaps	64(%rsp), %xmm0
	movaps	80(%rsp), %xmm1
	movaps	%xmm1, 112(%rsp)
	movaps	%xmm0, 96(%rsp)
	movq	%r15, (%rsp)
	movq	%rcx, 8(%rsp)
	movq	$0, 16(%rsp)
	movq	%rax, 24(%rsp)
	movups	%xmm0, 32(%rsp)
	movups	%xmm1, 48(%rsp)
	movq	%rsp, %rdi
	callq	"smallvec::small_vec::SmallVec::extend_from_slice::<#58247b01769054f4>"
	testb	%al, %al
	je	2f
	cmpb	$1, (%rsp)
	je	3f
	jmp	4f
2:
	leaq	.L1a16e401f121(%rip), %rsi
	movq	%rsp, %rdi
	movl	$10, %edx
	callq	"smallvec::small_vec::SmallVec::extend_from_slice::<#58247b01769054f4>"
	movzbl	(%rsp), %ecx
	testb	%al, %al
	je	6f
	cmpl	$1, %ecx
	jne	4f
3:
	cmpq	$0, 24(%rsp)
	je	4f
	movq	8(%rsp), %rdi
	callq	rattle_dealloc@PLT
4:
	movb	$1, (%rbx)
	xorps	%xmm0, %xmm0
	movups	%xmm0, 8(%rbx)
	movups	%xmm0, 24(%rbx)
	movups	%xmm0, 40(%rbx)
	movups	%xmm0, 56(%rbx)
5:
	addq	$128, %rsp
	popq	%rbx
	popq	%r12
	popq	%r13
	popq	%r14
	popq	%r15
	retq
6:
	leaq	8(%rsp), %rax
	movb	$0, (%rbx)
	movq	%rcx, 8(%rbx)
	movups	(%rax), %xmm0
	movups	16(%rax), %xmm1
	movups	32(%rax), %xmm2
	movups	%xmm0, 16(%rbx)
	movups	%xmm1, 32(%rbx)
	movups	%xmm2, 48(%rbx)
	movq	48(%rax), %rax
	movq	%rax, 64(%rbx)
	jmp	5b
7:
	.size	"mime_lookup::cached::icons::long_generic", 7b-"mime_lookup::cached::icons::long_generic"

	.section	.rodata.cst16,"aM",@progbits,16
	.p2align	4, 0x0
1:
	.zero	16,47
2:
	.zero	16,45
3:
	.byte	47,47,47,47,47,47,47,47
	.zero	1
	.zero	1
	.zero	1
	.zero	1
	.zero	1
	.zero	1
	.zero	1
	.zero	1
4:
	.byte	45,45,45,45,45,45,45,45
	.zero	1
	.zero	1
	.zero	1
	.zero	1
	.zero	1
	.zero	1
	.zero	1
	.zero	1
	.section	.text.unlikely,"ax",@progbits
	.p2align	4
	.type	"mime_lookup::cached::icons::long_with_hyphens",@function
"mime_lookup::cached::icons::long_with_hyphens":
	pushq	%rbx
	subq	$144, %rsp
	movq	%rdi, %rbx
	xorps	%xmm0, %xmm0
	movaps	%xmm0, 48(%rsp)
	movaps	%xmm0, 32(%rsp)
	movaps	%xmm0, 16(%rsp)
	movaps	%xmm0, (%rsp)
	movq	$0, 64(%rsp)
	movq	%rsp, %rdi
	callq	"smallvec::small_vec::SmallVec::from_slice::<#58247b01769054f4>"
	cmpb	$0, (%rsp)
	je	5f
	movb	$1, (%rbx)
	xorps	%xmm0, %xmm0
	movups	%xmm0, 8(%rbx)
	movups	%xmm0, 24(%rbx)
	movups	%xmm0, 40(%rbx)
	movups	%xmm0, 56(%rbx)
	addq	$144, %rsp
	popq	%rbx
	retq
5:
	movzbl	8(%rsp), %esi
	testq	%rsi, %rsi
	movq	%rsi, 80(%rsp)
	leaq	88(%rsp), %rax
	movdqa	16(%rsp), %xmm0
	movdqa	32(%rsp), %xmm1
	movdqa	48(%rsp), %xmm2
	movdqu	%xmm0, 88(%rsp)
	movq	64(%rsp), %rcx
	movq	%rcx, 136(%rsp)
	movdqu	%xmm2, 120(%rsp)
	movdqu	%xmm1, 104(%rsp)
	leaq	136(%rsp), %rdx
	movq	88(%rsp), %rcx
	cmoveq	%rax, %rcx
	leaq	96(%rsp), %rdi
	cmoveq	%rdx, %rdi
	movq	(%rdi), %rdx
	testq	%rdx, %rdx
	je	14f
	cmpq	$8, %rdx
	jae	6f
	xorl	%esi, %esi
	jmp	11f
6:
	cmpq	$32, %rdx
	jae	7f
	xorl	%esi, %esi
	jmp	9f
7:
	movq	%rdx, %rsi
	andq	$-32, %rsi
	xorl	%edi, %edi
	.p2align	4
8:
	movdqu	(%rcx,%rdi), %xmm2
	movdqu	16(%rcx,%rdi), %xmm3
	movdqa	1b(%rip), %xmm1
	movdqa	%xmm2, %xmm0
	pcmpeqb	%xmm1, %xmm0
	movdqa	2b(%rip), %xmm4
	pblendvb	%xmm0, %xmm4, %xmm2
	pcmpeqb	%xmm3, %xmm1
	movdqa	%xmm1, %xmm0
	pblendvb	%xmm0, %xmm4, %xmm3
	movdqu	%xmm2, (%rcx,%rdi)
	movdqu	%xmm3, 16(%rcx,%rdi)
	addq	$32, %rdi
	cmpq	%rdi, %rsi
	jne	8b
	cmpq	%rsi, %rdx
	je	13f
	testb	$24, %dl
	je	11f
9:
	movq	%rsi, %rdi
	movq	%rdx, %rsi
	andq	$-8, %rsi
	.p2align	4
10:
	movq	(%rcx,%rdi), %xmm1
	movdqa	3b(%rip), %xmm0
	pcmpeqb	%xmm1, %xmm0
	pblendvb	%xmm0, 4b(%rip), %xmm1
	movq	%xmm1, (%rcx,%rdi)
	addq	$8, %rdi
	cmpq	%rdi, %rsi
	jne	10b
	jmp	12f
11:
	movzbl	(%rcx,%rsi), %edi
	cmpb	$47, %dil
	movl	$45, %r8d
	cmovnel	%edi, %r8d
	movb	%r8b, (%rcx,%rsi)
	incq	%rsi
12:
	cmpq	%rsi, %rdx
	jne	11b
13:
	movzbl	80(%rsp), %esi
14:
	movb	$0, (%rbx)
	movq	%rsi, 8(%rbx)
	movups	(%rax), %xmm0
	movups	16(%rax), %xmm1
	movups	32(%rax), %xmm2
	movups	%xmm0, 16(%rbx)
	movups	%xmm1, 32(%rbx)
	movups	%xmm2, 48(%rbx)
	movq	48(%rax), %rax
	movq	%rax, 64(%rbx)
	addq	$144, %rsp
	popq	%rbx
	retq
15:
	.size	"mime_lookup::cached::icons::long_with_hyphens", 15b-"mime_lookup::cached::icons::long_with_hyphens"

	.text
	.p2align	4
	.type	"mime_lookup::cached::name_types::are_one_type",@function
"mime_lookup::cached::name_types::are_one_type":
	testq	%rsi, %rsi
	je	8f
	decq	%rsi
	je	9f
	pushq	%rbp
	pushq	%r14
	pushq	%rbx
	xorl	%ecx, %ecx
	.p2align	4
1:
	movq	%rcx, %r8
	shlq	$4, %r8
	movq	(%rdi), %r10
	movq	8(%rdi), %rax
	movq	16(%rdi,%r8), %r11
	movq	24(%rdi,%r8), %r8
	cmpq	%rax, %r8
	movq	%rax, %r9
	cmovbq	%r8, %r9
	xorl	%ebx, %ebx
	.p2align	4
2:
	movq	%r9, %r14
	subq	%rbx, %r14
	cmpq	$8, %r14
	jb	3f
	pmovzxbw	(%r10,%rbx), %xmm0
	pmovzxbw	(%r11,%rbx), %xmm1
	pcmpeqw	%xmm0, %xmm1
	packsswb	%xmm1, %xmm1
	pmovmskb	%xmm1, %ebp
	notl	%ebp
	orl	$256, %ebp
	rep		bsfl	%ebp, %r14d
	addq	%r14, %rbx
	cmpb	$7, %r14b
	ja	2b
3:
	cmpq	%r9, %rbx
	jae	6f
	.p2align	4
4:
	movzbl	(%r10,%rbx), %ebp
	cmpb	(%r11,%rbx), %bpl
	jne	5f
	incq	%rbx
	cmpq	%rbx, %r9
	jne	4b
	jmp	6f
	.p2align	4
5:
	movq	%rbx, %r9
6:
	leaq	1(%r9), %r10
	addq	8(%rdx), %r10
	movq	$-1, %r11
	cmovaeq	%r10, %r11
	movq	%r11, 8(%rdx)
	xorq	%r9, %rax
	xorq	%r9, %r8
	orq	%rax, %r8
	sete	%al
	jne	7f
	incq	%rcx
	cmpq	%rsi, %rcx
	jne	1b
7:
	popq	%rbx
	popq	%r14
	popq	%rbp
	retq
8:
	xorl	%eax, %eax
	retq
9:
	movb	$1, %al
	retq
10:
	.size	"mime_lookup::cached::name_types::are_one_type", 10b-"mime_lookup::cached::name_types::are_one_type"

	.text
	.p2align	4
	.type	"mime_lookup::cached::name_types::count_asked",@function
"mime_lookup::cached::name_types::count_asked":
	movq	%rdx, %rax
	cmpq	%rsi, %rdx
	je	8f
	testq	%rax, %rax
	je	9f
	movq	%rax, %rdx
	decq	%rdx
	je	10f
	pushq	%rbp
	pushq	%r15
	pushq	%r14
	pushq	%rbx
	xorl	%esi, %esi
	.p2align	4
1:
	movq	%rsi, %r8
	shlq	$4, %r8
	movq	(%rdi), %r11
	movq	8(%rdi), %r9
	movq	16(%rdi,%r8), %rbx
	movq	24(%rdi,%r8), %r8
	cmpq	%r9, %r8
	movq	%r9, %r10
	cmovbq	%r8, %r10
	xorl	%r14d, %r14d
	.p2align	4
2:
	movq	%r10, %r15
	subq	%r14, %r15
	cmpq	$8, %r15
	jb	3f
	pmovzxbw	(%r11,%r14), %xmm0
	pmovzxbw	(%rbx,%r14), %xmm1
	pcmpeqw	%xmm0, %xmm1
	packsswb	%xmm1, %xmm1
	pmovmskb	%xmm1, %ebp
	notl	%ebp
	orl	$256, %ebp
	rep		bsfl	%ebp, %r15d
	addq	%r15, %r14
	cmpb	$7, %r15b
	ja	2b
3:
	cmpq	%r10, %r14
	jae	6f
	.p2align	4
4:
	movzbl	(%r11,%r14), %ebp
	cmpb	(%rbx,%r14), %bpl
	jne	5f
	incq	%r14
	cmpq	%r14, %r10
	jne	4b
	jmp	6f
	.p2align	4
5:
	movq	%r14, %r10
6:
	leaq	1(%r10), %r11
	addq	8(%rcx), %r11
	movq	$-1, %rbx
	cmovaeq	%r11, %rbx
	movq	%rbx, 8(%rcx)
	cmpq	%r9, %r10
	jne	7f
	cmpq	%r8, %r10
	jne	7f
	incq	%rsi
	cmpq	%rdx, %rsi
	jne	1b
	movl	$1, %eax
7:
	popq	%rbx
	popq	%r14
	popq	%r15
	popq	%rbp
8:
	retq
9:
	xorl	%eax, %eax
	retq
10:
	movl	$1, %eax
	retq
11:
	.size	"mime_lookup::cached::name_types::count_asked", 11b-"mime_lookup::cached::name_types::count_asked"

	.section	.rodata.cst16,"aM",@progbits,16
	.p2align	4, 0x0
1:
	.short	288,288,288,288,288,288,288,288
	.text
	.p2align	4
	.type	"mime_lookup::cached::sniff::sniff_front",@function
"mime_lookup::cached::sniff::sniff_front":
	pushq	%rbp
	pushq	%r15
	pushq	%r14
	pushq	%r13
	pushq	%r12
	pushq	%rbx
	subq	$1160, %rsp
	movq	%rdi, %rbx
	cmpb	$1, (%rdx)
	jne	3f
	movq	%r8, %r14
	movq	%rsi, %r15
	movl	%ecx, 12(%rsp)
	movq	8(%rdx), %r12
	movq	16(%rdx), %r13
	movq	$0, 1152(%rsp)
	xorps	%xmm0, %xmm0
	movaps	%xmm0, 16(%rsp)
	movaps	%xmm0, 32(%rsp)
	movq	$0, 48(%rsp)
	leaq	96(%rsp), %rdi
	movl	$512, %edx
	xorl	%esi, %esi
	callq	memset@PLT
	movaps	1b(%rip), %xmm0
	movaps	%xmm0, 96(%rsp)
	movaps	%xmm0, 112(%rsp)
	movaps	%xmm0, 128(%rsp)
	movaps	%xmm0, 144(%rsp)
	movaps	%xmm0, 160(%rsp)
	movaps	%xmm0, 176(%rsp)
	movaps	%xmm0, 192(%rsp)
	movaps	%xmm0, 208(%rsp)
	movaps	%xmm0, 224(%rsp)
	movaps	%xmm0, 240(%rsp)
	movaps	%xmm0, 256(%rsp)
	movaps	%xmm0, 272(%rsp)
	movaps	%xmm0, 288(%rsp)
	movaps	%xmm0, 304(%rsp)
	movaps	%xmm0, 320(%rsp)
	movaps	%xmm0, 336(%rsp)
	movaps	%xmm0, 352(%rsp)
	movaps	%xmm0, 368(%rsp)
	movaps	%xmm0, 384(%rsp)
	movaps	%xmm0, 400(%rsp)
	movaps	%xmm0, 416(%rsp)
	movaps	%xmm0, 432(%rsp)
	movaps	%xmm0, 448(%rsp)
	movaps	%xmm0, 464(%rsp)
	movaps	%xmm0, 480(%rsp)
	movaps	%xmm0, 496(%rsp)
	movaps	%xmm0, 512(%rsp)
	movaps	%xmm0, 528(%rsp)
	movaps	%xmm0, 544(%rsp)
	movaps	%xmm0, 560(%rsp)
	movaps	%xmm0, 576(%rsp)
	movaps	%xmm0, 592(%rsp)
	leaq	16(%r14), %rbp
	testq	%r13, %r13
	je	7f
	cmpq	$288, %r13
	movl	$288, %ecx
	cmovbq	%r13, %rcx
	movq	%rcx, %rdx
	andq	$3, %rdx
	je	4f
	.p2align	4
2:
	leaq	-1(%rcx), %rax
	movzbl	-1(%r12,%rcx), %esi
	decl	%ecx
	movw	%cx, 96(%rsp,%rsi,2)
	movq	%rax, %rcx
	decq	%rdx
	jne	2b
	cmpq	$4, %r13
	jae	5f
	jmp	7f
3:
	movq	$0, (%rbx)
	movl	$1, 8(%rbx)
	movw	$0, 12(%rbx)
	leaq	.L67248b46a1a0(%rip), %rax
	movq	%rax, 16(%rbx)
	movq	$24, 24(%rbx)
	jmp	8f
4:
	movq	%rcx, %rax
	cmpq	$4, %r13
	jb	7f
5:
	leaq	-1(%r12), %rcx
	movq	$-4, %rdx
	xorl	%esi, %esi
	.p2align	4
6:
	movzbl	(%rcx,%rax), %edi
	leal	(%rax,%rdx), %r8d
	addl	$3, %r8d
	movw	%r8w, 96(%rsp,%rdi,2)
	movzbl	-1(%rcx,%rax), %edi
	leal	2(%rax,%rdx), %r8d
	movw	%r8w, 96(%rsp,%rdi,2)
	movzbl	-2(%rcx,%rax), %edi
	leal	1(%rax,%rdx), %r8d
	movw	%r8w, 96(%rsp,%rdi,2)
	leal	(%rax,%rdx), %edi
	movzbl	-3(%rcx,%rax), %r8d
	movw	%di, 96(%rsp,%r8,2)
	addq	$4, %rsi
	addq	$-4, %rcx
	addq	$-4, %rdx
	cmpq	%rsi, %rax
	jne	6b
7:
	movq	%r15, 616(%rsp)
	movq	%r12, 624(%rsp)
	movq	%r13, 632(%rsp)
	leaq	640(%rsp), %rdi
	leaq	96(%rsp), %rsi
	movl	$512, %edx
	callq	memcpy@PLT
	movl	12(%rsp), %eax
	movb	%al, 1152(%rsp)
	movups	(%r14), %xmm0
	movaps	%xmm0, 64(%rsp)
	movups	(%rbp), %xmm0
	movaps	%xmm0, 80(%rsp)
	movl	40(%r15), %edx
	leaq	16(%rsp), %rdi
	leaq	616(%rsp), %rsi
	leaq	64(%rsp), %rcx
	callq	"mime_view::magic::sniff"
	movaps	64(%rsp), %xmm0
	movups	%xmm0, (%r14)
	movaps	80(%rsp), %xmm0
	movups	%xmm0, (%rbp)
	movzbl	24(%rsp), %eax
	movq	32(%rsp), %rcx
	cmpb	$0, 16(%rsp)
	je	10f
	movss	26(%rsp), %xmm0
	movq	$1, (%rbx)
	movw	%ax, 8(%rbx)
	movss	%xmm0, 10(%rbx)
	movq	%rcx, 16(%rbx)
	movq	$0, 24(%rbx)
8:
	movl	$0, 32(%rbx)
9:
	addq	$1160, %rsp
	popq	%rbx
	popq	%r12
	popq	%r13
	popq	%r14
	popq	%r15
	popq	%rbp
	retq
10:
	xorl	%edx, %edx
	cmpb	$1, %al
	jne	11f
	movq	40(%rsp), %rsi
	movl	48(%rsp), %edx
	xorl	%eax, %eax
	jmp	16f
11:
	movw	$1, %ax
	testq	%r13, %r13
	je	15f
	cmpq	$128, %r13
	movl	$128, %edi
	cmovbq	%r13, %rdi
	xorl	%r8d, %r8d
	jmp	13f
	.p2align	4
12:
	incq	%r8
	cmpq	%r8, %rdi
	je	14f
13:
	movzbl	(%r12,%r8), %r9d
	cmpl	$31, %r9d
	ja	12b
	xorl	%edx, %edx
	movl	$24, %esi
	leaq	.L67248b46a1a0(%rip), %rcx
	cmpl	$13, %r9d
	ja	16f
	movl	$9728, %r10d
	btl	%r9d, %r10d
	jb	12b
	jmp	16f
14:
	xorl	%edx, %edx
	movl	$10, %esi
	leaq	.Laafe98300121(%rip), %rcx
	jmp	16f
15:
	movl	$22, %esi
	leaq	.L74bbd0aeee0d(%rip), %rcx
16:
	movq	$0, (%rbx)
	movw	%ax, 8(%rbx)
	movl	$0, 10(%rbx)
	movq	%rcx, 16(%rbx)
	movq	%rsi, 24(%rbx)
	movl	%edx, 32(%rbx)
	jmp	9b
17:
	.size	"mime_lookup::cached::sniff::sniff_front", 17b-"mime_lookup::cached::sniff::sniff_front"

	.text
	.p2align	4
	.type	"mime_lookup::cached::sniff::sniff_indexed",@function
"mime_lookup::cached::sniff::sniff_indexed":
	cmpb	$1, (%rdx)
	jne	1f
	pushq	%rbp
	pushq	%r15
	pushq	%r14
	pushq	%r13
	pushq	%r12
	pushq	%rbx
	subq	$2392, %rsp
	movq	%rsi, %r12
	movq	8(%rdx), %r11
	movq	16(%rdx), %r10
	movq	$0, 48(%rsp)
	cmpq	192(%rsi), %r10
	movq	%rdi, 72(%rsp)
	jae	2f
	movq	56(%r12), %rbp
	jmp	30f
1:
	movq	$1, (%rdi)
	leaq	.L67248b46a1a0(%rip), %rax
	movq	%rax, 8(%rdi)
	movq	$24, 16(%rdi)
	movl	$0, 24(%rdi)
	retq
2:
	movq	%r11, 24(%rsp)
	movl	%ecx, %ebp
	cmpq	$288, %r10
	movl	$288, %ebx
	movl	$288, %r14d
	cmovbq	%r10, %r14
	leaq	96(%rsp), %rdi
	movl	$2296, %edx
	movl	$255, %esi
	movq	%r10, 32(%rsp)
	callq	memset@PLT
	movq	32(%rsp), %rax
	cmpq	$1, %rax
	adcq	$-1, %rax
	cmpq	$288, %rax
	cmovbq	%rax, %rbx
	cmpq	$255, %rax
	jb	4f
	movq	24(%rsp), %rdi
	movzbl	(%rdi,%rbx), %ecx
	movl	%ebp, %eax
	.p2align	4
3:
	movzbl	%cl, %edx
	movzbl	-1(%rdi,%rbx), %ecx
	decq	%rbx
	leaq	(%rsp,%rcx,8), %rsi
	addq	$96, %rsi
	movb	$-2, (%rdx,%rsi)
	cmpq	$254, %rbx
	ja	3b
	testq	%rbx, %rbx
	jne	5f
	jmp	10f
4:
	movl	%ebp, %eax
	testq	%rbx, %rbx
	je	10f
5:
	movq	24(%rsp), %r10
	movzbl	(%r10,%rbx), %edx
	movq	%rbx, %rsi
	andq	$3, %rsi
	je	7f
	movq	%rbx, %rdi
	.p2align	4
6:
	leaq	-1(%rdi), %rcx
	movzbl	%dl, %r8d
	movzbl	-1(%r10,%rdi), %edx
	leaq	(%rsp,%rdx,8), %r9
	addq	$96, %r9
	decb	%dil
	movb	%dil, (%r8,%r9)
	movq	%rcx, %rdi
	decq	%rsi
	jne	6b
	cmpq	$4, %rbx
	jae	8f
	jmp	10f
7:
	movq	%rbx, %rcx
	cmpq	$4, %rbx
	jb	10f
8:
	movq	24(%rsp), %rsi
	decq	%rsi
	movq	$-4, %rdi
	xorl	%r8d, %r8d
	.p2align	4
9:
	movzbl	(%rsi,%rcx), %r9d
	movzbl	%dl, %edx
	leaq	(%rsp,%r9,8), %r10
	addq	$96, %r10
	leal	(%rcx,%rdi), %r11d
	leal	3(%r11), %ebx
	movb	%bl, (%rdx,%r10)
	movzbl	-1(%rsi,%rcx), %edx
	leaq	96(%rsp,%rdx,8), %r10
	leal	2(%r11), %ebx
	movb	%bl, (%r9,%r10)
	movzbl	-2(%rsi,%rcx), %r9d
	leaq	96(%rsp,%r9,8), %r10
	leal	1(%r11), %ebx
	movb	%bl, (%rdx,%r10)
	movzbl	-3(%rsi,%rcx), %edx
	leaq	(%rsp,%rdx,8), %r10
	addq	$96, %r10
	movb	%r11b, (%r9,%r10)
	addq	$4, %r8
	addq	$-4, %rsi
	addq	$-4, %rdi
	cmpq	%r8, %rcx
	jne	9b
10:
	movq	(%r12), %r13
	movq	48(%r12), %rcx
	movq	%rcx, 80(%rsp)
	movq	80(%r12), %rdx
	addq	%rdx, %r14
	movq	$-1, %rcx
	cmovbq	%rcx, %r14
	movq	56(%r12), %rbp
	movq	%r14, 56(%rsp)
	movzbl	%al, %eax
	movl	%eax, 44(%rsp)
	movq	%rdx, 64(%rsp)
	testq	%rdx, %rdx
	je	20f
	movq	32(%rsp), %r10
	leaq	1(%r10), %rax
	movq	%rax, 88(%rsp)
	xorl	%ebx, %ebx
	movq	24(%rsp), %r11
	movq	%r12, 16(%rsp)
	.p2align	4
11:
	movq	%rbp, %r14
	movq	72(%r12), %rax
	movl	(%rax,%rbx,4), %eax
	cmpq	%rax, %r10
	jbe	18f
	movzbl	(%r11,%rax), %eax
	movq	%rbx, %rcx
	shlq	$9, %rcx
	addq	96(%r12), %rcx
	movzwl	(%rcx,%rax,2), %r12d
	testq	%r12, %r12
	je	18f
	cmpq	%r12, %r14
	jb	18f
	movq	16(%rsp), %rax
	movq	120(%rax), %r15
	.p2align	4
12:
	movq	56(%rsp), %rax
	incq	%rax
	movq	$-1, %rcx
	cmovneq	%rax, %rcx
	movq	%rcx, 56(%rsp)
	leaq	-1(%r12), %rbp
	movq	%rbp, %rax
	shlq	$4, %rax
	movl	(%r13,%rax), %ecx
	movzwl	8(%r13,%rax), %edx
	leaq	(%rdx,%rcx), %rsi
	cmpq	%rsi, %r10
	jb	16f
	testq	%rdx, %rdx
	je	15f
	movl	4(%r13,%rax), %esi
	movzbl	10(%r13,%rax), %r8d
	cmpq	$1, %rsi
	jne	13f
	movzbl	(%r11,%rcx), %esi
	movzbl	11(%r13,%rax), %edi
	cmpb	%dil, %sil
	jne	14f
	leaq	1(%r8), %r9
	cmpl	%edx, %r9d
	jae	14f
	movzbl	1(%r11,%rcx), %edx
	cmpb	12(%r13,%rax), %dl
	jne	16f
	addq	%r11, %r8
	movzbl	(%rcx,%r8), %edx
	cmpb	13(%r13,%rax), %dl
	jne	16f
	movzbl	1(%r8,%rcx), %ecx
	cmpb	14(%r13,%rax), %cl
	je	15f
	jmp	16f
13:
	leal	1(%r8), %edi
	cmpl	%edx, %edi
	jae	15f
	addq	%rcx, %rsi
	movq	88(%rsp), %rdi
	subq	%rdx, %rdi
	cmpq	%rsi, %rdi
	cmovaeq	%rsi, %rdi
	leaq	(%rdi,%r8), %r9
	cmpq	$288, %r9
	jbe	17f
	addq	%rcx, %r8
	movzbl	14(%r13,%rax), %esi
	movzbl	13(%r13,%rax), %edi
	leaq	48(%rsp), %rax
	movq	%rax, (%rsp)
	movq	%r11, %rdx
	movq	%r10, %rcx
	callq	"mime_lookup::indexed::line_search::lacks_far"
	movq	32(%rsp), %r10
	movq	24(%rsp), %r11
	testb	%al, %al
	je	15f
	jmp	16f
14:
	cmpb	%dil, %sil
	jne	16f
	.p2align	4
15:
	leaq	(,%rbp,4), %rax
	addq	%rbp, %rax
	movq	16(%rsp), %rcx
	movq	32(%rcx), %rsi
	movq	80(%rsp), %rdx
	movq	24(%rdx,%rax,8), %rdi
	cmpq	%rdi, %rsi
	cmovbq	%rsi, %rdi
	subq	%rdi, %rsi
	shlq	$6, %rdi
	addq	24(%rcx), %rdi
	movq	32(%rdx,%rax,8), %rax
	cmpq	%rax, %rsi
	cmovaeq	%rax, %rsi
	leaq	48(%rsp), %r9
	movq	%r11, %rdx
	movq	%r10, %rcx
	movl	44(%rsp), %r8d
	callq	"mime_load::holding::first_line_matches"
	movq	32(%rsp), %r10
	movq	24(%rsp), %r11
	testb	%al, %al
	jne	19f
16:
	movzwl	-2(%r15,%r12,2), %eax
	cmpq	%rax, %r12
	jae	18f
	movq	%rax, %r12
	cmpq	%rax, %r14
	jae	12b
	jmp	18f
17:
	movzbl	11(%r13,%rax), %ecx
	leaq	(%rsp,%rcx,8), %rcx
	addq	$96, %rcx
	movzbl	12(%r13,%rax), %edx
	movzbl	(%rdx,%rcx), %ecx
	cmpq	$255, %rcx
	je	16b
	cmpq	%rcx, %rdi
	jbe	16b
	movzbl	13(%r13,%rax), %ecx
	movzbl	14(%r13,%rax), %eax
	leaq	(%rsp,%rcx,8), %rcx
	addq	$96, %rcx
	movzbl	(%rax,%rcx), %eax
	cmpq	$255, %rax
	je	16b
	cmpq	%rax, %r9
	ja	15b
	jmp	16b
	.p2align	4
18:
	movq	%r14, %rbp
19:
	incq	%rbx
	cmpq	64(%rsp), %rbx
	movq	16(%rsp), %r12
	jne	11b
	movq	56(%rsp), %r14
	movq	$-1, %rcx
	jmp	21f
20:
	movq	24(%rsp), %r11
	movq	32(%rsp), %r10
21:
	movq	144(%r12), %r15
	movq	152(%r12), %rbx
	movq	168(%r12), %rdi
	addq	%rbx, %r14
	cmovbq	%rcx, %r14
	movq	%r14, 56(%rsp)
	testq	%rbx, %rbx
	je	30f
	leaq	1(%r10), %rax
	movq	%rax, 64(%rsp)
	movq	%rdi, 16(%rsp)
	jmp	24f
22:
	movq	16(%rsp), %rdi
	.p2align	4
23:
	testq	%rbx, %rbx
	je	30f
24:
	movzwl	-2(%rdi,%rbx,2), %eax
	movq	-8(%r15,%rbx,8), %r14
	decq	%rbx
	cmpq	$2295, %rax
	ja	25f
	cmpb	$-1, 96(%rsp,%rax)
	je	23b
25:
	cmpq	%rbp, %r14
	jae	23b
	movq	%r14, %rax
	shlq	$4, %rax
	movl	(%r13,%rax), %ecx
	movzwl	8(%r13,%rax), %edx
	leaq	(%rdx,%rcx), %rsi
	cmpq	%rsi, %r10
	jb	23b
	testq	%rdx, %rdx
	je	28f
	movl	4(%r13,%rax), %esi
	movzbl	10(%r13,%rax), %r8d
	cmpq	$1, %rsi
	jne	26f
	movzbl	(%r11,%rcx), %esi
	movzbl	11(%r13,%rax), %edi
	cmpb	%dil, %sil
	jne	27f
	leaq	1(%r8), %r9
	cmpl	%edx, %r9d
	jae	27f
	movzbl	1(%r11,%rcx), %edx
	cmpb	12(%r13,%rax), %dl
	jne	22b
	addq	%r11, %r8
	movzbl	(%rcx,%r8), %edx
	cmpb	13(%r13,%rax), %dl
	jne	22b
	movzbl	1(%r8,%rcx), %ecx
	cmpb	14(%r13,%rax), %cl
	jne	22b
	jmp	28f
26:
	leal	1(%r8), %edi
	cmpl	%edx, %edi
	jae	28f
	addq	%rcx, %rsi
	movq	64(%rsp), %rdi
	subq	%rdx, %rdi
	cmpq	%rsi, %rdi
	cmovaeq	%rsi, %rdi
	leaq	(%rdi,%r8), %r9
	cmpq	$288, %r9
	jbe	29f
	addq	%rcx, %r8
	movzbl	14(%r13,%rax), %esi
	movzbl	13(%r13,%rax), %edi
	leaq	48(%rsp), %rax
	movq	%rax, (%rsp)
	movq	%r11, %rdx
	movq	%r10, %rcx
	callq	"mime_lookup::indexed::line_search::lacks_far"
	movq	32(%rsp), %r10
	movq	24(%rsp), %r11
	testb	%al, %al
	jne	22b
	jmp	28f
27:
	cmpb	%dil, %sil
	jne	22b
28:
	leaq	(%r14,%r14,4), %rax
	movq	32(%r12), %rsi
	movq	80(%rsp), %rcx
	movq	24(%rcx,%rax,8), %rdi
	cmpq	%rdi, %rsi
	cmovbq	%rsi, %rdi
	subq	%rdi, %rsi
	shlq	$6, %rdi
	addq	24(%r12), %rdi
	movq	32(%rcx,%rax,8), %rax
	cmpq	%rax, %rsi
	cmovaeq	%rax, %rsi
	leaq	48(%rsp), %r9
	movq	%r11, %rdx
	movq	%r10, %rcx
	movl	44(%rsp), %r8d
	callq	"mime_load::holding::first_line_matches"
	movq	32(%rsp), %r10
	movq	24(%rsp), %r11
	testb	%al, %al
	movq	16(%rsp), %rdi
	je	23b
	movq	(%r15,%rbx,8), %rbp
	jmp	23b
29:
	movzbl	11(%r13,%rax), %ecx
	leaq	(%rsp,%rcx,8), %rcx
	addq	$96, %rcx
	movzbl	12(%r13,%rax), %edx
	movzbl	(%rdx,%rcx), %ecx
	cmpq	$255, %rcx
	je	22b
	cmpq	%rcx, %rdi
	jbe	22b
	movzbl	13(%r13,%rax), %ecx
	movzbl	14(%r13,%rax), %eax
	leaq	(%rsp,%rcx,8), %rcx
	addq	$96, %rcx
	movzbl	(%rax,%rcx), %eax
	cmpq	$255, %rax
	je	22b
	cmpq	%rax, %r9
	ja	28b
	jmp	22b
30:
	cmpq	56(%r12), %rbp
	jae	31f
	movq	48(%r12), %rax
	leaq	(,%rbp,4), %rdx
	addq	%rbp, %rdx
	movl	16(%rax,%rdx,8), %ecx
	movq	(%rax,%rdx,8), %rsi
	movq	8(%rax,%rdx,8), %rdx
	xorl	%eax, %eax
	movq	72(%rsp), %rbx
	jmp	36f
31:
	movl	$1, %eax
	testq	%r10, %r10
	movq	72(%rsp), %rbx
	je	35f
	cmpq	$128, %r10
	movl	$128, %edi
	cmovbq	%r10, %rdi
	xorl	%r8d, %r8d
	jmp	33f
	.p2align	4
32:
	incq	%r8
	cmpq	%r8, %rdi
	je	34f
33:
	movzbl	(%r11,%r8), %r9d
	cmpl	$31, %r9d
	ja	32b
	xorl	%ecx, %ecx
	movl	$24, %edx
	leaq	.L67248b46a1a0(%rip), %rsi
	cmpl	$13, %r9d
	ja	36f
	movl	$9728, %r10d
	btl	%r9d, %r10d
	jb	32b
	jmp	36f
34:
	xorl	%ecx, %ecx
	movl	$10, %edx
	leaq	.Laafe98300121(%rip), %rsi
	jmp	36f
35:
	xorl	%ecx, %ecx
	movl	$22, %edx
	leaq	.L74bbd0aeee0d(%rip), %rsi
36:
	movq	%rax, (%rbx)
	movq	%rsi, 8(%rbx)
	movq	%rdx, 16(%rbx)
	movl	%ecx, 24(%rbx)
	addq	$2392, %rsp
	popq	%rbx
	popq	%r12
	popq	%r13
	popq	%r14
	popq	%r15
	popq	%rbp
	retq
37:
	.size	"mime_lookup::cached::sniff::sniff_indexed", 37b-"mime_lookup::cached::sniff::sniff_indexed"

	.text
	.p2align	4
	.type	"mime_lookup::cached::sniff::unalias",@function
"mime_lookup::cached::sniff::unalias":
	pushq	%r15
	pushq	%r14
	pushq	%rbx
	subq	$32, %rsp
	movq	%rdi, %rbx
	movq	8(%rdx), %r14
	movq	16(%rdx), %r15
	cmpb	$0, (%rdx)
	jne	1f
	cmpb	$1, 72(%rsi)
	jne	3f
	movl	$192, %edi
	addq	80(%rsi), %rdi
	movq	%r14, %rsi
	movq	%r15, %rdx
	callq	"mime_lookup::read_back::targets::target_of"
	movq	%rax, %r14
	movq	%rdx, %r15
1:
	xorl	%eax, %eax
2:
	movq	%rax, (%rbx)
	movq	%r14, 8(%rbx)
	movq	%r15, 16(%rbx)
	addq	$32, %rsp
	popq	%rbx
	popq	%r14
	popq	%r15
	retq
3:
	movq	%rcx, %r9
	xorps	%xmm0, %xmm0
	movaps	%xmm0, 16(%rsp)
	movaps	%xmm0, (%rsp)
	movl	36(%rsi), %edx
	addq	$16, %rsi
	movq	%rsp, %rdi
	movq	%r14, %rcx
	movq	%r15, %r8
	callq	"mime_view::pairs::look_up_pair"
	movzbl	8(%rsp), %eax
	movq	16(%rsp), %rcx
	cmpb	$0, (%rsp)
	je	4f
	movzwl	12(%rsp), %r14d
	movzwl	10(%rsp), %edx
	shll	$16, %edx
	shlq	$32, %r14
	orq	%rax, %r14
	orq	%rdx, %r14
	movl	$1, %eax
	movq	%rcx, %r15
	jmp	2b
4:
	cmpl	$1, %eax
	cmoveq	%rcx, %r14
	cmpq	$1, %rax
	jne	1b
	movq	24(%rsp), %r15
	jmp	1b
5:
	.size	"mime_lookup::cached::sniff::unalias", 5b-"mime_lookup::cached::sniff::unalias"

	.text
	.p2align	4
	.type	"mime_lookup::checking::are_one_type",@function
"mime_lookup::checking::are_one_type":
	pushq	%r15
	pushq	%r14
	pushq	%r13
	pushq	%r12
	pushq	%rbx
	testq	%rsi, %rsi
	je	7f
	movq	%rsi, %r13
	movb	$1, %bl
	decq	%r13
	je	8f
	movq	%rdi, %r14
	movq	(%rdi), %r15
	movq	8(%rdi), %r12
	cmpq	$4, %r12
	jae	5f
	testq	%r12, %r12
	je	9f
	addq	$24, %r14
	jmp	4f
	.p2align	4
1:
	xorl	%ecx, %ecx
2:
	cmpq	%r12, %rcx
	jb	7f
3:
	addq	$16, %r14
	decq	%r13
	je	8f
4:
	cmpq	(%r14), %r12
	jne	7f
	movq	-8(%r14), %rax
	movzbl	(%r15), %ecx
	cmpb	(%rax), %cl
	jne	1b
	cmpq	$1, %r12
	je	3b
	movzbl	1(%r15), %edx
	movl	$1, %ecx
	cmpb	1(%rax), %dl
	jne	2b
	cmpq	$2, %r12
	je	3b
	movzbl	2(%r15), %edx
	movl	$2, %ecx
	cmpb	2(%rax), %dl
	jne	2b
	jmp	3b
5:
	addq	$24, %r14
	.p2align	4
6:
	cmpq	(%r14), %r12
	jne	7f
	movq	-8(%r14), %rdx
	movl	(%r15), %eax
	cmpl	(%rdx), %eax
	jne	7f
	movq	%r15, %rdi
	movq	%r12, %rsi
	callq	"core::cmp::slices::groups_equal::<i8,31'core::cmp::numbers::U8PartialEq{}>"
	testb	%al, %al
	je	7f
	addq	$16, %r14
	decq	%r13
	jne	6b
	jmp	8f
7:
	xorl	%ebx, %ebx
8:
	movl	%ebx, %eax
	popq	%rbx
	popq	%r12
	popq	%r13
	popq	%r14
	popq	%r15
	retq
9:
	addq	$-2, %rsi
	addq	$24, %r14
	.p2align	4
10:
	addq	$-1, %rsi
	setb	%al
	cmpq	$0, (%r14)
	sete	%bl
	jne	8b
	addq	$16, %r14
	testb	%al, %al
	jne	10b
	jmp	8b
11:
	.size	"mime_lookup::checking::are_one_type", 11b-"mime_lookup::checking::are_one_type"

	.text
	.p2align	4
	.type	"mime_lookup::checking::named_kinds::<#fc24442ab780ff68>",@function
"mime_lookup::checking::named_kinds::<#fc24442ab780ff68>":
	pushq	%rbx
	subq	$112, %rsp
	movq	%rcx, %r8
	movq	%rdi, %rbx
	movzbl	17(%rdx), %eax
	leaq	10f(%rip), %rcx
	movslq	(%rcx,%rax,4), %rax
	addq	%rcx, %rax
	jmpq	*%rax
1:
	xorps	%xmm0, %xmm0
	leaq	8(%rsp), %rax
	xorl	%ecx, %ecx
	xorl	%edx, %edx
	jmp	8f
2:
	movq	(%rdx), %rax
	movq	8(%rdx), %rcx
	xorps	%xmm0, %xmm0
	movaps	%xmm0, 32(%rsp)
	movaps	%xmm0, 16(%rsp)
	leaq	16(%rsp), %rdi
	movq	%rax, %rdx
	callq	"mime_lookup::indexed::kept::kept_kinds"
	cmpb	$0, 16(%rsp)
	je	5f
	movb	$1, (%rbx)
	xorps	%xmm0, %xmm0
	movups	%xmm0, 8(%rbx)
	movups	%xmm0, 24(%rbx)
	addq	$112, %rsp
	popq	%rbx
	retq
3:
	movq	%rdx, %rax
	movq	(%rdx), %rdx
	movq	8(%rax), %rcx
	xorps	%xmm0, %xmm0
	movaps	%xmm0, 16(%rsp)
	movaps	%xmm0, 32(%rsp)
	movq	$0, 48(%rsp)
	movaps	%xmm0, 64(%rsp)
	movaps	%xmm0, 80(%rsp)
	movq	$0, 96(%rsp)
	movq	16(%rsi), %rax
	shrq	%rax
	cmpq	176(%rsi), %rax
	jae	4f
	movq	(%rsi), %rax
	movq	%rax, 56(%rsp)
	leaq	16(%rsp), %rdi
	leaq	56(%rsp), %rsi
	callq	"mime_lookup::lists::ListsAsked::candidate_kinds"
	movzbl	16(%rsp), %ecx
	movq	24(%rsp), %rax
	movaps	32(%rsp), %xmm0
	movq	48(%rsp), %rdx
	jmp	8f
4:
	addq	$8, %rsi
	leaq	64(%rsp), %rdi
	callq	"mime_names::candidates::candidate_kinds"
	cmpb	$0, 64(%rsp)
	je	6f
	movb	$1, %cl
	xorl	%eax, %eax
	xorl	%edx, %edx
	xorps	%xmm0, %xmm0
	jmp	8f
5:
	movq	24(%rsp), %rax
	movq	32(%rsp), %rdx
	movaps	32(%rsp), %xmm0
	jmp	7f
6:
	movq	72(%rsp), %rax
	movaps	80(%rsp), %xmm0
	movq	96(%rsp), %rdx
7:
	xorl	%ecx, %ecx
8:
	movb	%cl, (%rbx)
	movq	%rax, 8(%rbx)
	movups	%xmm0, 16(%rbx)
	movq	%rdx, 32(%rbx)
	addq	$112, %rsp
	popq	%rbx
	retq
9:
	.size	"mime_lookup::checking::named_kinds::<#fc24442ab780ff68>", 9b-"mime_lookup::checking::named_kinds::<#fc24442ab780ff68>"
	.section	.rodata,"a",@progbits
	.p2align	2, 0x0
10:
	.long	2b-10b
	.long	1b-10b
	.long	3b-10b
	.long	1b-10b

	.text
	.p2align	4
	.type	"mime_lookup::climb::climb::<#70fb81388c984f40>",@function
"mime_lookup::climb::climb::<#70fb81388c984f40>":
	pushq	%rbp
	pushq	%r15
	pushq	%r14
	pushq	%r13
	pushq	%r12
	pushq	%rbx
	subq	$88, %rsp
	movq	%r8, %r15
	movq	%rcx, %r12
	movq	%rdx, %rbp
	movq	%rsi, %r8
	movq	%rdi, 8(%rsp)
	movq	144(%rsp), %r10
	cmpq	$10, %r9
	movl	$10, %eax
	cmovbq	%r9, %rax
	movq	%rax, (%rsp)
	cmpq	$24, %r9
	movl	$24, %ebx
	cmovbq	%r9, %rbx
	leaq	176(%rsi), %rax
	movq	%rax, 40(%rsp)
	xorl	%r11d, %r11d
	movq	%rsi, 24(%rsp)
	movq	%rbx, 16(%rsp)
1:
	cmpq	%r9, %r12
	movq	%r9, %rcx
	cmovbq	%r12, %rcx
	xorl	%eax, %eax
	.p2align	4
2:
	movq	%rcx, %rdx
	subq	%rax, %rdx
	cmpq	$8, %rdx
	jb	3f
	pmovzxbw	(%r15,%rax), %xmm0
	pmovzxbw	(%rbp,%rax), %xmm1
	pcmpeqw	%xmm0, %xmm1
	packsswb	%xmm1, %xmm1
	pmovmskb	%xmm1, %edx
	notl	%edx
	orl	$256, %edx
	rep		bsfl	%edx, %edx
	addq	%rdx, %rax
	cmpb	$7, %dl
	ja	2b
3:
	cmpq	%rcx, %rax
	jae	6f
	.p2align	4
4:
	movzbl	(%r15,%rax), %edx
	cmpb	(%rbp,%rax), %dl
	jne	5f
	incq	%rax
	cmpq	%rax, %rcx
	jne	4b
	jmp	6f
	.p2align	4
5:
	movq	%rax, %rcx
6:
	leaq	1(%rcx), %rdx
	addq	8(%r10), %rdx
	movq	$-1, %rax
	cmovaeq	%rdx, %rax
	movq	%rax, 8(%r10)
	movq	%rcx, %rdx
	xorq	%r9, %rdx
	xorq	%r12, %rcx
	orq	%rdx, %rcx
	je	28f
	cmpq	$5, %r12
	jb	13f
	movl	$1, %ecx
	cmpb	$116, (%rbp)
	jne	10f
	movl	$2, %ecx
	cmpb	$101, 1(%rbp)
	jne	10f
	movl	$3, %ecx
	cmpb	$120, 2(%rbp)
	jne	10f
	movl	$4, %ecx
	cmpb	$116, 3(%rbp)
	jne	10f
	movl	$5, %ecx
	cmpb	$47, 4(%rbp)
	jne	10f
	addq	$6, %rax
	movq	$-1, %rcx
	cmovaeq	%rax, %rcx
	movq	%rcx, 8(%r10)
	xorl	%eax, %eax
	.p2align	4
7:
	movq	(%rsp), %rsi
	subq	%rax, %rsi
	leaq	.Laafe98300121(%rip), %rdx
	cmpq	$8, %rsi
	jb	8f
	pmovzxbw	(%rax,%rdx), %xmm0
	pmovzxbw	(%r15,%rax), %xmm1
	pcmpeqw	%xmm0, %xmm1
	packsswb	%xmm1, %xmm1
	pmovmskb	%xmm1, %esi
	notl	%esi
	orl	$256, %esi
	rep		bsfl	%esi, %esi
	addq	%rsi, %rax
	cmpb	$7, %sil
	ja	7b
8:
	movq	(%rsp), %rdi
	movq	%rdi, %rsi
	cmpq	%rdi, %rax
	jae	27f
	.p2align	4
9:
	movzbl	(%rax,%rdx), %esi
	cmpb	(%r15,%rax), %sil
	jne	26f
	incq	%rax
	cmpq	%rax, (%rsp)
	jne	9b
	movq	(%rsp), %rsi
	jmp	27f
	.p2align	4
10:
	addq	%rax, %rcx
	movq	$-1, %rax
	cmovaeq	%rcx, %rax
	movq	%rax, 8(%r10)
11:
	cmpq	$5, %r12
	je	13f
	movl	$1, %ecx
	cmpb	$105, (%rbp)
	jne	12f
	movl	$2, %ecx
	cmpb	$110, 1(%rbp)
	jne	12f
	movl	$3, %ecx
	cmpb	$111, 2(%rbp)
	jne	12f
	movl	$4, %ecx
	cmpb	$100, 3(%rbp)
	jne	12f
	movl	$5, %ecx
	cmpb	$101, 4(%rbp)
	jne	12f
	movl	$6, %ecx
	cmpb	$47, 5(%rbp)
	jne	12f
	addq	$7, %rax
	movq	$-1, %rcx
	cmovaeq	%rax, %rcx
	movq	%rcx, 8(%r10)
	jmp	19f
	.p2align	4
12:
	addq	%rax, %rcx
	movq	$-1, %rax
	cmovaeq	%rcx, %rax
	movq	%rax, 8(%r10)
13:
	xorl	%ecx, %ecx
	.p2align	4
14:
	movq	%rbx, %rsi
	subq	%rcx, %rsi
	leaq	.L67248b46a1a0(%rip), %rdx
	cmpq	$8, %rsi
	jb	15f
	pmovzxbw	(%rcx,%rdx), %xmm0
	pmovzxbw	(%r15,%rcx), %xmm1
	pcmpeqw	%xmm0, %xmm1
	packsswb	%xmm1, %xmm1
	pmovmskb	%xmm1, %esi
	notl	%esi
	orl	$256, %esi
	rep		bsfl	%esi, %esi
	addq	%rsi, %rcx
	cmpb	$7, %sil
	ja	14b
15:
	movq	%rbx, %rsi
	cmpq	%rbx, %rcx
	jae	18f
	.p2align	4
16:
	movzbl	(%rcx,%rdx), %esi
	cmpb	(%r15,%rcx), %sil
	jne	17f
	incq	%rcx
	cmpq	%rcx, %rbx
	jne	16b
	movq	%rbx, %rsi
	jmp	18f
	.p2align	4
17:
	movq	%rcx, %rsi
18:
	leaq	1(%rsi), %rcx
	addq	%rax, %rcx
	movq	$-1, %rax
	cmovaeq	%rcx, %rax
	movq	%rax, 8(%r10)
	cmpq	$24, %r9
	jne	19f
	cmpq	$24, %rsi
	je	28f
19:
	pxor	%xmm0, %xmm0
	movdqa	%xmm0, 64(%rsp)
	movdqa	%xmm0, 48(%rsp)
	cmpq	$8, %r12
	jb	20f
	movq	%r12, %rax
	shrq	%rax
	movq	-4(%rbp,%rax), %rax
	leaq	(%rax,%rax,2), %rcx
	addq	-8(%rbp,%r12), %rcx
	movabsq	$-4658895280553007687, %rax
	imulq	%rcx, %rax
	shrq	$49, %rax
	andl	$-2, %eax
	movq	176(%r8), %rcx
	movzwl	(%rcx,%rax), %eax
	cmpq	%rax, 208(%r8)
	ja	21f
	jmp	31f
	.p2align	4
20:
	xorl	%eax, %eax
	movq	176(%r8), %rcx
	movzwl	(%rcx,%rax), %eax
	cmpq	%rax, 208(%r8)
	jbe	31f
21:
	movq	200(%r8), %r14
	shll	$4, %eax
	leaq	(%rax,%rax,2), %r13
	cmpq	%r12, 8(%r14,%r13)
	jne	24f
	movq	(%r14,%r13), %rdi
	cmpq	$4, %r12
	jae	22f
	testq	%r12, %r12
	je	23f
	movzbl	(%rdi), %eax
	cmpb	(%rbp), %al
	jne	24f
	cmpq	$1, %r12
	je	23f
	movzbl	1(%rdi), %eax
	cmpb	1(%rbp), %al
	jne	24f
	cmpq	$2, %r12
	je	23f
	movzbl	2(%rdi), %eax
	cmpb	2(%rbp), %al
	je	23f
	jmp	24f
	.p2align	4
22:
	movl	(%rdi), %eax
	cmpl	(%rbp), %eax
	jne	24f
	movq	%r12, %rsi
	movq	%rbp, %rdx
	movq	%r9, 32(%rsp)
	movq	%r12, %rbx
	movl	%r11d, %r12d
	callq	"core::cmp::slices::groups_equal::<i8,31'core::cmp::numbers::U8PartialEq{}>"
	movl	%r12d, %r11d
	movq	%rbx, %r12
	movq	16(%rsp), %rbx
	movq	144(%rsp), %r10
	movq	24(%rsp), %r8
	movq	32(%rsp), %r9
	testb	%al, %al
	je	24f
23:
	movzbl	16(%r14,%r13), %edx
	movq	24(%r14,%r13), %rax
	movq	32(%r14,%r13), %rcx
	cmpb	$1, %dl
	je	25f
	jmp	29f
	.p2align	4
24:
	cmpb	$1, 40(%r14,%r13)
	jne	31f
	movq	%r12, %rcx
	movl	%r11d, %ebx
	movq	%r10, %r13
	movq	%r9, %r14
	leaq	48(%rsp), %rdi
	movq	40(%rsp), %rsi
	movq	%rbp, %rdx
	callq	"mime_lookup::name_map::other_value::<#afcbbff7ae072e5e>"
	cmpb	$1, 48(%rsp)
	jne	31f
	movzbl	56(%rsp), %edx
	movq	64(%rsp), %rax
	movq	72(%rsp), %rcx
	movq	%r14, %r9
	movq	24(%rsp), %r8
	movq	%r13, %r10
	movl	%ebx, %r11d
	movq	16(%rsp), %rbx
	cmpb	$1, %dl
	jne	29f
25:
	incl	%r11d
	movq	%rcx, %r12
	movq	%rax, %rbp
	cmpl	$16, %r11d
	jne	1b
	jmp	30f
26:
	movq	%rax, %rsi
27:
	leaq	1(%rsi), %rdx
	addq	%rcx, %rdx
	movq	$-1, %rax
	cmovaeq	%rdx, %rax
	movq	%rax, 8(%r10)
	cmpq	$10, %r9
	jne	11b
	cmpq	$10, %rsi
	jne	11b
28:
	movq	8(%rsp), %rax
	movw	$256, (%rax)
	jmp	32f
29:
	movzbl	%dl, %edx
	movq	%rbp, %rax
	movq	%r12, %rcx
	cmpl	$2, %edx
	jne	31f
30:
	movq	8(%rsp), %rdx
	movw	$1, (%rdx)
	movq	%rax, 8(%rdx)
	movq	%rcx, 16(%rdx)
	jmp	33f
31:
	movq	8(%rsp), %rax
	movw	$0, (%rax)
32:
	pxor	%xmm0, %xmm0
	movdqu	%xmm0, 8(%rax)
33:
	addq	$88, %rsp
	popq	%rbx
	popq	%r12
	popq	%r13
	popq	%r14
	popq	%r15
	popq	%rbp
	retq
34:
	.size	"mime_lookup::climb::climb::<#70fb81388c984f40>", 34b-"mime_lookup::climb::climb::<#70fb81388c984f40>"

	.section	.rodata.cst16,"aM",@progbits,16
	.p2align	4, 0x0
1:
	.byte	0,1,2,3,4,5,6,7,8,9,10,11,12,13,14,15
2:
	.byte	16,17,18,19,20,21,22,23,24,25,26,27,28,29,30,31
	.text
	.p2align	4
	.type	"mime_lookup::content::UntoldContent::read_piece::<#f1288b38c1c1b0eb>",@function
"mime_lookup::content::UntoldContent::read_piece::<#f1288b38c1c1b0eb>":
	pushq	%r14
	pushq	%rbx
	subq	$88, %rsp
	movq	%rdx, %r14
	movq	%rdi, %rbx
	xorl	%edi, %edi
	callq	read@PLT
	testq	%rax, %rax
	js	3f
	cmpq	%r14, %rax
	cmovbq	%rax, %r14
	xorl	%eax, %eax
	xorl	%ecx, %ecx
	jmp	5f
3:
	callq	rattle_errno@PLT
	movq	%rsp, %rdi
	movl	%eax, %esi
	callq	"std_io::io::error::Error::from_raw_os_error"
	movq	(%rsp), %rax
	shrq	$8, %rax
	movaps	1b(%rip), %xmm0
	movaps	%xmm0, (%rsp)
	movaps	2b(%rip), %xmm0
	movaps	%xmm0, 16(%rsp)
	movabsq	$2820983053732684064, %rcx
	movq	%rcx, 32(%rsp)
	movb	$40, 40(%rsp)
	cmpb	$41, %al
	jae	4f
	andl	$63, %eax
	cmpb	$35, (%rsp,%rax)
	setne	%cl
	movb	$1, %al
	xorl	%r14d, %r14d
	jmp	5f
4:
	movb	$1, %al
	xorl	%r14d, %r14d
	movb	$1, %cl
5:
	movb	%al, (%rbx)
	movb	%cl, 1(%rbx)
	movq	%r14, 8(%rbx)
	addq	$88, %rsp
	popq	%rbx
	popq	%r14
	retq
6:
	.size	"mime_lookup::content::UntoldContent::read_piece::<#f1288b38c1c1b0eb>", 6b-"mime_lookup::content::UntoldContent::read_piece::<#f1288b38c1c1b0eb>"

	.section	.rodata.cst16,"aM",@progbits,16
	.p2align	4, 0x0
1:
	.byte	0,1,2,3,4,5,6,7,8,9,10,11,12,13,14,15
2:
	.byte	16,17,18,19,20,21,22,23,24,25,26,27,28,29,30,31
	.text
	.p2align	4
	.type	"mime_lookup::content::UntoldContent::read_piece::<13'std::fs::File,17'std::fs::FileRead{}>",@function
"mime_lookup::content::UntoldContent::read_piece::<13'std::fs::File,17'std::fs::FileRead{}>":
	pushq	%r14
	pushq	%rbx
	subq	$88, %rsp
	movq	%rcx, %r14
	movq	%rdi, %rbx
	movl	%esi, %edi
	movq	%rdx, %rsi
	movq	%rcx, %rdx
	callq	read@PLT
	testq	%rax, %rax
	js	3f
	cmpq	%r14, %rax
	cmovbq	%rax, %r14
	xorl	%eax, %eax
	xorl	%ecx, %ecx
	jmp	5f
3:
	callq	rattle_errno@PLT
	movq	%rsp, %rdi
	movl	%eax, %esi
	callq	"std_io::io::error::Error::from_raw_os_error"
	movq	(%rsp), %rax
	shrq	$8, %rax
	movaps	1b(%rip), %xmm0
	movaps	%xmm0, (%rsp)
	movaps	2b(%rip), %xmm0
	movaps	%xmm0, 16(%rsp)
	movabsq	$2820983053732684064, %rcx
	movq	%rcx, 32(%rsp)
	movb	$40, 40(%rsp)
	cmpb	$41, %al
	jae	4f
	andl	$63, %eax
	cmpb	$35, (%rsp,%rax)
	setne	%cl
	movb	$1, %al
	xorl	%r14d, %r14d
	jmp	5f
4:
	movb	$1, %al
	xorl	%r14d, %r14d
	movb	$1, %cl
5:
	movb	%al, (%rbx)
	movb	%cl, 1(%rbx)
	movq	%r14, 8(%rbx)
	addq	$88, %rsp
	popq	%rbx
	popq	%r14
	retq
6:
	.size	"mime_lookup::content::UntoldContent::read_piece::<13'std::fs::File,17'std::fs::FileRead{}>", 6b-"mime_lookup::content::UntoldContent::read_piece::<13'std::fs::File,17'std::fs::FileRead{}>"

	.text
	.p2align	4
	.type	"mime_lookup::indexed::kept::kept_kinds",@function
"mime_lookup::indexed::kept::kept_kinds":
	pushq	%rbp
	pushq	%r15
	pushq	%r14
	pushq	%r13
	pushq	%r12
	pushq	%rbx
	subq	$328, %rsp
	movq	%r8, %r12
	movq	%rsi, %r13
	movq	%rdi, %rbx
	xorps	%xmm0, %xmm0
	movaps	%xmm0, 224(%rsp)
	movaps	%xmm0, 208(%rsp)
	movq	$0, 248(%rsp)
	movq	16(%rsi), %rax
	shrq	%rax
	cmpq	176(%rsi), %rax
	jae	1f
	movq	(%r13), %rax
	movq	%rax, 248(%rsp)
	leaq	208(%rsp), %rdi
	leaq	248(%rsp), %rsi
	movq	%r12, %r8
	callq	"mime_lookup::lists::ListsAsked::kept_kinds"
	movzbl	208(%rsp), %eax
	movb	%al, (%rbx)
	movups	216(%rsp), %xmm0
	movups	%xmm0, 8(%rbx)
	movq	232(%rsp), %rax
	movq	%rax, 24(%rbx)
	jmp	69f
1:
	movq	%rdx, 72(%rsp)
	movq	%rcx, 40(%rsp)
	movq	%rbx, 64(%rsp)
	movaps	%xmm0, 176(%rsp)
	movq	$0, 192(%rsp)
	movaps	%xmm0, 304(%rsp)
	movaps	%xmm0, 288(%rsp)
	movq	$0, 320(%rsp)
	movaps	%xmm0, 80(%rsp)
	movaps	%xmm0, 96(%rsp)
	movaps	%xmm0, 112(%rsp)
	movaps	%xmm0, 128(%rsp)
	movaps	%xmm0, 144(%rsp)
	movq	128(%r13), %rax
	movq	2056(%rax), %rbx
	testq	%rbx, %rbx
	je	7f
	movq	152(%r13), %r14
	movq	(%r12), %rax
	incq	%rax
	movq	$-1, %rcx
	cmovneq	%rax, %rcx
	movq	%rcx, (%r12)
	jmp	4f
	.p2align	4
2:
	movq	88(%rsp), %rax
	movq	96(%rsp), %rdx
	movq	%rcx, (%rax,%rdx,8)
	incq	%rdx
	movq	%rdx, 96(%rsp)
3:
	movq	(%r12), %rcx
	incq	%rcx
	movq	$-1, %rax
	cmovneq	%rcx, %rax
	movq	%rax, (%r12)
	movq	-8(%r14,%rbx,8), %rbx
	testq	%rbx, %rbx
	je	8f
4:
	movzbl	80(%rsp), %eax
	testb	%al, %al
	leaq	152(%rsp), %rcx
	leaq	96(%rsp), %rdx
	movl	$8, %esi
	cmovneq	104(%rsp), %rsi
	cmoveq	%rcx, %rdx
	cmpq	%rsi, (%rdx)
	je	6f
	leaq	-1(%rbx), %rcx
	testb	%al, %al
	jne	2b
5:
	movq	152(%rsp), %rax
	movq	%rcx, 88(%rsp,%rax,8)
	incq	%rax
	movq	%rax, 152(%rsp)
	jmp	3b
6:
	leaq	80(%rsp), %rdi
	callq	"smallvec::small_vec::SmallVec::reserve_one::<#1d7ca747d7f7d6e4>"
	testb	%al, %al
	jne	65f
	movzbl	80(%rsp), %eax
	leaq	-1(%rbx), %rcx
	testb	%al, %al
	jne	2b
	jmp	5b
7:
	movq	(%r12), %rcx
	incq	%rcx
	movq	$-1, %rax
	cmovneq	%rcx, %rax
	movq	%rax, (%r12)
8:
	movq	40(%rsp), %r14
	xorl	%ebx, %ebx
	testq	%r14, %r14
	jne	11f
	jmp	18f
	.p2align	4
9:
	movq	%rax, %rcx
	addq	$2, %rcx
	movq	$-1, %rax
	cmovaeq	%rcx, %rax
	movq	%rax, (%r12)
10:
	decq	%r14
	je	17f
11:
	movq	%rax, %rcx
	incq	%rcx
	movq	$-1, %rdx
	cmovneq	%rcx, %rdx
	movq	%rdx, (%r12)
	movq	72(%rsp), %rcx
	movzbl	-1(%rcx,%r14), %ecx
	leaq	.L2f9e9aa9650f(%rip), %rdx
	movzbl	(%rcx,%rdx), %ecx
	movq	56(%r13), %rdx
	movq	80(%r13), %rsi
	addq	(%rdx,%rbx,8), %rcx
	movl	(%rsi,%rcx,4), %ebx
	testq	%rbx, %rbx
	je	25f
	movq	128(%r13), %rcx
	movq	2056(%rcx,%rbx,8), %r15
	testq	%r15, %r15
	je	9b
	movq	152(%r13), %rbp
	addq	$2, %rax
	movq	$-1, %rcx
	cmovaeq	%rax, %rcx
	movq	%rcx, (%r12)
	jmp	14f
	.p2align	4
12:
	movq	88(%rsp), %rax
	movq	96(%rsp), %rdx
	movq	%rcx, (%rax,%rdx,8)
	incq	%rdx
	movq	%rdx, 96(%rsp)
13:
	movq	(%r12), %rcx
	incq	%rcx
	movq	$-1, %rax
	cmovneq	%rcx, %rax
	movq	%rax, (%r12)
	movq	-8(%rbp,%r15,8), %r15
	testq	%r15, %r15
	je	10b
14:
	movzbl	80(%rsp), %eax
	testb	%al, %al
	leaq	152(%rsp), %rcx
	leaq	96(%rsp), %rdx
	movl	$8, %esi
	cmovneq	104(%rsp), %rsi
	cmoveq	%rcx, %rdx
	cmpq	%rsi, (%rdx)
	je	16f
	leaq	-1(%r15), %rcx
	testb	%al, %al
	jne	12b
15:
	movq	152(%rsp), %rax
	movq	%rcx, 88(%rsp,%rax,8)
	incq	%rax
	movq	%rax, 152(%rsp)
	jmp	13b
16:
	leaq	80(%rsp), %rdi
	callq	"smallvec::small_vec::SmallVec::reserve_one::<#1d7ca747d7f7d6e4>"
	testb	%al, %al
	jne	65f
	movzbl	80(%rsp), %eax
	leaq	-1(%r15), %rcx
	testb	%al, %al
	jne	12b
	jmp	15b
17:
	shlq	$3, %rbx
18:
	movq	%rax, %rcx
	incq	%rcx
	movq	$-1, %rdx
	cmovneq	%rcx, %rdx
	movq	%rdx, (%r12)
	movq	56(%r13), %rcx
	movq	80(%r13), %rdx
	movq	(%rcx,%rbx), %rcx
	movl	(%rdx,%rcx,4), %ecx
	testq	%rcx, %rcx
	je	25f
	movq	128(%r13), %rdx
	movq	2056(%rdx,%rcx,8), %rbx
	testq	%rbx, %rbx
	je	24f
	movq	152(%r13), %r14
	addq	$2, %rax
	movq	$-1, %rcx
	cmovaeq	%rax, %rcx
	movq	%rcx, (%r12)
	jmp	21f
	.p2align	4
19:
	movq	88(%rsp), %rax
	movq	96(%rsp), %rdx
	movq	%rcx, (%rax,%rdx,8)
	incq	%rdx
	movq	%rdx, 96(%rsp)
20:
	movq	(%r12), %rax
	incq	%rax
	movq	$-1, %rcx
	cmovneq	%rax, %rcx
	movq	%rcx, (%r12)
	movq	-8(%r14,%rbx,8), %rbx
	testq	%rbx, %rbx
	je	25f
21:
	movzbl	80(%rsp), %eax
	testb	%al, %al
	leaq	152(%rsp), %rcx
	leaq	96(%rsp), %rdx
	movl	$8, %esi
	cmovneq	104(%rsp), %rsi
	cmoveq	%rcx, %rdx
	cmpq	%rsi, (%rdx)
	je	23f
	leaq	-1(%rbx), %rcx
	testb	%al, %al
	jne	19b
22:
	movq	152(%rsp), %rax
	movq	%rcx, 88(%rsp,%rax,8)
	incq	%rax
	movq	%rax, 152(%rsp)
	jmp	20b
23:
	leaq	80(%rsp), %rdi
	callq	"smallvec::small_vec::SmallVec::reserve_one::<#1d7ca747d7f7d6e4>"
	testb	%al, %al
	jne	65f
	movzbl	80(%rsp), %eax
	leaq	-1(%rbx), %rcx
	testb	%al, %al
	jne	19b
	jmp	22b
24:
	addq	$2, %rax
	movq	$-1, %rcx
	cmovaeq	%rax, %rcx
	movq	%rcx, (%r12)
25:
	leaq	88(%rsp), %rbx
	movzbl	80(%rsp), %eax
	testb	%al, %al
	movq	88(%rsp), %rbp
	movq	%rbp, %rdi
	cmoveq	%rbx, %rdi
	movq	152(%rsp), %rcx
	movq	96(%rsp), %r8
	movq	%r8, %rsi
	cmoveq	%rcx, %rsi
	cmpq	$2, %rsi
	jae	26f
	movq	40(%rsp), %r14
	jmp	29f
26:
	movq	%r8, %r9
	movl	$1, %edx
	movq	40(%rsp), %r14
	.p2align	4
27:
	movq	-8(%rdi,%rdx,8), %r8
	cmpq	(%rdi,%rdx,8), %r8
	ja	28f
	incq	%rdx
	cmpq	%rdx, %rsi
	jne	27b
	movq	%r9, %r8
	jmp	29f
28:
	callq	"core::slice::sort::slice+T::sort_unstable::<#17f159365526a5ba>"
	movzbl	80(%rsp), %eax
	movq	88(%rsp), %rbp
	movq	152(%rsp), %rcx
	movq	96(%rsp), %r8
29:
	movq	8(%r13), %rdx
	testb	%al, %al
	cmoveq	%rbx, %rbp
	movq	32(%r13), %rax
	movq	%rax, 16(%rsp)
	cmoveq	%rcx, %r8
	testq	%r8, %r8
	je	57f
	leaq	-1(%r14), %rax
	movq	%rax, 264(%rsp)
	movq	72(%rsp), %rax
	addq	%r14, %rax
	decq	%rax
	movq	%rax, 168(%rsp)
	negq	%r14
	movq	%r14, 280(%rsp)
	xorl	%esi, %esi
	xorl	%r11d, %r11d
	xorl	%r15d, %r15d
	xorl	%eax, %eax
	xorl	%r9d, %r9d
	movq	%rdx, 8(%rsp)
	movq	%r8, 48(%rsp)
	movq	16(%rsp), %rcx
	movq	%rbp, 272(%rsp)
	jmp	34f
30:
	movq	%r14, (%rbp,%r11,8)
	incq	%r11
31:
	movl	%eax, %esi
32:
	incq	%r14
	movq	%r14, %rax
33:
	incq	%r15
	cmpq	%r8, %r15
	je	56f
34:
	movq	(%rbp,%r15,8), %r14
	cmpq	%r14, %rax
	ja	33b
	movq	%r14, %rbx
	shlq	$6, %rbx
	cmpq	%r14, %r9
	jne	36f
	cmpb	$0, 63(%rdx,%rbx)
	je	36f
35:
	leaq	1(%r14), %r9
	movl	56(%rdx,%rbx), %eax
	cmpl	%esi, %eax
	jb	32b
	jbe	30b
	movq	%r14, (%rbp)
	movl	$1, %r11d
	jmp	31b
	.p2align	4
36:
	movq	%rsi, 24(%rsp)
	movq	40(%rdx,%rbx), %rax
	movq	48(%rdx,%rbx), %rsi
	leaq	(%rcx,%rax), %rdi
	cmpb	$0, 32(%rdx,%rbx)
	cmoveq	%rax, %rdi
	movzbl	62(%rdx,%rbx), %eax
	cmpl	$2, %eax
	je	37f
	cmpl	$1, %eax
	jne	38f
	xorl	%ecx, %ecx
	testq	%rsi, %rsi
	setne	%cl
	movq	%rsi, %rax
	subq	%rcx, %rax
	movq	40(%rsp), %rdx
	subq	%rax, %rdx
	jae	42f
	movq	8(%rsp), %rdx
	movq	16(%rsp), %rcx
	movq	24(%rsp), %rsi
	jmp	32b
37:
	movq	8(%rsp), %rax
	movzbl	61(%rax,%rbx), %edx
	movq	72(%rsp), %rcx
	movq	40(%rsp), %r8
	movq	%r9, 32(%rsp)
	movq	%r12, %r9
	movq	%r13, %rbp
	movq	%r11, %r13
	callq	"mime_names::indexed_rule::is_general_match"
	movq	32(%rsp), %r9
	movq	16(%rsp), %rcx
	movq	48(%rsp), %r8
	movq	8(%rsp), %rdx
	movq	%r13, %r11
	movq	%rbp, %r13
	movq	272(%rsp), %rbp
	testb	%al, %al
	movq	24(%rsp), %rsi
	je	32b
	jmp	35b
38:
	movq	40(%rsp), %rax
	cmpq	%rax, %rsi
	jne	44f
	movq	%r9, 32(%rsp)
	testq	%rax, %rax
	je	45f
	movq	8(%rsp), %rax
	movzbl	61(%rax,%rbx), %eax
	movzbl	(%rdi), %edx
	movq	72(%rsp), %rcx
	movzbl	(%rcx), %ecx
	cmpb	%cl, %dl
	je	39f
	leal	-65(%rdx), %esi
	leal	32(%rdx), %r8d
	cmpb	$26, %sil
	movzbl	%r8b, %esi
	movzbl	%dl, %edx
	cmovael	%edx, %esi
	leal	-65(%rcx), %r8d
	leal	32(%rcx), %r9d
	cmpb	$26, %r8b
	movzbl	%r9b, %r8d
	movzbl	%cl, %ecx
	cmovael	%ecx, %r8d
	testb	%al, %al
	cmovnel	%edx, %esi
	cmovnel	%ecx, %r8d
	cmpb	%r8b, %sil
	jne	50f
39:
	addq	264(%rsp), %rdi
	xorl	%ecx, %ecx
	jmp	41f
	.p2align	4
40:
	decq	%rcx
	cmpq	%rcx, 280(%rsp)
	je	45f
41:
	movzbl	(%rdi,%rcx), %esi
	movq	168(%rsp), %rdx
	movzbl	(%rdx,%rcx), %edx
	cmpb	%dl, %sil
	je	40b
	leal	-65(%rsi), %r8d
	leal	32(%rsi), %r9d
	cmpb	$26, %r8b
	movzbl	%r9b, %r8d
	movzbl	%sil, %esi
	cmovael	%esi, %r8d
	leal	-65(%rdx), %r9d
	leal	32(%rdx), %r10d
	cmpb	$26, %r9b
	movzbl	%r10b, %r9d
	movzbl	%dl, %edx
	cmovael	%edx, %r9d
	testb	%al, %al
	cmovnel	%esi, %r8d
	cmovnel	%edx, %r9d
	cmpb	%r9b, %r8b
	je	40b
	movl	$1, %eax
	subq	%rcx, %rax
	addq	8(%r12), %rax
	movq	$-1, %rcx
	cmovaeq	%rax, %rcx
	jmp	51f
42:
	cmpq	$2, %rsi
	jae	47f
43:
	addq	8(%r12), %rax
	jmp	46f
44:
	movq	24(%rsp), %rsi
	jmp	32b
45:
	movq	8(%r12), %rax
	addq	40(%rsp), %rax
46:
	movq	$-1, %rcx
	cmovaeq	%rax, %rcx
	movq	%rcx, 8(%r12)
	movq	8(%rsp), %rdx
	movq	48(%rsp), %r8
	movq	16(%rsp), %rcx
	movq	24(%rsp), %rsi
	jmp	35b
47:
	movq	%r9, 32(%rsp)
	addq	%rcx, %rdi
	movq	8(%rsp), %rcx
	movzbl	61(%rcx,%rbx), %ecx
	movzbl	(%rdi), %r8d
	movq	72(%rsp), %r9
	movzbl	(%r9,%rdx), %edx
	cmpb	%dl, %r8b
	je	48f
	leal	-65(%r8), %r9d
	leal	32(%r8), %r10d
	cmpb	$26, %r9b
	movzbl	%r10b, %r9d
	movzbl	%r8b, %r8d
	cmovael	%r8d, %r9d
	leal	-65(%rdx), %r10d
	movq	%r11, 256(%rsp)
	leal	32(%rdx), %r11d
	cmpb	$26, %r10b
	movzbl	%r11b, %r10d
	movq	256(%rsp), %r11
	movzbl	%dl, %edx
	cmovael	%edx, %r10d
	testb	%cl, %cl
	cmovnel	%r8d, %r9d
	cmovnel	%edx, %r10d
	cmpb	%r10b, %r9b
	jne	50f
48:
	testb	%cl, %cl
	je	52f
	cmpq	$1, %rsi
	movl	$1, %ecx
	cmovbq	%rsi, %rcx
	notq	%rcx
	addq	%rsi, %rcx
	movq	168(%rsp), %rdx
	movq	32(%rsp), %r9
	.p2align	4
49:
	movzbl	(%rdi,%rcx), %esi
	cmpb	(%rdx), %sil
	jne	55f
	decq	%rdx
	addq	$-1, %rcx
	jb	49b
	jmp	43b
50:
	movq	8(%r12), %rax
	incq	%rax
	movq	$-1, %rcx
	cmovneq	%rax, %rcx
51:
	movq	%rcx, 8(%r12)
	movq	8(%rsp), %rdx
	movq	48(%rsp), %r8
	movq	16(%rsp), %rcx
	movq	24(%rsp), %rsi
	movq	32(%rsp), %r9
	jmp	32b
52:
	cmpq	$1, %rsi
	movl	$1, %ecx
	cmovbq	%rsi, %rcx
	notq	%rcx
	addq	%rsi, %rcx
	movq	168(%rsp), %rdx
	jmp	54f
	.p2align	4
53:
	decq	%rdx
	addq	$-1, %rcx
	jae	43b
54:
	movzbl	(%rdi,%rcx), %r8d
	movzbl	(%rdx), %esi
	cmpb	%sil, %r8b
	je	53b
	leal	-65(%r8), %r9d
	leal	32(%r8), %r10d
	cmpb	$26, %r9b
	movzbl	%r8b, %r8d
	movzbl	%r10b, %r9d
	cmovael	%r8d, %r9d
	leal	-65(%rsi), %r8d
	leal	32(%rsi), %r10d
	cmpb	$26, %r8b
	movzbl	%sil, %esi
	movzbl	%r10b, %r8d
	cmovael	%esi, %r8d
	cmpb	%r8b, %r9b
	movq	32(%rsp), %r9
	je	53b
55:
	movq	24(%rsp), %rsi
	subq	%rcx, %rax
	addq	8(%r12), %rax
	movq	$-1, %rcx
	cmovaeq	%rax, %rcx
	movq	%rcx, 8(%r12)
	movq	8(%rsp), %rdx
	movq	48(%rsp), %r8
	movq	16(%rsp), %rcx
	jmp	32b
56:
	cmpq	$1, %r11
	je	60f
	testq	%r11, %r11
	jne	64f
	movq	8(%r13), %rdx
	movq	32(%r13), %rsi
	movq	64(%rsp), %rbx
	movq	40(%rsp), %r14
	jmp	58f
57:
	movq	64(%rsp), %rbx
	movq	16(%rsp), %rsi
58:
	addq	$56, %r13
	movq	%r12, (%rsp)
	leaq	288(%rsp), %rdi
	movq	%r13, %rcx
	movq	72(%rsp), %r8
	movq	%r14, %r9
	callq	"mime_names::kept::other_kinds"
	cmpb	$0, 288(%rsp)
	je	59f
	cmpb	$1, 80(%rsp)
	je	66f
	jmp	68f
59:
	movzbl	296(%rsp), %r15d
	movq	304(%rsp), %r14
	movq	312(%rsp), %rsi
	movq	320(%rsp), %rbx
	cmpb	$1, 80(%rsp)
	je	61f
	jmp	62f
60:
	movq	(%rbp), %rax
	shlq	$6, %rax
	movq	(%rdx,%rax), %r14
	movq	8(%rdx,%rax), %rsi
	xorl	%ebx, %ebx
	xorl	%r15d, %r15d
	cmpb	$1, 80(%rsp)
	jne	62f
61:
	cmpq	$0, 104(%rsp)
	je	62f
	movq	88(%rsp), %rdi
	movq	%rsi, %r12
	callq	rattle_dealloc@PLT
	movq	%r12, %rsi
62:
	testb	%r15b, %r15b
	je	70f
63:
	movq	%r14, 216(%rsp)
	movq	%rsi, 224(%rsp)
	movq	%rbx, 232(%rsp)
	movq	64(%rsp), %rcx
	movb	$0, (%rcx)
	movq	216(%rsp), %rax
	movq	%rax, 8(%rcx)
	movq	224(%rsp), %rax
	movq	%rax, 16(%rcx)
	movq	232(%rsp), %rax
	movq	%rax, 24(%rcx)
	jmp	69f
64:
	movabsq	$576460752303423486, %rbx
	leaq	2(%rbx), %rax
	cmpq	%rax, %r11
	jae	65f
	movq	%r11, %rdi
	shlq	$4, %rdi
	movl	$8, %esi
	movq	%r11, %r14
	callq	rattle_alloc@PLT
	movq	%r14, %rsi
	movq	%rdx, %r14
	movq	8(%rsp), %rdx
	testb	$1, %al
	je	65f
	cmpq	$1, %rsi
	jne	71f
	xorl	%eax, %eax
	jmp	73f
65:
	cmpb	$1, 80(%rsp)
	movq	64(%rsp), %rbx
	jne	68f
66:
	cmpq	$0, 104(%rsp)
	je	68f
	movq	88(%rsp), %rdi
67:
	callq	rattle_dealloc@PLT
68:
	movb	$1, (%rbx)
	xorps	%xmm0, %xmm0
	movups	%xmm0, 8(%rbx)
	movq	$0, 24(%rbx)
69:
	addq	$328, %rsp
	popq	%rbx
	popq	%r12
	popq	%r13
	popq	%r14
	popq	%r15
	popq	%rbp
	retq
70:
	movq	%rsi, %r15
	leaq	56(%rsp), %rax
	movq	%rax, 176(%rsp)
	xorps	%xmm0, %xmm0
	movups	%xmm0, 184(%rsp)
	leaq	176(%rsp), %rdi
	callq	"std_alloc::vec::Vec::grow_amortized::<#25095d740b27081c>"
	testb	%al, %al
	je	75f
	movq	176(%rsp), %rax
	movq	184(%rsp), %rcx
	movq	192(%rsp), %rbx
	movq	%rcx, %rdx
	shlq	$4, %rdx
	movq	%r14, (%rax,%rdx)
	movq	%r15, 8(%rax,%rdx)
	incq	%rcx
	movq	%rax, %r14
	movq	%rcx, %rsi
	jmp	63b
71:
	andq	%rsi, %rbx
	leaq	24(%r14), %rcx
	xorl	%eax, %eax
	.p2align	4
72:
	movq	(%rbp,%rax,8), %rdx
	shlq	$6, %rdx
	movq	8(%rsp), %rdi
	movups	(%rdi,%rdx), %xmm0
	movups	%xmm0, -24(%rcx)
	movq	8(%rbp,%rax,8), %rdx
	shlq	$6, %rdx
	movq	8(%rsp), %rdi
	movups	(%rdi,%rdx), %xmm0
	movq	8(%rsp), %rdx
	movups	%xmm0, -8(%rcx)
	addq	$2, %rax
	addq	$32, %rcx
	cmpq	%rax, %rbx
	jne	72b
	testb	$1, %sil
	je	74f
73:
	movq	(%rbp,%rax,8), %rcx
	shlq	$6, %rcx
	movups	(%rdx,%rcx), %xmm0
	shlq	$4, %rax
	movups	%xmm0, (%r14,%rax)
74:
	movb	$1, %r15b
	movq	%rsi, %rbx
	cmpb	$1, 80(%rsp)
	je	61b
	jmp	62b
75:
	cmpq	$0, 192(%rsp)
	movq	64(%rsp), %rbx
	je	68b
	movq	176(%rsp), %rdi
	jmp	67b
76:
	.size	"mime_lookup::indexed::kept::kept_kinds", 76b-"mime_lookup::indexed::kept::kept_kinds"

	.text
	.p2align	4
	.type	"mime_lookup::indexed::line_head::rarest_pair",@function
"mime_lookup::indexed::line_head::rarest_pair":
	decq	%rsi
	cmpq	$16, %rsi
	movl	$16, %eax
	cmovbq	%rsi, %rax
	leaq	1(%rax), %rcx
	decq	%rax
	xorl	%edx, %edx
	.p2align	4
1:
	movzbl	-1(%rdi,%rcx), %esi
	testb	$-33, %sil
	je	2f
	addb	$-97, %sil
	cmpb	$25, %sil
	ja	3f
2:
	decq	%rcx
	cmpq	$2, %rcx
	ja	1b
	jmp	5f
3:
	cmpq	%rcx, %rdx
	je	4f
	decq	%rcx
	cmpq	%rax, %rcx
	movq	%rax, %rsi
	cmovbq	%rcx, %rsi
	testq	%rdx, %rdx
	cmoveq	%rsi, %rax
	movq	%rcx, %rdx
	cmpq	$2, %rcx
	ja	1b
	jmp	5f
4:
	decq	%rcx
	movq	%rcx, %rax
5:
	retq
6:
	.size	"mime_lookup::indexed::line_head::rarest_pair", 6b-"mime_lookup::indexed::line_head::rarest_pair"

	.text
	.p2align	4
	.type	"mime_lookup::indexed::line_search::lacks_far",@function
"mime_lookup::indexed::line_search::lacks_far":
	pushq	%rbp
	pushq	%r15
	pushq	%r14
	pushq	%r13
	pushq	%r12
	pushq	%rbx
	pushq	%rax
	movq	%r9, %rbx
	movq	%r8, %r12
	movq	%rcx, %r13
	movq	%rdx, %r15
	movl	%esi, %ebp
	movl	%edi, %r14d
	movq	64(%rsp), %rax
	subq	%r8, %rbx
	movq	8(%rax), %rcx
	addq	%rbx, %rcx
	movq	$-1, %rdx
	cmovaeq	%rcx, %rdx
	movq	%rdx, 8(%rax)
	leaq	(%r15,%r8), %rsi
	movq	%rbx, %rdx
	callq	"memchr::bytes::memchr"
	movl	%eax, %ecx
	movb	$1, %al
	cmpb	$1, %cl
	jne	11f
	subq	%rdx, %rbx
	movq	%rdx, %rsi
	addq	%r12, %rsi
	movzbl	%r14b, %edi
	movzbl	%bpl, %ecx
	cmpq	$32, %rbx
	jb	3f
	movd	%edi, %xmm0
	pxor	%xmm2, %xmm2
	pshufb	%xmm2, %xmm0
	movd	%ecx, %xmm1
	pshufb	%xmm2, %xmm1
	leaq	(%rdx,%r12), %rax
	leaq	(%r15,%rax), %r8
	incq	%r8
	xorl	%eax, %eax
	movq	%rbx, %r9
	jmp	2f
	.p2align	4
1:
	addq	$32, %rax
	addq	$-32, %r9
	cmpq	$31, %r9
	jbe	4f
2:
	movdqu	-1(%r8,%rax), %xmm2
	movdqu	15(%r8,%rax), %xmm3
	pcmpeqb	%xmm0, %xmm3
	pcmpeqb	%xmm0, %xmm2
	movdqa	%xmm2, %xmm4
	por	%xmm3, %xmm4
	pmovmskb	%xmm4, %r10d
	testl	%r10d, %r10d
	je	1b
	movdqu	(%r8,%rax), %xmm4
	movdqu	16(%r8,%rax), %xmm5
	pcmpeqb	%xmm1, %xmm4
	pcmpeqb	%xmm1, %xmm5
	pand	%xmm3, %xmm5
	pand	%xmm2, %xmm4
	por	%xmm5, %xmm4
	pmovmskb	%xmm4, %r10d
	testl	%r10d, %r10d
	je	1b
	jmp	4f
3:
	xorl	%eax, %eax
4:
	subq	%rsi, %r13
	subq	%rax, %r13
	movq	%rbx, %r8
	subq	%rax, %r8
	cmpq	$4, %r8
	setae	%r9b
	cmpq	$33, %r13
	setae	%r10b
	testb	%r9b, %r10b
	jne	7f
	testq	%r8, %r8
	je	9f
	addq	%rdx, %r12
	addq	%rax, %r12
	leaq	(%r15,%r12), %rdx
	incq	%rdx
	xorl	%ecx, %ecx
	jmp	6f
	.p2align	4
5:
	incq	%rcx
	cmpq	%rcx, %r8
	je	8f
6:
	cmpb	%r14b, -1(%rdx,%rcx)
	jne	5b
	cmpb	%bpl, (%rdx,%rcx)
	jne	5b
	jmp	10f
7:
	addq	%rsi, %r15
	movd	%edi, %xmm0
	pxor	%xmm1, %xmm1
	pshufb	%xmm1, %xmm0
	movdqu	(%r15,%rax), %xmm2
	movdqu	1(%r15,%rax), %xmm3
	movdqu	16(%r15,%rax), %xmm4
	movdqu	17(%r15,%rax), %xmm5
	pcmpeqb	%xmm0, %xmm2
	pcmpeqb	%xmm0, %xmm4
	movd	%ecx, %xmm0
	pshufb	%xmm1, %xmm0
	pcmpeqb	%xmm0, %xmm3
	pand	%xmm2, %xmm3
	pcmpeqb	%xmm5, %xmm0
	pand	%xmm4, %xmm0
	pmovmskb	%xmm3, %ecx
	pmovmskb	%xmm0, %edx
	shll	$16, %edx
	orl	%ecx, %edx
	movl	$64, %esi
	rep		bsfq	%rdx, %rsi
	cmpq	%rsi, %r8
	cmovbq	%r8, %rsi
	cmpq	$32, %rsi
	movl	$32, %ecx
	cmovbq	%rsi, %rcx
	jmp	10f
8:
	movq	%r8, %rcx
	jmp	10f
9:
	xorl	%ecx, %ecx
10:
	addq	%rax, %rcx
	cmpq	%rbx, %rcx
	sete	%al
11:
	addq	$8, %rsp
	popq	%rbx
	popq	%r12
	popq	%r13
	popq	%r14
	popq	%r15
	popq	%rbp
	retq
12:
	.size	"mime_lookup::indexed::line_search::lacks_far", 12b-"mime_lookup::indexed::line_search::lacks_far"

	.text
	.p2align	4
	.type	"mime_lookup::indexed::other_pairs::pairs_of",@function
"mime_lookup::indexed::other_pairs::pairs_of":
	pushq	%rbp
	pushq	%r15
	pushq	%r14
	pushq	%r13
	pushq	%r12
	pushq	%rbx
	subq	$56, %rsp
	movq	%r8, %r14
	xorps	%xmm0, %xmm0
	movaps	%xmm0, 16(%rsp)
	movq	$0, 32(%rsp)
	testq	%r8, %r8
	je	6f
	movq	%r14, %rax
	shrq	$62, %rax
	jne	5f
	movq	%rcx, %r15
	movq	%rdx, %r12
	movq	%rsi, %r13
	movq	%rdi, %rbx
	leaq	(%r14,%r14), %rdi
	movl	$2, %esi
	callq	rattle_alloc@PLT
	movq	%rbx, %rdi
	testb	$1, %al
	je	5f
	movq	%rdi, 48(%rsp)
	movq	%rdx, 16(%rsp)
	movq	$0, 24(%rsp)
	movq	%r14, 32(%rsp)
	xorl	%eax, %eax
	xorl	%ebp, %ebp
	jmp	3f
	.p2align	4
1:
	cmpq	%rax, 32(%rsp)
	je	4f
2:
	movw	%bx, (%rdx,%rax,2)
	incq	%rax
	movq	%rax, 24(%rsp)
	incq	%rbp
	cmpq	%rbp, %r14
	je	7f
3:
	movq	(%r15,%rbp,8), %rcx
	movw	$2296, %bx
	cmpq	%r12, %rcx
	jae	1b
	shlq	$4, %rcx
	movzbl	10(%r13,%rcx), %esi
	leal	1(%rsi), %edi
	movzwl	8(%r13,%rcx), %r8d
	cmpl	%r8d, %edi
	jae	1b
	movl	(%r13,%rcx), %edi
	movl	4(%r13,%rcx), %r8d
	addq	%rsi, %r8
	addq	%rdi, %r8
	cmpq	$288, %r8
	ja	1b
	movzbl	13(%r13,%rcx), %esi
	movzbl	14(%r13,%rcx), %ecx
	leal	(%rcx,%rsi,8), %ebx
	jmp	1b
4:
	leaq	16(%rsp), %rdi
	movl	$1, %esi
	callq	"std_alloc::vec::Vec::grow_amortized::<#e5d85e99c87df23c>"
	testb	%al, %al
	je	9f
	movq	16(%rsp), %rdx
	movq	24(%rsp), %rax
	jmp	2b
5:
	movb	$1, (%rdi)
	xorps	%xmm0, %xmm0
	movups	%xmm0, 8(%rdi)
	movq	$0, 24(%rdi)
	jmp	8f
6:
	movq	%rdi, 48(%rsp)
	leaq	14(%rsp), %rax
	movq	%rax, 16(%rsp)
	movq	%r14, 32(%rsp)
7:
	movq	48(%rsp), %rcx
	movb	$0, (%rcx)
	movq	16(%rsp), %rax
	movq	%rax, 8(%rcx)
	movq	24(%rsp), %rax
	movq	%rax, 16(%rcx)
	movq	32(%rsp), %rax
	movq	%rax, 24(%rcx)
8:
	addq	$56, %rsp
	popq	%rbx
	popq	%r12
	popq	%r13
	popq	%r14
	popq	%r15
	popq	%rbp
	retq
9:
	cmpq	$0, 32(%rsp)
	je	10f
	movq	16(%rsp), %rdi
	callq	rattle_dealloc@PLT
10:
	movq	48(%rsp), %rax
	movb	$1, (%rax)
	xorps	%xmm0, %xmm0
	movups	%xmm0, 8(%rax)
	movq	$0, 24(%rax)
	jmp	8b
11:
	.size	"mime_lookup::indexed::other_pairs::pairs_of", 11b-"mime_lookup::indexed::other_pairs::pairs_of"

	.text
	.p2align	4
	.type	"mime_lookup::indexed::prepared_magic::magic_of",@function
"mime_lookup::indexed::prepared_magic::magic_of":
	pushq	%rbp
	pushq	%r15
	pushq	%r14
	pushq	%r13
	pushq	%r12
	pushq	%rbx
	subq	$328, %rsp
	xorps	%xmm0, %xmm0
	movaps	%xmm0, 192(%rsp)
	movq	$0, 208(%rsp)
	testq	%rdx, %rdx
	je	10f
	movq	%rdx, %rax
	shrq	$58, %rax
	jne	23f
	movq	%rdi, %rbx
	movq	%rdx, %rdi
	shlq	$5, %rdi
	movq	%rsi, %r15
	movl	$8, %esi
	movq	%rdx, %r14
	callq	rattle_alloc@PLT
	movq	%rbx, %rdi
	testb	$1, %al
	je	23f
	movq	%r15, %rsi
	movq	%rdx, %r13
	movq	%r14, %rdx
	movq	%rdi, 16(%rsp)
	movq	%r13, 80(%rsp)
	movq	$0, 88(%rsp)
	movq	%r14, 96(%rsp)
	xorl	%r14d, %r14d
	xorl	%edi, %edi
	xorl	%r8d, %r8d
	movq	%rdx, 24(%rsp)
	movq	%r15, 72(%rsp)
	jmp	3f
	.p2align	4
1:
	movq	40(%rsp), %rdi
	cmpq	%r12, %rdi
	cmovbeq	%r12, %rdi
	movq	24(%rsp), %rdx
	movq	72(%rsp), %rsi
	movq	32(%rsp), %r8
2:
	incq	%r8
	cmpq	%rdx, %r8
	je	25f
3:
	leaq	(%r8,%r8,4), %rcx
	shlq	$4, %rcx
	leaq	(%rsi,%rcx), %rax
	cmpb	$0, 8(%rsi,%rcx)
	je	4f
	movq	16(%rax), %rcx
	movq	%rcx, 8(%rsp)
	leaq	24(%rax), %rcx
	movq	64(%rax), %r15
	testq	%r15, %r15
	jne	5f
	jmp	2b
	.p2align	4
4:
	addq	%rsi, %rcx
	addq	$16, %rcx
	movq	%rcx, 8(%rsp)
	leaq	48(%rax), %rcx
	movq	64(%rax), %r15
	testq	%r15, %r15
	je	2b
5:
	movq	%r8, 32(%rsp)
	movq	%rdi, 40(%rsp)
	movq	(%rcx), %rcx
	movq	%rcx, 56(%rsp)
	movl	(%rax), %ecx
	movl	%ecx, 48(%rsp)
	movq	56(%rax), %rbx
	xorl	%r12d, %r12d
	jmp	8f
	.p2align	4
6:
	cmpq	%rbp, %r12
	cmovbeq	%rbp, %r12
	cmpq	%r14, 96(%rsp)
	je	9f
7:
	movq	%r14, %rax
	shlq	$5, %rax
	movq	8(%rsp), %rcx
	movq	%rcx, (%r13,%rax)
	movq	56(%rsp), %rcx
	movq	%rcx, 8(%r13,%rax)
	movl	48(%rsp), %ecx
	movl	%ecx, 16(%r13,%rax)
	movl	$0, 20(%r13,%rax)
	movq	%rbx, 24(%r13,%rax)
	incq	%r14
	movq	%r14, 88(%rsp)
	addq	$96, %rbx
	decq	%r15
	je	1b
8:
	movl	(%rbx), %eax
	movl	4(%rbx), %ebp
	addq	%rax, %rbp
	addq	24(%rbx), %rbp
	movq	80(%rbx), %rsi
	testq	%rsi, %rsi
	je	6b
	movq	72(%rbx), %rdi
	callq	"mime_base::magic::extent::lines_extent"
	cmpq	%rbp, %rax
	cmovaq	%rax, %rbp
	jmp	6b
9:
	leaq	80(%rsp), %rdi
	callq	"std_alloc::vec::Vec::grow_amortized::<#52d1c8244e310953>"
	testb	%al, %al
	je	22f
	movq	80(%rsp), %r13
	movq	88(%rsp), %r14
	jmp	7b
10:
	movq	%rdi, 16(%rsp)
	movaps	%xmm0, 80(%rsp)
	movaps	%xmm0, 96(%rsp)
	movaps	%xmm0, 112(%rsp)
	movaps	%xmm0, 128(%rsp)
	movaps	%xmm0, 144(%rsp)
	movaps	%xmm0, 160(%rsp)
	movq	$0, 176(%rsp)
	movaps	%xmm0, 224(%rsp)
	movaps	%xmm0, 240(%rsp)
	movq	%rsp, %r13
	movl	$128, %r15d
	xorl	%ebx, %ebx
11:
	xorl	%r14d, %r14d
	leaq	80(%rsp), %rdi
	movq	%rsp, %r12
	movq	%r12, %rsi
	xorl	%edx, %edx
	callq	"mime_lookup::indexed::tables::tables_of"
	cmpb	$0, 80(%rsp)
	je	13f
12:
	testq	%rbx, %rbx
	movq	16(%rsp), %rbx
	je	21f
	movq	%r13, %rdi
	jmp	20f
13:
	movq	%r15, 64(%rsp)
	movq	%rbx, 56(%rsp)
	movq	%r13, 8(%rsp)
	movq	$-1, %rbx
	movb	$1, %al
	movl	%eax, 24(%rsp)
14:
	movq	88(%rsp), %rax
	movq	%rax, 48(%rsp)
	movq	104(%rsp), %rax
	movq	%rax, 256(%rsp)
	movaps	96(%rsp), %xmm0
	movaps	%xmm0, 304(%rsp)
	movq	112(%rsp), %r13
	movq	128(%rsp), %rax
	movq	%rax, 264(%rsp)
	movups	120(%rsp), %xmm0
	movaps	%xmm0, 288(%rsp)
	movq	136(%rsp), %rax
	movq	%rax, 32(%rsp)
	movq	152(%rsp), %rax
	movq	%rax, 72(%rsp)
	movaps	144(%rsp), %xmm0
	movaps	%xmm0, 272(%rsp)
	movq	160(%rsp), %rbp
	movq	168(%rsp), %r15
	movq	176(%rsp), %rax
	movq	%rax, 40(%rsp)
	leaq	224(%rsp), %rdi
	movq	%r12, %rsi
	movq	%r14, %rdx
	movq	%rbp, %rcx
	movq	%r15, %r8
	callq	"mime_lookup::indexed::other_pairs::pairs_of"
	cmpb	$0, 224(%rsp)
	je	39f
	movq	48(%rsp), %rdi
	movq	%r13, 64(%rsp)
	movq	32(%rsp), %r13
	movq	40(%rsp), %r14
	cmpq	$0, 256(%rsp)
	je	15f
	callq	rattle_dealloc@PLT
15:
	cmpq	$0, 264(%rsp)
	movq	16(%rsp), %rbx
	je	16f
	movq	64(%rsp), %rdi
	callq	rattle_dealloc@PLT
16:
	cmpq	$0, 72(%rsp)
	je	17f
	movq	%r13, %rdi
	callq	rattle_dealloc@PLT
17:
	testq	%r14, %r14
	je	18f
	movq	%rbp, %rdi
	callq	rattle_dealloc@PLT
18:
	cmpb	$0, 24(%rsp)
	jne	19f
	movq	%r12, %rdi
	callq	rattle_dealloc@PLT
19:
	cmpq	$0, 56(%rsp)
	movq	8(%rsp), %rdi
	je	21f
20:
	callq	rattle_dealloc@PLT
21:
	movb	$1, (%rbx)
	xorps	%xmm0, %xmm0
	movups	%xmm0, 8(%rbx)
	movups	%xmm0, 24(%rbx)
	movups	%xmm0, 40(%rbx)
	movups	%xmm0, 56(%rbx)
	movups	%xmm0, 72(%rbx)
	movups	%xmm0, 88(%rbx)
	movups	%xmm0, 104(%rbx)
	movups	%xmm0, 120(%rbx)
	movups	%xmm0, 136(%rbx)
	movups	%xmm0, 152(%rbx)
	movups	%xmm0, 168(%rbx)
	movq	$0, 184(%rbx)
	jmp	24f
22:
	cmpq	$0, 96(%rsp)
	movq	16(%rsp), %rdi
	je	23f
	movq	%rdi, %rbx
	movq	80(%rsp), %rdi
	callq	rattle_dealloc@PLT
	movq	%rbx, %rdi
23:
	movb	$1, (%rdi)
	xorps	%xmm0, %xmm0
	movups	%xmm0, 8(%rdi)
	movups	%xmm0, 24(%rdi)
	movups	%xmm0, 40(%rdi)
	movups	%xmm0, 56(%rdi)
	movups	%xmm0, 72(%rdi)
	movups	%xmm0, 88(%rdi)
	movups	%xmm0, 104(%rdi)
	movups	%xmm0, 120(%rdi)
	movups	%xmm0, 136(%rdi)
	movups	%xmm0, 152(%rdi)
	movups	%xmm0, 168(%rdi)
	movq	$0, 184(%rdi)
24:
	addq	$328, %rsp
	popq	%rbx
	popq	%r12
	popq	%r13
	popq	%r14
	popq	%r15
	popq	%rbp
	retq
25:
	movq	80(%rsp), %r13
	cmpq	$129, %rdi
	movl	$128, %r15d
	cmovaeq	%rdi, %r15
	movq	96(%rsp), %rbx
	xorps	%xmm0, %xmm0
	movaps	%xmm0, 80(%rsp)
	movaps	%xmm0, 96(%rsp)
	movaps	%xmm0, 112(%rsp)
	movaps	%xmm0, 128(%rsp)
	movaps	%xmm0, 144(%rsp)
	movaps	%xmm0, 160(%rsp)
	movq	$0, 176(%rsp)
	movaps	%xmm0, 224(%rsp)
	movaps	%xmm0, 240(%rsp)
	testq	%r14, %r14
	je	11b
	movq	%r14, %rax
	shrq	$59, %rax
	jne	12b
	movq	%r14, %rdi
	shlq	$4, %rdi
	movl	$4, %esi
	callq	rattle_alloc@PLT
	testb	$1, %al
	je	12b
	movq	%rdx, %r12
	movq	%r15, 64(%rsp)
	movq	%rbx, 56(%rsp)
	movq	$-1, %rbx
	movl	$12, %r15d
	movq	%r14, %r9
	movq	%r13, 8(%rsp)
	jmp	29f
	.p2align	4
26:
	cmpq	$65535, %r13
	movl	$65535, %eax
	cmovbq	%r13, %rax
	addl	%ebp, %eax
	movl	$-1, %ebp
	cmovael	%eax, %ebp
	xorl	%r11d, %r11d
	xorl	%r13d, %r13d
	xorl	%eax, %eax
	xorl	%esi, %esi
	xorl	%ecx, %ecx
	xorl	%edx, %edx
27:
	xorl	%edi, %edi
28:
	movl	%ebp, %ebx
	movzwl	%r13w, %r8d
	addq	%r8, %rbx
	cmpq	%r10, %rbx
	cmovaeq	%r10, %rbx
	movl	%ebp, -12(%r12,%r15)
	movl	%r11d, -8(%r12,%r15)
	movw	%r8w, -4(%r12,%r15)
	movb	%al, -2(%r12,%r15)
	movb	%sil, -1(%r12,%r15)
	movb	%cl, (%r12,%r15)
	movb	%dl, 1(%r12,%r15)
	movb	%dil, 2(%r12,%r15)
	movb	$0, 3(%r12,%r15)
	addq	$16, %r15
	decq	%r9
	movq	8(%rsp), %r13
	je	40f
29:
	movq	%rbx, %r10
	movq	(%r13,%r15,2), %rdx
	movzbl	40(%rdx), %ecx
	cmpb	$1, %cl
	jne	30f
	movq	48(%rdx), %rax
	cmpq	$2, 56(%rdx)
	setae	%sil
	jmp	31f
30:
	xorl	%eax, %eax
	xorl	%esi, %esi
31:
	movl	(%rdx), %ebp
	movl	4(%rdx), %r11d
	movl	8(%rdx), %ebx
	movq	16(%rdx), %rdi
	movq	24(%rdx), %r13
	cmpq	$4, %r13
	setb	%dl
	orb	%cl, %dl
	testb	$1, %dl
	je	33f
	cmpb	$1, %cl
	jne	32f
	testb	%sil, %sil
	je	26b
	cmpb	$-1, (%rax)
	jne	26b
	cmpb	$-1, 1(%rax)
	jne	26b
32:
	xorl	%eax, %eax
	jmp	34f
33:
	movb	$2, %al
	cmpl	$1, %r11d
	je	34f
	movq	%r13, %rsi
	movq	%r9, 48(%rsp)
	movq	%r10, 40(%rsp)
	movl	%r11d, 32(%rsp)
	movq	%rdi, 24(%rsp)
	callq	"mime_lookup::indexed::line_head::rarest_pair"
	movq	24(%rsp), %rdi
	movl	32(%rsp), %r11d
	movq	40(%rsp), %r10
	movq	48(%rsp), %r9
34:
	cmpl	$1, %ebx
	sete	%cl
	leaq	-65536(%r13), %rdx
	cmpq	$-65535, %rdx
	setae	%dl
	testb	%dl, %cl
	je	26b
	cmpq	$2, %r13
	jb	36f
	movzbl	1(%rdi), %ecx
	movzbl	%al, %r8d
	cmpq	%r8, %r13
	ja	37f
35:
	xorl	%edx, %edx
	movzbl	(%rdi), %esi
	incq	%r8
	cmpq	%r13, %r8
	jae	27b
	jmp	38f
36:
	xorl	%ecx, %ecx
	movzbl	%al, %r8d
	cmpq	%r8, %r13
	jbe	35b
37:
	movzbl	(%rdi,%r8), %edx
	movzbl	(%rdi), %esi
	incq	%r8
	cmpq	%r13, %r8
	jae	27b
38:
	movzbl	(%rdi,%r8), %edi
	jmp	28b
39:
	movq	248(%rsp), %rax
	movq	%rax, 208(%rsp)
	movups	232(%rsp), %xmm0
	movaps	%xmm0, 192(%rsp)
	movq	16(%rsp), %rcx
	movb	$0, (%rcx)
	movq	%r12, 8(%rcx)
	movq	%r14, 16(%rcx)
	movq	%r14, 24(%rcx)
	movq	8(%rsp), %rax
	movq	%rax, 32(%rcx)
	movq	%r14, 40(%rcx)
	movq	56(%rsp), %rax
	movq	%rax, 48(%rcx)
	movq	48(%rsp), %rax
	movq	%rax, 56(%rcx)
	movaps	304(%rsp), %xmm0
	movups	%xmm0, 64(%rcx)
	movq	%r13, 80(%rcx)
	movaps	288(%rsp), %xmm0
	movups	%xmm0, 88(%rcx)
	movq	32(%rsp), %rax
	movq	%rax, 104(%rcx)
	movaps	272(%rsp), %xmm0
	movups	%xmm0, 112(%rcx)
	movq	%rbp, 128(%rcx)
	movq	%r15, 136(%rcx)
	movq	40(%rsp), %rax
	movq	%rax, 144(%rcx)
	movaps	192(%rsp), %xmm0
	movups	%xmm0, 152(%rcx)
	movq	208(%rsp), %rax
	movq	%rax, 168(%rcx)
	movq	%rbx, 176(%rcx)
	movq	64(%rsp), %rax
	movq	%rax, 184(%rcx)
	jmp	24b
40:
	leaq	80(%rsp), %rdi
	movq	%r12, %rsi
	movq	%r14, %rdx
	callq	"mime_lookup::indexed::tables::tables_of"
	cmpb	$0, 80(%rsp)
	je	41f
	movq	%r12, %rdi
	callq	rattle_dealloc@PLT
	movq	56(%rsp), %rbx
	jmp	12b
41:
	movl	$0, 24(%rsp)
	jmp	14b
42:
	.size	"mime_lookup::indexed::prepared_magic::magic_of", 42b-"mime_lookup::indexed::prepared_magic::magic_of"

	.text
	.p2align	4
	.type	"mime_lookup::indexed::sniff::first_section::<#a83a19647163e603>",@function
"mime_lookup::indexed::sniff::first_section::<#a83a19647163e603>":
	pushq	%rbp
	pushq	%r15
	pushq	%r14
	pushq	%r13
	pushq	%r12
	pushq	%rbx
	subq	$2392, %rsp
	cmpq	168(%rsi), %rcx
	movq	%rsi, 48(%rsp)
	movq	%rdi, 64(%rsp)
	jae	1f
	movq	32(%rsi), %rbp
	jmp	30f
1:
	movl	%r8d, %ebx
	movq	%rdx, %r13
	cmpq	$288, %rcx
	movl	$288, %r14d
	movl	$288, %eax
	cmovbq	%rcx, %rax
	addq	8(%r9), %rax
	movq	$-1, %r12
	cmovaeq	%rax, %r12
	movq	%r9, 40(%rsp)
	movq	%r12, 8(%r9)
	leaq	96(%rsp), %rdi
	movl	$2296, %edx
	movl	$255, %esi
	movq	%rcx, 24(%rsp)
	callq	memset@PLT
	movq	24(%rsp), %rax
	cmpq	$1, %rax
	adcq	$-1, %rax
	cmpq	$288, %rax
	cmovbq	%rax, %r14
	cmpq	$255, %rax
	jb	3f
	movzbl	(%r13,%r14), %eax
	.p2align	4
2:
	movzbl	%al, %ecx
	movzbl	-1(%r13,%r14), %eax
	decq	%r14
	leaq	(%rsp,%rax,8), %rdx
	addq	$96, %rdx
	movb	$-2, (%rcx,%rdx)
	cmpq	$254, %r14
	ja	2b
3:
	testq	%r14, %r14
	je	8f
	movzbl	(%r13,%r14), %ecx
	movq	%r14, %rdx
	andq	$3, %rdx
	je	5f
	movq	%r14, %rsi
	.p2align	4
4:
	leaq	-1(%rsi), %rax
	movzbl	%cl, %edi
	movzbl	-1(%r13,%rsi), %ecx
	leaq	(%rsp,%rcx,8), %r8
	addq	$96, %r8
	decb	%sil
	movb	%sil, (%rdi,%r8)
	movq	%rax, %rsi
	decq	%rdx
	jne	4b
	cmpq	$4, %r14
	jae	6f
	jmp	8f
5:
	movq	%r14, %rax
	cmpq	$4, %r14
	jb	8f
6:
	leaq	-1(%r13), %rdx
	movq	$-4, %rsi
	xorl	%edi, %edi
	.p2align	4
7:
	movzbl	(%rdx,%rax), %r8d
	movzbl	%cl, %ecx
	leaq	(%rsp,%r8,8), %r9
	addq	$96, %r9
	leal	(%rax,%rsi), %r10d
	leal	3(%r10), %r11d
	movb	%r11b, (%rcx,%r9)
	movzbl	-1(%rdx,%rax), %ecx
	leaq	96(%rsp,%rcx,8), %r9
	leal	2(%r10), %r11d
	movb	%r11b, (%r8,%r9)
	movzbl	-2(%rdx,%rax), %r8d
	leaq	96(%rsp,%r8,8), %r9
	leal	1(%r10), %r11d
	movb	%r11b, (%rcx,%r9)
	movzbl	-3(%rdx,%rax), %ecx
	leaq	(%rsp,%rcx,8), %r9
	addq	$96, %r9
	movb	%r10b, (%r8,%r9)
	addq	$4, %rdi
	addq	$-4, %rdx
	addq	$-4, %rsi
	cmpq	%rdi, %rax
	jne	7b
8:
	movq	%r13, 16(%rsp)
	movq	48(%rsp), %rax
	movq	(%rax), %r14
	movq	24(%rax), %rcx
	movq	%rcx, 72(%rsp)
	addq	56(%rax), %r12
	movq	32(%rax), %rbp
	movq	$-1, %rcx
	cmovbq	%rcx, %r12
	movq	40(%rsp), %r10
	movq	%r12, 8(%r10)
	movq	56(%rax), %rdx
	movzbl	%bl, %eax
	movl	%eax, 36(%rsp)
	movq	%rdx, 88(%rsp)
	testq	%rdx, %rdx
	je	18f
	movq	24(%rsp), %r11
	leaq	1(%r11), %rax
	movq	%rax, 80(%rsp)
	xorl	%r13d, %r13d
	movq	48(%rsp), %rdx
	.p2align	4
9:
	movq	%rbp, %r12
	movq	48(%rdx), %rax
	movl	(%rax,%r13,4), %eax
	cmpq	%rax, %r11
	jbe	16f
	movq	16(%rsp), %rcx
	movzbl	(%rcx,%rax), %eax
	movq	%r13, %rcx
	shlq	$9, %rcx
	addq	72(%rdx), %rcx
	movzwl	(%rcx,%rax,2), %r15d
	testq	%r15, %r15
	je	16f
	cmpq	%r15, %r12
	jb	16f
	movq	96(%rdx), %rax
	movq	%rax, 56(%rsp)
	.p2align	4
10:
	movq	8(%r10), %rax
	incq	%rax
	movq	$-1, %rcx
	cmovneq	%rax, %rcx
	movq	%rcx, 8(%r10)
	leaq	-1(%r15), %rbp
	movq	%rbp, %rax
	shlq	$4, %rax
	movl	(%r14,%rax), %ecx
	movzwl	8(%r14,%rax), %edx
	leaq	(%rdx,%rcx), %rsi
	cmpq	%rsi, %r11
	jb	14f
	testq	%rdx, %rdx
	je	13f
	movl	4(%r14,%rax), %esi
	movzbl	10(%r14,%rax), %r8d
	cmpq	$1, %rsi
	jne	11f
	movq	16(%rsp), %rsi
	movzbl	(%rsi,%rcx), %esi
	movzbl	11(%r14,%rax), %edi
	cmpb	%dil, %sil
	jne	12f
	leaq	1(%r8), %r9
	cmpl	%edx, %r9d
	jae	12f
	movq	16(%rsp), %rdx
	movzbl	1(%rdx,%rcx), %edx
	cmpb	12(%r14,%rax), %dl
	jne	14f
	addq	16(%rsp), %r8
	movzbl	(%rcx,%r8), %edx
	cmpb	13(%r14,%rax), %dl
	jne	14f
	movzbl	1(%r8,%rcx), %ecx
	cmpb	14(%r14,%rax), %cl
	je	13f
	jmp	14f
11:
	leal	1(%r8), %edi
	cmpl	%edx, %edi
	jae	13f
	addq	%rcx, %rsi
	movq	80(%rsp), %rdi
	subq	%rdx, %rdi
	cmpq	%rsi, %rdi
	cmovaeq	%rsi, %rdi
	leaq	(%rdi,%r8), %r9
	cmpq	$288, %r9
	jbe	15f
	addq	%rcx, %r8
	movzbl	14(%r14,%rax), %esi
	movzbl	13(%r14,%rax), %edi
	movq	%r10, (%rsp)
	movq	16(%rsp), %rdx
	movq	%r11, %rcx
	callq	"mime_lookup::indexed::line_search::lacks_far"
	movq	24(%rsp), %r11
	movq	40(%rsp), %r10
	testb	%al, %al
	je	13f
	jmp	14f
12:
	cmpb	%dil, %sil
	jne	14f
	.p2align	4
13:
	movq	%rbp, %rax
	shlq	$5, %rax
	movq	72(%rsp), %rcx
	movq	24(%rcx,%rax), %rbx
	movq	%rbx, %rdi
	movq	16(%rsp), %rsi
	movq	%r11, %rdx
	movl	36(%rsp), %ecx
	movq	%r10, %r8
	callq	"mime_base::magic::holding::equals_in_range"
	movq	24(%rsp), %r11
	movq	40(%rsp), %r10
	testb	%al, %al
	je	14f
	movq	80(%rbx), %rsi
	testq	%rsi, %rsi
	je	17f
	movq	72(%rbx), %rdi
	movq	16(%rsp), %rdx
	movq	%r11, %rcx
	movl	36(%rsp), %r8d
	movq	%r10, %r9
	callq	"mime_base::magic::holding::some_line_matches"
	movq	24(%rsp), %r11
	movq	40(%rsp), %r10
	testb	%al, %al
	jne	17f
	.p2align	4
14:
	movq	56(%rsp), %rax
	movzwl	-2(%rax,%r15,2), %eax
	cmpq	%rax, %r15
	jae	16f
	movq	%rax, %r15
	cmpq	%rax, %r12
	jae	10b
	jmp	16f
15:
	movzbl	11(%r14,%rax), %ecx
	leaq	(%rsp,%rcx,8), %rcx
	addq	$96, %rcx
	movzbl	12(%r14,%rax), %edx
	movzbl	(%rdx,%rcx), %ecx
	cmpq	$255, %rcx
	je	14b
	cmpq	%rcx, %rdi
	jbe	14b
	movzbl	13(%r14,%rax), %ecx
	movzbl	14(%r14,%rax), %eax
	leaq	(%rsp,%rcx,8), %rcx
	addq	$96, %rcx
	movzbl	(%rax,%rcx), %eax
	cmpq	$255, %rax
	je	14b
	cmpq	%rax, %r9
	ja	13b
	jmp	14b
	.p2align	4
16:
	movq	%r12, %rbp
17:
	incq	%r13
	cmpq	88(%rsp), %r13
	movq	48(%rsp), %rdx
	jne	9b
	movq	8(%r10), %r12
	movq	$-1, %rcx
	jmp	19f
18:
	movq	48(%rsp), %rdx
	movq	24(%rsp), %r11
19:
	movq	120(%rdx), %rax
	movq	128(%rdx), %r13
	movq	144(%rdx), %r8
	addq	%r13, %r12
	cmovbq	%rcx, %r12
	movq	%r12, 8(%r10)
	testq	%r13, %r13
	je	30f
	leaq	1(%r11), %rcx
	movq	%rcx, 56(%rsp)
	movq	%rax, %r12
	jmp	23f
20:
	movq	40(%rsp), %r10
	movq	24(%rsp), %r11
21:
	movq	%r15, %r8
	.p2align	4
22:
	testq	%r13, %r13
	je	30f
23:
	movzwl	-2(%r8,%r13,2), %eax
	movq	-8(%r12,%r13,8), %rbx
	decq	%r13
	cmpq	$2295, %rax
	ja	24f
	cmpb	$-1, 96(%rsp,%rax)
	je	22b
24:
	cmpq	%rbp, %rbx
	jae	22b
	movq	%rbx, %rax
	shlq	$4, %rax
	movl	(%r14,%rax), %ecx
	movzwl	8(%r14,%rax), %edx
	leaq	(%rdx,%rcx), %rsi
	cmpq	%rsi, %r11
	jb	22b
	movq	%r8, %r15
	testq	%rdx, %rdx
	je	27f
	movl	4(%r14,%rax), %esi
	movzbl	10(%r14,%rax), %r8d
	cmpq	$1, %rsi
	jne	25f
	movq	16(%rsp), %rsi
	movzbl	(%rsi,%rcx), %esi
	movzbl	11(%r14,%rax), %edi
	cmpb	%dil, %sil
	jne	26f
	leaq	1(%r8), %r9
	cmpl	%edx, %r9d
	jae	26f
	movq	16(%rsp), %rsi
	movzbl	1(%rsi,%rcx), %edx
	cmpb	12(%r14,%rax), %dl
	jne	21b
	addq	%rsi, %r8
	movzbl	(%rcx,%r8), %edx
	cmpb	13(%r14,%rax), %dl
	jne	21b
	movzbl	1(%r8,%rcx), %ecx
	cmpb	14(%r14,%rax), %cl
	jne	21b
	jmp	27f
25:
	leal	1(%r8), %edi
	cmpl	%edx, %edi
	jae	27f
	addq	%rcx, %rsi
	movq	56(%rsp), %rdi
	subq	%rdx, %rdi
	cmpq	%rsi, %rdi
	cmovaeq	%rsi, %rdi
	leaq	(%rdi,%r8), %r9
	cmpq	$288, %r9
	jbe	29f
	addq	%rcx, %r8
	movzbl	14(%r14,%rax), %esi
	movzbl	13(%r14,%rax), %edi
	movq	%r10, (%rsp)
	movq	16(%rsp), %rdx
	movq	%r11, %rcx
	callq	"mime_lookup::indexed::line_search::lacks_far"
	movq	24(%rsp), %r11
	movq	40(%rsp), %r10
	testb	%al, %al
	jne	21b
	jmp	27f
26:
	cmpb	%dil, %sil
	jne	21b
27:
	shlq	$5, %rbx
	movq	72(%rsp), %rax
	movq	24(%rax,%rbx), %rbx
	movq	%rbx, %rdi
	movq	16(%rsp), %rsi
	movq	%r11, %rdx
	movl	36(%rsp), %ecx
	movq	%r10, %r8
	callq	"mime_base::magic::holding::equals_in_range"
	testb	%al, %al
	je	20b
	movq	80(%rbx), %rsi
	testq	%rsi, %rsi
	movq	40(%rsp), %r10
	movq	24(%rsp), %r11
	movq	%r15, %r8
	je	28f
	movq	72(%rbx), %rdi
	movq	16(%rsp), %rdx
	movq	%r11, %rcx
	movl	36(%rsp), %r8d
	movq	%r10, %r9
	callq	"mime_base::magic::holding::some_line_matches"
	movq	%r15, %r8
	movq	24(%rsp), %r11
	movq	40(%rsp), %r10
	testb	%al, %al
	je	22b
28:
	movq	(%r12,%r13,8), %rbp
	jmp	22b
29:
	movzbl	11(%r14,%rax), %ecx
	leaq	(%rsp,%rcx,8), %rcx
	addq	$96, %rcx
	movzbl	12(%r14,%rax), %edx
	movzbl	(%rdx,%rcx), %ecx
	cmpq	$255, %rcx
	movq	%r15, %r8
	je	22b
	cmpq	%rcx, %rdi
	jbe	22b
	movzbl	13(%r14,%rax), %ecx
	movzbl	14(%r14,%rax), %eax
	leaq	(%rsp,%rcx,8), %rcx
	addq	$96, %rcx
	movzbl	(%rax,%rcx), %eax
	cmpq	$255, %rax
	je	22b
	cmpq	%rax, %r9
	ja	27b
	jmp	21b
30:
	movq	48(%rsp), %rax
	cmpq	32(%rax), %rbp
	jae	31f
	movq	24(%rax), %rcx
	shlq	$5, %rbp
	movl	16(%rcx,%rbp), %eax
	movups	(%rcx,%rbp), %xmm0
	movq	64(%rsp), %rdx
	movups	%xmm0, 8(%rdx)
	movl	$1, %ecx
	jmp	32f
31:
	xorps	%xmm0, %xmm0
	movq	64(%rsp), %rdx
	movups	%xmm0, 8(%rdx)
	xorl	%ecx, %ecx
	xorl	%eax, %eax
32:
	movq	%rcx, (%rdx)
	movl	%eax, 24(%rdx)
	movl	$0, 28(%rdx)
	addq	$2392, %rsp
	popq	%rbx
	popq	%r12
	popq	%r13
	popq	%r14
	popq	%r15
	popq	%rbp
	retq
33:
	.size	"mime_lookup::indexed::sniff::first_section::<#a83a19647163e603>", 33b-"mime_lookup::indexed::sniff::first_section::<#a83a19647163e603>"

	.text
	.p2align	4
	.type	"mime_lookup::indexed::tables::other_table",@function
"mime_lookup::indexed::tables::other_table":
	pushq	%rbp
	pushq	%r15
	pushq	%r14
	pushq	%r13
	pushq	%r12
	pushq	%rbx
	pushq	%rax
	movl	%edx, %ebx
	movq	8(%rdi), %rdx
	movzbl	%bl, %eax
	addl	%eax, %eax
	testq	%rdx, %rdx
	je	2f
	movzwl	(%rsi,%rax), %ecx
	cmpl	$256, %ecx
	je	2f
	movq	(%rdi), %r8
	xorl	%ecx, %ecx
	.p2align	4
1:
	cmpl	%ebx, (%r8,%rcx,4)
	je	4f
	incq	%rcx
	cmpq	%rcx, %rdx
	jne	1b
2:
	cmpq	$256, %rdx
	jne	5f
3:
	movl	$256, %edx
	jmp	10f
4:
	movq	%rcx, %rdx
	cmpq	$256, %rdx
	je	3b
5:
	movw	%dx, (%rsi,%rax)
	cmpq	8(%rdi), %rdx
	jne	10f
	movq	%rdx, %rcx
	cmpq	%rdx, 16(%rdi)
	je	12f
6:
	movq	(%rdi), %rax
	movl	%ebx, (%rax,%rcx,4)
	incq	%rcx
	movq	%rcx, 8(%rdi)
	shlq	$8, %rcx
	movq	32(%rdi), %rax
	movq	%rcx, %rbx
	subq	%rax, %rbx
	jbe	9f
	movq	40(%rdi), %r14
	movq	%r14, %rcx
	subq	%rax, %rcx
	cmpq	%rcx, %rbx
	ja	13f
	leaq	(%rax,%rbx), %r15
	movq	24(%rdi), %r12
	cmpq	%r15, %rax
	jae	8f
7:
	leaq	(%r12,%rax,2), %rax
	addq	%rbx, %rbx
	movq	%rdi, %r13
	movq	%rax, %rdi
	xorl	%esi, %esi
	movq	%rdx, %rbp
	movq	%rbx, %rdx
	callq	memset@PLT
	movq	%r13, %rdi
	movq	%rbp, %rdx
8:
	movq	%r12, 24(%rdi)
	movq	%r15, 32(%rdi)
	movq	%r14, 40(%rdi)
	jmp	10f
9:
	jae	10f
	movq	%rcx, 32(%rdi)
10:
	xorl	%eax, %eax
11:
	addq	$8, %rsp
	popq	%rbx
	popq	%r12
	popq	%r13
	popq	%r14
	popq	%r15
	popq	%rbp
	retq
12:
	movq	%rdx, %r14
	movq	%rdi, %r15
	callq	"std_alloc::vec::Vec::grow_amortized::<#69b8fd684be40472>"
	testb	%al, %al
	je	14f
	movq	%r15, %rdi
	movq	8(%r15), %rcx
	movq	%r14, %rdx
	jmp	6b
13:
	movq	%rdx, %r15
	movq	%rdi, %r14
	addq	$24, %rdi
	movq	%rbx, %rsi
	callq	"std_alloc::vec::Vec::grow_amortized::<#e5d85e99c87df23c>"
	testb	%al, %al
	je	14f
	movq	%r14, %rdi
	movq	32(%r14), %rax
	movq	40(%r14), %r14
	movq	%r15, %rdx
	leaq	(%rax,%rbx), %r15
	movq	24(%rdi), %r12
	cmpq	%r15, %rax
	jb	7b
	jmp	8b
14:
	movb	$1, %al
	xorl	%edx, %edx
	jmp	11b
15:
	.size	"mime_lookup::indexed::tables::other_table", 15b-"mime_lookup::indexed::tables::other_table"

	.section	.rodata.cst16,"aM",@progbits,16
	.p2align	4, 0x0
1:
	.short	256,256,256,256,256,256,256,256
	.text
	.p2align	4
	.type	"mime_lookup::indexed::tables::tables_of",@function
"mime_lookup::indexed::tables::tables_of":
	pushq	%rbp
	pushq	%r15
	pushq	%r14
	pushq	%r13
	pushq	%r12
	pushq	%rbx
	subq	$632, %rsp
	movq	%rdx, %r14
	movq	%rsi, %r13
	movq	%rdi, %rbx
	leaq	112(%rsp), %rdi
	xorl	%ebp, %ebp
	movl	$512, %edx
	xorl	%esi, %esi
	callq	memset@PLT
	cmpq	$64, %r14
	movl	$64, %r15d
	cmovbq	%r14, %r15
	movq	%rsp, %rcx
	testq	%r14, %r14
	je	2f
	leaq	(,%r15,4), %rdi
	movl	$4, %esi
	callq	rattle_alloc@PLT
	testb	$1, %al
	je	14f
	movq	%rdx, %r12
	movq	%r15, %rdi
	shlq	$9, %rdi
	movl	$2, %esi
	callq	rattle_alloc@PLT
	testb	$1, %al
	je	12f
	movq	%r13, 104(%rsp)
	movq	%r14, %rax
	shrq	$62, %rax
	jne	11f
	leaq	(%r14,%r14), %rdi
	movl	$2, %esi
	movq	%rdx, %rbp
	callq	rattle_alloc@PLT
	movq	%rdx, %r13
	movq	%rbp, %rdx
	testb	$1, %al
	je	11f
	cmpq	$1, %r14
	jne	20f
	xorl	%eax, %eax
	jmp	21f
2:
	movq	%r13, 104(%rsp)
	movq	%rcx, %rdx
	movq	%rcx, %r12
	movq	%rcx, %r13
	xorl	%eax, %eax
3:
	movq	%r12, 8(%rsp)
	movq	$0, 16(%rsp)
	movq	%r15, 24(%rsp)
	movq	%rdx, 32(%rsp)
	movq	$0, 40(%rsp)
	movq	%rbp, 48(%rsp)
	movq	%r13, 56(%rsp)
	movq	%rax, 64(%rsp)
	movq	%r14, 72(%rsp)
	movq	%rcx, 80(%rsp)
	xorps	%xmm0, %xmm0
	movups	%xmm0, 88(%rsp)
	movaps	1b(%rip), %xmm0
	movaps	%xmm0, 112(%rsp)
	movaps	%xmm0, 128(%rsp)
	movaps	%xmm0, 144(%rsp)
	movaps	%xmm0, 160(%rsp)
	movaps	%xmm0, 176(%rsp)
	movaps	%xmm0, 192(%rsp)
	movaps	%xmm0, 208(%rsp)
	movaps	%xmm0, 224(%rsp)
	movaps	%xmm0, 240(%rsp)
	movaps	%xmm0, 256(%rsp)
	movaps	%xmm0, 272(%rsp)
	movaps	%xmm0, 288(%rsp)
	movaps	%xmm0, 304(%rsp)
	movaps	%xmm0, 320(%rsp)
	movaps	%xmm0, 336(%rsp)
	movaps	%xmm0, 352(%rsp)
	movaps	%xmm0, 368(%rsp)
	movaps	%xmm0, 384(%rsp)
	movaps	%xmm0, 400(%rsp)
	movaps	%xmm0, 416(%rsp)
	movaps	%xmm0, 432(%rsp)
	movaps	%xmm0, 448(%rsp)
	movaps	%xmm0, 464(%rsp)
	movaps	%xmm0, 480(%rsp)
	movaps	%xmm0, 496(%rsp)
	movaps	%xmm0, 512(%rsp)
	movaps	%xmm0, 528(%rsp)
	movaps	%xmm0, 544(%rsp)
	movaps	%xmm0, 560(%rsp)
	movaps	%xmm0, 576(%rsp)
	movaps	%xmm0, 592(%rsp)
	movaps	%xmm0, 608(%rsp)
	testq	%r14, %r14
	je	10f
	movq	%r14, %rax
	shlq	$4, %rax
	movq	104(%rsp), %rcx
	leaq	(%rax,%rcx), %r15
	addq	$-5, %r15
	jmp	6f
	.p2align	4
4:
	movq	88(%rsp), %rax
	cmpq	%rax, 96(%rsp)
	je	9f
5:
	movq	80(%rsp), %rcx
	movq	%r12, (%rcx,%rax,8)
	incq	%rax
	movq	%rax, 88(%rsp)
	addq	$-16, %r15
	movq	%r12, %r14
	testq	%r12, %r12
	je	10f
6:
	leaq	-1(%r14), %r12
	cmpl	$1, -7(%r15)
	jne	4b
	cmpq	$65534, %r12
	ja	4b
	cmpw	$0, -3(%r15)
	je	4b
	movl	-11(%r15), %eax
	movzbl	%al, %ecx
	movzwl	112(%rsp,%rcx,2), %edx
	cmpq	%rdx, 16(%rsp)
	jbe	7f
	movq	8(%rsp), %rcx
	cmpl	%eax, (%rcx,%rdx,4)
	jne	7f
	movzbl	(%r15), %eax
	shll	$8, %edx
	jmp	8f
7:
	leaq	8(%rsp), %rdi
	leaq	112(%rsp), %rsi
	movl	%eax, %edx
	callq	"mime_lookup::indexed::tables::other_table"
	testb	%al, %al
	jne	16f
	cmpq	16(%rsp), %rdx
	je	4b
	movzbl	(%r15), %eax
	shlq	$8, %rdx
8:
	orq	%rax, %rdx
	movq	32(%rsp), %rax
	movq	56(%rsp), %rcx
	movzwl	(%rax,%rdx,2), %esi
	movw	%si, (%rcx,%r12,2)
	movw	%r14w, (%rax,%rdx,2)
	addq	$-16, %r15
	movq	%r12, %r14
	testq	%r12, %r12
	jne	6b
	jmp	10f
9:
	leaq	80(%rsp), %rdi
	callq	"std_alloc::vec::Vec::grow_amortized::<#33f378437a29c276>"
	testb	%al, %al
	je	16f
	movq	88(%rsp), %rax
	jmp	5b
10:
	movb	$0, (%rbx)
	movups	8(%rsp), %xmm0
	movups	24(%rsp), %xmm1
	movups	40(%rsp), %xmm2
	movups	56(%rsp), %xmm3
	movups	%xmm0, 8(%rbx)
	movups	%xmm1, 24(%rbx)
	movups	%xmm2, 40(%rbx)
	movups	%xmm3, 56(%rbx)
	movups	72(%rsp), %xmm0
	movups	%xmm0, 72(%rbx)
	movups	88(%rsp), %xmm0
	jmp	15f
11:
	movq	%rdx, %rdi
	callq	rattle_dealloc@PLT
12:
	movq	%r12, %rdi
13:
	callq	rattle_dealloc@PLT
14:
	movb	$1, (%rbx)
	xorps	%xmm0, %xmm0
	movups	%xmm0, 8(%rbx)
	movups	%xmm0, 24(%rbx)
	movups	%xmm0, 40(%rbx)
	movups	%xmm0, 56(%rbx)
	movups	%xmm0, 72(%rbx)
15:
	movups	%xmm0, 88(%rbx)
	addq	$632, %rsp
	popq	%rbx
	popq	%r12
	popq	%r13
	popq	%r14
	popq	%r15
	popq	%rbp
	retq
16:
	cmpq	$0, 24(%rsp)
	je	17f
	movq	8(%rsp), %rdi
	callq	rattle_dealloc@PLT
17:
	cmpq	$0, 48(%rsp)
	je	18f
	movq	32(%rsp), %rdi
	callq	rattle_dealloc@PLT
18:
	cmpq	$0, 72(%rsp)
	je	19f
	movq	56(%rsp), %rdi
	callq	rattle_dealloc@PLT
19:
	cmpq	$0, 96(%rsp)
	je	14b
	movq	80(%rsp), %rdi
	jmp	13b
20:
	leaq	(%r14,%r14), %rdx
	addq	$-2, %rdx
	movq	%r13, %rdi
	xorl	%esi, %esi
	callq	memset@PLT
	movq	%rbp, %rdx
	leaq	-1(%r14), %rax
21:
	movq	%rsp, %rcx
	movq	%r15, %rbp
	shlq	$8, %rbp
	movw	$0, (%r13,%rax,2)
	incq	%rax
	jmp	3b
22:
	.size	"mime_lookup::indexed::tables::tables_of", 22b-"mime_lookup::indexed::tables::tables_of"

	.section	.rodata.cst16,"aM",@progbits,16
	.p2align	4, 0x0
1:
	.byte	42,42,42,42,42,42,42,42
	.zero	1
	.zero	1
	.zero	1
	.zero	1
	.zero	1
	.zero	1
	.zero	1
	.zero	1
2:
	.byte	63,63,63,63,63,63,63,63
	.zero	1
	.zero	1
	.zero	1
	.zero	1
	.zero	1
	.zero	1
	.zero	1
	.zero	1
3:
	.byte	92,92,92,92,92,92,92,92
	.zero	1
	.zero	1
	.zero	1
	.zero	1
	.zero	1
	.zero	1
	.zero	1
	.zero	1
4:
	.byte	91,91,91,91,91,91,91,91
	.zero	1
	.zero	1
	.zero	1
	.zero	1
	.zero	1
	.zero	1
	.zero	1
	.zero	1
5:
	.zero	16,93
	.text
	.p2align	4
	.type	"mime_lookup::lists::ListsAsked::candidate_kinds",@function
"mime_lookup::lists::ListsAsked::candidate_kinds":
	pushq	%rbp
	pushq	%r15
	pushq	%r14
	pushq	%r13
	pushq	%r12
	pushq	%rbx
	subq	$344, %rsp
	movq	%rcx, %r15
	movq	%rdx, 152(%rsp)
	movq	%rdi, 192(%rsp)
	pxor	%xmm0, %xmm0
	movdqu	%xmm0, 255(%rsp)
	movdqa	%xmm0, 240(%rsp)
	movdqa	%xmm0, 304(%rsp)
	movdqu	%xmm0, 319(%rsp)
	movq	%rsi, 280(%rsp)
	movq	(%rsi), %rax
	movq	(%rax), %r14
	movq	8(%rax), %rax
	movdqu	%xmm0, 176(%rsp)
	leaq	48(%rsp), %rcx
	movq	%rcx, 216(%rsp)
	movq	%rcx, 168(%rsp)
	movabsq	$1688849862361089, %r13
	movq	%rax, 288(%rsp)
	testq	%rax, %rax
	je	73f
	movq	%r8, %rbx
	xorl	%r8d, %r8d
	movq	%r14, 128(%rsp)
	movq	%rbx, 208(%rsp)
	movq	%r15, 200(%rsp)
	jmp	8f
	.p2align	4
6:
	movq	72(%rsp), %rcx
	incq	%rcx
	movq	$-1, %rax
	cmoveq	%rax, %rcx
	addq	8(%rbx), %rcx
	cmovbq	%rax, %rcx
	movq	%rcx, 8(%rbx)
	movq	128(%rsp), %r14
	movq	136(%rsp), %r8
7:
	incq	%r8
	cmpq	288(%rsp), %r8
	je	70f
8:
	imulq	$104, %r8, %rax
	leaq	(%r14,%rax), %rcx
	cmpb	$0, 56(%r14,%rax)
	je	9f
	movq	64(%rcx), %rbp
	leaq	72(%rcx), %rax
	jmp	10f
	.p2align	4
9:
	leaq	(%r14,%rax), %rbp
	addq	$64, %rbp
	leaq	80(%rcx), %rax
10:
	movq	(%rax), %r10
	movq	%rcx, 296(%rsp)
	movzbl	96(%rcx), %r12d
	testq	%r10, %r10
	je	20f
	movzbl	(%rbp), %ecx
	cmpl	$42, %ecx
	jne	13f
	leaq	-1(%r10), %rax
	cmpq	$8, %rax
	jb	11f
	movq	1(%rbp), %xmm0
	movdqa	1b(%rip), %xmm1
	pcmpeqb	%xmm0, %xmm1
	movdqa	2b(%rip), %xmm2
	pcmpeqb	%xmm0, %xmm2
	por	%xmm1, %xmm2
	movdqa	3b(%rip), %xmm1
	pcmpeqb	%xmm0, %xmm1
	pcmpeqb	4b(%rip), %xmm0
	por	%xmm1, %xmm0
	por	%xmm2, %xmm0
	pmovmskb	%xmm0, %edx
	testb	%dl, %dl
	jne	13f
11:
	movl	$1, %edx
	.p2align	4
12:
	cmpq	%rdx, %r10
	je	58f
	movzbl	(%rbp,%rdx), %esi
	incq	%rdx
	addl	$-42, %esi
	cmpl	$50, %esi
	ja	12b
	btq	%rsi, %r13
	jae	12b
13:
	testq	%r15, %r15
	je	14f
	leal	-42(%rcx), %eax
	cmpl	$50, %eax
	ja	57f
	btq	%rax, %r13
	jae	57f
14:
	movq	%r10, %rcx
	cmpq	$32, %r10
	jb	21f
	movq	%r10, %rax
15:
	movdqu	-32(%rbp,%rax), %xmm1
	movdqu	-16(%rbp,%rax), %xmm2
	movdqa	5b(%rip), %xmm0
	pcmpeqb	%xmm0, %xmm1
	pmovmskb	%xmm1, %edx
	pcmpeqb	%xmm0, %xmm2
	pmovmskb	%xmm2, %ecx
	shll	$16, %ecx
	orl	%edx, %ecx
	je	17f
	leaq	-32(%rax), %rdx
	movl	%ecx, %esi
	.p2align	4
16:
	bsrq	%rsi, %rcx
	leaq	(%rcx,%rdx), %r14
	cmpb	$93, (%rbp,%r14)
	je	22f
	movq	$-2, %rdi
	rolq	%cl, %rdi
	andq	%rdi, %rsi
	jne	16b
17:
	movq	%rax, %rdx
	.p2align	4
18:
	movq	%rdx, %rcx
	leaq	-32(%rdx), %rax
	cmpq	$128, %rax
	jb	19f
	movdqu	-160(%rbp,%rcx), %xmm1
	movdqu	-144(%rbp,%rcx), %xmm2
	movdqu	-128(%rbp,%rcx), %xmm3
	movdqu	-112(%rbp,%rcx), %xmm4
	pcmpeqb	%xmm0, %xmm1
	pcmpeqb	%xmm0, %xmm2
	pcmpeqb	%xmm0, %xmm3
	por	%xmm1, %xmm3
	pcmpeqb	%xmm0, %xmm4
	por	%xmm2, %xmm4
	movdqu	-80(%rbp,%rcx), %xmm1
	movdqu	-96(%rbp,%rcx), %xmm2
	pcmpeqb	%xmm0, %xmm2
	pcmpeqb	%xmm0, %xmm1
	movdqu	-48(%rbp,%rcx), %xmm5
	movdqu	-64(%rbp,%rcx), %xmm6
	pcmpeqb	%xmm0, %xmm6
	por	%xmm2, %xmm6
	por	%xmm3, %xmm6
	pcmpeqb	%xmm0, %xmm5
	por	%xmm1, %xmm5
	por	%xmm4, %xmm5
	por	%xmm6, %xmm5
	pmovmskb	%xmm5, %esi
	leaq	-128(%rcx), %rdx
	testl	%esi, %esi
	je	18b
19:
	cmpq	$31, %rax
	ja	15b
	addq	$-32, %rcx
	jmp	21f
	.p2align	4
20:
	xorl	%ecx, %ecx
	.p2align	4
21:
	testq	%rcx, %rcx
	je	23f
	leaq	-1(%rcx), %r14
	cmpb	$93, -1(%rbp,%rcx)
	movq	%r14, %rcx
	jne	21b
22:
	notq	%r14
	addq	%r10, %r14
	jmp	24f
	.p2align	4
23:
	movq	%r10, %r14
24:
	movq	%r8, 136(%rsp)
	pxor	%xmm0, %xmm0
	movdqa	%xmm0, 96(%rsp)
	movdqa	%xmm0, 80(%rsp)
	movq	$0, 112(%rsp)
	movzbl	%r12b, %r8d
	testq	%r10, %r10
	je	25f
	cmpb	$42, (%rbp)
	jne	25f
	movl	%r8d, 56(%rsp)
	incq	%rbp
	decq	%r10
	xorl	%eax, %eax
	movq	$0, 72(%rsp)
	jmp	29f
	.p2align	4
25:
	movq	%r15, (%rsp)
	leaq	80(%rsp), %rdi
	movq	%rbp, %rsi
	movq	%r10, %rdx
	movq	%r14, %rcx
	movq	152(%rsp), %r9
	movl	%r8d, %ebp
	callq	"mime_base::matching::attempt::attempt"
	movzbl	80(%rsp), %eax
	movq	112(%rsp), %rsi
	leaq	145f(%rip), %rcx
	movslq	(%rcx,%rax,4), %rax
	addq	%rcx, %rax
	jmpq	*%rax
26:
	movq	128(%rsp), %r14
	movq	136(%rsp), %r8
27:
	addq	8(%rbx), %rsi
	movq	$-1, %rax
	cmovaeq	%rsi, %rax
	movq	%rax, 8(%rbx)
	jmp	7b
28:
	movl	%ebp, 56(%rsp)
	movq	%rsi, 72(%rsp)
	movq	88(%rsp), %rax
	movq	96(%rsp), %rbp
	movq	104(%rsp), %r10
29:
	movq	152(%rsp), %rcx
	addq	%rax, %rcx
	movq	%rcx, 64(%rsp)
	movq	%r15, %r11
	subq	%rax, %r11
	cmpq	$8, %r10
	jb	31f
30:
	movq	(%rbp), %xmm0
	movdqa	1b(%rip), %xmm1
	pcmpeqb	%xmm0, %xmm1
	movdqa	2b(%rip), %xmm2
	pcmpeqb	%xmm0, %xmm2
	por	%xmm1, %xmm2
	movdqa	3b(%rip), %xmm1
	pcmpeqb	%xmm0, %xmm1
	pcmpeqb	4b(%rip), %xmm0
	por	%xmm1, %xmm0
	por	%xmm2, %xmm0
	pmovmskb	%xmm0, %eax
	orl	$256, %eax
	rep		bsfl	%eax, %eax
	movq	%r10, %rdi
	subq	%rax, %rdi
	jne	32f
	jmp	53f
	.p2align	4
31:
	xorl	%eax, %eax
	movq	%r10, %rdi
	subq	%rax, %rdi
	je	53f
32:
	leaq	(%rax,%rbp), %rsi
	jmp	35f
	.p2align	4
33:
	xorl	%esi, %esi
	testq	%rdx, %rdx
	setne	%sil
	addq	%rsi, %rcx
	subq	%rsi, %rdx
34:
	incq	%rax
	movq	%rdx, %rdi
	movq	%rcx, %rsi
	testq	%rdx, %rdx
	je	53f
35:
	leaq	1(%rsi), %rcx
	leaq	-1(%rdi), %rdx
	movzbl	(%rsi), %r8d
	cmpl	$91, %r8d
	je	36f
	cmpl	$92, %r8d
	je	33b
	cmpl	$42, %r8d
	jne	34b
	jmp	40f
	.p2align	4
36:
	testq	%rdx, %rdx
	je	52f
	movzbl	1(%rsi), %r8d
	addq	$2, %rsi
	addq	$-2, %rdi
	cmpl	$33, %r8d
	je	37f
	cmpl	$94, %r8d
	je	37f
	movq	%rcx, %rsi
	movq	%rdx, %rdi
37:
	movq	%rdi, %r8
	addq	$-1, %r8
	jae	34b
	cmpq	%r14, %r8
	jbe	34b
	addq	$2, %rsi
	movl	$2, %r8d
	subq	%rdi, %r8
	.p2align	4
38:
	cmpb	$93, -1(%rsi)
	je	39f
	incq	%rsi
	incq	%r8
	cmpq	$1, %r8
	jne	38b
	jmp	34b
39:
	negq	%r8
	movq	%rsi, %rcx
	movq	%r8, %rdx
	jmp	34b
	.p2align	4
40:
	movb	%r12b, 47(%rsp)
	pxor	%xmm0, %xmm0
	movdqa	%xmm0, 96(%rsp)
	movdqa	%xmm0, 80(%rsp)
	movq	$0, 112(%rsp)
	testq	%r10, %r10
	je	48f
	xorl	%ebx, %ebx
	xorl	%r12d, %r12d
	movq	%r10, 160(%rsp)
	movq	%r11, 144(%rsp)
	.p2align	4
41:
	movq	%r11, %r15
	subq	%r12, %r15
	movzbl	(%rbp), %r13d
	cmpl	$64, %r13d
	ja	43f
	cmpl	$42, %r13d
	je	43f
	cmpl	$63, %r13d
	je	43f
	movq	64(%rsp), %rax
	leaq	(%rax,%r12), %rsi
	movl	%r13d, %edi
	movq	%r15, %rdx
	callq	"memchr::bytes::memchr"
	movq	144(%rsp), %r11
	cmpb	$1, %al
	cmovneq	%r15, %rdx
	addq	%rdx, %r12
	movq	%rbx, %rax
	addq	%rdx, %rax
	movq	$-1, %rbx
	cmovaeq	%rax, %rbx
	testq	%rdx, %rdx
	je	42f
	cmpq	%r12, %r11
	je	62f
42:
	movq	%r11, %r15
	subq	%r12, %r15
	movq	160(%rsp), %r10
	.p2align	4
43:
	movq	64(%rsp), %rax
	leaq	(%rax,%r12), %r9
	testq	%r15, %r15
	je	44f
	leal	-42(%r13), %eax
	cmpl	$50, %eax
	ja	45f
	movabsq	$1688849862361089, %rcx
	btq	%rax, %rcx
	jae	45f
44:
	movq	%r15, (%rsp)
	leaq	80(%rsp), %rdi
	movq	%rbp, %rsi
	movq	%r10, %rdx
	movq	%r14, %rcx
	movl	56(%rsp), %r8d
	callq	"mime_base::matching::attempt::attempt"
	addq	112(%rsp), %rbx
	movq	$-1, %rdx
	cmovbq	%rdx, %rbx
	movzbl	80(%rsp), %eax
	cmpb	$4, %al
	jne	47f
	movq	160(%rsp), %r10
	movq	144(%rsp), %r11
	incq	%r12
	jmp	41b
45:
	leal	-65(%r13), %eax
	leal	32(%r13), %ecx
	cmpb	$26, %al
	movzbl	%cl, %eax
	cmovael	%r13d, %eax
	movzbl	(%r9), %edx
	leal	-65(%rdx), %ecx
	leal	32(%rdx), %esi
	cmpb	$26, %cl
	movzbl	%sil, %ecx
	cmovael	%edx, %ecx
	cmpb	$0, 47(%rsp)
	cmovnel	%r13d, %eax
	cmovnel	%edx, %ecx
	cmpq	$1, %r10
	je	44b
	cmpq	$1, %r15
	je	44b
	cmpb	%cl, %al
	jne	44b
	movzbl	1(%rbp), %eax
	leal	-42(%rax), %ecx
	cmpl	$50, %ecx
	ja	46f
	movabsq	$1688849862361089, %rdx
	btq	%rcx, %rdx
	jb	44b
46:
	leal	-65(%rax), %ecx
	leal	32(%rax), %edx
	cmpb	$26, %cl
	movzbl	%dl, %ecx
	movzbl	%al, %eax
	cmovael	%eax, %ecx
	movzbl	1(%r9), %edx
	leal	-65(%rdx), %esi
	leal	32(%rdx), %edi
	cmpb	$26, %sil
	movzbl	%dil, %esi
	cmovael	%edx, %esi
	cmpb	$0, 47(%rsp)
	cmovnel	%eax, %ecx
	cmovnel	%edx, %esi
	cmpb	%sil, %cl
	je	44b
	addq	$2, %rbx
	movq	$-1, %rax
	cmovbq	%rax, %rbx
	incq	%r12
	jmp	41b
	.p2align	4
47:
	movq	88(%rsp), %rcx
	movq	96(%rsp), %rbp
	movq	104(%rsp), %r10
	addq	72(%rsp), %rbx
	cmovbq	%rdx, %rbx
	movq	%rbx, 72(%rsp)
	movabsq	$1688849862361089, %r13
	movq	208(%rsp), %rbx
	movq	200(%rsp), %r15
	movq	144(%rsp), %r11
	cmpb	$3, %al
	je	49f
	jmp	64f
48:
	testq	%r11, %r11
	setne	%al
	xorl	%r10d, %r10d
	xorl	%ecx, %ecx
	xorl	%r12d, %r12d
	cmpb	$3, %al
	jne	64f
49:
	addq	%r12, %rcx
	addq	%rcx, 64(%rsp)
	subq	%rcx, %r11
	movzbl	47(%rsp), %r12d
	cmpq	$8, %r10
	jae	30b
	jmp	31b
50:
	movq	128(%rsp), %r14
	movq	136(%rsp), %r8
51:
	addq	8(%rbx), %rsi
	movq	$-1, %rax
	cmovaeq	%rsi, %rax
	movq	%rax, 8(%rbx)
	jmp	55f
52:
	incq	%rax
53:
	pxor	%xmm0, %xmm0
	movdqa	%xmm0, 96(%rsp)
	movdqa	%xmm0, 80(%rsp)
	movq	$0, 112(%rsp)
	subq	%rax, %r11
	jb	6b
	addq	%r11, 64(%rsp)
	testq	%r10, %r10
	je	54f
	testq	%rax, %rax
	je	54f
	movzbl	(%rbp), %ecx
	leal	-42(%rcx), %edx
	cmpl	$50, %edx
	ja	60f
	btq	%rdx, %r13
	jae	60f
54:
	movq	%rax, (%rsp)
	leaq	80(%rsp), %rdi
	movq	%rbp, %rsi
	movq	%r10, %rdx
	movq	%r14, %rcx
	movl	56(%rsp), %r8d
	movq	64(%rsp), %r9
	callq	"mime_base::matching::attempt::attempt"
	movq	72(%rsp), %rcx
	addq	112(%rsp), %rcx
	movq	$-1, %rax
	cmovbq	%rax, %rcx
	addq	8(%rbx), %rcx
	cmovbq	%rax, %rcx
	cmpb	$0, 80(%rsp)
	movq	%rcx, 8(%rbx)
	movq	128(%rsp), %r14
	movq	136(%rsp), %r8
	jne	7b
55:
	movq	176(%rsp), %rax
	cmpq	%rax, 184(%rsp)
	je	61f
56:
	movq	168(%rsp), %rcx
	movq	296(%rsp), %rdx
	movq	%rdx, (%rcx,%rax,8)
	incq	%rax
	movq	%rax, 176(%rsp)
	jmp	7b
57:
	leal	-65(%rcx), %eax
	leal	32(%rcx), %edx
	cmpb	$26, %al
	movzbl	%dl, %eax
	cmovael	%ecx, %eax
	movq	152(%rsp), %rdx
	movzbl	(%rdx), %edx
	leal	-65(%rdx), %esi
	leal	32(%rdx), %edi
	cmpb	$26, %sil
	movzbl	%dil, %esi
	cmovael	%edx, %esi
	testb	%r12b, %r12b
	cmovnel	%ecx, %eax
	cmovnel	%edx, %esi
	cmpb	%sil, %al
	je	14b
	movq	8(%rbx), %rax
	incq	%rax
	movq	$-1, %rcx
	cmovneq	%rax, %rcx
	movq	%rcx, 8(%rbx)
	jmp	7b
58:
	movl	$1, %esi
	movq	%r15, %rdx
	subq	%rax, %rdx
	jb	27b
	testq	%rax, %rax
	je	63f
	addq	152(%rsp), %rdx
	testb	%r12b, %r12b
	je	65f
	xorl	%ecx, %ecx
	.p2align	4
59:
	movzbl	1(%rbp,%rcx), %esi
	cmpb	(%rdx,%rcx), %sil
	jne	68f
	incq	%rcx
	cmpq	%rcx, %rax
	jne	59b
	movq	%rax, %rcx
	jmp	68f
60:
	leal	-65(%rcx), %edx
	leal	32(%rcx), %esi
	cmpb	$26, %dl
	movzbl	%sil, %edx
	movzbl	%cl, %ecx
	cmovael	%ecx, %edx
	movq	64(%rsp), %rsi
	movzbl	(%rsi), %esi
	leal	-65(%rsi), %edi
	leal	32(%rsi), %r8d
	cmpb	$26, %dil
	movzbl	%r8b, %edi
	cmovael	%esi, %edi
	testb	%r12b, %r12b
	cmovnel	%ecx, %edx
	cmovnel	%esi, %edi
	cmpb	%dil, %dl
	je	54b
	jmp	6b
61:
	movq	%r8, %rbp
	leaq	168(%rsp), %rdi
	callq	"std_alloc::vec::Vec::grow_amortized::<#3e74848cb5369e83>"
	testb	%al, %al
	je	112f
	movq	176(%rsp), %rax
	movq	%rbp, %r8
	jmp	56b
62:
	incq	%rbx
	movq	$-1, %rax
	cmoveq	%rax, %rbx
	addq	72(%rsp), %rbx
	cmovbq	%rax, %rbx
	movq	%rbx, %rsi
	movabsq	$1688849862361089, %r13
	movq	208(%rsp), %rbx
	movq	200(%rsp), %r15
	jmp	26b
63:
	xorl	%ecx, %ecx
	jmp	68f
64:
	movzbl	%al, %eax
	decl	%eax
	cmpl	$2, %eax
	jae	69f
	movq	128(%rsp), %r14
	movq	136(%rsp), %r8
	movq	72(%rsp), %rsi
	jmp	27b
65:
	movq	%r8, %r10
	xorl	%ecx, %ecx
	.p2align	4
66:
	movzbl	1(%rbp,%rcx), %esi
	leal	-65(%rsi), %edi
	leal	32(%rsi), %r8d
	cmpb	$26, %dil
	movzbl	%r8b, %edi
	cmovael	%esi, %edi
	movzbl	(%rdx,%rcx), %esi
	leal	-65(%rsi), %r8d
	leal	32(%rsi), %r9d
	cmpb	$26, %r8b
	movzbl	%r9b, %r8d
	cmovael	%esi, %r8d
	cmpb	%r8b, %dil
	jne	67f
	incq	%rcx
	cmpq	%rcx, %rax
	jne	66b
	movq	%rax, %rcx
67:
	movq	%r10, %r8
68:
	xorl	%edx, %edx
	cmpq	%rax, %rcx
	setne	%dl
	addq	%rcx, %rdx
	addq	8(%rbx), %rdx
	movq	$-1, %rsi
	cmovaeq	%rdx, %rsi
	movq	%rsi, 8(%rbx)
	cmpq	%rax, %rcx
	jne	7b
	jmp	55b
69:
	movq	128(%rsp), %r14
	movq	136(%rsp), %r8
	movq	72(%rsp), %rsi
	jmp	51b
70:
	movq	168(%rsp), %r15
	movq	176(%rsp), %rbp
	movq	184(%rsp), %r12
	cmpq	$20, %rbp
	jbe	74f
	movq	%r12, 56(%rsp)
	leaq	8(%r15), %rdi
	movq	(%r15), %rsi
	callq	"core::slice::sort::order::ByOrder::less::<#878f6745e8fab0b2>"
	movl	%eax, %r12d
	leaq	16(%r15), %rbx
	movl	$2, %r14d
	testb	%al, %al
	je	72f
	.p2align	4
71:
	movq	-8(%rbx), %rsi
	movq	%rbx, %rdi
	callq	"core::slice::sort::order::ByOrder::less::<#878f6745e8fab0b2>"
	testb	%al, %al
	je	77f
	incq	%r14
	addq	$8, %rbx
	movq	%rbp, %r10
	cmpq	%r14, %rbp
	jne	71b
	jmp	78f
	.p2align	4
72:
	movq	-8(%rbx), %rsi
	movq	%rbx, %rdi
	callq	"core::slice::sort::order::ByOrder::less::<#878f6745e8fab0b2>"
	testb	%al, %al
	jne	77f
	incq	%r14
	addq	$8, %rbx
	movq	%rbp, %r10
	cmpq	%r14, %rbp
	jne	72b
	jmp	79f
73:
	leaq	48(%rsp), %r15
	xorl	%r12d, %r12d
	xorl	%ebp, %ebp
74:
	movl	$1, %edx
	movq	%r15, %rdi
	movq	%rbp, %rsi
	callq	"core::slice::sort::small::insert_from::<#cc3e8e382a4904f8>"
	testq	%rbp, %rbp
	je	126f
75:
	movq	%rbp, %r10
	movq	(%r15), %rax
	cmpb	$0, 56(%rax)
	je	80f
76:
	movq	64(%rax), %rdx
	leaq	72(%rax), %rcx
	movq	(%rcx), %rcx
	testq	%rcx, %rcx
	jne	81f
	jmp	85f
77:
	movq	%rbp, %r10
	cmpq	%rbp, %r14
	jne	104f
	testb	%r12b, %r12b
	je	79f
78:
	movq	%r10, %rdx
	shrq	%rdx
	movq	%r10, %rax
	subq	%rdx, %rax
	leaq	(%r15,%rax,8), %rsi
	movq	%r15, %rdi
	callq	"core::slice::edits::mirror::<*>"
	movq	%rbp, %r10
79:
	movq	56(%rsp), %r12
	movq	(%r15), %rax
	cmpb	$0, 56(%rax)
	jne	76b
80:
	leaq	64(%rax), %rdx
	leaq	80(%rax), %rcx
	movq	(%rcx), %rcx
	testq	%rcx, %rcx
	je	85f
81:
	cmpb	$42, (%rdx)
	jne	84f
	leaq	-1(%rcx), %rsi
	cmpq	$8, %rsi
	jb	82f
	movq	1(%rdx), %xmm0
	movdqa	1b(%rip), %xmm1
	pcmpeqb	%xmm0, %xmm1
	movdqa	2b(%rip), %xmm2
	pcmpeqb	%xmm0, %xmm2
	por	%xmm1, %xmm2
	movdqa	3b(%rip), %xmm1
	pcmpeqb	%xmm0, %xmm1
	pcmpeqb	4b(%rip), %xmm0
	por	%xmm1, %xmm0
	por	%xmm2, %xmm0
	pmovmskb	%xmm0, %esi
	testb	%sil, %sil
	jne	87f
82:
	movl	$1, %esi
	.p2align	4
83:
	cmpq	%rsi, %rcx
	je	108f
	movzbl	(%rdx,%rsi), %edi
	incq	%rsi
	addl	$-42, %edi
	cmpl	$50, %edi
	ja	83b
	btq	%rdi, %r13
	jae	83b
	jmp	87f
84:
	cmpq	$8, %rcx
	jb	85f
	movq	(%rdx), %xmm0
	movdqa	1b(%rip), %xmm1
	pcmpeqb	%xmm0, %xmm1
	movdqa	2b(%rip), %xmm2
	pcmpeqb	%xmm0, %xmm2
	por	%xmm1, %xmm2
	movdqa	3b(%rip), %xmm1
	pcmpeqb	%xmm0, %xmm1
	pcmpeqb	4b(%rip), %xmm0
	por	%xmm1, %xmm0
	por	%xmm2, %xmm0
	pmovmskb	%xmm0, %esi
	testb	%sil, %sil
	jne	87f
85:
	xorl	%esi, %esi
	.p2align	4
86:
	cmpq	%rsi, %rcx
	je	103f
	movzbl	(%rdx,%rsi), %edi
	incq	%rsi
	addl	$-42, %edi
	cmpl	$50, %edi
	ja	86b
	btq	%rdi, %r13
	jae	86b
87:
	xorl	%edx, %edx
88:
	movzbl	(%rax), %esi
	orl	%edx, %esi
	movzbl	96(%rax), %edx
	shll	$17, %esi
	movzwl	%cx, %eax
	leal	(%rsi,%rax,2), %eax
	orl	%edx, %eax
	xorl	%ebp, %ebp
	xorl	%ecx, %ecx
	jmp	92f
89:
	movq	1(%rdi), %xmm0
	movdqa	1b(%rip), %xmm1
	pcmpeqb	%xmm0, %xmm1
	movdqa	2b(%rip), %xmm2
	pcmpeqb	%xmm0, %xmm2
	por	%xmm1, %xmm2
	movdqa	3b(%rip), %xmm1
	pcmpeqb	%xmm0, %xmm1
	pcmpeqb	4b(%rip), %xmm0
	por	%xmm1, %xmm0
	por	%xmm2, %xmm0
	pmovmskb	%xmm0, %r8d
	testb	%r8b, %r8b
	je	95f
	.p2align	4
90:
	xorl	%edi, %edi
91:
	movzbl	(%rdx), %r8d
	orl	%edi, %r8d
	movzbl	96(%rdx), %edx
	shll	$17, %r8d
	movzwl	%si, %esi
	leal	(%r8,%rsi,2), %esi
	orl	%edx, %esi
	xorl	%edx, %edx
	cmpl	%eax, %esi
	sete	%dl
	addq	%rdx, %rbp
	incq	%rcx
	cmpq	%r10, %rcx
	je	102f
92:
	movq	(%r15,%rcx,8), %rdx
	cmpb	$0, 56(%rdx)
	je	93f
	movq	64(%rdx), %rdi
	leaq	72(%rdx), %rsi
	movq	(%rsi), %rsi
	testq	%rsi, %rsi
	jne	94f
	jmp	98f
	.p2align	4
93:
	leaq	64(%rdx), %rdi
	leaq	80(%rdx), %rsi
	movq	(%rsi), %rsi
	testq	%rsi, %rsi
	je	98f
94:
	cmpb	$42, (%rdi)
	jne	97f
	leaq	-1(%rsi), %r8
	cmpq	$8, %r8
	jae	89b
95:
	movl	$1, %r8d
	.p2align	4
96:
	cmpq	%r8, %rsi
	je	101f
	movzbl	(%rdi,%r8), %r9d
	incq	%r8
	addl	$-42, %r9d
	cmpl	$50, %r9d
	ja	96b
	btq	%r9, %r13
	jae	96b
	jmp	90b
	.p2align	4
97:
	cmpq	$8, %rsi
	jb	98f
	movq	(%rdi), %xmm0
	movdqa	1b(%rip), %xmm1
	pcmpeqb	%xmm0, %xmm1
	movdqa	2b(%rip), %xmm2
	pcmpeqb	%xmm0, %xmm2
	por	%xmm1, %xmm2
	movdqa	3b(%rip), %xmm1
	pcmpeqb	%xmm0, %xmm1
	pcmpeqb	4b(%rip), %xmm0
	por	%xmm1, %xmm0
	por	%xmm2, %xmm0
	pmovmskb	%xmm0, %r8d
	testb	%r8b, %r8b
	jne	90b
	.p2align	4
98:
	xorl	%r8d, %r8d
	.p2align	4
99:
	cmpq	%r8, %rsi
	je	100f
	movzbl	(%rdi,%r8), %r9d
	incq	%r8
	addl	$-42, %r9d
	cmpl	$50, %r9d
	ja	99b
	btq	%r9, %r13
	jae	99b
	jmp	90b
100:
	movl	$512, %edi
	jmp	91b
101:
	movl	$256, %edi
	jmp	91b
102:
	movq	%r12, 56(%rsp)
	movq	%r15, 64(%rsp)
	jmp	127f
103:
	movl	$512, %edx
	jmp	88b
104:
	leaq	(,%r10,8), %rdi
	testq	%rdi, %rdi
	js	105f
	movl	$8, %esi
	callq	rattle_alloc@PLT
	xorl	%ebx, %ebx
	testb	$1, %al
	cmovneq	%rdx, %rbx
	je	105f
	movq	%rbp, %r10
	movq	%rdx, 224(%rsp)
	movq	%rbp, 232(%rsp)
	cmpq	$65, %rbp
	setae	%cl
	movq	%rbp, %rax
	shrq	%rax
	cmpq	%rax, %r14
	setae	%dl
	orb	%cl, %dl
	jne	109f
	bsrq	%r10, %rcx
	xorl	$63, %ecx
	addl	%ecx, %ecx
	xorl	$126, %ecx
	leaq	224(%rsp), %r8
	movq	%r15, %rdi
	movq	%r10, %rsi
	movq	%r10, %rdx
	callq	"core::slice::sort::stable::quicksort::<#cc3e8e382a4904f8>"
	movq	56(%rsp), %r12
	jmp	125f
105:
	cmpq	$0, 56(%rsp)
	je	107f
	movq	%r15, %rdi
106:
	callq	rattle_dealloc@PLT
107:
	movq	192(%rsp), %rax
	movb	$1, (%rax)
	pxor	%xmm0, %xmm0
	movdqu	%xmm0, 8(%rax)
	movdqu	%xmm0, 24(%rax)
	jmp	135f
108:
	movl	$256, %edx
	jmp	88b
109:
	pxor	%xmm0, %xmm0
	movdqa	%xmm0, 96(%rsp)
	movdqa	%xmm0, 80(%rsp)
	movq	$0, 112(%rsp)
	movl	$64, %r9d
	cmpq	$4097, %r10
	jb	111f
	movabsq	$4294967296, %rdx
	xorl	%ecx, %ecx
110:
	movq	%rcx, %rsi
	addq	%rdx, %rcx
	shrq	%rcx
	movq	%rcx, %rdi
	imulq	%rcx, %rdi
	cmpq	%r10, %rdi
	cmovaq	%rcx, %rdx
	cmovaq	%rsi, %rcx
	leaq	1(%rcx), %rsi
	cmpq	%rdx, %rsi
	jb	110b
	cmpq	$65, %rcx
	movl	$64, %r9d
	cmovaeq	%rcx, %r9
111:
	cmpq	%r9, %rax
	cmovbq	%rax, %r9
	movabsq	$4611686018427387904, %rax
	xorl	%edx, %edx
	divq	%r10
	incq	%rax
	cmpq	%r9, %r14
	movq	%r9, %r8
	cmovaq	%r14, %r8
	setae	%cl
	andb	%cl, %r12b
	cmpb	$1, %r12b
	movq	56(%rsp), %r12
	jne	124f
	cmpq	$15, %r14
	jbe	113f
	movq	%r14, %rdx
	shrq	%rdx
	movq	%r14, %rcx
	subq	%rdx, %rcx
	leaq	(%r15,%rcx,8), %rsi
	movq	%r15, %rdi
	movq	%r15, %r12
	movq	%rax, %r15
	movq	%r9, 64(%rsp)
	callq	"core::slice::edits::mirror::<*>"
	movq	64(%rsp), %r9
	movq	%rbp, %r10
	movq	%r15, %rax
	movq	%r12, %r15
	movq	56(%rsp), %r12
	movb	$1, %cl
	movq	%r14, %r8
	jmp	124f
112:
	cmpq	$0, 184(%rsp)
	je	107b
	movq	168(%rsp), %rdi
	jmp	106b
113:
	leaq	-2(%r14), %rsi
	movq	%rsi, %rdx
	shrq	%rdx
	cmpq	$1, %r14
	je	114f
	movq	(%r15), %rcx
	movq	-8(%r15,%r14,8), %rdi
	movq	%rdi, (%r15)
	movq	%rcx, -8(%r15,%r14,8)
114:
	movb	$1, %cl
	testq	%rdx, %rdx
	je	123f
	cmpq	$1, %rsi
	jbe	115f
	movq	8(%r15), %rsi
	movq	-16(%r15,%r14,8), %rdi
	movq	%rdi, 8(%r15)
	movq	%rsi, -16(%r15,%r14,8)
	jmp	116f
115:
	testq	%rsi, %rsi
	jne	116f
	movq	(%r15), %rsi
	movq	8(%r15), %rdi
	movq	%rdi, (%r15)
	movq	%rsi, 8(%r15)
116:
	cmpq	$1, %rdx
	je	123f
	leaq	-3(%r14), %rsi
	cmpq	$2, %rsi
	jbe	117f
	movq	16(%r15), %rsi
	movq	-24(%r15,%r14,8), %rdi
	movq	%rdi, 16(%r15)
	movq	%rsi, -24(%r15,%r14,8)
	jmp	118f
117:
	je	118f
	movq	-24(%r15,%r14,8), %rsi
	movq	16(%r15), %rdi
	movq	%rdi, -24(%r15,%r14,8)
	movq	%rsi, 16(%r15)
118:
	cmpq	$2, %rdx
	je	123f
	leaq	-4(%r14), %rsi
	cmpq	$3, %rsi
	jbe	119f
	movq	24(%r15), %rsi
	movq	-32(%r15,%r14,8), %rdi
	movq	%rdi, 24(%r15)
	movq	%rsi, -32(%r15,%r14,8)
	jmp	120f
119:
	je	120f
	movq	-32(%r15,%r14,8), %rsi
	movq	24(%r15), %rdi
	movq	%rdi, -32(%r15,%r14,8)
	movq	%rsi, 24(%r15)
120:
	cmpq	$3, %rdx
	je	123f
	leaq	-5(%r14), %rsi
	cmpq	$4, %rsi
	jbe	121f
	movq	32(%r15), %rsi
	movq	-40(%r15,%r14,8), %rdi
	movq	%rdi, 32(%r15)
	movq	%rsi, -40(%r15,%r14,8)
	jmp	122f
121:
	je	122f
	movq	-40(%r15,%r14,8), %rsi
	movq	32(%r15), %rdi
	movq	%rdi, -40(%r15,%r14,8)
	movq	%rsi, 32(%r15)
122:
	cmpq	$4, %rdx
	jne	139f
123:
	movq	%r14, %r8
124:
	leaq	224(%rsp), %rdx
	movq	%rdx, 24(%rsp)
	movq	%rax, 16(%rsp)
	movq	%r9, 8(%rsp)
	movl	$0, (%rsp)
	movzbl	%cl, %r9d
	leaq	80(%rsp), %rdi
	movq	%r15, %rsi
	movq	%r10, %rdx
	xorl	%ecx, %ecx
	callq	"core::slice::sort::runs::climb::<#cc3e8e382a4904f8>"
	testb	$1, 88(%rsp)
	jne	125f
	movq	80(%rsp), %rdx
	movl	$127, %eax
	bsrq	%rdx, %rax
	xorl	$63, %eax
	addl	%eax, %eax
	movl	$126, %ecx
	subl	%eax, %ecx
	leaq	224(%rsp), %r8
	movq	%r15, %rdi
	movq	%rdx, %rsi
	callq	"core::slice::sort::stable::quicksort::<#cc3e8e382a4904f8>"
125:
	movq	%rbx, %rdi
	callq	rattle_dealloc@PLT
	testq	%rbp, %rbp
	jne	75b
126:
	movq	%r12, 56(%rsp)
	movq	%r15, 64(%rsp)
	xorl	%r10d, %r10d
	xorl	%ebp, %ebp
127:
	movq	280(%rsp), %rax
	movq	(%rax), %rax
	movq	24(%rax), %rbx
	movq	32(%rax), %r14
	leaq	48(%rsp), %rax
	movq	%rax, 80(%rsp)
	pxor	%xmm0, %xmm0
	movdqu	%xmm0, 88(%rsp)
	testq	%r10, %r10
	je	133f
	xorl	%r15d, %r15d
	xorl	%r13d, %r13d
	movq	%r10, %r12
	jmp	131f
	.p2align	4
128:
	movq	16(%rax), %rdx
	addq	$24, %rax
129:
	movq	(%rax), %rcx
	movq	%rbx, %rdi
	movq	%r14, %rsi
	callq	"mime_lookup::pairs::unalias"
	cmpq	%r15, 96(%rsp)
	je	132f
130:
	movq	%r15, %rcx
	shlq	$4, %rcx
	movq	216(%rsp), %rsi
	movq	%rax, (%rsi,%rcx)
	movq	%rdx, 8(%rsi,%rcx)
	incq	%r15
	movq	%r15, 88(%rsp)
	incq	%r13
	cmpq	%r13, %r12
	je	133f
131:
	movq	64(%rsp), %rax
	movq	(%rax,%r13,8), %rax
	cmpb	$0, 8(%rax)
	jne	128b
	leaq	16(%rax), %rdx
	addq	$48, %rax
	jmp	129b
132:
	movq	%rdx, 144(%rsp)
	movq	%rax, 160(%rsp)
	leaq	80(%rsp), %rdi
	callq	"std_alloc::vec::Vec::grow_amortized::<#25095d740b27081c>"
	testb	%al, %al
	je	136f
	movq	80(%rsp), %rax
	movq	%rax, 216(%rsp)
	movq	88(%rsp), %r15
	movq	160(%rsp), %rax
	movq	144(%rsp), %rdx
	jmp	130b
133:
	movq	96(%rsp), %rax
	movq	%rax, 327(%rsp)
	movups	80(%rsp), %xmm0
	movups	%xmm0, 311(%rsp)
	leaq	247(%rsp), %rbx
	movups	%xmm0, 247(%rsp)
	movq	%rax, 263(%rsp)
	cmpq	$0, 56(%rsp)
	je	134f
	movq	64(%rsp), %rdi
	callq	rattle_dealloc@PLT
134:
	movq	192(%rsp), %rcx
	movb	$0, (%rcx)
	movdqu	(%rbx), %xmm0
	movdqu	%xmm0, 8(%rcx)
	movq	16(%rbx), %rax
	movq	%rax, 24(%rcx)
	movq	%rbp, 32(%rcx)
135:
	addq	$344, %rsp
	popq	%rbx
	popq	%r12
	popq	%r13
	popq	%r14
	popq	%r15
	popq	%rbp
	retq
136:
	cmpq	$0, 96(%rsp)
	je	137f
	movq	80(%rsp), %rdi
	callq	rattle_dealloc@PLT
137:
	pxor	%xmm0, %xmm0
	movdqu	%xmm0, 311(%rsp)
	movq	$0, 327(%rsp)
	leaq	247(%rsp), %rbx
	movdqu	%xmm0, 247(%rsp)
	movq	$0, 263(%rsp)
	cmpq	$0, 56(%rsp)
	movq	64(%rsp), %rdi
	je	138f
	callq	rattle_dealloc@PLT
138:
	movq	192(%rsp), %rcx
	movb	$1, (%rcx)
	movups	(%rbx), %xmm0
	movups	%xmm0, 8(%rcx)
	movq	16(%rbx), %rax
	movq	%rax, 24(%rcx)
	movq	$0, 32(%rcx)
	jmp	135b
139:
	movq	%r9, %r11
	movq	%r12, %r9
	leaq	-6(%r14), %rsi
	cmpq	$5, %rsi
	jbe	140f
	movq	40(%r15), %rsi
	movq	-48(%r15,%r14,8), %rdi
	movq	%rdi, 40(%r15)
	movq	%rsi, -48(%r15,%r14,8)
	jmp	141f
140:
	je	141f
	movq	-48(%r15,%r14,8), %rsi
	movq	40(%r15), %rdi
	movq	%rdi, -48(%r15,%r14,8)
	movq	%rsi, 40(%r15)
141:
	cmpq	$5, %rdx
	je	143f
	leaq	-7(%r14), %rdx
	cmpq	$6, %rdx
	jbe	142f
	movq	48(%r15), %rdx
	movq	-56(%r15,%r14,8), %rsi
	movq	%rsi, 48(%r15)
	movq	%rdx, -56(%r15,%r14,8)
	jmp	143f
142:
	je	143f
	movq	-56(%r15,%r14,8), %rdx
	movq	48(%r15), %rsi
	movq	%rsi, -56(%r15,%r14,8)
	movq	%rdx, 48(%r15)
143:
	movq	%r14, %r8
	movq	%r9, %r12
	movq	%rbp, %r10
	movq	%r11, %r9
	jmp	124b
144:
	.size	"mime_lookup::lists::ListsAsked::candidate_kinds", 144b-"mime_lookup::lists::ListsAsked::candidate_kinds"
	.section	.rodata,"a",@progbits
	.p2align	2, 0x0
145:
	.long	50b-145b
	.long	26b-145b
	.long	26b-145b
	.long	28b-145b
	.long	26b-145b

	.text
	.p2align	4
	.type	"mime_lookup::lists::ListsAsked::first_of",@function
"mime_lookup::lists::ListsAsked::first_of":
	pushq	%rbp
	pushq	%r15
	pushq	%r14
	pushq	%r13
	pushq	%r12
	pushq	%rbx
	subq	$712, %rsp
	movq	%r9, %r13
	movq	%r8, %rbp
	movq	%rcx, %r14
	movq	%rdx, %r15
	movq	%rsi, %r12
	movq	%rdi, 264(%rsp)
	xorps	%xmm0, %xmm0
	movaps	%xmm0, 240(%rsp)
	movq	$0, 255(%rsp)
	leaq	304(%rsp), %rbx
	movl	$408, %edx
	movq	%rbx, %rdi
	xorl	%esi, %esi
	callq	memset@PLT
	xorps	%xmm0, %xmm0
	movaps	%xmm0, 272(%rsp)
	movq	$0, 288(%rsp)
	movq	%rbx, %rdi
	movq	%r12, %rsi
	callq	"mime_lookup::places::placed_pairs"
	cmpb	$0, 304(%rsp)
	je	3f
1:
	xorps	%xmm0, %xmm0
	movups	%xmm0, 247(%rsp)
	movb	$1, %al
2:
	movq	264(%rsp), %rcx
	movb	%al, (%rcx)
	movups	247(%rsp), %xmm0
	movups	%xmm0, 8(%rcx)
	addq	$712, %rsp
	popq	%rbx
	popq	%r12
	popq	%r13
	popq	%r14
	popq	%r15
	popq	%rbp
	retq
3:
	movq	784(%rsp), %rdx
	movq	776(%rsp), %rcx
	movq	768(%rsp), %rax
	leaq	312(%rsp), %rsi
	movq	328(%rsp), %rdi
	movq	%rdi, 32(%rsp)
	movq	344(%rsp), %r12
	movq	352(%rsp), %rdi
	movq	%rdi, 40(%rsp)
	movq	368(%rsp), %rbx
	movq	376(%rsp), %rdi
	movq	%rdi, 48(%rsp)
	movq	392(%rsp), %rdi
	movq	%rdi, 144(%rsp)
	movq	400(%rsp), %rdi
	movq	%rdi, 56(%rsp)
	movq	416(%rsp), %rdi
	movq	%rdi, 152(%rsp)
	movq	424(%rsp), %rdi
	movq	%rdi, 64(%rsp)
	movq	440(%rsp), %rdi
	movq	%rdi, 160(%rsp)
	movq	448(%rsp), %rdi
	movq	%rdi, 72(%rsp)
	movq	464(%rsp), %rdi
	movq	%rdi, 168(%rsp)
	movq	488(%rsp), %rdi
	movq	%rdi, 80(%rsp)
	movq	504(%rsp), %rdi
	movq	%rdi, 176(%rsp)
	movq	528(%rsp), %rdi
	movq	%rdi, 88(%rsp)
	movq	544(%rsp), %rdi
	movq	%rdi, 184(%rsp)
	movq	552(%rsp), %rdi
	movq	%rdi, 96(%rsp)
	movq	568(%rsp), %rdi
	movq	%rdi, 192(%rsp)
	movq	576(%rsp), %rdi
	movq	%rdi, 104(%rsp)
	movq	592(%rsp), %rdi
	movq	%rdi, 200(%rsp)
	movq	600(%rsp), %rdi
	movq	%rdi, 112(%rsp)
	movq	616(%rsp), %rdi
	movq	%rdi, 208(%rsp)
	movq	624(%rsp), %rdi
	movq	%rdi, 120(%rsp)
	movq	640(%rsp), %rdi
	movq	%rdi, 216(%rsp)
	movq	648(%rsp), %rdi
	movq	%rdi, 128(%rsp)
	movq	664(%rsp), %rdi
	movq	%rdi, 224(%rsp)
	movq	688(%rsp), %rdi
	movq	%rdi, 136(%rsp)
	movq	704(%rsp), %rdi
	movq	%rdi, 232(%rsp)
	movq	%rdx, 16(%rsp)
	movq	%rcx, 8(%rsp)
	movq	%rax, (%rsp)
	leaq	272(%rsp), %rdi
	movq	%r15, %rdx
	movq	%r14, %rcx
	movq	%rbp, %r8
	movq	%r13, %r9
	callq	"mime_lookup::ancestry::first_at"
	cmpb	$0, 272(%rsp)
	je	17f
	testq	%r12, %r12
	je	4f
	movq	32(%rsp), %rdi
	callq	rattle_dealloc@PLT
4:
	testq	%rbx, %rbx
	je	5f
	movq	40(%rsp), %rdi
	callq	rattle_dealloc@PLT
5:
	cmpq	$0, 144(%rsp)
	je	6f
	movq	48(%rsp), %rdi
	callq	rattle_dealloc@PLT
6:
	cmpq	$0, 152(%rsp)
	je	7f
	movq	56(%rsp), %rdi
	callq	rattle_dealloc@PLT
7:
	cmpq	$0, 160(%rsp)
	je	8f
	movq	64(%rsp), %rdi
	callq	rattle_dealloc@PLT
8:
	cmpq	$0, 168(%rsp)
	je	9f
	movq	72(%rsp), %rdi
	callq	rattle_dealloc@PLT
9:
	cmpq	$0, 176(%rsp)
	je	10f
	movq	80(%rsp), %rdi
	callq	rattle_dealloc@PLT
10:
	cmpq	$0, 184(%rsp)
	je	11f
	movq	88(%rsp), %rdi
	callq	rattle_dealloc@PLT
11:
	cmpq	$0, 192(%rsp)
	je	12f
	movq	96(%rsp), %rdi
	callq	rattle_dealloc@PLT
12:
	cmpq	$0, 200(%rsp)
	je	13f
	movq	104(%rsp), %rdi
	callq	rattle_dealloc@PLT
13:
	cmpq	$0, 208(%rsp)
	je	14f
	movq	112(%rsp), %rdi
	callq	rattle_dealloc@PLT
14:
	cmpq	$0, 216(%rsp)
	je	15f
	movq	120(%rsp), %rdi
	callq	rattle_dealloc@PLT
15:
	cmpq	$0, 224(%rsp)
	je	16f
	movq	128(%rsp), %rdi
	callq	rattle_dealloc@PLT
16:
	cmpq	$0, 232(%rsp)
	je	1b
	movq	136(%rsp), %rdi
	callq	rattle_dealloc@PLT
	jmp	1b
17:
	testq	%r12, %r12
	je	18f
	movq	32(%rsp), %rdi
	callq	rattle_dealloc@PLT
18:
	testq	%rbx, %rbx
	je	19f
	movq	40(%rsp), %rdi
	callq	rattle_dealloc@PLT
19:
	cmpq	$0, 144(%rsp)
	je	20f
	movq	48(%rsp), %rdi
	callq	rattle_dealloc@PLT
20:
	cmpq	$0, 152(%rsp)
	je	21f
	movq	56(%rsp), %rdi
	callq	rattle_dealloc@PLT
21:
	cmpq	$0, 160(%rsp)
	je	22f
	movq	64(%rsp), %rdi
	callq	rattle_dealloc@PLT
22:
	cmpq	$0, 168(%rsp)
	je	23f
	movq	72(%rsp), %rdi
	callq	rattle_dealloc@PLT
23:
	cmpq	$0, 176(%rsp)
	je	24f
	movq	80(%rsp), %rdi
	callq	rattle_dealloc@PLT
24:
	cmpq	$0, 184(%rsp)
	je	25f
	movq	88(%rsp), %rdi
	callq	rattle_dealloc@PLT
25:
	cmpq	$0, 192(%rsp)
	je	26f
	movq	96(%rsp), %rdi
	callq	rattle_dealloc@PLT
26:
	cmpq	$0, 200(%rsp)
	je	27f
	movq	104(%rsp), %rdi
	callq	rattle_dealloc@PLT
27:
	cmpq	$0, 208(%rsp)
	je	28f
	movq	112(%rsp), %rdi
	callq	rattle_dealloc@PLT
28:
	cmpq	$0, 216(%rsp)
	je	29f
	movq	120(%rsp), %rdi
	callq	rattle_dealloc@PLT
29:
	cmpq	$0, 224(%rsp)
	je	30f
	movq	128(%rsp), %rdi
	callq	rattle_dealloc@PLT
30:
	leaq	280(%rsp), %rbx
	cmpq	$0, 232(%rsp)
	je	31f
	movq	136(%rsp), %rdi
	callq	rattle_dealloc@PLT
31:
	movups	(%rbx), %xmm0
	movups	%xmm0, 247(%rsp)
	xorl	%eax, %eax
	jmp	2b
32:
	.size	"mime_lookup::lists::ListsAsked::first_of", 32b-"mime_lookup::lists::ListsAsked::first_of"

	.section	.rodata.cst16,"aM",@progbits,16
	.p2align	4, 0x0
1:
	.byte	42,42,42,42,42,42,42,42
	.zero	1
	.zero	1
	.zero	1
	.zero	1
	.zero	1
	.zero	1
	.zero	1
	.zero	1
2:
	.byte	63,63,63,63,63,63,63,63
	.zero	1
	.zero	1
	.zero	1
	.zero	1
	.zero	1
	.zero	1
	.zero	1
	.zero	1
3:
	.byte	92,92,92,92,92,92,92,92
	.zero	1
	.zero	1
	.zero	1
	.zero	1
	.zero	1
	.zero	1
	.zero	1
	.zero	1
4:
	.byte	91,91,91,91,91,91,91,91
	.zero	1
	.zero	1
	.zero	1
	.zero	1
	.zero	1
	.zero	1
	.zero	1
	.zero	1
5:
	.zero	16,93
	.text
	.p2align	4
	.type	"mime_lookup::lists::ListsAsked::kept_kinds",@function
"mime_lookup::lists::ListsAsked::kept_kinds":
	pushq	%rbp
	pushq	%r15
	pushq	%r14
	pushq	%r13
	pushq	%r12
	pushq	%rbx
	subq	$264, %rsp
	movq	%rcx, %r13
	movq	%rdi, 144(%rsp)
	pxor	%xmm0, %xmm0
	movdqu	%xmm0, 239(%rsp)
	movdqa	%xmm0, 224(%rsp)
	movq	%rsi, 192(%rsp)
	movq	(%rsi), %rax
	movq	(%rax), %rcx
	movq	%rcx, 216(%rsp)
	movq	8(%rax), %rcx
	movq	$0, 112(%rsp)
	leaq	16(%rsp), %rax
	movq	%rax, 176(%rsp)
	movq	%rax, 120(%rsp)
	movdqu	%xmm0, 128(%rsp)
	movq	%rcx, 208(%rsp)
	testq	%rcx, %rcx
	je	89f
	movq	%r8, %r15
	movq	%rdx, %r12
	xorl	%r14d, %r14d
	movq	%r8, 168(%rsp)
	movq	%r13, 160(%rsp)
	movq	%rdx, 104(%rsp)
	jmp	8f
	.p2align	4
6:
	movq	24(%rsp), %rcx
	incq	%rcx
	movq	$-1, %rax
	cmoveq	%rax, %rcx
	addq	8(%r15), %rcx
	cmovbq	%rax, %rcx
	movq	%rcx, 8(%r15)
	movq	40(%rsp), %r14
7:
	incq	%r14
	cmpq	208(%rsp), %r14
	je	83f
8:
	imulq	$104, %r14, %rax
	movq	216(%rsp), %rcx
	leaq	(%rcx,%rax), %rbx
	cmpb	$0, 56(%rcx,%rax)
	leaq	64(%rcx,%rax), %rbp
	movq	%rbp, 152(%rsp)
	je	9f
	movq	64(%rbx), %rbp
	leaq	72(%rbx), %rax
	jmp	10f
	.p2align	4
9:
	leaq	80(%rbx), %rax
10:
	movq	(%rax), %r10
	movzbl	96(%rbx), %eax
	movb	%al, 15(%rsp)
	testq	%r10, %r10
	movq	%r14, 40(%rsp)
	je	20f
	movzbl	(%rbp), %ecx
	cmpl	$42, %ecx
	jne	13f
	leaq	-1(%r10), %rax
	cmpq	$8, %rax
	jb	11f
	movq	1(%rbp), %xmm0
	movdqa	1b(%rip), %xmm1
	pcmpeqb	%xmm0, %xmm1
	movdqa	2b(%rip), %xmm2
	pcmpeqb	%xmm0, %xmm2
	por	%xmm1, %xmm2
	movdqa	3b(%rip), %xmm1
	pcmpeqb	%xmm0, %xmm1
	pcmpeqb	4b(%rip), %xmm0
	por	%xmm1, %xmm0
	por	%xmm2, %xmm0
	pmovmskb	%xmm0, %edx
	testb	%dl, %dl
	jne	13f
11:
	movl	$1, %edx
	.p2align	4
12:
	cmpq	%rdx, %r10
	je	69f
	movzbl	(%rbp,%rdx), %esi
	incq	%rdx
	addl	$-42, %esi
	cmpl	$50, %esi
	ja	12b
	movabsq	$1688849862361089, %rdi
	btq	%rsi, %rdi
	jae	12b
13:
	testq	%r13, %r13
	je	14f
	leal	-42(%rcx), %eax
	cmpl	$50, %eax
	ja	60f
	movabsq	$1688849862361089, %rdx
	btq	%rax, %rdx
	jae	60f
14:
	movq	%r10, %rcx
	cmpq	$32, %r10
	jb	21f
	movq	%r10, %rax
15:
	movdqu	-32(%rbp,%rax), %xmm1
	movdqu	-16(%rbp,%rax), %xmm2
	movdqa	5b(%rip), %xmm0
	pcmpeqb	%xmm0, %xmm1
	pmovmskb	%xmm1, %edx
	pcmpeqb	%xmm0, %xmm2
	pmovmskb	%xmm2, %ecx
	shll	$16, %ecx
	orl	%edx, %ecx
	je	17f
	leaq	-32(%rax), %rdx
	movl	%ecx, %esi
	.p2align	4
16:
	bsrq	%rsi, %rcx
	leaq	(%rcx,%rdx), %r14
	cmpb	$93, (%rbp,%r14)
	je	22f
	movq	$-2, %rdi
	rolq	%cl, %rdi
	andq	%rdi, %rsi
	jne	16b
17:
	movq	%rax, %rdx
	.p2align	4
18:
	movq	%rdx, %rcx
	leaq	-32(%rdx), %rax
	cmpq	$128, %rax
	jb	19f
	movdqu	-160(%rbp,%rcx), %xmm1
	movdqu	-144(%rbp,%rcx), %xmm2
	movdqu	-128(%rbp,%rcx), %xmm3
	movdqu	-112(%rbp,%rcx), %xmm4
	pcmpeqb	%xmm0, %xmm1
	pcmpeqb	%xmm0, %xmm2
	pcmpeqb	%xmm0, %xmm3
	por	%xmm1, %xmm3
	pcmpeqb	%xmm0, %xmm4
	por	%xmm2, %xmm4
	movdqu	-80(%rbp,%rcx), %xmm1
	movdqu	-96(%rbp,%rcx), %xmm2
	pcmpeqb	%xmm0, %xmm2
	pcmpeqb	%xmm0, %xmm1
	movdqu	-48(%rbp,%rcx), %xmm5
	movdqu	-64(%rbp,%rcx), %xmm6
	pcmpeqb	%xmm0, %xmm6
	por	%xmm2, %xmm6
	por	%xmm3, %xmm6
	pcmpeqb	%xmm0, %xmm5
	por	%xmm1, %xmm5
	por	%xmm4, %xmm5
	por	%xmm6, %xmm5
	pmovmskb	%xmm5, %esi
	leaq	-128(%rcx), %rdx
	testl	%esi, %esi
	je	18b
19:
	cmpq	$31, %rax
	ja	15b
	addq	$-32, %rcx
	jmp	21f
	.p2align	4
20:
	xorl	%ecx, %ecx
	.p2align	4
21:
	testq	%rcx, %rcx
	je	23f
	leaq	-1(%rcx), %r14
	cmpb	$93, -1(%rbp,%rcx)
	movq	%r14, %rcx
	jne	21b
22:
	notq	%r14
	addq	%r10, %r14
	jmp	24f
	.p2align	4
23:
	movq	%r10, %r14
24:
	pxor	%xmm0, %xmm0
	movdqa	%xmm0, 64(%rsp)
	movdqa	%xmm0, 48(%rsp)
	movq	$0, 80(%rsp)
	movzbl	15(%rsp), %r8d
	testq	%r10, %r10
	je	25f
	cmpb	$42, (%rbp)
	jne	25f
	movl	%r8d, 96(%rsp)
	incq	%rbp
	decq	%r10
	xorl	%eax, %eax
	movq	$0, 24(%rsp)
	jmp	29f
	.p2align	4
25:
	movq	%r13, (%rsp)
	leaq	48(%rsp), %rdi
	movq	%rbp, %rsi
	movq	%r10, %rdx
	movq	%r14, %rcx
	movq	%r12, %r9
	movl	%r8d, %ebp
	callq	"mime_base::matching::attempt::attempt"
	movzbl	48(%rsp), %eax
	movq	80(%rsp), %rsi
	leaq	100f(%rip), %rcx
	movslq	(%rcx,%rax,4), %rax
	addq	%rcx, %rax
	jmpq	*%rax
26:
	movq	40(%rsp), %r14
27:
	addq	8(%r15), %rsi
	movq	$-1, %rax
	cmovaeq	%rsi, %rax
	movq	%rax, 8(%r15)
	jmp	7b
28:
	movl	%ebp, 96(%rsp)
	movq	%rsi, 24(%rsp)
	movq	56(%rsp), %rax
	movq	64(%rsp), %rbp
	movq	72(%rsp), %r10
29:
	leaq	(%r12,%rax), %rcx
	movq	%rcx, 32(%rsp)
	movq	%r13, %r11
	subq	%rax, %r11
	cmpq	$8, %r10
	jb	31f
30:
	movq	(%rbp), %xmm0
	movdqa	1b(%rip), %xmm1
	pcmpeqb	%xmm0, %xmm1
	movdqa	2b(%rip), %xmm2
	pcmpeqb	%xmm0, %xmm2
	por	%xmm1, %xmm2
	movdqa	3b(%rip), %xmm1
	pcmpeqb	%xmm0, %xmm1
	pcmpeqb	4b(%rip), %xmm0
	por	%xmm1, %xmm0
	por	%xmm2, %xmm0
	pmovmskb	%xmm0, %eax
	orl	$256, %eax
	rep		bsfl	%eax, %eax
	movq	%r10, %rdi
	subq	%rax, %rdi
	jne	32f
	jmp	53f
	.p2align	4
31:
	xorl	%eax, %eax
	movq	%r10, %rdi
	subq	%rax, %rdi
	je	53f
32:
	leaq	(%rax,%rbp), %rsi
	jmp	35f
	.p2align	4
33:
	xorl	%esi, %esi
	testq	%rdx, %rdx
	setne	%sil
	addq	%rsi, %rcx
	subq	%rsi, %rdx
34:
	incq	%rax
	movq	%rdx, %rdi
	movq	%rcx, %rsi
	testq	%rdx, %rdx
	je	53f
35:
	leaq	1(%rsi), %rcx
	leaq	-1(%rdi), %rdx
	movzbl	(%rsi), %r8d
	cmpl	$91, %r8d
	je	36f
	cmpl	$92, %r8d
	je	33b
	cmpl	$42, %r8d
	jne	34b
	jmp	40f
	.p2align	4
36:
	testq	%rdx, %rdx
	je	52f
	movzbl	1(%rsi), %r8d
	addq	$2, %rsi
	addq	$-2, %rdi
	cmpl	$33, %r8d
	je	37f
	cmpl	$94, %r8d
	je	37f
	movq	%rcx, %rsi
	movq	%rdx, %rdi
37:
	movq	%rdi, %r8
	addq	$-1, %r8
	jae	34b
	cmpq	%r14, %r8
	jbe	34b
	addq	$2, %rsi
	movl	$2, %r8d
	subq	%rdi, %r8
	.p2align	4
38:
	cmpb	$93, -1(%rsi)
	je	39f
	incq	%rsi
	incq	%r8
	cmpq	$1, %r8
	jne	38b
	jmp	34b
39:
	negq	%r8
	movq	%rsi, %rcx
	movq	%r8, %rdx
	jmp	34b
	.p2align	4
40:
	pxor	%xmm0, %xmm0
	movdqa	%xmm0, 64(%rsp)
	movdqa	%xmm0, 48(%rsp)
	movq	$0, 80(%rsp)
	testq	%r10, %r10
	je	48f
	movq	%rbx, 200(%rsp)
	xorl	%ebx, %ebx
	xorl	%r12d, %r12d
	movq	%r10, 184(%rsp)
	movq	%r11, 88(%rsp)
	.p2align	4
41:
	movq	%r11, %r15
	subq	%r12, %r15
	movzbl	(%rbp), %r13d
	cmpl	$64, %r13d
	ja	43f
	cmpl	$42, %r13d
	je	43f
	cmpl	$63, %r13d
	je	43f
	movq	32(%rsp), %rax
	leaq	(%rax,%r12), %rsi
	movl	%r13d, %edi
	movq	%r15, %rdx
	callq	"memchr::bytes::memchr"
	movq	88(%rsp), %r11
	cmpb	$1, %al
	cmovneq	%r15, %rdx
	addq	%rdx, %r12
	movq	%rbx, %rax
	addq	%rdx, %rax
	movq	$-1, %rbx
	cmovaeq	%rax, %rbx
	testq	%rdx, %rdx
	je	42f
	cmpq	%r12, %r11
	je	74f
42:
	movq	%r11, %r15
	subq	%r12, %r15
	movq	184(%rsp), %r10
	.p2align	4
43:
	movq	32(%rsp), %rax
	leaq	(%rax,%r12), %r9
	testq	%r15, %r15
	je	44f
	leal	-42(%r13), %eax
	cmpl	$50, %eax
	ja	45f
	movabsq	$1688849862361089, %rcx
	btq	%rax, %rcx
	jae	45f
44:
	movq	%r15, (%rsp)
	leaq	48(%rsp), %rdi
	movq	%rbp, %rsi
	movq	%r10, %rdx
	movq	%r14, %rcx
	movl	96(%rsp), %r8d
	callq	"mime_base::matching::attempt::attempt"
	addq	80(%rsp), %rbx
	movq	$-1, %rdx
	cmovbq	%rdx, %rbx
	movzbl	48(%rsp), %eax
	cmpb	$4, %al
	jne	47f
	movq	184(%rsp), %r10
	movq	88(%rsp), %r11
	incq	%r12
	jmp	41b
45:
	leal	-65(%r13), %eax
	leal	32(%r13), %ecx
	cmpb	$26, %al
	movzbl	%cl, %eax
	cmovael	%r13d, %eax
	movzbl	(%r9), %edx
	leal	-65(%rdx), %ecx
	leal	32(%rdx), %esi
	cmpb	$26, %cl
	movzbl	%sil, %ecx
	cmovael	%edx, %ecx
	cmpb	$0, 15(%rsp)
	cmovnel	%r13d, %eax
	cmovnel	%edx, %ecx
	cmpq	$1, %r10
	je	44b
	cmpq	$1, %r15
	je	44b
	cmpb	%cl, %al
	jne	44b
	movzbl	1(%rbp), %eax
	leal	-42(%rax), %ecx
	cmpl	$50, %ecx
	ja	46f
	movabsq	$1688849862361089, %rdx
	btq	%rcx, %rdx
	jb	44b
46:
	leal	-65(%rax), %ecx
	leal	32(%rax), %edx
	cmpb	$26, %cl
	movzbl	%dl, %ecx
	movzbl	%al, %eax
	cmovael	%eax, %ecx
	movzbl	1(%r9), %edx
	leal	-65(%rdx), %esi
	leal	32(%rdx), %edi
	cmpb	$26, %sil
	movzbl	%dil, %esi
	cmovael	%edx, %esi
	cmpb	$0, 15(%rsp)
	cmovnel	%eax, %ecx
	cmovnel	%edx, %esi
	cmpb	%sil, %cl
	je	44b
	addq	$2, %rbx
	movq	$-1, %rax
	cmovbq	%rax, %rbx
	incq	%r12
	jmp	41b
	.p2align	4
47:
	movq	56(%rsp), %rcx
	movq	64(%rsp), %rbp
	movq	72(%rsp), %r10
	addq	24(%rsp), %rbx
	cmovbq	%rdx, %rbx
	movq	%rbx, 24(%rsp)
	movq	168(%rsp), %r15
	movq	160(%rsp), %r13
	movq	200(%rsp), %rbx
	movq	88(%rsp), %r11
	cmpb	$3, %al
	je	49f
	jmp	76f
48:
	testq	%r11, %r11
	setne	%al
	xorl	%r10d, %r10d
	xorl	%ecx, %ecx
	xorl	%r12d, %r12d
	cmpb	$3, %al
	jne	76f
49:
	addq	%r12, %rcx
	addq	%rcx, 32(%rsp)
	subq	%rcx, %r11
	movq	104(%rsp), %r12
	cmpq	$8, %r10
	jae	30b
	jmp	31b
50:
	movq	40(%rsp), %r14
51:
	addq	8(%r15), %rsi
	movq	$-1, %rax
	cmovaeq	%rsi, %rax
	movq	%rax, 8(%r15)
	movq	152(%rsp), %rdi
	jmp	55f
52:
	incq	%rax
53:
	pxor	%xmm0, %xmm0
	movdqa	%xmm0, 64(%rsp)
	movdqa	%xmm0, 48(%rsp)
	movq	$0, 80(%rsp)
	subq	%rax, %r11
	jb	6b
	addq	%r11, 32(%rsp)
	testq	%r10, %r10
	je	54f
	testq	%rax, %rax
	je	54f
	movzbl	(%rbp), %ecx
	leal	-42(%rcx), %edx
	cmpl	$50, %edx
	ja	72f
	movabsq	$1688849862361089, %rsi
	btq	%rdx, %rsi
	jae	72f
54:
	movq	%rax, (%rsp)
	leaq	48(%rsp), %rdi
	movq	%rbp, %rsi
	movq	%r10, %rdx
	movq	%r14, %rcx
	movl	96(%rsp), %r8d
	movq	32(%rsp), %r9
	callq	"mime_base::matching::attempt::attempt"
	movq	24(%rsp), %rcx
	addq	80(%rsp), %rcx
	movq	$-1, %rax
	cmovbq	%rax, %rcx
	addq	8(%r15), %rcx
	cmovbq	%rax, %rcx
	cmpb	$0, 48(%rsp)
	movq	%rcx, 8(%r15)
	movq	40(%rsp), %r14
	movq	152(%rsp), %rdi
	jne	7b
55:
	movq	%rbx, %rsi
	cmpb	$0, 56(%rbx)
	je	56f
	movq	64(%rsi), %rdi
	leaq	72(%rsi), %rax
	movq	(%rax), %rax
	testq	%rax, %rax
	jne	57f
	jmp	62f
56:
	leaq	80(%rsi), %rax
	movq	(%rax), %rax
	testq	%rax, %rax
	je	62f
57:
	cmpb	$42, (%rdi)
	jne	61f
	leaq	-1(%rax), %rcx
	cmpq	$8, %rcx
	jb	58f
	movq	1(%rdi), %xmm0
	movdqa	1b(%rip), %xmm1
	pcmpeqb	%xmm0, %xmm1
	movdqa	2b(%rip), %xmm2
	pcmpeqb	%xmm0, %xmm2
	por	%xmm1, %xmm2
	movdqa	3b(%rip), %xmm1
	pcmpeqb	%xmm0, %xmm1
	pcmpeqb	4b(%rip), %xmm0
	por	%xmm1, %xmm0
	por	%xmm2, %xmm0
	pmovmskb	%xmm0, %ecx
	testb	%cl, %cl
	jne	64f
58:
	movl	$1, %ecx
	.p2align	4
59:
	cmpq	%rcx, %rax
	je	73f
	movzbl	(%rdi,%rcx), %edx
	incq	%rcx
	addl	$-42, %edx
	cmpl	$50, %edx
	ja	59b
	movabsq	$1688849862361089, %r8
	btq	%rdx, %r8
	jae	59b
	jmp	64f
60:
	leal	-65(%rcx), %eax
	leal	32(%rcx), %edx
	cmpb	$26, %al
	movzbl	%dl, %eax
	cmovael	%ecx, %eax
	movzbl	(%r12), %edx
	leal	-65(%rdx), %esi
	leal	32(%rdx), %edi
	cmpb	$26, %sil
	movzbl	%dil, %esi
	cmovael	%edx, %esi
	cmpb	$0, 15(%rsp)
	cmovnel	%ecx, %eax
	cmovnel	%edx, %esi
	cmpb	%sil, %al
	je	14b
	movq	8(%r15), %rax
	incq	%rax
	movq	$-1, %rcx
	cmovneq	%rax, %rcx
	movq	%rcx, 8(%r15)
	jmp	7b
61:
	cmpq	$8, %rax
	jb	62f
	movq	(%rdi), %xmm0
	movdqa	1b(%rip), %xmm1
	pcmpeqb	%xmm0, %xmm1
	movdqa	2b(%rip), %xmm2
	pcmpeqb	%xmm0, %xmm2
	por	%xmm1, %xmm2
	movdqa	3b(%rip), %xmm1
	pcmpeqb	%xmm0, %xmm1
	pcmpeqb	4b(%rip), %xmm0
	por	%xmm1, %xmm0
	por	%xmm2, %xmm0
	pmovmskb	%xmm0, %ecx
	testb	%cl, %cl
	jne	64f
62:
	xorl	%ecx, %ecx
	.p2align	4
63:
	cmpq	%rcx, %rax
	je	71f
	movzbl	(%rdi,%rcx), %edx
	incq	%rcx
	addl	$-42, %edx
	cmpl	$50, %edx
	ja	63b
	movabsq	$1688849862361089, %r8
	btq	%rdx, %r8
	jae	63b
64:
	xorl	%ecx, %ecx
65:
	movzbl	(%rsi), %edx
	orl	%ecx, %edx
	movzbl	96(%rsi), %ecx
	shll	$17, %edx
	movzwl	%ax, %eax
	leal	(%rdx,%rax,2), %ebx
	orl	%ecx, %ebx
	movl	112(%rsp), %eax
	cmpl	%eax, %ebx
	jb	7b
	movq	%rsi, %rbp
	movq	128(%rsp), %rax
	jbe	67f
	testq	%rax, %rax
	je	66f
	movq	$0, 128(%rsp)
66:
	xorl	%eax, %eax
67:
	cmpq	%rax, 136(%rsp)
	je	81f
68:
	movq	120(%rsp), %rcx
	movq	%rbp, (%rcx,%rax,8)
	incq	%rax
	movq	%rax, 128(%rsp)
	movl	%ebx, 112(%rsp)
	jmp	7b
69:
	movl	$1, %esi
	movq	%r13, %rdx
	subq	%rax, %rdx
	jb	27b
	testq	%rax, %rax
	je	75f
	addq	%r12, %rdx
	cmpb	$0, 15(%rsp)
	je	77f
	xorl	%ecx, %ecx
	.p2align	4
70:
	movzbl	1(%rbp,%rcx), %esi
	cmpb	(%rdx,%rcx), %sil
	jne	80f
	incq	%rcx
	cmpq	%rcx, %rax
	jne	70b
	jmp	79f
71:
	movl	$512, %ecx
	jmp	65b
72:
	leal	-65(%rcx), %edx
	leal	32(%rcx), %esi
	cmpb	$26, %dl
	movzbl	%sil, %edx
	movzbl	%cl, %ecx
	cmovael	%ecx, %edx
	movq	32(%rsp), %rsi
	movzbl	(%rsi), %esi
	leal	-65(%rsi), %edi
	leal	32(%rsi), %r8d
	cmpb	$26, %dil
	movzbl	%r8b, %edi
	cmovael	%esi, %edi
	cmpb	$0, 15(%rsp)
	cmovnel	%ecx, %edx
	cmovnel	%esi, %edi
	cmpb	%dil, %dl
	je	54b
	jmp	6b
73:
	movl	$256, %ecx
	jmp	65b
74:
	incq	%rbx
	movq	$-1, %rax
	cmoveq	%rax, %rbx
	addq	24(%rsp), %rbx
	cmovbq	%rax, %rbx
	movq	%rbx, %rsi
	movq	168(%rsp), %r15
	movq	160(%rsp), %r13
	movq	104(%rsp), %r12
	jmp	26b
75:
	xorl	%ecx, %ecx
	jmp	80f
76:
	movzbl	%al, %eax
	decl	%eax
	cmpl	$2, %eax
	jae	82f
	movq	104(%rsp), %r12
	movq	40(%rsp), %r14
	movq	24(%rsp), %rsi
	jmp	27b
77:
	xorl	%ecx, %ecx
	.p2align	4
78:
	movzbl	1(%rbp,%rcx), %esi
	leal	-65(%rsi), %edi
	leal	32(%rsi), %r8d
	cmpb	$26, %dil
	movzbl	%r8b, %edi
	cmovael	%esi, %edi
	movzbl	(%rdx,%rcx), %esi
	leal	-65(%rsi), %r8d
	leal	32(%rsi), %r9d
	cmpb	$26, %r8b
	movzbl	%r9b, %r8d
	cmovael	%esi, %r8d
	cmpb	%r8b, %dil
	jne	80f
	incq	%rcx
	cmpq	%rcx, %rax
	jne	78b
79:
	movq	%rax, %rcx
80:
	xorl	%edx, %edx
	cmpq	%rax, %rcx
	setne	%dl
	addq	%rcx, %rdx
	addq	8(%r15), %rdx
	movq	$-1, %rsi
	cmovaeq	%rdx, %rsi
	movq	%rsi, 8(%r15)
	cmpq	%rax, %rcx
	movq	152(%rsp), %rdi
	jne	7b
	jmp	55b
81:
	leaq	120(%rsp), %rdi
	callq	"std_alloc::vec::Vec::grow_amortized::<#33f378437a29c276>"
	testb	%al, %al
	je	98f
	movq	128(%rsp), %rax
	jmp	68b
82:
	movq	104(%rsp), %r12
	movq	40(%rsp), %r14
	movq	24(%rsp), %rsi
	jmp	51b
83:
	movq	120(%rsp), %rbx
	movq	128(%rsp), %r13
	movq	136(%rsp), %rdx
	movq	192(%rsp), %rax
	movq	(%rax), %rax
	testq	%rdx, %rdx
	sete	%cl
	movq	24(%rax), %r14
	movq	32(%rax), %r15
	leaq	16(%rsp), %rax
	movq	%rax, 48(%rsp)
	pxor	%xmm0, %xmm0
	movdqu	%xmm0, 56(%rsp)
	testq	%r13, %r13
	je	91f
	movq	%rdx, 88(%rsp)
	movb	%cl, 15(%rsp)
	xorl	%ebp, %ebp
	xorl	%r12d, %r12d
	jmp	87f
	.p2align	4
84:
	leaq	16(%rax), %rdx
	addq	$48, %rax
85:
	movq	(%rax), %rcx
	movq	%r14, %rdi
	movq	%r15, %rsi
	callq	"mime_lookup::pairs::unalias"
	cmpq	%rbp, 64(%rsp)
	je	88f
86:
	movq	%rbp, %rcx
	shlq	$4, %rcx
	movq	176(%rsp), %rsi
	movq	%rax, (%rsi,%rcx)
	movq	%rdx, 8(%rsi,%rcx)
	incq	%rbp
	movq	%rbp, 56(%rsp)
	incq	%r12
	cmpq	%r12, %r13
	je	90f
87:
	movq	(%rbx,%r12,8), %rax
	cmpb	$0, 8(%rax)
	je	84b
	movq	16(%rax), %rdx
	addq	$24, %rax
	jmp	85b
88:
	movq	%rdx, 32(%rsp)
	movq	%rax, 96(%rsp)
	leaq	48(%rsp), %rdi
	callq	"std_alloc::vec::Vec::grow_amortized::<#25095d740b27081c>"
	testb	%al, %al
	je	94f
	movq	48(%rsp), %rax
	movq	%rax, 176(%rsp)
	movq	56(%rsp), %rbp
	movq	96(%rsp), %rax
	movq	32(%rsp), %rdx
	jmp	86b
89:
	leaq	16(%rsp), %rbx
	movq	%rbx, 48(%rsp)
	movdqu	%xmm0, 56(%rsp)
	movb	$1, %cl
	jmp	91f
90:
	movzbl	15(%rsp), %ecx
91:
	leaq	231(%rsp), %r14
	movq	64(%rsp), %rax
	movq	%rax, 247(%rsp)
	movq	48(%rsp), %rax
	movq	%rax, 231(%rsp)
	movq	56(%rsp), %rax
	movq	%rax, 239(%rsp)
	testb	%cl, %cl
	jne	92f
	movq	%rbx, %rdi
	callq	rattle_dealloc@PLT
92:
	movq	144(%rsp), %rcx
	movb	$0, (%rcx)
	movdqu	(%r14), %xmm0
	movdqu	%xmm0, 8(%rcx)
	movq	16(%r14), %rax
	movq	%rax, 24(%rcx)
93:
	addq	$264, %rsp
	popq	%rbx
	popq	%r12
	popq	%r13
	popq	%r14
	popq	%r15
	popq	%rbp
	retq
94:
	cmpq	$0, 64(%rsp)
	je	95f
	movq	48(%rsp), %rdi
	callq	rattle_dealloc@PLT
95:
	cmpq	$0, 88(%rsp)
	je	97f
	movq	%rbx, %rdi
96:
	callq	rattle_dealloc@PLT
97:
	movq	144(%rsp), %rax
	movb	$1, (%rax)
	pxor	%xmm0, %xmm0
	movdqu	%xmm0, 8(%rax)
	movq	$0, 24(%rax)
	jmp	93b
98:
	cmpq	$0, 136(%rsp)
	je	97b
	movq	120(%rsp), %rdi
	jmp	96b
99:
	.size	"mime_lookup::lists::ListsAsked::kept_kinds", 99b-"mime_lookup::lists::ListsAsked::kept_kinds"
	.section	.rodata,"a",@progbits
	.p2align	2, 0x0
100:
	.long	50b-100b
	.long	26b-100b
	.long	26b-100b
	.long	28b-100b
	.long	26b-100b

	.text
	.p2align	4
	.type	"mime_lookup::mime_lookup++indexed++magic_index++MagicIndex+Destruct::drop",@function
"mime_lookup::mime_lookup++indexed++magic_index++MagicIndex+Destruct::drop":
	pushq	%rbp
	pushq	%r15
	pushq	%r14
	pushq	%r13
	pushq	%r12
	pushq	%rbx
	subq	$72, %rsp
	movq	24(%rdi), %rbx
	movq	40(%rdi), %r12
	movq	48(%rdi), %rbp
	movq	64(%rdi), %r13
	movq	72(%rdi), %rax
	movq	%rax, 8(%rsp)
	movq	88(%rdi), %r15
	movq	96(%rdi), %rax
	movq	%rax, 16(%rsp)
	movq	112(%rdi), %r14
	movq	120(%rdi), %rax
	movq	%rax, 24(%rsp)
	movq	136(%rdi), %rax
	movq	%rax, 48(%rsp)
	movq	144(%rdi), %rax
	movq	%rax, 32(%rsp)
	movq	160(%rdi), %rax
	movq	%rax, 56(%rsp)
	movq	168(%rdi), %rax
	movq	%rax, 40(%rsp)
	movq	184(%rdi), %rax
	movq	%rax, 64(%rsp)
	cmpq	$0, 16(%rdi)
	je	1f
	movq	(%rdi), %rdi
	callq	rattle_dealloc@PLT
1:
	testq	%r12, %r12
	je	2f
	movq	%rbx, %rdi
	callq	rattle_dealloc@PLT
2:
	testq	%r13, %r13
	je	3f
	movq	%rbp, %rdi
	callq	rattle_dealloc@PLT
3:
	testq	%r15, %r15
	je	4f
	movq	8(%rsp), %rdi
	callq	rattle_dealloc@PLT
4:
	testq	%r14, %r14
	je	5f
	movq	16(%rsp), %rdi
	callq	rattle_dealloc@PLT
5:
	cmpq	$0, 48(%rsp)
	je	6f
	movq	24(%rsp), %rdi
	callq	rattle_dealloc@PLT
6:
	cmpq	$0, 56(%rsp)
	je	7f
	movq	32(%rsp), %rdi
	callq	rattle_dealloc@PLT
7:
	cmpq	$0, 64(%rsp)
	je	8f
	movq	40(%rsp), %rdi
	addq	$72, %rsp
	popq	%rbx
	popq	%r12
	popq	%r13
	popq	%r14
	popq	%r15
	popq	%rbp
	jmp	rattle_dealloc@PLT
8:
	addq	$72, %rsp
	popq	%rbx
	popq	%r12
	popq	%r13
	popq	%r14
	popq	%r15
	popq	%rbp
	retq
9:
	.size	"mime_lookup::mime_lookup++indexed++magic_index++MagicIndex+Destruct::drop", 9b-"mime_lookup::mime_lookup++indexed++magic_index++MagicIndex+Destruct::drop"

	.text
	.p2align	4
	.type	"mime_lookup::mime_lookup++read_back++names++IndexedNames+Destruct::drop",@function
"mime_lookup::mime_lookup++read_back++names++IndexedNames+Destruct::drop":
	pushq	%rbp
	pushq	%r15
	pushq	%r14
	pushq	%r13
	pushq	%r12
	pushq	%rbx
	subq	$152, %rsp
	movq	40(%rdi), %rbp
	movq	56(%rdi), %r13
	movq	64(%rdi), %rax
	movq	%rax, 8(%rsp)
	movq	80(%rdi), %r14
	movq	88(%rdi), %rax
	movq	%rax, 16(%rsp)
	movq	104(%rdi), %r15
	movq	112(%rdi), %rax
	movq	%rax, 24(%rsp)
	movq	128(%rdi), %r12
	movq	136(%rdi), %rax
	movq	%rax, 32(%rsp)
	movq	152(%rdi), %rbx
	movq	160(%rdi), %rax
	movq	%rax, 40(%rsp)
	movq	176(%rdi), %rax
	movq	%rax, 96(%rsp)
	movq	192(%rdi), %rax
	movq	%rax, 56(%rsp)
	movq	208(%rdi), %rax
	movq	%rax, 112(%rsp)
	cmpq	$0, 32(%rdi)
	movq	216(%rdi), %rax
	movq	%rax, 48(%rsp)
	movq	232(%rdi), %rax
	movq	%rax, 104(%rsp)
	movq	240(%rdi), %rax
	movq	%rax, 64(%rsp)
	movq	256(%rdi), %rax
	movq	%rax, 120(%rsp)
	movq	264(%rdi), %rax
	movq	%rax, 72(%rsp)
	movq	280(%rdi), %rax
	movq	%rax, 128(%rsp)
	movq	288(%rdi), %rax
	movq	%rax, 80(%rsp)
	movq	304(%rdi), %rax
	movq	%rax, 136(%rsp)
	movq	312(%rdi), %rax
	movq	%rax, 88(%rsp)
	movq	328(%rdi), %rax
	movq	%rax, 144(%rsp)
	je	1f
	movq	16(%rdi), %rdi
	callq	rattle_dealloc@PLT
1:
	testq	%r13, %r13
	je	2f
	movq	%rbp, %rdi
	callq	rattle_dealloc@PLT
2:
	testq	%r14, %r14
	je	3f
	movq	8(%rsp), %rdi
	callq	rattle_dealloc@PLT
3:
	testq	%r15, %r15
	je	4f
	movq	16(%rsp), %rdi
	callq	rattle_dealloc@PLT
4:
	testq	%r12, %r12
	je	5f
	movq	24(%rsp), %rdi
	callq	rattle_dealloc@PLT
5:
	testq	%rbx, %rbx
	je	6f
	movq	32(%rsp), %rdi
	callq	rattle_dealloc@PLT
6:
	cmpq	$0, 96(%rsp)
	je	7f
	movq	40(%rsp), %rdi
	callq	rattle_dealloc@PLT
7:
	cmpq	$0, 112(%rsp)
	je	8f
	movq	56(%rsp), %rdi
	callq	rattle_dealloc@PLT
8:
	cmpq	$0, 104(%rsp)
	je	9f
	movq	48(%rsp), %rdi
	callq	rattle_dealloc@PLT
9:
	cmpq	$0, 120(%rsp)
	je	10f
	movq	64(%rsp), %rdi
	callq	rattle_dealloc@PLT
10:
	cmpq	$0, 128(%rsp)
	je	11f
	movq	72(%rsp), %rdi
	callq	rattle_dealloc@PLT
11:
	cmpq	$0, 136(%rsp)
	je	12f
	movq	80(%rsp), %rdi
	callq	rattle_dealloc@PLT
12:
	cmpq	$0, 144(%rsp)
	je	13f
	movq	88(%rsp), %rdi
	addq	$152, %rsp
	popq	%rbx
	popq	%r12
	popq	%r13
	popq	%r14
	popq	%r15
	popq	%rbp
	jmp	rattle_dealloc@PLT
13:
	addq	$152, %rsp
	popq	%rbx
	popq	%r12
	popq	%r13
	popq	%r14
	popq	%r15
	popq	%rbp
	retq
14:
	.size	"mime_lookup::mime_lookup++read_back++names++IndexedNames+Destruct::drop", 14b-"mime_lookup::mime_lookup++read_back++names++IndexedNames+Destruct::drop"

	.text
	.p2align	4
	.type	"mime_lookup::name_map::other_value::<#643ceef07a9c3c2a>",@function
"mime_lookup::name_map::other_value::<#643ceef07a9c3c2a>":
	pushq	%rbp
	pushq	%r15
	pushq	%r14
	pushq	%r13
	pushq	%r12
	pushq	%rbx
	subq	$120, %rsp
	movq	%rcx, %rbp
	movq	%rdx, %r11
	movq	152(%rsi), %rax
	xorq	%rcx, %rax
	movabsq	$-7046029254386353147, %rcx
	mulq	%rcx
	xorq	%rax, %rdx
	testq	%rbp, %rbp
	movq	%rdi, 64(%rsp)
	je	4f
	movabsq	$-7046029254386353129, %rcx
	cmpq	$1, %rbp
	jne	1f
	xorl	%r10d, %r10d
	jmp	3f
1:
	movq	%rbp, %r9
	andq	$-2, %r9
	xorl	%r10d, %r10d
	.p2align	4
2:
	movzbl	(%r11,%r10), %eax
	imulq	$65793, %rax, %rax
	xorq	%rdx, %rax
	mulq	%rcx
	movzbl	1(%r11,%r10), %r8d
	imulq	$65793, %r8, %r8
	xorq	%rdx, %r8
	xorq	%r8, %rax
	mulq	%rcx
	xorq	%rax, %rdx
	addq	$2, %r10
	cmpq	%r10, %r9
	jne	2b
	testb	$1, %bpl
	je	4f
3:
	movzbl	(%r11,%r10), %eax
	imulq	$65793, %rax, %rax
	xorq	%rdx, %rax
	mulq	%rcx
	xorq	%rax, %rdx
4:
	movq	%rsi, 40(%rsp)
	movq	104(%rsi), %rax
	testq	%rax, %rax
	je	15f
	movq	%rax, %rsi
	movq	40(%rsp), %rax
	movq	48(%rax), %r13
	movq	96(%rax), %rax
	movq	%rax, 32(%rsp)
	movq	%rdx, %rax
	shrq	$32, %rax
	xorl	%edx, %eax
	movl	%eax, %ecx
	shrl	$24, %ecx
	cmpb	$1, %cl
	adcl	$0, %ecx
	leal	-1(%rsi), %edx
	andl	%eax, %edx
	movd	%ecx, %xmm1
	pxor	%xmm0, %xmm0
	movl	$1, %eax
	shll	%cl, %eax
	movl	%eax, 12(%rsp)
	pshufb	%xmm0, %xmm1
	movdqa	%xmm1, 48(%rsp)
	decq	%rsi
	movq	%rsi, 24(%rsp)
	movq	%rdx, 16(%rsp)
	movq	%rdx, %rax
	cmpq	$4, %rbp
	jae	11f
	movq	16(%rsp), %rax
	movq	%rax, %rcx
	testq	%rbp, %rbp
	je	17f
5:
	movq	%rax, %rdx
	shlq	$6, %rdx
	movq	32(%rsp), %rsi
	leaq	(%rsi,%rdx), %rcx
	movdqu	(%rsi,%rdx), %xmm0
	pcmpeqb	48(%rsp), %xmm0
	pmovmskb	%xmm0, %edx
	andl	$4095, %edx
	je	10f
	movzwl	%dx, %edx
	jmp	9f
	.p2align	4
6:
	xorl	%edi, %edi
7:
	cmpq	%rbp, %rdi
	jae	20f
8:
	leal	-1(%rdx), %esi
	andl	%edx, %esi
	movl	%esi, %edx
	je	10f
9:
	rep		bsfl	%edx, %esi
	movl	16(%rcx,%rsi,4), %r14d
	shlq	$4, %r14
	cmpq	8(%r13,%r14), %rbp
	jne	8b
	movq	(%r13,%r14), %rsi
	movzbl	(%r11), %edi
	cmpb	(%rsi), %dil
	jne	6b
	cmpq	$1, %rbp
	je	20f
	movzbl	1(%r11), %r8d
	movl	$1, %edi
	cmpb	1(%rsi), %r8b
	jne	7b
	cmpq	$2, %rbp
	je	20f
	movzbl	2(%r11), %r8d
	movl	$2, %edi
	cmpb	2(%rsi), %r8b
	jne	7b
	jmp	20f
	.p2align	4
10:
	movl	12(%rsp), %edx
	testl	%edx, 12(%rcx)
	je	15f
	incq	%rax
	andq	24(%rsp), %rax
	cmpq	16(%rsp), %rax
	jne	5b
	jmp	15f
	.p2align	4
11:
	movq	%rax, 72(%rsp)
	shlq	$6, %rax
	movq	32(%rsp), %rcx
	leaq	(%rcx,%rax), %rbx
	movdqu	(%rcx,%rax), %xmm0
	pcmpeqb	48(%rsp), %xmm0
	pmovmskb	%xmm0, %eax
	andl	$4095, %eax
	je	14f
	movzwl	%ax, %r12d
	jmp	13f
	.p2align	4
12:
	leal	-1(%r12), %eax
	andl	%r12d, %eax
	movl	%eax, %r12d
	je	14f
13:
	rep		bsfl	%r12d, %eax
	movl	16(%rbx,%rax,4), %r14d
	shlq	$4, %r14
	cmpq	8(%r13,%r14), %rbp
	jne	12b
	movq	(%r13,%r14), %rdx
	movl	(%r11), %eax
	cmpl	(%rdx), %eax
	jne	12b
	movq	%r11, %rdi
	movq	%rbp, %rsi
	movq	%r11, %r15
	callq	"core::cmp::slices::groups_equal::<i8,31'core::cmp::numbers::U8PartialEq{}>"
	movq	%r15, %r11
	testb	%al, %al
	je	12b
	jmp	20f
	.p2align	4
14:
	movl	12(%rsp), %eax
	testl	%eax, 12(%rbx)
	movq	72(%rsp), %rax
	je	15f
	incq	%rax
	andq	24(%rsp), %rax
	cmpq	16(%rsp), %rax
	jne	11b
15:
	pxor	%xmm0, %xmm0
	movdqa	%xmm0, 80(%rsp)
	xorl	%eax, %eax
	jmp	21f
	.p2align	4
16:
	incq	%rcx
	andq	24(%rsp), %rcx
	cmpq	16(%rsp), %rcx
	je	15b
17:
	movq	%rcx, %rdx
	shlq	$6, %rdx
	movq	32(%rsp), %rsi
	leaq	(%rsi,%rdx), %rax
	movdqu	(%rsi,%rdx), %xmm0
	pcmpeqb	48(%rsp), %xmm0
	pmovmskb	%xmm0, %edx
	andl	$4095, %edx
	je	19f
	movzwl	%dx, %edx
	.p2align	4
18:
	rep		bsfl	%edx, %esi
	movl	16(%rax,%rsi,4), %r14d
	shlq	$4, %r14
	cmpq	$0, 8(%r13,%r14)
	je	20f
	leal	-1(%rdx), %esi
	andl	%edx, %esi
	movl	%esi, %edx
	jne	18b
19:
	movl	12(%rsp), %edx
	testl	%edx, 12(%rax)
	jne	16b
	jmp	15b
20:
	movq	40(%rsp), %rax
	movq	72(%rax), %rax
	movups	(%rax,%r14), %xmm0
	movaps	%xmm0, 80(%rsp)
	movl	$1, %eax
21:
	movaps	80(%rsp), %xmm0
	movaps	%xmm0, 96(%rsp)
	movq	64(%rsp), %rcx
	movq	%rax, (%rcx)
	movaps	96(%rsp), %xmm0
	movups	%xmm0, 8(%rcx)
	addq	$120, %rsp
	popq	%rbx
	popq	%r12
	popq	%r13
	popq	%r14
	popq	%r15
	popq	%rbp
	retq
22:
	.size	"mime_lookup::name_map::other_value::<#643ceef07a9c3c2a>", 22b-"mime_lookup::name_map::other_value::<#643ceef07a9c3c2a>"

	.text
	.p2align	4
	.type	"mime_lookup::name_map::other_value::<#afcbbff7ae072e5e>",@function
"mime_lookup::name_map::other_value::<#afcbbff7ae072e5e>":
	pushq	%rbp
	pushq	%r15
	pushq	%r14
	pushq	%r13
	pushq	%r12
	pushq	%rbx
	subq	$120, %rsp
	movq	%rcx, %rbp
	movq	%rdx, %r15
	movq	152(%rsi), %rax
	xorq	%rcx, %rax
	movabsq	$-7046029254386353147, %rcx
	mulq	%rcx
	xorq	%rax, %rdx
	testq	%rbp, %rbp
	movq	%rdi, 64(%rsp)
	je	4f
	movabsq	$-7046029254386353129, %rcx
	cmpq	$1, %rbp
	jne	1f
	xorl	%r9d, %r9d
	jmp	3f
1:
	movq	%rbp, %rdi
	andq	$-2, %rdi
	xorl	%r9d, %r9d
	.p2align	4
2:
	movzbl	(%r15,%r9), %eax
	imulq	$65793, %rax, %rax
	xorq	%rdx, %rax
	mulq	%rcx
	movzbl	1(%r15,%r9), %r8d
	imulq	$65793, %r8, %r8
	xorq	%rdx, %r8
	xorq	%r8, %rax
	mulq	%rcx
	xorq	%rax, %rdx
	addq	$2, %r9
	cmpq	%r9, %rdi
	jne	2b
	testb	$1, %bpl
	je	4f
3:
	movzbl	(%r15,%r9), %eax
	imulq	$65793, %rax, %rax
	xorq	%rdx, %rax
	mulq	%rcx
	xorq	%rax, %rdx
4:
	movq	%rsi, 40(%rsp)
	movq	104(%rsi), %rax
	testq	%rax, %rax
	je	15f
	movq	%rax, %rsi
	movq	40(%rsp), %rax
	movq	48(%rax), %r13
	movq	96(%rax), %rax
	movq	%rax, 32(%rsp)
	movq	%rdx, %rax
	shrq	$32, %rax
	xorl	%edx, %eax
	movl	%eax, %ecx
	shrl	$24, %ecx
	cmpb	$1, %cl
	adcl	$0, %ecx
	leal	-1(%rsi), %edx
	andl	%eax, %edx
	movd	%ecx, %xmm1
	pxor	%xmm0, %xmm0
	movl	$1, %eax
	shll	%cl, %eax
	movl	%eax, 12(%rsp)
	pshufb	%xmm0, %xmm1
	movdqa	%xmm1, 48(%rsp)
	decq	%rsi
	movq	%rsi, 24(%rsp)
	movq	%rdx, 16(%rsp)
	movq	%rdx, %rax
	cmpq	$4, %rbp
	jae	11f
	movq	16(%rsp), %rax
	movq	%rax, %rcx
	testq	%rbp, %rbp
	je	17f
5:
	movq	%rax, %rdx
	shlq	$6, %rdx
	movq	32(%rsp), %rsi
	leaq	(%rsi,%rdx), %rcx
	movdqu	(%rsi,%rdx), %xmm0
	pcmpeqb	48(%rsp), %xmm0
	pmovmskb	%xmm0, %edx
	andl	$4095, %edx
	je	10f
	movzwl	%dx, %edx
	jmp	9f
	.p2align	4
6:
	xorl	%edi, %edi
7:
	cmpq	%rbp, %rdi
	jae	20f
8:
	leal	-1(%rdx), %esi
	andl	%edx, %esi
	movl	%esi, %edx
	je	10f
9:
	rep		bsfl	%edx, %esi
	movl	16(%rcx,%rsi,4), %r14d
	movq	%r14, %rsi
	shlq	$4, %rsi
	cmpq	8(%r13,%rsi), %rbp
	jne	8b
	movq	(%r13,%rsi), %rsi
	movzbl	(%r15), %edi
	cmpb	(%rsi), %dil
	jne	6b
	cmpq	$1, %rbp
	je	20f
	movzbl	1(%r15), %r8d
	movl	$1, %edi
	cmpb	1(%rsi), %r8b
	jne	7b
	cmpq	$2, %rbp
	je	20f
	movzbl	2(%r15), %r8d
	movl	$2, %edi
	cmpb	2(%rsi), %r8b
	jne	7b
	jmp	20f
	.p2align	4
10:
	movl	12(%rsp), %edx
	testl	%edx, 12(%rcx)
	je	15f
	incq	%rax
	andq	24(%rsp), %rax
	cmpq	16(%rsp), %rax
	jne	5b
	jmp	15f
	.p2align	4
11:
	movq	%rax, 72(%rsp)
	shlq	$6, %rax
	movq	32(%rsp), %rcx
	leaq	(%rcx,%rax), %rbx
	movdqu	(%rcx,%rax), %xmm0
	pcmpeqb	48(%rsp), %xmm0
	pmovmskb	%xmm0, %eax
	andl	$4095, %eax
	je	14f
	movzwl	%ax, %r12d
	jmp	13f
	.p2align	4
12:
	leal	-1(%r12), %eax
	andl	%r12d, %eax
	movl	%eax, %r12d
	je	14f
13:
	rep		bsfl	%r12d, %eax
	movl	16(%rbx,%rax,4), %r14d
	movq	%r14, %rax
	shlq	$4, %rax
	cmpq	8(%r13,%rax), %rbp
	jne	12b
	movq	(%r13,%rax), %rdx
	movl	(%r15), %eax
	cmpl	(%rdx), %eax
	jne	12b
	movq	%r15, %rdi
	movq	%rbp, %rsi
	callq	"core::cmp::slices::groups_equal::<i8,31'core::cmp::numbers::U8PartialEq{}>"
	testb	%al, %al
	je	12b
	jmp	20f
	.p2align	4
14:
	movl	12(%rsp), %eax
	testl	%eax, 12(%rbx)
	movq	72(%rsp), %rax
	je	15f
	incq	%rax
	andq	24(%rsp), %rax
	cmpq	16(%rsp), %rax
	jne	11b
15:
	pxor	%xmm0, %xmm0
	movdqa	%xmm0, 80(%rsp)
	xorl	%ecx, %ecx
	xorl	%eax, %eax
	jmp	21f
	.p2align	4
16:
	incq	%rcx
	andq	24(%rsp), %rcx
	cmpq	16(%rsp), %rcx
	je	15b
17:
	movq	%rcx, %rdx
	shlq	$6, %rdx
	movq	32(%rsp), %rsi
	leaq	(%rsi,%rdx), %rax
	movdqu	(%rsi,%rdx), %xmm0
	pcmpeqb	48(%rsp), %xmm0
	pmovmskb	%xmm0, %edx
	andl	$4095, %edx
	je	19f
	movzwl	%dx, %edx
	.p2align	4
18:
	rep		bsfl	%edx, %esi
	movl	16(%rax,%rsi,4), %r14d
	movq	%r14, %rsi
	shlq	$4, %rsi
	cmpq	$0, 8(%r13,%rsi)
	je	20f
	leal	-1(%rdx), %esi
	andl	%edx, %esi
	movl	%esi, %edx
	jne	18b
19:
	movl	12(%rsp), %edx
	testl	%edx, 12(%rax)
	jne	16b
	jmp	15b
20:
	movq	40(%rsp), %rax
	movq	72(%rax), %rcx
	leaq	(%r14,%r14,2), %rdx
	movzbl	(%rcx,%rdx,8), %eax
	movups	8(%rcx,%rdx,8), %xmm0
	movaps	%xmm0, 80(%rsp)
	movl	$1, %ecx
21:
	movaps	80(%rsp), %xmm0
	movaps	%xmm0, 96(%rsp)
	movq	64(%rsp), %rdx
	movq	%rcx, (%rdx)
	movq	%rax, 8(%rdx)
	movaps	96(%rsp), %xmm0
	movups	%xmm0, 16(%rdx)
	addq	$120, %rsp
	popq	%rbx
	popq	%r12
	popq	%r13
	popq	%r14
	popq	%r15
	popq	%rbp
	retq
22:
	.size	"mime_lookup::name_map::other_value::<#afcbbff7ae072e5e>", 22b-"mime_lookup::name_map::other_value::<#afcbbff7ae072e5e>"

	.text
	.p2align	4
	.type	"mime_lookup::name_map::other_value::<i64,23'core::clone::UsizeClone{}>",@function
"mime_lookup::name_map::other_value::<i64,23'core::clone::UsizeClone{}>":
	pushq	%rbp
	pushq	%r15
	pushq	%r14
	pushq	%r13
	pushq	%r12
	pushq	%rbx
	subq	$72, %rsp
	movq	%rdx, %r13
	movq	%rsi, %r14
	movq	152(%rdi), %rax
	xorq	%rdx, %rax
	movabsq	$-7046029254386353147, %rcx
	mulq	%rcx
	xorq	%rax, %rdx
	testq	%r13, %r13
	je	4f
	movabsq	$-7046029254386353129, %rcx
	cmpq	$1, %r13
	jne	1f
	xorl	%esi, %esi
	jmp	3f
1:
	movq	%r13, %r9
	andq	$-2, %r9
	xorl	%esi, %esi
	.p2align	4
2:
	movzbl	(%r14,%rsi), %eax
	imulq	$65793, %rax, %rax
	xorq	%rdx, %rax
	mulq	%rcx
	movzbl	1(%r14,%rsi), %r8d
	imulq	$65793, %r8, %r8
	xorq	%rdx, %r8
	xorq	%r8, %rax
	mulq	%rcx
	xorq	%rax, %rdx
	addq	$2, %rsi
	cmpq	%rsi, %r9
	jne	2b
	testb	$1, %r13b
	je	4f
3:
	movzbl	(%r14,%rsi), %eax
	imulq	$65793, %rax, %rax
	xorq	%rdx, %rax
	mulq	%rcx
	xorq	%rax, %rdx
4:
	movq	104(%rdi), %rsi
	testq	%rsi, %rsi
	je	15f
	movq	48(%rdi), %r12
	movq	%rdi, 56(%rsp)
	movq	96(%rdi), %rax
	movq	%rax, 24(%rsp)
	movq	%rdx, %rax
	shrq	$32, %rax
	xorl	%edx, %eax
	movl	%eax, %ecx
	shrl	$24, %ecx
	cmpb	$1, %cl
	adcl	$0, %ecx
	leal	-1(%rsi), %edx
	andl	%eax, %edx
	movd	%ecx, %xmm1
	pxor	%xmm0, %xmm0
	movl	$1, %eax
	shll	%cl, %eax
	movl	%eax, 4(%rsp)
	pshufb	%xmm0, %xmm1
	movdqa	%xmm1, 32(%rsp)
	decq	%rsi
	movq	%rsi, 16(%rsp)
	movq	%rdx, 8(%rsp)
	movq	%rdx, %rax
	cmpq	$4, %r13
	jae	11f
	movq	8(%rsp), %rcx
	movq	%rcx, %rsi
	testq	%r13, %r13
	je	17f
5:
	movq	%rcx, %rdx
	shlq	$6, %rdx
	movq	24(%rsp), %rsi
	leaq	(%rsi,%rdx), %rax
	movdqu	(%rsi,%rdx), %xmm0
	pcmpeqb	32(%rsp), %xmm0
	pmovmskb	%xmm0, %edx
	andl	$4095, %edx
	je	10f
	movzwl	%dx, %edx
	jmp	9f
	.p2align	4
6:
	xorl	%edi, %edi
7:
	cmpq	%r13, %rdi
	jae	20f
8:
	leal	-1(%rdx), %esi
	andl	%edx, %esi
	movl	%esi, %edx
	je	10f
9:
	rep		bsfl	%edx, %esi
	movl	16(%rax,%rsi,4), %ebx
	movq	%rbx, %rsi
	shlq	$4, %rsi
	cmpq	8(%r12,%rsi), %r13
	jne	8b
	movq	(%r12,%rsi), %rsi
	movzbl	(%r14), %edi
	cmpb	(%rsi), %dil
	jne	6b
	cmpq	$1, %r13
	je	20f
	movzbl	1(%r14), %r8d
	movl	$1, %edi
	cmpb	1(%rsi), %r8b
	jne	7b
	cmpq	$2, %r13
	je	20f
	movzbl	2(%r14), %r8d
	movl	$2, %edi
	cmpb	2(%rsi), %r8b
	jne	7b
	jmp	20f
	.p2align	4
10:
	movl	4(%rsp), %edx
	testl	%edx, 12(%rax)
	je	15f
	incq	%rcx
	andq	16(%rsp), %rcx
	xorl	%eax, %eax
	movl	$0, %edx
	cmpq	8(%rsp), %rcx
	jne	5b
	jmp	21f
	.p2align	4
11:
	movq	%rax, 64(%rsp)
	shlq	$6, %rax
	movq	24(%rsp), %rcx
	leaq	(%rcx,%rax), %rbp
	movdqu	(%rcx,%rax), %xmm0
	pcmpeqb	32(%rsp), %xmm0
	pmovmskb	%xmm0, %eax
	andl	$4095, %eax
	je	14f
	movzwl	%ax, %r15d
	jmp	13f
	.p2align	4
12:
	leal	-1(%r15), %eax
	andl	%r15d, %eax
	movl	%eax, %r15d
	je	14f
13:
	rep		bsfl	%r15d, %eax
	movl	16(%rbp,%rax,4), %ebx
	movq	%rbx, %rax
	shlq	$4, %rax
	cmpq	8(%r12,%rax), %r13
	jne	12b
	movq	(%r12,%rax), %rdx
	movl	(%r14), %eax
	cmpl	(%rdx), %eax
	jne	12b
	movq	%r14, %rdi
	movq	%r13, %rsi
	callq	"core::cmp::slices::groups_equal::<i8,31'core::cmp::numbers::U8PartialEq{}>"
	testb	%al, %al
	je	12b
	jmp	20f
	.p2align	4
14:
	movl	4(%rsp), %eax
	testl	%eax, 12(%rbp)
	je	15f
	movq	64(%rsp), %rax
	incq	%rax
	andq	16(%rsp), %rax
	cmpq	8(%rsp), %rax
	jne	11b
15:
	xorl	%eax, %eax
	xorl	%edx, %edx
	jmp	21f
	.p2align	4
16:
	incq	%rsi
	andq	16(%rsp), %rsi
	xorl	%eax, %eax
	movl	$0, %edx
	cmpq	8(%rsp), %rsi
	je	21f
17:
	movq	%rsi, %rcx
	shlq	$6, %rcx
	movq	24(%rsp), %rdx
	leaq	(%rdx,%rcx), %rax
	movdqu	(%rdx,%rcx), %xmm0
	pcmpeqb	32(%rsp), %xmm0
	pmovmskb	%xmm0, %ecx
	andl	$4095, %ecx
	je	19f
	movzwl	%cx, %ecx
	.p2align	4
18:
	rep		bsfl	%ecx, %edx
	movl	16(%rax,%rdx,4), %ebx
	movq	%rbx, %rdx
	shlq	$4, %rdx
	cmpq	$0, 8(%r12,%rdx)
	je	20f
	leal	-1(%rcx), %edx
	andl	%ecx, %edx
	movl	%edx, %ecx
	jne	18b
19:
	movl	4(%rsp), %ecx
	testl	%ecx, 12(%rax)
	jne	16b
	jmp	15b
20:
	movq	56(%rsp), %rax
	movq	72(%rax), %rax
	movq	(%rax,%rbx,8), %rdx
	movb	$1, %al
21:
	addq	$72, %rsp
	popq	%rbx
	popq	%r12
	popq	%r13
	popq	%r14
	popq	%r15
	popq	%rbp
	retq
22:
	.size	"mime_lookup::name_map::other_value::<i64,23'core::clone::UsizeClone{}>", 22b-"mime_lookup::name_map::other_value::<i64,23'core::clone::UsizeClone{}>"

	.text
	.p2align	4
	.type	"mime_lookup::name_map::put_other::<#643ceef07a9c3c2a>",@function
"mime_lookup::name_map::put_other::<#643ceef07a9c3c2a>":
	pushq	%rbp
	pushq	%r15
	pushq	%r14
	pushq	%r13
	pushq	%r12
	pushq	%rbx
	subq	$136, %rsp
	movq	%rcx, %r10
	movq	%rdx, 8(%rsp)
	movq	104(%rsi), %rax
	xorq	%rcx, %rax
	movabsq	$-7046029254386353147, %rcx
	mulq	%rcx
	xorq	%rax, %rdx
	testq	%r10, %r10
	movq	%r10, 48(%rsp)
	movq	%rdi, 72(%rsp)
	movq	%r9, 64(%rsp)
	movq	%r8, 56(%rsp)
	je	4f
	movabsq	$-7046029254386353129, %rcx
	cmpq	$1, %r10
	jne	1f
	xorl	%r11d, %r11d
	jmp	3f
1:
	movq	%r10, %rdi
	andq	$-2, %rdi
	xorl	%r11d, %r11d
	movq	8(%rsp), %rbx
	.p2align	4
2:
	movzbl	(%rbx,%r11), %eax
	imulq	$65793, %rax, %rax
	xorq	%rdx, %rax
	mulq	%rcx
	movzbl	1(%rbx,%r11), %r10d
	imulq	$65793, %r10, %r10
	xorq	%rdx, %r10
	xorq	%r10, %rax
	mulq	%rcx
	xorq	%rax, %rdx
	addq	$2, %r11
	cmpq	%r11, %rdi
	jne	2b
	movq	48(%rsp), %r10
	testb	$1, %r10b
	je	4f
3:
	movq	8(%rsp), %rax
	movzbl	(%rax,%r11), %eax
	imulq	$65793, %rax, %rax
	xorq	%rdx, %rax
	mulq	%rcx
	xorq	%rax, %rdx
4:
	movl	$4294967295, %r15d
	movq	%rdx, %rax
	shrq	$32, %rax
	xorq	%rdx, %rax
	movq	%rax, 80(%rsp)
	movq	8(%rsi), %rax
	movq	%rax, 104(%rsp)
	movq	48(%rsi), %r9
	movq	%rsi, 32(%rsp)
	movq	56(%rsi), %rax
	movq	%rax, 24(%rsp)
	testq	%rax, %rax
	movq	8(%rsp), %rdi
	je	17f
	movq	32(%rsp), %rax
	movq	(%rax), %r14
	movq	80(%rsp), %rax
	movl	%eax, %ecx
	shrl	$24, %ecx
	cmpb	$1, %cl
	adcl	$0, %ecx
	movq	24(%rsp), %rdx
	leal	(%rdx,%r15), %ebx
	andl	%eax, %ebx
	movd	%ecx, %xmm1
	pxor	%xmm0, %xmm0
	movl	$1, %eax
	shll	%cl, %eax
	movl	%eax, 20(%rsp)
	pshufb	%xmm0, %xmm1
	movdqa	%xmm1, 112(%rsp)
	leaq	-1(%rdx), %rax
	movq	%rax, 88(%rsp)
	movq	%rbx, 40(%rsp)
	cmpq	$4, %r10
	movq	%r9, 96(%rsp)
	jae	13f
	movq	40(%rsp), %rax
5:
	movq	%rax, %rdx
	shlq	$6, %rdx
	leaq	(%r9,%rdx), %rcx
	movdqu	(%r9,%rdx), %xmm0
	pcmpeqb	112(%rsp), %xmm0
	pmovmskb	%xmm0, %esi
	andl	$4095, %esi
	je	7f
	leaq	16(%rcx), %rdx
	movzwl	%si, %esi
	testq	%r10, %r10
	jne	11f
	.p2align	4
6:
	rep		bsfl	%esi, %r8d
	movl	(%rdx,%r8,4), %r12d
	shlq	$4, %r12
	cmpq	$0, 8(%r14,%r12)
	je	12f
	leal	-1(%rsi), %r8d
	andl	%esi, %r8d
	movl	%r8d, %esi
	jne	6b
	.p2align	4
7:
	movl	20(%rsp), %edx
	testl	%edx, 12(%rcx)
	movq	96(%rsp), %r9
	je	17f
	incq	%rax
	andq	88(%rsp), %rax
	cmpq	40(%rsp), %rax
	jne	5b
	jmp	17f
	.p2align	4
8:
	xorl	%r8d, %r8d
9:
	cmpq	%r10, %r8
	jae	12f
10:
	leal	-1(%rsi), %r8d
	andl	%esi, %r8d
	movl	%r8d, %esi
	je	7b
11:
	rep		bsfl	%esi, %r8d
	movl	(%rdx,%r8,4), %r12d
	shlq	$4, %r12
	cmpq	8(%r14,%r12), %r10
	jne	10b
	movq	(%r14,%r12), %r11
	movzbl	(%rdi), %r8d
	cmpb	(%r11), %r8b
	jne	8b
	cmpq	$1, %r10
	je	12f
	movzbl	1(%rdi), %r9d
	movl	$1, %r8d
	cmpb	1(%r11), %r9b
	jne	9b
	cmpq	$2, %r10
	je	12f
	movzbl	2(%rdi), %r9d
	movl	$2, %r8d
	cmpb	2(%r11), %r9b
	jne	9b
12:
	movq	32(%rsp), %rax
	movq	24(%rax), %rcx
	movq	(%rcx,%r12), %rax
	movq	8(%rcx,%r12), %rdx
	movq	56(%rsp), %rsi
	movq	%rsi, (%rcx,%r12)
	movq	64(%rsp), %rsi
	movq	%rsi, 8(%rcx,%r12)
	movl	$1, %ecx
	jmp	21f
	.p2align	4
13:
	movq	%rbx, %rax
	shlq	$6, %rax
	leaq	(%r9,%rax), %rbp
	movdqu	(%r9,%rax), %xmm0
	pcmpeqb	112(%rsp), %xmm0
	pmovmskb	%xmm0, %eax
	andl	$4095, %eax
	je	16f
	movzwl	%ax, %r13d
	jmp	15f
	.p2align	4
14:
	leal	-1(%r13), %eax
	andl	%r13d, %eax
	movl	%eax, %r13d
	je	16f
15:
	rep		bsfl	%r13d, %eax
	movl	16(%rbp,%rax,4), %r12d
	shlq	$4, %r12
	cmpq	8(%r14,%r12), %r10
	jne	14b
	movq	(%r14,%r12), %rdx
	movl	(%rdi), %eax
	cmpl	(%rdx), %eax
	jne	14b
	movq	%r10, %rsi
	callq	"core::cmp::slices::groups_equal::<i8,31'core::cmp::numbers::U8PartialEq{}>"
	movq	8(%rsp), %rdi
	movq	48(%rsp), %r10
	testb	%al, %al
	je	14b
	jmp	12b
	.p2align	4
16:
	movl	20(%rsp), %eax
	testl	%eax, 12(%rbp)
	movq	96(%rsp), %r9
	je	17f
	incq	%rbx
	andq	88(%rsp), %rbx
	cmpq	40(%rsp), %rbx
	jne	13b
17:
	movq	32(%rsp), %rbx
	movq	16(%rbx), %rax
	movq	40(%rbx), %rcx
	cmpq	%rax, %rcx
	cmovbq	%rcx, %rax
	xorl	%ecx, %ecx
	subq	104(%rsp), %rax
	cmovaeq	%rax, %rcx
	movq	96(%rbx), %rax
	cmpq	%rax, %rcx
	cmovaeq	%rax, %rcx
	testq	%rcx, %rcx
	movq	80(%rsp), %r14
	je	23f
18:
	movq	80(%rbx), %rdx
	movl	%r14d, %eax
	movq	24(%rsp), %r11
	addl	%r11d, %r15d
	andl	%r14d, %r15d
	shrl	$24, %r14d
	cmpb	$1, %r14b
	adcl	$0, %r14d
	movl	$1, %esi
	movl	%r14d, %ecx
	shll	%cl, %esi
	decq	%r11
	.p2align	4
19:
	movq	%r15, %r8
	shlq	$6, %r8
	leaq	(%r9,%r8), %rcx
	movdqu	(%r9,%r8), %xmm0
	pxor	%xmm1, %xmm1
	pcmpeqb	%xmm0, %xmm1
	pmovmskb	%xmm1, %r8d
	andl	$4095, %r8d
	jne	20f
	orl	%esi, 12(%rcx)
	incq	%r15
	andq	%r11, %r15
	jmp	19b
20:
	rep		bsfl	%r8d, %esi
	movb	%r14b, (%rcx,%rsi)
	movl	%edx, 16(%rcx,%rsi,4)
	shll	$4, %r15d
	movq	72(%rbx), %rcx
	movq	80(%rbx), %rdx
	orl	%esi, %r15d
	shlq	$32, %r15
	orq	%rax, %r15
	movq	%r15, (%rcx,%rdx,8)
	incq	%rdx
	movq	%rdx, 80(%rbx)
	decq	96(%rbx)
	movq	(%rbx), %rax
	movq	8(%rbx), %rcx
	movq	%rcx, %rdx
	shlq	$4, %rdx
	movq	%rdi, (%rax,%rdx)
	movq	%r10, 8(%rax,%rdx)
	incq	%rcx
	movq	%rcx, 8(%rbx)
	movq	24(%rbx), %rax
	movq	32(%rbx), %rcx
	movq	%rcx, %rdx
	shlq	$4, %rdx
	movq	56(%rsp), %rsi
	movq	%rsi, (%rax,%rdx)
	movq	64(%rsp), %rsi
	movq	%rsi, 8(%rax,%rdx)
	incq	%rcx
	movq	%rcx, 32(%rbx)
	xorl	%ecx, %ecx
	xorl	%eax, %eax
	xorl	%edx, %edx
21:
	movq	72(%rsp), %rsi
	movb	$0, (%rsi)
	movq	%rcx, 8(%rsi)
	movq	%rax, 16(%rsi)
	movq	%rdx, 24(%rsi)
22:
	addq	$136, %rsp
	popq	%rbx
	popq	%r12
	popq	%r13
	popq	%r14
	popq	%r15
	popq	%rbp
	retq
23:
	movq	%rbx, %rdi
	callq	"indexmap::map::IndexMap::grow::<#b179f2375b12a751>"
	testb	%al, %al
	je	24f
	movq	72(%rsp), %rax
	movb	$1, (%rax)
	pxor	%xmm0, %xmm0
	movdqu	%xmm0, 8(%rax)
	movq	$0, 24(%rax)
	jmp	22b
24:
	movq	48(%rbx), %r9
	movq	56(%rbx), %rax
	movq	%rax, 24(%rsp)
	movq	48(%rsp), %r10
	movq	8(%rsp), %rdi
	jmp	18b
25:
	.size	"mime_lookup::name_map::put_other::<#643ceef07a9c3c2a>", 25b-"mime_lookup::name_map::put_other::<#643ceef07a9c3c2a>"

	.text
	.p2align	4
	.type	"mime_lookup::name_map::put_other::<i64,23'core::clone::UsizeClone{}>",@function
"mime_lookup::name_map::put_other::<i64,23'core::clone::UsizeClone{}>":
	pushq	%rbp
	pushq	%r15
	pushq	%r14
	pushq	%r13
	pushq	%r12
	pushq	%rbx
	subq	$120, %rsp
	movq	%rcx, %r11
	movq	%rdx, %r14
	movq	104(%rsi), %rax
	xorq	%rcx, %rax
	movabsq	$-7046029254386353147, %rcx
	mulq	%rcx
	xorq	%rax, %rdx
	testq	%r11, %r11
	movq	%rdi, 48(%rsp)
	movq	%r8, 40(%rsp)
	je	4f
	movabsq	$-7046029254386353129, %rcx
	cmpq	$1, %r11
	jne	1f
	xorl	%r10d, %r10d
	jmp	3f
1:
	movq	%r11, %rdi
	andq	$-2, %rdi
	xorl	%r10d, %r10d
	.p2align	4
2:
	movzbl	(%r14,%r10), %eax
	imulq	$65793, %rax, %rax
	xorq	%rdx, %rax
	mulq	%rcx
	movzbl	1(%r14,%r10), %r9d
	imulq	$65793, %r9, %r9
	xorq	%rdx, %r9
	xorq	%r9, %rax
	mulq	%rcx
	xorq	%rax, %rdx
	addq	$2, %r10
	cmpq	%r10, %rdi
	jne	2b
	testb	$1, %r11b
	je	4f
3:
	movzbl	(%r14,%r10), %eax
	imulq	$65793, %rax, %rax
	xorq	%rdx, %rax
	mulq	%rcx
	xorq	%rax, %rdx
4:
	movl	$4294967295, %edi
	movq	%rdx, %rax
	shrq	$32, %rax
	xorq	%rdx, %rax
	movq	%rax, 56(%rsp)
	movq	8(%rsi), %rax
	movq	%rax, 80(%rsp)
	movq	48(%rsi), %r10
	movq	%rsi, 24(%rsp)
	movq	56(%rsi), %rax
	movq	%rax, 16(%rsp)
	testq	%rax, %rax
	je	17f
	movq	24(%rsp), %rax
	movq	(%rax), %rbp
	movq	56(%rsp), %rax
	movl	%eax, %ecx
	shrl	$24, %ecx
	cmpb	$1, %cl
	adcl	$0, %ecx
	movq	16(%rsp), %rdx
	leal	(%rdx,%rdi), %esi
	andl	%eax, %esi
	movd	%ecx, %xmm1
	pxor	%xmm0, %xmm0
	movl	$1, %eax
	shll	%cl, %eax
	movl	%eax, 12(%rsp)
	pshufb	%xmm0, %xmm1
	movdqa	%xmm1, 96(%rsp)
	leaq	-1(%rdx), %rax
	movq	%rax, 64(%rsp)
	movq	%rsi, 32(%rsp)
	movq	%rsi, %rax
	cmpq	$4, %r11
	movq	%r10, 72(%rsp)
	jae	13f
	movq	32(%rsp), %rax
5:
	movq	%rax, %rdx
	shlq	$6, %rdx
	leaq	(%r10,%rdx), %rcx
	movdqu	(%r10,%rdx), %xmm0
	pcmpeqb	96(%rsp), %xmm0
	pmovmskb	%xmm0, %esi
	andl	$4095, %esi
	je	7f
	leaq	16(%rcx), %rdx
	movzwl	%si, %esi
	testq	%r11, %r11
	jne	11f
	.p2align	4
6:
	rep		bsfl	%esi, %edi
	movl	(%rdx,%rdi,4), %r15d
	movq	%r15, %rdi
	shlq	$4, %rdi
	cmpq	$0, 8(%rbp,%rdi)
	je	12f
	leal	-1(%rsi), %edi
	andl	%esi, %edi
	movl	%edi, %esi
	jne	6b
	.p2align	4
7:
	movl	12(%rsp), %edx
	testl	%edx, 12(%rcx)
	movq	72(%rsp), %r10
	je	17f
	incq	%rax
	andq	64(%rsp), %rax
	cmpq	32(%rsp), %rax
	jne	5b
	jmp	17f
	.p2align	4
8:
	xorl	%r8d, %r8d
9:
	cmpq	%r11, %r8
	jae	12f
10:
	leal	-1(%rsi), %edi
	andl	%esi, %edi
	movl	%edi, %esi
	je	7b
11:
	rep		bsfl	%esi, %edi
	movl	(%rdx,%rdi,4), %r15d
	movq	%r15, %rdi
	shlq	$4, %rdi
	cmpq	8(%rbp,%rdi), %r11
	jne	10b
	movq	(%rbp,%rdi), %rdi
	movzbl	(%r14), %r8d
	cmpb	(%rdi), %r8b
	jne	8b
	cmpq	$1, %r11
	je	12f
	movzbl	1(%r14), %r9d
	movl	$1, %r8d
	cmpb	1(%rdi), %r9b
	jne	9b
	cmpq	$2, %r11
	je	12f
	movzbl	2(%r14), %r9d
	movl	$2, %r8d
	cmpb	2(%rdi), %r9b
	jne	9b
12:
	movq	24(%rsp), %rax
	movq	24(%rax), %rax
	movq	(%rax,%r15,8), %rcx
	movq	40(%rsp), %rdx
	movq	%rdx, (%rax,%r15,8)
	movl	$1, %eax
	jmp	21f
	.p2align	4
13:
	movq	%rax, 88(%rsp)
	shlq	$6, %rax
	leaq	(%r10,%rax), %r13
	movdqu	(%r10,%rax), %xmm0
	pcmpeqb	96(%rsp), %xmm0
	pmovmskb	%xmm0, %eax
	andl	$4095, %eax
	je	16f
	movzwl	%ax, %r12d
	jmp	15f
	.p2align	4
14:
	leal	-1(%r12), %eax
	andl	%r12d, %eax
	movl	%eax, %r12d
	je	16f
15:
	rep		bsfl	%r12d, %eax
	movl	16(%r13,%rax,4), %r15d
	movq	%r15, %rax
	shlq	$4, %rax
	cmpq	8(%rbp,%rax), %r11
	jne	14b
	movq	(%rbp,%rax), %rdx
	movl	(%r14), %eax
	cmpl	(%rdx), %eax
	jne	14b
	movq	%r14, %rdi
	movq	%r11, %rsi
	movq	%r14, %rbx
	movq	%r11, %r14
	callq	"core::cmp::slices::groups_equal::<i8,31'core::cmp::numbers::U8PartialEq{}>"
	movq	%r14, %r11
	movq	%rbx, %r14
	testb	%al, %al
	je	14b
	jmp	12b
	.p2align	4
16:
	movl	12(%rsp), %eax
	testl	%eax, 12(%r13)
	movq	72(%rsp), %r10
	movq	88(%rsp), %rax
	je	17f
	incq	%rax
	andq	64(%rsp), %rax
	cmpq	32(%rsp), %rax
	jne	13b
17:
	movq	24(%rsp), %rbx
	movq	16(%rbx), %rax
	movq	40(%rbx), %rcx
	cmpq	%rax, %rcx
	cmovbq	%rcx, %rax
	xorl	%ecx, %ecx
	subq	80(%rsp), %rax
	cmovaeq	%rax, %rcx
	movq	96(%rbx), %rax
	cmpq	%rax, %rcx
	cmovaeq	%rax, %rcx
	testq	%rcx, %rcx
	je	23f
18:
	movq	80(%rbx), %rdx
	movq	56(%rsp), %rcx
	movl	%ecx, %eax
	movl	$4294967295, %r8d
	movq	16(%rsp), %r15
	addl	%r15d, %r8d
	andl	%ecx, %r8d
	shrl	$24, %ecx
	cmpb	$1, %cl
	adcl	$0, %ecx
	movl	$1, %esi
	shll	%cl, %esi
	decq	%r15
	.p2align	4
19:
	movq	%r8, %rdi
	shlq	$6, %rdi
	leaq	(%r10,%rdi), %r9
	movdqu	(%r10,%rdi), %xmm0
	pxor	%xmm1, %xmm1
	pcmpeqb	%xmm0, %xmm1
	pmovmskb	%xmm1, %edi
	andl	$4095, %edi
	jne	20f
	orl	%esi, 12(%r9)
	incq	%r8
	andq	%r15, %r8
	jmp	19b
20:
	rep		bsfl	%edi, %esi
	movb	%cl, (%r9,%rsi)
	movl	%edx, 16(%r9,%rsi,4)
	shll	$4, %r8d
	movq	72(%rbx), %rcx
	movq	80(%rbx), %rdx
	orl	%esi, %r8d
	shlq	$32, %r8
	orq	%rax, %r8
	movq	%r8, (%rcx,%rdx,8)
	incq	%rdx
	movq	%rdx, 80(%rbx)
	decq	96(%rbx)
	movq	(%rbx), %rax
	movq	8(%rbx), %rcx
	movq	%rcx, %rdx
	shlq	$4, %rdx
	movq	%r14, (%rax,%rdx)
	movq	%r11, 8(%rax,%rdx)
	incq	%rcx
	movq	%rcx, 8(%rbx)
	movq	24(%rbx), %rax
	movq	32(%rbx), %rcx
	movq	40(%rsp), %rdx
	movq	%rdx, (%rax,%rcx,8)
	incq	%rcx
	movq	%rcx, 32(%rbx)
	xorl	%eax, %eax
	xorl	%ecx, %ecx
21:
	movq	48(%rsp), %rdx
	movb	$0, (%rdx)
	movq	%rax, 8(%rdx)
	movq	%rcx, 16(%rdx)
22:
	addq	$120, %rsp
	popq	%rbx
	popq	%r12
	popq	%r13
	popq	%r14
	popq	%r15
	popq	%rbp
	retq
23:
	movq	%r11, %r15
	movq	%rbx, %rdi
	callq	"indexmap::map::IndexMap::grow::<#e7a999eceb31847a>"
	testb	%al, %al
	je	24f
	movq	48(%rsp), %rax
	movb	$1, (%rax)
	pxor	%xmm0, %xmm0
	movdqu	%xmm0, 8(%rax)
	jmp	22b
24:
	movq	48(%rbx), %r10
	movq	56(%rbx), %rax
	movq	%rax, 16(%rsp)
	movq	%r15, %r11
	jmp	18b
25:
	.size	"mime_lookup::name_map::put_other::<i64,23'core::clone::UsizeClone{}>", 25b-"mime_lookup::name_map::put_other::<i64,23'core::clone::UsizeClone{}>"

	.text
	.p2align	4
	.type	"mime_lookup::pairs::unalias",@function
"mime_lookup::pairs::unalias":
	pushq	%rbp
	pushq	%r15
	pushq	%r14
	pushq	%r13
	pushq	%r12
	pushq	%rbx
	pushq	%rax
	movq	%rcx, %rbx
	movq	%rdx, %r14
	testq	%rsi, %rsi
	je	10f
	movq	%rsi, %r15
	movq	%rdi, %r12
	leaq	56(%rdi), %r13
	xorl	%ebp, %ebp
	jmp	4f
1:
	xorl	%eax, %eax
2:
	cmpq	%rbx, %rax
	jae	8f
3:
	incq	%rbp
	addq	$96, %r13
	decq	%r15
	je	10f
4:
	leaq	-48(%r13), %rdi
	cmpb	$0, -56(%r13)
	je	5f
	leaq	(,%rbp,2), %rax
	addq	%rbp, %rax
	shlq	$5, %rax
	addq	%r12, %rax
	movq	(%rdi), %rdi
	addq	$16, %rax
	cmpq	%rbx, (%rax)
	jne	3b
	jmp	6f
	.p2align	4
5:
	leaq	-16(%r13), %rax
	cmpq	%rbx, (%rax)
	jne	3b
6:
	cmpq	$4, %rbx
	jae	7f
	testq	%rbx, %rbx
	je	8f
	movzbl	(%rdi), %eax
	cmpb	(%r14), %al
	jne	1b
	cmpq	$1, %rbx
	je	8f
	movzbl	1(%rdi), %ecx
	movl	$1, %eax
	cmpb	1(%r14), %cl
	jne	2b
	cmpq	$2, %rbx
	je	8f
	movzbl	2(%rdi), %ecx
	movl	$2, %eax
	cmpb	2(%r14), %cl
	jne	2b
	jmp	8f
	.p2align	4
7:
	movl	(%rdi), %eax
	cmpl	(%r14), %eax
	jne	3b
	movq	%rbx, %rsi
	movq	%r14, %rdx
	callq	"core::cmp::slices::groups_equal::<i8,31'core::cmp::numbers::U8PartialEq{}>"
	testb	%al, %al
	je	3b
8:
	cmpb	$0, -8(%r13)
	je	9f
	movq	(%r13), %r14
	addq	$8, %r13
	movq	(%r13), %rbx
	jmp	10f
9:
	leaq	32(%r13), %rax
	movq	(%rax), %rbx
	movq	%r13, %r14
10:
	movq	%r14, %rax
	movq	%rbx, %rdx
	addq	$8, %rsp
	popq	%rbx
	popq	%r12
	popq	%r13
	popq	%r14
	popq	%r15
	popq	%rbp
	retq
11:
	.size	"mime_lookup::pairs::unalias", 11b-"mime_lookup::pairs::unalias"

	.text
	.p2align	4
	.type	"mime_lookup::places::placed_pairs",@function
"mime_lookup::places::placed_pairs":
	pushq	%rbp
	pushq	%r15
	pushq	%r14
	pushq	%r13
	pushq	%r12
	pushq	%rbx
	subq	$632, %rsp
	movq	%rsi, %rbp
	movq	%rdi, %rbx
	xorps	%xmm0, %xmm0
	movaps	%xmm0, 288(%rsp)
	movaps	%xmm0, 272(%rsp)
	movaps	%xmm0, 256(%rsp)
	movaps	%xmm0, 240(%rsp)
	movaps	%xmm0, 224(%rsp)
	movaps	%xmm0, 208(%rsp)
	movaps	%xmm0, 192(%rsp)
	movaps	%xmm0, 176(%rsp)
	movaps	%xmm0, 160(%rsp)
	movaps	%xmm0, 144(%rsp)
	movaps	%xmm0, 128(%rsp)
	movaps	%xmm0, 112(%rsp)
	movaps	%xmm0, 96(%rsp)
	movaps	%xmm0, 416(%rsp)
	movaps	%xmm0, 432(%rsp)
	movaps	%xmm0, 448(%rsp)
	movaps	%xmm0, 464(%rsp)
	movaps	%xmm0, 480(%rsp)
	movaps	%xmm0, 496(%rsp)
	movaps	%xmm0, 512(%rsp)
	movaps	%xmm0, 528(%rsp)
	movaps	%xmm0, 544(%rsp)
	movaps	%xmm0, 560(%rsp)
	movaps	%xmm0, 576(%rsp)
	movaps	%xmm0, 592(%rsp)
	movaps	%xmm0, 608(%rsp)
	movq	24(%rsi), %rsi
	movq	32(%rbp), %rdx
	leaq	96(%rsp), %rdi
	callq	"mime_lookup::places::places_of"
	cmpb	$0, 96(%rsp)
	je	2f
1:
	movb	$1, (%rbx)
	addq	$8, %rbx
	movl	$400, %edx
	movq	%rbx, %rdi
	xorl	%esi, %esi
	addq	$632, %rsp
	popq	%rbx
	popq	%r12
	popq	%r13
	popq	%r14
	popq	%r15
	popq	%rbp
	jmp	memset@PLT
2:
	movq	120(%rsp), %rax
	movq	%rax, 8(%rsp)
	movq	136(%rsp), %rax
	movq	%rax, 48(%rsp)
	movaps	128(%rsp), %xmm0
	movaps	%xmm0, 32(%rsp)
	movq	144(%rsp), %rax
	movq	%rax, 16(%rsp)
	movq	160(%rsp), %rax
	movq	%rax, 56(%rsp)
	movups	152(%rsp), %xmm0
	movaps	%xmm0, 400(%rsp)
	movq	168(%rsp), %rax
	movq	%rax, 24(%rsp)
	movq	184(%rsp), %rax
	movq	%rax, 64(%rsp)
	movaps	176(%rsp), %xmm0
	movaps	%xmm0, 384(%rsp)
	movq	192(%rsp), %r15
	movq	208(%rsp), %rax
	movq	%rax, 72(%rsp)
	movups	200(%rsp), %xmm0
	movaps	%xmm0, 368(%rsp)
	movq	216(%rsp), %r12
	movq	232(%rsp), %rax
	movq	%rax, 80(%rsp)
	movaps	224(%rsp), %xmm0
	movaps	%xmm0, 352(%rsp)
	movq	240(%rsp), %r13
	movq	256(%rsp), %rax
	movq	%rax, 88(%rsp)
	movups	248(%rsp), %xmm0
	movaps	%xmm0, 336(%rsp)
	movups	264(%rsp), %xmm0
	movaps	%xmm0, 320(%rsp)
	movq	280(%rsp), %r14
	movaps	288(%rsp), %xmm0
	movaps	%xmm0, 304(%rsp)
	movq	48(%rbp), %rsi
	movq	56(%rbp), %rdx
	movq	296(%rsp), %rbp
	leaq	416(%rsp), %rdi
	callq	"mime_lookup::places::places_of"
	cmpb	$0, 416(%rsp)
	je	9f
	movq	8(%rsp), %rdi
	movq	%rbp, 32(%rsp)
	movq	24(%rsp), %rbp
	cmpq	$0, 48(%rsp)
	je	3f
	callq	rattle_dealloc@PLT
3:
	cmpq	$0, 56(%rsp)
	movq	%r13, 8(%rsp)
	je	4f
	movq	16(%rsp), %rdi
	callq	rattle_dealloc@PLT
4:
	cmpq	$0, 64(%rsp)
	je	5f
	movq	%rbp, %rdi
	callq	rattle_dealloc@PLT
5:
	cmpq	$0, 72(%rsp)
	je	6f
	movq	%r15, %rdi
	callq	rattle_dealloc@PLT
6:
	cmpq	$0, 80(%rsp)
	movq	32(%rsp), %r15
	je	7f
	movq	%r12, %rdi
	callq	rattle_dealloc@PLT
7:
	cmpq	$0, 88(%rsp)
	je	8f
	movq	8(%rsp), %rdi
	callq	rattle_dealloc@PLT
8:
	testq	%r15, %r15
	je	1b
	movq	%r14, %rdi
	callq	rattle_dealloc@PLT
	jmp	1b
9:
	leaq	424(%rsp), %rsi
	movb	$0, (%rbx)
	movups	104(%rsp), %xmm0
	movups	%xmm0, 8(%rbx)
	movq	8(%rsp), %rax
	movq	%rax, 24(%rbx)
	movaps	32(%rsp), %xmm0
	movups	%xmm0, 32(%rbx)
	movq	16(%rsp), %rax
	movq	%rax, 48(%rbx)
	movaps	400(%rsp), %xmm0
	movups	%xmm0, 56(%rbx)
	movq	24(%rsp), %rax
	movq	%rax, 72(%rbx)
	movaps	384(%rsp), %xmm0
	movups	%xmm0, 80(%rbx)
	movq	%r15, 96(%rbx)
	movaps	368(%rsp), %xmm0
	movups	%xmm0, 104(%rbx)
	movq	%r12, 120(%rbx)
	movaps	352(%rsp), %xmm0
	movups	%xmm0, 128(%rbx)
	movq	%r13, 144(%rbx)
	movaps	336(%rsp), %xmm0
	movups	%xmm0, 152(%rbx)
	movaps	320(%rsp), %xmm0
	movups	%xmm0, 168(%rbx)
	movq	%r14, 184(%rbx)
	movaps	304(%rsp), %xmm0
	movups	%xmm0, 192(%rbx)
	addq	$208, %rbx
	movl	$200, %edx
	movq	%rbx, %rdi
	callq	memcpy@PLT
	addq	$632, %rsp
	popq	%rbx
	popq	%r12
	popq	%r13
	popq	%r14
	popq	%r15
	popq	%rbp
	retq
10:
	.size	"mime_lookup::places::placed_pairs", 10b-"mime_lookup::places::placed_pairs"

	.text
	.p2align	4
	.type	"mime_lookup::places::places_of",@function
"mime_lookup::places::places_of":
	pushq	%rbp
	pushq	%r15
	pushq	%r14
	pushq	%r13
	pushq	%r12
	pushq	%rbx
	subq	$248, %rsp
	movq	%rdx, %rbx
	movq	%rsi, %r14
	movq	%rdi, %r12
	movl	$32768, %edi
	movl	$2, %esi
	callq	rattle_alloc@PLT
	testb	$1, %al
	je	4f
	movq	%rdx, %r15
	movl	$32768, %edx
	movq	%r15, %rdi
	movl	$255, %esi
	callq	memset@PLT
	movq	%rsp, %rax
	movq	%rax, %r13
	testq	%rbx, %rbx
	je	1f
	movq	%rax, %rbp
	movq	%rbx, %rax
	shrq	$58, %rax
	jne	2f
	movq	%rbx, %rdi
	shlq	$5, %rdi
	movl	$8, %esi
	callq	rattle_alloc@PLT
	testb	$1, %al
	je	2f
	movq	%rdx, %r13
	movq	%rbp, %rax
1:
	movq	%r15, 48(%rsp)
	movq	$16384, 56(%rsp)
	movq	$16384, 64(%rsp)
	movq	%r13, 72(%rsp)
	movq	$0, 80(%rsp)
	movq	%rbx, 88(%rsp)
	movq	%rax, 96(%rsp)
	xorps	%xmm0, %xmm0
	movups	%xmm0, 104(%rsp)
	movq	%rax, 120(%rsp)
	movups	%xmm0, 128(%rsp)
	movq	%rax, 144(%rsp)
	movups	%xmm0, 152(%rsp)
	movq	%rax, 168(%rsp)
	movups	%xmm0, 176(%rsp)
	movq	$0, 192(%rsp)
	movq	%rax, %rbp
	movabsq	$2611923443488327891, %rax
	movq	%rax, 200(%rsp)
	testq	%rbx, %rbx
	je	25f
	movq	%rbx, %rdi
	shlq	$4, %rdi
	movl	$8, %esi
	callq	rattle_alloc@PLT
	testb	$1, %al
	je	20f
	movq	%r12, 32(%rsp)
	leaq	-1(%rbx), %r8
	leaq	(%rbx,%rbx,2), %r12
	shlq	$5, %r12
	movq	%r14, 40(%rsp)
	addq	%r14, %r12
	movq	%rdx, 24(%rsp)
	leaq	8(%rdx), %r14
	movq	%rbx, 232(%rsp)
	movq	%rbx, %rsi
	jmp	8f
2:
	movq	%r15, %rdi
3:
	callq	rattle_dealloc@PLT
4:
	movb	$1, (%r12)
	xorps	%xmm0, %xmm0
	movups	%xmm0, 8(%r12)
	movups	%xmm0, 24(%r12)
	movups	%xmm0, 40(%r12)
	movups	%xmm0, 56(%r12)
	movups	%xmm0, 72(%r12)
	movups	%xmm0, 88(%r12)
	movups	%xmm0, 104(%r12)
	movups	%xmm0, 120(%r12)
	movups	%xmm0, 136(%r12)
	movups	%xmm0, 152(%r12)
	movups	%xmm0, 168(%r12)
	movups	%xmm0, 184(%r12)
	movq	$0, 200(%r12)
5:
	addq	$248, %rsp
	popq	%rbx
	popq	%r12
	popq	%r13
	popq	%r14
	popq	%r15
	popq	%rbp
	retq
6:
	movq	%r8, 16(%rbx,%r13)
	movl	$1, %eax
	.p2align	4
7:
	movq	%rax, -8(%r14)
	movq	%r15, (%r14)
	addq	$-96, %r12
	addq	$16, %r14
	addq	$-1, %r8
	jae	24f
8:
	decq	%rsi
	leaq	-88(%r12), %rdx
	cmpb	$0, -96(%r12)
	je	9f
	leaq	(%rsi,%rsi,2), %rax
	shlq	$5, %rax
	addq	40(%rsp), %rax
	movq	(%rdx), %rdx
	addq	$16, %rax
	jmp	10f
	.p2align	4
9:
	leaq	-56(%r12), %rax
10:
	movq	(%rax), %rcx
	xorps	%xmm0, %xmm0
	movaps	%xmm0, 208(%rsp)
	movq	$0, 224(%rsp)
	cmpq	$8, %rcx
	jb	11f
	movq	%rcx, %rax
	shrq	%rax
	movq	-4(%rdx,%rax), %rax
	leaq	(%rax,%rax,2), %rax
	addq	-8(%rdx,%rcx), %rax
	movabsq	$-4658895280553007687, %rbp
	imulq	%rax, %rbp
	shrq	$49, %rbp
	andl	$-2, %ebp
	jmp	12f
	.p2align	4
11:
	xorl	%ebp, %ebp
12:
	movq	48(%rsp), %rax
	movq	72(%rsp), %rbx
	movzwl	(%rax,%rbp), %r13d
	movq	80(%rsp), %r15
	cmpq	%r13, %r15
	jbe	13f
	shll	$5, %r13d
	cmpq	%rcx, 8(%rbx,%r13)
	jne	18f
	movq	(%rbx,%r13), %rdi
	movq	16(%rbx,%r13), %r15
	cmpq	$4, %rcx
	jae	15f
	testq	%rcx, %rcx
	je	6b
	movzbl	(%rdi), %eax
	cmpb	(%rdx), %al
	jne	16f
	cmpq	$1, %rcx
	je	6b
	movzbl	1(%rdi), %r9d
	movl	$1, %eax
	cmpb	1(%rdx), %r9b
	jne	17f
	cmpq	$2, %rcx
	je	6b
	movzbl	2(%rdi), %edi
	movl	$2, %eax
	cmpb	2(%rdx), %dil
	je	6b
	jmp	17f
	.p2align	4
13:
	cmpq	$65534, %r15
	ja	26f
	movq	%r15, %r9
	cmpq	%r15, 88(%rsp)
	je	19f
14:
	movq	%r9, %rdi
	shlq	$5, %rdi
	movq	%rdx, (%rbx,%rdi)
	movq	%rcx, 8(%rbx,%rdi)
	movq	%r8, 16(%rbx,%rdi)
	incq	%r9
	movq	$0, 24(%rbx,%rdi)
	movq	%r9, 80(%rsp)
	movw	%r15w, (%rax,%rbp)
	xorl	%eax, %eax
	xorl	%r15d, %r15d
	jmp	7b
15:
	movl	(%rdi), %eax
	cmpl	(%rdx), %eax
	jne	18f
	movq	%rsi, 8(%rsp)
	movq	%rcx, %rsi
	movq	%r8, 16(%rsp)
	movq	%rdx, %rbp
	movq	%rcx, 240(%rsp)
	callq	"core::cmp::slices::groups_equal::<i8,31'core::cmp::numbers::U8PartialEq{}>"
	movq	240(%rsp), %rcx
	movq	%rbp, %rdx
	movq	8(%rsp), %rsi
	movq	16(%rsp), %r8
	testb	%al, %al
	jne	6b
	jmp	18f
16:
	xorl	%eax, %eax
17:
	cmpq	%rcx, %rax
	jae	6b
	.p2align	4
18:
	movb	$1, 24(%rbx,%r13)
	leaq	208(%rsp), %rdi
	movq	%rsi, %r15
	leaq	96(%rsp), %rsi
	movq	%r8, %rbx
	callq	"mime_lookup::name_map::put_other::<i64,23'core::clone::UsizeClone{}>"
	cmpb	$0, 208(%rsp)
	jne	26f
	movq	%r15, %rsi
	movq	%rbx, %r8
	movq	224(%rsp), %r15
	movzbl	216(%rsp), %eax
	jmp	7b
19:
	leaq	72(%rsp), %rdi
	movq	%r8, 16(%rsp)
	movq	%rsi, %r13
	movq	%rdx, 8(%rsp)
	movq	%rcx, %rbx
	callq	"std_alloc::vec::Vec::grow_amortized::<#225cbcfbbb5ee30d>"
	movq	8(%rsp), %rdx
	movq	16(%rsp), %r8
	testb	%al, %al
	je	26f
	movq	%rbx, %rcx
	movq	%r13, %rsi
	movq	80(%rsp), %r9
	movq	48(%rsp), %rax
	movq	72(%rsp), %rbx
	jmp	14b
20:
	movq	%r15, %rdi
	callq	rattle_dealloc@PLT
	movq	%r13, %rdi
	callq	rattle_dealloc@PLT
	movq	136(%rsp), %r15
	movq	160(%rsp), %r14
	movq	184(%rsp), %rbx
	cmpq	$0, 112(%rsp)
	je	21f
	movq	%rsp, %rdi
	callq	rattle_dealloc@PLT
21:
	testq	%r15, %r15
	je	22f
	movq	%rsp, %rdi
	callq	rattle_dealloc@PLT
22:
	testq	%r14, %r14
	je	23f
	movq	%rsp, %rdi
	callq	rattle_dealloc@PLT
23:
	testq	%rbx, %rbx
	je	4b
	movq	%rsp, %rdi
	jmp	3b
24:
	movq	32(%rsp), %r12
	movq	232(%rsp), %rbx
	movq	40(%rsp), %r14
	movq	24(%rsp), %rbp
25:
	movb	$0, (%r12)
	movq	%r14, 8(%r12)
	movq	%rbx, 16(%r12)
	leaq	24(%r12), %rdi
	leaq	48(%rsp), %rsi
	movl	$160, %edx
	callq	memcpy@PLT
	movq	%rbp, 184(%r12)
	movq	%rbx, 192(%r12)
	movq	%rbx, 200(%r12)
	jmp	5b
26:
	movq	24(%rsp), %rdi
	callq	rattle_dealloc@PLT
	cmpq	$0, 64(%rsp)
	je	27f
	movq	48(%rsp), %rdi
	callq	rattle_dealloc@PLT
27:
	cmpq	$0, 88(%rsp)
	je	28f
	movq	72(%rsp), %rdi
	callq	rattle_dealloc@PLT
28:
	movq	120(%rsp), %r12
	movq	136(%rsp), %rbp
	movq	144(%rsp), %r15
	movq	160(%rsp), %r13
	movq	168(%rsp), %r14
	movq	184(%rsp), %rbx
	cmpq	$0, 112(%rsp)
	je	29f
	movq	96(%rsp), %rdi
	callq	rattle_dealloc@PLT
29:
	testq	%rbp, %rbp
	je	30f
	movq	%r12, %rdi
	callq	rattle_dealloc@PLT
30:
	testq	%r13, %r13
	je	31f
	movq	%r15, %rdi
	callq	rattle_dealloc@PLT
31:
	testq	%rbx, %rbx
	movq	32(%rsp), %rbx
	je	32f
	movq	%r14, %rdi
	callq	rattle_dealloc@PLT
32:
	movb	$1, (%rbx)
	xorps	%xmm0, %xmm0
	movups	%xmm0, 8(%rbx)
	movups	%xmm0, 24(%rbx)
	movups	%xmm0, 40(%rbx)
	movups	%xmm0, 56(%rbx)
	movups	%xmm0, 72(%rbx)
	movups	%xmm0, 88(%rbx)
	movups	%xmm0, 104(%rbx)
	movups	%xmm0, 120(%rbx)
	movups	%xmm0, 136(%rbx)
	movups	%xmm0, 152(%rbx)
	movups	%xmm0, 168(%rbx)
	movups	%xmm0, 184(%rbx)
	movq	$0, 200(%rbx)
	jmp	5b
33:
	.size	"mime_lookup::places::places_of", 33b-"mime_lookup::places::places_of"

	.text
	.p2align	4
	.type	"mime_lookup::read_back::name_types::types_of",@function
"mime_lookup::read_back::name_types::types_of":
	pushq	%rbp
	pushq	%r15
	pushq	%r14
	pushq	%r13
	pushq	%r12
	pushq	%rbx
	subq	$456, %rsp
	movq	%r8, %r15
	movl	%ecx, 28(%rsp)
	movq	%rdx, %r13
	movq	%rsi, %rbx
	movq	%rdi, 208(%rsp)
	pxor	%xmm0, %xmm0
	movdqa	%xmm0, 320(%rsp)
	movdqa	%xmm0, 272(%rsp)
	movdqa	%xmm0, 288(%rsp)
	movq	$0, 304(%rsp)
	movdqa	%xmm0, 336(%rsp)
	movdqa	%xmm0, 352(%rsp)
	movq	$0, 368(%rsp)
	movdqa	%xmm0, 384(%rsp)
	testb	$1, 512(%rsp)
	je	1f
	addq	$16, %r13
	leaq	336(%rsp), %rdi
	leaq	384(%rsp), %r8
	movq	%r13, %rsi
	movq	%r15, %rdx
	movq	%r9, %r14
	movq	%r9, %rcx
	callq	"mime_names::candidates::candidate_kinds"
	cmpb	$0, 336(%rsp)
	jne	82f
	movq	344(%rsp), %rdx
	movq	352(%rsp), %r9
	movq	360(%rsp), %rsi
	movl	$1, %r10d
	movq	368(%rsp), %r11
	movq	%r14, %rcx
	movl	28(%rsp), %r14d
	jmp	64f
1:
	movq	%r15, 32(%rsp)
	movq	%r9, 16(%rsp)
	movq	%rbx, 216(%rsp)
	movdqa	%xmm0, 96(%rsp)
	movdqa	%xmm0, 240(%rsp)
	movdqa	%xmm0, 224(%rsp)
	movq	$0, 256(%rsp)
	movdqa	%xmm0, 128(%rsp)
	movdqa	%xmm0, 144(%rsp)
	movdqa	%xmm0, 160(%rsp)
	movdqa	%xmm0, 176(%rsp)
	movdqa	%xmm0, 192(%rsp)
	movq	136(%r13), %rax
	movq	2056(%rax), %r14
	testq	%r14, %r14
	je	7f
	movq	160(%r13), %r15
	movl	$1, %ebx
	jmp	4f
	.p2align	4
2:
	movq	136(%rsp), %rax
	movq	144(%rsp), %rdx
	movq	%rcx, (%rax,%rdx,8)
	incq	%rdx
	movq	%rdx, 144(%rsp)
3:
	movq	%rbx, %rax
	incq	%rax
	movq	$-1, %rbx
	cmovneq	%rax, %rbx
	movq	-8(%r15,%r14,8), %r14
	testq	%r14, %r14
	je	8f
4:
	movzbl	128(%rsp), %eax
	testb	%al, %al
	leaq	200(%rsp), %rcx
	leaq	144(%rsp), %rdx
	movl	$8, %esi
	cmovneq	152(%rsp), %rsi
	cmoveq	%rcx, %rdx
	cmpq	%rsi, (%rdx)
	je	6f
	leaq	-1(%r14), %rcx
	testb	%al, %al
	jne	2b
5:
	movq	200(%rsp), %rax
	movq	%rcx, 136(%rsp,%rax,8)
	incq	%rax
	movq	%rax, 200(%rsp)
	jmp	3b
6:
	leaq	128(%rsp), %rdi
	callq	"smallvec::small_vec::SmallVec::reserve_one::<#1d7ca747d7f7d6e4>"
	testb	%al, %al
	jne	81f
	movzbl	128(%rsp), %eax
	leaq	-1(%r14), %rcx
	testb	%al, %al
	jne	2b
	jmp	5b
7:
	movl	$1, %ebx
8:
	movq	16(%rsp), %r15
	xorl	%r14d, %r14d
	testq	%r15, %r15
	jne	11f
	jmp	19f
	.p2align	4
9:
	movq	%rbx, %rax
	addq	$2, %rax
	movq	$-1, %rbx
	cmovaeq	%rax, %rbx
10:
	decq	%r15
	je	18f
11:
	movq	32(%rsp), %rax
	movzbl	-1(%rax,%r15), %eax
	leaq	.L2f9e9aa9650f(%rip), %rcx
	movzbl	(%rax,%rcx), %eax
	movq	64(%r13), %rcx
	movq	88(%r13), %rdx
	addq	(%rcx,%r14,8), %rax
	movl	(%rdx,%rax,4), %r14d
	testq	%r14, %r14
	je	17f
	movq	136(%r13), %rax
	movq	2056(%rax,%r14,8), %r12
	testq	%r12, %r12
	je	9b
	movq	160(%r13), %rbp
	movq	%rbx, %rax
	addq	$2, %rax
	movq	$-1, %rbx
	cmovaeq	%rax, %rbx
	jmp	14f
	.p2align	4
12:
	movq	136(%rsp), %rax
	movq	144(%rsp), %rdx
	movq	%rcx, (%rax,%rdx,8)
	incq	%rdx
	movq	%rdx, 144(%rsp)
13:
	movq	%rbx, %rax
	incq	%rax
	movq	$-1, %rbx
	cmovneq	%rax, %rbx
	movq	-8(%rbp,%r12,8), %r12
	testq	%r12, %r12
	je	10b
14:
	movzbl	128(%rsp), %eax
	testb	%al, %al
	leaq	200(%rsp), %rcx
	leaq	144(%rsp), %rdx
	movl	$8, %esi
	cmovneq	152(%rsp), %rsi
	cmoveq	%rcx, %rdx
	cmpq	%rsi, (%rdx)
	je	16f
	leaq	-1(%r12), %rcx
	testb	%al, %al
	jne	12b
15:
	movq	200(%rsp), %rax
	movq	%rcx, 136(%rsp,%rax,8)
	incq	%rax
	movq	%rax, 200(%rsp)
	jmp	13b
16:
	leaq	128(%rsp), %rdi
	callq	"smallvec::small_vec::SmallVec::reserve_one::<#1d7ca747d7f7d6e4>"
	testb	%al, %al
	jne	81f
	movzbl	128(%rsp), %eax
	leaq	-1(%r12), %rcx
	testb	%al, %al
	jne	12b
	jmp	15b
17:
	incq	%rbx
	movq	$-1, %rax
	cmovneq	%rbx, %rax
	jmp	27f
18:
	shlq	$3, %r14
19:
	movq	%rbx, %rax
	incq	%rax
	movq	$-1, %rcx
	cmovneq	%rax, %rcx
	movq	%rcx, 96(%rsp)
	movq	64(%r13), %rax
	movq	88(%r13), %rcx
	movq	(%rax,%r14), %rax
	movl	(%rcx,%rax,4), %eax
	testq	%rax, %rax
	je	28f
	movq	136(%r13), %rcx
	movq	2056(%rcx,%rax,8), %r14
	testq	%r14, %r14
	je	26f
	movq	160(%r13), %r15
	addq	$2, %rbx
	movq	$-1, %r12
	cmovaeq	%rbx, %r12
	jmp	22f
	.p2align	4
20:
	movq	136(%rsp), %rax
	movq	144(%rsp), %rdx
	movq	%rcx, (%rax,%rdx,8)
	incq	%rdx
	movq	%rdx, 144(%rsp)
21:
	movq	%r12, %rax
	incq	%rax
	movq	$-1, %r12
	cmovneq	%rax, %r12
	movq	-8(%r15,%r14,8), %r14
	testq	%r14, %r14
	je	25f
22:
	movzbl	128(%rsp), %eax
	testb	%al, %al
	leaq	200(%rsp), %rcx
	leaq	144(%rsp), %rdx
	movl	$8, %esi
	cmovneq	152(%rsp), %rsi
	cmoveq	%rcx, %rdx
	cmpq	%rsi, (%rdx)
	je	24f
	leaq	-1(%r14), %rcx
	testb	%al, %al
	jne	20b
23:
	movq	200(%rsp), %rax
	movq	%rcx, 136(%rsp,%rax,8)
	incq	%rax
	movq	%rax, 200(%rsp)
	jmp	21b
24:
	leaq	128(%rsp), %rdi
	callq	"smallvec::small_vec::SmallVec::reserve_one::<#1d7ca747d7f7d6e4>"
	testb	%al, %al
	jne	81f
	movzbl	128(%rsp), %eax
	leaq	-1(%r14), %rcx
	testb	%al, %al
	jne	20b
	jmp	23b
25:
	movq	%r12, 96(%rsp)
	jmp	28f
26:
	addq	$2, %rbx
	movq	$-1, %rax
	cmovaeq	%rbx, %rax
27:
	movq	%rax, 96(%rsp)
28:
	leaq	136(%rsp), %rbx
	movzbl	128(%rsp), %eax
	testb	%al, %al
	movq	136(%rsp), %r15
	movq	%r15, %rdi
	cmoveq	%rbx, %rdi
	movq	200(%rsp), %rcx
	movq	144(%rsp), %r8
	movq	%r8, %rsi
	cmoveq	%rcx, %rsi
	cmpq	$2, %rsi
	jb	31f
	movq	%r8, %r9
	movl	$1, %edx
	.p2align	4
29:
	movq	-8(%rdi,%rdx,8), %r8
	cmpq	(%rdi,%rdx,8), %r8
	ja	30f
	incq	%rdx
	cmpq	%rdx, %rsi
	jne	29b
	movq	%r9, %r8
	jmp	31f
30:
	callq	"core::slice::sort::slice+T::sort_unstable::<#17f159365526a5ba>"
	movzbl	128(%rsp), %eax
	movq	136(%rsp), %r15
	movq	200(%rsp), %rcx
	movq	144(%rsp), %r8
31:
	movq	16(%r13), %rbp
	testb	%al, %al
	cmoveq	%rbx, %r15
	movq	40(%r13), %rdx
	cmoveq	%rcx, %r8
	testq	%r8, %r8
	je	59f
	movq	16(%rsp), %rax
	leaq	-1(%rax), %rcx
	movq	%rcx, 408(%rsp)
	movq	32(%rsp), %rcx
	addq	%rax, %rcx
	decq	%rcx
	movq	%rcx, 64(%rsp)
	negq	%rax
	movq	%rax, 424(%rsp)
	xorl	%ecx, %ecx
	xorl	%r11d, %r11d
	xorl	%ebx, %ebx
	xorl	%eax, %eax
	xorl	%r9d, %r9d
	movq	%r8, 88(%rsp)
	movq	%rdx, 72(%rsp)
	movq	%rbp, 416(%rsp)
	jmp	36f
32:
	movq	%r12, (%r15,%r11,8)
	incq	%r11
33:
	movl	%eax, %ecx
34:
	incq	%r12
	movq	%r12, %rax
35:
	incq	%rbx
	cmpq	%r8, %rbx
	je	58f
36:
	movq	(%r15,%rbx,8), %r12
	cmpq	%r12, %rax
	ja	35b
	movq	%r12, %r14
	shlq	$6, %r14
	cmpq	%r12, %r9
	jne	38f
	cmpb	$0, 63(%rbp,%r14)
	je	38f
37:
	leaq	1(%r12), %r9
	movl	56(%rbp,%r14), %eax
	cmpl	%ecx, %eax
	jb	34b
	jbe	32b
	movq	%r12, (%r15)
	movl	$1, %r11d
	jmp	33b
	.p2align	4
38:
	movq	40(%rbp,%r14), %rax
	movq	48(%rbp,%r14), %rsi
	leaq	(%rdx,%rax), %rdi
	cmpb	$0, 32(%rbp,%r14)
	cmoveq	%rax, %rdi
	movzbl	62(%rbp,%r14), %eax
	cmpl	$2, %eax
	je	40f
	cmpl	$1, %eax
	jne	41f
	movq	%rcx, 56(%rsp)
	xorl	%ecx, %ecx
	testq	%rsi, %rsi
	setne	%cl
	movq	%rsi, %rax
	subq	%rcx, %rax
	movq	16(%rsp), %rdx
	subq	%rax, %rdx
	jae	45f
39:
	movq	72(%rsp), %rdx
	movq	56(%rsp), %rcx
	jmp	34b
40:
	movzbl	61(%rbp,%r14), %edx
	movq	%r9, 80(%rsp)
	leaq	96(%rsp), %r9
	movq	%rcx, 56(%rsp)
	movq	32(%rsp), %rcx
	movq	16(%rsp), %r8
	movq	%r13, %rbp
	movq	%r15, %r13
	movq	%r11, %r15
	callq	"mime_names::indexed_rule::is_general_match"
	movq	80(%rsp), %r9
	movq	56(%rsp), %rcx
	movq	72(%rsp), %rdx
	movq	88(%rsp), %r8
	movq	%r15, %r11
	movq	%r13, %r15
	movq	%rbp, %r13
	movq	416(%rsp), %rbp
	testb	%al, %al
	je	34b
	jmp	37b
41:
	movq	16(%rsp), %rax
	cmpq	%rax, %rsi
	jne	34b
	movq	%r9, 80(%rsp)
	movq	%rcx, 56(%rsp)
	testq	%rax, %rax
	je	47f
	movzbl	61(%rbp,%r14), %eax
	movzbl	(%rdi), %edx
	movq	32(%rsp), %rcx
	movzbl	(%rcx), %ecx
	cmpb	%cl, %dl
	je	42f
	leal	-65(%rdx), %esi
	leal	32(%rdx), %r8d
	cmpb	$26, %sil
	movzbl	%r8b, %esi
	movzbl	%dl, %edx
	cmovael	%edx, %esi
	leal	-65(%rcx), %r8d
	leal	32(%rcx), %r9d
	cmpb	$26, %r8b
	movzbl	%r9b, %r8d
	movzbl	%cl, %ecx
	cmovael	%ecx, %r8d
	testb	%al, %al
	cmovnel	%edx, %esi
	cmovnel	%ecx, %r8d
	cmpb	%r8b, %sil
	jne	52f
42:
	addq	408(%rsp), %rdi
	xorl	%ecx, %ecx
	jmp	44f
	.p2align	4
43:
	decq	%rcx
	cmpq	%rcx, 424(%rsp)
	je	47f
44:
	movzbl	(%rdi,%rcx), %esi
	movq	64(%rsp), %rdx
	movzbl	(%rdx,%rcx), %edx
	cmpb	%dl, %sil
	je	43b
	leal	-65(%rsi), %r8d
	leal	32(%rsi), %r9d
	cmpb	$26, %r8b
	movzbl	%r9b, %r8d
	movzbl	%sil, %esi
	cmovael	%esi, %r8d
	leal	-65(%rdx), %r9d
	leal	32(%rdx), %r10d
	cmpb	$26, %r9b
	movzbl	%r10b, %r9d
	movzbl	%dl, %edx
	cmovael	%edx, %r9d
	testb	%al, %al
	cmovnel	%esi, %r8d
	cmovnel	%edx, %r9d
	cmpb	%r9b, %r8b
	je	43b
	movl	$1, %eax
	subq	%rcx, %rax
	addq	104(%rsp), %rax
	movq	$-1, %rcx
	cmovaeq	%rax, %rcx
	jmp	53f
45:
	cmpq	$2, %rsi
	jae	49f
46:
	addq	104(%rsp), %rax
	jmp	48f
47:
	movq	104(%rsp), %rax
	addq	16(%rsp), %rax
48:
	movq	$-1, %rcx
	cmovaeq	%rax, %rcx
	movq	%rcx, 104(%rsp)
	movq	88(%rsp), %r8
	movq	72(%rsp), %rdx
	movq	56(%rsp), %rcx
	jmp	37b
49:
	movq	%r9, 80(%rsp)
	addq	%rcx, %rdi
	movzbl	61(%rbp,%r14), %ecx
	movzbl	(%rdi), %r8d
	movq	32(%rsp), %r9
	movzbl	(%r9,%rdx), %edx
	cmpb	%dl, %r8b
	je	50f
	leal	-65(%r8), %r9d
	leal	32(%r8), %r10d
	cmpb	$26, %r9b
	movzbl	%r10b, %r9d
	movzbl	%r8b, %r8d
	cmovael	%r8d, %r9d
	leal	-65(%rdx), %r10d
	movq	%r11, 400(%rsp)
	leal	32(%rdx), %r11d
	cmpb	$26, %r10b
	movzbl	%r11b, %r10d
	movq	400(%rsp), %r11
	movzbl	%dl, %edx
	cmovael	%edx, %r10d
	testb	%cl, %cl
	cmovnel	%r8d, %r9d
	cmovnel	%edx, %r10d
	cmpb	%r10b, %r9b
	jne	52f
50:
	testb	%cl, %cl
	je	54f
	cmpq	$1, %rsi
	movl	$1, %ecx
	cmovbq	%rsi, %rcx
	notq	%rcx
	addq	%rsi, %rcx
	movq	64(%rsp), %rdx
	movq	80(%rsp), %r9
	.p2align	4
51:
	movzbl	(%rdi,%rcx), %esi
	cmpb	(%rdx), %sil
	jne	57f
	decq	%rdx
	addq	$-1, %rcx
	jb	51b
	jmp	46b
52:
	movq	104(%rsp), %rax
	incq	%rax
	movq	$-1, %rcx
	cmovneq	%rax, %rcx
53:
	movq	%rcx, 104(%rsp)
	movq	88(%rsp), %r8
	movq	72(%rsp), %rdx
	movq	56(%rsp), %rcx
	movq	80(%rsp), %r9
	jmp	34b
54:
	cmpq	$1, %rsi
	movl	$1, %ecx
	cmovbq	%rsi, %rcx
	notq	%rcx
	addq	%rsi, %rcx
	movq	64(%rsp), %rdx
	jmp	56f
	.p2align	4
55:
	decq	%rdx
	addq	$-1, %rcx
	jae	46b
56:
	movzbl	(%rdi,%rcx), %r8d
	movzbl	(%rdx), %esi
	cmpb	%sil, %r8b
	je	55b
	leal	-65(%r8), %r9d
	leal	32(%r8), %r10d
	cmpb	$26, %r9b
	movzbl	%r8b, %r8d
	movzbl	%r10b, %r9d
	cmovael	%r8d, %r9d
	leal	-65(%rsi), %r8d
	leal	32(%rsi), %r10d
	cmpb	$26, %r8b
	movzbl	%sil, %esi
	movzbl	%r10b, %r8d
	cmovael	%esi, %r8d
	cmpb	%r8b, %r9b
	movq	80(%rsp), %r9
	je	55b
57:
	subq	%rcx, %rax
	addq	104(%rsp), %rax
	movq	$-1, %rcx
	cmovaeq	%rax, %rcx
	movq	%rcx, 104(%rsp)
	movq	88(%rsp), %r8
	jmp	39b
58:
	cmpq	$1, %r11
	je	60f
	testq	%r11, %r11
	jne	80f
	movq	16(%r13), %rbp
	movq	40(%r13), %rdx
59:
	addq	$64, %r13
	leaq	96(%rsp), %rax
	movq	%rax, (%rsp)
	leaq	224(%rsp), %rdi
	movq	%rdx, %rsi
	movq	%rbp, %rdx
	movq	%r13, %rcx
	movq	32(%rsp), %r8
	movq	16(%rsp), %r9
	callq	"mime_names::kept::other_kinds"
	cmpb	$0, 224(%rsp)
	jne	81f
	movzbl	232(%rsp), %r15d
	movq	240(%rsp), %rdx
	movq	248(%rsp), %r9
	movq	256(%rsp), %rbx
	cmpb	$1, 128(%rsp)
	jne	109f
	cmpq	$0, 152(%rsp)
	movl	28(%rsp), %r14d
	jne	62f
	jmp	63f
60:
	movq	(%r15), %rax
	shlq	$6, %rax
	movq	(%rbp,%rax), %rdx
	movq	8(%rbp,%rax), %r9
	xorl	%ebx, %ebx
	xorl	%r15d, %r15d
	movl	28(%rsp), %r14d
	cmpb	$1, 128(%rsp)
	jne	63f
61:
	cmpq	$0, 152(%rsp)
	je	63f
62:
	movq	136(%rsp), %rdi
	movq	%rdx, %r13
	movq	%r9, %r12
	callq	rattle_dealloc@PLT
	movq	%r12, %r9
	movq	%r13, %rdx
63:
	xorl	%esi, %esi
	xorl	%r10d, %r10d
	testb	%r15b, %r15b
	cmovneq	%rbx, %rsi
	setne	%r10b
	movl	$1, %r11d
	cmovneq	%r9, %r11
	movq	216(%rsp), %rbx
	movq	16(%rsp), %rcx
	movq	32(%rsp), %r15
64:
	movq	%r10, 272(%rsp)
	leaq	280(%rsp), %rax
	movq	%rdx, 280(%rsp)
	movq	%r9, 288(%rsp)
	movq	%rsi, 296(%rsp)
	movq	%r11, 304(%rsp)
	testq	%r10, %r10
	cmovneq	%rdx, %rax
	movl	$1, %r8d
	cmovneq	%r9, %r8
	cmpb	$2, %r14b
	movq	%r10, 32(%rsp)
	je	65f
	movzbl	%r14b, %edi
	cmpl	$1, %edi
	jne	73f
	movq	%r11, 16(%rsp)
	movq	%rdx, %rdi
	cmpq	$2, %r8
	jb	66f
	jmp	76f
65:
	movq	%r11, 16(%rsp)
	movq	%rdx, %rdi
	leaq	2(,%rcx,2), %rdx
	cmpq	%rdx, %r8
	ja	76f
66:
	testq	%r8, %r8
	je	85f
	leaq	16(%rdi), %rdx
	cmpq	$0, 32(%rsp)
	leaq	296(%rsp), %r9
	cmovneq	%rdx, %r9
	movq	%r8, %r10
	decq	%r10
	je	74f
	leaq	8(%rdi), %rdx
	cmpq	$0, 32(%rsp)
	leaq	288(%rsp), %rcx
	cmoveq	%rcx, %rdx
	movq	(%rax), %r11
	movq	(%rdx), %r14
	xorl	%r15d, %r15d
	.p2align	4
67:
	movq	%r15, %rbx
	shlq	$4, %rbx
	movq	(%r9,%rbx), %rbp
	movq	8(%r9,%rbx), %r12
	cmpq	%r14, %r12
	movq	%r14, %rdx
	cmovbq	%r12, %rdx
	xorl	%r13d, %r13d
	.p2align	4
68:
	movq	%rdx, %rbx
	subq	%r13, %rbx
	cmpq	$8, %rbx
	jb	69f
	pmovzxbw	(%r11,%r13), %xmm0
	pmovzxbw	(%rbp,%r13), %xmm1
	pcmpeqw	%xmm0, %xmm1
	packsswb	%xmm1, %xmm1
	pmovmskb	%xmm1, %ebx
	notl	%ebx
	orl	$256, %ebx
	rep		bsfl	%ebx, %ebx
	addq	%rbx, %r13
	cmpb	$7, %bl
	ja	68b
69:
	cmpq	%rdx, %r13
	jae	72f
	.p2align	4
70:
	movzbl	(%r11,%r13), %ebx
	cmpb	(%rbp,%r13), %bl
	jne	71f
	incq	%r13
	cmpq	%r13, %rdx
	jne	70b
	jmp	72f
71:
	movq	%r13, %rdx
72:
	cmpq	%r14, %rdx
	jne	85f
	cmpq	%r12, %rdx
	jne	85f
	incq	%r15
	cmpq	%r10, %r15
	jne	67b
	jmp	74f
73:
	movq	%rdx, %rdi
	cmpq	$1, %r8
	jne	76f
74:
	leaq	8(%rdi), %rcx
	movq	(%rax), %rbx
	cmpq	$0, 32(%rsp)
	leaq	288(%rsp), %rax
	cmoveq	%rax, %rcx
	movq	(%rcx), %r15
	pxor	%xmm0, %xmm0
	movdqa	%xmm0, 320(%rsp)
	je	75f
	testq	%rsi, %rsi
	je	75f
	callq	rattle_dealloc@PLT
75:
	movq	208(%rsp), %rax
	movq	$0, 6(%rax)
	movq	$0, (%rax)
	movq	%rbx, 16(%rax)
	movq	%r15, 24(%rax)
	movdqa	320(%rsp), %xmm0
	jmp	83f
76:
	movq	520(%rsp), %r12
	pxor	%xmm0, %xmm0
	movdqa	%xmm0, 224(%rsp)
	movdqa	%xmm0, 240(%rsp)
	movq	$0, 256(%rsp)
	movdqa	%xmm0, 384(%rsp)
	movdqa	%xmm0, 432(%rsp)
	movdqa	%xmm0, 160(%rsp)
	movdqa	%xmm0, 144(%rsp)
	movdqa	%xmm0, 128(%rsp)
	leaq	16(%r12), %rax
	movq	%rax, (%rsp)
	movzbl	512(%rsp), %r8d
	leaq	128(%rsp), %rdi
	movq	%rbx, %rsi
	movq	%r15, %rdx
	movq	%r12, %r9
	callq	"mime_view::cache::Cache::glob_hits"
	movzbl	136(%rsp), %ebp
	movq	144(%rsp), %rcx
	cmpb	$0, 128(%rsp)
	je	86f
	movd	138(%rsp), %xmm1
77:
	movq	%rcx, %r15
	pxor	%xmm0, %xmm0
	movdqa	%xmm0, 320(%rsp)
	movzbl	%bpl, %ebx
	movl	$1, %r14d
	xorl	%ecx, %ecx
	xorl	%r13d, %r13d
	cmpb	$1, 272(%rsp)
	jne	79f
78:
	cmpq	$0, 296(%rsp)
	je	79f
	movq	280(%rsp), %rdi
	movq	%rcx, %r12
	movdqa	%xmm1, 32(%rsp)
	callq	rattle_dealloc@PLT
	movdqa	32(%rsp), %xmm1
	movq	%r12, %rcx
79:
	movq	208(%rsp), %rax
	movq	%r14, (%rax)
	movw	%bx, 8(%rax)
	movd	%xmm1, 10(%rax)
	movq	%r15, 16(%rax)
	movq	%rcx, 24(%rax)
	movdqa	320(%rsp), %xmm0
	movdqu	%xmm0, 32(%rax)
	movq	%r13, 48(%rax)
	jmp	84f
80:
	movabsq	$576460752303423486, %rbx
	leaq	2(%rbx), %rax
	cmpq	%rax, %r11
	jae	81f
	movq	%r11, %rdi
	shlq	$4, %rdi
	movl	$8, %esi
	movq	%r11, %r14
	callq	rattle_alloc@PLT
	testb	$1, %al
	je	81f
	movq	%r14, %r9
	cmpq	$1, %r14
	jne	117f
	xorl	%eax, %eax
	movl	28(%rsp), %r14d
	jmp	119f
81:
	cmpb	$1, 128(%rsp)
	jne	82f
	cmpq	$0, 152(%rsp)
	je	82f
	movq	136(%rsp), %rdi
	callq	rattle_dealloc@PLT
82:
	movq	208(%rsp), %rax
	movq	$1, (%rax)
	movl	$7, 8(%rax)
	movw	$0, 12(%rax)
	pxor	%xmm0, %xmm0
	movdqu	%xmm0, 16(%rax)
83:
	movdqu	%xmm0, 32(%rax)
	movq	$0, 48(%rax)
84:
	addq	$456, %rsp
	popq	%rbx
	popq	%r12
	popq	%r13
	popq	%r14
	popq	%r15
	popq	%rbp
	retq
85:
	movq	16(%rsp), %r13
	cmpq	%r8, %r13
	jne	92f
	movq	%rdi, %rcx
	movq	32(%rsp), %r12
	jmp	116f
86:
	movzbl	%bpl, %r15d
	movq	168(%rsp), %rax
	movq	%rax, 16(%rsp)
	movq	%r15, 96(%rsp)
	movq	%rcx, 104(%rsp)
	movdqu	152(%rsp), %xmm0
	movdqu	%xmm0, 112(%rsp)
	movl	$1, %r13d
	testb	%r15b, %r15b
	je	87f
	movq	112(%rsp), %r13
87:
	testq	%r13, %r13
	je	100f
	movq	%rbx, 216(%rsp)
	movl	$8, %r14d
	movq	%rcx, %rax
	jmp	89f
	.p2align	4
88:
	movq	%r12, 104(%rsp)
	movq	%r15, 112(%rsp)
	movq	%r12, %rax
	addq	$16, %r14
	decq	%r13
	je	91f
89:
	movl	%ebp, %ebx
	testb	%bpl, %bpl
	movq	%rax, 32(%rsp)
	leaq	104(%rsp), %rcx
	cmoveq	%rcx, %rax
	movq	-8(%rax,%r14), %r12
	movq	(%rax,%r14), %r15
	pxor	%xmm0, %xmm0
	movdqa	%xmm0, 352(%rsp)
	movdqa	%xmm0, 336(%rsp)
	movq	216(%rsp), %rsi
	movl	20(%rsi), %edx
	leaq	336(%rsp), %rdi
	movq	%r12, %rcx
	movq	%r15, %r8
	movq	520(%rsp), %r9
	callq	"mime_view::pairs::look_up_pair"
	movzbl	344(%rsp), %ebp
	movq	352(%rsp), %rcx
	cmpb	$0, 336(%rsp)
	jne	108f
	cmpb	$1, %bpl
	jne	90f
	movq	360(%rsp), %r15
	movq	%rcx, %r12
90:
	movl	%ebx, %ebp
	testb	%bl, %bl
	je	88b
	movq	32(%rsp), %rax
	movq	%r12, -8(%rax,%r14)
	movq	%r15, (%rax,%r14)
	addq	$16, %r14
	decq	%r13
	jne	89b
91:
	movzbl	96(%rsp), %ebp
	movq	104(%rsp), %rdi
	movzbl	%bpl, %r15d
	movq	%rdi, %rcx
	movq	520(%rsp), %r12
	jmp	101f
92:
	testq	%r13, %r13
	movq	%rdi, %rcx
	movq	32(%rsp), %r12
	je	115f
	leaq	16(%rcx), %rdx
	testq	%r12, %r12
	leaq	296(%rsp), %rsi
	cmovneq	%rdx, %rsi
	movq	%r13, %r8
	decq	%r8
	je	99f
	leaq	8(%rcx), %rdx
	testq	%r12, %r12
	leaq	288(%rsp), %rdi
	cmoveq	%rdi, %rdx
	movq	(%rax), %rdi
	movq	(%rdx), %r9
	xorl	%r10d, %r10d
	.p2align	4
93:
	movq	%r10, %rdx
	shlq	$4, %rdx
	movq	(%rsi,%rdx), %r15
	movq	8(%rsi,%rdx), %r11
	cmpq	%r9, %r11
	movq	%r9, %rbx
	cmovbq	%r11, %rbx
	xorl	%edx, %edx
	.p2align	4
94:
	movq	%rbx, %r14
	subq	%rdx, %r14
	cmpq	$8, %r14
	jb	95f
	pmovzxbw	(%rdi,%rdx), %xmm0
	pmovzxbw	(%r15,%rdx), %xmm1
	pcmpeqw	%xmm0, %xmm1
	packsswb	%xmm1, %xmm1
	pmovmskb	%xmm1, %ebp
	notl	%ebp
	orl	$256, %ebp
	rep		bsfl	%ebp, %r14d
	addq	%r14, %rdx
	cmpb	$7, %r14b
	ja	94b
95:
	cmpq	%rbx, %rdx
	jae	98f
	.p2align	4
96:
	movzbl	(%rdi,%rdx), %ebp
	cmpb	(%r15,%rdx), %bpl
	jne	97f
	incq	%rdx
	cmpq	%rdx, %rbx
	jne	96b
	jmp	98f
97:
	movq	%rdx, %rbx
98:
	cmpq	%r9, %rbx
	jne	116f
	cmpq	%r11, %rbx
	jne	116f
	incq	%r10
	cmpq	%r8, %r10
	jne	93b
99:
	movl	$1, %r13d
	jmp	116f
100:
	movq	%rcx, %rdi
101:
	leaq	112(%rsp), %rax
	movdqu	(%rax), %xmm0
	movdqa	%xmm0, 384(%rsp)
	movq	%r15, 224(%rsp)
	movq	%rcx, 232(%rsp)
	movdqa	%xmm0, 240(%rsp)
	movq	16(%rsp), %r13
	movq	%r13, 256(%rsp)
	testb	%bpl, %bpl
	je	110f
	movb	%bpl, 32(%rsp)
	movq	%rcx, 64(%rsp)
	movq	240(%rsp), %rax
	testq	%rax, %rax
	je	113f
	movq	%rax, %rcx
	movq	%rdi, %rdx
	decq	%rcx
	movzbl	32(%rsp), %ebp
	je	111f
	xorl	%edx, %edx
102:
	movq	%rdx, %rsi
	shlq	$4, %rsi
	movq	(%rdi), %r10
	movq	8(%rdi), %r8
	movq	16(%rdi,%rsi), %r11
	movq	24(%rdi,%rsi), %rsi
	cmpq	%r8, %rsi
	movq	%r8, %r9
	cmovbq	%rsi, %r9
	xorl	%ebx, %ebx
	.p2align	4
103:
	movq	%r9, %r14
	subq	%rbx, %r14
	cmpq	$8, %r14
	jb	104f
	pmovzxbw	(%r10,%rbx), %xmm0
	pmovzxbw	(%r11,%rbx), %xmm1
	pcmpeqw	%xmm0, %xmm1
	packsswb	%xmm1, %xmm1
	pmovmskb	%xmm1, %ebp
	notl	%ebp
	orl	$256, %ebp
	rep		bsfl	%ebp, %r14d
	addq	%r14, %rbx
	cmpb	$7, %r14b
	ja	103b
104:
	cmpq	%r9, %rbx
	jae	107f
	.p2align	4
105:
	movzbl	(%r10,%rbx), %ebp
	cmpb	(%r11,%rbx), %bpl
	jne	106f
	incq	%rbx
	cmpq	%rbx, %r9
	jne	105b
	jmp	107f
106:
	movq	%rbx, %r9
107:
	leaq	1(%r9), %r10
	addq	8(%r12), %r10
	movq	$-1, %r11
	cmovaeq	%r10, %r11
	movq	%r11, 8(%r12)
	cmpq	%r8, %r9
	jne	113f
	cmpq	%rsi, %r9
	jne	113f
	incq	%rdx
	cmpq	%rcx, %rdx
	jne	102b
	movq	%rdi, %rdx
	movzbl	32(%rsp), %ebp
	jmp	111f
108:
	movd	346(%rsp), %xmm1
	cmpb	$1, %bl
	jne	77b
	cmpq	$0, 120(%rsp)
	je	77b
	movq	104(%rsp), %rdi
	movq	%rcx, %rbx
	movdqa	%xmm1, 32(%rsp)
	callq	rattle_dealloc@PLT
	movdqa	32(%rsp), %xmm1
	movq	%rbx, %rcx
	jmp	77b
109:
	movl	28(%rsp), %r14d
	jmp	63b
110:
	leaq	232(%rsp), %rdx
111:
	movq	(%rdx), %r15
	movq	8(%rdx), %rcx
	cmpb	$1, %bpl
	jne	112f
	cmpq	$0, 248(%rsp)
	je	112f
	movq	%rcx, %rbx
	callq	rattle_dealloc@PLT
	movq	%rbx, %rcx
112:
	movdqa	432(%rsp), %xmm0
	movdqa	%xmm0, 320(%rsp)
	pxor	%xmm1, %xmm1
	xorl	%r14d, %r14d
	xorl	%ebx, %ebx
	xorl	%r13d, %r13d
	cmpb	$1, 272(%rsp)
	je	78b
	jmp	79b
113:
	cmpq	%rax, %r13
	jne	121f
114:
	movq	64(%rsp), %rcx
	jmp	130f
115:
	xorl	%r13d, %r13d
116:
	movq	208(%rsp), %rdx
	movq	$0, (%rdx)
	movl	$1, 8(%rdx)
	movw	$0, 12(%rdx)
	movq	%r12, 16(%rdx)
	movq	%rcx, 24(%rdx)
	leaq	288(%rsp), %rax
	movdqu	(%rax), %xmm0
	movdqu	%xmm0, 32(%rdx)
	movq	%r13, 48(%rdx)
	jmp	84b
117:
	andq	%r9, %rbx
	leaq	24(%rdx), %rcx
	xorl	%eax, %eax
	movl	28(%rsp), %r14d
	.p2align	4
118:
	movq	(%r15,%rax,8), %rsi
	shlq	$6, %rsi
	movups	(%rbp,%rsi), %xmm0
	movups	%xmm0, -24(%rcx)
	movq	8(%r15,%rax,8), %rsi
	shlq	$6, %rsi
	movdqu	(%rbp,%rsi), %xmm0
	movdqu	%xmm0, -8(%rcx)
	addq	$2, %rax
	addq	$32, %rcx
	cmpq	%rax, %rbx
	jne	118b
	testb	$1, %r9b
	je	120f
119:
	movq	(%r15,%rax,8), %rcx
	shlq	$6, %rcx
	movdqu	(%rbp,%rcx), %xmm0
	shlq	$4, %rax
	movdqu	%xmm0, (%rdx,%rax)
120:
	movb	$1, %r15b
	movq	%r9, %rbx
	cmpb	$1, 128(%rsp)
	je	61b
	jmp	63b
121:
	testq	%r13, %r13
	movq	64(%rsp), %rcx
	je	128f
	movq	%r13, %rax
	decq	%rax
	je	129f
	xorl	%ecx, %ecx
122:
	movq	%rcx, %rdx
	shlq	$4, %rdx
	movq	(%rdi), %r9
	movq	8(%rdi), %rsi
	movq	16(%rdi,%rdx), %r10
	movq	24(%rdi,%rdx), %rdx
	cmpq	%rsi, %rdx
	movq	%rsi, %r8
	cmovbq	%rdx, %r8
	xorl	%r11d, %r11d
	.p2align	4
123:
	movq	%r8, %rbx
	subq	%r11, %rbx
	cmpq	$8, %rbx
	jb	124f
	pmovzxbw	(%r9,%r11), %xmm0
	pmovzxbw	(%r10,%r11), %xmm1
	pcmpeqw	%xmm0, %xmm1
	packsswb	%xmm1, %xmm1
	pmovmskb	%xmm1, %ebx
	notl	%ebx
	orl	$256, %ebx
	rep		bsfl	%ebx, %ebx
	addq	%rbx, %r11
	cmpb	$7, %bl
	ja	123b
124:
	cmpq	%r8, %r11
	jae	127f
	.p2align	4
125:
	movzbl	(%r9,%r11), %ebx
	cmpb	(%r10,%r11), %bl
	jne	126f
	incq	%r11
	cmpq	%r11, %r8
	jne	125b
	jmp	127f
126:
	movq	%r11, %r8
127:
	leaq	1(%r8), %r9
	addq	8(%r12), %r9
	movq	$-1, %r10
	cmovaeq	%r9, %r10
	movq	%r10, 8(%r12)
	cmpq	%rsi, %r8
	jne	114b
	cmpq	%rdx, %r8
	jne	114b
	incq	%rcx
	cmpq	%rax, %rcx
	jne	122b
	movl	$1, %r13d
	jmp	114b
128:
	xorl	%r13d, %r13d
	jmp	130f
129:
	movl	$1, %r13d
130:
	movdqa	384(%rsp), %xmm0
	movdqa	%xmm0, 320(%rsp)
	pxor	%xmm1, %xmm1
	movw	$1, %bx
	xorl	%r14d, %r14d
	cmpb	$1, 272(%rsp)
	je	78b
	jmp	79b
131:
	.size	"mime_lookup::read_back::name_types::types_of", 131b-"mime_lookup::read_back::name_types::types_of"

	.section	.rodata.cst16,"aM",@progbits,16
	.p2align	4, 0x0
1:
	.byte	42,42,42,42,42,42,42,42
	.zero	1
	.zero	1
	.zero	1
	.zero	1
	.zero	1
	.zero	1
	.zero	1
	.zero	1
2:
	.byte	63,63,63,63,63,63,63,63
	.zero	1
	.zero	1
	.zero	1
	.zero	1
	.zero	1
	.zero	1
	.zero	1
	.zero	1
3:
	.byte	92,92,92,92,92,92,92,92
	.zero	1
	.zero	1
	.zero	1
	.zero	1
	.zero	1
	.zero	1
	.zero	1
	.zero	1
4:
	.byte	91,91,91,91,91,91,91,91
	.zero	1
	.zero	1
	.zero	1
	.zero	1
	.zero	1
	.zero	1
	.zero	1
	.zero	1
	.text
	.p2align	4
	.type	"mime_lookup::read_back::rules::with_rules",@function
"mime_lookup::read_back::rules::with_rules":
	pushq	%rbp
	pushq	%r15
	pushq	%r14
	pushq	%r13
	pushq	%r12
	pushq	%rbx
	subq	$248, %rsp
	movq	%r8, 128(%rsp)
	movq	%rdx, 104(%rsp)
	movq	%rdi, 96(%rsp)
	movq	16(%rsi), %rax
	movq	%rax, 80(%rsp)
	movups	(%rsi), %xmm0
	movaps	%xmm0, 64(%rsp)
	movq	24(%rsi), %rax
	movq	%rax, 56(%rsp)
	movq	40(%rsi), %rax
	movq	%rax, 112(%rsp)
	movdqu	32(%rsi), %xmm0
	movdqa	%xmm0, 144(%rsp)
	pxor	%xmm0, %xmm0
	movdqu	%xmm0, 191(%rsp)
	movdqa	%xmm0, 176(%rsp)
	movq	%rcx, 120(%rsp)
	testq	%rcx, %rcx
	je	21f
	xorl	%eax, %eax
	jmp	7f
5:
	movq	16(%rsp), %r12
	movq	24(%rsp), %rbx
	movq	%rbx, %r13
	shlq	$6, %r13
	movl	%r15d, %r8d
	movq	48(%rsp), %r9
	movq	40(%rsp), %r10
	movl	12(%rsp), %r11d
	movl	8(%rsp), %edx
	movl	4(%rsp), %ecx
	.p2align	4
6:
	movq	%r9, (%r12,%r13)
	movq	%r10, 8(%r12,%r13)
	movdqa	160(%rsp), %xmm0
	movdqu	%xmm0, 16(%r12,%r13)
	movq	$0, 32(%r12,%r13)
	movq	%rbp, 40(%r12,%r13)
	movq	%r14, 48(%r12,%r13)
	movl	%edx, 56(%r12,%r13)
	movzbl	3(%rsp), %eax
	movb	%al, 60(%r12,%r13)
	movb	%r8b, 61(%r12,%r13)
	movb	%r11b, 62(%r12,%r13)
	movb	%cl, 63(%r12,%r13)
	incq	%rbx
	movq	%rbx, 24(%rsp)
	movq	32(%rsp), %rax
	leaq	215(%rsp), %rcx
	movq	%rax, 16(%rcx)
	movq	16(%rsp), %rax
	movq	%rax, (%rcx)
	movq	24(%rsp), %rax
	movq	%rax, 8(%rcx)
	movq	16(%rcx), %rax
	leaq	183(%rsp), %rdx
	movq	%rax, 16(%rdx)
	movq	(%rcx), %rax
	movq	%rax, (%rdx)
	movq	8(%rcx), %rax
	movq	%rax, 8(%rdx)
	movq	(%rdx), %rax
	movq	%rax, 64(%rsp)
	movq	8(%rdx), %rax
	movq	%rax, 72(%rsp)
	movq	16(%rdx), %rax
	movq	%rax, 80(%rsp)
	movq	136(%rsp), %rax
	incq	%rax
	cmpq	120(%rsp), %rax
	je	21f
7:
	movq	%rax, 136(%rsp)
	leaq	(%rax,%rax,2), %r15
	shlq	$4, %r15
	movq	104(%rsp), %rbx
	movzbl	(%rbx,%r15), %r12d
	movq	8(%rbx,%r15), %rsi
	movq	16(%rbx,%r15), %rdx
	movq	128(%rsp), %rdi
	callq	"mime_lookup::read_back::targets::target_of"
	movq	%rax, %r9
	movq	%rdx, %r10
	movq	24(%rbx,%r15), %rbp
	movq	32(%rbx,%r15), %r14
	movzbl	40(%rbx,%r15), %r8d
	pxor	%xmm0, %xmm0
	movdqu	%xmm0, 223(%rsp)
	movdqa	%xmm0, 208(%rsp)
	movabsq	$1688849862361089, %rax
	testq	%r14, %r14
	je	11f
	cmpb	$42, (%rbp)
	jne	10f
	leaq	-1(%r14), %rcx
	cmpq	$8, %rcx
	jb	8f
	movq	1(%rbp), %xmm0
	movdqa	1b(%rip), %xmm1
	pcmpeqb	%xmm0, %xmm1
	movdqa	2b(%rip), %xmm2
	pcmpeqb	%xmm0, %xmm2
	por	%xmm1, %xmm2
	movdqa	3b(%rip), %xmm1
	pcmpeqb	%xmm0, %xmm1
	pcmpeqb	4b(%rip), %xmm0
	por	%xmm1, %xmm0
	por	%xmm2, %xmm0
	pmovmskb	%xmm0, %ecx
	movb	$2, %r11b
	testb	%cl, %cl
	jne	14f
8:
	movl	$1, %ecx
	.p2align	4
9:
	cmpq	%rcx, %r14
	je	20f
	movzbl	(%rbp,%rcx), %edx
	incq	%rcx
	addl	$-42, %edx
	cmpl	$50, %edx
	ja	9b
	btq	%rdx, %rax
	jae	9b
	jmp	13f
	.p2align	4
10:
	cmpq	$8, %r14
	jb	11f
	movq	(%rbp), %xmm0
	movdqa	1b(%rip), %xmm1
	pcmpeqb	%xmm0, %xmm1
	movdqa	2b(%rip), %xmm2
	pcmpeqb	%xmm0, %xmm2
	por	%xmm1, %xmm2
	movdqa	3b(%rip), %xmm1
	pcmpeqb	%xmm0, %xmm1
	pcmpeqb	4b(%rip), %xmm0
	por	%xmm1, %xmm0
	por	%xmm2, %xmm0
	pmovmskb	%xmm0, %ecx
	movb	$2, %r11b
	testb	%cl, %cl
	jne	14f
	.p2align	4
11:
	xorl	%ecx, %ecx
	.p2align	4
12:
	cmpq	%rcx, %r14
	je	16f
	movzbl	(%rbp,%rcx), %edx
	incq	%rcx
	addl	$-42, %edx
	cmpl	$50, %edx
	ja	12b
	btq	%rdx, %rax
	jae	12b
13:
	movb	$2, %r11b
14:
	movb	%r12b, 3(%rsp)
	movzbl	%r12b, %eax
	movzbl	%r8b, %ecx
	movaps	64(%rsp), %xmm0
	movaps	%xmm0, 16(%rsp)
	movq	80(%rsp), %rdx
	movq	%rdx, 32(%rsp)
	movq	16(%rsp), %r12
	movq	24(%rsp), %rbx
	movl	%r11d, %edx
	negb	%dl
	movzbl	%dl, %edx
	shll	$25, %edx
	shll	$17, %eax
	orl	%ecx, %eax
	movzwl	%r14w, %ecx
	leal	(%rax,%rcx,2), %eax
	addl	%eax, %edx
	addl	$67108864, %edx
	movq	%rbx, %r13
	shlq	$6, %r13
	testq	%rbx, %rbx
	je	18f
	cmpl	%edx, -8(%r12,%r13)
	jne	18f
	cmpb	-3(%r12,%r13), %r8b
	jne	18f
	movq	-24(%r12,%r13), %rax
	movq	-16(%r12,%r13), %rsi
	cmpb	$0, -32(%r12,%r13)
	movq	56(%rsp), %rcx
	leaq	(%rcx,%rax), %rdi
	cmoveq	%rax, %rdi
	testq	%rsi, %rsi
	je	17f
	testq	%r14, %r14
	je	18f
	movzbl	-1(%rdi,%rsi), %eax
	cmpb	-1(%rbp,%r14), %al
	jne	18f
15:
	movl	%edx, 8(%rsp)
	movq	%rbp, %rdx
	movq	%r14, %rcx
	movb	%r8b, 4(%rsp)
	movq	%r9, 48(%rsp)
	movq	%r10, 40(%rsp)
	movl	%r11d, 12(%rsp)
	callq	"mime_names::indexed_rules::is_equal"
	movl	8(%rsp), %edx
	movl	12(%rsp), %r11d
	movq	40(%rsp), %r10
	movq	48(%rsp), %r9
	movzbl	4(%rsp), %r8d
	movl	%eax, %ecx
	jmp	19f
16:
	xorl	%r11d, %r11d
	jmp	14b
17:
	testq	%r14, %r14
	je	15b
	.p2align	4
18:
	xorl	%ecx, %ecx
19:
	movq	104(%rsp), %rax
	addq	%r15, %rax
	addq	$8, %rax
	movups	(%rax), %xmm0
	movaps	%xmm0, 160(%rsp)
	cmpq	%rbx, 32(%rsp)
	jne	6b
	movl	%ecx, 4(%rsp)
	movl	%edx, 8(%rsp)
	movl	%r11d, 12(%rsp)
	movq	%r10, 40(%rsp)
	movq	%r9, 48(%rsp)
	movl	%r8d, %r15d
	leaq	16(%rsp), %rdi
	callq	"std_alloc::vec::Vec::grow_amortized::<#1a30988f8987f99f>"
	testb	%al, %al
	jne	5b
	jmp	23f
20:
	movb	$1, %r11b
	jmp	14b
21:
	movq	96(%rsp), %rcx
	movb	$0, (%rcx)
	movq	64(%rsp), %rax
	movq	%rax, 8(%rcx)
	movq	72(%rsp), %rax
	movq	%rax, 16(%rcx)
	movq	80(%rsp), %rax
	movq	%rax, 24(%rcx)
	movq	56(%rsp), %rax
	movq	%rax, 32(%rcx)
	movdqa	144(%rsp), %xmm0
	movdqu	%xmm0, 40(%rcx)
22:
	addq	$248, %rsp
	popq	%rbx
	popq	%r12
	popq	%r13
	popq	%r14
	popq	%r15
	popq	%rbp
	retq
23:
	cmpq	$0, 112(%rsp)
	je	24f
	movq	56(%rsp), %rdi
	callq	rattle_dealloc@PLT
24:
	cmpq	$0, 32(%rsp)
	je	25f
	movq	16(%rsp), %rdi
	callq	rattle_dealloc@PLT
25:
	movq	96(%rsp), %rax
	movb	$1, (%rax)
	xorps	%xmm0, %xmm0
	movups	%xmm0, 8(%rax)
	movups	%xmm0, 24(%rax)
	movups	%xmm0, 40(%rax)
	jmp	22b
26:
	.size	"mime_lookup::read_back::rules::with_rules", 26b-"mime_lookup::read_back::rules::with_rules"

	.text
	.p2align	4
	.type	"mime_lookup::read_back::targets::target_of",@function
"mime_lookup::read_back::targets::target_of":
	pushq	%r15
	pushq	%r14
	pushq	%r13
	pushq	%r12
	pushq	%rbx
	subq	$32, %rsp
	movq	%rsi, %rax
	xorps	%xmm0, %xmm0
	movaps	%xmm0, (%rsp)
	movq	$0, 16(%rsp)
	cmpq	$8, %rdx
	jb	1f
	movq	%rdx, %rcx
	shrq	%rcx
	movq	-4(%rax,%rcx), %rcx
	leaq	(%rcx,%rcx,2), %rsi
	addq	-8(%rax,%rdx), %rsi
	movabsq	$-4658895280553007687, %rcx
	imulq	%rsi, %rcx
	shrq	$49, %rcx
	andl	$-2, %ecx
	movq	(%rdi), %rsi
	movzwl	(%rsi,%rcx), %ecx
	cmpq	%rcx, 32(%rdi)
	ja	2f
	jmp	8f
1:
	xorl	%ecx, %ecx
	movq	(%rdi), %rsi
	movzwl	(%rsi,%rcx), %ecx
	cmpq	%rcx, 32(%rdi)
	jbe	8f
2:
	movq	24(%rdi), %rbx
	shll	$3, %ecx
	leaq	(%rcx,%rcx,4), %r14
	cmpq	%rdx, 8(%rbx,%r14)
	jne	7f
	movq	(%rbx,%r14), %rcx
	cmpq	$4, %rdx
	jae	3f
	testq	%rdx, %rdx
	je	4f
	movzbl	(%rcx), %esi
	cmpb	(%rax), %sil
	jne	5f
	cmpq	$1, %rdx
	je	4f
	movzbl	1(%rcx), %r8d
	movl	$1, %esi
	cmpb	1(%rax), %r8b
	jne	6f
	cmpq	$2, %rdx
	je	4f
	movzbl	2(%rcx), %ecx
	movl	$2, %esi
	cmpb	2(%rax), %cl
	je	4f
	jmp	6f
3:
	movl	(%rcx), %esi
	cmpl	(%rax), %esi
	jne	7f
	movq	%rdi, %r15
	movq	%rcx, %rdi
	movq	%rdx, %rsi
	movq	%rdx, %r13
	movq	%rax, %rdx
	movq	%rax, %r12
	callq	"core::cmp::slices::groups_equal::<i8,31'core::cmp::numbers::U8PartialEq{}>"
	movq	%r15, %rdi
	movq	%r13, %rdx
	movl	%eax, %ecx
	movq	%r12, %rax
	testb	%cl, %cl
	je	7f
4:
	movq	16(%rbx,%r14), %rax
	movq	24(%rbx,%r14), %rdx
	jmp	8f
5:
	xorl	%esi, %esi
6:
	cmpq	%rdx, %rsi
	jae	4b
7:
	cmpb	$0, 32(%rbx,%r14)
	je	8f
	movq	%rsp, %rcx
	movq	%rdi, %rsi
	movq	%rcx, %rdi
	movq	%rdx, %rbx
	movq	%rax, %rdx
	movq	%rbx, %rcx
	movq	%rax, %r14
	callq	"mime_lookup::name_map::other_value::<#643ceef07a9c3c2a>"
	movq	%rbx, %rdx
	movq	%r14, %rax
	cmpb	$1, (%rsp)
	jne	8f
	movq	8(%rsp), %rax
	movq	16(%rsp), %rdx
8:
	addq	$32, %rsp
	popq	%rbx
	popq	%r12
	popq	%r13
	popq	%r14
	popq	%r15
	retq
9:
	.size	"mime_lookup::read_back::targets::target_of", 9b-"mime_lookup::read_back::targets::target_of"

	.text
	.p2align	4
	.type	"mime_lookup::reading::read_front::<#2cfdb7cb3bb0800e>",@function
"mime_lookup::reading::read_front::<#2cfdb7cb3bb0800e>":
	pushq	%rbp
	pushq	%r15
	pushq	%r14
	pushq	%r13
	pushq	%r12
	pushq	%rbx
	subq	$3072, %rsp
	movq	$0, (%rsp)
	subq	$1128, %rsp
	movq	%rcx, 88(%rsp)
	movq	%rdx, %r14
	movq	%rsi, %r12
	movq	%rdi, 8(%rsp)
	xorps	%xmm0, %xmm0
	movups	%xmm0, 32(%rsp)
	leaq	7(%rsp), %rbx
	movq	%rbx, 24(%rsp)
	leaq	104(%rsp), %rdi
	movl	$4096, %edx
	xorl	%esi, %esi
	callq	memset@PLT
	testq	%r14, %r14
	je	24f
	movq	%rbx, 16(%rsp)
	cmpq	$65536, %r14
	movl	$65536, %eax
	cmovbq	%r14, %rax
	movq	%rax, 72(%rsp)
	movl	$1000, %ebx
	xorl	%r13d, %r13d
	xorl	%ebp, %ebp
	xorl	%r15d, %r15d
	movq	$0, 64(%rsp)
	xorl	%edx, %edx
	movq	%r14, 80(%rsp)
1:
	movq	%r14, %rax
	movq	%rdx, 96(%rsp)
	subq	%rdx, %rax
	cmpq	$4096, %rax
	movl	$4096, %r14d
	cmovbq	%rax, %r14
	xorps	%xmm0, %xmm0
	movaps	%xmm0, 48(%rsp)
	movb	$1, 4(%r12)
	movl	(%r12), %esi
	leaq	48(%rsp), %rdi
	leaq	104(%rsp), %rdx
	movq	%r14, %rcx
	callq	"mime_lookup::content::UntoldContent::read_piece::<13'std::fs::File,17'std::fs::FileRead{}>"
	cmpb	$0, 48(%rsp)
	je	3f
	movzbl	49(%rsp), %eax
	.p2align	4
2:
	cmpb	$1, %al
	je	21f
	testl	%ebx, %ebx
	je	21f
	decl	%ebx
	xorps	%xmm0, %xmm0
	movaps	%xmm0, 48(%rsp)
	movb	$1, 4(%r12)
	movl	(%r12), %esi
	leaq	48(%rsp), %rdi
	leaq	104(%rsp), %rdx
	movq	%r14, %rcx
	callq	"mime_lookup::content::UntoldContent::read_piece::<13'std::fs::File,17'std::fs::FileRead{}>"
	movzbl	49(%rsp), %eax
	cmpb	$0, 48(%rsp)
	jne	2b
3:
	movq	56(%rsp), %r14
	testq	%r14, %r14
	movq	96(%rsp), %rcx
	je	27f
	movq	88(%rsp), %rax
	addq	%r14, (%rax)
	movq	%r14, %rax
	xorq	$4096, %rax
	movq	40(%rsp), %r8
	orq	%rcx, %rax
	jne	4f
	cmpq	%r8, 72(%rsp)
	leaq	104(%rsp), %rbp
	ja	20f
	xorl	%ecx, %ecx
	jmp	5f
	.p2align	4
4:
	leaq	104(%rsp), %rbp
5:
	movq	%r8, %rax
	subq	%rcx, %rax
	movq	%rcx, %r13
	cmpq	%rax, %r14
	ja	19f
6:
	movq	24(%rsp), %r15
	leaq	(%r15,%r13), %rdi
	movq	%rdi, %rax
	subq	%rbp, %rax
	cmpq	%r14, %rax
	jae	12f
	cmpq	$4, %r14
	jb	7f
	movq	%r13, %rax
	subq	%rbp, %rax
	addq	%r15, %rax
	cmpq	$32, %rax
	jae	14f
7:
	xorl	%eax, %eax
8:
	movq	%r14, %rdx
	movq	%rax, %rcx
	andq	$3, %rdx
	je	10f
	movq	%rax, %rcx
	.p2align	4
9:
	movzbl	104(%rsp,%rcx), %esi
	movb	%sil, (%rdi,%rcx)
	incq	%rcx
	decq	%rdx
	jne	9b
10:
	subq	%r14, %rax
	cmpq	$-4, %rax
	ja	13f
	leaq	(%r15,%r13), %rax
	addq	$3, %rax
	.p2align	4
11:
	movzbl	104(%rsp,%rcx), %edx
	movb	%dl, -3(%rax,%rcx)
	movzbl	105(%rsp,%rcx), %edx
	movb	%dl, -2(%rax,%rcx)
	movzbl	106(%rsp,%rcx), %edx
	movb	%dl, -1(%rax,%rcx)
	movzbl	107(%rsp,%rcx), %edx
	movb	%dl, (%rax,%rcx)
	addq	$4, %rcx
	cmpq	%rcx, %r14
	jne	11b
	jmp	13f
	.p2align	4
12:
	leaq	104(%rsp), %rsi
	movq	%r14, %rdx
	movq	%r8, %rbp
	callq	memmove@PLT
	movq	%rbp, %r8
13:
	movq	%r15, 16(%rsp)
	addq	%r14, %r13
	movq	%r13, 32(%rsp)
	movq	%r8, 40(%rsp)
	movl	%r13d, %r15d
	shrl	$16, %r15d
	movq	%r13, %rax
	movq	%r13, %rbp
	shrq	$32, %rbp
	shrq	$48, %r13
	movq	%rax, %rdx
	movq	80(%rsp), %r14
	movq	%rax, 64(%rsp)
	cmpq	%r14, %rax
	jb	1b
	jmp	25f
14:
	cmpq	$32, %r14
	jae	15f
	xorl	%eax, %eax
	jmp	17f
15:
	movq	%r14, %rax
	andq	$-32, %rax
	leaq	(%r15,%r13), %rcx
	addq	$16, %rcx
	xorl	%edx, %edx
	.p2align	4
16:
	movups	104(%rsp,%rdx), %xmm0
	movups	120(%rsp,%rdx), %xmm1
	movups	%xmm0, -16(%rcx,%rdx)
	movups	%xmm1, (%rcx,%rdx)
	addq	$32, %rdx
	cmpq	%rdx, %rax
	jne	16b
	cmpq	%rax, %r14
	je	13b
	testb	$28, %r14b
	je	8b
17:
	movq	%rax, %rcx
	movq	%r14, %rax
	andq	$-4, %rax
	.p2align	4
18:
	movl	104(%rsp,%rcx), %edx
	movl	%edx, (%rdi,%rcx)
	addq	$4, %rcx
	cmpq	%rcx, %rax
	jne	18b
	cmpq	%rax, %r14
	je	13b
	jmp	8b
19:
	leaq	24(%rsp), %rdi
	movq	%r14, %rsi
	callq	"std_alloc::vec::Vec::grow_amortized::<#06f9579a8fe94b13>"
	testb	%al, %al
	je	28f
	movq	32(%rsp), %r13
	movq	40(%rsp), %r8
	jmp	6b
20:
	leaq	24(%rsp), %rdi
	movq	72(%rsp), %rsi
	callq	"std_alloc::vec::Vec::grow_amortized::<#06f9579a8fe94b13>"
	movq	40(%rsp), %r8
	testb	%al, %al
	je	31f
	movq	32(%rsp), %rcx
	jmp	5b
21:
	cmpq	$0, 40(%rsp)
	je	22f
	movq	16(%rsp), %rdi
	callq	rattle_dealloc@PLT
22:
	movq	8(%rsp), %rax
	movq	$1, (%rax)
	movq	$2, 8(%rax)
23:
	xorps	%xmm0, %xmm0
	movups	%xmm0, 16(%rax)
	jmp	26f
24:
	leaq	7(%rsp), %rax
	movq	%rax, 16(%rsp)
	movq	40(%rsp), %r8
	xorl	%r13d, %r13d
	xorl	%ebp, %ebp
	xorl	%r15d, %r15d
	movq	$0, 64(%rsp)
25:
	movq	8(%rsp), %rax
	movq	$0, (%rax)
	movq	16(%rsp), %rcx
	movq	%rcx, 8(%rax)
	movq	64(%rsp), %rcx
	movw	%cx, 16(%rax)
	movw	%r15w, 18(%rax)
	movw	%bp, 20(%rax)
	movw	%r13w, 22(%rax)
	movq	%r8, 24(%rax)
26:
	addq	$4200, %rsp
	popq	%rbx
	popq	%r12
	popq	%r13
	popq	%r14
	popq	%r15
	popq	%rbp
	retq
27:
	movq	40(%rsp), %rax
	movq	8(%rsp), %rcx
	movq	$0, (%rcx)
	movq	16(%rsp), %rdx
	movq	%rdx, 8(%rcx)
	movq	64(%rsp), %rdx
	movw	%dx, 16(%rcx)
	movw	%r15w, 18(%rcx)
	movw	%bp, 20(%rcx)
	movw	%r13w, 22(%rcx)
	movq	%rax, 24(%rcx)
	jmp	26b
28:
	cmpq	$0, 40(%rsp)
	je	30f
29:
	movq	24(%rsp), %rdi
	callq	rattle_dealloc@PLT
30:
	movq	8(%rsp), %rax
	movq	$1, (%rax)
	movq	$3, 8(%rax)
	jmp	23b
31:
	testq	%r8, %r8
	jne	29b
	jmp	30b
32:
	.size	"mime_lookup::reading::read_front::<#2cfdb7cb3bb0800e>", 32b-"mime_lookup::reading::read_front::<#2cfdb7cb3bb0800e>"

	.text
	.p2align	4
	.type	"mime_lookup::reading::read_front::<#a8511e052651c5eb>",@function
"mime_lookup::reading::read_front::<#a8511e052651c5eb>":
	pushq	%rbp
	pushq	%r15
	pushq	%r14
	pushq	%r13
	pushq	%r12
	pushq	%rbx
	subq	$3072, %rsp
	movq	$0, (%rsp)
	subq	$1128, %rsp
	movq	%rdx, 96(%rsp)
	movq	%rsi, %rbp
	movq	%rdi, 8(%rsp)
	xorps	%xmm0, %xmm0
	movups	%xmm0, 32(%rsp)
	leaq	7(%rsp), %rbx
	movq	%rbx, 24(%rsp)
	leaq	104(%rsp), %rdi
	movl	$4096, %edx
	xorl	%esi, %esi
	callq	memset@PLT
	testq	%rbp, %rbp
	je	23f
	movq	%rbx, 16(%rsp)
	cmpq	$65536, %rbp
	movl	$65536, %eax
	cmovbq	%rbp, %rax
	movq	%rax, 72(%rsp)
	movl	$1000, %r12d
	xorl	%ebx, %ebx
	xorl	%r15d, %r15d
	xorl	%r13d, %r13d
	xorl	%r8d, %r8d
	xorl	%r14d, %r14d
	movq	%rbp, 80(%rsp)
1:
	movq	%r8, 88(%rsp)
	movq	%rbp, %rax
	subq	%r14, %rax
	cmpq	$4096, %rax
	movl	$4096, %ebp
	cmovbq	%rax, %rbp
	xorps	%xmm0, %xmm0
	movaps	%xmm0, 48(%rsp)
	.p2align	4
2:
	leaq	48(%rsp), %rdi
	leaq	104(%rsp), %rsi
	movq	%rbp, %rdx
	callq	"mime_lookup::content::UntoldContent::read_piece::<#f1288b38c1c1b0eb>"
	cmpb	$0, 48(%rsp)
	je	3f
	cmpb	$1, 49(%rsp)
	je	20f
	testl	%r12d, %r12d
	je	20f
	decl	%r12d
	jmp	2b
	.p2align	4
3:
	movq	56(%rsp), %rbp
	testq	%rbp, %rbp
	je	26f
	movq	96(%rsp), %rax
	addq	%rbp, (%rax)
	movq	%rbp, %rax
	xorq	$4096, %rax
	movq	40(%rsp), %r9
	orq	%r14, %rax
	jne	4f
	cmpq	%r9, 72(%rsp)
	ja	19f
	xorl	%r14d, %r14d
4:
	movq	%r9, %rax
	subq	%r14, %rax
	movq	%r14, %r8
	cmpq	%rax, %rbp
	leaq	104(%rsp), %r14
	ja	18f
5:
	movq	24(%rsp), %rbx
	leaq	(%rbx,%r8), %rdi
	movq	%rdi, %rax
	subq	%r14, %rax
	cmpq	%rbp, %rax
	jae	11f
	cmpq	$4, %rbp
	jb	6f
	movq	%r8, %rax
	subq	%r14, %rax
	addq	%rbx, %rax
	cmpq	$32, %rax
	jae	13f
6:
	xorl	%eax, %eax
7:
	movq	%rbp, %rdx
	movq	%rax, %rcx
	andq	$3, %rdx
	je	9f
	movq	%rax, %rcx
	.p2align	4
8:
	movzbl	104(%rsp,%rcx), %esi
	movb	%sil, (%rdi,%rcx)
	incq	%rcx
	decq	%rdx
	jne	8b
9:
	subq	%rbp, %rax
	cmpq	$-4, %rax
	ja	12f
	leaq	(%rbx,%r8), %rax
	addq	$3, %rax
	.p2align	4
10:
	movzbl	104(%rsp,%rcx), %edx
	movb	%dl, -3(%rax,%rcx)
	movzbl	105(%rsp,%rcx), %edx
	movb	%dl, -2(%rax,%rcx)
	movzbl	106(%rsp,%rcx), %edx
	movb	%dl, -1(%rax,%rcx)
	movzbl	107(%rsp,%rcx), %edx
	movb	%dl, (%rax,%rcx)
	addq	$4, %rcx
	cmpq	%rcx, %rbp
	jne	10b
	jmp	12f
	.p2align	4
11:
	leaq	104(%rsp), %rsi
	movq	%rbp, %rdx
	movq	%r8, %r14
	movq	%r9, %r15
	callq	memmove@PLT
	movq	%r15, %r9
	movq	%r14, %r8
12:
	movq	%rbx, 16(%rsp)
	addq	%rbp, %r8
	movq	%r8, 32(%rsp)
	movq	%r9, 40(%rsp)
	movl	%r8d, %r13d
	shrl	$16, %r13d
	movq	%r8, %r15
	shrq	$32, %r15
	movq	%r8, %rbx
	shrq	$48, %rbx
	movq	%r8, %r14
	movq	80(%rsp), %rbp
	cmpq	%rbp, %r8
	jb	1b
	jmp	24f
13:
	cmpq	$32, %rbp
	jae	14f
	xorl	%eax, %eax
	jmp	16f
14:
	movq	%rbp, %rax
	andq	$-32, %rax
	leaq	(%rbx,%r8), %rcx
	addq	$16, %rcx
	xorl	%edx, %edx
	.p2align	4
15:
	movups	104(%rsp,%rdx), %xmm0
	movups	120(%rsp,%rdx), %xmm1
	movups	%xmm0, -16(%rcx,%rdx)
	movups	%xmm1, (%rcx,%rdx)
	addq	$32, %rdx
	cmpq	%rdx, %rax
	jne	15b
	cmpq	%rax, %rbp
	je	12b
	testb	$28, %bpl
	je	7b
16:
	movq	%rax, %rcx
	movq	%rbp, %rax
	andq	$-4, %rax
	.p2align	4
17:
	movl	104(%rsp,%rcx), %edx
	movl	%edx, (%rdi,%rcx)
	addq	$4, %rcx
	cmpq	%rcx, %rax
	jne	17b
	cmpq	%rax, %rbp
	je	12b
	jmp	7b
18:
	leaq	24(%rsp), %rdi
	movq	%rbp, %rsi
	callq	"std_alloc::vec::Vec::grow_amortized::<#06f9579a8fe94b13>"
	testb	%al, %al
	je	27f
	movq	32(%rsp), %r8
	movq	40(%rsp), %r9
	jmp	5b
19:
	leaq	24(%rsp), %rdi
	movq	72(%rsp), %rsi
	callq	"std_alloc::vec::Vec::grow_amortized::<#06f9579a8fe94b13>"
	movq	40(%rsp), %r9
	testb	%al, %al
	je	30f
	movq	32(%rsp), %r14
	jmp	4b
20:
	cmpq	$0, 40(%rsp)
	je	21f
	movq	16(%rsp), %rdi
	callq	rattle_dealloc@PLT
21:
	movq	8(%rsp), %rax
	movq	$1, (%rax)
	movq	$2, 8(%rax)
22:
	xorps	%xmm0, %xmm0
	movups	%xmm0, 16(%rax)
	jmp	25f
23:
	leaq	7(%rsp), %rax
	movq	%rax, 16(%rsp)
	movq	40(%rsp), %r9
	xorl	%ebx, %ebx
	xorl	%r15d, %r15d
	xorl	%r13d, %r13d
	xorl	%r8d, %r8d
24:
	movq	8(%rsp), %rax
	movq	$0, (%rax)
	movq	16(%rsp), %rcx
	movq	%rcx, 8(%rax)
	movw	%r8w, 16(%rax)
	movw	%r13w, 18(%rax)
	movw	%r15w, 20(%rax)
	movw	%bx, 22(%rax)
	movq	%r9, 24(%rax)
25:
	addq	$4200, %rsp
	popq	%rbx
	popq	%r12
	popq	%r13
	popq	%r14
	popq	%r15
	popq	%rbp
	retq
26:
	movq	40(%rsp), %rax
	movq	8(%rsp), %rcx
	movq	$0, (%rcx)
	movq	16(%rsp), %rdx
	movq	%rdx, 8(%rcx)
	movq	88(%rsp), %rdx
	movw	%dx, 16(%rcx)
	movw	%r13w, 18(%rcx)
	movw	%r15w, 20(%rcx)
	movw	%bx, 22(%rcx)
	movq	%rax, 24(%rcx)
	jmp	25b
27:
	cmpq	$0, 40(%rsp)
	je	29f
28:
	movq	24(%rsp), %rdi
	callq	rattle_dealloc@PLT
29:
	movq	8(%rsp), %rax
	movq	$1, (%rax)
	movq	$3, 8(%rax)
	jmp	22b
30:
	testq	%r9, %r9
	jne	28b
	jmp	29b
31:
	.size	"mime_lookup::reading::read_front::<#a8511e052651c5eb>", 31b-"mime_lookup::reading::read_front::<#a8511e052651c5eb>"

	.text
	.p2align	4
	.type	"mime_lookup::sniff::sniff::<#ccf1bcb0588da832>",@function
"mime_lookup::sniff::sniff::<#ccf1bcb0588da832>":
	pushq	%rbp
	pushq	%r15
	pushq	%r14
	pushq	%r13
	pushq	%r12
	pushq	%rbx
	subq	$56, %rsp
	movq	%rcx, %r14
	movq	%rdx, %r13
	movq	%rsi, %r12
	movq	%rdi, %rbx
	xorps	%xmm0, %xmm0
	movaps	%xmm0, 32(%rsp)
	movaps	%xmm0, 16(%rsp)
	addq	$208, %rsi
	leaq	16(%rsp), %rdi
	callq	"mime_lookup::indexed::sniff::first_section::<#a83a19647163e603>"
	movzbl	16(%rsp), %ebp
	cmpb	$1, %bpl
	jne	1f
	movq	24(%rsp), %r14
	movq	32(%rsp), %r15
	cmpq	$8, %r15
	jb	5f
	movq	%r15, %rax
	shrq	%rax
	movq	-4(%r14,%rax), %rax
	leaq	(%rax,%rax,2), %rcx
	addq	-8(%r14,%r15), %rcx
	movabsq	$-4658895280553007687, %rax
	imulq	%rcx, %rax
	shrq	$49, %rax
	andl	$-2, %eax
	jmp	6f
1:
	testq	%r14, %r14
	je	7f
	cmpq	$128, %r14
	movl	$128, %ecx
	cmovbq	%r14, %rcx
	xorl	%edx, %edx
	jmp	3f
	.p2align	4
2:
	incq	%rdx
	cmpq	%rdx, %rcx
	je	4f
3:
	movzbl	(%r13,%rdx), %esi
	cmpl	$31, %esi
	ja	2b
	movl	$24, %r15d
	leaq	.L67248b46a1a0(%rip), %r14
	xorl	%eax, %eax
	cmpl	$13, %esi
	ja	18f
	movl	$9728, %edi
	btl	%esi, %edi
	jb	2b
	jmp	18f
4:
	movl	$10, %r15d
	leaq	.Laafe98300121(%rip), %r14
	jmp	8f
5:
	xorl	%eax, %eax
6:
	movl	40(%rsp), %esi
	movq	24(%r12), %rcx
	movzwl	(%rcx,%rax), %r13d
	cmpq	%r13, 56(%r12)
	jbe	17f
	movq	48(%r12), %rdx
	shll	$5, %r13d
	cmpq	%r15, 8(%rdx,%r13)
	jne	13f
	movq	(%rdx,%r13), %rdi
	cmpq	$4, %r15
	jae	9f
	testq	%r15, %r15
	je	10f
	movzbl	(%rdi), %eax
	cmpb	(%r14), %al
	jne	11f
	cmpq	$1, %r15
	je	10f
	movzbl	1(%rdi), %ecx
	movl	$1, %eax
	cmpb	1(%r14), %cl
	jne	12f
	cmpq	$2, %r15
	je	10f
	movzbl	2(%rdi), %ecx
	movl	$2, %eax
	cmpb	2(%r14), %cl
	je	10f
	jmp	12f
7:
	movl	$22, %r15d
	leaq	.L74bbd0aeee0d(%rip), %r14
8:
	xorl	%eax, %eax
	jmp	18f
9:
	movl	(%rdi), %eax
	cmpl	(%r14), %eax
	jne	13f
	movl	%esi, 4(%rsp)
	movq	%r15, %rsi
	movq	%rdx, 8(%rsp)
	movq	%r14, %rdx
	callq	"core::cmp::slices::groups_equal::<i8,31'core::cmp::numbers::U8PartialEq{}>"
	movq	8(%rsp), %rdx
	movl	4(%rsp), %esi
	testb	%al, %al
	je	13f
10:
	movq	16(%rdx,%r13), %rdx
	jmp	14f
11:
	xorl	%eax, %eax
12:
	cmpq	%r15, %rax
	jae	10b
13:
	cmpb	$1, 24(%rdx,%r13)
	jne	17f
	leaq	24(%r12), %rdi
	movl	%esi, %r13d
	movq	%r14, %rsi
	movq	%r15, %rdx
	callq	"mime_lookup::name_map::other_value::<i64,23'core::clone::UsizeClone{}>"
	movl	%r13d, %esi
	cmpb	$1, %al
	jne	17f
14:
	movq	8(%r12), %rcx
	leaq	(%rdx,%rdx,2), %rdx
	shlq	$5, %rdx
	leaq	(%rcx,%rdx), %rax
	cmpb	$0, 48(%rcx,%rdx)
	je	15f
	movq	56(%rax), %r14
	addq	$64, %rax
	jmp	16f
15:
	leaq	(%rcx,%rdx), %r14
	addq	$56, %r14
	addq	$88, %rax
16:
	movq	(%rax), %r15
17:
	cmpl	$80, %esi
	setae	%al
18:
	movq	%r14, (%rbx)
	movq	%r15, 8(%rbx)
	movb	%al, 16(%rbx)
	movb	%bpl, 17(%rbx)
	movl	$0, 18(%rbx)
	movw	$0, 22(%rbx)
	addq	$56, %rsp
	popq	%rbx
	popq	%r12
	popq	%r13
	popq	%r14
	popq	%r15
	popq	%rbp
	retq
19:
	.size	"mime_lookup::sniff::sniff::<#ccf1bcb0588da832>", 19b-"mime_lookup::sniff::sniff::<#ccf1bcb0588da832>"

	.text
	.p2align	4
	.type	"mime_lookup::sniff::sniff::<#fc24442ab780ff68>",@function
"mime_lookup::sniff::sniff::<#fc24442ab780ff68>":
	pushq	%rbp
	pushq	%r15
	pushq	%r14
	pushq	%r13
	pushq	%r12
	pushq	%rbx
	subq	$56, %rsp
	movq	%r9, %r15
	movq	%rcx, %rbp
	movq	%rdx, %r13
	movq	%rdi, %r14
	xorps	%xmm0, %xmm0
	movaps	%xmm0, 32(%rsp)
	movaps	%xmm0, 16(%rsp)
	cmpb	$1, 584(%rsi)
	movzbl	%r8b, %r12d
	movq	%rsi, 8(%rsp)
	jne	1f
	addq	$592, %rsi
	leaq	16(%rsp), %rdi
	movq	%r13, %rdx
	movq	%rbp, %rcx
	movl	%r12d, %r8d
	movq	%r15, %r9
	callq	"mime_lookup::indexed::sniff::first_section::<#a83a19647163e603>"
	movzbl	16(%rsp), %ebx
	movq	24(%rsp), %r15
	movq	32(%rsp), %r12
	movl	40(%rsp), %r8d
	cmpb	$1, %bl
	jne	4f
	jmp	14f
1:
	movq	(%rsi), %rax
	movq	80(%rax), %rbx
	testq	%rbx, %rbx
	je	3f
	movq	%r14, (%rsp)
	movq	72(%rax), %r14
	addq	$48, %r14
	.p2align	4
2:
	movq	8(%r14), %rdi
	movq	16(%r14), %rsi
	movq	%r13, %rdx
	movq	%rbp, %rcx
	movl	%r12d, %r8d
	movq	%r15, %r9
	callq	"mime_base::magic::holding::some_line_matches"
	testb	%al, %al
	jne	10f
	addq	$80, %r14
	decq	%rbx
	jne	2b
	xorl	%r8d, %r8d
	xorl	%r12d, %r12d
	xorl	%r15d, %r15d
	xorl	%ebx, %ebx
	jmp	13f
3:
	xorl	%r8d, %r8d
	xorl	%r12d, %r12d
	xorl	%r15d, %r15d
	xorl	%ebx, %ebx
	cmpb	$1, %bl
	je	14f
4:
	testq	%rbp, %rbp
	je	8f
	cmpq	$128, %rbp
	movl	$128, %ecx
	cmovbq	%rbp, %rcx
	xorl	%edx, %edx
	jmp	6f
	.p2align	4
5:
	incq	%rdx
	cmpq	%rdx, %rcx
	je	7f
6:
	movzbl	(%r13,%rdx), %esi
	cmpl	$31, %esi
	ja	5b
	movl	$24, %r12d
	leaq	.L67248b46a1a0(%rip), %r15
	xorl	%eax, %eax
	cmpl	$13, %esi
	ja	26f
	movl	$9728, %edi
	btl	%esi, %edi
	jb	5b
	jmp	26f
7:
	movl	$10, %r12d
	leaq	.Laafe98300121(%rip), %r15
	jmp	9f
8:
	movl	$22, %r12d
	leaq	.L74bbd0aeee0d(%rip), %r15
9:
	xorl	%eax, %eax
	jmp	26f
10:
	cmpb	$0, -40(%r14)
	je	11f
	movq	-32(%r14), %r15
	leaq	-24(%r14), %rax
	jmp	12f
11:
	leaq	-32(%r14), %r15
	movq	%r14, %rax
12:
	movq	(%rax), %r12
	movl	-48(%r14), %r8d
	movb	$1, %bl
13:
	movq	(%rsp), %r14
	cmpb	$1, %bl
	jne	4b
14:
	cmpq	$8, %r12
	jb	15f
	movq	%r12, %rax
	shrq	%rax
	movq	-4(%r15,%rax), %rax
	leaq	(%rax,%rax,2), %rcx
	addq	-8(%r15,%r12), %rcx
	movabsq	$-4658895280553007687, %rax
	imulq	%rcx, %rax
	shrq	$49, %rax
	andl	$-2, %eax
	jmp	16f
15:
	xorl	%eax, %eax
16:
	movq	8(%rsp), %rsi
	movq	200(%rsi), %rcx
	movzwl	(%rcx,%rax), %r13d
	cmpq	%r13, 232(%rsi)
	jbe	25f
	movq	224(%rsi), %rbp
	shll	$5, %r13d
	cmpq	%r12, 8(%rbp,%r13)
	jne	21f
	movq	(%rbp,%r13), %rdi
	cmpq	$4, %r12
	jae	17f
	testq	%r12, %r12
	je	18f
	movzbl	(%rdi), %eax
	cmpb	(%r15), %al
	jne	19f
	cmpq	$1, %r12
	je	18f
	movzbl	1(%rdi), %ecx
	movl	$1, %eax
	cmpb	1(%r15), %cl
	jne	20f
	cmpq	$2, %r12
	je	18f
	movzbl	2(%rdi), %ecx
	movl	$2, %eax
	cmpb	2(%r15), %cl
	je	18f
	jmp	20f
17:
	movl	(%rdi), %eax
	cmpl	(%r15), %eax
	jne	21f
	movq	%r12, %rsi
	movq	%r15, %rdx
	movq	%r8, (%rsp)
	callq	"core::cmp::slices::groups_equal::<i8,31'core::cmp::numbers::U8PartialEq{}>"
	movq	(%rsp), %r8
	movq	8(%rsp), %rsi
	testb	%al, %al
	je	21f
18:
	movq	16(%rbp,%r13), %rdx
	jmp	22f
19:
	xorl	%eax, %eax
20:
	cmpq	%r12, %rax
	jae	18b
21:
	cmpb	$1, 24(%rbp,%r13)
	jne	25f
	movq	%rsi, %r13
	leaq	200(%rsi), %rdi
	movq	%r15, %rsi
	movq	%r12, %rdx
	movq	%r8, %rbp
	callq	"mime_lookup::name_map::other_value::<i64,23'core::clone::UsizeClone{}>"
	movq	%rbp, %r8
	cmpb	$1, %al
	jne	25f
	movq	%r13, %rsi
22:
	movq	184(%rsi), %rcx
	leaq	(%rdx,%rdx,2), %rdx
	shlq	$5, %rdx
	leaq	(%rcx,%rdx), %rax
	cmpb	$0, 48(%rcx,%rdx)
	je	23f
	movq	56(%rax), %r15
	addq	$64, %rax
	jmp	24f
23:
	leaq	(%rcx,%rdx), %r15
	addq	$56, %r15
	addq	$88, %rax
24:
	movq	(%rax), %r12
25:
	cmpl	$80, %r8d
	setae	%al
26:
	movq	%r15, (%r14)
	movq	%r12, 8(%r14)
	movb	%al, 16(%r14)
	movb	%bl, 17(%r14)
	movl	$0, 18(%r14)
	movw	$0, 22(%r14)
	addq	$56, %rsp
	popq	%rbx
	popq	%r12
	popq	%r13
	popq	%r14
	popq	%r15
	popq	%rbp
	retq
27:
	.size	"mime_lookup::sniff::sniff::<#fc24442ab780ff68>", 27b-"mime_lookup::sniff::sniff::<#fc24442ab780ff68>"
