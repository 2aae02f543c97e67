# Made by dist/refresh of what is proved.

	.section	.rodata.cst16,"aM",@progbits,16
	.p2align	4, 0x0
1:
	.quad	1,1
	.text
	.p2align	4
	.type	"mime_view::cache::Cache::glob_hits",@function
"mime_view::cache::Cache::glob_hits":
	pushq	%rbp
	pushq	%r15
	pushq	%r14
	pushq	%r13
	pushq	%r12
	pushq	%rbx
	subq	$376, %rsp
	movq	%r9, %r14
	movq	%rsi, %r12
	movq	%rdi, %r15
	movq	432(%rsp), %rbp
	movq	$0, 344(%rsp)
	movq	%rsi, 320(%rsp)
	movq	%rdx, 328(%rsp)
	movq	%rcx, 336(%rsp)
	movb	$2, 344(%rsp)
	movl	36(%rsi), %eax
	movq	28(%rsi), %rcx
	movq	%rcx, 48(%rsp)
	movl	%eax, 56(%rsp)
	xorps	%xmm0, %xmm0
	movups	%xmm0, 104(%rsp)
	movaps	%xmm0, 208(%rsp)
	movq	$0, 224(%rsp)
	movups	%xmm0, 120(%rsp)
	movups	%xmm0, 136(%rsp)
	movzbl	%r8b, %eax
	movq	%rax, 96(%rsp)
	movups	(%r9), %xmm0
	movups	%xmm0, 152(%rsp)
	movups	(%rbp), %xmm0
	movups	%xmm0, 168(%rsp)
	leaq	208(%rsp), %rdi
	leaq	320(%rsp), %rsi
	leaq	48(%rsp), %rdx
	leaq	96(%rsp), %rcx
	callq	"mime_view::name::gather_hits"
	movq	152(%rsp), %r11
	movq	160(%rsp), %r10
	movdqu	168(%rsp), %xmm0
	movdqa	%xmm0, 352(%rsp)
	cmpb	$0, 208(%rsp)
	je	2f
	movq	224(%rsp), %r9
	movd	218(%rsp), %xmm1
	movzbl	216(%rsp), %r8d
	movq	112(%rsp), %rdi
	cmpb	$0, 96(%rsp)
	je	3f
	cmpb	$1, 104(%rsp)
	jne	5f
	cmpq	$0, 128(%rsp)
	jne	4f
	jmp	5f
2:
	movq	%r14, 256(%rsp)
	movl	104(%rsp), %ebp
	movl	113(%rsp), %edx
	movzbl	112(%rsp), %esi
	movzbl	119(%rsp), %r8d
	movzwl	117(%rsp), %edi
	movq	120(%rsp), %r14
	movq	128(%rsp), %rbx
	movq	136(%rsp), %rcx
	cmpb	$0, 96(%rsp)
	movq	144(%rsp), %rax
	pxor	%xmm0, %xmm0
	movdqa	%xmm0, 224(%rsp)
	movdqa	%xmm0, 208(%rsp)
	movq	$0, 240(%rsp)
	je	6f
	shll	$16, %r8d
	orl	%r8d, %edi
	shlq	$32, %rdi
	orq	%rdi, %rdx
	movq	%rdx, %r13
	shlq	$8, %r13
	orq	%rsi, %r13
	movdqa	%xmm0, 96(%rsp)
	movdqa	%xmm0, 112(%rsp)
	movdqa	%xmm0, 128(%rsp)
	testb	%bpl, %bpl
	movq	%r14, %rsi
	cmoveq	%rax, %rsi
	cmpq	$1, %rsi
	movq	%r15, 16(%rsp)
	jne	7f
	testb	%bpl, %bpl
	je	20f
	movl	4(%r13), %edx
	jmp	21f
3:
	cmpb	$1, %dil
	jne	5f
	cmpq	$0, 136(%rsp)
	je	5f
	movq	120(%rsp), %rdi
4:
	movq	%r11, %rbx
	movq	%r10, %r12
	movq	%r8, %r13
	movq	%r9, %rbp
	movdqa	%xmm1, 256(%rsp)
	callq	rattle_dealloc@PLT
	movdqa	256(%rsp), %xmm1
	movq	%rbp, %r9
	movq	432(%rsp), %rbp
	movq	%r13, %r8
	movq	%r12, %r10
	movq	%rbx, %r11
5:
	movl	$1, %eax
	xorl	%edx, %edx
	xorl	%r13d, %r13d
	xorl	%ebx, %ebx
	jmp	93f
6:
	movl	%ebp, 208(%rsp)
	movq	%rsi, 216(%rsp)
	leaq	224(%rsp), %rdx
	movq	%r14, 224(%rsp)
	movq	%rbx, 232(%rsp)
	testq	%rsi, %rsi
	cmovneq	%r14, %rdx
	movq	%rcx, 240(%rsp)
	cmoveq	%rcx, %rbx
	cmpq	$1, %rbx
	je	9f
	testq	%rbx, %rbx
	movq	432(%rsp), %rbp
	jne	11f
	movb	$1, %r8b
	leaq	24(%rsp), %r9
	xorl	%edx, %edx
	xorl	%r13d, %r13d
	xorl	%r14d, %r14d
	jmp	50f
7:
	movzbl	%bpl, %edx
	movq	%rdx, 96(%rsp)
	leaq	104(%rsp), %r15
	movq	%r13, 104(%rsp)
	movq	%r14, 112(%rsp)
	movq	%rbx, 120(%rsp)
	movq	%rcx, 128(%rsp)
	movq	%rax, 136(%rsp)
	testq	%rsi, %rsi
	movq	%r10, 8(%rsp)
	je	25f
	movq	%r11, %rbx
	testb	%bpl, %bpl
	cmoveq	%r15, %r13
	movq	%r13, %rdi
	callq	"core::slice::sort::slice+T::sort_by::<#67790cc31fa64999>"
	movzbl	96(%rsp), %ebp
	testb	%al, %al
	je	24f
	xorl	%r9d, %r9d
	movb	$7, %r8b
	movb	$1, %r14b
	cmpb	$1, %bpl
	movq	%rbx, %r11
	movq	8(%rsp), %r10
	jne	42f
	cmpq	$0, 120(%rsp)
	movq	16(%rsp), %r15
	movq	432(%rsp), %rbp
	je	84f
	movq	104(%rsp), %rdi
	callq	rattle_dealloc@PLT
	movb	$7, %r8b
	movq	8(%rsp), %r10
	movq	%rbx, %r11
8:
	xorl	%r9d, %r9d
	jmp	84f
9:
	movl	(%rdx), %r9d
	movq	8(%r12), %r14
	movb	$3, %r8b
	subq	%r9, %r14
	movq	432(%rsp), %rbp
	jbe	49f
	movq	(%r12), %r12
	addq	%r9, %r12
	cmpq	$32, %r14
	jae	38f
10:
	movq	%r9, 32(%rsp)
	movq	%r10, 8(%rsp)
	movq	%r11, (%rsp)
	cmpq	$256, %r14
	movl	$256, %r13d
	cmovbq	%r14, %r13
	xorl	%edi, %edi
	movq	%r12, %rsi
	movq	%r13, %rdx
	callq	"memchr::bytes::memchr"
	cmpb	$1, %al
	jne	43f
	movq	%rdx, %rax
	incq	%rax
	addq	8(%rsp), %rax
	movq	$-1, %r10
	cmovaeq	%rax, %r10
	movq	(%rsp), %r11
	jmp	40f
11:
	movq	%rbx, %rax
	shrq	$59, %rax
	movb	$7, %r8b
	jne	33f
	movq	%rdx, 88(%rsp)
	movq	%r10, %r14
	movq	%r11, (%rsp)
	movq	%rbx, %rdi
	shlq	$4, %rdi
	movl	$8, %esi
	callq	rattle_alloc@PLT
	testb	$1, %al
	je	41f
	movq	%rdx, %r11
	movq	%r15, 16(%rsp)
	movq	%rdx, 96(%rsp)
	movq	$0, 104(%rsp)
	movq	%rbx, 112(%rsp)
	xorl	%edx, %edx
	xorl	%r8d, %r8d
	movq	%r14, %r10
	movq	88(%rsp), %rdi
	movq	%r12, 200(%rsp)
	jmp	14f
12:
	movq	432(%rsp), %rbp
	movq	8(%rsp), %rdx
	movq	200(%rsp), %r12
	movq	88(%rsp), %rdi
	movq	%r15, %rsi
	movq	40(%rsp), %r8
	cmpq	%rdx, 112(%rsp)
	je	19f
13:
	movq	%rdx, %rax
	shlq	$4, %rax
	movq	%rsi, (%r11,%rax)
	movq	%r13, 8(%r11,%rax)
	incq	%rdx
	movq	%rdx, 104(%rsp)
	incq	%r8
	cmpq	%r8, %rbx
	je	45f
14:
	movl	(%rdi,%r8,4), %r9d
	movq	8(%r12), %rbp
	subq	%r9, %rbp
	jbe	44f
	movq	(%r12), %rsi
	addq	%r9, %rsi
	cmpq	$32, %rbp
	jae	16f
15:
	movq	%r8, 40(%rsp)
	movq	%r11, 80(%rsp)
	movq	%rdx, 8(%rsp)
	movq	%r9, 32(%rsp)
	movq	%r10, %r12
	cmpq	$256, %rbp
	movl	$256, %r14d
	cmovbq	%rbp, %r14
	xorl	%edi, %edi
	movq	%rsi, %r15
	movq	%r14, %rdx
	callq	"memchr::bytes::memchr"
	cmpb	$1, %al
	jne	46f
	movq	%rdx, %r13
	leaq	1(%rdx), %rax
	addq	%r12, %rax
	movq	$-1, %r10
	movq	80(%rsp), %r11
	jb	12b
	movq	%rax, %r10
	jmp	12b
16:
	movdqu	(%rsi), %xmm1
	pxor	%xmm0, %xmm0
	pcmpeqb	%xmm0, %xmm1
	pmovmskb	%xmm1, %ecx
	movl	$64, %eax
	movl	$64, %r13d
	rep		bsfq	%rcx, %r13
	cmpq	$16, %r13
	jb	17f
	movdqu	16(%rsi), %xmm1
	pcmpeqb	%xmm0, %xmm1
	pmovmskb	%xmm1, %ecx
	rep		bsfq	%rcx, %rax
	cmpq	$15, %rax
	ja	15b
	orq	$16, %rax
	movq	%rax, %r13
17:
	leaq	1(%r13), %rax
	addq	%r10, %rax
	movq	$-1, %r10
	jb	18f
	movq	%rax, %r10
18:
	movq	432(%rsp), %rbp
	cmpq	%rdx, 112(%rsp)
	jne	13b
19:
	movq	%r8, %r14
	movq	%rsi, %r15
	movq	%r10, 8(%rsp)
	leaq	96(%rsp), %rdi
	callq	"std_alloc::vec::Vec::grow_amortized::<#e4aeda12d7b82ffa>"
	testb	%al, %al
	je	51f
	movq	96(%rsp), %r11
	movq	104(%rsp), %rdx
	movq	8(%rsp), %r10
	movq	88(%rsp), %rdi
	movq	%r15, %rsi
	movq	%r14, %r8
	jmp	13b
20:
	movabsq	$72057594037927935, %rax
	andq	%rax, %rdx
	shrq	$24, %rdx
21:
	movl	%edx, %r9d
	movq	8(%r12), %r15
	movb	$3, %r8b
	subq	%r9, %r15
	jbe	23f
	movq	(%r12), %r12
	addq	%r9, %r12
	cmpq	$32, %r15
	jae	27f
22:
	movq	%r9, 32(%rsp)
	movq	%r10, 8(%rsp)
	movq	%r11, (%rsp)
	cmpq	$256, %r15
	movl	$256, %r14d
	cmovbq	%r15, %r14
	xorl	%edi, %edi
	movq	%r12, %rsi
	movq	%r14, %rdx
	callq	"memchr::bytes::memchr"
	cmpb	$1, %al
	jne	34f
	movq	%rdx, %rax
	incq	%rax
	addq	8(%rsp), %rax
	movq	$-1, %r10
	cmovaeq	%rax, %r10
	movq	(%rsp), %r11
	jmp	29f
23:
	movq	16(%rsp), %r15
	jmp	35f
24:
	movq	104(%rsp), %r13
	movq	112(%rsp), %r14
	movq	136(%rsp), %rax
	movq	%rbx, %r11
	movq	8(%rsp), %r10
25:
	testb	%bpl, %bpl
	cmoveq	%r15, %r13
	cmoveq	%rax, %r14
	testq	%r14, %r14
	movq	%r11, (%rsp)
	je	26f
	movl	(%r13), %eax
	cmpq	$4, %r14
	jae	31f
	xorl	%ebx, %ebx
	xorl	%ecx, %ecx
	jmp	53f
26:
	movq	%r11, %rsi
	pxor	%xmm0, %xmm0
	movdqa	%xmm0, 64(%rsp)
	movdqa	%xmm0, 48(%rsp)
	xorl	%ebx, %ebx
	xorl	%edi, %edi
	xorl	%ecx, %ecx
	jmp	60f
27:
	movdqu	(%r12), %xmm1
	pcmpeqb	%xmm0, %xmm1
	pmovmskb	%xmm1, %ecx
	movl	$64, %eax
	movl	$64, %edx
	rep		bsfq	%rcx, %rdx
	cmpq	$16, %rdx
	jb	28f
	movdqu	16(%r12), %xmm1
	pcmpeqb	%xmm0, %xmm1
	pmovmskb	%xmm1, %ecx
	rep		bsfq	%rcx, %rax
	cmpq	$15, %rax
	ja	22b
	orq	$16, %rax
	movq	%rax, %rdx
28:
	leaq	1(%rdx), %rax
	addq	%r10, %rax
	movq	$-1, %r10
	cmovaeq	%rax, %r10
29:
	cmpb	$1, %bpl
	setne	%al
	testq	%rbx, %rbx
	sete	%cl
	orb	%al, %cl
	movl	$1, %ebx
	movq	16(%rsp), %r15
	jne	30f
	movq	%rdx, %rbp
	movq	%r13, %rdi
	movq	%r11, %r14
	movq	%r10, %r13
	callq	rattle_dealloc@PLT
	movq	%rbp, %rdx
	movq	%r13, %r10
	movq	%r14, %r11
30:
	xorl	%r14d, %r14d
	xorl	%r8d, %r8d
	movq	%r12, %r9
	xorl	%r13d, %r13d
	jmp	37f
31:
	movq	%r14, %rcx
	andq	$-4, %rcx
	movd	%eax, %xmm0
	pshufd	$0, %xmm0, %xmm1
	pxor	%xmm0, %xmm0
	xorl	%edx, %edx
	pxor	%xmm2, %xmm2
	.p2align	4
32:
	movd	(%r13,%rdx,8), %xmm3
	pinsrd	$1, 8(%r13,%rdx,8), %xmm3
	movd	16(%r13,%rdx,8), %xmm4
	pinsrd	$1, 24(%r13,%rdx,8), %xmm4
	pcmpeqd	%xmm1, %xmm3
	pmovzxdq	%xmm3, %xmm3
	movdqa	1b(%rip), %xmm5
	pand	%xmm5, %xmm3
	paddq	%xmm3, %xmm2
	pcmpeqd	%xmm1, %xmm4
	pmovzxdq	%xmm4, %xmm3
	pand	%xmm5, %xmm3
	paddq	%xmm3, %xmm0
	addq	$4, %rdx
	cmpq	%rdx, %rcx
	jne	32b
	paddq	%xmm2, %xmm0
	pshufd	$238, %xmm0, %xmm1
	paddq	%xmm0, %xmm1
	movq	%xmm1, %rbx
	jmp	54f
33:
	xorl	%r9d, %r9d
	jmp	49f
34:
	addq	8(%rsp), %r14
	movq	$-1, %r10
	cmovaeq	%r14, %r10
	cmpq	$256, %r15
	movb	$4, %r8b
	sbbb	$0, %r8b
	movq	16(%rsp), %r15
	movq	(%rsp), %r11
	movq	32(%rsp), %r9
35:
	cmpb	$1, %bpl
	setne	%al
	testq	%rbx, %rbx
	sete	%cl
	orb	%al, %cl
	movb	$1, %r14b
	jne	36f
	movq	%r13, %rdi
	movq	%r11, %rbx
	movq	%r10, %r14
	movq	%r8, %r12
	movq	%r9, %r13
	callq	rattle_dealloc@PLT
	movq	%r13, %r9
	movq	%r12, %r8
	movq	%r14, %r10
	movb	$1, %r14b
	movq	%rbx, %r11
36:
	xorl	%edx, %edx
	xorl	%r13d, %r13d
	xorl	%ebx, %ebx
37:
	movq	432(%rsp), %rbp
	jmp	92f
38:
	movdqu	(%r12), %xmm1
	pcmpeqb	%xmm0, %xmm1
	pmovmskb	%xmm1, %ecx
	movl	$64, %eax
	movl	$64, %edx
	rep		bsfq	%rcx, %rdx
	cmpq	$16, %rdx
	jb	39f
	movdqu	16(%r12), %xmm1
	pcmpeqb	%xmm0, %xmm1
	pmovmskb	%xmm1, %ecx
	rep		bsfq	%rcx, %rax
	cmpq	$15, %rax
	ja	10b
	orq	$16, %rax
	movq	%rax, %rdx
39:
	leaq	1(%rdx), %rax
	addq	%r10, %rax
	movq	$-1, %r10
	cmovaeq	%rax, %r10
40:
	xorl	%r13d, %r13d
	xorl	%r8d, %r8d
	movq	%r12, %r9
	xorl	%r14d, %r14d
	jmp	50f
41:
	xorl	%r9d, %r9d
	movq	(%rsp), %r11
	movq	%r14, %r10
	movb	$7, %r8b
	jmp	49f
42:
	xorl	%edx, %edx
	xorl	%r13d, %r13d
	xorl	%ebx, %ebx
	movq	16(%rsp), %r15
	jmp	37b
43:
	addq	8(%rsp), %r13
	movq	$-1, %r10
	cmovaeq	%r13, %r10
	cmpq	$256, %r14
	movb	$4, %r8b
	sbbb	$0, %r8b
	movq	(%rsp), %r11
	movq	32(%rsp), %r9
	jmp	49f
44:
	movb	$3, %r8b
	jmp	47f
45:
	movq	96(%rsp), %r9
	movq	112(%rsp), %r13
	movb	$1, %r8b
	movq	16(%rsp), %r15
	movq	(%rsp), %r11
	xorl	%r14d, %r14d
	jmp	50f
46:
	addq	%r12, %r14
	movq	$-1, %r10
	cmovaeq	%r14, %r10
	cmpq	$256, %rbp
	movb	$4, %r8b
	sbbb	$0, %r8b
	movq	32(%rsp), %r9
	movq	80(%rsp), %r11
47:
	cmpq	$0, 112(%rsp)
	movq	16(%rsp), %r15
	movq	432(%rsp), %rbp
	je	48f
	movq	%r11, %rdi
	movq	%r10, %rbx
	movq	%r8, %r14
	movq	%r9, %r12
	callq	rattle_dealloc@PLT
	movq	%r12, %r9
	movq	%r14, %r8
	movq	%rbx, %r10
48:
	movq	(%rsp), %r11
49:
	movb	$1, %r14b
	xorl	%edx, %edx
	xorl	%r13d, %r13d
	xorl	%ebx, %ebx
50:
	cmpb	$1, 216(%rsp)
	jne	92f
	cmpq	$0, 240(%rsp)
	je	92f
	movq	%rdx, 8(%rsp)
	movq	224(%rsp), %rdi
	movq	%r11, %r12
	movq	%r14, 80(%rsp)
	movq	%r10, %r14
	movq	%r8, 32(%rsp)
	movq	%r9, %rbp
	callq	rattle_dealloc@PLT
	movq	8(%rsp), %rdx
	movq	%rbp, %r9
	movq	432(%rsp), %rbp
	movq	32(%rsp), %r8
	movq	%r14, %r10
	movq	80(%rsp), %r14
	movq	%r12, %r11
	jmp	92f
51:
	cmpq	$0, 112(%rsp)
	je	52f
	movq	96(%rsp), %rdi
	callq	rattle_dealloc@PLT
52:
	xorl	%r9d, %r9d
	movq	16(%rsp), %r15
	movq	(%rsp), %r11
	movq	8(%rsp), %r10
	movb	$7, %r8b
	jmp	49b
53:
	xorl	%edx, %edx
	cmpl	%eax, (%r13,%rcx,8)
	sete	%dl
	addq	%rdx, %rbx
	incq	%rcx
54:
	cmpq	%rcx, %r14
	jne	53b
	pxor	%xmm0, %xmm0
	movdqa	%xmm0, 64(%rsp)
	movdqa	%xmm0, 48(%rsp)
	xorl	%r15d, %r15d
	jmp	56f
	.p2align	4
55:
	movq	72(%rsp), %rax
	movl	%ebp, 56(%rsp,%rax,4)
	incq	%rax
	movq	%rax, 72(%rsp)
	incq	%r15
	cmpq	%r15, %r14
	je	59f
56:
	movl	4(%r13,%r15,8), %ebp
	movzbl	48(%rsp), %ecx
	testb	%cl, %cl
	movq	72(%rsp), %rax
	movq	64(%rsp), %rdx
	cmoveq	%rax, %rdx
	movl	$4, %esi
	cmovneq	%rax, %rsi
	cmpq	%rsi, %rdx
	je	58f
	testb	%cl, %cl
	je	55b
57:
	movq	56(%rsp), %rax
	movq	64(%rsp), %rcx
	movl	%ebp, (%rax,%rcx,4)
	incq	%rcx
	movq	%rcx, 64(%rsp)
	incq	%r15
	cmpq	%r15, %r14
	jne	56b
	jmp	59f
58:
	leaq	48(%rsp), %rdi
	callq	"smallvec::small_vec::SmallVec::reserve_one::<#bc37e6e66b18402c>"
	movzbl	48(%rsp), %ecx
	testb	%al, %al
	jne	86f
	movq	(%rsp), %r11
	movq	8(%rsp), %r10
	testb	%cl, %cl
	jne	57b
	jmp	55b
59:
	movq	%r11, %rsi
	movzbl	48(%rsp), %ecx
	movq	56(%rsp), %rdi
60:
	movq	16(%rsp), %r15
	movdqa	64(%rsp), %xmm0
	movdqu	%xmm0, 304(%rsp)
	movq	%rcx, 288(%rsp)
	leaq	296(%rsp), %rdx
	movq	%rdi, 296(%rsp)
	testq	%rcx, %rcx
	cmovneq	%rdi, %rdx
	movq	312(%rsp), %rbp
	movq	304(%rsp), %r11
	cmoveq	%rbp, %r11
	cmpq	$1, %r11
	je	61f
	testq	%r11, %r11
	jne	63f
	movq	%rcx, 40(%rsp)
	movb	$1, %r8b
	leaq	24(%rsp), %r9
	xorl	%edx, %edx
	xorl	%r13d, %r13d
	movq	%rsi, %r11
	jmp	90f
61:
	movl	(%rdx), %r9d
	movq	8(%r12), %r15
	movb	$3, %r8b
	subq	%r9, %r15
	jbe	72f
	movq	%rdi, 184(%rsp)
	movq	%rcx, 40(%rsp)
	movq	(%r12), %r12
	addq	%r9, %r12
	cmpq	$32, %r15
	jae	75f
62:
	movq	%r9, 32(%rsp)
	movq	%r10, %r13
	cmpq	$256, %r15
	movl	$256, %r14d
	cmovbq	%r15, %r14
	xorl	%edi, %edi
	movq	%r12, %rsi
	movq	%r14, %rdx
	callq	"memchr::bytes::memchr"
	cmpb	$1, %al
	jne	80f
	movq	%rdx, %rax
	incq	%rax
	addq	%r13, %rax
	movq	$-1, %r10
	cmovaeq	%rax, %r10
	movq	(%rsp), %r11
	jmp	77f
63:
	movq	%rdi, 184(%rsp)
	movq	%r11, %rax
	shrq	$59, %rax
	movb	$7, %r8b
	jne	73f
	movq	%rdx, 192(%rsp)
	movq	%rcx, 40(%rsp)
	movq	%r10, %r14
	movq	%r11, %rdi
	shlq	$4, %rdi
	movl	$8, %esi
	movq	%r11, %r13
	callq	rattle_alloc@PLT
	testb	$1, %al
	movq	432(%rsp), %rbp
	je	78f
	movq	%rdx, %r11
	movq	%rdx, 48(%rsp)
	movq	$0, 56(%rsp)
	movq	%r13, 64(%rsp)
	xorl	%edx, %edx
	xorl	%r15d, %r15d
	movq	%r14, %r10
	movq	192(%rsp), %rdi
	movq	%r13, %r8
	movq	%r13, 280(%rsp)
	movq	%r12, 200(%rsp)
64:
	movl	(%rdi,%r15,4), %r9d
	movq	8(%r12), %r13
	subq	%r9, %r13
	jbe	88f
	movq	(%r12), %rsi
	addq	%r9, %rsi
	cmpq	$32, %r13
	movq	%rsi, 80(%rsp)
	jae	67f
65:
	movq	%r11, 88(%rsp)
	movq	%rdx, 8(%rsp)
	movq	%r9, 32(%rsp)
	movq	%r10, %r12
	cmpq	$256, %r13
	movl	$256, %r14d
	cmovbq	%r13, %r14
	xorl	%edi, %edi
	movq	%r14, %rdx
	callq	"memchr::bytes::memchr"
	cmpb	$1, %al
	jne	94f
	movq	%rdx, %rbp
	leaq	1(%rdx), %rax
	addq	%r12, %rax
	movq	$-1, %r10
	movq	280(%rsp), %r8
	movq	88(%rsp), %r11
	jb	66f
	movq	%rax, %r10
66:
	movq	8(%rsp), %rdx
	movq	200(%rsp), %r12
	movq	192(%rsp), %rdi
	jmp	69f
67:
	movdqu	(%rsi), %xmm1
	pxor	%xmm0, %xmm0
	pcmpeqb	%xmm0, %xmm1
	pmovmskb	%xmm1, %ecx
	movl	$64, %eax
	movl	$64, %ebp
	rep		bsfq	%rcx, %rbp
	cmpq	$16, %rbp
	jb	68f
	movq	80(%rsp), %rsi
	movdqu	16(%rsi), %xmm1
	pcmpeqb	%xmm0, %xmm1
	pmovmskb	%xmm1, %ecx
	rep		bsfq	%rcx, %rax
	cmpq	$15, %rax
	ja	65b
	orq	$16, %rax
	movq	%rax, %rbp
68:
	leaq	1(%rbp), %rax
	addq	%r10, %rax
	movq	$-1, %r10
	jb	69f
	movq	%rax, %r10
69:
	cmpq	%rdx, 64(%rsp)
	je	71f
70:
	movq	%rdx, %rax
	shlq	$4, %rax
	movq	80(%rsp), %rcx
	movq	%rcx, (%r11,%rax)
	movq	%rbp, 8(%r11,%rax)
	incq	%rdx
	movq	%rdx, 56(%rsp)
	incq	%r15
	cmpq	%r15, %r8
	movq	432(%rsp), %rbp
	jne	64b
	jmp	89f
71:
	movq	%r10, %r14
	leaq	48(%rsp), %rdi
	callq	"std_alloc::vec::Vec::grow_amortized::<#e4aeda12d7b82ffa>"
	testb	%al, %al
	je	97f
	movq	48(%rsp), %r11
	movq	56(%rsp), %rdx
	movq	%r14, %r10
	movq	192(%rsp), %rdi
	movq	280(%rsp), %r8
	jmp	70b
72:
	movq	16(%rsp), %r15
	jmp	74f
73:
	xorl	%r9d, %r9d
74:
	movq	432(%rsp), %rbp
	movq	%rsi, %r11
	jmp	82f
75:
	movq	%rsi, %r11
	movdqu	(%r12), %xmm1
	pxor	%xmm0, %xmm0
	pcmpeqb	%xmm0, %xmm1
	pmovmskb	%xmm1, %ecx
	movl	$64, %eax
	movl	$64, %edx
	rep		bsfq	%rcx, %rdx
	cmpq	$16, %rdx
	jb	76f
	movdqu	16(%r12), %xmm1
	pcmpeqb	%xmm0, %xmm1
	pmovmskb	%xmm1, %ecx
	rep		bsfq	%rcx, %rax
	cmpq	$15, %rax
	ja	62b
	orq	$16, %rax
	movq	%rax, %rdx
76:
	leaq	1(%rdx), %rax
	addq	%r10, %rax
	movq	$-1, %r10
	cmovaeq	%rax, %r10
77:
	xorl	%r13d, %r13d
	xorl	%r8d, %r8d
	movq	%r12, %r9
	movq	16(%rsp), %r15
	movq	184(%rsp), %rdi
	jmp	90f
78:
	xorl	%r9d, %r9d
79:
	movq	(%rsp), %r11
	movq	%r14, %r10
	movb	$7, %r8b
	jmp	81f
80:
	addq	%r13, %r14
	movq	$-1, %r10
	cmovaeq	%r14, %r10
	cmpq	$256, %r15
	movb	$4, %r8b
	sbbb	$0, %r8b
	movq	16(%rsp), %r15
	movq	432(%rsp), %rbp
	movq	(%rsp), %r11
	movq	32(%rsp), %r9
81:
	movq	40(%rsp), %rcx
82:
	cmpb	$1, %cl
	jne	83f
	cmpq	$0, 312(%rsp)
	je	83f
	movq	296(%rsp), %rdi
	movq	%r11, %rbx
	movq	%r10, %r14
	movq	%r8, %r12
	movq	%r9, %r13
	callq	rattle_dealloc@PLT
	movq	%r13, %r9
	movq	%r12, %r8
	movq	%r14, %r10
	movq	%rbx, %r11
83:
	xorl	%edx, %edx
	cmpb	$1, 96(%rsp)
	movb	$1, %r14b
	jne	85f
	cmpq	$0, 120(%rsp)
	je	85f
	movq	104(%rsp), %rdi
	movq	%r11, %rbx
	movq	%r10, %r14
	movq	%r8, %r12
	movq	%r9, %r13
	callq	rattle_dealloc@PLT
	movq	%r13, %r9
	movq	%r12, %r8
	movq	%r14, %r10
	movb	$1, %r14b
	movq	%rbx, %r11
84:
	xorl	%edx, %edx
85:
	xorl	%r13d, %r13d
	xorl	%ebx, %ebx
	jmp	92f
86:
	cmpb	$1, %cl
	jne	87f
	cmpq	$0, 72(%rsp)
	je	87f
	movq	56(%rsp), %rdi
	callq	rattle_dealloc@PLT
87:
	xorl	%r9d, %r9d
	cmpb	$1, 96(%rsp)
	movb	$7, %r8b
	movb	$1, %r14b
	movq	16(%rsp), %r15
	movq	432(%rsp), %rbp
	movq	(%rsp), %r11
	movq	8(%rsp), %r10
	jne	84b
	cmpq	$0, 120(%rsp)
	je	84b
	movq	104(%rsp), %rdi
	callq	rattle_dealloc@PLT
	movb	$7, %r8b
	movq	8(%rsp), %r10
	movq	(%rsp), %r11
	jmp	8b
88:
	movb	$3, %r8b
	movq	40(%rsp), %rcx
	jmp	95f
89:
	movq	48(%rsp), %r9
	movq	64(%rsp), %r13
	movzbl	288(%rsp), %eax
	movq	%rax, 40(%rsp)
	movb	$1, %r8b
	movq	312(%rsp), %rbp
	movq	16(%rsp), %r15
	movq	184(%rsp), %rdi
	movq	(%rsp), %r11
90:
	cmpb	$1, 40(%rsp)
	movq	%rdx, 8(%rsp)
	jne	91f
	testq	%rbp, %rbp
	je	91f
	movq	%r10, %r12
	movq	%r8, %rbp
	movq	%r9, %r14
	callq	rattle_dealloc@PLT
	movq	8(%rsp), %rdx
	movq	%r14, %r9
	movq	%rbp, %r8
	movq	%r12, %r10
	movq	(%rsp), %r11
91:
	xorl	%r14d, %r14d
	cmpb	$1, 96(%rsp)
	jne	37b
	cmpq	$0, 120(%rsp)
	movq	432(%rsp), %rbp
	je	92f
	movq	104(%rsp), %rdi
	movq	%r11, %r14
	movq	%r10, %r12
	movq	%r8, 32(%rsp)
	movq	%r9, %rbp
	callq	rattle_dealloc@PLT
	movq	8(%rsp), %rdx
	movq	%rbp, %r9
	movq	432(%rsp), %rbp
	movq	32(%rsp), %r8
	movq	%r12, %r10
	movq	%r14, %r11
	xorl	%r14d, %r14d
92:
	movzbl	%r14b, %eax
	pxor	%xmm1, %xmm1
	movq	256(%rsp), %r14
93:
	movq	%r11, (%r14)
	movq	%r10, 8(%r14)
	movaps	352(%rsp), %xmm0
	movups	%xmm0, (%rbp)
	movzbl	%r8b, %ecx
	movq	%rax, (%r15)
	movw	%cx, 8(%r15)
	movd	%xmm1, 10(%r15)
	movq	%r9, 16(%r15)
	movq	%rdx, 24(%r15)
	movq	%r13, 32(%r15)
	movq	%rbx, 40(%r15)
	addq	$376, %rsp
	popq	%rbx
	popq	%r12
	popq	%r13
	popq	%r14
	popq	%r15
	popq	%rbp
	retq
94:
	addq	%r12, %r14
	movq	$-1, %r10
	cmovaeq	%r14, %r10
	cmpq	$256, %r13
	movb	$4, %r8b
	sbbb	$0, %r8b
	movq	432(%rsp), %rbp
	movq	32(%rsp), %r9
	movq	40(%rsp), %rcx
	movq	88(%rsp), %r11
95:
	cmpq	$0, 64(%rsp)
	movq	16(%rsp), %r15
	je	96f
	movq	%r11, %rdi
	movq	%r10, %rbx
	movq	%r8, %r14
	movq	%r9, %r12
	callq	rattle_dealloc@PLT
	movq	%r12, %r9
	movq	%r14, %r8
	movq	%rbx, %r10
	movq	(%rsp), %r11
	movzbl	288(%rsp), %ecx
	jmp	82b
96:
	movq	(%rsp), %r11
	jmp	82b
97:
	cmpq	$0, 64(%rsp)
	je	98f
	movq	48(%rsp), %rdi
	callq	rattle_dealloc@PLT
98:
	xorl	%r9d, %r9d
	movq	16(%rsp), %r15
	movq	432(%rsp), %rbp
	jmp	79b
99:
	.size	"mime_view::cache::Cache::glob_hits", 99b-"mime_view::cache::Cache::glob_hits"

	.text
	.p2align	4
	.type	"mime_view::cache::Cache::parents_of",@function
"mime_view::cache::Cache::parents_of":
	pushq	%rbp
	pushq	%r15
	pushq	%r14
	pushq	%r13
	pushq	%r12
	pushq	%rbx
	subq	$280, %rsp
	movq	%r9, %r11
	movq	336(%rsp), %rbx
	movl	24(%rsi), %r14d
	movq	(%r9), %rax
	movq	8(%r9), %r9
	movq	%r9, 64(%rsp)
	movq	(%rbx), %r13
	movq	8(%rbx), %r15
	leaq	4(%r14), %rbp
	incq	%rax
	movq	$-1, %r9
	cmovneq	%rax, %r9
	movq	8(%rsi), %r12
	movl	$1, %r10d
	cmpq	%rbp, %r12
	jae	1f
	xorl	%edx, %edx
	xorl	%ecx, %ecx
	xorl	%r12d, %r12d
	xorl	%esi, %esi
	movb	$3, %bpl
	jmp	51f
1:
	movq	%r13, 32(%rsp)
	movq	%r15, 80(%rsp)
	movq	%rsi, 96(%rsp)
	movq	(%rsi), %rsi
	movl	(%rsi,%r14), %eax
	movl	%eax, %r13d
	bswapl	%r13d
	movq	%rbp, 8(%rsp)
	leaq	(,%r13,8), %rbx
	addq	%rbp, %rbx
	movq	%r12, 88(%rsp)
	cmpq	%rbx, %r12
	jae	2f
	xorl	%edx, %edx
	xorl	%ecx, %ecx
	xorl	%r12d, %r12d
	xorl	%esi, %esi
	movq	336(%rsp), %rbx
	movq	80(%rsp), %r15
	movq	32(%rsp), %r13
	movb	$3, %bpl
	jmp	51f
2:
	testl	%eax, %eax
	je	3f
	xorps	%xmm0, %xmm0
	movaps	%xmm0, 208(%rsp)
	cmpq	$15, %rcx
	movq	%rsi, 24(%rsp)
	movq	%r11, 40(%rsp)
	movq	%rdi, 48(%rsp)
	movq	%r8, 104(%rsp)
	ja	5f
	leaq	208(%rsp), %rdi
	movq	%rdx, %rsi
	movq	%rdx, %r15
	movq	%rcx, %rdx
	movq	%rcx, %r12
	movq	%r9, %r14
	callq	memcpy@PLT
	movq	%r14, %r9
	movq	%r15, %rdx
	movq	%r12, %rcx
	movq	24(%rsp), %rsi
	jmp	6f
3:
	xorl	%r10d, %r10d
	xorl	%ebp, %ebp
	xorl	%r14d, %r14d
	xorl	%edx, %edx
	xorl	%ecx, %ecx
	xorl	%r12d, %r12d
	xorl	%esi, %esi
	movq	336(%rsp), %rbx
4:
	movq	80(%rsp), %r15
	movq	32(%rsp), %r13
	jmp	51f
5:
	movups	(%rdx), %xmm0
	movaps	%xmm0, 208(%rsp)
6:
	movq	64(%rsp), %r15
	movq	8(%rsp), %rdi
	movdqa	208(%rsp), %xmm0
	movdqu	%xmm0, 176(%rsp)
	addq	%rsi, %rdi
	movzbl	176(%rsp), %eax
	movb	%al, 64(%rsp)
	xorl	%ebx, %ebx
	movl	$0, 8(%rsp)
	movq	88(%rsp), %r11
	jmp	10f
7:
	incq	%r8
	addq	%r9, %r8
	movq	$-1, %r15
	cmovaeq	%r8, %r15
	movq	%rsi, %r9
	movq	24(%rsp), %rsi
	movq	88(%rsp), %r11
8:
	incq	%rbp
	movq	%rbp, %rbx
9:
	cmpq	%r13, %rbx
	jae	40f
10:
	movq	%r9, %rax
	leaq	(%rbx,%r13), %rbp
	shrq	%rbp
	movq	%r9, %r8
	incq	%r8
	movq	$-1, %r9
	cmovneq	%r8, %r9
	movl	(%rdi,%rbp,8), %r14d
	bswapl	%r14d
	movq	%r11, %r12
	subq	%r14, %r12
	jbe	38f
	leaq	(%rsi,%r14), %r10
	cmpq	$16, %r12
	jae	12f
11:
	testq	%rcx, %rcx
	je	28f
	movzbl	(%r10), %r8d
	cmpb	(%rdx), %r8b
	jne	16f
	cmpq	$8, %rcx
	jb	28f
	cmpq	$33, %r12
	jb	28f
	cmpq	$15, %rcx
	ja	26f
	movq	%r11, %r14
	movq	(%r10), %xmm3
	movq	(%rdx), %xmm4
	pcmpeqb	%xmm3, %xmm4
	pcmpeqd	%xmm2, %xmm2
	pxor	%xmm2, %xmm4
	pxor	%xmm1, %xmm1
	pcmpeqb	%xmm1, %xmm3
	por	%xmm4, %xmm3
	pmovmskb	%xmm3, %r8d
	orl	$256, %r8d
	rep		bsfl	%r8d, %r8d
	cmpb	$8, %r8b
	jb	17f
	leaq	-8(%rcx), %r11
	movq	(%r10,%r11), %xmm3
	movq	(%rdx,%r11), %xmm4
	pcmpeqb	%xmm3, %xmm4
	pxor	%xmm2, %xmm4
	pcmpeqb	%xmm3, %xmm1
	por	%xmm4, %xmm1
	pmovmskb	%xmm1, %r8d
	orl	$256, %r8d
	jmp	27f
	.p2align	4
12:
	movzbl	(%r10), %r8d
	cmpb	64(%rsp), %r8b
	jne	13f
	movdqu	(%r10), %xmm1
	pxor	%xmm2, %xmm2
	pcmpeqb	%xmm1, %xmm2
	pcmpeqb	%xmm0, %xmm1
	pcmpeqd	%xmm3, %xmm3
	pxor	%xmm1, %xmm3
	por	%xmm3, %xmm2
	pmovmskb	%xmm2, %r8d
	testl	%r8d, %r8d
	je	11b
	movq	%r11, %r14
	movq	%rbx, %rsi
	rep		bsfl	%r8d, %r11d
	movzbl	(%r10,%r11), %r8d
	jmp	14f
	.p2align	4
13:
	movq	%r11, %r14
	movq	%rbx, %rsi
	xorl	%r11d, %r11d
14:
	movzbl	176(%rsp,%r11), %r10d
	leaq	1(%r11), %rbx
	addq	%r15, %rbx
	movq	$-1, %r15
	cmovaeq	%rbx, %r15
	cmpb	%r10b, %r8b
	jne	15f
	cmpq	%rcx, %r11
	movq	%rsi, %rbx
	jne	22f
	testb	%r8b, %r8b
	movq	24(%rsp), %rsi
	jne	25f
	movq	%r14, %r11
	jmp	18f
15:
	jae	24f
	movq	24(%rsp), %rsi
	jmp	23f
16:
	movq	%r11, %r14
	xorl	%r8d, %r8d
17:
	leaq	1(%r8), %r11
	addq	%r15, %r11
	movq	$-1, %r15
	cmovaeq	%r11, %r15
	movzbl	(%r10,%r8), %r10d
	cmpq	%rcx, %r8
	jne	19f
	testb	%r10b, %r10b
	movq	%r14, %r11
	jne	20f
18:
	movb	$1, %r8b
	movl	%r8d, 8(%rsp)
	jmp	21f
19:
	testb	%r10b, %r10b
	movq	%r14, %r11
	je	8b
	cmpb	(%rdx,%r8), %r10b
	jb	8b
20:
	movl	$0, 8(%rsp)
21:
	movq	%rbp, %r13
	jmp	9b
22:
	testb	%r8b, %r8b
	movq	24(%rsp), %rsi
	je	23f
	cmpb	(%rdx,%r11), %r8b
	jae	25f
23:
	movq	%r14, %r11
	jmp	8b
24:
	movq	%rsi, %rbx
	movl	$0, 8(%rsp)
	movq	%rbp, %r13
	movq	24(%rsp), %rsi
	movq	%r14, %r11
	jmp	9b
25:
	movl	$0, 8(%rsp)
	movq	%rbp, %r13
	movq	%r14, %r11
	jmp	9b
26:
	cmpq	$32, %rcx
	ja	28f
	movq	%r11, %r14
	movdqu	(%r10), %xmm3
	movdqu	(%rdx), %xmm4
	pcmpeqb	%xmm3, %xmm4
	pcmpeqd	%xmm2, %xmm2
	pxor	%xmm2, %xmm4
	pxor	%xmm1, %xmm1
	pcmpeqb	%xmm1, %xmm3
	por	%xmm4, %xmm3
	pmovmskb	%xmm3, %r8d
	orl	$65536, %r8d
	rep		bsfl	%r8d, %r8d
	cmpw	$16, %r8w
	jb	17b
	leaq	-16(%rcx), %r11
	movdqu	(%r10,%r11), %xmm3
	movdqu	(%rdx,%r11), %xmm4
	pcmpeqb	%xmm3, %xmm4
	pxor	%xmm2, %xmm4
	pcmpeqb	%xmm3, %xmm1
	por	%xmm4, %xmm1
	pmovmskb	%xmm1, %r8d
	orl	$65536, %r8d
27:
	rep		bsfl	%r8d, %r8d
	addq	%r11, %r8
	jmp	17b
	.p2align	4
28:
	movq	%rbx, 112(%rsp)
	movq	%r9, %rsi
	movq	%r15, %r9
	cmpq	$256, %r12
	movl	$256, %r15d
	cmovbq	%r12, %r15
	cmpq	%r15, %rcx
	movq	%r15, %rbx
	cmovbq	%rcx, %rbx
	xorl	%r8d, %r8d
	.p2align	4
29:
	movq	%rbx, %r11
	subq	%r8, %r11
	cmpq	$16, %r11
	jb	30f
	movdqu	(%r10,%r8), %xmm1
	movdqu	(%rdx,%r8), %xmm2
	pcmpeqb	%xmm1, %xmm2
	pcmpeqd	%xmm3, %xmm3
	pxor	%xmm2, %xmm3
	pxor	%xmm2, %xmm2
	pcmpeqb	%xmm1, %xmm2
	por	%xmm3, %xmm2
	pmovmskb	%xmm2, %r11d
	orl	$65536, %r11d
	rep		bsfl	%r11d, %r11d
	addq	%r11, %r8
	cmpw	$15, %r11w
	ja	29b
	movq	%rbx, %r11
	subq	%r8, %r11
30:
	cmpq	$8, %r11
	jb	31f
	movl	%r8d, %r11d
	andl	$15, %r11d
	jne	31f
	movq	(%r10,%r8), %xmm1
	movq	(%rdx,%r8), %xmm2
	pcmpeqb	%xmm1, %xmm2
	pcmpeqd	%xmm3, %xmm3
	pxor	%xmm2, %xmm3
	pxor	%xmm2, %xmm2
	pcmpeqb	%xmm1, %xmm2
	por	%xmm3, %xmm2
	pmovmskb	%xmm2, %r11d
	orl	$256, %r11d
	rep		bsfl	%r11d, %r11d
	orq	%r11, %r8
31:
	cmpq	%rbx, %r8
	jae	33f
	.p2align	4
32:
	movzbl	(%r10,%r8), %r11d
	testb	%r11b, %r11b
	je	7b
	cmpb	(%rdx,%r8), %r11b
	jne	37f
	incq	%r8
	cmpq	%r8, %rbx
	jne	32b
33:
	cmpq	%rcx, %r15
	jbe	42f
	cmpb	$0, (%r10,%rbx)
	je	35f
	movq	%rbx, %r8
34:
	incq	%r8
	addq	%r9, %r8
	movq	$-1, %r15
	cmovaeq	%r8, %r15
	movl	$0, 8(%rsp)
	jmp	36f
35:
	incq	%rbx
	addq	%r9, %rbx
	movq	$-1, %r15
	cmovaeq	%rbx, %r15
	movb	$1, %r8b
	movl	%r8d, 8(%rsp)
36:
	movq	%rbp, %r13
	movq	%rsi, %r9
	movq	24(%rsp), %rsi
	movq	112(%rsp), %rbx
	movq	88(%rsp), %r11
	jmp	9b
37:
	jae	34b
	jmp	7b
38:
	movq	%r15, 64(%rsp)
	movb	$3, %bpl
	movq	336(%rsp), %rbx
	movq	80(%rsp), %r15
	movq	32(%rsp), %r13
39:
	xorl	%edx, %edx
	xorl	%ecx, %ecx
	xorl	%r12d, %r12d
	xorl	%esi, %esi
	movl	$1, %r10d
	jmp	50f
40:
	movq	%r15, 64(%rsp)
	testb	$1, 8(%rsp)
	je	41f
	movq	%rax, %r9
	addq	$2, %r9
	movq	$-1, %rcx
	cmovbq	%rcx, %r9
	movl	4(%rdi,%rbx,8), %edi
	movq	%rbx, 112(%rsp)
	movl	%ebx, %r14d
	movq	104(%rsp), %rdx
	movzbl	(%rdx), %ebx
	cmpb	$1, %bl
	movq	80(%rsp), %r15
	movq	32(%rsp), %r13
	movl	$1, %r10d
	jne	52f
	movq	112(%rsp), %rdx
	movq	104(%rsp), %rsi
	cmpl	%edx, 4(%rsi)
	je	49f
	cmpb	$1, 8(%rsi)
	jne	52f
	movq	104(%rsp), %rdx
	addq	$16, %rdx
	movq	(%rdx), %rdx
	movzwl	(%rdx), %r10d
	testq	%r10, %r10
	jne	46f
	jmp	44f
41:
	xorl	%r10d, %r10d
	xorl	%ebp, %ebp
	xorl	%r14d, %r14d
	xorl	%edx, %edx
	xorl	%ecx, %ecx
	xorl	%r12d, %r12d
	xorl	%esi, %esi
	movq	336(%rsp), %rbx
	movq	80(%rsp), %r15
	movq	32(%rsp), %r13
	jmp	50f
42:
	addq	%r9, %rbx
	movq	$-1, %rax
	cmovaeq	%rbx, %rax
	movq	%rax, 64(%rsp)
	cmpq	$256, %r12
	movb	$4, %bpl
	sbbb	$0, %bpl
	movq	336(%rsp), %rbx
	movq	80(%rsp), %r15
	movq	32(%rsp), %r13
	movq	%rsi, %r9
	jmp	39b
43:
	movq	%r12, %r11
	shlq	$3, %r8
	jmp	45f
44:
	xorl	%r8d, %r8d
	movl	$1, %r10d
45:
	cmpw	$0, 2(%rdx)
	je	52f
	addq	%r8, %rdx
	addq	$64, %rdx
	movq	(%rdx), %rdx
	movzwl	(%rdx), %r10d
	testq	%r10, %r10
	je	44b
46:
	movq	%r11, %r12
	xorl	%r8d, %r8d
47:
	movl	4(%rdx,%r8,4), %r11d
	movq	112(%rsp), %rsi
	cmpl	%esi, %r11d
	setbe	%bpl
	addb	%bpl, %bpl
	cmpl	%esi, %r11d
	movzbl	%bpl, %ebp
	movl	$1, %r11d
	cmovnel	%ebp, %r11d
	cmpb	$2, %r11b
	jne	48f
	incq	%r8
	cmpq	%r8, %r10
	jne	47b
	movq	%r10, %r8
	movl	$1, %r10d
	jmp	43b
48:
	movzbl	%r11b, %r10d
	testl	%r10d, %r10d
	movl	$1, %r10d
	je	43b
49:
	movl	$1, %edx
	movb	$1, %bpl
	leaq	16(%rsp), %rcx
	xorl	%r10d, %r10d
	xorl	%r12d, %r12d
	xorl	%esi, %esi
	movq	336(%rsp), %rbx
50:
	movq	48(%rsp), %rdi
	movq	40(%rsp), %r11
51:
	movq	%r9, (%r11)
	movq	64(%rsp), %rax
	movq	%rax, 8(%r11)
	movq	%r13, (%rbx)
	movq	%r15, 8(%rbx)
	movzbl	%bpl, %eax
	movq	%r10, (%rdi)
	movw	%ax, 8(%rdi)
	movl	$0, 10(%rdi)
	movq	%r14, 16(%rdi)
	movq	%rdx, 24(%rdi)
	movq	%rcx, 32(%rdi)
	movq	%r12, 40(%rdi)
	movq	%rsi, 48(%rdi)
	addq	$280, %rsp
	popq	%rbx
	popq	%r12
	popq	%r13
	popq	%r14
	popq	%r15
	popq	%rbp
	retq
52:
	bswapl	%edi
	leaq	4(%rdi), %rdx
	movq	%rax, %r9
	addq	$3, %r9
	cmovbq	%rcx, %r9
	movb	$3, %bpl
	cmpq	%rdx, %r11
	jae	53f
	movq	%rdi, %r13
	movq	336(%rsp), %rbx
	jmp	54f
53:
	movb	%bl, 88(%rsp)
	movq	24(%rsp), %rcx
	movl	(%rcx,%rdi), %esi
	movl	%esi, %ecx
	bswapl	%ecx
	movq	%rcx, %r12
	leaq	(%rdx,%rcx,4), %rcx
	cmpq	%rcx, %r11
	movq	336(%rsp), %rbx
	jae	56f
	movq	%rdi, %r13
54:
	movq	48(%rsp), %rdi
	movq	40(%rsp), %r11
55:
	xorl	%edx, %edx
	movq	%r13, %r14
	xorl	%ecx, %ecx
	xorl	%r12d, %r12d
	xorl	%esi, %esi
	jmp	4b
56:
	cmpl	$16777216, %esi
	jne	58f
	testq	%r13, %r13
	je	68f
	movl	%esi, 156(%rsp)
	decq	%r13
	movq	%r13, 32(%rsp)
	addq	$4, %rax
	movq	$-1, %r9
	cmovaeq	%rax, %r9
	movq	24(%rsp), %rsi
	movl	(%rsi,%rdx), %r13d
	bswapl	%r13d
	subq	%r13, %r11
	jbe	54b
	addq	%r13, %rsi
	cmpq	$32, %r11
	movq	64(%rsp), %r15
	movq	%rsi, 24(%rsp)
	jae	74f
57:
	movq	%r9, 8(%rsp)
	cmpq	$256, %r11
	movl	$256, %ebp
	cmovbq	%r11, %rbp
	movq	%r11, %rbx
	xorl	%edi, %edi
	movq	%rbp, %rdx
	callq	"memchr::bytes::memchr"
	cmpb	$1, %al
	jne	88f
	movq	%rdx, %r12
	movq	%rdx, %rax
	incq	%rax
	addq	%r15, %rax
	movq	$-1, %rcx
	cmovaeq	%rax, %rcx
	movq	%rcx, 64(%rsp)
	movq	336(%rsp), %rbx
	movq	8(%rsp), %r9
	jmp	76f
58:
	leaq	16(%rsp), %rax
	movq	%rax, 144(%rsp)
	movq	%rax, 160(%rsp)
	pxor	%xmm0, %xmm0
	movdqu	%xmm0, 168(%rsp)
	movl	%esi, 156(%rsp)
	testl	%esi, %esi
	je	69f
	movq	%r13, %rax
	movq	%r12, %r8
	subq	%r12, %rax
	movq	%rax, 72(%rsp)
	decq	%r13
	xorl	%r12d, %r12d
59:
	cmpq	$-1, %r13
	je	70f
	movq	%r13, 32(%rsp)
	movq	%r9, %rax
	incq	%rax
	movq	$-1, %r9
	cmovneq	%rax, %r9
	movq	96(%rsp), %rax
	movq	(%rax), %rsi
	movq	8(%rax), %rbp
	movl	4(%rsi,%rdi), %r13d
	bswapl	%r13d
	subq	%r13, %rbp
	movq	64(%rsp), %r15
	jbe	71f
	addq	%r13, %rsi
	cmpq	$32, %rbp
	jae	62f
60:
	movq	%r8, 24(%rsp)
	movq	%rdi, 56(%rsp)
	movq	%r12, 88(%rsp)
	movq	%r9, 8(%rsp)
	cmpq	$256, %rbp
	movl	$256, %r12d
	cmovbq	%rbp, %r12
	xorl	%edi, %edi
	movq	%rsi, 120(%rsp)
	movq	%r12, %rdx
	callq	"memchr::bytes::memchr"
	cmpb	$1, %al
	jne	86f
	leaq	1(%rdx), %rax
	addq	%r15, %rax
	movq	$-1, %rcx
	movq	336(%rsp), %rbx
	movl	$1, %r10d
	jb	61f
	movq	%rax, %rcx
61:
	movq	%rcx, 64(%rsp)
	movq	80(%rsp), %r15
	movq	32(%rsp), %r13
	movq	8(%rsp), %r9
	movq	88(%rsp), %r12
	movq	56(%rsp), %rdi
	movq	24(%rsp), %r8
	movq	120(%rsp), %rsi
	jmp	65f
62:
	movdqu	(%rsi), %xmm1
	pxor	%xmm0, %xmm0
	pcmpeqb	%xmm0, %xmm1
	pmovmskb	%xmm1, %ecx
	movl	$64, %eax
	movl	$64, %edx
	rep		bsfq	%rcx, %rdx
	cmpq	$16, %rdx
	jb	63f
	movdqu	16(%rsi), %xmm1
	pcmpeqb	%xmm0, %xmm1
	pmovmskb	%xmm1, %ecx
	rep		bsfq	%rcx, %rax
	cmpq	$15, %rax
	ja	60b
	orq	$16, %rax
	movq	%rax, %rdx
63:
	leaq	1(%rdx), %rax
	addq	%r15, %rax
	movq	$-1, %rcx
	jb	64f
	movq	%rax, %rcx
64:
	movq	%rcx, 64(%rsp)
	movq	80(%rsp), %r15
	movq	32(%rsp), %r13
65:
	cmpq	%r12, 176(%rsp)
	je	67f
66:
	movq	%r12, %rax
	shlq	$4, %rax
	movq	144(%rsp), %rcx
	movq	%rsi, (%rcx,%rax)
	movq	%rdx, 8(%rcx,%rax)
	incq	%r12
	movq	%r12, 168(%rsp)
	decq	%r13
	addq	$4, %rdi
	decq	%r8
	jne	59b
	jmp	73f
67:
	movq	%rsi, 120(%rsp)
	movq	%r8, 24(%rsp)
	movq	%rdi, %rbp
	movq	%r9, 8(%rsp)
	movq	%rdx, %r13
	movq	48(%rsp), %r12
	leaq	160(%rsp), %rdi
	callq	"std_alloc::vec::Vec::grow_amortized::<#e4aeda12d7b82ffa>"
	testb	%al, %al
	je	127f
	movq	160(%rsp), %rax
	movq	%rax, 144(%rsp)
	movq	168(%rsp), %r12
	movq	%r13, %rdx
	movq	336(%rsp), %rbx
	movq	80(%rsp), %r15
	movq	32(%rsp), %r13
	movq	8(%rsp), %r9
	movl	$1, %r10d
	movq	%rbp, %rdi
	movq	24(%rsp), %r8
	movq	120(%rsp), %rsi
	jmp	66b
68:
	movb	$5, %bpl
	movq	$0, 32(%rsp)
	xorl	%r13d, %r13d
	jmp	54b
69:
	movl	$1, %edx
	movq	%rax, 24(%rsp)
	xorl	%r12d, %r12d
	xorl	%esi, %esi
	jmp	77f
70:
	movb	$5, %bpl
	movq	$0, 32(%rsp)
	xorl	%r13d, %r13d
	movq	64(%rsp), %r15
	jmp	72f
71:
	movb	$3, %bpl
72:
	movq	48(%rsp), %rdi
	movq	40(%rsp), %r11
	jmp	87f
73:
	movq	160(%rsp), %rax
	movq	%rax, 24(%rsp)
	movq	176(%rsp), %rsi
	movq	104(%rsp), %rax
	movzbl	(%rax), %eax
	movb	%al, 88(%rsp)
	movl	$1, %edx
	movq	72(%rsp), %r13
	jmp	77f
74:
	movdqu	(%rsi), %xmm1
	pxor	%xmm0, %xmm0
	pcmpeqb	%xmm0, %xmm1
	pmovmskb	%xmm1, %ecx
	movl	$64, %eax
	movl	$64, %r12d
	rep		bsfq	%rcx, %r12
	cmpq	$16, %r12
	jb	75f
	movq	24(%rsp), %rsi
	movdqu	16(%rsi), %xmm1
	pcmpeqb	%xmm0, %xmm1
	pmovmskb	%xmm1, %ecx
	rep		bsfq	%rcx, %rax
	cmpq	$15, %rax
	ja	57b
	orq	$16, %rax
	movq	%rax, %r12
75:
	leaq	1(%r12), %rax
	addq	%r15, %rax
	movq	$-1, %rcx
	cmovaeq	%rax, %rcx
	movq	%rcx, 64(%rsp)
76:
	xorl	%edx, %edx
	xorl	%esi, %esi
	movq	80(%rsp), %r15
	movq	32(%rsp), %r13
77:
	cmpb	$1, 88(%rsp)
	jne	78f
	movq	%rdx, 144(%rsp)
	movq	%r12, 88(%rsp)
	movq	%r13, 32(%rsp)
	movq	104(%rsp), %rbx
	cmpb	$1, 8(%rbx)
	movq	%rsi, 120(%rsp)
	jne	79f
	movq	16(%rbx), %rdx
	jmp	80f
78:
	movq	104(%rsp), %rcx
	movl	$1, (%rcx)
	movq	112(%rsp), %rax
	movl	%eax, 4(%rcx)
	movb	$1, %bpl
	xorl	%r10d, %r10d
	movq	24(%rsp), %rcx
	jmp	50b
79:
	movq	%r9, 8(%rsp)
	movl	$64, %edi
	movl	$8, %esi
	callq	rattle_alloc@PLT
	testb	$1, %al
	je	90f
	movl	$0, (%rdx)
	movzbl	8(%rbx), %eax
	movq	$1, 8(%rbx)
	movq	%rdx, 16(%rbx)
	cmpb	$1, %al
	movq	8(%rsp), %r9
	je	136f
80:
	leaq	16(%rbx), %r12
	movzwl	2(%rdx), %eax
	movl	$15, %ebp
	subq	%rax, %rbp
	movq	%rax, 56(%rsp)
	movl	%eax, %ebx
	negb	%bl
	xorl	%r11d, %r11d
	movq	%rdx, %rsi
	xorl	%r15d, %r15d
	movq	%rdx, 96(%rsp)
	movq	%rbp, 72(%rsp)
	xorl	%r13d, %r13d
81:
	movq	%rsi, %rcx
	movzwl	(%rsi), %esi
	xorl	%eax, %eax
	testq	%rsi, %rsi
	je	84f
82:
	movl	4(%rcx,%rax,4), %r8d
	movq	112(%rsp), %rdi
	cmpl	%edi, %r8d
	setbe	%r10b
	addb	%r10b, %r10b
	cmpl	%edi, %r8d
	movzbl	%r10b, %r10d
	movl	$1, %r8d
	cmovnel	%r10d, %r8d
	cmpb	$2, %r8b
	jne	83f
	incq	%rax
	cmpq	%rax, %rsi
	jne	82b
	movq	%rsi, %rax
	jmp	84f
83:
	movzbl	%r8b, %esi
	testl	%esi, %esi
	jne	85f
84:
	shlq	$4, %r13
	addq	%rax, %r13
	incq	%rbp
	cmpw	$0, 2(%rcx)
	je	89f
	movq	64(%rcx,%rax,8), %rsi
	incq	%r11
	incb	%bl
	movq	%rax, %r15
	movq	%rcx, 96(%rsp)
	jmp	81b
85:
	andl	$15, %eax
	movq	56(%rsp), %rcx
	addq	%rbp, %rcx
	cmpq	$15, %rcx
	movq	96(%rsp), %rcx
	leaq	64(%rcx,%r15,8), %rcx
	cmoveq	%r12, %rcx
	movq	(%rcx), %rcx
	movzwl	(%rcx), %ecx
	cmpl	%ecx, %eax
	movq	336(%rsp), %rbx
	movq	88(%rsp), %r12
	movq	120(%rsp), %rsi
	jae	136f
	movb	$1, %bpl
	xorl	%r10d, %r10d
	movq	80(%rsp), %r15
	movq	32(%rsp), %r13
	movq	24(%rsp), %rcx
	movq	48(%rsp), %rdi
	movq	40(%rsp), %r11
	movq	144(%rsp), %rdx
	jmp	51b
86:
	addq	%r15, %r12
	movq	$-1, %r15
	cmovaeq	%r12, %r15
	cmpq	$256, %rbp
	movb	$4, %bpl
	sbbb	$0, %bpl
	movq	48(%rsp), %rdi
	movq	40(%rsp), %r11
	movq	336(%rsp), %rbx
	movq	8(%rsp), %r9
	movl	$1, %r10d
87:
	cmpq	$0, 176(%rsp)
	movq	%r15, 64(%rsp)
	je	55b
	movq	%rdi, %r12
	movq	144(%rsp), %rdi
	movq	%r11, %r14
	movq	%r9, %r15
	callq	rattle_dealloc@PLT
	movl	$1, %r10d
	movq	%r15, %r9
	movq	336(%rsp), %rbx
	movq	%r14, %r11
	movq	%r12, %rdi
	jmp	55b
88:
	addq	%r15, %rbp
	movq	$-1, %rax
	cmovaeq	%rbp, %rax
	movq	%rax, 64(%rsp)
	cmpq	$256, %rbx
	movb	$4, %bpl
	sbbb	$0, %bpl
	movq	48(%rsp), %rdi
	movq	40(%rsp), %r11
	movq	336(%rsp), %rbx
	movq	8(%rsp), %r9
	movl	$1, %r10d
	jmp	55b
89:
	movq	%r11, 192(%rsp)
	movq	%r9, 8(%rsp)
	movabsq	$9223372036854775806, %rax
	movq	104(%rsp), %rcx
	cmpq	%rax, 24(%rcx)
	jbe	94f
90:
	xorl	%r14d, %r14d
	movb	$7, %bpl
	cmpl	$16777216, 156(%rsp)
	movq	120(%rsp), %rax
	je	92f
	testq	%rax, %rax
	movq	80(%rsp), %r15
	movq	32(%rsp), %r13
	movq	24(%rsp), %rdi
	je	91f
	callq	rattle_dealloc@PLT
	xorl	%r14d, %r14d
91:
	xorl	%edx, %edx
	xorl	%ecx, %ecx
	xorl	%r12d, %r12d
	xorl	%esi, %esi
	movq	48(%rsp), %rdi
	movq	40(%rsp), %r11
	movq	336(%rsp), %rbx
	jmp	93f
92:
	xorl	%edx, %edx
	xorl	%ecx, %ecx
	xorl	%r12d, %r12d
	xorl	%esi, %esi
	movq	48(%rsp), %rdi
	movq	40(%rsp), %r11
	movq	336(%rsp), %rbx
	movq	80(%rsp), %r15
	movq	32(%rsp), %r13
93:
	movq	8(%rsp), %r9
	movl	$1, %r10d
	jmp	51b
94:
	movq	%rbp, %rax
	subq	72(%rsp), %rax
	movq	%rax, 224(%rsp)
	cmpq	$1, %rax
	movq	96(%rsp), %rax
	leaq	64(%rax,%r15,8), %rax
	movq	%r12, 136(%rsp)
	cmoveq	%r12, %rax
	movq	(%rax), %rax
	cmpw	$15, (%rax)
	jb	132f
	cmpw	$15, (%rdx)
	movq	72(%rsp), %rax
	jae	129f
95:
	pxor	%xmm0, %xmm0
	movdqa	%xmm0, 160(%rsp)
	movq	%rbp, %rcx
	subq	%rax, %rcx
	movq	%rcx, 224(%rsp)
	jbe	99f
	movl	%ebp, %ecx
	subl	%eax, %ecx
	movq	192(%rsp), %rdi
	addq	72(%rsp), %rdi
	subq	%rax, %rdi
	testb	$3, %cl
	je	97f
	subb	%al, %bl
	movzbl	%bl, %ecx
	andl	$3, %ecx
96:
	movl	%r13d, %esi
	andb	$15, %sil
	movb	%sil, 159(%rsp,%rbp)
	decq	%rbp
	shrq	$4, %r13
	decq	%rcx
	jne	96b
97:
	cmpq	$3, %rdi
	jb	99f
98:
	movl	%r13d, %ecx
	andb	$15, %cl
	movb	%cl, 159(%rsp,%rbp)
	movl	%r13d, %ecx
	shrb	$4, %cl
	movb	%cl, 158(%rsp,%rbp)
	movl	%r13d, %ecx
	shrl	$8, %ecx
	andb	$15, %cl
	movb	%cl, 157(%rsp,%rbp)
	movl	%r13d, %ecx
	shrl	$12, %ecx
	andb	$15, %cl
	movb	%cl, 156(%rsp,%rbp)
	addq	$-4, %rbp
	shrq	$16, %r13
	cmpq	%rbp, %rax
	jb	98b
99:
	movdqa	160(%rsp), %xmm0
	movdqa	%xmm0, 208(%rsp)
	movl	$16, %esi
	subq	%rax, %rsi
	cmpq	$2, %rsi
	jb	131f
	movq	%rsi, %rcx
	leaq	(%rsp,%rax), %r13
	addq	$208, %r13
	movq	136(%rsp), %rsi
	jmp	103f
100:
	movq	248(%rsp), %rdx
	incl	%edx
	movb	%dl, (%r13)
	addb	$-8, %al
	movb	%al, 1(%r13)
101:
	movq	232(%rsp), %rcx
102:
	movzbl	%dl, %r15d
	leaq	(%rdi,%r15,8), %rsi
	addq	$64, %rsi
	incq	%r13
	cmpq	$2, %rcx
	leaq	-1(%rcx), %rcx
	jbe	130f
103:
	movzbl	(%r13), %ebx
	movl	%ebx, %edx
	movq	(%rsi), %rdi
	movq	64(%rdi,%rbx,8), %rax
	cmpw	$15, (%rax)
	jb	102b
	movq	%rsi, 192(%rsp)
	movq	%rdx, 248(%rsp)
	movq	%rcx, 232(%rsp)
	movzwl	2(%rdi), %ebp
	decq	%rbp
	je	104f
	movl	$192, %edi
	jmp	105f
104:
	movl	$64, %edi
105:
	movl	$8, %esi
	callq	rattle_alloc@PLT
	movq	%rdx, 56(%rsp)
	testb	$1, %al
	je	134f
	movq	56(%rsp), %r15
	movw	%bp, 2(%r15)
	leaq	4(%r15), %rdi
	movq	192(%rsp), %rax
	movq	(%rax), %rax
	movzwl	(%rax), %ecx
	xorl	%esi, %esi
	cmpw	$0, 2(%rax)
	movq	%rcx, 240(%rsp)
	leaq	1(%rcx), %rdx
	movq	%rdx, 272(%rsp)
	cmovneq	%rdx, %rsi
	movq	%rsi, 264(%rsp)
	movq	%rax, 96(%rsp)
	movq	64(%rax,%rbx,8), %rbp
	movzwl	2(%rbp), %eax
	movw	%ax, 134(%rsp)
	movzwl	(%rbp), %ecx
	leaq	-8(%rcx), %rax
	movq	%rax, 256(%rsp)
	leaq	36(%rbp), %rsi
	movq	%rcx, 72(%rsp)
	leaq	-32(,%rcx,4), %rdx
	movq	%rdi, %rax
	subq	%rsi, %rax
	cmpq	%rdx, %rax
	jae	111f
	movq	72(%rsp), %rax
	addq	$-8, %rax
	testq	%rax, %rax
	je	112f
	cmpl	$8, %eax
	jb	106f
	movq	56(%rsp), %rax
	subq	%rbp, %rax
	addq	$-32, %rax
	cmpq	$32, %rax
	jae	123f
106:
	xorl	%eax, %eax
107:
	movq	72(%rsp), %rdx
	movq	%rax, %rcx
	andq	$3, %rdx
	je	109f
	movq	%rax, %rcx
108:
	movl	(%rsi,%rcx,4), %r8d
	movl	%r8d, (%rdi,%rcx,4)
	incq	%rcx
	decq	%rdx
	jne	108b
109:
	negq	%rax
	movq	72(%rsp), %rdx
	addq	%rdx, %rax
	addq	$-9, %rax
	cmpl	$3, %eax
	movq	56(%rsp), %r15
	leaq	-8(%rdx), %rdx
	jb	112f
110:
	movl	36(%rbp,%rcx,4), %eax
	movl	%eax, 4(%r15,%rcx,4)
	movl	40(%rbp,%rcx,4), %eax
	movl	%eax, 8(%r15,%rcx,4)
	movl	44(%rbp,%rcx,4), %eax
	movl	%eax, 12(%r15,%rcx,4)
	movl	48(%rbp,%rcx,4), %eax
	movl	%eax, 16(%r15,%rcx,4)
	addq	$4, %rcx
	cmpq	%rcx, %rdx
	jne	110b
	jmp	112f
111:
	callq	memmove@PLT
112:
	movl	32(%rbp), %eax
	movl	%eax, 204(%rsp)
	cmpw	$0, 134(%rsp)
	je	119f
	leaq	64(%r15), %rdi
	leaq	128(%rbp), %rsi
	movq	72(%rsp), %rax
	leaq	-56(,%rax,8), %rdx
	movq	%rdi, %rax
	subq	%rsi, %rax
	cmpq	%rdx, %rax
	jae	118f
	movq	72(%rsp), %rax
	addq	$-7, %rax
	movq	56(%rsp), %r15
	je	119f
	cmpl	$4, %eax
	jb	113f
	movq	56(%rsp), %rcx
	subq	%rbp, %rcx
	addq	$-64, %rcx
	cmpq	$32, %rcx
	jae	125f
113:
	xorl	%ecx, %ecx
114:
	movq	72(%rsp), %rdx
	movl	%edx, %r8d
	notl	%r8d
	movq	%rcx, %rdx
	testb	$3, %r8b
	je	116f
	movq	72(%rsp), %rdx
	leal	1(%rdx), %r8d
	andl	$3, %r8d
	movq	%rcx, %rdx
115:
	movq	(%rsi,%rdx,8), %r9
	movq	%r9, (%rdi,%rdx,8)
	incq	%rdx
	decq	%r8
	jne	115b
116:
	negq	%rcx
	movq	72(%rsp), %rsi
	addq	%rsi, %rcx
	addq	$-8, %rcx
	cmpl	$3, %ecx
	movq	56(%rsp), %r15
	jb	119f
117:
	movq	128(%rbp,%rdx,8), %rcx
	movq	%rcx, 64(%r15,%rdx,8)
	movq	136(%rbp,%rdx,8), %rcx
	movq	%rcx, 72(%r15,%rdx,8)
	movq	144(%rbp,%rdx,8), %rcx
	movq	%rcx, 80(%r15,%rdx,8)
	movq	152(%rbp,%rdx,8), %rcx
	movq	%rcx, 88(%r15,%rdx,8)
	addq	$4, %rdx
	cmpq	%rdx, %rax
	jne	117b
	jmp	119f
118:
	callq	memmove@PLT
	movq	56(%rsp), %r15
119:
	movq	96(%rsp), %rax
	leaq	64(%rax), %r12
	addq	$4, %rax
	movw	$7, (%rbp)
	movq	256(%rsp), %rcx
	movw	%cx, (%r15)
	movq	%rbp, (%r12,%rbx,8)
	leaq	(%rax,%rbx,4), %r15
	cmpl	%ebx, 240(%rsp)
	je	120f
	leaq	4(%r15), %rdi
	movq	240(%rsp), %rdx
	subq	%rbx, %rdx
	shlq	$2, %rdx
	movq	%r15, %rsi
	callq	memmove@PLT
120:
	movl	204(%rsp), %eax
	movl	%eax, (%r15)
	incq	%rbx
	movq	264(%rsp), %rdx
	cmpl	%ebx, %edx
	jne	121f
	shll	$3, %edx
	jmp	122f
121:
	leal	(,%rbx,8), %r15d
	leaq	(%r12,%r15), %rdi
	addq	$8, %rdi
	addq	%r15, %r12
	subq	%rbx, %rdx
	shlq	$3, %rdx
	movq	%r12, %rsi
	callq	memmove@PLT
	movq	%r15, %rdx
122:
	movq	96(%rsp), %rdi
	movq	56(%rsp), %rax
	movq	%rax, 64(%rdi,%rdx)
	movq	272(%rsp), %rax
	movw	%ax, (%rdi)
	movq	192(%rsp), %rax
	movq	%rdi, (%rax)
	movzbl	1(%r13), %eax
	cmpb	$7, %al
	ja	100b
	movzbl	(%r13), %edx
	jmp	101b
123:
	movq	72(%rsp), %rax
	addq	$-8, %rax
	andq	$-8, %rax
	xorl	%ecx, %ecx
	movq	56(%rsp), %r15
124:
	movdqu	36(%rbp,%rcx,4), %xmm0
	movdqu	52(%rbp,%rcx,4), %xmm1
	movdqu	%xmm0, 4(%r15,%rcx,4)
	movdqu	%xmm1, 20(%r15,%rcx,4)
	addq	$8, %rcx
	cmpq	%rcx, %rax
	jne	124b
	movq	72(%rsp), %rcx
	addq	$-8, %rcx
	cmpl	%eax, %ecx
	je	112b
	jmp	107b
125:
	movq	%rax, %rcx
	andq	$-4, %rcx
	xorl	%edx, %edx
	movq	56(%rsp), %r15
126:
	movdqu	128(%rbp,%rdx,8), %xmm0
	movdqu	144(%rbp,%rdx,8), %xmm1
	movdqu	%xmm0, 64(%r15,%rdx,8)
	movdqu	%xmm1, 80(%r15,%rdx,8)
	addq	$4, %rdx
	cmpq	%rdx, %rcx
	jne	126b
	cmpl	%ecx, %eax
	je	119b
	jmp	114b
127:
	cmpq	$0, 176(%rsp)
	je	128f
	movq	160(%rsp), %rdi
	callq	rattle_dealloc@PLT
128:
	xorl	%r13d, %r13d
	movq	%r12, %rdi
	movq	40(%rsp), %r11
	movq	336(%rsp), %rbx
	movq	8(%rsp), %r9
	movl	$1, %r10d
	movb	$7, %bpl
	jmp	55b
129:
	cmpw	$10, 56(%rsp)
	ja	90b
	movl	$192, %edi
	movl	$8, %esi
	callq	rattle_alloc@PLT
	testb	$1, %al
	je	90b
	movq	56(%rsp), %rsi
	leal	1(%rsi), %eax
	movw	%ax, 2(%rdx)
	movq	136(%rsp), %rcx
	movq	(%rcx), %rax
	movq	%rax, 64(%rdx)
	movw	$0, (%rdx)
	movq	%rdx, (%rcx)
	movl	$14, %eax
	subq	%rsi, %rax
	jmp	95b
130:
	movq	%rdi, 96(%rsp)
	movq	136(%rsp), %rax
	movq	(%rax), %rdx
131:
	cmpw	$0, (%rdx)
	je	135f
	movq	104(%rsp), %rax
	cmpb	$1, 8(%rax)
	jne	136f
	movzbl	223(%rsp), %r13d
132:
	shlq	$3, %r15
	cmpq	$1, 224(%rsp)
	movq	96(%rsp), %rax
	leaq	64(%rax,%r15), %r15
	cmoveq	136(%rsp), %r15
	andl	$15, %r13d
	movq	(%r15), %rbp
	movzwl	(%rbp), %ebx
	leal	(,%r13,4), %r12d
	movq	%rbx, %rdx
	subq	%r13, %rdx
	je	133f
	leaq	4(%rbp), %rsi
	leaq	(%rsi,%r12), %rdi
	addq	$4, %rdi
	addq	%r12, %rsi
	shlq	$2, %rdx
	callq	memmove@PLT
133:
	incl	%ebx
	movq	112(%rsp), %rax
	movl	%eax, 4(%rbp,%r12)
	movw	%bx, (%rbp)
	movq	%rbp, (%r15)
	movq	104(%rsp), %rax
	incq	24(%rax)
	movb	$1, %bpl
	xorl	%r10d, %r10d
	movq	48(%rsp), %rdi
	movq	40(%rsp), %r11
	movq	336(%rsp), %rbx
	movq	80(%rsp), %r15
	movq	32(%rsp), %r13
	movq	8(%rsp), %r9
	movq	24(%rsp), %rcx
	movq	88(%rsp), %r12
	movq	144(%rsp), %rdx
	movq	120(%rsp), %rsi
	jmp	51b
134:
	movq	136(%rsp), %rax
	movq	(%rax), %rdx
	cmpw	$0, (%rdx)
	jne	90b
135:
	cmpw	$0, 2(%rdx)
	je	90b
	movq	64(%rdx), %rbx
	movq	%rdx, %rdi
	callq	rattle_dealloc@PLT
	movq	136(%rsp), %rax
	movq	%rbx, (%rax)
	jmp	90b
136:
	ud2
137:
	.size	"mime_view::cache::Cache::parents_of", 137b-"mime_view::cache::Cache::parents_of"

	.section	.rodata.cst16,"aM",@progbits,16
	.p2align	4, 0x0
1:
	.quad	1,1
	.text
	.p2align	4
	.type	"mime_view::cache::Cache::rule_hits",@function
"mime_view::cache::Cache::rule_hits":
	pushq	%rbp
	pushq	%r15
	pushq	%r14
	pushq	%r13
	pushq	%r12
	pushq	%rbx
	subq	$344, %rsp
	movq	%r9, %rbp
	movq	%r8, %rbx
	movq	%rsi, %r15
	movq	%rdi, %r13
	movq	$0, 264(%rsp)
	movq	%rsi, 240(%rsp)
	movq	%rdx, 248(%rsp)
	movq	%rcx, 256(%rsp)
	movb	$2, 264(%rsp)
	movl	36(%rsi), %eax
	movq	28(%rsi), %rcx
	movq	%rcx, 88(%rsp)
	movl	%eax, 96(%rsp)
	xorps	%xmm0, %xmm0
	movups	%xmm0, 120(%rsp)
	movaps	%xmm0, 32(%rsp)
	movq	$0, 48(%rsp)
	movups	%xmm0, 136(%rsp)
	movups	%xmm0, 152(%rsp)
	movq	$1, 112(%rsp)
	movups	(%r8), %xmm0
	movups	%xmm0, 168(%rsp)
	movups	(%r9), %xmm0
	movups	%xmm0, 184(%rsp)
	leaq	32(%rsp), %rdi
	leaq	240(%rsp), %rsi
	leaq	88(%rsp), %rdx
	leaq	112(%rsp), %rcx
	callq	"mime_view::name::gather_hits"
	movq	168(%rsp), %rcx
	movq	176(%rsp), %r9
	movdqu	184(%rsp), %xmm0
	movdqa	%xmm0, 320(%rsp)
	cmpb	$0, 32(%rsp)
	movq	%rbx, 232(%rsp)
	je	2f
	movq	48(%rsp), %r8
	movd	42(%rsp), %xmm1
	movzbl	40(%rsp), %esi
	movq	128(%rsp), %rdi
	cmpb	$0, 112(%rsp)
	je	5f
	cmpb	$1, 120(%rsp)
	jne	7f
	cmpq	$0, 144(%rsp)
	jne	6f
	jmp	7f
2:
	movq	%rcx, (%rsp)
	leaq	128(%rsp), %rax
	movzbl	120(%rsp), %ecx
	movups	(%rax), %xmm0
	movups	16(%rax), %xmm1
	movaps	%xmm0, 272(%rsp)
	movaps	%xmm1, 288(%rsp)
	movq	32(%rax), %rax
	movq	%rax, 304(%rsp)
	cmpb	$0, 112(%rsp)
	je	15f
	leaq	120(%rsp), %r12
	movdqa	272(%rsp), %xmm0
	movdqa	288(%rsp), %xmm1
	movdqu	%xmm0, 120(%rsp)
	movq	304(%rsp), %rdi
	movq	%rdi, 152(%rsp)
	movdqu	%xmm1, 136(%rsp)
	movq	%rcx, 112(%rsp)
	testl	%ecx, %ecx
	movq	128(%rsp), %rax
	movq	%rax, %rsi
	cmoveq	%rdi, %rsi
	cmpq	$2, %rsi
	jb	9f
	movq	%rbp, 16(%rsp)
	movq	%r9, %rbp
	movq	%r12, %rdi
	testb	%cl, %cl
	je	3f
	movq	120(%rsp), %rdi
3:
	callq	"core::slice::sort::slice+T::sort_by::<#67790cc31fa64999>"
	movzbl	112(%rsp), %ecx
	testb	%al, %al
	je	8f
	xorl	%r8d, %r8d
	pxor	%xmm1, %xmm1
	movw	$7, %si
	movl	$1, %r15d
	movl	$0, %r14d
	cmpb	$1, %cl
	movq	%rbp, %r9
	jne	4f
	cmpq	$0, 136(%rsp)
	je	4f
	movq	120(%rsp), %rdi
	callq	rattle_dealloc@PLT
	pxor	%xmm1, %xmm1
	movw	$7, %si
	movq	%rbp, %r9
	xorl	%r14d, %r14d
	xorl	%r8d, %r8d
4:
	xorl	%r12d, %r12d
	xorl	%ebx, %ebx
	movq	(%rsp), %rcx
	movq	16(%rsp), %rbp
	jmp	16f
5:
	cmpb	$1, %dil
	jne	7f
	cmpq	$0, 152(%rsp)
	je	7f
	movq	136(%rsp), %rdi
6:
	movq	%rcx, %rbx
	movq	%r9, %r14
	movq	%rsi, %r15
	movq	%r8, %r12
	movdqa	%xmm1, 64(%rsp)
	callq	rattle_dealloc@PLT
	movdqa	64(%rsp), %xmm1
	movq	%r12, %r8
	movq	%r15, %rsi
	movq	%r14, %r9
	movq	%rbx, %rcx
7:
	movl	$1, %r15d
	xorl	%r14d, %r14d
	xorl	%r12d, %r12d
	xorl	%ebx, %ebx
	jmp	16f
8:
	movq	128(%rsp), %rax
	movq	152(%rsp), %rdi
	movq	%rbp, %r9
	movq	16(%rsp), %rbp
9:
	testb	%cl, %cl
	je	10f
	movq	120(%rsp), %r12
	movq	%rax, %rdi
10:
	testq	%rdi, %rdi
	je	11f
	movq	%r9, 8(%rsp)
	movl	(%r12), %eax
	cmpq	$4, %rdi
	jae	13f
	xorl	%ebx, %ebx
	xorl	%ecx, %ecx
	jmp	17f
11:
	leaq	24(%rsp), %rsi
	movq	%rsi, %rax
	shrq	$32, %rax
	movq	%rsi, %r14
	movd	%esi, %xmm1
	psrld	$16, %xmm1
	pinsrw	$1, %eax, %xmm1
	shrq	$48, %r14
	xorl	%ebx, %ebx
	xorl	%edi, %edi
	xorl	%r12d, %r12d
	xorl	%r15d, %r15d
	cmpb	$1, %cl
	jne	35f
12:
	cmpq	$0, 136(%rsp)
	je	35f
	movq	%rdi, 104(%rsp)
	movq	120(%rsp), %rdi
	movq	%r9, 8(%rsp)
	movq	%rsi, %r15
	movdqa	%xmm1, 64(%rsp)
	callq	rattle_dealloc@PLT
	movdqa	64(%rsp), %xmm1
	movq	%r15, %rsi
	movq	8(%rsp), %r9
	xorl	%r15d, %r15d
	movq	104(%rsp), %r8
	movq	(%rsp), %rcx
	jmp	16f
13:
	movq	%rdi, %rcx
	andq	$-4, %rcx
	movd	%eax, %xmm0
	pshufd	$0, %xmm0, %xmm1
	pxor	%xmm0, %xmm0
	xorl	%edx, %edx
	pxor	%xmm2, %xmm2
	.p2align	4
14:
	movd	(%r12,%rdx,8), %xmm3
	pinsrd	$1, 8(%r12,%rdx,8), %xmm3
	movd	16(%r12,%rdx,8), %xmm4
	pinsrd	$1, 24(%r12,%rdx,8), %xmm4
	pcmpeqd	%xmm1, %xmm3
	pmovzxdq	%xmm3, %xmm3
	movdqa	1b(%rip), %xmm5
	pand	%xmm5, %xmm3
	paddq	%xmm3, %xmm2
	pcmpeqd	%xmm1, %xmm4
	pmovzxdq	%xmm4, %xmm3
	pand	%xmm5, %xmm3
	paddq	%xmm3, %xmm0
	addq	$4, %rdx
	cmpq	%rdx, %rcx
	jne	14b
	paddq	%xmm2, %xmm0
	pshufd	$238, %xmm0, %xmm1
	paddq	%xmm0, %xmm1
	movq	%xmm1, %rbx
	jmp	18f
15:
	ud2
16:
	movq	232(%rsp), %rax
	movq	%rcx, (%rax)
	movq	%r9, 8(%rax)
	movaps	320(%rsp), %xmm0
	movups	%xmm0, (%rbp)
	movq	%r15, (%r13)
	movw	%si, 8(%r13)
	movd	%xmm1, 10(%r13)
	movw	%r14w, 14(%r13)
	movq	%r8, 16(%r13)
	movq	%r12, 24(%r13)
	movq	%rbx, 32(%r13)
	addq	$344, %rsp
	popq	%rbx
	popq	%r12
	popq	%r13
	popq	%r14
	popq	%r15
	popq	%rbp
	retq
17:
	xorl	%edx, %edx
	cmpl	%eax, (%r12,%rcx,8)
	sete	%dl
	addq	%rdx, %rbx
	incq	%rcx
18:
	cmpq	%rcx, %rdi
	jne	17b
	movw	$0, 60(%rsp)
	movl	$0, 56(%rsp)
	movw	$7, %si
	movabsq	$384307168202282325, %rax
	cmpq	%rax, %rdi
	ja	27f
	leaq	(,%rdi,8), %rax
	movq	%rdi, %r14
	leaq	(%rax,%rax,2), %rdi
	movl	$8, %esi
	callq	rattle_alloc@PLT
	testb	$1, %al
	je	29f
	movq	%rbp, 16(%rsp)
	movq	%r13, 80(%rsp)
	movq	%rdx, 32(%rsp)
	movq	$0, 40(%rsp)
	movq	%r14, 48(%rsp)
	xorl	%edi, %edi
	xorl	%r13d, %r13d
	movq	8(%rsp), %r9
	movq	%r14, %r10
	movq	%r14, 200(%rsp)
	movq	%r15, 216(%rsp)
	.p2align	4
19:
	movl	4(%r12,%r13,8), %r8d
	movq	8(%r15), %rbp
	subq	%r8, %rbp
	jbe	33f
	movq	(%r15), %rsi
	addq	%r8, %rsi
	cmpq	$32, %rbp
	jae	22f
20:
	movq	%r13, 224(%rsp)
	movq	%rdx, 8(%rsp)
	movq	%rdi, 104(%rsp)
	movq	%r8, 208(%rsp)
	movq	%r9, %r13
	cmpq	$256, %rbp
	movl	$256, %r15d
	cmovbq	%rbp, %r15
	xorl	%edi, %edi
	movq	%rsi, 64(%rsp)
	movq	%r15, %rdx
	callq	"memchr::bytes::memchr"
	cmpb	$1, %al
	jne	36f
	movq	%rdx, %r14
	leaq	1(%rdx), %rax
	addq	%r13, %rax
	movq	$-1, %r9
	movq	200(%rsp), %r10
	movq	8(%rsp), %rdx
	jb	21f
	movq	%rax, %r9
21:
	movq	216(%rsp), %r15
	movq	104(%rsp), %rdi
	movq	224(%rsp), %r13
	movq	64(%rsp), %rsi
	jmp	24f
	.p2align	4
22:
	movdqu	(%rsi), %xmm1
	pxor	%xmm0, %xmm0
	pcmpeqb	%xmm0, %xmm1
	pmovmskb	%xmm1, %ecx
	movl	$64, %eax
	movl	$64, %r14d
	rep		bsfq	%rcx, %r14
	cmpq	$16, %r14
	jb	23f
	movdqu	16(%rsi), %xmm1
	pcmpeqb	%xmm0, %xmm1
	pmovmskb	%xmm1, %ecx
	rep		bsfq	%rcx, %rax
	cmpq	$15, %rax
	ja	20b
	orq	$16, %rax
	movq	%rax, %r14
23:
	leaq	1(%r14), %rax
	addq	%r9, %rax
	movq	$-1, %r9
	jb	24f
	movq	%rax, %r9
	.p2align	4
24:
	movl	(%r12,%r13,8), %ebp
	movzwl	60(%rsp), %eax
	movw	%ax, 92(%rsp)
	movl	56(%rsp), %eax
	movl	%eax, 88(%rsp)
	cmpq	%rdi, 48(%rsp)
	je	26f
25:
	movl	%ebp, %eax
	shrl	$17, %eax
	andb	$1, %bpl
	leaq	(%rdi,%rdi,2), %rcx
	movq	%rsi, (%rdx,%rcx,8)
	movq	%r14, 8(%rdx,%rcx,8)
	movb	%al, 16(%rdx,%rcx,8)
	movb	%bpl, 17(%rdx,%rcx,8)
	movl	88(%rsp), %eax
	movl	%eax, 18(%rdx,%rcx,8)
	movzwl	92(%rsp), %eax
	movw	%ax, 22(%rdx,%rcx,8)
	incq	%rdi
	movq	%rdi, 40(%rsp)
	incq	%r13
	cmpq	%r13, %r10
	jne	19b
	jmp	34f
26:
	movq	%rsi, 64(%rsp)
	movq	%r9, 8(%rsp)
	leaq	32(%rsp), %rdi
	callq	"std_alloc::vec::Vec::grow_amortized::<#a3c068ff6e7a6e86>"
	testb	%al, %al
	je	38f
	movq	32(%rsp), %rdx
	movq	40(%rsp), %rdi
	movq	8(%rsp), %r9
	movq	200(%rsp), %r10
	movq	64(%rsp), %rsi
	jmp	25b
27:
	xorl	%r8d, %r8d
28:
	movq	(%rsp), %rcx
	jmp	31f
29:
	xorl	%r8d, %r8d
30:
	movq	(%rsp), %rcx
	movw	$7, %si
31:
	xorl	%r12d, %r12d
	cmpb	$1, 112(%rsp)
	pxor	%xmm1, %xmm1
	movl	$1, %r15d
	movl	$0, %r14d
	jne	32f
	cmpq	$0, 136(%rsp)
	je	32f
	movq	120(%rsp), %rdi
	movq	%rsi, %rbx
	movq	%r8, %r14
	callq	rattle_dealloc@PLT
	pxor	%xmm1, %xmm1
	movq	%r14, %r8
	movq	%rbx, %rsi
	movq	(%rsp), %rcx
	xorl	%r14d, %r14d
	xorl	%r12d, %r12d
32:
	xorl	%ebx, %ebx
	movq	8(%rsp), %r9
	jmp	16b
33:
	movw	$3, %si
	jmp	37f
34:
	movzwl	32(%rsp), %esi
	movzwl	38(%rsp), %r14d
	movd	34(%rsp), %xmm1
	movq	48(%rsp), %r12
	movzbl	112(%rsp), %ecx
	movq	80(%rsp), %r13
	movq	16(%rsp), %rbp
	xorl	%r15d, %r15d
	cmpb	$1, %cl
	je	12b
35:
	movq	%rdi, %r8
	movq	(%rsp), %rcx
	jmp	16b
36:
	addq	%r13, %r15
	movq	$-1, %r9
	cmovaeq	%r15, %r9
	cmpq	$256, %rbp
	movw	$4, %si
	sbbw	$0, %si
	movq	208(%rsp), %r8
	movq	8(%rsp), %rdx
37:
	movq	%r9, 8(%rsp)
	cmpq	$0, 48(%rsp)
	movq	80(%rsp), %r13
	movq	16(%rsp), %rbp
	je	28b
	movq	%rdx, %rdi
	movq	%rsi, %rbx
	movq	%r8, %r14
	callq	rattle_dealloc@PLT
	movq	%r14, %r8
	movq	%rbx, %rsi
	jmp	28b
38:
	cmpq	$0, 48(%rsp)
	je	39f
	movq	32(%rsp), %rdi
	callq	rattle_dealloc@PLT
39:
	xorl	%r8d, %r8d
	movq	80(%rsp), %r13
	movq	16(%rsp), %rbp
	jmp	30b
40:
	.size	"mime_view::cache::Cache::rule_hits", 40b-"mime_view::cache::Cache::rule_hits"

	.section	.rodata.cst16,"aM",@progbits,16
	.p2align	4, 0x0
1:
	.byte	42,42,42,42,42,42,42,42
	.zero	1
	.zero	1
	.zero	1
	.zero	1
	.zero	1
	.zero	1
	.zero	1
	.zero	1
2:
	.byte	63,63,63,63,63,63,63,63
	.zero	1
	.zero	1
	.zero	1
	.zero	1
	.zero	1
	.zero	1
	.zero	1
	.zero	1
3:
	.byte	92,92,92,92,92,92,92,92
	.zero	1
	.zero	1
	.zero	1
	.zero	1
	.zero	1
	.zero	1
	.zero	1
	.zero	1
4:
	.byte	91,91,91,91,91,91,91,91
	.zero	1
	.zero	1
	.zero	1
	.zero	1
	.zero	1
	.zero	1
	.zero	1
	.zero	1
5:
	.zero	16,93
	.text
	.p2align	4
	.type	"mime_view::globs::glob_list_hits",@function
"mime_view::globs::glob_list_hits":
	pushq	%rbp
	pushq	%r15
	pushq	%r14
	pushq	%r13
	pushq	%r12
	pushq	%rbx
	subq	$248, %rsp
	movq	%rcx, %rbp
	movq	%rdi, 160(%rsp)
	movl	%edx, %eax
	movq	(%rsi), %rcx
	movq	56(%rbp), %rdx
	incq	%rdx
	movq	$-1, %rbx
	cmovneq	%rdx, %rbx
	leaq	4(%rax), %r14
	cmpq	%r14, 8(%rcx)
	movq	%rbx, 56(%rbp)
	jb	6f
	movq	(%rcx), %rdx
	movl	(%rdx,%rax), %edx
	movl	%edx, %edi
	bswapl	%edi
	movq	%rdi, 200(%rsp)
	leaq	(%rdi,%rdi,2), %rdi
	leaq	(%r14,%rdi,4), %rdi
	cmpq	%rdi, 8(%rcx)
	jae	8f
6:
	movq	160(%rsp), %rcx
	movb	$1, (%rcx)
	movl	$3, 8(%rcx)
	movw	$0, 12(%rcx)
	movq	%rax, 16(%rcx)
7:
	addq	$248, %rsp
	popq	%rbx
	popq	%r12
	popq	%r13
	popq	%r14
	popq	%r15
	popq	%rbp
	retq
8:
	movq	64(%rbp), %r8
	movq	72(%rbp), %r13
	movq	80(%rbp), %rax
	movq	%rax, 192(%rsp)
	testl	%edx, %edx
	je	120f
	movq	(%rsi), %rax
	movq	%rax, 232(%rsp)
	movq	8(%rsi), %rax
	movq	%rax, 64(%rsp)
	movq	16(%rsi), %rax
	movq	%rax, 72(%rsp)
	leaq	24(%rbp), %rax
	movq	%rax, 216(%rsp)
	movq	%r13, %rax
	subq	200(%rsp), %rax
	movq	%rax, 224(%rsp)
	xorl	%eax, %eax
	movq	%rbp, 32(%rsp)
	movq	%r14, 56(%rsp)
	jmp	12f
9:
	movq	144(%rsp), %r8
	incq	%r8
	movq	$-1, %rax
	cmoveq	%rax, %r8
	addq	16(%rsp), %r8
	cmovbq	%rax, %r8
	movq	32(%rsp), %rbp
10:
	movq	40(%rsp), %rax
11:
	incq	%rax
	cmpq	200(%rsp), %rax
	movq	80(%rsp), %r13
	je	119f
12:
	testq	%r13, %r13
	je	117f
	movq	%r8, 16(%rsp)
	movq	%rax, 40(%rsp)
	leaq	(%rax,%rax,2), %rax
	decq	%r13
	movq	%rbx, %rcx
	incq	%rcx
	movq	$-1, %rbx
	cmovneq	%rcx, %rbx
	movq	232(%rsp), %rcx
	movq	(%rcx), %r8
	movq	8(%rcx), %r12
	leaq	(%r8,%r14), %rcx
	movl	(%rcx,%rax,4), %r14d
	bswapl	%r14d
	subq	%r14, %r12
	jbe	118f
	movq	%r13, 80(%rsp)
	movl	4(%rcx,%rax,4), %edx
	movq	%rdx, 240(%rsp)
	movl	8(%rcx,%rax,4), %r11d
	leaq	(%r8,%r14), %rax
	movq	%rax, 24(%rsp)
	cmpq	$32, %r12
	jae	14f
13:
	movq	%r8, %r15
	movl	%r11d, %r13d
	movq	%rbx, %rbp
	cmpq	$256, %r12
	movl	$256, %ebx
	cmovbq	%r12, %rbx
	xorl	%edi, %edi
	movq	24(%rsp), %rsi
	movq	%rbx, %rdx
	callq	"memchr::bytes::memchr"
	cmpb	$1, %al
	jne	121f
	movq	%rdx, %r10
	movq	%rdx, %rax
	incq	%rax
	addq	16(%rsp), %rax
	movq	$-1, %rcx
	cmovaeq	%rax, %rcx
	movq	%rcx, 16(%rsp)
	movq	%rbp, %rbx
	movl	%r13d, %r11d
	movq	%r15, %r8
	movq	32(%rsp), %rbp
	jmp	16f
	.p2align	4
14:
	leaq	(%r8,%r14), %rax
	movdqu	(%rax), %xmm1
	pxor	%xmm0, %xmm0
	pcmpeqb	%xmm0, %xmm1
	pmovmskb	%xmm1, %ecx
	movl	$64, %eax
	movl	$64, %r10d
	rep		bsfq	%rcx, %r10
	cmpq	$16, %r10
	jb	15f
	leaq	(%r8,%r14), %rcx
	movdqu	16(%rcx), %xmm1
	pcmpeqb	%xmm0, %xmm1
	pmovmskb	%xmm1, %ecx
	rep		bsfq	%rcx, %rax
	cmpq	$15, %rax
	ja	13b
	orq	$16, %rax
	movq	%rax, %r10
15:
	leaq	1(%r10), %rax
	addq	16(%rsp), %rax
	movq	$-1, %rcx
	cmovaeq	%rax, %rcx
	movq	%rcx, 16(%rsp)
16:
	bswapl	%r11d
	movl	%r11d, %r9d
	shrl	$8, %r9d
	cmpb	$0, (%rbp)
	movabsq	$1688849862361089, %r15
	je	27f
17:
	testq	%r10, %r10
	movl	%r11d, 92(%rsp)
	je	29f
	movq	24(%rsp), %rax
	movzbl	(%rax), %edx
	cmpl	$42, %edx
	jne	20f
	movq	24(%rsp), %rax
	leaq	1(%rax), %rcx
	leaq	-1(%r10), %rax
	cmpq	$8, %rax
	jb	18f
	movq	(%rcx), %xmm0
	movdqa	1b(%rip), %xmm1
	pcmpeqb	%xmm0, %xmm1
	movdqa	2b(%rip), %xmm2
	pcmpeqb	%xmm0, %xmm2
	por	%xmm1, %xmm2
	movdqa	3b(%rip), %xmm1
	pcmpeqb	%xmm0, %xmm1
	pcmpeqb	4b(%rip), %xmm0
	por	%xmm1, %xmm0
	por	%xmm2, %xmm0
	pmovmskb	%xmm0, %esi
	testb	%sil, %sil
	jne	20f
18:
	movl	$1, %esi
	.p2align	4
19:
	cmpq	%rsi, %r10
	je	92f
	movq	24(%rsp), %rdi
	movzbl	(%rdi,%rsi), %edi
	incq	%rsi
	addl	$-42, %edi
	cmpl	$50, %edi
	ja	19b
	btq	%rdi, %r15
	jae	19b
20:
	cmpq	$0, 72(%rsp)
	je	21f
	leal	-42(%rdx), %eax
	cmpl	$50, %eax
	ja	79f
	btq	%rax, %r15
	jae	79f
21:
	movq	%r10, %rcx
	cmpq	$32, %r10
	jb	30f
	movq	%r8, %r11
	leaq	(%r8,%r14), %rax
	addq	$-64, %rax
	movq	%r10, %rdx
22:
	movq	24(%rsp), %rcx
	movdqu	-32(%rcx,%rdx), %xmm1
	movdqu	-16(%rcx,%rdx), %xmm2
	movdqa	5b(%rip), %xmm0
	pcmpeqb	%xmm0, %xmm1
	pmovmskb	%xmm1, %esi
	pcmpeqb	%xmm0, %xmm2
	pmovmskb	%xmm2, %ecx
	shll	$16, %ecx
	orl	%esi, %ecx
	je	24f
	leaq	-32(%rdx), %rsi
	movl	%ecx, %edi
	.p2align	4
23:
	bsrq	%rdi, %rcx
	leaq	(%rcx,%rsi), %rbp
	movq	24(%rsp), %r8
	cmpb	$93, (%r8,%rbp)
	je	32f
	movq	$-2, %r8
	rolq	%cl, %r8
	andq	%r8, %rdi
	jne	23b
24:
	movq	%rdx, %rsi
	.p2align	4
25:
	movq	%rsi, %rcx
	leaq	-32(%rsi), %rdx
	cmpq	$128, %rdx
	jb	26f
	movdqu	-96(%rax,%rcx), %xmm1
	movdqu	-80(%rax,%rcx), %xmm2
	movdqu	-64(%rax,%rcx), %xmm3
	movdqu	-48(%rax,%rcx), %xmm4
	pcmpeqb	%xmm0, %xmm1
	pcmpeqb	%xmm0, %xmm2
	pcmpeqb	%xmm0, %xmm3
	por	%xmm1, %xmm3
	pcmpeqb	%xmm0, %xmm4
	por	%xmm2, %xmm4
	movdqu	-16(%rax,%rcx), %xmm1
	movdqu	-32(%rax,%rcx), %xmm2
	pcmpeqb	%xmm0, %xmm2
	pcmpeqb	%xmm0, %xmm1
	movdqu	16(%rax,%rcx), %xmm5
	movdqu	(%rax,%rcx), %xmm6
	pcmpeqb	%xmm0, %xmm6
	por	%xmm2, %xmm6
	por	%xmm3, %xmm6
	pcmpeqb	%xmm0, %xmm5
	por	%xmm1, %xmm5
	por	%xmm4, %xmm5
	por	%xmm6, %xmm5
	pmovmskb	%xmm5, %edi
	leaq	-128(%rcx), %rsi
	testl	%edi, %edi
	je	25b
26:
	cmpq	$31, %rdx
	ja	22b
	addq	$-32, %rcx
	movq	%r11, %r8
	jmp	30f
	.p2align	4
27:
	movl	8(%rbp), %eax
	testl	%eax, %eax
	je	17b
	cmpq	$0, 72(%rsp)
	je	38f
	testq	%r10, %r10
	je	38f
	movq	24(%rsp), %rcx
	movzbl	(%rcx), %ecx
	movl	%ecx, %edx
	addl	$-42, %edx
	cmpl	$50, %edx
	ja	28f
	btq	%rdx, %r15
	jb	39f
28:
	leal	-65(%rcx), %edx
	leal	32(%rcx), %esi
	cmpb	$26, %dl
	movzbl	%sil, %edx
	movzbl	%cl, %esi
	cmovael	%esi, %edx
	movq	64(%rsp), %rdi
	movzbl	(%rdi), %edi
	movq	%r8, %r13
	leal	-65(%rdi), %r8d
	movq	%r14, %r12
	movq	%rbp, %r14
	movl	%r9d, %ebp
	leal	32(%rdi), %r9d
	cmpb	$26, %r8b
	movzbl	%r9b, %r8d
	movl	%ebp, %r9d
	movq	%r14, %rbp
	movq	%r12, %r14
	cmovael	%edi, %r8d
	testb	$1, %r9b
	cmovnel	%esi, %edx
	cmovnel	%edi, %r8d
	cmpb	%r8b, %dl
	movq	%r13, %r8
	je	39f
	jmp	80f
	.p2align	4
29:
	xorl	%ecx, %ecx
30:
	leaq	(%r8,%r14), %rax
	decq	%rax
	.p2align	4
31:
	testq	%rcx, %rcx
	je	33f
	leaq	-1(%rcx), %rbp
	cmpb	$93, (%rax,%rcx)
	movq	%rbp, %rcx
	jne	31b
32:
	notq	%rbp
	addq	%r10, %rbp
	jmp	34f
	.p2align	4
33:
	movq	%r10, %rbp
34:
	pxor	%xmm0, %xmm0
	movdqa	%xmm0, 112(%rsp)
	movdqa	%xmm0, 96(%rsp)
	movq	$0, 128(%rsp)
	testq	%r10, %r10
	movq	56(%rsp), %r14
	je	35f
	movq	24(%rsp), %rax
	cmpb	$42, (%rax)
	jne	35f
	movq	24(%rsp), %rax
	leaq	1(%rax), %r15
	leaq	-1(%r10), %rdx
	xorl	%eax, %eax
	xorl	%edi, %edi
	jmp	43f
	.p2align	4
35:
	movq	72(%rsp), %rax
	movq	%rax, (%rsp)
	movzbl	%r9b, %r8d
	andl	$1, %r8d
	leaq	96(%rsp), %rdi
	movq	24(%rsp), %rsi
	movq	%r10, %rdx
	movq	%rbp, %rcx
	movl	%r9d, %r12d
	movq	64(%rsp), %r9
	movq	%r10, %r15
	callq	"mime_base::matching::attempt::attempt"
	movzbl	96(%rsp), %eax
	movq	128(%rsp), %rdi
	leaq	126f(%rip), %rcx
	movslq	(%rcx,%rax,4), %rax
	addq	%rcx, %rax
	jmpq	*%rax
36:
	movq	32(%rsp), %rbp
37:
	addq	16(%rsp), %rdi
	movq	$-1, %r8
	cmovaeq	%rdi, %r8
	jmp	10b
38:
	testq	%r10, %r10
	je	68f
	movq	24(%rsp), %rcx
	movzbl	(%rcx), %ecx
39:
	cmpb	$42, %cl
	jne	67f
	leaq	-1(%r10), %rcx
	cmpq	$8, %rcx
	jb	40f
	movq	24(%rsp), %rcx
	movq	1(%rcx), %xmm0
	movdqa	1b(%rip), %xmm1
	pcmpeqb	%xmm0, %xmm1
	movdqa	2b(%rip), %xmm2
	pcmpeqb	%xmm0, %xmm2
	por	%xmm1, %xmm2
	movdqa	3b(%rip), %xmm1
	pcmpeqb	%xmm0, %xmm1
	pcmpeqb	4b(%rip), %xmm0
	por	%xmm1, %xmm0
	por	%xmm2, %xmm0
	pmovmskb	%xmm0, %ecx
	testb	%cl, %cl
	jne	70f
40:
	movl	$1, %ecx
	.p2align	4
41:
	cmpq	%rcx, %r10
	je	99f
	movq	24(%rsp), %rdx
	movzbl	(%rdx,%rcx), %edx
	incq	%rcx
	addl	$-42, %edx
	cmpl	$50, %edx
	ja	41b
	btq	%rdx, %r15
	jae	41b
	jmp	70f
42:
	movq	104(%rsp), %rax
	movq	112(%rsp), %rcx
	movq	120(%rsp), %rdx
	movq	%r15, %r10
	movq	%rcx, %r15
	movl	%r12d, %r9d
43:
	movq	64(%rsp), %rcx
	leaq	(%rcx,%rax), %r11
	movq	72(%rsp), %r13
	subq	%rax, %r13
	cmpq	$8, %rdx
	movq	%rdi, 144(%rsp)
	jb	45f
44:
	movq	(%r15), %xmm0
	movdqa	1b(%rip), %xmm1
	pcmpeqb	%xmm0, %xmm1
	movdqa	2b(%rip), %xmm2
	pcmpeqb	%xmm0, %xmm2
	por	%xmm1, %xmm2
	movdqa	3b(%rip), %xmm1
	pcmpeqb	%xmm0, %xmm1
	pcmpeqb	4b(%rip), %xmm0
	por	%xmm1, %xmm0
	por	%xmm2, %xmm0
	pmovmskb	%xmm0, %eax
	orl	$256, %eax
	rep		bsfl	%eax, %eax
	jmp	46f
	.p2align	4
45:
	xorl	%eax, %eax
46:
	movq	%rdx, %rdi
	subq	%rax, %rdi
	je	73f
	leaq	(%r15,%rax), %rsi
	jmp	49f
	.p2align	4
47:
	xorl	%esi, %esi
	testq	%r12, %r12
	setne	%sil
	addq	%rsi, %rcx
	subq	%rsi, %r12
48:
	incq	%rax
	movq	%r12, %rdi
	movq	%rcx, %rsi
	testq	%r12, %r12
	je	73f
49:
	leaq	1(%rsi), %rcx
	leaq	-1(%rdi), %r12
	movzbl	(%rsi), %r8d
	cmpl	$91, %r8d
	je	50f
	cmpl	$92, %r8d
	je	47b
	cmpl	$42, %r8d
	jne	48b
	jmp	54f
	.p2align	4
50:
	testq	%r12, %r12
	je	72f
	movzbl	1(%rsi), %r8d
	addq	$2, %rsi
	addq	$-2, %rdi
	cmpl	$33, %r8d
	je	51f
	cmpl	$94, %r8d
	je	51f
	movq	%rcx, %rsi
	movq	%r12, %rdi
51:
	movq	%rdi, %r8
	addq	$-1, %r8
	jae	48b
	cmpq	%rbp, %r8
	jbe	48b
	addq	$2, %rsi
	movl	$2, %r8d
	subq	%rdi, %r8
	.p2align	4
52:
	cmpb	$93, -1(%rsi)
	je	53f
	incq	%rsi
	incq	%r8
	cmpq	$1, %r8
	jne	52b
	jmp	48b
53:
	negq	%r8
	movq	%rsi, %rcx
	movq	%r8, %r12
	jmp	48b
54:
	movq	%r10, 184(%rsp)
	movq	%rbx, 136(%rsp)
	pxor	%xmm0, %xmm0
	movdqa	%xmm0, 112(%rsp)
	movdqa	%xmm0, 96(%rsp)
	movq	$0, 128(%rsp)
	movl	%r9d, 52(%rsp)
	movzbl	%r9b, %ecx
	testq	%rdx, %rdx
	movq	%r11, 168(%rsp)
	movq	%r13, 152(%rsp)
	je	62f
	movl	%ecx, 180(%rsp)
	movq	%rdx, 208(%rsp)
	xorl	%r12d, %r12d
	xorl	%ebx, %ebx
	.p2align	4
55:
	movq	%r13, %r14
	subq	%rbx, %r14
	movq	%r15, %r13
	movzbl	(%r15), %r15d
	cmpl	$64, %r15d
	ja	57f
	cmpl	$42, %r15d
	je	57f
	cmpl	$63, %r15d
	je	57f
	leaq	(%r11,%rbx), %rsi
	movl	%r15d, %edi
	movq	%r14, %rdx
	callq	"memchr::bytes::memchr"
	cmpb	$1, %al
	cmovneq	%r14, %rdx
	addq	%rdx, %rbx
	movq	%r12, %rax
	addq	%rdx, %rax
	movq	$-1, %r12
	cmovaeq	%rax, %r12
	testq	%rdx, %rdx
	je	56f
	cmpq	%rbx, 152(%rsp)
	je	101f
56:
	movq	152(%rsp), %r14
	subq	%rbx, %r14
	movq	168(%rsp), %r11
	.p2align	4
57:
	leaq	(%r11,%rbx), %r9
	testq	%r14, %r14
	je	58f
	leal	-42(%r15), %eax
	cmpl	$50, %eax
	ja	60f
	movabsq	$1688849862361089, %rcx
	btq	%rax, %rcx
	jae	60f
58:
	movq	%r14, (%rsp)
	movl	180(%rsp), %r8d
	andl	$1, %r8d
	leaq	96(%rsp), %rdi
	movq	%r13, %r15
	movq	%r13, %rsi
	movq	208(%rsp), %rdx
	movq	%rbp, %rcx
	callq	"mime_base::matching::attempt::attempt"
	movq	168(%rsp), %r11
	addq	128(%rsp), %r12
	movq	$-1, %r14
	cmovaeq	%r12, %r14
	movzbl	96(%rsp), %eax
	cmpb	$4, %al
	jne	64f
59:
	incq	%rbx
	movq	%r14, %r12
	movq	152(%rsp), %r13
	jmp	55b
60:
	leal	-65(%r15), %eax
	leal	32(%r15), %ecx
	cmpb	$26, %al
	movzbl	%cl, %eax
	cmovael	%r15d, %eax
	movzbl	(%r9), %ecx
	leal	-65(%rcx), %edx
	leal	32(%rcx), %esi
	cmpb	$26, %dl
	movzbl	%sil, %edx
	cmovael	%ecx, %edx
	testb	$1, 52(%rsp)
	cmovnel	%r15d, %eax
	cmovnel	%ecx, %edx
	cmpb	%dl, %al
	jne	58b
	cmpq	$1, 208(%rsp)
	je	58b
	cmpq	$1, %r14
	je	58b
	movzbl	1(%r13), %eax
	leal	-42(%rax), %ecx
	cmpl	$50, %ecx
	ja	61f
	movabsq	$1688849862361089, %rdx
	btq	%rcx, %rdx
	jb	58b
61:
	leal	-65(%rax), %ecx
	leal	32(%rax), %edx
	cmpb	$26, %cl
	movzbl	%dl, %ecx
	movzbl	%al, %eax
	cmovael	%eax, %ecx
	movzbl	1(%r9), %edx
	leal	-65(%rdx), %esi
	leal	32(%rdx), %edi
	cmpb	$26, %sil
	movzbl	%dil, %esi
	cmovael	%edx, %esi
	testb	$1, 52(%rsp)
	cmovnel	%eax, %ecx
	cmovnel	%edx, %esi
	cmpb	%sil, %cl
	je	58b
	addq	$2, %r12
	movq	$-1, %r14
	cmovaeq	%r12, %r14
	movq	%r13, %r15
	jmp	59b
62:
	movq	%r13, %r12
	xorl	%r14d, %r14d
	movq	$-1, %rbx
	.p2align	4
63:
	leaq	(%rbx,%r11), %r9
	incq	%r9
	movq	%r12, (%rsp)
	movl	%ecx, %r8d
	andl	$1, %r8d
	leaq	96(%rsp), %rdi
	movq	%r15, %rsi
	xorl	%edx, %edx
	movl	%ecx, %r13d
	movq	%rbp, %rcx
	callq	"mime_base::matching::attempt::attempt"
	movl	%r13d, %ecx
	movq	168(%rsp), %r11
	addq	128(%rsp), %r14
	movq	$-1, %rax
	cmovbq	%rax, %r14
	movzbl	96(%rsp), %eax
	incq	%rbx
	decq	%r12
	cmpb	$4, %al
	je	63b
64:
	addq	144(%rsp), %r14
	movq	$-1, %rdi
	cmovaeq	%r14, %rdi
	cmpb	$3, %al
	jne	103f
	movq	112(%rsp), %r15
	movq	120(%rsp), %rdx
	addq	104(%rsp), %rbx
	addq	%rbx, %r11
	movq	152(%rsp), %r13
	subq	%rbx, %r13
	movq	136(%rsp), %rbx
	movq	56(%rsp), %r14
	movl	52(%rsp), %r9d
	movq	184(%rsp), %r10
	cmpq	$8, %rdx
	movq	%rdi, 144(%rsp)
	jae	44b
	jmp	45b
65:
	movq	%r15, %r10
	movq	16(%rsp), %rax
66:
	addq	%rax, %rdi
	movq	$-1, %r8
	cmovaeq	%rdi, %r8
	movl	92(%rsp), %r11d
	movabsq	$1688849862361089, %r15
	testq	%r10, %r10
	jne	76f
	jmp	82f
67:
	cmpq	$8, %r10
	jb	68f
	movq	24(%rsp), %rcx
	movq	(%rcx), %xmm0
	movdqa	1b(%rip), %xmm1
	pcmpeqb	%xmm0, %xmm1
	movdqa	2b(%rip), %xmm2
	pcmpeqb	%xmm0, %xmm2
	por	%xmm1, %xmm2
	movdqa	3b(%rip), %xmm1
	pcmpeqb	%xmm0, %xmm1
	pcmpeqb	4b(%rip), %xmm0
	por	%xmm1, %xmm0
	por	%xmm2, %xmm0
	pmovmskb	%xmm0, %ecx
	testb	%cl, %cl
	jne	70f
68:
	xorl	%ecx, %ecx
	.p2align	4
69:
	cmpq	%rcx, %r10
	je	97f
	movq	24(%rsp), %rdx
	movzbl	(%rdx,%rcx), %edx
	incq	%rcx
	addl	$-42, %edx
	cmpl	$50, %edx
	ja	69b
	btq	%rdx, %r15
	jae	69b
70:
	xorl	%ecx, %ecx
71:
	movzbl	%r11b, %edx
	orl	%ecx, %edx
	shll	$17, %edx
	movzwl	%r10w, %ecx
	leal	(%rdx,%rcx,2), %ecx
	movl	%r9d, %edx
	andl	$1, %edx
	orl	%ecx, %edx
	cmpl	%edx, %eax
	jbe	17b
	movq	56(%rsp), %r14
	movq	40(%rsp), %rax
	movq	16(%rsp), %r8
	jmp	11b
72:
	incq	%rax
73:
	pxor	%xmm0, %xmm0
	movdqa	%xmm0, 112(%rsp)
	movdqa	%xmm0, 96(%rsp)
	movq	$0, 128(%rsp)
	subq	%rax, %r13
	jb	9b
	addq	%r13, %r11
	testq	%rdx, %rdx
	je	74f
	testq	%rax, %rax
	je	74f
	movzbl	(%r15), %ecx
	leal	-42(%rcx), %edi
	cmpl	$50, %edi
	ja	98f
	movabsq	$1688849862361089, %rsi
	btq	%rdi, %rsi
	jae	98f
74:
	movq	%rax, (%rsp)
	movl	%r9d, %r12d
	movzbl	%r9b, %r8d
	andl	$1, %r8d
	leaq	96(%rsp), %rdi
	movq	%r15, %rsi
	movq	%rbp, %rcx
	movq	%r11, %r9
	movq	%r10, %r15
	callq	"mime_base::matching::attempt::attempt"
	movq	%r15, %r10
	movq	144(%rsp), %r8
	addq	128(%rsp), %r8
	movq	$-1, %rax
	cmovbq	%rax, %r8
	addq	16(%rsp), %r8
	cmovbq	%rax, %r8
	cmpb	$0, 96(%rsp)
	movq	32(%rsp), %rbp
	movq	40(%rsp), %rax
	movl	92(%rsp), %r11d
	movabsq	$1688849862361089, %r15
	jne	11b
75:
	testq	%r10, %r10
	je	82f
76:
	movq	24(%rsp), %rax
	cmpb	$42, (%rax)
	jne	81f
	leaq	-1(%r10), %rax
	cmpq	$8, %rax
	jb	77f
	movq	24(%rsp), %rax
	movq	1(%rax), %xmm0
	movdqa	1b(%rip), %xmm1
	pcmpeqb	%xmm0, %xmm1
	movdqa	2b(%rip), %xmm2
	pcmpeqb	%xmm0, %xmm2
	por	%xmm1, %xmm2
	movdqa	3b(%rip), %xmm1
	pcmpeqb	%xmm0, %xmm1
	pcmpeqb	4b(%rip), %xmm0
	por	%xmm1, %xmm0
	por	%xmm2, %xmm0
	pmovmskb	%xmm0, %eax
	testb	%al, %al
	jne	84f
77:
	movl	$1, %eax
	.p2align	4
78:
	cmpq	%rax, %r10
	je	100f
	movq	24(%rsp), %rcx
	movzbl	(%rcx,%rax), %ecx
	incq	%rax
	addl	$-42, %ecx
	cmpl	$50, %ecx
	ja	78b
	btq	%rcx, %r15
	jae	78b
	jmp	84f
79:
	leal	-65(%rdx), %eax
	leal	32(%rdx), %ecx
	cmpb	$26, %al
	movzbl	%cl, %eax
	cmovael	%edx, %eax
	movq	64(%rsp), %rcx
	movzbl	(%rcx), %ecx
	leal	-65(%rcx), %esi
	leal	32(%rcx), %edi
	cmpb	$26, %sil
	movzbl	%dil, %esi
	cmovael	%ecx, %esi
	testb	$1, %r9b
	cmovnel	%edx, %eax
	cmovnel	%ecx, %esi
	cmpb	%sil, %al
	je	21b
80:
	movq	16(%rsp), %r8
	incq	%r8
	movq	$-1, %rax
	cmoveq	%rax, %r8
	movq	56(%rsp), %r14
	jmp	10b
81:
	cmpq	$8, %r10
	jb	82f
	movq	24(%rsp), %rax
	movq	(%rax), %xmm0
	movdqa	1b(%rip), %xmm1
	pcmpeqb	%xmm0, %xmm1
	movdqa	2b(%rip), %xmm2
	pcmpeqb	%xmm0, %xmm2
	por	%xmm1, %xmm2
	movdqa	3b(%rip), %xmm1
	pcmpeqb	%xmm0, %xmm1
	pcmpeqb	4b(%rip), %xmm0
	por	%xmm1, %xmm0
	por	%xmm2, %xmm0
	pmovmskb	%xmm0, %eax
	testb	%al, %al
	jne	84f
82:
	xorl	%eax, %eax
	.p2align	4
83:
	cmpq	%rax, %r10
	je	96f
	movq	24(%rsp), %rcx
	movzbl	(%rcx,%rax), %ecx
	incq	%rax
	addl	$-42, %ecx
	cmpl	$50, %ecx
	ja	83b
	btq	%rcx, %r15
	jae	83b
84:
	xorl	%eax, %eax
85:
	movq	240(%rsp), %r13
	bswapl	%r13d
	movzbl	%r11b, %ecx
	orl	%eax, %ecx
	shll	$17, %ecx
	movzwl	%r10w, %eax
	leal	(%rcx,%rax,2), %eax
	andl	$1, %r12d
	orl	%eax, %r12d
	movq	32(%rsp), %rbp
	cmpb	$0, (%rbp)
	je	88f
	movq	%r13, %r15
	movzbl	8(%rbp), %eax
	leaq	16(%rbp), %rcx
	leaq	40(%rbp), %rdx
	testb	%al, %al
	cmoveq	%rdx, %rcx
	je	89f
	movq	32(%rbp), %rdx
	movq	80(%rsp), %r13
	cmpq	%rdx, 8(%rcx)
	je	90f
86:
	testb	%al, %al
	je	91f
87:
	movq	32(%rsp), %rbp
	movq	16(%rbp), %rax
	movq	24(%rbp), %rcx
	shlq	$32, %r15
	movl	%r12d, %edx
	orq	%r15, %rdx
	movq	%rdx, (%rax,%rcx,8)
	incq	%rcx
	movq	%rcx, 24(%rbp)
	jmp	10b
88:
	movl	8(%rbp), %eax
	cmpl	%eax, %r12d
	jb	10b
	movq	%rbx, %r15
	movzbl	16(%rbp), %ebx
	jbe	106f
	testb	%bl, %bl
	je	104f
	movq	32(%rsp), %rbp
	cmpq	$0, 32(%rbp)
	je	105f
	movq	$0, 32(%rbp)
	jmp	105f
89:
	movl	$4, %edx
	movq	80(%rsp), %r13
	cmpq	%rdx, 8(%rcx)
	jne	86b
90:
	movq	%r8, 16(%rsp)
	movq	32(%rsp), %rbp
	leaq	8(%rbp), %rdi
	callq	"smallvec::small_vec::SmallVec::reserve_one::<#c56eefbaea896dc3>"
	testb	%al, %al
	jne	123f
	movzbl	8(%rbp), %eax
	movq	16(%rsp), %r8
	testb	%al, %al
	jne	87b
91:
	movq	32(%rsp), %rbp
	movq	48(%rbp), %rax
	shlq	$32, %r15
	movl	%r12d, %ecx
	orq	%r15, %rcx
	movq	%rcx, 16(%rbp,%rax,8)
	incq	%rax
	movq	%rax, 48(%rbp)
	jmp	10b
92:
	movl	$1, %edi
	movq	72(%rsp), %rsi
	subq	%rax, %rsi
	movq	56(%rsp), %r14
	jb	37b
	testq	%rax, %rax
	je	102f
	movq	%r10, %rbp
	addq	64(%rsp), %rsi
	xorl	%edx, %edx
	testb	$1, %r9b
	je	94f
93:
	movzbl	(%rcx,%rdx), %edi
	cmpb	(%rsi,%rdx), %dil
	jne	110f
	incq	%rdx
	cmpq	%rdx, %rax
	jne	93b
	jmp	95f
94:
	movl	%r9d, %r12d
	movzbl	(%rcx,%rdx), %edi
	leal	-65(%rdi), %r8d
	leal	32(%rdi), %r9d
	cmpb	$26, %r8b
	movzbl	%r9b, %r8d
	cmovael	%edi, %r8d
	movzbl	(%rsi,%rdx), %edi
	leal	-65(%rdi), %r9d
	leal	32(%rdi), %r10d
	cmpb	$26, %r9b
	movzbl	%r10b, %r9d
	cmovael	%edi, %r9d
	cmpb	%r9b, %r8b
	jne	111f
	incq	%rdx
	cmpq	%rdx, %rax
	movl	%r12d, %r9d
	jne	94b
95:
	movl	%r9d, %r12d
	addq	16(%rsp), %rax
	movq	$-1, %r8
	cmovaeq	%rax, %r8
	movq	%rbp, %r10
	testq	%r10, %r10
	jne	76b
	jmp	82b
96:
	movl	$512, %eax
	jmp	85b
97:
	movl	$512, %ecx
	jmp	71b
98:
	leal	-65(%rcx), %edi
	leal	32(%rcx), %esi
	cmpb	$26, %dil
	movzbl	%sil, %r12d
	movzbl	%cl, %ecx
	cmovael	%ecx, %r12d
	movzbl	(%r11), %esi
	leal	-65(%rsi), %edi
	leal	32(%rsi), %r8d
	cmpb	$26, %dil
	movzbl	%r8b, %edi
	cmovael	%esi, %edi
	testb	$1, %r9b
	cmovnel	%ecx, %r12d
	cmovnel	%esi, %edi
	cmpb	%dil, %r12b
	je	74b
	jmp	9b
99:
	movl	$256, %ecx
	jmp	71b
100:
	movl	$256, %eax
	jmp	85b
101:
	incq	%r12
	movq	$-1, %rax
	cmoveq	%rax, %r12
	addq	144(%rsp), %r12
	cmovbq	%rax, %r12
	movq	%r12, %rdi
	movq	32(%rsp), %rbp
	movq	136(%rsp), %rbx
	movq	56(%rsp), %r14
	jmp	37b
102:
	movl	%r9d, %r12d
	xorl	%edx, %edx
	jmp	112f
103:
	movzbl	%al, %eax
	decl	%eax
	cmpl	$2, %eax
	movq	16(%rsp), %rax
	movq	56(%rsp), %r14
	movl	52(%rsp), %r12d
	movq	184(%rsp), %r10
	jae	113f
	movq	%rax, 16(%rsp)
	movq	32(%rsp), %rbp
	movq	136(%rsp), %rbx
	jmp	37b
104:
	movq	32(%rsp), %rbp
	movq	40(%rbp), %rdx
	testq	%rdx, %rdx
	je	105f
	shlq	$2, %rdx
	movq	216(%rsp), %rdi
	xorl	%esi, %esi
	movq	%r8, 16(%rsp)
	callq	memset@PLT
	movq	16(%rsp), %r8
	movq	$0, 40(%rbp)
105:
	movl	$0, 8(%rbp)
106:
	xorl	%eax, %eax
	testb	%bl, %bl
	sete	%al
	movq	32(%rbp,%rax,8), %rax
	je	107f
	movq	40(%rbp), %rcx
	jmp	108f
107:
	movl	$4, %ecx
108:
	cmpq	%rcx, %rax
	je	114f
	testb	%bl, %bl
	je	115f
109:
	movq	32(%rsp), %rbp
	movq	24(%rbp), %rax
	movq	32(%rbp), %rcx
	movl	%r13d, (%rax,%rcx,4)
	incq	%rcx
	movq	%rcx, 32(%rbp)
	jmp	116f
110:
	movl	%r9d, %r12d
111:
	movq	%rbp, %r10
	movq	32(%rsp), %rbp
112:
	xorl	%ecx, %ecx
	cmpq	%rax, %rdx
	setne	%cl
	addq	%rdx, %rcx
	addq	16(%rsp), %rcx
	movq	$-1, %r8
	cmovaeq	%rcx, %r8
	cmpq	%rax, %rdx
	movq	40(%rsp), %rax
	jne	11b
	jmp	75b
113:
	movq	136(%rsp), %rbx
	jmp	66b
114:
	movq	%r8, 16(%rsp)
	movq	32(%rsp), %rbp
	leaq	16(%rbp), %rdi
	callq	"smallvec::small_vec::SmallVec::reserve_one::<#bc37e6e66b18402c>"
	testb	%al, %al
	jne	124f
	movzbl	16(%rbp), %ebx
	movq	16(%rsp), %r8
	testb	%bl, %bl
	jne	109b
115:
	movq	32(%rsp), %rbp
	movq	40(%rbp), %rax
	movl	%r13d, 24(%rbp,%rax,4)
	incq	%rax
	movq	%rax, 40(%rbp)
116:
	movl	%r12d, 8(%rbp)
	movq	%r15, %rbx
	jmp	10b
117:
	movw	$5, %ax
	xorl	%r13d, %r13d
	xorl	%r14d, %r14d
	jmp	122f
118:
	movw	$3, %ax
	movq	16(%rsp), %r8
	jmp	122f
119:
	movq	224(%rsp), %r13
120:
	movq	%rbx, 56(%rbp)
	movq	%r8, 64(%rbp)
	movq	%r13, 72(%rbp)
	movq	192(%rsp), %rax
	movq	%rax, 80(%rbp)
	movq	160(%rsp), %rax
	movb	$0, (%rax)
	movl	$0, 8(%rax)
	movw	$0, 12(%rax)
	movq	$0, 16(%rax)
	jmp	7b
121:
	addq	16(%rsp), %rbx
	movq	$-1, %rax
	cmovaeq	%rbx, %rax
	cmpq	$256, %r12
	movq	%rax, %r8
	movw	$4, %ax
	sbbw	$0, %ax
	movq	%rbp, %rbx
	movq	80(%rsp), %r13
	movq	32(%rsp), %rbp
122:
	movq	%rbx, 56(%rbp)
	movq	%r8, 64(%rbp)
	movq	%r13, 72(%rbp)
	movq	192(%rsp), %rcx
	movq	%rcx, 80(%rbp)
	movq	160(%rsp), %rcx
	movb	$1, (%rcx)
	movw	%ax, 8(%rcx)
	movl	$0, 10(%rcx)
	movq	%r14, 16(%rcx)
	jmp	7b
123:
	movw	$7, %ax
	xorl	%r14d, %r14d
	movq	16(%rsp), %r8
	jmp	122b
124:
	movw	$7, %ax
	xorl	%r14d, %r14d
	movq	%r15, %rbx
	movq	80(%rsp), %r13
	movq	16(%rsp), %r8
	jmp	122b
125:
	.size	"mime_view::globs::glob_list_hits", 125b-"mime_view::globs::glob_list_hits"
	.section	.rodata,"a",@progbits
	.p2align	2, 0x0
126:
	.long	65b-126b
	.long	36b-126b
	.long	36b-126b
	.long	42b-126b
	.long	36b-126b

	.text
	.p2align	4
	.type	"mime_view::magic::sniff",@function
"mime_view::magic::sniff":
	pushq	%rbp
	pushq	%r15
	pushq	%r14
	pushq	%r13
	pushq	%r12
	pushq	%rbx
	subq	$136, %rsp
	movq	(%rcx), %r9
	movq	8(%rcx), %rbp
	movq	16(%rcx), %r13
	movq	24(%rcx), %r14
	movq	(%rsi), %r8
	movl	%edx, %r15d
	movq	8(%r8), %rax
	movq	%rax, %rdx
	subq	%r15, %rdx
	setb	%r10b
	cmpq	$12, %rdx
	setb	%dl
	orb	%r10b, %dl
	incq	%r9
	movq	$-1, %rbx
	cmovneq	%r9, %rbx
	pxor	%xmm0, %xmm0
	movw	$3, %r9w
	movl	$1, %r10d
	testb	%dl, %dl
	je	1f
	xorl	%r8d, %r8d
	xorl	%edx, %edx
	jmp	24f
1:
	movq	(%r8), %rdx
	movl	(%rdx,%r15), %r11d
	testl	%r11d, %r11d
	je	2f
	movl	8(%rdx,%r15), %r12d
	bswapl	%r11d
	bswapl	%r12d
	movq	%r11, %rdx
	shlq	$4, %rdx
	addq	%r12, %rdx
	cmpq	%rdx, %rax
	jae	3f
	xorl	%r8d, %r8d
	movq	%r12, %r15
	xorl	%edx, %edx
	jmp	24f
2:
	xorl	%r15d, %r15d
	xorl	%r8d, %r8d
	xorl	%edx, %edx
	xorl	%r10d, %r10d
	xorl	%r9d, %r9d
	jmp	24f
3:
	movq	$0, 24(%rsp)
	movq	%r14, %rax
	movq	%rsi, 32(%rsp)
	movq	%rdi, 16(%rsp)
	movq	%rcx, 8(%rsp)
	movq	%r11, 128(%rsp)
	movq	%r12, 120(%rsp)
4:
	pxor	%xmm0, %xmm0
	xorl	%r8d, %r8d
	testq	%r13, %r13
	je	21f
	movq	24(%rsp), %rdx
	shlq	$4, %rdx
	decq	%r13
	movq	(%rsi), %r9
	incq	%rbx
	movq	$-1, %rcx
	cmovneq	%rbx, %rcx
	movq	(%r9), %r8
	addq	%r12, %r8
	movl	8(%rdx,%r8), %r12d
	testl	%r12d, %r12d
	je	11f
	bswapl	%r12d
	movl	12(%rdx,%r8), %r15d
	bswapl	%r15d
	movq	%r12, %rdi
	shlq	$5, %rdi
	addq	%r15, %rdi
	cmpq	%rdi, 8(%r9)
	jb	25f
	movq	%r9, 112(%rsp)
	movl	(%rdx,%r8), %edi
	movl	%edi, 40(%rsp)
	movl	4(%rdx,%r8), %edx
	movl	%edx, 44(%rsp)
	.p2align	4
5:
	testq	%r13, %r13
	je	6f
	movq	(%rsi), %r9
	movq	%rcx, %rdx
	incq	%rdx
	movq	$-1, %rbx
	cmovneq	%rdx, %rbx
	movq	(%r9), %rdx
	movl	12(%rdx,%r15), %edi
	movl	%edi, %r8d
	bswapl	%r8d
	movq	%rax, %r14
	subq	%r8, %r14
	jae	8f
6:
	pxor	%xmm0, %xmm0
	movdqa	%xmm0, 48(%rsp)
	movq	$0, 64(%rsp)
	movq	%rcx, 80(%rsp)
	movq	%rbp, 88(%rsp)
	movq	%r13, 96(%rsp)
	movq	%rax, 104(%rsp)
	leaq	48(%rsp), %rdi
	leaq	80(%rsp), %r8
	movq	%r15, %rdx
	xorl	%ecx, %ecx
	callq	"mime_view::magic::whole_line_holds"
	movq	80(%rsp), %rbx
	movq	88(%rsp), %rbp
	movq	96(%rsp), %r13
	movq	104(%rsp), %r14
	cmpb	$0, 48(%rsp)
	jne	13f
	testb	$1, 49(%rsp)
	jne	14f
	movq	32(%rsp), %rsi
7:
	addq	$32, %r15
	movq	%r14, %rax
	movq	%rbx, %rcx
	decq	%r12
	jne	5b
	jmp	12f
	.p2align	4
8:
	testl	%edi, %edi
	je	6b
	cmpl	$0, 20(%rdx,%r15)
	jne	6b
	cmpl	$16777216, 8(%rdx,%r15)
	jne	6b
	movl	(%rdx,%r15), %edi
	bswapl	%edi
	movq	16(%rsi), %r11
	leaq	(%rdi,%r8), %r10
	cmpq	%r10, %r11
	jb	6b
	movq	%r11, %rsi
	movl	16(%rdx,%r15), %r11d
	bswapl	%r11d
	movq	8(%r9), %r10
	movl	%r11d, %r9d
	movq	%rsi, %r11
	movq	32(%rsp), %rsi
	subq	%r9, %r10
	jb	6b
	cmpq	%r8, %r10
	jb	6b
	movl	4(%rdx,%r15), %r10d
	cmpl	$16777216, %r10d
	jne	9f
	movq	8(%rsi), %r8
	movzbl	(%r8,%rdi), %edi
	movl	$1, %r11d
	cmpb	(%rdx,%r9), %dil
	je	6b
	jmp	10f
9:
	bswapl	%r10d
	movl	%r10d, %r10d
	addq	%rdi, %r10
	subq	%r8, %r11
	incq	%r11
	cmpq	%r10, %r11
	cmovaeq	%r10, %r11
	cmpq	$288, %r11
	ja	6b
	movzbl	(%rdx,%r9), %edx
	movzwl	24(%rsi,%rdx,2), %edx
	cmpq	%rdx, %r11
	ja	6b
	subq	%rdi, %r11
	je	6b
10:
	decq	%r13
	addq	%rbp, %r11
	movq	$-1, %rbp
	cmovaeq	%r11, %rbp
	jmp	7b
11:
	movq	%rcx, %rbx
	movq	%rax, %r14
12:
	movq	24(%rsp), %rdi
	incq	%rdi
	pxor	%xmm0, %xmm0
	xorl	%r15d, %r15d
	movq	%r14, %rax
	movl	$0, %r8d
	movl	$0, %edx
	movl	$0, %r10d
	movl	$0, %r9d
	movq	128(%rsp), %r11
	movq	%rdi, 24(%rsp)
	cmpq	%r11, %rdi
	movq	16(%rsp), %rdi
	movq	8(%rsp), %rcx
	movq	120(%rsp), %r12
	jne	4b
	jmp	24f
13:
	movzbl	56(%rsp), %edx
	movss	58(%rsp), %xmm0
	movq	64(%rsp), %r15
	movq	%r14, %rax
	movq	16(%rsp), %rdi
	movq	8(%rsp), %rcx
	xorl	%r8d, %r8d
	jmp	23f
14:
	movl	44(%rsp), %eax
	movl	%eax, %r15d
	bswapl	%r15d
	movq	112(%rsp), %rax
	movq	8(%rax), %r12
	pxor	%xmm0, %xmm0
	subq	%r15, %r12
	jbe	16f
	movq	(%rax), %rsi
	addq	%r15, %rsi
	cmpq	$32, %r12
	jae	18f
15:
	cmpq	$256, %r12
	movl	$256, %edx
	cmovbq	%r12, %rdx
	xorl	%edi, %edi
	movq	%rsi, 32(%rsp)
	movq	%rdx, 24(%rsp)
	callq	"memchr::bytes::memchr"
	cmpb	$1, %al
	jne	22f
	movq	%rdx, %rax
	incq	%rax
	addq	%rbp, %rax
	movq	$-1, %rbp
	cmovaeq	%rax, %rbp
	movq	32(%rsp), %rsi
	jmp	20f
16:
	movq	%r14, %rax
17:
	movq	16(%rsp), %rdi
	movq	8(%rsp), %rcx
	xorl	%r8d, %r8d
	movb	$3, %dl
	jmp	23f
18:
	movdqu	(%rsi), %xmm1
	pcmpeqb	%xmm0, %xmm1
	pmovmskb	%xmm1, %ecx
	movl	$64, %eax
	movl	$64, %edx
	rep		bsfq	%rcx, %rdx
	cmpq	$16, %rdx
	jb	19f
	movdqu	16(%rsi), %xmm1
	pcmpeqb	%xmm0, %xmm1
	pmovmskb	%xmm1, %ecx
	rep		bsfq	%rcx, %rax
	cmpq	$15, %rax
	ja	15b
	orq	$16, %rax
	movq	%rax, %rdx
19:
	leaq	1(%rdx), %rax
	addq	%rbp, %rax
	movq	$-1, %rbp
	cmovaeq	%rax, %rbp
20:
	movl	40(%rsp), %eax
	bswapl	%eax
	pxor	%xmm0, %xmm0
	movw	$1, %r9w
	xorl	%r10d, %r10d
	movq	%rsi, %r15
	movl	%eax, %r8d
	movq	16(%rsp), %rdi
	movq	8(%rsp), %rcx
	jmp	24f
21:
	movb	$5, %dl
	xorl	%r15d, %r15d
	xorl	%r13d, %r13d
	jmp	23f
22:
	movq	24(%rsp), %rax
	addq	%rbp, %rax
	movq	$-1, %rbp
	cmovaeq	%rax, %rbp
	cmpq	$256, %r12
	movb	$4, %dl
	sbbb	$0, %dl
	movq	%r14, %rax
	movq	16(%rsp), %rdi
	movq	8(%rsp), %rcx
	xorl	%r8d, %r8d
	pxor	%xmm0, %xmm0
23:
	movzbl	%dl, %r9d
	xorl	%edx, %edx
	movq	%rax, %r14
	movl	$1, %r10d
24:
	movq	%rbx, (%rcx)
	movq	%rbp, 8(%rcx)
	movq	%r13, 16(%rcx)
	movq	%r14, 24(%rcx)
	movq	%r10, (%rdi)
	movw	%r9w, 8(%rdi)
	movd	%xmm0, 10(%rdi)
	movq	%r15, 16(%rdi)
	movq	%rdx, 24(%rdi)
	movl	%r8d, 32(%rdi)
	movl	$0, 36(%rdi)
	addq	$136, %rsp
	popq	%rbx
	popq	%r12
	popq	%r13
	popq	%r14
	popq	%r15
	popq	%rbp
	retq
25:
	movq	%rcx, %rbx
	jmp	17b
26:
	.size	"mime_view::magic::sniff", 26b-"mime_view::magic::sniff"

	.text
	.p2align	4
	.type	"mime_view::magic::some_child_holds",@function
"mime_view::magic::some_child_holds":
	pushq	%rbp
	pushq	%r15
	pushq	%r14
	pushq	%r13
	pushq	%r12
	pushq	%rbx
	subq	$72, %rsp
	movq	%r9, %r14
	movl	%r8d, %ebp
	movq	%rsi, %r15
	movq	%rdi, %rbx
	movl	%edx, %r12d
	movl	%ecx, %r13d
	.p2align	4
1:
	movq	16(%r14), %rax
	testq	%rax, %rax
	je	2f
	movq	24(%r14), %rcx
	movq	(%r14), %rsi
	movq	(%r15), %r10
	incq	%rsi
	movq	$-1, %rdx
	cmovneq	%rsi, %rdx
	movq	(%r10), %rsi
	movl	12(%rsi,%r12), %edi
	movl	%edi, %r9d
	bswapl	%r9d
	subq	%r9, %rcx
	jae	3f
2:
	xorps	%xmm0, %xmm0
	movaps	%xmm0, (%rsp)
	movq	$0, 16(%rsp)
	movups	(%r14), %xmm0
	movups	16(%r14), %xmm1
	movaps	%xmm0, 32(%rsp)
	movaps	%xmm1, 48(%rsp)
	movq	%rsp, %rdi
	leaq	32(%rsp), %r8
	movq	%r15, %rsi
	movq	%r12, %rdx
	movl	%ebp, %ecx
	callq	"mime_view::magic::whole_line_holds"
	movaps	32(%rsp), %xmm0
	movaps	48(%rsp), %xmm1
	movups	%xmm1, 16(%r14)
	movups	%xmm0, (%r14)
	cmpb	$0, (%rsp)
	jne	7f
	testb	$1, 1(%rsp)
	jne	8f
	addq	$32, %r12
	decq	%r13
	jne	1b
	jmp	6f
	.p2align	4
3:
	testl	%edi, %edi
	je	2b
	cmpl	$0, 20(%rsi,%r12)
	jne	2b
	cmpl	$16777216, 8(%rsi,%r12)
	jne	2b
	movl	(%rsi,%r12), %r8d
	bswapl	%r8d
	movq	16(%r15), %rdi
	leaq	(%r8,%r9), %r11
	cmpq	%r11, %rdi
	jb	2b
	movl	16(%rsi,%r12), %r11d
	bswapl	%r11d
	movq	8(%r10), %r10
	movl	%r11d, %r11d
	subq	%r11, %r10
	jb	2b
	cmpq	%r9, %r10
	jb	2b
	movq	8(%r14), %r10
	movq	%r10, 24(%rsp)
	movl	4(%rsi,%r12), %r10d
	cmpl	$16777216, %r10d
	jne	4f
	movq	8(%r15), %rdi
	movzbl	(%rdi,%r8), %r8d
	movl	$1, %edi
	cmpb	(%rsi,%r11), %r8b
	je	2b
	jmp	5f
4:
	bswapl	%r10d
	movl	%r10d, %r10d
	addq	%r8, %r10
	subq	%r9, %rdi
	incq	%rdi
	cmpq	%r10, %rdi
	cmovaeq	%r10, %rdi
	cmpq	$288, %rdi
	ja	2b
	movzbl	(%rsi,%r11), %esi
	movzwl	24(%r15,%rsi,2), %esi
	cmpq	%rsi, %rdi
	ja	2b
	subq	%r8, %rdi
	je	2b
5:
	decq	%rax
	addq	24(%rsp), %rdi
	movq	$-1, %rsi
	cmovaeq	%rdi, %rsi
	movq	%rdx, (%r14)
	movq	%rsi, 8(%r14)
	movq	%rax, 16(%r14)
	movq	%rcx, 24(%r14)
	addq	$32, %r12
	decq	%r13
	jne	1b
6:
	xorl	%eax, %eax
	xorps	%xmm0, %xmm0
	xorl	%ecx, %ecx
	xorl	%edx, %edx
	xorl	%esi, %esi
	jmp	9f
7:
	movzbl	8(%rsp), %edx
	movss	10(%rsp), %xmm0
	movq	16(%rsp), %rsi
	movb	$1, %al
	xorl	%ecx, %ecx
	jmp	9f
8:
	movb	$1, %cl
	xorl	%eax, %eax
	xorl	%edx, %edx
	xorl	%esi, %esi
	xorps	%xmm0, %xmm0
9:
	movb	%al, (%rbx)
	movb	%cl, 1(%rbx)
	movw	%dx, 8(%rbx)
	movss	%xmm0, 10(%rbx)
	movq	%rsi, 16(%rbx)
	addq	$72, %rsp
	popq	%rbx
	popq	%r12
	popq	%r13
	popq	%r14
	popq	%r15
	popq	%rbp
	retq
10:
	.size	"mime_view::magic::some_child_holds", 10b-"mime_view::magic::some_child_holds"

	.text
	.p2align	4
	.type	"mime_view::magic::whole_line_holds",@function
"mime_view::magic::whole_line_holds":
	pushq	%rbp
	pushq	%r15
	pushq	%r14
	pushq	%r13
	pushq	%r12
	pushq	%rbx
	subq	$120, %rsp
	xorps	%xmm0, %xmm0
	movaps	%xmm0, 96(%rsp)
	movq	$0, 112(%rsp)
	movq	16(%r8), %rax
	movw	$5, %r14w
	testq	%rax, %rax
	je	1f
	decq	%rax
	movq	%rax, 16(%r8)
	movq	(%rsi), %rbp
	movq	(%r8), %rax
	movq	24(%r8), %r12
	incq	%rax
	movq	$-1, %r9
	cmovneq	%rax, %r9
	movq	%r9, (%r8)
	movq	(%rbp), %r13
	movl	12(%r13,%rdx), %eax
	movl	%eax, %r9d
	bswapl	%r9d
	subq	%r9, %r12
	jae	3f
1:
	xorl	%r11d, %r11d
2:
	movw	$1, (%rdi)
	movw	%r14w, 8(%rdi)
	movl	$0, 10(%rdi)
	movq	%r11, 16(%rdi)
	jmp	13f
3:
	movl	8(%r13,%rdx), %r10d
	movl	%r10d, 40(%rsp)
	movl	16(%r13,%rdx), %r11d
	movl	20(%r13,%rdx), %ebx
	movl	24(%r13,%rdx), %r10d
	movl	28(%r13,%rdx), %r14d
	movl	%r14d, 92(%rsp)
	movl	(%r13,%rdx), %r15d
	movl	4(%r13,%rdx), %edx
	movq	%r12, 24(%r8)
	testl	%edx, %edx
	je	10f
	bswapl	%r15d
	movq	16(%rsi), %r12
	leaq	(%r15,%r9), %r14
	movq	%r12, 72(%rsp)
	cmpq	%r14, %r12
	jb	10f
	testl	%eax, %eax
	je	30f
	movl	%r10d, 36(%rsp)
	bswapl	%r11d
	movq	8(%rbp), %r12
	movl	%r11d, %r11d
	movq	%r12, %r14
	subq	%r11, %r14
	setae	%r13b
	cmpq	%r9, %r14
	setae	%r10b
	andb	%r13b, %r10b
	movq	%r11, %r13
	cmovneq	%r9, %r13
	movw	$3, %r14w
	cmpb	$1, %r10b
	jne	2b
	movq	%r13, 64(%rsp)
	movq	8(%rsi), %r13
	movzbl	536(%rsi), %r10d
	movb	%r10b, 27(%rsp)
	movq	(%rbp), %rbp
	testl	%ebx, %ebx
	je	4f
	movq	%r13, 48(%rsp)
	movq	%rbp, %r13
	bswapl	%ebx
	movl	%ebx, %ebp
	subq	%rbp, %r12
	setae	%r10b
	cmpq	%r9, %r12
	setae	%bl
	andb	%r10b, %bl
	cmpb	$1, %bl
	jne	8f
	addq	%r13, %rbp
	movq	%r9, 80(%rsp)
	movq	%rbp, %rbx
	movq	%r13, %rbp
	movq	48(%rsp), %r13
	jmp	5f
4:
	leaq	.L22d5119de29e(%rip), %rbx
	movq	$0, 80(%rsp)
5:
	movq	72(%rsp), %r12
	subq	%r9, %r12
	jb	10f
	cmpq	%r15, %r12
	jb	10f
	addq	%r11, %rbp
	cmpl	$16777216, %edx
	setne	%r10b
	cmpq	$0, 80(%rsp)
	setne	%r11b
	orb	%r10b, %r11b
	cmpl	$16777216, 40(%rsp)
	setne	%r10b
	orb	%r11b, %r10b
	jne	6f
	movzbl	(%r13,%r15), %r10d
	cmpb	(%rbp), %r10b
	jne	9f
6:
	bswapl	%edx
	addq	%r15, %rdx
	incq	%r12
	cmpq	%rdx, %r12
	cmovaeq	%rdx, %r12
	movq	%r12, %r14
	subq	%r15, %r14
	jbe	10f
	movl	40(%rsp), %r10d
	movl	%r10d, %edx
	bswapl	%edx
	movl	%edx, 28(%rsp)
	cmpl	$33554432, %r10d
	sete	%dl
	testb	$1, %r9b
	sete	%r11b
	cmpl	$67108864, %r10d
	sete	%r10b
	testb	$3, %r9b
	sete	%r9b
	cmpq	$0, 80(%rsp)
	movq	%rdi, 40(%rsp)
	movq	%r8, 48(%rsp)
	movl	%ecx, 32(%rsp)
	movq	%rsi, 56(%rsp)
	je	14f
	addq	%r15, %r13
7:
	movq	%r8, 16(%rsp)
	movq	64(%rsp), %rsi
	movq	%rsi, 8(%rsp)
	movq	%r13, (%rsp)
	movzbl	27(%rsp), %r9d
	movq	%rbp, %rdi
	movq	%rbx, %rdx
	movq	80(%rsp), %rcx
	movl	28(%rsp), %r8d
	callq	"mime_base::magic::ranges::value_is"
	movl	36(%rsp), %r10d
	movq	56(%rsp), %rsi
	movl	32(%rsp), %ecx
	movq	48(%rsp), %r8
	movq	40(%rsp), %rdi
	testb	%al, %al
	jne	30f
	incq	%r13
	decq	%r14
	jne	7b
	jmp	10f
8:
	movq	%rbp, %r11
	jmp	2b
9:
	movq	8(%r8), %rax
	incq	%rax
	movq	$-1, %rcx
	cmovneq	%rax, %rcx
	movq	%rcx, 8(%r8)
10:
	movw	$0, (%rdi)
11:
	movl	$0, 8(%rdi)
12:
	movw	$0, 12(%rdi)
	movq	$0, 16(%rdi)
13:
	addq	$120, %rsp
	popq	%rbx
	popq	%r12
	popq	%r13
	popq	%r14
	popq	%r15
	popq	%rbp
	retq
14:
	andb	%r11b, %dl
	andb	%r9b, %r10b
	cmpl	$16777216, %eax
	jne	17f
	cmpb	$0, 27(%rsp)
	sete	%al
	orb	%r10b, %dl
	andb	%al, %dl
	movb	%dl, 72(%rsp)
15:
	movq	%r12, %r14
	subq	%r15, %r12
	cmpq	$2, %r12
	setb	%al
	orb	72(%rsp), %al
	jne	16f
	leaq	(%r15,%r13), %rsi
	movzbl	(%rbp), %edi
	movq	%r12, %rdx
	callq	"memchr::bytes::memchr"
	movq	48(%rsp), %r8
	movq	40(%rsp), %rdi
	testb	$1, %al
	cmoveq	%r12, %rdx
	movq	8(%r8), %rax
	addq	%rdx, %rax
	movq	$-1, %rcx
	cmovaeq	%rax, %rcx
	movq	%rcx, 8(%r8)
	addq	%rdx, %r15
16:
	cmpq	%r14, %r15
	je	10b
	movq	%r14, %r12
	leaq	(%r15,%r13), %rax
	movq	%r8, 16(%rsp)
	movq	%rax, (%rsp)
	movq	$1, 8(%rsp)
	movzbl	27(%rsp), %r9d
	movl	$1, %esi
	movq	%rbp, %rdi
	movq	%rbx, %rdx
	xorl	%ecx, %ecx
	movl	28(%rsp), %r8d
	callq	"mime_base::magic::ranges::value_is"
	movl	36(%rsp), %r10d
	movq	56(%rsp), %rsi
	movl	32(%rsp), %ecx
	movq	48(%rsp), %r8
	movq	40(%rsp), %rdi
	testb	%al, %al
	jne	30f
	incq	%r15
	cmpq	%r12, %r15
	jb	15b
	jmp	10b
17:
	cmpb	$0, 27(%rsp)
	je	22f
18:
	movq	%r12, %rax
	subq	%r15, %rax
	cmpq	$2, %rax
	jb	21f
	leaq	(%r15,%r13), %rdx
	movq	72(%rsp), %rcx
	subq	%r15, %rcx
	movzbl	1(%rbp), %esi
	movzbl	(%rbp), %edi
	movq	%rax, %r8
	callq	"mime_base::magic::pairs::pass_pairs"
	movq	48(%rsp), %r8
	movq	8(%r8), %rsi
	movq	$-1, %rcx
	movq	$-1, %rdi
	addq	%rax, %rsi
	jb	19f
	movq	%rsi, %rdi
19:
	addq	%rdi, %rdx
	jb	20f
	movq	%rdx, %rcx
20:
	movq	%rcx, 8(%r8)
	addq	%rax, %r15
	movq	40(%rsp), %rdi
21:
	cmpq	%r12, %r15
	je	10b
	leaq	(%r15,%r13), %rax
	movq	%r8, 16(%rsp)
	movq	64(%rsp), %rsi
	movq	%rsi, 8(%rsp)
	movq	%rax, (%rsp)
	movzbl	27(%rsp), %r9d
	movq	%rbp, %rdi
	movq	%rbx, %rdx
	xorl	%ecx, %ecx
	movl	28(%rsp), %r8d
	callq	"mime_base::magic::ranges::value_is"
	movl	36(%rsp), %r10d
	movq	56(%rsp), %rsi
	movl	32(%rsp), %ecx
	movq	48(%rsp), %r8
	movq	40(%rsp), %rdi
	testb	%al, %al
	jne	30f
	incq	%r15
	cmpq	%r12, %r15
	jb	18b
	jmp	10b
22:
	testb	%dl, %dl
	je	24f
	addq	%r15, %r13
	subq	%r15, %r12
23:
	movq	%r8, 16(%rsp)
	movq	64(%rsp), %rsi
	movq	%rsi, 8(%rsp)
	movq	%r13, (%rsp)
	movq	%rbp, %rdi
	movq	%rbx, %rdx
	xorl	%ecx, %ecx
	movl	28(%rsp), %r8d
	xorl	%r9d, %r9d
	callq	"mime_base::magic::ranges::value_is"
	movl	36(%rsp), %r10d
	movq	56(%rsp), %rsi
	movl	32(%rsp), %ecx
	movq	48(%rsp), %r8
	movq	40(%rsp), %rdi
	testb	%al, %al
	jne	30f
	incq	%r13
	decq	%r12
	jne	23b
	jmp	10b
24:
	testb	%r10b, %r10b
	je	26f
	addq	%r15, %r13
	subq	%r15, %r12
25:
	movq	%r8, 16(%rsp)
	movq	64(%rsp), %rsi
	movq	%rsi, 8(%rsp)
	movq	%r13, (%rsp)
	movq	%rbp, %rdi
	movq	%rbx, %rdx
	xorl	%ecx, %ecx
	movl	28(%rsp), %r8d
	xorl	%r9d, %r9d
	callq	"mime_base::magic::ranges::value_is"
	movl	36(%rsp), %r10d
	movq	56(%rsp), %rsi
	movl	32(%rsp), %ecx
	movq	48(%rsp), %r8
	movq	40(%rsp), %rdi
	testb	%al, %al
	jne	30f
	incq	%r13
	decq	%r12
	jne	25b
	jmp	10b
26:
	movq	%r12, %rax
	subq	%r15, %rax
	cmpq	$2, %rax
	jb	29f
	leaq	(%r15,%r13), %rdx
	movq	72(%rsp), %rcx
	subq	%r15, %rcx
	movzbl	1(%rbp), %esi
	movzbl	(%rbp), %edi
	movq	%rax, %r8
	callq	"mime_base::magic::pairs::pass_pairs"
	movq	48(%rsp), %r8
	movq	8(%r8), %rsi
	movq	$-1, %rcx
	movq	$-1, %rdi
	addq	%rax, %rsi
	jb	27f
	movq	%rsi, %rdi
27:
	addq	%rdi, %rdx
	jb	28f
	movq	%rdx, %rcx
28:
	movq	%rcx, 8(%r8)
	addq	%rax, %r15
	movq	40(%rsp), %rdi
29:
	cmpq	%r12, %r15
	je	10b
	leaq	(%r15,%r13), %rax
	movq	%r8, 16(%rsp)
	movq	64(%rsp), %rsi
	movq	%rsi, 8(%rsp)
	movq	%rax, (%rsp)
	movq	%rbp, %rdi
	movq	%rbx, %rdx
	xorl	%ecx, %ecx
	movl	28(%rsp), %r8d
	xorl	%r9d, %r9d
	callq	"mime_base::magic::ranges::value_is"
	movl	36(%rsp), %r10d
	movq	56(%rsp), %rsi
	movl	32(%rsp), %ecx
	movq	48(%rsp), %r8
	movq	40(%rsp), %rdi
	testb	%al, %al
	jne	30f
	incq	%r15
	cmpq	%r12, %r15
	jb	26b
	jmp	10b
30:
	testl	%r10d, %r10d
	je	31f
	cmpl	$63, %ecx
	jne	32f
	movw	$1, (%rdi)
	movl	$6, 8(%rdi)
	jmp	12b
31:
	movw	$256, (%rdi)
	jmp	11b
32:
	bswapl	%r10d
	movl	92(%rsp), %edx
	bswapl	%edx
	movq	(%rsi), %r11
	movl	%edx, %eax
	movl	%r10d, %r9d
	shlq	$5, %r9
	addq	%rax, %r9
	cmpq	%r9, 8(%r11)
	jae	33f
	movw	$1, (%rdi)
	movl	$3, 8(%rdi)
	movw	$0, 12(%rdi)
	movq	%rax, 16(%rdi)
	jmp	13b
33:
	incl	%ecx
	leaq	96(%rsp), %rax
	movq	%rdi, %rbx
	movq	%rax, %rdi
	movl	%ecx, %eax
	movl	%r10d, %ecx
	movq	%r8, %r9
	movl	%eax, %r8d
	callq	"mime_view::magic::some_child_holds"
	movzbl	96(%rsp), %eax
	movb	%al, (%rbx)
	movzbl	97(%rsp), %eax
	movb	%al, 1(%rbx)
	movzbl	104(%rsp), %eax
	movw	%ax, 8(%rbx)
	movl	106(%rsp), %eax
	movl	%eax, 10(%rbx)
	movq	112(%rsp), %rax
	movq	%rax, 16(%rbx)
	jmp	13b
34:
	.size	"mime_view::magic::whole_line_holds", 34b-"mime_view::magic::whole_line_holds"

	.section	.rodata.cst16,"aM",@progbits,16
	.p2align	4, 0x0
1:
	.zero	16,191
2:
	.zero	16,25
3:
	.byte	191,191,191,191,191,191,191,191
	.zero	1
	.zero	1
	.zero	1
	.zero	1
	.zero	1
	.zero	1
	.zero	1
	.zero	1
4:
	.byte	26,26,26,26,26,26,26,26
	.zero	1
	.zero	1
	.zero	1
	.zero	1
	.zero	1
	.zero	1
	.zero	1
	.zero	1
	.text
	.p2align	4
	.type	"mime_view::name::gather_hits",@function
"mime_view::name::gather_hits":
	pushq	%rbp
	pushq	%r15
	pushq	%r14
	pushq	%r13
	pushq	%r12
	pushq	%rbx
	subq	$296, %rsp
	movq	%rcx, %r8
	movq	%rdi, %r15
	movl	(%rdx), %ebx
	movl	4(%rdx), %r14d
	movl	8(%rdx), %r12d
	movq	8(%rsi), %r13
	movq	16(%rsi), %rbp
	cmpq	$7, %rbp
	movq	%rcx, 64(%rsp)
	ja	5f
	testq	%rbp, %rbp
	je	14f
	movzbl	(%r13), %eax
	addb	$-65, %al
	cmpb	$26, %al
	jb	10f
	cmpq	$1, %rbp
	je	14f
	movzbl	1(%r13), %eax
	addb	$-65, %al
	cmpb	$26, %al
	jb	10f
	cmpq	$2, %rbp
	je	14f
	movzbl	2(%r13), %eax
	addb	$-65, %al
	cmpb	$26, %al
	jb	10f
	cmpq	$3, %rbp
	je	14f
	movzbl	3(%r13), %eax
	addb	$-65, %al
	cmpb	$26, %al
	jb	10f
	cmpq	$4, %rbp
	je	14f
	movzbl	4(%r13), %eax
	addb	$-65, %al
	cmpb	$26, %al
	jb	10f
	cmpq	$5, %rbp
	je	14f
	movzbl	5(%r13), %eax
	addb	$-65, %al
	cmpb	$26, %al
	jb	10f
	cmpq	$6, %rbp
	je	14f
	movzbl	6(%r13), %eax
	addb	$-65, %al
	cmpb	$26, %al
	setae	%al
	cmpq	$7, %rbp
	sete	%cl
	testb	%cl, %al
	je	10f
	jmp	14f
5:
	cmpq	$15, %rbp
	ja	7f
	movq	(%r13), %xmm0
	paddb	3b(%rip), %xmm0
	movdqa	4b(%rip), %xmm1
	pmaxub	%xmm0, %xmm1
	pcmpeqb	%xmm0, %xmm1
	pmovmskb	%xmm1, %eax
	xorb	$-1, %al
	jne	6f
	movq	-8(%r13,%rbp), %xmm0
	paddb	3b(%rip), %xmm0
	movdqa	4b(%rip), %xmm1
	pmaxub	%xmm0, %xmm1
	pcmpeqb	%xmm0, %xmm1
	pmovmskb	%xmm1, %eax
	xorb	$-1, %al
	je	14f
6:
	movq	%rsi, 40(%rsp)
	jmp	11f
7:
	movq	%rbp, %rax
	addq	$-16, %rax
	je	9f
	xorl	%ecx, %ecx
	.p2align	4
8:
	movdqu	(%r13,%rcx), %xmm0
	paddb	1b(%rip), %xmm0
	movdqa	2b(%rip), %xmm1
	pminub	%xmm0, %xmm1
	pcmpeqb	%xmm0, %xmm1
	pmovmskb	%xmm1, %edx
	testl	%edx, %edx
	jne	10f
	addq	$16, %rcx
	cmpq	%rax, %rcx
	jb	8b
9:
	movdqu	-16(%r13,%rbp), %xmm0
	paddb	1b(%rip), %xmm0
	movdqa	2b(%rip), %xmm1
	pminub	%xmm0, %xmm1
	pcmpeqb	%xmm0, %xmm1
	pmovmskb	%xmm1, %eax
	testl	%eax, %eax
	je	14f
10:
	testq	%rbp, %rbp
	je	18f
	movq	%rsi, 40(%rsp)
	js	128f
11:
	movl	$1, %esi
	movq	%rbp, %rdi
	callq	rattle_alloc@PLT
	testb	$1, %al
	je	128f
	movq	%r14, 96(%rsp)
	movl	%r12d, 124(%rsp)
	movq	%r15, 88(%rsp)
	movq	%rdx, 144(%rsp)
	movq	$0, 152(%rsp)
	movq	%rbp, 160(%rsp)
	xorl	%r12d, %r12d
	xorl	%r14d, %r14d
	movq	64(%rsp), %r8
	jmp	13f
	.p2align	4
12:
	movb	%r15b, (%rdx,%r12)
	incq	%r12
	movq	%r12, 152(%rsp)
	incq	%r14
	cmpq	%r14, %rbp
	je	17f
13:
	movzbl	(%r13,%r14), %eax
	leal	-65(%rax), %ecx
	leal	32(%rax), %esi
	cmpb	$26, %cl
	movzbl	%sil, %r15d
	cmovael	%eax, %r15d
	cmpq	%r12, 160(%rsp)
	jne	12b
	leaq	144(%rsp), %rdi
	callq	"std_alloc::vec::Vec::grow_amortized::<#0cdf28b7eeb0a4d1>"
	testb	%al, %al
	je	127f
	movq	144(%rsp), %rdx
	movq	152(%rsp), %r12
	movq	64(%rsp), %r8
	jmp	12b
14:
	movq	%r14, 96(%rsp)
	pxor	%xmm0, %xmm0
	movdqa	%xmm0, 208(%rsp)
	movq	$0, 224(%rsp)
	movq	(%rsi), %rdx
	leaq	4(%rbx), %r11
	movq	56(%r8), %rax
	incq	%rax
	movq	$-1, %r14
	cmovneq	%rax, %r14
	movb	$3, %r10b
	movb	$1, %r9b
	cmpq	%r11, 8(%rdx)
	movq	%r14, 56(%r8)
	jb	15f
	movq	(%rdx), %rax
	movq	8(%rdx), %rdi
	movq	%rax, 8(%rsp)
	movl	(%rax,%rbx), %eax
	movl	%eax, %ecx
	bswapl	%ecx
	movq	%rcx, 104(%rsp)
	leaq	(%rcx,%rcx,2), %rcx
	leaq	(%r11,%rcx,4), %rcx
	movq	%rdi, 24(%rsp)
	cmpq	%rcx, %rdi
	jae	24f
15:
	pxor	%xmm3, %xmm3
16:
	movb	%r9b, (%r15)
	movzbl	%r10b, %eax
	movw	%ax, 8(%r15)
	movd	%xmm3, 10(%r15)
	movq	%rbx, 16(%r15)
	jmp	129f
17:
	movq	144(%rsp), %rax
	movq	%rax, 24(%rsp)
	cmpq	$0, 160(%rsp)
	sete	%r11b
	movq	40(%rsp), %rsi
	jmp	19f
18:
	movq	%r14, 96(%rsp)
	movl	%r12d, 124(%rsp)
	movq	%r15, 88(%rsp)
	leaq	143(%rsp), %rax
	movq	%rax, 24(%rsp)
	movb	$1, %r11b
	xorl	%r12d, %r12d
19:
	pxor	%xmm0, %xmm0
	movdqa	%xmm0, 208(%rsp)
	movq	$0, 224(%rsp)
	movq	(%rsi), %r15
	movq	8(%rsi), %r13
	movq	16(%rsi), %rcx
	movq	%rbx, %rdx
	addq	$4, %rdx
	movq	56(%r8), %rax
	incq	%rax
	movq	$-1, %r14
	cmovneq	%rax, %r14
	movb	$3, %r9b
	movb	$1, %bpl
	cmpq	%rdx, 8(%r15)
	movq	%r14, 56(%r8)
	jb	20f
	movq	%rcx, 56(%rsp)
	movq	(%r15), %rax
	movq	8(%r15), %r10
	movq	%rax, 48(%rsp)
	movl	(%rax,%rbx), %eax
	movl	%eax, %ecx
	bswapl	%ecx
	movq	%rcx, 200(%rsp)
	leaq	(%rcx,%rcx,2), %rcx
	movq	%rdx, 128(%rsp)
	leaq	(%rdx,%rcx,4), %rcx
	movq	%r10, 16(%rsp)
	cmpq	%rcx, %r10
	jae	25f
20:
	movq	%rbx, %r15
21:
	pxor	%xmm3, %xmm3
22:
	testb	%r11b, %r11b
	jne	23f
	movq	24(%rsp), %rdi
	movl	%r9d, %ebx
	movdqa	%xmm3, 64(%rsp)
	callq	rattle_dealloc@PLT
	movdqa	64(%rsp), %xmm3
	movl	%ebx, %r9d
23:
	movq	88(%rsp), %rcx
	movb	%bpl, (%rcx)
	movzbl	%r9b, %eax
	movw	%ax, 8(%rcx)
	movd	%xmm3, 10(%rcx)
	movq	%r15, 16(%rcx)
	jmp	129f
24:
	movl	%r12d, 124(%rsp)
	movq	64(%r8), %r12
	testl	%eax, %eax
	movq	%rdx, 32(%rsp)
	movq	%r15, 88(%rsp)
	je	26f
	movdqa	%xmm0, 176(%rsp)
	cmpq	$15, %rbp
	movq	%r11, 80(%rsp)
	movq	%rsi, 40(%rsp)
	ja	29f
	leaq	176(%rsp), %rdi
	movq	%r13, %rsi
	movq	%rbp, %rdx
	callq	memcpy@PLT
	movq	80(%rsp), %r11
	jmp	30f
25:
	testl	%eax, %eax
	je	122f
	movq	64(%r8), %rax
	movdqa	%xmm0, 176(%rsp)
	movq	56(%rsp), %rdi
	cmpq	$15, %rdi
	movq	%rsi, 40(%rsp)
	movb	%r11b, 7(%rsp)
	movq	%r15, 112(%rsp)
	movq	%rax, 8(%rsp)
	ja	88f
	leaq	176(%rsp), %rdi
	movq	%r13, %rsi
	movq	56(%rsp), %rdx
	callq	memcpy@PLT
	movq	56(%rsp), %rdi
	movq	64(%rsp), %r8
	jmp	89f
26:
	movq	%r14, 56(%r8)
	movq	%r12, 64(%r8)
27:
	movq	8(%rdx), %rax
	movq	96(%rsp), %rbx
	subq	%rbx, %rax
	setb	%cl
	cmpq	$8, %rax
	setb	%al
	orb	%cl, %al
	incq	%r14
	movq	$-1, %rcx
	cmovneq	%r14, %rcx
	movq	%rcx, 56(%r8)
	testb	%al, %al
	je	59f
28:
	pxor	%xmm3, %xmm3
	movq	88(%rsp), %r15
	jmp	16b
29:
	movdqu	(%r13), %xmm0
	movdqa	%xmm0, 176(%rsp)
30:
	movdqa	176(%rsp), %xmm0
	movdqu	%xmm0, 160(%rsp)
	movq	8(%rsp), %rax
	addq	%r11, %rax
	movq	%rax, 48(%rsp)
	movzbl	160(%rsp), %eax
	movb	%al, 56(%rsp)
	xorl	%r15d, %r15d
	movq	104(%rsp), %r8
	movl	$0, 16(%rsp)
	jmp	34f
31:
	incq	%r11
	addq	%r12, %r11
	movq	$-1, %r12
	cmovaeq	%r11, %r12
	movq	80(%rsp), %r11
32:
	incq	%rsi
	movq	%rsi, %r15
33:
	cmpq	%r8, %r15
	jae	64f
34:
	movq	%r14, %rax
	leaq	(%r8,%r15), %rsi
	shrq	%rsi
	leaq	(%rsi,%rsi,2), %rcx
	movq	%r14, %rdx
	incq	%rdx
	movq	$-1, %r14
	cmovneq	%rdx, %r14
	movq	48(%rsp), %rdx
	movl	(%rdx,%rcx,4), %ebx
	bswapl	%ebx
	movq	24(%rsp), %r10
	subq	%rbx, %r10
	jbe	60f
	movq	8(%rsp), %rcx
	leaq	(%rcx,%rbx), %r9
	cmpq	$16, %r10
	jae	36f
35:
	testq	%rbp, %rbp
	je	49f
	movzbl	(%r9), %ecx
	cmpb	(%r13), %cl
	jne	39f
	cmpq	$8, %rbp
	jb	49f
	cmpq	$33, %r10
	jb	49f
	cmpq	$15, %rbp
	ja	47f
	movq	(%r9), %xmm3
	movq	(%r13), %xmm4
	pcmpeqb	%xmm3, %xmm4
	pcmpeqd	%xmm2, %xmm2
	pxor	%xmm2, %xmm4
	pxor	%xmm1, %xmm1
	pcmpeqb	%xmm1, %xmm3
	por	%xmm4, %xmm3
	pmovmskb	%xmm3, %ecx
	orl	$256, %ecx
	rep		bsfl	%ecx, %ecx
	cmpb	$8, %cl
	jb	40f
	leaq	-8(%rbp), %rdx
	movq	(%r9,%rdx), %xmm3
	movq	(%r13,%rdx), %xmm4
	pcmpeqb	%xmm3, %xmm4
	pxor	%xmm2, %xmm4
	pcmpeqb	%xmm3, %xmm1
	por	%xmm4, %xmm1
	pmovmskb	%xmm1, %ecx
	orl	$256, %ecx
	jmp	48f
	.p2align	4
36:
	movzbl	(%r9), %ecx
	cmpb	56(%rsp), %cl
	jne	37f
	movdqu	(%r9), %xmm1
	pxor	%xmm2, %xmm2
	pcmpeqb	%xmm1, %xmm2
	pcmpeqb	%xmm0, %xmm1
	pcmpeqd	%xmm3, %xmm3
	pxor	%xmm1, %xmm3
	por	%xmm3, %xmm2
	pmovmskb	%xmm2, %ecx
	testl	%ecx, %ecx
	je	35b
	rep		bsfl	%ecx, %edx
	movzbl	(%r9,%rdx), %ecx
	jmp	38f
	.p2align	4
37:
	xorl	%edx, %edx
38:
	movzbl	160(%rsp,%rdx), %edi
	leaq	1(%rdx), %r9
	addq	%r12, %r9
	movq	$-1, %r12
	cmovaeq	%r9, %r12
	cmpb	%dil, %cl
	jne	44f
	cmpq	%rbp, %rdx
	jne	43f
	testb	%cl, %cl
	jne	45f
	jmp	41f
39:
	xorl	%ecx, %ecx
40:
	leaq	1(%rcx), %rdx
	addq	%r12, %rdx
	movq	$-1, %r12
	cmovaeq	%rdx, %r12
	movzbl	(%r9,%rcx), %edx
	cmpq	%rbp, %rcx
	jne	42f
	testb	%dl, %dl
	jne	45f
41:
	movb	$1, %cl
	movl	%ecx, 16(%rsp)
	jmp	46f
42:
	testb	%dl, %dl
	je	32b
	cmpb	(%r13,%rcx), %dl
	jb	32b
	jmp	45f
43:
	testb	%cl, %cl
	je	32b
	cmpb	(%r13,%rdx), %cl
44:
	jb	32b
45:
	movl	$0, 16(%rsp)
46:
	movq	%rsi, %r8
	jmp	33b
47:
	cmpq	$32, %rbp
	ja	49f
	movdqu	(%r9), %xmm3
	movdqu	(%r13), %xmm4
	pcmpeqb	%xmm3, %xmm4
	pcmpeqd	%xmm2, %xmm2
	pxor	%xmm2, %xmm4
	pxor	%xmm1, %xmm1
	pcmpeqb	%xmm1, %xmm3
	por	%xmm4, %xmm3
	pmovmskb	%xmm3, %ecx
	orl	$65536, %ecx
	rep		bsfl	%ecx, %ecx
	cmpw	$16, %cx
	jb	40b
	leaq	-16(%rbp), %rdx
	movdqu	(%r9,%rdx), %xmm3
	movdqu	(%r13,%rdx), %xmm4
	pcmpeqb	%xmm3, %xmm4
	pxor	%xmm2, %xmm4
	pcmpeqb	%xmm3, %xmm1
	por	%xmm4, %xmm1
	pmovmskb	%xmm1, %ecx
	orl	$65536, %ecx
48:
	rep		bsfl	%ecx, %ecx
	addq	%rdx, %rcx
	jmp	40b
	.p2align	4
49:
	cmpq	$256, %r10
	movl	$256, %edi
	cmovbq	%r10, %rdi
	cmpq	%rdi, %rbp
	movq	%rdi, %rdx
	cmovbq	%rbp, %rdx
	xorl	%r11d, %r11d
	.p2align	4
50:
	movq	%rdx, %rcx
	subq	%r11, %rcx
	cmpq	$16, %rcx
	jb	51f
	movdqu	(%r9,%r11), %xmm1
	movdqu	(%r13,%r11), %xmm2
	pcmpeqb	%xmm1, %xmm2
	pcmpeqd	%xmm3, %xmm3
	pxor	%xmm2, %xmm3
	pxor	%xmm2, %xmm2
	pcmpeqb	%xmm1, %xmm2
	por	%xmm3, %xmm2
	pmovmskb	%xmm2, %ecx
	orl	$65536, %ecx
	rep		bsfl	%ecx, %ecx
	addq	%rcx, %r11
	cmpw	$15, %cx
	ja	50b
	movq	%rdx, %rcx
	subq	%r11, %rcx
51:
	cmpq	$8, %rcx
	jb	52f
	movl	%r11d, %ecx
	andl	$15, %ecx
	jne	52f
	movq	(%r9,%r11), %xmm1
	movq	(%r13,%r11), %xmm2
	pcmpeqb	%xmm1, %xmm2
	pcmpeqd	%xmm3, %xmm3
	pxor	%xmm2, %xmm3
	pxor	%xmm2, %xmm2
	pcmpeqb	%xmm1, %xmm2
	por	%xmm3, %xmm2
	pmovmskb	%xmm2, %ecx
	orl	$256, %ecx
	rep		bsfl	%ecx, %ecx
	orq	%rcx, %r11
52:
	cmpq	%rdx, %r11
	jae	54f
	.p2align	4
53:
	movzbl	(%r9,%r11), %ecx
	testb	%cl, %cl
	je	31b
	cmpb	(%r13,%r11), %cl
	jne	58f
	incq	%r11
	cmpq	%r11, %rdx
	jne	53b
54:
	cmpq	%rbp, %rdi
	jbe	154f
	cmpb	$0, (%r9,%rdx)
	je	56f
	movq	%rdx, %r11
55:
	incq	%r11
	addq	%r12, %r11
	movq	$-1, %r12
	cmovaeq	%r11, %r12
	movl	$0, 16(%rsp)
	jmp	57f
56:
	incq	%rdx
	addq	%r12, %rdx
	movq	$-1, %r12
	cmovaeq	%rdx, %r12
	movb	$1, %cl
	movl	%ecx, 16(%rsp)
57:
	movq	%rsi, %r8
	movq	80(%rsp), %r11
	jmp	33b
58:
	jae	55b
	jmp	31b
59:
	testq	%rbp, %rbp
	movq	88(%rsp), %r15
	movl	124(%rsp), %edx
	je	153f
	cmpb	$0, -1(%r13,%rbp)
	je	153f
	movq	32(%rsp), %r10
	movq	(%r10), %rax
	movq	96(%rsp), %rdi
	movl	(%rax,%rdi), %ecx
	movl	4(%rax,%rdi), %eax
	shlq	$32, %rcx
	orq	%rax, %rcx
	bswapq	%rcx
	movq	%rcx, %rbx
	shrq	$32, %rbx
	movl	$4294967295, %edi
	andq	%rcx, %rdi
	je	130f
	leaq	(%rdi,%rdi,2), %rax
	leaq	(%rbx,%rax,4), %rax
	cmpq	%rax, 8(%r10)
	jae	130f
	pxor	%xmm3, %xmm3
	movb	$3, %r10b
	jmp	16b
60:
	movb	$3, %r10b
61:
	movq	64(%rsp), %rax
	movq	%r14, 56(%rax)
	movq	%r12, 64(%rax)
62:
	pxor	%xmm3, %xmm3
63:
	movq	88(%rsp), %r15
	movb	$1, %r9b
	jmp	16b
64:
	movq	64(%rsp), %r8
	movq	%r14, 56(%r8)
	movq	%r12, 64(%r8)
	testb	$1, 16(%rsp)
	je	120f
	cmpq	104(%rsp), %r15
	movq	40(%rsp), %rsi
	movb	$1, %r9b
	movb	$3, %r10b
	movq	32(%rsp), %rdx
	jae	27b
	movzwl	%bp, %eax
	addl	%eax, %eax
	movl	%eax, 48(%rsp)
	leaq	16(%r8), %rax
	movq	%rax, 24(%rsp)
	leaq	24(%r8), %rax
	movq	%rax, 16(%rsp)
65:
	movq	72(%r8), %rcx
	cmpq	$2, %rcx
	jb	250f
	movq	%rsi, %r12
	leaq	(%r15,%r15,2), %rax
	addq	$-2, %rcx
	movq	%rdx, %rsi
	movq	56(%r8), %rdx
	movq	%rcx, 72(%r8)
	addq	$2, %rdx
	movq	$-1, %r14
	cmovaeq	%rdx, %r14
	movq	%r14, 56(%r8)
	movq	(%rsi), %rcx
	movq	8(%rsi), %rdx
	leaq	(%rcx,%r11), %rsi
	movl	(%rsi,%rax,4), %ebx
	bswapl	%ebx
	pxor	%xmm3, %xmm3
	subq	%rbx, %rdx
	jbe	251f
	movl	4(%rsi,%rax,4), %edi
	movq	%rdi, 8(%rsp)
	movl	8(%rsi,%rax,4), %eax
	addq	%rbx, %rcx
	testq	%rbp, %rbp
	je	70f
	movzbl	(%rcx), %esi
	cmpb	(%r13), %sil
	jne	66f
	cmpq	$8, %rbp
	jb	70f
	cmpq	$33, %rdx
	jb	70f
	cmpq	$15, %rbp
	ja	68f
	movq	(%rcx), %xmm2
	movq	(%r13), %xmm3
	pcmpeqb	%xmm2, %xmm3
	pcmpeqd	%xmm1, %xmm1
	pxor	%xmm1, %xmm3
	pxor	%xmm0, %xmm0
	pcmpeqb	%xmm0, %xmm2
	por	%xmm3, %xmm2
	pmovmskb	%xmm2, %edx
	orl	$256, %edx
	rep		bsfl	%edx, %edx
	cmpb	$8, %dl
	jb	67f
	leaq	-8(%rbp), %rsi
	movq	(%rcx,%rsi), %xmm2
	movq	(%r13,%rsi), %xmm3
	pcmpeqb	%xmm2, %xmm3
	pxor	%xmm1, %xmm3
	pcmpeqb	%xmm2, %xmm0
	por	%xmm3, %xmm0
	pmovmskb	%xmm0, %edx
	orl	$256, %edx
	jmp	69f
66:
	xorl	%edx, %edx
67:
	leaq	1(%rdx), %rsi
	addq	64(%r8), %rsi
	movq	$-1, %rdi
	cmovaeq	%rsi, %rdi
	movq	%rdi, 64(%r8)
	cmpq	%rbp, %rdx
	jne	307f
	cmpb	$0, (%rcx,%rdx)
	movq	%r12, %rsi
	jmp	76f
68:
	cmpq	$32, %rbp
	ja	70f
	movdqu	(%rcx), %xmm2
	movdqu	(%r13), %xmm3
	pcmpeqb	%xmm2, %xmm3
	pcmpeqd	%xmm1, %xmm1
	pxor	%xmm1, %xmm3
	pxor	%xmm0, %xmm0
	pcmpeqb	%xmm0, %xmm2
	por	%xmm3, %xmm2
	pmovmskb	%xmm2, %edx
	orl	$65536, %edx
	rep		bsfl	%edx, %edx
	cmpw	$16, %dx
	jb	67b
	leaq	-16(%rbp), %rsi
	movdqu	(%rcx,%rsi), %xmm2
	movdqu	(%r13,%rsi), %xmm3
	pcmpeqb	%xmm2, %xmm3
	pxor	%xmm1, %xmm3
	pcmpeqb	%xmm2, %xmm0
	por	%xmm3, %xmm0
	pmovmskb	%xmm0, %edx
	orl	$65536, %edx
69:
	rep		bsfl	%edx, %edx
	addq	%rsi, %rdx
	jmp	67b
70:
	cmpq	$256, %rdx
	movl	$256, %edi
	cmovbq	%rdx, %rdi
	cmpq	%rdi, %rbp
	movq	%rdi, %rsi
	cmovbq	%rbp, %rsi
	xorl	%r8d, %r8d
71:
	movq	%rsi, %r9
	subq	%r8, %r9
	cmpq	$16, %r9
	jb	72f
	movdqu	(%rcx,%r8), %xmm0
	movdqu	(%r13,%r8), %xmm1
	pcmpeqb	%xmm0, %xmm1
	pcmpeqd	%xmm2, %xmm2
	pxor	%xmm1, %xmm2
	pxor	%xmm1, %xmm1
	pcmpeqb	%xmm0, %xmm1
	por	%xmm2, %xmm1
	pmovmskb	%xmm1, %r9d
	orl	$65536, %r9d
	rep		bsfl	%r9d, %r9d
	addq	%r9, %r8
	cmpw	$15, %r9w
	ja	71b
	movq	%rsi, %r9
	subq	%r8, %r9
72:
	cmpq	$8, %r9
	jb	73f
	movl	%r8d, %r9d
	andl	$15, %r9d
	jne	73f
	movq	(%rcx,%r8), %xmm0
	movq	(%r13,%r8), %xmm1
	pcmpeqb	%xmm0, %xmm1
	pcmpeqd	%xmm2, %xmm2
	pxor	%xmm1, %xmm2
	pxor	%xmm1, %xmm1
	pcmpeqb	%xmm0, %xmm1
	por	%xmm2, %xmm1
	pmovmskb	%xmm1, %r9d
	orl	$256, %r9d
	rep		bsfl	%r9d, %r9d
	orq	%r9, %r8
73:
	cmpq	%rsi, %r8
	jae	75f
	incq	%r8
	movq	%rsi, %r9
	negq	%r9
74:
	movzbl	-1(%rcx,%r8), %r10d
	testb	%r10b, %r10b
	je	157f
	cmpb	-1(%r13,%r8), %r10b
	jne	157f
	leaq	(%r9,%r8), %r10
	incq	%r10
	incq	%r8
	cmpq	$1, %r10
	jne	74b
75:
	cmpq	%rbp, %rdi
	movb	$3, %r10b
	jbe	303f
	leaq	1(%rsi), %rdx
	movq	64(%rsp), %r8
	addq	64(%r8), %rdx
	movq	$-1, %rdi
	cmovaeq	%rdx, %rdi
	cmpb	$0, (%rcx,%rsi)
	movq	%rdi, 64(%r8)
	movq	%r12, %rsi
	movb	$1, %r9b
76:
	movq	32(%rsp), %rdx
	jne	27b
	movq	8(%rsp), %r14
	bswapl	%r14d
	bswapl	%eax
	movzbl	%al, %ecx
	shll	$17, %ecx
	addl	48(%rsp), %ecx
	shrl	$8, %eax
	andl	$1, %eax
	leal	(%rax,%rcx), %ebx
	addl	$67108864, %ebx
	cmpb	$0, (%r8)
	je	77f
	movzbl	8(%r8), %eax
	leaq	40(%r8), %rcx
	testb	%al, %al
	cmovneq	24(%rsp), %rcx
	je	78f
	movq	32(%r8), %rdx
	jmp	79f
77:
	movl	8(%r8), %eax
	cmpl	%eax, %ebx
	jb	87f
	jbe	86f
	movq	24(%rsp), %rax
	cmpb	$0, (%rax)
	je	84f
	cmpq	$0, 32(%r8)
	je	85f
	movq	$0, 32(%r8)
	jmp	85f
78:
	movl	$4, %edx
79:
	cmpq	%rdx, 8(%rcx)
	je	81f
	testb	%al, %al
	je	82f
80:
	movq	16(%rsp), %rdi
	movq	(%rdi), %rax
	movq	24(%rsp), %rcx
	movq	(%rcx), %rcx
	shlq	$32, %r14
	movl	%ebx, %edx
	orq	%r14, %rdx
	movq	%rdx, (%rcx,%rax,8)
	incq	%rax
	movq	%rax, (%rdi)
	jmp	83f
81:
	movq	%r14, 8(%rsp)
	leaq	8(%r8), %rdi
	movq	%r8, %r14
	callq	"smallvec::small_vec::SmallVec::reserve_one::<#c56eefbaea896dc3>"
	testb	%al, %al
	jne	309f
	movzbl	8(%r14), %eax
	movq	%r14, %r8
	movq	%r12, %rsi
	movb	$1, %r9b
	movb	$3, %r10b
	movq	80(%rsp), %r11
	movq	8(%rsp), %r14
	testb	%al, %al
	jne	80b
82:
	movq	48(%r8), %rax
	shlq	$32, %r14
	movl	%ebx, %ecx
	orq	%r14, %rcx
	movq	%rcx, 16(%r8,%rax,8)
	incq	%rax
	movq	%rax, 48(%r8)
83:
	movq	32(%rsp), %rdx
	jmp	87f
84:
	movq	40(%r8), %rdx
	testq	%rdx, %rdx
	je	85f
	shlq	$2, %rdx
	movq	16(%rsp), %rdi
	xorl	%esi, %esi
	callq	memset@PLT
	movq	64(%rsp), %r8
	movq	$0, 40(%r8)
85:
	movl	$0, 8(%r8)
86:
	movq	24(%rsp), %rdi
	movl	%r14d, %esi
	callq	"smallvec::small_vec::SmallVec::push::<#bc37e6e66b18402c>"
	testb	%al, %al
	jne	309f
	movq	64(%rsp), %r8
	movl	%ebx, 8(%r8)
	movq	%r12, %rsi
	movb	$1, %r9b
	movb	$3, %r10b
	movq	32(%rsp), %rdx
	movq	80(%rsp), %r11
87:
	incq	%r15
	cmpq	104(%rsp), %r15
	jne	65b
	movq	56(%r8), %r14
	jmp	27b
88:
	movdqu	(%r13), %xmm0
	movdqa	%xmm0, 176(%rsp)
89:
	movdqa	176(%rsp), %xmm0
	movdqu	%xmm0, 160(%rsp)
	movq	128(%rsp), %rax
	movq	48(%rsp), %rcx
	addq	%rcx, %rax
	movq	%rax, 80(%rsp)
	movzbl	160(%rsp), %eax
	movb	%al, 104(%rsp)
	leaq	-16(%rdi), %rax
	movq	%rax, 232(%rsp)
	leaq	-8(%rdi), %rax
	movq	%rax, 240(%rsp)
	xorl	%edx, %edx
	movq	200(%rsp), %rsi
	movl	$0, 32(%rsp)
	jmp	93f
90:
	incq	%rcx
	addq	8(%rsp), %rcx
	movq	$-1, %rdx
	cmovaeq	%rcx, %rdx
	movq	%rdx, 8(%rsp)
	movq	64(%rsp), %r8
	movq	56(%rsp), %rdi
91:
	incq	%rsi
	movq	%rsi, %rdx
	movq	%rbp, %rsi
92:
	cmpq	%rsi, %rdx
	jae	119f
93:
	movq	%r14, %rax
	movq	%rdx, %r9
	movq	%rsi, %rbp
	addq	%rdx, %rsi
	shrq	%rsi
	leaq	(%rsi,%rsi,2), %rcx
	movq	%r14, %rdx
	incq	%rdx
	movq	$-1, %r14
	cmovneq	%rdx, %r14
	movq	80(%rsp), %rdx
	movl	(%rdx,%rcx,4), %r15d
	bswapl	%r15d
	movq	16(%rsp), %r11
	subq	%r15, %r11
	jbe	116f
	movq	48(%rsp), %rcx
	leaq	(%rcx,%r15), %r10
	cmpq	$16, %r11
	jae	95f
94:
	testq	%rdi, %rdi
	je	106f
	movzbl	(%r10), %ecx
	cmpb	(%r13), %cl
	jne	99f
	cmpq	$8, %rdi
	jb	106f
	cmpq	$33, %r11
	jb	106f
	cmpq	$15, %rdi
	ja	104f
	movq	(%r10), %xmm3
	movq	(%r13), %xmm4
	pcmpeqb	%xmm3, %xmm4
	pcmpeqd	%xmm2, %xmm2
	pxor	%xmm2, %xmm4
	pxor	%xmm1, %xmm1
	pcmpeqb	%xmm1, %xmm3
	por	%xmm4, %xmm3
	pmovmskb	%xmm3, %ecx
	orl	$256, %ecx
	rep		bsfl	%ecx, %ecx
	cmpb	$8, %cl
	jb	100f
	movq	240(%rsp), %rdx
	movq	(%r10,%rdx), %xmm3
	movq	(%r13,%rdx), %xmm4
	pcmpeqb	%xmm3, %xmm4
	pxor	%xmm2, %xmm4
	pcmpeqb	%xmm3, %xmm1
	por	%xmm4, %xmm1
	pmovmskb	%xmm1, %ecx
	orl	$256, %ecx
	jmp	105f
	.p2align	4
95:
	movzbl	(%r10), %ecx
	cmpb	104(%rsp), %cl
	jne	96f
	movdqu	(%r10), %xmm1
	pxor	%xmm2, %xmm2
	pcmpeqb	%xmm1, %xmm2
	pcmpeqb	%xmm0, %xmm1
	pcmpeqd	%xmm3, %xmm3
	pxor	%xmm1, %xmm3
	por	%xmm3, %xmm2
	pmovmskb	%xmm2, %ecx
	testl	%ecx, %ecx
	je	94b
	rep		bsfl	%ecx, %edx
	movzbl	(%r10,%rdx), %ecx
	jmp	97f
96:
	xorl	%edx, %edx
97:
	movzbl	160(%rsp,%rdx), %edi
	leaq	1(%rdx), %r8
	addq	8(%rsp), %r8
	movq	$-1, %r10
	cmovaeq	%r8, %r10
	movq	%r10, 8(%rsp)
	cmpb	%dil, %cl
	jne	98f
	movq	56(%rsp), %rdi
	cmpq	%rdi, %rdx
	movq	64(%rsp), %r8
	jne	103f
	testb	%cl, %cl
	jne	113f
	jmp	101f
98:
	movq	64(%rsp), %r8
	movq	56(%rsp), %rdi
	jb	91b
	jmp	113f
99:
	xorl	%ecx, %ecx
100:
	leaq	1(%rcx), %rdx
	addq	8(%rsp), %rdx
	movq	$-1, %r11
	cmovaeq	%rdx, %r11
	movq	%r11, 8(%rsp)
	movzbl	(%r10,%rcx), %edx
	cmpq	%rdi, %rcx
	jne	102f
	testb	%dl, %dl
	jne	113f
101:
	movq	%r9, %rdx
	movb	$1, %cl
	movl	%ecx, 32(%rsp)
	jmp	92b
102:
	testb	%dl, %dl
	je	91b
	cmpb	(%r13,%rcx), %dl
	jb	91b
	jmp	113f
103:
	testb	%cl, %cl
	je	91b
	cmpb	(%r13,%rdx), %cl
	jb	91b
	jmp	113f
104:
	cmpq	$32, %rdi
	ja	106f
	movdqu	(%r10), %xmm3
	movdqu	(%r13), %xmm4
	pcmpeqb	%xmm3, %xmm4
	pcmpeqd	%xmm2, %xmm2
	pxor	%xmm2, %xmm4
	pxor	%xmm1, %xmm1
	pcmpeqb	%xmm1, %xmm3
	por	%xmm4, %xmm3
	pmovmskb	%xmm3, %ecx
	orl	$65536, %ecx
	rep		bsfl	%ecx, %ecx
	cmpw	$16, %cx
	jb	100b
	movq	232(%rsp), %rdx
	movdqu	(%r10,%rdx), %xmm3
	movdqu	(%r13,%rdx), %xmm4
	pcmpeqb	%xmm3, %xmm4
	pxor	%xmm2, %xmm4
	pcmpeqb	%xmm3, %xmm1
	por	%xmm4, %xmm1
	pmovmskb	%xmm1, %ecx
	orl	$65536, %ecx
105:
	rep		bsfl	%ecx, %ecx
	addq	%rdx, %rcx
	jmp	100b
	.p2align	4
106:
	cmpq	$256, %r11
	movl	$256, %r8d
	cmovbq	%r11, %r8
	cmpq	%r8, %rdi
	movq	%r8, %rdx
	cmovbq	%rdi, %rdx
	xorl	%ecx, %ecx
	.p2align	4
107:
	movq	%rdx, %rdi
	subq	%rcx, %rdi
	cmpq	$16, %rdi
	jb	108f
	movdqu	(%r10,%rcx), %xmm1
	movdqu	(%r13,%rcx), %xmm2
	pcmpeqb	%xmm1, %xmm2
	pcmpeqd	%xmm3, %xmm3
	pxor	%xmm2, %xmm3
	pxor	%xmm2, %xmm2
	pcmpeqb	%xmm1, %xmm2
	por	%xmm3, %xmm2
	pmovmskb	%xmm2, %edi
	orl	$65536, %edi
	rep		bsfl	%edi, %edi
	addq	%rdi, %rcx
	cmpw	$15, %di
	ja	107b
	movq	%rdx, %rdi
	subq	%rcx, %rdi
108:
	cmpq	$8, %rdi
	jb	109f
	movl	%ecx, %edi
	andl	$15, %edi
	jne	109f
	movq	(%r10,%rcx), %xmm1
	movq	(%r13,%rcx), %xmm2
	pcmpeqb	%xmm1, %xmm2
	pcmpeqd	%xmm3, %xmm3
	pxor	%xmm2, %xmm3
	pxor	%xmm2, %xmm2
	pcmpeqb	%xmm1, %xmm2
	por	%xmm3, %xmm2
	pmovmskb	%xmm2, %edi
	orl	$256, %edi
	rep		bsfl	%edi, %edi
	orq	%rdi, %rcx
109:
	cmpq	%rdx, %rcx
	jae	111f
	.p2align	4
110:
	movzbl	(%r10,%rcx), %edi
	testb	%dil, %dil
	je	90b
	cmpb	(%r13,%rcx), %dil
	jne	115f
	incq	%rcx
	cmpq	%rcx, %rdx
	jne	110b
111:
	movq	56(%rsp), %rdi
	cmpq	%rdi, %r8
	jbe	155f
	cmpb	$0, (%r10,%rdx)
	movq	64(%rsp), %r8
	je	114f
	movq	%rdx, %rcx
112:
	incq	%rcx
	addq	8(%rsp), %rcx
	movq	$-1, %rdx
	cmovaeq	%rcx, %rdx
	movq	%rdx, 8(%rsp)
113:
	movl	$0, 32(%rsp)
	movq	%r9, %rdx
	jmp	92b
114:
	incq	%rdx
	addq	8(%rsp), %rdx
	movq	$-1, %rcx
	cmovaeq	%rdx, %rcx
	movq	%rcx, 8(%rsp)
	movb	$1, %cl
	movl	%ecx, 32(%rsp)
	movq	%r9, %rdx
	jmp	92b
115:
	jb	90b
	movq	64(%rsp), %r8
	movq	56(%rsp), %rdi
	jmp	112b
116:
	movb	$3, %r9b
	movq	8(%rsp), %rax
117:
	movq	%r14, 56(%r8)
	movq	%rax, 64(%r8)
118:
	pxor	%xmm3, %xmm3
	movzbl	7(%rsp), %r11d
	movb	$1, %bpl
	jmp	22b
119:
	movq	%r14, 56(%r8)
	movq	8(%rsp), %rcx
	movq	%rcx, 64(%r8)
	testb	$1, 32(%rsp)
	je	121f
	cmpq	200(%rsp), %rdx
	movq	40(%rsp), %rsi
	movzbl	7(%rsp), %r11d
	movb	$3, %r9b
	movq	112(%rsp), %r15
	jae	123f
	movzwl	%di, %eax
	leaq	16(%r8), %rcx
	movq	%rcx, 16(%rsp)
	leaq	24(%r8), %rcx
	movq	%rcx, 32(%rsp)
	leal	67108865(,%rax,2), %eax
	movl	%eax, 80(%rsp)
	jmp	197f
120:
	cmpq	104(%rsp), %r15
	movq	40(%rsp), %rsi
	movb	$1, %r9b
	movb	$3, %r10b
	movq	32(%rsp), %rdx
	jae	27b
	movq	72(%r8), %rcx
	cmpq	$2, %rcx
	jb	192f
	addq	$-2, %rcx
	movq	%rcx, 72(%r8)
	addq	$3, %rax
	movq	$-1, %r14
	cmovaeq	%rax, %r14
	movq	%r14, 56(%r8)
	jmp	27b
121:
	cmpq	200(%rsp), %rdx
	movq	40(%rsp), %rsi
	movzbl	7(%rsp), %r11d
	movb	$3, %r9b
	movq	112(%rsp), %r15
	jae	123f
	movq	72(%r8), %rcx
	testq	%rcx, %rcx
	je	218f
	decq	%rcx
	movq	%rcx, 72(%r8)
	addq	$2, %rax
	movq	$-1, %r14
	cmovaeq	%rax, %r14
122:
	movq	%r14, 56(%r8)
123:
	incq	%r14
	movq	$-1, %rbp
	cmovneq	%r14, %rbp
	movq	128(%rsp), %rdx
	cmpq	%rdx, 8(%r15)
	movq	%rbp, 56(%r8)
	jb	124f
	movq	(%r15), %r13
	movq	8(%r15), %r10
	movl	(%r13,%rbx), %eax
	movl	%eax, %edi
	bswapl	%edi
	leaq	(%rdi,%rdi,2), %rcx
	leaq	(%rdx,%rcx,4), %rcx
	movq	%r10, 8(%rsp)
	cmpq	%rcx, %r10
	jae	126f
124:
	movq	%rbx, %r15
125:
	pxor	%xmm3, %xmm3
	movb	$1, %bpl
	jmp	22b
126:
	testl	%eax, %eax
	je	222f
	movq	%rdi, 32(%rsp)
	movq	%rsi, 40(%rsp)
	movq	64(%r8), %r14
	pxor	%xmm0, %xmm0
	movdqa	%xmm0, 176(%rsp)
	cmpq	$15, %r12
	movb	%r11b, 7(%rsp)
	movq	%r15, 112(%rsp)
	ja	159f
	leaq	176(%rsp), %rdi
	movq	24(%rsp), %rsi
	movq	%r12, %rdx
	callq	memcpy@PLT
	jmp	160f
127:
	cmpq	$0, 160(%rsp)
	movq	88(%rsp), %r15
	je	128f
	movq	144(%rsp), %rdi
	callq	rattle_dealloc@PLT
128:
	movb	$1, (%r15)
	movl	$7, 8(%r15)
	movw	$0, 12(%r15)
	movq	$0, 16(%r15)
129:
	addq	$296, %rsp
	popq	%rbx
	popq	%r12
	popq	%r13
	popq	%r14
	popq	%r15
	popq	%rbp
	retq
130:
	addq	%rbp, %r13
	leaq	24(%r8), %rax
	movq	%rax, 56(%rsp)
	movq	$0, 24(%rsp)
	movq	%rsi, 40(%rsp)
	jmp	132f
131:
	movq	24(%rsp), %rcx
	incq	%rcx
	movq	%rcx, 24(%rsp)
	cmpq	%rbp, %rcx
	movq	88(%rsp), %r15
	je	153f
132:
	movq	24(%rsp), %rax
	notq	%rax
	movzbl	(%r13,%rax), %eax
	testl	%eax, %eax
	je	153f
	movq	56(%r8), %rcx
	testq	%rdi, %rdi
	je	135f
	movq	32(%rsp), %rsi
	movq	(%rsi), %rsi
	addq	%rbx, %rsi
	xorl	%r10d, %r10d
	movq	%rdi, %r14
	jmp	134f
	.p2align	4
133:
	movq	%r8, %rdi
	cmpq	%rdi, %r10
	jae	136f
134:
	leaq	(%rdi,%r10), %r8
	shrq	%r8
	movq	%rcx, %r9
	incq	%r9
	movq	$-1, %rcx
	cmovneq	%r9, %rcx
	leaq	(%r8,%r8,2), %r9
	movl	(%rsi,%r9,4), %r9d
	bswapl	%r9d
	cmpl	%eax, %r9d
	jae	133b
	incq	%r8
	movq	%r8, %r10
	cmpq	%rdi, %r10
	jb	134b
	jmp	136f
135:
	movq	%rdi, %r14
	xorl	%r10d, %r10d
136:
	movq	64(%rsp), %r8
	movq	%rcx, 56(%r8)
	cmpq	%r14, %r10
	movq	40(%rsp), %rsi
	movb	$1, %r9b
	je	153f
	shlq	$2, %r10
	incq	%rcx
	movq	$-1, %rsi
	cmovneq	%rcx, %rsi
	movq	%rsi, 56(%r8)
	movq	40(%rsp), %rsi
	movq	32(%rsp), %rcx
	addq	(%rcx), %rbx
	leaq	(%r10,%r10,2), %rcx
	movl	(%rbx,%rcx), %edi
	bswapl	%edi
	cmpl	%eax, %edi
	jne	153f
	movl	4(%rbx,%rcx), %edi
	movl	8(%rbx,%rcx), %ebx
	bswapl	%ebx
	testl	%edi, %edi
	bswapl	%edi
	movb	$3, %r10b
	je	131b
	leaq	(%rdi,%rdi,2), %rax
	leaq	(%rbx,%rax,4), %rax
	movq	32(%rsp), %rcx
	cmpq	%rax, 8(%rcx)
	jb	28b
	movq	24(%rsp), %rax
	leal	4(,%rax,2), %r10d
	andl	$131070, %r10d
	leaq	8(%rbx), %r14
	movq	%rdi, %r15
	jmp	139f
137:
	movq	16(%r8), %rax
	movq	24(%r8), %rcx
	shlq	$32, %r12
	movl	8(%rsp), %edx
	orq	%r12, %rdx
	movq	%rdx, (%rax,%rcx,8)
	incq	%rcx
	movq	%rcx, 24(%r8)
138:
	addq	$12, %r14
	decq	%r15
	movl	124(%rsp), %edx
	je	131b
139:
	movq	72(%r8), %rax
	cmpq	$2, %rax
	jb	156f
	addq	$-2, %rax
	movq	56(%r8), %rcx
	movq	%rax, 72(%r8)
	addq	$2, %rcx
	movq	$-1, %rax
	cmovaeq	%rcx, %rax
	movq	%rax, 56(%r8)
	movq	32(%rsp), %rax
	movq	(%rax), %rax
	cmpl	$0, -8(%rax,%r14)
	jne	131b
	movl	-4(%rax,%r14), %r12d
	bswapl	%r12d
	movl	(%rax,%r14), %eax
	bswapl	%eax
	movzbl	%al, %ecx
	shll	$17, %ecx
	orl	%r10d, %ecx
	shrl	$8, %eax
	andl	$1, %eax
	leal	(%rax,%rcx), %edx
	addl	$33554432, %edx
	cmpb	$0, (%r8)
	je	142f
	movl	%edx, 8(%rsp)
	movzbl	8(%r8), %eax
	leaq	16(%r8), %rcx
	leaq	40(%r8), %rdx
	testb	%al, %al
	cmoveq	%rdx, %rcx
	je	143f
	movq	32(%r8), %rdx
	cmpq	%rdx, 8(%rcx)
	je	144f
140:
	testb	%al, %al
	jne	137b
141:
	movq	48(%r8), %rax
	shlq	$32, %r12
	movl	8(%rsp), %ecx
	orq	%r12, %rcx
	movq	%rcx, 16(%r8,%rax,8)
	incq	%rax
	movq	%rax, 48(%r8)
	jmp	138b
142:
	movl	8(%r8), %eax
	cmpl	%eax, %edx
	jb	138b
	movzbl	16(%r8), %ecx
	jbe	147f
	movl	%edx, 8(%rsp)
	testb	%cl, %cl
	je	145f
	cmpq	$0, 32(%r8)
	je	146f
	movq	$0, 32(%r8)
	jmp	146f
143:
	movl	$4, %edx
	cmpq	%rdx, 8(%rcx)
	jne	140b
144:
	movl	%r10d, 16(%rsp)
	movq	%rdi, 48(%rsp)
	leaq	8(%r8), %rdi
	callq	"smallvec::small_vec::SmallVec::reserve_one::<#c56eefbaea896dc3>"
	testb	%al, %al
	jne	306f
	movq	64(%rsp), %r8
	movzbl	8(%r8), %eax
	movq	40(%rsp), %rsi
	movb	$1, %r9b
	movq	48(%rsp), %rdi
	movl	16(%rsp), %r10d
	testb	%al, %al
	jne	137b
	jmp	141b
145:
	movq	40(%r8), %rdx
	testq	%rdx, %rdx
	je	146f
	shlq	$2, %rdx
	movq	%rdi, 48(%rsp)
	movq	56(%rsp), %rdi
	xorl	%esi, %esi
	movl	%r10d, 16(%rsp)
	movb	%cl, 96(%rsp)
	callq	memset@PLT
	movzbl	96(%rsp), %ecx
	movl	16(%rsp), %r10d
	movq	48(%rsp), %rdi
	movb	$1, %r9b
	movq	40(%rsp), %rsi
	movq	64(%rsp), %r8
	movq	$0, 40(%r8)
146:
	movl	$0, 8(%r8)
	movl	8(%rsp), %edx
147:
	xorl	%eax, %eax
	movl	%ecx, %r11d
	testb	%cl, %cl
	sete	%al
	movq	32(%r8,%rax,8), %rax
	je	148f
	movq	40(%r8), %rcx
	jmp	149f
148:
	movl	$4, %ecx
149:
	cmpq	%rcx, %rax
	je	151f
	testb	%r11b, %r11b
	je	152f
150:
	movq	24(%r8), %rax
	movq	32(%r8), %rcx
	movl	%r12d, (%rax,%rcx,4)
	incq	%rcx
	movq	%rcx, 32(%r8)
	movl	%edx, 8(%r8)
	jmp	138b
151:
	movl	%edx, 8(%rsp)
	movl	%r10d, 16(%rsp)
	movq	%rdi, 48(%rsp)
	leaq	16(%r8), %rdi
	callq	"smallvec::small_vec::SmallVec::reserve_one::<#bc37e6e66b18402c>"
	testb	%al, %al
	jne	306f
	movq	64(%rsp), %r8
	movzbl	16(%r8), %r11d
	movq	40(%rsp), %rsi
	movb	$1, %r9b
	movq	48(%rsp), %rdi
	movl	16(%rsp), %r10d
	movl	8(%rsp), %edx
	testb	%r11b, %r11b
	jne	150b
152:
	movq	40(%r8), %rax
	movl	%r12d, 24(%r8,%rax,4)
	incq	%rax
	movq	%rax, 40(%r8)
	movl	%edx, 8(%r8)
	jmp	138b
153:
	leaq	208(%rsp), %rdi
	movq	%r8, %rcx
	callq	"mime_view::globs::glob_list_hits"
	movzbl	208(%rsp), %r9d
	movzbl	216(%rsp), %r10d
	movd	218(%rsp), %xmm3
	movq	224(%rsp), %rbx
	jmp	16b
154:
	addq	%r12, %rdx
	movq	$-1, %r12
	cmovaeq	%rdx, %r12
	cmpq	$256, %r10
	movb	$4, %r10b
	sbbb	$0, %r10b
	jmp	61b
155:
	addq	8(%rsp), %rdx
	movq	$-1, %rax
	cmovaeq	%rdx, %rax
	cmpq	$256, %r11
	movb	$4, %r9b
	sbbb	$0, %r9b
	movq	64(%rsp), %r8
	jmp	117b
156:
	addq	56(%r8), %rax
	movq	$-1, %rcx
	cmovaeq	%rax, %rcx
	movq	$0, 72(%r8)
	movq	%rcx, 56(%r8)
	movb	$5, %r10b
	xorl	%ebx, %ebx
	jmp	28b
157:
	movq	64(%rsp), %rcx
	addq	64(%rcx), %r8
	movq	$-1, %rax
	cmovaeq	%r8, %rax
	movq	%rcx, %r8
	movq	%rax, 64(%rcx)
	movq	%r12, %rsi
	movb	$1, %r9b
	movb	$3, %r10b
158:
	movq	32(%rsp), %rdx
	jmp	27b
159:
	movq	24(%rsp), %rax
	movdqu	(%rax), %xmm0
	movdqa	%xmm0, 176(%rsp)
160:
	movdqa	176(%rsp), %xmm0
	movdqu	%xmm0, 160(%rsp)
	movq	128(%rsp), %rax
	addq	%r13, %rax
	movq	%rax, 48(%rsp)
	movzbl	160(%rsp), %eax
	movb	%al, 80(%rsp)
	xorl	%ebx, %ebx
	movq	32(%rsp), %r9
	movl	$0, 16(%rsp)
	jmp	164f
161:
	incq	%r13
	addq	%r14, %r13
	movq	$-1, %r14
	cmovaeq	%r13, %r14
	movq	%rbx, %r13
162:
	incq	%rsi
	movq	%rsi, %rbx
163:
	cmpq	%r9, %rbx
	jae	191f
164:
	movq	%rbp, %rax
	leaq	(%r9,%rbx), %rsi
	shrq	%rsi
	leaq	(%rsi,%rsi,2), %rcx
	movq	%rbp, %rdx
	incq	%rdx
	movq	$-1, %rbp
	cmovneq	%rdx, %rbp
	movq	48(%rsp), %rdx
	movl	(%rdx,%rcx,4), %r15d
	bswapl	%r15d
	movq	8(%rsp), %r11
	subq	%r15, %r11
	jbe	189f
	leaq	(%r15,%r13), %r10
	cmpq	$16, %r11
	jae	166f
165:
	testq	%r12, %r12
	je	179f
	movzbl	(%r10), %ecx
	movq	24(%rsp), %rdx
	cmpb	(%rdx), %cl
	jne	169f
	cmpq	$8, %r12
	jb	179f
	cmpq	$33, %r11
	jb	179f
	cmpq	$15, %r12
	ja	177f
	movq	(%r10), %xmm3
	movq	24(%rsp), %rdx
	movq	(%rdx), %xmm4
	pcmpeqb	%xmm3, %xmm4
	pcmpeqd	%xmm2, %xmm2
	pxor	%xmm2, %xmm4
	pxor	%xmm1, %xmm1
	pcmpeqb	%xmm1, %xmm3
	por	%xmm4, %xmm3
	pmovmskb	%xmm3, %ecx
	orl	$256, %ecx
	rep		bsfl	%ecx, %ecx
	cmpb	$8, %cl
	jb	170f
	leaq	-8(%r12), %rdi
	movq	(%r10,%rdi), %xmm3
	movq	(%rdx,%rdi), %xmm4
	pcmpeqb	%xmm3, %xmm4
	pxor	%xmm2, %xmm4
	pcmpeqb	%xmm3, %xmm1
	por	%xmm4, %xmm1
	pmovmskb	%xmm1, %ecx
	orl	$256, %ecx
	jmp	178f
166:
	movzbl	(%r10), %ecx
	cmpb	80(%rsp), %cl
	jne	167f
	movdqu	(%r10), %xmm1
	pxor	%xmm2, %xmm2
	pcmpeqb	%xmm1, %xmm2
	pcmpeqb	%xmm0, %xmm1
	pcmpeqd	%xmm3, %xmm3
	pxor	%xmm1, %xmm3
	por	%xmm3, %xmm2
	pmovmskb	%xmm2, %ecx
	testl	%ecx, %ecx
	je	165b
	rep		bsfl	%ecx, %edi
	movzbl	(%r10,%rdi), %ecx
	jmp	168f
167:
	xorl	%edi, %edi
168:
	movzbl	160(%rsp,%rdi), %edx
	leaq	1(%rdi), %r10
	addq	%r14, %r10
	movq	$-1, %r14
	cmovaeq	%r10, %r14
	cmpb	%dl, %cl
	jne	174f
	cmpq	%r12, %rdi
	jne	173f
	testb	%cl, %cl
	jne	175f
	jmp	171f
169:
	xorl	%ecx, %ecx
170:
	leaq	1(%rcx), %rdx
	addq	%r14, %rdx
	movq	$-1, %r14
	cmovaeq	%rdx, %r14
	movzbl	(%r10,%rcx), %edx
	cmpq	%r12, %rcx
	jne	172f
	testb	%dl, %dl
	jne	175f
171:
	movb	$1, %cl
	movl	%ecx, 16(%rsp)
	jmp	176f
172:
	testb	%dl, %dl
	je	162b
	movq	24(%rsp), %rdi
	cmpb	(%rdi,%rcx), %dl
	jb	162b
	jmp	175f
173:
	testb	%cl, %cl
	je	162b
	movq	24(%rsp), %rdx
	cmpb	(%rdx,%rdi), %cl
174:
	jb	162b
175:
	movl	$0, 16(%rsp)
176:
	movq	%rsi, %r9
	jmp	163b
177:
	cmpq	$32, %r12
	ja	179f
	movdqu	(%r10), %xmm3
	movq	24(%rsp), %rdx
	movdqu	(%rdx), %xmm4
	pcmpeqb	%xmm3, %xmm4
	pcmpeqd	%xmm2, %xmm2
	pxor	%xmm2, %xmm4
	pxor	%xmm1, %xmm1
	pcmpeqb	%xmm1, %xmm3
	por	%xmm4, %xmm3
	pmovmskb	%xmm3, %ecx
	orl	$65536, %ecx
	rep		bsfl	%ecx, %ecx
	cmpw	$16, %cx
	jb	170b
	leaq	-16(%r12), %rdi
	movdqu	(%r10,%rdi), %xmm3
	movdqu	(%rdx,%rdi), %xmm4
	pcmpeqb	%xmm3, %xmm4
	pxor	%xmm2, %xmm4
	pcmpeqb	%xmm3, %xmm1
	por	%xmm4, %xmm1
	pmovmskb	%xmm1, %ecx
	orl	$65536, %ecx
178:
	rep		bsfl	%ecx, %ecx
	addq	%rdi, %rcx
	jmp	170b
179:
	movq	%rbx, 56(%rsp)
	movq	%r13, %rbx
	cmpq	$256, %r11
	movl	$256, %edx
	cmovbq	%r11, %rdx
	cmpq	%rdx, %r12
	movq	%rdx, %rcx
	cmovbq	%r12, %rcx
	xorl	%r13d, %r13d
	.p2align	4
180:
	movq	%rcx, %rdi
	subq	%r13, %rdi
	cmpq	$16, %rdi
	jb	181f
	movdqu	(%r10,%r13), %xmm1
	movq	24(%rsp), %rdi
	movdqu	(%rdi,%r13), %xmm2
	pcmpeqb	%xmm1, %xmm2
	pcmpeqd	%xmm3, %xmm3
	pxor	%xmm2, %xmm3
	pxor	%xmm2, %xmm2
	pcmpeqb	%xmm1, %xmm2
	por	%xmm3, %xmm2
	pmovmskb	%xmm2, %edi
	orl	$65536, %edi
	rep		bsfl	%edi, %edi
	addq	%rdi, %r13
	cmpw	$15, %di
	ja	180b
	movq	%rcx, %rdi
	subq	%r13, %rdi
181:
	cmpq	$8, %rdi
	jb	182f
	movl	%r13d, %edi
	andl	$15, %edi
	jne	182f
	movq	(%r10,%r13), %xmm1
	movq	24(%rsp), %rdi
	movq	(%rdi,%r13), %xmm2
	pcmpeqb	%xmm1, %xmm2
	pcmpeqd	%xmm3, %xmm3
	pxor	%xmm2, %xmm3
	pxor	%xmm2, %xmm2
	pcmpeqb	%xmm1, %xmm2
	por	%xmm3, %xmm2
	pmovmskb	%xmm2, %edi
	orl	$256, %edi
	rep		bsfl	%edi, %edi
	orq	%rdi, %r13
182:
	cmpq	%rcx, %r13
	jae	184f
	.p2align	4
183:
	movzbl	(%r10,%r13), %edi
	testb	%dil, %dil
	je	161b
	movq	24(%rsp), %r8
	cmpb	(%r8,%r13), %dil
	jne	188f
	incq	%r13
	cmpq	%r13, %rcx
	jne	183b
184:
	cmpq	%r12, %rdx
	jbe	249f
	cmpb	$0, (%r10,%rcx)
	je	186f
	movq	%rcx, %r13
185:
	incq	%r13
	addq	%r14, %r13
	movq	$-1, %r14
	cmovaeq	%r13, %r14
	movl	$0, 16(%rsp)
	jmp	187f
186:
	incq	%rcx
	addq	%r14, %rcx
	movq	$-1, %r14
	cmovaeq	%rcx, %r14
	movb	$1, %cl
	movl	%ecx, 16(%rsp)
187:
	movq	%rsi, %r9
	movq	%rbx, %r13
	movq	56(%rsp), %rbx
	jmp	163b
188:
	jae	185b
	jmp	161b
189:
	movb	$3, %r9b
190:
	movq	64(%rsp), %rax
	movq	%rbp, 56(%rax)
	movq	%r14, 64(%rax)
	jmp	118b
191:
	movq	64(%rsp), %rcx
	movq	%rbp, 56(%rcx)
	movq	%r14, 64(%rcx)
	testb	$1, 16(%rsp)
	je	221f
	cmpq	32(%rsp), %rbx
	movq	64(%rsp), %r8
	movq	40(%rsp), %rsi
	movzbl	7(%rsp), %r11d
	movb	$3, %r9b
	movq	112(%rsp), %r14
	jae	223f
	movzwl	%r12w, %eax
	leaq	8(%r8), %rcx
	movq	%rcx, 8(%rsp)
	leaq	16(%r8), %rcx
	movq	%rcx, 16(%rsp)
	leaq	24(%r8), %rcx
	movq	%rcx, 56(%rsp)
	leal	67108864(,%rax,2), %eax
	movl	%eax, 48(%rsp)
	jmp	254f
192:
	addq	%r14, %rcx
193:
	movq	$-1, %rax
	cmovaeq	%rcx, %rax
	movq	$0, 72(%r8)
	movq	%rax, 56(%r8)
	pxor	%xmm3, %xmm3
	movb	$5, %r10b
	xorl	%ebx, %ebx
	movq	88(%rsp), %r15
	jmp	16b
194:
	movq	%r10, %r14
	movq	32(%rsp), %r10
	movq	(%r10), %rax
	movq	16(%rsp), %rdx
	movq	(%rdx), %rdx
	shlq	$32, %r14
	orq	%r14, %rcx
	movq	%rcx, (%rdx,%rax,8)
	incq	%rax
	movq	%rax, (%r10)
195:
	movq	8(%rsp), %rdx
196:
	incq	%rdx
	cmpq	200(%rsp), %rdx
	je	272f
197:
	movq	72(%r8), %rcx
	pxor	%xmm3, %xmm3
	testq	%rcx, %rcx
	je	220f
	movq	%rdx, 8(%rsp)
	leaq	(%rdx,%rdx,2), %rax
	decq	%rcx
	movq	56(%r8), %rdx
	incq	%rdx
	movq	$-1, %r14
	cmovneq	%rdx, %r14
	movq	%rcx, 72(%r8)
	movq	%r14, 56(%r8)
	movq	(%r15), %rcx
	movq	%r15, %rbp
	movq	8(%r15), %rdx
	movq	128(%rsp), %rsi
	addq	%rcx, %rsi
	movl	(%rsi,%rax,4), %r15d
	bswapl	%r15d
	subq	%r15, %rdx
	jbe	270f
	movl	4(%rsi,%rax,4), %r10d
	movl	8(%rsi,%rax,4), %eax
	addq	%r15, %rcx
	testq	%rdi, %rdi
	je	202f
	movzbl	(%rcx), %esi
	cmpb	(%r13), %sil
	jne	198f
	cmpq	$8, %rdi
	jb	202f
	cmpq	$33, %rdx
	jb	202f
	cmpq	$15, %rdi
	ja	201f
	movq	(%rcx), %xmm2
	movq	(%r13), %xmm3
	pcmpeqb	%xmm2, %xmm3
	pcmpeqd	%xmm1, %xmm1
	pxor	%xmm1, %xmm3
	pxor	%xmm0, %xmm0
	pcmpeqb	%xmm0, %xmm2
	por	%xmm3, %xmm2
	pmovmskb	%xmm2, %edx
	orl	$256, %edx
	rep		bsfl	%edx, %edx
	cmpb	$8, %dl
	jb	199f
	movq	240(%rsp), %rsi
	movq	(%rcx,%rsi), %xmm2
	movq	(%r13,%rsi), %xmm3
	pcmpeqb	%xmm2, %xmm3
	pxor	%xmm1, %xmm3
	pcmpeqb	%xmm2, %xmm0
	por	%xmm3, %xmm0
	pmovmskb	%xmm0, %edx
	orl	$256, %edx
	rep		bsfl	%edx, %edx
	addq	%rsi, %rdx
	jmp	199f
198:
	xorl	%edx, %edx
199:
	movq	%rbp, %r15
200:
	leaq	1(%rdx), %rsi
	addq	64(%r8), %rsi
	movq	$-1, %rdi
	cmovaeq	%rsi, %rdi
	movq	%rdi, 64(%r8)
	movq	56(%rsp), %rdi
	cmpq	%rdi, %rdx
	jne	308f
	cmpb	$0, (%rcx,%rdx)
	movq	40(%rsp), %rsi
	movq	8(%rsp), %rdx
	je	208f
	jmp	123b
201:
	cmpq	$32, %rdi
	ja	202f
	movdqu	(%rcx), %xmm2
	movdqu	(%r13), %xmm3
	pcmpeqb	%xmm2, %xmm3
	pcmpeqd	%xmm1, %xmm1
	pxor	%xmm1, %xmm3
	pxor	%xmm0, %xmm0
	pcmpeqb	%xmm0, %xmm2
	por	%xmm3, %xmm2
	pmovmskb	%xmm2, %edx
	orl	$65536, %edx
	rep		bsfl	%edx, %edx
	cmpw	$16, %dx
	movq	%rbp, %r15
	jb	200b
	movq	232(%rsp), %rsi
	movdqu	(%rcx,%rsi), %xmm2
	movdqu	(%r13,%rsi), %xmm3
	pcmpeqb	%xmm2, %xmm3
	pxor	%xmm1, %xmm3
	pcmpeqb	%xmm2, %xmm0
	por	%xmm3, %xmm0
	pmovmskb	%xmm0, %edx
	orl	$65536, %edx
	rep		bsfl	%edx, %edx
	addq	%rsi, %rdx
	jmp	200b
202:
	cmpq	$256, %rdx
	movq	%rdi, %r8
	movl	$256, %edi
	cmovbq	%rdx, %rdi
	cmpq	%rdi, %r8
	movq	%rdi, %rsi
	cmovbq	%r8, %rsi
	xorl	%r8d, %r8d
203:
	movq	%rsi, %r9
	subq	%r8, %r9
	cmpq	$16, %r9
	jb	204f
	movdqu	(%rcx,%r8), %xmm0
	movdqu	(%r13,%r8), %xmm1
	pcmpeqb	%xmm0, %xmm1
	pcmpeqd	%xmm2, %xmm2
	pxor	%xmm1, %xmm2
	pxor	%xmm1, %xmm1
	pcmpeqb	%xmm0, %xmm1
	por	%xmm2, %xmm1
	pmovmskb	%xmm1, %r9d
	orl	$65536, %r9d
	rep		bsfl	%r9d, %r9d
	addq	%r9, %r8
	cmpw	$15, %r9w
	ja	203b
	movq	%rsi, %r9
	subq	%r8, %r9
204:
	cmpq	$8, %r9
	movq	%r10, 48(%rsp)
	jb	205f
	movl	%r8d, %r9d
	andl	$15, %r9d
	jne	205f
	movq	(%rcx,%r8), %xmm0
	movq	(%r13,%r8), %xmm1
	pcmpeqb	%xmm0, %xmm1
	pcmpeqd	%xmm2, %xmm2
	pxor	%xmm1, %xmm2
	pxor	%xmm1, %xmm1
	pcmpeqb	%xmm0, %xmm1
	por	%xmm2, %xmm1
	pmovmskb	%xmm1, %r9d
	orl	$256, %r9d
	rep		bsfl	%r9d, %r9d
	orq	%r9, %r8
205:
	cmpq	%rsi, %r8
	jae	207f
	incq	%r8
	movq	%rsi, %r9
	negq	%r9
206:
	movzbl	-1(%rcx,%r8), %r10d
	testb	%r10b, %r10b
	je	217f
	cmpb	-1(%r13,%r8), %r10b
	jne	217f
	leaq	(%r9,%r8), %r10
	incq	%r10
	incq	%r8
	cmpq	$1, %r10
	jne	206b
207:
	cmpq	56(%rsp), %rdi
	movb	$3, %r9b
	jbe	304f
	leaq	1(%rsi), %rdx
	movq	64(%rsp), %r8
	addq	64(%r8), %rdx
	movq	$-1, %rdi
	cmovaeq	%rdx, %rdi
	cmpb	$0, (%rcx,%rsi)
	movq	%rdi, 64(%r8)
	movq	56(%rsp), %rdi
	movq	40(%rsp), %rsi
	movq	%rbp, %r15
	movq	8(%rsp), %rdx
	movq	48(%rsp), %r10
	jne	123b
208:
	bswapl	%eax
	testl	$256, %eax
	je	196b
	bswapl	%r10d
	movzbl	%al, %r14d
	shll	$17, %r14d
	orl	80(%rsp), %r14d
	cmpb	$0, (%r8)
	je	209f
	movzbl	8(%r8), %eax
	leaq	40(%r8), %rcx
	testb	%al, %al
	cmovneq	16(%rsp), %rcx
	je	210f
	movq	32(%r8), %rdx
	jmp	211f
209:
	movl	8(%r8), %eax
	cmpl	%eax, %r14d
	jb	196b
	movq	24(%rsp), %rax
	jbe	216f
	movq	16(%rsp), %rcx
	cmpb	$0, (%rcx)
	je	214f
	cmpq	$0, 32(%r8)
	je	215f
	movq	$0, 32(%r8)
	jmp	215f
210:
	movl	$4, %edx
211:
	cmpq	%rdx, 8(%rcx)
	je	213f
	movl	%r14d, %ecx
	testb	%al, %al
	jne	194b
212:
	movq	48(%r8), %rax
	shlq	$32, %r10
	orq	%r10, %rcx
	movq	%rcx, 16(%r8,%rax,8)
	incq	%rax
	movq	%rax, 48(%r8)
	jmp	195b
213:
	movq	%r10, 48(%rsp)
	leaq	8(%r8), %rdi
	movq	%r8, %r15
	callq	"smallvec::small_vec::SmallVec::reserve_one::<#c56eefbaea896dc3>"
	testb	%al, %al
	jne	311f
	movzbl	8(%r15), %eax
	movq	%r15, %r8
	movq	40(%rsp), %rsi
	movzbl	7(%rsp), %r11d
	movb	$3, %r9b
	movq	%rbp, %r15
	movq	56(%rsp), %rdi
	movq	48(%rsp), %r10
	movl	%r14d, %ecx
	testb	%al, %al
	jne	194b
	jmp	212b
214:
	movq	40(%r8), %rdx
	testq	%rdx, %rdx
	je	215f
	shlq	$2, %rdx
	movq	32(%rsp), %rdi
	xorl	%esi, %esi
	movq	%r10, 48(%rsp)
	callq	memset@PLT
	movq	48(%rsp), %r10
	movq	%rbp, %r15
	movq	64(%rsp), %r8
	movq	24(%rsp), %rax
	movq	$0, 40(%r8)
215:
	movl	$0, 8(%r8)
216:
	movq	%rax, 24(%rsp)
	movq	16(%rsp), %rdi
	movl	%r10d, %esi
	callq	"smallvec::small_vec::SmallVec::push::<#bc37e6e66b18402c>"
	testb	%al, %al
	jne	311f
	movq	64(%rsp), %r8
	movl	%r14d, 8(%r8)
	movq	40(%rsp), %rsi
	movzbl	7(%rsp), %r11d
	movb	$3, %r9b
	movq	56(%rsp), %rdi
	jmp	195b
217:
	movq	64(%rsp), %rcx
	addq	64(%rcx), %r8
	movq	$-1, %rax
	cmovaeq	%r8, %rax
	movq	%rcx, %r8
	movq	%rax, 64(%rcx)
	movq	40(%rsp), %rsi
	movb	$3, %r9b
	movq	%rbp, %r15
	jmp	123b
218:
	movq	%r14, 56(%r8)
219:
	pxor	%xmm3, %xmm3
220:
	movb	$5, %r9b
	xorl	%r15d, %r15d
	movb	$1, %bpl
	jmp	22b
221:
	cmpq	32(%rsp), %rbx
	movq	40(%rsp), %rsi
	movzbl	7(%rsp), %r11d
	movb	$3, %r9b
	jae	248f
	movq	64(%rsp), %r8
	movq	72(%r8), %rcx
	testq	%rcx, %rcx
	je	302f
	decq	%rcx
	movq	%rcx, 72(%r8)
	addq	$2, %rax
	movq	$-1, %rbp
	cmovaeq	%rax, %rbp
222:
	movq	%rbp, 56(%r8)
223:
	movq	(%rsi), %rdi
	movq	8(%rsi), %rbx
	movq	16(%rsi), %r14
	movq	8(%rdi), %rax
	movq	96(%rsp), %r10
	subq	%r10, %rax
	setb	%cl
	cmpq	$8, %rax
	setb	%dl
	orb	%cl, %dl
	incq	%rbp
	movq	$-1, %rax
	cmovneq	%rbp, %rax
	movq	%rax, 56(%r8)
	testb	%dl, %dl
	je	224f
	movq	%r10, %r15
	jmp	125b
224:
	testq	%r14, %r14
	movb	$1, %bpl
	movq	%rdi, 8(%rsp)
	je	274f
	cmpb	$0, -1(%rbx,%r14)
	je	274f
	movq	(%rdi), %rax
	movl	(%rax,%r10), %ecx
	movl	4(%rax,%r10), %eax
	shlq	$32, %rcx
	orq	%rax, %rcx
	bswapq	%rcx
	movq	%rcx, %r15
	shrq	$32, %r15
	movl	$4294967295, %edx
	andq	%rcx, %rdx
	je	225f
	leaq	(%rdx,%rdx,2), %rax
	leaq	(%r15,%rax,4), %rax
	cmpq	%rax, 8(%rdi)
	jb	21b
225:
	movq	%rsi, 40(%rsp)
	addq	%r14, %rbx
	leaq	24(%r8), %rax
	movq	%rax, 128(%rsp)
	movq	$0, 48(%rsp)
	movq	%rdx, %rsi
	movq	%r10, 96(%rsp)
	movq	%rbx, 16(%rsp)
	movq	%r14, 56(%rsp)
	jmp	227f
226:
	movq	48(%rsp), %rcx
	incq	%rcx
	movq	56(%rsp), %r14
	movq	%rcx, 48(%rsp)
	cmpq	%r14, %rcx
	movq	96(%rsp), %r10
	movb	$1, %bpl
	movq	16(%rsp), %rbx
	je	273f
227:
	movq	48(%rsp), %rax
	notq	%rax
	movzbl	(%rbx,%rax), %eax
	testl	%eax, %eax
	je	273f
	movq	56(%r8), %rcx
	testq	%rsi, %rsi
	movq	%rsi, %r8
	je	230f
	movq	(%rdi), %rsi
	addq	%r15, %rsi
	xorl	%edx, %edx
	movq	%r8, %r13
	movq	%r8, %rdi
	jmp	229f
228:
	movq	%r8, %rdi
	cmpq	%rdi, %rdx
	jae	231f
229:
	leaq	(%rdi,%rdx), %r8
	shrq	%r8
	movq	%rcx, %r9
	incq	%r9
	movq	$-1, %rcx
	cmovneq	%r9, %rcx
	leaq	(%r8,%r8,2), %r9
	movl	(%rsi,%r9,4), %r9d
	bswapl	%r9d
	cmpl	%eax, %r9d
	jae	228b
	incq	%r8
	movq	%r8, %rdx
	cmpq	%rdi, %rdx
	jb	229b
	jmp	231f
230:
	movq	%r8, %r13
	xorl	%edx, %edx
231:
	movq	64(%rsp), %r8
	movq	%rcx, 56(%r8)
	cmpq	%r13, %rdx
	movb	$3, %r9b
	movq	8(%rsp), %rdi
	je	273f
	shlq	$2, %rdx
	incq	%rcx
	movq	$-1, %rsi
	cmovneq	%rcx, %rsi
	movq	%rsi, 56(%r8)
	addq	(%rdi), %r15
	leaq	(%rdx,%rdx,2), %rcx
	movl	(%r15,%rcx), %edx
	bswapl	%edx
	cmpl	%eax, %edx
	jne	273f
	movl	4(%r15,%rcx), %esi
	movl	8(%r15,%rcx), %r15d
	bswapl	%r15d
	testl	%esi, %esi
	bswapl	%esi
	je	226b
	leaq	(%rsi,%rsi,2), %rax
	leaq	(%r15,%rax,4), %rax
	cmpq	%rax, 8(%rdi)
	jb	125b
	movq	48(%rsp), %rax
	leal	4(,%rax,2), %r10d
	andl	$131070, %r10d
	leaq	8(%r15), %rbp
	movq	%rsi, %r14
	jmp	234f
232:
	movq	16(%r8), %rax
	movq	24(%r8), %rcx
	shlq	$32, %rbx
	movl	%r13d, %edx
	orq	%rbx, %rdx
	movq	%rdx, (%rax,%rcx,8)
	incq	%rcx
	movq	%rcx, 24(%r8)
233:
	addq	$12, %rbp
	decq	%r14
	je	226b
234:
	movq	72(%r8), %rax
	testq	%rax, %rax
	je	301f
	decq	%rax
	movq	56(%r8), %rcx
	movq	%rax, 72(%r8)
	incq	%rcx
	movq	$-1, %rax
	cmovneq	%rcx, %rax
	movq	%rax, 56(%r8)
	movq	(%rdi), %rcx
	cmpl	$0, -8(%rcx,%rbp)
	jne	226b
	movl	(%rcx,%rbp), %eax
	bswapl	%eax
	testl	$256, %eax
	je	233b
	movl	-4(%rcx,%rbp), %ebx
	bswapl	%ebx
	shll	$17, %eax
	andl	$66977792, %eax
	leal	(%rax,%r10), %r13d
	incl	%r13d
	cmpb	$0, (%r8)
	je	235f
	movzbl	8(%r8), %eax
	leaq	16(%r8), %rcx
	leaq	40(%r8), %rdx
	testb	%al, %al
	cmoveq	%rdx, %rcx
	je	236f
	movq	32(%r8), %rdx
	jmp	237f
235:
	movl	8(%r8), %ecx
	cmpl	%ecx, %r13d
	jb	233b
	orl	%r10d, %eax
	movzbl	16(%r8), %edx
	cmpl	%eax, %ecx
	ja	242f
	movb	%dl, 80(%rsp)
	testb	%dl, %dl
	je	240f
	cmpq	$0, 32(%r8)
	je	241f
	movq	$0, 32(%r8)
	jmp	241f
236:
	movl	$4, %edx
237:
	cmpq	%rdx, 8(%rcx)
	je	239f
	testb	%al, %al
	jne	232b
238:
	movq	48(%r8), %rax
	shlq	$32, %rbx
	movl	%r13d, %ecx
	orq	%rbx, %rcx
	movq	%rcx, 16(%r8,%rax,8)
	incq	%rax
	movq	%rax, 48(%r8)
	jmp	233b
239:
	movq	%r10, 104(%rsp)
	movq	%rsi, 32(%rsp)
	movb	%r11b, 7(%rsp)
	leaq	8(%r8), %rdi
	callq	"smallvec::small_vec::SmallVec::reserve_one::<#c56eefbaea896dc3>"
	testb	%al, %al
	jne	315f
	movq	64(%rsp), %r8
	movzbl	8(%r8), %eax
	movzbl	7(%rsp), %r11d
	movb	$3, %r9b
	movq	8(%rsp), %rdi
	movq	32(%rsp), %rsi
	movq	104(%rsp), %r10
	testb	%al, %al
	jne	232b
	jmp	238b
240:
	movq	40(%r8), %rdx
	testq	%rdx, %rdx
	je	241f
	shlq	$2, %rdx
	movq	128(%rsp), %rdi
	movq	%rsi, 32(%rsp)
	xorl	%esi, %esi
	movb	%r11b, 7(%rsp)
	movq	%r10, 104(%rsp)
	callq	memset@PLT
	movq	104(%rsp), %r10
	movq	32(%rsp), %rsi
	movq	8(%rsp), %rdi
	movb	$3, %r9b
	movzbl	7(%rsp), %r11d
	movq	64(%rsp), %r8
	movq	$0, 40(%r8)
241:
	movl	$0, 8(%r8)
	movzbl	80(%rsp), %edx
242:
	xorl	%eax, %eax
	testb	%dl, %dl
	sete	%al
	movq	32(%r8,%rax,8), %rax
	je	243f
	movq	40(%r8), %rcx
	jmp	244f
243:
	movl	$4, %ecx
244:
	cmpq	%rcx, %rax
	je	246f
	testb	%dl, %dl
	je	247f
245:
	movq	24(%r8), %rax
	movq	32(%r8), %rcx
	movl	%ebx, (%rax,%rcx,4)
	incq	%rcx
	movq	%rcx, 32(%r8)
	movl	%r13d, 8(%r8)
	jmp	233b
246:
	movq	%r10, 104(%rsp)
	movq	%rsi, 32(%rsp)
	movb	%r11b, 7(%rsp)
	leaq	16(%r8), %rdi
	callq	"smallvec::small_vec::SmallVec::reserve_one::<#bc37e6e66b18402c>"
	testb	%al, %al
	jne	315f
	movq	64(%rsp), %r8
	movzbl	16(%r8), %edx
	movzbl	7(%rsp), %r11d
	movb	$3, %r9b
	movq	8(%rsp), %rdi
	movq	32(%rsp), %rsi
	movq	104(%rsp), %r10
	testb	%dl, %dl
	jne	245b
247:
	movq	40(%r8), %rax
	movl	%ebx, 24(%r8,%rax,4)
	incq	%rax
	movq	%rax, 40(%r8)
	movl	%r13d, 8(%r8)
	jmp	233b
248:
	movq	64(%rsp), %r8
	jmp	223b
249:
	addq	%r14, %rcx
	movq	$-1, %r14
	cmovaeq	%rcx, %r14
	cmpq	$256, %r11
	movb	$4, %r9b
	sbbb	$0, %r9b
	jmp	190b
250:
	addq	56(%r8), %rcx
	jmp	193b
251:
	movb	$3, %r10b
	movq	88(%rsp), %r15
	jmp	16b
252:
	leaq	144(%rsp), %rdi
	movq	8(%rsp), %rsi
	movl	%r13d, %edx
	movl	%r11d, %ebp
	callq	"smallvec::small_vec::SmallVec::push::<#c56eefbaea896dc3>"
	movb	$3, %r9b
	movl	%ebp, %r11d
	movq	40(%rsp), %rsi
	movq	64(%rsp), %r8
	cmpb	$0, 144(%rsp)
	jne	313f
253:
	incq	%rbx
	cmpq	32(%rsp), %rbx
	je	310f
254:
	movq	72(%r8), %rcx
	pxor	%xmm3, %xmm3
	testq	%rcx, %rcx
	je	220b
	leaq	(%rbx,%rbx,2), %rax
	decq	%rcx
	movq	56(%r8), %rdx
	incq	%rdx
	movq	$-1, %rbp
	cmovneq	%rdx, %rbp
	movq	%rcx, 72(%r8)
	movq	%rbp, 56(%r8)
	movq	(%r14), %rdx
	movq	8(%r14), %rsi
	movq	128(%rsp), %rcx
	leaq	(%rdx,%rcx), %rdi
	movl	(%rdi,%rax,4), %r15d
	bswapl	%r15d
	subq	%r15, %rsi
	jbe	270f
	movl	4(%rdi,%rax,4), %ecx
	movl	8(%rdi,%rax,4), %eax
	addq	%r15, %rdx
	testq	%r12, %r12
	je	259f
	movzbl	(%rdx), %edi
	movq	24(%rsp), %r10
	cmpb	(%r10), %dil
	jne	255f
	cmpq	$8, %r12
	jb	259f
	cmpq	$33, %rsi
	jb	259f
	cmpq	$15, %r12
	ja	257f
	movq	(%rdx), %xmm2
	movq	24(%rsp), %rsi
	movq	(%rsi), %xmm3
	pcmpeqb	%xmm2, %xmm3
	pcmpeqd	%xmm1, %xmm1
	pxor	%xmm1, %xmm3
	pxor	%xmm0, %xmm0
	pcmpeqb	%xmm0, %xmm2
	por	%xmm3, %xmm2
	pmovmskb	%xmm2, %esi
	orl	$256, %esi
	rep		bsfl	%esi, %esi
	cmpb	$8, %sil
	jb	256f
	leaq	-8(%r12), %rdi
	movq	(%rdx,%rdi), %xmm2
	movq	24(%rsp), %rsi
	movq	(%rsi,%rdi), %xmm3
	pcmpeqb	%xmm2, %xmm3
	pxor	%xmm1, %xmm3
	pcmpeqb	%xmm2, %xmm0
	por	%xmm3, %xmm0
	pmovmskb	%xmm0, %esi
	orl	$256, %esi
	jmp	258f
255:
	xorl	%esi, %esi
256:
	movq	112(%rsp), %r14
	leaq	1(%rsi), %rdi
	addq	64(%r8), %rdi
	movq	$-1, %r8
	cmovaeq	%rdi, %r8
	movq	64(%rsp), %rdi
	movq	%r8, 64(%rdi)
	movq	64(%rsp), %r8
	cmpq	%r12, %rsi
	jne	316f
	cmpb	$0, (%rdx,%rsi)
	movq	40(%rsp), %rsi
	je	266f
	jmp	223b
257:
	cmpq	$32, %r12
	ja	259f
	movdqu	(%rdx), %xmm2
	movq	24(%rsp), %rsi
	movdqu	(%rsi), %xmm3
	pcmpeqb	%xmm2, %xmm3
	pcmpeqd	%xmm1, %xmm1
	pxor	%xmm1, %xmm3
	pxor	%xmm0, %xmm0
	pcmpeqb	%xmm0, %xmm2
	por	%xmm3, %xmm2
	pmovmskb	%xmm2, %esi
	orl	$65536, %esi
	rep		bsfl	%esi, %esi
	cmpw	$16, %si
	jb	256b
	leaq	-16(%r12), %rdi
	movdqu	(%rdx,%rdi), %xmm2
	movq	24(%rsp), %rsi
	movdqu	(%rsi,%rdi), %xmm3
	pcmpeqb	%xmm2, %xmm3
	pxor	%xmm1, %xmm3
	pcmpeqb	%xmm2, %xmm0
	por	%xmm3, %xmm0
	pmovmskb	%xmm0, %esi
	orl	$65536, %esi
258:
	rep		bsfl	%esi, %esi
	addq	%rdi, %rsi
	jmp	256b
259:
	cmpq	$256, %rsi
	movl	$256, %edi
	cmovbq	%rsi, %rdi
	cmpq	%rdi, %r12
	movq	%rdi, %r8
	cmovbq	%r12, %r8
	xorl	%r9d, %r9d
260:
	movq	%r8, %r10
	subq	%r9, %r10
	cmpq	$16, %r10
	jb	261f
	movdqu	(%rdx,%r9), %xmm0
	movq	24(%rsp), %r10
	movdqu	(%r10,%r9), %xmm1
	pcmpeqb	%xmm0, %xmm1
	pcmpeqd	%xmm2, %xmm2
	pxor	%xmm1, %xmm2
	pxor	%xmm1, %xmm1
	pcmpeqb	%xmm0, %xmm1
	por	%xmm2, %xmm1
	pmovmskb	%xmm1, %r10d
	orl	$65536, %r10d
	rep		bsfl	%r10d, %r10d
	addq	%r10, %r9
	cmpw	$15, %r10w
	ja	260b
	movq	%r8, %r10
	subq	%r9, %r10
261:
	cmpq	$8, %r10
	jb	262f
	movl	%r9d, %r10d
	movl	%r11d, %r13d
	andl	$15, %r10d
	jne	263f
	movq	(%rdx,%r9), %xmm0
	movq	24(%rsp), %r10
	movq	(%r10,%r9), %xmm1
	pcmpeqb	%xmm0, %xmm1
	pcmpeqd	%xmm2, %xmm2
	pxor	%xmm1, %xmm2
	pxor	%xmm1, %xmm1
	pcmpeqb	%xmm0, %xmm1
	por	%xmm2, %xmm1
	pmovmskb	%xmm1, %r10d
	orl	$256, %r10d
	rep		bsfl	%r10d, %r10d
	orq	%r10, %r9
	jmp	263f
262:
	movl	%r11d, %r13d
263:
	cmpq	%r8, %r9
	jae	265f
	incq	%r9
	movq	%r8, %r10
	negq	%r10
264:
	movzbl	-1(%rdx,%r9), %r11d
	testb	%r11b, %r11b
	je	271f
	movq	24(%rsp), %r14
	cmpb	-1(%r14,%r9), %r11b
	jne	271f
	leaq	(%r10,%r9), %r11
	incq	%r11
	incq	%r9
	cmpq	$1, %r11
	jne	264b
265:
	cmpq	%r12, %rdi
	movl	%r13d, %r11d
	jbe	312f
	leaq	1(%r8), %rsi
	movq	64(%rsp), %r9
	addq	64(%r9), %rsi
	movq	$-1, %rdi
	cmovaeq	%rsi, %rdi
	cmpb	$0, (%rdx,%r8)
	movq	%r9, %r8
	movq	%rdi, 64(%r9)
	movq	40(%rsp), %rsi
	movb	$3, %r9b
	movq	112(%rsp), %r14
	jne	223b
266:
	bswapl	%eax
	testl	$256, %eax
	jne	253b
	bswapl	%ecx
	movzbl	%al, %r13d
	shll	$17, %r13d
	orl	48(%rsp), %r13d
	movl	$0, 152(%rsp)
	movq	$0, 144(%rsp)
	cmpb	$0, (%r8)
	jne	252b
	movq	8(%rsp), %rax
	movl	(%rax), %eax
	cmpl	%eax, %r13d
	jb	253b
	movl	%r11d, %ebp
	jbe	269f
	movl	%ecx, 80(%rsp)
	movq	16(%rsp), %rax
	cmpb	$0, (%rax)
	je	267f
	movq	64(%rsp), %rax
	cmpq	$0, 32(%rax)
	je	268f
	movq	$0, 32(%rax)
	jmp	268f
267:
	movq	64(%rsp), %rax
	movq	40(%rax), %rdx
	testq	%rdx, %rdx
	je	268f
	shlq	$2, %rdx
	movq	56(%rsp), %rdi
	xorl	%esi, %esi
	callq	memset@PLT
	movq	64(%rsp), %rax
	movq	$0, 40(%rax)
268:
	movq	8(%rsp), %rax
	movl	$0, (%rax)
	movl	80(%rsp), %ecx
	movq	112(%rsp), %r14
269:
	movq	16(%rsp), %rdi
	movl	%ecx, %esi
	callq	"smallvec::small_vec::SmallVec::push::<#bc37e6e66b18402c>"
	testb	%al, %al
	movq	64(%rsp), %r8
	movq	40(%rsp), %rsi
	movl	%ebp, %r11d
	movb	$3, %r9b
	jne	313f
	movq	8(%rsp), %rax
	movl	%r13d, (%rax)
	jmp	253b
270:
	movb	$3, %r9b
	movb	$1, %bpl
	jmp	22b
271:
	movq	64(%rsp), %r8
	addq	64(%r8), %r9
	movq	$-1, %rax
	cmovaeq	%r9, %rax
	movq	%rax, 64(%r8)
	movq	40(%rsp), %rsi
	movl	%r13d, %r11d
	movb	$3, %r9b
	jmp	223b
272:
	movq	56(%r8), %r14
	jmp	123b
273:
	movq	56(%r8), %rax
	movq	40(%rsp), %rsi
274:
	movq	8(%rdi), %rcx
	subq	%r10, %rcx
	setb	%dl
	cmpq	$8, %rcx
	setb	%cl
	orb	%dl, %cl
	incq	%rax
	movq	$-1, %rdx
	cmovneq	%rax, %rdx
	movq	%rdx, 56(%r8)
	testb	%cl, %cl
	je	275f
	movq	%r10, %r15
	jmp	21b
275:
	testq	%r12, %r12
	je	300f
	movq	24(%rsp), %rax
	cmpb	$0, -1(%rax,%r12)
	je	300f
	movq	(%rdi), %rax
	movl	(%rax,%r10), %ecx
	movl	4(%rax,%r10), %eax
	shlq	$32, %rcx
	orq	%rax, %rcx
	bswapq	%rcx
	movq	%rcx, %r15
	shrq	$32, %r15
	movl	$4294967295, %r14d
	andq	%rcx, %r14
	je	276f
	leaq	(%r14,%r14,2), %rax
	leaq	(%r15,%rax,4), %rax
	cmpq	%rax, 8(%rdi)
	jb	21b
276:
	movq	24(%rsp), %rax
	leaq	(%rax,%r12), %r10
	leaq	24(%r8), %rax
	movq	%rax, 32(%rsp)
	xorl	%ebx, %ebx
	movq	%rsi, 40(%rsp)
	jmp	278f
277:
	movq	16(%rsp), %rbx
	incq	%rbx
	cmpq	%r12, %rbx
	movq	48(%rsp), %r14
	je	300f
278:
	movq	%rbx, %rax
	notq	%rax
	movzbl	(%r10,%rax), %eax
	testl	%eax, %eax
	je	300f
	movq	56(%r8), %rcx
	testq	%r14, %r14
	je	281f
	movq	(%rdi), %rsi
	addq	%r15, %rsi
	xorl	%edx, %edx
	movq	%r14, %rdi
	jmp	280f
279:
	movq	%r8, %rdi
	cmpq	%rdi, %rdx
	jae	282f
280:
	leaq	(%rdi,%rdx), %r8
	shrq	%r8
	movq	%rcx, %r9
	incq	%r9
	movq	$-1, %rcx
	cmovneq	%r9, %rcx
	leaq	(%r8,%r8,2), %r9
	movl	(%rsi,%r9,4), %r9d
	bswapl	%r9d
	cmpl	%eax, %r9d
	jae	279b
	incq	%r8
	movq	%r8, %rdx
	cmpq	%rdi, %rdx
	jb	280b
	jmp	282f
281:
	xorl	%edx, %edx
282:
	movq	64(%rsp), %r8
	movq	%rcx, 56(%r8)
	cmpq	%r14, %rdx
	movq	40(%rsp), %rsi
	movb	$3, %r9b
	movq	8(%rsp), %rdi
	je	300f
	shlq	$2, %rdx
	incq	%rcx
	movq	$-1, %rsi
	cmovneq	%rcx, %rsi
	movq	%rsi, 56(%r8)
	movq	40(%rsp), %rsi
	addq	(%rdi), %r15
	leaq	(%rdx,%rdx,2), %rcx
	movl	(%r15,%rcx), %edx
	bswapl	%edx
	cmpl	%eax, %edx
	jne	300f
	movq	%rbx, 16(%rsp)
	movl	4(%r15,%rcx), %eax
	movl	8(%r15,%rcx), %r15d
	bswapl	%r15d
	testl	%eax, %eax
	bswapl	%eax
	movq	%rax, 48(%rsp)
	je	277b
	movq	48(%rsp), %r13
	leaq	(,%r13,2), %rax
	addq	%r13, %rax
	leaq	(%r15,%rax,4), %rax
	cmpq	%rax, 8(%rdi)
	jb	125b
	movq	16(%rsp), %rax
	leal	4(,%rax,2), %r9d
	andl	$131070, %r9d
	orl	$33554432, %r9d
	leaq	8(%r15), %rbp
	jmp	286f
283:
	movq	16(%r8), %rax
	movq	24(%r8), %rdx
	shlq	$32, %rbx
	orq	%rbx, %rcx
	movq	%rcx, (%rax,%rdx,8)
	incq	%rdx
	movq	%rdx, 24(%r8)
284:
	movq	8(%rsp), %rdi
285:
	addq	$12, %rbp
	decq	%r13
	je	277b
286:
	movq	72(%r8), %rax
	testq	%rax, %rax
	je	301f
	decq	%rax
	movq	56(%r8), %rcx
	movq	%rax, 72(%r8)
	incq	%rcx
	movq	$-1, %rax
	cmovneq	%rcx, %rax
	movq	%rax, 56(%r8)
	movq	(%rdi), %rax
	cmpl	$0, -8(%rax,%rbp)
	jne	277b
	movl	(%rax,%rbp), %ecx
	bswapl	%ecx
	testl	$256, %ecx
	jne	285b
	movl	-4(%rax,%rbp), %ebx
	bswapl	%ebx
	movzbl	%cl, %r14d
	shll	$17, %r14d
	orl	%r9d, %r14d
	cmpb	$0, (%r8)
	je	287f
	movzbl	8(%r8), %eax
	leaq	16(%r8), %rcx
	leaq	40(%r8), %rdx
	testb	%al, %al
	cmoveq	%rdx, %rcx
	je	288f
	movq	32(%r8), %rdx
	jmp	289f
287:
	movl	8(%r8), %eax
	cmpl	%eax, %r14d
	jb	285b
	movzbl	16(%r8), %edx
	movq	24(%rsp), %rdi
	jbe	294f
	movb	%dl, 56(%rsp)
	testb	%dl, %dl
	je	292f
	cmpq	$0, 32(%r8)
	je	293f
	movq	$0, 32(%r8)
	jmp	293f
288:
	movl	$4, %edx
289:
	movq	24(%rsp), %rdi
	cmpq	%rdx, 8(%rcx)
	movq	%rdi, 24(%rsp)
	je	291f
	movl	%r14d, %ecx
	testb	%al, %al
	jne	283b
290:
	movq	48(%r8), %rax
	shlq	$32, %rbx
	orq	%rbx, %rcx
	movq	%rcx, 16(%r8,%rax,8)
	incq	%rax
	movq	%rax, 48(%r8)
	jmp	284b
291:
	movl	%r9d, 80(%rsp)
	movq	%r10, 96(%rsp)
	movb	%r11b, 7(%rsp)
	leaq	8(%r8), %rdi
	callq	"smallvec::small_vec::SmallVec::reserve_one::<#c56eefbaea896dc3>"
	testb	%al, %al
	jne	315f
	movq	64(%rsp), %r8
	movzbl	8(%r8), %eax
	movq	40(%rsp), %rsi
	movzbl	7(%rsp), %r11d
	movq	96(%rsp), %r10
	movl	80(%rsp), %r9d
	movl	%r14d, %ecx
	testb	%al, %al
	jne	283b
	jmp	290b
292:
	movq	40(%r8), %rdx
	testq	%rdx, %rdx
	je	293f
	shlq	$2, %rdx
	movq	32(%rsp), %rdi
	xorl	%esi, %esi
	movb	%r11b, 7(%rsp)
	movq	%r10, 96(%rsp)
	movl	%r9d, 80(%rsp)
	callq	memset@PLT
	movl	80(%rsp), %r9d
	movq	96(%rsp), %r10
	movzbl	7(%rsp), %r11d
	movq	40(%rsp), %rsi
	movq	64(%rsp), %r8
	movq	24(%rsp), %rdi
	movq	$0, 40(%r8)
293:
	movl	$0, 8(%r8)
	movzbl	56(%rsp), %edx
294:
	xorl	%eax, %eax
	testb	%dl, %dl
	sete	%al
	movq	32(%r8,%rax,8), %rax
	je	295f
	movq	40(%r8), %rcx
	jmp	296f
295:
	movl	$4, %ecx
296:
	cmpq	%rcx, %rax
	movq	%rdi, 24(%rsp)
	je	298f
	testb	%dl, %dl
	je	299f
297:
	movq	24(%r8), %rax
	movq	32(%r8), %rcx
	movl	%ebx, (%rax,%rcx,4)
	incq	%rcx
	movq	%rcx, 32(%r8)
	movl	%r14d, 8(%r8)
	jmp	284b
298:
	movl	%r9d, 80(%rsp)
	movq	%r10, 96(%rsp)
	movb	%r11b, 7(%rsp)
	leaq	16(%r8), %rdi
	callq	"smallvec::small_vec::SmallVec::reserve_one::<#bc37e6e66b18402c>"
	testb	%al, %al
	jne	315f
	movq	64(%rsp), %r8
	movzbl	16(%r8), %edx
	movq	40(%rsp), %rsi
	movzbl	7(%rsp), %r11d
	movq	96(%rsp), %r10
	movl	80(%rsp), %r9d
	testb	%dl, %dl
	jne	297b
299:
	movq	40(%r8), %rax
	movl	%ebx, 24(%r8,%rax,4)
	incq	%rax
	movq	%rax, 40(%r8)
	movl	%r14d, 8(%r8)
	jmp	284b
300:
	leaq	208(%rsp), %rdi
	movl	124(%rsp), %edx
	movq	%r8, %rcx
	movl	%r11d, %ebp
	callq	"mime_view::globs::glob_list_hits"
	movl	%ebp, %r11d
	movzbl	208(%rsp), %ebp
	movzbl	216(%rsp), %r9d
	movd	218(%rsp), %xmm3
	movq	224(%rsp), %r15
	jmp	22b
301:
	movb	$5, %r9b
	xorl	%r15d, %r15d
	jmp	125b
302:
	movq	%rbp, 56(%r8)
	jmp	219b
303:
	movq	64(%rsp), %rcx
	addq	64(%rcx), %rsi
	movq	$-1, %rax
	cmovaeq	%rsi, %rax
	movq	%rax, 64(%rcx)
	cmpq	$256, %rdx
	movb	$4, %r10b
	sbbb	$0, %r10b
	jmp	63b
304:
	movq	64(%rsp), %rcx
	addq	64(%rcx), %rsi
	movq	$-1, %rax
	cmovaeq	%rsi, %rax
	movq	%rax, 64(%rcx)
	cmpq	$256, %rdx
305:
	movb	$4, %r9b
	sbbb	$0, %r9b
	movb	$1, %bpl
	jmp	22b
306:
	movb	$7, %r10b
	xorl	%ebx, %ebx
	jmp	62b
307:
	movq	%r12, %rsi
	jmp	158b
308:
	movq	40(%rsp), %rsi
	jmp	123b
309:
	movb	$7, %r10b
	xorl	%ebx, %ebx
	movq	88(%rsp), %r15
	movb	$1, %r9b
	pxor	%xmm3, %xmm3
	jmp	16b
310:
	movq	56(%r8), %rbp
	jmp	223b
311:
	movb	$7, %r9b
	xorl	%r15d, %r15d
	movzbl	7(%rsp), %r11d
	jmp	314f
312:
	movq	64(%rsp), %rcx
	addq	64(%rcx), %r8
	movq	$-1, %rax
	cmovaeq	%r8, %rax
	movq	%rax, 64(%rcx)
	cmpq	$256, %rsi
	jmp	305b
313:
	movb	$7, %r9b
	xorl	%r15d, %r15d
314:
	movb	$1, %bpl
	jmp	21b
315:
	movb	$7, %r9b
	xorl	%r15d, %r15d
	jmp	118b
316:
	movq	40(%rsp), %rsi
	jmp	223b
317:
	.size	"mime_view::name::gather_hits", 317b-"mime_view::name::gather_hits"

	.text
	.p2align	4
	.type	"mime_view::pairs::look_up_pair",@function
"mime_view::pairs::look_up_pair":
	pushq	%rbp
	pushq	%r15
	pushq	%r14
	pushq	%r13
	pushq	%r12
	pushq	%rbx
	subq	$152, %rsp
	movq	%rdi, 24(%rsp)
	leaq	4(%rdx), %r10
	movq	(%r9), %rax
	incq	%rax
	movq	$-1, %r14
	cmovneq	%rax, %r14
	movw	$3, %ax
	movq	%rsi, 16(%rsp)
	cmpq	%r10, 8(%rsi)
	movq	%r14, (%r9)
	jb	32f
	movq	%r9, %r13
	movq	16(%rsp), %rdi
	movq	(%rdi), %rsi
	movl	(%rsi,%rdx), %esi
	movl	%esi, %ebx
	bswapl	%ebx
	leaq	(%r10,%rbx,8), %r9
	cmpq	%r9, 8(%rdi)
	jb	32f
	movq	8(%r13), %r15
	testl	%esi, %esi
	je	1f
	xorps	%xmm0, %xmm0
	movaps	%xmm0, 48(%rsp)
	cmpq	$15, %r8
	movq	%r13, 40(%rsp)
	ja	2f
	leaq	48(%rsp), %rdi
	movq	%rcx, %rsi
	movq	%r8, %rdx
	movq	%r8, %rbp
	movq	%r10, %r13
	movq	%rcx, %r12
	callq	memcpy@PLT
	movq	%r12, %rcx
	movq	%r13, %r10
	movq	%rbp, %r8
	jmp	3f
1:
	movq	%r14, (%r13)
	movq	%r15, 8(%r13)
	jmp	37f
2:
	movups	(%rcx), %xmm0
	movaps	%xmm0, 48(%rsp)
3:
	movdqa	48(%rsp), %xmm0
	movdqa	%xmm0, 128(%rsp)
	movdqu	%xmm0, 112(%rsp)
	movq	16(%rsp), %rax
	movq	(%rax), %r13
	movq	8(%rax), %rax
	movq	%rax, 88(%rsp)
	movq	%r10, 72(%rsp)
	leaq	(%r13,%r10), %rax
	movq	%rax, 80(%rsp)
	movzbl	112(%rsp), %eax
	movb	%al, 15(%rsp)
	xorl	%edi, %edi
	movl	$0, 8(%rsp)
	movq	%r13, 32(%rsp)
	jmp	7f
4:
	incq	%rax
	addq	%r15, %rax
	movq	$-1, %r15
	cmovaeq	%rax, %r15
	movq	32(%rsp), %r13
5:
	incq	%rbp
	movq	%rbp, %rdi
6:
	cmpq	%rbx, %rdi
	jae	35f
7:
	movq	%r14, %r12
	leaq	(%rdi,%rbx), %rbp
	shrq	%rbp
	movq	%r14, %rax
	incq	%rax
	movq	$-1, %r14
	cmovneq	%rax, %r14
	movq	80(%rsp), %rax
	movl	(%rax,%rbp,8), %edx
	bswapl	%edx
	movq	88(%rsp), %r10
	subq	%rdx, %r10
	jbe	30f
	leaq	(%rdx,%r13), %r11
	cmpq	$16, %r10
	jae	9f
8:
	testq	%r8, %r8
	je	19f
	movzbl	(%r11), %eax
	cmpb	(%rcx), %al
	jne	12f
	cmpq	$8, %r8
	jb	19f
	cmpq	$33, %r10
	jb	19f
	cmpq	$15, %r8
	ja	17f
	movq	(%r11), %xmm3
	movq	(%rcx), %xmm4
	pcmpeqb	%xmm3, %xmm4
	pcmpeqd	%xmm2, %xmm2
	pxor	%xmm2, %xmm4
	pxor	%xmm1, %xmm1
	pcmpeqb	%xmm1, %xmm3
	por	%xmm4, %xmm3
	pmovmskb	%xmm3, %eax
	orl	$256, %eax
	rep		bsfl	%eax, %eax
	cmpb	$8, %al
	jb	13f
	leaq	-8(%r8), %rdx
	movq	(%r11,%rdx), %xmm3
	movq	(%rcx,%rdx), %xmm4
	pcmpeqb	%xmm3, %xmm4
	pxor	%xmm2, %xmm4
	pcmpeqb	%xmm3, %xmm1
	por	%xmm4, %xmm1
	pmovmskb	%xmm1, %eax
	orl	$256, %eax
	jmp	18f
	.p2align	4
9:
	movzbl	(%r11), %eax
	cmpb	15(%rsp), %al
	jne	10f
	movdqu	(%r11), %xmm1
	pxor	%xmm2, %xmm2
	pcmpeqb	%xmm1, %xmm2
	pcmpeqb	%xmm0, %xmm1
	pcmpeqd	%xmm3, %xmm3
	pxor	%xmm1, %xmm3
	por	%xmm3, %xmm2
	pmovmskb	%xmm2, %eax
	testl	%eax, %eax
	je	8b
	rep		bsfl	%eax, %edx
	movzbl	(%r11,%rdx), %eax
	jmp	11f
	.p2align	4
10:
	xorl	%edx, %edx
11:
	movzbl	112(%rsp,%rdx), %esi
	leaq	1(%rdx), %r9
	addq	%r15, %r9
	movq	$-1, %r15
	cmovaeq	%r9, %r15
	cmpb	%sil, %al
	jne	16f
	cmpq	%r8, %rdx
	jne	15f
	testb	%al, %al
	jne	26f
	jmp	28f
12:
	xorl	%eax, %eax
13:
	leaq	1(%rax), %rdx
	addq	%r15, %rdx
	movq	$-1, %r15
	cmovaeq	%rdx, %r15
	movzbl	(%r11,%rax), %edx
	cmpq	%r8, %rax
	jne	14f
	testb	%dl, %dl
	jne	26f
	jmp	28f
14:
	testb	%dl, %dl
	je	5b
	cmpb	(%rcx,%rax), %dl
	jb	5b
	jmp	26f
15:
	testb	%al, %al
	je	5b
	cmpb	(%rcx,%rdx), %al
16:
	jb	5b
	jmp	26f
17:
	cmpq	$32, %r8
	ja	19f
	movdqu	(%r11), %xmm3
	movdqu	(%rcx), %xmm4
	pcmpeqb	%xmm3, %xmm4
	pcmpeqd	%xmm2, %xmm2
	pxor	%xmm2, %xmm4
	pxor	%xmm1, %xmm1
	pcmpeqb	%xmm1, %xmm3
	por	%xmm4, %xmm3
	pmovmskb	%xmm3, %eax
	orl	$65536, %eax
	rep		bsfl	%eax, %eax
	cmpw	$16, %ax
	jb	13b
	leaq	-16(%r8), %rdx
	movdqu	(%r11,%rdx), %xmm3
	movdqu	(%rcx,%rdx), %xmm4
	pcmpeqb	%xmm3, %xmm4
	pxor	%xmm2, %xmm4
	pcmpeqb	%xmm3, %xmm1
	por	%xmm4, %xmm1
	pmovmskb	%xmm1, %eax
	orl	$65536, %eax
18:
	rep		bsfl	%eax, %eax
	addq	%rdx, %rax
	jmp	13b
	.p2align	4
19:
	cmpq	$256, %r10
	movl	$256, %esi
	cmovbq	%r10, %rsi
	cmpq	%rsi, %r8
	movq	%rsi, %r9
	cmovbq	%r8, %r9
	xorl	%eax, %eax
	.p2align	4
20:
	movq	%r9, %r13
	subq	%rax, %r13
	cmpq	$16, %r13
	jb	21f
	movdqu	(%r11,%rax), %xmm1
	movdqu	(%rcx,%rax), %xmm2
	pcmpeqb	%xmm1, %xmm2
	pcmpeqd	%xmm3, %xmm3
	pxor	%xmm2, %xmm3
	pxor	%xmm2, %xmm2
	pcmpeqb	%xmm1, %xmm2
	por	%xmm3, %xmm2
	pmovmskb	%xmm2, %r13d
	orl	$65536, %r13d
	rep		bsfl	%r13d, %r13d
	addq	%r13, %rax
	cmpw	$15, %r13w
	ja	20b
	movq	%r9, %r13
	subq	%rax, %r13
21:
	cmpq	$8, %r13
	jb	22f
	movl	%eax, %r13d
	andl	$15, %r13d
	jne	22f
	movq	(%r11,%rax), %xmm1
	movq	(%rcx,%rax), %xmm2
	pcmpeqb	%xmm1, %xmm2
	pcmpeqd	%xmm3, %xmm3
	pxor	%xmm2, %xmm3
	pxor	%xmm2, %xmm2
	pcmpeqb	%xmm1, %xmm2
	por	%xmm3, %xmm2
	pmovmskb	%xmm2, %r13d
	orl	$256, %r13d
	rep		bsfl	%r13d, %r13d
	orq	%r13, %rax
22:
	cmpq	%r9, %rax
	jae	24f
	.p2align	4
23:
	movzbl	(%r11,%rax), %r13d
	testb	%r13b, %r13b
	je	4b
	cmpb	(%rcx,%rax), %r13b
	jne	29f
	incq	%rax
	cmpq	%rax, %r9
	jne	23b
24:
	cmpq	%r8, %rsi
	movq	32(%rsp), %r13
	jbe	38f
	cmpb	$0, (%r11,%r9)
	je	27f
	movq	%r9, %rax
25:
	incq	%rax
	addq	%r15, %rax
	movq	$-1, %r15
	cmovaeq	%rax, %r15
26:
	movl	$0, 8(%rsp)
	movq	%rbp, %rbx
	jmp	6b
27:
	incq	%r9
	addq	%r15, %r9
	movq	$-1, %r15
	cmovaeq	%r9, %r15
28:
	movb	$1, %al
	movl	%eax, 8(%rsp)
	movq	%rbp, %rbx
	jmp	6b
29:
	jb	4b
	movq	32(%rsp), %r13
	jmp	25b
30:
	movw	$3, %ax
31:
	movq	40(%rsp), %rcx
	movq	%r14, (%rcx)
	movq	%r15, 8(%rcx)
32:
	movq	24(%rsp), %rcx
	movq	$1, (%rcx)
	movw	%ax, 8(%rcx)
	movl	$0, 10(%rcx)
	movq	%rdx, 16(%rcx)
33:
	movq	$0, 24(%rcx)
34:
	addq	$152, %rsp
	popq	%rbx
	popq	%r12
	popq	%r13
	popq	%r14
	popq	%r15
	popq	%rbp
	retq
35:
	movq	40(%rsp), %rbp
	movq	%r14, (%rbp)
	movq	%r15, 8(%rbp)
	testb	$1, 8(%rsp)
	je	37f
	addq	$2, %r12
	movq	$-1, %rax
	cmovaeq	%r12, %rax
	movq	%rax, (%rbp)
	movq	16(%rsp), %rax
	movq	72(%rsp), %rcx
	addq	(%rax), %rcx
	movl	4(%rcx,%rdi,8), %r15d
	bswapl	%r15d
	movq	8(%rax), %r12
	movw	$3, %ax
	subq	%r15, %r12
	jbe	43f
	movq	16(%rsp), %rax
	movq	(%rax), %rbx
	addq	%r15, %rbx
	cmpq	$32, %r12
	jae	39f
36:
	cmpq	$256, %r12
	movl	$256, %r14d
	cmovbq	%r12, %r14
	xorl	%edi, %edi
	movq	%rbx, %rsi
	movq	%r14, %rdx
	callq	"memchr::bytes::memchr"
	cmpb	$1, %al
	jne	42f
	movq	%rdx, %rax
	incq	%rax
	jmp	41f
37:
	movq	24(%rsp), %rax
	movq	$0, 6(%rax)
	movq	$0, (%rax)
	pxor	%xmm0, %xmm0
	movdqu	%xmm0, 16(%rax)
	jmp	34b
38:
	addq	%r15, %r9
	movq	$-1, %r15
	cmovaeq	%r9, %r15
	cmpq	$256, %r10
	movw	$4, %ax
	sbbw	$0, %ax
	jmp	31b
39:
	movdqu	(%rbx), %xmm1
	pxor	%xmm0, %xmm0
	pcmpeqb	%xmm0, %xmm1
	pmovmskb	%xmm1, %ecx
	movl	$64, %eax
	movl	$64, %edx
	rep		bsfq	%rcx, %rdx
	cmpq	$16, %rdx
	jb	40f
	movdqu	16(%rbx), %xmm1
	pcmpeqb	%xmm0, %xmm1
	pmovmskb	%xmm1, %ecx
	rep		bsfq	%rcx, %rax
	cmpq	$15, %rax
	ja	36b
	orq	$16, %rax
	movq	%rax, %rdx
40:
	leaq	1(%rdx), %rax
41:
	addq	8(%rbp), %rax
	movq	$-1, %rcx
	cmovaeq	%rax, %rcx
	movq	%rcx, 8(%rbp)
	movq	24(%rsp), %rax
	movq	$0, (%rax)
	movl	$1, 8(%rax)
	movw	$0, 12(%rax)
	movq	%rbx, 16(%rax)
	movq	%rdx, 24(%rax)
	jmp	34b
42:
	addq	8(%rbp), %r14
	movq	$-1, %rax
	cmovaeq	%r14, %rax
	movq	%rax, 8(%rbp)
	cmpq	$256, %r12
	movw	$4, %ax
	sbbw	$0, %ax
43:
	movq	24(%rsp), %rcx
	movq	$1, (%rcx)
	movw	%ax, 8(%rcx)
	movl	$0, 10(%rcx)
	movq	%r15, 16(%rcx)
	jmp	33b
44:
	.size	"mime_view::pairs::look_up_pair", 44b-"mime_view::pairs::look_up_pair"
