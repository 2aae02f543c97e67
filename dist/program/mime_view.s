# Made by dist/refresh of what is proved.

	.section	.rodata.cst16,"aM",@progbits,16
	.p2align	4, 0x0
1:
	.zero	16,191
2:
	.zero	16,25
3:
	.byte	191,191,191,191,191,191,191,191
	.zero	1
	.zero	1
	.zero	1
	.zero	1
	.zero	1
	.zero	1
	.zero	1
	.zero	1
4:
	.byte	26,26,26,26,26,26,26,26
	.zero	1
	.zero	1
	.zero	1
	.zero	1
	.zero	1
	.zero	1
	.zero	1
	.zero	1
5:
	.quad	1,1
	.text
	.p2align	4
	.type	"mime_view::cache::Cache::glob_hits",@function
"mime_view::cache::Cache::glob_hits":
	pushq	%rbp
	pushq	%r15
	pushq	%r14
	pushq	%r13
	pushq	%r12
	pushq	%rbx
	subq	$568, %rsp
	movq	%rcx, %r11
	movq	%rdx, %r12
	movq	%rsi, %r10
	movq	%rdi, 208(%rsp)
	movq	624(%rsp), %rdx
	movq	$0, 488(%rsp)
	movq	%rsi, 464(%rsp)
	movq	%r12, 472(%rsp)
	movq	%rcx, 480(%rsp)
	movb	$2, 488(%rsp)
	movq	(%r9), %rax
	movq	%r9, 456(%rsp)
	movq	8(%r9), %rbp
	movups	(%rdx), %xmm0
	movaps	%xmm0, 432(%rsp)
	movl	28(%rsi), %r13d
	movl	32(%rsi), %ebx
	movl	36(%rsi), %edi
	leaq	104(%rsp), %r14
	xorps	%xmm0, %xmm0
	movups	%xmm0, 104(%rsp)
	movups	%xmm0, 120(%rsp)
	movups	%xmm0, 136(%rsp)
	movzbl	%r8b, %ecx
	movq	%rcx, 96(%rsp)
	movq	%rax, 152(%rsp)
	movq	%rbp, 160(%rsp)
	movdqu	(%rdx), %xmm0
	movdqu	%xmm0, 168(%rsp)
	cmpq	$7, %r11
	movq	%rsi, 48(%rsp)
	movq	%r11, 80(%rsp)
	movl	%edi, 232(%rsp)
	ja	6f
	testq	%r11, %r11
	je	14f
	movzbl	(%r12), %ecx
	addb	$-65, %cl
	cmpb	$26, %cl
	jb	10f
	cmpq	$1, %r11
	je	14f
	movzbl	1(%r12), %ecx
	addb	$-65, %cl
	cmpb	$26, %cl
	jb	10f
	cmpq	$2, %r11
	je	14f
	movzbl	2(%r12), %ecx
	addb	$-65, %cl
	cmpb	$26, %cl
	jb	10f
	cmpq	$3, %r11
	je	14f
	movzbl	3(%r12), %ecx
	addb	$-65, %cl
	cmpb	$26, %cl
	jb	10f
	cmpq	$4, %r11
	je	14f
	movzbl	4(%r12), %ecx
	addb	$-65, %cl
	cmpb	$26, %cl
	jb	10f
	cmpq	$5, %r11
	je	14f
	movzbl	5(%r12), %ecx
	addb	$-65, %cl
	cmpb	$26, %cl
	jb	10f
	cmpq	$6, %r11
	je	14f
	movzbl	6(%r12), %ecx
	addb	$-65, %cl
	cmpb	$26, %cl
	setae	%cl
	cmpq	$7, %r11
	sete	%dl
	testb	%dl, %cl
	jne	14f
	jmp	10f
6:
	cmpq	$15, %r11
	ja	7f
	movq	(%r12), %xmm0
	paddb	3b(%rip), %xmm0
	movdqa	4b(%rip), %xmm1
	pmaxub	%xmm0, %xmm1
	pcmpeqb	%xmm0, %xmm1
	pmovmskb	%xmm1, %ecx
	xorb	$-1, %cl
	jne	11f
	movq	-8(%r12,%r11), %xmm0
	paddb	3b(%rip), %xmm0
	movdqa	4b(%rip), %xmm1
	pmaxub	%xmm0, %xmm1
	pcmpeqb	%xmm0, %xmm1
	pmovmskb	%xmm1, %ecx
	xorb	$-1, %cl
	jne	11f
	jmp	14f
7:
	movq	%r11, %rcx
	addq	$-16, %rcx
	je	9f
	xorl	%edx, %edx
	.p2align	4
8:
	movdqu	(%r12,%rdx), %xmm0
	paddb	1b(%rip), %xmm0
	movdqa	2b(%rip), %xmm1
	pminub	%xmm0, %xmm1
	pcmpeqb	%xmm0, %xmm1
	pmovmskb	%xmm1, %esi
	testl	%esi, %esi
	jne	10f
	addq	$16, %rdx
	cmpq	%rcx, %rdx
	jb	8b
9:
	movdqu	-16(%r12,%r11), %xmm0
	paddb	1b(%rip), %xmm0
	movdqa	2b(%rip), %xmm1
	pminub	%xmm0, %xmm1
	pcmpeqb	%xmm0, %xmm1
	pmovmskb	%xmm1, %ecx
	testl	%ecx, %ecx
	je	14f
10:
	testq	%r11, %r11
	je	18f
	js	147f
11:
	movl	$1, %esi
	movq	%r11, %rdi
	callq	rattle_alloc@PLT
	movq	80(%rsp), %r11
	testb	$1, %al
	je	147f
	movq	%rbx, 200(%rsp)
	movq	%rdx, 256(%rsp)
	movq	$0, 264(%rsp)
	movq	%r11, 272(%rsp)
	xorl	%ebp, %ebp
	xorl	%ebx, %ebx
	movq	48(%rsp), %r10
	jmp	13f
	.p2align	4
12:
	movb	%r14b, (%rdx,%rbp)
	incq	%rbp
	movq	%rbp, 264(%rsp)
	incq	%rbx
	cmpq	%rbx, %r11
	je	17f
13:
	movzbl	(%r12,%rbx), %eax
	leal	-65(%rax), %ecx
	leal	32(%rax), %esi
	cmpb	$26, %cl
	movzbl	%sil, %r14d
	cmovael	%eax, %r14d
	cmpq	%rbp, 272(%rsp)
	jne	12b
	leaq	256(%rsp), %rdi
	callq	"std_alloc::vec::Vec::grow_amortized::<#0135d645f841a886>"
	testb	%al, %al
	je	146f
	movq	256(%rsp), %rdx
	movq	264(%rsp), %rbp
	movq	48(%rsp), %r10
	movq	80(%rsp), %r11
	jmp	12b
14:
	movq	%rbx, 200(%rsp)
	pxor	%xmm0, %xmm0
	movdqa	%xmm0, 352(%rsp)
	movq	$0, 368(%rsp)
	leaq	4(%r13), %rdx
	movq	8(%r10), %rdi
	incq	%rax
	movq	$-1, %rbx
	cmovneq	%rax, %rbx
	movq	%rbx, 152(%rsp)
	movb	$3, %r8b
	movb	$1, %r9b
	cmpq	%rdx, %rdi
	jb	15f
	movq	(%r10), %r15
	movl	(%r15,%r13), %eax
	movl	%eax, %esi
	bswapl	%esi
	leaq	(%rsi,%rsi,2), %rcx
	leaq	(%rdx,%rcx,4), %rcx
	cmpq	%rcx, %rdi
	jae	26f
15:
	pxor	%xmm3, %xmm3
16:
	movq	%r13, 40(%rsp)
	movq	208(%rsp), %r13
	jmp	22f
17:
	cmpq	$0, 272(%rsp)
	movq	256(%rsp), %rax
	movq	%rax, 64(%rsp)
	sete	%dil
	movq	152(%rsp), %rax
	movq	%r11, 56(%rsp)
	movq	200(%rsp), %rbx
	jmp	19f
18:
	leaq	240(%rsp), %rcx
	movq	%rcx, 64(%rsp)
	movb	$1, %dil
	movq	$0, 56(%rsp)
	xorl	%ebp, %ebp
19:
	pxor	%xmm0, %xmm0
	movdqa	%xmm0, 352(%rsp)
	movq	$0, 368(%rsp)
	movq	%r13, %r15
	addq	$4, %r15
	incq	%rax
	movq	$-1, %r14
	cmovneq	%rax, %r14
	movb	$3, %r8b
	movb	$1, %r9b
	cmpq	%r15, 8(%r10)
	movq	%r14, 152(%rsp)
	jb	20f
	movq	(%r10), %rax
	movq	8(%r10), %rsi
	movq	%rax, 192(%rsp)
	movl	(%rax,%r13), %eax
	movl	%eax, %ecx
	bswapl	%ecx
	movq	%rcx, 296(%rsp)
	leaq	(%rcx,%rcx,2), %rcx
	movq	%r15, 304(%rsp)
	leaq	(%r15,%rcx,4), %rcx
	movq	%rsi, 224(%rsp)
	cmpq	%rcx, %rsi
	jae	34f
20:
	movq	%r13, 40(%rsp)
	pxor	%xmm3, %xmm3
	leaq	104(%rsp), %r14
	movq	208(%rsp), %r13
21:
	testb	%dil, %dil
	jne	22f
	movq	64(%rsp), %rdi
	movq	%r8, %r15
	movl	%r9d, %ebp
	movdqa	%xmm3, 64(%rsp)
	callq	rattle_dealloc@PLT
	movdqa	64(%rsp), %xmm3
	movl	%ebp, %r9d
	movq	%r15, %r8
	movq	48(%rsp), %r10
22:
	movq	160(%rsp), %rbp
	movdqu	152(%rsp), %xmm6
	movdqu	64(%r14), %xmm0
	movdqa	%xmm0, 432(%rsp)
	movzbl	96(%rsp), %esi
	testb	%r9b, %r9b
	je	24f
	movq	112(%rsp), %rdi
	testb	%sil, %sil
	je	148f
23:
	cmpb	$1, 104(%rsp)
	jne	150f
	cmpq	$0, 128(%rsp)
	jne	149f
	jmp	150f
24:
	movl	104(%rsp), %r11d
	movl	113(%rsp), %ecx
	movzbl	112(%rsp), %edi
	movzbl	119(%rsp), %r9d
	movzwl	117(%rsp), %r8d
	movq	120(%rsp), %rbx
	movq	128(%rsp), %r15
	movq	136(%rsp), %rdx
	movq	144(%rsp), %rax
	pxor	%xmm0, %xmm0
	movdqa	%xmm0, 368(%rsp)
	movdqa	%xmm0, 352(%rsp)
	movq	$0, 384(%rsp)
	testb	%sil, %sil
	movdqa	%xmm6, 80(%rsp)
	je	25f
	shll	$16, %r9d
	orl	%r9d, %r8d
	shlq	$32, %r8
	orq	%r8, %rcx
	movq	%rcx, %r12
	shlq	$8, %r12
	orq	%rdi, %r12
	movdqa	%xmm0, 96(%rsp)
	movdqa	%xmm0, 112(%rsp)
	movdqa	%xmm0, 128(%rsp)
	movdqa	%xmm0, 320(%rsp)
	movdqa	%xmm0, 336(%rsp)
	movdqa	%xmm0, 496(%rsp)
	testb	%r11b, %r11b
	movq	%rbx, %r13
	cmoveq	%rax, %r13
	cmpq	$1, %r13
	movq	%rbp, 64(%rsp)
	jne	27f
	testb	%r11b, %r11b
	je	46f
	movl	4(%r12), %ecx
	jmp	47f
25:
	movl	%r11d, 352(%rsp)
	movq	%rdi, 360(%rsp)
	leaq	368(%rsp), %rax
	movq	%rbx, 368(%rsp)
	movq	%r15, 376(%rsp)
	testq	%rdi, %rdi
	cmovneq	%rbx, %rax
	movq	%rax, 232(%rsp)
	movq	%rdx, 384(%rsp)
	cmoveq	%rdx, %r15
	cmpq	$1, %r15
	je	35f
	testq	%r15, %r15
	jne	37f
	movb	$1, %r8b
	leaq	240(%rsp), %rax
	movq	%rax, 40(%rsp)
	xorl	%r14d, %r14d
	xorl	%r12d, %r12d
	xorl	%r13d, %r13d
	jmp	360f
26:
	testl	%eax, %eax
	je	183f
	movdqa	%xmm0, 320(%rsp)
	cmpq	$15, %r11
	movq	%rdi, 64(%rsp)
	ja	49f
	leaq	320(%rsp), %rdi
	movq	%rdx, %r14
	movq	%rsi, %r13
	movq	%r12, %rsi
	movq	%r11, %rdx
	callq	memcpy@PLT
	movq	64(%rsp), %rdi
	movq	%r13, %rsi
	movq	%r14, %rdx
	movq	80(%rsp), %r11
	jmp	50f
27:
	movzbl	%r11b, %ecx
	movq	%rcx, 96(%rsp)
	movq	%r12, 104(%rsp)
	movq	%rbx, 112(%rsp)
	movq	%r15, 120(%rsp)
	movq	%rdx, 128(%rsp)
	movq	%rax, 136(%rsp)
	testq	%r13, %r13
	je	133f
	testb	%r11b, %r11b
	movq	%r14, %rax
	movq	%r12, %r14
	movq	%rax, %rbp
	cmoveq	%rax, %r14
	cmpq	$20, %r13
	ja	84f
	movl	$1, %eax
	jmp	31f
28:
	xorl	%edx, %edx
29:
	movq	%rcx, (%r14,%rdx)
30:
	incq	%rax
	cmpq	%r13, %rax
	je	132f
31:
	movl	-8(%r14,%rax,8), %ecx
	cmpl	(%r14,%rax,8), %ecx
	jae	30b
	movq	%rax, %rdx
	movq	-8(%r14,%rax,8), %rsi
	movq	(%r14,%rax,8), %rcx
	movq	%rsi, (%r14,%rax,8)
	decq	%rdx
	je	28b
	.p2align	4
32:
	cmpl	%ecx, -8(%r14,%rdx,8)
	jae	33f
	movq	-8(%r14,%rdx,8), %rsi
	movq	%rsi, (%r14,%rdx,8)
	decq	%rdx
	jne	32b
	xorl	%edx, %edx
33:
	shlq	$3, %rdx
	jmp	29b
34:
	testl	%eax, %eax
	movb	%dil, 39(%rsp)
	je	141f
	movq	160(%rsp), %r15
	movdqa	%xmm0, 320(%rsp)
	movq	56(%rsp), %rdi
	cmpq	$15, %rdi
	movq	%rbx, 200(%rsp)
	ja	87f
	leaq	320(%rsp), %rdi
	movq	%r12, %rsi
	movq	56(%rsp), %rdx
	callq	memcpy@PLT
	movq	56(%rsp), %rdi
	movq	80(%rsp), %r11
	jmp	88f
35:
	movq	%rbp, 64(%rsp)
	movq	232(%rsp), %rax
	movl	(%rax), %ecx
	movq	8(%r10), %rbp
	movb	$3, %r8b
	movq	%rcx, 40(%rsp)
	subq	%rcx, %rbp
	jbe	127f
	movq	(%r10), %r13
	addq	40(%rsp), %r13
	cmpq	$32, %rbp
	jae	151f
36:
	cmpq	$256, %rbp
	movl	$256, %r12d
	cmovbq	%rbp, %r12
	xorl	%edi, %edi
	movq	%r13, %rsi
	movq	%r12, %rdx
	callq	"memchr::bytes::memchr"
	cmpb	$1, %al
	jne	176f
	movq	%rdx, %r14
	movq	%rdx, %rax
	incq	%rax
	addq	64(%rsp), %rax
	movq	$-1, %rbp
	cmovaeq	%rax, %rbp
	movdqa	80(%rsp), %xmm6
	jmp	153f
37:
	movq	%r15, %rax
	shrq	$59, %rax
	movb	$7, %r8b
	jne	128f
	movq	%r15, %rdi
	shlq	$4, %rdi
	movl	$8, %esi
	callq	rattle_alloc@PLT
	testb	$1, %al
	je	357f
	movq	%rdx, %rdi
	movq	%rdx, 96(%rsp)
	movq	$0, 104(%rsp)
	movq	%r15, 112(%rsp)
	xorl	%r14d, %r14d
	xorl	%r12d, %r12d
	movq	48(%rsp), %r8
	movdqa	80(%rsp), %xmm6
38:
	movq	232(%rsp), %rax
	movl	(%rax,%r12,4), %ecx
	movq	8(%r8), %r13
	movq	%rcx, 40(%rsp)
	subq	%rcx, %r13
	jbe	242f
	movq	(%r8), %rsi
	addq	40(%rsp), %rsi
	cmpq	$32, %r13
	jae	41f
39:
	movq	%r12, 56(%rsp)
	movq	%rdi, 64(%rsp)
	movq	%rbp, %r12
	cmpq	$256, %r13
	movl	$256, %ebp
	cmovbq	%r13, %rbp
	xorl	%edi, %edi
	movq	%rsi, %rbx
	movq	%rbp, %rdx
	callq	"memchr::bytes::memchr"
	cmpb	$1, %al
	jne	291f
	leaq	1(%rdx), %rax
	addq	%r12, %rax
	movq	$-1, %rbp
	movq	64(%rsp), %rdi
	jb	40f
	movq	%rax, %rbp
40:
	movq	48(%rsp), %r8
	movdqa	80(%rsp), %xmm6
	movq	56(%rsp), %r12
	movq	%rbx, %rsi
	jmp	43f
41:
	movdqu	(%rsi), %xmm1
	pxor	%xmm0, %xmm0
	pcmpeqb	%xmm0, %xmm1
	pmovmskb	%xmm1, %ecx
	movl	$64, %eax
	movl	$64, %edx
	rep		bsfq	%rcx, %rdx
	cmpq	$16, %rdx
	jb	42f
	movdqu	16(%rsi), %xmm1
	pcmpeqb	%xmm0, %xmm1
	pmovmskb	%xmm1, %ecx
	rep		bsfq	%rcx, %rax
	cmpq	$15, %rax
	ja	39b
	orq	$16, %rax
	movq	%rax, %rdx
42:
	leaq	1(%rdx), %rax
	addq	%rbp, %rax
	movq	$-1, %rbp
	jb	43f
	movq	%rax, %rbp
43:
	cmpq	%r14, 112(%rsp)
	je	45f
44:
	movq	%r14, %rax
	shlq	$4, %rax
	movq	%rsi, (%rdi,%rax)
	movq	%rdx, 8(%rdi,%rax)
	incq	%r14
	movq	%r14, 104(%rsp)
	incq	%r12
	cmpq	%r12, %r15
	jne	38b
	jmp	243f
45:
	movq	%rsi, %r13
	movq	%rdx, %rbx
	leaq	96(%rsp), %rdi
	callq	"std_alloc::vec::Vec::grow_amortized::<#25095d740b27081c>"
	testb	%al, %al
	je	356f
	movq	96(%rsp), %rdi
	movq	104(%rsp), %r14
	movq	%rbx, %rdx
	movq	48(%rsp), %r8
	movdqa	80(%rsp), %xmm6
	movq	%r13, %rsi
	jmp	44b
46:
	movabsq	$72057594037927935, %rax
	andq	%rax, %rcx
	shrq	$24, %rcx
47:
	movl	%ecx, %ecx
	movq	8(%r10), %rbp
	movb	$3, %r8b
	movq	%rcx, 40(%rsp)
	subq	%rcx, %rbp
	jbe	138f
	movq	(%r10), %rbx
	addq	40(%rsp), %rbx
	cmpq	$32, %rbp
	jae	123f
48:
	movq	%r11, 232(%rsp)
	cmpq	$256, %rbp
	movl	$256, %r13d
	cmovbq	%rbp, %r13
	xorl	%edi, %edi
	movq	%rbx, %rsi
	movq	%r13, %rdx
	callq	"memchr::bytes::memchr"
	cmpb	$1, %al
	jne	137f
	movq	%rdx, %r14
	movq	%rdx, %rax
	incq	%rax
	addq	64(%rsp), %rax
	movq	$-1, %rbp
	cmovaeq	%rax, %rbp
	movdqa	80(%rsp), %xmm6
	movq	232(%rsp), %r11
	jmp	125f
49:
	movdqu	(%r12), %xmm0
	movdqa	%xmm0, 320(%rsp)
50:
	movdqa	320(%rsp), %xmm0
	movdqu	%xmm0, 272(%rsp)
	movq	%rdx, 216(%rsp)
	leaq	(%r15,%rdx), %rax
	movq	%rax, 40(%rsp)
	movzbl	272(%rsp), %eax
	movb	%al, 192(%rsp)
	leaq	-16(%r11), %rax
	movq	%rax, 312(%rsp)
	leaq	-8(%r11), %rax
	movq	%rax, 248(%rsp)
	xorl	%r14d, %r14d
	movq	%rsi, 224(%rsp)
	movq	%rsi, %r8
	movl	$0, 56(%rsp)
	jmp	55f
51:
	incq	%r11
	addq	%rbp, %r11
	movq	$-1, %rbp
	cmovaeq	%r11, %rbp
	movq	80(%rsp), %r11
52:
	movq	64(%rsp), %rdi
53:
	incq	%rsi
	movq	%rsi, %r14
54:
	cmpq	%r8, %r14
	jae	83f
55:
	movq	%rbx, %rax
	leaq	(%r8,%r14), %rsi
	shrq	%rsi
	leaq	(%rsi,%rsi,2), %rcx
	movq	%rbx, %rdx
	incq	%rdx
	movq	$-1, %rbx
	cmovneq	%rdx, %rbx
	movq	40(%rsp), %rdx
	movl	(%rdx,%rcx,4), %r13d
	bswapl	%r13d
	movq	%rdi, %r10
	subq	%r13, %r10
	jbe	80f
	leaq	(%r15,%r13), %r9
	cmpq	$16, %r10
	jae	57f
56:
	testq	%r11, %r11
	je	70f
	movzbl	(%r9), %ecx
	cmpb	(%r12), %cl
	jne	61f
	cmpq	$8, %r11
	jb	70f
	cmpq	$33, %r10
	jb	70f
	cmpq	$15, %r11
	ja	68f
	movq	(%r9), %xmm3
	movq	(%r12), %xmm4
	pcmpeqb	%xmm3, %xmm4
	pcmpeqd	%xmm2, %xmm2
	pxor	%xmm2, %xmm4
	pxor	%xmm1, %xmm1
	pcmpeqb	%xmm1, %xmm3
	por	%xmm4, %xmm3
	pmovmskb	%xmm3, %ecx
	orl	$256, %ecx
	rep		bsfl	%ecx, %ecx
	cmpb	$8, %cl
	jb	62f
	movq	248(%rsp), %rdx
	movq	(%r9,%rdx), %xmm3
	movq	(%r12,%rdx), %xmm4
	pcmpeqb	%xmm3, %xmm4
	pxor	%xmm2, %xmm4
	pcmpeqb	%xmm3, %xmm1
	por	%xmm4, %xmm1
	pmovmskb	%xmm1, %ecx
	orl	$256, %ecx
	jmp	69f
	.p2align	4
57:
	movzbl	(%r9), %ecx
	cmpb	192(%rsp), %cl
	jne	58f
	movdqu	(%r9), %xmm1
	pxor	%xmm2, %xmm2
	pcmpeqb	%xmm1, %xmm2
	pcmpeqb	%xmm0, %xmm1
	pcmpeqd	%xmm3, %xmm3
	pxor	%xmm1, %xmm3
	por	%xmm3, %xmm2
	pmovmskb	%xmm2, %ecx
	testl	%ecx, %ecx
	je	56b
	rep		bsfl	%ecx, %edx
	movzbl	(%r9,%rdx), %ecx
	jmp	59f
	.p2align	4
58:
	xorl	%edx, %edx
59:
	movzbl	272(%rsp,%rdx), %edi
	leaq	1(%rdx), %r9
	addq	%rbp, %r9
	movq	$-1, %rbp
	cmovaeq	%r9, %rbp
	cmpb	%dil, %cl
	jne	60f
	cmpq	%r11, %rdx
	jne	65f
	testb	%cl, %cl
	movq	64(%rsp), %rdi
	jne	66f
	jmp	63f
60:
	jb	52b
	movl	$0, 56(%rsp)
	jmp	78f
61:
	xorl	%ecx, %ecx
62:
	leaq	1(%rcx), %rdx
	addq	%rbp, %rdx
	movq	$-1, %rbp
	cmovaeq	%rdx, %rbp
	movzbl	(%r9,%rcx), %edx
	cmpq	%r11, %rcx
	jne	64f
	testb	%dl, %dl
	jne	66f
63:
	movb	$1, %cl
	movl	%ecx, 56(%rsp)
	jmp	67f
64:
	testb	%dl, %dl
	je	53b
	cmpb	(%r12,%rcx), %dl
	jb	53b
	jmp	66f
65:
	testb	%cl, %cl
	movq	64(%rsp), %rdi
	je	53b
	cmpb	(%r12,%rdx), %cl
	jb	53b
66:
	movl	$0, 56(%rsp)
67:
	movq	%rsi, %r8
	jmp	54b
68:
	cmpq	$32, %r11
	ja	70f
	movdqu	(%r9), %xmm3
	movdqu	(%r12), %xmm4
	pcmpeqb	%xmm3, %xmm4
	pcmpeqd	%xmm2, %xmm2
	pxor	%xmm2, %xmm4
	pxor	%xmm1, %xmm1
	pcmpeqb	%xmm1, %xmm3
	por	%xmm4, %xmm3
	pmovmskb	%xmm3, %ecx
	orl	$65536, %ecx
	rep		bsfl	%ecx, %ecx
	cmpw	$16, %cx
	jb	62b
	movq	312(%rsp), %rdx
	movdqu	(%r9,%rdx), %xmm3
	movdqu	(%r12,%rdx), %xmm4
	pcmpeqb	%xmm3, %xmm4
	pxor	%xmm2, %xmm4
	pcmpeqb	%xmm3, %xmm1
	por	%xmm4, %xmm1
	pmovmskb	%xmm1, %ecx
	orl	$65536, %ecx
69:
	rep		bsfl	%ecx, %ecx
	addq	%rdx, %rcx
	jmp	62b
	.p2align	4
70:
	cmpq	$256, %r10
	movl	$256, %edi
	cmovbq	%r10, %rdi
	cmpq	%rdi, %r11
	movq	%rdi, %rdx
	cmovbq	%r11, %rdx
	xorl	%r11d, %r11d
	.p2align	4
71:
	movq	%rdx, %rcx
	subq	%r11, %rcx
	cmpq	$16, %rcx
	jb	72f
	movdqu	(%r9,%r11), %xmm1
	movdqu	(%r12,%r11), %xmm2
	pcmpeqb	%xmm1, %xmm2
	pcmpeqd	%xmm3, %xmm3
	pxor	%xmm2, %xmm3
	pxor	%xmm2, %xmm2
	pcmpeqb	%xmm1, %xmm2
	por	%xmm3, %xmm2
	pmovmskb	%xmm2, %ecx
	orl	$65536, %ecx
	rep		bsfl	%ecx, %ecx
	addq	%rcx, %r11
	cmpw	$15, %cx
	ja	71b
	movq	%rdx, %rcx
	subq	%r11, %rcx
72:
	cmpq	$8, %rcx
	jb	73f
	movl	%r11d, %ecx
	andl	$15, %ecx
	jne	73f
	movq	(%r9,%r11), %xmm1
	movq	(%r12,%r11), %xmm2
	pcmpeqb	%xmm1, %xmm2
	pcmpeqd	%xmm3, %xmm3
	pxor	%xmm2, %xmm3
	pxor	%xmm2, %xmm2
	pcmpeqb	%xmm1, %xmm2
	por	%xmm3, %xmm2
	pmovmskb	%xmm2, %ecx
	orl	$256, %ecx
	rep		bsfl	%ecx, %ecx
	orq	%rcx, %r11
73:
	cmpq	%rdx, %r11
	jae	75f
	.p2align	4
74:
	movzbl	(%r9,%r11), %ecx
	testb	%cl, %cl
	je	51b
	cmpb	(%r12,%r11), %cl
	jne	79f
	incq	%r11
	cmpq	%r11, %rdx
	jne	74b
75:
	movq	80(%rsp), %r11
	cmpq	%r11, %rdi
	jbe	175f
	cmpb	$0, (%r9,%rdx)
	je	77f
	movq	%rdx, %r11
76:
	movq	64(%rsp), %rdi
	incq	%r11
	addq	%rbp, %r11
	movq	$-1, %rbp
	cmovaeq	%r11, %rbp
	movl	$0, 56(%rsp)
	movq	%rsi, %r8
	movq	80(%rsp), %r11
	jmp	54b
77:
	incq	%rdx
	addq	%rbp, %rdx
	movq	$-1, %rbp
	cmovaeq	%rdx, %rbp
	movb	$1, %cl
	movl	%ecx, 56(%rsp)
78:
	movq	%rsi, %r8
	movq	64(%rsp), %rdi
	jmp	54b
79:
	jae	76b
	jmp	51b
80:
	movb	$3, %r8b
81:
	movq	48(%rsp), %r10
	movq	%rbx, 152(%rsp)
	movq	%rbp, 160(%rsp)
	pxor	%xmm3, %xmm3
82:
	leaq	104(%rsp), %r14
	movb	$1, %r9b
	jmp	16b
83:
	movq	%rbx, 152(%rsp)
	movq	%rbp, 160(%rsp)
	testb	$1, 56(%rsp)
	je	129f
	cmpq	224(%rsp), %r14
	movq	48(%rsp), %r10
	movb	$3, %r8b
	movb	$1, %r9b
	jae	183f
	movzwl	%r11w, %ebp
	addl	%ebp, %ebp
	jmp	157f
84:
	leaq	8(%r12), %rax
	testb	%r11b, %r11b
	leaq	112(%rsp), %rcx
	cmoveq	%rcx, %rax
	movl	(%rax), %ecx
	movl	(%r14), %edx
	movl	$2, %ebx
	cmpl	%ecx, %edx
	jae	86f
	.p2align	4
85:
	movl	-8(%r14,%rbx,8), %eax
	cmpl	(%r14,%rbx,8), %eax
	jae	130f
	incq	%rbx
	cmpq	%rbx, %r13
	jne	85b
	jmp	131f
	.p2align	4
86:
	movl	-8(%r14,%rbx,8), %eax
	cmpl	(%r14,%rbx,8), %eax
	jb	130f
	incq	%rbx
	cmpq	%rbx, %r13
	jne	86b
	jmp	132f
87:
	movdqu	(%r12), %xmm0
	movdqa	%xmm0, 320(%rsp)
88:
	movdqa	320(%rsp), %xmm0
	movdqu	%xmm0, 272(%rsp)
	movq	304(%rsp), %rax
	movq	192(%rsp), %rcx
	addq	%rcx, %rax
	movq	%rax, 216(%rsp)
	movzbl	272(%rsp), %eax
	movb	%al, 312(%rsp)
	leaq	-16(%rdi), %rax
	movq	%rax, 400(%rsp)
	leaq	-8(%rdi), %rax
	movq	%rax, 408(%rsp)
	xorl	%edx, %edx
	movq	296(%rsp), %rsi
	movl	$0, 248(%rsp)
	jmp	92f
89:
	incq	%r11
	addq	%r15, %r11
	movq	$-1, %r15
	cmovaeq	%r11, %r15
	movq	80(%rsp), %r11
	movq	56(%rsp), %rdi
90:
	incq	%rsi
	movq	%rsi, %rdx
	movq	%rbx, %rsi
91:
	cmpq	%rsi, %rdx
	jae	122f
92:
	movq	%r14, %rax
	movq	%rdx, %r8
	movq	%rsi, %rbx
	addq	%rdx, %rsi
	shrq	%rsi
	leaq	(%rsi,%rsi,2), %rcx
	movq	%r14, %rdx
	incq	%rdx
	movq	$-1, %r14
	cmovneq	%rdx, %r14
	movq	216(%rsp), %rdx
	movl	(%rdx,%rcx,4), %edx
	bswapl	%edx
	movq	224(%rsp), %r10
	subq	%rdx, %r10
	movq	%rdx, 40(%rsp)
	jbe	116f
	movq	192(%rsp), %rcx
	leaq	(%rcx,%rdx), %r9
	cmpq	$16, %r10
	jae	94f
93:
	testq	%rdi, %rdi
	je	106f
	movzbl	(%r9), %ecx
	cmpb	(%r12), %cl
	jne	98f
	cmpq	$8, %rdi
	jb	106f
	cmpq	$33, %r10
	jb	106f
	cmpq	$15, %rdi
	ja	104f
	movq	(%r9), %xmm3
	movq	(%r12), %xmm4
	pcmpeqb	%xmm3, %xmm4
	pcmpeqd	%xmm2, %xmm2
	pxor	%xmm2, %xmm4
	pxor	%xmm1, %xmm1
	pcmpeqb	%xmm1, %xmm3
	por	%xmm4, %xmm3
	pmovmskb	%xmm3, %ecx
	orl	$256, %ecx
	rep		bsfl	%ecx, %ecx
	cmpb	$8, %cl
	jb	99f
	movq	408(%rsp), %rdx
	movq	(%r9,%rdx), %xmm3
	movq	(%r12,%rdx), %xmm4
	pcmpeqb	%xmm3, %xmm4
	pxor	%xmm2, %xmm4
	pcmpeqb	%xmm3, %xmm1
	por	%xmm4, %xmm1
	pmovmskb	%xmm1, %ecx
	orl	$256, %ecx
	jmp	105f
	.p2align	4
94:
	movzbl	(%r9), %ecx
	cmpb	312(%rsp), %cl
	jne	95f
	movdqu	(%r9), %xmm1
	pxor	%xmm2, %xmm2
	pcmpeqb	%xmm1, %xmm2
	pcmpeqb	%xmm0, %xmm1
	pcmpeqd	%xmm3, %xmm3
	pxor	%xmm1, %xmm3
	por	%xmm3, %xmm2
	pmovmskb	%xmm2, %ecx
	testl	%ecx, %ecx
	je	93b
	rep		bsfl	%ecx, %edx
	movzbl	(%r9,%rdx), %ecx
	jmp	96f
95:
	xorl	%edx, %edx
96:
	movzbl	272(%rsp,%rdx), %edi
	leaq	1(%rdx), %r9
	addq	%r15, %r9
	movq	$-1, %r15
	cmovaeq	%r9, %r15
	cmpb	%dil, %cl
	jne	97f
	movq	56(%rsp), %rdi
	cmpq	%rdi, %rdx
	jne	102f
	testb	%cl, %cl
	jne	103f
	jmp	100f
97:
	movq	56(%rsp), %rdi
	jb	90b
	jmp	103f
98:
	xorl	%ecx, %ecx
99:
	leaq	1(%rcx), %rdx
	addq	%r15, %rdx
	movq	$-1, %r15
	cmovaeq	%rdx, %r15
	movzbl	(%r9,%rcx), %edx
	cmpq	%rdi, %rcx
	jne	101f
	testb	%dl, %dl
	jne	103f
100:
	movq	%r8, %rdx
	movb	$1, %cl
	movl	%ecx, 248(%rsp)
	jmp	91b
101:
	testb	%dl, %dl
	je	90b
	cmpb	(%r12,%rcx), %dl
	jb	90b
	jmp	103f
102:
	testb	%cl, %cl
	je	90b
	cmpb	(%r12,%rdx), %cl
	jb	90b
	.p2align	4
103:
	movl	$0, 248(%rsp)
	movq	%r8, %rdx
	jmp	91b
104:
	cmpq	$32, %rdi
	ja	106f
	movdqu	(%r9), %xmm3
	movdqu	(%r12), %xmm4
	pcmpeqb	%xmm3, %xmm4
	pcmpeqd	%xmm2, %xmm2
	pxor	%xmm2, %xmm4
	pxor	%xmm1, %xmm1
	pcmpeqb	%xmm1, %xmm3
	por	%xmm4, %xmm3
	pmovmskb	%xmm3, %ecx
	orl	$65536, %ecx
	rep		bsfl	%ecx, %ecx
	cmpw	$16, %cx
	jb	99b
	movq	400(%rsp), %rdx
	movdqu	(%r9,%rdx), %xmm3
	movdqu	(%r12,%rdx), %xmm4
	pcmpeqb	%xmm3, %xmm4
	pxor	%xmm2, %xmm4
	pcmpeqb	%xmm3, %xmm1
	por	%xmm4, %xmm1
	pmovmskb	%xmm1, %ecx
	orl	$65536, %ecx
105:
	rep		bsfl	%ecx, %ecx
	addq	%rdx, %rcx
	jmp	99b
	.p2align	4
106:
	cmpq	$256, %r10
	movq	%rdi, %rcx
	movl	$256, %edi
	cmovbq	%r10, %rdi
	cmpq	%rdi, %rcx
	movq	%rdi, %rdx
	cmovbq	%rcx, %rdx
	xorl	%r11d, %r11d
	.p2align	4
107:
	movq	%rdx, %rcx
	subq	%r11, %rcx
	cmpq	$16, %rcx
	jb	108f
	movdqu	(%r9,%r11), %xmm1
	movdqu	(%r12,%r11), %xmm2
	pcmpeqb	%xmm1, %xmm2
	pcmpeqd	%xmm3, %xmm3
	pxor	%xmm2, %xmm3
	pxor	%xmm2, %xmm2
	pcmpeqb	%xmm1, %xmm2
	por	%xmm3, %xmm2
	pmovmskb	%xmm2, %ecx
	orl	$65536, %ecx
	rep		bsfl	%ecx, %ecx
	addq	%rcx, %r11
	cmpw	$15, %cx
	ja	107b
	movq	%rdx, %rcx
	subq	%r11, %rcx
108:
	cmpq	$8, %rcx
	jb	109f
	movl	%r11d, %ecx
	andl	$15, %ecx
	jne	109f
	movq	(%r9,%r11), %xmm1
	movq	(%r12,%r11), %xmm2
	pcmpeqb	%xmm1, %xmm2
	pcmpeqd	%xmm3, %xmm3
	pxor	%xmm2, %xmm3
	pxor	%xmm2, %xmm2
	pcmpeqb	%xmm1, %xmm2
	por	%xmm3, %xmm2
	pmovmskb	%xmm2, %ecx
	orl	$256, %ecx
	rep		bsfl	%ecx, %ecx
	orq	%rcx, %r11
109:
	cmpq	%rdx, %r11
	jae	111f
	.p2align	4
110:
	movzbl	(%r9,%r11), %ecx
	testb	%cl, %cl
	je	89b
	cmpb	(%r12,%r11), %cl
	jne	115f
	incq	%r11
	cmpq	%r11, %rdx
	jne	110b
111:
	movq	56(%rsp), %rcx
	cmpq	%rcx, %rdi
	jbe	177f
	movq	%rcx, %rdi
	cmpb	$0, (%r9,%rdx)
	je	113f
	movq	%rdx, %r11
112:
	incq	%r11
	addq	%r15, %r11
	movq	$-1, %r15
	cmovaeq	%r11, %r15
	movl	$0, 248(%rsp)
	jmp	114f
113:
	incq	%rdx
	addq	%r15, %rdx
	movq	$-1, %r15
	cmovaeq	%rdx, %r15
	movb	$1, %cl
	movl	%ecx, 248(%rsp)
114:
	movq	80(%rsp), %r11
	movq	%r8, %rdx
	jmp	91b
115:
	jb	89b
	movq	56(%rsp), %rdi
	jmp	112b
116:
	movb	$3, %r8b
117:
	movq	48(%rsp), %r10
	movq	%r14, 152(%rsp)
	movq	%r15, 160(%rsp)
118:
	pxor	%xmm3, %xmm3
119:
	movq	208(%rsp), %r13
120:
	leaq	104(%rsp), %r14
	movb	$1, %r9b
121:
	movzbl	39(%rsp), %edi
	jmp	21b
122:
	movq	%r14, 152(%rsp)
	movq	%r15, 160(%rsp)
	testb	$1, 248(%rsp)
	je	140f
	cmpq	296(%rsp), %rdx
	movq	48(%rsp), %r10
	movb	$3, %r8b
	movb	$1, %r9b
	movq	200(%rsp), %rbx
	movzbl	39(%rsp), %edi
	jae	142f
	movzwl	56(%rsp), %eax
	leal	67108865(,%rax,2), %eax
	movl	%eax, 216(%rsp)
	jmp	247f
123:
	movdqu	(%rbx), %xmm1
	pcmpeqb	%xmm0, %xmm1
	pmovmskb	%xmm1, %ecx
	movl	$64, %eax
	movl	$64, %r14d
	rep		bsfq	%rcx, %r14
	cmpq	$16, %r14
	jb	124f
	movdqu	16(%rbx), %xmm1
	pcmpeqb	%xmm0, %xmm1
	pmovmskb	%xmm1, %ecx
	rep		bsfq	%rcx, %rax
	cmpq	$15, %rax
	ja	48b
	orq	$16, %rax
	movq	%rax, %r14
124:
	leaq	1(%r14), %rax
	addq	64(%rsp), %rax
	movq	$-1, %rbp
	cmovaeq	%rax, %rbp
125:
	cmpb	$1, %r11b
	setne	%al
	testq	%r15, %r15
	sete	%cl
	orb	%al, %cl
	movl	$1, %r15d
	jne	126f
	movq	%r12, %rdi
	callq	rattle_dealloc@PLT
	movdqa	80(%rsp), %xmm6
126:
	xorl	%r13d, %r13d
	xorl	%r8d, %r8d
	movq	%rbx, 40(%rsp)
	xorl	%r12d, %r12d
	jmp	426f
127:
	movq	64(%rsp), %rbp
	jmp	359f
128:
	movq	$0, 40(%rsp)
	jmp	359f
129:
	cmpq	224(%rsp), %r14
	movq	48(%rsp), %r10
	movb	$3, %r8b
	movb	$1, %r9b
	jae	183f
	movq	168(%rsp), %rcx
	cmpq	$2, %rcx
	jb	240f
	addq	$-2, %rcx
	movq	%rcx, 168(%rsp)
	addq	$3, %rax
	movq	$-1, %rbx
	cmovaeq	%rax, %rbx
	jmp	183f
130:
	cmpq	%r13, %rbx
	jne	154f
	cmpl	%ecx, %edx
	jae	132f
131:
	movq	%r13, %rcx
	shrq	%rcx
	subq	%rcx, %r13
	leaq	(%r14,%r13,8), %rdx
	movq	%r14, %rdi
	xorl	%esi, %esi
	callq	"core::slice::edits::mirror::<14'(,)::<i32,i32>>"
	movdqa	80(%rsp), %xmm6
	movq	48(%rsp), %r10
132:
	movzbl	96(%rsp), %r11d
	movq	104(%rsp), %r12
	movq	136(%rsp), %rax
	movq	112(%rsp), %rbx
	movq	%rbp, %r14
133:
	testb	%r11b, %r11b
	cmoveq	%r14, %r12
	cmoveq	%rax, %rbx
	testq	%rbx, %rbx
	je	134f
	movl	(%r12), %eax
	cmpq	$4, %rbx
	jae	135f
	xorl	%r15d, %r15d
	xorl	%ecx, %ecx
	jmp	384f
134:
	pxor	%xmm0, %xmm0
	movdqa	%xmm0, 272(%rsp)
	movdqa	%xmm0, 256(%rsp)
	xorl	%r15d, %r15d
	xorl	%edi, %edi
	xorl	%edx, %edx
	jmp	391f
135:
	movq	%rbx, %rcx
	andq	$-4, %rcx
	movd	%eax, %xmm0
	pshufd	$0, %xmm0, %xmm1
	pxor	%xmm0, %xmm0
	xorl	%edx, %edx
	pxor	%xmm2, %xmm2
	.p2align	4
136:
	movd	(%r12,%rdx,8), %xmm3
	pinsrd	$1, 8(%r12,%rdx,8), %xmm3
	movd	16(%r12,%rdx,8), %xmm4
	pinsrd	$1, 24(%r12,%rdx,8), %xmm4
	pcmpeqd	%xmm1, %xmm3
	pmovzxdq	%xmm3, %xmm3
	movdqa	5b(%rip), %xmm5
	pand	%xmm5, %xmm3
	paddq	%xmm3, %xmm2
	pcmpeqd	%xmm1, %xmm4
	pmovzxdq	%xmm4, %xmm3
	pand	%xmm5, %xmm3
	paddq	%xmm3, %xmm0
	addq	$4, %rdx
	cmpq	%rdx, %rcx
	jne	136b
	paddq	%xmm2, %xmm0
	pshufd	$238, %xmm0, %xmm1
	paddq	%xmm0, %xmm1
	movq	%xmm1, %r15
	jmp	385f
137:
	addq	64(%rsp), %r13
	movq	$-1, %rax
	cmovaeq	%r13, %rax
	movq	%rax, 64(%rsp)
	cmpq	$256, %rbp
	movb	$4, %r8b
	sbbb	$0, %r8b
	movdqa	80(%rsp), %xmm6
	movq	232(%rsp), %r11
138:
	cmpb	$1, %r11b
	setne	%al
	testq	%r15, %r15
	sete	%cl
	orb	%al, %cl
	movb	$1, %r13b
	jne	139f
	movq	%r12, %rdi
	movq	%r8, %r14
	callq	rattle_dealloc@PLT
	movdqa	80(%rsp), %xmm6
	movq	%r14, %r8
139:
	xorl	%r14d, %r14d
	xorl	%r12d, %r12d
	xorl	%r15d, %r15d
	movq	64(%rsp), %rbp
	jmp	426f
140:
	cmpq	296(%rsp), %rdx
	movq	48(%rsp), %r10
	movb	$3, %r8b
	movb	$1, %r9b
	movq	200(%rsp), %rbx
	movzbl	39(%rsp), %edi
	jae	142f
	movq	168(%rsp), %rcx
	testq	%rcx, %rcx
	je	287f
	decq	%rcx
	movq	%rcx, 168(%rsp)
	addq	$2, %rax
	movq	$-1, %r14
	cmovaeq	%rax, %r14
141:
	movq	%r14, 152(%rsp)
142:
	incq	%r14
	movq	$-1, %rax
	cmovneq	%r14, %rax
	movq	304(%rsp), %rdx
	cmpq	%rdx, 8(%r10)
	movq	%rax, 152(%rsp)
	movq	208(%rsp), %r15
	jae	143f
	movq	%r13, 40(%rsp)
	pxor	%xmm3, %xmm3
	leaq	104(%rsp), %r14
	jmp	144f
143:
	movq	%rax, %r9
	movq	(%r10), %rax
	movq	8(%r10), %rsi
	movq	%rax, 216(%rsp)
	movl	(%rax,%r13), %eax
	movl	%eax, %ecx
	bswapl	%ecx
	movq	%rcx, 296(%rsp)
	leaq	(%rcx,%rcx,2), %rcx
	leaq	(%rdx,%rcx,4), %rcx
	movq	%rsi, 56(%rsp)
	cmpq	%rcx, %rsi
	leaq	104(%rsp), %r14
	jae	145f
	movq	%r13, 40(%rsp)
	pxor	%xmm3, %xmm3
144:
	movq	%r15, %r13
	movb	$1, %r9b
	jmp	21b
145:
	testl	%eax, %eax
	je	178f
	movq	160(%rsp), %r13
	pxor	%xmm0, %xmm0
	movdqa	%xmm0, 320(%rsp)
	cmpq	$15, %rbp
	movq	%r9, %r15
	movq	%rbx, 200(%rsp)
	ja	207f
	leaq	320(%rsp), %rdi
	movq	64(%rsp), %rsi
	movq	%rbp, %rdx
	callq	memcpy@PLT
	movq	80(%rsp), %r11
	jmp	208f
146:
	cmpq	$0, 272(%rsp)
	leaq	104(%rsp), %r14
	je	147f
	movq	256(%rsp), %rdi
	callq	rattle_dealloc@PLT
147:
	movups	152(%rsp), %xmm6
	movups	64(%r14), %xmm0
	movaps	%xmm0, 432(%rsp)
	xorps	%xmm3, %xmm3
	movb	$7, %r8b
	movzbl	96(%rsp), %esi
	movq	$0, 40(%rsp)
	movq	208(%rsp), %r13
	movq	112(%rsp), %rdi
	testb	%sil, %sil
	jne	23b
148:
	cmpb	$1, %dil
	jne	150f
	cmpq	$0, 136(%rsp)
	je	150f
	movq	120(%rsp), %rdi
149:
	movq	%r8, %r14
	movdqa	%xmm6, 80(%rsp)
	movdqa	%xmm3, 64(%rsp)
	callq	rattle_dealloc@PLT
	movdqa	64(%rsp), %xmm3
	movdqa	80(%rsp), %xmm6
	movq	%r14, %r8
150:
	movl	$1, %eax
	xorl	%r14d, %r14d
	xorl	%r12d, %r12d
	xorl	%r15d, %r15d
	jmp	427f
151:
	movdqu	(%r13), %xmm1
	pcmpeqb	%xmm0, %xmm1
	pmovmskb	%xmm1, %ecx
	movl	$64, %eax
	movl	$64, %r14d
	rep		bsfq	%rcx, %r14
	cmpq	$16, %r14
	jb	152f
	movdqu	16(%r13), %xmm1
	pcmpeqb	%xmm0, %xmm1
	pmovmskb	%xmm1, %ecx
	rep		bsfq	%rcx, %rax
	cmpq	$15, %rax
	ja	36b
	orq	$16, %rax
	movq	%rax, %r14
152:
	leaq	1(%r14), %rax
	addq	64(%rsp), %rax
	movq	$-1, %rbp
	cmovaeq	%rax, %rbp
153:
	xorl	%r12d, %r12d
	xorl	%r8d, %r8d
	movq	%r13, 40(%rsp)
	xorl	%r13d, %r13d
	jmp	360f
154:
	movl	%edx, 56(%rsp)
	movl	%ecx, 40(%rsp)
	leaq	(,%r13,8), %rdi
	testq	%rdi, %rdi
	js	180f
	movl	$4, %esi
	movq	%r11, 232(%rsp)
	callq	rattle_alloc@PLT
	movq	232(%rsp), %r11
	movdqa	80(%rsp), %xmm6
	xorl	%r9d, %r9d
	testb	$1, %al
	cmovneq	%rdx, %r9
	je	180f
	movq	%rdx, 416(%rsp)
	movq	%r13, 424(%rsp)
	cmpq	$65, %r13
	setae	%cl
	movq	%r13, %rax
	shrq	%rax
	cmpq	%rax, %rbx
	setae	%dl
	orb	%cl, %dl
	movq	%r9, 192(%rsp)
	jne	294f
	bsrq	%r13, %rcx
	xorl	$63, %ecx
	addl	%ecx, %ecx
	xorl	$126, %ecx
	leaq	416(%rsp), %r8
	movq	%r14, %rdi
	movq	%r13, %rsi
	movq	%r13, %rdx
	jmp	382f
155:
	movq	112(%rsp), %rax
	movq	120(%rsp), %rcx
	shlq	$32, %rsi
	movl	%ebx, %edx
	orq	%rsi, %rdx
	movq	%rdx, (%rax,%rcx,8)
	incq	%rcx
	movq	%rcx, 120(%rsp)
156:
	incq	%r14
	cmpq	224(%rsp), %r14
	je	319f
157:
	movq	168(%rsp), %rcx
	cmpq	$2, %rcx
	jb	298f
	leaq	(%r14,%r14,2), %rax
	addq	$-2, %rcx
	movq	152(%rsp), %rdx
	movq	%rcx, 168(%rsp)
	addq	$2, %rdx
	movq	$-1, %rbx
	cmovaeq	%rdx, %rbx
	movq	%rbx, 152(%rsp)
	movq	(%r10), %rcx
	movq	8(%r10), %rsi
	movq	216(%rsp), %rdx
	leaq	(%rcx,%rdx), %rdi
	movl	(%rdi,%rax,4), %r13d
	bswapl	%r13d
	pxor	%xmm3, %xmm3
	movq	%rsi, %rdx
	subq	%r13, %rdx
	jbe	299f
	movq	%rsi, %r15
	movl	4(%rdi,%rax,4), %esi
	movl	8(%rdi,%rax,4), %eax
	addq	%r13, %rcx
	testq	%r11, %r11
	je	162f
	movzbl	(%rcx), %edi
	cmpb	(%r12), %dil
	jne	158f
	cmpq	$8, %r11
	jb	162f
	cmpq	$33, %rdx
	jb	162f
	cmpq	$15, %r11
	ja	160f
	movq	(%rcx), %xmm2
	movq	(%r12), %xmm3
	pcmpeqb	%xmm2, %xmm3
	pcmpeqd	%xmm1, %xmm1
	pxor	%xmm1, %xmm3
	pxor	%xmm0, %xmm0
	pcmpeqb	%xmm0, %xmm2
	por	%xmm3, %xmm2
	pmovmskb	%xmm2, %edx
	orl	$256, %edx
	rep		bsfl	%edx, %edx
	cmpb	$8, %dl
	jb	159f
	movq	248(%rsp), %rdi
	movq	(%rcx,%rdi), %xmm2
	movq	(%r12,%rdi), %xmm3
	pcmpeqb	%xmm2, %xmm3
	pxor	%xmm1, %xmm3
	pcmpeqb	%xmm2, %xmm0
	por	%xmm3, %xmm0
	pmovmskb	%xmm0, %edx
	orl	$256, %edx
	jmp	161f
158:
	xorl	%edx, %edx
159:
	leaq	1(%rdx), %rdi
	addq	160(%rsp), %rdi
	movq	$-1, %r8
	cmovaeq	%rdi, %r8
	movq	%r8, 160(%rsp)
	cmpq	%r11, %rdx
	jne	361f
	cmpb	$0, (%rcx,%rdx)
	movb	$3, %r8b
	jmp	168f
160:
	cmpq	$32, %r11
	ja	162f
	movdqu	(%rcx), %xmm2
	movdqu	(%r12), %xmm3
	pcmpeqb	%xmm2, %xmm3
	pcmpeqd	%xmm1, %xmm1
	pxor	%xmm1, %xmm3
	pxor	%xmm0, %xmm0
	pcmpeqb	%xmm0, %xmm2
	por	%xmm3, %xmm2
	pmovmskb	%xmm2, %edx
	orl	$65536, %edx
	rep		bsfl	%edx, %edx
	cmpw	$16, %dx
	jb	159b
	movq	312(%rsp), %rdi
	movdqu	(%rcx,%rdi), %xmm2
	movdqu	(%r12,%rdi), %xmm3
	pcmpeqb	%xmm2, %xmm3
	pxor	%xmm1, %xmm3
	pcmpeqb	%xmm2, %xmm0
	por	%xmm3, %xmm0
	pmovmskb	%xmm0, %edx
	orl	$65536, %edx
161:
	rep		bsfl	%edx, %edx
	addq	%rdi, %rdx
	jmp	159b
162:
	cmpq	$256, %rdx
	movl	$256, %r8d
	cmovbq	%rdx, %r8
	cmpq	%r8, %r11
	movq	%r8, %rdi
	cmovbq	%r11, %rdi
	xorl	%r9d, %r9d
163:
	movq	%rdi, %r10
	subq	%r9, %r10
	cmpq	$16, %r10
	jb	164f
	movdqu	(%rcx,%r9), %xmm0
	movdqu	(%r12,%r9), %xmm1
	pcmpeqb	%xmm0, %xmm1
	pcmpeqd	%xmm2, %xmm2
	pxor	%xmm1, %xmm2
	pxor	%xmm1, %xmm1
	pcmpeqb	%xmm0, %xmm1
	por	%xmm2, %xmm1
	pmovmskb	%xmm1, %r10d
	orl	$65536, %r10d
	rep		bsfl	%r10d, %r10d
	addq	%r10, %r9
	cmpw	$15, %r10w
	ja	163b
	movq	%rdi, %r10
	subq	%r9, %r10
164:
	cmpq	$8, %r10
	jb	165f
	movl	%r9d, %r10d
	andl	$15, %r10d
	jne	165f
	movq	(%rcx,%r9), %xmm0
	movq	(%r12,%r9), %xmm1
	pcmpeqb	%xmm0, %xmm1
	pcmpeqd	%xmm2, %xmm2
	pxor	%xmm1, %xmm2
	pxor	%xmm1, %xmm1
	pcmpeqb	%xmm0, %xmm1
	por	%xmm2, %xmm1
	pmovmskb	%xmm1, %r10d
	orl	$256, %r10d
	rep		bsfl	%r10d, %r10d
	orq	%r10, %r9
165:
	cmpq	%rdi, %r9
	jae	167f
	incq	%r9
	movq	%rdi, %r10
	negq	%r10
166:
	movzbl	-1(%rcx,%r9), %r11d
	testb	%r11b, %r11b
	je	181f
	cmpb	-1(%r12,%r9), %r11b
	jne	181f
	leaq	(%r10,%r9), %r11
	incq	%r11
	incq	%r9
	cmpq	$1, %r11
	jne	166b
167:
	movq	80(%rsp), %r11
	cmpq	%r11, %r8
	movq	48(%rsp), %r10
	jbe	352f
	leaq	1(%rdi), %rdx
	addq	160(%rsp), %rdx
	movq	$-1, %r8
	cmovaeq	%rdx, %r8
	cmpb	$0, (%rcx,%rdi)
	movq	%r8, 160(%rsp)
	movb	$3, %r8b
	movb	$1, %r9b
168:
	movq	%r15, %rdi
	jne	183f
	bswapl	%esi
	bswapl	%eax
	movzbl	%al, %ecx
	shll	$17, %ecx
	orl	%ebp, %ecx
	shrl	$8, %eax
	andl	$1, %eax
	leal	(%rax,%rcx), %ebx
	addl	$67108864, %ebx
	cmpb	$0, 96(%rsp)
	je	170f
	movzbl	104(%rsp), %eax
	testb	%al, %al
	leaq	144(%rsp), %rcx
	movl	$4, %edx
	cmovneq	128(%rsp), %rdx
	leaq	120(%rsp), %rdi
	cmovneq	%rdi, %rcx
	cmpq	%rdx, (%rcx)
	je	171f
	testb	%al, %al
	jne	155b
169:
	movq	144(%rsp), %rax
	shlq	$32, %rsi
	movl	%ebx, %ecx
	orq	%rsi, %rcx
	movq	%rcx, 112(%rsp,%rax,8)
	incq	%rax
	movq	%rax, 144(%rsp)
	jmp	156b
170:
	movl	104(%rsp), %eax
	cmpl	%eax, %ebx
	jb	156b
	jbe	174f
	cmpb	$0, 112(%rsp)
	je	172f
	cmpq	$0, 128(%rsp)
	je	173f
	movq	$0, 128(%rsp)
	jmp	173f
171:
	movq	%rsi, %r15
	leaq	104(%rsp), %rdi
	callq	"smallvec::small_vec::SmallVec::reserve_one::<#c56eefbaea896dc3>"
	testb	%al, %al
	jne	362f
	movzbl	104(%rsp), %eax
	movq	%r15, %rsi
	movq	48(%rsp), %r10
	movb	$3, %r8b
	movb	$1, %r9b
	movq	80(%rsp), %r11
	testb	%al, %al
	jne	155b
	jmp	169b
172:
	movq	136(%rsp), %rdx
	testq	%rdx, %rdx
	je	173f
	shlq	$2, %rdx
	leaq	120(%rsp), %rdi
	movq	%rsi, %r15
	xorl	%esi, %esi
	callq	memset@PLT
	movq	%r15, %rsi
	movq	$0, 136(%rsp)
173:
	movl	$0, 104(%rsp)
174:
	leaq	112(%rsp), %rdi
	callq	"smallvec::small_vec::SmallVec::push::<#bc37e6e66b18402c>"
	testb	%al, %al
	jne	362f
	movl	%ebx, 104(%rsp)
	movq	48(%rsp), %r10
	movb	$3, %r8b
	movb	$1, %r9b
	movq	80(%rsp), %r11
	jmp	156b
175:
	addq	%rbp, %rdx
	movq	$-1, %rbp
	cmovaeq	%rdx, %rbp
	cmpq	$256, %r10
	movb	$4, %r8b
	sbbb	$0, %r8b
	jmp	81b
176:
	addq	64(%rsp), %r12
	movq	$-1, %rax
	cmovaeq	%r12, %rax
	cmpq	$256, %rbp
	movq	%rax, %rbp
	movb	$4, %r8b
	sbbb	$0, %r8b
	jmp	358f
177:
	addq	%r15, %rdx
	movq	$-1, %r15
	cmovaeq	%rdx, %r15
	cmpq	$256, %r10
	movb	$4, %r8b
	sbbb	$0, %r8b
	jmp	117b
178:
	movq	%r9, %r15
	movq	%r9, 152(%rsp)
	movb	$1, %r9b
179:
	movq	8(%r10), %rax
	subq	%rbx, %rax
	setb	%cl
	cmpq	$8, %rax
	setb	%dl
	orb	%cl, %dl
	incq	%r15
	movq	$-1, %rax
	cmovneq	%r15, %rax
	movq	%rax, 152(%rsp)
	testb	%dl, %dl
	je	235f
	movq	%rbx, 40(%rsp)
	pxor	%xmm3, %xmm3
	jmp	290f
180:
	cmpb	$1, %r11b
	setne	%al
	testq	%r15, %r15
	sete	%cl
	orb	%al, %cl
	movb	$7, %r8b
	movb	$1, %r13b
	je	267f
	movq	$0, 40(%rsp)
	jmp	139b
181:
	addq	160(%rsp), %r9
	movq	$-1, %rax
	cmovaeq	%r9, %rax
	movq	%rax, 160(%rsp)
	movq	48(%rsp), %r10
	movb	$3, %r8b
	movb	$1, %r9b
	movq	80(%rsp), %r11
182:
	movq	%r15, %rdi
183:
	movq	%rdi, %rax
	movq	200(%rsp), %r13
	subq	%r13, %rax
	setb	%cl
	cmpq	$8, %rax
	setb	%al
	orb	%cl, %al
	incq	%rbx
	movq	$-1, %rcx
	cmovneq	%rbx, %rcx
	movq	%rcx, 152(%rsp)
	testb	%al, %al
	je	185f
184:
	pxor	%xmm3, %xmm3
	leaq	104(%rsp), %r14
	jmp	16b
185:
	testq	%r11, %r11
	leaq	104(%rsp), %r14
	je	205f
	cmpb	$0, -1(%r12,%r11)
	je	205f
	movq	(%r10), %rax
	movq	200(%rsp), %rdx
	movl	(%rax,%rdx), %ecx
	movl	4(%rax,%rdx), %eax
	shlq	$32, %rcx
	orq	%rax, %rcx
	bswapq	%rcx
	movq	%rcx, %r13
	shrq	$32, %r13
	movl	$4294967295, %r15d
	andq	%rcx, %r15
	je	186f
	leaq	(%r15,%r15,2), %rax
	leaq	(,%rax,4), %rax
	addq	%r13, %rax
	cmpq	%rax, %rdi
	jb	15b
186:
	addq	%r11, %r12
	xorl	%ebx, %ebx
	jmp	188f
187:
	movq	64(%rsp), %rbx
	incq	%rbx
	cmpq	%r11, %rbx
	leaq	104(%rsp), %r14
	movq	40(%rsp), %r15
	je	205f
188:
	movq	%rbx, %rax
	notq	%rax
	movzbl	(%r12,%rax), %eax
	testl	%eax, %eax
	je	205f
	movq	152(%rsp), %rcx
	testq	%r15, %r15
	je	191f
	movq	(%r10), %rsi
	addq	%r13, %rsi
	xorl	%edx, %edx
	movq	%r15, %rdi
	jmp	190f
	.p2align	4
189:
	movq	%r8, %rdi
	cmpq	%rdi, %rdx
	jae	192f
190:
	leaq	(%rdi,%rdx), %r8
	shrq	%r8
	movq	%rcx, %r9
	incq	%r9
	movq	$-1, %rcx
	cmovneq	%r9, %rcx
	leaq	(%r8,%r8,2), %r9
	movl	(%rsi,%r9,4), %r9d
	bswapl	%r9d
	cmpl	%eax, %r9d
	jae	189b
	incq	%r8
	movq	%r8, %rdx
	cmpq	%rdi, %rdx
	jb	190b
	jmp	192f
191:
	xorl	%edx, %edx
192:
	movq	%rcx, 152(%rsp)
	cmpq	%r15, %rdx
	movb	$3, %r8b
	movb	$1, %r9b
	je	205f
	shlq	$2, %rdx
	incq	%rcx
	movq	$-1, %rsi
	cmovneq	%rcx, %rsi
	movq	%rsi, 152(%rsp)
	addq	(%r10), %r13
	leaq	(%rdx,%rdx,2), %rcx
	movl	(%r13,%rcx), %edx
	bswapl	%edx
	cmpl	%eax, %edx
	jne	205f
	movq	%rbx, 64(%rsp)
	movl	4(%r13,%rcx), %eax
	movl	8(%r13,%rcx), %r13d
	bswapl	%r13d
	testl	%eax, %eax
	bswapl	%eax
	movq	%rax, 40(%rsp)
	je	187b
	movq	40(%rsp), %r14
	leaq	(%r14,%r14,2), %rax
	leaq	(,%rax,4), %rax
	addq	%r13, %rax
	cmpq	%rax, 8(%r10)
	jb	184b
	movq	64(%rsp), %rax
	leal	4(,%rax,2), %edi
	andl	$131070, %edi
	leaq	8(%r13), %r15
	jmp	195f
193:
	movq	112(%rsp), %rax
	movq	120(%rsp), %rcx
	shlq	$32, %rbx
	movl	%ebp, %edx
	orq	%rbx, %rdx
	movq	%rdx, (%rax,%rcx,8)
	incq	%rcx
	movq	%rcx, 120(%rsp)
194:
	addq	$12, %r15
	decq	%r14
	je	187b
195:
	movq	168(%rsp), %rax
	cmpq	$2, %rax
	jb	206f
	addq	$-2, %rax
	movq	152(%rsp), %rcx
	movq	%rax, 168(%rsp)
	addq	$2, %rcx
	movq	$-1, %rax
	cmovaeq	%rcx, %rax
	movq	%rax, 152(%rsp)
	movq	(%r10), %rax
	cmpl	$0, -8(%rax,%r15)
	jne	187b
	movl	-4(%rax,%r15), %ebx
	bswapl	%ebx
	movl	(%rax,%r15), %eax
	bswapl	%eax
	movzbl	%al, %ecx
	shll	$17, %ecx
	orl	%edi, %ecx
	shrl	$8, %eax
	andl	$1, %eax
	leal	(%rax,%rcx), %ebp
	addl	$33554432, %ebp
	cmpb	$0, 96(%rsp)
	je	197f
	movzbl	104(%rsp), %eax
	testb	%al, %al
	leaq	144(%rsp), %rcx
	movl	$4, %edx
	cmovneq	128(%rsp), %rdx
	leaq	120(%rsp), %rsi
	cmovneq	%rsi, %rcx
	cmpq	%rdx, (%rcx)
	je	198f
	testb	%al, %al
	jne	193b
196:
	movq	144(%rsp), %rax
	shlq	$32, %rbx
	movl	%ebp, %ecx
	orq	%rbx, %rcx
	movq	%rcx, 112(%rsp,%rax,8)
	incq	%rax
	movq	%rax, 144(%rsp)
	jmp	194b
197:
	movl	104(%rsp), %eax
	cmpl	%eax, %ebp
	jb	194b
	movzbl	112(%rsp), %esi
	jbe	201f
	testb	%sil, %sil
	je	199f
	cmpq	$0, 128(%rsp)
	je	200f
	movq	$0, 128(%rsp)
	jmp	200f
198:
	movl	%edi, 56(%rsp)
	leaq	104(%rsp), %rdi
	callq	"smallvec::small_vec::SmallVec::reserve_one::<#c56eefbaea896dc3>"
	testb	%al, %al
	jne	355f
	movzbl	104(%rsp), %eax
	movq	48(%rsp), %r10
	movb	$1, %r9b
	movq	80(%rsp), %r11
	movl	56(%rsp), %edi
	testb	%al, %al
	jne	193b
	jmp	196b
199:
	movq	136(%rsp), %rdx
	testq	%rdx, %rdx
	je	200f
	shlq	$2, %rdx
	movl	%edi, 56(%rsp)
	leaq	120(%rsp), %rdi
	movb	%sil, 192(%rsp)
	xorl	%esi, %esi
	callq	memset@PLT
	movzbl	192(%rsp), %esi
	movl	56(%rsp), %edi
	movq	80(%rsp), %r11
	movb	$1, %r9b
	movq	48(%rsp), %r10
	movq	$0, 136(%rsp)
200:
	movl	$0, 104(%rsp)
201:
	testb	%sil, %sil
	movq	136(%rsp), %rax
	movq	128(%rsp), %rcx
	cmoveq	%rax, %rcx
	movl	$4, %edx
	cmovneq	%rax, %rdx
	cmpq	%rdx, %rcx
	je	203f
	testb	%sil, %sil
	je	204f
202:
	movq	120(%rsp), %rax
	movq	128(%rsp), %rcx
	movl	%ebx, (%rax,%rcx,4)
	incq	%rcx
	movq	%rcx, 128(%rsp)
	movl	%ebp, 104(%rsp)
	jmp	194b
203:
	movl	%edi, 56(%rsp)
	leaq	112(%rsp), %rdi
	callq	"smallvec::small_vec::SmallVec::reserve_one::<#bc37e6e66b18402c>"
	testb	%al, %al
	jne	355f
	movzbl	112(%rsp), %esi
	movq	48(%rsp), %r10
	movb	$1, %r9b
	movq	80(%rsp), %r11
	movl	56(%rsp), %edi
	testb	%sil, %sil
	jne	202b
204:
	movq	136(%rsp), %rax
	movl	%ebx, 120(%rsp,%rax,4)
	incq	%rax
	movq	%rax, 136(%rsp)
	movl	%ebp, 104(%rsp)
	jmp	194b
205:
	leaq	352(%rsp), %rdi
	leaq	464(%rsp), %rsi
	leaq	96(%rsp), %rcx
	movl	232(%rsp), %edx
	callq	"mime_view::globs::glob_list_hits"
	movq	48(%rsp), %r10
	movzbl	352(%rsp), %r9d
	movzbl	360(%rsp), %r8d
	movd	362(%rsp), %xmm3
	movq	368(%rsp), %r13
	jmp	16b
206:
	addq	152(%rsp), %rax
	movq	$-1, %rcx
	cmovaeq	%rax, %rcx
	movq	$0, 168(%rsp)
	movq	%rcx, 152(%rsp)
	movb	$5, %r8b
	xorl	%r13d, %r13d
	jmp	184b
207:
	movq	64(%rsp), %rax
	movdqu	(%rax), %xmm0
	movdqa	%xmm0, 320(%rsp)
208:
	movq	304(%rsp), %rax
	movdqa	320(%rsp), %xmm0
	movdqu	%xmm0, 272(%rsp)
	movq	216(%rsp), %rdi
	addq	%rdi, %rax
	movq	%rax, 192(%rsp)
	movzbl	272(%rsp), %eax
	movb	%al, 312(%rsp)
	xorl	%r14d, %r14d
	movq	296(%rsp), %r8
	movl	$0, 224(%rsp)
	jmp	212f
209:
	incq	%r11
	addq	%r13, %r11
	movq	$-1, %r13
	cmovaeq	%r11, %r13
	movq	80(%rsp), %r11
	movq	%r14, %r15
	movq	216(%rsp), %rdi
210:
	incq	%rsi
	movq	%rsi, %r14
211:
	cmpq	%r8, %r14
	jae	239f
212:
	movq	%r15, %rax
	leaq	(%r8,%r14), %rsi
	shrq	%rsi
	leaq	(%rsi,%rsi,2), %rcx
	movq	%r15, %rdx
	incq	%rdx
	movq	$-1, %r15
	cmovneq	%rdx, %r15
	movq	192(%rsp), %rdx
	movl	(%rdx,%rcx,4), %edx
	bswapl	%edx
	movq	56(%rsp), %r10
	movq	%rdx, 40(%rsp)
	subq	%rdx, %r10
	jbe	237f
	movq	40(%rsp), %rcx
	leaq	(%rdi,%rcx), %r9
	cmpq	$16, %r10
	jae	214f
213:
	testq	%rbp, %rbp
	je	226f
	movzbl	(%r9), %ecx
	movq	64(%rsp), %rdx
	cmpb	(%rdx), %cl
	jne	217f
	cmpq	$8, %rbp
	jb	226f
	cmpq	$33, %r10
	jb	226f
	cmpq	$15, %rbp
	ja	224f
	movq	(%r9), %xmm3
	movq	64(%rsp), %rdx
	movq	(%rdx), %xmm4
	pcmpeqb	%xmm3, %xmm4
	pcmpeqd	%xmm2, %xmm2
	pxor	%xmm2, %xmm4
	pxor	%xmm1, %xmm1
	pcmpeqb	%xmm1, %xmm3
	por	%xmm4, %xmm3
	pmovmskb	%xmm3, %ecx
	orl	$256, %ecx
	rep		bsfl	%ecx, %ecx
	cmpb	$8, %cl
	jb	218f
	leaq	-8(%rbp), %rdi
	movq	(%r9,%rdi), %xmm3
	movq	(%rdx,%rdi), %xmm4
	pcmpeqb	%xmm3, %xmm4
	pxor	%xmm2, %xmm4
	pcmpeqb	%xmm3, %xmm1
	por	%xmm4, %xmm1
	pmovmskb	%xmm1, %ecx
	orl	$256, %ecx
	jmp	225f
214:
	movzbl	(%r9), %ecx
	cmpb	312(%rsp), %cl
	jne	215f
	movdqu	(%r9), %xmm1
	pxor	%xmm2, %xmm2
	pcmpeqb	%xmm1, %xmm2
	pcmpeqb	%xmm0, %xmm1
	pcmpeqd	%xmm3, %xmm3
	pxor	%xmm1, %xmm3
	por	%xmm3, %xmm2
	pmovmskb	%xmm2, %ecx
	testl	%ecx, %ecx
	je	213b
	rep		bsfl	%ecx, %r10d
	movzbl	(%r9,%r10), %ecx
	jmp	216f
215:
	xorl	%r10d, %r10d
216:
	movzbl	272(%rsp,%r10), %edx
	leaq	1(%r10), %r9
	addq	%r13, %r9
	movq	$-1, %r13
	cmovaeq	%r9, %r13
	cmpb	%dl, %cl
	jne	222f
	cmpq	%rbp, %r10
	jne	221f
	testb	%cl, %cl
	jne	223f
	jmp	219f
217:
	xorl	%ecx, %ecx
218:
	leaq	1(%rcx), %rdx
	addq	%r13, %rdx
	movq	$-1, %r13
	cmovaeq	%rdx, %r13
	movzbl	(%r9,%rcx), %edx
	cmpq	%rbp, %rcx
	jne	220f
	testb	%dl, %dl
	jne	223f
219:
	movb	$1, %cl
	movl	%ecx, 224(%rsp)
	movq	%rsi, %r8
	jmp	211b
220:
	testb	%dl, %dl
	je	210b
	movq	64(%rsp), %r9
	cmpb	(%r9,%rcx), %dl
	jb	210b
	jmp	223f
221:
	testb	%cl, %cl
	je	210b
	movq	64(%rsp), %rdx
	cmpb	(%rdx,%r10), %cl
222:
	jb	210b
223:
	movl	$0, 224(%rsp)
	movq	%rsi, %r8
	jmp	211b
224:
	cmpq	$32, %rbp
	ja	226f
	movdqu	(%r9), %xmm3
	movq	64(%rsp), %rdx
	movdqu	(%rdx), %xmm4
	pcmpeqb	%xmm3, %xmm4
	pcmpeqd	%xmm2, %xmm2
	pxor	%xmm2, %xmm4
	pxor	%xmm1, %xmm1
	pcmpeqb	%xmm1, %xmm3
	por	%xmm4, %xmm3
	pmovmskb	%xmm3, %ecx
	orl	$65536, %ecx
	rep		bsfl	%ecx, %ecx
	cmpw	$16, %cx
	jb	218b
	leaq	-16(%rbp), %rdi
	movdqu	(%r9,%rdi), %xmm3
	movdqu	(%rdx,%rdi), %xmm4
	pcmpeqb	%xmm3, %xmm4
	pxor	%xmm2, %xmm4
	pcmpeqb	%xmm3, %xmm1
	por	%xmm4, %xmm1
	pmovmskb	%xmm1, %ecx
	orl	$65536, %ecx
225:
	rep		bsfl	%ecx, %ecx
	addq	%rdi, %rcx
	movq	216(%rsp), %rdi
	jmp	218b
226:
	movq	%r14, 248(%rsp)
	movq	%r15, %r14
	cmpq	$256, %r10
	movl	$256, %edx
	cmovbq	%r10, %rdx
	cmpq	%rdx, %rbp
	movq	%rdx, %rcx
	cmovbq	%rbp, %rcx
	xorl	%r11d, %r11d
	.p2align	4
227:
	movq	%rcx, %r15
	subq	%r11, %r15
	cmpq	$16, %r15
	jb	228f
	movdqu	(%r9,%r11), %xmm1
	movq	64(%rsp), %r15
	movdqu	(%r15,%r11), %xmm2
	pcmpeqb	%xmm1, %xmm2
	pcmpeqd	%xmm3, %xmm3
	pxor	%xmm2, %xmm3
	pxor	%xmm2, %xmm2
	pcmpeqb	%xmm1, %xmm2
	por	%xmm3, %xmm2
	pmovmskb	%xmm2, %r15d
	orl	$65536, %r15d
	rep		bsfl	%r15d, %r15d
	addq	%r15, %r11
	cmpw	$15, %r15w
	ja	227b
	movq	%rcx, %r15
	subq	%r11, %r15
228:
	cmpq	$8, %r15
	jb	229f
	movl	%r11d, %r15d
	andl	$15, %r15d
	jne	229f
	movq	(%r9,%r11), %xmm1
	movq	64(%rsp), %r15
	movq	(%r15,%r11), %xmm2
	pcmpeqb	%xmm1, %xmm2
	pcmpeqd	%xmm3, %xmm3
	pxor	%xmm2, %xmm3
	pxor	%xmm2, %xmm2
	pcmpeqb	%xmm1, %xmm2
	por	%xmm3, %xmm2
	pmovmskb	%xmm2, %r15d
	orl	$256, %r15d
	rep		bsfl	%r15d, %r15d
	orq	%r15, %r11
229:
	cmpq	%rcx, %r11
	jae	231f
	.p2align	4
230:
	movzbl	(%r9,%r11), %r15d
	testb	%r15b, %r15b
	je	209b
	movq	64(%rsp), %rdi
	cmpb	(%rdi,%r11), %r15b
	jne	234f
	incq	%r11
	cmpq	%r11, %rcx
	jne	230b
231:
	cmpq	%rbp, %rdx
	movq	216(%rsp), %rdi
	jbe	297f
	cmpb	$0, (%r9,%rcx)
	movq	%r14, %r15
	je	233f
	movq	%rcx, %r11
	movq	248(%rsp), %r14
232:
	incq	%r11
	addq	%r13, %r11
	movq	$-1, %r13
	cmovaeq	%r11, %r13
	movl	$0, 224(%rsp)
	movq	%rsi, %r8
	movq	80(%rsp), %r11
	jmp	211b
233:
	incq	%rcx
	addq	%r13, %rcx
	movq	$-1, %r13
	cmovaeq	%rcx, %r13
	movb	$1, %cl
	movl	%ecx, 224(%rsp)
	movq	%rsi, %r8
	movq	80(%rsp), %r11
	movq	248(%rsp), %r14
	jmp	211b
234:
	jb	209b
	movq	%r14, %r15
	movq	248(%rsp), %r14
	movq	216(%rsp), %rdi
	jmp	232b
235:
	testq	%r11, %r11
	movq	208(%rsp), %r13
	leaq	104(%rsp), %r14
	je	324f
	cmpb	$0, -1(%r12,%r11)
	je	324f
	movq	(%r10), %rax
	movl	(%rax,%rbx), %ecx
	movq	%rbx, 200(%rsp)
	movl	4(%rax,%rbx), %eax
	shlq	$32, %rcx
	orq	%rax, %rcx
	bswapq	%rcx
	movq	%rcx, %rax
	shrq	$32, %rax
	movq	%rax, 40(%rsp)
	movl	$4294967295, %edx
	andq	%rcx, %rdx
	je	236f
	leaq	(%rdx,%rdx,2), %rax
	movq	40(%rsp), %rcx
	leaq	(%rcx,%rax,4), %rax
	cmpq	%rax, 8(%r10)
	jb	326f
236:
	movq	%rdx, 56(%rsp)
	addq	%r11, %r12
	xorl	%r15d, %r15d
	jmp	269f
237:
	movb	$3, %r8b
	movq	48(%rsp), %r10
238:
	movq	%r15, 152(%rsp)
	movq	%r13, 160(%rsp)
	jmp	118b
239:
	movq	%r15, 152(%rsp)
	movq	%r13, 160(%rsp)
	testb	$1, 224(%rsp)
	je	293f
	cmpq	296(%rsp), %r14
	movq	48(%rsp), %r10
	movb	$3, %r8b
	movb	$1, %r9b
	movq	200(%rsp), %rbx
	movzbl	39(%rsp), %edi
	jae	179b
	movzwl	%bp, %eax
	leal	67108864(,%rax,2), %eax
	movl	%eax, 56(%rsp)
	jmp	303f
240:
	addq	%rbx, %rcx
241:
	movq	$-1, %rax
	cmovaeq	%rcx, %rax
	movq	$0, 168(%rsp)
	movq	%rax, 152(%rsp)
	pxor	%xmm3, %xmm3
	movb	$5, %r8b
	xorl	%r13d, %r13d
	leaq	104(%rsp), %r14
	jmp	16b
242:
	movb	$3, %r8b
	jmp	292f
243:
	movq	96(%rsp), %rax
	movq	%rax, 40(%rsp)
	movq	112(%rsp), %r12
	movb	$1, %r8b
	xorl	%r13d, %r13d
	jmp	360f
244:
	movq	112(%rsp), %rcx
	movq	120(%rsp), %rdx
	shlq	$32, %r14
	orq	%r14, %rax
	movq	%rax, (%rcx,%rdx,8)
	incq	%rdx
	movq	%rdx, 120(%rsp)
245:
	movq	192(%rsp), %rdx
246:
	incq	%rdx
	cmpq	296(%rsp), %rdx
	movq	%r15, %rbx
	je	322f
247:
	movq	168(%rsp), %rcx
	pxor	%xmm3, %xmm3
	testq	%rcx, %rcx
	je	289f
	movq	%rbx, %r15
	movq	%rdx, 192(%rsp)
	leaq	(%rdx,%rdx,2), %rax
	decq	%rcx
	movq	152(%rsp), %rdx
	incq	%rdx
	movq	$-1, %r14
	cmovneq	%rdx, %r14
	movq	%rcx, 168(%rsp)
	movq	%r14, 152(%rsp)
	movq	(%r10), %rcx
	movq	8(%r10), %rdx
	movq	304(%rsp), %rsi
	addq	%rcx, %rsi
	movl	(%rsi,%rax,4), %ebx
	bswapl	%ebx
	movq	%rbx, 40(%rsp)
	subq	%rbx, %rdx
	jbe	318f
	movl	4(%rsi,%rax,4), %edi
	movq	%rdi, 224(%rsp)
	movl	8(%rsi,%rax,4), %eax
	addq	40(%rsp), %rcx
	movq	56(%rsp), %rdi
	testq	%rdi, %rdi
	je	252f
	movzbl	(%rcx), %esi
	cmpb	(%r12), %sil
	jne	248f
	cmpq	$8, %rdi
	jb	252f
	cmpq	$33, %rdx
	jb	252f
	cmpq	$15, %rdi
	ja	251f
	movq	(%rcx), %xmm2
	movq	(%r12), %xmm3
	pcmpeqb	%xmm2, %xmm3
	pcmpeqd	%xmm1, %xmm1
	pxor	%xmm1, %xmm3
	pxor	%xmm0, %xmm0
	pcmpeqb	%xmm0, %xmm2
	por	%xmm3, %xmm2
	pmovmskb	%xmm2, %edx
	orl	$256, %edx
	rep		bsfl	%edx, %edx
	cmpb	$8, %dl
	jb	249f
	movq	408(%rsp), %rsi
	movq	(%rcx,%rsi), %xmm2
	movq	(%r12,%rsi), %xmm3
	pcmpeqb	%xmm2, %xmm3
	pxor	%xmm1, %xmm3
	pcmpeqb	%xmm2, %xmm0
	por	%xmm3, %xmm0
	pmovmskb	%xmm0, %edx
	orl	$256, %edx
	rep		bsfl	%edx, %edx
	addq	%rsi, %rdx
	jmp	249f
248:
	xorl	%edx, %edx
249:
	movq	%r15, %rbx
250:
	leaq	1(%rdx), %rsi
	addq	160(%rsp), %rsi
	movq	$-1, %rdi
	cmovaeq	%rsi, %rdi
	movq	%rdi, 160(%rsp)
	cmpq	56(%rsp), %rdx
	jne	266f
	cmpb	$0, (%rcx,%rdx)
	jmp	258f
251:
	cmpq	$32, %rdi
	ja	252f
	movdqu	(%rcx), %xmm2
	movdqu	(%r12), %xmm3
	pcmpeqb	%xmm2, %xmm3
	pcmpeqd	%xmm1, %xmm1
	pxor	%xmm1, %xmm3
	pxor	%xmm0, %xmm0
	pcmpeqb	%xmm0, %xmm2
	por	%xmm3, %xmm2
	pmovmskb	%xmm2, %edx
	orl	$65536, %edx
	rep		bsfl	%edx, %edx
	cmpw	$16, %dx
	movq	%r15, %rbx
	jb	250b
	movq	400(%rsp), %rsi
	movdqu	(%rcx,%rsi), %xmm2
	movdqu	(%r12,%rsi), %xmm3
	pcmpeqb	%xmm2, %xmm3
	pxor	%xmm1, %xmm3
	pcmpeqb	%xmm2, %xmm0
	por	%xmm3, %xmm0
	pmovmskb	%xmm0, %edx
	orl	$65536, %edx
	rep		bsfl	%edx, %edx
	addq	%rsi, %rdx
	jmp	250b
252:
	cmpq	$256, %rdx
	movq	%rdi, %r8
	movl	$256, %edi
	cmovbq	%rdx, %rdi
	cmpq	%rdi, %r8
	movq	%rdi, %rsi
	cmovbq	%r8, %rsi
	xorl	%r8d, %r8d
253:
	movq	%rsi, %r9
	subq	%r8, %r9
	cmpq	$16, %r9
	jb	254f
	movdqu	(%rcx,%r8), %xmm0
	movdqu	(%r12,%r8), %xmm1
	pcmpeqb	%xmm0, %xmm1
	pcmpeqd	%xmm2, %xmm2
	pxor	%xmm1, %xmm2
	pxor	%xmm1, %xmm1
	pcmpeqb	%xmm0, %xmm1
	por	%xmm2, %xmm1
	pmovmskb	%xmm1, %r9d
	orl	$65536, %r9d
	rep		bsfl	%r9d, %r9d
	addq	%r9, %r8
	cmpw	$15, %r9w
	ja	253b
	movq	%rsi, %r9
	subq	%r8, %r9
254:
	cmpq	$8, %r9
	jb	255f
	movl	%r8d, %r9d
	andl	$15, %r9d
	jne	255f
	movq	(%rcx,%r8), %xmm0
	movq	(%r12,%r8), %xmm1
	pcmpeqb	%xmm0, %xmm1
	pcmpeqd	%xmm2, %xmm2
	pxor	%xmm1, %xmm2
	pxor	%xmm1, %xmm1
	pcmpeqb	%xmm0, %xmm1
	por	%xmm2, %xmm1
	pmovmskb	%xmm1, %r9d
	orl	$256, %r9d
	rep		bsfl	%r9d, %r9d
	orq	%r9, %r8
255:
	cmpq	%rsi, %r8
	jae	257f
	incq	%r8
	movq	%rsi, %r9
	negq	%r9
256:
	movzbl	-1(%rcx,%r8), %r10d
	testb	%r10b, %r10b
	je	265f
	cmpb	-1(%r12,%r8), %r10b
	jne	265f
	leaq	(%r9,%r8), %r10
	incq	%r10
	incq	%r8
	cmpq	$1, %r10
	jne	256b
257:
	cmpq	56(%rsp), %rdi
	movq	48(%rsp), %r10
	jbe	353f
	leaq	1(%rsi), %rdx
	addq	160(%rsp), %rdx
	movq	$-1, %rdi
	cmovaeq	%rdx, %rdi
	cmpb	$0, (%rcx,%rsi)
	movq	%rdi, 160(%rsp)
	movb	$3, %r8b
	movb	$1, %r9b
	movq	%r15, %rbx
258:
	movzbl	39(%rsp), %edi
	movq	192(%rsp), %rdx
	jne	142b
	bswapl	%eax
	testl	$256, %eax
	je	246b
	movq	224(%rsp), %r14
	bswapl	%r14d
	movzbl	%al, %ebx
	shll	$17, %ebx
	orl	216(%rsp), %ebx
	cmpb	$0, 96(%rsp)
	je	260f
	movzbl	104(%rsp), %ecx
	testb	%cl, %cl
	leaq	144(%rsp), %rax
	movl	$4, %edx
	cmovneq	128(%rsp), %rdx
	leaq	120(%rsp), %rsi
	cmovneq	%rsi, %rax
	cmpq	%rdx, (%rax)
	je	261f
	movl	%ebx, %eax
	testb	%cl, %cl
	movzbl	39(%rsp), %edi
	jne	244b
259:
	movq	144(%rsp), %rcx
	shlq	$32, %r14
	orq	%r14, %rax
	movq	%rax, 112(%rsp,%rcx,8)
	incq	%rcx
	movq	%rcx, 144(%rsp)
	jmp	245b
260:
	movl	104(%rsp), %eax
	cmpl	%eax, %ebx
	jb	246b
	movq	%r14, %rsi
	jbe	264f
	cmpb	$0, 112(%rsp)
	je	262f
	cmpq	$0, 128(%rsp)
	je	263f
	movq	$0, 128(%rsp)
	jmp	263f
261:
	leaq	104(%rsp), %rdi
	callq	"smallvec::small_vec::SmallVec::reserve_one::<#c56eefbaea896dc3>"
	testb	%al, %al
	jne	366f
	movzbl	104(%rsp), %ecx
	movq	48(%rsp), %r10
	movb	$3, %r8b
	movb	$1, %r9b
	movq	80(%rsp), %r11
	movl	%ebx, %eax
	testb	%cl, %cl
	movzbl	39(%rsp), %edi
	jne	244b
	jmp	259b
262:
	movq	136(%rsp), %rdx
	testq	%rdx, %rdx
	je	263f
	shlq	$2, %rdx
	leaq	120(%rsp), %rdi
	movq	%rsi, %r14
	xorl	%esi, %esi
	callq	memset@PLT
	movq	%r14, %rsi
	movq	$0, 136(%rsp)
263:
	movl	$0, 104(%rsp)
264:
	leaq	112(%rsp), %rdi
	callq	"smallvec::small_vec::SmallVec::push::<#bc37e6e66b18402c>"
	testb	%al, %al
	jne	366f
	movl	%ebx, 104(%rsp)
	movq	48(%rsp), %r10
	movb	$3, %r8b
	movb	$1, %r9b
	movq	80(%rsp), %r11
	movzbl	39(%rsp), %edi
	jmp	245b
265:
	addq	160(%rsp), %r8
	movq	$-1, %rax
	cmovaeq	%r8, %rax
	movq	%rax, 160(%rsp)
	movq	48(%rsp), %r10
	movb	$3, %r8b
	movq	%r15, %rbx
266:
	movzbl	39(%rsp), %edi
	jmp	142b
267:
	movq	%r12, %rdi
	callq	rattle_dealloc@PLT
	movaps	80(%rsp), %xmm6
	movb	$7, %r8b
	movq	$0, 40(%rsp)
	jmp	139b
268:
	movq	224(%rsp), %r15
	incq	%r15
	cmpq	%r11, %r15
	leaq	104(%rsp), %r14
	je	323f
269:
	movq	%r15, %rax
	notq	%rax
	movzbl	(%r12,%rax), %eax
	testl	%eax, %eax
	je	323f
	movq	152(%rsp), %rcx
	movq	56(%rsp), %rdi
	testq	%rdi, %rdi
	je	272f
	movq	(%r10), %rsi
	addq	40(%rsp), %rsi
	xorl	%edx, %edx
	jmp	271f
270:
	movq	%r8, %rdi
	cmpq	%rdi, %rdx
	jae	273f
271:
	leaq	(%rdi,%rdx), %r8
	shrq	%r8
	movq	%rcx, %r9
	incq	%r9
	movq	$-1, %rcx
	cmovneq	%r9, %rcx
	leaq	(%r8,%r8,2), %r9
	movl	(%rsi,%r9,4), %r9d
	bswapl	%r9d
	cmpl	%eax, %r9d
	jae	270b
	incq	%r8
	movq	%r8, %rdx
	cmpq	%rdi, %rdx
	jb	271b
	jmp	273f
272:
	xorl	%edx, %edx
273:
	movq	%rcx, 152(%rsp)
	cmpq	56(%rsp), %rdx
	movb	$3, %r8b
	movb	$1, %r9b
	je	323f
	shlq	$2, %rdx
	incq	%rcx
	movq	$-1, %rsi
	cmovneq	%rcx, %rsi
	movq	%rsi, 152(%rsp)
	movq	40(%rsp), %rdi
	addq	(%r10), %rdi
	leaq	(%rdx,%rdx,2), %rcx
	movl	(%rdi,%rcx), %edx
	bswapl	%edx
	cmpl	%eax, %edx
	jne	323f
	movq	%r15, 224(%rsp)
	movl	4(%rdi,%rcx), %eax
	movl	8(%rdi,%rcx), %esi
	bswapl	%esi
	movq	%rsi, 40(%rsp)
	testl	%eax, %eax
	bswapl	%eax
	movq	%rax, 56(%rsp)
	movzbl	39(%rsp), %edi
	je	268b
	movq	56(%rsp), %r15
	leaq	(%r15,%r15,2), %rax
	movq	40(%rsp), %rcx
	leaq	(%rcx,%rax,4), %rax
	cmpq	%rax, 8(%r10)
	jb	348f
	movq	224(%rsp), %rax
	leal	4(,%rax,2), %esi
	andl	$131070, %esi
	movq	40(%rsp), %rax
	leaq	8(%rax), %r14
	movq	%rsi, 192(%rsp)
	jmp	277f
274:
	movq	112(%rsp), %rax
	movq	120(%rsp), %rcx
	shlq	$32, %r13
	movl	%ebx, %edx
	orq	%r13, %rdx
	movq	%rdx, (%rax,%rcx,8)
	incq	%rcx
	movq	%rcx, 120(%rsp)
275:
	movq	192(%rsp), %rsi
276:
	addq	$12, %r14
	decq	%r15
	movq	208(%rsp), %r13
	je	268b
277:
	movq	168(%rsp), %rax
	testq	%rax, %rax
	je	347f
	decq	%rax
	movq	152(%rsp), %rcx
	movq	%rax, 168(%rsp)
	incq	%rcx
	movq	$-1, %rax
	cmovneq	%rcx, %rax
	movq	%rax, 152(%rsp)
	movq	(%r10), %rcx
	cmpl	$0, -8(%rcx,%r14)
	jne	268b
	movl	(%rcx,%r14), %eax
	bswapl	%eax
	testl	$256, %eax
	je	276b
	movl	-4(%rcx,%r14), %r13d
	bswapl	%r13d
	shll	$17, %eax
	andl	$66977792, %eax
	leal	(%rax,%rsi), %ebx
	incl	%ebx
	cmpb	$0, 96(%rsp)
	je	279f
	movzbl	104(%rsp), %eax
	testb	%al, %al
	leaq	144(%rsp), %rcx
	movl	$4, %edx
	cmovneq	128(%rsp), %rdx
	leaq	120(%rsp), %rsi
	cmovneq	%rsi, %rcx
	cmpq	%rdx, (%rcx)
	je	280f
	testb	%al, %al
	movzbl	39(%rsp), %edi
	jne	274b
278:
	movq	144(%rsp), %rax
	shlq	$32, %r13
	movl	%ebx, %ecx
	orq	%r13, %rcx
	movq	%rcx, 112(%rsp,%rax,8)
	incq	%rax
	movq	%rax, 144(%rsp)
	jmp	275b
279:
	movl	104(%rsp), %ecx
	cmpl	%ecx, %ebx
	jb	276b
	orl	%esi, %eax
	movzbl	112(%rsp), %edx
	cmpl	%eax, %ecx
	movb	%dl, 216(%rsp)
	ja	283f
	testb	%dl, %dl
	je	281f
	cmpq	$0, 128(%rsp)
	je	282f
	movq	$0, 128(%rsp)
	jmp	282f
280:
	leaq	104(%rsp), %rdi
	callq	"smallvec::small_vec::SmallVec::reserve_one::<#c56eefbaea896dc3>"
	testb	%al, %al
	jne	373f
	movzbl	104(%rsp), %eax
	movq	48(%rsp), %r10
	movb	$3, %r8b
	movb	$1, %r9b
	movq	80(%rsp), %r11
	testb	%al, %al
	movzbl	39(%rsp), %edi
	jne	274b
	jmp	278b
281:
	movq	136(%rsp), %rdx
	testq	%rdx, %rdx
	je	282f
	shlq	$2, %rdx
	leaq	120(%rsp), %rdi
	xorl	%esi, %esi
	callq	memset@PLT
	movq	192(%rsp), %rsi
	movzbl	39(%rsp), %edi
	movq	80(%rsp), %r11
	movb	$1, %r9b
	movb	$3, %r8b
	movq	48(%rsp), %r10
	movq	$0, 136(%rsp)
282:
	movl	$0, 104(%rsp)
	movzbl	216(%rsp), %edx
283:
	testb	%dl, %dl
	movq	136(%rsp), %rax
	movq	128(%rsp), %rcx
	cmoveq	%rax, %rcx
	movl	$4, %edx
	cmovneq	%rax, %rdx
	cmpq	%rdx, %rcx
	je	285f
	cmpb	$0, 216(%rsp)
	je	286f
284:
	movq	120(%rsp), %rax
	movq	128(%rsp), %rcx
	movl	%r13d, (%rax,%rcx,4)
	incq	%rcx
	movq	%rcx, 128(%rsp)
	movl	%ebx, 104(%rsp)
	jmp	276b
285:
	leaq	112(%rsp), %rdi
	callq	"smallvec::small_vec::SmallVec::reserve_one::<#bc37e6e66b18402c>"
	testb	%al, %al
	jne	373f
	movzbl	112(%rsp), %eax
	movb	%al, 216(%rsp)
	movq	48(%rsp), %r10
	movb	$3, %r8b
	movb	$1, %r9b
	movq	80(%rsp), %r11
	movzbl	39(%rsp), %edi
	movq	192(%rsp), %rsi
	cmpb	$0, 216(%rsp)
	jne	284b
286:
	movq	136(%rsp), %rax
	movl	%r13d, 120(%rsp,%rax,4)
	incq	%rax
	movq	%rax, 136(%rsp)
	movl	%ebx, 104(%rsp)
	jmp	276b
287:
	movq	%r14, 152(%rsp)
288:
	pxor	%xmm3, %xmm3
289:
	movb	$5, %r8b
	movq	$0, 40(%rsp)
290:
	movq	208(%rsp), %r13
	leaq	104(%rsp), %r14
	jmp	21b
291:
	addq	%r12, %rbp
	movq	$-1, %rax
	cmovaeq	%rbp, %rax
	movq	%rax, %rbp
	cmpq	$256, %r13
	movb	$4, %r8b
	sbbb	$0, %r8b
	movdqa	80(%rsp), %xmm6
	movq	64(%rsp), %rdi
292:
	cmpq	$0, 112(%rsp)
	je	359f
	movq	%r8, %r14
	callq	rattle_dealloc@PLT
	movaps	80(%rsp), %xmm6
	movq	%r14, %r8
	jmp	359f
293:
	cmpq	296(%rsp), %r14
	movq	48(%rsp), %r10
	movb	$3, %r8b
	movb	$1, %r9b
	movq	200(%rsp), %rbx
	movzbl	39(%rsp), %edi
	jae	179b
	movq	168(%rsp), %rcx
	testq	%rcx, %rcx
	je	349f
	decq	%rcx
	movq	%rcx, 168(%rsp)
	addq	$2, %rax
	movq	$-1, %r15
	cmovaeq	%rax, %r15
	movq	%r15, 152(%rsp)
	jmp	179b
294:
	pxor	%xmm0, %xmm0
	movdqa	%xmm0, 272(%rsp)
	movdqa	%xmm0, 256(%rsp)
	movq	$0, 288(%rsp)
	movl	$64, %r15d
	cmpq	$4097, %r13
	jb	296f
	movabsq	$4294967296, %rdx
	xorl	%ecx, %ecx
295:
	movq	%rcx, %rsi
	addq	%rdx, %rcx
	shrq	%rcx
	movq	%rcx, %rdi
	imulq	%rcx, %rdi
	cmpq	%r13, %rdi
	cmovaq	%rcx, %rdx
	cmovaq	%rsi, %rcx
	leaq	1(%rcx), %rsi
	cmpq	%rdx, %rsi
	jb	295b
	cmpq	$65, %rcx
	movl	$64, %r15d
	cmovaeq	%rcx, %r15
296:
	cmpq	%r15, %rax
	cmovbq	%rax, %r15
	movabsq	$4611686018427387904, %rax
	xorl	%edx, %edx
	divq	%r13
	incq	%rax
	cmpq	%r15, %rbx
	setae	%r10b
	movq	%r15, %r8
	cmovaq	%rbx, %r8
	movl	56(%rsp), %ecx
	cmpl	40(%rsp), %ecx
	jae	381f
	cmpq	%r15, %rbx
	jb	381f
	cmpq	$15, %rbx
	jbe	350f
	movq	%rbx, %rcx
	shrq	%rcx
	movq	%rbx, %rdx
	subq	%rcx, %rdx
	leaq	(%r14,%rdx,8), %rdx
	movq	%rax, %r12
	movq	%r14, %rdi
	xorl	%esi, %esi
	callq	"core::slice::edits::mirror::<14'(,)::<i32,i32>>"
	movq	%r12, %rax
	movb	$1, %r10b
	jmp	380f
297:
	addq	%r13, %rcx
	movq	$-1, %r13
	cmovaeq	%rcx, %r13
	cmpq	$256, %r10
	movb	$4, %r8b
	sbbb	$0, %r8b
	movq	48(%rsp), %r10
	movq	%r14, %r15
	jmp	238b
298:
	addq	152(%rsp), %rcx
	jmp	241b
299:
	movb	$3, %r8b
	leaq	104(%rsp), %r14
	jmp	16b
300:
	leaq	256(%rsp), %rdi
	leaq	104(%rsp), %rsi
	callq	"smallvec::small_vec::SmallVec::push::<#c56eefbaea896dc3>"
	movzbl	39(%rsp), %edi
	movq	80(%rsp), %r11
	movb	$1, %r9b
	movb	$3, %r8b
	movq	48(%rsp), %r10
	cmpb	$0, 256(%rsp)
	jne	370f
301:
	movq	200(%rsp), %rbx
302:
	incq	%r14
	cmpq	296(%rsp), %r14
	je	365f
303:
	movq	168(%rsp), %rcx
	pxor	%xmm3, %xmm3
	testq	%rcx, %rcx
	je	289b
	leaq	(%r14,%r14,2), %rax
	decq	%rcx
	movq	152(%rsp), %rdx
	incq	%rdx
	movq	$-1, %rsi
	cmovneq	%rdx, %rsi
	movq	%rcx, 168(%rsp)
	movq	%rsi, %r15
	movq	%rsi, 152(%rsp)
	movq	(%r10), %rdx
	movq	8(%r10), %rsi
	movq	304(%rsp), %rcx
	leaq	(%rdx,%rcx), %rdi
	movl	(%rdi,%rax,4), %r8d
	bswapl	%r8d
	movq	%r8, 40(%rsp)
	subq	%r8, %rsi
	jbe	318f
	movl	4(%rdi,%rax,4), %ecx
	movl	8(%rdi,%rax,4), %eax
	addq	40(%rsp), %rdx
	testq	%rbp, %rbp
	je	308f
	movzbl	(%rdx), %edi
	movq	64(%rsp), %r8
	cmpb	(%r8), %dil
	jne	304f
	cmpq	$8, %rbp
	jb	308f
	cmpq	$33, %rsi
	jb	308f
	cmpq	$15, %rbp
	ja	306f
	movq	(%rdx), %xmm2
	movq	64(%rsp), %rsi
	movq	(%rsi), %xmm3
	pcmpeqb	%xmm2, %xmm3
	pcmpeqd	%xmm1, %xmm1
	pxor	%xmm1, %xmm3
	pxor	%xmm0, %xmm0
	pcmpeqb	%xmm0, %xmm2
	por	%xmm3, %xmm2
	pmovmskb	%xmm2, %esi
	orl	$256, %esi
	rep		bsfl	%esi, %esi
	cmpb	$8, %sil
	jb	305f
	leaq	-8(%rbp), %rdi
	movq	(%rdx,%rdi), %xmm2
	movq	64(%rsp), %rsi
	movq	(%rsi,%rdi), %xmm3
	pcmpeqb	%xmm2, %xmm3
	pxor	%xmm1, %xmm3
	pcmpeqb	%xmm2, %xmm0
	por	%xmm3, %xmm0
	pmovmskb	%xmm0, %esi
	orl	$256, %esi
	jmp	307f
304:
	xorl	%esi, %esi
305:
	movq	200(%rsp), %rbx
	leaq	1(%rsi), %rdi
	addq	160(%rsp), %rdi
	movq	$-1, %r8
	cmovaeq	%rdi, %r8
	movq	%r8, 160(%rsp)
	cmpq	%rbp, %rsi
	jne	374f
	cmpb	$0, (%rdx,%rsi)
	movb	$3, %r8b
	jmp	314f
306:
	cmpq	$32, %rbp
	ja	308f
	movdqu	(%rdx), %xmm2
	movq	64(%rsp), %rsi
	movdqu	(%rsi), %xmm3
	pcmpeqb	%xmm2, %xmm3
	pcmpeqd	%xmm1, %xmm1
	pxor	%xmm1, %xmm3
	pxor	%xmm0, %xmm0
	pcmpeqb	%xmm0, %xmm2
	por	%xmm3, %xmm2
	pmovmskb	%xmm2, %esi
	orl	$65536, %esi
	rep		bsfl	%esi, %esi
	cmpw	$16, %si
	jb	305b
	leaq	-16(%rbp), %rdi
	movdqu	(%rdx,%rdi), %xmm2
	movq	64(%rsp), %rsi
	movdqu	(%rsi,%rdi), %xmm3
	pcmpeqb	%xmm2, %xmm3
	pxor	%xmm1, %xmm3
	pcmpeqb	%xmm2, %xmm0
	por	%xmm3, %xmm0
	pmovmskb	%xmm0, %esi
	orl	$65536, %esi
307:
	rep		bsfl	%esi, %esi
	addq	%rdi, %rsi
	jmp	305b
308:
	cmpq	$256, %rsi
	movl	$256, %r8d
	cmovbq	%rsi, %r8
	cmpq	%r8, %rbp
	movq	%r8, %rdi
	cmovbq	%rbp, %rdi
	xorl	%r9d, %r9d
309:
	movq	%rdi, %r10
	subq	%r9, %r10
	cmpq	$16, %r10
	jb	310f
	movdqu	(%rdx,%r9), %xmm0
	movq	64(%rsp), %r10
	movdqu	(%r10,%r9), %xmm1
	pcmpeqb	%xmm0, %xmm1
	pcmpeqd	%xmm2, %xmm2
	pxor	%xmm1, %xmm2
	pxor	%xmm1, %xmm1
	pcmpeqb	%xmm0, %xmm1
	por	%xmm2, %xmm1
	pmovmskb	%xmm1, %r10d
	orl	$65536, %r10d
	rep		bsfl	%r10d, %r10d
	addq	%r10, %r9
	cmpw	$15, %r10w
	ja	309b
	movq	%rdi, %r10
	subq	%r9, %r10
310:
	cmpq	$8, %r10
	jb	311f
	movl	%r9d, %r10d
	andl	$15, %r10d
	jne	311f
	movq	(%rdx,%r9), %xmm0
	movq	64(%rsp), %r10
	movq	(%r10,%r9), %xmm1
	pcmpeqb	%xmm0, %xmm1
	pcmpeqd	%xmm2, %xmm2
	pxor	%xmm1, %xmm2
	pxor	%xmm1, %xmm1
	pcmpeqb	%xmm0, %xmm1
	por	%xmm2, %xmm1
	pmovmskb	%xmm1, %r10d
	orl	$256, %r10d
	rep		bsfl	%r10d, %r10d
	orq	%r10, %r9
311:
	cmpq	%rdi, %r9
	jae	313f
	incq	%r9
	movq	%rdi, %r10
	negq	%r10
312:
	movzbl	-1(%rdx,%r9), %r11d
	testb	%r11b, %r11b
	je	320f
	movq	64(%rsp), %r13
	cmpb	-1(%r13,%r9), %r11b
	jne	320f
	leaq	(%r10,%r9), %r11
	incq	%r11
	incq	%r9
	cmpq	$1, %r11
	jne	312b
313:
	cmpq	%rbp, %r8
	movq	48(%rsp), %r10
	movq	80(%rsp), %r11
	jbe	369f
	leaq	1(%rdi), %rsi
	addq	160(%rsp), %rsi
	movq	$-1, %r8
	cmovaeq	%rsi, %r8
	cmpb	$0, (%rdx,%rdi)
	movq	%r8, 160(%rsp)
	movb	$3, %r8b
	movb	$1, %r9b
	movq	200(%rsp), %rbx
314:
	movzbl	39(%rsp), %edi
	jne	179b
	bswapl	%eax
	testl	$256, %eax
	jne	302b
	bswapl	%ecx
	movzbl	%al, %edx
	shll	$17, %edx
	orl	56(%rsp), %edx
	movl	$0, 264(%rsp)
	movq	$0, 256(%rsp)
	cmpb	$0, 96(%rsp)
	jne	300b
	movl	104(%rsp), %eax
	cmpl	%eax, %edx
	jb	301b
	movl	%edx, %ebx
	jbe	317f
	movl	%ecx, 40(%rsp)
	cmpb	$0, 112(%rsp)
	je	315f
	cmpq	$0, 128(%rsp)
	je	316f
	movq	$0, 128(%rsp)
	jmp	316f
315:
	movq	136(%rsp), %rdx
	testq	%rdx, %rdx
	je	316f
	shlq	$2, %rdx
	leaq	120(%rsp), %rdi
	xorl	%esi, %esi
	callq	memset@PLT
	movq	$0, 136(%rsp)
316:
	movl	$0, 104(%rsp)
	movl	40(%rsp), %ecx
317:
	leaq	112(%rsp), %rdi
	movl	%ecx, %esi
	callq	"smallvec::small_vec::SmallVec::push::<#bc37e6e66b18402c>"
	testb	%al, %al
	movq	48(%rsp), %r10
	movb	$3, %r8b
	movb	$1, %r9b
	movq	80(%rsp), %r11
	movzbl	39(%rsp), %edi
	jne	370f
	movl	%ebx, 104(%rsp)
	jmp	301b
318:
	movb	$3, %r8b
	movq	208(%rsp), %r13
	leaq	104(%rsp), %r14
	jmp	121b
319:
	movq	152(%rsp), %rbx
	movq	8(%r10), %rdi
	jmp	183b
320:
	addq	160(%rsp), %r9
	movq	$-1, %rax
	cmovaeq	%r9, %rax
	movq	%rax, 160(%rsp)
	movq	48(%rsp), %r10
	movb	$3, %r8b
	movb	$1, %r9b
	movq	80(%rsp), %r11
	movq	200(%rsp), %rbx
321:
	movzbl	39(%rsp), %edi
	jmp	179b
322:
	movq	152(%rsp), %r14
	jmp	142b
323:
	movq	152(%rsp), %rax
	movq	200(%rsp), %rbx
	movzbl	39(%rsp), %edi
324:
	movq	8(%r10), %rcx
	subq	%rbx, %rcx
	setb	%dl
	cmpq	$8, %rcx
	setb	%cl
	orb	%dl, %cl
	incq	%rax
	movq	$-1, %rdx
	cmovneq	%rax, %rdx
	movq	%rdx, 152(%rsp)
	testb	%cl, %cl
	je	325f
	movq	%rbx, 40(%rsp)
	pxor	%xmm3, %xmm3
	jmp	21b
325:
	testq	%rbp, %rbp
	je	346f
	movq	64(%rsp), %rax
	cmpb	$0, -1(%rax,%rbp)
	je	346f
	movq	(%r10), %rax
	movl	(%rax,%rbx), %ecx
	movl	4(%rax,%rbx), %eax
	shlq	$32, %rcx
	orq	%rax, %rcx
	bswapq	%rcx
	movq	%rcx, %rax
	shrq	$32, %rax
	movq	%rax, 40(%rsp)
	movl	$4294967295, %r12d
	andq	%rcx, %r12
	movzbl	39(%rsp), %edi
	je	327f
	leaq	(%r12,%r12,2), %rax
	movq	40(%rsp), %rcx
	leaq	(%rcx,%rax,4), %rax
	cmpq	%rax, 8(%r10)
	jae	327f
326:
	pxor	%xmm3, %xmm3
	jmp	21b
327:
	movq	64(%rsp), %rax
	leaq	(%rax,%rbp), %r11
	xorl	%r15d, %r15d
	jmp	329f
328:
	movq	56(%rsp), %r15
	incq	%r15
	cmpq	%rbp, %r15
	leaq	104(%rsp), %r14
	movq	80(%rsp), %r12
	je	346f
329:
	movq	%r15, %rax
	notq	%rax
	movzbl	(%r11,%rax), %eax
	testl	%eax, %eax
	je	346f
	movq	152(%rsp), %rcx
	testq	%r12, %r12
	je	332f
	movq	(%r10), %rsi
	addq	40(%rsp), %rsi
	xorl	%edx, %edx
	movq	%r12, %rdi
	jmp	331f
330:
	movq	%r8, %rdi
	cmpq	%rdi, %rdx
	jae	333f
331:
	leaq	(%rdi,%rdx), %r8
	shrq	%r8
	movq	%rcx, %r9
	incq	%r9
	movq	$-1, %rcx
	cmovneq	%r9, %rcx
	leaq	(%r8,%r8,2), %r9
	movl	(%rsi,%r9,4), %r9d
	bswapl	%r9d
	cmpl	%eax, %r9d
	jae	330b
	incq	%r8
	movq	%r8, %rdx
	cmpq	%rdi, %rdx
	jb	331b
	jmp	333f
332:
	xorl	%edx, %edx
333:
	movq	%rcx, 152(%rsp)
	cmpq	%r12, %rdx
	movb	$3, %r8b
	movb	$1, %r9b
	je	346f
	shlq	$2, %rdx
	incq	%rcx
	movq	$-1, %rsi
	cmovneq	%rcx, %rsi
	movq	%rsi, 152(%rsp)
	movq	40(%rsp), %rdi
	addq	(%r10), %rdi
	leaq	(%rdx,%rdx,2), %rcx
	movl	(%rdi,%rcx), %edx
	bswapl	%edx
	cmpl	%eax, %edx
	jne	346f
	movq	%r15, 56(%rsp)
	movl	4(%rdi,%rcx), %eax
	movl	8(%rdi,%rcx), %esi
	bswapl	%esi
	movq	%rsi, 40(%rsp)
	testl	%eax, %eax
	bswapl	%eax
	movq	%rax, 80(%rsp)
	movzbl	39(%rsp), %edi
	je	328b
	movq	80(%rsp), %r12
	leaq	(%r12,%r12,2), %rax
	movq	40(%rsp), %rcx
	leaq	(%rcx,%rax,4), %rax
	cmpq	%rax, 8(%r10)
	jb	348f
	movq	56(%rsp), %rax
	leal	4(,%rax,2), %r8d
	andl	$131070, %r8d
	orl	$33554432, %r8d
	movq	40(%rsp), %rax
	leaq	8(%rax), %r14
	jmp	336f
334:
	movq	112(%rsp), %rcx
	movq	120(%rsp), %rdx
	shlq	$32, %r13
	orq	%r13, %rax
	movq	%rax, (%rcx,%rdx,8)
	incq	%rdx
	movq	%rdx, 120(%rsp)
335:
	addq	$12, %r14
	decq	%r12
	movq	208(%rsp), %r13
	je	328b
336:
	movq	168(%rsp), %rax
	testq	%rax, %rax
	je	347f
	decq	%rax
	movq	152(%rsp), %rcx
	movq	%rax, 168(%rsp)
	incq	%rcx
	movq	$-1, %rax
	cmovneq	%rcx, %rax
	movq	%rax, 152(%rsp)
	movq	(%r10), %rax
	cmpl	$0, -8(%rax,%r14)
	jne	328b
	movl	(%rax,%r14), %ecx
	bswapl	%ecx
	testl	$256, %ecx
	jne	335b
	movl	-4(%rax,%r14), %r13d
	bswapl	%r13d
	movzbl	%cl, %r15d
	shll	$17, %r15d
	orl	%r8d, %r15d
	cmpb	$0, 96(%rsp)
	je	338f
	movzbl	104(%rsp), %ecx
	testb	%cl, %cl
	leaq	144(%rsp), %rax
	movl	$4, %edx
	cmovneq	128(%rsp), %rdx
	leaq	120(%rsp), %rsi
	cmovneq	%rsi, %rax
	cmpq	%rdx, (%rax)
	je	339f
	movl	%r15d, %eax
	testb	%cl, %cl
	movzbl	39(%rsp), %edi
	jne	334b
337:
	movq	144(%rsp), %rcx
	shlq	$32, %r13
	orq	%r13, %rax
	movq	%rax, 112(%rsp,%rcx,8)
	incq	%rcx
	movq	%rcx, 144(%rsp)
	jmp	335b
338:
	movl	104(%rsp), %eax
	cmpl	%eax, %r15d
	jb	335b
	movzbl	112(%rsp), %ebx
	jbe	342f
	testb	%bl, %bl
	je	340f
	cmpq	$0, 128(%rsp)
	je	341f
	movq	$0, 128(%rsp)
	jmp	341f
339:
	movl	%r8d, 200(%rsp)
	movq	%r11, 192(%rsp)
	leaq	104(%rsp), %rdi
	callq	"smallvec::small_vec::SmallVec::reserve_one::<#c56eefbaea896dc3>"
	testb	%al, %al
	jne	373f
	movzbl	104(%rsp), %ecx
	movq	48(%rsp), %r10
	movb	$1, %r9b
	movq	192(%rsp), %r11
	movl	200(%rsp), %r8d
	movl	%r15d, %eax
	testb	%cl, %cl
	movzbl	39(%rsp), %edi
	jne	334b
	jmp	337b
340:
	movq	136(%rsp), %rdx
	testq	%rdx, %rdx
	je	341f
	shlq	$2, %rdx
	leaq	120(%rsp), %rdi
	xorl	%esi, %esi
	movq	%r11, 192(%rsp)
	movl	%r8d, 200(%rsp)
	callq	memset@PLT
	movl	200(%rsp), %r8d
	movq	192(%rsp), %r11
	movzbl	39(%rsp), %edi
	movb	$1, %r9b
	movq	48(%rsp), %r10
	movq	$0, 136(%rsp)
341:
	movl	$0, 104(%rsp)
342:
	testb	%bl, %bl
	movq	136(%rsp), %rax
	movq	128(%rsp), %rcx
	cmoveq	%rax, %rcx
	movl	$4, %edx
	cmovneq	%rax, %rdx
	cmpq	%rdx, %rcx
	je	344f
	testb	%bl, %bl
	je	345f
343:
	movq	120(%rsp), %rax
	movq	128(%rsp), %rcx
	movl	%r13d, (%rax,%rcx,4)
	incq	%rcx
	movq	%rcx, 128(%rsp)
	movl	%r15d, 104(%rsp)
	jmp	335b
344:
	movl	%r8d, 200(%rsp)
	movq	%r11, 192(%rsp)
	leaq	112(%rsp), %rdi
	callq	"smallvec::small_vec::SmallVec::reserve_one::<#bc37e6e66b18402c>"
	testb	%al, %al
	jne	373f
	movzbl	112(%rsp), %ebx
	movq	48(%rsp), %r10
	movb	$1, %r9b
	movzbl	39(%rsp), %edi
	movq	192(%rsp), %r11
	movl	200(%rsp), %r8d
	testb	%bl, %bl
	jne	343b
345:
	movq	136(%rsp), %rax
	movl	%r13d, 120(%rsp,%rax,4)
	incq	%rax
	movq	%rax, 136(%rsp)
	movl	%r15d, 104(%rsp)
	jmp	335b
346:
	leaq	352(%rsp), %rdi
	leaq	464(%rsp), %rsi
	leaq	96(%rsp), %rcx
	movl	232(%rsp), %edx
	callq	"mime_view::globs::glob_list_hits"
	movq	48(%rsp), %r10
	movzbl	352(%rsp), %r9d
	movzbl	360(%rsp), %r8d
	movd	362(%rsp), %xmm3
	movq	368(%rsp), %rax
	movq	%rax, 40(%rsp)
	jmp	121b
347:
	movb	$5, %r8b
	movq	$0, 40(%rsp)
348:
	pxor	%xmm3, %xmm3
	leaq	104(%rsp), %r14
	jmp	21b
349:
	movq	%r15, 152(%rsp)
	jmp	288b
350:
	leaq	-2(%rbx), %rdx
	movq	%rdx, %rcx
	shrq	%rcx
	cmpq	$1, %rbx
	je	351f
	movq	(%r14), %rdi
	movq	-8(%r14,%rbx,8), %rsi
	movq	%rsi, (%r14)
	movq	%rdi, -8(%r14,%rbx,8)
351:
	movb	$1, %r10b
	testq	%rcx, %rcx
	je	380f
	cmpq	$1, %rdx
	jbe	363f
	testb	%r11b, %r11b
	leaq	112(%rsp), %rdx
	leaq	8(%r12), %rdi
	cmoveq	%rdx, %rdi
	movq	(%rdi), %rdx
	movq	-16(%r14,%rbx,8), %rsi
	movq	%rsi, (%rdi)
	movq	%rdx, -16(%r14,%rbx,8)
	jmp	364f
352:
	addq	160(%rsp), %rdi
	movq	$-1, %rax
	cmovaeq	%rdi, %rax
	movq	%rax, 160(%rsp)
	cmpq	$256, %rdx
	movb	$4, %r8b
	sbbb	$0, %r8b
	jmp	82b
353:
	addq	160(%rsp), %rsi
	movq	$-1, %rax
	cmovaeq	%rsi, %rax
	movq	%rax, 160(%rsp)
	cmpq	$256, %rdx
354:
	movb	$4, %r8b
	sbbb	$0, %r8b
	jmp	119b
355:
	movb	$7, %r8b
	xorl	%r13d, %r13d
	pxor	%xmm3, %xmm3
	movq	48(%rsp), %r10
	jmp	82b
356:
	cmpq	$0, 112(%rsp)
	je	357f
	movq	96(%rsp), %rdi
	callq	rattle_dealloc@PLT
357:
	movq	$0, 40(%rsp)
	movb	$7, %r8b
358:
	movdqa	80(%rsp), %xmm6
359:
	movb	$1, %r13b
	xorl	%r14d, %r14d
	xorl	%r12d, %r12d
	xorl	%r15d, %r15d
360:
	cmpb	$1, 360(%rsp)
	jne	426f
	cmpq	$0, 384(%rsp)
	je	426f
	movq	368(%rsp), %rdi
	movq	%r13, %rbx
	movq	%rbp, %r13
	movq	%r8, %rbp
	callq	rattle_dealloc@PLT
	movdqa	80(%rsp), %xmm6
	movq	%rbp, %r8
	movq	%r13, %rbp
	movq	%rbx, %r13
	jmp	426f
361:
	movb	$3, %r8b
	jmp	182b
362:
	movb	$7, %r8b
	xorl	%r13d, %r13d
	movq	48(%rsp), %r10
	leaq	104(%rsp), %r14
	movb	$1, %r9b
	pxor	%xmm3, %xmm3
	jmp	16b
363:
	testq	%rdx, %rdx
	jne	364f
	testb	%r11b, %r11b
	leaq	112(%rsp), %rdx
	leaq	8(%r12), %rdi
	cmoveq	%rdx, %rdi
	movq	(%r14), %rdx
	movq	(%rdi), %rsi
	movq	%rsi, (%r14)
	movq	%rdx, (%rdi)
364:
	cmpq	$1, %rcx
	je	380f
	leaq	-3(%rbx), %rdx
	cmpq	$2, %rdx
	jbe	367f
	leaq	16(%r12), %rdx
	cmpb	$0, 232(%rsp)
	leaq	120(%rsp), %rsi
	cmoveq	%rsi, %rdx
	movq	(%rdx), %rsi
	movq	-24(%r14,%rbx,8), %rdi
	movq	%rdi, (%rdx)
	movq	%rsi, -24(%r14,%rbx,8)
	jmp	368f
365:
	movq	152(%rsp), %r15
	jmp	179b
366:
	movb	$7, %r8b
	movq	$0, 40(%rsp)
	movq	208(%rsp), %r13
	movq	48(%rsp), %r10
	leaq	104(%rsp), %r14
	movb	$1, %r9b
	movzbl	39(%rsp), %edi
	pxor	%xmm3, %xmm3
	jmp	21b
367:
	je	368f
	leaq	16(%r12), %rdx
	cmpb	$0, 232(%rsp)
	leaq	120(%rsp), %rsi
	cmoveq	%rsi, %rdx
	movq	-24(%r14,%rbx,8), %rsi
	movq	(%rdx), %rdi
	movq	%rdi, -24(%r14,%rbx,8)
	movq	%rsi, (%rdx)
368:
	cmpq	$2, %rcx
	je	380f
	leaq	-4(%rbx), %rdx
	cmpq	$3, %rdx
	jbe	371f
	leaq	24(%r12), %rdx
	cmpb	$0, 232(%rsp)
	leaq	128(%rsp), %rsi
	cmovneq	%rdx, %rsi
	movq	(%rsi), %rdx
	movq	-32(%r14,%rbx,8), %rdi
	movq	%rdi, (%rsi)
	movq	%rdx, -32(%r14,%rbx,8)
	jmp	372f
369:
	addq	160(%rsp), %rdi
	movq	$-1, %rax
	cmovaeq	%rdi, %rax
	movq	%rax, 160(%rsp)
	cmpq	$256, %rsi
	jmp	354b
370:
	movb	$7, %r8b
	movq	$0, 40(%rsp)
	movq	208(%rsp), %r13
	leaq	104(%rsp), %r14
	pxor	%xmm3, %xmm3
	jmp	21b
371:
	je	372f
	leaq	24(%r12), %rdx
	cmpb	$0, 232(%rsp)
	leaq	128(%rsp), %rsi
	cmovneq	%rdx, %rsi
	movq	-32(%r14,%rbx,8), %rdx
	movq	(%rsi), %rdi
	movq	%rdi, -32(%r14,%rbx,8)
	movq	%rdx, (%rsi)
372:
	cmpq	$3, %rcx
	je	380f
	leaq	-5(%rbx), %rdx
	cmpq	$4, %rdx
	jbe	375f
	leaq	32(%r12), %rdx
	cmpb	$0, 232(%rsp)
	leaq	136(%rsp), %rsi
	cmovneq	%rdx, %rsi
	movq	(%rsi), %rdx
	movq	-40(%r14,%rbx,8), %rdi
	movq	%rdi, (%rsi)
	movq	%rdx, -40(%r14,%rbx,8)
	jmp	376f
373:
	movb	$7, %r8b
	movq	$0, 40(%rsp)
	pxor	%xmm3, %xmm3
	movq	208(%rsp), %r13
	movq	48(%rsp), %r10
	jmp	120b
374:
	movb	$3, %r8b
	jmp	321b
375:
	je	376f
	leaq	32(%r12), %rdx
	cmpb	$0, 232(%rsp)
	leaq	136(%rsp), %rsi
	cmovneq	%rdx, %rsi
	movq	-40(%r14,%rbx,8), %rdx
	movq	(%rsi), %rdi
	movq	%rdi, -40(%r14,%rbx,8)
	movq	%rdx, (%rsi)
376:
	cmpq	$4, %rcx
	je	380f
	leaq	-6(%rbx), %rdx
	cmpq	$5, %rdx
	jbe	377f
	leaq	40(%r12), %rdx
	cmpb	$0, 232(%rsp)
	leaq	144(%rsp), %rsi
	cmovneq	%rdx, %rsi
	movq	(%rsi), %rdx
	movq	-48(%r14,%rbx,8), %rdi
	movq	%rdi, (%rsi)
	movq	%rdx, -48(%r14,%rbx,8)
	jmp	378f
377:
	je	378f
	leaq	40(%r12), %rdx
	cmpb	$0, 232(%rsp)
	leaq	144(%rsp), %rsi
	cmovneq	%rdx, %rsi
	movq	-48(%r14,%rbx,8), %rdx
	movq	(%rsi), %rdi
	movq	%rdi, -48(%r14,%rbx,8)
	movq	%rdx, (%rsi)
378:
	cmpq	$5, %rcx
	je	380f
	leaq	-7(%rbx), %rcx
	cmpq	$6, %rcx
	jbe	379f
	addq	$48, %r12
	cmpb	$0, 232(%rsp)
	leaq	152(%rsp), %rcx
	cmovneq	%r12, %rcx
	movq	(%rcx), %rdx
	movq	-56(%r14,%rbx,8), %rsi
	movq	%rsi, (%rcx)
	movq	%rdx, -56(%r14,%rbx,8)
	jmp	380f
379:
	je	380f
	addq	$48, %r12
	cmpb	$0, 232(%rsp)
	leaq	152(%rsp), %rcx
	cmovneq	%r12, %rcx
	movq	-56(%r14,%rbx,8), %rdx
	movq	(%rcx), %rsi
	movq	%rsi, -56(%r14,%rbx,8)
	movq	%rdx, (%rcx)
380:
	movq	%rbx, %r8
381:
	leaq	416(%rsp), %rcx
	movq	%rcx, 24(%rsp)
	movq	%rax, 16(%rsp)
	movq	%r15, 8(%rsp)
	movl	$0, (%rsp)
	movzbl	%r10b, %r9d
	leaq	256(%rsp), %rdi
	movq	%r14, %rsi
	movq	%r13, %rdx
	xorl	%ecx, %ecx
	callq	"core::slice::sort::runs::climb::<#12eb916b83b0f891>"
	testb	$1, 264(%rsp)
	jne	383f
	movq	256(%rsp), %rdx
	movl	$127, %eax
	bsrq	%rdx, %rax
	xorl	$63, %eax
	addl	%eax, %eax
	movl	$126, %ecx
	subl	%eax, %ecx
	leaq	416(%rsp), %r8
	movq	%r14, %rdi
	movq	%rdx, %rsi
382:
	callq	"core::slice::sort::stable::quicksort::<#12eb916b83b0f891>"
383:
	movq	192(%rsp), %rdi
	callq	rattle_dealloc@PLT
	movq	48(%rsp), %r10
	movaps	80(%rsp), %xmm6
	jmp	132b
384:
	xorl	%edx, %edx
	cmpl	%eax, (%r12,%rcx,8)
	sete	%dl
	addq	%rdx, %r15
	incq	%rcx
385:
	cmpq	%rcx, %rbx
	jne	384b
	pxor	%xmm0, %xmm0
	movdqa	%xmm0, 272(%rsp)
	movdqa	%xmm0, 256(%rsp)
	xorl	%r14d, %r14d
	jmp	387f
	.p2align	4
386:
	movq	280(%rsp), %rax
	movl	%ebp, 264(%rsp,%rax,4)
	incq	%rax
	movq	%rax, 280(%rsp)
	incq	%r14
	cmpq	%r14, %rbx
	je	390f
387:
	movl	4(%r12,%r14,8), %ebp
	movzbl	256(%rsp), %ecx
	testb	%cl, %cl
	movq	280(%rsp), %rax
	movq	272(%rsp), %rdx
	cmoveq	%rax, %rdx
	movl	$4, %esi
	cmovneq	%rax, %rsi
	cmpq	%rsi, %rdx
	je	389f
	testb	%cl, %cl
	je	386b
388:
	movq	264(%rsp), %rax
	movq	272(%rsp), %rcx
	movl	%ebp, (%rax,%rcx,4)
	incq	%rcx
	movq	%rcx, 272(%rsp)
	incq	%r14
	cmpq	%r14, %rbx
	jne	387b
	jmp	390f
389:
	leaq	256(%rsp), %rdi
	callq	"smallvec::small_vec::SmallVec::reserve_one::<#bc37e6e66b18402c>"
	movzbl	256(%rsp), %ecx
	testb	%al, %al
	jne	408f
	movq	48(%rsp), %r10
	movdqa	80(%rsp), %xmm6
	testb	%cl, %cl
	jne	388b
	jmp	386b
390:
	movzbl	256(%rsp), %edx
	movq	264(%rsp), %rdi
391:
	movdqa	272(%rsp), %xmm0
	movdqa	%xmm0, 496(%rsp)
	movq	%rdx, 320(%rsp)
	leaq	328(%rsp), %rbx
	movq	%rdi, 328(%rsp)
	movdqa	%xmm0, 336(%rsp)
	testq	%rdx, %rdx
	cmovneq	%rdi, %rbx
	movq	344(%rsp), %rbp
	movq	336(%rsp), %r13
	cmoveq	%rbp, %r13
	cmpq	$1, %r13
	je	392f
	testq	%r13, %r13
	jne	394f
	movb	$1, %r8b
	leaq	240(%rsp), %rax
	movq	%rax, 40(%rsp)
	xorl	%r14d, %r14d
	xorl	%r12d, %r12d
	jmp	413f
392:
	movl	(%rbx), %ecx
	movq	8(%r10), %r13
	movb	$3, %r8b
	movq	%rcx, 40(%rsp)
	subq	%rcx, %r13
	jbe	418f
	movq	%rdi, 224(%rsp)
	movq	(%r10), %rbx
	addq	40(%rsp), %rbx
	cmpq	$32, %r13
	jae	404f
393:
	movq	%rdx, 216(%rsp)
	cmpq	$256, %r13
	movl	$256, %r12d
	cmovbq	%r13, %r12
	xorl	%edi, %edi
	movq	%rbx, %rsi
	movq	%r12, %rdx
	callq	"memchr::bytes::memchr"
	cmpb	$1, %al
	jne	407f
	movq	%rdx, %r14
	movq	%rdx, %rax
	incq	%rax
	addq	64(%rsp), %rax
	movq	$-1, %rcx
	cmovaeq	%rax, %rcx
	movq	%rcx, 64(%rsp)
	movdqa	80(%rsp), %xmm6
	movq	216(%rsp), %rdx
	jmp	406f
394:
	movq	%rdi, 224(%rsp)
	movq	%r13, %rax
	shrq	$59, %rax
	movb	$7, %r8b
	jne	403f
	movq	%rdx, 216(%rsp)
	movq	%r13, %rdi
	shlq	$4, %rdi
	movl	$8, %esi
	callq	rattle_alloc@PLT
	testb	$1, %al
	movq	64(%rsp), %rbp
	je	420f
	movq	%rdx, %rdi
	movq	%rdx, 256(%rsp)
	movq	$0, 264(%rsp)
	movq	%r13, 272(%rsp)
	xorl	%r14d, %r14d
	xorl	%r8d, %r8d
	movq	48(%rsp), %rdx
	movdqa	80(%rsp), %xmm6
	movq	%rbx, %r9
	movq	%r13, 200(%rsp)
	movq	%rbx, 192(%rsp)
395:
	movl	(%r9,%r8,4), %ecx
	movq	8(%rdx), %rbp
	movq	%rcx, 40(%rsp)
	subq	%rcx, %rbp
	jbe	410f
	movq	(%rdx), %rsi
	addq	40(%rsp), %rsi
	cmpq	$32, %rbp
	jae	398f
396:
	movq	%r8, 232(%rsp)
	movq	%rdi, 56(%rsp)
	cmpq	$256, %rbp
	movl	$256, %r13d
	cmovbq	%rbp, %r13
	xorl	%edi, %edi
	movq	%rsi, %rbx
	movq	%r13, %rdx
	callq	"memchr::bytes::memchr"
	cmpb	$1, %al
	jne	416f
	movq	%rdx, %r12
	leaq	1(%rdx), %rax
	addq	64(%rsp), %rax
	movq	$-1, %rbp
	movq	56(%rsp), %rdi
	jb	397f
	movq	%rax, %rbp
397:
	movq	48(%rsp), %rdx
	movdqa	80(%rsp), %xmm6
	movq	192(%rsp), %r9
	movq	200(%rsp), %r13
	movq	232(%rsp), %r8
	movq	%rbx, %rsi
	jmp	400f
398:
	movdqu	(%rsi), %xmm1
	pxor	%xmm0, %xmm0
	pcmpeqb	%xmm0, %xmm1
	pmovmskb	%xmm1, %ecx
	movl	$64, %eax
	movl	$64, %r12d
	rep		bsfq	%rcx, %r12
	cmpq	$16, %r12
	jb	399f
	movdqu	16(%rsi), %xmm1
	pcmpeqb	%xmm0, %xmm1
	pmovmskb	%xmm1, %ecx
	rep		bsfq	%rcx, %rax
	cmpq	$15, %rax
	ja	396b
	orq	$16, %rax
	movq	%rax, %r12
399:
	leaq	1(%r12), %rax
	addq	64(%rsp), %rax
	movq	$-1, %rbp
	jb	400f
	movq	%rax, %rbp
400:
	cmpq	%r14, 272(%rsp)
	je	402f
401:
	movq	%rbp, 64(%rsp)
	movq	%r14, %rax
	shlq	$4, %rax
	movq	%rsi, (%rdi,%rax)
	movq	%r12, 8(%rdi,%rax)
	incq	%r14
	movq	%r14, 264(%rsp)
	incq	%r8
	cmpq	%r8, %r13
	jne	395b
	jmp	411f
402:
	movq	%rsi, %rbx
	movq	%r8, 232(%rsp)
	leaq	256(%rsp), %rdi
	callq	"std_alloc::vec::Vec::grow_amortized::<#25095d740b27081c>"
	testb	%al, %al
	je	419f
	movq	256(%rsp), %rdi
	movq	264(%rsp), %r14
	movq	48(%rsp), %rdx
	movdqa	80(%rsp), %xmm6
	movq	232(%rsp), %r8
	movq	%rbx, %rsi
	movq	192(%rsp), %r9
	jmp	401b
403:
	movq	$0, 40(%rsp)
	movq	64(%rsp), %rbp
	jmp	422f
404:
	movdqu	(%rbx), %xmm1
	pxor	%xmm0, %xmm0
	pcmpeqb	%xmm0, %xmm1
	pmovmskb	%xmm1, %ecx
	movl	$64, %eax
	movl	$64, %r14d
	rep		bsfq	%rcx, %r14
	cmpq	$16, %r14
	jb	405f
	movdqu	16(%rbx), %xmm1
	pcmpeqb	%xmm0, %xmm1
	pmovmskb	%xmm1, %ecx
	rep		bsfq	%rcx, %rax
	cmpq	$15, %rax
	ja	393b
	orq	$16, %rax
	movq	%rax, %r14
405:
	leaq	1(%r14), %rax
	addq	64(%rsp), %rax
	movq	$-1, %rcx
	cmovaeq	%rax, %rcx
	movq	%rcx, 64(%rsp)
406:
	xorl	%r12d, %r12d
	xorl	%r8d, %r8d
	movq	%rbx, 40(%rsp)
	jmp	412f
407:
	addq	64(%rsp), %r12
	movq	$-1, %rbp
	cmovaeq	%r12, %rbp
	cmpq	$256, %r13
	movb	$4, %r8b
	sbbb	$0, %r8b
	jmp	421f
408:
	cmpb	$1, %cl
	jne	409f
	cmpq	$0, 280(%rsp)
	je	409f
	movq	264(%rsp), %rdi
	callq	rattle_dealloc@PLT
409:
	movq	$0, 40(%rsp)
	cmpb	$1, 96(%rsp)
	movb	$7, %r8b
	movb	$1, %r13b
	movdqa	80(%rsp), %xmm6
	movq	64(%rsp), %rbp
	jne	424f
	cmpq	$0, 120(%rsp)
	je	424f
	movq	104(%rsp), %rdi
	callq	rattle_dealloc@PLT
	movdqa	80(%rsp), %xmm6
	movb	$7, %r8b
	movq	$0, 40(%rsp)
	jmp	424f
410:
	movb	$3, %r8b
	movq	216(%rsp), %rdx
	jmp	417f
411:
	movq	256(%rsp), %rax
	movq	%rax, 40(%rsp)
	movq	272(%rsp), %r12
	movzbl	320(%rsp), %edx
	movb	$1, %r8b
	movq	344(%rsp), %rbp
412:
	movq	224(%rsp), %rdi
413:
	cmpb	$1, %dl
	jne	414f
	testq	%rbp, %rbp
	je	414f
	movq	%r8, %r13
	callq	rattle_dealloc@PLT
	movdqa	80(%rsp), %xmm6
	movq	%r13, %r8
414:
	xorl	%r13d, %r13d
	cmpb	$1, 96(%rsp)
	jne	415f
	cmpq	$0, 120(%rsp)
	movq	64(%rsp), %rbp
	je	426f
	movq	104(%rsp), %rdi
	movq	%r8, %r13
	callq	rattle_dealloc@PLT
	movdqa	80(%rsp), %xmm6
	movq	%r13, %r8
	xorl	%r13d, %r13d
	jmp	426f
415:
	movq	64(%rsp), %rbp
	jmp	426f
416:
	addq	64(%rsp), %r13
	movq	$-1, %rax
	cmovaeq	%r13, %rax
	movq	%rax, 64(%rsp)
	cmpq	$256, %rbp
	movb	$4, %r8b
	sbbb	$0, %r8b
	movdqa	80(%rsp), %xmm6
	movq	216(%rsp), %rdx
	movq	56(%rsp), %rdi
417:
	cmpq	$0, 272(%rsp)
	je	418f
	movq	%r8, %r14
	callq	rattle_dealloc@PLT
	movaps	80(%rsp), %xmm6
	movq	%r14, %r8
	movzbl	320(%rsp), %edx
418:
	movq	64(%rsp), %rbp
	jmp	422f
419:
	cmpq	$0, 272(%rsp)
	je	420f
	movq	256(%rsp), %rdi
	callq	rattle_dealloc@PLT
420:
	movq	$0, 40(%rsp)
	movb	$7, %r8b
421:
	movdqa	80(%rsp), %xmm6
	movq	216(%rsp), %rdx
422:
	cmpb	$1, %dl
	jne	423f
	cmpq	$0, 344(%rsp)
	je	423f
	movq	328(%rsp), %rdi
	movq	%r8, %r14
	callq	rattle_dealloc@PLT
	movdqa	80(%rsp), %xmm6
	movq	%r14, %r8
423:
	xorl	%r14d, %r14d
	cmpb	$1, 96(%rsp)
	movb	$1, %r13b
	jne	425f
	cmpq	$0, 120(%rsp)
	je	425f
	movq	104(%rsp), %rdi
	movq	%r8, %r14
	callq	rattle_dealloc@PLT
	movdqa	80(%rsp), %xmm6
	movq	%r14, %r8
424:
	xorl	%r14d, %r14d
425:
	xorl	%r12d, %r12d
	xorl	%r15d, %r15d
426:
	movzbl	%r13b, %eax
	pinsrq	$1, %rbp, %xmm6
	pxor	%xmm3, %xmm3
	movq	208(%rsp), %r13
427:
	movq	456(%rsp), %rcx
	movdqu	%xmm6, (%rcx)
	movaps	432(%rsp), %xmm0
	movq	624(%rsp), %rcx
	movups	%xmm0, (%rcx)
	movzbl	%r8b, %ecx
	movq	%rax, (%r13)
	movw	%cx, 8(%r13)
	movd	%xmm3, 10(%r13)
	movq	40(%rsp), %rax
	movq	%rax, 16(%r13)
	movq	%r14, 24(%r13)
	movq	%r12, 32(%r13)
	movq	%r15, 40(%r13)
	addq	$568, %rsp
	popq	%rbx
	popq	%r12
	popq	%r13
	popq	%r14
	popq	%r15
	popq	%rbp
	retq
428:
	.size	"mime_view::cache::Cache::glob_hits", 428b-"mime_view::cache::Cache::glob_hits"

	.section	.rodata.cst16,"aM",@progbits,16
	.p2align	4, 0x0
1:
	.byte	42,42,42,42,42,42,42,42
	.zero	1
	.zero	1
	.zero	1
	.zero	1
	.zero	1
	.zero	1
	.zero	1
	.zero	1
2:
	.byte	63,63,63,63,63,63,63,63
	.zero	1
	.zero	1
	.zero	1
	.zero	1
	.zero	1
	.zero	1
	.zero	1
	.zero	1
3:
	.byte	92,92,92,92,92,92,92,92
	.zero	1
	.zero	1
	.zero	1
	.zero	1
	.zero	1
	.zero	1
	.zero	1
	.zero	1
4:
	.byte	91,91,91,91,91,91,91,91
	.zero	1
	.zero	1
	.zero	1
	.zero	1
	.zero	1
	.zero	1
	.zero	1
	.zero	1
5:
	.zero	16,93
	.text
	.p2align	4
	.type	"mime_view::globs::glob_list_hits",@function
"mime_view::globs::glob_list_hits":
	pushq	%rbp
	pushq	%r15
	pushq	%r14
	pushq	%r13
	pushq	%r12
	pushq	%rbx
	subq	$248, %rsp
	movq	%rcx, %rbp
	movq	%rdi, 160(%rsp)
	movl	%edx, %eax
	movq	(%rsi), %rcx
	movq	56(%rbp), %rdx
	incq	%rdx
	movq	$-1, %rbx
	cmovneq	%rdx, %rbx
	leaq	4(%rax), %r14
	cmpq	%r14, 8(%rcx)
	movq	%rbx, 56(%rbp)
	jb	6f
	movq	(%rcx), %rdx
	movl	(%rdx,%rax), %edx
	movl	%edx, %edi
	bswapl	%edi
	movq	%rdi, 200(%rsp)
	leaq	(%rdi,%rdi,2), %rdi
	leaq	(%r14,%rdi,4), %rdi
	cmpq	%rdi, 8(%rcx)
	jae	8f
6:
	movq	160(%rsp), %rcx
	movb	$1, (%rcx)
	movl	$3, 8(%rcx)
	movw	$0, 12(%rcx)
	movq	%rax, 16(%rcx)
7:
	addq	$248, %rsp
	popq	%rbx
	popq	%r12
	popq	%r13
	popq	%r14
	popq	%r15
	popq	%rbp
	retq
8:
	movq	64(%rbp), %r8
	movq	72(%rbp), %r13
	movq	80(%rbp), %rax
	movq	%rax, 192(%rsp)
	testl	%edx, %edx
	je	120f
	movq	(%rsi), %rax
	movq	%rax, 232(%rsp)
	movq	8(%rsi), %rax
	movq	%rax, 64(%rsp)
	movq	16(%rsi), %rax
	movq	%rax, 72(%rsp)
	leaq	24(%rbp), %rax
	movq	%rax, 216(%rsp)
	movq	%r13, %rax
	subq	200(%rsp), %rax
	movq	%rax, 224(%rsp)
	xorl	%eax, %eax
	movq	%rbp, 32(%rsp)
	movq	%r14, 56(%rsp)
	jmp	12f
9:
	movq	144(%rsp), %r8
	incq	%r8
	movq	$-1, %rax
	cmoveq	%rax, %r8
	addq	16(%rsp), %r8
	cmovbq	%rax, %r8
	movq	32(%rsp), %rbp
10:
	movq	40(%rsp), %rax
11:
	incq	%rax
	cmpq	200(%rsp), %rax
	movq	80(%rsp), %r13
	je	119f
12:
	testq	%r13, %r13
	je	117f
	movq	%r8, 16(%rsp)
	movq	%rax, 40(%rsp)
	leaq	(%rax,%rax,2), %rax
	decq	%r13
	movq	%rbx, %rcx
	incq	%rcx
	movq	$-1, %rbx
	cmovneq	%rcx, %rbx
	movq	232(%rsp), %rcx
	movq	(%rcx), %r8
	movq	8(%rcx), %r12
	leaq	(%r8,%r14), %rcx
	movl	(%rcx,%rax,4), %r14d
	bswapl	%r14d
	subq	%r14, %r12
	jbe	118f
	movq	%r13, 80(%rsp)
	movl	4(%rcx,%rax,4), %edx
	movq	%rdx, 240(%rsp)
	movl	8(%rcx,%rax,4), %r11d
	leaq	(%r8,%r14), %rax
	movq	%rax, 24(%rsp)
	cmpq	$32, %r12
	jae	14f
13:
	movq	%r8, %r15
	movl	%r11d, %r13d
	movq	%rbx, %rbp
	cmpq	$256, %r12
	movl	$256, %ebx
	cmovbq	%r12, %rbx
	xorl	%edi, %edi
	movq	24(%rsp), %rsi
	movq	%rbx, %rdx
	callq	"memchr::bytes::memchr"
	cmpb	$1, %al
	jne	121f
	movq	%rdx, %r10
	movq	%rdx, %rax
	incq	%rax
	addq	16(%rsp), %rax
	movq	$-1, %rcx
	cmovaeq	%rax, %rcx
	movq	%rcx, 16(%rsp)
	movq	%rbp, %rbx
	movl	%r13d, %r11d
	movq	%r15, %r8
	movq	32(%rsp), %rbp
	jmp	16f
	.p2align	4
14:
	leaq	(%r8,%r14), %rax
	movdqu	(%rax), %xmm1
	pxor	%xmm0, %xmm0
	pcmpeqb	%xmm0, %xmm1
	pmovmskb	%xmm1, %ecx
	movl	$64, %eax
	movl	$64, %r10d
	rep		bsfq	%rcx, %r10
	cmpq	$16, %r10
	jb	15f
	leaq	(%r8,%r14), %rcx
	movdqu	16(%rcx), %xmm1
	pcmpeqb	%xmm0, %xmm1
	pmovmskb	%xmm1, %ecx
	rep		bsfq	%rcx, %rax
	cmpq	$15, %rax
	ja	13b
	orq	$16, %rax
	movq	%rax, %r10
15:
	leaq	1(%r10), %rax
	addq	16(%rsp), %rax
	movq	$-1, %rcx
	cmovaeq	%rax, %rcx
	movq	%rcx, 16(%rsp)
16:
	bswapl	%r11d
	movl	%r11d, %r9d
	shrl	$8, %r9d
	cmpb	$0, (%rbp)
	movabsq	$1688849862361089, %r15
	je	27f
17:
	testq	%r10, %r10
	movl	%r11d, 92(%rsp)
	je	29f
	movq	24(%rsp), %rax
	movzbl	(%rax), %edx
	cmpl	$42, %edx
	jne	20f
	movq	24(%rsp), %rax
	leaq	1(%rax), %rcx
	leaq	-1(%r10), %rax
	cmpq	$8, %rax
	jb	18f
	movq	(%rcx), %xmm0
	movdqa	1b(%rip), %xmm1
	pcmpeqb	%xmm0, %xmm1
	movdqa	2b(%rip), %xmm2
	pcmpeqb	%xmm0, %xmm2
	por	%xmm1, %xmm2
	movdqa	3b(%rip), %xmm1
	pcmpeqb	%xmm0, %xmm1
	pcmpeqb	4b(%rip), %xmm0
	por	%xmm1, %xmm0
	por	%xmm2, %xmm0
	pmovmskb	%xmm0, %esi
	testb	%sil, %sil
	jne	20f
18:
	movl	$1, %esi
	.p2align	4
19:
	cmpq	%rsi, %r10
	je	92f
	movq	24(%rsp), %rdi
	movzbl	(%rdi,%rsi), %edi
	incq	%rsi
	addl	$-42, %edi
	cmpl	$50, %edi
	ja	19b
	btq	%rdi, %r15
	jae	19b
20:
	cmpq	$0, 72(%rsp)
	je	21f
	leal	-42(%rdx), %eax
	cmpl	$50, %eax
	ja	79f
	btq	%rax, %r15
	jae	79f
21:
	movq	%r10, %rcx
	cmpq	$32, %r10
	jb	30f
	movq	%r8, %r11
	leaq	(%r8,%r14), %rax
	addq	$-64, %rax
	movq	%r10, %rdx
22:
	movq	24(%rsp), %rcx
	movdqu	-32(%rcx,%rdx), %xmm1
	movdqu	-16(%rcx,%rdx), %xmm2
	movdqa	5b(%rip), %xmm0
	pcmpeqb	%xmm0, %xmm1
	pmovmskb	%xmm1, %esi
	pcmpeqb	%xmm0, %xmm2
	pmovmskb	%xmm2, %ecx
	shll	$16, %ecx
	orl	%esi, %ecx
	je	24f
	leaq	-32(%rdx), %rsi
	movl	%ecx, %edi
	.p2align	4
23:
	bsrq	%rdi, %rcx
	leaq	(%rcx,%rsi), %rbp
	movq	24(%rsp), %r8
	cmpb	$93, (%r8,%rbp)
	je	32f
	movq	$-2, %r8
	rolq	%cl, %r8
	andq	%r8, %rdi
	jne	23b
24:
	movq	%rdx, %rsi
	.p2align	4
25:
	movq	%rsi, %rcx
	leaq	-32(%rsi), %rdx
	cmpq	$128, %rdx
	jb	26f
	movdqu	-96(%rax,%rcx), %xmm1
	movdqu	-80(%rax,%rcx), %xmm2
	movdqu	-64(%rax,%rcx), %xmm3
	movdqu	-48(%rax,%rcx), %xmm4
	pcmpeqb	%xmm0, %xmm1
	pcmpeqb	%xmm0, %xmm2
	pcmpeqb	%xmm0, %xmm3
	por	%xmm1, %xmm3
	pcmpeqb	%xmm0, %xmm4
	por	%xmm2, %xmm4
	movdqu	-16(%rax,%rcx), %xmm1
	movdqu	-32(%rax,%rcx), %xmm2
	pcmpeqb	%xmm0, %xmm2
	pcmpeqb	%xmm0, %xmm1
	movdqu	16(%rax,%rcx), %xmm5
	movdqu	(%rax,%rcx), %xmm6
	pcmpeqb	%xmm0, %xmm6
	por	%xmm2, %xmm6
	por	%xmm3, %xmm6
	pcmpeqb	%xmm0, %xmm5
	por	%xmm1, %xmm5
	por	%xmm4, %xmm5
	por	%xmm6, %xmm5
	pmovmskb	%xmm5, %edi
	leaq	-128(%rcx), %rsi
	testl	%edi, %edi
	je	25b
26:
	cmpq	$31, %rdx
	ja	22b
	addq	$-32, %rcx
	movq	%r11, %r8
	jmp	30f
	.p2align	4
27:
	movl	8(%rbp), %eax
	testl	%eax, %eax
	je	17b
	cmpq	$0, 72(%rsp)
	je	38f
	testq	%r10, %r10
	je	38f
	movq	24(%rsp), %rcx
	movzbl	(%rcx), %ecx
	movl	%ecx, %edx
	addl	$-42, %edx
	cmpl	$50, %edx
	ja	28f
	btq	%rdx, %r15
	jb	39f
28:
	leal	-65(%rcx), %edx
	leal	32(%rcx), %esi
	cmpb	$26, %dl
	movzbl	%sil, %edx
	movzbl	%cl, %esi
	cmovael	%esi, %edx
	movq	64(%rsp), %rdi
	movzbl	(%rdi), %edi
	movq	%r8, %r13
	leal	-65(%rdi), %r8d
	movq	%r14, %r12
	movq	%rbp, %r14
	movl	%r9d, %ebp
	leal	32(%rdi), %r9d
	cmpb	$26, %r8b
	movzbl	%r9b, %r8d
	movl	%ebp, %r9d
	movq	%r14, %rbp
	movq	%r12, %r14
	cmovael	%edi, %r8d
	testb	$1, %r9b
	cmovnel	%esi, %edx
	cmovnel	%edi, %r8d
	cmpb	%r8b, %dl
	movq	%r13, %r8
	je	39f
	jmp	80f
	.p2align	4
29:
	xorl	%ecx, %ecx
30:
	leaq	(%r8,%r14), %rax
	decq	%rax
	.p2align	4
31:
	testq	%rcx, %rcx
	je	33f
	leaq	-1(%rcx), %rbp
	cmpb	$93, (%rax,%rcx)
	movq	%rbp, %rcx
	jne	31b
32:
	notq	%rbp
	addq	%r10, %rbp
	jmp	34f
	.p2align	4
33:
	movq	%r10, %rbp
34:
	pxor	%xmm0, %xmm0
	movdqa	%xmm0, 112(%rsp)
	movdqa	%xmm0, 96(%rsp)
	movq	$0, 128(%rsp)
	testq	%r10, %r10
	movq	56(%rsp), %r14
	je	35f
	movq	24(%rsp), %rax
	cmpb	$42, (%rax)
	jne	35f
	movq	24(%rsp), %rax
	leaq	1(%rax), %r15
	leaq	-1(%r10), %rdx
	xorl	%eax, %eax
	xorl	%edi, %edi
	jmp	43f
	.p2align	4
35:
	movq	72(%rsp), %rax
	movq	%rax, (%rsp)
	movzbl	%r9b, %r8d
	andl	$1, %r8d
	leaq	96(%rsp), %rdi
	movq	24(%rsp), %rsi
	movq	%r10, %rdx
	movq	%rbp, %rcx
	movl	%r9d, %r12d
	movq	64(%rsp), %r9
	movq	%r10, %r15
	callq	"mime_base::matching::attempt::attempt"
	movzbl	96(%rsp), %eax
	movq	128(%rsp), %rdi
	leaq	126f(%rip), %rcx
	movslq	(%rcx,%rax,4), %rax
	addq	%rcx, %rax
	jmpq	*%rax
36:
	movq	32(%rsp), %rbp
37:
	addq	16(%rsp), %rdi
	movq	$-1, %r8
	cmovaeq	%rdi, %r8
	jmp	10b
38:
	testq	%r10, %r10
	je	68f
	movq	24(%rsp), %rcx
	movzbl	(%rcx), %ecx
39:
	cmpb	$42, %cl
	jne	67f
	leaq	-1(%r10), %rcx
	cmpq	$8, %rcx
	jb	40f
	movq	24(%rsp), %rcx
	movq	1(%rcx), %xmm0
	movdqa	1b(%rip), %xmm1
	pcmpeqb	%xmm0, %xmm1
	movdqa	2b(%rip), %xmm2
	pcmpeqb	%xmm0, %xmm2
	por	%xmm1, %xmm2
	movdqa	3b(%rip), %xmm1
	pcmpeqb	%xmm0, %xmm1
	pcmpeqb	4b(%rip), %xmm0
	por	%xmm1, %xmm0
	por	%xmm2, %xmm0
	pmovmskb	%xmm0, %ecx
	testb	%cl, %cl
	jne	70f
40:
	movl	$1, %ecx
	.p2align	4
41:
	cmpq	%rcx, %r10
	je	99f
	movq	24(%rsp), %rdx
	movzbl	(%rdx,%rcx), %edx
	incq	%rcx
	addl	$-42, %edx
	cmpl	$50, %edx
	ja	41b
	btq	%rdx, %r15
	jae	41b
	jmp	70f
42:
	movq	104(%rsp), %rax
	movq	112(%rsp), %rcx
	movq	120(%rsp), %rdx
	movq	%r15, %r10
	movq	%rcx, %r15
	movl	%r12d, %r9d
43:
	movq	64(%rsp), %rcx
	leaq	(%rcx,%rax), %r11
	movq	72(%rsp), %r13
	subq	%rax, %r13
	cmpq	$8, %rdx
	movq	%rdi, 144(%rsp)
	jb	45f
44:
	movq	(%r15), %xmm0
	movdqa	1b(%rip), %xmm1
	pcmpeqb	%xmm0, %xmm1
	movdqa	2b(%rip), %xmm2
	pcmpeqb	%xmm0, %xmm2
	por	%xmm1, %xmm2
	movdqa	3b(%rip), %xmm1
	pcmpeqb	%xmm0, %xmm1
	pcmpeqb	4b(%rip), %xmm0
	por	%xmm1, %xmm0
	por	%xmm2, %xmm0
	pmovmskb	%xmm0, %eax
	orl	$256, %eax
	rep		bsfl	%eax, %eax
	jmp	46f
	.p2align	4
45:
	xorl	%eax, %eax
46:
	movq	%rdx, %rdi
	subq	%rax, %rdi
	je	73f
	leaq	(%r15,%rax), %rsi
	jmp	49f
	.p2align	4
47:
	xorl	%esi, %esi
	testq	%r12, %r12
	setne	%sil
	addq	%rsi, %rcx
	subq	%rsi, %r12
48:
	incq	%rax
	movq	%r12, %rdi
	movq	%rcx, %rsi
	testq	%r12, %r12
	je	73f
49:
	leaq	1(%rsi), %rcx
	leaq	-1(%rdi), %r12
	movzbl	(%rsi), %r8d
	cmpl	$91, %r8d
	je	50f
	cmpl	$92, %r8d
	je	47b
	cmpl	$42, %r8d
	jne	48b
	jmp	54f
	.p2align	4
50:
	testq	%r12, %r12
	je	72f
	movzbl	1(%rsi), %r8d
	addq	$2, %rsi
	addq	$-2, %rdi
	cmpl	$33, %r8d
	je	51f
	cmpl	$94, %r8d
	je	51f
	movq	%rcx, %rsi
	movq	%r12, %rdi
51:
	movq	%rdi, %r8
	addq	$-1, %r8
	jae	48b
	cmpq	%rbp, %r8
	jbe	48b
	addq	$2, %rsi
	movl	$2, %r8d
	subq	%rdi, %r8
	.p2align	4
52:
	cmpb	$93, -1(%rsi)
	je	53f
	incq	%rsi
	incq	%r8
	cmpq	$1, %r8
	jne	52b
	jmp	48b
53:
	negq	%r8
	movq	%rsi, %rcx
	movq	%r8, %r12
	jmp	48b
54:
	movq	%r10, 184(%rsp)
	movq	%rbx, 136(%rsp)
	pxor	%xmm0, %xmm0
	movdqa	%xmm0, 112(%rsp)
	movdqa	%xmm0, 96(%rsp)
	movq	$0, 128(%rsp)
	movl	%r9d, 52(%rsp)
	movzbl	%r9b, %ecx
	testq	%rdx, %rdx
	movq	%r11, 168(%rsp)
	movq	%r13, 152(%rsp)
	je	62f
	movl	%ecx, 180(%rsp)
	movq	%rdx, 208(%rsp)
	xorl	%r12d, %r12d
	xorl	%ebx, %ebx
	.p2align	4
55:
	movq	%r13, %r14
	subq	%rbx, %r14
	movq	%r15, %r13
	movzbl	(%r15), %r15d
	cmpl	$64, %r15d
	ja	57f
	cmpl	$42, %r15d
	je	57f
	cmpl	$63, %r15d
	je	57f
	leaq	(%r11,%rbx), %rsi
	movl	%r15d, %edi
	movq	%r14, %rdx
	callq	"memchr::bytes::memchr"
	cmpb	$1, %al
	cmovneq	%r14, %rdx
	addq	%rdx, %rbx
	movq	%r12, %rax
	addq	%rdx, %rax
	movq	$-1, %r12
	cmovaeq	%rax, %r12
	testq	%rdx, %rdx
	je	56f
	cmpq	%rbx, 152(%rsp)
	je	101f
56:
	movq	152(%rsp), %r14
	subq	%rbx, %r14
	movq	168(%rsp), %r11
	.p2align	4
57:
	leaq	(%r11,%rbx), %r9
	testq	%r14, %r14
	je	58f
	leal	-42(%r15), %eax
	cmpl	$50, %eax
	ja	60f
	movabsq	$1688849862361089, %rcx
	btq	%rax, %rcx
	jae	60f
58:
	movq	%r14, (%rsp)
	movl	180(%rsp), %r8d
	andl	$1, %r8d
	leaq	96(%rsp), %rdi
	movq	%r13, %r15
	movq	%r13, %rsi
	movq	208(%rsp), %rdx
	movq	%rbp, %rcx
	callq	"mime_base::matching::attempt::attempt"
	movq	168(%rsp), %r11
	addq	128(%rsp), %r12
	movq	$-1, %r14
	cmovaeq	%r12, %r14
	movzbl	96(%rsp), %eax
	cmpb	$4, %al
	jne	64f
59:
	incq	%rbx
	movq	%r14, %r12
	movq	152(%rsp), %r13
	jmp	55b
60:
	leal	-65(%r15), %eax
	leal	32(%r15), %ecx
	cmpb	$26, %al
	movzbl	%cl, %eax
	cmovael	%r15d, %eax
	movzbl	(%r9), %ecx
	leal	-65(%rcx), %edx
	leal	32(%rcx), %esi
	cmpb	$26, %dl
	movzbl	%sil, %edx
	cmovael	%ecx, %edx
	testb	$1, 52(%rsp)
	cmovnel	%r15d, %eax
	cmovnel	%ecx, %edx
	cmpb	%dl, %al
	jne	58b
	cmpq	$1, 208(%rsp)
	je	58b
	cmpq	$1, %r14
	je	58b
	movzbl	1(%r13), %eax
	leal	-42(%rax), %ecx
	cmpl	$50, %ecx
	ja	61f
	movabsq	$1688849862361089, %rdx
	btq	%rcx, %rdx
	jb	58b
61:
	leal	-65(%rax), %ecx
	leal	32(%rax), %edx
	cmpb	$26, %cl
	movzbl	%dl, %ecx
	movzbl	%al, %eax
	cmovael	%eax, %ecx
	movzbl	1(%r9), %edx
	leal	-65(%rdx), %esi
	leal	32(%rdx), %edi
	cmpb	$26, %sil
	movzbl	%dil, %esi
	cmovael	%edx, %esi
	testb	$1, 52(%rsp)
	cmovnel	%eax, %ecx
	cmovnel	%edx, %esi
	cmpb	%sil, %cl
	je	58b
	addq	$2, %r12
	movq	$-1, %r14
	cmovaeq	%r12, %r14
	movq	%r13, %r15
	jmp	59b
62:
	movq	%r13, %r12
	xorl	%r14d, %r14d
	movq	$-1, %rbx
	.p2align	4
63:
	leaq	(%rbx,%r11), %r9
	incq	%r9
	movq	%r12, (%rsp)
	movl	%ecx, %r8d
	andl	$1, %r8d
	leaq	96(%rsp), %rdi
	movq	%r15, %rsi
	xorl	%edx, %edx
	movl	%ecx, %r13d
	movq	%rbp, %rcx
	callq	"mime_base::matching::attempt::attempt"
	movl	%r13d, %ecx
	movq	168(%rsp), %r11
	addq	128(%rsp), %r14
	movq	$-1, %rax
	cmovbq	%rax, %r14
	movzbl	96(%rsp), %eax
	incq	%rbx
	decq	%r12
	cmpb	$4, %al
	je	63b
64:
	addq	144(%rsp), %r14
	movq	$-1, %rdi
	cmovaeq	%r14, %rdi
	cmpb	$3, %al
	jne	103f
	movq	112(%rsp), %r15
	movq	120(%rsp), %rdx
	addq	104(%rsp), %rbx
	addq	%rbx, %r11
	movq	152(%rsp), %r13
	subq	%rbx, %r13
	movq	136(%rsp), %rbx
	movq	56(%rsp), %r14
	movl	52(%rsp), %r9d
	movq	184(%rsp), %r10
	cmpq	$8, %rdx
	movq	%rdi, 144(%rsp)
	jae	44b
	jmp	45b
65:
	movq	%r15, %r10
	movq	16(%rsp), %rax
66:
	addq	%rax, %rdi
	movq	$-1, %r8
	cmovaeq	%rdi, %r8
	movl	92(%rsp), %r11d
	movabsq	$1688849862361089, %r15
	testq	%r10, %r10
	jne	76f
	jmp	82f
67:
	cmpq	$8, %r10
	jb	68f
	movq	24(%rsp), %rcx
	movq	(%rcx), %xmm0
	movdqa	1b(%rip), %xmm1
	pcmpeqb	%xmm0, %xmm1
	movdqa	2b(%rip), %xmm2
	pcmpeqb	%xmm0, %xmm2
	por	%xmm1, %xmm2
	movdqa	3b(%rip), %xmm1
	pcmpeqb	%xmm0, %xmm1
	pcmpeqb	4b(%rip), %xmm0
	por	%xmm1, %xmm0
	por	%xmm2, %xmm0
	pmovmskb	%xmm0, %ecx
	testb	%cl, %cl
	jne	70f
68:
	xorl	%ecx, %ecx
	.p2align	4
69:
	cmpq	%rcx, %r10
	je	97f
	movq	24(%rsp), %rdx
	movzbl	(%rdx,%rcx), %edx
	incq	%rcx
	addl	$-42, %edx
	cmpl	$50, %edx
	ja	69b
	btq	%rdx, %r15
	jae	69b
70:
	xorl	%ecx, %ecx
71:
	movzbl	%r11b, %edx
	orl	%ecx, %edx
	shll	$17, %edx
	movzwl	%r10w, %ecx
	leal	(%rdx,%rcx,2), %ecx
	movl	%r9d, %edx
	andl	$1, %edx
	orl	%ecx, %edx
	cmpl	%edx, %eax
	jbe	17b
	movq	56(%rsp), %r14
	movq	40(%rsp), %rax
	movq	16(%rsp), %r8
	jmp	11b
72:
	incq	%rax
73:
	pxor	%xmm0, %xmm0
	movdqa	%xmm0, 112(%rsp)
	movdqa	%xmm0, 96(%rsp)
	movq	$0, 128(%rsp)
	subq	%rax, %r13
	jb	9b
	addq	%r13, %r11
	testq	%rdx, %rdx
	je	74f
	testq	%rax, %rax
	je	74f
	movzbl	(%r15), %ecx
	leal	-42(%rcx), %edi
	cmpl	$50, %edi
	ja	98f
	movabsq	$1688849862361089, %rsi
	btq	%rdi, %rsi
	jae	98f
74:
	movq	%rax, (%rsp)
	movl	%r9d, %r12d
	movzbl	%r9b, %r8d
	andl	$1, %r8d
	leaq	96(%rsp), %rdi
	movq	%r15, %rsi
	movq	%rbp, %rcx
	movq	%r11, %r9
	movq	%r10, %r15
	callq	"mime_base::matching::attempt::attempt"
	movq	%r15, %r10
	movq	144(%rsp), %r8
	addq	128(%rsp), %r8
	movq	$-1, %rax
	cmovbq	%rax, %r8
	addq	16(%rsp), %r8
	cmovbq	%rax, %r8
	cmpb	$0, 96(%rsp)
	movq	32(%rsp), %rbp
	movq	40(%rsp), %rax
	movl	92(%rsp), %r11d
	movabsq	$1688849862361089, %r15
	jne	11b
75:
	testq	%r10, %r10
	je	82f
76:
	movq	24(%rsp), %rax
	cmpb	$42, (%rax)
	jne	81f
	leaq	-1(%r10), %rax
	cmpq	$8, %rax
	jb	77f
	movq	24(%rsp), %rax
	movq	1(%rax), %xmm0
	movdqa	1b(%rip), %xmm1
	pcmpeqb	%xmm0, %xmm1
	movdqa	2b(%rip), %xmm2
	pcmpeqb	%xmm0, %xmm2
	por	%xmm1, %xmm2
	movdqa	3b(%rip), %xmm1
	pcmpeqb	%xmm0, %xmm1
	pcmpeqb	4b(%rip), %xmm0
	por	%xmm1, %xmm0
	por	%xmm2, %xmm0
	pmovmskb	%xmm0, %eax
	testb	%al, %al
	jne	84f
77:
	movl	$1, %eax
	.p2align	4
78:
	cmpq	%rax, %r10
	je	100f
	movq	24(%rsp), %rcx
	movzbl	(%rcx,%rax), %ecx
	incq	%rax
	addl	$-42, %ecx
	cmpl	$50, %ecx
	ja	78b
	btq	%rcx, %r15
	jae	78b
	jmp	84f
79:
	leal	-65(%rdx), %eax
	leal	32(%rdx), %ecx
	cmpb	$26, %al
	movzbl	%cl, %eax
	cmovael	%edx, %eax
	movq	64(%rsp), %rcx
	movzbl	(%rcx), %ecx
	leal	-65(%rcx), %esi
	leal	32(%rcx), %edi
	cmpb	$26, %sil
	movzbl	%dil, %esi
	cmovael	%ecx, %esi
	testb	$1, %r9b
	cmovnel	%edx, %eax
	cmovnel	%ecx, %esi
	cmpb	%sil, %al
	je	21b
80:
	movq	16(%rsp), %r8
	incq	%r8
	movq	$-1, %rax
	cmoveq	%rax, %r8
	movq	56(%rsp), %r14
	jmp	10b
81:
	cmpq	$8, %r10
	jb	82f
	movq	24(%rsp), %rax
	movq	(%rax), %xmm0
	movdqa	1b(%rip), %xmm1
	pcmpeqb	%xmm0, %xmm1
	movdqa	2b(%rip), %xmm2
	pcmpeqb	%xmm0, %xmm2
	por	%xmm1, %xmm2
	movdqa	3b(%rip), %xmm1
	pcmpeqb	%xmm0, %xmm1
	pcmpeqb	4b(%rip), %xmm0
	por	%xmm1, %xmm0
	por	%xmm2, %xmm0
	pmovmskb	%xmm0, %eax
	testb	%al, %al
	jne	84f
82:
	xorl	%eax, %eax
	.p2align	4
83:
	cmpq	%rax, %r10
	je	96f
	movq	24(%rsp), %rcx
	movzbl	(%rcx,%rax), %ecx
	incq	%rax
	addl	$-42, %ecx
	cmpl	$50, %ecx
	ja	83b
	btq	%rcx, %r15
	jae	83b
84:
	xorl	%eax, %eax
85:
	movq	240(%rsp), %r13
	bswapl	%r13d
	movzbl	%r11b, %ecx
	orl	%eax, %ecx
	shll	$17, %ecx
	movzwl	%r10w, %eax
	leal	(%rcx,%rax,2), %eax
	andl	$1, %r12d
	orl	%eax, %r12d
	movq	32(%rsp), %rbp
	cmpb	$0, (%rbp)
	je	88f
	movq	%r13, %r15
	movzbl	8(%rbp), %eax
	leaq	16(%rbp), %rcx
	leaq	40(%rbp), %rdx
	testb	%al, %al
	cmoveq	%rdx, %rcx
	je	89f
	movq	32(%rbp), %rdx
	movq	80(%rsp), %r13
	cmpq	%rdx, 8(%rcx)
	je	90f
86:
	testb	%al, %al
	je	91f
87:
	movq	32(%rsp), %rbp
	movq	16(%rbp), %rax
	movq	24(%rbp), %rcx
	shlq	$32, %r15
	movl	%r12d, %edx
	orq	%r15, %rdx
	movq	%rdx, (%rax,%rcx,8)
	incq	%rcx
	movq	%rcx, 24(%rbp)
	jmp	10b
88:
	movl	8(%rbp), %eax
	cmpl	%eax, %r12d
	jb	10b
	movq	%rbx, %r15
	movzbl	16(%rbp), %ebx
	jbe	106f
	testb	%bl, %bl
	je	104f
	movq	32(%rsp), %rbp
	cmpq	$0, 32(%rbp)
	je	105f
	movq	$0, 32(%rbp)
	jmp	105f
89:
	movl	$4, %edx
	movq	80(%rsp), %r13
	cmpq	%rdx, 8(%rcx)
	jne	86b
90:
	movq	%r8, 16(%rsp)
	movq	32(%rsp), %rbp
	leaq	8(%rbp), %rdi
	callq	"smallvec::small_vec::SmallVec::reserve_one::<#c56eefbaea896dc3>"
	testb	%al, %al
	jne	123f
	movzbl	8(%rbp), %eax
	movq	16(%rsp), %r8
	testb	%al, %al
	jne	87b
91:
	movq	32(%rsp), %rbp
	movq	48(%rbp), %rax
	shlq	$32, %r15
	movl	%r12d, %ecx
	orq	%r15, %rcx
	movq	%rcx, 16(%rbp,%rax,8)
	incq	%rax
	movq	%rax, 48(%rbp)
	jmp	10b
92:
	movl	$1, %edi
	movq	72(%rsp), %rsi
	subq	%rax, %rsi
	movq	56(%rsp), %r14
	jb	37b
	testq	%rax, %rax
	je	102f
	movq	%r10, %rbp
	addq	64(%rsp), %rsi
	xorl	%edx, %edx
	testb	$1, %r9b
	je	94f
93:
	movzbl	(%rcx,%rdx), %edi
	cmpb	(%rsi,%rdx), %dil
	jne	110f
	incq	%rdx
	cmpq	%rdx, %rax
	jne	93b
	jmp	95f
94:
	movl	%r9d, %r12d
	movzbl	(%rcx,%rdx), %edi
	leal	-65(%rdi), %r8d
	leal	32(%rdi), %r9d
	cmpb	$26, %r8b
	movzbl	%r9b, %r8d
	cmovael	%edi, %r8d
	movzbl	(%rsi,%rdx), %edi
	leal	-65(%rdi), %r9d
	leal	32(%rdi), %r10d
	cmpb	$26, %r9b
	movzbl	%r10b, %r9d
	cmovael	%edi, %r9d
	cmpb	%r9b, %r8b
	jne	111f
	incq	%rdx
	cmpq	%rdx, %rax
	movl	%r12d, %r9d
	jne	94b
95:
	movl	%r9d, %r12d
	addq	16(%rsp), %rax
	movq	$-1, %r8
	cmovaeq	%rax, %r8
	movq	%rbp, %r10
	testq	%r10, %r10
	jne	76b
	jmp	82b
96:
	movl	$512, %eax
	jmp	85b
97:
	movl	$512, %ecx
	jmp	71b
98:
	leal	-65(%rcx), %edi
	leal	32(%rcx), %esi
	cmpb	$26, %dil
	movzbl	%sil, %r12d
	movzbl	%cl, %ecx
	cmovael	%ecx, %r12d
	movzbl	(%r11), %esi
	leal	-65(%rsi), %edi
	leal	32(%rsi), %r8d
	cmpb	$26, %dil
	movzbl	%r8b, %edi
	cmovael	%esi, %edi
	testb	$1, %r9b
	cmovnel	%ecx, %r12d
	cmovnel	%esi, %edi
	cmpb	%dil, %r12b
	je	74b
	jmp	9b
99:
	movl	$256, %ecx
	jmp	71b
100:
	movl	$256, %eax
	jmp	85b
101:
	incq	%r12
	movq	$-1, %rax
	cmoveq	%rax, %r12
	addq	144(%rsp), %r12
	cmovbq	%rax, %r12
	movq	%r12, %rdi
	movq	32(%rsp), %rbp
	movq	136(%rsp), %rbx
	movq	56(%rsp), %r14
	jmp	37b
102:
	movl	%r9d, %r12d
	xorl	%edx, %edx
	jmp	112f
103:
	movzbl	%al, %eax
	decl	%eax
	cmpl	$2, %eax
	movq	16(%rsp), %rax
	movq	56(%rsp), %r14
	movl	52(%rsp), %r12d
	movq	184(%rsp), %r10
	jae	113f
	movq	%rax, 16(%rsp)
	movq	32(%rsp), %rbp
	movq	136(%rsp), %rbx
	jmp	37b
104:
	movq	32(%rsp), %rbp
	movq	40(%rbp), %rdx
	testq	%rdx, %rdx
	je	105f
	shlq	$2, %rdx
	movq	216(%rsp), %rdi
	xorl	%esi, %esi
	movq	%r8, 16(%rsp)
	callq	memset@PLT
	movq	16(%rsp), %r8
	movq	$0, 40(%rbp)
105:
	movl	$0, 8(%rbp)
106:
	xorl	%eax, %eax
	testb	%bl, %bl
	sete	%al
	movq	32(%rbp,%rax,8), %rax
	je	107f
	movq	40(%rbp), %rcx
	jmp	108f
107:
	movl	$4, %ecx
108:
	cmpq	%rcx, %rax
	je	114f
	testb	%bl, %bl
	je	115f
109:
	movq	32(%rsp), %rbp
	movq	24(%rbp), %rax
	movq	32(%rbp), %rcx
	movl	%r13d, (%rax,%rcx,4)
	incq	%rcx
	movq	%rcx, 32(%rbp)
	jmp	116f
110:
	movl	%r9d, %r12d
111:
	movq	%rbp, %r10
	movq	32(%rsp), %rbp
112:
	xorl	%ecx, %ecx
	cmpq	%rax, %rdx
	setne	%cl
	addq	%rdx, %rcx
	addq	16(%rsp), %rcx
	movq	$-1, %r8
	cmovaeq	%rcx, %r8
	cmpq	%rax, %rdx
	movq	40(%rsp), %rax
	jne	11b
	jmp	75b
113:
	movq	136(%rsp), %rbx
	jmp	66b
114:
	movq	%r8, 16(%rsp)
	movq	32(%rsp), %rbp
	leaq	16(%rbp), %rdi
	callq	"smallvec::small_vec::SmallVec::reserve_one::<#bc37e6e66b18402c>"
	testb	%al, %al
	jne	124f
	movzbl	16(%rbp), %ebx
	movq	16(%rsp), %r8
	testb	%bl, %bl
	jne	109b
115:
	movq	32(%rsp), %rbp
	movq	40(%rbp), %rax
	movl	%r13d, 24(%rbp,%rax,4)
	incq	%rax
	movq	%rax, 40(%rbp)
116:
	movl	%r12d, 8(%rbp)
	movq	%r15, %rbx
	jmp	10b
117:
	movw	$5, %ax
	xorl	%r13d, %r13d
	xorl	%r14d, %r14d
	jmp	122f
118:
	movw	$3, %ax
	movq	16(%rsp), %r8
	jmp	122f
119:
	movq	224(%rsp), %r13
120:
	movq	%rbx, 56(%rbp)
	movq	%r8, 64(%rbp)
	movq	%r13, 72(%rbp)
	movq	192(%rsp), %rax
	movq	%rax, 80(%rbp)
	movq	160(%rsp), %rax
	movb	$0, (%rax)
	movl	$0, 8(%rax)
	movw	$0, 12(%rax)
	movq	$0, 16(%rax)
	jmp	7b
121:
	addq	16(%rsp), %rbx
	movq	$-1, %rax
	cmovaeq	%rbx, %rax
	cmpq	$256, %r12
	movq	%rax, %r8
	movw	$4, %ax
	sbbw	$0, %ax
	movq	%rbp, %rbx
	movq	80(%rsp), %r13
	movq	32(%rsp), %rbp
122:
	movq	%rbx, 56(%rbp)
	movq	%r8, 64(%rbp)
	movq	%r13, 72(%rbp)
	movq	192(%rsp), %rcx
	movq	%rcx, 80(%rbp)
	movq	160(%rsp), %rcx
	movb	$1, (%rcx)
	movw	%ax, 8(%rcx)
	movl	$0, 10(%rcx)
	movq	%r14, 16(%rcx)
	jmp	7b
123:
	movw	$7, %ax
	xorl	%r14d, %r14d
	movq	16(%rsp), %r8
	jmp	122b
124:
	movw	$7, %ax
	xorl	%r14d, %r14d
	movq	%r15, %rbx
	movq	80(%rsp), %r13
	movq	16(%rsp), %r8
	jmp	122b
125:
	.size	"mime_view::globs::glob_list_hits", 125b-"mime_view::globs::glob_list_hits"
	.section	.rodata,"a",@progbits
	.p2align	2, 0x0
126:
	.long	65b-126b
	.long	36b-126b
	.long	36b-126b
	.long	42b-126b
	.long	36b-126b

	.text
	.p2align	4
	.type	"mime_view::magic::sniff",@function
"mime_view::magic::sniff":
	pushq	%rbp
	pushq	%r15
	pushq	%r14
	pushq	%r13
	pushq	%r12
	pushq	%rbx
	subq	$136, %rsp
	movq	(%rcx), %r9
	movq	8(%rcx), %rbp
	movq	16(%rcx), %r13
	movq	24(%rcx), %r14
	movq	(%rsi), %r8
	movl	%edx, %r15d
	movq	8(%r8), %rax
	movq	%rax, %rdx
	subq	%r15, %rdx
	setb	%r10b
	cmpq	$12, %rdx
	setb	%dl
	orb	%r10b, %dl
	incq	%r9
	movq	$-1, %rbx
	cmovneq	%r9, %rbx
	pxor	%xmm0, %xmm0
	movw	$3, %r9w
	movl	$1, %r10d
	testb	%dl, %dl
	je	1f
	xorl	%r8d, %r8d
	xorl	%edx, %edx
	jmp	24f
1:
	movq	(%r8), %rdx
	movl	(%rdx,%r15), %r11d
	testl	%r11d, %r11d
	je	2f
	movl	8(%rdx,%r15), %r12d
	bswapl	%r11d
	bswapl	%r12d
	movq	%r11, %rdx
	shlq	$4, %rdx
	addq	%r12, %rdx
	cmpq	%rdx, %rax
	jae	3f
	xorl	%r8d, %r8d
	movq	%r12, %r15
	xorl	%edx, %edx
	jmp	24f
2:
	xorl	%r15d, %r15d
	xorl	%r8d, %r8d
	xorl	%edx, %edx
	xorl	%r10d, %r10d
	xorl	%r9d, %r9d
	jmp	24f
3:
	movq	$0, 24(%rsp)
	movq	%r14, %rax
	movq	%rsi, 32(%rsp)
	movq	%rdi, 16(%rsp)
	movq	%rcx, 8(%rsp)
	movq	%r11, 128(%rsp)
	movq	%r12, 120(%rsp)
4:
	pxor	%xmm0, %xmm0
	xorl	%r8d, %r8d
	testq	%r13, %r13
	je	21f
	movq	24(%rsp), %rdx
	shlq	$4, %rdx
	decq	%r13
	movq	(%rsi), %r9
	incq	%rbx
	movq	$-1, %rcx
	cmovneq	%rbx, %rcx
	movq	(%r9), %r8
	addq	%r12, %r8
	movl	8(%rdx,%r8), %r12d
	testl	%r12d, %r12d
	je	11f
	bswapl	%r12d
	movl	12(%rdx,%r8), %r15d
	bswapl	%r15d
	movq	%r12, %rdi
	shlq	$5, %rdi
	addq	%r15, %rdi
	cmpq	%rdi, 8(%r9)
	jb	25f
	movq	%r9, 112(%rsp)
	movl	(%rdx,%r8), %edi
	movl	%edi, 40(%rsp)
	movl	4(%rdx,%r8), %edx
	movl	%edx, 44(%rsp)
	.p2align	4
5:
	testq	%r13, %r13
	je	6f
	movq	(%rsi), %r9
	movq	%rcx, %rdx
	incq	%rdx
	movq	$-1, %rbx
	cmovneq	%rdx, %rbx
	movq	(%r9), %rdx
	movl	12(%rdx,%r15), %edi
	movl	%edi, %r8d
	bswapl	%r8d
	movq	%rax, %r14
	subq	%r8, %r14
	jae	8f
6:
	pxor	%xmm0, %xmm0
	movdqa	%xmm0, 48(%rsp)
	movq	$0, 64(%rsp)
	movq	%rcx, 80(%rsp)
	movq	%rbp, 88(%rsp)
	movq	%r13, 96(%rsp)
	movq	%rax, 104(%rsp)
	leaq	48(%rsp), %rdi
	leaq	80(%rsp), %r8
	movq	%r15, %rdx
	xorl	%ecx, %ecx
	callq	"mime_view::magic::whole_line_holds"
	movq	80(%rsp), %rbx
	movq	88(%rsp), %rbp
	movq	96(%rsp), %r13
	movq	104(%rsp), %r14
	cmpb	$0, 48(%rsp)
	jne	13f
	testb	$1, 49(%rsp)
	jne	14f
	movq	32(%rsp), %rsi
7:
	addq	$32, %r15
	movq	%r14, %rax
	movq	%rbx, %rcx
	decq	%r12
	jne	5b
	jmp	12f
	.p2align	4
8:
	testl	%edi, %edi
	je	6b
	cmpl	$0, 20(%rdx,%r15)
	jne	6b
	cmpl	$16777216, 8(%rdx,%r15)
	jne	6b
	movl	(%rdx,%r15), %edi
	bswapl	%edi
	movq	16(%rsi), %r11
	leaq	(%rdi,%r8), %r10
	cmpq	%r10, %r11
	jb	6b
	movq	%r11, %rsi
	movl	16(%rdx,%r15), %r11d
	bswapl	%r11d
	movq	8(%r9), %r10
	movl	%r11d, %r9d
	movq	%rsi, %r11
	movq	32(%rsp), %rsi
	subq	%r9, %r10
	jb	6b
	cmpq	%r8, %r10
	jb	6b
	movl	4(%rdx,%r15), %r10d
	cmpl	$16777216, %r10d
	jne	9f
	movq	8(%rsi), %r8
	movzbl	(%r8,%rdi), %edi
	movl	$1, %r11d
	cmpb	(%rdx,%r9), %dil
	je	6b
	jmp	10f
9:
	bswapl	%r10d
	movl	%r10d, %r10d
	addq	%rdi, %r10
	subq	%r8, %r11
	incq	%r11
	cmpq	%r10, %r11
	cmovaeq	%r10, %r11
	cmpq	$288, %r11
	ja	6b
	movzbl	(%rdx,%r9), %edx
	movzwl	24(%rsi,%rdx,2), %edx
	cmpq	%rdx, %r11
	ja	6b
	subq	%rdi, %r11
	je	6b
10:
	decq	%r13
	addq	%rbp, %r11
	movq	$-1, %rbp
	cmovaeq	%r11, %rbp
	jmp	7b
11:
	movq	%rcx, %rbx
	movq	%rax, %r14
12:
	movq	24(%rsp), %rdi
	incq	%rdi
	pxor	%xmm0, %xmm0
	xorl	%r15d, %r15d
	movq	%r14, %rax
	movl	$0, %r8d
	movl	$0, %edx
	movl	$0, %r10d
	movl	$0, %r9d
	movq	128(%rsp), %r11
	movq	%rdi, 24(%rsp)
	cmpq	%r11, %rdi
	movq	16(%rsp), %rdi
	movq	8(%rsp), %rcx
	movq	120(%rsp), %r12
	jne	4b
	jmp	24f
13:
	movzbl	56(%rsp), %edx
	movss	58(%rsp), %xmm0
	movq	64(%rsp), %r15
	movq	%r14, %rax
	movq	16(%rsp), %rdi
	movq	8(%rsp), %rcx
	xorl	%r8d, %r8d
	jmp	23f
14:
	movl	44(%rsp), %eax
	movl	%eax, %r15d
	bswapl	%r15d
	movq	112(%rsp), %rax
	movq	8(%rax), %r12
	pxor	%xmm0, %xmm0
	subq	%r15, %r12
	jbe	16f
	movq	(%rax), %rsi
	addq	%r15, %rsi
	cmpq	$32, %r12
	jae	18f
15:
	cmpq	$256, %r12
	movl	$256, %edx
	cmovbq	%r12, %rdx
	xorl	%edi, %edi
	movq	%rsi, 32(%rsp)
	movq	%rdx, 24(%rsp)
	callq	"memchr::bytes::memchr"
	cmpb	$1, %al
	jne	22f
	movq	%rdx, %rax
	incq	%rax
	addq	%rbp, %rax
	movq	$-1, %rbp
	cmovaeq	%rax, %rbp
	movq	32(%rsp), %rsi
	jmp	20f
16:
	movq	%r14, %rax
17:
	movq	16(%rsp), %rdi
	movq	8(%rsp), %rcx
	xorl	%r8d, %r8d
	movb	$3, %dl
	jmp	23f
18:
	movdqu	(%rsi), %xmm1
	pcmpeqb	%xmm0, %xmm1
	pmovmskb	%xmm1, %ecx
	movl	$64, %eax
	movl	$64, %edx
	rep		bsfq	%rcx, %rdx
	cmpq	$16, %rdx
	jb	19f
	movdqu	16(%rsi), %xmm1
	pcmpeqb	%xmm0, %xmm1
	pmovmskb	%xmm1, %ecx
	rep		bsfq	%rcx, %rax
	cmpq	$15, %rax
	ja	15b
	orq	$16, %rax
	movq	%rax, %rdx
19:
	leaq	1(%rdx), %rax
	addq	%rbp, %rax
	movq	$-1, %rbp
	cmovaeq	%rax, %rbp
20:
	movl	40(%rsp), %eax
	bswapl	%eax
	pxor	%xmm0, %xmm0
	movw	$1, %r9w
	xorl	%r10d, %r10d
	movq	%rsi, %r15
	movl	%eax, %r8d
	movq	16(%rsp), %rdi
	movq	8(%rsp), %rcx
	jmp	24f
21:
	movb	$5, %dl
	xorl	%r15d, %r15d
	xorl	%r13d, %r13d
	jmp	23f
22:
	movq	24(%rsp), %rax
	addq	%rbp, %rax
	movq	$-1, %rbp
	cmovaeq	%rax, %rbp
	cmpq	$256, %r12
	movb	$4, %dl
	sbbb	$0, %dl
	movq	%r14, %rax
	movq	16(%rsp), %rdi
	movq	8(%rsp), %rcx
	xorl	%r8d, %r8d
	pxor	%xmm0, %xmm0
23:
	movzbl	%dl, %r9d
	xorl	%edx, %edx
	movq	%rax, %r14
	movl	$1, %r10d
24:
	movq	%rbx, (%rcx)
	movq	%rbp, 8(%rcx)
	movq	%r13, 16(%rcx)
	movq	%r14, 24(%rcx)
	movq	%r10, (%rdi)
	movw	%r9w, 8(%rdi)
	movd	%xmm0, 10(%rdi)
	movq	%r15, 16(%rdi)
	movq	%rdx, 24(%rdi)
	movl	%r8d, 32(%rdi)
	movl	$0, 36(%rdi)
	addq	$136, %rsp
	popq	%rbx
	popq	%r12
	popq	%r13
	popq	%r14
	popq	%r15
	popq	%rbp
	retq
25:
	movq	%rcx, %rbx
	jmp	17b
26:
	.size	"mime_view::magic::sniff", 26b-"mime_view::magic::sniff"

	.text
	.p2align	4
	.type	"mime_view::magic::some_child_holds",@function
"mime_view::magic::some_child_holds":
	pushq	%rbp
	pushq	%r15
	pushq	%r14
	pushq	%r13
	pushq	%r12
	pushq	%rbx
	subq	$72, %rsp
	movq	%r9, %r14
	movl	%r8d, %ebp
	movq	%rsi, %r15
	movq	%rdi, %rbx
	movl	%edx, %r12d
	movl	%ecx, %r13d
	.p2align	4
1:
	movq	16(%r14), %rax
	testq	%rax, %rax
	je	2f
	movq	24(%r14), %rcx
	movq	(%r14), %rsi
	movq	(%r15), %r10
	incq	%rsi
	movq	$-1, %rdx
	cmovneq	%rsi, %rdx
	movq	(%r10), %rsi
	movl	12(%rsi,%r12), %edi
	movl	%edi, %r9d
	bswapl	%r9d
	subq	%r9, %rcx
	jae	3f
2:
	xorps	%xmm0, %xmm0
	movaps	%xmm0, (%rsp)
	movq	$0, 16(%rsp)
	movups	(%r14), %xmm0
	movups	16(%r14), %xmm1
	movaps	%xmm0, 32(%rsp)
	movaps	%xmm1, 48(%rsp)
	movq	%rsp, %rdi
	leaq	32(%rsp), %r8
	movq	%r15, %rsi
	movq	%r12, %rdx
	movl	%ebp, %ecx
	callq	"mime_view::magic::whole_line_holds"
	movaps	32(%rsp), %xmm0
	movaps	48(%rsp), %xmm1
	movups	%xmm1, 16(%r14)
	movups	%xmm0, (%r14)
	cmpb	$0, (%rsp)
	jne	7f
	testb	$1, 1(%rsp)
	jne	8f
	addq	$32, %r12
	decq	%r13
	jne	1b
	jmp	6f
	.p2align	4
3:
	testl	%edi, %edi
	je	2b
	cmpl	$0, 20(%rsi,%r12)
	jne	2b
	cmpl	$16777216, 8(%rsi,%r12)
	jne	2b
	movl	(%rsi,%r12), %r8d
	bswapl	%r8d
	movq	16(%r15), %rdi
	leaq	(%r8,%r9), %r11
	cmpq	%r11, %rdi
	jb	2b
	movl	16(%rsi,%r12), %r11d
	bswapl	%r11d
	movq	8(%r10), %r10
	movl	%r11d, %r11d
	subq	%r11, %r10
	jb	2b
	cmpq	%r9, %r10
	jb	2b
	movq	8(%r14), %r10
	movq	%r10, 24(%rsp)
	movl	4(%rsi,%r12), %r10d
	cmpl	$16777216, %r10d
	jne	4f
	movq	8(%r15), %rdi
	movzbl	(%rdi,%r8), %r8d
	movl	$1, %edi
	cmpb	(%rsi,%r11), %r8b
	je	2b
	jmp	5f
4:
	bswapl	%r10d
	movl	%r10d, %r10d
	addq	%r8, %r10
	subq	%r9, %rdi
	incq	%rdi
	cmpq	%r10, %rdi
	cmovaeq	%r10, %rdi
	cmpq	$288, %rdi
	ja	2b
	movzbl	(%rsi,%r11), %esi
	movzwl	24(%r15,%rsi,2), %esi
	cmpq	%rsi, %rdi
	ja	2b
	subq	%r8, %rdi
	je	2b
5:
	decq	%rax
	addq	24(%rsp), %rdi
	movq	$-1, %rsi
	cmovaeq	%rdi, %rsi
	movq	%rdx, (%r14)
	movq	%rsi, 8(%r14)
	movq	%rax, 16(%r14)
	movq	%rcx, 24(%r14)
	addq	$32, %r12
	decq	%r13
	jne	1b
6:
	xorl	%eax, %eax
	xorps	%xmm0, %xmm0
	xorl	%ecx, %ecx
	xorl	%edx, %edx
	xorl	%esi, %esi
	jmp	9f
7:
	movzbl	8(%rsp), %edx
	movss	10(%rsp), %xmm0
	movq	16(%rsp), %rsi
	movb	$1, %al
	xorl	%ecx, %ecx
	jmp	9f
8:
	movb	$1, %cl
	xorl	%eax, %eax
	xorl	%edx, %edx
	xorl	%esi, %esi
	xorps	%xmm0, %xmm0
9:
	movb	%al, (%rbx)
	movb	%cl, 1(%rbx)
	movw	%dx, 8(%rbx)
	movss	%xmm0, 10(%rbx)
	movq	%rsi, 16(%rbx)
	addq	$72, %rsp
	popq	%rbx
	popq	%r12
	popq	%r13
	popq	%r14
	popq	%r15
	popq	%rbp
	retq
10:
	.size	"mime_view::magic::some_child_holds", 10b-"mime_view::magic::some_child_holds"

	.text
	.p2align	4
	.type	"mime_view::magic::whole_line_holds",@function
"mime_view::magic::whole_line_holds":
	pushq	%rbp
	pushq	%r15
	pushq	%r14
	pushq	%r13
	pushq	%r12
	pushq	%rbx
	subq	$120, %rsp
	xorps	%xmm0, %xmm0
	movaps	%xmm0, 96(%rsp)
	movq	$0, 112(%rsp)
	movq	16(%r8), %rax
	movw	$5, %r14w
	testq	%rax, %rax
	je	1f
	decq	%rax
	movq	%rax, 16(%r8)
	movq	(%rsi), %rbp
	movq	(%r8), %rax
	movq	24(%r8), %r12
	incq	%rax
	movq	$-1, %r9
	cmovneq	%rax, %r9
	movq	%r9, (%r8)
	movq	(%rbp), %r13
	movl	12(%r13,%rdx), %eax
	movl	%eax, %r9d
	bswapl	%r9d
	subq	%r9, %r12
	jae	3f
1:
	xorl	%r11d, %r11d
2:
	movw	$1, (%rdi)
	movw	%r14w, 8(%rdi)
	movl	$0, 10(%rdi)
	movq	%r11, 16(%rdi)
	jmp	13f
3:
	movl	8(%r13,%rdx), %r10d
	movl	%r10d, 40(%rsp)
	movl	16(%r13,%rdx), %r11d
	movl	20(%r13,%rdx), %ebx
	movl	24(%r13,%rdx), %r10d
	movl	28(%r13,%rdx), %r14d
	movl	%r14d, 92(%rsp)
	movl	(%r13,%rdx), %r15d
	movl	4(%r13,%rdx), %edx
	movq	%r12, 24(%r8)
	testl	%edx, %edx
	je	10f
	bswapl	%r15d
	movq	16(%rsi), %r12
	leaq	(%r15,%r9), %r14
	movq	%r12, 72(%rsp)
	cmpq	%r14, %r12
	jb	10f
	testl	%eax, %eax
	je	30f
	movl	%r10d, 36(%rsp)
	bswapl	%r11d
	movq	8(%rbp), %r12
	movl	%r11d, %r11d
	movq	%r12, %r14
	subq	%r11, %r14
	setae	%r13b
	cmpq	%r9, %r14
	setae	%r10b
	andb	%r13b, %r10b
	movq	%r11, %r13
	cmovneq	%r9, %r13
	movw	$3, %r14w
	cmpb	$1, %r10b
	jne	2b
	movq	%r13, 64(%rsp)
	movq	8(%rsi), %r13
	movzbl	536(%rsi), %r10d
	movb	%r10b, 27(%rsp)
	movq	(%rbp), %rbp
	testl	%ebx, %ebx
	je	4f
	movq	%r13, 48(%rsp)
	movq	%rbp, %r13
	bswapl	%ebx
	movl	%ebx, %ebp
	subq	%rbp, %r12
	setae	%r10b
	cmpq	%r9, %r12
	setae	%bl
	andb	%r10b, %bl
	cmpb	$1, %bl
	jne	8f
	addq	%r13, %rbp
	movq	%r9, 80(%rsp)
	movq	%rbp, %rbx
	movq	%r13, %rbp
	movq	48(%rsp), %r13
	jmp	5f
4:
	leaq	.L22d5119de29e(%rip), %rbx
	movq	$0, 80(%rsp)
5:
	movq	72(%rsp), %r12
	subq	%r9, %r12
	jb	10f
	cmpq	%r15, %r12
	jb	10f
	addq	%r11, %rbp
	cmpl	$16777216, %edx
	setne	%r10b
	cmpq	$0, 80(%rsp)
	setne	%r11b
	orb	%r10b, %r11b
	cmpl	$16777216, 40(%rsp)
	setne	%r10b
	orb	%r11b, %r10b
	jne	6f
	movzbl	(%r13,%r15), %r10d
	cmpb	(%rbp), %r10b
	jne	9f
6:
	bswapl	%edx
	addq	%r15, %rdx
	incq	%r12
	cmpq	%rdx, %r12
	cmovaeq	%rdx, %r12
	movq	%r12, %r14
	subq	%r15, %r14
	jbe	10f
	movl	40(%rsp), %r10d
	movl	%r10d, %edx
	bswapl	%edx
	movl	%edx, 28(%rsp)
	cmpl	$33554432, %r10d
	sete	%dl
	testb	$1, %r9b
	sete	%r11b
	cmpl	$67108864, %r10d
	sete	%r10b
	testb	$3, %r9b
	sete	%r9b
	cmpq	$0, 80(%rsp)
	movq	%rdi, 40(%rsp)
	movq	%r8, 48(%rsp)
	movl	%ecx, 32(%rsp)
	movq	%rsi, 56(%rsp)
	je	14f
	addq	%r15, %r13
7:
	movq	%r8, 16(%rsp)
	movq	64(%rsp), %rsi
	movq	%rsi, 8(%rsp)
	movq	%r13, (%rsp)
	movzbl	27(%rsp), %r9d
	movq	%rbp, %rdi
	movq	%rbx, %rdx
	movq	80(%rsp), %rcx
	movl	28(%rsp), %r8d
	callq	"mime_base::magic::ranges::value_is"
	movl	36(%rsp), %r10d
	movq	56(%rsp), %rsi
	movl	32(%rsp), %ecx
	movq	48(%rsp), %r8
	movq	40(%rsp), %rdi
	testb	%al, %al
	jne	30f
	incq	%r13
	decq	%r14
	jne	7b
	jmp	10f
8:
	movq	%rbp, %r11
	jmp	2b
9:
	movq	8(%r8), %rax
	incq	%rax
	movq	$-1, %rcx
	cmovneq	%rax, %rcx
	movq	%rcx, 8(%r8)
10:
	movw	$0, (%rdi)
11:
	movl	$0, 8(%rdi)
12:
	movw	$0, 12(%rdi)
	movq	$0, 16(%rdi)
13:
	addq	$120, %rsp
	popq	%rbx
	popq	%r12
	popq	%r13
	popq	%r14
	popq	%r15
	popq	%rbp
	retq
14:
	andb	%r11b, %dl
	andb	%r9b, %r10b
	cmpl	$16777216, %eax
	jne	17f
	cmpb	$0, 27(%rsp)
	sete	%al
	orb	%r10b, %dl
	andb	%al, %dl
	movb	%dl, 72(%rsp)
15:
	movq	%r12, %r14
	subq	%r15, %r12
	cmpq	$2, %r12
	setb	%al
	orb	72(%rsp), %al
	jne	16f
	leaq	(%r15,%r13), %rsi
	movzbl	(%rbp), %edi
	movq	%r12, %rdx
	callq	"memchr::bytes::memchr"
	movq	48(%rsp), %r8
	movq	40(%rsp), %rdi
	testb	$1, %al
	cmoveq	%r12, %rdx
	movq	8(%r8), %rax
	addq	%rdx, %rax
	movq	$-1, %rcx
	cmovaeq	%rax, %rcx
	movq	%rcx, 8(%r8)
	addq	%rdx, %r15
16:
	cmpq	%r14, %r15
	je	10b
	movq	%r14, %r12
	leaq	(%r15,%r13), %rax
	movq	%r8, 16(%rsp)
	movq	%rax, (%rsp)
	movq	$1, 8(%rsp)
	movzbl	27(%rsp), %r9d
	movl	$1, %esi
	movq	%rbp, %rdi
	movq	%rbx, %rdx
	xorl	%ecx, %ecx
	movl	28(%rsp), %r8d
	callq	"mime_base::magic::ranges::value_is"
	movl	36(%rsp), %r10d
	movq	56(%rsp), %rsi
	movl	32(%rsp), %ecx
	movq	48(%rsp), %r8
	movq	40(%rsp), %rdi
	testb	%al, %al
	jne	30f
	incq	%r15
	cmpq	%r12, %r15
	jb	15b
	jmp	10b
17:
	cmpb	$0, 27(%rsp)
	je	22f
18:
	movq	%r12, %rax
	subq	%r15, %rax
	cmpq	$2, %rax
	jb	21f
	leaq	(%r15,%r13), %rdx
	movq	72(%rsp), %rcx
	subq	%r15, %rcx
	movzbl	1(%rbp), %esi
	movzbl	(%rbp), %edi
	movq	%rax, %r8
	callq	"mime_base::magic::pairs::pass_pairs"
	movq	48(%rsp), %r8
	movq	8(%r8), %rsi
	movq	$-1, %rcx
	movq	$-1, %rdi
	addq	%rax, %rsi
	jb	19f
	movq	%rsi, %rdi
19:
	addq	%rdi, %rdx
	jb	20f
	movq	%rdx, %rcx
20:
	movq	%rcx, 8(%r8)
	addq	%rax, %r15
	movq	40(%rsp), %rdi
21:
	cmpq	%r12, %r15
	je	10b
	leaq	(%r15,%r13), %rax
	movq	%r8, 16(%rsp)
	movq	64(%rsp), %rsi
	movq	%rsi, 8(%rsp)
	movq	%rax, (%rsp)
	movzbl	27(%rsp), %r9d
	movq	%rbp, %rdi
	movq	%rbx, %rdx
	xorl	%ecx, %ecx
	movl	28(%rsp), %r8d
	callq	"mime_base::magic::ranges::value_is"
	movl	36(%rsp), %r10d
	movq	56(%rsp), %rsi
	movl	32(%rsp), %ecx
	movq	48(%rsp), %r8
	movq	40(%rsp), %rdi
	testb	%al, %al
	jne	30f
	incq	%r15
	cmpq	%r12, %r15
	jb	18b
	jmp	10b
22:
	testb	%dl, %dl
	je	24f
	addq	%r15, %r13
	subq	%r15, %r12
23:
	movq	%r8, 16(%rsp)
	movq	64(%rsp), %rsi
	movq	%rsi, 8(%rsp)
	movq	%r13, (%rsp)
	movq	%rbp, %rdi
	movq	%rbx, %rdx
	xorl	%ecx, %ecx
	movl	28(%rsp), %r8d
	xorl	%r9d, %r9d
	callq	"mime_base::magic::ranges::value_is"
	movl	36(%rsp), %r10d
	movq	56(%rsp), %rsi
	movl	32(%rsp), %ecx
	movq	48(%rsp), %r8
	movq	40(%rsp), %rdi
	testb	%al, %al
	jne	30f
	incq	%r13
	decq	%r12
	jne	23b
	jmp	10b
24:
	testb	%r10b, %r10b
	je	26f
	addq	%r15, %r13
	subq	%r15, %r12
25:
	movq	%r8, 16(%rsp)
	movq	64(%rsp), %rsi
	movq	%rsi, 8(%rsp)
	movq	%r13, (%rsp)
	movq	%rbp, %rdi
	movq	%rbx, %rdx
	xorl	%ecx, %ecx
	movl	28(%rsp), %r8d
	xorl	%r9d, %r9d
	callq	"mime_base::magic::ranges::value_is"
	movl	36(%rsp), %r10d
	movq	56(%rsp), %rsi
	movl	32(%rsp), %ecx
	movq	48(%rsp), %r8
	movq	40(%rsp), %rdi
	testb	%al, %al
	jne	30f
	incq	%r13
	decq	%r12
	jne	25b
	jmp	10b
26:
	movq	%r12, %rax
	subq	%r15, %rax
	cmpq	$2, %rax
	jb	29f
	leaq	(%r15,%r13), %rdx
	movq	72(%rsp), %rcx
	subq	%r15, %rcx
	movzbl	1(%rbp), %esi
	movzbl	(%rbp), %edi
	movq	%rax, %r8
	callq	"mime_base::magic::pairs::pass_pairs"
	movq	48(%rsp), %r8
	movq	8(%r8), %rsi
	movq	$-1, %rcx
	movq	$-1, %rdi
	addq	%rax, %rsi
	jb	27f
	movq	%rsi, %rdi
27:
	addq	%rdi, %rdx
	jb	28f
	movq	%rdx, %rcx
28:
	movq	%rcx, 8(%r8)
	addq	%rax, %r15
	movq	40(%rsp), %rdi
29:
	cmpq	%r12, %r15
	je	10b
	leaq	(%r15,%r13), %rax
	movq	%r8, 16(%rsp)
	movq	64(%rsp), %rsi
	movq	%rsi, 8(%rsp)
	movq	%rax, (%rsp)
	movq	%rbp, %rdi
	movq	%rbx, %rdx
	xorl	%ecx, %ecx
	movl	28(%rsp), %r8d
	xorl	%r9d, %r9d
	callq	"mime_base::magic::ranges::value_is"
	movl	36(%rsp), %r10d
	movq	56(%rsp), %rsi
	movl	32(%rsp), %ecx
	movq	48(%rsp), %r8
	movq	40(%rsp), %rdi
	testb	%al, %al
	jne	30f
	incq	%r15
	cmpq	%r12, %r15
	jb	26b
	jmp	10b
30:
	testl	%r10d, %r10d
	je	31f
	cmpl	$63, %ecx
	jne	32f
	movw	$1, (%rdi)
	movl	$6, 8(%rdi)
	jmp	12b
31:
	movw	$256, (%rdi)
	jmp	11b
32:
	bswapl	%r10d
	movl	92(%rsp), %edx
	bswapl	%edx
	movq	(%rsi), %r11
	movl	%edx, %eax
	movl	%r10d, %r9d
	shlq	$5, %r9
	addq	%rax, %r9
	cmpq	%r9, 8(%r11)
	jae	33f
	movw	$1, (%rdi)
	movl	$3, 8(%rdi)
	movw	$0, 12(%rdi)
	movq	%rax, 16(%rdi)
	jmp	13b
33:
	incl	%ecx
	leaq	96(%rsp), %rax
	movq	%rdi, %rbx
	movq	%rax, %rdi
	movl	%ecx, %eax
	movl	%r10d, %ecx
	movq	%r8, %r9
	movl	%eax, %r8d
	callq	"mime_view::magic::some_child_holds"
	movzbl	96(%rsp), %eax
	movb	%al, (%rbx)
	movzbl	97(%rsp), %eax
	movb	%al, 1(%rbx)
	movzbl	104(%rsp), %eax
	movw	%ax, 8(%rbx)
	movl	106(%rsp), %eax
	movl	%eax, 10(%rbx)
	movq	112(%rsp), %rax
	movq	%rax, 16(%rbx)
	jmp	13b
34:
	.size	"mime_view::magic::whole_line_holds", 34b-"mime_view::magic::whole_line_holds"

	.text
	.p2align	4
	.type	"mime_view::pairs::look_up_pair",@function
"mime_view::pairs::look_up_pair":
	pushq	%rbp
	pushq	%r15
	pushq	%r14
	pushq	%r13
	pushq	%r12
	pushq	%rbx
	subq	$152, %rsp
	movq	%rdi, 24(%rsp)
	leaq	4(%rdx), %r10
	movq	(%r9), %rax
	incq	%rax
	movq	$-1, %r14
	cmovneq	%rax, %r14
	movw	$3, %ax
	movq	%rsi, 16(%rsp)
	cmpq	%r10, 8(%rsi)
	movq	%r14, (%r9)
	jb	32f
	movq	%r9, %r13
	movq	16(%rsp), %rdi
	movq	(%rdi), %rsi
	movl	(%rsi,%rdx), %esi
	movl	%esi, %ebx
	bswapl	%ebx
	leaq	(%r10,%rbx,8), %r9
	cmpq	%r9, 8(%rdi)
	jb	32f
	movq	8(%r13), %r15
	testl	%esi, %esi
	je	1f
	xorps	%xmm0, %xmm0
	movaps	%xmm0, 48(%rsp)
	cmpq	$15, %r8
	movq	%r13, 40(%rsp)
	ja	2f
	leaq	48(%rsp), %rdi
	movq	%rcx, %rsi
	movq	%r8, %rdx
	movq	%r8, %rbp
	movq	%r10, %r13
	movq	%rcx, %r12
	callq	memcpy@PLT
	movq	%r12, %rcx
	movq	%r13, %r10
	movq	%rbp, %r8
	jmp	3f
1:
	movq	%r14, (%r13)
	movq	%r15, 8(%r13)
	jmp	37f
2:
	movups	(%rcx), %xmm0
	movaps	%xmm0, 48(%rsp)
3:
	movdqa	48(%rsp), %xmm0
	movdqa	%xmm0, 128(%rsp)
	movdqu	%xmm0, 112(%rsp)
	movq	16(%rsp), %rax
	movq	(%rax), %r13
	movq	8(%rax), %rax
	movq	%rax, 88(%rsp)
	movq	%r10, 72(%rsp)
	leaq	(%r13,%r10), %rax
	movq	%rax, 80(%rsp)
	movzbl	112(%rsp), %eax
	movb	%al, 15(%rsp)
	xorl	%edi, %edi
	movl	$0, 8(%rsp)
	movq	%r13, 32(%rsp)
	jmp	7f
4:
	incq	%rax
	addq	%r15, %rax
	movq	$-1, %r15
	cmovaeq	%rax, %r15
	movq	32(%rsp), %r13
5:
	incq	%rbp
	movq	%rbp, %rdi
6:
	cmpq	%rbx, %rdi
	jae	35f
7:
	movq	%r14, %r12
	leaq	(%rdi,%rbx), %rbp
	shrq	%rbp
	movq	%r14, %rax
	incq	%rax
	movq	$-1, %r14
	cmovneq	%rax, %r14
	movq	80(%rsp), %rax
	movl	(%rax,%rbp,8), %edx
	bswapl	%edx
	movq	88(%rsp), %r10
	subq	%rdx, %r10
	jbe	30f
	leaq	(%rdx,%r13), %r11
	cmpq	$16, %r10
	jae	9f
8:
	testq	%r8, %r8
	je	19f
	movzbl	(%r11), %eax
	cmpb	(%rcx), %al
	jne	12f
	cmpq	$8, %r8
	jb	19f
	cmpq	$33, %r10
	jb	19f
	cmpq	$15, %r8
	ja	17f
	movq	(%r11), %xmm3
	movq	(%rcx), %xmm4
	pcmpeqb	%xmm3, %xmm4
	pcmpeqd	%xmm2, %xmm2
	pxor	%xmm2, %xmm4
	pxor	%xmm1, %xmm1
	pcmpeqb	%xmm1, %xmm3
	por	%xmm4, %xmm3
	pmovmskb	%xmm3, %eax
	orl	$256, %eax
	rep		bsfl	%eax, %eax
	cmpb	$8, %al
	jb	13f
	leaq	-8(%r8), %rdx
	movq	(%r11,%rdx), %xmm3
	movq	(%rcx,%rdx), %xmm4
	pcmpeqb	%xmm3, %xmm4
	pxor	%xmm2, %xmm4
	pcmpeqb	%xmm3, %xmm1
	por	%xmm4, %xmm1
	pmovmskb	%xmm1, %eax
	orl	$256, %eax
	jmp	18f
	.p2align	4
9:
	movzbl	(%r11), %eax
	cmpb	15(%rsp), %al
	jne	10f
	movdqu	(%r11), %xmm1
	pxor	%xmm2, %xmm2
	pcmpeqb	%xmm1, %xmm2
	pcmpeqb	%xmm0, %xmm1
	pcmpeqd	%xmm3, %xmm3
	pxor	%xmm1, %xmm3
	por	%xmm3, %xmm2
	pmovmskb	%xmm2, %eax
	testl	%eax, %eax
	je	8b
	rep		bsfl	%eax, %edx
	movzbl	(%r11,%rdx), %eax
	jmp	11f
	.p2align	4
10:
	xorl	%edx, %edx
11:
	movzbl	112(%rsp,%rdx), %esi
	leaq	1(%rdx), %r9
	addq	%r15, %r9
	movq	$-1, %r15
	cmovaeq	%r9, %r15
	cmpb	%sil, %al
	jne	16f
	cmpq	%r8, %rdx
	jne	15f
	testb	%al, %al
	jne	26f
	jmp	28f
12:
	xorl	%eax, %eax
13:
	leaq	1(%rax), %rdx
	addq	%r15, %rdx
	movq	$-1, %r15
	cmovaeq	%rdx, %r15
	movzbl	(%r11,%rax), %edx
	cmpq	%r8, %rax
	jne	14f
	testb	%dl, %dl
	jne	26f
	jmp	28f
14:
	testb	%dl, %dl
	je	5b
	cmpb	(%rcx,%rax), %dl
	jb	5b
	jmp	26f
15:
	testb	%al, %al
	je	5b
	cmpb	(%rcx,%rdx), %al
16:
	jb	5b
	jmp	26f
17:
	cmpq	$32, %r8
	ja	19f
	movdqu	(%r11), %xmm3
	movdqu	(%rcx), %xmm4
	pcmpeqb	%xmm3, %xmm4
	pcmpeqd	%xmm2, %xmm2
	pxor	%xmm2, %xmm4
	pxor	%xmm1, %xmm1
	pcmpeqb	%xmm1, %xmm3
	por	%xmm4, %xmm3
	pmovmskb	%xmm3, %eax
	orl	$65536, %eax
	rep		bsfl	%eax, %eax
	cmpw	$16, %ax
	jb	13b
	leaq	-16(%r8), %rdx
	movdqu	(%r11,%rdx), %xmm3
	movdqu	(%rcx,%rdx), %xmm4
	pcmpeqb	%xmm3, %xmm4
	pxor	%xmm2, %xmm4
	pcmpeqb	%xmm3, %xmm1
	por	%xmm4, %xmm1
	pmovmskb	%xmm1, %eax
	orl	$65536, %eax
18:
	rep		bsfl	%eax, %eax
	addq	%rdx, %rax
	jmp	13b
	.p2align	4
19:
	cmpq	$256, %r10
	movl	$256, %esi
	cmovbq	%r10, %rsi
	cmpq	%rsi, %r8
	movq	%rsi, %r9
	cmovbq	%r8, %r9
	xorl	%eax, %eax
	.p2align	4
20:
	movq	%r9, %r13
	subq	%rax, %r13
	cmpq	$16, %r13
	jb	21f
	movdqu	(%r11,%rax), %xmm1
	movdqu	(%rcx,%rax), %xmm2
	pcmpeqb	%xmm1, %xmm2
	pcmpeqd	%xmm3, %xmm3
	pxor	%xmm2, %xmm3
	pxor	%xmm2, %xmm2
	pcmpeqb	%xmm1, %xmm2
	por	%xmm3, %xmm2
	pmovmskb	%xmm2, %r13d
	orl	$65536, %r13d
	rep		bsfl	%r13d, %r13d
	addq	%r13, %rax
	cmpw	$15, %r13w
	ja	20b
	movq	%r9, %r13
	subq	%rax, %r13
21:
	cmpq	$8, %r13
	jb	22f
	movl	%eax, %r13d
	andl	$15, %r13d
	jne	22f
	movq	(%r11,%rax), %xmm1
	movq	(%rcx,%rax), %xmm2
	pcmpeqb	%xmm1, %xmm2
	pcmpeqd	%xmm3, %xmm3
	pxor	%xmm2, %xmm3
	pxor	%xmm2, %xmm2
	pcmpeqb	%xmm1, %xmm2
	por	%xmm3, %xmm2
	pmovmskb	%xmm2, %r13d
	orl	$256, %r13d
	rep		bsfl	%r13d, %r13d
	orq	%r13, %rax
22:
	cmpq	%r9, %rax
	jae	24f
	.p2align	4
23:
	movzbl	(%r11,%rax), %r13d
	testb	%r13b, %r13b
	je	4b
	cmpb	(%rcx,%rax), %r13b
	jne	29f
	incq	%rax
	cmpq	%rax, %r9
	jne	23b
24:
	cmpq	%r8, %rsi
	movq	32(%rsp), %r13
	jbe	38f
	cmpb	$0, (%r11,%r9)
	je	27f
	movq	%r9, %rax
25:
	incq	%rax
	addq	%r15, %rax
	movq	$-1, %r15
	cmovaeq	%rax, %r15
26:
	movl	$0, 8(%rsp)
	movq	%rbp, %rbx
	jmp	6b
27:
	incq	%r9
	addq	%r15, %r9
	movq	$-1, %r15
	cmovaeq	%r9, %r15
28:
	movb	$1, %al
	movl	%eax, 8(%rsp)
	movq	%rbp, %rbx
	jmp	6b
29:
	jb	4b
	movq	32(%rsp), %r13
	jmp	25b
30:
	movw	$3, %ax
31:
	movq	40(%rsp), %rcx
	movq	%r14, (%rcx)
	movq	%r15, 8(%rcx)
32:
	movq	24(%rsp), %rcx
	movq	$1, (%rcx)
	movw	%ax, 8(%rcx)
	movl	$0, 10(%rcx)
	movq	%rdx, 16(%rcx)
33:
	movq	$0, 24(%rcx)
34:
	addq	$152, %rsp
	popq	%rbx
	popq	%r12
	popq	%r13
	popq	%r14
	popq	%r15
	popq	%rbp
	retq
35:
	movq	40(%rsp), %rbp
	movq	%r14, (%rbp)
	movq	%r15, 8(%rbp)
	testb	$1, 8(%rsp)
	je	37f
	addq	$2, %r12
	movq	$-1, %rax
	cmovaeq	%r12, %rax
	movq	%rax, (%rbp)
	movq	16(%rsp), %rax
	movq	72(%rsp), %rcx
	addq	(%rax), %rcx
	movl	4(%rcx,%rdi,8), %r15d
	bswapl	%r15d
	movq	8(%rax), %r12
	movw	$3, %ax
	subq	%r15, %r12
	jbe	43f
	movq	16(%rsp), %rax
	movq	(%rax), %rbx
	addq	%r15, %rbx
	cmpq	$32, %r12
	jae	39f
36:
	cmpq	$256, %r12
	movl	$256, %r14d
	cmovbq	%r12, %r14
	xorl	%edi, %edi
	movq	%rbx, %rsi
	movq	%r14, %rdx
	callq	"memchr::bytes::memchr"
	cmpb	$1, %al
	jne	42f
	movq	%rdx, %rax
	incq	%rax
	jmp	41f
37:
	movq	24(%rsp), %rax
	movq	$0, 6(%rax)
	movq	$0, (%rax)
	pxor	%xmm0, %xmm0
	movdqu	%xmm0, 16(%rax)
	jmp	34b
38:
	addq	%r15, %r9
	movq	$-1, %r15
	cmovaeq	%r9, %r15
	cmpq	$256, %r10
	movw	$4, %ax
	sbbw	$0, %ax
	jmp	31b
39:
	movdqu	(%rbx), %xmm1
	pxor	%xmm0, %xmm0
	pcmpeqb	%xmm0, %xmm1
	pmovmskb	%xmm1, %ecx
	movl	$64, %eax
	movl	$64, %edx
	rep		bsfq	%rcx, %rdx
	cmpq	$16, %rdx
	jb	40f
	movdqu	16(%rbx), %xmm1
	pcmpeqb	%xmm0, %xmm1
	pmovmskb	%xmm1, %ecx
	rep		bsfq	%rcx, %rax
	cmpq	$15, %rax
	ja	36b
	orq	$16, %rax
	movq	%rax, %rdx
40:
	leaq	1(%rdx), %rax
41:
	addq	8(%rbp), %rax
	movq	$-1, %rcx
	cmovaeq	%rax, %rcx
	movq	%rcx, 8(%rbp)
	movq	24(%rsp), %rax
	movq	$0, (%rax)
	movl	$1, 8(%rax)
	movw	$0, 12(%rax)
	movq	%rbx, 16(%rax)
	movq	%rdx, 24(%rax)
	jmp	34b
42:
	addq	8(%rbp), %r14
	movq	$-1, %rax
	cmovaeq	%r14, %rax
	movq	%rax, 8(%rbp)
	cmpq	$256, %r12
	movw	$4, %ax
	sbbw	$0, %ax
43:
	movq	24(%rsp), %rcx
	movq	$1, (%rcx)
	movw	%ax, 8(%rcx)
	movl	$0, 10(%rcx)
	movq	%r15, 16(%rcx)
	jmp	33b
44:
	.size	"mime_view::pairs::look_up_pair", 44b-"mime_view::pairs::look_up_pair"

	.text
	.p2align	4
	.type	"mime_view::rules::entries::add_entries",@function
"mime_view::rules::entries::add_entries":
	pushq	%rbp
	pushq	%r15
	pushq	%r14
	pushq	%r13
	pushq	%r12
	pushq	%rbx
	subq	$104, %rsp
	movq	%r8, %r14
	movq	%rcx, %rbp
	movq	%rdi, %r12
	movq	(%rsi), %rax
	movq	(%r8), %rcx
	incq	%rcx
	movq	$-1, %rdi
	cmovneq	%rcx, %rdi
	leaq	4(%rdx), %r8
	cmpq	%r8, 8(%rax)
	movq	%rdi, (%r14)
	jb	1f
	movq	(%rax), %rcx
	movl	(%rcx,%rdx), %ecx
	movl	%ecx, %edi
	bswapl	%edi
	movq	%rdi, 88(%rsp)
	leaq	(%rdi,%rdi,2), %rdi
	leaq	(%r8,%rdi,4), %rdi
	cmpq	%rdi, 8(%rax)
	jae	3f
1:
	movb	$1, (%r12)
	movl	$3, 8(%r12)
	movw	$0, 12(%r12)
	movq	%rdx, 16(%r12)
2:
	addq	$104, %rsp
	popq	%rbx
	popq	%r12
	popq	%r13
	popq	%r14
	popq	%r15
	popq	%rbp
	retq
3:
	testl	%ecx, %ecx
	je	27f
	xorl	%r9d, %r9d
	movq	%r12, 32(%rsp)
	movq	%r14, 24(%rsp)
	movq	%rbp, 80(%rsp)
	movq	%rsi, 64(%rsp)
	movq	%r8, 72(%rsp)
4:
	movq	16(%r14), %rdx
	testq	%rdx, %rdx
	je	29f
	leaq	(%r9,%r9,2), %rax
	leaq	(%r8,%rax,4), %rax
	movq	(%rsi), %rcx
	decq	%rdx
	movq	%rdx, 16(%r14)
	movq	(%r14), %rdx
	incq	%rdx
	movq	$-1, %rdi
	cmovneq	%rdx, %rdi
	movq	8(%rcx), %rdx
	movq	%rdi, (%r14)
	movw	$3, %r15w
	subq	%rax, %rdx
	jb	30f
	cmpq	$12, %rdx
	jb	30f
	movq	(%rcx), %rcx
	movl	(%rcx,%rax), %edi
	bswapl	%edi
	movq	(%rsi), %rdx
	movq	8(%rdx), %r14
	subq	%rdi, %r14
	jbe	35f
	movq	%r9, 96(%rsp)
	movl	4(%rcx,%rax), %r15d
	movl	8(%rcx,%rax), %esi
	movq	(%rdx), %rax
	movq	%rdi, 40(%rsp)
	movq	%rax, 48(%rsp)
	leaq	(%rax,%rdi), %rbp
	cmpq	$32, %r14
	jae	6f
5:
	movq	%rsi, %r12
	cmpq	$256, %r14
	movl	$256, %ebx
	cmovbq	%r14, %rbx
	xorl	%edi, %edi
	movq	%rbp, %rsi
	movq	%rbx, %rdx
	callq	"memchr::bytes::memchr"
	cmpb	$1, %al
	jne	32f
	movq	%rdx, %r13
	movq	%rdx, %rax
	incq	%rax
	movq	24(%rsp), %rcx
	addq	8(%rcx), %rax
	movq	$-1, %rdx
	cmovaeq	%rax, %rdx
	movq	%r12, %rsi
	jmp	8f
	.p2align	4
6:
	movdqu	(%rbp), %xmm1
	pxor	%xmm0, %xmm0
	pcmpeqb	%xmm0, %xmm1
	pmovmskb	%xmm1, %ecx
	movl	$64, %eax
	movl	$64, %r13d
	rep		bsfq	%rcx, %r13
	cmpq	$16, %r13
	jb	7f
	movdqu	16(%rbp), %xmm1
	pcmpeqb	%xmm0, %xmm1
	pmovmskb	%xmm1, %ecx
	rep		bsfq	%rcx, %rax
	cmpq	$15, %rax
	ja	5b
	orq	$16, %rax
	movq	%rax, %r13
7:
	leaq	1(%r13), %rax
	movq	24(%rsp), %rcx
	addq	8(%rcx), %rax
	movq	$-1, %rdx
	cmovaeq	%rax, %rdx
8:
	shlq	$32, %r15
	orq	%rsi, %r15
	movabsq	$-4294967296, %r12
	andq	%r15, %r12
	bswapq	%r12
	movq	%rdx, 8(%rcx)
	movq	64(%rsp), %rax
	movq	(%rax), %rax
	movq	8(%rax), %r14
	subq	%r12, %r14
	jbe	31f
	movq	(%rax), %rsi
	addq	%r12, %rsi
	cmpq	$32, %r14
	movq	%rsi, 56(%rsp)
	jae	10f
9:
	movq	%r13, 16(%rsp)
	movq	%rdx, %r13
	cmpq	$256, %r14
	movl	$256, %ebx
	cmovbq	%r14, %rbx
	xorl	%edi, %edi
	movq	%rbx, %rdx
	callq	"memchr::bytes::memchr"
	cmpb	$1, %al
	jne	33f
	movq	%rdx, %rdi
	movq	%rdx, %rcx
	incq	%rcx
	addq	%r13, %rcx
	movq	$-1, %rax
	cmovaeq	%rcx, %rax
	movq	16(%rsp), %r13
	jmp	12f
	.p2align	4
10:
	movdqu	(%rsi), %xmm1
	pxor	%xmm0, %xmm0
	pcmpeqb	%xmm0, %xmm1
	pmovmskb	%xmm1, %ecx
	movl	$64, %eax
	movl	$64, %edi
	rep		bsfq	%rcx, %rdi
	cmpq	$16, %rdi
	jb	11f
	movq	56(%rsp), %rsi
	movdqu	16(%rsi), %xmm1
	pcmpeqb	%xmm0, %xmm1
	pmovmskb	%xmm1, %ecx
	rep		bsfq	%rcx, %rax
	cmpq	$15, %rax
	ja	9b
	orq	$16, %rax
	movq	%rax, %rdi
11:
	leaq	1(%rdi), %rcx
	addq	%rdx, %rcx
	movq	$-1, %rax
	cmovaeq	%rcx, %rax
12:
	movq	24(%rsp), %r14
	movq	%rax, 8(%r14)
	testq	%r13, %r13
	movq	32(%rsp), %r12
	movq	%rdi, 16(%rsp)
	je	14f
	js	28f
	movl	$1, %esi
	movq	%r13, %rdi
	callq	rattle_alloc@PLT
	testb	$1, %al
	je	28f
	movq	%rdx, %rbx
	movq	16(%rsp), %rdi
	movq	%rbx, %rcx
	subq	%rbp, %rcx
	cmpq	%r13, %rcx
	jae	15f
13:
	xorl	%eax, %eax
	cmpq	$4, %r13
	jb	20f
	cmpq	$32, %rcx
	jb	20f
	cmpq	$32, %r13
	jae	16f
	xorl	%eax, %eax
	jmp	18f
	.p2align	4
14:
	leaq	15(%rsp), %rbx
	movq	%rbx, %rcx
	subq	%rbp, %rcx
	cmpq	%r13, %rcx
	jb	13b
15:
	movq	%rbx, %rdi
	movq	%rbp, %rsi
	movq	%r13, %rdx
	callq	memmove@PLT
	movq	16(%rsp), %rdi
	jmp	24f
16:
	movq	%r13, %rax
	andq	$-32, %rax
	movq	40(%rsp), %rcx
	movq	48(%rsp), %rdx
	addq	%rdx, %rcx
	addq	$16, %rcx
	xorl	%edx, %edx
	.p2align	4
17:
	movdqu	-16(%rcx,%rdx), %xmm0
	movdqu	(%rcx,%rdx), %xmm1
	movdqu	%xmm0, (%rbx,%rdx)
	movdqu	%xmm1, 16(%rbx,%rdx)
	addq	$32, %rdx
	cmpq	%rdx, %rax
	jne	17b
	cmpq	%rax, %r13
	je	24f
	testb	$28, %r13b
	je	20f
18:
	movq	%rax, %rcx
	movq	%r13, %rax
	andq	$-4, %rax
	.p2align	4
19:
	movl	(%rbp,%rcx), %edx
	movl	%edx, (%rbx,%rcx)
	addq	$4, %rcx
	cmpq	%rcx, %rax
	jne	19b
	cmpq	%rax, %r13
	je	24f
20:
	movq	%r13, %rdx
	movq	%rax, %rcx
	andq	$3, %rdx
	je	22f
	movq	%rax, %rcx
	.p2align	4
21:
	movzbl	(%rbp,%rcx), %esi
	movb	%sil, (%rbx,%rcx)
	incq	%rcx
	decq	%rdx
	jne	21b
22:
	subq	%r13, %rax
	cmpq	$-4, %rax
	ja	24f
	movq	40(%rsp), %rax
	movq	48(%rsp), %rdx
	addq	%rdx, %rax
	addq	$3, %rax
	.p2align	4
23:
	movzbl	-3(%rax,%rcx), %edx
	movb	%dl, (%rbx,%rcx)
	movzbl	-2(%rax,%rcx), %edx
	movb	%dl, 1(%rbx,%rcx)
	movzbl	-1(%rax,%rcx), %edx
	movb	%dl, 2(%rbx,%rcx)
	movzbl	(%rax,%rcx), %edx
	movb	%dl, 3(%rbx,%rcx)
	addq	$4, %rcx
	cmpq	%rcx, %r13
	jne	23b
	.p2align	4
24:
	movq	80(%rsp), %rbp
	movq	8(%rbp), %rax
	cmpq	%rax, 16(%rbp)
	je	26f
25:
	bswapl	%r15d
	movl	%r15d, %ecx
	shrl	$8, %r15d
	andb	$1, %r15b
	movq	(%rbp), %rdx
	imulq	$56, %rax, %rsi
	movb	%cl, (%rdx,%rsi)
	movl	$0, 1(%rdx,%rsi)
	movl	$0, 4(%rdx,%rsi)
	movq	56(%rsp), %rcx
	movq	%rcx, 8(%rdx,%rsi)
	movq	%rdi, 16(%rdx,%rsi)
	movq	%rbx, 24(%rdx,%rsi)
	movq	%r13, 32(%rdx,%rsi)
	movq	%r13, 40(%rdx,%rsi)
	movb	%r15b, 48(%rdx,%rsi)
	movb	$0, 55(%rdx,%rsi)
	movw	$0, 53(%rdx,%rsi)
	movl	$0, 49(%rdx,%rsi)
	incq	%rax
	movq	%rax, 8(%rbp)
	movq	96(%rsp), %r9
	incq	%r9
	cmpq	88(%rsp), %r9
	movq	64(%rsp), %rsi
	movq	72(%rsp), %r8
	jne	4b
	jmp	27f
26:
	movq	%rbp, %rdi
	callq	"std_alloc::vec::Vec::grow_amortized::<#4355f86bd2b6ceb4>"
	testb	%al, %al
	je	36f
	movq	8(%rbp), %rax
	movq	16(%rsp), %rdi
	jmp	25b
27:
	movb	$0, (%r12)
	movl	$0, 8(%r12)
	movw	$0, 12(%r12)
	movq	$0, 16(%r12)
	jmp	2b
28:
	xorl	%edi, %edi
	movw	$7, %r15w
	jmp	35f
29:
	movw	$5, %r15w
	xorl	%edi, %edi
	jmp	35f
30:
	movq	%rax, %rdi
	jmp	35f
31:
	movq	%r12, %rdi
	movq	32(%rsp), %r12
	movw	$3, %r15w
	jmp	35f
32:
	movq	24(%rsp), %rcx
	addq	8(%rcx), %rbx
	movq	$-1, %rax
	cmovaeq	%rbx, %rax
	movq	%rax, 8(%rcx)
	cmpq	$256, %r14
	movw	$4, %r15w
	sbbw	$0, %r15w
	movq	40(%rsp), %rdi
	jmp	34f
33:
	addq	%r13, %rbx
	movq	$-1, %rax
	cmovaeq	%rbx, %rax
	movq	24(%rsp), %rcx
	movq	%rax, 8(%rcx)
	cmpq	$256, %r14
	movw	$4, %r15w
	sbbw	$0, %r15w
	movq	%r12, %rdi
34:
	movq	32(%rsp), %r12
35:
	movb	$1, (%r12)
	movw	%r15w, 8(%r12)
	movl	$0, 10(%r12)
	movq	%rdi, 16(%r12)
	jmp	2b
36:
	movw	$7, %r15w
	testq	%r13, %r13
	je	37f
	movq	%rbx, %rdi
	callq	rattle_dealloc@PLT
37:
	xorl	%edi, %edi
	jmp	35b
38:
	.size	"mime_view::rules::entries::add_entries", 38b-"mime_view::rules::entries::add_entries"

	.text
	.p2align	4
	.type	"mime_view::rules::tree::add_siblings",@function
"mime_view::rules::tree::add_siblings":
	pushq	%rbp
	pushq	%r15
	pushq	%r14
	pushq	%r13
	pushq	%r12
	pushq	%rbx
	subq	$152, %rsp
	movq	%rdx, 144(%rsp)
	movq	%rdi, 16(%rsp)
	movq	%rcx, 136(%rsp)
	testq	%rcx, %rcx
	je	30f
	movq	%r9, %r13
	movq	208(%rsp), %r9
	xorl	%r15d, %r15d
	movq	%r8, 40(%rsp)
	movq	%rsi, 32(%rsp)
	movq	%r13, 112(%rsp)
	jmp	5f
1:
	movq	%r12, %rcx
	shrq	%rcx
	movq	%r12, %rdx
	subq	%rcx, %rdx
	addq	%rbx, %rdx
	movq	%rbx, %rdi
	xorl	%esi, %esi
	callq	"core::slice::edits::mirror::<i8>"
	movq	40(%rsp), %r8
	movq	208(%rsp), %r9
	movq	32(%rsp), %rsi
2:
	movq	104(%rsp), %r13
	movq	112(%rsp), %rbp
	movq	8(%rbp), %rax
	cmpq	%rax, 16(%rbp)
	je	29f
3:
	shrq	$40, %r14
	andb	$1, %r14b
	movq	(%rbp), %rcx
	imulq	$56, %rax, %rdx
	movq	128(%rsp), %rdi
	movb	%dil, (%rcx,%rdx)
	movl	$0, 1(%rcx,%rdx)
	movl	$0, 4(%rcx,%rdx)
	movq	120(%rsp), %rdi
	movq	%rdi, 8(%rcx,%rdx)
	movq	80(%rsp), %rdi
	movq	%rdi, 16(%rcx,%rdx)
	movq	%rbx, 24(%rcx,%rdx)
	movq	%r12, 32(%rcx,%rdx)
	movq	%r13, 40(%rcx,%rdx)
	movb	%r14b, 48(%rcx,%rdx)
	movb	$0, 55(%rcx,%rdx)
	movw	$0, 53(%rcx,%rdx)
	movl	$0, 49(%rcx,%rdx)
	incq	%rax
	movq	%rax, 8(%rbp)
	movq	%rbp, %r13
	.p2align	4
4:
	incq	%r15
	cmpq	136(%rsp), %r15
	je	30f
5:
	xorps	%xmm2, %xmm2
	movaps	%xmm2, 48(%rsp)
	movq	16(%r9), %rcx
	testq	%rcx, %rcx
	je	31f
	leaq	(%r15,%r15,2), %rax
	movq	144(%rsp), %rdx
	leaq	(%rdx,%rax,4), %r12
	movq	(%rsi), %rax
	decq	%rcx
	movq	%rcx, 16(%r9)
	movq	(%r9), %rcx
	incq	%rcx
	movq	$-1, %rdx
	cmovneq	%rcx, %rdx
	movq	8(%rax), %rcx
	movq	%rdx, (%r9)
	movb	$3, %bpl
	subq	%r12, %rcx
	jb	37f
	cmpq	$12, %rcx
	jb	37f
	movq	(%rax), %rax
	movl	4(%rax,%r12), %r14d
	movl	8(%rax,%r12), %ecx
	shlq	$32, %r14
	orq	%rcx, %r14
	bswapq	%r14
	movl	(%rax,%r12), %ebx
	movq	%r14, %r12
	shrq	$32, %r12
	testl	%ebx, %ebx
	je	8f
	bswapl	%ebx
	cmpl	$255, %ebx
	ja	4b
	movq	8(%r8), %rax
	cmpq	$254, %rax
	je	32f
	movl	$4294967295, %ecx
	andq	%rcx, %r14
	je	6f
	movq	(%rsi), %rcx
	leaq	(%r14,%r14,2), %rdx
	leaq	(%r12,%rdx,4), %rdx
	cmpq	%rdx, 8(%rcx)
	jb	37f
6:
	cmpq	%rax, 16(%r8)
	je	22f
7:
	movq	(%r8), %rcx
	movb	%bl, (%rcx,%rax)
	incq	%rax
	movq	%rax, 8(%r8)
	movb	$0, 48(%rsp)
	movl	$0, 56(%rsp)
	movw	$0, 60(%rsp)
	movq	$0, 64(%rsp)
	movq	%r9, (%rsp)
	leaq	48(%rsp), %rdi
	movq	%r12, %rdx
	movq	%r14, %rcx
	movq	%r8, %rbx
	movq	%r13, %r9
	callq	"mime_view::rules::tree::add_siblings"
	cmpb	$0, 48(%rsp)
	jne	33f
	movq	8(%rbx), %rax
	testq	%rax, %rax
	movq	%rbx, %r8
	movq	208(%rsp), %r9
	movq	32(%rsp), %rsi
	je	4b
	decq	%rax
	movq	%rax, 8(%r8)
	jmp	4b
	.p2align	4
8:
	cmpq	$0, 8(%r8)
	je	4b
	movq	%r12, 128(%rsp)
	movl	%r14d, %eax
	andl	$-65536, %eax
	movzwl	%r14w, %r12d
	orl	%eax, %r12d
	movq	(%rsi), %rax
	movq	8(%rax), %r13
	subq	%r12, %r13
	jbe	37f
	movq	(%rax), %rbp
	addq	%r12, %rbp
	cmpq	$32, %r13
	jae	10f
9:
	cmpq	$256, %r13
	movl	$256, %ebx
	cmovbq	%r13, %rbx
	xorl	%edi, %edi
	movq	%rbp, %rsi
	movq	%rbx, %rdx
	callq	"memchr::bytes::memchr"
	cmpb	$1, %al
	jne	40f
	movq	%rdx, 80(%rsp)
	movq	%rdx, %rcx
	incq	%rcx
	movq	208(%rsp), %r9
	addq	8(%r9), %rcx
	movq	$-1, %rax
	cmovaeq	%rcx, %rax
	xorps	%xmm2, %xmm2
	movq	40(%rsp), %r8
	jmp	12f
10:
	movdqu	(%rbp), %xmm1
	pxor	%xmm0, %xmm0
	pcmpeqb	%xmm0, %xmm1
	pmovmskb	%xmm1, %ecx
	movl	$64, %eax
	movl	$64, %edx
	rep		bsfq	%rcx, %rdx
	movq	%rdx, %rcx
	cmpq	$16, %rdx
	jb	11f
	movdqu	16(%rbp), %xmm1
	pcmpeqb	%xmm0, %xmm1
	pmovmskb	%xmm1, %ecx
	rep		bsfq	%rcx, %rax
	cmpq	$15, %rax
	ja	9b
	orq	$16, %rax
	movq	%rax, %rcx
11:
	movq	%rcx, 80(%rsp)
	incq	%rcx
	addq	8(%r9), %rcx
	movq	$-1, %rax
	cmovaeq	%rcx, %rax
12:
	movq	%rbp, 120(%rsp)
	movq	%rax, 8(%r9)
	movq	(%r8), %r12
	movq	8(%r8), %rbx
	testq	%rbx, %rbx
	je	23f
	js	35f
	movl	$1, %esi
	movq	%rbx, %rdi
	callq	rattle_alloc@PLT
	xorps	%xmm2, %xmm2
	testb	$1, %al
	je	35f
	movq	%rdx, %rbp
	movq	%rbp, %rcx
	subq	%r12, %rcx
	cmpq	%rbx, %rcx
	jae	24f
13:
	xorl	%eax, %eax
	cmpq	$4, %rbx
	jb	18f
	cmpq	$32, %rcx
	jb	18f
	cmpq	$32, %rbx
	jae	14f
	xorl	%eax, %eax
	jmp	16f
14:
	movq	%rbx, %rax
	andq	$-32, %rax
	xorl	%ecx, %ecx
	.p2align	4
15:
	movdqu	(%r12,%rcx), %xmm0
	movdqu	16(%r12,%rcx), %xmm1
	movdqu	%xmm0, (%rbp,%rcx)
	movdqu	%xmm1, 16(%rbp,%rcx)
	addq	$32, %rcx
	cmpq	%rcx, %rax
	jne	15b
	cmpq	%rax, %rbx
	je	25f
	testb	$28, %bl
	je	18f
16:
	movq	%rax, %rcx
	movq	%rbx, %rax
	andq	$-4, %rax
	.p2align	4
17:
	movl	(%r12,%rcx), %edx
	movl	%edx, (%rbp,%rcx)
	addq	$4, %rcx
	cmpq	%rcx, %rax
	jne	17b
	cmpq	%rax, %rbx
	je	25f
18:
	movq	%rbx, %rdx
	movq	%rax, %rcx
	andq	$3, %rdx
	je	20f
	movq	%rax, %rcx
	.p2align	4
19:
	movzbl	(%r12,%rcx), %esi
	movb	%sil, (%rbp,%rcx)
	incq	%rcx
	decq	%rdx
	jne	19b
20:
	subq	%rbx, %rax
	cmpq	$-4, %rax
	ja	25f
	.p2align	4
21:
	movzbl	(%r12,%rcx), %eax
	movb	%al, (%rbp,%rcx)
	movzbl	1(%r12,%rcx), %eax
	movb	%al, 1(%rbp,%rcx)
	movzbl	2(%r12,%rcx), %eax
	movb	%al, 2(%rbp,%rcx)
	movzbl	3(%r12,%rcx), %eax
	movb	%al, 3(%rbp,%rcx)
	addq	$4, %rcx
	cmpq	%rcx, %rbx
	jne	21b
	jmp	25f
22:
	movq	%r12, %rbp
	movl	$1, %esi
	movq	%r8, %rdi
	movq	%r8, %r12
	callq	"std_alloc::vec::Vec::grow_amortized::<#06f9579a8fe94b13>"
	testb	%al, %al
	je	42f
	movq	8(%r12), %rax
	movq	%r12, %r8
	movq	208(%rsp), %r9
	movq	32(%rsp), %rsi
	movq	%rbp, %r12
	jmp	7b
23:
	leaq	31(%rsp), %rbp
	movq	%rbp, %rcx
	subq	%r12, %rcx
	cmpq	%rbx, %rcx
	jb	13b
24:
	movq	%rbp, %rdi
	movq	%r12, %rsi
	movq	%rbx, %rdx
	callq	memmove@PLT
25:
	movq	%rbp, 88(%rsp)
	movq	%rbx, 96(%rsp)
	movq	%rbx, 104(%rsp)
	leaq	88(%rsp), %rdi
	movl	$1, %esi
	callq	"std_alloc::vec::Vec::grow_amortized::<#06f9579a8fe94b13>"
	testb	%al, %al
	je	34f
	movq	88(%rsp), %rbx
	movq	96(%rsp), %rax
	movb	$42, (%rbx,%rax)
	leaq	1(%rax), %r12
	cmpq	$15, %r12
	ja	1b
	cmpq	$2, %r12
	movq	40(%rsp), %r8
	movq	208(%rsp), %r9
	movq	32(%rsp), %rsi
	jb	2b
	leaq	-1(%rax), %rcx
	shrq	%rcx
	incq	%rcx
	xorl	%edx, %edx
	jmp	28f
	.p2align	4
26:
	movzbl	(%rbx,%rdx), %r10d
	movzbl	(%rbx,%rax), %edi
	movb	%dil, (%rbx,%rdx)
	movb	%r10b, (%rbx,%rax)
27:
	incq	%rdx
	decq	%rax
	cmpq	%rdx, %rcx
	je	2b
28:
	cmpq	%rax, %rdx
	jb	26b
	jbe	27b
	movzbl	(%rbx,%rax), %r10d
	movzbl	(%rbx,%rdx), %edi
	movb	%dil, (%rbx,%rax)
	movb	%r10b, (%rbx,%rdx)
	jmp	27b
29:
	movq	%rbp, %rdi
	callq	"std_alloc::vec::Vec::grow_amortized::<#4355f86bd2b6ceb4>"
	testb	%al, %al
	je	43f
	movq	8(%rbp), %rax
	movq	40(%rsp), %r8
	movq	208(%rsp), %r9
	movq	32(%rsp), %rsi
	jmp	3b
30:
	movq	16(%rsp), %rax
	movb	$0, (%rax)
	movl	$0, 8(%rax)
	movw	$0, 12(%rax)
	movq	$0, 16(%rax)
	jmp	39f
31:
	movb	$5, %bpl
	jmp	36f
32:
	movb	$6, %bpl
	jmp	36f
33:
	movq	64(%rsp), %r12
	movss	58(%rsp), %xmm2
	movzbl	56(%rsp), %ebp
	jmp	37f
34:
	cmpq	$0, 104(%rsp)
	xorps	%xmm2, %xmm2
	je	35f
	movq	88(%rsp), %rdi
	callq	rattle_dealloc@PLT
	xorps	%xmm2, %xmm2
35:
	movb	$7, %bpl
36:
	xorl	%r12d, %r12d
37:
	movq	16(%rsp), %rcx
38:
	movzbl	%bpl, %eax
	movb	$1, (%rcx)
	movw	%ax, 8(%rcx)
	movss	%xmm2, 10(%rcx)
	movq	%r12, 16(%rcx)
39:
	addq	$152, %rsp
	popq	%rbx
	popq	%r12
	popq	%r13
	popq	%r14
	popq	%r15
	popq	%rbp
	retq
40:
	movq	208(%rsp), %rcx
	addq	8(%rcx), %rbx
	movq	$-1, %rax
	cmovaeq	%rbx, %rax
	movq	%rax, 8(%rcx)
	cmpq	$256, %r13
	movb	$4, %bpl
	sbbb	$0, %bpl
41:
	movq	16(%rsp), %rcx
	xorps	%xmm2, %xmm2
	jmp	38b
42:
	movb	$7, %bpl
	jmp	44f
43:
	movb	$7, %bpl
	testq	%r13, %r13
	je	44f
	movq	%rbx, %rdi
	callq	rattle_dealloc@PLT
44:
	xorl	%r12d, %r12d
	jmp	41b
45:
	.size	"mime_view::rules::tree::add_siblings", 45b-"mime_view::rules::tree::add_siblings"
