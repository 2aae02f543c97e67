# Made by dist/refresh of what is proved.

	.text
	.p2align	4
	.type	"mime_lookup::cached::ancestry::leads_to",@function
"mime_lookup::cached::ancestry::leads_to":
	pushq	%rbp
	pushq	%r15
	pushq	%r14
	pushq	%r13
	pushq	%r12
	pushq	%rbx
	subq	$296, %rsp
	movq	%r9, %r15
	movq	%rdx, %r13
	movq	%rdi, 112(%rsp)
	movq	360(%rsp), %rdx
	movq	352(%rsp), %r12
	movq	$0, 24(%rsp)
	leaq	16(%rsp), %rax
	movq	%rax, 48(%rsp)
	pxor	%xmm0, %xmm0
	movdqu	%xmm0, 56(%rsp)
	movdqu	%xmm0, 72(%rsp)
	movq	%rcx, 32(%rsp)
	movq	%r8, 40(%rsp)
	cmpq	$10, %r12
	movl	$10, %eax
	cmovbq	%r12, %rax
	movq	%rax, 88(%rsp)
	cmpq	$24, %r12
	movl	$24, %r11d
	cmovbq	%r12, %r11
	leaq	16(%rsi), %rax
	movq	%rax, 152(%rsp)
	leaq	16(%rdx), %rax
	movq	%rax, 192(%rsp)
	movb	$1, %al
	movq	%r9, 128(%rsp)
	movq	%r13, 120(%rsp)
	movq	%rsi, 144(%rsp)
	movq	%r11, 136(%rsp)
	movq	56(%rsp), %rbx
	testq	%rbx, %rbx
	jne	2f
	jmp	5f
	.p2align	4
1:
	movl	%ebp, %eax
	movq	136(%rsp), %r11
	movq	56(%rsp), %rbx
	testq	%rbx, %rbx
	je	5f
2:
	cmpq	%rbx, 80(%rsp)
	jne	3f
	movq	$0, 80(%rsp)
	xorl	%ecx, %ecx
	jmp	4f
	.p2align	4
3:
	movq	72(%rsp), %rcx
4:
	leaq	1(%rcx), %rdx
	movq	%rdx, 72(%rsp)
	decq	%rbx
	movq	%rbx, 56(%rsp)
	movq	48(%rsp), %rdx
	shlq	$4, %rcx
	movq	(%rdx,%rcx), %r8
	movq	8(%rdx,%rcx), %rdi
	movl	$1, %ebp
	jmp	6f
	.p2align	4
5:
	xorl	%ebx, %ebx
	xorl	%ebp, %ebp
	xorl	%r8d, %r8d
	xorl	%edi, %edi
6:
	movq	32(%rsp), %rdx
	movq	40(%rsp), %rcx
	movq	%rbp, 24(%rsp)
	movq	%r8, 32(%rsp)
	movq	%rdi, 40(%rsp)
	cmpb	$1, %al
	jne	48f
	cmpq	%r12, %rcx
	movq	%r12, %r8
	cmovbq	%rcx, %r8
	xorl	%eax, %eax
	.p2align	4
7:
	movq	%r8, %rdi
	subq	%rax, %rdi
	cmpq	$8, %rdi
	jb	8f
	pmovzxbw	(%r15,%rax), %xmm0
	pmovzxbw	(%rdx,%rax), %xmm1
	pcmpeqw	%xmm0, %xmm1
	packsswb	%xmm1, %xmm1
	pmovmskb	%xmm1, %edi
	notl	%edi
	orl	$256, %edi
	rep		bsfl	%edi, %edi
	addq	%rdi, %rax
	cmpb	$7, %dil
	ja	7b
8:
	cmpq	%r8, %rax
	jae	11f
	.p2align	4
9:
	movzbl	(%r15,%rax), %edi
	cmpb	(%rdx,%rax), %dil
	jne	10f
	incq	%rax
	cmpq	%rax, %r8
	jne	9b
	jmp	11f
	.p2align	4
10:
	movq	%rax, %r8
11:
	leaq	1(%r8), %rdi
	movq	360(%rsp), %r9
	addq	8(%r9), %rdi
	movq	$-1, %rax
	cmovaeq	%rdi, %rax
	movq	%rax, 8(%r9)
	movq	%r8, %rdi
	xorq	%r12, %rdi
	xorq	%rcx, %r8
	orq	%rdi, %r8
	je	46f
	cmpq	$5, %rcx
	jb	18f
	movl	$1, %edi
	cmpb	$116, (%rdx)
	jne	15f
	movl	$2, %edi
	cmpb	$101, 1(%rdx)
	jne	15f
	movl	$3, %edi
	cmpb	$120, 2(%rdx)
	jne	15f
	movl	$4, %edi
	cmpb	$116, 3(%rdx)
	jne	15f
	movl	$5, %edi
	cmpb	$47, 4(%rdx)
	jne	15f
	addq	$6, %rax
	movq	$-1, %r9
	cmovaeq	%rax, %r9
	movq	360(%rsp), %rax
	movq	%r9, 8(%rax)
	xorl	%eax, %eax
	.p2align	4
12:
	movq	88(%rsp), %r8
	subq	%rax, %r8
	leaq	.Laafe98300121(%rip), %rdi
	cmpq	$8, %r8
	jb	13f
	pmovzxbw	(%rax,%rdi), %xmm0
	pmovzxbw	(%r15,%rax), %xmm1
	pcmpeqw	%xmm0, %xmm1
	packsswb	%xmm1, %xmm1
	pmovmskb	%xmm1, %r8d
	notl	%r8d
	orl	$256, %r8d
	rep		bsfl	%r8d, %r8d
	addq	%r8, %rax
	cmpb	$7, %r8b
	ja	12b
13:
	movq	88(%rsp), %r10
	movq	%r10, %r8
	cmpq	%r10, %rax
	jae	45f
	.p2align	4
14:
	movzbl	(%rax,%rdi), %r8d
	cmpb	(%r15,%rax), %r8b
	jne	44f
	incq	%rax
	cmpq	%rax, 88(%rsp)
	jne	14b
	movq	88(%rsp), %r8
	jmp	45f
	.p2align	4
15:
	addq	%rax, %rdi
	movq	$-1, %rax
	cmovaeq	%rdi, %rax
	movq	360(%rsp), %rdi
	movq	%rax, 8(%rdi)
16:
	cmpq	$5, %rcx
	je	18f
	movl	$1, %edi
	cmpb	$105, (%rdx)
	jne	17f
	movl	$2, %edi
	cmpb	$110, 1(%rdx)
	jne	17f
	movl	$3, %edi
	cmpb	$111, 2(%rdx)
	jne	17f
	movl	$4, %edi
	cmpb	$100, 3(%rdx)
	jne	17f
	movl	$5, %edi
	cmpb	$101, 4(%rdx)
	jne	17f
	movl	$6, %edi
	cmpb	$47, 5(%rdx)
	jne	17f
	addq	$7, %rax
	movq	$-1, %rdi
	cmovaeq	%rax, %rdi
	movq	360(%rsp), %rax
	movq	%rdi, 8(%rax)
	jmp	24f
	.p2align	4
17:
	addq	%rax, %rdi
	movq	$-1, %rax
	cmovaeq	%rdi, %rax
	movq	360(%rsp), %rdi
	movq	%rax, 8(%rdi)
18:
	xorl	%r9d, %r9d
	.p2align	4
19:
	movq	%r11, %r8
	subq	%r9, %r8
	leaq	.L67248b46a1a0(%rip), %rdi
	cmpq	$8, %r8
	jb	20f
	pmovzxbw	(%r9,%rdi), %xmm0
	pmovzxbw	(%r15,%r9), %xmm1
	pcmpeqw	%xmm0, %xmm1
	packsswb	%xmm1, %xmm1
	pmovmskb	%xmm1, %r8d
	notl	%r8d
	orl	$256, %r8d
	rep		bsfl	%r8d, %r8d
	addq	%r8, %r9
	cmpb	$7, %r8b
	ja	19b
20:
	movq	%r11, %r8
	cmpq	%r11, %r9
	jae	23f
	.p2align	4
21:
	movzbl	(%r9,%rdi), %r8d
	cmpb	(%r15,%r9), %r8b
	jne	22f
	incq	%r9
	cmpq	%r9, %r11
	jne	21b
	movq	%r11, %r8
	jmp	23f
	.p2align	4
22:
	movq	%r9, %r8
23:
	leaq	1(%r8), %rdi
	addq	%rax, %rdi
	movq	$-1, %rax
	cmovaeq	%rdi, %rax
	movq	360(%rsp), %rdi
	movq	%rax, 8(%rdi)
	cmpq	$24, %r12
	jne	24f
	cmpq	$24, %r8
	je	46f
24:
	movq	$0, 200(%rsp)
	pxor	%xmm0, %xmm0
	movdqa	%xmm0, 240(%rsp)
	movdqa	%xmm0, 256(%rsp)
	movdqa	%xmm0, 272(%rsp)
	movq	$0, 288(%rsp)
	movq	192(%rsp), %rax
	movq	%rax, (%rsp)
	leaq	240(%rsp), %rdi
	movq	152(%rsp), %rsi
	movq	%r13, %r8
	movq	360(%rsp), %r9
	callq	"mime_view::cache::Cache::parents_of"
	movzbl	248(%rsp), %r14d
	movq	256(%rsp), %rcx
	cmpb	$0, 240(%rsp)
	jne	51f
	cmpb	$1, %r14b
	jne	1b
	movzbl	264(%rsp), %esi
	movl	%ecx, 200(%rsp)
	movq	%rsi, 208(%rsp)
	leaq	272(%rsp), %rcx
	movq	16(%rcx), %rax
	leaq	216(%rsp), %rdx
	movq	%rax, 16(%rdx)
	movdqu	(%rcx), %xmm0
	movdqu	%xmm0, (%rdx)
	testq	%rsi, %rsi
	je	25f
	movq	224(%rsp), %r12
	testq	%r12, %r12
	je	40f
	movq	%rbx, %r13
	movq	%rsi, 96(%rsp)
	movq	216(%rsp), %rbp
	jmp	26f
	.p2align	4
25:
	movq	%rsi, 96(%rsp)
	movl	$1, %r12d
	movq	%rdx, %rbp
	movq	%rbx, %r13
26:
	addq	$8, %rbp
	movq	144(%rsp), %r14
	jmp	28f
	.p2align	4
27:
	movq	$1, 24(%rsp)
	movq	%r15, 32(%rsp)
	movq	%rbx, 40(%rsp)
	addq	$16, %rbp
	decq	%r12
	je	36f
28:
	movq	-8(%rbp), %r15
	movq	(%rbp), %rbx
	cmpb	$1, 72(%r14)
	jne	29f
	movl	$192, %edi
	addq	80(%r14), %rdi
	movq	%r15, %rsi
	movq	%rbx, %rdx
	callq	"mime_lookup::read_back::targets::target_of"
	movq	%rax, %r15
	movq	%rdx, %rbx
	cmpb	$1, 24(%rsp)
	jne	27b
	jmp	31f
	.p2align	4
29:
	pxor	%xmm0, %xmm0
	movdqa	%xmm0, 176(%rsp)
	movdqa	%xmm0, 160(%rsp)
	movl	36(%r14), %edx
	leaq	160(%rsp), %rdi
	movq	152(%rsp), %rsi
	movq	%r15, %rcx
	movq	%rbx, %r8
	movq	360(%rsp), %r9
	callq	"mime_view::pairs::look_up_pair"
	movzbl	168(%rsp), %r14d
	movq	176(%rsp), %rcx
	cmpb	$0, 160(%rsp)
	jne	37f
	cmpb	$1, %r14b
	jne	30f
	movq	184(%rsp), %rbx
	movq	%rcx, %r15
30:
	movq	144(%rsp), %r14
	cmpb	$1, 24(%rsp)
	jne	27b
31:
	movq	64(%rsp), %rsi
	cmpq	%rsi, %r13
	jae	33f
	movq	80(%rsp), %rcx
	movq	%r13, %rdx
	subq	%rcx, %rdx
	movq	48(%rsp), %rax
	movq	72(%rsp), %rdi
	subq	%rdi, %rsi
	cmpq	%rsi, %rdx
	jae	34f
	addq	%rdi, %rdx
32:
	shlq	$4, %rdx
	movq	%r15, (%rax,%rdx)
	movq	%rbx, 8(%rax,%rdx)
	jmp	35f
33:
	leaq	48(%rsp), %rdi
	callq	"std_alloc::vec::deque::VecDeque::grow::<#25095d740b27081c>"
	testb	%al, %al
	je	43f
	movq	48(%rsp), %rax
	movq	56(%rsp), %r13
	movq	80(%rsp), %rcx
	movq	%r13, %rsi
	subq	%rcx, %rsi
	movq	64(%rsp), %rdi
	movq	72(%rsp), %rdx
	subq	%rdx, %rdi
	cmpq	%rdi, %rsi
	jae	34f
	addq	%rsi, %rdx
	jmp	32b
	.p2align	4
34:
	movq	%rcx, %rdx
	shlq	$4, %rdx
	movq	%r15, (%rax,%rdx)
	movq	%rbx, 8(%rax,%rdx)
	incq	%rcx
	movq	%rcx, 80(%rsp)
35:
	incq	%r13
	movq	%r13, 56(%rsp)
	addq	$16, %rbp
	decq	%r12
	jne	28b
36:
	xorl	%ecx, %ecx
	pxor	%xmm0, %xmm0
	movb	$1, %bl
	xorl	%r14d, %r14d
	jmp	39f
37:
	movd	170(%rsp), %xmm0
38:
	xorl	%ebx, %ebx
39:
	movq	128(%rsp), %r15
	movq	120(%rsp), %r13
	movq	96(%rsp), %rsi
	cmpl	$1, %esi
	movq	352(%rsp), %r12
	je	41f
	jmp	42f
40:
	pxor	%xmm0, %xmm0
	movb	$1, %bl
	xorl	%ecx, %ecx
	xorl	%r14d, %r14d
	cmpl	$1, %esi
	movq	352(%rsp), %r12
	jne	42f
41:
	cmpq	$0, 232(%rsp)
	je	42f
	movq	216(%rsp), %rdi
	movq	%rcx, %rbp
	movdqa	%xmm0, 96(%rsp)
	callq	rattle_dealloc@PLT
	movdqa	96(%rsp), %xmm0
	movq	%rbp, %rcx
42:
	testb	%bl, %bl
	je	52f
	movzbl	24(%rsp), %eax
	movq	136(%rsp), %r11
	movq	56(%rsp), %rbx
	testq	%rbx, %rbx
	jne	2b
	jmp	5b
43:
	pxor	%xmm0, %xmm0
	movb	$7, %r14b
	xorl	%ecx, %ecx
	jmp	38b
44:
	movq	%rax, %r8
45:
	leaq	1(%r8), %rdi
	addq	%r9, %rdi
	movq	$-1, %rax
	cmovaeq	%rdi, %rax
	movq	360(%rsp), %rdi
	movq	%rax, 8(%rdi)
	cmpq	$10, %r12
	jne	16b
	cmpq	$10, %r8
	jne	16b
46:
	cmpq	$0, 64(%rsp)
	je	47f
	movq	48(%rsp), %rdi
	callq	rattle_dealloc@PLT
47:
	movq	112(%rsp), %rax
	movw	$256, (%rax)
	jmp	50f
48:
	cmpq	$0, 64(%rsp)
	je	49f
	movq	48(%rsp), %rdi
	callq	rattle_dealloc@PLT
49:
	movq	112(%rsp), %rax
	movw	$0, (%rax)
50:
	movl	$0, 8(%rax)
	movw	$0, 12(%rax)
	movq	$0, 16(%rax)
	jmp	54f
51:
	movd	250(%rsp), %xmm0
52:
	movzbl	%r14b, %ebx
	cmpq	$0, 64(%rsp)
	je	53f
	movq	48(%rsp), %rdi
	movq	%rcx, %r14
	movdqa	%xmm0, 96(%rsp)
	callq	rattle_dealloc@PLT
	movdqa	96(%rsp), %xmm0
	movq	%r14, %rcx
53:
	movq	112(%rsp), %rax
	movw	$1, (%rax)
	movw	%bx, 8(%rax)
	movd	%xmm0, 10(%rax)
	movq	%rcx, 16(%rax)
54:
	addq	$296, %rsp
	popq	%rbx
	popq	%r12
	popq	%r13
	popq	%r14
	popq	%r15
	popq	%rbp
	retq
55:
	.size	"mime_lookup::cached::ancestry::leads_to", 55b-"mime_lookup::cached::ancestry::leads_to"

	.text
	.p2align	4
	.type	"mime_lookup::cached::by_content::by_globs",@function
"mime_lookup::cached::by_content::by_globs":
	pushq	%rbp
	pushq	%r15
	pushq	%r14
	pushq	%r13
	pushq	%r12
	pushq	%rbx
	subq	$472, %rsp
	movq	%r9, %r14
	movq	%rcx, %r9
	movq	%rsi, %r11
	movq	%rdi, %r13
	movzbl	(%r8), %eax
	movdqu	8(%r8), %xmm0
	movdqa	%xmm0, 448(%rsp)
	movl	24(%r8), %ecx
	pxor	%xmm0, %xmm0
	movdqa	%xmm0, 256(%rsp)
	movdqa	%xmm0, 240(%rsp)
	movdqa	%xmm0, 416(%rsp)
	movdqa	%xmm0, 96(%rsp)
	movq	$0, 112(%rsp)
	movdqa	%xmm0, 400(%rsp)
	movdqa	%xmm0, 384(%rsp)
	movdqa	%xmm0, 176(%rsp)
	movdqa	%xmm0, 160(%rsp)
	movdqa	%xmm0, 144(%rsp)
	movq	$0, 192(%rsp)
	cmpb	$1, 72(%rsi)
	movq	%rsi, 80(%rsp)
	movq	%rax, 328(%rsp)
	movl	%ecx, 92(%rsp)
	jne	2f
	movq	%rdx, %r8
	leaq	16(%r11), %rsi
	movq	80(%r11), %r10
	movb	$1, %al
	cmpb	$1, 104(%r11)
	jne	1f
	movq	24(%r11), %rdi
	movq	112(%r11), %rcx
	movabsq	$-6148914691236517205, %rdx
	movq	%rdi, %rax
	mulq	%rdx
	shrq	$2, %rdx
	shrq	$4, %rdi
	addq	%rdx, %rdi
	movq	16(%r14), %rax
	xorl	%edx, %edx
	subq	336(%rcx), %rax
	cmovaeq	%rax, %rdx
	cmpq	%rdi, %rdx
	movb	$2, %al
	sbbb	$0, %al
1:
	movq	%r14, 8(%rsp)
	movl	$0, (%rsp)
	movzbl	%al, %ecx
	leaq	144(%rsp), %rdi
	movq	%r10, %rdx
	callq	"mime_lookup::read_back::name_types::types_of"
	movzbl	144(%rsp), %eax
	movzbl	152(%rsp), %ecx
	movzwl	154(%rsp), %ebp
	movzwl	156(%rsp), %ebx
	movq	160(%rsp), %rsi
	movq	168(%rsp), %r12
	jmp	4f
2:
	leaq	16(%r11), %r12
	movdqa	%xmm0, 272(%rsp)
	movdqa	%xmm0, 288(%rsp)
	movq	$0, 304(%rsp)
	movdqa	%xmm0, 432(%rsp)
	movdqa	%xmm0, 368(%rsp)
	movdqa	%xmm0, 352(%rsp)
	movdqa	%xmm0, 336(%rsp)
	leaq	16(%r14), %rax
	movq	%rax, (%rsp)
	leaq	336(%rsp), %rdi
	movq	%r12, %rsi
	movq	%r9, %rcx
	xorl	%r8d, %r8d
	movq	%r14, %r9
	callq	"mime_view::cache::Cache::glob_hits"
	movzbl	344(%rsp), %ecx
	movq	352(%rsp), %r15
	cmpb	$0, 336(%rsp)
	je	7f
	movzwl	346(%rsp), %ebp
	movzwl	348(%rsp), %ebx
3:
	pxor	%xmm0, %xmm0
	movdqu	%xmm0, 168(%rsp)
	movdqu	%xmm0, 184(%rsp)
	movb	$1, %al
	xorl	%r12d, %r12d
	movq	%r15, %rsi
4:
	movaps	176(%rsp), %xmm0
	movaps	%xmm0, 416(%rsp)
	testb	%al, %al
	je	5f
	movzbl	%cl, %eax
	movq	$1, (%r13)
	movw	%ax, 8(%r13)
	movw	%bp, 10(%r13)
	movw	%bx, 12(%r13)
	movw	$0, 14(%r13)
	movq	%rsi, 16(%r13)
	jmp	23f
5:
	testb	%cl, %cl
	je	11f
	movq	%r13, 24(%rsp)
	movzbl	%sil, %r15d
	movq	%r15, 240(%rsp)
	leaq	248(%rsp), %rdx
	movq	%r12, 248(%rsp)
	movaps	416(%rsp), %xmm0
	movaps	%xmm0, 256(%rsp)
	testb	%r15b, %r15b
	cmovneq	%r12, %rdx
	movl	$1, %ecx
	cmovneq	256(%rsp), %rcx
	movq	328(%rsp), %rax
	movq	%rax, 384(%rsp)
	movaps	448(%rsp), %xmm0
	movups	%xmm0, 392(%rsp)
	movl	92(%rsp), %eax
	movl	%eax, 408(%rsp)
	leaq	96(%rsp), %rdi
	leaq	384(%rsp), %r8
	movq	80(%rsp), %rsi
	movq	%r14, %r9
	callq	"mime_lookup::cached::by_content::choose"
	movzwl	104(%rsp), %esi
	movzwl	106(%rsp), %ebx
	movzwl	108(%rsp), %r14d
	movl	%esi, %ecx
	shrl	$8, %ecx
	cmpb	$1, %r15b
	setne	%dl
	cmpq	$0, 264(%rsp)
	movq	112(%rsp), %r13
	sete	%al
	orb	%dl, %al
	xorl	%ebp, %ebp
	cmpb	$0, 96(%rsp)
	cmovel	%ecx, %ebp
	je	20f
	movzbl	%sil, %ebp
	testb	%al, %al
	jne	6f
	movq	%r12, %rdi
	callq	rattle_dealloc@PLT
6:
	movq	24(%rsp), %rax
	movq	$1, (%rax)
	movw	%bp, 8(%rax)
	movw	%bx, 10(%rax)
	movw	%r14w, 12(%rax)
	movw	$0, 14(%rax)
	movq	%r13, 16(%rax)
	jmp	23f
7:
	movzbl	%cl, %eax
	movq	376(%rsp), %rdx
	movq	%rdx, 320(%rsp)
	movq	%rax, 208(%rsp)
	movq	%r15, 216(%rsp)
	movdqu	360(%rsp), %xmm0
	movdqu	%xmm0, 224(%rsp)
	movl	$1, %ebx
	testb	%al, %al
	je	8f
	movq	224(%rsp), %rbx
8:
	leaq	224(%rsp), %rdx
	testq	%rbx, %rbx
	movq	%r14, 32(%rsp)
	movq	%rax, 128(%rsp)
	movq	%rcx, 40(%rsp)
	movq	%r13, 24(%rsp)
	je	12f
	movq	%r12, 136(%rsp)
	testb	%cl, %cl
	je	35f
	leaq	8(%r15), %r14
	jmp	10f
	.p2align	4
9:
	cmpq	$1, %rax
	cmoveq	%r13, %r12
	movq	%r12, -8(%r14)
	movq	%rbp, (%r14)
	addq	$16, %r14
	decq	%rbx
	je	12f
10:
	movq	-8(%r14), %r12
	movq	(%r14), %rbp
	pxor	%xmm0, %xmm0
	movdqa	%xmm0, 64(%rsp)
	movdqa	%xmm0, 48(%rsp)
	movq	80(%rsp), %rax
	movl	36(%rax), %edx
	leaq	48(%rsp), %rdi
	movq	136(%rsp), %rsi
	movq	%r12, %rcx
	movq	%rbp, %r8
	movq	32(%rsp), %r9
	callq	"mime_view::pairs::look_up_pair"
	movzbl	56(%rsp), %eax
	movq	64(%rsp), %r13
	cmpb	$0, 48(%rsp)
	jne	38f
	cmpl	$1, %eax
	jne	9b
	movq	72(%rsp), %rbp
	jmp	9b
11:
	movl	%esi, %ebp
	shrl	$8, %ebp
	movl	%esi, %ebx
	shrl	$16, %ebx
	movq	%rsi, %r14
	shrq	$32, %r14
	movq	%rsi, %r15
	shrq	$48, %r15
	jmp	22f
12:
	movq	%r15, %r12
13:
	leaq	224(%rsp), %rax
	movdqu	(%rax), %xmm0
	movdqa	%xmm0, 432(%rsp)
	movq	128(%rsp), %rax
	movq	%rax, 272(%rsp)
	movq	%r12, 280(%rsp)
	movdqa	%xmm0, 288(%rsp)
	movq	320(%rsp), %r15
	movq	%r15, 304(%rsp)
	movq	40(%rsp), %rdi
	testb	%dil, %dil
	je	24f
	movq	288(%rsp), %rax
	testq	%rax, %rax
	movq	24(%rsp), %r13
	movq	32(%rsp), %r14
	je	27f
	movq	%rax, %rcx
	movq	%r12, %rdx
	decq	%rcx
	movq	40(%rsp), %rdi
	je	25f
	xorl	%edx, %edx
	.p2align	4
14:
	movq	%rdx, %rsi
	shlq	$4, %rsi
	movq	(%r12), %r9
	movq	8(%r12), %rdi
	movq	16(%r12,%rsi), %r10
	movq	24(%r12,%rsi), %rsi
	cmpq	%rdi, %rsi
	movq	%rdi, %r8
	cmovbq	%rsi, %r8
	xorl	%r11d, %r11d
	.p2align	4
15:
	movq	%r8, %rbx
	subq	%r11, %rbx
	cmpq	$8, %rbx
	jb	16f
	pmovzxbw	(%r9,%r11), %xmm0
	pmovzxbw	(%r10,%r11), %xmm1
	pcmpeqw	%xmm0, %xmm1
	packsswb	%xmm1, %xmm1
	pmovmskb	%xmm1, %ebx
	notl	%ebx
	orl	$256, %ebx
	rep		bsfl	%ebx, %ebx
	addq	%rbx, %r11
	cmpb	$7, %bl
	ja	15b
16:
	cmpq	%r8, %r11
	jae	19f
	.p2align	4
17:
	movzbl	(%r9,%r11), %ebx
	cmpb	(%r10,%r11), %bl
	jne	18f
	incq	%r11
	cmpq	%r11, %r8
	jne	17b
	jmp	19f
18:
	movq	%r11, %r8
19:
	leaq	1(%r8), %r9
	addq	8(%r14), %r9
	movq	$-1, %r10
	cmovaeq	%r9, %r10
	movq	%r10, 8(%r14)
	cmpq	%rdi, %r8
	jne	27f
	cmpq	%rsi, %r8
	jne	27f
	incq	%rdx
	cmpq	%rcx, %rdx
	jne	14b
	movq	%r12, %rdx
	movq	40(%rsp), %rdi
	jmp	25f
20:
	movzwl	110(%rsp), %r15d
	testb	%al, %al
	jne	21f
	movq	%r12, %rdi
	movq	%rsi, %r12
	callq	rattle_dealloc@PLT
	movq	%r12, %rsi
21:
	movq	%r13, %r12
	movq	24(%rsp), %r13
22:
	movq	$0, (%r13)
	shll	$8, %ebp
	movzbl	%sil, %eax
	orl	%ebp, %eax
	movw	%ax, 8(%r13)
	movw	%bx, 10(%r13)
	movw	%r14w, 12(%r13)
	movw	%r15w, 14(%r13)
	movq	%r12, 16(%r13)
23:
	addq	$472, %rsp
	popq	%rbx
	popq	%r12
	popq	%r13
	popq	%r14
	popq	%r15
	popq	%rbp
	retq
24:
	leaq	280(%rsp), %rdx
	movq	24(%rsp), %r13
25:
	movq	(%rdx), %rsi
	movq	8(%rdx), %r14
	cmpb	$1, %dil
	jne	26f
	cmpq	$0, 296(%rsp)
	je	26f
	movq	%r12, %rdi
	movq	%rsi, %rbx
	callq	rattle_dealloc@PLT
	movq	%rbx, %rsi
26:
	pxor	%xmm0, %xmm0
	movdqa	%xmm0, 176(%rsp)
	movq	$0, 192(%rsp)
	xorl	%ebx, %ebx
	movq	%r14, %r12
	xorl	%ebp, %ebp
	xorl	%ecx, %ecx
	xorl	%eax, %eax
	movq	32(%rsp), %r14
	jmp	4b
27:
	cmpq	%rax, %r15
	je	34f
	testq	%r15, %r15
	je	34f
	decq	%r15
	je	34f
	xorl	%eax, %eax
	.p2align	4
28:
	movq	%rax, %rcx
	shlq	$4, %rcx
	movq	(%r12), %rdi
	movq	8(%r12), %rdx
	movq	16(%r12,%rcx), %r8
	movq	24(%r12,%rcx), %rcx
	cmpq	%rdx, %rcx
	movq	%rdx, %rsi
	cmovbq	%rcx, %rsi
	xorl	%r9d, %r9d
	.p2align	4
29:
	movq	%rsi, %r10
	subq	%r9, %r10
	cmpq	$8, %r10
	jb	30f
	pmovzxbw	(%rdi,%r9), %xmm0
	pmovzxbw	(%r8,%r9), %xmm1
	pcmpeqw	%xmm0, %xmm1
	packsswb	%xmm1, %xmm1
	pmovmskb	%xmm1, %r10d
	notl	%r10d
	orl	$256, %r10d
	rep		bsfl	%r10d, %r10d
	addq	%r10, %r9
	cmpb	$7, %r10b
	ja	29b
30:
	cmpq	%rsi, %r9
	jae	33f
	.p2align	4
31:
	movzbl	(%rdi,%r9), %r10d
	cmpb	(%r8,%r9), %r10b
	jne	32f
	incq	%r9
	cmpq	%r9, %rsi
	jne	31b
	jmp	33f
32:
	movq	%r9, %rsi
33:
	leaq	1(%rsi), %rdi
	addq	8(%r14), %rdi
	movq	$-1, %r8
	cmovaeq	%rdi, %r8
	movq	%r8, 8(%r14)
	cmpq	%rdx, %rsi
	jne	34f
	cmpq	%rcx, %rsi
	jne	34f
	incq	%rax
	cmpq	%r15, %rax
	jne	28b
34:
	movdqa	432(%rsp), %xmm0
	movdqa	%xmm0, 176(%rsp)
	movb	$1, %cl
	xorl	%ebx, %ebx
	xorl	%ebp, %ebp
	xorl	%eax, %eax
	movq	128(%rsp), %rsi
	jmp	4b
35:
	movq	%rdx, %r14
	jmp	37f
	.p2align	4
36:
	cmpq	$1, %rax
	cmoveq	%r13, %r12
	movq	%r12, 216(%rsp)
	movq	%rbp, 224(%rsp)
	addq	$16, %r14
	movq	%r12, %r15
	decq	%rbx
	je	13b
37:
	movq	-8(%r14), %r12
	movq	(%r14), %rbp
	pxor	%xmm0, %xmm0
	movdqa	%xmm0, 64(%rsp)
	movdqa	%xmm0, 48(%rsp)
	movq	80(%rsp), %rax
	movl	36(%rax), %edx
	leaq	48(%rsp), %rdi
	movq	136(%rsp), %rsi
	movq	%r12, %rcx
	movq	%rbp, %r8
	movq	32(%rsp), %r9
	callq	"mime_view::pairs::look_up_pair"
	movzbl	56(%rsp), %eax
	movq	64(%rsp), %r13
	cmpb	$0, 48(%rsp)
	jne	38f
	cmpl	$1, %eax
	jne	36b
	movq	72(%rsp), %rbp
	jmp	36b
38:
	movzwl	60(%rsp), %r14d
	movzwl	58(%rsp), %ecx
	shll	$16, %ecx
	shlq	$32, %r14
	orq	%rax, %r14
	orq	%rcx, %r14
	movq	40(%rsp), %rax
	movl	%r14d, %ebp
	shrl	$16, %ebp
	movq	%r14, %rbx
	shrq	$32, %rbx
	cmpb	$1, %al
	jne	39f
	cmpq	$0, 232(%rsp)
	je	39f
	movq	%r15, %rdi
	callq	rattle_dealloc@PLT
39:
	movl	%r14d, %ecx
	movq	%r13, %r15
	movq	24(%rsp), %r13
	movq	32(%rsp), %r14
	jmp	3b
40:
	.size	"mime_lookup::cached::by_content::by_globs", 40b-"mime_lookup::cached::by_content::by_globs"

	.text
	.p2align	4
	.type	"mime_lookup::cached::by_content::choose",@function
"mime_lookup::cached::by_content::choose":
	pushq	%rbp
	pushq	%r15
	pushq	%r14
	pushq	%r13
	pushq	%r12
	pushq	%rbx
	subq	$216, %rsp
	movq	%r9, %r15
	movq	%rcx, %r12
	movq	%rdx, %r14
	movq	%rsi, %r13
	movq	8(%r8), %rbp
	movq	16(%r8), %rbx
	cmpb	$0, (%r8)
	je	2f
	testq	%r12, %r12
	je	3f
1:
	cmpq	$1, %r12
	jne	4f
	movups	(%r14), %xmm0
	movq	$0, (%rdi)
	movups	%xmm0, 8(%rdi)
	jmp	19f
2:
	movq	%rdi, 24(%rsp)
	cmpb	$1, 72(%r13)
	jne	13f
	movl	$192, %edi
	addq	80(%r13), %rdi
	movq	%rbp, %rsi
	movq	%rbx, %rdx
	callq	"mime_lookup::read_back::targets::target_of"
	movq	%rax, %rbp
	movq	%rdx, %rbx
	movq	24(%rsp), %rdi
	testq	%r12, %r12
	jne	1b
3:
	movq	$0, (%rdi)
	movq	%rbp, 8(%rdi)
	movq	%rbx, 16(%rdi)
	jmp	19f
4:
	movq	%rdi, 24(%rsp)
	movq	(%r14), %rax
	movq	%rax, 72(%rsp)
	movq	8(%r14), %rax
	movq	%rax, 64(%rsp)
	addq	$8, %r14
	xorps	%xmm0, %xmm0
	movaps	%xmm0, 48(%rsp)
	movaps	%xmm0, 32(%rsp)
	movq	%r15, 176(%rsp)
	movq	%rbx, 184(%rsp)
	.p2align	4
5:
	movq	-8(%r14), %rcx
	movq	(%r14), %r8
	xorps	%xmm0, %xmm0
	movaps	%xmm0, 112(%rsp)
	movq	$0, 128(%rsp)
	movaps	%xmm0, 144(%rsp)
	movq	$0, 160(%rsp)
	movaps	%xmm0, 80(%rsp)
	movq	$0, 96(%rsp)
	cmpb	$1, 104(%r13)
	jne	6f
	movq	24(%r13), %rdi
	movq	112(%r13), %rsi
	movabsq	$-6148914691236517205, %rdx
	movq	%rdi, %rax
	mulq	%rdx
	shrq	$2, %rdx
	shrq	$4, %rdi
	addq	%rdx, %rdi
	movq	16(%r15), %rax
	xorl	%edx, %edx
	subq	336(%rsi), %rax
	cmovaeq	%rax, %rdx
	cmpq	%rdx, %rdi
	jbe	9f
6:
	movq	%r15, 8(%rsp)
	movq	%rbx, (%rsp)
	leaq	112(%rsp), %r15
	leaq	32(%rsp), %rdx
	movq	%r15, %rdi
	movq	%r13, %rsi
	movq	%rbp, %r9
	callq	"mime_lookup::cached::ancestry::leads_to"
	movzbl	113(%rsp), %ecx
	movzbl	120(%rsp), %esi
	movzwl	122(%rsp), %eax
	movzwl	124(%rsp), %edx
	movq	128(%rsp), %rbx
	cmpb	$0, (%r15)
	movq	176(%rsp), %r15
	jne	17f
7:
	testb	$1, %cl
	jne	11f
8:
	addq	$16, %r14
	decq	%r12
	movq	184(%rsp), %rbx
	jne	5b
	jmp	14f
	.p2align	4
9:
	movaps	%xmm0, 192(%rsp)
	leaq	192(%rsp), %rax
	movq	%rax, (%rsp)
	leaq	144(%rsp), %rdi
	movq	%rcx, %rdx
	movq	%r8, %rcx
	movq	%rbp, %r8
	movq	%rbx, %r9
	callq	"mime_lookup::climb::climb::<#70fb81388c984f40>"
	cmpb	$0, 144(%rsp)
	je	10f
	movq	152(%rsp), %rcx
	movq	160(%rsp), %r8
	movq	%r15, 8(%rsp)
	movq	%rbx, (%rsp)
	leaq	80(%rsp), %r15
	leaq	32(%rsp), %rdx
	movq	%r15, %rdi
	movq	%r13, %rsi
	movq	%rbp, %r9
	callq	"mime_lookup::cached::ancestry::leads_to"
	movzbl	81(%rsp), %ecx
	movzbl	88(%rsp), %esi
	movzwl	90(%rsp), %eax
	movzwl	92(%rsp), %edx
	movq	96(%rsp), %rbx
	cmpb	$0, (%r15)
	movq	176(%rsp), %r15
	je	7b
	jmp	17f
10:
	movzbl	145(%rsp), %ecx
	testb	$1, %cl
	je	8b
11:
	movq	-8(%r14), %rbx
	movq	(%r14), %r14
	cmpb	$1, 40(%rsp)
	jne	12f
	movq	48(%rsp), %rdi
	callq	"std_collections::btree::node::Node::destroy::<#edcdc2349bef7e9b>"
12:
	movq	24(%rsp), %rax
	jmp	16f
13:
	leaq	16(%r13), %rsi
	xorps	%xmm0, %xmm0
	movaps	%xmm0, 48(%rsp)
	movaps	%xmm0, 32(%rsp)
	movl	36(%r13), %edx
	leaq	32(%rsp), %rdi
	movq	%rbp, %rcx
	movq	%rbx, %r8
	movq	%r15, %r9
	callq	"mime_view::pairs::look_up_pair"
	movzbl	40(%rsp), %ecx
	movq	48(%rsp), %rax
	cmpb	$0, 32(%rsp)
	je	20f
	movzwl	44(%rsp), %edx
	movzwl	42(%rsp), %esi
	shll	$16, %esi
	shlq	$32, %rdx
	orq	%rcx, %rdx
	orq	%rsi, %rdx
	movq	24(%rsp), %rbx
	movq	$1, (%rbx)
	movq	%rdx, 8(%rbx)
	movq	%rax, 16(%rbx)
	jmp	19f
14:
	cmpb	$1, 40(%rsp)
	jne	15f
	movq	48(%rsp), %rdi
	callq	"std_collections::btree::node::Node::destroy::<#edcdc2349bef7e9b>"
15:
	movq	24(%rsp), %rax
	movq	72(%rsp), %rbx
	movq	64(%rsp), %r14
16:
	movq	$0, (%rax)
	movq	%rbx, 8(%rax)
	movq	%r14, 16(%rax)
	jmp	19f
17:
	movzbl	%sil, %ecx
	shll	$16, %eax
	orq	%rcx, %rax
	movzwl	%dx, %r14d
	shlq	$32, %r14
	orq	%rax, %r14
	cmpb	$1, 40(%rsp)
	jne	18f
	movq	48(%rsp), %rdi
	callq	"std_collections::btree::node::Node::destroy::<#edcdc2349bef7e9b>"
18:
	movq	24(%rsp), %rax
	movq	$1, (%rax)
	movq	%r14, 8(%rax)
	movq	%rbx, 16(%rax)
19:
	addq	$216, %rsp
	popq	%rbx
	popq	%r12
	popq	%r13
	popq	%r14
	popq	%r15
	popq	%rbp
	retq
20:
	cmpl	$1, %ecx
	jne	21f
	movq	56(%rsp), %rbx
21:
	cmpq	$1, %rcx
	cmoveq	%rax, %rbp
	movq	24(%rsp), %rdi
	testq	%r12, %r12
	jne	1b
	jmp	3b
22:
	.size	"mime_lookup::cached::by_content::choose", 22b-"mime_lookup::cached::by_content::choose"

	.text
	.p2align	4
	.type	"mime_lookup::cached::content_alone::sniff_opened",@function
"mime_lookup::cached::content_alone::sniff_opened":
	pushq	%rbp
	pushq	%r15
	pushq	%r14
	pushq	%r13
	pushq	%r12
	pushq	%rbx
	subq	$136, %rsp
	movq	%rdi, %rbx
	movl	56(%rsi), %eax
	movq	24(%rsi), %rdi
	subq	%rax, %rdi
	setae	%r10b
	cmpq	$12, %rdi
	setae	%dil
	andb	%r10b, %dil
	movq	(%r9), %r10
	incq	%r10
	movq	$-1, %r11
	cmovneq	%r10, %r11
	movq	%r11, (%r9)
	cmpb	$1, %dil
	jne	3f
	movq	16(%rsi), %rdi
	movl	4(%rdi,%rax), %edi
	bswapl	%edi
	cmpl	$129, %edi
	movl	$128, %eax
	cmovael	%edi, %eax
	cmpq	%rax, %rcx
	cmovbq	%rcx, %rax
	movq	%rax, (%r8)
	xorps	%xmm0, %xmm0
	movaps	%xmm0, (%rsp)
	movaps	%xmm0, 16(%rsp)
	movq	$0, 32(%rsp)
	movaps	%xmm0, 48(%rsp)
	movaps	%xmm0, 64(%rsp)
	cmpb	$1, 88(%rsi)
	movq	%r9, 40(%rsp)
	jne	1f
	movq	24(%rsi), %rcx
	shrq	$4, %rcx
	cmpq	16(%r9), %rcx
	jbe	6f
1:
	movq	%rsi, %r12
	addq	$16, %rsi
	movq	$1, 88(%rsp)
	movq	%rdx, 96(%rsp)
	movq	%rax, 104(%rsp)
	movq	%rsp, %rdi
	leaq	88(%rsp), %rdx
	xorl	%r15d, %r15d
	xorl	%ecx, %ecx
	movq	%r9, %r8
	callq	"mime_lookup::cached::sniff::sniff_front"
	movzbl	8(%rsp), %r13d
	cmpb	$0, (%rsp)
	movq	16(%rsp), %r14
	je	4f
	movzbl	%r13b, %edx
	movzwl	10(%rsp), %ecx
	movzwl	12(%rsp), %eax
	movl	$1, %edi
	xorl	%esi, %esi
2:
	xorl	%ebp, %ebp
	jmp	9f
3:
	movq	$1, (%rbx)
	movw	$3, 8(%rbx)
	movl	$0, 10(%rbx)
	movw	$0, 14(%rbx)
	movq	%rax, 16(%rbx)
	movq	$0, 24(%rbx)
	jmp	10f
4:
	movl	32(%rsp), %ebp
	movq	24(%rsp), %r9
	testb	%r13b, %r13b
	je	7f
5:
	xorl	%ebp, %ebp
	jmp	8f
6:
	movq	%rsi, %r12
	movq	96(%rsi), %rsi
	movq	$1, 112(%rsp)
	movq	%rdx, 120(%rsp)
	movq	%rax, 128(%rsp)
	leaq	48(%rsp), %rdi
	leaq	112(%rsp), %rdx
	xorl	%ecx, %ecx
	callq	"mime_lookup::cached::sniff::sniff_indexed"
	movzbl	48(%rsp), %r13d
	movups	56(%rsp), %xmm0
	movaps	%xmm0, 16(%rsp)
	movl	72(%rsp), %ebp
	movq	16(%rsp), %r14
	movq	24(%rsp), %r9
	testb	%r13b, %r13b
	jne	5b
7:
	cmpb	$1, 72(%r12)
	jne	11f
	movl	$192, %edi
	addq	80(%r12), %rdi
	movq	%r14, %rsi
	movq	%r9, %rdx
	callq	"mime_lookup::read_back::targets::target_of"
	movq	%rax, %r14
	movq	%rdx, %r9
8:
	xorl	%r15d, %r15d
	testb	%r13b, %r13b
	sete	%r15b
	movq	%r14, %rax
	shrq	$32, %rax
	movl	%r14d, %ecx
	shrl	$16, %ecx
	movq	%r14, %rsi
	shrq	$48, %rsi
	xorl	%edi, %edi
	movl	%r14d, %edx
	movq	%r9, %r14
9:
	movq	%rdi, (%rbx)
	movw	%dx, 8(%rbx)
	shll	$16, %eax
	movzwl	%cx, %ecx
	orl	%eax, %ecx
	movl	%ecx, 10(%rbx)
	movw	%si, 14(%rbx)
	movq	%r14, 16(%rbx)
	movl	%r15d, 24(%rbx)
	movl	%ebp, 28(%rbx)
10:
	addq	$136, %rsp
	popq	%rbx
	popq	%r12
	popq	%r13
	popq	%r14
	popq	%r15
	popq	%rbp
	retq
11:
	xorps	%xmm0, %xmm0
	movaps	%xmm0, 16(%rsp)
	movaps	%xmm0, (%rsp)
	movl	36(%r12), %edx
	addq	$16, %r12
	movq	%rsp, %rdi
	movq	%r12, %rsi
	movq	%r14, %rcx
	movq	%r9, %r8
	movq	%r9, %r15
	movq	40(%rsp), %r9
	callq	"mime_view::pairs::look_up_pair"
	movzbl	8(%rsp), %edx
	movq	16(%rsp), %r8
	cmpb	$0, (%rsp)
	je	12f
	movzwl	10(%rsp), %ecx
	movzwl	12(%rsp), %eax
	movl	$1, %edi
	xorl	%esi, %esi
	movq	%r8, %r14
	xorl	%r15d, %r15d
	jmp	2b
12:
	cmpb	$1, %dl
	movq	%r15, %r9
	jne	8b
	movq	24(%rsp), %r9
	movq	%r8, %r14
	jmp	8b
13:
	.size	"mime_lookup::cached::content_alone::sniff_opened", 13b-"mime_lookup::cached::content_alone::sniff_opened"

	.section	.text.unlikely,"ax",@progbits
	.p2align	4
	.type	"mime_lookup::cached::icons::long_generic",@function
"mime_lookup::cached::icons::long_generic":
	pushq	%r15
	pushq	%r14
	pushq	%r13
	pushq	%r12
	pushq	%rbx
	subq	$128, %rsp
	movq	%rdi, %rbx
	leaq	10(%rdx), %r14
	xorps	%xmm0, %xmm0
	movaps	%xmm0, 80(%rsp)
	movaps	%xmm0, 64(%rsp)
	xorl	%ecx, %ecx
	movl	$0, %eax
	movl	$0, %r15d
	cmpq	$49, %r14
	jb	1f
	testq	%r14, %r14
	js	4f
	movl	$1, %r15d
	movq	%rsi, %r13
	movl	$1, %esi
	movq	%r14, %rdi
	movq	%rdx, %r12
	callq	rattle_alloc@PLT
	testb	$1, %al
	je	4f
	movq	%r13, %rsi
	movq	%rdx, %rcx
	movq	%r12, %rdx
	xorps	%xmm0, %xmm0
	movaps	%xmm0, 80(%rsp)
	movaps	%xmm0, 64(%rsp)
	movq	%r14, %rax
1:
	movaps	64(%rsp), %xmm0
	movaps	80(%rsp), %xmm1
	movaps	%xmm1, 112(%rsp)
	movaps	%xmm0, 96(%rsp)
	movq	%r15, (%rsp)
	movq	%rcx, 8(%rsp)
	movq	$0, 16(%rsp)
	movq	%rax, 24(%rsp)
	movups	%xmm0, 32(%rsp)
	movups	%xmm1, 48(%rsp)
	movq	%rsp, %rdi
	callq	"smallvec::small_vec::SmallVec::extend_from_slice::<#58247b01769054f4>"
	testb	%al, %al
	je	2f
	cmpb	$1, (%rsp)
	je	3f
	jmp	4f
2:
	leaq	.L1a16e401f121(%rip), %rsi
	movq	%rsp, %rdi
	movl	$10, %edx
	callq	"smallvec::small_vec::SmallVec::extend_from_slice::<#58247b01769054f4>"
	movzbl	(%rsp), %ecx
	testb	%al, %al
	je	6f
	cmpl	$1, %ecx
	jne	4f
3:
	cmpq	$0, 24(%rsp)
	je	4f
	movq	8(%rsp), %rdi
	callq	rattle_dealloc@PLT
4:
	movb	$1, (%rbx)
	xorps	%xmm0, %xmm0
	movups	%xmm0, 8(%rbx)
	movups	%xmm0, 24(%rbx)
	movups	%xmm0, 40(%rbx)
	movups	%xmm0, 56(%rbx)
5:
	addq	$128, %rsp
	popq	%rbx
	popq	%r12
	popq	%r13
	popq	%r14
	popq	%r15
	retq
6:
	leaq	8(%rsp), %rax
	movb	$0, (%rbx)
	movq	%rcx, 8(%rbx)
	movups	(%rax), %xmm0
	movups	16(%rax), %xmm1
	movups	32(%rax), %xmm2
	movups	%xmm0, 16(%rbx)
	movups	%xmm1, 32(%rbx)
	movups	%xmm2, 48(%rbx)
	movq	48(%rax), %rax
	movq	%rax, 64(%rbx)
	jmp	5b
7:
	.size	"mime_lookup::cached::icons::long_generic", 7b-"mime_lookup::cached::icons::long_generic"

	.section	.rodata.cst16,"aM",@progbits,16
	.p2align	4, 0x0
1:
	.zero	16,47
2:
	.zero	16,45
3:
	.byte	47,47,47,47,47,47,47,47
	.zero	1
	.zero	1
	.zero	1
	.zero	1
	.zero	1
	.zero	1
	.zero	1
	.zero	1
4:
	.byte	45,45,45,45,45,45,45,45
	.zero	1
	.zero	1
	.zero	1
	.zero	1
	.zero	1
	.zero	1
	.zero	1
	.zero	1
	.section	.text.unlikely,"ax",@progbits
	.p2align	4
	.type	"mime_lookup::cached::icons::long_with_hyphens",@function
"mime_lookup::cached::icons::long_with_hyphens":
	pushq	%rbx
	subq	$144, %rsp
	movq	%rdi, %rbx
	xorps	%xmm0, %xmm0
	movaps	%xmm0, 48(%rsp)
	movaps	%xmm0, 32(%rsp)
	movaps	%xmm0, 16(%rsp)
	movaps	%xmm0, (%rsp)
	movq	$0, 64(%rsp)
	movq	%rsp, %rdi
	callq	"smallvec::small_vec::SmallVec::from_slice::<#58247b01769054f4>"
	cmpb	$0, (%rsp)
	je	5f
	movb	$1, (%rbx)
	xorps	%xmm0, %xmm0
	movups	%xmm0, 8(%rbx)
	movups	%xmm0, 24(%rbx)
	movups	%xmm0, 40(%rbx)
	movups	%xmm0, 56(%rbx)
	addq	$144, %rsp
	popq	%rbx
	retq
5:
	movzbl	8(%rsp), %esi
	testq	%rsi, %rsi
	movq	%rsi, 80(%rsp)
	leaq	88(%rsp), %rax
	movdqa	16(%rsp), %xmm0
	movdqa	32(%rsp), %xmm1
	movdqa	48(%rsp), %xmm2
	movdqu	%xmm0, 88(%rsp)
	movq	64(%rsp), %rcx
	movq	%rcx, 136(%rsp)
	movdqu	%xmm2, 120(%rsp)
	movdqu	%xmm1, 104(%rsp)
	leaq	136(%rsp), %rdx
	movq	88(%rsp), %rcx
	cmoveq	%rax, %rcx
	leaq	96(%rsp), %rdi
	cmoveq	%rdx, %rdi
	movq	(%rdi), %rdx
	testq	%rdx, %rdx
	je	14f
	cmpq	$8, %rdx
	jae	6f
	xorl	%esi, %esi
	jmp	11f
6:
	cmpq	$32, %rdx
	jae	7f
	xorl	%esi, %esi
	jmp	9f
7:
	movq	%rdx, %rsi
	andq	$-32, %rsi
	xorl	%edi, %edi
	.p2align	4
8:
	movdqu	(%rcx,%rdi), %xmm2
	movdqu	16(%rcx,%rdi), %xmm3
	movdqa	1b(%rip), %xmm1
	movdqa	%xmm2, %xmm0
	pcmpeqb	%xmm1, %xmm0
	movdqa	2b(%rip), %xmm4
	pblendvb	%xmm0, %xmm4, %xmm2
	pcmpeqb	%xmm3, %xmm1
	movdqa	%xmm1, %xmm0
	pblendvb	%xmm0, %xmm4, %xmm3
	movdqu	%xmm2, (%rcx,%rdi)
	movdqu	%xmm3, 16(%rcx,%rdi)
	addq	$32, %rdi
	cmpq	%rdi, %rsi
	jne	8b
	cmpq	%rsi, %rdx
	je	13f
	testb	$24, %dl
	je	11f
9:
	movq	%rsi, %rdi
	movq	%rdx, %rsi
	andq	$-8, %rsi
	.p2align	4
10:
	movq	(%rcx,%rdi), %xmm1
	movdqa	3b(%rip), %xmm0
	pcmpeqb	%xmm1, %xmm0
	pblendvb	%xmm0, 4b(%rip), %xmm1
	movq	%xmm1, (%rcx,%rdi)
	addq	$8, %rdi
	cmpq	%rdi, %rsi
	jne	10b
	jmp	12f
11:
	movzbl	(%rcx,%rsi), %edi
	cmpb	$47, %dil
	movl	$45, %r8d
	cmovnel	%edi, %r8d
	movb	%r8b, (%rcx,%rsi)
	incq	%rsi
12:
	cmpq	%rsi, %rdx
	jne	11b
13:
	movzbl	80(%rsp), %esi
14:
	movb	$0, (%rbx)
	movq	%rsi, 8(%rbx)
	movups	(%rax), %xmm0
	movups	16(%rax), %xmm1
	movups	32(%rax), %xmm2
	movups	%xmm0, 16(%rbx)
	movups	%xmm1, 32(%rbx)
	movups	%xmm2, 48(%rbx)
	movq	48(%rax), %rax
	movq	%rax, 64(%rbx)
	addq	$144, %rsp
	popq	%rbx
	retq
15:
	.size	"mime_lookup::cached::icons::long_with_hyphens", 15b-"mime_lookup::cached::icons::long_with_hyphens"

	.text
	.p2align	4
	.type	"mime_lookup::cached::name_types::are_one_type",@function
"mime_lookup::cached::name_types::are_one_type":
	testq	%rsi, %rsi
	je	8f
	decq	%rsi
	je	9f
	pushq	%rbp
	pushq	%r14
	pushq	%rbx
	xorl	%ecx, %ecx
	.p2align	4
1:
	movq	%rcx, %r8
	shlq	$4, %r8
	movq	(%rdi), %r10
	movq	8(%rdi), %rax
	movq	16(%rdi,%r8), %r11
	movq	24(%rdi,%r8), %r8
	cmpq	%rax, %r8
	movq	%rax, %r9
	cmovbq	%r8, %r9
	xorl	%ebx, %ebx
	.p2align	4
2:
	movq	%r9, %r14
	subq	%rbx, %r14
	cmpq	$8, %r14
	jb	3f
	pmovzxbw	(%r10,%rbx), %xmm0
	pmovzxbw	(%r11,%rbx), %xmm1
	pcmpeqw	%xmm0, %xmm1
	packsswb	%xmm1, %xmm1
	pmovmskb	%xmm1, %ebp
	notl	%ebp
	orl	$256, %ebp
	rep		bsfl	%ebp, %r14d
	addq	%r14, %rbx
	cmpb	$7, %r14b
	ja	2b
3:
	cmpq	%r9, %rbx
	jae	6f
	.p2align	4
4:
	movzbl	(%r10,%rbx), %ebp
	cmpb	(%r11,%rbx), %bpl
	jne	5f
	incq	%rbx
	cmpq	%rbx, %r9
	jne	4b
	jmp	6f
	.p2align	4
5:
	movq	%rbx, %r9
6:
	leaq	1(%r9), %r10
	addq	8(%rdx), %r10
	movq	$-1, %r11
	cmovaeq	%r10, %r11
	movq	%r11, 8(%rdx)
	xorq	%r9, %rax
	xorq	%r9, %r8
	orq	%rax, %r8
	sete	%al
	jne	7f
	incq	%rcx
	cmpq	%rsi, %rcx
	jne	1b
7:
	popq	%rbx
	popq	%r14
	popq	%rbp
	retq
8:
	xorl	%eax, %eax
	retq
9:
	movb	$1, %al
	retq
10:
	.size	"mime_lookup::cached::name_types::are_one_type", 10b-"mime_lookup::cached::name_types::are_one_type"

	.text
	.p2align	4
	.type	"mime_lookup::cached::name_types::count_asked",@function
"mime_lookup::cached::name_types::count_asked":
	movq	%rdx, %rax
	cmpq	%rsi, %rdx
	je	8f
	testq	%rax, %rax
	je	9f
	movq	%rax, %rdx
	decq	%rdx
	je	10f
	pushq	%rbp
	pushq	%r15
	pushq	%r14
	pushq	%rbx
	xorl	%esi, %esi
	.p2align	4
1:
	movq	%rsi, %r8
	shlq	$4, %r8
	movq	(%rdi), %r11
	movq	8(%rdi), %r9
	movq	16(%rdi,%r8), %rbx
	movq	24(%rdi,%r8), %r8
	cmpq	%r9, %r8
	movq	%r9, %r10
	cmovbq	%r8, %r10
	xorl	%r14d, %r14d
	.p2align	4
2:
	movq	%r10, %r15
	subq	%r14, %r15
	cmpq	$8, %r15
	jb	3f
	pmovzxbw	(%r11,%r14), %xmm0
	pmovzxbw	(%rbx,%r14), %xmm1
	pcmpeqw	%xmm0, %xmm1
	packsswb	%xmm1, %xmm1
	pmovmskb	%xmm1, %ebp
	notl	%ebp
	orl	$256, %ebp
	rep		bsfl	%ebp, %r15d
	addq	%r15, %r14
	cmpb	$7, %r15b
	ja	2b
3:
	cmpq	%r10, %r14
	jae	6f
	.p2align	4
4:
	movzbl	(%r11,%r14), %ebp
	cmpb	(%rbx,%r14), %bpl
	jne	5f
	incq	%r14
	cmpq	%r14, %r10
	jne	4b
	jmp	6f
	.p2align	4
5:
	movq	%r14, %r10
6:
	leaq	1(%r10), %r11
	addq	8(%rcx), %r11
	movq	$-1, %rbx
	cmovaeq	%r11, %rbx
	movq	%rbx, 8(%rcx)
	cmpq	%r9, %r10
	jne	7f
	cmpq	%r8, %r10
	jne	7f
	incq	%rsi
	cmpq	%rdx, %rsi
	jne	1b
	movl	$1, %eax
7:
	popq	%rbx
	popq	%r14
	popq	%r15
	popq	%rbp
8:
	retq
9:
	xorl	%eax, %eax
	retq
10:
	movl	$1, %eax
	retq
11:
	.size	"mime_lookup::cached::name_types::count_asked", 11b-"mime_lookup::cached::name_types::count_asked"

	.text
	.p2align	4
	.type	"mime_lookup::cached::paid_cache::PaidCache::read_icons",@function
"mime_lookup::cached::paid_cache::PaidCache::read_icons":
	pushq	%rbp
	pushq	%r15
	pushq	%r14
	pushq	%r13
	pushq	%r12
	pushq	%rbx
	subq	$1448, %rsp
	movq	%rsi, %r12
	xorps	%xmm0, %xmm0
	movaps	%xmm0, 1424(%rsp)
	movaps	%xmm0, 1408(%rsp)
	movaps	%xmm0, 1392(%rsp)
	movaps	%xmm0, 1376(%rsp)
	movaps	%xmm0, 1360(%rsp)
	movaps	%xmm0, 1344(%rsp)
	movaps	%xmm0, 1328(%rsp)
	movaps	%xmm0, 1312(%rsp)
	movaps	%xmm0, 1296(%rsp)
	movaps	%xmm0, 1280(%rsp)
	movq	%rdi, 248(%rsp)
	movq	8(%rdi), %rax
	movq	(%rsi), %rcx
	movq	8(%rsi), %rdx
	movq	%rdx, 408(%rsp)
	movq	%rax, 416(%rsp)
	movq	%rax, 424(%rsp)
	movaps	%xmm0, 608(%rsp)
	movaps	%xmm0, 624(%rsp)
	movaps	%xmm0, 432(%rsp)
	movaps	%xmm0, 448(%rsp)
	movaps	%xmm0, 1104(%rsp)
	movaps	%xmm0, 1120(%rsp)
	incq	%rcx
	movq	$-1, %rdx
	cmovneq	%rcx, %rdx
	movq	%rdx, 400(%rsp)
	cmpq	$40, %rax
	jb	2f
	cmpq	$268435456, %rax
	ja	2f
	movq	(%rdi), %rax
	cmpl	$33554688, (%rax)
	jne	2f
	movl	32(%rax), %r15d
	movl	36(%rax), %ebx
	movl	4(%rax), %edx
	bswapl	%edx
	leaq	608(%rsp), %rax
	leaq	248(%rsp), %rsi
	leaq	400(%rsp), %rcx
	movq	%rdi, %r14
	movq	%rax, %rdi
	callq	"mime_load::pairs::pairs_at"
	cmpb	$0, 608(%rsp)
	jne	2f
	bswapl	%r15d
	movq	616(%rsp), %rax
	movq	%rax, 16(%rsp)
	movq	624(%rsp), %rbp
	movq	632(%rsp), %r13
	movl	%r15d, %edx
	leaq	432(%rsp), %rdi
	leaq	248(%rsp), %rsi
	leaq	400(%rsp), %rcx
	callq	"mime_load::pairs::pairs_at"
	cmpb	$0, 432(%rsp)
	je	4f
	testq	%r13, %r13
	je	2f
1:
	movq	16(%rsp), %rdi
	callq	rattle_dealloc@PLT
2:
	movq	400(%rsp), %rax
	movq	%rax, (%r12)
	movq	408(%rsp), %rax
	movq	%rax, 8(%r12)
3:
	addq	$1448, %rsp
	popq	%rbx
	popq	%r12
	popq	%r13
	popq	%r14
	popq	%r15
	popq	%rbp
	retq
4:
	movq	%r13, 8(%rsp)
	bswapl	%ebx
	movq	440(%rsp), %rax
	movq	%rax, 40(%rsp)
	movq	448(%rsp), %r13
	movq	456(%rsp), %r15
	movl	%ebx, %edx
	leaq	1104(%rsp), %rdi
	leaq	248(%rsp), %rsi
	leaq	400(%rsp), %rcx
	callq	"mime_load::pairs::pairs_at"
	cmpb	$0, 1104(%rsp)
	je	6f
	testq	%r15, %r15
	je	5f
	movq	40(%rsp), %rdi
	callq	rattle_dealloc@PLT
5:
	cmpq	$0, 8(%rsp)
	jne	1b
	jmp	2b
6:
	movq	%r13, 24(%rsp)
	movq	%r15, 32(%rsp)
	movq	1112(%rsp), %rax
	movq	%rax, 144(%rsp)
	movq	1120(%rsp), %r13
	movq	1128(%rsp), %rax
	movq	%rax, 240(%rsp)
	movaps	400(%rsp), %xmm0
	movups	%xmm0, (%r12)
	movq	(%r14), %rbx
	movq	8(%r14), %r15
	xorps	%xmm0, %xmm0
	movaps	%xmm0, 432(%rsp)
	movaps	%xmm0, 448(%rsp)
	movaps	%xmm0, 464(%rsp)
	movaps	%xmm0, 480(%rsp)
	movaps	%xmm0, 496(%rsp)
	movaps	%xmm0, 512(%rsp)
	movaps	%xmm0, 528(%rsp)
	movaps	%xmm0, 544(%rsp)
	movaps	%xmm0, 560(%rsp)
	movaps	%xmm0, 576(%rsp)
	movq	$0, 592(%rsp)
	movaps	%xmm0, 1104(%rsp)
	movaps	%xmm0, 1120(%rsp)
	movaps	%xmm0, 1136(%rsp)
	movaps	%xmm0, 1152(%rsp)
	movaps	%xmm0, 1168(%rsp)
	movaps	%xmm0, 1184(%rsp)
	movaps	%xmm0, 1200(%rsp)
	movaps	%xmm0, 1216(%rsp)
	movaps	%xmm0, 1232(%rsp)
	movaps	%xmm0, 1248(%rsp)
	movq	$0, 1264(%rsp)
	movaps	%xmm0, 752(%rsp)
	movaps	%xmm0, 736(%rsp)
	movaps	%xmm0, 720(%rsp)
	movaps	%xmm0, 704(%rsp)
	movaps	%xmm0, 688(%rsp)
	movaps	%xmm0, 672(%rsp)
	movaps	%xmm0, 656(%rsp)
	movaps	%xmm0, 640(%rsp)
	movaps	%xmm0, 624(%rsp)
	movaps	%xmm0, 608(%rsp)
	movq	$0, 768(%rsp)
	leaq	608(%rsp), %rdi
	movq	16(%rsp), %rsi
	movq	%rbp, %rdx
	callq	"mime_lookup::read_back::targets::targets_by_name"
	cmpb	$0, 608(%rsp)
	je	7f
	movq	32(%rsp), %rbx
	movq	8(%rsp), %r14
	jmp	22f
7:
	movq	%r13, 48(%rsp)
	movq	%rbx, 384(%rsp)
	movq	%r15, 392(%rsp)
	movq	616(%rsp), %rax
	movq	%rax, 56(%rsp)
	movq	624(%rsp), %r13
	movq	632(%rsp), %r15
	movq	640(%rsp), %rax
	movq	%rax, 64(%rsp)
	movq	648(%rsp), %rax
	movq	%rax, 352(%rsp)
	movq	656(%rsp), %rax
	movq	%rax, 104(%rsp)
	movq	664(%rsp), %rax
	movq	%rax, 72(%rsp)
	movq	672(%rsp), %rax
	movq	%rax, 360(%rsp)
	movq	680(%rsp), %rax
	movq	%rax, 112(%rsp)
	movq	688(%rsp), %rax
	movq	%rax, 80(%rsp)
	movq	696(%rsp), %rax
	movq	%rax, 368(%rsp)
	movq	704(%rsp), %rax
	movq	%rax, 120(%rsp)
	movq	712(%rsp), %rax
	movq	%rax, 88(%rsp)
	movq	720(%rsp), %rax
	movq	%rax, 376(%rsp)
	movq	728(%rsp), %rax
	movq	%rax, 128(%rsp)
	movq	736(%rsp), %rax
	movq	%rax, 96(%rsp)
	movq	744(%rsp), %r12
	movq	752(%rsp), %rax
	movq	%rax, 136(%rsp)
	movq	760(%rsp), %rbx
	movq	768(%rsp), %rbp
	leaq	432(%rsp), %rdi
	movq	40(%rsp), %rsi
	movq	24(%rsp), %rdx
	callq	"mime_lookup::read_back::targets::targets_by_name"
	cmpb	$0, 432(%rsp)
	je	9f
	testq	%r15, %r15
	je	8f
	movq	56(%rsp), %rdi
	callq	rattle_dealloc@PLT
8:
	cmpq	$0, 104(%rsp)
	movq	32(%rsp), %rbx
	jmp	17f
9:
	movq	%r13, 288(%rsp)
	movq	%r12, 304(%rsp)
	movq	%rbx, 312(%rsp)
	movq	%rbp, 328(%rsp)
	movq	%r15, 208(%rsp)
	movq	440(%rsp), %rax
	movq	%rax, 152(%rsp)
	movq	448(%rsp), %r13
	movq	456(%rsp), %rbx
	movq	464(%rsp), %rax
	movq	%rax, 160(%rsp)
	movq	472(%rsp), %rax
	movq	%rax, 296(%rsp)
	movq	480(%rsp), %rax
	movq	%rax, 200(%rsp)
	movq	488(%rsp), %rax
	movq	%rax, 168(%rsp)
	movq	496(%rsp), %r12
	movq	504(%rsp), %rax
	movq	%rax, 216(%rsp)
	movq	512(%rsp), %rax
	movq	%rax, 176(%rsp)
	movq	520(%rsp), %rax
	movq	%rax, 320(%rsp)
	movq	528(%rsp), %rax
	movq	%rax, 224(%rsp)
	movq	536(%rsp), %rax
	movq	%rax, 184(%rsp)
	movq	544(%rsp), %rax
	movq	%rax, 336(%rsp)
	movq	552(%rsp), %rax
	movq	%rax, 232(%rsp)
	movq	560(%rsp), %rax
	movq	%rax, 192(%rsp)
	movq	568(%rsp), %rax
	movq	%rax, 344(%rsp)
	movq	576(%rsp), %rax
	movq	%rax, 24(%rsp)
	movq	584(%rsp), %rbp
	movq	592(%rsp), %r15
	leaq	1104(%rsp), %rdi
	movq	144(%rsp), %rsi
	movq	48(%rsp), %rdx
	callq	"mime_lookup::read_back::targets::targets_by_name"
	cmpb	$0, 1104(%rsp)
	je	27f
	testq	%rbx, %rbx
	je	10f
	movq	152(%rsp), %rdi
	callq	rattle_dealloc@PLT
10:
	cmpq	$0, 200(%rsp)
	movq	32(%rsp), %rbx
	movq	208(%rsp), %r14
	je	11f
	movq	160(%rsp), %rdi
	callq	rattle_dealloc@PLT
11:
	cmpq	$0, 216(%rsp)
	je	12f
	movq	168(%rsp), %rdi
	callq	rattle_dealloc@PLT
12:
	cmpq	$0, 224(%rsp)
	je	13f
	movq	176(%rsp), %rdi
	callq	rattle_dealloc@PLT
13:
	cmpq	$0, 232(%rsp)
	je	14f
	movq	184(%rsp), %rdi
	callq	rattle_dealloc@PLT
14:
	cmpq	$0, 24(%rsp)
	je	15f
	movq	192(%rsp), %rdi
	callq	rattle_dealloc@PLT
15:
	testq	%r14, %r14
	je	16f
	movq	56(%rsp), %rdi
	callq	rattle_dealloc@PLT
16:
	cmpq	$0, 104(%rsp)
17:
	movq	8(%rsp), %r14
	je	18f
	movq	64(%rsp), %rdi
	callq	rattle_dealloc@PLT
18:
	cmpq	$0, 112(%rsp)
	je	19f
	movq	72(%rsp), %rdi
	callq	rattle_dealloc@PLT
19:
	cmpq	$0, 120(%rsp)
	je	20f
	movq	80(%rsp), %rdi
	callq	rattle_dealloc@PLT
20:
	cmpq	$0, 128(%rsp)
	je	21f
	movq	88(%rsp), %rdi
	callq	rattle_dealloc@PLT
21:
	cmpq	$0, 136(%rsp)
	je	22f
	movq	96(%rsp), %rdi
	callq	rattle_dealloc@PLT
22:
	testq	%r14, %r14
	je	23f
	movq	16(%rsp), %rdi
	callq	rattle_dealloc@PLT
23:
	testq	%rbx, %rbx
	je	25f
24:
	movq	40(%rsp), %rdi
	callq	rattle_dealloc@PLT
25:
	cmpq	$0, 240(%rsp)
	je	3b
	movq	144(%rsp), %rdi
26:
	addq	$1448, %rsp
	popq	%rbx
	popq	%r12
	popq	%r13
	popq	%r14
	popq	%r15
	popq	%rbp
	jmp	rattle_dealloc@PLT
27:
	movq	%r13, 256(%rsp)
	movq	%rbx, 264(%rsp)
	movq	%r12, 272(%rsp)
	movq	%rbp, 280(%rsp)
	movq	%r15, 48(%rsp)
	leaq	1112(%rsp), %rsi
	leaq	1280(%rsp), %rdi
	movl	$160, %edx
	callq	memcpy@PLT
	movl	$496, %edi
	movl	$8, %esi
	callq	rattle_alloc@PLT
	testb	$1, %al
	je	31f
	movq	%rdx, %rdi
	movq	%rdx, %r15
	movq	384(%rsp), %rax
	movq	%rax, (%rdi)
	movq	392(%rsp), %rax
	movq	%rax, 8(%rdi)
	movq	56(%rsp), %rax
	movq	%rax, 16(%rdi)
	movq	288(%rsp), %rax
	movq	%rax, 24(%rdi)
	movq	208(%rsp), %rax
	movq	%rax, 32(%rdi)
	movq	64(%rsp), %rax
	movq	%rax, 40(%rdi)
	movq	352(%rsp), %rax
	movq	%rax, 48(%rdi)
	movq	104(%rsp), %rax
	movq	%rax, 56(%rdi)
	movq	72(%rsp), %rax
	movq	%rax, 64(%rdi)
	movq	360(%rsp), %rax
	movq	%rax, 72(%rdi)
	movq	112(%rsp), %rax
	movq	%rax, 80(%rdi)
	movq	80(%rsp), %rax
	movq	%rax, 88(%rdi)
	movq	368(%rsp), %rax
	movq	%rax, 96(%rdi)
	movq	120(%rsp), %rax
	movq	%rax, 104(%rdi)
	movq	88(%rsp), %rax
	movq	%rax, 112(%rdi)
	movq	376(%rsp), %rax
	movq	%rax, 120(%rdi)
	movq	128(%rsp), %rax
	movq	%rax, 128(%rdi)
	movq	96(%rsp), %rax
	movq	%rax, 136(%rdi)
	movq	304(%rsp), %rax
	movq	%rax, 144(%rdi)
	movq	136(%rsp), %rax
	movq	%rax, 152(%rdi)
	movq	312(%rsp), %rax
	movq	%rax, 160(%rdi)
	movq	328(%rsp), %rax
	movq	%rax, 168(%rdi)
	movq	152(%rsp), %rax
	movq	%rax, 176(%rdi)
	movq	256(%rsp), %rax
	movq	%rax, 184(%rdi)
	movq	264(%rsp), %rax
	movq	%rax, 192(%rdi)
	movq	160(%rsp), %rax
	movq	%rax, 200(%rdi)
	movq	296(%rsp), %rax
	movq	%rax, 208(%rdi)
	movq	200(%rsp), %rax
	movq	%rax, 216(%rdi)
	movq	168(%rsp), %rax
	movq	%rax, 224(%rdi)
	movq	272(%rsp), %rax
	movq	%rax, 232(%rdi)
	movq	216(%rsp), %rax
	movq	%rax, 240(%rdi)
	movq	176(%rsp), %rax
	movq	%rax, 248(%rdi)
	movq	320(%rsp), %rax
	movq	%rax, 256(%rdi)
	movq	224(%rsp), %rax
	movq	%rax, 264(%rdi)
	movq	184(%rsp), %rax
	movq	%rax, 272(%rdi)
	movq	336(%rsp), %rax
	movq	%rax, 280(%rdi)
	movq	232(%rsp), %rax
	movq	%rax, 288(%rdi)
	movq	192(%rsp), %rax
	movq	%rax, 296(%rdi)
	movq	344(%rsp), %rax
	movq	%rax, 304(%rdi)
	movq	24(%rsp), %rax
	movq	%rax, 312(%rdi)
	movq	280(%rsp), %rax
	movq	%rax, 320(%rdi)
	movq	48(%rsp), %rax
	movq	%rax, 328(%rdi)
	addq	$336, %rdi
	leaq	1280(%rsp), %rsi
	movl	$160, %edx
	callq	memcpy@PLT
	movq	%r14, %rax
	movzbl	120(%r14), %ecx
	movq	128(%r14), %r14
	movq	$1, 120(%rax)
	movq	%r15, 128(%rax)
	cmpb	$1, %cl
	jne	28f
	leaq	608(%rsp), %r12
	movl	$496, %edx
	movq	%r12, %rdi
	movq	%r14, %rsi
	callq	memcpy@PLT
	movq	%r14, %rdi
	callq	rattle_dealloc@PLT
	movq	%r12, %rdi
	callq	"mime_lookup::mime_lookup++read_back++icons++IndexedIcons+Destruct::drop"
28:
	cmpq	$0, 8(%rsp)
	je	29f
	movq	16(%rsp), %rdi
	callq	rattle_dealloc@PLT
29:
	cmpq	$0, 32(%rsp)
	movq	144(%rsp), %rbx
	je	30f
	movq	40(%rsp), %rdi
	callq	rattle_dealloc@PLT
30:
	cmpq	$0, 240(%rsp)
	je	3b
	movq	%rbx, %rdi
	jmp	26b
31:
	movq	384(%rsp), %rax
	movq	%rax, 608(%rsp)
	movq	392(%rsp), %rax
	movq	%rax, 616(%rsp)
	movq	56(%rsp), %rax
	movq	%rax, 624(%rsp)
	movq	288(%rsp), %rax
	movq	%rax, 632(%rsp)
	movq	208(%rsp), %rax
	movq	%rax, 640(%rsp)
	movq	64(%rsp), %rax
	movq	%rax, 648(%rsp)
	movq	352(%rsp), %rax
	movq	%rax, 656(%rsp)
	movq	104(%rsp), %rax
	movq	%rax, 664(%rsp)
	movq	72(%rsp), %rax
	movq	%rax, 672(%rsp)
	movq	360(%rsp), %rax
	movq	%rax, 680(%rsp)
	movq	112(%rsp), %rax
	movq	%rax, 688(%rsp)
	movq	80(%rsp), %rax
	movq	%rax, 696(%rsp)
	movq	368(%rsp), %rax
	movq	%rax, 704(%rsp)
	movq	120(%rsp), %rax
	movq	%rax, 712(%rsp)
	movq	88(%rsp), %rax
	movq	%rax, 720(%rsp)
	movq	376(%rsp), %rax
	movq	%rax, 728(%rsp)
	movq	128(%rsp), %rax
	movq	%rax, 736(%rsp)
	movq	96(%rsp), %rax
	movq	%rax, 744(%rsp)
	movq	304(%rsp), %rax
	movq	%rax, 752(%rsp)
	movq	136(%rsp), %rax
	movq	%rax, 760(%rsp)
	movq	312(%rsp), %rax
	movq	%rax, 768(%rsp)
	movq	328(%rsp), %rax
	movq	%rax, 776(%rsp)
	movq	152(%rsp), %rax
	movq	%rax, 784(%rsp)
	movq	256(%rsp), %rax
	movq	%rax, 792(%rsp)
	movq	264(%rsp), %rax
	movq	%rax, 800(%rsp)
	movq	160(%rsp), %rax
	movq	%rax, 808(%rsp)
	movq	296(%rsp), %rax
	movq	%rax, 816(%rsp)
	movq	200(%rsp), %rax
	movq	%rax, 824(%rsp)
	movq	168(%rsp), %rax
	movq	%rax, 832(%rsp)
	movq	272(%rsp), %rax
	movq	%rax, 840(%rsp)
	movq	216(%rsp), %rax
	movq	%rax, 848(%rsp)
	movq	176(%rsp), %rax
	movq	%rax, 856(%rsp)
	movq	320(%rsp), %rax
	movq	%rax, 864(%rsp)
	movq	224(%rsp), %rax
	movq	%rax, 872(%rsp)
	movq	184(%rsp), %rax
	movq	%rax, 880(%rsp)
	movq	336(%rsp), %rax
	movq	%rax, 888(%rsp)
	movq	232(%rsp), %rax
	movq	%rax, 896(%rsp)
	movq	192(%rsp), %rax
	movq	%rax, 904(%rsp)
	movq	344(%rsp), %rax
	movq	%rax, 912(%rsp)
	movq	24(%rsp), %rax
	movq	%rax, 920(%rsp)
	movq	280(%rsp), %rax
	movq	%rax, 928(%rsp)
	movq	48(%rsp), %rax
	movq	%rax, 936(%rsp)
	leaq	944(%rsp), %rdi
	leaq	1280(%rsp), %rsi
	movl	$160, %edx
	callq	memcpy@PLT
	leaq	608(%rsp), %rdi
	callq	"mime_lookup::mime_lookup++read_back++icons++IndexedIcons+Destruct::drop"
	cmpq	$0, 8(%rsp)
	je	32f
	movq	16(%rsp), %rdi
	callq	rattle_dealloc@PLT
32:
	cmpq	$0, 32(%rsp)
	jne	24b
	jmp	25b
33:
	.size	"mime_lookup::cached::paid_cache::PaidCache::read_icons", 33b-"mime_lookup::cached::paid_cache::PaidCache::read_icons"

	.section	.rodata.cst16,"aM",@progbits,16
	.p2align	4, 0x0
1:
	.short	256,256,256,256,256,256,256,256
	.text
	.p2align	4
	.type	"mime_lookup::cached::paid_cache::PaidCache::read_magic",@function
"mime_lookup::cached::paid_cache::PaidCache::read_magic":
	pushq	%rbp
	pushq	%r15
	pushq	%r14
	pushq	%r13
	pushq	%r12
	pushq	%rbx
	subq	$920, %rsp
	movq	%rsi, %rbx
	pxor	%xmm0, %xmm0
	movdqa	%xmm0, 352(%rsp)
	movq	$0, 368(%rsp)
	movdqa	%xmm0, 896(%rsp)
	movq	$0, 912(%rsp)
	movq	%rdi, 136(%rsp)
	movq	8(%rdi), %rcx
	movq	(%rsi), %rdx
	movq	8(%rsi), %rax
	movq	%rax, 392(%rsp)
	movq	%rcx, 400(%rsp)
	movq	%rcx, 408(%rsp)
	movq	%rdx, %rax
	incq	%rax
	movq	$-1, %rsi
	cmovneq	%rax, %rsi
	movq	%rsi, 384(%rsp)
	cmpq	$40, %rcx
	jae	4f
2:
	movq	384(%rsp), %rax
	movq	%rax, (%rbx)
	movq	392(%rsp), %rax
	movq	%rax, 8(%rbx)
3:
	addq	$920, %rsp
	popq	%rbx
	popq	%r12
	popq	%r13
	popq	%r14
	popq	%r15
	popq	%rbp
	retq
4:
	cmpq	$268435456, %rcx
	ja	2b
	movq	%rdi, %r8
	movq	(%rdi), %rsi
	cmpl	$33554688, (%rsi)
	jne	2b
	movl	24(%rsi), %edi
	bswapl	%edi
	addq	$2, %rdx
	movq	$-1, %rax
	cmovaeq	%rdx, %rax
	movq	%rax, 384(%rsp)
	subq	%rdi, %rcx
	setb	%dl
	cmpq	$12, %rcx
	setb	%cl
	orb	%dl, %cl
	jne	2b
	movl	(%rsi,%rdi), %edx
	movl	4(%rsi,%rdi), %r12d
	movl	8(%rsi,%rdi), %ecx
	shlq	$32, %r12
	orq	%rcx, %r12
	bswapq	%r12
	movl	%r12d, %ecx
	leaq	8(%rsp), %rsi
	movq	%rsi, 160(%rsp)
	movdqu	%xmm0, 168(%rsp)
	movq	%rsi, 40(%rsp)
	movq	%rsi, 256(%rsp)
	movdqu	%xmm0, 264(%rsp)
	testl	%edx, %edx
	je	12f
	movq	%rcx, 48(%rsp)
	movq	%rbx, 32(%rsp)
	bswapl	%edx
	shrq	$32, %r12
	movq	%r12, %rdi
	negq	%rdi
	xorl	%r10d, %r10d
	movq	%r8, 128(%rsp)
	.p2align	4
5:
	movq	%rdx, 24(%rsp)
	movq	400(%rsp), %rax
	cmpq	$16, %rax
	jb	31f
	addq	$-16, %rax
	movq	%rax, 400(%rsp)
	movq	384(%rsp), %rax
	incq	%rax
	movq	$-1, %rcx
	cmovneq	%rax, %rcx
	movq	%rcx, 384(%rsp)
	movq	8(%r8), %rax
	cmpq	%r12, %rax
	jb	31f
	leaq	(%rdi,%rax), %rcx
	cmpq	$16, %rcx
	jb	31f
	movq	(%r8), %rcx
	movl	4(%rcx,%r12), %r15d
	movl	8(%rcx,%r12), %edx
	shlq	$32, %r15
	orq	%rdx, %r15
	bswapq	%r15
	movl	%r15d, %r14d
	subq	%r14, %rax
	jbe	31f
	movl	(%rcx,%r12), %r8d
	movl	12(%rcx,%r12), %ebp
	addq	%rcx, %r14
	cmpq	$32, %rax
	movq	%rdi, 80(%rsp)
	movl	%r8d, 64(%rsp)
	movq	%r10, 16(%rsp)
	jae	7f
6:
	cmpq	$256, %rax
	movl	$256, %ebx
	cmovbq	%rax, %rbx
	xorl	%edi, %edi
	movq	%r14, %rsi
	movq	%rbx, %rdx
	callq	"memchr::bytes::memchr"
	cmpb	$1, %al
	jne	30f
	movq	%rdx, %r13
	movq	%rdx, %rcx
	incq	%rcx
	jmp	9f
	.p2align	4
7:
	movdqu	(%r14), %xmm1
	pxor	%xmm0, %xmm0
	pcmpeqb	%xmm0, %xmm1
	pmovmskb	%xmm1, %edx
	movl	$64, %ecx
	movl	$64, %r13d
	rep		bsfq	%rdx, %r13
	cmpq	$16, %r13
	jb	8f
	movdqu	16(%r14), %xmm1
	pcmpeqb	%xmm0, %xmm1
	pmovmskb	%xmm1, %edx
	rep		bsfq	%rdx, %rcx
	cmpq	$15, %rcx
	ja	6b
	orq	$16, %rcx
	movq	%rcx, %r13
8:
	leaq	1(%r13), %rcx
9:
	addq	392(%rsp), %rcx
	movq	$-1, %rax
	cmovaeq	%rcx, %rax
	bswapl	%ebp
	shrq	$32, %r15
	movq	%rax, 392(%rsp)
	movq	264(%rsp), %rbx
	leaq	136(%rsp), %rdi
	leaq	384(%rsp), %r8
	leaq	256(%rsp), %r9
	movl	%ebp, %esi
	movl	%r15d, %edx
	movl	$64, %ecx
	callq	"mime_load::lines::push_lines"
	testb	%al, %al
	movq	128(%rsp), %r8
	movq	16(%rsp), %rbp
	movq	80(%rsp), %rdi
	jne	31f
	movq	264(%rsp), %r15
	movq	%rbp, %r9
	cmpq	%rbp, 176(%rsp)
	je	11f
10:
	movl	64(%rsp), %edx
	bswapl	%edx
	subq	%rbx, %r15
	movq	%r9, %rax
	shlq	$5, %rax
	movq	40(%rsp), %rcx
	movl	%edx, (%rcx,%rax)
	movl	$0, 4(%rcx,%rax)
	movq	%r14, 8(%rcx,%rax)
	movq	%r13, 16(%rcx,%rax)
	movq	%r15, 24(%rcx,%rax)
	leaq	1(%r9), %r10
	movq	%r10, 168(%rsp)
	addq	$16, %r12
	addq	$-16, %rdi
	movq	24(%rsp), %rdx
	decq	%rdx
	jne	5b
	jmp	16f
11:
	movq	%r8, %rbp
	leaq	160(%rsp), %rdi
	callq	"std_alloc::vec::Vec::grow_amortized::<#679fd8114cd9e466>"
	testb	%al, %al
	je	31f
	movq	160(%rsp), %rax
	movq	%rax, 40(%rsp)
	movq	168(%rsp), %r9
	movq	%rbp, %r8
	movq	80(%rsp), %rdi
	jmp	10b
12:
	testq	%rcx, %rcx
	jne	2b
	movq	%rax, (%rbx)
	movdqa	%xmm0, 320(%rsp)
	movq	$0, 336(%rsp)
	leaq	8(%rsp), %rdx
	movq	%rdx, 136(%rsp)
	movdqu	%xmm0, 144(%rsp)
	movb	$1, %bpl
	xorl	%r13d, %r13d
	movq	%rdx, %r12
	movq	%rdx, 16(%rsp)
	movq	$0, 72(%rsp)
13:
	movq	%r8, %rbx
	movq	%rdx, 32(%rsp)
	pxor	%xmm0, %xmm0
	movdqu	%xmm0, 271(%rsp)
	movdqa	%xmm0, 256(%rsp)
	movq	%r13, 80(%rsp)
	movq	%r13, 40(%rsp)
14:
	movq	%r12, 64(%rsp)
	leaq	384(%rsp), %rdi
	xorl	%r13d, %r13d
	movl	$512, %edx
	xorl	%esi, %esi
	callq	memset@PLT
	leaq	8(%rsp), %rcx
	movq	$-1, %r12
	movb	$1, %al
	xorl	%edx, %edx
	xorl	%r8d, %r8d
	movq	%rcx, %r15
	movq	%rcx, %rsi
	movq	%rcx, %rdi
	xorl	%r9d, %r9d
15:
	movq	%rbx, 128(%rsp)
	movq	%rsi, 160(%rsp)
	movq	$0, 168(%rsp)
	movq	%rdx, 176(%rsp)
	movq	%r15, 184(%rsp)
	movq	$0, 192(%rsp)
	movq	%r8, 200(%rsp)
	movq	%rdi, 208(%rsp)
	movq	%r9, 216(%rsp)
	movq	%r13, 224(%rsp)
	leaq	8(%rsp), %r11
	movq	%r11, 232(%rsp)
	pxor	%xmm0, %xmm0
	movdqu	%xmm0, 240(%rsp)
	movdqa	1b(%rip), %xmm0
	movdqa	%xmm0, 384(%rsp)
	movdqa	%xmm0, 400(%rsp)
	movdqa	%xmm0, 416(%rsp)
	movdqa	%xmm0, 432(%rsp)
	movdqa	%xmm0, 448(%rsp)
	movdqa	%xmm0, 464(%rsp)
	movdqa	%xmm0, 480(%rsp)
	movdqa	%xmm0, 496(%rsp)
	movdqa	%xmm0, 512(%rsp)
	movdqa	%xmm0, 528(%rsp)
	movdqa	%xmm0, 544(%rsp)
	movdqa	%xmm0, 560(%rsp)
	movdqa	%xmm0, 576(%rsp)
	movdqa	%xmm0, 592(%rsp)
	movdqa	%xmm0, 608(%rsp)
	movdqa	%xmm0, 624(%rsp)
	movdqa	%xmm0, 640(%rsp)
	movdqa	%xmm0, 656(%rsp)
	movdqa	%xmm0, 672(%rsp)
	movdqa	%xmm0, 688(%rsp)
	movdqa	%xmm0, 704(%rsp)
	movdqa	%xmm0, 720(%rsp)
	movdqa	%xmm0, 736(%rsp)
	movdqa	%xmm0, 752(%rsp)
	movdqa	%xmm0, 768(%rsp)
	movdqa	%xmm0, 784(%rsp)
	movdqa	%xmm0, 800(%rsp)
	movdqa	%xmm0, 816(%rsp)
	movdqa	%xmm0, 832(%rsp)
	movdqa	%xmm0, 848(%rsp)
	movdqa	%xmm0, 864(%rsp)
	movdqa	%xmm0, 880(%rsp)
	testb	%al, %al
	movq	%rcx, 24(%rsp)
	je	23f
	movl	%ebp, %r10d
	movq	%r9, 312(%rsp)
	movq	%r8, 120(%rsp)
	movq	%r15, 96(%rsp)
	movq	%rsi, 56(%rsp)
	movq	%rdx, 48(%rsp)
	movq	$0, 392(%rsp)
	movq	$0, 304(%rsp)
	movq	$0, 296(%rsp)
	movq	$0, 104(%rsp)
	movq	%r11, %rbp
	movq	$0, 112(%rsp)
	jmp	46f
16:
	movq	160(%rsp), %r12
	movq	256(%rsp), %r15
	movq	264(%rsp), %r13
	testq	%r10, %r10
	movq	%r9, 24(%rsp)
	je	39f
	xorl	%eax, %eax
	xorl	%ecx, %ecx
	xorl	%edx, %edx
	jmp	21f
17:
	xorl	%r8d, %r8d
	xorl	%r9d, %r9d
18:
	movq	%r8, %r10
	shlq	$6, %r9
	movl	(%rdi,%r9), %r11d
	movl	4(%rdi,%r9), %r8d
	addq	%r11, %r8
	addq	24(%rdi,%r9), %r8
	cmpq	%r8, %r10
	cmovaq	%r10, %r8
19:
	cmpq	%r8, %rax
	cmovbeq	%r8, %rax
	movq	%rbp, %r8
	movq	24(%rsp), %r9
20:
	addq	%rsi, %rcx
	cmpq	%r9, %rdx
	leaq	1(%rdx), %rdx
	je	40f
21:
	movq	%rdx, %rsi
	shlq	$5, %rsi
	movq	24(%r12,%rsi), %rdi
	movq	%r13, %rsi
	subq	%rcx, %rsi
	cmpq	%rdi, %rsi
	cmovaeq	%rdi, %rsi
	testq	%rsi, %rsi
	je	20b
	movq	%r8, %rbp
	movq	%rcx, %rdi
	shlq	$6, %rdi
	addq	%r15, %rdi
	cmpq	$1, %rsi
	je	17b
	movq	%rsi, %r10
	andq	$-2, %r10
	xorl	%r8d, %r8d
	movq	%rdi, %r11
	xorl	%r9d, %r9d
	.p2align	4
22:
	movl	(%r11), %ebx
	movl	4(%r11), %r14d
	addq	%rbx, %r14
	addq	24(%r11), %r14
	cmpq	%r14, %r8
	cmovaq	%r8, %r14
	movl	64(%r11), %ebx
	movl	68(%r11), %r8d
	addq	%rbx, %r8
	addq	88(%r11), %r8
	cmpq	%r8, %r14
	cmovaq	%r14, %r8
	addq	$2, %r9
	subq	$-128, %r11
	cmpq	%r9, %r10
	jne	22b
	testb	$1, %sil
	jne	18b
	jmp	19b
23:
	movb	%bpl, 7(%rsp)
	movq	%r13, %rax
	shlq	$4, %rax
	leaq	(%rax,%rcx), %r15
	addq	$-5, %r15
	movq	%r13, %rbx
	jmp	26f
	.p2align	4
24:
	movq	240(%rsp), %rax
	cmpq	%rax, 248(%rsp)
	je	29f
25:
	movq	232(%rsp), %rcx
	movq	%rbp, (%rcx,%rax,8)
	incq	%rax
	movq	%rax, 240(%rsp)
	addq	$-16, %r15
	movq	%rbp, %rbx
	testq	%rbp, %rbp
	je	34f
26:
	leaq	-1(%rbx), %rbp
	cmpl	$1, -7(%r15)
	jne	24b
	cmpq	$65534, %rbp
	ja	24b
	cmpw	$0, -3(%r15)
	je	24b
	movl	-11(%r15), %eax
	movzbl	%al, %ecx
	movzwl	384(%rsp,%rcx,2), %edx
	cmpq	%rdx, 168(%rsp)
	jbe	27f
	movq	160(%rsp), %rcx
	cmpl	%eax, (%rcx,%rdx,4)
	jne	27f
	movzbl	(%r15), %eax
	shll	$8, %edx
	jmp	28f
27:
	leaq	160(%rsp), %rdi
	leaq	384(%rsp), %rsi
	movl	%eax, %edx
	callq	"mime_lookup::indexed::tables::other_table"
	testb	%al, %al
	jne	56f
	cmpq	168(%rsp), %rdx
	je	24b
	movzbl	(%r15), %eax
	shlq	$8, %rdx
28:
	orq	%rax, %rdx
	movq	184(%rsp), %rax
	movq	208(%rsp), %rcx
	movzwl	(%rax,%rdx,2), %esi
	movw	%si, (%rcx,%rbp,2)
	movw	%bx, (%rax,%rdx,2)
	addq	$-16, %r15
	movq	%rbp, %rbx
	testq	%rbp, %rbp
	jne	26b
	jmp	34f
29:
	leaq	232(%rsp), %rdi
	callq	"std_alloc::vec::Vec::grow_amortized::<#383af2bc39eacab1>"
	testb	%al, %al
	je	56f
	movq	240(%rsp), %rax
	jmp	25b
30:
	addq	392(%rsp), %rbx
	movq	$-1, %rax
	cmovaeq	%rbx, %rax
	movq	%rax, 392(%rsp)
31:
	cmpq	$0, 272(%rsp)
	je	32f
	movq	256(%rsp), %rdi
	callq	rattle_dealloc@PLT
32:
	cmpq	$0, 176(%rsp)
	movq	32(%rsp), %rbx
	je	2b
	movq	160(%rsp), %rdi
33:
	callq	rattle_dealloc@PLT
	jmp	2b
34:
	movq	160(%rsp), %rax
	movq	%rax, 56(%rsp)
	movq	168(%rsp), %rdx
	movq	176(%rsp), %rax
	movq	%rax, 48(%rsp)
	movq	184(%rsp), %rax
	movq	%rax, 96(%rsp)
	movq	192(%rsp), %rax
	movq	%rax, 296(%rsp)
	movq	200(%rsp), %rbx
	movq	208(%rsp), %rdi
	movq	216(%rsp), %rax
	movq	%rax, 312(%rsp)
	movq	224(%rsp), %rcx
	movq	232(%rsp), %rbp
	movq	240(%rsp), %r15
	movq	248(%rsp), %rax
	pxor	%xmm0, %xmm0
	movdqa	%xmm0, 384(%rsp)
	movq	$0, 400(%rsp)
	testq	%r15, %r15
	movzbl	7(%rsp), %r10d
	movq	%rax, 112(%rsp)
	movq	%rcx, 104(%rsp)
	movq	%rdx, 304(%rsp)
	je	45f
	movq	%r15, %rax
	shrq	$62, %rax
	movq	%rdi, 88(%rsp)
	jne	84f
	leaq	(%r15,%r15), %rdi
	movl	$2, %esi
	callq	rattle_alloc@PLT
	movq	88(%rsp), %rdi
	testb	$1, %al
	je	84f
	movq	%rbx, 120(%rsp)
	movq	%rdx, 384(%rsp)
	movq	$0, 392(%rsp)
	movq	%r15, 400(%rsp)
	xorl	%eax, %eax
	xorl	%ebx, %ebx
	jmp	37f
35:
	cmpq	%rax, 400(%rsp)
	je	38f
36:
	movw	%r14w, (%rdx,%rax,2)
	incq	%rax
	movq	%rax, 392(%rsp)
	incq	%rbx
	cmpq	%rbx, %r15
	je	61f
37:
	movq	(%rbp,%rbx,8), %rcx
	movw	$2296, %r14w
	cmpq	%r13, %rcx
	jae	35b
	shlq	$4, %rcx
	movq	24(%rsp), %r9
	movzbl	10(%r9,%rcx), %esi
	leal	1(%rsi), %r10d
	movzwl	8(%r9,%rcx), %r8d
	cmpl	%r8d, %r10d
	jae	35b
	movl	(%r9,%rcx), %r10d
	movl	4(%r9,%rcx), %r8d
	addq	%rsi, %r8
	addq	%r10, %r8
	cmpq	$288, %r8
	ja	35b
	movq	24(%rsp), %r8
	movzbl	13(%r8,%rcx), %esi
	movzbl	14(%r8,%rcx), %ecx
	leal	(%rcx,%rsi,8), %r14d
	jmp	35b
38:
	leaq	384(%rsp), %rdi
	movl	$1, %esi
	callq	"std_alloc::vec::Vec::grow_amortized::<#e5d85e99c87df23c>"
	testb	%al, %al
	je	83f
	movq	384(%rsp), %rdx
	movq	392(%rsp), %rax
	movq	88(%rsp), %rdi
	jmp	36b
39:
	xorl	%eax, %eax
40:
	movq	176(%rsp), %r14
	movq	272(%rsp), %rcx
	movq	%rcx, 72(%rsp)
	cmpq	48(%rsp), %rax
	jne	41f
	testq	%r14, %r14
	sete	%bpl
	movdqa	384(%rsp), %xmm0
	movq	32(%rsp), %rax
	movdqu	%xmm0, (%rax)
	pxor	%xmm0, %xmm0
	movdqa	%xmm0, 320(%rsp)
	movq	$0, 336(%rsp)
	testq	%r13, %r13
	je	50f
	movabsq	$230584300921369395, %rax
	cmpq	%rax, %r13
	ja	43f
	leaq	(,%r13,8), %rax
	leaq	(%rax,%rax,4), %rdi
	movl	$8, %esi
	movq	%r8, %rbx
	callq	rattle_alloc@PLT
	movq	24(%rsp), %r9
	testb	$1, %al
	je	43f
	movq	%rbx, %r8
	movq	%r15, 16(%rsp)
	jmp	51f
41:
	testq	%r14, %r14
	je	42f
	movq	%r12, %rdi
	callq	rattle_dealloc@PLT
42:
	cmpq	$0, 72(%rsp)
	movq	32(%rsp), %rbx
	je	2b
	movq	%r15, %rdi
	jmp	33b
43:
	cmpq	$0, 72(%rsp)
	je	44f
	movq	%r15, %rdi
	callq	rattle_dealloc@PLT
44:
	testq	%r14, %r14
	jne	93f
	jmp	3b
45:
	movq	%rbx, 120(%rsp)
	leaq	8(%rsp), %r11
46:
	movq	72(%rsp), %rbx
	movq	%r11, 384(%rsp)
	movq	$0, 400(%rsp)
	xorl	%r15d, %r15d
47:
	movq	%rdi, %r14
	movq	400(%rsp), %rax
	movq	384(%rsp), %rcx
	movq	%rcx, 320(%rsp)
	movq	392(%rsp), %rcx
	movq	%rcx, 328(%rsp)
	movq	%rax, 336(%rsp)
	testb	%r10b, %r10b
	jne	48f
	movq	64(%rsp), %rdi
	callq	rattle_dealloc@PLT
48:
	movq	336(%rsp), %rax
	movq	320(%rsp), %rcx
	movq	%rcx, 352(%rsp)
	movq	328(%rsp), %rcx
	movq	%rcx, 360(%rsp)
	movq	%rax, 368(%rsp)
	movl	$200, %edi
	movl	$8, %esi
	callq	rattle_alloc@PLT
	testb	$1, %al
	je	49f
	movq	24(%rsp), %rax
	movq	%rax, (%rdx)
	movq	%r13, 8(%rdx)
	movq	%r13, 16(%rdx)
	movq	16(%rsp), %rax
	movq	%rax, 24(%rdx)
	movq	80(%rsp), %rax
	movq	%rax, 32(%rdx)
	movq	%rbx, 40(%rdx)
	movq	32(%rsp), %rax
	movq	%rax, 48(%rdx)
	movq	%r13, 56(%rdx)
	movq	40(%rsp), %rax
	movq	%rax, 64(%rdx)
	movq	56(%rsp), %rax
	movq	%rax, 72(%rdx)
	movq	304(%rsp), %rax
	movq	%rax, 80(%rdx)
	movq	48(%rsp), %rax
	movq	%rax, 88(%rdx)
	movq	96(%rsp), %rax
	movq	%rax, 96(%rdx)
	movq	296(%rsp), %rax
	movq	%rax, 104(%rdx)
	movq	120(%rsp), %rax
	movq	%rax, 112(%rdx)
	movq	%r14, 120(%rdx)
	movq	312(%rsp), %rax
	movq	%rax, 128(%rdx)
	movq	104(%rsp), %rax
	movq	%rax, 136(%rdx)
	movq	%rbp, 144(%rdx)
	movq	%r15, 152(%rdx)
	movq	112(%rsp), %rax
	movq	%rax, 160(%rdx)
	movq	368(%rsp), %rax
	movq	%rax, 184(%rdx)
	movdqa	352(%rsp), %xmm0
	movdqu	%xmm0, 168(%rdx)
	movq	%r12, 192(%rdx)
	movq	128(%rsp), %r12
	movzbl	88(%r12), %eax
	movq	96(%r12), %rbx
	movq	$1, 88(%r12)
	movq	%rdx, 96(%r12)
	cmpb	$1, %al
	jne	3b
	leaq	384(%rsp), %r14
	movl	$200, %edx
	movq	%r14, %rdi
	movq	%rbx, %rsi
	callq	memcpy@PLT
	movq	%rbx, %rdi
	callq	rattle_dealloc@PLT
	movq	%r14, %rdi
	callq	"mime_lookup::mime_lookup++indexed++magic_index++MagicIndex+Destruct::drop"
	jmp	3b
49:
	movq	24(%rsp), %rax
	movq	%rax, 384(%rsp)
	movq	%r13, 392(%rsp)
	movq	%r13, 400(%rsp)
	movq	16(%rsp), %rax
	movq	%rax, 408(%rsp)
	movq	80(%rsp), %rax
	movq	%rax, 416(%rsp)
	movq	%rbx, 424(%rsp)
	movq	32(%rsp), %rax
	movq	%rax, 432(%rsp)
	movq	%r13, 440(%rsp)
	movq	40(%rsp), %rax
	movq	%rax, 448(%rsp)
	movq	56(%rsp), %rax
	movq	%rax, 456(%rsp)
	movq	304(%rsp), %rax
	movq	%rax, 464(%rsp)
	movq	48(%rsp), %rax
	movq	%rax, 472(%rsp)
	movq	96(%rsp), %rax
	movq	%rax, 480(%rsp)
	movq	296(%rsp), %rax
	movq	%rax, 488(%rsp)
	movq	120(%rsp), %rax
	movq	%rax, 496(%rsp)
	movq	%r14, 504(%rsp)
	movq	312(%rsp), %rax
	movq	%rax, 512(%rsp)
	movq	104(%rsp), %rax
	movq	%rax, 520(%rsp)
	movq	%rbp, 528(%rsp)
	movq	%r15, 536(%rsp)
	movq	112(%rsp), %rax
	movq	%rax, 544(%rsp)
	movq	368(%rsp), %rax
	movq	%rax, 568(%rsp)
	movdqa	352(%rsp), %xmm0
	movdqu	%xmm0, 552(%rsp)
	movq	%r12, 576(%rsp)
	leaq	384(%rsp), %rdi
	callq	"mime_lookup::mime_lookup++indexed++magic_index++MagicIndex+Destruct::drop"
	jmp	3b
50:
	movq	%r15, 16(%rsp)
	leaq	8(%rsp), %rdx
51:
	movq	%rdx, 136(%rsp)
	movq	$0, 144(%rsp)
	movq	%r13, 152(%rsp)
	leaq	1(%r9), %rax
	testq	%rax, %rax
	je	13b
	movq	%r14, 48(%rsp)
	movq	%r13, 80(%rsp)
	movb	%bpl, 7(%rsp)
	xorl	%r13d, %r13d
	xorl	%r14d, %r14d
	xorl	%r15d, %r15d
	movq	%r12, 64(%rsp)
	jmp	53f
52:
	movq	%rbx, %r14
	movq	40(%rsp), %rax
	cmpq	%r9, %rax
	leaq	1(%rax), %r15
	movq	64(%rsp), %r12
	je	65f
53:
	movq	%r15, 40(%rsp)
	shlq	$5, %r15
	movq	24(%r12,%r15), %rax
	movq	%r12, %rcx
	movq	80(%rsp), %r12
	subq	%r14, %r12
	cmpq	%rax, %r12
	cmovaeq	%rax, %r12
	leaq	(%r12,%r14), %rbx
	testq	%r12, %r12
	je	52b
	addq	%rcx, %r15
	shlq	$6, %r14
	addq	16(%rsp), %r14
	leaq	8(%r15), %rsi
	jmp	55f
	.p2align	4
54:
	movq	%rbx, %rax
	subq	%r12, %rax
	leaq	(,%r13,4), %rcx
	addq	%r13, %rcx
	movdqa	384(%rsp), %xmm0
	movdqu	%xmm0, (%rdx,%rcx,8)
	movl	%ebp, 16(%rdx,%rcx,8)
	movl	$0, 20(%rdx,%rcx,8)
	movq	%rax, 24(%rdx,%rcx,8)
	movq	%r12, 32(%rdx,%rcx,8)
	incq	%r13
	movq	%r13, 144(%rsp)
	leaq	-1(%r12), %rax
	movq	56(%r14), %rcx
	cmpq	%rcx, %rax
	cmovbq	%rax, %rcx
	incq	%rcx
	movq	%rcx, %rax
	shlq	$6, %rax
	addq	%rax, %r14
	subq	%rcx, %r12
	je	52b
55:
	movl	(%r15), %ebp
	movups	(%rsi), %xmm0
	movaps	%xmm0, 384(%rsp)
	cmpq	%r13, 152(%rsp)
	jne	54b
	leaq	136(%rsp), %rdi
	callq	"std_alloc::vec::Vec::grow_amortized::<#5cd6c36b4880780f>"
	testb	%al, %al
	je	62f
	movq	136(%rsp), %rdx
	movq	144(%rsp), %r13
	movq	24(%rsp), %r9
	leaq	8(%r15), %rsi
	jmp	54b
56:
	cmpq	$0, 176(%rsp)
	je	57f
	movq	160(%rsp), %rdi
	callq	rattle_dealloc@PLT
57:
	cmpq	$0, 200(%rsp)
	movq	64(%rsp), %r12
	movq	16(%rsp), %rbx
	movq	40(%rsp), %r15
	je	58f
	movq	184(%rsp), %rdi
	callq	rattle_dealloc@PLT
58:
	cmpq	$0, 224(%rsp)
	je	59f
	movq	208(%rsp), %rdi
	callq	rattle_dealloc@PLT
59:
	cmpq	$0, 248(%rsp)
	je	60f
	movq	232(%rsp), %rdi
	callq	rattle_dealloc@PLT
60:
	movq	24(%rsp), %rdi
	callq	rattle_dealloc@PLT
	testq	%r15, %r15
	jne	89f
	jmp	90f
61:
	movq	72(%rsp), %rbx
	movzbl	7(%rsp), %r10d
	jmp	47b
62:
	cmpq	$0, 152(%rsp)
	je	63f
	movq	136(%rsp), %rdi
	callq	rattle_dealloc@PLT
63:
	cmpq	$0, 72(%rsp)
	movq	64(%rsp), %rbx
	movq	16(%rsp), %rdi
	je	64f
	callq	rattle_dealloc@PLT
64:
	cmpq	$0, 48(%rsp)
	je	3b
	movq	%rbx, %rdi
	callq	rattle_dealloc@PLT
	jmp	3b
65:
	movq	136(%rsp), %rdi
	movq	152(%rsp), %r15
	pxor	%xmm0, %xmm0
	movdqu	%xmm0, 271(%rsp)
	movdqa	%xmm0, 256(%rsp)
	testq	%r13, %r13
	je	81f
	movq	%r13, %rax
	shrq	$59, %rax
	movzbl	7(%rsp), %ebx
	jne	79f
	movq	%rdi, 32(%rsp)
	movq	%r13, %rdi
	shlq	$4, %rdi
	movl	$4, %esi
	callq	rattle_alloc@PLT
	movq	32(%rsp), %rdi
	testb	$1, %al
	je	79f
	movq	%r15, 40(%rsp)
	movq	%rdx, 24(%rsp)
	leaq	15(%rdx), %rbp
	leaq	32(%rdi), %r9
	movq	$-1, %rbx
	movq	%r13, %r10
	jmp	70f
66:
	cmpq	$65535, %r14
	movl	$65535, %eax
	cmovbq	%r14, %rax
	addl	%r15d, %eax
	movl	$-1, %r15d
	cmovael	%eax, %r15d
67:
	xorl	%r11d, %r11d
	xorl	%r14d, %r14d
	xorl	%eax, %eax
	xorl	%esi, %esi
	xorl	%ecx, %ecx
	xorl	%edx, %edx
68:
	xorl	%edi, %edi
69:
	movl	%r15d, %ebx
	movzwl	%r14w, %r8d
	addq	%r8, %rbx
	movq	48(%rsp), %r14
	cmpq	%r14, %rbx
	cmovaeq	%r14, %rbx
	movl	%r15d, -15(%rbp)
	movl	%r11d, -11(%rbp)
	movw	%r8w, -7(%rbp)
	movb	%al, -5(%rbp)
	movb	%sil, -4(%rbp)
	movb	%cl, -3(%rbp)
	movb	%dl, -2(%rbp)
	movb	%dil, -1(%rbp)
	movb	$0, (%rbp)
	addq	$16, %rbp
	addq	$40, %r9
	decq	%r10
	je	82f
70:
	movq	%rbx, 48(%rsp)
	movq	-8(%r9), %rax
	movq	(%r9), %rcx
	movq	80(%rsp), %rdx
	cmpq	%rax, %rdx
	cmovbq	%rdx, %rax
	subq	%rax, %rdx
	cmpq	%rcx, %rdx
	cmovaeq	%rcx, %rdx
	testq	%rdx, %rdx
	je	72f
	shlq	$6, %rax
	movq	16(%rsp), %rcx
	movl	(%rcx,%rax), %r15d
	movl	4(%rcx,%rax), %r11d
	movl	8(%rcx,%rax), %ebx
	movq	16(%rcx,%rax), %rdi
	movq	24(%rcx,%rax), %r14
	movzbl	32(%rcx,%rax), %ecx
	cmpq	$4, %r14
	setb	%dl
	orb	%cl, %dl
	testb	$1, %dl
	je	73f
	cmpb	$1, %cl
	jne	71f
	movq	16(%rsp), %rcx
	cmpq	$2, 48(%rcx,%rax)
	jb	66b
	movq	16(%rsp), %rcx
	movq	40(%rcx,%rax), %rax
	cmpb	$-1, (%rax)
	jne	66b
	cmpb	$-1, 1(%rax)
	jne	66b
71:
	xorl	%eax, %eax
	jmp	74f
72:
	xorl	%r15d, %r15d
	jmp	67b
73:
	movb	$2, %al
	cmpl	$1, %r11d
	je	74f
	movl	%r11d, 56(%rsp)
	movq	%r14, %rsi
	movq	%r9, 112(%rsp)
	movq	%r10, 104(%rsp)
	movq	%rdi, 96(%rsp)
	callq	"mime_lookup::indexed::line_head::rarest_pair"
	movq	96(%rsp), %rdi
	movl	56(%rsp), %r11d
	movq	104(%rsp), %r10
	movq	112(%rsp), %r9
74:
	cmpl	$1, %ebx
	sete	%cl
	leaq	-65536(%r14), %rdx
	cmpq	$-65535, %rdx
	setae	%dl
	testb	%dl, %cl
	je	66b
	cmpq	$2, %r14
	jb	75f
	movzbl	1(%rdi), %ecx
	jmp	76f
75:
	xorl	%ecx, %ecx
76:
	movzbl	%al, %r8d
	cmpq	%r8, %r14
	jbe	77f
	movzbl	(%rdi,%r8), %edx
	jmp	78f
77:
	xorl	%edx, %edx
78:
	movzbl	(%rdi), %esi
	incq	%r8
	cmpq	%r14, %r8
	jae	68b
	movzbl	(%rdi,%r8), %edi
	jmp	69b
79:
	testq	%r15, %r15
	je	80f
	callq	rattle_dealloc@PLT
80:
	cmpq	$0, 72(%rsp)
	movq	16(%rsp), %rdi
	je	92f
	callq	rattle_dealloc@PLT
	cmpq	$0, 48(%rsp)
	jne	93f
	jmp	3b
81:
	movq	%r15, 40(%rsp)
	movq	%rdi, 32(%rsp)
	movq	128(%rsp), %rbx
	movzbl	7(%rsp), %ebp
	jmp	14b
82:
	leaq	384(%rsp), %rdi
	movl	$512, %edx
	xorl	%esi, %esi
	callq	memset@PLT
	cmpq	$64, %r13
	movl	$64, %r15d
	cmovbq	%r13, %r15
	leal	(,%r15,4), %edi
	movl	$4, %esi
	callq	rattle_alloc@PLT
	movq	%rdx, 56(%rsp)
	testb	$1, %al
	je	96f
	movq	%rbx, %r12
	movq	%r15, %rbx
	movq	%r15, %rdi
	shlq	$9, %rdi
	movl	$2, %esi
	callq	rattle_alloc@PLT
	testb	$1, %al
	je	95f
	movq	%rdx, %r15
	leaq	(,%r13,2), %rbp
	movl	$2, %esi
	movq	%rbp, %rdi
	callq	rattle_alloc@PLT
	testb	$1, %al
	je	94f
	movq	%rdx, %r14
	cmpq	$1, %r13
	jne	97f
	xorl	%r9d, %r9d
	jmp	98f
83:
	cmpq	$0, 400(%rsp)
	movq	88(%rsp), %rdi
	movq	120(%rsp), %rbx
	je	84f
	movq	384(%rsp), %rdi
	callq	rattle_dealloc@PLT
	movq	88(%rsp), %rdi
84:
	cmpq	$0, 48(%rsp)
	je	85f
	movq	56(%rsp), %rdi
	callq	rattle_dealloc@PLT
	movq	88(%rsp), %rdi
85:
	testq	%rbx, %rbx
	movq	64(%rsp), %r12
	movq	16(%rsp), %rbx
	movq	24(%rsp), %r15
	je	86f
	movq	96(%rsp), %rdi
	callq	rattle_dealloc@PLT
	movq	88(%rsp), %rdi
86:
	cmpq	$0, 104(%rsp)
	je	87f
	callq	rattle_dealloc@PLT
87:
	cmpq	$0, 112(%rsp)
	je	88f
	movq	%rbp, %rdi
	callq	rattle_dealloc@PLT
88:
	movq	%r15, %rdi
	callq	rattle_dealloc@PLT
	cmpq	$0, 40(%rsp)
	je	90f
89:
	movq	32(%rsp), %rdi
	callq	rattle_dealloc@PLT
90:
	cmpq	$0, 72(%rsp)
	je	91f
	movq	%rbx, %rdi
	callq	rattle_dealloc@PLT
	cmpb	$0, 7(%rsp)
	jne	3b
	jmp	93f
91:
	movzbl	7(%rsp), %ebx
92:
	testb	%bl, %bl
	jne	3b
93:
	movq	%r12, %rdi
	callq	rattle_dealloc@PLT
	jmp	3b
94:
	movq	%r15, %rdi
	callq	rattle_dealloc@PLT
95:
	movq	56(%rsp), %rdi
	callq	rattle_dealloc@PLT
	movq	64(%rsp), %r12
96:
	movq	16(%rsp), %rbx
	movq	40(%rsp), %r15
	movq	24(%rsp), %rdi
	callq	rattle_dealloc@PLT
	testq	%r15, %r15
	jne	89b
	jmp	90b
97:
	addq	$-2, %rbp
	movq	%r14, %rdi
	xorl	%esi, %esi
	movq	%rbp, %rdx
	callq	memset@PLT
	leaq	-1(%r13), %r9
98:
	movq	%rbx, %rdx
	movq	%rbx, %r8
	shlq	$8, %r8
	movq	%r14, %rdi
	movw	$0, (%r14,%r9,2)
	incq	%r9
	xorl	%eax, %eax
	movq	128(%rsp), %rbx
	movzbl	7(%rsp), %ebp
	movq	24(%rsp), %rcx
	movq	56(%rsp), %rsi
	jmp	15b
99:
	.size	"mime_lookup::cached::paid_cache::PaidCache::read_magic", 99b-"mime_lookup::cached::paid_cache::PaidCache::read_magic"

	.section	.rodata.cst16,"aM",@progbits,16
	.p2align	4, 0x0
1:
	.byte	42,42,42,42,42,42,42,42
	.zero	1
	.zero	1
	.zero	1
	.zero	1
	.zero	1
	.zero	1
	.zero	1
	.zero	1
2:
	.byte	63,63,63,63,63,63,63,63
	.zero	1
	.zero	1
	.zero	1
	.zero	1
	.zero	1
	.zero	1
	.zero	1
	.zero	1
3:
	.byte	92,92,92,92,92,92,92,92
	.zero	1
	.zero	1
	.zero	1
	.zero	1
	.zero	1
	.zero	1
	.zero	1
	.zero	1
4:
	.byte	91,91,91,91,91,91,91,91
	.zero	1
	.zero	1
	.zero	1
	.zero	1
	.zero	1
	.zero	1
	.zero	1
	.zero	1
5:
	.zero	16,42
	.text
	.p2align	4
	.type	"mime_lookup::cached::paid_cache::PaidCache::read_names",@function
"mime_lookup::cached::paid_cache::PaidCache::read_names":
	pushq	%rbp
	pushq	%r15
	pushq	%r14
	pushq	%r13
	pushq	%r12
	pushq	%rbx
	subq	$1384, %rsp
	movq	%rdi, 160(%rsp)
	movq	8(%rdi), %rax
	movq	(%rsi), %rcx
	movq	8(%rsi), %rdx
	movq	%rdx, 264(%rsp)
	movq	%rax, 272(%rsp)
	movq	%rax, 280(%rsp)
	pxor	%xmm0, %xmm0
	movdqa	%xmm0, 1152(%rsp)
	movdqa	%xmm0, 1136(%rsp)
	incq	%rcx
	movq	$-1, %rdx
	cmovneq	%rcx, %rdx
	movq	%rdx, 256(%rsp)
	cmpq	$40, %rax
	jb	21f
	cmpq	$268435456, %rax
	ja	21f
	movq	(%rdi), %rax
	cmpl	$33554688, (%rax)
	jne	21f
	movl	16(%rax), %r14d
	movl	20(%rax), %ebp
	movl	12(%rax), %ebx
	movl	4(%rax), %edx
	movdqa	%xmm0, 704(%rsp)
	movdqa	%xmm0, 688(%rsp)
	bswapl	%edx
	leaq	688(%rsp), %rax
	leaq	160(%rsp), %r8
	leaq	256(%rsp), %rcx
	movq	%rdi, %r12
	movq	%rax, %rdi
	movq	%rsi, %r13
	movq	%r8, %rsi
	callq	"mime_load::pairs::pairs_at"
	movq	%r13, %rsi
	cmpb	$0, 688(%rsp)
	jne	21f
	movq	%r12, %rax
	shlq	$32, %rbx
	orq	%r14, %rbx
	bswapq	%rbx
	movq	696(%rsp), %r15
	movq	704(%rsp), %r11
	movq	712(%rsp), %r9
	pxor	%xmm0, %xmm0
	movdqa	%xmm0, 720(%rsp)
	movdqa	%xmm0, 704(%rsp)
	movdqa	%xmm0, 688(%rsp)
	movq	$0, 736(%rsp)
	movl	%ebx, %r14d
	movq	256(%rsp), %rcx
	incq	%rcx
	movq	$-1, %rdx
	cmovneq	%rcx, %rdx
	movq	%rdx, 256(%rsp)
	movq	8(%r12), %rcx
	movq	%rcx, %rdi
	subq	%r14, %rdi
	setb	%r8b
	cmpq	$4, %rdi
	setb	%dil
	orb	%r8b, %dil
	jne	19f
	movq	(%rax), %rdi
	movl	(%rdi,%r14), %edi
	movl	%edi, %r10d
	bswapl	%r10d
	leaq	(%r10,%r10,2), %r8
	leaq	(%r14,%r8,4), %r8
	addq	$4, %r8
	cmpq	%r8, %rcx
	jb	19f
	movq	%r11, 120(%rsp)
	testl	%edi, %edi
	movq	%r9, 8(%rsp)
	je	13f
	movq	%r10, %rax
	shlq	$4, %rax
	leaq	(%rax,%rax,2), %rdi
	movl	$8, %esi
	movq	%r10, 40(%rsp)
	callq	rattle_alloc@PLT
	movq	40(%rsp), %rcx
	movq	8(%rsp), %r9
	movq	%r13, %rsi
	testb	$1, %al
	je	19f
	addq	$4, %r14
	movq	%rdx, 24(%rsp)
	movq	%rdx, 464(%rsp)
	movq	$0, 472(%rsp)
	movq	%rcx, 480(%rsp)
	movq	$0, 48(%rsp)
	xorl	%eax, %eax
	movq	%r15, 80(%rsp)
6:
	movq	%rax, 16(%rsp)
	leaq	(%rax,%rax,2), %rax
	leaq	(%r14,%rax,4), %rdx
	leaq	688(%rsp), %rdi
	leaq	160(%rsp), %rsi
	leaq	256(%rsp), %rcx
	callq	"mime_load::rules::read_rule"
	cmpb	$0, 688(%rsp)
	jne	26f
	movq	720(%rsp), %r15
	movq	728(%rsp), %rax
	movups	728(%rsp), %xmm3
	testq	%rax, %rax
	movq	%r13, %rsi
	movabsq	$1688849862361089, %r11
	movq	8(%rsp), %r9
	movq	40(%rsp), %r8
	movq	48(%rsp), %r10
	movq	24(%rsp), %rdi
	je	7f
	cmpb	$42, (%r15)
	je	17f
	cmpq	$8, %rax
	jb	7f
	movq	(%r15), %xmm0
	movdqa	1b(%rip), %xmm1
	pcmpeqb	%xmm0, %xmm1
	movdqa	2b(%rip), %xmm2
	pcmpeqb	%xmm0, %xmm2
	por	%xmm1, %xmm2
	movdqa	3b(%rip), %xmm1
	pcmpeqb	%xmm0, %xmm1
	pcmpeqb	4b(%rip), %xmm0
	por	%xmm1, %xmm0
	por	%xmm2, %xmm0
	pmovmskb	%xmm0, %ecx
	testb	%cl, %cl
	jne	17f
7:
	xorl	%ecx, %ecx
8:
	cmpq	%rcx, %rax
	je	9f
	movzbl	(%r15,%rcx), %edx
	incq	%rcx
	addl	$-42, %edx
	cmpl	$50, %edx
	ja	8b
	btq	%rdx, %r11
	jae	8b
	jmp	17f
9:
	testq	%r10, %r10
	je	10f
	leaq	(%r10,%r10,2), %rcx
	shlq	$4, %rcx
	movq	-24(%rdi,%rcx), %rdx
	movq	-16(%rdi,%rcx), %rcx
	movq	%r15, %rdi
	movq	%rax, %rsi
	movaps	%xmm3, 128(%rsp)
	callq	"core::cmp::slices::RefSliceOrd::cmp::<#914af4d8504a0b72>"
	movaps	128(%rsp), %xmm3
	movq	24(%rsp), %rdi
	movq	48(%rsp), %r10
	movq	40(%rsp), %r8
	movq	8(%rsp), %r9
	movq	%r13, %rsi
	testb	%al, %al
	je	17f
10:
	cmpq	%r10, 480(%rsp)
	je	12f
11:
	leaq	(%r10,%r10,2), %rax
	shlq	$4, %rax
	leaq	696(%rsp), %rcx
	movdqu	(%rcx), %xmm0
	movq	16(%rcx), %rcx
	movq	%rcx, 16(%rdi,%rax)
	movdqu	%xmm0, (%rdi,%rax)
	movq	%r15, 24(%rdi,%rax)
	movq	%rdi, 24(%rsp)
	movups	%xmm3, 32(%rdi,%rax)
	incq	%r10
	movq	%r10, 48(%rsp)
	movq	%r10, 472(%rsp)
	movq	16(%rsp), %rax
	incq	%rax
	cmpq	%r8, %rax
	movq	80(%rsp), %r15
	jne	6b
	jmp	31f
12:
	movaps	%xmm3, 128(%rsp)
	leaq	464(%rsp), %rdi
	callq	"std_alloc::vec::Vec::grow_amortized::<#923caa80388ab1e5>"
	testb	%al, %al
	je	89f
	movq	464(%rsp), %rdi
	movq	472(%rsp), %r10
	movq	40(%rsp), %r8
	movaps	128(%rsp), %xmm3
	jmp	11b
13:
	movq	%rsp, %rdi
	xorl	%r11d, %r11d
14:
	shrq	$32, %rbx
	incq	%rdx
	movq	$-1, %r8
	cmovneq	%rdx, %r8
	movq	%r8, 256(%rsp)
	subq	%rbx, %rcx
	setb	%dl
	cmpq	$8, %rcx
	setb	%cl
	orb	%dl, %cl
	jne	16f
	movq	%r11, 48(%rsp)
	movq	%rdi, 24(%rsp)
	movq	%r10, 40(%rsp)
	movq	(%rax), %rax
	movl	(%rax,%rbx), %edx
	movl	4(%rax,%rbx), %eax
	shlq	$32, %rdx
	orq	%rax, %rdx
	bswapq	%rdx
	movq	%rdx, %rsi
	shrq	$32, %rsi
	movaps	5b(%rip), %xmm0
	movups	%xmm0, 927(%rsp)
	movaps	%xmm0, 912(%rsp)
	movaps	%xmm0, 896(%rsp)
	movaps	%xmm0, 880(%rsp)
	movaps	%xmm0, 864(%rsp)
	movaps	%xmm0, 848(%rsp)
	movaps	%xmm0, 832(%rsp)
	movaps	%xmm0, 816(%rsp)
	movaps	%xmm0, 800(%rsp)
	movaps	%xmm0, 784(%rsp)
	movaps	%xmm0, 768(%rsp)
	movaps	%xmm0, 752(%rsp)
	movaps	%xmm0, 736(%rsp)
	movaps	%xmm0, 720(%rsp)
	movaps	%xmm0, 704(%rsp)
	movaps	%xmm0, 688(%rsp)
	movb	$0, 943(%rsp)
	movq	$254, 944(%rsp)
	movq	%rsp, %r14
	movq	%r14, 952(%rsp)
	xorps	%xmm0, %xmm0
	movaps	%xmm0, 960(%rsp)
	movq	%r14, 976(%rsp)
	movups	%xmm0, 984(%rsp)
	movaps	256(%rsp), %xmm0
	movaps	272(%rsp), %xmm1
	movups	%xmm1, 1016(%rsp)
	movups	%xmm0, 1000(%rsp)
	leaq	160(%rsp), %rdi
	leaq	688(%rsp), %rcx
	callq	"mime_load::suffix_tree::read_siblings"
	movdqu	1000(%rsp), %xmm0
	movdqu	1016(%rsp), %xmm1
	movdqa	%xmm0, 256(%rsp)
	movdqa	%xmm1, 272(%rsp)
	testb	%al, %al
	je	23f
	movq	976(%rsp), %r14
	movq	992(%rsp), %rbx
	cmpq	$0, 968(%rsp)
	je	15f
	movq	952(%rsp), %rdi
	callq	rattle_dealloc@PLT
15:
	testq	%rbx, %rbx
	movq	%r13, %rsi
	movq	8(%rsp), %r9
	movq	40(%rsp), %r10
	movq	24(%rsp), %rdi
	je	16f
	movq	%r14, %rdi
	callq	rattle_dealloc@PLT
	movq	24(%rsp), %rdi
	movq	40(%rsp), %r10
	movq	8(%rsp), %r9
	movq	%r13, %rsi
16:
	testq	%r10, %r10
	jne	18f
	jmp	19f
17:
	cmpq	$0, 480(%rsp)
	movq	80(%rsp), %r15
	je	19f
18:
	callq	rattle_dealloc@PLT
	movq	8(%rsp), %r9
	movq	%r13, %rsi
19:
	testq	%r9, %r9
	je	21f
20:
	movq	%r15, %rdi
	callq	rattle_dealloc@PLT
	movq	%r13, %rsi
21:
	movq	256(%rsp), %rax
	movq	%rax, (%rsi)
	movq	264(%rsp), %rax
	movq	%rax, 8(%rsi)
22:
	addq	$1384, %rsp
	popq	%rbx
	popq	%r12
	popq	%r13
	popq	%r14
	popq	%r15
	popq	%rbp
	retq
23:
	bswapl	%ebp
	movq	952(%rsp), %rdi
	movq	960(%rsp), %r8
	cmpq	$15, %r8
	movq	%rdi, 16(%rsp)
	movq	%r8, 64(%rsp)
	jbe	24f
	movq	%r8, %rdx
	shrq	%rdx
	movq	%r8, %rsi
	subq	%rdx, %rsi
	shlq	$5, %rsi
	addq	%rdi, %rsi
	callq	"core::slice::edits::mirror::<26'mime_load::leaf::LeafEntry>"
	jmp	39f
24:
	cmpq	$2, %r8
	jb	39f
	leaq	-2(%r8), %rcx
	movq	%rcx, %rax
	shrq	%rax
	movq	%r8, %rdx
	decq	%rdx
	je	25f
	shlq	$5, %rdx
	movq	16(%rsp), %rsi
	movups	(%rsi), %xmm0
	movups	16(%rsi), %xmm1
	movaps	%xmm1, 480(%rsp)
	movaps	%xmm0, 464(%rsp)
	movups	(%rsi,%rdx), %xmm0
	movups	16(%rsi,%rdx), %xmm1
	movups	%xmm0, (%rsi)
	movups	%xmm1, 16(%rsi)
	movdqa	464(%rsp), %xmm0
	movdqa	480(%rsp), %xmm1
	movdqu	%xmm1, 16(%rsi,%rdx)
	movdqu	%xmm0, (%rsi,%rdx)
25:
	testq	%rax, %rax
	je	39f
	cmpq	$1, %rcx
	jbe	27f
	shlq	$5, %rcx
	movq	16(%rsp), %rdx
	movups	32(%rdx), %xmm0
	movups	48(%rdx), %xmm1
	movaps	%xmm1, 480(%rsp)
	movaps	%xmm0, 464(%rsp)
	movups	(%rdx,%rcx), %xmm0
	movups	16(%rdx,%rcx), %xmm1
	movups	%xmm0, 32(%rdx)
	movups	%xmm1, 48(%rdx)
	movdqa	464(%rsp), %xmm0
	movdqa	480(%rsp), %xmm1
	movdqu	%xmm1, 16(%rdx,%rcx)
	movdqu	%xmm0, (%rdx,%rcx)
	jmp	28f
26:
	cmpq	$0, 480(%rsp)
	movq	%r13, %rsi
	movq	8(%rsp), %r9
	movq	24(%rsp), %rdi
	jne	18b
	jmp	19b
27:
	testq	%rcx, %rcx
	jne	28f
	movq	16(%rsp), %rcx
	movups	(%rcx), %xmm0
	movups	16(%rcx), %xmm1
	movaps	%xmm1, 480(%rsp)
	movaps	%xmm0, 464(%rsp)
	movups	32(%rcx), %xmm0
	movups	48(%rcx), %xmm1
	movups	%xmm0, (%rcx)
	movups	%xmm1, 16(%rcx)
	movdqa	464(%rsp), %xmm0
	movdqa	480(%rsp), %xmm1
	movdqu	%xmm0, 32(%rcx)
	movdqu	%xmm1, 48(%rcx)
28:
	cmpq	$1, %rax
	je	39f
	leaq	-3(%r8), %rcx
	cmpq	$2, %rcx
	jbe	29f
	shlq	$5, %rcx
	movq	16(%rsp), %rdx
	movups	64(%rdx), %xmm0
	movups	80(%rdx), %xmm1
	movaps	%xmm1, 480(%rsp)
	movaps	%xmm0, 464(%rsp)
	movups	(%rdx,%rcx), %xmm0
	movups	16(%rdx,%rcx), %xmm1
	movups	%xmm0, 64(%rdx)
	movups	%xmm1, 80(%rdx)
	movdqa	464(%rsp), %xmm0
	movdqa	480(%rsp), %xmm1
	movdqu	%xmm1, 16(%rdx,%rcx)
	movdqu	%xmm0, (%rdx,%rcx)
	jmp	30f
29:
	je	30f
	shlq	$5, %rcx
	movq	16(%rsp), %rdx
	movups	(%rdx,%rcx), %xmm0
	movups	16(%rdx,%rcx), %xmm1
	movaps	%xmm1, 480(%rsp)
	movaps	%xmm0, 464(%rsp)
	movups	64(%rdx), %xmm0
	movups	80(%rdx), %xmm1
	movups	%xmm0, (%rdx,%rcx)
	movups	%xmm1, 16(%rdx,%rcx)
	movdqa	464(%rsp), %xmm0
	movdqa	480(%rsp), %xmm1
	movdqu	%xmm1, 80(%rdx)
	movdqu	%xmm0, 64(%rdx)
30:
	cmpq	$2, %rax
	je	39f
	movq	%r15, %rdx
	leaq	-4(%r8), %rcx
	cmpq	$3, %rcx
	jbe	32f
	shlq	$5, %rcx
	movq	16(%rsp), %rsi
	movups	96(%rsi), %xmm0
	movups	112(%rsi), %xmm1
	movaps	%xmm1, 480(%rsp)
	movaps	%xmm0, 464(%rsp)
	movups	(%rsi,%rcx), %xmm0
	movups	16(%rsi,%rcx), %xmm1
	movups	%xmm0, 96(%rsi)
	movups	%xmm1, 112(%rsi)
	movdqa	464(%rsp), %xmm0
	movdqa	480(%rsp), %xmm1
	movdqu	%xmm1, 16(%rsi,%rcx)
	movdqu	%xmm0, (%rsi,%rcx)
	jmp	33f
31:
	movq	464(%rsp), %rdi
	movq	480(%rsp), %r10
	movq	256(%rsp), %rdx
	movq	%r12, %rax
	movq	8(%r12), %rcx
	movq	%r13, %rsi
	movq	8(%rsp), %r9
	movq	48(%rsp), %r11
	jmp	14b
32:
	je	33f
	shlq	$5, %rcx
	movq	16(%rsp), %rsi
	movups	(%rsi,%rcx), %xmm0
	movups	16(%rsi,%rcx), %xmm1
	movaps	%xmm1, 480(%rsp)
	movaps	%xmm0, 464(%rsp)
	movups	96(%rsi), %xmm0
	movups	112(%rsi), %xmm1
	movups	%xmm0, (%rsi,%rcx)
	movups	%xmm1, 16(%rsi,%rcx)
	movdqa	464(%rsp), %xmm0
	movdqa	480(%rsp), %xmm1
	movdqu	%xmm1, 112(%rsi)
	movdqu	%xmm0, 96(%rsi)
33:
	cmpq	$3, %rax
	movq	%rdx, %r15
	movq	64(%rsp), %rcx
	je	39f
	addq	$-5, %rcx
	cmpq	$4, %rcx
	jbe	34f
	shlq	$5, %rcx
	movq	16(%rsp), %rsi
	movups	128(%rsi), %xmm0
	movups	144(%rsi), %xmm1
	movaps	%xmm1, 480(%rsp)
	movaps	%xmm0, 464(%rsp)
	movups	(%rsi,%rcx), %xmm0
	movups	16(%rsi,%rcx), %xmm1
	movups	%xmm0, 128(%rsi)
	movups	%xmm1, 144(%rsi)
	movdqa	464(%rsp), %xmm0
	movdqa	480(%rsp), %xmm1
	movdqu	%xmm1, 16(%rsi,%rcx)
	movdqu	%xmm0, (%rsi,%rcx)
	jmp	35f
34:
	je	35f
	shlq	$5, %rcx
	movq	16(%rsp), %rsi
	movups	(%rsi,%rcx), %xmm0
	movups	16(%rsi,%rcx), %xmm1
	movaps	%xmm1, 480(%rsp)
	movaps	%xmm0, 464(%rsp)
	movups	128(%rsi), %xmm0
	movups	144(%rsi), %xmm1
	movups	%xmm0, (%rsi,%rcx)
	movups	%xmm1, 16(%rsi,%rcx)
	movdqa	464(%rsp), %xmm0
	movdqa	480(%rsp), %xmm1
	movdqu	%xmm1, 144(%rsi)
	movdqu	%xmm0, 128(%rsi)
35:
	cmpq	$4, %rax
	movq	%rdx, %r15
	movq	64(%rsp), %rcx
	je	39f
	addq	$-6, %rcx
	cmpq	$5, %rcx
	jbe	36f
	shlq	$5, %rcx
	movq	16(%rsp), %rsi
	movups	160(%rsi), %xmm0
	movups	176(%rsi), %xmm1
	movaps	%xmm1, 480(%rsp)
	movaps	%xmm0, 464(%rsp)
	movups	(%rsi,%rcx), %xmm0
	movups	16(%rsi,%rcx), %xmm1
	movups	%xmm0, 160(%rsi)
	movups	%xmm1, 176(%rsi)
	movdqa	464(%rsp), %xmm0
	movdqa	480(%rsp), %xmm1
	movdqu	%xmm1, 16(%rsi,%rcx)
	movdqu	%xmm0, (%rsi,%rcx)
	jmp	37f
36:
	je	37f
	shlq	$5, %rcx
	movq	16(%rsp), %rsi
	movups	(%rsi,%rcx), %xmm0
	movups	16(%rsi,%rcx), %xmm1
	movaps	%xmm1, 480(%rsp)
	movaps	%xmm0, 464(%rsp)
	movups	160(%rsi), %xmm0
	movups	176(%rsi), %xmm1
	movups	%xmm0, (%rsi,%rcx)
	movups	%xmm1, 16(%rsi,%rcx)
	movdqa	464(%rsp), %xmm0
	movdqa	480(%rsp), %xmm1
	movdqu	%xmm1, 176(%rsi)
	movdqu	%xmm0, 160(%rsi)
37:
	cmpq	$5, %rax
	movq	%rdx, %r15
	movq	64(%rsp), %rax
	je	39f
	addq	$-7, %rax
	cmpq	$6, %rax
	jbe	38f
	shlq	$5, %rax
	movq	16(%rsp), %rcx
	movups	192(%rcx), %xmm0
	movups	208(%rcx), %xmm1
	movaps	%xmm1, 480(%rsp)
	movaps	%xmm0, 464(%rsp)
	movups	(%rcx,%rax), %xmm0
	movups	16(%rcx,%rax), %xmm1
	movups	%xmm0, 192(%rcx)
	movups	%xmm1, 208(%rcx)
	movdqa	464(%rsp), %xmm0
	movdqa	480(%rsp), %xmm1
	movdqu	%xmm1, 16(%rcx,%rax)
	movdqu	%xmm0, (%rcx,%rax)
	movq	%rdx, %r15
	jmp	39f
38:
	movq	%rdx, %r15
	je	39f
	shlq	$5, %rax
	movq	16(%rsp), %rcx
	movups	(%rcx,%rax), %xmm0
	movups	16(%rcx,%rax), %xmm1
	movaps	%xmm1, 480(%rsp)
	movaps	%xmm0, 464(%rsp)
	movups	192(%rcx), %xmm0
	movups	208(%rcx), %xmm1
	movups	%xmm0, (%rcx,%rax)
	movups	%xmm1, 16(%rcx,%rax)
	movdqa	464(%rsp), %xmm0
	movdqa	480(%rsp), %xmm1
	movdqu	%xmm1, 208(%rcx)
	movdqu	%xmm0, 192(%rcx)
39:
	movq	968(%rsp), %rbx
	movq	976(%rsp), %rax
	movq	%rax, 32(%rsp)
	movq	992(%rsp), %rax
	movq	%rax, 128(%rsp)
	movdqu	984(%rsp), %xmm0
	movdqa	%xmm0, 208(%rsp)
	leaq	1136(%rsp), %rdi
	leaq	160(%rsp), %rsi
	leaq	256(%rsp), %rcx
	movl	%ebp, %edx
	callq	"mime_load::rules::globs_at"
	cmpb	$0, 1136(%rsp)
	je	43f
	testq	%rbx, %rbx
	je	40f
	movq	16(%rsp), %rdi
	callq	rattle_dealloc@PLT
40:
	cmpq	$0, 128(%rsp)
	je	41f
	movq	32(%rsp), %rdi
	callq	rattle_dealloc@PLT
41:
	cmpq	$0, 40(%rsp)
	je	42f
	movq	24(%rsp), %rdi
	callq	rattle_dealloc@PLT
42:
	cmpq	$0, 8(%rsp)
	movq	%r13, %rsi
	jne	20b
	jmp	21b
43:
	movq	%rbx, 56(%rsp)
	movq	1144(%rsp), %rax
	movq	%rax, 112(%rsp)
	movq	1152(%rsp), %rbx
	movq	1160(%rsp), %rax
	movq	%rax, 72(%rsp)
	movdqa	256(%rsp), %xmm0
	movdqu	%xmm0, (%r13)
	movq	(%r12), %r13
	movq	8(%r12), %rbp
	movl	$0, 467(%rsp)
	movl	$0, 464(%rsp)
	pxor	%xmm0, %xmm0
	movdqa	%xmm0, 832(%rsp)
	movdqa	%xmm0, 816(%rsp)
	movdqa	%xmm0, 800(%rsp)
	movdqa	%xmm0, 784(%rsp)
	movdqa	%xmm0, 768(%rsp)
	movdqa	%xmm0, 752(%rsp)
	movdqa	%xmm0, 736(%rsp)
	movdqa	%xmm0, 720(%rsp)
	movdqa	%xmm0, 704(%rsp)
	movdqa	%xmm0, 688(%rsp)
	movq	$0, 848(%rsp)
	leaq	688(%rsp), %rdi
	movq	%r15, %rsi
	movq	120(%rsp), %rdx
	callq	"mime_lookup::read_back::targets::targets_by_name"
	cmpb	$0, 688(%rsp)
	je	48f
	cmpq	$0, 8(%rsp)
	je	44f
	movq	%r15, %rdi
	callq	rattle_dealloc@PLT
44:
	cmpq	$0, 40(%rsp)
	movq	56(%rsp), %rbx
	je	45f
	movq	24(%rsp), %rdi
	callq	rattle_dealloc@PLT
45:
	testq	%rbx, %rbx
	movq	16(%rsp), %rdi
	je	46f
	callq	rattle_dealloc@PLT
46:
	cmpq	$0, 128(%rsp)
	je	47f
	movq	32(%rsp), %rdi
	callq	rattle_dealloc@PLT
47:
	cmpq	$0, 72(%rsp)
	je	22b
	movq	112(%rsp), %rdi
	jmp	81f
48:
	movq	%r13, 1128(%rsp)
	movq	%r15, 80(%rsp)
	leaq	696(%rsp), %rsi
	leaq	471(%rsp), %r13
	movl	$160, %edx
	movq	%r13, %rdi
	callq	memcpy@PLT
	leaq	1136(%rsp), %rdi
	movl	$160, %edx
	movq	%r13, %rsi
	callq	memcpy@PLT
	pxor	%xmm0, %xmm0
	movdqa	%xmm0, 688(%rsp)
	movdqa	%xmm0, 704(%rsp)
	movdqa	%xmm0, 720(%rsp)
	movq	$0, 736(%rsp)
	movdqa	%xmm0, 256(%rsp)
	movdqa	%xmm0, 272(%rsp)
	movdqa	%xmm0, 288(%rsp)
	movq	$0, 304(%rsp)
	movdqa	%xmm0, 1296(%rsp)
	movdqu	%xmm0, 1311(%rsp)
	movdqa	%xmm0, 352(%rsp)
	movdqa	%xmm0, 368(%rsp)
	movdqa	%xmm0, 384(%rsp)
	movq	%rbx, %r15
	movq	48(%rsp), %rcx
	addq	%rcx, %r15
	movq	$-1, %rax
	cmovbq	%rax, %r15
	addq	64(%rsp), %r15
	cmovbq	%rax, %r15
	testq	%r15, %r15
	je	49f
	movq	%r15, %rax
	shrq	$57, %rax
	jne	68f
	movq	%r15, %rdi
	shlq	$6, %rdi
	movl	$8, %esi
	callq	rattle_alloc@PLT
	testb	$1, %al
	je	68f
	movq	%rdx, %r14
	movq	48(%rsp), %rcx
49:
	movq	%r14, 160(%rsp)
	movq	$0, 168(%rsp)
	movq	%r15, 176(%rsp)
	movq	32(%rsp), %rax
	movq	%rax, 184(%rsp)
	movdqa	208(%rsp), %xmm0
	movdqu	%xmm0, 192(%rsp)
	leaq	256(%rsp), %rdi
	leaq	160(%rsp), %rsi
	leaq	1136(%rsp), %r8
	movq	24(%rsp), %rdx
	callq	"mime_lookup::read_back::rules::with_rules"
	cmpb	$0, 256(%rsp)
	jne	70f
	movq	%rbx, 240(%rsp)
	movq	%rbp, 1120(%rsp)
	movq	288(%rsp), %rax
	movq	%rax, 32(%rsp)
	movq	304(%rsp), %rax
	movq	%rax, 232(%rsp)
	movups	296(%rsp), %xmm0
	movaps	%xmm0, 640(%rsp)
	movdqu	264(%rsp), %xmm0
	movdqa	%xmm0, 656(%rsp)
	movq	280(%rsp), %rax
	movq	%rax, 672(%rsp)
	pxor	%xmm0, %xmm0
	movdqa	%xmm0, 1344(%rsp)
	movdqu	%xmm0, 1359(%rsp)
	cmpq	$0, 64(%rsp)
	movq	16(%rsp), %r9
	je	82f
	xorl	%r14d, %r14d
	jmp	53f
50:
	xorl	%ecx, %ecx
51:
	addq	%r9, %r14
	movdqu	(%r14), %xmm0
	movdqa	%xmm0, 1328(%rsp)
	cmpq	%rbx, 336(%rsp)
	je	63f
52:
	movq	%rax, (%r13,%r15)
	movq	%rdx, 8(%r13,%r15)
	movdqa	1328(%rsp), %xmm0
	movdqu	%xmm0, 16(%r13,%r15)
	movq	$1, 32(%r13,%r15)
	movq	%r10, 40(%r13,%r15)
	movq	%rbp, 48(%r13,%r15)
	movl	%edi, 56(%r13,%r15)
	movzbl	128(%rsp), %eax
	movb	%al, 60(%r13,%r15)
	movzbl	120(%rsp), %eax
	movb	%al, 61(%r13,%r15)
	movb	%r11b, 62(%r13,%r15)
	movb	%cl, 63(%r13,%r15)
	incq	%rbx
	movq	%rbx, 328(%rsp)
	movq	336(%rsp), %rax
	leaq	439(%rsp), %rcx
	movq	%rax, 16(%rcx)
	movq	320(%rsp), %rax
	movq	%rax, (%rcx)
	movq	328(%rsp), %rax
	movq	%rax, 8(%rcx)
	movq	16(%rcx), %rax
	leaq	1351(%rsp), %rdx
	movq	%rax, 16(%rdx)
	movq	(%rcx), %rax
	movq	%rax, (%rdx)
	movq	8(%rcx), %rax
	movq	%rax, 8(%rdx)
	movq	(%rdx), %rax
	movq	%rax, 656(%rsp)
	movq	8(%rdx), %rax
	movq	%rax, 664(%rsp)
	movq	16(%rdx), %rax
	movq	%rax, 672(%rsp)
	movq	48(%rsp), %r14
	incq	%r14
	cmpq	64(%rsp), %r14
	je	82f
53:
	movq	%r14, 48(%rsp)
	shlq	$5, %r14
	movzbl	25(%r9,%r14), %ebx
	movq	(%r9,%r14), %rsi
	movq	8(%r9,%r14), %rdx
	leaq	1136(%rsp), %rdi
	callq	"mime_lookup::read_back::targets::target_of"
	movq	16(%rsp), %r9
	movq	16(%r9,%r14), %r10
	movzbl	24(%r9,%r14), %ebp
	movq	32(%rsp), %rcx
	addq	%r10, %rcx
	testq	%rbp, %rbp
	movabsq	$1688849862361089, %r8
	je	57f
	cmpb	$42, (%rcx)
	jne	56f
	cmpb	$9, %bpl
	jb	54f
	movq	1(%rcx), %xmm0
	movdqa	1b(%rip), %xmm1
	pcmpeqb	%xmm0, %xmm1
	movdqa	2b(%rip), %xmm2
	pcmpeqb	%xmm0, %xmm2
	por	%xmm1, %xmm2
	movdqa	3b(%rip), %xmm1
	pcmpeqb	%xmm0, %xmm1
	pcmpeqb	4b(%rip), %xmm0
	por	%xmm1, %xmm0
	por	%xmm2, %xmm0
	pmovmskb	%xmm0, %esi
	movb	$2, %r11b
	testb	%sil, %sil
	jne	60f
54:
	movl	$1, %esi
55:
	cmpq	%rsi, %rbp
	je	67f
	movzbl	(%rcx,%rsi), %edi
	incq	%rsi
	addl	$-42, %edi
	cmpl	$50, %edi
	ja	55b
	btq	%rdi, %r8
	jae	55b
	jmp	59f
56:
	cmpb	$8, %bpl
	jb	57f
	movq	(%rcx), %xmm0
	movdqa	1b(%rip), %xmm1
	pcmpeqb	%xmm0, %xmm1
	movdqa	2b(%rip), %xmm2
	pcmpeqb	%xmm0, %xmm2
	por	%xmm1, %xmm2
	movdqa	3b(%rip), %xmm1
	pcmpeqb	%xmm0, %xmm1
	pcmpeqb	4b(%rip), %xmm0
	por	%xmm1, %xmm0
	por	%xmm2, %xmm0
	pmovmskb	%xmm0, %esi
	movb	$2, %r11b
	testb	%sil, %sil
	jne	60f
57:
	xorl	%esi, %esi
58:
	cmpq	%rsi, %rbp
	je	62f
	movzbl	(%rcx,%rsi), %edi
	incq	%rsi
	addl	$-42, %edi
	cmpl	$50, %edi
	ja	58b
	btq	%rdi, %r8
	jae	58b
59:
	movb	$2, %r11b
60:
	movb	%bl, 128(%rsp)
	movzbl	%bl, %esi
	movzbl	26(%r9,%r14), %edi
	movb	%dil, 120(%rsp)
	movzbl	%dil, %edi
	movaps	656(%rsp), %xmm0
	movaps	%xmm0, 320(%rsp)
	movq	672(%rsp), %r8
	movq	%r8, 336(%rsp)
	movq	320(%rsp), %r13
	movq	328(%rsp), %rbx
	movl	%r11d, %r8d
	negb	%r8b
	movzbl	%r8b, %r8d
	shll	$25, %r8d
	shll	$17, %esi
	leal	(%rsi,%rbp,2), %esi
	orl	%edi, %esi
	leal	(%r8,%rsi), %edi
	addl	$67108864, %edi
	movq	%rbx, %r15
	shlq	$6, %r15
	testq	%rbx, %rbx
	je	50b
	cmpl	%edi, -8(%r13,%r15)
	jne	50b
	movzbl	120(%rsp), %esi
	cmpb	-3(%r13,%r15), %sil
	jne	50b
	movl	%edi, 88(%rsp)
	movq	-24(%r13,%r15), %r8
	movq	-16(%r13,%r15), %rsi
	cmpb	$0, -32(%r13,%r15)
	movq	32(%rsp), %rdi
	leaq	(%rdi,%r8), %rdi
	cmoveq	%r8, %rdi
	testq	%rsi, %rsi
	movq	%rdx, 208(%rsp)
	movq	%rax, 152(%rsp)
	movq	%r10, 104(%rsp)
	movl	%r11d, 96(%rsp)
	je	64f
	testl	%ebp, %ebp
	je	65f
	movzbl	-1(%rdi,%rsi), %eax
	cmpb	-1(%rcx,%rbp), %al
	jne	65f
61:
	movq	%rcx, %rdx
	movq	%rbp, %rcx
	callq	"mime_names::indexed_rules::is_equal"
	movl	%eax, %ecx
	jmp	66f
62:
	xorl	%r11d, %r11d
	jmp	60b
63:
	movl	%ecx, 248(%rsp)
	movl	%edi, 88(%rsp)
	movl	%r11d, 96(%rsp)
	movq	%r10, 104(%rsp)
	movq	%rdx, 208(%rsp)
	movq	%rax, %r14
	leaq	320(%rsp), %rdi
	callq	"std_alloc::vec::Vec::grow_amortized::<#75574408efed45b1>"
	testb	%al, %al
	je	105f
	movq	320(%rsp), %r13
	movq	328(%rsp), %rbx
	movq	%rbx, %r15
	shlq	$6, %r15
	movq	%r14, %rax
	movq	208(%rsp), %rdx
	movq	16(%rsp), %r9
	movq	104(%rsp), %r10
	movl	96(%rsp), %r11d
	movl	88(%rsp), %edi
	movl	248(%rsp), %ecx
	jmp	52b
64:
	testl	%ebp, %ebp
	je	61b
65:
	xorl	%ecx, %ecx
66:
	movq	152(%rsp), %rax
	movq	208(%rsp), %rdx
	movq	16(%rsp), %r9
	movq	104(%rsp), %r10
	movl	96(%rsp), %r11d
	movl	88(%rsp), %edi
	jmp	51b
67:
	movb	$1, %r11b
	jmp	60b
68:
	cmpq	$0, 128(%rsp)
	je	70f
	movq	32(%rsp), %rdi
69:
	callq	rattle_dealloc@PLT
70:
	cmpq	$0, 56(%rsp)
	je	71f
	movq	16(%rsp), %rdi
	callq	rattle_dealloc@PLT
71:
	cmpq	$0, 72(%rsp)
	je	72f
	movq	112(%rsp), %rdi
	callq	rattle_dealloc@PLT
72:
	cmpq	$0, 40(%rsp)
	je	73f
	movq	24(%rsp), %rdi
	callq	rattle_dealloc@PLT
73:
	cmpq	$0, 8(%rsp)
	je	75f
	movq	80(%rsp), %rdi
74:
	callq	rattle_dealloc@PLT
75:
	cmpq	$0, 1152(%rsp)
	je	76f
	movq	1136(%rsp), %rdi
	callq	rattle_dealloc@PLT
76:
	cmpq	$0, 1176(%rsp)
	je	77f
	movq	1160(%rsp), %rdi
	callq	rattle_dealloc@PLT
77:
	movq	1208(%rsp), %r15
	movq	1224(%rsp), %rbp
	movq	1232(%rsp), %r14
	movq	1248(%rsp), %r13
	movq	1256(%rsp), %rbx
	movq	1272(%rsp), %r12
	cmpq	$0, 1200(%rsp)
	je	78f
	movq	1184(%rsp), %rdi
	callq	rattle_dealloc@PLT
78:
	testq	%rbp, %rbp
	je	79f
	movq	%r15, %rdi
	callq	rattle_dealloc@PLT
79:
	testq	%r13, %r13
	je	80f
	movq	%r14, %rdi
	callq	rattle_dealloc@PLT
80:
	testq	%r12, %r12
	je	22b
	movq	%rbx, %rdi
81:
	callq	rattle_dealloc@PLT
	jmp	22b
82:
	movq	672(%rsp), %rax
	movq	%rax, 1319(%rsp)
	movaps	656(%rsp), %xmm0
	movups	%xmm0, 1303(%rsp)
	movaps	%xmm0, 352(%rsp)
	movq	%rax, 368(%rsp)
	movq	32(%rsp), %rax
	movq	%rax, 376(%rsp)
	movdqa	640(%rsp), %xmm0
	movdqa	%xmm0, 384(%rsp)
	leaq	688(%rsp), %rdi
	leaq	352(%rsp), %rsi
	leaq	1136(%rsp), %r8
	movq	112(%rsp), %rdx
	movq	240(%rsp), %rcx
	callq	"mime_lookup::read_back::rules::with_rules"
	cmpq	$0, 56(%rsp)
	je	83f
	movq	16(%rsp), %rdi
	callq	rattle_dealloc@PLT
83:
	cmpq	$0, 72(%rsp)
	je	84f
	movq	112(%rsp), %rdi
	callq	rattle_dealloc@PLT
84:
	cmpq	$0, 40(%rsp)
	je	85f
	movq	24(%rsp), %rdi
	callq	rattle_dealloc@PLT
85:
	cmpq	$0, 8(%rsp)
	je	86f
	movq	80(%rsp), %rdi
	callq	rattle_dealloc@PLT
86:
	cmpb	$0, 688(%rsp)
	jne	75b
	movq	696(%rsp), %rax
	movq	%rax, 48(%rsp)
	movq	704(%rsp), %rcx
	movq	712(%rsp), %rax
	movq	%rax, 120(%rsp)
	movq	720(%rsp), %rax
	movq	%rax, 24(%rsp)
	movq	728(%rsp), %rax
	movq	%rax, 80(%rsp)
	movq	736(%rsp), %rax
	movq	%rax, 40(%rsp)
	pxor	%xmm0, %xmm0
	movdqa	%xmm0, 160(%rsp)
	movdqa	%xmm0, 176(%rsp)
	movdqa	%xmm0, 192(%rsp)
	movdqa	%xmm0, 688(%rsp)
	movdqa	%xmm0, 704(%rsp)
	movdqa	%xmm0, 720(%rsp)
	movq	$0, 735(%rsp)
	movdqa	%xmm0, 352(%rsp)
	movq	$0, 368(%rsp)
	movdqa	%xmm0, 432(%rsp)
	movq	$0, 448(%rsp)
	movq	%rcx, 8(%rsp)
	testq	%rcx, %rcx
	je	107f
	movq	8(%rsp), %rax
	shrq	$60, %rax
	jne	124f
	movq	8(%rsp), %rax
	leaq	(,%rax,8), %rdi
	movl	$8, %esi
	callq	rattle_alloc@PLT
	testb	$1, %al
	je	124f
	movq	%rdx, %rbp
	movq	%rdx, 352(%rsp)
	movq	8(%rsp), %rax
	movq	%rax, 368(%rsp)
	xorl	%ecx, %ecx
87:
	movabsq	$-6148914691236517205, %rdx
	movq	8(%rsp), %rsi
	movq	%rsi, %rax
	mulq	%rdx
	movq	%rdx, %r13
	movq	$0, (%rbp,%rcx,8)
	incq	%rcx
	movq	%rcx, 360(%rsp)
	shlq	$5, %r13
	andq	$-64, %r13
	addq	$64, %r13
	movabsq	$864691128455135228, %rax
	cmpq	%rax, %rsi
	movq	$-1, %rdi
	cmovbeq	%r13, %rdi
	testq	%rdi, %rdi
	je	111f
	movq	%rdi, %rax
	shrq	$61, %rax
	jne	115f
	shlq	$2, %rdi
	movl	$4, %esi
	callq	rattle_alloc@PLT
	testb	$1, %al
	je	115f
	movq	%rdx, 432(%rsp)
	xorl	%eax, %eax
88:
	leaq	64(%rax), %rcx
	pxor	%xmm0, %xmm0
	movdqu	%xmm0, 240(%rdx,%rax,4)
	movdqu	%xmm0, 224(%rdx,%rax,4)
	movdqu	%xmm0, 208(%rdx,%rax,4)
	movdqu	%xmm0, 192(%rdx,%rax,4)
	movdqu	%xmm0, 176(%rdx,%rax,4)
	movdqu	%xmm0, 160(%rdx,%rax,4)
	movdqu	%xmm0, 144(%rdx,%rax,4)
	movdqu	%xmm0, 128(%rdx,%rax,4)
	movdqu	%xmm0, 112(%rdx,%rax,4)
	movdqu	%xmm0, 96(%rdx,%rax,4)
	movdqu	%xmm0, 80(%rdx,%rax,4)
	movdqu	%xmm0, 64(%rdx,%rax,4)
	movdqu	%xmm0, 48(%rdx,%rax,4)
	movdqu	%xmm0, 32(%rdx,%rax,4)
	movdqu	%xmm0, 16(%rdx,%rax,4)
	movdqu	%xmm0, (%rdx,%rax,4)
	movq	%rcx, 440(%rsp)
	movq	368(%rsp), %rax
	movq	%rax, 272(%rsp)
	movdqa	352(%rsp), %xmm0
	movq	432(%rsp), %rax
	movq	%rax, 280(%rsp)
	movq	440(%rsp), %rax
	movq	%rax, 288(%rsp)
	movq	%r13, 296(%rsp)
	movdqu	%xmm0, 695(%rsp)
	movdqa	272(%rsp), %xmm1
	movdqu	%xmm1, 711(%rsp)
	movdqa	288(%rsp), %xmm2
	movdqu	%xmm2, 727(%rsp)
	movdqa	%xmm0, 160(%rsp)
	movdqa	%xmm2, 192(%rsp)
	movdqa	%xmm1, 176(%rsp)
	movq	%rsp, %rax
	movq	%rax, 56(%rsp)
	cmpq	$0, 8(%rsp)
	je	109f
	movq	8(%rsp), %rax
	leaq	(,%rax,8), %rdi
	movl	$8, %esi
	callq	rattle_alloc@PLT
	movq	%rdx, 32(%rsp)
	testb	$1, %al
	je	121f
	movq	$0, 72(%rsp)
	movq	$0, 64(%rsp)
	jmp	91f
89:
	cmpq	$0, 480(%rsp)
	movq	%r13, %rsi
	movq	80(%rsp), %r15
	movq	8(%rsp), %r9
	je	19b
	movq	464(%rsp), %rdi
	jmp	18b
90:
	movq	32(%rsp), %rax
	movq	64(%rsp), %rcx
	movq	%rbx, (%rax,%rcx,8)
	incq	%rcx
	movq	%rcx, 64(%rsp)
	cmpq	8(%rsp), %rcx
	je	110f
91:
	movq	64(%rsp), %rdi
	shlq	$6, %rdi
	movq	48(%rsp), %r8
	movq	40(%r8,%rdi), %rax
	movq	48(%r8,%rdi), %rdx
	movq	24(%rsp), %rcx
	leaq	(%rcx,%rax), %rsi
	cmpb	$0, 32(%r8,%rdi)
	cmoveq	%rax, %rsi
	movq	%rdi, 208(%rsp)
	movzbl	62(%r8,%rdi), %eax
	cmpl	$2, %eax
	je	93f
	cmpl	$1, %eax
	jne	95f
	xorl	%edi, %edi
	movq	%rdx, %r8
	testq	%rdx, %rdx
	setne	%dil
	subq	%rdi, %r8
	leaq	(%rsi,%rdi), %rax
	movq	%rax, 16(%rsp)
	movq	160(%rsp), %rax
	movq	184(%rsp), %rcx
	leaq	(%rsi,%rdi), %rdx
	decq	%rdx
	leaq	1(%r8), %rdi
	xorl	%r9d, %r9d
	movq	%r8, 128(%rsp)
	movq	%r8, %rsi
92:
	movq	%r9, %r13
	movq	%rdi, %r14
	subq	$1, %rsi
	jb	100f
	movzbl	(%rdx,%r8), %edi
	leaq	.L2f9e9aa9650f(%rip), %r8
	movzbl	(%rdi,%r8), %edi
	addq	(%rax,%r13,8), %rdi
	movl	(%rcx,%rdi,4), %r9d
	leaq	-1(%r14), %rdi
	movq	%rsi, %r8
	testq	%r9, %r9
	jne	92b
	jmp	100f
93:
	movl	$256, %ebx
	testq	%rdx, %rdx
	je	104f
	movzbl	(%rsi), %eax
	leal	-42(%rax), %ecx
	cmpl	$50, %ecx
	ja	94f
	movabsq	$1688849862361089, %rdx
	btq	%rcx, %rdx
	jb	104f
94:
	leal	-65(%rax), %ecx
	leal	32(%rax), %edx
	cmpb	$26, %cl
	movzbl	%al, %eax
	movzbl	%dl, %ecx
	cmovael	%eax, %ecx
	movzbl	%cl, %ebx
	jmp	104f
95:
	leaq	160(%rsp), %rdi
	callq	"mime_names::tree::add_whole"
	testb	%al, %al
	jne	120f
	movq	%rdx, %rbx
	jmp	103f
96:
	movq	192(%rsp), %rsi
	movq	200(%rsp), %rdx
	movq	160(%rsp), %rax
	movq	184(%rsp), %rcx
97:
	leaq	64(%rsi), %rdi
	pxor	%xmm0, %xmm0
	movdqu	%xmm0, 240(%rcx,%rsi,4)
	movdqu	%xmm0, 224(%rcx,%rsi,4)
	movdqu	%xmm0, 208(%rcx,%rsi,4)
	movdqu	%xmm0, 192(%rcx,%rsi,4)
	movdqu	%xmm0, 176(%rcx,%rsi,4)
	movdqu	%xmm0, 160(%rcx,%rsi,4)
	movdqu	%xmm0, 144(%rcx,%rsi,4)
	movdqu	%xmm0, 128(%rcx,%rsi,4)
	movdqu	%xmm0, 112(%rcx,%rsi,4)
	movdqu	%xmm0, 96(%rcx,%rsi,4)
	movdqu	%xmm0, 80(%rcx,%rsi,4)
	movdqu	%xmm0, 64(%rcx,%rsi,4)
	movdqu	%xmm0, 48(%rcx,%rsi,4)
	movdqu	%xmm0, 32(%rcx,%rsi,4)
	movdqu	%xmm0, 16(%rcx,%rsi,4)
	movdqu	%xmm0, (%rcx,%rsi,4)
	movq	%rdi, 192(%rsp)
	movq	%rdx, 200(%rsp)
	movq	%r15, (%rax,%r13,8)
	movq	168(%rsp), %rdx
98:
	cmpq	%rdx, 176(%rsp)
	je	101f
99:
	movq	160(%rsp), %rax
	movq	$0, (%rax,%rdx,8)
	incq	%rdx
	movq	%rdx, 168(%rsp)
	addq	%rbp, %r15
	movq	184(%rsp), %rcx
	movl	%ebx, (%rcx,%r15,4)
	decq	%r14
	movq	%rbx, %r13
	cmpq	128(%rsp), %r14
	jb	103f
100:
	cmpq	$1, %r14
	je	102f
	movq	168(%rsp), %rbx
	movq	%rbx, %rdx
	shrq	$32, %rdx
	jne	120f
	movq	16(%rsp), %rdx
	movzbl	-2(%rdx,%r14), %edx
	leaq	.L2f9e9aa9650f(%rip), %rsi
	movzbl	(%rdx,%rsi), %ebp
	movq	(%rax,%r13,8), %r15
	movq	%rbx, %rdx
	testq	%r15, %r15
	jne	98b
	movq	192(%rsp), %r15
	movq	200(%rsp), %rdx
	movq	%rdx, %rdi
	subq	%r15, %rdi
	movq	%r15, %rsi
	cmpq	$63, %rdi
	ja	97b
	leaq	184(%rsp), %rdi
	callq	"std_alloc::vec::Vec::grow_amortized::<#9e03e38e8c3bbb30>"
	testb	%al, %al
	jne	96b
	jmp	120f
101:
	leaq	160(%rsp), %rdi
	callq	"std_alloc::vec::Vec::grow_amortized::<#5eba103c2f25e3e5>"
	testb	%al, %al
	je	120f
	movq	168(%rsp), %rdx
	jmp	99b
102:
	movq	%r13, %rbx
103:
	addq	$257, %rbx
104:
	movq	48(%rsp), %rax
	movq	208(%rsp), %rcx
	cmpb	$2, 62(%rax,%rcx)
	jne	90b
	movq	72(%rsp), %rax
	incq	%rax
	movq	$-1, %rcx
	cmovneq	%rax, %rcx
	movq	%rcx, 72(%rsp)
	jmp	90b
105:
	cmpq	$0, 232(%rsp)
	je	106f
	movq	32(%rsp), %rdi
	callq	rattle_dealloc@PLT
106:
	cmpq	$0, 336(%rsp)
	je	70b
	movq	320(%rsp), %rdi
	jmp	69b
107:
	movq	%rsp, %rax
	movq	%rax, 352(%rsp)
	movdqu	%xmm0, 360(%rsp)
	leaq	352(%rsp), %rdi
	callq	"std_alloc::vec::Vec::grow_amortized::<#5eba103c2f25e3e5>"
	testb	%al, %al
	je	108f
	movq	352(%rsp), %rbp
	movq	360(%rsp), %rcx
	jmp	87b
108:
	cmpq	$0, 368(%rsp)
	je	124f
	movq	352(%rsp), %rdi
	jmp	123f
109:
	movq	$0, 72(%rsp)
	movq	%rax, 32(%rsp)
110:
	movq	168(%rsp), %r14
	movq	%r14, %rbx
	addq	$257, %rbx
	je	113f
	movq	%rbx, %rax
	shrq	$60, %rax
	jne	112f
	leaq	(,%rbx,8), %r13
	movl	$8, %esi
	movq	%r13, %rdi
	callq	rattle_alloc@PLT
	testb	$1, %al
	je	112f
	movq	%rdx, %rbp
	cmpq	$1, %rbx
	jne	116f
	xorl	%eax, %eax
	jmp	117f
111:
	movq	%rsp, %rax
	movq	%rax, 432(%rsp)
	pxor	%xmm0, %xmm0
	movdqu	%xmm0, 440(%rsp)
	leaq	432(%rsp), %rdi
	callq	"std_alloc::vec::Vec::grow_amortized::<#9e03e38e8c3bbb30>"
	testb	%al, %al
	je	114f
	movq	432(%rsp), %rdx
	movq	440(%rsp), %rax
	movq	448(%rsp), %r13
	jmp	88b
112:
	cmpq	$0, 8(%rsp)
	jne	120f
	jmp	121f
113:
	movq	$0, 16(%rsp)
	movq	%rsp, %rbp
	jmp	118f
114:
	cmpq	$0, 448(%rsp)
	je	115f
	movq	432(%rsp), %rdi
	callq	rattle_dealloc@PLT
115:
	cmpq	$0, 368(%rsp)
	je	124f
	movq	%rbp, %rdi
	jmp	123f
116:
	addq	$-8, %r13
	movq	%rbp, %rdi
	xorl	%esi, %esi
	movq	%r13, %rdx
	callq	memset@PLT
	leaq	256(%r14), %rax
117:
	movq	$0, (%rbp,%rax,8)
	incq	%rax
	movq	%rax, 16(%rsp)
118:
	cmpq	$0, 8(%rsp)
	je	126f
	movq	8(%rsp), %rax
	shrq	$60, %rax
	jne	119f
	movq	8(%rsp), %rax
	leaq	(,%rax,8), %r13
	movl	$8, %esi
	movq	%r13, %rdi
	callq	rattle_alloc@PLT
	movq	%rdx, 56(%rsp)
	testb	$1, %al
	je	119f
	cmpq	$1, 8(%rsp)
	jne	127f
	movq	$0, 128(%rsp)
	jmp	128f
119:
	testq	%rbx, %rbx
	je	120f
	movq	%rbp, %rdi
	callq	rattle_dealloc@PLT
120:
	movq	32(%rsp), %rdi
	callq	rattle_dealloc@PLT
121:
	cmpq	$0, 176(%rsp)
	je	122f
	movq	160(%rsp), %rdi
	callq	rattle_dealloc@PLT
122:
	cmpq	$0, 200(%rsp)
	je	124f
	movq	184(%rsp), %rdi
123:
	callq	rattle_dealloc@PLT
124:
	cmpq	$0, 40(%rsp)
	je	125f
	movq	24(%rsp), %rdi
	callq	rattle_dealloc@PLT
125:
	cmpq	$0, 120(%rsp)
	je	75b
	movq	48(%rsp), %rdi
	jmp	74b
126:
	movq	$0, 128(%rsp)
	jmp	132f
127:
	addq	$-8, %r13
	movq	56(%rsp), %rdi
	xorl	%esi, %esi
	movq	%r13, %rdx
	callq	memset@PLT
	movq	8(%rsp), %rax
	decq	%rax
	movq	%rax, 128(%rsp)
128:
	movq	56(%rsp), %rax
	movq	128(%rsp), %rcx
	movq	$0, (%rax,%rcx,8)
	movq	8(%rsp), %rcx
	movq	%rcx, %rax
	testb	$1, %cl
	je	129f
	movq	8(%rsp), %rsi
	leaq	-1(%rsi), %rax
	movq	32(%rsp), %rcx
	movq	-8(%rcx,%rsi,8), %rcx
	movq	(%rbp,%rcx,8), %rdx
	movq	56(%rsp), %rdi
	movq	%rdx, -8(%rdi,%rsi,8)
	movq	%rsi, (%rbp,%rcx,8)
129:
	cmpq	$1, 8(%rsp)
	je	131f
130:
	movq	32(%rsp), %rdi
	movq	-8(%rdi,%rax,8), %rcx
	movq	(%rbp,%rcx,8), %rdx
	movq	56(%rsp), %rsi
	movq	%rdx, -8(%rsi,%rax,8)
	movq	%rax, (%rbp,%rcx,8)
	movq	-16(%rdi,%rax,8), %rcx
	movq	(%rbp,%rcx,8), %rdx
	movq	%rdx, -16(%rsi,%rax,8)
	leaq	-1(%rax), %rdx
	movq	%rdx, (%rbp,%rcx,8)
	addq	$-2, %rax
	jne	130b
131:
	incq	128(%rsp)
132:
	movq	160(%rsp), %r13
	movq	176(%rsp), %r15
	movq	184(%rsp), %rax
	movq	%rax, 408(%rsp)
	movq	200(%rsp), %rax
	movq	%rax, 152(%rsp)
	movq	1136(%rsp), %rax
	movq	%rax, 416(%rsp)
	movq	1152(%rsp), %rax
	movq	%rax, 88(%rsp)
	movq	1160(%rsp), %rax
	movq	%rax, 424(%rsp)
	movq	1176(%rsp), %rax
	movq	%rax, 96(%rsp)
	movq	1184(%rsp), %rax
	movq	%rax, 232(%rsp)
	movq	1200(%rsp), %rax
	movq	%rax, 104(%rsp)
	movq	1208(%rsp), %rax
	movq	%rax, 640(%rsp)
	movq	1224(%rsp), %rax
	movq	%rax, 112(%rsp)
	movq	1232(%rsp), %rax
	movq	%rax, 240(%rsp)
	movq	1248(%rsp), %rax
	movq	%rax, 208(%rsp)
	movq	8(%rsp), %rax
	shrq	%rax
	movq	1256(%rsp), %rcx
	movq	%rcx, 248(%rsp)
	movq	1272(%rsp), %rcx
	movq	%rcx, 64(%rsp)
	cmpq	72(%rsp), %rax
	jae	145f
	cmpq	$0, 120(%rsp)
	je	133f
	movq	48(%rsp), %rdi
	callq	rattle_dealloc@PLT
133:
	cmpq	$0, 40(%rsp)
	je	134f
	movq	24(%rsp), %rdi
	callq	rattle_dealloc@PLT
134:
	testq	%r15, %r15
	je	135f
	movq	%r13, %rdi
	callq	rattle_dealloc@PLT
135:
	cmpq	$0, 152(%rsp)
	je	136f
	movq	408(%rsp), %rdi
	callq	rattle_dealloc@PLT
136:
	cmpq	$0, 8(%rsp)
	je	137f
	movq	32(%rsp), %rdi
	callq	rattle_dealloc@PLT
137:
	testq	%rbx, %rbx
	je	138f
	movq	%rbp, %rdi
	callq	rattle_dealloc@PLT
138:
	cmpq	$0, 8(%rsp)
	je	139f
	movq	56(%rsp), %rdi
	callq	rattle_dealloc@PLT
139:
	cmpq	$0, 88(%rsp)
	je	140f
	movq	416(%rsp), %rdi
	callq	rattle_dealloc@PLT
140:
	cmpq	$0, 96(%rsp)
	je	141f
	movq	424(%rsp), %rdi
	callq	rattle_dealloc@PLT
141:
	cmpq	$0, 104(%rsp)
	je	142f
	movq	232(%rsp), %rdi
	callq	rattle_dealloc@PLT
142:
	cmpq	$0, 112(%rsp)
	je	143f
	movq	640(%rsp), %rdi
	callq	rattle_dealloc@PLT
143:
	cmpq	$0, 208(%rsp)
	je	144f
	movq	240(%rsp), %rdi
	callq	rattle_dealloc@PLT
144:
	cmpq	$0, 64(%rsp)
	je	22b
	movq	248(%rsp), %rdi
	jmp	81b
145:
	movq	192(%rsp), %rax
	movq	%rax, 1048(%rsp)
	movq	1144(%rsp), %rax
	movq	%rax, 1056(%rsp)
	movq	1168(%rsp), %rax
	movq	%rax, 1064(%rsp)
	movq	1192(%rsp), %rax
	movq	%rax, 1072(%rsp)
	movq	1216(%rsp), %rax
	movq	%rax, 1080(%rsp)
	movq	1240(%rsp), %rax
	movq	%rax, 1088(%rsp)
	movq	1264(%rsp), %rax
	movq	%rax, 1096(%rsp)
	movq	1280(%rsp), %rax
	movq	%rax, 1104(%rsp)
	movq	1288(%rsp), %rax
	movq	%rax, 1112(%rsp)
	movl	$352, %edi
	movl	$8, %esi
	callq	rattle_alloc@PLT
	testb	$1, %al
	je	146f
	movq	1128(%rsp), %rax
	movq	%rax, (%rdx)
	movq	1120(%rsp), %rax
	movq	%rax, 8(%rdx)
	movq	48(%rsp), %rax
	movq	%rax, 16(%rdx)
	movq	8(%rsp), %rcx
	movq	%rcx, 24(%rdx)
	movq	120(%rsp), %rax
	movq	%rax, 32(%rdx)
	movq	24(%rsp), %rax
	movq	%rax, 40(%rdx)
	movq	80(%rsp), %rax
	movq	%rax, 48(%rdx)
	movq	40(%rsp), %rax
	movq	%rax, 56(%rdx)
	movq	%r13, 64(%rdx)
	movq	%r14, 72(%rdx)
	movq	%r15, 80(%rdx)
	movq	408(%rsp), %rax
	movq	%rax, 88(%rdx)
	movq	1048(%rsp), %rax
	movq	%rax, 96(%rdx)
	movq	152(%rsp), %rax
	movq	%rax, 104(%rdx)
	movq	32(%rsp), %rax
	movq	%rax, 112(%rdx)
	movq	%rcx, 120(%rdx)
	movq	%rcx, 128(%rdx)
	movq	%rbp, 136(%rdx)
	movq	16(%rsp), %rax
	movq	%rax, 144(%rdx)
	movq	%rbx, 152(%rdx)
	movq	56(%rsp), %rax
	movq	%rax, 160(%rdx)
	movq	128(%rsp), %rax
	movq	%rax, 168(%rdx)
	movq	%rcx, 176(%rdx)
	movq	72(%rsp), %rax
	movq	%rax, 184(%rdx)
	movq	416(%rsp), %rax
	movq	%rax, 192(%rdx)
	movq	1056(%rsp), %rax
	movq	%rax, 200(%rdx)
	movq	88(%rsp), %rax
	movq	%rax, 208(%rdx)
	movq	424(%rsp), %rax
	movq	%rax, 216(%rdx)
	movq	1064(%rsp), %rax
	movq	%rax, 224(%rdx)
	movq	96(%rsp), %rax
	movq	%rax, 232(%rdx)
	movq	232(%rsp), %rax
	movq	%rax, 240(%rdx)
	movq	1072(%rsp), %rax
	movq	%rax, 248(%rdx)
	movq	104(%rsp), %rax
	movq	%rax, 256(%rdx)
	movq	640(%rsp), %rax
	movq	%rax, 264(%rdx)
	movq	1080(%rsp), %rax
	movq	%rax, 272(%rdx)
	movq	112(%rsp), %rax
	movq	%rax, 280(%rdx)
	movq	240(%rsp), %rax
	movq	%rax, 288(%rdx)
	movq	1088(%rsp), %rax
	movq	%rax, 296(%rdx)
	movq	208(%rsp), %rax
	movq	%rax, 304(%rdx)
	movq	248(%rsp), %rax
	movq	%rax, 312(%rdx)
	movq	1096(%rsp), %rax
	movq	%rax, 320(%rdx)
	movq	64(%rsp), %rax
	movq	%rax, 328(%rdx)
	movq	1104(%rsp), %rax
	movq	%rax, 336(%rdx)
	movq	1112(%rsp), %rax
	movq	%rax, 344(%rdx)
	movzbl	72(%r12), %eax
	movq	80(%r12), %rdi
	movq	$1, 72(%r12)
	movq	%rdx, 80(%r12)
	cmpb	$1, %al
	jne	22b
	callq	"std_alloc::boxed::Box::drop::<#11c05536263c65f8>"
	jmp	22b
146:
	movq	1128(%rsp), %rax
	movq	%rax, 688(%rsp)
	movq	1120(%rsp), %rax
	movq	%rax, 696(%rsp)
	movq	48(%rsp), %rax
	movq	%rax, 704(%rsp)
	movq	8(%rsp), %rcx
	movq	%rcx, 712(%rsp)
	movq	120(%rsp), %rax
	movq	%rax, 720(%rsp)
	movq	24(%rsp), %rax
	movq	%rax, 728(%rsp)
	movq	80(%rsp), %rax
	movq	%rax, 736(%rsp)
	movq	40(%rsp), %rax
	movq	%rax, 744(%rsp)
	movq	%r13, 752(%rsp)
	movq	%r14, 760(%rsp)
	movq	%r15, 768(%rsp)
	movq	408(%rsp), %rax
	movq	%rax, 776(%rsp)
	movq	1048(%rsp), %rax
	movq	%rax, 784(%rsp)
	movq	152(%rsp), %rax
	movq	%rax, 792(%rsp)
	movq	32(%rsp), %rax
	movq	%rax, 800(%rsp)
	movq	%rcx, 808(%rsp)
	movq	%rcx, 816(%rsp)
	movq	%rbp, 824(%rsp)
	movq	16(%rsp), %rax
	movq	%rax, 832(%rsp)
	movq	%rbx, 840(%rsp)
	movq	56(%rsp), %rax
	movq	%rax, 848(%rsp)
	movq	128(%rsp), %rax
	movq	%rax, 856(%rsp)
	movq	%rcx, 864(%rsp)
	movq	72(%rsp), %rax
	movq	%rax, 872(%rsp)
	movq	416(%rsp), %rax
	movq	%rax, 880(%rsp)
	movq	1056(%rsp), %rax
	movq	%rax, 888(%rsp)
	movq	88(%rsp), %rax
	movq	%rax, 896(%rsp)
	movq	424(%rsp), %rax
	movq	%rax, 904(%rsp)
	movq	1064(%rsp), %rax
	movq	%rax, 912(%rsp)
	movq	96(%rsp), %rax
	movq	%rax, 920(%rsp)
	movq	232(%rsp), %rax
	movq	%rax, 928(%rsp)
	movq	1072(%rsp), %rax
	movq	%rax, 936(%rsp)
	movq	104(%rsp), %rax
	movq	%rax, 944(%rsp)
	movq	640(%rsp), %rax
	movq	%rax, 952(%rsp)
	movq	1080(%rsp), %rax
	movq	%rax, 960(%rsp)
	movq	112(%rsp), %rax
	movq	%rax, 968(%rsp)
	movq	240(%rsp), %rax
	movq	%rax, 976(%rsp)
	movq	1088(%rsp), %rax
	movq	%rax, 984(%rsp)
	movq	208(%rsp), %rax
	movq	%rax, 992(%rsp)
	movq	248(%rsp), %rax
	movq	%rax, 1000(%rsp)
	movq	1096(%rsp), %rax
	movq	%rax, 1008(%rsp)
	movq	64(%rsp), %rax
	movq	%rax, 1016(%rsp)
	movq	1104(%rsp), %rax
	movq	%rax, 1024(%rsp)
	movq	1112(%rsp), %rax
	movq	%rax, 1032(%rsp)
	leaq	688(%rsp), %rdi
	callq	"mime_lookup::mime_lookup++read_back++names++IndexedNames+Destruct::drop"
	jmp	22b
147:
	.size	"mime_lookup::cached::paid_cache::PaidCache::read_names", 147b-"mime_lookup::cached::paid_cache::PaidCache::read_names"

	.text
	.p2align	4
	.type	"mime_lookup::cached::paid_cache::PaidCache::read_pairs",@function
"mime_lookup::cached::paid_cache::PaidCache::read_pairs":
	pushq	%rbp
	pushq	%r15
	pushq	%r14
	pushq	%r13
	pushq	%r12
	pushq	%rbx
	subq	$1384, %rsp
	movq	%rsi, %r15
	pxor	%xmm0, %xmm0
	movdqa	%xmm0, 1216(%rsp)
	movdqa	%xmm0, 1232(%rsp)
	movdqa	%xmm0, 1248(%rsp)
	movdqa	%xmm0, 1264(%rsp)
	movdqa	%xmm0, 1280(%rsp)
	movdqa	%xmm0, 1296(%rsp)
	movdqa	%xmm0, 1312(%rsp)
	movdqa	%xmm0, 1328(%rsp)
	movdqa	%xmm0, 1344(%rsp)
	movdqa	%xmm0, 1360(%rsp)
	movdqa	%xmm0, 1056(%rsp)
	movdqa	%xmm0, 1072(%rsp)
	movdqa	%xmm0, 1088(%rsp)
	movdqa	%xmm0, 1104(%rsp)
	movdqa	%xmm0, 1120(%rsp)
	movdqa	%xmm0, 1136(%rsp)
	movdqa	%xmm0, 1152(%rsp)
	movdqa	%xmm0, 1168(%rsp)
	movdqa	%xmm0, 1184(%rsp)
	movdqa	%xmm0, 1200(%rsp)
	movq	%rdi, 880(%rsp)
	movq	8(%rdi), %rax
	movq	(%rsi), %rcx
	movq	8(%rsi), %rdx
	movq	%rdx, 552(%rsp)
	movq	%rax, 560(%rsp)
	movq	%rax, 568(%rsp)
	incq	%rcx
	movq	$-1, %rdx
	cmovneq	%rcx, %rdx
	movq	%rdx, 544(%rsp)
	cmpq	$40, %rax
	jb	32f
	cmpq	$268435456, %rax
	ja	32f
	movq	(%rdi), %rax
	cmpl	$33554688, (%rax)
	jne	32f
	movl	8(%rax), %ecx
	movl	4(%rax), %r14d
	shlq	$32, %r14
	orq	%rcx, %r14
	bswapq	%r14
	movdqa	%xmm0, 144(%rsp)
	movdqa	%xmm0, 128(%rsp)
	movl	%r14d, %edx
	leaq	128(%rsp), %rax
	leaq	880(%rsp), %rsi
	leaq	544(%rsp), %rcx
	movq	%rdi, 24(%rsp)
	movq	%rax, %rdi
	callq	"mime_load::pairs::pairs_at"
	movq	24(%rsp), %rcx
	cmpb	$0, 128(%rsp)
	jne	32f
	movq	136(%rsp), %r12
	movq	144(%rsp), %rdx
	movq	152(%rsp), %rbx
	shrq	$32, %r14
	movq	544(%rsp), %rsi
	incq	%rsi
	movq	$-1, %rax
	cmovneq	%rsi, %rax
	movq	%rax, 544(%rsp)
	movq	8(%rcx), %r8
	movq	%r8, %rsi
	subq	%r14, %rsi
	setb	%dil
	cmpq	$4, %rsi
	setb	%sil
	orb	%dil, %sil
	jne	31f
	movq	(%rcx), %rsi
	movl	(%rsi,%r14), %esi
	movl	%esi, %r9d
	bswapl	%r9d
	leaq	(%r14,%r9,8), %rdi
	addq	$4, %rdi
	cmpq	%rdi, %r8
	jb	31f
	movq	%r9, 80(%rsp)
	leaq	8(%rsp), %r13
	movq	%r13, 128(%rsp)
	pxor	%xmm0, %xmm0
	movdqu	%xmm0, 136(%rsp)
	testl	%esi, %esi
	je	14f
	movq	%rdx, 104(%rsp)
	movq	%rbx, 32(%rsp)
	movq	%r12, 40(%rsp)
	addq	$4, %r14
	leaq	.L22d5119de29e(%rip), %rbp
	leaq	8(%rsp), %rax
	movq	%rax, 72(%rsp)
	xorl	%edi, %edi
	xorl	%r12d, %r12d
	xorl	%r8d, %r8d
	movq	%r14, 112(%rsp)
1:
	movq	%r8, 120(%rsp)
	movq	%rbp, 88(%rsp)
	movq	%r12, 96(%rsp)
	leaq	(%r14,%r12,8), %rax
	movq	544(%rsp), %r13
	movq	%r13, %rdx
	incq	%rdx
	movq	$-1, %rsi
	cmovneq	%rdx, %rsi
	movq	%rsi, 544(%rsp)
	movq	8(%rcx), %r9
	movq	%r9, %rdx
	subq	%rax, %rdx
	jb	29f
	cmpq	$8, %rdx
	jb	29f
	movq	(%rcx), %r12
	movl	(%r12,%rax), %r14d
	movl	4(%r12,%rax), %eax
	shlq	$32, %r14
	orq	%rax, %r14
	bswapq	%r14
	movl	%r14d, %ebp
	movq	%r9, %rax
	subq	%rbp, %rax
	jbe	29f
	addq	%r12, %rbp
	cmpq	$32, %rax
	jae	3f
2:
	movq	%r9, 56(%rsp)
	movq	%rdi, 16(%rsp)
	cmpq	$256, %rax
	movl	$256, %ebx
	cmovbq	%rax, %rbx
	xorl	%edi, %edi
	movq	%rbp, %rsi
	movq	%rbx, %rdx
	callq	"memchr::bytes::memchr"
	cmpb	$1, %al
	jne	37f
	movq	%rdx, %r8
	movq	%rdx, %rcx
	incq	%rcx
	addq	552(%rsp), %rcx
	movq	$-1, %rax
	cmovaeq	%rcx, %rax
	movq	24(%rsp), %rcx
	movq	16(%rsp), %rdi
	movq	56(%rsp), %r9
	jmp	5f
3:
	movdqu	(%rbp), %xmm1
	pxor	%xmm0, %xmm0
	pcmpeqb	%xmm0, %xmm1
	pmovmskb	%xmm1, %esi
	movl	$64, %edx
	movl	$64, %r8d
	rep		bsfq	%rsi, %r8
	cmpq	$16, %r8
	jb	4f
	movdqu	16(%rbp), %xmm1
	pcmpeqb	%xmm0, %xmm1
	pmovmskb	%xmm1, %esi
	rep		bsfq	%rsi, %rdx
	cmpq	$15, %rdx
	ja	2b
	orq	$16, %rdx
	movq	%rdx, %r8
4:
	leaq	1(%r8), %rdx
	addq	552(%rsp), %rdx
	movq	$-1, %rax
	cmovaeq	%rdx, %rax
5:
	shrq	$32, %r14
	addq	$2, %r13
	movq	$-1, %rdx
	cmovaeq	%r13, %rdx
	movq	%rax, 552(%rsp)
	movq	%rdx, 544(%rsp)
	movq	%r9, %rax
	subq	%r14, %rax
	jb	29f
	cmpq	$4, %rax
	jb	29f
	movl	(%r12,%r14), %r12d
	testl	%r12d, %r12d
	je	29f
	bswapl	%r12d
	leaq	(%r14,%r12,4), %rax
	addq	$4, %rax
	cmpq	%rax, %r9
	jb	29f
	leaq	(,%r12,4), %rdx
	movq	560(%rsp), %rax
	subq	%rdx, %rax
	jb	29f
	leaq	4(%r14), %r13
	movq	%rax, 560(%rsp)
	cmpl	$1, %r12d
	adcl	$0, %r12d
	movq	$-4, %r9
	subq	%r14, %r9
	movq	%r8, 48(%rsp)
6:
	movq	544(%rsp), %rax
	incq	%rax
	movq	$-1, %rdx
	cmovneq	%rax, %rdx
	movq	%rdx, 544(%rsp)
	movq	8(%rcx), %rax
	cmpq	%r13, %rax
	jb	29f
	leaq	(%r9,%rax), %rdx
	cmpq	$4, %rdx
	jb	29f
	movq	(%rcx), %r14
	movl	(%r14,%r13), %edx
	bswapl	%edx
	subq	%rdx, %rax
	jbe	29f
	addq	%rdx, %r14
	cmpq	$32, %rax
	jae	8f
7:
	movq	%r9, 16(%rsp)
	movq	%r13, 64(%rsp)
	movq	%r12, 56(%rsp)
	movq	%rbp, %r13
	movq	%rdi, %rbp
	cmpq	$256, %rax
	movl	$256, %r12d
	cmovbq	%rax, %r12
	xorl	%edi, %edi
	movq	%r14, %rsi
	movq	%r12, %rdx
	callq	"memchr::bytes::memchr"
	cmpb	$1, %al
	jne	28f
	movq	%rdx, %rbx
	movq	%rdx, %rcx
	incq	%rcx
	addq	552(%rsp), %rcx
	movq	$-1, %rax
	cmovaeq	%rcx, %rax
	movq	24(%rsp), %rcx
	movq	%rbp, %rdi
	movq	%r13, %rbp
	movq	48(%rsp), %r8
	movq	56(%rsp), %r12
	movq	64(%rsp), %r13
	movq	16(%rsp), %r9
	movq	%rax, 552(%rsp)
	cmpq	%rdi, 144(%rsp)
	jne	10f
	jmp	11f
8:
	movdqu	(%r14), %xmm1
	pxor	%xmm0, %xmm0
	pcmpeqb	%xmm0, %xmm1
	pmovmskb	%xmm1, %esi
	movl	$64, %edx
	movl	$64, %ebx
	rep		bsfq	%rsi, %rbx
	cmpq	$16, %rbx
	jb	9f
	movdqu	16(%r14), %xmm1
	pcmpeqb	%xmm0, %xmm1
	pmovmskb	%xmm1, %esi
	rep		bsfq	%rsi, %rdx
	cmpq	$15, %rdx
	ja	7b
	orq	$16, %rdx
	movq	%rdx, %rbx
9:
	leaq	1(%rbx), %rdx
	addq	552(%rsp), %rdx
	movq	$-1, %rax
	cmovaeq	%rdx, %rax
	movq	%rax, 552(%rsp)
	cmpq	%rdi, 144(%rsp)
	je	11f
10:
	movq	%rdi, %rax
	shlq	$5, %rax
	movq	72(%rsp), %rdx
	movq	%rbp, (%rdx,%rax)
	movq	%r8, 8(%rdx,%rax)
	movq	%r14, 16(%rdx,%rax)
	movq	%rbx, 24(%rdx,%rax)
	incq	%rdi
	movq	%rdi, 136(%rsp)
	addq	$4, %r13
	addq	$-4, %r9
	decq	%r12
	jne	6b
	jmp	12f
11:
	leaq	128(%rsp), %rdi
	movq	%r9, 16(%rsp)
	callq	"std_alloc::vec::Vec::grow_amortized::<#dd15b8e9b635a37b>"
	movq	16(%rsp), %r9
	movq	48(%rsp), %r8
	movq	24(%rsp), %rcx
	testb	%al, %al
	je	29f
	movq	128(%rsp), %rax
	movq	%rax, 72(%rsp)
	movq	136(%rsp), %rdi
	jmp	10b
12:
	movq	96(%rsp), %r12
	testq	%r12, %r12
	je	13f
	movq	%rdi, %rbx
	movq	88(%rsp), %rdi
	movq	120(%rsp), %rsi
	movq	%rbp, %rdx
	movq	%r8, %rcx
	callq	"core::cmp::slices::RefSliceOrd::cmp::<#914af4d8504a0b72>"
	movq	48(%rsp), %r8
	movq	%rbx, %rdi
	movq	24(%rsp), %rcx
	testb	%al, %al
	jne	29f
13:
	incq	%r12
	cmpq	80(%rsp), %r12
	movq	112(%rsp), %r14
	jne	1b
	movq	%rdi, 16(%rsp)
	movq	128(%rsp), %r13
	cmpq	$0, 144(%rsp)
	sete	%bpl
	movq	544(%rsp), %rax
	movq	40(%rsp), %r12
	movq	32(%rsp), %rbx
	movq	104(%rsp), %rdx
	jmp	15f
14:
	movb	$1, %bpl
	movq	$0, 16(%rsp)
15:
	movq	552(%rsp), %rsi
	movq	%rax, (%r15)
	movq	%rsi, 8(%r15)
	movq	(%rcx), %r14
	movq	8(%rcx), %r15
	movl	$0, 544(%rsp)
	movl	$0, 547(%rsp)
	pxor	%xmm0, %xmm0
	movdqa	%xmm0, 880(%rsp)
	movdqa	%xmm0, 896(%rsp)
	movdqa	%xmm0, 912(%rsp)
	movdqa	%xmm0, 928(%rsp)
	movdqa	%xmm0, 944(%rsp)
	movdqa	%xmm0, 960(%rsp)
	movdqa	%xmm0, 976(%rsp)
	movdqa	%xmm0, 992(%rsp)
	movdqa	%xmm0, 1008(%rsp)
	movdqa	%xmm0, 1024(%rsp)
	movq	$0, 1039(%rsp)
	movdqa	%xmm0, 272(%rsp)
	movdqa	%xmm0, 256(%rsp)
	movdqa	%xmm0, 240(%rsp)
	movdqa	%xmm0, 224(%rsp)
	movdqa	%xmm0, 208(%rsp)
	movdqa	%xmm0, 192(%rsp)
	movdqa	%xmm0, 176(%rsp)
	movdqa	%xmm0, 160(%rsp)
	movdqa	%xmm0, 144(%rsp)
	movdqa	%xmm0, 128(%rsp)
	movq	$0, 288(%rsp)
	leaq	128(%rsp), %rdi
	movq	%r12, %rsi
	callq	"mime_lookup::read_back::targets::targets_by_name"
	cmpb	$0, 128(%rsp)
	jne	53f
	movq	%rbx, 32(%rsp)
	leaq	136(%rsp), %rsi
	leaq	551(%rsp), %rbx
	movl	$160, %edx
	movq	%rbx, %rdi
	callq	memcpy@PLT
	leaq	720(%rsp), %rdi
	movl	$160, %edx
	movq	%rbx, %rsi
	callq	memcpy@PLT
	movl	$32768, %edi
	movl	$2, %esi
	callq	rattle_alloc@PLT
	testb	$1, %al
	movq	%r12, 40(%rsp)
	movq	%r13, 64(%rsp)
	je	47f
	movq	%rdx, %rbx
	movq	%r14, 72(%rsp)
	movl	$32768, %edx
	movq	%rbx, %rdi
	movl	$255, %esi
	callq	memset@PLT
	leaq	8(%rsp), %r14
	movq	%r14, %rdx
	movq	16(%rsp), %rcx
	testq	%rcx, %rcx
	je	16f
	movabsq	$192153584101141162, %rax
	cmpq	%rax, %rcx
	ja	46f
	movq	%rcx, %rax
	shlq	$4, %rax
	leaq	(%rax,%rax,2), %rdi
	movl	$8, %esi
	callq	rattle_alloc@PLT
	movq	16(%rsp), %rcx
	testb	$1, %al
	je	46f
16:
	movq	%r15, 80(%rsp)
	movb	%bpl, 48(%rsp)
	movq	%rbx, 128(%rsp)
	movq	$16384, 136(%rsp)
	movq	$16384, 144(%rsp)
	movq	%rdx, 152(%rsp)
	movq	$0, 160(%rsp)
	movq	%rcx, 168(%rsp)
	movq	%r14, 176(%rsp)
	pxor	%xmm0, %xmm0
	movdqu	%xmm0, 184(%rsp)
	movq	%r14, 200(%rsp)
	movdqu	%xmm0, 208(%rsp)
	movq	%r14, 224(%rsp)
	movdqu	%xmm0, 232(%rsp)
	movq	%r14, 248(%rsp)
	movdqu	%xmm0, 256(%rsp)
	movq	$0, 272(%rsp)
	movabsq	$2611923443488327891, %rax
	movq	%rax, 280(%rsp)
	testq	%rcx, %rcx
	je	34f
	movq	16(%rsp), %rcx
	movq	%rcx, %rax
	shlq	$5, %rax
	movq	64(%rsp), %rdx
	leaq	(%rax,%rdx), %r13
	addq	$-32, %r13
	movq	%rcx, %rax
	jmp	18f
17:
	movb	$1, 40(%rbx)
	leaq	480(%rsp), %rdi
	leaq	520(%rsp), %r8
	leaq	176(%rsp), %rsi
	callq	"mime_lookup::name_map::put_other::<#afcbbff7ae072e5e>"
	cmpb	$0, 480(%rsp)
	movq	56(%rsp), %rax
	jne	40f
	decq	%rax
	addq	$-32, %r13
	testq	%rax, %rax
	je	34f
18:
	movq	%rax, 56(%rsp)
	movq	(%r13), %rbx
	movq	8(%r13), %r12
	movq	16(%r13), %rsi
	movq	24(%r13), %rdx
	leaq	720(%rsp), %rdi
	callq	"mime_lookup::read_back::targets::target_of"
	movq	%rax, %r14
	movq	%rdx, %rbp
	pxor	%xmm0, %xmm0
	movdqa	%xmm0, 480(%rsp)
	movq	$0, 496(%rsp)
	leaq	480(%rsp), %rdi
	leaq	128(%rsp), %rsi
	movq	%rbx, %rdx
	movq	%r12, %rcx
	callq	"mime_lookup::read_back::steps::step_of"
	movq	%r14, %r8
	xorl	%r14d, %r14d
	xorl	%r12d, %r12d
	cmpb	$0, 480(%rsp)
	cmovneq	%r14, %r8
	cmovneq	%r14, %rbp
	setne	%r12b
	incq	%r12
	movq	(%r13), %rdx
	movq	8(%r13), %rcx
	movq	%r12, 520(%rsp)
	movq	%r8, 528(%rsp)
	movq	%rbp, 536(%rsp)
	pxor	%xmm0, %xmm0
	movdqa	%xmm0, 480(%rsp)
	movdqa	%xmm0, 496(%rsp)
	movq	$0, 512(%rsp)
	cmpq	$8, %rcx
	jb	19f
	movq	%rcx, %rax
	shrq	%rax
	movq	-4(%rdx,%rax), %rax
	leaq	(%rax,%rax,2), %rax
	addq	-8(%rdx,%rcx), %rax
	movabsq	$-4658895280553007687, %r14
	imulq	%rax, %r14
	shrq	$49, %r14
	andl	$-2, %r14d
19:
	movq	128(%rsp), %rax
	movq	152(%rsp), %rbx
	movzwl	(%rax,%r14), %esi
	movq	160(%rsp), %r15
	cmpq	%rsi, %r15
	jbe	20f
	leaq	(%rsi,%rsi,2), %rax
	shll	$4, %eax
	addq	%rax, %rbx
	cmpq	%rcx, 8(%rbx)
	jne	17b
	movq	(%rbx), %rdi
	cmpq	$4, %rcx
	jae	22f
	testq	%rcx, %rcx
	je	25f
	movzbl	(%rdi), %eax
	cmpb	(%rdx), %al
	jne	23f
	cmpq	$1, %rcx
	je	25f
	movzbl	1(%rdi), %esi
	movl	$1, %eax
	cmpb	1(%rdx), %sil
	jne	24f
	cmpq	$2, %rcx
	je	25f
	movzbl	2(%rdi), %esi
	movl	$2, %eax
	cmpb	2(%rdx), %sil
	jne	24f
	jmp	25f
20:
	cmpq	$65534, %r15
	ja	40f
	movq	%r15, %rsi
	cmpq	%r15, 168(%rsp)
	je	27f
21:
	leaq	(%rsi,%rsi,2), %rdi
	shlq	$4, %rdi
	movq	%rdx, (%rbx,%rdi)
	movq	%rcx, 8(%rbx,%rdi)
	movq	%r12, 16(%rbx,%rdi)
	movq	%r8, 24(%rbx,%rdi)
	movq	%rbp, 32(%rbx,%rdi)
	movb	$0, 40(%rbx,%rdi)
	incq	%rsi
	movq	%rsi, 160(%rsp)
	movw	%r15w, (%rax,%r14)
	jmp	26f
22:
	movl	(%rdi), %eax
	cmpl	(%rdx), %eax
	jne	17b
	movq	%rcx, %rsi
	movq	%rdx, %r15
	movq	%rcx, %r14
	callq	"core::cmp::slices::groups_equal::<i8,31'core::cmp::numbers::U8PartialEq{}>"
	movq	%r15, %rdx
	movq	%r14, %rcx
	testb	%al, %al
	je	17b
	jmp	25f
23:
	xorl	%eax, %eax
24:
	cmpq	%rcx, %rax
	jb	17b
25:
	movq	%r12, 16(%rbx)
	addq	$24, %rbx
	leaq	528(%rsp), %rax
	movdqu	(%rax), %xmm0
	movdqu	%xmm0, (%rbx)
26:
	movq	56(%rsp), %rax
	decq	%rax
	addq	$-32, %r13
	testq	%rax, %rax
	jne	18b
	jmp	34f
27:
	leaq	152(%rsp), %rdi
	movq	%rcx, 96(%rsp)
	movq	%rdx, %rbx
	movq	%r8, 88(%rsp)
	callq	"std_alloc::vec::Vec::grow_amortized::<#21175eaa316d23c7>"
	movq	88(%rsp), %r8
	movq	96(%rsp), %rcx
	testb	%al, %al
	je	40f
	movq	%rbx, %rdx
	movq	160(%rsp), %rsi
	movq	128(%rsp), %rax
	movq	152(%rsp), %rbx
	jmp	21b
28:
	addq	552(%rsp), %r12
	movq	$-1, %rax
	cmovaeq	%r12, %rax
	movq	%rax, 552(%rsp)
29:
	cmpq	$0, 144(%rsp)
	movq	40(%rsp), %r12
	movq	32(%rsp), %rbx
	je	31f
30:
	movq	128(%rsp), %rdi
	callq	rattle_dealloc@PLT
31:
	testq	%rbx, %rbx
	je	32f
	movq	%r12, %rdi
	callq	rattle_dealloc@PLT
32:
	movq	544(%rsp), %rax
	movq	%rax, (%r15)
	movq	552(%rsp), %rax
	movq	%rax, 8(%r15)
33:
	addq	$1384, %rsp
	popq	%rbx
	popq	%r12
	popq	%r13
	popq	%r14
	popq	%r15
	popq	%rbp
	retq
34:
	leaq	887(%rsp), %rbx
	leaq	128(%rsp), %rsi
	movl	$160, %edx
	movq	%rbx, %rdi
	callq	memcpy@PLT
	leaq	1216(%rsp), %rdi
	movl	$160, %edx
	leaq	551(%rsp), %rsi
	callq	memcpy@PLT
	leaq	1056(%rsp), %rdi
	movl	$160, %edx
	movq	%rbx, %rsi
	callq	memcpy@PLT
	movl	$344, %edi
	movl	$8, %esi
	callq	rattle_alloc@PLT
	testb	$1, %al
	je	38f
	movq	%rdx, %r14
	movq	72(%rsp), %rax
	movq	%rax, (%rdx)
	movq	80(%rsp), %rax
	movq	%rax, 8(%rdx)
	leaq	16(%rdx), %rdi
	leaq	1216(%rsp), %rsi
	movq	%rdx, %rbx
	movl	$160, %edx
	callq	memcpy@PLT
	addq	$176, %rbx
	leaq	1056(%rsp), %rsi
	movl	$160, %edx
	movq	%rbx, %rdi
	callq	memcpy@PLT
	movq	16(%rsp), %rax
	movq	%rax, 336(%r14)
	movq	24(%rsp), %rax
	movzbl	104(%rax), %ecx
	movq	112(%rax), %rbx
	movq	$1, 104(%rax)
	movq	%r14, 112(%rax)
	cmpb	$1, %cl
	movq	40(%rsp), %r14
	movq	64(%rsp), %r12
	movzbl	48(%rsp), %ebp
	jne	35f
	leaq	128(%rsp), %r15
	movl	$344, %edx
	movq	%r15, %rdi
	movq	%rbx, %rsi
	callq	memcpy@PLT
	movq	%rbx, %rdi
	callq	rattle_dealloc@PLT
	movq	%r15, %rdi
	callq	"mime_lookup::mime_lookup++read_back++pairs++IndexedPairs+Destruct::drop"
35:
	cmpq	$0, 32(%rsp)
	je	36f
	movq	%r14, %rdi
	callq	rattle_dealloc@PLT
36:
	testb	%bpl, %bpl
	jne	33b
	movq	%r12, %rdi
	jmp	55f
37:
	addq	552(%rsp), %rbx
	movq	$-1, %rax
	cmovaeq	%rbx, %rax
	movq	%rax, 552(%rsp)
	cmpq	$0, 144(%rsp)
	movq	40(%rsp), %r12
	movq	32(%rsp), %rbx
	jne	30b
	jmp	31b
38:
	movq	72(%rsp), %rax
	movq	%rax, 128(%rsp)
	movq	80(%rsp), %rax
	movq	%rax, 136(%rsp)
	leaq	144(%rsp), %rdi
	leaq	1216(%rsp), %rsi
	movl	$160, %edx
	callq	memcpy@PLT
	leaq	304(%rsp), %rdi
	leaq	1056(%rsp), %rsi
	movl	$160, %edx
	callq	memcpy@PLT
	movq	16(%rsp), %rax
	movq	%rax, 464(%rsp)
	leaq	128(%rsp), %rdi
	callq	"mime_lookup::mime_lookup++read_back++pairs++IndexedPairs+Destruct::drop"
	cmpq	$0, 32(%rsp)
	movq	40(%rsp), %rdi
	movq	64(%rsp), %rbx
	movzbl	48(%rsp), %ebp
	je	39f
	callq	rattle_dealloc@PLT
39:
	testb	%bpl, %bpl
	jne	33b
	movq	%rbx, %rdi
	jmp	55f
40:
	cmpq	$0, 144(%rsp)
	je	41f
	movq	128(%rsp), %rdi
	callq	rattle_dealloc@PLT
41:
	cmpq	$0, 168(%rsp)
	je	42f
	movq	152(%rsp), %rdi
	callq	rattle_dealloc@PLT
42:
	movq	200(%rsp), %r12
	movq	216(%rsp), %rbp
	movq	224(%rsp), %r15
	movq	240(%rsp), %r13
	movq	248(%rsp), %rbx
	movq	264(%rsp), %r14
	cmpq	$0, 192(%rsp)
	je	43f
	movq	176(%rsp), %rdi
	callq	rattle_dealloc@PLT
43:
	testq	%rbp, %rbp
	je	44f
	movq	%r12, %rdi
	callq	rattle_dealloc@PLT
44:
	testq	%r13, %r13
	movzbl	48(%rsp), %ebp
	je	45f
	movq	%r15, %rdi
	callq	rattle_dealloc@PLT
45:
	testq	%r14, %r14
	je	47f
46:
	movq	%rbx, %rdi
	callq	rattle_dealloc@PLT
47:
	cmpq	$0, 736(%rsp)
	je	48f
	movq	720(%rsp), %rdi
	callq	rattle_dealloc@PLT
48:
	movl	%ebp, %ebx
	cmpq	$0, 760(%rsp)
	je	49f
	movq	744(%rsp), %rdi
	callq	rattle_dealloc@PLT
49:
	movq	792(%rsp), %r12
	movq	808(%rsp), %rbp
	movq	816(%rsp), %r15
	movq	832(%rsp), %r13
	movq	840(%rsp), %rax
	movq	%rax, 24(%rsp)
	movq	856(%rsp), %r14
	cmpq	$0, 784(%rsp)
	je	50f
	movq	768(%rsp), %rdi
	callq	rattle_dealloc@PLT
50:
	testq	%rbp, %rbp
	je	51f
	movq	%r12, %rdi
	callq	rattle_dealloc@PLT
51:
	testq	%r13, %r13
	movl	%ebx, %ebp
	je	52f
	movq	%r15, %rdi
	callq	rattle_dealloc@PLT
52:
	testq	%r14, %r14
	movq	40(%rsp), %r12
	movq	32(%rsp), %rbx
	movq	64(%rsp), %r13
	je	53f
	movq	24(%rsp), %rdi
	callq	rattle_dealloc@PLT
53:
	testq	%rbx, %rbx
	je	54f
	movq	%r12, %rdi
	callq	rattle_dealloc@PLT
54:
	testb	%bpl, %bpl
	jne	33b
	movq	%r13, %rdi
55:
	callq	rattle_dealloc@PLT
	jmp	33b
56:
	.size	"mime_lookup::cached::paid_cache::PaidCache::read_pairs", 56b-"mime_lookup::cached::paid_cache::PaidCache::read_pairs"

	.text
	.p2align	4
	.type	"mime_lookup::cached::read_content::<#73f701dc143d73f5>",@function
"mime_lookup::cached::read_content::<#73f701dc143d73f5>":
	pushq	%rbp
	pushq	%r15
	pushq	%r14
	pushq	%r13
	pushq	%r12
	pushq	%rbx
	subq	$3072, %rsp
	movq	$0, (%rsp)
	subq	$1112, %rsp
	movq	%rcx, 72(%rsp)
	cmpb	$1, (%rdx)
	jne	1f
	movq	%rdx, %r15
	movl	56(%rsi), %eax
	movq	24(%rsi), %rcx
	subq	%rax, %rcx
	setb	%dl
	cmpq	$12, %rcx
	setb	%cl
	orb	%dl, %cl
	movq	(%r8), %rdx
	incq	%rdx
	movq	$-1, %r9
	cmovneq	%rdx, %r9
	movq	%r9, (%r8)
	testb	%cl, %cl
	je	3f
	movq	$1, (%rdi)
	movq	$1, 8(%rdi)
	movq	$3, 16(%rdi)
	movq	%rax, 24(%rdi)
	jmp	2f
1:
	xorps	%xmm0, %xmm0
	movups	%xmm0, 16(%rdi)
	movups	%xmm0, (%rdi)
2:
	movq	$0, 32(%rdi)
	jmp	12f
3:
	movq	%rdi, 48(%rsp)
	movq	16(%rsi), %rcx
	movl	4(%rcx,%rax), %eax
	bswapl	%eax
	cmpl	$129, %eax
	movl	$128, %ebp
	cmovael	%eax, %ebp
	xorps	%xmm0, %xmm0
	movups	%xmm0, 32(%rsp)
	leaq	15(%rsp), %rax
	movq	%rax, 24(%rsp)
	leaq	88(%rsp), %r12
	movl	$4096, %r14d
	movl	$4096, %edx
	movq	%r12, %rdi
	xorl	%esi, %esi
	callq	memset@PLT
	cmpq	$65536, %rbp
	movl	$65536, %eax
	cmovbq	%rbp, %rax
	movq	%rax, 56(%rsp)
	movq	16(%r15), %rbx
	cmpq	%rbx, %rbp
	movq	%rbx, %r13
	movq	%rbp, 64(%rsp)
	cmovbq	%rbp, %r13
	movq	%r15, 16(%rsp)
	movq	16(%rsp), %rax
	movq	8(%rax), %rbp
	cmpq	$4096, %r13
	cmovbq	%r13, %r14
	movq	%r12, %rdi
	movq	%rbp, %rsi
	movq	%r14, %rdx
	callq	memcpy@PLT
	addq	%r14, %rbp
	movq	%rbx, %rax
	subq	%r14, %rax
	movq	16(%rsp), %rcx
	movq	%rbp, 8(%rcx)
	movq	16(%rsp), %rbp
	movq	%rax, 16(%rbp)
	testq	%rbx, %rbx
	je	10f
	xorl	%ebx, %ebx
	xorl	%r15d, %r15d
	jmp	5f
	.p2align	4
4:
	movq	16(%rsp), %rax
	movq	8(%rax), %rbp
	leaq	88(%rsp), %rdi
	movq	%rbp, %rsi
	movq	%r14, %rdx
	callq	memcpy@PLT
	addq	%r14, %rbp
	subq	%r14, %r15
	movq	16(%rsp), %rax
	movq	%rbp, 8(%rax)
	movq	16(%rsp), %rbp
	movq	%r15, 16(%rbp)
	testq	%r13, %r13
	movq	80(%rsp), %r15
	je	11f
5:
	movq	72(%rsp), %rax
	addq	%r14, (%rax)
	testq	%rbx, %rbx
	jne	6f
	cmpq	$4096, %r13
	jb	6f
	cmpq	%r15, 56(%rsp)
	ja	8f
	xorl	%ebx, %ebx
6:
	movq	%r15, %rax
	subq	%rbx, %rax
	cmpq	%rax, %r14
	ja	9f
7:
	movq	24(%rsp), %rax
	movq	%rax, %r12
	leaq	(%rax,%rbx), %rdi
	addq	%r14, %rbx
	leaq	88(%rsp), %rsi
	movq	%r14, %rdx
	callq	memcpy@PLT
	movq	%rbx, 32(%rsp)
	movq	%r15, 40(%rsp)
	movq	64(%rsp), %r13
	subq	%rbx, %r13
	jbe	11f
	movq	%r15, 80(%rsp)
	movq	16(%rbp), %r15
	cmpq	%r15, %r13
	cmovaeq	%r15, %r13
	movq	%r13, %r14
	cmpq	$4096, %r13
	jb	4b
	movl	$4096, %r14d
	jmp	4b
8:
	leaq	24(%rsp), %rdi
	movq	56(%rsp), %rsi
	callq	"std_alloc::vec::Vec::grow_amortized::<#06f9579a8fe94b13>"
	movq	40(%rsp), %r15
	testb	%al, %al
	je	16f
	movq	32(%rsp), %rbx
	movq	%r15, %rax
	subq	%rbx, %rax
	cmpq	%rax, %r14
	jbe	7b
9:
	leaq	24(%rsp), %rdi
	movq	%r14, %rsi
	callq	"std_alloc::vec::Vec::grow_amortized::<#06f9579a8fe94b13>"
	testb	%al, %al
	je	13f
	movq	32(%rsp), %rbx
	movq	40(%rsp), %r15
	jmp	7b
10:
	leaq	15(%rsp), %r12
	xorl	%ebx, %ebx
	xorl	%r15d, %r15d
11:
	movq	48(%rsp), %rax
	movq	$0, (%rax)
	movq	$1, 8(%rax)
	movq	%r12, 16(%rax)
	movq	%rbx, 24(%rax)
	movq	%r15, 32(%rax)
12:
	addq	$4184, %rsp
	popq	%rbx
	popq	%r12
	popq	%r13
	popq	%r14
	popq	%r15
	popq	%rbp
	retq
13:
	cmpq	$0, 40(%rsp)
	je	15f
14:
	movq	24(%rsp), %rdi
	callq	rattle_dealloc@PLT
15:
	movq	48(%rsp), %rax
	movq	$1, (%rax)
	movq	$3, 8(%rax)
	movq	$0, 16(%rax)
	xorps	%xmm0, %xmm0
	movups	%xmm0, 24(%rax)
	jmp	12b
16:
	testq	%r15, %r15
	jne	14b
	jmp	15b
17:
	.size	"mime_lookup::cached::read_content::<#73f701dc143d73f5>", 17b-"mime_lookup::cached::read_content::<#73f701dc143d73f5>"

	.section	.rodata.cst16,"aM",@progbits,16
	.p2align	4, 0x0
1:
	.short	288,288,288,288,288,288,288,288
	.text
	.p2align	4
	.type	"mime_lookup::cached::sniff::sniff_front",@function
"mime_lookup::cached::sniff::sniff_front":
	pushq	%rbp
	pushq	%r15
	pushq	%r14
	pushq	%r13
	pushq	%r12
	pushq	%rbx
	subq	$1160, %rsp
	movq	%rdi, %rbx
	cmpb	$1, (%rdx)
	jne	3f
	movq	%r8, %r14
	movq	%rsi, %r15
	movl	%ecx, 12(%rsp)
	movq	8(%rdx), %r12
	movq	16(%rdx), %r13
	movq	$0, 1152(%rsp)
	xorps	%xmm0, %xmm0
	movaps	%xmm0, 16(%rsp)
	movaps	%xmm0, 32(%rsp)
	movq	$0, 48(%rsp)
	leaq	96(%rsp), %rdi
	movl	$512, %edx
	xorl	%esi, %esi
	callq	memset@PLT
	movaps	1b(%rip), %xmm0
	movaps	%xmm0, 96(%rsp)
	movaps	%xmm0, 112(%rsp)
	movaps	%xmm0, 128(%rsp)
	movaps	%xmm0, 144(%rsp)
	movaps	%xmm0, 160(%rsp)
	movaps	%xmm0, 176(%rsp)
	movaps	%xmm0, 192(%rsp)
	movaps	%xmm0, 208(%rsp)
	movaps	%xmm0, 224(%rsp)
	movaps	%xmm0, 240(%rsp)
	movaps	%xmm0, 256(%rsp)
	movaps	%xmm0, 272(%rsp)
	movaps	%xmm0, 288(%rsp)
	movaps	%xmm0, 304(%rsp)
	movaps	%xmm0, 320(%rsp)
	movaps	%xmm0, 336(%rsp)
	movaps	%xmm0, 352(%rsp)
	movaps	%xmm0, 368(%rsp)
	movaps	%xmm0, 384(%rsp)
	movaps	%xmm0, 400(%rsp)
	movaps	%xmm0, 416(%rsp)
	movaps	%xmm0, 432(%rsp)
	movaps	%xmm0, 448(%rsp)
	movaps	%xmm0, 464(%rsp)
	movaps	%xmm0, 480(%rsp)
	movaps	%xmm0, 496(%rsp)
	movaps	%xmm0, 512(%rsp)
	movaps	%xmm0, 528(%rsp)
	movaps	%xmm0, 544(%rsp)
	movaps	%xmm0, 560(%rsp)
	movaps	%xmm0, 576(%rsp)
	movaps	%xmm0, 592(%rsp)
	leaq	16(%r14), %rbp
	testq	%r13, %r13
	je	7f
	cmpq	$288, %r13
	movl	$288, %ecx
	cmovbq	%r13, %rcx
	movq	%rcx, %rdx
	andq	$3, %rdx
	je	4f
	.p2align	4
2:
	leaq	-1(%rcx), %rax
	movzbl	-1(%r12,%rcx), %esi
	decl	%ecx
	movw	%cx, 96(%rsp,%rsi,2)
	movq	%rax, %rcx
	decq	%rdx
	jne	2b
	cmpq	$4, %r13
	jae	5f
	jmp	7f
3:
	movq	$0, (%rbx)
	movl	$1, 8(%rbx)
	movw	$0, 12(%rbx)
	leaq	.L67248b46a1a0(%rip), %rax
	movq	%rax, 16(%rbx)
	movq	$24, 24(%rbx)
	jmp	8f
4:
	movq	%rcx, %rax
	cmpq	$4, %r13
	jb	7f
5:
	leaq	-1(%r12), %rcx
	movq	$-4, %rdx
	xorl	%esi, %esi
	.p2align	4
6:
	movzbl	(%rcx,%rax), %edi
	leal	(%rax,%rdx), %r8d
	addl	$3, %r8d
	movw	%r8w, 96(%rsp,%rdi,2)
	movzbl	-1(%rcx,%rax), %edi
	leal	2(%rax,%rdx), %r8d
	movw	%r8w, 96(%rsp,%rdi,2)
	movzbl	-2(%rcx,%rax), %edi
	leal	1(%rax,%rdx), %r8d
	movw	%r8w, 96(%rsp,%rdi,2)
	leal	(%rax,%rdx), %edi
	movzbl	-3(%rcx,%rax), %r8d
	movw	%di, 96(%rsp,%r8,2)
	addq	$4, %rsi
	addq	$-4, %rcx
	addq	$-4, %rdx
	cmpq	%rsi, %rax
	jne	6b
7:
	movq	%r15, 616(%rsp)
	movq	%r12, 624(%rsp)
	movq	%r13, 632(%rsp)
	leaq	640(%rsp), %rdi
	leaq	96(%rsp), %rsi
	movl	$512, %edx
	callq	memcpy@PLT
	movl	12(%rsp), %eax
	movb	%al, 1152(%rsp)
	movups	(%r14), %xmm0
	movaps	%xmm0, 64(%rsp)
	movups	(%rbp), %xmm0
	movaps	%xmm0, 80(%rsp)
	movl	40(%r15), %edx
	leaq	16(%rsp), %rdi
	leaq	616(%rsp), %rsi
	leaq	64(%rsp), %rcx
	callq	"mime_view::magic::sniff"
	movaps	64(%rsp), %xmm0
	movups	%xmm0, (%r14)
	movaps	80(%rsp), %xmm0
	movups	%xmm0, (%rbp)
	movzbl	24(%rsp), %eax
	movq	32(%rsp), %rcx
	cmpb	$0, 16(%rsp)
	je	10f
	movss	26(%rsp), %xmm0
	movq	$1, (%rbx)
	movw	%ax, 8(%rbx)
	movss	%xmm0, 10(%rbx)
	movq	%rcx, 16(%rbx)
	movq	$0, 24(%rbx)
8:
	movl	$0, 32(%rbx)
9:
	addq	$1160, %rsp
	popq	%rbx
	popq	%r12
	popq	%r13
	popq	%r14
	popq	%r15
	popq	%rbp
	retq
10:
	xorl	%edx, %edx
	cmpb	$1, %al
	jne	11f
	movq	40(%rsp), %rsi
	movl	48(%rsp), %edx
	xorl	%eax, %eax
	jmp	16f
11:
	movw	$1, %ax
	testq	%r13, %r13
	je	15f
	cmpq	$128, %r13
	movl	$128, %edi
	cmovbq	%r13, %rdi
	xorl	%r8d, %r8d
	jmp	13f
	.p2align	4
12:
	incq	%r8
	cmpq	%r8, %rdi
	je	14f
13:
	movzbl	(%r12,%r8), %r9d
	cmpl	$31, %r9d
	ja	12b
	xorl	%edx, %edx
	movl	$24, %esi
	leaq	.L67248b46a1a0(%rip), %rcx
	cmpl	$13, %r9d
	ja	16f
	movl	$9728, %r10d
	btl	%r9d, %r10d
	jb	12b
	jmp	16f
14:
	xorl	%edx, %edx
	movl	$10, %esi
	leaq	.Laafe98300121(%rip), %rcx
	jmp	16f
15:
	movl	$22, %esi
	leaq	.L74bbd0aeee0d(%rip), %rcx
16:
	movq	$0, (%rbx)
	movw	%ax, 8(%rbx)
	movl	$0, 10(%rbx)
	movq	%rcx, 16(%rbx)
	movq	%rsi, 24(%rbx)
	movl	%edx, 32(%rbx)
	jmp	9b
17:
	.size	"mime_lookup::cached::sniff::sniff_front", 17b-"mime_lookup::cached::sniff::sniff_front"

	.text
	.p2align	4
	.type	"mime_lookup::cached::sniff::sniff_indexed",@function
"mime_lookup::cached::sniff::sniff_indexed":
	cmpb	$1, (%rdx)
	jne	1f
	pushq	%rbp
	pushq	%r15
	pushq	%r14
	pushq	%r13
	pushq	%r12
	pushq	%rbx
	subq	$2392, %rsp
	movq	%rsi, %r12
	movq	8(%rdx), %r11
	movq	16(%rdx), %r10
	movq	$0, 48(%rsp)
	cmpq	192(%rsi), %r10
	movq	%rdi, 72(%rsp)
	jae	2f
	movq	56(%r12), %rbp
	jmp	30f
1:
	movq	$1, (%rdi)
	leaq	.L67248b46a1a0(%rip), %rax
	movq	%rax, 8(%rdi)
	movq	$24, 16(%rdi)
	movl	$0, 24(%rdi)
	retq
2:
	movq	%r11, 24(%rsp)
	movl	%ecx, %ebp
	cmpq	$288, %r10
	movl	$288, %ebx
	movl	$288, %r14d
	cmovbq	%r10, %r14
	leaq	96(%rsp), %rdi
	movl	$2296, %edx
	movl	$255, %esi
	movq	%r10, 32(%rsp)
	callq	memset@PLT
	movq	32(%rsp), %rax
	cmpq	$1, %rax
	adcq	$-1, %rax
	cmpq	$288, %rax
	cmovbq	%rax, %rbx
	cmpq	$255, %rax
	jb	4f
	movq	24(%rsp), %rdi
	movzbl	(%rdi,%rbx), %ecx
	movl	%ebp, %eax
	.p2align	4
3:
	movzbl	%cl, %edx
	movzbl	-1(%rdi,%rbx), %ecx
	decq	%rbx
	leaq	(%rsp,%rcx,8), %rsi
	addq	$96, %rsi
	movb	$-2, (%rdx,%rsi)
	cmpq	$254, %rbx
	ja	3b
	testq	%rbx, %rbx
	jne	5f
	jmp	10f
4:
	movl	%ebp, %eax
	testq	%rbx, %rbx
	je	10f
5:
	movq	24(%rsp), %r10
	movzbl	(%r10,%rbx), %edx
	movq	%rbx, %rsi
	andq	$3, %rsi
	je	7f
	movq	%rbx, %rdi
	.p2align	4
6:
	leaq	-1(%rdi), %rcx
	movzbl	%dl, %r8d
	movzbl	-1(%r10,%rdi), %edx
	leaq	(%rsp,%rdx,8), %r9
	addq	$96, %r9
	decb	%dil
	movb	%dil, (%r8,%r9)
	movq	%rcx, %rdi
	decq	%rsi
	jne	6b
	cmpq	$4, %rbx
	jae	8f
	jmp	10f
7:
	movq	%rbx, %rcx
	cmpq	$4, %rbx
	jb	10f
8:
	movq	24(%rsp), %rsi
	decq	%rsi
	movq	$-4, %rdi
	xorl	%r8d, %r8d
	.p2align	4
9:
	movzbl	(%rsi,%rcx), %r9d
	movzbl	%dl, %edx
	leaq	(%rsp,%r9,8), %r10
	addq	$96, %r10
	leal	(%rcx,%rdi), %r11d
	leal	3(%r11), %ebx
	movb	%bl, (%rdx,%r10)
	movzbl	-1(%rsi,%rcx), %edx
	leaq	96(%rsp,%rdx,8), %r10
	leal	2(%r11), %ebx
	movb	%bl, (%r9,%r10)
	movzbl	-2(%rsi,%rcx), %r9d
	leaq	96(%rsp,%r9,8), %r10
	leal	1(%r11), %ebx
	movb	%bl, (%rdx,%r10)
	movzbl	-3(%rsi,%rcx), %edx
	leaq	(%rsp,%rdx,8), %r10
	addq	$96, %r10
	movb	%r11b, (%r9,%r10)
	addq	$4, %r8
	addq	$-4, %rsi
	addq	$-4, %rdi
	cmpq	%r8, %rcx
	jne	9b
10:
	movq	(%r12), %r13
	movq	48(%r12), %rcx
	movq	%rcx, 80(%rsp)
	movq	80(%r12), %rdx
	addq	%rdx, %r14
	movq	$-1, %rcx
	cmovbq	%rcx, %r14
	movq	56(%r12), %rbp
	movq	%r14, 56(%rsp)
	movzbl	%al, %eax
	movl	%eax, 44(%rsp)
	movq	%rdx, 64(%rsp)
	testq	%rdx, %rdx
	je	20f
	movq	32(%rsp), %r10
	leaq	1(%r10), %rax
	movq	%rax, 88(%rsp)
	xorl	%ebx, %ebx
	movq	24(%rsp), %r11
	movq	%r12, 16(%rsp)
	.p2align	4
11:
	movq	%rbp, %r14
	movq	72(%r12), %rax
	movl	(%rax,%rbx,4), %eax
	cmpq	%rax, %r10
	jbe	18f
	movzbl	(%r11,%rax), %eax
	movq	%rbx, %rcx
	shlq	$9, %rcx
	addq	96(%r12), %rcx
	movzwl	(%rcx,%rax,2), %r12d
	testq	%r12, %r12
	je	18f
	cmpq	%r12, %r14
	jb	18f
	movq	16(%rsp), %rax
	movq	120(%rax), %r15
	.p2align	4
12:
	movq	56(%rsp), %rax
	incq	%rax
	movq	$-1, %rcx
	cmovneq	%rax, %rcx
	movq	%rcx, 56(%rsp)
	leaq	-1(%r12), %rbp
	movq	%rbp, %rax
	shlq	$4, %rax
	movl	(%r13,%rax), %ecx
	movzwl	8(%r13,%rax), %edx
	leaq	(%rdx,%rcx), %rsi
	cmpq	%rsi, %r10
	jb	16f
	testq	%rdx, %rdx
	je	15f
	movl	4(%r13,%rax), %esi
	movzbl	10(%r13,%rax), %r8d
	cmpq	$1, %rsi
	jne	13f
	movzbl	(%r11,%rcx), %esi
	movzbl	11(%r13,%rax), %edi
	cmpb	%dil, %sil
	jne	14f
	leaq	1(%r8), %r9
	cmpl	%edx, %r9d
	jae	14f
	movzbl	1(%r11,%rcx), %edx
	cmpb	12(%r13,%rax), %dl
	jne	16f
	addq	%r11, %r8
	movzbl	(%rcx,%r8), %edx
	cmpb	13(%r13,%rax), %dl
	jne	16f
	movzbl	1(%r8,%rcx), %ecx
	cmpb	14(%r13,%rax), %cl
	je	15f
	jmp	16f
13:
	leal	1(%r8), %edi
	cmpl	%edx, %edi
	jae	15f
	addq	%rcx, %rsi
	movq	88(%rsp), %rdi
	subq	%rdx, %rdi
	cmpq	%rsi, %rdi
	cmovaeq	%rsi, %rdi
	leaq	(%rdi,%r8), %r9
	cmpq	$288, %r9
	jbe	17f
	addq	%rcx, %r8
	movzbl	14(%r13,%rax), %esi
	movzbl	13(%r13,%rax), %edi
	leaq	48(%rsp), %rax
	movq	%rax, (%rsp)
	movq	%r11, %rdx
	movq	%r10, %rcx
	callq	"mime_lookup::indexed::line_search::lacks_far"
	movq	32(%rsp), %r10
	movq	24(%rsp), %r11
	testb	%al, %al
	je	15f
	jmp	16f
14:
	cmpb	%dil, %sil
	jne	16f
	.p2align	4
15:
	leaq	(,%rbp,4), %rax
	addq	%rbp, %rax
	movq	16(%rsp), %rcx
	movq	32(%rcx), %rsi
	movq	80(%rsp), %rdx
	movq	24(%rdx,%rax,8), %rdi
	cmpq	%rdi, %rsi
	cmovbq	%rsi, %rdi
	subq	%rdi, %rsi
	shlq	$6, %rdi
	addq	24(%rcx), %rdi
	movq	32(%rdx,%rax,8), %rax
	cmpq	%rax, %rsi
	cmovaeq	%rax, %rsi
	leaq	48(%rsp), %r9
	movq	%r11, %rdx
	movq	%r10, %rcx
	movl	44(%rsp), %r8d
	callq	"mime_load::holding::first_line_matches"
	movq	32(%rsp), %r10
	movq	24(%rsp), %r11
	testb	%al, %al
	jne	19f
16:
	movzwl	-2(%r15,%r12,2), %eax
	cmpq	%rax, %r12
	jae	18f
	movq	%rax, %r12
	cmpq	%rax, %r14
	jae	12b
	jmp	18f
17:
	movzbl	11(%r13,%rax), %ecx
	leaq	(%rsp,%rcx,8), %rcx
	addq	$96, %rcx
	movzbl	12(%r13,%rax), %edx
	movzbl	(%rdx,%rcx), %ecx
	cmpq	$255, %rcx
	je	16b
	cmpq	%rcx, %rdi
	jbe	16b
	movzbl	13(%r13,%rax), %ecx
	movzbl	14(%r13,%rax), %eax
	leaq	(%rsp,%rcx,8), %rcx
	addq	$96, %rcx
	movzbl	(%rax,%rcx), %eax
	cmpq	$255, %rax
	je	16b
	cmpq	%rax, %r9
	ja	15b
	jmp	16b
	.p2align	4
18:
	movq	%r14, %rbp
19:
	incq	%rbx
	cmpq	64(%rsp), %rbx
	movq	16(%rsp), %r12
	jne	11b
	movq	56(%rsp), %r14
	movq	$-1, %rcx
	jmp	21f
20:
	movq	24(%rsp), %r11
	movq	32(%rsp), %r10
21:
	movq	144(%r12), %r15
	movq	152(%r12), %rbx
	movq	168(%r12), %rdi
	addq	%rbx, %r14
	cmovbq	%rcx, %r14
	movq	%r14, 56(%rsp)
	testq	%rbx, %rbx
	je	30f
	leaq	1(%r10), %rax
	movq	%rax, 64(%rsp)
	movq	%rdi, 16(%rsp)
	jmp	24f
22:
	movq	16(%rsp), %rdi
	.p2align	4
23:
	testq	%rbx, %rbx
	je	30f
24:
	movzwl	-2(%rdi,%rbx,2), %eax
	movq	-8(%r15,%rbx,8), %r14
	decq	%rbx
	cmpq	$2295, %rax
	ja	25f
	cmpb	$-1, 96(%rsp,%rax)
	je	23b
25:
	cmpq	%rbp, %r14
	jae	23b
	movq	%r14, %rax
	shlq	$4, %rax
	movl	(%r13,%rax), %ecx
	movzwl	8(%r13,%rax), %edx
	leaq	(%rdx,%rcx), %rsi
	cmpq	%rsi, %r10
	jb	23b
	testq	%rdx, %rdx
	je	28f
	movl	4(%r13,%rax), %esi
	movzbl	10(%r13,%rax), %r8d
	cmpq	$1, %rsi
	jne	26f
	movzbl	(%r11,%rcx), %esi
	movzbl	11(%r13,%rax), %edi
	cmpb	%dil, %sil
	jne	27f
	leaq	1(%r8), %r9
	cmpl	%edx, %r9d
	jae	27f
	movzbl	1(%r11,%rcx), %edx
	cmpb	12(%r13,%rax), %dl
	jne	22b
	addq	%r11, %r8
	movzbl	(%rcx,%r8), %edx
	cmpb	13(%r13,%rax), %dl
	jne	22b
	movzbl	1(%r8,%rcx), %ecx
	cmpb	14(%r13,%rax), %cl
	jne	22b
	jmp	28f
26:
	leal	1(%r8), %edi
	cmpl	%edx, %edi
	jae	28f
	addq	%rcx, %rsi
	movq	64(%rsp), %rdi
	subq	%rdx, %rdi
	cmpq	%rsi, %rdi
	cmovaeq	%rsi, %rdi
	leaq	(%rdi,%r8), %r9
	cmpq	$288, %r9
	jbe	29f
	addq	%rcx, %r8
	movzbl	14(%r13,%rax), %esi
	movzbl	13(%r13,%rax), %edi
	leaq	48(%rsp), %rax
	movq	%rax, (%rsp)
	movq	%r11, %rdx
	movq	%r10, %rcx
	callq	"mime_lookup::indexed::line_search::lacks_far"
	movq	32(%rsp), %r10
	movq	24(%rsp), %r11
	testb	%al, %al
	jne	22b
	jmp	28f
27:
	cmpb	%dil, %sil
	jne	22b
28:
	leaq	(%r14,%r14,4), %rax
	movq	32(%r12), %rsi
	movq	80(%rsp), %rcx
	movq	24(%rcx,%rax,8), %rdi
	cmpq	%rdi, %rsi
	cmovbq	%rsi, %rdi
	subq	%rdi, %rsi
	shlq	$6, %rdi
	addq	24(%r12), %rdi
	movq	32(%rcx,%rax,8), %rax
	cmpq	%rax, %rsi
	cmovaeq	%rax, %rsi
	leaq	48(%rsp), %r9
	movq	%r11, %rdx
	movq	%r10, %rcx
	movl	44(%rsp), %r8d
	callq	"mime_load::holding::first_line_matches"
	movq	32(%rsp), %r10
	movq	24(%rsp), %r11
	testb	%al, %al
	movq	16(%rsp), %rdi
	je	23b
	movq	(%r15,%rbx,8), %rbp
	jmp	23b
29:
	movzbl	11(%r13,%rax), %ecx
	leaq	(%rsp,%rcx,8), %rcx
	addq	$96, %rcx
	movzbl	12(%r13,%rax), %edx
	movzbl	(%rdx,%rcx), %ecx
	cmpq	$255, %rcx
	je	22b
	cmpq	%rcx, %rdi
	jbe	22b
	movzbl	13(%r13,%rax), %ecx
	movzbl	14(%r13,%rax), %eax
	leaq	(%rsp,%rcx,8), %rcx
	addq	$96, %rcx
	movzbl	(%rax,%rcx), %eax
	cmpq	$255, %rax
	je	22b
	cmpq	%rax, %r9
	ja	28b
	jmp	22b
30:
	cmpq	56(%r12), %rbp
	jae	31f
	movq	48(%r12), %rax
	leaq	(,%rbp,4), %rdx
	addq	%rbp, %rdx
	movl	16(%rax,%rdx,8), %ecx
	movq	(%rax,%rdx,8), %rsi
	movq	8(%rax,%rdx,8), %rdx
	xorl	%eax, %eax
	movq	72(%rsp), %rbx
	jmp	36f
31:
	movl	$1, %eax
	testq	%r10, %r10
	movq	72(%rsp), %rbx
	je	35f
	cmpq	$128, %r10
	movl	$128, %edi
	cmovbq	%r10, %rdi
	xorl	%r8d, %r8d
	jmp	33f
	.p2align	4
32:
	incq	%r8
	cmpq	%r8, %rdi
	je	34f
33:
	movzbl	(%r11,%r8), %r9d
	cmpl	$31, %r9d
	ja	32b
	xorl	%ecx, %ecx
	movl	$24, %edx
	leaq	.L67248b46a1a0(%rip), %rsi
	cmpl	$13, %r9d
	ja	36f
	movl	$9728, %r10d
	btl	%r9d, %r10d
	jb	32b
	jmp	36f
34:
	xorl	%ecx, %ecx
	movl	$10, %edx
	leaq	.Laafe98300121(%rip), %rsi
	jmp	36f
35:
	xorl	%ecx, %ecx
	movl	$22, %edx
	leaq	.L74bbd0aeee0d(%rip), %rsi
36:
	movq	%rax, (%rbx)
	movq	%rsi, 8(%rbx)
	movq	%rdx, 16(%rbx)
	movl	%ecx, 24(%rbx)
	addq	$2392, %rsp
	popq	%rbx
	popq	%r12
	popq	%r13
	popq	%r14
	popq	%r15
	popq	%rbp
	retq
37:
	.size	"mime_lookup::cached::sniff::sniff_indexed", 37b-"mime_lookup::cached::sniff::sniff_indexed"

	.text
	.p2align	4
	.type	"mime_lookup::cached::sniff::unalias",@function
"mime_lookup::cached::sniff::unalias":
	pushq	%r15
	pushq	%r14
	pushq	%rbx
	subq	$32, %rsp
	movq	%rdi, %rbx
	movq	8(%rdx), %r14
	movq	16(%rdx), %r15
	cmpb	$0, (%rdx)
	jne	1f
	cmpb	$1, 72(%rsi)
	jne	3f
	movl	$192, %edi
	addq	80(%rsi), %rdi
	movq	%r14, %rsi
	movq	%r15, %rdx
	callq	"mime_lookup::read_back::targets::target_of"
	movq	%rax, %r14
	movq	%rdx, %r15
1:
	xorl	%eax, %eax
2:
	movq	%rax, (%rbx)
	movq	%r14, 8(%rbx)
	movq	%r15, 16(%rbx)
	addq	$32, %rsp
	popq	%rbx
	popq	%r14
	popq	%r15
	retq
3:
	movq	%rcx, %r9
	xorps	%xmm0, %xmm0
	movaps	%xmm0, 16(%rsp)
	movaps	%xmm0, (%rsp)
	movl	36(%rsi), %edx
	addq	$16, %rsi
	movq	%rsp, %rdi
	movq	%r14, %rcx
	movq	%r15, %r8
	callq	"mime_view::pairs::look_up_pair"
	movzbl	8(%rsp), %eax
	movq	16(%rsp), %rcx
	cmpb	$0, (%rsp)
	je	4f
	movzwl	12(%rsp), %r14d
	movzwl	10(%rsp), %edx
	shll	$16, %edx
	shlq	$32, %r14
	orq	%rax, %r14
	orq	%rdx, %r14
	movl	$1, %eax
	movq	%rcx, %r15
	jmp	2b
4:
	cmpl	$1, %eax
	cmoveq	%rcx, %r14
	cmpq	$1, %rax
	jne	1b
	movq	24(%rsp), %r15
	jmp	1b
5:
	.size	"mime_lookup::cached::sniff::unalias", 5b-"mime_lookup::cached::sniff::unalias"

	.text
	.p2align	4
	.type	"mime_lookup::cached::subclass::by_pairs",@function
"mime_lookup::cached::subclass::by_pairs":
	pushq	%rbp
	pushq	%r15
	pushq	%r14
	pushq	%r13
	pushq	%r12
	pushq	%rbx
	subq	$136, %rsp
	movq	%r8, %rbp
	movq	%rcx, %r14
	movq	%rdx, %r13
	movq	%rsi, 72(%rsp)
	movq	%rdi, %rbx
	movq	192(%rsp), %rdx
	xorps	%xmm0, %xmm0
	movaps	%xmm0, 48(%rsp)
	movq	$0, 64(%rsp)
	movaps	%xmm0, 16(%rsp)
	movq	$0, 32(%rsp)
	leaq	16(%r13), %r15
	movq	%r15, %rdi
	movq	%r9, %rsi
	callq	"mime_lookup::read_back::targets::target_of"
	movq	%rdx, %r12
	movq	%r15, %rdi
	movq	%r14, %rsi
	movq	%rax, %r14
	movq	%rbp, %rdx
	callq	"mime_lookup::read_back::targets::target_of"
	movq	%rdx, %rcx
	xorps	%xmm0, %xmm0
	movaps	%xmm0, 112(%rsp)
	leaq	112(%rsp), %rdx
	movq	%rdx, (%rsp)
	leaq	48(%rsp), %rdi
	movq	%r13, %rsi
	movq	%rax, %rdx
	movq	%r14, %r8
	movq	%r12, %r9
	callq	"mime_lookup::climb::climb::<#70fb81388c984f40>"
	cmpb	$0, 48(%rsp)
	je	1f
	movq	200(%rsp), %rax
	movq	56(%rsp), %rcx
	movq	64(%rsp), %r8
	xorps	%xmm0, %xmm0
	movaps	%xmm0, 80(%rsp)
	movaps	%xmm0, 96(%rsp)
	movq	%rax, 8(%rsp)
	movq	%r12, (%rsp)
	leaq	16(%rsp), %rdi
	leaq	80(%rsp), %rdx
	movq	72(%rsp), %rsi
	movq	%r14, %r9
	callq	"mime_lookup::cached::ancestry::leads_to"
	cmpb	$1, 88(%rsp)
	jne	2f
	movq	96(%rsp), %rdi
	callq	"std_collections::btree::node::Node::destroy::<#edcdc2349bef7e9b>"
	jmp	2f
1:
	movzbl	49(%rsp), %eax
	movb	$0, 16(%rsp)
	movb	%al, 17(%rsp)
2:
	movzwl	16(%rsp), %eax
	movzbl	24(%rsp), %ecx
	movq	32(%rsp), %rdx
	movw	%ax, (%rbx)
	movw	%cx, 8(%rbx)
	movl	26(%rsp), %eax
	movl	%eax, 10(%rbx)
	movq	%rdx, 16(%rbx)
	addq	$136, %rsp
	popq	%rbx
	popq	%r12
	popq	%r13
	popq	%r14
	popq	%r15
	popq	%rbp
	retq
3:
	.size	"mime_lookup::cached::subclass::by_pairs", 3b-"mime_lookup::cached::subclass::by_pairs"

	.text
	.p2align	4
	.type	"mime_lookup::climb::climb::<#70fb81388c984f40>",@function
"mime_lookup::climb::climb::<#70fb81388c984f40>":
	pushq	%rbp
	pushq	%r15
	pushq	%r14
	pushq	%r13
	pushq	%r12
	pushq	%rbx
	subq	$56, %rsp
	movq	%r8, %r13
	movq	%rdx, %r15
	movq	%rdi, 8(%rsp)
	movq	112(%rsp), %r12
	cmpq	$10, %r9
	movl	$10, %eax
	cmovbq	%r9, %rax
	movq	%rax, (%rsp)
	cmpq	$24, %r9
	movl	$24, %ebx
	cmovbq	%r9, %rbx
	addq	$176, %rsi
	movq	%rsi, 48(%rsp)
	xorl	%r14d, %r14d
	movq	%rbx, 40(%rsp)
	.p2align	4
1:
	cmpq	%r9, %rcx
	movq	%r9, %rsi
	cmovbq	%rcx, %rsi
	xorl	%eax, %eax
	.p2align	4
2:
	movq	%rsi, %rdx
	subq	%rax, %rdx
	cmpq	$8, %rdx
	jb	3f
	pmovzxbw	(%r13,%rax), %xmm0
	pmovzxbw	(%r15,%rax), %xmm1
	pcmpeqw	%xmm0, %xmm1
	packsswb	%xmm1, %xmm1
	pmovmskb	%xmm1, %edx
	notl	%edx
	orl	$256, %edx
	rep		bsfl	%edx, %edx
	addq	%rdx, %rax
	cmpb	$7, %dl
	ja	2b
3:
	cmpq	%rsi, %rax
	jae	6f
	.p2align	4
4:
	movzbl	(%r13,%rax), %edx
	cmpb	(%r15,%rax), %dl
	jne	5f
	incq	%rax
	cmpq	%rax, %rsi
	jne	4b
	jmp	6f
	.p2align	4
5:
	movq	%rax, %rsi
6:
	leaq	1(%rsi), %rdx
	addq	8(%r12), %rdx
	movq	$-1, %rax
	cmovaeq	%rdx, %rax
	movq	%rax, 8(%r12)
	movq	%rsi, %rdx
	xorq	%r9, %rdx
	xorq	%rcx, %rsi
	orq	%rdx, %rsi
	je	22f
	cmpq	$5, %rcx
	jb	13f
	movl	$1, %edx
	cmpb	$116, (%r15)
	jne	10f
	movl	$2, %edx
	cmpb	$101, 1(%r15)
	jne	10f
	movl	$3, %edx
	cmpb	$120, 2(%r15)
	jne	10f
	movl	$4, %edx
	cmpb	$116, 3(%r15)
	jne	10f
	movl	$5, %edx
	cmpb	$47, 4(%r15)
	jne	10f
	addq	$6, %rax
	movq	$-1, %r11
	cmovaeq	%rax, %r11
	movq	%r11, 8(%r12)
	xorl	%eax, %eax
	.p2align	4
7:
	movq	(%rsp), %rsi
	subq	%rax, %rsi
	leaq	.Laafe98300121(%rip), %rdx
	cmpq	$8, %rsi
	jb	8f
	pmovzxbw	(%rax,%rdx), %xmm0
	pmovzxbw	(%r13,%rax), %xmm1
	pcmpeqw	%xmm0, %xmm1
	packsswb	%xmm1, %xmm1
	pmovmskb	%xmm1, %esi
	notl	%esi
	orl	$256, %esi
	rep		bsfl	%esi, %esi
	addq	%rsi, %rax
	cmpb	$7, %sil
	ja	7b
8:
	movq	(%rsp), %r8
	movq	%r8, %rsi
	cmpq	%r8, %rax
	jae	21f
	.p2align	4
9:
	movzbl	(%rax,%rdx), %esi
	cmpb	(%r13,%rax), %sil
	jne	20f
	incq	%rax
	cmpq	%rax, (%rsp)
	jne	9b
	movq	(%rsp), %rsi
	jmp	21f
	.p2align	4
10:
	addq	%rax, %rdx
	movq	$-1, %rax
	cmovaeq	%rdx, %rax
	movq	%rax, 8(%r12)
11:
	cmpq	$5, %rcx
	je	13f
	movl	$1, %edx
	cmpb	$105, (%r15)
	jne	12f
	movl	$2, %edx
	cmpb	$110, 1(%r15)
	jne	12f
	movl	$3, %edx
	cmpb	$111, 2(%r15)
	jne	12f
	movl	$4, %edx
	cmpb	$100, 3(%r15)
	jne	12f
	movl	$5, %edx
	cmpb	$101, 4(%r15)
	jne	12f
	movl	$6, %edx
	cmpb	$47, 5(%r15)
	jne	12f
	addq	$7, %rax
	movq	$-1, %rdx
	cmovaeq	%rax, %rdx
	movq	%rdx, 8(%r12)
	jmp	19f
	.p2align	4
12:
	addq	%rax, %rdx
	movq	$-1, %rax
	cmovaeq	%rdx, %rax
	movq	%rax, 8(%r12)
13:
	xorl	%r8d, %r8d
	.p2align	4
14:
	movq	%rbx, %rsi
	subq	%r8, %rsi
	leaq	.L67248b46a1a0(%rip), %rdx
	cmpq	$8, %rsi
	jb	15f
	pmovzxbw	(%r8,%rdx), %xmm0
	pmovzxbw	(%r13,%r8), %xmm1
	pcmpeqw	%xmm0, %xmm1
	packsswb	%xmm1, %xmm1
	pmovmskb	%xmm1, %esi
	notl	%esi
	orl	$256, %esi
	rep		bsfl	%esi, %esi
	addq	%rsi, %r8
	cmpb	$7, %sil
	ja	14b
15:
	movq	%rbx, %rsi
	cmpq	%rbx, %r8
	jae	18f
	.p2align	4
16:
	movzbl	(%r8,%rdx), %esi
	cmpb	(%r13,%r8), %sil
	jne	17f
	incq	%r8
	cmpq	%r8, %rbx
	jne	16b
	movq	%rbx, %rsi
	jmp	18f
	.p2align	4
17:
	movq	%r8, %rsi
18:
	leaq	1(%rsi), %rdx
	addq	%rax, %rdx
	movq	$-1, %rax
	cmovaeq	%rdx, %rax
	movq	%rax, 8(%r12)
	cmpq	$24, %r9
	jne	19f
	cmpq	$24, %rsi
	je	22f
19:
	movq	%r9, %rbx
	pxor	%xmm0, %xmm0
	movdqa	%xmm0, 16(%rsp)
	movq	$0, 32(%rsp)
	leaq	16(%rsp), %rdi
	movq	48(%rsp), %rsi
	movq	%r15, %rdx
	movq	%rcx, %rbp
	callq	"mime_lookup::read_back::steps::step_of"
	movzbl	16(%rsp), %eax
	cmpl	$1, %eax
	jne	23f
	movq	24(%rsp), %r15
	movq	32(%rsp), %rcx
	incl	%r14d
	cmpl	$16, %r14d
	movq	%rbx, %r9
	movq	40(%rsp), %rbx
	jne	1b
	jmp	24f
20:
	movq	%rax, %rsi
21:
	leaq	1(%rsi), %rdx
	addq	%r11, %rdx
	movq	$-1, %rax
	cmovaeq	%rdx, %rax
	movq	%rax, 8(%r12)
	cmpq	$10, %r9
	jne	11b
	cmpq	$10, %rsi
	jne	11b
22:
	movq	8(%rsp), %rax
	movw	$256, (%rax)
	jmp	26f
23:
	cmpl	$2, %eax
	movq	%rbp, %rcx
	jne	25f
24:
	movq	8(%rsp), %rax
	movw	$1, (%rax)
	movq	%r15, 8(%rax)
	movq	%rcx, 16(%rax)
	jmp	27f
25:
	movq	8(%rsp), %rax
	movw	$0, (%rax)
26:
	pxor	%xmm0, %xmm0
	movdqu	%xmm0, 8(%rax)
27:
	addq	$56, %rsp
	popq	%rbx
	popq	%r12
	popq	%r13
	popq	%r14
	popq	%r15
	popq	%rbp
	retq
28:
	.size	"mime_lookup::climb::climb::<#70fb81388c984f40>", 28b-"mime_lookup::climb::climb::<#70fb81388c984f40>"

	.text
	.p2align	4
	.type	"mime_lookup::indexed::line_head::rarest_pair",@function
"mime_lookup::indexed::line_head::rarest_pair":
	decq	%rsi
	cmpq	$16, %rsi
	movl	$16, %eax
	cmovbq	%rsi, %rax
	leaq	1(%rax), %rcx
	decq	%rax
	xorl	%edx, %edx
	.p2align	4
1:
	movzbl	-1(%rdi,%rcx), %esi
	testb	$-33, %sil
	je	2f
	addb	$-97, %sil
	cmpb	$25, %sil
	ja	3f
2:
	decq	%rcx
	cmpq	$2, %rcx
	ja	1b
	jmp	5f
3:
	cmpq	%rcx, %rdx
	je	4f
	decq	%rcx
	cmpq	%rax, %rcx
	movq	%rax, %rsi
	cmovbq	%rcx, %rsi
	testq	%rdx, %rdx
	cmoveq	%rsi, %rax
	movq	%rcx, %rdx
	cmpq	$2, %rcx
	ja	1b
	jmp	5f
4:
	decq	%rcx
	movq	%rcx, %rax
5:
	retq
6:
	.size	"mime_lookup::indexed::line_head::rarest_pair", 6b-"mime_lookup::indexed::line_head::rarest_pair"

	.text
	.p2align	4
	.type	"mime_lookup::indexed::line_search::lacks_far",@function
"mime_lookup::indexed::line_search::lacks_far":
	pushq	%rbp
	pushq	%r15
	pushq	%r14
	pushq	%r13
	pushq	%r12
	pushq	%rbx
	pushq	%rax
	movq	%r9, %rbx
	movq	%r8, %r12
	movq	%rcx, %r13
	movq	%rdx, %r15
	movl	%esi, %ebp
	movl	%edi, %r14d
	movq	64(%rsp), %rax
	subq	%r8, %rbx
	movq	8(%rax), %rcx
	addq	%rbx, %rcx
	movq	$-1, %rdx
	cmovaeq	%rcx, %rdx
	movq	%rdx, 8(%rax)
	leaq	(%r15,%r8), %rsi
	movq	%rbx, %rdx
	callq	"memchr::bytes::memchr"
	movl	%eax, %ecx
	movb	$1, %al
	cmpb	$1, %cl
	jne	11f
	subq	%rdx, %rbx
	movq	%rdx, %rsi
	addq	%r12, %rsi
	movzbl	%r14b, %edi
	movzbl	%bpl, %ecx
	cmpq	$32, %rbx
	jb	3f
	movd	%edi, %xmm0
	pxor	%xmm2, %xmm2
	pshufb	%xmm2, %xmm0
	movd	%ecx, %xmm1
	pshufb	%xmm2, %xmm1
	leaq	(%rdx,%r12), %rax
	leaq	(%r15,%rax), %r8
	incq	%r8
	xorl	%eax, %eax
	movq	%rbx, %r9
	jmp	2f
	.p2align	4
1:
	addq	$32, %rax
	addq	$-32, %r9
	cmpq	$31, %r9
	jbe	4f
2:
	movdqu	-1(%r8,%rax), %xmm2
	movdqu	15(%r8,%rax), %xmm3
	pcmpeqb	%xmm0, %xmm3
	pcmpeqb	%xmm0, %xmm2
	movdqa	%xmm2, %xmm4
	por	%xmm3, %xmm4
	pmovmskb	%xmm4, %r10d
	testl	%r10d, %r10d
	je	1b
	movdqu	(%r8,%rax), %xmm4
	movdqu	16(%r8,%rax), %xmm5
	pcmpeqb	%xmm1, %xmm4
	pcmpeqb	%xmm1, %xmm5
	pand	%xmm3, %xmm5
	pand	%xmm2, %xmm4
	por	%xmm5, %xmm4
	pmovmskb	%xmm4, %r10d
	testl	%r10d, %r10d
	je	1b
	jmp	4f
3:
	xorl	%eax, %eax
4:
	subq	%rsi, %r13
	subq	%rax, %r13
	movq	%rbx, %r8
	subq	%rax, %r8
	cmpq	$4, %r8
	setae	%r9b
	cmpq	$33, %r13
	setae	%r10b
	testb	%r9b, %r10b
	jne	7f
	testq	%r8, %r8
	je	9f
	addq	%rdx, %r12
	addq	%rax, %r12
	leaq	(%r15,%r12), %rdx
	incq	%rdx
	xorl	%ecx, %ecx
	jmp	6f
	.p2align	4
5:
	incq	%rcx
	cmpq	%rcx, %r8
	je	8f
6:
	cmpb	%r14b, -1(%rdx,%rcx)
	jne	5b
	cmpb	%bpl, (%rdx,%rcx)
	jne	5b
	jmp	10f
7:
	addq	%rsi, %r15
	movd	%edi, %xmm0
	pxor	%xmm1, %xmm1
	pshufb	%xmm1, %xmm0
	movdqu	(%r15,%rax), %xmm2
	movdqu	1(%r15,%rax), %xmm3
	movdqu	16(%r15,%rax), %xmm4
	movdqu	17(%r15,%rax), %xmm5
	pcmpeqb	%xmm0, %xmm2
	pcmpeqb	%xmm0, %xmm4
	movd	%ecx, %xmm0
	pshufb	%xmm1, %xmm0
	pcmpeqb	%xmm0, %xmm3
	pand	%xmm2, %xmm3
	pcmpeqb	%xmm5, %xmm0
	pand	%xmm4, %xmm0
	pmovmskb	%xmm3, %ecx
	pmovmskb	%xmm0, %edx
	shll	$16, %edx
	orl	%ecx, %edx
	movl	$64, %esi
	rep		bsfq	%rdx, %rsi
	cmpq	%rsi, %r8
	cmovbq	%r8, %rsi
	cmpq	$32, %rsi
	movl	$32, %ecx
	cmovbq	%rsi, %rcx
	jmp	10f
8:
	movq	%r8, %rcx
	jmp	10f
9:
	xorl	%ecx, %ecx
10:
	addq	%rax, %rcx
	cmpq	%rbx, %rcx
	sete	%al
11:
	addq	$8, %rsp
	popq	%rbx
	popq	%r12
	popq	%r13
	popq	%r14
	popq	%r15
	popq	%rbp
	retq
12:
	.size	"mime_lookup::indexed::line_search::lacks_far", 12b-"mime_lookup::indexed::line_search::lacks_far"

	.text
	.p2align	4
	.type	"mime_lookup::indexed::tables::other_table",@function
"mime_lookup::indexed::tables::other_table":
	pushq	%rbp
	pushq	%r15
	pushq	%r14
	pushq	%r13
	pushq	%r12
	pushq	%rbx
	pushq	%rax
	movl	%edx, %ebx
	movq	8(%rdi), %rdx
	movzbl	%bl, %eax
	addl	%eax, %eax
	testq	%rdx, %rdx
	je	2f
	movzwl	(%rsi,%rax), %ecx
	cmpl	$256, %ecx
	je	2f
	movq	(%rdi), %r8
	xorl	%ecx, %ecx
	.p2align	4
1:
	cmpl	%ebx, (%r8,%rcx,4)
	je	4f
	incq	%rcx
	cmpq	%rcx, %rdx
	jne	1b
2:
	cmpq	$256, %rdx
	jne	5f
3:
	movl	$256, %edx
	jmp	10f
4:
	movq	%rcx, %rdx
	cmpq	$256, %rdx
	je	3b
5:
	movw	%dx, (%rsi,%rax)
	cmpq	8(%rdi), %rdx
	jne	10f
	movq	%rdx, %rcx
	cmpq	%rdx, 16(%rdi)
	je	12f
6:
	movq	(%rdi), %rax
	movl	%ebx, (%rax,%rcx,4)
	incq	%rcx
	movq	%rcx, 8(%rdi)
	shlq	$8, %rcx
	movq	32(%rdi), %rax
	movq	%rcx, %rbx
	subq	%rax, %rbx
	jbe	9f
	movq	40(%rdi), %r14
	movq	%r14, %rcx
	subq	%rax, %rcx
	cmpq	%rcx, %rbx
	ja	13f
	leaq	(%rax,%rbx), %r15
	movq	24(%rdi), %r12
	cmpq	%r15, %rax
	jae	8f
7:
	leaq	(%r12,%rax,2), %rax
	addq	%rbx, %rbx
	movq	%rdi, %r13
	movq	%rax, %rdi
	xorl	%esi, %esi
	movq	%rdx, %rbp
	movq	%rbx, %rdx
	callq	memset@PLT
	movq	%r13, %rdi
	movq	%rbp, %rdx
8:
	movq	%r12, 24(%rdi)
	movq	%r15, 32(%rdi)
	movq	%r14, 40(%rdi)
	jmp	10f
9:
	jae	10f
	movq	%rcx, 32(%rdi)
10:
	xorl	%eax, %eax
11:
	addq	$8, %rsp
	popq	%rbx
	popq	%r12
	popq	%r13
	popq	%r14
	popq	%r15
	popq	%rbp
	retq
12:
	movq	%rdx, %r14
	movq	%rdi, %r15
	callq	"std_alloc::vec::Vec::grow_amortized::<#69b8fd684be40472>"
	testb	%al, %al
	je	14f
	movq	%r15, %rdi
	movq	8(%r15), %rcx
	movq	%r14, %rdx
	jmp	6b
13:
	movq	%rdx, %r15
	movq	%rdi, %r14
	addq	$24, %rdi
	movq	%rbx, %rsi
	callq	"std_alloc::vec::Vec::grow_amortized::<#e5d85e99c87df23c>"
	testb	%al, %al
	je	14f
	movq	%r14, %rdi
	movq	32(%r14), %rax
	movq	40(%r14), %r14
	movq	%r15, %rdx
	leaq	(%rax,%rbx), %r15
	movq	24(%rdi), %r12
	cmpq	%r15, %rax
	jb	7b
	jmp	8b
14:
	movb	$1, %al
	xorl	%edx, %edx
	jmp	11b
15:
	.size	"mime_lookup::indexed::tables::other_table", 15b-"mime_lookup::indexed::tables::other_table"

	.text
	.p2align	4
	.type	"mime_lookup::mime_lookup++indexed++magic_index++MagicIndex+Destruct::drop",@function
"mime_lookup::mime_lookup++indexed++magic_index++MagicIndex+Destruct::drop":
	pushq	%rbp
	pushq	%r15
	pushq	%r14
	pushq	%r13
	pushq	%r12
	pushq	%rbx
	subq	$72, %rsp
	movq	24(%rdi), %rbx
	movq	40(%rdi), %r12
	movq	48(%rdi), %rbp
	movq	64(%rdi), %r13
	movq	72(%rdi), %rax
	movq	%rax, 8(%rsp)
	movq	88(%rdi), %r15
	movq	96(%rdi), %rax
	movq	%rax, 16(%rsp)
	movq	112(%rdi), %r14
	movq	120(%rdi), %rax
	movq	%rax, 24(%rsp)
	movq	136(%rdi), %rax
	movq	%rax, 48(%rsp)
	movq	144(%rdi), %rax
	movq	%rax, 32(%rsp)
	movq	160(%rdi), %rax
	movq	%rax, 56(%rsp)
	movq	168(%rdi), %rax
	movq	%rax, 40(%rsp)
	movq	184(%rdi), %rax
	movq	%rax, 64(%rsp)
	cmpq	$0, 16(%rdi)
	je	1f
	movq	(%rdi), %rdi
	callq	rattle_dealloc@PLT
1:
	testq	%r12, %r12
	je	2f
	movq	%rbx, %rdi
	callq	rattle_dealloc@PLT
2:
	testq	%r13, %r13
	je	3f
	movq	%rbp, %rdi
	callq	rattle_dealloc@PLT
3:
	testq	%r15, %r15
	je	4f
	movq	8(%rsp), %rdi
	callq	rattle_dealloc@PLT
4:
	testq	%r14, %r14
	je	5f
	movq	16(%rsp), %rdi
	callq	rattle_dealloc@PLT
5:
	cmpq	$0, 48(%rsp)
	je	6f
	movq	24(%rsp), %rdi
	callq	rattle_dealloc@PLT
6:
	cmpq	$0, 56(%rsp)
	je	7f
	movq	32(%rsp), %rdi
	callq	rattle_dealloc@PLT
7:
	cmpq	$0, 64(%rsp)
	je	8f
	movq	40(%rsp), %rdi
	addq	$72, %rsp
	popq	%rbx
	popq	%r12
	popq	%r13
	popq	%r14
	popq	%r15
	popq	%rbp
	jmp	rattle_dealloc@PLT
8:
	addq	$72, %rsp
	popq	%rbx
	popq	%r12
	popq	%r13
	popq	%r14
	popq	%r15
	popq	%rbp
	retq
9:
	.size	"mime_lookup::mime_lookup++indexed++magic_index++MagicIndex+Destruct::drop", 9b-"mime_lookup::mime_lookup++indexed++magic_index++MagicIndex+Destruct::drop"

	.text
	.p2align	4
	.type	"mime_lookup::mime_lookup++read_back++icons++IndexedIcons+Destruct::drop",@function
"mime_lookup::mime_lookup++read_back++icons++IndexedIcons+Destruct::drop":
	pushq	%rbp
	pushq	%r15
	pushq	%r14
	pushq	%r13
	pushq	%r12
	pushq	%rbx
	subq	$232, %rsp
	movq	40(%rdi), %r13
	movq	56(%rdi), %rbx
	movq	64(%rdi), %rax
	movq	%rax, 8(%rsp)
	movq	80(%rdi), %rbp
	movq	88(%rdi), %rax
	movq	%rax, 16(%rsp)
	movq	104(%rdi), %r15
	movq	112(%rdi), %rax
	movq	%rax, 24(%rsp)
	movq	128(%rdi), %r12
	movq	136(%rdi), %rax
	movq	%rax, 40(%rsp)
	movq	152(%rdi), %rax
	movq	%rax, 136(%rsp)
	movq	176(%rdi), %rax
	movq	%rax, 56(%rsp)
	movq	192(%rdi), %rax
	movq	%rax, 152(%rsp)
	movq	200(%rdi), %rax
	movq	%rax, 72(%rsp)
	movq	216(%rdi), %rax
	movq	%rax, 168(%rsp)
	cmpq	$0, 32(%rdi)
	movq	224(%rdi), %rax
	movq	%rax, 32(%rsp)
	movq	240(%rdi), %r14
	movq	248(%rdi), %rax
	movq	%rax, 48(%rsp)
	movq	264(%rdi), %rax
	movq	%rax, 144(%rsp)
	movq	272(%rdi), %rax
	movq	%rax, 64(%rsp)
	movq	288(%rdi), %rax
	movq	%rax, 160(%rsp)
	movq	296(%rdi), %rax
	movq	%rax, 80(%rsp)
	movq	312(%rdi), %rax
	movq	%rax, 176(%rsp)
	movq	336(%rdi), %rax
	movq	%rax, 88(%rsp)
	movq	352(%rdi), %rax
	movq	%rax, 184(%rsp)
	movq	360(%rdi), %rax
	movq	%rax, 96(%rsp)
	movq	376(%rdi), %rax
	movq	%rax, 192(%rsp)
	movq	384(%rdi), %rax
	movq	%rax, 104(%rsp)
	movq	400(%rdi), %rax
	movq	%rax, 200(%rsp)
	movq	408(%rdi), %rax
	movq	%rax, 112(%rsp)
	movq	424(%rdi), %rax
	movq	%rax, 208(%rsp)
	movq	432(%rdi), %rax
	movq	%rax, 120(%rsp)
	movq	448(%rdi), %rax
	movq	%rax, 216(%rsp)
	movq	456(%rdi), %rax
	movq	%rax, 128(%rsp)
	movq	472(%rdi), %rax
	movq	%rax, 224(%rsp)
	je	1f
	movq	16(%rdi), %rdi
	callq	rattle_dealloc@PLT
1:
	testq	%rbx, %rbx
	je	2f
	movq	%r13, %rdi
	callq	rattle_dealloc@PLT
2:
	testq	%rbp, %rbp
	je	3f
	movq	8(%rsp), %rdi
	callq	rattle_dealloc@PLT
3:
	testq	%r15, %r15
	je	4f
	movq	16(%rsp), %rdi
	callq	rattle_dealloc@PLT
4:
	testq	%r12, %r12
	je	5f
	movq	24(%rsp), %rdi
	callq	rattle_dealloc@PLT
5:
	cmpq	$0, 136(%rsp)
	je	6f
	movq	40(%rsp), %rdi
	callq	rattle_dealloc@PLT
6:
	cmpq	$0, 152(%rsp)
	je	7f
	movq	56(%rsp), %rdi
	callq	rattle_dealloc@PLT
7:
	cmpq	$0, 168(%rsp)
	je	8f
	movq	72(%rsp), %rdi
	callq	rattle_dealloc@PLT
8:
	testq	%r14, %r14
	je	9f
	movq	32(%rsp), %rdi
	callq	rattle_dealloc@PLT
9:
	cmpq	$0, 144(%rsp)
	je	10f
	movq	48(%rsp), %rdi
	callq	rattle_dealloc@PLT
10:
	cmpq	$0, 160(%rsp)
	je	11f
	movq	64(%rsp), %rdi
	callq	rattle_dealloc@PLT
11:
	cmpq	$0, 176(%rsp)
	je	12f
	movq	80(%rsp), %rdi
	callq	rattle_dealloc@PLT
12:
	cmpq	$0, 184(%rsp)
	je	13f
	movq	88(%rsp), %rdi
	callq	rattle_dealloc@PLT
13:
	cmpq	$0, 192(%rsp)
	je	14f
	movq	96(%rsp), %rdi
	callq	rattle_dealloc@PLT
14:
	cmpq	$0, 200(%rsp)
	je	15f
	movq	104(%rsp), %rdi
	callq	rattle_dealloc@PLT
15:
	cmpq	$0, 208(%rsp)
	je	16f
	movq	112(%rsp), %rdi
	callq	rattle_dealloc@PLT
16:
	cmpq	$0, 216(%rsp)
	je	17f
	movq	120(%rsp), %rdi
	callq	rattle_dealloc@PLT
17:
	cmpq	$0, 224(%rsp)
	je	18f
	movq	128(%rsp), %rdi
	addq	$232, %rsp
	popq	%rbx
	popq	%r12
	popq	%r13
	popq	%r14
	popq	%r15
	popq	%rbp
	jmp	rattle_dealloc@PLT
18:
	addq	$232, %rsp
	popq	%rbx
	popq	%r12
	popq	%r13
	popq	%r14
	popq	%r15
	popq	%rbp
	retq
19:
	.size	"mime_lookup::mime_lookup++read_back++icons++IndexedIcons+Destruct::drop", 19b-"mime_lookup::mime_lookup++read_back++icons++IndexedIcons+Destruct::drop"

	.text
	.p2align	4
	.type	"mime_lookup::mime_lookup++read_back++names++IndexedNames+Destruct::drop",@function
"mime_lookup::mime_lookup++read_back++names++IndexedNames+Destruct::drop":
	pushq	%rbp
	pushq	%r15
	pushq	%r14
	pushq	%r13
	pushq	%r12
	pushq	%rbx
	subq	$152, %rsp
	movq	40(%rdi), %rbp
	movq	56(%rdi), %r13
	movq	64(%rdi), %rax
	movq	%rax, 8(%rsp)
	movq	80(%rdi), %r14
	movq	88(%rdi), %rax
	movq	%rax, 16(%rsp)
	movq	104(%rdi), %r15
	movq	112(%rdi), %rax
	movq	%rax, 24(%rsp)
	movq	128(%rdi), %r12
	movq	136(%rdi), %rax
	movq	%rax, 32(%rsp)
	movq	152(%rdi), %rbx
	movq	160(%rdi), %rax
	movq	%rax, 40(%rsp)
	movq	176(%rdi), %rax
	movq	%rax, 96(%rsp)
	movq	192(%rdi), %rax
	movq	%rax, 56(%rsp)
	movq	208(%rdi), %rax
	movq	%rax, 112(%rsp)
	cmpq	$0, 32(%rdi)
	movq	216(%rdi), %rax
	movq	%rax, 48(%rsp)
	movq	232(%rdi), %rax
	movq	%rax, 104(%rsp)
	movq	240(%rdi), %rax
	movq	%rax, 64(%rsp)
	movq	256(%rdi), %rax
	movq	%rax, 120(%rsp)
	movq	264(%rdi), %rax
	movq	%rax, 72(%rsp)
	movq	280(%rdi), %rax
	movq	%rax, 128(%rsp)
	movq	288(%rdi), %rax
	movq	%rax, 80(%rsp)
	movq	304(%rdi), %rax
	movq	%rax, 136(%rsp)
	movq	312(%rdi), %rax
	movq	%rax, 88(%rsp)
	movq	328(%rdi), %rax
	movq	%rax, 144(%rsp)
	je	1f
	movq	16(%rdi), %rdi
	callq	rattle_dealloc@PLT
1:
	testq	%r13, %r13
	je	2f
	movq	%rbp, %rdi
	callq	rattle_dealloc@PLT
2:
	testq	%r14, %r14
	je	3f
	movq	8(%rsp), %rdi
	callq	rattle_dealloc@PLT
3:
	testq	%r15, %r15
	je	4f
	movq	16(%rsp), %rdi
	callq	rattle_dealloc@PLT
4:
	testq	%r12, %r12
	je	5f
	movq	24(%rsp), %rdi
	callq	rattle_dealloc@PLT
5:
	testq	%rbx, %rbx
	je	6f
	movq	32(%rsp), %rdi
	callq	rattle_dealloc@PLT
6:
	cmpq	$0, 96(%rsp)
	je	7f
	movq	40(%rsp), %rdi
	callq	rattle_dealloc@PLT
7:
	cmpq	$0, 112(%rsp)
	je	8f
	movq	56(%rsp), %rdi
	callq	rattle_dealloc@PLT
8:
	cmpq	$0, 104(%rsp)
	je	9f
	movq	48(%rsp), %rdi
	callq	rattle_dealloc@PLT
9:
	cmpq	$0, 120(%rsp)
	je	10f
	movq	64(%rsp), %rdi
	callq	rattle_dealloc@PLT
10:
	cmpq	$0, 128(%rsp)
	je	11f
	movq	72(%rsp), %rdi
	callq	rattle_dealloc@PLT
11:
	cmpq	$0, 136(%rsp)
	je	12f
	movq	80(%rsp), %rdi
	callq	rattle_dealloc@PLT
12:
	cmpq	$0, 144(%rsp)
	je	13f
	movq	88(%rsp), %rdi
	addq	$152, %rsp
	popq	%rbx
	popq	%r12
	popq	%r13
	popq	%r14
	popq	%r15
	popq	%rbp
	jmp	rattle_dealloc@PLT
13:
	addq	$152, %rsp
	popq	%rbx
	popq	%r12
	popq	%r13
	popq	%r14
	popq	%r15
	popq	%rbp
	retq
14:
	.size	"mime_lookup::mime_lookup++read_back++names++IndexedNames+Destruct::drop", 14b-"mime_lookup::mime_lookup++read_back++names++IndexedNames+Destruct::drop"

	.text
	.p2align	4
	.type	"mime_lookup::mime_lookup++read_back++pairs++IndexedPairs+Destruct::drop",@function
"mime_lookup::mime_lookup++read_back++pairs++IndexedPairs+Destruct::drop":
	pushq	%rbp
	pushq	%r15
	pushq	%r14
	pushq	%r13
	pushq	%r12
	pushq	%rbx
	subq	$136, %rsp
	movq	40(%rdi), %r13
	movq	56(%rdi), %r12
	movq	64(%rdi), %rax
	movq	%rax, 8(%rsp)
	movq	80(%rdi), %r14
	movq	88(%rdi), %rax
	movq	%rax, 16(%rsp)
	movq	104(%rdi), %r15
	movq	112(%rdi), %rax
	movq	%rax, 24(%rsp)
	movq	128(%rdi), %rbx
	movq	136(%rdi), %rax
	movq	%rax, 32(%rsp)
	movq	152(%rdi), %rbp
	movq	176(%rdi), %rax
	movq	%rax, 40(%rsp)
	movq	192(%rdi), %rax
	movq	%rax, 88(%rsp)
	movq	200(%rdi), %rax
	movq	%rax, 56(%rsp)
	movq	216(%rdi), %rax
	movq	%rax, 104(%rsp)
	cmpq	$0, 32(%rdi)
	movq	224(%rdi), %rax
	movq	%rax, 48(%rsp)
	movq	240(%rdi), %rax
	movq	%rax, 96(%rsp)
	movq	248(%rdi), %rax
	movq	%rax, 64(%rsp)
	movq	264(%rdi), %rax
	movq	%rax, 112(%rsp)
	movq	272(%rdi), %rax
	movq	%rax, 72(%rsp)
	movq	288(%rdi), %rax
	movq	%rax, 120(%rsp)
	movq	296(%rdi), %rax
	movq	%rax, 80(%rsp)
	movq	312(%rdi), %rax
	movq	%rax, 128(%rsp)
	je	1f
	movq	16(%rdi), %rdi
	callq	rattle_dealloc@PLT
1:
	testq	%r12, %r12
	je	2f
	movq	%r13, %rdi
	callq	rattle_dealloc@PLT
2:
	testq	%r14, %r14
	je	3f
	movq	8(%rsp), %rdi
	callq	rattle_dealloc@PLT
3:
	testq	%r15, %r15
	je	4f
	movq	16(%rsp), %rdi
	callq	rattle_dealloc@PLT
4:
	testq	%rbx, %rbx
	je	5f
	movq	24(%rsp), %rdi
	callq	rattle_dealloc@PLT
5:
	testq	%rbp, %rbp
	je	6f
	movq	32(%rsp), %rdi
	callq	rattle_dealloc@PLT
6:
	cmpq	$0, 88(%rsp)
	je	7f
	movq	40(%rsp), %rdi
	callq	rattle_dealloc@PLT
7:
	cmpq	$0, 104(%rsp)
	je	8f
	movq	56(%rsp), %rdi
	callq	rattle_dealloc@PLT
8:
	cmpq	$0, 96(%rsp)
	je	9f
	movq	48(%rsp), %rdi
	callq	rattle_dealloc@PLT
9:
	cmpq	$0, 112(%rsp)
	je	10f
	movq	64(%rsp), %rdi
	callq	rattle_dealloc@PLT
10:
	cmpq	$0, 120(%rsp)
	je	11f
	movq	72(%rsp), %rdi
	callq	rattle_dealloc@PLT
11:
	cmpq	$0, 128(%rsp)
	je	12f
	movq	80(%rsp), %rdi
	addq	$136, %rsp
	popq	%rbx
	popq	%r12
	popq	%r13
	popq	%r14
	popq	%r15
	popq	%rbp
	jmp	rattle_dealloc@PLT
12:
	addq	$136, %rsp
	popq	%rbx
	popq	%r12
	popq	%r13
	popq	%r14
	popq	%r15
	popq	%rbp
	retq
13:
	.size	"mime_lookup::mime_lookup++read_back++pairs++IndexedPairs+Destruct::drop", 13b-"mime_lookup::mime_lookup++read_back++pairs++IndexedPairs+Destruct::drop"

	.text
	.p2align	4
	.type	"mime_lookup::name_map::other_value::<#643ceef07a9c3c2a>",@function
"mime_lookup::name_map::other_value::<#643ceef07a9c3c2a>":
	pushq	%rbp
	pushq	%r15
	pushq	%r14
	pushq	%r13
	pushq	%r12
	pushq	%rbx
	subq	$120, %rsp
	movq	%rcx, %rbp
	movq	%rdx, %r11
	movq	152(%rsi), %rax
	xorq	%rcx, %rax
	movabsq	$-7046029254386353147, %rcx
	mulq	%rcx
	xorq	%rax, %rdx
	testq	%rbp, %rbp
	movq	%rdi, 64(%rsp)
	je	4f
	movabsq	$-7046029254386353129, %rcx
	cmpq	$1, %rbp
	jne	1f
	xorl	%r10d, %r10d
	jmp	3f
1:
	movq	%rbp, %r9
	andq	$-2, %r9
	xorl	%r10d, %r10d
	.p2align	4
2:
	movzbl	(%r11,%r10), %eax
	imulq	$65793, %rax, %rax
	xorq	%rdx, %rax
	mulq	%rcx
	movzbl	1(%r11,%r10), %r8d
	imulq	$65793, %r8, %r8
	xorq	%rdx, %r8
	xorq	%r8, %rax
	mulq	%rcx
	xorq	%rax, %rdx
	addq	$2, %r10
	cmpq	%r10, %r9
	jne	2b
	testb	$1, %bpl
	je	4f
3:
	movzbl	(%r11,%r10), %eax
	imulq	$65793, %rax, %rax
	xorq	%rdx, %rax
	mulq	%rcx
	xorq	%rax, %rdx
4:
	movq	%rsi, 40(%rsp)
	movq	104(%rsi), %rax
	testq	%rax, %rax
	je	15f
	movq	%rax, %rsi
	movq	40(%rsp), %rax
	movq	48(%rax), %r13
	movq	96(%rax), %rax
	movq	%rax, 32(%rsp)
	movq	%rdx, %rax
	shrq	$32, %rax
	xorl	%edx, %eax
	movl	%eax, %ecx
	shrl	$24, %ecx
	cmpb	$1, %cl
	adcl	$0, %ecx
	leal	-1(%rsi), %edx
	andl	%eax, %edx
	movd	%ecx, %xmm1
	pxor	%xmm0, %xmm0
	movl	$1, %eax
	shll	%cl, %eax
	movl	%eax, 12(%rsp)
	pshufb	%xmm0, %xmm1
	movdqa	%xmm1, 48(%rsp)
	decq	%rsi
	movq	%rsi, 24(%rsp)
	movq	%rdx, 16(%rsp)
	movq	%rdx, %rax
	cmpq	$4, %rbp
	jae	11f
	movq	16(%rsp), %rax
	movq	%rax, %rcx
	testq	%rbp, %rbp
	je	17f
5:
	movq	%rax, %rdx
	shlq	$6, %rdx
	movq	32(%rsp), %rsi
	leaq	(%rsi,%rdx), %rcx
	movdqu	(%rsi,%rdx), %xmm0
	pcmpeqb	48(%rsp), %xmm0
	pmovmskb	%xmm0, %edx
	andl	$4095, %edx
	je	10f
	movzwl	%dx, %edx
	jmp	9f
	.p2align	4
6:
	xorl	%edi, %edi
7:
	cmpq	%rbp, %rdi
	jae	20f
8:
	leal	-1(%rdx), %esi
	andl	%edx, %esi
	movl	%esi, %edx
	je	10f
9:
	rep		bsfl	%edx, %esi
	movl	16(%rcx,%rsi,4), %r14d
	shlq	$4, %r14
	cmpq	8(%r13,%r14), %rbp
	jne	8b
	movq	(%r13,%r14), %rsi
	movzbl	(%r11), %edi
	cmpb	(%rsi), %dil
	jne	6b
	cmpq	$1, %rbp
	je	20f
	movzbl	1(%r11), %r8d
	movl	$1, %edi
	cmpb	1(%rsi), %r8b
	jne	7b
	cmpq	$2, %rbp
	je	20f
	movzbl	2(%r11), %r8d
	movl	$2, %edi
	cmpb	2(%rsi), %r8b
	jne	7b
	jmp	20f
	.p2align	4
10:
	movl	12(%rsp), %edx
	testl	%edx, 12(%rcx)
	je	15f
	incq	%rax
	andq	24(%rsp), %rax
	cmpq	16(%rsp), %rax
	jne	5b
	jmp	15f
	.p2align	4
11:
	movq	%rax, 72(%rsp)
	shlq	$6, %rax
	movq	32(%rsp), %rcx
	leaq	(%rcx,%rax), %rbx
	movdqu	(%rcx,%rax), %xmm0
	pcmpeqb	48(%rsp), %xmm0
	pmovmskb	%xmm0, %eax
	andl	$4095, %eax
	je	14f
	movzwl	%ax, %r12d
	jmp	13f
	.p2align	4
12:
	leal	-1(%r12), %eax
	andl	%r12d, %eax
	movl	%eax, %r12d
	je	14f
13:
	rep		bsfl	%r12d, %eax
	movl	16(%rbx,%rax,4), %r14d
	shlq	$4, %r14
	cmpq	8(%r13,%r14), %rbp
	jne	12b
	movq	(%r13,%r14), %rdx
	movl	(%r11), %eax
	cmpl	(%rdx), %eax
	jne	12b
	movq	%r11, %rdi
	movq	%rbp, %rsi
	movq	%r11, %r15
	callq	"core::cmp::slices::groups_equal::<i8,31'core::cmp::numbers::U8PartialEq{}>"
	movq	%r15, %r11
	testb	%al, %al
	je	12b
	jmp	20f
	.p2align	4
14:
	movl	12(%rsp), %eax
	testl	%eax, 12(%rbx)
	movq	72(%rsp), %rax
	je	15f
	incq	%rax
	andq	24(%rsp), %rax
	cmpq	16(%rsp), %rax
	jne	11b
15:
	pxor	%xmm0, %xmm0
	movdqa	%xmm0, 80(%rsp)
	xorl	%eax, %eax
	jmp	21f
	.p2align	4
16:
	incq	%rcx
	andq	24(%rsp), %rcx
	cmpq	16(%rsp), %rcx
	je	15b
17:
	movq	%rcx, %rdx
	shlq	$6, %rdx
	movq	32(%rsp), %rsi
	leaq	(%rsi,%rdx), %rax
	movdqu	(%rsi,%rdx), %xmm0
	pcmpeqb	48(%rsp), %xmm0
	pmovmskb	%xmm0, %edx
	andl	$4095, %edx
	je	19f
	movzwl	%dx, %edx
	.p2align	4
18:
	rep		bsfl	%edx, %esi
	movl	16(%rax,%rsi,4), %r14d
	shlq	$4, %r14
	cmpq	$0, 8(%r13,%r14)
	je	20f
	leal	-1(%rdx), %esi
	andl	%edx, %esi
	movl	%esi, %edx
	jne	18b
19:
	movl	12(%rsp), %edx
	testl	%edx, 12(%rax)
	jne	16b
	jmp	15b
20:
	movq	40(%rsp), %rax
	movq	72(%rax), %rax
	movups	(%rax,%r14), %xmm0
	movaps	%xmm0, 80(%rsp)
	movl	$1, %eax
21:
	movaps	80(%rsp), %xmm0
	movaps	%xmm0, 96(%rsp)
	movq	64(%rsp), %rcx
	movq	%rax, (%rcx)
	movaps	96(%rsp), %xmm0
	movups	%xmm0, 8(%rcx)
	addq	$120, %rsp
	popq	%rbx
	popq	%r12
	popq	%r13
	popq	%r14
	popq	%r15
	popq	%rbp
	retq
22:
	.size	"mime_lookup::name_map::other_value::<#643ceef07a9c3c2a>", 22b-"mime_lookup::name_map::other_value::<#643ceef07a9c3c2a>"

	.text
	.p2align	4
	.type	"mime_lookup::name_map::other_value::<#afcbbff7ae072e5e>",@function
"mime_lookup::name_map::other_value::<#afcbbff7ae072e5e>":
	pushq	%rbp
	pushq	%r15
	pushq	%r14
	pushq	%r13
	pushq	%r12
	pushq	%rbx
	subq	$120, %rsp
	movq	%rcx, %rbp
	movq	%rdx, %r15
	movq	152(%rsi), %rax
	xorq	%rcx, %rax
	movabsq	$-7046029254386353147, %rcx
	mulq	%rcx
	xorq	%rax, %rdx
	testq	%rbp, %rbp
	movq	%rdi, 64(%rsp)
	je	4f
	movabsq	$-7046029254386353129, %rcx
	cmpq	$1, %rbp
	jne	1f
	xorl	%r9d, %r9d
	jmp	3f
1:
	movq	%rbp, %rdi
	andq	$-2, %rdi
	xorl	%r9d, %r9d
	.p2align	4
2:
	movzbl	(%r15,%r9), %eax
	imulq	$65793, %rax, %rax
	xorq	%rdx, %rax
	mulq	%rcx
	movzbl	1(%r15,%r9), %r8d
	imulq	$65793, %r8, %r8
	xorq	%rdx, %r8
	xorq	%r8, %rax
	mulq	%rcx
	xorq	%rax, %rdx
	addq	$2, %r9
	cmpq	%r9, %rdi
	jne	2b
	testb	$1, %bpl
	je	4f
3:
	movzbl	(%r15,%r9), %eax
	imulq	$65793, %rax, %rax
	xorq	%rdx, %rax
	mulq	%rcx
	xorq	%rax, %rdx
4:
	movq	%rsi, 40(%rsp)
	movq	104(%rsi), %rax
	testq	%rax, %rax
	je	15f
	movq	%rax, %rsi
	movq	40(%rsp), %rax
	movq	48(%rax), %r13
	movq	96(%rax), %rax
	movq	%rax, 32(%rsp)
	movq	%rdx, %rax
	shrq	$32, %rax
	xorl	%edx, %eax
	movl	%eax, %ecx
	shrl	$24, %ecx
	cmpb	$1, %cl
	adcl	$0, %ecx
	leal	-1(%rsi), %edx
	andl	%eax, %edx
	movd	%ecx, %xmm1
	pxor	%xmm0, %xmm0
	movl	$1, %eax
	shll	%cl, %eax
	movl	%eax, 12(%rsp)
	pshufb	%xmm0, %xmm1
	movdqa	%xmm1, 48(%rsp)
	decq	%rsi
	movq	%rsi, 24(%rsp)
	movq	%rdx, 16(%rsp)
	movq	%rdx, %rax
	cmpq	$4, %rbp
	jae	11f
	movq	16(%rsp), %rax
	movq	%rax, %rcx
	testq	%rbp, %rbp
	je	17f
5:
	movq	%rax, %rdx
	shlq	$6, %rdx
	movq	32(%rsp), %rsi
	leaq	(%rsi,%rdx), %rcx
	movdqu	(%rsi,%rdx), %xmm0
	pcmpeqb	48(%rsp), %xmm0
	pmovmskb	%xmm0, %edx
	andl	$4095, %edx
	je	10f
	movzwl	%dx, %edx
	jmp	9f
	.p2align	4
6:
	xorl	%edi, %edi
7:
	cmpq	%rbp, %rdi
	jae	20f
8:
	leal	-1(%rdx), %esi
	andl	%edx, %esi
	movl	%esi, %edx
	je	10f
9:
	rep		bsfl	%edx, %esi
	movl	16(%rcx,%rsi,4), %r14d
	movq	%r14, %rsi
	shlq	$4, %rsi
	cmpq	8(%r13,%rsi), %rbp
	jne	8b
	movq	(%r13,%rsi), %rsi
	movzbl	(%r15), %edi
	cmpb	(%rsi), %dil
	jne	6b
	cmpq	$1, %rbp
	je	20f
	movzbl	1(%r15), %r8d
	movl	$1, %edi
	cmpb	1(%rsi), %r8b
	jne	7b
	cmpq	$2, %rbp
	je	20f
	movzbl	2(%r15), %r8d
	movl	$2, %edi
	cmpb	2(%rsi), %r8b
	jne	7b
	jmp	20f
	.p2align	4
10:
	movl	12(%rsp), %edx
	testl	%edx, 12(%rcx)
	je	15f
	incq	%rax
	andq	24(%rsp), %rax
	cmpq	16(%rsp), %rax
	jne	5b
	jmp	15f
	.p2align	4
11:
	movq	%rax, 72(%rsp)
	shlq	$6, %rax
	movq	32(%rsp), %rcx
	leaq	(%rcx,%rax), %rbx
	movdqu	(%rcx,%rax), %xmm0
	pcmpeqb	48(%rsp), %xmm0
	pmovmskb	%xmm0, %eax
	andl	$4095, %eax
	je	14f
	movzwl	%ax, %r12d
	jmp	13f
	.p2align	4
12:
	leal	-1(%r12), %eax
	andl	%r12d, %eax
	movl	%eax, %r12d
	je	14f
13:
	rep		bsfl	%r12d, %eax
	movl	16(%rbx,%rax,4), %r14d
	movq	%r14, %rax
	shlq	$4, %rax
	cmpq	8(%r13,%rax), %rbp
	jne	12b
	movq	(%r13,%rax), %rdx
	movl	(%r15), %eax
	cmpl	(%rdx), %eax
	jne	12b
	movq	%r15, %rdi
	movq	%rbp, %rsi
	callq	"core::cmp::slices::groups_equal::<i8,31'core::cmp::numbers::U8PartialEq{}>"
	testb	%al, %al
	je	12b
	jmp	20f
	.p2align	4
14:
	movl	12(%rsp), %eax
	testl	%eax, 12(%rbx)
	movq	72(%rsp), %rax
	je	15f
	incq	%rax
	andq	24(%rsp), %rax
	cmpq	16(%rsp), %rax
	jne	11b
15:
	pxor	%xmm0, %xmm0
	movdqa	%xmm0, 80(%rsp)
	xorl	%ecx, %ecx
	xorl	%eax, %eax
	jmp	21f
	.p2align	4
16:
	incq	%rcx
	andq	24(%rsp), %rcx
	cmpq	16(%rsp), %rcx
	je	15b
17:
	movq	%rcx, %rdx
	shlq	$6, %rdx
	movq	32(%rsp), %rsi
	leaq	(%rsi,%rdx), %rax
	movdqu	(%rsi,%rdx), %xmm0
	pcmpeqb	48(%rsp), %xmm0
	pmovmskb	%xmm0, %edx
	andl	$4095, %edx
	je	19f
	movzwl	%dx, %edx
	.p2align	4
18:
	rep		bsfl	%edx, %esi
	movl	16(%rax,%rsi,4), %r14d
	movq	%r14, %rsi
	shlq	$4, %rsi
	cmpq	$0, 8(%r13,%rsi)
	je	20f
	leal	-1(%rdx), %esi
	andl	%edx, %esi
	movl	%esi, %edx
	jne	18b
19:
	movl	12(%rsp), %edx
	testl	%edx, 12(%rax)
	jne	16b
	jmp	15b
20:
	movq	40(%rsp), %rax
	movq	72(%rax), %rcx
	leaq	(%r14,%r14,2), %rdx
	movzbl	(%rcx,%rdx,8), %eax
	movups	8(%rcx,%rdx,8), %xmm0
	movaps	%xmm0, 80(%rsp)
	movl	$1, %ecx
21:
	movaps	80(%rsp), %xmm0
	movaps	%xmm0, 96(%rsp)
	movq	64(%rsp), %rdx
	movq	%rcx, (%rdx)
	movq	%rax, 8(%rdx)
	movaps	96(%rsp), %xmm0
	movups	%xmm0, 16(%rdx)
	addq	$120, %rsp
	popq	%rbx
	popq	%r12
	popq	%r13
	popq	%r14
	popq	%r15
	popq	%rbp
	retq
22:
	.size	"mime_lookup::name_map::other_value::<#afcbbff7ae072e5e>", 22b-"mime_lookup::name_map::other_value::<#afcbbff7ae072e5e>"

	.text
	.p2align	4
	.type	"mime_lookup::name_map::put_other::<#643ceef07a9c3c2a>",@function
"mime_lookup::name_map::put_other::<#643ceef07a9c3c2a>":
	pushq	%rbp
	pushq	%r15
	pushq	%r14
	pushq	%r13
	pushq	%r12
	pushq	%rbx
	subq	$136, %rsp
	movq	%rcx, %r10
	movq	%rdx, 8(%rsp)
	movq	104(%rsi), %rax
	xorq	%rcx, %rax
	movabsq	$-7046029254386353147, %rcx
	mulq	%rcx
	xorq	%rax, %rdx
	testq	%r10, %r10
	movq	%r10, 48(%rsp)
	movq	%rdi, 72(%rsp)
	movq	%r9, 64(%rsp)
	movq	%r8, 56(%rsp)
	je	4f
	movabsq	$-7046029254386353129, %rcx
	cmpq	$1, %r10
	jne	1f
	xorl	%r11d, %r11d
	jmp	3f
1:
	movq	%r10, %rdi
	andq	$-2, %rdi
	xorl	%r11d, %r11d
	movq	8(%rsp), %rbx
	.p2align	4
2:
	movzbl	(%rbx,%r11), %eax
	imulq	$65793, %rax, %rax
	xorq	%rdx, %rax
	mulq	%rcx
	movzbl	1(%rbx,%r11), %r10d
	imulq	$65793, %r10, %r10
	xorq	%rdx, %r10
	xorq	%r10, %rax
	mulq	%rcx
	xorq	%rax, %rdx
	addq	$2, %r11
	cmpq	%r11, %rdi
	jne	2b
	movq	48(%rsp), %r10
	testb	$1, %r10b
	je	4f
3:
	movq	8(%rsp), %rax
	movzbl	(%rax,%r11), %eax
	imulq	$65793, %rax, %rax
	xorq	%rdx, %rax
	mulq	%rcx
	xorq	%rax, %rdx
4:
	movl	$4294967295, %r15d
	movq	%rdx, %rax
	shrq	$32, %rax
	xorq	%rdx, %rax
	movq	%rax, 80(%rsp)
	movq	8(%rsi), %rax
	movq	%rax, 104(%rsp)
	movq	48(%rsi), %r9
	movq	%rsi, 32(%rsp)
	movq	56(%rsi), %rax
	movq	%rax, 24(%rsp)
	testq	%rax, %rax
	movq	8(%rsp), %rdi
	je	17f
	movq	32(%rsp), %rax
	movq	(%rax), %r14
	movq	80(%rsp), %rax
	movl	%eax, %ecx
	shrl	$24, %ecx
	cmpb	$1, %cl
	adcl	$0, %ecx
	movq	24(%rsp), %rdx
	leal	(%rdx,%r15), %ebx
	andl	%eax, %ebx
	movd	%ecx, %xmm1
	pxor	%xmm0, %xmm0
	movl	$1, %eax
	shll	%cl, %eax
	movl	%eax, 20(%rsp)
	pshufb	%xmm0, %xmm1
	movdqa	%xmm1, 112(%rsp)
	leaq	-1(%rdx), %rax
	movq	%rax, 88(%rsp)
	movq	%rbx, 40(%rsp)
	cmpq	$4, %r10
	movq	%r9, 96(%rsp)
	jae	13f
	movq	40(%rsp), %rax
5:
	movq	%rax, %rdx
	shlq	$6, %rdx
	leaq	(%r9,%rdx), %rcx
	movdqu	(%r9,%rdx), %xmm0
	pcmpeqb	112(%rsp), %xmm0
	pmovmskb	%xmm0, %esi
	andl	$4095, %esi
	je	7f
	leaq	16(%rcx), %rdx
	movzwl	%si, %esi
	testq	%r10, %r10
	jne	11f
	.p2align	4
6:
	rep		bsfl	%esi, %r8d
	movl	(%rdx,%r8,4), %r12d
	shlq	$4, %r12
	cmpq	$0, 8(%r14,%r12)
	je	12f
	leal	-1(%rsi), %r8d
	andl	%esi, %r8d
	movl	%r8d, %esi
	jne	6b
	.p2align	4
7:
	movl	20(%rsp), %edx
	testl	%edx, 12(%rcx)
	movq	96(%rsp), %r9
	je	17f
	incq	%rax
	andq	88(%rsp), %rax
	cmpq	40(%rsp), %rax
	jne	5b
	jmp	17f
	.p2align	4
8:
	xorl	%r8d, %r8d
9:
	cmpq	%r10, %r8
	jae	12f
10:
	leal	-1(%rsi), %r8d
	andl	%esi, %r8d
	movl	%r8d, %esi
	je	7b
11:
	rep		bsfl	%esi, %r8d
	movl	(%rdx,%r8,4), %r12d
	shlq	$4, %r12
	cmpq	8(%r14,%r12), %r10
	jne	10b
	movq	(%r14,%r12), %r11
	movzbl	(%rdi), %r8d
	cmpb	(%r11), %r8b
	jne	8b
	cmpq	$1, %r10
	je	12f
	movzbl	1(%rdi), %r9d
	movl	$1, %r8d
	cmpb	1(%r11), %r9b
	jne	9b
	cmpq	$2, %r10
	je	12f
	movzbl	2(%rdi), %r9d
	movl	$2, %r8d
	cmpb	2(%r11), %r9b
	jne	9b
12:
	movq	32(%rsp), %rax
	movq	24(%rax), %rcx
	movq	(%rcx,%r12), %rax
	movq	8(%rcx,%r12), %rdx
	movq	56(%rsp), %rsi
	movq	%rsi, (%rcx,%r12)
	movq	64(%rsp), %rsi
	movq	%rsi, 8(%rcx,%r12)
	movl	$1, %ecx
	jmp	21f
	.p2align	4
13:
	movq	%rbx, %rax
	shlq	$6, %rax
	leaq	(%r9,%rax), %rbp
	movdqu	(%r9,%rax), %xmm0
	pcmpeqb	112(%rsp), %xmm0
	pmovmskb	%xmm0, %eax
	andl	$4095, %eax
	je	16f
	movzwl	%ax, %r13d
	jmp	15f
	.p2align	4
14:
	leal	-1(%r13), %eax
	andl	%r13d, %eax
	movl	%eax, %r13d
	je	16f
15:
	rep		bsfl	%r13d, %eax
	movl	16(%rbp,%rax,4), %r12d
	shlq	$4, %r12
	cmpq	8(%r14,%r12), %r10
	jne	14b
	movq	(%r14,%r12), %rdx
	movl	(%rdi), %eax
	cmpl	(%rdx), %eax
	jne	14b
	movq	%r10, %rsi
	callq	"core::cmp::slices::groups_equal::<i8,31'core::cmp::numbers::U8PartialEq{}>"
	movq	8(%rsp), %rdi
	movq	48(%rsp), %r10
	testb	%al, %al
	je	14b
	jmp	12b
	.p2align	4
16:
	movl	20(%rsp), %eax
	testl	%eax, 12(%rbp)
	movq	96(%rsp), %r9
	je	17f
	incq	%rbx
	andq	88(%rsp), %rbx
	cmpq	40(%rsp), %rbx
	jne	13b
17:
	movq	32(%rsp), %rbx
	movq	16(%rbx), %rax
	movq	40(%rbx), %rcx
	cmpq	%rax, %rcx
	cmovbq	%rcx, %rax
	xorl	%ecx, %ecx
	subq	104(%rsp), %rax
	cmovaeq	%rax, %rcx
	movq	96(%rbx), %rax
	cmpq	%rax, %rcx
	cmovaeq	%rax, %rcx
	testq	%rcx, %rcx
	movq	80(%rsp), %r14
	je	23f
18:
	movq	80(%rbx), %rdx
	movl	%r14d, %eax
	movq	24(%rsp), %r11
	addl	%r11d, %r15d
	andl	%r14d, %r15d
	shrl	$24, %r14d
	cmpb	$1, %r14b
	adcl	$0, %r14d
	movl	$1, %esi
	movl	%r14d, %ecx
	shll	%cl, %esi
	decq	%r11
	.p2align	4
19:
	movq	%r15, %r8
	shlq	$6, %r8
	leaq	(%r9,%r8), %rcx
	movdqu	(%r9,%r8), %xmm0
	pxor	%xmm1, %xmm1
	pcmpeqb	%xmm0, %xmm1
	pmovmskb	%xmm1, %r8d
	andl	$4095, %r8d
	jne	20f
	orl	%esi, 12(%rcx)
	incq	%r15
	andq	%r11, %r15
	jmp	19b
20:
	rep		bsfl	%r8d, %esi
	movb	%r14b, (%rcx,%rsi)
	movl	%edx, 16(%rcx,%rsi,4)
	shll	$4, %r15d
	movq	72(%rbx), %rcx
	movq	80(%rbx), %rdx
	orl	%esi, %r15d
	shlq	$32, %r15
	orq	%rax, %r15
	movq	%r15, (%rcx,%rdx,8)
	incq	%rdx
	movq	%rdx, 80(%rbx)
	decq	96(%rbx)
	movq	(%rbx), %rax
	movq	8(%rbx), %rcx
	movq	%rcx, %rdx
	shlq	$4, %rdx
	movq	%rdi, (%rax,%rdx)
	movq	%r10, 8(%rax,%rdx)
	incq	%rcx
	movq	%rcx, 8(%rbx)
	movq	24(%rbx), %rax
	movq	32(%rbx), %rcx
	movq	%rcx, %rdx
	shlq	$4, %rdx
	movq	56(%rsp), %rsi
	movq	%rsi, (%rax,%rdx)
	movq	64(%rsp), %rsi
	movq	%rsi, 8(%rax,%rdx)
	incq	%rcx
	movq	%rcx, 32(%rbx)
	xorl	%ecx, %ecx
	xorl	%eax, %eax
	xorl	%edx, %edx
21:
	movq	72(%rsp), %rsi
	movb	$0, (%rsi)
	movq	%rcx, 8(%rsi)
	movq	%rax, 16(%rsi)
	movq	%rdx, 24(%rsi)
22:
	addq	$136, %rsp
	popq	%rbx
	popq	%r12
	popq	%r13
	popq	%r14
	popq	%r15
	popq	%rbp
	retq
23:
	movq	%rbx, %rdi
	callq	"indexmap::map::IndexMap::grow::<#b179f2375b12a751>"
	testb	%al, %al
	je	24f
	movq	72(%rsp), %rax
	movb	$1, (%rax)
	pxor	%xmm0, %xmm0
	movdqu	%xmm0, 8(%rax)
	movq	$0, 24(%rax)
	jmp	22b
24:
	movq	48(%rbx), %r9
	movq	56(%rbx), %rax
	movq	%rax, 24(%rsp)
	movq	48(%rsp), %r10
	movq	8(%rsp), %rdi
	jmp	18b
25:
	.size	"mime_lookup::name_map::put_other::<#643ceef07a9c3c2a>", 25b-"mime_lookup::name_map::put_other::<#643ceef07a9c3c2a>"

	.text
	.p2align	4
	.type	"mime_lookup::name_map::put_other::<#afcbbff7ae072e5e>",@function
"mime_lookup::name_map::put_other::<#afcbbff7ae072e5e>":
	pushq	%rbp
	pushq	%r15
	pushq	%r14
	pushq	%r13
	pushq	%r12
	pushq	%rbx
	subq	$136, %rsp
	movq	%rdx, (%rsp)
	movzbl	(%r8), %r11d
	movq	104(%rsi), %rax
	xorq	%rcx, %rax
	movabsq	$-7046029254386353147, %rdx
	mulq	%rdx
	xorq	%rax, %rdx
	testq	%rcx, %rcx
	movq	%rcx, 16(%rsp)
	movq	%rdi, 72(%rsp)
	movq	%r11, 64(%rsp)
	je	1f
	movabsq	$-7046029254386353129, %rbx
	cmpq	$1, %rcx
	jne	2f
	xorl	%r10d, %r10d
	movq	(%rsp), %r11
	jmp	4f
1:
	movq	(%rsp), %r11
	jmp	5f
2:
	movq	%rcx, %rdi
	andq	$-2, %rdi
	xorl	%r10d, %r10d
	movq	(%rsp), %rcx
	.p2align	4
3:
	movzbl	(%rcx,%r10), %eax
	imulq	$65793, %rax, %rax
	xorq	%rdx, %rax
	mulq	%rbx
	movzbl	1(%rcx,%r10), %r9d
	imulq	$65793, %r9, %r9
	xorq	%rdx, %r9
	xorq	%r9, %rax
	mulq	%rbx
	xorq	%rax, %rdx
	addq	$2, %r10
	cmpq	%r10, %rdi
	jne	3b
	testb	$1, 16(%rsp)
	movq	%rcx, %r11
	je	5f
4:
	movzbl	(%r11,%r10), %eax
	imulq	$65793, %rax, %rax
	xorq	%rdx, %rax
	mulq	%rbx
	xorq	%rax, %rdx
5:
	movq	8(%r8), %rax
	movq	%rax, 48(%rsp)
	movq	16(%r8), %rax
	movq	%rax, 56(%rsp)
	movl	$4294967295, %ebp
	movq	%rdx, %rax
	shrq	$32, %rax
	xorq	%rdx, %rax
	movq	%rax, 80(%rsp)
	movq	8(%rsi), %rax
	movq	%rax, 104(%rsp)
	movq	48(%rsi), %r9
	movq	%rsi, 32(%rsp)
	movq	56(%rsi), %rax
	movq	%rax, 24(%rsp)
	testq	%rax, %rax
	movq	16(%rsp), %rsi
	je	18f
	movq	32(%rsp), %rax
	movq	(%rax), %r13
	movq	80(%rsp), %rax
	movl	%eax, %ecx
	shrl	$24, %ecx
	cmpb	$1, %cl
	adcl	$0, %ecx
	movq	24(%rsp), %rdx
	leal	(%rdx,%rbp), %ebx
	andl	%eax, %ebx
	movd	%ecx, %xmm1
	pxor	%xmm0, %xmm0
	movl	$1, %eax
	shll	%cl, %eax
	movl	%eax, 12(%rsp)
	pshufb	%xmm0, %xmm1
	movdqa	%xmm1, 112(%rsp)
	leaq	-1(%rdx), %rax
	movq	%rax, 88(%rsp)
	movq	%rbx, 40(%rsp)
	cmpq	$4, %rsi
	movq	%r9, 96(%rsp)
	jae	14f
	movq	40(%rsp), %rax
6:
	movq	%rax, %rdx
	shlq	$6, %rdx
	leaq	(%r9,%rdx), %rcx
	movdqu	(%r9,%rdx), %xmm0
	pcmpeqb	112(%rsp), %xmm0
	pmovmskb	%xmm0, %edi
	andl	$4095, %edi
	je	8f
	leaq	16(%rcx), %rdx
	movzwl	%di, %r10d
	testq	%rsi, %rsi
	jne	12f
	.p2align	4
7:
	rep		bsfl	%r10d, %edi
	movl	(%rdx,%rdi,4), %r14d
	movq	%r14, %rdi
	shlq	$4, %rdi
	cmpq	$0, 8(%r13,%rdi)
	je	13f
	leal	-1(%r10), %edi
	andl	%r10d, %edi
	movl	%edi, %r10d
	jne	7b
	.p2align	4
8:
	movl	12(%rsp), %edx
	testl	%edx, 12(%rcx)
	movq	96(%rsp), %r9
	je	18f
	incq	%rax
	andq	88(%rsp), %rax
	cmpq	40(%rsp), %rax
	jne	6b
	jmp	18f
	.p2align	4
9:
	xorl	%r8d, %r8d
10:
	cmpq	%rsi, %r8
	jae	13f
11:
	leal	-1(%r10), %edi
	andl	%r10d, %edi
	movl	%edi, %r10d
	je	8b
12:
	rep		bsfl	%r10d, %edi
	movl	(%rdx,%rdi,4), %r14d
	movq	%r14, %rdi
	shlq	$4, %rdi
	cmpq	8(%r13,%rdi), %rsi
	jne	11b
	movq	(%r13,%rdi), %rdi
	movzbl	(%r11), %r8d
	cmpb	(%rdi), %r8b
	jne	9b
	cmpq	$1, %rsi
	je	13f
	movzbl	1(%r11), %r9d
	movl	$1, %r8d
	cmpb	1(%rdi), %r9b
	jne	10b
	cmpq	$2, %rsi
	je	13f
	movzbl	2(%r11), %r9d
	movl	$2, %r8d
	cmpb	2(%rdi), %r9b
	jne	10b
13:
	movq	32(%rsp), %rax
	movq	24(%rax), %rcx
	leaq	(%r14,%r14,2), %rdx
	movzbl	(%rcx,%rdx,8), %eax
	movups	8(%rcx,%rdx,8), %xmm0
	movq	64(%rsp), %rsi
	movq	%rsi, (%rcx,%rdx,8)
	movq	48(%rsp), %rsi
	movq	%rsi, 8(%rcx,%rdx,8)
	movq	56(%rsp), %rsi
	movq	%rsi, 16(%rcx,%rdx,8)
	movl	$1, %ecx
	jmp	22f
	.p2align	4
14:
	movq	%rbx, %rax
	shlq	$6, %rax
	leaq	(%r9,%rax), %r12
	movdqu	(%r9,%rax), %xmm0
	pcmpeqb	112(%rsp), %xmm0
	pmovmskb	%xmm0, %eax
	andl	$4095, %eax
	je	17f
	movzwl	%ax, %r15d
	jmp	16f
	.p2align	4
15:
	leal	-1(%r15), %eax
	andl	%r15d, %eax
	movl	%eax, %r15d
	je	17f
16:
	rep		bsfl	%r15d, %eax
	movl	16(%r12,%rax,4), %r14d
	movq	%r14, %rax
	shlq	$4, %rax
	cmpq	8(%r13,%rax), %rsi
	jne	15b
	movq	(%r13,%rax), %rdx
	movl	(%r11), %eax
	cmpl	(%rdx), %eax
	jne	15b
	movq	%r11, %rdi
	callq	"core::cmp::slices::groups_equal::<i8,31'core::cmp::numbers::U8PartialEq{}>"
	movq	(%rsp), %r11
	movq	16(%rsp), %rsi
	testb	%al, %al
	je	15b
	jmp	13b
	.p2align	4
17:
	movl	12(%rsp), %eax
	testl	%eax, 12(%r12)
	movq	96(%rsp), %r9
	je	18f
	incq	%rbx
	andq	88(%rsp), %rbx
	cmpq	40(%rsp), %rbx
	jne	14b
18:
	movq	32(%rsp), %rbx
	movq	16(%rbx), %rax
	movq	40(%rbx), %rcx
	cmpq	%rax, %rcx
	cmovbq	%rcx, %rax
	xorl	%ecx, %ecx
	subq	104(%rsp), %rax
	cmovaeq	%rax, %rcx
	movq	96(%rbx), %rax
	cmpq	%rax, %rcx
	cmovaeq	%rax, %rcx
	testq	%rcx, %rcx
	movq	80(%rsp), %r14
	je	24f
19:
	movq	80(%rbx), %rdx
	movl	%r14d, %eax
	movq	24(%rsp), %r10
	addl	%r10d, %ebp
	andl	%r14d, %ebp
	shrl	$24, %r14d
	cmpb	$1, %r14b
	adcl	$0, %r14d
	movl	$1, %r8d
	movl	%r14d, %ecx
	shll	%cl, %r8d
	decq	%r10
	.p2align	4
20:
	movq	%rbp, %rdi
	shlq	$6, %rdi
	leaq	(%r9,%rdi), %rcx
	movdqu	(%r9,%rdi), %xmm1
	pxor	%xmm0, %xmm0
	pcmpeqb	%xmm0, %xmm1
	pmovmskb	%xmm1, %edi
	andl	$4095, %edi
	jne	21f
	orl	%r8d, 12(%rcx)
	incq	%rbp
	andq	%r10, %rbp
	jmp	20b
21:
	rep		bsfl	%edi, %edi
	movb	%r14b, (%rcx,%rdi)
	movl	%edx, 16(%rcx,%rdi,4)
	shll	$4, %ebp
	movq	72(%rbx), %rcx
	movq	80(%rbx), %rdx
	orl	%edi, %ebp
	shlq	$32, %rbp
	orq	%rax, %rbp
	movq	%rbp, (%rcx,%rdx,8)
	incq	%rdx
	movq	%rdx, 80(%rbx)
	decq	96(%rbx)
	movq	(%rbx), %rax
	movq	8(%rbx), %rcx
	movq	%rcx, %rdx
	shlq	$4, %rdx
	movq	%r11, (%rax,%rdx)
	movq	%rsi, 8(%rax,%rdx)
	incq	%rcx
	movq	%rcx, 8(%rbx)
	movq	24(%rbx), %rax
	movq	32(%rbx), %rcx
	leaq	(%rcx,%rcx,2), %rdx
	movq	64(%rsp), %rsi
	movq	%rsi, (%rax,%rdx,8)
	movq	48(%rsp), %rsi
	movq	%rsi, 8(%rax,%rdx,8)
	movq	56(%rsp), %rsi
	movq	%rsi, 16(%rax,%rdx,8)
	incq	%rcx
	movq	%rcx, 32(%rbx)
	xorl	%ecx, %ecx
	xorl	%eax, %eax
22:
	movq	72(%rsp), %rdx
	movb	$0, (%rdx)
	movq	%rcx, 8(%rdx)
	movq	%rax, 16(%rdx)
	movdqu	%xmm0, 24(%rdx)
23:
	addq	$136, %rsp
	popq	%rbx
	popq	%r12
	popq	%r13
	popq	%r14
	popq	%r15
	popq	%rbp
	retq
24:
	movq	%rbx, %rdi
	callq	"indexmap::map::IndexMap::grow::<#75e4f0f0dae3feaa>"
	testb	%al, %al
	je	25f
	movq	72(%rsp), %rax
	movb	$1, (%rax)
	pxor	%xmm0, %xmm0
	movdqu	%xmm0, 8(%rax)
	movdqu	%xmm0, 24(%rax)
	jmp	23b
25:
	movq	48(%rbx), %r9
	movq	56(%rbx), %rax
	movq	%rax, 24(%rsp)
	movq	16(%rsp), %rsi
	movq	(%rsp), %r11
	jmp	19b
26:
	.size	"mime_lookup::name_map::put_other::<#afcbbff7ae072e5e>", 26b-"mime_lookup::name_map::put_other::<#afcbbff7ae072e5e>"

	.text
	.p2align	4
	.type	"mime_lookup::read_back::name_types::types_of",@function
"mime_lookup::read_back::name_types::types_of":
	pushq	%rbp
	pushq	%r15
	pushq	%r14
	pushq	%r13
	pushq	%r12
	pushq	%rbx
	subq	$440, %rsp
	movq	%r8, %r15
	movl	%ecx, 12(%rsp)
	movq	%rdx, %r13
	movq	%rdi, %rbx
	pxor	%xmm0, %xmm0
	movdqa	%xmm0, 320(%rsp)
	movdqa	%xmm0, 272(%rsp)
	movdqa	%xmm0, 288(%rsp)
	movq	$0, 304(%rsp)
	movdqa	%xmm0, 336(%rsp)
	testb	$1, 496(%rsp)
	movq	%r9, 16(%rsp)
	je	1f
	movq	%rsi, %r14
	addq	$16, %r13
	movdqa	%xmm0, 96(%rsp)
	movdqa	%xmm0, 80(%rsp)
	movq	$0, 112(%rsp)
	leaq	80(%rsp), %rdi
	leaq	336(%rsp), %r8
	movq	%r13, %rsi
	movq	%r15, %rdx
	movq	%r9, %rcx
	callq	"mime_names::ranked::ranked_rules"
	cmpb	$0, 80(%rsp)
	jne	71f
	movq	%r15, 32(%rsp)
	movq	%r14, 208(%rsp)
	movq	%rbx, 56(%rsp)
	movq	88(%rsp), %r14
	movq	96(%rsp), %r8
	movq	104(%rsp), %r15
	movq	112(%rsp), %r9
	testq	%r8, %r8
	je	27f
	movabsq	$576460752303423486, %r12
	leaq	2(%r12), %rax
	cmpq	%rax, %r8
	movl	12(%rsp), %r13d
	jae	26f
	movq	%r8, %rdi
	shlq	$4, %rdi
	movl	$8, %esi
	movq	%r8, %rbp
	movq	%r9, %rbx
	callq	rattle_alloc@PLT
	testb	$1, %al
	je	26f
	movq	%rbx, %r9
	movq	%rbp, %r8
	cmpq	$1, %rbp
	jne	74f
	xorl	%eax, %eax
	jmp	76f
1:
	movq	%r15, 32(%rsp)
	movq	%rsi, 208(%rsp)
	movq	%rbx, 56(%rsp)
	movdqa	%xmm0, 176(%rsp)
	movdqa	%xmm0, 240(%rsp)
	movdqa	%xmm0, 224(%rsp)
	movq	$0, 256(%rsp)
	movdqa	%xmm0, 80(%rsp)
	movdqa	%xmm0, 96(%rsp)
	movdqa	%xmm0, 112(%rsp)
	movdqa	%xmm0, 128(%rsp)
	movdqa	%xmm0, 144(%rsp)
	movq	136(%r13), %rax
	movq	2056(%rax), %r14
	testq	%r14, %r14
	je	7f
	movq	160(%r13), %r15
	movl	$1, %ebx
	jmp	4f
	.p2align	4
2:
	movq	88(%rsp), %rax
	movq	96(%rsp), %rdx
	movq	%rcx, (%rax,%rdx,8)
	incq	%rdx
	movq	%rdx, 96(%rsp)
3:
	movq	%rbx, %rax
	incq	%rax
	movq	$-1, %rbx
	cmovneq	%rax, %rbx
	movq	-8(%r15,%r14,8), %r14
	testq	%r14, %r14
	je	8f
4:
	movzbl	80(%rsp), %eax
	testb	%al, %al
	leaq	152(%rsp), %rcx
	leaq	96(%rsp), %rdx
	movl	$8, %esi
	cmovneq	104(%rsp), %rsi
	cmoveq	%rcx, %rdx
	cmpq	%rsi, (%rdx)
	je	6f
	leaq	-1(%r14), %rcx
	testb	%al, %al
	jne	2b
5:
	movq	152(%rsp), %rax
	movq	%rcx, 88(%rsp,%rax,8)
	incq	%rax
	movq	%rax, 152(%rsp)
	jmp	3b
6:
	leaq	80(%rsp), %rdi
	callq	"smallvec::small_vec::SmallVec::reserve_one::<#1d7ca747d7f7d6e4>"
	testb	%al, %al
	jne	68f
	movzbl	80(%rsp), %eax
	leaq	-1(%r14), %rcx
	testb	%al, %al
	jne	2b
	jmp	5b
7:
	movl	$1, %ebx
8:
	movq	16(%rsp), %r15
	xorl	%r14d, %r14d
	testq	%r15, %r15
	jne	11f
	jmp	19f
	.p2align	4
9:
	movq	%rbx, %rax
	addq	$2, %rax
	movq	$-1, %rbx
	cmovaeq	%rax, %rbx
10:
	decq	%r15
	je	18f
11:
	movq	32(%rsp), %rax
	movzbl	-1(%rax,%r15), %eax
	leaq	.L2f9e9aa9650f(%rip), %rcx
	movzbl	(%rax,%rcx), %eax
	movq	64(%r13), %rcx
	movq	88(%r13), %rdx
	addq	(%rcx,%r14,8), %rax
	movl	(%rdx,%rax,4), %r14d
	testq	%r14, %r14
	je	17f
	movq	136(%r13), %rax
	movq	2056(%rax,%r14,8), %r12
	testq	%r12, %r12
	je	9b
	movq	160(%r13), %rbp
	movq	%rbx, %rax
	addq	$2, %rax
	movq	$-1, %rbx
	cmovaeq	%rax, %rbx
	jmp	14f
	.p2align	4
12:
	movq	88(%rsp), %rax
	movq	96(%rsp), %rdx
	movq	%rcx, (%rax,%rdx,8)
	incq	%rdx
	movq	%rdx, 96(%rsp)
13:
	movq	%rbx, %rax
	incq	%rax
	movq	$-1, %rbx
	cmovneq	%rax, %rbx
	movq	-8(%rbp,%r12,8), %r12
	testq	%r12, %r12
	je	10b
14:
	movzbl	80(%rsp), %eax
	testb	%al, %al
	leaq	152(%rsp), %rcx
	leaq	96(%rsp), %rdx
	movl	$8, %esi
	cmovneq	104(%rsp), %rsi
	cmoveq	%rcx, %rdx
	cmpq	%rsi, (%rdx)
	je	16f
	leaq	-1(%r12), %rcx
	testb	%al, %al
	jne	12b
15:
	movq	152(%rsp), %rax
	movq	%rcx, 88(%rsp,%rax,8)
	incq	%rax
	movq	%rax, 152(%rsp)
	jmp	13b
16:
	leaq	80(%rsp), %rdi
	callq	"smallvec::small_vec::SmallVec::reserve_one::<#1d7ca747d7f7d6e4>"
	testb	%al, %al
	jne	68f
	movzbl	80(%rsp), %eax
	leaq	-1(%r12), %rcx
	testb	%al, %al
	jne	12b
	jmp	15b
17:
	incq	%rbx
	movq	$-1, %rax
	cmovneq	%rbx, %rax
	jmp	29f
18:
	shlq	$3, %r14
19:
	movq	%rbx, %rax
	incq	%rax
	movq	$-1, %rcx
	cmovneq	%rax, %rcx
	movq	%rcx, 176(%rsp)
	movq	64(%r13), %rax
	movq	88(%r13), %rcx
	movq	(%rax,%r14), %rax
	movl	(%rcx,%rax,4), %eax
	testq	%rax, %rax
	je	30f
	movq	136(%r13), %rcx
	movq	2056(%rcx,%rax,8), %r14
	testq	%r14, %r14
	je	28f
	movq	160(%r13), %r15
	addq	$2, %rbx
	movq	$-1, %r12
	cmovaeq	%rbx, %r12
	jmp	22f
	.p2align	4
20:
	movq	88(%rsp), %rax
	movq	96(%rsp), %rdx
	movq	%rcx, (%rax,%rdx,8)
	incq	%rdx
	movq	%rdx, 96(%rsp)
21:
	movq	%r12, %rax
	incq	%rax
	movq	$-1, %r12
	cmovneq	%rax, %r12
	movq	-8(%r15,%r14,8), %r14
	testq	%r14, %r14
	je	25f
22:
	movzbl	80(%rsp), %eax
	testb	%al, %al
	leaq	152(%rsp), %rcx
	leaq	96(%rsp), %rdx
	movl	$8, %esi
	cmovneq	104(%rsp), %rsi
	cmoveq	%rcx, %rdx
	cmpq	%rsi, (%rdx)
	je	24f
	leaq	-1(%r14), %rcx
	testb	%al, %al
	jne	20b
23:
	movq	152(%rsp), %rax
	movq	%rcx, 88(%rsp,%rax,8)
	incq	%rax
	movq	%rax, 152(%rsp)
	jmp	21b
24:
	leaq	80(%rsp), %rdi
	callq	"smallvec::small_vec::SmallVec::reserve_one::<#1d7ca747d7f7d6e4>"
	testb	%al, %al
	jne	68f
	movzbl	80(%rsp), %eax
	leaq	-1(%r14), %rcx
	testb	%al, %al
	jne	20b
	jmp	23b
25:
	movq	%r12, 176(%rsp)
	jmp	30f
26:
	testq	%r15, %r15
	movq	56(%rsp), %rbx
	je	71f
	movq	%r14, %rdi
	jmp	70f
27:
	leaq	168(%rsp), %rdx
	movl	12(%rsp), %r13d
	jmp	77f
28:
	addq	$2, %rbx
	movq	$-1, %rax
	cmovaeq	%rbx, %rax
29:
	movq	%rax, 176(%rsp)
30:
	leaq	88(%rsp), %rbx
	movzbl	80(%rsp), %eax
	testb	%al, %al
	movq	88(%rsp), %r15
	movq	%r15, %rdi
	cmoveq	%rbx, %rdi
	movq	152(%rsp), %rcx
	movq	96(%rsp), %r8
	movq	%r8, %rsi
	cmoveq	%rcx, %rsi
	cmpq	$2, %rsi
	jb	33f
	movq	%r8, %r9
	movl	$1, %edx
	.p2align	4
31:
	movq	-8(%rdi,%rdx,8), %r8
	cmpq	(%rdi,%rdx,8), %r8
	ja	32f
	incq	%rdx
	cmpq	%rdx, %rsi
	jne	31b
	movq	%r9, %r8
	jmp	33f
32:
	callq	"core::slice::sort::slice+T::sort_unstable::<#17f159365526a5ba>"
	movzbl	80(%rsp), %eax
	movq	88(%rsp), %r15
	movq	152(%rsp), %rcx
	movq	96(%rsp), %r8
33:
	movq	16(%r13), %rbp
	testb	%al, %al
	cmoveq	%rbx, %r15
	movq	40(%r13), %rdx
	cmoveq	%rcx, %r8
	testq	%r8, %r8
	je	61f
	movq	16(%rsp), %rax
	leaq	-1(%rax), %rcx
	movq	%rcx, 376(%rsp)
	movq	32(%rsp), %rcx
	addq	%rax, %rcx
	decq	%rcx
	movq	%rcx, 216(%rsp)
	negq	%rax
	movq	%rax, 392(%rsp)
	xorl	%ecx, %ecx
	xorl	%r11d, %r11d
	xorl	%ebx, %ebx
	xorl	%eax, %eax
	xorl	%r9d, %r9d
	movq	%r8, 160(%rsp)
	movq	%rdx, 64(%rsp)
	movq	%rbp, 384(%rsp)
	jmp	38f
34:
	movq	%r14, (%r15,%r11,8)
	incq	%r11
35:
	movl	%eax, %ecx
36:
	incq	%r14
	movq	%r14, %rax
37:
	incq	%rbx
	cmpq	%r8, %rbx
	je	60f
38:
	movq	(%r15,%rbx,8), %r14
	cmpq	%r14, %rax
	ja	37b
	movq	%r14, %r12
	shlq	$6, %r12
	cmpq	%r14, %r9
	jne	40f
	cmpb	$0, 63(%rbp,%r12)
	je	40f
39:
	leaq	1(%r14), %r9
	movl	56(%rbp,%r12), %eax
	cmpl	%ecx, %eax
	jb	36b
	jbe	34b
	movq	%r14, (%r15)
	movl	$1, %r11d
	jmp	35b
	.p2align	4
40:
	movq	40(%rbp,%r12), %rax
	movq	48(%rbp,%r12), %rsi
	leaq	(%rdx,%rax), %rdi
	cmpb	$0, 32(%rbp,%r12)
	cmoveq	%rax, %rdi
	movzbl	62(%rbp,%r12), %eax
	cmpl	$2, %eax
	je	42f
	cmpl	$1, %eax
	jne	43f
	movq	%rcx, 24(%rsp)
	xorl	%ecx, %ecx
	testq	%rsi, %rsi
	setne	%cl
	movq	%rsi, %rax
	subq	%rcx, %rax
	movq	16(%rsp), %rdx
	subq	%rax, %rdx
	jae	47f
41:
	movq	64(%rsp), %rdx
	movq	24(%rsp), %rcx
	jmp	36b
42:
	movzbl	61(%rbp,%r12), %edx
	movq	%r9, 72(%rsp)
	leaq	176(%rsp), %r9
	movq	%rcx, 24(%rsp)
	movq	32(%rsp), %rcx
	movq	16(%rsp), %r8
	movq	%r13, %rbp
	movq	%r15, %r13
	movq	%r11, %r15
	callq	"mime_names::indexed_rule::is_general_match"
	movq	72(%rsp), %r9
	movq	24(%rsp), %rcx
	movq	64(%rsp), %rdx
	movq	160(%rsp), %r8
	movq	%r15, %r11
	movq	%r13, %r15
	movq	%rbp, %r13
	movq	384(%rsp), %rbp
	testb	%al, %al
	je	36b
	jmp	39b
43:
	movq	16(%rsp), %rax
	cmpq	%rax, %rsi
	jne	36b
	movq	%r9, 72(%rsp)
	movq	%rcx, 24(%rsp)
	testq	%rax, %rax
	je	49f
	movzbl	61(%rbp,%r12), %eax
	movzbl	(%rdi), %edx
	movq	32(%rsp), %rcx
	movzbl	(%rcx), %ecx
	cmpb	%cl, %dl
	je	44f
	leal	-65(%rdx), %esi
	leal	32(%rdx), %r8d
	cmpb	$26, %sil
	movzbl	%r8b, %esi
	movzbl	%dl, %edx
	cmovael	%edx, %esi
	leal	-65(%rcx), %r8d
	leal	32(%rcx), %r9d
	cmpb	$26, %r8b
	movzbl	%r9b, %r8d
	movzbl	%cl, %ecx
	cmovael	%ecx, %r8d
	testb	%al, %al
	cmovnel	%edx, %esi
	cmovnel	%ecx, %r8d
	cmpb	%r8b, %sil
	jne	54f
44:
	addq	376(%rsp), %rdi
	xorl	%ecx, %ecx
	jmp	46f
	.p2align	4
45:
	decq	%rcx
	cmpq	%rcx, 392(%rsp)
	je	49f
46:
	movzbl	(%rdi,%rcx), %esi
	movq	216(%rsp), %rdx
	movzbl	(%rdx,%rcx), %edx
	cmpb	%dl, %sil
	je	45b
	leal	-65(%rsi), %r8d
	leal	32(%rsi), %r9d
	cmpb	$26, %r8b
	movzbl	%r9b, %r8d
	movzbl	%sil, %esi
	cmovael	%esi, %r8d
	leal	-65(%rdx), %r9d
	leal	32(%rdx), %r10d
	cmpb	$26, %r9b
	movzbl	%r10b, %r9d
	movzbl	%dl, %edx
	cmovael	%edx, %r9d
	testb	%al, %al
	cmovnel	%esi, %r8d
	cmovnel	%edx, %r9d
	cmpb	%r9b, %r8b
	je	45b
	movl	$1, %eax
	subq	%rcx, %rax
	addq	184(%rsp), %rax
	movq	$-1, %rcx
	cmovaeq	%rax, %rcx
	jmp	55f
47:
	cmpq	$2, %rsi
	jae	51f
48:
	addq	184(%rsp), %rax
	jmp	50f
49:
	movq	184(%rsp), %rax
	addq	16(%rsp), %rax
50:
	movq	$-1, %rcx
	cmovaeq	%rax, %rcx
	movq	%rcx, 184(%rsp)
	movq	160(%rsp), %r8
	movq	64(%rsp), %rdx
	movq	24(%rsp), %rcx
	jmp	39b
51:
	movq	%r9, 72(%rsp)
	addq	%rcx, %rdi
	movzbl	61(%rbp,%r12), %ecx
	movzbl	(%rdi), %r8d
	movq	32(%rsp), %r9
	movzbl	(%r9,%rdx), %edx
	cmpb	%dl, %r8b
	je	52f
	leal	-65(%r8), %r9d
	leal	32(%r8), %r10d
	cmpb	$26, %r9b
	movzbl	%r10b, %r9d
	movzbl	%r8b, %r8d
	cmovael	%r8d, %r9d
	leal	-65(%rdx), %r10d
	movq	%r11, 368(%rsp)
	leal	32(%rdx), %r11d
	cmpb	$26, %r10b
	movzbl	%r11b, %r10d
	movq	368(%rsp), %r11
	movzbl	%dl, %edx
	cmovael	%edx, %r10d
	testb	%cl, %cl
	cmovnel	%r8d, %r9d
	cmovnel	%edx, %r10d
	cmpb	%r10b, %r9b
	jne	54f
52:
	testb	%cl, %cl
	je	56f
	cmpq	$1, %rsi
	movl	$1, %ecx
	cmovbq	%rsi, %rcx
	notq	%rcx
	addq	%rsi, %rcx
	movq	216(%rsp), %rdx
	movq	72(%rsp), %r9
	.p2align	4
53:
	movzbl	(%rdi,%rcx), %esi
	cmpb	(%rdx), %sil
	jne	59f
	decq	%rdx
	addq	$-1, %rcx
	jb	53b
	jmp	48b
54:
	movq	184(%rsp), %rax
	incq	%rax
	movq	$-1, %rcx
	cmovneq	%rax, %rcx
55:
	movq	%rcx, 184(%rsp)
	movq	160(%rsp), %r8
	movq	64(%rsp), %rdx
	movq	24(%rsp), %rcx
	movq	72(%rsp), %r9
	jmp	36b
56:
	cmpq	$1, %rsi
	movl	$1, %ecx
	cmovbq	%rsi, %rcx
	notq	%rcx
	addq	%rsi, %rcx
	movq	216(%rsp), %rdx
	jmp	58f
	.p2align	4
57:
	decq	%rdx
	addq	$-1, %rcx
	jae	48b
58:
	movzbl	(%rdi,%rcx), %r8d
	movzbl	(%rdx), %esi
	cmpb	%sil, %r8b
	je	57b
	leal	-65(%r8), %r9d
	leal	32(%r8), %r10d
	cmpb	$26, %r9b
	movzbl	%r8b, %r8d
	movzbl	%r10b, %r9d
	cmovael	%r8d, %r9d
	leal	-65(%rsi), %r8d
	leal	32(%rsi), %r10d
	cmpb	$26, %r8b
	movzbl	%sil, %esi
	movzbl	%r10b, %r8d
	cmovael	%esi, %r8d
	cmpb	%r8b, %r9b
	movq	72(%rsp), %r9
	je	57b
59:
	subq	%rcx, %rax
	addq	184(%rsp), %rax
	movq	$-1, %rcx
	cmovaeq	%rax, %rcx
	movq	%rcx, 184(%rsp)
	movq	160(%rsp), %r8
	jmp	41b
60:
	cmpq	$1, %r11
	je	63f
	testq	%r11, %r11
	jne	67f
	movq	16(%r13), %rbp
	movq	40(%r13), %rdx
61:
	movq	56(%rsp), %rbx
	addq	$64, %r13
	leaq	176(%rsp), %rax
	movq	%rax, (%rsp)
	leaq	224(%rsp), %rdi
	movq	%rdx, %rsi
	movq	%rbp, %rdx
	movq	%r13, %rcx
	movq	32(%rsp), %r8
	movq	16(%rsp), %r15
	movq	%r15, %r9
	callq	"mime_names::kept::other_kinds"
	cmpb	$0, 224(%rsp)
	je	62f
	cmpb	$1, 80(%rsp)
	je	69f
	jmp	71f
62:
	movzbl	232(%rsp), %r14d
	movq	240(%rsp), %rdx
	movq	248(%rsp), %r8
	movq	256(%rsp), %rbp
	cmpb	$1, 80(%rsp)
	jne	73f
	cmpq	$0, 104(%rsp)
	movl	12(%rsp), %r13d
	jne	65f
	jmp	66f
63:
	movq	(%r15), %rax
	shlq	$6, %rax
	movq	(%rbp,%rax), %rdx
	movq	8(%rbp,%rax), %r8
	xorl	%ebp, %ebp
	xorl	%r14d, %r14d
	movl	12(%rsp), %r13d
	cmpb	$1, 80(%rsp)
	movq	16(%rsp), %r15
	jne	66f
64:
	cmpq	$0, 104(%rsp)
	je	66f
65:
	movq	88(%rsp), %rdi
	movq	%r8, %r12
	movq	%rdx, %rbx
	callq	rattle_dealloc@PLT
	movq	%rbx, %rdx
	movq	%r12, %r8
66:
	xorl	%ebx, %ebx
	xorl	%eax, %eax
	testb	%r14b, %r14b
	cmovneq	%rbp, %rbx
	setne	%al
	movl	$1, %r9d
	cmovneq	%r8, %r9
	jmp	79f
67:
	movabsq	$576460752303423486, %rbx
	leaq	2(%rbx), %rax
	cmpq	%rax, %r11
	jae	68f
	movq	%r11, %rdi
	shlq	$4, %rdi
	movl	$8, %esi
	movq	%r11, %r14
	callq	rattle_alloc@PLT
	testb	$1, %al
	je	68f
	movq	%r14, %r8
	cmpq	$1, %r14
	jne	125f
	xorl	%eax, %eax
	movl	12(%rsp), %r13d
	jmp	127f
68:
	cmpb	$1, 80(%rsp)
	movq	56(%rsp), %rbx
	jne	71f
69:
	cmpq	$0, 104(%rsp)
	je	71f
	movq	88(%rsp), %rdi
70:
	callq	rattle_dealloc@PLT
71:
	movq	$1, (%rbx)
	movl	$7, 8(%rbx)
	movw	$0, 12(%rbx)
	pxor	%xmm0, %xmm0
	movdqu	%xmm0, 16(%rbx)
	movdqu	%xmm0, 32(%rbx)
	movq	$0, 48(%rbx)
72:
	addq	$440, %rsp
	popq	%rbx
	popq	%r12
	popq	%r13
	popq	%r14
	popq	%r15
	popq	%rbp
	retq
73:
	movl	12(%rsp), %r13d
	jmp	66b
74:
	andq	%r8, %r12
	leaq	24(%rdx), %rcx
	xorl	%eax, %eax
	.p2align	4
75:
	movq	(%r14,%rax,8), %rsi
	movups	(%rsi), %xmm0
	movups	%xmm0, -24(%rcx)
	movq	8(%r14,%rax,8), %rsi
	movdqu	(%rsi), %xmm0
	movdqu	%xmm0, -8(%rcx)
	addq	$2, %rax
	addq	$32, %rcx
	cmpq	%rax, %r12
	jne	75b
	testb	$1, %r8b
	je	77f
76:
	movq	(%r14,%rax,8), %rcx
	movdqu	(%rcx), %xmm0
	shlq	$4, %rax
	movdqu	%xmm0, (%rdx,%rax)
77:
	testq	%r15, %r15
	je	78f
	movq	%r14, %rdi
	movq	%r8, %r14
	movq	%rdx, %rbx
	movq	%r9, %r15
	callq	rattle_dealloc@PLT
	movq	%r15, %r9
	movq	%rbx, %rdx
	movq	%r14, %r8
78:
	movl	$1, %eax
	movq	%r8, %rbx
	movq	16(%rsp), %r15
79:
	movq	%rax, 272(%rsp)
	leaq	280(%rsp), %rsi
	movq	%rdx, 280(%rsp)
	movq	%r8, 288(%rsp)
	movq	%rbx, 296(%rsp)
	movq	%r9, 304(%rsp)
	testq	%rax, %rax
	cmovneq	%rdx, %rsi
	movl	$1, %edi
	cmovneq	%r8, %rdi
	cmpb	$2, %r13b
	movq	208(%rsp), %r14
	je	80f
	movzbl	%r13b, %ecx
	cmpl	$1, %ecx
	jne	88f
	movq	%r9, 16(%rsp)
	cmpq	$2, %rdi
	jb	81f
	jmp	91f
80:
	movq	%r9, 16(%rsp)
	leaq	2(,%r15,2), %rcx
	cmpq	%rcx, %rdi
	ja	91f
81:
	testq	%rdi, %rdi
	je	95f
	leaq	16(%rdx), %rcx
	testq	%rax, %rax
	leaq	296(%rsp), %r8
	cmovneq	%rcx, %r8
	movq	%rdi, %r9
	decq	%r9
	je	89f
	leaq	8(%rdx), %rcx
	testq	%rax, %rax
	leaq	288(%rsp), %r10
	cmoveq	%r10, %rcx
	movq	(%rsi), %r10
	movq	(%rcx), %r13
	xorl	%r14d, %r14d
	.p2align	4
82:
	movq	%r14, %r11
	shlq	$4, %r11
	movq	(%r8,%r11), %rbp
	movq	8(%r8,%r11), %r15
	cmpq	%r13, %r15
	movq	%r13, %rcx
	cmovbq	%r15, %rcx
	xorl	%r12d, %r12d
	.p2align	4
83:
	movq	%rcx, %r11
	subq	%r12, %r11
	cmpq	$8, %r11
	jb	84f
	pmovzxbw	(%r10,%r12), %xmm0
	pmovzxbw	(%rbp,%r12), %xmm1
	pcmpeqw	%xmm0, %xmm1
	packsswb	%xmm1, %xmm1
	pmovmskb	%xmm1, %r11d
	notl	%r11d
	orl	$256, %r11d
	rep		bsfl	%r11d, %r11d
	addq	%r11, %r12
	cmpb	$7, %r11b
	ja	83b
84:
	cmpq	%rcx, %r12
	jae	87f
	.p2align	4
85:
	movzbl	(%r10,%r12), %r11d
	cmpb	(%rbp,%r12), %r11b
	jne	86f
	incq	%r12
	cmpq	%r12, %rcx
	jne	85b
	jmp	87f
86:
	movq	%r12, %rcx
87:
	cmpq	%r13, %rcx
	jne	95f
	cmpq	%r15, %rcx
	jne	95f
	incq	%r14
	cmpq	%r9, %r14
	jne	82b
	jmp	89f
88:
	cmpq	$1, %rdi
	jne	91f
89:
	leaq	8(%rdx), %rcx
	movq	(%rsi), %r15
	testq	%rax, %rax
	leaq	288(%rsp), %rax
	cmoveq	%rax, %rcx
	movq	(%rcx), %r14
	pxor	%xmm0, %xmm0
	movdqa	%xmm0, 320(%rsp)
	je	90f
	testq	%rbx, %rbx
	je	90f
	movq	%rdx, %rdi
	callq	rattle_dealloc@PLT
90:
	movq	56(%rsp), %rax
	movq	$0, 6(%rax)
	movq	$0, (%rax)
	movq	%r15, 16(%rax)
	movq	%r14, 24(%rax)
	movdqa	320(%rsp), %xmm0
	movdqu	%xmm0, 32(%rax)
	movq	$0, 48(%rax)
	jmp	72b
91:
	movq	504(%rsp), %r9
	pxor	%xmm0, %xmm0
	movdqa	%xmm0, 224(%rsp)
	movdqa	%xmm0, 240(%rsp)
	movq	$0, 256(%rsp)
	movdqa	%xmm0, 400(%rsp)
	movdqa	%xmm0, 416(%rsp)
	movdqa	%xmm0, 112(%rsp)
	movdqa	%xmm0, 96(%rsp)
	movdqa	%xmm0, 80(%rsp)
	leaq	16(%r9), %rax
	movq	%rax, (%rsp)
	movzbl	496(%rsp), %r8d
	leaq	80(%rsp), %rdi
	movq	%r14, %rsi
	movq	32(%rsp), %rdx
	movq	%r15, %rcx
	callq	"mime_view::cache::Cache::glob_hits"
	movzbl	88(%rsp), %ebp
	movq	96(%rsp), %rcx
	cmpb	$0, 80(%rsp)
	je	96f
	movd	90(%rsp), %xmm1
92:
	movq	%rcx, %r15
	pxor	%xmm0, %xmm0
	movdqa	%xmm0, 320(%rsp)
	movzbl	%bpl, %ebx
	movl	$1, %r14d
	xorl	%ecx, %ecx
	xorl	%r13d, %r13d
	cmpb	$1, 272(%rsp)
	jne	94f
93:
	cmpq	$0, 296(%rsp)
	je	94f
	movq	280(%rsp), %rdi
	movq	%rcx, %r12
	movdqa	%xmm1, 32(%rsp)
	callq	rattle_dealloc@PLT
	movdqa	32(%rsp), %xmm1
	movq	%r12, %rcx
94:
	movq	56(%rsp), %rax
	movq	%r14, (%rax)
	movw	%bx, 8(%rax)
	movd	%xmm1, 10(%rax)
	movq	%r15, 16(%rax)
	movq	%rcx, 24(%rax)
	movdqa	320(%rsp), %xmm0
	movdqu	%xmm0, 32(%rax)
	movq	%r13, 48(%rax)
	jmp	72b
95:
	movq	16(%rsp), %r12
	cmpq	%rdi, %r12
	jne	102f
	movq	%rdx, %r8
	jmp	137f
96:
	movzbl	%bpl, %r15d
	movq	120(%rsp), %rax
	movq	%rax, 16(%rsp)
	movq	%r15, 336(%rsp)
	movq	%rcx, 344(%rsp)
	movdqu	104(%rsp), %xmm0
	movdqu	%xmm0, 352(%rsp)
	movl	$1, %r13d
	testb	%r15b, %r15b
	je	97f
	movq	352(%rsp), %r13
97:
	testq	%r13, %r13
	je	110f
	movq	%r14, 208(%rsp)
	movl	$8, %r14d
	movq	%rcx, %rax
	jmp	99f
98:
	movq	%r12, 344(%rsp)
	movq	%r15, 352(%rsp)
	movq	%r12, %rax
	addq	$16, %r14
	decq	%r13
	je	101f
99:
	movl	%ebp, %ebx
	testb	%bpl, %bpl
	movq	%rax, 32(%rsp)
	leaq	344(%rsp), %rcx
	cmoveq	%rcx, %rax
	movq	-8(%rax,%r14), %r12
	movq	(%rax,%r14), %r15
	pxor	%xmm0, %xmm0
	movdqa	%xmm0, 192(%rsp)
	movdqa	%xmm0, 176(%rsp)
	movq	208(%rsp), %rsi
	movl	20(%rsi), %edx
	leaq	176(%rsp), %rdi
	movq	%r12, %rcx
	movq	%r15, %r8
	movq	504(%rsp), %r9
	callq	"mime_view::pairs::look_up_pair"
	movzbl	184(%rsp), %ebp
	movq	192(%rsp), %rcx
	cmpb	$0, 176(%rsp)
	jne	118f
	cmpb	$1, %bpl
	jne	100f
	movq	200(%rsp), %r15
	movq	%rcx, %r12
100:
	movl	%ebx, %ebp
	testb	%bl, %bl
	je	98b
	movq	32(%rsp), %rax
	movq	%r12, -8(%rax,%r14)
	movq	%r15, (%rax,%r14)
	addq	$16, %r14
	decq	%r13
	jne	99b
101:
	movzbl	336(%rsp), %ebp
	movq	344(%rsp), %rdi
	movzbl	%bpl, %r15d
	movq	%rdi, %rcx
	jmp	111f
102:
	testq	%r12, %r12
	movq	%rdx, %r8
	je	124f
	leaq	16(%r8), %rcx
	testq	%rax, %rax
	leaq	296(%rsp), %rdx
	cmovneq	%rcx, %rdx
	movq	%r12, %rdi
	decq	%rdi
	je	136f
	movq	%r8, %rbx
	leaq	8(%r8), %rcx
	testq	%rax, %rax
	leaq	288(%rsp), %r8
	cmoveq	%r8, %rcx
	movq	(%rsi), %rsi
	movq	(%rcx), %r8
	xorl	%r9d, %r9d
103:
	movq	%r9, %rcx
	shlq	$4, %rcx
	movq	(%rdx,%rcx), %r14
	movq	8(%rdx,%rcx), %r10
	cmpq	%r8, %r10
	movq	%r8, %r11
	cmovbq	%r10, %r11
	xorl	%ecx, %ecx
	.p2align	4
104:
	movq	%r11, %r15
	subq	%rcx, %r15
	cmpq	$8, %r15
	jb	105f
	pmovzxbw	(%rsi,%rcx), %xmm0
	pmovzxbw	(%r14,%rcx), %xmm1
	pcmpeqw	%xmm0, %xmm1
	packsswb	%xmm1, %xmm1
	pmovmskb	%xmm1, %ebp
	notl	%ebp
	orl	$256, %ebp
	rep		bsfl	%ebp, %r15d
	addq	%r15, %rcx
	cmpb	$7, %r15b
	ja	104b
105:
	cmpq	%r11, %rcx
	jae	108f
	.p2align	4
106:
	movzbl	(%rsi,%rcx), %ebp
	cmpb	(%r14,%rcx), %bpl
	jne	107f
	incq	%rcx
	cmpq	%rcx, %r11
	jne	106b
	jmp	108f
107:
	movq	%rcx, %r11
108:
	cmpq	%r8, %r11
	jne	109f
	cmpq	%r10, %r11
	jne	109f
	incq	%r9
	cmpq	%rdi, %r9
	jne	103b
	movl	$1, %r12d
109:
	movq	%rbx, %r8
	jmp	137f
110:
	movq	%rcx, %rdi
111:
	leaq	352(%rsp), %rax
	movdqu	(%rax), %xmm0
	movdqa	%xmm0, 400(%rsp)
	movq	%r15, 224(%rsp)
	movq	%rcx, 232(%rsp)
	movdqa	%xmm0, 240(%rsp)
	movq	16(%rsp), %r13
	movq	%r13, 256(%rsp)
	testb	%bpl, %bpl
	je	119f
	movq	%rcx, 32(%rsp)
	movq	240(%rsp), %rax
	testq	%rax, %rax
	je	122f
	movl	%ebp, %r12d
	movq	%rax, %rcx
	movq	%rdi, %rdx
	decq	%rcx
	je	120f
	xorl	%edx, %edx
112:
	movq	%rdx, %rsi
	shlq	$4, %rsi
	movq	(%rdi), %r10
	movq	8(%rdi), %r8
	movq	16(%rdi,%rsi), %r11
	movq	24(%rdi,%rsi), %rsi
	cmpq	%r8, %rsi
	movq	%r8, %r9
	cmovbq	%rsi, %r9
	xorl	%ebx, %ebx
	.p2align	4
113:
	movq	%r9, %r14
	subq	%rbx, %r14
	cmpq	$8, %r14
	jb	114f
	pmovzxbw	(%r10,%rbx), %xmm0
	pmovzxbw	(%r11,%rbx), %xmm1
	pcmpeqw	%xmm0, %xmm1
	packsswb	%xmm1, %xmm1
	pmovmskb	%xmm1, %ebp
	notl	%ebp
	orl	$256, %ebp
	rep		bsfl	%ebp, %r14d
	addq	%r14, %rbx
	cmpb	$7, %r14b
	ja	113b
114:
	cmpq	%r9, %rbx
	jae	117f
	.p2align	4
115:
	movzbl	(%r10,%rbx), %ebp
	cmpb	(%r11,%rbx), %bpl
	jne	116f
	incq	%rbx
	cmpq	%rbx, %r9
	jne	115b
	jmp	117f
116:
	movq	%rbx, %r9
117:
	leaq	1(%r9), %r10
	movq	504(%rsp), %rbx
	addq	8(%rbx), %r10
	movq	$-1, %r11
	cmovaeq	%r10, %r11
	movq	%r11, 8(%rbx)
	cmpq	%r8, %r9
	jne	122f
	cmpq	%rsi, %r9
	jne	122f
	incq	%rdx
	cmpq	%rcx, %rdx
	jne	112b
	movq	%rdi, %rdx
	movl	%r12d, %ebp
	jmp	120f
118:
	movd	186(%rsp), %xmm1
	cmpb	$1, %bl
	jne	92b
	cmpq	$0, 360(%rsp)
	je	92b
	movq	344(%rsp), %rdi
	movq	%rcx, %rbx
	movdqa	%xmm1, 32(%rsp)
	callq	rattle_dealloc@PLT
	movdqa	32(%rsp), %xmm1
	movq	%rbx, %rcx
	jmp	92b
119:
	leaq	232(%rsp), %rdx
120:
	movq	(%rdx), %r15
	movq	8(%rdx), %rcx
	cmpb	$1, %bpl
	jne	121f
	cmpq	$0, 248(%rsp)
	je	121f
	movq	%rcx, %rbx
	callq	rattle_dealloc@PLT
	movq	%rbx, %rcx
121:
	movdqa	416(%rsp), %xmm0
	movdqa	%xmm0, 320(%rsp)
	pxor	%xmm1, %xmm1
	xorl	%r14d, %r14d
	xorl	%ebx, %ebx
	xorl	%r13d, %r13d
	cmpb	$1, 272(%rsp)
	je	93b
	jmp	94b
122:
	cmpq	%rax, %r13
	jne	129f
123:
	movq	32(%rsp), %rcx
	jmp	140f
124:
	xorl	%r12d, %r12d
	jmp	137f
125:
	andq	%r8, %rbx
	leaq	24(%rdx), %rcx
	xorl	%eax, %eax
	movl	12(%rsp), %r13d
	.p2align	4
126:
	movq	(%r15,%rax,8), %rsi
	shlq	$6, %rsi
	movups	(%rbp,%rsi), %xmm0
	movups	%xmm0, -24(%rcx)
	movq	8(%r15,%rax,8), %rsi
	shlq	$6, %rsi
	movdqu	(%rbp,%rsi), %xmm0
	movdqu	%xmm0, -8(%rcx)
	addq	$2, %rax
	addq	$32, %rcx
	cmpq	%rax, %rbx
	jne	126b
	testb	$1, %r8b
	je	128f
127:
	movq	(%r15,%rax,8), %rcx
	shlq	$6, %rcx
	movdqu	(%rbp,%rcx), %xmm0
	shlq	$4, %rax
	movdqu	%xmm0, (%rdx,%rax)
128:
	movb	$1, %r14b
	movq	%r8, %rbp
	cmpb	$1, 80(%rsp)
	movq	16(%rsp), %r15
	je	64b
	jmp	66b
129:
	testq	%r13, %r13
	movq	32(%rsp), %rcx
	je	138f
	movq	%r13, %rax
	decq	%rax
	je	139f
	xorl	%ecx, %ecx
130:
	movq	%rcx, %rdx
	shlq	$4, %rdx
	movq	(%rdi), %r9
	movq	8(%rdi), %rsi
	movq	16(%rdi,%rdx), %r10
	movq	24(%rdi,%rdx), %rdx
	cmpq	%rsi, %rdx
	movq	%rsi, %r8
	cmovbq	%rdx, %r8
	xorl	%r11d, %r11d
	.p2align	4
131:
	movq	%r8, %rbx
	subq	%r11, %rbx
	cmpq	$8, %rbx
	jb	132f
	pmovzxbw	(%r9,%r11), %xmm0
	pmovzxbw	(%r10,%r11), %xmm1
	pcmpeqw	%xmm0, %xmm1
	packsswb	%xmm1, %xmm1
	pmovmskb	%xmm1, %ebx
	notl	%ebx
	orl	$256, %ebx
	rep		bsfl	%ebx, %ebx
	addq	%rbx, %r11
	cmpb	$7, %bl
	ja	131b
132:
	cmpq	%r8, %r11
	jae	135f
	.p2align	4
133:
	movzbl	(%r9,%r11), %ebx
	cmpb	(%r10,%r11), %bl
	jne	134f
	incq	%r11
	cmpq	%r11, %r8
	jne	133b
	jmp	135f
134:
	movq	%r11, %r8
135:
	leaq	1(%r8), %r9
	movq	504(%rsp), %r11
	addq	8(%r11), %r9
	movq	$-1, %r10
	cmovaeq	%r9, %r10
	movq	%r10, 8(%r11)
	cmpq	%rsi, %r8
	jne	123b
	cmpq	%rdx, %r8
	jne	123b
	incq	%rcx
	cmpq	%rax, %rcx
	jne	130b
	movl	$1, %r13d
	jmp	123b
136:
	movl	$1, %r12d
137:
	movq	56(%rsp), %rcx
	movq	$0, (%rcx)
	movl	$1, 8(%rcx)
	movw	$0, 12(%rcx)
	movq	%rax, 16(%rcx)
	movq	%r8, 24(%rcx)
	leaq	288(%rsp), %rax
	movdqu	(%rax), %xmm0
	movdqu	%xmm0, 32(%rcx)
	movq	%r12, 48(%rcx)
	jmp	72b
138:
	xorl	%r13d, %r13d
	jmp	140f
139:
	movl	$1, %r13d
140:
	movdqa	400(%rsp), %xmm0
	movdqa	%xmm0, 320(%rsp)
	pxor	%xmm1, %xmm1
	movw	$1, %bx
	xorl	%r14d, %r14d
	cmpb	$1, 272(%rsp)
	je	93b
	jmp	94b
141:
	.size	"mime_lookup::read_back::name_types::types_of", 141b-"mime_lookup::read_back::name_types::types_of"

	.section	.rodata.cst16,"aM",@progbits,16
	.p2align	4, 0x0
1:
	.byte	42,42,42,42,42,42,42,42
	.zero	1
	.zero	1
	.zero	1
	.zero	1
	.zero	1
	.zero	1
	.zero	1
	.zero	1
2:
	.byte	63,63,63,63,63,63,63,63
	.zero	1
	.zero	1
	.zero	1
	.zero	1
	.zero	1
	.zero	1
	.zero	1
	.zero	1
3:
	.byte	92,92,92,92,92,92,92,92
	.zero	1
	.zero	1
	.zero	1
	.zero	1
	.zero	1
	.zero	1
	.zero	1
	.zero	1
4:
	.byte	91,91,91,91,91,91,91,91
	.zero	1
	.zero	1
	.zero	1
	.zero	1
	.zero	1
	.zero	1
	.zero	1
	.zero	1
	.text
	.p2align	4
	.type	"mime_lookup::read_back::rules::with_rules",@function
"mime_lookup::read_back::rules::with_rules":
	pushq	%rbp
	pushq	%r15
	pushq	%r14
	pushq	%r13
	pushq	%r12
	pushq	%rbx
	subq	$248, %rsp
	movq	%r8, 128(%rsp)
	movq	%rdx, 104(%rsp)
	movq	%rdi, 96(%rsp)
	movq	16(%rsi), %rax
	movq	%rax, 80(%rsp)
	movups	(%rsi), %xmm0
	movaps	%xmm0, 64(%rsp)
	movq	24(%rsi), %rax
	movq	%rax, 56(%rsp)
	movq	40(%rsi), %rax
	movq	%rax, 112(%rsp)
	movdqu	32(%rsi), %xmm0
	movdqa	%xmm0, 144(%rsp)
	pxor	%xmm0, %xmm0
	movdqu	%xmm0, 191(%rsp)
	movdqa	%xmm0, 176(%rsp)
	movq	%rcx, 120(%rsp)
	testq	%rcx, %rcx
	je	21f
	xorl	%eax, %eax
	jmp	7f
5:
	movq	16(%rsp), %r12
	movq	24(%rsp), %rbx
	movq	%rbx, %r13
	shlq	$6, %r13
	movl	%r15d, %r8d
	movq	48(%rsp), %r9
	movq	40(%rsp), %r10
	movl	12(%rsp), %r11d
	movl	8(%rsp), %edx
	movl	4(%rsp), %ecx
	.p2align	4
6:
	movq	%r9, (%r12,%r13)
	movq	%r10, 8(%r12,%r13)
	movdqa	160(%rsp), %xmm0
	movdqu	%xmm0, 16(%r12,%r13)
	movq	$0, 32(%r12,%r13)
	movq	%rbp, 40(%r12,%r13)
	movq	%r14, 48(%r12,%r13)
	movl	%edx, 56(%r12,%r13)
	movzbl	3(%rsp), %eax
	movb	%al, 60(%r12,%r13)
	movb	%r8b, 61(%r12,%r13)
	movb	%r11b, 62(%r12,%r13)
	movb	%cl, 63(%r12,%r13)
	incq	%rbx
	movq	%rbx, 24(%rsp)
	movq	32(%rsp), %rax
	leaq	215(%rsp), %rcx
	movq	%rax, 16(%rcx)
	movq	16(%rsp), %rax
	movq	%rax, (%rcx)
	movq	24(%rsp), %rax
	movq	%rax, 8(%rcx)
	movq	16(%rcx), %rax
	leaq	183(%rsp), %rdx
	movq	%rax, 16(%rdx)
	movq	(%rcx), %rax
	movq	%rax, (%rdx)
	movq	8(%rcx), %rax
	movq	%rax, 8(%rdx)
	movq	(%rdx), %rax
	movq	%rax, 64(%rsp)
	movq	8(%rdx), %rax
	movq	%rax, 72(%rsp)
	movq	16(%rdx), %rax
	movq	%rax, 80(%rsp)
	movq	136(%rsp), %rax
	incq	%rax
	cmpq	120(%rsp), %rax
	je	21f
7:
	movq	%rax, 136(%rsp)
	leaq	(%rax,%rax,2), %r15
	shlq	$4, %r15
	movq	104(%rsp), %rbx
	movzbl	(%rbx,%r15), %r12d
	movq	8(%rbx,%r15), %rsi
	movq	16(%rbx,%r15), %rdx
	movq	128(%rsp), %rdi
	callq	"mime_lookup::read_back::targets::target_of"
	movq	%rax, %r9
	movq	%rdx, %r10
	movq	24(%rbx,%r15), %rbp
	movq	32(%rbx,%r15), %r14
	movzbl	40(%rbx,%r15), %r8d
	pxor	%xmm0, %xmm0
	movdqu	%xmm0, 223(%rsp)
	movdqa	%xmm0, 208(%rsp)
	movabsq	$1688849862361089, %rax
	testq	%r14, %r14
	je	11f
	cmpb	$42, (%rbp)
	jne	10f
	leaq	-1(%r14), %rcx
	cmpq	$8, %rcx
	jb	8f
	movq	1(%rbp), %xmm0
	movdqa	1b(%rip), %xmm1
	pcmpeqb	%xmm0, %xmm1
	movdqa	2b(%rip), %xmm2
	pcmpeqb	%xmm0, %xmm2
	por	%xmm1, %xmm2
	movdqa	3b(%rip), %xmm1
	pcmpeqb	%xmm0, %xmm1
	pcmpeqb	4b(%rip), %xmm0
	por	%xmm1, %xmm0
	por	%xmm2, %xmm0
	pmovmskb	%xmm0, %ecx
	movb	$2, %r11b
	testb	%cl, %cl
	jne	14f
8:
	movl	$1, %ecx
	.p2align	4
9:
	cmpq	%rcx, %r14
	je	20f
	movzbl	(%rbp,%rcx), %edx
	incq	%rcx
	addl	$-42, %edx
	cmpl	$50, %edx
	ja	9b
	btq	%rdx, %rax
	jae	9b
	jmp	13f
	.p2align	4
10:
	cmpq	$8, %r14
	jb	11f
	movq	(%rbp), %xmm0
	movdqa	1b(%rip), %xmm1
	pcmpeqb	%xmm0, %xmm1
	movdqa	2b(%rip), %xmm2
	pcmpeqb	%xmm0, %xmm2
	por	%xmm1, %xmm2
	movdqa	3b(%rip), %xmm1
	pcmpeqb	%xmm0, %xmm1
	pcmpeqb	4b(%rip), %xmm0
	por	%xmm1, %xmm0
	por	%xmm2, %xmm0
	pmovmskb	%xmm0, %ecx
	movb	$2, %r11b
	testb	%cl, %cl
	jne	14f
	.p2align	4
11:
	xorl	%ecx, %ecx
	.p2align	4
12:
	cmpq	%rcx, %r14
	je	16f
	movzbl	(%rbp,%rcx), %edx
	incq	%rcx
	addl	$-42, %edx
	cmpl	$50, %edx
	ja	12b
	btq	%rdx, %rax
	jae	12b
13:
	movb	$2, %r11b
14:
	movb	%r12b, 3(%rsp)
	movzbl	%r12b, %eax
	movzbl	%r8b, %ecx
	movaps	64(%rsp), %xmm0
	movaps	%xmm0, 16(%rsp)
	movq	80(%rsp), %rdx
	movq	%rdx, 32(%rsp)
	movq	16(%rsp), %r12
	movq	24(%rsp), %rbx
	movl	%r11d, %edx
	negb	%dl
	movzbl	%dl, %edx
	shll	$25, %edx
	shll	$17, %eax
	orl	%ecx, %eax
	movzwl	%r14w, %ecx
	leal	(%rax,%rcx,2), %eax
	addl	%eax, %edx
	addl	$67108864, %edx
	movq	%rbx, %r13
	shlq	$6, %r13
	testq	%rbx, %rbx
	je	18f
	cmpl	%edx, -8(%r12,%r13)
	jne	18f
	cmpb	-3(%r12,%r13), %r8b
	jne	18f
	movq	-24(%r12,%r13), %rax
	movq	-16(%r12,%r13), %rsi
	cmpb	$0, -32(%r12,%r13)
	movq	56(%rsp), %rcx
	leaq	(%rcx,%rax), %rdi
	cmoveq	%rax, %rdi
	testq	%rsi, %rsi
	je	17f
	testq	%r14, %r14
	je	18f
	movzbl	-1(%rdi,%rsi), %eax
	cmpb	-1(%rbp,%r14), %al
	jne	18f
15:
	movl	%edx, 8(%rsp)
	movq	%rbp, %rdx
	movq	%r14, %rcx
	movb	%r8b, 4(%rsp)
	movq	%r9, 48(%rsp)
	movq	%r10, 40(%rsp)
	movl	%r11d, 12(%rsp)
	callq	"mime_names::indexed_rules::is_equal"
	movl	8(%rsp), %edx
	movl	12(%rsp), %r11d
	movq	40(%rsp), %r10
	movq	48(%rsp), %r9
	movzbl	4(%rsp), %r8d
	movl	%eax, %ecx
	jmp	19f
16:
	xorl	%r11d, %r11d
	jmp	14b
17:
	testq	%r14, %r14
	je	15b
	.p2align	4
18:
	xorl	%ecx, %ecx
19:
	movq	104(%rsp), %rax
	addq	%r15, %rax
	addq	$8, %rax
	movups	(%rax), %xmm0
	movaps	%xmm0, 160(%rsp)
	cmpq	%rbx, 32(%rsp)
	jne	6b
	movl	%ecx, 4(%rsp)
	movl	%edx, 8(%rsp)
	movl	%r11d, 12(%rsp)
	movq	%r10, 40(%rsp)
	movq	%r9, 48(%rsp)
	movl	%r8d, %r15d
	leaq	16(%rsp), %rdi
	callq	"std_alloc::vec::Vec::grow_amortized::<#75574408efed45b1>"
	testb	%al, %al
	jne	5b
	jmp	23f
20:
	movb	$1, %r11b
	jmp	14b
21:
	movq	96(%rsp), %rcx
	movb	$0, (%rcx)
	movq	64(%rsp), %rax
	movq	%rax, 8(%rcx)
	movq	72(%rsp), %rax
	movq	%rax, 16(%rcx)
	movq	80(%rsp), %rax
	movq	%rax, 24(%rcx)
	movq	56(%rsp), %rax
	movq	%rax, 32(%rcx)
	movdqa	144(%rsp), %xmm0
	movdqu	%xmm0, 40(%rcx)
22:
	addq	$248, %rsp
	popq	%rbx
	popq	%r12
	popq	%r13
	popq	%r14
	popq	%r15
	popq	%rbp
	retq
23:
	cmpq	$0, 112(%rsp)
	je	24f
	movq	56(%rsp), %rdi
	callq	rattle_dealloc@PLT
24:
	cmpq	$0, 32(%rsp)
	je	25f
	movq	16(%rsp), %rdi
	callq	rattle_dealloc@PLT
25:
	movq	96(%rsp), %rax
	movb	$1, (%rax)
	xorps	%xmm0, %xmm0
	movups	%xmm0, 8(%rax)
	movups	%xmm0, 24(%rax)
	movups	%xmm0, 40(%rax)
	jmp	22b
26:
	.size	"mime_lookup::read_back::rules::with_rules", 26b-"mime_lookup::read_back::rules::with_rules"

	.text
	.p2align	4
	.type	"mime_lookup::read_back::steps::step_of",@function
"mime_lookup::read_back::steps::step_of":
	pushq	%r15
	pushq	%r14
	pushq	%r13
	pushq	%r12
	pushq	%rbx
	subq	$64, %rsp
	xorps	%xmm0, %xmm0
	movaps	%xmm0, (%rsp)
	movaps	%xmm0, 48(%rsp)
	movaps	%xmm0, 32(%rsp)
	cmpq	$8, %rcx
	jb	1f
	movq	%rcx, %rax
	shrq	%rax
	movq	-4(%rdx,%rax), %rax
	leaq	(%rax,%rax,2), %r8
	addq	-8(%rdx,%rcx), %r8
	movabsq	$-4658895280553007687, %rax
	imulq	%r8, %rax
	shrq	$49, %rax
	andl	$-2, %eax
	movq	(%rsi), %r8
	movzwl	(%r8,%rax), %eax
	cmpq	%rax, 32(%rsi)
	ja	2f
	jmp	9f
1:
	xorl	%eax, %eax
	movq	(%rsi), %r8
	movzwl	(%r8,%rax), %eax
	cmpq	%rax, 32(%rsi)
	jbe	9f
2:
	leaq	(%rax,%rax,2), %r14
	shll	$4, %r14d
	addq	24(%rsi), %r14
	cmpq	%rcx, 8(%r14)
	jne	7f
	movq	(%r14), %rax
	cmpq	$4, %rcx
	jae	3f
	testq	%rcx, %rcx
	je	4f
	movzbl	(%rax), %r8d
	cmpb	(%rdx), %r8b
	jne	5f
	cmpq	$1, %rcx
	je	4f
	movzbl	1(%rax), %r9d
	movl	$1, %r8d
	cmpb	1(%rdx), %r9b
	jne	6f
	cmpq	$2, %rcx
	je	4f
	movzbl	2(%rax), %eax
	movl	$2, %r8d
	cmpb	2(%rdx), %al
	je	4f
	jmp	6f
3:
	movl	(%rax), %r8d
	cmpl	(%rdx), %r8d
	jne	7f
	movq	%rdi, %r15
	movq	%rax, %rdi
	movq	%rsi, %r12
	movq	%rcx, %rsi
	movq	%rdx, %rbx
	movq	%rcx, %r13
	callq	"core::cmp::slices::groups_equal::<i8,31'core::cmp::numbers::U8PartialEq{}>"
	movq	%r12, %rsi
	movq	%rbx, %rdx
	movq	%r13, %rcx
	movq	%r15, %rdi
	testb	%al, %al
	je	7f
4:
	movzbl	16(%r14), %eax
	movups	24(%r14), %xmm0
	movaps	%xmm0, 16(%rsp)
	jmp	8f
5:
	xorl	%r8d, %r8d
6:
	cmpq	%rcx, %r8
	jae	4b
7:
	cmpb	$1, 40(%r14)
	jne	9f
	leaq	32(%rsp), %rax
	movq	%rdi, %rbx
	movq	%rax, %rdi
	callq	"mime_lookup::name_map::other_value::<#afcbbff7ae072e5e>"
	movq	%rbx, %rdi
	movzbl	40(%rsp), %eax
	cmpb	$1, 32(%rsp)
	movaps	48(%rsp), %xmm0
	movaps	%xmm0, 16(%rsp)
	jne	9f
8:
	movaps	16(%rsp), %xmm0
	movaps	%xmm0, (%rsp)
	movzbl	%al, %eax
	jmp	10f
9:
	xorl	%eax, %eax
10:
	movq	%rax, (%rdi)
	movaps	(%rsp), %xmm0
	movups	%xmm0, 8(%rdi)
	addq	$64, %rsp
	popq	%rbx
	popq	%r12
	popq	%r13
	popq	%r14
	popq	%r15
	retq
11:
	.size	"mime_lookup::read_back::steps::step_of", 11b-"mime_lookup::read_back::steps::step_of"

	.text
	.p2align	4
	.type	"mime_lookup::read_back::targets::target_of",@function
"mime_lookup::read_back::targets::target_of":
	pushq	%r15
	pushq	%r14
	pushq	%r13
	pushq	%r12
	pushq	%rbx
	subq	$32, %rsp
	movq	%rsi, %rax
	xorps	%xmm0, %xmm0
	movaps	%xmm0, (%rsp)
	movq	$0, 16(%rsp)
	cmpq	$8, %rdx
	jb	1f
	movq	%rdx, %rcx
	shrq	%rcx
	movq	-4(%rax,%rcx), %rcx
	leaq	(%rcx,%rcx,2), %rsi
	addq	-8(%rax,%rdx), %rsi
	movabsq	$-4658895280553007687, %rcx
	imulq	%rsi, %rcx
	shrq	$49, %rcx
	andl	$-2, %ecx
	movq	(%rdi), %rsi
	movzwl	(%rsi,%rcx), %ecx
	cmpq	%rcx, 32(%rdi)
	ja	2f
	jmp	8f
1:
	xorl	%ecx, %ecx
	movq	(%rdi), %rsi
	movzwl	(%rsi,%rcx), %ecx
	cmpq	%rcx, 32(%rdi)
	jbe	8f
2:
	movq	24(%rdi), %rbx
	shll	$3, %ecx
	leaq	(%rcx,%rcx,4), %r14
	cmpq	%rdx, 8(%rbx,%r14)
	jne	7f
	movq	(%rbx,%r14), %rcx
	cmpq	$4, %rdx
	jae	3f
	testq	%rdx, %rdx
	je	4f
	movzbl	(%rcx), %esi
	cmpb	(%rax), %sil
	jne	5f
	cmpq	$1, %rdx
	je	4f
	movzbl	1(%rcx), %r8d
	movl	$1, %esi
	cmpb	1(%rax), %r8b
	jne	6f
	cmpq	$2, %rdx
	je	4f
	movzbl	2(%rcx), %ecx
	movl	$2, %esi
	cmpb	2(%rax), %cl
	je	4f
	jmp	6f
3:
	movl	(%rcx), %esi
	cmpl	(%rax), %esi
	jne	7f
	movq	%rdi, %r15
	movq	%rcx, %rdi
	movq	%rdx, %rsi
	movq	%rdx, %r13
	movq	%rax, %rdx
	movq	%rax, %r12
	callq	"core::cmp::slices::groups_equal::<i8,31'core::cmp::numbers::U8PartialEq{}>"
	movq	%r15, %rdi
	movq	%r13, %rdx
	movl	%eax, %ecx
	movq	%r12, %rax
	testb	%cl, %cl
	je	7f
4:
	movq	16(%rbx,%r14), %rax
	movq	24(%rbx,%r14), %rdx
	jmp	8f
5:
	xorl	%esi, %esi
6:
	cmpq	%rdx, %rsi
	jae	4b
7:
	cmpb	$0, 32(%rbx,%r14)
	je	8f
	movq	%rsp, %rcx
	movq	%rdi, %rsi
	movq	%rcx, %rdi
	movq	%rdx, %rbx
	movq	%rax, %rdx
	movq	%rbx, %rcx
	movq	%rax, %r14
	callq	"mime_lookup::name_map::other_value::<#643ceef07a9c3c2a>"
	movq	%rbx, %rdx
	movq	%r14, %rax
	cmpb	$1, (%rsp)
	jne	8f
	movq	8(%rsp), %rax
	movq	16(%rsp), %rdx
8:
	addq	$32, %rsp
	popq	%rbx
	popq	%r12
	popq	%r13
	popq	%r14
	popq	%r15
	retq
9:
	.size	"mime_lookup::read_back::targets::target_of", 9b-"mime_lookup::read_back::targets::target_of"

	.text
	.p2align	4
	.type	"mime_lookup::read_back::targets::targets_by_name",@function
"mime_lookup::read_back::targets::targets_by_name":
	pushq	%rbp
	pushq	%r15
	pushq	%r14
	pushq	%r13
	pushq	%r12
	pushq	%rbx
	subq	$232, %rsp
	movq	%rdx, %r14
	movq	%rsi, %r12
	movq	%rdi, %rbx
	movl	$32768, %edi
	movl	$2, %esi
	callq	rattle_alloc@PLT
	testb	$1, %al
	je	16f
	movq	%rdx, %r15
	movl	$32768, %edx
	movq	%r15, %rdi
	movl	$255, %esi
	callq	memset@PLT
	movq	%rsp, %r13
	movq	%r13, %rdx
	testq	%r14, %r14
	je	1f
	movabsq	$230584300921369395, %rax
	cmpq	%rax, %r14
	ja	14f
	leaq	(,%r14,8), %rax
	leaq	(%rax,%rax,4), %rdi
	movl	$8, %esi
	callq	rattle_alloc@PLT
	testb	$1, %al
	je	14f
1:
	movq	%r15, 32(%rsp)
	movq	$16384, 40(%rsp)
	movq	$16384, 48(%rsp)
	movq	%rdx, 56(%rsp)
	movq	$0, 64(%rsp)
	movq	%r14, 72(%rsp)
	movq	%r13, 80(%rsp)
	xorps	%xmm0, %xmm0
	movups	%xmm0, 88(%rsp)
	movq	%r13, 104(%rsp)
	movups	%xmm0, 112(%rsp)
	movq	%r13, 128(%rsp)
	movups	%xmm0, 136(%rsp)
	movq	%r13, 152(%rsp)
	movups	%xmm0, 160(%rsp)
	movq	$0, 176(%rsp)
	movabsq	$2611923443488327891, %rax
	movq	%rax, 184(%rsp)
	testq	%r14, %r14
	je	18f
	movq	%r14, %rax
	shlq	$5, %rax
	leaq	(%rax,%r12), %r13
	addq	$-8, %r13
	jmp	4f
	.p2align	4
2:
	movb	$1, 32(%rbp,%r15)
	leaq	192(%rsp), %rdi
	leaq	80(%rsp), %rsi
	callq	"mime_lookup::name_map::put_other::<#643ceef07a9c3c2a>"
	cmpb	$0, 192(%rsp)
	jne	19f
3:
	decq	%r14
	addq	$-32, %r13
	testq	%r14, %r14
	je	18f
4:
	movq	-24(%r13), %rdx
	movq	-16(%r13), %rcx
	movq	-8(%r13), %r8
	movq	(%r13), %r9
	xorps	%xmm0, %xmm0
	movaps	%xmm0, 208(%rsp)
	movaps	%xmm0, 192(%rsp)
	cmpq	$8, %rcx
	jb	5f
	movq	%rcx, %rax
	shrq	%rax
	movq	-4(%rdx,%rax), %rax
	leaq	(%rax,%rax,2), %rax
	addq	-8(%rdx,%rcx), %rax
	movabsq	$-4658895280553007687, %r15
	imulq	%rax, %r15
	shrq	$49, %r15
	andl	$-2, %r15d
	jmp	6f
	.p2align	4
5:
	xorl	%r15d, %r15d
6:
	movq	32(%rsp), %rax
	movq	56(%rsp), %rbp
	movzwl	(%rax,%r15), %esi
	movq	64(%rsp), %r12
	cmpq	%rsi, %r12
	jbe	7f
	shll	$3, %esi
	leaq	(%rsi,%rsi,4), %r15
	cmpq	%rcx, 8(%rbp,%r15)
	jne	2b
	movq	(%rbp,%r15), %rdi
	cmpq	$4, %rcx
	jae	9f
	testq	%rcx, %rcx
	je	12f
	movzbl	(%rdi), %eax
	cmpb	(%rdx), %al
	jne	10f
	cmpq	$1, %rcx
	je	12f
	movzbl	1(%rdi), %esi
	movl	$1, %eax
	cmpb	1(%rdx), %sil
	jne	11f
	cmpq	$2, %rcx
	je	12f
	movzbl	2(%rdi), %esi
	movl	$2, %eax
	cmpb	2(%rdx), %sil
	jne	11f
	jmp	12f
	.p2align	4
7:
	cmpq	$65534, %r12
	ja	19f
	movq	%r12, %rsi
	cmpq	%r12, 72(%rsp)
	je	13f
8:
	leaq	(%rsi,%rsi,4), %rdi
	movq	%rdx, (%rbp,%rdi,8)
	movq	%rcx, 8(%rbp,%rdi,8)
	movq	%r8, 16(%rbp,%rdi,8)
	movq	%r9, 24(%rbp,%rdi,8)
	incq	%rsi
	movq	$0, 32(%rbp,%rdi,8)
	movq	%rsi, 64(%rsp)
	movw	%r12w, (%rax,%r15)
	jmp	3b
9:
	movl	(%rdi), %eax
	cmpl	(%rdx), %eax
	jne	2b
	movq	%rcx, %rsi
	movq	%rdx, %r12
	movq	%r9, 8(%rsp)
	movq	%r8, 16(%rsp)
	movq	%rcx, 24(%rsp)
	callq	"core::cmp::slices::groups_equal::<i8,31'core::cmp::numbers::U8PartialEq{}>"
	movq	%r12, %rdx
	movq	24(%rsp), %rcx
	movq	16(%rsp), %r8
	movq	8(%rsp), %r9
	testb	%al, %al
	je	2b
	jmp	12f
10:
	xorl	%eax, %eax
11:
	cmpq	%rcx, %rax
	jb	2b
12:
	movq	%r8, 16(%rbp,%r15)
	movq	%r9, 24(%rbp,%r15)
	jmp	3b
13:
	leaq	56(%rsp), %rdi
	movq	%r9, 8(%rsp)
	movq	%r8, %rbp
	movq	%rcx, 24(%rsp)
	movq	%rdx, 16(%rsp)
	callq	"std_alloc::vec::Vec::grow_amortized::<#0061ae0bdb08d16a>"
	movq	16(%rsp), %rdx
	movq	24(%rsp), %rcx
	movq	8(%rsp), %r9
	testb	%al, %al
	je	19f
	movq	%rbp, %r8
	movq	64(%rsp), %rsi
	movq	32(%rsp), %rax
	movq	56(%rsp), %rbp
	jmp	8b
14:
	movq	%r15, %rdi
15:
	callq	rattle_dealloc@PLT
16:
	movb	$1, (%rbx)
	xorps	%xmm0, %xmm0
	movups	%xmm0, 8(%rbx)
	movups	%xmm0, 24(%rbx)
	movups	%xmm0, 40(%rbx)
	movups	%xmm0, 56(%rbx)
	movups	%xmm0, 72(%rbx)
	movups	%xmm0, 88(%rbx)
	movups	%xmm0, 104(%rbx)
	movups	%xmm0, 120(%rbx)
	movups	%xmm0, 136(%rbx)
	movups	%xmm0, 152(%rbx)
17:
	addq	$232, %rsp
	popq	%rbx
	popq	%r12
	popq	%r13
	popq	%r14
	popq	%r15
	popq	%rbp
	retq
18:
	movb	$0, (%rbx)
	addq	$8, %rbx
	leaq	32(%rsp), %rsi
	movl	$160, %edx
	movq	%rbx, %rdi
	callq	memcpy@PLT
	jmp	17b
19:
	cmpq	$0, 48(%rsp)
	je	20f
	movq	32(%rsp), %rdi
	callq	rattle_dealloc@PLT
20:
	cmpq	$0, 72(%rsp)
	je	21f
	movq	56(%rsp), %rdi
	callq	rattle_dealloc@PLT
21:
	movq	104(%rsp), %r12
	movq	120(%rsp), %r14
	movq	128(%rsp), %r15
	movq	144(%rsp), %rbp
	movq	152(%rsp), %rax
	movq	%rax, 8(%rsp)
	movq	168(%rsp), %r13
	cmpq	$0, 96(%rsp)
	je	22f
	movq	80(%rsp), %rdi
	callq	rattle_dealloc@PLT
22:
	testq	%r14, %r14
	je	23f
	movq	%r12, %rdi
	callq	rattle_dealloc@PLT
23:
	testq	%rbp, %rbp
	je	24f
	movq	%r15, %rdi
	callq	rattle_dealloc@PLT
24:
	testq	%r13, %r13
	je	16b
	movq	8(%rsp), %rdi
	jmp	15b
25:
	.size	"mime_lookup::read_back::targets::targets_by_name", 25b-"mime_lookup::read_back::targets::targets_by_name"
