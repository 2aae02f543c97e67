# Made by dist/refresh of what is proved.

	.text
	.p2align	4
	.type	"clap::builder::arg::Arg::stylized_text",@function
"clap::builder::arg::Arg::stylized_text":
	pushq	%rbp
	pushq	%rbx
	subq	$200, %rsp
	movq	%rdi, %rbx
	movq	$0, 88(%rsp)
	xorps	%xmm0, %xmm0
	movaps	%xmm0, 128(%rsp)
	movups	%xmm0, 143(%rsp)
	movq	%rsi, 80(%rsp)
	movb	$1, 88(%rsp)
	movb	%dl, 89(%rsp)
	movups	%xmm0, 175(%rsp)
	movaps	%xmm0, 160(%rsp)
	movups	%xmm0, 24(%rsp)
	movl	$0, 73(%rsp)
	movl	$0, 76(%rsp)
	leaq	15(%rsp), %rax
	movq	%rax, 16(%rsp)
	movl	$32, 40(%rsp)
	movq	$0, 44(%rsp)
	movl	$0, 52(%rsp)
	movq	$-1, 56(%rsp)
	movq	$0, 64(%rsp)
	movb	$0, 72(%rsp)
	movl	40(%rsp), %eax
	movl	%eax, 96(%rsp)
	movq	44(%rsp), %rax
	movq	%rax, 100(%rsp)
	movl	52(%rsp), %eax
	movl	%eax, 108(%rsp)
	movq	$-1, 112(%rsp)
	movl	$32, 40(%rsp)
	movq	$0, 44(%rsp)
	movl	$0, 52(%rsp)
	leaq	80(%rsp), %rdi
	leaq	16(%rsp), %rsi
	callq	"clap::builder::arg::StylizedDisplay::fmt::<#86a172efa8724158>"
	movaps	96(%rsp), %xmm0
	movups	%xmm0, 40(%rsp)
	movq	112(%rsp), %rcx
	movq	%rcx, 56(%rsp)
	testb	%al, %al
	je	1f
	movb	$1, %bpl
	cmpq	$0, 32(%rsp)
	je	2f
	movq	16(%rsp), %rdi
	callq	rattle_dealloc@PLT
	jmp	2f
1:
	movq	32(%rsp), %rax
	movq	%rax, 183(%rsp)
	movups	16(%rsp), %xmm0
	movups	%xmm0, 167(%rsp)
	xorl	%ebp, %ebp
2:
	movq	183(%rsp), %rax
	movq	%rax, 151(%rsp)
	movups	167(%rsp), %xmm0
	movups	%xmm0, 135(%rsp)
	movb	%bpl, (%rbx)
	movups	135(%rsp), %xmm0
	movups	%xmm0, 8(%rbx)
	movq	151(%rsp), %rax
	movq	%rax, 24(%rbx)
	addq	$200, %rsp
	popq	%rbx
	popq	%rbp
	retq
3:
	.size	"clap::builder::arg::Arg::stylized_text", 3b-"clap::builder::arg::Arg::stylized_text"

	.text
	.p2align	4
	.type	"clap::builder::arg::StylizedDisplay::fmt::<#86a172efa8724158>",@function
"clap::builder::arg::StylizedDisplay::fmt::<#86a172efa8724158>":
	pushq	%rbp
	pushq	%r15
	pushq	%r14
	pushq	%r13
	pushq	%r12
	pushq	%rbx
	subq	$120, %rsp
	movq	%rsi, %rbx
	movl	$0, 68(%rsp)
	cmpb	$0, 10(%rdi)
	jne	14f
	movq	(%rdi), %rax
	cmpb	$1, 72(%rax)
	jne	9f
	movq	80(%rax), %rsi
	movq	88(%rax), %rdx
	leaq	24(%rbx), %r14
	movq	40(%rbx), %rax
	movq	%rax, 32(%rsp)
	movups	24(%rbx), %xmm0
	movaps	%xmm0, 16(%rsp)
	movl	$32, 24(%rbx)
	movq	$0, 28(%rbx)
	movl	$0, 36(%rbx)
	movq	$-1, 40(%rbx)
	cmpq	$0, 48(%rbx)
	jne	106f
	movq	8(%rbx), %rax
	movq	16(%rbx), %rcx
	movq	%rcx, %r8
	subq	%rax, %r8
	cmpq	$1, %r8
	jbe	107f
1:
	movq	(%rbx), %r8
	movw	$11565, (%r8,%rax)
	addq	$2, %rax
	movq	%r8, (%rbx)
	movq	%rax, 8(%rbx)
	movq	%rcx, 16(%rbx)
2:
	leaq	28(%rbx), %rax
	movl	$32, 24(%rbx)
	movl	$0, 8(%rax)
	movq	$0, (%rax)
	movq	$-1, 40(%rbx)
	cmpq	$0, 48(%rbx)
	jne	108f
	movq	8(%rbx), %rcx
	movq	16(%rbx), %r15
	movq	%r15, %rax
	subq	%rcx, %rax
	cmpq	%rax, %rdx
	ja	113f
3:
	leaq	8(%rbx), %rax
	leaq	(%rcx,%rdx), %r12
	movq	(%rbx), %r13
	xorps	%xmm0, %xmm0
	movups	%xmm0, (%rax)
	leaq	(%rcx,%r13), %rax
	movq	%rax, %r8
	subq	%rsi, %r8
	cmpq	%rdx, %r8
	jae	12f
	cmpq	$4, %rdx
	jb	4f
	cmpq	$32, %r8
	jae	99f
4:
	xorl	%r8d, %r8d
5:
	movq	%rdx, %r10
	movq	%r8, %r9
	andq	$3, %r10
	je	7f
	movq	%r8, %r9
	.p2align	4
6:
	movzbl	(%rsi,%r9), %r11d
	movb	%r11b, (%rax,%r9)
	incq	%r9
	decq	%r10
	jne	6b
7:
	subq	%rdx, %r8
	cmpq	$-4, %r8
	ja	13f
	leaq	(%rcx,%r13), %rax
	addq	$3, %rax
	.p2align	4
8:
	movzbl	(%rsi,%r9), %ecx
	movb	%cl, -3(%rax,%r9)
	movzbl	1(%rsi,%r9), %ecx
	movb	%cl, -2(%rax,%r9)
	movzbl	2(%rsi,%r9), %ecx
	movb	%cl, -1(%rax,%r9)
	movzbl	3(%rsi,%r9), %ecx
	movb	%cl, (%rax,%r9)
	addq	$4, %r9
	cmpq	%r9, %rdx
	jne	8b
	jmp	13f
9:
	cmpb	$1, 64(%rax)
	jne	14f
	movq	%rdi, %r14
	movl	68(%rax), %eax
	movl	%eax, 68(%rsp)
	leaq	24(%rbx), %r15
	movq	40(%rbx), %rax
	movq	%rax, 32(%rsp)
	movups	24(%rbx), %xmm0
	movaps	%xmm0, 16(%rsp)
	movl	$32, 24(%rbx)
	movq	$0, 28(%rbx)
	movl	$0, 36(%rbx)
	movq	$-1, 40(%rbx)
	cmpq	$0, 48(%rbx)
	jne	115f
	movq	8(%rbx), %rax
	movq	16(%rbx), %rcx
	cmpq	%rax, %rcx
	je	116f
10:
	movq	(%rbx), %rdx
	movb	$45, (%rdx,%rax)
	incq	%rax
	movq	%rdx, (%rbx)
	movq	%rax, 8(%rbx)
	movq	%rcx, 16(%rbx)
11:
	leaq	68(%rsp), %rsi
	movq	%rbx, %rdi
	callq	"core::fmt::formatter::Formatter::write_piece::<#8b9b65c5604fc23d>"
	movl	%eax, %ecx
	movaps	16(%rsp), %xmm0
	movups	%xmm0, (%r15)
	movq	32(%rsp), %rax
	movq	%rax, 16(%r15)
	movb	$1, %al
	testb	%cl, %cl
	movq	%r14, %rdi
	je	14f
	jmp	97f
12:
	movq	%rdi, %rbp
	movq	%rax, %rdi
	callq	memmove@PLT
	movq	%rbp, %rdi
13:
	movq	%r13, (%rbx)
	movq	%r12, 8(%rbx)
	movq	%r15, 16(%rbx)
	movq	32(%rsp), %rax
	movq	%rax, 16(%r14)
	movaps	16(%rsp), %xmm0
	movups	%xmm0, (%r14)
14:
	movq	(%rdi), %r8
	movzbl	8(%rdi), %ebp
	movzbl	9(%rdi), %r14d
	movzbl	432(%r8), %eax
	cmpb	$1, %al
	movq	%r8, 80(%rsp)
	jne	16f
	cmpq	$0, 448(%r8)
	jne	16f
15:
	movl	$0, 12(%rsp)
	jmp	21f
16:
	cmpb	$1, 72(%r8)
	je	17f
	cmpb	$1, 64(%r8)
	jne	15b
17:
	cmpb	$1, %al
	sete	%al
	cmpq	$0, 440(%r8)
	sete	%cl
	andb	%al, %cl
	movl	%ecx, 12(%rsp)
	movzbl	%cl, %eax
	leaq	1(%rax), %rdx
	leaq	.L8ac30d2a01e2(%rip), %rcx
	leaq	.L9003dc4c537c(%rip), %rdi
	testb	%al, %al
	cmovneq	%rcx, %rdi
	leaq	.L629ef5b6a999(%rip), %rax
	leaq	.L9b770efd7ae0(%rip), %rsi
	cmovneq	%rax, %rsi
	cmpb	$0, 602(%r8)
	cmovneq	%rdi, %rsi
	cmpq	$0, 48(%rbx)
	jne	103f
	movq	8(%rbx), %r15
	movq	16(%rbx), %r12
	movq	%r12, %rax
	subq	%r15, %rax
	cmpq	%rax, %rdx
	ja	105f
18:
	movq	(%rbx), %r13
	leaq	(%r15,%r13), %rdi
	addq	%rdx, %r15
	movq	%rdi, %rax
	subq	%rsi, %rax
	cmpq	%rdx, %rax
	jae	19f
	movzbl	(%rsi), %eax
	movb	%al, (%rdi)
	cmpb	$0, 12(%rsp)
	je	20f
	movzbl	1(%rsi), %eax
	movb	%al, 1(%rdi)
	jmp	20f
19:
	callq	memcpy@PLT
20:
	movq	%r13, (%rbx)
	movq	%r15, 8(%rbx)
	movq	%r12, 16(%rbx)
21:
	movq	80(%rsp), %r13
	movzbl	432(%r13), %ecx
	movq	448(%r13), %rax
	cmpb	$1, %cl
	setne	%dl
	testq	%rax, %rax
	setne	%sil
	orb	%dl, %sil
	je	24f
22:
	cmpb	$1, %bpl
	movzbl	%r14b, %edx
	movzbl	592(%r13), %esi
	cmovel	%edx, %esi
	movl	%esi, 52(%rsp)
	movl	$1, %edx
	movl	$1, %esi
	movl	$1, %edi
	cmpb	$1, %cl
	jne	23f
	movq	440(%r13), %rsi
	movq	%rax, %rdi
23:
	cmpb	$0, 408(%r13)
	movq	%rdi, 96(%rsp)
	je	26f
	movq	416(%r13), %rax
	movq	%rax, 72(%rsp)
	movq	424(%r13), %rdx
	movq	%rdx, 56(%rsp)
	cmpq	$1, %rdx
	jbe	27f
	jmp	28f
24:
	cmpb	$1, 72(%r13)
	je	25f
	cmpb	$1, 64(%r13)
	jne	22b
25:
	cmpb	$1, 504(%r13)
	jne	91f
	cmpb	$4, 505(%r13)
	je	88f
	jmp	91f
26:
	leaq	416(%r13), %rax
	movq	%rax, 72(%rsp)
27:
	cmpq	$1, %rsi
	movq	%rsi, %rax
	adcq	$0, %rax
	movq	%rax, 56(%rsp)
28:
	movl	52(%rsp), %eax
	xorb	$1, %al
	movl	%eax, 52(%rsp)
	movq	%rsi, 104(%rsp)
	leaq	-1(%rsi), %rax
	movq	%rax, 88(%rsp)
	leaq	24(%rbx), %r8
	leaq	28(%rbx), %r9
	xorl	%r12d, %r12d
	movq	%rdx, 112(%rsp)
	.p2align	4
29:
	movq	%r13, %rax
	testq	%rdx, %rdx
	je	30f
	movq	72(%rsp), %rax
	cmpq	$1, %rdx
	je	30f
	movq	%r12, %rax
	shlq	$4, %rax
	addq	72(%rsp), %rax
	cmpq	%rdx, %r12
	cmovaeq	%r13, %rax
30:
	cmpb	$1, 72(%r13)
	jne	31f
	cmpq	%r12, 88(%rsp)
	setb	%bpl
	movq	(%rax), %r15
	movq	8(%rax), %r14
	testq	%r12, %r12
	jne	32f
	jmp	34f
	.p2align	4
31:
	cmpq	%r12, 104(%rsp)
	setbe	%cl
	orb	52(%rsp), %cl
	xorl	%edx, %edx
	cmpq	%r12, 88(%rsp)
	setb	%dl
	cmpb	$1, 64(%r13)
	movzbl	%cl, %ebp
	cmovel	%edx, %ebp
	movq	(%rax), %r15
	movq	8(%rax), %r14
	testq	%r12, %r12
	je	34f
32:
	cmpq	$0, 48(%rbx)
	jne	64f
	movq	8(%rbx), %rax
	movq	16(%rbx), %rcx
	cmpq	%rax, %rcx
	je	65f
33:
	movq	(%rbx), %rdx
	movb	$32, (%rdx,%rax)
	incq	%rax
	movq	%rdx, (%rbx)
	movq	%rax, 8(%rbx)
	movq	%rcx, 16(%rbx)
34:
	testb	$1, %bpl
	je	43f
	movq	16(%r8), %rax
	movq	%rax, 32(%rsp)
	movups	(%r8), %xmm0
	movaps	%xmm0, 16(%rsp)
	movl	$32, 24(%rbx)
	movl	$0, 8(%r9)
	movq	$0, (%r9)
	movq	$-1, 40(%rbx)
	cmpq	$0, 48(%rbx)
	jne	66f
	movq	8(%rbx), %rax
	movq	16(%rbx), %rcx
	cmpq	%rax, %rcx
	je	81f
35:
	movq	(%rbx), %rdx
	movb	$91, (%rdx,%rax)
	incq	%rax
	movq	%rdx, (%rbx)
	movq	%rax, 8(%rbx)
	movq	%rcx, 16(%rbx)
36:
	movl	$32, 24(%rbx)
	movl	$0, 8(%r9)
	movq	$0, (%r9)
	movq	$-1, 40(%rbx)
	cmpq	$0, 48(%rbx)
	jne	68f
	movq	8(%rbx), %rbp
	movq	16(%rbx), %r10
	movq	%r10, %rax
	subq	%rbp, %rax
	cmpq	%rax, %r14
	ja	83f
37:
	movq	(%rbx), %r13
	xorps	%xmm0, %xmm0
	leaq	8(%rbx), %rax
	movups	%xmm0, (%rax)
	movq	%r13, %rdi
	addq	%rbp, %rdi
	movq	%rdi, %rax
	subq	%r15, %rax
	cmpq	%r14, %rax
	jae	52f
	cmpq	$4, %r14
	jb	38f
	cmpq	$32, %rax
	jae	62f
38:
	xorl	%eax, %eax
39:
	movq	%r14, %rdx
	movq	%rax, %rcx
	andq	$3, %rdx
	je	41f
	movq	%rax, %rcx
	.p2align	4
40:
	movzbl	(%r15,%rcx), %esi
	movb	%sil, (%rdi,%rcx)
	incq	%rcx
	decq	%rdx
	jne	40b
41:
	subq	%r14, %rax
	cmpq	$-4, %rax
	ja	53f
	leaq	3(,%rbp), %rax
	addq	%r13, %rax
	.p2align	4
42:
	movzbl	(%r15,%rcx), %edx
	movb	%dl, -3(%rax,%rcx)
	movzbl	1(%r15,%rcx), %edx
	movb	%dl, -2(%rax,%rcx)
	movzbl	2(%r15,%rcx), %edx
	movb	%dl, -1(%rax,%rcx)
	movzbl	3(%r15,%rcx), %edx
	movb	%dl, (%rax,%rcx)
	addq	$4, %rcx
	cmpq	%rcx, %r14
	jne	42b
	jmp	53f
	.p2align	4
43:
	movq	16(%r8), %rax
	movq	%rax, 32(%rsp)
	movups	(%r8), %xmm0
	movaps	%xmm0, 16(%rsp)
	movl	$32, 24(%rbx)
	movl	$0, 8(%r9)
	movq	$0, (%r9)
	movq	$-1, 40(%rbx)
	cmpq	$0, 48(%rbx)
	jne	67f
	movq	8(%rbx), %rax
	movq	16(%rbx), %rcx
	cmpq	%rax, %rcx
	je	82f
44:
	movq	(%rbx), %rdx
	movb	$60, (%rdx,%rax)
	incq	%rax
	movq	%rdx, (%rbx)
	movq	%rax, 8(%rbx)
	movq	%rcx, 16(%rbx)
45:
	movl	$32, 24(%rbx)
	movl	$0, 8(%r9)
	movq	$0, (%r9)
	movq	$-1, 40(%rbx)
	cmpq	$0, 48(%rbx)
	jne	69f
	movq	8(%rbx), %rbp
	movq	16(%rbx), %r10
	movq	%r10, %rax
	subq	%rbp, %rax
	cmpq	%rax, %r14
	ja	84f
46:
	movq	(%rbx), %r13
	xorps	%xmm0, %xmm0
	leaq	8(%rbx), %rax
	movups	%xmm0, (%rax)
	movq	%r13, %rdi
	addq	%rbp, %rdi
	movq	%rdi, %rax
	subq	%r15, %rax
	cmpq	%r14, %rax
	jae	56f
	cmpq	$4, %r14
	jb	47f
	cmpq	$32, %rax
	jae	63f
47:
	xorl	%eax, %eax
48:
	movq	%r14, %rdx
	movq	%rax, %rcx
	andq	$3, %rdx
	je	50f
	movq	%rax, %rcx
	.p2align	4
49:
	movzbl	(%r15,%rcx), %esi
	movb	%sil, (%rdi,%rcx)
	incq	%rcx
	decq	%rdx
	jne	49b
50:
	subq	%r14, %rax
	cmpq	$-4, %rax
	ja	57f
	leaq	3(,%rbp), %rax
	addq	%r13, %rax
	.p2align	4
51:
	movzbl	(%r15,%rcx), %edx
	movb	%dl, -3(%rax,%rcx)
	movzbl	1(%r15,%rcx), %edx
	movb	%dl, -2(%rax,%rcx)
	movzbl	2(%r15,%rcx), %edx
	movb	%dl, -1(%rax,%rcx)
	movzbl	3(%r15,%rcx), %edx
	movb	%dl, (%rax,%rcx)
	addq	$4, %rcx
	cmpq	%rcx, %r14
	jne	51b
	jmp	57f
	.p2align	4
52:
	movq	%r15, %rsi
	movq	%r14, %rdx
	movq	%r10, %r15
	callq	memmove@PLT
	movq	%r15, %r10
	leaq	28(%rbx), %r9
	leaq	24(%rbx), %r8
53:
	addq	%r14, %rbp
	movq	%r13, (%rbx)
	movq	%rbp, 8(%rbx)
	movq	%r10, 16(%rbx)
	movq	80(%rsp), %r13
54:
	movl	$32, 24(%rbx)
	movl	$0, 8(%r9)
	movq	$0, (%r9)
	movq	$-1, 40(%rbx)
	cmpq	$0, 48(%rbx)
	jne	78f
	movq	8(%rbx), %rax
	movq	16(%rbx), %rcx
	cmpq	%rax, %rcx
	je	85f
55:
	movq	(%rbx), %rdx
	movb	$93, (%rdx,%rax)
	jmp	60f
	.p2align	4
56:
	movq	%r15, %rsi
	movq	%r14, %rdx
	movq	%r10, %r15
	callq	memmove@PLT
	movq	%r15, %r10
	leaq	28(%rbx), %r9
	leaq	24(%rbx), %r8
57:
	addq	%r14, %rbp
	movq	%r13, (%rbx)
	movq	%rbp, 8(%rbx)
	movq	%r10, 16(%rbx)
	movq	80(%rsp), %r13
58:
	movl	$32, 24(%rbx)
	movl	$0, 8(%r9)
	movq	$0, (%r9)
	movq	$-1, 40(%rbx)
	cmpq	$0, 48(%rbx)
	jne	79f
	movq	8(%rbx), %rax
	movq	16(%rbx), %rcx
	cmpq	%rax, %rcx
	je	86f
59:
	movq	(%rbx), %rdx
	movb	$62, (%rdx,%rax)
60:
	incq	%rax
	movq	%rdx, (%rbx)
	movq	%rax, 8(%rbx)
	movq	%rcx, 16(%rbx)
	movq	32(%rsp), %rax
	movq	%rax, 16(%r8)
	movaps	16(%rsp), %xmm0
	movups	%xmm0, (%r8)
61:
	incq	%r12
	cmpq	56(%rsp), %r12
	movq	112(%rsp), %rdx
	jne	29b
	jmp	87f
62:
	cmpq	$32, %r14
	jae	70f
	xorl	%eax, %eax
	jmp	72f
63:
	cmpq	$32, %r14
	jae	74f
	xorl	%eax, %eax
	jmp	76f
64:
	leaq	.L9b770efd7ae0(%rip), %rsi
	movl	$1, %edx
	movq	%rbx, %rdi
	callq	"core::fmt::formatter::Formatter::write_indented::<#0a7ff941e43d6b30>"
	leaq	28(%rbx), %r9
	leaq	24(%rbx), %r8
	testb	%al, %al
	je	34b
	jmp	96f
65:
	movl	$1, %esi
	movq	%rbx, %rdi
	callq	"std_alloc::vec::Vec::grow_amortized::<#1d775b5957dec42c>"
	testb	%al, %al
	je	96f
	movq	8(%rbx), %rax
	movq	16(%rbx), %rcx
	leaq	24(%rbx), %r8
	leaq	28(%rbx), %r9
	jmp	33b
66:
	leaq	.Lbdf5ca500ffb(%rip), %rsi
	movl	$1, %edx
	movq	%rbx, %rdi
	callq	"core::fmt::formatter::Formatter::write_indented::<#0a7ff941e43d6b30>"
	leaq	28(%rbx), %r9
	leaq	24(%rbx), %r8
	testb	%al, %al
	je	36b
	jmp	95f
67:
	leaq	.L0264059b8465(%rip), %rsi
	movl	$1, %edx
	movq	%rbx, %rdi
	callq	"core::fmt::formatter::Formatter::write_indented::<#0a7ff941e43d6b30>"
	leaq	28(%rbx), %r9
	leaq	24(%rbx), %r8
	testb	%al, %al
	je	45b
	jmp	95f
68:
	movq	%rbx, %rdi
	movq	%r15, %rsi
	movq	%r14, %rdx
	callq	"core::fmt::formatter::Formatter::write_indented::<#0a7ff941e43d6b30>"
	leaq	28(%rbx), %r9
	leaq	24(%rbx), %r8
	testb	%al, %al
	je	54b
	jmp	95f
69:
	movq	%rbx, %rdi
	movq	%r15, %rsi
	movq	%r14, %rdx
	callq	"core::fmt::formatter::Formatter::write_indented::<#0a7ff941e43d6b30>"
	leaq	28(%rbx), %r9
	leaq	24(%rbx), %r8
	testb	%al, %al
	je	58b
	jmp	95f
70:
	movq	%r14, %rax
	andq	$-32, %rax
	leaq	16(,%rbp), %rcx
	addq	%r13, %rcx
	xorl	%edx, %edx
	.p2align	4
71:
	movups	(%r15,%rdx), %xmm0
	movups	16(%r15,%rdx), %xmm1
	movups	%xmm0, -16(%rcx,%rdx)
	movups	%xmm1, (%rcx,%rdx)
	addq	$32, %rdx
	cmpq	%rdx, %rax
	jne	71b
	cmpq	%rax, %r14
	je	53b
	testb	$28, %r14b
	je	39b
72:
	movq	%rax, %rcx
	movq	%r14, %rax
	andq	$-4, %rax
	.p2align	4
73:
	movl	(%r15,%rcx), %edx
	movl	%edx, (%rdi,%rcx)
	addq	$4, %rcx
	cmpq	%rcx, %rax
	jne	73b
	cmpq	%rax, %r14
	je	53b
	jmp	39b
74:
	movq	%r14, %rax
	andq	$-32, %rax
	leaq	16(,%rbp), %rcx
	addq	%r13, %rcx
	xorl	%edx, %edx
	.p2align	4
75:
	movups	(%r15,%rdx), %xmm0
	movups	16(%r15,%rdx), %xmm1
	movups	%xmm0, -16(%rcx,%rdx)
	movups	%xmm1, (%rcx,%rdx)
	addq	$32, %rdx
	cmpq	%rdx, %rax
	jne	75b
	cmpq	%rax, %r14
	je	57b
	testb	$28, %r14b
	je	48b
76:
	movq	%rax, %rcx
	movq	%r14, %rax
	andq	$-4, %rax
	.p2align	4
77:
	movl	(%r15,%rcx), %edx
	movl	%edx, (%rdi,%rcx)
	addq	$4, %rcx
	cmpq	%rcx, %rax
	jne	77b
	cmpq	%rax, %r14
	je	57b
	jmp	48b
78:
	leaq	.L0d0a70152a48(%rip), %rsi
	jmp	80f
79:
	leaq	.Ld6f1b0994a9e(%rip), %rsi
80:
	movl	$1, %edx
	movq	%rbx, %rdi
	callq	"core::fmt::formatter::Formatter::write_indented::<#0a7ff941e43d6b30>"
	leaq	28(%rbx), %r9
	leaq	24(%rbx), %r8
	movaps	16(%rsp), %xmm0
	movups	%xmm0, (%r8)
	movq	32(%rsp), %rcx
	movq	%rcx, 16(%r8)
	testb	%al, %al
	je	61b
	jmp	96f
81:
	movl	$1, %esi
	movq	%rbx, %rdi
	callq	"std_alloc::vec::Vec::grow_amortized::<#1d775b5957dec42c>"
	leaq	28(%rbx), %r9
	leaq	24(%rbx), %r8
	testb	%al, %al
	je	95f
	movq	8(%rbx), %rax
	movq	16(%rbx), %rcx
	jmp	35b
82:
	movl	$1, %esi
	movq	%rbx, %rdi
	callq	"std_alloc::vec::Vec::grow_amortized::<#1d775b5957dec42c>"
	leaq	28(%rbx), %r9
	leaq	24(%rbx), %r8
	testb	%al, %al
	je	95f
	movq	8(%rbx), %rax
	movq	16(%rbx), %rcx
	jmp	44b
83:
	movq	%rbx, %rdi
	movq	%r14, %rsi
	callq	"std_alloc::vec::Vec::grow_amortized::<#1d775b5957dec42c>"
	leaq	28(%rbx), %r9
	leaq	24(%rbx), %r8
	testb	%al, %al
	je	95f
	movq	8(%rbx), %rbp
	movq	16(%rbx), %r10
	jmp	37b
84:
	movq	%rbx, %rdi
	movq	%r14, %rsi
	callq	"std_alloc::vec::Vec::grow_amortized::<#1d775b5957dec42c>"
	leaq	28(%rbx), %r9
	leaq	24(%rbx), %r8
	testb	%al, %al
	je	95f
	movq	8(%rbx), %rbp
	movq	16(%rbx), %r10
	jmp	46b
85:
	movl	$1, %esi
	movq	%rbx, %rdi
	callq	"std_alloc::vec::Vec::grow_amortized::<#1d775b5957dec42c>"
	leaq	28(%rbx), %r9
	leaq	24(%rbx), %r8
	testb	%al, %al
	je	95f
	movq	8(%rbx), %rax
	movq	16(%rbx), %rcx
	jmp	55b
86:
	movl	$1, %esi
	movq	%rbx, %rdi
	callq	"std_alloc::vec::Vec::grow_amortized::<#1d775b5957dec42c>"
	leaq	28(%rbx), %r9
	leaq	24(%rbx), %r8
	testb	%al, %al
	je	95f
	movq	8(%rbx), %rax
	movq	16(%rbx), %rcx
	jmp	59b
87:
	movq	56(%rsp), %rax
	cmpq	96(%rsp), %rax
	jae	90f
88:
	cmpq	$0, 48(%rbx)
	jne	100f
	movq	8(%rbx), %rcx
	movq	16(%rbx), %rax
	movq	%rax, %rdx
	subq	%rcx, %rdx
	cmpq	$2, %rdx
	jbe	101f
89:
	leaq	3(%rcx), %rdx
	movq	(%rbx), %rsi
	movb	$46, 2(%rsi,%rcx)
	movw	$11822, (%rsi,%rcx)
	movq	%rsi, (%rbx)
	movq	%rdx, 8(%rbx)
	movq	%rax, 16(%rbx)
	jmp	91f
90:
	cmpb	$1, 72(%r13)
	je	91f
	cmpb	$1, 64(%r13)
	jne	98f
91:
	cmpb	$0, 12(%rsp)
	je	94f
92:
	cmpq	$0, 48(%rbx)
	jne	102f
	movq	8(%rbx), %rax
	movq	16(%rbx), %rcx
	cmpq	%rax, %rcx
	je	104f
93:
	movq	(%rbx), %rdx
	movb	$93, (%rdx,%rax)
	incq	%rax
	movq	%rdx, (%rbx)
	movq	%rax, 8(%rbx)
	movq	%rcx, 16(%rbx)
94:
	xorl	%eax, %eax
	jmp	97f
95:
	movq	32(%rsp), %rax
	movq	%rax, 16(%r8)
	movaps	16(%rsp), %xmm0
	movups	%xmm0, (%r8)
96:
	movb	$1, %al
97:
	addq	$120, %rsp
	popq	%rbx
	popq	%r12
	popq	%r13
	popq	%r14
	popq	%r15
	popq	%rbp
	retq
98:
	cmpb	$1, 504(%r13)
	jne	91b
	cmpb	$1, 505(%r13)
	je	88b
	jmp	91b
99:
	cmpq	$32, %rdx
	jae	109f
	xorl	%r8d, %r8d
	jmp	111f
100:
	leaq	.L1e0d957ec356(%rip), %rsi
	movl	$3, %edx
	movq	%rbx, %rdi
	callq	"core::fmt::formatter::Formatter::write_indented::<#0a7ff941e43d6b30>"
	testb	%al, %al
	jne	97b
	movl	12(%rsp), %ecx
	xorb	$1, %cl
	je	92b
	jmp	97b
101:
	movl	$3, %esi
	movq	%rbx, %rdi
	callq	"std_alloc::vec::Vec::grow_amortized::<#1d775b5957dec42c>"
	movl	%eax, %ecx
	movb	$1, %al
	testb	%cl, %cl
	je	97b
	movq	8(%rbx), %rcx
	movq	16(%rbx), %rax
	jmp	89b
102:
	leaq	.L0d0a70152a48(%rip), %rsi
	movl	$1, %edx
	movq	%rbx, %rdi
	callq	"core::fmt::formatter::Formatter::write_indented::<#0a7ff941e43d6b30>"
	testb	%al, %al
	je	94b
	jmp	96b
103:
	movq	%rbx, %rdi
	callq	"core::fmt::formatter::Formatter::write_indented::<#0a7ff941e43d6b30>"
	movl	%eax, %ecx
	movb	$1, %al
	testb	%cl, %cl
	je	21b
	jmp	97b
104:
	movl	$1, %esi
	movq	%rbx, %rdi
	callq	"std_alloc::vec::Vec::grow_amortized::<#1d775b5957dec42c>"
	testb	%al, %al
	je	96b
	movq	8(%rbx), %rax
	movq	16(%rbx), %rcx
	jmp	93b
105:
	movq	%rsi, 56(%rsp)
	movq	%rbx, %rdi
	movq	%rdx, %r13
	movq	%rdx, %rsi
	callq	"std_alloc::vec::Vec::grow_amortized::<#1d775b5957dec42c>"
	movl	%eax, %ecx
	movb	$1, %al
	testb	%cl, %cl
	je	97b
	movq	8(%rbx), %r15
	movq	16(%rbx), %r12
	movq	%r13, %rdx
	movq	56(%rsp), %rsi
	jmp	18b
106:
	leaq	.L32d1a5938230(%rip), %rax
	movq	%rdx, %r15
	movl	$2, %edx
	movq	%rdi, %r12
	movq	%rbx, %rdi
	movq	%rsi, %r13
	movq	%rax, %rsi
	callq	"core::fmt::formatter::Formatter::write_indented::<#0a7ff941e43d6b30>"
	movq	%r13, %rsi
	movq	%r15, %rdx
	movq	%r12, %rdi
	testb	%al, %al
	jne	114f
	jmp	2b
107:
	movq	%rsi, %r15
	movl	$2, %esi
	movq	%rdi, %r12
	movq	%rbx, %rdi
	movq	%rdx, %r13
	callq	"std_alloc::vec::Vec::grow_amortized::<#1d775b5957dec42c>"
	testb	%al, %al
	je	114f
	movq	%r15, %rsi
	movq	%r13, %rdx
	movq	%r12, %rdi
	movq	8(%rbx), %rax
	movq	16(%rbx), %rcx
	jmp	1b
108:
	movq	%rdi, %r15
	movq	%rbx, %rdi
	callq	"core::fmt::formatter::Formatter::write_indented::<#0a7ff941e43d6b30>"
	movq	%r15, %rdi
	movl	%eax, %ecx
	movaps	16(%rsp), %xmm0
	movups	%xmm0, (%r14)
	movq	32(%rsp), %rax
	movq	%rax, 16(%r14)
	movb	$1, %al
	testb	%cl, %cl
	je	14b
	jmp	97b
109:
	movq	%rdx, %r8
	andq	$-32, %r8
	leaq	(%rcx,%r13), %r9
	addq	$16, %r9
	xorl	%r10d, %r10d
	.p2align	4
110:
	movups	(%rsi,%r10), %xmm0
	movups	16(%rsi,%r10), %xmm1
	movups	%xmm0, -16(%r9,%r10)
	movups	%xmm1, (%r9,%r10)
	addq	$32, %r10
	cmpq	%r10, %r8
	jne	110b
	cmpq	%r8, %rdx
	je	13b
	testb	$28, %dl
	je	5b
111:
	movq	%r8, %r9
	movq	%rdx, %r8
	andq	$-4, %r8
	.p2align	4
112:
	movl	(%rsi,%r9), %r10d
	movl	%r10d, (%rax,%r9)
	addq	$4, %r9
	cmpq	%r9, %r8
	jne	112b
	cmpq	%r8, %rdx
	je	13b
	jmp	5b
113:
	movq	%rdi, %r15
	movq	%rbx, %rdi
	movq	%rsi, %r12
	movq	%rdx, %rsi
	movq	%rdx, %r13
	callq	"std_alloc::vec::Vec::grow_amortized::<#1d775b5957dec42c>"
	testb	%al, %al
	je	114f
	movq	%r12, %rsi
	movq	%r13, %rdx
	movq	%r15, %rdi
	movq	8(%rbx), %rcx
	movq	16(%rbx), %r15
	jmp	3b
114:
	movq	32(%rsp), %rax
	movq	%rax, 16(%r14)
	movaps	16(%rsp), %xmm0
	movups	%xmm0, (%r14)
	jmp	96b
115:
	leaq	.Lc1b0ea49b06c(%rip), %rsi
	movl	$1, %edx
	movq	%rbx, %rdi
	callq	"core::fmt::formatter::Formatter::write_indented::<#0a7ff941e43d6b30>"
	testb	%al, %al
	jne	117f
	jmp	11b
116:
	movl	$1, %esi
	movq	%rbx, %rdi
	callq	"std_alloc::vec::Vec::grow_amortized::<#1d775b5957dec42c>"
	testb	%al, %al
	je	117f
	movq	8(%rbx), %rax
	movq	16(%rbx), %rcx
	jmp	10b
117:
	movq	32(%rsp), %rax
	movq	%rax, 16(%r15)
	movaps	16(%rsp), %xmm0
	movups	%xmm0, (%r15)
	jmp	96b
118:
	.size	"clap::builder::arg::StylizedDisplay::fmt::<#86a172efa8724158>", 118b-"clap::builder::arg::StylizedDisplay::fmt::<#86a172efa8724158>"

	.text
	.p2align	4
	.type	"clap::builder::command::Command::arg",@function
"clap::builder::command::Command::arg":
	pushq	%rbp
	pushq	%r15
	pushq	%r14
	pushq	%r13
	pushq	%r12
	pushq	%rbx
	subq	$2760, %rsp
	movq	%rdx, %r14
	movq	%rsi, %rbx
	movq	%rdi, 136(%rsp)
	movzbl	64(%rdx), %r15d
	movzbl	72(%rdx), %r12d
	movq	544(%rdx), %rbp
	movq	552(%rdx), %r13
	movq	560(%rdx), %rax
	movq	%rax, 272(%rsp)
	movq	568(%rdx), %rax
	movq	%rax, 8(%rsp)
	movzbl	592(%rdx), %eax
	movq	%rax, 128(%rsp)
	movzbl	593(%rdx), %eax
	movq	%rax, 280(%rsp)
	xorps	%xmm0, %xmm0
	movaps	%xmm0, 240(%rsp)
	movaps	%xmm0, 384(%rsp)
	movaps	%xmm0, 400(%rsp)
	movaps	%xmm0, 416(%rsp)
	movaps	%xmm0, 432(%rsp)
	movq	$0, 447(%rsp)
	movl	$0, 40(%rsp)
	movl	$0, 43(%rsp)
	leaq	2289(%rsp), %rdi
	movl	$471, %edx
	xorl	%esi, %esi
	callq	memset@PLT
	xorps	%xmm0, %xmm0
	movaps	%xmm0, 368(%rsp)
	movq	$0, 112(%rsp)
	movq	$0, 118(%rsp)
	movaps	%xmm0, 288(%rsp)
	movaps	%xmm0, 304(%rsp)
	movaps	%xmm0, 320(%rsp)
	movaps	%xmm0, 336(%rsp)
	movq	$0, 351(%rsp)
	movl	$0, (%rsp)
	movl	$0, 3(%rsp)
	leaq	1818(%rsp), %rdi
	movl	$471, %edx
	xorl	%esi, %esi
	callq	memset@PLT
	xorps	%xmm0, %xmm0
	movaps	%xmm0, 224(%rsp)
	movq	$0, 64(%rsp)
	movq	$0, 70(%rsp)
	leaq	464(%rsp), %rdi
	movl	$672, %edx
	movq	%rbx, 264(%rsp)
	movq	%rbx, %rsi
	callq	memcpy@PLT
	movups	576(%r14), %xmm0
	movaps	%xmm0, 1136(%rsp)
	movq	%rbp, %rax
	shrq	$8, %rax
	movq	%r12, 56(%rsp)
	cmpb	$1, %r12b
	setne	%cl
	movq	%r15, 16(%rsp)
	cmpb	$1, %r15b
	setne	%dl
	testb	%dl, %cl
	je	1f
	movq	%r13, 104(%rsp)
	jmp	2f
1:
	xorl	%ecx, %ecx
	cmpb	$1, %bpl
	movq	960(%rsp), %rdx
	cmovneq	%rcx, %rax
	cmovneq	%rdx, %r13
	movq	%r13, 104(%rsp)
	incq	%rdx
	movq	$-1, %rcx
	cmovneq	%rdx, %rcx
	movq	%rcx, 960(%rsp)
	movl	$1, %ebp
2:
	leaq	65(%r14), %rcx
	leaq	73(%r14), %rsi
	leaq	594(%r14), %rbx
	movq	272(%rsp), %r12
	cmpb	$1, %r12b
	movq	280(%rsp), %r13
	jne	3f
	andq	$-256, %r12
	jmp	4f
3:
	movzbl	968(%rsp), %edx
	movq	%rdx, 8(%rsp)
	movq	264(%rsp), %rdx
	movups	512(%rdx), %xmm0
	movaps	%xmm0, 1136(%rsp)
	xorl	%r12d, %r12d
4:
	shlq	$8, %rax
	movzbl	%bpl, %r15d
	orq	%rax, %r15
	orq	$1, %r12
	movaps	1136(%rsp), %xmm0
	movaps	%xmm0, 240(%rsp)
	orb	%r13b, 1134(%rsp)
	movups	(%r14), %xmm0
	movups	16(%r14), %xmm1
	movups	32(%r14), %xmm2
	movups	48(%r14), %xmm3
	movaps	%xmm0, 144(%rsp)
	movaps	%xmm1, 160(%rsp)
	movaps	%xmm2, 176(%rsp)
	movaps	%xmm3, 192(%rsp)
	movl	(%rcx), %eax
	movl	3(%rcx), %ecx
	movl	%eax, 24(%rsp)
	movl	%ecx, 27(%rsp)
	leaq	1136(%rsp), %rdi
	movl	$471, %edx
	callq	memcpy@PLT
	movq	(%rbx), %rax
	movq	6(%rbx), %rcx
	movq	%rax, 80(%rsp)
	movq	%rcx, 86(%rsp)
	movq	1048(%rsp), %rbx
	cmpq	%rbx, 1056(%rsp)
	je	28f
5:
	movq	1040(%rsp), %r14
	imulq	$608, %rbx, %rbp
	movaps	144(%rsp), %xmm0
	movaps	160(%rsp), %xmm1
	movaps	176(%rsp), %xmm2
	movaps	192(%rsp), %xmm3
	movups	%xmm3, 48(%r14,%rbp)
	movups	%xmm2, 32(%r14,%rbp)
	movups	%xmm1, 16(%r14,%rbp)
	movups	%xmm0, (%r14,%rbp)
	movq	16(%rsp), %rax
	movb	%al, 64(%r14,%rbp)
	movl	24(%rsp), %eax
	movl	27(%rsp), %ecx
	movl	%eax, 65(%r14,%rbp)
	movl	%ecx, 68(%r14,%rbp)
	movq	56(%rsp), %rax
	movb	%al, 72(%r14,%rbp)
	leaq	(%r14,%rbp), %rdi
	addq	$73, %rdi
	leaq	1136(%rsp), %rsi
	movl	$471, %edx
	callq	memcpy@PLT
	movq	%r15, 544(%r14,%rbp)
	movq	104(%rsp), %rax
	movq	%rax, 552(%r14,%rbp)
	movq	%r12, 560(%r14,%rbp)
	movq	8(%rsp), %rax
	movq	%rax, 568(%r14,%rbp)
	movaps	240(%rsp), %xmm0
	movups	%xmm0, 576(%r14,%rbp)
	movq	128(%rsp), %rax
	movb	%al, 592(%r14,%rbp)
	movb	%r13b, 593(%r14,%rbp)
	movq	80(%rsp), %rax
	movq	86(%rsp), %rcx
	movq	%rcx, 600(%r14,%rbp)
	movq	%rax, 594(%r14,%rbp)
	incq	%rbx
	movq	%rbx, 1048(%rsp)
	xorps	%xmm0, %xmm0
	movups	%xmm0, 295(%rsp)
	movups	%xmm0, 311(%rsp)
	movups	%xmm0, 327(%rsp)
	movups	%xmm0, 343(%rsp)
	movl	$0, (%rsp)
	movl	$0, 3(%rsp)
	leaq	1818(%rsp), %rdi
	movq	$0, 16(%rsp)
	movl	$471, %edx
	xorl	%esi, %esi
	callq	memset@PLT
	xorps	%xmm0, %xmm0
	movaps	%xmm0, 224(%rsp)
	movq	$0, 64(%rsp)
	movq	$0, 70(%rsp)
	movb	$1, %r14b
	movq	$0, 56(%rsp)
	xorl	%r15d, %r15d
	xorl	%ebp, %ebp
	xorl	%r12d, %r12d
	movq	$0, 8(%rsp)
	xorl	%ebx, %ebx
	xorl	%r13d, %r13d
6:
	xorps	%xmm0, %xmm0
	movaps	%xmm0, 144(%rsp)
	movaps	%xmm0, 160(%rsp)
	movaps	%xmm0, 176(%rsp)
	movaps	%xmm0, 192(%rsp)
	movq	$0, 207(%rsp)
	movl	$0, 48(%rsp)
	movl	$0, 51(%rsp)
	leaq	1136(%rsp), %rdi
	movl	$471, %edx
	xorl	%esi, %esi
	callq	memset@PLT
	xorps	%xmm0, %xmm0
	movaps	%xmm0, 80(%rsp)
	movq	$0, 24(%rsp)
	movq	$0, 30(%rsp)
	testb	%r14b, %r14b
	je	7f
	movq	$0, 16(%rsp)
	movq	$0, 56(%rsp)
	xorl	%r15d, %r15d
	xorl	%ebp, %ebp
	xorl	%r12d, %r12d
	movq	$0, 8(%rsp)
	xorl	%ebx, %ebx
	xorl	%r13d, %r13d
	jmp	8f
7:
	movups	295(%rsp), %xmm0
	movups	311(%rsp), %xmm1
	movups	327(%rsp), %xmm2
	movups	343(%rsp), %xmm3
	movups	%xmm3, 199(%rsp)
	movups	%xmm2, 183(%rsp)
	movups	%xmm1, 167(%rsp)
	movups	%xmm0, 151(%rsp)
	movl	(%rsp), %eax
	movl	3(%rsp), %ecx
	movl	%eax, 48(%rsp)
	movl	%ecx, 51(%rsp)
	leaq	1136(%rsp), %rdi
	leaq	1818(%rsp), %rsi
	movl	$471, %edx
	callq	memcpy@PLT
	movaps	224(%rsp), %xmm0
	movaps	%xmm0, 80(%rsp)
	movq	64(%rsp), %rax
	movq	70(%rsp), %rcx
	movq	%rax, 24(%rsp)
	movq	%rcx, 30(%rsp)
8:
	movups	151(%rsp), %xmm0
	movups	167(%rsp), %xmm1
	movups	183(%rsp), %xmm2
	movups	199(%rsp), %xmm3
	movups	%xmm3, 439(%rsp)
	movups	%xmm2, 423(%rsp)
	movups	%xmm1, 407(%rsp)
	movups	%xmm0, 391(%rsp)
	movl	48(%rsp), %eax
	movl	51(%rsp), %ecx
	movl	%eax, 40(%rsp)
	movl	%ecx, 43(%rsp)
	leaq	2289(%rsp), %rdi
	leaq	1136(%rsp), %rsi
	movl	$471, %edx
	callq	memcpy@PLT
	movaps	80(%rsp), %xmm0
	movaps	%xmm0, 368(%rsp)
	movq	24(%rsp), %rax
	movq	30(%rsp), %rcx
	movq	%rax, 112(%rsp)
	movq	%rcx, 118(%rsp)
	testb	%r14b, %r14b
	je	9f
	movq	136(%rsp), %rdi
	movb	$0, (%rdi)
	addq	$8, %rdi
	leaq	464(%rsp), %rsi
	movl	$672, %edx
	callq	memcpy@PLT
	addq	$2760, %rsp
	popq	%rbx
	popq	%r12
	popq	%r13
	popq	%r14
	popq	%r15
	popq	%rbp
	retq
9:
	leaq	391(%rsp), %rax
	movups	(%rax), %xmm0
	movups	16(%rax), %xmm1
	movups	32(%rax), %xmm2
	movups	48(%rax), %xmm3
	movaps	%xmm3, 1184(%rsp)
	movaps	%xmm2, 1168(%rsp)
	movaps	%xmm1, 1152(%rsp)
	movaps	%xmm0, 1136(%rsp)
	movq	16(%rsp), %rax
	movb	%al, 1200(%rsp)
	movl	40(%rsp), %eax
	movl	43(%rsp), %ecx
	movl	%eax, 1201(%rsp)
	movl	%ecx, 1204(%rsp)
	movq	56(%rsp), %rax
	movb	%al, 1208(%rsp)
	leaq	1209(%rsp), %rdi
	leaq	2289(%rsp), %rsi
	movl	$471, %edx
	callq	memcpy@PLT
	movq	%r15, 1680(%rsp)
	movq	%rbp, 1688(%rsp)
	movq	%r12, 1696(%rsp)
	movq	8(%rsp), %rax
	movq	%rax, 1704(%rsp)
	movaps	368(%rsp), %xmm0
	movaps	%xmm0, 1712(%rsp)
	movb	%bl, 1728(%rsp)
	movb	%r13b, 1729(%rsp)
	movq	112(%rsp), %rax
	movq	118(%rsp), %rcx
	movq	%rax, 1730(%rsp)
	movq	%rcx, 1736(%rsp)
	leaq	1136(%rsp), %rdi
	callq	"clap::clap++builder++arg++Arg+Destruct::drop"
	cmpb	$1, 512(%rsp)
	jne	10f
	cmpq	$0, 536(%rsp)
	je	10f
	movq	520(%rsp), %rdi
	callq	rattle_dealloc@PLT
10:
	cmpb	$1, 544(%rsp)
	jne	11f
	cmpq	$0, 568(%rsp)
	je	11f
	movq	552(%rsp), %rdi
	callq	rattle_dealloc@PLT
11:
	cmpb	$1, 576(%rsp)
	jne	12f
	cmpq	$0, 600(%rsp)
	je	12f
	movq	584(%rsp), %rdi
	callq	rattle_dealloc@PLT
12:
	cmpq	$0, 840(%rsp)
	je	13f
	movq	824(%rsp), %rdi
	callq	rattle_dealloc@PLT
13:
	cmpq	$0, 864(%rsp)
	je	14f
	movq	848(%rsp), %rdi
	callq	rattle_dealloc@PLT
14:
	cmpq	$0, 888(%rsp)
	je	15f
	movq	872(%rsp), %rdi
	callq	rattle_dealloc@PLT
15:
	movq	1040(%rsp), %r14
	movq	1048(%rsp), %r13
	movq	1056(%rsp), %rbx
	testq	%r13, %r13
	je	17f
	movq	%r14, %r15
	.p2align	4
16:
	leaq	1136(%rsp), %r12
	movl	$608, %edx
	movq	%r12, %rdi
	movq	%r15, %rsi
	callq	memcpy@PLT
	movq	%r12, %rdi
	callq	"clap::clap++builder++arg++Arg+Destruct::drop"
	addq	$608, %r15
	decq	%r13
	jne	16b
17:
	testq	%rbx, %rbx
	je	18f
	movq	%r14, %rdi
	callq	rattle_dealloc@PLT
18:
	movq	1064(%rsp), %r14
	movq	1072(%rsp), %r13
	movq	1080(%rsp), %rbx
	testq	%r13, %r13
	je	20f
	movq	%r14, %r15
	.p2align	4
19:
	leaq	1136(%rsp), %r12
	movl	$672, %edx
	movq	%r12, %rdi
	movq	%r15, %rsi
	callq	memcpy@PLT
	movq	%r12, %rdi
	callq	"clap::clap++builder++command++Command+Destruct::drop"
	addq	$672, %r15
	decq	%r13
	jne	19b
20:
	testq	%rbx, %rbx
	je	21f
	movq	%r14, %rdi
	callq	rattle_dealloc@PLT
21:
	movq	1088(%rsp), %rax
	movq	%rax, 8(%rsp)
	movq	1096(%rsp), %r13
	movq	1104(%rsp), %rax
	movq	%rax, 16(%rsp)
	testq	%r13, %r13
	je	26f
	movq	8(%rsp), %rax
	leaq	88(%rax), %rbp
	jmp	23f
	.p2align	4
22:
	addq	$104, %rbp
	decq	%r13
	je	26f
23:
	movq	-40(%rbp), %r12
	movq	-24(%rbp), %r14
	movq	-16(%rbp), %r15
	movq	(%rbp), %rbx
	cmpq	$0, -56(%rbp)
	je	24f
	movq	-72(%rbp), %rdi
	callq	rattle_dealloc@PLT
24:
	testq	%r14, %r14
	je	25f
	movq	%r12, %rdi
	callq	rattle_dealloc@PLT
25:
	testq	%rbx, %rbx
	je	22b
	movq	%r15, %rdi
	callq	rattle_dealloc@PLT
	jmp	22b
26:
	cmpq	$0, 16(%rsp)
	je	27f
	movq	8(%rsp), %rdi
	callq	rattle_dealloc@PLT
27:
	movq	136(%rsp), %rdi
	movb	$1, (%rdi)
	addq	$8, %rdi
	movl	$672, %edx
	xorl	%esi, %esi
	addq	$2760, %rsp
	popq	%rbx
	popq	%r12
	popq	%r13
	popq	%r14
	popq	%r15
	popq	%rbp
	jmp	memset@PLT
28:
	leaq	1040(%rsp), %rdi
	callq	"std_alloc::vec::Vec::grow_amortized::<#cb15977fd34c773c>"
	testb	%al, %al
	je	29f
	movq	1048(%rsp), %rbx
	jmp	5b
29:
	movaps	144(%rsp), %xmm0
	movaps	160(%rsp), %xmm1
	movaps	176(%rsp), %xmm2
	movaps	192(%rsp), %xmm3
	movups	%xmm3, 343(%rsp)
	movups	%xmm2, 327(%rsp)
	movups	%xmm1, 311(%rsp)
	movups	%xmm0, 295(%rsp)
	movl	24(%rsp), %eax
	movl	27(%rsp), %ecx
	movl	%eax, (%rsp)
	movl	%ecx, 3(%rsp)
	leaq	1818(%rsp), %rdi
	leaq	1136(%rsp), %rsi
	movl	$471, %edx
	callq	memcpy@PLT
	movaps	240(%rsp), %xmm0
	movaps	%xmm0, 224(%rsp)
	movq	80(%rsp), %rax
	movq	86(%rsp), %rcx
	movq	%rax, 64(%rsp)
	movq	%rcx, 70(%rsp)
	xorl	%r14d, %r14d
	movq	128(%rsp), %rbx
	movq	104(%rsp), %rbp
	jmp	6b
30:
	.size	"clap::builder::command::Command::arg", 30b-"clap::builder::command::Command::arg"

	.section	.rodata.cst16,"aM",@progbits,16
	.p2align	4, 0x0
1:
	.zero	16,1
	.text
	.p2align	4
	.type	"clap::builder::command::Command::args_in_group",@function
"clap::builder::command::Command::args_in_group":
	pushq	%rbp
	pushq	%r15
	pushq	%r14
	pushq	%r13
	pushq	%r12
	pushq	%rbx
	subq	$168, %rsp
	pxor	%xmm0, %xmm0
	movdqu	%xmm0, 143(%rsp)
	movdqa	%xmm0, 128(%rsp)
	leaq	8(%rsp), %r10
	movq	%r10, 24(%rsp)
	movdqu	%xmm0, 32(%rsp)
	movq	%r10, 48(%rsp)
	movdqu	%xmm0, 56(%rsp)
	movq	%r10, 104(%rsp)
	movdqu	%xmm0, 112(%rsp)
	movq	32(%rsp), %rbp
	cmpq	%rbp, 40(%rsp)
	movq	%rsi, 96(%rsp)
	je	32f
2:
	movq	%rbp, %rax
	shlq	$4, %rax
	movq	%rdx, (%r10,%rax)
	movq	%rcx, 8(%r10,%rax)
	movq	632(%rsi), %rdx
	testq	%rdx, %rdx
	movq	%rdi, 72(%rsp)
	je	3f
	movq	624(%rsi), %rax
	cmpq	$1, %rdx
	jne	4f
	movl	$1, %ebx
	xorl	%ecx, %ecx
	jmp	6f
3:
	movl	$1, %ebx
	jmp	7f
4:
	movq	%rdx, %rsi
	andq	$-2, %rsi
	leaq	128(%rax), %rdi
	movl	$1, %ebx
	xorl	%ecx, %ecx
	.p2align	4
5:
	addq	-104(%rdi), %rbx
	movq	$-1, %r8
	cmovbq	%r8, %rbx
	addq	(%rdi), %rbx
	cmovbq	%r8, %rbx
	addq	$2, %rcx
	addq	$208, %rdi
	cmpq	%rcx, %rsi
	jne	5b
	testb	$1, %dl
	je	7f
6:
	imulq	$104, %rcx, %rcx
	addq	24(%rax,%rcx), %rbx
	movq	$-1, %rax
	cmovbq	%rax, %rbx
7:
	incq	%rbp
	leaq	8(%rsp), %rax
	movq	%rax, 88(%rsp)
	xorl	%eax, %eax
	jmp	9f
	.p2align	4
8:
	movq	16(%rsp), %rax
	incq	%rax
	cmpq	%rbx, %rax
	movq	80(%rsp), %r10
	je	28f
9:
	testq	%rbp, %rbp
	je	28f
	movq	%rax, 16(%rsp)
	decq	%rbp
	movq	%rbp, 32(%rsp)
	movq	%rbp, %rax
	shlq	$4, %rax
	movq	(%r10,%rax), %rdx
	movq	%r10, 80(%rsp)
	movq	8(%r10,%rax), %rcx
	movq	56(%rsp), %rax
	testq	%rax, %rax
	je	17f
	leaq	-16(%rcx), %rsi
	cmpq	$32, %rsi
	movl	$32, %edi
	cmovbq	%rsi, %rdi
	leaq	-8(%rcx), %rsi
	cmpq	$8, %rsi
	movl	$8, %r9d
	cmovbq	%rsi, %r9
	cmpq	$16, %rsi
	movl	$16, %r10d
	cmovbq	%rsi, %r10
	movq	%rcx, %r11
	shrq	%r11
	movq	88(%rsp), %r12
	movq	%rax, %r13
	jmp	11f
10:
	movl	(%rsi), %r14d
	movl	-4(%rsi,%rcx), %esi
	shlq	$32, %rsi
	orq	%r14, %rsi
	bswapq	%rsi
	movl	(%rdx), %r15d
	movl	-4(%rdx,%rcx), %r14d
	shlq	$32, %r14
	orq	%r15, %r14
	bswapq	%r14
	cmpq	%r14, %rsi
	jne	16f
	jmp	8b
	.p2align	4
11:
	cmpq	%rcx, 8(%r12)
	jne	16f
	movq	(%r12), %rsi
	cmpq	$7, %rcx
	ja	12f
	cmpq	$4, %rcx
	jae	10b
	testq	%rcx, %rcx
	je	8b
	movzbl	(%rsi), %r14d
	movzbl	(%rsi,%r11), %r15d
	shll	$16, %r14d
	shll	$8, %r15d
	orl	%r14d, %r15d
	movzbl	-1(%rsi,%rcx), %esi
	orq	%r15, %rsi
	movzbl	(%rdx), %r14d
	movzbl	(%rdx,%r11), %r15d
	shll	$16, %r14d
	shll	$8, %r15d
	orl	%r14d, %r15d
	movzbl	-1(%rdx,%rcx), %r14d
	orq	%r15, %r14
	cmpq	%r14, %rsi
	jne	16f
	jmp	8b
	.p2align	4
12:
	cmpq	$32, %rcx
	ja	13f
	movq	(%rsi), %r14
	cmpq	(%rdx), %r14
	jne	16f
	movq	(%rdx,%r9), %r14
	cmpq	%r14, (%rsi,%r9)
	jne	16f
	movq	(%rdx,%r10), %r14
	cmpq	%r14, (%rsi,%r10)
	jne	16f
	leaq	-8(%rcx), %r8
	movq	(%rdx,%r8), %r14
	cmpq	%r14, (%rsi,%r8)
	jne	16f
	jmp	8b
13:
	cmpq	$65, %rcx
	jae	14f
	movdqu	(%rsi), %xmm0
	movdqu	16(%rsi), %xmm1
	movdqu	(%rdx), %xmm2
	pcmpeqb	%xmm0, %xmm2
	movdqu	16(%rdx), %xmm3
	pcmpeqb	%xmm1, %xmm3
	pcmpeqd	%xmm1, %xmm1
	pxor	%xmm1, %xmm2
	pxor	%xmm1, %xmm3
	por	%xmm2, %xmm3
	movdqu	(%rsi,%rdi), %xmm0
	movdqu	(%rdx,%rdi), %xmm2
	pcmpeqb	%xmm0, %xmm2
	pxor	%xmm1, %xmm2
	leaq	-16(%rcx), %r8
	movdqu	(%rsi,%r8), %xmm4
	movdqu	(%rdx,%r8), %xmm0
	pcmpeqb	%xmm4, %xmm0
	pxor	%xmm1, %xmm0
	por	%xmm2, %xmm0
	por	%xmm3, %xmm0
	ptest	1b(%rip), %xmm0
	jne	16f
	jmp	8b
14:
	xorl	%r14d, %r14d
	movq	%rcx, %r15
	.p2align	4
15:
	movdqu	(%rsi,%r14), %xmm0
	movdqu	16(%rsi,%r14), %xmm1
	movdqu	32(%rsi,%r14), %xmm2
	movdqu	48(%rsi,%r14), %xmm3
	movdqu	(%rdx,%r14), %xmm4
	pcmpeqb	%xmm0, %xmm4
	movdqu	16(%rdx,%r14), %xmm0
	pcmpeqb	%xmm1, %xmm0
	pand	%xmm4, %xmm0
	movdqu	32(%rdx,%r14), %xmm1
	pcmpeqb	%xmm2, %xmm1
	movdqu	48(%rdx,%r14), %xmm2
	pcmpeqb	%xmm3, %xmm2
	pand	%xmm1, %xmm2
	pand	%xmm0, %xmm2
	pmovmskb	%xmm2, %r8d
	cmpl	$65535, %r8d
	jne	16f
	addq	$64, %r14
	addq	$-64, %r15
	cmpq	$65, %r15
	jae	15b
	movdqu	-64(%rsi,%rcx), %xmm0
	movdqu	-48(%rsi,%rcx), %xmm1
	movdqu	-32(%rsi,%rcx), %xmm2
	movdqu	-16(%rsi,%rcx), %xmm3
	movdqu	-64(%rdx,%rcx), %xmm4
	pcmpeqb	%xmm0, %xmm4
	movdqu	-48(%rdx,%rcx), %xmm5
	pcmpeqb	%xmm1, %xmm5
	movdqu	-32(%rdx,%rcx), %xmm0
	pcmpeqb	%xmm2, %xmm0
	movdqu	-16(%rdx,%rcx), %xmm1
	pcmpeqb	%xmm3, %xmm1
	pcmpeqd	%xmm2, %xmm2
	pxor	%xmm2, %xmm1
	pxor	%xmm2, %xmm0
	por	%xmm1, %xmm0
	pxor	%xmm2, %xmm4
	pxor	%xmm2, %xmm5
	por	%xmm4, %xmm5
	por	%xmm0, %xmm5
	pxor	%xmm0, %xmm0
	pcmpgtb	%xmm5, %xmm0
	ptest	1b(%rip), %xmm0
	je	8b
	.p2align	4
16:
	addq	$16, %r12
	decq	%r13
	jne	11b
17:
	cmpq	%rax, 64(%rsp)
	je	23f
18:
	movq	%rax, %rsi
	shlq	$4, %rsi
	movq	88(%rsp), %rdi
	movq	%rdx, (%rdi,%rsi)
	movq	%rcx, 8(%rdi,%rsi)
	incq	%rax
	movq	%rax, 56(%rsp)
	movq	96(%rsp), %rax
	movq	624(%rax), %rdi
	movq	632(%rax), %rsi
	callq	"clap::builder::command::Command::find_group"
	cmpb	$1, %al
	jne	8b
	movq	24(%rdx), %r15
	testq	%r15, %r15
	je	8b
	movq	16(%rdx), %r14
	addq	$8, %r14
	jmp	20f
	.p2align	4
19:
	leaq	104(%rsp), %rdi
	movq	%r13, %rsi
	movq	%r12, %rdx
	callq	"clap::builder::command::insert_id"
	testb	%al, %al
	jne	24f
	addq	$16, %r14
	decq	%r15
	je	8b
20:
	movq	-8(%r14), %r13
	movq	(%r14), %r12
	movq	96(%rsp), %rax
	movq	576(%rax), %rdi
	movq	584(%rax), %rsi
	movq	%r13, %rdx
	movq	%r12, %rcx
	callq	"clap::builder::command::Command::find"
	cmpb	$1, %al
	je	19b
	cmpq	%rbp, 40(%rsp)
	je	22f
21:
	movq	%rbp, %rax
	shlq	$4, %rax
	movq	80(%rsp), %rcx
	movq	%r13, (%rcx,%rax)
	movq	%r12, 8(%rcx,%rax)
	incq	%rbp
	movq	%rbp, 32(%rsp)
	addq	$16, %r14
	decq	%r15
	jne	20b
	jmp	8b
22:
	leaq	24(%rsp), %rdi
	movl	$1, %esi
	callq	"std_alloc::vec::Vec::grow_amortized::<#3af3ba23e56e6a09>"
	testb	%al, %al
	je	24f
	movq	24(%rsp), %rax
	movq	%rax, 80(%rsp)
	movq	32(%rsp), %rbp
	jmp	21b
23:
	movq	%rcx, %r14
	movq	%rdx, %r15
	leaq	48(%rsp), %rdi
	movl	$1, %esi
	callq	"std_alloc::vec::Vec::grow_amortized::<#3af3ba23e56e6a09>"
	testb	%al, %al
	je	37f
	movq	48(%rsp), %rax
	movq	%rax, 88(%rsp)
	movq	56(%rsp), %rax
	movq	%r15, %rdx
	movq	%r14, %rcx
	jmp	18b
24:
	cmpq	$0, 120(%rsp)
	je	25f
	movq	104(%rsp), %rdi
	callq	rattle_dealloc@PLT
25:
	cmpq	$0, 64(%rsp)
	movq	72(%rsp), %rbx
	je	26f
	movq	48(%rsp), %rdi
	callq	rattle_dealloc@PLT
26:
	cmpq	$0, 40(%rsp)
	je	27f
	movq	24(%rsp), %rdi
	callq	rattle_dealloc@PLT
27:
	movb	$1, (%rbx)
	pxor	%xmm0, %xmm0
	movdqu	%xmm0, 8(%rbx)
	movq	$0, 24(%rbx)
	jmp	31f
28:
	cmpq	$0, 64(%rsp)
	je	29f
	movq	48(%rsp), %rdi
	callq	rattle_dealloc@PLT
29:
	cmpq	$0, 40(%rsp)
	movq	72(%rsp), %rbx
	je	30f
	movq	24(%rsp), %rdi
	callq	rattle_dealloc@PLT
30:
	movb	$0, (%rbx)
	movdqu	104(%rsp), %xmm0
	movdqu	%xmm0, 8(%rbx)
	movq	120(%rsp), %rax
	movq	%rax, 24(%rbx)
31:
	addq	$168, %rsp
	popq	%rbx
	popq	%r12
	popq	%r13
	popq	%r14
	popq	%r15
	popq	%rbp
	retq
32:
	movq	%rdi, %r15
	movq	%rdx, %rbx
	movq	%rcx, %r14
	leaq	24(%rsp), %rdi
	movl	$1, %esi
	callq	"std_alloc::vec::Vec::grow_amortized::<#3af3ba23e56e6a09>"
	testb	%al, %al
	je	33f
	movq	24(%rsp), %r10
	movq	32(%rsp), %rbp
	movq	%r14, %rcx
	movq	%rbx, %rdx
	movq	%r15, %rdi
	movq	96(%rsp), %rsi
	jmp	2b
33:
	cmpq	$0, 120(%rsp)
	je	34f
	leaq	8(%rsp), %rdi
	callq	rattle_dealloc@PLT
34:
	cmpq	$0, 64(%rsp)
	je	35f
	leaq	8(%rsp), %rdi
	callq	rattle_dealloc@PLT
35:
	cmpq	$0, 40(%rsp)
	je	36f
	movq	24(%rsp), %rdi
	callq	rattle_dealloc@PLT
36:
	movb	$1, (%r15)
	pxor	%xmm0, %xmm0
	movdqu	%xmm0, 8(%r15)
	movq	$0, 24(%r15)
	jmp	31b
37:
	pxor	%xmm0, %xmm0
	movdqu	%xmm0, 135(%rsp)
	movq	$0, 151(%rsp)
	cmpq	$0, 120(%rsp)
	je	38f
	movq	104(%rsp), %rdi
	callq	rattle_dealloc@PLT
38:
	cmpq	$0, 64(%rsp)
	movq	72(%rsp), %r14
	je	39f
	movq	48(%rsp), %rdi
	callq	rattle_dealloc@PLT
39:
	leaq	135(%rsp), %rbx
	cmpq	$0, 40(%rsp)
	je	40f
	movq	80(%rsp), %rdi
	callq	rattle_dealloc@PLT
40:
	movb	$1, (%r14)
	movups	(%rbx), %xmm0
	movups	%xmm0, 8(%r14)
	movq	16(%rbx), %rax
	movq	%rax, 24(%r14)
	jmp	31b
41:
	.size	"clap::builder::command::Command::args_in_group", 41b-"clap::builder::command::Command::args_in_group"

	.text
	.p2align	4
	.type	"clap::builder::command::Command::depth",@function
"clap::builder::command::Command::depth":
	pushq	%r15
	pushq	%r14
	pushq	%rbx
	movq	608(%rdi), %r14
	testq	%r14, %r14
	je	2f
	movq	600(%rdi), %rbx
	xorl	%eax, %eax
	.p2align	4
1:
	movq	%rax, %r15
	movq	%rbx, %rdi
	callq	"clap::builder::command::Command::depth"
	movq	%rax, %rcx
	incq	%rcx
	movq	$-1, %rax
	cmovneq	%rcx, %rax
	cmpq	%r15, %rax
	cmovbeq	%r15, %rax
	addq	$672, %rbx
	decq	%r14
	jne	1b
	popq	%rbx
	popq	%r14
	popq	%r15
	retq
2:
	xorl	%eax, %eax
	popq	%rbx
	popq	%r14
	popq	%r15
	retq
3:
	.size	"clap::builder::command::Command::depth", 3b-"clap::builder::command::Command::depth"

	.section	.rodata.cst16,"aM",@progbits,16
	.p2align	4, 0x0
1:
	.zero	16,1
	.text
	.p2align	4
	.type	"clap::builder::command::Command::find",@function
"clap::builder::command::Command::find":
	testq	%rsi, %rsi
	je	9f
	pushq	%rbp
	pushq	%r15
	pushq	%r14
	pushq	%r13
	pushq	%r12
	pushq	%rbx
	leaq	-16(%rcx), %rax
	cmpq	$32, %rax
	movl	$32, %r9d
	cmovbq	%rax, %r9
	leaq	-8(%rcx), %r10
	cmpq	$8, %r10
	movl	$8, %r11d
	cmovbq	%r10, %r11
	cmpq	$16, %r10
	movl	$16, %ebx
	cmovbq	%r10, %rbx
	movq	%rcx, %r14
	shrq	%r14
	xorl	%r15d, %r15d
	jmp	3f
2:
	movl	(%r12), %r13d
	movl	-4(%r12,%rcx), %r12d
	shlq	$32, %r12
	orq	%r13, %r12
	bswapq	%r12
	movl	(%rdx), %ebp
	movl	-4(%rdx,%rcx), %r13d
	shlq	$32, %r13
	orq	%rbp, %r13
	bswapq	%r13
	cmpq	%r13, %r12
	jne	8f
	jmp	10f
	.p2align	4
3:
	imulq	$608, %r15, %r12
	cmpq	%rcx, 8(%rdi,%r12)
	jne	8f
	leaq	(%rdi,%r12), %r8
	movq	(%rdi,%r12), %r12
	cmpq	$7, %rcx
	ja	4f
	cmpq	$4, %rcx
	jae	2b
	testq	%rcx, %rcx
	je	10f
	movzbl	(%r12), %ebp
	movzbl	(%r12,%r14), %r13d
	shll	$16, %ebp
	shll	$8, %r13d
	orl	%ebp, %r13d
	movzbl	-1(%r12,%rcx), %r12d
	orq	%r13, %r12
	movzbl	(%rdx), %ebp
	movzbl	(%rdx,%r14), %eax
	shll	$16, %ebp
	shll	$8, %eax
	orl	%ebp, %eax
	movzbl	-1(%rdx,%rcx), %r13d
	orq	%rax, %r13
	cmpq	%r13, %r12
	jne	8f
	jmp	10f
	.p2align	4
4:
	cmpq	$32, %rcx
	ja	5f
	movq	(%r12), %rax
	cmpq	(%rdx), %rax
	jne	8f
	movq	(%rdx,%r11), %rax
	cmpq	%rax, (%r12,%r11)
	jne	8f
	movq	(%rdx,%rbx), %rax
	cmpq	%rax, (%r12,%rbx)
	jne	8f
	movq	(%rdx,%r10), %rax
	cmpq	%rax, (%r12,%r10)
	jne	8f
	jmp	10f
5:
	cmpq	$65, %rcx
	jae	6f
	movdqu	(%r12), %xmm0
	movdqu	16(%r12), %xmm1
	movdqu	(%rdx), %xmm2
	pcmpeqb	%xmm0, %xmm2
	movdqu	16(%rdx), %xmm3
	pcmpeqb	%xmm1, %xmm3
	pcmpeqd	%xmm1, %xmm1
	pxor	%xmm1, %xmm2
	pxor	%xmm1, %xmm3
	por	%xmm2, %xmm3
	movdqu	(%r12,%r9), %xmm0
	movdqu	(%rdx,%r9), %xmm2
	pcmpeqb	%xmm0, %xmm2
	pxor	%xmm1, %xmm2
	leaq	-16(%rcx), %rax
	movdqu	(%r12,%rax), %xmm4
	movdqu	(%rdx,%rax), %xmm0
	pcmpeqb	%xmm4, %xmm0
	pxor	%xmm1, %xmm0
	por	%xmm2, %xmm0
	por	%xmm3, %xmm0
	ptest	1b(%rip), %xmm0
	jne	8f
	jmp	10f
6:
	xorl	%r13d, %r13d
	movq	%rcx, %rbp
	.p2align	4
7:
	movdqu	(%r12,%r13), %xmm0
	movdqu	16(%r12,%r13), %xmm1
	movdqu	32(%r12,%r13), %xmm2
	movdqu	48(%r12,%r13), %xmm3
	movdqu	(%rdx,%r13), %xmm4
	pcmpeqb	%xmm0, %xmm4
	movdqu	16(%rdx,%r13), %xmm0
	pcmpeqb	%xmm1, %xmm0
	pand	%xmm4, %xmm0
	movdqu	32(%rdx,%r13), %xmm1
	pcmpeqb	%xmm2, %xmm1
	movdqu	48(%rdx,%r13), %xmm2
	pcmpeqb	%xmm3, %xmm2
	pand	%xmm1, %xmm2
	pand	%xmm0, %xmm2
	pmovmskb	%xmm2, %eax
	cmpl	$65535, %eax
	jne	8f
	addq	$64, %r13
	addq	$-64, %rbp
	cmpq	$65, %rbp
	jae	7b
	movdqu	-64(%r12,%rcx), %xmm0
	movdqu	-48(%r12,%rcx), %xmm1
	movdqu	-32(%r12,%rcx), %xmm2
	movdqu	-16(%r12,%rcx), %xmm3
	movdqu	-64(%rdx,%rcx), %xmm4
	pcmpeqb	%xmm0, %xmm4
	movdqu	-48(%rdx,%rcx), %xmm5
	pcmpeqb	%xmm1, %xmm5
	movdqu	-32(%rdx,%rcx), %xmm0
	pcmpeqb	%xmm2, %xmm0
	movdqu	-16(%rdx,%rcx), %xmm1
	pcmpeqb	%xmm3, %xmm1
	pcmpeqd	%xmm2, %xmm2
	pxor	%xmm2, %xmm1
	pxor	%xmm2, %xmm0
	por	%xmm1, %xmm0
	pxor	%xmm2, %xmm4
	pxor	%xmm2, %xmm5
	por	%xmm4, %xmm5
	por	%xmm0, %xmm5
	pxor	%xmm0, %xmm0
	pcmpgtb	%xmm5, %xmm0
	ptest	1b(%rip), %xmm0
	je	10f
	.p2align	4
8:
	incq	%r15
	cmpq	%rsi, %r15
	jne	3b
	xorl	%r8d, %r8d
	xorl	%eax, %eax
	jmp	11f
9:
	xorl	%r8d, %r8d
	xorl	%eax, %eax
	movq	%r8, %rdx
	retq
10:
	movb	$1, %al
11:
	popq	%rbx
	popq	%r12
	popq	%r13
	popq	%r14
	popq	%r15
	popq	%rbp
	movq	%r8, %rdx
	retq
12:
	.size	"clap::builder::command::Command::find", 12b-"clap::builder::command::Command::find"

	.text
	.p2align	4
	.type	"clap::builder::command::Command::find_group",@function
"clap::builder::command::Command::find_group":
	testq	%rsi, %rsi
	je	16f
	leaq	-8(%rcx), %r11
	leaq	-16(%rcx), %rax
	cmpq	$32, %rax
	movl	$32, %r8d
	cmovbq	%rax, %r8
	cmpq	$8, %r11
	movl	$8, %r9d
	cmovbq	%r11, %r9
	cmpq	$16, %r11
	movl	$16, %r10d
	cmovbq	%r11, %r10
	movq	%rcx, %r11
	subq	$8, %r11
	jae	7f
	cmpq	$4, %rcx
	jae	2f
	testq	%rcx, %rcx
	je	6f
	movq	%rcx, %rax
	shrq	%rax
	jmp	4f
	.p2align	4
1:
	addq	$104, %rdi
	decq	%rsi
	je	16f
2:
	cmpq	%rcx, 8(%rdi)
	jne	1b
	movq	(%rdi), %rax
	movl	(%rax), %r8d
	movl	-4(%rax,%rcx), %eax
	shlq	$32, %rax
	orq	%r8, %rax
	movl	(%rdx), %r8d
	movl	-4(%rdx,%rcx), %r9d
	shlq	$32, %r9
	orq	%r8, %r9
	cmpq	%r9, %rax
	jne	1b
	jmp	15f
	.p2align	4
3:
	addq	$104, %rdi
	decq	%rsi
	je	16f
4:
	cmpq	%rcx, 8(%rdi)
	jne	3b
	movq	(%rdi), %r8
	movzbl	(%r8), %r9d
	movzbl	(%r8,%rax), %r10d
	shll	$16, %r9d
	shll	$8, %r10d
	orl	%r9d, %r10d
	movzbl	-1(%r8,%rcx), %r8d
	orl	%r10d, %r8d
	movzbl	(%rdx), %r9d
	movzbl	(%rdx,%rax), %r10d
	shll	$16, %r9d
	shll	$8, %r10d
	orl	%r9d, %r10d
	movzbl	-1(%rdx,%rcx), %r9d
	orl	%r10d, %r9d
	cmpl	%r9d, %r8d
	jne	3b
	jmp	15f
	.p2align	4
5:
	addq	$104, %rdi
	xorl	%eax, %eax
	movl	$0, %edx
	decq	%rsi
	je	17f
6:
	cmpq	$0, 8(%rdi)
	jne	5b
	jmp	15f
7:
	cmpq	$32, %rcx
	jbe	9f
	cmpq	$65, %rcx
	jae	11f
	jmp	14f
	.p2align	4
8:
	addq	$104, %rdi
	decq	%rsi
	je	16f
9:
	cmpq	%rcx, 8(%rdi)
	jne	8b
	movq	(%rdi), %rax
	movq	(%rax), %r8
	cmpq	(%rdx), %r8
	jne	8b
	movq	(%rdx,%r9), %r8
	cmpq	%r8, (%rax,%r9)
	jne	8b
	movq	(%rdx,%r10), %r8
	cmpq	%r8, (%rax,%r10)
	jne	8b
	movq	(%rdx,%r11), %r8
	cmpq	%r8, (%rax,%r11)
	jne	8b
	jmp	15f
	.p2align	4
10:
	addq	$104, %rdi
	decq	%rsi
	je	16f
11:
	cmpq	%rcx, 8(%rdi)
	jne	10b
	movq	(%rdi), %rax
	xorl	%r8d, %r8d
	movq	%rcx, %r9
	.p2align	4
12:
	movdqu	(%rax,%r8), %xmm0
	movdqu	16(%rax,%r8), %xmm1
	movdqu	32(%rax,%r8), %xmm2
	movdqu	48(%rax,%r8), %xmm3
	movdqu	(%rdx,%r8), %xmm4
	pcmpeqb	%xmm0, %xmm4
	movdqu	16(%rdx,%r8), %xmm0
	pcmpeqb	%xmm1, %xmm0
	pand	%xmm4, %xmm0
	movdqu	32(%rdx,%r8), %xmm1
	pcmpeqb	%xmm2, %xmm1
	movdqu	48(%rdx,%r8), %xmm2
	pcmpeqb	%xmm3, %xmm2
	pand	%xmm1, %xmm2
	pand	%xmm0, %xmm2
	pmovmskb	%xmm2, %r10d
	cmpl	$65535, %r10d
	jne	10b
	addq	$64, %r8
	addq	$-64, %r9
	cmpq	$65, %r9
	jae	12b
	movdqu	-64(%rax,%rcx), %xmm0
	movdqu	-48(%rax,%rcx), %xmm1
	movdqu	-32(%rax,%rcx), %xmm2
	movdqu	-16(%rax,%rcx), %xmm3
	movdqu	-64(%rdx,%rcx), %xmm4
	pcmpeqb	%xmm0, %xmm4
	movdqu	-48(%rdx,%rcx), %xmm0
	pcmpeqb	%xmm1, %xmm0
	pand	%xmm4, %xmm0
	movdqu	-32(%rdx,%rcx), %xmm1
	pcmpeqb	%xmm2, %xmm1
	movdqu	-16(%rdx,%rcx), %xmm2
	pcmpeqb	%xmm3, %xmm2
	pand	%xmm1, %xmm2
	pand	%xmm0, %xmm2
	pmovmskb	%xmm2, %eax
	cmpl	$65535, %eax
	jne	10b
	jmp	15f
	.p2align	4
13:
	addq	$104, %rdi
	decq	%rsi
	je	16f
14:
	cmpq	%rcx, 8(%rdi)
	jne	13b
	movq	(%rdi), %r9
	movdqu	(%r9), %xmm0
	movdqu	16(%r9), %xmm1
	movdqu	(%rdx), %xmm2
	pcmpeqb	%xmm0, %xmm2
	movdqu	16(%rdx), %xmm0
	pcmpeqb	%xmm1, %xmm0
	pand	%xmm2, %xmm0
	movdqu	(%r9,%r8), %xmm1
	movdqu	(%rdx,%r8), %xmm2
	pcmpeqb	%xmm1, %xmm2
	movdqu	(%r9,%rax), %xmm1
	movdqu	(%rdx,%rax), %xmm3
	pcmpeqb	%xmm1, %xmm3
	pand	%xmm2, %xmm3
	pand	%xmm0, %xmm3
	pmovmskb	%xmm3, %r9d
	cmpl	$65535, %r9d
	jne	13b
15:
	movb	$1, %al
	movq	%rdi, %rdx
	retq
16:
	xorl	%eax, %eax
	xorl	%edx, %edx
17:
	retq
18:
	.size	"clap::builder::command::Command::find_group", 18b-"clap::builder::command::Command::find_group"

	.section	.rodata.cst16,"aM",@progbits,16
	.p2align	4, 0x0
1:
	.zero	16,1
	.text
	.p2align	4
	.type	"clap::builder::command::Command::find_long",@function
"clap::builder::command::Command::find_long":
	testq	%rsi, %rsi
	je	30f
	pushq	%rbp
	pushq	%r15
	pushq	%r14
	pushq	%r13
	pushq	%r12
	pushq	%rbx
	movq	%rcx, %r14
	movq	%rdx, %rax
	addq	$-16, %rcx
	cmpq	$32, %rcx
	movl	$32, %edx
	cmovbq	%rcx, %rdx
	movq	%rdx, -8(%rsp)
	leaq	-8(%r14), %rcx
	cmpq	$8, %rcx
	movl	$8, %r11d
	cmovbq	%rcx, %r11
	cmpq	$16, %rcx
	movl	$16, %ebx
	cmovbq	%rcx, %rbx
	movq	%r14, %r10
	shrq	%r10
	xorl	%r15d, %r15d
	jmp	3f
	.p2align	4
2:
	incq	%r15
	cmpq	%rsi, %r15
	je	31f
3:
	imulq	$608, %r15, %rdx
	cmpb	$1, 488(%rdi,%rdx)
	je	2b
	addq	%rdi, %rdx
	cmpb	$1, 72(%rdx)
	jne	11f
	cmpq	%r14, 88(%rdx)
	jne	11f
	movq	80(%rdx), %r12
	cmpq	$7, %r14
	ja	4f
	cmpq	$4, %r14
	jb	6f
	movl	(%r12), %ecx
	movl	-4(%r12,%r14), %r8d
	shlq	$32, %r8
	orq	%rcx, %r8
	bswapq	%r8
	movl	(%rax), %r12d
	movl	-4(%rax,%r14), %ecx
	shlq	$32, %rcx
	orq	%r12, %rcx
	bswapq	%rcx
	jmp	7f
4:
	cmpq	$32, %r14
	ja	8f
	movq	(%r12), %rcx
	cmpq	(%rax), %rcx
	jne	5f
	movq	(%rax,%r11), %rcx
	cmpq	%rcx, (%r12,%r11)
	jne	5f
	movq	(%rax,%rbx), %rcx
	cmpq	%rcx, (%r12,%rbx)
	jne	5f
	leaq	-8(%r14), %r8
	movq	(%rax,%r8), %rcx
	cmpq	%rcx, (%r12,%r8)
	je	28f
5:
	movq	104(%rdx), %r12
	testq	%r12, %r12
	je	2b
	movq	96(%rdx), %r13
	jmp	19f
6:
	testq	%r14, %r14
	je	28f
	movzbl	(%r12), %ecx
	movzbl	(%r12,%r10), %r13d
	shll	$16, %ecx
	shll	$8, %r13d
	orl	%ecx, %r13d
	movzbl	-1(%r12,%r14), %r8d
	orq	%r13, %r8
	movzbl	(%rax), %ecx
	movzbl	(%rax,%r10), %r12d
	shll	$16, %ecx
	shll	$8, %r12d
	orl	%ecx, %r12d
	movzbl	-1(%rax,%r14), %ecx
	orq	%r12, %rcx
7:
	cmpq	%rcx, %r8
	je	28f
	movq	104(%rdx), %r12
	testq	%r12, %r12
	je	2b
	movq	96(%rdx), %r13
	jmp	12f
8:
	cmpq	$65, %r14
	jae	9f
	movdqu	(%r12), %xmm0
	movdqu	16(%r12), %xmm1
	movdqu	(%rax), %xmm2
	pcmpeqb	%xmm0, %xmm2
	movdqu	16(%rax), %xmm3
	pcmpeqb	%xmm1, %xmm3
	pcmpeqd	%xmm1, %xmm1
	pxor	%xmm1, %xmm2
	pxor	%xmm1, %xmm3
	por	%xmm2, %xmm3
	movq	-8(%rsp), %rcx
	movdqu	(%r12,%rcx), %xmm0
	movdqu	(%rax,%rcx), %xmm2
	pcmpeqb	%xmm0, %xmm2
	pxor	%xmm1, %xmm2
	leaq	-16(%r14), %rcx
	movdqu	(%r12,%rcx), %xmm4
	movdqu	(%rax,%rcx), %xmm0
	pcmpeqb	%xmm4, %xmm0
	pxor	%xmm1, %xmm0
	por	%xmm2, %xmm0
	por	%xmm3, %xmm0
	ptest	1b(%rip), %xmm0
	jne	11f
	jmp	28f
9:
	xorl	%r13d, %r13d
	movq	%r14, %r8
	.p2align	4
10:
	movdqu	(%r12,%r13), %xmm0
	movdqu	16(%r12,%r13), %xmm1
	movdqu	32(%r12,%r13), %xmm2
	movdqu	48(%r12,%r13), %xmm3
	movdqu	(%rax,%r13), %xmm4
	pcmpeqb	%xmm0, %xmm4
	movdqu	16(%rax,%r13), %xmm0
	pcmpeqb	%xmm1, %xmm0
	pand	%xmm4, %xmm0
	movdqu	32(%rax,%r13), %xmm1
	pcmpeqb	%xmm2, %xmm1
	movdqu	48(%rax,%r13), %xmm2
	pcmpeqb	%xmm3, %xmm2
	pand	%xmm1, %xmm2
	pand	%xmm0, %xmm2
	pmovmskb	%xmm2, %ecx
	cmpl	$65535, %ecx
	jne	11f
	addq	$64, %r13
	addq	$-64, %r8
	cmpq	$65, %r8
	jae	10b
	movdqu	-64(%r12,%r14), %xmm0
	movdqu	-48(%r12,%r14), %xmm1
	movdqu	-32(%r12,%r14), %xmm2
	movdqu	-16(%r12,%r14), %xmm3
	movdqu	-64(%rax,%r14), %xmm4
	pcmpeqb	%xmm0, %xmm4
	movdqu	-48(%rax,%r14), %xmm5
	pcmpeqb	%xmm1, %xmm5
	movdqu	-32(%rax,%r14), %xmm0
	pcmpeqb	%xmm2, %xmm0
	movdqu	-16(%rax,%r14), %xmm1
	pcmpeqb	%xmm3, %xmm1
	pcmpeqd	%xmm2, %xmm2
	pxor	%xmm2, %xmm1
	pxor	%xmm2, %xmm0
	por	%xmm1, %xmm0
	pxor	%xmm2, %xmm4
	pxor	%xmm2, %xmm5
	por	%xmm4, %xmm5
	por	%xmm0, %xmm5
	pxor	%xmm0, %xmm0
	pcmpgtb	%xmm5, %xmm0
	ptest	1b(%rip), %xmm0
	je	28f
	.p2align	4
11:
	movq	104(%rdx), %r12
	testq	%r12, %r12
	je	2b
	movq	96(%rdx), %r13
	cmpq	$7, %r14
	ja	18f
12:
	addq	$8, %r13
	cmpq	$4, %r14
	jae	15f
	testq	%r14, %r14
	jne	17f
	.p2align	4
13:
	cmpq	$0, (%r13)
	je	28f
	addq	$24, %r13
	decq	%r12
	jne	13b
	jmp	2b
	.p2align	4
14:
	decq	%r12
	addq	$24, %r13
	testq	%r12, %r12
	je	2b
15:
	cmpq	%r14, (%r13)
	jne	14b
	movq	-8(%r13), %rcx
	movl	(%rcx), %r8d
	movl	-4(%rcx,%r14), %ecx
	shlq	$32, %rcx
	orq	%r8, %rcx
	movl	(%rax), %r8d
	movl	-4(%rax,%r14), %ebp
	shlq	$32, %rbp
	orq	%r8, %rbp
	cmpq	%rbp, %rcx
	jne	14b
	jmp	28f
	.p2align	4
16:
	decq	%r12
	addq	$24, %r13
	testq	%r12, %r12
	je	2b
17:
	cmpq	%r14, (%r13)
	jne	16b
	movq	-8(%r13), %rcx
	movzbl	(%rcx), %r8d
	movzbl	(%rcx,%r10), %ebp
	shll	$16, %r8d
	shll	$8, %ebp
	orl	%r8d, %ebp
	movzbl	-1(%rcx,%r14), %ecx
	orl	%ebp, %ecx
	movzbl	(%rax), %r8d
	movzbl	(%rax,%r10), %ebp
	shll	$16, %r8d
	shll	$8, %ebp
	orl	%r8d, %ebp
	movzbl	-1(%rax,%r14), %r8d
	orl	%ebp, %r8d
	cmpl	%r8d, %ecx
	jne	16b
	jmp	28f
18:
	cmpq	$32, %r14
	ja	22f
19:
	addq	$8, %r13
	jmp	21f
	.p2align	4
20:
	decq	%r12
	addq	$24, %r13
	testq	%r12, %r12
	je	2b
21:
	cmpq	%r14, (%r13)
	jne	20b
	movq	-8(%r13), %rcx
	movq	(%rcx), %r8
	cmpq	(%rax), %r8
	jne	20b
	movq	(%rax,%r11), %r8
	cmpq	%r8, (%rcx,%r11)
	jne	20b
	movq	(%rax,%rbx), %r8
	cmpq	%r8, (%rcx,%rbx)
	jne	20b
	leaq	-8(%r14), %r9
	movq	(%rax,%r9), %r8
	cmpq	%r8, (%rcx,%r9)
	jne	20b
	jmp	28f
22:
	cmpq	$65, %r14
	jae	24f
	addq	$8, %r13
	jmp	27f
	.p2align	4
23:
	addq	$24, %r13
	decq	%r12
	je	2b
24:
	cmpq	%r14, 8(%r13)
	jne	23b
	movq	(%r13), %rbp
	xorl	%r8d, %r8d
	movq	%r14, %rcx
	.p2align	4
25:
	movdqu	(%rbp,%r8), %xmm0
	movdqu	16(%rbp,%r8), %xmm1
	movdqu	32(%rbp,%r8), %xmm2
	movdqu	48(%rbp,%r8), %xmm3
	movdqu	(%rax,%r8), %xmm4
	pcmpeqb	%xmm0, %xmm4
	movdqu	16(%rax,%r8), %xmm0
	pcmpeqb	%xmm1, %xmm0
	pand	%xmm4, %xmm0
	movdqu	32(%rax,%r8), %xmm1
	pcmpeqb	%xmm2, %xmm1
	movdqu	48(%rax,%r8), %xmm2
	pcmpeqb	%xmm3, %xmm2
	pand	%xmm1, %xmm2
	pand	%xmm0, %xmm2
	pmovmskb	%xmm2, %r9d
	cmpl	$65535, %r9d
	jne	23b
	addq	$64, %r8
	addq	$-64, %rcx
	cmpq	$65, %rcx
	jae	25b
	movdqu	-64(%rbp,%r14), %xmm0
	movdqu	-48(%rbp,%r14), %xmm1
	movdqu	-32(%rbp,%r14), %xmm2
	movdqu	-16(%rbp,%r14), %xmm3
	movdqu	-64(%rax,%r14), %xmm4
	pcmpeqb	%xmm0, %xmm4
	movdqu	-48(%rax,%r14), %xmm0
	pcmpeqb	%xmm1, %xmm0
	pand	%xmm4, %xmm0
	movdqu	-32(%rax,%r14), %xmm1
	pcmpeqb	%xmm2, %xmm1
	movdqu	-16(%rax,%r14), %xmm2
	pcmpeqb	%xmm3, %xmm2
	pand	%xmm1, %xmm2
	pand	%xmm0, %xmm2
	pmovmskb	%xmm2, %ecx
	cmpl	$65535, %ecx
	jne	23b
	jmp	28f
	.p2align	4
26:
	decq	%r12
	addq	$24, %r13
	testq	%r12, %r12
	je	2b
27:
	cmpq	%r14, (%r13)
	jne	26b
	movq	-8(%r13), %rcx
	movdqu	(%rcx), %xmm0
	movdqu	16(%rcx), %xmm1
	movdqu	(%rax), %xmm2
	pcmpeqb	%xmm0, %xmm2
	movdqu	16(%rax), %xmm0
	pcmpeqb	%xmm1, %xmm0
	pand	%xmm2, %xmm0
	movq	-8(%rsp), %r8
	movdqu	(%rcx,%r8), %xmm1
	movdqu	(%rax,%r8), %xmm2
	pcmpeqb	%xmm1, %xmm2
	leaq	-16(%r14), %r8
	movdqu	(%rcx,%r8), %xmm1
	movdqu	(%rax,%r8), %xmm3
	pcmpeqb	%xmm1, %xmm3
	pand	%xmm2, %xmm3
	pand	%xmm0, %xmm3
	pmovmskb	%xmm3, %ecx
	cmpl	$65535, %ecx
	jne	26b
28:
	movb	$1, %al
29:
	popq	%rbx
	popq	%r12
	popq	%r13
	popq	%r14
	popq	%r15
	popq	%rbp
	retq
30:
	xorl	%edx, %edx
	xorl	%eax, %eax
	retq
31:
	xorl	%edx, %edx
	xorl	%eax, %eax
	jmp	29b
32:
	.size	"clap::builder::command::Command::find_long", 32b-"clap::builder::command::Command::find_long"

	.section	.rodata.cst16,"aM",@progbits,16
	.p2align	4, 0x0
1:
	.zero	16,1
	.text
	.p2align	4
	.type	"clap::builder::command::Command::find_subcommand",@function
"clap::builder::command::Command::find_subcommand":
	pushq	%rbp
	pushq	%r15
	pushq	%r14
	pushq	%r13
	pushq	%r12
	pushq	%rbx
	movq	%rsi, -8(%rsp)
	testq	%rsi, %rsi
	je	26f
	movq	%rcx, %r15
	movq	%rdx, %r8
	leaq	-16(%rcx), %rax
	cmpq	$32, %rax
	movl	$32, %ecx
	cmovbq	%rax, %rcx
	movq	%rcx, -16(%rsp)
	leaq	-8(%r15), %rax
	cmpq	$8, %rax
	movl	$8, %ebx
	cmovbq	%rax, %rbx
	cmpq	$16, %rax
	movl	$16, %r14d
	cmovbq	%rax, %r14
	movq	%r15, %rsi
	shrq	%rsi
	xorl	%r12d, %r12d
	jmp	3f
	.p2align	4
2:
	incq	%r12
	cmpq	-8(%rsp), %r12
	je	26f
3:
	imulq	$672, %r12, %rax
	leaq	(%rdi,%rax), %rdx
	cmpq	%r15, 8(%rdi,%rax)
	jne	11f
	movq	(%rdi,%rax), %rax
	cmpq	$7, %r15
	ja	4f
	cmpq	$4, %r15
	jb	6f
	movl	(%rax), %ecx
	movl	-4(%rax,%r15), %eax
	shlq	$32, %rax
	orq	%rcx, %rax
	bswapq	%rax
	movl	(%r8), %r9d
	movl	-4(%r8,%r15), %ecx
	shlq	$32, %rcx
	orq	%r9, %rcx
	bswapq	%rcx
	jmp	7f
	.p2align	4
4:
	cmpq	$32, %r15
	ja	8f
	movq	(%rax), %rcx
	cmpq	(%r8), %rcx
	jne	5f
	movq	(%r8,%rbx), %rcx
	cmpq	%rcx, (%rax,%rbx)
	jne	5f
	movq	(%r8,%r14), %rcx
	cmpq	%rcx, (%rax,%r14)
	jne	5f
	leaq	-8(%r15), %r9
	movq	(%r8,%r9), %rcx
	cmpq	%rcx, (%rax,%r9)
	je	27f
5:
	movq	368(%rdx), %r13
	testq	%r13, %r13
	je	2b
	movq	360(%rdx), %rbp
	jmp	18f
6:
	testq	%r15, %r15
	je	27f
	movzbl	(%rax), %ecx
	movzbl	(%rax,%rsi), %r9d
	shll	$16, %ecx
	shll	$8, %r9d
	orl	%ecx, %r9d
	movzbl	-1(%rax,%r15), %eax
	orq	%r9, %rax
	movzbl	(%r8), %ecx
	movzbl	(%r8,%rsi), %r9d
	shll	$16, %ecx
	shll	$8, %r9d
	orl	%ecx, %r9d
	movzbl	-1(%r8,%r15), %ecx
	orq	%r9, %rcx
7:
	cmpq	%rcx, %rax
	je	27f
	movq	368(%rdx), %r13
	testq	%r13, %r13
	je	2b
	movq	360(%rdx), %rbp
	jmp	12f
8:
	cmpq	$65, %r15
	jae	9f
	movdqu	(%rax), %xmm0
	movdqu	16(%rax), %xmm1
	movdqu	(%r8), %xmm2
	pcmpeqb	%xmm0, %xmm2
	movdqu	16(%r8), %xmm3
	pcmpeqb	%xmm1, %xmm3
	pcmpeqd	%xmm1, %xmm1
	pxor	%xmm1, %xmm2
	pxor	%xmm1, %xmm3
	por	%xmm2, %xmm3
	movq	-16(%rsp), %rcx
	movdqu	(%rax,%rcx), %xmm0
	movdqu	(%r8,%rcx), %xmm2
	pcmpeqb	%xmm0, %xmm2
	pxor	%xmm1, %xmm2
	leaq	-16(%r15), %rcx
	movdqu	(%rax,%rcx), %xmm4
	movdqu	(%r8,%rcx), %xmm0
	pcmpeqb	%xmm4, %xmm0
	pxor	%xmm1, %xmm0
	por	%xmm2, %xmm0
	por	%xmm3, %xmm0
	ptest	1b(%rip), %xmm0
	jne	11f
	jmp	27f
9:
	xorl	%r9d, %r9d
	movq	%r15, %r11
	.p2align	4
10:
	movdqu	(%rax,%r9), %xmm0
	movdqu	16(%rax,%r9), %xmm1
	movdqu	32(%rax,%r9), %xmm2
	movdqu	48(%rax,%r9), %xmm3
	movdqu	(%r8,%r9), %xmm4
	pcmpeqb	%xmm0, %xmm4
	movdqu	16(%r8,%r9), %xmm0
	pcmpeqb	%xmm1, %xmm0
	pand	%xmm4, %xmm0
	movdqu	32(%r8,%r9), %xmm1
	pcmpeqb	%xmm2, %xmm1
	movdqu	48(%r8,%r9), %xmm2
	pcmpeqb	%xmm3, %xmm2
	pand	%xmm1, %xmm2
	pand	%xmm0, %xmm2
	pmovmskb	%xmm2, %ecx
	cmpl	$65535, %ecx
	jne	11f
	addq	$64, %r9
	addq	$-64, %r11
	cmpq	$65, %r11
	jae	10b
	movdqu	-64(%rax,%r15), %xmm0
	movdqu	-48(%rax,%r15), %xmm1
	movdqu	-32(%rax,%r15), %xmm2
	movdqu	-16(%rax,%r15), %xmm3
	movdqu	-64(%r8,%r15), %xmm4
	pcmpeqb	%xmm0, %xmm4
	movdqu	-48(%r8,%r15), %xmm5
	pcmpeqb	%xmm1, %xmm5
	movdqu	-32(%r8,%r15), %xmm0
	pcmpeqb	%xmm2, %xmm0
	movdqu	-16(%r8,%r15), %xmm1
	pcmpeqb	%xmm3, %xmm1
	pcmpeqd	%xmm2, %xmm2
	pxor	%xmm2, %xmm1
	pxor	%xmm2, %xmm0
	por	%xmm1, %xmm0
	pxor	%xmm2, %xmm4
	pxor	%xmm2, %xmm5
	por	%xmm4, %xmm5
	por	%xmm0, %xmm5
	pxor	%xmm0, %xmm0
	pcmpgtb	%xmm5, %xmm0
	ptest	1b(%rip), %xmm0
	je	27f
	.p2align	4
11:
	movq	368(%rdx), %r13
	testq	%r13, %r13
	je	2b
	movq	360(%rdx), %rbp
	cmpq	$7, %r15
	ja	17f
12:
	addq	$8, %rbp
	cmpq	$3, %r15
	ja	14f
	jmp	16f
	.p2align	4
13:
	addq	$24, %rbp
	decq	%r13
	je	2b
14:
	cmpq	%r15, (%rbp)
	jne	13b
	movq	-8(%rbp), %rax
	movl	(%rax), %ecx
	movl	-4(%rax,%r15), %eax
	shlq	$32, %rax
	orq	%rcx, %rax
	movl	(%r8), %ecx
	movl	-4(%r8,%r15), %r9d
	shlq	$32, %r9
	orq	%rcx, %r9
	cmpq	%r9, %rax
	jne	13b
	jmp	27f
	.p2align	4
15:
	addq	$24, %rbp
	decq	%r13
	je	2b
16:
	cmpq	%r15, (%rbp)
	jne	15b
	movb	$1, %al
	testq	%r15, %r15
	je	28f
	movq	-8(%rbp), %rcx
	movzbl	(%rcx), %r9d
	movzbl	(%rcx,%rsi), %r11d
	shll	$16, %r9d
	shll	$8, %r11d
	orl	%r9d, %r11d
	movzbl	-1(%rcx,%r15), %ecx
	orl	%r11d, %ecx
	movzbl	(%r8), %r9d
	movzbl	(%r8,%rsi), %r11d
	shll	$16, %r9d
	shll	$8, %r11d
	orl	%r9d, %r11d
	movzbl	-1(%r8,%r15), %r9d
	orl	%r11d, %r9d
	cmpl	%r9d, %ecx
	jne	15b
	jmp	28f
17:
	cmpq	$33, %r15
	jae	21f
18:
	addq	$8, %rbp
	jmp	20f
	.p2align	4
19:
	addq	$24, %rbp
	decq	%r13
	je	2b
20:
	cmpq	%r15, (%rbp)
	jne	19b
	movq	-8(%rbp), %rax
	movq	(%rax), %rcx
	cmpq	(%r8), %rcx
	jne	19b
	movq	(%r8,%rbx), %rcx
	cmpq	%rcx, (%rax,%rbx)
	jne	19b
	movq	(%r8,%r14), %rcx
	cmpq	%rcx, (%rax,%r14)
	jne	19b
	leaq	-8(%r15), %r9
	movq	(%r8,%r9), %rcx
	cmpq	%rcx, (%rax,%r9)
	jne	19b
	jmp	27f
21:
	xorl	%eax, %eax
	jmp	23f
	.p2align	4
22:
	movdqu	(%r9), %xmm0
	movdqu	16(%r9), %xmm1
	movdqu	(%r8), %xmm2
	pcmpeqb	%xmm0, %xmm2
	movdqu	16(%r8), %xmm3
	pcmpeqb	%xmm1, %xmm3
	pcmpeqd	%xmm1, %xmm1
	pxor	%xmm1, %xmm2
	pxor	%xmm1, %xmm3
	por	%xmm2, %xmm3
	movq	-16(%rsp), %rcx
	movdqu	(%r9,%rcx), %xmm0
	movdqu	(%r8,%rcx), %xmm2
	pcmpeqb	%xmm0, %xmm2
	pxor	%xmm1, %xmm2
	leaq	-16(%r15), %rcx
	movdqu	(%r9,%rcx), %xmm4
	movdqu	(%r8,%rcx), %xmm0
	pcmpeqb	%xmm4, %xmm0
	pxor	%xmm1, %xmm0
	por	%xmm2, %xmm0
	por	%xmm3, %xmm0
	ptest	1b(%rip), %xmm0
	jne	25f
	jmp	27f
	.p2align	4
23:
	leaq	(%rax,%rax,2), %rcx
	cmpq	%r15, 8(%rbp,%rcx,8)
	jne	25f
	movq	(%rbp,%rcx,8), %r9
	cmpq	$65, %r15
	jb	22b
	xorl	%r11d, %r11d
	movq	%r15, %rcx
	.p2align	4
24:
	movdqu	(%r9,%r11), %xmm0
	movdqu	16(%r9,%r11), %xmm1
	movdqu	32(%r9,%r11), %xmm2
	movdqu	48(%r9,%r11), %xmm3
	movdqu	(%r8,%r11), %xmm4
	pcmpeqb	%xmm0, %xmm4
	movdqu	16(%r8,%r11), %xmm0
	pcmpeqb	%xmm1, %xmm0
	pand	%xmm4, %xmm0
	movdqu	32(%r8,%r11), %xmm1
	pcmpeqb	%xmm2, %xmm1
	movdqu	48(%r8,%r11), %xmm2
	pcmpeqb	%xmm3, %xmm2
	pand	%xmm1, %xmm2
	pand	%xmm0, %xmm2
	pmovmskb	%xmm2, %r10d
	cmpl	$65535, %r10d
	jne	25f
	addq	$64, %r11
	addq	$-64, %rcx
	cmpq	$65, %rcx
	jae	24b
	movdqu	-64(%r9,%r15), %xmm0
	movdqu	-48(%r9,%r15), %xmm1
	movdqu	-32(%r9,%r15), %xmm2
	movdqu	-16(%r9,%r15), %xmm3
	movdqu	-64(%r8,%r15), %xmm4
	pcmpeqb	%xmm0, %xmm4
	movdqu	-48(%r8,%r15), %xmm5
	pcmpeqb	%xmm1, %xmm5
	movdqu	-32(%r8,%r15), %xmm0
	pcmpeqb	%xmm2, %xmm0
	movdqu	-16(%r8,%r15), %xmm1
	pcmpeqb	%xmm3, %xmm1
	pcmpeqd	%xmm2, %xmm2
	pxor	%xmm2, %xmm1
	pxor	%xmm2, %xmm0
	por	%xmm1, %xmm0
	pxor	%xmm2, %xmm4
	pxor	%xmm2, %xmm5
	por	%xmm4, %xmm5
	por	%xmm0, %xmm5
	pxor	%xmm0, %xmm0
	pcmpgtb	%xmm5, %xmm0
	ptest	1b(%rip), %xmm0
	je	27f
	.p2align	4
25:
	incq	%rax
	cmpq	%r13, %rax
	jne	23b
	jmp	2b
26:
	xorl	%edx, %edx
	xorl	%eax, %eax
	jmp	28f
27:
	movb	$1, %al
28:
	popq	%rbx
	popq	%r12
	popq	%r13
	popq	%r14
	popq	%r15
	popq	%rbp
	retq
29:
	.size	"clap::builder::command::Command::find_subcommand", 29b-"clap::builder::command::Command::find_subcommand"

	.section	.rodata.cst16,"aM",@progbits,16
	.p2align	4, 0x0
1:
	.zero	16,1
	.text
	.p2align	4
	.type	"clap::builder::command::Command::groups_of",@function
"clap::builder::command::Command::groups_of":
	pushq	%rbp
	pushq	%r15
	pushq	%r14
	pushq	%r13
	pushq	%r12
	pushq	%rbx
	subq	$104, %rsp
	movq	%rdi, 32(%rsp)
	movq	%rsp, %rax
	movq	%rax, 40(%rsp)
	movq	%rax, 8(%rsp)
	pxor	%xmm0, %xmm0
	movdqu	%xmm0, 16(%rsp)
	testq	%rdx, %rdx
	je	14f
	leaq	-16(%r8), %rax
	cmpq	$32, %rax
	movl	$32, %edi
	movq	%rax, 88(%rsp)
	cmovbq	%rax, %rdi
	movq	%rdi, 80(%rsp)
	leaq	-8(%r8), %rax
	cmpq	$8, %rax
	movl	$8, %r12d
	cmovbq	%rax, %r12
	cmpq	$16, %rax
	movl	$16, %r13d
	movq	%rax, 96(%rsp)
	cmovbq	%rax, %r13
	movq	%r8, %rbp
	shrq	%rbp
	xorl	%ebx, %ebx
	jmp	5f
	.p2align	4
2:
	movq	(%rsi,%r9), %r15
	movq	8(%rsi,%r9), %r14
	movq	16(%rsp), %rax
	cmpq	%rax, 24(%rsp)
	je	13f
3:
	movq	%rax, %rdi
	shlq	$4, %rdi
	movq	40(%rsp), %r9
	movq	%r15, (%r9,%rdi)
	movq	%r14, 8(%r9,%rdi)
	incq	%rax
	movq	%rax, 16(%rsp)
4:
	incq	%rbx
	cmpq	%rdx, %rbx
	je	14f
5:
	imulq	$104, %rbx, %r9
	movq	24(%rsi,%r9), %r10
	testq	%r10, %r10
	je	4b
	movq	16(%rsi,%r9), %r11
	jmp	7f
6:
	movl	(%rax), %edi
	movl	-4(%rax,%r8), %eax
	shlq	$32, %rax
	orq	%rdi, %rax
	bswapq	%rax
	movl	(%rcx), %r14d
	movl	-4(%rcx,%r8), %edi
	shlq	$32, %rdi
	orq	%r14, %rdi
	bswapq	%rdi
	cmpq	%rdi, %rax
	jne	12f
	jmp	2b
	.p2align	4
7:
	cmpq	%r8, 8(%r11)
	jne	12f
	movq	(%r11), %rax
	cmpq	$7, %r8
	ja	8f
	cmpq	$4, %r8
	jae	6b
	testq	%r8, %r8
	je	2b
	movzbl	(%rax), %edi
	movzbl	(%rax,%rbp), %r14d
	shll	$16, %edi
	shll	$8, %r14d
	orl	%edi, %r14d
	movzbl	-1(%rax,%r8), %eax
	orq	%r14, %rax
	movzbl	(%rcx), %edi
	movzbl	(%rcx,%rbp), %r14d
	shll	$16, %edi
	shll	$8, %r14d
	orl	%edi, %r14d
	movzbl	-1(%rcx,%r8), %edi
	orq	%r14, %rdi
	cmpq	%rdi, %rax
	jne	12f
	jmp	2b
	.p2align	4
8:
	cmpq	$32, %r8
	ja	9f
	movq	(%rax), %rdi
	cmpq	(%rcx), %rdi
	jne	12f
	movq	(%rcx,%r12), %rdi
	cmpq	%rdi, (%rax,%r12)
	jne	12f
	movq	(%rcx,%r13), %rdi
	cmpq	%rdi, (%rax,%r13)
	jne	12f
	movq	96(%rsp), %r14
	movq	(%rcx,%r14), %rdi
	cmpq	%rdi, (%rax,%r14)
	jne	12f
	jmp	2b
9:
	cmpq	$65, %r8
	jae	10f
	movdqu	(%rax), %xmm0
	movdqu	16(%rax), %xmm1
	movdqu	(%rcx), %xmm2
	pcmpeqb	%xmm0, %xmm2
	movdqu	16(%rcx), %xmm3
	pcmpeqb	%xmm1, %xmm3
	pcmpeqd	%xmm1, %xmm1
	pxor	%xmm1, %xmm2
	pxor	%xmm1, %xmm3
	por	%xmm2, %xmm3
	movq	80(%rsp), %rdi
	movdqu	(%rax,%rdi), %xmm0
	movdqu	(%rcx,%rdi), %xmm2
	pcmpeqb	%xmm0, %xmm2
	pxor	%xmm1, %xmm2
	movq	88(%rsp), %rdi
	movdqu	(%rax,%rdi), %xmm4
	movdqu	(%rcx,%rdi), %xmm0
	pcmpeqb	%xmm4, %xmm0
	pxor	%xmm1, %xmm0
	por	%xmm2, %xmm0
	por	%xmm3, %xmm0
	ptest	1b(%rip), %xmm0
	jne	12f
	jmp	2b
10:
	xorl	%edi, %edi
	movq	%r8, %r15
	.p2align	4
11:
	movdqu	(%rax,%rdi), %xmm0
	movdqu	16(%rax,%rdi), %xmm1
	movdqu	32(%rax,%rdi), %xmm2
	movdqu	48(%rax,%rdi), %xmm3
	movdqu	(%rcx,%rdi), %xmm4
	pcmpeqb	%xmm0, %xmm4
	movdqu	16(%rcx,%rdi), %xmm0
	pcmpeqb	%xmm1, %xmm0
	pand	%xmm4, %xmm0
	movdqu	32(%rcx,%rdi), %xmm1
	pcmpeqb	%xmm2, %xmm1
	movdqu	48(%rcx,%rdi), %xmm2
	pcmpeqb	%xmm3, %xmm2
	pand	%xmm1, %xmm2
	pand	%xmm0, %xmm2
	pmovmskb	%xmm2, %r14d
	cmpl	$65535, %r14d
	jne	12f
	addq	$64, %rdi
	addq	$-64, %r15
	cmpq	$65, %r15
	jae	11b
	movdqu	-64(%rax,%r8), %xmm0
	movdqu	-48(%rax,%r8), %xmm1
	movdqu	-32(%rax,%r8), %xmm2
	movdqu	-16(%rax,%r8), %xmm3
	movdqu	-64(%rcx,%r8), %xmm4
	pcmpeqb	%xmm0, %xmm4
	movdqu	-48(%rcx,%r8), %xmm5
	pcmpeqb	%xmm1, %xmm5
	movdqu	-32(%rcx,%r8), %xmm0
	pcmpeqb	%xmm2, %xmm0
	movdqu	-16(%rcx,%r8), %xmm1
	pcmpeqb	%xmm3, %xmm1
	pcmpeqd	%xmm2, %xmm2
	pxor	%xmm2, %xmm1
	pxor	%xmm2, %xmm0
	por	%xmm1, %xmm0
	pxor	%xmm2, %xmm4
	pxor	%xmm2, %xmm5
	por	%xmm4, %xmm5
	por	%xmm0, %xmm5
	pxor	%xmm0, %xmm0
	pcmpgtb	%xmm5, %xmm0
	ptest	1b(%rip), %xmm0
	je	2b
	.p2align	4
12:
	addq	$16, %r11
	decq	%r10
	jne	7b
	jmp	4b
13:
	movq	%rsi, 72(%rsp)
	movq	%rdx, 64(%rsp)
	movq	%rcx, 56(%rsp)
	movq	%r8, 48(%rsp)
	leaq	8(%rsp), %rdi
	movl	$1, %esi
	callq	"std_alloc::vec::Vec::grow_amortized::<#3af3ba23e56e6a09>"
	testb	%al, %al
	je	16f
	movq	8(%rsp), %rax
	movq	%rax, 40(%rsp)
	movq	16(%rsp), %rax
	movq	48(%rsp), %r8
	movq	56(%rsp), %rcx
	movq	64(%rsp), %rdx
	movq	72(%rsp), %rsi
	jmp	3b
14:
	movq	32(%rsp), %rcx
	movb	$0, (%rcx)
	movq	8(%rsp), %rax
	movq	%rax, 8(%rcx)
	movq	16(%rsp), %rax
	movq	%rax, 16(%rcx)
	movq	24(%rsp), %rax
	movq	%rax, 24(%rcx)
15:
	addq	$104, %rsp
	popq	%rbx
	popq	%r12
	popq	%r13
	popq	%r14
	popq	%r15
	popq	%rbp
	retq
16:
	cmpq	$0, 24(%rsp)
	je	17f
	movq	8(%rsp), %rdi
	callq	rattle_dealloc@PLT
17:
	movq	32(%rsp), %rax
	movb	$1, (%rax)
	pxor	%xmm0, %xmm0
	movdqu	%xmm0, 8(%rax)
	movq	$0, 24(%rax)
	jmp	15b
18:
	.size	"clap::builder::command::Command::groups_of", 18b-"clap::builder::command::Command::groups_of"

	.section	.rodata.cst16,"aM",@progbits,16
	.p2align	4, 0x0
1:
	.zero	16,1
	.text
	.p2align	4
	.type	"clap::builder::command::Command::has_arg",@function
"clap::builder::command::Command::has_arg":
	testq	%rsi, %rsi
	je	9f
	pushq	%rbp
	pushq	%r15
	pushq	%r14
	pushq	%r12
	pushq	%rbx
	leaq	-16(%rcx), %rax
	cmpq	$32, %rax
	movl	$32, %r8d
	cmovbq	%rax, %r8
	leaq	-8(%rcx), %r9
	cmpq	$8, %r9
	movl	$8, %r10d
	cmovbq	%r9, %r10
	cmpq	$16, %r9
	movl	$16, %r11d
	cmovbq	%r9, %r11
	movq	%rcx, %rbx
	shrq	%rbx
	jmp	3f
2:
	movl	(%r14), %r15d
	movl	-4(%r14,%rcx), %r14d
	shlq	$32, %r14
	orq	%r15, %r14
	bswapq	%r14
	movl	(%rdx), %r12d
	movl	-4(%rdx,%rcx), %r15d
	shlq	$32, %r15
	orq	%r12, %r15
	bswapq	%r15
	cmpq	%r15, %r14
	jne	8f
	jmp	10f
	.p2align	4
3:
	cmpq	%rcx, 8(%rdi)
	jne	8f
	movq	(%rdi), %r14
	cmpq	$7, %rcx
	ja	4f
	cmpq	$4, %rcx
	jae	2b
	testq	%rcx, %rcx
	je	10f
	movzbl	(%r14), %ebp
	movzbl	(%r14,%rbx), %r15d
	shll	$16, %ebp
	shll	$8, %r15d
	orl	%ebp, %r15d
	movzbl	-1(%r14,%rcx), %r14d
	orq	%r15, %r14
	movzbl	(%rdx), %ebp
	movzbl	(%rdx,%rbx), %r12d
	shll	$16, %ebp
	shll	$8, %r12d
	orl	%ebp, %r12d
	movzbl	-1(%rdx,%rcx), %r15d
	orq	%r12, %r15
	cmpq	%r15, %r14
	jne	8f
	jmp	10f
	.p2align	4
4:
	cmpq	$32, %rcx
	ja	5f
	movq	(%r14), %r15
	cmpq	(%rdx), %r15
	jne	8f
	movq	(%rdx,%r10), %r15
	cmpq	%r15, (%r14,%r10)
	jne	8f
	movq	(%rdx,%r11), %r15
	cmpq	%r15, (%r14,%r11)
	jne	8f
	movq	(%rdx,%r9), %r15
	cmpq	%r15, (%r14,%r9)
	jne	8f
	jmp	10f
5:
	cmpq	$65, %rcx
	jae	6f
	movdqu	(%r14), %xmm0
	movdqu	16(%r14), %xmm1
	movdqu	(%rdx), %xmm2
	pcmpeqb	%xmm0, %xmm2
	movdqu	16(%rdx), %xmm3
	pcmpeqb	%xmm1, %xmm3
	pcmpeqd	%xmm1, %xmm1
	pxor	%xmm1, %xmm2
	pxor	%xmm1, %xmm3
	por	%xmm2, %xmm3
	movdqu	(%r14,%r8), %xmm0
	movdqu	(%rdx,%r8), %xmm2
	pcmpeqb	%xmm0, %xmm2
	pxor	%xmm1, %xmm2
	movdqu	(%r14,%rax), %xmm4
	movdqu	(%rdx,%rax), %xmm0
	pcmpeqb	%xmm4, %xmm0
	pxor	%xmm1, %xmm0
	por	%xmm2, %xmm0
	por	%xmm3, %xmm0
	ptest	1b(%rip), %xmm0
	jne	8f
	jmp	10f
6:
	xorl	%r15d, %r15d
	movq	%rcx, %r12
	.p2align	4
7:
	movdqu	(%r14,%r15), %xmm0
	movdqu	16(%r14,%r15), %xmm1
	movdqu	32(%r14,%r15), %xmm2
	movdqu	48(%r14,%r15), %xmm3
	movdqu	(%rdx,%r15), %xmm4
	pcmpeqb	%xmm0, %xmm4
	movdqu	16(%rdx,%r15), %xmm0
	pcmpeqb	%xmm1, %xmm0
	pand	%xmm4, %xmm0
	movdqu	32(%rdx,%r15), %xmm1
	pcmpeqb	%xmm2, %xmm1
	movdqu	48(%rdx,%r15), %xmm2
	pcmpeqb	%xmm3, %xmm2
	pand	%xmm1, %xmm2
	pand	%xmm0, %xmm2
	pmovmskb	%xmm2, %ebp
	cmpl	$65535, %ebp
	jne	8f
	addq	$64, %r15
	addq	$-64, %r12
	cmpq	$65, %r12
	jae	7b
	movdqu	-64(%r14,%rcx), %xmm0
	movdqu	-48(%r14,%rcx), %xmm1
	movdqu	-32(%r14,%rcx), %xmm2
	movdqu	-16(%r14,%rcx), %xmm3
	movdqu	-64(%rdx,%rcx), %xmm4
	pcmpeqb	%xmm0, %xmm4
	movdqu	-48(%rdx,%rcx), %xmm5
	pcmpeqb	%xmm1, %xmm5
	movdqu	-32(%rdx,%rcx), %xmm0
	pcmpeqb	%xmm2, %xmm0
	movdqu	-16(%rdx,%rcx), %xmm1
	pcmpeqb	%xmm3, %xmm1
	pcmpeqd	%xmm2, %xmm2
	pxor	%xmm2, %xmm1
	pxor	%xmm2, %xmm0
	por	%xmm1, %xmm0
	pxor	%xmm2, %xmm4
	pxor	%xmm2, %xmm5
	por	%xmm4, %xmm5
	por	%xmm0, %xmm5
	pxor	%xmm0, %xmm0
	pcmpgtb	%xmm5, %xmm0
	ptest	1b(%rip), %xmm0
	je	10f
	.p2align	4
8:
	addq	$608, %rdi
	decq	%rsi
	jne	3b
	xorl	%eax, %eax
	jmp	11f
9:
	xorl	%eax, %eax
	retq
10:
	movb	$1, %al
11:
	popq	%rbx
	popq	%r12
	popq	%r14
	popq	%r15
	popq	%rbp
	retq
12:
	.size	"clap::builder::command::Command::has_arg", 12b-"clap::builder::command::Command::has_arg"

	.text
	.p2align	4
	.type	"clap::builder::command::Command::required_ids",@function
"clap::builder::command::Command::required_ids":
	pushq	%rbp
	pushq	%r15
	pushq	%r14
	pushq	%r13
	pushq	%r12
	pushq	%rbx
	subq	$40, %rsp
	movq	%rsi, %r14
	movq	%rdi, %rbx
	leaq	8(%rsp), %rax
	movq	%rax, 16(%rsp)
	xorps	%xmm0, %xmm0
	movups	%xmm0, 24(%rsp)
	movq	584(%rsi), %r15
	testq	%r15, %r15
	je	5f
	movq	576(%r14), %r12
	jmp	2f
	.p2align	4
1:
	addq	$608, %r12
	decq	%r15
	je	5f
2:
	cmpb	$1, 592(%r12)
	jne	1b
	movq	(%r12), %rsi
	movq	8(%r12), %rdx
	leaq	16(%rsp), %rdi
	callq	"clap::builder::command::insert_id"
	testb	%al, %al
	je	1b
3:
	cmpq	$0, 32(%rsp)
	je	4f
	movq	16(%rsp), %rdi
	callq	rattle_dealloc@PLT
4:
	movb	$1, (%rbx)
	xorps	%xmm0, %xmm0
	movups	%xmm0, 8(%rbx)
	movq	$0, 24(%rbx)
	jmp	10f
5:
	movq	632(%r14), %r15
	testq	%r15, %r15
	je	9f
	movq	624(%r14), %r14
	xorl	%r12d, %r12d
	jmp	7f
	.p2align	4
6:
	incq	%r12
	cmpq	%r15, %r12
	je	9f
7:
	imulq	$104, %r12, %rbp
	cmpb	$1, 40(%r14,%rbp)
	jne	6b
	movq	(%r14,%rbp), %rsi
	movq	8(%r14,%rbp), %rdx
	leaq	16(%rsp), %rdi
	callq	"clap::builder::command::insert_id"
	testb	%al, %al
	jne	3b
	movq	56(%r14,%rbp), %r13
	testq	%r13, %r13
	je	6b
	movq	48(%r14,%rbp), %rbp
	addq	$8, %rbp
	.p2align	4
8:
	movq	-8(%rbp), %rsi
	movq	(%rbp), %rdx
	leaq	16(%rsp), %rdi
	callq	"clap::builder::command::insert_id"
	testb	%al, %al
	jne	3b
	addq	$16, %rbp
	decq	%r13
	jne	8b
	jmp	6b
9:
	movb	$0, (%rbx)
	movups	16(%rsp), %xmm0
	movups	%xmm0, 8(%rbx)
	movq	32(%rsp), %rax
	movq	%rax, 24(%rbx)
10:
	addq	$40, %rsp
	popq	%rbx
	popq	%r12
	popq	%r13
	popq	%r14
	popq	%r15
	popq	%rbp
	retq
11:
	.size	"clap::builder::command::Command::required_ids", 11b-"clap::builder::command::Command::required_ids"

	.section	.rodata.cst16,"aM",@progbits,16
	.p2align	4, 0x0
1:
	.zero	16,1
	.text
	.p2align	4
	.type	"clap::builder::command::Command::requires_of",@function
"clap::builder::command::Command::requires_of":
	pushq	%rbp
	pushq	%r15
	pushq	%r14
	pushq	%r13
	pushq	%r12
	pushq	%rbx
	subq	$184, %rsp
	movq	%r9, 176(%rsp)
	movl	%r8d, 132(%rsp)
	pxor	%xmm0, %xmm0
	movdqu	%xmm0, 159(%rsp)
	movdqa	%xmm0, 144(%rsp)
	movq	%rsp, %r9
	movq	%r9, 16(%rsp)
	movdqu	%xmm0, 24(%rsp)
	movq	%r9, 40(%rsp)
	movdqu	%xmm0, 48(%rsp)
	movq	%r9, 72(%rsp)
	movdqu	%xmm0, 80(%rsp)
	movq	24(%rsp), %r10
	cmpq	%r10, 32(%rsp)
	je	35f
2:
	movq	%r10, %rax
	shlq	$4, %rax
	movq	%rdx, (%r9,%rax)
	movq	%rcx, 8(%r9,%rax)
	movq	584(%rsi), %rdx
	testq	%rdx, %rdx
	movq	%rsi, 136(%rsp)
	movq	%rdi, 64(%rsp)
	je	3f
	movq	576(%rsi), %rax
	cmpq	$1, %rdx
	jne	4f
	movl	$1, %r15d
	xorl	%ecx, %ecx
	jmp	6f
3:
	movl	$1, %r15d
	jmp	7f
4:
	movq	%rdx, %rsi
	andq	$-2, %rsi
	leaq	760(%rax), %rdi
	movl	$1, %r15d
	xorl	%ecx, %ecx
	.p2align	4
5:
	addq	-608(%rdi), %r15
	movq	$-1, %r8
	cmovbq	%r8, %r15
	addq	(%rdi), %r15
	cmovbq	%r8, %r15
	addq	$2, %rcx
	addq	$1216, %rdi
	cmpq	%rcx, %rsi
	jne	5b
	testb	$1, %dl
	je	7f
6:
	imulq	$608, %rcx, %rcx
	addq	152(%rax,%rcx), %r15
	movq	$-1, %rax
	cmovbq	%rax, %r15
7:
	incq	%r10
	movq	%rsp, %rcx
	xorl	%eax, %eax
	movq	%rcx, 96(%rsp)
	movq	%rcx, 112(%rsp)
	jmp	9f
	.p2align	4
8:
	movq	8(%rsp), %rax
	incq	%rax
	cmpq	%r15, %rax
	movq	104(%rsp), %r9
	movq	120(%rsp), %r10
	je	27f
9:
	testq	%r10, %r10
	je	27f
	movq	%rax, 8(%rsp)
	decq	%r10
	movq	%r10, 24(%rsp)
	movq	%r10, 120(%rsp)
	movq	%r10, %rax
	shlq	$4, %rax
	movq	(%r9,%rax), %rdx
	movq	%r9, 104(%rsp)
	movq	8(%r9,%rax), %rcx
	movq	48(%rsp), %rax
	testq	%rax, %rax
	je	17f
	leaq	-16(%rcx), %rsi
	cmpq	$32, %rsi
	movl	$32, %edi
	cmovbq	%rsi, %rdi
	leaq	-8(%rcx), %r8
	cmpq	$8, %r8
	movl	$8, %r9d
	cmovbq	%r8, %r9
	cmpq	$16, %r8
	movl	$16, %r10d
	cmovbq	%r8, %r10
	movq	%rcx, %r11
	shrq	%r11
	movq	96(%rsp), %rbx
	movq	%rax, %r14
	jmp	11f
10:
	movl	(%r12), %r13d
	movl	-4(%r12,%rcx), %r12d
	shlq	$32, %r12
	orq	%r13, %r12
	bswapq	%r12
	movl	(%rdx), %ebp
	movl	-4(%rdx,%rcx), %r13d
	shlq	$32, %r13
	orq	%rbp, %r13
	bswapq	%r13
	cmpq	%r13, %r12
	jne	16f
	jmp	8b
	.p2align	4
11:
	cmpq	%rcx, 8(%rbx)
	jne	16f
	movq	(%rbx), %r12
	cmpq	$7, %rcx
	ja	12f
	cmpq	$4, %rcx
	jae	10b
	testq	%rcx, %rcx
	je	8b
	movzbl	(%r12), %ebp
	movzbl	(%r12,%r11), %r13d
	shll	$16, %ebp
	shll	$8, %r13d
	orl	%ebp, %r13d
	movzbl	-1(%r12,%rcx), %r12d
	orq	%r13, %r12
	movzbl	(%rdx), %ebp
	movzbl	(%rdx,%r11), %esi
	shll	$16, %ebp
	shll	$8, %esi
	orl	%ebp, %esi
	movzbl	-1(%rdx,%rcx), %r13d
	orq	%rsi, %r13
	cmpq	%r13, %r12
	jne	16f
	jmp	8b
	.p2align	4
12:
	cmpq	$32, %rcx
	ja	13f
	movq	(%r12), %rsi
	cmpq	(%rdx), %rsi
	jne	16f
	movq	(%rdx,%r9), %rsi
	cmpq	%rsi, (%r12,%r9)
	jne	16f
	movq	(%rdx,%r10), %rsi
	cmpq	%rsi, (%r12,%r10)
	jne	16f
	movq	(%rdx,%r8), %rsi
	cmpq	%rsi, (%r12,%r8)
	jne	16f
	jmp	8b
13:
	cmpq	$65, %rcx
	jae	14f
	movdqu	(%r12), %xmm0
	movdqu	16(%r12), %xmm1
	movdqu	(%rdx), %xmm2
	pcmpeqb	%xmm0, %xmm2
	movdqu	16(%rdx), %xmm3
	pcmpeqb	%xmm1, %xmm3
	pcmpeqd	%xmm1, %xmm1
	pxor	%xmm1, %xmm2
	pxor	%xmm1, %xmm3
	por	%xmm2, %xmm3
	movdqu	(%r12,%rdi), %xmm0
	movdqu	(%rdx,%rdi), %xmm2
	pcmpeqb	%xmm0, %xmm2
	pxor	%xmm1, %xmm2
	leaq	-16(%rcx), %rsi
	movdqu	(%r12,%rsi), %xmm4
	movdqu	(%rdx,%rsi), %xmm0
	pcmpeqb	%xmm4, %xmm0
	pxor	%xmm1, %xmm0
	por	%xmm2, %xmm0
	por	%xmm3, %xmm0
	ptest	1b(%rip), %xmm0
	jne	16f
	jmp	8b
14:
	xorl	%r13d, %r13d
	movq	%rcx, %rbp
	.p2align	4
15:
	movdqu	(%r12,%r13), %xmm0
	movdqu	16(%r12,%r13), %xmm1
	movdqu	32(%r12,%r13), %xmm2
	movdqu	48(%r12,%r13), %xmm3
	movdqu	(%rdx,%r13), %xmm4
	pcmpeqb	%xmm0, %xmm4
	movdqu	16(%rdx,%r13), %xmm0
	pcmpeqb	%xmm1, %xmm0
	pand	%xmm4, %xmm0
	movdqu	32(%rdx,%r13), %xmm1
	pcmpeqb	%xmm2, %xmm1
	movdqu	48(%rdx,%r13), %xmm2
	pcmpeqb	%xmm3, %xmm2
	pand	%xmm1, %xmm2
	pand	%xmm0, %xmm2
	pmovmskb	%xmm2, %esi
	cmpl	$65535, %esi
	jne	16f
	addq	$64, %r13
	addq	$-64, %rbp
	cmpq	$65, %rbp
	jae	15b
	movdqu	-64(%r12,%rcx), %xmm0
	movdqu	-48(%r12,%rcx), %xmm1
	movdqu	-32(%r12,%rcx), %xmm2
	movdqu	-16(%r12,%rcx), %xmm3
	movdqu	-64(%rdx,%rcx), %xmm4
	pcmpeqb	%xmm0, %xmm4
	movdqu	-48(%rdx,%rcx), %xmm5
	pcmpeqb	%xmm1, %xmm5
	movdqu	-32(%rdx,%rcx), %xmm0
	pcmpeqb	%xmm2, %xmm0
	movdqu	-16(%rdx,%rcx), %xmm1
	pcmpeqb	%xmm3, %xmm1
	pcmpeqd	%xmm2, %xmm2
	pxor	%xmm2, %xmm1
	pxor	%xmm2, %xmm0
	por	%xmm1, %xmm0
	pxor	%xmm2, %xmm4
	pxor	%xmm2, %xmm5
	por	%xmm4, %xmm5
	por	%xmm0, %xmm5
	pxor	%xmm0, %xmm0
	pcmpgtb	%xmm5, %xmm0
	ptest	1b(%rip), %xmm0
	je	8b
	.p2align	4
16:
	addq	$16, %rbx
	decq	%r14
	jne	11b
17:
	cmpq	%rax, 56(%rsp)
	movq	136(%rsp), %r12
	je	26f
18:
	movq	%rax, %rsi
	shlq	$4, %rsi
	movq	96(%rsp), %rdi
	movq	%rdx, (%rdi,%rsi)
	movq	%rcx, 8(%rdi,%rsi)
	incq	%rax
	movq	%rax, 48(%rsp)
	movq	576(%r12), %rdi
	movq	584(%r12), %rsi
	callq	"clap::builder::command::Command::find"
	cmpb	$1, %al
	jne	8b
	movq	%rdx, %r13
	movq	152(%rdx), %rbp
	testq	%rbp, %rbp
	je	8b
	movq	144(%r13), %r12
	addq	$32, %r12
	jmp	23f
19:
	movq	%rdx, %rax
	shlq	$4, %rax
	movq	104(%rsp), %rcx
	movq	%rbx, (%rcx,%rax)
	movq	%r14, 8(%rcx,%rax)
	incq	%rdx
	movq	%rdx, 120(%rsp)
	movq	%rdx, 24(%rsp)
	movq	-8(%r12), %rbx
	movq	(%r12), %r14
20:
	movq	80(%rsp), %rax
	cmpq	%rax, 88(%rsp)
	je	25f
21:
	movq	72(%rsp), %rdx
	movq	%rax, %rcx
	shlq	$4, %rcx
	movq	%rbx, (%rdx,%rcx)
	movq	%rdx, 112(%rsp)
	movq	%r14, 8(%rdx,%rcx)
	incq	%rax
	movq	%rax, 80(%rsp)
22:
	addq	$40, %r12
	decq	%rbp
	je	8b
23:
	cmpb	$0, -32(%r12)
	je	24f
	cmpb	$1, 132(%rsp)
	jne	22b
	movq	(%r13), %rdx
	movq	8(%r13), %rcx
	movq	-24(%r12), %r8
	movq	-16(%r12), %r9
	movq	176(%rsp), %rax
	movq	(%rax), %rdi
	movq	8(%rax), %rsi
	callq	"clap::parser::matches::Found::has_value"
	testb	%al, %al
	je	22b
24:
	movq	-8(%r12), %rbx
	movq	(%r12), %r14
	movq	136(%rsp), %rax
	movq	576(%rax), %rdi
	movq	584(%rax), %rsi
	movq	%rbx, %rdx
	movq	%r14, %rcx
	callq	"clap::builder::command::Command::find"
	cmpb	$1, %al
	jne	20b
	cmpq	$0, 152(%rdx)
	je	20b
	movq	(%rdx), %rbx
	movq	8(%rdx), %r14
	movq	120(%rsp), %rdx
	cmpq	%rdx, 32(%rsp)
	jne	19b
	leaq	16(%rsp), %rdi
	movl	$1, %esi
	callq	"std_alloc::vec::Vec::grow_amortized::<#3af3ba23e56e6a09>"
	testb	%al, %al
	je	36f
	movq	16(%rsp), %rax
	movq	%rax, 104(%rsp)
	movq	24(%rsp), %rdx
	jmp	19b
25:
	leaq	72(%rsp), %rdi
	movl	$1, %esi
	callq	"std_alloc::vec::Vec::grow_amortized::<#3af3ba23e56e6a09>"
	testb	%al, %al
	je	31f
	movq	80(%rsp), %rax
	jmp	21b
26:
	movq	%rcx, %rbx
	movq	%rdx, %r14
	leaq	40(%rsp), %rdi
	movl	$1, %esi
	callq	"std_alloc::vec::Vec::grow_amortized::<#3af3ba23e56e6a09>"
	testb	%al, %al
	je	36f
	movq	40(%rsp), %rax
	movq	%rax, 96(%rsp)
	movq	48(%rsp), %rax
	movq	%r14, %rdx
	movq	%rbx, %rcx
	jmp	18b
27:
	cmpq	$0, 56(%rsp)
	je	28f
	movq	40(%rsp), %rdi
	callq	rattle_dealloc@PLT
28:
	cmpq	$0, 32(%rsp)
	movq	64(%rsp), %rbx
	je	29f
	movq	16(%rsp), %rdi
	callq	rattle_dealloc@PLT
29:
	movb	$0, (%rbx)
	movdqu	72(%rsp), %xmm0
	movdqu	%xmm0, 8(%rbx)
	movq	88(%rsp), %rax
	movq	%rax, 24(%rbx)
30:
	addq	$184, %rsp
	popq	%rbx
	popq	%r12
	popq	%r13
	popq	%r14
	popq	%r15
	popq	%rbp
	retq
31:
	cmpq	$0, 88(%rsp)
	je	32f
	movq	72(%rsp), %rdi
	callq	rattle_dealloc@PLT
32:
	cmpq	$0, 56(%rsp)
	movq	64(%rsp), %rbx
	je	33f
	movq	40(%rsp), %rdi
	callq	rattle_dealloc@PLT
33:
	cmpq	$0, 32(%rsp)
	je	34f
	movq	16(%rsp), %rdi
	callq	rattle_dealloc@PLT
34:
	movb	$1, (%rbx)
	pxor	%xmm0, %xmm0
	movdqu	%xmm0, 8(%rbx)
	movq	$0, 24(%rbx)
	jmp	30b
35:
	movq	%rsi, %r12
	movq	%rdi, %r15
	movq	%rdx, %rbx
	movq	%rcx, %r14
	leaq	16(%rsp), %rdi
	movl	$1, %esi
	callq	"std_alloc::vec::Vec::grow_amortized::<#3af3ba23e56e6a09>"
	testb	%al, %al
	je	40f
	movq	16(%rsp), %r9
	movq	24(%rsp), %r10
	movq	%r14, %rcx
	movq	%rbx, %rdx
	movq	%r15, %rdi
	movq	%r12, %rsi
	jmp	2b
36:
	pxor	%xmm0, %xmm0
	movdqu	%xmm0, 151(%rsp)
	movq	$0, 167(%rsp)
	cmpq	$0, 88(%rsp)
	je	37f
	movq	112(%rsp), %rdi
	callq	rattle_dealloc@PLT
37:
	cmpq	$0, 56(%rsp)
	movq	64(%rsp), %r14
	je	38f
	movq	40(%rsp), %rdi
	callq	rattle_dealloc@PLT
38:
	leaq	151(%rsp), %rbx
	cmpq	$0, 32(%rsp)
	je	39f
	movq	16(%rsp), %rdi
	callq	rattle_dealloc@PLT
39:
	movb	$1, (%r14)
	movups	(%rbx), %xmm0
	movups	%xmm0, 8(%r14)
	movq	16(%rbx), %rax
	movq	%rax, 24(%r14)
	jmp	30b
40:
	cmpq	$0, 88(%rsp)
	je	41f
	movq	%rsp, %rdi
	callq	rattle_dealloc@PLT
41:
	cmpq	$0, 56(%rsp)
	je	42f
	movq	%rsp, %rdi
	callq	rattle_dealloc@PLT
42:
	cmpq	$0, 32(%rsp)
	je	43f
	movq	16(%rsp), %rdi
	callq	rattle_dealloc@PLT
43:
	movb	$1, (%r15)
	pxor	%xmm0, %xmm0
	movdqu	%xmm0, 8(%r15)
	movq	$0, 24(%r15)
	jmp	30b
44:
	.size	"clap::builder::command::Command::requires_of", 44b-"clap::builder::command::Command::requires_of"

	.text
	.p2align	4
	.type	"clap::builder::command::Command::subcommand",@function
"clap::builder::command::Command::subcommand":
	pushq	%rbp
	pushq	%r15
	pushq	%r14
	pushq	%r13
	pushq	%r12
	pushq	%rbx
	subq	$2216, %rsp
	movq	%rdx, %r14
	movq	%rdi, 32(%rsp)
	movq	480(%rdx), %rbp
	movq	488(%rdx), %rbx
	leaq	496(%rdx), %r15
	movzbl	669(%rdx), %r12d
	movzbl	670(%rdx), %r13d
	movzbl	671(%rdx), %eax
	movb	%al, 15(%rsp)
	leaq	40(%rsp), %rdi
	movl	$672, %edx
	callq	memcpy@PLT
	leaq	712(%rsp), %rdi
	movl	$480, %edx
	movq	%r14, %rsi
	callq	memcpy@PLT
	movq	%rbp, %r14
	andq	$-256, %rbp
	leaq	1384(%rsp), %rdi
	movl	$173, %edx
	movq	%r15, %rsi
	callq	memcpy@PLT
	movq	536(%rsp), %rax
	movq	%rax, %rcx
	incq	%rcx
	movq	$-1, %rdx
	cmovneq	%rcx, %rdx
	movq	648(%rsp), %r15
	movb	%r13b, 24(%rsp)
	orb	%r13b, 710(%rsp)
	movb	%r12b, 16(%rsp)
	orb	%r12b, 709(%rsp)
	incq	%rbp
	cmpb	$1, %r14b
	cmovneq	%rax, %rbx
	movq	%rdx, 536(%rsp)
	movl	$1, %r14d
	cmoveq	%rbp, %r14
	cmpq	%r15, 656(%rsp)
	je	2f
1:
	movq	640(%rsp), %r13
	imulq	$672, %r15, %rbp
	movq	%r13, %rdi
	addq	%rbp, %rdi
	leaq	712(%rsp), %rsi
	movl	$480, %edx
	callq	memcpy@PLT
	movq	%r14, 480(%r13,%rbp)
	movq	%rbx, 488(%r13,%rbp)
	leaq	496(,%rbp), %rdi
	addq	%r13, %rdi
	leaq	1384(%rsp), %rsi
	movl	$173, %edx
	callq	memcpy@PLT
	movzbl	16(%rsp), %eax
	movb	%al, 669(%r13,%rbp)
	movzbl	24(%rsp), %eax
	movb	%al, 670(%r13,%rbp)
	movzbl	15(%rsp), %eax
	movb	%al, 671(%r13,%rbp)
	incq	%r15
	movq	%r15, 648(%rsp)
	movq	32(%rsp), %rdi
	movb	$0, (%rdi)
	addq	$8, %rdi
	leaq	40(%rsp), %rsi
	movl	$672, %edx
	callq	memcpy@PLT
	addq	$2216, %rsp
	popq	%rbx
	popq	%r12
	popq	%r13
	popq	%r14
	popq	%r15
	popq	%rbp
	retq
2:
	movzbl	16(%rsp), %r12d
	movzbl	24(%rsp), %ebp
	leaq	640(%rsp), %rdi
	callq	"std_alloc::vec::Vec::grow_amortized::<#96976065f969f57f>"
	testb	%al, %al
	je	3f
	movq	648(%rsp), %r15
	jmp	1b
3:
	leaq	1736(%rsp), %rdi
	leaq	712(%rsp), %rsi
	movl	$480, %edx
	callq	memcpy@PLT
	leaq	1563(%rsp), %r13
	leaq	1384(%rsp), %rsi
	movl	$173, %edx
	movq	%r13, %rdi
	callq	memcpy@PLT
	leaq	712(%rsp), %r15
	movl	$480, %edx
	movq	%r15, %rdi
	leaq	1736(%rsp), %rsi
	callq	memcpy@PLT
	movq	%r14, 1192(%rsp)
	movq	%rbx, 1200(%rsp)
	leaq	1208(%rsp), %rdi
	movl	$173, %edx
	movq	%r13, %rsi
	callq	memcpy@PLT
	movb	%r12b, 1381(%rsp)
	movb	%bpl, 1382(%rsp)
	movzbl	15(%rsp), %eax
	movb	%al, 1383(%rsp)
	movq	%r15, %rdi
	callq	"clap::clap++builder++command++Command+Destruct::drop"
	cmpb	$1, 88(%rsp)
	jne	4f
	cmpq	$0, 112(%rsp)
	je	4f
	movq	96(%rsp), %rdi
	callq	rattle_dealloc@PLT
4:
	cmpb	$1, 120(%rsp)
	jne	5f
	cmpq	$0, 144(%rsp)
	je	5f
	movq	128(%rsp), %rdi
	callq	rattle_dealloc@PLT
5:
	cmpb	$1, 152(%rsp)
	jne	6f
	cmpq	$0, 176(%rsp)
	je	6f
	movq	160(%rsp), %rdi
	callq	rattle_dealloc@PLT
6:
	cmpq	$0, 416(%rsp)
	je	7f
	movq	400(%rsp), %rdi
	callq	rattle_dealloc@PLT
7:
	cmpq	$0, 440(%rsp)
	je	8f
	movq	424(%rsp), %rdi
	callq	rattle_dealloc@PLT
8:
	cmpq	$0, 464(%rsp)
	je	9f
	movq	448(%rsp), %rdi
	callq	rattle_dealloc@PLT
9:
	movq	616(%rsp), %r14
	movq	624(%rsp), %r13
	movq	632(%rsp), %rbx
	testq	%r13, %r13
	je	11f
	movq	%r14, %r15
	.p2align	4
10:
	leaq	712(%rsp), %r12
	movl	$608, %edx
	movq	%r12, %rdi
	movq	%r15, %rsi
	callq	memcpy@PLT
	movq	%r12, %rdi
	callq	"clap::clap++builder++arg++Arg+Destruct::drop"
	addq	$608, %r15
	decq	%r13
	jne	10b
11:
	testq	%rbx, %rbx
	je	12f
	movq	%r14, %rdi
	callq	rattle_dealloc@PLT
12:
	movq	640(%rsp), %r14
	movq	648(%rsp), %r13
	movq	656(%rsp), %rbx
	testq	%r13, %r13
	je	14f
	movq	%r14, %r15
	.p2align	4
13:
	leaq	712(%rsp), %r12
	movl	$672, %edx
	movq	%r12, %rdi
	movq	%r15, %rsi
	callq	memcpy@PLT
	movq	%r12, %rdi
	callq	"clap::clap++builder++command++Command+Destruct::drop"
	addq	$672, %r15
	decq	%r13
	jne	13b
14:
	testq	%rbx, %rbx
	je	15f
	movq	%r14, %rdi
	callq	rattle_dealloc@PLT
15:
	movq	664(%rsp), %rax
	movq	%rax, 16(%rsp)
	movq	672(%rsp), %r13
	movq	680(%rsp), %rax
	movq	%rax, 24(%rsp)
	testq	%r13, %r13
	je	20f
	movq	16(%rsp), %rax
	leaq	88(%rax), %rbp
	jmp	17f
	.p2align	4
16:
	addq	$104, %rbp
	decq	%r13
	je	20f
17:
	movq	-40(%rbp), %r12
	movq	-24(%rbp), %r14
	movq	-16(%rbp), %r15
	movq	(%rbp), %rbx
	cmpq	$0, -56(%rbp)
	je	18f
	movq	-72(%rbp), %rdi
	callq	rattle_dealloc@PLT
18:
	testq	%r14, %r14
	je	19f
	movq	%r12, %rdi
	callq	rattle_dealloc@PLT
19:
	testq	%rbx, %rbx
	je	16b
	movq	%r15, %rdi
	callq	rattle_dealloc@PLT
	jmp	16b
20:
	cmpq	$0, 24(%rsp)
	movq	32(%rsp), %rbx
	je	21f
	movq	16(%rsp), %rdi
	callq	rattle_dealloc@PLT
21:
	movb	$1, (%rbx)
	addq	$8, %rbx
	movl	$672, %edx
	movq	%rbx, %rdi
	xorl	%esi, %esi
	addq	$2216, %rsp
	popq	%rbx
	popq	%r12
	popq	%r13
	popq	%r14
	popq	%r15
	popq	%rbp
	jmp	memset@PLT
22:
	.size	"clap::builder::command::Command::subcommand", 22b-"clap::builder::command::Command::subcommand"

	.section	.rodata.cst16,"aM",@progbits,16
	.p2align	4, 0x0
1:
	.long	1,104
	.zero	4
	.zero	4
2:
	.long	1,86
	.zero	4
	.zero	4
3:
	.long	1,1,1,1
4:
	.zero	16,1
5:
	.long	1,104,0,0
6:
	.long	1,86,0,0
	.text
	.p2align	4
	.type	"clap::builder::command::building::build_levels",@function
"clap::builder::command::building::build_levels":
	testq	%rdi, %rdi
	je	7f
	cmpb	$0, 668(%rsi)
	je	8f
7:
	xorl	%eax, %eax
	retq
8:
	movb	$1, 668(%rsi)
	cmpq	$0, 608(%rsi)
	jne	9f
	movb	$1, 655(%rsi)
9:
	pushq	%rbp
	pushq	%r15
	pushq	%r14
	pushq	%r13
	pushq	%r12
	pushq	%rbx
	subq	$3072, %rsp
	movq	$0, (%rsp)
	subq	$1304, %rsp
	testb	$1, 240(%rsi)
	movq	%rsi, 488(%rsp)
	movq	%rdi, 2424(%rsp)
	jne	10f
	testb	$1, 288(%rsi)
	jne	10f
	testb	$1, 336(%rsi)
	je	180f
10:
	movb	$1, %al
11:
	movb	%al, 671(%rsi)
	movzbl	654(%rsi), %eax
	movq	608(%rsi), %rcx
	testq	%rcx, %rcx
	je	16f
	movzbl	168(%rsi), %edx
	movb	%dl, 600(%rsp)
	movq	176(%rsi), %rdx
	movq	%rdx, 88(%rsp)
	movq	184(%rsi), %rdx
	movq	%rdx, 48(%rsp)
	movzbl	192(%rsi), %edx
	movb	%dl, 304(%rsp)
	movq	200(%rsi), %rdx
	movq	%rdx, 448(%rsp)
	movq	208(%rsi), %rdx
	movq	%rdx, 352(%rsp)
	movzbl	652(%rsi), %edx
	movb	%dl, 32(%rsp)
	movzbl	648(%rsi), %edx
	movb	%dl, 24(%rsp)
	movzbl	649(%rsi), %edx
	movb	%dl, 64(%rsp)
	movzbl	650(%rsi), %edx
	movb	%dl, 56(%rsp)
	movzbl	651(%rsi), %edx
	movb	%dl, 160(%rsp)
	movzbl	653(%rsi), %edx
	movb	%dl, 152(%rsp)
	movzbl	655(%rsi), %edx
	movb	%dl, 144(%rsp)
	movzbl	656(%rsi), %edx
	movb	%dl, 136(%rsp)
	movzbl	657(%rsi), %edx
	movb	%dl, 12(%rsp)
	movzbl	658(%rsi), %edx
	movb	%dl, 8(%rsp)
	movl	$658, %r8d
	movb	%al, 608(%rsp)
	jmp	13f
	.p2align	4
12:
	movzbl	56(%rsp), %edx
	orb	%dl, -8(%rdi,%r8)
	movzbl	152(%rsp), %edx
	orb	%dl, -5(%rdi,%r8)
	movzbl	136(%rsp), %edx
	orb	%dl, -2(%rdi,%r8)
	addq	$672, %r8
	decq	%rcx
	movq	488(%rsp), %rsi
	je	15f
13:
	movq	%rcx, 416(%rsp)
	movq	600(%rsi), %rdi
	movzbl	-490(%rdi,%r8), %r15d
	movq	-482(%rdi,%r8), %r12
	movq	-474(%rdi,%r8), %r14
	cmpb	$1, %r15b
	movq	88(%rsp), %r10
	cmoveq	%r12, %r10
	movq	48(%rsp), %r9
	cmoveq	%r14, %r9
	movzbl	600(%rsp), %r13d
	movl	$1, %ebx
	cmovel	%ebx, %r13d
	movzbl	-466(%rdi,%r8), %edx
	movq	-458(%rdi,%r8), %rax
	cmpb	$1, %dl
	movq	448(%rsp), %rbp
	cmoveq	%rax, %rbp
	movq	-450(%rdi,%r8), %rsi
	movzbl	304(%rsp), %r11d
	cmovel	%ebx, %r11d
	movq	352(%rsp), %rbx
	cmoveq	%rsi, %rbx
	movzbl	32(%rsp), %ecx
	testb	%cl, %cl
	cmovel	%r15d, %r13d
	cmoveq	%r12, %r10
	cmoveq	%r14, %r9
	movzbl	%r13b, %r14d
	movq	%r14, -490(%rdi,%r8)
	movq	%r10, -482(%rdi,%r8)
	cmovel	%edx, %r11d
	cmoveq	%rax, %rbp
	cmoveq	%rsi, %rbx
	movq	%r9, -474(%rdi,%r8)
	movzbl	%r11b, %eax
	movq	%rax, -466(%rdi,%r8)
	movzbl	608(%rsp), %eax
	movq	%rbp, -458(%rdi,%r8)
	movq	%rbx, -450(%rdi,%r8)
	orb	%cl, -6(%rdi,%r8)
	movzbl	64(%rsp), %ecx
	orb	%cl, -9(%rdi,%r8)
	movzbl	24(%rsp), %ecx
	orb	%cl, -10(%rdi,%r8)
	movzbl	160(%rsp), %ecx
	orb	%cl, -7(%rdi,%r8)
	orb	%al, -4(%rdi,%r8)
	movzbl	144(%rsp), %ecx
	orb	%cl, -3(%rdi,%r8)
	cmpb	$0, 12(%rsp)
	je	14f
	movb	$1, -1(%rdi,%r8)
14:
	cmpb	$0, 8(%rsp)
	movq	416(%rsp), %rcx
	je	12b
	movb	$1, (%rdi,%r8)
	jmp	12b
15:
	movzbl	654(%rsi), %eax
16:
	testb	%al, %al
	jne	21f
	movq	488(%rsp), %rbx
	movzbl	671(%rbx), %r14d
	leaq	.L1585dab617f1(%rip), %rax
	leaq	.L5860946f919d(%rip), %r15
	testq	%r14, %r14
	cmovneq	%rax, %r15
	movl	$35, %eax
	movl	$10, %r12d
	cmovneq	%rax, %r12
	leaq	.L32e35d8552b3(%rip), %r13
	cmoveq	%r14, %r13
	movl	$36, %ebp
	cmoveq	%r14, %rbp
	movq	584(%rbx), %rax
	cmpq	%rax, 592(%rbx)
	je	192f
17:
	movq	576(%rbx), %rcx
	imulq	$608, %rax, %rdx
	leaq	.L8a62443031f8(%rip), %rsi
	movq	%rsi, (%rcx,%rdx)
	movq	$4, 8(%rcx,%rdx)
	movq	$1, 16(%rcx,%rdx)
	movq	%r15, 24(%rcx,%rdx)
	movq	%r12, 32(%rcx,%rdx)
	movq	%r14, 40(%rcx,%rdx)
	movq	%r13, 48(%rcx,%rdx)
	movq	%rbp, 56(%rcx,%rdx)
	movabsq	$446676598785, %rdi
	movq	%rdi, 64(%rcx,%rdx)
	movq	$1, 72(%rcx,%rdx)
	movq	%rsi, 80(%rcx,%rdx)
	movq	$4, 88(%rcx,%rdx)
	movq	%rsp, %rsi
	movq	%rsi, 96(%rcx,%rdx)
	pxor	%xmm0, %xmm0
	movdqu	%xmm0, 104(%rcx,%rdx)
	movq	%rsi, 120(%rcx,%rdx)
	movdqu	%xmm0, 128(%rcx,%rdx)
	movq	%rsi, 144(%rcx,%rdx)
	movdqu	%xmm0, 152(%rcx,%rdx)
	movq	%rsi, 168(%rcx,%rdx)
	movdqu	%xmm0, 176(%rcx,%rdx)
	movq	%rsi, 192(%rcx,%rdx)
	movdqu	%xmm0, 200(%rcx,%rdx)
	movq	%rsi, 216(%rcx,%rdx)
	movdqu	%xmm0, 224(%rcx,%rdx)
	movq	%rsi, 240(%rcx,%rdx)
	movdqu	%xmm0, 248(%rcx,%rdx)
	movq	%rsi, 264(%rcx,%rdx)
	movdqu	%xmm0, 272(%rcx,%rdx)
	movq	%rsi, 288(%rcx,%rdx)
	movdqu	%xmm0, 296(%rcx,%rdx)
	movq	%rsi, 312(%rcx,%rdx)
	movdqu	%xmm0, 320(%rcx,%rdx)
	movq	$1, 336(%rcx,%rdx)
	movq	%rsi, 344(%rcx,%rdx)
	movq	$0, 352(%rcx,%rdx)
	movq	$1, 360(%rcx,%rdx)
	movq	%rsi, 368(%rcx,%rdx)
	movq	$0, 376(%rcx,%rdx)
	movq	%rsi, 384(%rcx,%rdx)
	movdqu	%xmm0, 392(%rcx,%rdx)
	movq	$1, 408(%rcx,%rdx)
	movq	%rsi, 416(%rcx,%rdx)
	movdqu	%xmm0, 488(%rcx,%rdx)
	movdqu	%xmm0, 472(%rcx,%rdx)
	movdqu	%xmm0, 456(%rcx,%rdx)
	movdqu	%xmm0, 440(%rcx,%rdx)
	movdqu	%xmm0, 424(%rcx,%rdx)
	movw	$1281, 504(%rcx,%rdx)
	movdqu	%xmm0, 586(%rcx,%rdx)
	movdqu	%xmm0, 570(%rcx,%rdx)
	movdqu	%xmm0, 554(%rcx,%rdx)
	movdqu	%xmm0, 538(%rcx,%rdx)
	movdqu	%xmm0, 522(%rcx,%rdx)
	movdqu	%xmm0, 506(%rcx,%rdx)
	movq	$0, 600(%rcx,%rdx)
	incq	%rax
	movq	%rax, 584(%rbx)
	movdqa	%xmm0, 1152(%rsp)
	movdqa	%xmm0, 1136(%rsp)
	movdqa	%xmm0, 1120(%rsp)
	movdqa	%xmm0, 1104(%rsp)
	movdqa	%xmm0, 1088(%rsp)
	movdqa	%xmm0, 1072(%rsp)
	movdqa	%xmm0, 1056(%rsp)
	movdqa	%xmm0, 1040(%rsp)
	movdqa	%xmm0, 1024(%rsp)
	movdqa	%xmm0, 896(%rsp)
	movdqa	%xmm0, 880(%rsp)
	movdqa	%xmm0, 944(%rsp)
	movdqa	%xmm0, 960(%rsp)
	movdqa	%xmm0, 976(%rsp)
	movdqa	%xmm0, 992(%rsp)
	movdqa	%xmm0, 1008(%rsp)
	movdqa	%xmm0, 3712(%rsp)
	movdqa	%xmm0, 3728(%rsp)
	movdqa	%xmm0, 3744(%rsp)
	movdqa	%xmm0, 3760(%rsp)
	movdqa	%xmm0, 3776(%rsp)
	movdqa	%xmm0, 3792(%rsp)
	movq	$0, 3806(%rsp)
	movb	$1, %r9b
	xorl	%edi, %edi
	xorl	%r8d, %r8d
	xorl	%eax, %eax
	xorl	%r15d, %r15d
	xorl	%r12d, %r12d
	xorl	%r14d, %r14d
	xorl	%r13d, %r13d
	xorl	%ebp, %ebp
	xorl	%esi, %esi
	xorl	%ecx, %ecx
	xorl	%edx, %edx
18:
	pxor	%xmm1, %xmm1
	movdqa	%xmm1, 384(%rsp)
	movdqa	%xmm1, 848(%rsp)
	movdqa	%xmm1, 624(%rsp)
	movdqa	%xmm1, 576(%rsp)
	movdqa	%xmm1, 560(%rsp)
	movdqa	%xmm1, 544(%rsp)
	movdqa	%xmm1, 528(%rsp)
	movdqa	%xmm1, 512(%rsp)
	movdqa	%xmm1, 496(%rsp)
	movdqa	%xmm1, 432(%rsp)
	movdqa	%xmm1, 816(%rsp)
	movdqa	%xmm1, 3104(%rsp)
	movdqa	%xmm1, 3120(%rsp)
	movdqa	%xmm1, 3136(%rsp)
	movdqa	%xmm1, 3152(%rsp)
	movdqa	%xmm1, 3168(%rsp)
	movdqa	%xmm1, 1456(%rsp)
	movdqa	%xmm1, 1472(%rsp)
	movdqa	%xmm1, 1488(%rsp)
	movdqa	%xmm1, 1504(%rsp)
	movdqa	%xmm1, 1520(%rsp)
	movdqa	%xmm1, 1536(%rsp)
	movq	$0, 1550(%rsp)
	testb	%r9b, %r9b
	je	19f
	xorl	%edi, %edi
	xorl	%r8d, %r8d
	xorl	%eax, %eax
	xorl	%r15d, %r15d
	xorl	%r12d, %r12d
	xorl	%r14d, %r14d
	xorl	%r13d, %r13d
	xorl	%ebp, %ebp
	xorl	%esi, %esi
	xorl	%ecx, %ecx
	xorl	%edx, %edx
	jmp	20f
19:
	movaps	1152(%rsp), %xmm1
	movaps	%xmm1, 384(%rsp)
	movaps	1136(%rsp), %xmm1
	movaps	%xmm1, 848(%rsp)
	movaps	1120(%rsp), %xmm1
	movaps	%xmm1, 624(%rsp)
	movaps	1104(%rsp), %xmm1
	movaps	%xmm1, 576(%rsp)
	movaps	1088(%rsp), %xmm1
	movaps	%xmm1, 560(%rsp)
	movaps	1072(%rsp), %xmm1
	movaps	%xmm1, 544(%rsp)
	movaps	1056(%rsp), %xmm1
	movaps	%xmm1, 528(%rsp)
	movaps	1040(%rsp), %xmm1
	movaps	%xmm1, 512(%rsp)
	movaps	1024(%rsp), %xmm1
	movaps	%xmm1, 496(%rsp)
	movaps	896(%rsp), %xmm1
	movaps	%xmm1, 432(%rsp)
	movaps	880(%rsp), %xmm1
	movaps	%xmm1, 816(%rsp)
	movaps	1008(%rsp), %xmm1
	movaps	%xmm1, 3168(%rsp)
	movaps	944(%rsp), %xmm1
	movaps	960(%rsp), %xmm2
	movaps	976(%rsp), %xmm3
	movaps	992(%rsp), %xmm4
	movaps	%xmm4, 3152(%rsp)
	movaps	%xmm3, 3136(%rsp)
	movaps	%xmm2, 3120(%rsp)
	movaps	%xmm1, 3104(%rsp)
	movq	3806(%rsp), %r10
	movq	%r10, 1550(%rsp)
	movaps	3792(%rsp), %xmm1
	movaps	%xmm1, 1536(%rsp)
	movaps	3776(%rsp), %xmm1
	movaps	%xmm1, 1520(%rsp)
	movaps	3712(%rsp), %xmm1
	movaps	3728(%rsp), %xmm2
	movaps	3744(%rsp), %xmm3
	movaps	3760(%rsp), %xmm4
	movaps	%xmm4, 1504(%rsp)
	movaps	%xmm3, 1488(%rsp)
	movaps	%xmm2, 1472(%rsp)
	movaps	%xmm1, 1456(%rsp)
	movdqa	%xmm0, %xmm1
20:
	movaps	384(%rsp), %xmm0
	movaps	%xmm0, 912(%rsp)
	movaps	848(%rsp), %xmm0
	movaps	%xmm0, 1440(%rsp)
	movaps	624(%rsp), %xmm0
	movaps	%xmm0, 1424(%rsp)
	movaps	576(%rsp), %xmm0
	movaps	%xmm0, 1408(%rsp)
	movaps	560(%rsp), %xmm0
	movaps	%xmm0, 1392(%rsp)
	movaps	544(%rsp), %xmm0
	movaps	%xmm0, 1376(%rsp)
	movaps	528(%rsp), %xmm0
	movaps	%xmm0, 1360(%rsp)
	movaps	512(%rsp), %xmm0
	movaps	%xmm0, 1344(%rsp)
	movaps	496(%rsp), %xmm0
	movaps	%xmm0, 1328(%rsp)
	movaps	432(%rsp), %xmm0
	movaps	%xmm0, 1312(%rsp)
	movaps	816(%rsp), %xmm0
	movaps	%xmm0, 1168(%rsp)
	movaps	3104(%rsp), %xmm0
	movaps	3120(%rsp), %xmm2
	movaps	3136(%rsp), %xmm3
	movaps	3152(%rsp), %xmm4
	movaps	%xmm0, 1184(%rsp)
	movaps	%xmm2, 1200(%rsp)
	movaps	%xmm3, 1216(%rsp)
	movaps	%xmm4, 1232(%rsp)
	movaps	3168(%rsp), %xmm0
	movaps	%xmm0, 1248(%rsp)
	movaps	1456(%rsp), %xmm0
	movdqa	1472(%rsp), %xmm2
	movdqa	1488(%rsp), %xmm3
	movdqa	1504(%rsp), %xmm4
	movaps	%xmm0, 2432(%rsp)
	movdqa	%xmm2, 2448(%rsp)
	movdqa	%xmm3, 2464(%rsp)
	movdqa	%xmm4, 2480(%rsp)
	movaps	1520(%rsp), %xmm0
	movaps	%xmm0, 2496(%rsp)
	movdqa	1536(%rsp), %xmm0
	movdqa	%xmm0, 2512(%rsp)
	movq	1550(%rsp), %r10
	movq	%r10, 2526(%rsp)
	testb	%r9b, %r9b
	je	25f
21:
	pxor	%xmm0, %xmm0
	movdqa	%xmm0, 1168(%rsp)
	movdqa	%xmm0, 1152(%rsp)
	movdqa	%xmm0, 1136(%rsp)
	movdqa	%xmm0, 1120(%rsp)
	movdqa	%xmm0, 1248(%rsp)
	movdqa	%xmm0, 1232(%rsp)
	movdqa	%xmm0, 1216(%rsp)
	movdqa	%xmm0, 1200(%rsp)
	movdqa	%xmm0, 1184(%rsp)
	movdqa	%xmm0, 2512(%rsp)
	movdqa	%xmm0, 2496(%rsp)
	movdqa	%xmm0, 2480(%rsp)
	movdqa	%xmm0, 2464(%rsp)
	movdqa	%xmm0, 2448(%rsp)
	movdqa	%xmm0, 2432(%rsp)
	movq	$0, 2526(%rsp)
	movq	488(%rsp), %r14
	cmpb	$0, 651(%r14)
	jne	28f
	cmpb	$1, 168(%r14)
	je	22f
	cmpb	$1, 192(%r14)
	jne	28f
22:
	movq	584(%r14), %rax
	cmpq	%rax, 592(%r14)
	je	193f
23:
	movq	576(%r14), %rcx
	imulq	$608, %rax, %rdx
	leaq	.Lbf4f69522365(%rip), %rsi
	movq	%rsi, (%rcx,%rdx)
	movq	$7, 8(%rcx,%rdx)
	movq	$1, 16(%rcx,%rdx)
	leaq	.L7de201737f33(%rip), %rdi
	movq	%rdi, 24(%rcx,%rdx)
	movq	$13, 32(%rcx,%rdx)
	pxor	%xmm0, %xmm0
	movdqu	%xmm0, 40(%rcx,%rdx)
	movq	$0, 56(%rcx,%rdx)
	movabsq	$369367187457, %rdi
	movq	%rdi, 64(%rcx,%rdx)
	movq	$1, 72(%rcx,%rdx)
	movq	%rsi, 80(%rcx,%rdx)
	movq	$7, 88(%rcx,%rdx)
	movq	%rsp, %rsi
	movq	%rsi, 96(%rcx,%rdx)
	movdqu	%xmm0, 104(%rcx,%rdx)
	movq	%rsi, 120(%rcx,%rdx)
	movdqu	%xmm0, 128(%rcx,%rdx)
	movq	%rsi, 144(%rcx,%rdx)
	movdqu	%xmm0, 152(%rcx,%rdx)
	movq	%rsi, 168(%rcx,%rdx)
	movdqu	%xmm0, 176(%rcx,%rdx)
	movq	%rsi, 192(%rcx,%rdx)
	movdqu	%xmm0, 200(%rcx,%rdx)
	movq	%rsi, 216(%rcx,%rdx)
	movdqu	%xmm0, 224(%rcx,%rdx)
	movq	%rsi, 240(%rcx,%rdx)
	movdqu	%xmm0, 248(%rcx,%rdx)
	movq	%rsi, 264(%rcx,%rdx)
	movdqu	%xmm0, 272(%rcx,%rdx)
	movq	%rsi, 288(%rcx,%rdx)
	movdqu	%xmm0, 296(%rcx,%rdx)
	movq	%rsi, 312(%rcx,%rdx)
	movdqu	%xmm0, 320(%rcx,%rdx)
	movq	$1, 336(%rcx,%rdx)
	movq	%rsi, 344(%rcx,%rdx)
	movq	$0, 352(%rcx,%rdx)
	movq	$1, 360(%rcx,%rdx)
	movq	%rsi, 368(%rcx,%rdx)
	movq	$0, 376(%rcx,%rdx)
	movq	%rsi, 384(%rcx,%rdx)
	movdqu	%xmm0, 392(%rcx,%rdx)
	movq	$1, 408(%rcx,%rdx)
	movq	%rsi, 416(%rcx,%rdx)
	movdqu	%xmm0, 488(%rcx,%rdx)
	movdqu	%xmm0, 472(%rcx,%rdx)
	movdqu	%xmm0, 456(%rcx,%rdx)
	movdqu	%xmm0, 440(%rcx,%rdx)
	movdqu	%xmm0, 424(%rcx,%rdx)
	movw	$2049, 504(%rcx,%rdx)
	movdqu	%xmm0, 586(%rcx,%rdx)
	movdqu	%xmm0, 570(%rcx,%rdx)
	movdqu	%xmm0, 554(%rcx,%rdx)
	movdqu	%xmm0, 538(%rcx,%rdx)
	movdqu	%xmm0, 522(%rcx,%rdx)
	movdqu	%xmm0, 506(%rcx,%rdx)
	movq	$0, 600(%rcx,%rdx)
	incq	%rax
	movq	%rax, 584(%r14)
	movdqa	%xmm0, 624(%rsp)
	movq	$0, 640(%rsp)
	movdqa	%xmm0, 1104(%rsp)
	movdqa	%xmm0, 1088(%rsp)
	movdqa	%xmm0, 1072(%rsp)
	movdqa	%xmm0, 1056(%rsp)
	movdqa	%xmm0, 1040(%rsp)
	movdqa	%xmm0, 1024(%rsp)
	movdqa	%xmm0, 896(%rsp)
	movdqa	%xmm0, 880(%rsp)
	movdqa	%xmm0, 1296(%rsp)
	movdqa	%xmm0, 1280(%rsp)
	movdqa	%xmm0, 1264(%rsp)
	movdqa	%xmm0, 944(%rsp)
	movdqa	%xmm0, 960(%rsp)
	movdqa	%xmm0, 976(%rsp)
	movdqa	%xmm0, 992(%rsp)
	movdqa	%xmm0, 1008(%rsp)
	movdqa	%xmm0, 3792(%rsp)
	movdqa	%xmm0, 3776(%rsp)
	movdqa	%xmm0, 3760(%rsp)
	movdqa	%xmm0, 3744(%rsp)
	movdqa	%xmm0, 3728(%rsp)
	movdqa	%xmm0, 3712(%rsp)
	movq	$0, 3806(%rsp)
	movb	$1, %r9b
	xorl	%edi, %edi
	xorl	%r8d, %r8d
	xorl	%edx, %edx
	xorl	%r10d, %r10d
	xorl	%r11d, %r11d
	xorl	%esi, %esi
	xorl	%eax, %eax
	xorl	%ecx, %ecx
24:
	pxor	%xmm1, %xmm1
	movdqa	%xmm1, 384(%rsp)
	movq	$0, 400(%rsp)
	movdqa	%xmm1, 576(%rsp)
	movdqa	%xmm1, 560(%rsp)
	movdqa	%xmm1, 544(%rsp)
	movdqa	%xmm1, 528(%rsp)
	movdqa	%xmm1, 512(%rsp)
	movdqa	%xmm1, 496(%rsp)
	movdqa	%xmm1, 432(%rsp)
	movdqa	%xmm1, 816(%rsp)
	movdqa	%xmm1, 912(%rsp)
	movdqa	%xmm1, 1440(%rsp)
	movdqa	%xmm1, 1424(%rsp)
	movdqa	%xmm1, 3104(%rsp)
	movdqa	%xmm1, 3120(%rsp)
	movdqa	%xmm1, 3136(%rsp)
	movdqa	%xmm1, 3152(%rsp)
	movdqa	%xmm1, 3168(%rsp)
	movdqa	%xmm1, 1536(%rsp)
	movdqa	%xmm1, 1520(%rsp)
	movdqa	%xmm1, 1504(%rsp)
	movdqa	%xmm1, 1488(%rsp)
	movdqa	%xmm1, 1472(%rsp)
	movdqa	%xmm1, 1456(%rsp)
	movq	$0, 1550(%rsp)
	testb	%r9b, %r9b
	je	26f
	xorl	%edi, %edi
	xorl	%r8d, %r8d
	xorl	%edx, %edx
	xorl	%r10d, %r10d
	xorl	%r11d, %r11d
	xorl	%esi, %esi
	xorl	%eax, %eax
	xorl	%ecx, %ecx
	jmp	27f
25:
	movq	%rdi, 1456(%rsp)
	movq	%r8, 1464(%rsp)
	movq	%rax, 1472(%rsp)
	movq	%r15, 1480(%rsp)
	movq	%r12, 1488(%rsp)
	movq	%r14, 1496(%rsp)
	movq	%r13, 1504(%rsp)
	movq	%rbp, 1512(%rsp)
	movq	%xmm1, 1520(%rsp)
	movq	%rax, 1528(%rsp)
	movq	%rdi, 1536(%rsp)
	movq	%r8, 1544(%rsp)
	movq	%rsi, 1552(%rsp)
	movaps	912(%rsp), %xmm0
	movups	%xmm0, 1560(%rsp)
	movq	%rsi, 1576(%rsp)
	movaps	1440(%rsp), %xmm0
	movups	%xmm0, 1584(%rsp)
	movq	%rsi, 1600(%rsp)
	movaps	1424(%rsp), %xmm0
	movups	%xmm0, 1608(%rsp)
	movq	%rsi, 1624(%rsp)
	movaps	1408(%rsp), %xmm0
	movups	%xmm0, 1632(%rsp)
	movq	%rsi, 1648(%rsp)
	movaps	1392(%rsp), %xmm0
	movups	%xmm0, 1656(%rsp)
	movq	%rsi, 1672(%rsp)
	movaps	1376(%rsp), %xmm0
	movups	%xmm0, 1680(%rsp)
	movq	%rsi, 1696(%rsp)
	movaps	1360(%rsp), %xmm0
	movups	%xmm0, 1704(%rsp)
	movq	%rsi, 1720(%rsp)
	movaps	1344(%rsp), %xmm0
	movups	%xmm0, 1728(%rsp)
	movq	%rsi, 1744(%rsp)
	movaps	1328(%rsp), %xmm0
	movups	%xmm0, 1752(%rsp)
	movq	%rsi, 1768(%rsp)
	movaps	1312(%rsp), %xmm0
	movups	%xmm0, 1776(%rsp)
	movq	%rax, 1792(%rsp)
	movq	%rsi, 1800(%rsp)
	movq	$0, 1808(%rsp)
	movq	%rax, 1816(%rsp)
	movq	%rsi, 1824(%rsp)
	movq	$0, 1832(%rsp)
	movq	%rsi, 1840(%rsp)
	movaps	1168(%rsp), %xmm0
	movups	%xmm0, 1848(%rsp)
	movq	%rax, 1864(%rsp)
	movq	%rsi, 1872(%rsp)
	movaps	1248(%rsp), %xmm0
	movups	%xmm0, 1944(%rsp)
	movaps	1184(%rsp), %xmm0
	movaps	1200(%rsp), %xmm1
	movaps	1216(%rsp), %xmm2
	movaps	1232(%rsp), %xmm3
	movups	%xmm3, 1928(%rsp)
	movups	%xmm2, 1912(%rsp)
	movups	%xmm1, 1896(%rsp)
	movups	%xmm0, 1880(%rsp)
	movb	%cl, 1960(%rsp)
	movb	%dl, 1961(%rsp)
	jmp	176f
26:
	movq	640(%rsp), %rbx
	movq	%rbx, 400(%rsp)
	movaps	624(%rsp), %xmm1
	movaps	%xmm1, 384(%rsp)
	movaps	1104(%rsp), %xmm1
	movaps	%xmm1, 576(%rsp)
	movaps	1088(%rsp), %xmm1
	movaps	%xmm1, 560(%rsp)
	movaps	1072(%rsp), %xmm1
	movaps	%xmm1, 544(%rsp)
	movaps	1056(%rsp), %xmm1
	movaps	%xmm1, 528(%rsp)
	movaps	1040(%rsp), %xmm1
	movaps	%xmm1, 512(%rsp)
	movaps	1024(%rsp), %xmm1
	movaps	%xmm1, 496(%rsp)
	movaps	896(%rsp), %xmm1
	movaps	%xmm1, 432(%rsp)
	movaps	880(%rsp), %xmm1
	movaps	%xmm1, 816(%rsp)
	movaps	1296(%rsp), %xmm1
	movaps	%xmm1, 912(%rsp)
	movaps	1280(%rsp), %xmm1
	movaps	%xmm1, 1440(%rsp)
	movaps	1264(%rsp), %xmm1
	movaps	%xmm1, 1424(%rsp)
	movaps	1008(%rsp), %xmm1
	movaps	%xmm1, 3168(%rsp)
	movaps	944(%rsp), %xmm1
	movaps	960(%rsp), %xmm2
	movaps	976(%rsp), %xmm3
	movaps	992(%rsp), %xmm4
	movaps	%xmm4, 3152(%rsp)
	movaps	%xmm3, 3136(%rsp)
	movaps	%xmm2, 3120(%rsp)
	movaps	%xmm1, 3104(%rsp)
	movq	3806(%rsp), %rbx
	movq	%rbx, 1550(%rsp)
	movaps	3792(%rsp), %xmm1
	movaps	%xmm1, 1536(%rsp)
	movaps	3776(%rsp), %xmm1
	movaps	%xmm1, 1520(%rsp)
	movaps	3712(%rsp), %xmm1
	movdqa	3728(%rsp), %xmm2
	movdqa	3744(%rsp), %xmm3
	movdqa	3760(%rsp), %xmm4
	movdqa	%xmm4, 1504(%rsp)
	movdqa	%xmm3, 1488(%rsp)
	movdqa	%xmm2, 1472(%rsp)
	movaps	%xmm1, 1456(%rsp)
	movdqa	%xmm0, %xmm1
27:
	movq	400(%rsp), %rbx
	movq	%rbx, 864(%rsp)
	movaps	384(%rsp), %xmm0
	movaps	%xmm0, 848(%rsp)
	movaps	576(%rsp), %xmm0
	movaps	%xmm0, 1408(%rsp)
	movaps	560(%rsp), %xmm0
	movaps	%xmm0, 1392(%rsp)
	movaps	544(%rsp), %xmm0
	movaps	%xmm0, 1376(%rsp)
	movaps	528(%rsp), %xmm0
	movaps	%xmm0, 1360(%rsp)
	movaps	512(%rsp), %xmm0
	movaps	%xmm0, 1344(%rsp)
	movaps	496(%rsp), %xmm0
	movaps	%xmm0, 1328(%rsp)
	movaps	432(%rsp), %xmm0
	movaps	%xmm0, 1312(%rsp)
	movaps	816(%rsp), %xmm0
	movaps	%xmm0, 1168(%rsp)
	movaps	912(%rsp), %xmm0
	movaps	%xmm0, 1152(%rsp)
	movaps	1440(%rsp), %xmm0
	movaps	%xmm0, 1136(%rsp)
	movaps	1424(%rsp), %xmm0
	movaps	%xmm0, 1120(%rsp)
	movaps	3104(%rsp), %xmm0
	movaps	3120(%rsp), %xmm2
	movaps	3136(%rsp), %xmm3
	movaps	3152(%rsp), %xmm4
	movaps	%xmm0, 1184(%rsp)
	movaps	%xmm2, 1200(%rsp)
	movaps	%xmm3, 1216(%rsp)
	movaps	%xmm4, 1232(%rsp)
	movaps	3168(%rsp), %xmm0
	movaps	%xmm0, 1248(%rsp)
	movq	1550(%rsp), %rbx
	movq	%rbx, 2526(%rsp)
	movaps	1536(%rsp), %xmm0
	movaps	%xmm0, 2512(%rsp)
	movaps	1520(%rsp), %xmm0
	movaps	%xmm0, 2496(%rsp)
	movdqa	1456(%rsp), %xmm0
	movdqa	1472(%rsp), %xmm2
	movdqa	1488(%rsp), %xmm3
	movdqa	1504(%rsp), %xmm4
	movdqa	%xmm4, 2480(%rsp)
	movdqa	%xmm3, 2464(%rsp)
	movdqa	%xmm2, 2448(%rsp)
	movdqa	%xmm0, 2432(%rsp)
	testb	%r9b, %r9b
	je	175f
28:
	leaq	3712(%rsp), %rdi
	movl	$658, %edx
	xorl	%esi, %esi
	callq	memset@PLT
	cmpb	$0, 655(%r14)
	jne	30f
	movzbl	653(%r14), %ebp
	leaq	1456(%rsp), %rbx
	movl	$680, %edx
	movq	%rbx, %rdi
	xorl	%esi, %esi
	callq	memset@PLT
	pxor	%xmm0, %xmm0
	movdqu	%xmm0, 2672(%rsp)
	movdqu	%xmm0, 2688(%rsp)
	movdqu	%xmm0, 2704(%rsp)
	movdqu	%xmm0, 2720(%rsp)
	movdqu	%xmm0, 2736(%rsp)
	movdqu	%xmm0, 2752(%rsp)
	movdqu	%xmm0, 2768(%rsp)
	movq	$0, 2784(%rsp)
	movdqu	%xmm0, 2800(%rsp)
	movdqu	%xmm0, 2824(%rsp)
	movdqu	%xmm0, 2848(%rsp)
	movdqu	%xmm0, 2864(%rsp)
	movdqu	%xmm0, 2880(%rsp)
	movdqu	%xmm0, 2896(%rsp)
	movdqu	%xmm0, 2912(%rsp)
	movdqu	%xmm0, 2928(%rsp)
	movdqu	%xmm0, 2944(%rsp)
	movdqu	%xmm0, 2960(%rsp)
	movdqu	%xmm0, 2976(%rsp)
	movdqu	%xmm0, 2992(%rsp)
	movdqu	%xmm0, 3016(%rsp)
	movdqu	%xmm0, 3040(%rsp)
	movdqu	%xmm0, 3064(%rsp)
	movdqu	%xmm0, 3080(%rsp)
	movq	$0, 3096(%rsp)
	leaq	.L8a62443031f8(%rip), %rax
	movq	%rax, 2432(%rsp)
	movq	$4, 2440(%rsp)
	movdqu	%xmm0, 2448(%rsp)
	movdqu	%xmm0, 2464(%rsp)
	movdqu	%xmm0, 2480(%rsp)
	movdqu	%xmm0, 2496(%rsp)
	movdqu	%xmm0, 2512(%rsp)
	movdqu	%xmm0, 2528(%rsp)
	movdqu	%xmm0, 2544(%rsp)
	movdqu	%xmm0, 2560(%rsp)
	movdqu	%xmm0, 2576(%rsp)
	movdqu	%xmm0, 2592(%rsp)
	movdqu	%xmm0, 2608(%rsp)
	movdqu	%xmm0, 2624(%rsp)
	movq	$0, 2640(%rsp)
	movq	$1, 2648(%rsp)
	leaq	.Lbd8f0e955afa(%rip), %rax
	movq	%rax, 2656(%rsp)
	movq	$57, 2664(%rsp)
	movq	%rsp, %rax
	movq	%rax, 2792(%rsp)
	movq	%rax, 2816(%rsp)
	movq	%rax, 2840(%rsp)
	movq	%rax, 3008(%rsp)
	movq	%rax, 3032(%rsp)
	movq	%rax, 3056(%rsp)
	leaq	.L6a680ce25e93(%rip), %rcx
	movq	%rcx, 3104(%rsp)
	movq	$10, 3112(%rsp)
	movq	$1, 3120(%rsp)
	leaq	.Le3776d12c9ab(%rip), %rcx
	movq	%rcx, 3128(%rsp)
	movq	$32, 3136(%rsp)
	movdqu	%xmm0, 3144(%rsp)
	movdqu	%xmm0, 3160(%rsp)
	movdqu	%xmm0, 3176(%rsp)
	movq	$0, 3192(%rsp)
	movq	%rax, 3200(%rsp)
	movdqu	%xmm0, 3208(%rsp)
	movq	%rax, 3224(%rsp)
	movdqu	%xmm0, 3232(%rsp)
	movq	%rax, 3248(%rsp)
	movdqu	%xmm0, 3256(%rsp)
	movq	%rax, 3272(%rsp)
	movdqu	%xmm0, 3280(%rsp)
	movq	%rax, 3296(%rsp)
	movdqu	%xmm0, 3304(%rsp)
	movq	%rax, 3320(%rsp)
	movdqu	%xmm0, 3328(%rsp)
	movq	%rax, 3344(%rsp)
	movdqu	%xmm0, 3352(%rsp)
	movq	%rax, 3368(%rsp)
	movdqu	%xmm0, 3376(%rsp)
	movq	%rax, 3392(%rsp)
	movdqu	%xmm0, 3400(%rsp)
	movq	%rax, 3416(%rsp)
	movdqu	%xmm0, 3424(%rsp)
	movq	$1, 3440(%rsp)
	movq	%rax, 3448(%rsp)
	movq	$0, 3456(%rsp)
	movq	$1, 3464(%rsp)
	movq	%rax, 3472(%rsp)
	movq	$0, 3480(%rsp)
	movq	%rax, 3488(%rsp)
	movdqu	%xmm0, 3496(%rsp)
	movq	$0, 3512(%rsp)
	leaq	.L5ced0f1dcfaa(%rip), %rax
	movq	%rax, 3520(%rsp)
	movq	$7, 3528(%rsp)
	movq	$1, 3536(%rsp)
	movq	$0, 3544(%rsp)
	movq	$-1, 3552(%rsp)
	movdqu	%xmm0, 3560(%rsp)
	movdqu	%xmm0, 3576(%rsp)
	movdqu	%xmm0, 3592(%rsp)
	movw	$257, 3608(%rsp)
	movdqu	%xmm0, 3610(%rsp)
	movdqu	%xmm0, 3626(%rsp)
	movdqu	%xmm0, 3642(%rsp)
	movdqu	%xmm0, 3658(%rsp)
	movdqu	%xmm0, 3674(%rsp)
	movdqu	%xmm0, 3690(%rsp)
	movq	$0, 3704(%rsp)
	leaq	2432(%rsp), %rsi
	leaq	3104(%rsp), %rdx
	movq	%rbx, %rdi
	callq	"clap::builder::command::Command::arg"
	cmpb	$0, 1456(%rsp)
	jne	178f
	leaq	1464(%rsp), %rsi
	movzbl	2116(%rsp), %r15d
	leaq	3719(%rsp), %r12
	movl	$651, %edx
	movq	%r12, %rdi
	callq	memcpy@PLT
	movups	2119(%rsp), %xmm0
	movaps	%xmm0, 1184(%rsp)
	movzbl	2135(%rsp), %eax
	movb	%al, 1200(%rsp)
	movq	608(%r14), %rbx
	movzbl	%r15b, %r15d
	movzbl	%bpl, %ebp
	cmpq	%rbx, 616(%r14)
	je	267f
29:
	movq	%r12, %rsi
	movq	600(%r14), %r12
	imulq	$672, %rbx, %r13
	leaq	(%r12,%r13), %rdi
	movl	$651, %edx
	callq	memcpy@PLT
	movdqa	3b(%rip), %xmm0
	pinsrb	$1, %r15d, %xmm0
	pinsrb	$2, %ebp, %xmm0
	movl	$1, %eax
	pinsrb	$3, %eax, %xmm0
	movd	%xmm0, 651(%r12,%r13)
	movdqa	1184(%rsp), %xmm0
	movdqu	%xmm0, 655(%r12,%r13)
	movzbl	1200(%rsp), %eax
	movb	%al, 671(%r12,%r13)
	incq	%rbx
	movq	%rbx, 608(%r14)
30:
	movq	576(%r14), %rax
	movq	584(%r14), %rcx
	movq	%rcx, 416(%rsp)
	movq	%rax, 608(%rsp)
	leaq	593(%rax), %rcx
	movq	$-1, %rax
	.p2align	4
31:
	incq	%rax
	cmpq	%rax, 416(%rsp)
	je	197f
	cmpb	$1, (%rcx)
	leaq	608(%rcx), %rcx
	jne	31b
	movq	608(%r14), %rax
	movq	%rax, 2408(%rsp)
	testq	%rax, %rax
	je	197f
	movzbl	655(%r14), %eax
	movb	%al, 351(%rsp)
	xorl	%eax, %eax
	jmp	33f
32:
	movq	2416(%rsp), %rax
	incq	%rax
	cmpq	2408(%rsp), %rax
	movq	488(%rsp), %r14
	je	196f
33:
	movq	600(%r14), %rcx
	movq	%rax, 2416(%rsp)
	imulq	$672, %rax, %rax
	pxor	%xmm0, %xmm0
	movdqa	%xmm0, 3712(%rsp)
	movq	$0, 3727(%rsp)
	movdqa	%xmm0, 1168(%rsp)
	movdqa	%xmm0, 1152(%rsp)
	movdqa	%xmm0, 1136(%rsp)
	movdqa	%xmm0, 1120(%rsp)
	movdqa	%xmm0, 1104(%rsp)
	movdqa	%xmm0, 1088(%rsp)
	movdqa	%xmm0, 1072(%rsp)
	movdqa	%xmm0, 1056(%rsp)
	movw	$0, 620(%rsp)
	movl	$0, 616(%rsp)
	movdqa	%xmm0, 1040(%rsp)
	movdqa	%xmm0, 1024(%rsp)
	movdqa	%xmm0, 3104(%rsp)
	movq	$0, 3119(%rsp)
	movdqa	%xmm0, 896(%rsp)
	movdqa	%xmm0, 880(%rsp)
	movdqa	%xmm0, 1296(%rsp)
	movdqa	%xmm0, 1280(%rsp)
	movdqa	%xmm0, 1264(%rsp)
	movdqa	%xmm0, 2384(%rsp)
	movdqa	%xmm0, 2368(%rsp)
	movdqa	%xmm0, 2352(%rsp)
	movw	$0, 484(%rsp)
	movl	$0, 480(%rsp)
	movdqa	%xmm0, 2336(%rsp)
	movdqa	%xmm0, 2320(%rsp)
	movdqa	%xmm0, 1184(%rsp)
	movq	$0, 1199(%rsp)
	movdqa	%xmm0, 2304(%rsp)
	movdqa	%xmm0, 2288(%rsp)
	movdqa	%xmm0, 2272(%rsp)
	movdqa	%xmm0, 2256(%rsp)
	movdqa	%xmm0, 2240(%rsp)
	movdqa	%xmm0, 2224(%rsp)
	movdqa	%xmm0, 2208(%rsp)
	movdqa	%xmm0, 2192(%rsp)
	movw	$0, 476(%rsp)
	movl	$0, 472(%rsp)
	movdqa	%xmm0, 2176(%rsp)
	movdqa	%xmm0, 2160(%rsp)
	movdqa	%xmm0, 944(%rsp)
	movq	$0, 959(%rsp)
	movdqa	%xmm0, 800(%rsp)
	movdqa	%xmm0, 784(%rsp)
	movdqa	%xmm0, 768(%rsp)
	movdqa	%xmm0, 752(%rsp)
	movdqa	%xmm0, 736(%rsp)
	movdqa	%xmm0, 720(%rsp)
	movdqa	%xmm0, 704(%rsp)
	movdqa	%xmm0, 688(%rsp)
	movw	$0, 20(%rsp)
	movl	$0, 16(%rsp)
	movdqa	%xmm0, 672(%rsp)
	movdqa	%xmm0, 656(%rsp)
	movq	%rcx, 224(%rsp)
	movq	%rax, 448(%rsp)
	cmpq	$4, 8(%rcx,%rax)
	jne	34f
	movq	224(%rsp), %rax
	movq	448(%rsp), %rcx
	movq	(%rax,%rcx), %rax
	movl	(%rax), %eax
	movq	%rax, %rcx
	shlq	$32, %rcx
	orq	%rax, %rcx
	movabsq	$8100961328969835880, %rax
	cmpq	%rax, %rcx
	jne	34f
	cmpb	$0, 351(%rsp)
	je	32b
34:
	xorl	%eax, %eax
	jmp	38f
35:
	movq	%rcx, 176(%rsp)
	leaq	3111(%rsp), %rcx
	movups	(%rcx), %xmm0
	leaq	1463(%rsp), %rcx
	movups	%xmm0, (%rcx)
	movaps	896(%rsp), %xmm0
	movaps	%xmm0, 2432(%rsp)
	movaps	880(%rsp), %xmm0
	movaps	%xmm0, 384(%rsp)
	movaps	1296(%rsp), %xmm0
	movaps	%xmm0, 848(%rsp)
	movaps	1280(%rsp), %xmm0
	movaps	%xmm0, 624(%rsp)
	movaps	1264(%rsp), %xmm0
	movaps	%xmm0, 576(%rsp)
	movaps	2384(%rsp), %xmm0
	movaps	%xmm0, 560(%rsp)
	movaps	2368(%rsp), %xmm0
	movaps	%xmm0, 544(%rsp)
	movaps	2352(%rsp), %xmm0
	movaps	%xmm0, 528(%rsp)
	movzwl	484(%rsp), %ecx
	movw	%cx, 436(%rsp)
	movl	480(%rsp), %ecx
	movl	%ecx, 432(%rsp)
	movaps	2336(%rsp), %xmm0
	movaps	%xmm0, 512(%rsp)
	movaps	2320(%rsp), %xmm0
	movaps	%xmm0, 496(%rsp)
	movdqa	%xmm1, %xmm0
36:
	leaq	1463(%rsp), %rcx
	movups	(%rcx), %xmm1
	leaq	3719(%rsp), %rcx
	movups	%xmm1, (%rcx)
	movaps	2432(%rsp), %xmm1
	movaps	%xmm1, 1168(%rsp)
	movaps	384(%rsp), %xmm1
	movaps	%xmm1, 1152(%rsp)
	movaps	848(%rsp), %xmm1
	movaps	%xmm1, 1136(%rsp)
	movaps	624(%rsp), %xmm1
	movaps	%xmm1, 1120(%rsp)
	movaps	576(%rsp), %xmm1
	movaps	%xmm1, 1104(%rsp)
	movaps	560(%rsp), %xmm1
	movaps	%xmm1, 1088(%rsp)
	movaps	544(%rsp), %xmm1
	movaps	%xmm1, 1072(%rsp)
	movaps	528(%rsp), %xmm1
	movaps	%xmm1, 1056(%rsp)
	movzwl	436(%rsp), %ecx
	movw	%cx, 620(%rsp)
	movl	432(%rsp), %ecx
	movl	%ecx, 616(%rsp)
	movaps	512(%rsp), %xmm1
	movaps	%xmm1, 1040(%rsp)
	movdqa	496(%rsp), %xmm1
	movdqa	%xmm1, 1024(%rsp)
	testb	%al, %al
	je	190f
37:
	movq	600(%rsp), %rax
	incq	%rax
	cmpq	416(%rsp), %rax
	je	32b
38:
	movq	%rax, 600(%rsp)
	imulq	$608, %rax, %r14
	movq	608(%rsp), %rax
	cmpb	$1, 593(%rax,%r14)
	jne	37b
	addq	608(%rsp), %r14
	movq	224(%rsp), %rax
	movq	448(%rsp), %rcx
	movq	584(%rax,%rcx), %rax
	testq	%rax, %rax
	je	46f
	movq	(%r14), %rcx
	movq	8(%r14), %r15
	leaq	-16(%r15), %rdx
	cmpq	$32, %rdx
	movl	$32, %edi
	cmovbq	%rdx, %rdi
	leaq	-8(%r15), %r8
	cmpq	$8, %r8
	movl	$8, %r9d
	cmovbq	%r8, %r9
	cmpq	$16, %r8
	movl	$16, %r10d
	cmovbq	%r8, %r10
	movq	224(%rsp), %rdx
	movq	448(%rsp), %rsi
	movq	576(%rdx,%rsi), %r11
	movq	%r15, %rbp
	shrq	%rbp
	xorl	%r12d, %r12d
	jmp	41f
39:
	movl	(%r13), %edx
	movl	-4(%r13,%r15), %ebx
	shlq	$32, %rbx
	orq	%rdx, %rbx
	bswapq	%rbx
	movl	(%rcx), %r13d
	movl	-4(%rcx,%r15), %edx
	shlq	$32, %rdx
	orq	%r13, %rdx
	bswapq	%rdx
	cmpq	%rdx, %rbx
	je	37b
	.p2align	4
40:
	incq	%r12
	cmpq	%rax, %r12
	je	46f
41:
	imulq	$608, %r12, %rdx
	cmpq	%r15, 8(%r11,%rdx)
	jne	40b
	movq	(%r11,%rdx), %r13
	cmpq	$7, %r15
	ja	42f
	cmpq	$4, %r15
	jae	39b
	testq	%r15, %r15
	je	37b
	movzbl	(%r13), %edx
	movzbl	(%r13,%rbp), %esi
	shll	$16, %edx
	shll	$8, %esi
	orl	%edx, %esi
	movzbl	-1(%r13,%r15), %ebx
	orq	%rsi, %rbx
	movzbl	(%rcx), %edx
	movzbl	(%rcx,%rbp), %esi
	shll	$16, %edx
	shll	$8, %esi
	orl	%edx, %esi
	movzbl	-1(%rcx,%r15), %edx
	orq	%rsi, %rdx
	cmpq	%rdx, %rbx
	jne	40b
	jmp	37b
	.p2align	4
42:
	cmpq	$32, %r15
	ja	43f
	movq	(%r13), %rdx
	cmpq	(%rcx), %rdx
	jne	40b
	movq	(%rcx,%r9), %rdx
	cmpq	%rdx, (%r13,%r9)
	jne	40b
	movq	(%rcx,%r10), %rdx
	cmpq	%rdx, (%r13,%r10)
	jne	40b
	movq	(%rcx,%r8), %rdx
	cmpq	%rdx, (%r13,%r8)
	jne	40b
	jmp	37b
43:
	cmpq	$65, %r15
	jae	44f
	movdqu	(%r13), %xmm0
	movdqu	16(%r13), %xmm1
	movdqu	(%rcx), %xmm2
	pcmpeqb	%xmm0, %xmm2
	movdqu	16(%rcx), %xmm3
	pcmpeqb	%xmm1, %xmm3
	pcmpeqd	%xmm1, %xmm1
	pxor	%xmm1, %xmm2
	pxor	%xmm1, %xmm3
	por	%xmm2, %xmm3
	movdqu	(%r13,%rdi), %xmm0
	movdqu	(%rcx,%rdi), %xmm2
	pcmpeqb	%xmm0, %xmm2
	pxor	%xmm1, %xmm2
	leaq	-16(%r15), %rdx
	movdqu	(%r13,%rdx), %xmm4
	movdqu	(%rcx,%rdx), %xmm0
	pcmpeqb	%xmm4, %xmm0
	pxor	%xmm1, %xmm0
	por	%xmm2, %xmm0
	por	%xmm3, %xmm0
	ptest	4b(%rip), %xmm0
	jne	40b
	jmp	37b
44:
	xorl	%ebx, %ebx
	movq	%r15, %rdx
	.p2align	4
45:
	movdqu	(%r13,%rbx), %xmm0
	movdqu	16(%r13,%rbx), %xmm1
	movdqu	32(%r13,%rbx), %xmm2
	movdqu	48(%r13,%rbx), %xmm3
	movdqu	(%rcx,%rbx), %xmm4
	pcmpeqb	%xmm0, %xmm4
	movdqu	16(%rcx,%rbx), %xmm0
	pcmpeqb	%xmm1, %xmm0
	pand	%xmm4, %xmm0
	movdqu	32(%rcx,%rbx), %xmm1
	pcmpeqb	%xmm2, %xmm1
	movdqu	48(%rcx,%rbx), %xmm2
	pcmpeqb	%xmm3, %xmm2
	pand	%xmm1, %xmm2
	pand	%xmm0, %xmm2
	pmovmskb	%xmm2, %esi
	cmpl	$65535, %esi
	jne	40b
	addq	$64, %rbx
	addq	$-64, %rdx
	cmpq	$65, %rdx
	jae	45b
	movdqu	-64(%r13,%r15), %xmm0
	movdqu	-48(%r13,%r15), %xmm1
	movdqu	-32(%r13,%r15), %xmm2
	movdqu	-16(%r13,%r15), %xmm3
	movdqu	-64(%rcx,%r15), %xmm4
	pcmpeqb	%xmm0, %xmm4
	movdqu	-48(%rcx,%r15), %xmm5
	pcmpeqb	%xmm1, %xmm5
	movdqu	-32(%rcx,%r15), %xmm0
	pcmpeqb	%xmm2, %xmm0
	movdqu	-16(%rcx,%r15), %xmm1
	pcmpeqb	%xmm3, %xmm1
	pcmpeqd	%xmm2, %xmm2
	pxor	%xmm2, %xmm1
	pxor	%xmm2, %xmm0
	por	%xmm1, %xmm0
	pxor	%xmm2, %xmm4
	pxor	%xmm2, %xmm5
	por	%xmm4, %xmm5
	por	%xmm0, %xmm5
	pxor	%xmm0, %xmm0
	pcmpgtb	%xmm5, %xmm0
	ptest	4b(%rip), %xmm0
	jne	40b
	jmp	37b
	.p2align	4
46:
	pxor	%xmm0, %xmm0
	movdqa	%xmm0, 2432(%rsp)
	movq	$0, 2447(%rsp)
	movdqa	%xmm0, 624(%rsp)
	movdqa	%xmm0, 576(%rsp)
	movdqa	%xmm0, 560(%rsp)
	movdqa	%xmm0, 544(%rsp)
	movdqa	%xmm0, 528(%rsp)
	movdqa	%xmm0, 512(%rsp)
	movdqa	%xmm0, 496(%rsp)
	movdqa	%xmm0, 432(%rsp)
	movw	$0, 348(%rsp)
	movl	$0, 344(%rsp)
	movdqa	%xmm0, 816(%rsp)
	movdqa	%xmm0, 912(%rsp)
	movdqa	%xmm0, 1408(%rsp)
	movdqa	%xmm0, 1392(%rsp)
	movdqa	%xmm0, 1376(%rsp)
	movdqa	%xmm0, 1360(%rsp)
	movdqa	%xmm0, 1472(%rsp)
	movdqa	%xmm0, 1456(%rsp)
	movdqa	%xmm0, 1344(%rsp)
	movdqa	%xmm0, 1328(%rsp)
	movdqa	%xmm0, 1312(%rsp)
	movw	$0, 844(%rsp)
	movl	$0, 840(%rsp)
	movdqu	(%r14), %xmm1
	movdqa	%xmm1, 1440(%rsp)
	movzbl	16(%r14), %ebp
	testq	%rbp, %rbp
	je	47f
	movdqu	24(%r14), %xmm0
47:
	movdqa	%xmm0, 384(%rsp)
	movq	448(%rsp), %rdi
	movaps	384(%rsp), %xmm0
	movaps	%xmm0, 1424(%rsp)
	movzbl	40(%r14), %eax
	testq	%rax, %rax
	je	48f
	movups	48(%r14), %xmm0
	jmp	49f
48:
	xorps	%xmm0, %xmm0
49:
	movaps	%xmm0, 384(%rsp)
	movaps	384(%rsp), %xmm0
	movaps	%xmm0, 1408(%rsp)
	movzbl	64(%r14), %r10d
	testl	%r10d, %r10d
	je	50f
	movl	68(%r14), %r11d
	jmp	51f
50:
	xorl	%r11d, %r11d
51:
	movzbl	72(%r14), %ecx
	movq	%rcx, 88(%rsp)
	testq	%rcx, %rcx
	movq	%rax, 2144(%rsp)
	je	52f
	movups	80(%r14), %xmm0
	jmp	53f
52:
	xorps	%xmm0, %xmm0
53:
	movaps	%xmm0, 384(%rsp)
	movdqa	384(%rsp), %xmm0
	movdqa	%xmm0, 1392(%rsp)
	movq	104(%r14), %r8
	movq	%rsp, %r13
	movq	%r13, %r15
	testq	%r8, %r8
	je	58f
	movabsq	$384307168202282325, %rax
	cmpq	%rax, %r8
	ja	54f
	movq	96(%r14), %rbx
	leaq	(,%r8,8), %rax
	leaq	(%rax,%rax,2), %rdi
	movl	$8, %esi
	movq	%r8, %r15
	movl	%r10d, %r12d
	movl	%r11d, %r13d
	callq	rattle_alloc@PLT
	movl	%r13d, %r11d
	movq	%rsp, %r13
	movq	448(%rsp), %rdi
	testb	$1, %al
	je	54f
	movl	%r12d, %r10d
	movq	%r15, %r8
	movq	%rdx, %r15
	cmpq	$1, %r8
	jne	55f
	xorl	%eax, %eax
	jmp	57f
54:
	pxor	%xmm2, %xmm2
	leaq	951(%rsp), %rax
	movdqu	%xmm2, (%rax)
	movdqa	%xmm2, 800(%rsp)
	movdqa	%xmm2, 784(%rsp)
	movdqa	%xmm2, 768(%rsp)
	movdqa	%xmm2, 752(%rsp)
	movdqa	%xmm2, 736(%rsp)
	movdqa	%xmm2, 720(%rsp)
	movdqa	%xmm2, 704(%rsp)
	movdqa	%xmm2, 688(%rsp)
	movl	$0, 16(%rsp)
	movw	$0, 20(%rsp)
	movdqa	%xmm2, 672(%rsp)
	movdqa	%xmm2, 656(%rsp)
	xorl	%eax, %eax
	movq	$0, 48(%rsp)
	xorl	%r11d, %r11d
	movl	$0, 64(%rsp)
	xorl	%r10d, %r10d
	movq	$0, 88(%rsp)
	xorl	%r15d, %r15d
	movq	$0, 304(%rsp)
	movq	$0, 32(%rsp)
	xorl	%esi, %esi
	movq	$0, 24(%rsp)
	xorl	%ecx, %ecx
	movq	$0, 352(%rsp)
	xorl	%edx, %edx
	xorl	%r12d, %r12d
	pxor	%xmm0, %xmm0
	movq	$0, 40(%rsp)
	xorl	%r8d, %r8d
	xorl	%ebx, %ebx
	xorl	%r13d, %r13d
	xorl	%r14d, %r14d
	movq	$0, 72(%rsp)
	movq	$0, 80(%rsp)
	movq	$0, 96(%rsp)
	movq	$0, 120(%rsp)
	xorl	%r9d, %r9d
	movq	$0, 112(%rsp)
	movq	$0, 376(%rsp)
	movq	$0, 176(%rsp)
	movq	$0, 56(%rsp)
	movq	$0, 160(%rsp)
	movq	$0, 152(%rsp)
	movq	$0, 136(%rsp)
	movq	$0, 144(%rsp)
	movl	$0, 12(%rsp)
	movl	$0, 8(%rsp)
	movq	$0, 296(%rsp)
	movq	$0, 288(%rsp)
	movq	$0, 216(%rsp)
	movq	$0, 280(%rsp)
	movq	$0, 208(%rsp)
	movq	$0, 272(%rsp)
	movq	$0, 200(%rsp)
	movq	$0, 264(%rsp)
	movq	$0, 192(%rsp)
	movq	$0, 256(%rsp)
	movq	$0, 184(%rsp)
	movq	$0, 248(%rsp)
	movq	$0, 240(%rsp)
	movq	$0, 232(%rsp)
	movq	224(%rsp), %rbp
	jmp	77f
55:
	movq	%r8, %rcx
	movabsq	$576460752303423486, %rax
	andq	%rax, %rcx
	movl	$40, %edx
	xorl	%eax, %eax
	.p2align	4
56:
	movzbl	-24(%rbx,%rdx), %esi
	movups	-40(%rbx,%rdx), %xmm0
	movups	%xmm0, -40(%r15,%rdx)
	movb	%sil, -24(%r15,%rdx)
	movl	$0, -23(%r15,%rdx)
	movl	$0, -20(%r15,%rdx)
	movzbl	(%rbx,%rdx), %esi
	movdqu	-16(%rbx,%rdx), %xmm0
	movdqu	%xmm0, -16(%r15,%rdx)
	movb	%sil, (%r15,%rdx)
	movl	$0, 1(%r15,%rdx)
	movl	$0, 4(%r15,%rdx)
	addq	$2, %rax
	addq	$48, %rdx
	cmpq	%rax, %rcx
	jne	56b
	testb	$1, %r8b
	je	58f
57:
	shlq	$3, %rax
	leaq	(%rax,%rax,2), %rax
	movzbl	16(%rbx,%rax), %ecx
	movdqu	(%rbx,%rax), %xmm0
	movdqu	%xmm0, (%r15,%rax)
	movb	%cl, 16(%r15,%rax)
	movl	$0, 17(%r15,%rax)
	movl	$0, 20(%r15,%rax)
58:
	movq	128(%r14), %r9
	testq	%r9, %r9
	je	67f
	movq	%r9, %rax
	shrq	$60, %rax
	jne	60f
	movq	120(%r14), %r12
	leaq	(,%r9,8), %rdi
	movl	$4, %esi
	movq	%r8, %r13
	movq	%rbp, 48(%rsp)
	movq	%r9, %rbp
	movq	%r15, 56(%rsp)
	movl	%r10d, %r15d
	movl	%r11d, %ebx
	callq	rattle_alloc@PLT
	movl	%r15d, %r10d
	movq	56(%rsp), %r15
	movq	%rbp, %r9
	movq	48(%rsp), %rbp
	movq	%r13, %r8
	testb	$1, %al
	je	60f
	movl	%ebx, %r11d
	movq	%rdx, %r13
	cmpq	$5, %r9
	jb	59f
	leaq	(%r12,%r9,8), %rax
	addq	$-3, %rax
	cmpq	%r13, %rax
	jbe	62f
	leaq	(,%r9,8), %rax
	addq	%r13, %rax
	cmpq	%rax, %r12
	jae	62f
59:
	xorl	%eax, %eax
	jmp	64f
60:
	testq	%r8, %r8
	je	61f
	movq	%r15, %rdi
	callq	rattle_dealloc@PLT
61:
	pxor	%xmm2, %xmm2
	leaq	951(%rsp), %rax
	movdqu	%xmm2, (%rax)
	movdqa	%xmm2, 800(%rsp)
	movdqa	%xmm2, 784(%rsp)
	movdqa	%xmm2, 768(%rsp)
	movdqa	%xmm2, 752(%rsp)
	movdqa	%xmm2, 736(%rsp)
	movdqa	%xmm2, 720(%rsp)
	movdqa	%xmm2, 704(%rsp)
	movdqa	%xmm2, 688(%rsp)
	movl	$0, 16(%rsp)
	movw	$0, 20(%rsp)
	movdqa	%xmm2, 672(%rsp)
	movdqa	%xmm2, 656(%rsp)
	xorl	%eax, %eax
	movq	$0, 48(%rsp)
	xorl	%r11d, %r11d
	movl	$0, 64(%rsp)
	xorl	%r10d, %r10d
	movq	$0, 88(%rsp)
	xorl	%r15d, %r15d
	movq	$0, 304(%rsp)
	movq	$0, 32(%rsp)
	xorl	%esi, %esi
	movq	$0, 24(%rsp)
	xorl	%ecx, %ecx
	movq	$0, 352(%rsp)
	xorl	%edx, %edx
	xorl	%r12d, %r12d
	pxor	%xmm0, %xmm0
	movq	$0, 40(%rsp)
	xorl	%r8d, %r8d
	xorl	%ebx, %ebx
	xorl	%r13d, %r13d
	xorl	%r14d, %r14d
	movq	$0, 72(%rsp)
	movq	$0, 80(%rsp)
	movq	$0, 96(%rsp)
	movq	$0, 120(%rsp)
	xorl	%r9d, %r9d
	movq	$0, 112(%rsp)
	movq	$0, 376(%rsp)
	movq	$0, 176(%rsp)
	movq	$0, 56(%rsp)
	movq	$0, 160(%rsp)
	movq	$0, 152(%rsp)
	movq	$0, 136(%rsp)
	movq	$0, 144(%rsp)
	movl	$0, 12(%rsp)
	movl	$0, 8(%rsp)
	movq	$0, 296(%rsp)
	movq	$0, 288(%rsp)
	movq	$0, 216(%rsp)
	movq	$0, 280(%rsp)
	movq	$0, 208(%rsp)
	movq	$0, 272(%rsp)
	movq	$0, 200(%rsp)
	movq	$0, 264(%rsp)
	movq	$0, 192(%rsp)
	movq	$0, 256(%rsp)
	movq	$0, 184(%rsp)
	movq	$0, 248(%rsp)
	movq	$0, 240(%rsp)
	movq	$0, 232(%rsp)
	movq	448(%rsp), %rdi
	movq	224(%rsp), %rbp
	jmp	77f
62:
	movl	%r9d, %eax
	andl	$3, %eax
	movl	$4, %ecx
	cmovneq	%rax, %rcx
	movq	%r9, %rax
	subq	%rcx, %rax
	xorl	%ecx, %ecx
	.p2align	4
63:
	movdqu	(%r12,%rcx,8), %xmm0
	movdqu	16(%r12,%rcx,8), %xmm1
	movzbl	4(%r12,%rcx,8), %edx
	movd	%edx, %xmm2
	pinsrb	$8, 12(%r12,%rcx,8), %xmm2
	movzbl	20(%r12,%rcx,8), %edx
	movd	%edx, %xmm3
	pinsrb	$8, 28(%r12,%rcx,8), %xmm3
	psllq	$32, %xmm2
	pblendw	$51, %xmm0, %xmm2
	psllq	$32, %xmm3
	pblendw	$51, %xmm1, %xmm3
	movdqu	%xmm2, (%r13,%rcx,8)
	movdqu	%xmm3, 16(%r13,%rcx,8)
	addq	$4, %rcx
	cmpq	%rcx, %rax
	jne	63b
64:
	movl	%r9d, %edx
	subl	%eax, %edx
	leaq	1(%rax), %rcx
	testb	$1, %dl
	je	65f
	movl	(%r12,%rax,8), %edx
	movzbl	4(%r12,%rax,8), %esi
	shlq	$32, %rsi
	orq	%rdx, %rsi
	movq	%rsi, (%r13,%rax,8)
	movq	%rcx, %rax
65:
	cmpq	%rcx, %r9
	je	67f
	.p2align	4
66:
	movl	(%r12,%rax,8), %ecx
	movzbl	4(%r12,%rax,8), %edx
	shlq	$32, %rdx
	orq	%rcx, %rdx
	movq	%rdx, (%r13,%rax,8)
	movl	8(%r12,%rax,8), %ecx
	movzbl	12(%r12,%rax,8), %edx
	shlq	$32, %rdx
	orq	%rcx, %rdx
	movq	%rdx, 8(%r13,%rax,8)
	addq	$2, %rax
	cmpq	%rax, %r9
	jne	66b
67:
	movq	152(%r14), %rcx
	movq	%rsp, %r12
	testq	%rcx, %rcx
	movq	%r8, 304(%rsp)
	je	69f
	movabsq	$230584300921369395, %rax
	cmpq	%rax, %rcx
	ja	70f
	movq	144(%r14), %rbx
	leaq	(,%rcx,8), %rax
	leaq	(%rax,%rax,4), %rdi
	movl	$8, %esi
	movq	%rbp, 48(%rsp)
	movq	%r9, %rbp
	movq	%r15, 56(%rsp)
	movl	%r10d, %r15d
	movl	%r11d, %r12d
	movq	%rcx, 168(%rsp)
	callq	rattle_alloc@PLT
	movq	168(%rsp), %rcx
	movl	%r15d, %r10d
	movq	56(%rsp), %r15
	movq	%rbp, %r9
	movq	48(%rsp), %rbp
	testb	$1, %al
	je	70f
	movl	%r12d, %r11d
	movq	%rdx, %r12
	xorl	%eax, %eax
	.p2align	4
68:
	movzbl	(%rbx,%rax), %edx
	movups	8(%rbx,%rax), %xmm0
	movaps	%xmm0, 384(%rsp)
	movups	24(%rbx,%rax), %xmm0
	movaps	%xmm0, 848(%rsp)
	movq	%rdx, (%r12,%rax)
	movaps	384(%rsp), %xmm0
	movups	%xmm0, 8(%r12,%rax)
	movdqa	848(%rsp), %xmm0
	movdqu	%xmm0, 24(%r12,%rax)
	addq	$40, %rax
	decq	%rcx
	jne	68b
	movq	304(%rsp), %r8
	movq	168(%rsp), %rcx
69:
	movq	%rbp, %rdi
	movq	176(%r14), %rbp
	movq	%rsp, %rax
	movq	%rax, 352(%rsp)
	testq	%rbp, %rbp
	movq	%r9, 104(%rsp)
	movq	%rdi, 48(%rsp)
	movq	%r13, 32(%rsp)
	je	90f
	movabsq	$576460752303423486, %rax
	addq	$2, %rax
	cmpq	%rax, %rbp
	jae	82f
	movq	168(%r14), %rbx
	movq	%rbp, %rdi
	shlq	$4, %rdi
	movl	$8, %esi
	movl	%r10d, %r13d
	movq	%r12, 24(%rsp)
	movl	%r11d, %r12d
	movq	%rcx, 168(%rsp)
	callq	rattle_alloc@PLT
	movq	168(%rsp), %rcx
	movl	%r12d, %r11d
	movq	24(%rsp), %r12
	testb	$1, %al
	je	82f
	movl	%r13d, %r10d
	cmpq	$1, %rbp
	movq	%rdx, 352(%rsp)
	jne	87f
	xorl	%eax, %eax
	movq	304(%rsp), %r8
	movq	32(%rsp), %r13
	movq	104(%rsp), %r9
	jmp	89f
70:
	testq	%r9, %r9
	je	71f
	movq	%r13, %rdi
	callq	rattle_dealloc@PLT
71:
	cmpq	$0, 304(%rsp)
	movq	224(%rsp), %rbp
	je	73f
72:
	movq	%r15, %rdi
	callq	rattle_dealloc@PLT
73:
	pxor	%xmm2, %xmm2
	leaq	951(%rsp), %rax
	movdqu	%xmm2, (%rax)
74:
	movdqa	%xmm2, 800(%rsp)
	movdqa	%xmm2, 784(%rsp)
	movdqa	%xmm2, 768(%rsp)
	movdqa	%xmm2, 752(%rsp)
	movdqa	%xmm2, 736(%rsp)
	movdqa	%xmm2, 720(%rsp)
	movdqa	%xmm2, 704(%rsp)
	movdqa	%xmm2, 688(%rsp)
	movl	$0, 16(%rsp)
	movw	$0, 20(%rsp)
	movdqa	%xmm2, 672(%rsp)
75:
	movdqa	%xmm2, 656(%rsp)
76:
	xorl	%eax, %eax
	movq	$0, 48(%rsp)
	xorl	%r11d, %r11d
	movl	$0, 64(%rsp)
	xorl	%r10d, %r10d
	movq	$0, 88(%rsp)
	xorl	%r15d, %r15d
	movq	$0, 304(%rsp)
	movq	$0, 32(%rsp)
	xorl	%esi, %esi
	movq	$0, 24(%rsp)
	xorl	%ecx, %ecx
	movq	$0, 352(%rsp)
	xorl	%edx, %edx
	xorl	%r12d, %r12d
	pxor	%xmm0, %xmm0
	movq	$0, 40(%rsp)
	xorl	%r8d, %r8d
	xorl	%ebx, %ebx
	xorl	%r13d, %r13d
	xorl	%r14d, %r14d
	movq	$0, 72(%rsp)
	movq	$0, 80(%rsp)
	movq	$0, 96(%rsp)
	movq	$0, 120(%rsp)
	xorl	%r9d, %r9d
	movq	$0, 112(%rsp)
	movq	$0, 376(%rsp)
	movq	$0, 176(%rsp)
	movq	$0, 56(%rsp)
	movq	$0, 160(%rsp)
	movq	$0, 152(%rsp)
	movq	$0, 136(%rsp)
	movq	$0, 144(%rsp)
	movl	$0, 12(%rsp)
	movl	$0, 8(%rsp)
	movq	$0, 296(%rsp)
	movq	$0, 288(%rsp)
	movq	$0, 216(%rsp)
	movq	$0, 280(%rsp)
	movq	$0, 208(%rsp)
	movq	$0, 272(%rsp)
	movq	$0, 200(%rsp)
	movq	$0, 264(%rsp)
	movq	$0, 192(%rsp)
	movq	$0, 256(%rsp)
	movq	$0, 184(%rsp)
	movq	$0, 248(%rsp)
	movq	$0, 240(%rsp)
	movq	$0, 232(%rsp)
	movq	448(%rsp), %rdi
77:
	pxor	%xmm1, %xmm1
	movdqa	%xmm1, 1456(%rsp)
	movq	$0, 1471(%rsp)
	movdqa	%xmm1, 2432(%rsp)
	movdqa	%xmm1, 384(%rsp)
	movdqa	%xmm1, 848(%rsp)
	movdqa	%xmm1, 624(%rsp)
	movdqa	%xmm1, 576(%rsp)
	movdqa	%xmm1, 560(%rsp)
	movdqa	%xmm1, 544(%rsp)
	movdqa	%xmm1, 528(%rsp)
	movl	$0, 432(%rsp)
	movw	$0, 436(%rsp)
	movdqa	%xmm1, 512(%rsp)
	movdqa	%xmm1, 496(%rsp)
	testb	%al, %al
	je	78f
	movq	%rbx, 424(%rsp)
	movq	%rcx, %rbx
	leaq	951(%rsp), %rcx
	movups	(%rcx), %xmm1
	leaq	1463(%rsp), %rcx
	movups	%xmm1, (%rcx)
	movaps	800(%rsp), %xmm1
	movaps	%xmm1, 2432(%rsp)
	movaps	784(%rsp), %xmm1
	movaps	%xmm1, 384(%rsp)
	movaps	768(%rsp), %xmm1
	movaps	%xmm1, 848(%rsp)
	movaps	752(%rsp), %xmm1
	movaps	%xmm1, 624(%rsp)
	movaps	736(%rsp), %xmm1
	movaps	%xmm1, 576(%rsp)
	movaps	720(%rsp), %xmm1
	movaps	%xmm1, 560(%rsp)
	movaps	704(%rsp), %xmm1
	movaps	%xmm1, 544(%rsp)
	movaps	688(%rsp), %xmm1
	movaps	%xmm1, 528(%rsp)
	movzwl	20(%rsp), %ecx
	movw	%cx, 436(%rsp)
	movl	16(%rsp), %ecx
	movl	%ecx, 432(%rsp)
	movaps	672(%rsp), %xmm1
	movaps	%xmm1, 512(%rsp)
	movaps	656(%rsp), %xmm1
	movaps	%xmm1, 496(%rsp)
	movdqa	%xmm0, %xmm1
	jmp	79f
78:
	movq	$0, 48(%rsp)
	xorl	%r11d, %r11d
	movl	$0, 64(%rsp)
	xorl	%r10d, %r10d
	movq	$0, 88(%rsp)
	xorl	%r15d, %r15d
	movq	$0, 304(%rsp)
	movq	$0, 32(%rsp)
	xorl	%esi, %esi
	movq	$0, 24(%rsp)
	xorl	%ebx, %ebx
	movq	$0, 352(%rsp)
	xorl	%edx, %edx
	xorl	%r12d, %r12d
	movq	$0, 40(%rsp)
	pxor	%xmm2, %xmm2
	xorl	%r8d, %r8d
	movq	$0, 424(%rsp)
	xorl	%r13d, %r13d
	xorl	%r14d, %r14d
	movq	$0, 72(%rsp)
	movq	$0, 80(%rsp)
	movq	$0, 96(%rsp)
	movq	$0, 120(%rsp)
	xorl	%r9d, %r9d
	movq	$0, 112(%rsp)
	movq	$0, 376(%rsp)
	movq	$0, 176(%rsp)
	movq	$0, 56(%rsp)
	movq	$0, 160(%rsp)
	movq	$0, 152(%rsp)
	movq	$0, 136(%rsp)
	movq	$0, 144(%rsp)
	movl	$0, 12(%rsp)
	movl	$0, 8(%rsp)
	movq	$0, 296(%rsp)
	movq	$0, 288(%rsp)
	movq	$0, 216(%rsp)
	movq	$0, 280(%rsp)
	movq	$0, 208(%rsp)
	movq	$0, 272(%rsp)
	movq	$0, 200(%rsp)
	movq	$0, 264(%rsp)
	movq	$0, 192(%rsp)
	movq	$0, 256(%rsp)
	movq	$0, 184(%rsp)
	movq	$0, 248(%rsp)
	movq	$0, 240(%rsp)
	movq	$0, 232(%rsp)
79:
	leaq	1463(%rsp), %rcx
	movups	(%rcx), %xmm0
	leaq	1191(%rsp), %rcx
	movups	%xmm0, (%rcx)
	movaps	2432(%rsp), %xmm0
	movaps	%xmm0, 2304(%rsp)
	movaps	384(%rsp), %xmm0
	movaps	%xmm0, 2288(%rsp)
	movaps	848(%rsp), %xmm0
	movaps	%xmm0, 2272(%rsp)
	movaps	624(%rsp), %xmm0
	movaps	%xmm0, 2256(%rsp)
	movaps	576(%rsp), %xmm0
	movaps	%xmm0, 2240(%rsp)
	movaps	560(%rsp), %xmm0
	movaps	%xmm0, 2224(%rsp)
	movaps	544(%rsp), %xmm0
	movaps	%xmm0, 2208(%rsp)
	movaps	528(%rsp), %xmm0
	movaps	%xmm0, 2192(%rsp)
	movzwl	436(%rsp), %ecx
	movw	%cx, 476(%rsp)
	movl	432(%rsp), %ecx
	movl	%ecx, 472(%rsp)
	movaps	512(%rsp), %xmm0
	movaps	%xmm0, 2176(%rsp)
	movaps	496(%rsp), %xmm0
	movaps	%xmm0, 2160(%rsp)
	testb	%al, %al
	je	178f
	movq	%r13, 408(%rsp)
	movq	%r8, %r13
	movq	%r12, %r8
	movq	%r11, %r12
	movq	%rdx, 128(%rsp)
	movq	584(%rbp,%rdi), %rax
	cmpq	%rax, 592(%rbp,%rdi)
	je	85f
80:
	leaq	1191(%rsp), %rcx
	movups	(%rcx), %xmm0
	movq	576(%rbp,%rdi), %rcx
	imulq	$608, %rax, %rdx
	movups	%xmm0, (%rcx,%rdx)
	movq	%rbp, %r11
	movq	48(%rsp), %rbp
	movq	%rbp, 16(%rcx,%rdx)
	movaps	2304(%rsp), %xmm0
	movups	%xmm0, 24(%rcx,%rdx)
	movq	%r12, 40(%rcx,%rdx)
	movaps	2288(%rsp), %xmm0
	movups	%xmm0, 48(%rcx,%rdx)
	movl	64(%rsp), %ebp
	movl	%ebp, 64(%rcx,%rdx)
	movl	%r10d, 68(%rcx,%rdx)
	movq	88(%rsp), %r10
	movq	%r10, 72(%rcx,%rdx)
	movaps	2272(%rsp), %xmm0
	movups	%xmm0, 80(%rcx,%rdx)
	movq	%r15, 96(%rcx,%rdx)
	movq	304(%rsp), %r10
	movq	%r10, 104(%rcx,%rdx)
	movq	%r10, 112(%rcx,%rdx)
	movq	32(%rsp), %r10
	movq	%r10, 120(%rcx,%rdx)
	movq	%rsi, 128(%rcx,%rdx)
	movq	%rsi, 136(%rcx,%rdx)
	movq	24(%rsp), %rsi
	movq	%rsi, 144(%rcx,%rdx)
	movq	%rbx, 152(%rcx,%rdx)
	movq	%rbx, 160(%rcx,%rdx)
	movq	352(%rsp), %rsi
	movq	%rsi, 168(%rcx,%rdx)
	movq	128(%rsp), %r12
	movq	%r12, 176(%rcx,%rdx)
	movq	%r12, 184(%rcx,%rdx)
	movq	%r8, 192(%rcx,%rdx)
	movq	40(%rsp), %rsi
	movq	%rsi, 200(%rcx,%rdx)
	movq	%rsi, 208(%rcx,%rdx)
	movq	%r13, 216(%rcx,%rdx)
	movq	424(%rsp), %rsi
	movq	%rsi, 224(%rcx,%rdx)
	movq	%rsi, 232(%rcx,%rdx)
	movq	408(%rsp), %rsi
	movq	%rsi, 240(%rcx,%rdx)
	movq	%r14, 248(%rcx,%rdx)
	movq	%r14, 256(%rcx,%rdx)
	movq	72(%rsp), %rsi
	movq	%rsi, 264(%rcx,%rdx)
	movq	80(%rsp), %rsi
	movq	%rsi, 272(%rcx,%rdx)
	movq	%rsi, 280(%rcx,%rdx)
	movq	96(%rsp), %rsi
	movq	%rsi, 288(%rcx,%rdx)
	movq	120(%rsp), %rsi
	movq	%rsi, 296(%rcx,%rdx)
	movq	%rsi, 304(%rcx,%rdx)
	movq	%r9, 312(%rcx,%rdx)
	movq	112(%rsp), %rsi
	movq	%rsi, 320(%rcx,%rdx)
	movq	%rsi, 328(%rcx,%rdx)
	movq	376(%rsp), %rsi
	movq	%rsi, 336(%rcx,%rdx)
	movaps	2256(%rsp), %xmm0
	movups	%xmm0, 344(%rcx,%rdx)
	movq	176(%rsp), %rsi
	movq	%rsi, 360(%rcx,%rdx)
	movaps	2240(%rsp), %xmm0
	movups	%xmm0, 368(%rcx,%rdx)
	movq	56(%rsp), %rsi
	movq	%rsi, 384(%rcx,%rdx)
	movq	160(%rsp), %rsi
	movq	%rsi, 392(%rcx,%rdx)
	movq	152(%rsp), %rsi
	movq	%rsi, 400(%rcx,%rdx)
	movq	136(%rsp), %rsi
	movq	%rsi, 408(%rcx,%rdx)
	movaps	2224(%rsp), %xmm0
	movups	%xmm0, 416(%rcx,%rdx)
	movq	144(%rsp), %rsi
	movq	%rsi, 432(%rcx,%rdx)
	movaps	2208(%rsp), %xmm0
	movups	%xmm0, 440(%rcx,%rdx)
	movl	12(%rsp), %esi
	movl	%esi, 456(%rcx,%rdx)
	movl	8(%rsp), %esi
	movl	%esi, 460(%rcx,%rdx)
	movq	296(%rsp), %rsi
	movq	%rsi, 464(%rcx,%rdx)
	movaps	2192(%rsp), %xmm0
	movups	%xmm0, 472(%rcx,%rdx)
	movq	288(%rsp), %rsi
	movq	%rsi, 488(%rcx,%rdx)
	movq	216(%rsp), %rsi
	movq	%rsi, 496(%rcx,%rdx)
	movq	280(%rsp), %rsi
	movb	%sil, 504(%rcx,%rdx)
	movq	208(%rsp), %rsi
	movb	%sil, 505(%rcx,%rdx)
	movzwl	476(%rsp), %esi
	movw	%si, 510(%rcx,%rdx)
	movl	472(%rsp), %esi
	movl	%esi, 506(%rcx,%rdx)
	movq	272(%rsp), %rsi
	movq	%rsi, 512(%rcx,%rdx)
	movq	200(%rsp), %rsi
	movq	%rsi, 520(%rcx,%rdx)
	movaps	2176(%rsp), %xmm0
	movups	%xmm0, 528(%rcx,%rdx)
	movq	264(%rsp), %rsi
	movq	%rsi, 544(%rcx,%rdx)
	movq	192(%rsp), %rsi
	movq	%rsi, 552(%rcx,%rdx)
	movq	256(%rsp), %rsi
	movq	%rsi, 560(%rcx,%rdx)
	movq	184(%rsp), %rsi
	movq	%rsi, 568(%rcx,%rdx)
	movdqa	2160(%rsp), %xmm0
	movdqu	%xmm0, 576(%rcx,%rdx)
	movq	%xmm2, 592(%rcx,%rdx)
	movd	%xmm1, 600(%rcx,%rdx)
	movq	248(%rsp), %rsi
	movb	%sil, 604(%rcx,%rdx)
	movq	240(%rsp), %rsi
	movb	%sil, 605(%rcx,%rdx)
	movq	232(%rsp), %rsi
	movb	%sil, 606(%rcx,%rdx)
	movb	$0, 607(%rcx,%rdx)
	incq	%rax
	movq	%rax, 584(%r11,%rdi)
	pxor	%xmm2, %xmm2
	leaq	3111(%rsp), %rax
	movdqu	%xmm2, (%rax)
	movdqa	%xmm2, 896(%rsp)
	movdqa	%xmm2, 880(%rsp)
	movdqa	%xmm2, 1296(%rsp)
	movdqa	%xmm2, 1280(%rsp)
	movdqa	%xmm2, 1264(%rsp)
	movdqa	%xmm2, 2384(%rsp)
	movdqa	%xmm2, 2368(%rsp)
	movdqa	%xmm2, 2352(%rsp)
	movl	$0, 480(%rsp)
	movw	$0, 484(%rsp)
	movdqa	%xmm2, 2336(%rsp)
	movdqa	%xmm2, 2320(%rsp)
	movb	$1, %al
	movq	$0, 48(%rsp)
	xorl	%r12d, %r12d
	movl	$0, 64(%rsp)
	movl	$0, 340(%rsp)
	movq	$0, 88(%rsp)
	xorl	%r15d, %r15d
	movq	$0, 304(%rsp)
	movq	$0, 32(%rsp)
	movq	$0, 104(%rsp)
	movq	$0, 24(%rsp)
	xorl	%ebx, %ebx
	movq	$0, 352(%rsp)
	movq	$0, 128(%rsp)
	movq	$0, 328(%rsp)
	pxor	%xmm1, %xmm1
	xorl	%r8d, %r8d
	xorl	%r13d, %r13d
	movq	$0, 424(%rsp)
	movq	$0, 408(%rsp)
	xorl	%r14d, %r14d
	xorl	%r10d, %r10d
	xorl	%r11d, %r11d
	xorl	%esi, %esi
	xorl	%ebp, %ebp
	xorl	%r9d, %r9d
	xorl	%edx, %edx
	xorl	%edi, %edi
	xorl	%ecx, %ecx
	movq	$0, 56(%rsp)
	movq	$0, 160(%rsp)
	movq	$0, 152(%rsp)
	movq	$0, 136(%rsp)
	movq	$0, 144(%rsp)
	movl	$0, 12(%rsp)
	movl	$0, 8(%rsp)
	movq	$0, 296(%rsp)
	movq	$0, 288(%rsp)
	movq	$0, 216(%rsp)
	movq	$0, 280(%rsp)
	movq	$0, 208(%rsp)
	movq	$0, 272(%rsp)
	movq	$0, 200(%rsp)
	movq	$0, 264(%rsp)
	movq	$0, 192(%rsp)
	movq	$0, 256(%rsp)
	movq	$0, 184(%rsp)
	movq	$0, 248(%rsp)
	movq	$0, 240(%rsp)
	movq	$0, 232(%rsp)
81:
	pxor	%xmm0, %xmm0
	movdqa	%xmm0, 1456(%rsp)
	movq	$0, 1471(%rsp)
	movdqa	%xmm0, 2432(%rsp)
	movdqa	%xmm0, 384(%rsp)
	movdqa	%xmm0, 848(%rsp)
	movdqa	%xmm0, 624(%rsp)
	movdqa	%xmm0, 576(%rsp)
	movdqa	%xmm0, 560(%rsp)
	movdqa	%xmm0, 544(%rsp)
	movdqa	%xmm0, 528(%rsp)
	movl	$0, 432(%rsp)
	movw	$0, 436(%rsp)
	movdqa	%xmm0, 512(%rsp)
	movdqa	%xmm0, 496(%rsp)
	testb	%al, %al
	je	35b
	movq	$0, 48(%rsp)
	xorl	%r12d, %r12d
	movl	$0, 64(%rsp)
	movl	$0, 340(%rsp)
	movq	$0, 88(%rsp)
	xorl	%r15d, %r15d
	movq	$0, 304(%rsp)
	movq	$0, 32(%rsp)
	movq	$0, 104(%rsp)
	movq	$0, 24(%rsp)
	xorl	%ebx, %ebx
	movq	$0, 352(%rsp)
	movq	$0, 128(%rsp)
	movq	$0, 328(%rsp)
	xorl	%r8d, %r8d
	pxor	%xmm2, %xmm2
	xorl	%r13d, %r13d
	movq	$0, 424(%rsp)
	movq	$0, 408(%rsp)
	xorl	%r14d, %r14d
	xorl	%r10d, %r10d
	xorl	%r11d, %r11d
	xorl	%esi, %esi
	xorl	%ebp, %ebp
	xorl	%r9d, %r9d
	xorl	%edx, %edx
	xorl	%edi, %edi
	movq	$0, 176(%rsp)
	movq	$0, 56(%rsp)
	movq	$0, 160(%rsp)
	movq	$0, 152(%rsp)
	movq	$0, 136(%rsp)
	movq	$0, 144(%rsp)
	movl	$0, 12(%rsp)
	movl	$0, 8(%rsp)
	movq	$0, 296(%rsp)
	movq	$0, 288(%rsp)
	movq	$0, 216(%rsp)
	movq	$0, 280(%rsp)
	movq	$0, 208(%rsp)
	movq	$0, 272(%rsp)
	movq	$0, 200(%rsp)
	movq	$0, 264(%rsp)
	movq	$0, 192(%rsp)
	movq	$0, 256(%rsp)
	movq	$0, 184(%rsp)
	movq	$0, 248(%rsp)
	movq	$0, 240(%rsp)
	movq	$0, 232(%rsp)
	jmp	36b
82:
	testq	%rcx, %rcx
	je	83f
	movq	%r12, %rdi
	callq	rattle_dealloc@PLT
83:
	cmpq	$0, 104(%rsp)
	movq	224(%rsp), %rbp
	je	84f
	movq	32(%rsp), %rdi
	callq	rattle_dealloc@PLT
84:
	cmpq	$0, 304(%rsp)
	jne	72b
	jmp	73b
85:
	movdqa	%xmm1, 928(%rsp)
	movq	%r9, 168(%rsp)
	movdqa	%xmm2, 2144(%rsp)
	movq	%r8, 328(%rsp)
	movl	%r10d, 340(%rsp)
	movq	%rsi, 104(%rsp)
	movq	%rbp, %rax
	movq	%rdi, %rbp
	addq	%rax, %rdi
	addq	$576, %rdi
	callq	"std_alloc::vec::Vec::grow_amortized::<#cb15977fd34c773c>"
	testb	%al, %al
	je	86f
	movq	224(%rsp), %rcx
	movq	584(%rcx,%rbp), %rax
	movq	%rbp, %rdi
	movq	104(%rsp), %rsi
	movl	340(%rsp), %r10d
	movq	328(%rsp), %r8
	movq	%rcx, %rbp
	movdqa	2144(%rsp), %xmm2
	movq	168(%rsp), %r9
	movdqa	928(%rsp), %xmm1
	jmp	80b
86:
	leaq	1191(%rsp), %rax
	movups	(%rax), %xmm0
	leaq	3111(%rsp), %rax
	movups	%xmm0, (%rax)
	movaps	2304(%rsp), %xmm0
	movaps	%xmm0, 896(%rsp)
	movaps	2288(%rsp), %xmm0
	movaps	%xmm0, 880(%rsp)
	movaps	2272(%rsp), %xmm0
	movaps	%xmm0, 1296(%rsp)
	movaps	2256(%rsp), %xmm0
	movaps	%xmm0, 1280(%rsp)
	movaps	2240(%rsp), %xmm0
	movaps	%xmm0, 1264(%rsp)
	movaps	2224(%rsp), %xmm0
	movaps	%xmm0, 2384(%rsp)
	movaps	2208(%rsp), %xmm0
	movaps	%xmm0, 2368(%rsp)
	movaps	2192(%rsp), %xmm0
	movaps	%xmm0, 2352(%rsp)
	movzwl	476(%rsp), %eax
	movw	%ax, 484(%rsp)
	movl	472(%rsp), %eax
	movl	%eax, 480(%rsp)
	movaps	2176(%rsp), %xmm0
	movaps	%xmm0, 2336(%rsp)
	movdqa	2160(%rsp), %xmm0
	movdqa	%xmm0, 2320(%rsp)
	xorl	%eax, %eax
	movdqa	2144(%rsp), %xmm2
	movq	168(%rsp), %r9
	movq	40(%rsp), %r8
	movq	72(%rsp), %r10
	movq	80(%rsp), %r11
	movq	96(%rsp), %rsi
	movq	120(%rsp), %rbp
	movq	112(%rsp), %rdx
	movq	376(%rsp), %rdi
	movq	176(%rsp), %rcx
	movdqa	928(%rsp), %xmm1
	jmp	81b
87:
	movq	%rbp, %rdi
	movabsq	$576460752303423486, %rax
	andq	%rax, %rbp
	movl	$24, %esi
	xorl	%eax, %eax
	movq	304(%rsp), %r8
	movq	32(%rsp), %r13
	movq	104(%rsp), %r9
	.p2align	4
88:
	movups	-24(%rbx,%rsi), %xmm0
	movups	%xmm0, -24(%rdx,%rsi)
	movdqu	-8(%rbx,%rsi), %xmm0
	movdqu	%xmm0, -8(%rdx,%rsi)
	addq	$2, %rax
	addq	$32, %rsi
	cmpq	%rax, %rbp
	jne	88b
	movq	%rdi, %rbp
	testb	$1, %bpl
	movq	168(%rsp), %rcx
	je	90f
89:
	shlq	$4, %rax
	movdqu	(%rbx,%rax), %xmm0
	movq	352(%rsp), %rdx
	movdqu	%xmm0, (%rdx,%rax)
90:
	movq	%rcx, 168(%rsp)
	movq	200(%r14), %rcx
	movq	%rsp, %rax
	movq	%rax, 328(%rsp)
	testq	%rcx, %rcx
	je	98f
	movabsq	$576460752303423486, %rax
	addq	$2, %rax
	cmpq	%rax, %rcx
	jae	91f
	movq	192(%r14), %rbx
	movq	%rcx, %rdi
	shlq	$4, %rdi
	movl	$8, %esi
	movq	%r12, 24(%rsp)
	movl	%r10d, 64(%rsp)
	movl	%r11d, %r12d
	movq	%rbp, 128(%rsp)
	movq	%rcx, 40(%rsp)
	callq	rattle_alloc@PLT
	movq	40(%rsp), %rcx
	movl	%r12d, %r11d
	movl	64(%rsp), %r10d
	movq	304(%rsp), %r8
	movq	24(%rsp), %r12
	movq	%rdx, 328(%rsp)
	movq	128(%rsp), %rbp
	testb	$1, %al
	je	91f
	cmpq	$1, %rcx
	jne	95f
	xorl	%eax, %eax
	movq	104(%rsp), %r9
	jmp	97f
91:
	movq	%r8, %r14
	testq	%rbp, %rbp
	je	92f
	movq	352(%rsp), %rdi
	callq	rattle_dealloc@PLT
92:
	cmpq	$0, 168(%rsp)
	movq	224(%rsp), %rbp
	je	93f
	movq	%r12, %rdi
	callq	rattle_dealloc@PLT
93:
	cmpq	$0, 104(%rsp)
	je	94f
	movq	%r13, %rdi
	callq	rattle_dealloc@PLT
94:
	testq	%r14, %r14
	jne	72b
	jmp	73b
95:
	movabsq	$576460752303423486, %rax
	andq	%rax, %rcx
	movl	$24, %edx
	xorl	%eax, %eax
	movq	104(%rsp), %r9
	movq	328(%rsp), %rsi
96:
	movups	-24(%rbx,%rdx), %xmm0
	movups	%xmm0, -24(%rsi,%rdx)
	movdqu	-8(%rbx,%rdx), %xmm0
	movdqu	%xmm0, -8(%rsi,%rdx)
	addq	$2, %rax
	addq	$32, %rdx
	cmpq	%rax, %rcx
	jne	96b
	movq	40(%rsp), %rcx
	testb	$1, %cl
	movq	128(%rsp), %rbp
	je	98f
97:
	shlq	$4, %rax
	movdqu	(%rbx,%rax), %xmm0
	movq	328(%rsp), %rsi
	movdqu	%xmm0, (%rsi,%rax)
98:
	movq	224(%r14), %rsi
	movq	%rsp, %rdi
	movq	%rdi, %r8
	testq	%rsi, %rsi
	movq	%rbp, 128(%rsp)
	je	100f
	movq	%rsi, %rax
	shrq	$58, %rax
	jne	103f
	movq	%rsi, %r13
	movq	216(%r14), %rbx
	movq	%rsi, %rdi
	shlq	$5, %rdi
	movl	$8, %esi
	movq	%r9, %rbp
	movq	%r15, 56(%rsp)
	movl	%r10d, %r15d
	movq	%r12, 24(%rsp)
	movl	%r11d, %r12d
	movq	%rcx, 40(%rsp)
	callq	rattle_alloc@PLT
	movq	%rsp, %rdi
	movq	40(%rsp), %rcx
	movl	%r12d, %r11d
	movq	24(%rsp), %r12
	movl	%r15d, %r10d
	movq	56(%rsp), %r15
	movq	%rbp, %r9
	testb	$1, %al
	je	103f
	movq	%rdx, %r8
	movl	$16, %eax
	movq	%r13, %rsi
99:
	movups	-16(%rbx,%rax), %xmm0
	movdqu	(%rbx,%rax), %xmm1
	movdqa	%xmm1, 384(%rsp)
	movups	%xmm0, -16(%r8,%rax)
	movdqa	384(%rsp), %xmm0
	movdqu	%xmm0, (%r8,%rax)
	addq	$32, %rax
	decq	%r13
	jne	99b
	movq	128(%rsp), %rbp
	movq	40(%rsp), %rcx
100:
	movq	%rsi, 424(%rsp)
	movq	248(%r14), %rdx
	movq	%rdi, %r13
	testq	%rdx, %rdx
	movq	%rcx, 40(%rsp)
	je	102f
	movq	%rdx, %rax
	shrq	$58, %rax
	jne	109f
	movq	240(%r14), %rbx
	movq	%rdx, %rdi
	shlq	$5, %rdi
	movl	$8, %esi
	movl	%r10d, 64(%rsp)
	movq	%r12, 24(%rsp)
	movl	%r11d, %r12d
	movq	%r8, %r13
	movq	%rdx, %rbp
	callq	rattle_alloc@PLT
	movq	%r13, %r8
	movl	%r12d, %r11d
	movq	24(%rsp), %r12
	movl	64(%rsp), %r10d
	movq	%rsp, %rdi
	testb	$1, %al
	je	109f
	movq	%rdx, %r13
	movl	$16, %eax
	movq	%rbp, %rsi
	movq	%rbp, %rcx
101:
	movups	-16(%rbx,%rax), %xmm0
	movdqu	(%rbx,%rax), %xmm1
	movdqa	%xmm1, 384(%rsp)
	movups	%xmm0, -16(%r13,%rax)
	movdqa	384(%rsp), %xmm0
	movdqu	%xmm0, (%r13,%rax)
	addq	$32, %rax
	decq	%rcx
	jne	101b
	movq	128(%rsp), %rbp
	movq	40(%rsp), %rcx
	movq	%rsi, %rdx
102:
	movq	%rdx, 928(%rsp)
	movq	272(%r14), %rdx
	movq	%rdi, 72(%rsp)
	movq	%rdx, 80(%rsp)
	testq	%rdx, %rdx
	movq	%r8, 592(%rsp)
	je	129f
	movabsq	$576460752303423486, %rax
	addq	$2, %rax
	movq	80(%rsp), %rdi
	cmpq	%rax, %rdi
	jae	116f
	movq	264(%r14), %rbx
	shlq	$4, %rdi
	movl	$8, %esi
	movq	%r13, 408(%rsp)
	movl	%r10d, %r13d
	movq	%r12, 24(%rsp)
	movl	%r11d, %r12d
	callq	rattle_alloc@PLT
	movq	80(%rsp), %rcx
	movl	%r12d, %r11d
	movq	24(%rsp), %r12
	movl	%r13d, %r10d
	movq	%rsp, %rdi
	movq	408(%rsp), %r13
	movq	128(%rsp), %rbp
	testb	$1, %al
	je	116f
	movq	%rdx, 72(%rsp)
	cmpq	$1, %rcx
	jne	126f
	xorl	%eax, %eax
	movq	40(%rsp), %rcx
	movq	592(%rsp), %r8
	jmp	128f
103:
	movq	%r9, %r14
	testq	%rcx, %rcx
	je	104f
	movq	328(%rsp), %rdi
	callq	rattle_dealloc@PLT
104:
	cmpq	$0, 128(%rsp)
	movq	224(%rsp), %rbp
	movq	352(%rsp), %rdi
	je	105f
	callq	rattle_dealloc@PLT
105:
	cmpq	$0, 168(%rsp)
	je	106f
	movq	%r12, %rdi
	callq	rattle_dealloc@PLT
106:
	testq	%r14, %r14
	je	107f
	movq	32(%rsp), %rdi
	callq	rattle_dealloc@PLT
107:
	cmpq	$0, 304(%rsp)
	je	108f
	movq	%r15, %rdi
	callq	rattle_dealloc@PLT
108:
	leaq	2439(%rsp), %rax
	movdqu	(%rax), %xmm0
	leaq	951(%rsp), %rax
	movdqu	%xmm0, (%rax)
	pxor	%xmm2, %xmm2
	jmp	74b
109:
	cmpq	$0, 424(%rsp)
	je	110f
	movq	%r8, %rdi
	callq	rattle_dealloc@PLT
110:
	cmpq	$0, 40(%rsp)
	movq	224(%rsp), %rbp
	movq	352(%rsp), %rbx
	je	111f
	movq	328(%rsp), %rdi
	callq	rattle_dealloc@PLT
111:
	cmpq	$0, 128(%rsp)
	je	112f
	movq	%rbx, %rdi
	callq	rattle_dealloc@PLT
112:
	cmpq	$0, 168(%rsp)
	je	113f
	movq	%r12, %rdi
	callq	rattle_dealloc@PLT
113:
	cmpq	$0, 104(%rsp)
	je	114f
	movq	32(%rsp), %rdi
	callq	rattle_dealloc@PLT
114:
	cmpq	$0, 304(%rsp)
	je	115f
	movq	%r15, %rdi
	callq	rattle_dealloc@PLT
115:
	leaq	2439(%rsp), %rax
	movups	(%rax), %xmm0
	leaq	951(%rsp), %rax
	movups	%xmm0, (%rax)
	movaps	624(%rsp), %xmm0
	movaps	%xmm0, 800(%rsp)
	movaps	576(%rsp), %xmm0
	movaps	%xmm0, 784(%rsp)
	movaps	560(%rsp), %xmm0
	movaps	%xmm0, 768(%rsp)
	movaps	544(%rsp), %xmm0
	movaps	%xmm0, 752(%rsp)
	movaps	528(%rsp), %xmm0
	movaps	%xmm0, 736(%rsp)
	movaps	512(%rsp), %xmm0
	movaps	%xmm0, 720(%rsp)
	movaps	496(%rsp), %xmm0
	movaps	%xmm0, 704(%rsp)
	movaps	432(%rsp), %xmm0
	movaps	%xmm0, 688(%rsp)
	movzwl	348(%rsp), %eax
	movw	%ax, 20(%rsp)
	movl	344(%rsp), %eax
	movl	%eax, 16(%rsp)
	movdqa	816(%rsp), %xmm0
	movdqa	%xmm0, 672(%rsp)
	pxor	%xmm2, %xmm2
	jmp	75b
116:
	movq	%rbp, %r14
	cmpq	$0, 928(%rsp)
	je	117f
	movq	%r13, %rdi
	callq	rattle_dealloc@PLT
117:
	cmpq	$0, 424(%rsp)
	movq	224(%rsp), %rbp
	movq	352(%rsp), %rbx
	je	118f
	movq	592(%rsp), %rdi
	callq	rattle_dealloc@PLT
118:
	cmpq	$0, 40(%rsp)
	je	119f
	movq	328(%rsp), %rdi
	callq	rattle_dealloc@PLT
119:
	testq	%r14, %r14
	je	121f
120:
	movq	%rbx, %rdi
	callq	rattle_dealloc@PLT
121:
	cmpq	$0, 168(%rsp)
	je	123f
	movq	%r12, %rdi
122:
	callq	rattle_dealloc@PLT
123:
	cmpq	$0, 104(%rsp)
	je	124f
	movq	32(%rsp), %rdi
	callq	rattle_dealloc@PLT
124:
	cmpq	$0, 304(%rsp)
	je	125f
	movq	%r15, %rdi
	callq	rattle_dealloc@PLT
125:
	leaq	2439(%rsp), %rax
	movups	(%rax), %xmm0
	leaq	951(%rsp), %rax
	movups	%xmm0, (%rax)
	movaps	624(%rsp), %xmm0
	movaps	%xmm0, 800(%rsp)
	movaps	576(%rsp), %xmm0
	movaps	%xmm0, 784(%rsp)
	movaps	560(%rsp), %xmm0
	movaps	%xmm0, 768(%rsp)
	movaps	544(%rsp), %xmm0
	movaps	%xmm0, 752(%rsp)
	movaps	528(%rsp), %xmm0
	movaps	%xmm0, 736(%rsp)
	movaps	512(%rsp), %xmm0
	movaps	%xmm0, 720(%rsp)
	movaps	496(%rsp), %xmm0
	movaps	%xmm0, 704(%rsp)
	movaps	432(%rsp), %xmm0
	movaps	%xmm0, 688(%rsp)
	movzwl	348(%rsp), %eax
	movw	%ax, 20(%rsp)
	movl	344(%rsp), %eax
	movl	%eax, 16(%rsp)
	movaps	816(%rsp), %xmm0
	movaps	%xmm0, 672(%rsp)
	movdqa	912(%rsp), %xmm0
	movdqa	%xmm0, 656(%rsp)
	pxor	%xmm2, %xmm2
	jmp	76b
126:
	movabsq	$576460752303423486, %rax
	andq	%rax, %rcx
	movl	$24, %edx
	xorl	%eax, %eax
	movq	592(%rsp), %r8
	movq	72(%rsp), %rsi
127:
	movups	-24(%rbx,%rdx), %xmm0
	movups	%xmm0, -24(%rsi,%rdx)
	movdqu	-8(%rbx,%rdx), %xmm0
	movdqu	%xmm0, -8(%rsi,%rdx)
	addq	$2, %rax
	addq	$32, %rdx
	cmpq	%rax, %rcx
	jne	127b
	testb	$1, 80(%rsp)
	movq	40(%rsp), %rcx
	je	129f
128:
	shlq	$4, %rax
	movdqu	(%rbx,%rax), %xmm0
	movq	72(%rsp), %rdx
	movdqu	%xmm0, (%rdx,%rax)
129:
	movq	296(%r14), %rdx
	movq	%rdi, 96(%rsp)
	movq	%rdx, 120(%rsp)
	testq	%rdx, %rdx
	movq	%r13, 408(%rsp)
	je	139f
	movabsq	$576460752303423486, %rax
	addq	$2, %rax
	movq	120(%rsp), %rbp
	cmpq	%rax, %rbp
	jae	130f
	movq	288(%r14), %rbx
	movq	%rbp, %rdi
	shlq	$4, %rdi
	movl	$8, %esi
	movl	%r10d, %r13d
	movq	%r12, 24(%rsp)
	movl	%r11d, %r12d
	callq	rattle_alloc@PLT
	movq	592(%rsp), %r8
	movq	40(%rsp), %rcx
	movl	%r12d, %r11d
	movq	24(%rsp), %r12
	movq	%rsp, %rdi
	movq	%rdx, 96(%rsp)
	testb	$1, %al
	je	130f
	movl	%r13d, %r10d
	cmpq	$1, %rbp
	jne	136f
	xorl	%eax, %eax
	movq	408(%rsp), %r13
	jmp	138f
130:
	movq	%r8, %r13
	movq	%rcx, %r14
	cmpq	$0, 80(%rsp)
	je	131f
	movq	72(%rsp), %rdi
	callq	rattle_dealloc@PLT
131:
	cmpq	$0, 928(%rsp)
	movq	224(%rsp), %rbp
	movq	352(%rsp), %rbx
	je	132f
	movq	408(%rsp), %rdi
	callq	rattle_dealloc@PLT
132:
	cmpq	$0, 424(%rsp)
	je	133f
	movq	%r13, %rdi
	callq	rattle_dealloc@PLT
133:
	testq	%r14, %r14
	je	135f
134:
	movq	328(%rsp), %rdi
	callq	rattle_dealloc@PLT
135:
	cmpq	$0, 128(%rsp)
	jne	120b
	jmp	121b
136:
	movabsq	$576460752303423486, %rax
	andq	%rax, %rbp
	movl	$24, %edx
	xorl	%eax, %eax
	movq	408(%rsp), %r13
	movq	96(%rsp), %rsi
137:
	movups	-24(%rbx,%rdx), %xmm0
	movups	%xmm0, -24(%rsi,%rdx)
	movdqu	-8(%rbx,%rdx), %xmm0
	movdqu	%xmm0, -8(%rsi,%rdx)
	addq	$2, %rax
	addq	$32, %rdx
	cmpq	%rax, %rbp
	jne	137b
	testb	$1, 120(%rsp)
	je	139f
138:
	shlq	$4, %rax
	movdqu	(%rbx,%rax), %xmm0
	movq	96(%rsp), %rdx
	movdqu	%xmm0, (%rdx,%rax)
139:
	movq	320(%r14), %rcx
	testq	%rcx, %rcx
	je	148f
	movabsq	$576460752303423486, %rax
	addq	$2, %rax
	cmpq	%rax, %rcx
	jae	140f
	movq	312(%r14), %rbx
	movq	%rcx, %rdi
	shlq	$4, %rdi
	movl	$8, %esi
	movq	%r13, %rbp
	movl	%r10d, %r13d
	movq	%r12, 24(%rsp)
	movl	%r11d, %r12d
	movq	%rcx, 112(%rsp)
	callq	rattle_alloc@PLT
	movq	112(%rsp), %rcx
	movl	%r12d, %r11d
	movq	24(%rsp), %r12
	movl	%r13d, %r10d
	movq	%rbp, %r13
	testb	$1, %al
	je	140f
	movq	%rdx, %rdi
	cmpq	$1, %rcx
	jne	145f
	xorl	%eax, %eax
	jmp	147f
140:
	cmpq	$0, 120(%rsp)
	je	141f
	movq	96(%rsp), %rdi
	callq	rattle_dealloc@PLT
141:
	cmpq	$0, 80(%rsp)
	movq	224(%rsp), %rbp
	movq	352(%rsp), %rbx
	movq	928(%rsp), %r14
	je	142f
	movq	72(%rsp), %rdi
	callq	rattle_dealloc@PLT
142:
	testq	%r14, %r14
	je	143f
	movq	%r13, %rdi
	callq	rattle_dealloc@PLT
143:
	cmpq	$0, 424(%rsp)
	je	144f
	movq	592(%rsp), %rdi
	callq	rattle_dealloc@PLT
144:
	cmpq	$0, 40(%rsp)
	jne	134b
	jmp	135b
145:
	movabsq	$576460752303423486, %rax
	andq	%rax, %rcx
	movl	$24, %edx
	xorl	%eax, %eax
146:
	movups	-24(%rbx,%rdx), %xmm0
	movups	%xmm0, -24(%rdi,%rdx)
	movdqu	-8(%rbx,%rdx), %xmm0
	movdqu	%xmm0, -8(%rdi,%rdx)
	addq	$2, %rax
	addq	$32, %rdx
	cmpq	%rax, %rcx
	jne	146b
	movq	112(%rsp), %rcx
	testb	$1, %cl
	je	148f
147:
	shlq	$4, %rax
	movdqu	(%rbx,%rax), %xmm0
	movdqu	%xmm0, (%rdi,%rax)
148:
	movl	%r11d, 340(%rsp)
	movq	%rcx, 112(%rsp)
	movq	%rdi, %r13
	movq	%r12, 24(%rsp)
	movl	%r10d, %ebx
	movzbl	336(%r14), %ebp
	movups	344(%r14), %xmm0
	movaps	%xmm0, 1376(%rsp)
	movzbl	360(%r14), %r12d
	movdqu	368(%r14), %xmm0
	movdqa	%xmm0, 1360(%rsp)
	movq	384(%r14), %rsi
	movq	392(%r14), %rdx
	leaq	1456(%rsp), %rdi
	callq	"std_alloc::vec::makes::VecClone::clone::<#451bfd629f355fb6>"
	cmpb	$0, 1456(%rsp)
	je	156f
	cmpq	$0, 112(%rsp)
	movq	224(%rsp), %rbp
	movq	24(%rsp), %rbx
	je	149f
	movq	%r13, %rdi
	callq	rattle_dealloc@PLT
149:
	cmpq	$0, 120(%rsp)
	movq	352(%rsp), %r14
	movq	328(%rsp), %r12
	je	150f
	movq	96(%rsp), %rdi
	callq	rattle_dealloc@PLT
150:
	cmpq	$0, 80(%rsp)
	movq	408(%rsp), %r13
	je	151f
	movq	72(%rsp), %rdi
	callq	rattle_dealloc@PLT
151:
	cmpq	$0, 928(%rsp)
	je	152f
	movq	%r13, %rdi
	callq	rattle_dealloc@PLT
152:
	cmpq	$0, 424(%rsp)
	je	153f
	movq	592(%rsp), %rdi
	callq	rattle_dealloc@PLT
153:
	cmpq	$0, 40(%rsp)
	je	154f
	movq	%r12, %rdi
	callq	rattle_dealloc@PLT
154:
	cmpq	$0, 128(%rsp)
	je	155f
	movq	%r14, %rdi
	callq	rattle_dealloc@PLT
155:
	cmpq	$0, 168(%rsp)
	je	123b
	movq	%rbx, %rdi
	jmp	122b
156:
	movq	%r12, 176(%rsp)
	movq	%rbp, 376(%rsp)
	movzbl	432(%r14), %eax
	testq	%rax, %rax
	movq	224(%rsp), %rbp
	movl	%ebx, 64(%rsp)
	movq	%rax, 144(%rsp)
	je	157f
	movdqu	440(%r14), %xmm0
	jmp	158f
157:
	pxor	%xmm0, %xmm0
158:
	movdqa	%xmm0, 384(%rsp)
	movq	448(%rsp), %rdi
	movq	104(%rsp), %rsi
	movq	2144(%rsp), %r11
	movl	340(%rsp), %r10d
	movq	128(%rsp), %rdx
	movq	592(%rsp), %r8
	movq	1464(%rsp), %rax
	movq	1472(%rsp), %rcx
	movq	%rcx, 160(%rsp)
	movq	1480(%rsp), %r9
	movq	%r9, 152(%rsp)
	movzbl	408(%r14), %r9d
	movq	%r9, 136(%rsp)
	movaps	384(%rsp), %xmm0
	movaps	%xmm0, 1344(%rsp)
	movzbl	456(%r14), %r9d
	movl	%r9d, 12(%rsp)
	testl	%r9d, %r9d
	movq	%r13, %r9
	movq	328(%rsp), %r12
	movq	424(%rsp), %rbx
	movq	%rax, 56(%rsp)
	je	159f
	movl	460(%r14), %r13d
	movl	%r13d, 8(%rsp)
	jmp	160f
159:
	movl	$0, 8(%rsp)
160:
	movq	408(%rsp), %r13
	movzbl	464(%r14), %eax
	movq	%rax, 296(%rsp)
	testq	%rax, %rax
	je	161f
	movups	472(%r14), %xmm0
	jmp	162f
161:
	xorps	%xmm0, %xmm0
162:
	movaps	%xmm0, 384(%rsp)
	movaps	384(%rsp), %xmm0
	movaps	%xmm0, 1328(%rsp)
	movzbl	488(%r14), %eax
	testq	%rax, %rax
	je	163f
	movq	496(%r14), %rcx
	movq	%rcx, 216(%rsp)
	jmp	164f
163:
	movq	$0, 216(%rsp)
164:
	movzbl	504(%r14), %ecx
	movq	%rcx, 280(%rsp)
	testb	%cl, %cl
	movq	%rax, 288(%rsp)
	je	165f
	movzbl	505(%r14), %eax
	movq	%rax, 208(%rsp)
	jmp	166f
165:
	movq	$0, 208(%rsp)
166:
	movzbl	512(%r14), %eax
	testq	%rax, %rax
	je	167f
	movzbl	520(%r14), %ecx
	movq	%rcx, 200(%rsp)
	movups	528(%r14), %xmm0
	movaps	%xmm0, 384(%rsp)
	jmp	168f
167:
	xorps	%xmm0, %xmm0
	movaps	%xmm0, 384(%rsp)
	movq	$0, 200(%rsp)
168:
	movaps	384(%rsp), %xmm0
	movaps	%xmm0, 1312(%rsp)
	movzbl	544(%r14), %ecx
	testq	%rcx, %rcx
	movq	%rax, 272(%rsp)
	je	169f
	movq	552(%r14), %rax
	movq	%rax, 192(%rsp)
	jmp	170f
169:
	movq	$0, 192(%rsp)
170:
	movzbl	560(%r14), %eax
	testq	%rax, %rax
	movq	%rcx, 264(%rsp)
	movq	%rax, 256(%rsp)
	je	171f
	movzbl	568(%r14), %ecx
	movq	%rcx, 184(%rsp)
	testq	%rcx, %rcx
	je	172f
	movups	576(%r14), %xmm0
	jmp	173f
171:
	xorps	%xmm0, %xmm0
	movaps	%xmm0, 384(%rsp)
	movq	$0, 184(%rsp)
	jmp	174f
172:
	xorps	%xmm0, %xmm0
173:
	movaps	%xmm0, 384(%rsp)
174:
	leaq	416(%r14), %rax
	movq	592(%r14), %xmm2
	movd	600(%r14), %xmm0
	movzbl	604(%r14), %ecx
	movq	%rcx, 248(%rsp)
	movzbl	605(%r14), %ecx
	movq	%rcx, 240(%rsp)
	movzbl	606(%r14), %ecx
	movq	%rcx, 232(%rsp)
	movaps	1440(%rsp), %xmm1
	leaq	951(%rsp), %rcx
	movups	%xmm1, (%rcx)
	movaps	1424(%rsp), %xmm1
	movaps	%xmm1, 800(%rsp)
	movaps	1408(%rsp), %xmm1
	movaps	%xmm1, 784(%rsp)
	movaps	1392(%rsp), %xmm1
	movaps	%xmm1, 768(%rsp)
	movaps	1376(%rsp), %xmm1
	movaps	%xmm1, 752(%rsp)
	movaps	1360(%rsp), %xmm1
	movaps	%xmm1, 736(%rsp)
	movups	(%rax), %xmm1
	movaps	%xmm1, 720(%rsp)
	movaps	1344(%rsp), %xmm1
	movaps	%xmm1, 704(%rsp)
	movaps	1328(%rsp), %xmm1
	movaps	%xmm1, 688(%rsp)
	movzwl	844(%rsp), %eax
	movw	%ax, 20(%rsp)
	movl	840(%rsp), %eax
	movl	%eax, 16(%rsp)
	movaps	1312(%rsp), %xmm1
	movaps	%xmm1, 672(%rsp)
	movdqa	384(%rsp), %xmm1
	movdqa	%xmm1, 656(%rsp)
	movb	$1, %al
	movq	168(%rsp), %rcx
	movq	928(%rsp), %r14
	jmp	77b
175:
	movq	%rdi, 1456(%rsp)
	movq	%r8, 1464(%rsp)
	movq	%rdx, 1472(%rsp)
	movq	%r10, 1480(%rsp)
	movq	%r11, 1488(%rsp)
	movaps	848(%rsp), %xmm0
	movups	%xmm0, 1496(%rsp)
	movq	864(%rsp), %r9
	movq	%r9, 1512(%rsp)
	movq	%xmm1, 1520(%rsp)
	movq	%rdx, 1528(%rsp)
	movq	%rdi, 1536(%rsp)
	movq	%r8, 1544(%rsp)
	movq	%rsi, 1552(%rsp)
	movaps	1408(%rsp), %xmm0
	movups	%xmm0, 1560(%rsp)
	movq	%rsi, 1576(%rsp)
	movaps	1392(%rsp), %xmm0
	movups	%xmm0, 1584(%rsp)
	movq	%rsi, 1600(%rsp)
	movaps	1376(%rsp), %xmm0
	movups	%xmm0, 1608(%rsp)
	movq	%rsi, 1624(%rsp)
	movaps	1360(%rsp), %xmm0
	movups	%xmm0, 1632(%rsp)
	movq	%rsi, 1648(%rsp)
	movaps	1344(%rsp), %xmm0
	movups	%xmm0, 1656(%rsp)
	movq	%rsi, 1672(%rsp)
	movaps	1328(%rsp), %xmm0
	movups	%xmm0, 1680(%rsp)
	movq	%rsi, 1696(%rsp)
	movaps	1312(%rsp), %xmm0
	movups	%xmm0, 1704(%rsp)
	movq	%rsi, 1720(%rsp)
	movaps	1168(%rsp), %xmm0
	movups	%xmm0, 1728(%rsp)
	movq	%rsi, 1744(%rsp)
	movaps	1152(%rsp), %xmm0
	movups	%xmm0, 1752(%rsp)
	movq	%rsi, 1768(%rsp)
	movaps	1136(%rsp), %xmm0
	movups	%xmm0, 1776(%rsp)
	movq	%rdx, 1792(%rsp)
	movq	%rsi, 1800(%rsp)
	movq	$0, 1808(%rsp)
	movq	%rdx, 1816(%rsp)
	movq	%rsi, 1824(%rsp)
	movq	$0, 1832(%rsp)
	movq	%rsi, 1840(%rsp)
	movaps	1120(%rsp), %xmm0
	movups	%xmm0, 1848(%rsp)
	movq	%rdx, 1864(%rsp)
	movq	%rsi, 1872(%rsp)
	movaps	1248(%rsp), %xmm0
	movups	%xmm0, 1944(%rsp)
	movaps	1184(%rsp), %xmm0
	movaps	1200(%rsp), %xmm1
	movaps	1216(%rsp), %xmm2
	movaps	1232(%rsp), %xmm3
	movups	%xmm3, 1928(%rsp)
	movups	%xmm2, 1912(%rsp)
	movups	%xmm1, 1896(%rsp)
	movups	%xmm0, 1880(%rsp)
	movb	%al, 1960(%rsp)
	movb	%cl, 1961(%rsp)
176:
	movq	2526(%rsp), %rax
	movq	%rax, 2056(%rsp)
	movaps	2512(%rsp), %xmm0
	movups	%xmm0, 2042(%rsp)
	movaps	2496(%rsp), %xmm0
	movups	%xmm0, 2026(%rsp)
	movdqa	2432(%rsp), %xmm0
	movdqa	2448(%rsp), %xmm1
	movdqa	2464(%rsp), %xmm2
	movdqa	2480(%rsp), %xmm3
	movdqu	%xmm3, 2010(%rsp)
	movdqu	%xmm2, 1994(%rsp)
	movdqu	%xmm1, 1978(%rsp)
	movdqu	%xmm0, 1962(%rsp)
177:
	leaq	1456(%rsp), %rdi
	callq	"clap::clap++builder++arg++Arg+Destruct::drop"
178:
	movb	$1, %al
179:
	addq	$4376, %rsp
	popq	%rbx
	popq	%r12
	popq	%r13
	popq	%r14
	popq	%r15
	popq	%rbp
	retq
180:
	movq	584(%rsi), %r15
	testq	%r15, %r15
	je	191f
	movq	576(%rsi), %r12
	leaq	2440(%rsp), %r13
	xorl	%ebp, %ebp
	jmp	183f
181:
	movq	488(%rsp), %rsi
182:
	incq	%rbp
	xorl	%eax, %eax
	cmpq	%r15, %rbp
	je	11b
183:
	imulq	$608, %rbp, %rax
	cmpb	$0, 594(%r12,%rax)
	jne	182b
	addq	%r12, %rax
	testb	$1, 40(%rax)
	jne	10b
	cmpb	$0, 598(%rax)
	jne	10b
	cmpb	$0, 597(%rax)
	jne	10b
	cmpb	$0, 595(%rax)
	jne	182b
	pxor	%xmm0, %xmm0
	movdqa	%xmm0, 1504(%rsp)
	movdqa	%xmm0, 1488(%rsp)
	movdqa	%xmm0, 1472(%rsp)
	movdqa	%xmm0, 1456(%rsp)
	movq	$0, 1520(%rsp)
	cmpb	$1, 432(%rax)
	jne	184f
	cmpq	$0, 448(%rax)
	je	181b
184:
	cmpb	$1, 512(%rax)
	jne	181b
	movzbl	520(%rax), %ebx
	movq	%rbx, 2432(%rsp)
	movdqu	528(%rax), %xmm0
	movdqu	%xmm0, (%r13)
	leaq	273f(%rip), %rax
	movslq	(%rax,%rbx,4), %rcx
	addq	%rax, %rcx
	jmpq	*%rcx
185:
	movl	$12, %ebx
	jmp	187f
186:
	movq	2448(%rsp), %rbx
	testq	%rbx, %rbx
	je	181b
187:
	xorl	%r14d, %r14d
	jmp	189f
188:
	incq	%r14
	cmpq	%r14, %rbx
	je	181b
189:
	leaq	1456(%rsp), %rdi
	leaq	2432(%rsp), %rsi
	movq	%r14, %rdx
	callq	"clap::builder::value_parser::ValueParser::possible_at"
	cmpb	$1, 1456(%rsp)
	jne	188b
	cmpb	$1, 1520(%rsp)
	je	188b
	testb	$1, 1480(%rsp)
	je	188b
	movb	$1, %al
	movq	488(%rsp), %rsi
	jmp	11b
190:
	leaq	3719(%rsp), %rax
	movups	(%rax), %xmm1
	movaps	%xmm1, 1456(%rsp)
	movq	48(%rsp), %rax
	movq	%rax, 1472(%rsp)
	movaps	1168(%rsp), %xmm1
	movups	%xmm1, 1480(%rsp)
	movq	%r12, 1496(%rsp)
	movaps	1152(%rsp), %xmm1
	movaps	%xmm1, 1504(%rsp)
	movl	64(%rsp), %eax
	movl	%eax, 1520(%rsp)
	movl	340(%rsp), %eax
	movl	%eax, 1524(%rsp)
	movq	88(%rsp), %rax
	movq	%rax, 1528(%rsp)
	movaps	1136(%rsp), %xmm1
	movaps	%xmm1, 1536(%rsp)
	movq	%r15, 1552(%rsp)
	movq	304(%rsp), %rax
	movq	%rax, 1560(%rsp)
	movq	%rax, 1568(%rsp)
	movq	32(%rsp), %rax
	movq	%rax, 1576(%rsp)
	movq	104(%rsp), %rax
	movq	%rax, 1584(%rsp)
	movq	%rax, 1592(%rsp)
	movq	24(%rsp), %rax
	movq	%rax, 1600(%rsp)
	movq	%rbx, 1608(%rsp)
	movq	%rbx, 1616(%rsp)
	movq	352(%rsp), %rax
	movq	%rax, 1624(%rsp)
	movq	128(%rsp), %r12
	movq	%r12, 1632(%rsp)
	movq	%r12, 1640(%rsp)
	movq	328(%rsp), %rax
	movq	%rax, 1648(%rsp)
	movq	%r8, 1656(%rsp)
	movq	%r8, 1664(%rsp)
	movq	%r13, 1672(%rsp)
	movq	424(%rsp), %rax
	movq	%rax, 1680(%rsp)
	movq	%rax, 1688(%rsp)
	movq	408(%rsp), %rax
	movq	%rax, 1696(%rsp)
	movq	%r14, 1704(%rsp)
	movq	%r14, 1712(%rsp)
	movq	%r10, 1720(%rsp)
	movq	%r11, 1728(%rsp)
	movq	%r11, 1736(%rsp)
	movq	%rsi, 1744(%rsp)
	movq	%rbp, 1752(%rsp)
	movq	%rbp, 1760(%rsp)
	movq	%r9, 1768(%rsp)
	movq	%rdx, 1776(%rsp)
	movq	%rdx, 1784(%rsp)
	movq	%rdi, 1792(%rsp)
	movaps	1120(%rsp), %xmm1
	movups	%xmm1, 1800(%rsp)
	movq	176(%rsp), %rax
	movq	%rax, 1816(%rsp)
	movaps	1104(%rsp), %xmm1
	movaps	%xmm1, 1824(%rsp)
	movq	56(%rsp), %rax
	movq	%rax, 1840(%rsp)
	movq	160(%rsp), %rax
	movq	%rax, 1848(%rsp)
	movq	152(%rsp), %rax
	movq	%rax, 1856(%rsp)
	movq	136(%rsp), %rax
	movq	%rax, 1864(%rsp)
	movaps	1088(%rsp), %xmm1
	movaps	%xmm1, 1872(%rsp)
	movq	144(%rsp), %rax
	movq	%rax, 1888(%rsp)
	movaps	1072(%rsp), %xmm1
	movups	%xmm1, 1896(%rsp)
	movl	12(%rsp), %eax
	movl	%eax, 1912(%rsp)
	movl	8(%rsp), %eax
	movl	%eax, 1916(%rsp)
	movq	296(%rsp), %rax
	movq	%rax, 1920(%rsp)
	movaps	1056(%rsp), %xmm1
	movups	%xmm1, 1928(%rsp)
	movq	288(%rsp), %rax
	movq	%rax, 1944(%rsp)
	movq	216(%rsp), %rax
	movq	%rax, 1952(%rsp)
	movq	280(%rsp), %rax
	movb	%al, 1960(%rsp)
	movq	208(%rsp), %rax
	movb	%al, 1961(%rsp)
	movl	616(%rsp), %eax
	movl	%eax, 1962(%rsp)
	movzwl	620(%rsp), %eax
	movw	%ax, 1966(%rsp)
	movq	272(%rsp), %rax
	movq	%rax, 1968(%rsp)
	movq	200(%rsp), %rax
	movq	%rax, 1976(%rsp)
	movaps	1040(%rsp), %xmm1
	movaps	%xmm1, 1984(%rsp)
	movq	264(%rsp), %rax
	movq	%rax, 2000(%rsp)
	movq	192(%rsp), %rax
	movq	%rax, 2008(%rsp)
	movq	256(%rsp), %rax
	movq	%rax, 2016(%rsp)
	movq	184(%rsp), %rax
	movq	%rax, 2024(%rsp)
	movdqa	1024(%rsp), %xmm1
	movdqa	%xmm1, 2032(%rsp)
	movq	%xmm2, 2048(%rsp)
	movd	%xmm0, 2056(%rsp)
	movq	248(%rsp), %rax
	movb	%al, 2060(%rsp)
	movq	240(%rsp), %rax
	movb	%al, 2061(%rsp)
	movq	232(%rsp), %rax
	movb	%al, 2062(%rsp)
	movb	$0, 2063(%rsp)
	jmp	177b
191:
	xorl	%eax, %eax
	jmp	11b
192:
	leaq	576(%rbx), %rdi
	callq	"std_alloc::vec::Vec::grow_amortized::<#cb15977fd34c773c>"
	testb	%al, %al
	je	194f
	movq	584(%rbx), %rax
	jmp	17b
193:
	leaq	576(%r14), %rdi
	callq	"std_alloc::vec::Vec::grow_amortized::<#cb15977fd34c773c>"
	testb	%al, %al
	je	195f
	movq	584(%r14), %rax
	jmp	23b
194:
	pxor	%xmm0, %xmm0
	movdqa	%xmm0, 1152(%rsp)
	movdqa	%xmm0, 1136(%rsp)
	movdqa	%xmm0, 1120(%rsp)
	movdqa	%xmm0, 1104(%rsp)
	movdqa	%xmm0, 1088(%rsp)
	movdqa	%xmm0, 1072(%rsp)
	movdqa	%xmm0, 1056(%rsp)
	movdqa	%xmm0, 1040(%rsp)
	movdqa	%xmm0, 1024(%rsp)
	movdqa	%xmm0, 896(%rsp)
	movdqa	%xmm0, 880(%rsp)
	movdqa	%xmm0, 944(%rsp)
	movdqa	%xmm0, 960(%rsp)
	movdqa	%xmm0, 976(%rsp)
	movdqa	%xmm0, 992(%rsp)
	movdqa	%xmm0, 1008(%rsp)
	movdqa	%xmm0, 3712(%rsp)
	movdqa	%xmm0, 3728(%rsp)
	movdqa	%xmm0, 3744(%rsp)
	movdqa	%xmm0, 3760(%rsp)
	movdqa	%xmm0, 3776(%rsp)
	movdqa	%xmm0, 3792(%rsp)
	movq	$0, 3806(%rsp)
	movq	5b(%rip), %xmm0
	movb	$5, %dl
	movb	$1, %cl
	movq	%rsp, %rsi
	movl	$1, %eax
	movl	$4, %r8d
	leaq	.L8a62443031f8(%rip), %rdi
	xorl	%r9d, %r9d
	jmp	18b
195:
	pxor	%xmm0, %xmm0
	movdqa	%xmm0, 624(%rsp)
	movq	$0, 640(%rsp)
	movdqa	%xmm0, 1104(%rsp)
	movdqa	%xmm0, 1088(%rsp)
	movdqa	%xmm0, 1072(%rsp)
	movdqa	%xmm0, 1056(%rsp)
	movdqa	%xmm0, 1040(%rsp)
	movdqa	%xmm0, 1024(%rsp)
	movdqa	%xmm0, 896(%rsp)
	movdqa	%xmm0, 880(%rsp)
	movdqa	%xmm0, 1296(%rsp)
	movdqa	%xmm0, 1280(%rsp)
	movdqa	%xmm0, 1264(%rsp)
	movdqa	%xmm0, 944(%rsp)
	movdqa	%xmm0, 960(%rsp)
	movdqa	%xmm0, 976(%rsp)
	movdqa	%xmm0, 992(%rsp)
	movdqa	%xmm0, 1008(%rsp)
	movdqa	%xmm0, 3792(%rsp)
	movdqa	%xmm0, 3776(%rsp)
	movdqa	%xmm0, 3760(%rsp)
	movdqa	%xmm0, 3744(%rsp)
	movdqa	%xmm0, 3728(%rsp)
	movdqa	%xmm0, 3712(%rsp)
	movq	$0, 3806(%rsp)
	movq	6b(%rip), %xmm0
	movb	$8, %cl
	movb	$1, %al
	movq	%rsp, %rsi
	movl	$13, %r11d
	leaq	.L7de201737f33(%rip), %r10
	movl	$1, %edx
	movl	$7, %r8d
	leaq	.Lbf4f69522365(%rip), %rdi
	xorl	%r9d, %r9d
	jmp	24b
196:
	movq	576(%r14), %rax
	movq	%rax, 608(%rsp)
	movq	584(%r14), %rax
	movq	%rax, 416(%rsp)
197:
	movq	%rsp, %rsi
	movq	%rsi, 2432(%rsp)
	pxor	%xmm0, %xmm0
	movdqu	%xmm0, 2440(%rsp)
	cmpq	$0, 416(%rsp)
	je	202f
	leaq	1472(%rsp), %rbx
	xorl	%ebp, %ebp
	xorl	%r15d, %r15d
	jmp	199f
	.p2align	4
198:
	incq	%r15
	cmpq	416(%rsp), %r15
	je	204f
199:
	imulq	$608, %r15, %r12
	movq	608(%rsp), %rax
	movq	320(%rax,%r12), %r13
	testq	%r13, %r13
	je	198b
	addq	%rax, %r12
	movq	312(%r12), %r14
	jmp	201f
	.p2align	4
200:
	movq	%rbp, %rax
	shlq	$5, %rax
	movdqa	1456(%rsp), %xmm0
	movdqa	1472(%rsp), %xmm1
	movdqu	%xmm1, 16(%rsi,%rax)
	movdqu	%xmm0, (%rsi,%rax)
	incq	%rbp
	movq	%rbp, 2440(%rsp)
	addq	$16, %r14
	decq	%r13
	je	198b
201:
	movups	(%r14), %xmm0
	movaps	%xmm0, 1456(%rsp)
	movups	(%r12), %xmm0
	movups	%xmm0, (%rbx)
	cmpq	%rbp, 2448(%rsp)
	jne	200b
	leaq	2432(%rsp), %rdi
	callq	"std_alloc::vec::Vec::grow_amortized::<#52d1c8244e310953>"
	testb	%al, %al
	je	203f
	movq	2432(%rsp), %rsi
	movq	2440(%rsp), %rbp
	jmp	200b
202:
	movb	$1, %r12b
	movq	%rsp, %rax
	movq	%rax, 600(%rsp)
	jmp	231f
203:
	cmpq	$0, 2448(%rsp)
	je	178b
	movq	2432(%rsp), %rdi
	callq	rattle_dealloc@PLT
	jmp	178b
204:
	movq	2448(%rsp), %rax
	testq	%rax, %rax
	sete	%r12b
	testq	%rbp, %rbp
	movq	%rsi, 600(%rsp)
	je	230f
	movq	%rax, 88(%rsp)
	movb	%r12b, 608(%rsp)
	xorl	%r15d, %r15d
	movq	488(%rsp), %r14
	jmp	207f
	.p2align	4
205:
	imulq	$104, %rsi, %rbx
	movq	24(%r13,%rbx), %rax
	cmpq	%rax, 32(%r13,%rbx)
	je	227f
206:
	movq	16(%r13,%rbx), %rcx
	movq	%rax, %rdx
	shlq	$4, %rdx
	movq	416(%rsp), %rsi
	movq	%rsi, (%rcx,%rdx)
	movq	%r12, 8(%rcx,%rdx)
	incq	%rax
	movq	%rax, 24(%r13,%rbx)
	incq	%r15
	cmpq	%rbp, %r15
	movq	600(%rsp), %rsi
	je	229f
207:
	movq	%r15, %rdx
	shlq	$5, %rdx
	movq	(%rsi,%rdx), %rax
	movq	8(%rsi,%rdx), %rcx
	movq	16(%rsi,%rdx), %rdi
	movq	%rdi, 416(%rsp)
	movq	24(%rsi,%rdx), %r12
	movq	632(%r14), %rdx
	testq	%rdx, %rdx
	je	225f
	movq	624(%r14), %r13
	leaq	-8(%rcx), %rsi
	leaq	-16(%rcx), %rdi
	cmpq	$32, %rdi
	movl	$32, %r8d
	cmovbq	%rdi, %r8
	cmpq	$8, %rsi
	movl	$8, %r9d
	cmovbq	%rsi, %r9
	cmpq	$16, %rsi
	movl	$16, %r10d
	cmovbq	%rsi, %r10
	movq	%rcx, %r11
	subq	$8, %r11
	jae	210f
	cmpq	$4, %rcx
	jb	213f
	leaq	8(%r13), %rdi
	xorl	%esi, %esi
	jmp	209f
	.p2align	4
208:
	incq	%rsi
	addq	$104, %rdi
	cmpq	%rsi, %rdx
	je	225f
209:
	cmpq	%rcx, (%rdi)
	jne	208b
	movq	-8(%rdi), %r8
	movl	(%r8), %r9d
	movl	-4(%r8,%rcx), %r8d
	shlq	$32, %r8
	orq	%r9, %r8
	movl	(%rax), %r9d
	movl	-4(%rax,%rcx), %r10d
	shlq	$32, %r10
	orq	%r9, %r10
	cmpq	%r10, %r8
	jne	208b
	jmp	205b
	.p2align	4
210:
	cmpq	$32, %rcx
	ja	216f
	leaq	8(%r13), %rdi
	xorl	%esi, %esi
	jmp	212f
	.p2align	4
211:
	incq	%rsi
	addq	$104, %rdi
	cmpq	%rsi, %rdx
	je	225f
212:
	cmpq	%rcx, (%rdi)
	jne	211b
	movq	-8(%rdi), %r8
	movq	(%r8), %rbx
	cmpq	(%rax), %rbx
	jne	211b
	movq	(%rax,%r9), %rbx
	cmpq	%rbx, (%r8,%r9)
	jne	211b
	movq	(%rax,%r10), %rbx
	cmpq	%rbx, (%r8,%r10)
	jne	211b
	movq	(%rax,%r11), %rbx
	cmpq	%rbx, (%r8,%r11)
	jne	211b
	jmp	205b
213:
	testq	%rcx, %rcx
	je	223f
	movq	%rcx, %rdi
	shrq	%rdi
	leaq	8(%r13), %r8
	xorl	%esi, %esi
	jmp	215f
	.p2align	4
214:
	incq	%rsi
	addq	$104, %r8
	cmpq	%rsi, %rdx
	je	225f
215:
	cmpq	%rcx, (%r8)
	jne	214b
	movq	-8(%r8), %r9
	movzbl	(%r9), %r10d
	movzbl	(%r9,%rdi), %r11d
	shll	$16, %r10d
	shll	$8, %r11d
	orl	%r10d, %r11d
	movzbl	-1(%r9,%rcx), %r9d
	orl	%r11d, %r9d
	movzbl	(%rax), %r10d
	movzbl	(%rax,%rdi), %r11d
	shll	$16, %r10d
	shll	$8, %r11d
	orl	%r10d, %r11d
	movzbl	-1(%rax,%rcx), %r10d
	orl	%r11d, %r10d
	cmpl	%r10d, %r9d
	jne	214b
	jmp	205b
216:
	cmpq	$65, %rcx
	jae	219f
	leaq	8(%r13), %r9
	xorl	%esi, %esi
	jmp	218f
	.p2align	4
217:
	incq	%rsi
	addq	$104, %r9
	cmpq	%rsi, %rdx
	je	225f
218:
	cmpq	%rcx, (%r9)
	jne	217b
	movq	-8(%r9), %r10
	movdqu	(%r10), %xmm0
	movdqu	16(%r10), %xmm1
	movdqu	(%rax), %xmm2
	pcmpeqb	%xmm0, %xmm2
	movdqu	16(%rax), %xmm0
	pcmpeqb	%xmm1, %xmm0
	pand	%xmm2, %xmm0
	movdqu	(%r10,%r8), %xmm1
	movdqu	(%rax,%r8), %xmm2
	pcmpeqb	%xmm1, %xmm2
	movdqu	(%r10,%rdi), %xmm1
	movdqu	(%rax,%rdi), %xmm3
	pcmpeqb	%xmm1, %xmm3
	pand	%xmm2, %xmm3
	pand	%xmm0, %xmm3
	pmovmskb	%xmm3, %r10d
	cmpl	$65535, %r10d
	jne	217b
	jmp	205b
219:
	xorl	%esi, %esi
	movq	%r13, %rdi
	jmp	221f
	.p2align	4
220:
	addq	$104, %rdi
	decq	%rdx
	incq	%rsi
	testq	%rdx, %rdx
	je	225f
221:
	cmpq	%rcx, 8(%rdi)
	jne	220b
	movq	(%rdi), %r8
	xorl	%r9d, %r9d
	movq	%rcx, %r10
	.p2align	4
222:
	movdqu	(%r8,%r9), %xmm0
	movdqu	16(%r8,%r9), %xmm1
	movdqu	32(%r8,%r9), %xmm2
	movdqu	48(%r8,%r9), %xmm3
	movdqu	(%rax,%r9), %xmm4
	pcmpeqb	%xmm0, %xmm4
	movdqu	16(%rax,%r9), %xmm0
	pcmpeqb	%xmm1, %xmm0
	pand	%xmm4, %xmm0
	movdqu	32(%rax,%r9), %xmm1
	pcmpeqb	%xmm2, %xmm1
	movdqu	48(%rax,%r9), %xmm2
	pcmpeqb	%xmm3, %xmm2
	pand	%xmm1, %xmm2
	pand	%xmm0, %xmm2
	pmovmskb	%xmm2, %r11d
	cmpl	$65535, %r11d
	jne	220b
	addq	$64, %r9
	addq	$-64, %r10
	cmpq	$65, %r10
	jae	222b
	movdqu	-64(%r8,%rcx), %xmm0
	movdqu	-48(%r8,%rcx), %xmm1
	movdqu	-32(%r8,%rcx), %xmm2
	movdqu	-16(%r8,%rcx), %xmm3
	movdqu	-64(%rax,%rcx), %xmm4
	pcmpeqb	%xmm0, %xmm4
	movdqu	-48(%rax,%rcx), %xmm0
	pcmpeqb	%xmm1, %xmm0
	pand	%xmm4, %xmm0
	movdqu	-32(%rax,%rcx), %xmm1
	pcmpeqb	%xmm2, %xmm1
	movdqu	-16(%rax,%rcx), %xmm2
	pcmpeqb	%xmm3, %xmm2
	pand	%xmm1, %xmm2
	pand	%xmm0, %xmm2
	pmovmskb	%xmm2, %r8d
	cmpl	$65535, %r8d
	jne	220b
	jmp	205b
223:
	leaq	8(%r13), %rdi
	xorl	%esi, %esi
	.p2align	4
224:
	cmpq	$0, (%rdi)
	je	205b
	incq	%rsi
	addq	$104, %rdi
	cmpq	%rsi, %rdx
	jne	224b
225:
	movq	%rax, 1456(%rsp)
	movq	%rcx, 1464(%rsp)
	leaq	1472(%rsp), %rdi
	movq	%rsp, %rax
	movq	%rax, 1472(%rsp)
	pxor	%xmm0, %xmm0
	leaq	1480(%rsp), %rcx
	movdqu	%xmm0, (%rcx)
	movq	$0, 16(%rcx)
	movq	%rax, 1504(%rsp)
	movdqu	%xmm0, 32(%rcx)
	movq	%rax, 1528(%rsp)
	movdqu	%xmm0, 56(%rcx)
	movq	$0, 72(%rcx)
	movl	$1, %esi
	callq	"std_alloc::vec::Vec::grow_amortized::<#3af3ba23e56e6a09>"
	testb	%al, %al
	je	262f
	movq	1472(%rsp), %r13
	movq	%r12, %rcx
	movq	1480(%rsp), %r12
	movq	1504(%rsp), %r8
	movq	1528(%rsp), %rdi
	movdqu	1488(%rsp), %xmm1
	movq	1488(%rsp), %r11
	movq	1520(%rsp), %r10
	movdqu	1512(%rsp), %xmm2
	movq	1544(%rsp), %r9
	movdqu	1536(%rsp), %xmm3
	movq	1552(%rsp), %rbx
	movq	%r12, %rax
	shlq	$4, %rax
	movq	416(%rsp), %rdx
	movq	%rdx, (%r13,%rax)
	movq	%rcx, 8(%r13,%rax)
	movdqu	1456(%rsp), %xmm0
	leaq	2439(%rsp), %rsi
	movdqu	%xmm0, (%rsi)
	movq	632(%r14), %rax
	cmpq	%rax, 640(%r14)
	je	228f
226:
	incq	%r12
	movq	624(%r14), %rcx
	imulq	$104, %rax, %rdx
	movdqu	(%rsi), %xmm0
	movdqu	%xmm0, (%rcx,%rdx)
	movq	%r13, 16(%rcx,%rdx)
	movq	%r12, 24(%rcx,%rdx)
	movdqu	%xmm1, 32(%rcx,%rdx)
	movq	%r8, 48(%rcx,%rdx)
	movdqu	%xmm2, 56(%rcx,%rdx)
	movq	%rdi, 72(%rcx,%rdx)
	movdqu	%xmm3, 80(%rcx,%rdx)
	movq	%rbx, 96(%rcx,%rdx)
	incq	%rax
	movq	%rax, 632(%r14)
	incq	%r15
	cmpq	%rbp, %r15
	movq	600(%rsp), %rsi
	jne	207b
	jmp	229f
227:
	leaq	(%rbx,%r13), %rdi
	addq	$16, %rdi
	movl	$1, %esi
	callq	"std_alloc::vec::Vec::grow_amortized::<#3af3ba23e56e6a09>"
	testb	%al, %al
	je	266f
	movq	24(%r13,%rbx), %rax
	jmp	206b
228:
	movq	%r11, 64(%rsp)
	movq	%r10, 24(%rsp)
	movdqa	%xmm3, 352(%rsp)
	movdqa	%xmm2, 448(%rsp)
	movdqa	%xmm1, 304(%rsp)
	movq	%r9, 32(%rsp)
	movq	%r8, 48(%rsp)
	movq	%rdi, 416(%rsp)
	leaq	624(%r14), %rdi
	callq	"std_alloc::vec::Vec::grow_amortized::<#3b6d026ce996fc29>"
	testb	%al, %al
	je	269f
	movq	632(%r14), %rax
	leaq	2439(%rsp), %rsi
	movq	416(%rsp), %rdi
	movq	48(%rsp), %r8
	movdqa	304(%rsp), %xmm1
	movdqa	448(%rsp), %xmm2
	movdqa	352(%rsp), %xmm3
	jmp	226b
229:
	movzbl	608(%rsp), %r12d
	jmp	231f
230:
	movq	488(%rsp), %r14
231:
	movq	584(%r14), %rax
	testq	%rax, %rax
	movq	2424(%rsp), %r15
	je	258f
	movzbl	656(%r14), %ecx
	movl	$1, %edx
	movl	$595, %esi
	jmp	233f
	.p2align	4
232:
	addq	$608, %rsi
	decq	%rax
	je	258f
233:
	movq	576(%r14), %rdi
	cmpb	$1, -91(%rdi,%rsi)
	leaq	.L2a504c07f025(%rip), %r9
	jne	235f
	movzbl	-90(%rdi,%rsi), %r8d
	movl	$5, %r10d
	movzbl	%r8b, %r8d
	leaq	274f(%rip), %r11
	movslq	(%r11,%r8,4), %rbx
	addq	%r11, %rbx
	jmpq	*%rbx
	.p2align	4
234:
	cmpb	$0, -259(%rdi,%rsi)
	jne	242f
	jmp	243f
	.p2align	4
235:
	movzbl	-163(%rdi,%rsi), %r10d
	movq	-147(%rdi,%rsi), %r8
	cmpb	$1, %r10b
	jne	236f
	cmpq	$0, -155(%rdi,%rsi)
	jne	236f
	movb	$2, %r11b
	testq	%r8, %r8
	je	239f
236:
	cmpb	$1, -523(%rdi,%rsi)
	jne	238f
237:
	xorl	%r11d, %r11d
	jmp	239f
238:
	cmpb	$1, %r10b
	jne	237b
	cmpb	$1, -531(%rdi,%rsi)
	je	237b
	movb	$1, %r11b
	cmpq	$-1, %r8
	jne	237b
	.p2align	4
239:
	movb	$1, -91(%rdi,%rsi)
	movb	%r11b, -90(%rdi,%rsi)
	movl	$5, %r10d
	movzbl	%r11b, %r8d
	leaq	274f(%rip), %r11
	movslq	(%r11,%r8,4), %rbx
	addq	%r11, %rbx
	jmpq	*%rbx
240:
	movl	$4, %r10d
	leaq	.Lb0d9555b4c30(%rip), %r9
	cmpb	$0, -259(%rdi,%rsi)
	jne	242f
	jmp	243f
241:
	movl	$1, %r10d
	leaq	.L72a2fe0f915b(%rip), %r9
	cmpb	$0, -259(%rdi,%rsi)
	je	243f
242:
	cmpq	$0, -243(%rdi,%rsi)
	je	245f
243:
	cmpb	$2, %r8b
	je	246f
244:
	movzbl	%r8b, %r9d
	cmpl	$4, %r9d
	je	248f
	movl	$5, %r9d
	leaq	.L2a504c07f025(%rip), %r10
	cmpb	$0, -235(%rdi,%rsi)
	jne	247f
	jmp	248f
245:
	movq	$0, -259(%rdi,%rsi)
	movq	%r9, -251(%rdi,%rsi)
	movq	%r10, -243(%rdi,%rsi)
	cmpb	$2, %r8b
	jne	244b
246:
	movl	$4, %r9d
	leaq	.Lb0d9555b4c30(%rip), %r10
	cmpb	$0, -235(%rdi,%rsi)
	je	248f
247:
	cmpq	$0, -219(%rdi,%rsi)
	je	251f
	.p2align	4
248:
	cmpb	$1, -83(%rdi,%rsi)
	jne	252f
249:
	cmpb	$1, -163(%rdi,%rsi)
	jne	253f
250:
	testb	%cl, %cl
	jne	256f
	jmp	257f
251:
	movq	$0, -235(%rdi,%rsi)
	movq	%r10, -227(%rdi,%rsi)
	movq	%r9, -219(%rdi,%rsi)
	cmpb	$1, -83(%rdi,%rsi)
	je	249b
	.p2align	4
252:
	movzbl	%r8b, %r9d
	shll	$3, %r9d
	leaq	".Lswitch.table.clap::builder::command::building::build_levels"(%rip), %r10
	movq	(%r9,%r10), %r10
	leaq	".Lswitch.table.clap::builder::command::building::build_levels.2665"(%rip), %r11
	movq	(%r9,%r11), %r9
	movq	$1, -83(%rdi,%rsi)
	movq	%r10, -75(%rdi,%rsi)
	movq	$0, -67(%rdi,%rsi)
	movq	%r9, -59(%rdi,%rsi)
	cmpb	$1, -163(%rdi,%rsi)
	je	250b
253:
	cmpb	$0, -187(%rdi,%rsi)
	je	254f
	movq	-171(%rdi,%rsi), %r10
	xorl	%r9d, %r9d
	cmpb	$2, %r8b
	setb	%r9b
	cmpq	$2, %r10
	cmovaeq	%r10, %r9
	jmp	255f
254:
	xorl	%r9d, %r9d
	cmpb	$2, %r8b
	setb	%r9b
255:
	movq	$1, -163(%rdi,%rsi)
	movq	%r9, -155(%rdi,%rsi)
	movq	%r9, -147(%rdi,%rsi)
	testb	%cl, %cl
	je	257f
256:
	cmpq	$0, -147(%rdi,%rsi)
	je	257f
	movb	$1, (%rdi,%rsi)
257:
	cmpb	$1, -523(%rdi,%rsi)
	je	232b
	cmpb	$1, -531(%rdi,%rsi)
	je	232b
	cmpb	$1, -107(%rdi,%rsi)
	je	232b
	movq	$1, -107(%rdi,%rsi)
	movq	%rdx, -99(%rdi,%rsi)
	incq	%rdx
	movq	$-1, %rdi
	cmoveq	%rdi, %rdx
	jmp	232b
258:
	testb	%r12b, %r12b
	jne	259f
	movq	600(%rsp), %rdi
	callq	rattle_dealloc@PLT
259:
	movq	608(%r14), %rbx
	testq	%rbx, %rbx
	je	261f
	decq	%r15
	xorl	%r14d, %r14d
	.p2align	4
260:
	movq	488(%rsp), %rax
	movq	600(%rax), %rsi
	addq	%r14, %rsi
	movq	%r15, %rdi
	callq	"clap::builder::command::building::build_levels"
	testb	%al, %al
	jne	178b
	addq	$672, %r14
	xorl	%eax, %eax
	decq	%rbx
	jne	260b
	jmp	179b
261:
	xorl	%eax, %eax
	jmp	179b
262:
	cmpq	$0, 1488(%rsp)
	je	263f
	movq	1472(%rsp), %rdi
	callq	rattle_dealloc@PLT
263:
	cmpq	$0, 1520(%rsp)
	je	264f
	movq	1504(%rsp), %rdi
	callq	rattle_dealloc@PLT
264:
	cmpq	$0, 1544(%rsp)
	je	266f
	movq	1528(%rsp), %rdi
265:
	callq	rattle_dealloc@PLT
266:
	movb	$1, %al
	cmpq	$0, 88(%rsp)
	je	179b
	movq	600(%rsp), %rdi
	callq	rattle_dealloc@PLT
	jmp	178b
267:
	leaq	600(%r14), %rdi
	callq	"std_alloc::vec::Vec::grow_amortized::<#96976065f969f57f>"
	testb	%al, %al
	je	268f
	movq	608(%r14), %rbx
	jmp	29b
268:
	leaq	1456(%rsp), %rbx
	movl	$651, %edx
	movq	%rbx, %rdi
	movq	%r12, %rsi
	callq	memcpy@PLT
	movdqa	3b(%rip), %xmm0
	pinsrb	$1, %r15d, %xmm0
	pinsrb	$2, %ebp, %xmm0
	movl	$1, %eax
	pinsrb	$3, %eax, %xmm0
	movd	%xmm0, 2107(%rsp)
	movdqa	1184(%rsp), %xmm0
	movdqu	%xmm0, 2111(%rsp)
	movzbl	1200(%rsp), %eax
	movb	%al, 2127(%rsp)
	movq	%rbx, %rdi
	callq	"clap::clap++builder++command++Command+Destruct::drop"
	jmp	178b
269:
	cmpq	$0, 64(%rsp)
	je	270f
	movq	%r13, %rdi
	callq	rattle_dealloc@PLT
270:
	cmpq	$0, 24(%rsp)
	je	271f
	movq	48(%rsp), %rdi
	callq	rattle_dealloc@PLT
271:
	cmpq	$0, 32(%rsp)
	je	266b
	movq	416(%rsp), %rdi
	jmp	265b
272:
	.size	"clap::builder::command::building::build_levels", 272b-"clap::builder::command::building::build_levels"
	.section	.rodata,"a",@progbits
	.p2align	2, 0x0
273:
	.long	181b-273b
	.long	181b-273b
	.long	187b-273b
	.long	185b-273b
	.long	185b-273b
	.long	181b-273b
	.long	181b-273b
	.long	181b-273b
	.long	181b-273b
	.long	186b-273b
	.long	186b-273b
274:
	.long	248b-274b
	.long	248b-274b
	.long	234b-274b
	.long	240b-274b
	.long	241b-274b
	.long	248b-274b
	.long	248b-274b
	.long	248b-274b
	.long	248b-274b

	.text
	.p2align	4
	.type	"clap::builder::command::building::name_each",@function
"clap::builder::command::building::name_each":
	pushq	%rbp
	pushq	%r15
	pushq	%r14
	pushq	%r13
	pushq	%r12
	pushq	%rbx
	subq	$440, %rsp
	movq	%rcx, 200(%rsp)
	movl	%edx, 76(%rsp)
	movq	%rsi, 272(%rsp)
	movq	8(%rsi), %rax
	movq	%rax, 264(%rsp)
	testq	%rax, %rax
	je	161f
	movq	%r9, %r15
	movq	%rdi, %r14
	movq	504(%rsp), %rax
	decq	%r14
	movq	%r9, %rcx
	andq	$-32, %rcx
	movq	%rcx, 248(%rsp)
	movq	%r9, %rcx
	andq	$-4, %rcx
	movq	%rcx, 240(%rsp)
	movl	%r15d, %ecx
	andl	$3, %ecx
	movq	%rcx, 192(%rsp)
	movq	%rax, %rcx
	andq	$-32, %rcx
	movq	%rcx, 176(%rsp)
	movq	%rax, %rcx
	andq	$-4, %rcx
	movq	%rcx, 232(%rsp)
	andl	$3, %eax
	movq	%rax, 184(%rsp)
	xorl	%ecx, %ecx
	movq	%r9, 128(%rsp)
	movq	%r8, 136(%rsp)
	movq	%r14, 256(%rsp)
	.p2align	4
1:
	movq	272(%rsp), %rax
	movq	(%rax), %rbp
	movq	%rcx, 280(%rsp)
	imulq	$672, %rcx, %r15
	xorps	%xmm0, %xmm0
	movaps	%xmm0, 80(%rsp)
	movq	$0, 96(%rsp)
	movl	$0, 116(%rsp)
	movaps	%xmm0, 336(%rsp)
	movaps	%xmm0, 352(%rsp)
	movaps	%xmm0, 208(%rsp)
	movq	$0, 224(%rsp)
	movaps	%xmm0, 368(%rsp)
	movaps	%xmm0, 384(%rsp)
	movaps	%xmm0, 288(%rsp)
	movaps	%xmm0, 304(%rsp)
	movq	$0, 320(%rsp)
	movaps	%xmm0, 144(%rsp)
	movq	$0, 160(%rsp)
	movups	%xmm0, 415(%rsp)
	movaps	%xmm0, 400(%rsp)
	movq	(%rbp,%r15), %r14
	movq	8(%rbp,%r15), %rbx
	testq	%rbx, %rbx
	je	3f
	js	168f
	movl	$1, %esi
	movq	%rbx, %rdi
	callq	rattle_alloc@PLT
	testb	$1, %al
	je	168f
	movq	%rdx, %r12
	movq	%r12, %rcx
	subq	%r14, %rcx
	cmpq	%rbx, %rcx
	jae	4f
2:
	xorl	%eax, %eax
	cmpq	$4, %rbx
	jb	9f
	cmpq	$32, %rcx
	jb	9f
	cmpq	$32, %rbx
	jae	5f
	xorl	%eax, %eax
	jmp	7f
	.p2align	4
3:
	leaq	7(%rsp), %r12
	movq	%r12, %rcx
	subq	%r14, %rcx
	cmpq	%rbx, %rcx
	jb	2b
4:
	movq	%r12, %rdi
	movq	%r14, %rsi
	movq	%rbx, %rdx
	callq	memmove@PLT
	jmp	13f
5:
	movq	%rbx, %rax
	andq	$-32, %rax
	xorl	%ecx, %ecx
	.p2align	4
6:
	movups	(%r14,%rcx), %xmm0
	movups	16(%r14,%rcx), %xmm1
	movups	%xmm0, (%r12,%rcx)
	movups	%xmm1, 16(%r12,%rcx)
	addq	$32, %rcx
	cmpq	%rcx, %rax
	jne	6b
	cmpq	%rax, %rbx
	je	13f
	testb	$28, %bl
	je	9f
7:
	movq	%rax, %rcx
	movq	%rbx, %rax
	andq	$-4, %rax
	.p2align	4
8:
	movl	(%r14,%rcx), %edx
	movl	%edx, (%r12,%rcx)
	addq	$4, %rcx
	cmpq	%rcx, %rax
	jne	8b
	cmpq	%rax, %rbx
	je	13f
9:
	movq	%rbx, %rdx
	movq	%rax, %rcx
	andq	$3, %rdx
	je	11f
	movq	%rax, %rcx
	.p2align	4
10:
	movzbl	(%r14,%rcx), %esi
	movb	%sil, (%r12,%rcx)
	incq	%rcx
	decq	%rdx
	jne	10b
11:
	subq	%rbx, %rax
	cmpq	$-4, %rax
	ja	13f
	.p2align	4
12:
	movzbl	(%r14,%rcx), %eax
	movb	%al, (%r12,%rcx)
	movzbl	1(%r14,%rcx), %eax
	movb	%al, 1(%r12,%rcx)
	movzbl	2(%r14,%rcx), %eax
	movb	%al, 2(%r12,%rcx)
	movzbl	3(%r14,%rcx), %eax
	movb	%al, 3(%r12,%rcx)
	addq	$4, %rcx
	cmpq	%rcx, %rbx
	jne	12b
	.p2align	4
13:
	addq	%r15, %rbp
	movq	%r12, 80(%rsp)
	movq	%rbx, 88(%rsp)
	movq	%rbx, 96(%rsp)
	movzbl	16(%rbp), %ebx
	cmpb	$1, %bl
	jne	14f
	movups	24(%rbp), %xmm0
	leaq	.Ld9a5e6fa4e6b(%rip), %rax
	movq	%rax, 336(%rsp)
	movq	$3, 344(%rsp)
	movaps	%xmm0, 352(%rsp)
	leaq	80(%rsp), %rdi
	leaq	336(%rsp), %rsi
	callq	"std_alloc::string::String::write_fmt::<#004689434896fd94>"
	testb	%al, %al
	jne	166f
14:
	cmpb	$1, 40(%rbp)
	jne	15f
	movl	44(%rbp), %eax
	movl	%eax, 116(%rsp)
	leaq	.Lc50172a78548(%rip), %rax
	movq	%rax, 208(%rsp)
	movq	$2, 216(%rsp)
	leaq	116(%rsp), %rax
	movq	%rax, 224(%rsp)
	leaq	80(%rsp), %rdi
	leaq	208(%rsp), %rsi
	callq	"std_alloc::string::String::write_fmt::<#b77c81cbf5ad7277>"
	testb	%al, %al
	je	16f
	jmp	166f
	.p2align	4
15:
	cmpb	$1, %bl
	jne	18f
16:
	leaq	.Lf633811c48da(%rip), %rax
	movq	%rax, 288(%rsp)
	movq	$1, 296(%rsp)
	leaq	80(%rsp), %rax
	movq	%rax, 304(%rsp)
	leaq	.Lf989c82a9506(%rip), %rax
	movq	%rax, 312(%rsp)
	movq	$1, 320(%rsp)
	leaq	368(%rsp), %rdi
	leaq	288(%rsp), %rsi
	callq	"std_alloc::string::String::format::<#605efbca80f73881>"
	cmpb	$0, 368(%rsp)
	movq	96(%rsp), %rax
	jne	162f
	testq	%rax, %rax
	je	17f
	movq	80(%rsp), %rdi
	callq	rattle_dealloc@PLT
17:
	leaq	376(%rsp), %rcx
	movq	16(%rcx), %rax
	movq	%rax, 96(%rsp)
	movups	(%rcx), %xmm0
	movaps	%xmm0, 80(%rsp)
18:
	cmpb	$1, 76(%rsp)
	jne	25f
	xorps	%xmm0, %xmm0
	leaq	16(%rsp), %rax
	movups	%xmm0, (%rax)
	movl	$0, 52(%rax)
	movl	$0, 49(%rax)
	leaq	7(%rsp), %r13
	movq	%r13, 8(%rsp)
	movq	$0, 56(%rsp)
	movb	$0, 64(%rsp)
	movl	$32, 32(%rsp)
	movl	$0, 28(%rax)
	movq	$0, 20(%rax)
	movq	$-1, 48(%rsp)
	movq	200(%rsp), %rax
	movq	(%rax), %rsi
	movq	8(%rax), %rbx
	testq	%rbx, %rbx
	jne	108f
	xorl	%r14d, %r14d
	xorl	%r12d, %r12d
19:
	leaq	(%r12,%r13), %rdi
	movq	%rdi, %rax
	subq	%rsi, %rax
	cmpq	%rbx, %rax
	jae	26f
	cmpq	$4, %rbx
	movq	128(%rsp), %r15
	jb	20f
	cmpq	$32, %rax
	jae	69f
20:
	xorl	%eax, %eax
21:
	movq	%rbx, %rdx
	movq	%rax, %rcx
	andq	$3, %rdx
	je	23f
	movq	%rax, %rcx
	.p2align	4
22:
	movzbl	(%rsi,%rcx), %r8d
	movb	%r8b, (%rdi,%rcx)
	incq	%rcx
	decq	%rdx
	jne	22b
23:
	subq	%rbx, %rax
	cmpq	$-4, %rax
	ja	27f
	leaq	(%r12,%r13), %rax
	addq	$3, %rax
	.p2align	4
24:
	movzbl	(%rsi,%rcx), %edx
	movb	%dl, -3(%rax,%rcx)
	movzbl	1(%rsi,%rcx), %edx
	movb	%dl, -2(%rax,%rcx)
	movzbl	2(%rsi,%rcx), %edx
	movb	%dl, -1(%rax,%rcx)
	movzbl	3(%rsi,%rcx), %edx
	movb	%dl, (%rax,%rcx)
	addq	$4, %rcx
	cmpq	%rcx, %rbx
	jne	24b
	jmp	27f
	.p2align	4
25:
	movq	96(%rsp), %rax
	movq	%rax, 160(%rsp)
	movaps	80(%rsp), %xmm0
	movaps	%xmm0, 144(%rsp)
	jmp	46f
	.p2align	4
26:
	movq	%rbx, %rdx
	callq	memmove@PLT
	movq	128(%rsp), %r15
27:
	addq	%rbx, %r12
	movq	%r13, 8(%rsp)
	movq	%r12, 16(%rsp)
	movq	%r14, 24(%rsp)
	movl	$32, 32(%rsp)
	leaq	16(%rsp), %rax
	movl	$0, 28(%rax)
	movq	$0, 20(%rax)
	movq	$-1, 48(%rsp)
	cmpq	$0, 56(%rsp)
	jne	109f
	movq	%r14, %rax
	subq	%r12, %rax
	cmpq	%rax, %r15
	movq	136(%rsp), %rsi
	ja	131f
28:
	leaq	(%r12,%r13), %rdi
	movq	%rdi, %rax
	subq	%rsi, %rax
	cmpq	%r15, %rax
	jae	34f
	cmpq	$4, %r15
	movq	248(%rsp), %rdx
	movq	240(%rsp), %r8
	jb	29f
	movq	%r12, %rax
	subq	%rsi, %rax
	addq	%r13, %rax
	cmpq	$32, %rax
	jae	85f
29:
	xorl	%ecx, %ecx
30:
	movq	%rcx, %rax
	cmpq	$0, 192(%rsp)
	je	32f
	movq	192(%rsp), %rdx
	movq	%rcx, %rax
	.p2align	4
31:
	movzbl	(%rsi,%rax), %r8d
	movb	%r8b, (%rdi,%rax)
	incq	%rax
	decq	%rdx
	jne	31b
32:
	subq	%r15, %rcx
	cmpq	$-4, %rcx
	ja	35f
	leaq	(%r12,%r13), %rcx
	addq	$3, %rcx
	.p2align	4
33:
	movzbl	(%rsi,%rax), %edx
	movb	%dl, -3(%rcx,%rax)
	movzbl	1(%rsi,%rax), %edx
	movb	%dl, -2(%rcx,%rax)
	movzbl	2(%rsi,%rax), %edx
	movb	%dl, -1(%rcx,%rax)
	movzbl	3(%rsi,%rax), %edx
	movb	%dl, (%rcx,%rax)
	addq	$4, %rax
	cmpq	%rax, %r15
	jne	33b
	jmp	35f
	.p2align	4
34:
	movq	%r15, %rdx
	callq	memmove@PLT
35:
	addq	%r15, %r12
	movq	%r12, 16(%rsp)
	movq	%r14, 24(%rsp)
36:
	movl	$32, 32(%rsp)
	leaq	16(%rsp), %rax
	movl	$0, 28(%rax)
	movq	$0, 20(%rax)
	movq	$-1, 48(%rsp)
	movq	80(%rsp), %rsi
	movq	88(%rsp), %rbx
	cmpq	$0, 56(%rsp)
	jne	114f
	movq	16(%rsp), %r14
	movq	24(%rsp), %r15
	movq	%r15, %rax
	subq	%r14, %rax
	cmpq	%rax, %rbx
	ja	132f
37:
	movq	8(%rsp), %rax
	leaq	(%rax,%r14), %rdi
	movq	%rdi, %rcx
	subq	%rsi, %rcx
	cmpq	%rbx, %rcx
	jae	43f
	cmpq	$4, %rbx
	jb	38f
	cmpq	$32, %rcx
	jae	86f
38:
	xorl	%ecx, %ecx
39:
	movq	%rbx, %r8
	movq	%rcx, %rdx
	andq	$3, %r8
	je	41f
	movq	%rcx, %rdx
	.p2align	4
40:
	movzbl	(%rsi,%rdx), %r9d
	movb	%r9b, (%rdi,%rdx)
	incq	%rdx
	decq	%r8
	jne	40b
41:
	subq	%rbx, %rcx
	cmpq	$-4, %rcx
	ja	44f
	addq	%r14, %rax
	addq	$3, %rax
	.p2align	4
42:
	movzbl	(%rsi,%rdx), %ecx
	movb	%cl, -3(%rax,%rdx)
	movzbl	1(%rsi,%rdx), %ecx
	movb	%cl, -2(%rax,%rdx)
	movzbl	2(%rsi,%rdx), %ecx
	movb	%cl, -1(%rax,%rdx)
	movzbl	3(%rsi,%rdx), %ecx
	movb	%cl, (%rax,%rdx)
	addq	$4, %rdx
	cmpq	%rdx, %rbx
	jne	42b
	jmp	44f
	.p2align	4
43:
	movq	%rbx, %rdx
	callq	memmove@PLT
44:
	addq	%rbx, %r14
	movq	%r14, 16(%rsp)
	movq	%r15, 24(%rsp)
45:
	movq	24(%rsp), %rax
	leaq	407(%rsp), %rcx
	movq	%rax, 16(%rcx)
	movq	8(%rsp), %rax
	movq	%rax, (%rcx)
	movq	16(%rsp), %rax
	movq	%rax, 8(%rcx)
	movq	(%rcx), %rax
	movq	%rax, 144(%rsp)
	movq	8(%rcx), %rax
	movq	%rax, 152(%rsp)
	movq	16(%rcx), %rax
	movq	%rax, 160(%rsp)
46:
	movzbl	112(%rbp), %ecx
	movq	120(%rbp), %rdi
	movq	136(%rbp), %rax
	movq	$1, 112(%rbp)
	movq	144(%rsp), %rdx
	movq	%rdx, 120(%rbp)
	movq	152(%rsp), %rdx
	movq	%rdx, 128(%rbp)
	movq	160(%rsp), %rdx
	movq	%rdx, 136(%rbp)
	cmpb	$1, %cl
	jne	47f
	testq	%rax, %rax
	je	47f
	callq	rattle_dealloc@PLT
47:
	movq	(%rbp), %r12
	movq	8(%rbp), %r13
	cmpb	$1, 76(%rsp)
	jne	54f
	xorps	%xmm0, %xmm0
	leaq	16(%rsp), %rax
	movups	%xmm0, (%rax)
	movl	$0, 52(%rax)
	movl	$0, 49(%rax)
	leaq	7(%rsp), %r8
	movq	%r8, 8(%rsp)
	movq	$0, 56(%rsp)
	movb	$0, 64(%rsp)
	movl	$32, 32(%rsp)
	movl	$0, 28(%rax)
	movq	$0, 20(%rax)
	movq	$-1, 48(%rsp)
	movq	200(%rsp), %rax
	movq	(%rax), %r14
	movq	8(%rax), %rbx
	testq	%rbx, %rbx
	jne	113f
	xorl	%r9d, %r9d
	xorl	%r15d, %r15d
48:
	leaq	(%r8,%r15), %rdi
	movq	%rdi, %rax
	subq	%r14, %rax
	cmpq	%rbx, %rax
	jae	56f
	cmpq	$4, %rbx
	jb	49f
	cmpq	$32, %rax
	jae	70f
49:
	xorl	%eax, %eax
50:
	movq	%rbx, %rdx
	movq	%rax, %rcx
	andq	$3, %rdx
	je	52f
	movq	%rax, %rcx
	.p2align	4
51:
	movzbl	(%r14,%rcx), %esi
	movb	%sil, (%rdi,%rcx)
	incq	%rcx
	decq	%rdx
	jne	51b
52:
	subq	%rbx, %rax
	cmpq	$-4, %rax
	ja	57f
	leaq	(%r8,%r15), %rax
	addq	$3, %rax
	.p2align	4
53:
	movzbl	(%r14,%rcx), %edx
	movb	%dl, -3(%rax,%rcx)
	movzbl	1(%r14,%rcx), %edx
	movb	%dl, -2(%rax,%rcx)
	movzbl	2(%r14,%rcx), %edx
	movb	%dl, -1(%rax,%rcx)
	movzbl	3(%r14,%rcx), %edx
	movb	%dl, (%rax,%rcx)
	addq	$4, %rcx
	cmpq	%rcx, %rbx
	jne	53b
	jmp	57f
	.p2align	4
54:
	testq	%r13, %r13
	je	67f
	js	168f
	movl	$1, %esi
	movq	%r13, %rdi
	callq	rattle_alloc@PLT
	testb	$1, %al
	je	168f
	movq	%rdx, %rbx
	movq	%rbx, %rcx
	subq	%r12, %rcx
	cmpq	%r13, %rcx
	jae	68f
55:
	xorl	%eax, %eax
	cmpq	$4, %r13
	jb	75f
	cmpq	$32, %rcx
	jb	75f
	cmpq	$32, %r13
	jae	71f
	xorl	%eax, %eax
	jmp	73f
	.p2align	4
56:
	movq	%r14, %rsi
	movq	%rbx, %rdx
	movq	%r8, %r14
	movq	%r13, 120(%rsp)
	movq	%rbp, %r13
	movq	%r9, %rbp
	callq	memmove@PLT
	movq	%rbp, %r9
	movq	%r13, %rbp
	movq	120(%rsp), %r13
	movq	%r14, %r8
57:
	addq	%rbx, %r15
	movq	%r8, 8(%rsp)
	movq	%r15, 16(%rsp)
	movq	%r9, 24(%rsp)
	movl	$32, 32(%rsp)
	leaq	16(%rsp), %rax
	movl	$0, 28(%rax)
	movq	$0, 20(%rax)
	movq	$-1, 48(%rsp)
	cmpq	$0, 56(%rsp)
	jne	115f
	cmpq	%r15, %r9
	je	133f
58:
	movb	$32, (%r8,%r15)
	incq	%r15
	movq	%r15, 16(%rsp)
	movq	%r9, 24(%rsp)
59:
	movl	$32, 32(%rsp)
	leaq	16(%rsp), %rax
	movl	$0, 28(%rax)
	movq	$0, 20(%rax)
	movq	$-1, 48(%rsp)
	cmpq	$0, 56(%rsp)
	jne	120f
	movq	16(%rsp), %rax
	movq	24(%rsp), %r14
	movq	%r14, %rcx
	subq	%rax, %rcx
	cmpq	%rcx, %r13
	ja	134f
60:
	leaq	(%rax,%r13), %r15
	movq	8(%rsp), %rbx
	leaq	(%rbx,%rax), %rdi
	movq	%rdi, %rcx
	subq	%r12, %rcx
	cmpq	%r13, %rcx
	jae	66f
	cmpq	$4, %r13
	jb	61f
	cmpq	$32, %rcx
	jae	87f
61:
	xorl	%ecx, %ecx
62:
	movq	%r13, %rsi
	movq	%rcx, %rdx
	andq	$3, %rsi
	je	64f
	movq	%rcx, %rdx
	.p2align	4
63:
	movzbl	(%r12,%rdx), %r8d
	movb	%r8b, (%rdi,%rdx)
	incq	%rdx
	decq	%rsi
	jne	63b
64:
	subq	%r13, %rcx
	cmpq	$-4, %rcx
	ja	80f
	addq	%rbx, %rax
	addq	$3, %rax
	.p2align	4
65:
	movzbl	(%r12,%rdx), %ecx
	movb	%cl, -3(%rax,%rdx)
	movzbl	1(%r12,%rdx), %ecx
	movb	%cl, -2(%rax,%rdx)
	movzbl	2(%r12,%rdx), %ecx
	movb	%cl, -1(%rax,%rdx)
	movzbl	3(%r12,%rdx), %ecx
	movb	%cl, (%rax,%rdx)
	addq	$4, %rdx
	cmpq	%rdx, %r13
	jne	65b
	jmp	80f
	.p2align	4
66:
	movq	%r12, %rsi
	movq	%r13, %rdx
	callq	memmove@PLT
	jmp	80f
67:
	leaq	7(%rsp), %rbx
	movq	%rbx, %rcx
	subq	%r12, %rcx
	cmpq	%r13, %rcx
	jb	55b
68:
	movq	%rbx, %rdi
	movq	%r12, %rsi
	movq	%r13, %rdx
	callq	memmove@PLT
	jmp	79f
69:
	cmpq	$32, %rbx
	jae	100f
	xorl	%eax, %eax
	jmp	102f
70:
	cmpq	$32, %rbx
	jae	104f
	xorl	%eax, %eax
	jmp	106f
71:
	movq	%r13, %rax
	andq	$-32, %rax
	xorl	%ecx, %ecx
	.p2align	4
72:
	movups	(%r12,%rcx), %xmm0
	movups	16(%r12,%rcx), %xmm1
	movups	%xmm0, (%rbx,%rcx)
	movups	%xmm1, 16(%rbx,%rcx)
	addq	$32, %rcx
	cmpq	%rcx, %rax
	jne	72b
	cmpq	%rax, %r13
	je	79f
	testb	$28, %r13b
	je	75f
73:
	movq	%rax, %rcx
	movq	%r13, %rax
	andq	$-4, %rax
	.p2align	4
74:
	movl	(%r12,%rcx), %edx
	movl	%edx, (%rbx,%rcx)
	addq	$4, %rcx
	cmpq	%rcx, %rax
	jne	74b
	cmpq	%rax, %r13
	je	79f
75:
	movq	%r13, %rdx
	movq	%rax, %rcx
	andq	$3, %rdx
	je	77f
	movq	%rax, %rcx
	.p2align	4
76:
	movzbl	(%r12,%rcx), %esi
	movb	%sil, (%rbx,%rcx)
	incq	%rcx
	decq	%rdx
	jne	76b
77:
	subq	%r13, %rax
	cmpq	$-4, %rax
	ja	79f
	.p2align	4
78:
	movzbl	(%r12,%rcx), %eax
	movb	%al, (%rbx,%rcx)
	movzbl	1(%r12,%rcx), %eax
	movb	%al, 1(%rbx,%rcx)
	movzbl	2(%r12,%rcx), %eax
	movb	%al, 2(%rbx,%rcx)
	movzbl	3(%r12,%rcx), %eax
	movb	%al, 3(%rbx,%rcx)
	addq	$4, %rcx
	cmpq	%rcx, %r13
	jne	78b
	.p2align	4
79:
	movq	%r13, %r15
	movq	%r13, %r14
80:
	movzbl	80(%rbp), %ecx
	movq	88(%rbp), %rdi
	movq	104(%rbp), %rax
	movq	$1, 80(%rbp)
	movq	%rbx, 88(%rbp)
	movq	%r15, 96(%rbp)
	movq	%r14, 104(%rbp)
	cmpb	$1, %cl
	jne	81f
	testq	%rax, %rax
	je	81f
	callq	rattle_dealloc@PLT
81:
	cmpb	$1, 48(%rbp)
	je	98f
	movq	504(%rsp), %rsi
	testq	%rsi, %rsi
	jne	125f
	testq	%r13, %r13
	je	83f
	js	165f
	movl	$1, %esi
	movq	%r13, %rdi
	callq	rattle_alloc@PLT
	testb	$1, %al
	je	165f
	movq	%rdx, %rbx
	movq	%rbx, %rcx
	subq	%r12, %rcx
	cmpq	%r13, %rcx
	jae	84f
82:
	xorl	%eax, %eax
	cmpq	$4, %r13
	jb	92f
	cmpq	$32, %rcx
	jb	92f
	cmpq	$32, %r13
	jae	88f
	xorl	%eax, %eax
	jmp	90f
83:
	leaq	7(%rsp), %rbx
	movq	%rbx, %rcx
	subq	%r12, %rcx
	cmpq	%r13, %rcx
	jb	82b
84:
	movq	%rbx, %rdi
	movq	%r12, %rsi
	movq	%r13, %rdx
	callq	memmove@PLT
	jmp	96f
85:
	cmpq	$32, %r15
	jae	110f
	xorl	%eax, %eax
	jmp	112f
86:
	cmpq	$32, %rbx
	jae	116f
	xorl	%ecx, %ecx
	jmp	118f
87:
	cmpq	$32, %r13
	jae	121f
	xorl	%ecx, %ecx
	jmp	123f
88:
	movq	%r13, %rax
	andq	$-32, %rax
	xorl	%ecx, %ecx
	.p2align	4
89:
	movups	(%r12,%rcx), %xmm0
	movups	16(%r12,%rcx), %xmm1
	movups	%xmm0, (%rbx,%rcx)
	movups	%xmm1, 16(%rbx,%rcx)
	addq	$32, %rcx
	cmpq	%rcx, %rax
	jne	89b
	cmpq	%rax, %r13
	je	96f
	testb	$28, %r13b
	je	92f
90:
	movq	%rax, %rcx
	movq	%r13, %rax
	andq	$-4, %rax
	.p2align	4
91:
	movl	(%r12,%rcx), %edx
	movl	%edx, (%rbx,%rcx)
	addq	$4, %rcx
	cmpq	%rcx, %rax
	jne	91b
	cmpq	%rax, %r13
	je	96f
92:
	movq	%r13, %rdx
	movq	%rax, %rcx
	andq	$3, %rdx
	je	94f
	movq	%rax, %rcx
	.p2align	4
93:
	movzbl	(%r12,%rcx), %esi
	movb	%sil, (%rbx,%rcx)
	incq	%rcx
	decq	%rdx
	jne	93b
94:
	subq	%r13, %rax
	cmpq	$-4, %rax
	ja	96f
	.p2align	4
95:
	movzbl	(%r12,%rcx), %eax
	movb	%al, (%rbx,%rcx)
	movzbl	1(%r12,%rcx), %eax
	movb	%al, 1(%rbx,%rcx)
	movzbl	2(%r12,%rcx), %eax
	movb	%al, 2(%rbx,%rcx)
	movzbl	3(%r12,%rcx), %eax
	movb	%al, 3(%rbx,%rcx)
	addq	$4, %rcx
	cmpq	%rcx, %r13
	jne	95b
	.p2align	4
96:
	movq	%r13, %r14
97:
	movzbl	48(%rbp), %ecx
	movq	56(%rbp), %rdi
	movq	72(%rbp), %rax
	movq	$1, 48(%rbp)
	movq	%rbx, 56(%rbp)
	movq	%r13, 64(%rbp)
	movq	%r14, 72(%rbp)
	cmpb	$1, %cl
	jne	98f
	testq	%rax, %rax
	je	98f
	callq	rattle_dealloc@PLT
98:
	cmpb	$1, 76(%rsp)
	jne	99f
	cmpq	$0, 96(%rsp)
	je	99f
	movq	80(%rsp), %rdi
	callq	rattle_dealloc@PLT
99:
	movq	256(%rsp), %rdi
	movq	%rbp, %rsi
	callq	"clap::builder::command::building::name_levels"
	testb	%al, %al
	jne	168f
	movq	280(%rsp), %rcx
	incq	%rcx
	cmpq	264(%rsp), %rcx
	jne	1b
	jmp	161f
100:
	movq	%rbx, %rax
	andq	$-32, %rax
	leaq	(%r12,%r13), %rcx
	addq	$16, %rcx
	xorl	%edx, %edx
	.p2align	4
101:
	movups	(%rsi,%rdx), %xmm0
	movups	16(%rsi,%rdx), %xmm1
	movups	%xmm0, -16(%rcx,%rdx)
	movups	%xmm1, (%rcx,%rdx)
	addq	$32, %rdx
	cmpq	%rdx, %rax
	jne	101b
	cmpq	%rax, %rbx
	je	27b
	testb	$28, %bl
	je	21b
102:
	movq	%rax, %rcx
	movq	%rbx, %rax
	andq	$-4, %rax
	.p2align	4
103:
	movl	(%rsi,%rcx), %edx
	movl	%edx, (%rdi,%rcx)
	addq	$4, %rcx
	cmpq	%rcx, %rax
	jne	103b
	cmpq	%rax, %rbx
	je	27b
	jmp	21b
104:
	movq	%rbx, %rax
	andq	$-32, %rax
	leaq	(%r8,%r15), %rcx
	addq	$16, %rcx
	xorl	%edx, %edx
	.p2align	4
105:
	movups	(%r14,%rdx), %xmm0
	movups	16(%r14,%rdx), %xmm1
	movups	%xmm0, -16(%rcx,%rdx)
	movups	%xmm1, (%rcx,%rdx)
	addq	$32, %rdx
	cmpq	%rdx, %rax
	jne	105b
	cmpq	%rax, %rbx
	je	57b
	testb	$28, %bl
	je	50b
106:
	movq	%rax, %rcx
	movq	%rbx, %rax
	andq	$-4, %rax
	.p2align	4
107:
	movl	(%r14,%rcx), %edx
	movl	%edx, (%rdi,%rcx)
	addq	$4, %rcx
	cmpq	%rcx, %rax
	jne	107b
	cmpq	%rax, %rbx
	je	57b
	jmp	50b
108:
	movq	%rsi, %r15
	leaq	8(%rsp), %rdi
	movq	%rbx, %rsi
	callq	"std_alloc::vec::Vec::grow_amortized::<#1d775b5957dec42c>"
	testb	%al, %al
	je	163f
	movq	8(%rsp), %r13
	movq	16(%rsp), %r12
	movq	24(%rsp), %r14
	movq	%r15, %rsi
	jmp	19b
109:
	leaq	8(%rsp), %rdi
	movq	136(%rsp), %rsi
	movq	%r15, %rdx
	callq	"core::fmt::formatter::Formatter::write_indented::<#0a7ff941e43d6b30>"
	testb	%al, %al
	je	36b
	jmp	163f
110:
	leaq	(%r12,%r13), %rax
	addq	$16, %rax
	xorl	%ecx, %ecx
	.p2align	4
111:
	movups	(%rsi,%rcx), %xmm0
	movups	16(%rsi,%rcx), %xmm1
	movups	%xmm0, -16(%rax,%rcx)
	movups	%xmm1, (%rax,%rcx)
	addq	$32, %rcx
	cmpq	%rcx, %rdx
	jne	111b
	cmpq	%rdx, %r15
	je	35b
	movq	%rdx, %rax
	movq	%rdx, %rcx
	testb	$28, %r15b
	je	30b
	.p2align	4
112:
	movl	(%rsi,%rax), %ecx
	movl	%ecx, (%rdi,%rax)
	addq	$4, %rax
	cmpq	%rax, %r8
	jne	112b
	movq	%r8, %rcx
	cmpq	%r8, %r15
	je	35b
	jmp	30b
113:
	leaq	8(%rsp), %rdi
	movq	%rbx, %rsi
	callq	"std_alloc::vec::Vec::grow_amortized::<#1d775b5957dec42c>"
	testb	%al, %al
	je	163f
	movq	8(%rsp), %r8
	movq	16(%rsp), %r15
	movq	24(%rsp), %r9
	jmp	48b
114:
	leaq	8(%rsp), %rdi
	movq	%rbx, %rdx
	callq	"core::fmt::formatter::Formatter::write_indented::<#0a7ff941e43d6b30>"
	testb	%al, %al
	je	45b
	jmp	163f
115:
	leaq	.L9b770efd7ae0(%rip), %rsi
	leaq	8(%rsp), %rdi
	movl	$1, %edx
	callq	"core::fmt::formatter::Formatter::write_indented::<#0a7ff941e43d6b30>"
	testb	%al, %al
	je	59b
	jmp	163f
116:
	movq	%rbx, %rcx
	andq	$-32, %rcx
	leaq	(%rax,%r14), %rdx
	addq	$16, %rdx
	xorl	%r8d, %r8d
	.p2align	4
117:
	movups	(%rsi,%r8), %xmm0
	movups	16(%rsi,%r8), %xmm1
	movups	%xmm0, -16(%rdx,%r8)
	movups	%xmm1, (%rdx,%r8)
	addq	$32, %r8
	cmpq	%r8, %rcx
	jne	117b
	cmpq	%rcx, %rbx
	je	44b
	testb	$28, %bl
	je	39b
118:
	movq	%rcx, %rdx
	movq	%rbx, %rcx
	andq	$-4, %rcx
	.p2align	4
119:
	movl	(%rsi,%rdx), %r8d
	movl	%r8d, (%rdi,%rdx)
	addq	$4, %rdx
	cmpq	%rdx, %rcx
	jne	119b
	cmpq	%rcx, %rbx
	je	44b
	jmp	39b
120:
	leaq	8(%rsp), %rdi
	movq	%r12, %rsi
	movq	%r13, %rdx
	callq	"core::fmt::formatter::Formatter::write_indented::<#0a7ff941e43d6b30>"
	testb	%al, %al
	jne	163f
	movq	8(%rsp), %rbx
	movq	16(%rsp), %r15
	movq	24(%rsp), %r14
	jmp	80b
121:
	movq	%r13, %rcx
	andq	$-32, %rcx
	leaq	(%rbx,%rax), %rdx
	addq	$16, %rdx
	xorl	%esi, %esi
	.p2align	4
122:
	movups	(%r12,%rsi), %xmm0
	movups	16(%r12,%rsi), %xmm1
	movups	%xmm0, -16(%rdx,%rsi)
	movups	%xmm1, (%rdx,%rsi)
	addq	$32, %rsi
	cmpq	%rsi, %rcx
	jne	122b
	cmpq	%rcx, %r13
	je	80b
	testb	$28, %r13b
	je	62b
123:
	movq	%rcx, %rdx
	movq	%r13, %rcx
	andq	$-4, %rcx
	.p2align	4
124:
	movl	(%r12,%rdx), %esi
	movl	%esi, (%rdi,%rdx)
	addq	$4, %rdx
	cmpq	%rdx, %rcx
	jne	124b
	cmpq	%rcx, %r13
	je	80b
	jmp	62b
125:
	xorps	%xmm0, %xmm0
	leaq	16(%rsp), %rcx
	movups	%xmm0, (%rcx)
	movl	$0, 52(%rcx)
	movl	$0, 49(%rcx)
	leaq	7(%rsp), %rax
	movq	%rax, 8(%rsp)
	movq	$0, 56(%rsp)
	movb	$0, 64(%rsp)
	movl	$32, 32(%rsp)
	movl	$0, 28(%rcx)
	movq	$0, 20(%rcx)
	movq	$-1, 48(%rsp)
	leaq	8(%rsp), %rdi
	callq	"std_alloc::vec::Vec::grow_amortized::<#1d775b5957dec42c>"
	testb	%al, %al
	movq	496(%rsp), %rsi
	je	164f
	movq	24(%rsp), %r15
	movq	8(%rsp), %r10
	movq	16(%rsp), %r14
	leaq	(%r10,%r14), %rdi
	movq	%rdi, %rax
	subq	%rsi, %rax
	movq	504(%rsp), %rdx
	cmpq	%rdx, %rax
	jae	135f
	cmpq	$4, %rdx
	jb	126f
	movq	%r14, %rax
	subq	%rsi, %rax
	addq	%r10, %rax
	cmpq	$32, %rax
	jae	147f
126:
	xorl	%ecx, %ecx
127:
	movq	%rcx, %rax
	cmpq	$0, 184(%rsp)
	movq	%rsi, %r8
	je	129f
	movq	184(%rsp), %rdx
	movq	%rcx, %rax
	.p2align	4
128:
	movzbl	(%r8,%rax), %esi
	movb	%sil, (%rdi,%rax)
	incq	%rax
	decq	%rdx
	jne	128b
129:
	movq	504(%rsp), %rbx
	subq	%rbx, %rcx
	cmpq	$-4, %rcx
	ja	136f
	movq	%r8, %rsi
	leaq	(%r10,%r14), %rcx
	addq	$3, %rcx
	.p2align	4
130:
	movzbl	(%rsi,%rax), %edx
	movb	%dl, -3(%rcx,%rax)
	movzbl	1(%rsi,%rax), %edx
	movb	%dl, -2(%rcx,%rax)
	movzbl	2(%rsi,%rax), %edx
	movb	%dl, -1(%rcx,%rax)
	movzbl	3(%rsi,%rax), %edx
	movb	%dl, (%rcx,%rax)
	addq	$4, %rax
	cmpq	%rax, %rbx
	jne	130b
	jmp	136f
131:
	leaq	8(%rsp), %rdi
	movq	%r15, %rsi
	callq	"std_alloc::vec::Vec::grow_amortized::<#1d775b5957dec42c>"
	testb	%al, %al
	je	163f
	movq	8(%rsp), %r13
	movq	16(%rsp), %r12
	movq	24(%rsp), %r14
	movq	128(%rsp), %r15
	movq	136(%rsp), %rsi
	jmp	28b
132:
	movq	%rsi, %r12
	leaq	8(%rsp), %rdi
	movq	%rbx, %rsi
	callq	"std_alloc::vec::Vec::grow_amortized::<#1d775b5957dec42c>"
	testb	%al, %al
	je	163f
	movq	16(%rsp), %r14
	movq	24(%rsp), %r15
	movq	%r12, %rsi
	jmp	37b
133:
	leaq	8(%rsp), %rdi
	movl	$1, %esi
	callq	"std_alloc::vec::Vec::grow_amortized::<#1d775b5957dec42c>"
	testb	%al, %al
	je	163f
	movq	8(%rsp), %r8
	movq	16(%rsp), %r15
	movq	24(%rsp), %r9
	jmp	58b
134:
	leaq	8(%rsp), %rdi
	movq	%r13, %rsi
	callq	"std_alloc::vec::Vec::grow_amortized::<#1d775b5957dec42c>"
	testb	%al, %al
	je	163f
	movq	16(%rsp), %rax
	movq	24(%rsp), %r14
	jmp	60b
135:
	movq	%rdx, %rbx
	movq	%r10, 120(%rsp)
	callq	memmove@PLT
	movq	120(%rsp), %r10
136:
	addq	%rbx, %r14
	movq	%r14, 16(%rsp)
	movl	$32, 32(%rsp)
	leaq	16(%rsp), %rax
	movl	$0, 28(%rax)
	movq	$0, 20(%rax)
	movq	$-1, 48(%rsp)
	cmpq	$0, 56(%rsp)
	jne	153f
	cmpq	%r14, %r15
	je	159f
137:
	movb	$45, (%r10,%r14)
	incq	%r14
	movq	%r14, 16(%rsp)
	movq	%r15, 24(%rsp)
138:
	movl	$32, 32(%rsp)
	leaq	16(%rsp), %rax
	movl	$0, 28(%rax)
	movq	$0, 20(%rax)
	movq	$-1, 48(%rsp)
	cmpq	$0, 56(%rsp)
	jne	154f
	movq	16(%rsp), %rax
	movq	24(%rsp), %r14
	movq	%r14, %rcx
	subq	%rax, %rcx
	cmpq	%rcx, %r13
	ja	160f
139:
	leaq	(%rax,%r13), %r15
	movq	8(%rsp), %rbx
	leaq	(%rbx,%rax), %rdi
	movq	%rdi, %rcx
	subq	%r12, %rcx
	cmpq	%r13, %rcx
	jae	145f
	cmpq	$4, %r13
	jb	140f
	cmpq	$32, %rcx
	jae	148f
140:
	xorl	%ecx, %ecx
141:
	movq	%r13, %rsi
	movq	%rcx, %rdx
	andq	$3, %rsi
	je	143f
	movq	%rcx, %rdx
	.p2align	4
142:
	movzbl	(%r12,%rdx), %r8d
	movb	%r8b, (%rdi,%rdx)
	incq	%rdx
	decq	%rsi
	jne	142b
143:
	subq	%r13, %rcx
	cmpq	$-4, %rcx
	ja	146f
	addq	%rbx, %rax
	addq	$3, %rax
	.p2align	4
144:
	movzbl	(%r12,%rdx), %ecx
	movb	%cl, -3(%rax,%rdx)
	movzbl	1(%r12,%rdx), %ecx
	movb	%cl, -2(%rax,%rdx)
	movzbl	2(%r12,%rdx), %ecx
	movb	%cl, -1(%rax,%rdx)
	movzbl	3(%r12,%rdx), %ecx
	movb	%cl, (%rax,%rdx)
	addq	$4, %rdx
	cmpq	%rdx, %r13
	jne	144b
	jmp	146f
145:
	movq	%r12, %rsi
	movq	%r13, %rdx
	callq	memmove@PLT
146:
	movq	%r15, %r13
	jmp	97b
147:
	cmpq	$32, %rdx
	jae	149f
	xorl	%eax, %eax
	jmp	151f
148:
	cmpq	$32, %r13
	jae	155f
	xorl	%ecx, %ecx
	jmp	157f
149:
	leaq	(%r10,%r14), %rax
	addq	$16, %rax
	xorl	%ecx, %ecx
	movq	176(%rsp), %rdx
150:
	movups	(%rsi,%rcx), %xmm0
	movups	16(%rsi,%rcx), %xmm1
	movups	%xmm0, -16(%rax,%rcx)
	movups	%xmm1, (%rax,%rcx)
	addq	$32, %rcx
	cmpq	%rcx, %rdx
	jne	150b
	movq	504(%rsp), %rbx
	cmpq	%rdx, %rbx
	je	136b
	movq	176(%rsp), %rcx
	movq	%rcx, %rax
	testb	$28, %bl
	je	127b
151:
	movq	232(%rsp), %rdx
	.p2align	4
152:
	movl	(%rsi,%rax), %ecx
	movl	%ecx, (%rdi,%rax)
	addq	$4, %rax
	cmpq	%rax, %rdx
	jne	152b
	movq	%rdx, %rcx
	movq	504(%rsp), %rbx
	cmpq	%rdx, %rbx
	je	136b
	jmp	127b
153:
	leaq	.Lc1b0ea49b06c(%rip), %rsi
	leaq	8(%rsp), %rdi
	movl	$1, %edx
	callq	"core::fmt::formatter::Formatter::write_indented::<#0a7ff941e43d6b30>"
	testb	%al, %al
	je	138b
	jmp	164f
154:
	leaq	8(%rsp), %rdi
	movq	%r12, %rsi
	movq	%r13, %rdx
	callq	"core::fmt::formatter::Formatter::write_indented::<#0a7ff941e43d6b30>"
	testb	%al, %al
	jne	164f
	movq	8(%rsp), %rbx
	movq	16(%rsp), %r13
	movq	24(%rsp), %r14
	jmp	97b
155:
	movq	%r13, %rcx
	andq	$-32, %rcx
	leaq	(%rbx,%rax), %rdx
	addq	$16, %rdx
	xorl	%esi, %esi
156:
	movups	(%r12,%rsi), %xmm0
	movups	16(%r12,%rsi), %xmm1
	movups	%xmm0, -16(%rdx,%rsi)
	movups	%xmm1, (%rdx,%rsi)
	addq	$32, %rsi
	cmpq	%rsi, %rcx
	jne	156b
	cmpq	%rcx, %r13
	je	146b
	testb	$28, %r13b
	je	141b
157:
	movq	%rcx, %rdx
	movq	%r13, %rcx
	andq	$-4, %rcx
	.p2align	4
158:
	movl	(%r12,%rdx), %esi
	movl	%esi, (%rdi,%rdx)
	addq	$4, %rdx
	cmpq	%rdx, %rcx
	jne	158b
	cmpq	%rcx, %r13
	je	146b
	jmp	141b
159:
	leaq	8(%rsp), %rdi
	movl	$1, %esi
	callq	"std_alloc::vec::Vec::grow_amortized::<#1d775b5957dec42c>"
	testb	%al, %al
	je	164f
	movq	8(%rsp), %r10
	movq	16(%rsp), %r14
	movq	24(%rsp), %r15
	jmp	137b
160:
	leaq	8(%rsp), %rdi
	movq	%r13, %rsi
	callq	"std_alloc::vec::Vec::grow_amortized::<#1d775b5957dec42c>"
	testb	%al, %al
	je	164f
	movq	16(%rsp), %rax
	movq	24(%rsp), %r14
	jmp	139b
161:
	xorl	%eax, %eax
	jmp	169f
162:
	testq	%rax, %rax
	jne	167f
	jmp	168f
163:
	cmpq	$0, 24(%rsp)
	je	166f
	movq	8(%rsp), %rdi
	callq	rattle_dealloc@PLT
	jmp	166f
164:
	cmpq	$0, 24(%rsp)
	je	165f
	movq	8(%rsp), %rdi
	callq	rattle_dealloc@PLT
165:
	cmpb	$1, 76(%rsp)
	jne	168f
166:
	cmpq	$0, 96(%rsp)
	je	168f
167:
	movq	80(%rsp), %rdi
	callq	rattle_dealloc@PLT
168:
	movb	$1, %al
169:
	addq	$440, %rsp
	popq	%rbx
	popq	%r12
	popq	%r13
	popq	%r14
	popq	%r15
	popq	%rbp
	retq
170:
	.size	"clap::builder::command::building::name_each", 170b-"clap::builder::command::building::name_each"

	.text
	.p2align	4
	.type	"clap::builder::command::building::name_levels",@function
"clap::builder::command::building::name_levels":
	pushq	%rbp
	pushq	%r15
	pushq	%r14
	pushq	%r13
	pushq	%r12
	pushq	%rbx
	subq	$344, %rsp
	xorps	%xmm0, %xmm0
	movaps	%xmm0, 80(%rsp)
	movaps	%xmm0, 64(%rsp)
	testq	%rdi, %rdi
	je	1f
	movq	%rsi, %rbp
	cmpq	$0, 608(%rsi)
	je	1f
	movq	%rdi, 56(%rsp)
	movaps	%xmm0, 128(%rsp)
	movq	$0, 144(%rsp)
	movaps	%xmm0, 240(%rsp)
	movaps	%xmm0, 256(%rsp)
	movaps	%xmm0, 208(%rsp)
	movaps	%xmm0, 224(%rsp)
	movaps	%xmm0, 160(%rsp)
	movaps	%xmm0, 176(%rsp)
	movq	$0, 192(%rsp)
	movl	$1, %edi
	movl	$1, %esi
	callq	rattle_alloc@PLT
	testb	$1, %al
	je	27f
	movq	%rdx, %rbx
	movb	$32, (%rdx)
	movq	%rdx, 104(%rsp)
	movq	$1, 112(%rsp)
	movq	$1, 120(%rsp)
	cmpb	$0, 666(%rbp)
	je	2f
	movl	$1, %eax
	movq	%rax, 32(%rsp)
	xorl	%r15d, %r15d
	jmp	4f
1:
	xorl	%eax, %eax
	jmp	28f
2:
	cmpb	$0, 664(%rbp)
	je	5f
3:
	cmpq	$0, 120(%rsp)
	sete	%r15b
	movq	104(%rsp), %rbx
	movq	112(%rsp), %rax
	movq	%rax, 32(%rsp)
4:
	movzbl	80(%rbp), %r8d
	xorl	%r12d, %r12d
	movl	$0, %r14d
	cmpq	$1, %r8
	jne	21f
	movq	88(%rbp), %r13
	movq	96(%rbp), %r14
	testq	%r14, %r14
	je	7f
	js	6f
	movl	$1, %esi
	movq	%r14, %rdi
	movq	%r8, %r12
	callq	rattle_alloc@PLT
	testb	$1, %al
	je	6f
	movq	%r12, %r8
	movq	%rdx, %r12
	jmp	8f
5:
	leaq	240(%rsp), %rdi
	movq	%rbp, %rsi
	callq	"clap::builder::command::Command::required_ids"
	cmpb	$0, 240(%rsp)
	jne	25f
	movq	248(%rsp), %r14
	movq	256(%rsp), %rax
	movq	264(%rsp), %r15
	movq	%rax, 8(%rsp)
	movq	%r14, (%rsp)
	leaq	208(%rsp), %rdi
	leaq	24(%rsp), %rdx
	movq	%rbp, %rsi
	xorl	%ecx, %ecx
	xorl	%r8d, %r8d
	xorl	%r9d, %r9d
	callq	"clap::output::usage::required_usage_from"
	cmpb	$0, 208(%rsp)
	je	10f
	testq	%r15, %r15
	je	25f
	movq	%r14, %rdi
	callq	rattle_dealloc@PLT
	jmp	25f
6:
	movb	$1, %al
	testb	%r15b, %r15b
	je	25f
	jmp	28f
7:
	leaq	24(%rsp), %r12
8:
	movq	%r12, %rcx
	subq	%r13, %rcx
	cmpq	%r14, %rcx
	jae	9f
	xorl	%eax, %eax
	cmpq	$4, %r14
	jb	17f
	cmpq	$32, %rcx
	jb	17f
	cmpq	$32, %r14
	jae	13f
	xorl	%eax, %eax
	jmp	15f
9:
	movq	%r12, %rdi
	movq	%r13, %rsi
	movq	%r14, %rdx
	movq	%r8, %r13
	callq	memmove@PLT
	movq	%r13, %r8
	jmp	21f
10:
	movq	216(%rsp), %rax
	movq	%rax, 32(%rsp)
	movq	224(%rsp), %rbx
	movq	232(%rsp), %rax
	movq	%rax, 48(%rsp)
	testq	%rbx, %rbx
	je	34f
	xorl	%r13d, %r13d
	movq	32(%rsp), %r12
	jmp	12f
11:
	incq	%r13
	addq	$24, %r12
	cmpq	%r13, %rbx
	je	34f
12:
	movq	16(%r12), %rax
	movq	%rax, 144(%rsp)
	movups	(%r12), %xmm0
	movaps	%xmm0, 128(%rsp)
	leaq	128(%rsp), %rax
	movq	%rax, 280(%rsp)
	leaq	.L9b770efd7ae0(%rip), %rax
	movq	%rax, 288(%rsp)
	movq	$1, 296(%rsp)
	leaq	104(%rsp), %rdi
	leaq	280(%rsp), %rsi
	callq	"std_alloc::string::String::write_fmt::<#2099f3822be05dd7>"
	movq	144(%rsp), %rcx
	testb	%al, %al
	jne	57f
	testq	%rcx, %rcx
	je	11b
	movq	128(%rsp), %rdi
	callq	rattle_dealloc@PLT
	jmp	11b
13:
	movq	%r14, %rax
	andq	$-32, %rax
	xorl	%ecx, %ecx
14:
	movups	(%r13,%rcx), %xmm0
	movups	16(%r13,%rcx), %xmm1
	movups	%xmm0, (%r12,%rcx)
	movups	%xmm1, 16(%r12,%rcx)
	addq	$32, %rcx
	cmpq	%rcx, %rax
	jne	14b
	cmpq	%rax, %r14
	je	21f
	testb	$28, %r14b
	je	17f
15:
	movq	%rax, %rcx
	movq	%r14, %rax
	andq	$-4, %rax
	.p2align	4
16:
	movl	(%r13,%rcx), %edx
	movl	%edx, (%r12,%rcx)
	addq	$4, %rcx
	cmpq	%rcx, %rax
	jne	16b
	cmpq	%rax, %r14
	je	21f
17:
	movq	%r14, %rdx
	movq	%rax, %rcx
	andq	$3, %rdx
	je	19f
	movq	%rax, %rcx
	.p2align	4
18:
	movzbl	(%r13,%rcx), %esi
	movb	%sil, (%r12,%rcx)
	incq	%rcx
	decq	%rdx
	jne	18b
19:
	subq	%r14, %rax
	cmpq	$-4, %rax
	ja	21f
	.p2align	4
20:
	movzbl	(%r13,%rcx), %eax
	movb	%al, (%r12,%rcx)
	movzbl	1(%r13,%rcx), %eax
	movb	%al, 1(%r12,%rcx)
	movzbl	2(%r13,%rcx), %eax
	movb	%al, 2(%r12,%rcx)
	movzbl	3(%r13,%rcx), %eax
	movb	%al, 3(%r12,%rcx)
	addq	$4, %rcx
	cmpq	%rcx, %r14
	jne	20b
21:
	movl	%r15d, 48(%rsp)
	leaq	600(%rbp), %r11
	movq	%r8, 64(%rsp)
	leaq	72(%rsp), %r10
	movq	%r12, 72(%rsp)
	movq	%r14, 80(%rsp)
	movq	%r14, 88(%rsp)
	cmpb	$1, 48(%rbp)
	jne	22f
	movq	56(%rbp), %r15
	movq	64(%rbp), %rbp
	testq	%rbp, %rbp
	je	29f
	js	23f
	movl	$1, %esi
	movq	%rbp, %rdi
	movq	%r8, %r13
	movq	%rbx, 40(%rsp)
	movq	%r11, %rbx
	callq	rattle_alloc@PLT
	leaq	72(%rsp), %r10
	movq	%rbx, %r11
	movq	40(%rsp), %rbx
	movq	%r13, %r8
	testb	$1, %al
	je	23f
	movq	%rdx, %r13
	jmp	30f
22:
	movq	(%rbp), %r15
	movq	8(%rbp), %rbp
	testq	%rbp, %rbp
	je	31f
	js	23f
	movl	$1, %esi
	movq	%rbp, %rdi
	movq	%r8, %r13
	movq	%rbx, 40(%rsp)
	movq	%r11, %rbx
	callq	rattle_alloc@PLT
	leaq	72(%rsp), %r10
	movq	%rbx, %r11
	movq	40(%rsp), %rbx
	movq	%r13, %r8
	testb	$1, %al
	je	23f
	movq	%rdx, %r13
	jmp	32f
23:
	cmpl	$1, %r8d
	setne	%al
	testq	%r14, %r14
	sete	%cl
	orb	%al, %cl
	jne	24f
	movq	%r12, %rdi
	callq	rattle_dealloc@PLT
24:
	movb	$1, %al
	cmpb	$0, 48(%rsp)
	jne	28f
25:
	movq	%rbx, %rdi
26:
	callq	rattle_dealloc@PLT
27:
	movb	$1, %al
28:
	addq	$344, %rsp
	popq	%rbx
	popq	%r12
	popq	%r13
	popq	%r14
	popq	%r15
	popq	%rbp
	retq
29:
	leaq	24(%rsp), %r13
30:
	movq	%r13, %rcx
	subq	%r15, %rcx
	cmpq	%rbp, %rcx
	movq	32(%rsp), %r9
	jae	33f
	xorl	%eax, %eax
	cmpq	$4, %rbp
	jb	35f
	cmpq	$32, %rcx
	movq	56(%rsp), %rdi
	jb	41f
	cmpq	$32, %rbp
	jae	37f
	xorl	%eax, %eax
	jmp	39f
31:
	leaq	24(%rsp), %r13
32:
	movq	%r13, %rcx
	subq	%r15, %rcx
	cmpq	%rbp, %rcx
	movq	32(%rsp), %r9
	jae	33f
	xorl	%eax, %eax
	cmpq	$4, %rbp
	jb	36f
	cmpq	$32, %rcx
	movq	56(%rsp), %rdi
	jb	49f
	cmpq	$32, %rbp
	jae	45f
	xorl	%eax, %eax
	jmp	47f
33:
	movq	%r9, 32(%rsp)
	movq	%r10, %r14
	movq	%r11, 40(%rsp)
	movq	%r8, %r12
	movq	%r13, %rdi
	movq	%r15, %rsi
	movq	%rbp, %rdx
	callq	memmove@PLT
	xorl	%ecx, %ecx
	movq	%r12, %rdx
	cmpq	$1, %r12
	cmoveq	%r14, %rcx
	movq	%rbp, 8(%rsp)
	movq	%r13, (%rsp)
	movq	56(%rsp), %rdi
	movq	40(%rsp), %rsi
	movq	%rbx, %r8
	movq	32(%rsp), %r9
	callq	"clap::builder::command::building::name_each"
	testq	%rbp, %rbp
	movl	48(%rsp), %r14d
	jne	54f
	jmp	55f
34:
	movq	32(%rsp), %rax
	movq	%rax, 304(%rsp)
	movq	$0, 312(%rsp)
	movq	48(%rsp), %rax
	movq	%rax, 320(%rsp)
	movq	%rbx, 328(%rsp)
	movq	$0, 336(%rsp)
	leaq	304(%rsp), %rdi
	callq	"std_alloc::vec::deque::VecDeque::drop::<#2d89a01c2ecea42b>"
	testq	%r15, %r15
	je	3b
	movq	%r14, %rdi
	callq	rattle_dealloc@PLT
	jmp	3b
35:
	movq	56(%rsp), %rdi
	jmp	41f
36:
	movq	56(%rsp), %rdi
	jmp	49f
37:
	movq	%rbp, %rax
	andq	$-32, %rax
	xorl	%ecx, %ecx
38:
	movups	(%r15,%rcx), %xmm0
	movups	16(%r15,%rcx), %xmm1
	movups	%xmm0, (%r13,%rcx)
	movups	%xmm1, 16(%r13,%rcx)
	addq	$32, %rcx
	cmpq	%rcx, %rax
	jne	38b
	cmpq	%rax, %rbp
	je	53f
	testb	$28, %bpl
	je	41f
39:
	movq	%rax, %rcx
	movq	%rbp, %rax
	andq	$-4, %rax
40:
	movl	(%r15,%rcx), %edx
	movl	%edx, (%r13,%rcx)
	addq	$4, %rcx
	cmpq	%rcx, %rax
	jne	40b
	cmpq	%rax, %rbp
	je	53f
41:
	movq	%rbp, %rdx
	movq	%rax, %rcx
	andq	$3, %rdx
	je	43f
	movq	%rax, %rcx
	.p2align	4
42:
	movzbl	(%r15,%rcx), %esi
	movb	%sil, (%r13,%rcx)
	incq	%rcx
	decq	%rdx
	jne	42b
43:
	subq	%rbp, %rax
	cmpq	$-4, %rax
	ja	53f
44:
	movzbl	(%r15,%rcx), %eax
	movb	%al, (%r13,%rcx)
	movzbl	1(%r15,%rcx), %eax
	movb	%al, 1(%r13,%rcx)
	movzbl	2(%r15,%rcx), %eax
	movb	%al, 2(%r13,%rcx)
	movzbl	3(%r15,%rcx), %eax
	movb	%al, 3(%r13,%rcx)
	addq	$4, %rcx
	cmpq	%rcx, %rbp
	jne	44b
	jmp	53f
45:
	movq	%rbp, %rax
	andq	$-32, %rax
	xorl	%ecx, %ecx
46:
	movups	(%r15,%rcx), %xmm0
	movups	16(%r15,%rcx), %xmm1
	movups	%xmm0, (%r13,%rcx)
	movups	%xmm1, 16(%r13,%rcx)
	addq	$32, %rcx
	cmpq	%rcx, %rax
	jne	46b
	cmpq	%rax, %rbp
	je	53f
	testb	$28, %bpl
	je	49f
47:
	movq	%rax, %rcx
	movq	%rbp, %rax
	andq	$-4, %rax
48:
	movl	(%r15,%rcx), %edx
	movl	%edx, (%r13,%rcx)
	addq	$4, %rcx
	cmpq	%rcx, %rax
	jne	48b
	cmpq	%rax, %rbp
	je	53f
49:
	movq	%rbp, %rdx
	movq	%rax, %rcx
	andq	$3, %rdx
	je	51f
	movq	%rax, %rcx
	.p2align	4
50:
	movzbl	(%r15,%rcx), %esi
	movb	%sil, (%r13,%rcx)
	incq	%rcx
	decq	%rdx
	jne	50b
51:
	subq	%rbp, %rax
	cmpq	$-4, %rax
	ja	53f
52:
	movzbl	(%r15,%rcx), %eax
	movb	%al, (%r13,%rcx)
	movzbl	1(%r15,%rcx), %eax
	movb	%al, 1(%r13,%rcx)
	movzbl	2(%r15,%rcx), %eax
	movb	%al, 2(%r13,%rcx)
	movzbl	3(%r15,%rcx), %eax
	movb	%al, 3(%r13,%rcx)
	addq	$4, %rcx
	cmpq	%rcx, %rbp
	jne	52b
53:
	xorl	%ecx, %ecx
	cmpq	$1, %r8
	cmoveq	%r10, %rcx
	movq	%rbp, 8(%rsp)
	movq	%r13, (%rsp)
	movq	%r11, %rsi
	movl	%r8d, %edx
	movq	%rbx, %r8
	callq	"clap::builder::command::building::name_each"
	movl	48(%rsp), %r14d
54:
	movq	%r13, %rdi
	movl	%eax, %ebp
	callq	rattle_dealloc@PLT
	movl	%ebp, %eax
55:
	cmpb	$1, 64(%rsp)
	jne	56f
	cmpq	$0, 88(%rsp)
	je	56f
	movq	72(%rsp), %rdi
	movl	%eax, %ebp
	callq	rattle_dealloc@PLT
	movl	%ebp, %eax
56:
	testb	%r14b, %r14b
	jne	28b
	movq	%rbx, %rdi
	movl	%eax, %ebx
	callq	rattle_dealloc@PLT
	movl	%ebx, %eax
	jmp	28b
57:
	leaq	1(%r13), %r12
	notq	%r13
	addq	%rbx, %r13
	testq	%rcx, %rcx
	je	58f
	movq	128(%rsp), %rdi
	callq	rattle_dealloc@PLT
58:
	movq	32(%rsp), %rax
	movq	%rax, 160(%rsp)
	movq	%r13, 168(%rsp)
	movq	48(%rsp), %rax
	movq	%rax, 176(%rsp)
	movq	%r12, 184(%rsp)
	movq	$0, 192(%rsp)
	leaq	160(%rsp), %rdi
	callq	"std_alloc::vec::deque::VecDeque::drop::<#2d89a01c2ecea42b>"
	testq	%r15, %r15
	je	59f
	movq	%r14, %rdi
	callq	rattle_dealloc@PLT
59:
	cmpq	$0, 120(%rsp)
	je	27b
	movq	104(%rsp), %rdi
	jmp	26b
60:
	.size	"clap::builder::command::building::name_levels", 60b-"clap::builder::command::building::name_levels"

	.section	.rodata.cst16,"aM",@progbits,16
	.p2align	4, 0x0
1:
	.zero	16,1
	.text
	.p2align	4
	.type	"clap::builder::command::insert_id",@function
"clap::builder::command::insert_id":
	pushq	%rbp
	pushq	%r15
	pushq	%r14
	pushq	%r13
	pushq	%r12
	pushq	%rbx
	pushq	%rax
	movq	8(%rdi), %rax
	testq	%rax, %rax
	je	9f
	leaq	-16(%rdx), %rcx
	cmpq	$32, %rcx
	movl	$32, %r8d
	cmovbq	%rcx, %r8
	leaq	-8(%rdx), %r9
	cmpq	$8, %r9
	movl	$8, %r10d
	cmovbq	%r9, %r10
	cmpq	$16, %r9
	movl	$16, %r11d
	cmovbq	%r9, %r11
	movq	(%rdi), %rbx
	movq	%rdx, %r14
	shrq	%r14
	movq	%rax, %r15
	jmp	3f
2:
	movl	(%r12), %r13d
	movl	-4(%r12,%rdx), %r12d
	shlq	$32, %r12
	orq	%r13, %r12
	bswapq	%r12
	movl	(%rsi), %ebp
	movl	-4(%rsi,%rdx), %r13d
	shlq	$32, %r13
	orq	%rbp, %r13
	bswapq	%r13
	cmpq	%r13, %r12
	jne	8f
	jmp	11f
	.p2align	4
3:
	cmpq	%rdx, 8(%rbx)
	jne	8f
	movq	(%rbx), %r12
	cmpq	$7, %rdx
	ja	4f
	cmpq	$4, %rdx
	jae	2b
	testq	%rdx, %rdx
	je	11f
	movzbl	(%r12), %ebp
	movzbl	(%r12,%r14), %r13d
	shll	$16, %ebp
	shll	$8, %r13d
	orl	%ebp, %r13d
	movzbl	-1(%r12,%rdx), %r12d
	orq	%r13, %r12
	movzbl	(%rsi), %ebp
	movzbl	(%rsi,%r14), %ecx
	shll	$16, %ebp
	shll	$8, %ecx
	orl	%ebp, %ecx
	movzbl	-1(%rsi,%rdx), %r13d
	orq	%rcx, %r13
	cmpq	%r13, %r12
	jne	8f
	jmp	11f
	.p2align	4
4:
	cmpq	$32, %rdx
	ja	5f
	movq	(%r12), %rcx
	cmpq	(%rsi), %rcx
	jne	8f
	movq	(%rsi,%r10), %rcx
	cmpq	%rcx, (%r12,%r10)
	jne	8f
	movq	(%rsi,%r11), %rcx
	cmpq	%rcx, (%r12,%r11)
	jne	8f
	movq	(%rsi,%r9), %rcx
	cmpq	%rcx, (%r12,%r9)
	jne	8f
	jmp	11f
5:
	cmpq	$65, %rdx
	jae	6f
	movdqu	(%r12), %xmm0
	movdqu	16(%r12), %xmm1
	movdqu	(%rsi), %xmm2
	pcmpeqb	%xmm0, %xmm2
	movdqu	16(%rsi), %xmm3
	pcmpeqb	%xmm1, %xmm3
	pcmpeqd	%xmm1, %xmm1
	pxor	%xmm1, %xmm2
	pxor	%xmm1, %xmm3
	por	%xmm2, %xmm3
	movdqu	(%r12,%r8), %xmm0
	movdqu	(%rsi,%r8), %xmm2
	pcmpeqb	%xmm0, %xmm2
	pxor	%xmm1, %xmm2
	leaq	-16(%rdx), %rcx
	movdqu	(%r12,%rcx), %xmm4
	movdqu	(%rsi,%rcx), %xmm0
	pcmpeqb	%xmm4, %xmm0
	pxor	%xmm1, %xmm0
	por	%xmm2, %xmm0
	por	%xmm3, %xmm0
	ptest	1b(%rip), %xmm0
	jne	8f
	jmp	11f
6:
	xorl	%r13d, %r13d
	movq	%rdx, %rbp
	.p2align	4
7:
	movdqu	(%r12,%r13), %xmm0
	movdqu	16(%r12,%r13), %xmm1
	movdqu	32(%r12,%r13), %xmm2
	movdqu	48(%r12,%r13), %xmm3
	movdqu	(%rsi,%r13), %xmm4
	pcmpeqb	%xmm0, %xmm4
	movdqu	16(%rsi,%r13), %xmm0
	pcmpeqb	%xmm1, %xmm0
	pand	%xmm4, %xmm0
	movdqu	32(%rsi,%r13), %xmm1
	pcmpeqb	%xmm2, %xmm1
	movdqu	48(%rsi,%r13), %xmm2
	pcmpeqb	%xmm3, %xmm2
	pand	%xmm1, %xmm2
	pand	%xmm0, %xmm2
	pmovmskb	%xmm2, %ecx
	cmpl	$65535, %ecx
	jne	8f
	addq	$64, %r13
	addq	$-64, %rbp
	cmpq	$65, %rbp
	jae	7b
	movdqu	-64(%r12,%rdx), %xmm0
	movdqu	-48(%r12,%rdx), %xmm1
	movdqu	-32(%r12,%rdx), %xmm2
	movdqu	-16(%r12,%rdx), %xmm3
	movdqu	-64(%rsi,%rdx), %xmm4
	pcmpeqb	%xmm0, %xmm4
	movdqu	-48(%rsi,%rdx), %xmm5
	pcmpeqb	%xmm1, %xmm5
	movdqu	-32(%rsi,%rdx), %xmm0
	pcmpeqb	%xmm2, %xmm0
	movdqu	-16(%rsi,%rdx), %xmm1
	pcmpeqb	%xmm3, %xmm1
	pcmpeqd	%xmm2, %xmm2
	pxor	%xmm2, %xmm1
	pxor	%xmm2, %xmm0
	por	%xmm1, %xmm0
	pxor	%xmm2, %xmm4
	pxor	%xmm2, %xmm5
	por	%xmm4, %xmm5
	por	%xmm0, %xmm5
	pxor	%xmm0, %xmm0
	pcmpgtb	%xmm5, %xmm0
	ptest	1b(%rip), %xmm0
	je	11f
	.p2align	4
8:
	addq	$16, %rbx
	decq	%r15
	jne	3b
9:
	cmpq	%rax, 16(%rdi)
	je	13f
10:
	movq	(%rdi), %rcx
	movq	%rax, %r8
	shlq	$4, %r8
	movq	%rsi, (%rcx,%r8)
	movq	%rdx, 8(%rcx,%r8)
	incq	%rax
	movq	%rax, 8(%rdi)
11:
	xorl	%eax, %eax
12:
	addq	$8, %rsp
	popq	%rbx
	popq	%r12
	popq	%r13
	popq	%r14
	popq	%r15
	popq	%rbp
	retq
13:
	movq	%rsi, %rbx
	movq	%rdx, %r14
	movl	$1, %esi
	movq	%rdi, %r15
	callq	"std_alloc::vec::Vec::grow_amortized::<#3af3ba23e56e6a09>"
	movl	%eax, %ecx
	movb	$1, %al
	testb	%cl, %cl
	je	12b
	movq	%r15, %rdi
	movq	8(%r15), %rax
	movq	%r14, %rdx
	movq	%rbx, %rsi
	jmp	10b
14:
	.size	"clap::builder::command::insert_id", 14b-"clap::builder::command::insert_id"

	.text
	.p2align	4
	.type	"clap::builder::possible_value::any_name",@function
"clap::builder::possible_value::any_name":
	testq	%rsi, %rsi
	je	4f
	pushq	%r15
	pushq	%r14
	pushq	%r12
	pushq	%rbx
	pushq	%rax
	movq	%rcx, %rbx
	movq	%rdx, %r14
	movq	%rsi, %r15
	movq	%rdi, %r12
	testb	%r8b, %r8b
	je	5f
	xorl	%ecx, %ecx
	jmp	2f
	.p2align	4
1:
	incq	%rcx
	cmpq	%r15, %rcx
	je	11f
2:
	movq	%rcx, %rdx
	shlq	$4, %rdx
	cmpq	%rbx, 8(%r12,%rdx)
	jne	1b
	movb	$1, %al
	testq	%rbx, %rbx
	je	12f
	movq	(%r12,%rdx), %rdx
	xorl	%esi, %esi
	.p2align	4
3:
	movzbl	(%rdx,%rsi), %edi
	leal	-65(%rdi), %r8d
	leal	32(%rdi), %r9d
	cmpb	$26, %r8b
	movzbl	%r9b, %r8d
	cmovael	%edi, %r8d
	movzbl	(%r14,%rsi), %edi
	leal	-65(%rdi), %r9d
	leal	32(%rdi), %r10d
	cmpb	$26, %r9b
	movzbl	%r10b, %r9d
	cmovael	%edi, %r9d
	cmpb	%r9b, %r8b
	jne	1b
	incq	%rsi
	cmpq	%rsi, %rbx
	jne	3b
	jmp	12f
4:
	xorl	%eax, %eax
	retq
5:
	addq	$8, %r12
	jmp	9f
6:
	xorl	%ecx, %ecx
7:
	cmpq	%rbx, %rcx
	jae	12f
8:
	addq	$16, %r12
	decq	%r15
	je	11f
9:
	cmpq	%rbx, (%r12)
	jne	8b
	movq	-8(%r12), %rdi
	cmpq	$4, %rbx
	jae	10f
	movb	$1, %al
	testq	%rbx, %rbx
	je	12f
	movzbl	(%rdi), %ecx
	cmpb	(%r14), %cl
	jne	6b
	cmpq	$1, %rbx
	je	12f
	movzbl	1(%rdi), %edx
	movl	$1, %ecx
	cmpb	1(%r14), %dl
	jne	7b
	cmpq	$2, %rbx
	je	12f
	movzbl	2(%rdi), %edx
	movl	$2, %ecx
	cmpb	2(%r14), %dl
	jne	7b
	jmp	12f
	.p2align	4
10:
	movl	(%rdi), %eax
	cmpl	(%r14), %eax
	jne	8b
	movq	%rbx, %rsi
	movq	%r14, %rdx
	callq	"core::cmp::slices::groups_equal::<i8,31'core::cmp::numbers::U8PartialEq{}>"
	testb	%al, %al
	je	8b
	movb	$1, %al
	jmp	12f
11:
	xorl	%eax, %eax
12:
	addq	$8, %rsp
	popq	%rbx
	popq	%r12
	popq	%r14
	popq	%r15
	retq
13:
	.size	"clap::builder::possible_value::any_name", 13b-"clap::builder::possible_value::any_name"

	.text
	.p2align	4
	.type	"clap::builder::value_parser::ValueParser::possible_at",@function
"clap::builder::value_parser::ValueParser::possible_at":
	pushq	%rbx
	subq	$16, %rsp
	xorps	%xmm0, %xmm0
	movaps	%xmm0, -112(%rsp)
	movq	$0, -96(%rsp)
	movaps	%xmm0, -16(%rsp)
	movq	$0, (%rsp)
	movaps	%xmm0, -48(%rsp)
	movq	$0, -32(%rsp)
	movzbl	(%rsi), %eax
	leaq	21f(%rip), %rcx
	movslq	(%rcx,%rax,4), %rax
	addq	%rcx, %rax
	jmpq	*%rax
1:
	xorl	%edx, %edx
	xorl	%r9d, %r9d
	xorl	%eax, %eax
	xorl	%ecx, %ecx
	xorl	%r8d, %r8d
	jmp	18f
2:
	cmpq	$5, %rdx
	ja	7f
	shlq	$4, %rdx
	leaq	.L97b0cfc04742(%rip), %rcx
	jmp	8f
3:
	xorl	%eax, %eax
	xorl	%r9d, %r9d
	movl	$0, %ecx
	movl	$0, %r8d
	cmpq	16(%rsi), %rdx
	setb	%r9b
	jae	4f
	movq	8(%rsi), %rcx
	shlq	$4, %rdx
	movq	(%rcx,%rdx), %rax
	movq	8(%rcx,%rdx), %rcx
	leaq	-120(%rsp), %r8
4:
	movq	-32(%rsp), %rdx
	movq	%rdx, -96(%rsp)
	movaps	-48(%rsp), %xmm0
	jmp	17f
5:
	cmpq	$1, %rdx
	je	15f
	xorl	%eax, %eax
	movl	$0, %ecx
	movl	$0, %r8d
	movl	$0, %r9d
	testq	%rdx, %rdx
	jne	16f
	movl	$1, %r9d
	leaq	-120(%rsp), %r8
	movl	$4, %ecx
	leaq	.Lb0d9555b4c30(%rip), %rax
	jmp	16f
6:
	movq	8(%rsi), %r9
	cmpq	16(%rsi), %rdx
	movaps	%xmm0, -80(%rsp)
	movq	$0, -64(%rsp)
	jae	12f
	shlq	$6, %rdx
	movq	(%r9,%rdx), %rax
	movq	8(%r9,%rdx), %rcx
	movq	32(%r9,%rdx), %rsi
	movq	%rsi, -64(%rsp)
	movups	16(%r9,%rdx), %xmm0
	movaps	%xmm0, -80(%rsp)
	movq	40(%r9,%rdx), %r8
	movq	48(%r9,%rdx), %r10
	movzbl	56(%r9,%rdx), %esi
	movzwl	61(%r9,%rdx), %r11d
	movzbl	63(%r9,%rdx), %ebx
	shll	$16, %ebx
	orl	%r11d, %ebx
	shlq	$32, %rbx
	movl	57(%r9,%rdx), %edx
	orq	%rbx, %rdx
	movl	$1, %r9d
	jmp	13f
7:
	addq	$-6, %rdx
	cmpq	$5, %rdx
	ja	14f
	shlq	$4, %rdx
	leaq	.Lf5ac3b24db59(%rip), %rcx
8:
	addq	%rdx, %rcx
	movq	(%rcx), %rax
	movq	8(%rcx), %rcx
	cmpq	$5, %rcx
	je	9f
	movb	$1, %sil
	cmpq	$4, %rcx
	jne	11f
	movl	(%rax), %edx
	movq	%rdx, %rsi
	shlq	$32, %rsi
	orq	%rdx, %rsi
	movabsq	$7310875414349836916, %rdx
	jmp	10f
9:
	movl	(%rax), %edx
	movl	1(%rax), %esi
	shlq	$32, %rsi
	orq	%rdx, %rsi
	movabsq	$7310305785956557158, %rdx
10:
	cmpq	%rdx, %rsi
	setne	%sil
11:
	leaq	-120(%rsp), %r8
	movl	$1, %r9d
	xorl	%edx, %edx
	xorl	%r10d, %r10d
	jmp	19f
12:
	xorl	%edx, %edx
	xorl	%eax, %eax
	xorl	%ecx, %ecx
	xorl	%r8d, %r8d
	xorl	%r10d, %r10d
	xorl	%esi, %esi
	xorl	%r9d, %r9d
13:
	movq	-64(%rsp), %r11
	movq	%r11, -96(%rsp)
	movaps	-80(%rsp), %xmm0
	movaps	%xmm0, -112(%rsp)
	jmp	19f
14:
	movups	%xmm0, 48(%rdi)
	movups	%xmm0, 32(%rdi)
	movups	%xmm0, 16(%rdi)
	movups	%xmm0, (%rdi)
	movq	$0, 64(%rdi)
	addq	$16, %rsp
	popq	%rbx
	retq
15:
	movl	$1, %r9d
	leaq	-120(%rsp), %r8
	movl	$5, %ecx
	leaq	.L2a504c07f025(%rip), %rax
16:
	movq	(%rsp), %rdx
	movq	%rdx, -96(%rsp)
	movaps	-16(%rsp), %xmm0
17:
	movaps	%xmm0, -112(%rsp)
	xorl	%edx, %edx
18:
	xorl	%r10d, %r10d
	xorl	%esi, %esi
19:
	movq	%r9, (%rdi)
	movq	%rax, 8(%rdi)
	movq	%rcx, 16(%rdi)
	movaps	-112(%rsp), %xmm0
	movups	%xmm0, 24(%rdi)
	movq	-96(%rsp), %rax
	movq	%rax, 40(%rdi)
	movq	%r8, 48(%rdi)
	movq	%r10, 56(%rdi)
	movb	%sil, 64(%rdi)
	movq	%rdx, %rax
	shrq	$48, %rax
	movb	%al, 71(%rdi)
	movq	%rdx, %rax
	shrq	$32, %rax
	movw	%ax, 69(%rdi)
	movl	%edx, 65(%rdi)
	addq	$16, %rsp
	popq	%rbx
	retq
20:
	.size	"clap::builder::value_parser::ValueParser::possible_at", 20b-"clap::builder::value_parser::ValueParser::possible_at"
	.section	.rodata,"a",@progbits
	.p2align	2, 0x0
21:
	.long	1b-21b
	.long	1b-21b
	.long	5b-21b
	.long	2b-21b
	.long	2b-21b
	.long	1b-21b
	.long	1b-21b
	.long	1b-21b
	.long	1b-21b
	.long	3b-21b
	.long	6b-21b

	.text
	.p2align	4
	.type	"clap::clap++builder++arg++Arg+Destruct::drop",@function
"clap::clap++builder++arg++Arg+Destruct::drop":
	pushq	%rbp
	pushq	%r15
	pushq	%r14
	pushq	%r13
	pushq	%r12
	pushq	%rbx
	subq	$120, %rsp
	movq	120(%rdi), %r12
	movq	136(%rdi), %r15
	movq	144(%rdi), %rax
	movq	%rax, 8(%rsp)
	movq	160(%rdi), %rbx
	movq	168(%rdi), %rax
	movq	%rax, 16(%rsp)
	movq	184(%rdi), %r14
	movq	192(%rdi), %rax
	movq	%rax, 24(%rsp)
	movq	208(%rdi), %rbp
	movq	216(%rdi), %rax
	movq	%rax, 32(%rsp)
	movq	232(%rdi), %r13
	movq	240(%rdi), %rax
	movq	%rax, 40(%rsp)
	movq	256(%rdi), %rax
	movq	%rax, 80(%rsp)
	movq	264(%rdi), %rax
	movq	%rax, 56(%rsp)
	movq	280(%rdi), %rax
	movq	%rax, 96(%rsp)
	cmpq	$0, 112(%rdi)
	movq	288(%rdi), %rax
	movq	%rax, 48(%rsp)
	movq	304(%rdi), %rax
	movq	%rax, 88(%rsp)
	movq	312(%rdi), %rax
	movq	%rax, 64(%rsp)
	movq	328(%rdi), %rax
	movq	%rax, 104(%rsp)
	movq	384(%rdi), %rax
	movq	%rax, 72(%rsp)
	movq	400(%rdi), %rax
	movq	%rax, 112(%rsp)
	je	1f
	movq	96(%rdi), %rdi
	callq	rattle_dealloc@PLT
1:
	testq	%r15, %r15
	je	2f
	movq	%r12, %rdi
	callq	rattle_dealloc@PLT
2:
	testq	%rbx, %rbx
	je	3f
	movq	8(%rsp), %rdi
	callq	rattle_dealloc@PLT
3:
	testq	%r14, %r14
	je	4f
	movq	16(%rsp), %rdi
	callq	rattle_dealloc@PLT
4:
	testq	%rbp, %rbp
	je	5f
	movq	24(%rsp), %rdi
	callq	rattle_dealloc@PLT
5:
	testq	%r13, %r13
	je	6f
	movq	32(%rsp), %rdi
	callq	rattle_dealloc@PLT
6:
	cmpq	$0, 80(%rsp)
	je	7f
	movq	40(%rsp), %rdi
	callq	rattle_dealloc@PLT
7:
	cmpq	$0, 96(%rsp)
	je	8f
	movq	56(%rsp), %rdi
	callq	rattle_dealloc@PLT
8:
	cmpq	$0, 88(%rsp)
	je	9f
	movq	48(%rsp), %rdi
	callq	rattle_dealloc@PLT
9:
	cmpq	$0, 104(%rsp)
	je	10f
	movq	64(%rsp), %rdi
	callq	rattle_dealloc@PLT
10:
	cmpq	$0, 112(%rsp)
	je	11f
	movq	72(%rsp), %rdi
	addq	$120, %rsp
	popq	%rbx
	popq	%r12
	popq	%r13
	popq	%r14
	popq	%r15
	popq	%rbp
	jmp	rattle_dealloc@PLT
11:
	addq	$120, %rsp
	popq	%rbx
	popq	%r12
	popq	%r13
	popq	%r14
	popq	%r15
	popq	%rbp
	retq
12:
	.size	"clap::clap++builder++arg++Arg+Destruct::drop", 12b-"clap::clap++builder++arg++Arg+Destruct::drop"

	.text
	.p2align	4
	.type	"clap::clap++builder++command++Command+Destruct::drop",@function
"clap::clap++builder++command++Command+Destruct::drop":
	pushq	%rbp
	pushq	%r15
	pushq	%r14
	pushq	%r13
	pushq	%r12
	pushq	%rbx
	subq	$792, %rsp
	movzbl	80(%rdi), %ebx
	movq	88(%rdi), %r14
	movq	104(%rdi), %rdx
	movzbl	112(%rdi), %ebp
	movq	120(%rdi), %rax
	movq	%rax, 16(%rsp)
	movq	136(%rdi), %rax
	movq	%rax, 48(%rsp)
	movq	360(%rdi), %rax
	movq	%rax, 24(%rsp)
	movq	376(%rdi), %rax
	movq	%rax, 56(%rsp)
	movq	384(%rdi), %rax
	movq	%rax, 32(%rsp)
	movq	400(%rdi), %rax
	movq	%rax, 64(%rsp)
	movq	408(%rdi), %rax
	movq	%rax, 40(%rsp)
	movq	424(%rdi), %rax
	movq	%rax, 72(%rsp)
	movq	576(%rdi), %rax
	movq	%rax, 88(%rsp)
	movq	584(%rdi), %r13
	movq	592(%rdi), %rax
	movq	%rax, 80(%rsp)
	cmpb	$0, 48(%rdi)
	movq	600(%rdi), %rax
	movq	%rax, 104(%rsp)
	movq	608(%rdi), %r15
	movq	616(%rdi), %rax
	movq	%rax, 96(%rsp)
	movq	624(%rdi), %rax
	movq	%rax, 8(%rsp)
	movq	632(%rdi), %r12
	movq	640(%rdi), %rax
	movq	%rax, 112(%rsp)
	je	1f
	cmpq	$0, 72(%rdi)
	je	1f
	movq	56(%rdi), %rdi
	movb	%bpl, 7(%rsp)
	movq	%rdx, %rbp
	callq	rattle_dealloc@PLT
	movq	%rbp, %rdx
	movzbl	7(%rsp), %ebp
1:
	testb	%bl, %bl
	je	2f
	testq	%rdx, %rdx
	je	2f
	movq	%r14, %rdi
	callq	rattle_dealloc@PLT
2:
	testb	%bpl, %bpl
	je	3f
	cmpq	$0, 48(%rsp)
	je	3f
	movq	16(%rsp), %rdi
	callq	rattle_dealloc@PLT
3:
	cmpq	$0, 56(%rsp)
	movq	88(%rsp), %rbp
	je	4f
	movq	24(%rsp), %rdi
	callq	rattle_dealloc@PLT
4:
	cmpq	$0, 64(%rsp)
	je	5f
	movq	32(%rsp), %rdi
	callq	rattle_dealloc@PLT
5:
	cmpq	$0, 72(%rsp)
	je	6f
	movq	40(%rsp), %rdi
	callq	rattle_dealloc@PLT
6:
	testq	%r13, %r13
	je	8f
	movq	%rbp, %rbx
	.p2align	4
7:
	leaq	120(%rsp), %r14
	movl	$608, %edx
	movq	%r14, %rdi
	movq	%rbx, %rsi
	callq	memcpy@PLT
	movq	%r14, %rdi
	callq	"clap::clap++builder++arg++Arg+Destruct::drop"
	addq	$608, %rbx
	decq	%r13
	jne	7b
8:
	cmpq	$0, 80(%rsp)
	je	9f
	movq	%rbp, %rdi
	callq	rattle_dealloc@PLT
9:
	testq	%r15, %r15
	movq	104(%rsp), %r13
	je	11f
	movq	%r13, %rbx
	.p2align	4
10:
	leaq	120(%rsp), %r14
	movl	$672, %edx
	movq	%r14, %rdi
	movq	%rbx, %rsi
	callq	memcpy@PLT
	movq	%r14, %rdi
	callq	"clap::clap++builder++command++Command+Destruct::drop"
	addq	$672, %rbx
	decq	%r15
	jne	10b
11:
	cmpq	$0, 96(%rsp)
	je	12f
	movq	%r13, %rdi
	callq	rattle_dealloc@PLT
12:
	testq	%r12, %r12
	je	17f
	movq	8(%rsp), %rax
	leaq	88(%rax), %r15
	jmp	14f
	.p2align	4
13:
	addq	$104, %r15
	decq	%r12
	je	17f
14:
	movq	-40(%r15), %r14
	movq	-24(%r15), %rbp
	movq	-16(%r15), %rbx
	movq	(%r15), %r13
	cmpq	$0, -56(%r15)
	je	15f
	movq	-72(%r15), %rdi
	callq	rattle_dealloc@PLT
15:
	testq	%rbp, %rbp
	je	16f
	movq	%r14, %rdi
	callq	rattle_dealloc@PLT
16:
	testq	%r13, %r13
	je	13b
	movq	%rbx, %rdi
	callq	rattle_dealloc@PLT
	jmp	13b
17:
	cmpq	$0, 112(%rsp)
	je	18f
	movq	8(%rsp), %rdi
	addq	$792, %rsp
	popq	%rbx
	popq	%r12
	popq	%r13
	popq	%r14
	popq	%r15
	popq	%rbp
	jmp	rattle_dealloc@PLT
18:
	addq	$792, %rsp
	popq	%rbx
	popq	%r12
	popq	%r13
	popq	%r14
	popq	%r15
	popq	%rbp
	retq
19:
	.size	"clap::clap++builder++command++Command+Destruct::drop", 19b-"clap::clap++builder++command++Command+Destruct::drop"

	.text
	.p2align	4
	.type	"clap::core++option++Option+Destruct::drop::<#6d0680e8511e5366>",@function
"clap::core++option++Option+Destruct::drop::<#6d0680e8511e5366>":
	testb	%dil, %dil
	je	9f
	pushq	%rbp
	pushq	%r15
	pushq	%r14
	pushq	%r13
	pushq	%r12
	pushq	%rbx
	subq	$40, %rsp
	jmp	2f
	.p2align	4
1:
	cmpb	$0, 15(%rsp)
	movq	32(%rsp), %rsi
	je	8f
2:
	movq	%rsi, %rdi
	movzbl	40(%rsi), %eax
	movb	%al, 15(%rsp)
	movq	48(%rsi), %rax
	movq	%rax, 32(%rsp)
	movq	16(%rsi), %rax
	movq	%rax, 16(%rsp)
	movq	24(%rsi), %rbx
	movq	32(%rsi), %rax
	movq	%rax, 24(%rsp)
	callq	rattle_dealloc@PLT
	testq	%rbx, %rbx
	je	7f
	movq	16(%rsp), %rax
	leaq	88(%rax), %rbp
	jmp	4f
	.p2align	4
3:
	addq	$104, %rbp
	decq	%rbx
	je	7f
4:
	movq	-40(%rbp), %r12
	movq	-24(%rbp), %r14
	movq	-16(%rbp), %r15
	movq	(%rbp), %r13
	cmpq	$0, -48(%rbp)
	je	5f
	movq	-64(%rbp), %rdi
	callq	rattle_dealloc@PLT
5:
	testq	%r14, %r14
	je	6f
	movq	%r12, %rdi
	callq	rattle_dealloc@PLT
6:
	testq	%r13, %r13
	je	3b
	movq	%r15, %rdi
	callq	rattle_dealloc@PLT
	jmp	3b
	.p2align	4
7:
	cmpq	$0, 24(%rsp)
	je	1b
	movq	16(%rsp), %rdi
	callq	rattle_dealloc@PLT
	jmp	1b
8:
	addq	$40, %rsp
	popq	%rbx
	popq	%r12
	popq	%r13
	popq	%r14
	popq	%r15
	popq	%rbp
9:
	retq
10:
	.size	"clap::core++option++Option+Destruct::drop::<#6d0680e8511e5366>", 10b-"clap::core++option++Option+Destruct::drop::<#6d0680e8511e5366>"

	.section	.rodata.cst16,"aM",@progbits,16
	.p2align	4, 0x0
1:
	.zero	16,1
	.text
	.p2align	4
	.type	"clap::error::Error::argument_conflict",@function
"clap::error::Error::argument_conflict":
	pushq	%rbp
	pushq	%r15
	pushq	%r14
	pushq	%r13
	pushq	%r12
	pushq	%rbx
	subq	$184, %rsp
	movq	%r9, %r15
	movq	%r8, %r12
	movq	%rcx, %r13
	movq	%rdx, %rbp
	movq	%rsi, 24(%rsp)
	movq	%rdi, %rbx
	movq	240(%rsp), %rax
	movzbl	(%rax), %r14d
	movdqu	8(%rax), %xmm0
	movdqa	%xmm0, 160(%rsp)
	movq	$0, 104(%rsp)
	pxor	%xmm0, %xmm0
	movdqa	%xmm0, 32(%rsp)
	movq	$0, 48(%rsp)
	movl	$7, %edi
	movl	$1, %esi
	callq	rattle_alloc@PLT
	testb	$1, %al
	je	14f
	leaq	.Lc9c10f50e645(%rip), %rax
	movq	%rdx, %rcx
	subq	%rax, %rcx
	cmpq	$6, %rcx
	ja	2f
	movl	$1869771365, (%rdx)
	movw	$14962, 4(%rdx)
	movb	$32, 6(%rdx)
	jmp	3f
2:
	movl	$540701295, 3(%rdx)
	movl	$1869771365, (%rdx)
3:
	movq	%rdx, (%rsp)
	movq	$7, 8(%rsp)
	movq	$7, 16(%rsp)
	cmpq	$1, %r15
	jne	10f
	cmpq	%r13, 8(%r12)
	jne	10f
	movq	(%r12), %rax
	cmpq	$7, %r13
	ja	4f
	cmpq	$4, %r13
	jb	5f
	movl	(%rax), %ecx
	movl	-4(%rax,%r13), %eax
	shlq	$32, %rax
	orq	%rcx, %rax
	bswapq	%rax
	movl	(%rbp), %edx
	movl	-4(%rbp,%r13), %ecx
	shlq	$32, %rcx
	orq	%rdx, %rcx
	bswapq	%rcx
	cmpq	%rcx, %rax
	jne	10f
	jmp	11f
4:
	cmpq	$32, %r13
	ja	6f
	leaq	-8(%r13), %rsi
	movq	(%rax), %rdi
	cmpq	$8, %rsi
	movl	$8, %edx
	cmovbq	%rsi, %rdx
	cmpq	$16, %rsi
	movl	$16, %ecx
	cmovbq	%rsi, %rcx
	cmpq	(%rbp), %rdi
	jne	10f
	movq	(%rbp,%rdx), %rsi
	cmpq	%rsi, (%rax,%rdx)
	jne	10f
	movq	(%rbp,%rcx), %rdx
	cmpq	%rdx, (%rax,%rcx)
	jne	10f
	movq	-8(%rbp,%r13), %rcx
	cmpq	%rcx, -8(%rax,%r13)
	je	11f
	jmp	10f
5:
	testq	%r13, %r13
	je	11f
	movzbl	(%rax), %ecx
	movq	%r13, %rdx
	shrq	%rdx
	movzbl	(%rax,%rdx), %esi
	shll	$16, %ecx
	shll	$8, %esi
	orl	%ecx, %esi
	movzbl	-1(%rax,%r13), %eax
	orq	%rsi, %rax
	movzbl	(%rbp), %ecx
	movzbl	(%rbp,%rdx), %edx
	shll	$16, %ecx
	shll	$8, %edx
	orl	%ecx, %edx
	movzbl	-1(%rbp,%r13), %ecx
	orq	%rdx, %rcx
	cmpq	%rcx, %rax
	jne	10f
	jmp	11f
6:
	cmpq	$65, %r13
	jae	7f
	leaq	-16(%r13), %rcx
	movdqu	(%rax), %xmm0
	movdqu	16(%rax), %xmm1
	movdqu	(%rbp), %xmm2
	pcmpeqb	%xmm0, %xmm2
	movdqu	16(%rbp), %xmm3
	pcmpeqb	%xmm1, %xmm3
	pcmpeqd	%xmm1, %xmm1
	pxor	%xmm1, %xmm2
	pxor	%xmm1, %xmm3
	por	%xmm2, %xmm3
	cmpq	$32, %rcx
	movl	$32, %edx
	cmovbq	%rcx, %rdx
	movdqu	(%rax,%rdx), %xmm0
	movdqu	(%rbp,%rdx), %xmm2
	pcmpeqb	%xmm0, %xmm2
	pxor	%xmm1, %xmm2
	movdqu	-16(%rax,%r13), %xmm4
	movdqu	-16(%rbp,%r13), %xmm0
	pcmpeqb	%xmm4, %xmm0
	pxor	%xmm1, %xmm0
	por	%xmm2, %xmm0
	por	%xmm3, %xmm0
	jmp	9f
7:
	xorl	%ecx, %ecx
	movq	%r13, %rdx
	.p2align	4
8:
	movdqu	(%rax,%rcx), %xmm0
	movdqu	16(%rax,%rcx), %xmm1
	movdqu	32(%rax,%rcx), %xmm2
	movdqu	48(%rax,%rcx), %xmm3
	movdqu	(%rbp,%rcx), %xmm4
	pcmpeqb	%xmm0, %xmm4
	movdqu	16(%rbp,%rcx), %xmm0
	pcmpeqb	%xmm1, %xmm0
	pand	%xmm4, %xmm0
	movdqu	32(%rbp,%rcx), %xmm1
	pcmpeqb	%xmm2, %xmm1
	movdqu	48(%rbp,%rcx), %xmm2
	pcmpeqb	%xmm3, %xmm2
	pand	%xmm1, %xmm2
	pand	%xmm0, %xmm2
	pmovmskb	%xmm2, %esi
	cmpl	$65535, %esi
	jne	10f
	addq	$64, %rcx
	addq	$-64, %rdx
	cmpq	$65, %rdx
	jae	8b
	movdqu	-64(%rax,%r13), %xmm0
	movdqu	-48(%rax,%r13), %xmm1
	movdqu	-32(%rax,%r13), %xmm2
	movdqu	-16(%rax,%r13), %xmm3
	movdqu	-64(%rbp,%r13), %xmm4
	pcmpeqb	%xmm0, %xmm4
	movdqu	-48(%rbp,%r13), %xmm5
	pcmpeqb	%xmm1, %xmm5
	movdqu	-32(%rbp,%r13), %xmm0
	pcmpeqb	%xmm2, %xmm0
	movdqu	-16(%rbp,%r13), %xmm1
	pcmpeqb	%xmm3, %xmm1
	pcmpeqd	%xmm2, %xmm2
	pxor	%xmm2, %xmm1
	pxor	%xmm2, %xmm0
	por	%xmm1, %xmm0
	pxor	%xmm2, %xmm4
	pxor	%xmm2, %xmm5
	por	%xmm4, %xmm5
	por	%xmm0, %xmm5
	pxor	%xmm0, %xmm0
	pcmpgtb	%xmm5, %xmm0
9:
	ptest	1b(%rip), %xmm0
	je	11f
10:
	leaq	.Lc666ae85776d(%rip), %rax
	movq	%rax, 112(%rsp)
	movq	$14, 120(%rsp)
	movq	%rbp, 128(%rsp)
	movq	%r13, 136(%rsp)
	leaq	.L95afaa5ccfdf(%rip), %rax
	movq	%rax, 144(%rsp)
	movq	$21, 152(%rsp)
	movq	%rsp, %rdi
	leaq	112(%rsp), %rsi
	callq	"std_alloc::string::String::write_fmt::<#a2e9c51888eedbd3>"
	testb	%al, %al
	jne	13f
	movq	%rsp, %rdi
	movq	%r12, %rsi
	movq	%r15, %rdx
	callq	"clap::error::text::push_others"
	testb	%al, %al
	je	12f
	jmp	13f
11:
	leaq	.Lc666ae85776d(%rip), %rax
	movq	%rax, 64(%rsp)
	movq	$14, 72(%rsp)
	movq	%rbp, 80(%rsp)
	movq	%r13, 88(%rsp)
	leaq	.Le77ae2271c7f(%rip), %rax
	movq	%rax, 96(%rsp)
	movq	$31, 104(%rsp)
	movq	%rsp, %rdi
	leaq	64(%rsp), %rsi
	callq	"std_alloc::string::String::write_fmt::<#a2e9c51888eedbd3>"
	testb	%al, %al
	jne	13f
12:
	movq	%r14, 32(%rsp)
	movdqa	160(%rsp), %xmm0
	movdqu	%xmm0, 40(%rsp)
	movq	%rsp, %rdi
	leaq	32(%rsp), %rdx
	movq	24(%rsp), %rsi
	callq	"clap::error::text::usage_and_help"
	testb	%al, %al
	je	16f
13:
	cmpq	$0, 16(%rsp)
	je	14f
	movq	(%rsp), %rdi
	callq	rattle_dealloc@PLT
14:
	movb	$1, (%rbx)
	movb	$0, 8(%rbx)
	pxor	%xmm0, %xmm0
	movdqu	%xmm0, 16(%rbx)
	movdqu	%xmm0, 32(%rbx)
15:
	addq	$184, %rsp
	popq	%rbx
	popq	%r12
	popq	%r13
	popq	%r14
	popq	%r15
	popq	%rbp
	retq
16:
	movb	$0, (%rbx)
	movb	$8, 8(%rbx)
	movq	$1, 16(%rbx)
	movdqu	(%rsp), %xmm0
	movdqu	%xmm0, 24(%rbx)
	movq	16(%rsp), %rax
	movq	%rax, 40(%rbx)
	jmp	15b
17:
	.size	"clap::error::Error::argument_conflict", 17b-"clap::error::Error::argument_conflict"

	.section	.rodata.cst16,"aM",@progbits,16
	.p2align	4, 0x0
1:
	.byte	32,115,111,109,101,32,115,105,109,105,108,97,114,32,115,117
2:
	.byte	98,99,111,109,109,97,110,100,115,32,101,120,105,115,116,58
3:
	.byte	32,97,32,115,105,109,105,108,97,114,32,115,117,98,99,111
	.text
	.p2align	4
	.type	"clap::error::Error::invalid_subcommand",@function
"clap::error::Error::invalid_subcommand":
	pushq	%rbp
	pushq	%r15
	pushq	%r14
	pushq	%r13
	pushq	%r12
	pushq	%rbx
	subq	$392, %rsp
	movq	%r9, 112(%rsp)
	movq	%r8, 152(%rsp)
	movq	%rcx, %rbx
	movq	%rdx, 120(%rsp)
	movq	%rsi, %r15
	movq	%rdi, %r14
	movq	472(%rsp), %rax
	movzbl	(%rax), %r12d
	movups	8(%rax), %xmm0
	movaps	%xmm0, 352(%rsp)
	xorps	%xmm0, %xmm0
	movaps	%xmm0, 192(%rsp)
	movaps	%xmm0, 208(%rsp)
	movaps	%xmm0, 224(%rsp)
	movaps	%xmm0, 240(%rsp)
	movaps	%xmm0, 256(%rsp)
	movaps	%xmm0, 272(%rsp)
	movaps	%xmm0, 288(%rsp)
	movaps	%xmm0, 160(%rsp)
	movq	$0, 176(%rsp)
	movl	$7, %edi
	movl	$1, %esi
	callq	rattle_alloc@PLT
	testb	$1, %al
	je	7f
	leaq	.Lc9c10f50e645(%rip), %rax
	movq	%rdx, %rcx
	subq	%rax, %rcx
	cmpq	$6, %rcx
	ja	4f
	movl	$1869771365, (%rdx)
	movw	$14962, 4(%rdx)
	movb	$32, 6(%rdx)
	jmp	5f
4:
	movl	$540701295, 3(%rdx)
	movl	$1869771365, (%rdx)
5:
	movq	%rdx, (%rsp)
	movq	$7, 8(%rsp)
	movq	$7, 16(%rsp)
	leaq	.L3bd543a532d6(%rip), %rax
	movq	%rax, 304(%rsp)
	movq	$25, 312(%rsp)
	movq	120(%rsp), %rax
	movq	%rax, 320(%rsp)
	movq	%rbx, 328(%rsp)
	leaq	.L72431cffa757(%rip), %rax
	movq	%rax, 336(%rsp)
	movq	$1, 344(%rsp)
	movq	%rsp, %rdi
	leaq	304(%rsp), %rsi
	callq	"std_alloc::string::String::write_fmt::<#a2e9c51888eedbd3>"
	movq	16(%rsp), %rcx
	testb	%al, %al
	je	9f
	testq	%rcx, %rcx
	je	7f
6:
	movq	(%rsp), %rdi
	callq	rattle_dealloc@PLT
7:
	movb	$1, (%r14)
	movb	$0, 8(%r14)
	xorps	%xmm0, %xmm0
	movups	%xmm0, 16(%r14)
	movups	%xmm0, 32(%r14)
8:
	addq	$392, %rsp
	popq	%rbx
	popq	%r12
	popq	%r13
	popq	%r14
	popq	%r15
	popq	%rbp
	retq
9:
	movq	8(%rsp), %rax
	movq	%rcx, %rdx
	subq	%rax, %rdx
	cmpq	$7, %rdx
	jbe	53f
10:
	movq	%rbx, 128(%rsp)
	leaq	8(%rsp), %rbx
	movq	(%rsp), %rdx
	movabsq	$4210981599067507210, %rsi
	movq	%rsi, (%rdx,%rax)
	addq	$8, %rax
	movq	%rdx, (%rsp)
	movq	%rax, 8(%rsp)
	movq	%rcx, 16(%rsp)
	movq	%rcx, %rsi
	subq	%rax, %rsi
	cmpq	$1, 112(%rsp)
	movq	%r14, 104(%rsp)
	movq	%r15, 144(%rsp)
	movq	%r12, 136(%rsp)
	jne	12f
	cmpq	$29, %rsi
	jbe	54f
11:
	xorps	%xmm0, %xmm0
	movups	%xmm0, (%rbx)
	leaq	(%rdx,%rax), %rsi
	addq	$30, %rax
	leaq	.Lfc5be5b2afb6(%rip), %rdi
	movq	%rsi, %r8
	subq	%rdi, %r8
	cmpq	$29, %r8
	ja	14f
	movaps	3b(%rip), %xmm0
	movups	%xmm0, (%rsi)
	movabsq	$8675375872919825773, %rdi
	movq	%rdi, 16(%rsi)
	movl	$1937011561, 24(%rsi)
	movw	$8250, 28(%rsi)
	jmp	15f
12:
	cmpq	$32, %rsi
	jbe	55f
13:
	xorps	%xmm0, %xmm0
	movups	%xmm0, (%rbx)
	addq	%rax, %rdx
	addq	$33, %rax
	leaq	.L6df7900dd9eb(%rip), %rsi
	movq	%rdx, %rdi
	subq	%rsi, %rdi
	cmpq	$32, %rdi
	ja	16f
	movaps	1b(%rip), %xmm0
	movups	%xmm0, (%rdx)
	movaps	2b(%rip), %xmm0
	movups	%xmm0, 16(%rdx)
	jmp	17f
14:
	movups	.Lfc5be5b2afb6+14(%rip), %xmm0
	movups	%xmm0, 14(%rsi)
	movups	.Lfc5be5b2afb6(%rip), %xmm0
	movups	%xmm0, (%rsi)
15:
	movq	%rdx, (%rsp)
	movq	%rax, 8(%rsp)
	movq	%rcx, 16(%rsp)
	jmp	18f
16:
	movups	.L6df7900dd9eb+16(%rip), %xmm0
	movups	%xmm0, 16(%rdx)
	movups	.L6df7900dd9eb(%rip), %xmm0
	movups	%xmm0, (%rdx)
17:
	movb	$32, 32(%rdx)
	movq	%rax, 8(%rsp)
	movq	%rcx, 16(%rsp)
	cmpq	$0, 112(%rsp)
	je	45f
18:
	leaq	60(%rsp), %r12
	xorl	%ebx, %ebx
	.p2align	4
19:
	testq	%rbx, %rbx
	je	21f
	movq	8(%rsp), %rax
	movq	16(%rsp), %rcx
	movq	%rcx, %rdx
	subq	%rax, %rdx
	cmpq	$1, %rdx
	jbe	44f
20:
	movq	(%rsp), %rdx
	addq	%rax, %rdx
	leaq	.L807e89e39460(%rip), %rsi
	movq	%rdx, %rdi
	subq	%rsi, %rdi
	cmpq	$1, %rdi
	movw	$8236, (%rdx)
	addq	$2, %rax
	movq	%rax, 8(%rsp)
	movq	%rcx, 16(%rsp)
21:
	movq	16(%rsp), %rax
	movq	%rax, 48(%rsp)
	movq	(%rsp), %rax
	movq	%rax, 32(%rsp)
	movq	8(%rsp), %rax
	movq	%rax, 40(%rsp)
	xorps	%xmm0, %xmm0
	movups	%xmm0, 20(%r12)
	movl	$32, 56(%rsp)
	movl	$0, 8(%r12)
	movq	$0, (%r12)
	movq	$-1, 72(%rsp)
	movq	40(%rsp), %r13
	movq	48(%rsp), %rbp
	cmpq	%r13, %rbp
	je	35f
22:
	movq	%rbx, %rcx
	shlq	$4, %rcx
	movq	32(%rsp), %rax
	movb	$39, (%rax,%r13)
	incq	%r13
	movq	%r13, 40(%rsp)
	movq	%rbp, 48(%rsp)
	movl	$32, 56(%rsp)
	movl	$0, 8(%r12)
	movq	$0, (%r12)
	movq	$-1, 72(%rsp)
	movq	152(%rsp), %rdx
	movq	(%rdx,%rcx), %r15
	movq	8(%rdx,%rcx), %r14
	cmpq	$0, 80(%rsp)
	jne	36f
	movq	%rbp, %rcx
	subq	%r13, %rcx
	cmpq	%rcx, %r14
	ja	42f
23:
	leaq	(%rax,%r13), %rdi
	movq	%rdi, %rcx
	subq	%r15, %rcx
	cmpq	%r14, %rcx
	jae	29f
	cmpq	$4, %r14
	jb	24f
	cmpq	$32, %rcx
	jae	34f
24:
	xorl	%ecx, %ecx
25:
	movq	%r14, %rsi
	movq	%rcx, %rdx
	andq	$3, %rsi
	je	27f
	movq	%rcx, %rdx
	.p2align	4
26:
	movzbl	(%r15,%rdx), %r8d
	movb	%r8b, (%rdi,%rdx)
	incq	%rdx
	decq	%rsi
	jne	26b
27:
	subq	%r14, %rcx
	cmpq	$-4, %rcx
	ja	30f
	addq	%r13, %rax
	addq	$3, %rax
	.p2align	4
28:
	movzbl	(%r15,%rdx), %ecx
	movb	%cl, -3(%rax,%rdx)
	movzbl	1(%r15,%rdx), %ecx
	movb	%cl, -2(%rax,%rdx)
	movzbl	2(%r15,%rdx), %ecx
	movb	%cl, -1(%rax,%rdx)
	movzbl	3(%r15,%rdx), %ecx
	movb	%cl, (%rax,%rdx)
	addq	$4, %rdx
	cmpq	%rdx, %r14
	jne	28b
	jmp	30f
	.p2align	4
29:
	movq	%r15, %rsi
	movq	%r14, %rdx
	callq	memmove@PLT
30:
	addq	%r14, %r13
	movq	%r13, 40(%rsp)
	movq	%rbp, 48(%rsp)
31:
	movl	$32, 56(%rsp)
	movl	$0, 8(%r12)
	movq	$0, (%r12)
	movq	$-1, 72(%rsp)
	cmpq	$0, 80(%rsp)
	jne	41f
	movq	40(%rsp), %rcx
	movq	48(%rsp), %rax
	cmpq	%rcx, %rax
	je	43f
32:
	movq	32(%rsp), %rdx
	movb	$39, (%rdx,%rcx)
	incq	%rcx
	movq	%rcx, 40(%rsp)
	movq	32(%rsp), %rcx
	movq	40(%rsp), %rdx
	movq	%rax, 16(%rsp)
	movq	%rcx, (%rsp)
	movq	%rdx, 8(%rsp)
33:
	incq	%rbx
	cmpq	112(%rsp), %rbx
	jne	19b
	jmp	45f
34:
	cmpq	$32, %r14
	jae	37f
	xorl	%ecx, %ecx
	jmp	39f
35:
	leaq	32(%rsp), %rdi
	movl	$1, %esi
	callq	"std_alloc::vec::Vec::grow_amortized::<#1d775b5957dec42c>"
	testb	%al, %al
	je	50f
	movq	40(%rsp), %r13
	movq	48(%rsp), %rbp
	jmp	22b
36:
	leaq	32(%rsp), %rdi
	movq	%r15, %rsi
	movq	%r14, %rdx
	callq	"core::fmt::formatter::Formatter::write_indented::<#0a7ff941e43d6b30>"
	testb	%al, %al
	je	31b
	jmp	50f
37:
	movq	%r14, %rcx
	andq	$-32, %rcx
	leaq	(%rax,%r13), %rdx
	addq	$16, %rdx
	xorl	%esi, %esi
	.p2align	4
38:
	movups	(%r15,%rsi), %xmm0
	movups	16(%r15,%rsi), %xmm1
	movups	%xmm0, -16(%rdx,%rsi)
	movups	%xmm1, (%rdx,%rsi)
	addq	$32, %rsi
	cmpq	%rsi, %rcx
	jne	38b
	cmpq	%rcx, %r14
	je	30b
	testb	$28, %r14b
	je	25b
39:
	movq	%rcx, %rdx
	movq	%r14, %rcx
	andq	$-4, %rcx
	.p2align	4
40:
	movl	(%r15,%rdx), %esi
	movl	%esi, (%rdi,%rdx)
	addq	$4, %rdx
	cmpq	%rdx, %rcx
	jne	40b
	cmpq	%rcx, %r14
	je	30b
	jmp	25b
41:
	leaq	.L72431cffa757(%rip), %rsi
	leaq	32(%rsp), %rdi
	movl	$1, %edx
	callq	"core::fmt::formatter::Formatter::write_indented::<#0a7ff941e43d6b30>"
	movq	48(%rsp), %rcx
	movq	%rcx, 384(%rsp)
	movaps	32(%rsp), %xmm0
	movaps	%xmm0, (%rsp)
	movq	%rcx, 16(%rsp)
	testb	%al, %al
	je	33b
	jmp	51f
42:
	leaq	32(%rsp), %rdi
	movq	%r14, %rsi
	callq	"std_alloc::vec::Vec::grow_amortized::<#1d775b5957dec42c>"
	testb	%al, %al
	je	50f
	movq	32(%rsp), %rax
	movq	40(%rsp), %r13
	movq	48(%rsp), %rbp
	jmp	23b
43:
	leaq	32(%rsp), %rdi
	movl	$1, %esi
	callq	"std_alloc::vec::Vec::grow_amortized::<#1d775b5957dec42c>"
	testb	%al, %al
	je	50f
	movq	40(%rsp), %rcx
	movq	48(%rsp), %rax
	jmp	32b
44:
	movq	%rsp, %rdi
	movl	$2, %esi
	callq	"std_alloc::vec::Vec::grow_amortized::<#1d775b5957dec42c>"
	testb	%al, %al
	je	51f
	movq	8(%rsp), %rax
	movq	16(%rsp), %rcx
	jmp	20b
45:
	cmpb	$0, 464(%rsp)
	movq	104(%rsp), %rbx
	je	46f
	movq	456(%rsp), %rax
	movq	448(%rsp), %rcx
	leaq	.L4aed72c3dd5d(%rip), %rdx
	movq	%rdx, 192(%rsp)
	movq	$17, 200(%rsp)
	movq	120(%rsp), %rdi
	movq	%rdi, 208(%rsp)
	movq	128(%rsp), %rsi
	movq	%rsi, 216(%rsp)
	leaq	.L80268cd09f04(%rip), %rdx
	movq	%rdx, 224(%rsp)
	movq	$19, 232(%rsp)
	movq	%rcx, 240(%rsp)
	movq	%rax, 248(%rsp)
	leaq	.Lef1df2877dd3(%rip), %rax
	movq	%rax, 256(%rsp)
	movq	$4, 264(%rsp)
	movq	%rdi, 272(%rsp)
	movq	%rsi, 280(%rsp)
	leaq	.L72431cffa757(%rip), %rax
	movq	%rax, 288(%rsp)
	movq	$1, 296(%rsp)
	movq	%rsp, %rdi
	leaq	192(%rsp), %rsi
	callq	"std_alloc::string::String::write_fmt::<#d2f68f8fdebec0d1>"
	testb	%al, %al
	jne	47f
46:
	movq	136(%rsp), %rax
	movq	%rax, 160(%rsp)
	movaps	352(%rsp), %xmm0
	movups	%xmm0, 168(%rsp)
	movq	%rsp, %rdi
	leaq	160(%rsp), %rdx
	movq	144(%rsp), %rsi
	callq	"clap::error::text::usage_and_help"
	testb	%al, %al
	je	49f
47:
	cmpq	$0, 16(%rsp)
	je	48f
	movq	(%rsp), %rdi
	callq	rattle_dealloc@PLT
48:
	movb	$1, (%rbx)
	movb	$0, 8(%rbx)
	xorps	%xmm0, %xmm0
	movups	%xmm0, 16(%rbx)
	movups	%xmm0, 32(%rbx)
	jmp	8b
49:
	movb	$0, (%rbx)
	movb	$2, 8(%rbx)
	movq	$1, 16(%rbx)
	movaps	(%rsp), %xmm0
	movups	%xmm0, 24(%rbx)
	movq	16(%rsp), %rax
	movq	%rax, 40(%rbx)
	jmp	8b
50:
	movq	48(%rsp), %rax
	movaps	32(%rsp), %xmm0
	movaps	%xmm0, (%rsp)
	movq	%rax, 16(%rsp)
51:
	cmpq	$0, 16(%rsp)
	je	52f
	movq	(%rsp), %rdi
	callq	rattle_dealloc@PLT
52:
	movq	104(%rsp), %rax
	movb	$1, (%rax)
	movb	$0, 8(%rax)
	xorps	%xmm0, %xmm0
	movups	%xmm0, 16(%rax)
	movups	%xmm0, 32(%rax)
	jmp	8b
53:
	movq	%rsp, %rdi
	movl	$8, %esi
	callq	"std_alloc::vec::Vec::grow_amortized::<#1d775b5957dec42c>"
	testb	%al, %al
	je	56f
	movq	8(%rsp), %rax
	movq	16(%rsp), %rcx
	jmp	10b
54:
	movq	%rsp, %rdi
	movl	$30, %esi
	callq	"std_alloc::vec::Vec::grow_amortized::<#1d775b5957dec42c>"
	testb	%al, %al
	je	56f
	movq	(%rsp), %rdx
	movq	8(%rsp), %rax
	movq	16(%rsp), %rcx
	jmp	11b
55:
	movq	%rsp, %rdi
	movl	$33, %esi
	callq	"std_alloc::vec::Vec::grow_amortized::<#1d775b5957dec42c>"
	testb	%al, %al
	je	56f
	movq	(%rsp), %rdx
	movq	8(%rsp), %rax
	movq	16(%rsp), %rcx
	jmp	13b
56:
	cmpq	$0, 16(%rsp)
	jne	6b
	jmp	7b
57:
	.size	"clap::error::Error::invalid_subcommand", 57b-"clap::error::Error::invalid_subcommand"

	.section	.rodata.cst16,"aM",@progbits,16
	.p2align	4, 0x0
1:
	.byte	10,32,32,91,112,111,115,115,105,98,108,101,32,118,97,108
	.text
	.p2align	4
	.type	"clap::error::Error::invalid_value",@function
"clap::error::Error::invalid_value":
	pushq	%rbp
	pushq	%r15
	pushq	%r14
	pushq	%r13
	pushq	%r12
	pushq	%rbx
	subq	$376, %rsp
	movq	%r9, %r13
	movq	%rcx, %r15
	movq	%rdx, 48(%rsp)
	movq	%rsi, %r12
	movq	%rdi, %rbx
	movzbl	(%r8), %ebp
	movzbl	8(%r8), %r14d
	movups	16(%r8), %xmm0
	movaps	%xmm0, 336(%rsp)
	xorps	%xmm0, %xmm0
	movaps	%xmm0, 240(%rsp)
	movaps	%xmm0, 224(%rsp)
	movaps	%xmm0, 208(%rsp)
	movaps	%xmm0, 320(%rsp)
	movaps	%xmm0, 304(%rsp)
	movaps	%xmm0, 288(%rsp)
	movaps	%xmm0, 272(%rsp)
	movaps	%xmm0, 256(%rsp)
	movl	$7, %edi
	movl	$1, %esi
	callq	rattle_alloc@PLT
	testb	$1, %al
	je	29f
	leaq	.Lc9c10f50e645(%rip), %rax
	movq	%rdx, %rcx
	subq	%rax, %rcx
	cmpq	$6, %rcx
	ja	2f
	movl	$1869771365, (%rdx)
	movw	$14962, 4(%rdx)
	movb	$32, 6(%rdx)
	jmp	3f
2:
	movl	$540701295, 3(%rdx)
	movl	$1869771365, (%rdx)
3:
	movq	432(%rsp), %rax
	movq	%rdx, (%rsp)
	movq	$7, 8(%rsp)
	movq	$7, 16(%rsp)
	testq	%r15, %r15
	je	4f
	leaq	.L4a8652ca931c(%rip), %rcx
	movq	%rcx, 256(%rsp)
	movq	$15, 264(%rsp)
	movq	48(%rsp), %rcx
	movq	%rcx, 272(%rsp)
	movq	%r15, 280(%rsp)
	leaq	.L9078467ae595(%rip), %rcx
	movq	%rcx, 288(%rsp)
	movq	$7, 296(%rsp)
	movq	%r13, 304(%rsp)
	movq	%rax, 312(%rsp)
	leaq	.L72431cffa757(%rip), %rax
	movq	%rax, 320(%rsp)
	movq	$1, 328(%rsp)
	movq	%rsp, %rdi
	leaq	256(%rsp), %rsi
	callq	"std_alloc::string::String::write_fmt::<#7674f49477c5ed19>"
	testb	%al, %al
	je	5f
	jmp	28f
4:
	leaq	.L487bbde8fa82(%rip), %rcx
	movq	%rcx, 208(%rsp)
	movq	$25, 216(%rsp)
	movq	%r13, 224(%rsp)
	movq	%rax, 232(%rsp)
	leaq	.L192cf5a5ec61(%rip), %rax
	movq	%rax, 240(%rsp)
	movq	$23, 248(%rsp)
	movq	%rsp, %rdi
	leaq	208(%rsp), %rsi
	callq	"std_alloc::string::String::write_fmt::<#a2e9c51888eedbd3>"
	testb	%al, %al
	jne	28f
5:
	cmpb	$1, %bpl
	jne	27f
	xorps	%xmm0, %xmm0
	movaps	%xmm0, 128(%rsp)
	movaps	%xmm0, 112(%rsp)
	movaps	%xmm0, 96(%rsp)
	movaps	%xmm0, 80(%rsp)
	movq	$0, 144(%rsp)
	movq	%r14, 160(%rsp)
	movaps	336(%rsp), %xmm0
	movups	%xmm0, 168(%rsp)
	leaq	40f(%rip), %rax
	movslq	(%rax,%r14,4), %rcx
	addq	%rax, %rcx
	jmpq	*%rcx
6:
	movl	$12, %ebp
	jmp	9f
7:
	movq	176(%rsp), %rbp
	testq	%rbp, %rbp
	jne	9f
	jmp	21f
8:
	movq	%r14, %rbp
9:
	movq	%r12, 40(%rsp)
	movb	$1, %r12b
	xorl	%r13d, %r13d
	jmp	11f
	.p2align	4
10:
	incq	%r13
	cmpq	%r13, %rbp
	je	19f
11:
	leaq	80(%rsp), %rdi
	leaq	160(%rsp), %rsi
	movq	%r13, %rdx
	callq	"clap::builder::value_parser::ValueParser::possible_at"
	cmpb	$1, 80(%rsp)
	jne	10b
	testb	$1, 144(%rsp)
	jne	10b
	movq	88(%rsp), %rsi
	movq	96(%rsp), %rdx
	movq	8(%rsp), %rax
	movq	16(%rsp), %rcx
	movq	%rcx, %rdi
	subq	%rax, %rdi
	cmpb	$1, %r12b
	jne	13f
	cmpq	$20, %rdi
	jbe	17f
12:
	movq	(%rsp), %rdi
	xorps	%xmm0, %xmm0
	leaq	8(%rsp), %r8
	movups	%xmm0, (%r8)
	leaq	(%rdi,%rax), %r8
	addq	$21, %rax
	leaq	.Lfeb30b8b2119(%rip), %r9
	movq	%r8, %r10
	subq	%r9, %r10
	cmpq	$20, %r10
	ja	15f
	movaps	1b(%rip), %xmm0
	movups	%xmm0, (%r8)
	movl	$980641141, 16(%r8)
	movb	$32, 20(%r8)
	jmp	16f
13:
	cmpq	$1, %rdi
	jbe	18f
14:
	movq	(%rsp), %rdi
	xorps	%xmm0, %xmm0
	leaq	8(%rsp), %r8
	movups	%xmm0, (%r8)
	leaq	(%rdi,%rax), %r8
	addq	$2, %rax
	leaq	.L807e89e39460(%rip), %r9
	movq	%r8, %r10
	subq	%r9, %r10
	cmpq	$1, %r10
	movw	$8236, (%r8)
	jmp	16f
15:
	movups	.Lfeb30b8b2119(%rip), %xmm0
	movups	%xmm0, (%r8)
	movabsq	$2322295437461840246, %r9
	movq	%r9, 13(%r8)
16:
	movq	%rdi, (%rsp)
	movq	%rax, 8(%rsp)
	movq	%rcx, 16(%rsp)
	movq	%rsp, %rdi
	callq	"clap::error::text::push_escaped"
	testb	%al, %al
	jne	28f
	xorl	%r12d, %r12d
	jmp	10b
17:
	movq	%rdx, 32(%rsp)
	movq	%rsi, %r12
	movq	%rsp, %rdi
	movl	$21, %esi
	callq	"std_alloc::vec::Vec::grow_amortized::<#1d775b5957dec42c>"
	testb	%al, %al
	je	28f
	movq	8(%rsp), %rax
	movq	16(%rsp), %rcx
	movq	%r12, %rsi
	movq	32(%rsp), %rdx
	jmp	12b
18:
	movq	%rdx, 32(%rsp)
	movq	%rsi, %r12
	movq	%rsp, %rdi
	movl	$2, %esi
	callq	"std_alloc::vec::Vec::grow_amortized::<#1d775b5957dec42c>"
	testb	%al, %al
	je	28f
	movq	8(%rsp), %rax
	movq	16(%rsp), %rcx
	movq	%r12, %rsi
	movq	32(%rsp), %rdx
	jmp	14b
19:
	testb	$1, %r12b
	movq	40(%rsp), %r12
	jne	21f
	movq	8(%rsp), %rax
	movq	16(%rsp), %rcx
	cmpq	%rax, %rcx
	je	38f
20:
	movq	(%rsp), %rdx
	movb	$93, (%rdx,%rax)
	incq	%rax
	movq	%rax, 8(%rsp)
	movq	%rcx, 16(%rsp)
21:
	movaps	336(%rsp), %xmm0
	movups	%xmm0, 360(%rsp)
	xorps	%xmm0, %xmm0
	movaps	%xmm0, 128(%rsp)
	movaps	%xmm0, 112(%rsp)
	movaps	%xmm0, 96(%rsp)
	movaps	%xmm0, 80(%rsp)
	movq	$0, 144(%rsp)
	movq	%r14, 352(%rsp)
	leaq	24(%rsp), %rdi
	movq	%rdi, 56(%rsp)
	movups	%xmm0, 64(%rsp)
	leaq	41f(%rip), %rax
	movslq	(%rax,%r14,4), %rcx
	addq	%rax, %rcx
	jmpq	*%rcx
22:
	movq	%r12, %r13
23:
	xorl	%r14d, %r14d
	xorl	%r15d, %r15d
	xorl	%r12d, %r12d
	cmpq	$0, 72(%rsp)
	je	25f
24:
	callq	rattle_dealloc@PLT
25:
	testb	%r14b, %r14b
	je	26f
	leaq	.Lde0ed5b30e30(%rip), %rax
	movq	%rax, 160(%rsp)
	movq	$34, 168(%rsp)
	movq	%r15, 176(%rsp)
	movq	%r12, 184(%rsp)
	leaq	.L72431cffa757(%rip), %rax
	movq	%rax, 192(%rsp)
	movq	$1, 200(%rsp)
	movq	%rsp, %rdi
	leaq	160(%rsp), %rsi
	callq	"std_alloc::string::String::write_fmt::<#a2e9c51888eedbd3>"
	testb	%al, %al
	movq	%r13, %r12
	je	27f
	jmp	28f
26:
	movq	%r13, %r12
27:
	movq	%rsp, %rdi
	movq	%r12, %rsi
	callq	"clap::error::text::try_help"
	testb	%al, %al
	je	31f
28:
	cmpq	$0, 16(%rsp)
	je	29f
	movq	(%rsp), %rdi
	callq	rattle_dealloc@PLT
29:
	movb	$1, (%rbx)
	movb	$0, 8(%rbx)
	xorps	%xmm0, %xmm0
	movups	%xmm0, 16(%rbx)
	movups	%xmm0, 32(%rbx)
30:
	addq	$376, %rsp
	popq	%rbx
	popq	%r12
	popq	%r13
	popq	%r14
	popq	%r15
	popq	%rbp
	retq
31:
	movb	$0, (%rbx)
	movb	$0, 8(%rbx)
	movq	$1, 16(%rbx)
	movups	(%rsp), %xmm0
	movups	%xmm0, 24(%rbx)
	movq	16(%rsp), %rax
	movq	%rax, 40(%rbx)
	jmp	30b
32:
	movl	$12, %r14d
	jmp	34f
33:
	movq	368(%rsp), %r14
	testq	%r14, %r14
	je	22b
34:
	xorl	%r13d, %r13d
	movq	48(%rsp), %rbp
	jmp	36f
	.p2align	4
35:
	incq	%r13
	cmpq	%r13, %r14
	je	37f
36:
	leaq	80(%rsp), %rdi
	leaq	352(%rsp), %rsi
	movq	%r13, %rdx
	callq	"clap::builder::value_parser::ValueParser::possible_at"
	cmpb	$1, 80(%rsp)
	jne	35b
	testb	$1, 144(%rsp)
	jne	35b
	movq	88(%rsp), %rcx
	movq	96(%rsp), %r8
	leaq	56(%rsp), %rdi
	movq	%rbp, %rsi
	movq	%r15, %rdx
	callq	"clap::parser::suggestions::add_candidate"
	testb	%al, %al
	je	35b
	cmpq	$0, 72(%rsp)
	je	28b
	movq	56(%rsp), %rdi
	callq	rattle_dealloc@PLT
	jmp	28b
37:
	movq	%r12, %r13
	movq	56(%rsp), %rdi
	movq	64(%rsp), %rax
	testq	%rax, %rax
	je	23b
	leaq	(%rax,%rax,2), %rax
	movq	-16(%rdi,%rax,8), %r15
	movq	-8(%rdi,%rax,8), %r12
	movb	$1, %r14b
	cmpq	$0, 72(%rsp)
	jne	24b
	jmp	25b
38:
	movq	%rsp, %rdi
	movl	$1, %esi
	callq	"std_alloc::vec::Vec::grow_amortized::<#1d775b5957dec42c>"
	testb	%al, %al
	je	28b
	movq	8(%rsp), %rax
	movq	16(%rsp), %rcx
	movq	40(%rsp), %r12
	jmp	20b
39:
	.size	"clap::error::Error::invalid_value", 39b-"clap::error::Error::invalid_value"
	.section	.rodata,"a",@progbits
	.p2align	2, 0x0
40:
	.long	21b-40b
	.long	21b-40b
	.long	8b-40b
	.long	6b-40b
	.long	6b-40b
	.long	21b-40b
	.long	21b-40b
	.long	21b-40b
	.long	21b-40b
	.long	7b-40b
	.long	7b-40b
41:
	.long	22b-41b
	.long	22b-41b
	.long	34b-41b
	.long	32b-41b
	.long	32b-41b
	.long	22b-41b
	.long	22b-41b
	.long	22b-41b
	.long	22b-41b
	.long	33b-41b
	.long	33b-41b

	.text
	.p2align	4
	.type	"clap::error::Error::subcommand_conflict",@function
"clap::error::Error::subcommand_conflict":
	pushq	%rbp
	pushq	%r15
	pushq	%r14
	pushq	%r13
	pushq	%r12
	pushq	%rbx
	subq	$136, %rsp
	movq	%r9, %r15
	movq	%r8, %r12
	movq	%rcx, %r13
	movq	%rdx, %rbp
	movq	%rsi, 24(%rsp)
	movq	%rdi, %rbx
	movq	192(%rsp), %rax
	movzbl	(%rax), %r14d
	movups	8(%rax), %xmm0
	movaps	%xmm0, 112(%rsp)
	xorps	%xmm0, %xmm0
	movaps	%xmm0, 32(%rsp)
	movq	$0, 48(%rsp)
	movl	$7, %edi
	movl	$1, %esi
	callq	rattle_alloc@PLT
	testb	$1, %al
	je	4f
	leaq	.Lc9c10f50e645(%rip), %rax
	movq	%rdx, %rcx
	subq	%rax, %rcx
	cmpq	$6, %rcx
	ja	1f
	movl	$1869771365, (%rdx)
	movw	$14962, 4(%rdx)
	movb	$32, 6(%rdx)
	jmp	2f
1:
	movl	$540701295, 3(%rdx)
	movl	$1869771365, (%rdx)
2:
	movq	%rdx, (%rsp)
	movq	$7, 8(%rsp)
	movq	$7, 16(%rsp)
	leaq	.L93928807f5f1(%rip), %rax
	movq	%rax, 64(%rsp)
	movq	$16, 72(%rsp)
	movq	%rbp, 80(%rsp)
	movq	%r13, 88(%rsp)
	leaq	.L95afaa5ccfdf(%rip), %rax
	movq	%rax, 96(%rsp)
	movq	$21, 104(%rsp)
	movq	%rsp, %rdi
	leaq	64(%rsp), %rsi
	callq	"std_alloc::string::String::write_fmt::<#a2e9c51888eedbd3>"
	testb	%al, %al
	jne	3f
	movq	%rsp, %rdi
	movq	%r12, %rsi
	movq	%r15, %rdx
	callq	"clap::error::text::push_others"
	testb	%al, %al
	jne	3f
	movq	%r14, 32(%rsp)
	movaps	112(%rsp), %xmm0
	movups	%xmm0, 40(%rsp)
	movq	%rsp, %rdi
	leaq	32(%rsp), %rdx
	movq	24(%rsp), %rsi
	callq	"clap::error::text::usage_and_help"
	testb	%al, %al
	je	6f
3:
	cmpq	$0, 16(%rsp)
	je	4f
	movq	(%rsp), %rdi
	callq	rattle_dealloc@PLT
4:
	movb	$1, (%rbx)
	movb	$0, 8(%rbx)
	xorps	%xmm0, %xmm0
	movups	%xmm0, 16(%rbx)
	movups	%xmm0, 32(%rbx)
5:
	addq	$136, %rsp
	popq	%rbx
	popq	%r12
	popq	%r13
	popq	%r14
	popq	%r15
	popq	%rbp
	retq
6:
	movb	$0, (%rbx)
	movb	$8, 8(%rbx)
	movq	$1, 16(%rbx)
	movups	(%rsp), %xmm0
	movups	%xmm0, 24(%rbx)
	movq	16(%rsp), %rax
	movq	%rax, 40(%rbx)
	jmp	5b
7:
	.size	"clap::error::Error::subcommand_conflict", 7b-"clap::error::Error::subcommand_conflict"

	.text
	.p2align	4
	.type	"clap::error::Error::too_few_values",@function
"clap::error::Error::too_few_values":
	pushq	%rbp
	pushq	%r15
	pushq	%r14
	pushq	%r13
	pushq	%r12
	pushq	%rbx
	subq	$184, %rsp
	movq	%r9, %r13
	movq	%rcx, %r15
	movq	%rdx, %r12
	movq	%rsi, %r14
	movq	%rdi, %rbx
	movq	240(%rsp), %rax
	movzbl	(%rax), %ebp
	movups	8(%rax), %xmm0
	movaps	%xmm0, 160(%rsp)
	xorps	%xmm0, %xmm0
	movaps	%xmm0, 48(%rsp)
	movq	$0, 64(%rsp)
	movq	%r8, 40(%rsp)
	movq	%r9, 32(%rsp)
	movl	$7, %edi
	movl	$1, %esi
	callq	rattle_alloc@PLT
	testb	$1, %al
	je	4f
	leaq	.Lc9c10f50e645(%rip), %rax
	movq	%rdx, %rcx
	subq	%rax, %rcx
	cmpq	$6, %rcx
	ja	1f
	movl	$1869771365, (%rdx)
	movw	$14962, 4(%rdx)
	movb	$32, 6(%rdx)
	jmp	2f
1:
	movl	$540701295, 3(%rdx)
	movl	$1869771365, (%rdx)
2:
	cmpq	$2, %r13
	movl	$13, %eax
	sbbq	$-1, %rax
	cmpq	$2, %r13
	movq	%rdx, 8(%rsp)
	movq	$7, 16(%rsp)
	movq	$7, 24(%rsp)
	leaq	.L6b2d212ddde4(%rip), %rcx
	leaq	.L496971ad93b5(%rip), %rdx
	cmovaeq	%rcx, %rdx
	leaq	40(%rsp), %rcx
	movq	%rcx, 80(%rsp)
	leaq	.Lde150d97cf6e(%rip), %rcx
	movq	%rcx, 88(%rsp)
	movq	$21, 96(%rsp)
	movq	%r12, 104(%rsp)
	movq	%r15, 112(%rsp)
	leaq	.Lff015fab1aa8(%rip), %rcx
	movq	%rcx, 120(%rsp)
	movq	$8, 128(%rsp)
	leaq	32(%rsp), %rcx
	movq	%rcx, 136(%rsp)
	movq	%rdx, 144(%rsp)
	movq	%rax, 152(%rsp)
	leaq	8(%rsp), %rdi
	leaq	80(%rsp), %rsi
	callq	"std_alloc::string::String::write_fmt::<#5a254c874babc368>"
	testb	%al, %al
	jne	3f
	movq	%rbp, 48(%rsp)
	movaps	160(%rsp), %xmm0
	movups	%xmm0, 56(%rsp)
	leaq	8(%rsp), %rdi
	leaq	48(%rsp), %rdx
	movq	%r14, %rsi
	callq	"clap::error::text::usage_and_help"
	testb	%al, %al
	je	6f
3:
	cmpq	$0, 24(%rsp)
	je	4f
	movq	8(%rsp), %rdi
	callq	rattle_dealloc@PLT
4:
	movb	$1, (%rbx)
	movb	$0, 8(%rbx)
	xorps	%xmm0, %xmm0
	movups	%xmm0, 16(%rbx)
	movups	%xmm0, 32(%rbx)
5:
	addq	$184, %rsp
	popq	%rbx
	popq	%r12
	popq	%r13
	popq	%r14
	popq	%r15
	popq	%rbp
	retq
6:
	movb	$0, (%rbx)
	movb	$6, 8(%rbx)
	movq	$1, 16(%rbx)
	movups	8(%rsp), %xmm0
	movups	%xmm0, 24(%rbx)
	movq	24(%rsp), %rax
	movq	%rax, 40(%rbx)
	jmp	5b
7:
	.size	"clap::error::Error::too_few_values", 7b-"clap::error::Error::too_few_values"

	.text
	.p2align	4
	.type	"clap::error::Error::too_many_values",@function
"clap::error::Error::too_many_values":
	pushq	%rbp
	pushq	%r15
	pushq	%r14
	pushq	%r13
	pushq	%r12
	pushq	%rbx
	subq	$168, %rsp
	movq	%r9, %r15
	movq	%r8, %r12
	movq	%rcx, %r13
	movq	%rdx, %rbp
	movq	%rsi, 24(%rsp)
	movq	%rdi, %rbx
	movq	224(%rsp), %rax
	movzbl	(%rax), %r14d
	movups	8(%rax), %xmm0
	movaps	%xmm0, 144(%rsp)
	xorps	%xmm0, %xmm0
	movaps	%xmm0, 32(%rsp)
	movq	$0, 48(%rsp)
	movl	$7, %edi
	movl	$1, %esi
	callq	rattle_alloc@PLT
	testb	$1, %al
	je	4f
	leaq	.Lc9c10f50e645(%rip), %rax
	movq	%rdx, %rcx
	subq	%rax, %rcx
	cmpq	$6, %rcx
	ja	1f
	movl	$1869771365, (%rdx)
	movw	$14962, 4(%rdx)
	movb	$32, 6(%rdx)
	jmp	2f
1:
	movl	$540701295, 3(%rdx)
	movl	$1869771365, (%rdx)
2:
	movq	%rdx, (%rsp)
	movq	$7, 8(%rsp)
	movq	$7, 16(%rsp)
	leaq	.La72ca670bb94(%rip), %rax
	movq	%rax, 64(%rsp)
	movq	$18, 72(%rsp)
	movq	%rbp, 80(%rsp)
	movq	%r13, 88(%rsp)
	leaq	.L9078467ae595(%rip), %rax
	movq	%rax, 96(%rsp)
	movq	$7, 104(%rsp)
	movq	%r12, 112(%rsp)
	movq	%r15, 120(%rsp)
	leaq	.Lb497d0178b7a(%rip), %rax
	movq	%rax, 128(%rsp)
	movq	$30, 136(%rsp)
	movq	%rsp, %rdi
	leaq	64(%rsp), %rsi
	callq	"std_alloc::string::String::write_fmt::<#7674f49477c5ed19>"
	testb	%al, %al
	jne	3f
	movq	%r14, 32(%rsp)
	movaps	144(%rsp), %xmm0
	movups	%xmm0, 40(%rsp)
	movq	%rsp, %rdi
	leaq	32(%rsp), %rdx
	movq	24(%rsp), %rsi
	callq	"clap::error::text::usage_and_help"
	testb	%al, %al
	je	6f
3:
	cmpq	$0, 16(%rsp)
	je	4f
	movq	(%rsp), %rdi
	callq	rattle_dealloc@PLT
4:
	movb	$1, (%rbx)
	movb	$0, 8(%rbx)
	xorps	%xmm0, %xmm0
	movups	%xmm0, 16(%rbx)
	movups	%xmm0, 32(%rbx)
5:
	addq	$168, %rsp
	popq	%rbx
	popq	%r12
	popq	%r13
	popq	%r14
	popq	%r15
	popq	%rbp
	retq
6:
	movb	$0, (%rbx)
	movb	$5, 8(%rbx)
	movq	$1, 16(%rbx)
	movups	(%rsp), %xmm0
	movups	%xmm0, 24(%rbx)
	movq	16(%rsp), %rax
	movq	%rax, 40(%rbx)
	jmp	5b
7:
	.size	"clap::error::Error::too_many_values", 7b-"clap::error::Error::too_many_values"

	.text
	.p2align	4
	.type	"clap::error::Error::unknown_argument",@function
"clap::error::Error::unknown_argument":
	pushq	%rbp
	pushq	%r15
	pushq	%r14
	pushq	%r13
	pushq	%r12
	pushq	%rbx
	subq	$392, %rsp
	movl	%r9d, %ebp
	movq	%rcx, %r15
	movq	%rdx, %r12
	movq	%rsi, 72(%rsp)
	movq	%rdi, %rbx
	movq	448(%rsp), %rax
	movzbl	(%r8), %r14d
	movq	8(%r8), %rcx
	movq	%rcx, 40(%rsp)
	movq	16(%r8), %rcx
	movq	%rcx, 32(%rsp)
	movzbl	24(%r8), %r13d
	movq	32(%r8), %rcx
	movq	%rcx, 56(%rsp)
	movq	40(%r8), %rcx
	movq	%rcx, 48(%rsp)
	movzbl	(%rax), %ecx
	movq	%rcx, 64(%rsp)
	movups	8(%rax), %xmm0
	movaps	%xmm0, 368(%rsp)
	xorps	%xmm0, %xmm0
	movaps	%xmm0, 144(%rsp)
	movaps	%xmm0, 128(%rsp)
	movaps	%xmm0, 112(%rsp)
	movaps	%xmm0, 304(%rsp)
	movaps	%xmm0, 288(%rsp)
	movaps	%xmm0, 272(%rsp)
	movaps	%xmm0, 256(%rsp)
	movaps	%xmm0, 240(%rsp)
	movaps	%xmm0, 224(%rsp)
	movaps	%xmm0, 208(%rsp)
	movaps	%xmm0, 192(%rsp)
	movaps	%xmm0, 176(%rsp)
	movaps	%xmm0, 160(%rsp)
	movaps	%xmm0, 80(%rsp)
	movq	$0, 96(%rsp)
	movl	$7, %edi
	movl	$1, %esi
	callq	rattle_alloc@PLT
	testb	$1, %al
	je	9f
	leaq	.Lc9c10f50e645(%rip), %rax
	movq	%rdx, %rcx
	subq	%rax, %rcx
	cmpq	$6, %rcx
	ja	1f
	movl	$1869771365, (%rdx)
	movw	$14962, 4(%rdx)
	movb	$32, 6(%rdx)
	jmp	2f
1:
	movl	$540701295, 3(%rdx)
	movl	$1869771365, (%rdx)
2:
	movq	%rdx, 8(%rsp)
	movq	$7, 16(%rsp)
	movq	$7, 24(%rsp)
	leaq	.L131d21b81ca1(%rip), %rax
	movq	%rax, 320(%rsp)
	movq	$21, 328(%rsp)
	movq	%r12, 336(%rsp)
	movq	%r15, 344(%rsp)
	leaq	.L543dcfd44baf(%rip), %rax
	movq	%rax, 352(%rsp)
	movq	$7, 360(%rsp)
	leaq	8(%rsp), %rdi
	leaq	320(%rsp), %rsi
	callq	"std_alloc::string::String::write_fmt::<#a2e9c51888eedbd3>"
	testb	%al, %al
	jne	8f
	xorb	$1, %r14b
	movl	%r14d, %eax
	orb	%r13b, %al
	jne	3f
	leaq	.L216771760d56(%rip), %rax
	movq	%rax, 112(%rsp)
	movq	$37, 120(%rsp)
	movq	40(%rsp), %rax
	movq	%rax, 128(%rsp)
	movq	32(%rsp), %rax
	movq	%rax, 136(%rsp)
	leaq	.L72431cffa757(%rip), %rax
	movq	%rax, 144(%rsp)
	movq	$1, 152(%rsp)
	leaq	8(%rsp), %rdi
	leaq	112(%rsp), %rsi
	callq	"std_alloc::string::String::write_fmt::<#a2e9c51888eedbd3>"
	testb	%al, %al
	jne	8f
	testb	%bpl, %bpl
	je	7f
	xorl	%r14d, %r14d
	testb	%bpl, %bpl
	jne	5f
	jmp	6f
3:
	xorb	$1, %r13b
	orb	%r13b, %r14b
	sete	%r14b
	movl	%ebp, %eax
	orb	%r14b, %al
	cmpb	$1, %al
	jne	7f
	movq	16(%rsp), %rax
	movq	24(%rsp), %rcx
	cmpq	%rax, %rcx
	je	12f
4:
	movq	8(%rsp), %rdx
	movb	$10, (%rdx,%rax)
	incq	%rax
	movq	%rax, 16(%rsp)
	movq	%rcx, 24(%rsp)
	testb	%bpl, %bpl
	je	6f
5:
	leaq	.L4aed72c3dd5d(%rip), %rax
	movq	%rax, 240(%rsp)
	movq	$17, 248(%rsp)
	movq	%r12, 256(%rsp)
	movq	%r15, 264(%rsp)
	leaq	.Le52463dbde38(%rip), %rax
	movq	%rax, 272(%rsp)
	movq	$22, 280(%rsp)
	movq	%r12, 288(%rsp)
	movq	%r15, 296(%rsp)
	leaq	.L72431cffa757(%rip), %rax
	movq	%rax, 304(%rsp)
	movq	$1, 312(%rsp)
	leaq	8(%rsp), %rdi
	leaq	240(%rsp), %rsi
	callq	"std_alloc::string::String::write_fmt::<#7674f49477c5ed19>"
	testb	%al, %al
	jne	8f
6:
	testb	%r14b, %r14b
	je	7f
	leaq	.L8d8772752b95(%rip), %rax
	movq	%rax, 160(%rsp)
	movq	$9, 168(%rsp)
	movq	56(%rsp), %rax
	movq	%rax, 176(%rsp)
	movq	48(%rsp), %rax
	movq	%rax, 184(%rsp)
	leaq	.L9b770efd7ae0(%rip), %rax
	movq	%rax, 192(%rsp)
	movq	$1, 200(%rsp)
	movq	40(%rsp), %rax
	movq	%rax, 208(%rsp)
	movq	32(%rsp), %rax
	movq	%rax, 216(%rsp)
	leaq	.L048e159fe161(%rip), %rax
	movq	%rax, 224(%rsp)
	movq	$8, 232(%rsp)
	leaq	8(%rsp), %rdi
	leaq	160(%rsp), %rsi
	callq	"std_alloc::string::String::write_fmt::<#7674f49477c5ed19>"
	testb	%al, %al
	jne	8f
7:
	movq	64(%rsp), %rax
	movq	%rax, 80(%rsp)
	movaps	368(%rsp), %xmm0
	movups	%xmm0, 88(%rsp)
	leaq	8(%rsp), %rdi
	leaq	80(%rsp), %rdx
	movq	72(%rsp), %rsi
	callq	"clap::error::text::usage_and_help"
	testb	%al, %al
	je	11f
8:
	cmpq	$0, 24(%rsp)
	je	9f
	movq	8(%rsp), %rdi
	callq	rattle_dealloc@PLT
9:
	movb	$1, (%rbx)
	movb	$0, 8(%rbx)
	xorps	%xmm0, %xmm0
	movups	%xmm0, 16(%rbx)
	movups	%xmm0, 32(%rbx)
10:
	addq	$392, %rsp
	popq	%rbx
	popq	%r12
	popq	%r13
	popq	%r14
	popq	%r15
	popq	%rbp
	retq
11:
	movb	$0, (%rbx)
	movb	$1, 8(%rbx)
	movq	$1, 16(%rbx)
	movups	8(%rsp), %xmm0
	movups	%xmm0, 24(%rbx)
	movq	24(%rsp), %rax
	movq	%rax, 40(%rbx)
	jmp	10b
12:
	leaq	8(%rsp), %rdi
	movl	$1, %esi
	callq	"std_alloc::vec::Vec::grow_amortized::<#1d775b5957dec42c>"
	testb	%al, %al
	je	8b
	movq	16(%rsp), %rax
	movq	24(%rsp), %rcx
	jmp	4b
13:
	.size	"clap::error::Error::unknown_argument", 13b-"clap::error::Error::unknown_argument"

	.text
	.p2align	4
	.type	"clap::error::Error::unrecognized_subcommand",@function
"clap::error::Error::unrecognized_subcommand":
	pushq	%r15
	pushq	%r14
	pushq	%r13
	pushq	%r12
	pushq	%rbx
	subq	$128, %rsp
	movq	%rcx, %r15
	movq	%rdx, %r12
	movq	%rsi, %r14
	movq	%rdi, %rbx
	movzbl	(%r8), %r13d
	movups	8(%r8), %xmm0
	movaps	%xmm0, 112(%rsp)
	xorps	%xmm0, %xmm0
	movaps	%xmm0, 32(%rsp)
	movq	$0, 48(%rsp)
	movl	$7, %edi
	movl	$1, %esi
	callq	rattle_alloc@PLT
	testb	$1, %al
	je	4f
	leaq	.Lc9c10f50e645(%rip), %rax
	movq	%rdx, %rcx
	subq	%rax, %rcx
	cmpq	$6, %rcx
	ja	1f
	movl	$1869771365, (%rdx)
	movw	$14962, 4(%rdx)
	movb	$32, 6(%rdx)
	jmp	2f
1:
	movl	$540701295, 3(%rdx)
	movl	$1869771365, (%rdx)
2:
	movq	%rdx, 8(%rsp)
	movq	$7, 16(%rsp)
	movq	$7, 24(%rsp)
	leaq	.L3bd543a532d6(%rip), %rax
	movq	%rax, 64(%rsp)
	movq	$25, 72(%rsp)
	movq	%r12, 80(%rsp)
	movq	%r15, 88(%rsp)
	leaq	.L72431cffa757(%rip), %rax
	movq	%rax, 96(%rsp)
	movq	$1, 104(%rsp)
	leaq	8(%rsp), %rdi
	leaq	64(%rsp), %rsi
	callq	"std_alloc::string::String::write_fmt::<#a2e9c51888eedbd3>"
	testb	%al, %al
	jne	3f
	movq	%r13, 32(%rsp)
	movaps	112(%rsp), %xmm0
	movups	%xmm0, 40(%rsp)
	leaq	8(%rsp), %rdi
	leaq	32(%rsp), %rdx
	movq	%r14, %rsi
	callq	"clap::error::text::usage_and_help"
	testb	%al, %al
	je	6f
3:
	cmpq	$0, 24(%rsp)
	je	4f
	movq	8(%rsp), %rdi
	callq	rattle_dealloc@PLT
4:
	movb	$1, (%rbx)
	movb	$0, 8(%rbx)
	xorps	%xmm0, %xmm0
	movups	%xmm0, 16(%rbx)
	movups	%xmm0, 32(%rbx)
5:
	addq	$128, %rsp
	popq	%rbx
	popq	%r12
	popq	%r13
	popq	%r14
	popq	%r15
	retq
6:
	movb	$0, (%rbx)
	movb	$2, 8(%rbx)
	movq	$1, 16(%rbx)
	movups	8(%rsp), %xmm0
	movups	%xmm0, 24(%rbx)
	movq	24(%rsp), %rax
	movq	%rax, 40(%rbx)
	jmp	5b
7:
	.size	"clap::error::Error::unrecognized_subcommand", 7b-"clap::error::Error::unrecognized_subcommand"

	.text
	.p2align	4
	.type	"clap::error::Error::value_validation::<#46e14f32b5b82833>",@function
"clap::error::Error::value_validation::<#46e14f32b5b82833>":
	pushq	%rbp
	pushq	%r15
	pushq	%r14
	pushq	%r13
	pushq	%r12
	pushq	%rbx
	subq	$168, %rsp
	movq	%r9, 72(%rsp)
	movq	%r8, %rbp
	movq	%rcx, %r15
	movq	%rdx, %rbx
	movq	%rsi, 136(%rsp)
	movq	%rdi, %r13
	movq	224(%rsp), %rax
	movq	(%rax), %r14
	movq	8(%rax), %rcx
	movq	%rcx, 120(%rsp)
	movq	16(%rax), %r12
	movl	$7, %edi
	movl	$1, %esi
	callq	rattle_alloc@PLT
	testb	$1, %al
	je	1f
	movq	%r12, 128(%rsp)
	leaq	.Lc9c10f50e645(%rip), %rax
	movq	%rdx, %rcx
	subq	%rax, %rcx
	cmpq	$6, %rcx
	ja	5f
	movl	$1869771365, (%rdx)
	movw	$14962, 4(%rdx)
	movb	$32, 6(%rdx)
	jmp	6f
1:
	testq	%r12, %r12
	je	3f
2:
	movq	%r14, %rdi
	callq	rattle_dealloc@PLT
3:
	movb	$1, (%r13)
	movb	$0, 8(%r13)
	xorps	%xmm0, %xmm0
	movups	%xmm0, 16(%r13)
	movups	%xmm0, 32(%r13)
4:
	addq	$168, %rsp
	popq	%rbx
	popq	%r12
	popq	%r13
	popq	%r14
	popq	%r15
	popq	%rbp
	retq
5:
	movl	$540701295, 3(%rdx)
	movl	$1869771365, (%rdx)
6:
	movq	%rdx, 80(%rsp)
	movq	$7, 88(%rsp)
	movq	$7, 96(%rsp)
	movq	80(%rsp), %rax
	movq	%rax, (%rsp)
	movq	88(%rsp), %rax
	movq	%rax, 8(%rsp)
	movq	$7, 16(%rsp)
	xorps	%xmm0, %xmm0
	movaps	%xmm0, 48(%rsp)
	movl	$32, 24(%rsp)
	movq	$0, 28(%rsp)
	movl	$0, 36(%rsp)
	movq	$-1, 40(%rsp)
	movl	$7, %r11d
	movq	8(%rsp), %rax
	movl	$7, %ecx
	subq	%rax, %rcx
	cmpq	$14, %rcx
	jbe	52f
7:
	movq	%r13, 112(%rsp)
	leaq	28(%rsp), %r10
	movq	(%rsp), %r12
	leaq	(%r12,%rax), %rcx
	addq	$15, %rax
	leaq	.L4a8652ca931c(%rip), %rdx
	movq	%rcx, %rsi
	subq	%rdx, %rsi
	movabsq	$2334106421097295465, %rdx
	cmpq	$14, %rsi
	ja	8f
	movq	%rdx, (%rcx)
	movl	$1970037110, 8(%rcx)
	movw	$8293, 12(%rcx)
	movb	$39, 14(%rcx)
	jmp	9f
8:
	movabsq	$2819364921737836064, %rsi
	movq	%rsi, 7(%rcx)
	movq	%rdx, (%rcx)
9:
	movq	%rax, 8(%rsp)
	movq	%r11, 16(%rsp)
	movl	$32, 24(%rsp)
	movl	$0, 8(%r10)
	movq	$0, (%r10)
	movq	$-1, 40(%rsp)
	cmpq	$0, 48(%rsp)
	jne	53f
	movq	%r11, %rcx
	subq	%rax, %rcx
	cmpq	%rcx, %r15
	ja	58f
10:
	leaq	(%rax,%r15), %r13
	leaq	(%r12,%rax), %rdi
	movq	%rdi, %rcx
	subq	%rbx, %rcx
	cmpq	%r15, %rcx
	jae	16f
	cmpq	$4, %r15
	movq	72(%rsp), %rdx
	jb	11f
	cmpq	$32, %rcx
	jae	49f
11:
	xorl	%ecx, %ecx
12:
	movq	%r15, %rsi
	movq	%rcx, %r9
	andq	$3, %rsi
	je	14f
	movq	%rcx, %r9
	.p2align	4
13:
	movzbl	(%rbx,%r9), %r8d
	movb	%r8b, (%rdi,%r9)
	incq	%r9
	decq	%rsi
	jne	13b
14:
	subq	%r15, %rcx
	cmpq	$-4, %rcx
	ja	17f
	addq	%r12, %rax
	addq	$3, %rax
	.p2align	4
15:
	movzbl	(%rbx,%r9), %ecx
	movb	%cl, -3(%rax,%r9)
	movzbl	1(%rbx,%r9), %ecx
	movb	%cl, -2(%rax,%r9)
	movzbl	2(%rbx,%r9), %ecx
	movb	%cl, -1(%rax,%r9)
	movzbl	3(%rbx,%r9), %ecx
	movb	%cl, (%rax,%r9)
	addq	$4, %r9
	cmpq	%r9, %r15
	jne	15b
	jmp	17f
16:
	movq	%rbx, %rsi
	movq	%r15, %rdx
	movq	%r11, %rbx
	callq	memmove@PLT
	movq	%rbx, %r11
	leaq	28(%rsp), %r10
	movq	72(%rsp), %rdx
17:
	movq	%r12, (%rsp)
	movq	%r13, 8(%rsp)
	movq	%r11, 16(%rsp)
	movq	112(%rsp), %r13
18:
	movl	$32, 24(%rsp)
	movl	$0, 8(%r10)
	movq	$0, (%r10)
	movq	$-1, 40(%rsp)
	cmpq	$0, 48(%rsp)
	jne	59f
	movq	8(%rsp), %rcx
	movq	16(%rsp), %rax
	movq	%rax, %rsi
	subq	%rcx, %rsi
	cmpq	$6, %rsi
	jbe	60f
19:
	leaq	7(%rcx), %r8
	addq	(%rsp), %rcx
	leaq	.L9078467ae595(%rip), %rsi
	movq	%rcx, %rdi
	subq	%rsi, %rdi
	cmpq	$6, %rdi
	ja	20f
	movl	$1868963879, (%rcx)
	movw	$8306, 4(%rcx)
	movb	$39, 6(%rcx)
	jmp	21f
20:
	movl	$656437871, 3(%rcx)
	movl	$1868963879, (%rcx)
21:
	movq	%r8, 8(%rsp)
	movq	%rax, 16(%rsp)
22:
	movl	$32, 24(%rsp)
	movl	$0, 8(%r10)
	movq	$0, (%r10)
	movq	$-1, 40(%rsp)
	cmpq	$0, 48(%rsp)
	jne	61f
	movq	8(%rsp), %rax
	movq	16(%rsp), %rbx
	movq	%rbx, %rcx
	subq	%rax, %rcx
	cmpq	%rcx, %rdx
	ja	66f
23:
	leaq	(%rax,%rdx), %r15
	movq	(%rsp), %rcx
	leaq	(%rcx,%rax), %rdi
	movq	%rdi, %rsi
	subq	%rbp, %rsi
	cmpq	%rdx, %rsi
	jae	29f
	cmpq	$4, %rdx
	jb	24f
	cmpq	$32, %rsi
	jae	50f
24:
	xorl	%r11d, %r11d
25:
	movq	%rdx, %r8
	movq	%r11, %rsi
	andq	$3, %r8
	je	27f
	movq	%r11, %rsi
	.p2align	4
26:
	movzbl	(%rbp,%rsi), %r9d
	movb	%r9b, (%rdi,%rsi)
	incq	%rsi
	decq	%r8
	jne	26b
27:
	subq	%rdx, %r11
	cmpq	$-4, %r11
	ja	30f
	addq	%rcx, %rax
	addq	$3, %rax
	.p2align	4
28:
	movzbl	(%rbp,%rsi), %ecx
	movb	%cl, -3(%rax,%rsi)
	movzbl	1(%rbp,%rsi), %ecx
	movb	%cl, -2(%rax,%rsi)
	movzbl	2(%rbp,%rsi), %ecx
	movb	%cl, -1(%rax,%rsi)
	movzbl	3(%rbp,%rsi), %ecx
	movb	%cl, (%rax,%rsi)
	addq	$4, %rsi
	cmpq	%rsi, %rdx
	jne	28b
	jmp	30f
29:
	movq	%rbp, %rsi
	callq	memmove@PLT
	leaq	28(%rsp), %r10
30:
	movq	%r15, 8(%rsp)
	movq	%rbx, 16(%rsp)
31:
	movl	$32, 24(%rsp)
	movl	$0, 8(%r10)
	movq	$0, (%r10)
	movq	$-1, 40(%rsp)
	cmpq	$0, 48(%rsp)
	jne	67f
	movq	8(%rsp), %rcx
	movq	16(%rsp), %rax
	movq	%rax, %rdx
	subq	%rcx, %rdx
	cmpq	$2, %rdx
	jbe	68f
32:
	leaq	3(%rcx), %rdx
	addq	(%rsp), %rcx
	leaq	.Le48613a08e5f(%rip), %rsi
	movq	%rcx, %rdi
	subq	%rsi, %rdi
	cmpq	$2, %rdi
	ja	33f
	movw	$14887, (%rcx)
	movb	$32, 2(%rcx)
	jmp	34f
33:
	movb	$32, 2(%rcx)
	movw	$14887, (%rcx)
34:
	movq	%rdx, 8(%rsp)
	movq	%rax, 16(%rsp)
35:
	movl	$32, 24(%rsp)
	movl	$0, 8(%r10)
	movq	$0, (%r10)
	movq	$-1, 40(%rsp)
	cmpq	$0, 48(%rsp)
	jne	69f
	movq	8(%rsp), %rax
	movq	16(%rsp), %rbx
	movq	%rbx, %rcx
	subq	%rax, %rcx
	movq	120(%rsp), %rdx
	cmpq	%rcx, %rdx
	ja	74f
36:
	leaq	(%rax,%rdx), %r15
	movq	(%rsp), %rcx
	leaq	(%rcx,%rax), %rdi
	movq	%rdi, %rsi
	subq	%r14, %rsi
	cmpq	%rdx, %rsi
	jae	42f
	cmpq	$4, %rdx
	jb	37f
	cmpq	$32, %rsi
	jae	51f
37:
	xorl	%r10d, %r10d
38:
	movq	%rdx, %r8
	movq	%r10, %rsi
	andq	$3, %r8
	je	40f
	movq	%r10, %rsi
	.p2align	4
39:
	movzbl	(%r14,%rsi), %r9d
	movb	%r9b, (%rdi,%rsi)
	incq	%rsi
	decq	%r8
	jne	39b
40:
	subq	%rdx, %r10
	cmpq	$-4, %r10
	ja	43f
	addq	%rcx, %rax
	addq	$3, %rax
	.p2align	4
41:
	movzbl	(%r14,%rsi), %ecx
	movb	%cl, -3(%rax,%rsi)
	movzbl	1(%r14,%rsi), %ecx
	movb	%cl, -2(%rax,%rsi)
	movzbl	2(%r14,%rsi), %ecx
	movb	%cl, -1(%rax,%rsi)
	movzbl	3(%r14,%rsi), %ecx
	movb	%cl, (%rax,%rsi)
	addq	$4, %rsi
	cmpq	%rsi, %rdx
	jne	41b
	jmp	43f
42:
	movq	%r14, %rsi
	callq	memmove@PLT
43:
	movq	%r15, 8(%rsp)
	movq	(%rsp), %rax
	movq	8(%rsp), %rcx
	movq	%rbx, 96(%rsp)
	movq	%rax, 80(%rsp)
	movq	%rcx, 88(%rsp)
44:
	leaq	80(%rsp), %rdi
	movq	136(%rsp), %rsi
	callq	"clap::error::text::try_help"
	testb	%al, %al
	movq	128(%rsp), %rbx
	je	47f
	cmpq	$0, 96(%rsp)
	je	46f
45:
	movq	80(%rsp), %rdi
	callq	rattle_dealloc@PLT
46:
	testq	%rbx, %rbx
	jne	2b
	jmp	3b
47:
	testq	%rbx, %rbx
	je	48f
	movq	%r14, %rdi
	callq	rattle_dealloc@PLT
48:
	movb	$0, (%r13)
	movb	$4, 8(%r13)
	movq	$1, 16(%r13)
	movaps	80(%rsp), %xmm0
	movups	%xmm0, 24(%r13)
	movq	96(%rsp), %rax
	movq	%rax, 40(%r13)
	jmp	4b
49:
	cmpq	$32, %r15
	jae	54f
	xorl	%ecx, %ecx
	jmp	56f
50:
	cmpq	$32, %rdx
	jae	62f
	xorl	%r11d, %r11d
	jmp	64f
51:
	cmpq	$32, %rdx
	jae	70f
	xorl	%r10d, %r10d
	jmp	72f
52:
	movq	%rsp, %rdi
	movl	$15, %esi
	callq	"std_alloc::vec::Vec::grow_amortized::<#1d775b5957dec42c>"
	testb	%al, %al
	je	75f
	movq	8(%rsp), %rax
	movq	16(%rsp), %r11
	jmp	7b
53:
	movq	%rsp, %rdi
	movq	%rbx, %rsi
	movq	%r15, %rdx
	callq	"core::fmt::formatter::Formatter::write_indented::<#0a7ff941e43d6b30>"
	leaq	28(%rsp), %r10
	testb	%al, %al
	movq	112(%rsp), %r13
	movq	72(%rsp), %rdx
	jne	75f
	jmp	18b
54:
	movq	%r15, %rcx
	andq	$-32, %rcx
	leaq	(%rax,%r12), %r8
	addq	$16, %r8
	xorl	%esi, %esi
	.p2align	4
55:
	movups	(%rbx,%rsi), %xmm0
	movups	16(%rbx,%rsi), %xmm1
	movups	%xmm0, -16(%r8,%rsi)
	movups	%xmm1, (%r8,%rsi)
	addq	$32, %rsi
	cmpq	%rsi, %rcx
	jne	55b
	cmpq	%rcx, %r15
	je	17b
	testb	$28, %r15b
	je	12b
56:
	movq	%rcx, %r8
	movq	%r15, %rcx
	andq	$-4, %rcx
	.p2align	4
57:
	movl	(%rbx,%r8), %esi
	movl	%esi, (%rdi,%r8)
	addq	$4, %r8
	cmpq	%r8, %rcx
	jne	57b
	cmpq	%rcx, %r15
	je	17b
	jmp	12b
58:
	movq	%rsp, %rdi
	movq	%r15, %rsi
	callq	"std_alloc::vec::Vec::grow_amortized::<#1d775b5957dec42c>"
	leaq	28(%rsp), %r10
	testb	%al, %al
	movq	112(%rsp), %r13
	je	75f
	movq	(%rsp), %r12
	movq	8(%rsp), %rax
	movq	16(%rsp), %r11
	jmp	10b
59:
	leaq	.L9078467ae595(%rip), %rsi
	movq	%rsp, %rdi
	movl	$7, %edx
	callq	"core::fmt::formatter::Formatter::write_indented::<#0a7ff941e43d6b30>"
	movq	72(%rsp), %rdx
	leaq	28(%rsp), %r10
	testb	%al, %al
	jne	75f
	jmp	22b
60:
	movq	%rsp, %rdi
	movl	$7, %esi
	callq	"std_alloc::vec::Vec::grow_amortized::<#1d775b5957dec42c>"
	movq	72(%rsp), %rdx
	leaq	28(%rsp), %r10
	testb	%al, %al
	je	75f
	movq	8(%rsp), %rcx
	movq	16(%rsp), %rax
	jmp	19b
61:
	movq	%rsp, %rdi
	movq	%rbp, %rsi
	callq	"core::fmt::formatter::Formatter::write_indented::<#0a7ff941e43d6b30>"
	leaq	28(%rsp), %r10
	testb	%al, %al
	jne	75f
	jmp	31b
62:
	movq	%rdx, %r11
	andq	$-32, %r11
	leaq	(%rax,%rcx), %rsi
	addq	$16, %rsi
	xorl	%r8d, %r8d
	.p2align	4
63:
	movups	(%rbp,%r8), %xmm0
	movups	16(%rbp,%r8), %xmm1
	movups	%xmm0, -16(%rsi,%r8)
	movups	%xmm1, (%rsi,%r8)
	addq	$32, %r8
	cmpq	%r8, %r11
	jne	63b
	cmpq	%r11, %rdx
	je	30b
	testb	$28, %dl
	je	25b
64:
	movq	%r11, %rsi
	movq	%rdx, %r11
	andq	$-4, %r11
	.p2align	4
65:
	movl	(%rbp,%rsi), %r8d
	movl	%r8d, (%rdi,%rsi)
	addq	$4, %rsi
	cmpq	%rsi, %r11
	jne	65b
	cmpq	%r11, %rdx
	je	30b
	jmp	25b
66:
	movq	%rsp, %rdi
	movq	%rdx, %rsi
	callq	"std_alloc::vec::Vec::grow_amortized::<#1d775b5957dec42c>"
	movq	72(%rsp), %rdx
	leaq	28(%rsp), %r10
	testb	%al, %al
	je	75f
	movq	8(%rsp), %rax
	movq	16(%rsp), %rbx
	jmp	23b
67:
	leaq	.Le48613a08e5f(%rip), %rsi
	movq	%rsp, %rdi
	movl	$3, %edx
	callq	"core::fmt::formatter::Formatter::write_indented::<#0a7ff941e43d6b30>"
	leaq	28(%rsp), %r10
	testb	%al, %al
	jne	75f
	jmp	35b
68:
	movq	%rsp, %rdi
	movl	$3, %esi
	callq	"std_alloc::vec::Vec::grow_amortized::<#1d775b5957dec42c>"
	leaq	28(%rsp), %r10
	testb	%al, %al
	je	75f
	movq	8(%rsp), %rcx
	movq	16(%rsp), %rax
	jmp	32b
69:
	movq	%rsp, %rdi
	movq	%r14, %rsi
	movq	120(%rsp), %rdx
	callq	"core::fmt::formatter::Formatter::write_indented::<#0a7ff941e43d6b30>"
	movq	16(%rsp), %rcx
	movq	%rcx, 160(%rsp)
	movaps	(%rsp), %xmm0
	movaps	%xmm0, 80(%rsp)
	movq	%rcx, 96(%rsp)
	testb	%al, %al
	jne	76f
	jmp	44b
70:
	movq	%rdx, %r10
	andq	$-32, %r10
	leaq	(%rax,%rcx), %rsi
	addq	$16, %rsi
	xorl	%r8d, %r8d
	.p2align	4
71:
	movups	(%r14,%r8), %xmm0
	movups	16(%r14,%r8), %xmm1
	movups	%xmm0, -16(%rsi,%r8)
	movups	%xmm1, (%rsi,%r8)
	addq	$32, %r8
	cmpq	%r8, %r10
	jne	71b
	cmpq	%r10, %rdx
	je	43b
	testb	$28, %dl
	je	38b
72:
	movq	%r10, %rsi
	movq	%rdx, %r10
	andq	$-4, %r10
	.p2align	4
73:
	movl	(%r14,%rsi), %r8d
	movl	%r8d, (%rdi,%rsi)
	addq	$4, %rsi
	cmpq	%rsi, %r10
	jne	73b
	cmpq	%r10, %rdx
	je	43b
	jmp	38b
74:
	movq	%rsp, %rdi
	movq	%rdx, %rsi
	callq	"std_alloc::vec::Vec::grow_amortized::<#1d775b5957dec42c>"
	testb	%al, %al
	je	75f
	movq	8(%rsp), %rax
	movq	16(%rsp), %rbx
	movq	120(%rsp), %rdx
	jmp	36b
75:
	movq	16(%rsp), %rax
	movaps	(%rsp), %xmm0
	movaps	%xmm0, 80(%rsp)
	movq	%rax, 96(%rsp)
76:
	cmpq	$0, 96(%rsp)
	movq	128(%rsp), %rbx
	jne	45b
	jmp	46b
77:
	.size	"clap::error::Error::value_validation::<#46e14f32b5b82833>", 77b-"clap::error::Error::value_validation::<#46e14f32b5b82833>"

	.text
	.p2align	4
	.type	"clap::error::Error::value_validation::<#7038ba82785d2ff1>",@function
"clap::error::Error::value_validation::<#7038ba82785d2ff1>":
	pushq	%rbp
	pushq	%r15
	pushq	%r14
	pushq	%r13
	pushq	%r12
	pushq	%rbx
	subq	$136, %rsp
	movq	%r9, %r15
	movq	%r8, %r12
	movq	%rcx, %r13
	movq	%rdx, %rbp
	movq	%rsi, %r14
	movq	%rdi, %rbx
	movl	$7, %edi
	movl	$1, %esi
	callq	rattle_alloc@PLT
	testb	$1, %al
	je	41f
	leaq	.Lc9c10f50e645(%rip), %rax
	movq	%rdx, %rcx
	subq	%rax, %rcx
	cmpq	$6, %rcx
	movq	%rbx, 96(%rsp)
	movq	%r14, 104(%rsp)
	ja	1f
	movl	$1869771365, (%rdx)
	movw	$14962, 4(%rdx)
	movb	$32, 6(%rdx)
	jmp	2f
1:
	movl	$540701295, 3(%rdx)
	movl	$1869771365, (%rdx)
2:
	movq	%rdx, 64(%rsp)
	movq	$7, 72(%rsp)
	movq	$7, 80(%rsp)
	movq	64(%rsp), %rax
	movq	%rax, (%rsp)
	movq	72(%rsp), %rax
	movq	%rax, 8(%rsp)
	movq	$7, 16(%rsp)
	xorps	%xmm0, %xmm0
	movaps	%xmm0, 48(%rsp)
	movl	$32, 24(%rsp)
	movq	$0, 28(%rsp)
	movl	$0, 36(%rsp)
	movq	$-1, 40(%rsp)
	movl	$7, %r14d
	movq	8(%rsp), %rax
	movl	$7, %ecx
	subq	%rax, %rcx
	cmpq	$14, %rcx
	jbe	49f
3:
	leaq	28(%rsp), %r10
	movq	(%rsp), %rbx
	leaq	(%rbx,%rax), %rcx
	addq	$15, %rax
	leaq	.L4a8652ca931c(%rip), %rdx
	movq	%rcx, %rsi
	subq	%rdx, %rsi
	movabsq	$2334106421097295465, %rdx
	cmpq	$14, %rsi
	ja	4f
	movq	%rdx, (%rcx)
	movl	$1970037110, 8(%rcx)
	movw	$8293, 12(%rcx)
	movb	$39, 14(%rcx)
	jmp	5f
4:
	movabsq	$2819364921737836064, %rsi
	movq	%rsi, 7(%rcx)
	movq	%rdx, (%rcx)
5:
	movq	%rax, 8(%rsp)
	movq	%r14, 16(%rsp)
	movl	$32, 24(%rsp)
	movl	$0, 8(%r10)
	movq	$0, (%r10)
	movq	$-1, 40(%rsp)
	cmpq	$0, 48(%rsp)
	jne	50f
	movq	%r14, %rcx
	subq	%rax, %rcx
	cmpq	%rcx, %r13
	ja	55f
6:
	leaq	(%rax,%r13), %r9
	leaq	(%rbx,%rax), %rdi
	movq	%rdi, %rcx
	subq	%rbp, %rcx
	cmpq	%r13, %rcx
	jae	12f
	cmpq	$4, %r13
	jb	7f
	cmpq	$32, %rcx
	jae	47f
7:
	xorl	%ecx, %ecx
8:
	movq	%r13, %rsi
	movq	%rcx, %rdx
	andq	$3, %rsi
	je	10f
	movq	%rcx, %rdx
	.p2align	4
9:
	movzbl	(%rbp,%rdx), %r8d
	movb	%r8b, (%rdi,%rdx)
	incq	%rdx
	decq	%rsi
	jne	9b
10:
	subq	%r13, %rcx
	cmpq	$-4, %rcx
	ja	13f
	addq	%rbx, %rax
	addq	$3, %rax
	.p2align	4
11:
	movzbl	(%rbp,%rdx), %ecx
	movb	%cl, -3(%rax,%rdx)
	movzbl	1(%rbp,%rdx), %ecx
	movb	%cl, -2(%rax,%rdx)
	movzbl	2(%rbp,%rdx), %ecx
	movb	%cl, -1(%rax,%rdx)
	movzbl	3(%rbp,%rdx), %ecx
	movb	%cl, (%rax,%rdx)
	addq	$4, %rdx
	cmpq	%rdx, %r13
	jne	11b
	jmp	13f
12:
	movq	%rbp, %rsi
	movq	%r13, %rdx
	movq	%r9, %r13
	callq	memmove@PLT
	movq	%r13, %r9
	leaq	28(%rsp), %r10
13:
	movq	%rbx, (%rsp)
	movq	%r9, 8(%rsp)
	movq	%r14, 16(%rsp)
14:
	movl	$32, 24(%rsp)
	movl	$0, 8(%r10)
	movq	$0, (%r10)
	movq	$-1, 40(%rsp)
	cmpq	$0, 48(%rsp)
	jne	56f
	movq	8(%rsp), %rcx
	movq	16(%rsp), %rax
	movq	%rax, %rdx
	subq	%rcx, %rdx
	cmpq	$6, %rdx
	jbe	57f
15:
	leaq	7(%rcx), %rdx
	addq	(%rsp), %rcx
	leaq	.L9078467ae595(%rip), %rsi
	movq	%rcx, %rdi
	subq	%rsi, %rdi
	cmpq	$6, %rdi
	ja	16f
	movl	$1868963879, (%rcx)
	movw	$8306, 4(%rcx)
	movb	$39, 6(%rcx)
	jmp	17f
16:
	movl	$656437871, 3(%rcx)
	movl	$1868963879, (%rcx)
17:
	movq	%rdx, 8(%rsp)
	movq	%rax, 16(%rsp)
18:
	movl	$32, 24(%rsp)
	movl	$0, 8(%r10)
	movq	$0, (%r10)
	movq	$-1, 40(%rsp)
	cmpq	$0, 48(%rsp)
	jne	58f
	movq	8(%rsp), %rax
	movq	16(%rsp), %rbx
	movq	%rbx, %rcx
	subq	%rax, %rcx
	cmpq	%rcx, %r15
	ja	63f
19:
	leaq	(%rax,%r15), %r14
	movq	(%rsp), %rcx
	leaq	(%rcx,%rax), %rdi
	movq	%rdi, %rdx
	subq	%r12, %rdx
	cmpq	%r15, %rdx
	jae	25f
	cmpq	$4, %r15
	jb	20f
	cmpq	$32, %rdx
	jae	48f
20:
	xorl	%edx, %edx
21:
	movq	%r15, %r8
	movq	%rdx, %rsi
	andq	$3, %r8
	je	23f
	movq	%rdx, %rsi
	.p2align	4
22:
	movzbl	(%r12,%rsi), %r9d
	movb	%r9b, (%rdi,%rsi)
	incq	%rsi
	decq	%r8
	jne	22b
23:
	subq	%r15, %rdx
	cmpq	$-4, %rdx
	ja	26f
	addq	%rcx, %rax
	addq	$3, %rax
	.p2align	4
24:
	movzbl	(%r12,%rsi), %ecx
	movb	%cl, -3(%rax,%rsi)
	movzbl	1(%r12,%rsi), %ecx
	movb	%cl, -2(%rax,%rsi)
	movzbl	2(%r12,%rsi), %ecx
	movb	%cl, -1(%rax,%rsi)
	movzbl	3(%r12,%rsi), %ecx
	movb	%cl, (%rax,%rsi)
	addq	$4, %rsi
	cmpq	%rsi, %r15
	jne	24b
	jmp	26f
25:
	movq	%r12, %rsi
	movq	%r15, %rdx
	callq	memmove@PLT
	leaq	28(%rsp), %r10
26:
	movq	%r14, 8(%rsp)
	movq	%rbx, 16(%rsp)
27:
	movl	$32, 24(%rsp)
	movl	$0, 8(%r10)
	movq	$0, (%r10)
	movq	$-1, 40(%rsp)
	cmpq	$0, 48(%rsp)
	jne	64f
	movq	8(%rsp), %rcx
	movq	16(%rsp), %rax
	movq	%rax, %rdx
	subq	%rcx, %rdx
	cmpq	$2, %rdx
	jbe	65f
28:
	leaq	3(%rcx), %rdx
	addq	(%rsp), %rcx
	leaq	.Le48613a08e5f(%rip), %rsi
	movq	%rcx, %rdi
	subq	%rsi, %rdi
	cmpq	$2, %rdi
	ja	29f
	movw	$14887, (%rcx)
	movb	$32, 2(%rcx)
	jmp	30f
29:
	movb	$32, 2(%rcx)
	movw	$14887, (%rcx)
30:
	movq	%rdx, 8(%rsp)
	movq	%rax, 16(%rsp)
31:
	movq	200(%rsp), %rdx
	movq	192(%rsp), %rsi
	movl	$32, 24(%rsp)
	movl	$0, 8(%r10)
	movq	$0, (%r10)
	movq	$-1, 40(%rsp)
	cmpq	$0, 48(%rsp)
	jne	66f
	movq	8(%rsp), %rax
	movq	16(%rsp), %rbx
	movq	%rbx, %rcx
	subq	%rax, %rcx
	cmpq	%rcx, %rdx
	ja	67f
32:
	leaq	(%rax,%rdx), %r14
	movq	(%rsp), %rcx
	leaq	(%rcx,%rax), %rdi
	movq	%rdi, %r8
	subq	%rsi, %r8
	cmpq	%rdx, %r8
	jae	37f
	cmpq	$16, %r8
	jae	44f
	xorl	%r8d, %r8d
33:
	movq	%rdx, %r10
	movq	%r8, %r9
	andq	$3, %r10
	je	35f
	movq	%r8, %r9
	.p2align	4
34:
	movzbl	(%rsi,%r9), %r11d
	movb	%r11b, (%rdi,%r9)
	incq	%r9
	decq	%r10
	jne	34b
35:
	subq	%rdx, %r8
	cmpq	$-4, %r8
	ja	38f
	addq	%rcx, %rax
	addq	$3, %rax
	.p2align	4
36:
	movzbl	(%rsi,%r9), %ecx
	movb	%cl, -3(%rax,%r9)
	movzbl	1(%rsi,%r9), %ecx
	movb	%cl, -2(%rax,%r9)
	movzbl	2(%rsi,%r9), %ecx
	movb	%cl, -1(%rax,%r9)
	movzbl	3(%rsi,%r9), %ecx
	movb	%cl, (%rax,%r9)
	addq	$4, %r9
	cmpq	%r9, %rdx
	jne	36b
	jmp	38f
37:
	callq	memmove@PLT
38:
	movq	%r14, 8(%rsp)
	movq	(%rsp), %rax
	movq	8(%rsp), %rcx
	movq	%rbx, 80(%rsp)
	movq	%rax, 64(%rsp)
	movq	%rcx, 72(%rsp)
39:
	leaq	64(%rsp), %rdi
	movq	104(%rsp), %rsi
	callq	"clap::error::text::try_help"
	testb	%al, %al
	movq	96(%rsp), %rbx
	je	43f
	cmpq	$0, 80(%rsp)
	je	41f
40:
	movq	64(%rsp), %rdi
	callq	rattle_dealloc@PLT
41:
	movb	$1, (%rbx)
	movb	$0, 8(%rbx)
	xorps	%xmm0, %xmm0
	movups	%xmm0, 16(%rbx)
	movups	%xmm0, 32(%rbx)
42:
	addq	$136, %rsp
	popq	%rbx
	popq	%r12
	popq	%r13
	popq	%r14
	popq	%r15
	popq	%rbp
	retq
43:
	movb	$0, (%rbx)
	movb	$4, 8(%rbx)
	movq	$1, 16(%rbx)
	movaps	64(%rsp), %xmm0
	movups	%xmm0, 24(%rbx)
	movq	80(%rsp), %rax
	movq	%rax, 40(%rbx)
	jmp	42b
44:
	movl	%edx, %r9d
	andl	$48, %r9d
	movups	(%rsi), %xmm0
	movups	%xmm0, (%rdi)
	cmpq	$16, %r9
	je	45f
	movups	16(%rsi), %xmm0
	movups	%xmm0, 16(%rdi)
45:
	cmpq	%r9, %rdx
	je	38b
	testb	$12, %dl
	je	70f
	movl	%edx, %r8d
	andl	$60, %r8d
	.p2align	4
46:
	movl	(%rsi,%r9), %r10d
	movl	%r10d, (%rdi,%r9)
	addq	$4, %r9
	cmpq	%r9, %r8
	jne	46b
	cmpq	%r8, %rdx
	jne	33b
	jmp	38b
47:
	cmpq	$32, %r13
	jae	51f
	xorl	%ecx, %ecx
	jmp	53f
48:
	cmpq	$32, %r15
	jae	59f
	xorl	%edx, %edx
	jmp	61f
49:
	movq	%rsp, %rdi
	movl	$15, %esi
	callq	"std_alloc::vec::Vec::grow_amortized::<#1d775b5957dec42c>"
	testb	%al, %al
	je	68f
	movq	8(%rsp), %rax
	movq	16(%rsp), %r14
	jmp	3b
50:
	movq	%rsp, %rdi
	movq	%rbp, %rsi
	movq	%r13, %rdx
	callq	"core::fmt::formatter::Formatter::write_indented::<#0a7ff941e43d6b30>"
	leaq	28(%rsp), %r10
	testb	%al, %al
	jne	68f
	jmp	14b
51:
	movq	%r13, %rcx
	andq	$-32, %rcx
	leaq	(%rax,%rbx), %rdx
	addq	$16, %rdx
	xorl	%esi, %esi
	.p2align	4
52:
	movups	(%rbp,%rsi), %xmm0
	movups	16(%rbp,%rsi), %xmm1
	movups	%xmm0, -16(%rdx,%rsi)
	movups	%xmm1, (%rdx,%rsi)
	addq	$32, %rsi
	cmpq	%rsi, %rcx
	jne	52b
	cmpq	%rcx, %r13
	je	13b
	testb	$28, %r13b
	je	8b
53:
	movq	%rcx, %rdx
	movq	%r13, %rcx
	andq	$-4, %rcx
	.p2align	4
54:
	movl	(%rbp,%rdx), %esi
	movl	%esi, (%rdi,%rdx)
	addq	$4, %rdx
	cmpq	%rdx, %rcx
	jne	54b
	cmpq	%rcx, %r13
	je	13b
	jmp	8b
55:
	movq	%rsp, %rdi
	movq	%r13, %rsi
	callq	"std_alloc::vec::Vec::grow_amortized::<#1d775b5957dec42c>"
	leaq	28(%rsp), %r10
	testb	%al, %al
	je	68f
	movq	(%rsp), %rbx
	movq	8(%rsp), %rax
	movq	16(%rsp), %r14
	jmp	6b
56:
	leaq	.L9078467ae595(%rip), %rsi
	movq	%rsp, %rdi
	movl	$7, %edx
	callq	"core::fmt::formatter::Formatter::write_indented::<#0a7ff941e43d6b30>"
	leaq	28(%rsp), %r10
	testb	%al, %al
	jne	68f
	jmp	18b
57:
	movq	%rsp, %rdi
	movl	$7, %esi
	callq	"std_alloc::vec::Vec::grow_amortized::<#1d775b5957dec42c>"
	leaq	28(%rsp), %r10
	testb	%al, %al
	je	68f
	movq	8(%rsp), %rcx
	movq	16(%rsp), %rax
	jmp	15b
58:
	movq	%rsp, %rdi
	movq	%r12, %rsi
	movq	%r15, %rdx
	callq	"core::fmt::formatter::Formatter::write_indented::<#0a7ff941e43d6b30>"
	leaq	28(%rsp), %r10
	testb	%al, %al
	jne	68f
	jmp	27b
59:
	movq	%r15, %rdx
	andq	$-32, %rdx
	leaq	(%rax,%rcx), %rsi
	addq	$16, %rsi
	xorl	%r8d, %r8d
	.p2align	4
60:
	movups	(%r12,%r8), %xmm0
	movups	16(%r12,%r8), %xmm1
	movups	%xmm0, -16(%rsi,%r8)
	movups	%xmm1, (%rsi,%r8)
	addq	$32, %r8
	cmpq	%r8, %rdx
	jne	60b
	cmpq	%rdx, %r15
	je	26b
	testb	$28, %r15b
	je	21b
61:
	movq	%rdx, %rsi
	movq	%r15, %rdx
	andq	$-4, %rdx
	.p2align	4
62:
	movl	(%r12,%rsi), %r8d
	movl	%r8d, (%rdi,%rsi)
	addq	$4, %rsi
	cmpq	%rsi, %rdx
	jne	62b
	cmpq	%rdx, %r15
	je	26b
	jmp	21b
63:
	movq	%rsp, %rdi
	movq	%r15, %rsi
	callq	"std_alloc::vec::Vec::grow_amortized::<#1d775b5957dec42c>"
	leaq	28(%rsp), %r10
	testb	%al, %al
	je	68f
	movq	8(%rsp), %rax
	movq	16(%rsp), %rbx
	jmp	19b
64:
	leaq	.Le48613a08e5f(%rip), %rsi
	movq	%rsp, %rdi
	movl	$3, %edx
	callq	"core::fmt::formatter::Formatter::write_indented::<#0a7ff941e43d6b30>"
	leaq	28(%rsp), %r10
	testb	%al, %al
	jne	68f
	jmp	31b
65:
	movq	%rsp, %rdi
	movl	$3, %esi
	callq	"std_alloc::vec::Vec::grow_amortized::<#1d775b5957dec42c>"
	leaq	28(%rsp), %r10
	testb	%al, %al
	je	68f
	movq	8(%rsp), %rcx
	movq	16(%rsp), %rax
	jmp	28b
66:
	movq	%rsp, %rdi
	callq	"core::fmt::formatter::Formatter::write_indented::<#0a7ff941e43d6b30>"
	movq	16(%rsp), %rcx
	movq	%rcx, 128(%rsp)
	movaps	(%rsp), %xmm0
	movaps	%xmm0, 64(%rsp)
	movq	%rcx, 80(%rsp)
	testb	%al, %al
	jne	69f
	jmp	39b
67:
	movq	%rsi, %r14
	movq	%rsp, %rdi
	movq	%rdx, %r15
	movq	%rdx, %rsi
	callq	"std_alloc::vec::Vec::grow_amortized::<#1d775b5957dec42c>"
	testb	%al, %al
	je	68f
	movq	8(%rsp), %rax
	movq	16(%rsp), %rbx
	movq	%r15, %rdx
	movq	%r14, %rsi
	jmp	32b
68:
	movq	16(%rsp), %rax
	movaps	(%rsp), %xmm0
	movaps	%xmm0, 64(%rsp)
	movq	%rax, 80(%rsp)
69:
	cmpq	$0, 80(%rsp)
	movq	96(%rsp), %rbx
	jne	40b
	jmp	41b
70:
	movq	%r9, %r8
	jmp	33b
71:
	.size	"clap::error::Error::value_validation::<#7038ba82785d2ff1>", 71b-"clap::error::Error::value_validation::<#7038ba82785d2ff1>"

	.text
	.p2align	4
	.type	"clap::error::Error::wrong_number_of_values",@function
"clap::error::Error::wrong_number_of_values":
	pushq	%rbp
	pushq	%r15
	pushq	%r14
	pushq	%r13
	pushq	%r12
	pushq	%rbx
	subq	$184, %rsp
	movq	%r9, %r13
	movq	%rcx, %r15
	movq	%rdx, %r12
	movq	%rsi, %r14
	movq	%rdi, %rbx
	movq	240(%rsp), %rax
	movzbl	(%rax), %ebp
	movups	8(%rax), %xmm0
	movaps	%xmm0, 160(%rsp)
	xorps	%xmm0, %xmm0
	movaps	%xmm0, 48(%rsp)
	movq	$0, 64(%rsp)
	movq	%r8, 40(%rsp)
	movq	%r9, 32(%rsp)
	movl	$7, %edi
	movl	$1, %esi
	callq	rattle_alloc@PLT
	testb	$1, %al
	je	4f
	leaq	.Lc9c10f50e645(%rip), %rax
	movq	%rdx, %rcx
	subq	%rax, %rcx
	cmpq	$6, %rcx
	ja	1f
	movl	$1869771365, (%rdx)
	movw	$14962, 4(%rdx)
	movb	$32, 6(%rdx)
	jmp	2f
1:
	movl	$540701295, 3(%rdx)
	movl	$1869771365, (%rdx)
2:
	cmpq	$2, %r13
	movl	$13, %eax
	sbbq	$-1, %rax
	cmpq	$2, %r13
	movq	%rdx, 8(%rsp)
	movq	$7, 16(%rsp)
	movq	$7, 24(%rsp)
	leaq	.L6b2d212ddde4(%rip), %rcx
	leaq	.L496971ad93b5(%rip), %rdx
	cmovaeq	%rcx, %rdx
	leaq	40(%rsp), %rcx
	movq	%rcx, 80(%rsp)
	leaq	.L614b23338c11(%rip), %rcx
	movq	%rcx, 88(%rsp)
	movq	$22, 96(%rsp)
	movq	%r12, 104(%rsp)
	movq	%r15, 112(%rsp)
	leaq	.L9b460a3ab27c(%rip), %rcx
	movq	%rcx, 120(%rsp)
	movq	$6, 128(%rsp)
	leaq	32(%rsp), %rcx
	movq	%rcx, 136(%rsp)
	movq	%rdx, 144(%rsp)
	movq	%rax, 152(%rsp)
	leaq	8(%rsp), %rdi
	leaq	80(%rsp), %rsi
	callq	"std_alloc::string::String::write_fmt::<#5a254c874babc368>"
	testb	%al, %al
	jne	3f
	movq	%rbp, 48(%rsp)
	movaps	160(%rsp), %xmm0
	movups	%xmm0, 56(%rsp)
	leaq	8(%rsp), %rdi
	leaq	48(%rsp), %rdx
	movq	%r14, %rsi
	callq	"clap::error::text::usage_and_help"
	testb	%al, %al
	je	6f
3:
	cmpq	$0, 24(%rsp)
	je	4f
	movq	8(%rsp), %rdi
	callq	rattle_dealloc@PLT
4:
	movb	$1, (%rbx)
	movb	$0, 8(%rbx)
	xorps	%xmm0, %xmm0
	movups	%xmm0, 16(%rbx)
	movups	%xmm0, 32(%rbx)
5:
	addq	$184, %rsp
	popq	%rbx
	popq	%r12
	popq	%r13
	popq	%r14
	popq	%r15
	popq	%rbp
	retq
6:
	movb	$0, (%rbx)
	movb	$7, 8(%rbx)
	movq	$1, 16(%rbx)
	movups	8(%rsp), %xmm0
	movups	%xmm0, 24(%rbx)
	movq	24(%rsp), %rax
	movq	%rax, 40(%rbx)
	jmp	5b
7:
	.size	"clap::error::Error::wrong_number_of_values", 7b-"clap::error::Error::wrong_number_of_values"

	.section	.rodata.cst16,"aM",@progbits,16
	.p2align	4, 0x0
1:
	.long	4294967295,4294967295,4294967295,2097150
2:
	.long	133,160,5760,8232
	.text
	.p2align	4
	.type	"clap::error::text::push_escaped",@function
"clap::error::text::push_escaped":
	pushq	%r15
	pushq	%r14
	pushq	%r12
	pushq	%rbx
	subq	$88, %rsp
	movq	%rdi, %rbx
	testq	%rdx, %rdx
	je	10f
	xorl	%ecx, %ecx
	jmp	4f
	.p2align	4
3:
	movq	%rdi, %rcx
	cmpq	%rdx, %rdi
	jae	21f
4:
	movzbl	(%rsi,%rcx), %eax
	testb	%al, %al
	js	6f
	incq	%rcx
	movq	%rcx, %rdi
5:
	cmpl	$32, %eax
	ja	3b
	movl	%eax, %eax
	movabsq	$4294983168, %rcx
	btq	%rax, %rcx
	jae	3b
	jmp	10f
	.p2align	4
6:
	movzbl	1(%rsi,%rcx), %r8d
	andl	$63, %r8d
	cmpb	$-33, %al
	ja	7f
	andl	$31, %eax
	shll	$6, %eax
	orl	%r8d, %eax
	movl	$2, %edi
	addq	%rcx, %rdi
	cmpl	$127, %eax
	ja	9f
	jmp	5b
7:
	movzbl	2(%rsi,%rcx), %r9d
	andl	$63, %r9d
	cmpb	$-17, %al
	ja	8f
	shll	$12, %eax
	movzwl	%ax, %eax
	shll	$6, %r8d
	orl	%eax, %r8d
	orl	%r9d, %r8d
	movl	$3, %edi
	movl	%r8d, %eax
	addq	%rcx, %rdi
	cmpl	$127, %eax
	jbe	5b
	jmp	9f
8:
	movzbl	3(%rsi,%rcx), %edi
	andl	$63, %edi
	andl	$7, %eax
	shll	$18, %eax
	shll	$12, %r8d
	orl	%eax, %r8d
	shll	$6, %r9d
	orl	%r8d, %r9d
	orl	%edi, %r9d
	movl	$4, %edi
	movl	%r9d, %eax
	addq	%rcx, %rdi
	cmpl	$127, %eax
	jbe	5b
9:
	movd	%eax, %xmm0
	pshufd	$0, %xmm0, %xmm0
	pand	1b(%rip), %xmm0
	pcmpeqd	2b(%rip), %xmm0
	movmskps	%xmm0, %ecx
	testl	%ecx, %ecx
	jne	10f
	cmpl	$8239, %eax
	je	10f
	cmpl	$8287, %eax
	je	10f
	cmpl	$12288, %eax
	je	10f
	addl	$-8192, %eax
	cmpl	$11, %eax
	jae	3b
10:
	movq	8(%rbx), %r12
	movq	16(%rbx), %rax
	movq	%rax, 16(%rsp)
	movups	(%rbx), %xmm0
	movaps	%xmm0, (%rsp)
	xorps	%xmm0, %xmm0
	movaps	%xmm0, 48(%rsp)
	movl	$32, 24(%rsp)
	movq	$0, 28(%rsp)
	movl	$0, 36(%rsp)
	movq	$-1, 40(%rsp)
	testq	%rdx, %rdx
	je	16f
	xorl	%eax, %eax
	.p2align	4
11:
	movzbl	(%rsi,%rax), %ecx
	leal	-32(%rcx), %edi
	cmpb	$94, %dil
	ja	12f
	cmpl	$34, %ecx
	je	12f
	cmpl	$92, %ecx
	je	12f
	incq	%rax
	cmpq	%rax, %rdx
	jne	11b
	jmp	13f
12:
	cmpq	%rdx, %rax
	jae	13f
	movq	%rsp, %rdi
	callq	"core::fmt::formatter::Formatter::write_quoted_in_runs::<#86a172efa8724158>"
	jmp	15f
13:
	movq	%rsi, %r15
	movq	%rdx, %r14
	leaq	.Lce444474aa36(%rip), %rsi
	movq	%rsp, %rdi
	movl	$1, %edx
	callq	"core::fmt::formatter::Formatter::write_raw::<#0a7ff941e43d6b30>"
	testb	%al, %al
	jne	17f
	cmpq	$0, 48(%rsp)
	jne	34f
	movq	%rsp, %rdi
	movq	%r15, %rsi
	movq	%r14, %rdx
	callq	"core::fmt::formatter::Formatter::write_raw::<#0a7ff941e43d6b30>"
	testb	%al, %al
	jne	17f
14:
	cmpq	$0, 48(%rsp)
	jne	33f
	leaq	.Lce444474aa36(%rip), %rsi
	movq	%rsp, %rdi
	movl	$1, %edx
	callq	"core::fmt::formatter::Formatter::write_raw::<#0a7ff941e43d6b30>"
15:
	movq	16(%rsp), %rcx
	movq	%rcx, 80(%rsp)
	movaps	(%rsp), %xmm0
	movaps	%xmm0, 64(%rsp)
	movq	%rcx, 16(%rbx)
	movups	%xmm0, (%rbx)
	testb	%al, %al
	je	30f
	movq	8(%rbx), %rcx
	testq	%r12, %r12
	jne	18f
	jmp	19f
16:
	leaq	.Lce444474aa36(%rip), %rsi
	movq	%rsp, %rdi
	movl	$1, %edx
	callq	"core::fmt::formatter::Formatter::write_raw::<#0a7ff941e43d6b30>"
	testb	%al, %al
	je	14b
17:
	movq	16(%rsp), %rax
	movq	%rax, 80(%rsp)
	movaps	(%rsp), %xmm0
	movaps	%xmm0, 64(%rsp)
	movq	%rax, 16(%rbx)
	movups	%xmm0, (%rbx)
	movq	8(%rbx), %rcx
	testq	%r12, %r12
	je	19f
18:
	cmpq	%rcx, %r12
	je	19f
	movb	$1, %al
	cmpq	%r12, %rcx
	jb	31f
	jbe	31f
	movq	(%rbx), %rcx
	cmpb	$-65, (%rcx,%r12)
	jg	20f
	jmp	31f
19:
	movb	$1, %al
	cmpq	%r12, %rcx
	jbe	31f
20:
	movq	%r12, 8(%rbx)
	movb	$1, %al
	jmp	31f
21:
	movq	8(%rbx), %rax
	movq	16(%rbx), %r14
	movq	%r14, %rcx
	subq	%rax, %rcx
	cmpq	%rcx, %rdx
	ja	39f
22:
	leaq	8(%rbx), %rcx
	leaq	(%rax,%rdx), %r15
	movq	(%rbx), %r12
	xorps	%xmm0, %xmm0
	movups	%xmm0, (%rcx)
	leaq	(%r12,%rax), %rdi
	movq	%rdi, %rcx
	subq	%rsi, %rcx
	cmpq	%rdx, %rcx
	jae	28f
	cmpq	$4, %rdx
	jb	23f
	cmpq	$32, %rcx
	jae	32f
23:
	xorl	%ecx, %ecx
24:
	movq	%rdx, %r9
	movq	%rcx, %r8
	andq	$3, %r9
	je	26f
	movq	%rcx, %r8
	.p2align	4
25:
	movzbl	(%rsi,%r8), %r10d
	movb	%r10b, (%rdi,%r8)
	incq	%r8
	decq	%r9
	jne	25b
26:
	subq	%rdx, %rcx
	cmpq	$-4, %rcx
	ja	29f
	addq	%r12, %rax
	addq	$3, %rax
	.p2align	4
27:
	movzbl	(%rsi,%r8), %ecx
	movb	%cl, -3(%rax,%r8)
	movzbl	1(%rsi,%r8), %ecx
	movb	%cl, -2(%rax,%r8)
	movzbl	2(%rsi,%r8), %ecx
	movb	%cl, -1(%rax,%r8)
	movzbl	3(%rsi,%r8), %ecx
	movb	%cl, (%rax,%r8)
	addq	$4, %r8
	cmpq	%r8, %rdx
	jne	27b
	jmp	29f
28:
	callq	memmove@PLT
29:
	movq	%r12, (%rbx)
	movq	%r15, 8(%rbx)
	movq	%r14, 16(%rbx)
30:
	xorl	%eax, %eax
31:
	addq	$88, %rsp
	popq	%rbx
	popq	%r12
	popq	%r14
	popq	%r15
	retq
32:
	cmpq	$32, %rdx
	jae	35f
	xorl	%ecx, %ecx
	jmp	37f
33:
	leaq	.Lce444474aa36(%rip), %rsi
	movq	%rsp, %rdi
	movl	$1, %edx
	callq	"core::fmt::formatter::Formatter::write_indented::<#0a7ff941e43d6b30>"
	jmp	15b
34:
	movq	%rsp, %rdi
	movq	%r15, %rsi
	movq	%r14, %rdx
	callq	"core::fmt::formatter::Formatter::write_indented::<#0a7ff941e43d6b30>"
	testb	%al, %al
	jne	17b
	jmp	14b
35:
	movq	%rdx, %rcx
	andq	$-32, %rcx
	leaq	(%rax,%r12), %r8
	addq	$16, %r8
	xorl	%r9d, %r9d
36:
	movups	(%rsi,%r9), %xmm0
	movups	16(%rsi,%r9), %xmm1
	movups	%xmm0, -16(%r8,%r9)
	movups	%xmm1, (%r8,%r9)
	addq	$32, %r9
	cmpq	%r9, %rcx
	jne	36b
	cmpq	%rcx, %rdx
	je	29b
	testb	$28, %dl
	je	24b
37:
	movq	%rcx, %r8
	movq	%rdx, %rcx
	andq	$-4, %rcx
	.p2align	4
38:
	movl	(%rsi,%r8), %r9d
	movl	%r9d, (%rdi,%r8)
	addq	$4, %r8
	cmpq	%r8, %rcx
	jne	38b
	cmpq	%rcx, %rdx
	je	29b
	jmp	24b
39:
	movq	%rsi, %r15
	movq	%rbx, %rdi
	movq	%rdx, %r12
	movq	%rdx, %rsi
	callq	"std_alloc::vec::Vec::grow_amortized::<#1d775b5957dec42c>"
	movl	%eax, %ecx
	movb	$1, %al
	testb	%cl, %cl
	je	31b
	movq	8(%rbx), %rax
	movq	16(%rbx), %r14
	movq	%r12, %rdx
	movq	%r15, %rsi
	jmp	22b
40:
	.size	"clap::error::text::push_escaped", 40b-"clap::error::text::push_escaped"

	.section	.rodata.cst16,"aM",@progbits,16
	.p2align	4, 0x0
1:
	.byte	32,111,110,101,32,111,114,32,109,111,114,101,32,111,102,32
2:
	.byte	116,104,101,32,111,116,104,101,114,32,115,112,101,99,105,102
	.text
	.p2align	4
	.type	"clap::error::text::push_others",@function
"clap::error::text::push_others":
	pushq	%r15
	pushq	%r14
	pushq	%rbx
	subq	$80, %rsp
	movq	%rdi, %rbx
	testq	%rdx, %rdx
	je	3f
	movq	%rdx, %r15
	movq	%rsi, %r14
	cmpq	$1, %rdx
	jne	5f
	leaq	.L9c57e44a2f2d(%rip), %rax
	movq	%rax, 40(%rsp)
	movq	$2, 48(%rsp)
	movq	%r14, 56(%rsp)
	leaq	.L72431cffa757(%rip), %rax
	movq	%rax, 64(%rsp)
	movq	$1, 72(%rsp)
	leaq	40(%rsp), %rsi
	movq	%rbx, %rdi
	callq	"std_alloc::string::String::write_fmt::<#605efbca80f73881>"
	jmp	12f
3:
	movq	8(%rbx), %rax
	movq	16(%rbx), %rcx
	movq	%rcx, %rdx
	subq	%rax, %rdx
	cmpq	$44, %rdx
	jbe	13f
4:
	leaq	8(%rbx), %rsi
	movq	(%rbx), %rdx
	xorps	%xmm0, %xmm0
	movups	%xmm0, (%rsi)
	leaq	(%rdx,%rax), %rsi
	addq	$45, %rax
	leaq	.Lb7b781d5a1fb(%rip), %rdi
	movq	%rsi, %r8
	subq	%rdi, %r8
	cmpq	$44, %r8
	ja	9f
	movaps	1b(%rip), %xmm0
	movups	%xmm0, (%rsi)
	movaps	2b(%rip), %xmm0
	movups	%xmm0, 16(%rsi)
	movabsq	$8459856186519610729, %rdi
	movq	%rdi, 32(%rsi)
	movl	$1953391981, 40(%rsi)
	movb	$115, 44(%rsi)
	jmp	10f
5:
	movq	8(%rbx), %rax
	movq	16(%rbx), %rcx
	cmpq	%rax, %rcx
	je	14f
6:
	movq	(%rbx), %rdx
	movb	$58, (%rdx,%rax)
	incq	%rax
	movq	%rdx, (%rbx)
	movq	%rax, 8(%rbx)
	movq	%rcx, 16(%rbx)
	.p2align	4
7:
	leaq	.Lb9d66d2d8f9c(%rip), %rax
	movq	%rax, 8(%rsp)
	movq	$1, 16(%rsp)
	leaq	.Lc0d8ce03ca58(%rip), %rax
	movq	%rax, 24(%rsp)
	movq	%r14, 32(%rsp)
	leaq	8(%rsp), %rsi
	movq	%rbx, %rdi
	callq	"std_alloc::string::String::write_fmt::<#30f651fa9ab76bd9>"
	testb	%al, %al
	jne	8f
	addq	$24, %r14
	decq	%r15
	jne	7b
	jmp	11f
8:
	movb	$1, %al
	jmp	12f
9:
	movups	.Lb7b781d5a1fb+29(%rip), %xmm0
	movups	%xmm0, 29(%rsi)
	movups	.Lb7b781d5a1fb+16(%rip), %xmm0
	movups	%xmm0, 16(%rsi)
	movups	.Lb7b781d5a1fb(%rip), %xmm0
	movups	%xmm0, (%rsi)
10:
	movq	%rdx, (%rbx)
	movq	%rax, 8(%rbx)
	movq	%rcx, 16(%rbx)
11:
	xorl	%eax, %eax
12:
	addq	$80, %rsp
	popq	%rbx
	popq	%r14
	popq	%r15
	retq
13:
	movl	$45, %esi
	movq	%rbx, %rdi
	callq	"std_alloc::vec::Vec::grow_amortized::<#1d775b5957dec42c>"
	movl	%eax, %ecx
	movb	$1, %al
	testb	%cl, %cl
	je	12b
	movq	8(%rbx), %rax
	movq	16(%rbx), %rcx
	jmp	4b
14:
	movl	$1, %esi
	movq	%rbx, %rdi
	callq	"std_alloc::vec::Vec::grow_amortized::<#1d775b5957dec42c>"
	movl	%eax, %ecx
	movb	$1, %al
	testb	%cl, %cl
	je	12b
	movq	8(%rbx), %rax
	movq	16(%rbx), %rcx
	jmp	6b
15:
	.size	"clap::error::text::push_others", 15b-"clap::error::text::push_others"

	.section	.rodata.cst16,"aM",@progbits,16
	.p2align	4, 0x0
1:
	.byte	10,10,70,111,114,32,109,111,114,101,32,105,110,102,111,114
2:
	.byte	109,97,116,105,111,110,44,32,116,114,121,32,39,45,45,104
3:
	.byte	109,97,116,105,111,110,44,32,116,114,121,32,39,104,101,108
	.text
	.p2align	4
	.type	"clap::error::text::try_help",@function
"clap::error::text::try_help":
	pushq	%r14
	pushq	%rbx
	subq	$168, %rsp
	xorps	%xmm0, %xmm0
	movaps	%xmm0, 144(%rsp)
	movaps	%xmm0, 128(%rsp)
	movaps	%xmm0, 112(%rsp)
	cmpb	$0, 654(%rsi)
	je	6f
	movq	584(%rsi), %rcx
	movq	$-544, %rax
	addq	576(%rsi), %rax
	incq	%rcx
	.p2align	4
4:
	decq	%rcx
	je	8f
	movq	%rax, %rdx
	addq	$608, %rax
	cmpb	$1, 1048(%rdx)
	jne	4b
	movzbl	1049(%rdx), %edx
	addb	$-5, %dl
	cmpb	$2, %dl
	ja	4b
	cmpb	$1, 8(%rax)
	jne	11f
	movups	16(%rax), %xmm0
	leaq	.L3c4fa2a70e83(%rip), %rax
	movq	%rax, 112(%rsp)
	movq	$31, 120(%rsp)
	movaps	%xmm0, 128(%rsp)
	leaq	.L3ef631d2bde6(%rip), %rax
	movq	%rax, 144(%rsp)
	movq	$3, 152(%rsp)
	leaq	112(%rsp), %rsi
	callq	"std_alloc::string::String::write_fmt::<#a2e9c51888eedbd3>"
5:
	addq	$168, %rsp
	popq	%rbx
	popq	%r14
	retq
6:
	movq	8(%rdi), %rax
	movq	16(%rdi), %rcx
	movq	%rcx, %rdx
	subq	%rax, %rdx
	cmpq	$37, %rdx
	jbe	22f
7:
	leaq	8(%rdi), %rsi
	movq	(%rdi), %rdx
	xorps	%xmm0, %xmm0
	movups	%xmm0, (%rsi)
	leaq	(%rdx,%rax), %rsi
	addq	$38, %rax
	leaq	.L454bde90644f(%rip), %r8
	movq	%rsi, %r9
	subq	%r8, %r9
	cmpq	$37, %r9
	ja	10f
	movaps	1b(%rip), %xmm0
	movups	%xmm0, (%rsi)
	movaps	2b(%rip), %xmm0
	movups	%xmm0, 16(%rsi)
	movl	$661679205, 32(%rsi)
	movw	$2606, 36(%rsi)
	jmp	15f
8:
	cmpq	$0, 608(%rsi)
	je	13f
	cmpb	$0, 655(%rsi)
	jne	13f
	movq	8(%rdi), %rax
	movq	16(%rdi), %rcx
	movq	%rcx, %rdx
	subq	%rax, %rdx
	cmpq	$35, %rdx
	jbe	30f
9:
	leaq	8(%rdi), %rsi
	movq	(%rdi), %rdx
	xorps	%xmm0, %xmm0
	movups	%xmm0, (%rsi)
	leaq	(%rdx,%rax), %rsi
	addq	$36, %rax
	leaq	.L200fec9a0c52(%rip), %r8
	movq	%rsi, %r9
	subq	%r8, %r9
	cmpq	$35, %r9
	ja	17f
	movaps	1b(%rip), %xmm0
	movups	%xmm0, (%rsi)
	movaps	3b(%rip), %xmm0
	movups	%xmm0, 16(%rsi)
	movl	$170796912, 32(%rsi)
	jmp	15f
10:
	movups	.L454bde90644f+16(%rip), %xmm0
	movups	%xmm0, 16(%rsi)
	movups	.L454bde90644f(%rip), %xmm0
	movups	%xmm0, (%rsi)
	movabsq	$733567153116375085, %r8
	movq	%r8, 30(%rsi)
	jmp	15f
11:
	cmpb	$1, (%rax)
	jne	13f
	movl	4(%rax), %eax
	movl	%eax, 76(%rsp)
	movq	8(%rdi), %rbx
	movups	(%rdi), %xmm0
	movaps	%xmm0, (%rsp)
	movq	16(%rdi), %rax
	movq	%rax, 16(%rsp)
	xorps	%xmm0, %xmm0
	movaps	%xmm0, 48(%rsp)
	movl	$32, 24(%rsp)
	movq	$0, 28(%rsp)
	movl	$0, 36(%rsp)
	movq	$-1, 40(%rsp)
	movq	8(%rsp), %rcx
	movq	%rax, %rdx
	subq	%rcx, %rdx
	cmpq	$29, %rdx
	jbe	31f
12:
	leaq	30(%rcx), %rdx
	addq	(%rsp), %rcx
	leaq	.L3b8880383644(%rip), %rsi
	movq	%rcx, %r8
	subq	%rsi, %r8
	movq	%rdi, %r14
	cmpq	$29, %r8
	ja	18f
	movaps	1b(%rip), %xmm0
	movups	%xmm0, (%rcx)
	movabsq	$2318349332978622829, %rsi
	movq	%rsi, 16(%rcx)
	movl	$544830068, 24(%rcx)
	movw	$11559, 28(%rcx)
	jmp	19f
13:
	movq	8(%rdi), %rax
	movq	16(%rdi), %rcx
	cmpq	%rax, %rcx
	je	27f
14:
	movq	(%rdi), %rdx
	movb	$10, (%rdx,%rax)
	incq	%rax
15:
	movq	%rdx, (%rdi)
	movq	%rax, 8(%rdi)
	movq	%rcx, 16(%rdi)
16:
	xorl	%eax, %eax
	addq	$168, %rsp
	popq	%rbx
	popq	%r14
	retq
17:
	movups	.L200fec9a0c52+16(%rip), %xmm0
	movups	%xmm0, 16(%rsi)
	movups	.L200fec9a0c52(%rip), %xmm0
	movups	%xmm0, (%rsi)
	movl	$170796912, 32(%rsi)
	jmp	15b
18:
	movups	.L3b8880383644+14(%rip), %xmm0
	movups	%xmm0, 14(%rcx)
	movups	.L3b8880383644(%rip), %xmm0
	movups	%xmm0, (%rcx)
19:
	movq	%rdx, 8(%rsp)
	movq	%rax, 16(%rsp)
	movq	%rsp, %rdi
	leaq	76(%rsp), %rsi
	callq	"core::fmt::formatter::Formatter::write_piece::<#8b9b65c5604fc23d>"
	testb	%al, %al
	je	23f
20:
	movq	16(%rsp), %rax
	movq	%rax, 96(%rsp)
	movaps	(%rsp), %xmm0
	movaps	%xmm0, 80(%rsp)
	movq	%rax, 16(%r14)
	movups	%xmm0, (%r14)
21:
	movq	8(%r14), %rcx
	testq	%rbx, %rbx
	je	25f
	cmpq	%rcx, %rbx
	je	25f
	movb	$1, %al
	cmpq	%rbx, %rcx
	jb	5b
	jbe	5b
	movq	(%r14), %rcx
	cmpb	$-65, (%rcx,%rbx)
	jg	26f
	jmp	5b
22:
	movl	$38, %esi
	movq	%rdi, %rbx
	callq	"std_alloc::vec::Vec::grow_amortized::<#1d775b5957dec42c>"
	movl	%eax, %ecx
	movb	$1, %al
	testb	%cl, %cl
	je	5b
	movq	%rbx, %rdi
	movq	8(%rbx), %rax
	movq	16(%rbx), %rcx
	jmp	7b
23:
	leaq	28(%rsp), %rax
	movl	$32, 24(%rsp)
	movl	$0, 8(%rax)
	movq	$0, (%rax)
	movq	$-1, 40(%rsp)
	cmpq	$0, 48(%rsp)
	jne	32f
	movq	8(%rsp), %rcx
	movq	16(%rsp), %rax
	movq	%rax, %rdx
	subq	%rcx, %rdx
	cmpq	$2, %rdx
	jbe	33f
24:
	leaq	3(%rcx), %rdx
	addq	(%rsp), %rcx
	leaq	.L3ef631d2bde6(%rip), %rsi
	movq	%rcx, %rdi
	subq	%rsi, %rdi
	cmpq	$2, %rdi
	ja	28f
	movw	$11815, (%rcx)
	movb	$10, 2(%rcx)
	jmp	29f
25:
	movb	$1, %al
	cmpq	%rbx, %rcx
	jbe	5b
26:
	movq	%rbx, 8(%r14)
	movb	$1, %al
	addq	$168, %rsp
	popq	%rbx
	popq	%r14
	retq
27:
	movl	$1, %esi
	movq	%rdi, %rbx
	callq	"std_alloc::vec::Vec::grow_amortized::<#1d775b5957dec42c>"
	movl	%eax, %ecx
	movb	$1, %al
	testb	%cl, %cl
	je	5b
	movq	%rbx, %rdi
	movq	8(%rbx), %rax
	movq	16(%rbx), %rcx
	jmp	14b
28:
	movb	$10, 2(%rcx)
	movw	$11815, (%rcx)
29:
	movq	%rdx, 8(%rsp)
	movq	%rax, 96(%rsp)
	movaps	(%rsp), %xmm0
	movaps	%xmm0, 80(%rsp)
	movq	%rax, 16(%r14)
	movups	%xmm0, (%r14)
	jmp	16b
30:
	movl	$36, %esi
	movq	%rdi, %rbx
	callq	"std_alloc::vec::Vec::grow_amortized::<#1d775b5957dec42c>"
	movl	%eax, %ecx
	movb	$1, %al
	testb	%cl, %cl
	je	5b
	movq	%rbx, %rdi
	movq	8(%rbx), %rax
	movq	16(%rbx), %rcx
	jmp	9b
31:
	movq	%rdi, %r14
	movq	%rsp, %rdi
	movl	$30, %esi
	callq	"std_alloc::vec::Vec::grow_amortized::<#1d775b5957dec42c>"
	testb	%al, %al
	je	20b
	movq	8(%rsp), %rcx
	movq	16(%rsp), %rax
	movq	%r14, %rdi
	jmp	12b
32:
	leaq	.L3ef631d2bde6(%rip), %rsi
	movq	%rsp, %rdi
	movl	$3, %edx
	callq	"core::fmt::formatter::Formatter::write_indented::<#0a7ff941e43d6b30>"
	movq	16(%rsp), %rcx
	movq	%rcx, 96(%rsp)
	movaps	(%rsp), %xmm0
	movaps	%xmm0, 80(%rsp)
	movq	%rcx, 16(%r14)
	movups	%xmm0, (%r14)
	testb	%al, %al
	jne	21b
	jmp	16b
33:
	movq	%rsp, %rdi
	movl	$3, %esi
	callq	"std_alloc::vec::Vec::grow_amortized::<#1d775b5957dec42c>"
	testb	%al, %al
	je	20b
	movq	8(%rsp), %rcx
	movq	16(%rsp), %rax
	jmp	24b
34:
	.size	"clap::error::text::try_help", 34b-"clap::error::text::try_help"

	.text
	.p2align	4
	.type	"clap::error::text::usage_and_help",@function
"clap::error::text::usage_and_help":
	pushq	%rbp
	pushq	%r15
	pushq	%r14
	pushq	%r13
	pushq	%r12
	pushq	%rbx
	pushq	%rax
	cmpb	$1, (%rdx)
	jne	10f
	movq	8(%rdx), %rax
	movq	16(%rdx), %rdx
	movq	8(%rdi), %r8
	movq	16(%rdi), %rbx
	movq	%rbx, %rcx
	subq	%r8, %rcx
	cmpq	$1, %rcx
	jbe	16f
1:
	movq	(%rdi), %r14
	movw	$2570, (%r14,%r8)
	addq	$2, %r8
	movq	%r14, (%rdi)
	movq	%r8, 8(%rdi)
	movq	%rbx, 16(%rdi)
	movq	%rbx, %rcx
	subq	%r8, %rcx
	cmpq	%rcx, %rdx
	ja	17f
2:
	leaq	8(%rdi), %rcx
	leaq	(%r8,%rdx), %r15
	xorps	%xmm0, %xmm0
	movups	%xmm0, (%rcx)
	leaq	(%r14,%r8), %rcx
	movq	%rcx, %r9
	subq	%rax, %r9
	cmpq	%rdx, %r9
	jae	8f
	cmpq	$4, %rdx
	jb	3f
	cmpq	$32, %r9
	jae	11f
3:
	xorl	%r9d, %r9d
4:
	movq	%rdx, %r11
	movq	%r9, %r10
	andq	$3, %r11
	je	6f
	movq	%r9, %r10
	.p2align	4
5:
	movzbl	(%rax,%r10), %ebp
	movb	%bpl, (%rcx,%r10)
	incq	%r10
	decq	%r11
	jne	5b
6:
	subq	%rdx, %r9
	cmpq	$-4, %r9
	ja	9f
	leaq	(%r8,%r14), %rcx
	addq	$3, %rcx
	.p2align	4
7:
	movzbl	(%rax,%r10), %r8d
	movb	%r8b, -3(%rcx,%r10)
	movzbl	1(%rax,%r10), %r8d
	movb	%r8b, -2(%rcx,%r10)
	movzbl	2(%rax,%r10), %r8d
	movb	%r8b, -1(%rcx,%r10)
	movzbl	3(%rax,%r10), %r8d
	movb	%r8b, (%rcx,%r10)
	addq	$4, %r10
	cmpq	%r10, %rdx
	jne	7b
	jmp	9f
8:
	movq	%rdi, %r12
	movq	%rcx, %rdi
	movq	%rsi, %r13
	movq	%rax, %rsi
	callq	memmove@PLT
	movq	%r12, %rdi
	movq	%r13, %rsi
9:
	movq	%r14, (%rdi)
	movq	%r15, 8(%rdi)
	movq	%rbx, 16(%rdi)
10:
	addq	$8, %rsp
	popq	%rbx
	popq	%r12
	popq	%r13
	popq	%r14
	popq	%r15
	popq	%rbp
	jmp	"clap::error::text::try_help"
11:
	cmpq	$32, %rdx
	jae	12f
	xorl	%r9d, %r9d
	jmp	14f
12:
	movq	%rdx, %r9
	andq	$-32, %r9
	leaq	(%r8,%r14), %r10
	addq	$16, %r10
	xorl	%r11d, %r11d
	.p2align	4
13:
	movups	(%rax,%r11), %xmm0
	movups	16(%rax,%r11), %xmm1
	movups	%xmm0, -16(%r10,%r11)
	movups	%xmm1, (%r10,%r11)
	addq	$32, %r11
	cmpq	%r11, %r9
	jne	13b
	cmpq	%r9, %rdx
	je	9b
	testb	$28, %dl
	je	4b
14:
	movq	%r9, %r10
	movq	%rdx, %r9
	andq	$-4, %r9
	.p2align	4
15:
	movl	(%rax,%r10), %r11d
	movl	%r11d, (%rcx,%r10)
	addq	$4, %r10
	cmpq	%r10, %r9
	jne	15b
	cmpq	%r9, %rdx
	je	9b
	jmp	4b
16:
	movq	%rdx, %r14
	movq	%rax, %r15
	movq	%rsi, %r12
	movl	$2, %esi
	movq	%rdi, %rbx
	callq	"std_alloc::vec::Vec::grow_amortized::<#1d775b5957dec42c>"
	testb	%al, %al
	je	18f
	movq	%rbx, %rdi
	movq	8(%rbx), %r8
	movq	16(%rbx), %rbx
	movq	%r12, %rsi
	movq	%r15, %rax
	movq	%r14, %rdx
	jmp	1b
17:
	movq	%rax, %r15
	movq	%rsi, %r12
	movq	%rdi, %rbx
	movq	%rdx, %r13
	movq	%rdx, %rsi
	callq	"std_alloc::vec::Vec::grow_amortized::<#1d775b5957dec42c>"
	testb	%al, %al
	je	18f
	movq	%rbx, %rdi
	movq	(%rbx), %r14
	movq	8(%rbx), %r8
	movq	16(%rbx), %rbx
	movq	%r12, %rsi
	movq	%r15, %rax
	movq	%r13, %rdx
	jmp	2b
18:
	movb	$1, %al
	addq	$8, %rsp
	popq	%rbx
	popq	%r12
	popq	%r13
	popq	%r14
	popq	%r15
	popq	%rbp
	retq
19:
	.size	"clap::error::text::usage_and_help", 19b-"clap::error::text::usage_and_help"

	.text
	.p2align	4
	.type	"clap::output::help::Help::help",@function
"clap::output::help::Help::help":
	pushq	%rbp
	pushq	%r15
	pushq	%r14
	pushq	%r13
	pushq	%r12
	pushq	%rbx
	subq	$120, %rsp
	movq	%r9, %r14
	movq	%rdx, %r13
	movl	%esi, %ebp
	movq	%rdi, %rbx
	movzbl	184(%rsp), %eax
	xorps	%xmm0, %xmm0
	movaps	%xmm0, 48(%rsp)
	movq	$0, 64(%rsp)
	movaps	%xmm0, 80(%rsp)
	movaps	%xmm0, 96(%rsp)
	testb	%al, %al
	je	4f
	movq	24(%rbx), %rax
	movq	32(%rbx), %rdx
	cmpq	%rax, %rdx
	je	23f
1:
	movq	16(%rbx), %rsi
	movb	$10, (%rsi,%rax)
	incq	%rax
	movq	%rsi, 16(%rbx)
	movq	%rax, 24(%rbx)
	movq	%rdx, 32(%rbx)
	movq	%rdx, %rdi
	subq	%rax, %rdi
	cmpq	$1, %rdi
	jbe	24f
2:
	movw	$8224, (%rsi,%rax)
	addq	$2, %rax
	movq	%rsi, 16(%rbx)
	movq	%rax, 24(%rbx)
	movq	%rdx, 32(%rbx)
	movq	%rdx, %rdi
	subq	%rax, %rdi
	cmpq	$7, %rdi
	jbe	25f
3:
	movabsq	$2314885530818453536, %rdi
	movq	%rdi, (%rsi,%rax)
	addq	$8, %rax
	movq	%rsi, 16(%rbx)
	movq	%rax, 24(%rbx)
	movq	%rdx, 32(%rbx)
	movl	$10, %r12d
	jmp	5f
4:
	movq	192(%rsp), %rax
	addq	$4, %rax
	movq	$-1, %r12
	cmovaeq	%rax, %r12
5:
	leaq	80(%rsp), %rdi
	movq	%rcx, %rsi
	movq	%r8, %rdx
	callq	"clap::output::help::with_lines"
	movb	$1, %al
	cmpb	$0, 80(%rsp)
	jne	42f
	movq	%r13, 72(%rsp)
	movq	176(%rsp), %rdx
	movq	104(%rsp), %rax
	movq	%rax, 32(%rsp)
	movups	88(%rsp), %xmm0
	movaps	%xmm0, 16(%rsp)
	movzbl	8(%rbx), %eax
	movb	%al, 7(%rsp)
	testb	%bpl, %al
	sete	%al
	testq	%rdx, %rdx
	setne	%cl
	movq	24(%rsp), %r13
	testb	%al, %cl
	jne	6f
	movq	16(%rsp), %rsi
	jmp	17f
6:
	movl	%ebp, 8(%rsp)
	movq	32(%rsp), %rbp
	testq	%r13, %r13
	je	8f
	cmpq	%r13, %rbp
	je	43f
7:
	movq	16(%rsp), %rax
	movb	$32, (%rax,%r13)
	incq	%r13
	movq	%r13, 24(%rsp)
	movq	%rbp, 32(%rsp)
	movq	%rbp, %rax
	subq	%r13, %rax
	cmpq	%rax, %rdx
	jbe	9f
	jmp	38f
8:
	xorl	%r13d, %r13d
	movq	%rbp, %rax
	subq	%r13, %rax
	cmpq	%rax, %rdx
	ja	38f
9:
	movq	16(%rsp), %rcx
	leaq	(%rcx,%r13), %rdi
	movq	%rdi, %rax
	subq	%r14, %rax
	cmpq	%rdx, %rax
	jae	15f
	cmpq	$4, %rdx
	jb	10f
	cmpq	$32, %rax
	jae	31f
10:
	movq	%rcx, %r15
	xorl	%eax, %eax
11:
	movq	%rdx, %r8
	movq	%rax, %rcx
	andq	$3, %r8
	je	13f
	movq	%rax, %rcx
	.p2align	4
12:
	movzbl	(%r14,%rcx), %esi
	movb	%sil, (%rdi,%rcx)
	incq	%rcx
	decq	%r8
	jne	12b
13:
	subq	%rdx, %rax
	cmpq	$-4, %rax
	ja	16f
	leaq	(%r15,%r13), %rax
	addq	$3, %rax
	.p2align	4
14:
	movzbl	(%r14,%rcx), %esi
	movb	%sil, -3(%rax,%rcx)
	movzbl	1(%r14,%rcx), %esi
	movb	%sil, -2(%rax,%rcx)
	movzbl	2(%r14,%rcx), %esi
	movb	%sil, -1(%rax,%rcx)
	movzbl	3(%r14,%rcx), %esi
	movb	%sil, (%rax,%rcx)
	addq	$4, %rcx
	cmpq	%rcx, %rdx
	jne	14b
	jmp	16f
15:
	movq	%rcx, %r15
	movq	%r14, %rsi
	callq	memmove@PLT
	movq	176(%rsp), %rdx
16:
	addq	%rdx, %r13
	movq	%rbp, 32(%rsp)
	movl	8(%rsp), %ebp
	movq	%r15, %rsi
17:
	movq	%rbx, %rdi
	movq	%rsi, 8(%rsp)
	movq	%r13, %rdx
	movq	%r12, %rcx
	callq	"clap::output::help::Help::push_indented"
	testb	%al, %al
	je	21f
18:
	cmpq	$0, 32(%rsp)
	je	20f
	movq	8(%rsp), %rdi
19:
	callq	rattle_dealloc@PLT
20:
	movb	$1, %al
	jmp	42f
21:
	testb	%bpl, %bpl
	movq	176(%rsp), %r8
	je	40f
	movq	72(%rsp), %r15
	cmpb	$0, 595(%r15)
	je	22f
	xorl	%edx, %edx
	testq	%r8, %r8
	jne	28f
	jmp	40f
22:
	movzbl	8(%rbx), %edi
	movq	%r15, %rsi
	callq	"clap::output::help::Help::use_long_pv"
	testb	%al, %al
	je	26f
	xorl	%ecx, %ecx
	testq	%r13, %r13
	sete	%cl
	movq	%rbx, %rdi
	movq	%r15, %rsi
	movq	%r12, %rdx
	callq	"clap::output::help::Help::possible_values"
	testb	%al, %al
	jne	18b
	jmp	27f
23:
	movq	%rcx, %r15
	movq	%r8, %r12
	leaq	16(%rbx), %rdi
	movl	$1, %esi
	callq	"std_alloc::vec::Vec::grow_amortized::<#1d775b5957dec42c>"
	movl	%eax, %ecx
	movb	$1, %al
	testb	%cl, %cl
	je	42f
	movq	24(%rbx), %rax
	movq	32(%rbx), %rdx
	movq	%r12, %r8
	movq	%r15, %rcx
	jmp	1b
24:
	movq	%rcx, %r15
	movq	%r8, %r12
	leaq	16(%rbx), %rdi
	movl	$2, %esi
	callq	"std_alloc::vec::Vec::grow_amortized::<#1d775b5957dec42c>"
	movl	%eax, %ecx
	movb	$1, %al
	testb	%cl, %cl
	je	42f
	movq	16(%rbx), %rsi
	movq	24(%rbx), %rax
	movq	32(%rbx), %rdx
	movq	%r12, %r8
	movq	%r15, %rcx
	jmp	2b
25:
	movq	%rcx, %r15
	movq	%r8, %r12
	leaq	16(%rbx), %rdi
	movl	$8, %esi
	callq	"std_alloc::vec::Vec::grow_amortized::<#1d775b5957dec42c>"
	movl	%eax, %ecx
	movb	$1, %al
	testb	%cl, %cl
	je	42f
	movq	16(%rbx), %rsi
	movq	24(%rbx), %rax
	movq	32(%rbx), %rdx
	movq	%r12, %r8
	movq	%r15, %rcx
	jmp	3b
26:
	xorl	%edx, %edx
27:
	movq	176(%rsp), %r8
	testq	%r8, %r8
	je	40f
28:
	andb	%bpl, 7(%rsp)
	je	40f
	testq	%r13, %r13
	setne	%al
	leaq	47(%rsp), %rcx
	movq	%rcx, 48(%rsp)
	xorps	%xmm0, %xmm0
	movups	%xmm0, 56(%rsp)
	orb	%dl, %al
	testb	$1, %al
	je	29f
	leaq	.Lc353831ac29d(%rip), %rsi
	leaq	48(%rsp), %rdi
	movl	$2, %edx
	callq	"std_alloc::string::String::push_str::<#2cbb67ac55bf10f9>"
	movq	176(%rsp), %r8
	testb	%al, %al
	jne	30f
29:
	leaq	48(%rsp), %rdi
	movq	%r14, %rsi
	movq	%r8, %rdx
	callq	"std_alloc::string::String::push_str::<#2cbb67ac55bf10f9>"
	testb	%al, %al
	je	32f
30:
	cmpq	$0, 64(%rsp)
	je	18b
	movq	48(%rsp), %rdi
	jmp	33f
31:
	cmpq	$32, %rdx
	jae	34f
	movq	%rcx, %r15
	xorl	%eax, %eax
	jmp	36f
32:
	movq	48(%rsp), %r14
	movq	56(%rsp), %rdx
	movq	%rbx, %rdi
	movq	%r14, %rsi
	movq	%r12, %rcx
	callq	"clap::output::help::Help::push_indented"
	movq	64(%rsp), %rcx
	testb	%al, %al
	je	39f
	testq	%rcx, %rcx
	je	18b
	movq	%r14, %rdi
33:
	callq	rattle_dealloc@PLT
	jmp	18b
34:
	movq	%rdx, %rax
	andq	$-32, %rax
	movq	%rcx, %r15
	addq	%r13, %rcx
	addq	$16, %rcx
	xorl	%esi, %esi
	.p2align	4
35:
	movups	(%r14,%rsi), %xmm0
	movups	16(%r14,%rsi), %xmm1
	movups	%xmm0, -16(%rcx,%rsi)
	movups	%xmm1, (%rcx,%rsi)
	addq	$32, %rsi
	cmpq	%rsi, %rax
	jne	35b
	cmpq	%rax, %rdx
	je	16b
	testb	$28, %dl
	je	11b
36:
	movq	%rax, %rcx
	movq	%rdx, %rax
	andq	$-4, %rax
	.p2align	4
37:
	movl	(%r14,%rcx), %esi
	movl	%esi, (%rdi,%rcx)
	addq	$4, %rcx
	cmpq	%rcx, %rax
	jne	37b
	cmpq	%rax, %rdx
	jne	11b
	jmp	16b
38:
	leaq	16(%rsp), %rdi
	movq	%rdx, %rsi
	callq	"std_alloc::vec::Vec::grow_amortized::<#1d775b5957dec42c>"
	testb	%al, %al
	je	44f
	movq	24(%rsp), %r13
	movq	32(%rsp), %rbp
	movq	176(%rsp), %rdx
	jmp	9b
39:
	testq	%rcx, %rcx
	je	40f
	movq	%r14, %rdi
	callq	rattle_dealloc@PLT
40:
	cmpq	$0, 32(%rsp)
	je	41f
	movq	8(%rsp), %rdi
	callq	rattle_dealloc@PLT
41:
	xorl	%eax, %eax
42:
	addq	$120, %rsp
	popq	%rbx
	popq	%r12
	popq	%r13
	popq	%r14
	popq	%r15
	popq	%rbp
	retq
43:
	leaq	16(%rsp), %rdi
	movl	$1, %esi
	callq	"std_alloc::vec::Vec::grow_amortized::<#1d775b5957dec42c>"
	testb	%al, %al
	je	44f
	movq	24(%rsp), %r13
	movq	32(%rsp), %rbp
	movq	176(%rsp), %rdx
	jmp	7b
44:
	cmpq	$0, 32(%rsp)
	je	20b
	movq	16(%rsp), %rdi
	jmp	19b
45:
	.size	"clap::output::help::Help::help", 45b-"clap::output::help::Help::help"

	.section	.rodata.cst16,"aM",@progbits,16
	.p2align	4, 0x0
1:
	.byte	80,111,115,115,105,98,108,101,32,118,97,108,117,101,115,58
	.text
	.p2align	4
	.type	"clap::output::help::Help::possible_values",@function
"clap::output::help::Help::possible_values":
	pushq	%rbp
	pushq	%r15
	pushq	%r14
	pushq	%r13
	pushq	%r12
	pushq	%rbx
	subq	$312, %rsp
	movq	%rdx, %r8
	movq	%rsi, %r15
	movq	%rdi, %rbx
	xorps	%xmm0, %xmm0
	movaps	%xmm0, 288(%rsp)
	movaps	%xmm0, 272(%rsp)
	movaps	%xmm0, 256(%rsp)
	movaps	%xmm0, 240(%rsp)
	movq	$0, 304(%rsp)
	movaps	%xmm0, 160(%rsp)
	movaps	%xmm0, 176(%rsp)
	movaps	%xmm0, 192(%rsp)
	movaps	%xmm0, 208(%rsp)
	movq	$0, 224(%rsp)
	movaps	%xmm0, 128(%rsp)
	movaps	%xmm0, 144(%rsp)
	movaps	%xmm0, 96(%rsp)
	movaps	%xmm0, 112(%rsp)
	cmpb	$1, 512(%rsi)
	jne	3f
	movq	%r8, 16(%rsp)
	movl	%ecx, 8(%rsp)
	movzbl	520(%r15), %ebp
	movzbl	%bpl, %r14d
	movq	%r14, 32(%rsp)
	movups	528(%r15), %xmm0
	movups	%xmm0, 40(%rsp)
	movq	48(%rsp), %rdx
	leaq	58f(%rip), %rax
	movslq	(%rax,%r14,4), %rcx
	addq	%rax, %rcx
	jmpq	*%rcx
2:
	xorl	%r13d, %r13d
	jmp	13f
3:
	movaps	%xmm0, 32(%rsp)
	movq	$0, 48(%rsp)
	xorl	%ebp, %ebp
	xorl	%edx, %edx
	xorl	%r13d, %r13d
	cmpb	$1, 432(%r15)
	je	14f
	jmp	16f
4:
	movl	$12, %r14d
	jmp	6f
5:
	movq	%rdx, %r14
	testq	%rdx, %rdx
	je	28f
6:
	movq	%rdx, 24(%rsp)
	xorl	%r13d, %r13d
	xorl	%r12d, %r12d
	jmp	9f
	.p2align	4
7:
	cmpq	%r13, %rcx
	cmovaq	%rcx, %r13
8:
	incq	%r12
	cmpq	%r14, %r12
	je	12f
9:
	leaq	240(%rsp), %rdi
	leaq	32(%rsp), %rsi
	movq	%r12, %rdx
	callq	"clap::builder::value_parser::ValueParser::possible_at"
	cmpb	$1, 240(%rsp)
	jne	8b
	testb	$1, 304(%rsp)
	jne	8b
	movq	256(%rsp), %rax
	testq	%rax, %rax
	je	8b
	movq	248(%rsp), %rdx
	xorl	%ecx, %ecx
	jmp	11f
	.p2align	4
10:
	addq	%rsi, %rdx
	incq	%rcx
	subq	%rsi, %rax
	je	7b
11:
	movzbl	(%rdx), %edi
	movl	$1, %esi
	testb	%dil, %dil
	jns	10b
	movl	$2, %esi
	cmpb	$-32, %dil
	jb	10b
	cmpb	$-16, %dil
	movl	$4, %esi
	sbbq	$0, %rsi
	jmp	10b
12:
	movq	24(%rsp), %rdx
13:
	movl	8(%rsp), %ecx
	movq	16(%rsp), %r8
	cmpb	$1, 432(%r15)
	jne	16f
14:
	cmpq	$0, 448(%r15)
	jne	16f
15:
	xorl	%edx, %edx
	xorl	%eax, %eax
	jmp	17f
16:
	movq	%rdx, 24(%rsp)
	movzbl	%bpl, %r12d
	xorl	%edx, %edx
	movl	$483, %eax
	btl	%r12d, %eax
	movl	$0, %eax
	jae	18f
17:
	addq	$312, %rsp
	popq	%rbx
	popq	%r12
	popq	%r13
	popq	%r14
	popq	%r15
	popq	%rbp
	retq
18:
	movl	$28, %eax
	btl	%r12d, %eax
	jb	19f
	cmpq	$0, 24(%rsp)
	je	15b
19:
	addq	$2, %r8
	movq	$-1, %r15
	cmovaeq	%r8, %r15
	addq	$-2, %r15
	testb	%cl, %cl
	je	20f
	movq	24(%rbx), %rax
	movq	32(%rbx), %rcx
	jmp	24f
20:
	movq	24(%rbx), %rax
	movq	32(%rbx), %rcx
	movq	%rcx, %rdx
	subq	%rax, %rdx
	cmpq	$1, %rdx
	jbe	51f
21:
	movq	16(%rbx), %rdx
	movw	$2570, (%rdx,%rax)
	addq	$2, %rax
	movq	%rdx, 16(%rbx)
	movq	%rax, 24(%rbx)
	movq	%rcx, 32(%rbx)
	testq	%r15, %r15
	je	24f
	movq	%r15, %r14
	jmp	23f
	.p2align	4
22:
	movb	$32, (%rdx,%rax)
	incq	%rax
	movq	%rdx, 16(%rbx)
	movq	%rax, 24(%rbx)
	movq	%rcx, 32(%rbx)
	decq	%r14
	je	24f
23:
	cmpq	%rax, %rcx
	jne	22b
	leaq	16(%rbx), %rdi
	movl	$1, %esi
	callq	"std_alloc::vec::Vec::grow_amortized::<#1d775b5957dec42c>"
	testb	%al, %al
	je	52f
	movq	16(%rbx), %rdx
	movq	24(%rbx), %rax
	movq	32(%rbx), %rcx
	jmp	22b
24:
	movq	%rcx, %rdx
	subq	%rax, %rdx
	cmpq	$15, %rdx
	jbe	50f
25:
	leaq	24(%rbx), %rsi
	movq	16(%rbx), %rdx
	xorps	%xmm0, %xmm0
	movups	%xmm0, (%rsi)
	leaq	(%rdx,%rax), %rsi
	addq	$16, %rax
	leaq	.Le50f104f86f8(%rip), %rdi
	movq	%rsi, %r8
	subq	%rdi, %r8
	cmpq	$15, %r8
	ja	26f
	movaps	1b(%rip), %xmm0
	movups	%xmm0, (%rsi)
	movq	%rdx, 16(%rbx)
	movq	%rax, 24(%rbx)
	movq	%rcx, 32(%rbx)
	movb	$1, %dl
	xorl	%eax, %eax
	leaq	59f(%rip), %rcx
	movslq	(%rcx,%r12,4), %rsi
	addq	%rcx, %rsi
	jmpq	*%rsi
26:
	movups	.Le50f104f86f8(%rip), %xmm0
	movups	%xmm0, (%rsi)
	movq	%rdx, 16(%rbx)
	movq	%rax, 24(%rbx)
	movq	%rcx, 32(%rbx)
	movb	$1, %dl
	xorl	%eax, %eax
	leaq	59f(%rip), %rcx
	movslq	(%rcx,%r12,4), %rsi
	addq	%rcx, %rsi
	jmpq	*%rsi
27:
	movl	$12, %r12d
	jmp	30f
28:
	xorl	%edx, %edx
	jmp	2b
29:
	movq	24(%rsp), %rax
	movq	%rax, %r12
	testq	%rax, %rax
	je	49f
30:
	movq	%r15, 72(%rsp)
	movq	%r15, %rax
	addq	$2, %rax
	movq	$-1, %rcx
	cmovaeq	%rax, %rcx
	movq	%rcx, 16(%rsp)
	xorl	%r15d, %r15d
	movq	%r12, 64(%rsp)
	jmp	32f
	.p2align	4
31:
	incq	%r15
	cmpq	%r12, %r15
	je	49f
32:
	leaq	160(%rsp), %rdi
	leaq	32(%rsp), %rsi
	movq	%r15, %rdx
	callq	"clap::builder::value_parser::ValueParser::possible_at"
	cmpb	$1, 160(%rsp)
	jne	31b
	testb	$1, 224(%rsp)
	jne	31b
	movq	168(%rsp), %rbp
	movq	176(%rsp), %r12
	movzbl	184(%rsp), %eax
	movb	%al, 24(%rsp)
	movq	192(%rsp), %r14
	movq	200(%rsp), %rax
	movq	%rax, 88(%rsp)
	movq	24(%rbx), %rsi
	movq	32(%rbx), %rax
	cmpq	%rsi, %rax
	je	46f
33:
	movq	%r14, 80(%rsp)
	leaq	1(%rsi), %rcx
	movq	16(%rbx), %rdx
	movb	$10, (%rdx,%rsi)
	movq	%rdx, 16(%rbx)
	movq	%rcx, 24(%rbx)
	movq	%rax, 32(%rbx)
	movq	72(%rsp), %r14
	testq	%r14, %r14
	jne	41f
34:
	movq	%rax, %rsi
	subq	%rcx, %rsi
	cmpq	$1, %rsi
	jbe	47f
35:
	leaq	(%rdx,%rcx), %rsi
	leaq	.Lb6d94fa03dd2(%rip), %rdi
	movq	%rsi, %r8
	subq	%rdi, %r8
	cmpq	$1, %r8
	movw	$8237, (%rsi)
	addq	$2, %rcx
	movq	%rdx, 16(%rbx)
	movq	%rcx, 24(%rbx)
	movq	%rax, 32(%rbx)
	leaq	128(%rsp), %rdi
	movq	%rbp, %rsi
	movq	%r12, %rdx
	callq	"clap::output::help::with_lines"
	movb	$1, %al
	cmpb	$0, 128(%rsp)
	jne	53f
	movq	136(%rsp), %r14
	movq	144(%rsp), %rdx
	movq	152(%rsp), %rax
	movq	%rax, 8(%rsp)
	movq	%rbx, %rdi
	movq	%r14, %rsi
	movq	16(%rsp), %rcx
	callq	"clap::output::help::Help::push_indented"
	testb	%al, %al
	jne	55f
	cmpb	$1, 24(%rsp)
	jne	39f
	movq	24(%rbx), %rax
	movq	32(%rbx), %rcx
	movq	%rcx, %rdx
	subq	%rax, %rdx
	cmpq	$1, %rdx
	jbe	48f
36:
	movq	16(%rbx), %rdx
	leaq	(%rdx,%rax), %rsi
	leaq	.L226a292f443d(%rip), %rdi
	movq	%rsi, %r8
	subq	%rdi, %r8
	cmpq	$1, %r8
	movw	$8250, (%rsi)
	addq	$2, %rax
	movq	%rdx, 16(%rbx)
	movq	%rax, 24(%rbx)
	movq	%rcx, 32(%rbx)
	xorl	%esi, %esi
	testq	%r12, %r12
	jne	43f
37:
	xorl	%r12d, %r12d
	movq	%r13, %rdi
	subq	%rsi, %rdi
	cmovaeq	%rdi, %r12
	ja	45f
38:
	leaq	96(%rsp), %rdi
	movq	80(%rsp), %rsi
	movq	88(%rsp), %rdx
	callq	"clap::output::help::with_lines"
	cmpb	$0, 96(%rsp)
	jne	55f
	movq	104(%rsp), %r12
	movq	112(%rsp), %rdx
	movq	120(%rsp), %rbp
	movq	%rbx, %rdi
	movq	%r12, %rsi
	movq	16(%rsp), %rcx
	callq	"clap::output::help::Help::push_indented"
	testb	%al, %al
	jne	54f
	testq	%rbp, %rbp
	je	39f
	movq	%r12, %rdi
	callq	rattle_dealloc@PLT
39:
	cmpq	$0, 8(%rsp)
	movq	64(%rsp), %r12
	je	31b
	movq	%r14, %rdi
	callq	rattle_dealloc@PLT
	jmp	31b
	.p2align	4
40:
	movb	$32, (%rdx,%rcx)
	incq	%rcx
	movq	%rdx, 16(%rbx)
	movq	%rcx, 24(%rbx)
	movq	%rax, 32(%rbx)
	decq	%r14
	je	34b
41:
	cmpq	%rcx, %rax
	jne	40b
	leaq	16(%rbx), %rdi
	movl	$1, %esi
	callq	"std_alloc::vec::Vec::grow_amortized::<#1d775b5957dec42c>"
	testb	%al, %al
	je	52f
	movq	16(%rbx), %rdx
	movq	24(%rbx), %rcx
	movq	32(%rbx), %rax
	jmp	40b
	.p2align	4
42:
	addq	%rdi, %rbp
	incq	%rsi
	subq	%rdi, %r12
	je	37b
43:
	movzbl	(%rbp), %r8d
	movl	$1, %edi
	testb	%r8b, %r8b
	jns	42b
	movl	$2, %edi
	cmpb	$-32, %r8b
	jb	42b
	cmpb	$-16, %r8b
	movl	$4, %edi
	sbbq	$0, %rdi
	jmp	42b
	.p2align	4
44:
	movb	$32, (%rdx,%rax)
	incq	%rax
	movq	%rdx, 16(%rbx)
	movq	%rax, 24(%rbx)
	movq	%rcx, 32(%rbx)
	decq	%r12
	je	38b
45:
	cmpq	%rax, %rcx
	jne	44b
	leaq	16(%rbx), %rdi
	movl	$1, %esi
	callq	"std_alloc::vec::Vec::grow_amortized::<#1d775b5957dec42c>"
	testb	%al, %al
	je	55f
	movq	16(%rbx), %rdx
	movq	24(%rbx), %rax
	movq	32(%rbx), %rcx
	jmp	44b
46:
	leaq	16(%rbx), %rdi
	movl	$1, %esi
	callq	"std_alloc::vec::Vec::grow_amortized::<#1d775b5957dec42c>"
	testb	%al, %al
	je	52f
	movq	24(%rbx), %rsi
	movq	32(%rbx), %rax
	jmp	33b
47:
	leaq	16(%rbx), %rdi
	movl	$2, %esi
	callq	"std_alloc::vec::Vec::grow_amortized::<#1d775b5957dec42c>"
	testb	%al, %al
	je	52f
	movq	16(%rbx), %rdx
	movq	24(%rbx), %rcx
	movq	32(%rbx), %rax
	jmp	35b
48:
	leaq	16(%rbx), %rdi
	movl	$2, %esi
	callq	"std_alloc::vec::Vec::grow_amortized::<#1d775b5957dec42c>"
	testb	%al, %al
	je	55f
	movq	24(%rbx), %rax
	movq	32(%rbx), %rcx
	jmp	36b
49:
	movb	$1, %dl
	xorl	%eax, %eax
	jmp	17b
50:
	leaq	16(%rbx), %rdi
	movl	$16, %esi
	callq	"std_alloc::vec::Vec::grow_amortized::<#1d775b5957dec42c>"
	testb	%al, %al
	je	52f
	movq	24(%rbx), %rax
	movq	32(%rbx), %rcx
	jmp	25b
51:
	leaq	16(%rbx), %rdi
	movl	$2, %esi
	callq	"std_alloc::vec::Vec::grow_amortized::<#1d775b5957dec42c>"
	testb	%al, %al
	je	52f
	movq	24(%rbx), %rax
	movq	32(%rbx), %rcx
	jmp	21b
52:
	movb	$1, %al
53:
	xorl	%edx, %edx
	jmp	17b
54:
	testq	%rbp, %rbp
	je	55f
	movq	%r12, %rdi
	callq	rattle_dealloc@PLT
55:
	cmpq	$0, 8(%rsp)
	je	56f
	movq	%r14, %rdi
	callq	rattle_dealloc@PLT
56:
	xorl	%edx, %edx
	movb	$1, %al
	jmp	17b
57:
	.size	"clap::output::help::Help::possible_values", 57b-"clap::output::help::Help::possible_values"
	.section	.rodata,"a",@progbits
	.p2align	2, 0x0
58:
	.long	2b-58b
	.long	2b-58b
	.long	6b-58b
	.long	4b-58b
	.long	4b-58b
	.long	2b-58b
	.long	2b-58b
	.long	2b-58b
	.long	2b-58b
	.long	5b-58b
	.long	5b-58b
59:
	.long	17b-59b
	.long	17b-59b
	.long	30b-59b
	.long	27b-59b
	.long	27b-59b
	.long	17b-59b
	.long	17b-59b
	.long	17b-59b
	.long	17b-59b
	.long	29b-59b
	.long	29b-59b

	.text
	.p2align	4
	.type	"clap::output::help::Help::push_indented",@function
"clap::output::help::Help::push_indented":
	pushq	%rbp
	pushq	%r15
	pushq	%r14
	pushq	%r13
	pushq	%r12
	pushq	%rbx
	subq	$72, %rsp
	movq	%rcx, 8(%rsp)
	movq	%rdx, %r14
	movq	%rdi, %r15
	movq	$0, 40(%rsp)
	xorl	%ebx, %ebx
	jmp	3f
	.p2align	4
1:
	movq	%r12, %rsi
	movq	%r13, %rdx
	callq	memmove@PLT
2:
	incq	40(%rsp)
	addq	%r13, %r14
	movq	%rbx, 16(%r15)
	movq	%r14, 24(%r15)
	movq	%rbp, 32(%r15)
	movb	$1, %bl
	cmpb	$0, 16(%rsp)
	movq	32(%rsp), %r14
	movq	24(%rsp), %rsi
	je	25f
3:
	movq	%rsi, %r12
	xorps	%xmm0, %xmm0
	movaps	%xmm0, 48(%rsp)
	movq	$0, 64(%rsp)
	leaq	48(%rsp), %rdi
	movl	$10, %esi
	movq	%r12, %rdx
	movq	%r14, %rcx
	callq	"core::iter::pattern::CharPattern::first_in"
	cmpb	$1, 48(%rsp)
	jne	4f
	movq	64(%rsp), %rax
	testq	%rax, %rax
	sete	%cl
	andb	%cl, %bl
	cmpb	$1, %bl
	jne	5f
	testq	%r14, %r14
	je	4f
	movzbl	(%r12), %ecx
	movl	$1, %r13d
	movl	$1, %eax
	testb	%cl, %cl
	movq	8(%rsp), %rbx
	jns	6f
	movl	$2, %r13d
	movl	$2, %eax
	cmpb	$-32, %cl
	jb	6f
	cmpb	$-16, %cl
	movl	$4, %r13d
	sbbq	$0, %r13
	movq	%r13, %rax
	jmp	6f
	.p2align	4
4:
	movq	$0, 16(%rsp)
	movq	$0, 24(%rsp)
	movq	%r14, %r13
	xorl	%eax, %eax
	movq	%rax, 32(%rsp)
	movq	8(%rsp), %rbx
	movq	24(%r15), %r14
	movq	32(%r15), %rbp
	cmpq	$0, 40(%rsp)
	jne	7f
	jmp	9f
	.p2align	4
5:
	movq	56(%rsp), %r13
	movq	8(%rsp), %rbx
6:
	leaq	(%r12,%rax), %rcx
	movq	%rcx, 24(%rsp)
	subq	%rax, %r14
	movq	%r14, 32(%rsp)
	movb	$1, %al
	movq	%rax, 16(%rsp)
	movq	24(%r15), %r14
	movq	32(%r15), %rbp
	cmpq	$0, 40(%rsp)
	je	9f
7:
	cmpq	%r14, %rbp
	je	24f
8:
	movq	16(%r15), %rax
	movb	$10, (%rax,%r14)
	incq	%r14
	movq	%rax, 16(%r15)
	movq	%r14, 24(%r15)
	movq	%rbp, 32(%r15)
	testq	%rbx, %rbx
	jne	17f
9:
	movq	%rbp, %rax
	subq	%r14, %rax
	cmpq	%rax, %r13
	ja	23f
10:
	movq	16(%r15), %rbx
	xorps	%xmm0, %xmm0
	leaq	24(%r15), %rax
	movups	%xmm0, (%rax)
	leaq	(%rbx,%r14), %rdi
	movq	%rdi, %rax
	subq	%r12, %rax
	cmpq	%r13, %rax
	jae	1b
	cmpq	$4, %r13
	jb	11f
	cmpq	$32, %rax
	jae	18f
11:
	xorl	%eax, %eax
12:
	movq	%r13, %rdx
	movq	%rax, %rcx
	andq	$3, %rdx
	je	14f
	movq	%rax, %rcx
	.p2align	4
13:
	movzbl	(%r12,%rcx), %esi
	movb	%sil, (%rdi,%rcx)
	incq	%rcx
	decq	%rdx
	jne	13b
14:
	subq	%r13, %rax
	cmpq	$-4, %rax
	ja	2b
	leaq	(%rbx,%r14), %rax
	addq	$3, %rax
	.p2align	4
15:
	movzbl	(%r12,%rcx), %edx
	movb	%dl, -3(%rax,%rcx)
	movzbl	1(%r12,%rcx), %edx
	movb	%dl, -2(%rax,%rcx)
	movzbl	2(%r12,%rcx), %edx
	movb	%dl, -1(%rax,%rcx)
	movzbl	3(%r12,%rcx), %edx
	movb	%dl, (%rax,%rcx)
	addq	$4, %rcx
	cmpq	%rcx, %r13
	jne	15b
	jmp	2b
	.p2align	4
16:
	movb	$32, (%rax,%r14)
	incq	%r14
	movq	%rax, 16(%r15)
	movq	%r14, 24(%r15)
	movq	%rbp, 32(%r15)
	decq	%rbx
	je	9b
17:
	cmpq	%r14, %rbp
	jne	16b
	leaq	16(%r15), %rdi
	movl	$1, %esi
	callq	"std_alloc::vec::Vec::grow_amortized::<#1d775b5957dec42c>"
	testb	%al, %al
	je	26f
	movq	16(%r15), %rax
	movq	24(%r15), %r14
	movq	32(%r15), %rbp
	jmp	16b
18:
	cmpq	$32, %r13
	jae	19f
	xorl	%eax, %eax
	jmp	21f
19:
	movq	%r13, %rax
	andq	$-32, %rax
	leaq	(%rbx,%r14), %rcx
	addq	$16, %rcx
	xorl	%edx, %edx
	.p2align	4
20:
	movups	(%r12,%rdx), %xmm0
	movups	16(%r12,%rdx), %xmm1
	movups	%xmm0, -16(%rcx,%rdx)
	movups	%xmm1, (%rcx,%rdx)
	addq	$32, %rdx
	cmpq	%rdx, %rax
	jne	20b
	cmpq	%rax, %r13
	je	2b
	testb	$28, %r13b
	je	12b
21:
	movq	%rax, %rcx
	movq	%r13, %rax
	andq	$-4, %rax
	.p2align	4
22:
	movl	(%r12,%rcx), %edx
	movl	%edx, (%rdi,%rcx)
	addq	$4, %rcx
	cmpq	%rcx, %rax
	jne	22b
	cmpq	%rax, %r13
	je	2b
	jmp	12b
23:
	leaq	16(%r15), %rdi
	movq	%r13, %rsi
	callq	"std_alloc::vec::Vec::grow_amortized::<#1d775b5957dec42c>"
	testb	%al, %al
	je	26f
	movq	24(%r15), %r14
	movq	32(%r15), %rbp
	jmp	10b
24:
	leaq	16(%r15), %rdi
	movl	$1, %esi
	callq	"std_alloc::vec::Vec::grow_amortized::<#1d775b5957dec42c>"
	testb	%al, %al
	je	26f
	movq	24(%r15), %r14
	movq	32(%r15), %rbp
	jmp	8b
25:
	xorl	%eax, %eax
	jmp	27f
26:
	movb	$1, %al
27:
	addq	$72, %rsp
	popq	%rbx
	popq	%r12
	popq	%r13
	popq	%r14
	popq	%r15
	popq	%rbp
	retq
28:
	.size	"clap::output::help::Help::push_indented", 28b-"clap::output::help::Help::push_indented"

	.text
	.p2align	4
	.type	"clap::output::help::Help::push_lines",@function
"clap::output::help::Help::push_lines":
	pushq	%rbp
	pushq	%r15
	pushq	%r14
	pushq	%r13
	pushq	%r12
	pushq	%rbx
	subq	$40, %rsp
	movq	%rdi, %rbx
	xorps	%xmm0, %xmm0
	movaps	%xmm0, 16(%rsp)
	movaps	%xmm0, (%rsp)
	movq	%rsp, %rdi
	callq	"clap::output::help::with_lines"
	movb	$1, %al
	cmpb	$0, (%rsp)
	jne	10f
	movq	8(%rsp), %r14
	movq	16(%rsp), %rdx
	movq	24(%rsp), %r15
	movq	24(%rbx), %rax
	movq	32(%rbx), %r12
	movq	%r12, %rcx
	subq	%rax, %rcx
	cmpq	%rcx, %rdx
	ja	16f
1:
	leaq	24(%rbx), %rcx
	leaq	(%rax,%rdx), %r13
	movq	16(%rbx), %rbp
	xorps	%xmm0, %xmm0
	movups	%xmm0, (%rcx)
	leaq	(%rax,%rbp), %rdi
	movq	%rdi, %rcx
	subq	%r14, %rcx
	cmpq	%rdx, %rcx
	jae	7f
	cmpq	$4, %rdx
	jb	2f
	cmpq	$32, %rcx
	jae	11f
2:
	xorl	%ecx, %ecx
3:
	movq	%rdx, %r8
	movq	%rcx, %rsi
	andq	$3, %r8
	je	5f
	movq	%rcx, %rsi
	.p2align	4
4:
	movzbl	(%r14,%rsi), %r9d
	movb	%r9b, (%rdi,%rsi)
	incq	%rsi
	decq	%r8
	jne	4b
5:
	subq	%rdx, %rcx
	cmpq	$-4, %rcx
	ja	8f
	addq	%rbp, %rax
	addq	$3, %rax
	.p2align	4
6:
	movzbl	(%r14,%rsi), %ecx
	movb	%cl, -3(%rax,%rsi)
	movzbl	1(%r14,%rsi), %ecx
	movb	%cl, -2(%rax,%rsi)
	movzbl	2(%r14,%rsi), %ecx
	movb	%cl, -1(%rax,%rsi)
	movzbl	3(%r14,%rsi), %ecx
	movb	%cl, (%rax,%rsi)
	addq	$4, %rsi
	cmpq	%rsi, %rdx
	jne	6b
	jmp	8f
7:
	movq	%r14, %rsi
	callq	memmove@PLT
8:
	movq	%rbp, 16(%rbx)
	movq	%r13, 24(%rbx)
	movq	%r12, 32(%rbx)
	xorl	%eax, %eax
9:
	testq	%r15, %r15
	je	10f
	movq	%r14, %rdi
	movl	%eax, %ebx
	callq	rattle_dealloc@PLT
	movl	%ebx, %eax
10:
	addq	$40, %rsp
	popq	%rbx
	popq	%r12
	popq	%r13
	popq	%r14
	popq	%r15
	popq	%rbp
	retq
11:
	cmpq	$32, %rdx
	jae	12f
	xorl	%ecx, %ecx
	jmp	14f
12:
	movq	%rdx, %rcx
	andq	$-32, %rcx
	leaq	(%rax,%rbp), %rsi
	addq	$16, %rsi
	xorl	%r8d, %r8d
	.p2align	4
13:
	movups	(%r14,%r8), %xmm0
	movups	16(%r14,%r8), %xmm1
	movups	%xmm0, -16(%rsi,%r8)
	movups	%xmm1, (%rsi,%r8)
	addq	$32, %r8
	cmpq	%r8, %rcx
	jne	13b
	cmpq	%rcx, %rdx
	je	8b
	testb	$28, %dl
	je	3b
14:
	movq	%rcx, %rsi
	movq	%rdx, %rcx
	andq	$-4, %rcx
	.p2align	4
15:
	movl	(%r14,%rsi), %r8d
	movl	%r8d, (%rdi,%rsi)
	addq	$4, %rsi
	cmpq	%rsi, %rcx
	jne	15b
	cmpq	%rcx, %rdx
	je	8b
	jmp	3b
16:
	leaq	16(%rbx), %rdi
	movq	%rdx, %r13
	movq	%rdx, %rsi
	callq	"std_alloc::vec::Vec::grow_amortized::<#1d775b5957dec42c>"
	movl	%eax, %ecx
	movb	$1, %al
	testb	%cl, %cl
	je	9b
	movq	24(%rbx), %rax
	movq	32(%rbx), %r12
	movq	%r13, %rdx
	jmp	1b
17:
	.size	"clap::output::help::Help::push_lines", 17b-"clap::output::help::Help::push_lines"

	.text
	.p2align	4
	.type	"clap::output::help::Help::shown",@function
"clap::output::help::Help::shown":
	pushq	%r15
	pushq	%r14
	pushq	%r13
	pushq	%r12
	pushq	%rbx
	subq	$32, %rsp
	movq	%rsp, %rax
	movq	%rax, 8(%rsp)
	xorps	%xmm0, %xmm0
	movups	%xmm0, 16(%rsp)
	movq	(%rsi), %rcx
	movq	584(%rcx), %rbx
	testq	%rbx, %rbx
	je	16f
	movq	576(%rcx), %r14
	addq	$599, %r14
	xorl	%r15d, %r15d
	testb	%dl, %dl
	jne	12f
	jmp	4f
	.p2align	4
1:
	movq	16(%rsp), %rcx
	cmpq	%rcx, 24(%rsp)
	je	8f
2:
	movq	%r15, (%rax,%rcx,8)
	incq	%rcx
	movq	%rcx, 16(%rsp)
3:
	incq	%r15
	addq	$608, %r14
	cmpq	%r15, %rbx
	je	16f
4:
	cmpb	$1, -527(%r14)
	je	5f
	cmpb	$1, -535(%r14)
	jne	3b
5:
	cmpb	$1, -39(%r14)
	jne	6f
	cmpb	$1, -31(%r14)
	je	3b
6:
	cmpb	$0, -5(%r14)
	jne	3b
	movzbl	8(%rsi), %ecx
	testb	%cl, %cl
	je	7f
	cmpb	$0, -1(%r14)
	je	1b
7:
	orb	-2(%r14), %cl
	je	1b
	cmpb	$1, (%r14)
	je	1b
	jmp	3b
8:
	movq	%rsi, %r13
	movq	%rdi, %r12
	leaq	8(%rsp), %rdi
	callq	"std_alloc::vec::Vec::grow_amortized::<#33f378437a29c276>"
	testb	%al, %al
	je	18f
	movq	8(%rsp), %rax
	movq	16(%rsp), %rcx
	movq	%r12, %rdi
	movq	%r13, %rsi
	jmp	2b
9:
	movq	16(%rsp), %rcx
	cmpq	%rcx, 24(%rsp)
	je	15f
10:
	movq	%r15, (%rax,%rcx,8)
	incq	%rcx
	movq	%rcx, 16(%rsp)
	.p2align	4
11:
	incq	%r15
	addq	$608, %r14
	cmpq	%r15, %rbx
	je	16f
12:
	cmpb	$1, -527(%r14)
	je	11b
	cmpb	$1, -535(%r14)
	je	11b
	cmpb	$1, -39(%r14)
	jne	13f
	cmpb	$1, -31(%r14)
	je	11b
13:
	cmpb	$0, -5(%r14)
	jne	11b
	movzbl	8(%rsi), %ecx
	testb	%cl, %cl
	je	14f
	cmpb	$0, -1(%r14)
	je	9b
14:
	orb	-2(%r14), %cl
	je	9b
	cmpb	$1, (%r14)
	je	9b
	jmp	11b
15:
	movq	%rsi, %r13
	movq	%rdi, %r12
	leaq	8(%rsp), %rdi
	callq	"std_alloc::vec::Vec::grow_amortized::<#33f378437a29c276>"
	testb	%al, %al
	je	18f
	movq	8(%rsp), %rax
	movq	16(%rsp), %rcx
	movq	%r12, %rdi
	movq	%r13, %rsi
	jmp	10b
16:
	movb	$0, (%rdi)
	movq	8(%rsp), %rax
	movq	%rax, 8(%rdi)
	movq	16(%rsp), %rax
	movq	%rax, 16(%rdi)
	movq	24(%rsp), %rax
	movq	%rax, 24(%rdi)
17:
	addq	$32, %rsp
	popq	%rbx
	popq	%r12
	popq	%r13
	popq	%r14
	popq	%r15
	retq
18:
	cmpq	$0, 24(%rsp)
	je	19f
	movq	8(%rsp), %rdi
	callq	rattle_dealloc@PLT
19:
	movb	$1, (%r12)
	xorps	%xmm0, %xmm0
	movups	%xmm0, 8(%r12)
	movq	$0, 24(%r12)
	jmp	17b
20:
	.size	"clap::output::help::Help::shown", 20b-"clap::output::help::Help::shown"

	.text
	.p2align	4
	.type	"clap::output::help::Help::spec_vals",@function
"clap::output::help::Help::spec_vals":
	pushq	%rbp
	pushq	%r15
	pushq	%r14
	pushq	%r13
	pushq	%r12
	pushq	%rbx
	subq	$536, %rsp
	movq	%rdx, %r15
	movq	%rsi, %r12
	xorps	%xmm0, %xmm0
	movaps	%xmm0, 48(%rsp)
	movq	$0, 64(%rsp)
	movaps	%xmm0, 112(%rsp)
	movq	$0, 128(%rsp)
	movaps	%xmm0, 80(%rsp)
	movq	$0, 96(%rsp)
	movaps	%xmm0, 176(%rsp)
	movq	$0, 192(%rsp)
	movaps	%xmm0, 144(%rsp)
	movq	$0, 160(%rsp)
	movaps	%xmm0, 272(%rsp)
	movaps	%xmm0, 288(%rsp)
	movaps	%xmm0, 304(%rsp)
	movaps	%xmm0, 320(%rsp)
	movq	$0, 336(%rsp)
	movaps	%xmm0, 352(%rsp)
	movaps	%xmm0, 512(%rsp)
	movaps	%xmm0, 496(%rsp)
	movaps	%xmm0, 480(%rsp)
	movaps	%xmm0, 464(%rsp)
	movq	$0, 528(%rsp)
	movaps	%xmm0, 240(%rsp)
	movaps	%xmm0, 224(%rsp)
	movq	$0, 256(%rsp)
	leaq	.Lb9d66d2d8f9c(%rip), %rax
	cmpb	$0, 8(%rsi)
	leaq	.L9b770efd7ae0(%rip), %r14
	cmovneq	%rax, %r14
	leaq	15(%rsp), %rbp
	movq	%rbp, 16(%rsp)
	movups	%xmm0, 24(%rsp)
	cmpb	$1, 432(%rdx)
	movq	%rdi, 40(%rsp)
	jne	1f
	cmpq	$0, 448(%r15)
	je	2f
1:
	cmpb	$0, 596(%r15)
	je	26f
2:
	movq	%rbp, 48(%rsp)
	xorps	%xmm0, %xmm0
	movups	%xmm0, 56(%rsp)
	movq	128(%r15), %r13
	testq	%r13, %r13
	je	9f
	movq	120(%r15), %rbx
	xorl	%ebp, %ebp
	jmp	6f
3:
	movl	$1, %ebp
4:
	leaq	.Lc1b0ea49b06c(%rip), %rax
	movq	%rax, 176(%rsp)
	movq	$1, 184(%rsp)
	movq	%rbx, 192(%rsp)
	leaq	48(%rsp), %rdi
	leaq	176(%rsp), %rsi
	callq	"std_alloc::string::String::write_fmt::<#b77c81cbf5ad7277>"
	testb	%al, %al
	jne	20f
5:
	addq	$8, %rbx
	decq	%r13
	je	10f
6:
	cmpb	$1, 4(%rbx)
	jne	5b
	testq	%rbp, %rbp
	je	3b
	movq	56(%rsp), %rax
	movq	64(%rsp), %rcx
	movq	%rcx, %rdx
	subq	%rax, %rdx
	cmpq	$1, %rdx
	jbe	8f
7:
	movq	48(%rsp), %rdx
	leaq	(%rdx,%rax), %rsi
	leaq	.L807e89e39460(%rip), %rdi
	movq	%rsi, %r8
	subq	%rdi, %r8
	cmpq	$1, %r8
	movw	$8236, (%rsi)
	addq	$2, %rax
	movq	%rdx, 48(%rsp)
	movq	%rax, 56(%rsp)
	movq	%rcx, 64(%rsp)
	incq	%rbp
	movq	$-1, %rax
	cmoveq	%rax, %rbp
	jmp	4b
8:
	leaq	48(%rsp), %rdi
	movl	$2, %esi
	callq	"std_alloc::vec::Vec::grow_amortized::<#1d775b5957dec42c>"
	testb	%al, %al
	je	20f
	movq	56(%rsp), %rax
	movq	64(%rsp), %rcx
	jmp	7b
9:
	xorl	%ebp, %ebp
10:
	movq	104(%r15), %r13
	testq	%r13, %r13
	je	17f
	movq	96(%r15), %rbx
	jmp	14f
11:
	movl	$1, %ebp
12:
	leaq	.L32d1a5938230(%rip), %rax
	movq	%rax, 144(%rsp)
	movq	$2, 152(%rsp)
	movq	%rbx, 160(%rsp)
	leaq	48(%rsp), %rdi
	leaq	144(%rsp), %rsi
	callq	"std_alloc::string::String::write_fmt::<#2f338da004e7b1a4>"
	testb	%al, %al
	jne	20f
13:
	addq	$24, %rbx
	decq	%r13
	je	17f
14:
	cmpb	$1, 16(%rbx)
	jne	13b
	testq	%rbp, %rbp
	je	11b
	movq	56(%rsp), %rax
	movq	64(%rsp), %rcx
	movq	%rcx, %rdx
	subq	%rax, %rdx
	cmpq	$1, %rdx
	jbe	16f
15:
	movq	48(%rsp), %rdx
	leaq	(%rdx,%rax), %rsi
	leaq	.L807e89e39460(%rip), %rdi
	movq	%rsi, %r8
	subq	%rdi, %r8
	cmpq	$1, %r8
	movw	$8236, (%rsi)
	addq	$2, %rax
	movq	%rdx, 48(%rsp)
	movq	%rax, 56(%rsp)
	movq	%rcx, 64(%rsp)
	incq	%rbp
	movq	$-1, %rax
	cmoveq	%rax, %rbp
	jmp	12b
16:
	leaq	48(%rsp), %rdi
	movl	$2, %esi
	callq	"std_alloc::vec::Vec::grow_amortized::<#1d775b5957dec42c>"
	testb	%al, %al
	je	20f
	movq	56(%rsp), %rax
	movq	64(%rsp), %rcx
	jmp	15b
17:
	testq	%rbp, %rbp
	je	24f
	movq	24(%rsp), %rax
	testq	%rax, %rax
	je	19f
	movq	32(%rsp), %rcx
	cmpq	%rax, %rcx
	je	62f
18:
	movq	16(%rsp), %rdx
	movzbl	(%r14), %esi
	movb	%sil, (%rdx,%rax)
	incq	%rax
	movq	%rax, 24(%rsp)
	movq	%rcx, 32(%rsp)
19:
	xorl	%eax, %eax
	cmpq	$1, %rbp
	setne	%al
	leaq	.L22d5119de29e(%rip), %rcx
	leaq	.La7e343717825(%rip), %rdx
	cmoveq	%rcx, %rdx
	addl	%eax, %eax
	leaq	.Lc4782f9c8cbe(%rip), %rcx
	movq	%rcx, 272(%rsp)
	movq	$6, 280(%rsp)
	movq	%rdx, 288(%rsp)
	movq	%rax, 296(%rsp)
	leaq	.L226a292f443d(%rip), %rax
	movq	%rax, 304(%rsp)
	movq	$2, 312(%rsp)
	leaq	48(%rsp), %rax
	movq	%rax, 320(%rsp)
	leaq	.L0d0a70152a48(%rip), %rax
	movq	%rax, 328(%rsp)
	movq	$1, 336(%rsp)
	leaq	16(%rsp), %rdi
	leaq	272(%rsp), %rsi
	callq	"std_alloc::string::String::write_fmt::<#a7de7e6af3ee7c9d>"
	testb	%al, %al
	je	24f
20:
	cmpq	$0, 64(%rsp)
	je	21f
	movq	48(%rsp), %rdi
	callq	rattle_dealloc@PLT
21:
	cmpq	$0, 32(%rsp)
	movq	40(%rsp), %rbx
	je	23f
22:
	movq	16(%rsp), %rdi
	callq	rattle_dealloc@PLT
23:
	movb	$1, (%rbx)
	xorps	%xmm0, %xmm0
	movups	%xmm0, 8(%rbx)
	movq	$0, 24(%rbx)
	jmp	56f
24:
	cmpb	$0, 595(%r15)
	movq	40(%rsp), %r13
	jne	54f
	movzbl	432(%r15), %ecx
	movq	448(%r15), %rax
	cmpb	$1, 8(%r12)
	jne	37f
	cmpb	$1, %cl
	setne	%dl
	testq	%rax, %rax
	setne	%sil
	orb	%dl, %sil
	cmpb	$1, %sil
	jne	36f
	cmpb	$1, 512(%r15)
	jne	37f
	movzbl	520(%r15), %ebx
	movq	%rbx, 440(%rsp)
	movups	528(%r15), %xmm0
	movups	%xmm0, 448(%rsp)
	leaq	70f(%rip), %rdx
	movslq	(%rdx,%rbx,4), %rsi
	addq	%rdx, %rsi
	jmpq	*%rsi
25:
	movl	$12, %ebx
	jmp	65f
26:
	cmpb	$0, 336(%r15)
	je	27f
	cmpq	$0, 352(%r15)
	je	2b
27:
	movq	24(%rsp), %rax
	movq	32(%rsp), %rcx
	movq	%rcx, %rsi
	subq	%rax, %rsi
	movq	%rbp, %rdx
	cmpq	$9, %rsi
	jbe	63f
28:
	leaq	(%rdx,%rax), %rsi
	addq	$10, %rax
	leaq	.Lc8e59cb6a35a(%rip), %rdi
	movq	%rsi, %r8
	subq	%rdi, %r8
	cmpq	$9, %r8
	movabsq	$8389209267074589787, %rdi
	movq	%rdi, (%rsi)
	movw	$8250, 8(%rsi)
	movq	%rdx, 16(%rsp)
	movq	%rax, 24(%rsp)
	movq	%rcx, 32(%rsp)
	cmpb	$0, 336(%r15)
	je	29f
	movq	352(%r15), %rbx
	testq	%rbx, %rbx
	je	34f
	movq	344(%r15), %r13
	jmp	30f
29:
	leaq	344(%r15), %r13
	movl	$1, %ebx
30:
	movq	(%r13), %rsi
	movq	8(%r13), %rdx
	leaq	16(%rsp), %rdi
	callq	"clap::error::text::push_escaped"
	testb	%al, %al
	je	33f
31:
	cmpq	$0, 32(%rsp)
	je	32f
	movq	16(%rsp), %rdi
	callq	rattle_dealloc@PLT
32:
	movq	40(%rsp), %rbp
	movb	$1, (%rbp)
	xorps	%xmm0, %xmm0
	movups	%xmm0, 8(%rbp)
	movq	$0, 24(%rbp)
	jmp	56f
33:
	cmpq	$1, %rbx
	jne	41f
34:
	leaq	.L0d0a70152a48(%rip), %rsi
	leaq	16(%rsp), %rdi
	movl	$1, %edx
	callq	"std_alloc::string::String::push_str::<#2cbb67ac55bf10f9>"
	testb	%al, %al
	movq	40(%rsp), %rdi
	je	2b
	cmpq	$0, 32(%rsp)
	je	35f
	movq	16(%rsp), %rdi
	callq	rattle_dealloc@PLT
	movq	40(%rsp), %rdi
35:
	movb	$1, (%rdi)
	xorps	%xmm0, %xmm0
	movups	%xmm0, 8(%rdi)
	movq	$0, 24(%rdi)
	jmp	56f
36:
	movb	$1, %cl
	xorl	%eax, %eax
37:
	cmpb	$1, %cl
	jne	38f
	testq	%rax, %rax
	je	54f
38:
	cmpb	$1, 512(%r15)
	jne	39f
	movzbl	520(%r15), %r12d
	movups	528(%r15), %xmm0
	movaps	%xmm0, 368(%rsp)
	movaps	368(%rsp), %xmm0
	movaps	%xmm0, 352(%rsp)
	movq	%r12, 112(%rsp)
	movups	%xmm0, 120(%rsp)
	leaq	15(%rsp), %rax
	movq	%rax, 80(%rsp)
	xorps	%xmm0, %xmm0
	movups	%xmm0, 88(%rsp)
	movq	128(%rsp), %rbx
	leaq	71f(%rip), %rax
	movslq	(%rax,%r12,4), %rcx
	addq	%rax, %rcx
	movq	%r12, %rbp
	jmpq	*%rcx
39:
	xorps	%xmm0, %xmm0
	movaps	%xmm0, 368(%rsp)
	xorl	%r12d, %r12d
	movaps	368(%rsp), %xmm1
	movaps	%xmm1, 352(%rsp)
	movq	%r12, 112(%rsp)
	movups	%xmm1, 120(%rsp)
	leaq	15(%rsp), %rax
	movq	%rax, 80(%rsp)
	movups	%xmm0, 88(%rsp)
	movq	128(%rsp), %rbx
	leaq	71f(%rip), %rax
	movslq	(%rax,%r12,4), %rcx
	addq	%rax, %rcx
	xorl	%ebp, %ebp
	jmpq	*%rcx
40:
	movl	$12, %ebp
	jmp	46f
41:
	decq	%rbx
	addq	$24, %r13
	.p2align	4
42:
	movq	24(%rsp), %rax
	movq	32(%rsp), %rcx
	cmpq	%rax, %rcx
	je	44f
43:
	movq	16(%rsp), %rdx
	movb	$32, (%rdx,%rax)
	incq	%rax
	movq	%rdx, 16(%rsp)
	movq	%rax, 24(%rsp)
	movq	%rcx, 32(%rsp)
	movq	-8(%r13), %rsi
	movq	(%r13), %rdx
	leaq	16(%rsp), %rdi
	callq	"clap::error::text::push_escaped"
	testb	%al, %al
	jne	31b
	addq	$16, %r13
	decq	%rbx
	jne	42b
	jmp	34b
44:
	leaq	16(%rsp), %rdi
	movl	$1, %esi
	callq	"std_alloc::vec::Vec::grow_amortized::<#1d775b5957dec42c>"
	testb	%al, %al
	je	31b
	movq	24(%rsp), %rax
	movq	32(%rsp), %rcx
	jmp	43b
45:
	movq	%rbx, %rbp
	testq	%rbx, %rbx
	je	52f
46:
	xorl	%r15d, %r15d
	xorl	%r13d, %r13d
	jmp	48f
47:
	movl	$1, %r13d
	leaq	80(%rsp), %rdi
	callq	"clap::error::text::push_escaped"
	testb	%al, %al
	je	50f
	jmp	59f
	.p2align	4
48:
	leaq	464(%rsp), %rdi
	leaq	112(%rsp), %rsi
	movq	%r15, %rdx
	callq	"clap::builder::value_parser::ValueParser::possible_at"
	cmpb	$1, 464(%rsp)
	jne	50f
	testb	$1, 528(%rsp)
	jne	50f
	movq	472(%rsp), %rsi
	movq	480(%rsp), %rdx
	testq	%r13, %r13
	je	47b
	movq	88(%rsp), %rax
	movq	96(%rsp), %rcx
	movq	%rcx, %rdi
	subq	%rax, %rdi
	cmpq	$1, %rdi
	jbe	51f
49:
	movq	80(%rsp), %rdi
	leaq	(%rdi,%rax), %r8
	leaq	.L807e89e39460(%rip), %r9
	movq	%r8, %r10
	subq	%r9, %r10
	cmpq	$1, %r10
	movw	$8236, (%r8)
	addq	$2, %rax
	movq	%rdi, 80(%rsp)
	movq	%rax, 88(%rsp)
	movq	%rcx, 96(%rsp)
	incq	%r13
	movq	$-1, %rax
	cmoveq	%rax, %r13
	leaq	80(%rsp), %rdi
	callq	"clap::error::text::push_escaped"
	testb	%al, %al
	jne	59f
	.p2align	4
50:
	incq	%r15
	cmpq	%r15, %rbp
	jne	48b
	jmp	52f
51:
	movq	%rbx, 208(%rsp)
	movq	%rdx, 216(%rsp)
	movq	%rsi, %rbx
	leaq	80(%rsp), %rdi
	movl	$2, %esi
	callq	"std_alloc::vec::Vec::grow_amortized::<#1d775b5957dec42c>"
	testb	%al, %al
	je	59f
	movq	88(%rsp), %rax
	movq	96(%rsp), %rcx
	movq	%rbx, %rsi
	movq	216(%rsp), %rdx
	movq	208(%rsp), %rbx
	jmp	49b
52:
	movzbl	%r12b, %eax
	movl	$483, %ecx
	btl	%eax, %ecx
	jae	57f
53:
	cmpq	$0, 96(%rsp)
	movq	40(%rsp), %r13
	je	54f
	movq	80(%rsp), %rdi
	callq	rattle_dealloc@PLT
54:
	cmpq	$0, 64(%rsp)
	je	55f
	movq	48(%rsp), %rdi
	callq	rattle_dealloc@PLT
55:
	movb	$0, (%r13)
	movups	16(%rsp), %xmm0
	movups	%xmm0, 8(%r13)
	movq	32(%rsp), %rax
	movq	%rax, 24(%r13)
56:
	addq	$536, %rsp
	popq	%rbx
	popq	%r12
	popq	%r13
	popq	%r14
	popq	%r15
	popq	%rbp
	retq
57:
	movl	$28, %ecx
	btl	%eax, %ecx
	jb	58f
	testq	%rbx, %rbx
	je	53b
58:
	leaq	16(%rsp), %rdi
	movq	%r14, %rsi
	callq	"clap::output::help::add_spec"
	testb	%al, %al
	jne	59f
	leaq	.L697ad99c4710(%rip), %rax
	movq	%rax, 224(%rsp)
	movq	$18, 232(%rsp)
	leaq	80(%rsp), %rax
	movq	%rax, 240(%rsp)
	leaq	.L0d0a70152a48(%rip), %rax
	movq	%rax, 248(%rsp)
	movq	$1, 256(%rsp)
	leaq	16(%rsp), %rdi
	leaq	224(%rsp), %rsi
	callq	"std_alloc::string::String::write_fmt::<#605efbca80f73881>"
	testb	%al, %al
	je	53b
59:
	cmpq	$0, 96(%rsp)
	je	60f
	movq	80(%rsp), %rdi
	callq	rattle_dealloc@PLT
60:
	cmpq	$0, 64(%rsp)
	movq	40(%rsp), %rbx
	je	61f
	movq	48(%rsp), %rdi
	callq	rattle_dealloc@PLT
61:
	cmpq	$0, 32(%rsp)
	jne	22b
	jmp	23b
62:
	leaq	16(%rsp), %rdi
	movl	$1, %esi
	callq	"std_alloc::vec::Vec::grow_amortized::<#1d775b5957dec42c>"
	testb	%al, %al
	je	20b
	movq	24(%rsp), %rax
	movq	32(%rsp), %rcx
	jmp	18b
63:
	leaq	16(%rsp), %rdi
	movl	$10, %esi
	callq	"std_alloc::vec::Vec::grow_amortized::<#1d775b5957dec42c>"
	testb	%al, %al
	je	31b
	movq	16(%rsp), %rdx
	movq	24(%rsp), %rax
	movq	32(%rsp), %rcx
	jmp	28b
64:
	movq	456(%rsp), %rbx
	testq	%rbx, %rbx
	je	37b
65:
	xorl	%r12d, %r12d
	jmp	67f
66:
	incq	%r12
	cmpq	%r12, %rbx
	je	68f
67:
	xorps	%xmm0, %xmm0
	movaps	%xmm0, 416(%rsp)
	movaps	%xmm0, 400(%rsp)
	movaps	%xmm0, 384(%rsp)
	movaps	%xmm0, 368(%rsp)
	movq	$0, 432(%rsp)
	leaq	368(%rsp), %rdi
	leaq	440(%rsp), %rsi
	movq	%r12, %rdx
	callq	"clap::builder::value_parser::ValueParser::possible_at"
	cmpb	$1, 368(%rsp)
	jne	66b
	cmpb	$1, 432(%rsp)
	je	66b
	testb	$1, 392(%rsp)
	je	66b
	jmp	54b
68:
	movzbl	432(%r15), %ecx
	movq	448(%r15), %rax
	jmp	37b
69:
	.size	"clap::output::help::Help::spec_vals", 69b-"clap::output::help::Help::spec_vals"
	.section	.rodata,"a",@progbits
	.p2align	2, 0x0
70:
	.long	37b-70b
	.long	37b-70b
	.long	65b-70b
	.long	25b-70b
	.long	25b-70b
	.long	37b-70b
	.long	37b-70b
	.long	37b-70b
	.long	37b-70b
	.long	64b-70b
	.long	64b-70b
71:
	.long	53b-71b
	.long	53b-71b
	.long	46b-71b
	.long	40b-71b
	.long	40b-71b
	.long	53b-71b
	.long	53b-71b
	.long	53b-71b
	.long	53b-71b
	.long	45b-71b
	.long	45b-71b

	.text
	.p2align	4
	.type	"clap::output::help::Help::use_long_pv",@function
"clap::output::help::Help::use_long_pv":
	testb	$1, %dil
	je	3f
	cmpb	$1, 432(%rsi)
	jne	1f
	cmpq	$0, 448(%rsi)
	je	3f
1:
	cmpb	$1, 512(%rsi)
	jne	3f
	pushq	%r14
	pushq	%rbx
	subq	$104, %rsp
	movzbl	520(%rsi), %r14d
	movq	%r14, 8(%rsp)
	movups	528(%rsi), %xmm0
	movups	%xmm0, 16(%rsp)
	leaq	10f(%rip), %rax
	movslq	(%rax,%r14,4), %rcx
	addq	%rax, %rcx
	jmpq	*%rcx
2:
	xorl	%eax, %eax
	addq	$104, %rsp
	popq	%rbx
	popq	%r14
	retq
3:
	xorl	%eax, %eax
	retq
4:
	movl	$12, %r14d
	jmp	6f
5:
	movq	24(%rsp), %r14
	testq	%r14, %r14
	je	2b
6:
	xorl	%ebx, %ebx
	jmp	8f
	.p2align	4
7:
	incq	%rbx
	cmpq	%rbx, %r14
	je	2b
8:
	xorps	%xmm0, %xmm0
	movaps	%xmm0, 80(%rsp)
	movaps	%xmm0, 64(%rsp)
	movaps	%xmm0, 48(%rsp)
	movaps	%xmm0, 32(%rsp)
	movq	$0, 96(%rsp)
	leaq	32(%rsp), %rdi
	leaq	8(%rsp), %rsi
	movq	%rbx, %rdx
	callq	"clap::builder::value_parser::ValueParser::possible_at"
	cmpb	$1, 32(%rsp)
	jne	7b
	cmpb	$1, 96(%rsp)
	je	7b
	testb	$1, 56(%rsp)
	je	7b
	movb	$1, %al
	addq	$104, %rsp
	popq	%rbx
	popq	%r14
	retq
9:
	.size	"clap::output::help::Help::use_long_pv", 9b-"clap::output::help::Help::use_long_pv"
	.section	.rodata,"a",@progbits
	.p2align	2, 0x0
10:
	.long	2b-10b
	.long	2b-10b
	.long	6b-10b
	.long	4b-10b
	.long	4b-10b
	.long	2b-10b
	.long	2b-10b
	.long	2b-10b
	.long	2b-10b
	.long	5b-10b
	.long	5b-10b

	.text
	.p2align	4
	.type	"clap::output::help::Help::write_all_args",@function
"clap::output::help::Help::write_all_args":
	pushq	%rbp
	pushq	%r15
	pushq	%r14
	pushq	%r13
	pushq	%r12
	pushq	%rbx
	subq	$744, %rsp
	movq	%rdi, %rbx
	xorps	%xmm0, %xmm0
	movaps	%xmm0, 304(%rsp)
	movq	$0, 320(%rsp)
	movaps	%xmm0, 208(%rsp)
	movq	$0, 224(%rsp)
	movaps	%xmm0, 480(%rsp)
	movaps	%xmm0, 496(%rsp)
	movaps	%xmm0, 448(%rsp)
	movaps	%xmm0, 464(%rsp)
	movaps	%xmm0, 720(%rsp)
	movaps	%xmm0, 576(%rsp)
	movq	$0, 592(%rsp)
	movaps	%xmm0, 544(%rsp)
	movq	$0, 560(%rsp)
	movq	(%rdi), %r14
	leaq	480(%rsp), %rdi
	movq	%rbx, %rsi
	movl	$1, %edx
	callq	"clap::output::help::Help::shown"
	movb	$1, %bpl
	cmpb	$0, 480(%rsp)
	jne	21f
	movq	488(%rsp), %r15
	movq	496(%rsp), %r13
	movq	504(%rsp), %r12
	leaq	448(%rsp), %rdi
	movq	%rbx, %rsi
	xorl	%edx, %edx
	callq	"clap::output::help::Help::shown"
	cmpb	$0, 448(%rsp)
	je	1f
	testq	%r12, %r12
	jne	19f
	jmp	21f
1:
	movq	%r13, 112(%rsp)
	movq	%rbx, 120(%rsp)
	movq	456(%rsp), %rax
	movq	%rax, 56(%rsp)
	movq	464(%rsp), %rbx
	movq	472(%rsp), %rax
	movq	%rax, 72(%rsp)
	movq	608(%r14), %rax
	movb	$1, %r13b
	testq	%rax, %rax
	movq	%r15, 40(%rsp)
	movq	%r14, 152(%rsp)
	je	5f
	movq	600(%r14), %rcx
	movq	120(%rsp), %rbp
	jmp	4f
	.p2align	4
2:
	cmpb	$1, 661(%rcx)
	jne	16f
3:
	addq	$672, %rcx
	decq	%rax
	je	6f
4:
	cmpq	$4, 8(%rcx)
	jne	2b
	movq	(%rcx), %rdx
	movl	(%rdx), %edx
	movq	%rdx, %rsi
	shlq	$32, %rsi
	orq	%rdx, %rsi
	movabsq	$8100961328969835880, %rdx
	cmpq	%rdx, %rsi
	jne	2b
	jmp	3b
5:
	movq	120(%rsp), %rbp
6:
	cmpq	$0, 112(%rsp)
	je	10f
7:
	testb	%r13b, %r13b
	jne	9f
	movq	24(%rbp), %rax
	movq	32(%rbp), %rcx
	movq	%rcx, %rdx
	subq	%rax, %rdx
	cmpq	$1, %rdx
	jbe	86f
8:
	movq	16(%rbp), %rdx
	movw	$2570, (%rdx,%rax)
	addq	$2, %rax
	movq	%rdx, 16(%rbp)
	movq	%rax, 24(%rbp)
	movq	%rcx, 32(%rbp)
9:
	leaq	16(%rbp), %rdi
	leaq	.L5a0b363d9402(%rip), %rax
	movq	%rax, 160(%rsp)
	movq	$9, 168(%rsp)
	leaq	.Le8bc6d23da8b(%rip), %rax
	movq	%rax, 176(%rsp)
	movq	$2, 184(%rsp)
	leaq	160(%rsp), %rsi
	callq	"std_alloc::string::String::write_fmt::<#004689434896fd94>"
	testb	%al, %al
	jne	17f
	movq	%rbp, %rdi
	movq	%r15, %rsi
	movq	112(%rsp), %rdx
	movl	$1, %ecx
	callq	"clap::output::help::Help::write_args"
	testb	%al, %al
	jne	17f
	xorl	%r13d, %r13d
10:
	testq	%rbx, %rbx
	je	13f
	testb	%r13b, %r13b
	jne	12f
	movq	24(%rbp), %rax
	movq	32(%rbp), %rcx
	movq	%rcx, %rdx
	subq	%rax, %rdx
	cmpq	$1, %rdx
	jbe	95f
11:
	movq	16(%rbp), %rdx
	movw	$2570, (%rdx,%rax)
	addq	$2, %rax
	movq	%rdx, 16(%rbp)
	movq	%rax, 24(%rbp)
	movq	%rcx, 32(%rbp)
12:
	leaq	16(%rbp), %rdi
	leaq	.Lc8cecd517f92(%rip), %rax
	movq	%rax, 160(%rsp)
	movq	$7, 168(%rsp)
	leaq	.Le8bc6d23da8b(%rip), %rax
	movq	%rax, 176(%rsp)
	movq	$2, 184(%rsp)
	leaq	160(%rsp), %rsi
	callq	"std_alloc::string::String::write_fmt::<#004689434896fd94>"
	testb	%al, %al
	jne	17f
	xorl	%r13d, %r13d
	movq	%rbp, %rdi
	movq	56(%rsp), %rsi
	movq	%rbx, %rdx
	xorl	%ecx, %ecx
	callq	"clap::output::help::Help::write_args"
	testb	%al, %al
	jne	17f
13:
	leaq	24(%rsp), %rax
	movq	%rax, 112(%rsp)
	movq	%rax, 304(%rsp)
	xorps	%xmm0, %xmm0
	movups	%xmm0, 312(%rsp)
	movq	584(%r14), %rbx
	testq	%rbx, %rbx
	je	45f
	movq	576(%r14), %r14
	addq	$584, %r14
	jmp	15f
	.p2align	4
14:
	addq	$608, %r14
	decq	%rbx
	je	44f
15:
	cmpb	$1, -24(%r14)
	jne	14b
	cmpb	$1, -16(%r14)
	jne	14b
	movq	-8(%r14), %rsi
	movq	(%r14), %rdx
	leaq	304(%rsp), %rdi
	callq	"clap::builder::command::insert_id"
	testb	%al, %al
	je	14b
	cmpq	$0, 320(%rsp)
	je	17f
	movq	304(%rsp), %rdi
	callq	rattle_dealloc@PLT
	jmp	17f
16:
	cmpb	$1, 552(%r14)
	leaq	.L6679d5cceabe(%rip), %rax
	cmoveq	560(%r14), %rax
	movl	$8, %ecx
	cmoveq	568(%r14), %rcx
	leaq	16(%rbp), %rdi
	movq	%rax, 160(%rsp)
	movq	%rcx, 168(%rsp)
	leaq	.Le8bc6d23da8b(%rip), %rax
	movq	%rax, 176(%rsp)
	movq	$2, 184(%rsp)
	leaq	160(%rsp), %rsi
	movq	%rdi, 288(%rsp)
	callq	"std_alloc::string::String::write_fmt::<#004689434896fd94>"
	testb	%al, %al
	je	22f
17:
	cmpq	$0, 72(%rsp)
	je	18f
	movq	56(%rsp), %rdi
	callq	rattle_dealloc@PLT
18:
	movb	$1, %bpl
	testq	%r12, %r12
	je	21f
19:
	movq	%r15, %rdi
20:
	callq	rattle_dealloc@PLT
21:
	movl	%ebp, %eax
	addq	$744, %rsp
	popq	%rbx
	popq	%r12
	popq	%r13
	popq	%r14
	popq	%r15
	popq	%rbp
	retq
22:
	xorps	%xmm0, %xmm0
	movaps	%xmm0, 256(%rsp)
	movq	$0, 272(%rsp)
	movl	$0, 252(%rsp)
	movaps	%xmm0, 384(%rsp)
	movq	$0, 400(%rsp)
	movaps	%xmm0, 608(%rsp)
	movaps	%xmm0, 624(%rsp)
	movaps	%xmm0, 672(%rsp)
	movaps	%xmm0, 688(%rsp)
	movaps	%xmm0, 704(%rsp)
	movaps	%xmm0, 640(%rsp)
	movaps	%xmm0, 656(%rsp)
	movaps	%xmm0, 512(%rsp)
	movaps	%xmm0, 528(%rsp)
	movq	(%rbp), %rax
	movaps	%xmm0, 80(%rsp)
	movq	$0, 96(%rsp)
	movq	608(%rax), %rdx
	testq	%rdx, %rdx
	movq	%rbx, 416(%rsp)
	movq	%rax, 240(%rsp)
	movq	%r12, 32(%rsp)
	je	65f
	movq	%rdx, %rcx
	movq	600(%rax), %rbp
	movl	$2, %eax
	movq	%rax, 128(%rsp)
	xorl	%r14d, %r14d
	movq	%rdx, 48(%rsp)
	jmp	25f
23:
	movq	%rax, 640(%rsp)
	movq	272(%rsp), %rax
	leaq	648(%rsp), %rcx
	movq	%rax, 16(%rcx)
	movaps	256(%rsp), %xmm0
	movups	%xmm0, (%rcx)
	leaq	672(%rsp), %rdi
	leaq	80(%rsp), %rsi
	leaq	640(%rsp), %rdx
	movq	%r14, %rcx
	callq	"std_collections::btree_map::BTreeMap::insert::<#9d0ca73623b707be>"
	cmpb	$0, 672(%rsp)
	movq	48(%rsp), %rcx
	jne	85f
24:
	incq	%r14
	cmpq	%rcx, %r14
	je	67f
25:
	imulq	$672, %r14, %r13
	cmpb	$0, 661(%rbp,%r13)
	jne	24b
	movq	(%rbp,%r13), %r12
	movq	%rbp, %r15
	movq	8(%rbp,%r13), %rbx
	testq	%rbx, %rbx
	je	27f
	js	139f
	movl	$1, %esi
	movq	%rbx, %rdi
	callq	rattle_alloc@PLT
	testb	$1, %al
	je	139f
	movq	%rdx, %rbp
	movq	%rbp, %rcx
	subq	%r12, %rcx
	cmpq	%rbx, %rcx
	jae	28f
26:
	xorl	%eax, %eax
	cmpq	$4, %rbx
	jb	33f
	cmpq	$32, %rcx
	jb	33f
	cmpq	$32, %rbx
	jae	29f
	xorl	%eax, %eax
	jmp	31f
27:
	leaq	24(%rsp), %rbp
	movq	%rbp, %rcx
	subq	%r12, %rcx
	cmpq	%rbx, %rcx
	jb	26b
28:
	movq	%rbp, %rdi
	movq	%r12, %rsi
	movq	%rbx, %rdx
	callq	memmove@PLT
	jmp	37f
29:
	movq	%rbx, %rax
	andq	$-32, %rax
	xorl	%ecx, %ecx
	.p2align	4
30:
	movups	(%r12,%rcx), %xmm0
	movups	16(%r12,%rcx), %xmm1
	movups	%xmm0, (%rbp,%rcx)
	movups	%xmm1, 16(%rbp,%rcx)
	addq	$32, %rcx
	cmpq	%rcx, %rax
	jne	30b
	cmpq	%rax, %rbx
	je	37f
	testb	$28, %bl
	je	33f
31:
	movq	%rax, %rcx
	movq	%rbx, %rax
	andq	$-4, %rax
	.p2align	4
32:
	movl	(%r12,%rcx), %edx
	movl	%edx, (%rbp,%rcx)
	addq	$4, %rcx
	cmpq	%rcx, %rax
	jne	32b
	cmpq	%rax, %rbx
	je	37f
33:
	movq	%rbx, %rdx
	movq	%rax, %rcx
	andq	$3, %rdx
	je	35f
	movq	%rax, %rcx
	.p2align	4
34:
	movzbl	(%r12,%rcx), %esi
	movb	%sil, (%rbp,%rcx)
	incq	%rcx
	decq	%rdx
	jne	34b
35:
	subq	%rbx, %rax
	cmpq	$-4, %rax
	ja	37f
	.p2align	4
36:
	movzbl	(%r12,%rcx), %eax
	movb	%al, (%rbp,%rcx)
	movzbl	1(%r12,%rcx), %eax
	movb	%al, 1(%rbp,%rcx)
	movzbl	2(%r12,%rcx), %eax
	movb	%al, 2(%rbp,%rcx)
	movzbl	3(%r12,%rcx), %eax
	movb	%al, 3(%rbp,%rcx)
	addq	$4, %rcx
	cmpq	%rcx, %rbx
	jne	36b
37:
	movq	%rbp, 256(%rsp)
	movq	%rbx, 264(%rsp)
	movq	%rbx, 272(%rsp)
	movq	%r15, %rbp
	cmpb	$1, 40(%r15,%r13)
	jne	38f
	movl	44(%rbp,%r13), %eax
	movl	%eax, 252(%rsp)
	leaq	.La61b5a71a1b3(%rip), %rax
	movq	%rax, 384(%rsp)
	movq	$3, 392(%rsp)
	leaq	252(%rsp), %rax
	movq	%rax, 400(%rsp)
	leaq	256(%rsp), %rdi
	leaq	384(%rsp), %rsi
	callq	"std_alloc::string::String::write_fmt::<#b77c81cbf5ad7277>"
	testb	%al, %al
	jne	90f
38:
	cmpb	$1, 16(%rbp,%r13)
	movq	40(%rsp), %rbx
	movq	32(%rsp), %r12
	jne	39f
	movups	24(%rbp,%r13), %xmm0
	leaq	.Le47040ea339c(%rip), %rax
	movq	%rax, 608(%rsp)
	movq	$4, 616(%rsp)
	movaps	%xmm0, 624(%rsp)
	leaq	256(%rsp), %rdi
	leaq	608(%rsp), %rsi
	callq	"std_alloc::string::String::write_fmt::<#004689434896fd94>"
	testb	%al, %al
	jne	91f
39:
	movq	264(%rsp), %rax
	testq	%rax, %rax
	je	43f
	movq	256(%rsp), %rdx
	xorl	%ecx, %ecx
	jmp	41f
	.p2align	4
40:
	addq	%rsi, %rdx
	incq	%rcx
	subq	%rsi, %rax
	je	42f
41:
	movzbl	(%rdx), %edi
	movl	$1, %esi
	testb	%dil, %dil
	jns	40b
	movl	$2, %esi
	cmpb	$-32, %dil
	jb	40b
	cmpb	$-16, %dil
	movl	$4, %esi
	sbbq	$0, %rsi
	jmp	40b
42:
	movq	128(%rsp), %rax
	cmpq	%rax, %rcx
	cmovaq	%rcx, %rax
	movq	%rax, 128(%rsp)
43:
	cmpb	$1, 480(%rbp,%r13)
	movl	$999, %eax
	jne	23b
	movq	488(%rbp,%r13), %rax
	jmp	23b
44:
	movq	304(%rsp), %rax
	movq	%rax, 112(%rsp)
	movq	152(%rsp), %r14
45:
	movl	%r13d, 48(%rsp)
	movq	%r12, 32(%rsp)
	movq	312(%rsp), %rax
	movq	%rax, 64(%rsp)
	testq	%rax, %rax
	je	61f
	leaq	552(%rsp), %r12
	leaq	16(%rbp), %rax
	movq	%rax, 232(%rsp)
	xorl	%r13d, %r13d
	jmp	47f
	.p2align	4
46:
	movq	240(%rsp), %r13
	incq	%r13
	cmpq	64(%rsp), %r13
	movq	152(%rsp), %r14
	je	61f
47:
	movq	%r13, 240(%rsp)
	shlq	$4, %r13
	addq	112(%rsp), %r13
	leaq	24(%rsp), %rbp
	movq	%rbp, 208(%rsp)
	xorps	%xmm0, %xmm0
	leaq	216(%rsp), %rax
	movups	%xmm0, (%rax)
	movq	584(%r14), %rbx
	testq	%rbx, %rbx
	je	56f
	movq	152(%rsp), %rax
	movq	576(%rax), %r15
	addq	$599, %r15
	xorl	%r14d, %r14d
	jmp	51f
	.p2align	4
48:
	movq	216(%rsp), %rax
	cmpq	%rax, 224(%rsp)
	je	55f
49:
	movq	%r14, (%rbp,%rax,8)
	incq	%rax
	movq	%rax, 216(%rsp)
50:
	incq	%r14
	addq	$608, %r15
	cmpq	%r14, %rbx
	je	56f
51:
	cmpb	$1, -39(%r15)
	jne	52f
	movzbl	-31(%r15), %eax
	movups	-23(%r15), %xmm0
	movaps	%xmm0, 160(%rsp)
	jmp	53f
	.p2align	4
52:
	xorps	%xmm0, %xmm0
	movaps	%xmm0, 160(%rsp)
	xorl	%eax, %eax
53:
	movaps	160(%rsp), %xmm0
	movaps	%xmm0, 720(%rsp)
	movq	%rax, 576(%rsp)
	leaq	584(%rsp), %rax
	movups	%xmm0, (%rax)
	movq	$1, 544(%rsp)
	movups	(%r13), %xmm0
	movups	%xmm0, (%r12)
	leaq	576(%rsp), %rdi
	leaq	544(%rsp), %rsi
	callq	"core::cmp::declared::OptionPartialEq::eq::<#a18ca2343ae6f068>"
	testb	%al, %al
	je	50b
	cmpb	$0, -5(%r15)
	jne	50b
	movq	120(%rsp), %rax
	movzbl	8(%rax), %eax
	testb	%al, %al
	je	54f
	cmpb	$0, -1(%r15)
	je	48b
54:
	orb	-2(%r15), %al
	je	48b
	cmpb	$1, (%r15)
	je	48b
	jmp	50b
55:
	leaq	208(%rsp), %rdi
	callq	"std_alloc::vec::Vec::grow_amortized::<#33f378437a29c276>"
	testb	%al, %al
	je	66f
	movq	208(%rsp), %rbp
	movq	216(%rsp), %rax
	jmp	49b
	.p2align	4
56:
	movq	216(%rsp), %rbx
	testq	%rbx, %rbx
	je	59f
	movq	(%r13), %r15
	movq	8(%r13), %r14
	testb	$1, 48(%rsp)
	movq	120(%rsp), %rbp
	jne	58f
	movq	24(%rbp), %rax
	movq	32(%rbp), %rcx
	movq	%rcx, %rdx
	subq	%rax, %rdx
	cmpq	$1, %rdx
	jbe	60f
57:
	movq	16(%rbp), %rdx
	movw	$2570, (%rdx,%rax)
	addq	$2, %rax
	movq	%rdx, 16(%rbp)
	movq	%rax, 24(%rbp)
	movq	%rcx, 32(%rbp)
58:
	movq	%r15, 160(%rsp)
	movq	%r14, 168(%rsp)
	leaq	.Le8bc6d23da8b(%rip), %rax
	movq	%rax, 176(%rsp)
	movq	$2, 184(%rsp)
	leaq	160(%rsp), %rsi
	movq	232(%rsp), %rdi
	callq	"std_alloc::string::String::write_fmt::<#004689434896fd94>"
	testb	%al, %al
	jne	66f
	movq	208(%rsp), %r13
	movl	$0, 48(%rsp)
	movq	%rbp, %rdi
	movq	%r13, %rsi
	movq	%rbx, %rdx
	xorl	%ecx, %ecx
	callq	"clap::output::help::Help::write_args"
	testb	%al, %al
	jne	80f
59:
	cmpq	$0, 224(%rsp)
	je	46b
	movq	208(%rsp), %rdi
	callq	rattle_dealloc@PLT
	jmp	46b
60:
	movl	$2, %esi
	movq	232(%rsp), %rdi
	callq	"std_alloc::vec::Vec::grow_amortized::<#1d775b5957dec42c>"
	testb	%al, %al
	je	66f
	movq	24(%rbp), %rax
	movq	32(%rbp), %rcx
	jmp	57b
61:
	cmpq	$0, 320(%rsp)
	je	62f
	movq	112(%rsp), %rdi
	callq	rattle_dealloc@PLT
62:
	cmpq	$0, 72(%rsp)
	movq	40(%rsp), %rbx
	movq	32(%rsp), %r14
	je	63f
	movq	56(%rsp), %rdi
	callq	rattle_dealloc@PLT
63:
	testq	%r14, %r14
	je	64f
	movq	%rbx, %rdi
	callq	rattle_dealloc@PLT
64:
	xorl	%ebp, %ebp
	jmp	21b
65:
	leaq	24(%rsp), %rsi
	movl	$2, %eax
	movq	$0, 280(%rsp)
	movq	$0, 48(%rsp)
	movq	%rsi, 144(%rsp)
	movq	$0, 136(%rsp)
	xorl	%ecx, %ecx
	xorl	%edx, %edx
	jmp	98f
66:
	cmpq	$0, 224(%rsp)
	je	82f
	movq	208(%rsp), %rdi
	jmp	81f
67:
	movq	240(%rsp), %rax
	movq	608(%rax), %r14
	testq	%r14, %r14
	je	87f
	movq	600(%rax), %r12
	movq	128(%rsp), %rax
	addq	$4, %rax
	movq	$-1, %rcx
	cmovaeq	%rax, %rcx
	movl	$100, %eax
	subq	%rcx, %rax
	movq	%rax, 64(%rsp)
	addq	$-41, %rcx
	movq	%rcx, 48(%rsp)
	xorl	%r13d, %r13d
	xorl	%ebp, %ebp
	jmp	70f
68:
	orb	%r15b, %r13b
69:
	incq	%rbp
	cmpq	%r14, %rbp
	je	88f
70:
	imulq	$672, %rbp, %rbx
	cmpb	$0, 661(%r12,%rbx)
	jne	69b
	movq	120(%rsp), %rax
	movq	(%rax), %rax
	cmpb	$0, 653(%rax)
	xorps	%xmm0, %xmm0
	movaps	%xmm0, 176(%rsp)
	movaps	%xmm0, 160(%rsp)
	movb	$1, %r15b
	jne	68b
	addq	%r12, %rbx
	leaq	160(%rsp), %rdi
	movq	%rbx, %rsi
	callq	"clap::output::help::subcommand_spec_vals"
	cmpb	$0, 160(%rsp)
	jne	139f
	movzbl	216(%rbx), %eax
	cmpb	$1, %al
	je	71f
	cmpb	$1, 240(%rbx)
	jne	74f
71:
	leaq	256(%rbx), %rcx
	leaq	232(%rbx), %rdx
	cmpb	$1, %al
	cmoveq	%rdx, %rcx
	movq	(%rcx), %rcx
	testq	%rcx, %rcx
	je	74f
	leaq	248(%rbx), %rdx
	addq	$224, %rbx
	cmpb	$1, %al
	cmovneq	%rdx, %rbx
	movq	(%rbx), %rdx
	xorl	%eax, %eax
	jmp	73f
72:
	addq	%rsi, %rdx
	incq	%rax
	subq	%rsi, %rcx
	je	75f
73:
	movzbl	(%rdx), %edi
	movl	$1, %esi
	testb	%dil, %dil
	jns	72b
	movl	$2, %esi
	cmpb	$-32, %dil
	jb	72b
	cmpb	$-16, %dil
	movl	$4, %esi
	sbbq	$0, %rsi
	jmp	72b
74:
	xorl	%eax, %eax
75:
	movq	168(%rsp), %rdi
	movq	176(%rsp), %rdx
	testq	%rdx, %rdx
	je	79f
	xorl	%ecx, %ecx
	movq	%rdi, %rsi
	jmp	77f
	.p2align	4
76:
	addq	%r8, %rsi
	incq	%rcx
	subq	%r8, %rdx
	je	78f
77:
	movzbl	(%rsi), %r9d
	movl	$1, %r8d
	testb	%r9b, %r9b
	jns	76b
	movl	$2, %r8d
	cmpb	$-32, %r9b
	jb	76b
	cmpb	$-16, %r9b
	movl	$4, %r8d
	sbbq	$0, %r8
	jmp	76b
78:
	addq	%rax, %rcx
	movq	$-1, %rax
	cmovaeq	%rcx, %rax
79:
	cmpq	$60, 48(%rsp)
	setb	%cl
	cmpq	%rax, 64(%rsp)
	setb	%r15b
	andb	%cl, %r15b
	cmpq	$0, 184(%rsp)
	je	68b
	callq	rattle_dealloc@PLT
	jmp	68b
80:
	cmpq	$0, 224(%rsp)
	je	82f
	movq	%r13, %rdi
81:
	callq	rattle_dealloc@PLT
82:
	cmpq	$0, 320(%rsp)
	movq	40(%rsp), %rbx
	movq	32(%rsp), %r14
	je	83f
	movq	112(%rsp), %rdi
	callq	rattle_dealloc@PLT
83:
	cmpq	$0, 72(%rsp)
	je	84f
	movq	56(%rsp), %rdi
	callq	rattle_dealloc@PLT
84:
	movb	$1, %bpl
	testq	%r14, %r14
	jne	143f
	jmp	21b
85:
	cmpq	$0, 704(%rsp)
	je	94f
	movq	688(%rsp), %rdi
	jmp	93f
86:
	leaq	16(%rbp), %rdi
	movl	$2, %esi
	callq	"std_alloc::vec::Vec::grow_amortized::<#1d775b5957dec42c>"
	testb	%al, %al
	je	17b
	movq	24(%rbp), %rax
	movq	32(%rbp), %rcx
	jmp	8b
87:
	xorl	%r13d, %r13d
88:
	movq	%r13, 280(%rsp)
	cmpb	$1, 80(%rsp)
	jne	89f
	movq	88(%rsp), %rsi
	cmpw	$0, 2(%rsi)
	movq	32(%rsp), %r12
	movq	120(%rsp), %rbp
	movq	152(%rsp), %r14
	je	96f
	movq	$-1, %rdx
	movb	$1, %al
	movq	%rax, 136(%rsp)
	leaq	24(%rsp), %rsi
	movq	$0, 48(%rsp)
	movq	%rsi, 144(%rsp)
	movq	128(%rsp), %rax
	leaq	88(%rsp), %rcx
	jmp	98f
89:
	leaq	24(%rsp), %rsi
	movq	$0, 48(%rsp)
	movq	%rsi, 144(%rsp)
	movq	$0, 136(%rsp)
	xorl	%ecx, %ecx
	xorl	%edx, %edx
	movq	32(%rsp), %r12
	movq	120(%rsp), %rbp
	movq	152(%rsp), %r14
	jmp	97f
90:
	cmpq	$0, 272(%rsp)
	movq	40(%rsp), %rbx
	movq	32(%rsp), %r12
	jne	92f
	jmp	94f
91:
	cmpq	$0, 272(%rsp)
	je	94f
92:
	movq	256(%rsp), %rdi
93:
	callq	rattle_dealloc@PLT
94:
	cmpb	$1, 80(%rsp)
	je	140f
	jmp	141f
95:
	leaq	16(%rbp), %rdi
	movl	$2, %esi
	callq	"std_alloc::vec::Vec::grow_amortized::<#1d775b5957dec42c>"
	testb	%al, %al
	je	17b
	movq	24(%rbp), %rax
	movq	32(%rbp), %rcx
	jmp	11b
96:
	movzwl	(%rsi), %eax
	movq	%rax, 48(%rsp)
	leaq	8(%rsi), %rax
	movq	%rax, 144(%rsp)
	addq	$488, %rsi
	movq	$0, 136(%rsp)
	xorl	%ecx, %ecx
	xorl	%edx, %edx
97:
	movq	128(%rsp), %rax
98:
	leaq	24(%rbp), %rdi
	movq	%rdi, 424(%rsp)
	movq	%rax, 128(%rsp)
	addq	$2, %rax
	movq	$-1, %rdi
	cmovaeq	%rax, %rdi
	movq	%rdi, 376(%rsp)
	xorl	%edi, %edi
	movq	%rcx, 368(%rsp)
	movq	%rcx, 336(%rsp)
	movq	%rdx, 344(%rsp)
	movq	%rdx, 360(%rsp)
	xorl	%r13d, %r13d
	.p2align	4
99:
	cmpq	48(%rsp), %rdi
	jb	101f
	xorps	%xmm0, %xmm0
	movaps	%xmm0, 192(%rsp)
	movaps	%xmm0, 176(%rsp)
	movaps	%xmm0, 160(%rsp)
	cmpb	$1, 136(%rsp)
	movq	40(%rsp), %r15
	je	108f
	xorl	%eax, %eax
100:
	cmpq	48(%rsp), %rdi
	jae	135f
	movq	%rax, 136(%rsp)
101:
	leaq	1(%rdi), %rax
	leaq	(%rsi,%rdi,8), %rbx
	shlq	$5, %rdi
	movq	%rdi, %r15
	addq	144(%rsp), %r15
	movq	%rax, %rdi
	testb	$1, %r13b
	je	104f
102:
	movq	24(%rbp), %rax
	movq	32(%rbp), %rcx
	cmpq	%rax, %rcx
	je	129f
103:
	movq	16(%rbp), %rdx
	movb	$10, (%rdx,%rax)
	incq	%rax
	movq	%rdx, 16(%rbp)
	movq	%rax, 24(%rbp)
	movq	%rcx, 32(%rbp)
104:
	movq	(%rbx), %rax
	movb	$1, %r13b
	movq	240(%rsp), %rcx
	cmpq	608(%rcx), %rax
	jae	99b
	movq	%rdi, 64(%rsp)
	movq	%rsi, 232(%rsp)
	imulq	$672, %rax, %rbx
	movq	240(%rsp), %rax
	addq	600(%rax), %rbx
	leaq	512(%rsp), %rdi
	movq	%rbx, %rsi
	callq	"clap::output::help::subcommand_spec_vals"
	cmpb	$0, 512(%rsp)
	jne	132f
	movq	%rbx, 440(%rsp)
	movq	520(%rsp), %rbx
	movq	528(%rsp), %rax
	movq	%rax, 432(%rsp)
	movq	536(%rsp), %r14
	movq	24(%rbp), %r12
	movq	32(%rbp), %r13
	movq	%r13, %rax
	subq	%r12, %rax
	cmpq	$1, %rax
	jbe	130f
105:
	movq	%r14, 296(%rsp)
	movq	%rbx, 352(%rsp)
	movq	16(%rbp), %r14
	movw	$8224, (%r14,%r12)
	addq	$2, %r12
	movq	%r14, 16(%rbp)
	movq	%r12, 24(%rbp)
	movq	%r13, 32(%rbp)
	movq	%r15, %r8
	movq	8(%r15), %rbx
	movq	16(%r15), %rbp
	movq	%r13, %rax
	subq	%r12, %rax
	cmpq	%rax, %rbp
	ja	131f
106:
	xorps	%xmm0, %xmm0
	movq	424(%rsp), %rax
	movups	%xmm0, (%rax)
	leaq	(%r14,%r12), %rdi
	movq	%rdi, %rax
	subq	%rbx, %rax
	cmpq	%rbp, %rax
	jae	107f
	cmpq	$4, %rbp
	jae	109f
	xorl	%eax, %eax
	movq	280(%rsp), %r15
	jmp	117f
107:
	movq	%rbx, %rsi
	movq	%rbp, %rdx
	callq	memmove@PLT
	movq	%r15, %r8
	movq	280(%rsp), %r15
	jmp	121f
108:
	movq	%r13, 64(%rsp)
	movq	%rdi, %r13
	movq	%rsi, %rbx
	leaq	160(%rsp), %rdi
	movq	344(%rsp), %rsi
	movq	336(%rsp), %rdx
	movq	368(%rsp), %rcx
	movq	360(%rsp), %r8
	callq	"std_collections::btree::iter::Cursor::advance::<24'(,)::<#ee13f2425f1aee9b>,i64>"
	cmpb	$1, 184(%rsp)
	jne	110f
	movq	192(%rsp), %rcx
	movq	200(%rsp), %rdx
	movq	%rdx, 336(%rsp)
	movq	(%rdx), %rax
	movq	%rcx, 344(%rsp)
	andl	$15, %ecx
	movq	608(%rax,%rcx,8), %rsi
	movzwl	(%rsi), %eax
	movq	%rax, 48(%rsp)
	leaq	8(%rsi), %rax
	movq	%rax, 144(%rsp)
	addq	$488, %rsi
	movb	$1, %al
	xorl	%edi, %edi
	jmp	111f
109:
	cmpq	$32, %rax
	movq	280(%rsp), %r15
	jae	112f
	xorl	%eax, %eax
	jmp	117f
110:
	xorl	%eax, %eax
	movq	$0, 368(%rsp)
	movq	$0, 344(%rsp)
	movq	$0, 336(%rsp)
	movq	$0, 360(%rsp)
	movq	%rbx, %rsi
	movq	%r13, %rdi
111:
	movq	64(%rsp), %r13
	testb	$1, 160(%rsp)
	je	100b
	movq	%rax, 136(%rsp)
	movq	168(%rsp), %r15
	movq	176(%rsp), %rbx
	testb	$1, %r13b
	jne	102b
	jmp	104b
112:
	cmpq	$32, %rbp
	jae	113f
	xorl	%eax, %eax
	jmp	115f
113:
	movq	%rbp, %rax
	andq	$-32, %rax
	leaq	(%r14,%r12), %rcx
	addq	$16, %rcx
	xorl	%edx, %edx
114:
	movups	(%rbx,%rdx), %xmm0
	movups	16(%rbx,%rdx), %xmm1
	movups	%xmm0, -16(%rcx,%rdx)
	movups	%xmm1, (%rcx,%rdx)
	addq	$32, %rdx
	cmpq	%rdx, %rax
	jne	114b
	cmpq	%rax, %rbp
	je	121f
	testb	$28, %bpl
	je	117f
115:
	movq	%rax, %rcx
	movq	%rbp, %rax
	andq	$-4, %rax
	.p2align	4
116:
	movl	(%rbx,%rcx), %edx
	movl	%edx, (%rdi,%rcx)
	addq	$4, %rcx
	cmpq	%rcx, %rax
	jne	116b
	cmpq	%rax, %rbp
	je	121f
117:
	movq	%rbp, %rdx
	movq	%rax, %rcx
	andq	$3, %rdx
	je	119f
	movq	%rax, %rcx
	.p2align	4
118:
	movzbl	(%rbx,%rcx), %esi
	movb	%sil, (%rdi,%rcx)
	incq	%rcx
	decq	%rdx
	jne	118b
119:
	subq	%rbp, %rax
	cmpq	$-4, %rax
	ja	121f
	leaq	(%r14,%r12), %rax
	addq	$3, %rax
	.p2align	4
120:
	movzbl	(%rbx,%rcx), %edx
	movb	%dl, -3(%rax,%rcx)
	movzbl	1(%rbx,%rcx), %edx
	movb	%dl, -2(%rax,%rcx)
	movzbl	2(%rbx,%rcx), %edx
	movb	%dl, -1(%rax,%rcx)
	movzbl	3(%rbx,%rcx), %edx
	movb	%dl, (%rax,%rcx)
	addq	$4, %rcx
	cmpq	%rcx, %rbp
	jne	120b
121:
	addq	%rbp, %r12
	movq	120(%rsp), %rbp
	movq	%r14, 16(%rbp)
	movq	%r12, 24(%rbp)
	movq	%r13, 32(%rbp)
	testb	$1, %r15b
	jne	125f
	movq	16(%r8), %rax
	movq	376(%rsp), %rbx
	testq	%rax, %rax
	je	128f
	movq	8(%r8), %rdx
	xorl	%ecx, %ecx
	jmp	123f
	.p2align	4
122:
	addq	%rsi, %rdx
	incq	%rcx
	subq	%rsi, %rax
	je	124f
123:
	movzbl	(%rdx), %edi
	movl	$1, %esi
	testb	%dil, %dil
	jns	122b
	movl	$2, %esi
	cmpb	$-32, %dil
	jb	122b
	cmpb	$-16, %dil
	movl	$4, %esi
	sbbq	$0, %rsi
	jmp	122b
124:
	xorl	%ebx, %ebx
	movq	376(%rsp), %rax
	subq	%rcx, %rax
	cmovaeq	%rax, %rbx
	ja	128f
125:
	xorl	%eax, %eax
	movq	440(%rsp), %rdx
	cmpb	$1, 240(%rdx)
	leaq	.L22d5119de29e(%rip), %rcx
	cmoveq	248(%rdx), %rcx
	movq	256(%rdx), %r8
	cmovneq	%rax, %r8
	cmpb	$1, 216(%rdx)
	jne	126f
	movq	224(%rdx), %rcx
	movq	232(%rdx), %r8
126:
	movq	128(%rsp), %rax
	movq	%rax, 16(%rsp)
	movzbl	%r15b, %eax
	andl	$1, %eax
	movl	%eax, 8(%rsp)
	movq	432(%rsp), %rax
	movq	%rax, (%rsp)
	movq	%rbp, %rdi
	xorl	%esi, %esi
	xorl	%edx, %edx
	movq	352(%rsp), %rbx
	movq	%rbx, %r9
	callq	"clap::output::help::Help::help"
	testb	%al, %al
	movq	152(%rsp), %r14
	movb	$1, %r13b
	jne	133f
	cmpq	$0, 296(%rsp)
	movq	32(%rsp), %r12
	movq	232(%rsp), %rsi
	movq	64(%rsp), %rdi
	je	99b
	movq	%rbx, %rdi
	callq	rattle_dealloc@PLT
	movq	64(%rsp), %rdi
	movq	232(%rsp), %rsi
	jmp	99b
	.p2align	4
127:
	movb	$32, (%r14,%r12)
	incq	%r12
	movq	%r14, 16(%rbp)
	movq	%r12, 24(%rbp)
	movq	%r13, 32(%rbp)
	decq	%rbx
	je	125b
128:
	cmpq	%r12, %r13
	jne	127b
	movl	$1, %esi
	movq	288(%rsp), %rdi
	callq	"std_alloc::vec::Vec::grow_amortized::<#1d775b5957dec42c>"
	testb	%al, %al
	je	137f
	movq	16(%rbp), %r14
	movq	24(%rbp), %r12
	movq	32(%rbp), %r13
	jmp	127b
129:
	movq	%r15, 64(%rsp)
	movq	%rdi, %r13
	movq	%rsi, %r15
	movl	$1, %esi
	movq	288(%rsp), %rdi
	callq	"std_alloc::vec::Vec::grow_amortized::<#1d775b5957dec42c>"
	testb	%al, %al
	je	132f
	movq	24(%rbp), %rax
	movq	32(%rbp), %rcx
	movq	%r15, %rsi
	movq	%r13, %rdi
	movq	64(%rsp), %r15
	jmp	103b
130:
	movl	$2, %esi
	movq	288(%rsp), %rdi
	callq	"std_alloc::vec::Vec::grow_amortized::<#1d775b5957dec42c>"
	testb	%al, %al
	je	144f
	movq	24(%rbp), %r12
	movq	32(%rbp), %r13
	jmp	105b
131:
	movq	288(%rsp), %rdi
	movq	%rbp, %rsi
	callq	"std_alloc::vec::Vec::grow_amortized::<#1d775b5957dec42c>"
	testb	%al, %al
	je	137f
	movq	120(%rsp), %rax
	movq	16(%rax), %r14
	movq	24(%rax), %r12
	movq	32(%rax), %r13
	movq	%r15, %r8
	jmp	106b
132:
	cmpb	$1, 80(%rsp)
	movq	40(%rsp), %rbx
	je	140f
	jmp	141f
133:
	cmpq	$0, 296(%rsp)
	je	139f
134:
	movq	%rbx, %rdi
	jmp	138f
135:
	cmpb	$1, 80(%rsp)
	jne	136f
	movq	88(%rsp), %rdi
	callq	"std_collections::btree::node::Node::destroy::<#f262a4084ccbf4f6>"
136:
	xorl	%r13d, %r13d
	movq	416(%rsp), %rbx
	cmpq	$0, 112(%rsp)
	jne	7b
	jmp	10b
137:
	cmpq	$0, 296(%rsp)
	je	139f
	movq	352(%rsp), %rdi
138:
	callq	rattle_dealloc@PLT
139:
	cmpb	$1, 80(%rsp)
	movq	40(%rsp), %rbx
	movq	32(%rsp), %r12
	jne	141f
140:
	movq	88(%rsp), %rdi
	callq	"std_collections::btree::node::Node::destroy::<#f262a4084ccbf4f6>"
141:
	cmpq	$0, 72(%rsp)
	je	142f
	movq	56(%rsp), %rdi
	callq	rattle_dealloc@PLT
142:
	movb	$1, %bpl
	testq	%r12, %r12
	je	21b
143:
	movq	%rbx, %rdi
	jmp	20b
144:
	testq	%r14, %r14
	jne	134b
	jmp	139b
145:
	.size	"clap::output::help::Help::write_all_args", 145b-"clap::output::help::Help::write_all_args"

	.text
	.p2align	4
	.type	"clap::output::help::Help::write_args",@function
"clap::output::help::Help::write_args":
	pushq	%rbp
	pushq	%r15
	pushq	%r14
	pushq	%r13
	pushq	%r12
	pushq	%rbx
	subq	$504, %rsp
	movq	%rdi, %rbx
	xorps	%xmm0, %xmm0
	movaps	%xmm0, 480(%rsp)
	movaps	%xmm0, 464(%rsp)
	movaps	%xmm0, 448(%rsp)
	movaps	%xmm0, 368(%rsp)
	movaps	%xmm0, 384(%rsp)
	movq	(%rdi), %r13
	movaps	%xmm0, 176(%rsp)
	movq	$0, 192(%rsp)
	testq	%rdx, %rdx
	movq	%r13, 208(%rsp)
	je	54f
	movq	%rdx, %r14
	movq	%rsi, %r15
	movl	%ecx, 72(%rsp)
	movl	$2, %eax
	movq	%rax, 200(%rsp)
	xorl	%r12d, %r12d
1:
	movq	584(%r13), %rax
	.p2align	4
2:
	movq	(%r15,%r12,8), %rcx
	cmpq	%rax, %rcx
	jb	3f
	incq	%r12
	cmpq	%r14, %r12
	jb	2b
	jmp	40f
	.p2align	4
3:
	movq	%r15, 48(%rsp)
	imulq	$608, %rcx, %r15
	addq	576(%r13), %r15
	xorps	%xmm0, %xmm0
	leaq	120(%rsp), %rbp
	movups	%xmm0, (%rbp)
	movl	$0, 52(%rbp)
	movl	$0, 49(%rbp)
	leaq	32(%rsp), %rax
	movq	%rax, 112(%rsp)
	movl	$32, 136(%rsp)
	movl	$0, 28(%rbp)
	movq	$0, 20(%rbp)
	movq	$-1, 152(%rsp)
	movq	$0, 160(%rsp)
	movb	$0, 168(%rsp)
	movq	32(%rbp), %rax
	movq	%rax, 240(%rsp)
	movl	16(%rbp), %eax
	movl	%eax, 224(%rsp)
	movq	20(%rbp), %rax
	movq	%rax, 228(%rsp)
	movl	28(%rbp), %eax
	movl	%eax, 236(%rsp)
	movl	$32, 136(%rsp)
	movl	$0, 28(%rbp)
	movq	$0, 20(%rbp)
	movq	$-1, 152(%rsp)
	movq	$0, 88(%rsp)
	movq	%r15, 80(%rsp)
	leaq	80(%rsp), %rdi
	leaq	112(%rsp), %rsi
	callq	"clap::builder::arg::StylizedDisplay::fmt::<#86a172efa8724158>"
	movq	240(%rsp), %rcx
	movq	%rcx, 32(%rbp)
	movaps	224(%rsp), %xmm0
	movups	%xmm0, 16(%rbp)
	testb	%al, %al
	jne	111f
	movq	112(%rsp), %rbp
	movq	120(%rsp), %rcx
	movzbl	72(%r15), %eax
	testb	$1, %al
	movq	%r15, %r9
	je	6f
	testq	%rcx, %rcx
	movq	48(%rsp), %r15
	je	10f
	xorl	%esi, %esi
	movq	%rbp, %rdx
	jmp	5f
	.p2align	4
4:
	addq	%rdi, %rdx
	incq	%rsi
	subq	%rdi, %rcx
	je	9f
5:
	movzbl	(%rdx), %r8d
	movl	$1, %edi
	testb	%r8b, %r8b
	jns	4b
	movl	$2, %edi
	cmpb	$-32, %r8b
	jb	4b
	cmpb	$-16, %r8b
	movl	$4, %edi
	sbbq	$0, %rdi
	jmp	4b
	.p2align	4
6:
	testq	%rcx, %rcx
	movq	48(%rsp), %r15
	je	11f
	xorl	%edx, %edx
	movq	%rbp, %rsi
	jmp	8f
	.p2align	4
7:
	addq	%rdi, %rsi
	incq	%rdx
	subq	%rdi, %rcx
	je	12f
8:
	movzbl	(%rsi), %r8d
	movl	$1, %edi
	testb	%r8b, %r8b
	jns	7b
	movl	$2, %edi
	cmpb	$-32, %r8b
	jb	7b
	cmpb	$-16, %r8b
	movl	$4, %edi
	sbbq	$0, %rdi
	jmp	7b
9:
	addq	$4, %rsi
	movq	$-1, %rdx
	cmovaeq	%rsi, %rdx
	jmp	12f
10:
	movl	$4, %edx
	jmp	12f
11:
	xorl	%edx, %edx
	.p2align	4
12:
	movq	128(%rsp), %rcx
	movq	%rcx, 64(%rsp)
	movq	200(%rsp), %rcx
	cmpq	%rcx, %rdx
	cmovaq	%rdx, %rcx
	movq	%rcx, 200(%rsp)
	movl	72(%rsp), %ecx
	testb	%cl, %cl
	je	14f
	xorl	%r8d, %r8d
	cmpb	$1, 488(%r9)
	movl	$0, %ecx
	jne	13f
	movq	496(%r9), %rcx
13:
	leaq	32(%rsp), %rdx
	xorl	%eax, %eax
	jmp	25f
	.p2align	4
14:
	xorps	%xmm0, %xmm0
	movaps	%xmm0, 112(%rsp)
	movaps	%xmm0, 128(%rsp)
	cmpb	$1, 64(%r9)
	movq	%rbp, 56(%rsp)
	jne	17f
	movq	%r9, 40(%rsp)
	movl	68(%r9), %r13d
	leaq	32(%rsp), %rax
	movq	%rax, 80(%rsp)
	leaq	88(%rsp), %rax
	movups	%xmm0, (%rax)
	leal	32(%r13), %esi
	cmpl	$91, %r13d
	cmovael	%r13d, %esi
	cmpl	$65, %r13d
	cmovbl	%r13d, %esi
	cmpl	$127, %esi
	jbe	37f
	leaq	80(%rsp), %rdi
	callq	"std_alloc::string::add_wide::<#2cbb67ac55bf10f9>"
	testb	%al, %al
	jne	114f
	movq	88(%rsp), %r8
15:
	addl	$-97, %r13d
	movq	96(%rsp), %rax
	cmpl	$26, %r13d
	movq	40(%rsp), %r9
	jae	20f
	cmpq	%r8, %rax
	movq	208(%rsp), %r13
	je	38f
16:
	movq	80(%rsp), %rdx
	movb	$48, (%rdx,%r8)
	jmp	22f
17:
	cmpb	$1, %al
	jne	19f
	movq	80(%r9), %rbp
	movq	88(%r9), %r8
	testq	%r8, %r8
	leaq	32(%rsp), %rdx
	je	18f
	js	115f
	movq	%r9, %r15
	movl	$1, %esi
	movq	%r8, %rdi
	movq	%r8, 40(%rsp)
	callq	rattle_alloc@PLT
	movq	40(%rsp), %r8
	testb	$1, %al
	je	115f
	movq	%r15, %r9
	movq	48(%rsp), %r15
18:
	movq	%rdx, %rcx
	subq	%rbp, %rcx
	cmpq	%r8, %rcx
	jae	27f
	xorl	%eax, %eax
	cmpq	$4, %r8
	jb	32f
	cmpq	$32, %rcx
	jb	32f
	cmpq	$32, %r8
	jae	28f
	xorl	%eax, %eax
	jmp	30f
19:
	movq	%r9, %r15
	movups	(%r9), %xmm0
	leaq	.Lf633811c48da(%rip), %rax
	movq	%rax, 224(%rsp)
	movq	$1, 232(%rsp)
	movups	%xmm0, 240(%rsp)
	leaq	112(%rsp), %rdi
	leaq	224(%rsp), %rsi
	callq	"std_alloc::string::String::format::<#004689434896fd94>"
	cmpb	$0, 112(%rsp)
	jne	115f
	movq	136(%rsp), %rax
	movq	120(%rsp), %rdx
	movq	128(%rsp), %r8
	movq	%r15, %r9
	movq	48(%rsp), %r15
	jmp	23f
20:
	cmpq	%r8, %rax
	movq	208(%rsp), %r13
	je	39f
21:
	movq	80(%rsp), %rdx
	movb	$49, (%rdx,%r8)
22:
	incq	%r8
	movq	96(%rsp), %rax
23:
	cmpb	$1, 544(%r9)
	movl	$999, %ecx
	jne	24f
	movq	552(%r9), %rcx
24:
	movq	56(%rsp), %rbp
25:
	movq	%rcx, 368(%rsp)
	movq	%rdx, 376(%rsp)
	movq	%r8, 384(%rsp)
	movq	%rax, 392(%rsp)
	movq	(%r15,%r12,8), %rcx
	leaq	448(%rsp), %rdi
	leaq	176(%rsp), %rsi
	leaq	368(%rsp), %rdx
	callq	"std_collections::btree_map::BTreeMap::insert::<#9d0ca73623b707be>"
	cmpb	$0, 448(%rsp)
	jne	112f
	cmpq	$0, 64(%rsp)
	je	26f
	movq	%rbp, %rdi
	callq	rattle_dealloc@PLT
26:
	incq	%r12
	cmpq	%r14, %r12
	jb	1b
	jmp	40f
27:
	movq	%rdx, %r15
	movq	%rdx, %rdi
	movq	%rbp, %rsi
	movq	%r8, %rdx
	movq	%r9, 40(%rsp)
	movq	%r8, %rbp
	callq	memmove@PLT
	movq	%rbp, %r8
	movq	%r15, %rdx
	movq	40(%rsp), %r9
	movq	48(%rsp), %r15
	movq	%rbp, %rax
	jmp	23b
28:
	movq	%r8, %rax
	andq	$-32, %rax
	xorl	%ecx, %ecx
	.p2align	4
29:
	movups	(%rbp,%rcx), %xmm0
	movups	16(%rbp,%rcx), %xmm1
	movups	%xmm0, (%rdx,%rcx)
	movups	%xmm1, 16(%rdx,%rcx)
	addq	$32, %rcx
	cmpq	%rcx, %rax
	jne	29b
	cmpq	%rax, %r8
	je	36f
	testb	$28, %r8b
	je	32f
30:
	movq	%rax, %rcx
	movq	%r8, %rax
	andq	$-4, %rax
	.p2align	4
31:
	movl	(%rbp,%rcx), %esi
	movl	%esi, (%rdx,%rcx)
	addq	$4, %rcx
	cmpq	%rcx, %rax
	jne	31b
	cmpq	%rax, %r8
	je	36f
32:
	movq	%r8, %rdi
	movq	%rax, %rcx
	andq	$3, %rdi
	je	34f
	movq	%rax, %rcx
	.p2align	4
33:
	movzbl	(%rbp,%rcx), %esi
	movb	%sil, (%rdx,%rcx)
	incq	%rcx
	decq	%rdi
	jne	33b
34:
	subq	%r8, %rax
	cmpq	$-4, %rax
	ja	36f
	.p2align	4
35:
	movzbl	(%rbp,%rcx), %eax
	movb	%al, (%rdx,%rcx)
	movzbl	1(%rbp,%rcx), %eax
	movb	%al, 1(%rdx,%rcx)
	movzbl	2(%rbp,%rcx), %eax
	movb	%al, 2(%rdx,%rcx)
	movzbl	3(%rbp,%rcx), %eax
	movb	%al, 3(%rdx,%rcx)
	addq	$4, %rcx
	cmpq	%rcx, %r8
	jne	35b
36:
	movq	%r8, %rax
	jmp	23b
37:
	movl	%esi, 48(%rsp)
	leaq	80(%rsp), %rdi
	movl	$1, %esi
	callq	"std_alloc::vec::Vec::grow_amortized::<#1d775b5957dec42c>"
	testb	%al, %al
	je	114f
	movq	80(%rsp), %rax
	movq	88(%rsp), %r8
	movl	48(%rsp), %ecx
	movb	%cl, (%rax,%r8)
	incq	%r8
	movq	%r8, 88(%rsp)
	jmp	15b
38:
	leaq	80(%rsp), %rdi
	movl	$1, %esi
	callq	"std_alloc::vec::Vec::grow_amortized::<#1d775b5957dec42c>"
	testb	%al, %al
	je	114f
	movq	88(%rsp), %r8
	movq	40(%rsp), %r9
	jmp	16b
39:
	leaq	80(%rsp), %rdi
	movl	$1, %esi
	callq	"std_alloc::vec::Vec::grow_amortized::<#1d775b5957dec42c>"
	testb	%al, %al
	je	114f
	movq	88(%rsp), %r8
	movq	40(%rsp), %r9
	jmp	21b
40:
	movq	200(%rsp), %rax
	addq	$4, %rax
	movq	$-1, %rcx
	cmovaeq	%rax, %rcx
	movl	$100, %eax
	subq	%rcx, %rax
	movq	%rax, 64(%rsp)
	addq	$-41, %rcx
	movq	%rcx, 72(%rsp)
	movq	$0, 48(%rsp)
	xorl	%ebp, %ebp
	jmp	43f
	.p2align	4
41:
	movb	$1, %al
	movq	%rax, 48(%rsp)
42:
	incq	%rbp
	cmpq	%r14, %rbp
	je	55f
43:
	movq	(%r15,%rbp,8), %rax
	cmpq	584(%r13), %rax
	jae	42b
	imulq	$608, %rax, %r12
	addq	576(%r13), %r12
	xorps	%xmm0, %xmm0
	movaps	%xmm0, 128(%rsp)
	movaps	%xmm0, 112(%rsp)
	movq	(%rbx), %rax
	cmpb	$0, 653(%rax)
	jne	41b
	cmpb	$0, 599(%r12)
	jne	41b
	cmpb	$0, 8(%rbx)
	jne	41b
	leaq	112(%rsp), %rdi
	movq	%rbx, %rsi
	movq	%r12, %rdx
	callq	"clap::output::help::Help::spec_vals"
	cmpb	$0, 112(%rsp)
	jne	109f
	movzbl	16(%r12), %eax
	cmpb	$1, %al
	je	44f
	cmpb	$1, 40(%r12)
	jne	47f
44:
	leaq	56(%r12), %rcx
	leaq	32(%r12), %rdx
	cmpb	$1, %al
	cmoveq	%rdx, %rcx
	movq	(%rcx), %rcx
	testq	%rcx, %rcx
	je	47f
	leaq	48(%r12), %rdx
	addq	$24, %r12
	cmpb	$1, %al
	cmovneq	%rdx, %r12
	movq	(%r12), %rdx
	xorl	%eax, %eax
	jmp	46f
	.p2align	4
45:
	addq	%rsi, %rdx
	incq	%rax
	subq	%rsi, %rcx
	je	48f
46:
	movzbl	(%rdx), %edi
	movl	$1, %esi
	testb	%dil, %dil
	jns	45b
	movl	$2, %esi
	cmpb	$-32, %dil
	jb	45b
	cmpb	$-16, %dil
	movl	$4, %esi
	sbbq	$0, %rsi
	jmp	45b
47:
	xorl	%eax, %eax
48:
	movq	120(%rsp), %rdi
	movq	128(%rsp), %rdx
	testq	%rdx, %rdx
	je	52f
	xorl	%ecx, %ecx
	movq	%rdi, %rsi
	jmp	50f
	.p2align	4
49:
	addq	%r8, %rsi
	incq	%rcx
	subq	%r8, %rdx
	je	51f
50:
	movzbl	(%rsi), %r9d
	movl	$1, %r8d
	testb	%r9b, %r9b
	jns	49b
	movl	$2, %r8d
	cmpb	$-32, %r9b
	jb	49b
	cmpb	$-16, %r9b
	movl	$4, %r8d
	sbbq	$0, %r8
	jmp	49b
51:
	addq	%rax, %rcx
	movq	$-1, %rax
	cmovaeq	%rcx, %rax
52:
	cmpq	$60, 72(%rsp)
	setb	%cl
	cmpq	%rax, 64(%rsp)
	setb	%r12b
	andb	%cl, %r12b
	cmpq	$0, 136(%rsp)
	je	53f
	callq	rattle_dealloc@PLT
53:
	testb	%r12b, %r12b
	jne	41b
	jmp	42b
54:
	movq	$0, 48(%rsp)
	movl	$2, %eax
	movq	%rax, 200(%rsp)
55:
	leaq	32(%rsp), %rax
	movq	%rax, 72(%rsp)
	cmpb	$1, 176(%rsp)
	jne	56f
	movq	184(%rsp), %rax
	cmpw	$0, 2(%rax)
	je	57f
	leaq	184(%rsp), %rdx
	movq	$-1, %rsi
	movb	$1, %bpl
	xorl	%r15d, %r15d
	jmp	59f
56:
	xorl	%r15d, %r15d
	xorl	%ebp, %ebp
	jmp	58f
57:
	movzwl	(%rax), %r15d
	addq	$488, %rax
	xorl	%ebp, %ebp
	movq	%rax, 72(%rsp)
58:
	xorl	%edx, %edx
	xorl	%esi, %esi
59:
	movq	200(%rsp), %rcx
	movq	%rcx, %rdi
	addq	$2, %rdi
	movq	$-1, %rax
	cmovbq	%rax, %rdi
	movq	%rdi, 272(%rsp)
	addq	$6, %rcx
	cmovbq	%rax, %rcx
	movq	%rcx, 336(%rsp)
	xorl	%r12d, %r12d
	movq	%rdx, 64(%rsp)
	movq	%rdx, 256(%rsp)
	movq	%rsi, 264(%rsp)
	movq	%rsi, 280(%rsp)
	xorl	%ecx, %ecx
	jmp	61f
	.p2align	4
60:
	testb	%bpl, %bpl
	movq	352(%rsp), %rbp
	movb	$1, %cl
	jne	109f
61:
	cmpq	%r15, %r12
	jb	63f
	xorps	%xmm0, %xmm0
	movaps	%xmm0, 144(%rsp)
	movaps	%xmm0, 128(%rsp)
	movaps	%xmm0, 112(%rsp)
	cmpb	$1, %bpl
	je	67f
	xorl	%ebp, %ebp
	movq	64(%rsp), %r14
62:
	cmpq	%r15, %r12
	jae	100f
	movq	%r14, 64(%rsp)
63:
	movq	72(%rsp), %rax
	leaq	(%rax,%r12,8), %r14
	incq	%r12
	testb	$1, %cl
	je	70f
64:
	movq	24(%rbx), %rax
	movq	32(%rbx), %rcx
	cmpq	%rax, %rcx
	je	94f
65:
	movq	16(%rbx), %rdx
	movb	$10, (%rdx,%rax)
	incq	%rax
	movq	%rdx, 16(%rbx)
	movq	%rax, 24(%rbx)
	movq	%rcx, 32(%rbx)
	testb	$1, 48(%rsp)
	je	70f
	cmpb	$1, 8(%rbx)
	jne	70f
	cmpq	%rax, %rcx
	je	96f
66:
	movb	$10, (%rdx,%rax)
	incq	%rax
	movq	%rdx, 16(%rbx)
	movq	%rax, 24(%rbx)
	movq	%rcx, 32(%rbx)
	jmp	70f
67:
	movq	%rcx, %r13
	leaq	112(%rsp), %rdi
	movq	264(%rsp), %rsi
	movq	256(%rsp), %rdx
	movq	64(%rsp), %r14
	movq	%r14, %rcx
	movq	280(%rsp), %r8
	callq	"std_collections::btree::iter::Cursor::advance::<24'(,)::<#ee13f2425f1aee9b>,i64>"
	cmpb	$1, 136(%rsp)
	jne	68f
	movq	144(%rsp), %rcx
	movq	152(%rsp), %rdx
	movq	%rdx, 256(%rsp)
	movq	(%rdx), %rax
	movq	%rcx, 264(%rsp)
	andl	$15, %ecx
	movq	608(%rax,%rcx,8), %rax
	movzwl	(%rax), %r15d
	addq	$488, %rax
	movq	%rax, 72(%rsp)
	movb	$1, %bpl
	xorl	%r12d, %r12d
	movq	%r13, %rcx
	testb	$1, 112(%rsp)
	movq	208(%rsp), %r13
	je	62b
	jmp	69f
68:
	xorl	%ebp, %ebp
	xorl	%r14d, %r14d
	movq	$0, 264(%rsp)
	movq	$0, 256(%rsp)
	movq	$0, 280(%rsp)
	movq	%r13, %rcx
	testb	$1, 112(%rsp)
	movq	208(%rsp), %r13
	je	62b
69:
	movq	%r14, 64(%rsp)
	movq	128(%rsp), %r14
	testb	$1, %cl
	jne	64b
	.p2align	4
70:
	movq	(%r14), %rax
	movb	$1, %cl
	cmpq	584(%r13), %rax
	jae	61b
	imulq	$608, %rax, %r14
	addq	576(%r13), %r14
	movl	$0, 220(%rsp)
	xorps	%xmm0, %xmm0
	movaps	%xmm0, 224(%rsp)
	movaps	%xmm0, 240(%rsp)
	movaps	%xmm0, 80(%rsp)
	movaps	%xmm0, 96(%rsp)
	movaps	%xmm0, 320(%rsp)
	leaq	224(%rsp), %rdi
	movq	%rbx, %rsi
	movq	%r14, %rdx
	callq	"clap::output::help::Help::spec_vals"
	cmpb	$0, 224(%rsp)
	jne	109f
	movq	232(%rsp), %rax
	movq	%rax, 56(%rsp)
	movq	240(%rsp), %rax
	movq	%rax, 360(%rsp)
	movq	248(%rsp), %r13
	movq	24(%rbx), %rax
	movq	32(%rbx), %rcx
	movq	%rcx, %rdx
	subq	%rax, %rdx
	cmpq	$1, %rdx
	jbe	95f
71:
	movq	16(%rbx), %rdx
	movw	$8224, (%rdx,%rax)
	addq	$2, %rax
	movq	%rdx, 16(%rbx)
	movq	%rax, 24(%rbx)
	movq	%rcx, 32(%rbx)
	cmpb	$1, 64(%r14)
	jne	72f
	movl	68(%r14), %eax
	movl	%eax, 220(%rsp)
	leaq	.Lc1b0ea49b06c(%rip), %rax
	movq	%rax, 424(%rsp)
	movq	$1, 432(%rsp)
	leaq	220(%rsp), %rax
	movq	%rax, 440(%rsp)
	leaq	424(%rsp), %rsi
	leaq	16(%rbx), %rdi
	callq	"std_alloc::string::String::write_fmt::<#b77c81cbf5ad7277>"
	testb	%al, %al
	je	74f
	jmp	102f
	.p2align	4
72:
	cmpb	$1, 72(%r14)
	jne	74f
	movq	%rcx, %rsi
	subq	%rax, %rsi
	cmpq	$3, %rsi
	jbe	97f
73:
	movl	$538976288, (%rdx,%rax)
	addq	$4, %rax
	movq	%rdx, 16(%rbx)
	movq	%rax, 24(%rbx)
	movq	%rcx, 32(%rbx)
74:
	movq	%r13, 40(%rsp)
	movq	%rbp, 352(%rsp)
	cmpb	$1, 72(%r14)
	jne	77f
	movq	80(%r14), %r13
	movq	88(%r14), %rbp
	cmpb	$1, 64(%r14)
	jne	76f
	movq	24(%rbx), %rax
	movq	32(%rbx), %rcx
	movq	%rcx, %rdx
	subq	%rax, %rdx
	cmpq	$1, %rdx
	jbe	98f
75:
	leaq	16(%rbx), %rdx
	movq	(%rdx), %rdx
	leaq	(%rdx,%rax), %rsi
	leaq	.L807e89e39460(%rip), %rdi
	movq	%rsi, %r8
	subq	%rdi, %r8
	cmpq	$1, %r8
	movw	$8236, (%rsi)
	addq	$2, %rax
	movq	%rdx, 16(%rbx)
	movq	%rax, 24(%rbx)
	movq	%rcx, 32(%rbx)
76:
	leaq	.L32d1a5938230(%rip), %rax
	movq	%rax, 80(%rsp)
	movq	$2, 88(%rsp)
	movq	%r13, 96(%rsp)
	movq	%rbp, 104(%rsp)
	leaq	80(%rsp), %rsi
	leaq	16(%rbx), %rdi
	callq	"std_alloc::string::String::write_fmt::<#004689434896fd94>"
	testb	%al, %al
	jne	107f
77:
	movq	%r14, 320(%rsp)
	movw	$0, 328(%rsp)
	movb	$1, 330(%rsp)
	movq	24(%rbx), %r13
	leaq	16(%rbx), %rbp
	movq	16(%rbp), %rax
	movq	%rax, 128(%rsp)
	movups	(%rbp), %xmm0
	movaps	%xmm0, 112(%rsp)
	xorps	%xmm0, %xmm0
	leaq	140(%rsp), %rax
	movups	%xmm0, 20(%rax)
	movl	$32, 136(%rsp)
	movl	$0, 8(%rax)
	movq	$0, (%rax)
	movq	$-1, 152(%rsp)
	leaq	320(%rsp), %rdi
	leaq	112(%rsp), %rsi
	callq	"clap::builder::arg::StylizedDisplay::fmt::<#86a172efa8724158>"
	movq	128(%rsp), %rcx
	movq	%rcx, 304(%rsp)
	movaps	112(%rsp), %xmm0
	movaps	%xmm0, 288(%rsp)
	movq	%rcx, 16(%rbp)
	movups	%xmm0, (%rbp)
	testb	%al, %al
	jne	99f
	movzbl	8(%rbx), %eax
	movl	%eax, %ecx
	orb	48(%rsp), %cl
	movq	208(%rsp), %r13
	je	79f
	testb	%al, %al
	je	92f
78:
	leaq	48(%r14), %rax
	leaq	56(%r14), %rcx
	leaq	24(%r14), %rdx
	leaq	32(%r14), %rsi
	cmpb	$1, 40(%r14)
	cmoveq	%rax, %rdx
	movq	(%rdx), %rax
	cmoveq	%rcx, %rsi
	movq	(%rsi), %rdx
	movzbl	16(%r14), %esi
	jmp	93f
79:
	xorps	%xmm0, %xmm0
	leaq	140(%rsp), %r13
	movups	%xmm0, -20(%r13)
	movl	$0, 32(%r13)
	movl	$0, 29(%r13)
	leaq	32(%rsp), %rax
	movq	%rax, 112(%rsp)
	movl	$32, 136(%rsp)
	movl	$0, 8(%r13)
	movq	$0, (%r13)
	movq	$-1, 152(%rsp)
	movq	$0, 160(%rsp)
	movb	$0, 168(%rsp)
	movq	12(%r13), %rax
	movq	%rax, 304(%rsp)
	movl	-4(%r13), %eax
	movl	%eax, 288(%rsp)
	movq	(%r13), %rax
	movq	%rax, 292(%rsp)
	movl	8(%r13), %eax
	movl	%eax, 300(%rsp)
	movl	$32, 136(%rsp)
	movl	$0, 8(%r13)
	movq	$0, (%r13)
	movq	$-1, 152(%rsp)
	movq	$0, 416(%rsp)
	movq	%r14, 408(%rsp)
	leaq	408(%rsp), %rdi
	leaq	112(%rsp), %rsi
	callq	"clap::builder::arg::StylizedDisplay::fmt::<#86a172efa8724158>"
	movq	304(%rsp), %rcx
	movq	%rcx, 12(%r13)
	movaps	288(%rsp), %xmm0
	movups	%xmm0, -4(%r13)
	testb	%al, %al
	jne	106f
	movq	112(%rsp), %r8
	movq	120(%rsp), %rcx
	xorl	%eax, %eax
	testq	%rcx, %rcx
	je	82f
	movq	%r8, %rdx
	jmp	81f
	.p2align	4
80:
	addq	%rsi, %rdx
	incq	%rax
	subq	%rsi, %rcx
	je	82f
81:
	movzbl	(%rdx), %edi
	movl	$1, %esi
	testb	%dil, %dil
	jns	80b
	movl	$2, %esi
	cmpb	$-32, %dil
	jb	80b
	cmpb	$-16, %dil
	movl	$4, %esi
	sbbq	$0, %rsi
	jmp	80b
82:
	cmpb	$1, 72(%r14)
	movq	272(%rsp), %rcx
	movq	%r8, 344(%rsp)
	je	83f
	cmpb	$1, 64(%r14)
	movq	336(%rsp), %rcx
	jne	84f
83:
	addq	$4, %rax
	movq	$-1, %rdx
	cmovaeq	%rax, %rdx
	xorl	%ebp, %ebp
	subq	%rdx, %rcx
	cmovaeq	%rcx, %rbp
	movq	128(%rsp), %r13
	testq	%rbp, %rbp
	jne	85f
	jmp	89f
84:
	xorl	%ebp, %ebp
	movq	272(%rsp), %rcx
	subq	%rax, %rcx
	cmovaeq	%rcx, %rbp
	movq	128(%rsp), %r13
	testq	%rbp, %rbp
	je	89f
85:
	movq	24(%rbx), %rax
	movq	32(%rbx), %rcx
	jmp	88f
86:
	movq	24(%rbx), %rax
	movq	32(%rbx), %rcx
	.p2align	4
87:
	movq	16(%rbx), %rdx
	movb	$32, (%rdx,%rax)
	incq	%rax
	movq	%rdx, 16(%rbx)
	movq	%rax, 24(%rbx)
	movq	%rcx, 32(%rbx)
	decq	%rbp
	je	89f
88:
	cmpq	%rax, %rcx
	jne	87b
	movl	$1, %esi
	leaq	16(%rbx), %rdi
	callq	"std_alloc::vec::Vec::grow_amortized::<#1d775b5957dec42c>"
	testb	%al, %al
	jne	86b
	movb	$1, %bpl
	testq	%r13, %r13
	jne	90f
	jmp	91f
89:
	xorl	%ebp, %ebp
	testq	%r13, %r13
	je	91f
90:
	movq	344(%rsp), %rdi
	callq	rattle_dealloc@PLT
91:
	testb	%bpl, %bpl
	movq	208(%rsp), %r13
	jne	107f
	movzbl	8(%rbx), %eax
	testb	%al, %al
	jne	78b
92:
	leaq	24(%r14), %rax
	leaq	32(%r14), %rcx
	leaq	48(%r14), %rdx
	leaq	56(%r14), %rsi
	cmpb	$1, 16(%r14)
	cmoveq	%rax, %rdx
	movq	(%rdx), %rax
	cmoveq	%rcx, %rsi
	movq	(%rsi), %rdx
	movzbl	40(%r14), %esi
93:
	movl	$1, %ecx
	cmovnel	%esi, %ecx
	xorl	%r8d, %r8d
	cmpb	$1, %cl
	leaq	.L22d5119de29e(%rip), %rcx
	cmoveq	%rax, %rcx
	cmoveq	%rdx, %r8
	movq	200(%rsp), %rax
	movq	%rax, 16(%rsp)
	movzbl	48(%rsp), %eax
	movl	%eax, 8(%rsp)
	movq	360(%rsp), %rax
	movq	%rax, (%rsp)
	movq	%rbx, %rdi
	movl	$1, %esi
	movq	%r14, %rdx
	movq	56(%rsp), %r14
	movq	%r14, %r9
	callq	"clap::output::help::Help::help"
	movl	%eax, %ebp
	cmpq	$0, 40(%rsp)
	je	60b
	movq	%r14, %rdi
	callq	rattle_dealloc@PLT
	jmp	60b
94:
	movl	$1, %esi
	leaq	16(%rbx), %rdi
	callq	"std_alloc::vec::Vec::grow_amortized::<#1d775b5957dec42c>"
	testb	%al, %al
	je	109f
	movq	24(%rbx), %rax
	movq	32(%rbx), %rcx
	jmp	65b
95:
	movl	$2, %esi
	leaq	16(%rbx), %rdi
	callq	"std_alloc::vec::Vec::grow_amortized::<#1d775b5957dec42c>"
	testb	%al, %al
	je	102f
	movq	24(%rbx), %rax
	movq	32(%rbx), %rcx
	jmp	71b
96:
	movl	$1, %esi
	leaq	16(%rbx), %rdi
	callq	"std_alloc::vec::Vec::grow_amortized::<#1d775b5957dec42c>"
	testb	%al, %al
	je	109f
	movq	16(%rbx), %rdx
	movq	24(%rbx), %rax
	movq	32(%rbx), %rcx
	jmp	66b
97:
	movl	$4, %esi
	leaq	16(%rbx), %rdi
	callq	"std_alloc::vec::Vec::grow_amortized::<#1d775b5957dec42c>"
	testb	%al, %al
	je	102f
	movq	16(%rbx), %rdx
	movq	24(%rbx), %rax
	movq	32(%rbx), %rcx
	jmp	73b
98:
	movl	$2, %esi
	leaq	16(%rbx), %rdi
	callq	"std_alloc::vec::Vec::grow_amortized::<#1d775b5957dec42c>"
	testb	%al, %al
	je	107f
	movq	24(%rbx), %rax
	movq	32(%rbx), %rcx
	jmp	75b
99:
	movq	24(%rbx), %rax
	testq	%r13, %r13
	je	103f
	cmpq	%rax, %r13
	je	103f
	cmpq	%r13, %rax
	movq	56(%rsp), %rdi
	jb	105f
	jbe	105f
	movq	16(%rbx), %rax
	cmpb	$-65, (%rax,%r13)
	jg	104f
	jmp	105f
100:
	cmpb	$1, 176(%rsp)
	jne	101f
	movq	184(%rsp), %rdi
	callq	"std_collections::btree::node::Node::destroy::<#f262a4084ccbf4f6>"
101:
	xorl	%ebx, %ebx
	jmp	110f
102:
	testq	%r13, %r13
	movq	56(%rsp), %rdi
	jne	108f
	jmp	109f
103:
	cmpq	%r13, %rax
	movq	56(%rsp), %rdi
	jbe	105f
104:
	movq	%r13, 24(%rbx)
105:
	cmpq	$0, 40(%rsp)
	jne	108f
	jmp	109f
106:
	cmpq	$0, 128(%rsp)
	je	107f
	movq	112(%rsp), %rdi
	callq	rattle_dealloc@PLT
107:
	cmpq	$0, 40(%rsp)
	movq	56(%rsp), %rdi
	je	109f
108:
	callq	rattle_dealloc@PLT
109:
	movb	$1, %bl
	cmpb	$1, 176(%rsp)
	jne	110f
	movq	184(%rsp), %rdi
	callq	"std_collections::btree::node::Node::destroy::<#f262a4084ccbf4f6>"
110:
	movl	%ebx, %eax
	addq	$504, %rsp
	popq	%rbx
	popq	%r12
	popq	%r13
	popq	%r14
	popq	%r15
	popq	%rbp
	retq
111:
	cmpq	$0, 128(%rsp)
	je	109b
	movq	112(%rsp), %rdi
	jmp	108b
112:
	cmpq	$0, 480(%rsp)
	je	113f
	movq	464(%rsp), %rdi
	callq	rattle_dealloc@PLT
113:
	cmpq	$0, 64(%rsp)
	je	109b
	movq	%rbp, %rdi
	jmp	108b
114:
	cmpq	$0, 96(%rsp)
	je	115f
	movq	80(%rsp), %rdi
	callq	rattle_dealloc@PLT
115:
	cmpq	$0, 64(%rsp)
	je	109b
	movq	56(%rsp), %rdi
	jmp	108b
116:
	.size	"clap::output::help::Help::write_args", 116b-"clap::output::help::Help::write_args"

	.text
	.p2align	4
	.type	"clap::output::help::add_spec",@function
"clap::output::help::add_spec":
	movq	8(%rdi), %rax
	testq	%rax, %rax
	je	3f
	pushq	%r14
	pushq	%rbx
	pushq	%rax
	movq	16(%rdi), %rcx
	cmpq	%rax, %rcx
	je	4f
1:
	leaq	8(%rdi), %rdx
	movq	(%rdi), %r8
	xorps	%xmm0, %xmm0
	movups	%xmm0, (%rdx)
	movzbl	(%rsi), %edx
	movb	%dl, (%r8,%rax)
	incq	%rax
	movq	%r8, (%rdi)
	movq	%rax, 8(%rdi)
	movq	%rcx, 16(%rdi)
	xorl	%eax, %eax
2:
	addq	$8, %rsp
	popq	%rbx
	popq	%r14
	retq
3:
	xorl	%eax, %eax
	retq
4:
	movq	%rsi, %rbx
	movl	$1, %esi
	movq	%rdi, %r14
	callq	"std_alloc::vec::Vec::grow_amortized::<#1d775b5957dec42c>"
	movl	%eax, %ecx
	movb	$1, %al
	testb	%cl, %cl
	je	2b
	movq	%r14, %rdi
	movq	8(%r14), %rax
	movq	16(%r14), %rcx
	movq	%rbx, %rsi
	jmp	1b
5:
	.size	"clap::output::help::add_spec", 5b-"clap::output::help::add_spec"

	.section	.rodata.cst16,"aM",@progbits,16
	.p2align	4, 0x0
1:
	.long	4294967295,4294967295,4294967295,2097150
2:
	.long	133,160,5760,8232
	.text
	.p2align	4
	.type	"clap::output::help::render",@function
"clap::output::help::render":
	pushq	%rbp
	pushq	%r15
	pushq	%r14
	pushq	%r13
	pushq	%r12
	pushq	%rbx
	subq	$232, %rsp
	movq	%rsi, %r14
	movq	%rdi, %rbp
	xorps	%xmm0, %xmm0
	movups	%xmm0, 175(%rsp)
	movaps	%xmm0, 160(%rsp)
	movq	$0, 24(%rsp)
	movaps	%xmm0, 128(%rsp)
	movq	$0, 144(%rsp)
	movq	%rsi, 16(%rsp)
	movb	%dl, 24(%rsp)
	leaq	8(%rsp), %rbx
	movq	%rbx, 32(%rsp)
	movups	%xmm0, 40(%rsp)
	cmpb	$1, 456(%rsi)
	jne	9f
	movq	464(%r14), %rsi
	movq	472(%r14), %rdx
	movq	40(%rsp), %rax
	movq	48(%rsp), %rbx
	movq	%rbx, %rcx
	subq	%rax, %rcx
	cmpq	%rcx, %rdx
	ja	61f
	leaq	8(%rsp), %r14
3:
	leaq	(%rax,%rdx), %r15
	leaq	(%r14,%rax), %rdi
	movq	%rdi, %rcx
	subq	%rsi, %rcx
	cmpq	%rdx, %rcx
	jae	18f
	cmpq	$4, %rdx
	jb	4f
	cmpq	$32, %rcx
	jae	47f
4:
	xorl	%ecx, %ecx
5:
	movq	%rdx, %r9
	movq	%rcx, %r8
	andq	$3, %r9
	je	7f
	movq	%rcx, %r8
	.p2align	4
6:
	movzbl	(%rsi,%r8), %r10d
	movb	%r10b, (%rdi,%r8)
	incq	%r8
	decq	%r9
	jne	6b
7:
	subq	%rdx, %rcx
	cmpq	$-4, %rcx
	ja	19f
	addq	%r14, %rax
	addq	$3, %rax
	.p2align	4
8:
	movzbl	(%rsi,%r8), %ecx
	movb	%cl, -3(%rax,%r8)
	movzbl	1(%rsi,%r8), %ecx
	movb	%cl, -2(%rax,%r8)
	movzbl	2(%rsi,%r8), %ecx
	movb	%cl, -1(%rax,%r8)
	movzbl	3(%rsi,%r8), %ecx
	movb	%cl, (%rax,%r8)
	addq	$4, %r8
	cmpq	%r8, %rdx
	jne	8b
	jmp	19f
9:
	movq	584(%r14), %rax
	testq	%rax, %rax
	je	16f
	movl	$599, %ecx
	addq	576(%r14), %rcx
	jmp	11f
	.p2align	4
10:
	decq	%rax
	addq	$608, %rcx
	testq	%rax, %rax
	je	16f
11:
	cmpb	$0, -5(%rcx)
	jne	10b
	testb	%dl, %dl
	je	12f
	cmpb	$0, -1(%rcx)
	je	36f
12:
	movb	$1, %r13b
	movzbl	-2(%rcx), %esi
	orb	%dl, %sil
	je	13f
	cmpb	$0, (%rcx)
	je	10b
13:
	testb	%dl, %dl
	je	17f
14:
	movb	$1, %r15b
	cmpb	$1, 288(%r14)
	jne	37f
15:
	leaq	296(%r14), %rcx
	leaq	304(%r14), %rax
	jmp	39f
16:
	xorl	%r13d, %r13d
	testb	%dl, %dl
	jne	14b
17:
	xorl	%r15d, %r15d
	cmpb	$1, 264(%r14)
	je	38f
	jmp	63f
18:
	callq	memmove@PLT
19:
	movq	%r14, 32(%rsp)
	movq	%r15, 40(%rsp)
	movq	%rbx, 48(%rsp)
20:
	movq	32(%rsp), %r12
	movq	40(%rsp), %r15
	movq	48(%rsp), %rbx
	xorps	%xmm0, %xmm0
	movaps	%xmm0, 80(%rsp)
	movq	$0, 96(%rsp)
	leaq	80(%rsp), %rdi
	movl	$10, %esi
	movq	%r12, %rdx
	movq	%r15, %rcx
	callq	"core::iter::pattern::CharPattern::first_in"
	cmpb	$1, 80(%rsp)
	jne	22f
	movq	88(%rsp), %rsi
	xorl	%eax, %eax
	testq	%rsi, %rsi
	jne	30f
21:
	movq	96(%rsp), %r13
	leaq	(%r12,%rax), %rdi
	subq	%rax, %rsi
	callq	"core::iter::words::str::trim_end"
	testq	%rdx, %rdx
	je	35f
22:
	movq	%r12, %r14
23:
	movq	%r14, %rdi
	movq	%r15, %rsi
	callq	"core::iter::words::str::trim_end"
	movq	%rax, %r12
	movq	%rdx, %r15
	testq	%rdx, %rdx
	je	73f
	js	24f
	movl	$1, %esi
	movq	%r15, %rdi
	callq	rattle_alloc@PLT
	testb	$1, %al
	jne	74f
24:
	leaq	167(%rsp), %r15
	xorps	%xmm0, %xmm0
	movups	%xmm0, 167(%rsp)
	movq	$0, 183(%rsp)
	testq	%rbx, %rbx
	je	26f
25:
	movq	%r14, %rdi
	callq	rattle_dealloc@PLT
26:
	movb	$1, (%rbp)
27:
	movups	(%r15), %xmm0
	movups	%xmm0, 8(%rbp)
	movq	16(%r15), %rax
	movq	%rax, 24(%rbp)
	jmp	162f
	.p2align	4
28:
	leal	-9(%rcx), %edi
	cmpl	$5, %edi
	jae	32f
29:
	addq	%rdx, %rax
	cmpq	%rsi, %rax
	jae	21b
30:
	movzbl	(%r12,%rax), %ecx
	movl	$1, %edx
	testb	%cl, %cl
	jns	28b
	movzbl	1(%r12,%rax), %edi
	andl	$63, %edi
	cmpb	$-33, %cl
	ja	31f
	andl	$31, %ecx
	shll	$6, %ecx
	orl	%edi, %ecx
	movl	$2, %edx
	cmpl	$127, %ecx
	jbe	28b
	jmp	34f
31:
	movzbl	2(%r12,%rax), %r8d
	andl	$63, %r8d
	cmpb	$-17, %cl
	ja	33f
	shll	$12, %ecx
	movzwl	%cx, %ecx
	shll	$6, %edi
	orl	%ecx, %edi
	orl	%r8d, %edi
	movl	$3, %edx
	movl	%edi, %ecx
	cmpl	$127, %ecx
	jbe	28b
	jmp	34f
32:
	cmpl	$32, %ecx
	je	29b
	jmp	21b
33:
	movzbl	3(%r12,%rax), %edx
	andl	$63, %edx
	andl	$7, %ecx
	shll	$18, %ecx
	shll	$12, %edi
	orl	%ecx, %edi
	shll	$6, %r8d
	orl	%edi, %r8d
	orl	%edx, %r8d
	movl	$4, %edx
	movl	%r8d, %ecx
	cmpl	$127, %ecx
	jbe	28b
34:
	movd	%ecx, %xmm0
	pshufd	$0, %xmm0, %xmm0
	pand	1b(%rip), %xmm0
	pcmpeqd	2b(%rip), %xmm0
	movmskps	%xmm0, %edi
	testl	%edi, %edi
	jne	29b
	cmpl	$8239, %ecx
	je	29b
	cmpl	$8287, %ecx
	je	29b
	cmpl	$12288, %ecx
	je	29b
	addl	$-8192, %ecx
	cmpl	$10, %ecx
	jbe	29b
	jmp	21b
35:
	subq	%r13, %r15
	je	55f
	js	54f
	movl	$1, %esi
	movq	%r15, %rdi
	callq	rattle_alloc@PLT
	testb	$1, %al
	je	54f
	movq	%rdx, %r14
	jmp	56f
36:
	movb	$1, %r13b
	movb	$1, %r15b
	cmpb	$1, 288(%r14)
	je	15b
37:
	cmpb	$1, 264(%r14)
	jne	46f
38:
	leaq	280(%r14), %rax
	leaq	272(%r14), %rcx
39:
	movq	(%rcx), %rsi
	movq	(%rax), %rdx
	xorps	%xmm0, %xmm0
	movaps	%xmm0, 96(%rsp)
	movaps	%xmm0, 80(%rsp)
	leaq	80(%rsp), %rdi
	callq	"clap::output::help::with_lines"
	cmpb	$0, 80(%rsp)
	jne	160f
	movl	%r15d, 68(%rsp)
	movq	88(%rsp), %r15
	movq	96(%rsp), %rdx
	movq	104(%rsp), %r10
	movq	40(%rsp), %rax
	movq	48(%rsp), %r12
	movq	%r12, %rcx
	subq	%rax, %rcx
	cmpq	%rcx, %rdx
	movq	%rbp, 72(%rsp)
	ja	92f
	leaq	8(%rsp), %rbp
40:
	leaq	(%rax,%rdx), %r11
	leaq	(%rax,%rbp), %rdi
	movq	%rdi, %rcx
	subq	%r15, %rcx
	cmpq	%rdx, %rcx
	jae	48f
	cmpq	$4, %rdx
	jb	41f
	cmpq	$32, %rcx
	jae	86f
41:
	xorl	%ecx, %ecx
42:
	movq	%rdx, %r8
	movq	%rcx, %rsi
	andq	$3, %r8
	je	44f
	movq	%rcx, %rsi
	.p2align	4
43:
	movzbl	(%r15,%rsi), %r9d
	movb	%r9b, (%rdi,%rsi)
	incq	%rsi
	decq	%r8
	jne	43b
44:
	subq	%rdx, %rcx
	cmpq	$-4, %rcx
	ja	49f
	addq	%rbp, %rax
	addq	$3, %rax
	.p2align	4
45:
	movzbl	(%r15,%rsi), %ecx
	movb	%cl, -3(%rax,%rsi)
	movzbl	1(%r15,%rsi), %ecx
	movb	%cl, -2(%rax,%rsi)
	movzbl	2(%r15,%rsi), %ecx
	movb	%cl, -1(%rax,%rsi)
	movzbl	3(%r15,%rsi), %ecx
	movb	%cl, (%rax,%rsi)
	addq	$4, %rsi
	cmpq	%rsi, %rdx
	jne	45b
	jmp	49f
46:
	leaq	8(%rsp), %rbx
	jmp	53f
47:
	cmpq	$32, %rdx
	jae	57f
	xorl	%ecx, %ecx
	jmp	59f
48:
	movq	%r15, %rsi
	movq	%r10, %rbx
	movq	%rbp, 56(%rsp)
	movq	%r12, %rbp
	movq	%r11, %r12
	callq	memmove@PLT
	movq	%r12, %r11
	movq	%rbp, %r12
	movq	56(%rsp), %rbp
	movq	%rbx, %r10
49:
	movq	%rbp, 32(%rsp)
	movq	%r11, 40(%rsp)
	movq	%r12, 48(%rsp)
	movb	$1, %bl
	movq	72(%rsp), %rbp
	testq	%r10, %r10
	je	51f
50:
	movq	%r15, %rdi
	callq	rattle_dealloc@PLT
51:
	testb	%bl, %bl
	je	160f
	movq	40(%rsp), %rax
	movq	48(%rsp), %rcx
	movq	%rcx, %rdx
	subq	%rax, %rdx
	cmpq	$1, %rdx
	jbe	137f
52:
	movq	32(%rsp), %rbx
	movw	$2570, (%rbx,%rax)
	addq	$2, %rax
	movq	%rbx, 32(%rsp)
	movq	%rax, 40(%rsp)
	movq	%rcx, 48(%rsp)
	cmpb	$0, 68(%rsp)
	je	62f
53:
	movb	$1, %r15b
	cmpb	$1, 240(%r14)
	jne	63f
	leaq	248(%r14), %rcx
	leaq	256(%r14), %rax
	jmp	64f
54:
	xorl	%r13d, %r13d
	xorl	%r14d, %r14d
	xorl	%r15d, %r15d
	jmp	145f
55:
	leaq	8(%rsp), %r14
56:
	leaq	(%r12,%r13), %rsi
	movq	%r14, %rax
	subq	%rsi, %rax
	cmpq	%r15, %rax
	jae	72f
	cmpq	$4, %r15
	jae	87f
	xorl	%eax, %eax
	jmp	143f
57:
	movq	%rdx, %rcx
	andq	$-32, %rcx
	leaq	(%rax,%r14), %r8
	addq	$16, %r8
	xorl	%r9d, %r9d
	.p2align	4
58:
	movups	(%rsi,%r9), %xmm0
	movups	16(%rsi,%r9), %xmm1
	movups	%xmm0, -16(%r8,%r9)
	movups	%xmm1, (%r8,%r9)
	addq	$32, %r9
	cmpq	%r9, %rcx
	jne	58b
	cmpq	%rcx, %rdx
	je	19b
	testb	$28, %dl
	je	5b
59:
	movq	%rcx, %r8
	movq	%rdx, %rcx
	andq	$-4, %rcx
	.p2align	4
60:
	movl	(%rsi,%r8), %r9d
	movl	%r9d, (%rdi,%r8)
	addq	$4, %r8
	cmpq	%r8, %rcx
	jne	60b
	cmpq	%rcx, %rdx
	je	19b
	jmp	5b
61:
	movq	%rsi, %r15
	leaq	32(%rsp), %rdi
	movq	%rdx, %r12
	movq	%rdx, %rsi
	callq	"std_alloc::vec::Vec::grow_amortized::<#1d775b5957dec42c>"
	testb	%al, %al
	je	160f
	movq	32(%rsp), %r14
	movq	40(%rsp), %rax
	movq	48(%rsp), %rbx
	movq	%r15, %rsi
	movq	%r12, %rdx
	jmp	3b
62:
	xorl	%r15d, %r15d
63:
	cmpb	$1, 216(%r14)
	jne	71f
	leaq	232(%r14), %rax
	leaq	224(%r14), %rcx
64:
	movq	(%rcx), %rsi
	movq	(%rax), %rdx
	xorps	%xmm0, %xmm0
	movaps	%xmm0, 96(%rsp)
	movaps	%xmm0, 80(%rsp)
	leaq	80(%rsp), %rdi
	callq	"clap::output::help::with_lines"
	cmpb	$0, 80(%rsp)
	jne	160f
	movl	%r15d, 68(%rsp)
	movq	%rbp, 72(%rsp)
	movq	88(%rsp), %r15
	movq	96(%rsp), %rdx
	movq	104(%rsp), %r12
	movq	40(%rsp), %rax
	movq	48(%rsp), %rbp
	movq	%rbp, %rcx
	subq	%rax, %rcx
	cmpq	%rcx, %rdx
	ja	151f
65:
	leaq	(%rax,%rdx), %r11
	leaq	(%rbx,%rax), %rdi
	movq	%rdi, %rcx
	subq	%r15, %rcx
	cmpq	%rdx, %rcx
	jae	75f
	cmpq	$4, %rdx
	jb	66f
	cmpq	$32, %rcx
	jae	95f
66:
	xorl	%ecx, %ecx
67:
	movq	%rdx, %r8
	movq	%rcx, %rsi
	andq	$3, %r8
	je	69f
	movq	%rcx, %rsi
	.p2align	4
68:
	movzbl	(%r15,%rsi), %r9d
	movb	%r9b, (%rdi,%rsi)
	incq	%rsi
	decq	%r8
	jne	68b
69:
	subq	%rdx, %rcx
	cmpq	$-4, %rcx
	ja	76f
	addq	%rbx, %rax
	addq	$3, %rax
	.p2align	4
70:
	movzbl	(%r15,%rsi), %ecx
	movb	%cl, -3(%rax,%rsi)
	movzbl	1(%r15,%rsi), %ecx
	movb	%cl, -2(%rax,%rsi)
	movzbl	2(%r15,%rsi), %ecx
	movb	%cl, -1(%rax,%rsi)
	movzbl	3(%r15,%rsi), %ecx
	movb	%cl, (%rax,%rsi)
	addq	$4, %rsi
	cmpq	%rsi, %rdx
	jne	70b
	jmp	76f
71:
	movl	%r15d, 68(%rsp)
	movq	40(%rsp), %rcx
	movq	48(%rsp), %r12
	movq	%r12, %rax
	subq	%rcx, %rax
	cmpq	$7, %rax
	ja	80f
	jmp	93f
72:
	movq	%r14, %rdi
	movq	%r15, %rdx
	callq	memmove@PLT
	jmp	144f
73:
	leaq	8(%rsp), %rdx
74:
	movq	%rdx, %rcx
	subq	%r12, %rcx
	cmpq	%r15, %rcx
	jae	84f
	xorl	%eax, %eax
	cmpq	$4, %r15
	jb	100f
	cmpq	$32, %rcx
	jb	100f
	cmpq	$32, %r15
	jae	96f
	xorl	%eax, %eax
	jmp	98f
75:
	movq	%r15, %rsi
	movq	%rbp, 56(%rsp)
	movq	%r11, %rbp
	callq	memmove@PLT
	movq	%rbp, %r11
	movq	56(%rsp), %rbp
76:
	movq	%rbx, 32(%rsp)
	movq	%r11, 40(%rsp)
	movq	%rbp, 48(%rsp)
	movb	$1, %bl
	testq	%r12, %r12
	movq	72(%rsp), %rbp
	je	78f
77:
	movq	%r15, %rdi
	callq	rattle_dealloc@PLT
78:
	testb	%bl, %bl
	je	160f
	movq	40(%rsp), %rcx
	movq	48(%rsp), %r12
	cmpq	%rcx, %r12
	je	157f
79:
	movq	32(%rsp), %rbx
	movb	$10, (%rbx,%rcx)
	incq	%rcx
	movq	%rbx, 32(%rsp)
	movq	%rcx, 40(%rsp)
	movq	%r12, 48(%rsp)
	movq	%r12, %rax
	subq	%rcx, %rax
	cmpq	$7, %rax
	jbe	93f
80:
	movabsq	$2322280052553897226, %rax
	movq	%rax, (%rbx,%rcx)
	addq	$8, %rcx
	movq	%rbx, 32(%rsp)
	movq	%rcx, 56(%rsp)
	movq	%rcx, 40(%rsp)
	movq	%r12, 48(%rsp)
	xorps	%xmm0, %xmm0
	movups	%xmm0, 216(%rsp)
	leaq	8(%rsp), %r15
	movq	%r15, 80(%rsp)
	movups	%xmm0, 88(%rsp)
	movq	$0, 208(%rsp)
	leaq	80(%rsp), %rsi
	leaq	208(%rsp), %r8
	movq	%r14, %rdi
	movq	%r15, %rdx
	xorl	%ecx, %ecx
	callq	"clap::output::usage::write_usage"
	testb	%al, %al
	je	81f
	cmpq	$0, 96(%rsp)
	je	160f
	movq	80(%rsp), %rdi
	callq	rattle_dealloc@PLT
	jmp	160f
81:
	movq	%r12, 120(%rsp)
	movq	%rbp, 72(%rsp)
	movq	80(%rsp), %rdi
	movq	88(%rsp), %rsi
	movq	%rdi, 200(%rsp)
	callq	"core::iter::words::str::trim_end"
	movq	%rax, %rbp
	movq	%rdx, %r12
	testq	%rdx, %rdx
	je	82f
	js	83f
	movl	$1, %esi
	movq	%r12, %rdi
	callq	rattle_alloc@PLT
	testb	$1, %al
	je	83f
	movq	%rdx, %r15
82:
	movq	%r15, %rcx
	subq	%rbp, %rcx
	cmpq	%r12, %rcx
	jae	85f
	xorl	%eax, %eax
	cmpq	$4, %r12
	jb	112f
	cmpq	$32, %rcx
	jb	112f
	cmpq	$32, %r12
	jae	108f
	xorl	%eax, %eax
	jmp	110f
83:
	cmpq	$0, 96(%rsp)
	movq	72(%rsp), %rbp
	je	160f
	movq	200(%rsp), %rdi
	callq	rattle_dealloc@PLT
	jmp	160f
84:
	movq	%rdx, %rdi
	movq	%r12, %rsi
	movq	%rdx, %r12
	movq	%r15, %rdx
	callq	memmove@PLT
	movq	%r12, %rdx
	jmp	104f
85:
	movq	%r15, %rdi
	movq	%rbp, %rsi
	movq	%r12, %rdx
	callq	memmove@PLT
	jmp	116f
86:
	cmpq	$32, %rdx
	jae	88f
	xorl	%ecx, %ecx
	jmp	90f
87:
	cmpq	$32, %rax
	jae	94f
	xorl	%eax, %eax
	jmp	143f
88:
	movq	%rdx, %rcx
	andq	$-32, %rcx
	leaq	(%rax,%rbp), %rsi
	addq	$16, %rsi
	xorl	%r8d, %r8d
	.p2align	4
89:
	movups	(%r15,%r8), %xmm0
	movups	16(%r15,%r8), %xmm1
	movups	%xmm0, -16(%rsi,%r8)
	movups	%xmm1, (%rsi,%r8)
	addq	$32, %r8
	cmpq	%r8, %rcx
	jne	89b
	cmpq	%rcx, %rdx
	je	49b
	testb	$28, %dl
	je	42b
90:
	movq	%rcx, %rsi
	movq	%rdx, %rcx
	andq	$-4, %rcx
	.p2align	4
91:
	movl	(%r15,%rsi), %r8d
	movl	%r8d, (%rdi,%rsi)
	addq	$4, %rsi
	cmpq	%rsi, %rcx
	jne	91b
	cmpq	%rcx, %rdx
	je	49b
	jmp	42b
92:
	movq	%r10, 56(%rsp)
	leaq	32(%rsp), %rdi
	movq	%rdx, %rbx
	movq	%rdx, %rsi
	callq	"std_alloc::vec::Vec::grow_amortized::<#1d775b5957dec42c>"
	testb	%al, %al
	je	138f
	movq	32(%rsp), %rbp
	movq	40(%rsp), %rax
	movq	48(%rsp), %r12
	movq	%rbx, %rdx
	movq	56(%rsp), %r10
	jmp	40b
93:
	leaq	32(%rsp), %rdi
	movl	$8, %esi
	callq	"std_alloc::vec::Vec::grow_amortized::<#1d775b5957dec42c>"
	testb	%al, %al
	je	160f
	movq	32(%rsp), %rbx
	movq	40(%rsp), %rcx
	movq	48(%rsp), %r12
	jmp	80b
94:
	cmpq	$32, %r15
	jae	139f
	xorl	%eax, %eax
	jmp	141f
95:
	cmpq	$32, %rdx
	jae	147f
	xorl	%ecx, %ecx
	jmp	149f
96:
	movq	%r15, %rax
	andq	$-32, %rax
	xorl	%ecx, %ecx
	.p2align	4
97:
	movups	(%r12,%rcx), %xmm0
	movups	16(%r12,%rcx), %xmm1
	movups	%xmm0, (%rdx,%rcx)
	movups	%xmm1, 16(%rdx,%rcx)
	addq	$32, %rcx
	cmpq	%rcx, %rax
	jne	97b
	cmpq	%rax, %r15
	je	104f
	testb	$28, %r15b
	je	100f
98:
	movq	%rax, %rcx
	movq	%r15, %rax
	andq	$-4, %rax
	.p2align	4
99:
	movl	(%r12,%rcx), %esi
	movl	%esi, (%rdx,%rcx)
	addq	$4, %rcx
	cmpq	%rcx, %rax
	jne	99b
	cmpq	%rax, %r15
	je	104f
100:
	movq	%r15, %rsi
	movq	%rax, %rcx
	andq	$3, %rsi
	je	102f
	movq	%rax, %rcx
	.p2align	4
101:
	movzbl	(%r12,%rcx), %edi
	movb	%dil, (%rdx,%rcx)
	incq	%rcx
	decq	%rsi
	jne	101b
102:
	subq	%r15, %rax
	cmpq	$-4, %rax
	ja	104f
	.p2align	4
103:
	movzbl	(%r12,%rcx), %eax
	movb	%al, (%rdx,%rcx)
	movzbl	1(%r12,%rcx), %eax
	movb	%al, 1(%rdx,%rcx)
	movzbl	2(%r12,%rcx), %eax
	movb	%al, 2(%rdx,%rcx)
	movzbl	3(%r12,%rcx), %eax
	movb	%al, 3(%rdx,%rcx)
	addq	$4, %rcx
	cmpq	%rcx, %r15
	jne	103b
104:
	movq	%rdx, 128(%rsp)
	movq	%r15, 136(%rsp)
	movq	%r15, 144(%rsp)
	leaq	128(%rsp), %rdi
	movl	$1, %esi
	callq	"std_alloc::vec::Vec::grow_amortized::<#1d775b5957dec42c>"
	testb	%al, %al
	je	106f
	movq	128(%rsp), %rax
	movq	136(%rsp), %rcx
	movb	$10, (%rax,%rcx)
	incq	%rcx
	movq	%rcx, 136(%rsp)
	leaq	167(%rsp), %r15
	movq	144(%rsp), %rax
	movq	%rax, 183(%rsp)
	movq	128(%rsp), %rax
	movq	%rax, 167(%rsp)
	movq	136(%rsp), %rax
	movq	%rax, 175(%rsp)
	testq	%rbx, %rbx
	je	105f
	movq	%r14, %rdi
	callq	rattle_dealloc@PLT
105:
	movb	$0, (%rbp)
	jmp	27b
106:
	xorps	%xmm0, %xmm0
	movups	%xmm0, 167(%rsp)
	movq	$0, 183(%rsp)
	cmpq	$0, 144(%rsp)
	je	107f
	movq	128(%rsp), %rdi
	callq	rattle_dealloc@PLT
107:
	leaq	167(%rsp), %r15
	testq	%rbx, %rbx
	jne	25b
	jmp	26b
108:
	movq	%r12, %rax
	andq	$-32, %rax
	xorl	%ecx, %ecx
109:
	movups	(%rbp,%rcx), %xmm0
	movups	16(%rbp,%rcx), %xmm1
	movups	%xmm0, (%r15,%rcx)
	movups	%xmm1, 16(%r15,%rcx)
	addq	$32, %rcx
	cmpq	%rcx, %rax
	jne	109b
	cmpq	%rax, %r12
	je	116f
	testb	$28, %r12b
	je	112f
110:
	movq	%rax, %rcx
	movq	%r12, %rax
	andq	$-4, %rax
111:
	movl	(%rbp,%rcx), %edx
	movl	%edx, (%r15,%rcx)
	addq	$4, %rcx
	cmpq	%rcx, %rax
	jne	111b
	cmpq	%rax, %r12
	je	116f
112:
	movq	%r12, %rdx
	movq	%rax, %rcx
	andq	$3, %rdx
	je	114f
	movq	%rax, %rcx
	.p2align	4
113:
	movzbl	(%rbp,%rcx), %esi
	movb	%sil, (%r15,%rcx)
	incq	%rcx
	decq	%rdx
	jne	113b
114:
	subq	%r12, %rax
	cmpq	$-4, %rax
	ja	116f
115:
	movzbl	(%rbp,%rcx), %eax
	movb	%al, (%r15,%rcx)
	movzbl	1(%rbp,%rcx), %eax
	movb	%al, 1(%r15,%rcx)
	movzbl	2(%rbp,%rcx), %eax
	movb	%al, 2(%r15,%rcx)
	movzbl	3(%rbp,%rcx), %eax
	movb	%al, 3(%r15,%rcx)
	addq	$4, %rcx
	cmpq	%rcx, %r12
	jne	115b
116:
	cmpq	$0, 96(%rsp)
	je	117f
	movq	200(%rsp), %rdi
	callq	rattle_dealloc@PLT
117:
	movq	120(%rsp), %rax
	movq	56(%rsp), %rcx
	subq	%rcx, %rax
	cmpq	%rax, %r12
	ja	156f
118:
	leaq	40(%rsp), %rax
	leaq	(%rcx,%r12), %rbp
	xorps	%xmm0, %xmm0
	movups	%xmm0, (%rax)
	leaq	(%rbx,%rcx), %rdi
	movq	%rdi, %rax
	subq	%r15, %rax
	cmpq	%r12, %rax
	jae	125f
	cmpq	$4, %r12
	jb	119f
	cmpq	$32, %rax
	jae	136f
119:
	movq	%rcx, %r8
	xorl	%eax, %eax
120:
	movq	%r12, %rdx
	movq	%rax, %rcx
	andq	$3, %rdx
	je	122f
	movq	%rax, %rcx
	.p2align	4
121:
	movzbl	(%r15,%rcx), %esi
	movb	%sil, (%rdi,%rcx)
	incq	%rcx
	decq	%rdx
	jne	121b
122:
	subq	%r12, %rax
	cmpq	$-4, %rax
	ja	124f
	leaq	(%r8,%rbx), %rax
	addq	$3, %rax
	.p2align	4
123:
	movzbl	(%r15,%rcx), %edx
	movb	%dl, -3(%rax,%rcx)
	movzbl	1(%r15,%rcx), %edx
	movb	%dl, -2(%rax,%rcx)
	movzbl	2(%r15,%rcx), %edx
	movb	%dl, -1(%rax,%rcx)
	movzbl	3(%r15,%rcx), %edx
	movb	%dl, (%rax,%rcx)
	addq	$4, %rcx
	cmpq	%rcx, %r12
	jne	123b
124:
	movq	%rbx, 32(%rsp)
	movq	%rbp, 40(%rsp)
	movq	120(%rsp), %rax
	movq	%rax, 48(%rsp)
	jmp	126f
125:
	movq	%r15, %rsi
	movq	%r12, %rdx
	callq	memmove@PLT
	movq	%rbx, 32(%rsp)
	movq	%rbp, 40(%rsp)
	movq	120(%rsp), %rax
	movq	%rax, 48(%rsp)
	testq	%r12, %r12
	je	127f
126:
	movq	%r15, %rdi
	callq	rattle_dealloc@PLT
127:
	leaq	32(%rsp), %r15
	testb	%r13b, %r13b
	movq	72(%rsp), %rbp
	je	129f
128:
	leaq	.Lc353831ac29d(%rip), %rsi
	movl	$2, %edx
	movq	%r15, %rdi
	callq	"std_alloc::string::String::push_str::<#2cbb67ac55bf10f9>"
	testb	%al, %al
	jne	160f
	leaq	16(%rsp), %rdi
	callq	"clap::output::help::Help::write_all_args"
	testb	%al, %al
	jne	160f
	jmp	133f
129:
	movq	608(%r14), %rax
	testq	%rax, %rax
	je	133f
	movq	600(%r14), %rcx
	jmp	132f
130:
	cmpb	$1, 661(%rcx)
	jne	128b
131:
	addq	$672, %rcx
	decq	%rax
	je	133f
132:
	cmpq	$4, 8(%rcx)
	jne	130b
	movq	(%rcx), %rdx
	movl	(%rdx), %edx
	movq	%rdx, %rsi
	shlq	$32, %rsi
	orq	%rdx, %rsi
	movabsq	$8100961328969835880, %rdx
	cmpq	%rdx, %rsi
	jne	130b
	jmp	131b
133:
	cmpb	$0, 68(%rsp)
	je	134f
	cmpb	$1, 336(%r14)
	jne	134f
	leaq	344(%r14), %rax
	addq	$352, %r14
	jmp	135f
134:
	cmpb	$1, 312(%r14)
	jne	20b
	movq	%r14, %rax
	addq	$328, %r14
	addq	$320, %rax
135:
	movq	(%rax), %r12
	movq	(%r14), %r14
	leaq	.Lc353831ac29d(%rip), %rsi
	movl	$2, %edx
	movq	%r15, %rdi
	callq	"std_alloc::string::String::push_str::<#2cbb67ac55bf10f9>"
	testb	%al, %al
	jne	160f
	leaq	16(%rsp), %rdi
	movq	%r12, %rsi
	movq	%r14, %rdx
	callq	"clap::output::help::Help::push_lines"
	testb	%al, %al
	je	20b
	jmp	160f
136:
	cmpq	$32, %r12
	jae	152f
	movq	%rcx, %r8
	xorl	%eax, %eax
	jmp	154f
137:
	leaq	32(%rsp), %rdi
	movl	$2, %esi
	callq	"std_alloc::vec::Vec::grow_amortized::<#1d775b5957dec42c>"
	testb	%al, %al
	je	160f
	movq	40(%rsp), %rax
	movq	48(%rsp), %rcx
	jmp	52b
138:
	xorl	%ebx, %ebx
	movq	56(%rsp), %r10
	testq	%r10, %r10
	jne	50b
	jmp	51b
139:
	movq	%r15, %rax
	andq	$-32, %rax
	leaq	(%r12,%r13), %rcx
	addq	$16, %rcx
	xorl	%edx, %edx
140:
	movups	-16(%rcx,%rdx), %xmm0
	movups	(%rcx,%rdx), %xmm1
	movups	%xmm0, (%r14,%rdx)
	movups	%xmm1, 16(%r14,%rdx)
	addq	$32, %rdx
	cmpq	%rdx, %rax
	jne	140b
	movb	$1, %r13b
	cmpq	%rax, %r15
	je	145f
	testb	$28, %r15b
	je	143f
141:
	movq	%rax, %rcx
	movq	%r15, %rax
	andq	$-4, %rax
142:
	movl	(%rsi,%rcx), %edx
	movl	%edx, (%r14,%rcx)
	addq	$4, %rcx
	cmpq	%rcx, %rax
	jne	142b
	movb	$1, %r13b
	cmpq	%rax, %r15
	je	145f
	.p2align	4
143:
	movzbl	(%rsi,%rax), %ecx
	movb	%cl, (%r14,%rax)
	incq	%rax
	cmpq	%rax, %r15
	jne	143b
144:
	movb	$1, %r13b
145:
	testq	%rbx, %rbx
	je	146f
	movq	%r12, %rdi
	callq	rattle_dealloc@PLT
146:
	movq	%r15, %rbx
	testb	%r13b, %r13b
	jne	23b
	jmp	161f
147:
	movq	%rdx, %rcx
	andq	$-32, %rcx
	leaq	(%rax,%rbx), %rsi
	addq	$16, %rsi
	xorl	%r8d, %r8d
148:
	movups	(%r15,%r8), %xmm0
	movups	16(%r15,%r8), %xmm1
	movups	%xmm0, -16(%rsi,%r8)
	movups	%xmm1, (%rsi,%r8)
	addq	$32, %r8
	cmpq	%r8, %rcx
	jne	148b
	cmpq	%rcx, %rdx
	je	76b
	testb	$28, %dl
	je	67b
149:
	movq	%rcx, %rsi
	movq	%rdx, %rcx
	andq	$-4, %rcx
150:
	movl	(%r15,%rsi), %r8d
	movl	%r8d, (%rdi,%rsi)
	addq	$4, %rsi
	cmpq	%rsi, %rcx
	jne	150b
	cmpq	%rcx, %rdx
	je	76b
	jmp	67b
151:
	leaq	32(%rsp), %rdi
	movq	%rdx, 56(%rsp)
	movq	%rdx, %rsi
	callq	"std_alloc::vec::Vec::grow_amortized::<#1d775b5957dec42c>"
	testb	%al, %al
	je	158f
	movq	32(%rsp), %rbx
	movq	40(%rsp), %rax
	movq	48(%rsp), %rbp
	movq	56(%rsp), %rdx
	jmp	65b
152:
	movq	%r12, %rax
	andq	$-32, %rax
	movq	%rcx, %r8
	addq	%rbx, %rcx
	addq	$16, %rcx
	xorl	%edx, %edx
153:
	movups	(%r15,%rdx), %xmm0
	movups	16(%r15,%rdx), %xmm1
	movups	%xmm0, -16(%rcx,%rdx)
	movups	%xmm1, (%rcx,%rdx)
	addq	$32, %rdx
	cmpq	%rdx, %rax
	jne	153b
	cmpq	%rax, %r12
	je	124b
	testb	$28, %r12b
	je	120b
154:
	movq	%rax, %rcx
	movq	%r12, %rax
	andq	$-4, %rax
155:
	movl	(%r15,%rcx), %edx
	movl	%edx, (%rdi,%rcx)
	addq	$4, %rcx
	cmpq	%rcx, %rax
	jne	155b
	cmpq	%rax, %r12
	jne	120b
	jmp	124b
156:
	leaq	32(%rsp), %rdi
	movq	%r12, %rsi
	callq	"std_alloc::vec::Vec::grow_amortized::<#1d775b5957dec42c>"
	testb	%al, %al
	je	159f
	movq	32(%rsp), %rbx
	movq	40(%rsp), %rcx
	movq	48(%rsp), %rax
	movq	%rax, 120(%rsp)
	jmp	118b
157:
	leaq	32(%rsp), %rdi
	movl	$1, %esi
	callq	"std_alloc::vec::Vec::grow_amortized::<#1d775b5957dec42c>"
	testb	%al, %al
	je	160f
	movq	40(%rsp), %rcx
	movq	48(%rsp), %r12
	jmp	79b
158:
	xorl	%ebx, %ebx
	testq	%r12, %r12
	movq	72(%rsp), %rbp
	jne	77b
	jmp	78b
159:
	movq	%r15, %rdi
	callq	rattle_dealloc@PLT
	movq	72(%rsp), %rbp
160:
	cmpq	$0, 48(%rsp)
	je	161f
	movq	32(%rsp), %rdi
	callq	rattle_dealloc@PLT
161:
	movb	$1, (%rbp)
	xorps	%xmm0, %xmm0
	movups	%xmm0, 8(%rbp)
	movq	$0, 24(%rbp)
162:
	addq	$232, %rsp
	popq	%rbx
	popq	%r12
	popq	%r13
	popq	%r14
	popq	%r15
	popq	%rbp
	retq
163:
	.size	"clap::output::help::render", 163b-"clap::output::help::render"

	.text
	.p2align	4
	.type	"clap::output::help::subcommand_spec_vals",@function
"clap::output::help::subcommand_spec_vals":
	pushq	%rbp
	pushq	%r15
	pushq	%r14
	pushq	%r13
	pushq	%r12
	pushq	%rbx
	subq	$232, %rsp
	movq	%rsi, %r14
	movq	%rdi, 40(%rsp)
	xorps	%xmm0, %xmm0
	movaps	%xmm0, 64(%rsp)
	movq	$0, 80(%rsp)
	movaps	%xmm0, 128(%rsp)
	movq	$0, 144(%rsp)
	movaps	%xmm0, 96(%rsp)
	movq	$0, 112(%rsp)
	movaps	%xmm0, 160(%rsp)
	movaps	%xmm0, 176(%rsp)
	movaps	%xmm0, 192(%rsp)
	movaps	%xmm0, 208(%rsp)
	movq	$0, 224(%rsp)
	leaq	39(%rsp), %rax
	movq	%rax, 8(%rsp)
	movups	%xmm0, 16(%rsp)
	movq	392(%rsi), %rbx
	testq	%rbx, %rbx
	je	7f
	movq	384(%r14), %r15
	xorl	%r12d, %r12d
	jmp	4f
1:
	movl	$1, %r12d
2:
	leaq	.Lc1b0ea49b06c(%rip), %rax
	movq	%rax, 128(%rsp)
	movq	$1, 136(%rsp)
	movq	%r15, 144(%rsp)
	leaq	8(%rsp), %rdi
	leaq	128(%rsp), %rsi
	callq	"std_alloc::string::String::write_fmt::<#b77c81cbf5ad7277>"
	testb	%al, %al
	jne	39f
3:
	addq	$8, %r15
	decq	%rbx
	je	8f
4:
	cmpb	$1, 4(%r15)
	jne	3b
	testq	%r12, %r12
	je	1b
	movq	16(%rsp), %rax
	movq	24(%rsp), %rcx
	movq	%rcx, %rdx
	subq	%rax, %rdx
	cmpq	$1, %rdx
	jbe	6f
5:
	movq	8(%rsp), %rdx
	leaq	(%rdx,%rax), %rsi
	leaq	.L807e89e39460(%rip), %rdi
	movq	%rsi, %r8
	subq	%rdi, %r8
	cmpq	$1, %r8
	movw	$8236, (%rsi)
	addq	$2, %rax
	movq	%rdx, 8(%rsp)
	movq	%rax, 16(%rsp)
	movq	%rcx, 24(%rsp)
	incq	%r12
	movq	$-1, %rax
	cmoveq	%rax, %r12
	jmp	2b
6:
	leaq	8(%rsp), %rdi
	movl	$2, %esi
	callq	"std_alloc::vec::Vec::grow_amortized::<#1d775b5957dec42c>"
	testb	%al, %al
	je	39f
	movq	16(%rsp), %rax
	movq	24(%rsp), %rcx
	jmp	5b
7:
	xorl	%r12d, %r12d
8:
	movq	416(%r14), %rbx
	testq	%rbx, %rbx
	je	15f
	movq	408(%r14), %r15
	jmp	12f
9:
	movl	$1, %r12d
10:
	leaq	.L32d1a5938230(%rip), %rax
	movq	%rax, 96(%rsp)
	movq	$2, 104(%rsp)
	movq	%r15, 112(%rsp)
	leaq	8(%rsp), %rdi
	leaq	96(%rsp), %rsi
	callq	"std_alloc::string::String::write_fmt::<#2f338da004e7b1a4>"
	testb	%al, %al
	jne	39f
11:
	addq	$24, %r15
	decq	%rbx
	je	15f
12:
	cmpb	$1, 16(%r15)
	jne	11b
	testq	%r12, %r12
	je	9b
	movq	16(%rsp), %rax
	movq	24(%rsp), %rcx
	movq	%rcx, %rdx
	subq	%rax, %rdx
	cmpq	$1, %rdx
	jbe	14f
13:
	movq	8(%rsp), %rdx
	leaq	(%rdx,%rax), %rsi
	leaq	.L807e89e39460(%rip), %rdi
	movq	%rsi, %r8
	subq	%rdi, %r8
	cmpq	$1, %r8
	movw	$8236, (%rsi)
	addq	$2, %rax
	movq	%rdx, 8(%rsp)
	movq	%rax, 16(%rsp)
	movq	%rcx, 24(%rsp)
	incq	%r12
	movq	$-1, %rax
	cmoveq	%rax, %r12
	jmp	10b
14:
	leaq	8(%rsp), %rdi
	movl	$2, %esi
	callq	"std_alloc::vec::Vec::grow_amortized::<#1d775b5957dec42c>"
	testb	%al, %al
	je	39f
	movq	16(%rsp), %rax
	movq	24(%rsp), %rcx
	jmp	13b
15:
	movq	368(%r14), %r9
	testq	%r9, %r9
	je	36f
	movq	360(%r14), %r10
	xorl	%r15d, %r15d
	movq	%r9, 56(%rsp)
	movq	%r10, 48(%rsp)
	jmp	19f
	.p2align	4
16:
	movq	%r14, %rdx
	callq	memmove@PLT
	movq	48(%rsp), %r10
	movq	56(%rsp), %r9
17:
	addq	%r14, %rbx
	movq	%rbp, 8(%rsp)
	movq	%rbx, 16(%rsp)
	movq	%r13, 24(%rsp)
18:
	incq	%r15
	cmpq	%r9, %r15
	je	36f
19:
	leaq	(,%r15,8), %rax
	leaq	(%rax,%rax,2), %r14
	cmpb	$1, 16(%r10,%r14)
	jne	18b
	movq	16(%rsp), %rbx
	movq	24(%rsp), %r13
	testq	%r12, %r12
	je	21f
	movq	%r13, %rax
	subq	%rbx, %rax
	cmpq	$1, %rax
	jbe	35f
20:
	movq	8(%rsp), %rax
	leaq	(%rax,%rbx), %rcx
	leaq	.L807e89e39460(%rip), %rdx
	movq	%rcx, %rsi
	subq	%rdx, %rsi
	cmpq	$1, %rsi
	movw	$8236, (%rcx)
	addq	$2, %rbx
	movq	%rax, 8(%rsp)
	movq	%rbx, 16(%rsp)
	movq	%r13, 24(%rsp)
	incq	%r12
	movq	$-1, %rax
	cmoveq	%rax, %r12
	jmp	22f
21:
	movl	$1, %r12d
22:
	movq	(%r10,%r14), %rsi
	movq	8(%r10,%r14), %r14
	movq	%r13, %rax
	subq	%rbx, %rax
	cmpq	%rax, %r14
	ja	34f
23:
	movq	8(%rsp), %rbp
	leaq	(%rbx,%rbp), %rdi
	movq	%rdi, %rax
	subq	%rsi, %rax
	cmpq	%r14, %rax
	jae	16b
	cmpq	$4, %r14
	jb	24f
	cmpq	$32, %rax
	jae	29f
24:
	xorl	%eax, %eax
25:
	movq	%r14, %rdx
	movq	%rax, %rcx
	andq	$3, %rdx
	je	27f
	movq	%rax, %rcx
	.p2align	4
26:
	movzbl	(%rsi,%rcx), %r8d
	movb	%r8b, (%rdi,%rcx)
	incq	%rcx
	decq	%rdx
	jne	26b
27:
	subq	%r14, %rax
	cmpq	$-4, %rax
	ja	17b
	leaq	(%rbx,%rbp), %rax
	addq	$3, %rax
	.p2align	4
28:
	movzbl	(%rsi,%rcx), %edx
	movb	%dl, -3(%rax,%rcx)
	movzbl	1(%rsi,%rcx), %edx
	movb	%dl, -2(%rax,%rcx)
	movzbl	2(%rsi,%rcx), %edx
	movb	%dl, -1(%rax,%rcx)
	movzbl	3(%rsi,%rcx), %edx
	movb	%dl, (%rax,%rcx)
	addq	$4, %rcx
	cmpq	%rcx, %r14
	jne	28b
	jmp	17b
29:
	cmpq	$32, %r14
	jae	30f
	xorl	%eax, %eax
	jmp	32f
30:
	movq	%r14, %rax
	andq	$-32, %rax
	leaq	(%rbx,%rbp), %rcx
	addq	$16, %rcx
	xorl	%edx, %edx
	.p2align	4
31:
	movups	(%rsi,%rdx), %xmm0
	movups	16(%rsi,%rdx), %xmm1
	movups	%xmm0, -16(%rcx,%rdx)
	movups	%xmm1, (%rcx,%rdx)
	addq	$32, %rdx
	cmpq	%rdx, %rax
	jne	31b
	cmpq	%rax, %r14
	je	17b
	testb	$28, %r14b
	je	25b
32:
	movq	%rax, %rcx
	movq	%r14, %rax
	andq	$-4, %rax
	.p2align	4
33:
	movl	(%rsi,%rcx), %edx
	movl	%edx, (%rdi,%rcx)
	addq	$4, %rcx
	cmpq	%rcx, %rax
	jne	33b
	cmpq	%rax, %r14
	je	17b
	jmp	25b
34:
	movq	%rsi, %rbp
	leaq	8(%rsp), %rdi
	movq	%r14, %rsi
	callq	"std_alloc::vec::Vec::grow_amortized::<#1d775b5957dec42c>"
	testb	%al, %al
	je	39f
	movq	16(%rsp), %rbx
	movq	24(%rsp), %r13
	movq	%rbp, %rsi
	movq	56(%rsp), %r9
	movq	48(%rsp), %r10
	jmp	23b
35:
	leaq	8(%rsp), %rdi
	movl	$2, %esi
	callq	"std_alloc::vec::Vec::grow_amortized::<#1d775b5957dec42c>"
	testb	%al, %al
	je	39f
	movq	16(%rsp), %rbx
	movq	24(%rsp), %r13
	movq	56(%rsp), %r9
	movq	48(%rsp), %r10
	jmp	20b
36:
	leaq	39(%rsp), %rax
	movq	%rax, 64(%rsp)
	xorps	%xmm0, %xmm0
	movups	%xmm0, 72(%rsp)
	testq	%r12, %r12
	je	41f
	cmpq	$1, %r12
	jne	37f
	leaq	.L22d5119de29e(%rip), %rcx
	xorl	%eax, %eax
	jmp	38f
37:
	movl	$2, %eax
	leaq	.La7e343717825(%rip), %rcx
38:
	leaq	.Lc4782f9c8cbe(%rip), %rdx
	movq	%rdx, 160(%rsp)
	movq	$6, 168(%rsp)
	movq	%rcx, 176(%rsp)
	movq	%rax, 184(%rsp)
	leaq	.L226a292f443d(%rip), %rax
	movq	%rax, 192(%rsp)
	movq	$2, 200(%rsp)
	leaq	8(%rsp), %rax
	movq	%rax, 208(%rsp)
	leaq	.L0d0a70152a48(%rip), %rax
	movq	%rax, 216(%rsp)
	movq	$1, 224(%rsp)
	leaq	64(%rsp), %rdi
	leaq	160(%rsp), %rsi
	callq	"std_alloc::string::String::write_fmt::<#a7de7e6af3ee7c9d>"
	testb	%al, %al
	je	41f
	cmpq	$0, 80(%rsp)
	je	39f
	movq	64(%rsp), %rdi
	callq	rattle_dealloc@PLT
39:
	cmpq	$0, 24(%rsp)
	je	40f
	movq	8(%rsp), %rdi
	callq	rattle_dealloc@PLT
40:
	movq	40(%rsp), %rax
	movb	$1, (%rax)
	xorps	%xmm0, %xmm0
	movups	%xmm0, 8(%rax)
	movq	$0, 24(%rax)
	jmp	43f
41:
	cmpq	$0, 24(%rsp)
	je	42f
	movq	8(%rsp), %rdi
	callq	rattle_dealloc@PLT
42:
	movq	40(%rsp), %rcx
	movb	$0, (%rcx)
	movaps	64(%rsp), %xmm0
	movups	%xmm0, 8(%rcx)
	movq	80(%rsp), %rax
	movq	%rax, 24(%rcx)
43:
	addq	$232, %rsp
	popq	%rbx
	popq	%r12
	popq	%r13
	popq	%r14
	popq	%r15
	popq	%rbp
	retq
44:
	.size	"clap::output::help::subcommand_spec_vals", 44b-"clap::output::help::subcommand_spec_vals"

	.section	.rodata.cst16,"aM",@progbits,16
	.p2align	4, 0x0
1:
	.zero	16,123
2:
	.zero	16,125
3:
	.zero	16,127
	.text
	.p2align	4
	.type	"clap::output::help::with_lines",@function
"clap::output::help::with_lines":
	pushq	%rbp
	pushq	%r15
	pushq	%r14
	pushq	%r13
	pushq	%r12
	pushq	%rbx
	subq	$184, %rsp
	movq	%rdx, %r14
	movq	%rsi, %r15
	movq	%rdi, %r13
	pxor	%xmm0, %xmm0
	movdqu	%xmm0, 111(%rsp)
	movdqa	%xmm0, 96(%rsp)
	movdqa	%xmm0, 128(%rsp)
	movdqu	%xmm0, 143(%rsp)
	leaq	47(%rsp), %rax
	movq	%rax, 16(%rsp)
	movdqu	%xmm0, 24(%rsp)
	cmpq	$3, %rdx
	jb	82f
	movabsq	$-9187201950435737472, %rbp
	movabsq	$9187201950435737471, %rdi
	movabsq	$9042521604759584125, %r8
	movabsq	$8897841259083430779, %r10
	leaq	66(%rsp), %rax
	movq	%r13, 8(%rsp)
4:
	movq	%r15, 48(%rsp)
	movq	%r14, 56(%rsp)
	movw	$32123, 64(%rsp)
	movw	$0, 4(%rax)
	movl	$0, (%rax)
	movq	$2, 72(%rsp)
	leaq	-2(%r14), %r13
	leaq	-10(%r14), %rax
	movq	%rax, 88(%rsp)
	xorl	%ebx, %ebx
	xorl	%ecx, %ecx
	movq	%r14, 176(%rsp)
	jmp	6f
	.p2align	4
5:
	addq	$19, %rbx
	movq	$-1, %rax
	cmovbq	%rax, %rbx
	leaq	1(%r12), %rcx
	movq	%rbx, %rdx
	shrq	$3, %rdx
	movq	%rcx, %rsi
	addq	$128, %rsi
	cmovbq	%rax, %rsi
	cmpq	%rdx, %rsi
	jb	18f
6:
	movq	%r13, %rax
	subq	%rcx, %rax
	cmpq	$7, %rax
	ja	9f
	cmpq	%rcx, %r13
	ja	8f
	jmp	81f
	.p2align	4
7:
	incq	%rcx
	cmpq	%rcx, %r13
	je	81f
8:
	cmpb	$123, (%r15,%rcx)
	jne	7b
	cmpb	$125, 2(%r15,%rcx)
	jne	7b
	movq	%rcx, %r12
	jmp	17f
	.p2align	4
9:
	movq	(%r15,%rcx), %rax
	xorq	%r10, %rax
	movq	2(%r15,%rcx), %rdx
	xorq	%r8, %rdx
	orq	%rax, %rdx
	movq	%rdx, %rax
	andq	%rdi, %rax
	addq	%rdi, %rax
	orq	%rdx, %rax
	andq	%rbp, %rax
	cmpq	%rbp, %rax
	jne	10f
	addq	$8, %rcx
	movq	%rcx, %rax
	jmp	11f
	.p2align	4
10:
	xorq	%rbp, %rax
	rep		bsfq	%rax, %rax
	shrl	$3, %eax
	addq	%rcx, %rax
	addq	$8, %rcx
	movq	%rax, %r12
	cmpq	%rcx, %rax
	jb	17f
11:
	movq	%r8, %r14
	movq	%rdi, %r12
	movq	%r13, %rcx
	subq	%rax, %rcx
	cmpq	$32, %rcx
	jb	13f
	.p2align	4
12:
	movdqa	1b(%rip), %xmm0
	movdqu	(%r15,%rax), %xmm1
	movdqu	2(%r15,%rax), %xmm2
	movdqu	16(%r15,%rax), %xmm3
	movdqu	18(%r15,%rax), %xmm4
	pxor	%xmm0, %xmm3
	pxor	%xmm0, %xmm1
	movdqa	2b(%rip), %xmm0
	pxor	%xmm0, %xmm4
	por	%xmm3, %xmm4
	pxor	%xmm0, %xmm2
	por	%xmm1, %xmm2
	movdqa	3b(%rip), %xmm0
	movdqa	%xmm4, %xmm1
	pand	%xmm0, %xmm1
	movdqa	%xmm2, %xmm3
	pand	%xmm0, %xmm3
	paddq	%xmm0, %xmm3
	paddq	%xmm0, %xmm1
	por	%xmm4, %xmm1
	por	%xmm2, %xmm3
	pand	%xmm1, %xmm3
	pshufd	$238, %xmm3, %xmm0
	pand	%xmm3, %xmm0
	movq	%xmm0, %rcx
	notq	%rcx
	testq	%rcx, %rbp
	jne	13f
	addq	$32, %rax
	leaq	48(%rsp), %rdi
	movq	%rax, %rsi
	movq	%r13, %rdx
	callq	"core::slice::words::skip_far::<#878162fd265b9cd6>"
	movq	%r13, %rcx
	subq	%rax, %rcx
	cmpq	$31, %rcx
	ja	12b
13:
	movq	%r13, %rcx
	subq	%rax, %rcx
	movq	%r12, %rdi
	movq	%r14, %r8
	movq	176(%rsp), %r14
	movabsq	$8897841259083430779, %r10
	jmp	15f
	.p2align	4
14:
	xorq	%rbp, %rdx
	rep		bsfq	%rdx, %r12
	shrl	$3, %r12d
	addq	%rax, %r12
	addq	$8, %rax
	addq	$-8, %rcx
	cmpq	%rax, %r12
	jb	17f
15:
	cmpq	$9, %rcx
	jb	16f
	movq	(%r15,%rax), %rdx
	xorq	%r10, %rdx
	movq	2(%r15,%rax), %rsi
	xorq	%r8, %rsi
	orq	%rdx, %rsi
	movq	%rsi, %rdx
	andq	%rdi, %rdx
	addq	%rdi, %rdx
	orq	%rsi, %rdx
	andq	%rbp, %rdx
	cmpq	%rbp, %rdx
	jne	14b
	leaq	8(%rax), %r12
	addq	$8, %rax
	addq	$-8, %rcx
	cmpq	%rax, %r12
	jae	15b
	jmp	17f
16:
	movq	88(%rsp), %rdx
	movq	(%r15,%rdx), %rax
	xorq	%r10, %rax
	movq	2(%r15,%rdx), %rcx
	xorq	%r8, %rcx
	orq	%rax, %rcx
	movq	%rcx, %rax
	andq	%rdi, %rax
	addq	%rdi, %rax
	orq	%rcx, %rax
	andq	%rbp, %rax
	cmpq	%rbp, %rax
	je	81f
	xorq	%rbp, %rax
	rep		bsfq	%rax, %r12
	shrl	$3, %r12d
	addq	%rdx, %r12
17:
	cmpq	%r13, %r12
	je	81f
	movq	%r14, %rax
	subq	%r12, %rax
	cmpq	$3, %rax
	jb	5b
	movzbl	(%r15,%r12), %eax
	movzbl	1(%r15,%r12), %ecx
	shll	$16, %eax
	shll	$8, %ecx
	orl	%eax, %ecx
	movzbl	2(%r15,%r12), %eax
	orl	%ecx, %eax
	cmpl	$8089213, %eax
	jne	5b
	jmp	54f
18:
	movl	$1, %r8d
	xorl	%r9d, %r9d
	movl	$1, %r10d
	movl	$1, %esi
	xorl	%edx, %edx
	movq	8(%rsp), %r13
	jmp	21f
	.p2align	4
19:
	leaq	1(%rsi), %rdi
	movl	$1, %r8d
	xorl	%edx, %edx
	movq	%rsi, %r9
20:
	leaq	(%rdi,%rdx), %r10
	movq	%rdi, %rsi
	cmpq	$3, %r10
	jae	23f
21:
	leaq	.L49c1a40b24b3(%rip), %rax
	leaq	(%rax,%r9), %rdi
	movzbl	(%rdx,%rdi), %edi
	movzbl	(%r10,%rax), %r10d
	cmpb	%dil, %r10b
	jb	19b
	incq	%rdx
	cmpb	%r10b, %dil
	jae	22f
	movq	%rdx, %rdi
	addq	%rsi, %rdi
	movq	%rdi, %r8
	subq	%r9, %r8
	xorl	%edx, %edx
	jmp	20b
	.p2align	4
22:
	xorl	%edi, %edi
	cmpq	%r8, %rdx
	cmoveq	%rdi, %rdx
	cmoveq	%r8, %rdi
	addq	%rsi, %rdi
	jmp	20b
23:
	movl	$1, %esi
	xorl	%edx, %edx
	movl	$1, %ebx
	movl	$1, %r10d
	xorl	%edi, %edi
	jmp	26f
	.p2align	4
24:
	leaq	1(%r10), %r11
	movl	$1, %esi
	xorl	%edi, %edi
	movq	%r10, %rdx
25:
	leaq	(%r11,%rdi), %rbx
	movq	%r11, %r10
	cmpq	$3, %rbx
	jae	28f
26:
	leaq	(%rax,%rdx), %r11
	movzbl	(%rdi,%r11), %r11d
	movzbl	(%rbx,%rax), %ebx
	cmpb	%bl, %r11b
	jb	24b
	incq	%rdi
	cmpb	%r11b, %bl
	jae	27f
	movq	%rdi, %r11
	addq	%r10, %r11
	movq	%r11, %rsi
	subq	%rdx, %rsi
	xorl	%edi, %edi
	jmp	25b
	.p2align	4
27:
	xorl	%r11d, %r11d
	cmpq	%rsi, %rdi
	cmoveq	%r11, %rdi
	cmoveq	%rsi, %r11
	addq	%r10, %r11
	jmp	25b
28:
	movl	$3, %edi
	cmpq	%r9, %rdx
	jae	30f
	subq	%r9, %rdi
	cmpq	%r9, %rdi
	cmovbeq	%r9, %rdi
	leaq	(%r9,%r9), %rdx
	cmpq	$2, %rdx
	ja	32f
	xorl	%edx, %edx
29:
	movzbl	(%rdx,%rax), %esi
	leaq	(%r8,%rdx), %r10
	cmpb	(%rax,%r10), %sil
	jne	32f
	incq	%rdx
	cmpq	%rdx, %r9
	jne	29b
	movq	%r9, %rdx
	movq	%r8, %rsi
	jmp	45f
30:
	subq	%rdx, %rdi
	cmpq	%rdx, %rdi
	cmovbeq	%rdx, %rdi
	leaq	(%rdx,%rdx), %r8
	cmpq	$2, %r8
	movabsq	$8897841259083430779, %r10
	ja	34f
	testq	%rdx, %rdx
	je	44f
	xorl	%r8d, %r8d
31:
	movzbl	(%r8,%rax), %r9d
	leaq	(%rsi,%r8), %r10
	cmpb	(%rax,%r10), %r9b
	jne	33f
	incq	%r8
	cmpq	%r8, %rdx
	jne	31b
	jmp	45f
32:
	movq	%r9, %rdx
33:
	movabsq	$8897841259083430779, %r10
34:
	movq	%r14, %rsi
	subq	%rcx, %rsi
	cmpq	$3, %rsi
	jb	82f
	cmpq	$3, %rdx
	jae	40f
	movzbl	(%rdx,%rax), %esi
	leaq	1(%rdx), %r8
	leaq	2(%rdx), %r9
	leaq	-1(%rdx), %r10
	leaq	-2(%rdx), %r11
	jmp	36f
35:
	subq	%rdx, %rcx
	addq	%r12, %rcx
	incq	%rcx
	movq	%r14, %rbx
	subq	%rcx, %rbx
	cmpq	$3, %rbx
	jb	82f
36:
	leaq	(%r15,%rcx), %rbx
	movq	%rdx, %r12
	cmpb	(%rdx,%rbx), %sil
	jne	35b
	cmpq	$3, %r8
	jne	39f
37:
	testq	%rdx, %rdx
	je	53f
	movzbl	(%r10,%rax), %r12d
	cmpb	(%rbx,%r10), %r12b
	jne	38f
	testq	%r10, %r10
	je	53f
	testq	%r11, %r11
	setne	%r12b
	movzbl	(%r11,%rax), %r13d
	cmpb	(%rbx,%r11), %r13b
	setne	%bl
	orb	%r12b, %bl
	cmpb	$1, %bl
	movq	8(%rsp), %r13
	jne	53f
38:
	addq	%rdi, %rcx
	movq	%r14, %rbx
	subq	%rcx, %rbx
	cmpq	$3, %rbx
	jae	36b
	jmp	82f
39:
	movzbl	(%r8,%rax), %r13d
	movq	%r8, %r12
	cmpb	(%rbx,%r8), %r13b
	movq	8(%rsp), %r13
	jne	35b
	cmpq	$3, %r9
	je	37b
	movzbl	(%r9,%rax), %r13d
	movq	%r9, %r12
	cmpb	(%rbx,%r9), %r13b
	movq	8(%rsp), %r13
	jne	35b
	jmp	37b
40:
	addq	%r15, %r12
41:
	movq	%rdx, %r8
	movq	%rdx, %rsi
	.p2align	4
42:
	subq	$1, %rsi
	jb	43f
	movzbl	-1(%r8,%rax), %r9d
	cmpb	(%r12,%r8), %r9b
	movq	%rsi, %r8
	je	42b
	addq	%rdi, %rcx
	movq	%r14, %rsi
	subq	%rcx, %rsi
	addq	%rdi, %r12
	cmpq	$3, %rsi
	jae	41b
	jmp	82f
43:
	movq	%rcx, %r12
	movabsq	$9042521604759584125, %r8
	jmp	54f
44:
	xorl	%edx, %edx
45:
	movq	%r14, %rdi
	subq	%rcx, %rdi
	cmpq	$3, %rdi
	jb	82f
	movl	$3, %edi
	subq	%rsi, %rdi
	leaq	-1(%r15), %r8
	xorl	%r9d, %r9d
46:
	cmpq	%rdx, %r9
	movq	%rdx, %r10
	cmovaq	%r9, %r10
	cmpq	$2, %r10
	ja	47f
	leaq	(%r15,%rcx), %r11
	movzbl	(%r10,%rax), %ebx
	cmpb	(%r10,%r11), %bl
	jne	49f
	leaq	1(%r10), %rbx
	cmpq	$3, %rbx
	jne	52f
47:
	leaq	(%r8,%rcx), %r10
	movq	%rdx, %r11
	.p2align	4
48:
	cmpq	%r11, %r9
	jae	53f
	movzbl	-1(%r11,%rax), %ebx
	cmpb	(%r10,%r11), %bl
	leaq	-1(%r11), %r11
	je	48b
	addq	%rsi, %rcx
	movq	%rdi, %r9
	jmp	51f
49:
	movq	%r10, %rbx
50:
	subq	%rdx, %rcx
	addq	%rbx, %rcx
	incq	%rcx
	xorl	%r9d, %r9d
51:
	movq	%r14, %r10
	subq	%rcx, %r10
	cmpq	$3, %r10
	jae	46b
	jmp	82f
52:
	movzbl	(%rbx,%rax), %r12d
	cmpb	(%r11,%rbx), %r12b
	jne	50b
	addq	$2, %r10
	cmpq	$3, %r10
	je	47b
	movzbl	(%r10,%rax), %r12d
	movq	%r10, %rbx
	cmpb	(%r11,%r10), %r12b
	je	47b
	jmp	50b
53:
	movq	%rcx, %r12
	movabsq	$9042521604759584125, %r8
	movabsq	$8897841259083430779, %r10
54:
	movq	24(%rsp), %r13
	movq	32(%rsp), %r11
	movq	%r11, %rax
	subq	%r13, %rax
	cmpq	%rax, %r12
	ja	72f
55:
	movq	16(%rsp), %r9
	pxor	%xmm0, %xmm0
	leaq	24(%rsp), %rax
	movdqu	%xmm0, (%rax)
	leaq	(%r9,%r13), %rdi
	movq	%rdi, %rax
	subq	%r15, %rax
	cmpq	%r12, %rax
	jae	61f
	cmpq	$4, %r12
	jb	56f
	cmpq	$32, %rax
	jae	66f
56:
	xorl	%eax, %eax
57:
	movq	%r12, %rdx
	movq	%rax, %rcx
	andq	$3, %rdx
	je	59f
	movq	%rax, %rcx
	.p2align	4
58:
	movzbl	(%r15,%rcx), %esi
	movb	%sil, (%rdi,%rcx)
	incq	%rcx
	decq	%rdx
	jne	58b
59:
	subq	%r12, %rax
	cmpq	$-4, %rax
	ja	62f
	leaq	(%r9,%r13), %rax
	addq	$3, %rax
	.p2align	4
60:
	movzbl	(%r15,%rcx), %edx
	movb	%dl, -3(%rax,%rcx)
	movzbl	1(%r15,%rcx), %edx
	movb	%dl, -2(%rax,%rcx)
	movzbl	2(%r15,%rcx), %edx
	movb	%dl, -1(%rax,%rcx)
	movzbl	3(%r15,%rcx), %edx
	movb	%dl, (%rax,%rcx)
	addq	$4, %rcx
	cmpq	%rcx, %r12
	jne	60b
	jmp	62f
61:
	movq	%r15, %rsi
	movq	%r12, %rdx
	movq	%r10, %rbx
	movq	%r9, 88(%rsp)
	movq	%r11, 168(%rsp)
	callq	memmove@PLT
	movq	168(%rsp), %r11
	movq	88(%rsp), %r9
	movq	%rbx, %r10
	movabsq	$9042521604759584125, %r8
62:
	addq	%r12, %r13
	movq	%r13, 24(%rsp)
	movq	%r11, 32(%rsp)
	cmpq	%r13, %r11
	je	73f
63:
	leaq	3(%r12), %rax
	addq	%r12, %r15
	addq	$3, %r15
	subq	%rax, %r14
	movb	$10, (%r9,%r13)
	incq	%r13
	movq	%r9, 16(%rsp)
	movq	%r13, 24(%rsp)
	movq	%r11, 32(%rsp)
	cmpq	$-4, %r12
	ja	64f
	movabsq	$9187201950435737471, %rdi
	jmp	78f
64:
	testq	%r14, %r14
	movabsq	$9187201950435737471, %rdi
	je	101f
	movzbl	(%r15), %esi
	leaq	1(%r15), %rax
	testb	%sil, %sil
	js	65f
	decq	%r14
	movq	%rax, %r15
	jmp	76f
65:
	movzbl	(%rax), %eax
	andl	$63, %eax
	cmpb	$-33, %sil
	ja	67f
	andl	$31, %esi
	shll	$6, %esi
	orl	%eax, %esi
	movl	$2, %edx
	jmp	75f
66:
	cmpq	$32, %r12
	jae	68f
	xorl	%eax, %eax
	jmp	70f
67:
	movzbl	2(%r15), %ecx
	andl	$63, %ecx
	cmpb	$-17, %sil
	ja	74f
	shll	$12, %esi
	movzwl	%si, %edx
	shll	$6, %eax
	orl	%edx, %eax
	orl	%ecx, %eax
	movl	$3, %edx
	movl	%eax, %esi
	jmp	75f
68:
	movq	%r12, %rax
	andq	$-32, %rax
	leaq	(%r9,%r13), %rcx
	addq	$16, %rcx
	xorl	%edx, %edx
69:
	movdqu	(%r15,%rdx), %xmm0
	movdqu	16(%r15,%rdx), %xmm1
	movdqu	%xmm0, -16(%rcx,%rdx)
	movdqu	%xmm1, (%rcx,%rdx)
	addq	$32, %rdx
	cmpq	%rdx, %rax
	jne	69b
	cmpq	%rax, %r12
	je	62b
	testb	$28, %r12b
	je	57b
70:
	movq	%rax, %rcx
	movq	%r12, %rax
	andq	$-4, %rax
71:
	movl	(%r15,%rcx), %edx
	movl	%edx, (%rdi,%rcx)
	addq	$4, %rcx
	cmpq	%rcx, %rax
	jne	71b
	cmpq	%rax, %r12
	je	62b
	jmp	57b
72:
	movq	%r8, %rbx
	leaq	16(%rsp), %rdi
	movq	%r12, %rsi
	callq	"std_alloc::vec::Vec::grow_amortized::<#1d775b5957dec42c>"
	testb	%al, %al
	je	102f
	movq	24(%rsp), %r13
	movq	32(%rsp), %r11
	movq	%rbx, %r8
	movabsq	$8897841259083430779, %r10
	jmp	55b
73:
	movq	%r8, %rbx
	leaq	16(%rsp), %rdi
	movl	$1, %esi
	callq	"std_alloc::vec::Vec::grow_amortized::<#1d775b5957dec42c>"
	testb	%al, %al
	je	102f
	movq	16(%rsp), %r9
	movq	24(%rsp), %r13
	movq	32(%rsp), %r11
	movq	%rbx, %r8
	movabsq	$8897841259083430779, %r10
	jmp	63b
74:
	movzbl	3(%r15), %edx
	andl	$63, %edx
	andl	$7, %esi
	shll	$18, %esi
	shll	$12, %eax
	orl	%esi, %eax
	shll	$6, %ecx
	orl	%eax, %ecx
	orl	%edx, %ecx
	movl	$4, %edx
	movl	%ecx, %esi
75:
	addq	%rdx, %r15
	subq	%rdx, %r14
	cmpl	$127, %esi
	ja	79f
76:
	cmpq	%r13, %r11
	je	80f
77:
	movb	%sil, (%r9,%r13)
	incq	%r13
	movq	%r13, 24(%rsp)
78:
	cmpq	$3, %r14
	movq	8(%rsp), %r13
	leaq	66(%rsp), %rax
	jae	4b
	jmp	82f
79:
	movq	%rdi, %rbx
	leaq	16(%rsp), %rdi
	movq	%r14, %r12
	movq	%r8, %r14
	movq	%r10, %r13
	callq	"std_alloc::string::add_wide::<#2cbb67ac55bf10f9>"
	movq	%r13, %r10
	movq	%r14, %r8
	movq	%r12, %r14
	movq	%rbx, %rdi
	testb	%al, %al
	je	78b
	jmp	102f
80:
	movl	%esi, %ebx
	leaq	16(%rsp), %rdi
	movl	$1, %esi
	movq	%r14, %r13
	movq	%r8, %r14
	movq	%r10, %r12
	callq	"std_alloc::vec::Vec::grow_amortized::<#1d775b5957dec42c>"
	movabsq	$9187201950435737471, %rdi
	testb	%al, %al
	je	102f
	movq	%r12, %r10
	movq	%r14, %r8
	movq	%r13, %r14
	movq	16(%rsp), %r9
	movq	24(%rsp), %r13
	movl	%ebx, %esi
	jmp	77b
81:
	movq	8(%rsp), %r13
82:
	movq	16(%rsp), %rax
	movq	%rax, 48(%rsp)
	movq	24(%rsp), %rax
	movq	%rax, 56(%rsp)
	movq	32(%rsp), %rbx
	movq	%rbx, 64(%rsp)
	movq	56(%rsp), %rax
	movq	%rbx, %rcx
	subq	%rax, %rcx
	cmpq	%rcx, %r14
	ja	98f
83:
	leaq	(%rax,%r14), %r12
	movq	48(%rsp), %rcx
	leaq	(%rcx,%rax), %rdi
	movq	%rdi, %rdx
	subq	%r15, %rdx
	cmpq	%r14, %rdx
	jae	89f
	cmpq	$4, %r14
	jb	84f
	cmpq	$32, %rdx
	jae	93f
84:
	xorl	%edx, %edx
85:
	movq	%r14, %r8
	movq	%rdx, %rsi
	andq	$3, %r8
	je	87f
	movq	%rdx, %rsi
	.p2align	4
86:
	movzbl	(%r15,%rsi), %r9d
	movb	%r9b, (%rdi,%rsi)
	incq	%rsi
	decq	%r8
	jne	86b
87:
	subq	%r14, %rdx
	cmpq	$-4, %rdx
	ja	90f
	addq	%rcx, %rax
	addq	$3, %rax
	.p2align	4
88:
	movzbl	(%r15,%rsi), %ecx
	movb	%cl, -3(%rax,%rsi)
	movzbl	1(%r15,%rsi), %ecx
	movb	%cl, -2(%rax,%rsi)
	movzbl	2(%r15,%rsi), %ecx
	movb	%cl, -1(%rax,%rsi)
	movzbl	3(%r15,%rsi), %ecx
	movb	%cl, (%rax,%rsi)
	addq	$4, %rsi
	cmpq	%rsi, %r14
	jne	88b
	jmp	90f
89:
	movq	%r15, %rsi
	movq	%r14, %rdx
	callq	memmove@PLT
90:
	movq	%r12, 56(%rsp)
	movq	%rbx, 64(%rsp)
	movq	%rbx, 151(%rsp)
	movq	48(%rsp), %rax
	movq	%rax, 135(%rsp)
	movq	56(%rsp), %rax
	movq	%rax, 143(%rsp)
	xorl	%eax, %eax
91:
	movq	135(%rsp), %rcx
	movq	%rcx, 103(%rsp)
	movq	143(%rsp), %rcx
	movq	%rcx, 111(%rsp)
	movq	151(%rsp), %rcx
	movq	%rcx, 119(%rsp)
92:
	movb	%al, (%r13)
	movq	103(%rsp), %rax
	movq	%rax, 8(%r13)
	movq	111(%rsp), %rax
	movq	%rax, 16(%r13)
	movq	119(%rsp), %rax
	movq	%rax, 24(%r13)
	addq	$184, %rsp
	popq	%rbx
	popq	%r12
	popq	%r13
	popq	%r14
	popq	%r15
	popq	%rbp
	retq
93:
	cmpq	$32, %r14
	jae	94f
	xorl	%edx, %edx
	jmp	96f
94:
	movq	%r14, %rdx
	andq	$-32, %rdx
	leaq	(%rax,%rcx), %rsi
	addq	$16, %rsi
	xorl	%r8d, %r8d
	.p2align	4
95:
	movdqu	(%r15,%r8), %xmm0
	movdqu	16(%r15,%r8), %xmm1
	movdqu	%xmm0, -16(%rsi,%r8)
	movdqu	%xmm1, (%rsi,%r8)
	addq	$32, %r8
	cmpq	%r8, %rdx
	jne	95b
	cmpq	%rdx, %r14
	je	90b
	testb	$28, %r14b
	je	85b
96:
	movq	%rdx, %rsi
	movq	%r14, %rdx
	andq	$-4, %rdx
	.p2align	4
97:
	movl	(%r15,%rsi), %r8d
	movl	%r8d, (%rdi,%rsi)
	addq	$4, %rsi
	cmpq	%rsi, %rdx
	jne	97b
	cmpq	%rdx, %r14
	je	90b
	jmp	85b
98:
	leaq	48(%rsp), %rdi
	movq	%r14, %rsi
	callq	"std_alloc::vec::Vec::grow_amortized::<#1d775b5957dec42c>"
	testb	%al, %al
	je	99f
	movq	56(%rsp), %rax
	movq	64(%rsp), %rbx
	jmp	83b
99:
	cmpq	$0, 64(%rsp)
	je	100f
	movq	48(%rsp), %rdi
	callq	rattle_dealloc@PLT
100:
	pxor	%xmm0, %xmm0
	movdqu	%xmm0, 135(%rsp)
	movq	$0, 151(%rsp)
	movb	$1, %al
	jmp	91b
101:
	movq	32(%rsp), %rax
	movq	%rax, 119(%rsp)
	movdqu	16(%rsp), %xmm0
	movdqu	%xmm0, 103(%rsp)
	xorl	%eax, %eax
	jmp	104f
102:
	cmpq	$0, 32(%rsp)
	je	103f
	movq	16(%rsp), %rdi
	callq	rattle_dealloc@PLT
103:
	pxor	%xmm0, %xmm0
	movdqu	%xmm0, 103(%rsp)
	movq	$0, 119(%rsp)
	movb	$1, %al
104:
	movq	8(%rsp), %r13
	jmp	92b
105:
	.size	"clap::output::help::with_lines", 105b-"clap::output::help::with_lines"

	.text
	.p2align	4
	.type	"clap::output::usage::format_group",@function
"clap::output::usage::format_group":
	pushq	%rbp
	pushq	%r15
	pushq	%r14
	pushq	%r13
	pushq	%r12
	pushq	%rbx
	subq	$232, %rsp
	movq	%rcx, %r15
	movq	%rdx, %r12
	movq	%rsi, %r14
	movq	%rdi, %rbx
	xorps	%xmm0, %xmm0
	movaps	%xmm0, 192(%rsp)
	movaps	%xmm0, 176(%rsp)
	movl	$1, %edi
	movl	$1, %esi
	callq	rattle_alloc@PLT
	testb	$1, %al
	je	2f
	movq	%rdx, %r13
	movb	$60, (%rdx)
	movq	%rdx, (%rsp)
	movq	$1, 8(%rsp)
	movq	$1, 16(%rsp)
	leaq	176(%rsp), %rdi
	movq	%r14, %rsi
	movq	%r12, %rdx
	movq	%r15, %rcx
	callq	"clap::builder::command::Command::args_in_group"
	cmpb	$0, 176(%rsp)
	je	4f
	movq	%r13, %rdi
1:
	callq	rattle_dealloc@PLT
2:
	movb	$1, (%rbx)
	xorps	%xmm0, %xmm0
	movups	%xmm0, 8(%rbx)
	movq	$0, 24(%rbx)
3:
	addq	$232, %rsp
	popq	%rbx
	popq	%r12
	popq	%r13
	popq	%r14
	popq	%r15
	popq	%rbp
	retq
4:
	movq	%rbx, 104(%rsp)
	movq	184(%rsp), %r12
	movq	192(%rsp), %r13
	movq	200(%rsp), %rax
	movq	%rax, 96(%rsp)
	testq	%r13, %r13
	je	72f
	movq	%r14, %r15
	movb	$1, %r14b
	xorl	%ebx, %ebx
	movq	%r15, 152(%rsp)
	movq	%r12, 136(%rsp)
	jmp	9f
5:
	movq	%r12, %rdx
	callq	memmove@PLT
6:
	addq	%r12, %r14
	movq	%r14, 40(%rsp)
	movq	%r15, 48(%rsp)
7:
	movq	48(%rsp), %rax
	movq	32(%rsp), %rcx
	movq	%rcx, (%rsp)
	movq	40(%rsp), %rcx
	movq	%rcx, 8(%rsp)
	movq	%rax, 16(%rsp)
	xorl	%r14d, %r14d
	movq	152(%rsp), %r15
	movq	136(%rsp), %r12
	movq	160(%rsp), %r13
	.p2align	4
8:
	incq	%rbx
	decq	%r13
	je	72f
9:
	movq	%rbx, %rax
	shlq	$4, %rax
	movq	(%r12,%rax), %rdx
	movq	8(%r12,%rax), %rcx
	movq	576(%r15), %rdi
	movq	584(%r15), %rsi
	callq	"clap::builder::command::Command::find"
	cmpb	$1, %al
	jne	8b
	testb	$1, %r14b
	jne	11f
	movq	8(%rsp), %rax
	movq	16(%rsp), %rcx
	cmpq	%rax, %rcx
	je	52f
10:
	movq	(%rsp), %rsi
	movb	$124, (%rsi,%rax)
	incq	%rax
	movq	%rax, 8(%rsp)
	movq	%rcx, 16(%rsp)
11:
	cmpb	$1, 72(%rdx)
	je	12f
	cmpb	$1, 64(%rdx)
	jne	13f
12:
	movq	16(%rsp), %rax
	movq	%rax, 48(%rsp)
	movaps	(%rsp), %xmm0
	movaps	%xmm0, 32(%rsp)
	xorps	%xmm0, %xmm0
	leaq	56(%rsp), %rax
	movups	%xmm0, 24(%rax)
	movl	$32, 56(%rsp)
	movl	$0, 12(%rax)
	movq	$0, 4(%rax)
	movq	$-1, 72(%rsp)
	movq	$0, 120(%rsp)
	movq	%rdx, 112(%rsp)
	leaq	112(%rsp), %rdi
	leaq	32(%rsp), %rsi
	callq	"clap::builder::arg::StylizedDisplay::fmt::<#86a172efa8724158>"
	movaps	32(%rsp), %xmm0
	movaps	%xmm0, (%rsp)
	movq	48(%rsp), %rcx
	movq	%rcx, 16(%rsp)
	testb	%al, %al
	jne	75f
	xorl	%r14d, %r14d
	jmp	8b
13:
	movq	%r13, 160(%rsp)
	movq	16(%rsp), %rax
	movq	%rax, 48(%rsp)
	movups	(%rsp), %xmm0
	movaps	%xmm0, 32(%rsp)
	xorps	%xmm0, %xmm0
	leaq	56(%rsp), %r15
	movups	%xmm0, 24(%r15)
	movl	$32, 56(%rsp)
	movl	$0, 12(%r15)
	movq	$0, 4(%r15)
	movq	$-1, 72(%rsp)
	cmpb	$0, 408(%rdx)
	je	43f
	movq	416(%rdx), %rbp
	movq	424(%rdx), %rax
	cmpq	$2, %rax
	jb	44f
	xorl	%r14d, %r14d
	movq	%rax, 168(%rsp)
	.p2align	4
14:
	testq	%r14, %r14
	je	16f
	cmpq	$0, 80(%rsp)
	jne	41f
	movq	40(%rsp), %rax
	movq	48(%rsp), %rcx
	cmpq	%rax, %rcx
	je	42f
15:
	movq	32(%rsp), %rdx
	movb	$32, (%rdx,%rax)
	incq	%rax
	movq	%rax, 40(%rsp)
	movq	%rcx, 48(%rsp)
16:
	movq	16(%r15), %rax
	movq	%rax, 128(%rsp)
	movups	(%r15), %xmm0
	movaps	%xmm0, 112(%rsp)
	movl	$32, 56(%rsp)
	movl	$0, 12(%r15)
	movq	$0, 4(%r15)
	movq	$-1, 72(%rsp)
	cmpq	$0, 80(%rsp)
	jne	31f
	movq	40(%rsp), %rax
	movq	48(%rsp), %rcx
	cmpq	%rax, %rcx
	je	38f
17:
	movq	32(%rsp), %rdx
	movb	$60, (%rdx,%rax)
	incq	%rax
	movq	%rax, 40(%rsp)
	movq	%rcx, 48(%rsp)
18:
	movq	%r14, %rax
	shlq	$4, %rax
	movl	$32, 56(%rsp)
	movl	$0, 12(%r15)
	movq	$0, 4(%r15)
	movq	$-1, 72(%rsp)
	movq	(%rbp,%rax), %rsi
	movq	8(%rbp,%rax), %r12
	cmpq	$0, 80(%rsp)
	jne	32f
	movq	40(%rsp), %r15
	movq	48(%rsp), %r13
	movq	%r13, %rax
	subq	%r15, %rax
	cmpq	%rax, %r12
	ja	39f
19:
	movq	32(%rsp), %rax
	leaq	(%rax,%r15), %rdi
	movq	%rdi, %rcx
	subq	%rsi, %rcx
	cmpq	%r12, %rcx
	jae	25f
	cmpq	$4, %r12
	jb	20f
	cmpq	$32, %rcx
	jae	30f
20:
	xorl	%ecx, %ecx
21:
	movq	%r12, %r8
	movq	%rcx, %rdx
	andq	$3, %r8
	je	23f
	movq	%rcx, %rdx
	.p2align	4
22:
	movzbl	(%rsi,%rdx), %r9d
	movb	%r9b, (%rdi,%rdx)
	incq	%rdx
	decq	%r8
	jne	22b
23:
	subq	%r12, %rcx
	cmpq	$-4, %rcx
	ja	26f
	addq	%r15, %rax
	addq	$3, %rax
	.p2align	4
24:
	movzbl	(%rsi,%rdx), %ecx
	movb	%cl, -3(%rax,%rdx)
	movzbl	1(%rsi,%rdx), %ecx
	movb	%cl, -2(%rax,%rdx)
	movzbl	2(%rsi,%rdx), %ecx
	movb	%cl, -1(%rax,%rdx)
	movzbl	3(%rsi,%rdx), %ecx
	movb	%cl, (%rax,%rdx)
	addq	$4, %rdx
	cmpq	%rdx, %r12
	jne	24b
	jmp	26f
	.p2align	4
25:
	movq	%r12, %rdx
	callq	memmove@PLT
26:
	addq	%r12, %r15
	movq	%r15, 40(%rsp)
	movq	%r13, 48(%rsp)
	leaq	56(%rsp), %r15
27:
	movl	$32, 56(%rsp)
	movl	$0, 12(%r15)
	movq	$0, 4(%r15)
	movq	$-1, 72(%rsp)
	cmpq	$0, 80(%rsp)
	jne	37f
	movq	40(%rsp), %rax
	movq	48(%rsp), %rcx
	cmpq	%rax, %rcx
	je	40f
28:
	movq	32(%rsp), %rdx
	movb	$62, (%rdx,%rax)
	incq	%rax
	movq	%rax, 40(%rsp)
	movq	%rcx, 48(%rsp)
	movq	128(%rsp), %rax
	movq	%rax, 16(%r15)
	movaps	112(%rsp), %xmm0
	movups	%xmm0, (%r15)
29:
	incq	%r14
	movq	168(%rsp), %rax
	cmpq	%rax, %r14
	jne	14b
	jmp	7b
30:
	cmpq	$32, %r12
	jae	33f
	xorl	%ecx, %ecx
	jmp	35f
31:
	leaq	.L0264059b8465(%rip), %rsi
	leaq	32(%rsp), %rdi
	movl	$1, %edx
	callq	"core::fmt::formatter::Formatter::write_indented::<#0a7ff941e43d6b30>"
	testb	%al, %al
	je	18b
	jmp	76f
32:
	leaq	32(%rsp), %rdi
	movq	%r12, %rdx
	callq	"core::fmt::formatter::Formatter::write_indented::<#0a7ff941e43d6b30>"
	testb	%al, %al
	je	27b
	jmp	76f
33:
	movq	%r12, %rcx
	andq	$-32, %rcx
	leaq	(%rax,%r15), %rdx
	addq	$16, %rdx
	xorl	%r8d, %r8d
	.p2align	4
34:
	movups	(%rsi,%r8), %xmm0
	movups	16(%rsi,%r8), %xmm1
	movups	%xmm0, -16(%rdx,%r8)
	movups	%xmm1, (%rdx,%r8)
	addq	$32, %r8
	cmpq	%r8, %rcx
	jne	34b
	cmpq	%rcx, %r12
	je	26b
	testb	$28, %r12b
	je	21b
35:
	movq	%rcx, %rdx
	movq	%r12, %rcx
	andq	$-4, %rcx
	.p2align	4
36:
	movl	(%rsi,%rdx), %r8d
	movl	%r8d, (%rdi,%rdx)
	addq	$4, %rdx
	cmpq	%rdx, %rcx
	jne	36b
	cmpq	%rcx, %r12
	je	26b
	jmp	21b
37:
	leaq	.Ld6f1b0994a9e(%rip), %rsi
	leaq	32(%rsp), %rdi
	movl	$1, %edx
	callq	"core::fmt::formatter::Formatter::write_indented::<#0a7ff941e43d6b30>"
	movaps	112(%rsp), %xmm0
	movups	%xmm0, (%r15)
	movq	128(%rsp), %rcx
	movq	%rcx, 16(%r15)
	testb	%al, %al
	je	29b
	jmp	76f
38:
	leaq	32(%rsp), %rdi
	movl	$1, %esi
	callq	"std_alloc::vec::Vec::grow_amortized::<#1d775b5957dec42c>"
	testb	%al, %al
	je	76f
	movq	40(%rsp), %rax
	movq	48(%rsp), %rcx
	jmp	17b
39:
	movq	%rsi, 144(%rsp)
	leaq	32(%rsp), %rdi
	movq	%r12, %rsi
	callq	"std_alloc::vec::Vec::grow_amortized::<#1d775b5957dec42c>"
	testb	%al, %al
	je	76f
	movq	40(%rsp), %r15
	movq	48(%rsp), %r13
	movq	144(%rsp), %rsi
	jmp	19b
40:
	leaq	32(%rsp), %rdi
	movl	$1, %esi
	callq	"std_alloc::vec::Vec::grow_amortized::<#1d775b5957dec42c>"
	testb	%al, %al
	je	76f
	movq	40(%rsp), %rax
	movq	48(%rsp), %rcx
	jmp	28b
41:
	leaq	.L9b770efd7ae0(%rip), %rsi
	leaq	32(%rsp), %rdi
	movl	$1, %edx
	callq	"core::fmt::formatter::Formatter::write_indented::<#0a7ff941e43d6b30>"
	testb	%al, %al
	je	16b
	jmp	76f
42:
	leaq	32(%rsp), %rdi
	movl	$1, %esi
	callq	"std_alloc::vec::Vec::grow_amortized::<#1d775b5957dec42c>"
	testb	%al, %al
	je	76f
	movq	40(%rsp), %rax
	movq	48(%rsp), %rcx
	jmp	15b
43:
	addq	$416, %rdx
	movq	%rdx, %rbp
	jmp	45f
44:
	testq	%rax, %rax
	je	53f
45:
	movq	(%rbp), %rsi
	movq	8(%rbp), %r12
	movq	40(%rsp), %r14
	movq	48(%rsp), %r15
	movq	%r15, %rax
	subq	%r14, %rax
	cmpq	%rax, %r12
	ja	65f
46:
	movq	32(%rsp), %rax
	leaq	(%rax,%r14), %rdi
	movq	%rdi, %rcx
	subq	%rsi, %rcx
	cmpq	%r12, %rcx
	jae	5b
	cmpq	$4, %r12
	jb	47f
	cmpq	$32, %rcx
	jae	60f
47:
	xorl	%ecx, %ecx
48:
	movq	%r12, %r8
	movq	%rcx, %rdx
	andq	$3, %r8
	je	50f
	movq	%rcx, %rdx
	.p2align	4
49:
	movzbl	(%rsi,%rdx), %r9d
	movb	%r9b, (%rdi,%rdx)
	incq	%rdx
	decq	%r8
	jne	49b
50:
	subq	%r12, %rcx
	cmpq	$-4, %rcx
	ja	6b
	addq	%r14, %rax
	addq	$3, %rax
	.p2align	4
51:
	movzbl	(%rsi,%rdx), %ecx
	movb	%cl, -3(%rax,%rdx)
	movzbl	1(%rsi,%rdx), %ecx
	movb	%cl, -2(%rax,%rdx)
	movzbl	2(%rsi,%rdx), %ecx
	movb	%cl, -1(%rax,%rdx)
	movzbl	3(%rsi,%rdx), %ecx
	movb	%cl, (%rax,%rdx)
	addq	$4, %rdx
	cmpq	%rdx, %r12
	jne	51b
	jmp	6b
52:
	movq	%rdx, %r14
	movq	%rsp, %rdi
	movl	$1, %esi
	callq	"std_alloc::vec::Vec::grow_amortized::<#1d775b5957dec42c>"
	testb	%al, %al
	je	82f
	movq	8(%rsp), %rax
	movq	16(%rsp), %rcx
	movq	%r14, %rdx
	jmp	10b
53:
	movq	(%rdx), %rsi
	movq	8(%rdx), %r12
	movq	40(%rsp), %r14
	movq	48(%rsp), %r15
	movq	%r15, %rax
	subq	%r14, %rax
	cmpq	%rax, %r12
	ja	71f
54:
	movq	32(%rsp), %rax
	leaq	(%rax,%r14), %rdi
	movq	%rdi, %rcx
	subq	%rsi, %rcx
	cmpq	%r12, %rcx
	jae	5b
	cmpq	$4, %r12
	jb	55f
	cmpq	$32, %rcx
	jae	66f
55:
	xorl	%ecx, %ecx
56:
	movq	%r12, %r8
	movq	%rcx, %rdx
	andq	$3, %r8
	je	58f
	movq	%rcx, %rdx
	.p2align	4
57:
	movzbl	(%rsi,%rdx), %r9d
	movb	%r9b, (%rdi,%rdx)
	incq	%rdx
	decq	%r8
	jne	57b
58:
	subq	%r12, %rcx
	cmpq	$-4, %rcx
	ja	6b
	addq	%r14, %rax
	addq	$3, %rax
	.p2align	4
59:
	movzbl	(%rsi,%rdx), %ecx
	movb	%cl, -3(%rax,%rdx)
	movzbl	1(%rsi,%rdx), %ecx
	movb	%cl, -2(%rax,%rdx)
	movzbl	2(%rsi,%rdx), %ecx
	movb	%cl, -1(%rax,%rdx)
	movzbl	3(%rsi,%rdx), %ecx
	movb	%cl, (%rax,%rdx)
	addq	$4, %rdx
	cmpq	%rdx, %r12
	jne	59b
	jmp	6b
60:
	cmpq	$32, %r12
	jae	61f
	xorl	%ecx, %ecx
	jmp	63f
61:
	movq	%r12, %rcx
	andq	$-32, %rcx
	leaq	(%rax,%r14), %rdx
	addq	$16, %rdx
	xorl	%r8d, %r8d
	.p2align	4
62:
	movups	(%rsi,%r8), %xmm0
	movups	16(%rsi,%r8), %xmm1
	movups	%xmm0, -16(%rdx,%r8)
	movups	%xmm1, (%rdx,%r8)
	addq	$32, %r8
	cmpq	%r8, %rcx
	jne	62b
	cmpq	%rcx, %r12
	je	6b
	testb	$28, %r12b
	je	48b
63:
	movq	%rcx, %rdx
	movq	%r12, %rcx
	andq	$-4, %rcx
	.p2align	4
64:
	movl	(%rsi,%rdx), %r8d
	movl	%r8d, (%rdi,%rdx)
	addq	$4, %rdx
	cmpq	%rdx, %rcx
	jne	64b
	cmpq	%rcx, %r12
	je	6b
	jmp	48b
65:
	movq	%rsi, %r13
	leaq	32(%rsp), %rdi
	movq	%r12, %rsi
	callq	"std_alloc::vec::Vec::grow_amortized::<#1d775b5957dec42c>"
	testb	%al, %al
	je	76f
	movq	40(%rsp), %r14
	movq	48(%rsp), %r15
	movq	%r13, %rsi
	jmp	46b
66:
	cmpq	$32, %r12
	jae	67f
	xorl	%ecx, %ecx
	jmp	69f
67:
	movq	%r12, %rcx
	andq	$-32, %rcx
	leaq	(%rax,%r14), %rdx
	addq	$16, %rdx
	xorl	%r8d, %r8d
68:
	movups	(%rsi,%r8), %xmm0
	movups	16(%rsi,%r8), %xmm1
	movups	%xmm0, -16(%rdx,%r8)
	movups	%xmm1, (%rdx,%r8)
	addq	$32, %r8
	cmpq	%r8, %rcx
	jne	68b
	cmpq	%rcx, %r12
	je	6b
	testb	$28, %r12b
	je	56b
69:
	movq	%rcx, %rdx
	movq	%r12, %rcx
	andq	$-4, %rcx
70:
	movl	(%rsi,%rdx), %r8d
	movl	%r8d, (%rdi,%rdx)
	addq	$4, %rdx
	cmpq	%rdx, %rcx
	jne	70b
	cmpq	%rcx, %r12
	je	6b
	jmp	56b
71:
	movq	%rsi, %r13
	leaq	32(%rsp), %rdi
	movq	%r12, %rsi
	callq	"std_alloc::vec::Vec::grow_amortized::<#1d775b5957dec42c>"
	testb	%al, %al
	je	76f
	movq	40(%rsp), %r14
	movq	48(%rsp), %r15
	movq	%r13, %rsi
	jmp	54b
72:
	cmpq	$0, 96(%rsp)
	je	73f
	movq	%r12, %rdi
	callq	rattle_dealloc@PLT
73:
	movq	8(%rsp), %rax
	movq	16(%rsp), %rcx
	cmpq	%rax, %rcx
	movq	104(%rsp), %rbx
	je	79f
74:
	movq	(%rsp), %rdx
	movb	$62, (%rdx,%rax)
	incq	%rax
	movq	%rax, 8(%rsp)
	movq	%rcx, 16(%rsp)
	movb	$0, (%rbx)
	movq	(%rsp), %rax
	movq	%rax, 8(%rbx)
	movq	8(%rsp), %rax
	movq	%rax, 16(%rbx)
	movq	16(%rsp), %rax
	movq	%rax, 24(%rbx)
	jmp	3b
75:
	movq	(%rsp), %r14
	cmpq	$0, 96(%rsp)
	je	78f
	movq	%r12, %rdi
	jmp	77f
76:
	movq	48(%rsp), %rax
	movaps	32(%rsp), %xmm0
	movaps	%xmm0, (%rsp)
	movq	%rax, 16(%rsp)
	movq	(%rsp), %r14
	cmpq	$0, 96(%rsp)
	je	78f
	movq	136(%rsp), %rdi
77:
	callq	rattle_dealloc@PLT
78:
	cmpq	$0, 16(%rsp)
	movq	104(%rsp), %rbx
	je	2b
	movq	%r14, %rdi
	jmp	1b
79:
	movq	%rsp, %rdi
	movl	$1, %esi
	callq	"std_alloc::vec::Vec::grow_amortized::<#1d775b5957dec42c>"
	testb	%al, %al
	je	80f
	movq	8(%rsp), %rax
	movq	16(%rsp), %rcx
	jmp	74b
80:
	cmpq	$0, 16(%rsp)
	je	2b
81:
	movq	(%rsp), %rdi
	jmp	1b
82:
	cmpq	$0, 96(%rsp)
	je	83f
	movq	%r12, %rdi
	callq	rattle_dealloc@PLT
83:
	cmpq	$0, 16(%rsp)
	movq	104(%rsp), %rbx
	jne	81b
	jmp	2b
84:
	.size	"clap::output::usage::format_group", 84b-"clap::output::usage::format_group"

	.section	.rodata.cst16,"aM",@progbits,16
	.p2align	4, 0x0
1:
	.zero	16,1
	.text
	.p2align	4
	.type	"clap::output::usage::insert_text",@function
"clap::output::usage::insert_text":
	pushq	%rbp
	pushq	%r15
	pushq	%r14
	pushq	%r13
	pushq	%r12
	pushq	%rbx
	pushq	%rax
	movq	(%rsi), %rax
	movq	8(%rsi), %r15
	movq	16(%rsi), %rcx
	movq	%rcx, (%rsp)
	movq	8(%rdi), %rcx
	testq	%rcx, %rcx
	je	10f
	leaq	-16(%r15), %rdx
	cmpq	$32, %rdx
	movl	$32, %esi
	cmovbq	%rdx, %rsi
	leaq	-8(%r15), %r8
	cmpq	$8, %r8
	movl	$8, %r9d
	cmovbq	%r8, %r9
	cmpq	$16, %r8
	movl	$16, %r10d
	cmovbq	%r8, %r10
	movq	(%rdi), %r11
	movq	%r15, %rdx
	shrq	%rdx
	movq	%rcx, %r12
	jmp	4f
2:
	movl	(%r13), %r14d
	movl	-4(%r13,%r15), %r13d
	shlq	$32, %r13
	orq	%r14, %r13
	bswapq	%r13
	movl	(%rax), %ebp
	movl	-4(%rax,%r15), %r14d
	shlq	$32, %r14
	orq	%rbp, %r14
	bswapq	%r14
	cmpq	%r14, %r13
	je	9f
	.p2align	4
3:
	addq	$24, %r11
	decq	%r12
	je	10f
4:
	cmpq	%r15, 8(%r11)
	jne	3b
	movq	(%r11), %r13
	cmpq	$7, %r15
	ja	5f
	cmpq	$4, %r15
	jae	2b
	testq	%r15, %r15
	je	9f
	movzbl	(%r13), %ebp
	movzbl	(%r13,%rdx), %r14d
	shll	$16, %ebp
	shll	$8, %r14d
	orl	%ebp, %r14d
	movzbl	-1(%r13,%r15), %r13d
	orq	%r14, %r13
	movzbl	(%rax), %ebp
	movzbl	(%rax,%rdx), %ebx
	shll	$16, %ebp
	shll	$8, %ebx
	orl	%ebp, %ebx
	movzbl	-1(%rax,%r15), %r14d
	orq	%rbx, %r14
	cmpq	%r14, %r13
	jne	3b
	jmp	9f
	.p2align	4
5:
	cmpq	$32, %r15
	ja	6f
	movq	(%r13), %rbx
	cmpq	(%rax), %rbx
	jne	3b
	movq	(%rax,%r9), %rbx
	cmpq	%rbx, (%r13,%r9)
	jne	3b
	movq	(%rax,%r10), %rbx
	cmpq	%rbx, (%r13,%r10)
	jne	3b
	movq	(%rax,%r8), %rbx
	cmpq	%rbx, (%r13,%r8)
	jne	3b
	jmp	9f
6:
	cmpq	$65, %r15
	jae	7f
	movdqu	(%r13), %xmm0
	movdqu	16(%r13), %xmm1
	movdqu	(%rax), %xmm2
	pcmpeqb	%xmm0, %xmm2
	movdqu	16(%rax), %xmm3
	pcmpeqb	%xmm1, %xmm3
	pcmpeqd	%xmm1, %xmm1
	pxor	%xmm1, %xmm2
	pxor	%xmm1, %xmm3
	por	%xmm2, %xmm3
	movdqu	(%r13,%rsi), %xmm0
	movdqu	(%rax,%rsi), %xmm2
	pcmpeqb	%xmm0, %xmm2
	pxor	%xmm1, %xmm2
	leaq	-16(%r15), %rbx
	movdqu	(%r13,%rbx), %xmm4
	movdqu	(%rax,%rbx), %xmm0
	pcmpeqb	%xmm4, %xmm0
	pxor	%xmm1, %xmm0
	por	%xmm2, %xmm0
	por	%xmm3, %xmm0
	ptest	1b(%rip), %xmm0
	jne	3b
	jmp	9f
7:
	xorl	%ebp, %ebp
	movq	%r15, %r14
	.p2align	4
8:
	movdqu	(%r13,%rbp), %xmm0
	movdqu	16(%r13,%rbp), %xmm1
	movdqu	32(%r13,%rbp), %xmm2
	movdqu	48(%r13,%rbp), %xmm3
	movdqu	(%rax,%rbp), %xmm4
	pcmpeqb	%xmm0, %xmm4
	movdqu	16(%rax,%rbp), %xmm0
	pcmpeqb	%xmm1, %xmm0
	pand	%xmm4, %xmm0
	movdqu	32(%rax,%rbp), %xmm1
	pcmpeqb	%xmm2, %xmm1
	movdqu	48(%rax,%rbp), %xmm2
	pcmpeqb	%xmm3, %xmm2
	pand	%xmm1, %xmm2
	pand	%xmm0, %xmm2
	pmovmskb	%xmm2, %ebx
	cmpl	$65535, %ebx
	jne	3b
	addq	$64, %rbp
	addq	$-64, %r14
	cmpq	$65, %r14
	jae	8b
	movdqu	-64(%r13,%r15), %xmm0
	movdqu	-48(%r13,%r15), %xmm1
	movdqu	-32(%r13,%r15), %xmm2
	movdqu	-16(%r13,%r15), %xmm3
	movdqu	-64(%rax,%r15), %xmm4
	pcmpeqb	%xmm0, %xmm4
	movdqu	-48(%rax,%r15), %xmm5
	pcmpeqb	%xmm1, %xmm5
	movdqu	-32(%rax,%r15), %xmm0
	pcmpeqb	%xmm2, %xmm0
	movdqu	-16(%rax,%r15), %xmm1
	pcmpeqb	%xmm3, %xmm1
	pcmpeqd	%xmm2, %xmm2
	pxor	%xmm2, %xmm1
	pxor	%xmm2, %xmm0
	por	%xmm1, %xmm0
	pxor	%xmm2, %xmm4
	pxor	%xmm2, %xmm5
	por	%xmm4, %xmm5
	por	%xmm0, %xmm5
	pxor	%xmm0, %xmm0
	pcmpgtb	%xmm5, %xmm0
	ptest	1b(%rip), %xmm0
	jne	3b
9:
	cmpq	$0, (%rsp)
	je	12f
	movq	%rax, %rdi
	callq	rattle_dealloc@PLT
	jmp	12f
10:
	cmpq	%rcx, 16(%rdi)
	je	14f
11:
	movq	(%rdi), %rdx
	leaq	(%rcx,%rcx,2), %rsi
	movq	%rax, (%rdx,%rsi,8)
	movq	%r15, 8(%rdx,%rsi,8)
	movq	(%rsp), %rax
	movq	%rax, 16(%rdx,%rsi,8)
	incq	%rcx
	movq	%rcx, 8(%rdi)
12:
	xorl	%eax, %eax
13:
	addq	$8, %rsp
	popq	%rbx
	popq	%r12
	popq	%r13
	popq	%r14
	popq	%r15
	popq	%rbp
	retq
14:
	movq	%rax, %r14
	movq	%rdi, %r12
	callq	"std_alloc::vec::Vec::grow_amortized::<#973b4a116d082bbd>"
	testb	%al, %al
	je	15f
	movq	%r12, %rdi
	movq	8(%r12), %rcx
	movq	%r14, %rax
	jmp	11b
15:
	movb	$1, %al
	cmpq	$0, (%rsp)
	je	13b
	movq	%r14, %rdi
	callq	rattle_dealloc@PLT
	movb	$1, %al
	jmp	13b
16:
	.size	"clap::output::usage::insert_text", 16b-"clap::output::usage::insert_text"

	.section	.rodata.cst16,"aM",@progbits,16
	.p2align	4, 0x0
1:
	.zero	16,1
	.text
	.p2align	4
	.type	"clap::output::usage::required_usage_from",@function
"clap::output::usage::required_usage_from":
	pushq	%rbp
	pushq	%r15
	pushq	%r14
	pushq	%r13
	pushq	%r12
	pushq	%rbx
	subq	$808, %rsp
	movq	%r9, %r15
	movl	%r8d, %ebp
	movq	%rcx, %r13
	movq	%rdx, %rbx
	movq	%rsi, %r12
	movq	%rdi, %r14
	movq	864(%rsp), %rdx
	movq	872(%rsp), %rcx
	pxor	%xmm0, %xmm0
	movdqa	%xmm0, 64(%rsp)
	movq	$0, 80(%rsp)
	movdqa	%xmm0, 32(%rsp)
	movq	$0, 48(%rsp)
	movdqa	%xmm0, 128(%rsp)
	movq	$0, 144(%rsp)
	movdqa	%xmm0, 224(%rsp)
	movq	$0, 240(%rsp)
	movdqa	%xmm0, 192(%rsp)
	movq	$0, 208(%rsp)
	movdqa	%xmm0, 96(%rsp)
	movq	$0, 112(%rsp)
	movdqa	%xmm0, 624(%rsp)
	movdqa	%xmm0, 640(%rsp)
	movdqa	%xmm0, 512(%rsp)
	movdqa	%xmm0, 496(%rsp)
	movdqa	%xmm0, 720(%rsp)
	movdqa	%xmm0, 704(%rsp)
	movdqu	%xmm0, 751(%rsp)
	movdqa	%xmm0, 736(%rsp)
	movdqa	%xmm0, 672(%rsp)
	movdqa	%xmm0, 688(%rsp)
	movdqa	%xmm0, 528(%rsp)
	movq	$0, 544(%rsp)
	movdqa	%xmm0, 448(%rsp)
	movdqa	%xmm0, 464(%rsp)
	movq	$0, 480(%rsp)
	movdqa	%xmm0, 400(%rsp)
	movdqa	%xmm0, 416(%rsp)
	movq	$0, 432(%rsp)
	movdqa	%xmm0, 352(%rsp)
	movdqa	%xmm0, 368(%rsp)
	movq	$0, 384(%rsp)
	movdqa	%xmm0, 320(%rsp)
	movdqa	%xmm0, 304(%rsp)
	movq	$0, 336(%rsp)
	leaq	624(%rsp), %rdi
	callq	"clap::output::usage::unrolled_requires"
	cmpb	$0, 624(%rsp)
	je	2f
	movb	$1, (%r14)
	pxor	%xmm0, %xmm0
	movdqu	%xmm0, 8(%r14)
	movq	$0, 24(%r14)
	jmp	62f
2:
	movq	%r12, 160(%rsp)
	movl	%ebp, 176(%rsp)
	movq	%r15, 264(%rsp)
	movq	%r14, 16(%rsp)
	movdqu	632(%rsp), %xmm0
	movdqa	%xmm0, 64(%rsp)
	movq	648(%rsp), %rax
	movq	%rax, 80(%rsp)
	movq	72(%rsp), %rbp
	testq	%r13, %r13
	je	7f
	addq	$8, %rbx
	jmp	5f
3:
	movq	72(%rsp), %rbp
	.p2align	4
4:
	movq	64(%rsp), %r12
	movq	%rbp, %rax
	shlq	$4, %rax
	movq	%r14, (%r12,%rax)
	movq	%r15, 8(%r12,%rax)
	incq	%rbp
	movq	%rbp, 72(%rsp)
	addq	$16, %rbx
	decq	%r13
	je	8f
5:
	movq	-8(%rbx), %r14
	movq	(%rbx), %r15
	cmpq	%rbp, 80(%rsp)
	jne	4b
	leaq	64(%rsp), %rdi
	movl	$1, %esi
	callq	"std_alloc::vec::Vec::grow_amortized::<#3af3ba23e56e6a09>"
	testb	%al, %al
	jne	3b
	cmpq	$0, 80(%rsp)
	je	6f
	movq	64(%rsp), %rdi
	callq	rattle_dealloc@PLT
6:
	movq	16(%rsp), %rax
	movb	$1, (%rax)
	pxor	%xmm0, %xmm0
	movdqu	%xmm0, 8(%rax)
	movq	$0, 24(%rax)
	jmp	62f
7:
	movq	64(%rsp), %r12
8:
	movq	%rsp, %rax
	movq	%rax, 32(%rsp)
	pxor	%xmm0, %xmm0
	movdqu	%xmm0, 40(%rsp)
	movq	%rax, 128(%rsp)
	movdqu	%xmm0, 136(%rsp)
	testq	%rbp, %rbp
	movq	%r12, 8(%rsp)
	movq	160(%rsp), %r14
	je	25f
	xorl	%r13d, %r13d
	jmp	12f
9:
	cmpq	$0, 120(%rsp)
	movq	8(%rsp), %r12
	je	11f
10:
	movq	24(%rsp), %rdi
	callq	rattle_dealloc@PLT
11:
	incq	%r13
	cmpq	%rbp, %r13
	je	25f
12:
	movq	%r13, %rax
	shlq	$4, %rax
	movq	(%r12,%rax), %r15
	movq	%rax, 216(%rsp)
	movq	8(%r12,%rax), %rbx
	movq	624(%r14), %rdi
	movq	632(%r14), %rsi
	movq	%r15, %rdx
	movq	%rbx, %rcx
	callq	"clap::builder::command::Command::find_group"
	cmpb	$1, %al
	jne	11b
	leaq	496(%rsp), %rdi
	movq	%r14, %rsi
	movq	%r15, %rdx
	movq	%rbx, %rcx
	callq	"clap::builder::command::Command::args_in_group"
	cmpb	$0, 496(%rsp)
	jne	58f
	movq	%r13, 256(%rsp)
	movq	504(%rsp), %rax
	movq	%rax, 24(%rsp)
	movq	512(%rsp), %r12
	movq	520(%rsp), %rax
	movq	%rax, 120(%rsp)
	testq	%r12, %r12
	setne	%al
	testb	%al, 176(%rsp)
	je	16f
	movq	264(%rsp), %rax
	movq	(%rax), %rbx
	movq	8(%rax), %r15
	movq	24(%rsp), %r14
	movq	%r12, %r13
	jmp	14f
	.p2align	4
13:
	decq	%r13
	addq	$16, %r14
	testq	%r13, %r13
	je	16f
14:
	movq	(%r14), %rdx
	movq	8(%r14), %rcx
	movq	%rbx, %rdi
	movq	%r15, %rsi
	callq	"clap::parser::matches::Found::get"
	cmpb	$1, %al
	jne	13b
	cmpb	$1, (%rdx)
	jne	15f
	testb	$1, 1(%rdx)
	je	13b
15:
	cmpq	$0, 120(%rsp)
	movq	8(%rsp), %r12
	movq	160(%rsp), %r14
	movq	256(%rsp), %r13
	jne	10b
	jmp	11b
	.p2align	4
16:
	movq	8(%rsp), %rax
	movq	216(%rsp), %rcx
	movq	(%rax,%rcx), %rdx
	movq	8(%rax,%rcx), %rcx
	leaq	704(%rsp), %rdi
	movq	160(%rsp), %r14
	movq	%r14, %rsi
	callq	"clap::output::usage::format_group"
	cmpb	$0, 704(%rsp)
	jne	50f
	leaq	128(%rsp), %rdi
	leaq	712(%rsp), %rsi
	callq	"clap::output::usage::insert_text"
	testb	%al, %al
	jne	50f
	incq	%r12
	movq	24(%rsp), %rax
	leaq	8(%rax), %rcx
	movq	256(%rsp), %r13
	.p2align	4
17:
	decq	%r12
	je	9b
	leaq	16(%rcx), %rbx
	movq	-8(%rcx), %rsi
	movq	(%rcx), %rdx
	leaq	32(%rsp), %rdi
	callq	"clap::builder::command::insert_id"
	movq	%rbx, %rcx
	testb	%al, %al
	je	17b
	cmpq	$0, 120(%rsp)
	je	18f
	movq	24(%rsp), %rdi
	callq	rattle_dealloc@PLT
18:
	movq	128(%rsp), %rbx
	movq	136(%rsp), %r15
	movq	144(%rsp), %r14
	testq	%r15, %r15
	movq	16(%rsp), %r13
	je	21f
	leaq	16(%rbx), %r12
	jmp	20f
	.p2align	4
19:
	addq	$24, %r12
	decq	%r15
	je	21f
20:
	cmpq	$0, (%r12)
	je	19b
	movq	-16(%r12), %rdi
	callq	rattle_dealloc@PLT
	jmp	19b
21:
	testq	%r14, %r14
	je	22f
	movq	%rbx, %rdi
	callq	rattle_dealloc@PLT
22:
	cmpq	$0, 48(%rsp)
	movq	8(%rsp), %rbx
	je	23f
	movq	32(%rsp), %rdi
	callq	rattle_dealloc@PLT
23:
	cmpq	$0, 80(%rsp)
	je	24f
	movq	%rbx, %rdi
	callq	rattle_dealloc@PLT
24:
	movb	$1, (%r13)
	pxor	%xmm0, %xmm0
	movdqu	%xmm0, 8(%r13)
	movq	$0, 24(%r13)
	jmp	62f
25:
	movq	%rsp, %rax
	movq	%rax, 224(%rsp)
	pxor	%xmm0, %xmm0
	movdqu	%xmm0, 232(%rsp)
	movq	%rax, 192(%rsp)
	movdqu	%xmm0, 200(%rsp)
	testq	%rbp, %rbp
	je	38f
	movq	32(%rsp), %rax
	movq	%rax, 216(%rsp)
	movq	40(%rsp), %rax
	movq	%rax, 24(%rsp)
	xorl	%r12d, %r12d
	jmp	27f
26:
	movq	16(%rdx), %rax
	movq	%rax, 544(%rsp)
	movdqu	(%rdx), %xmm0
	movdqa	%xmm0, 528(%rsp)
	leaq	224(%rsp), %rdi
	leaq	528(%rsp), %rsi
	callq	"clap::output::usage::insert_text"
	testb	%al, %al
	je	37f
	jmp	55f
	.p2align	4
27:
	movq	%r12, %rax
	shlq	$4, %rax
	movq	8(%rsp), %rcx
	movq	(%rcx,%rax), %r15
	movq	8(%rcx,%rax), %rbx
	movq	576(%r14), %rdi
	movq	584(%r14), %rsi
	movq	%r15, %rdx
	movq	%rbx, %rcx
	callq	"clap::builder::command::Command::find"
	cmpb	$1, %al
	jne	37f
	movq	%rdx, %r13
	cmpb	$1, 176(%rsp)
	jne	28f
	movq	264(%rsp), %rax
	movq	(%rax), %rdi
	movq	8(%rax), %rsi
	movq	%r15, %rdx
	movq	%rbx, %rcx
	callq	"clap::parser::matches::Found::get"
	cmpb	$1, %al
	jne	28f
	cmpb	$1, (%rdx)
	jne	37f
	testb	$1, 1(%rdx)
	jne	37f
	.p2align	4
28:
	cmpq	$0, 24(%rsp)
	je	36f
	movq	(%r13), %rax
	movq	8(%r13), %r10
	leaq	-16(%r10), %rcx
	cmpq	$32, %rcx
	movl	$32, %esi
	cmovbq	%rcx, %rsi
	leaq	-8(%r10), %rcx
	cmpq	$8, %rcx
	movl	$8, %r8d
	cmovbq	%rcx, %r8
	cmpq	$16, %rcx
	movl	$16, %r9d
	cmovbq	%rcx, %r9
	movq	%r10, %rdi
	shrq	%rdi
	movq	216(%rsp), %r11
	movq	24(%rsp), %rbx
	jmp	30f
29:
	movl	(%r15), %ecx
	movl	-4(%r15,%r10), %edx
	shlq	$32, %rdx
	orq	%rcx, %rdx
	bswapq	%rdx
	movl	(%rax), %r14d
	movl	-4(%rax,%r10), %ecx
	shlq	$32, %rcx
	orq	%r14, %rcx
	bswapq	%rcx
	cmpq	%rcx, %rdx
	jne	35f
	jmp	37f
	.p2align	4
30:
	cmpq	%r10, 8(%r11)
	jne	35f
	movq	(%r11), %r15
	cmpq	$7, %r10
	ja	31f
	cmpq	$4, %r10
	jae	29b
	testq	%r10, %r10
	je	37f
	movzbl	(%r15), %ecx
	movzbl	(%r15,%rdi), %r14d
	shll	$16, %ecx
	shll	$8, %r14d
	orl	%ecx, %r14d
	movzbl	-1(%r15,%r10), %edx
	orq	%r14, %rdx
	movzbl	(%rax), %ecx
	movzbl	(%rax,%rdi), %r14d
	shll	$16, %ecx
	shll	$8, %r14d
	orl	%ecx, %r14d
	movzbl	-1(%rax,%r10), %ecx
	orq	%r14, %rcx
	cmpq	%rcx, %rdx
	jne	35f
	jmp	37f
	.p2align	4
31:
	cmpq	$32, %r10
	ja	32f
	movq	(%r15), %rcx
	cmpq	(%rax), %rcx
	jne	35f
	movq	(%rax,%r8), %rcx
	cmpq	%rcx, (%r15,%r8)
	jne	35f
	movq	(%rax,%r9), %rcx
	cmpq	%rcx, (%r15,%r9)
	jne	35f
	leaq	-8(%r10), %rdx
	movq	(%rax,%rdx), %rcx
	cmpq	%rcx, (%r15,%rdx)
	jne	35f
	jmp	37f
32:
	cmpq	$65, %r10
	jae	33f
	movdqu	(%r15), %xmm0
	movdqu	16(%r15), %xmm1
	movdqu	(%rax), %xmm2
	pcmpeqb	%xmm0, %xmm2
	movdqu	16(%rax), %xmm3
	pcmpeqb	%xmm1, %xmm3
	pcmpeqd	%xmm1, %xmm1
	pxor	%xmm1, %xmm2
	pxor	%xmm1, %xmm3
	por	%xmm2, %xmm3
	movdqu	(%r15,%rsi), %xmm0
	movdqu	(%rax,%rsi), %xmm2
	pcmpeqb	%xmm0, %xmm2
	pxor	%xmm1, %xmm2
	leaq	-16(%r10), %rcx
	movdqu	(%r15,%rcx), %xmm4
	movdqu	(%rax,%rcx), %xmm0
	pcmpeqb	%xmm4, %xmm0
	pxor	%xmm1, %xmm0
	por	%xmm2, %xmm0
	por	%xmm3, %xmm0
	ptest	1b(%rip), %xmm0
	jne	35f
	jmp	37f
33:
	xorl	%edx, %edx
	movq	%r10, %rcx
	.p2align	4
34:
	movdqu	(%r15,%rdx), %xmm0
	movdqu	16(%r15,%rdx), %xmm1
	movdqu	32(%r15,%rdx), %xmm2
	movdqu	48(%r15,%rdx), %xmm3
	movdqu	(%rax,%rdx), %xmm4
	pcmpeqb	%xmm0, %xmm4
	movdqu	16(%rax,%rdx), %xmm0
	pcmpeqb	%xmm1, %xmm0
	pand	%xmm4, %xmm0
	movdqu	32(%rax,%rdx), %xmm1
	pcmpeqb	%xmm2, %xmm1
	movdqu	48(%rax,%rdx), %xmm2
	pcmpeqb	%xmm3, %xmm2
	pand	%xmm1, %xmm2
	pand	%xmm0, %xmm2
	pmovmskb	%xmm2, %r14d
	cmpl	$65535, %r14d
	jne	35f
	addq	$64, %rdx
	addq	$-64, %rcx
	cmpq	$65, %rcx
	jae	34b
	movdqu	-64(%r15,%r10), %xmm0
	movdqu	-48(%r15,%r10), %xmm1
	movdqu	-32(%r15,%r10), %xmm2
	movdqu	-16(%r15,%r10), %xmm3
	movdqu	-64(%rax,%r10), %xmm4
	pcmpeqb	%xmm0, %xmm4
	movdqu	-48(%rax,%r10), %xmm5
	pcmpeqb	%xmm1, %xmm5
	movdqu	-32(%rax,%r10), %xmm0
	pcmpeqb	%xmm2, %xmm0
	movdqu	-16(%rax,%r10), %xmm1
	pcmpeqb	%xmm3, %xmm1
	pcmpeqd	%xmm2, %xmm2
	pxor	%xmm2, %xmm1
	pxor	%xmm2, %xmm0
	por	%xmm1, %xmm0
	pxor	%xmm2, %xmm4
	pxor	%xmm2, %xmm5
	por	%xmm4, %xmm5
	por	%xmm0, %xmm5
	pxor	%xmm0, %xmm0
	pcmpgtb	%xmm5, %xmm0
	ptest	1b(%rip), %xmm0
	je	37f
	.p2align	4
35:
	addq	$16, %r11
	decq	%rbx
	jne	30b
36:
	movq	$257, 664(%rsp)
	pxor	%xmm0, %xmm0
	movdqa	%xmm0, 768(%rsp)
	movdqu	%xmm0, 783(%rsp)
	movq	%r13, 656(%rsp)
	leaq	568(%rsp), %rbx
	movdqu	%xmm0, (%rbx)
	movl	$0, 52(%rbx)
	movl	$0, 49(%rbx)
	movq	%rsp, %rax
	movq	%rax, 560(%rsp)
	movl	$32, 584(%rsp)
	movl	$0, 28(%rbx)
	movq	$0, 20(%rbx)
	movq	$-1, 600(%rsp)
	movq	$0, 608(%rsp)
	movb	$0, 616(%rsp)
	movq	32(%rbx), %rax
	movq	%rax, 288(%rsp)
	movl	16(%rbx), %eax
	movl	%eax, 272(%rsp)
	movq	20(%rbx), %rax
	movq	%rax, 276(%rsp)
	movl	28(%rbx), %eax
	movl	%eax, 284(%rsp)
	movl	$32, 584(%rsp)
	movl	$0, 28(%rbx)
	movq	$0, 20(%rbx)
	movq	$-1, 600(%rsp)
	leaq	656(%rsp), %rdi
	leaq	560(%rsp), %rsi
	callq	"clap::builder::arg::StylizedDisplay::fmt::<#86a172efa8724158>"
	movdqa	272(%rsp), %xmm0
	movdqu	%xmm0, 16(%rbx)
	movq	288(%rsp), %rcx
	movq	%rcx, 32(%rbx)
	testb	%al, %al
	jne	51f
	movq	576(%rsp), %rax
	leaq	775(%rsp), %rcx
	movq	%rax, 16(%rcx)
	movups	560(%rsp), %xmm0
	movups	%xmm0, (%rcx)
	movq	16(%rcx), %rax
	leaq	743(%rsp), %rdx
	movq	%rax, 16(%rdx)
	movups	(%rcx), %xmm0
	movups	%xmm0, (%rdx)
	cmpb	$1, 488(%r13)
	jne	26b
	movq	496(%r13), %rsi
	movq	$1, 672(%rsp)
	movq	16(%rdx), %rax
	leaq	680(%rsp), %rcx
	movq	%rax, 16(%rcx)
	movdqu	(%rdx), %xmm0
	movdqu	%xmm0, (%rcx)
	leaq	192(%rsp), %rdi
	leaq	672(%rsp), %rdx
	callq	"clap::output::usage::set_place"
	testb	%al, %al
	jne	55f
	.p2align	4
37:
	incq	%r12
	cmpq	%rbp, %r12
	movq	160(%rsp), %r14
	jne	27b
38:
	movq	240(%rsp), %rax
	movq	%rax, 112(%rsp)
	movq	224(%rsp), %rax
	movq	%rax, 96(%rsp)
	movq	232(%rsp), %rax
	movq	%rax, 104(%rsp)
	movq	128(%rsp), %r12
	movq	136(%rsp), %r13
	movq	144(%rsp), %rax
	movq	%rax, 176(%rsp)
	testq	%r13, %r13
	je	41f
	movq	104(%rsp), %rax
	leaq	16(%r12), %r15
	xorl	%ebp, %ebp
	jmp	40f
	.p2align	4
39:
	incq	%rbp
	movq	96(%rsp), %rcx
	leaq	(%rax,%rax,2), %rdx
	movq	%rbx, (%rcx,%rdx,8)
	movdqu	%xmm0, 8(%rcx,%rdx,8)
	incq	%rax
	movq	%rax, 104(%rsp)
	addq	$24, %r15
	cmpq	%rbp, %r13
	je	41f
40:
	movq	-16(%r15), %rbx
	movdqu	-8(%r15), %xmm0
	cmpq	%rax, 112(%rsp)
	jne	39b
	movdqa	%xmm0, 160(%rsp)
	movq	(%r15), %r14
	leaq	96(%rsp), %rdi
	callq	"std_alloc::vec::Vec::grow_amortized::<#973b4a116d082bbd>"
	testb	%al, %al
	je	63f
	movq	104(%rsp), %rax
	movdqa	160(%rsp), %xmm0
	jmp	39b
41:
	movq	%r12, 400(%rsp)
	movq	$0, 408(%rsp)
	movq	176(%rsp), %rax
	movq	%rax, 416(%rsp)
	movq	%r13, 424(%rsp)
	movq	$0, 432(%rsp)
	leaq	400(%rsp), %rdi
	callq	"std_alloc::vec::deque::VecDeque::drop::<#2d89a01c2ecea42b>"
	movq	192(%rsp), %r12
	movq	200(%rsp), %r13
	movq	208(%rsp), %rsi
	testq	%r13, %r13
	je	47f
	leaq	24(%r12), %r15
	xorl	%ebp, %ebp
	jmp	45f
42:
	movq	104(%rsp), %rax
	movq	160(%rsp), %rsi
	movdqa	176(%rsp), %xmm0
	.p2align	4
43:
	movq	96(%rsp), %rcx
	leaq	(%rax,%rax,2), %rdx
	movq	%rbx, (%rcx,%rdx,8)
	movdqu	%xmm0, 8(%rcx,%rdx,8)
	incq	%rax
	movq	%rax, 104(%rsp)
44:
	incq	%rbp
	addq	$32, %r15
	cmpq	%rbp, %r13
	je	47f
45:
	cmpb	$1, -24(%r15)
	jne	44b
	movq	-16(%r15), %rbx
	movdqu	-8(%r15), %xmm0
	movq	104(%rsp), %rax
	cmpq	%rax, 112(%rsp)
	jne	43b
	movdqa	%xmm0, 176(%rsp)
	movq	%rsi, 160(%rsp)
	movq	(%r15), %r14
	leaq	96(%rsp), %rdi
	callq	"std_alloc::vec::Vec::grow_amortized::<#973b4a116d082bbd>"
	testb	%al, %al
	jne	42b
	leaq	1(%rbp), %r15
	notq	%rbp
	addq	%r13, %rbp
	testq	%r14, %r14
	je	46f
	movq	%rbx, %rdi
	callq	rattle_dealloc@PLT
46:
	movq	%r12, 352(%rsp)
	movq	%rbp, 360(%rsp)
	movq	160(%rsp), %rax
	movq	%rax, 368(%rsp)
	movq	%r15, 376(%rsp)
	movq	$0, 384(%rsp)
	leaq	352(%rsp), %rdi
	callq	"std_alloc::vec::deque::VecDeque::drop::<#1a1580c2cfb41205>"
	leaq	96(%rsp), %rdi
	callq	"std_alloc::vec::Vec::drop::<#2d89a01c2ecea42b>"
	cmpq	$0, 48(%rsp)
	jne	56f
	jmp	57f
47:
	movq	%r12, 304(%rsp)
	movq	$0, 312(%rsp)
	movq	%rsi, 320(%rsp)
	movq	%r13, 328(%rsp)
	movq	$0, 336(%rsp)
	leaq	304(%rsp), %rdi
	callq	"std_alloc::vec::deque::VecDeque::drop::<#1a1580c2cfb41205>"
	cmpq	$0, 48(%rsp)
	je	48f
	movq	32(%rsp), %rdi
	callq	rattle_dealloc@PLT
48:
	cmpq	$0, 80(%rsp)
	movq	16(%rsp), %rbx
	movq	8(%rsp), %rdi
	je	49f
	callq	rattle_dealloc@PLT
49:
	movb	$0, (%rbx)
	movdqa	96(%rsp), %xmm0
	movdqu	%xmm0, 8(%rbx)
	movq	112(%rsp), %rax
	movq	%rax, 24(%rbx)
	jmp	62f
50:
	cmpq	$0, 120(%rsp)
	je	53f
	movq	24(%rsp), %rdi
	callq	rattle_dealloc@PLT
	jmp	53f
51:
	cmpq	$0, 576(%rsp)
	je	52f
	movq	560(%rsp), %rdi
	callq	rattle_dealloc@PLT
52:
	leaq	192(%rsp), %rdi
	callq	"std_alloc::vec::Vec::drop::<#1a1580c2cfb41205>"
	leaq	224(%rsp), %rdi
	callq	"std_alloc::vec::Vec::drop::<#2d89a01c2ecea42b>"
53:
	leaq	128(%rsp), %rdi
	callq	"std_alloc::vec::Vec::drop::<#2d89a01c2ecea42b>"
	cmpq	$0, 48(%rsp)
	movq	16(%rsp), %rbx
	movq	8(%rsp), %r14
	je	54f
	movq	32(%rsp), %rdi
	callq	rattle_dealloc@PLT
54:
	cmpq	$0, 80(%rsp)
	je	61f
	movq	%r14, %rdi
	jmp	60f
55:
	leaq	192(%rsp), %rdi
	callq	"std_alloc::vec::Vec::drop::<#1a1580c2cfb41205>"
	leaq	224(%rsp), %rdi
	callq	"std_alloc::vec::Vec::drop::<#2d89a01c2ecea42b>"
	leaq	128(%rsp), %rdi
	callq	"std_alloc::vec::Vec::drop::<#2d89a01c2ecea42b>"
	cmpq	$0, 48(%rsp)
	je	57f
56:
	movq	32(%rsp), %rdi
	callq	rattle_dealloc@PLT
57:
	cmpq	$0, 80(%rsp)
	movq	16(%rsp), %rbx
	movq	8(%rsp), %rdi
	jne	60f
	jmp	61f
58:
	leaq	128(%rsp), %rdi
	callq	"std_alloc::vec::Vec::drop::<#2d89a01c2ecea42b>"
	cmpq	$0, 48(%rsp)
	je	59f
	movq	32(%rsp), %rdi
	callq	rattle_dealloc@PLT
59:
	cmpq	$0, 80(%rsp)
	movq	16(%rsp), %rbx
	je	61f
	movq	%r12, %rdi
60:
	callq	rattle_dealloc@PLT
61:
	movb	$1, (%rbx)
	pxor	%xmm0, %xmm0
	movdqu	%xmm0, 8(%rbx)
	movq	$0, 24(%rbx)
62:
	addq	$808, %rsp
	popq	%rbx
	popq	%r12
	popq	%r13
	popq	%r14
	popq	%r15
	popq	%rbp
	retq
63:
	leaq	1(%rbp), %r15
	notq	%rbp
	addq	%r13, %rbp
	testq	%r14, %r14
	je	64f
	movq	%rbx, %rdi
	callq	rattle_dealloc@PLT
64:
	movq	%r12, 448(%rsp)
	movq	%rbp, 456(%rsp)
	movq	176(%rsp), %rax
	movq	%rax, 464(%rsp)
	movq	%r15, 472(%rsp)
	movq	$0, 480(%rsp)
	leaq	448(%rsp), %rdi
	callq	"std_alloc::vec::deque::VecDeque::drop::<#2d89a01c2ecea42b>"
	leaq	96(%rsp), %rdi
	callq	"std_alloc::vec::Vec::drop::<#2d89a01c2ecea42b>"
	leaq	192(%rsp), %rdi
	callq	"std_alloc::vec::Vec::drop::<#1a1580c2cfb41205>"
	cmpq	$0, 48(%rsp)
	jne	56b
	jmp	57b
65:
	.size	"clap::output::usage::required_usage_from", 65b-"clap::output::usage::required_usage_from"

	.text
	.p2align	4
	.type	"clap::output::usage::set_place",@function
"clap::output::usage::set_place":
	pushq	%rbp
	pushq	%r15
	pushq	%r14
	pushq	%r13
	pushq	%r12
	pushq	%rbx
	subq	$40, %rsp
	movq	%rsi, %r14
	movq	%rdi, %r15
	movzbl	(%rdx), %r12d
	movq	8(%rdx), %rax
	movq	%rax, 8(%rsp)
	movq	24(%rdx), %r13
	movups	16(%rdx), %xmm0
	movaps	%xmm0, 16(%rsp)
	movq	8(%rdi), %rax
	movq	%rsi, %rcx
	incq	%rcx
	movq	$-1, %rbp
	cmovneq	%rcx, %rbp
	cmpq	%rbp, %rax
	jae	3f
	movq	%rax, %rbx
	jmp	2f
	.p2align	4
1:
	movq	(%r15), %rcx
	movq	%rax, %rdx
	shlq	$5, %rdx
	incq	%rax
	xorps	%xmm0, %xmm0
	movups	%xmm0, 16(%rcx,%rdx)
	movups	%xmm0, (%rcx,%rdx)
	movq	%rax, 8(%r15)
	incq	%rbx
	cmpq	%rbp, %rbx
	jae	3f
2:
	cmpq	%rax, 16(%r15)
	jne	1b
	movq	%r15, %rdi
	callq	"std_alloc::vec::Vec::grow_amortized::<#52d1c8244e310953>"
	testb	%al, %al
	je	8f
	movq	8(%r15), %rax
	jmp	1b
3:
	cmpq	%r14, %rax
	jbe	4f
	movq	(%r15), %rax
	shlq	$5, %r14
	movzbl	(%rax,%r14), %edx
	movq	8(%rax,%r14), %rdi
	movq	24(%rax,%r14), %rcx
	movq	%r12, (%rax,%r14)
	movq	8(%rsp), %rsi
	movq	%rsi, 8(%rax,%r14)
	movaps	16(%rsp), %xmm0
	movups	%xmm0, 16(%rax,%r14)
	xorl	%eax, %eax
	cmpb	$1, %dl
	jne	7f
	testq	%rcx, %rcx
	jne	5f
	jmp	7f
4:
	cmpl	$1, %r12d
	setne	%al
	testq	%r13, %r13
	sete	%cl
	orb	%al, %cl
	jne	6f
	movq	8(%rsp), %rdi
5:
	callq	rattle_dealloc@PLT
6:
	xorl	%eax, %eax
7:
	addq	$40, %rsp
	popq	%rbx
	popq	%r12
	popq	%r13
	popq	%r14
	popq	%r15
	popq	%rbp
	retq
8:
	cmpl	$1, %r12d
	setne	%al
	testq	%r13, %r13
	sete	%cl
	orb	%al, %cl
	movb	$1, %al
	jne	7b
	movq	8(%rsp), %rdi
	callq	rattle_dealloc@PLT
	movb	$1, %al
	jmp	7b
9:
	.size	"clap::output::usage::set_place", 9b-"clap::output::usage::set_place"

	.text
	.p2align	4
	.type	"clap::output::usage::unrolled_requires",@function
"clap::output::usage::unrolled_requires":
	pushq	%rbp
	pushq	%r15
	pushq	%r14
	pushq	%r13
	pushq	%r12
	pushq	%rbx
	subq	$152, %rsp
	movq	%r9, 96(%rsp)
	movl	%r8d, 52(%rsp)
	movq	%rsi, 88(%rsp)
	movq	%rdi, 40(%rsp)
	xorps	%xmm0, %xmm0
	movaps	%xmm0, 128(%rsp)
	movaps	%xmm0, 112(%rsp)
	leaq	8(%rsp), %rbx
	movq	%rbx, 16(%rsp)
	movups	%xmm0, 24(%rsp)
	movq	%rcx, 80(%rsp)
	testq	%rcx, %rcx
	je	8f
	movq	%rdx, %r12
	xorl	%r14d, %r14d
	movq	%rdx, 72(%rsp)
	.p2align	4
1:
	movq	%r14, %rbp
	shlq	$4, %rbp
	movq	(%r12,%rbp), %rdx
	movq	8(%r12,%rbp), %rcx
	movzbl	52(%rsp), %r8d
	leaq	112(%rsp), %rdi
	movq	88(%rsp), %rsi
	movq	96(%rsp), %r9
	callq	"clap::builder::command::Command::requires_of"
	cmpb	$0, 112(%rsp)
	jne	11f
	movq	%r14, 104(%rsp)
	movq	120(%rsp), %rdi
	movq	128(%rsp), %r15
	movq	136(%rsp), %rax
	movq	%rax, 64(%rsp)
	testq	%r15, %r15
	je	4f
	movq	24(%rsp), %rax
	leaq	8(%rdi), %r14
	movq	%rdi, 56(%rsp)
	jmp	3f
	.p2align	4
2:
	decq	%r15
	movq	%rax, %rcx
	shlq	$4, %rcx
	movq	%r12, (%rbx,%rcx)
	movq	%r13, 8(%rbx,%rcx)
	incq	%rax
	movq	%rax, 24(%rsp)
	addq	$16, %r14
	testq	%r15, %r15
	je	4f
3:
	movq	-8(%r14), %r12
	movq	(%r14), %r13
	cmpq	%rax, 32(%rsp)
	jne	2b
	leaq	16(%rsp), %rdi
	movl	$1, %esi
	callq	"std_alloc::vec::Vec::grow_amortized::<#3af3ba23e56e6a09>"
	testb	%al, %al
	je	9f
	movq	16(%rsp), %rbx
	movq	24(%rsp), %rax
	movq	56(%rsp), %rdi
	jmp	2b
	.p2align	4
4:
	cmpq	$0, 64(%rsp)
	je	5f
	callq	rattle_dealloc@PLT
5:
	movq	72(%rsp), %r12
	movq	(%r12,%rbp), %r14
	movq	8(%r12,%rbp), %r15
	movq	24(%rsp), %rax
	cmpq	%rax, 32(%rsp)
	je	7f
6:
	movq	16(%rsp), %rbx
	movq	%rax, %rcx
	shlq	$4, %rcx
	movq	%r14, (%rbx,%rcx)
	movq	%r15, 8(%rbx,%rcx)
	incq	%rax
	movq	%rax, 24(%rsp)
	movq	104(%rsp), %r14
	incq	%r14
	cmpq	80(%rsp), %r14
	jne	1b
	jmp	8f
7:
	leaq	16(%rsp), %rdi
	movl	$1, %esi
	callq	"std_alloc::vec::Vec::grow_amortized::<#3af3ba23e56e6a09>"
	testb	%al, %al
	je	10f
	movq	24(%rsp), %rax
	jmp	6b
8:
	movq	40(%rsp), %rcx
	movb	$0, (%rcx)
	movq	16(%rsp), %rax
	movq	%rax, 8(%rcx)
	movq	24(%rsp), %rax
	movq	%rax, 16(%rcx)
	movq	32(%rsp), %rax
	movq	%rax, 24(%rcx)
	jmp	14f
9:
	cmpq	$0, 64(%rsp)
	movq	56(%rsp), %rdi
	je	10f
	callq	rattle_dealloc@PLT
10:
	cmpq	$0, 32(%rsp)
	je	13f
	movq	16(%rsp), %rdi
	jmp	12f
11:
	cmpq	$0, 32(%rsp)
	je	13f
	movq	%rbx, %rdi
12:
	callq	rattle_dealloc@PLT
13:
	movq	40(%rsp), %rax
	movb	$1, (%rax)
	xorps	%xmm0, %xmm0
	movups	%xmm0, 8(%rax)
	movq	$0, 24(%rax)
14:
	addq	$152, %rsp
	popq	%rbx
	popq	%r12
	popq	%r13
	popq	%r14
	popq	%r15
	popq	%rbp
	retq
15:
	.size	"clap::output::usage::unrolled_requires", 15b-"clap::output::usage::unrolled_requires"

	.text
	.p2align	4
	.type	"clap::output::usage::with_title",@function
"clap::output::usage::with_title":
	pushq	%r15
	pushq	%r14
	pushq	%r13
	pushq	%r12
	pushq	%rbx
	subq	$80, %rsp
	movq	%rcx, %r14
	movq	%rdx, %r15
	movq	%rsi, %r12
	movq	%rdi, %rbx
	movzbl	(%r8), %r13d
	movups	8(%r8), %xmm0
	movaps	%xmm0, 32(%rsp)
	movl	$7, %edi
	movl	$1, %esi
	callq	rattle_alloc@PLT
	testb	$1, %al
	je	7f
	leaq	.L221f28267b7a(%rip), %rax
	movq	%rdx, %rcx
	subq	%rax, %rcx
	cmpq	$6, %rcx
	ja	1f
	movl	$1734439765, (%rdx)
	movw	$14949, 4(%rdx)
	movb	$32, 6(%rdx)
	jmp	2f
1:
	movl	$540697959, 3(%rdx)
	movl	$1734439765, (%rdx)
2:
	movq	%rdx, 8(%rsp)
	movq	$7, 16(%rsp)
	movq	$7, 24(%rsp)
	movq	%r13, 56(%rsp)
	movaps	32(%rsp), %xmm0
	movups	%xmm0, 64(%rsp)
	leaq	8(%rsp), %rsi
	leaq	56(%rsp), %r8
	movq	%r12, %rdi
	movq	%r15, %rdx
	movq	%r14, %rcx
	callq	"clap::output::usage::write_usage"
	testb	%al, %al
	je	3f
	cmpq	$0, 24(%rsp)
	je	7f
	movq	8(%rsp), %rdi
	jmp	6f
3:
	movq	8(%rsp), %r14
	movq	16(%rsp), %rsi
	movq	%r14, %rdi
	callq	"core::iter::words::str::trim_end"
	movq	%rax, %r12
	movq	%rdx, %r15
	testq	%rdx, %rdx
	je	9f
	js	5f
	movl	$1, %esi
	movq	%r15, %rdi
	callq	rattle_alloc@PLT
	testb	$1, %al
	je	5f
	movq	%rdx, %r13
	movq	%r13, %rcx
	subq	%r12, %rcx
	cmpq	%r15, %rcx
	jb	10f
4:
	movq	%r13, %rdi
	movq	%r12, %rsi
	movq	%r15, %rdx
	callq	memmove@PLT
	jmp	19f
5:
	cmpq	$0, 24(%rsp)
	je	7f
	movq	%r14, %rdi
6:
	callq	rattle_dealloc@PLT
7:
	movb	$1, (%rbx)
	xorps	%xmm0, %xmm0
	movups	%xmm0, 8(%rbx)
	movq	$0, 24(%rbx)
8:
	addq	$80, %rsp
	popq	%rbx
	popq	%r12
	popq	%r13
	popq	%r14
	popq	%r15
	retq
9:
	leaq	7(%rsp), %r13
	movq	%r13, %rcx
	subq	%r12, %rcx
	cmpq	%r15, %rcx
	jae	4b
10:
	xorl	%eax, %eax
	cmpq	$4, %r15
	jb	15f
	cmpq	$32, %rcx
	jb	15f
	cmpq	$32, %r15
	jae	11f
	xorl	%eax, %eax
	jmp	13f
11:
	movq	%r15, %rax
	andq	$-32, %rax
	xorl	%ecx, %ecx
	.p2align	4
12:
	movups	(%r12,%rcx), %xmm0
	movups	16(%r12,%rcx), %xmm1
	movups	%xmm0, (%r13,%rcx)
	movups	%xmm1, 16(%r13,%rcx)
	addq	$32, %rcx
	cmpq	%rcx, %rax
	jne	12b
	cmpq	%rax, %r15
	je	19f
	testb	$28, %r15b
	je	15f
13:
	movq	%rax, %rcx
	movq	%r15, %rax
	andq	$-4, %rax
	.p2align	4
14:
	movl	(%r12,%rcx), %edx
	movl	%edx, (%r13,%rcx)
	addq	$4, %rcx
	cmpq	%rcx, %rax
	jne	14b
	cmpq	%rax, %r15
	je	19f
15:
	movq	%r15, %rdx
	movq	%rax, %rcx
	andq	$3, %rdx
	je	17f
	movq	%rax, %rcx
	.p2align	4
16:
	movzbl	(%r12,%rcx), %esi
	movb	%sil, (%r13,%rcx)
	incq	%rcx
	decq	%rdx
	jne	16b
17:
	subq	%r15, %rax
	cmpq	$-4, %rax
	ja	19f
	.p2align	4
18:
	movzbl	(%r12,%rcx), %eax
	movb	%al, (%r13,%rcx)
	movzbl	1(%r12,%rcx), %eax
	movb	%al, 1(%r13,%rcx)
	movzbl	2(%r12,%rcx), %eax
	movb	%al, 2(%r13,%rcx)
	movzbl	3(%r12,%rcx), %eax
	movb	%al, 3(%r13,%rcx)
	addq	$4, %rcx
	cmpq	%rcx, %r15
	jne	18b
19:
	movq	%r13, 8(%rsp)
	movq	%r15, 16(%rsp)
	cmpq	$0, 24(%rsp)
	movq	%r15, 24(%rsp)
	je	20f
	movq	%r14, %rdi
	callq	rattle_dealloc@PLT
20:
	movb	$0, (%rbx)
	movq	8(%rsp), %rax
	movq	%rax, 8(%rbx)
	movq	16(%rsp), %rax
	movq	%rax, 16(%rbx)
	movq	24(%rsp), %rax
	movq	%rax, 24(%rbx)
	jmp	8b
21:
	.size	"clap::output::usage::with_title", 21b-"clap::output::usage::with_title"

	.text
	.p2align	4
	.type	"clap::output::usage::write_arg_usage",@function
"clap::output::usage::write_arg_usage":
	pushq	%rbp
	pushq	%r15
	pushq	%r14
	pushq	%r13
	pushq	%r12
	pushq	%rbx
	subq	$216, %rsp
	movl	%r9d, %ebx
	movq	%rcx, %r15
	movq	%rdx, %r13
	movq	%rsi, %r12
	movq	%rdi, %rbp
	cmpb	$1, 112(%rdi)
	jne	1f
	leaq	120(%rbp), %rax
	leaq	128(%rbp), %rcx
	jmp	2f
1:
	leaq	88(%rbp), %rax
	leaq	8(%rbp), %rdx
	leaq	96(%rbp), %rcx
	cmpb	$1, 80(%rbp)
	cmovneq	%rbp, %rax
	cmovneq	%rdx, %rcx
2:
	movzbl	(%r8), %edx
	movb	%dl, 11(%rsp)
	movq	8(%r8), %r14
	movq	16(%r8), %rdx
	movq	%rdx, 120(%rsp)
	movq	(%rcx), %rcx
	testq	%rcx, %rcx
	je	3f
	movq	(%rax), %rax
	movq	%rax, 184(%rsp)
	movq	%rcx, 192(%rsp)
	leaq	.L9b770efd7ae0(%rip), %rax
	movq	%rax, 200(%rsp)
	movq	$1, 208(%rsp)
	leaq	184(%rsp), %rsi
	movq	%r12, %rdi
	callq	"std_alloc::string::String::write_fmt::<#004689434896fd94>"
	movl	%eax, %ecx
	movb	$1, %al
	testb	%cl, %cl
	jne	16f
3:
	testq	%r15, %r15
	jne	14f
	movq	%r14, 72(%rsp)
	movl	%ebx, 28(%rsp)
	movq	%r12, 80(%rsp)
	xorps	%xmm0, %xmm0
	movaps	%xmm0, 48(%rsp)
	movaps	%xmm0, 32(%rsp)
	movq	$1, 160(%rsp)
	leaq	.L8a62443031f8(%rip), %rax
	movq	%rax, 168(%rsp)
	movq	$4, 176(%rsp)
	movq	$1, 136(%rsp)
	leaq	.Lbf4f69522365(%rip), %rax
	movq	%rax, 144(%rsp)
	movq	$7, 152(%rsp)
	movq	%rbp, 16(%rsp)
	movq	584(%rbp), %rax
	movq	%rax, 128(%rsp)
	testq	%rax, %rax
	je	13f
	movq	16(%rsp), %rax
	movq	576(%rax), %rbx
	xorl	%ebp, %ebp
	jmp	6f
4:
	testb	$1, 12(%rsp)
	movq	112(%rsp), %r15
	movq	104(%rsp), %r13
	je	18f
	.p2align	4
5:
	incq	%rbp
	cmpq	128(%rsp), %rbp
	je	13f
6:
	imulq	$608, %rbp, %rax
	leaq	(%rbx,%rax), %r12
	cmpb	$1, 72(%rbx,%rax)
	je	7f
	cmpb	$1, 64(%r12)
	jne	5b
7:
	leaq	(%rbx,%rax), %r14
	addq	$72, %r14
	leaq	160(%rsp), %rsi
	movq	%r14, %rdi
	callq	"core::cmp::declared::OptionPartialEq::eq::<#a18ca2343ae6f068>"
	testb	%al, %al
	jne	5b
	leaq	136(%rsp), %rsi
	movq	%r14, %rdi
	callq	"core::cmp::declared::OptionPartialEq::eq::<#a18ca2343ae6f068>"
	testb	%al, %al
	jne	5b
	cmpb	$1, 504(%r12)
	jne	8f
	movzbl	505(%r12), %eax
	addb	$-5, %al
	cmpb	$4, %al
	jb	5b
8:
	cmpb	$0, 594(%r12)
	jne	5b
	cmpb	$0, 592(%r12)
	jne	5b
	movq	(%r12), %rcx
	movq	8(%r12), %r8
	movq	16(%rsp), %rax
	movq	624(%rax), %rsi
	movq	632(%rax), %rdx
	leaq	32(%rsp), %rdi
	callq	"clap::builder::command::Command::groups_of"
	cmpb	$0, 32(%rsp)
	jne	17f
	movq	%r13, 104(%rsp)
	movq	%r15, 112(%rsp)
	movq	40(%rsp), %rcx
	movq	48(%rsp), %r12
	movq	56(%rsp), %rax
	movq	%rax, 96(%rsp)
	testq	%r12, %r12
	movq	%rcx, 88(%rsp)
	je	11f
	movq	16(%rsp), %rax
	movq	624(%rax), %r14
	movq	632(%rax), %r13
	leaq	8(%rcx), %r15
	movl	$0, 12(%rsp)
	jmp	10f
	.p2align	4
9:
	decq	%r12
	addq	$16, %r15
	testq	%r12, %r12
	je	12f
10:
	movq	-8(%r15), %rdx
	movq	(%r15), %rcx
	movq	%r14, %rdi
	movq	%r13, %rsi
	callq	"clap::builder::command::Command::find_group"
	cmpb	$1, %al
	jne	9b
	movl	12(%rsp), %eax
	orb	40(%rdx), %al
	movl	%eax, 12(%rsp)
	jmp	9b
11:
	movl	$0, 12(%rsp)
12:
	cmpq	$0, 96(%rsp)
	je	4b
	movq	88(%rsp), %rdi
	callq	rattle_dealloc@PLT
	jmp	4b
13:
	movq	80(%rsp), %r12
	movq	16(%rsp), %rbp
	movl	28(%rsp), %ebx
	movq	72(%rsp), %r14
14:
	xorb	$1, %bl
	xorps	%xmm0, %xmm0
	movaps	%xmm0, 48(%rsp)
	movaps	%xmm0, 32(%rsp)
	cmpb	$1, 11(%rsp)
	jne	15f
	movzbl	%bl, %eax
	movl	%eax, (%rsp)
	movq	%rbp, %rdi
	movq	%r12, %rsi
	movq	%r13, %rdx
	movq	%r15, %rcx
	movq	%r14, %r8
	movq	120(%rsp), %r9
	callq	"clap::output::usage::write_args_of"
	jmp	16f
15:
	leaq	32(%rsp), %rdi
	movq	%rbp, %rsi
	callq	"clap::builder::command::Command::required_ids"
	movb	$1, %al
	cmpb	$0, 32(%rsp)
	jne	16f
	movq	40(%rsp), %r14
	movq	48(%rsp), %r9
	movl	%ebx, %eax
	movq	56(%rsp), %rbx
	movzbl	%al, %eax
	movl	%eax, (%rsp)
	movq	%rbp, %rdi
	movq	%r12, %rsi
	movq	%r13, %rdx
	movq	%r15, %rcx
	movq	%r14, %r8
	callq	"clap::output::usage::write_args_of"
	testq	%rbx, %rbx
	je	16f
	movq	%r14, %rdi
	movl	%eax, %ebx
	callq	rattle_dealloc@PLT
	movl	%ebx, %eax
16:
	addq	$216, %rsp
	popq	%rbx
	popq	%r12
	popq	%r13
	popq	%r14
	popq	%r15
	popq	%rbp
	retq
17:
	movb	$1, %al
	jmp	16b
18:
	movq	80(%rsp), %r12
	movq	8(%r12), %rax
	movq	16(%r12), %rcx
	movq	%rcx, %rdx
	subq	%rax, %rdx
	cmpq	$9, %rdx
	movq	16(%rsp), %rbp
	movl	28(%rsp), %ebx
	movq	72(%rsp), %r14
	jbe	20f
19:
	movq	(%r12), %rdx
	leaq	(%rdx,%rax), %rsi
	addq	$10, %rax
	leaq	.L13a276205647(%rip), %rdi
	movq	%rsi, %r8
	subq	%rdi, %r8
	cmpq	$9, %r8
	movabsq	$6002822529697206107, %rdi
	movq	%rdi, (%rsi)
	movw	$8285, 8(%rsi)
	movq	%rdx, (%r12)
	movq	%rax, 8(%r12)
	movq	%rcx, 16(%r12)
	jmp	14b
20:
	movl	$10, %esi
	movq	%r12, %rdi
	callq	"std_alloc::vec::Vec::grow_amortized::<#1d775b5957dec42c>"
	movl	%eax, %ecx
	movb	$1, %al
	testb	%cl, %cl
	je	16b
	movq	8(%r12), %rax
	movq	16(%r12), %rcx
	jmp	19b
21:
	.size	"clap::output::usage::write_arg_usage", 21b-"clap::output::usage::write_arg_usage"

	.section	.rodata.cst16,"aM",@progbits,16
	.p2align	4, 0x0
1:
	.zero	16,1
	.text
	.p2align	4
	.type	"clap::output::usage::write_args_of",@function
"clap::output::usage::write_args_of":
	pushq	%rbp
	pushq	%r15
	pushq	%r14
	pushq	%r13
	pushq	%r12
	pushq	%rbx
	subq	$1000, %rsp
	movq	%rcx, %r13
	movq	%rdx, %rbp
	movq	%rsi, %rbx
	movq	%rdi, %r14
	pxor	%xmm0, %xmm0
	movdqa	%xmm0, 48(%rsp)
	movq	$0, 64(%rsp)
	movdqa	%xmm0, 16(%rsp)
	movq	$0, 32(%rsp)
	movdqa	%xmm0, 112(%rsp)
	movq	$0, 128(%rsp)
	movdqa	%xmm0, 144(%rsp)
	movq	$0, 160(%rsp)
	movdqa	%xmm0, 80(%rsp)
	movq	$0, 96(%rsp)
	movdqa	%xmm0, 192(%rsp)
	movq	$0, 208(%rsp)
	movdqa	%xmm0, 640(%rsp)
	movdqa	%xmm0, 656(%rsp)
	movdqa	%xmm0, 880(%rsp)
	movdqa	%xmm0, 864(%rsp)
	movdqa	%xmm0, 496(%rsp)
	movdqa	%xmm0, 480(%rsp)
	movdqu	%xmm0, 943(%rsp)
	movdqa	%xmm0, 928(%rsp)
	movdqa	%xmm0, 832(%rsp)
	movdqa	%xmm0, 848(%rsp)
	movdqa	%xmm0, 512(%rsp)
	movq	$0, 528(%rsp)
	movdqa	%xmm0, 448(%rsp)
	movdqa	%xmm0, 464(%rsp)
	movdqa	%xmm0, 320(%rsp)
	movq	$0, 336(%rsp)
	movdqa	%xmm0, 608(%rsp)
	movdqa	%xmm0, 624(%rsp)
	movdqa	%xmm0, 800(%rsp)
	movdqa	%xmm0, 816(%rsp)
	movdqa	%xmm0, 784(%rsp)
	movdqa	%xmm0, 768(%rsp)
	movdqa	%xmm0, 416(%rsp)
	movdqa	%xmm0, 400(%rsp)
	movq	$0, 432(%rsp)
	movdqa	%xmm0, 752(%rsp)
	movdqa	%xmm0, 736(%rsp)
	movdqa	%xmm0, 720(%rsp)
	movdqa	%xmm0, 704(%rsp)
	movdqa	%xmm0, 688(%rsp)
	movdqa	%xmm0, 672(%rsp)
	movdqa	%xmm0, 912(%rsp)
	movdqa	%xmm0, 896(%rsp)
	movdqa	%xmm0, 288(%rsp)
	movq	$0, 304(%rsp)
	movdqa	%xmm0, 256(%rsp)
	movq	$0, 272(%rsp)
	movdqa	%xmm0, 224(%rsp)
	movq	$0, 240(%rsp)
	leaq	640(%rsp), %rdi
	movq	%r14, %rsi
	movq	%r8, %rdx
	movq	%r9, %rcx
	xorl	%r8d, %r8d
	xorl	%r9d, %r9d
	callq	"clap::output::usage::unrolled_requires"
	movb	$1, %al
	cmpb	$0, 640(%rsp)
	jne	63f
	movq	%r14, 136(%rsp)
	movq	%rbx, 376(%rsp)
	movdqu	648(%rsp), %xmm0
	movdqa	%xmm0, 48(%rsp)
	movq	664(%rsp), %rax
	movq	%rax, 64(%rsp)
	movq	56(%rsp), %r15
	testq	%r13, %r13
	je	5f
	addq	$8, %rbp
	jmp	4f
2:
	movq	56(%rsp), %r15
	.p2align	4
3:
	movq	48(%rsp), %r14
	movq	%r15, %rax
	shlq	$4, %rax
	movq	%rbx, (%r14,%rax)
	movq	%r12, 8(%r14,%rax)
	incq	%r15
	movq	%r15, 56(%rsp)
	addq	$16, %rbp
	decq	%r13
	je	6f
4:
	movq	-8(%rbp), %rbx
	movq	(%rbp), %r12
	cmpq	%r15, 64(%rsp)
	jne	3b
	leaq	48(%rsp), %rdi
	movl	$1, %esi
	callq	"std_alloc::vec::Vec::grow_amortized::<#3af3ba23e56e6a09>"
	testb	%al, %al
	jne	2b
	cmpq	$0, 64(%rsp)
	je	62f
	movq	48(%rsp), %rdi
	jmp	61f
5:
	movq	48(%rsp), %r14
6:
	leaq	8(%rsp), %rax
	movq	%rax, 16(%rsp)
	pxor	%xmm0, %xmm0
	movdqu	%xmm0, 24(%rsp)
	movq	%rax, 112(%rsp)
	movdqu	%xmm0, 120(%rsp)
	testq	%r15, %r15
	je	17f
	xorl	%r12d, %r12d
	jmp	8f
	.p2align	4
7:
	incq	%r12
	cmpq	%r15, %r12
	je	17f
8:
	movq	%r12, %r13
	shlq	$4, %r13
	movq	(%r14,%r13), %rbx
	movq	8(%r14,%r13), %rbp
	movq	136(%rsp), %rax
	movq	624(%rax), %rdi
	movq	632(%rax), %rsi
	movq	%rbx, %rdx
	movq	%rbp, %rcx
	callq	"clap::builder::command::Command::find_group"
	cmpb	$1, %al
	jne	7b
	leaq	864(%rsp), %rdi
	movq	136(%rsp), %rsi
	movq	%rbx, %rdx
	movq	%rbp, %rcx
	callq	"clap::output::usage::format_group"
	cmpb	$0, 864(%rsp)
	jne	55f
	leaq	112(%rsp), %rdi
	leaq	872(%rsp), %rsi
	callq	"clap::output::usage::insert_text"
	testb	%al, %al
	jne	55f
	movq	(%r14,%r13), %rdx
	movq	8(%r14,%r13), %rcx
	leaq	480(%rsp), %rdi
	movq	136(%rsp), %rsi
	callq	"clap::builder::command::Command::args_in_group"
	cmpb	$0, 480(%rsp)
	jne	55f
	movq	488(%rsp), %rbp
	movq	496(%rsp), %r13
	movq	504(%rsp), %rax
	movq	%rax, 168(%rsp)
	incq	%r13
	leaq	8(%rbp), %rcx
	.p2align	4
9:
	decq	%r13
	je	10f
	leaq	16(%rcx), %rbx
	movq	-8(%rcx), %rsi
	movq	(%rcx), %rdx
	leaq	16(%rsp), %rdi
	callq	"clap::builder::command::insert_id"
	movq	%rbx, %rcx
	testb	%al, %al
	je	9b
	jmp	11f
10:
	cmpq	$0, 168(%rsp)
	je	7b
	movq	%rbp, %rdi
	callq	rattle_dealloc@PLT
	jmp	7b
11:
	cmpq	$0, 168(%rsp)
	je	12f
	movq	%rbp, %rdi
	callq	rattle_dealloc@PLT
12:
	movq	112(%rsp), %r15
	movq	120(%rsp), %r12
	movq	128(%rsp), %rbx
	testq	%r12, %r12
	je	15f
	leaq	16(%r15), %r13
	jmp	14f
	.p2align	4
13:
	addq	$24, %r13
	decq	%r12
	je	15f
14:
	cmpq	$0, (%r13)
	je	13b
	movq	-16(%r13), %rdi
	callq	rattle_dealloc@PLT
	jmp	13b
15:
	testq	%rbx, %rbx
	je	16f
	movq	%r15, %rdi
	callq	rattle_dealloc@PLT
16:
	cmpq	$0, 32(%rsp)
	jne	58f
	jmp	60f
17:
	leaq	8(%rsp), %rax
	movq	%rax, 144(%rsp)
	pxor	%xmm0, %xmm0
	movdqu	%xmm0, 152(%rsp)
	movq	%rax, 80(%rsp)
	movdqu	%xmm0, 88(%rsp)
	movq	56(%rsp), %rax
	movq	%rax, 168(%rsp)
	testq	%rax, %rax
	je	29f
	movzbl	1056(%rsp), %eax
	xorb	$1, %al
	movb	%al, 184(%rsp)
	movq	16(%rsp), %rax
	movq	%rax, 40(%rsp)
	movq	24(%rsp), %rax
	movq	%rax, 176(%rsp)
	xorl	%ebp, %ebp
	jmp	20f
18:
	movq	16(%rdx), %rax
	movq	%rax, 528(%rsp)
	movdqu	(%rdx), %xmm0
	movdqa	%xmm0, 512(%rsp)
	leaq	144(%rsp), %rdi
	leaq	512(%rsp), %rsi
	callq	"clap::output::usage::insert_text"
	testb	%al, %al
	jne	57f
	.p2align	4
19:
	incq	%rbp
	cmpq	168(%rsp), %rbp
	je	29f
20:
	movq	%rbp, %rax
	shlq	$4, %rax
	movq	(%r14,%rax), %rdx
	movq	8(%r14,%rax), %rcx
	movq	136(%rsp), %rax
	movq	576(%rax), %rdi
	movq	584(%rax), %rsi
	callq	"clap::builder::command::Command::find"
	cmpb	$1, %al
	jne	19b
	movq	%rdx, %r13
	cmpq	$0, 176(%rsp)
	je	28f
	movq	(%r13), %rax
	movq	8(%r13), %rcx
	leaq	-16(%rcx), %rdx
	cmpq	$32, %rdx
	movl	$32, %esi
	cmovbq	%rdx, %rsi
	leaq	-8(%rcx), %rdx
	cmpq	$8, %rdx
	movl	$8, %r8d
	cmovbq	%rdx, %r8
	cmpq	$16, %rdx
	movl	$16, %r9d
	cmovbq	%rdx, %r9
	movq	%rcx, %r10
	shrq	%r10
	movq	40(%rsp), %r11
	movq	176(%rsp), %rbx
	jmp	23f
21:
	movl	(%rdx), %edi
	movl	-4(%rdx,%rcx), %edx
	shlq	$32, %rdx
	orq	%rdi, %rdx
	bswapq	%rdx
	movl	(%rax), %r12d
	movl	-4(%rax,%rcx), %edi
	shlq	$32, %rdi
	orq	%r12, %rdi
	bswapq	%rdi
	cmpq	%rdi, %rdx
	je	19b
	.p2align	4
22:
	addq	$16, %r11
	decq	%rbx
	je	28f
23:
	cmpq	%rcx, 8(%r11)
	jne	22b
	movq	(%r11), %rdx
	cmpq	$7, %rcx
	ja	24f
	cmpq	$4, %rcx
	jae	21b
	testq	%rcx, %rcx
	je	19b
	movzbl	(%rdx), %edi
	movzbl	(%rdx,%r10), %r12d
	shll	$16, %edi
	shll	$8, %r12d
	orl	%edi, %r12d
	movzbl	-1(%rdx,%rcx), %edx
	orq	%r12, %rdx
	movzbl	(%rax), %edi
	movzbl	(%rax,%r10), %r12d
	shll	$16, %edi
	shll	$8, %r12d
	orl	%edi, %r12d
	movzbl	-1(%rax,%rcx), %edi
	orq	%r12, %rdi
	cmpq	%rdi, %rdx
	jne	22b
	jmp	19b
	.p2align	4
24:
	cmpq	$32, %rcx
	ja	25f
	movq	(%rdx), %rdi
	cmpq	(%rax), %rdi
	jne	22b
	movq	(%rax,%r8), %rdi
	cmpq	%rdi, (%rdx,%r8)
	jne	22b
	movq	(%rax,%r9), %rdi
	cmpq	%rdi, (%rdx,%r9)
	jne	22b
	leaq	-8(%rcx), %r15
	movq	(%rax,%r15), %rdi
	cmpq	%rdi, (%rdx,%r15)
	jne	22b
	jmp	19b
25:
	cmpq	$65, %rcx
	jae	26f
	movdqu	(%rdx), %xmm0
	movdqu	16(%rdx), %xmm1
	movdqu	(%rax), %xmm2
	pcmpeqb	%xmm0, %xmm2
	movdqu	16(%rax), %xmm3
	pcmpeqb	%xmm1, %xmm3
	pcmpeqd	%xmm1, %xmm1
	pxor	%xmm1, %xmm2
	pxor	%xmm1, %xmm3
	por	%xmm2, %xmm3
	movdqu	(%rdx,%rsi), %xmm0
	movdqu	(%rax,%rsi), %xmm2
	pcmpeqb	%xmm0, %xmm2
	pxor	%xmm1, %xmm2
	leaq	-16(%rcx), %rdi
	movdqu	(%rdx,%rdi), %xmm4
	movdqu	(%rax,%rdi), %xmm0
	pcmpeqb	%xmm4, %xmm0
	pxor	%xmm1, %xmm0
	por	%xmm2, %xmm0
	por	%xmm3, %xmm0
	ptest	1b(%rip), %xmm0
	jne	22b
	jmp	19b
26:
	xorl	%edi, %edi
	movq	%rcx, %r12
	.p2align	4
27:
	movdqu	(%rdx,%rdi), %xmm0
	movdqu	16(%rdx,%rdi), %xmm1
	movdqu	32(%rdx,%rdi), %xmm2
	movdqu	48(%rdx,%rdi), %xmm3
	movdqu	(%rax,%rdi), %xmm4
	pcmpeqb	%xmm0, %xmm4
	movdqu	16(%rax,%rdi), %xmm0
	pcmpeqb	%xmm1, %xmm0
	pand	%xmm4, %xmm0
	movdqu	32(%rax,%rdi), %xmm1
	pcmpeqb	%xmm2, %xmm1
	movdqu	48(%rax,%rdi), %xmm2
	pcmpeqb	%xmm3, %xmm2
	pand	%xmm1, %xmm2
	pand	%xmm0, %xmm2
	pmovmskb	%xmm2, %r15d
	cmpl	$65535, %r15d
	jne	22b
	addq	$64, %rdi
	addq	$-64, %r12
	cmpq	$65, %r12
	jae	27b
	movdqu	-64(%rdx,%rcx), %xmm0
	movdqu	-48(%rdx,%rcx), %xmm1
	movdqu	-32(%rdx,%rcx), %xmm2
	movdqu	-16(%rdx,%rcx), %xmm3
	movdqu	-64(%rax,%rcx), %xmm4
	pcmpeqb	%xmm0, %xmm4
	movdqu	-48(%rax,%rcx), %xmm5
	pcmpeqb	%xmm1, %xmm5
	movdqu	-32(%rax,%rcx), %xmm0
	pcmpeqb	%xmm2, %xmm0
	movdqu	-16(%rax,%rcx), %xmm1
	pcmpeqb	%xmm3, %xmm1
	pcmpeqd	%xmm2, %xmm2
	pxor	%xmm2, %xmm1
	pxor	%xmm2, %xmm0
	por	%xmm1, %xmm0
	pxor	%xmm2, %xmm4
	pxor	%xmm2, %xmm5
	por	%xmm4, %xmm5
	por	%xmm0, %xmm5
	pxor	%xmm0, %xmm0
	pcmpgtb	%xmm5, %xmm0
	ptest	1b(%rip), %xmm0
	jne	22b
	jmp	19b
	.p2align	4
28:
	movq	$1, 392(%rsp)
	pxor	%xmm0, %xmm0
	movdqa	%xmm0, 960(%rsp)
	movdqu	%xmm0, 975(%rsp)
	movq	%r13, 384(%rsp)
	movzbl	184(%rsp), %eax
	movb	%al, 393(%rsp)
	leaq	552(%rsp), %rbx
	movdqu	%xmm0, (%rbx)
	movl	$0, 52(%rbx)
	movl	$0, 49(%rbx)
	leaq	8(%rsp), %rax
	movq	%rax, 544(%rsp)
	movl	$32, 568(%rsp)
	movl	$0, 28(%rbx)
	movq	$0, 20(%rbx)
	movq	$-1, 584(%rsp)
	movq	$0, 592(%rsp)
	movb	$0, 600(%rsp)
	movq	32(%rbx), %rax
	movq	%rax, 368(%rsp)
	movl	16(%rbx), %eax
	movl	%eax, 352(%rsp)
	movq	20(%rbx), %rax
	movq	%rax, 356(%rsp)
	movl	28(%rbx), %eax
	movl	%eax, 364(%rsp)
	movl	$32, 568(%rsp)
	movl	$0, 28(%rbx)
	movq	$0, 20(%rbx)
	movq	$-1, 584(%rsp)
	leaq	384(%rsp), %rdi
	leaq	544(%rsp), %rsi
	callq	"clap::builder::arg::StylizedDisplay::fmt::<#86a172efa8724158>"
	movaps	352(%rsp), %xmm0
	movups	%xmm0, 16(%rbx)
	movq	368(%rsp), %rcx
	movq	%rcx, 32(%rbx)
	testb	%al, %al
	jne	56f
	movq	560(%rsp), %rax
	leaq	967(%rsp), %rcx
	movq	%rax, 16(%rcx)
	movups	544(%rsp), %xmm0
	movups	%xmm0, (%rcx)
	movq	16(%rcx), %rax
	leaq	935(%rsp), %rdx
	movq	%rax, 16(%rdx)
	movups	(%rcx), %xmm0
	movups	%xmm0, (%rdx)
	cmpb	$1, 488(%r13)
	jne	18b
	movq	496(%r13), %rsi
	movq	$1, 832(%rsp)
	movq	16(%rdx), %rax
	leaq	840(%rsp), %rcx
	movq	%rax, 16(%rcx)
	movdqu	(%rdx), %xmm0
	movdqu	%xmm0, (%rcx)
	leaq	80(%rsp), %rdi
	leaq	832(%rsp), %rdx
	callq	"clap::output::usage::set_place"
	testb	%al, %al
	je	19b
	jmp	57f
29:
	movq	136(%rsp), %rax
	movq	584(%rax), %rcx
	movq	%rcx, 168(%rsp)
	testq	%rcx, %rcx
	je	45f
	movq	576(%rax), %rax
	movq	%rax, 136(%rsp)
	movq	16(%rsp), %rax
	movq	%rax, 40(%rsp)
	movq	24(%rsp), %rax
	movq	%rax, 184(%rsp)
	xorl	%r12d, %r12d
	jmp	31f
	.p2align	4
30:
	incq	%r12
	cmpq	168(%rsp), %r12
	je	45f
31:
	imulq	$608, %r12, %r13
	movq	136(%rsp), %rax
	cmpb	$1, 488(%rax,%r13)
	jne	30b
	addq	136(%rsp), %r13
	cmpb	$1, 594(%r13)
	je	30b
	movq	496(%r13), %rax
	movq	%rax, 176(%rsp)
	cmpq	$0, 184(%rsp)
	je	39f
	movq	(%r13), %rax
	movq	8(%r13), %r10
	leaq	-16(%r10), %rcx
	cmpq	$32, %rcx
	movl	$32, %esi
	cmovbq	%rcx, %rsi
	leaq	-8(%r10), %rcx
	cmpq	$8, %rcx
	movl	$8, %r8d
	cmovbq	%rcx, %r8
	cmpq	$16, %rcx
	movl	$16, %r9d
	cmovbq	%rcx, %r9
	movq	%r10, %r15
	shrq	%r15
	movq	40(%rsp), %r11
	movq	184(%rsp), %rdx
	jmp	34f
32:
	movl	(%rbp), %ecx
	movl	-4(%rbp,%r10), %edi
	shlq	$32, %rdi
	orq	%rcx, %rdi
	bswapq	%rdi
	movl	(%rax), %ebp
	movl	-4(%rax,%r10), %ecx
	shlq	$32, %rcx
	orq	%rbp, %rcx
	bswapq	%rcx
	cmpq	%rcx, %rdi
	je	30b
	.p2align	4
33:
	addq	$16, %r11
	decq	%rdx
	je	39f
34:
	cmpq	%r10, 8(%r11)
	jne	33b
	movq	(%r11), %rbp
	cmpq	$7, %r10
	ja	35f
	cmpq	$4, %r10
	jae	32b
	testq	%r10, %r10
	je	30b
	movzbl	(%rbp), %ecx
	movzbl	(%rbp,%r15), %ebx
	shll	$16, %ecx
	shll	$8, %ebx
	orl	%ecx, %ebx
	movzbl	-1(%rbp,%r10), %edi
	orq	%rbx, %rdi
	movzbl	(%rax), %ecx
	movzbl	(%rax,%r15), %ebx
	shll	$16, %ecx
	shll	$8, %ebx
	orl	%ecx, %ebx
	movzbl	-1(%rax,%r10), %ecx
	orq	%rbx, %rcx
	cmpq	%rcx, %rdi
	jne	33b
	jmp	30b
	.p2align	4
35:
	cmpq	$32, %r10
	ja	36f
	movq	(%rbp), %rcx
	cmpq	(%rax), %rcx
	jne	33b
	movq	(%rax,%r8), %rcx
	cmpq	%rcx, (%rbp,%r8)
	jne	33b
	movq	(%rax,%r9), %rcx
	cmpq	%rcx, (%rbp,%r9)
	jne	33b
	leaq	-8(%r10), %rdi
	movq	(%rax,%rdi), %rcx
	cmpq	%rcx, (%rbp,%rdi)
	jne	33b
	jmp	30b
36:
	cmpq	$65, %r10
	jae	37f
	movdqu	(%rbp), %xmm0
	movdqu	16(%rbp), %xmm1
	movdqu	(%rax), %xmm2
	pcmpeqb	%xmm0, %xmm2
	movdqu	16(%rax), %xmm3
	pcmpeqb	%xmm1, %xmm3
	pcmpeqd	%xmm1, %xmm1
	pxor	%xmm1, %xmm2
	pxor	%xmm1, %xmm3
	por	%xmm2, %xmm3
	movdqu	(%rbp,%rsi), %xmm0
	movdqu	(%rax,%rsi), %xmm2
	pcmpeqb	%xmm0, %xmm2
	pxor	%xmm1, %xmm2
	leaq	-16(%r10), %rcx
	movdqu	(%rbp,%rcx), %xmm4
	movdqu	(%rax,%rcx), %xmm0
	pcmpeqb	%xmm4, %xmm0
	pxor	%xmm1, %xmm0
	por	%xmm2, %xmm0
	por	%xmm3, %xmm0
	ptest	1b(%rip), %xmm0
	jne	33b
	jmp	30b
37:
	xorl	%edi, %edi
	movq	%r10, %rcx
	.p2align	4
38:
	movdqu	(%rbp,%rdi), %xmm0
	movdqu	16(%rbp,%rdi), %xmm1
	movdqu	32(%rbp,%rdi), %xmm2
	movdqu	48(%rbp,%rdi), %xmm3
	movdqu	(%rax,%rdi), %xmm4
	pcmpeqb	%xmm0, %xmm4
	movdqu	16(%rax,%rdi), %xmm0
	pcmpeqb	%xmm1, %xmm0
	pand	%xmm4, %xmm0
	movdqu	32(%rax,%rdi), %xmm1
	pcmpeqb	%xmm2, %xmm1
	movdqu	48(%rax,%rdi), %xmm2
	pcmpeqb	%xmm3, %xmm2
	pand	%xmm1, %xmm2
	pand	%xmm0, %xmm2
	pmovmskb	%xmm2, %ebx
	cmpl	$65535, %ebx
	jne	33b
	addq	$64, %rdi
	addq	$-64, %rcx
	cmpq	$65, %rcx
	jae	38b
	movdqu	-64(%rbp,%r10), %xmm0
	movdqu	-48(%rbp,%r10), %xmm1
	movdqu	-32(%rbp,%r10), %xmm2
	movdqu	-16(%rbp,%r10), %xmm3
	movdqu	-64(%rax,%r10), %xmm4
	pcmpeqb	%xmm0, %xmm4
	movdqu	-48(%rax,%r10), %xmm5
	pcmpeqb	%xmm1, %xmm5
	movdqu	-32(%rax,%r10), %xmm0
	pcmpeqb	%xmm2, %xmm0
	movdqu	-16(%rax,%r10), %xmm1
	pcmpeqb	%xmm3, %xmm1
	pcmpeqd	%xmm2, %xmm2
	pxor	%xmm2, %xmm1
	pxor	%xmm2, %xmm0
	por	%xmm1, %xmm0
	pxor	%xmm2, %xmm4
	pxor	%xmm2, %xmm5
	por	%xmm4, %xmm5
	por	%xmm0, %xmm5
	pxor	%xmm0, %xmm0
	pcmpgtb	%xmm5, %xmm0
	ptest	1b(%rip), %xmm0
	jne	33b
	jmp	30b
39:
	movq	176(%rsp), %rbx
	cmpq	88(%rsp), %rbx
	jae	40f
	movq	%rbx, %rax
	shlq	$5, %rax
	addq	80(%rsp), %rax
	cmpb	$1, (%rax)
	jne	40f
	addq	$8, %rax
	leaq	.L87269e8ec07e(%rip), %rcx
	movq	%rcx, 320(%rsp)
	movq	$3, 328(%rsp)
	movq	%rax, 336(%rsp)
	leaq	448(%rsp), %rdi
	leaq	320(%rsp), %rsi
	callq	"std_alloc::string::String::format::<#6839e7594aae3ba1>"
	cmpb	$0, 448(%rsp)
	jne	66f
	movq	456(%rsp), %rdi
	cmpb	$1, 605(%r13)
	jne	42f
	movdqa	464(%rsp), %xmm0
	movq	$1, 608(%rsp)
	movq	%rdi, 616(%rsp)
	movdqa	%xmm0, 624(%rsp)
	leaq	80(%rsp), %rdi
	leaq	608(%rsp), %rdx
	movq	%rbx, %rsi
	callq	"clap::output::usage::set_place"
	testb	%al, %al
	je	44f
	jmp	66f
40:
	cmpb	$1, 605(%r13)
	jne	41f
	leaq	800(%rsp), %rdi
	movq	%r13, %rsi
	movl	$1, %edx
	callq	"clap::builder::arg::Arg::stylized_text"
	cmpb	$0, 800(%rsp)
	jne	66f
	leaq	808(%rsp), %rcx
	movq	16(%rcx), %rax
	movq	%rax, 208(%rsp)
	movdqu	(%rcx), %xmm0
	movdqa	%xmm0, 192(%rsp)
	leaq	.L36cca807a933(%rip), %rax
	movq	%rax, 400(%rsp)
	movq	$4, 408(%rsp)
	leaq	192(%rsp), %rax
	movq	%rax, 416(%rsp)
	leaq	.L0d0a70152a48(%rip), %rax
	movq	%rax, 424(%rsp)
	movq	$1, 432(%rsp)
	leaq	768(%rsp), %rdi
	leaq	400(%rsp), %rsi
	callq	"std_alloc::string::String::format::<#605efbca80f73881>"
	cmpb	$0, 768(%rsp)
	jne	64f
	movq	$1, 736(%rsp)
	leaq	776(%rsp), %rcx
	movq	16(%rcx), %rax
	leaq	744(%rsp), %rdx
	movq	%rax, 16(%rdx)
	movdqu	(%rcx), %xmm0
	movdqu	%xmm0, (%rdx)
	leaq	80(%rsp), %rdi
	leaq	736(%rsp), %rdx
	movq	%rbx, %rsi
	callq	"clap::output::usage::set_place"
	movq	208(%rsp), %rcx
	testb	%al, %al
	jne	67f
	testq	%rcx, %rcx
	je	44f
	movq	192(%rsp), %rdi
	jmp	43f
41:
	leaq	704(%rsp), %rdi
	movq	%r13, %rsi
	xorl	%edx, %edx
	callq	"clap::builder::arg::Arg::stylized_text"
	cmpb	$0, 704(%rsp)
	jne	66f
	movq	$1, 672(%rsp)
	leaq	712(%rsp), %rcx
	movq	16(%rcx), %rax
	leaq	680(%rsp), %rdx
	movq	%rax, 16(%rdx)
	movdqu	(%rcx), %xmm0
	movdqu	%xmm0, (%rdx)
	leaq	80(%rsp), %rdi
	leaq	672(%rsp), %rdx
	movq	%rbx, %rsi
	callq	"clap::output::usage::set_place"
	testb	%al, %al
	je	44f
	jmp	66f
42:
	cmpq	$0, 472(%rsp)
	je	44f
43:
	callq	rattle_dealloc@PLT
44:
	cmpb	$0, 1056(%rsp)
	je	30b
	cmpb	$0, 605(%r13)
	je	30b
	movq	$0, 896(%rsp)
	leaq	80(%rsp), %rdi
	leaq	896(%rsp), %rdx
	movq	176(%rsp), %rsi
	callq	"clap::output::usage::set_place"
	testb	%al, %al
	je	30b
	jmp	66f
45:
	cmpb	$0, 1056(%rsp)
	movq	376(%rsp), %r12
	jne	49f
	movq	152(%rsp), %rbx
	testq	%rbx, %rbx
	je	47f
	movq	144(%rsp), %r15
	.p2align	4
46:
	movq	%r15, 288(%rsp)
	leaq	.L9b770efd7ae0(%rip), %rax
	movq	%rax, 296(%rsp)
	movq	$1, 304(%rsp)
	leaq	288(%rsp), %rsi
	movq	%r12, %rdi
	callq	"std_alloc::string::String::write_fmt::<#2099f3822be05dd7>"
	testb	%al, %al
	jne	57f
	addq	$24, %r15
	decq	%rbx
	jne	46b
47:
	movq	120(%rsp), %rbx
	testq	%rbx, %rbx
	je	49f
	movq	112(%rsp), %r15
	.p2align	4
48:
	movq	%r15, 256(%rsp)
	leaq	.L9b770efd7ae0(%rip), %rax
	movq	%rax, 264(%rsp)
	movq	$1, 272(%rsp)
	leaq	256(%rsp), %rsi
	movq	%r12, %rdi
	callq	"std_alloc::string::String::write_fmt::<#2099f3822be05dd7>"
	testb	%al, %al
	jne	57f
	addq	$24, %r15
	decq	%rbx
	jne	48b
49:
	movq	88(%rsp), %rbx
	testq	%rbx, %rbx
	je	52f
	movq	80(%rsp), %r15
	addq	$8, %r15
	jmp	51f
	.p2align	4
50:
	addq	$32, %r15
	decq	%rbx
	je	52f
51:
	cmpb	$1, -8(%r15)
	jne	50b
	movq	%r15, 224(%rsp)
	leaq	.L9b770efd7ae0(%rip), %rax
	movq	%rax, 232(%rsp)
	movq	$1, 240(%rsp)
	leaq	224(%rsp), %rsi
	movq	%r12, %rdi
	callq	"std_alloc::string::String::write_fmt::<#2099f3822be05dd7>"
	testb	%al, %al
	je	50b
	jmp	57f
52:
	leaq	80(%rsp), %rdi
	callq	"std_alloc::vec::Vec::drop::<#1a1580c2cfb41205>"
	leaq	144(%rsp), %rdi
	callq	"std_alloc::vec::Vec::drop::<#2d89a01c2ecea42b>"
	leaq	112(%rsp), %rdi
	callq	"std_alloc::vec::Vec::drop::<#2d89a01c2ecea42b>"
	cmpq	$0, 32(%rsp)
	je	53f
	movq	16(%rsp), %rdi
	callq	rattle_dealloc@PLT
53:
	cmpq	$0, 64(%rsp)
	je	54f
	movq	%r14, %rdi
	callq	rattle_dealloc@PLT
54:
	xorl	%eax, %eax
	jmp	63f
55:
	leaq	112(%rsp), %rdi
	callq	"std_alloc::vec::Vec::drop::<#2d89a01c2ecea42b>"
	cmpq	$0, 32(%rsp)
	jne	58f
	jmp	60f
56:
	cmpq	$0, 560(%rsp)
	je	57f
	movq	544(%rsp), %rdi
	callq	rattle_dealloc@PLT
57:
	leaq	80(%rsp), %rdi
	callq	"std_alloc::vec::Vec::drop::<#1a1580c2cfb41205>"
	leaq	144(%rsp), %rdi
	callq	"std_alloc::vec::Vec::drop::<#2d89a01c2ecea42b>"
	leaq	112(%rsp), %rdi
	callq	"std_alloc::vec::Vec::drop::<#2d89a01c2ecea42b>"
	cmpq	$0, 32(%rsp)
	je	60f
58:
	movq	16(%rsp), %rdi
59:
	callq	rattle_dealloc@PLT
60:
	cmpq	$0, 64(%rsp)
	je	62f
	movq	%r14, %rdi
61:
	callq	rattle_dealloc@PLT
	movb	$1, %al
	jmp	63f
62:
	movb	$1, %al
63:
	addq	$1000, %rsp
	popq	%rbx
	popq	%r12
	popq	%r13
	popq	%r14
	popq	%r15
	popq	%rbp
	retq
64:
	cmpq	$0, 208(%rsp)
	je	66f
65:
	movq	192(%rsp), %rdi
	callq	rattle_dealloc@PLT
66:
	leaq	80(%rsp), %rdi
	callq	"std_alloc::vec::Vec::drop::<#1a1580c2cfb41205>"
	leaq	144(%rsp), %rdi
	callq	"std_alloc::vec::Vec::drop::<#2d89a01c2ecea42b>"
	leaq	112(%rsp), %rdi
	callq	"std_alloc::vec::Vec::drop::<#2d89a01c2ecea42b>"
	cmpq	$0, 32(%rsp)
	je	60b
	movq	40(%rsp), %rdi
	jmp	59b
67:
	testq	%rcx, %rcx
	jne	65b
	jmp	66b
68:
	.size	"clap::output::usage::write_args_of", 68b-"clap::output::usage::write_args_of"

	.text
	.p2align	4
	.type	"clap::output::usage::write_usage",@function
"clap::output::usage::write_usage":
	pushq	%rbp
	pushq	%r15
	pushq	%r14
	pushq	%r13
	pushq	%r12
	pushq	%rbx
	subq	$312, %rsp
	movq	%rsi, %rbx
	movq	%rdi, %r14
	movzbl	(%r8), %r13d
	movups	8(%r8), %xmm0
	movaps	%xmm0, 240(%rsp)
	cmpb	$1, 432(%rdi)
	jne	7f
	movq	440(%r14), %rsi
	movq	448(%r14), %rdx
	movq	8(%rbx), %rax
	movq	16(%rbx), %r14
	movq	%r14, %rcx
	subq	%rax, %rcx
	cmpq	%rcx, %rdx
	ja	26f
1:
	leaq	8(%rbx), %rcx
	leaq	(%rax,%rdx), %r15
	movq	(%rbx), %r12
	xorps	%xmm0, %xmm0
	movups	%xmm0, (%rcx)
	leaq	(%r12,%rax), %rdi
	movq	%rdi, %rcx
	subq	%rsi, %rcx
	cmpq	%rdx, %rcx
	jae	9f
	cmpq	$4, %rdx
	jb	2f
	cmpq	$32, %rcx
	jae	21f
2:
	xorl	%ecx, %ecx
3:
	movq	%rdx, %r9
	movq	%rcx, %r8
	andq	$3, %r9
	je	5f
	movq	%rcx, %r8
	.p2align	4
4:
	movzbl	(%rsi,%r8), %r10d
	movb	%r10b, (%rdi,%r8)
	incq	%r8
	decq	%r9
	jne	4b
5:
	subq	%rdx, %rcx
	cmpq	$-4, %rcx
	ja	10f
	addq	%r12, %rax
	addq	$3, %rax
	.p2align	4
6:
	movzbl	(%rsi,%r8), %ecx
	movb	%cl, -3(%rax,%r8)
	movzbl	1(%rsi,%r8), %ecx
	movb	%cl, -2(%rax,%r8)
	movzbl	2(%rsi,%r8), %ecx
	movb	%cl, -1(%rax,%r8)
	movzbl	3(%rsi,%r8), %ecx
	movb	%cl, (%rax,%r8)
	addq	$4, %r8
	cmpq	%r8, %rdx
	jne	6b
	jmp	10f
7:
	addq	$8, %r8
	testq	%rcx, %rcx
	je	13f
	movq	%r13, 264(%rsp)
	movups	(%r8), %xmm0
	movups	%xmm0, 272(%rsp)
	leaq	264(%rsp), %r8
	movq	%r14, %rdi
	movq	%rbx, %rsi
	movl	$1, %r9d
	callq	"clap::output::usage::write_arg_usage"
	movl	%eax, %ecx
	movb	$1, %al
	testb	%cl, %cl
	jne	12f
	cmpb	$1, 662(%r14)
	jne	11f
	cmpb	$1, 528(%r14)
	leaq	.L5ced0f1dcfaa(%rip), %rax
	cmoveq	536(%r14), %rax
	movl	$7, %ecx
	cmoveq	544(%r14), %rcx
	leaq	.L0264059b8465(%rip), %rdx
	movq	%rdx, 192(%rsp)
	movq	$1, 200(%rsp)
	movq	%rax, 208(%rsp)
	movq	%rcx, 216(%rsp)
	leaq	.Ld6f1b0994a9e(%rip), %rax
	movq	%rax, 224(%rsp)
	movq	$1, 232(%rsp)
	leaq	192(%rsp), %rsi
8:
	movq	%rbx, %rdi
	callq	"std_alloc::string::String::write_fmt::<#a2e9c51888eedbd3>"
	jmp	12f
9:
	callq	memmove@PLT
10:
	movq	%r12, (%rbx)
	movq	%r15, 8(%rbx)
	movq	%r14, 16(%rbx)
11:
	xorl	%eax, %eax
12:
	addq	$312, %rsp
	popq	%rbx
	popq	%r12
	popq	%r13
	popq	%r14
	popq	%r15
	popq	%rbp
	retq
13:
	movq	%r13, 288(%rsp)
	movups	(%r8), %xmm0
	movups	%xmm0, 296(%rsp)
	leaq	8(%rsp), %r15
	leaq	288(%rsp), %r8
	movq	%r14, %rdi
	movq	%rbx, %rsi
	movq	%r15, %rdx
	xorl	%ecx, %ecx
	movl	$1, %r9d
	callq	"clap::output::usage::write_arg_usage"
	movl	%eax, %ecx
	movb	$1, %al
	testb	%cl, %cl
	jne	12b
	xorps	%xmm0, %xmm0
	movaps	%xmm0, 80(%rsp)
	movaps	%xmm0, 96(%rsp)
	movaps	%xmm0, 160(%rsp)
	movq	$0, 176(%rsp)
	movaps	%xmm0, 112(%rsp)
	movaps	%xmm0, 128(%rsp)
	movaps	%xmm0, 144(%rsp)
	movq	608(%r14), %rax
	testq	%rax, %rax
	je	17f
	movq	600(%r14), %rcx
	jmp	16f
	.p2align	4
14:
	cmpb	$1, 661(%rcx)
	jne	18f
15:
	addq	$672, %rcx
	decq	%rax
	je	17f
16:
	cmpq	$4, 8(%rcx)
	jne	14b
	movq	(%rcx), %rdx
	movl	(%rdx), %edx
	movq	%rdx, %rsi
	shlq	$32, %rsi
	orq	%rdx, %rsi
	movabsq	$8100961328969835880, %rdx
	cmpq	%rdx, %rsi
	jne	14b
	jmp	15b
17:
	cmpb	$1, 663(%r14)
	jne	11b
18:
	cmpb	$1, 528(%r14)
	leaq	.L5ced0f1dcfaa(%rip), %rcx
	cmoveq	536(%r14), %rcx
	movl	$7, %edx
	cmoveq	544(%r14), %rdx
	cmpb	$0, 666(%r14)
	jne	19f
	cmpb	$1, 664(%r14)
	jne	27f
19:
	movq	%rdx, 64(%rsp)
	movq	%rcx, 72(%rsp)
	movq	(%rbx), %rdi
	movq	8(%rbx), %rsi
	callq	"core::iter::words::str::trim_end"
	movq	%rdx, %r12
	testq	%rdx, %rdx
	je	20f
	js	29f
	movq	%rax, %rbp
	movl	$1, %esi
	movq	%r12, %rdi
	callq	rattle_alloc@PLT
	testb	$1, %al
	movb	$1, %al
	je	12b
	movq	%rdx, %r15
	movq	%rbp, %rax
20:
	movq	%r15, %rdx
	subq	%rax, %rdx
	cmpq	%r12, %rdx
	jae	28f
	xorl	%ecx, %ecx
	cmpq	$4, %r12
	jb	36f
	cmpq	$32, %rdx
	jb	36f
	cmpq	$32, %r12
	jae	32f
	xorl	%ecx, %ecx
	jmp	34f
21:
	cmpq	$32, %rdx
	jae	22f
	xorl	%ecx, %ecx
	jmp	24f
22:
	movq	%rdx, %rcx
	andq	$-32, %rcx
	leaq	(%rax,%r12), %r8
	addq	$16, %r8
	xorl	%r9d, %r9d
	.p2align	4
23:
	movups	(%rsi,%r9), %xmm0
	movups	16(%rsi,%r9), %xmm1
	movups	%xmm0, -16(%r8,%r9)
	movups	%xmm1, (%r8,%r9)
	addq	$32, %r9
	cmpq	%r9, %rcx
	jne	23b
	cmpq	%rcx, %rdx
	je	10b
	testb	$28, %dl
	je	3b
24:
	movq	%rcx, %r8
	movq	%rdx, %rcx
	andq	$-4, %rcx
	.p2align	4
25:
	movl	(%rsi,%r8), %r9d
	movl	%r9d, (%rdi,%r8)
	addq	$4, %r8
	cmpq	%r8, %rcx
	jne	25b
	cmpq	%rcx, %rdx
	je	10b
	jmp	3b
26:
	movq	%rsi, %r15
	movq	%rbx, %rdi
	movq	%rdx, %r12
	movq	%rdx, %rsi
	callq	"std_alloc::vec::Vec::grow_amortized::<#1d775b5957dec42c>"
	movl	%eax, %ecx
	movb	$1, %al
	testb	%cl, %cl
	je	12b
	movq	8(%rbx), %rax
	movq	16(%rbx), %r14
	movq	%r15, %rsi
	movq	%r12, %rdx
	jmp	1b
27:
	cmpb	$1, 662(%r14)
	jne	30f
	leaq	.L0264059b8465(%rip), %rax
	movq	%rax, 16(%rsp)
	movq	$1, 24(%rsp)
	movq	%rcx, 32(%rsp)
	movq	%rdx, 40(%rsp)
	leaq	.Ld6f1b0994a9e(%rip), %rax
	jmp	31f
28:
	movq	%r15, %rdi
	movq	%rax, %rsi
	movq	%r12, %rdx
	callq	memmove@PLT
	jmp	40f
29:
	movb	$1, %al
	jmp	12b
30:
	leaq	.Lbdf5ca500ffb(%rip), %rax
	movq	%rax, 16(%rsp)
	movq	$1, 24(%rsp)
	movq	%rcx, 32(%rsp)
	movq	%rdx, 40(%rsp)
	leaq	.L0d0a70152a48(%rip), %rax
31:
	movq	%rax, 48(%rsp)
	movq	$1, 56(%rsp)
	leaq	16(%rsp), %rsi
	jmp	8b
32:
	movq	%r12, %rcx
	andq	$-32, %rcx
	xorl	%edx, %edx
33:
	movups	(%rax,%rdx), %xmm0
	movups	16(%rax,%rdx), %xmm1
	movups	%xmm0, (%r15,%rdx)
	movups	%xmm1, 16(%r15,%rdx)
	addq	$32, %rdx
	cmpq	%rdx, %rcx
	jne	33b
	cmpq	%rcx, %r12
	je	40f
	testb	$28, %r12b
	je	36f
34:
	movq	%rcx, %rdx
	movq	%r12, %rcx
	andq	$-4, %rcx
35:
	movl	(%rax,%rdx), %esi
	movl	%esi, (%r15,%rdx)
	addq	$4, %rdx
	cmpq	%rdx, %rcx
	jne	35b
	cmpq	%rcx, %r12
	je	40f
36:
	movq	%r12, %rsi
	movq	%rcx, %rdx
	andq	$3, %rsi
	je	38f
	movq	%rcx, %rdx
37:
	movzbl	(%rax,%rdx), %edi
	movb	%dil, (%r15,%rdx)
	incq	%rdx
	decq	%rsi
	jne	37b
38:
	subq	%r12, %rcx
	cmpq	$-4, %rcx
	ja	40f
39:
	movzbl	(%rax,%rdx), %ecx
	movb	%cl, (%r15,%rdx)
	movzbl	1(%rax,%rdx), %ecx
	movb	%cl, 1(%r15,%rdx)
	movzbl	2(%rax,%rdx), %ecx
	movb	%cl, 2(%r15,%rdx)
	movzbl	3(%rax,%rdx), %ecx
	movb	%cl, 3(%r15,%rdx)
	addq	$4, %rdx
	cmpq	%rdx, %r12
	jne	39b
40:
	movq	(%rbx), %rdi
	movq	%r15, (%rbx)
	movq	%r12, 8(%rbx)
	cmpq	$0, 16(%rbx)
	movq	%r12, 16(%rbx)
	movq	%r12, %rax
	je	41f
	callq	rattle_dealloc@PLT
	movq	8(%rbx), %r12
	movq	16(%rbx), %rax
41:
	movq	%rax, %rcx
	subq	%r12, %rcx
	cmpq	$7, %rcx
	jbe	49f
42:
	movq	(%rbx), %rcx
	leaq	(%rcx,%r12), %rdx
	addq	$8, %r12
	leaq	.Ld5ea52cbc0d4(%rip), %rsi
	movq	%rdx, %rdi
	subq	%rsi, %rdi
	cmpq	$7, %rdi
	ja	43f
	movb	$10, (%rdx)
	movl	$538976288, 1(%rdx)
	movl	$538976288, 4(%rdx)
	jmp	44f
43:
	movabsq	$2314885530818453514, %rsi
	movq	%rsi, (%rdx)
44:
	movq	%rcx, (%rbx)
	movq	%r12, 8(%rbx)
	movq	%rax, 16(%rbx)
	cmpb	$1, 664(%r14)
	jne	45f
	cmpb	$1, 112(%r14)
	jne	46f
	leaq	120(%r14), %rax
	subq	$-128, %r14
	jmp	47f
45:
	movq	%r13, 160(%rsp)
	movaps	240(%rsp), %xmm0
	movups	%xmm0, 168(%rsp)
	leaq	8(%rsp), %rdx
	leaq	160(%rsp), %r8
	movq	%r14, %rdi
	movq	%rbx, %rsi
	xorl	%ecx, %ecx
	xorl	%r9d, %r9d
	callq	"clap::output::usage::write_arg_usage"
	jmp	48f
46:
	leaq	88(%r14), %rax
	leaq	8(%r14), %rcx
	cmpb	$1, 80(%r14)
	cmovneq	%r14, %rax
	leaq	96(%r14), %r14
	cmovneq	%rcx, %r14
47:
	movq	(%r14), %rcx
	movq	(%rax), %rax
	movq	%rax, 80(%rsp)
	movq	%rcx, 88(%rsp)
	leaq	.L9b770efd7ae0(%rip), %rax
	movq	%rax, 96(%rsp)
	movq	$1, 104(%rsp)
	leaq	80(%rsp), %rsi
	movq	%rbx, %rdi
	callq	"std_alloc::string::String::write_fmt::<#004689434896fd94>"
48:
	movl	%eax, %ecx
	movb	$1, %al
	testb	%cl, %cl
	jne	12b
	leaq	.L0264059b8465(%rip), %rax
	movq	%rax, 112(%rsp)
	movq	$1, 120(%rsp)
	movq	72(%rsp), %rax
	movq	%rax, 128(%rsp)
	movq	64(%rsp), %rax
	movq	%rax, 136(%rsp)
	leaq	.Ld6f1b0994a9e(%rip), %rax
	movq	%rax, 144(%rsp)
	movq	$1, 152(%rsp)
	leaq	112(%rsp), %rsi
	jmp	8b
49:
	movl	$8, %esi
	movq	%rbx, %rdi
	callq	"std_alloc::vec::Vec::grow_amortized::<#1d775b5957dec42c>"
	movl	%eax, %ecx
	movb	$1, %al
	testb	%cl, %cl
	je	12b
	movq	8(%rbx), %r12
	movq	16(%rbx), %rax
	jmp	42b
50:
	.size	"clap::output::usage::write_usage", 50b-"clap::output::usage::write_usage"

	.section	.rodata.cst16,"aM",@progbits,16
	.p2align	4, 0x0
1:
	.zero	16,1
	.text
	.p2align	4
	.type	"clap::parser::globals::fill_in_global_values",@function
"clap::parser::globals::fill_in_global_values":
	pushq	%rbp
	pushq	%r15
	pushq	%r14
	pushq	%r13
	pushq	%r12
	pushq	%rbx
	subq	$488, %rsp
	movq	%rcx, 8(%rsp)
	movq	%rsi, 16(%rsp)
	movq	%rdi, %r12
	pxor	%xmm0, %xmm0
	movdqa	%xmm0, 464(%rsp)
	movdqa	%xmm0, 448(%rsp)
	movdqa	%xmm0, 432(%rsp)
	movdqa	%xmm0, 416(%rsp)
	movdqa	%xmm0, 400(%rsp)
	movdqa	%xmm0, 384(%rsp)
	movdqa	%xmm0, 352(%rsp)
	movdqa	%xmm0, 256(%rsp)
	movdqa	%xmm0, 272(%rsp)
	movdqa	%xmm0, 288(%rsp)
	movdqa	%xmm0, 304(%rsp)
	movdqa	%xmm0, 320(%rsp)
	movdqa	%xmm0, 336(%rsp)
	movdqa	%xmm0, 160(%rsp)
	movdqa	%xmm0, 176(%rsp)
	movdqa	%xmm0, 192(%rsp)
	movdqa	%xmm0, 208(%rsp)
	movdqa	%xmm0, 224(%rsp)
	movdqa	%xmm0, 240(%rsp)
	movq	%rdx, 24(%rsp)
	testq	%rdx, %rdx
	movq	%rdi, 32(%rsp)
	je	17f
	xorl	%ebx, %ebx
	jmp	4f
	.p2align	4
2:
	movq	(%rdi), %rcx
	imulq	$104, %rax, %rdx
	movdqa	352(%rsp), %xmm0
	movdqu	%xmm0, (%rcx,%rdx)
	movq	%r14, 16(%rcx,%rdx)
	movq	%r15, 24(%rcx,%rdx)
	movdqu	%xmm1, 32(%rcx,%rdx)
	movq	%rbp, 48(%rcx,%rdx)
	movdqu	%xmm2, 56(%rcx,%rdx)
	movq	%r13, 72(%rcx,%rdx)
	movdqu	%xmm3, 80(%rcx,%rdx)
	movq	%r12, 96(%rcx,%rdx)
	incq	%rax
	movq	%rax, 8(%rdi)
	movq	32(%rsp), %r12
3:
	incq	%rbx
	cmpq	24(%rsp), %rbx
	je	17f
4:
	movq	%rbx, %r15
	shlq	$4, %r15
	movq	16(%rsp), %rax
	movq	(%rax,%r15), %r13
	movq	8(%rax,%r15), %r14
	movq	(%r12), %rdi
	movq	8(%r12), %rsi
	movq	%r13, %rdx
	movq	%r14, %rcx
	callq	"clap::parser::matches::Found::get"
	cmpb	$1, %al
	jne	3b
	movq	%rdx, 64(%rsp)
	movq	8(%rsp), %rax
	movq	8(%rax), %rcx
	testq	%rcx, %rcx
	je	16f
	movq	8(%rsp), %rax
	movq	(%rax), %rsi
	leaq	-16(%r14), %rax
	cmpq	$32, %rax
	movl	$32, %edx
	cmovbq	%rax, %rdx
	leaq	-8(%r14), %rax
	cmpq	$8, %rax
	movl	$8, %r9d
	cmovbq	%rax, %r9
	cmpq	$16, %rax
	movl	$16, %r10d
	cmovbq	%rax, %r10
	movq	%r14, %r11
	shrq	%r11
	xorl	%eax, %eax
	movq	%rsi, 80(%rsp)
	jmp	7f
5:
	movl	(%r8), %r12d
	movl	-4(%r8,%r14), %r8d
	shlq	$32, %r8
	orq	%r12, %r8
	bswapq	%r8
	movl	(%r13), %ebp
	movl	-4(%r13,%r14), %r12d
	shlq	$32, %r12
	orq	%rbp, %r12
	bswapq	%r12
	cmpq	%r12, %r8
	je	12f
	.p2align	4
6:
	addq	$104, %rsi
	decq	%rcx
	incq	%rax
	testq	%rcx, %rcx
	je	16f
7:
	cmpq	%r14, 8(%rsi)
	jne	6b
	movq	(%rsi), %r8
	cmpq	$7, %r14
	ja	8f
	cmpq	$4, %r14
	jae	5b
	testq	%r14, %r14
	je	12f
	movzbl	(%r8), %ebp
	movzbl	(%r8,%r11), %r12d
	shll	$16, %ebp
	shll	$8, %r12d
	orl	%ebp, %r12d
	movzbl	-1(%r8,%r14), %r8d
	orq	%r12, %r8
	movzbl	(%r13), %ebp
	movzbl	(%r13,%r11), %edi
	shll	$16, %ebp
	shll	$8, %edi
	orl	%ebp, %edi
	movzbl	-1(%r13,%r14), %r12d
	orq	%rdi, %r12
	cmpq	%r12, %r8
	jne	6b
	jmp	12f
	.p2align	4
8:
	cmpq	$32, %r14
	ja	9f
	movq	(%r8), %rdi
	cmpq	(%r13), %rdi
	jne	6b
	movq	(%r13,%r9), %rdi
	cmpq	%rdi, (%r8,%r9)
	jne	6b
	movq	(%r13,%r10), %rdi
	cmpq	%rdi, (%r8,%r10)
	jne	6b
	leaq	-8(%r14), %r12
	movq	(%r13,%r12), %rdi
	cmpq	%rdi, (%r8,%r12)
	jne	6b
	jmp	12f
9:
	cmpq	$65, %r14
	jae	10f
	movdqu	(%r8), %xmm0
	movdqu	16(%r8), %xmm1
	movdqu	(%r13), %xmm2
	pcmpeqb	%xmm0, %xmm2
	movdqu	16(%r13), %xmm3
	pcmpeqb	%xmm1, %xmm3
	pcmpeqd	%xmm1, %xmm1
	pxor	%xmm1, %xmm2
	pxor	%xmm1, %xmm3
	por	%xmm2, %xmm3
	movdqu	(%r8,%rdx), %xmm0
	movdqu	(%r13,%rdx), %xmm2
	pcmpeqb	%xmm0, %xmm2
	pxor	%xmm1, %xmm2
	leaq	-16(%r14), %rdi
	movdqu	(%r8,%rdi), %xmm4
	movdqu	(%r13,%rdi), %xmm0
	pcmpeqb	%xmm4, %xmm0
	pxor	%xmm1, %xmm0
	por	%xmm2, %xmm0
	por	%xmm3, %xmm0
	ptest	1b(%rip), %xmm0
	jne	6b
	jmp	12f
10:
	xorl	%r12d, %r12d
	movq	%r14, %rbp
	.p2align	4
11:
	movdqu	(%r8,%r12), %xmm0
	movdqu	16(%r8,%r12), %xmm1
	movdqu	32(%r8,%r12), %xmm2
	movdqu	48(%r8,%r12), %xmm3
	movdqu	(%r13,%r12), %xmm4
	pcmpeqb	%xmm0, %xmm4
	movdqu	16(%r13,%r12), %xmm0
	pcmpeqb	%xmm1, %xmm0
	pand	%xmm4, %xmm0
	movdqu	32(%r13,%r12), %xmm1
	pcmpeqb	%xmm2, %xmm1
	movdqu	48(%r13,%r12), %xmm2
	pcmpeqb	%xmm3, %xmm2
	pand	%xmm1, %xmm2
	pand	%xmm0, %xmm2
	pmovmskb	%xmm2, %edi
	cmpl	$65535, %edi
	jne	6b
	addq	$64, %r12
	addq	$-64, %rbp
	cmpq	$65, %rbp
	jae	11b
	movdqu	-64(%r8,%r14), %xmm0
	movdqu	-48(%r8,%r14), %xmm1
	movdqu	-32(%r8,%r14), %xmm2
	movdqu	-16(%r8,%r14), %xmm3
	movdqu	-64(%r13,%r14), %xmm4
	pcmpeqb	%xmm0, %xmm4
	movdqu	-48(%r13,%r14), %xmm5
	pcmpeqb	%xmm1, %xmm5
	movdqu	-32(%r13,%r14), %xmm0
	pcmpeqb	%xmm2, %xmm0
	movdqu	-16(%r13,%r14), %xmm1
	pcmpeqb	%xmm3, %xmm1
	pcmpeqd	%xmm2, %xmm2
	pxor	%xmm2, %xmm1
	pxor	%xmm2, %xmm0
	por	%xmm1, %xmm0
	pxor	%xmm2, %xmm4
	pxor	%xmm2, %xmm5
	por	%xmm4, %xmm5
	por	%xmm0, %xmm5
	pxor	%xmm0, %xmm0
	pcmpgtb	%xmm5, %xmm0
	ptest	1b(%rip), %xmm0
	jne	6b
12:
	imulq	$104, %rax, %r14
	movq	80(%rsp), %rcx
	cmpb	$1, 16(%rcx,%r14)
	movq	32(%rsp), %r12
	movq	64(%rsp), %rsi
	jne	13f
	cmpb	$1, (%rsi)
	jne	3b
	movzbl	1(%rsi), %eax
	cmpb	17(%rcx,%r14), %al
	jb	3b
13:
	leaq	384(%rsp), %rdi
	callq	"clap::parser::matches::MatchedArgClone::clone"
	cmpb	$0, 384(%rsp)
	jne	43f
	movq	8(%rsp), %rax
	movq	(%rax), %rax
	movq	24(%rax,%r14), %rdi
	movq	48(%rax,%r14), %r13
	movq	64(%rax,%r14), %rbp
	movq	72(%rax,%r14), %r15
	movq	88(%rax,%r14), %r12
	leaq	392(%rsp), %rdx
	movq	80(%rdx), %rcx
	movq	%rcx, 96(%rax,%r14)
	movups	(%rdx), %xmm0
	movdqu	16(%rdx), %xmm1
	movdqu	32(%rdx), %xmm2
	movdqu	48(%rdx), %xmm3
	movups	%xmm0, 16(%rax,%r14)
	cmpq	$0, 40(%rax,%r14)
	movdqu	%xmm1, 32(%rax,%r14)
	movdqu	%xmm2, 48(%rax,%r14)
	movdqu	%xmm3, 64(%rax,%r14)
	movdqu	64(%rdx), %xmm0
	movdqu	%xmm0, 80(%rax,%r14)
	je	14f
	callq	rattle_dealloc@PLT
14:
	testq	%rbp, %rbp
	je	15f
	movq	%r13, %rdi
	callq	rattle_dealloc@PLT
15:
	testq	%r12, %r12
	movq	32(%rsp), %r12
	je	3b
	movq	%r15, %rdi
	callq	rattle_dealloc@PLT
	jmp	3b
	.p2align	4
16:
	addq	16(%rsp), %r15
	movups	(%r15), %xmm0
	movaps	%xmm0, 352(%rsp)
	leaq	256(%rsp), %rdi
	movq	64(%rsp), %rsi
	callq	"clap::parser::matches::MatchedArgClone::clone"
	movb	$1, %al
	cmpb	$0, 256(%rsp)
	jne	35f
	movq	264(%rsp), %r14
	movq	272(%rsp), %r15
	movdqu	280(%rsp), %xmm1
	movq	296(%rsp), %rbp
	movdqa	304(%rsp), %xmm2
	movq	320(%rsp), %r13
	movdqu	328(%rsp), %xmm3
	movq	344(%rsp), %r12
	movq	8(%rsp), %rdi
	movq	8(%rdi), %rax
	cmpq	%rax, 16(%rdi)
	jne	2b
	movdqa	%xmm3, 96(%rsp)
	movdqa	%xmm2, 80(%rsp)
	movdqa	%xmm1, 64(%rsp)
	movq	336(%rsp), %rax
	movq	%rax, 48(%rsp)
	movq	288(%rsp), %rax
	movq	%rax, 56(%rsp)
	movq	312(%rsp), %rax
	movq	%rax, 40(%rsp)
	callq	"std_alloc::vec::Vec::grow_amortized::<#3b6d026ce996fc29>"
	testb	%al, %al
	je	36f
	movq	8(%rsp), %rdi
	movq	8(%rdi), %rax
	movdqa	64(%rsp), %xmm1
	movdqa	80(%rsp), %xmm2
	movdqa	96(%rsp), %xmm3
	jmp	2b
17:
	cmpb	$1, 24(%r12)
	jne	18f
	movq	32(%r12), %rdi
	addq	$16, %rdi
	movq	16(%rsp), %rsi
	movq	24(%rsp), %rdx
	movq	8(%rsp), %rcx
	callq	"clap::parser::globals::fill_in_global_values"
	movl	%eax, %ecx
	movb	$1, %al
	testb	%cl, %cl
	jne	35f
18:
	movq	8(%rsp), %rax
	movq	8(%rax), %rcx
	movq	%rcx, 136(%rsp)
	testq	%rcx, %rcx
	je	34f
	movq	(%rax), %r14
	xorl	%ebx, %ebx
	movq	%r14, 112(%rsp)
	jmp	22f
	.p2align	4
19:
	movdqu	(%r13), %xmm0
	movdqa	%xmm0, 368(%rsp)
	movq	32(%rsp), %r12
	cmpq	%r15, 16(%r12)
	je	33f
20:
	imulq	$104, %r15, %rax
	movdqa	368(%rsp), %xmm0
	movdqu	%xmm0, (%r14,%rax)
	movq	120(%rsp), %rcx
	movq	%rcx, 16(%r14,%rax)
	movq	96(%rsp), %rcx
	movq	%rcx, 24(%r14,%rax)
	movq	128(%rsp), %rcx
	movq	%rcx, 32(%r14,%rax)
	movq	24(%rsp), %rcx
	movq	%rcx, 40(%r14,%rax)
	movq	80(%rsp), %rcx
	movq	%rcx, 48(%r14,%rax)
	movq	40(%rsp), %rcx
	movq	%rcx, 56(%r14,%rax)
	movq	8(%rsp), %rcx
	movq	%rcx, 64(%r14,%rax)
	movq	64(%rsp), %rcx
	movq	%rcx, 72(%r14,%rax)
	movq	48(%rsp), %rcx
	movq	%rcx, 80(%r14,%rax)
	movq	16(%rsp), %rcx
	movq	%rcx, 88(%r14,%rax)
	movq	56(%rsp), %rcx
	movq	%rcx, 96(%r14,%rax)
	incq	%r15
	movq	%r15, 8(%r12)
	movq	112(%rsp), %r14
21:
	incq	%rbx
	cmpq	136(%rsp), %rbx
	je	34f
22:
	imulq	$104, %rbx, %r13
	leaq	(%r14,%r13), %rsi
	addq	$16, %rsi
	leaq	160(%rsp), %rdi
	callq	"clap::parser::matches::MatchedArgClone::clone"
	movb	$1, %al
	cmpb	$0, 160(%rsp)
	jne	35f
	addq	%r14, %r13
	movq	168(%rsp), %rax
	movq	%rax, 120(%rsp)
	movq	176(%rsp), %rax
	movq	%rax, 96(%rsp)
	movq	184(%rsp), %rax
	movq	%rax, 128(%rsp)
	movq	192(%rsp), %rax
	movq	%rax, 24(%rsp)
	movq	200(%rsp), %rax
	movq	%rax, 80(%rsp)
	movq	208(%rsp), %rax
	movq	%rax, 40(%rsp)
	movq	216(%rsp), %rax
	movq	%rax, 8(%rsp)
	movq	224(%rsp), %rax
	movq	%rax, 64(%rsp)
	movq	232(%rsp), %rax
	movq	%rax, 48(%rsp)
	movq	240(%rsp), %rax
	movq	%rax, 16(%rsp)
	movq	248(%rsp), %rax
	movq	%rax, 56(%rsp)
	movq	(%r12), %r14
	movq	8(%r12), %r15
	testq	%r15, %r15
	je	19b
	movq	(%r13), %rdx
	movq	8(%r13), %rbp
	leaq	-16(%rbp), %rax
	cmpq	$32, %rax
	movl	$32, %ecx
	cmovbq	%rax, %rcx
	movq	%rcx, 144(%rsp)
	leaq	-8(%rbp), %rax
	cmpq	$8, %rax
	movl	$8, %r10d
	cmovbq	%rax, %r10
	cmpq	$16, %rax
	movl	$16, %ecx
	cmovbq	%rax, %rcx
	movq	%rcx, 152(%rsp)
	movq	%rbp, %r8
	shrq	%r8
	xorl	%r12d, %r12d
	movq	%r14, %rax
	movq	%r15, %rcx
	jmp	25f
23:
	movl	(%rdi), %esi
	movl	-4(%rdi,%rbp), %edi
	shlq	$32, %rdi
	orq	%rsi, %rdi
	bswapq	%rdi
	movl	(%rdx), %r9d
	movl	-4(%rdx,%rbp), %esi
	shlq	$32, %rsi
	orq	%r9, %rsi
	bswapq	%rsi
	cmpq	%rsi, %rdi
	je	30f
	.p2align	4
24:
	addq	$104, %rax
	decq	%rcx
	incq	%r12
	testq	%rcx, %rcx
	je	19b
25:
	cmpq	%rbp, 8(%rax)
	jne	24b
	movq	(%rax), %rdi
	cmpq	$7, %rbp
	ja	26f
	cmpq	$4, %rbp
	jae	23b
	testq	%rbp, %rbp
	je	30f
	movzbl	(%rdi), %esi
	movzbl	(%rdi,%r8), %r9d
	shll	$16, %esi
	shll	$8, %r9d
	orl	%esi, %r9d
	movzbl	-1(%rdi,%rbp), %edi
	orq	%r9, %rdi
	movzbl	(%rdx), %esi
	movzbl	(%rdx,%r8), %r9d
	shll	$16, %esi
	shll	$8, %r9d
	orl	%esi, %r9d
	movzbl	-1(%rdx,%rbp), %esi
	orq	%r9, %rsi
	cmpq	%rsi, %rdi
	jne	24b
	jmp	30f
	.p2align	4
26:
	cmpq	$32, %rbp
	ja	27f
	movq	(%rdi), %rsi
	cmpq	(%rdx), %rsi
	jne	24b
	movq	(%rdx,%r10), %rsi
	cmpq	%rsi, (%rdi,%r10)
	jne	24b
	movq	152(%rsp), %r9
	movq	(%rdx,%r9), %rsi
	cmpq	%rsi, (%rdi,%r9)
	jne	24b
	leaq	-8(%rbp), %r9
	movq	(%rdx,%r9), %rsi
	cmpq	%rsi, (%rdi,%r9)
	jne	24b
	jmp	30f
27:
	cmpq	$65, %rbp
	jae	28f
	movdqu	(%rdi), %xmm0
	movdqu	16(%rdi), %xmm1
	movdqu	(%rdx), %xmm2
	pcmpeqb	%xmm0, %xmm2
	movdqu	16(%rdx), %xmm3
	pcmpeqb	%xmm1, %xmm3
	pcmpeqd	%xmm1, %xmm1
	pxor	%xmm1, %xmm2
	pxor	%xmm1, %xmm3
	por	%xmm2, %xmm3
	movq	144(%rsp), %rsi
	movdqu	(%rdi,%rsi), %xmm0
	movdqu	(%rdx,%rsi), %xmm2
	pcmpeqb	%xmm0, %xmm2
	pxor	%xmm1, %xmm2
	leaq	-16(%rbp), %rsi
	movdqu	(%rdi,%rsi), %xmm4
	movdqu	(%rdx,%rsi), %xmm0
	pcmpeqb	%xmm4, %xmm0
	pxor	%xmm1, %xmm0
	por	%xmm2, %xmm0
	por	%xmm3, %xmm0
	ptest	1b(%rip), %xmm0
	jne	24b
	jmp	30f
28:
	xorl	%r9d, %r9d
	movq	%rbp, %rsi
	.p2align	4
29:
	movdqu	(%rdi,%r9), %xmm0
	movdqu	16(%rdi,%r9), %xmm1
	movdqu	32(%rdi,%r9), %xmm2
	movdqu	48(%rdi,%r9), %xmm3
	movdqu	(%rdx,%r9), %xmm4
	pcmpeqb	%xmm0, %xmm4
	movdqu	16(%rdx,%r9), %xmm0
	pcmpeqb	%xmm1, %xmm0
	pand	%xmm4, %xmm0
	movdqu	32(%rdx,%r9), %xmm1
	pcmpeqb	%xmm2, %xmm1
	movdqu	48(%rdx,%r9), %xmm2
	pcmpeqb	%xmm3, %xmm2
	pand	%xmm1, %xmm2
	pand	%xmm0, %xmm2
	pmovmskb	%xmm2, %r11d
	cmpl	$65535, %r11d
	jne	24b
	addq	$64, %r9
	addq	$-64, %rsi
	cmpq	$65, %rsi
	jae	29b
	movdqu	-64(%rdi,%rbp), %xmm0
	movdqu	-48(%rdi,%rbp), %xmm1
	movdqu	-32(%rdi,%rbp), %xmm2
	movdqu	-16(%rdi,%rbp), %xmm3
	movdqu	-64(%rdx,%rbp), %xmm4
	pcmpeqb	%xmm0, %xmm4
	movdqu	-48(%rdx,%rbp), %xmm5
	pcmpeqb	%xmm1, %xmm5
	movdqu	-32(%rdx,%rbp), %xmm0
	pcmpeqb	%xmm2, %xmm0
	movdqu	-16(%rdx,%rbp), %xmm1
	pcmpeqb	%xmm3, %xmm1
	pcmpeqd	%xmm2, %xmm2
	pxor	%xmm2, %xmm1
	pxor	%xmm2, %xmm0
	por	%xmm1, %xmm0
	pxor	%xmm2, %xmm4
	pxor	%xmm2, %xmm5
	por	%xmm4, %xmm5
	por	%xmm0, %xmm5
	pxor	%xmm0, %xmm0
	pcmpgtb	%xmm5, %xmm0
	ptest	1b(%rip), %xmm0
	jne	24b
	.p2align	4
30:
	imulq	$104, %r12, %rax
	movq	24(%r14,%rax), %rdi
	movq	48(%r14,%rax), %rbp
	movq	64(%r14,%rax), %r12
	movq	72(%r14,%rax), %r13
	movq	88(%r14,%rax), %r15
	movq	120(%rsp), %rcx
	movq	%rcx, 16(%r14,%rax)
	movq	96(%rsp), %rcx
	movq	%rcx, 24(%r14,%rax)
	movq	128(%rsp), %rcx
	movq	%rcx, 32(%r14,%rax)
	cmpq	$0, 40(%r14,%rax)
	movq	24(%rsp), %rcx
	movq	%rcx, 40(%r14,%rax)
	movq	80(%rsp), %rcx
	movq	%rcx, 48(%r14,%rax)
	movq	40(%rsp), %rcx
	movq	%rcx, 56(%r14,%rax)
	movq	8(%rsp), %rcx
	movq	%rcx, 64(%r14,%rax)
	movq	64(%rsp), %rcx
	movq	%rcx, 72(%r14,%rax)
	movq	48(%rsp), %rcx
	movq	%rcx, 80(%r14,%rax)
	movq	16(%rsp), %rcx
	movq	%rcx, 88(%r14,%rax)
	movq	56(%rsp), %rcx
	movq	%rcx, 96(%r14,%rax)
	je	31f
	callq	rattle_dealloc@PLT
31:
	testq	%r12, %r12
	movq	112(%rsp), %r14
	je	32f
	movq	%rbp, %rdi
	callq	rattle_dealloc@PLT
32:
	testq	%r15, %r15
	movq	32(%rsp), %r12
	je	21b
	movq	%r13, %rdi
	callq	rattle_dealloc@PLT
	jmp	21b
33:
	movq	%r12, %rdi
	callq	"std_alloc::vec::Vec::grow_amortized::<#3b6d026ce996fc29>"
	testb	%al, %al
	je	39f
	movq	(%r12), %r14
	movq	8(%r12), %r15
	jmp	20b
34:
	xorl	%eax, %eax
35:
	addq	$488, %rsp
	popq	%rbx
	popq	%r12
	popq	%r13
	popq	%r14
	popq	%r15
	popq	%rbp
	retq
36:
	movq	40(%rsp), %r14
	movq	48(%rsp), %rbx
	cmpq	$0, 56(%rsp)
	je	37f
	movq	%r15, %rdi
	callq	rattle_dealloc@PLT
37:
	testq	%r14, %r14
	je	38f
	movq	%rbp, %rdi
	callq	rattle_dealloc@PLT
38:
	testq	%rbx, %rbx
	je	43f
	movq	%r13, %rdi
	jmp	42f
39:
	cmpq	$0, 24(%rsp)
	je	40f
	movq	96(%rsp), %rdi
	callq	rattle_dealloc@PLT
40:
	cmpq	$0, 8(%rsp)
	je	41f
	movq	80(%rsp), %rdi
	callq	rattle_dealloc@PLT
41:
	cmpq	$0, 16(%rsp)
	je	43f
	movq	64(%rsp), %rdi
42:
	callq	rattle_dealloc@PLT
43:
	movb	$1, %al
	jmp	35b
44:
	.size	"clap::parser::globals::fill_in_global_values", 44b-"clap::parser::globals::fill_in_global_values"

	.text
	.p2align	4
	.type	"clap::parser::lexer::to_long",@function
"clap::parser::lexer::to_long":
	testq	%rdx, %rdx
	je	8f
	movzbl	(%rsi), %ecx
	movl	$1, %eax
	testb	%cl, %cl
	jns	2f
	movzbl	1(%rsi), %r8d
	andl	$63, %r8d
	cmpb	$-33, %cl
	ja	1f
	andl	$31, %ecx
	shll	$6, %ecx
	orl	%r8d, %ecx
	movl	$2, %eax
	cmpl	$45, %ecx
	je	3f
	jmp	8f
1:
	movzbl	2(%rsi), %r9d
	andl	$63, %r9d
	cmpb	$-17, %cl
	ja	4f
	shll	$12, %ecx
	movzwl	%cx, %eax
	shll	$6, %r8d
	orl	%eax, %r8d
	orl	%r9d, %r8d
	movl	$3, %eax
	movl	%r8d, %ecx
2:
	cmpl	$45, %ecx
	jne	8f
3:
	cmpq	%rax, %rdx
	je	8f
	addq	%rax, %rsi
	movzbl	(%rsi), %ecx
	movl	$1, %r10d
	testb	%cl, %cl
	jns	7f
	movzbl	1(%rsi), %r8d
	andl	$63, %r8d
	cmpb	$-33, %cl
	ja	5f
	andl	$31, %ecx
	shll	$6, %ecx
	orl	%r8d, %ecx
	movl	$2, %r10d
	jmp	7f
4:
	movzbl	3(%rsi), %eax
	andl	$63, %eax
	andl	$7, %ecx
	shll	$18, %ecx
	shll	$12, %r8d
	orl	%ecx, %r8d
	shll	$6, %r9d
	orl	%r8d, %r9d
	orl	%eax, %r9d
	movl	$4, %eax
	movl	%r9d, %ecx
	cmpl	$45, %ecx
	je	3b
	jmp	8f
5:
	movzbl	2(%rsi), %r9d
	andl	$63, %r9d
	cmpb	$-17, %cl
	ja	6f
	shll	$12, %ecx
	movzwl	%cx, %ecx
	shll	$6, %r8d
	orl	%ecx, %r8d
	orl	%r9d, %r8d
	movl	$3, %r10d
	movl	%r8d, %ecx
	jmp	7f
6:
	movzbl	3(%rsi), %r10d
	andl	$63, %r10d
	andl	$7, %ecx
	shll	$18, %ecx
	shll	$12, %r8d
	orl	%ecx, %r8d
	shll	$6, %r9d
	orl	%r8d, %r9d
	orl	%r10d, %r9d
	movl	$4, %r10d
	movl	%r9d, %ecx
7:
	cmpl	$45, %ecx
	jne	8f
	addq	%r10, %rax
	subq	%rax, %rdx
	je	8f
	pushq	%r15
	pushq	%r14
	pushq	%rbx
	subq	$32, %rsp
	movq	%rdi, %rbx
	addq	%r10, %rsi
	xorps	%xmm0, %xmm0
	movaps	%xmm0, (%rsp)
	movq	$0, 16(%rsp)
	movq	%rsp, %rdi
	movq	%rsi, %rax
	movl	$61, %esi
	movq	%rdx, %rcx
	movq	%rax, %r15
	movq	%rax, %rdx
	movq	%rcx, %r14
	callq	"core::iter::pattern::CharPattern::first_in"
	cmpb	$1, (%rsp)
	jne	9f
	movq	8(%rsp), %rsi
	movq	16(%rsp), %rax
	leaq	(%r15,%rax), %rcx
	movq	%r14, %rdx
	subq	%rax, %rdx
	movl	$1, %eax
	movq	%rsi, %r14
	jmp	10f
8:
	xorps	%xmm0, %xmm0
	movups	%xmm0, 32(%rdi)
	movups	%xmm0, 16(%rdi)
	movups	%xmm0, (%rdi)
	retq
9:
	xorl	%eax, %eax
	xorl	%ecx, %ecx
	xorl	%edx, %edx
10:
	movq	$1, (%rbx)
	movq	%r15, 8(%rbx)
	movq	%r14, 16(%rbx)
	movq	%rax, 24(%rbx)
	movq	%rcx, 32(%rbx)
	movq	%rdx, 40(%rbx)
	addq	$32, %rsp
	popq	%rbx
	popq	%r14
	popq	%r15
	retq
11:
	.size	"clap::parser::lexer::to_long", 11b-"clap::parser::lexer::to_long"

	.text
	.p2align	4
	.type	"clap::parser::lexer::to_short",@function
"clap::parser::lexer::to_short":
	testq	%rdx, %rdx
	je	5f
	movzbl	(%rsi), %eax
	movl	$1, %r8d
	testb	%al, %al
	jns	2f
	movzbl	1(%rsi), %ecx
	andl	$63, %ecx
	cmpb	$-33, %al
	ja	1f
	andl	$31, %eax
	shll	$6, %eax
	orl	%ecx, %eax
	movl	$2, %r8d
	cmpl	$45, %eax
	je	3f
	jmp	5f
1:
	movzbl	2(%rsi), %r9d
	andl	$63, %r9d
	cmpb	$-17, %al
	ja	4f
	shll	$12, %eax
	movzwl	%ax, %eax
	shll	$6, %ecx
	orl	%eax, %ecx
	orl	%r9d, %ecx
	movl	$3, %r8d
	movl	%ecx, %eax
2:
	cmpl	$45, %eax
	jne	5f
3:
	xorl	%ecx, %ecx
	movl	$0, %r9d
	movl	$0, %r10d
	subq	%r8, %rdx
	je	9f
	addq	%r8, %rsi
	movzbl	(%rsi), %eax
	testb	%al, %al
	jns	8f
	movzbl	1(%rsi), %ecx
	andl	$63, %ecx
	cmpb	$-33, %al
	ja	6f
	andl	$31, %eax
	shll	$6, %eax
	orl	%ecx, %eax
	jmp	8f
4:
	movzbl	3(%rsi), %r8d
	andl	$63, %r8d
	andl	$7, %eax
	shll	$18, %eax
	shll	$12, %ecx
	orl	%eax, %ecx
	shll	$6, %r9d
	orl	%ecx, %r9d
	orl	%r8d, %r9d
	movl	$4, %r8d
	movl	%r9d, %eax
	cmpl	$45, %eax
	je	3b
5:
	xorps	%xmm0, %xmm0
	movups	%xmm0, (%rdi)
	movq	$0, 16(%rdi)
	retq
6:
	movzbl	2(%rsi), %r8d
	andl	$63, %r8d
	cmpb	$-17, %al
	ja	7f
	shll	$12, %eax
	movzwl	%ax, %eax
	shll	$6, %ecx
	orl	%eax, %ecx
	orl	%r8d, %ecx
	movl	%ecx, %eax
	jmp	8f
7:
	movzbl	3(%rsi), %r9d
	andl	$63, %r9d
	andl	$7, %eax
	shll	$18, %eax
	shll	$12, %ecx
	orl	%eax, %ecx
	shll	$6, %r8d
	orl	%ecx, %r8d
	orl	%r9d, %r8d
	movl	%r8d, %eax
8:
	xorl	%ecx, %ecx
	movl	$0, %r9d
	movl	$0, %r10d
	cmpl	$45, %eax
	je	9f
	movl	$1, %r9d
	movq	%rsi, %rcx
	movq	%rdx, %r10
9:
	movq	%r9, (%rdi)
	movq	%rcx, 8(%rdi)
	movq	%r10, 16(%rdi)
	retq
10:
	.size	"clap::parser::lexer::to_short", 10b-"clap::parser::lexer::to_short"

	.text
	.p2align	4
	.type	"clap::parser::matcher::ArgMatcher::add_use",@function
"clap::parser::matcher::ArgMatcher::add_use":
	pushq	%rbp
	pushq	%r15
	pushq	%r14
	pushq	%r13
	pushq	%r12
	pushq	%rbx
	subq	$200, %rsp
	movq	%r8, %r15
	movq	%rcx, %r12
	movl	%edx, %ebp
	movq	%rsi, %r14
	movq	%rdi, %rbx
	movq	(%rsi), %rdx
	movq	8(%rsi), %rcx
	movq	(%rdi), %r13
	movq	8(%rdi), %rsi
	movq	%r13, %rdi
	callq	"clap::parser::matcher::ArgMatcher::place"
	cmpb	$1, %al
	jne	1f
	imulq	$104, %rdx, %rax
	leaq	(%rax,%r13), %rdi
	addq	$16, %rdi
	addq	$96, %rbx
	movzbl	%bpl, %esi
	movq	%r12, %rdx
	movq	%r15, %rcx
	movq	%rbx, %r8
	addq	$200, %rsp
	popq	%rbx
	popq	%r12
	popq	%r13
	popq	%r14
	popq	%r15
	popq	%rbp
	jmp	"clap::parser::matches::MatchedArg::add_use"
1:
	movzbl	606(%r14), %eax
	cmpb	$1, 512(%r14)
	jne	2f
	movzbl	520(%r14), %ecx
	leaq	18f(%rip), %rdx
	movslq	(%rdx,%rcx,4), %rcx
	addq	%rdx, %rcx
	jmpq	*%rcx
2:
	xorl	%ecx, %ecx
3:
	movq	$0, 24(%rsp)
	leaq	8(%rsp), %rdx
	movq	%rdx, 32(%rsp)
	xorps	%xmm0, %xmm0
	movups	%xmm0, 40(%rsp)
	movq	%rdx, 56(%rsp)
	movups	%xmm0, 64(%rsp)
	movq	%rdx, 80(%rsp)
	movups	%xmm0, 88(%rsp)
	movw	$0, 104(%rsp)
	movb	%al, 106(%rsp)
	movb	$0, 107(%rsp)
	movl	%ecx, 108(%rsp)
	leaq	96(%rbx), %r8
	movzbl	%bpl, %esi
	leaq	24(%rsp), %rdi
	movq	%r12, %rdx
	movq	%r15, %rcx
	callq	"clap::parser::matches::MatchedArg::add_use"
	testb	%al, %al
	je	7f
	cmpq	$0, 48(%rsp)
	je	4f
	movq	32(%rsp), %rdi
	callq	rattle_dealloc@PLT
4:
	cmpq	$0, 72(%rsp)
	je	5f
	movq	56(%rsp), %rdi
	callq	rattle_dealloc@PLT
5:
	movb	$1, %al
	cmpq	$0, 96(%rsp)
	je	9f
	movq	80(%rsp), %rdi
6:
	callq	rattle_dealloc@PLT
	movb	$1, %al
	jmp	9f
7:
	movq	24(%rsp), %rbp
	movq	32(%rsp), %r13
	movq	48(%rsp), %rdi
	movups	40(%rsp), %xmm1
	movq	56(%rsp), %r12
	movq	72(%rsp), %rdx
	movups	64(%rsp), %xmm2
	movq	80(%rsp), %rsi
	movq	96(%rsp), %rcx
	movups	88(%rsp), %xmm3
	movq	104(%rsp), %r15
	movups	(%r14), %xmm0
	movaps	%xmm0, 176(%rsp)
	movq	8(%rbx), %rax
	cmpq	%rax, 16(%rbx)
	je	13f
8:
	movq	(%rbx), %rcx
	imulq	$104, %rax, %rdx
	movaps	176(%rsp), %xmm0
	movups	%xmm0, (%rcx,%rdx)
	movq	%rbp, 16(%rcx,%rdx)
	movq	%r13, 24(%rcx,%rdx)
	movups	%xmm1, 32(%rcx,%rdx)
	movq	%r12, 48(%rcx,%rdx)
	movups	%xmm2, 56(%rcx,%rdx)
	movq	%rsi, 72(%rcx,%rdx)
	movups	%xmm3, 80(%rcx,%rdx)
	movq	%r15, 96(%rcx,%rdx)
	incq	%rax
	movq	%rax, 8(%rbx)
	xorl	%eax, %eax
9:
	addq	$200, %rsp
	popq	%rbx
	popq	%r12
	popq	%r13
	popq	%r14
	popq	%r15
	popq	%rbp
	retq
10:
	movl	$3, %ecx
	jmp	3b
11:
	movl	$1, %ecx
	cmpq	$0, 528(%r14)
	jns	3b
	jmp	2b
12:
	movl	$2, %ecx
	jmp	3b
13:
	movq	%rdi, %r14
	movq	%rdx, 112(%rsp)
	movaps	%xmm3, 128(%rsp)
	movaps	%xmm2, 144(%rsp)
	movaps	%xmm1, 160(%rsp)
	movq	%rcx, 120(%rsp)
	movq	%rsi, 16(%rsp)
	movq	%rbx, %rdi
	callq	"std_alloc::vec::Vec::grow_amortized::<#3b6d026ce996fc29>"
	testb	%al, %al
	je	14f
	movq	8(%rbx), %rax
	movq	16(%rsp), %rsi
	movaps	160(%rsp), %xmm1
	movaps	144(%rsp), %xmm2
	movaps	128(%rsp), %xmm3
	jmp	8b
14:
	testq	%r14, %r14
	je	15f
	movq	%r13, %rdi
	callq	rattle_dealloc@PLT
15:
	cmpq	$0, 112(%rsp)
	je	16f
	movq	%r12, %rdi
	callq	rattle_dealloc@PLT
16:
	movb	$1, %al
	cmpq	$0, 120(%rsp)
	je	9b
	movq	16(%rsp), %rdi
	jmp	6b
17:
	.size	"clap::parser::matcher::ArgMatcher::add_use", 17b-"clap::parser::matcher::ArgMatcher::add_use"
	.section	.rodata,"a",@progbits
	.p2align	2, 0x0
18:
	.long	2b-18b
	.long	2b-18b
	.long	2b-18b
	.long	12b-18b
	.long	10b-18b
	.long	11b-18b
	.long	2b-18b
	.long	2b-18b
	.long	2b-18b
	.long	2b-18b
	.long	2b-18b

	.section	.rodata.cst16,"aM",@progbits,16
	.p2align	4, 0x0
1:
	.zero	16,1
	.text
	.p2align	4
	.type	"clap::parser::matcher::ArgMatcher::place",@function
"clap::parser::matcher::ArgMatcher::place":
	testq	%rsi, %rsi
	je	9f
	pushq	%rbp
	pushq	%r15
	pushq	%r14
	pushq	%r13
	pushq	%r12
	pushq	%rbx
	movq	%rdx, %rax
	leaq	-16(%rcx), %r8
	cmpq	$32, %r8
	movl	$32, %r9d
	cmovbq	%r8, %r9
	leaq	-8(%rcx), %r10
	cmpq	$8, %r10
	movl	$8, %r11d
	cmovbq	%r10, %r11
	cmpq	$16, %r10
	movl	$16, %ebx
	cmovbq	%r10, %rbx
	movq	%rcx, %r14
	shrq	%r14
	xorl	%edx, %edx
	jmp	3f
2:
	movl	(%r15), %r12d
	movl	-4(%r15,%rcx), %r15d
	shlq	$32, %r15
	orq	%r12, %r15
	bswapq	%r15
	movl	(%rax), %r13d
	movl	-4(%rax,%rcx), %r12d
	shlq	$32, %r12
	orq	%r13, %r12
	bswapq	%r12
	cmpq	%r12, %r15
	jne	8f
	jmp	10f
	.p2align	4
3:
	cmpq	%rcx, 8(%rdi)
	jne	8f
	movq	(%rdi), %r15
	cmpq	$7, %rcx
	ja	4f
	cmpq	$4, %rcx
	jae	2b
	testq	%rcx, %rcx
	je	10f
	movzbl	(%r15), %ebp
	movzbl	(%r15,%r14), %r12d
	shll	$16, %ebp
	shll	$8, %r12d
	orl	%ebp, %r12d
	movzbl	-1(%r15,%rcx), %r15d
	orq	%r12, %r15
	movzbl	(%rax), %ebp
	movzbl	(%rax,%r14), %r13d
	shll	$16, %ebp
	shll	$8, %r13d
	orl	%ebp, %r13d
	movzbl	-1(%rax,%rcx), %r12d
	orq	%r13, %r12
	cmpq	%r12, %r15
	jne	8f
	jmp	10f
	.p2align	4
4:
	cmpq	$32, %rcx
	ja	5f
	movq	(%r15), %r12
	cmpq	(%rax), %r12
	jne	8f
	movq	(%rax,%r11), %r12
	cmpq	%r12, (%r15,%r11)
	jne	8f
	movq	(%rax,%rbx), %r12
	cmpq	%r12, (%r15,%rbx)
	jne	8f
	movq	(%rax,%r10), %r12
	cmpq	%r12, (%r15,%r10)
	jne	8f
	jmp	10f
5:
	cmpq	$65, %rcx
	jae	6f
	movdqu	(%r15), %xmm0
	movdqu	16(%r15), %xmm1
	movdqu	(%rax), %xmm2
	pcmpeqb	%xmm0, %xmm2
	movdqu	16(%rax), %xmm3
	pcmpeqb	%xmm1, %xmm3
	pcmpeqd	%xmm1, %xmm1
	pxor	%xmm1, %xmm2
	pxor	%xmm1, %xmm3
	por	%xmm2, %xmm3
	movdqu	(%r15,%r9), %xmm0
	movdqu	(%rax,%r9), %xmm2
	pcmpeqb	%xmm0, %xmm2
	pxor	%xmm1, %xmm2
	movdqu	(%r15,%r8), %xmm4
	movdqu	(%rax,%r8), %xmm0
	pcmpeqb	%xmm4, %xmm0
	pxor	%xmm1, %xmm0
	por	%xmm2, %xmm0
	por	%xmm3, %xmm0
	ptest	1b(%rip), %xmm0
	jne	8f
	jmp	10f
6:
	xorl	%r12d, %r12d
	movq	%rcx, %r13
	.p2align	4
7:
	movdqu	(%r15,%r12), %xmm0
	movdqu	16(%r15,%r12), %xmm1
	movdqu	32(%r15,%r12), %xmm2
	movdqu	48(%r15,%r12), %xmm3
	movdqu	(%rax,%r12), %xmm4
	pcmpeqb	%xmm0, %xmm4
	movdqu	16(%rax,%r12), %xmm0
	pcmpeqb	%xmm1, %xmm0
	pand	%xmm4, %xmm0
	movdqu	32(%rax,%r12), %xmm1
	pcmpeqb	%xmm2, %xmm1
	movdqu	48(%rax,%r12), %xmm2
	pcmpeqb	%xmm3, %xmm2
	pand	%xmm1, %xmm2
	pand	%xmm0, %xmm2
	pmovmskb	%xmm2, %ebp
	cmpl	$65535, %ebp
	jne	8f
	addq	$64, %r12
	addq	$-64, %r13
	cmpq	$65, %r13
	jae	7b
	movdqu	-64(%r15,%rcx), %xmm0
	movdqu	-48(%r15,%rcx), %xmm1
	movdqu	-32(%r15,%rcx), %xmm2
	movdqu	-16(%r15,%rcx), %xmm3
	movdqu	-64(%rax,%rcx), %xmm4
	pcmpeqb	%xmm0, %xmm4
	movdqu	-48(%rax,%rcx), %xmm5
	pcmpeqb	%xmm1, %xmm5
	movdqu	-32(%rax,%rcx), %xmm0
	pcmpeqb	%xmm2, %xmm0
	movdqu	-16(%rax,%rcx), %xmm1
	pcmpeqb	%xmm3, %xmm1
	pcmpeqd	%xmm2, %xmm2
	pxor	%xmm2, %xmm1
	pxor	%xmm2, %xmm0
	por	%xmm1, %xmm0
	pxor	%xmm2, %xmm4
	pxor	%xmm2, %xmm5
	por	%xmm4, %xmm5
	por	%xmm0, %xmm5
	pxor	%xmm0, %xmm0
	pcmpgtb	%xmm5, %xmm0
	ptest	1b(%rip), %xmm0
	je	10f
	.p2align	4
8:
	addq	$104, %rdi
	decq	%rsi
	incq	%rdx
	testq	%rsi, %rsi
	jne	3b
	xorl	%eax, %eax
	xorl	%edx, %edx
	jmp	11f
9:
	xorl	%eax, %eax
	xorl	%edx, %edx
	retq
10:
	movb	$1, %al
11:
	popq	%rbx
	popq	%r12
	popq	%r13
	popq	%r14
	popq	%r15
	popq	%rbp
	retq
12:
	.size	"clap::parser::matcher::ArgMatcher::place", 12b-"clap::parser::matcher::ArgMatcher::place"

	.text
	.p2align	4
	.type	"clap::parser::matcher::ArgMatcher::remove",@function
"clap::parser::matcher::ArgMatcher::remove":
	pushq	%rbp
	pushq	%r15
	pushq	%r14
	pushq	%r13
	pushq	%r12
	pushq	%rbx
	subq	$56, %rsp
	movq	%rdx, %rcx
	movq	%rsi, %rdx
	movq	%rdi, %r14
	movq	(%rdi), %r15
	movq	8(%rdi), %rbp
	movq	%r15, %rdi
	movq	%rbp, %rsi
	callq	"clap::parser::matcher::ArgMatcher::place"
	movl	%eax, %ebx
	cmpb	$1, %al
	jne	20f
	leaq	8(%r14), %rax
	movq	16(%r14), %rcx
	movq	%rcx, 40(%rsp)
	xorps	%xmm0, %xmm0
	movups	%xmm0, (%rax)
	imulq	$104, %rdx, %r8
	movq	24(%r15,%r8), %rdi
	movq	40(%r15,%r8), %rax
	movq	%rax, 32(%rsp)
	movq	48(%r15,%r8), %rax
	movq	%rax, 24(%rsp)
	movq	64(%r15,%r8), %rax
	movq	%rax, 48(%rsp)
	movq	72(%r15,%r8), %r12
	movq	88(%r15,%r8), %r13
	leaq	-1(%rbp), %rsi
	movq	%rsi, %r9
	subq	%rdx, %r9
	cmpq	$-1, %rdx
	je	4f
	cmpq	$20, %r9
	jb	8f
	movq	%rdi, (%rsp)
	movq	%r13, %rdi
	movq	%r12, %rcx
	leaq	1(%rdx), %r11
	leaq	1976(%r15), %r12
	xorl	%r10d, %r10d
	jmp	3f
	.p2align	4
1:
	movq	96(%r12,%r8), %rax
	movq	%rax, -8(%r12,%r8)
	movups	80(%r12,%r8), %xmm0
	movups	%xmm0, -24(%r12,%r8)
	movups	64(%r12,%r8), %xmm1
	movups	%xmm1, -40(%r12,%r8)
	movups	(%r12,%r8), %xmm2
	movups	16(%r12,%r8), %xmm3
	movups	32(%r12,%r8), %xmm4
	movups	48(%r12,%r8), %xmm5
	movups	%xmm5, -56(%r12,%r8)
	movups	%xmm4, -72(%r12,%r8)
	movups	%xmm3, -88(%r12,%r8)
	movups	%xmm2, -104(%r12,%r8)
	movups	%xmm2, -208(%r12,%r8)
	movups	%xmm3, -192(%r12,%r8)
	movups	%xmm4, -176(%r12,%r8)
	movups	%xmm5, -160(%r12,%r8)
	movups	%xmm1, -144(%r12,%r8)
	movups	%xmm0, -128(%r12,%r8)
	movq	%rax, -112(%r12,%r8)
	movq	96(%r12,%r8), %rax
	movq	%rax, -216(%r12,%r8)
	movups	80(%r12,%r8), %xmm0
	movups	%xmm0, -232(%r12,%r8)
	movups	64(%r12,%r8), %xmm1
	movups	%xmm1, -248(%r12,%r8)
	movups	(%r12,%r8), %xmm2
	movups	16(%r12,%r8), %xmm3
	movups	32(%r12,%r8), %xmm4
	movups	48(%r12,%r8), %xmm5
	movups	%xmm5, -264(%r12,%r8)
	movups	%xmm4, -280(%r12,%r8)
	movups	%xmm3, -296(%r12,%r8)
	movups	%xmm2, -312(%r12,%r8)
	movq	%rax, -320(%r12,%r8)
	movups	%xmm0, -336(%r12,%r8)
	movups	%xmm1, -352(%r12,%r8)
	movups	%xmm5, -368(%r12,%r8)
	movups	%xmm4, -384(%r12,%r8)
	movups	%xmm3, -400(%r12,%r8)
	movups	%xmm2, -416(%r12,%r8)
	movq	96(%r12,%r8), %rax
	movq	%rax, -424(%r12,%r8)
	movups	80(%r12,%r8), %xmm0
	movups	%xmm0, -440(%r12,%r8)
	movups	64(%r12,%r8), %xmm0
	movups	%xmm0, -456(%r12,%r8)
	movups	(%r12,%r8), %xmm0
	movups	16(%r12,%r8), %xmm1
	movups	32(%r12,%r8), %xmm2
	movups	48(%r12,%r8), %xmm3
	movups	%xmm3, -472(%r12,%r8)
	movups	%xmm2, -488(%r12,%r8)
	movups	%xmm1, -504(%r12,%r8)
	movups	%xmm0, -520(%r12,%r8)
	movq	96(%r12,%r8), %rax
	movq	%rax, -528(%r12,%r8)
	movups	80(%r12,%r8), %xmm0
	movups	%xmm0, -544(%r12,%r8)
	movups	64(%r12,%r8), %xmm0
	movups	%xmm0, -560(%r12,%r8)
	movups	(%r12,%r8), %xmm0
	movups	16(%r12,%r8), %xmm1
	movups	32(%r12,%r8), %xmm2
	movups	48(%r12,%r8), %xmm3
	movups	%xmm3, -576(%r12,%r8)
	movups	%xmm2, -592(%r12,%r8)
	movups	%xmm1, -608(%r12,%r8)
	movups	%xmm0, -624(%r12,%r8)
	movq	96(%r12,%r8), %rax
	movq	%rax, -632(%r12,%r8)
	movups	80(%r12,%r8), %xmm0
	movups	%xmm0, -648(%r12,%r8)
	movups	64(%r12,%r8), %xmm0
	movups	%xmm0, -664(%r12,%r8)
	movups	(%r12,%r8), %xmm0
	movups	16(%r12,%r8), %xmm1
	movups	32(%r12,%r8), %xmm2
	movups	48(%r12,%r8), %xmm3
	movups	%xmm3, -680(%r12,%r8)
	movups	%xmm2, -696(%r12,%r8)
	movups	%xmm1, -712(%r12,%r8)
	movups	%xmm0, -728(%r12,%r8)
	movq	96(%r12,%r8), %rax
	movq	%rax, -736(%r12,%r8)
	movups	80(%r12,%r8), %xmm0
	movups	%xmm0, -752(%r12,%r8)
	movups	64(%r12,%r8), %xmm0
	movups	%xmm0, -768(%r12,%r8)
	movups	(%r12,%r8), %xmm0
	movups	16(%r12,%r8), %xmm1
	movups	32(%r12,%r8), %xmm2
	movups	48(%r12,%r8), %xmm3
	movups	%xmm3, -784(%r12,%r8)
	movups	%xmm2, -800(%r12,%r8)
	movups	%xmm1, -816(%r12,%r8)
	movups	%xmm0, -832(%r12,%r8)
	movq	96(%r12,%r8), %rax
	movq	%rax, 1136(%r13)
	movups	80(%r12,%r8), %xmm0
	movups	%xmm0, 1120(%r13)
	movups	64(%r12,%r8), %xmm0
	movups	%xmm0, 1104(%r13)
	movups	(%r12,%r8), %xmm0
	movups	16(%r12,%r8), %xmm1
	movups	32(%r12,%r8), %xmm2
	movups	48(%r12,%r8), %xmm3
	movups	%xmm3, 1088(%r13)
	movups	%xmm2, 1072(%r13)
	movups	%xmm1, 1056(%r13)
	movups	%xmm0, 1040(%r13)
	movq	96(%r12,%r8), %rax
	movq	%rax, -944(%r12,%r8)
	movups	80(%r12,%r8), %xmm0
	movups	%xmm0, -960(%r12,%r8)
	movups	64(%r12,%r8), %xmm0
	movups	%xmm0, -976(%r12,%r8)
	movups	(%r12,%r8), %xmm0
	movups	16(%r12,%r8), %xmm1
	movups	32(%r12,%r8), %xmm2
	movups	48(%r12,%r8), %xmm3
	movups	%xmm3, -992(%r12,%r8)
	movups	%xmm2, -1008(%r12,%r8)
	movups	%xmm1, -1024(%r12,%r8)
	movups	%xmm0, -1040(%r12,%r8)
	movq	96(%r12,%r8), %rax
	movq	%rax, -1048(%r12,%r8)
	movups	80(%r12,%r8), %xmm0
	movups	%xmm0, -1064(%r12,%r8)
	movups	64(%r12,%r8), %xmm0
	movups	%xmm0, -1080(%r12,%r8)
	movups	(%r12,%r8), %xmm0
	movups	16(%r12,%r8), %xmm1
	movups	32(%r12,%r8), %xmm2
	movups	48(%r12,%r8), %xmm3
	movups	%xmm3, -1096(%r12,%r8)
	movups	%xmm2, -1112(%r12,%r8)
	movups	%xmm1, -1128(%r12,%r8)
	movups	%xmm0, -1144(%r12,%r8)
	movq	96(%r12,%r8), %rax
	movq	%rax, -1152(%r12,%r8)
	movups	80(%r12,%r8), %xmm0
	movups	%xmm0, -1168(%r12,%r8)
	movups	64(%r12,%r8), %xmm0
	movups	%xmm0, -1184(%r12,%r8)
	movups	(%r12,%r8), %xmm0
	movups	16(%r12,%r8), %xmm1
	movups	32(%r12,%r8), %xmm2
	movups	48(%r12,%r8), %xmm3
	movups	%xmm3, -1200(%r12,%r8)
	movups	%xmm2, -1216(%r12,%r8)
	movups	%xmm1, -1232(%r12,%r8)
	movups	%xmm0, -1248(%r12,%r8)
	movq	96(%r12,%r8), %rax
	movq	%rax, -1256(%r12,%r8)
	movups	80(%r12,%r8), %xmm0
	movups	%xmm0, -1272(%r12,%r8)
	movups	64(%r12,%r8), %xmm0
	movups	%xmm0, -1288(%r12,%r8)
	movups	(%r12,%r8), %xmm0
	movups	16(%r12,%r8), %xmm1
	movups	32(%r12,%r8), %xmm2
	movups	48(%r12,%r8), %xmm3
	movups	%xmm3, -1304(%r12,%r8)
	movups	%xmm2, -1320(%r12,%r8)
	movups	%xmm1, -1336(%r12,%r8)
	movups	%xmm0, -1352(%r12,%r8)
	movq	96(%r12,%r8), %rax
	movq	%rax, -1360(%r12,%r8)
	movups	80(%r12,%r8), %xmm0
	movups	%xmm0, -1376(%r12,%r8)
	movups	64(%r12,%r8), %xmm0
	movups	%xmm0, -1392(%r12,%r8)
	movups	(%r12,%r8), %xmm0
	movups	16(%r12,%r8), %xmm1
	movups	32(%r12,%r8), %xmm2
	movups	48(%r12,%r8), %xmm3
	movups	%xmm3, -1408(%r12,%r8)
	movups	%xmm2, -1424(%r12,%r8)
	movups	%xmm1, -1440(%r12,%r8)
	movups	%xmm0, -1456(%r12,%r8)
	movq	96(%r12,%r8), %rax
	movq	%rax, -1464(%r12,%r8)
	movups	80(%r12,%r8), %xmm0
	movups	%xmm0, -1480(%r12,%r8)
	movups	64(%r12,%r8), %xmm0
	movups	%xmm0, -1496(%r12,%r8)
	movups	(%r12,%r8), %xmm0
	movups	16(%r12,%r8), %xmm1
	movups	32(%r12,%r8), %xmm2
	movups	48(%r12,%r8), %xmm3
	movups	%xmm3, -1512(%r12,%r8)
	movups	%xmm2, -1528(%r12,%r8)
	movups	%xmm1, -1544(%r12,%r8)
	movups	%xmm0, -1560(%r12,%r8)
	movq	96(%r12,%r8), %rax
	movq	%rax, -1568(%r12,%r8)
	movups	80(%r12,%r8), %xmm0
	movups	%xmm0, -1584(%r12,%r8)
	movups	64(%r12,%r8), %xmm0
	movups	%xmm0, -1600(%r12,%r8)
	movups	(%r12,%r8), %xmm0
	movups	16(%r12,%r8), %xmm1
	movups	32(%r12,%r8), %xmm2
	movups	48(%r12,%r8), %xmm3
	movups	%xmm3, -1616(%r12,%r8)
	movups	%xmm2, -1632(%r12,%r8)
	movups	%xmm1, -1648(%r12,%r8)
	movups	%xmm0, -1664(%r12,%r8)
	movq	96(%r12,%r8), %rax
	movq	%rax, -1672(%r12,%r8)
	movups	80(%r12,%r8), %xmm0
	movups	%xmm0, -1688(%r12,%r8)
	movups	64(%r12,%r8), %xmm0
	movups	%xmm0, -1704(%r12,%r8)
	movups	(%r12,%r8), %xmm0
	movups	16(%r12,%r8), %xmm1
	movups	32(%r12,%r8), %xmm2
	movups	48(%r12,%r8), %xmm3
	movups	%xmm3, -1720(%r12,%r8)
	movups	%xmm2, -1736(%r12,%r8)
	movups	%xmm1, -1752(%r12,%r8)
	movups	%xmm0, -1768(%r12,%r8)
	movq	96(%r12,%r8), %rax
	movq	%rax, 200(%r13)
	movups	80(%r12,%r8), %xmm0
	movups	%xmm0, 184(%r13)
	movups	64(%r12,%r8), %xmm0
	movups	%xmm0, 168(%r13)
	movups	(%r12,%r8), %xmm0
	movups	16(%r12,%r8), %xmm1
	movups	32(%r12,%r8), %xmm2
	movups	48(%r12,%r8), %xmm3
	movups	%xmm3, 152(%r13)
	movups	%xmm2, 136(%r13)
	movups	%xmm1, 120(%r13)
	movups	%xmm0, 104(%r13)
	movq	96(%r12,%r8), %rax
	movq	%rax, 96(%r13)
	movups	80(%r12,%r8), %xmm0
	movups	%xmm0, 80(%r13)
	movups	64(%r12,%r8), %xmm0
	movups	%xmm0, 64(%r13)
	movups	(%r12,%r8), %xmm0
	movups	16(%r12,%r8), %xmm1
	movups	32(%r12,%r8), %xmm2
	movups	48(%r12,%r8), %xmm3
	movups	%xmm3, 48(%r13)
	movups	%xmm2, 32(%r13)
	movups	%xmm1, 16(%r13)
	movups	%xmm0, (%r13)
2:
	addq	$1976, %r8
	leaq	(%r9,%r10), %rax
	addq	$-19, %rax
	addq	$-19, %r10
	cmpq	$19, %rax
	jbe	5f
3:
	leaq	(%r12,%r8), %r13
	addq	$-1976, %r13
	cmpq	%r10, %r11
	je	1b
	movq	200(%r13), %rax
	movq	%rax, 96(%r13)
	movups	184(%r13), %xmm0
	movups	%xmm0, 80(%r13)
	movups	168(%r13), %xmm0
	movups	%xmm0, 64(%r13)
	movups	104(%r13), %xmm0
	movups	120(%r13), %xmm1
	movups	136(%r13), %xmm2
	movups	152(%r13), %xmm3
	movups	%xmm3, 48(%r13)
	movups	%xmm2, 32(%r13)
	movups	%xmm1, 16(%r13)
	movups	%xmm0, (%r13)
	movq	-1672(%r12,%r8), %rax
	movq	%rax, 200(%r13)
	movups	-1688(%r12,%r8), %xmm0
	movups	%xmm0, 184(%r13)
	movups	-1704(%r12,%r8), %xmm0
	movups	%xmm0, 168(%r13)
	movups	-1768(%r12,%r8), %xmm0
	movups	-1752(%r12,%r8), %xmm1
	movups	-1736(%r12,%r8), %xmm2
	movups	-1720(%r12,%r8), %xmm3
	movups	%xmm3, 152(%r13)
	movups	%xmm2, 136(%r13)
	movups	%xmm1, 120(%r13)
	movups	%xmm0, 104(%r13)
	movq	-1568(%r12,%r8), %rax
	movq	%rax, -1672(%r12,%r8)
	movups	-1584(%r12,%r8), %xmm0
	movups	%xmm0, -1688(%r12,%r8)
	movups	-1600(%r12,%r8), %xmm0
	movups	%xmm0, -1704(%r12,%r8)
	movups	-1664(%r12,%r8), %xmm0
	movups	-1648(%r12,%r8), %xmm1
	movups	-1632(%r12,%r8), %xmm2
	movups	-1616(%r12,%r8), %xmm3
	movups	%xmm3, -1720(%r12,%r8)
	movups	%xmm2, -1736(%r12,%r8)
	movups	%xmm1, -1752(%r12,%r8)
	movups	%xmm0, -1768(%r12,%r8)
	movq	-1464(%r12,%r8), %rax
	movq	%rax, -1568(%r12,%r8)
	movups	-1480(%r12,%r8), %xmm0
	movups	%xmm0, -1584(%r12,%r8)
	movups	-1496(%r12,%r8), %xmm0
	movups	%xmm0, -1600(%r12,%r8)
	movups	-1560(%r12,%r8), %xmm0
	movups	-1544(%r12,%r8), %xmm1
	movups	-1528(%r12,%r8), %xmm2
	movups	-1512(%r12,%r8), %xmm3
	movups	%xmm3, -1616(%r12,%r8)
	movups	%xmm2, -1632(%r12,%r8)
	movups	%xmm1, -1648(%r12,%r8)
	movups	%xmm0, -1664(%r12,%r8)
	movq	-1360(%r12,%r8), %rax
	movq	%rax, -1464(%r12,%r8)
	movups	-1376(%r12,%r8), %xmm0
	movups	%xmm0, -1480(%r12,%r8)
	movups	-1392(%r12,%r8), %xmm0
	movups	%xmm0, -1496(%r12,%r8)
	movups	-1456(%r12,%r8), %xmm0
	movups	-1440(%r12,%r8), %xmm1
	movups	-1424(%r12,%r8), %xmm2
	movups	-1408(%r12,%r8), %xmm3
	movups	%xmm3, -1512(%r12,%r8)
	movups	%xmm2, -1528(%r12,%r8)
	movups	%xmm1, -1544(%r12,%r8)
	movups	%xmm0, -1560(%r12,%r8)
	movq	-1256(%r12,%r8), %rax
	movq	%rax, -1360(%r12,%r8)
	movups	-1272(%r12,%r8), %xmm0
	movups	%xmm0, -1376(%r12,%r8)
	movups	-1288(%r12,%r8), %xmm0
	movups	%xmm0, -1392(%r12,%r8)
	movups	-1352(%r12,%r8), %xmm0
	movups	-1336(%r12,%r8), %xmm1
	movups	-1320(%r12,%r8), %xmm2
	movups	-1304(%r12,%r8), %xmm3
	movups	%xmm3, -1408(%r12,%r8)
	movups	%xmm2, -1424(%r12,%r8)
	movups	%xmm1, -1440(%r12,%r8)
	movups	%xmm0, -1456(%r12,%r8)
	movq	-1152(%r12,%r8), %rax
	movq	%rax, -1256(%r12,%r8)
	movups	-1168(%r12,%r8), %xmm0
	movups	%xmm0, -1272(%r12,%r8)
	movups	-1184(%r12,%r8), %xmm0
	movups	%xmm0, -1288(%r12,%r8)
	movups	-1248(%r12,%r8), %xmm0
	movups	-1232(%r12,%r8), %xmm1
	movups	-1216(%r12,%r8), %xmm2
	movups	-1200(%r12,%r8), %xmm3
	movups	%xmm3, -1304(%r12,%r8)
	movups	%xmm2, -1320(%r12,%r8)
	movups	%xmm1, -1336(%r12,%r8)
	movups	%xmm0, -1352(%r12,%r8)
	movq	-1048(%r12,%r8), %rax
	movq	%rax, -1152(%r12,%r8)
	movups	-1064(%r12,%r8), %xmm0
	movups	%xmm0, -1168(%r12,%r8)
	movups	-1080(%r12,%r8), %xmm0
	movups	%xmm0, -1184(%r12,%r8)
	movups	-1144(%r12,%r8), %xmm0
	movups	-1128(%r12,%r8), %xmm1
	movups	-1112(%r12,%r8), %xmm2
	movups	-1096(%r12,%r8), %xmm3
	movups	%xmm3, -1200(%r12,%r8)
	movups	%xmm2, -1216(%r12,%r8)
	movups	%xmm1, -1232(%r12,%r8)
	movups	%xmm0, -1248(%r12,%r8)
	movq	-944(%r12,%r8), %rax
	movq	%rax, -1048(%r12,%r8)
	movups	-960(%r12,%r8), %xmm0
	movups	%xmm0, -1064(%r12,%r8)
	movups	-976(%r12,%r8), %xmm0
	movups	%xmm0, -1080(%r12,%r8)
	movups	-1040(%r12,%r8), %xmm0
	movups	-1024(%r12,%r8), %xmm1
	movups	-1008(%r12,%r8), %xmm2
	movups	-992(%r12,%r8), %xmm3
	movups	%xmm3, -1096(%r12,%r8)
	movups	%xmm2, -1112(%r12,%r8)
	movups	%xmm1, -1128(%r12,%r8)
	movups	%xmm0, -1144(%r12,%r8)
	movq	1136(%r13), %rax
	movq	%rax, -944(%r12,%r8)
	movups	1120(%r13), %xmm0
	movups	%xmm0, -960(%r12,%r8)
	movups	1104(%r13), %xmm0
	movups	%xmm0, -976(%r12,%r8)
	movups	1040(%r13), %xmm0
	movups	1056(%r13), %xmm1
	movups	1072(%r13), %xmm2
	movups	1088(%r13), %xmm3
	movups	%xmm3, -992(%r12,%r8)
	movups	%xmm2, -1008(%r12,%r8)
	movups	%xmm1, -1024(%r12,%r8)
	movups	%xmm0, -1040(%r12,%r8)
	movups	-832(%r12,%r8), %xmm0
	movups	-816(%r12,%r8), %xmm1
	movups	-800(%r12,%r8), %xmm2
	movups	-784(%r12,%r8), %xmm3
	movups	%xmm0, 1040(%r13)
	movups	%xmm1, 1056(%r13)
	movups	%xmm2, 1072(%r13)
	movups	%xmm3, 1088(%r13)
	movups	-768(%r12,%r8), %xmm0
	movups	%xmm0, 1104(%r13)
	movups	-752(%r12,%r8), %xmm0
	movups	%xmm0, 1120(%r13)
	movq	-736(%r12,%r8), %rax
	movq	%rax, 1136(%r13)
	movq	-632(%r12,%r8), %rax
	movq	%rax, -736(%r12,%r8)
	movups	-648(%r12,%r8), %xmm0
	movups	%xmm0, -752(%r12,%r8)
	movups	-664(%r12,%r8), %xmm0
	movups	%xmm0, -768(%r12,%r8)
	movups	-728(%r12,%r8), %xmm0
	movups	-712(%r12,%r8), %xmm1
	movups	-696(%r12,%r8), %xmm2
	movups	-680(%r12,%r8), %xmm3
	movups	%xmm3, -784(%r12,%r8)
	movups	%xmm2, -800(%r12,%r8)
	movups	%xmm1, -816(%r12,%r8)
	movups	%xmm0, -832(%r12,%r8)
	movq	-528(%r12,%r8), %rax
	movq	%rax, -632(%r12,%r8)
	movups	-544(%r12,%r8), %xmm0
	movups	%xmm0, -648(%r12,%r8)
	movups	-560(%r12,%r8), %xmm0
	movups	%xmm0, -664(%r12,%r8)
	movups	-624(%r12,%r8), %xmm0
	movups	-608(%r12,%r8), %xmm1
	movups	-592(%r12,%r8), %xmm2
	movups	-576(%r12,%r8), %xmm3
	movups	%xmm3, -680(%r12,%r8)
	movups	%xmm2, -696(%r12,%r8)
	movups	%xmm1, -712(%r12,%r8)
	movups	%xmm0, -728(%r12,%r8)
	movq	-424(%r12,%r8), %rax
	movq	%rax, -528(%r12,%r8)
	movups	-440(%r12,%r8), %xmm0
	movups	%xmm0, -544(%r12,%r8)
	movups	-456(%r12,%r8), %xmm0
	movups	%xmm0, -560(%r12,%r8)
	movups	-520(%r12,%r8), %xmm0
	movups	-504(%r12,%r8), %xmm1
	movups	-488(%r12,%r8), %xmm2
	movups	-472(%r12,%r8), %xmm3
	movups	%xmm3, -576(%r12,%r8)
	movups	%xmm2, -592(%r12,%r8)
	movups	%xmm1, -608(%r12,%r8)
	movups	%xmm0, -624(%r12,%r8)
	movq	-320(%r12,%r8), %rax
	movq	%rax, -424(%r12,%r8)
	movups	-336(%r12,%r8), %xmm0
	movups	%xmm0, -440(%r12,%r8)
	movups	-352(%r12,%r8), %xmm0
	movups	%xmm0, -456(%r12,%r8)
	movups	-416(%r12,%r8), %xmm0
	movups	-400(%r12,%r8), %xmm1
	movups	-384(%r12,%r8), %xmm2
	movups	-368(%r12,%r8), %xmm3
	movups	%xmm3, -472(%r12,%r8)
	movups	%xmm2, -488(%r12,%r8)
	movups	%xmm1, -504(%r12,%r8)
	movups	%xmm0, -520(%r12,%r8)
	movq	-216(%r12,%r8), %rax
	movq	%rax, -320(%r12,%r8)
	movups	-232(%r12,%r8), %xmm0
	movups	%xmm0, -336(%r12,%r8)
	movups	-248(%r12,%r8), %xmm0
	movups	%xmm0, -352(%r12,%r8)
	movups	-312(%r12,%r8), %xmm0
	movups	-296(%r12,%r8), %xmm1
	movups	-280(%r12,%r8), %xmm2
	movups	-264(%r12,%r8), %xmm3
	movups	%xmm3, -368(%r12,%r8)
	movups	%xmm2, -384(%r12,%r8)
	movups	%xmm1, -400(%r12,%r8)
	movups	%xmm0, -416(%r12,%r8)
	movq	-112(%r12,%r8), %rax
	movq	%rax, -216(%r12,%r8)
	movups	-128(%r12,%r8), %xmm0
	movups	%xmm0, -232(%r12,%r8)
	movups	-144(%r12,%r8), %xmm0
	movups	%xmm0, -248(%r12,%r8)
	movups	-208(%r12,%r8), %xmm0
	movups	-192(%r12,%r8), %xmm1
	movups	-176(%r12,%r8), %xmm2
	movups	-160(%r12,%r8), %xmm3
	movups	%xmm3, -264(%r12,%r8)
	movups	%xmm2, -280(%r12,%r8)
	movups	%xmm1, -296(%r12,%r8)
	movups	%xmm0, -312(%r12,%r8)
	movq	-8(%r12,%r8), %rax
	movq	%rax, -112(%r12,%r8)
	movups	-24(%r12,%r8), %xmm0
	movups	%xmm0, -128(%r12,%r8)
	movups	-40(%r12,%r8), %xmm0
	movups	%xmm0, -144(%r12,%r8)
	movups	-104(%r12,%r8), %xmm0
	movups	-88(%r12,%r8), %xmm1
	movups	-72(%r12,%r8), %xmm2
	movups	-56(%r12,%r8), %xmm3
	movups	%xmm3, -160(%r12,%r8)
	movups	%xmm2, -176(%r12,%r8)
	movups	%xmm1, -192(%r12,%r8)
	movups	%xmm0, -208(%r12,%r8)
	movq	96(%r12,%r8), %rax
	movq	%rax, -8(%r12,%r8)
	movups	80(%r12,%r8), %xmm0
	movups	%xmm0, -24(%r12,%r8)
	movups	64(%r12,%r8), %xmm0
	movups	%xmm0, -40(%r12,%r8)
	movups	(%r12,%r8), %xmm0
	movups	16(%r12,%r8), %xmm1
	movups	32(%r12,%r8), %xmm2
	movups	48(%r12,%r8), %xmm3
	movups	%xmm3, -56(%r12,%r8)
	movups	%xmm2, -72(%r12,%r8)
	movups	%xmm1, -88(%r12,%r8)
	movups	%xmm0, -104(%r12,%r8)
	jmp	2b
4:
	testq	%rbp, %rbp
	je	17f
	movq	%rbp, %rax
	subq	%rdx, %rax
	addq	$-2, %rax
	movl	%r9d, %r10d
	andl	$3, %r10d
	cmpq	$3, %rax
	jae	9f
	xorl	%r11d, %r11d
	jmp	11f
5:
	subq	%r10, %rdx
	cmpq	%r10, %r11
	jne	7f
	testq	%rbp, %rbp
	movq	%rcx, %r12
	movq	%rdi, %r13
	movq	(%rsp), %rdi
	je	17f
	addq	$-19, %rdx
	imulq	$104, %rbp, %rax
	addq	$-20, %rbp
	addq	%r15, %rax
	addq	$-104, %rax
	.p2align	4
6:
	movq	96(%rax), %r8
	movq	%r8, -8(%rax)
	movups	80(%rax), %xmm0
	movups	%xmm0, -24(%rax)
	movups	64(%rax), %xmm0
	movups	%xmm0, -40(%rax)
	movups	(%rax), %xmm0
	movups	16(%rax), %xmm1
	movups	32(%rax), %xmm2
	movups	48(%rax), %xmm3
	movups	%xmm3, -56(%rax)
	movups	%xmm2, -72(%rax)
	movups	%xmm1, -88(%rax)
	movups	%xmm0, -104(%rax)
	addq	$-104, %rax
	decq	%rbp
	cmpq	%rbp, %rdx
	jne	6b
	jmp	17f
7:
	addq	%r10, %r9
	movq	%rcx, %r12
	movq	%rdi, %r13
	movq	(%rsp), %rdi
8:
	cmpq	%rdx, %rsi
	je	17f
	leaq	-1(%r9), %rax
	movl	%r9d, %edx
	andl	$3, %edx
	cmpq	$3, %rax
	jae	13f
	xorl	%eax, %eax
	jmp	15f
9:
	movq	%rdi, (%rsp)
	movq	%r13, 8(%rsp)
	movq	%r12, 16(%rsp)
	addq	%r15, %r8
	movq	%r9, %r12
	andq	$-4, %r12
	imulq	$-104, %rdx, %r13
	imulq	$104, %rbp, %rax
	addq	%r15, %rax
	addq	$-208, %rax
	xorl	%r11d, %r11d
	.p2align	4
10:
	movups	(%rax,%r13), %xmm0
	movups	16(%rax,%r13), %xmm1
	movups	32(%rax,%r13), %xmm2
	movups	48(%rax,%r13), %xmm3
	movups	64(%rax,%r13), %xmm4
	movups	80(%rax,%r13), %xmm5
	movq	96(%rax,%r13), %rdi
	movq	%rdi, 96(%rax)
	movups	%xmm5, 80(%rax)
	movups	%xmm4, 64(%rax)
	movups	%xmm3, 48(%rax)
	movups	%xmm2, 32(%rax)
	movups	%xmm1, 16(%rax)
	movups	%xmm0, (%rax)
	movabsq	$2305843009213693950, %rdi
	xorq	%r11, %rdi
	addq	%r9, %rdi
	imulq	$104, %rdi, %rdi
	movups	(%r15,%rdi), %xmm0
	movups	16(%r15,%rdi), %xmm1
	movups	32(%r15,%rdi), %xmm2
	movups	48(%r15,%rdi), %xmm3
	movups	64(%r15,%rdi), %xmm4
	movups	80(%r15,%rdi), %xmm5
	movq	96(%r15,%rdi), %rcx
	movq	%rcx, 96(%r8,%rdi)
	movups	%xmm5, 80(%r8,%rdi)
	movups	%xmm4, 64(%r8,%rdi)
	movups	%xmm3, 48(%r8,%rdi)
	movups	%xmm2, 32(%r8,%rdi)
	movups	%xmm1, 16(%r8,%rdi)
	movups	%xmm0, (%r8,%rdi)
	movabsq	$2305843009213693949, %rcx
	xorq	%r11, %rcx
	addq	%r9, %rcx
	imulq	$104, %rcx, %rcx
	movups	(%r15,%rcx), %xmm0
	movups	16(%r15,%rcx), %xmm1
	movups	32(%r15,%rcx), %xmm2
	movups	48(%r15,%rcx), %xmm3
	movups	64(%r15,%rcx), %xmm4
	movups	80(%r15,%rcx), %xmm5
	movq	96(%r15,%rcx), %rdi
	movq	%rdi, 96(%r8,%rcx)
	movups	%xmm5, 80(%r8,%rcx)
	movups	%xmm4, 64(%r8,%rcx)
	movups	%xmm3, 48(%r8,%rcx)
	movups	%xmm2, 32(%r8,%rcx)
	movups	%xmm1, 16(%r8,%rcx)
	movups	%xmm0, (%r8,%rcx)
	movabsq	$2305843009213693948, %rcx
	xorq	%r11, %rcx
	addq	%r9, %rcx
	imulq	$104, %rcx, %rcx
	movups	(%r15,%rcx), %xmm0
	movups	16(%r15,%rcx), %xmm1
	movups	32(%r15,%rcx), %xmm2
	movups	48(%r15,%rcx), %xmm3
	movups	64(%r15,%rcx), %xmm4
	movups	80(%r15,%rcx), %xmm5
	movq	96(%r15,%rcx), %rdi
	movq	%rdi, 96(%r8,%rcx)
	movups	%xmm5, 80(%r8,%rcx)
	movups	%xmm4, 64(%r8,%rcx)
	movups	%xmm3, 48(%r8,%rcx)
	movups	%xmm2, 32(%r8,%rcx)
	movups	%xmm1, 16(%r8,%rcx)
	movups	%xmm0, (%r8,%rcx)
	addq	$4, %r11
	addq	$-416, %rax
	cmpq	%r11, %r12
	jne	10b
	testq	%r10, %r10
	movq	16(%rsp), %r12
	movq	8(%rsp), %r13
	movq	(%rsp), %rdi
	je	17f
11:
	imulq	$104, %rbp, %rax
	addq	$-208, %rax
	leaq	(%rdx,%r11), %rcx
	imulq	$104, %rcx, %rcx
	movq	%rax, %rdx
	subq	%rcx, %rdx
	addq	%r15, %rdx
	imulq	$104, %r11, %rcx
	subq	%rcx, %rax
	addq	%r15, %rax
	imulq	$104, %r10, %r8
	xorl	%r9d, %r9d
	.p2align	4
12:
	movups	(%rdx,%r9), %xmm0
	movups	16(%rdx,%r9), %xmm1
	movups	32(%rdx,%r9), %xmm2
	movups	48(%rdx,%r9), %xmm3
	movups	64(%rdx,%r9), %xmm4
	movups	80(%rdx,%r9), %xmm5
	movq	96(%rdx,%r9), %rcx
	movq	%rcx, 96(%rax,%r9)
	movups	%xmm5, 80(%rax,%r9)
	movups	%xmm4, 64(%rax,%r9)
	movups	%xmm3, 48(%rax,%r9)
	movups	%xmm2, 32(%rax,%r9)
	movups	%xmm1, 16(%rax,%r9)
	movups	%xmm0, (%rax,%r9)
	addq	$-104, %r9
	movq	%r8, %rcx
	addq	%r9, %rcx
	jne	12b
	jmp	17f
13:
	leaq	(%r15,%r8), %r10
	andl	$28, %r9d
	xorl	%eax, %eax
	.p2align	4
14:
	movq	200(%r10), %r11
	movq	%r11, 96(%r10)
	movups	184(%r10), %xmm0
	movups	%xmm0, 80(%r10)
	movups	168(%r10), %xmm0
	movups	%xmm0, 64(%r10)
	movups	104(%r10), %xmm0
	movups	120(%r10), %xmm1
	movups	136(%r10), %xmm2
	movups	152(%r10), %xmm3
	movups	%xmm3, 48(%r10)
	movups	%xmm2, 32(%r10)
	movups	%xmm1, 16(%r10)
	movups	%xmm0, (%r10)
	movups	208(%r10), %xmm0
	movups	%xmm0, 104(%r10)
	movups	224(%r10), %xmm0
	movups	%xmm0, 120(%r10)
	movups	240(%r10), %xmm0
	movups	%xmm0, 136(%r10)
	movups	256(%r10), %xmm0
	movups	%xmm0, 152(%r10)
	movups	272(%r10), %xmm0
	movups	%xmm0, 168(%r10)
	movups	288(%r10), %xmm0
	movups	%xmm0, 184(%r10)
	movq	304(%r10), %r11
	movq	%r11, 200(%r10)
	movq	408(%r10), %r11
	movq	%r11, 304(%r10)
	movups	392(%r10), %xmm0
	movups	%xmm0, 288(%r10)
	movups	376(%r10), %xmm0
	movups	%xmm0, 272(%r10)
	movups	312(%r10), %xmm0
	movups	328(%r10), %xmm1
	movups	344(%r10), %xmm2
	movups	360(%r10), %xmm3
	movups	%xmm3, 256(%r10)
	movups	%xmm2, 240(%r10)
	movups	%xmm1, 224(%r10)
	movups	%xmm0, 208(%r10)
	movups	416(%r10), %xmm0
	movups	%xmm0, 312(%r10)
	movups	432(%r10), %xmm0
	movups	%xmm0, 328(%r10)
	movups	448(%r10), %xmm0
	movups	%xmm0, 344(%r10)
	movups	464(%r10), %xmm0
	movups	%xmm0, 360(%r10)
	movups	480(%r10), %xmm0
	movups	%xmm0, 376(%r10)
	movups	496(%r10), %xmm0
	movups	%xmm0, 392(%r10)
	movq	512(%r10), %r11
	movq	%r11, 408(%r10)
	addq	$416, %r10
	addq	$4, %rax
	cmpq	%rax, %r9
	jne	14b
	testq	%rdx, %rdx
	je	17f
15:
	imulq	$104, %rax, %rax
	addq	%r15, %rax
	addq	%r8, %rax
	imulq	$104, %rdx, %rdx
	xorl	%r8d, %r8d
	.p2align	4
16:
	movq	200(%rax,%r8), %rcx
	movq	%rcx, 96(%rax,%r8)
	movups	184(%rax,%r8), %xmm0
	movups	%xmm0, 80(%rax,%r8)
	movups	168(%rax,%r8), %xmm0
	movups	%xmm0, 64(%rax,%r8)
	movups	104(%rax,%r8), %xmm0
	movups	120(%rax,%r8), %xmm1
	movups	136(%rax,%r8), %xmm2
	movups	152(%rax,%r8), %xmm3
	movups	%xmm3, 48(%rax,%r8)
	movups	%xmm2, 32(%rax,%r8)
	movups	%xmm1, 16(%rax,%r8)
	movups	%xmm0, (%rax,%r8)
	addq	$104, %r8
	cmpq	%r8, %rdx
	jne	16b
17:
	movq	%r15, (%r14)
	movq	%rsi, 8(%r14)
	movq	40(%rsp), %rax
	movq	%rax, 16(%r14)
	cmpq	$0, 32(%rsp)
	je	18f
	callq	rattle_dealloc@PLT
18:
	cmpq	$0, 48(%rsp)
	je	19f
	movq	24(%rsp), %rdi
	callq	rattle_dealloc@PLT
19:
	testq	%r13, %r13
	je	20f
	movq	%r12, %rdi
	callq	rattle_dealloc@PLT
20:
	movl	%ebx, %eax
	addq	$56, %rsp
	popq	%rbx
	popq	%r12
	popq	%r13
	popq	%r14
	popq	%r15
	popq	%rbp
	retq
21:
	.size	"clap::parser::matcher::ArgMatcher::remove", 21b-"clap::parser::matcher::ArgMatcher::remove"

	.text
	.p2align	4
	.type	"clap::parser::matcher::ArgMatcher::start",@function
"clap::parser::matcher::ArgMatcher::start":
	pushq	%rbp
	pushq	%r15
	pushq	%r14
	pushq	%r13
	pushq	%r12
	pushq	%rbx
	subq	$184, %rsp
	movl	%r8d, %ebp
	movl	%ecx, %r13d
	movq	%rdx, %r14
	movq	%rsi, %r12
	movq	%rdi, %rbx
	movq	(%rdi), %r15
	movq	8(%rdi), %rsi
	movq	%r15, %rdi
	movq	%r12, %rdx
	movq	%r14, %rcx
	callq	"clap::parser::matcher::ArgMatcher::place"
	cmpb	$1, %al
	jne	2f
	imulq	$104, %rdx, %rbx
	movw	$257, 16(%r15,%rbx)
	movq	56(%r15,%rbx), %r14
	movq	80(%r15,%rbx), %rax
	cmpq	%rax, 88(%r15,%rbx)
	je	7f
1:
	movq	72(%r15,%rbx), %rcx
	movq	%r14, (%rcx,%rax,8)
	incq	%rax
	movq	%rax, 80(%r15,%rbx)
	jmp	5f
2:
	movq	$257, 48(%rsp)
	leaq	8(%rsp), %r15
	movq	%r15, 56(%rsp)
	xorps	%xmm0, %xmm0
	movups	%xmm0, 64(%rsp)
	movq	%r15, 80(%rsp)
	movups	%xmm0, 88(%rsp)
	movq	%r15, 104(%rsp)
	movups	%xmm0, 112(%rsp)
	movw	$0, 128(%rsp)
	movb	%r13b, 130(%rsp)
	movb	%bpl, 131(%rsp)
	movl	$0, 132(%rsp)
	movq	88(%rsp), %r13
	movq	112(%rsp), %rbp
	movq	120(%rsp), %rsi
	cmpq	%rbp, %rsi
	je	8f
	movq	%r13, %r9
	movq	%r15, %rdi
	movq	%r15, %r8
3:
	movq	%r13, (%r15,%rbp,8)
	movq	48(%rsp), %r13
	movups	64(%rsp), %xmm0
	movq	96(%rsp), %r10
	movq	128(%rsp), %r11
	movq	8(%rbx), %rax
	cmpq	%rax, 16(%rbx)
	je	9f
4:
	incq	%rbp
	movq	(%rbx), %rcx
	imulq	$104, %rax, %rdx
	movq	%r12, (%rcx,%rdx)
	movq	%r14, 8(%rcx,%rdx)
	movq	%r13, 16(%rcx,%rdx)
	movq	%r8, 24(%rcx,%rdx)
	movups	%xmm0, 32(%rcx,%rdx)
	movq	%rdi, 48(%rcx,%rdx)
	movq	%r9, 56(%rcx,%rdx)
	movq	%r10, 64(%rcx,%rdx)
	movq	%r15, 72(%rcx,%rdx)
	movq	%rbp, 80(%rcx,%rdx)
	movq	%rsi, 88(%rcx,%rdx)
	movq	%r11, 96(%rcx,%rdx)
	incq	%rax
	movq	%rax, 8(%rbx)
5:
	xorl	%eax, %eax
6:
	addq	$184, %rsp
	popq	%rbx
	popq	%r12
	popq	%r13
	popq	%r14
	popq	%r15
	popq	%rbp
	retq
7:
	leaq	(%r15,%rbx), %rdi
	addq	$72, %rdi
	callq	"std_alloc::vec::Vec::grow_amortized::<#33f378437a29c276>"
	movl	%eax, %ecx
	movb	$1, %al
	testb	%cl, %cl
	je	6b
	movq	80(%r15,%rbx), %rax
	jmp	1b
8:
	leaq	104(%rsp), %rdi
	callq	"std_alloc::vec::Vec::grow_amortized::<#33f378437a29c276>"
	testb	%al, %al
	je	10f
	movq	112(%rsp), %rbp
	movq	104(%rsp), %r15
	movq	56(%rsp), %r8
	movq	80(%rsp), %rdi
	movq	88(%rsp), %r9
	movq	120(%rsp), %rsi
	jmp	3b
9:
	movaps	%xmm0, 160(%rsp)
	movq	%r11, 144(%rsp)
	movq	%r10, 24(%rsp)
	movq	%r9, 152(%rsp)
	movq	%r8, 32(%rsp)
	movq	%rdi, 16(%rsp)
	movq	%rsi, 40(%rsp)
	movq	72(%rsp), %rax
	movq	%rax, 136(%rsp)
	movq	%rbx, %rdi
	callq	"std_alloc::vec::Vec::grow_amortized::<#3b6d026ce996fc29>"
	testb	%al, %al
	je	13f
	movq	8(%rbx), %rax
	movq	40(%rsp), %rsi
	movq	16(%rsp), %rdi
	movq	32(%rsp), %r8
	movq	152(%rsp), %r9
	movq	24(%rsp), %r10
	movq	144(%rsp), %r11
	movaps	160(%rsp), %xmm0
	jmp	4b
10:
	cmpq	$0, 72(%rsp)
	je	11f
	movq	56(%rsp), %rdi
	callq	rattle_dealloc@PLT
11:
	cmpq	$0, 96(%rsp)
	je	12f
	movq	80(%rsp), %rdi
	callq	rattle_dealloc@PLT
12:
	movb	$1, %al
	cmpq	$0, 120(%rsp)
	je	6b
	movq	104(%rsp), %rdi
	jmp	16f
13:
	cmpq	$0, 136(%rsp)
	movq	32(%rsp), %rdi
	je	14f
	callq	rattle_dealloc@PLT
14:
	cmpq	$0, 24(%rsp)
	je	15f
	movq	16(%rsp), %rdi
	callq	rattle_dealloc@PLT
15:
	movb	$1, %al
	cmpq	$0, 40(%rsp)
	je	6b
	movq	%r15, %rdi
16:
	callq	rattle_dealloc@PLT
	movb	$1, %al
	jmp	6b
17:
	.size	"clap::parser::matcher::ArgMatcher::start", 17b-"clap::parser::matcher::ArgMatcher::start"

	.text
	.p2align	4
	.type	"clap::parser::matches::Found::get",@function
"clap::parser::matches::Found::get":
	testq	%rsi, %rsi
	je	16f
	leaq	-8(%rcx), %r11
	leaq	-16(%rcx), %rax
	cmpq	$32, %rax
	movl	$32, %r8d
	cmovbq	%rax, %r8
	cmpq	$8, %r11
	movl	$8, %r9d
	cmovbq	%r11, %r9
	cmpq	$16, %r11
	movl	$16, %r10d
	cmovbq	%r11, %r10
	movq	%rcx, %r11
	subq	$8, %r11
	jae	7f
	cmpq	$4, %rcx
	jae	2f
	testq	%rcx, %rcx
	je	6f
	movq	%rcx, %rax
	shrq	%rax
	jmp	4f
	.p2align	4
1:
	addq	$104, %rdi
	decq	%rsi
	je	16f
2:
	cmpq	%rcx, 8(%rdi)
	jne	1b
	movq	(%rdi), %rax
	movl	(%rax), %r8d
	movl	-4(%rax,%rcx), %eax
	shlq	$32, %rax
	orq	%r8, %rax
	movl	(%rdx), %r8d
	movl	-4(%rdx,%rcx), %r9d
	shlq	$32, %r9
	orq	%r8, %r9
	cmpq	%r9, %rax
	jne	1b
	jmp	15f
	.p2align	4
3:
	addq	$104, %rdi
	decq	%rsi
	je	16f
4:
	cmpq	%rcx, 8(%rdi)
	jne	3b
	movq	(%rdi), %r8
	movzbl	(%r8), %r9d
	movzbl	(%r8,%rax), %r10d
	shll	$16, %r9d
	shll	$8, %r10d
	orl	%r9d, %r10d
	movzbl	-1(%r8,%rcx), %r8d
	orl	%r10d, %r8d
	movzbl	(%rdx), %r9d
	movzbl	(%rdx,%rax), %r10d
	shll	$16, %r9d
	shll	$8, %r10d
	orl	%r9d, %r10d
	movzbl	-1(%rdx,%rcx), %r9d
	orl	%r10d, %r9d
	cmpl	%r9d, %r8d
	jne	3b
	jmp	15f
	.p2align	4
5:
	addq	$104, %rdi
	xorl	%eax, %eax
	movl	$0, %edx
	decq	%rsi
	je	17f
6:
	cmpq	$0, 8(%rdi)
	jne	5b
	jmp	15f
7:
	cmpq	$32, %rcx
	jbe	9f
	cmpq	$65, %rcx
	jae	11f
	jmp	14f
	.p2align	4
8:
	addq	$104, %rdi
	decq	%rsi
	je	16f
9:
	cmpq	%rcx, 8(%rdi)
	jne	8b
	movq	(%rdi), %rax
	movq	(%rax), %r8
	cmpq	(%rdx), %r8
	jne	8b
	movq	(%rdx,%r9), %r8
	cmpq	%r8, (%rax,%r9)
	jne	8b
	movq	(%rdx,%r10), %r8
	cmpq	%r8, (%rax,%r10)
	jne	8b
	movq	(%rdx,%r11), %r8
	cmpq	%r8, (%rax,%r11)
	jne	8b
	jmp	15f
	.p2align	4
10:
	addq	$104, %rdi
	decq	%rsi
	je	16f
11:
	cmpq	%rcx, 8(%rdi)
	jne	10b
	movq	(%rdi), %rax
	xorl	%r8d, %r8d
	movq	%rcx, %r9
	.p2align	4
12:
	movdqu	(%rax,%r8), %xmm0
	movdqu	16(%rax,%r8), %xmm1
	movdqu	32(%rax,%r8), %xmm2
	movdqu	48(%rax,%r8), %xmm3
	movdqu	(%rdx,%r8), %xmm4
	pcmpeqb	%xmm0, %xmm4
	movdqu	16(%rdx,%r8), %xmm0
	pcmpeqb	%xmm1, %xmm0
	pand	%xmm4, %xmm0
	movdqu	32(%rdx,%r8), %xmm1
	pcmpeqb	%xmm2, %xmm1
	movdqu	48(%rdx,%r8), %xmm2
	pcmpeqb	%xmm3, %xmm2
	pand	%xmm1, %xmm2
	pand	%xmm0, %xmm2
	pmovmskb	%xmm2, %r10d
	cmpl	$65535, %r10d
	jne	10b
	addq	$64, %r8
	addq	$-64, %r9
	cmpq	$65, %r9
	jae	12b
	movdqu	-64(%rax,%rcx), %xmm0
	movdqu	-48(%rax,%rcx), %xmm1
	movdqu	-32(%rax,%rcx), %xmm2
	movdqu	-16(%rax,%rcx), %xmm3
	movdqu	-64(%rdx,%rcx), %xmm4
	pcmpeqb	%xmm0, %xmm4
	movdqu	-48(%rdx,%rcx), %xmm0
	pcmpeqb	%xmm1, %xmm0
	pand	%xmm4, %xmm0
	movdqu	-32(%rdx,%rcx), %xmm1
	pcmpeqb	%xmm2, %xmm1
	movdqu	-16(%rdx,%rcx), %xmm2
	pcmpeqb	%xmm3, %xmm2
	pand	%xmm1, %xmm2
	pand	%xmm0, %xmm2
	pmovmskb	%xmm2, %eax
	cmpl	$65535, %eax
	jne	10b
	jmp	15f
	.p2align	4
13:
	addq	$104, %rdi
	decq	%rsi
	je	16f
14:
	cmpq	%rcx, 8(%rdi)
	jne	13b
	movq	(%rdi), %r9
	movdqu	(%r9), %xmm0
	movdqu	16(%r9), %xmm1
	movdqu	(%rdx), %xmm2
	pcmpeqb	%xmm0, %xmm2
	movdqu	16(%rdx), %xmm0
	pcmpeqb	%xmm1, %xmm0
	pand	%xmm2, %xmm0
	movdqu	(%r9,%r8), %xmm1
	movdqu	(%rdx,%r8), %xmm2
	pcmpeqb	%xmm1, %xmm2
	movdqu	(%r9,%rax), %xmm1
	movdqu	(%rdx,%rax), %xmm3
	pcmpeqb	%xmm1, %xmm3
	pand	%xmm2, %xmm3
	pand	%xmm0, %xmm3
	pmovmskb	%xmm3, %r9d
	cmpl	$65535, %r9d
	jne	13b
15:
	movb	$1, %al
	movq	%rdi, %rdx
	jmp	17f
16:
	xorl	%eax, %eax
	xorl	%edx, %edx
17:
	xorl	%ecx, %ecx
	testb	$1, %al
	cmoveq	%rcx, %rdx
	addq	$16, %rdx
	cmpb	$1, %al
	sete	%al
	cmovneq	%rcx, %rdx
	retq
18:
	.size	"clap::parser::matches::Found::get", 18b-"clap::parser::matches::Found::get"

	.text
	.p2align	4
	.type	"clap::parser::matches::Found::has_value",@function
"clap::parser::matches::Found::has_value":
	pushq	%r14
	pushq	%rbx
	pushq	%rax
	movq	%r9, %rbx
	movq	%r8, %r14
	callq	"clap::parser::matches::Found::get"
	cmpb	$1, %al
	jne	4f
	cmpb	$1, (%rdx)
	jne	1f
	cmpb	$1, 1(%rdx)
	jne	4f
1:
	movq	40(%rdx), %rcx
	testq	%rcx, %rcx
	je	4f
	leaq	-16(%rbx), %rdi
	cmpq	$32, %rdi
	movl	$32, %r8d
	cmovbq	%rdi, %r8
	movq	32(%rdx), %rsi
	leaq	-8(%rbx), %r9
	cmpq	$8, %r9
	movl	$8, %r10d
	cmovbq	%r9, %r10
	cmpq	$16, %r9
	movl	$16, %r11d
	cmovbq	%r9, %r11
	cmpb	$1, 82(%rdx)
	jne	9f
	testq	%rbx, %rbx
	jne	6f
	addq	$8, %rsi
	decq	%rcx
	.p2align	4
2:
	subq	$1, %rcx
	setb	%dl
	cmpq	$0, (%rsi)
	sete	%al
	je	3f
	addq	$16, %rsi
	testb	%dl, %dl
	je	2b
3:
	addq	$8, %rsp
	popq	%rbx
	popq	%r14
	retq
4:
	xorl	%eax, %eax
	addq	$8, %rsp
	popq	%rbx
	popq	%r14
	retq
	.p2align	4
5:
	addq	$16, %rsi
	xorl	%eax, %eax
	decq	%rcx
	je	3b
6:
	cmpq	%rbx, 8(%rsi)
	jne	5b
	movq	(%rsi), %rax
	xorl	%edx, %edx
	.p2align	4
7:
	movzbl	(%rax,%rdx), %edi
	leal	-65(%rdi), %r8d
	leal	32(%rdi), %r9d
	cmpb	$26, %r8b
	movzbl	%r9b, %r8d
	cmovael	%edi, %r8d
	movzbl	(%r14,%rdx), %edi
	leal	-65(%rdi), %r9d
	leal	32(%rdi), %r10d
	cmpb	$26, %r9b
	movzbl	%r10b, %r9d
	cmovael	%edi, %r9d
	cmpb	%r9b, %r8b
	jne	5b
	incq	%rdx
	cmpq	%rdx, %rbx
	jne	7b
8:
	movb	$1, %al
	addq	$8, %rsp
	popq	%rbx
	popq	%r14
	retq
9:
	cmpq	$7, %rbx
	ja	12f
	cmpq	$4, %rbx
	jb	15f
	addq	$8, %rsi
	jmp	11f
	.p2align	4
10:
	decq	%rcx
	addq	$16, %rsi
	xorl	%eax, %eax
	testq	%rcx, %rcx
	je	3b
11:
	cmpq	%rbx, (%rsi)
	jne	10b
	movq	-8(%rsi), %rax
	movl	(%rax), %edx
	movl	-4(%rax,%rbx), %eax
	shlq	$32, %rax
	orq	%rdx, %rax
	movl	(%r14), %edx
	movl	-4(%r14,%rbx), %edi
	shlq	$32, %rdi
	orq	%rdx, %rdi
	cmpq	%rdi, %rax
	jne	10b
	jmp	8b
12:
	cmpq	$32, %rbx
	ja	18f
	addq	$8, %rsi
	jmp	14f
	.p2align	4
13:
	decq	%rcx
	addq	$16, %rsi
	xorl	%eax, %eax
	testq	%rcx, %rcx
	je	3b
14:
	cmpq	%rbx, (%rsi)
	jne	13b
	movq	-8(%rsi), %rax
	movq	(%rax), %rdx
	cmpq	(%r14), %rdx
	jne	13b
	movq	(%r14,%r10), %rdx
	cmpq	%rdx, (%rax,%r10)
	jne	13b
	movq	(%r14,%r11), %rdx
	cmpq	%rdx, (%rax,%r11)
	jne	13b
	movq	(%r14,%r9), %rdx
	cmpq	%rdx, (%rax,%r9)
	jne	13b
	jmp	8b
15:
	testq	%rbx, %rbx
	je	24f
	movq	%rbx, %rdx
	shrq	%rdx
	addq	$8, %rsi
	jmp	17f
	.p2align	4
16:
	decq	%rcx
	addq	$16, %rsi
	xorl	%eax, %eax
	testq	%rcx, %rcx
	je	3b
17:
	cmpq	%rbx, (%rsi)
	jne	16b
	movq	-8(%rsi), %rax
	movzbl	(%rax), %edi
	movzbl	(%rax,%rdx), %r8d
	shll	$16, %edi
	shll	$8, %r8d
	orl	%edi, %r8d
	movzbl	-1(%rax,%rbx), %eax
	orl	%r8d, %eax
	movzbl	(%r14), %edi
	movzbl	(%r14,%rdx), %r8d
	shll	$16, %edi
	shll	$8, %r8d
	orl	%edi, %r8d
	movzbl	-1(%r14,%rbx), %edi
	orl	%r8d, %edi
	cmpl	%edi, %eax
	jne	16b
	jmp	8b
18:
	cmpq	$65, %rbx
	jae	20f
	addq	$8, %rsi
	jmp	23f
	.p2align	4
19:
	addq	$16, %rsi
	xorl	%eax, %eax
	decq	%rcx
	je	3b
20:
	cmpq	%rbx, 8(%rsi)
	jne	19b
	movq	(%rsi), %rax
	xorl	%edx, %edx
	movq	%rbx, %rdi
	.p2align	4
21:
	movdqu	(%rax,%rdx), %xmm0
	movdqu	16(%rax,%rdx), %xmm1
	movdqu	32(%rax,%rdx), %xmm2
	movdqu	48(%rax,%rdx), %xmm3
	movdqu	(%r14,%rdx), %xmm4
	pcmpeqb	%xmm0, %xmm4
	movdqu	16(%r14,%rdx), %xmm0
	pcmpeqb	%xmm1, %xmm0
	pand	%xmm4, %xmm0
	movdqu	32(%r14,%rdx), %xmm1
	pcmpeqb	%xmm2, %xmm1
	movdqu	48(%r14,%rdx), %xmm2
	pcmpeqb	%xmm3, %xmm2
	pand	%xmm1, %xmm2
	pand	%xmm0, %xmm2
	pmovmskb	%xmm2, %r8d
	cmpl	$65535, %r8d
	jne	19b
	addq	$64, %rdx
	addq	$-64, %rdi
	cmpq	$65, %rdi
	jae	21b
	movdqu	-64(%rax,%rbx), %xmm0
	movdqu	-48(%rax,%rbx), %xmm1
	movdqu	-32(%rax,%rbx), %xmm2
	movdqu	-16(%rax,%rbx), %xmm3
	movdqu	-64(%r14,%rbx), %xmm4
	pcmpeqb	%xmm0, %xmm4
	movdqu	-48(%r14,%rbx), %xmm0
	pcmpeqb	%xmm1, %xmm0
	pand	%xmm4, %xmm0
	movdqu	-32(%r14,%rbx), %xmm1
	pcmpeqb	%xmm2, %xmm1
	movdqu	-16(%r14,%rbx), %xmm2
	pcmpeqb	%xmm3, %xmm2
	pand	%xmm1, %xmm2
	pand	%xmm0, %xmm2
	pmovmskb	%xmm2, %eax
	cmpl	$65535, %eax
	jne	19b
	jmp	8b
	.p2align	4
22:
	decq	%rcx
	addq	$16, %rsi
	xorl	%eax, %eax
	testq	%rcx, %rcx
	je	3b
23:
	cmpq	%rbx, (%rsi)
	jne	22b
	movq	-8(%rsi), %rax
	movdqu	(%rax), %xmm0
	movdqu	16(%rax), %xmm1
	movdqu	(%r14), %xmm2
	pcmpeqb	%xmm0, %xmm2
	movdqu	16(%r14), %xmm0
	pcmpeqb	%xmm1, %xmm0
	pand	%xmm2, %xmm0
	movdqu	(%rax,%r8), %xmm1
	movdqu	(%r14,%r8), %xmm2
	pcmpeqb	%xmm1, %xmm2
	movdqu	(%rax,%rdi), %xmm1
	movdqu	(%r14,%rdi), %xmm3
	pcmpeqb	%xmm1, %xmm3
	pand	%xmm2, %xmm3
	pand	%xmm0, %xmm3
	pmovmskb	%xmm3, %eax
	cmpl	$65535, %eax
	jne	22b
	jmp	8b
24:
	addq	$8, %rsi
	decq	%rcx
	.p2align	4
25:
	subq	$1, %rcx
	setb	%dl
	cmpq	$0, (%rsi)
	sete	%al
	je	3b
	addq	$16, %rsi
	testb	%dl, %dl
	je	25b
	jmp	3b
26:
	.size	"clap::parser::matches::Found::has_value", 26b-"clap::parser::matches::Found::has_value"

	.text
	.p2align	4
	.type	"clap::parser::matches::MatchedArg::add_count",@function
"clap::parser::matches::MatchedArg::add_count":
	pushq	%rbp
	pushq	%r15
	pushq	%r14
	pushq	%r13
	pushq	%r12
	pushq	%rbx
	pushq	%rax
	movw	$257, (%rdi)
	movq	40(%rdi), %rbx
	movq	64(%rdi), %rax
	cmpq	%rax, 72(%rdi)
	je	5f
1:
	movq	56(%rdi), %r9
	movq	%rbx, (%r9,%rax,8)
	incq	%rax
	movq	%rax, 64(%rdi)
	movb	$1, 80(%rdi)
	movb	%sil, 81(%rdi)
	movq	40(%rdi), %rax
	cmpq	%rax, 48(%rdi)
	je	6f
2:
	movq	32(%rdi), %rsi
	movq	%rax, %r9
	shlq	$4, %r9
	movq	%rdx, (%rsi,%r9)
	movq	%rcx, 8(%rsi,%r9)
	incq	%rax
	movq	%rax, 40(%rdi)
	movq	16(%rdi), %rax
	cmpq	%rax, 24(%rdi)
	je	7f
3:
	movq	8(%rdi), %rcx
	movq	%r8, (%rcx,%rax,8)
	incq	%rax
	movq	%rax, 16(%rdi)
	xorl	%eax, %eax
4:
	addq	$8, %rsp
	popq	%rbx
	popq	%r12
	popq	%r13
	popq	%r14
	popq	%r15
	popq	%rbp
	retq
5:
	movl	%esi, %ebp
	movq	%rdx, %r14
	movq	%rcx, %r15
	movq	%r8, %r12
	movq	%rdi, %r13
	addq	$56, %rdi
	callq	"std_alloc::vec::Vec::grow_amortized::<#33f378437a29c276>"
	movl	%eax, %ecx
	movb	$1, %al
	testb	%cl, %cl
	je	4b
	movq	%r13, %rdi
	movq	64(%r13), %rax
	movq	%r12, %r8
	movq	%r15, %rcx
	movq	%r14, %rdx
	movl	%ebp, %esi
	jmp	1b
6:
	movq	%rdx, %rbx
	movq	%rcx, %r14
	movq	%r8, %r15
	movq	%rdi, %r12
	addq	$32, %rdi
	movl	$1, %esi
	callq	"std_alloc::vec::Vec::grow_amortized::<#3af3ba23e56e6a09>"
	movl	%eax, %ecx
	movb	$1, %al
	testb	%cl, %cl
	je	4b
	movq	%r12, %rdi
	movq	40(%r12), %rax
	movq	%r15, %r8
	movq	%r14, %rcx
	movq	%rbx, %rdx
	jmp	2b
7:
	movq	%r8, %rbx
	movq	%rdi, %r14
	addq	$8, %rdi
	callq	"std_alloc::vec::Vec::grow_amortized::<#33f378437a29c276>"
	movl	%eax, %ecx
	movb	$1, %al
	testb	%cl, %cl
	je	4b
	movq	%r14, %rdi
	movq	16(%r14), %rax
	movq	%rbx, %r8
	jmp	3b
8:
	.size	"clap::parser::matches::MatchedArg::add_count", 8b-"clap::parser::matches::MatchedArg::add_count"

	.text
	.p2align	4
	.type	"clap::parser::matches::MatchedArg::add_use",@function
"clap::parser::matches::MatchedArg::add_use":
	pushq	%rbp
	pushq	%r15
	pushq	%r14
	pushq	%r13
	pushq	%r12
	pushq	%rbx
	pushq	%rax
	movq	%r8, %rbx
	movq	%rcx, %r15
	movq	%rdi, %r14
	cmpb	$1, (%rdi)
	jne	1f
	movb	$1, %al
	cmpb	$1, 1(%r14)
	je	2f
1:
	movl	%esi, %eax
2:
	movb	$1, (%r14)
	movb	%al, 1(%r14)
	movq	40(%r14), %r12
	movq	64(%r14), %rax
	cmpq	%rax, 72(%r14)
	je	16f
3:
	movq	56(%r14), %rcx
	movq	%r12, (%rcx,%rax,8)
	incq	%rax
	movq	%rax, 64(%r14)
	movq	40(%r14), %rcx
	movq	48(%r14), %r12
	movq	%r12, %rax
	subq	%rcx, %rax
	cmpq	%rax, %r15
	ja	17f
4:
	leaq	40(%r14), %rax
	leaq	(%rcx,%r15), %r13
	movq	32(%r14), %rbp
	xorps	%xmm0, %xmm0
	movups	%xmm0, (%rax)
	shlq	$4, %rcx
	leaq	(%rcx,%rbp), %rdi
	movq	%r15, %rax
	shlq	$4, %rax
	movq	%rdi, %rsi
	subq	%rdx, %rsi
	cmpq	%rax, %rsi
	jae	5f
	testq	%r15, %r15
	je	6f
	movl	%r15d, %eax
	andl	$7, %eax
	cmpq	$8, %r15
	jae	9f
	xorl	%esi, %esi
	jmp	11f
5:
	movq	%rdx, %rsi
	movq	%rax, %rdx
	callq	memmove@PLT
	movq	%rbp, 32(%r14)
	movq	%r13, 40(%r14)
	movq	%r12, 48(%r14)
	testq	%r15, %r15
	jne	15f
	jmp	7f
6:
	movq	%rbp, 32(%r14)
	movq	%r13, 40(%r14)
	movq	%r12, 48(%r14)
7:
	xorl	%eax, %eax
8:
	addq	$8, %rsp
	popq	%rbx
	popq	%r12
	popq	%r13
	popq	%r14
	popq	%r15
	popq	%rbp
	retq
9:
	movq	%r15, %r8
	andq	$-8, %r8
	movl	$112, %r9d
	xorl	%esi, %esi
	.p2align	4
10:
	movups	-112(%rdx,%r9), %xmm0
	movups	%xmm0, -112(%rdi,%r9)
	movups	-96(%rdx,%r9), %xmm0
	movups	%xmm0, -96(%rdi,%r9)
	movups	-80(%rdx,%r9), %xmm0
	movups	%xmm0, -80(%rdi,%r9)
	movups	-64(%rdx,%r9), %xmm0
	movups	%xmm0, -64(%rdi,%r9)
	movups	-48(%rdx,%r9), %xmm0
	movups	%xmm0, -48(%rdi,%r9)
	movups	-32(%rdx,%r9), %xmm0
	movups	%xmm0, -32(%rdi,%r9)
	movups	-16(%rdx,%r9), %xmm0
	movups	%xmm0, -16(%rdi,%r9)
	movups	(%rdx,%r9), %xmm0
	movups	%xmm0, (%rdi,%r9)
	addq	$8, %rsi
	subq	$-128, %r9
	cmpq	%rsi, %r8
	jne	10b
	testq	%rax, %rax
	je	13f
11:
	shlq	$4, %rsi
	addq	%rsi, %rdx
	addq	%rcx, %rsi
	addq	%rbp, %rsi
	shll	$4, %eax
	xorl	%ecx, %ecx
	.p2align	4
12:
	movups	(%rdx,%rcx), %xmm0
	movups	%xmm0, (%rsi,%rcx)
	addq	$16, %rcx
	cmpq	%rcx, %rax
	jne	12b
13:
	movq	%rbp, 32(%r14)
	movq	%r13, 40(%r14)
	movq	%r12, 48(%r14)
	jmp	15f
	.p2align	4
14:
	movq	8(%r14), %rcx
	movq	%r12, (%rcx,%rax,8)
	incq	%rax
	movq	%rax, 16(%r14)
	decq	%r15
	je	7b
15:
	movq	(%rbx), %rax
	incq	%rax
	movq	$-1, %r12
	cmovneq	%rax, %r12
	movq	%r12, (%rbx)
	movq	16(%r14), %rax
	cmpq	%rax, 24(%r14)
	jne	14b
	leaq	8(%r14), %rdi
	callq	"std_alloc::vec::Vec::grow_amortized::<#33f378437a29c276>"
	testb	%al, %al
	je	18f
	movq	16(%r14), %rax
	jmp	14b
16:
	movq	%rdx, %r13
	leaq	56(%r14), %rdi
	callq	"std_alloc::vec::Vec::grow_amortized::<#33f378437a29c276>"
	movl	%eax, %ecx
	movb	$1, %al
	testb	%cl, %cl
	je	8b
	movq	64(%r14), %rax
	movq	%r13, %rdx
	jmp	3b
17:
	movq	%rdx, %r13
	leaq	32(%r14), %rdi
	movq	%r15, %rsi
	callq	"std_alloc::vec::Vec::grow_amortized::<#3af3ba23e56e6a09>"
	movl	%eax, %ecx
	movb	$1, %al
	testb	%cl, %cl
	je	8b
	movq	40(%r14), %rcx
	movq	48(%r14), %r12
	movq	%r13, %rdx
	jmp	4b
18:
	movb	$1, %al
	jmp	8b
19:
	.size	"clap::parser::matches::MatchedArg::add_use", 19b-"clap::parser::matches::MatchedArg::add_use"

	.text
	.p2align	4
	.type	"clap::parser::matches::MatchedArgClone::clone",@function
"clap::parser::matches::MatchedArgClone::clone":
	pushq	%rbp
	pushq	%r15
	pushq	%r14
	pushq	%r13
	pushq	%r12
	pushq	%rbx
	subq	$56, %rsp
	movq	%rsi, %r8
	movq	%rdi, %rbx
	movzbl	(%rsi), %r9d
	testb	%r9b, %r9b
	je	1f
	movzbl	1(%r8), %eax
	movl	%eax, 28(%rsp)
	jmp	2f
1:
	movl	$0, 28(%rsp)
2:
	movq	16(%r8), %rbp
	leaq	8(%rsp), %r10
	movq	%r10, %r15
	testq	%rbp, %rbp
	je	8f
	movabsq	$1152921504606846972, %rax
	addq	$4, %rax
	cmpq	%rax, %rbp
	jae	21f
	movq	8(%r8), %r14
	leaq	(,%rbp,8), %r13
	movl	$8, %esi
	movl	%r9d, %r15d
	movq	%r13, %rdi
	movq	%rbp, %r12
	movq	%r8, %rbp
	movq	%rbx, 16(%rsp)
	callq	rattle_alloc@PLT
	leaq	8(%rsp), %r10
	movq	16(%rsp), %rbx
	movl	%r15d, %r9d
	movq	%rdx, %r15
	movabsq	$1152921504606846972, %rdx
	testb	$1, %al
	je	21f
	movq	%rbp, %r8
	movq	%r12, %rbp
	xorl	%eax, %eax
	cmpq	$4, %r12
	jb	4f
	movq	%r15, %rcx
	subq	%r14, %rcx
	cmpq	$32, %rcx
	jb	4f
	movq	%rdx, %rax
	andq	%rbp, %rax
	movabsq	$9223372036854775776, %rcx
	andq	%rcx, %r13
	xorl	%ecx, %ecx
	.p2align	4
3:
	movups	(%r14,%rcx), %xmm0
	movups	16(%r14,%rcx), %xmm1
	movups	%xmm0, (%r15,%rcx)
	movups	%xmm1, 16(%r15,%rcx)
	addq	$32, %rcx
	cmpq	%rcx, %r13
	jne	3b
	cmpq	%rax, %rbp
	je	8f
4:
	movq	%rbp, %rdx
	movq	%rax, %rcx
	andq	$3, %rdx
	je	6f
	movq	%rax, %rcx
	.p2align	4
5:
	movq	(%r14,%rcx,8), %rsi
	movq	%rsi, (%r15,%rcx,8)
	incq	%rcx
	decq	%rdx
	jne	5b
6:
	subq	%rbp, %rax
	cmpq	$-4, %rax
	ja	8f
	.p2align	4
7:
	movq	(%r14,%rcx,8), %rax
	movq	%rax, (%r15,%rcx,8)
	movq	8(%r14,%rcx,8), %rax
	movq	%rax, 8(%r15,%rcx,8)
	movq	16(%r14,%rcx,8), %rax
	movq	%rax, 16(%r15,%rcx,8)
	movq	24(%r14,%rcx,8), %rax
	movq	%rax, 24(%r15,%rcx,8)
	addq	$4, %rcx
	cmpq	%rcx, %rbp
	jne	7b
8:
	movq	40(%r8), %r11
	movq	%r10, %r12
	testq	%r11, %r11
	je	12f
	movabsq	$576460752303423486, %r13
	leaq	2(%r13), %rax
	cmpq	%rax, %r11
	jae	20f
	movq	32(%r8), %r14
	movb	%r9b, 7(%rsp)
	movq	%r11, %rdi
	shlq	$4, %rdi
	movl	$8, %esi
	movq	%rbp, 40(%rsp)
	movq	%r8, %rbp
	movq	%rbx, 16(%rsp)
	movq	%r10, %r12
	movq	%r11, 32(%rsp)
	callq	rattle_alloc@PLT
	movq	32(%rsp), %r11
	movq	16(%rsp), %rbx
	movq	%rbp, %r8
	movq	40(%rsp), %rbp
	movzbl	7(%rsp), %r9d
	testb	$1, %al
	je	20f
	movq	%r12, %r10
	movq	%rdx, %r12
	cmpq	$1, %r11
	jne	9f
	xorl	%eax, %eax
	jmp	11f
9:
	andq	%r11, %r13
	movl	$24, %ecx
	xorl	%eax, %eax
	.p2align	4
10:
	movups	-24(%r14,%rcx), %xmm0
	movups	%xmm0, -24(%r12,%rcx)
	movups	-8(%r14,%rcx), %xmm0
	movups	%xmm0, -8(%r12,%rcx)
	addq	$2, %rax
	addq	$32, %rcx
	cmpq	%rax, %r13
	jne	10b
	testb	$1, %r11b
	je	12f
11:
	shlq	$4, %rax
	movups	(%r14,%rax), %xmm0
	movups	%xmm0, (%r12,%rax)
12:
	movq	64(%r8), %r13
	testq	%r13, %r13
	je	18f
	movabsq	$1152921504606846972, %rax
	addq	$4, %rax
	cmpq	%rax, %r13
	jae	19f
	movq	56(%r8), %r14
	leaq	(,%r13,8), %rdi
	movl	$8, %esi
	movb	%r9b, 7(%rsp)
	movq	%rdi, 48(%rsp)
	movq	%r13, 32(%rsp)
	movq	%rbp, %r13
	movq	%r8, %rbp
	movq	%rbx, 16(%rsp)
	movq	%r12, 40(%rsp)
	movq	%r11, %r12
	callq	rattle_alloc@PLT
	movq	%r12, %r11
	movq	40(%rsp), %r12
	movq	16(%rsp), %rbx
	movq	%rbp, %r8
	movq	%r13, %rbp
	movq	32(%rsp), %r13
	movzbl	7(%rsp), %r9d
	movq	%rdx, %r10
	movabsq	$1152921504606846972, %rdx
	testb	$1, %al
	je	19f
	xorl	%eax, %eax
	cmpq	$4, %r13
	jb	14f
	movq	%r10, %rcx
	subq	%r14, %rcx
	cmpq	$32, %rcx
	jb	14f
	movq	%rdx, %rax
	andq	%r13, %rax
	movabsq	$9223372036854775776, %rcx
	movq	48(%rsp), %rdx
	andq	%rcx, %rdx
	xorl	%ecx, %ecx
	.p2align	4
13:
	movups	(%r14,%rcx), %xmm0
	movups	16(%r14,%rcx), %xmm1
	movups	%xmm0, (%r10,%rcx)
	movups	%xmm1, 16(%r10,%rcx)
	addq	$32, %rcx
	cmpq	%rcx, %rdx
	jne	13b
	cmpq	%rax, %r13
	je	18f
14:
	movq	%r13, %rdx
	movq	%rax, %rcx
	andq	$3, %rdx
	je	16f
	movq	%rax, %rcx
	.p2align	4
15:
	movq	(%r14,%rcx,8), %rsi
	movq	%rsi, (%r10,%rcx,8)
	incq	%rcx
	decq	%rdx
	jne	15b
16:
	subq	%r13, %rax
	cmpq	$-4, %rax
	ja	18f
	.p2align	4
17:
	movq	(%r14,%rcx,8), %rax
	movq	%rax, (%r10,%rcx,8)
	movq	8(%r14,%rcx,8), %rax
	movq	%rax, 8(%r10,%rcx,8)
	movq	16(%r14,%rcx,8), %rax
	movq	%rax, 16(%r10,%rcx,8)
	movq	24(%r14,%rcx,8), %rax
	movq	%rax, 24(%r10,%rcx,8)
	addq	$4, %rcx
	cmpq	%rcx, %r13
	jne	17b
18:
	movzbl	80(%r8), %eax
	testb	%al, %al
	je	23f
	movzbl	81(%r8), %ecx
	jmp	24f
19:
	testq	%r11, %r11
	je	20f
	movq	%r12, %rdi
	callq	rattle_dealloc@PLT
20:
	testq	%rbp, %rbp
	je	21f
	movq	%r15, %rdi
	callq	rattle_dealloc@PLT
21:
	movb	$1, (%rbx)
	xorps	%xmm0, %xmm0
	movups	%xmm0, 8(%rbx)
	movups	%xmm0, 24(%rbx)
	movups	%xmm0, 40(%rbx)
	movups	%xmm0, 56(%rbx)
	movups	%xmm0, 72(%rbx)
	movq	$0, 88(%rbx)
22:
	addq	$56, %rsp
	popq	%rbx
	popq	%r12
	popq	%r13
	popq	%r14
	popq	%r15
	popq	%rbp
	retq
23:
	xorl	%ecx, %ecx
24:
	movzwl	82(%r8), %edx
	movzbl	84(%r8), %esi
	movb	$0, (%rbx)
	movb	%r9b, 8(%rbx)
	movl	28(%rsp), %edi
	movb	%dil, 9(%rbx)
	movl	$0, 10(%rbx)
	movw	$0, 14(%rbx)
	movq	%r15, 16(%rbx)
	movq	%rbp, 24(%rbx)
	movq	%rbp, 32(%rbx)
	movq	%r12, 40(%rbx)
	movq	%r11, 48(%rbx)
	movq	%r11, 56(%rbx)
	movq	%r10, 64(%rbx)
	movq	%r13, 72(%rbx)
	movq	%r13, 80(%rbx)
	movb	%al, 88(%rbx)
	movb	%cl, 89(%rbx)
	movw	%dx, 90(%rbx)
	movb	%sil, 92(%rbx)
	movb	$0, 95(%rbx)
	movw	$0, 93(%rbx)
	jmp	22b
25:
	.size	"clap::parser::matches::MatchedArgClone::clone", 25b-"clap::parser::matches::MatchedArgClone::clone"

	.text
	.p2align	4
	.type	"clap::parser::parse::Parser::act",@function
"clap::parser::parse::Parser::act":
	pushq	%rbp
	pushq	%r15
	pushq	%r14
	pushq	%r13
	pushq	%r12
	pushq	%rbx
	subq	$1368, %rsp
	movq	%r8, %r15
	movl	%ecx, 64(%rsp)
	movl	%edx, 172(%rsp)
	movq	%rsi, %r14
	movq	%rdi, 24(%rsp)
	movq	(%r9), %rax
	movq	%rax, 80(%rsp)
	movq	8(%r9), %rax
	movq	%rax, 72(%rsp)
	movq	16(%r9), %rax
	movq	%rax, 88(%rsp)
	xorps	%xmm0, %xmm0
	movaps	%xmm0, 32(%rsp)
	movq	$0, 48(%rsp)
	movaps	%xmm0, 1136(%rsp)
	movaps	%xmm0, 1152(%rsp)
	movaps	%xmm0, 1168(%rsp)
	movaps	%xmm0, 1104(%rsp)
	movq	$0, 1120(%rsp)
	movaps	%xmm0, 1072(%rsp)
	movq	$0, 1088(%rsp)
	movaps	%xmm0, 1024(%rsp)
	movaps	%xmm0, 1040(%rsp)
	movaps	%xmm0, 1056(%rsp)
	movaps	%xmm0, 992(%rsp)
	movq	$0, 1008(%rsp)
	movaps	%xmm0, 960(%rsp)
	movq	$0, 976(%rsp)
	movaps	%xmm0, 944(%rsp)
	movaps	%xmm0, 928(%rsp)
	movaps	%xmm0, 912(%rsp)
	movaps	%xmm0, 880(%rsp)
	movq	$0, 896(%rsp)
	movaps	%xmm0, 848(%rsp)
	movq	$0, 864(%rsp)
	movaps	%xmm0, 800(%rsp)
	movaps	%xmm0, 816(%rsp)
	movaps	%xmm0, 832(%rsp)
	movaps	%xmm0, 768(%rsp)
	movq	$0, 784(%rsp)
	movaps	%xmm0, 736(%rsp)
	movq	$0, 752(%rsp)
	movaps	%xmm0, 576(%rsp)
	movaps	%xmm0, 592(%rsp)
	movaps	%xmm0, 608(%rsp)
	movq	$0, 624(%rsp)
	movaps	%xmm0, 704(%rsp)
	movq	$0, 720(%rsp)
	movaps	%xmm0, 672(%rsp)
	movq	$0, 688(%rsp)
	movaps	%xmm0, 640(%rsp)
	movq	$0, 656(%rsp)
	movaps	%xmm0, 528(%rsp)
	movaps	%xmm0, 176(%rsp)
	movaps	%xmm0, 192(%rsp)
	movaps	%xmm0, 208(%rsp)
	movaps	%xmm0, 496(%rsp)
	movaps	%xmm0, 512(%rsp)
	movaps	%xmm0, 464(%rsp)
	movaps	%xmm0, 480(%rsp)
	movaps	%xmm0, 1344(%rsp)
	movq	$0, 1360(%rsp)
	movaps	%xmm0, 352(%rsp)
	movaps	%xmm0, 336(%rsp)
	movaps	%xmm0, 320(%rsp)
	movaps	%xmm0, 288(%rsp)
	movq	$0, 304(%rsp)
	movaps	%xmm0, 448(%rsp)
	movaps	%xmm0, 432(%rsp)
	movaps	%xmm0, 1312(%rsp)
	movq	$0, 1328(%rsp)
	movaps	%xmm0, 1296(%rsp)
	movaps	%xmm0, 1280(%rsp)
	movaps	%xmm0, 1264(%rsp)
	movaps	%xmm0, 256(%rsp)
	movq	$0, 272(%rsp)
	movaps	%xmm0, 416(%rsp)
	movaps	%xmm0, 400(%rsp)
	movaps	%xmm0, 1232(%rsp)
	movq	$0, 1248(%rsp)
	movaps	%xmm0, 1216(%rsp)
	movaps	%xmm0, 1200(%rsp)
	movaps	%xmm0, 1184(%rsp)
	movaps	%xmm0, 224(%rsp)
	movq	$0, 240(%rsp)
	movl	$1, %r13d
	cmpb	$1, 432(%r8)
	movl	$1, %r12d
	jne	1f
	movq	440(%r15), %r12
	movq	448(%r15), %r13
1:
	movq	(%r14), %rbx
	movups	%xmm0, 104(%rsp)
	movl	$0, 153(%rsp)
	movl	$0, 156(%rsp)
	leaq	16(%rsp), %rbp
	movq	%rbp, 96(%rsp)
	movl	$32, 120(%rsp)
	movq	$0, 124(%rsp)
	movl	$0, 132(%rsp)
	movq	$-1, 136(%rsp)
	movq	$0, 144(%rsp)
	movb	$0, 152(%rsp)
	movl	120(%rsp), %eax
	movl	%eax, 368(%rsp)
	movq	124(%rsp), %rax
	movq	%rax, 372(%rsp)
	movl	132(%rsp), %eax
	movl	%eax, 380(%rsp)
	movq	$-1, 384(%rsp)
	movl	$32, 120(%rsp)
	movq	$0, 124(%rsp)
	movl	$0, 132(%rsp)
	movq	$0, 568(%rsp)
	movq	%r15, 560(%rsp)
	leaq	560(%rsp), %rdi
	leaq	96(%rsp), %rsi
	callq	"clap::builder::arg::StylizedDisplay::fmt::<#86a172efa8724158>"
	movaps	368(%rsp), %xmm0
	movups	%xmm0, 120(%rsp)
	movq	384(%rsp), %rcx
	movq	%rcx, 136(%rsp)
	testb	%al, %al
	je	2f
	cmpq	$0, 112(%rsp)
	je	18f
	movq	96(%rsp), %rdi
	jmp	17f
2:
	movq	%rbx, %r9
	movq	%r14, 160(%rsp)
	movq	96(%rsp), %r14
	movq	104(%rsp), %rbx
	movq	112(%rsp), %rdx
	testq	%r12, %r12
	setne	%al
	movq	72(%rsp), %rsi
	testq	%rsi, %rsi
	sete	%cl
	testb	%al, %cl
	je	3f
	cmpb	$1, 432(%r15)
	jne	4f
	cmpq	$0, 448(%r15)
	jne	4f
	movq	%rdx, %r12
	xorl	%eax, %eax
	xorl	%ecx, %ecx
	movq	%r9, %rsi
	jmp	8f
3:
	cmpq	%r13, %r12
	jne	5f
	cmpq	%rsi, %r13
	je	23f
	movq	%rdx, %r12
	movq	$0, 1344(%rsp)
	leaq	464(%rsp), %rdi
	leaq	16(%rsp), %rdx
	leaq	1344(%rsp), %r8
	movq	%r9, %rbp
	movq	%r9, %rsi
	xorl	%ecx, %ecx
	callq	"clap::output::usage::with_title"
	cmpb	$0, 464(%rsp)
	jne	9f
	movq	472(%rsp), %r15
	movq	480(%rsp), %rax
	movq	488(%rsp), %rcx
	movq	%rcx, 64(%rsp)
	movq	$1, 288(%rsp)
	movq	%r15, 296(%rsp)
	movq	%rax, 304(%rsp)
	leaq	288(%rsp), %rax
	movq	%rax, (%rsp)
	leaq	320(%rsp), %rdi
	movq	%rbp, %rsi
	movq	%r14, %rdx
	movq	%rbx, %rcx
	movq	%r13, %r8
	movq	72(%rsp), %r9
	callq	"clap::error::Error::wrong_number_of_values"
	cmpb	$0, 320(%rsp)
	je	31f
	cmpq	$0, 64(%rsp)
	je	9f
	movq	%r15, %rdi
	callq	rattle_dealloc@PLT
	jmp	9f
4:
	cmpb	$1, 512(%r15)
	movq	%r9, %rsi
	jne	6f
	movzbl	520(%r15), %eax
	movups	528(%r15), %xmm0
	movaps	%xmm0, 544(%rsp)
	jmp	7f
5:
	cmpq	%r12, %rsi
	jae	13f
	movq	%rdx, %r13
	movq	$0, 1312(%rsp)
	leaq	432(%rsp), %rdi
	leaq	16(%rsp), %rdx
	leaq	1312(%rsp), %r8
	movq	%r9, %rbp
	movq	%r9, %rsi
	xorl	%ecx, %ecx
	callq	"clap::output::usage::with_title"
	cmpb	$0, 432(%rsp)
	jne	15f
	movq	440(%rsp), %r15
	movq	448(%rsp), %rax
	movq	456(%rsp), %rcx
	movq	%rcx, 64(%rsp)
	movq	$1, 256(%rsp)
	movq	%r15, 264(%rsp)
	movq	%rax, 272(%rsp)
	leaq	256(%rsp), %rax
	movq	%rax, (%rsp)
	leaq	1264(%rsp), %rdi
	movq	%rbp, %rsi
	movq	%r14, %rdx
	movq	%rbx, %rcx
	movq	%r12, %r8
	movq	72(%rsp), %r9
	callq	"clap::error::Error::too_few_values"
	cmpb	$0, 1264(%rsp)
	je	33f
	cmpq	$0, 64(%rsp)
	jne	14f
	jmp	15f
6:
	xorps	%xmm0, %xmm0
	movaps	%xmm0, 544(%rsp)
	xorl	%eax, %eax
7:
	movq	%rdx, %r12
	movaps	544(%rsp), %xmm0
	movaps	%xmm0, 528(%rsp)
	movl	$1, %ecx
8:
	movq	%rcx, 496(%rsp)
	movq	%rax, 504(%rsp)
	movaps	528(%rsp), %xmm0
	movaps	%xmm0, 512(%rsp)
	movq	%rbx, (%rsp)
	leaq	.L22d5119de29e(%rip), %rdx
	leaq	176(%rsp), %rdi
	leaq	496(%rsp), %r8
	xorl	%ecx, %ecx
	movq	%r14, %r9
	callq	"clap::error::Error::invalid_value"
	cmpb	$0, 176(%rsp)
	je	10f
9:
	testq	%r12, %r12
	jne	16f
	jmp	18f
10:
	movq	%r14, %rdi
	movzbl	184(%rsp), %ebp
	movzbl	192(%rsp), %r14d
	leaq	200(%rsp), %r15
	testq	%r12, %r12
	je	12f
11:
	callq	rattle_dealloc@PLT
12:
	movq	16(%r15), %rax
	movq	%rax, 48(%rsp)
	movups	(%r15), %xmm0
	movaps	%xmm0, 32(%rsp)
	movzbl	%r14b, %r14d
	cmpq	$0, 88(%rsp)
	jne	19f
	jmp	20f
13:
	cmpq	%rsi, %r13
	jae	23f
	movq	%rdx, %r13
	movq	$0, 1232(%rsp)
	leaq	400(%rsp), %rdi
	leaq	16(%rsp), %rdx
	leaq	1232(%rsp), %r8
	movq	%r9, %rbp
	movq	%r9, %rsi
	xorl	%ecx, %ecx
	callq	"clap::output::usage::with_title"
	cmpb	$0, 400(%rsp)
	jne	15f
	movq	408(%rsp), %r15
	movq	416(%rsp), %rax
	movq	424(%rsp), %r12
	movq	72(%rsp), %rsi
	shlq	$4, %rsi
	movq	80(%rsp), %rcx
	movq	-16(%rcx,%rsi), %rdx
	movq	-8(%rcx,%rsi), %rcx
	movq	$1, 224(%rsp)
	movq	%r15, 232(%rsp)
	movq	%rax, 240(%rsp)
	leaq	224(%rsp), %rax
	movq	%rax, (%rsp)
	leaq	1184(%rsp), %rdi
	movq	%rbp, %rsi
	movq	%r14, %r8
	movq	%rbx, %r9
	callq	"clap::error::Error::too_many_values"
	cmpb	$0, 1184(%rsp)
	je	38f
	testq	%r12, %r12
	je	15f
14:
	movq	%r15, %rdi
	callq	rattle_dealloc@PLT
15:
	testq	%r13, %r13
	je	18f
16:
	movq	%r14, %rdi
17:
	callq	rattle_dealloc@PLT
18:
	xorps	%xmm0, %xmm0
	movaps	%xmm0, 32(%rsp)
	movq	$0, 48(%rsp)
	movb	$16, %bpl
	xorl	%r14d, %r14d
	movzbl	%r14b, %r14d
	cmpq	$0, 88(%rsp)
	je	20f
19:
	movq	80(%rsp), %rdi
	callq	rattle_dealloc@PLT
20:
	movq	24(%rsp), %rcx
	movq	$1, (%rcx)
	movb	%bpl, 8(%rcx)
	movq	%r14, 16(%rcx)
	movaps	32(%rsp), %xmm0
	movups	%xmm0, 24(%rcx)
	movq	48(%rsp), %rax
21:
	movq	%rax, 40(%rcx)
	xorps	%xmm0, %xmm0
	movups	%xmm0, 48(%rcx)
	movups	%xmm0, 64(%rcx)
22:
	addq	$1368, %rsp
	popq	%rbx
	popq	%r12
	popq	%r13
	popq	%r14
	popq	%r15
	popq	%rbp
	retq
23:
	testq	%rdx, %rdx
	je	24f
	movq	%r14, %rdi
	callq	rattle_dealloc@PLT
	movq	72(%rsp), %rsi
24:
	xorps	%xmm0, %xmm0
	movaps	%xmm0, 32(%rsp)
	movq	$0, 48(%rsp)
	movaps	%xmm0, 96(%rsp)
	movaps	%xmm0, 112(%rsp)
	movaps	%xmm0, 176(%rsp)
	movq	$0, 192(%rsp)
	testq	%rsi, %rsi
	jne	25f
	cmpb	$0, 360(%r15)
	je	51f
	movq	376(%r15), %r12
	testq	%r12, %r12
	jne	52f
25:
	movq	1432(%rsp), %r9
	movzbl	1424(%rsp), %eax
	movq	80(%rsp), %rcx
	movq	%rcx, 320(%rsp)
	movq	%rsi, 328(%rsp)
	movq	88(%rsp), %rcx
	movq	%rcx, 336(%rsp)
	movzbl	%al, %r8d
	leaq	96(%rsp), %rdi
	leaq	320(%rsp), %rcx
	movq	160(%rsp), %rbp
	movq	%rbp, %rsi
	movq	%r15, %rdx
	callq	"clap::parser::parse::Parser::split_values"
26:
	movq	104(%rsp), %r14
	movq	112(%rsp), %r8
	movq	120(%rsp), %r12
	cmpb	$0, 96(%rsp)
	movl	64(%rsp), %edi
	movl	172(%rsp), %r10d
	je	28f
27:
	movq	24(%rsp), %rax
	movq	$1, (%rax)
	movb	$16, 8(%rax)
	xorps	%xmm0, %xmm0
	movups	%xmm0, 16(%rax)
	movups	%xmm0, 32(%rax)
	movups	%xmm0, 48(%rax)
	movups	%xmm0, 64(%rax)
	jmp	22b
28:
	cmpb	$1, %r10b
	sete	%cl
	cmpb	$2, %dil
	setne	%al
	andb	%cl, %al
	xorl	%ecx, %ecx
	cmpb	$1, 504(%r15)
	movq	1440(%rsp), %r9
	movzbl	505(%r15), %edx
	cmovnel	%ecx, %edx
	movzbl	%dl, %edx
	leaq	69f(%rip), %rcx
	movslq	(%rcx,%rdx,4), %rsi
	addq	%rcx, %rsi
	jmpq	*%rsi
29:
	movzbl	%r10b, %ecx
	movzbl	%dil, %r8d
	leaq	576(%rsp), %rdi
	movq	%rbp, %rsi
	callq	"clap::parser::parse::Parser::request_error"
	cmpb	$0, 576(%rsp)
	je	36f
	testq	%r12, %r12
	je	27b
	movq	%r14, %rdi
30:
	callq	rattle_dealloc@PLT
	jmp	27b
31:
	movq	%r14, %r13
	movzbl	328(%rsp), %ebp
	movzbl	336(%rsp), %r14d
	cmpq	$0, 64(%rsp)
	je	32f
	movq	%r15, %rdi
	callq	rattle_dealloc@PLT
32:
	leaq	344(%rsp), %r15
	testq	%r12, %r12
	je	12b
	movq	%r13, %rdi
	jmp	11b
33:
	movq	%r14, %r12
	movzbl	1272(%rsp), %ebp
	movzbl	1280(%rsp), %r14d
	cmpq	$0, 64(%rsp)
	je	34f
	movq	%r15, %rdi
	callq	rattle_dealloc@PLT
34:
	leaq	1288(%rsp), %r15
	testq	%r13, %r13
	je	12b
	movq	%r12, %rdi
	jmp	11b
35:
	leaq	912(%rsp), %rdi
	movq	%rbp, %rsi
	movq	%r15, %rdx
	movq	%r14, %rcx
	callq	"clap::parser::parse::Parser::set_values"
	cmpb	$0, 912(%rsp)
	je	49f
	movzbl	920(%rsp), %ebp
	movzbl	928(%rsp), %r13d
	leaq	936(%rsp), %r15
	jmp	45f
36:
	cmpb	$1, 584(%rsp)
	jne	47f
	movzbl	592(%rsp), %ebp
	movzbl	600(%rsp), %r13d
	leaq	608(%rsp), %r15
	testq	%r12, %r12
	je	37f
	movq	%r14, %rdi
	callq	rattle_dealloc@PLT
37:
	movq	24(%rsp), %rcx
	movq	$1, (%rcx)
	movb	%bpl, 8(%rcx)
	movq	%r13, 16(%rcx)
	movups	(%r15), %xmm0
	movups	%xmm0, 24(%rcx)
	movq	16(%r15), %rax
	movq	%rax, 40(%rcx)
	movq	$0, 48(%rcx)
	movaps	704(%rsp), %xmm0
	movups	%xmm0, 56(%rcx)
	movq	720(%rsp), %rax
	movq	%rax, 72(%rcx)
	jmp	22b
38:
	movq	%r14, 72(%rsp)
	movzbl	1192(%rsp), %ebp
	movzbl	1200(%rsp), %r14d
	testq	%r12, %r12
	je	39f
	movq	%r15, %rdi
	callq	rattle_dealloc@PLT
39:
	leaq	1208(%rsp), %r15
	testq	%r13, %r13
	je	12b
	movq	72(%rsp), %rdi
	jmp	11b
40:
	leaq	800(%rsp), %rdi
	movq	%rbp, %rsi
	movq	%r15, %rdx
	movq	%r14, %rcx
	callq	"clap::parser::parse::Parser::count_use"
	cmpb	$0, 800(%rsp)
	je	56f
	movzbl	808(%rsp), %ebp
	movzbl	816(%rsp), %r13d
	leaq	824(%rsp), %r15
	jmp	45f
41:
	testb	%al, %al
	je	42f
	movq	96(%r9), %rax
	incq	%rax
	movq	$-1, %rcx
	cmovneq	%rax, %rcx
	movq	%rcx, 96(%r9)
42:
	leaq	1136(%rsp), %rdi
	movq	%rbp, %rsi
	movq	%r15, %rdx
	movq	%r14, %rcx
	callq	"clap::parser::parse::Parser::set_values"
	cmpb	$0, 1136(%rsp)
	je	58f
	movzbl	1144(%rsp), %ebp
	movzbl	1152(%rsp), %r13d
	leaq	1160(%rsp), %r15
	jmp	45f
43:
	testb	%al, %al
	je	44f
	movq	96(%r9), %rax
	incq	%rax
	movq	$-1, %rcx
	cmovneq	%rax, %rcx
	movq	%rcx, 96(%r9)
44:
	leaq	1024(%rsp), %rdi
	movq	%rbp, %rsi
	movq	%r15, %rdx
	movq	%r14, %rcx
	callq	"clap::parser::parse::Parser::add_values"
	cmpb	$0, 1024(%rsp)
	je	60f
	movzbl	1032(%rsp), %ebp
	movzbl	1040(%rsp), %r13d
	leaq	1048(%rsp), %r15
45:
	testq	%r12, %r12
	je	46f
	movq	%r14, %rdi
	callq	rattle_dealloc@PLT
46:
	movq	24(%rsp), %rcx
	movq	$1, (%rcx)
	movb	%bpl, 8(%rcx)
	movq	%r13, 16(%rcx)
	movups	(%r15), %xmm0
	movups	%xmm0, 24(%rcx)
	movq	16(%r15), %rax
	jmp	21b
47:
	testq	%r12, %r12
	je	48f
	movq	%r14, %rdi
	callq	rattle_dealloc@PLT
48:
	movq	24(%rsp), %rcx
	movq	$0, (%rcx)
	movb	$2, 8(%rcx)
	movq	$0, 16(%rcx)
	movaps	672(%rsp), %xmm0
	movups	%xmm0, 24(%rcx)
	movq	688(%rsp), %rax
	movq	%rax, 40(%rcx)
	movq	$0, 48(%rcx)
	movaps	640(%rsp), %xmm0
	movups	%xmm0, 56(%rcx)
	movq	656(%rsp), %rax
	movq	%rax, 72(%rcx)
	jmp	22b
49:
	testq	%r12, %r12
	je	50f
	movq	%r14, %rdi
	callq	rattle_dealloc@PLT
50:
	movq	24(%rsp), %rcx
	movq	$0, (%rcx)
	movb	$2, 8(%rcx)
	movq	$0, 16(%rcx)
	movaps	880(%rsp), %xmm0
	movups	%xmm0, 24(%rcx)
	movq	896(%rsp), %rax
	movq	%rax, 40(%rcx)
	movq	$0, 48(%rcx)
	movaps	848(%rsp), %xmm0
	movups	%xmm0, 56(%rcx)
	movq	864(%rsp), %rax
	movq	%rax, 72(%rcx)
	jmp	22b
51:
	movq	%rbp, 176(%rsp)
	movups	%xmm0, 184(%rsp)
	leaq	368(%r15), %r14
	movl	$1, %r12d
	jmp	53f
52:
	movq	%rbp, 176(%rsp)
	movups	%xmm0, 184(%rsp)
	movq	368(%r15), %r14
53:
	leaq	176(%rsp), %rdi
	movq	%r12, %rsi
	callq	"std_alloc::vec::Vec::grow_amortized::<#3af3ba23e56e6a09>"
	testb	%al, %al
	je	54f
	movq	176(%rsp), %rax
	movq	184(%rsp), %rsi
	leaq	(%rsi,%r12), %r13
	shlq	$4, %rsi
	leaq	(%rax,%rsi), %rdi
	movq	%r12, %rdx
	shlq	$4, %rdx
	movq	%rdi, %rcx
	subq	%r14, %rcx
	cmpq	%rdx, %rcx
	jae	62f
	movl	%r12d, %ecx
	andl	$7, %ecx
	cmpq	$8, %r12
	movq	160(%rsp), %rbp
	jae	63f
	xorl	%edx, %edx
	jmp	65f
54:
	cmpq	$0, 192(%rsp)
	je	55f
	movq	176(%rsp), %rdi
	callq	rattle_dealloc@PLT
55:
	cmpq	$0, 88(%rsp)
	je	27b
	movq	80(%rsp), %rdi
	jmp	30b
56:
	testq	%r12, %r12
	je	57f
	movq	%r14, %rdi
	callq	rattle_dealloc@PLT
57:
	movq	24(%rsp), %rcx
	movq	$0, (%rcx)
	movb	$2, 8(%rcx)
	movq	$0, 16(%rcx)
	movaps	768(%rsp), %xmm0
	movups	%xmm0, 24(%rcx)
	movq	784(%rsp), %rax
	movq	%rax, 40(%rcx)
	movq	$0, 48(%rcx)
	movaps	736(%rsp), %xmm0
	movups	%xmm0, 56(%rcx)
	movq	752(%rsp), %rax
	movq	%rax, 72(%rcx)
	jmp	22b
58:
	testq	%r12, %r12
	je	59f
	movq	%r14, %rdi
	callq	rattle_dealloc@PLT
59:
	movq	24(%rsp), %rcx
	movq	$0, (%rcx)
	movb	$2, 8(%rcx)
	movq	$0, 16(%rcx)
	movaps	1104(%rsp), %xmm0
	movups	%xmm0, 24(%rcx)
	movq	1120(%rsp), %rax
	movq	%rax, 40(%rcx)
	movq	$0, 48(%rcx)
	movaps	1072(%rsp), %xmm0
	movups	%xmm0, 56(%rcx)
	movq	1088(%rsp), %rax
	movq	%rax, 72(%rcx)
	jmp	22b
60:
	testq	%r12, %r12
	je	61f
	movq	%r14, %rdi
	callq	rattle_dealloc@PLT
61:
	movq	24(%rsp), %rcx
	movq	$0, (%rcx)
	movb	$2, 8(%rcx)
	movq	$0, 16(%rcx)
	movaps	992(%rsp), %xmm0
	movups	%xmm0, 24(%rcx)
	movq	1008(%rsp), %rax
	movq	%rax, 40(%rcx)
	movq	$0, 48(%rcx)
	movaps	960(%rsp), %xmm0
	movups	%xmm0, 56(%rcx)
	movq	976(%rsp), %rax
	movq	%rax, 72(%rcx)
	jmp	22b
62:
	movq	%r14, %rsi
	callq	memmove@PLT
	movq	160(%rsp), %rbp
	jmp	67f
63:
	andq	$-8, %r12
	movl	$112, %r8d
	xorl	%edx, %edx
64:
	movups	-112(%r14,%r8), %xmm0
	movups	%xmm0, -112(%rdi,%r8)
	movups	-96(%r14,%r8), %xmm0
	movups	%xmm0, -96(%rdi,%r8)
	movups	-80(%r14,%r8), %xmm0
	movups	%xmm0, -80(%rdi,%r8)
	movups	-64(%r14,%r8), %xmm0
	movups	%xmm0, -64(%rdi,%r8)
	movups	-48(%r14,%r8), %xmm0
	movups	%xmm0, -48(%rdi,%r8)
	movups	-32(%r14,%r8), %xmm0
	movups	%xmm0, -32(%rdi,%r8)
	movups	-16(%r14,%r8), %xmm0
	movups	%xmm0, -16(%rdi,%r8)
	movups	(%r14,%r8), %xmm0
	movups	%xmm0, (%rdi,%r8)
	addq	$8, %rdx
	subq	$-128, %r8
	cmpq	%rdx, %r12
	jne	64b
	testq	%rcx, %rcx
	je	67f
65:
	shlq	$4, %rdx
	addq	%rdx, %r14
	addq	%rsi, %rdx
	addq	%rdx, %rax
	shll	$4, %ecx
	xorl	%edx, %edx
66:
	movups	(%r14,%rdx), %xmm0
	movups	%xmm0, (%rax,%rdx)
	addq	$16, %rdx
	cmpq	%rdx, %rcx
	jne	66b
67:
	movq	%r13, 184(%rsp)
	leaq	96(%rsp), %rdi
	leaq	176(%rsp), %rcx
	movq	%rbp, %rsi
	movq	%r15, %rdx
	xorl	%r8d, %r8d
	xorl	%r9d, %r9d
	callq	"clap::parser::parse::Parser::split_values"
	cmpq	$0, 88(%rsp)
	je	26b
	movq	80(%rsp), %rdi
	callq	rattle_dealloc@PLT
	jmp	26b
68:
	.size	"clap::parser::parse::Parser::act", 68b-"clap::parser::parse::Parser::act"
	.section	.rodata,"a",@progbits
	.p2align	2, 0x0
69:
	.long	41b-69b
	.long	43b-69b
	.long	35b-69b
	.long	35b-69b
	.long	40b-69b
	.long	29b-69b
	.long	29b-69b
	.long	29b-69b
	.long	29b-69b

	.text
	.p2align	4
	.type	"clap::parser::parse::Parser::add_to_groups",@function
"clap::parser::parse::Parser::add_to_groups":
	pushq	%rbp
	pushq	%r15
	pushq	%r14
	pushq	%r13
	pushq	%r12
	pushq	%rbx
	subq	$88, %rsp
	movq	%rdx, %r14
	xorps	%xmm0, %xmm0
	movaps	%xmm0, 64(%rsp)
	movaps	%xmm0, 48(%rsp)
	movq	(%rdi), %rax
	movq	632(%rax), %rdx
	testq	%rdx, %rdx
	je	5f
	movq	%rsi, %r13
	movq	(%rsi), %rcx
	movq	8(%rsi), %r8
	movq	624(%rax), %rsi
	leaq	48(%rsp), %rdi
	callq	"clap::builder::command::Command::groups_of"
	movb	$1, %al
	cmpb	$0, 48(%rsp)
	jne	6f
	movq	56(%rsp), %rax
	movq	%rax, 8(%rsp)
	movq	64(%rsp), %rbx
	movq	72(%rsp), %rax
	movq	%rax, 16(%rsp)
	testq	%rbx, %rbx
	je	4f
	movq	8(%rsp), %rax
	leaq	8(%rax), %r15
	movq	%r13, 24(%rsp)
	jmp	3f
	.p2align	4
1:
	movq	48(%r13,%r12), %rcx
	movq	%rax, %rdx
	shlq	$4, %rdx
	movq	40(%rsp), %rsi
	movq	%rsi, (%rcx,%rdx)
	movq	32(%rsp), %rsi
	movq	%rsi, 8(%rcx,%rdx)
	incq	%rax
	movq	%rax, 56(%r13,%r12)
2:
	decq	%rbx
	addq	$16, %r15
	testq	%rbx, %rbx
	movq	24(%rsp), %r13
	je	4f
3:
	movq	-8(%r15), %rbp
	movq	(%r15), %r12
	movq	%r14, %rdi
	movq	%rbp, %rsi
	movq	%r12, %rdx
	xorl	%ecx, %ecx
	movl	$1, %r8d
	callq	"clap::parser::matcher::ArgMatcher::start"
	testb	%al, %al
	jne	7f
	movq	(%r13), %rax
	movq	%rax, 40(%rsp)
	movq	8(%r13), %rax
	movq	%rax, 32(%rsp)
	movq	(%r14), %r13
	movq	8(%r14), %rsi
	movq	%r13, %rdi
	movq	%rbp, %rdx
	movq	%r12, %rcx
	callq	"clap::parser::matcher::ArgMatcher::place"
	cmpb	$1, %al
	jne	2b
	imulq	$104, %rdx, %r12
	cmpb	$1, 99(%r13,%r12)
	jne	2b
	movq	56(%r13,%r12), %rax
	cmpq	%rax, 64(%r13,%r12)
	jne	1b
	leaq	(%r12,%r13), %rdi
	addq	$48, %rdi
	movl	$1, %esi
	callq	"std_alloc::vec::Vec::grow_amortized::<#3af3ba23e56e6a09>"
	testb	%al, %al
	je	7f
	movq	56(%r13,%r12), %rax
	jmp	1b
4:
	cmpq	$0, 16(%rsp)
	je	5f
	movq	8(%rsp), %rdi
	callq	rattle_dealloc@PLT
5:
	xorl	%eax, %eax
6:
	addq	$88, %rsp
	popq	%rbx
	popq	%r12
	popq	%r13
	popq	%r14
	popq	%r15
	popq	%rbp
	retq
7:
	cmpq	$0, 16(%rsp)
	je	8f
	movq	8(%rsp), %rdi
	callq	rattle_dealloc@PLT
8:
	movb	$1, %al
	jmp	6b
9:
	.size	"clap::parser::parse::Parser::add_to_groups", 9b-"clap::parser::parse::Parser::add_to_groups"

	.text
	.p2align	4
	.type	"clap::parser::parse::Parser::add_values",@function
"clap::parser::parse::Parser::add_values":
	pushq	%rbp
	pushq	%r15
	pushq	%r14
	pushq	%r13
	pushq	%r12
	pushq	%rbx
	subq	$104, %rsp
	movq	%r9, 24(%rsp)
	movq	%r8, %r13
	movq	%rcx, 16(%rsp)
	movq	%rdx, %r15
	movq	%rsi, %r12
	movq	%rdi, %rbx
	xorps	%xmm1, %xmm1
	movaps	%xmm1, 64(%rsp)
	movaps	%xmm1, 48(%rsp)
	xorps	%xmm0, %xmm0
	movaps	%xmm0, 80(%rsp)
	movaps	%xmm1, 32(%rsp)
	testq	%r8, %r8
	je	2f
	movq	16(%rsp), %rax
	leaq	8(%rax), %r14
	movq	%r13, %rbp
	.p2align	4
1:
	movq	-8(%r14), %rcx
	movq	(%r14), %r8
	leaq	32(%rsp), %rdi
	movq	%r12, %rsi
	movq	%r15, %rdx
	callq	"clap::parser::parse::Parser::check_value"
	cmpb	$0, 32(%rsp)
	jne	3f
	addq	$16, %r14
	decq	%rbp
	jne	1b
2:
	movq	%r12, %rdi
	movq	%r15, %rsi
	movq	24(%rsp), %rbp
	movq	%rbp, %rdx
	callq	"clap::parser::parse::Parser::remove_overrides"
	movb	$16, %cl
	movb	$1, %r14b
	xorl	%edx, %edx
	testb	%al, %al
	jne	7f
	movq	%rbp, %rdi
	movq	%r15, %rsi
	movl	$1, %edx
	movq	16(%rsp), %rcx
	movq	%r13, %r8
	callq	"clap::parser::matcher::ArgMatcher::add_use"
	xorl	%edx, %edx
	testb	%al, %al
	je	6f
	xorl	%r13d, %r13d
	movb	$16, %cl
	jmp	8f
3:
	movzbl	40(%rsp), %eax
	movb	%al, 15(%rsp)
	movzbl	48(%rsp), %r13d
	movq	56(%rsp), %rax
	movq	%rax, 16(%rsp)
	movq	72(%rsp), %r14
	movaps	64(%rsp), %xmm0
	movaps	%xmm0, 80(%rsp)
	movq	%r12, %rdi
	movq	%r15, %rsi
	movq	24(%rsp), %rbp
	movq	%rbp, %rdx
	callq	"clap::parser::parse::Parser::remove_overrides"
	testb	%al, %al
	jne	4f
	movq	(%r15), %rsi
	movq	8(%r15), %rdx
	movzbl	606(%r15), %ecx
	movq	%rbp, %rdi
	xorl	%r8d, %r8d
	callq	"clap::parser::matcher::ArgMatcher::start"
	testb	%al, %al
	jne	4f
	movq	%r12, %rdi
	movq	%r15, %rsi
	movq	%rbp, %rdx
	callq	"clap::parser::parse::Parser::add_to_groups"
	testb	%al, %al
	je	10f
4:
	cmpl	$1, %r13d
	jne	5f
	testq	%r14, %r14
	je	5f
	movq	16(%rsp), %rdi
	callq	rattle_dealloc@PLT
5:
	movb	$1, (%rbx)
	movb	$16, 8(%rbx)
	xorps	%xmm0, %xmm0
	movups	%xmm0, 16(%rbx)
	jmp	9f
6:
	movq	%r12, %rdi
	movq	%r15, %rsi
	movq	%rbp, %rdx
	callq	"clap::parser::parse::Parser::add_to_groups"
	movl	%eax, %r14d
	movl	%eax, %ecx
	shlb	$4, %cl
	xorl	%edx, %edx
7:
	xorl	%r13d, %r13d
8:
	movb	%r14b, (%rbx)
	movb	%cl, 8(%rbx)
	movq	%r13, 16(%rbx)
	movq	%rdx, 24(%rbx)
	movaps	80(%rsp), %xmm0
9:
	movups	%xmm0, 32(%rbx)
	addq	$104, %rsp
	popq	%rbx
	popq	%r12
	popq	%r13
	popq	%r14
	popq	%r15
	popq	%rbp
	retq
10:
	movb	$1, %r14b
	movzbl	15(%rsp), %ecx
	movq	16(%rsp), %rdx
	jmp	8b
11:
	.size	"clap::parser::parse::Parser::add_values", 11b-"clap::parser::parse::Parser::add_values"

	.text
	.p2align	4
	.type	"clap::parser::parse::Parser::check_value",@function
"clap::parser::parse::Parser::check_value":
	pushq	%rbp
	pushq	%r15
	pushq	%r14
	pushq	%r13
	pushq	%r12
	pushq	%rbx
	subq	$1480, %rsp
	movq	%rdi, %r12
	xorps	%xmm0, %xmm0
	movaps	%xmm0, 880(%rsp)
	movq	$0, 896(%rsp)
	movaps	%xmm0, 80(%rsp)
	movq	$0, 96(%rsp)
	cmpb	$1, 512(%rdx)
	jne	1f
	movq	%r8, %r14
	movq	%rcx, %r10
	movq	%rsi, %r11
	movzbl	520(%rdx), %r15d
	movq	528(%rdx), %r13
	movq	536(%rdx), %rbp
	movzbl	606(%rdx), %eax
	leaq	259f(%rip), %rcx
	movslq	(%rcx,%r15,4), %rsi
	addq	%rcx, %rsi
	movq	%r10, 48(%rsp)
	jmpq	*%rsi
1:
	xorl	%ecx, %ecx
2:
	xorl	%ebp, %ebp
	xorl	%r13d, %r13d
3:
	movb	%cl, (%r12)
	movb	%bpl, 8(%r12)
	movq	%r13, 16(%r12)
	movaps	880(%rsp), %xmm0
	movups	%xmm0, 24(%r12)
	movq	896(%rsp), %rax
	jmp	133f
4:
	movb	$2, %r9b
	leaq	-1(%r14), %rax
	cmpq	$4, %rax
	movq	%r11, 40(%rsp)
	ja	97f
	leaq	260f(%rip), %rcx
	movslq	(%rcx,%rax,4), %rax
	addq	%rcx, %rax
	jmpq	*%rax
5:
	movzbl	(%r10), %eax
	leal	-65(%rax), %ecx
	leal	32(%rax), %esi
	cmpb	$26, %cl
	movzbl	%sil, %ecx
	cmovael	%eax, %ecx
	movzbl	%cl, %eax
	xorl	%r13d, %r13d
	xorl	%ebx, %ebx
	leal	-102(%rax), %ecx
	cmpl	$19, %ecx
	ja	84f
	movl	$540929, %esi
	btl	%ecx, %esi
	jae	84f
	xorl	%ecx, %ecx
	xorl	%ebp, %ebp
	jmp	3b
6:
	movq	%r14, %rcx
	movq	%r11, 40(%rsp)
	movq	%r12, %rbx
	movq	%rdx, %r12
	movzbl	%al, %r8d
	movq	%r13, %rdi
	movq	%rbp, %rsi
	movq	%r10, %rdx
	callq	"clap::builder::possible_value::any_name"
	xorl	%ecx, %ecx
	testb	%al, %al
	je	27f
	xorl	%ebp, %ebp
	xorl	%r13d, %r13d
	movq	%rbx, %r12
	jmp	3b
7:
	movq	%r11, 40(%rsp)
	xorl	%r13d, %r13d
	movl	$0, %eax
	movq	%rax, 24(%rsp)
	movl	$0, %r15d
	movl	$0, %ebx
	movl	$0, %ecx
	movl	$0, %ebp
	testq	%r14, %r14
	sete	%r9b
	jne	3b
	jmp	130f
8:
	movl	$2, %r15d
	cmpq	$5, %r14
	je	37f
	cmpq	$4, %r14
	jne	40f
	movl	(%r10), %eax
	movq	%rax, %rsi
	shlq	$32, %rsi
	orq	%rax, %rsi
	xorl	%ecx, %ecx
	movabsq	$7310875414349836916, %rax
	jmp	38f
9:
	testq	%r14, %r14
	je	28f
	movzbl	(%r10), %eax
	jmp	29f
10:
	movb	$3, %r9b
	testq	%r14, %r14
	movq	%r11, 40(%rsp)
	je	97f
	movzbl	(%r10), %eax
	cmpl	$43, %eax
	je	48f
	cmpl	$45, %eax
	jne	50f
	movb	$1, %bl
	cmpq	$1, %r14
	je	129f
	movabsq	$9223372036854775807, %rax
	movl	$1, %ecx
	movabsq	$1844674407370955162, %rsi
	xorl	%r15d, %r15d
11:
	movzbl	(%r10,%rcx), %edi
	leal	-48(%rdi), %r8d
	cmpb	$9, %r8b
	ja	129f
	cmpq	%rsi, %r15
	jae	95f
	addq	%r15, %r15
	leaq	(%r15,%r15,4), %r8
	andl	$15, %edi
	movq	%rdi, %r15
	addq	%r8, %r15
	jb	95f
	leaq	1(%rax), %rdi
	cmpq	%rdi, %r15
	ja	95f
	incq	%rcx
	cmpq	%rcx, %r14
	jne	11b
	negq	%r15
	jmp	52f
12:
	movb	$3, %r9b
	testq	%r14, %r14
	movq	%r11, 40(%rsp)
	je	97f
	cmpb	$43, (%r10)
	jne	42f
	movb	$1, %bl
	cmpq	$1, %r14
	je	129f
	movl	$1, %eax
	movabsq	$1844674407370955162, %rcx
	xorl	%r15d, %r15d
13:
	movzbl	(%r10,%rax), %esi
	leal	-48(%rsi), %edi
	cmpb	$9, %dil
	ja	129f
	cmpq	%rcx, %r15
	jae	75f
	addq	%r15, %r15
	leaq	(%r15,%r15,4), %rdi
	andl	$15, %esi
	movq	%rsi, %r15
	addq	%rdi, %r15
	jb	75f
	incq	%rax
	cmpq	%rax, %r14
	jne	13b
	jmp	44f
14:
	testq	%rbp, %rbp
	je	36f
	testb	%al, %al
	je	45f
	movq	%rbp, 32(%rsp)
	testq	%r14, %r14
	je	77f
	movq	%r11, 40(%rsp)
	xorl	%eax, %eax
	movq	%r13, 24(%rsp)
15:
	movq	%rax, %rdi
	shlq	$6, %rdi
	cmpq	%r14, 8(%r13,%rdi)
	jne	17f
	movq	24(%rsp), %rcx
	movq	(%rcx,%rdi), %rsi
	xorl	%r8d, %r8d
16:
	movzbl	(%rsi,%r8), %ecx
	leal	-65(%rcx), %r9d
	leal	32(%rcx), %r10d
	cmpb	$26, %r9b
	movzbl	%r10b, %r9d
	cmovael	%ecx, %r9d
	movq	48(%rsp), %rcx
	movzbl	(%rcx,%r8), %ecx
	leal	-65(%rcx), %r10d
	leal	32(%rcx), %r11d
	cmpb	$26, %r10b
	movzbl	%r11b, %r10d
	cmovael	%ecx, %r10d
	cmpb	%r10b, %r9b
	jne	17f
	incq	%r8
	xorl	%ecx, %ecx
	movl	$0, %ebp
	movl	$0, %r13d
	cmpq	%r8, %r14
	jne	16b
	jmp	3b
17:
	movq	24(%rsp), %rcx
	movq	48(%rcx,%rdi), %rsi
	testq	%rsi, %rsi
	je	21f
	movq	24(%rsp), %rcx
	movq	40(%rcx,%rdi), %rdi
	xorl	%r8d, %r8d
	jmp	19f
18:
	incq	%r8
	cmpq	%rsi, %r8
	je	21f
19:
	movq	%r8, %rcx
	shlq	$4, %rcx
	cmpq	%r14, 8(%rdi,%rcx)
	jne	18b
	movq	(%rdi,%rcx), %r9
	xorl	%r10d, %r10d
20:
	movzbl	(%r9,%r10), %ecx
	leal	-65(%rcx), %r11d
	leal	32(%rcx), %ebx
	cmpb	$26, %r11b
	movzbl	%bl, %r11d
	cmovael	%ecx, %r11d
	movq	48(%rsp), %rcx
	movzbl	(%rcx,%r10), %ecx
	leal	-65(%rcx), %ebx
	leal	32(%rcx), %ebp
	cmpb	$26, %bl
	movzbl	%bpl, %ebx
	cmovael	%ecx, %ebx
	cmpb	%bl, %r11b
	jne	18b
	incq	%r10
	xorl	%ecx, %ecx
	movl	$0, %ebp
	movl	$0, %r13d
	cmpq	%r10, %r14
	jne	20b
	jmp	3b
21:
	incq	%rax
	xorl	%ebx, %ebx
	cmpq	32(%rsp), %rax
	movq	24(%rsp), %r13
	jne	15b
	jmp	109f
22:
	testq	%r14, %r14
	je	26f
	movl	$1, %eax
	movq	%r14, %rcx
	jmp	24f
	.p2align	4
23:
	addq	%rdi, %r10
	decq	%rax
	subq	%rdi, %rcx
	je	25f
24:
	movzbl	(%r10), %r8d
	movl	$1, %edi
	testb	%r8b, %r8b
	jns	23b
	movl	$2, %edi
	cmpb	$-32, %r8b
	jb	23b
	cmpb	$-16, %r8b
	movl	$4, %edi
	sbbq	$0, %rdi
	jmp	23b
25:
	testq	%rax, %rax
	je	1b
26:
	movq	%r11, 40(%rsp)
	testq	%r14, %r14
	sete	%bl
	movb	$7, %r9b
	jmp	129f
27:
	movq	%r13, 24(%rsp)
	movq	%rbp, %r13
	xorl	%r9d, %r9d
	movq	%r12, %rdx
	movq	%rbx, %r12
	xorl	%ebx, %ebx
	jmp	130f
28:
	xorl	%eax, %eax
29:
	movq	%r11, 40(%rsp)
	movq	%r12, 72(%rsp)
	movq	%rax, 56(%rsp)
	addl	$-43, %eax
	xorl	%ecx, %ecx
	testb	$-3, %al
	sete	%cl
	leaq	(%r10,%rcx), %rsi
	movq	%r14, 64(%rsp)
	movq	%rcx, 32(%rsp)
	subq	%rcx, %r14
	cmpq	$8, %r14
	movq	%r14, 24(%rsp)
	jb	31f
	movabsq	$-9187201950435737472, %rcx
	movabsq	$9187201950435737470, %rdi
	movabsq	$8536140394893047414, %r9
	movabsq	$3472328296227680304, %r10
	movabsq	$4294967296000100, %r11
	movabsq	$42949672960001, %r15
	movabsq	$1095216660735, %r12
	xorl	%r8d, %r8d
	movq	%r14, %rbp
	xorl	%r13d, %r13d
	.p2align	4
30:
	movq	(%rsi,%r8), %rbx
	movq	%rbx, %rax
	xorq	%r10, %rax
	movq	%rax, %r14
	andq	%rdi, %r14
	addq	%r9, %r14
	orq	%rbx, %r14
	testq	%rcx, %r14
	jne	32f
	leaq	(%rax,%rax,4), %rbx
	shrq	$8, %rax
	leaq	(%rax,%rbx,2), %rax
	movq	%rax, %rbx
	andq	%r12, %rbx
	imulq	%r11, %rbx
	shrq	$16, %rax
	andq	%r12, %rax
	imulq	%r15, %rax
	addq	%rbx, %rax
	shrq	$32, %rax
	imulq	$100000000, %r13, %r13
	addq	%rax, %r13
	addq	$8, %r8
	addq	$-8, %rbp
	cmpq	$7, %rbp
	ja	30b
	jmp	32f
31:
	xorl	%r13d, %r13d
	xorl	%r8d, %r8d
32:
	leaq	.L22d5119de29e(%rip), %r10
	movq	24(%rsp), %rbp
	cmpq	%rbp, %r8
	jae	35f
	movq	48(%rsp), %rax
	movq	32(%rsp), %rbx
	leaq	(%rbx,%rax), %rcx
	incq	%rcx
	movq	64(%rsp), %r14
	.p2align	4
33:
	movzbl	-1(%rcx,%r8), %edi
	leal	-48(%rdi), %r9d
	cmpb	$9, %r9b
	ja	46f
	leaq	(,%r13,4), %rax
	addq	%r13, %rax
	movzbl	%r9b, %edi
	leaq	(%rdi,%rax,2), %r13
	incq	%r8
	cmpq	%rbp, %r8
	jb	33b
	xorl	%ecx, %ecx
	movq	%rbp, %r8
	xorl	%r12d, %r12d
34:
	movq	%rbp, %r15
	jmp	118f
35:
	xorl	%ecx, %ecx
	xorl	%r12d, %r12d
	movq	%r8, %r15
	xorl	%r11d, %r11d
	movq	64(%rsp), %r14
	movq	32(%rsp), %rbx
	jmp	119f
36:
	movq	%r13, 24(%rsp)
	movq	%r11, 40(%rsp)
	movl	$10, %r15d
	xorl	%r13d, %r13d
	jmp	39f
37:
	movl	(%r10), %eax
	movl	1(%r10), %esi
	shlq	$32, %rsi
	orq	%rax, %rsi
	xorl	%ecx, %ecx
	movabsq	$7310305785956557158, %rax
38:
	cmpq	%rax, %rsi
	je	2b
	movq	%r13, 24(%rsp)
	movq	%r11, 40(%rsp)
	movq	%rbp, %r13
39:
	xorl	%ebx, %ebx
	xorl	%r9d, %r9d
	jmp	130f
40:
	movq	%r13, 24(%rsp)
	movq	%r11, 40(%rsp)
	xorl	%ebx, %ebx
41:
	movq	%rbp, %r13
	xorl	%r9d, %r9d
	jmp	130f
42:
	movabsq	$1844674407370955162, %rax
	xorl	%r15d, %r15d
	xorl	%ecx, %ecx
43:
	movzbl	(%r10,%rcx), %esi
	leal	-48(%rsi), %edi
	cmpb	$9, %dil
	ja	76f
	movb	$2, %bl
	cmpq	%rax, %r15
	jae	129f
	addq	%r15, %r15
	leaq	(%r15,%r15,4), %rdi
	andl	$15, %esi
	movq	%rsi, %r15
	addq	%rdi, %r15
	jb	129f
	incq	%rcx
	cmpq	%rcx, %r14
	jne	43b
44:
	cmpq	%r15, %r13
	seta	%al
	cmpq	%rbp, %r15
	seta	%sil
	xorl	%ecx, %ecx
	orb	%al, %sil
	movb	$5, %r9b
	je	2b
	jmp	53f
45:
	cmpq	$4, %r14
	movq	%r11, 40(%rsp)
	jae	68f
	xorl	%eax, %eax
	testq	%r14, %r14
	jne	55f
	jmp	82f
46:
	cmpl	$46, %edi
	je	91f
	cmpl	$69, %edi
	je	47f
	cmpl	$101, %edi
	jne	89f
47:
	leaq	1(%r8), %rdi
	cmpq	%rbp, %rdi
	jae	85f
	movzbl	1(%r8,%rsi), %ecx
	jmp	86f
48:
	movb	$1, %bl
	cmpq	$1, %r14
	je	129f
	movl	$1, %eax
	movabsq	$1844674407370955162, %rcx
	xorl	%r15d, %r15d
49:
	movzbl	(%r10,%rax), %esi
	leal	-48(%rsi), %edi
	cmpb	$9, %dil
	ja	129f
	cmpq	%rcx, %r15
	jae	75f
	addq	%r15, %r15
	leaq	(%r15,%r15,4), %rdi
	movl	%esi, %r15d
	andl	$15, %r15d
	movq	%r15, %rsi
	addq	%rdi, %rsi
	jb	75f
	addq	%rdi, %r15
	js	75f
	incq	%rax
	cmpq	%rax, %r14
	jne	49b
	jmp	52f
50:
	movabsq	$1844674407370955162, %rax
	xorl	%r15d, %r15d
	xorl	%ecx, %ecx
51:
	movzbl	(%r10,%rcx), %esi
	leal	-48(%rsi), %edi
	cmpb	$9, %dil
	ja	76f
	movb	$2, %bl
	cmpq	%rax, %r15
	jae	129f
	addq	%r15, %r15
	leaq	(%r15,%r15,4), %rdi
	movl	%esi, %r15d
	andl	$15, %r15d
	movq	%r15, %rsi
	addq	%rdi, %rsi
	jb	129f
	addq	%rdi, %r15
	js	129f
	incq	%rcx
	cmpq	%rcx, %r14
	jne	51b
52:
	cmpq	%r15, %r13
	setg	%al
	cmpq	%rbp, %r15
	setg	%sil
	xorl	%ecx, %ecx
	orb	%al, %sil
	movb	$4, %r9b
	je	2b
53:
	movq	%r13, 24(%rsp)
	movq	%rbp, %r13
	xorl	%ebx, %ebx
	jmp	130f
54:
	incq	%rax
	xorl	%ebx, %ebx
	cmpq	%rbp, %rax
	je	107f
55:
	movq	%rax, %rsi
	shlq	$6, %rsi
	cmpq	%r14, 8(%r13,%rsi)
	jne	58f
	movq	(%r13,%rsi), %rcx
	movzbl	(%rcx), %edi
	cmpb	(%r10), %dil
	jne	56f
	cmpq	$1, %r14
	je	1b
	movzbl	1(%rcx), %r8d
	movl	$1, %edi
	cmpb	1(%r10), %r8b
	jne	57f
	cmpq	$2, %r14
	je	1b
	movzbl	2(%rcx), %ecx
	movl	$2, %edi
	cmpb	2(%r10), %cl
	jne	57f
	jmp	1b
56:
	xorl	%edi, %edi
57:
	cmpq	%r14, %rdi
	jae	1b
58:
	movq	48(%r13,%rsi), %rcx
	testq	%rcx, %rcx
	je	54b
	movq	40(%r13,%rsi), %rsi
	addq	$8, %rsi
	jmp	62f
59:
	xorl	%r8d, %r8d
60:
	cmpq	%r14, %r8
	jae	1b
61:
	addq	$16, %rsi
	decq	%rcx
	je	54b
62:
	cmpq	%r14, (%rsi)
	jne	61b
	movq	-8(%rsi), %rdi
	movzbl	(%rdi), %r8d
	cmpb	(%r10), %r8b
	jne	59b
	cmpq	$1, %r14
	je	1b
	movzbl	1(%rdi), %r9d
	movl	$1, %r8d
	cmpb	1(%r10), %r9b
	jne	60b
	cmpq	$2, %r14
	je	1b
	movzbl	2(%rdi), %edi
	movl	$2, %r8d
	cmpb	2(%r10), %dil
	jne	60b
	jmp	1b
63:
	movzbl	(%r10), %eax
	leal	-65(%rax), %ecx
	leal	32(%rax), %esi
	cmpb	$26, %cl
	movzbl	%sil, %ecx
	cmovael	%eax, %ecx
	cmpb	$102, %cl
	jne	97f
	movzbl	1(%r10), %eax
	leal	-65(%rax), %ecx
	leal	32(%rax), %esi
	cmpb	$26, %cl
	movzbl	%sil, %ecx
	cmovael	%eax, %ecx
	cmpb	$97, %cl
	jne	97f
	movzbl	2(%r10), %eax
	leal	-65(%rax), %ecx
	leal	32(%rax), %esi
	cmpb	$26, %cl
	movzbl	%sil, %ecx
	cmovael	%eax, %ecx
	cmpb	$108, %cl
	jne	97f
	movzbl	3(%r10), %eax
	leal	-65(%rax), %ecx
	leal	32(%rax), %esi
	cmpb	$26, %cl
	movzbl	%sil, %ecx
	cmovael	%eax, %ecx
	cmpb	$115, %cl
	jne	97f
	movzbl	4(%r10), %eax
	jmp	66f
64:
	movzbl	(%r10), %ecx
	leal	-65(%rcx), %eax
	leal	32(%rcx), %esi
	cmpb	$26, %al
	movzbl	%sil, %eax
	cmovael	%ecx, %eax
	cmpb	$111, %al
	je	96f
	movzbl	%al, %eax
	cmpl	$121, %eax
	jne	97f
	movzbl	1(%r10), %eax
	leal	-65(%rax), %ecx
	leal	32(%rax), %esi
	cmpb	$26, %cl
	movzbl	%sil, %ecx
	cmovael	%eax, %ecx
	cmpb	$101, %cl
	jne	97f
	movzbl	2(%r10), %eax
	leal	-65(%rax), %ecx
	leal	32(%rax), %esi
	cmpb	$26, %cl
	movzbl	%sil, %esi
	cmovael	%eax, %esi
	xorl	%r13d, %r13d
	movl	$0, %eax
	movq	%rax, 24(%rsp)
	movl	$0, %r15d
	movl	$0, %ebx
	movl	$0, %ecx
	movl	$0, %ebp
	cmpb	$115, %sil
	je	3b
	jmp	130f
65:
	movzbl	(%r10), %eax
	leal	-65(%rax), %ecx
	leal	32(%rax), %esi
	cmpb	$26, %cl
	movzbl	%sil, %ecx
	cmovael	%eax, %ecx
	cmpb	$116, %cl
	jne	97f
	movzbl	1(%r10), %eax
	leal	-65(%rax), %ecx
	leal	32(%rax), %esi
	cmpb	$26, %cl
	movzbl	%sil, %ecx
	cmovael	%eax, %ecx
	cmpb	$114, %cl
	jne	97f
	movzbl	2(%r10), %eax
	leal	-65(%rax), %ecx
	leal	32(%rax), %esi
	cmpb	$26, %cl
	movzbl	%sil, %ecx
	cmovael	%eax, %ecx
	cmpb	$117, %cl
	jne	97f
	movzbl	3(%r10), %eax
66:
	leal	-65(%rax), %ecx
	leal	32(%rax), %esi
	cmpb	$26, %cl
	movzbl	%sil, %esi
	cmovael	%eax, %esi
	xorl	%r13d, %r13d
	movl	$0, %eax
	movq	%rax, 24(%rsp)
	movl	$0, %r15d
	movl	$0, %ebx
	movl	$0, %ecx
	movl	$0, %ebp
	cmpb	$101, %sil
	je	3b
	jmp	130f
67:
	movzbl	(%r10), %ecx
	leal	-65(%rcx), %eax
	leal	32(%rcx), %esi
	cmpb	$26, %al
	movzbl	%sil, %eax
	cmovael	%ecx, %eax
	cmpb	$111, %al
	je	98f
	movzbl	%al, %eax
	cmpl	$110, %eax
	jne	97f
	movzbl	1(%r10), %eax
	leal	-65(%rax), %ecx
	leal	32(%rax), %esi
	cmpb	$26, %cl
	movzbl	%sil, %esi
	cmovael	%eax, %esi
	xorl	%r13d, %r13d
	movl	$0, %eax
	movq	%rax, 24(%rsp)
	movl	$0, %r15d
	movl	$0, %ebx
	movl	$0, %ecx
	movl	$0, %ebp
	cmpb	$111, %sil
	je	3b
	jmp	130f
68:
	movq	%rbp, 32(%rsp)
	movq	%r13, 24(%rsp)
	movq	%r12, 72(%rsp)
	xorl	%r13d, %r13d
	jmp	70f
69:
	incq	%r13
	xorl	%ebx, %ebx
	cmpq	32(%rsp), %r13
	je	100f
70:
	movq	%r13, %r12
	shlq	$6, %r12
	movq	24(%rsp), %rbx
	cmpq	%r14, 8(%rbx,%r12)
	jne	71f
	movq	(%rbx,%r12), %rdi
	movl	(%rdi), %eax
	cmpl	(%r10), %eax
	jne	71f
	movq	%r14, %rsi
	movq	%r14, %rbp
	movq	%rdx, %r14
	movq	%r10, %rdx
	callq	"core::cmp::slices::groups_equal::<i8,31'core::cmp::numbers::U8PartialEq{}>"
	movq	48(%rsp), %r10
	movq	%r14, %rdx
	movq	%rbp, %r14
	testb	%al, %al
	jne	74f
71:
	movq	48(%rbx,%r12), %rbp
	testq	%rbp, %rbp
	je	69b
	movq	24(%rsp), %rax
	movq	40(%rax,%r12), %r12
	addq	$8, %r12
	jmp	73f
	.p2align	4
72:
	addq	$16, %r12
	decq	%rbp
	je	69b
73:
	cmpq	%r14, (%r12)
	jne	72b
	movq	-8(%r12), %rdi
	movl	(%rdi), %eax
	cmpl	(%r10), %eax
	jne	72b
	movq	%r14, %rsi
	movq	%r14, %rbx
	movq	%rdx, %r14
	movq	%r10, %rdx
	callq	"core::cmp::slices::groups_equal::<i8,31'core::cmp::numbers::U8PartialEq{}>"
	movq	48(%rsp), %r10
	movq	%r14, %rdx
	movq	%rbx, %r14
	testb	%al, %al
	je	72b
74:
	xorl	%ecx, %ecx
	xorl	%ebp, %ebp
	xorl	%r13d, %r13d
	movq	72(%rsp), %r12
	jmp	3b
75:
	xorl	%r13d, %r13d
	movq	$0, 24(%rsp)
	xorl	%r15d, %r15d
	movb	$2, %bl
	jmp	130f
76:
	movb	$1, %bl
	jmp	129f
77:
	xorl	%eax, %eax
	jmp	79f
78:
	incq	%rax
	xorl	%ebx, %ebx
	cmpq	32(%rsp), %rax
	je	108f
79:
	movq	%rax, %rsi
	shlq	$6, %rsi
	cmpq	$0, 8(%r13,%rsi)
	je	1b
	movq	48(%r13,%rsi), %rcx
	testq	%rcx, %rcx
	je	78b
	movq	40(%r13,%rsi), %rsi
	addq	$8, %rsi
80:
	cmpq	$0, (%rsi)
	je	1b
	addq	$16, %rsi
	decq	%rcx
	jne	80b
	jmp	78b
81:
	incq	%rax
	xorl	%ebx, %ebx
	cmpq	%rbp, %rax
	je	107f
82:
	movq	%rax, %rsi
	shlq	$6, %rsi
	cmpq	$0, 8(%r13,%rsi)
	je	1b
	movq	48(%r13,%rsi), %rcx
	testq	%rcx, %rcx
	je	81b
	movq	40(%r13,%rsi), %rsi
	addq	$8, %rsi
83:
	cmpq	$0, (%rsi)
	je	1b
	addq	$16, %rsi
	decq	%rcx
	jne	83b
	jmp	81b
84:
	addl	$-48, %eax
	movl	$0, %ecx
	movq	%rcx, 24(%rsp)
	movl	$0, %r15d
	movl	$0, %ecx
	movl	$0, %ebp
	cmpl	$2, %eax
	jb	3b
	jmp	130f
85:
	xorl	%ecx, %ecx
86:
	leaq	2(%r8), %r15
	addb	$-43, %cl
	testb	$-3, %cl
	cmovneq	%rdi, %r15
	cmpq	%rbp, %r15
	jae	89f
	xorl	%ecx, %ecx
	movl	$0, %r12d
	testq	%r15, %r15
	je	90f
	movzbl	(%rsi,%r15), %eax
	addb	$-58, %al
	cmpb	$-10, %al
	jb	90f
	movabsq	$1844674407370955162, %rcx
	xorl	%r11d, %r11d
	jmp	88f
87:
	incq	%r15
	movq	%r9, %r11
	movq	24(%rsp), %rbp
	cmpq	%rbp, %r15
	jae	104f
88:
	movzbl	(%rsi,%r15), %ebp
	addb	$-48, %bpl
	cmpb	$9, %bpl
	ja	103f
	movq	$-1, %r9
	cmpq	%rcx, %r11
	jae	87b
	addq	%r11, %r11
	leaq	(%r11,%r11,4), %rax
	movzbl	%bpl, %r11d
	addq	%rax, %r11
	cmovaeq	%r11, %r9
	jmp	87b
89:
	xorl	%ecx, %ecx
	xorl	%r12d, %r12d
90:
	movq	%r8, %r15
	jmp	118f
91:
	movabsq	$9187201950435737470, %rbp
	movabsq	$8536140394893047414, %r9
	movabsq	$3472328296227680304, %r12
	movabsq	$1095216660735, %r10
	leaq	1(%r8), %r15
	jmp	94f
92:
	rep		bsfq	%rcx, %rcx
	movl	%ecx, %r11d
	shrl	$3, %r11d
	notb	%cl
	andb	$56, %cl
	shlq	%cl, %rdi
	imulq	$2561, %rdi, %rcx
	movq	%rcx, %rax
	andq	%r10, %rax
	movabsq	$4294967296000100, %rdi
	imulq	%rdi, %rax
	shrq	$16, %rcx
	andq	%r10, %rcx
	movabsq	$42949672960001, %rdi
	imulq	%rdi, %rcx
	addq	%rax, %rcx
93:
	leaq	.L1f00a5318f3f(%rip), %rax
	imulq	(%rax,%r11,8), %r13
	shrq	$32, %rcx
	addq	%rcx, %r13
	addq	%r11, %r15
	cmpq	$8, %r11
	jb	112f
94:
	movq	24(%rsp), %rax
	subq	%r15, %rax
	cmpq	$8, %rax
	jb	99f
	movq	(%rsi,%r15), %rax
	movq	%rax, %rdi
	xorq	%r12, %rdi
	movq	%rdi, %rcx
	andq	%rbp, %rcx
	addq	%r9, %rcx
	orq	%rax, %rcx
	movabsq	$-9187201950435737472, %rax
	andq	%rax, %rcx
	jne	92b
	leaq	(%rdi,%rdi,4), %rax
	shrq	$8, %rdi
	leaq	(%rdi,%rax,2), %rcx
	movq	%rcx, %rax
	andq	%r10, %rax
	movabsq	$4294967296000100, %rdi
	imulq	%rdi, %rax
	shrq	$16, %rcx
	andq	%r10, %rcx
	movabsq	$42949672960001, %rdi
	imulq	%rdi, %rcx
	addq	%rax, %rcx
	movl	$8, %r11d
	jmp	93b
95:
	xorl	%r13d, %r13d
	movq	$0, 24(%rsp)
	xorl	%r15d, %r15d
	movb	$3, %bl
	movb	$3, %r9b
	jmp	130f
96:
	movzbl	1(%r10), %eax
	leal	-65(%rax), %ecx
	leal	32(%rax), %esi
	cmpb	$26, %cl
	movzbl	%sil, %ecx
	cmovael	%eax, %ecx
	cmpb	$102, %cl
	jne	97f
	movzbl	2(%r10), %eax
	leal	-65(%rax), %ecx
	leal	32(%rax), %esi
	cmpb	$26, %cl
	movzbl	%sil, %esi
	cmovael	%eax, %esi
	xorl	%r13d, %r13d
	movl	$0, %eax
	movq	%rax, 24(%rsp)
	movl	$0, %r15d
	movl	$0, %ebx
	movl	$0, %ecx
	movl	$0, %ebp
	cmpb	$102, %sil
	je	3b
	jmp	130f
97:
	xorl	%r13d, %r13d
	movq	$0, 24(%rsp)
	xorl	%r15d, %r15d
	xorl	%ebx, %ebx
	jmp	130f
98:
	movzbl	1(%r10), %eax
	leal	-65(%rax), %ecx
	leal	32(%rax), %esi
	cmpb	$26, %cl
	movzbl	%sil, %esi
	cmovael	%eax, %esi
	xorl	%r13d, %r13d
	movl	$0, %eax
	movq	%rax, 24(%rsp)
	movl	$0, %r15d
	movl	$0, %ebx
	movl	$0, %ecx
	movl	$0, %ebp
	cmpb	$110, %sil
	je	3b
	jmp	130f
99:
	movq	24(%rsp), %rcx
	cmpq	$12, %rcx
	jb	101f
	cmpq	%r15, %rcx
	jbe	101f
	leaq	-8(%rcx), %rax
	movq	-8(%rsi,%rcx), %rdi
	movl	%r15d, %ecx
	subl	%eax, %ecx
	shll	$3, %ecx
	shrq	%cl, %rdi
	xorq	%rdi, %r12
	andq	%r12, %rbp
	addq	%r9, %rbp
	orq	%rdi, %rbp
	movabsq	$-9187201950435737472, %rax
	andq	%rax, %rbp
	je	110f
	rep		bsfq	%rbp, %rcx
	movl	%ecx, %edi
	shrl	$3, %edi
	notb	%cl
	andb	$56, %cl
	shlq	%cl, %r12
	imulq	$2561, %r12, %rcx
	movq	%rcx, %rax
	andq	%r10, %rax
	movabsq	$4294967296000100, %r9
	imulq	%r9, %rax
	shrq	$16, %rcx
	andq	%r10, %rcx
	movabsq	$42949672960001, %r9
	imulq	%r9, %rcx
	addq	%rax, %rcx
	jmp	111f
100:
	movq	32(%rsp), %r13
	xorl	%r9d, %r9d
	movq	72(%rsp), %r12
	jmp	130f
101:
	cmpq	%r15, %rcx
	jbe	112f
102:
	movzbl	(%rsi,%r15), %ecx
	addb	$-48, %cl
	cmpb	$9, %cl
	ja	112f
	leaq	(,%r13,4), %rax
	addq	%r13, %rax
	movzbl	%cl, %ecx
	leaq	(%rcx,%rax,2), %r13
	incq	%r15
	cmpq	24(%rsp), %r15
	jb	102b
	leaq	(%r8,%rsi), %r10
	incq	%r10
	movq	%rbx, %rcx
	notq	%rcx
	addq	%r14, %rcx
	subq	%r8, %rcx
	xorl	%r12d, %r12d
	movq	24(%rsp), %rbp
	jmp	34b
103:
	movq	24(%rsp), %rbp
	jmp	105f
104:
	movq	%r9, %r11
	movq	%rbp, %r15
105:
	cmpq	%rbp, %rdi
	jae	106f
	cmpb	$45, 1(%r8,%rsi)
	sete	%r12b
	xorl	%ecx, %ecx
	jmp	119f
106:
	xorl	%ecx, %ecx
	xorl	%r12d, %r12d
	jmp	119f
107:
	movq	%r13, 24(%rsp)
	jmp	41b
108:
	movq	%r13, 24(%rsp)
	movq	%r11, 40(%rsp)
109:
	movq	32(%rsp), %r13
	xorl	%r9d, %r9d
	jmp	130f
110:
	leaq	(%r12,%r12,4), %rax
	shrq	$8, %r12
	leaq	(%r12,%rax,2), %rcx
	movq	%rcx, %rax
	andq	%r10, %rax
	movabsq	$4294967296000100, %rdi
	imulq	%rdi, %rax
	shrq	$16, %rcx
	andq	%r10, %rcx
	movabsq	$42949672960001, %rdi
	imulq	%rdi, %rcx
	addq	%rax, %rcx
	movl	$8, %edi
111:
	shrq	$32, %rcx
	addq	%rdi, %r15
	leaq	.L1f00a5318f3f(%rip), %rax
	imulq	(%rax,%rdi,8), %r13
	addq	%rcx, %r13
112:
	leaq	(%r8,%rsi), %r10
	incq	%r10
	movq	%r8, %rcx
	notq	%rcx
	addq	%r15, %rcx
	movq	24(%rsp), %rbp
	cmpq	%rbp, %r15
	jae	117f
	movzbl	(%rsi,%r15), %eax
	orl	$32, %eax
	cmpl	$101, %eax
	jne	117f
	leaq	1(%r15), %rdi
	cmpq	%rbp, %rdi
	jae	113f
	movzbl	(%rsi,%rdi), %r11d
	jmp	114f
113:
	xorl	%r11d, %r11d
114:
	leaq	2(%r15), %r9
	addb	$-43, %r11b
	testb	$-3, %r11b
	cmovneq	%rdi, %r9
	cmpq	%rbp, %r9
	jae	117f
	xorl	%r11d, %r11d
	movl	$0, %r12d
	testq	%r9, %r9
	je	119f
	movzbl	(%rsi,%r9), %eax
	addb	$-58, %al
	cmpb	$-10, %al
	jb	119f
	movabsq	$1844674407370955162, %r15
	xorl	%r11d, %r11d
	jmp	116f
115:
	incq	%r9
	movq	%r12, %r11
	movq	24(%rsp), %rbp
	cmpq	%rbp, %r9
	jae	251f
116:
	movzbl	(%rsi,%r9), %ebp
	addb	$-48, %bpl
	cmpb	$9, %bpl
	ja	250f
	movq	$-1, %r12
	cmpq	%r15, %r11
	jae	115b
	addq	%r11, %r11
	leaq	(%r11,%r11,4), %rax
	movzbl	%bpl, %r11d
	addq	%rax, %r11
	cmovaeq	%r11, %r12
	jmp	115b
117:
	xorl	%r12d, %r12d
118:
	xorl	%r11d, %r11d
119:
	movq	%rdx, 24(%rsp)
	movq	%r8, %rdx
	addq	%rcx, %rdx
	je	123f
	xorl	%r9d, %r9d
	testb	%r12b, %r12b
	movq	%r11, %rbp
	cmovneq	%r9, %rbp
	cmovneq	%r11, %r9
	cmpq	$19, %rdx
	ja	124f
	shrq	$32, %r11
	jne	124f
	testq	%r13, %r13
	movq	24(%rsp), %rdx
	je	126f
	addq	%rcx, %r9
	movq	%r9, %r12
	movabsq	$9007199254740992, %rax
	subq	%rbp, %r12
	jbe	121f
	cmpq	%rax, %r13
	seta	%al
	cmpq	$23, %r12
	setae	%cl
	cmpq	$342, %r12
	ja	126f
	orb	%cl, %al
	je	126f
	movl	$342, %r8d
	subq	%r12, %r8
	bsrq	%r13, %rsi
	xorq	$63, %rsi
	movq	%r13, %rax
	movl	%esi, %ecx
	shlq	%cl, %rax
	imull	$217706, %r8d, %edi
	movl	%r8d, %ecx
	shll	$4, %ecx
	leaq	.Ld973209b3923(%rip), %rdx
	mulq	8(%rcx,%rdx)
	movq	%rdx, %rcx
	shrq	$63, %rcx
	addl	$58980, %edi
	shrl	$16, %edi
	leal	(%rdi,%rcx), %eax
	addl	$1139, %eax
	addl	$1191, %esi
	cmpl	%eax, %esi
	ja	120f
	movl	$-1024, %eax
	shll	%cl, %eax
	movl	$512, %esi
	shlq	%cl, %rsi
	notl	%eax
	andl	%eax, %edx
	subq	%rdx, %rsi
	cmpq	$2, %rsi
	jae	125f
120:
	leaq	240(%rsp), %rdi
	movq	%r13, %rsi
	xorl	%edx, %edx
	movq	%r8, %rcx
	callq	"core::dec2flt::lemire::eisel_lemire_wide::<#1d521972340cebc2>"
	cmpb	$0, 240(%rsp)
	je	125f
	movq	248(%rsp), %rbp
	movq	256(%rsp), %rax
	movq	%rax, 32(%rsp)
	movq	%r13, 240(%rsp)
	leaq	248(%rsp), %rdi
	movl	$584, %edx
	xorl	%esi, %esi
	callq	memset@PLT
	movq	$1, 832(%rsp)
	leaq	240(%rsp), %rdi
	xorl	%esi, %esi
	xorl	%edx, %edx
	movq	%r12, %rcx
	movq	%rbp, %r8
	jmp	122f
121:
	cmpq	%rax, %r13
	seta	%al
	subq	%r9, %rbp
	cmpq	$23, %rbp
	setae	%cl
	cmpq	$308, %rbp
	ja	126f
	orb	%cl, %al
	je	126f
	leaq	342(%rbp), %r8
	bsrq	%r13, %rcx
	notl	%ecx
	movq	%r13, %rax
	shlq	%cl, %rax
	movq	%r8, %rcx
	shlq	$4, %rcx
	leaq	.Ld973209b3923(%rip), %rdx
	mulq	8(%rcx,%rdx)
	movq	%rdx, %rcx
	shrq	$63, %rcx
	movl	$-1024, %eax
	shll	%cl, %eax
	movl	$512, %esi
	shlq	%cl, %rsi
	notl	%eax
	andl	%eax, %edx
	subq	%rdx, %rsi
	cmpq	$1, %rsi
	ja	125f
	leaq	240(%rsp), %rdi
	movq	%r13, %rsi
	xorl	%edx, %edx
	movq	%r8, %rcx
	callq	"core::dec2flt::lemire::eisel_lemire_wide::<#1d521972340cebc2>"
	cmpb	$0, 240(%rsp)
	je	125f
	movq	248(%rsp), %r12
	movq	256(%rsp), %rax
	movq	%rax, 32(%rsp)
	movq	%r13, 240(%rsp)
	leaq	248(%rsp), %rdi
	movl	$584, %edx
	xorl	%esi, %esi
	callq	memset@PLT
	movq	$1, 832(%rsp)
	leaq	240(%rsp), %rdi
	xorl	%esi, %esi
	movq	%rbp, %rdx
	xorl	%ecx, %ecx
	movq	%r12, %r8
122:
	movq	32(%rsp), %r9
	callq	"core::dec2flt::decimal::break_tie::<#1d521972340cebc2>"
	jmp	125f
123:
	xorl	%ecx, %ecx
	cmpb	$45, 56(%rsp)
	sete	%cl
	leaq	912(%rsp), %rdi
	movq	%rbp, %rdx
	callq	"core::dec2flt::words::read_word::<#1d521972340cebc2>"
	cmpb	$1, 912(%rsp)
	movq	24(%rsp), %rdx
	movq	72(%rsp), %r12
	jne	128f
	movq	928(%rsp), %r15
	jmp	127f
124:
	movq	%rsi, %rdi
	movq	%r8, %rsi
	movq	%r10, %rdx
	movq	%rbp, %r8
	callq	"core::dec2flt::long::from_long::<#1d521972340cebc2>"
125:
	movq	24(%rsp), %rdx
126:
	movq	72(%rsp), %r12
127:
	addq	%rbx, %r15
	cmpq	%r14, %r15
	je	1b
128:
	testq	%r14, %r14
	sete	%bl
	movb	$6, %r9b
129:
	xorl	%r13d, %r13d
	movq	$0, 24(%rsp)
	xorl	%r15d, %r15d
130:
	movq	%r14, 64(%rsp)
	movl	%r9d, %r14d
	movq	$0, 232(%rsp)
	movq	$0, 224(%rsp)
	movq	$0, 216(%rsp)
	movq	$0, 208(%rsp)
	movq	$0, 200(%rsp)
	movq	$0, 192(%rsp)
	xorps	%xmm0, %xmm0
	movaps	%xmm0, 160(%rsp)
	movq	$0, 176(%rsp)
	movaps	%xmm0, 944(%rsp)
	movaps	%xmm0, 928(%rsp)
	movaps	%xmm0, 912(%rsp)
	movaps	%xmm0, 976(%rsp)
	movaps	%xmm0, 960(%rsp)
	movaps	%xmm0, 1328(%rsp)
	movaps	%xmm0, 1312(%rsp)
	movaps	%xmm0, 1296(%rsp)
	movaps	%xmm0, 1456(%rsp)
	movaps	%xmm0, 1440(%rsp)
	movaps	%xmm0, 1280(%rsp)
	movaps	%xmm0, 1264(%rsp)
	movaps	%xmm0, 1248(%rsp)
	movaps	%xmm0, 1344(%rsp)
	movq	$0, 1360(%rsp)
	movups	%xmm0, 1423(%rsp)
	movaps	%xmm0, 1408(%rsp)
	movaps	%xmm0, 1232(%rsp)
	movaps	%xmm0, 1216(%rsp)
	movaps	%xmm0, 1200(%rsp)
	movaps	%xmm0, 1120(%rsp)
	movq	$0, 1136(%rsp)
	movups	%xmm0, 1391(%rsp)
	movaps	%xmm0, 1376(%rsp)
	movaps	%xmm0, 1184(%rsp)
	movaps	%xmm0, 1168(%rsp)
	movaps	%xmm0, 1152(%rsp)
	movaps	%xmm0, 1088(%rsp)
	movq	$0, 1104(%rsp)
	movaps	%xmm0, 1072(%rsp)
	movaps	%xmm0, 1056(%rsp)
	movaps	%xmm0, 1040(%rsp)
	movaps	%xmm0, 1024(%rsp)
	movaps	%xmm0, 1008(%rsp)
	movaps	%xmm0, 992(%rsp)
	movups	%xmm0, 248(%rsp)
	movl	$0, 297(%rsp)
	movl	$0, 300(%rsp)
	leaq	127(%rsp), %rbp
	movq	%rbp, 240(%rsp)
	movl	$32, 264(%rsp)
	movq	$0, 268(%rsp)
	movl	$0, 276(%rsp)
	movq	$-1, 280(%rsp)
	movq	$0, 288(%rsp)
	movb	$0, 296(%rsp)
	movl	264(%rsp), %eax
	movl	%eax, 848(%rsp)
	movq	268(%rsp), %rax
	movq	%rax, 852(%rsp)
	movl	276(%rsp), %eax
	movl	%eax, 860(%rsp)
	movq	$-1, 864(%rsp)
	movl	$32, 264(%rsp)
	movq	$0, 268(%rsp)
	movl	$0, 276(%rsp)
	movq	$0, 136(%rsp)
	movq	%rdx, 128(%rsp)
	leaq	128(%rsp), %rdi
	leaq	240(%rsp), %rsi
	callq	"clap::builder::arg::StylizedDisplay::fmt::<#86a172efa8724158>"
	movaps	848(%rsp), %xmm0
	movups	%xmm0, 264(%rsp)
	movq	864(%rsp), %rcx
	movq	%rcx, 280(%rsp)
	testb	%al, %al
	je	134f
	cmpq	$0, 256(%rsp)
	je	132f
	movq	240(%rsp), %rdi
131:
	callq	rattle_dealloc@PLT
132:
	xorps	%xmm0, %xmm0
	movaps	%xmm0, 80(%rsp)
	movq	$0, 96(%rsp)
	movb	$1, (%r12)
	movb	$16, 8(%r12)
	movq	$0, 16(%r12)
	movaps	80(%rsp), %xmm0
	movups	%xmm0, 24(%r12)
	movq	96(%rsp), %rax
133:
	movq	%rax, 40(%r12)
	addq	$1480, %rsp
	popq	%rbx
	popq	%r12
	popq	%r13
	popq	%r14
	popq	%r15
	popq	%rbp
	retq
134:
	movl	%ebx, 72(%rsp)
	movq	240(%rsp), %r10
	movq	248(%rsp), %r9
	movq	256(%rsp), %rbx
	movq	40(%rsp), %rax
	movq	(%rax), %rsi
	movzbl	%r14b, %eax
	leaq	261f(%rip), %rcx
	movslq	(%rcx,%rax,4), %rax
	addq	%rcx, %rax
	jmpq	*%rax
135:
	movq	%rbx, 40(%rsp)
	movzbl	%r15b, %eax
	movq	$1, 960(%rsp)
	movq	%rax, 968(%rsp)
	movq	24(%rsp), %rax
	movq	%rax, 976(%rsp)
	movq	%r13, 984(%rsp)
	movq	%r9, (%rsp)
	leaq	912(%rsp), %rdi
	leaq	960(%rsp), %r8
	movq	48(%rsp), %rdx
	movq	64(%rsp), %rcx
	movq	%r10, %rbx
	movq	%r10, %r9
	callq	"clap::error::Error::invalid_value"
	cmpb	$0, 912(%rsp)
	je	152f
	cmpq	$0, 40(%rsp)
	jne	143f
	jmp	132b
136:
	movq	%r9, 56(%rsp)
	movq	%rbx, 40(%rsp)
	movq	%r10, 32(%rsp)
	movq	%r12, %rbx
	movq	%rsi, 112(%rsp)
	movabsq	$9223372036854775807, %rcx
	movq	%r15, 232(%rsp)
	movq	24(%rsp), %rax
	movq	%rax, 224(%rsp)
	movq	%r13, 216(%rsp)
	xorl	%r15d, %r15d
	cmpq	%rcx, %r13
	leaq	.L0668db01e73d(%rip), %rax
	leaq	.L0a6ea6bc3df4(%rip), %r12
	cmoveq	%rax, %r12
	sete	24(%rsp)
	xorps	%xmm0, %xmm0
	movups	%xmm0, 248(%rsp)
	movl	$0, 297(%rsp)
	movl	$0, 300(%rsp)
	movq	%rbp, 240(%rsp)
	movq	$0, 288(%rsp)
	movb	$0, 296(%rsp)
	movl	$32, 264(%rsp)
	movq	$0, 268(%rsp)
	movl	$0, 276(%rsp)
	movq	$-1, 280(%rsp)
	leaq	240(%rsp), %rdi
	leaq	232(%rsp), %rsi
	callq	"core::fmt::formatter::Formatter::write_piece::<#fec9bc1a24fe1fcf>"
	testb	%al, %al
	movq	64(%rsp), %r14
	jne	215f
	leaq	268(%rsp), %rbp
	movl	$32, 264(%rsp)
	movl	$0, 8(%rbp)
	movq	$0, (%rbp)
	movq	$-1, 280(%rsp)
	cmpq	$0, 288(%rsp)
	jne	237f
	movq	248(%rsp), %rcx
	movq	256(%rsp), %rax
	movq	%rax, %rdx
	subq	%rcx, %rdx
	cmpq	$10, %rdx
	jbe	241f
137:
	leaq	11(%rcx), %rdx
	addq	240(%rsp), %rcx
	leaq	.L98fd8ea9c184(%rip), %rsi
	movq	%rcx, %rdi
	subq	%rsi, %rdi
	movabsq	$2338616625293650208, %rsi
	cmpq	$10, %rdi
	ja	192f
	movq	%rsi, (%rcx)
	movw	$28265, 8(%rcx)
	movb	$32, 10(%rcx)
	jmp	193f
138:
	movq	%rbx, %r15
	leaq	.L75e163a368dc(%rip), %rax
	movq	%rax, (%rsp)
	movq	$23, 8(%rsp)
	leaq	1248(%rsp), %rdi
	movq	48(%rsp), %rdx
	movq	64(%rsp), %rcx
	movq	%r10, %rbx
	movq	%r10, %r8
	callq	"clap::error::Error::value_validation::<#7038ba82785d2ff1>"
	cmpb	$0, 1248(%rsp)
	jne	142f
	movzbl	1256(%rsp), %ebp
	movzbl	1264(%rsp), %r14d
	movups	1272(%rsp), %xmm0
	movaps	%xmm0, 160(%rsp)
	movq	1288(%rsp), %rax
	jmp	154f
139:
	movq	%r9, 56(%rsp)
	movq	%r10, 32(%rsp)
	movq	%rsi, 112(%rsp)
	movl	$7, %edi
	movl	$1, %esi
	callq	rattle_alloc@PLT
	testb	$1, %al
	je	246f
	movq	%rbx, 40(%rsp)
	leaq	.Lc9c10f50e645(%rip), %rax
	movq	%rdx, %rcx
	subq	%rax, %rcx
	movq	%r12, %rbx
	cmpq	$6, %rcx
	ja	160f
	movl	$1869771365, (%rdx)
	movw	$14962, 4(%rdx)
	movb	$32, 6(%rdx)
	jmp	161f
140:
	movq	%rbx, %r15
	testb	$1, 72(%rsp)
	je	147f
	leaq	.L10b3d796d864(%rip), %rax
	movq	%rax, (%rsp)
	movq	$35, 8(%rsp)
	jmp	148f
141:
	movq	%rbx, %r15
	movq	$0, 1440(%rsp)
	movq	%r9, (%rsp)
	leaq	.L22d5119de29e(%rip), %rdx
	leaq	1296(%rsp), %rdi
	leaq	1440(%rsp), %r8
	xorl	%ecx, %ecx
	movq	%r10, %rbx
	movq	%r10, %r9
	callq	"clap::error::Error::invalid_value"
	cmpb	$0, 1296(%rsp)
	je	153f
142:
	testq	%r15, %r15
	je	132b
143:
	movq	%rbx, %rdi
	jmp	131b
144:
	movq	%r9, 56(%rsp)
	movq	%rbx, 40(%rsp)
	movq	%r10, 32(%rsp)
	movq	%r12, %rbx
	movq	%rsi, 112(%rsp)
	movq	%r15, 208(%rsp)
	movq	24(%rsp), %rax
	movq	%rax, 200(%rsp)
	movq	%r13, 192(%rsp)
	xorl	%r15d, %r15d
	cmpq	$-1, %r13
	leaq	.L0668db01e73d(%rip), %rax
	leaq	.L0a6ea6bc3df4(%rip), %r12
	cmoveq	%rax, %r12
	sete	24(%rsp)
	xorps	%xmm0, %xmm0
	movups	%xmm0, 248(%rsp)
	movl	$0, 297(%rsp)
	movl	$0, 300(%rsp)
	movq	%rbp, 240(%rsp)
	movq	$0, 288(%rsp)
	movb	$0, 296(%rsp)
	movl	$32, 264(%rsp)
	movq	$0, 268(%rsp)
	movl	$0, 276(%rsp)
	movq	$-1, 280(%rsp)
	leaq	240(%rsp), %rdi
	leaq	208(%rsp), %rsi
	callq	"core::fmt::formatter::Formatter::write_piece::<#499173829830abb3>"
	testb	%al, %al
	movq	64(%rsp), %r14
	jne	215f
	leaq	268(%rsp), %rbp
	movl	$32, 264(%rsp)
	movl	$0, 8(%rbp)
	movq	$0, (%rbp)
	movq	$-1, 280(%rsp)
	cmpq	$0, 288(%rsp)
	jne	238f
	movq	248(%rsp), %rcx
	movq	256(%rsp), %rax
	movq	%rax, %rdx
	subq	%rcx, %rdx
	cmpq	$10, %rdx
	jbe	242f
145:
	leaq	11(%rcx), %rdx
	addq	240(%rsp), %rcx
	leaq	.L98fd8ea9c184(%rip), %rsi
	movq	%rcx, %rdi
	subq	%rsi, %rdi
	movabsq	$2338616625293650208, %rsi
	cmpq	$10, %rdi
	ja	196f
	movq	%rsi, (%rcx)
	movw	$28265, 8(%rcx)
	movb	$32, 10(%rcx)
	jmp	197f
146:
	movq	%rbx, %r15
	testb	$1, 72(%rsp)
	je	149f
	leaq	.Lafc90defa187(%rip), %rax
	movq	%rax, (%rsp)
	movq	$36, 8(%rsp)
	jmp	150f
147:
	leaq	.L83a8e6e0358f(%rip), %rax
	movq	%rax, (%rsp)
	movq	$29, 8(%rsp)
148:
	leaq	992(%rsp), %rdi
	movq	48(%rsp), %rdx
	movq	64(%rsp), %rcx
	movq	%r10, %rbx
	movq	%r10, %r8
	callq	"clap::error::Error::value_validation::<#7038ba82785d2ff1>"
	cmpb	$0, 992(%rsp)
	movq	%rbx, %rdi
	jne	151f
	movzbl	1000(%rsp), %ebp
	movzbl	1008(%rsp), %r14d
	movups	1016(%rsp), %xmm0
	movaps	%xmm0, 160(%rsp)
	movq	1032(%rsp), %rax
	jmp	156f
149:
	leaq	.L9a6d2b0c00a7(%rip), %rax
	movq	%rax, (%rsp)
	movq	$21, 8(%rsp)
150:
	leaq	1040(%rsp), %rdi
	movq	48(%rsp), %rdx
	movq	64(%rsp), %rcx
	movq	%r10, %rbx
	movq	%r10, %r8
	callq	"clap::error::Error::value_validation::<#7038ba82785d2ff1>"
	cmpb	$0, 1040(%rsp)
	movq	%rbx, %rdi
	je	155f
151:
	testq	%r15, %r15
	jne	131b
	jmp	132b
152:
	movzbl	920(%rsp), %ebp
	movzbl	928(%rsp), %r14d
	movups	936(%rsp), %xmm0
	movaps	%xmm0, 160(%rsp)
	movq	952(%rsp), %rax
	movq	%rax, 176(%rsp)
	movq	%rbx, %rdi
	movq	40(%rsp), %rbx
	jmp	158f
153:
	movzbl	1304(%rsp), %ebp
	movzbl	1312(%rsp), %r14d
	movups	1320(%rsp), %xmm0
	movaps	%xmm0, 160(%rsp)
	movq	1336(%rsp), %rax
154:
	movq	%rax, 176(%rsp)
	movq	%rbx, %rdi
	jmp	157f
155:
	movzbl	1048(%rsp), %ebp
	movzbl	1056(%rsp), %r14d
	movups	1064(%rsp), %xmm0
	movaps	%xmm0, 160(%rsp)
	movq	1080(%rsp), %rax
156:
	movq	%rax, 176(%rsp)
157:
	movq	%r15, %rbx
158:
	testq	%rbx, %rbx
	je	159f
	callq	rattle_dealloc@PLT
159:
	movq	176(%rsp), %rax
	movq	%rax, 96(%rsp)
	movaps	160(%rsp), %xmm0
	movaps	%xmm0, 80(%rsp)
	movzbl	%r14b, %r13d
	movq	96(%rsp), %rax
	movq	%rax, 896(%rsp)
	movaps	80(%rsp), %xmm0
	movaps	%xmm0, 880(%rsp)
	movb	$1, %cl
	jmp	3b
160:
	movl	$540701295, 3(%rdx)
	movl	$1869771365, (%rdx)
161:
	movq	48(%rsp), %rsi
	movq	%rdx, 128(%rsp)
	movq	$7, 136(%rsp)
	movq	$7, 144(%rsp)
	movq	128(%rsp), %rax
	movq	%rax, 240(%rsp)
	movq	136(%rsp), %rax
	movq	%rax, 248(%rsp)
	movq	$7, 256(%rsp)
	xorps	%xmm0, %xmm0
	movaps	%xmm0, 288(%rsp)
	movl	$32, 264(%rsp)
	movq	$0, 268(%rsp)
	movl	$0, 276(%rsp)
	movq	$-1, 280(%rsp)
	movl	$7, %r13d
	movq	248(%rsp), %rax
	movl	$7, %ecx
	subq	%rax, %rcx
	cmpq	$14, %rcx
	movq	64(%rsp), %r14
	jbe	221f
162:
	leaq	268(%rsp), %r12
	movq	240(%rsp), %rbp
	leaq	(%rax,%rbp), %rcx
	addq	$15, %rax
	leaq	.L4a8652ca931c(%rip), %rdx
	movq	%rcx, %rdi
	subq	%rdx, %rdi
	movabsq	$2334106421097295465, %rdx
	cmpq	$14, %rdi
	ja	163f
	movq	%rdx, (%rcx)
	movl	$1970037110, 8(%rcx)
	movw	$8293, 12(%rcx)
	movb	$39, 14(%rcx)
	jmp	164f
163:
	movabsq	$2819364921737836064, %rdi
	movq	%rdi, 7(%rcx)
	movq	%rdx, (%rcx)
164:
	movq	%rax, 248(%rsp)
	movq	%r13, 256(%rsp)
	movl	$32, 264(%rsp)
	movl	$0, 8(%r12)
	movq	$0, (%r12)
	movq	$-1, 280(%rsp)
	cmpq	$0, 288(%rsp)
	jne	222f
	movq	%r13, %rcx
	subq	%rax, %rcx
	cmpq	%rcx, %r14
	ja	227f
165:
	leaq	(%rax,%r14), %r15
	leaq	(%rax,%rbp), %rdi
	movq	%rdi, %rcx
	subq	%rsi, %rcx
	cmpq	%r14, %rcx
	jae	171f
	cmpq	$4, %r14
	movq	32(%rsp), %r10
	movq	56(%rsp), %rdx
	jb	166f
	cmpq	$32, %rcx
	jae	217f
166:
	xorl	%ecx, %ecx
167:
	movq	%r14, %r9
	movq	%rcx, %r11
	andq	$3, %r9
	je	169f
	movq	%rcx, %r11
168:
	movzbl	(%rsi,%r11), %r8d
	movb	%r8b, (%rdi,%r11)
	incq	%r11
	decq	%r9
	jne	168b
169:
	subq	%r14, %rcx
	cmpq	$-4, %rcx
	ja	172f
	addq	%rbp, %rax
	addq	$3, %rax
170:
	movzbl	(%rsi,%r11), %ecx
	movb	%cl, -3(%rax,%r11)
	movzbl	1(%rsi,%r11), %ecx
	movb	%cl, -2(%rax,%r11)
	movzbl	2(%rsi,%r11), %ecx
	movb	%cl, -1(%rax,%r11)
	movzbl	3(%rsi,%r11), %ecx
	movb	%cl, (%rax,%r11)
	addq	$4, %r11
	cmpq	%r11, %r14
	jne	170b
	jmp	172f
171:
	movq	%r14, %rdx
	callq	memmove@PLT
	movq	32(%rsp), %r10
	movq	56(%rsp), %rdx
172:
	movq	%rbp, 240(%rsp)
	movq	%r15, 248(%rsp)
	movq	%r13, 256(%rsp)
173:
	movl	$32, 264(%rsp)
	movl	$0, 8(%r12)
	movq	$0, (%r12)
	movq	$-1, 280(%rsp)
	cmpq	$0, 288(%rsp)
	jne	228f
	movq	248(%rsp), %rcx
	movq	256(%rsp), %rax
	movq	%rax, %rsi
	subq	%rcx, %rsi
	cmpq	$6, %rsi
	jbe	229f
174:
	leaq	7(%rcx), %r8
	addq	240(%rsp), %rcx
	leaq	.L9078467ae595(%rip), %rsi
	movq	%rcx, %rdi
	subq	%rsi, %rdi
	cmpq	$6, %rdi
	ja	175f
	movl	$1868963879, (%rcx)
	movw	$8306, 4(%rcx)
	movb	$39, 6(%rcx)
	jmp	176f
175:
	movl	$656437871, 3(%rcx)
	movl	$1868963879, (%rcx)
176:
	movq	%r8, 248(%rsp)
	movq	%rax, 256(%rsp)
177:
	movl	$32, 264(%rsp)
	movl	$0, 8(%r12)
	movq	$0, (%r12)
	movq	$-1, 280(%rsp)
	cmpq	$0, 288(%rsp)
	jne	230f
	movq	248(%rsp), %rax
	movq	256(%rsp), %r14
	movq	%r14, %rcx
	subq	%rax, %rcx
	cmpq	%rcx, %rdx
	ja	235f
178:
	leaq	(%rax,%rdx), %r15
	movq	240(%rsp), %rcx
	leaq	(%rcx,%rax), %rdi
	movq	%rdi, %rsi
	subq	%r10, %rsi
	cmpq	%rdx, %rsi
	jae	184f
	cmpq	$4, %rdx
	jb	179f
	cmpq	$32, %rsi
	jae	218f
179:
	xorl	%r11d, %r11d
180:
	movq	%rdx, %r8
	movq	%r11, %rsi
	andq	$3, %r8
	je	182f
	movq	%r11, %rsi
181:
	movzbl	(%r10,%rsi), %r9d
	movb	%r9b, (%rdi,%rsi)
	incq	%rsi
	decq	%r8
	jne	181b
182:
	subq	%rdx, %r11
	cmpq	$-4, %r11
	ja	185f
	addq	%rcx, %rax
	addq	$3, %rax
183:
	movzbl	(%r10,%rsi), %ecx
	movb	%cl, -3(%rax,%rsi)
	movzbl	1(%r10,%rsi), %ecx
	movb	%cl, -2(%rax,%rsi)
	movzbl	2(%r10,%rsi), %ecx
	movb	%cl, -1(%rax,%rsi)
	movzbl	3(%r10,%rsi), %ecx
	movb	%cl, (%rax,%rsi)
	addq	$4, %rsi
	cmpq	%rsi, %rdx
	jne	183b
	jmp	185f
184:
	movq	%r10, %rsi
	callq	memmove@PLT
185:
	movq	%r15, 248(%rsp)
	movq	%r14, 256(%rsp)
186:
	movl	$32, 264(%rsp)
	movl	$0, 8(%r12)
	movq	$0, (%r12)
	movq	$-1, 280(%rsp)
	cmpq	$0, 288(%rsp)
	jne	236f
	movq	248(%rsp), %rcx
	movq	256(%rsp), %rax
	movq	%rax, %rdx
	subq	%rcx, %rdx
	cmpq	$2, %rdx
	jbe	239f
187:
	leaq	3(%rcx), %rdx
	addq	240(%rsp), %rcx
	leaq	.Le48613a08e5f(%rip), %rsi
	movq	%rcx, %rdi
	subq	%rsi, %rdi
	cmpq	$2, %rdi
	ja	188f
	movw	$14887, (%rcx)
	movb	$32, 2(%rcx)
	jmp	189f
188:
	movb	$32, 2(%rcx)
	movw	$14887, (%rcx)
189:
	movq	%rdx, 248(%rsp)
	movq	%rax, 256(%rsp)
190:
	movl	$32, 264(%rsp)
	movl	$0, 8(%r12)
	movq	$0, (%r12)
	movq	$-1, 280(%rsp)
	movzbl	72(%rsp), %eax
	shll	$3, %eax
	leaq	".Lswitch.table.clap::parser::parse::Parser::check_value"(%rip), %rcx
	movq	(%rax,%rcx), %rdx
	leaq	".Lswitch.table.clap::parser::parse::Parser::check_value.2666"(%rip), %rcx
	movq	(%rax,%rcx), %rsi
	cmpq	$0, 288(%rsp)
	jne	240f
	movq	248(%rsp), %rcx
	movq	256(%rsp), %r14
	movq	%r14, %rax
	subq	%rcx, %rax
	cmpq	%rax, %rdx
	ja	243f
191:
	leaq	(%rcx,%rdx), %r15
	movq	240(%rsp), %r8
	leaq	(%r8,%rcx), %rdi
	movq	%rdi, %rax
	subq	%rsi, %rax
	cmpq	%rdx, %rax
	jae	200f
	cmpq	$16, %rax
	movq	%rbx, %r12
	jae	201f
	xorl	%r9d, %r9d
	movq	112(%rsp), %rax
	jmp	204f
192:
	movq	%rsi, (%rcx)
	movl	$544106784, 7(%rcx)
193:
	movq	%rdx, 248(%rsp)
	movq	%rax, 256(%rsp)
194:
	leaq	240(%rsp), %rdi
	leaq	224(%rsp), %rsi
	callq	"core::fmt::formatter::Formatter::write_piece::<#fec9bc1a24fe1fcf>"
	testb	%al, %al
	jne	215f
	movzbl	24(%rsp), %eax
	movb	%al, %r15b
	xorq	$3, %r15
	movl	$32, 264(%rsp)
	movl	$0, 8(%rbp)
	movq	$0, (%rbp)
	movq	$-1, 280(%rsp)
	cmpq	$0, 288(%rsp)
	jne	254f
	movq	248(%rsp), %rdi
	movq	256(%rsp), %rbp
	movq	%rbp, %rax
	subq	%rdi, %rax
	cmpq	%rax, %r15
	ja	256f
195:
	leaq	(%rdi,%r15), %rcx
	addq	240(%rsp), %rdi
	movq	%rdi, %rax
	subq	%r12, %rax
	cmpq	%r15, %rax
	jae	209f
	movzbl	(%r12), %eax
	movb	%al, (%rdi)
	movb	$46, 1(%rdi)
	movabsq	$9223372036854775807, %rax
	cmpq	%rax, %r13
	je	210f
	movb	$61, 2(%rdi)
	jmp	210f
196:
	movq	%rsi, (%rcx)
	movl	$544106784, 7(%rcx)
197:
	movq	%rdx, 248(%rsp)
	movq	%rax, 256(%rsp)
198:
	leaq	240(%rsp), %rdi
	leaq	200(%rsp), %rsi
	callq	"core::fmt::formatter::Formatter::write_piece::<#499173829830abb3>"
	testb	%al, %al
	jne	215f
	movzbl	24(%rsp), %eax
	movb	%al, %r15b
	xorq	$3, %r15
	movl	$32, 264(%rsp)
	movl	$0, 8(%rbp)
	movq	$0, (%rbp)
	movq	$-1, 280(%rsp)
	cmpq	$0, 288(%rsp)
	jne	255f
	movq	248(%rsp), %rdi
	movq	256(%rsp), %rbp
	movq	%rbp, %rax
	subq	%rdi, %rax
	cmpq	%rax, %r15
	ja	257f
199:
	leaq	(%rdi,%r15), %rcx
	addq	240(%rsp), %rdi
	movq	%rdi, %rax
	subq	%r12, %rax
	cmpq	%r15, %rax
	jae	212f
	movzbl	(%r12), %eax
	movb	%al, (%rdi)
	movb	$46, 1(%rdi)
	cmpq	$-1, %r13
	je	213f
	movb	$61, 2(%rdi)
	jmp	213f
200:
	callq	memcpy@PLT
	movq	112(%rsp), %rax
	movq	%rbx, %r12
	jmp	207f
201:
	movl	%edx, %r10d
	andl	$48, %r10d
	xorl	%eax, %eax
202:
	movups	(%rsi,%rax), %xmm0
	movups	%xmm0, (%rdi,%rax)
	addq	$16, %rax
	cmpq	%rax, %r10
	jne	202b
	movl	%edx, %r9d
	andl	$60, %r9d
	movq	112(%rsp), %rax
203:
	movl	(%rsi,%r10), %r11d
	movl	%r11d, (%rdi,%r10)
	addq	$4, %r10
	cmpq	%r10, %r9
	jne	203b
	cmpq	%r9, %rdx
	je	207f
204:
	movl	%edx, %r11d
	andl	$3, %r11d
	movq	%r9, %r10
205:
	movzbl	(%rsi,%r10), %ebx
	movb	%bl, (%rdi,%r10)
	incq	%r10
	decq	%r11
	jne	205b
	subq	%rdx, %r9
	cmpq	$-4, %r9
	ja	207f
	addq	%r8, %rcx
	addq	$3, %rcx
206:
	movzbl	(%rsi,%r10), %edi
	movb	%dil, -3(%rcx,%r10)
	movzbl	1(%rsi,%r10), %edi
	movb	%dil, -2(%rcx,%r10)
	movzbl	2(%rsi,%r10), %edi
	movb	%dil, -1(%rcx,%r10)
	movzbl	3(%rsi,%r10), %edi
	movb	%dil, (%rcx,%r10)
	addq	$4, %r10
	cmpq	%r10, %rdx
	jne	206b
207:
	movq	%r15, 248(%rsp)
	movq	240(%rsp), %rcx
	movq	248(%rsp), %rdx
	movq	%r14, 144(%rsp)
	movq	%rcx, 128(%rsp)
	movq	%rdx, 136(%rsp)
	movq	40(%rsp), %rbx
208:
	leaq	128(%rsp), %rdi
	movq	%rax, %rsi
	callq	"clap::error::text::try_help"
	testb	%al, %al
	jne	245f
	movq	144(%rsp), %rax
	movq	%rax, 1360(%rsp)
	movaps	128(%rsp), %xmm0
	movaps	%xmm0, 1344(%rsp)
	movaps	%xmm0, 160(%rsp)
	movq	%rax, 176(%rsp)
	movb	$1, %r14b
	movb	$4, %bpl
	movq	32(%rsp), %rdi
	jmp	158b
209:
	movq	%r12, %rsi
	movq	%r15, %rdx
	movq	%rcx, %r15
	callq	memcpy@PLT
	movq	%r15, %rcx
210:
	movq	%rcx, 248(%rsp)
	movq	%rbp, 256(%rsp)
211:
	leaq	240(%rsp), %rdi
	leaq	216(%rsp), %rsi
	callq	"core::fmt::formatter::Formatter::write_piece::<#fec9bc1a24fe1fcf>"
	testb	%al, %al
	jne	215f
	movq	256(%rsp), %rax
	movq	%rax, 1431(%rsp)
	movups	240(%rsp), %xmm0
	movups	%xmm0, 1415(%rsp)
	movaps	%xmm0, 1120(%rsp)
	movq	%rax, 1136(%rsp)
	leaq	1120(%rsp), %rax
	movq	%rax, (%rsp)
	leaq	1200(%rsp), %rdi
	movq	112(%rsp), %rsi
	movq	48(%rsp), %rdx
	movq	%r14, %rcx
	movq	32(%rsp), %r8
	movq	56(%rsp), %r9
	callq	"clap::error::Error::value_validation::<#46e14f32b5b82833>"
	cmpb	$0, 1200(%rsp)
	jne	220f
	movzbl	1208(%rsp), %ebp
	movzbl	1216(%rsp), %r14d
	movups	1224(%rsp), %xmm0
	movaps	%xmm0, 160(%rsp)
	movq	1240(%rsp), %rax
	jmp	249f
212:
	movq	%r12, %rsi
	movq	%r15, %rdx
	movq	%rcx, %r15
	callq	memcpy@PLT
	movq	%r15, %rcx
213:
	movq	%rcx, 248(%rsp)
	movq	%rbp, 256(%rsp)
214:
	leaq	240(%rsp), %rdi
	leaq	192(%rsp), %rsi
	callq	"core::fmt::formatter::Formatter::write_piece::<#499173829830abb3>"
	testb	%al, %al
	je	219f
215:
	cmpq	$0, 256(%rsp)
	movq	%rbx, %r12
	je	216f
	movq	240(%rsp), %rdi
	callq	rattle_dealloc@PLT
216:
	cmpq	$0, 40(%rsp)
	movq	32(%rsp), %rdi
	jne	131b
	jmp	132b
217:
	cmpq	$32, %r14
	jae	223f
	xorl	%ecx, %ecx
	jmp	225f
218:
	cmpq	$32, %rdx
	jae	231f
	xorl	%r11d, %r11d
	jmp	233f
219:
	movq	256(%rsp), %rax
	movq	%rax, 1399(%rsp)
	movups	240(%rsp), %xmm0
	movups	%xmm0, 1383(%rsp)
	movaps	%xmm0, 1088(%rsp)
	movq	%rax, 1104(%rsp)
	leaq	1088(%rsp), %rax
	movq	%rax, (%rsp)
	leaq	1152(%rsp), %rdi
	movq	112(%rsp), %rsi
	movq	48(%rsp), %rdx
	movq	%r14, %rcx
	movq	32(%rsp), %r8
	movq	56(%rsp), %r9
	callq	"clap::error::Error::value_validation::<#46e14f32b5b82833>"
	cmpb	$0, 1152(%rsp)
	je	248f
220:
	cmpq	$0, 40(%rsp)
	movq	%rbx, %r12
	jne	247f
	jmp	132b
221:
	leaq	240(%rsp), %rdi
	movl	$15, %esi
	callq	"std_alloc::vec::Vec::grow_amortized::<#1d775b5957dec42c>"
	testb	%al, %al
	je	244f
	movq	248(%rsp), %rax
	movq	256(%rsp), %r13
	movq	48(%rsp), %rsi
	jmp	162b
222:
	leaq	240(%rsp), %rdi
	movq	%r14, %rdx
	callq	"core::fmt::formatter::Formatter::write_indented::<#0a7ff941e43d6b30>"
	testb	%al, %al
	movq	32(%rsp), %r10
	movq	56(%rsp), %rdx
	jne	244f
	jmp	173b
223:
	movq	%r14, %rcx
	andq	$-32, %rcx
	leaq	(%rax,%rbp), %r9
	addq	$16, %r9
	xorl	%r8d, %r8d
224:
	movups	(%rsi,%r8), %xmm0
	movups	16(%rsi,%r8), %xmm1
	movups	%xmm0, -16(%r9,%r8)
	movups	%xmm1, (%r9,%r8)
	addq	$32, %r8
	cmpq	%r8, %rcx
	jne	224b
	cmpq	%rcx, %r14
	je	172b
	testb	$28, %r14b
	je	167b
225:
	movq	%rcx, %r9
	movq	%r14, %rcx
	andq	$-4, %rcx
226:
	movl	(%rsi,%r9), %r8d
	movl	%r8d, (%rdi,%r9)
	addq	$4, %r9
	cmpq	%r9, %rcx
	jne	226b
	cmpq	%rcx, %r14
	je	172b
	jmp	167b
227:
	leaq	240(%rsp), %rdi
	movq	%r14, %rsi
	callq	"std_alloc::vec::Vec::grow_amortized::<#1d775b5957dec42c>"
	testb	%al, %al
	je	244f
	movq	240(%rsp), %rbp
	movq	248(%rsp), %rax
	movq	256(%rsp), %r13
	movq	48(%rsp), %rsi
	jmp	165b
228:
	leaq	.L9078467ae595(%rip), %rsi
	leaq	240(%rsp), %rdi
	movl	$7, %edx
	callq	"core::fmt::formatter::Formatter::write_indented::<#0a7ff941e43d6b30>"
	movq	56(%rsp), %rdx
	movq	32(%rsp), %r10
	testb	%al, %al
	jne	244f
	jmp	177b
229:
	leaq	240(%rsp), %rdi
	movl	$7, %esi
	callq	"std_alloc::vec::Vec::grow_amortized::<#1d775b5957dec42c>"
	movq	56(%rsp), %rdx
	movq	32(%rsp), %r10
	testb	%al, %al
	je	244f
	movq	248(%rsp), %rcx
	movq	256(%rsp), %rax
	jmp	174b
230:
	leaq	240(%rsp), %rdi
	movq	%r10, %rsi
	callq	"core::fmt::formatter::Formatter::write_indented::<#0a7ff941e43d6b30>"
	testb	%al, %al
	jne	244f
	jmp	186b
231:
	movq	%rdx, %r11
	andq	$-32, %r11
	leaq	(%rax,%rcx), %rsi
	addq	$16, %rsi
	xorl	%r8d, %r8d
232:
	movups	(%r10,%r8), %xmm0
	movups	16(%r10,%r8), %xmm1
	movups	%xmm0, -16(%rsi,%r8)
	movups	%xmm1, (%rsi,%r8)
	addq	$32, %r8
	cmpq	%r8, %r11
	jne	232b
	cmpq	%r11, %rdx
	je	185b
	testb	$28, %dl
	je	180b
233:
	movq	%r11, %rsi
	movq	%rdx, %r11
	andq	$-4, %r11
234:
	movl	(%r10,%rsi), %r8d
	movl	%r8d, (%rdi,%rsi)
	addq	$4, %rsi
	cmpq	%rsi, %r11
	jne	234b
	cmpq	%r11, %rdx
	je	185b
	jmp	180b
235:
	leaq	240(%rsp), %rdi
	movq	%rdx, %rsi
	callq	"std_alloc::vec::Vec::grow_amortized::<#1d775b5957dec42c>"
	movq	56(%rsp), %rdx
	movq	32(%rsp), %r10
	testb	%al, %al
	je	244f
	movq	248(%rsp), %rax
	movq	256(%rsp), %r14
	jmp	178b
236:
	leaq	.Le48613a08e5f(%rip), %rsi
	leaq	240(%rsp), %rdi
	movl	$3, %edx
	callq	"core::fmt::formatter::Formatter::write_indented::<#0a7ff941e43d6b30>"
	testb	%al, %al
	jne	244f
	jmp	190b
237:
	leaq	.L98fd8ea9c184(%rip), %rsi
	leaq	240(%rsp), %rdi
	movl	$11, %edx
	callq	"core::fmt::formatter::Formatter::write_indented::<#0a7ff941e43d6b30>"
	testb	%al, %al
	jne	215b
	jmp	194b
238:
	leaq	.L98fd8ea9c184(%rip), %rsi
	leaq	240(%rsp), %rdi
	movl	$11, %edx
	callq	"core::fmt::formatter::Formatter::write_indented::<#0a7ff941e43d6b30>"
	testb	%al, %al
	jne	215b
	jmp	198b
239:
	leaq	240(%rsp), %rdi
	movl	$3, %esi
	callq	"std_alloc::vec::Vec::grow_amortized::<#1d775b5957dec42c>"
	testb	%al, %al
	je	244f
	movq	248(%rsp), %rcx
	movq	256(%rsp), %rax
	jmp	187b
240:
	leaq	240(%rsp), %rdi
	callq	"core::fmt::formatter::Formatter::write_indented::<#0a7ff941e43d6b30>"
	movq	256(%rsp), %rcx
	movq	%rcx, 864(%rsp)
	movaps	240(%rsp), %xmm0
	movaps	%xmm0, 128(%rsp)
	movq	%rcx, 144(%rsp)
	testb	%al, %al
	movq	112(%rsp), %rax
	movq	%rbx, %r12
	movq	40(%rsp), %rbx
	jne	245f
	jmp	208b
241:
	leaq	240(%rsp), %rdi
	movl	$11, %esi
	callq	"std_alloc::vec::Vec::grow_amortized::<#1d775b5957dec42c>"
	testb	%al, %al
	je	215b
	movq	248(%rsp), %rcx
	movq	256(%rsp), %rax
	jmp	137b
242:
	leaq	240(%rsp), %rdi
	movl	$11, %esi
	callq	"std_alloc::vec::Vec::grow_amortized::<#1d775b5957dec42c>"
	testb	%al, %al
	je	215b
	movq	248(%rsp), %rcx
	movq	256(%rsp), %rax
	jmp	145b
243:
	movq	%rsi, %r15
	leaq	240(%rsp), %rdi
	movq	%rdx, %r12
	movq	%rdx, %rsi
	callq	"std_alloc::vec::Vec::grow_amortized::<#1d775b5957dec42c>"
	testb	%al, %al
	je	244f
	movq	248(%rsp), %rcx
	movq	256(%rsp), %r14
	movq	%r12, %rdx
	movq	%r15, %rsi
	jmp	191b
244:
	movq	256(%rsp), %rax
	movaps	240(%rsp), %xmm0
	movaps	%xmm0, 128(%rsp)
	movq	%rax, 144(%rsp)
	movq	%rbx, %r12
	movq	40(%rsp), %rbx
245:
	cmpq	$0, 144(%rsp)
	je	246f
	movq	128(%rsp), %rdi
	callq	rattle_dealloc@PLT
246:
	testq	%rbx, %rbx
	je	132b
247:
	movq	32(%rsp), %rdi
	jmp	131b
248:
	movzbl	1160(%rsp), %ebp
	movzbl	1168(%rsp), %r14d
	movups	1176(%rsp), %xmm0
	movaps	%xmm0, 160(%rsp)
	movq	1192(%rsp), %rax
249:
	movq	%rax, 176(%rsp)
	movq	%rbx, %r12
	movq	32(%rsp), %rdi
	movq	40(%rsp), %rbx
	jmp	158b
250:
	movq	%r9, %r15
	movq	24(%rsp), %rbp
	jmp	252f
251:
	movq	%r12, %r11
	movq	%rbp, %r15
252:
	cmpq	%rbp, %rdi
	jae	253f
	cmpb	$45, (%rsi,%rdi)
	sete	%r12b
	jmp	119b
253:
	xorl	%r12d, %r12d
	jmp	119b
254:
	leaq	240(%rsp), %rdi
	movq	%r12, %rsi
	movq	%r15, %rdx
	callq	"core::fmt::formatter::Formatter::write_indented::<#0a7ff941e43d6b30>"
	testb	%al, %al
	jne	215b
	jmp	211b
255:
	leaq	240(%rsp), %rdi
	movq	%r12, %rsi
	movq	%r15, %rdx
	callq	"core::fmt::formatter::Formatter::write_indented::<#0a7ff941e43d6b30>"
	testb	%al, %al
	jne	215b
	jmp	214b
256:
	leaq	240(%rsp), %rdi
	movq	%r15, %rsi
	callq	"std_alloc::vec::Vec::grow_amortized::<#1d775b5957dec42c>"
	testb	%al, %al
	je	215b
	movq	248(%rsp), %rdi
	movq	256(%rsp), %rbp
	jmp	195b
257:
	leaq	240(%rsp), %rdi
	movq	%r15, %rsi
	callq	"std_alloc::vec::Vec::grow_amortized::<#1d775b5957dec42c>"
	testb	%al, %al
	je	215b
	movq	248(%rsp), %rdi
	movq	256(%rsp), %rbp
	jmp	199b
258:
	.size	"clap::parser::parse::Parser::check_value", 258b-"clap::parser::parse::Parser::check_value"
	.section	.rodata,"a",@progbits
	.p2align	2, 0x0
259:
	.long	1b-259b
	.long	7b-259b
	.long	8b-259b
	.long	4b-259b
	.long	1b-259b
	.long	10b-259b
	.long	12b-259b
	.long	9b-259b
	.long	22b-259b
	.long	6b-259b
	.long	14b-259b
260:
	.long	5b-260b
	.long	67b-260b
	.long	64b-260b
	.long	65b-260b
	.long	63b-260b
261:
	.long	135b-261b
	.long	141b-261b
	.long	138b-261b
	.long	139b-261b
	.long	136b-261b
	.long	144b-261b
	.long	146b-261b
	.long	140b-261b

	.text
	.p2align	4
	.type	"clap::parser::parse::Parser::count_use",@function
"clap::parser::parse::Parser::count_use":
	pushq	%rbp
	pushq	%r15
	pushq	%r14
	pushq	%r13
	pushq	%r12
	pushq	%rbx
	subq	$312, %rsp
	movq	%rcx, %r14
	movq	%rdx, %r15
	movq	%rsi, %rbx
	movq	%rdi, %rbp
	xorps	%xmm0, %xmm0
	movaps	%xmm0, 160(%rsp)
	movaps	%xmm0, 144(%rsp)
	movaps	%xmm0, 128(%rsp)
	movaps	%xmm0, 208(%rsp)
	movaps	%xmm0, 224(%rsp)
	movaps	%xmm0, 240(%rsp)
	movq	(%rdx), %r13
	movq	8(%rdx), %rcx
	testq	%r8, %r8
	je	1f
	movq	%r8, %r12
	movq	%r9, %rdi
	movq	%r13, %rsi
	movq	%rcx, %rdx
	movq	%r9, %r13
	callq	"clap::parser::matcher::ArgMatcher::remove"
	leaq	128(%rsp), %rdi
	movq	%rbx, %rsi
	movq	%r15, %rdx
	movq	%r14, %rcx
	movq	%r12, %r8
	movq	%r13, %r9
	callq	"clap::parser::parse::Parser::add_values"
	movzbl	128(%rsp), %eax
	movb	%al, (%rbp)
	movzbl	136(%rsp), %eax
	movb	%al, 8(%rbp)
	movzbl	144(%rsp), %eax
	movq	%rax, 16(%rbp)
	movups	152(%rsp), %xmm0
	movups	%xmm0, 24(%rbp)
	movq	168(%rsp), %rax
	movq	%rax, 40(%rbp)
	jmp	10f
1:
	movq	%rbp, 8(%rsp)
	movq	%rbx, 24(%rsp)
	movq	(%r9), %rdi
	movq	%r9, 16(%rsp)
	movq	8(%r9), %rsi
	movq	%r13, %rdx
	movq	%rcx, %rbx
	callq	"clap::parser::matches::Found::get"
	cmpb	$1, %al
	jne	2f
	cmpb	$1, 80(%rdx)
	movq	16(%rsp), %r12
	jne	3f
	movzbl	81(%rdx), %eax
	jmp	5f
2:
	xorl	%eax, %eax
	movq	16(%rsp), %r12
	jmp	5f
3:
	cmpq	$0, 40(%rdx)
	je	4f
	movq	32(%rdx), %rax
	movq	8(%rax), %rcx
	testq	%rcx, %rcx
	je	4f
	movq	(%rax), %rdx
	cmpb	$43, (%rdx)
	jne	23f
	cmpq	$1, %rcx
	jne	25f
4:
	xorl	%eax, %eax
5:
	incb	%al
	movzbl	%al, %eax
	movl	$255, %r14d
	cmovnel	%eax, %r14d
	movq	%r12, %rdi
	movq	%r13, %rsi
	movq	%rbx, %rdx
	callq	"clap::parser::matcher::ArgMatcher::remove"
	movzbl	%r14b, %r13d
	cmpb	$100, %r13b
	movl	$3, %eax
	sbbq	$0, %rax
	cmpb	$10, %r13b
	movl	$1, %ebp
	cmovaeq	%rax, %rbp
	leaq	(,%r13,2), %rax
	addq	%r13, %rax
	subq	%rbp, %rax
	leaq	.L78868f2a1a13(%rip), %rcx
	leaq	(%rax,%rcx), %r14
	addq	$19, %r14
	leaq	208(%rsp), %rdi
	movq	24(%rsp), %rbx
	movq	%rbx, %rsi
	movq	%r15, %rdx
	movq	%r14, %rcx
	movq	%rbp, %r8
	callq	"clap::parser::parse::Parser::check_value"
	cmpb	$1, 208(%rsp)
	jne	8f
	movzbl	216(%rsp), %eax
	movb	%al, 32(%rsp)
	movzbl	224(%rsp), %r14d
	movq	232(%rsp), %rbp
	movq	248(%rsp), %r13
	movaps	240(%rsp), %xmm0
	movaps	%xmm0, 176(%rsp)
	movq	%rbx, %rdi
	movq	%r15, %rsi
	movq	%r12, %rdx
	callq	"clap::parser::parse::Parser::remove_overrides"
	testb	%al, %al
	jne	6f
	movq	(%r15), %rsi
	movq	8(%r15), %rdx
	movzbl	606(%r15), %ecx
	movq	%r12, %rdi
	xorl	%r8d, %r8d
	callq	"clap::parser::matcher::ArgMatcher::start"
	testb	%al, %al
	jne	6f
	movq	24(%rsp), %rdi
	movq	%r15, %rsi
	movq	%r12, %rdx
	callq	"clap::parser::parse::Parser::add_to_groups"
	testb	%al, %al
	je	17f
6:
	cmpl	$1, %r14d
	jne	9f
	testq	%r13, %r13
	je	9f
	movq	%rbp, %rdi
7:
	callq	rattle_dealloc@PLT
	jmp	9f
8:
	movq	%rbx, %rdi
	movq	%r15, %rsi
	movq	%r12, %rdx
	callq	"clap::parser::parse::Parser::remove_overrides"
	testb	%al, %al
	je	11f
9:
	movq	8(%rsp), %rax
	movb	$1, (%rax)
	movb	$16, 8(%rax)
	xorps	%xmm0, %xmm0
	movups	%xmm0, 16(%rax)
	movups	%xmm0, 32(%rax)
10:
	addq	$312, %rsp
	popq	%rbx
	popq	%r12
	popq	%r13
	popq	%r14
	popq	%r15
	popq	%rbp
	retq
11:
	movq	96(%r12), %rax
	incq	%rax
	movq	$-1, %rbx
	cmovneq	%rax, %rbx
	movq	%rbx, 96(%r12)
	movq	(%r15), %rdx
	movq	8(%r15), %rcx
	movq	(%r12), %rax
	movq	8(%r12), %rsi
	movq	%rax, %r12
	movq	%rax, %rdi
	callq	"clap::parser::matcher::ArgMatcher::place"
	cmpb	$1, %al
	jne	12f
	imulq	$104, %rdx, %rax
	leaq	(%r12,%rax), %rdi
	addq	$16, %rdi
	movl	%r13d, %esi
	movq	%r14, %rdx
	movq	%rbp, %rcx
	movq	%rbx, %r8
	callq	"clap::parser::matches::MatchedArg::add_count"
	testb	%al, %al
	movq	16(%rsp), %rdx
	movq	24(%rsp), %rdi
	jne	9b
	jmp	20f
12:
	movzbl	606(%r15), %eax
	cmpb	$1, 512(%r15)
	jne	13f
	movzbl	520(%r15), %ecx
	leaq	35f(%rip), %rdx
	movslq	(%rdx,%rcx,4), %rcx
	addq	%rdx, %rcx
	jmpq	*%rcx
13:
	xorl	%ecx, %ecx
14:
	movq	$0, 40(%rsp)
	movq	%rsp, %rdx
	movq	%rdx, 48(%rsp)
	xorps	%xmm0, %xmm0
	movups	%xmm0, 56(%rsp)
	movq	%rdx, 72(%rsp)
	movups	%xmm0, 80(%rsp)
	movq	%rdx, 96(%rsp)
	movups	%xmm0, 104(%rsp)
	movw	$0, 120(%rsp)
	movb	%al, 122(%rsp)
	movb	$0, 123(%rsp)
	movl	%ecx, 124(%rsp)
	leaq	40(%rsp), %rdi
	movl	%r13d, %esi
	movq	%r14, %rdx
	movq	%rbp, %rcx
	movq	%rbx, %r8
	callq	"clap::parser::matches::MatchedArg::add_count"
	testb	%al, %al
	je	18f
	cmpq	$0, 64(%rsp)
	je	15f
	movq	48(%rsp), %rdi
	callq	rattle_dealloc@PLT
15:
	cmpq	$0, 88(%rsp)
	je	16f
	movq	72(%rsp), %rdi
	callq	rattle_dealloc@PLT
16:
	cmpq	$0, 112(%rsp)
	je	9b
	movq	96(%rsp), %rdi
	jmp	7b
17:
	movq	%rbp, 152(%rsp)
	movaps	176(%rsp), %xmm0
	movaps	%xmm0, 160(%rsp)
	movq	8(%rsp), %rcx
	movb	$1, (%rcx)
	movzbl	32(%rsp), %eax
	movb	%al, 8(%rcx)
	movq	%r14, 16(%rcx)
	movq	152(%rsp), %rax
	movq	%rax, 24(%rcx)
	movq	160(%rsp), %rax
	movq	%rax, 32(%rcx)
	movq	168(%rsp), %rax
	movq	%rax, 40(%rcx)
	jmp	10b
18:
	movq	40(%rsp), %r14
	movq	48(%rsp), %rbp
	movq	64(%rsp), %rdi
	movups	56(%rsp), %xmm1
	movq	72(%rsp), %r13
	movq	88(%rsp), %rsi
	movups	80(%rsp), %xmm2
	movq	96(%rsp), %rbx
	movq	112(%rsp), %rcx
	movups	104(%rsp), %xmm3
	movq	120(%rsp), %r12
	movups	(%r15), %xmm0
	movaps	%xmm0, 288(%rsp)
	movq	16(%rsp), %rdx
	movq	8(%rdx), %rax
	cmpq	%rax, 16(%rdx)
	je	30f
19:
	movq	(%rdx), %rcx
	imulq	$104, %rax, %rsi
	movaps	288(%rsp), %xmm0
	movups	%xmm0, (%rcx,%rsi)
	movq	%r14, 16(%rcx,%rsi)
	movq	%rbp, 24(%rcx,%rsi)
	movups	%xmm1, 32(%rcx,%rsi)
	movq	%r13, 48(%rcx,%rsi)
	movups	%xmm2, 56(%rcx,%rsi)
	movq	%rbx, 72(%rcx,%rsi)
	movups	%xmm3, 80(%rcx,%rsi)
	movq	%r12, 96(%rcx,%rsi)
	incq	%rax
	movq	%rax, 8(%rdx)
	movq	24(%rsp), %rdi
20:
	movq	%r15, %rsi
	callq	"clap::parser::parse::Parser::add_to_groups"
	movq	8(%rsp), %rdx
	leaq	16(%rdx), %rcx
	testb	%al, %al
	je	21f
	movb	$1, (%rdx)
	movb	$16, 8(%rdx)
	jmp	22f
21:
	movb	$0, (%rdx)
	movb	$0, 8(%rdx)
22:
	xorps	%xmm0, %xmm0
	movups	%xmm0, 16(%rcx)
	movups	%xmm0, (%rcx)
	jmp	10b
23:
	xorl	%eax, %eax
	xorl	%esi, %esi
24:
	movzbl	(%rdx,%rsi), %r9d
	leal	-48(%r9), %r8d
	cmpb	$9, %r8b
	ja	4b
	addq	%rax, %rax
	leaq	(%rax,%rax,4), %r8
	andl	$15, %r9d
	movq	%r9, %rax
	addq	%r8, %rax
	jb	4b
	cmpq	$255, %rax
	ja	4b
	incq	%rsi
	cmpq	%rsi, %rcx
	jne	24b
	jmp	5b
25:
	movl	$1, %esi
	xorl	%eax, %eax
26:
	movzbl	(%rdx,%rsi), %r9d
	leal	-48(%r9), %r8d
	cmpb	$9, %r8b
	ja	4b
	addq	%rax, %rax
	leaq	(%rax,%rax,4), %r8
	andl	$15, %r9d
	movq	%r9, %rax
	addq	%r8, %rax
	jb	4b
	cmpq	$255, %rax
	ja	4b
	incq	%rsi
	cmpq	%rsi, %rcx
	jne	26b
	jmp	5b
27:
	movl	$3, %ecx
	jmp	14b
28:
	movl	$1, %ecx
	cmpq	$0, 528(%r15)
	jns	14b
	jmp	13b
29:
	movl	$2, %ecx
	jmp	14b
30:
	movq	%rdi, 192(%rsp)
	movq	%rsi, 200(%rsp)
	movaps	%xmm3, 256(%rsp)
	movaps	%xmm2, 272(%rsp)
	movaps	%xmm1, 176(%rsp)
	movq	%rcx, 32(%rsp)
	movq	%rdx, %rdi
	callq	"std_alloc::vec::Vec::grow_amortized::<#3b6d026ce996fc29>"
	testb	%al, %al
	je	31f
	movq	16(%rsp), %rdx
	movq	8(%rdx), %rax
	movaps	176(%rsp), %xmm1
	movaps	272(%rsp), %xmm2
	movaps	256(%rsp), %xmm3
	jmp	19b
31:
	cmpq	$0, 192(%rsp)
	je	32f
	movq	%rbp, %rdi
	callq	rattle_dealloc@PLT
32:
	cmpq	$0, 200(%rsp)
	je	33f
	movq	%r13, %rdi
	callq	rattle_dealloc@PLT
33:
	cmpq	$0, 32(%rsp)
	je	9b
	movq	%rbx, %rdi
	jmp	7b
34:
	.size	"clap::parser::parse::Parser::count_use", 34b-"clap::parser::parse::Parser::count_use"
	.section	.rodata,"a",@progbits
	.p2align	2, 0x0
35:
	.long	13b-35b
	.long	13b-35b
	.long	13b-35b
	.long	29b-35b
	.long	27b-35b
	.long	28b-35b
	.long	13b-35b
	.long	13b-35b
	.long	13b-35b
	.long	13b-35b
	.long	13b-35b

	.text
	.p2align	4
	.type	"clap::parser::parse::Parser::get_matches_with",@function
"clap::parser::parse::Parser::get_matches_with":
	pushq	%rbp
	pushq	%r15
	pushq	%r14
	pushq	%r13
	pushq	%r12
	pushq	%rbx
	subq	$936, %rsp
	movq	%r9, %r12
	movq	%r8, %rbp
	movq	%rcx, %rbx
	movq	%rdx, %r15
	movq	%rsi, %r14
	movq	%rdi, %r13
	movq	992(%rsp), %r9
	movl	$0, 187(%rsp)
	movl	$0, 184(%rsp)
	pxor	%xmm0, %xmm0
	movdqa	%xmm0, 672(%rsp)
	movdqa	%xmm0, 688(%rsp)
	movdqa	%xmm0, 704(%rsp)
	movdqa	%xmm0, 720(%rsp)
	movq	$0, 736(%rsp)
	movl	$0, 24(%rsp)
	movl	$0, 27(%rsp)
	movdqa	%xmm0, 864(%rsp)
	movdqa	%xmm0, 880(%rsp)
	movdqa	%xmm0, 896(%rsp)
	movl	$0, 96(%rsp)
	movl	$0, 99(%rsp)
	movdqa	%xmm0, 848(%rsp)
	movdqa	%xmm0, 832(%rsp)
	movdqa	%xmm0, 816(%rsp)
	leaq	672(%rsp), %rdi
	movq	%rcx, %rdx
	movq	%r8, %rcx
	movq	%r12, %r8
	callq	"clap::parser::parse::Parser::parse"
	movzbl	680(%rsp), %eax
	movq	688(%rsp), %rdx
	cmpb	$0, 672(%rsp)
	je	1f
	movzbl	712(%rsp), %ecx
	movzbl	%dl, %edx
	movq	$1, (%r13)
	movb	%al, 8(%r13)
	movq	%rdx, 16(%r13)
	movdqu	696(%rsp), %xmm0
	movdqu	%xmm0, 24(%r13)
	movb	%cl, 40(%r13)
	movl	713(%rsp), %eax
	movl	716(%rsp), %ecx
	jmp	84f
1:
	movq	%r14, 88(%rsp)
	movq	%rbx, 64(%rsp)
	movq	696(%rsp), %rcx
	movq	704(%rsp), %r8
	movzbl	712(%rsp), %ebx
	movzbl	720(%rsp), %esi
	movq	728(%rsp), %r14
	movq	736(%rsp), %rdi
	pxor	%xmm0, %xmm0
	movdqa	%xmm0, 112(%rsp)
	movdqa	%xmm0, 128(%rsp)
	movdqa	%xmm0, 144(%rsp)
	movdqa	%xmm0, 240(%rsp)
	movdqa	%xmm0, 256(%rsp)
	movdqa	%xmm0, 272(%rsp)
	movdqa	%xmm0, 288(%rsp)
	movdqa	%xmm0, 304(%rsp)
	movdqa	%xmm0, 320(%rsp)
	movdqa	%xmm0, 336(%rsp)
	movdqa	%xmm0, 352(%rsp)
	movdqa	%xmm0, 368(%rsp)
	movdqu	%xmm0, 383(%rsp)
	movdqa	%xmm0, 224(%rsp)
	movdqa	%xmm0, 208(%rsp)
	movdqa	%xmm0, 192(%rsp)
	movq	$0, 408(%rsp)
	movdqa	%xmm0, 912(%rsp)
	movdqa	%xmm0, 592(%rsp)
	movdqa	%xmm0, 576(%rsp)
	movdqa	%xmm0, 560(%rsp)
	movdqa	%xmm0, 544(%rsp)
	movdqa	%xmm0, 784(%rsp)
	movdqa	%xmm0, 768(%rsp)
	movdqa	%xmm0, 752(%rsp)
	movq	$0, 800(%rsp)
	movdqa	%xmm0, 640(%rsp)
	movdqa	%xmm0, 624(%rsp)
	movdqa	%xmm0, 608(%rsp)
	movq	$0, 656(%rsp)
	cmpb	$1, %al
	movq	%r13, 32(%rsp)
	jne	9f
	cmpb	$1, %sil
	jne	6f
	movq	%rdi, 48(%rsp)
	movq	%rcx, 176(%rsp)
	movq	%rdx, 104(%rsp)
	movdqu	%xmm0, 520(%rsp)
	movdqu	%xmm0, 504(%rsp)
	movdqu	%xmm0, 488(%rsp)
	movdqu	%xmm0, 472(%rsp)
	movdqu	%xmm0, 456(%rsp)
	movdqu	%xmm0, 440(%rsp)
	movdqu	%xmm0, 424(%rsp)
	movq	$0, 536(%rsp)
	leaq	16(%rsp), %rax
	movq	%rax, 416(%rsp)
	leaq	.L22d5119de29e(%rip), %rsi
	leaq	416(%rsp), %rdi
	xorl	%edx, %edx
	xorl	%ecx, %ecx
	movl	$1, %r8d
	callq	"clap::parser::matcher::ArgMatcher::start"
	testb	%al, %al
	je	52f
	movq	416(%rsp), %rax
	movq	%rax, 48(%rsp)
	movq	424(%rsp), %r13
	movq	432(%rsp), %rax
	movq	%rax, 40(%rsp)
	testq	%r13, %r13
	je	53f
	movq	48(%rsp), %rax
	leaq	88(%rax), %rbp
	jmp	3f
	.p2align	4
2:
	addq	$104, %rbp
	decq	%r13
	je	53f
3:
	movq	-40(%rbp), %r12
	movq	-24(%rbp), %r14
	movq	-16(%rbp), %r15
	movq	(%rbp), %rbx
	cmpq	$0, -48(%rbp)
	je	4f
	movq	-64(%rbp), %rdi
	callq	rattle_dealloc@PLT
4:
	testq	%r14, %r14
	je	5f
	movq	%r12, %rdi
	callq	rattle_dealloc@PLT
5:
	testq	%rbx, %rbx
	je	2b
	movq	%r15, %rdi
	callq	rattle_dealloc@PLT
	jmp	2b
6:
	testq	%r15, %r15
	je	9f
	movq	%r8, %r14
	movq	88(%rsp), %rax
	movq	(%rax), %rax
	movq	600(%rax), %rdi
	movq	608(%rax), %rsi
	callq	"clap::builder::command::Command::find_subcommand"
	cmpb	$1, %al
	jne	9f
	leaq	16(%rsp), %rax
	movq	%rax, 240(%rsp)
	pxor	%xmm0, %xmm0
	movdqu	%xmm0, 248(%rsp)
	movdqu	%xmm0, 264(%rsp)
	movdqu	%xmm0, 280(%rsp)
	movdqu	%xmm0, 296(%rsp)
	movdqu	%xmm0, 312(%rsp)
	movdqu	%xmm0, 328(%rsp)
	movdqu	%xmm0, 344(%rsp)
	movq	$0, 360(%rsp)
	testb	$1, %bl
	je	7f
	movq	64(%rsp), %rcx
	movq	96(%rcx), %rax
	movq	%rax, 336(%rsp)
	movzbl	104(%rcx), %eax
	movq	%rax, 344(%rsp)
	movdqu	112(%rcx), %xmm0
	movdqa	%xmm0, 352(%rsp)
7:
	movq	%rdx, 48(%rsp)
	movq	%rdx, 408(%rsp)
	decq	%r15
	movq	%r14, (%rsp)
	leaq	192(%rsp), %rdi
	leaq	408(%rsp), %rsi
	leaq	240(%rsp), %rcx
	movq	%r15, %rdx
	movq	%rbp, %r8
	movq	%r12, %r9
	callq	"clap::parser::parse::Parser::get_matches_with"
	movzbl	200(%rsp), %eax
	movq	208(%rsp), %rbx
	cmpb	$0, 192(%rsp)
	je	65f
	movq	%rax, %r14
	movzbl	%bl, %ebx
	movq	232(%rsp), %rax
	movq	%rax, 152(%rsp)
	movups	216(%rsp), %xmm0
	movups	%xmm0, 136(%rsp)
	leaq	240(%rsp), %rdi
	callq	"std_alloc::vec::Vec::drop::<#f750efd44e124a3d>"
	cmpb	$1, 264(%rsp)
	jne	8f
	cmpq	$0, 312(%rsp)
	je	8f
	movq	296(%rsp), %rdi
	callq	rattle_dealloc@PLT
8:
	movdqu	136(%rsp), %xmm0
	movzbl	152(%rsp), %eax
	movl	233(%rsp), %ecx
	movl	236(%rsp), %edx
	movl	%ecx, 24(%rsp)
	movl	%edx, 27(%rsp)
	movq	%rbx, %rdx
	movq	%r14, %rsi
	jmp	83f
9:
	movl	$0, 27(%rsp)
	movl	$0, 24(%rsp)
	xorl	%esi, %esi
	xorl	%edx, %edx
10:
	movq	64(%rsp), %r12
11:
	movq	%rsi, 80(%rsp)
	movq	%rdx, 72(%rsp)
	leaq	864(%rsp), %rdi
	movq	88(%rsp), %r14
	movq	%r14, %rsi
	movq	%r12, %rdx
	callq	"clap::parser::parse::Parser::resolve_pending"
	cmpb	$0, 864(%rsp)
	je	12f
	movzbl	872(%rsp), %ebx
	movzbl	880(%rsp), %r15d
	movdqu	888(%rsp), %xmm0
	movzbl	904(%rsp), %ebp
	leaq	905(%rsp), %r14
	cmpb	$1, 80(%rsp)
	jne	61f
	movq	72(%rsp), %rdi
	jmp	60f
12:
	movl	$0, 195(%rsp)
	movl	$0, 192(%rsp)
	movq	(%r14), %rsi
	movq	584(%rsi), %rcx
	testq	%rcx, %rcx
	je	58f
	movq	576(%rsi), %r15
	xorl	%eax, %eax
	movq	%rcx, 176(%rsp)
	movq	%r15, 168(%rsp)
	jmp	15f
	.p2align	4
13:
	movl	$0, 195(%rsp)
	movl	$0, 192(%rsp)
	movq	40(%rsp), %rax
	movq	32(%rsp), %r13
	movq	%r14, %r12
	movq	%rbx, %rcx
14:
	incq	%rax
	cmpq	%rcx, %rax
	je	57f
15:
	movq	%rcx, %rbx
	movq	%rax, 40(%rsp)
	imulq	$608, %rax, %rbp
	movl	$0, 115(%rsp)
	movl	$0, 112(%rsp)
	movq	(%r15,%rbp), %rdx
	movq	8(%r15,%rbp), %rcx
	movq	(%r12), %rdi
	movq	%r12, %r14
	movq	8(%r12), %rsi
	movq	%rdi, %r13
	movq	%rsi, %r12
	callq	"clap::parser::matcher::ArgMatcher::place"
	cmpb	$1, %al
	je	13b
	addq	%r15, %rbp
	pxor	%xmm0, %xmm0
	movdqa	%xmm0, 240(%rsp)
	movq	$0, 256(%rsp)
	movq	%rbp, 104(%rsp)
	movq	392(%rbp), %rax
	movq	%rax, 48(%rsp)
	testq	%rax, %rax
	je	35f
	movq	%r13, %rbp
	movq	104(%rsp), %rax
	movq	384(%rax), %r15
	xorl	%r13d, %r13d
	jmp	18f
	.p2align	4
16:
	callq	"clap::parser::matcher::ArgMatcher::place"
	testb	$1, %al
	jne	36f
17:
	incq	%r13
	cmpq	48(%rsp), %r13
	je	35f
18:
	movq	%r13, %rbx
	shlq	$6, %rbx
	cmpb	$0, 16(%r15,%rbx)
	movq	(%r15,%rbx), %rdx
	movq	8(%r15,%rbx), %rcx
	movq	%rbp, %rdi
	movq	%r12, %rsi
	je	16b
	callq	"clap::parser::matches::Found::get"
	cmpb	$1, %al
	jne	17b
	movq	40(%rdx), %rax
	testq	%rax, %rax
	je	17b
	movq	32(%r15,%rbx), %rsi
	leaq	-8(%rsi), %rcx
	leaq	-16(%rsi), %r8
	cmpq	$32, %r8
	movl	$32, %r9d
	cmovbq	%r8, %r9
	cmpq	$8, %rcx
	movl	$8, %r10d
	cmovbq	%rcx, %r10
	cmpq	$16, %rcx
	movl	$16, %r11d
	cmovbq	%rcx, %r11
	movq	24(%r15,%rbx), %rdi
	movq	%rsi, %r14
	movq	32(%rdx), %rcx
	subq	$8, %r14
	jae	21f
	cmpq	$4, %rsi
	jb	24f
	addq	$8, %rcx
	jmp	20f
	.p2align	4
19:
	decq	%rax
	addq	$16, %rcx
	testq	%rax, %rax
	je	17b
20:
	cmpq	%rsi, (%rcx)
	jne	19b
	movq	-8(%rcx), %rdx
	movl	(%rdx), %r8d
	movl	-4(%rdx,%rsi), %edx
	shlq	$32, %rdx
	orq	%r8, %rdx
	movl	(%rdi), %r8d
	movl	-4(%rdi,%rsi), %r9d
	shlq	$32, %r9
	orq	%r8, %r9
	cmpq	%r9, %rdx
	jne	19b
	jmp	36f
21:
	cmpq	$32, %rsi
	ja	27f
	addq	$8, %rcx
	jmp	23f
	.p2align	4
22:
	decq	%rax
	addq	$16, %rcx
	testq	%rax, %rax
	je	17b
23:
	cmpq	%rsi, (%rcx)
	jne	22b
	movq	-8(%rcx), %rdx
	movq	(%rdx), %r8
	cmpq	(%rdi), %r8
	jne	22b
	movq	(%rdi,%r10), %r8
	cmpq	%r8, (%rdx,%r10)
	jne	22b
	movq	(%rdi,%r11), %r8
	cmpq	%r8, (%rdx,%r11)
	jne	22b
	movq	(%rdi,%r14), %r8
	cmpq	%r8, (%rdx,%r14)
	jne	22b
	jmp	36f
24:
	testq	%rsi, %rsi
	je	33f
	movq	%rsi, %rdx
	shrq	%rdx
	addq	$8, %rcx
	jmp	26f
	.p2align	4
25:
	decq	%rax
	addq	$16, %rcx
	testq	%rax, %rax
	je	17b
26:
	cmpq	%rsi, (%rcx)
	jne	25b
	movq	-8(%rcx), %r8
	movzbl	(%r8), %r9d
	movzbl	(%r8,%rdx), %r10d
	shll	$16, %r9d
	shll	$8, %r10d
	orl	%r9d, %r10d
	movzbl	-1(%r8,%rsi), %r8d
	orl	%r10d, %r8d
	movzbl	(%rdi), %r9d
	movzbl	(%rdi,%rdx), %r10d
	shll	$16, %r9d
	shll	$8, %r10d
	orl	%r9d, %r10d
	movzbl	-1(%rdi,%rsi), %r9d
	orl	%r10d, %r9d
	cmpl	%r9d, %r8d
	jne	25b
	jmp	36f
27:
	cmpq	$65, %rsi
	jae	29f
	addq	$8, %rcx
	jmp	32f
	.p2align	4
28:
	addq	$16, %rcx
	decq	%rax
	je	17b
29:
	cmpq	%rsi, 8(%rcx)
	jne	28b
	movq	(%rcx), %rdx
	xorl	%r8d, %r8d
	movq	%rsi, %r9
	.p2align	4
30:
	movdqu	(%rdx,%r8), %xmm0
	movdqu	16(%rdx,%r8), %xmm1
	movdqu	32(%rdx,%r8), %xmm2
	movdqu	48(%rdx,%r8), %xmm3
	movdqu	(%rdi,%r8), %xmm4
	pcmpeqb	%xmm0, %xmm4
	movdqu	16(%rdi,%r8), %xmm0
	pcmpeqb	%xmm1, %xmm0
	pand	%xmm4, %xmm0
	movdqu	32(%rdi,%r8), %xmm1
	pcmpeqb	%xmm2, %xmm1
	movdqu	48(%rdi,%r8), %xmm2
	pcmpeqb	%xmm3, %xmm2
	pand	%xmm1, %xmm2
	pand	%xmm0, %xmm2
	pmovmskb	%xmm2, %r10d
	cmpl	$65535, %r10d
	jne	28b
	addq	$64, %r8
	addq	$-64, %r9
	cmpq	$65, %r9
	jae	30b
	movdqu	-64(%rdx,%rsi), %xmm0
	movdqu	-48(%rdx,%rsi), %xmm1
	movdqu	-32(%rdx,%rsi), %xmm2
	movdqu	-16(%rdx,%rsi), %xmm3
	movdqu	-64(%rdi,%rsi), %xmm4
	pcmpeqb	%xmm0, %xmm4
	movdqu	-48(%rdi,%rsi), %xmm0
	pcmpeqb	%xmm1, %xmm0
	pand	%xmm4, %xmm0
	movdqu	-32(%rdi,%rsi), %xmm1
	pcmpeqb	%xmm2, %xmm1
	movdqu	-16(%rdi,%rsi), %xmm2
	pcmpeqb	%xmm3, %xmm2
	pand	%xmm1, %xmm2
	pand	%xmm0, %xmm2
	pmovmskb	%xmm2, %edx
	cmpl	$65535, %edx
	jne	28b
	jmp	36f
	.p2align	4
31:
	decq	%rax
	addq	$16, %rcx
	testq	%rax, %rax
	je	17b
32:
	cmpq	%rsi, (%rcx)
	jne	31b
	movq	-8(%rcx), %rdx
	movdqu	(%rdx), %xmm0
	movdqu	16(%rdx), %xmm1
	movdqu	(%rdi), %xmm2
	pcmpeqb	%xmm0, %xmm2
	movdqu	16(%rdi), %xmm0
	pcmpeqb	%xmm1, %xmm0
	pand	%xmm2, %xmm0
	movdqu	(%rdx,%r9), %xmm1
	movdqu	(%rdi,%r9), %xmm2
	pcmpeqb	%xmm1, %xmm2
	movdqu	(%rdx,%r8), %xmm1
	movdqu	(%rdi,%r8), %xmm3
	pcmpeqb	%xmm1, %xmm3
	pand	%xmm2, %xmm3
	pand	%xmm0, %xmm3
	pmovmskb	%xmm3, %edx
	cmpl	$65535, %edx
	jne	31b
	jmp	36f
33:
	addq	$8, %rcx
	.p2align	4
34:
	cmpq	$0, (%rcx)
	je	36f
	addq	$16, %rcx
	decq	%rax
	jne	34b
	jmp	17b
	.p2align	4
35:
	movq	104(%rsp), %rcx
	cmpb	$0, 336(%rcx)
	je	38f
	movq	352(%rcx), %r15
	testq	%r15, %r15
	movq	64(%rsp), %r12
	jne	39f
	movq	32(%rsp), %r13
	jmp	37f
	.p2align	4
36:
	cmpb	$1, 40(%r15,%rbx)
	je	42f
	movq	32(%rsp), %r13
	movq	64(%rsp), %r12
37:
	movl	$0, 195(%rsp)
	movl	$0, 192(%rsp)
	movq	176(%rsp), %rcx
	movq	168(%rsp), %r15
	movq	40(%rsp), %rax
	jmp	14b
38:
	leaq	16(%rsp), %rax
	movq	%rax, 240(%rsp)
	pxor	%xmm0, %xmm0
	leaq	248(%rsp), %rax
	movdqu	%xmm0, (%rax)
	leaq	344(%rcx), %rbp
	movl	$1, %r15d
	jmp	40f
39:
	leaq	16(%rsp), %rax
	movq	%rax, 240(%rsp)
	pxor	%xmm0, %xmm0
	leaq	248(%rsp), %rax
	movdqu	%xmm0, (%rax)
	movq	344(%rcx), %rbp
40:
	leaq	240(%rsp), %rdi
	movq	%r15, %rsi
	callq	"std_alloc::vec::Vec::grow_amortized::<#3af3ba23e56e6a09>"
	movq	256(%rsp), %rbx
	testb	%al, %al
	je	94f
	movq	240(%rsp), %r12
	movq	248(%rsp), %r13
	movq	%r13, %rcx
	shlq	$4, %rcx
	leaq	(%r12,%rcx), %rdi
	movq	%r15, %rdx
	shlq	$4, %rdx
	movq	%rdi, %rax
	subq	%rbp, %rax
	cmpq	%rdx, %rax
	jae	41f
	movl	%r15d, %eax
	andl	$7, %eax
	cmpq	$8, %r15
	jae	43f
	xorl	%edx, %edx
	jmp	45f
41:
	movq	%rbp, %rsi
	callq	memmove@PLT
	jmp	47f
42:
	movq	48(%r15,%rbx), %r14
	movq	56(%r15,%rbx), %rbx
	leaq	16(%rsp), %rax
	movq	%rax, 416(%rsp)
	pxor	%xmm0, %xmm0
	leaq	424(%rsp), %rax
	movdqu	%xmm0, (%rax)
	leaq	416(%rsp), %rdi
	movl	$1, %esi
	callq	"std_alloc::vec::Vec::grow_amortized::<#3af3ba23e56e6a09>"
	testb	%al, %al
	je	102f
	movq	416(%rsp), %r12
	movq	424(%rsp), %r13
	movq	%r13, %rax
	shlq	$4, %rax
	movq	%r14, (%r12,%rax)
	movq	%rbx, 8(%r12,%rax)
	incq	%r13
	movq	432(%rsp), %rbx
	jmp	48f
43:
	movq	%r15, %rsi
	andq	$-8, %rsi
	movl	$112, %r8d
	xorl	%edx, %edx
	.p2align	4
44:
	movups	-112(%rbp,%r8), %xmm0
	movups	%xmm0, -112(%rdi,%r8)
	movups	-96(%rbp,%r8), %xmm0
	movups	%xmm0, -96(%rdi,%r8)
	movups	-80(%rbp,%r8), %xmm0
	movups	%xmm0, -80(%rdi,%r8)
	movups	-64(%rbp,%r8), %xmm0
	movups	%xmm0, -64(%rdi,%r8)
	movups	-48(%rbp,%r8), %xmm0
	movups	%xmm0, -48(%rdi,%r8)
	movups	-32(%rbp,%r8), %xmm0
	movups	%xmm0, -32(%rdi,%r8)
	movups	-16(%rbp,%r8), %xmm0
	movups	%xmm0, -16(%rdi,%r8)
	movdqu	(%rbp,%r8), %xmm0
	movdqu	%xmm0, (%rdi,%r8)
	addq	$8, %rdx
	subq	$-128, %r8
	cmpq	%rdx, %rsi
	jne	44b
	testq	%rax, %rax
	je	47f
45:
	shlq	$4, %rdx
	addq	%rdx, %rbp
	addq	%rcx, %rdx
	addq	%r12, %rdx
	shll	$4, %eax
	xorl	%ecx, %ecx
	.p2align	4
46:
	movdqu	(%rbp,%rcx), %xmm0
	movdqu	%xmm0, (%rdx,%rcx)
	addq	$16, %rcx
	cmpq	%rcx, %rax
	jne	46b
47:
	addq	%r15, %r13
48:
	pxor	%xmm0, %xmm0
	movdqa	%xmm0, 416(%rsp)
	movdqa	%xmm0, 432(%rsp)
	movdqa	%xmm0, 448(%rsp)
	movq	$0, 464(%rsp)
	movdqa	%xmm0, 544(%rsp)
	movdqa	%xmm0, 560(%rsp)
	xorl	%eax, %eax
	movq	104(%rsp), %rbp
	cmpb	$1, 504(%rbp)
	movzbl	505(%rbp), %edx
	cmovnel	%eax, %edx
	leaq	416(%rsp), %rdi
	movq	88(%rsp), %rsi
	xorl	%ecx, %ecx
	xorl	%r8d, %r8d
	callq	"clap::parser::parse::Parser::request_error"
	cmpb	$0, 416(%rsp)
	jne	91f
	cmpb	$1, 424(%rsp)
	je	92f
	movq	%r12, 752(%rsp)
	movq	%r13, 760(%rsp)
	movq	%rbx, 768(%rsp)
	leaq	544(%rsp), %rdi
	leaq	752(%rsp), %rcx
	movq	88(%rsp), %rsi
	movq	%rbp, %rdx
	xorl	%r8d, %r8d
	xorl	%r9d, %r9d
	callq	"clap::parser::parse::Parser::split_values"
	cmpb	$0, 544(%rsp)
	jne	97f
	movq	552(%rsp), %r15
	movq	560(%rsp), %r12
	movq	568(%rsp), %r13
	pxor	%xmm0, %xmm0
	movdqa	%xmm0, 272(%rsp)
	movdqa	%xmm0, 256(%rsp)
	movdqa	%xmm0, 240(%rsp)
	testq	%r12, %r12
	je	50f
	leaq	8(%r15), %rbx
	movq	%r12, %r14
	.p2align	4
49:
	movq	-8(%rbx), %rcx
	movq	(%rbx), %r8
	leaq	240(%rsp), %rdi
	movq	88(%rsp), %rsi
	movq	%rbp, %rdx
	callq	"clap::parser::parse::Parser::check_value"
	cmpb	$0, 240(%rsp)
	jne	63f
	addq	$16, %rbx
	decq	%r14
	jne	49b
50:
	movq	64(%rsp), %rdi
	movq	%rdi, %rbx
	movq	%rbp, %rsi
	xorl	%edx, %edx
	movq	%r15, %rcx
	movq	%r12, %r8
	callq	"clap::parser::matcher::ArgMatcher::add_use"
	testb	%al, %al
	jne	95f
	testq	%r13, %r13
	je	51f
	movq	%r15, %rdi
	callq	rattle_dealloc@PLT
51:
	movl	$0, 192(%rsp)
	movl	$0, 195(%rsp)
	movq	32(%rsp), %r13
	movq	176(%rsp), %rcx
	movq	168(%rsp), %r15
	movq	40(%rsp), %rax
	movq	%rbx, %r12
	jmp	14b
52:
	movq	416(%rsp), %rax
	movq	%rax, 40(%rsp)
	movq	424(%rsp), %rbx
	movq	48(%rsp), %rsi
	testq	%rsi, %rsi
	je	73f
	testq	%rbx, %rbx
	je	73f
	movq	40(%rsp), %rax
	leaq	99(%rax), %rdi
	xorl	%ebp, %ebp
	jmp	70f
53:
	cmpq	$0, 40(%rsp)
	movq	32(%rsp), %r13
	je	54f
	movq	48(%rsp), %rdi
	callq	rattle_dealloc@PLT
54:
	cmpb	$1, 440(%rsp)
	jne	56f
55:
	cmpq	$0, 488(%rsp)
	je	56f
	movq	472(%rsp), %rdi
	callq	rattle_dealloc@PLT
56:
	pxor	%xmm0, %xmm0
	movdqu	%xmm0, 383(%rsp)
	movdqa	%xmm0, 368(%rsp)
	jmp	82f
57:
	movq	%r12, %rdx
	movq	88(%rsp), %rax
	movq	(%rax), %rsi
	jmp	59f
58:
	movq	%r12, %rdx
59:
	movq	80(%rsp), %r12
	movzbl	%r12b, %ecx
	leaq	816(%rsp), %rdi
	callq	"clap::parser::validator::validate"
	cmpb	$0, 816(%rsp)
	je	62f
	movzbl	824(%rsp), %ebx
	movzbl	832(%rsp), %r15d
	movdqu	840(%rsp), %xmm0
	movzbl	856(%rsp), %ebp
	leaq	857(%rsp), %r14
	cmpb	$1, %r12b
	movq	72(%rsp), %rdi
	jne	61f
60:
	movdqa	%xmm0, 48(%rsp)
	callq	"std_alloc::boxed::Box::drop::<#d2a52521aa2f4aea>"
	movdqa	48(%rsp), %xmm0
61:
	movq	$1, (%r13)
	movb	%bl, 8(%r13)
	movq	%r15, 16(%r13)
	movdqu	%xmm0, 24(%r13)
	movb	%bpl, 40(%r13)
	movl	(%r14), %eax
	movl	3(%r14), %ecx
	jmp	84f
62:
	movq	$0, (%r13)
	movb	%r12b, 8(%r13)
	movq	72(%rsp), %rax
	movq	%rax, 16(%r13)
	pxor	%xmm0, %xmm0
	movdqu	%xmm0, 24(%r13)
	movb	$0, 40(%r13)
	movl	184(%rsp), %eax
	movl	187(%rsp), %ecx
	jmp	84f
63:
	movzbl	248(%rsp), %ebp
	movzbl	256(%rsp), %r14d
	movdqu	264(%rsp), %xmm0
	movzbl	280(%rsp), %ebx
	movl	281(%rsp), %eax
	movl	%eax, 608(%rsp)
	movl	284(%rsp), %eax
	movl	%eax, 611(%rsp)
	testq	%r13, %r13
	je	64f
	movq	%r15, %rdi
	movdqa	%xmm0, 48(%rsp)
	callq	rattle_dealloc@PLT
	movdqa	48(%rsp), %xmm0
64:
	movl	608(%rsp), %eax
	movl	611(%rsp), %ecx
	movl	%ecx, 115(%rsp)
	movl	%eax, 112(%rsp)
	jmp	98f
65:
	movzbl	%al, %r15d
	movq	48(%rsp), %rax
	movups	(%rax), %xmm0
	movaps	%xmm0, 912(%rsp)
	cmpb	$1, 264(%rsp)
	jne	66f
	cmpq	$0, 312(%rsp)
	je	66f
	movq	296(%rsp), %rdi
	callq	rattle_dealloc@PLT
66:
	movaps	912(%rsp), %xmm0
	movaps	%xmm0, 752(%rsp)
	movdqa	240(%rsp), %xmm0
	movdqa	%xmm0, 768(%rsp)
	movq	256(%rsp), %rax
	movq	%rax, 784(%rsp)
	movq	%r15, 792(%rsp)
	movq	%rbx, 800(%rsp)
	leaq	544(%rsp), %rdi
	leaq	752(%rsp), %rsi
	callq	"std_alloc::boxed::Box::new::<#d806f75603876adb>"
	movq	552(%rsp), %rdx
	cmpb	$0, 544(%rsp)
	je	90f
	movq	600(%rsp), %rax
	movzbl	592(%rsp), %ecx
	movq	560(%rsp), %rsi
	movq	%rdx, 608(%rsp)
	movq	%rsi, 616(%rsp)
	movups	568(%rsp), %xmm0
	movaps	%xmm0, 624(%rsp)
	movq	584(%rsp), %rdx
	movq	%rdx, 640(%rsp)
	movq	%rcx, 648(%rsp)
	movq	%rax, 656(%rsp)
	leaq	112(%rsp), %rdi
	leaq	608(%rsp), %rsi
	callq	"core::result::ResultFromResidualErrResidual::from_residual::<#5c597c011e3a171b>"
	movzbl	120(%rsp), %esi
	movq	128(%rsp), %rdx
	movdqu	136(%rsp), %xmm0
	movzbl	152(%rsp), %eax
	movl	153(%rsp), %ecx
	movl	%ecx, 24(%rsp)
	movl	156(%rsp), %ecx
	movl	%ecx, 27(%rsp)
	cmpb	$0, 112(%rsp)
	movq	64(%rsp), %r12
	jne	83f
	jmp	11b
67:
	movq	-43(%r15), %rax
	movq	48(%rsp), %rsi
	movq	168(%rsp), %rdi
68:
	movq	-51(%r15), %rcx
	movq	%rax, %rdx
	shlq	$4, %rdx
	movq	%r12, (%rcx,%rdx)
	movq	%r13, 8(%rcx,%rdx)
	incq	%rax
	movq	%rax, -43(%r15)
69:
	incq	%rbp
	cmpq	%rsi, %rbp
	je	73f
70:
	movq	%rbp, %rax
	shlq	$4, %rax
	movq	(%r14,%rax), %r12
	movq	8(%r14,%rax), %r13
	movq	%rdi, %r15
	movq	%rbx, %rax
	.p2align	4
71:
	cmpq	$0, -91(%r15)
	je	72f
	addq	$104, %r15
	decq	%rax
	jne	71b
	jmp	69b
	.p2align	4
72:
	cmpb	$1, (%r15)
	jne	69b
	movq	-43(%r15), %rax
	cmpq	%rax, -35(%r15)
	jne	68b
	movq	%rdi, 168(%rsp)
	leaq	-51(%r15), %rdi
	movl	$1, %esi
	callq	"std_alloc::vec::Vec::grow_amortized::<#3af3ba23e56e6a09>"
	testb	%al, %al
	jne	67b
	movq	432(%rsp), %rax
	movq	%rax, 48(%rsp)
	movq	40(%rsp), %rax
	leaq	88(%rax), %r13
	jmp	87f
73:
	movq	432(%rsp), %r14
	cmpb	$1, 440(%rsp)
	jne	74f
	cmpq	$0, 488(%rsp)
	je	74f
	movq	472(%rsp), %rdi
	callq	rattle_dealloc@PLT
74:
	movl	$56, %edi
	movl	$8, %esi
	callq	rattle_alloc@PLT
	testb	$1, %al
	je	75f
	movq	104(%rsp), %rax
	movq	%rax, (%rdx)
	movq	176(%rsp), %rax
	movq	%rax, 8(%rdx)
	movq	40(%rsp), %rax
	movq	%rax, 16(%rdx)
	movq	%rbx, 24(%rdx)
	movq	%r14, 32(%rdx)
	pxor	%xmm0, %xmm0
	movdqu	%xmm0, 40(%rdx)
	movq	$0, 112(%rsp)
	movl	$0, 24(%rsp)
	movl	$0, 27(%rsp)
	movb	$1, %sil
	movq	32(%rsp), %r13
	jmp	10b
75:
	movq	%r14, 48(%rsp)
	testq	%rbx, %rbx
	je	80f
	movq	40(%rsp), %rax
	leaq	88(%rax), %r12
	jmp	77f
	.p2align	4
76:
	addq	$104, %r12
	decq	%rbx
	je	80f
77:
	movq	-40(%r12), %r15
	movq	-24(%r12), %rbp
	movq	-16(%r12), %r14
	movq	(%r12), %r13
	cmpq	$0, -48(%r12)
	je	78f
	movq	-64(%r12), %rdi
	callq	rattle_dealloc@PLT
78:
	testq	%rbp, %rbp
	je	79f
	movq	%r15, %rdi
	callq	rattle_dealloc@PLT
79:
	testq	%r13, %r13
	je	76b
	movq	%r14, %rdi
	callq	rattle_dealloc@PLT
	jmp	76b
80:
	cmpq	$0, 48(%rsp)
	je	81f
	movq	40(%rsp), %rdi
	callq	rattle_dealloc@PLT
81:
	pxor	%xmm0, %xmm0
	movdqu	%xmm0, 383(%rsp)
	movdqa	%xmm0, 368(%rsp)
	movq	32(%rsp), %r13
82:
	movups	375(%rsp), %xmm0
	movups	%xmm0, 136(%rsp)
	movq	391(%rsp), %rax
	movq	%rax, 152(%rsp)
	movdqu	136(%rsp), %xmm0
	movl	392(%rsp), %ecx
	movl	%ecx, 24(%rsp)
	movl	395(%rsp), %ecx
	movl	%ecx, 27(%rsp)
	movb	$16, %sil
	xorl	%edx, %edx
83:
	movzbl	%dl, %ecx
	movq	$1, (%r13)
	movb	%sil, 8(%r13)
	movq	%rcx, 16(%r13)
	movdqu	%xmm0, 24(%r13)
	movb	%al, 40(%r13)
	movl	24(%rsp), %eax
	movl	27(%rsp), %ecx
84:
	movl	%eax, 41(%r13)
	movl	%ecx, 44(%r13)
85:
	addq	$936, %rsp
	popq	%rbx
	popq	%r12
	popq	%r13
	popq	%r14
	popq	%r15
	popq	%rbp
	retq
86:
	addq	$104, %r13
	decq	%rbx
	je	105f
87:
	movq	-40(%r13), %r15
	movq	-24(%r13), %r12
	movq	-16(%r13), %r14
	movq	(%r13), %rbp
	cmpq	$0, -48(%r13)
	je	88f
	movq	-64(%r13), %rdi
	callq	rattle_dealloc@PLT
88:
	testq	%r12, %r12
	je	89f
	movq	%r15, %rdi
	callq	rattle_dealloc@PLT
89:
	testq	%rbp, %rbp
	je	86b
	movq	%r14, %rdi
	callq	rattle_dealloc@PLT
	jmp	86b
90:
	movq	$0, 112(%rsp)
	movq	$1, 120(%rsp)
	movl	$0, 24(%rsp)
	movl	$0, 27(%rsp)
	movb	$1, %sil
	jmp	10b
91:
	testq	%rbx, %rbx
	je	97f
	movq	%r12, %rdi
	jmp	96f
92:
	movzbl	440(%rsp), %r14d
	movzbl	432(%rsp), %ebp
	testq	%rbx, %rbx
	movq	32(%rsp), %r15
	je	93f
	movq	%r12, %rdi
	callq	rattle_dealloc@PLT
93:
	movdqa	448(%rsp), %xmm0
	movzbl	464(%rsp), %ebx
	movl	465(%rsp), %eax
	movl	%eax, 112(%rsp)
	movl	468(%rsp), %eax
	movl	%eax, 115(%rsp)
	jmp	99f
94:
	testq	%rbx, %rbx
	je	104f
	movq	240(%rsp), %rdi
	jmp	103f
95:
	testq	%r13, %r13
	je	97f
	movq	%r15, %rdi
96:
	callq	rattle_dealloc@PLT
97:
	movl	$0, 115(%rsp)
	movl	$0, 112(%rsp)
	pxor	%xmm0, %xmm0
	movb	$16, %bpl
	xorl	%ebx, %ebx
	xorl	%r14d, %r14d
98:
	movq	32(%rsp), %r15
99:
	movq	72(%rsp), %rdi
	movq	80(%rsp), %rdx
	movl	112(%rsp), %eax
	movl	115(%rsp), %ecx
	movl	%eax, 192(%rsp)
	movl	%ecx, 195(%rsp)
	movzbl	%r14b, %r14d
100:
	movl	192(%rsp), %eax
	movl	195(%rsp), %ecx
	movl	%ecx, 99(%rsp)
	movl	%eax, 96(%rsp)
	cmpb	$1, %dl
	jne	101f
	movdqa	%xmm0, 48(%rsp)
	callq	"std_alloc::boxed::Box::drop::<#d2a52521aa2f4aea>"
	movdqa	48(%rsp), %xmm0
101:
	movq	$1, (%r15)
	movb	%bpl, 8(%r15)
	movq	%r14, 16(%r15)
	movdqu	%xmm0, 24(%r15)
	movb	%bl, 40(%r15)
	movl	96(%rsp), %eax
	movl	99(%rsp), %ecx
	movl	%eax, 41(%r15)
	movl	%ecx, 44(%r15)
	jmp	85b
102:
	cmpq	$0, 432(%rsp)
	je	104f
	movq	416(%rsp), %rdi
103:
	callq	rattle_dealloc@PLT
104:
	movl	$0, 192(%rsp)
	movl	$0, 195(%rsp)
	pxor	%xmm0, %xmm0
	movb	$16, %bpl
	xorl	%ebx, %ebx
	xorl	%r14d, %r14d
	movq	32(%rsp), %r15
	movq	72(%rsp), %rdi
	movq	80(%rsp), %rdx
	jmp	100b
105:
	cmpq	$0, 48(%rsp)
	je	106f
	movq	40(%rsp), %rdi
	callq	rattle_dealloc@PLT
106:
	cmpb	$1, 440(%rsp)
	movq	32(%rsp), %r13
	je	55b
	jmp	56b
107:
	.size	"clap::parser::parse::Parser::get_matches_with", 107b-"clap::parser::parse::Parser::get_matches_with"

	.text
	.p2align	4
	.type	"clap::parser::parse::Parser::match_arg_error",@function
"clap::parser::parse::Parser::match_arg_error":
	pushq	%rbp
	pushq	%r15
	pushq	%r14
	pushq	%r13
	pushq	%r12
	pushq	%rbx
	subq	$520, %rsp
	movl	%r9d, %ebx
	movl	%r8d, %ebp
	movq	%rcx, %r15
	movq	%rdx, %r14
	movq	%rsi, %r13
	movq	%rdi, %r12
	xorps	%xmm0, %xmm0
	movaps	%xmm0, 144(%rsp)
	movaps	%xmm0, 128(%rsp)
	movaps	%xmm0, 112(%rsp)
	movaps	%xmm0, 432(%rsp)
	movq	$0, 448(%rsp)
	movaps	%xmm0, 400(%rsp)
	movaps	%xmm0, 416(%rsp)
	movaps	%xmm0, 336(%rsp)
	movq	$0, 352(%rsp)
	movaps	%xmm0, 304(%rsp)
	movq	$0, 320(%rsp)
	movaps	%xmm0, 272(%rsp)
	movq	$0, 288(%rsp)
	movaps	%xmm0, 496(%rsp)
	movaps	%xmm0, 480(%rsp)
	movaps	%xmm0, 464(%rsp)
	movaps	%xmm0, 240(%rsp)
	movq	$0, 256(%rsp)
	movq	(%rsi), %rsi
	movaps	%xmm0, 160(%rsp)
	movaps	%xmm0, 176(%rsp)
	movaps	%xmm0, 64(%rsp)
	movq	$0, 80(%rsp)
	leaq	160(%rsp), %rdi
	leaq	32(%rsp), %rdx
	leaq	64(%rsp), %r8
	xorl	%ecx, %ecx
	callq	"clap::output::usage::with_title"
	cmpb	$0, 160(%rsp)
	je	2f
1:
	movb	$1, (%r12)
	movb	$0, 8(%r12)
	xorps	%xmm0, %xmm0
	movups	%xmm0, 16(%r12)
	movups	%xmm0, 32(%r12)
	jmp	47f
2:
	movq	%r14, 56(%rsp)
	movq	%r15, 40(%rsp)
	movq	168(%rsp), %r15
	movq	176(%rsp), %rax
	movq	%rax, 216(%rsp)
	movq	184(%rsp), %rax
	movq	%rax, 48(%rsp)
	movq	(%r13), %rsi
	testb	%bl, %bl
	movq	%r13, %r8
	je	3f
	movq	%r8, %rbx
	movzbl	%bpl, %r8d
	leaq	432(%rsp), %rdi
	movq	56(%rsp), %rdx
	movq	40(%rsp), %rcx
	callq	"clap::parser::parse::Parser::possible_subcommand"
	cmpb	$1, 432(%rsp)
	jne	7f
	movq	(%rbx), %r14
	xorps	%xmm0, %xmm0
	movaps	%xmm0, 368(%rsp)
	movq	$0, 384(%rsp)
	movl	$7, %edi
	movl	$1, %esi
	callq	rattle_alloc@PLT
	testb	$1, %al
	je	25f
	leaq	.Lc9c10f50e645(%rip), %rax
	movq	%rdx, %rcx
	subq	%rax, %rcx
	cmpq	$6, %rcx
	ja	22f
	movl	$1869771365, (%rdx)
	movw	$14962, 4(%rdx)
	movb	$32, 6(%rdx)
	jmp	23f
3:
	movq	584(%rsi), %rax
	movl	$488, %ecx
	addq	576(%rsi), %rcx
	incq	%rax
	.p2align	4
4:
	decq	%rax
	je	5f
	cmpb	$1, (%rcx)
	leaq	608(%rcx), %rcx
	jne	4b
	leaq	160(%rsp), %rdi
	movq	56(%rsp), %rsi
	movq	40(%rsp), %rdx
	movq	%r8, %rbx
	callq	"clap::parser::lexer::to_long"
	movq	%rbx, %r8
	testb	$1, 160(%rsp)
	movb	$1, %cl
	jne	6f
	leaq	160(%rsp), %rdi
	movq	56(%rsp), %rsi
	movq	40(%rsp), %rdx
	callq	"clap::parser::lexer::to_short"
	movq	%rbx, %r8
	movzbl	160(%rsp), %ecx
	movq	(%r8), %rsi
	movq	608(%rsi), %r13
	testq	%r13, %r13
	jne	8f
	jmp	42f
5:
	xorl	%ecx, %ecx
6:
	movq	(%r8), %rsi
	movq	608(%rsi), %r13
	testq	%r13, %r13
	jne	8f
	jmp	42f
7:
	xorl	%ecx, %ecx
	movq	%rbx, %r8
	movq	(%r8), %rsi
	movq	608(%rsi), %r13
	testq	%r13, %r13
	je	42f
8:
	testb	%bpl, %bpl
	je	9f
	cmpb	$0, 664(%rsi)
	je	9f
	movq	576(%rsp), %rax
	movq	(%rax), %rdx
	movq	8(%rax), %rcx
	leaq	400(%rsp), %rdi
	movq	%r8, %rsi
	movq	%r8, %r13
	callq	"clap::parser::parse::Parser::used_text"
	cmpb	$0, 400(%rsp)
	je	17f
	cmpq	$0, 48(%rsp)
	je	1b
	movq	%r15, %rdi
	callq	rattle_dealloc@PLT
	jmp	1b
9:
	movl	%ecx, 100(%rsp)
	movq	%r8, 224(%rsp)
	movq	%r15, 104(%rsp)
	movq	%r12, 232(%rsp)
	movq	600(%rsi), %r14
	leaq	32(%rsp), %rbp
	movq	%rbp, 160(%rsp)
	xorps	%xmm0, %xmm0
	movups	%xmm0, 168(%rsp)
	xorl	%ebx, %ebx
	movq	56(%rsp), %r12
	jmp	11f
10:
	incq	%rbx
	movq	%rbp, %r13
	cmpq	%rbp, %rbx
	je	29f
11:
	imulq	$672, %rbx, %r15
	movq	(%r14,%r15), %rcx
	movq	8(%r14,%r15), %r8
	leaq	160(%rsp), %rdi
	movq	%r12, %rsi
	movq	40(%rsp), %rdx
	callq	"clap::parser::suggestions::add_candidate"
	testb	%al, %al
	jne	13f
	movq	%r13, %rbp
	movq	368(%r14,%r15), %r13
	testq	%r13, %r13
	je	10b
	movq	360(%r14,%r15), %r15
	addq	$8, %r15
	.p2align	4
12:
	movq	-8(%r15), %rcx
	movq	(%r15), %r8
	leaq	160(%rsp), %rdi
	movq	%r12, %rsi
	movq	40(%rsp), %rdx
	callq	"clap::parser::suggestions::add_candidate"
	testb	%al, %al
	jne	13f
	addq	$24, %r15
	decq	%r13
	jne	12b
	jmp	10b
13:
	cmpq	$0, 176(%rsp)
	movq	232(%rsp), %rbx
	movq	104(%rsp), %r14
	movq	48(%rsp), %r15
	je	15f
	movq	160(%rsp), %rdi
14:
	callq	rattle_dealloc@PLT
15:
	testq	%r15, %r15
	je	16f
	movq	%r14, %rdi
	callq	rattle_dealloc@PLT
16:
	movb	$1, (%rbx)
	movb	$0, 8(%rbx)
	xorps	%xmm0, %xmm0
	movups	%xmm0, 16(%rbx)
	movups	%xmm0, 32(%rbx)
	jmp	47f
17:
	movq	408(%rsp), %r14
	movq	416(%rsp), %rbx
	movq	424(%rsp), %rbp
	movq	(%r13), %rsi
	movq	$1, 336(%rsp)
	movq	%r15, 104(%rsp)
	movq	%r15, 344(%rsp)
	movq	216(%rsp), %rax
	movq	%rax, 352(%rsp)
	leaq	336(%rsp), %rax
	movq	%rax, (%rsp)
	leaq	112(%rsp), %rdi
	movq	56(%rsp), %rdx
	movq	40(%rsp), %rcx
	movq	%r14, %r8
	movq	%rbx, %r9
	callq	"clap::error::Error::subcommand_conflict"
	testq	%rbx, %rbx
	je	20f
	leaq	16(%r14), %r15
	jmp	19f
	.p2align	4
18:
	addq	$24, %r15
	decq	%rbx
	je	20f
19:
	cmpq	$0, (%r15)
	je	18b
	movq	-16(%r15), %rdi
	callq	rattle_dealloc@PLT
	jmp	18b
20:
	testq	%rbp, %rbp
	je	21f
	movq	%r14, %rdi
	callq	rattle_dealloc@PLT
21:
	cmpq	$0, 48(%rsp)
	movq	104(%rsp), %rdi
	jne	44f
	jmp	45f
22:
	movl	$540701295, 3(%rdx)
	movl	$1869771365, (%rdx)
23:
	movq	%rdx, 64(%rsp)
	movq	$7, 72(%rsp)
	movq	$7, 80(%rsp)
	leaq	.L131d21b81ca1(%rip), %rax
	movq	%rax, 160(%rsp)
	movq	$21, 168(%rsp)
	movq	56(%rsp), %r13
	movq	%r13, 176(%rsp)
	movq	40(%rsp), %rbx
	movq	%rbx, 184(%rsp)
	leaq	.L543dcfd44baf(%rip), %rax
	movq	%rax, 192(%rsp)
	movq	$7, 200(%rsp)
	leaq	64(%rsp), %rdi
	leaq	160(%rsp), %rsi
	callq	"std_alloc::string::String::write_fmt::<#a2e9c51888eedbd3>"
	testb	%al, %al
	jne	24f
	leaq	.L1e56a0063e76(%rip), %rax
	movq	%rax, 160(%rsp)
	movq	$21, 168(%rsp)
	movq	%r13, 176(%rsp)
	movq	%rbx, 184(%rsp)
	leaq	.L3f46215654cf(%rip), %rax
	movq	%rax, 192(%rsp)
	movq	$46, 200(%rsp)
	leaq	64(%rsp), %rdi
	leaq	160(%rsp), %rsi
	callq	"std_alloc::string::String::write_fmt::<#a2e9c51888eedbd3>"
	testb	%al, %al
	jne	24f
	movq	$1, 368(%rsp)
	movq	%r15, 376(%rsp)
	movq	216(%rsp), %rax
	movq	%rax, 384(%rsp)
	leaq	64(%rsp), %rdi
	leaq	368(%rsp), %rdx
	movq	%r14, %rsi
	callq	"clap::error::text::usage_and_help"
	testb	%al, %al
	je	28f
24:
	cmpq	$0, 80(%rsp)
	je	25f
	movq	64(%rsp), %rdi
	callq	rattle_dealloc@PLT
25:
	xorps	%xmm0, %xmm0
	movaps	%xmm0, 144(%rsp)
	movaps	%xmm0, 128(%rsp)
	movb	$1, %bl
	xorl	%ebp, %ebp
	cmpq	$0, 48(%rsp)
	je	27f
26:
	movq	%r15, %rdi
	callq	rattle_dealloc@PLT
27:
	movb	%bl, (%r12)
	movb	%bpl, 8(%r12)
	movzbl	%bpl, %eax
	jmp	46f
28:
	movq	80(%rsp), %rax
	movq	%rax, 152(%rsp)
	movups	64(%rsp), %xmm0
	movups	%xmm0, 136(%rsp)
	movb	$1, %bpl
	xorl	%ebx, %ebx
	cmpq	$0, 48(%rsp)
	jne	26b
	jmp	27b
29:
	movq	160(%rsp), %r12
	movq	168(%rsp), %rbp
	leaq	32(%rsp), %rcx
	movq	%rcx, 64(%rsp)
	xorps	%xmm0, %xmm0
	movups	%xmm0, 72(%rsp)
	testq	%rbp, %rbp
	je	34f
	leaq	16(%r12), %rbx
	xorl	%r14d, %r14d
	movq	224(%rsp), %rdx
	jmp	32f
30:
	movq	64(%rsp), %rcx
	movq	72(%rsp), %r14
	movq	224(%rsp), %rdx
31:
	movq	%r14, %rax
	shlq	$4, %rax
	movq	%r15, (%rcx,%rax)
	movq	%r13, 8(%rcx,%rax)
	incq	%r14
	movq	%r14, 72(%rsp)
	addq	$24, %rbx
	decq	%rbp
	je	35f
32:
	movq	-8(%rbx), %r15
	movq	(%rbx), %r13
	cmpq	%r14, 80(%rsp)
	jne	31b
	leaq	64(%rsp), %rdi
	movl	$1, %esi
	callq	"std_alloc::vec::Vec::grow_amortized::<#3af3ba23e56e6a09>"
	testb	%al, %al
	jne	30b
	cmpq	$0, 80(%rsp)
	je	33f
	movq	64(%rsp), %rdi
	callq	rattle_dealloc@PLT
33:
	cmpq	$0, 176(%rsp)
	movq	232(%rsp), %rbx
	movq	104(%rsp), %r14
	movq	48(%rsp), %r15
	je	15b
	movq	%r12, %rdi
	jmp	14b
34:
	xorl	%r14d, %r14d
	movq	224(%rsp), %rdx
35:
	cmpq	$0, 176(%rsp)
	je	36f
	movq	%r12, %rdi
	callq	rattle_dealloc@PLT
	movq	224(%rsp), %rdx
36:
	movq	64(%rsp), %rbx
	movq	80(%rsp), %rbp
	movq	(%rdx), %rsi
	testq	%r14, %r14
	movq	232(%rsp), %r12
	movq	104(%rsp), %r15
	je	37f
	leaq	88(%rsi), %rax
	leaq	8(%rsi), %rcx
	cmpb	$1, 80(%rsi)
	cmovneq	%rsi, %rax
	leaq	96(%rsi), %rdx
	cmovneq	%rcx, %rdx
	movq	(%rdx), %rcx
	movq	(%rax), %rax
	movq	$1, 304(%rsp)
	movq	%r15, 312(%rsp)
	movq	216(%rsp), %rdx
	movq	%rdx, 320(%rsp)
	leaq	304(%rsp), %rdx
	movq	%rdx, 24(%rsp)
	movzbl	100(%rsp), %edx
	andl	$1, %edx
	movl	%edx, 16(%rsp)
	movq	%rcx, 8(%rsp)
	movq	%rax, (%rsp)
	leaq	112(%rsp), %rdi
	movq	56(%rsp), %rdx
	movq	40(%rsp), %rcx
	movq	%rbx, %r8
	movq	%r14, %r9
	callq	"clap::error::Error::invalid_subcommand"
	jmp	40f
37:
	movq	584(%rsi), %rax
	movl	$488, %ecx
	addq	576(%rsi), %rcx
	incq	%rax
38:
	decq	%rax
	je	39f
	cmpb	$1, (%rcx)
	leaq	608(%rcx), %rcx
	jne	38b
	cmpb	$1, 658(%rsi)
	jne	41f
39:
	movq	$1, 272(%rsp)
	movq	%r15, 280(%rsp)
	movq	216(%rsp), %rax
	movq	%rax, 288(%rsp)
	leaq	112(%rsp), %rdi
	leaq	272(%rsp), %r8
	movq	56(%rsp), %rdx
	movq	40(%rsp), %rcx
	callq	"clap::error::Error::unrecognized_subcommand"
40:
	testq	%rbp, %rbp
	je	43f
	movq	%rbx, %rdi
	callq	rattle_dealloc@PLT
	jmp	43f
41:
	testq	%rbp, %rbp
	movl	100(%rsp), %ecx
	je	42f
	movq	%rbx, %rdi
	movq	%rdx, %rbx
	callq	rattle_dealloc@PLT
	movl	100(%rsp), %ecx
	movq	(%rbx), %rsi
42:
	movq	$0, 464(%rsp)
	movq	$1, 240(%rsp)
	movq	%r15, 248(%rsp)
	movq	216(%rsp), %rax
	movq	%rax, 256(%rsp)
	leaq	240(%rsp), %rax
	movq	%rax, (%rsp)
	movzbl	%cl, %r9d
	andl	$1, %r9d
	leaq	112(%rsp), %rdi
	leaq	464(%rsp), %r8
	movq	56(%rsp), %rdx
	movq	40(%rsp), %rcx
	callq	"clap::error::Error::unknown_argument"
43:
	cmpq	$0, 48(%rsp)
	je	45f
	movq	%r15, %rdi
44:
	callq	rattle_dealloc@PLT
45:
	movzbl	112(%rsp), %eax
	movb	%al, (%r12)
	movzbl	120(%rsp), %eax
	movb	%al, 8(%r12)
	movzbl	128(%rsp), %eax
46:
	movq	%rax, 16(%r12)
	movups	136(%rsp), %xmm0
	movups	%xmm0, 24(%r12)
	movq	152(%rsp), %rax
	movq	%rax, 40(%r12)
47:
	addq	$520, %rsp
	popq	%rbx
	popq	%r12
	popq	%r13
	popq	%r14
	popq	%r15
	popq	%rbp
	retq
48:
	.size	"clap::parser::parse::Parser::match_arg_error", 48b-"clap::parser::parse::Parser::match_arg_error"

	.text
	.p2align	4
	.type	"clap::parser::parse::Parser::no_equals",@function
"clap::parser::parse::Parser::no_equals":
	pushq	%rbp
	pushq	%r15
	pushq	%r14
	pushq	%r13
	pushq	%r12
	pushq	%rbx
	subq	$168, %rsp
	movq	%rsi, %r12
	movq	%rdi, %rbx
	movq	(%rcx), %r14
	movq	8(%rcx), %r15
	movq	16(%rcx), %r13
	xorps	%xmm0, %xmm0
	movaps	%xmm0, 80(%rsp)
	movaps	%xmm0, 64(%rsp)
	movaps	%xmm0, 48(%rsp)
	leaq	48(%rsp), %rdi
	callq	"clap::parser::parse::Parser::resolve_pending"
	cmpb	$1, 48(%rsp)
	jne	2f
	cmpb	$1, 64(%rsp)
	movq	72(%rsp), %rdi
	setne	%cl
	cmpq	$0, 88(%rsp)
	sete	%al
	orb	%cl, %al
	cmpb	$16, 56(%rsp)
	jne	1f
	testb	%al, %al
	jne	3f
	callq	rattle_dealloc@PLT
	jmp	3f
1:
	testb	%al, %al
	jne	2f
	callq	rattle_dealloc@PLT
2:
	movq	(%r12), %rsi
	xorps	%xmm0, %xmm0
	movaps	%xmm0, 48(%rsp)
	movaps	%xmm0, 64(%rsp)
	movaps	%xmm0, 16(%rsp)
	movq	$0, 32(%rsp)
	leaq	48(%rsp), %rdi
	leaq	8(%rsp), %rdx
	leaq	16(%rsp), %r8
	xorl	%ecx, %ecx
	callq	"clap::output::usage::with_title"
	cmpb	$0, 48(%rsp)
	je	5f
3:
	testq	%r13, %r13
	je	4f
	movq	%r14, %rdi
	callq	rattle_dealloc@PLT
4:
	movb	$1, (%rbx)
	movb	$0, 8(%rbx)
	xorps	%xmm0, %xmm0
	movups	%xmm0, 16(%rbx)
	movups	%xmm0, 32(%rbx)
	jmp	13f
5:
	movq	56(%rsp), %rax
	movq	%rax, 120(%rsp)
	movq	64(%rsp), %rbp
	movq	72(%rsp), %rax
	movq	%rax, 160(%rsp)
	movq	(%r12), %r12
	xorps	%xmm0, %xmm0
	movaps	%xmm0, 128(%rsp)
	movq	$0, 144(%rsp)
	movl	$7, %edi
	movl	$1, %esi
	callq	rattle_alloc@PLT
	testb	$1, %al
	je	9f
	leaq	.Lc9c10f50e645(%rip), %rax
	movq	%rdx, %rcx
	subq	%rax, %rcx
	cmpq	$6, %rcx
	ja	6f
	movl	$1869771365, (%rdx)
	movw	$14962, 4(%rdx)
	movb	$32, 6(%rdx)
	jmp	7f
6:
	movl	$540701295, 3(%rdx)
	movl	$1869771365, (%rdx)
7:
	movq	%rdx, 16(%rsp)
	movq	$7, 24(%rsp)
	movq	$7, 32(%rsp)
	leaq	.L0204640a40f4(%rip), %rax
	movq	%rax, 48(%rsp)
	movq	$47, 56(%rsp)
	movq	%r14, 64(%rsp)
	movq	%r15, 72(%rsp)
	leaq	.L72431cffa757(%rip), %rax
	movq	%rax, 80(%rsp)
	movq	$1, 88(%rsp)
	leaq	16(%rsp), %rdi
	leaq	48(%rsp), %rsi
	callq	"std_alloc::string::String::write_fmt::<#a2e9c51888eedbd3>"
	testb	%al, %al
	jne	8f
	movq	$1, 128(%rsp)
	movq	120(%rsp), %rax
	movq	%rax, 136(%rsp)
	movq	%rbp, 144(%rsp)
	leaq	16(%rsp), %rdi
	leaq	128(%rsp), %rdx
	movq	%r12, %rsi
	callq	"clap::error::text::usage_and_help"
	testb	%al, %al
	je	14f
8:
	cmpq	$0, 32(%rsp)
	je	9f
	movq	16(%rsp), %rdi
	callq	rattle_dealloc@PLT
9:
	xorps	%xmm0, %xmm0
	movaps	%xmm0, 96(%rsp)
	movq	$0, 112(%rsp)
	movb	$1, %bpl
	xorl	%r15d, %r15d
	xorl	%r12d, %r12d
	cmpq	$0, 160(%rsp)
	je	11f
10:
	movq	120(%rsp), %rdi
	callq	rattle_dealloc@PLT
11:
	testq	%r13, %r13
	je	12f
	movq	%r14, %rdi
	callq	rattle_dealloc@PLT
12:
	movb	%bpl, (%rbx)
	movb	%r15b, 8(%rbx)
	movq	%r12, 16(%rbx)
	movaps	96(%rsp), %xmm0
	movups	%xmm0, 24(%rbx)
	movq	112(%rsp), %rax
	movq	%rax, 40(%rbx)
13:
	addq	$168, %rsp
	popq	%rbx
	popq	%r12
	popq	%r13
	popq	%r14
	popq	%r15
	popq	%rbp
	retq
14:
	movq	32(%rsp), %rax
	movq	%rax, 112(%rsp)
	movups	16(%rsp), %xmm0
	movaps	%xmm0, 96(%rsp)
	movl	$1, %r12d
	movb	$3, %r15b
	xorl	%ebp, %ebp
	cmpq	$0, 160(%rsp)
	jne	10b
	jmp	11b
15:
	.size	"clap::parser::parse::Parser::no_equals", 15b-"clap::parser::parse::Parser::no_equals"

	.section	.rodata.cst16,"aM",@progbits,16
	.p2align	4, 0x0
1:
	.zero	16,1
	.text
	.p2align	4
	.type	"clap::parser::parse::Parser::parse",@function
"clap::parser::parse::Parser::parse":
	pushq	%rbp
	pushq	%r15
	pushq	%r14
	pushq	%r13
	pushq	%r12
	pushq	%rbx
	subq	$1672, %rsp
	movq	%r8, %r15
	movq	%rcx, 584(%rsp)
	movq	%rdi, 280(%rsp)
	pxor	%xmm0, %xmm0
	movdqa	%xmm0, 1248(%rsp)
	movdqa	%xmm0, 1232(%rsp)
	movdqa	%xmm0, 1216(%rsp)
	movdqa	%xmm0, 1616(%rsp)
	movdqa	%xmm0, 1632(%rsp)
	movdqa	%xmm0, 1648(%rsp)
	movdqa	%xmm0, 1184(%rsp)
	movq	$0, 1200(%rsp)
	movdqa	%xmm0, 1136(%rsp)
	movdqa	%xmm0, 1152(%rsp)
	movdqa	%xmm0, 1168(%rsp)
	movq	(%rsi), %rcx
	movq	576(%rcx), %rax
	movq	584(%rcx), %r10
	xorl	%r11d, %r11d
	movq	%rax, %r8
	movq	%r10, %rcx
2:
	negq	%rcx
	movq	%r8, %rdi
	.p2align	4
3:
	incq	%rcx
	cmpq	$1, %rcx
	je	4f
	leaq	608(%rdi), %r8
	cmpb	$1, 488(%rdi)
	movq	%r8, %rdi
	jne	3b
	incq	%r11
	negq	%rcx
	jmp	2b
4:
	movq	%r11, 1496(%rsp)
	movq	%rsi, 136(%rsp)
	addq	$605, %rax
	incq	%r10
	.p2align	4
5:
	decq	%r10
	je	6f
	cmpb	$1, (%rax)
	leaq	608(%rax), %rax
	jne	5b
6:
	movq	%r10, 1488(%rsp)
	leaq	104(%rdx), %rax
	movq	%rax, 1072(%rsp)
	leaq	64(%rdx), %rax
	movq	%rax, 864(%rsp)
	movq	%rdx, 160(%rsp)
	leaq	50(%rdx), %rax
	movq	%rax, 1480(%rsp)
	movq	584(%rsp), %rax
	leaq	24(%rax), %rdx
	movl	$1, %esi
	xorl	%r13d, %r13d
	movq	$0, 168(%rsp)
	xorl	%ecx, %ecx
	xorl	%r14d, %r14d
	movq	$0, 336(%rsp)
	xorl	%ebx, %ebx
	movq	%r15, 696(%rsp)
	movq	%rdx, 760(%rsp)
7:
	movzbl	%bl, %eax
	movq	%rax, 344(%rsp)
	movzbl	%r14b, %eax
	shlq	$8, %r13
	orq	%rax, %r13
	movq	%r13, 464(%rsp)
	movq	%r9, %rdi
	shlq	$4, %rdi
	addq	%rdx, %rdi
	leaq	1(%r9), %rax
	movl	%ecx, %r12d
	movq	%rax, %rcx
	movq	%rsi, %rbx
	.p2align	4
8:
	xorl	%ebp, %ebp
	movq	%r15, %rax
	subq	%rcx, %rax
	cmovaeq	%rax, %rbp
	cmpq	%r15, %r9
	jae	455f
	movq	%r9, %rdx
	movq	%rbx, %rsi
	movl	%r12d, %r13d
	movq	%rcx, 40(%rsp)
	movq	%r9, %rax
	shlq	$4, %rax
	movq	584(%rsp), %rcx
	movq	(%rcx,%rax), %r8
	movq	8(%rcx,%rax), %r14
	incq	%r9
	pxor	%xmm0, %xmm0
	movdqa	%xmm0, 288(%rsp)
	movdqa	%xmm0, 304(%rsp)
	movdqa	%xmm0, 320(%rsp)
	movdqa	%xmm0, 1392(%rsp)
	movq	$0, 1408(%rsp)
	movdqa	%xmm0, 1360(%rsp)
	movq	$0, 1376(%rsp)
	movdqa	%xmm0, 1328(%rsp)
	movq	$0, 1344(%rsp)
	movdqa	%xmm0, 1296(%rsp)
	movq	$0, 1312(%rsp)
	movdqa	%xmm0, 1264(%rsp)
	movq	$0, 1280(%rsp)
	testb	$1, %r12b
	movq	%rbx, 80(%rsp)
	movl	%r13d, 492(%rsp)
	movq	%r14, 480(%rsp)
	je	12f
	movb	$3, %r12b
	xorl	%r10d, %r10d
	xorl	%ebx, %ebx
9:
	movq	40(%rsp), %rcx
10:
	xorl	%r13d, %r13d
	xorl	%r14d, %r14d
11:
	addq	$16, %rdi
	incq	%rcx
	cmpb	$1, %r12b
	je	8b
	jmp	377f
	.p2align	4
12:
	movq	%r9, 472(%rsp)
	movq	136(%rsp), %rbx
	movq	(%rbx), %rsi
	cmpb	$0, 665(%rsi)
	movq	%rdx, 48(%rsp)
	movq	%rdi, 24(%rsp)
	jne	13f
	cmpb	$0, 344(%rsp)
	jne	15f
13:
	movq	%r8, %r12
	movzbl	168(%rsp), %r8d
	leaq	1392(%rsp), %rdi
	movq	%r12, %rdx
	movq	%r14, %rcx
	callq	"clap::parser::parse::Parser::possible_subcommand"
	movq	24(%rsp), %rdi
	movq	48(%rsp), %rdx
	movq	%r12, %r8
	cmpb	$1, 1392(%rsp)
	jne	15f
	movq	1400(%rsp), %rbx
	movq	1408(%rsp), %r10
	cmpq	$4, %r10
	jne	14f
	movl	(%rbx), %eax
	movq	%rax, %rcx
	shlq	$32, %rcx
	orq	%rax, %rcx
	movabsq	$8100961328969835880, %rax
	cmpq	%rax, %rcx
	jne	14f
	movq	136(%rsp), %rax
	movq	(%rax), %rsi
	cmpb	$0, 655(%rsi)
	je	476f
14:
	movb	$2, %r12b
	leaq	1(%rdx), %r9
	movq	80(%rsp), %rsi
	jmp	9b
	.p2align	4
15:
	cmpq	$2, %r14
	jne	16f
	movzbl	(%r8), %eax
	movzbl	1(%r8), %ecx
	shll	$16, %eax
	movl	%ecx, %edx
	shll	$8, %edx
	orl	%eax, %edx
	orl	%ecx, %edx
	cmpl	$2960685, %edx
	jne	16f
	movq	%r8, %rbp
	movq	(%rbx), %rax
	movq	576(%rax), %r14
	movq	584(%rax), %r15
	cmpq	$0, 344(%rsp)
	movq	160(%rsp), %r12
	je	43f
	movq	%r14, %rdi
	movq	%r15, %rsi
	movq	336(%rsp), %rdx
	movq	464(%rsp), %rcx
	callq	"clap::builder::command::Command::find"
	movq	24(%rsp), %rdi
	cmpb	$1, %al
	jne	43f
	cmpb	$0, 600(%rdx)
	je	43f
	movq	344(%rsp), %rax
	movq	%rax, 1328(%rsp)
	movq	336(%rsp), %rax
	movq	%rax, 1336(%rsp)
	movq	464(%rsp), %rax
	movq	%rax, 1344(%rsp)
	leaq	288(%rsp), %rdi
	leaq	1328(%rsp), %r8
	movl	$2, %ecx
	movq	%rbx, %rsi
	movq	%rbp, %rdx
	movq	%r12, %r9
	callq	"clap::parser::parse::Parser::take_plain_word"
	movq	24(%rsp), %rdi
	movq	%rbp, %r8
	movzbl	288(%rsp), %r15d
	movzbl	296(%rsp), %r12d
	movq	304(%rsp), %rbx
	movq	312(%rsp), %r10
	movzbl	320(%rsp), %r14d
	movzbl	327(%rsp), %eax
	shll	$16, %eax
	movzwl	325(%rsp), %ecx
	orl	%eax, %ecx
	shlq	$32, %rcx
	movl	321(%rsp), %r13d
	orq	%rcx, %r13
	movq	328(%rsp), %rbp
	movq	48(%rsp), %rdx
	leaq	1(%rdx), %r9
	movq	80(%rsp), %rsi
	jmp	48f
	.p2align	4
16:
	leaq	1552(%rsp), %rdi
	movq	%r8, %rsi
	movq	%r14, %rdx
	movq	%r8, %r12
	callq	"clap::parser::lexer::to_long"
	cmpb	$1, 1552(%rsp)
	jne	19f
	movq	%r12, 64(%rsp)
	xorl	%edx, %edx
	movq	48(%rsp), %rcx
	incq	%rcx
	subq	%rcx, %r15
	cmovaeq	%r15, %rdx
	movq	%rdx, 872(%rsp)
	movq	1560(%rsp), %r15
	movq	1568(%rsp), %r14
	movzbl	1576(%rsp), %eax
	movq	%rax, 32(%rsp)
	pxor	%xmm0, %xmm0
	movdqa	%xmm0, 416(%rsp)
	movdqa	%xmm0, 432(%rsp)
	movdqa	%xmm0, 448(%rsp)
	movdqa	%xmm0, 1600(%rsp)
	movl	$0, 776(%rsp)
	movl	$0, 779(%rsp)
	movdqa	%xmm0, 640(%rsp)
	movdqa	%xmm0, 656(%rsp)
	movdqa	%xmm0, 672(%rsp)
	movdqa	%xmm0, 1008(%rsp)
	movq	$0, 1024(%rsp)
	movdqa	%xmm0, 1040(%rsp)
	movq	$0, 1056(%rsp)
	movdqa	%xmm0, 1424(%rsp)
	movq	$0, 1440(%rsp)
	movdqa	%xmm0, 352(%rsp)
	movdqa	%xmm0, 384(%rsp)
	movq	$0, 400(%rsp)
	movdqa	%xmm0, 496(%rsp)
	movdqa	%xmm0, 512(%rsp)
	movdqa	%xmm0, 528(%rsp)
	movdqa	%xmm0, 544(%rsp)
	movdqa	%xmm0, 560(%rsp)
	movdqa	%xmm0, 928(%rsp)
	movq	$0, 944(%rsp)
	movdqa	%xmm0, 736(%rsp)
	movdqa	%xmm0, 704(%rsp)
	movq	$0, 720(%rsp)
	movdqa	%xmm0, 784(%rsp)
	movdqa	%xmm0, 800(%rsp)
	movdqu	%xmm0, 895(%rsp)
	movdqa	%xmm0, 880(%rsp)
	movq	(%rbx), %r13
	movq	576(%r13), %rbx
	movq	584(%r13), %r12
	cmpq	$0, 344(%rsp)
	je	17f
	movq	%rbx, %rdi
	movq	%r12, %rsi
	movq	336(%rsp), %rdx
	movq	464(%rsp), %rcx
	callq	"clap::builder::command::Command::find"
	cmpb	$1, %al
	jne	17f
	cmpb	$1, 600(%rdx)
	je	150f
17:
	movq	%rbx, 152(%rsp)
	movq	%rbx, %rdi
	movq	%r12, 176(%rsp)
	movq	%r12, %rsi
	movq	%r15, %rdx
	movq	%r14, %rcx
	callq	"clap::builder::command::Command::find_long"
	cmpb	$1, %al
	jne	49f
	movq	%rdx, %rbx
18:
	cmpb	$1, 432(%rbx)
	jne	52f
	cmpq	$0, 448(%rbx)
	jne	52f
	cmpl	$1, 32(%rsp)
	jne	85f
	leaq	1584(%rsp), %rax
	movdqu	(%rax), %xmm0
	movdqa	%xmm0, 352(%rsp)
	leaq	784(%rsp), %rdi
	movq	%r13, %rsi
	callq	"clap::builder::command::Command::required_ids"
	movb	$1, %al
	movq	%rax, 168(%rsp)
	cmpb	$0, 784(%rsp)
	jne	297f
	movq	792(%rsp), %rcx
	movq	800(%rsp), %rax
	movq	%rax, 112(%rsp)
	movq	808(%rsp), %rax
	movq	%rax, 152(%rsp)
	leaq	56(%rsp), %rax
	movq	%rax, 144(%rsp)
	movq	%rax, 384(%rsp)
	pxor	%xmm0, %xmm0
	leaq	392(%rsp), %rax
	movdqu	%xmm0, (%rax)
	movq	160(%rsp), %rax
	movq	8(%rax), %rdx
	movq	%rdx, 128(%rsp)
	testq	%rdx, %rdx
	movq	%rcx, 72(%rsp)
	je	293f
	movq	(%rax), %r12
	leaq	8(%rcx), %rax
	movq	%rax, 104(%rsp)
	movq	$0, 32(%rsp)
	xorl	%r15d, %r15d
	jmp	24f
19:
	leaq	1296(%rsp), %rdi
	movq	%r12, %rsi
	movq	%r14, %rdx
	callq	"clap::parser::lexer::to_short"
	cmpb	$1, 1296(%rsp)
	jne	46f
	movq	%r12, 64(%rsp)
	movq	1304(%rsp), %rbp
	movq	1312(%rsp), %r15
	pxor	%xmm0, %xmm0
	movdqa	%xmm0, 640(%rsp)
	movdqa	%xmm0, 656(%rsp)
	movdqa	%xmm0, 672(%rsp)
	movdqa	%xmm0, 1104(%rsp)
	movl	$0, 1008(%rsp)
	movl	$0, 1011(%rsp)
	movdqa	%xmm0, 784(%rsp)
	movdqa	%xmm0, 800(%rsp)
	movdqa	%xmm0, 816(%rsp)
	movdqa	%xmm0, 832(%rsp)
	movq	$0, 848(%rsp)
	movdqa	%xmm0, 384(%rsp)
	movdqa	%xmm0, 400(%rsp)
	movdqa	%xmm0, 912(%rsp)
	movdqa	%xmm0, 896(%rsp)
	movdqa	%xmm0, 880(%rsp)
	movdqa	%xmm0, 992(%rsp)
	movdqa	%xmm0, 976(%rsp)
	movdqa	%xmm0, 960(%rsp)
	movdqa	%xmm0, 352(%rsp)
	movq	$0, 368(%rsp)
	movdqa	%xmm0, 736(%rsp)
	movq	$0, 752(%rsp)
	movl	$0, 1040(%rsp)
	movdqa	%xmm0, 496(%rsp)
	movdqa	%xmm0, 512(%rsp)
	movdqa	%xmm0, 528(%rsp)
	movdqa	%xmm0, 544(%rsp)
	movdqa	%xmm0, 560(%rsp)
	movdqa	%xmm0, 704(%rsp)
	movq	$0, 720(%rsp)
	movdqa	%xmm0, 416(%rsp)
	movdqa	%xmm0, 432(%rsp)
	movdqa	%xmm0, 448(%rsp)
	movb	$1, %r13b
	testq	%r15, %r15
	je	208f
	movzbl	(%rbp), %eax
	leal	-46(%rax), %ecx
	cmpl	$55, %ecx
	movq	80(%rsp), %rsi
	ja	101f
	movabsq	$36028797027352577, %rdx
	btq	%rcx, %rdx
	jae	101f
20:
	xorl	%r13d, %r13d
	jmp	209f
	.p2align	4
21:
	movq	32(%rsp), %rcx
	cmpq	%rcx, 400(%rsp)
	je	31f
22:
	movq	%rcx, %rax
	shlq	$4, %rax
	movq	144(%rsp), %rdx
	movq	%r14, (%rdx,%rax)
	movq	%r13, 8(%rdx,%rax)
	incq	%rcx
	movq	%rcx, 32(%rsp)
	movq	%rcx, 392(%rsp)
23:
	incq	%r15
	cmpq	128(%rsp), %r15
	je	122f
24:
	imulq	$104, %r15, %rax
	cmpb	$1, 16(%r12,%rax)
	jne	25f
	cmpb	$1, 17(%r12,%rax)
	jne	23b
25:
	movq	136(%rsp), %rcx
	movq	(%rcx), %rcx
	movq	(%r12,%rax), %r14
	movq	8(%r12,%rax), %r13
	movq	576(%rcx), %rdi
	movq	584(%rcx), %rsi
	movq	%r14, %rdx
	movq	%r13, %rcx
	callq	"clap::builder::command::Command::find"
	cmpb	$1, %al
	jne	21b
	cmpb	$0, 594(%rdx)
	jne	23b
	cmpq	$0, 112(%rsp)
	je	21b
	movq	(%rdx), %rax
	movq	8(%rdx), %rcx
	leaq	-8(%rcx), %r9
	leaq	-16(%rcx), %rdi
	cmpq	$32, %rdi
	movl	$32, %r8d
	cmovbq	%rdi, %r8
	cmpq	$8, %r9
	movl	$8, %edx
	cmovbq	%r9, %rdx
	cmpq	$16, %r9
	movl	$16, %esi
	cmovbq	%r9, %rsi
	movq	%rcx, %r9
	subq	$8, %r9
	jae	28f
	cmpq	$4, %rcx
	jb	32f
	movq	104(%rsp), %rdx
	movq	112(%rsp), %rsi
	jmp	27f
	.p2align	4
26:
	decq	%rsi
	addq	$16, %rdx
	testq	%rsi, %rsi
	je	21b
27:
	cmpq	%rcx, (%rdx)
	jne	26b
	movq	-8(%rdx), %rdi
	movl	(%rdi), %r8d
	movl	-4(%rdi,%rcx), %edi
	shlq	$32, %rdi
	orq	%r8, %rdi
	movl	(%rax), %r8d
	movl	-4(%rax,%rcx), %r9d
	shlq	$32, %r9
	orq	%r8, %r9
	cmpq	%r9, %rdi
	jne	26b
	jmp	23b
28:
	cmpq	$32, %rcx
	ja	35f
	movq	104(%rsp), %rdi
	movq	112(%rsp), %r8
	jmp	30f
	.p2align	4
29:
	decq	%r8
	addq	$16, %rdi
	testq	%r8, %r8
	je	21b
30:
	cmpq	%rcx, (%rdi)
	jne	29b
	movq	-8(%rdi), %r10
	movq	(%r10), %r11
	cmpq	(%rax), %r11
	jne	29b
	movq	(%rax,%rdx), %r11
	cmpq	%r11, (%r10,%rdx)
	jne	29b
	movq	(%rax,%rsi), %r11
	cmpq	%r11, (%r10,%rsi)
	jne	29b
	movq	(%rax,%r9), %r11
	cmpq	%r11, (%r10,%r9)
	jne	29b
	jmp	23b
31:
	leaq	384(%rsp), %rdi
	movl	$1, %esi
	callq	"std_alloc::vec::Vec::grow_amortized::<#3af3ba23e56e6a09>"
	testb	%al, %al
	je	295f
	movq	384(%rsp), %rax
	movq	%rax, 144(%rsp)
	movq	392(%rsp), %rcx
	jmp	22b
32:
	testq	%rcx, %rcx
	je	41f
	movq	%rcx, %rdx
	shrq	%rdx
	movq	104(%rsp), %rsi
	movq	112(%rsp), %rdi
	jmp	34f
	.p2align	4
33:
	decq	%rdi
	addq	$16, %rsi
	testq	%rdi, %rdi
	je	21b
34:
	cmpq	%rcx, (%rsi)
	jne	33b
	movq	-8(%rsi), %r8
	movzbl	(%r8), %r9d
	movzbl	(%r8,%rdx), %r10d
	shll	$16, %r9d
	shll	$8, %r10d
	orl	%r9d, %r10d
	movzbl	-1(%r8,%rcx), %r8d
	orl	%r10d, %r8d
	movzbl	(%rax), %r9d
	movzbl	(%rax,%rdx), %r10d
	shll	$16, %r9d
	shll	$8, %r10d
	orl	%r9d, %r10d
	movzbl	-1(%rax,%rcx), %r9d
	orl	%r10d, %r9d
	cmpl	%r9d, %r8d
	jne	33b
	jmp	23b
35:
	movq	72(%rsp), %rdx
	movq	112(%rsp), %rsi
	cmpq	$65, %rcx
	jae	37f
	movq	104(%rsp), %rdx
	movq	112(%rsp), %rsi
	jmp	40f
	.p2align	4
36:
	addq	$16, %rdx
	decq	%rsi
	je	21b
37:
	cmpq	%rcx, 8(%rdx)
	jne	36b
	movq	(%rdx), %rdi
	xorl	%r8d, %r8d
	movq	%rcx, %r9
	.p2align	4
38:
	movdqu	(%rdi,%r8), %xmm0
	movdqu	16(%rdi,%r8), %xmm1
	movdqu	32(%rdi,%r8), %xmm2
	movdqu	48(%rdi,%r8), %xmm3
	movdqu	(%rax,%r8), %xmm4
	pcmpeqb	%xmm0, %xmm4
	movdqu	16(%rax,%r8), %xmm0
	pcmpeqb	%xmm1, %xmm0
	pand	%xmm4, %xmm0
	movdqu	32(%rax,%r8), %xmm1
	pcmpeqb	%xmm2, %xmm1
	movdqu	48(%rax,%r8), %xmm2
	pcmpeqb	%xmm3, %xmm2
	pand	%xmm1, %xmm2
	pand	%xmm0, %xmm2
	pmovmskb	%xmm2, %r10d
	cmpl	$65535, %r10d
	jne	36b
	addq	$64, %r8
	addq	$-64, %r9
	cmpq	$65, %r9
	jae	38b
	movdqu	-64(%rdi,%rcx), %xmm0
	movdqu	-48(%rdi,%rcx), %xmm1
	movdqu	-32(%rdi,%rcx), %xmm2
	movdqu	-16(%rdi,%rcx), %xmm3
	movdqu	-64(%rax,%rcx), %xmm4
	pcmpeqb	%xmm0, %xmm4
	movdqu	-48(%rax,%rcx), %xmm0
	pcmpeqb	%xmm1, %xmm0
	pand	%xmm4, %xmm0
	movdqu	-32(%rax,%rcx), %xmm1
	pcmpeqb	%xmm2, %xmm1
	movdqu	-16(%rax,%rcx), %xmm2
	pcmpeqb	%xmm3, %xmm2
	pand	%xmm1, %xmm2
	pand	%xmm0, %xmm2
	pmovmskb	%xmm2, %edi
	cmpl	$65535, %edi
	jne	36b
	jmp	23b
	.p2align	4
39:
	decq	%rsi
	addq	$16, %rdx
	testq	%rsi, %rsi
	je	21b
40:
	cmpq	%rcx, (%rdx)
	jne	39b
	movq	-8(%rdx), %r9
	movdqu	(%r9), %xmm0
	movdqu	16(%r9), %xmm1
	movdqu	(%rax), %xmm2
	pcmpeqb	%xmm0, %xmm2
	movdqu	16(%rax), %xmm0
	pcmpeqb	%xmm1, %xmm0
	pand	%xmm2, %xmm0
	movdqu	(%r9,%r8), %xmm1
	movdqu	(%rax,%r8), %xmm2
	pcmpeqb	%xmm1, %xmm2
	movdqu	(%r9,%rdi), %xmm1
	movdqu	(%rax,%rdi), %xmm3
	pcmpeqb	%xmm1, %xmm3
	pand	%xmm2, %xmm3
	pand	%xmm0, %xmm3
	pmovmskb	%xmm3, %r9d
	cmpl	$65535, %r9d
	jne	39b
	jmp	23b
41:
	movq	104(%rsp), %rax
	movq	112(%rsp), %rcx
	.p2align	4
42:
	cmpq	$0, (%rax)
	je	23b
	addq	$16, %rax
	decq	%rcx
	jne	42b
	jmp	21b
43:
	movq	80(%rsp), %rsi
	movq	%rsi, %rbx
	testq	%r15, %r15
	movq	48(%rsp), %rdx
	leaq	1(%rdx), %r9
	movq	40(%rsp), %rcx
	je	54f
	addq	$464, %r14
	movq	%rbp, %rax
	jmp	45f
	.p2align	4
44:
	addq	$608, %r14
	decq	%r15
	je	53f
45:
	cmpb	$1, 24(%r14)
	jne	44b
	cmpq	%rsi, 32(%r14)
	jne	44b
	movq	$1, 192(%rsp)
	movq	%rax, 200(%rsp)
	movq	$2, 208(%rsp)
	leaq	192(%rsp), %rsi
	movq	%r14, %rdi
	callq	"core::cmp::declared::OptionPartialEq::eq::<#a18ca2343ae6f068>"
	movq	40(%rsp), %rcx
	movq	24(%rsp), %rdi
	movq	48(%rsp), %rdx
	movq	80(%rsp), %rsi
	leaq	1(%rdx), %r9
	movq	%rsi, %rbx
	testb	%al, %al
	je	54f
	movq	%rsi, %rax
	incq	%rax
	movq	$-1, %rbx
	cmovneq	%rax, %rbx
	jmp	54f
46:
	movq	344(%rsp), %rax
	movq	%rax, 1264(%rsp)
	movq	336(%rsp), %rax
	movq	%rax, 1272(%rsp)
	movq	464(%rsp), %rax
	movq	%rax, 1280(%rsp)
	leaq	288(%rsp), %rdi
	leaq	1264(%rsp), %r8
	movq	%rbx, %rsi
	movq	%r12, %rdx
	movq	%r14, %rcx
	movq	160(%rsp), %r9
	callq	"clap::parser::parse::Parser::take_plain_word"
	movzbl	288(%rsp), %r15d
	movzbl	296(%rsp), %edi
	movq	304(%rsp), %rbx
	movq	312(%rsp), %r10
	movzbl	320(%rsp), %r14d
	movzbl	327(%rsp), %eax
	shll	$16, %eax
	movzwl	325(%rsp), %ecx
	orl	%eax, %ecx
	shlq	$32, %rcx
	movl	321(%rsp), %r13d
	orq	%rcx, %r13
	movq	328(%rsp), %rbp
	movq	48(%rsp), %rdx
	leaq	1(%rdx), %r9
	movq	80(%rsp), %rsi
	movq	%r12, %r8
	movq	%rdi, %r12
47:
	movq	24(%rsp), %rdi
48:
	movq	40(%rsp), %rcx
	testb	%r15b, %r15b
	movq	696(%rsp), %r15
	je	11b
	jmp	479f
49:
	cmpb	$1, 657(%r13)
	jne	58f
	movq	$0, 128(%rsp)
	movq	152(%rsp), %r12
	movq	176(%rsp), %rbx
50:
	negq	%rbx
	.p2align	4
51:
	incq	%rbx
	cmpq	$1, %rbx
	je	56f
	movq	%r12, %rdi
	addq	$608, %r12
	movq	%r15, %rsi
	movq	%r14, %rdx
	callq	"clap::parser::parse::is_long_candidate"
	testb	%al, %al
	je	51b
	incq	128(%rsp)
	negq	%rbx
	jmp	50b
52:
	movq	32(%rsp), %rcx
	movq	%rcx, 928(%rsp)
	leaq	1584(%rsp), %rax
	movdqu	(%rax), %xmm0
	leaq	936(%rsp), %rax
	movdqu	%xmm0, (%rax)
	andl	$1, %ecx
	movl	%ecx, (%rsp)
	leaq	496(%rsp), %rdi
	leaq	928(%rsp), %rcx
	movq	136(%rsp), %rsi
	movl	$1, %edx
	movq	%rbx, %r8
	movq	160(%rsp), %r9
	callq	"clap::parser::parse::Parser::parse_opt_value"
	movzbl	496(%rsp), %eax
	movzbl	504(%rsp), %r12d
	movq	528(%rsp), %r14
	movq	536(%rsp), %r13
	movq	544(%rsp), %rsi
	movq	64(%rsp), %r8
	movq	24(%rsp), %rdi
	jmp	109f
53:
	movq	%rsi, %rbx
54:
	cmpb	$1, 24(%r12)
	jne	55f
	cmpb	$1, 80(%r12)
	je	55f
	movq	64(%r12), %rax
	movq	$1, 80(%r12)
	movq	%rax, 88(%r12)
55:
	movb	$1, %r12b
	xorl	%r10d, %r10d
	movq	696(%rsp), %r15
	movq	%rbp, %r8
	jmp	10b
56:
	cmpq	$1, 128(%rsp)
	setne	%al
	movq	176(%rsp), %r12
	testq	%r12, %r12
	sete	%cl
	orb	%al, %cl
	movq	152(%rsp), %rbx
	jne	58f
	.p2align	4
57:
	movq	%rbx, %rdi
	movq	%r15, %rsi
	movq	%r14, %rdx
	callq	"clap::parser::parse::is_long_candidate"
	testb	%al, %al
	jne	18b
	addq	$608, %rbx
	decq	%r12
	jne	57b
58:
	movq	600(%r13), %r9
	movq	608(%r13), %rdi
	cmpb	$1, 658(%r13)
	movq	%r9, 32(%rsp)
	movq	%rdi, 112(%rsp)
	jne	84f
	testq	%rdi, %rdi
	je	130f
	leaq	-64(%r14), %rax
	movq	%rax, 1064(%rsp)
	leaq	-16(%r14), %rax
	cmpq	$32, %rax
	movl	$32, %ecx
	movq	%rax, 1080(%rsp)
	cmovbq	%rax, %rcx
	movq	%rcx, 104(%rsp)
	leaq	-8(%r14), %rax
	cmpq	$8, %rax
	movl	$8, %ebx
	cmovbq	%rax, %rbx
	cmpq	$16, %rax
	movl	$16, %ecx
	movq	%rax, 1088(%rsp)
	cmovbq	%rax, %rcx
	movq	%rcx, 128(%rsp)
	movq	%r14, %rax
	shrq	%rax
	movq	%rax, 144(%rsp)
	leaq	-1(%r14), %rax
	movq	%rax, 1096(%rsp)
	leaq	-4(%r14), %rax
	movq	%rax, 184(%rsp)
	movb	$1, 768(%rsp)
	xorl	%r10d, %r10d
	movq	$0, 72(%rsp)
	xorl	%ecx, %ecx
	xorl	%edx, %edx
	jmp	62f
	.p2align	4
59:
	cmpb	$1, %dl
	setne	768(%rsp)
	movq	32(%rsp), %r9
	movq	(%r9,%rsi), %rdx
	movq	%rdx, 72(%rsp)
	movq	8(%r9,%rsi), %r10
	movb	$1, %dl
60:
	movq	112(%rsp), %rdi
61:
	incq	%rcx
	cmpq	%rdi, %rcx
	je	86f
62:
	imulq	$672, %rcx, %rsi
	cmpb	$1, 16(%r9,%rsi)
	jne	61b
	movq	%r10, %r13
	cmpq	%r14, 32(%r9,%rsi)
	jae	69f
63:
	movq	32(%rsp), %r9
	movq	416(%r9,%rsi), %rdi
	testq	%rdi, %rdi
	je	80f
	movq	408(%r9,%rsi), %r8
	cmpq	$7, %r14
	jbe	78f
	cmpq	$32, %r14
	jbe	71f
	cmpq	$65, %r14
	jae	65f
	addq	$8, %r8
	jmp	68f
	.p2align	4
64:
	addq	$24, %r8
	decq	%rdi
	je	79f
65:
	cmpq	%r14, 8(%r8)
	jb	64b
	movq	(%r8), %r9
	xorl	%r10d, %r10d
	movq	%r14, %r11
	.p2align	4
66:
	movdqu	(%r9,%r10), %xmm0
	movdqu	16(%r9,%r10), %xmm1
	movdqu	32(%r9,%r10), %xmm2
	movdqu	48(%r9,%r10), %xmm3
	movdqu	(%r15,%r10), %xmm4
	pcmpeqb	%xmm0, %xmm4
	movdqu	16(%r15,%r10), %xmm0
	pcmpeqb	%xmm1, %xmm0
	pand	%xmm4, %xmm0
	movdqu	32(%r15,%r10), %xmm1
	pcmpeqb	%xmm2, %xmm1
	movdqu	48(%r15,%r10), %xmm2
	pcmpeqb	%xmm3, %xmm2
	pand	%xmm1, %xmm2
	pand	%xmm0, %xmm2
	pmovmskb	%xmm2, %r12d
	cmpl	$65535, %r12d
	jne	64b
	addq	$64, %r10
	addq	$-64, %r11
	cmpq	$65, %r11
	jae	66b
	leaq	-64(%r14), %r10
	movdqu	(%r9,%r10), %xmm0
	movdqu	16(%r9,%r10), %xmm1
	movdqu	32(%r9,%r10), %xmm2
	movdqu	48(%r9,%r10), %xmm3
	movdqu	(%r15,%r10), %xmm4
	pcmpeqb	%xmm0, %xmm4
	movdqu	16(%r15,%r10), %xmm0
	pcmpeqb	%xmm1, %xmm0
	movdqu	32(%r15,%r10), %xmm1
	pcmpeqb	%xmm2, %xmm1
	movdqu	48(%r15,%r10), %xmm2
	pcmpeqb	%xmm3, %xmm2
	pcmpeqd	%xmm3, %xmm3
	pxor	%xmm3, %xmm2
	pxor	%xmm3, %xmm1
	por	%xmm2, %xmm1
	pxor	%xmm3, %xmm4
	pxor	%xmm3, %xmm0
	por	%xmm4, %xmm0
	por	%xmm1, %xmm0
	pmovmskb	%xmm0, %r9d
	testl	%r9d, %r9d
	jne	64b
	jmp	59b
	.p2align	4
67:
	decq	%rdi
	addq	$24, %r8
	testq	%rdi, %rdi
	je	79f
68:
	cmpq	%r14, (%r8)
	jb	67b
	movq	-8(%r8), %r9
	movdqu	(%r9), %xmm0
	movdqu	16(%r9), %xmm1
	movdqu	(%r15), %xmm2
	pcmpeqb	%xmm0, %xmm2
	movdqu	16(%r15), %xmm0
	pcmpeqb	%xmm1, %xmm0
	pand	%xmm2, %xmm0
	movq	104(%rsp), %r10
	movdqu	(%r9,%r10), %xmm1
	movdqu	(%r15,%r10), %xmm2
	pcmpeqb	%xmm1, %xmm2
	leaq	-16(%r14), %r10
	movdqu	(%r9,%r10), %xmm1
	movdqu	(%r15,%r10), %xmm3
	pcmpeqb	%xmm1, %xmm3
	pand	%xmm2, %xmm3
	pand	%xmm0, %xmm3
	pmovmskb	%xmm3, %r9d
	cmpl	$65535, %r9d
	jne	67b
	jmp	59b
	.p2align	4
69:
	movq	32(%rsp), %rdi
	movq	24(%rdi,%rsi), %rdi
	cmpq	$7, %r14
	ja	70f
	cmpq	$4, %r14
	jb	74f
	movl	(%rdi), %r8d
	leaq	-4(%r14), %rax
	movl	(%rdi,%rax), %edi
	shlq	$32, %rdi
	orq	%r8, %rdi
	bswapq	%rdi
	movl	(%r15), %r9d
	movl	(%r15,%rax), %r8d
	shlq	$32, %r8
	orq	%r9, %r8
	bswapq	%r8
	cmpq	%r8, %rdi
	je	59b
	jmp	75f
70:
	cmpq	$32, %r14
	ja	81f
	movq	(%rdi), %r8
	xorq	(%r15), %r8
	movq	(%rdi,%rbx), %r9
	xorq	(%r15,%rbx), %r9
	orq	%r8, %r9
	movq	128(%rsp), %rax
	movq	(%rdi,%rax), %r8
	xorq	(%r15,%rax), %r8
	orq	%r9, %r8
	leaq	-8(%r14), %r9
	movq	(%rdi,%r9), %rdi
	xorq	(%r15,%r9), %rdi
	orq	%r8, %rdi
	je	59b
	movq	32(%rsp), %r9
	movq	416(%r9,%rsi), %rdi
	testq	%rdi, %rdi
	je	80f
	movq	408(%r9,%rsi), %r8
71:
	addq	$8, %r8
	jmp	73f
	.p2align	4
72:
	decq	%rdi
	addq	$24, %r8
	testq	%rdi, %rdi
	je	79f
73:
	cmpq	%r14, (%r8)
	jb	72b
	movq	-8(%r8), %r9
	movq	(%r9), %r10
	xorq	(%r15), %r10
	movq	(%r9,%rbx), %r11
	xorq	(%r15,%rbx), %r11
	orq	%r10, %r11
	movq	128(%rsp), %rax
	movq	(%r9,%rax), %r10
	xorq	(%r15,%rax), %r10
	orq	%r11, %r10
	leaq	-8(%r14), %r11
	movq	(%r9,%r11), %r9
	xorq	(%r15,%r11), %r9
	orq	%r10, %r9
	jne	72b
	jmp	59b
74:
	testq	%r14, %r14
	je	59b
	movzbl	(%rdi), %r8d
	movq	144(%rsp), %r10
	movzbl	(%rdi,%r10), %r9d
	shll	$16, %r8d
	shll	$8, %r9d
	orl	%r8d, %r9d
	leaq	-1(%r14), %r11
	movzbl	(%rdi,%r11), %edi
	orq	%r9, %rdi
	movzbl	(%r15), %r8d
	movzbl	(%r15,%r10), %r9d
	shll	$16, %r8d
	shll	$8, %r9d
	orl	%r8d, %r9d
	movzbl	(%r15,%r11), %r8d
	orq	%r9, %r8
	cmpq	%r8, %rdi
	je	59b
75:
	movq	32(%rsp), %r9
	movq	416(%r9,%rsi), %rdi
	testq	%rdi, %rdi
	je	80f
	movq	408(%r9,%rsi), %r8
	jmp	78f
	.p2align	4
76:
	movl	(%r9), %r10d
	leaq	-4(%r14), %rax
	movl	(%r9,%rax), %r9d
	shlq	$32, %r9
	orq	%r10, %r9
	bswapq	%r9
	movl	(%r15), %r11d
	movl	(%r15,%rax), %r10d
	shlq	$32, %r10
	orq	%r11, %r10
	bswapq	%r10
	cmpq	%r10, %r9
	je	59b
77:
	decq	%rdi
	addq	$24, %r8
	testq	%rdi, %rdi
	je	79f
78:
	cmpq	%r14, 8(%r8)
	jb	77b
	movq	(%r8), %r9
	cmpq	$3, %r14
	ja	76b
	testq	%r14, %r14
	je	59b
	movzbl	(%r9), %r10d
	movq	144(%rsp), %r12
	movzbl	(%r9,%r12), %r11d
	shll	$16, %r10d
	shll	$8, %r11d
	orl	%r10d, %r11d
	leaq	-1(%r14), %rax
	movzbl	(%r9,%rax), %r9d
	orq	%r11, %r9
	movzbl	(%r15), %r10d
	movzbl	(%r15,%r12), %r11d
	shll	$16, %r10d
	shll	$8, %r11d
	orl	%r10d, %r11d
	movzbl	(%r15,%rax), %r10d
	orq	%r11, %r10
	cmpq	%r10, %r9
	jne	77b
	jmp	59b
79:
	movq	%r13, %r10
	movq	32(%rsp), %r9
	jmp	60b
80:
	movq	%r13, %r10
	jmp	60b
81:
	cmpq	$65, %r14
	jae	82f
	movdqu	(%rdi), %xmm0
	movdqu	16(%rdi), %xmm1
	movdqu	(%r15), %xmm2
	pcmpeqb	%xmm0, %xmm2
	movdqu	16(%r15), %xmm3
	pcmpeqb	%xmm1, %xmm3
	pcmpeqd	%xmm1, %xmm1
	pxor	%xmm1, %xmm2
	pxor	%xmm1, %xmm3
	por	%xmm2, %xmm3
	movq	104(%rsp), %r8
	movdqu	(%rdi,%r8), %xmm0
	movdqu	(%r15,%r8), %xmm2
	pcmpeqb	%xmm0, %xmm2
	pxor	%xmm1, %xmm2
	leaq	-16(%r14), %r8
	movdqu	(%rdi,%r8), %xmm4
	movdqu	(%r15,%r8), %xmm0
	pcmpeqb	%xmm4, %xmm0
	pxor	%xmm1, %xmm0
	por	%xmm2, %xmm0
	por	%xmm3, %xmm0
	ptest	1b(%rip), %xmm0
	jne	63b
	jmp	59b
82:
	xorl	%r8d, %r8d
	movq	%r14, %r9
	.p2align	4
83:
	movdqu	(%rdi,%r8), %xmm0
	movdqu	16(%rdi,%r8), %xmm1
	movdqu	32(%rdi,%r8), %xmm2
	movdqu	48(%rdi,%r8), %xmm3
	movdqu	(%r15,%r8), %xmm4
	pcmpeqb	%xmm0, %xmm4
	movdqu	16(%r15,%r8), %xmm0
	pcmpeqb	%xmm1, %xmm0
	pand	%xmm4, %xmm0
	movdqu	32(%r15,%r8), %xmm1
	pcmpeqb	%xmm2, %xmm1
	movdqu	48(%r15,%r8), %xmm2
	pcmpeqb	%xmm3, %xmm2
	pand	%xmm1, %xmm2
	pand	%xmm0, %xmm2
	pmovmskb	%xmm2, %r10d
	cmpl	$65535, %r10d
	jne	63b
	addq	$64, %r8
	addq	$-64, %r9
	cmpq	$65, %r9
	jae	83b
	leaq	-64(%r14), %r8
	movdqu	(%rdi,%r8), %xmm0
	movdqu	16(%rdi,%r8), %xmm1
	movdqu	32(%rdi,%r8), %xmm2
	movdqu	48(%rdi,%r8), %xmm3
	movdqu	(%r15,%r8), %xmm4
	pcmpeqb	%xmm0, %xmm4
	movdqu	16(%r15,%r8), %xmm5
	pcmpeqb	%xmm1, %xmm5
	movdqu	32(%r15,%r8), %xmm0
	pcmpeqb	%xmm2, %xmm0
	movdqu	48(%r15,%r8), %xmm1
	pcmpeqb	%xmm3, %xmm1
	pcmpeqd	%xmm2, %xmm2
	pxor	%xmm2, %xmm1
	pxor	%xmm2, %xmm0
	por	%xmm1, %xmm0
	pxor	%xmm2, %xmm4
	pxor	%xmm2, %xmm5
	por	%xmm4, %xmm5
	por	%xmm0, %xmm5
	pxor	%xmm0, %xmm0
	pcmpgtb	%xmm5, %xmm0
	ptest	1b(%rip), %xmm0
	jne	63b
	jmp	59b
84:
	testq	%rdi, %rdi
	je	130f
	leaq	-64(%r14), %rax
	movq	%rax, 1064(%rsp)
	leaq	-16(%r14), %rax
	cmpq	$32, %rax
	movl	$32, %ecx
	movq	%rax, 1080(%rsp)
	cmovbq	%rax, %rcx
	movq	%rcx, 104(%rsp)
	leaq	-8(%r14), %rax
	cmpq	$8, %rax
	movl	$8, %ebx
	cmovbq	%rax, %rbx
	cmpq	$16, %rax
	movl	$16, %ecx
	movq	%rax, 1088(%rsp)
	cmovbq	%rax, %rcx
	movq	%rcx, 128(%rsp)
	movq	%r14, %rax
	shrq	%rax
	movq	%rax, 144(%rsp)
	leaq	-1(%r14), %rax
	movq	%rax, 1096(%rsp)
	leaq	-4(%r14), %rax
	movq	%rax, 184(%rsp)
	jmp	87f
85:
	pxor	%xmm0, %xmm0
	movdqa	%xmm0, 192(%rsp)
	movdqa	%xmm0, 208(%rsp)
	movdqa	%xmm0, 224(%rsp)
	movdqa	%xmm0, 240(%rsp)
	movdqa	%xmm0, 256(%rsp)
	movdqa	%xmm0, 592(%rsp)
	movdqa	%xmm0, 608(%rsp)
	movdqa	%xmm0, 624(%rsp)
	leaq	592(%rsp), %rdi
	movq	136(%rsp), %r14
	movq	%r14, %rsi
	movq	160(%rsp), %r15
	movq	%r15, %rdx
	callq	"clap::parser::parse::Parser::resolve_pending"
	cmpb	$0, 592(%rsp)
	je	106f
	movzbl	600(%rsp), %r12d
	movzbl	608(%rsp), %eax
	leaq	616(%rsp), %rsi
	movq	16(%rsi), %rcx
	leaq	216(%rsp), %rdx
	movq	%rcx, 16(%rdx)
	movups	(%rsi), %xmm0
	movups	%xmm0, (%rdx)
	movq	%rax, 208(%rsp)
	movups	-8(%rdx), %xmm0
	movaps	%xmm0, 736(%rsp)
	movq	224(%rsp), %r14
	movq	232(%rsp), %r13
	xorps	%xmm0, %xmm0
	movaps	%xmm0, 704(%rsp)
	movq	$0, 720(%rsp)
	movb	$1, %al
	xorl	%esi, %esi
	jmp	107f
86:
	movzbl	768(%rsp), %eax
	andb	%dl, %al
	testb	$1, %al
	je	87f
	xorl	%r14d, %r14d
	xorl	%ecx, %ecx
	jmp	149f
87:
	cmpq	$7, %r14
	ja	92f
	xorl	%ebx, %ebx
	cmpq	$4, %r14
	jae	89f
	testq	%r14, %r14
	jne	98f
	jmp	128f
88:
	incq	%rbx
	cmpq	%r8, %rbx
	je	130f
89:
	imulq	$672, %rbx, %rax
	leaq	(%r9,%rax), %r12
	leaq	(%r9,%rax), %rdi
	addq	$16, %rdi
	movq	$1, 192(%rsp)
	movq	%r15, 200(%rsp)
	movq	%r14, 208(%rsp)
	leaq	192(%rsp), %rsi
	callq	"core::cmp::declared::OptionPartialEq::eq::<#a18ca2343ae6f068>"
	testb	%al, %al
	jne	121f
	movq	416(%r12), %rax
	testq	%rax, %rax
	movq	32(%rsp), %r9
	movq	112(%rsp), %r8
	je	88b
	movq	408(%r12), %rcx
	addq	$8, %rcx
	jmp	91f
	.p2align	4
90:
	decq	%rax
	addq	$24, %rcx
	testq	%rax, %rax
	je	88b
91:
	cmpq	%r14, (%rcx)
	jne	90b
	movq	-8(%rcx), %rdx
	movl	(%rdx), %esi
	movq	184(%rsp), %rdi
	movl	(%rdx,%rdi), %edx
	shlq	$32, %rdx
	orq	%rsi, %rdx
	movl	(%r15), %esi
	movl	(%r15,%rdi), %edi
	shlq	$32, %rdi
	orq	%rsi, %rdi
	cmpq	%rdi, %rdx
	jne	90b
	jmp	121f
92:
	cmpq	$32, %r14
	ja	111f
	xorl	%r13d, %r13d
	jmp	94f
93:
	incq	%r13
	cmpq	%rdi, %r13
	je	130f
94:
	imulq	$672, %r13, %rax
	leaq	(%r9,%rax), %r12
	leaq	(%r9,%rax), %rdi
	addq	$16, %rdi
	movq	$1, 192(%rsp)
	movq	%r15, 200(%rsp)
	movq	%r14, 208(%rsp)
	leaq	192(%rsp), %rsi
	callq	"core::cmp::declared::OptionPartialEq::eq::<#a18ca2343ae6f068>"
	testb	%al, %al
	jne	121f
	movq	416(%r12), %rax
	testq	%rax, %rax
	movq	32(%rsp), %r9
	movq	112(%rsp), %rdi
	je	93b
	movq	408(%r12), %rcx
	addq	$8, %rcx
	jmp	96f
	.p2align	4
95:
	decq	%rax
	addq	$24, %rcx
	testq	%rax, %rax
	je	93b
96:
	cmpq	%r14, (%rcx)
	jne	95b
	movq	-8(%rcx), %rdx
	movq	(%rdx), %rsi
	cmpq	(%r15), %rsi
	jne	95b
	movq	(%r15,%rbx), %rsi
	cmpq	%rsi, (%rdx,%rbx)
	jne	95b
	movq	128(%rsp), %r8
	movq	(%r15,%r8), %rsi
	cmpq	%rsi, (%rdx,%r8)
	jne	95b
	movq	1088(%rsp), %r8
	movq	(%r15,%r8), %rsi
	cmpq	%rsi, (%rdx,%r8)
	jne	95b
	jmp	121f
97:
	incq	%rbx
	cmpq	%r8, %rbx
	je	130f
98:
	imulq	$672, %rbx, %rax
	leaq	(%r9,%rax), %r12
	leaq	(%r9,%rax), %rdi
	addq	$16, %rdi
	movq	$1, 192(%rsp)
	movq	%r15, 200(%rsp)
	movq	%r14, 208(%rsp)
	leaq	192(%rsp), %rsi
	callq	"core::cmp::declared::OptionPartialEq::eq::<#a18ca2343ae6f068>"
	testb	%al, %al
	jne	121f
	movq	416(%r12), %rax
	testq	%rax, %rax
	movq	32(%rsp), %r9
	movq	112(%rsp), %r8
	je	97b
	movq	408(%r12), %rcx
	addq	$8, %rcx
	jmp	100f
	.p2align	4
99:
	decq	%rax
	addq	$24, %rcx
	testq	%rax, %rax
	je	97b
100:
	cmpq	%r14, (%rcx)
	jne	99b
	movq	-8(%rcx), %rdx
	movzbl	(%rdx), %esi
	movq	144(%rsp), %r10
	movzbl	(%rdx,%r10), %edi
	shll	$16, %esi
	shll	$8, %edi
	orl	%esi, %edi
	movq	1096(%rsp), %r11
	movzbl	(%rdx,%r11), %edx
	orl	%edi, %edx
	movzbl	(%r15), %esi
	movzbl	(%r15,%r10), %edi
	shll	$16, %esi
	shll	$8, %edi
	orl	%esi, %edi
	movzbl	(%r15,%r11), %esi
	orl	%edi, %esi
	cmpl	%esi, %edx
	jne	99b
	jmp	121f
101:
	addb	$-48, %al
	cmpb	$9, %al
	ja	20b
	cmpq	$1, %r15
	je	209f
	movl	$1, %eax
	xorl	%ecx, %ecx
	xorl	%edx, %edx
	jmp	104f
	.p2align	4
102:
	movq	%rax, %rcx
	testb	%dl, %dl
	movb	$1, %dl
	jne	105f
103:
	incq	%rax
	cmpq	%rax, %r15
	je	207f
104:
	movzbl	(%rbp,%rax), %esi
	cmpl	$69, %esi
	je	102b
	cmpl	$101, %esi
	je	102b
	cmpl	$46, %esi
	je	203f
	addb	$-48, %sil
	cmpb	$9, %sil
	jbe	103b
105:
	xorl	%r13d, %r13d
	jmp	208f
106:
	leaq	56(%rsp), %rax
	movq	%rax, 960(%rsp)
	leaq	968(%rsp), %rax
	pxor	%xmm0, %xmm0
	movdqu	%xmm0, (%rax)
	movq	%r15, 16(%rsp)
	movq	$0, 8(%rsp)
	movl	$0, (%rsp)
	leaq	192(%rsp), %rdi
	leaq	960(%rsp), %r9
	movq	%r14, %rsi
	movl	$1, %edx
	movl	$1, %ecx
	movq	%rbx, %r8
	callq	"clap::parser::parse::Parser::act"
	movzbl	192(%rsp), %eax
	movzbl	200(%rsp), %r12d
	leaq	216(%rsp), %rdx
	movups	-8(%rdx), %xmm0
	movaps	%xmm0, 736(%rsp)
	movq	224(%rsp), %r14
	movq	232(%rsp), %r13
	movq	240(%rsp), %rsi
	movq	48(%rdx), %rcx
	movq	%rcx, 720(%rsp)
	movups	32(%rdx), %xmm0
	movaps	%xmm0, 704(%rsp)
107:
	movq	64(%rsp), %r8
	movq	24(%rsp), %rdi
108:
	movaps	736(%rsp), %xmm0
	leaq	512(%rsp), %rdx
	movups	%xmm0, (%rdx)
	movq	%r13, 536(%rsp)
	movq	%rsi, 544(%rsp)
	movq	720(%rsp), %rcx
	movq	%rcx, 56(%rdx)
	movdqa	704(%rsp), %xmm0
	movdqu	%xmm0, 40(%rdx)
109:
	movq	512(%rsp), %r11
	movq	520(%rsp), %r10
	movb	$1, %cl
	movq	%rcx, 168(%rsp)
	testb	%al, %al
	movq	48(%rsp), %rdx
	leaq	1(%rdx), %r9
	je	110f
	movq	80(%rsp), %rsi
	movq	40(%rsp), %rcx
	movq	%r13, %rbp
	jmp	299f
110:
	movq	%r11, 72(%rsp)
	movq	552(%rsp), %rdx
	movq	560(%rsp), %rbx
	movq	568(%rsp), %r15
	movzbl	%r12b, %eax
	leaq	498f(%rip), %rcx
	movslq	(%rcx,%rax,4), %rax
	addq	%rcx, %rax
	jmpq	*%rax
111:
	xorl	%ebx, %ebx
	cmpq	$65, %r14
	jb	118f
	jmp	113f
112:
	incq	%rbx
	cmpq	%r10, %rbx
	je	130f
113:
	imulq	$672, %rbx, %rax
	leaq	(%r9,%rax), %r12
	leaq	(%r9,%rax), %rdi
	addq	$16, %rdi
	movq	$1, 192(%rsp)
	movq	%r15, 200(%rsp)
	movq	%r14, 208(%rsp)
	leaq	192(%rsp), %rsi
	callq	"core::cmp::declared::OptionPartialEq::eq::<#a18ca2343ae6f068>"
	testb	%al, %al
	jne	121f
	movq	416(%r12), %rax
	testq	%rax, %rax
	movq	32(%rsp), %r9
	movq	112(%rsp), %r10
	je	112b
	movq	408(%r12), %rcx
	jmp	115f
	.p2align	4
114:
	addq	$24, %rcx
	decq	%rax
	je	112b
115:
	cmpq	%r14, 8(%rcx)
	jne	114b
	movq	(%rcx), %rdx
	xorl	%esi, %esi
	movq	%r14, %rdi
	.p2align	4
116:
	movdqu	(%rdx,%rsi), %xmm0
	movdqu	16(%rdx,%rsi), %xmm1
	movdqu	32(%rdx,%rsi), %xmm2
	movdqu	48(%rdx,%rsi), %xmm3
	movdqu	(%r15,%rsi), %xmm4
	pcmpeqb	%xmm0, %xmm4
	movdqu	16(%r15,%rsi), %xmm0
	pcmpeqb	%xmm1, %xmm0
	pand	%xmm4, %xmm0
	movdqu	32(%r15,%rsi), %xmm1
	pcmpeqb	%xmm2, %xmm1
	movdqu	48(%r15,%rsi), %xmm2
	pcmpeqb	%xmm3, %xmm2
	pand	%xmm1, %xmm2
	pand	%xmm0, %xmm2
	pmovmskb	%xmm2, %r8d
	cmpl	$65535, %r8d
	jne	114b
	addq	$64, %rsi
	addq	$-64, %rdi
	cmpq	$65, %rdi
	jae	116b
	movq	1064(%rsp), %rsi
	movdqu	(%rdx,%rsi), %xmm0
	movdqu	16(%rdx,%rsi), %xmm1
	movdqu	32(%rdx,%rsi), %xmm2
	movdqu	48(%rdx,%rsi), %xmm3
	movdqu	(%r15,%rsi), %xmm4
	pcmpeqb	%xmm0, %xmm4
	movdqu	16(%r15,%rsi), %xmm0
	pcmpeqb	%xmm1, %xmm0
	pand	%xmm4, %xmm0
	movdqu	32(%r15,%rsi), %xmm1
	pcmpeqb	%xmm2, %xmm1
	movdqu	48(%r15,%rsi), %xmm2
	pcmpeqb	%xmm3, %xmm2
	pand	%xmm1, %xmm2
	pand	%xmm0, %xmm2
	pmovmskb	%xmm2, %edx
	cmpl	$65535, %edx
	jne	114b
	jmp	121f
117:
	incq	%rbx
	cmpq	%rsi, %rbx
	je	130f
118:
	imulq	$672, %rbx, %rax
	leaq	(%r9,%rax), %r12
	leaq	(%r9,%rax), %rdi
	addq	$16, %rdi
	movq	$1, 192(%rsp)
	movq	%r15, 200(%rsp)
	movq	%r14, 208(%rsp)
	leaq	192(%rsp), %rsi
	callq	"core::cmp::declared::OptionPartialEq::eq::<#a18ca2343ae6f068>"
	testb	%al, %al
	jne	121f
	movq	416(%r12), %rax
	testq	%rax, %rax
	movq	32(%rsp), %r9
	movq	112(%rsp), %rsi
	je	117b
	movq	408(%r12), %rcx
	addq	$8, %rcx
	jmp	120f
	.p2align	4
119:
	decq	%rax
	addq	$24, %rcx
	testq	%rax, %rax
	je	117b
120:
	cmpq	%r14, (%rcx)
	jne	119b
	movq	-8(%rcx), %rdx
	movdqu	(%rdx), %xmm0
	movdqu	16(%rdx), %xmm1
	movdqu	(%r15), %xmm2
	pcmpeqb	%xmm0, %xmm2
	movdqu	16(%r15), %xmm0
	pcmpeqb	%xmm1, %xmm0
	pand	%xmm2, %xmm0
	movq	104(%rsp), %rdi
	movdqu	(%rdx,%rdi), %xmm1
	movdqu	(%r15,%rdi), %xmm2
	pcmpeqb	%xmm1, %xmm2
	movq	1080(%rsp), %rdi
	movdqu	(%rdx,%rdi), %xmm1
	movdqu	(%r15,%rdi), %xmm3
	pcmpeqb	%xmm1, %xmm3
	pand	%xmm2, %xmm3
	pand	%xmm0, %xmm3
	pmovmskb	%xmm3, %edx
	cmpl	$65535, %edx
	jne	119b
121:
	movq	(%r12), %rax
	movq	%rax, 72(%rsp)
	movq	8(%r12), %r10
	xorl	%r14d, %r14d
	xorl	%esi, %esi
	movzbl	%r14b, %eax
	leaq	498f(%rip), %rcx
	movslq	(%rcx,%rax,4), %rax
	addq	%rcx, %rax
	xorl	%r15d, %r15d
	xorl	%ebx, %ebx
	xorl	%edx, %edx
	xorl	%r13d, %r13d
	jmpq	*%rax
122:
	movq	400(%rsp), %rax
	movq	(%rbx), %r15
	movq	8(%rbx), %r12
	movq	32(%rsp), %r13
	cmpq	%r13, %rax
	je	294f
123:
	movq	%rax, 32(%rsp)
	movq	384(%rsp), %r14
	movq	%r13, %rax
	shlq	$4, %rax
	movq	%r15, (%r14,%rax)
	movq	%r12, 8(%r14,%rax)
	incq	%r13
	movq	%r13, 392(%rsp)
	pxor	%xmm0, %xmm0
	movdqu	%xmm0, 607(%rsp)
	movdqa	%xmm0, 592(%rsp)
	leaq	216(%rsp), %r15
	movdqu	%xmm0, -16(%r15)
	movl	$0, 36(%r15)
	movl	$0, 33(%r15)
	leaq	56(%rsp), %rax
	movq	%rax, 192(%rsp)
	movl	$32, 216(%rsp)
	movl	$0, 12(%r15)
	movq	$0, 4(%r15)
	movq	$-1, 232(%rsp)
	movq	$0, 240(%rsp)
	movb	$0, 248(%rsp)
	movq	16(%r15), %rax
	movq	%rax, 976(%rsp)
	movl	(%r15), %eax
	movl	%eax, 960(%rsp)
	movq	4(%r15), %rax
	movq	%rax, 964(%rsp)
	movl	12(%r15), %eax
	movl	%eax, 972(%rsp)
	movl	$32, 216(%rsp)
	movl	$0, 12(%r15)
	movq	$0, 4(%r15)
	movq	$-1, 232(%rsp)
	movq	$0, 840(%rsp)
	movq	%rbx, 832(%rsp)
	leaq	832(%rsp), %rdi
	leaq	192(%rsp), %rsi
	callq	"clap::builder::arg::StylizedDisplay::fmt::<#86a172efa8724158>"
	movq	976(%rsp), %rcx
	movq	%rcx, 16(%r15)
	movdqa	960(%rsp), %xmm0
	movdqu	%xmm0, (%r15)
	testb	%al, %al
	je	138f
	cmpq	$0, 208(%rsp)
	movq	72(%rsp), %rbx
	je	124f
	movq	192(%rsp), %rdi
	callq	rattle_dealloc@PLT
124:
	pxor	%xmm0, %xmm0
	leaq	887(%rsp), %rax
	movdqu	%xmm0, (%rax)
	movq	$0, 16(%rax)
	cmpq	$0, 32(%rsp)
	je	125f
	movq	%r14, %rdi
	callq	rattle_dealloc@PLT
125:
	cmpq	$0, 152(%rsp)
	je	297f
	movq	%rbx, %rdi
126:
	callq	rattle_dealloc@PLT
	jmp	297f
127:
	incq	%rbx
	cmpq	%rdx, %rbx
	je	130f
128:
	imulq	$672, %rbx, %rax
	leaq	(%r9,%rax), %r12
	leaq	(%r9,%rax), %rdi
	addq	$16, %rdi
	movq	$1, 192(%rsp)
	movq	%r15, 200(%rsp)
	movq	$0, 208(%rsp)
	leaq	192(%rsp), %rsi
	callq	"core::cmp::declared::OptionPartialEq::eq::<#a18ca2343ae6f068>"
	testb	%al, %al
	jne	121b
	movq	416(%r12), %rax
	testq	%rax, %rax
	movq	32(%rsp), %r9
	movq	112(%rsp), %rdx
	je	127b
	movq	408(%r12), %rcx
	addq	$8, %rcx
	.p2align	4
129:
	cmpq	$0, (%rcx)
	je	121b
	addq	$24, %rcx
	decq	%rax
	jne	129b
	jmp	127b
130:
	movq	176(%rsp), %rdi
	testq	%rdi, %rdi
	movq	48(%rsp), %rdx
	leaq	1(%rdx), %r9
	movq	80(%rsp), %rsi
	movq	40(%rsp), %rcx
	movq	152(%rsp), %rax
	je	133f
	addq	$605, %rax
	jmp	132f
	.p2align	4
131:
	addq	$608, %rax
	decq	%rdi
	je	133f
132:
	cmpb	$1, -117(%rax)
	jne	131b
	cmpq	%rsi, -109(%rax)
	jne	131b
	cmpb	$1, -5(%rax)
	jne	133f
	cmpb	$1, (%rax)
	jne	176f
133:
	testq	%r14, %r14
	je	134f
	js	137f
	movl	$1, %esi
	movq	%r14, %rdi
	callq	rattle_alloc@PLT
	testb	$1, %al
	je	297f
	movq	%rdx, %rdi
	jmp	135f
134:
	leaq	56(%rsp), %rdi
135:
	movq	%rdi, %rcx
	subq	%r15, %rcx
	cmpq	%r14, %rcx
	movq	%rdi, 72(%rsp)
	jae	136f
	xorl	%eax, %eax
	cmpq	$4, %r14
	jb	144f
	cmpq	$32, %rcx
	jb	144f
	cmpq	$32, %r14
	jae	140f
	xorl	%eax, %eax
	jmp	142f
136:
	movq	%r15, %rsi
	movq	%r14, %rdx
	callq	memmove@PLT
	movb	$7, %al
	xorl	%esi, %esi
	movzbl	%al, %eax
	leaq	498f(%rip), %rcx
	movslq	(%rcx,%rax,4), %rax
	addq	%rcx, %rax
	movq	%r14, %r10
	xorl	%r15d, %r15d
	xorl	%ebx, %ebx
	xorl	%edx, %edx
	xorl	%r13d, %r13d
	jmpq	*%rax
137:
	movq	64(%rsp), %r8
	movq	24(%rsp), %rdi
	jmp	298f
138:
	movq	208(%rsp), %rax
	leaq	616(%rsp), %rcx
	movq	%rax, -1(%rcx)
	movups	192(%rsp), %xmm0
	movups	%xmm0, -17(%rcx)
	movq	-1(%rcx), %rax
	leaq	887(%rsp), %rdx
	movq	%rax, 16(%rdx)
	movups	-17(%rcx), %xmm0
	movups	%xmm0, (%rdx)
	movaps	352(%rsp), %xmm0
	movaps	%xmm0, 736(%rsp)
	movups	(%rdx), %xmm0
	movaps	%xmm0, 704(%rsp)
	movq	16(%rdx), %rax
	movq	%rax, 720(%rsp)
	movb	$4, %r12b
	cmpq	$0, 152(%rsp)
	movq	72(%rsp), %rdi
	je	139f
	callq	rattle_dealloc@PLT
139:
	xorl	%eax, %eax
	movq	64(%rsp), %r8
	movq	24(%rsp), %rdi
	movq	32(%rsp), %rsi
	jmp	108b
140:
	movq	%r14, %rax
	andq	$-32, %rax
	xorl	%ecx, %ecx
	.p2align	4
141:
	movdqu	(%r15,%rcx), %xmm0
	movdqu	16(%r15,%rcx), %xmm1
	movdqu	%xmm0, (%rdi,%rcx)
	movdqu	%xmm1, 16(%rdi,%rcx)
	addq	$32, %rcx
	cmpq	%rcx, %rax
	jne	141b
	movb	$7, %cl
	cmpq	%rax, %r14
	je	148f
	testb	$28, %r14b
	je	144f
142:
	movq	%rax, %rcx
	movq	%r14, %rax
	andq	$-4, %rax
	.p2align	4
143:
	movl	(%r15,%rcx), %edx
	movl	%edx, (%rdi,%rcx)
	addq	$4, %rcx
	cmpq	%rcx, %rax
	jne	143b
	movb	$7, %cl
	cmpq	%rax, %r14
	je	148f
144:
	movq	%r14, %rcx
	movq	%rax, %rdx
	andq	$3, %rcx
	je	146f
	movq	%rax, %rdx
	.p2align	4
145:
	movzbl	(%r15,%rdx), %esi
	movb	%sil, (%rdi,%rdx)
	incq	%rdx
	decq	%rcx
	jne	145b
146:
	subq	%r14, %rax
	movb	$7, %cl
	cmpq	$-4, %rax
	ja	148f
	.p2align	4
147:
	movzbl	(%r15,%rdx), %eax
	movb	%al, (%rdi,%rdx)
	movzbl	1(%r15,%rdx), %eax
	movb	%al, 1(%rdi,%rdx)
	movzbl	2(%r15,%rdx), %eax
	movb	%al, 2(%rdi,%rdx)
	movzbl	3(%r15,%rdx), %eax
	movb	%al, 3(%rdi,%rdx)
	addq	$4, %rdx
	cmpq	%rdx, %r14
	jne	147b
148:
	movq	%r14, %r10
149:
	xorl	%esi, %esi
	movzbl	%cl, %eax
	leaq	498f(%rip), %rcx
	movslq	(%rcx,%rax,4), %rax
	addq	%rcx, %rax
	xorl	%r15d, %r15d
	xorl	%ebx, %ebx
	xorl	%edx, %edx
	xorl	%r13d, %r13d
	jmpq	*%rax
150:
	movq	344(%rsp), %rax
	movq	%rax, 1424(%rsp)
	movq	336(%rsp), %rax
	movq	%rax, 1432(%rsp)
	movq	464(%rsp), %rax
	movq	%rax, 1440(%rsp)
	leaq	416(%rsp), %rdi
	leaq	1424(%rsp), %r8
	movq	136(%rsp), %rsi
	movq	64(%rsp), %rbx
	movq	%rbx, %rdx
	movq	480(%rsp), %rcx
	movq	160(%rsp), %r9
	callq	"clap::parser::parse::Parser::take_plain_word"
	movq	%rbx, %r8
	movq	80(%rsp), %rsi
	jmp	202f
151:
	movq	72(%rsp), %rax
	movq	%rax, 1008(%rsp)
	movq	%r10, 1016(%rsp)
	movq	%r14, 1024(%rsp)
	leaq	640(%rsp), %rdi
	leaq	1008(%rsp), %rcx
	movq	136(%rsp), %rsi
	movq	160(%rsp), %rdx
	callq	"clap::parser::parse::Parser::no_equals"
	cmpb	$0, 640(%rsp)
	je	160f
152:
	pxor	%xmm0, %xmm0
	leaq	304(%rsp), %rax
	movdqu	%xmm0, 16(%rax)
	movdqu	%xmm0, (%rax)
	movb	$1, %r15b
	movb	$16, %r12b
	xorl	%r10d, %r10d
	xorl	%r14d, %r14d
	xorl	%r13d, %r13d
	xorl	%ebp, %ebp
	xorl	%ebx, %ebx
153:
	movq	48(%rsp), %rdx
	leaq	1(%rdx), %r9
	movq	80(%rsp), %rsi
	movq	64(%rsp), %r8
	jmp	47b
154:
	pxor	%xmm0, %xmm0
	movdqa	%xmm0, 416(%rsp)
	movq	$0, 432(%rsp)
	movdqa	1600(%rsp), %xmm0
	leaq	440(%rsp), %rax
	movdqu	%xmm0, (%rax)
	jmp	201f
155:
	movq	%rdx, 128(%rsp)
	movq	%rsi, 32(%rsp)
	movq	%r10, 104(%rsp)
	pxor	%xmm0, %xmm0
	movdqa	%xmm0, 496(%rsp)
	movdqa	%xmm0, 512(%rsp)
	movdqa	%xmm0, 528(%rsp)
	movdqa	%xmm0, 592(%rsp)
	movdqa	%xmm0, 608(%rsp)
	leaq	808(%rsp), %rax
	movdqu	%xmm0, -16(%rax)
	movdqa	%xmm0, 224(%rsp)
	movdqa	%xmm0, 208(%rsp)
	movdqa	%xmm0, 192(%rsp)
	leaq	192(%rsp), %rdi
	movq	136(%rsp), %rsi
	movq	160(%rsp), %rdx
	callq	"clap::parser::parse::Parser::resolve_pending"
	cmpb	$1, 192(%rsp)
	jne	162f
	cmpb	$1, 208(%rsp)
	movq	216(%rsp), %rdi
	setne	%cl
	cmpq	$0, 232(%rsp)
	sete	%al
	orb	%cl, %al
	cmpb	$16, 200(%rsp)
	jne	161f
	testb	%al, %al
	jne	163f
	callq	rattle_dealloc@PLT
	jmp	163f
156:
	movq	$0, 416(%rsp)
	movq	$2, 424(%rsp)
	movq	72(%rsp), %rax
	movq	%rax, 432(%rsp)
	movq	%r10, 440(%rsp)
	movb	$0, 448(%rsp)
	movl	776(%rsp), %eax
	movl	779(%rsp), %ecx
	leaq	440(%rsp), %rdx
	movl	%ecx, 12(%rdx)
	movl	%eax, 9(%rdx)
	jmp	201f
157:
	pxor	%xmm0, %xmm0
	movdqa	%xmm0, 416(%rsp)
	movq	$1, 432(%rsp)
	movq	72(%rsp), %rax
	movq	%rax, 440(%rsp)
	movq	%r10, 448(%rsp)
	jmp	201f
158:
	movq	%r10, 104(%rsp)
	pxor	%xmm0, %xmm0
	movdqa	%xmm0, 224(%rsp)
	movdqa	%xmm0, 208(%rsp)
	movdqa	%xmm0, 192(%rsp)
	leaq	192(%rsp), %rdi
	movq	136(%rsp), %rbx
	movq	%rbx, %rsi
	movq	160(%rsp), %rdx
	callq	"clap::parser::parse::Parser::resolve_pending"
	movq	104(%rsp), %r8
	cmpb	$1, 192(%rsp)
	jne	171f
	cmpb	$1, 208(%rsp)
	movq	216(%rsp), %rdi
	setne	%cl
	cmpq	$0, 232(%rsp)
	sete	%al
	orb	%cl, %al
	cmpb	$16, 200(%rsp)
	jne	170f
	testb	%al, %al
	jne	159f
	callq	rattle_dealloc@PLT
159:
	testq	%r14, %r14
	movq	72(%rsp), %rdi
	je	152b
	callq	rattle_dealloc@PLT
	jmp	152b
160:
	movzbl	656(%rsp), %eax
	movzbl	648(%rsp), %ecx
	movq	$1, 416(%rsp)
	movb	%cl, 424(%rsp)
	movq	%rax, 432(%rsp)
	leaq	664(%rsp), %rcx
	movq	16(%rcx), %rax
	leaq	440(%rsp), %rdx
	movq	%rax, 16(%rdx)
	movdqu	(%rcx), %xmm0
	movdqu	%xmm0, (%rdx)
	jmp	201f
161:
	testb	%al, %al
	jne	162f
	callq	rattle_dealloc@PLT
162:
	movq	136(%rsp), %rbp
	movq	(%rbp), %rsi
	movq	$0, 784(%rsp)
	leaq	592(%rsp), %rdi
	leaq	784(%rsp), %r8
	movq	%r14, %rdx
	movq	%r13, %rcx
	callq	"clap::output::usage::with_title"
	cmpb	$0, 592(%rsp)
	je	165f
163:
	testq	%r15, %r15
	je	164f
	movq	128(%rsp), %rdi
	callq	rattle_dealloc@PLT
164:
	cmpq	$0, 32(%rsp)
	je	169f
	movq	%r14, %rdi
	callq	rattle_dealloc@PLT
	jmp	169f
165:
	movq	600(%rsp), %r12
	movq	608(%rsp), %rax
	movq	(%rbp), %rsi
	movq	$1, 880(%rsp)
	movq	%r12, 888(%rsp)
	movq	%rax, 896(%rsp)
	movq	616(%rsp), %rbp
	leaq	880(%rsp), %rax
	movq	%rax, (%rsp)
	leaq	496(%rsp), %rdi
	movq	72(%rsp), %rdx
	movq	104(%rsp), %rcx
	movq	128(%rsp), %r8
	movq	%rbx, %r9
	callq	"clap::error::Error::too_many_values"
	testq	%rbp, %rbp
	je	166f
	movq	%r12, %rdi
	callq	rattle_dealloc@PLT
166:
	testq	%r15, %r15
	je	167f
	movq	128(%rsp), %rdi
	callq	rattle_dealloc@PLT
167:
	cmpq	$0, 32(%rsp)
	je	168f
	movq	%r14, %rdi
	callq	rattle_dealloc@PLT
168:
	movzbl	504(%rsp), %eax
	movzbl	512(%rsp), %ecx
	leaq	512(%rsp), %rdx
	movdqu	8(%rdx), %xmm0
	movdqa	%xmm0, 1040(%rsp)
	movq	24(%rdx), %rdx
	movq	%rdx, 1056(%rsp)
	cmpb	$0, 496(%rsp)
	je	200f
169:
	movq	80(%rsp), %rsi
	movq	64(%rsp), %r8
	movq	48(%rsp), %rdx
	movq	24(%rsp), %rdi
	pxor	%xmm0, %xmm0
	leaq	304(%rsp), %rax
	movdqu	%xmm0, 16(%rax)
	movdqu	%xmm0, (%rax)
	movb	$1, %r15b
	movb	$16, %r12b
	xorl	%r10d, %r10d
	xorl	%r14d, %r14d
	xorl	%r13d, %r13d
	xorl	%ebp, %ebp
	xorl	%ebx, %ebx
	leaq	1(%rdx), %r9
	jmp	48b
170:
	testb	%al, %al
	jne	171f
	callq	rattle_dealloc@PLT
	movq	104(%rsp), %r8
171:
	pxor	%xmm0, %xmm0
	movdqa	%xmm0, 1520(%rsp)
	movdqa	%xmm0, 352(%rsp)
	movq	$0, 368(%rsp)
	movdqa	%xmm0, 1456(%rsp)
	movdqa	%xmm0, 880(%rsp)
	movdqa	%xmm0, 896(%rsp)
	movdqa	%xmm0, 960(%rsp)
	movdqa	%xmm0, 976(%rsp)
	movdqa	%xmm0, 384(%rsp)
	movdqa	%xmm0, 400(%rsp)
	movdqa	%xmm0, 944(%rsp)
	movdqa	%xmm0, 928(%rsp)
	movdqa	%xmm0, 736(%rsp)
	movq	$0, 752(%rsp)
	movdqa	%xmm0, 720(%rsp)
	movdqa	%xmm0, 704(%rsp)
	movdqa	%xmm0, 848(%rsp)
	movdqa	%xmm0, 832(%rsp)
	movdqa	%xmm0, 1504(%rsp)
	movdqa	%xmm0, 224(%rsp)
	movdqa	%xmm0, 208(%rsp)
	movdqa	%xmm0, 192(%rsp)
	movdqa	%xmm0, 528(%rsp)
	movdqa	%xmm0, 512(%rsp)
	movdqa	%xmm0, 496(%rsp)
	movdqa	%xmm0, 1104(%rsp)
	movq	$0, 1120(%rsp)
	movq	(%rbx), %r15
	movdqa	%xmm0, 1536(%rsp)
	movdqa	%xmm0, 592(%rsp)
	movdqa	%xmm0, 608(%rsp)
	movdqa	%xmm0, 784(%rsp)
	movdqa	%xmm0, 800(%rsp)
	movq	576(%r15), %rsi
	movq	584(%r15), %rdx
	leaq	592(%rsp), %rdi
	movq	72(%rsp), %rcx
	callq	"clap::parser::suggestions::best_long"
	cmpb	$0, 592(%rsp)
	je	175f
172:
	movq	48(%rsp), %rdx
	movq	24(%rsp), %rdi
	movq	40(%rsp), %rcx
	movq	72(%rsp), %rbx
	testq	%r14, %r14
	je	174f
173:
	movq	%rbx, %rdi
	callq	rattle_dealloc@PLT
	movq	40(%rsp), %rcx
	movq	24(%rsp), %rdi
	movq	48(%rsp), %rdx
174:
	pxor	%xmm0, %xmm0
	leaq	304(%rsp), %rax
	movdqu	%xmm0, 16(%rax)
	movdqu	%xmm0, (%rax)
	movb	$1, %r15b
	movb	$16, %r12b
	xorl	%r10d, %r10d
	xorl	%r14d, %r14d
	xorl	%r13d, %r13d
	xorl	%ebp, %ebp
	xorl	%ebx, %ebx
	leaq	1(%rdx), %r9
	jmp	271f
175:
	cmpb	$1, 600(%rsp)
	jne	177f
	movq	608(%rsp), %r12
	movq	616(%rsp), %r13
	pxor	%xmm0, %xmm0
	movdqa	%xmm0, 1456(%rsp)
	movb	$1, %al
	xorl	%edx, %edx
	movq	104(%rsp), %r8
	jmp	310f
176:
	movb	$5, %cl
	movq	$0, 72(%rsp)
	xorl	%r10d, %r10d
	xorl	%r14d, %r14d
	jmp	149b
177:
	movq	608(%r15), %rbx
	testq	%rbx, %rbx
	movq	48(%rsp), %rax
	leaq	1(%rax), %rax
	movq	104(%rsp), %r8
	je	308f
	movq	600(%r15), %r13
	cmpq	%rax, 696(%rsp)
	jbe	306f
	shlq	$4, %rax
	addq	584(%rsp), %rax
	movq	%rax, 152(%rsp)
	movq	$-1, 112(%rsp)
	movq	$0, 32(%rsp)
	movq	$0, 128(%rsp)
	movq	$0, 144(%rsp)
	xorl	%r12d, %r12d
	jmp	180f
178:
	movq	104(%rsp), %r8
179:
	incq	%r12
	cmpq	%rbx, %r12
	je	309f
180:
	imulq	$672, %r12, %r15
	movq	576(%r13,%r15), %rsi
	movq	584(%r13,%r15), %rdx
	leaq	784(%rsp), %rdi
	movq	72(%rsp), %rcx
	callq	"clap::parser::suggestions::best_long"
	cmpb	$0, 784(%rsp)
	jne	172b
	cmpb	$1, 792(%rsp)
	jne	178b
	addq	%r13, %r15
	movq	(%r15), %rcx
	movq	8(%r15), %rdx
	leaq	-8(%rdx), %rax
	leaq	-16(%rdx), %rsi
	cmpq	$32, %rsi
	movl	$32, %edi
	cmovbq	%rsi, %rdi
	cmpq	$8, %rax
	movl	$8, %r8d
	cmovbq	%rax, %r8
	cmpq	$16, %rax
	movl	$16, %r9d
	cmovbq	%rax, %r9
	movq	%rdx, %r10
	subq	$8, %r10
	jae	183f
	cmpq	$4, %rdx
	jb	186f
	xorl	%eax, %eax
	movq	24(%rsp), %rsi
	movq	104(%rsp), %r8
	jmp	182f
181:
	incq	%rax
	addq	$16, %rsi
	cmpq	%rax, %rbp
	je	179b
182:
	cmpq	%rdx, (%rsi)
	jne	181b
	movq	-8(%rsi), %rdi
	movl	(%rdi), %r9d
	movl	-4(%rdi,%rdx), %edi
	shlq	$32, %rdi
	orq	%r9, %rdi
	movl	(%rcx), %r10d
	movl	-4(%rcx,%rdx), %r9d
	shlq	$32, %r9
	orq	%r10, %r9
	cmpq	%r9, %rdi
	jne	181b
	jmp	197f
183:
	xorl	%eax, %eax
	cmpq	$32, %rdx
	ja	189f
	movq	24(%rsp), %rsi
	jmp	185f
184:
	incq	%rax
	addq	$16, %rsi
	cmpq	%rax, %rbp
	je	178b
185:
	cmpq	%rdx, (%rsi)
	jne	184b
	movq	-8(%rsi), %rdi
	movq	(%rdi), %r11
	cmpq	(%rcx), %r11
	jne	184b
	movq	(%rcx,%r8), %r11
	cmpq	%r11, (%rdi,%r8)
	jne	184b
	movq	(%rcx,%r9), %r11
	cmpq	%r11, (%rdi,%r9)
	jne	184b
	movq	(%rcx,%r10), %r11
	cmpq	%r11, (%rdi,%r10)
	jne	184b
	jmp	196f
186:
	testq	%rdx, %rdx
	movq	24(%rsp), %rdi
	movq	104(%rsp), %r8
	je	198f
	movq	%rdx, %rsi
	shrq	%rsi
	xorl	%eax, %eax
	jmp	188f
187:
	incq	%rax
	addq	$16, %rdi
	cmpq	%rax, %rbp
	je	179b
188:
	cmpq	%rdx, (%rdi)
	jne	187b
	movq	-8(%rdi), %r8
	movzbl	(%r8), %r9d
	movzbl	(%r8,%rsi), %r10d
	shll	$16, %r9d
	shll	$8, %r10d
	orl	%r9d, %r10d
	movzbl	-1(%r8,%rdx), %r11d
	orl	%r10d, %r11d
	movzbl	(%rcx), %r9d
	movzbl	(%rcx,%rsi), %r10d
	shll	$16, %r9d
	shll	$8, %r10d
	orl	%r9d, %r10d
	movzbl	-1(%rcx,%rdx), %r9d
	orl	%r10d, %r9d
	movq	104(%rsp), %r8
	cmpl	%r9d, %r11d
	jne	187b
	jmp	197f
189:
	cmpq	$65, %rdx
	jae	192f
	movq	24(%rsp), %r10
	movq	104(%rsp), %r8
	jmp	191f
190:
	incq	%rax
	addq	$16, %r10
	cmpq	%rax, %rbp
	je	179b
191:
	cmpq	%rdx, (%r10)
	jne	190b
	movq	-8(%r10), %r9
	movdqu	(%r9), %xmm0
	movdqu	16(%r9), %xmm1
	movdqu	(%rcx), %xmm2
	pcmpeqb	%xmm0, %xmm2
	movdqu	16(%rcx), %xmm0
	pcmpeqb	%xmm1, %xmm0
	pand	%xmm2, %xmm0
	movdqu	(%r9,%rdi), %xmm1
	movdqu	(%rcx,%rdi), %xmm2
	pcmpeqb	%xmm1, %xmm2
	movdqu	(%r9,%rsi), %xmm1
	movdqu	(%rcx,%rsi), %xmm3
	pcmpeqb	%xmm1, %xmm3
	pand	%xmm2, %xmm3
	pand	%xmm0, %xmm3
	pmovmskb	%xmm3, %r9d
	cmpl	$65535, %r9d
	jne	190b
	jmp	197f
192:
	movq	152(%rsp), %rsi
	movq	872(%rsp), %rdi
	jmp	194f
193:
	addq	$16, %rsi
	decq	%rdi
	incq	%rax
	testq	%rdi, %rdi
	je	178b
194:
	cmpq	%rdx, 8(%rsi)
	jne	193b
	movq	(%rsi), %r8
	xorl	%r9d, %r9d
	movq	%rdx, %r10
	.p2align	4
195:
	movdqu	(%r8,%r9), %xmm0
	movdqu	16(%r8,%r9), %xmm1
	movdqu	32(%r8,%r9), %xmm2
	movdqu	48(%r8,%r9), %xmm3
	movdqu	(%rcx,%r9), %xmm4
	pcmpeqb	%xmm0, %xmm4
	movdqu	16(%rcx,%r9), %xmm0
	pcmpeqb	%xmm1, %xmm0
	pand	%xmm4, %xmm0
	movdqu	32(%rcx,%r9), %xmm1
	pcmpeqb	%xmm2, %xmm1
	movdqu	48(%rcx,%r9), %xmm2
	pcmpeqb	%xmm3, %xmm2
	pand	%xmm1, %xmm2
	pand	%xmm0, %xmm2
	pmovmskb	%xmm2, %r11d
	cmpl	$65535, %r11d
	jne	193b
	addq	$64, %r9
	addq	$-64, %r10
	cmpq	$65, %r10
	jae	195b
	movdqu	-64(%r8,%rdx), %xmm0
	movdqu	-48(%r8,%rdx), %xmm1
	movdqu	-32(%r8,%rdx), %xmm2
	movdqu	-16(%r8,%rdx), %xmm3
	movdqu	-64(%rcx,%rdx), %xmm4
	pcmpeqb	%xmm0, %xmm4
	movdqu	-48(%rcx,%rdx), %xmm0
	pcmpeqb	%xmm1, %xmm0
	pand	%xmm4, %xmm0
	movdqu	-32(%rcx,%rdx), %xmm1
	pcmpeqb	%xmm2, %xmm1
	movdqu	-16(%rcx,%rdx), %xmm2
	pcmpeqb	%xmm3, %xmm2
	pand	%xmm1, %xmm2
	pand	%xmm0, %xmm2
	pmovmskb	%xmm2, %r8d
	cmpl	$65535, %r8d
	jne	193b
196:
	movq	104(%rsp), %r8
197:
	cmpq	112(%rsp), %rax
	jae	179b
	movq	800(%rsp), %rcx
	movq	%rcx, 32(%rsp)
	movq	808(%rsp), %rcx
	movq	%rcx, 128(%rsp)
	movdqu	(%r15), %xmm0
	movdqa	%xmm0, 1536(%rsp)
	movb	$1, %cl
	movq	%rcx, 144(%rsp)
	movq	%rax, 112(%rsp)
	jmp	179b
198:
	xorl	%eax, %eax
	movq	%rdi, %rcx
199:
	cmpq	$0, (%rcx)
	je	197b
	incq	%rax
	addq	$16, %rcx
	cmpq	%rax, %rbp
	jne	199b
	jmp	179b
200:
	movq	$1, 416(%rsp)
	movb	%al, 424(%rsp)
	movq	%rcx, 432(%rsp)
	movq	1056(%rsp), %rax
	leaq	440(%rsp), %rcx
	movq	%rax, 16(%rcx)
	movdqa	1040(%rsp), %xmm0
	movdqu	%xmm0, (%rcx)
201:
	movq	80(%rsp), %rsi
	movq	64(%rsp), %r8
202:
	movq	48(%rsp), %rdx
	movq	24(%rsp), %rdi
	movq	40(%rsp), %rcx
	movzbl	416(%rsp), %r15d
	movzbl	424(%rsp), %r12d
	movq	432(%rsp), %rbx
	movq	440(%rsp), %r10
	movq	448(%rsp), %r14
	movq	456(%rsp), %rbp
	movq	%rbx, 304(%rsp)
	movq	%r10, 312(%rsp)
	movq	%r14, 320(%rsp)
	movq	%rbp, 328(%rsp)
	movq	%r14, %r13
	shrq	$8, %r13
	leaq	1(%rdx), %r9
	testb	%r15b, %r15b
	movq	696(%rsp), %r15
	je	11b
	jmp	479f
203:
	testb	%dl, %dl
	sete	%r13b
	movq	80(%rsp), %rsi
	jne	209f
	movq	%rax, %rdx
	subq	%r15, %rdx
	addq	$2, %rdx
	cmpq	$1, %rdx
	je	209f
	incq	%rax
	xorl	%edx, %edx
	jmp	206f
204:
	movq	%rax, %rcx
	testb	%dl, %dl
	movb	$1, %dl
	jne	105b
205:
	incq	%rax
	cmpq	%rax, %r15
	je	207f
206:
	movzbl	(%rbp,%rax), %esi
	cmpl	$69, %esi
	je	204b
	cmpl	$101, %esi
	je	204b
	cmpl	$46, %esi
	je	105b
	addb	$-48, %sil
	cmpb	$9, %sil
	jbe	205b
	jmp	105b
207:
	testb	%dl, %dl
	sete	%al
	incq	%rcx
	movq	$-1, %rdx
	cmovneq	%rcx, %rdx
	cmpq	%r15, %rdx
	setne	%r13b
	orb	%al, %r13b
208:
	movq	80(%rsp), %rsi
209:
	movq	(%rbx), %rax
	movq	576(%rax), %rbx
	movq	584(%rax), %r14
	cmpq	$0, 344(%rsp)
	je	210f
	movq	%rbx, %rdi
	movq	%r14, %rsi
	movq	336(%rsp), %rdx
	movq	464(%rsp), %rcx
	callq	"clap::builder::command::Command::find"
	movq	80(%rsp), %rsi
	cmpb	$1, %al
	jne	210f
	movb	$5, %r12b
	cmpb	$0, 600(%rdx)
	jne	267f
	testb	%r13b, 601(%rdx)
	jne	267f
210:
	testq	%r14, %r14
	je	223f
	leaq	488(%rbx), %rax
	movq	%r14, %rcx
	jmp	212f
	.p2align	4
211:
	addq	$608, %rax
	decq	%rcx
	je	213f
212:
	cmpb	$1, (%rax)
	jne	211b
	cmpq	%rsi, 8(%rax)
	jne	211b
	movb	$5, %r12b
	testb	%r13b, 113(%rax)
	jne	267f
213:
	movb	$1, %al
	movq	%rbp, %rcx
	movq	%r15, %rdx
	testq	%r15, %r15
	je	225f
	.p2align	4
214:
	movzbl	(%rcx), %esi
	movl	$1, %r9d
	testb	%sil, %sil
	jns	217f
	movzbl	1(%rcx), %edi
	andl	$63, %edi
	cmpb	$-33, %sil
	ja	215f
	andl	$31, %esi
	shll	$6, %esi
	orl	%edi, %esi
	movl	$2, %r9d
	jmp	217f
215:
	movzbl	2(%rcx), %r8d
	andl	$63, %r8d
	cmpb	$-17, %sil
	ja	216f
	shll	$12, %esi
	movzwl	%si, %esi
	shll	$6, %edi
	orl	%esi, %edi
	orl	%r8d, %edi
	movl	$3, %r9d
	movl	%edi, %esi
	jmp	217f
216:
	movzbl	3(%rcx), %r9d
	andl	$63, %r9d
	andl	$7, %esi
	shll	$18, %esi
	shll	$12, %edi
	orl	%esi, %edi
	shll	$6, %r8d
	orl	%edi, %r8d
	orl	%r9d, %r8d
	movl	$4, %r9d
	movl	%r8d, %esi
	.p2align	4
217:
	addq	%r9, %rcx
	subq	%r9, %rdx
	xorl	%edi, %edi
	jmp	219f
	.p2align	4
218:
	incq	%rdi
	cmpq	%r14, %rdi
	je	224f
219:
	imulq	$608, %rdi, %r9
	cmpb	$1, 488(%rbx,%r9)
	je	218b
	cmpb	$1, 64(%rbx,%r9)
	jne	220f
	cmpl	%esi, 68(%rbx,%r9)
	je	222f
220:
	movq	120(%rbx,%r9), %r8
	movq	128(%rbx,%r9), %r9
	xorl	%r10d, %r10d
	.p2align	4
221:
	cmpq	%r10, %r9
	je	218b
	cmpl	%esi, (%r8,%r10,8)
	leaq	1(%r10), %r10
	jne	221b
222:
	testq	%rdx, %rdx
	jne	214b
	jmp	225f
223:
	testq	%r15, %r15
	je	265f
	movq	160(%rsp), %rcx
	movq	120(%rcx), %rax
	movq	$0, 120(%rcx)
	jmp	229f
224:
	xorl	%eax, %eax
225:
	addq	$605, %rbx
	movq	80(%rsp), %rsi
	jmp	227f
	.p2align	4
226:
	addq	$608, %rbx
	decq	%r14
	je	228f
227:
	cmpb	$1, -117(%rbx)
	jne	226b
	cmpq	%rsi, -109(%rbx)
	jne	226b
	cmpb	$1, -5(%rbx)
	jne	228f
	orb	(%rbx), %al
	movb	$5, %r12b
	cmpb	$1, %al
	jne	267f
228:
	movq	160(%rsp), %rcx
	movq	120(%rcx), %rax
	movq	$0, 120(%rcx)
	testq	%r15, %r15
	je	266f
229:
	movb	$8, %r12b
	xorl	%r13d, %r13d
	xorl	%edx, %edx
	xorl	%r8d, %r8d
	movq	$0, 32(%rsp)
	xorl	%r14d, %r14d
	xorl	%r10d, %r10d
	movq	136(%rsp), %rbx
230:
	movq	%r10, 72(%rsp)
	movq	%r8, 176(%rsp)
	movq	%rdx, 184(%rsp)
	movq	%r13, 152(%rsp)
	movb	%r12b, 144(%rsp)
	movq	160(%rsp), %r13
	jmp	232f
	.p2align	4
231:
	decq	%rax
	testq	%r15, %r15
	je	264f
232:
	movzbl	(%rbp), %ecx
	movl	$1, %edi
	testb	%cl, %cl
	jns	236f
	movzbl	1(%rbp), %edx
	andl	$63, %edx
	cmpb	$-33, %cl
	ja	233f
	andl	$31, %ecx
	shll	$6, %ecx
	orl	%edx, %ecx
	movl	$2, %edi
	jmp	236f
233:
	movzbl	2(%rbp), %esi
	andl	$63, %esi
	cmpb	$-17, %cl
	ja	234f
	shll	$12, %ecx
	movzwl	%cx, %ecx
	shll	$6, %edx
	orl	%ecx, %edx
	orl	%esi, %edx
	movl	$3, %edi
	movl	%edx, %ecx
	jmp	235f
234:
	movzbl	3(%rbp), %edi
	andl	$63, %edi
	andl	$7, %ecx
	shll	$18, %ecx
	shll	$12, %edx
	orl	%ecx, %edx
	shll	$6, %esi
	orl	%edx, %esi
	orl	%edi, %esi
	movl	$4, %edi
	movl	%esi, %ecx
235:
	movq	80(%rsp), %rsi
	.p2align	4
236:
	addq	%rdi, %rbp
	subq	%rdi, %r15
	movl	%ecx, 1040(%rsp)
	testq	%rax, %rax
	jne	231b
	movq	(%rbx), %rax
	movq	584(%rax), %rdx
	testq	%rdx, %rdx
	je	256f
	movq	576(%rax), %rsi
	xorl	%edi, %edi
	jmp	238f
	.p2align	4
237:
	incq	%rdi
	cmpq	%rdx, %rdi
	je	256f
238:
	imulq	$608, %rdi, %r8
	cmpb	$1, 488(%rsi,%r8)
	je	237b
	addq	%rsi, %r8
	cmpb	$1, 64(%r8)
	jne	239f
	cmpl	%ecx, 68(%r8)
	je	241f
239:
	movq	120(%r8), %r9
	movq	128(%r8), %r10
	xorl	%r11d, %r11d
	.p2align	4
240:
	cmpq	%r11, %r10
	je	237b
	cmpl	%ecx, (%r9,%r11,8)
	leaq	1(%r11), %r11
	jne	240b
241:
	cmpb	$1, 432(%r8)
	jne	242f
	cmpq	$0, 448(%r8)
	je	250f
242:
	testq	%r15, %r15
	je	243f
	movzbl	(%rbp), %eax
	movl	$1, %esi
	testb	%al, %al
	js	245f
	movq	136(%rsp), %rbx
	movq	%rbp, %rcx
	cmpl	$61, %eax
	jne	244f
	jmp	248f
243:
	xorl	%ecx, %ecx
	movq	136(%rsp), %rbx
244:
	xorl	%eax, %eax
	testq	%r15, %r15
	setne	%al
	xorl	%edx, %edx
	movq	%r15, %rdi
	jmp	249f
245:
	movzbl	1(%rbp), %ecx
	andl	$63, %ecx
	cmpb	$-33, %al
	movq	136(%rsp), %rbx
	ja	246f
	andl	$31, %eax
	shll	$6, %eax
	orl	%ecx, %eax
	movl	$2, %esi
	movq	%rbp, %rcx
	cmpl	$61, %eax
	jne	244b
	jmp	248f
246:
	movzbl	2(%rbp), %edx
	andl	$63, %edx
	cmpb	$-17, %al
	ja	247f
	shll	$12, %eax
	movzwl	%ax, %eax
	shll	$6, %ecx
	orl	%eax, %ecx
	orl	%edx, %ecx
	movl	$3, %esi
	movl	%ecx, %eax
	movq	%rbp, %rcx
	cmpl	$61, %eax
	je	248f
	jmp	244b
247:
	movzbl	3(%rbp), %esi
	andl	$63, %esi
	andl	$7, %eax
	shll	$18, %eax
	shll	$12, %ecx
	orl	%eax, %ecx
	shll	$6, %edx
	orl	%ecx, %edx
	orl	%esi, %edx
	movl	$4, %esi
	movl	%edx, %eax
	movq	%rbp, %rcx
	cmpl	$61, %eax
	jne	244b
248:
	leaq	(%rsi,%rbp), %rcx
	movq	%r15, %rdi
	subq	%rsi, %rdi
	movl	$1, %eax
	movb	$1, %dl
249:
	movq	%rax, 704(%rsp)
	movq	%rcx, 712(%rsp)
	movq	%rdi, 720(%rsp)
	movzbl	%dl, %eax
	movl	%eax, (%rsp)
	leaq	496(%rsp), %rdi
	leaq	704(%rsp), %rcx
	movq	%rbx, %rsi
	xorl	%edx, %edx
	movq	%r13, %r9
	callq	"clap::parser::parse::Parser::parse_opt_value"
	movzbl	504(%rsp), %r12d
	movq	512(%rsp), %r10
	cmpb	$0, 496(%rsp)
	jne	276f
	cmpb	$3, %r12b
	movq	80(%rsp), %rsi
	jne	278f
	movb	$1, %al
	movq	%rax, 168(%rsp)
	xorl	%eax, %eax
	testq	%r15, %r15
	jne	232b
	jmp	264f
250:
	movq	%r8, %rbx
	pxor	%xmm0, %xmm0
	movdqa	%xmm0, 192(%rsp)
	movdqa	%xmm0, 208(%rsp)
	movdqa	%xmm0, 224(%rsp)
	movdqa	%xmm0, 240(%rsp)
	movdqa	%xmm0, 256(%rsp)
	movdqa	%xmm0, 592(%rsp)
	movdqa	%xmm0, 608(%rsp)
	movdqa	%xmm0, 624(%rsp)
	leaq	592(%rsp), %rdi
	movq	136(%rsp), %r14
	movq	%r14, %rsi
	movq	%r13, %rdx
	callq	"clap::parser::parse::Parser::resolve_pending"
	cmpb	$0, 592(%rsp)
	jne	341f
	leaq	56(%rsp), %rax
	movq	%rax, 928(%rsp)
	leaq	936(%rsp), %rax
	pxor	%xmm0, %xmm0
	movdqu	%xmm0, (%rax)
	movq	%r13, 16(%rsp)
	movq	$0, 8(%rsp)
	movl	$0, (%rsp)
	leaq	192(%rsp), %rdi
	leaq	928(%rsp), %r9
	movq	%r14, %rsi
	movl	$1, %edx
	xorl	%ecx, %ecx
	movq	%rbx, %r8
	callq	"clap::parser::parse::Parser::act"
	movzbl	200(%rsp), %r12d
	movq	208(%rsp), %r10
	movdqu	216(%rsp), %xmm0
	cmpb	$0, 192(%rsp)
	jne	342f
	movq	240(%rsp), %r8
	movq	248(%rsp), %rdx
	movq	264(%rsp), %r13
	movzbl	144(%rsp), %eax
	leaq	490f(%rip), %rcx
	movslq	(%rcx,%rax,4), %rax
	addq	%rcx, %rax
	movq	136(%rsp), %rbx
	movq	80(%rsp), %rsi
	movq	24(%rsp), %rdi
	jmpq	*%rax
251:
	cmpq	$0, 32(%rsp)
	je	255f
	movq	72(%rsp), %rdi
	movq	%r10, 104(%rsp)
	movdqa	%xmm0, 112(%rsp)
	movq	%rdx, %r14
	movq	%r8, 128(%rsp)
	jmp	254f
252:
	cmpq	$0, 176(%rsp)
	movdqa	%xmm0, 112(%rsp)
	movq	%r10, 104(%rsp)
	movq	%r8, 128(%rsp)
	je	253f
	movq	32(%rsp), %rdi
	movq	%rdx, %r14
	callq	rattle_dealloc@PLT
	movq	128(%rsp), %r8
	movq	%r14, %rdx
	movdqa	112(%rsp), %xmm0
	movq	104(%rsp), %r10
	movq	24(%rsp), %rdi
	movq	80(%rsp), %rsi
253:
	cmpq	$0, 152(%rsp)
	je	255f
	movq	184(%rsp), %rdi
	movq	%rdx, %r14
254:
	callq	rattle_dealloc@PLT
	movq	128(%rsp), %r8
	movq	%r14, %rdx
	movdqa	112(%rsp), %xmm0
	movq	104(%rsp), %r10
	movq	24(%rsp), %rdi
	movq	80(%rsp), %rsi
255:
	xorl	%eax, %eax
	movq	%xmm0, %r14
	pextrq	$1, %xmm0, 32(%rsp)
	movb	$1, %cl
	movq	%rcx, 168(%rsp)
	testq	%r15, %r15
	jne	230b
	jmp	280f
256:
	movq	608(%rax), %rdx
	testq	%rdx, %rdx
	je	261f
	movq	600(%rax), %rax
	xorl	%esi, %esi
257:
	imulq	$672, %rsi, %rdi
	cmpb	$1, 40(%rax,%rdi)
	jne	258f
	cmpl	%ecx, 44(%rax,%rdi)
	je	263f
258:
	movq	384(%rax,%rdi), %r8
	movq	392(%rax,%rdi), %r9
	xorl	%r10d, %r10d
	.p2align	4
259:
	cmpq	%r10, %r9
	je	260f
	cmpl	%ecx, (%r8,%r10,8)
	leaq	1(%r10), %r10
	jne	259b
	jmp	263f
260:
	incq	%rsi
	cmpq	%rdx, %rsi
	jne	257b
261:
	pxor	%xmm0, %xmm0
	leaq	216(%rsp), %rcx
	movdqu	%xmm0, -16(%rcx)
	movl	$0, 36(%rcx)
	movl	$0, 33(%rcx)
	leaq	56(%rsp), %rax
	movq	%rax, 192(%rsp)
	movq	$0, 240(%rsp)
	movb	$0, 248(%rsp)
	movl	$32, 216(%rsp)
	movl	$0, 12(%rcx)
	movq	$0, 4(%rcx)
	movq	$-1, 232(%rsp)
	leaq	192(%rsp), %rdi
	movl	$1, %esi
	callq	"std_alloc::vec::Vec::grow_amortized::<#1d775b5957dec42c>"
	testb	%al, %al
	je	262f
	movq	192(%rsp), %rax
	movq	200(%rsp), %rcx
	movb	$45, (%rax,%rcx)
	incq	%rcx
	movq	%rcx, 200(%rsp)
	leaq	192(%rsp), %rdi
	leaq	1040(%rsp), %rsi
	callq	"core::fmt::formatter::Formatter::write_piece::<#8b9b65c5604fc23d>"
	testb	%al, %al
	je	322f
262:
	cmpq	$0, 208(%rsp)
	je	320f
	movq	192(%rsp), %rdi
	callq	rattle_dealloc@PLT
	pxor	%xmm0, %xmm0
	movb	$16, %r12b
	xorl	%ebx, %ebx
	movzbl	144(%rsp), %eax
	leaq	496f(%rip), %rcx
	movslq	(%rcx,%rax,4), %rax
	addq	%rcx, %rax
	xorl	%ebp, %ebp
	movq	48(%rsp), %rdx
	leaq	1(%rdx), %r9
	movq	80(%rsp), %rsi
	movq	64(%rsp), %r8
	movq	24(%rsp), %rdi
	movq	40(%rsp), %rcx
	jmpq	*%rax
263:
	movq	(%rax,%rdi), %r12
	movq	8(%rax,%rdi), %r14
	leaq	416(%rsp), %rdi
	movq	%rbx, %rsi
	movq	%r13, %rdx
	callq	"clap::parser::parse::Parser::resolve_pending"
	cmpb	$0, 416(%rsp)
	je	272f
	movzbl	424(%rsp), %r12d
	movzbl	432(%rsp), %ebx
	movdqu	440(%rsp), %xmm0
	movq	456(%rsp), %rbp
	movzbl	144(%rsp), %eax
	leaq	494f(%rip), %rcx
	movslq	(%rcx,%rax,4), %rax
	addq	%rcx, %rax
	movq	80(%rsp), %rsi
	movq	64(%rsp), %r8
	movq	48(%rsp), %rdx
	jmpq	*%rax
264:
	movzbl	144(%rsp), %eax
	movl	%eax, %r12d
	movq	72(%rsp), %r10
	movq	176(%rsp), %r8
	movq	184(%rsp), %rdx
	movq	152(%rsp), %r13
	movq	24(%rsp), %rdi
	jmp	280f
265:
	movq	160(%rsp), %rax
	movq	$0, 120(%rax)
266:
	movb	$8, %r12b
267:
	xorl	%r13d, %r13d
	xorl	%edx, %edx
	xorl	%r8d, %r8d
	movq	$0, 32(%rsp)
	movq	136(%rsp), %rbx
268:
	movq	%r8, 128(%rsp)
	movq	%rdx, 112(%rsp)
	movq	%r13, 144(%rsp)
	movl	%r12d, %ebp
	movq	344(%rsp), %rax
	movq	%rax, 736(%rsp)
	movq	336(%rsp), %rax
	movq	%rax, 744(%rsp)
	movq	464(%rsp), %rax
	movq	%rax, 752(%rsp)
	leaq	640(%rsp), %rdi
	leaq	736(%rsp), %r8
	movq	%rbx, %rsi
	movq	64(%rsp), %rdx
	movq	480(%rsp), %rcx
	movq	160(%rsp), %r9
	callq	"clap::parser::parse::Parser::take_plain_word"
	movq	24(%rsp), %rdi
	movzbl	640(%rsp), %r15d
	movzbl	648(%rsp), %r12d
	movq	656(%rsp), %rbx
	movq	664(%rsp), %r10
	movq	672(%rsp), %r14
	movq	680(%rsp), %r13
	cmpb	$4, %bpl
	movq	48(%rsp), %rdx
	leaq	1(%rdx), %r9
	movq	40(%rsp), %rcx
	jne	270f
	cmpq	$0, 128(%rsp)
	je	269f
	movq	32(%rsp), %rdi
	movq	%r12, %rbp
	movq	%r10, %r12
	callq	rattle_dealloc@PLT
	movq	%r12, %r10
	movq	%rbp, %r12
	movq	40(%rsp), %rcx
	movq	24(%rsp), %rdi
	movq	48(%rsp), %rdx
	leaq	1(%rdx), %r9
269:
	cmpq	$0, 144(%rsp)
	je	270f
	movq	112(%rsp), %rdi
	movq	%r12, %rbp
	movq	%r10, %r12
	callq	rattle_dealloc@PLT
	movq	%r12, %r10
	movq	%rbp, %r12
	movq	40(%rsp), %rcx
	movq	24(%rsp), %rdi
	movq	48(%rsp), %rdx
	leaq	1(%rdx), %r9
270:
	movq	%rbx, 304(%rsp)
	movq	%r10, 312(%rsp)
	movq	%r14, 320(%rsp)
	movq	%r13, %rbp
	movq	%r13, 328(%rsp)
	movq	%r14, %r13
	shrq	$8, %r13
271:
	movq	80(%rsp), %rsi
	movq	64(%rsp), %r8
	testb	%r15b, %r15b
	movq	696(%rsp), %r15
	je	11b
	jmp	479f
272:
	movq	%r12, %rbx
	movq	96(%r13), %rcx
	incq	%rcx
	movq	$-1, %rax
	cmovneq	%rcx, %rax
	movq	%rax, 96(%r13)
	cmpb	$1, 104(%r13)
	movq	80(%rsp), %rsi
	je	273f
	movq	$1, 104(%r13)
	movq	%rax, 112(%r13)
273:
	testq	%r15, %r15
	movq	24(%rsp), %rdi
	movq	%rbx, %r10
	jne	274f
	pxor	%xmm0, %xmm0
	movq	1072(%rsp), %rax
	movdqu	%xmm0, (%rax)
274:
	movzbl	144(%rsp), %eax
	leaq	495f(%rip), %rcx
	movslq	(%rcx,%rax,4), %rax
	addq	%rcx, %rax
	jmpq	*%rax
275:
	cmpq	$0, 32(%rsp)
	je	290f
	movq	72(%rsp), %rdi
	jmp	289f
276:
	movdqu	520(%rsp), %xmm0
	movq	536(%rsp), %rbp
	movzbl	%r10b, %ebx
	movb	$1, %al
	movq	%rax, 168(%rsp)
	movzbl	144(%rsp), %eax
	leaq	491f(%rip), %rcx
	movslq	(%rcx,%rax,4), %rax
	addq	%rcx, %rax
	movq	80(%rsp), %rsi
	movq	64(%rsp), %r8
	movq	48(%rsp), %rdx
	jmpq	*%rax
277:
	cmpq	$0, 32(%rsp)
	je	285f
	movq	72(%rsp), %rdi
	movdqa	%xmm0, 112(%rsp)
	jmp	284f
278:
	movq	544(%rsp), %r8
	movq	520(%rsp), %r14
	movq	528(%rsp), %rbp
	movq	552(%rsp), %rdx
	movq	568(%rsp), %r13
	movb	$1, %al
	movq	%rax, 168(%rsp)
	movzbl	144(%rsp), %eax
	leaq	492f(%rip), %rcx
	movslq	(%rcx,%rax,4), %rax
	addq	%rcx, %rax
	movq	24(%rsp), %rdi
	jmpq	*%rax
279:
	movq	%rbp, 32(%rsp)
280:
	movzbl	%r12b, %eax
	leaq	493f(%rip), %rcx
	movslq	(%rcx,%rax,4), %rax
	addq	%rcx, %rax
	movq	32(%rsp), %rbp
	jmpq	*%rax
281:
	movq	$1, 304(%rsp)
	movq	%r10, 312(%rsp)
	movq	%r14, 320(%rsp)
	movq	$0, 328(%rsp)
	movq	%r14, %r13
	shrq	$8, %r13
	movl	$1, %ebx
	xorl	%ebp, %ebp
	xorl	%r15d, %r15d
	xorl	%r12d, %r12d
	jmp	292f
282:
	cmpq	$0, 176(%rsp)
	movdqa	%xmm0, 112(%rsp)
	je	283f
	movq	32(%rsp), %rdi
	callq	rattle_dealloc@PLT
	movdqa	112(%rsp), %xmm0
	movq	48(%rsp), %rdx
	movq	64(%rsp), %r8
	movq	80(%rsp), %rsi
283:
	cmpq	$0, 152(%rsp)
	je	285f
	movq	184(%rsp), %rdi
284:
	callq	rattle_dealloc@PLT
	movdqa	112(%rsp), %xmm0
	movq	48(%rsp), %rdx
	movq	64(%rsp), %r8
	movq	80(%rsp), %rsi
285:
	leaq	1(%rdx), %r9
	movq	24(%rsp), %rdi
	movq	40(%rsp), %rcx
286:
	movq	%rbx, 304(%rsp)
	movdqu	%xmm0, 312(%rsp)
	movq	%rbp, 328(%rsp)
	pextrq	$1, %xmm0, %r14
	movq	%r14, %r13
	shrq	$8, %r13
	movq	%xmm0, %r10
	movb	$1, %r15b
	testb	%r15b, %r15b
	movq	696(%rsp), %r15
	je	11b
	jmp	479f
287:
	cmpq	$0, 176(%rsp)
	je	288f
	movq	32(%rsp), %rdi
	callq	rattle_dealloc@PLT
	movq	%rbx, %r10
	movq	24(%rsp), %rdi
	movq	80(%rsp), %rsi
288:
	cmpq	$0, 152(%rsp)
	je	290f
	movq	184(%rsp), %rdi
289:
	callq	rattle_dealloc@PLT
	movq	%rbx, %r10
	movq	24(%rsp), %rdi
	movq	80(%rsp), %rsi
290:
	movq	1072(%rsp), %rax
	movzbl	(%rax), %eax
	cmpb	$1, %al
	jne	291f
	movq	160(%rsp), %rsi
	movq	96(%rsi), %rcx
	xorl	%edx, %edx
	subq	112(%rsi), %rcx
	cmovaeq	%rcx, %rdx
	incq	%rdx
	movq	$-1, %rcx
	cmovneq	%rdx, %rcx
	movq	%rcx, 120(%rsi)
	movq	80(%rsp), %rsi
291:
	cmpb	$1, %al
	sete	672(%rsp)
	movl	1008(%rsp), %eax
	movl	1011(%rsp), %ecx
	leaq	664(%rsp), %rdx
	movl	%ecx, 12(%rdx)
	movl	%eax, 9(%rdx)
	movq	672(%rsp), %r13
	movq	%r10, 304(%rsp)
	movq	%r14, 312(%rsp)
	movq	%r13, 320(%rsp)
	movq	$0, 328(%rsp)
	movq	%r10, %rbx
	movq	%r14, %r10
	movl	%r13d, %r14d
	shrq	$8, %r13
	movb	$2, %r12b
	xorl	%ebp, %ebp
	xorl	%r15d, %r15d
292:
	movq	48(%rsp), %rdx
	leaq	1(%rdx), %r9
	movq	64(%rsp), %r8
	jmp	48b
293:
	movq	(%rbx), %r15
	movq	8(%rbx), %r12
294:
	leaq	384(%rsp), %rdi
	movl	$1, %esi
	callq	"std_alloc::vec::Vec::grow_amortized::<#3af3ba23e56e6a09>"
	testb	%al, %al
	je	295f
	movq	392(%rsp), %r13
	movq	400(%rsp), %rax
	jmp	123b
295:
	cmpq	$0, 400(%rsp)
	je	296f
	movq	384(%rsp), %rdi
	callq	rattle_dealloc@PLT
296:
	cmpq	$0, 152(%rsp)
	movq	72(%rsp), %rdi
	jne	126b
297:
	movq	48(%rsp), %rdx
	leaq	1(%rdx), %r9
	movq	80(%rsp), %rsi
	movq	64(%rsp), %r8
	movq	24(%rsp), %rdi
	movq	40(%rsp), %rcx
298:
	movb	$16, %r12b
	xorl	%ebp, %ebp
	xorl	%r14d, %r14d
	xorl	%r10d, %r10d
	xorl	%r11d, %r11d
299:
	movzbl	%r11b, %ebx
	movq	%rbx, 304(%rsp)
	movq	%r10, 312(%rsp)
	movq	%r14, 320(%rsp)
	movq	%rbp, 328(%rsp)
	movq	%r14, %r13
	shrq	$8, %r13
	movb	$1, %r15b
	testb	%r15b, %r15b
	movq	696(%rsp), %r15
	je	11b
	jmp	479f
300:
	cmpq	$0, 32(%rsp)
	je	279b
	movq	72(%rsp), %rdi
	movq	%r10, 104(%rsp)
	movq	%rdx, 112(%rsp)
	movq	%r8, %r15
	callq	rattle_dealloc@PLT
	movq	%r15, %r8
	movq	112(%rsp), %rdx
	movq	104(%rsp), %r10
	movq	24(%rsp), %rdi
	movq	80(%rsp), %rsi
	movb	$1, %al
	movq	%rax, 168(%rsp)
	movzbl	%r12b, %eax
	leaq	493f(%rip), %rcx
	movslq	(%rcx,%rax,4), %rax
	addq	%rcx, %rax
	movq	%rbp, 32(%rsp)
	jmpq	*%rax
301:
	cmpq	$0, 176(%rsp)
	movq	%rdx, 112(%rsp)
	movq	%r10, 104(%rsp)
	je	302f
	movq	32(%rsp), %rdi
	movq	%r8, %r15
	callq	rattle_dealloc@PLT
	movq	%r15, %r8
	movq	112(%rsp), %rdx
	movq	104(%rsp), %r10
	movq	24(%rsp), %rdi
	movq	80(%rsp), %rsi
302:
	cmpq	$0, 152(%rsp)
	je	279b
	movq	184(%rsp), %rdi
	movq	%r8, %r15
	callq	rattle_dealloc@PLT
	movq	%r15, %r8
	movq	112(%rsp), %rdx
	movq	104(%rsp), %r10
	movq	24(%rsp), %rdi
	movq	80(%rsp), %rsi
	movb	$1, %al
	movq	%rax, 168(%rsp)
	movzbl	%r12b, %eax
	leaq	493f(%rip), %rcx
	movslq	(%rcx,%rax,4), %rax
	addq	%rcx, %rax
	movq	%rbp, 32(%rsp)
	jmpq	*%rax
303:
	cmpq	$0, 32(%rsp)
	je	279b
	movq	72(%rsp), %rdi
	movq	%r10, 104(%rsp)
	movq	%rdx, 112(%rsp)
	movq	%r8, %r15
	callq	rattle_dealloc@PLT
	movq	%r15, %r8
	movq	112(%rsp), %rdx
	movq	104(%rsp), %r10
	movq	24(%rsp), %rdi
	movq	80(%rsp), %rsi
	movb	$1, %al
	movq	%rax, 168(%rsp)
	movzbl	%r12b, %eax
	leaq	493f(%rip), %rcx
	movslq	(%rcx,%rax,4), %rax
	addq	%rcx, %rax
	movq	%rbp, 32(%rsp)
	jmpq	*%rax
304:
	movdqa	1104(%rsp), %xmm0
	leaq	664(%rsp), %rax
	movdqu	%xmm0, (%rax)
	movq	664(%rsp), %r10
	movq	672(%rsp), %r14
	movq	$0, 304(%rsp)
	movq	%r10, 312(%rsp)
	movq	%r14, 320(%rsp)
	movq	$0, 328(%rsp)
	movq	%r14, %r13
	shrq	$8, %r13
	xorl	%ebp, %ebp
	xorl	%r15d, %r15d
	xorl	%r12d, %r12d
	xorl	%ebx, %ebx
	jmp	292b
305:
	movq	%r10, 832(%rsp)
	movq	%r14, 840(%rsp)
	movq	32(%rsp), %rax
	movq	%rax, 848(%rsp)
	leaq	784(%rsp), %rdi
	leaq	832(%rsp), %rcx
	movq	%rbx, %rsi
	movq	160(%rsp), %rdx
	callq	"clap::parser::parse::Parser::no_equals"
	cmpb	$0, 784(%rsp)
	jne	152b
	movzbl	800(%rsp), %ebx
	movzbl	792(%rsp), %r12d
	leaq	808(%rsp), %rcx
	movq	16(%rcx), %rax
	leaq	664(%rsp), %rdx
	movq	%rax, 16(%rdx)
	movdqu	(%rcx), %xmm0
	movdqu	%xmm0, (%rdx)
	movq	664(%rsp), %r10
	movq	672(%rsp), %r14
	movq	680(%rsp), %rbp
	movq	%rbx, 304(%rsp)
	movq	%r10, 312(%rsp)
	movq	%r14, 320(%rsp)
	movq	%rbp, 328(%rsp)
	movq	%r14, %r13
	shrq	$8, %r13
	movb	$1, %r15b
	jmp	153b
306:
	addq	$584, %r13
307:
	movq	-8(%r13), %rsi
	movq	(%r13), %rdx
	leaq	784(%rsp), %rdi
	movq	72(%rsp), %rcx
	callq	"clap::parser::suggestions::best_long"
	cmpb	$0, 784(%rsp)
	jne	172b
	addq	$672, %r13
	decq	%rbx
	movq	104(%rsp), %r8
	jne	307b
308:
	movq	$0, 32(%rsp)
	movq	$0, 128(%rsp)
	movq	$0, 144(%rsp)
309:
	movdqa	1536(%rsp), %xmm0
	movdqa	%xmm0, 1456(%rsp)
	movq	144(%rsp), %rax
	movl	%eax, %edx
	movq	32(%rsp), %r12
	movq	128(%rsp), %r13
310:
	movzbl	%al, %ecx
	movdqa	1456(%rsp), %xmm0
	movdqa	%xmm0, 1520(%rsp)
	movl	%ecx, %eax
	xorb	$1, %al
	orb	%dl, %al
	movq	136(%rsp), %rbx
	movq	160(%rsp), %r15
	movq	%r8, 104(%rsp)
	movq	%rcx, 32(%rsp)
	movl	%edx, 128(%rsp)
	jne	311f
	movq	(%rbx), %rax
	movq	576(%rax), %rdi
	movq	584(%rax), %rsi
	movq	%r12, %rdx
	movq	%r13, %rcx
	callq	"clap::builder::command::Command::find_long"
	cmpb	$1, %al
	jne	312f
	movq	%rdx, %rbp
	movq	%rbx, %rdi
	movq	%rdx, %rsi
	movq	%r15, %rdx
	callq	"clap::parser::parse::Parser::remove_overrides"
	testb	%al, %al
	jne	172b
	movq	(%rbp), %rsi
	movq	8(%rbp), %rdx
	movzbl	606(%rbp), %ecx
	movq	%r15, %rdi
	xorl	%r8d, %r8d
	callq	"clap::parser::matcher::ArgMatcher::start"
	testb	%al, %al
	jne	172b
	movq	%rbx, %rdi
	movq	%rbp, %rsi
	movq	%r15, %rdx
	callq	"clap::parser::parse::Parser::add_to_groups"
	testb	%al, %al
	jne	172b
	jmp	312f
311:
	cmpl	$1, %ecx
	jne	313f
312:
	leaq	.L32d1a5938230(%rip), %rax
	movq	%rax, 960(%rsp)
	movq	$2, 968(%rsp)
	movq	%r12, 976(%rsp)
	movq	%r13, 984(%rsp)
	leaq	880(%rsp), %rdi
	leaq	960(%rsp), %rsi
	callq	"std_alloc::string::String::format::<#004689434896fd94>"
	cmpb	$0, 880(%rsp)
	jne	172b
	movq	888(%rsp), %r12
	movq	896(%rsp), %r13
	cmpq	$0, 904(%rsp)
	sete	%bpl
	jmp	314f
313:
	movb	$1, %bpl
	xorl	%r12d, %r12d
	xorl	%r13d, %r13d
314:
	movq	(%rbx), %rsi
	leaq	384(%rsp), %rdi
	callq	"clap::builder::command::Command::required_ids"
	cmpb	$0, 384(%rsp)
	je	315f
	cmpl	$1, 32(%rsp)
	setne	%al
	orb	%bpl, %al
	testb	$1, %al
	movq	72(%rsp), %rbx
	jne	340f
	movq	%r12, %rdi
	jmp	339f
315:
	movq	%r13, 872(%rsp)
	movb	%bpl, 176(%rsp)
	movq	%r12, 152(%rsp)
	movq	392(%rsp), %rax
	movq	%rax, 112(%rsp)
	movq	400(%rsp), %rax
	movq	%rax, 768(%rsp)
	movq	408(%rsp), %rax
	movq	%rax, 184(%rsp)
	leaq	56(%rsp), %rax
	movq	%rax, 144(%rsp)
	movq	%rax, 352(%rsp)
	pxor	%xmm0, %xmm0
	leaq	360(%rsp), %rax
	movdqu	%xmm0, (%rax)
	movq	8(%r15), %r13
	testq	%r13, %r13
	je	324f
	movq	(%r15), %rbx
	addq	$17, %rbx
	xorl	%ebp, %ebp
	jmp	318f
316:
	movq	%rbp, %rax
	shlq	$4, %rax
	movq	144(%rsp), %rcx
	movq	%r12, (%rcx,%rax)
	movq	%r15, 8(%rcx,%rax)
	incq	%rbp
	movq	%rbp, 360(%rsp)
317:
	addq	$104, %rbx
	decq	%r13
	je	325f
318:
	cmpb	$1, -1(%rbx)
	jne	319f
	cmpb	$1, (%rbx)
	jne	317b
319:
	movq	136(%rsp), %rax
	movq	(%rax), %rax
	movq	-17(%rbx), %r12
	movq	-9(%rbx), %r15
	movq	576(%rax), %rdi
	movq	584(%rax), %rsi
	movq	%r12, %rdx
	movq	%r15, %rcx
	callq	"clap::builder::command::Command::find"
	cmpb	$1, %al
	jne	317b
	cmpb	$0, 594(%rdx)
	jne	317b
	cmpq	%rbp, 368(%rsp)
	jne	316b
	leaq	352(%rsp), %rdi
	movl	$1, %esi
	callq	"std_alloc::vec::Vec::grow_amortized::<#3af3ba23e56e6a09>"
	testb	%al, %al
	je	374f
	movq	352(%rsp), %rax
	movq	%rax, 144(%rsp)
	movq	360(%rsp), %rbp
	jmp	316b
320:
	pxor	%xmm0, %xmm0
	movb	$16, %r12b
	xorl	%ebx, %ebx
	movzbl	144(%rsp), %eax
	leaq	496f(%rip), %rcx
	movslq	(%rcx,%rax,4), %rax
	addq	%rcx, %rax
	xorl	%ebp, %ebp
	movq	48(%rsp), %rdx
	leaq	1(%rdx), %r9
	movq	80(%rsp), %rsi
	movq	64(%rsp), %r8
	movq	24(%rsp), %rdi
	movq	40(%rsp), %rcx
	jmpq	*%rax
321:
	movb	$16, %r12b
	cmpq	$0, 32(%rsp)
	je	347f
	movq	72(%rsp), %rdi
	jmp	346f
322:
	movq	192(%rsp), %r10
	movq	200(%rsp), %r14
	movq	208(%rsp), %rbp
	movzbl	144(%rsp), %eax
	leaq	497f(%rip), %rcx
	movslq	(%rcx,%rax,4), %rax
	addq	%rcx, %rax
	jmpq	*%rax
323:
	cmpq	$0, 32(%rsp)
	je	358f
	movq	72(%rsp), %rdi
	jmp	357f
324:
	xorl	%ebp, %ebp
325:
	movq	136(%rsp), %rax
	movq	(%rax), %rsi
	movq	576(%rsi), %rcx
	movq	584(%rsi), %rax
	testq	%rax, %rax
	je	328f
	leaq	605(%rcx), %rdx
	movq	%rax, %rdi
	jmp	327f
326:
	decq	%rdi
	addq	$608, %rdx
	testq	%rdi, %rdi
	je	328f
327:
	cmpb	$1, -117(%rdx)
	jne	326b
	cmpb	$0, (%rdx)
	jne	329f
	cmpb	$0, -1(%rdx)
	je	326b
	jmp	329f
328:
	cmpl	$1, 32(%rsp)
	jne	329f
	xorl	%ebx, %ebx
	jmp	331f
329:
	addq	$488, %rcx
	incq	%rax
330:
	decq	%rax
	setne	%bl
	je	331f
	cmpb	$1, (%rcx)
	leaq	608(%rcx), %rcx
	jne	330b
331:
	movq	352(%rsp), %r12
	movq	$1, 736(%rsp)
	movq	112(%rsp), %rax
	movq	%rax, 744(%rsp)
	movq	768(%rsp), %rax
	movq	%rax, 752(%rsp)
	leaq	928(%rsp), %rdi
	leaq	736(%rsp), %r8
	movq	%r12, %rdx
	movq	%rbp, %rcx
	callq	"clap::output::usage::with_title"
	cmpb	$0, 928(%rsp)
	je	333f
	cmpq	$0, 368(%rsp)
	je	332f
	movq	%r12, %rdi
	callq	rattle_dealloc@PLT
332:
	cmpq	$0, 184(%rsp)
	movq	72(%rsp), %rbx
	jmp	337f
333:
	movq	936(%rsp), %rbp
	movq	944(%rsp), %r15
	movq	952(%rsp), %r13
	leaq	.L32d1a5938230(%rip), %rax
	movq	%rax, 832(%rsp)
	movq	$2, 840(%rsp)
	movq	72(%rsp), %rax
	movq	%rax, 848(%rsp)
	movq	104(%rsp), %rax
	movq	%rax, 856(%rsp)
	leaq	704(%rsp), %rdi
	leaq	832(%rsp), %rsi
	callq	"std_alloc::string::String::format::<#004689434896fd94>"
	cmpb	$0, 704(%rsp)
	je	348f
	testq	%r13, %r13
	je	334f
	movq	%rbp, %rdi
	callq	rattle_dealloc@PLT
334:
	cmpq	$0, 368(%rsp)
	movq	72(%rsp), %rbx
	je	336f
335:
	movq	%r12, %rdi
	callq	rattle_dealloc@PLT
336:
	cmpq	$0, 184(%rsp)
337:
	movq	152(%rsp), %r15
	movzbl	176(%rsp), %ebp
	je	338f
	movq	112(%rsp), %rdi
	callq	rattle_dealloc@PLT
338:
	cmpl	$1, 32(%rsp)
	setne	%al
	orb	%bpl, %al
	testb	$1, %al
	jne	340f
	movq	%r15, %rdi
339:
	callq	rattle_dealloc@PLT
340:
	movq	48(%rsp), %rdx
	movq	24(%rsp), %rdi
	movq	40(%rsp), %rcx
	testq	%r14, %r14
	jne	173b
	jmp	174b
341:
	movzbl	600(%rsp), %r12d
	movzbl	608(%rsp), %eax
	leaq	616(%rsp), %rsi
	movq	16(%rsi), %rcx
	leaq	216(%rsp), %rdx
	movq	%rcx, 16(%rdx)
	movups	(%rsi), %xmm0
	movups	%xmm0, (%rdx)
	movdqu	216(%rsp), %xmm0
	movq	232(%rsp), %rbp
	movzbl	%al, %ebx
	movb	$1, %al
	movq	%rax, 168(%rsp)
	movzbl	144(%rsp), %eax
	leaq	489f(%rip), %rcx
	movslq	(%rcx,%rax,4), %rax
	addq	%rcx, %rax
	movq	48(%rsp), %rdx
	leaq	1(%rdx), %r9
	movq	80(%rsp), %rsi
	movq	64(%rsp), %r8
	movq	24(%rsp), %rdi
	movq	40(%rsp), %rcx
	jmpq	*%rax
342:
	movq	232(%rsp), %rbp
	movzbl	%r10b, %ebx
	movb	$1, %al
	movq	%rax, 168(%rsp)
	movzbl	144(%rsp), %eax
	leaq	489f(%rip), %rcx
	movslq	(%rcx,%rax,4), %rax
	addq	%rcx, %rax
	movq	48(%rsp), %rdx
	leaq	1(%rdx), %r9
	movq	80(%rsp), %rsi
	movq	64(%rsp), %r8
	movq	24(%rsp), %rdi
	movq	40(%rsp), %rcx
	jmpq	*%rax
343:
	movb	$1, %al
	movq	%rax, 168(%rsp)
	cmpq	$0, 32(%rsp)
	je	286b
	movq	72(%rsp), %rdi
	movdqa	%xmm0, 112(%rsp)
	jmp	354f
344:
	cmpq	$0, 176(%rsp)
	je	345f
	movq	32(%rsp), %rdi
	callq	rattle_dealloc@PLT
	movq	40(%rsp), %rcx
	movq	24(%rsp), %rdi
	movq	48(%rsp), %rdx
	movq	64(%rsp), %r8
	movq	80(%rsp), %rsi
	leaq	1(%rdx), %r9
345:
	pxor	%xmm0, %xmm0
	movb	$16, %r12b
	cmpq	$0, 152(%rsp)
	je	347f
	movq	184(%rsp), %rdi
346:
	callq	rattle_dealloc@PLT
	pxor	%xmm0, %xmm0
	movq	40(%rsp), %rcx
	movq	24(%rsp), %rdi
	movq	48(%rsp), %rdx
	movq	64(%rsp), %r8
	movq	80(%rsp), %rsi
	leaq	1(%rdx), %r9
347:
	xorl	%ebx, %ebx
	xorl	%ebp, %ebp
	jmp	286b
348:
	xorl	%eax, %eax
	movl	$0, %edi
	movl	$0, %edx
	cmpl	$1, 32(%rsp)
	jne	349f
	movzbl	128(%rsp), %edx
	movdqa	1520(%rsp), %xmm0
	movdqa	%xmm0, 1504(%rsp)
	movq	152(%rsp), %rax
	movq	872(%rsp), %rdi
349:
	movq	712(%rsp), %r10
	movq	720(%rsp), %rcx
	movq	728(%rsp), %rsi
	movq	%rsi, 128(%rsp)
	movq	136(%rsp), %rsi
	movq	(%rsi), %rsi
	movq	32(%rsp), %r8
	movq	%r8, 496(%rsp)
	movq	%rax, 504(%rsp)
	movq	%rdi, 512(%rsp)
	movq	%rdx, 520(%rsp)
	movdqa	1504(%rsp), %xmm0
	leaq	512(%rsp), %rax
	movdqu	%xmm0, 16(%rax)
	movq	$1, 1104(%rsp)
	movq	%rbp, 1112(%rsp)
	movq	%r15, 1120(%rsp)
	leaq	1104(%rsp), %rax
	movq	%rax, (%rsp)
	movzbl	%bl, %r9d
	movq	%r10, %rbx
	leaq	192(%rsp), %rdi
	leaq	496(%rsp), %r8
	movq	%r10, %rdx
	callq	"clap::error::Error::unknown_argument"
	cmpb	$0, 192(%rsp)
	je	368f
	cmpq	$0, 128(%rsp)
	je	350f
	movq	%rbx, %rdi
	callq	rattle_dealloc@PLT
350:
	testq	%r13, %r13
	movq	72(%rsp), %rbx
	je	351f
	movq	%rbp, %rdi
	callq	rattle_dealloc@PLT
351:
	cmpq	$0, 368(%rsp)
	jne	335b
	jmp	336b
352:
	cmpq	$0, 176(%rsp)
	movdqa	%xmm0, 112(%rsp)
	je	353f
	movq	32(%rsp), %rdi
	callq	rattle_dealloc@PLT
	movdqa	112(%rsp), %xmm0
	movq	40(%rsp), %rcx
	movq	24(%rsp), %rdi
	movq	48(%rsp), %rdx
	movq	64(%rsp), %r8
	movq	80(%rsp), %rsi
	leaq	1(%rdx), %r9
353:
	movb	$1, %al
	movq	%rax, 168(%rsp)
	cmpq	$0, 152(%rsp)
	je	286b
	movq	184(%rsp), %rdi
354:
	callq	rattle_dealloc@PLT
	movdqa	112(%rsp), %xmm0
	movq	40(%rsp), %rcx
	movq	24(%rsp), %rdi
	movq	48(%rsp), %rdx
	movq	64(%rsp), %r8
	movq	80(%rsp), %rsi
	leaq	1(%rdx), %r9
	jmp	286b
355:
	cmpq	$0, 176(%rsp)
	je	356f
	movq	32(%rsp), %rdi
	movq	%r10, %r15
	callq	rattle_dealloc@PLT
	movq	%r15, %r10
356:
	cmpq	$0, 152(%rsp)
	je	358f
	movq	184(%rsp), %rdi
357:
	movq	%r10, %r15
	callq	rattle_dealloc@PLT
	movq	%r15, %r10
358:
	movq	%r10, %r12
	pxor	%xmm0, %xmm0
	movdqa	%xmm0, 224(%rsp)
	movdqa	%xmm0, 208(%rsp)
	movdqa	%xmm0, 192(%rsp)
	leaq	192(%rsp), %rdi
	movq	%rbx, %rsi
	movq	160(%rsp), %rdx
	callq	"clap::parser::parse::Parser::resolve_pending"
	cmpb	$1, 192(%rsp)
	jne	360f
	cmpb	$1, 208(%rsp)
	movq	216(%rsp), %rdi
	setne	%cl
	cmpq	$0, 232(%rsp)
	sete	%al
	orb	%cl, %al
	cmpb	$16, 200(%rsp)
	jne	359f
	testb	%al, %al
	je	363f
	jmp	364f
359:
	testb	%al, %al
	jne	360f
	callq	rattle_dealloc@PLT
360:
	movq	(%rbx), %rsi
	movq	584(%rsi), %rbx
	movl	$488, %eax
	addq	576(%rsi), %rax
	incq	%rbx
361:
	decq	%rbx
	je	362f
	cmpb	$1, (%rax)
	leaq	608(%rax), %rax
	jne	361b
362:
	leaq	384(%rsp), %rdi
	callq	"clap::parser::parse::Parser::plain_usage"
	cmpb	$0, 384(%rsp)
	jne	364f
	xorl	%r9d, %r9d
	testq	%rbx, %rbx
	setne	%r9b
	movq	392(%rsp), %r15
	movq	400(%rsp), %rax
	movq	408(%rsp), %r13
	movq	136(%rsp), %rcx
	movq	(%rcx), %rsi
	movq	$0, 960(%rsp)
	movq	$1, 352(%rsp)
	movq	%r15, 360(%rsp)
	movq	%rax, 368(%rsp)
	leaq	352(%rsp), %rax
	movq	%rax, (%rsp)
	leaq	880(%rsp), %rdi
	leaq	960(%rsp), %r8
	movq	%r12, %rdx
	movq	%r14, %rcx
	callq	"clap::error::Error::unknown_argument"
	cmpb	$0, 880(%rsp)
	je	365f
	testq	%r13, %r13
	je	364f
	movq	%r15, %rdi
363:
	callq	rattle_dealloc@PLT
364:
	testq	%rbp, %rbp
	je	152b
	movq	%r12, %rdi
	callq	rattle_dealloc@PLT
	jmp	152b
365:
	movzbl	888(%rsp), %eax
	movq	%rax, 32(%rsp)
	movzbl	896(%rsp), %ebx
	leaq	904(%rsp), %rdx
	movq	16(%rdx), %rax
	leaq	664(%rsp), %rcx
	movq	%rax, 16(%rcx)
	movdqu	(%rdx), %xmm0
	movdqu	%xmm0, (%rcx)
	testq	%r13, %r13
	je	366f
	movq	%r15, %rdi
	callq	rattle_dealloc@PLT
366:
	movq	664(%rsp), %r13
	movq	672(%rsp), %r14
	movq	680(%rsp), %r15
	testq	%rbp, %rbp
	je	367f
	movq	%r12, %rdi
	callq	rattle_dealloc@PLT
367:
	movq	%rbx, 304(%rsp)
	movq	%r13, 312(%rsp)
	movq	%r14, 320(%rsp)
	movq	%r15, %rbp
	movq	%r15, 328(%rsp)
	movq	%r13, %r10
	movq	%r14, %r13
	shrq	$8, %r13
	movb	$1, %r15b
	movq	48(%rsp), %rdx
	leaq	1(%rdx), %r9
	movq	80(%rsp), %rsi
	movq	64(%rsp), %r8
	movq	24(%rsp), %rdi
	movq	40(%rsp), %rcx
	movq	32(%rsp), %r12
	testb	%r15b, %r15b
	movq	696(%rsp), %r15
	je	11b
	jmp	479f
368:
	movq	%rbx, %rdi
	movzbl	200(%rsp), %ebx
	movzbl	208(%rsp), %r15d
	cmpq	$0, 128(%rsp)
	je	369f
	callq	rattle_dealloc@PLT
369:
	testq	%r13, %r13
	je	370f
	movq	%rbp, %rdi
	callq	rattle_dealloc@PLT
370:
	cmpq	$0, 368(%rsp)
	je	371f
	movq	%r12, %rdi
	callq	rattle_dealloc@PLT
371:
	cmpq	$0, 184(%rsp)
	movzbl	176(%rsp), %ebp
	je	372f
	movq	112(%rsp), %rdi
	callq	rattle_dealloc@PLT
372:
	cmpl	$1, 32(%rsp)
	setne	%al
	orb	%bpl, %al
	testb	$1, %al
	jne	373f
	movq	152(%rsp), %rdi
	callq	rattle_dealloc@PLT
373:
	movq	232(%rsp), %rax
	movdqu	216(%rsp), %xmm0
	movq	$1, 416(%rsp)
	movb	%bl, 424(%rsp)
	movq	%r15, 432(%rsp)
	movdqu	%xmm0, 440(%rsp)
	movq	%rax, 456(%rsp)
	testq	%r14, %r14
	je	201b
	movq	72(%rsp), %rdi
	callq	rattle_dealloc@PLT
	jmp	201b
374:
	cmpq	$0, 368(%rsp)
	je	375f
	movq	352(%rsp), %rdi
	callq	rattle_dealloc@PLT
375:
	cmpq	$0, 184(%rsp)
	je	376f
	movq	112(%rsp), %rdi
	callq	rattle_dealloc@PLT
376:
	cmpl	$1, 32(%rsp)
	setne	%al
	orb	176(%rsp), %al
	testb	$1, %al
	jne	172b
	movq	152(%rsp), %rdi
	callq	rattle_dealloc@PLT
	jmp	172b
	.p2align	4
377:
	movzbl	%r12b, %eax
	testl	%eax, %eax
	je	382f
	cmpl	$2, %eax
	je	456f
	movq	%r9, 472(%rsp)
	pxor	%xmm0, %xmm0
	movdqa	%xmm0, 496(%rsp)
	movq	$0, 512(%rsp)
	movq	%rsi, %rax
	incq	%rax
	movq	$-1, %r15
	cmovneq	%rax, %r15
	movq	136(%rsp), %r11
	movq	(%r11), %rsi
	movq	576(%rsi), %rax
	movq	584(%rsi), %rcx
	movq	1496(%rsp), %rbx
	cmpq	%rbx, %r15
	movq	160(%rsp), %r14
	jne	383f
	movq	%r8, %rbp
	testq	%rcx, %rcx
	movl	492(%rsp), %r12d
	je	385f
	leaq	505(%rax), %rdx
	movq	%rcx, %rdi
	jmp	380f
	.p2align	4
378:
	cmpq	-9(%rdx), %rbx
	jne	387f
379:
	addq	$608, %rdx
	decq	%rdi
	je	384f
380:
	cmpb	$1, -17(%rdx)
	jne	379b
	movq	-65(%rdx), %r9
	cmpq	-57(%rdx), %r9
	setne	%r8b
	cmpq	$2, %r9
	setae	%r9b
	cmpb	$1, -73(%rdx)
	jne	381f
	orb	%r8b, %r9b
	jne	378b
381:
	cmpb	$1, -1(%rdx)
	jne	379b
	cmpb	$1, (%rdx)
	je	378b
	jmp	379b
	.p2align	4
382:
	movq	%r10, 336(%rsp)
	movl	492(%rsp), %ecx
	movq	760(%rsp), %rdx
	jmp	7b
383:
	xorl	%edx, %edx
	testq	%rcx, %rcx
	movl	492(%rsp), %r12d
	movq	%r8, %rbp
	jne	402f
	movb	$1, %dil
	jmp	386f
384:
	xorl	%edx, %edx
	jmp	402f
385:
	movb	$1, %dil
	xorl	%edx, %edx
386:
	xorl	%ecx, %ecx
	jmp	406f
387:
	movl	%ecx, %edi
	andl	$3, %edi
	cmpq	$4, %rcx
	jae	388f
	xorl	%edx, %edx
	xorl	%r8d, %r8d
	jmp	398f
388:
	movq	%rcx, %r9
	andq	$-4, %r9
	leaq	2429(%rax), %r10
	xorl	%edx, %edx
	xorl	%r8d, %r8d
	jmp	390f
	.p2align	4
389:
	addq	$4, %r8
	addq	$2432, %r10
	cmpq	%r8, %r9
	je	397f
390:
	cmpb	$1, -1941(%r10)
	jne	393f
	movzbl	-1824(%r10), %edx
	cmpb	$1, -1333(%r10)
	je	394f
391:
	cmpb	$1, -725(%r10)
	jne	395f
392:
	movzbl	-608(%r10), %edx
	cmpb	$1, -117(%r10)
	jne	389b
	jmp	396f
	.p2align	4
393:
	cmpb	$1, -1333(%r10)
	jne	391b
394:
	movzbl	-1216(%r10), %edx
	cmpb	$1, -725(%r10)
	je	392b
395:
	cmpb	$1, -117(%r10)
	jne	389b
396:
	movzbl	(%r10), %edx
	jmp	389b
397:
	testq	%rdi, %rdi
	je	401f
398:
	imulq	$608, %r8, %r8
	addq	%rax, %r8
	addq	$605, %r8
	imulq	$608, %rdi, %rdi
	xorl	%r9d, %r9d
	jmp	400f
	.p2align	4
399:
	addq	$608, %r9
	cmpq	%r9, %rdi
	je	401f
400:
	cmpb	$1, -117(%r8,%r9)
	jne	399b
	movzbl	(%r8,%r9), %edx
	jmp	399b
401:
	xorb	$1, %dl
402:
	leaq	496(%rax), %rdi
	movq	%rcx, %r8
	jmp	404f
	.p2align	4
403:
	addq	$608, %rdi
	decq	%r8
	je	405f
404:
	cmpb	$1, -8(%rdi)
	jne	403b
	movq	80(%rsp), %r9
	cmpq	%r9, (%rdi)
	jne	403b
	movzbl	-32(%rdi), %r8d
	xorl	%edi, %edi
	jmp	407f
405:
	xorl	%edi, %edi
406:
	xorl	%r8d, %r8d
407:
	cmpq	%rbx, %r15
	sete	%r10b
	movzbl	660(%rsi), %r9d
	testb	$1, %r8b
	jne	409f
	movl	%r12d, %r8d
	xorb	$1, %r8b
	andb	%r8b, %r10b
	andb	%r9b, %r10b
	orb	%r10b, %dl
	testb	$1, %dl
	je	409f
	movl	%r12d, %ebx
	movq	472(%rsp), %rdx
	movq	%rdx, %r12
	shlq	$4, %r12
	addq	584(%rsp), %r12
	xorl	%r13d, %r13d
	cmpq	%rdx, 696(%rsp)
	setbe	%dl
	cmovaq	%r12, %r13
	orb	%dil, %dl
	je	414f
408:
	movq	%r15, %r13
	movq	160(%rsp), %r14
	movl	%ebx, %r12d
	jmp	410f
409:
	testb	$1, %r9b
	movq	80(%rsp), %r13
	movq	%r13, %rax
	cmovneq	%rbx, %rax
	cmpq	$0, 1488(%rsp)
	cmovneq	%rbx, %rax
	testb	$1, %r12b
	cmovneq	%rax, %r13
410:
	movq	(%r11), %rax
	movq	584(%rax), %rcx
	testq	%rcx, %rcx
	movq	696(%rsp), %r15
	je	459f
	movq	576(%rax), %rbx
	addq	$464, %rbx
	jmp	412f
	.p2align	4
411:
	addq	$608, %rbx
	decq	%rcx
	je	459f
412:
	cmpb	$1, 24(%rbx)
	jne	411b
	cmpq	%r13, 32(%rbx)
	jne	411b
	testb	$1, %r12b
	jne	413f
	cmpb	$0, 141(%rbx)
	jne	481f
413:
	movzbl	%r12b, %eax
	cmpb	$0, 140(%rbx)
	movl	$1, %r12d
	cmovel	%eax, %r12d
	pxor	%xmm0, %xmm0
	movdqa	%xmm0, 224(%rsp)
	movdqa	%xmm0, 208(%rsp)
	movdqa	%xmm0, 192(%rsp)
	cmpb	$1, 24(%r14)
	jne	427f
	movq	40(%r14), %rax
	cmpq	-456(%rbx), %rax
	jne	427f
	movq	32(%r14), %rdx
	movq	-464(%rbx), %rcx
	cmpq	$7, %rax
	ja	419f
	cmpq	$4, %rax
	jb	420f
	movl	(%rdx), %esi
	movl	-4(%rdx,%rax), %edx
	shlq	$32, %rdx
	orq	%rsi, %rdx
	bswapq	%rdx
	movl	(%rcx), %esi
	movl	-4(%rcx,%rax), %eax
	shlq	$32, %rax
	orq	%rsi, %rax
	bswapq	%rax
	jmp	421f
414:
	addq	$601, %rax
	jmp	416f
	.p2align	4
415:
	addq	$608, %rax
	decq	%rcx
	je	408b
416:
	cmpb	$1, -113(%rax)
	jne	415b
	movq	80(%rsp), %rdx
	cmpq	%rdx, -105(%rax)
	jne	415b
	movq	%rbp, 64(%rsp)
	movq	8(%r13), %rbp
	movq	(%r12), %r14
	cmpb	$0, -1(%rax)
	je	418f
417:
	movzbl	168(%rsp), %r8d
	leaq	496(%rsp), %rdi
	movq	%r14, %rdx
	movq	%rbp, %rcx
	callq	"clap::parser::parse::Parser::possible_subcommand"
	cmpb	$1, 496(%rsp)
	movq	136(%rsp), %r11
	movq	160(%rsp), %r14
	movl	%ebx, %r12d
	movq	80(%rsp), %r13
	movq	64(%rsp), %rbp
	jne	410b
	movq	%r15, %r13
	jmp	410b
418:
	testq	%rbp, %rbp
	je	442f
	cmpb	$0, (%rax)
	je	442f
	movzbl	(%r14), %eax
	movl	$1, %r8d
	testb	%al, %al
	jns	441f
	movzbl	1(%r14), %ecx
	andl	$63, %ecx
	cmpb	$-33, %al
	ja	439f
	andl	$31, %eax
	shll	$6, %eax
	orl	%ecx, %eax
	movl	$2, %r8d
	jmp	441f
419:
	cmpq	$32, %rax
	ja	422f
	leaq	-8(%rax), %r8
	movq	(%rdx), %r9
	cmpq	$8, %r8
	movl	$8, %edi
	cmovbq	%r8, %rdi
	cmpq	$16, %r8
	movl	$16, %esi
	cmovbq	%r8, %rsi
	cmpq	(%rcx), %r9
	jne	427f
	movq	(%rcx,%rdi), %r8
	cmpq	%r8, (%rdx,%rdi)
	jne	427f
	movq	(%rcx,%rsi), %rdi
	cmpq	%rdi, (%rdx,%rsi)
	jne	427f
	movq	-8(%rcx,%rax), %rcx
	cmpq	%rcx, -8(%rdx,%rax)
	je	426f
	jmp	427f
420:
	testq	%rax, %rax
	je	426f
	movzbl	(%rdx), %esi
	movq	%rax, %rdi
	shrq	%rdi
	movzbl	(%rdx,%rdi), %r8d
	shll	$16, %esi
	shll	$8, %r8d
	orl	%esi, %r8d
	movzbl	-1(%rdx,%rax), %edx
	orq	%r8, %rdx
	movzbl	(%rcx), %esi
	movzbl	(%rcx,%rdi), %edi
	shll	$16, %esi
	shll	$8, %edi
	orl	%esi, %edi
	movzbl	-1(%rcx,%rax), %eax
	orq	%rdi, %rax
421:
	cmpq	%rax, %rdx
	je	426f
	jmp	427f
422:
	cmpq	$65, %rax
	jae	423f
	leaq	-16(%rax), %rsi
	movdqu	(%rdx), %xmm0
	movdqu	16(%rdx), %xmm1
	movdqu	(%rcx), %xmm2
	pcmpeqb	%xmm0, %xmm2
	movdqu	16(%rcx), %xmm3
	pcmpeqb	%xmm1, %xmm3
	pcmpeqd	%xmm1, %xmm1
	pxor	%xmm1, %xmm2
	pxor	%xmm1, %xmm3
	por	%xmm2, %xmm3
	cmpq	$32, %rsi
	movl	$32, %edi
	cmovbq	%rsi, %rdi
	movdqu	(%rdx,%rdi), %xmm0
	movdqu	(%rcx,%rdi), %xmm2
	pcmpeqb	%xmm0, %xmm2
	pxor	%xmm1, %xmm2
	movdqu	-16(%rdx,%rax), %xmm4
	movdqu	-16(%rcx,%rax), %xmm0
	pcmpeqb	%xmm4, %xmm0
	pxor	%xmm1, %xmm0
	por	%xmm3, %xmm0
	por	%xmm2, %xmm0
	jmp	425f
423:
	xorl	%esi, %esi
	movq	%rax, %rdi
424:
	movdqu	(%rdx,%rsi), %xmm0
	movdqu	16(%rdx,%rsi), %xmm1
	movdqu	32(%rdx,%rsi), %xmm2
	movdqu	48(%rdx,%rsi), %xmm3
	movdqu	(%rcx,%rsi), %xmm4
	pcmpeqb	%xmm0, %xmm4
	movdqu	16(%rcx,%rsi), %xmm0
	pcmpeqb	%xmm1, %xmm0
	pand	%xmm4, %xmm0
	movdqu	32(%rcx,%rsi), %xmm1
	pcmpeqb	%xmm2, %xmm1
	movdqu	48(%rcx,%rsi), %xmm2
	pcmpeqb	%xmm3, %xmm2
	pand	%xmm1, %xmm2
	pand	%xmm0, %xmm2
	pmovmskb	%xmm2, %r8d
	cmpl	$65535, %r8d
	jne	427f
	addq	$64, %rsi
	addq	$-64, %rdi
	cmpq	$65, %rdi
	jae	424b
	movdqu	-64(%rdx,%rax), %xmm0
	movdqu	-48(%rdx,%rax), %xmm1
	movdqu	-32(%rdx,%rax), %xmm2
	movdqu	-16(%rdx,%rax), %xmm3
	movdqu	-64(%rcx,%rax), %xmm4
	pcmpeqb	%xmm0, %xmm4
	movdqu	-48(%rcx,%rax), %xmm5
	pcmpeqb	%xmm1, %xmm5
	movdqu	-32(%rcx,%rax), %xmm0
	pcmpeqb	%xmm2, %xmm0
	movdqu	-16(%rcx,%rax), %xmm1
	pcmpeqb	%xmm3, %xmm1
	pcmpeqd	%xmm2, %xmm2
	pxor	%xmm2, %xmm1
	pxor	%xmm2, %xmm0
	por	%xmm1, %xmm0
	pxor	%xmm2, %xmm4
	pxor	%xmm2, %xmm5
	por	%xmm4, %xmm5
	por	%xmm0, %xmm5
	pxor	%xmm0, %xmm0
	pcmpgtb	%xmm5, %xmm0
425:
	ptest	1b(%rip), %xmm0
	jne	427f
426:
	movq	-24(%rbx), %rcx
	cmpq	-16(%rbx), %rcx
	setne	%al
	cmpq	$2, %rcx
	setae	%cl
	cmpb	$1, -32(%rbx)
	jne	427f
	orb	%al, %cl
	jne	428f
427:
	leaq	192(%rsp), %rdi
	movq	136(%rsp), %rsi
	movq	%r14, %rdx
	callq	"clap::parser::parse::Parser::resolve_pending"
	cmpb	$0, 192(%rsp)
	jne	483f
428:
	movq	$1, 496(%rsp)
	movq	%rbp, 504(%rsp)
	movq	480(%rsp), %rax
	movq	%rax, 512(%rsp)
	leaq	496(%rsp), %rsi
	movq	%rbx, %rdi
	callq	"core::cmp::declared::OptionPartialEq::eq::<#a18ca2343ae6f068>"
	testb	%al, %al
	je	429f
	movq	%r13, %rax
	incq	%rax
	movq	$-1, %rsi
	cmovneq	%rax, %rsi
	movl	%r12d, %ecx
	xorl	%r13d, %r13d
	movb	$1, %al
	movq	%rax, 168(%rsp)
	xorl	%r14d, %r14d
	movq	$0, 336(%rsp)
	xorl	%ebx, %ebx
	movq	472(%rsp), %r9
	movq	760(%rsp), %rdx
	jmp	7b
429:
	cmpb	$1, 24(%r14)
	movq	%r13, %rsi
	je	430f
	movdqu	-464(%rbx), %xmm0
	movq	$1, 24(%r14)
	movdqu	%xmm0, 32(%r14)
	movw	$513, 48(%r14)
	movq	1480(%rsp), %rax
	movw	$0, 4(%rax)
	movl	$0, (%rax)
	leaq	56(%rsp), %rax
	movq	%rax, 56(%r14)
	pxor	%xmm0, %xmm0
	movq	864(%rsp), %rax
	movdqu	%xmm0, 16(%rax)
	movdqu	%xmm0, (%rax)
430:
	testb	$1, %r12b
	movq	%rbp, %rdi
	je	431f
	cmpb	$1, 80(%r14)
	movq	64(%r14), %rax
	je	432f
	movq	$1, 80(%r14)
	movq	%rax, 88(%r14)
	jmp	432f
431:
	movq	864(%rsp), %rax
	movq	(%rax), %rax
432:
	cmpq	%rax, 72(%r14)
	je	438f
433:
	movq	56(%r14), %rcx
	movq	%rax, %rdx
	shlq	$4, %rdx
	movq	%rdi, (%rcx,%rdx)
	movq	480(%rsp), %rdi
	movq	%rdi, 8(%rcx,%rdx)
	incq	%rax
	movq	%rax, 64(%r14)
	movq	-24(%rbx), %rcx
	cmpq	-16(%rbx), %rcx
	setne	%al
	cmpq	$2, %rcx
	setae	%cl
	cmpb	$1, -32(%rbx)
	jne	434f
	orb	%al, %cl
	jne	435f
434:
	cmpb	$1, 40(%rbx)
	jne	436f
	cmpb	$1, 41(%rbx)
	jne	436f
435:
	movq	-464(%rbx), %rax
	movq	%rax, 336(%rsp)
	movzbl	-456(%rbx), %r14d
	movzwl	-451(%rbx), %eax
	movzbl	-449(%rbx), %ecx
	shll	$16, %ecx
	orl	%eax, %ecx
	shlq	$32, %rcx
	movl	-455(%rbx), %r13d
	orq	%rcx, %r13
	movb	$2, %bl
	movb	$1, %al
	movq	%rax, 168(%rsp)
	jmp	437f
436:
	incq	%rsi
	movq	$-1, %rax
	cmoveq	%rax, %rsi
	xorl	%r13d, %r13d
	movb	$1, %al
	movq	%rax, 168(%rsp)
	xorl	%r14d, %r14d
	movq	$0, 336(%rsp)
	xorl	%ebx, %ebx
437:
	movq	472(%rsp), %r9
	movl	%r12d, %ecx
	movq	760(%rsp), %rdx
	jmp	7b
438:
	leaq	56(%r14), %rdi
	movl	$1, %esi
	callq	"std_alloc::vec::Vec::grow_amortized::<#3af3ba23e56e6a09>"
	testb	%al, %al
	je	487f
	movq	864(%rsp), %rax
	movq	(%rax), %rax
	movq	%r13, %rsi
	movq	%rbp, %rdi
	jmp	433b
439:
	movzbl	2(%r14), %edx
	andl	$63, %edx
	cmpb	$-17, %al
	ja	440f
	shll	$12, %eax
	movzwl	%ax, %eax
	shll	$6, %ecx
	orl	%eax, %ecx
	orl	%edx, %ecx
	movl	$3, %r8d
	movl	%ecx, %eax
	jmp	441f
440:
	movzbl	3(%r14), %edi
	andl	$63, %edi
	andl	$7, %eax
	shll	$18, %eax
	shll	$12, %ecx
	orl	%eax, %ecx
	shll	$6, %edx
	orl	%ecx, %edx
	orl	%edi, %edx
	movl	$4, %r8d
	movl	%edx, %eax
441:
	cmpl	$45, %eax
	jne	442f
	movq	%rbp, %rax
	subq	%r8, %rax
	je	417b
	leaq	(%r14,%r8), %rcx
	movzbl	(%rcx), %edx
	leal	-46(%rdx), %edi
	cmpl	$55, %edi
	ja	445f
	movabsq	$36028797027352577, %r9
	btq	%rdi, %r9
	jae	445f
442:
	leaq	192(%rsp), %rdi
	movq	%r14, %rsi
	movq	%rbp, %rdx
	callq	"clap::parser::lexer::to_long"
	testb	$1, 192(%rsp)
	jne	443f
	leaq	192(%rsp), %rdi
	movq	%r14, %rsi
	movq	%rbp, %rdx
	callq	"clap::parser::lexer::to_short"
	testb	$1, 192(%rsp)
	je	444f
443:
	movq	%r15, %r13
	movq	136(%rsp), %r11
	movq	160(%rsp), %r14
	movl	%ebx, %r12d
	movq	64(%rsp), %rbp
	jmp	410b
444:
	movq	8(%r13), %rbp
	movq	(%r12), %r14
	movq	136(%rsp), %rax
	movq	(%rax), %rsi
	jmp	417b
445:
	addb	$-48, %dl
	cmpb	$9, %dl
	ja	442b
	cmpq	$1, %rax
	je	417b
	subq	%rbp, %r8
	movl	$2, %edx
	xorl	%edi, %edi
	xorl	%r9d, %r9d
	jmp	448f
446:
	testb	%r9b, %r9b
	jne	442b
	leaq	-1(%rdx), %rdi
	movb	$1, %r9b
447:
	leaq	(%r8,%rdx), %r10
	incq	%r10
	incq	%rdx
	cmpq	$1, %r10
	je	453f
448:
	movzbl	-1(%rcx,%rdx), %r10d
	cmpl	$69, %r10d
	je	446b
	cmpl	$101, %r10d
	je	446b
	cmpl	$46, %r10d
	je	449f
	addb	$-48, %r10b
	cmpb	$9, %r10b
	jbe	447b
	jmp	442b
449:
	testb	%r9b, %r9b
	jne	442b
	movq	%r14, %r10
	addq	%rdx, %r8
	je	454f
	xorl	%r9d, %r9d
	jmp	452f
450:
	movq	%rdx, %rdi
	testb	%r9b, %r9b
	movb	$1, %r9b
	movq	%r10, %r14
	jne	442b
451:
	incq	%rdx
	cmpq	%rdx, %rax
	je	453f
452:
	movzbl	(%rcx,%rdx), %r8d
	cmpl	$69, %r8d
	je	450b
	cmpl	$101, %r8d
	je	450b
	cmpl	$46, %r8d
	movq	%r10, %r14
	je	442b
	addb	$-48, %r8b
	cmpb	$9, %r8b
	jbe	451b
	jmp	442b
453:
	incq	%rdi
	movq	$-1, %rcx
	cmovneq	%rdi, %rcx
	testb	%r9b, %r9b
	je	417b
	cmpq	%rax, %rcx
	je	442b
	jmp	417b
454:
	movq	%r10, %r14
	jmp	417b
455:
	movq	280(%rsp), %rax
	movq	$0, (%rax)
	movb	$0, 8(%rax)
	jmp	474f
456:
	movq	136(%rsp), %rax
	movq	(%rax), %rax
	cmpb	$1, 664(%rax)
	movq	160(%rsp), %rax
	jne	460f
	testb	$1, 168(%rsp)
	je	460f
	movq	%r10, %rbp
	movq	(%rax), %rdx
	movq	8(%rax), %rcx
	pxor	%xmm0, %xmm0
	movdqa	%xmm0, 192(%rsp)
	movdqa	%xmm0, 208(%rsp)
	movdqa	%xmm0, 224(%rsp)
	movdqa	%xmm0, 592(%rsp)
	movdqa	%xmm0, 608(%rsp)
	leaq	592(%rsp), %rdi
	movq	136(%rsp), %r13
	movq	%r13, %rsi
	callq	"clap::parser::parse::Parser::used_text"
	cmpb	$0, 592(%rsp)
	jne	473f
	movq	600(%rsp), %r14
	movq	608(%rsp), %r15
	movq	616(%rsp), %r12
	movq	(%r13), %rsi
	pxor	%xmm0, %xmm0
	movdqa	%xmm0, 496(%rsp)
	movdqa	%xmm0, 512(%rsp)
	movdqa	%xmm0, 416(%rsp)
	movq	$0, 432(%rsp)
	leaq	496(%rsp), %rdi
	leaq	56(%rsp), %rdx
	leaq	416(%rsp), %r8
	xorl	%ecx, %ecx
	callq	"clap::output::usage::with_title"
	cmpb	$0, 496(%rsp)
	je	467f
	testq	%r15, %r15
	je	463f
	leaq	16(%r14), %rbx
	jmp	458f
	.p2align	4
457:
	addq	$24, %rbx
	decq	%r15
	je	463f
458:
	cmpq	$0, (%rbx)
	je	457b
	movq	-16(%rbx), %rdi
	callq	rattle_dealloc@PLT
	jmp	457b
459:
	cmpb	$1, 663(%rax)
	jne	461f
	movq	472(%rsp), %rdx
	movq	%rdx, %rax
	shlq	$4, %rax
	movq	584(%rsp), %rcx
	addq	%rax, %rcx
	subq	%rdx, %r15
	movq	280(%rsp), %rax
	movq	$0, (%rax)
	movb	$1, 8(%rax)
	movq	%rbp, 16(%rax)
	movq	480(%rsp), %rsi
	movq	%rsi, 24(%rax)
	movq	%rdx, 32(%rax)
	movb	$0, 40(%rax)
	movb	$0, 47(%rax)
	movw	$0, 45(%rax)
	movl	$0, 41(%rax)
	movq	$1, 48(%rax)
	movq	%rcx, 56(%rax)
	movq	%r15, 64(%rax)
	jmp	475f
460:
	andb	$1, %r14b
	cmovneq	%rdx, %r9
	movq	280(%rsp), %rax
	movq	$0, (%rax)
	movb	$1, 8(%rax)
	movq	%rbx, 16(%rax)
	movq	%r10, 24(%rax)
	movq	%r9, 32(%rax)
	movb	%r14b, 40(%rax)
	pxor	%xmm0, %xmm0
	movdqu	%xmm0, 41(%rax)
	movdqu	%xmm0, 56(%rax)
	jmp	475f
461:
	pxor	%xmm0, %xmm0
	movdqa	%xmm0, 224(%rsp)
	movdqa	%xmm0, 208(%rsp)
	movdqa	%xmm0, 192(%rsp)
	leaq	192(%rsp), %rdi
	movq	136(%rsp), %rbx
	movq	%rbx, %rsi
	movq	%r14, %rdx
	callq	"clap::parser::parse::Parser::resolve_pending"
	cmpb	$1, 192(%rsp)
	jne	466f
	cmpb	$1, 208(%rsp)
	movq	216(%rsp), %rdi
	setne	%cl
	cmpq	$0, 232(%rsp)
	sete	%al
	orb	%cl, %al
	cmpb	$16, 200(%rsp)
	jne	465f
462:
	testb	%al, %al
	je	464f
	jmp	473f
463:
	testq	%r12, %r12
	je	473f
	movq	%r14, %rdi
464:
	callq	rattle_dealloc@PLT
	jmp	473f
465:
	testb	%al, %al
	jne	466f
	callq	rattle_dealloc@PLT
466:
	movq	%r14, (%rsp)
	movzbl	168(%rsp), %r8d
	movzbl	%r12b, %r9d
	leaq	1136(%rsp), %rdi
	movq	%rbx, %rsi
	movq	%rbp, %rdx
	movq	480(%rsp), %rcx
	callq	"clap::parser::parse::Parser::match_arg_error"
	cmpb	$0, 1136(%rsp)
	jne	473f
	movzbl	1152(%rsp), %eax
	movzbl	1144(%rsp), %ecx
	movzbl	1176(%rsp), %edx
	movl	1177(%rsp), %esi
	movzwl	1181(%rsp), %edi
	movzbl	1183(%rsp), %r8d
	movq	280(%rsp), %r9
	movq	$1, (%r9)
	movb	%cl, 8(%r9)
	movq	%rax, 16(%r9)
	movdqu	1160(%rsp), %xmm0
	movdqu	%xmm0, 24(%r9)
	movb	%dl, 40(%r9)
	movb	%r8b, 47(%r9)
	movw	%di, 45(%r9)
	movl	%esi, 41(%r9)
	pxor	%xmm0, %xmm0
	movdqu	%xmm0, 48(%r9)
	movq	$0, 64(%r9)
	jmp	475f
467:
	movq	%r12, 80(%rsp)
	movq	504(%rsp), %r12
	movq	512(%rsp), %rax
	movq	520(%rsp), %rcx
	movq	%rcx, 40(%rsp)
	movq	(%r13), %rsi
	movq	$1, 640(%rsp)
	movq	%r12, 648(%rsp)
	movq	%rax, 656(%rsp)
	leaq	640(%rsp), %rax
	movq	%rax, (%rsp)
	leaq	192(%rsp), %rdi
	movq	%rbx, %rdx
	movq	%rbp, %rcx
	movq	%r14, %r8
	movq	%r15, %r9
	callq	"clap::error::Error::subcommand_conflict"
	cmpq	$0, 40(%rsp)
	je	468f
	movq	%r12, %rdi
	callq	rattle_dealloc@PLT
468:
	testq	%r15, %r15
	movq	80(%rsp), %r12
	je	471f
	leaq	16(%r14), %rbx
	jmp	470f
	.p2align	4
469:
	addq	$24, %rbx
	decq	%r15
	je	471f
470:
	cmpq	$0, (%rbx)
	je	469b
	movq	-16(%rbx), %rdi
	callq	rattle_dealloc@PLT
	jmp	469b
471:
	testq	%r12, %r12
	je	472f
	movq	%r14, %rdi
	callq	rattle_dealloc@PLT
472:
	cmpb	$0, 192(%rsp)
	je	477f
473:
	movq	280(%rsp), %rax
	movq	$1, (%rax)
	movb	$16, 8(%rax)
474:
	pxor	%xmm0, %xmm0
	movdqu	%xmm0, 16(%rax)
	movdqu	%xmm0, 32(%rax)
	movdqu	%xmm0, 48(%rax)
	movq	$0, 64(%rax)
475:
	addq	$1672, %rsp
	popq	%rbx
	popq	%r12
	popq	%r13
	popq	%r14
	popq	%r15
	popq	%rbp
	retq
476:
	movq	472(%rsp), %rcx
	movq	%rcx, %rax
	shlq	$4, %rax
	movq	584(%rsp), %rdx
	addq	%rax, %rdx
	xorl	%r13d, %r13d
	subq	%rcx, %r15
	cmovbq	%r13, %r15
	pxor	%xmm0, %xmm0
	movdqa	%xmm0, 224(%rsp)
	movdqa	%xmm0, 208(%rsp)
	movdqa	%xmm0, 192(%rsp)
	leaq	192(%rsp), %rdi
	movq	%r15, %rcx
	callq	"clap::parser::parse::help_of"
	movzbl	200(%rsp), %r12d
	movzbl	208(%rsp), %ebx
	movdqu	216(%rsp), %xmm0
	movdqa	%xmm0, 1360(%rsp)
	movq	232(%rsp), %rax
	movq	%rax, 1376(%rsp)
	cmpb	$0, 192(%rsp)
	je	478f
	movb	$16, %r12b
	xorl	%r10d, %r10d
	xorl	%r14d, %r14d
	xorl	%ebp, %ebp
	xorl	%ebx, %ebx
	jmp	479f
477:
	movzbl	200(%rsp), %eax
	movzbl	208(%rsp), %ecx
	movdqu	216(%rsp), %xmm0
	movzbl	232(%rsp), %edx
	movzbl	239(%rsp), %esi
	shll	$16, %esi
	movzwl	237(%rsp), %edi
	orl	%esi, %edi
	shlq	$32, %rdi
	movl	233(%rsp), %esi
	orq	%rdi, %rsi
	movq	280(%rsp), %rdi
	movq	$1, (%rdi)
	movb	%al, 8(%rdi)
	movq	%rcx, 16(%rdi)
	movdqu	%xmm0, 24(%rdi)
	movb	%dl, 40(%rdi)
	movl	%esi, 41(%rdi)
	movq	%rsi, %rax
	shrq	$48, %rax
	movb	%al, 47(%rdi)
	shrq	$32, %rsi
	movw	%si, 45(%rdi)
	pxor	%xmm0, %xmm0
	movdqu	%xmm0, 48(%rdi)
	movq	$0, 64(%rdi)
	jmp	475b
478:
	movq	1376(%rsp), %rax
	leaq	304(%rsp), %rcx
	movq	%rax, 24(%rcx)
	movdqa	1360(%rsp), %xmm0
	movdqu	%xmm0, 8(%rcx)
	movq	312(%rsp), %r10
	movzbl	320(%rsp), %r14d
	movzbl	327(%rsp), %eax
	shll	$16, %eax
	movzwl	325(%rsp), %ecx
	orl	%eax, %ecx
	shlq	$32, %rcx
	movl	321(%rsp), %r13d
	orq	%rcx, %r13
	movq	328(%rsp), %rbp
479:
	movzbl	%bl, %eax
	movzbl	%r14b, %ecx
	shlq	$8, %r13
	orq	%rcx, %r13
	movq	280(%rsp), %rcx
	movq	$1, (%rcx)
	movb	%r12b, 8(%rcx)
	movq	%rax, 16(%rcx)
	movq	%r10, 24(%rcx)
	movq	%r13, 32(%rcx)
	movq	%rbp, 40(%rcx)
480:
	pxor	%xmm0, %xmm0
	movdqu	%xmm0, 48(%rcx)
	movq	$0, 64(%rcx)
	jmp	475b
481:
	pxor	%xmm0, %xmm0
	movdqa	%xmm0, 224(%rsp)
	movdqa	%xmm0, 208(%rsp)
	movdqa	%xmm0, 192(%rsp)
	leaq	192(%rsp), %rdi
	movq	136(%rsp), %rbx
	movq	%rbx, %rsi
	movq	%r14, %rdx
	callq	"clap::parser::parse::Parser::resolve_pending"
	cmpb	$1, 192(%rsp)
	jne	482f
	cmpb	$1, 208(%rsp)
	movq	216(%rsp), %rdi
	setne	%cl
	cmpq	$0, 232(%rsp)
	sete	%al
	orb	%cl, %al
	cmpb	$16, 200(%rsp)
	je	462b
	testb	%al, %al
	jne	482f
	callq	rattle_dealloc@PLT
482:
	movq	(%rbx), %rsi
	pxor	%xmm0, %xmm0
	movdqa	%xmm0, 192(%rsp)
	movdqa	%xmm0, 208(%rsp)
	movdqa	%xmm0, 496(%rsp)
	movq	$0, 512(%rsp)
	leaq	192(%rsp), %rdi
	leaq	56(%rsp), %rdx
	leaq	496(%rsp), %r8
	xorl	%ecx, %ecx
	callq	"clap::output::usage::with_title"
	cmpb	$0, 192(%rsp)
	jne	473b
	movq	%rbx, %rcx
	movq	200(%rsp), %rbx
	movq	208(%rsp), %rax
	movq	216(%rsp), %r14
	movq	(%rcx), %rsi
	movq	$0, 1616(%rsp)
	movq	$1, 1184(%rsp)
	movq	%rbx, 1192(%rsp)
	movq	%rax, 1200(%rsp)
	leaq	1184(%rsp), %rax
	movq	%rax, (%rsp)
	leaq	1216(%rsp), %rdi
	leaq	1616(%rsp), %r8
	movq	%rbp, %rdx
	movq	480(%rsp), %rcx
	xorl	%r9d, %r9d
	callq	"clap::error::Error::unknown_argument"
	cmpb	$0, 1216(%rsp)
	je	485f
	testq	%r14, %r14
	je	473b
	movq	%rbx, %rdi
	jmp	464b
483:
	movzbl	200(%rsp), %eax
	movzbl	208(%rsp), %edx
	movq	216(%rsp), %rcx
	movzbl	224(%rsp), %r8d
	movzbl	231(%rsp), %esi
	shll	$16, %esi
	movzwl	229(%rsp), %r9d
	orl	%esi, %r9d
	shlq	$32, %r9
	movl	225(%rsp), %edi
	orq	%r9, %rdi
	movq	232(%rsp), %rsi
	shlq	$8, %rdi
	orq	%r8, %rdi
484:
	movq	280(%rsp), %r8
	movq	$1, (%r8)
	movb	%al, 8(%r8)
	movq	%rdx, 16(%r8)
	movq	%rcx, 24(%r8)
	movq	%rdi, 32(%r8)
	movq	%rsi, 40(%r8)
	pxor	%xmm0, %xmm0
	movdqu	%xmm0, 48(%r8)
	movq	$0, 64(%r8)
	jmp	475b
485:
	movzbl	1224(%rsp), %ebp
	movzbl	1232(%rsp), %r15d
	movdqu	1240(%rsp), %xmm0
	movzbl	1256(%rsp), %r12d
	movzbl	1263(%rsp), %eax
	shll	$16, %eax
	movzwl	1261(%rsp), %ecx
	orl	%eax, %ecx
	shlq	$32, %rcx
	movl	1257(%rsp), %r13d
	orq	%rcx, %r13
	testq	%r14, %r14
	je	486f
	movq	%rbx, %rdi
	movdqa	%xmm0, 80(%rsp)
	callq	rattle_dealloc@PLT
	movdqa	80(%rsp), %xmm0
486:
	movq	280(%rsp), %rcx
	movq	$1, (%rcx)
	movb	%bpl, 8(%rcx)
	movq	%r15, 16(%rcx)
	movdqu	%xmm0, 24(%rcx)
	movb	%r12b, 40(%rcx)
	movl	%r13d, 41(%rcx)
	movq	%r13, %rax
	shrq	$48, %rax
	movb	%al, 47(%rcx)
	shrq	$32, %r13
	movw	%r13w, 45(%rcx)
	jmp	480b
487:
	movb	$16, %al
	xorl	%esi, %esi
	xorl	%ecx, %ecx
	xorl	%edx, %edx
	xorl	%edi, %edi
	jmp	484b
488:
	.size	"clap::parser::parse::Parser::parse", 488b-"clap::parser::parse::Parser::parse"
	.section	.rodata,"a",@progbits
	.p2align	2, 0x0
489:
	.long	286b-489b
	.long	286b-489b
	.long	286b-489b
	.long	286b-489b
	.long	352b-489b
	.long	286b-489b
	.long	343b-489b
	.long	343b-489b
	.long	286b-489b
490:
	.long	255b-490b
	.long	255b-490b
	.long	255b-490b
	.long	255b-490b
	.long	252b-490b
	.long	255b-490b
	.long	251b-490b
	.long	251b-490b
	.long	255b-490b
491:
	.long	285b-491b
	.long	285b-491b
	.long	285b-491b
	.long	285b-491b
	.long	282b-491b
	.long	285b-491b
	.long	277b-491b
	.long	277b-491b
	.long	285b-491b
492:
	.long	279b-492b
	.long	279b-492b
	.long	279b-492b
	.long	279b-492b
	.long	301b-492b
	.long	279b-492b
	.long	300b-492b
	.long	303b-492b
	.long	279b-492b
493:
	.long	290b-493b
	.long	281b-493b
	.long	304b-493b
	.long	268b-493b
	.long	268b-493b
	.long	268b-493b
	.long	305b-493b
	.long	358b-493b
	.long	268b-493b
494:
	.long	285b-494b
	.long	285b-494b
	.long	285b-494b
	.long	285b-494b
	.long	282b-494b
	.long	285b-494b
	.long	277b-494b
	.long	277b-494b
	.long	285b-494b
495:
	.long	290b-495b
	.long	290b-495b
	.long	290b-495b
	.long	290b-495b
	.long	287b-495b
	.long	290b-495b
	.long	275b-495b
	.long	275b-495b
	.long	290b-495b
496:
	.long	286b-496b
	.long	286b-496b
	.long	286b-496b
	.long	286b-496b
	.long	344b-496b
	.long	286b-496b
	.long	321b-496b
	.long	321b-496b
	.long	286b-496b
497:
	.long	358b-497b
	.long	358b-497b
	.long	358b-497b
	.long	358b-497b
	.long	355b-497b
	.long	358b-497b
	.long	323b-497b
	.long	323b-497b
	.long	358b-497b
498:
	.long	156b-498b
	.long	157b-498b
	.long	154b-498b
	.long	150b-498b
	.long	155b-498b
	.long	150b-498b
	.long	151b-498b
	.long	158b-498b
	.long	150b-498b

	.text
	.p2align	4
	.type	"clap::parser::parse::Parser::parse_opt_value",@function
"clap::parser::parse::Parser::parse_opt_value":
	pushq	%rbp
	pushq	%r15
	pushq	%r14
	pushq	%r13
	pushq	%r12
	pushq	%rbx
	subq	$392, %rsp
	movq	%r9, %r15
	movq	%r8, %r14
	movq	%rdi, %rbx
	movzbl	448(%rsp), %eax
	movzbl	(%rcx), %r13d
	movq	8(%rcx), %r12
	movq	16(%rcx), %rbp
	xorps	%xmm0, %xmm0
	movaps	%xmm0, 272(%rsp)
	movq	$0, 288(%rsp)
	movaps	%xmm0, 240(%rsp)
	movq	$0, 256(%rsp)
	movaps	%xmm0, 368(%rsp)
	movq	$0, 384(%rsp)
	movaps	%xmm0, 208(%rsp)
	movq	$0, 224(%rsp)
	movaps	%xmm0, 320(%rsp)
	movaps	%xmm0, 336(%rsp)
	movaps	%xmm0, 352(%rsp)
	testb	%al, %al
	jne	1f
	cmpb	$0, 602(%r14)
	je	1f
	cmpb	$1, 432(%r14)
	jne	2f
	cmpq	$0, 440(%r14)
	jne	2f
	movl	%edx, %ebp
	movaps	%xmm0, 32(%rsp)
	movaps	%xmm0, 48(%rsp)
	movaps	%xmm0, 64(%rsp)
	movaps	%xmm0, 80(%rsp)
	movaps	%xmm0, 96(%rsp)
	movaps	%xmm0, 112(%rsp)
	movaps	%xmm0, 128(%rsp)
	movaps	%xmm0, 144(%rsp)
	leaq	112(%rsp), %rdi
	movq	%rsi, %r12
	movq	%r15, %rdx
	callq	"clap::parser::parse::Parser::resolve_pending"
	cmpb	$0, 112(%rsp)
	je	9f
	movzbl	120(%rsp), %eax
	movzbl	128(%rsp), %edi
	movups	136(%rsp), %xmm0
	movups	%xmm0, 56(%rsp)
	movq	152(%rsp), %rcx
	movups	56(%rsp), %xmm0
	jmp	10f
1:
	movl	%edx, 28(%rsp)
	cmpb	$1, %r13b
	je	15f
	leaq	320(%rsp), %rdi
	movq	%r15, %rdx
	callq	"clap::parser::parse::Parser::resolve_pending"
	cmpb	$0, 320(%rsp)
	je	5f
	movzbl	336(%rsp), %eax
	movzbl	328(%rsp), %ecx
	movq	360(%rsp), %rdx
	movq	$1, (%rbx)
	movb	%cl, 8(%rbx)
	movq	%rax, 16(%rbx)
	movups	344(%rsp), %xmm0
	movups	%xmm0, 24(%rbx)
	movq	%rdx, 40(%rbx)
	jmp	11f
2:
	movups	%xmm0, 40(%rsp)
	movl	$0, 89(%rsp)
	movl	$0, 92(%rsp)
	leaq	24(%rsp), %rax
	movq	%rax, 32(%rsp)
	movl	$32, 56(%rsp)
	movq	$0, 60(%rsp)
	movl	$0, 68(%rsp)
	movq	$-1, 72(%rsp)
	movq	$0, 80(%rsp)
	movb	$0, 88(%rsp)
	movl	56(%rsp), %eax
	movl	%eax, 112(%rsp)
	movq	60(%rsp), %rax
	movq	%rax, 116(%rsp)
	movl	68(%rsp), %eax
	movl	%eax, 124(%rsp)
	movq	$-1, 128(%rsp)
	movl	$32, 56(%rsp)
	movq	$0, 60(%rsp)
	movl	$0, 68(%rsp)
	movq	$0, 176(%rsp)
	movq	%r14, 168(%rsp)
	leaq	168(%rsp), %rdi
	leaq	32(%rsp), %rsi
	callq	"clap::builder::arg::StylizedDisplay::fmt::<#86a172efa8724158>"
	movaps	112(%rsp), %xmm0
	movups	%xmm0, 56(%rsp)
	movq	128(%rsp), %rcx
	movq	%rcx, 72(%rsp)
	testb	%al, %al
	je	8f
	cmpq	$0, 48(%rsp)
	je	4f
	movq	32(%rsp), %rdi
3:
	callq	rattle_dealloc@PLT
4:
	movq	$1, (%rbx)
	movb	$16, 8(%rbx)
	xorps	%xmm0, %xmm0
	movups	%xmm0, 16(%rbx)
	movups	%xmm0, 32(%rbx)
	jmp	12f
5:
	cmpb	$1, 24(%r15)
	je	6f
	movups	(%r14), %xmm0
	movq	$1, 24(%r15)
	movups	%xmm0, 32(%r15)
	movb	$1, 48(%r15)
	movl	28(%rsp), %eax
	movb	%al, 49(%r15)
	movl	$0, 50(%r15)
	movw	$0, 54(%r15)
	leaq	24(%rsp), %rax
	movq	%rax, 56(%r15)
	xorps	%xmm0, %xmm0
	movups	%xmm0, 64(%r15)
	movups	%xmm0, 80(%r15)
6:
	movups	(%r14), %xmm0
	xorps	%xmm1, %xmm1
	movaps	%xmm1, 208(%rsp)
	movq	$0, 224(%rsp)
	movb	$1, %r13b
7:
	movq	224(%rsp), %rax
	movq	%rax, 288(%rsp)
	movaps	208(%rsp), %xmm1
	movaps	%xmm1, 272(%rsp)
	xorl	%eax, %eax
	jmp	24f
8:
	movaps	32(%rsp), %xmm0
	movq	48(%rsp), %rax
	xorps	%xmm1, %xmm1
	movaps	%xmm1, 240(%rsp)
	movq	$0, 256(%rsp)
	movb	$6, %r13b
	jmp	23f
9:
	leaq	24(%rsp), %rax
	movq	%rax, 168(%rsp)
	xorps	%xmm0, %xmm0
	movups	%xmm0, 176(%rsp)
	movq	%r15, 16(%rsp)
	movq	$0, 8(%rsp)
	movl	$0, (%rsp)
	movzbl	%bpl, %ecx
	leaq	32(%rsp), %rdi
	leaq	168(%rsp), %r9
	movq	%r12, %rsi
	movl	$1, %edx
	movq	%r14, %r8
	callq	"clap::parser::parse::Parser::act"
	movzbl	40(%rsp), %eax
	movq	48(%rsp), %rdi
	cmpb	$0, 32(%rsp)
	je	13f
	movups	56(%rsp), %xmm0
	movq	72(%rsp), %rcx
10:
	movzbl	%dil, %edx
	movq	$1, (%rbx)
	movb	%al, 8(%rbx)
	movq	%rdx, 16(%rbx)
	movups	%xmm0, 24(%rbx)
	movq	%rcx, 40(%rbx)
11:
	xorps	%xmm0, %xmm0
12:
	movups	%xmm0, 48(%rbx)
	movups	%xmm0, 64(%rbx)
	jmp	25f
13:
	movzbl	%al, %ecx
	movq	64(%rsp), %rax
	movl	%ecx, %ecx
	leaq	33f(%rip), %rdx
	movslq	(%rdx,%rcx,4), %rcx
	addq	%rdx, %rcx
	jmpq	*%rcx
14:
	testq	%rax, %rax
	jne	21f
	jmp	22f
15:
	movq	%rsi, 200(%rsp)
	leaq	24(%rsp), %rax
	movq	%rax, 296(%rsp)
	movups	%xmm0, 304(%rsp)
	leaq	296(%rsp), %rdi
	movl	$1, %esi
	callq	"std_alloc::vec::Vec::grow_amortized::<#3af3ba23e56e6a09>"
	testb	%al, %al
	je	16f
	movq	296(%rsp), %rcx
	movq	304(%rsp), %r13
	movq	312(%rsp), %rax
	movq	%rax, 192(%rsp)
	movq	%r13, %rax
	shlq	$4, %rax
	movq	%r12, (%rcx,%rax)
	movq	%rcx, %r12
	movq	%rbp, 8(%rcx,%rax)
	xorps	%xmm0, %xmm0
	movaps	%xmm0, 32(%rsp)
	movaps	%xmm0, 48(%rsp)
	movaps	%xmm0, 64(%rsp)
	movaps	%xmm0, 80(%rsp)
	movaps	%xmm0, 96(%rsp)
	movaps	%xmm0, 112(%rsp)
	movaps	%xmm0, 128(%rsp)
	movaps	%xmm0, 144(%rsp)
	leaq	112(%rsp), %rdi
	movq	200(%rsp), %rsi
	movq	%r15, %rdx
	callq	"clap::parser::parse::Parser::resolve_pending"
	cmpb	$0, 112(%rsp)
	je	17f
	movzbl	120(%rsp), %ebp
	movzbl	128(%rsp), %r14d
	movups	136(%rsp), %xmm0
	movups	%xmm0, 56(%rsp)
	movq	152(%rsp), %rax
	movq	%rax, 72(%rsp)
	cmpq	$0, 192(%rsp)
	je	18f
	movq	%r12, %rdi
	callq	rattle_dealloc@PLT
	jmp	18f
16:
	cmpq	$0, 312(%rsp)
	je	4b
	movq	296(%rsp), %rdi
	jmp	3b
17:
	incq	%r13
	movq	%r12, 168(%rsp)
	movq	%r13, 176(%rsp)
	movq	192(%rsp), %rax
	movq	%rax, 184(%rsp)
	movq	%r15, 16(%rsp)
	movq	$0, 8(%rsp)
	movl	$0, (%rsp)
	movzbl	28(%rsp), %ecx
	leaq	32(%rsp), %rdi
	leaq	168(%rsp), %r9
	movq	200(%rsp), %rsi
	movl	$1, %edx
	movq	%r14, %r8
	callq	"clap::parser::parse::Parser::act"
	movzbl	40(%rsp), %ebp
	movq	48(%rsp), %r14
	cmpb	$0, 32(%rsp)
	je	26f
18:
	movups	56(%rsp), %xmm0
	movq	72(%rsp), %rax
	movzbl	%r14b, %ecx
	movq	$1, (%rbx)
	movb	%bpl, 8(%rbx)
	movq	%rcx, 16(%rbx)
	movups	%xmm0, 24(%rbx)
	movq	%rax, 40(%rbx)
	jmp	11b
19:
	movq	88(%rsp), %r14
	movq	104(%rsp), %r15
	cmpq	$0, 80(%rsp)
	je	20f
	movq	%rax, %rdi
	callq	rattle_dealloc@PLT
20:
	testq	%r15, %r15
	je	22f
	movq	%r14, %rdi
21:
	callq	rattle_dealloc@PLT
22:
	xorps	%xmm0, %xmm0
	movaps	%xmm0, 368(%rsp)
	movq	$0, 384(%rsp)
	orb	$2, %r13b
	movaps	%xmm0, 240(%rsp)
	movq	$0, 256(%rsp)
	xorl	%eax, %eax
23:
	movq	256(%rsp), %rcx
	movq	%rcx, 288(%rsp)
	movaps	240(%rsp), %xmm1
	movaps	%xmm1, 272(%rsp)
24:
	movq	$0, (%rbx)
	movb	%r13b, 8(%rbx)
	movups	%xmm0, 16(%rbx)
	movq	%rax, 32(%rbx)
	xorps	%xmm0, %xmm0
	movups	%xmm0, 40(%rbx)
	movaps	272(%rsp), %xmm0
	movups	%xmm0, 56(%rbx)
	movq	288(%rsp), %rax
	movq	%rax, 72(%rbx)
25:
	addq	$392, %rsp
	popq	%rbx
	popq	%r12
	popq	%r13
	popq	%r14
	popq	%r15
	popq	%rbp
	retq
26:
	movzbl	%bpl, %eax
	movq	64(%rsp), %rdi
	movl	%eax, %eax
	leaq	34f(%rip), %rcx
	movslq	(%rcx,%rax,4), %rax
	addq	%rcx, %rax
	jmpq	*%rax
27:
	testq	%rdi, %rdi
	je	29f
28:
	movq	%r14, %rdi
	callq	rattle_dealloc@PLT
29:
	xorps	%xmm0, %xmm0
	movaps	%xmm0, 208(%rsp)
	movq	$0, 224(%rsp)
	movb	$2, %r13b
	jmp	7b
30:
	movq	88(%rsp), %r14
	movq	104(%rsp), %r15
	cmpq	$0, 80(%rsp)
	je	31f
	callq	rattle_dealloc@PLT
31:
	testq	%r15, %r15
	jne	28b
	jmp	29b
32:
	.size	"clap::parser::parse::Parser::parse_opt_value", 32b-"clap::parser::parse::Parser::parse_opt_value"
	.section	.rodata,"a",@progbits
	.p2align	2, 0x0
33:
	.long	22b-33b
	.long	22b-33b
	.long	22b-33b
	.long	22b-33b
	.long	19b-33b
	.long	22b-33b
	.long	14b-33b
	.long	14b-33b
	.long	22b-33b
34:
	.long	29b-34b
	.long	29b-34b
	.long	29b-34b
	.long	29b-34b
	.long	30b-34b
	.long	29b-34b
	.long	27b-34b
	.long	27b-34b
	.long	29b-34b

	.text
	.p2align	4
	.type	"clap::parser::parse::Parser::plain_usage",@function
"clap::parser::parse::Parser::plain_usage":
	pushq	%rbx
	subq	$80, %rsp
	movq	%rdi, %rbx
	xorps	%xmm0, %xmm0
	movaps	%xmm0, 32(%rsp)
	movaps	%xmm0, 16(%rsp)
	movaps	%xmm0, 48(%rsp)
	movq	$0, 64(%rsp)
	leaq	16(%rsp), %rdi
	leaq	8(%rsp), %rdx
	leaq	48(%rsp), %r8
	xorl	%ecx, %ecx
	callq	"clap::output::usage::with_title"
	movzbl	16(%rsp), %eax
	movb	%al, (%rbx)
	movups	24(%rsp), %xmm0
	movups	%xmm0, 8(%rbx)
	movq	40(%rsp), %rax
	movq	%rax, 24(%rbx)
	addq	$80, %rsp
	popq	%rbx
	retq
1:
	.size	"clap::parser::parse::Parser::plain_usage", 1b-"clap::parser::parse::Parser::plain_usage"

	.section	.rodata.cst16,"aM",@progbits,16
	.p2align	4, 0x0
1:
	.zero	16,1
	.text
	.p2align	4
	.type	"clap::parser::parse::Parser::possible_subcommand",@function
"clap::parser::parse::Parser::possible_subcommand":
	pushq	%rbp
	pushq	%r15
	pushq	%r14
	pushq	%r13
	pushq	%r12
	pushq	%rbx
	subq	$88, %rsp
	movq	%rcx, %r14
	movq	%rdi, %rbx
	pxor	%xmm0, %xmm0
	movdqa	%xmm0, 32(%rsp)
	testl	%r8d, %r8d
	je	2f
	cmpb	$0, 664(%rsi)
	je	2f
	movdqu	%xmm0, (%rbx)
	movq	$0, 16(%rbx)
	jmp	33f
2:
	movq	600(%rsi), %rdi
	movq	608(%rsi), %r9
	cmpb	$1, 658(%rsi)
	jne	30f
	movdqa	%xmm0, 64(%rsp)
	testq	%r9, %r9
	je	28f
	movq	%rbx, (%rsp)
	leaq	-16(%r14), %rcx
	cmpq	$32, %rcx
	movl	$32, %esi
	cmovbq	%rcx, %rsi
	movq	%rsi, 16(%rsp)
	leaq	-8(%r14), %rcx
	cmpq	$8, %rcx
	movl	$8, %r10d
	cmovbq	%rcx, %r10
	cmpq	$16, %rcx
	movl	$16, %r11d
	cmovbq	%rcx, %r11
	movq	%r14, %r8
	shrq	%r8
	movb	$1, %cl
	xorl	%r15d, %r15d
	xorl	%esi, %esi
	.p2align	4
3:
	movq	%rsi, 24(%rsp)
	movl	%ecx, 12(%rsp)
	jmp	5f
	.p2align	4
4:
	incq	%r15
	cmpq	%r9, %r15
	je	26f
5:
	imulq	$672, %r15, %rax
	leaq	(%rdi,%rax), %r13
	cmpq	%r14, 8(%rdi,%rax)
	jae	12f
6:
	movq	368(%r13), %rax
	testq	%rax, %rax
	je	4b
	movq	360(%r13), %rbx
	cmpq	$7, %r14
	jbe	20f
	cmpq	$32, %r14
	jbe	14f
	cmpq	$65, %r14
	jae	8f
	addq	$8, %rbx
	jmp	11f
	.p2align	4
7:
	addq	$24, %rbx
	decq	%rax
	je	4b
8:
	cmpq	%r14, 8(%rbx)
	jb	7b
	movq	(%rbx), %rbp
	xorl	%r12d, %r12d
	movq	%r14, %rcx
	.p2align	4
9:
	movdqu	(%rbp,%r12), %xmm0
	movdqu	16(%rbp,%r12), %xmm1
	movdqu	32(%rbp,%r12), %xmm2
	movdqu	48(%rbp,%r12), %xmm3
	movdqu	(%rdx,%r12), %xmm4
	pcmpeqb	%xmm0, %xmm4
	movdqu	16(%rdx,%r12), %xmm0
	pcmpeqb	%xmm1, %xmm0
	pand	%xmm4, %xmm0
	movdqu	32(%rdx,%r12), %xmm1
	pcmpeqb	%xmm2, %xmm1
	movdqu	48(%rdx,%r12), %xmm2
	pcmpeqb	%xmm3, %xmm2
	pand	%xmm1, %xmm2
	pand	%xmm0, %xmm2
	pmovmskb	%xmm2, %esi
	cmpl	$65535, %esi
	jne	7b
	addq	$64, %r12
	addq	$-64, %rcx
	cmpq	$65, %rcx
	jae	9b
	movdqu	-64(%rbp,%r14), %xmm0
	movdqu	-48(%rbp,%r14), %xmm1
	movdqu	-32(%rbp,%r14), %xmm2
	movdqu	-16(%rbp,%r14), %xmm3
	movdqu	-64(%rdx,%r14), %xmm4
	pcmpeqb	%xmm0, %xmm4
	movdqu	-48(%rdx,%r14), %xmm0
	pcmpeqb	%xmm1, %xmm0
	movdqu	-32(%rdx,%r14), %xmm1
	pcmpeqb	%xmm2, %xmm1
	movdqu	-16(%rdx,%r14), %xmm2
	pcmpeqb	%xmm3, %xmm2
	pcmpeqd	%xmm3, %xmm3
	pxor	%xmm3, %xmm2
	pxor	%xmm3, %xmm1
	por	%xmm2, %xmm1
	pxor	%xmm3, %xmm4
	pxor	%xmm3, %xmm0
	por	%xmm4, %xmm0
	por	%xmm1, %xmm0
	pmovmskb	%xmm0, %ecx
	testl	%ecx, %ecx
	jne	7b
	jmp	25f
	.p2align	4
10:
	decq	%rax
	addq	$24, %rbx
	testq	%rax, %rax
	je	4b
11:
	cmpq	%r14, (%rbx)
	jb	10b
	movq	-8(%rbx), %rcx
	movdqu	(%rcx), %xmm0
	movdqu	16(%rcx), %xmm1
	movdqu	(%rdx), %xmm2
	pcmpeqb	%xmm0, %xmm2
	movdqu	16(%rdx), %xmm0
	pcmpeqb	%xmm1, %xmm0
	pand	%xmm2, %xmm0
	movq	16(%rsp), %rsi
	movdqu	(%rcx,%rsi), %xmm1
	movdqu	(%rdx,%rsi), %xmm2
	pcmpeqb	%xmm1, %xmm2
	leaq	-16(%r14), %rsi
	movdqu	(%rcx,%rsi), %xmm1
	movdqu	(%rdx,%rsi), %xmm3
	pcmpeqb	%xmm1, %xmm3
	pand	%xmm2, %xmm3
	pand	%xmm0, %xmm3
	pmovmskb	%xmm3, %ecx
	cmpl	$65535, %ecx
	jne	10b
	jmp	25f
	.p2align	4
12:
	movq	(%rdi,%rax), %rax
	cmpq	$7, %r14
	ja	13f
	cmpq	$4, %r14
	jb	17f
	movl	(%rax), %ecx
	movl	-4(%rax,%r14), %eax
	shlq	$32, %rax
	orq	%rcx, %rax
	bswapq	%rax
	movl	(%rdx), %ebx
	movl	-4(%rdx,%r14), %ecx
	shlq	$32, %rcx
	orq	%rbx, %rcx
	bswapq	%rcx
	cmpq	%rcx, %rax
	jne	18f
	jmp	25f
	.p2align	4
13:
	cmpq	$32, %r14
	ja	22f
	movq	(%rax), %rcx
	xorq	(%rdx), %rcx
	movq	(%rax,%r10), %rbx
	xorq	(%rdx,%r10), %rbx
	orq	%rcx, %rbx
	movq	(%rax,%r11), %rcx
	xorq	(%rdx,%r11), %rcx
	orq	%rbx, %rcx
	leaq	-8(%r14), %rsi
	movq	(%rax,%rsi), %rax
	xorq	(%rdx,%rsi), %rax
	orq	%rcx, %rax
	je	25f
	movq	368(%r13), %rax
	testq	%rax, %rax
	je	4b
	movq	360(%r13), %rbx
14:
	addq	$8, %rbx
	jmp	16f
	.p2align	4
15:
	decq	%rax
	addq	$24, %rbx
	testq	%rax, %rax
	je	4b
16:
	cmpq	%r14, (%rbx)
	jb	15b
	movq	-8(%rbx), %rcx
	movq	(%rcx), %rsi
	xorq	(%rdx), %rsi
	movq	(%rcx,%r10), %r12
	xorq	(%rdx,%r10), %r12
	orq	%rsi, %r12
	movq	(%rcx,%r11), %rsi
	xorq	(%rdx,%r11), %rsi
	orq	%r12, %rsi
	leaq	-8(%r14), %r12
	movq	(%rcx,%r12), %rcx
	xorq	(%rdx,%r12), %rcx
	orq	%rsi, %rcx
	jne	15b
	jmp	25f
17:
	testq	%r14, %r14
	je	25f
	movzbl	(%rax), %ecx
	movzbl	(%rax,%r8), %ebx
	shll	$16, %ecx
	shll	$8, %ebx
	orl	%ecx, %ebx
	movzbl	-1(%rax,%r14), %eax
	orq	%rbx, %rax
	movzbl	(%rdx), %ecx
	movzbl	(%rdx,%r8), %ebx
	shll	$16, %ecx
	shll	$8, %ebx
	orl	%ecx, %ebx
	movzbl	-1(%rdx,%r14), %ecx
	orq	%rbx, %rcx
	cmpq	%rcx, %rax
	je	25f
18:
	movq	368(%r13), %rax
	testq	%rax, %rax
	je	4b
	movq	360(%r13), %rbx
	jmp	20f
	.p2align	4
19:
	movl	(%rcx), %esi
	movl	-4(%rcx,%r14), %r12d
	shlq	$32, %r12
	orq	%rsi, %r12
	bswapq	%r12
	movl	(%rdx), %esi
	movl	-4(%rdx,%r14), %ecx
	shlq	$32, %rcx
	orq	%rsi, %rcx
	bswapq	%rcx
	cmpq	%rcx, %r12
	jne	21f
	jmp	25f
	.p2align	4
20:
	cmpq	%r14, 8(%rbx)
	jb	21f
	movq	(%rbx), %rcx
	cmpq	$3, %r14
	ja	19b
	testq	%r14, %r14
	je	25f
	movzbl	(%rcx), %ebp
	movzbl	(%rcx,%r8), %esi
	shll	$16, %ebp
	shll	$8, %esi
	orl	%ebp, %esi
	movzbl	-1(%rcx,%r14), %r12d
	orq	%rsi, %r12
	movzbl	(%rdx), %ecx
	movzbl	(%rdx,%r8), %esi
	shll	$16, %ecx
	shll	$8, %esi
	orl	%ecx, %esi
	movzbl	-1(%rdx,%r14), %ecx
	orq	%rsi, %rcx
	cmpq	%rcx, %r12
	je	25f
21:
	decq	%rax
	addq	$24, %rbx
	testq	%rax, %rax
	jne	20b
	jmp	4b
22:
	cmpq	$65, %r14
	jae	23f
	movdqu	(%rax), %xmm0
	movdqu	16(%rax), %xmm1
	movdqu	(%rdx), %xmm2
	pcmpeqb	%xmm0, %xmm2
	movdqu	16(%rdx), %xmm3
	pcmpeqb	%xmm1, %xmm3
	pcmpeqd	%xmm1, %xmm1
	pxor	%xmm1, %xmm2
	pxor	%xmm1, %xmm3
	por	%xmm2, %xmm3
	movq	16(%rsp), %rcx
	movdqu	(%rax,%rcx), %xmm0
	movdqu	(%rdx,%rcx), %xmm2
	pcmpeqb	%xmm0, %xmm2
	pxor	%xmm1, %xmm2
	leaq	-16(%r14), %rcx
	movdqu	(%rax,%rcx), %xmm4
	movdqu	(%rdx,%rcx), %xmm0
	pcmpeqb	%xmm4, %xmm0
	pxor	%xmm1, %xmm0
	por	%xmm2, %xmm0
	por	%xmm3, %xmm0
	ptest	1b(%rip), %xmm0
	jne	6b
	jmp	25f
23:
	xorl	%ebx, %ebx
	movq	%r14, %r12
	.p2align	4
24:
	movdqu	(%rax,%rbx), %xmm0
	movdqu	16(%rax,%rbx), %xmm1
	movdqu	32(%rax,%rbx), %xmm2
	movdqu	48(%rax,%rbx), %xmm3
	movdqu	(%rdx,%rbx), %xmm4
	pcmpeqb	%xmm0, %xmm4
	movdqu	16(%rdx,%rbx), %xmm0
	pcmpeqb	%xmm1, %xmm0
	pand	%xmm4, %xmm0
	movdqu	32(%rdx,%rbx), %xmm1
	pcmpeqb	%xmm2, %xmm1
	movdqu	48(%rdx,%rbx), %xmm2
	pcmpeqb	%xmm3, %xmm2
	pand	%xmm1, %xmm2
	pand	%xmm0, %xmm2
	pmovmskb	%xmm2, %ecx
	cmpl	$65535, %ecx
	jne	6b
	addq	$64, %rbx
	addq	$-64, %r12
	cmpq	$65, %r12
	jae	24b
	movdqu	-64(%rax,%r14), %xmm0
	movdqu	-48(%rax,%r14), %xmm1
	movdqu	-32(%rax,%r14), %xmm2
	movdqu	-16(%rax,%r14), %xmm3
	movdqu	-64(%rdx,%r14), %xmm4
	pcmpeqb	%xmm0, %xmm4
	movdqu	-48(%rdx,%r14), %xmm5
	pcmpeqb	%xmm1, %xmm5
	movdqu	-32(%rdx,%r14), %xmm0
	pcmpeqb	%xmm2, %xmm0
	movdqu	-16(%rdx,%r14), %xmm1
	pcmpeqb	%xmm3, %xmm1
	pcmpeqd	%xmm2, %xmm2
	pxor	%xmm2, %xmm1
	pxor	%xmm2, %xmm0
	por	%xmm1, %xmm0
	pxor	%xmm2, %xmm4
	pxor	%xmm2, %xmm5
	por	%xmm4, %xmm5
	por	%xmm0, %xmm5
	pxor	%xmm0, %xmm0
	pcmpgtb	%xmm5, %xmm0
	ptest	1b(%rip), %xmm0
	jne	6b
	.p2align	4
25:
	testb	$1, 24(%rsp)
	jne	29f
	movdqu	(%r13), %xmm0
	movdqa	%xmm0, 64(%rsp)
	incq	%r15
	movb	$1, %sil
	xorl	%ecx, %ecx
	cmpq	%r9, %r15
	jne	3b
	movups	(%r13), %xmm0
	movaps	%xmm0, 48(%rsp)
	movq	(%rsp), %rbx
	jmp	27f
26:
	movdqa	64(%rsp), %xmm0
	movdqa	%xmm0, 48(%rsp)
	testb	$1, 12(%rsp)
	movq	(%rsp), %rbx
	jne	30f
27:
	movq	$1, (%rbx)
	movdqa	48(%rsp), %xmm0
	jmp	32f
28:
	xorl	%r9d, %r9d
	jmp	30f
29:
	movq	(%rsp), %rbx
30:
	movq	%r9, %rsi
	movq	%r14, %rcx
	callq	"clap::builder::command::Command::find_subcommand"
	cmpb	$1, %al
	jne	31f
	movdqu	(%rdx), %xmm0
	movdqa	%xmm0, 32(%rsp)
31:
	movzbl	%al, %eax
	movq	%rax, (%rbx)
	movdqa	32(%rsp), %xmm0
32:
	movdqu	%xmm0, 8(%rbx)
33:
	addq	$88, %rsp
	popq	%rbx
	popq	%r12
	popq	%r13
	popq	%r14
	popq	%r15
	popq	%rbp
	retq
34:
	.size	"clap::parser::parse::Parser::possible_subcommand", 34b-"clap::parser::parse::Parser::possible_subcommand"

	.text
	.p2align	4
	.type	"clap::parser::parse::Parser::remove_overrides",@function
"clap::parser::parse::Parser::remove_overrides":
	pushq	%rbp
	pushq	%r15
	pushq	%r14
	pushq	%r13
	pushq	%r12
	pushq	%rbx
	subq	$72, %rsp
	movq	%rdx, %rbx
	movq	%rsi, %rbp
	movq	%rdi, 8(%rsp)
	movq	296(%rsi), %r14
	testq	%r14, %r14
	je	2f
	movq	288(%rbp), %r15
	addq	$8, %r15
	.p2align	4
1:
	movq	-8(%r15), %rsi
	movq	(%r15), %rdx
	movq	%rbx, %rdi
	callq	"clap::parser::matcher::ArgMatcher::remove"
	addq	$16, %r15
	decq	%r14
	jne	1b
2:
	movq	(%rbx), %r13
	movq	8(%rbx), %rax
	leaq	16(%rsp), %rcx
	movq	%rcx, 48(%rsp)
	movq	%rcx, 24(%rsp)
	pxor	%xmm0, %xmm0
	movdqu	%xmm0, 32(%rsp)
	movq	%rax, 64(%rsp)
	testq	%rax, %rax
	je	28f
	xorl	%r12d, %r12d
	xorl	%r14d, %r14d
	movq	8(%rsp), %r15
	movq	%rbx, 56(%rsp)
	jmp	7f
3:
	movq	%rbp, %rbx
	movq	(%rdx), %r15
	movq	8(%rdx), %rbp
	cmpq	%r12, 40(%rsp)
	je	24f
4:
	movq	%r12, %rax
	shlq	$4, %rax
	movq	48(%rsp), %rcx
	movq	%r15, (%rcx,%rax)
	movq	%rbp, 8(%rcx,%rax)
	incq	%r12
	movq	%r12, 32(%rsp)
	movq	%rbx, %rbp
	movq	56(%rsp), %rbx
5:
	movq	8(%rsp), %r15
6:
	incq	%r14
	cmpq	64(%rsp), %r14
	je	25f
7:
	imulq	$104, %r14, %rax
	movq	(%r15), %rsi
	movq	(%r13,%rax), %rdx
	movq	8(%r13,%rax), %rcx
	movq	576(%rsi), %rdi
	movq	584(%rsi), %rsi
	callq	"clap::builder::command::Command::find"
	cmpb	$1, %al
	jne	6b
	movq	296(%rdx), %rax
	testq	%rax, %rax
	je	6b
	movq	8(%rbp), %rsi
	leaq	-8(%rsi), %rcx
	leaq	-16(%rsi), %r8
	cmpq	$32, %r8
	movl	$32, %r9d
	cmovbq	%r8, %r9
	cmpq	$8, %rcx
	movl	$8, %r10d
	cmovbq	%rcx, %r10
	cmpq	$16, %rcx
	movl	$16, %r11d
	cmovbq	%rcx, %r11
	movq	(%rbp), %rdi
	movq	%rsi, %r15
	movq	288(%rdx), %rcx
	subq	$8, %r15
	jae	10f
	cmpq	$4, %rsi
	jb	13f
	addq	$8, %rcx
	jmp	9f
	.p2align	4
8:
	decq	%rax
	addq	$16, %rcx
	testq	%rax, %rax
	je	5b
9:
	cmpq	%rsi, (%rcx)
	jne	8b
	movq	-8(%rcx), %r8
	movl	(%r8), %r9d
	movl	-4(%r8,%rsi), %r8d
	shlq	$32, %r8
	orq	%r9, %r8
	movl	(%rdi), %r9d
	movl	-4(%rdi,%rsi), %r10d
	shlq	$32, %r10
	orq	%r9, %r10
	cmpq	%r10, %r8
	jne	8b
	jmp	3b
10:
	cmpq	$32, %rsi
	ja	16f
	addq	$8, %rcx
	jmp	12f
	.p2align	4
11:
	decq	%rax
	addq	$16, %rcx
	testq	%rax, %rax
	je	5b
12:
	cmpq	%rsi, (%rcx)
	jne	11b
	movq	-8(%rcx), %r8
	movq	(%r8), %r9
	cmpq	(%rdi), %r9
	jne	11b
	movq	(%rdi,%r10), %r9
	cmpq	%r9, (%r8,%r10)
	jne	11b
	movq	(%rdi,%r11), %r9
	cmpq	%r9, (%r8,%r11)
	jne	11b
	movq	(%rdi,%r15), %r9
	cmpq	%r9, (%r8,%r15)
	jne	11b
	jmp	3b
13:
	testq	%rsi, %rsi
	je	22f
	movq	%rsi, %r8
	shrq	%r8
	addq	$8, %rcx
	jmp	15f
	.p2align	4
14:
	decq	%rax
	addq	$16, %rcx
	testq	%rax, %rax
	je	5b
15:
	cmpq	%rsi, (%rcx)
	jne	14b
	movq	-8(%rcx), %r9
	movzbl	(%r9), %r10d
	movzbl	(%r9,%r8), %r11d
	shll	$16, %r10d
	shll	$8, %r11d
	orl	%r10d, %r11d
	movzbl	-1(%r9,%rsi), %r9d
	orl	%r11d, %r9d
	movzbl	(%rdi), %r10d
	movzbl	(%rdi,%r8), %r11d
	shll	$16, %r10d
	shll	$8, %r11d
	orl	%r10d, %r11d
	movzbl	-1(%rdi,%rsi), %r10d
	orl	%r11d, %r10d
	cmpl	%r10d, %r9d
	jne	14b
	jmp	3b
16:
	cmpq	$65, %rsi
	jae	18f
	addq	$8, %rcx
	jmp	21f
	.p2align	4
17:
	addq	$16, %rcx
	decq	%rax
	je	5b
18:
	cmpq	%rsi, 8(%rcx)
	jne	17b
	movq	(%rcx), %r8
	xorl	%r9d, %r9d
	movq	%rsi, %r10
	.p2align	4
19:
	movdqu	(%r8,%r9), %xmm0
	movdqu	16(%r8,%r9), %xmm1
	movdqu	32(%r8,%r9), %xmm2
	movdqu	48(%r8,%r9), %xmm3
	movdqu	(%rdi,%r9), %xmm4
	pcmpeqb	%xmm0, %xmm4
	movdqu	16(%rdi,%r9), %xmm0
	pcmpeqb	%xmm1, %xmm0
	pand	%xmm4, %xmm0
	movdqu	32(%rdi,%r9), %xmm1
	pcmpeqb	%xmm2, %xmm1
	movdqu	48(%rdi,%r9), %xmm2
	pcmpeqb	%xmm3, %xmm2
	pand	%xmm1, %xmm2
	pand	%xmm0, %xmm2
	pmovmskb	%xmm2, %r11d
	cmpl	$65535, %r11d
	jne	17b
	addq	$64, %r9
	addq	$-64, %r10
	cmpq	$65, %r10
	jae	19b
	movdqu	-64(%r8,%rsi), %xmm0
	movdqu	-48(%r8,%rsi), %xmm1
	movdqu	-32(%r8,%rsi), %xmm2
	movdqu	-16(%r8,%rsi), %xmm3
	movdqu	-64(%rdi,%rsi), %xmm4
	pcmpeqb	%xmm0, %xmm4
	movdqu	-48(%rdi,%rsi), %xmm0
	pcmpeqb	%xmm1, %xmm0
	pand	%xmm4, %xmm0
	movdqu	-32(%rdi,%rsi), %xmm1
	pcmpeqb	%xmm2, %xmm1
	movdqu	-16(%rdi,%rsi), %xmm2
	pcmpeqb	%xmm3, %xmm2
	pand	%xmm1, %xmm2
	pand	%xmm0, %xmm2
	pmovmskb	%xmm2, %r8d
	cmpl	$65535, %r8d
	jne	17b
	jmp	3b
	.p2align	4
20:
	decq	%rax
	addq	$16, %rcx
	testq	%rax, %rax
	je	5b
21:
	cmpq	%rsi, (%rcx)
	jne	20b
	movq	-8(%rcx), %r10
	movdqu	(%r10), %xmm0
	movdqu	16(%r10), %xmm1
	movdqu	(%rdi), %xmm2
	pcmpeqb	%xmm0, %xmm2
	movdqu	16(%rdi), %xmm0
	pcmpeqb	%xmm1, %xmm0
	pand	%xmm2, %xmm0
	movdqu	(%r10,%r9), %xmm1
	movdqu	(%rdi,%r9), %xmm2
	pcmpeqb	%xmm1, %xmm2
	movdqu	(%r10,%r8), %xmm1
	movdqu	(%rdi,%r8), %xmm3
	pcmpeqb	%xmm1, %xmm3
	pand	%xmm2, %xmm3
	pand	%xmm0, %xmm3
	pmovmskb	%xmm3, %r10d
	cmpl	$65535, %r10d
	jne	20b
	jmp	3b
22:
	addq	$8, %rcx
	.p2align	4
23:
	cmpq	$0, (%rcx)
	je	3b
	addq	$16, %rcx
	decq	%rax
	jne	23b
	jmp	5b
24:
	leaq	24(%rsp), %rdi
	movl	$1, %esi
	callq	"std_alloc::vec::Vec::grow_amortized::<#3af3ba23e56e6a09>"
	testb	%al, %al
	je	30f
	movq	24(%rsp), %rax
	movq	%rax, 48(%rsp)
	movq	32(%rsp), %r12
	jmp	4b
25:
	movq	24(%rsp), %r14
	movq	40(%rsp), %r15
	testq	%r12, %r12
	je	27f
	leaq	8(%r14), %r13
	.p2align	4
26:
	movq	-8(%r13), %rsi
	movq	(%r13), %rdx
	movq	%rbx, %rdi
	callq	"clap::parser::matcher::ArgMatcher::remove"
	addq	$16, %r13
	decq	%r12
	jne	26b
27:
	testq	%r15, %r15
	je	28f
	movq	%r14, %rdi
	callq	rattle_dealloc@PLT
28:
	xorl	%eax, %eax
29:
	addq	$72, %rsp
	popq	%rbx
	popq	%r12
	popq	%r13
	popq	%r14
	popq	%r15
	popq	%rbp
	retq
30:
	cmpq	$0, 40(%rsp)
	je	31f
	movq	24(%rsp), %rdi
	callq	rattle_dealloc@PLT
31:
	movb	$1, %al
	jmp	29b
32:
	.size	"clap::parser::parse::Parser::remove_overrides", 32b-"clap::parser::parse::Parser::remove_overrides"

	.text
	.p2align	4
	.type	"clap::parser::parse::Parser::request_error",@function
"clap::parser::parse::Parser::request_error":
	pushq	%rbp
	pushq	%r15
	pushq	%r14
	pushq	%r13
	pushq	%r12
	pushq	%rbx
	subq	$376, %rsp
	movq	%rdi, %rbx
	xorps	%xmm0, %xmm0
	movaps	%xmm0, 80(%rsp)
	movq	$0, 96(%rsp)
	movaps	%xmm0, 304(%rsp)
	movq	$0, 320(%rsp)
	movaps	%xmm0, 272(%rsp)
	movq	$0, 288(%rsp)
	movaps	%xmm0, 240(%rsp)
	movq	$0, 256(%rsp)
	movaps	%xmm0, 208(%rsp)
	movq	$0, 224(%rsp)
	xorb	$1, %cl
	orb	%r8b, %cl
	setne	%cl
	movzbl	%dl, %eax
	leaq	98f(%rip), %rdx
	movslq	(%rdx,%rax,4), %rax
	addq	%rdx, %rax
	jmpq	*%rax
1:
	xorl	%eax, %eax
	xorl	%ecx, %ecx
2:
	movb	$0, (%rbx)
	movq	%rax, 8(%rbx)
	movb	%cl, 16(%rbx)
	movq	%rax, 24(%rbx)
	movaps	80(%rsp), %xmm0
	movups	%xmm0, 32(%rbx)
	movq	96(%rsp), %rax
	movq	%rax, 48(%rbx)
	jmp	59f
3:
	movq	(%rsi), %rsi
	movaps	%xmm0, 16(%rsp)
	movaps	%xmm0, (%rsp)
	movzbl	671(%rsi), %edx
	movq	%rsp, %rdi
	callq	"clap::output::help::render"
	cmpb	$0, (%rsp)
	jne	58f
	movq	24(%rsp), %rax
	movq	%rax, 256(%rsp)
	movups	8(%rsp), %xmm0
	movaps	%xmm0, 240(%rsp)
	jmp	9f
4:
	movq	(%rsi), %rsi
	movaps	%xmm0, 16(%rsp)
	movaps	%xmm0, (%rsp)
	testb	%cl, %cl
	je	7f
	movzbl	671(%rsi), %eax
	jmp	8f
5:
	movq	(%rsi), %rsi
	movaps	%xmm0, 16(%rsp)
	movaps	%xmm0, (%rsp)
	movq	%rsp, %rdi
	xorl	%edx, %edx
	callq	"clap::output::help::render"
	cmpb	$0, (%rsp)
	jne	58f
	movq	24(%rsp), %rax
	movq	%rax, 288(%rsp)
	movups	8(%rsp), %xmm0
	movaps	%xmm0, 272(%rsp)
	jmp	9f
6:
	movq	(%rsi), %rax
	movups	%xmm0, 191(%rsp)
	movaps	%xmm0, 176(%rsp)
	movaps	%xmm0, 144(%rsp)
	movups	%xmm0, 159(%rsp)
	movaps	%xmm0, 336(%rsp)
	movups	%xmm0, 351(%rsp)
	testb	%cl, %cl
	je	10f
	leaq	200(%rax), %rcx
	leaq	208(%rax), %rdx
	leaq	176(%rax), %rsi
	leaq	184(%rax), %rdi
	cmpb	$1, 192(%rax)
	cmoveq	%rcx, %rsi
	movq	(%rsi), %rcx
	cmoveq	%rdx, %rdi
	movq	(%rdi), %rdx
	movzbl	168(%rax), %edi
	jmp	11f
7:
	xorl	%eax, %eax
8:
	movzbl	%al, %edx
	movq	%rsp, %rdi
	callq	"clap::output::help::render"
	cmpb	$0, (%rsp)
	jne	58f
	movq	24(%rsp), %rax
	movq	%rax, 320(%rsp)
	movups	8(%rsp), %xmm0
	movaps	%xmm0, 304(%rsp)
9:
	movaps	%xmm0, 80(%rsp)
	movq	%rax, 96(%rsp)
	movb	$11, %cl
	movl	$1, %eax
	jmp	2b
10:
	leaq	176(%rax), %rcx
	leaq	184(%rax), %rdx
	leaq	200(%rax), %rsi
	leaq	208(%rax), %rdi
	cmpb	$1, 168(%rax)
	cmoveq	%rcx, %rsi
	movq	(%rsi), %rcx
	cmoveq	%rdx, %rdi
	movq	(%rdi), %rdx
	movzbl	192(%rax), %edi
11:
	movl	$1, %esi
	cmovnel	%edi, %esi
	xorl	%r14d, %r14d
	cmpb	$1, %sil
	leaq	.L22d5119de29e(%rip), %r15
	cmoveq	%rcx, %r15
	cmoveq	%rdx, %r14
	cmpb	$1, 48(%rax)
	jne	18f
	movups	%xmm0, 127(%rsp)
	movaps	%xmm0, 112(%rsp)
	movups	%xmm0, 8(%rsp)
	movl	$0, 57(%rsp)
	movl	$0, 60(%rsp)
	leaq	79(%rsp), %r13
	movq	%r13, (%rsp)
	movq	$0, 48(%rsp)
	movb	$0, 56(%rsp)
	movl	$32, 24(%rsp)
	movq	$0, 28(%rsp)
	movl	$0, 36(%rsp)
	movq	$-1, 40(%rsp)
	movq	56(%rax), %rsi
	movq	64(%rax), %rdx
	testq	%rdx, %rdx
	jne	73f
	xorl	%ebp, %ebp
	xorl	%eax, %eax
12:
	leaq	28(%rsp), %r11
	leaq	(%rax,%rdx), %r12
	leaq	(%rax,%r13), %rdi
	movq	%rdi, %rcx
	subq	%rsi, %rcx
	cmpq	%rdx, %rcx
	jae	25f
	cmpq	$4, %rdx
	jb	13f
	cmpq	$32, %rcx
	jae	61f
13:
	xorl	%ecx, %ecx
14:
	movq	%rdx, %r9
	movq	%rcx, %r8
	andq	$3, %r9
	je	16f
	movq	%rcx, %r8
	.p2align	4
15:
	movzbl	(%rsi,%r8), %r10d
	movb	%r10b, (%rdi,%r8)
	incq	%r8
	decq	%r9
	jne	15b
16:
	subq	%rdx, %rcx
	cmpq	$-4, %rcx
	ja	26f
	addq	%r13, %rax
	addq	$3, %rax
	.p2align	4
17:
	movzbl	(%rsi,%r8), %ecx
	movb	%cl, -3(%rax,%r8)
	movzbl	1(%rsi,%r8), %ecx
	movb	%cl, -2(%rax,%r8)
	movzbl	2(%rsi,%r8), %ecx
	movb	%cl, -1(%rax,%r8)
	movzbl	3(%rsi,%r8), %ecx
	movb	%cl, (%rax,%r8)
	addq	$4, %r8
	cmpq	%r8, %rdx
	jne	17b
	jmp	26f
18:
	movq	(%rax), %rsi
	movq	8(%rax), %rdx
	movups	%xmm0, 127(%rsp)
	movaps	%xmm0, 112(%rsp)
	movups	%xmm0, 8(%rsp)
	movl	$0, 57(%rsp)
	movl	$0, 60(%rsp)
	leaq	79(%rsp), %r13
	movq	%r13, (%rsp)
	movq	$0, 48(%rsp)
	movb	$0, 56(%rsp)
	movl	$32, 24(%rsp)
	movq	$0, 28(%rsp)
	movl	$0, 36(%rsp)
	movq	$-1, 40(%rsp)
	testq	%rdx, %rdx
	jne	74f
	xorl	%ebp, %ebp
	xorl	%eax, %eax
19:
	leaq	28(%rsp), %r11
	leaq	(%rax,%rdx), %r12
	leaq	(%rax,%r13), %rdi
	movq	%rdi, %rcx
	subq	%rsi, %rcx
	cmpq	%rdx, %rcx
	jae	35f
	cmpq	$4, %rdx
	jb	20f
	cmpq	$32, %rcx
	jae	62f
20:
	xorl	%ecx, %ecx
21:
	movq	%rdx, %r9
	movq	%rcx, %r8
	andq	$3, %r9
	je	23f
	movq	%rcx, %r8
	.p2align	4
22:
	movzbl	(%rsi,%r8), %r10d
	movb	%r10b, (%rdi,%r8)
	incq	%r8
	decq	%r9
	jne	22b
23:
	subq	%rdx, %rcx
	cmpq	$-4, %rcx
	ja	36f
	addq	%r13, %rax
	addq	$3, %rax
	.p2align	4
24:
	movzbl	(%rsi,%r8), %ecx
	movb	%cl, -3(%rax,%r8)
	movzbl	1(%rsi,%r8), %ecx
	movb	%cl, -2(%rax,%r8)
	movzbl	2(%rsi,%r8), %ecx
	movb	%cl, -1(%rax,%r8)
	movzbl	3(%rsi,%r8), %ecx
	movb	%cl, (%rax,%r8)
	addq	$4, %r8
	cmpq	%r8, %rdx
	jne	24b
	jmp	36f
25:
	callq	memmove@PLT
	leaq	28(%rsp), %r11
26:
	movq	%r13, (%rsp)
	movq	%r12, 8(%rsp)
	movq	%rbp, 16(%rsp)
	movl	$32, 24(%rsp)
	movl	$0, 8(%r11)
	movq	$0, (%r11)
	movq	$-1, 40(%rsp)
	cmpq	$0, 48(%rsp)
	jne	75f
	cmpq	%r12, %rbp
	je	77f
27:
	movb	$32, (%r13,%r12)
	incq	%r12
	movq	%r13, (%rsp)
	movq	%r12, 8(%rsp)
	movq	%rbp, 16(%rsp)
28:
	movl	$32, 24(%rsp)
	movl	$0, 8(%r11)
	movq	$0, (%r11)
	movq	$-1, 40(%rsp)
	cmpq	$0, 48(%rsp)
	jne	79f
	movq	8(%rsp), %rax
	movq	16(%rsp), %r12
	movq	%r12, %rcx
	subq	%rax, %rcx
	cmpq	%rcx, %r14
	ja	89f
29:
	leaq	(%rax,%r14), %r13
	movq	(%rsp), %rcx
	leaq	(%rcx,%rax), %rdi
	movq	%rdi, %rdx
	subq	%r15, %rdx
	cmpq	%r14, %rdx
	jae	45f
	cmpq	$4, %r14
	jb	30f
	cmpq	$32, %rdx
	jae	63f
30:
	xorl	%edx, %edx
31:
	movq	%r14, %r8
	movq	%rdx, %rsi
	andq	$3, %r8
	je	33f
	movq	%rdx, %rsi
	.p2align	4
32:
	movzbl	(%r15,%rsi), %r9d
	movb	%r9b, (%rdi,%rsi)
	incq	%rsi
	decq	%r8
	jne	32b
33:
	subq	%r14, %rdx
	cmpq	$-4, %rdx
	ja	46f
	addq	%rcx, %rax
	addq	$3, %rax
	.p2align	4
34:
	movzbl	(%r15,%rsi), %ecx
	movb	%cl, -3(%rax,%rsi)
	movzbl	1(%r15,%rsi), %ecx
	movb	%cl, -2(%rax,%rsi)
	movzbl	2(%r15,%rsi), %ecx
	movb	%cl, -1(%rax,%rsi)
	movzbl	3(%r15,%rsi), %ecx
	movb	%cl, (%rax,%rsi)
	addq	$4, %rsi
	cmpq	%rsi, %r14
	jne	34b
	jmp	46f
35:
	callq	memmove@PLT
	leaq	28(%rsp), %r11
36:
	movq	%r13, (%rsp)
	movq	%r12, 8(%rsp)
	movq	%rbp, 16(%rsp)
	movl	$32, 24(%rsp)
	movl	$0, 8(%r11)
	movq	$0, (%r11)
	movq	$-1, 40(%rsp)
	cmpq	$0, 48(%rsp)
	jne	76f
	cmpq	%r12, %rbp
	je	78f
37:
	movb	$32, (%r13,%r12)
	incq	%r12
	movq	%r13, (%rsp)
	movq	%r12, 8(%rsp)
	movq	%rbp, 16(%rsp)
38:
	movl	$32, 24(%rsp)
	movl	$0, 8(%r11)
	movq	$0, (%r11)
	movq	$-1, 40(%rsp)
	cmpq	$0, 48(%rsp)
	jne	80f
	movq	8(%rsp), %rax
	movq	16(%rsp), %r12
	movq	%r12, %rcx
	subq	%rax, %rcx
	cmpq	%rcx, %r14
	ja	90f
39:
	leaq	(%rax,%r14), %r13
	movq	(%rsp), %rcx
	leaq	(%rcx,%rax), %rdi
	movq	%rdi, %rdx
	subq	%r15, %rdx
	cmpq	%r14, %rdx
	jae	51f
	cmpq	$4, %r14
	jb	40f
	cmpq	$32, %rdx
	jae	64f
40:
	xorl	%edx, %edx
41:
	movq	%r14, %r8
	movq	%rdx, %rsi
	andq	$3, %r8
	je	43f
	movq	%rdx, %rsi
	.p2align	4
42:
	movzbl	(%r15,%rsi), %r9d
	movb	%r9b, (%rdi,%rsi)
	incq	%rsi
	decq	%r8
	jne	42b
43:
	subq	%r14, %rdx
	cmpq	$-4, %rdx
	ja	52f
	addq	%rcx, %rax
	addq	$3, %rax
	.p2align	4
44:
	movzbl	(%r15,%rsi), %ecx
	movb	%cl, -3(%rax,%rsi)
	movzbl	1(%r15,%rsi), %ecx
	movb	%cl, -2(%rax,%rsi)
	movzbl	2(%r15,%rsi), %ecx
	movb	%cl, -1(%rax,%rsi)
	movzbl	3(%r15,%rsi), %ecx
	movb	%cl, (%rax,%rsi)
	addq	$4, %rsi
	cmpq	%rsi, %r14
	jne	44b
	jmp	52f
45:
	movq	%r15, %rsi
	movq	%r14, %rdx
	callq	memmove@PLT
	leaq	28(%rsp), %r11
46:
	movq	%r13, 8(%rsp)
	movq	%r12, 16(%rsp)
47:
	movl	$32, 24(%rsp)
	movl	$0, 8(%r11)
	movq	$0, (%r11)
	movq	$-1, 40(%rsp)
	cmpq	$0, 48(%rsp)
	jne	91f
	movq	8(%rsp), %rax
	movq	16(%rsp), %rcx
	cmpq	%rax, %rcx
	je	93f
48:
	movq	(%rsp), %rdx
	movb	$10, (%rdx,%rax)
	incq	%rax
	movq	%rax, 8(%rsp)
	movq	%rcx, 16(%rsp)
49:
	movq	16(%rsp), %rax
	movq	%rax, 135(%rsp)
	movq	(%rsp), %rax
	movq	%rax, 119(%rsp)
	movq	8(%rsp), %rax
	movq	%rax, 127(%rsp)
	xorl	%ebp, %ebp
50:
	movq	135(%rsp), %rax
	movq	%rax, 167(%rsp)
	movq	119(%rsp), %rax
	movq	%rax, 151(%rsp)
	movq	127(%rsp), %rax
	movq	%rax, 159(%rsp)
	jmp	57f
51:
	movq	%r15, %rsi
	movq	%r14, %rdx
	callq	memmove@PLT
	leaq	28(%rsp), %r11
52:
	movq	%r13, 8(%rsp)
	movq	%r12, 16(%rsp)
53:
	movl	$32, 24(%rsp)
	movl	$0, 8(%r11)
	movq	$0, (%r11)
	movq	$-1, 40(%rsp)
	cmpq	$0, 48(%rsp)
	jne	92f
	movq	8(%rsp), %rax
	movq	16(%rsp), %rcx
	cmpq	%rax, %rcx
	je	95f
54:
	movq	(%rsp), %rdx
	movb	$10, (%rdx,%rax)
	incq	%rax
	movq	%rax, 8(%rsp)
	movq	%rcx, 16(%rsp)
55:
	movq	16(%rsp), %rax
	movq	%rax, 135(%rsp)
	movq	(%rsp), %rax
	movq	%rax, 119(%rsp)
	movq	8(%rsp), %rax
	movq	%rax, 127(%rsp)
	xorl	%ebp, %ebp
56:
	movq	135(%rsp), %rax
	movq	%rax, 359(%rsp)
	movups	119(%rsp), %xmm0
	movups	%xmm0, 343(%rsp)
	movups	%xmm0, 151(%rsp)
	movq	%rax, 167(%rsp)
57:
	movq	167(%rsp), %rax
	movq	%rax, 199(%rsp)
	movq	151(%rsp), %rax
	movq	%rax, 183(%rsp)
	movq	159(%rsp), %rax
	movq	%rax, 191(%rsp)
	testb	%bpl, %bpl
	je	60f
58:
	movb	$1, (%rbx)
	movq	$0, 8(%rbx)
	movb	$0, 16(%rbx)
	xorps	%xmm0, %xmm0
	movups	%xmm0, 24(%rbx)
	movups	%xmm0, 40(%rbx)
59:
	addq	$376, %rsp
	popq	%rbx
	popq	%r12
	popq	%r13
	popq	%r14
	popq	%r15
	popq	%rbp
	retq
60:
	leaq	183(%rsp), %rax
	movq	16(%rax), %rcx
	movq	%rcx, 224(%rsp)
	movups	(%rax), %xmm0
	movaps	%xmm0, 208(%rsp)
	movaps	%xmm0, 80(%rsp)
	movq	%rcx, 96(%rsp)
	movb	$13, %cl
	movl	$1, %eax
	jmp	2b
61:
	cmpq	$32, %rdx
	jae	65f
	xorl	%ecx, %ecx
	jmp	67f
62:
	cmpq	$32, %rdx
	jae	69f
	xorl	%ecx, %ecx
	jmp	71f
63:
	cmpq	$32, %r14
	jae	81f
	xorl	%edx, %edx
	jmp	83f
64:
	cmpq	$32, %r14
	jae	85f
	xorl	%edx, %edx
	jmp	87f
65:
	movq	%rdx, %rcx
	andq	$-32, %rcx
	leaq	(%rax,%r13), %r8
	addq	$16, %r8
	xorl	%r9d, %r9d
66:
	movups	(%rsi,%r9), %xmm0
	movups	16(%rsi,%r9), %xmm1
	movups	%xmm0, -16(%r8,%r9)
	movups	%xmm1, (%r8,%r9)
	addq	$32, %r9
	cmpq	%r9, %rcx
	jne	66b
	cmpq	%rcx, %rdx
	je	26b
	testb	$28, %dl
	je	14b
67:
	movq	%rcx, %r8
	movq	%rdx, %rcx
	andq	$-4, %rcx
68:
	movl	(%rsi,%r8), %r9d
	movl	%r9d, (%rdi,%r8)
	addq	$4, %r8
	cmpq	%r8, %rcx
	jne	68b
	cmpq	%rcx, %rdx
	je	26b
	jmp	14b
69:
	movq	%rdx, %rcx
	andq	$-32, %rcx
	leaq	(%rax,%r13), %r8
	addq	$16, %r8
	xorl	%r9d, %r9d
70:
	movups	(%rsi,%r9), %xmm0
	movups	16(%rsi,%r9), %xmm1
	movups	%xmm0, -16(%r8,%r9)
	movups	%xmm1, (%r8,%r9)
	addq	$32, %r9
	cmpq	%r9, %rcx
	jne	70b
	cmpq	%rcx, %rdx
	je	36b
	testb	$28, %dl
	je	21b
71:
	movq	%rcx, %r8
	movq	%rdx, %rcx
	andq	$-4, %rcx
72:
	movl	(%rsi,%r8), %r9d
	movl	%r9d, (%rdi,%r8)
	addq	$4, %r8
	cmpq	%r8, %rcx
	jne	72b
	cmpq	%rcx, %rdx
	je	36b
	jmp	21b
73:
	movq	%rsi, 104(%rsp)
	movq	%rsp, %rdi
	movq	%rdx, %r12
	movq	%rdx, %rsi
	callq	"std_alloc::vec::Vec::grow_amortized::<#1d775b5957dec42c>"
	testb	%al, %al
	je	94f
	movq	(%rsp), %r13
	movq	8(%rsp), %rax
	movq	16(%rsp), %rbp
	movq	104(%rsp), %rsi
	movq	%r12, %rdx
	jmp	12b
74:
	movq	%rsi, 104(%rsp)
	movq	%rsp, %rdi
	movq	%rdx, %r12
	movq	%rdx, %rsi
	callq	"std_alloc::vec::Vec::grow_amortized::<#1d775b5957dec42c>"
	testb	%al, %al
	je	96f
	movq	(%rsp), %r13
	movq	8(%rsp), %rax
	movq	16(%rsp), %rbp
	movq	104(%rsp), %rsi
	movq	%r12, %rdx
	jmp	19b
75:
	leaq	.L9b770efd7ae0(%rip), %rsi
	movq	%rsp, %rdi
	movl	$1, %edx
	callq	"core::fmt::formatter::Formatter::write_indented::<#0a7ff941e43d6b30>"
	leaq	28(%rsp), %r11
	testb	%al, %al
	jne	94f
	jmp	28b
76:
	leaq	.L9b770efd7ae0(%rip), %rsi
	movq	%rsp, %rdi
	movl	$1, %edx
	callq	"core::fmt::formatter::Formatter::write_indented::<#0a7ff941e43d6b30>"
	leaq	28(%rsp), %r11
	testb	%al, %al
	jne	96f
	jmp	38b
77:
	movq	%rsp, %rdi
	movl	$1, %esi
	callq	"std_alloc::vec::Vec::grow_amortized::<#1d775b5957dec42c>"
	leaq	28(%rsp), %r11
	testb	%al, %al
	je	94f
	movq	(%rsp), %r13
	movq	8(%rsp), %r12
	movq	16(%rsp), %rbp
	jmp	27b
78:
	movq	%rsp, %rdi
	movl	$1, %esi
	callq	"std_alloc::vec::Vec::grow_amortized::<#1d775b5957dec42c>"
	leaq	28(%rsp), %r11
	testb	%al, %al
	je	96f
	movq	(%rsp), %r13
	movq	8(%rsp), %r12
	movq	16(%rsp), %rbp
	jmp	37b
79:
	movq	%rsp, %rdi
	movq	%r15, %rsi
	movq	%r14, %rdx
	callq	"core::fmt::formatter::Formatter::write_indented::<#0a7ff941e43d6b30>"
	leaq	28(%rsp), %r11
	testb	%al, %al
	jne	94f
	jmp	47b
80:
	movq	%rsp, %rdi
	movq	%r15, %rsi
	movq	%r14, %rdx
	callq	"core::fmt::formatter::Formatter::write_indented::<#0a7ff941e43d6b30>"
	leaq	28(%rsp), %r11
	testb	%al, %al
	jne	96f
	jmp	53b
81:
	movq	%r14, %rdx
	andq	$-32, %rdx
	leaq	(%rax,%rcx), %rsi
	addq	$16, %rsi
	xorl	%r8d, %r8d
82:
	movups	(%r15,%r8), %xmm0
	movups	16(%r15,%r8), %xmm1
	movups	%xmm0, -16(%rsi,%r8)
	movups	%xmm1, (%rsi,%r8)
	addq	$32, %r8
	cmpq	%r8, %rdx
	jne	82b
	cmpq	%rdx, %r14
	je	46b
	testb	$28, %r14b
	je	31b
83:
	movq	%rdx, %rsi
	movq	%r14, %rdx
	andq	$-4, %rdx
84:
	movl	(%r15,%rsi), %r8d
	movl	%r8d, (%rdi,%rsi)
	addq	$4, %rsi
	cmpq	%rsi, %rdx
	jne	84b
	cmpq	%rdx, %r14
	je	46b
	jmp	31b
85:
	movq	%r14, %rdx
	andq	$-32, %rdx
	leaq	(%rax,%rcx), %rsi
	addq	$16, %rsi
	xorl	%r8d, %r8d
86:
	movups	(%r15,%r8), %xmm0
	movups	16(%r15,%r8), %xmm1
	movups	%xmm0, -16(%rsi,%r8)
	movups	%xmm1, (%rsi,%r8)
	addq	$32, %r8
	cmpq	%r8, %rdx
	jne	86b
	cmpq	%rdx, %r14
	je	52b
	testb	$28, %r14b
	je	41b
87:
	movq	%rdx, %rsi
	movq	%r14, %rdx
	andq	$-4, %rdx
88:
	movl	(%r15,%rsi), %r8d
	movl	%r8d, (%rdi,%rsi)
	addq	$4, %rsi
	cmpq	%rsi, %rdx
	jne	88b
	cmpq	%rdx, %r14
	je	52b
	jmp	41b
89:
	movq	%rsp, %rdi
	movq	%r14, %rsi
	callq	"std_alloc::vec::Vec::grow_amortized::<#1d775b5957dec42c>"
	leaq	28(%rsp), %r11
	testb	%al, %al
	je	94f
	movq	8(%rsp), %rax
	movq	16(%rsp), %r12
	jmp	29b
90:
	movq	%rsp, %rdi
	movq	%r14, %rsi
	callq	"std_alloc::vec::Vec::grow_amortized::<#1d775b5957dec42c>"
	leaq	28(%rsp), %r11
	testb	%al, %al
	je	96f
	movq	8(%rsp), %rax
	movq	16(%rsp), %r12
	jmp	39b
91:
	leaq	.Lb9d66d2d8f9c(%rip), %rsi
	movq	%rsp, %rdi
	movl	$1, %edx
	callq	"core::fmt::formatter::Formatter::write_indented::<#0a7ff941e43d6b30>"
	testb	%al, %al
	jne	94f
	jmp	49b
92:
	leaq	.Lb9d66d2d8f9c(%rip), %rsi
	movq	%rsp, %rdi
	movl	$1, %edx
	callq	"core::fmt::formatter::Formatter::write_indented::<#0a7ff941e43d6b30>"
	testb	%al, %al
	jne	96f
	jmp	55b
93:
	movq	%rsp, %rdi
	movl	$1, %esi
	callq	"std_alloc::vec::Vec::grow_amortized::<#1d775b5957dec42c>"
	testb	%al, %al
	je	94f
	movq	8(%rsp), %rax
	movq	16(%rsp), %rcx
	jmp	48b
94:
	movb	$1, %bpl
	cmpq	$0, 16(%rsp)
	je	50b
	movq	(%rsp), %rdi
	callq	rattle_dealloc@PLT
	jmp	50b
95:
	movq	%rsp, %rdi
	movl	$1, %esi
	callq	"std_alloc::vec::Vec::grow_amortized::<#1d775b5957dec42c>"
	testb	%al, %al
	je	96f
	movq	8(%rsp), %rax
	movq	16(%rsp), %rcx
	jmp	54b
96:
	movb	$1, %bpl
	cmpq	$0, 16(%rsp)
	je	56b
	movq	(%rsp), %rdi
	callq	rattle_dealloc@PLT
	jmp	56b
97:
	.size	"clap::parser::parse::Parser::request_error", 97b-"clap::parser::parse::Parser::request_error"
	.section	.rodata,"a",@progbits
	.p2align	2, 0x0
98:
	.long	1b-98b
	.long	1b-98b
	.long	1b-98b
	.long	1b-98b
	.long	1b-98b
	.long	4b-98b
	.long	5b-98b
	.long	3b-98b
	.long	6b-98b

	.text
	.p2align	4
	.type	"clap::parser::parse::Parser::resolve_pending",@function
"clap::parser::parse::Parser::resolve_pending":
	pushq	%rbp
	pushq	%r15
	pushq	%r14
	pushq	%r13
	pushq	%r12
	pushq	%rbx
	subq	$168, %rsp
	movq	%rdx, %r14
	movq	%rdi, %rbx
	xorps	%xmm0, %xmm0
	movaps	%xmm0, 112(%rsp)
	movaps	%xmm0, 96(%rsp)
	movaps	%xmm0, 80(%rsp)
	movaps	%xmm0, 64(%rsp)
	movaps	%xmm0, 48(%rsp)
	movzbl	24(%rdx), %eax
	movq	32(%rdx), %rdx
	movq	40(%r14), %rcx
	movzbl	48(%r14), %edi
	movzbl	49(%r14), %r8d
	movq	56(%r14), %r15
	movq	72(%r14), %rbp
	movups	64(%r14), %xmm1
	movzbl	80(%r14), %r12d
	movq	88(%r14), %r13
	movups	%xmm0, 24(%r14)
	movups	%xmm0, 40(%r14)
	movups	%xmm0, 56(%r14)
	movups	%xmm0, 72(%r14)
	movq	$0, 88(%r14)
	cmpb	$1, %al
	jne	1f
	movaps	%xmm1, 128(%rsp)
	movb	%r8b, 38(%rsp)
	movb	%dil, 39(%rsp)
	movq	%rsi, 40(%rsp)
	movq	(%rsi), %rax
	movq	576(%rax), %rdi
	movq	584(%rax), %rsi
	callq	"clap::builder::command::Command::find"
	cmpb	$1, %al
	jne	2f
	movq	%rdx, %r8
	movq	%r15, 144(%rsp)
	movaps	128(%rsp), %xmm0
	movups	%xmm0, 152(%rsp)
	movq	%r14, 16(%rsp)
	movq	%r13, 8(%rsp)
	movzbl	%r12b, %eax
	movl	%eax, (%rsp)
	movzbl	39(%rsp), %edx
	movzbl	38(%rsp), %ecx
	leaq	48(%rsp), %rdi
	leaq	144(%rsp), %r9
	movq	40(%rsp), %rsi
	callq	"clap::parser::parse::Parser::act"
	movzbl	56(%rsp), %eax
	movq	64(%rsp), %rdi
	cmpb	$0, 48(%rsp)
	je	4f
	movq	88(%rsp), %rcx
	movzbl	%dil, %edx
	movb	$1, (%rbx)
	movb	%al, 8(%rbx)
	movq	%rdx, 16(%rbx)
	movups	72(%rsp), %xmm0
	movups	%xmm0, 24(%rbx)
	movq	%rcx, 40(%rbx)
	jmp	7f
1:
	movb	$0, (%rbx)
	movb	$0, 8(%rbx)
	jmp	6f
2:
	testq	%rbp, %rbp
	je	5f
	movq	%r15, %rdi
3:
	callq	rattle_dealloc@PLT
	jmp	5f
4:
	movzbl	%al, %ecx
	movq	80(%rsp), %rax
	movl	%ecx, %ecx
	leaq	12f(%rip), %rdx
	movslq	(%rdx,%rcx,4), %rcx
	addq	%rdx, %rcx
	jmpq	*%rcx
5:
	movb	$0, (%rbx)
	movb	$0, 8(%rbx)
	xorps	%xmm0, %xmm0
6:
	movups	%xmm0, 16(%rbx)
	movups	%xmm0, 32(%rbx)
7:
	addq	$168, %rsp
	popq	%rbx
	popq	%r12
	popq	%r13
	popq	%r14
	popq	%r15
	popq	%rbp
	retq
8:
	testq	%rax, %rax
	jne	3b
	jmp	5b
9:
	movq	104(%rsp), %r14
	movq	120(%rsp), %r15
	cmpq	$0, 96(%rsp)
	je	10f
	movq	%rax, %rdi
	callq	rattle_dealloc@PLT
10:
	testq	%r15, %r15
	je	5b
	movq	%r14, %rdi
	jmp	3b
11:
	.size	"clap::parser::parse::Parser::resolve_pending", 11b-"clap::parser::parse::Parser::resolve_pending"
	.section	.rodata,"a",@progbits
	.p2align	2, 0x0
12:
	.long	5b-12b
	.long	5b-12b
	.long	5b-12b
	.long	5b-12b
	.long	9b-12b
	.long	5b-12b
	.long	8b-12b
	.long	8b-12b
	.long	5b-12b

	.text
	.p2align	4
	.type	"clap::parser::parse::Parser::set_values",@function
"clap::parser::parse::Parser::set_values":
	pushq	%rbp
	pushq	%r15
	pushq	%r14
	pushq	%r13
	pushq	%r12
	pushq	%rbx
	subq	$424, %rsp
	movq	%r9, %r12
	movq	%r8, %r13
	movq	%rcx, %rbp
	movq	%rdx, %r15
	movq	%rsi, %r14
	movq	%rdi, %rbx
	pxor	%xmm0, %xmm0
	movdqa	%xmm0, 304(%rsp)
	movdqa	%xmm0, 288(%rsp)
	movdqa	%xmm0, 272(%rsp)
	movdqa	%xmm0, 96(%rsp)
	movq	$0, 112(%rsp)
	movdqa	%xmm0, 160(%rsp)
	movq	$0, 176(%rsp)
	movdqa	%xmm0, 240(%rsp)
	movdqa	%xmm0, 256(%rsp)
	movdqa	%xmm0, 368(%rsp)
	movq	$0, 384(%rsp)
	movdqa	%xmm0, 320(%rsp)
	movdqa	%xmm0, 336(%rsp)
	movdqa	%xmm0, 352(%rsp)
	movdqa	%xmm0, 208(%rsp)
	movq	$0, 224(%rsp)
	movq	(%rsi), %rax
	cmpb	$1, 649(%rax)
	jne	2f
	movq	(%r15), %rsi
	movq	8(%r15), %rdx
1:
	movq	%r12, %rdi
	callq	"clap::parser::matcher::ArgMatcher::remove"
	jmp	7f
2:
	movq	(%r15), %rsi
	movq	296(%r15), %rax
	testq	%rax, %rax
	je	5f
	movq	8(%r15), %rdx
	movq	288(%r15), %rcx
	leaq	-8(%rdx), %r11
	leaq	-16(%rdx), %rdi
	cmpq	$32, %rdi
	movl	$32, %r8d
	cmovbq	%rdi, %r8
	cmpq	$8, %r11
	movl	$8, %r9d
	cmovbq	%r11, %r9
	cmpq	$16, %r11
	movl	$16, %r10d
	cmovbq	%r11, %r10
	movq	%rdx, %r11
	subq	$8, %r11
	jae	9f
	cmpq	$4, %rdx
	jb	12f
	addq	$8, %rcx
	jmp	4f
	.p2align	4
3:
	decq	%rax
	addq	$16, %rcx
	testq	%rax, %rax
	je	6f
4:
	cmpq	%rdx, (%rcx)
	jne	3b
	movq	-8(%rcx), %rdi
	movl	(%rdi), %r8d
	movl	-4(%rdi,%rdx), %edi
	shlq	$32, %rdi
	orq	%r8, %rdi
	movl	(%rsi), %r8d
	movl	-4(%rsi,%rdx), %r9d
	shlq	$32, %r9
	orq	%r8, %r9
	cmpq	%r9, %rdi
	jne	3b
	jmp	1b
5:
	movq	8(%r15), %rdx
6:
	movq	%r12, %rdi
	callq	"clap::parser::matcher::ArgMatcher::remove"
	testb	%al, %al
	je	7f
	pxor	%xmm0, %xmm0
	movdqu	%xmm0, 40(%rsp)
	movl	$0, 89(%rsp)
	movl	$0, 92(%rsp)
	leaq	8(%rsp), %rax
	movq	%rax, 32(%rsp)
	movl	$32, 56(%rsp)
	movq	$0, 60(%rsp)
	movl	$0, 68(%rsp)
	movq	$-1, 72(%rsp)
	movq	$0, 80(%rsp)
	movb	$0, 88(%rsp)
	movl	56(%rsp), %eax
	movl	%eax, 128(%rsp)
	movq	60(%rsp), %rax
	movq	%rax, 132(%rsp)
	movl	68(%rsp), %eax
	movl	%eax, 140(%rsp)
	movq	$-1, 144(%rsp)
	movl	$32, 56(%rsp)
	movq	$0, 60(%rsp)
	movl	$0, 68(%rsp)
	movq	$0, 200(%rsp)
	movq	%r15, 192(%rsp)
	leaq	192(%rsp), %rdi
	leaq	32(%rsp), %rsi
	callq	"clap::builder::arg::StylizedDisplay::fmt::<#86a172efa8724158>"
	movaps	128(%rsp), %xmm0
	movups	%xmm0, 56(%rsp)
	movq	144(%rsp), %rcx
	movq	%rcx, 72(%rsp)
	testb	%al, %al
	je	21f
	cmpq	$0, 48(%rsp)
	je	26f
	movq	32(%rsp), %rdi
	jmp	25f
7:
	leaq	272(%rsp), %rdi
	movq	%r14, %rsi
	movq	%r15, %rdx
	movq	%rbp, %rcx
	movq	%r13, %r8
	movq	%r12, %r9
	callq	"clap::parser::parse::Parser::add_values"
	movzbl	272(%rsp), %eax
	movb	%al, (%rbx)
	movzbl	280(%rsp), %eax
	movb	%al, 8(%rbx)
	movzbl	288(%rsp), %eax
	movq	%rax, 16(%rbx)
	movups	296(%rsp), %xmm0
	movups	%xmm0, 24(%rbx)
	movq	312(%rsp), %rax
8:
	movq	%rax, 40(%rbx)
	addq	$424, %rsp
	popq	%rbx
	popq	%r12
	popq	%r13
	popq	%r14
	popq	%r15
	popq	%rbp
	retq
9:
	cmpq	$32, %rdx
	ja	15f
	addq	$8, %rcx
	jmp	11f
	.p2align	4
10:
	decq	%rax
	addq	$16, %rcx
	testq	%rax, %rax
	je	6b
11:
	cmpq	%rdx, (%rcx)
	jne	10b
	movq	-8(%rcx), %rdi
	movq	(%rdi), %r8
	cmpq	(%rsi), %r8
	jne	10b
	movq	(%rsi,%r9), %r8
	cmpq	%r8, (%rdi,%r9)
	jne	10b
	movq	(%rsi,%r10), %r8
	cmpq	%r8, (%rdi,%r10)
	jne	10b
	movq	(%rsi,%r11), %r8
	cmpq	%r8, (%rdi,%r11)
	jne	10b
	jmp	1b
12:
	testq	%rdx, %rdx
	je	28f
	movq	%rdx, %rdi
	shrq	%rdi
	addq	$8, %rcx
	jmp	14f
	.p2align	4
13:
	decq	%rax
	addq	$16, %rcx
	testq	%rax, %rax
	je	6b
14:
	cmpq	%rdx, (%rcx)
	jne	13b
	movq	-8(%rcx), %r8
	movzbl	(%r8), %r9d
	movzbl	(%r8,%rdi), %r10d
	shll	$16, %r9d
	shll	$8, %r10d
	orl	%r9d, %r10d
	movzbl	-1(%r8,%rdx), %r8d
	orl	%r10d, %r8d
	movzbl	(%rsi), %r9d
	movzbl	(%rsi,%rdi), %r10d
	shll	$16, %r9d
	shll	$8, %r10d
	orl	%r9d, %r10d
	movzbl	-1(%rsi,%rdx), %r9d
	orl	%r10d, %r9d
	cmpl	%r9d, %r8d
	jne	13b
	jmp	1b
15:
	cmpq	$65, %rdx
	jae	17f
	addq	$8, %rcx
	jmp	20f
	.p2align	4
16:
	addq	$16, %rcx
	decq	%rax
	je	6b
17:
	cmpq	%rdx, 8(%rcx)
	jne	16b
	movq	(%rcx), %rdi
	xorl	%r8d, %r8d
	movq	%rdx, %r9
	.p2align	4
18:
	movdqu	(%rdi,%r8), %xmm0
	movdqu	16(%rdi,%r8), %xmm1
	movdqu	32(%rdi,%r8), %xmm2
	movdqu	48(%rdi,%r8), %xmm3
	movdqu	(%rsi,%r8), %xmm4
	pcmpeqb	%xmm0, %xmm4
	movdqu	16(%rsi,%r8), %xmm0
	pcmpeqb	%xmm1, %xmm0
	pand	%xmm4, %xmm0
	movdqu	32(%rsi,%r8), %xmm1
	pcmpeqb	%xmm2, %xmm1
	movdqu	48(%rsi,%r8), %xmm2
	pcmpeqb	%xmm3, %xmm2
	pand	%xmm1, %xmm2
	pand	%xmm0, %xmm2
	pmovmskb	%xmm2, %r10d
	cmpl	$65535, %r10d
	jne	16b
	addq	$64, %r8
	addq	$-64, %r9
	cmpq	$65, %r9
	jae	18b
	movdqu	-64(%rdi,%rdx), %xmm0
	movdqu	-48(%rdi,%rdx), %xmm1
	movdqu	-32(%rdi,%rdx), %xmm2
	movdqu	-16(%rdi,%rdx), %xmm3
	movdqu	-64(%rsi,%rdx), %xmm4
	pcmpeqb	%xmm0, %xmm4
	movdqu	-48(%rsi,%rdx), %xmm0
	pcmpeqb	%xmm1, %xmm0
	pand	%xmm4, %xmm0
	movdqu	-32(%rsi,%rdx), %xmm1
	pcmpeqb	%xmm2, %xmm1
	movdqu	-16(%rsi,%rdx), %xmm2
	pcmpeqb	%xmm3, %xmm2
	pand	%xmm1, %xmm2
	pand	%xmm0, %xmm2
	pmovmskb	%xmm2, %edi
	cmpl	$65535, %edi
	jne	16b
	jmp	1b
	.p2align	4
19:
	decq	%rax
	addq	$16, %rcx
	testq	%rax, %rax
	je	6b
20:
	cmpq	%rdx, (%rcx)
	jne	19b
	movq	-8(%rcx), %r9
	movdqu	(%r9), %xmm0
	movdqu	16(%r9), %xmm1
	movdqu	(%rsi), %xmm2
	pcmpeqb	%xmm0, %xmm2
	movdqu	16(%rsi), %xmm0
	pcmpeqb	%xmm1, %xmm0
	pand	%xmm2, %xmm0
	movdqu	(%r9,%r8), %xmm1
	movdqu	(%rsi,%r8), %xmm2
	pcmpeqb	%xmm1, %xmm2
	movdqu	(%r9,%rdi), %xmm1
	movdqu	(%rsi,%rdi), %xmm3
	pcmpeqb	%xmm1, %xmm3
	pand	%xmm2, %xmm3
	pand	%xmm0, %xmm3
	pmovmskb	%xmm3, %r9d
	cmpl	$65535, %r9d
	jne	19b
	jmp	1b
21:
	movq	32(%rsp), %rax
	movq	%rax, 16(%rsp)
	movq	40(%rsp), %rbp
	movq	48(%rsp), %r12
	movq	(%r14), %rsi
	movq	$0, 368(%rsp)
	leaq	240(%rsp), %rdi
	leaq	8(%rsp), %r13
	leaq	368(%rsp), %r8
	movq	%r13, %rdx
	xorl	%ecx, %ecx
	callq	"clap::output::usage::with_title"
	cmpb	$0, 240(%rsp)
	jne	24f
	movq	248(%rsp), %rax
	movq	%rax, 24(%rsp)
	movq	256(%rsp), %rax
	movq	%rax, 232(%rsp)
	movq	264(%rsp), %rax
	movq	%rax, 120(%rsp)
	movq	%r13, 160(%rsp)
	xorps	%xmm0, %xmm0
	movups	%xmm0, 168(%rsp)
	movups	%xmm0, 40(%rsp)
	movl	$0, 89(%rsp)
	movl	$0, 92(%rsp)
	movq	%r13, 32(%rsp)
	movl	$32, 56(%rsp)
	movq	$0, 60(%rsp)
	movl	$0, 68(%rsp)
	movq	$-1, 72(%rsp)
	movq	$0, 80(%rsp)
	movb	$0, 88(%rsp)
	movl	56(%rsp), %eax
	movl	%eax, 128(%rsp)
	movq	60(%rsp), %rax
	movq	%rax, 132(%rsp)
	movl	68(%rsp), %eax
	movl	%eax, 140(%rsp)
	movq	$-1, 144(%rsp)
	movl	$32, 56(%rsp)
	movq	$0, 60(%rsp)
	movl	$0, 68(%rsp)
	movq	$0, 200(%rsp)
	movq	%r15, 192(%rsp)
	leaq	192(%rsp), %rdi
	leaq	32(%rsp), %rsi
	callq	"clap::builder::arg::StylizedDisplay::fmt::<#86a172efa8724158>"
	movaps	128(%rsp), %xmm0
	movups	%xmm0, 56(%rsp)
	movq	144(%rsp), %rcx
	movq	%rcx, 72(%rsp)
	testb	%al, %al
	je	30f
	cmpq	$0, 48(%rsp)
	je	22f
	movq	32(%rsp), %rdi
	callq	rattle_dealloc@PLT
22:
	cmpq	$0, 120(%rsp)
	je	24f
23:
	movq	24(%rsp), %rdi
	callq	rattle_dealloc@PLT
24:
	testq	%r12, %r12
	je	26f
	movq	16(%rsp), %rdi
25:
	callq	rattle_dealloc@PLT
26:
	xorps	%xmm0, %xmm0
	movaps	%xmm0, 96(%rsp)
	movq	$0, 112(%rsp)
	movb	$16, %bpl
	xorl	%r14d, %r14d
27:
	movb	$1, (%rbx)
	movb	%bpl, 8(%rbx)
	movq	%r14, 16(%rbx)
	movaps	96(%rsp), %xmm0
	movups	%xmm0, 24(%rbx)
	movq	112(%rsp), %rax
	jmp	8b
28:
	addq	$8, %rcx
	.p2align	4
29:
	cmpq	$0, (%rcx)
	je	1b
	addq	$16, %rcx
	decq	%rax
	jne	29b
	jmp	6b
30:
	movq	32(%rsp), %r15
	movq	48(%rsp), %r13
	movups	40(%rsp), %xmm0
	movaps	%xmm0, 400(%rsp)
	leaq	160(%rsp), %rdi
	callq	"std_alloc::vec::Vec::grow_amortized::<#973b4a116d082bbd>"
	testb	%al, %al
	je	33f
	movq	160(%rsp), %r8
	movq	168(%rsp), %r9
	leaq	(%r9,%r9,2), %rax
	movq	%r15, (%r8,%rax,8)
	movaps	400(%rsp), %xmm0
	movups	%xmm0, 8(%r8,%rax,8)
	incq	%r9
	movq	%r9, 168(%rsp)
	movq	(%r14), %rsi
	movq	$1, 208(%rsp)
	movq	24(%rsp), %rax
	movq	%rax, 216(%rsp)
	movq	232(%rsp), %rax
	movq	%rax, 224(%rsp)
	leaq	208(%rsp), %rax
	movq	%rax, (%rsp)
	leaq	320(%rsp), %rdi
	movq	16(%rsp), %rdx
	movq	%rbp, %rcx
	callq	"clap::error::Error::argument_conflict"
	cmpb	$0, 320(%rsp)
	jne	34f
	movzbl	328(%rsp), %ebp
	movzbl	336(%rsp), %r14d
	leaq	160(%rsp), %rdi
	callq	"std_alloc::vec::Vec::drop::<#2d89a01c2ecea42b>"
	cmpq	$0, 120(%rsp)
	je	31f
	movq	24(%rsp), %rdi
	callq	rattle_dealloc@PLT
31:
	leaq	344(%rsp), %r15
	testq	%r12, %r12
	je	32f
	movq	16(%rsp), %rdi
	callq	rattle_dealloc@PLT
32:
	movq	16(%r15), %rax
	movq	%rax, 112(%rsp)
	movups	(%r15), %xmm0
	movaps	%xmm0, 96(%rsp)
	jmp	27b
33:
	testq	%r13, %r13
	je	34f
	movq	%r15, %rdi
	callq	rattle_dealloc@PLT
34:
	leaq	160(%rsp), %rdi
	callq	"std_alloc::vec::Vec::drop::<#2d89a01c2ecea42b>"
	cmpq	$0, 120(%rsp)
	jne	23b
	jmp	24b
35:
	.size	"clap::parser::parse::Parser::set_values", 35b-"clap::parser::parse::Parser::set_values"

	.text
	.p2align	4
	.type	"clap::parser::parse::Parser::split_values",@function
"clap::parser::parse::Parser::split_values":
	pushq	%rbp
	pushq	%r15
	pushq	%r14
	pushq	%r13
	pushq	%r12
	pushq	%rbx
	subq	$120, %rsp
	movq	(%rcx), %r13
	movq	8(%rcx), %r10
	movq	16(%rcx), %rcx
	cmpb	$1, 456(%rdx)
	jne	1f
	movq	(%rsi), %rax
	cmpb	$1, %r8b
	sete	%sil
	andb	650(%rax), %sil
	testq	%r9, %r9
	sete	%al
	movb	%sil, 15(%rsp)
	testb	%al, %sil
	je	2f
1:
	movb	$0, (%rdi)
	movq	%r13, 8(%rdi)
	movq	%r10, 16(%rdi)
	movq	%rcx, 24(%rdi)
	jmp	25f
2:
	movq	%rcx, 72(%rsp)
	movq	%rdi, 80(%rsp)
	movl	460(%rdx), %eax
	movl	%eax, 44(%rsp)
	leaq	8(%rsp), %rbx
	movq	%rbx, 16(%rsp)
	xorps	%xmm0, %xmm0
	movups	%xmm0, 24(%rsp)
	testq	%r10, %r10
	je	20f
	xorl	%edx, %edx
	movq	%r13, 88(%rsp)
	movq	%r9, 104(%rsp)
	movq	%r10, 96(%rsp)
	jmp	6f
	.p2align	4
3:
	movq	(%r13,%rax), %r14
	movq	8(%r13,%rax), %r12
	movq	24(%rsp), %r15
	cmpq	%r15, 32(%rsp)
	je	15f
4:
	movq	16(%rsp), %rbx
	movq	%r15, %rax
	shlq	$4, %rax
	movq	%r14, (%rbx,%rax)
	movq	%r12, 8(%rbx,%rax)
	incq	%r15
	movq	%r15, 24(%rsp)
5:
	movq	112(%rsp), %rdx
	incq	%rdx
	cmpq	96(%rsp), %rdx
	movq	88(%rsp), %r13
	movq	104(%rsp), %r9
	je	17f
6:
	movq	%rdx, %rax
	shlq	$4, %rax
	cmpq	%rdx, %r9
	sete	%cl
	andb	15(%rsp), %cl
	cmpb	$1, %cl
	movq	%rdx, 112(%rsp)
	je	3b
	movq	(%r13,%rax), %r14
	movq	8(%r13,%rax), %rbp
	xorps	%xmm0, %xmm0
	movaps	%xmm0, 48(%rsp)
	movq	$0, 64(%rsp)
	leaq	48(%rsp), %rdi
	movl	44(%rsp), %esi
	movq	%r14, %rdx
	movq	%rbp, %rcx
	callq	"core::iter::pattern::CharPattern::first_in"
	movzbl	48(%rsp), %edx
	cmpb	$1, %dl
	jne	7f
	movq	56(%rsp), %rax
	movq	64(%rsp), %rcx
	leaq	(%r14,%rcx), %r12
	subq	%rcx, %rbp
	movq	%rbp, %r13
	movq	%rax, %rbp
	movq	24(%rsp), %r15
	cmpq	%r15, 32(%rsp)
	jne	8f
	jmp	16f
	.p2align	4
7:
	xorl	%r12d, %r12d
	xorl	%r13d, %r13d
	movq	24(%rsp), %r15
	cmpq	%r15, 32(%rsp)
	je	16f
8:
	movq	%r15, %rax
	shlq	$4, %rax
	incq	%r15
	movq	%r14, (%rbx,%rax)
	movq	%rbp, 8(%rbx,%rax)
	movq	%r15, 24(%rsp)
	cmpb	$1, %dl
	je	10f
	jmp	5b
	.p2align	4
9:
	xorl	%ecx, %ecx
	xorl	%r14d, %r14d
	xorl	%ebp, %ebp
	movq	24(%rsp), %r15
	cmpq	%r15, 32(%rsp)
	jne	12f
	jmp	14f
	.p2align	4
10:
	xorps	%xmm0, %xmm0
	movaps	%xmm0, 48(%rsp)
	movq	$0, 64(%rsp)
	leaq	48(%rsp), %rdi
	movl	44(%rsp), %esi
	movq	%r12, %rdx
	movq	%r13, %rcx
	callq	"core::iter::pattern::CharPattern::first_in"
	cmpb	$1, 48(%rsp)
	jne	9b
	movq	64(%rsp), %rcx
	testq	%rcx, %rcx
	je	13f
	movq	56(%rsp), %rax
11:
	leaq	(%r12,%rcx), %r14
	subq	%rcx, %r13
	movb	$1, %cl
	movq	%r13, %rbp
	movq	%rax, %r13
	movq	24(%rsp), %r15
	cmpq	%r15, 32(%rsp)
	je	14f
12:
	movq	16(%rsp), %rbx
	movq	%r15, %rax
	shlq	$4, %rax
	movq	%r12, (%rbx,%rax)
	movq	%r13, 8(%rbx,%rax)
	incq	%r15
	movq	%r15, 24(%rsp)
	movq	%rbp, %r13
	movq	%r14, %r12
	testb	%cl, %cl
	jne	10b
	jmp	5b
13:
	testq	%r13, %r13
	je	9b
	movzbl	(%r12), %edx
	movl	$1, %eax
	movl	$1, %ecx
	testb	%dl, %dl
	jns	11b
	movl	$2, %eax
	movl	$2, %ecx
	cmpb	$-32, %dl
	jb	11b
	cmpb	$-16, %dl
	movl	$4, %eax
	sbbq	$0, %rax
	movq	%rax, %rcx
	jmp	11b
14:
	movq	%rcx, %rbx
	leaq	16(%rsp), %rdi
	movl	$1, %esi
	callq	"std_alloc::vec::Vec::grow_amortized::<#3af3ba23e56e6a09>"
	testb	%al, %al
	je	21f
	movq	24(%rsp), %r15
	movq	%rbx, %rcx
	jmp	12b
15:
	leaq	16(%rsp), %rdi
	movl	$1, %esi
	callq	"std_alloc::vec::Vec::grow_amortized::<#3af3ba23e56e6a09>"
	testb	%al, %al
	je	26f
	movq	24(%rsp), %r15
	jmp	4b
16:
	movb	%dl, 14(%rsp)
	leaq	16(%rsp), %rdi
	movl	$1, %esi
	callq	"std_alloc::vec::Vec::grow_amortized::<#3af3ba23e56e6a09>"
	testb	%al, %al
	je	21f
	movq	16(%rsp), %rbx
	movq	24(%rsp), %r15
	movzbl	14(%rsp), %edx
	jmp	8b
17:
	movq	16(%rsp), %rbx
	movq	32(%rsp), %r14
	cmpq	$0, 72(%rsp)
	je	19f
18:
	movq	%r13, %rdi
	callq	rattle_dealloc@PLT
19:
	movq	80(%rsp), %rax
	movb	$0, (%rax)
	movq	%rbx, 8(%rax)
	movq	%r15, 16(%rax)
	movq	%r14, 24(%rax)
	jmp	25f
20:
	movq	24(%rsp), %r15
	movq	32(%rsp), %r14
	cmpq	$0, 72(%rsp)
	jne	18b
	jmp	19b
21:
	cmpq	$0, 32(%rsp)
	je	22f
	movq	16(%rsp), %rdi
	callq	rattle_dealloc@PLT
22:
	cmpq	$0, 72(%rsp)
	movq	80(%rsp), %rbx
	movq	88(%rsp), %rdi
	je	24f
23:
	callq	rattle_dealloc@PLT
24:
	movb	$1, (%rbx)
	xorps	%xmm0, %xmm0
	movups	%xmm0, 8(%rbx)
	movq	$0, 24(%rbx)
25:
	addq	$120, %rsp
	popq	%rbx
	popq	%r12
	popq	%r13
	popq	%r14
	popq	%r15
	popq	%rbp
	retq
26:
	cmpq	$0, 32(%rsp)
	je	27f
	movq	16(%rsp), %rdi
	callq	rattle_dealloc@PLT
27:
	cmpq	$0, 72(%rsp)
	movq	80(%rsp), %rbx
	je	24b
	movq	%r13, %rdi
	jmp	23b
28:
	.size	"clap::parser::parse::Parser::split_values", 28b-"clap::parser::parse::Parser::split_values"

	.section	.rodata.cst16,"aM",@progbits,16
	.p2align	4, 0x0
1:
	.zero	16,1
	.text
	.p2align	4
	.type	"clap::parser::parse::Parser::take_plain_word",@function
"clap::parser::parse::Parser::take_plain_word":
	pushq	%rbp
	pushq	%r15
	pushq	%r14
	pushq	%r13
	pushq	%r12
	pushq	%rbx
	subq	$56, %rsp
	movq	%rdi, %rbx
	cmpb	$1, (%r8)
	jne	2f
	movq	%rcx, %r12
	movq	%rdx, %r13
	movq	%r9, %rbp
	movq	8(%r8), %r14
	movq	16(%r8), %r15
	movq	(%rsi), %rax
	movq	576(%rax), %rdi
	movq	584(%rax), %rsi
	movq	%r14, %rdx
	movq	%r15, %rcx
	callq	"clap::builder::command::Command::find"
	cmpb	$1, %al
	jne	4f
	movq	%rdx, 24(%rsp)
	leaq	464(%rdx), %rdi
	movq	$1, 32(%rsp)
	movq	%r13, 40(%rsp)
	movq	%r12, 48(%rsp)
	leaq	32(%rsp), %rsi
	callq	"core::cmp::declared::OptionPartialEq::eq::<#a18ca2343ae6f068>"
	testb	%al, %al
	je	5f
	xorl	%eax, %eax
	xorl	%r14d, %r14d
	xorl	%r15d, %r15d
	jmp	23f
2:
	movq	$0, (%rbx)
	movb	$3, 8(%rbx)
3:
	pxor	%xmm0, %xmm0
	movdqu	%xmm0, 16(%rbx)
	movdqu	%xmm0, 32(%rbx)
	jmp	24f
4:
	movl	$1, %eax
	jmp	23f
5:
	movq	%rbp, %rsi
	cmpb	$1, 24(%rbp)
	jne	12f
	movq	64(%rsi), %rcx
	cmpq	%rcx, 72(%rsi)
	je	13f
6:
	movq	56(%rsi), %rax
	movq	%rcx, %rdx
	shlq	$4, %rdx
	movq	%r13, (%rax,%rdx)
	movq	%r12, 8(%rax,%rdx)
	incq	%rcx
	movq	%rcx, 64(%rsi)
	cmpb	$1, 24(%rsi)
	jne	7f
	movq	40(%rsi), %rdx
	movq	24(%rsp), %rax
	cmpq	8(%rax), %rdx
	jne	19f
	movq	32(%rsi), %rdi
	movq	(%rax), %rsi
	cmpq	$7, %rdx
	ja	8f
	cmpq	$4, %rdx
	jb	9f
	movl	(%rdi), %r8d
	movl	-4(%rdi,%rdx), %edi
	shlq	$32, %rdi
	orq	%r8, %rdi
	bswapq	%rdi
	movl	(%rsi), %r8d
	movl	-4(%rsi,%rdx), %edx
	shlq	$32, %rdx
	orq	%r8, %rdx
	bswapq	%rdx
	jmp	10f
7:
	xorl	%r8d, %r8d
	movq	24(%rsp), %rax
	cmpb	$1, 432(%rax)
	movl	$1, %ecx
	je	21f
	jmp	22f
8:
	cmpq	$32, %rdx
	ja	11f
	leaq	-8(%rdx), %r8
	cmpq	$8, %r8
	movl	$8, %r9d
	cmovbq	%r8, %r9
	cmpq	$16, %r8
	movl	$16, %r10d
	cmovbq	%r8, %r10
	movq	(%rdi), %r11
	xorl	%r8d, %r8d
	cmpq	(%rsi), %r11
	jne	20f
	movq	(%rsi,%r9), %r11
	cmpq	%r11, (%rdi,%r9)
	jne	20f
	movq	(%rsi,%r10), %r9
	cmpq	%r9, (%rdi,%r10)
	jne	20f
	movq	-8(%rsi,%rdx), %rsi
	cmpq	%rsi, -8(%rdi,%rdx)
	je	25f
	jmp	20f
9:
	testq	%rdx, %rdx
	je	25f
	movzbl	(%rdi), %r8d
	movq	%rdx, %r9
	shrq	%r9
	movzbl	(%rdi,%r9), %r10d
	shll	$16, %r8d
	shll	$8, %r10d
	orl	%r8d, %r10d
	movzbl	-1(%rdi,%rdx), %edi
	orq	%r10, %rdi
	movzbl	(%rsi), %r8d
	movzbl	(%rsi,%r9), %r9d
	shll	$16, %r8d
	shll	$8, %r9d
	orl	%r8d, %r9d
	movzbl	-1(%rsi,%rdx), %edx
	orq	%r9, %rdx
10:
	cmpq	%rdx, %rdi
	jne	19f
	jmp	25f
11:
	cmpq	$65, %rdx
	jae	16f
	leaq	-16(%rdx), %r8
	movdqu	(%rdi), %xmm0
	movdqu	16(%rdi), %xmm1
	movdqu	(%rsi), %xmm2
	pcmpeqb	%xmm0, %xmm2
	movdqu	16(%rsi), %xmm3
	pcmpeqb	%xmm1, %xmm3
	pcmpeqd	%xmm1, %xmm1
	pxor	%xmm1, %xmm2
	pxor	%xmm1, %xmm3
	por	%xmm2, %xmm3
	cmpq	$32, %r8
	movl	$32, %r9d
	cmovbq	%r8, %r9
	movdqu	(%rdi,%r9), %xmm0
	movdqu	(%rsi,%r9), %xmm2
	pcmpeqb	%xmm0, %xmm2
	pxor	%xmm1, %xmm2
	movdqu	-16(%rdi,%rdx), %xmm4
	movdqu	-16(%rsi,%rdx), %xmm0
	pcmpeqb	%xmm4, %xmm0
	pxor	%xmm1, %xmm0
	por	%xmm2, %xmm0
	por	%xmm3, %xmm0
	jmp	18f
12:
	movq	$1, 24(%rsi)
	movq	%r14, 32(%rsi)
	movq	%r15, 40(%rsi)
	leaq	56(%rsi), %rdi
	movq	$0, 48(%rsi)
	leaq	8(%rsp), %rax
	movq	%rax, 56(%rsi)
	leaq	64(%rsi), %rax
	movq	%rax, 16(%rsp)
	pxor	%xmm0, %xmm0
	movdqu	%xmm0, 64(%rsi)
	movdqu	%xmm0, 80(%rsi)
	jmp	14f
13:
	leaq	64(%rsi), %rax
	movq	%rax, 16(%rsp)
	leaq	56(%rsi), %rdi
14:
	movl	$1, %esi
	callq	"std_alloc::vec::Vec::grow_amortized::<#3af3ba23e56e6a09>"
	testb	%al, %al
	je	15f
	movq	16(%rsp), %rax
	movq	(%rax), %rcx
	movq	%rbp, %rsi
	jmp	6b
15:
	movq	$1, (%rbx)
	movb	$16, 8(%rbx)
	jmp	3b
16:
	xorl	%r8d, %r8d
	movq	%rdx, %r9
17:
	movdqu	(%rdi,%r8), %xmm0
	movdqu	16(%rdi,%r8), %xmm1
	movdqu	32(%rdi,%r8), %xmm2
	movdqu	48(%rdi,%r8), %xmm3
	movdqu	(%rsi,%r8), %xmm4
	pcmpeqb	%xmm0, %xmm4
	movdqu	16(%rsi,%r8), %xmm0
	pcmpeqb	%xmm1, %xmm0
	pand	%xmm4, %xmm0
	movdqu	32(%rsi,%r8), %xmm1
	pcmpeqb	%xmm2, %xmm1
	movdqu	48(%rsi,%r8), %xmm2
	pcmpeqb	%xmm3, %xmm2
	pand	%xmm1, %xmm2
	pand	%xmm0, %xmm2
	pmovmskb	%xmm2, %r10d
	cmpl	$65535, %r10d
	jne	19f
	addq	$64, %r8
	addq	$-64, %r9
	cmpq	$65, %r9
	jae	17b
	movdqu	-64(%rdi,%rdx), %xmm0
	movdqu	-48(%rdi,%rdx), %xmm1
	movdqu	-32(%rdi,%rdx), %xmm2
	movdqu	-16(%rdi,%rdx), %xmm3
	movdqu	-64(%rsi,%rdx), %xmm4
	pcmpeqb	%xmm0, %xmm4
	movdqu	-48(%rsi,%rdx), %xmm5
	pcmpeqb	%xmm1, %xmm5
	movdqu	-32(%rsi,%rdx), %xmm0
	pcmpeqb	%xmm2, %xmm0
	movdqu	-16(%rsi,%rdx), %xmm1
	pcmpeqb	%xmm3, %xmm1
	pcmpeqd	%xmm2, %xmm2
	pxor	%xmm2, %xmm1
	pxor	%xmm2, %xmm0
	por	%xmm1, %xmm0
	pxor	%xmm2, %xmm4
	pxor	%xmm2, %xmm5
	por	%xmm4, %xmm5
	por	%xmm0, %xmm5
	pxor	%xmm0, %xmm0
	pcmpgtb	%xmm5, %xmm0
18:
	ptest	1b(%rip), %xmm0
	je	25f
19:
	xorl	%r8d, %r8d
20:
	cmpb	$1, 432(%rax)
	movl	$1, %ecx
	jne	22f
21:
	movq	448(%rax), %rcx
22:
	xorl	%edx, %edx
	xorl	%eax, %eax
	cmpq	%rcx, %r8
	setb	%al
	cmovaeq	%rdx, %r15
	cmovaeq	%rdx, %r14
23:
	movq	$0, (%rbx)
	movb	$0, 8(%rbx)
	movq	%rax, 16(%rbx)
	movq	%r14, 24(%rbx)
	movq	%r15, 32(%rbx)
	movq	$0, 40(%rbx)
24:
	addq	$56, %rsp
	popq	%rbx
	popq	%r12
	popq	%r13
	popq	%r14
	popq	%r15
	popq	%rbp
	retq
25:
	movq	%rcx, %r8
	cmpb	$1, 432(%rax)
	movl	$1, %ecx
	je	21b
	jmp	22b
26:
	.size	"clap::parser::parse::Parser::take_plain_word", 26b-"clap::parser::parse::Parser::take_plain_word"

	.text
	.p2align	4
	.type	"clap::parser::parse::Parser::used_text",@function
"clap::parser::parse::Parser::used_text":
	pushq	%rbp
	pushq	%r15
	pushq	%r14
	pushq	%r13
	pushq	%r12
	pushq	%rbx
	subq	$216, %rsp
	movq	%rdi, 40(%rsp)
	xorps	%xmm0, %xmm0
	movups	%xmm0, 175(%rsp)
	movaps	%xmm0, 160(%rsp)
	leaq	8(%rsp), %r14
	movq	%r14, 16(%rsp)
	movups	%xmm0, 24(%rsp)
	testq	%rcx, %rcx
	je	4f
	movq	%rcx, %r15
	movq	%rdx, %r12
	movq	%rsi, %r13
	leaq	88(%rsp), %rbx
	addq	$8, %r12
	jmp	3f
	.p2align	4
1:
	leaq	(%rax,%rax,2), %rcx
	movq	%rbp, (%r14,%rcx,8)
	movups	%xmm0, 8(%r14,%rcx,8)
	incq	%rax
	movq	%rax, 24(%rsp)
2:
	addq	$104, %r12
	decq	%r15
	je	4f
3:
	movq	(%r13), %rax
	movq	-8(%r12), %rdx
	movq	(%r12), %rcx
	movq	576(%rax), %rdi
	movq	584(%rax), %rsi
	callq	"clap::builder::command::Command::find"
	cmpb	$1, %al
	jne	2b
	xorps	%xmm0, %xmm0
	movups	%xmm0, (%rbx)
	movl	$0, 52(%rbx)
	movl	$0, 49(%rbx)
	leaq	8(%rsp), %rax
	movq	%rax, 80(%rsp)
	movl	$32, 104(%rsp)
	movl	$0, 28(%rbx)
	movq	$0, 20(%rbx)
	movq	$-1, 120(%rsp)
	movq	$0, 128(%rsp)
	movb	$0, 136(%rsp)
	movq	32(%rbx), %rax
	movq	%rax, 64(%rsp)
	movl	16(%rbx), %eax
	movl	%eax, 48(%rsp)
	movq	20(%rbx), %rax
	movq	%rax, 52(%rsp)
	movl	28(%rbx), %eax
	movl	%eax, 60(%rsp)
	movl	$32, 104(%rsp)
	movl	$0, 28(%rbx)
	movq	$0, 20(%rbx)
	movq	$-1, 120(%rsp)
	movq	$0, 152(%rsp)
	movq	%rdx, 144(%rsp)
	leaq	144(%rsp), %rdi
	leaq	80(%rsp), %rsi
	callq	"clap::builder::arg::StylizedDisplay::fmt::<#86a172efa8724158>"
	movq	64(%rsp), %rcx
	movq	%rcx, 32(%rbx)
	movaps	48(%rsp), %xmm0
	movups	%xmm0, 16(%rbx)
	testb	%al, %al
	jne	5f
	movq	80(%rsp), %rbp
	movups	88(%rsp), %xmm0
	movq	24(%rsp), %rax
	cmpq	%rax, 32(%rsp)
	jne	1b
	movaps	%xmm0, 192(%rsp)
	movq	96(%rsp), %r14
	leaq	16(%rsp), %rdi
	callq	"std_alloc::vec::Vec::grow_amortized::<#973b4a116d082bbd>"
	testb	%al, %al
	je	13f
	movq	16(%rsp), %r14
	movq	24(%rsp), %rax
	movaps	192(%rsp), %xmm0
	jmp	1b
4:
	movq	40(%rsp), %rcx
	movb	$0, (%rcx)
	movq	16(%rsp), %rax
	movq	%rax, 8(%rcx)
	movq	24(%rsp), %rax
	movq	%rax, 16(%rcx)
	movq	32(%rsp), %rax
	jmp	11f
5:
	cmpq	$0, 96(%rsp)
	je	6f
	movq	80(%rsp), %rdi
	callq	rattle_dealloc@PLT
6:
	xorps	%xmm0, %xmm0
	movups	%xmm0, 167(%rsp)
	movq	$0, 183(%rsp)
	movq	24(%rsp), %r15
	movq	32(%rsp), %rbx
	testq	%r15, %r15
	je	9f
	leaq	16(%r14), %r12
	jmp	8f
	.p2align	4
7:
	addq	$24, %r12
	decq	%r15
	je	9f
8:
	cmpq	$0, (%r12)
	je	7b
	movq	-16(%r12), %rdi
	callq	rattle_dealloc@PLT
	jmp	7b
9:
	leaq	167(%rsp), %r15
	testq	%rbx, %rbx
	je	10f
	movq	%r14, %rdi
	callq	rattle_dealloc@PLT
10:
	movq	40(%rsp), %rcx
	movb	$1, (%rcx)
	movups	(%r15), %xmm0
	movups	%xmm0, 8(%rcx)
	movq	16(%r15), %rax
11:
	movq	%rax, 24(%rcx)
12:
	addq	$216, %rsp
	popq	%rbx
	popq	%r12
	popq	%r13
	popq	%r14
	popq	%r15
	popq	%rbp
	retq
13:
	testq	%r14, %r14
	je	14f
	movq	%rbp, %rdi
	callq	rattle_dealloc@PLT
14:
	movq	16(%rsp), %r14
	movq	24(%rsp), %r15
	movq	32(%rsp), %rbx
	testq	%r15, %r15
	je	17f
	leaq	16(%r14), %r12
	jmp	16f
	.p2align	4
15:
	addq	$24, %r12
	decq	%r15
	je	17f
16:
	cmpq	$0, (%r12)
	je	15b
	movq	-16(%r12), %rdi
	callq	rattle_dealloc@PLT
	jmp	15b
17:
	testq	%rbx, %rbx
	je	18f
	movq	%r14, %rdi
	callq	rattle_dealloc@PLT
18:
	movq	40(%rsp), %rax
	movb	$1, (%rax)
	xorps	%xmm0, %xmm0
	movups	%xmm0, 8(%rax)
	movq	$0, 24(%rax)
	jmp	12b
19:
	.size	"clap::parser::parse::Parser::used_text", 19b-"clap::parser::parse::Parser::used_text"

	.text
	.p2align	4
	.type	"clap::parser::parse::help_of",@function
"clap::parser::parse::help_of":
	pushq	%r15
	pushq	%r14
	pushq	%r12
	pushq	%rbx
	subq	$216, %rsp
	movq	%rsi, %r14
	movq	%rdi, %rbx
	xorps	%xmm0, %xmm0
	movaps	%xmm0, 112(%rsp)
	movaps	%xmm0, 96(%rsp)
	movaps	%xmm0, 80(%rsp)
	movaps	%xmm0, 48(%rsp)
	movaps	%xmm0, 64(%rsp)
	movups	%xmm0, 200(%rsp)
	testq	%rcx, %rcx
	je	2f
	movq	%rdx, %r15
	movq	%rcx, %r12
	movq	(%rdx), %rdx
	movq	8(%r15), %rcx
	movq	600(%r14), %rdi
	movq	608(%r14), %rsi
	callq	"clap::builder::command::Command::find_subcommand"
	cmpb	$1, %al
	jne	3f
	movq	%r12, %rcx
	decq	%rcx
	addq	$16, %r15
	leaq	80(%rsp), %rdi
	movq	%rdx, %rsi
	movq	%r15, %rdx
	callq	"clap::parser::parse::help_of"
1:
	movzbl	80(%rsp), %eax
	movzbl	88(%rsp), %ecx
	movzbl	96(%rsp), %edx
	movb	%al, (%rbx)
	movb	%cl, 8(%rbx)
	movq	%rdx, 16(%rbx)
	movups	104(%rsp), %xmm0
	movups	%xmm0, 24(%rbx)
	movq	120(%rsp), %rax
	jmp	6f
2:
	movaps	%xmm0, 144(%rsp)
	movaps	%xmm0, 128(%rsp)
	movzbl	671(%r14), %edx
	leaq	128(%rsp), %rdi
	movq	%r14, %rsi
	callq	"clap::output::help::render"
	cmpb	$0, 128(%rsp)
	je	4f
	xorps	%xmm0, %xmm0
	movaps	%xmm0, 16(%rsp)
	movq	$0, 32(%rsp)
	movb	$1, %cl
	xorl	%eax, %eax
	xorl	%edx, %edx
	jmp	5f
3:
	movq	$0, 192(%rsp)
	leaq	48(%rsp), %rdi
	leaq	8(%rsp), %rdx
	leaq	192(%rsp), %r8
	movq	%r14, %rsi
	xorl	%ecx, %ecx
	callq	"clap::output::usage::with_title"
	cmpb	$0, 48(%rsp)
	je	8f
	movb	$1, (%rbx)
	movb	$0, 8(%rbx)
	xorps	%xmm0, %xmm0
	movups	%xmm0, 16(%rbx)
	movups	%xmm0, 32(%rbx)
	jmp	7f
4:
	movq	152(%rsp), %rax
	movq	%rax, 32(%rsp)
	movups	136(%rsp), %xmm0
	movaps	%xmm0, 16(%rsp)
	movl	$1, %edx
	movb	$11, %al
	xorl	%ecx, %ecx
5:
	movb	%cl, (%rbx)
	movb	%al, 8(%rbx)
	movq	%rdx, 16(%rbx)
	movaps	16(%rsp), %xmm0
	movups	%xmm0, 24(%rbx)
	movq	32(%rsp), %rax
6:
	movq	%rax, 40(%rbx)
7:
	addq	$216, %rsp
	popq	%rbx
	popq	%r12
	popq	%r14
	popq	%r15
	retq
8:
	movq	56(%rsp), %r12
	movq	64(%rsp), %rax
	movq	(%r15), %rdx
	movq	8(%r15), %rcx
	movq	$1, 168(%rsp)
	movq	%r12, 176(%rsp)
	movq	%rax, 184(%rsp)
	movq	72(%rsp), %r15
	leaq	80(%rsp), %rdi
	leaq	168(%rsp), %r8
	movq	%r14, %rsi
	callq	"clap::error::Error::unrecognized_subcommand"
	testq	%r15, %r15
	je	1b
	movq	%r12, %rdi
	callq	rattle_dealloc@PLT
	jmp	1b
9:
	.size	"clap::parser::parse::help_of", 9b-"clap::parser::parse::help_of"

	.section	.rodata.cst16,"aM",@progbits,16
	.p2align	4, 0x0
1:
	.zero	16,1
	.text
	.p2align	4
	.type	"clap::parser::parse::is_long_candidate",@function
"clap::parser::parse::is_long_candidate":
	pushq	%rbx
	cmpb	$1, 72(%rdi)
	jne	8f
	cmpq	%rdx, 88(%rdi)
	jb	8f
	movq	80(%rdi), %rax
	cmpq	$7, %rdx
	ja	3f
	cmpq	$4, %rdx
	jb	4f
	movl	(%rax), %r8d
	movl	-4(%rax,%rdx), %ecx
	shlq	$32, %rcx
	orq	%r8, %rcx
	bswapq	%rcx
	movl	(%rsi), %eax
	movl	-4(%rsi,%rdx), %r8d
	shlq	$32, %r8
	orq	%rax, %r8
	bswapq	%r8
	movb	$1, %al
	cmpq	%r8, %rcx
	jne	8f
2:
	popq	%rbx
	retq
3:
	cmpq	$32, %rdx
	ja	5f
	leaq	-8(%rdx), %rcx
	movq	(%rax), %r8
	xorq	(%rsi), %r8
	cmpq	$8, %rcx
	movl	$8, %r9d
	cmovbq	%rcx, %r9
	movq	(%rax,%r9), %r10
	xorq	(%rsi,%r9), %r10
	orq	%r8, %r10
	cmpq	$16, %rcx
	movl	$16, %r8d
	cmovbq	%rcx, %r8
	movq	(%rax,%r8), %rcx
	xorq	(%rsi,%r8), %rcx
	orq	%r10, %rcx
	movq	-8(%rax,%rdx), %rax
	xorq	-8(%rsi,%rdx), %rax
	orq	%rcx, %rax
	movb	$1, %al
	je	2b
	jmp	8f
4:
	testq	%rdx, %rdx
	je	23f
	movzbl	(%rax), %ecx
	movq	%rdx, %r8
	shrq	%r8
	movzbl	(%rax,%r8), %r9d
	shll	$16, %ecx
	shll	$8, %r9d
	orl	%ecx, %r9d
	movzbl	-1(%rax,%rdx), %ecx
	orq	%r9, %rcx
	movzbl	(%rsi), %eax
	movzbl	(%rsi,%r8), %r9d
	shll	$16, %eax
	shll	$8, %r9d
	orl	%eax, %r9d
	movzbl	-1(%rsi,%rdx), %r8d
	orq	%r9, %r8
	movb	$1, %al
	cmpq	%r8, %rcx
	je	2b
	jmp	8f
5:
	cmpq	$65, %rdx
	jae	6f
	leaq	-16(%rdx), %rcx
	movdqu	(%rax), %xmm0
	movdqu	16(%rax), %xmm1
	movdqu	(%rsi), %xmm2
	pcmpeqb	%xmm0, %xmm2
	movdqu	16(%rsi), %xmm3
	pcmpeqb	%xmm1, %xmm3
	pcmpeqd	%xmm1, %xmm1
	pxor	%xmm1, %xmm2
	pxor	%xmm1, %xmm3
	por	%xmm2, %xmm3
	cmpq	$32, %rcx
	movl	$32, %r8d
	cmovbq	%rcx, %r8
	movdqu	(%rax,%r8), %xmm0
	movdqu	(%rsi,%r8), %xmm2
	pcmpeqb	%xmm0, %xmm2
	pxor	%xmm1, %xmm2
	movdqu	-16(%rax,%rdx), %xmm4
	movdqu	-16(%rsi,%rdx), %xmm0
	pcmpeqb	%xmm4, %xmm0
	pxor	%xmm1, %xmm0
	por	%xmm2, %xmm0
	por	%xmm3, %xmm0
	ptest	1b(%rip), %xmm0
	jne	8f
	jmp	23f
6:
	xorl	%ecx, %ecx
	movq	%rdx, %r8
	.p2align	4
7:
	movdqu	(%rax,%rcx), %xmm0
	movdqu	16(%rax,%rcx), %xmm1
	movdqu	32(%rax,%rcx), %xmm2
	movdqu	48(%rax,%rcx), %xmm3
	movdqu	(%rsi,%rcx), %xmm4
	pcmpeqb	%xmm0, %xmm4
	movdqu	16(%rsi,%rcx), %xmm0
	pcmpeqb	%xmm1, %xmm0
	pand	%xmm4, %xmm0
	movdqu	32(%rsi,%rcx), %xmm1
	pcmpeqb	%xmm2, %xmm1
	movdqu	48(%rsi,%rcx), %xmm2
	pcmpeqb	%xmm3, %xmm2
	pand	%xmm1, %xmm2
	pand	%xmm0, %xmm2
	pmovmskb	%xmm2, %r9d
	cmpl	$65535, %r9d
	jne	8f
	addq	$64, %rcx
	addq	$-64, %r8
	cmpq	$65, %r8
	jae	7b
	movdqu	-64(%rax,%rdx), %xmm0
	movdqu	-48(%rax,%rdx), %xmm1
	movdqu	-32(%rax,%rdx), %xmm2
	movdqu	-16(%rax,%rdx), %xmm3
	movdqu	-64(%rsi,%rdx), %xmm4
	pcmpeqb	%xmm0, %xmm4
	movdqu	-48(%rsi,%rdx), %xmm5
	pcmpeqb	%xmm1, %xmm5
	movdqu	-32(%rsi,%rdx), %xmm0
	pcmpeqb	%xmm2, %xmm0
	movdqu	-16(%rsi,%rdx), %xmm1
	pcmpeqb	%xmm3, %xmm1
	pcmpeqd	%xmm2, %xmm2
	pxor	%xmm2, %xmm1
	pxor	%xmm2, %xmm0
	por	%xmm1, %xmm0
	pxor	%xmm2, %xmm4
	pxor	%xmm2, %xmm5
	por	%xmm4, %xmm5
	por	%xmm0, %xmm5
	pxor	%xmm0, %xmm0
	pcmpgtb	%xmm5, %xmm0
	ptest	1b(%rip), %xmm0
	je	23f
8:
	movq	104(%rdi), %rcx
	testq	%rcx, %rcx
	je	24f
	movq	96(%rdi), %rdi
	leaq	-16(%rdx), %rax
	cmpq	$32, %rax
	movl	$32, %r8d
	cmovbq	%rax, %r8
	leaq	-8(%rdx), %r9
	cmpq	$8, %r9
	movl	$8, %r10d
	cmovbq	%r9, %r10
	cmpq	$16, %r9
	movl	$16, %r11d
	cmovbq	%r9, %r11
	cmpq	$7, %rdx
	ja	11f
	cmpq	$4, %rdx
	jb	14f
	addq	$8, %rdi
	jmp	10f
	.p2align	4
9:
	decq	%rcx
	addq	$24, %rdi
	testq	%rcx, %rcx
	je	24f
10:
	cmpq	%rdx, (%rdi)
	jb	9b
	movq	-8(%rdi), %rax
	movl	(%rax), %r8d
	movl	-4(%rax,%rdx), %eax
	shlq	$32, %rax
	orq	%r8, %rax
	movl	(%rsi), %r8d
	movl	-4(%rsi,%rdx), %r9d
	shlq	$32, %r9
	orq	%r8, %r9
	cmpq	%r9, %rax
	jne	9b
	jmp	23f
11:
	cmpq	$32, %rdx
	ja	17f
	addq	$8, %rdi
	jmp	13f
	.p2align	4
12:
	decq	%rcx
	addq	$24, %rdi
	testq	%rcx, %rcx
	je	24f
13:
	cmpq	%rdx, (%rdi)
	jb	12b
	movq	-8(%rdi), %rax
	movq	(%rax), %r8
	xorq	(%rsi), %r8
	movq	(%rax,%r10), %rbx
	xorq	(%rsi,%r10), %rbx
	orq	%r8, %rbx
	movq	(%rax,%r11), %r8
	xorq	(%rsi,%r11), %r8
	orq	%rbx, %r8
	movq	(%rax,%r9), %rax
	xorq	(%rsi,%r9), %rax
	orq	%r8, %rax
	jne	12b
	jmp	23f
14:
	movb	$1, %al
	testq	%rdx, %rdx
	je	2b
	movq	%rdx, %r8
	shrq	%r8
	addq	$8, %rdi
	jmp	16f
	.p2align	4
15:
	decq	%rcx
	addq	$24, %rdi
	testq	%rcx, %rcx
	je	24f
16:
	cmpq	%rdx, (%rdi)
	jb	15b
	movq	-8(%rdi), %r9
	movzbl	(%r9), %r10d
	movzbl	(%r9,%r8), %r11d
	shll	$16, %r10d
	shll	$8, %r11d
	orl	%r10d, %r11d
	movzbl	-1(%r9,%rdx), %r9d
	orl	%r11d, %r9d
	movzbl	(%rsi), %r10d
	movzbl	(%rsi,%r8), %r11d
	shll	$16, %r10d
	shll	$8, %r11d
	orl	%r10d, %r11d
	movzbl	-1(%rsi,%rdx), %r10d
	orl	%r11d, %r10d
	cmpl	%r10d, %r9d
	jne	15b
	jmp	2b
17:
	cmpq	$65, %rdx
	jae	19f
	addq	$8, %rdi
	jmp	22f
	.p2align	4
18:
	addq	$24, %rdi
	decq	%rcx
	je	24f
19:
	cmpq	%rdx, 8(%rdi)
	jb	18b
	movq	(%rdi), %rax
	xorl	%r8d, %r8d
	movq	%rdx, %r9
	.p2align	4
20:
	movdqu	(%rax,%r8), %xmm0
	movdqu	16(%rax,%r8), %xmm1
	movdqu	32(%rax,%r8), %xmm2
	movdqu	48(%rax,%r8), %xmm3
	movdqu	(%rsi,%r8), %xmm4
	pcmpeqb	%xmm0, %xmm4
	movdqu	16(%rsi,%r8), %xmm0
	pcmpeqb	%xmm1, %xmm0
	pand	%xmm4, %xmm0
	movdqu	32(%rsi,%r8), %xmm1
	pcmpeqb	%xmm2, %xmm1
	movdqu	48(%rsi,%r8), %xmm2
	pcmpeqb	%xmm3, %xmm2
	pand	%xmm1, %xmm2
	pand	%xmm0, %xmm2
	pmovmskb	%xmm2, %r10d
	cmpl	$65535, %r10d
	jne	18b
	addq	$64, %r8
	addq	$-64, %r9
	cmpq	$65, %r9
	jae	20b
	movdqu	-64(%rax,%rdx), %xmm0
	movdqu	-48(%rax,%rdx), %xmm1
	movdqu	-32(%rax,%rdx), %xmm2
	movdqu	-16(%rax,%rdx), %xmm3
	movdqu	-64(%rsi,%rdx), %xmm4
	pcmpeqb	%xmm0, %xmm4
	movdqu	-48(%rsi,%rdx), %xmm0
	pcmpeqb	%xmm1, %xmm0
	movdqu	-32(%rsi,%rdx), %xmm1
	pcmpeqb	%xmm2, %xmm1
	movdqu	-16(%rsi,%rdx), %xmm2
	pcmpeqb	%xmm3, %xmm2
	pcmpeqd	%xmm3, %xmm3
	pxor	%xmm3, %xmm2
	pxor	%xmm3, %xmm1
	por	%xmm2, %xmm1
	pxor	%xmm3, %xmm4
	pxor	%xmm3, %xmm0
	por	%xmm4, %xmm0
	por	%xmm1, %xmm0
	pmovmskb	%xmm0, %eax
	testl	%eax, %eax
	jne	18b
	jmp	23f
	.p2align	4
21:
	decq	%rcx
	addq	$24, %rdi
	testq	%rcx, %rcx
	je	24f
22:
	cmpq	%rdx, (%rdi)
	jb	21b
	movq	-8(%rdi), %r9
	movdqu	(%r9), %xmm0
	movdqu	16(%r9), %xmm1
	movdqu	(%rsi), %xmm2
	pcmpeqb	%xmm0, %xmm2
	movdqu	16(%rsi), %xmm0
	pcmpeqb	%xmm1, %xmm0
	pand	%xmm2, %xmm0
	movdqu	(%r9,%r8), %xmm1
	movdqu	(%rsi,%r8), %xmm2
	pcmpeqb	%xmm1, %xmm2
	movdqu	(%r9,%rax), %xmm1
	movdqu	(%rsi,%rax), %xmm3
	pcmpeqb	%xmm1, %xmm3
	pand	%xmm2, %xmm3
	pand	%xmm0, %xmm3
	pmovmskb	%xmm3, %r9d
	cmpl	$65535, %r9d
	jne	21b
23:
	movb	$1, %al
	popq	%rbx
	retq
24:
	xorl	%eax, %eax
	popq	%rbx
	retq
25:
	.size	"clap::parser::parse::is_long_candidate", 25b-"clap::parser::parse::is_long_candidate"

	.section	.rodata.cst16,"aM",@progbits,16
	.p2align	4, 0x0
1:
	.zero	16,1
2:
	.quad	0x41f0000000000000
	.quad	0x41f0000000000000
3:
	.quad	0x3ff0000000000000
	.quad	0x3ff0000000000000
	.section	.rodata.cst8,"aM",@progbits,8
	.p2align	3, 0x0
4:
	.quad	0x3ff0000000000000
5:
	.quad	0x41f0000000000000
6:
	.quad	0x4008000000000000
7:
	.quad	0x3fe6666666666666
	.text
	.p2align	4
	.type	"clap::parser::suggestions::add_candidate",@function
"clap::parser::suggestions::add_candidate":
	pushq	%rbp
	pushq	%r15
	pushq	%r14
	pushq	%r13
	pushq	%r12
	pushq	%rbx
	subq	$184, %rsp
	movq	%r8, %r14
	movq	%rcx, %r15
	movq	%rdi, %r13
	pxor	%xmm0, %xmm0
	movdqa	%xmm0, 144(%rsp)
	movdqa	%xmm0, 160(%rsp)
	movdqa	%xmm0, 112(%rsp)
	movdqa	%xmm0, 128(%rsp)
	cmpq	%r8, %rdx
	jne	13f
	cmpq	$7, %rdx
	ja	8f
	cmpq	$4, %rdx
	jb	9f
	movl	(%rsi), %ecx
	movl	-4(%rsi,%rdx), %eax
	shlq	$32, %rax
	orq	%rcx, %rax
	bswapq	%rax
	movl	(%r15), %edi
	movl	-4(%r15,%rdx), %ecx
	shlq	$32, %rcx
	orq	%rdi, %rcx
	bswapq	%rcx
	cmpq	%rcx, %rax
	jne	13f
	jmp	16f
8:
	cmpq	$32, %rdx
	ja	10f
	leaq	-8(%rdx), %rdi
	movq	(%rsi), %r8
	cmpq	$8, %rdi
	movl	$8, %ecx
	cmovbq	%rdi, %rcx
	cmpq	$16, %rdi
	movl	$16, %eax
	cmovbq	%rdi, %rax
	cmpq	(%r15), %r8
	jne	13f
	movq	(%r15,%rcx), %rdi
	cmpq	%rdi, (%rsi,%rcx)
	jne	13f
	movq	(%r15,%rax), %rcx
	cmpq	%rcx, (%rsi,%rax)
	jne	13f
	movq	-8(%r15,%rdx), %rax
	cmpq	%rax, -8(%rsi,%rdx)
	je	16f
	jmp	13f
9:
	testq	%rdx, %rdx
	je	16f
	movzbl	(%rsi), %eax
	movq	%rdx, %rcx
	shrq	%rcx
	movzbl	(%rsi,%rcx), %edi
	shll	$16, %eax
	shll	$8, %edi
	orl	%eax, %edi
	movzbl	-1(%rsi,%rdx), %eax
	orq	%rdi, %rax
	movzbl	(%r15), %edi
	movzbl	(%r15,%rcx), %r8d
	shll	$16, %edi
	shll	$8, %r8d
	orl	%edi, %r8d
	movzbl	-1(%r15,%rdx), %ecx
	orq	%r8, %rcx
	cmpq	%rcx, %rax
	jne	13f
	jmp	16f
10:
	cmpq	$65, %rdx
	jae	11f
	leaq	-16(%rdx), %rax
	movdqu	(%rsi), %xmm0
	movdqu	16(%rsi), %xmm1
	movdqu	(%r15), %xmm2
	pcmpeqb	%xmm0, %xmm2
	movdqu	16(%r15), %xmm3
	pcmpeqb	%xmm1, %xmm3
	pcmpeqd	%xmm1, %xmm1
	pxor	%xmm1, %xmm2
	pxor	%xmm1, %xmm3
	por	%xmm2, %xmm3
	cmpq	$32, %rax
	movl	$32, %ecx
	cmovbq	%rax, %rcx
	movdqu	(%rsi,%rcx), %xmm0
	movdqu	(%r15,%rcx), %xmm2
	pcmpeqb	%xmm0, %xmm2
	pxor	%xmm1, %xmm2
	movdqu	-16(%rsi,%rdx), %xmm4
	movdqu	-16(%r15,%rdx), %xmm0
	pcmpeqb	%xmm4, %xmm0
	pxor	%xmm1, %xmm0
	por	%xmm3, %xmm0
	por	%xmm2, %xmm0
	ptest	1b(%rip), %xmm0
	jne	13f
	jmp	16f
11:
	xorl	%eax, %eax
	movq	%rdx, %rcx
	.p2align	4
12:
	movdqu	(%rsi,%rax), %xmm0
	movdqu	16(%rsi,%rax), %xmm1
	movdqu	32(%rsi,%rax), %xmm2
	movdqu	48(%rsi,%rax), %xmm3
	movdqu	(%r15,%rax), %xmm4
	pcmpeqb	%xmm0, %xmm4
	movdqu	16(%r15,%rax), %xmm0
	pcmpeqb	%xmm1, %xmm0
	pand	%xmm4, %xmm0
	movdqu	32(%r15,%rax), %xmm1
	pcmpeqb	%xmm2, %xmm1
	movdqu	48(%r15,%rax), %xmm2
	pcmpeqb	%xmm3, %xmm2
	pand	%xmm1, %xmm2
	pand	%xmm0, %xmm2
	pmovmskb	%xmm2, %edi
	cmpl	$65535, %edi
	jne	13f
	addq	$64, %rax
	addq	$-64, %rcx
	cmpq	$65, %rcx
	jae	12b
	movdqu	-64(%rsi,%rdx), %xmm0
	movdqu	-48(%rsi,%rdx), %xmm1
	movdqu	-32(%rsi,%rdx), %xmm2
	movdqu	-16(%rsi,%rdx), %xmm3
	movdqu	-64(%r15,%rdx), %xmm4
	pcmpeqb	%xmm0, %xmm4
	movdqu	-48(%r15,%rdx), %xmm5
	pcmpeqb	%xmm1, %xmm5
	movdqu	-32(%r15,%rdx), %xmm0
	pcmpeqb	%xmm2, %xmm0
	movdqu	-16(%r15,%rdx), %xmm1
	pcmpeqb	%xmm3, %xmm1
	pcmpeqd	%xmm2, %xmm2
	pxor	%xmm2, %xmm1
	pxor	%xmm2, %xmm0
	por	%xmm1, %xmm0
	pxor	%xmm2, %xmm4
	pxor	%xmm2, %xmm5
	por	%xmm4, %xmm5
	por	%xmm0, %xmm5
	pxor	%xmm0, %xmm0
	pcmpgtb	%xmm5, %xmm0
	ptest	1b(%rip), %xmm0
	je	16f
13:
	leaq	144(%rsp), %rdi
	callq	"strsim::chars_of::<#27635608fafc1f64>"
	cmpb	$0, 144(%rsp)
	je	15f
14:
	movb	$1, %al
	jmp	33f
15:
	movq	152(%rsp), %rbx
	movq	160(%rsp), %rbp
	movq	168(%rsp), %r12
	leaq	112(%rsp), %rdi
	movq	%r15, %rsi
	movq	%r14, %rdx
	callq	"strsim::chars_of::<#27635608fafc1f64>"
	cmpb	$0, 112(%rsp)
	je	18f
	testq	%r12, %r12
	je	14b
	movq	%rbx, %rdi
	callq	rattle_dealloc@PLT
	jmp	14b
16:
	movq	4b(%rip), %xmm2
17:
	movsd	7b(%rip), %xmm1
	movdqa	%xmm2, %xmm0
	ucomisd	%xmm1, %xmm0
	jbe	32f
	movq	8(%r13), %rax
	testq	%rax, %rax
	je	19f
	movq	(%r13), %rcx
	cmpq	$1, %rax
	jne	20f
	xorl	%esi, %esi
	xorl	%edx, %edx
	jmp	26f
18:
	movq	%r13, 176(%rsp)
	movq	%r12, 24(%rsp)
	movq	120(%rsp), %r13
	movq	128(%rsp), %r12
	movq	136(%rsp), %rcx
	movb	$1, %al
	movl	%eax, 20(%rsp)
	movq	%r12, %rax
	orq	%rbp, %rax
	je	34f
	movq	%rbp, %rax
	pxor	%xmm2, %xmm2
	testq	%rbp, %rbp
	je	63f
	testq	%r12, %r12
	je	63f
	movq	%rbx, 64(%rsp)
	cmpq	%rax, %r12
	movq	%rax, %rbx
	cmovaq	%r12, %rbx
	shrq	%rbx
	cmpq	$1, %rbx
	adcq	$-1, %rbx
	movq	%rsp, %rbp
	movq	%rbp, 40(%rsp)
	pxor	%xmm0, %xmm0
	movdqu	%xmm0, 48(%rsp)
	testq	%r12, %r12
	js	62f
	movl	$1, %esi
	movq	%r12, %rdi
	movq	%rcx, 8(%rsp)
	movq	%rax, 88(%rsp)
	callq	rattle_alloc@PLT
	movq	88(%rsp), %r10
	pxor	%xmm2, %xmm2
	movq	8(%rsp), %rcx
	testb	$1, %al
	je	62f
	movq	%rdx, %r9
	cmpq	$2, %r12
	movq	%rdx, 32(%rsp)
	movq	%r14, 80(%rsp)
	jb	35f
	leaq	-1(%r12), %r14
	movq	%r9, %rdi
	xorl	%esi, %esi
	movq	%r14, %rdx
	callq	memset@PLT
	movq	%rbp, %rsi
	movq	88(%rsp), %r10
	movq	32(%rsp), %r9
	jmp	36f
19:
	xorl	%esi, %esi
	jmp	28f
20:
	movq	%rax, %rdi
	andq	$-2, %rdi
	xorl	%esi, %esi
	movq	%rcx, %r8
	xorl	%edx, %edx
	jmp	22f
	.p2align	4
21:
	addq	$2, %rdx
	addq	$48, %r8
	cmpq	%rdx, %rdi
	je	25f
22:
	movsd	(%r8), %xmm1
	ucomisd	%xmm1, %xmm0
	jae	23f
	movsd	24(%r8), %xmm1
	ucomisd	%xmm1, %xmm0
	jb	21b
	jmp	24f
	.p2align	4
23:
	incq	%rsi
	movq	$-1, %r9
	cmoveq	%r9, %rsi
	movsd	24(%r8), %xmm1
	ucomisd	%xmm1, %xmm0
	jb	21b
24:
	incq	%rsi
	movq	$-1, %r9
	cmoveq	%r9, %rsi
	jmp	21b
25:
	testb	$1, %al
	je	27f
26:
	leaq	(%rdx,%rdx,2), %rdx
	movsd	(%rcx,%rdx,8), %xmm1
	ucomisd	%xmm1, %xmm0
	jb	27f
	incq	%rsi
	movq	$-1, %rcx
	cmoveq	%rcx, %rsi
27:
	cmpq	%rax, %rsi
	ja	32f
28:
	movq	%xmm2, 144(%rsp)
	movq	%r15, 152(%rsp)
	movq	%r14, 160(%rsp)
	movq	16(%r13), %rcx
	cmpq	%rcx, %rax
	jae	29f
	movq	%xmm2, 112(%rsp)
	movq	%r15, 120(%rsp)
	movq	%r14, 128(%rsp)
	leaq	112(%rsp), %rdx
	jmp	31f
29:
	je	53f
30:
	leaq	144(%rsp), %rdx
31:
	movq	%r13, %rdi
	callq	"std_alloc::vec::Vec::put_at::<#973b4a116d082bbd>"
32:
	xorl	%eax, %eax
33:
	addq	$184, %rsp
	popq	%rbx
	popq	%r12
	popq	%r13
	popq	%r14
	popq	%r15
	popq	%rbp
	retq
34:
	movq	4b(%rip), %xmm2
	jmp	63f
35:
	movq	%rbp, %rsi
	xorl	%r14d, %r14d
36:
	movb	$0, (%r9,%r14)
	movq	$-1, %rdi
	xorl	%r11d, %r11d
	movq	$-1, %r14
	xorl	%ebp, %ebp
	jmp	39f
37:
	movq	%r8, (%rsi,%r11,8)
	incq	%r11
	movq	%r11, 48(%rsp)
	.p2align	4
38:
	incq	%rbp
	decq	%r14
	cmpq	%r10, %rbp
	je	42f
39:
	cmpq	%rbx, %r14
	movq	%rbx, %rcx
	cmovbq	%r14, %rcx
	addq	%rbp, %rcx
	cmpq	$-2, %rcx
	movq	$-2, %rax
	cmovbq	%rcx, %rax
	incq	%rax
	cmpq	%rax, %r12
	cmovbq	%r12, %rax
	xorl	%ecx, %ecx
	movq	%rbp, %rdx
	subq	%rbx, %rdx
	cmovaeq	%rdx, %rcx
	movq	%rbx, %rdx
	addq	%rbp, %rdx
	cmovbq	%rdi, %rdx
	incq	%rdx
	cmoveq	%rdi, %rdx
	cmpq	%r12, %rdx
	cmovaeq	%r12, %rdx
	cmpq	%rdx, %rcx
	jae	38b
	movq	64(%rsp), %rdx
	leaq	(%rdx,%rbp,4), %r8
	movl	(%r8), %edx
	jmp	41f
	.p2align	4
40:
	incq	%rcx
	cmpq	%rcx, %rax
	je	38b
41:
	cmpl	(%r13,%rcx,4), %edx
	jne	40b
	cmpb	$1, (%r9,%rcx)
	je	40b
	movb	$1, (%r9,%rcx)
	cmpq	%r11, 56(%rsp)
	jne	37b
	movq	%r8, 104(%rsp)
	leaq	40(%rsp), %rdi
	callq	"std_alloc::vec::Vec::grow_amortized::<#3e74848cb5369e83>"
	testb	%al, %al
	je	61f
	movq	40(%rsp), %rsi
	movq	48(%rsp), %r11
	movq	32(%rsp), %r9
	movq	88(%rsp), %r10
	movq	$-1, %rdi
	movq	104(%rsp), %r8
	jmp	37b
42:
	movq	40(%rsp), %rbp
	movq	56(%rsp), %rbx
	testq	%r11, %r11
	je	50f
	movq	%rbx, 104(%rsp)
	movq	%rsp, %rax
	movq	%rax, 40(%rsp)
	pxor	%xmm0, %xmm0
	movdqu	%xmm0, 48(%rsp)
	xorl	%ecx, %ecx
	movq	%r13, %rbx
	xorl	%r14d, %r14d
	jmp	46f
43:
	movq	40(%rsp), %rax
	movq	48(%rsp), %rcx
	movq	32(%rsp), %r9
	movq	88(%rsp), %r10
	movq	%rbp, %r11
	movq	96(%rsp), %rbp
44:
	movq	%rbx, (%rax,%rcx,8)
	incq	%rcx
	movq	%rcx, 48(%rsp)
45:
	incq	%r14
	addq	$4, %rbx
	cmpq	%r14, %r12
	je	49f
46:
	cmpb	$1, (%r9,%r14)
	jne	45b
	cmpq	%rcx, 56(%rsp)
	jne	44b
	movq	%rbp, 96(%rsp)
	movq	%r11, %rbp
	leaq	40(%rsp), %rdi
	callq	"std_alloc::vec::Vec::grow_amortized::<#3e74848cb5369e83>"
	testb	%al, %al
	jne	43b
	cmpq	$0, 56(%rsp)
	je	47f
	movq	40(%rsp), %rdi
	callq	rattle_dealloc@PLT
47:
	movq	32(%rsp), %rdi
	callq	rattle_dealloc@PLT
	cmpq	$0, 104(%rsp)
	movq	80(%rsp), %r14
	movq	64(%rsp), %rbx
	movq	24(%rsp), %r12
	je	48f
	movq	96(%rsp), %rdi
	callq	rattle_dealloc@PLT
48:
	movl	$0, 20(%rsp)
	jmp	52f
49:
	movq	40(%rsp), %rdi
	movq	56(%rsp), %rax
	cmpq	%r11, %rcx
	movq	%r11, %rdx
	cmovbq	%rcx, %rdx
	movq	%r11, %rsi
	testq	%rcx, %rcx
	movq	80(%rsp), %r14
	movq	64(%rsp), %rbx
	je	58f
	cmpq	$1, %rdx
	jne	54f
	xorl	%ecx, %ecx
	xorl	%esi, %esi
	jmp	56f
50:
	movq	%r9, %rdi
	callq	rattle_dealloc@PLT
	testq	%rbx, %rbx
	je	51f
	movq	%rbp, %rdi
	callq	rattle_dealloc@PLT
51:
	movq	80(%rsp), %r14
	movq	64(%rsp), %rbx
	movq	24(%rsp), %r12
52:
	movq	8(%rsp), %rcx
	pxor	%xmm2, %xmm2
	jmp	64f
53:
	movq	%r13, %rdi
	movq	%rsi, %rbx
	callq	"std_alloc::vec::Vec::grow_amortized::<#973b4a116d082bbd>"
	movq	%rbx, %rsi
	testb	%al, %al
	je	14b
	jmp	30b
54:
	movq	%r11, 96(%rsp)
	movq	%rdx, %r8
	andq	$-2, %r8
	xorl	%ecx, %ecx
	xorl	%esi, %esi
55:
	movq	(%rbp,%rsi,8), %r9
	movq	8(%rbp,%rsi,8), %r10
	movl	(%r9), %r9d
	movq	(%rdi,%rsi,8), %r11
	movq	8(%rdi,%rsi,8), %rbx
	xorl	%r14d, %r14d
	cmpl	(%r11), %r9d
	setne	%r14b
	addq	%rcx, %r14
	movl	(%r10), %r9d
	xorl	%ecx, %ecx
	cmpl	(%rbx), %r9d
	setne	%cl
	addq	%r14, %rcx
	addq	$2, %rsi
	cmpq	%rsi, %r8
	jne	55b
	testb	$1, %dl
	movq	80(%rsp), %r14
	movq	64(%rsp), %rbx
	movq	32(%rsp), %r9
	movq	88(%rsp), %r10
	movq	96(%rsp), %r11
	je	57f
56:
	movq	%rcx, %rdx
	movq	(%rbp,%rsi,8), %rcx
	movq	(%rdi,%rsi,8), %rsi
	movl	(%rcx), %r8d
	xorl	%ecx, %ecx
	cmpl	(%rsi), %r8d
	setne	%cl
	addq	%rdx, %rcx
57:
	shrq	%rcx
	xorl	%esi, %esi
	movq	%r11, %rdx
	subq	%rcx, %rdx
	cmovaeq	%rdx, %rsi
58:
	movq	%r11, %rcx
	shrq	$32, %rcx
	cvtsi2sd	%rcx, %xmm1
	movl	%r11d, %ecx
	xorps	%xmm0, %xmm0
	cvtsi2sd	%rcx, %xmm0
	movq	%rsi, %rcx
	shrq	$32, %rcx
	cvtsi2sd	%rcx, %xmm2
	unpcklpd	%xmm2, %xmm1
	movl	%esi, %ecx
	cvtsi2sd	%rcx, %xmm3
	movq	%r10, %rcx
	shrq	$32, %rcx
	xorps	%xmm2, %xmm2
	cvtsi2sd	%rcx, %xmm2
	unpcklpd	%xmm3, %xmm0
	movl	%r10d, %ecx
	xorps	%xmm3, %xmm3
	cvtsi2sd	%rcx, %xmm3
	movq	%r12, %rcx
	shrq	$32, %rcx
	cvtsi2sd	%rcx, %xmm4
	movsd	5b(%rip), %xmm5
	movl	%r12d, %ecx
	cvtsi2sd	%rcx, %xmm6
	mulsd	%xmm5, %xmm4
	addsd	%xmm4, %xmm6
	mulpd	2b(%rip), %xmm1
	mulsd	%xmm5, %xmm2
	addpd	%xmm0, %xmm1
	addsd	%xmm3, %xmm2
	movapd	%xmm1, %xmm0
	divsd	%xmm6, %xmm0
	unpcklpd	%xmm1, %xmm2
	divpd	%xmm2, %xmm1
	addsd	%xmm1, %xmm0
	unpckhpd	%xmm1, %xmm1
	addsd	%xmm0, %xmm1
	divsd	6b(%rip), %xmm1
	movapd	%xmm1, %xmm2
	movsd	4b(%rip), %xmm0
	cmpltsd	%xmm2, %xmm0
	blendvpd	%xmm0, 3b(%rip), %xmm1
	xorpd	%xmm0, %xmm0
	cmpnlesd	%xmm2, %xmm0
	andnpd	%xmm1, %xmm0
	movapd	%xmm0, 64(%rsp)
	testq	%rax, %rax
	je	59f
	callq	rattle_dealloc@PLT
	movq	32(%rsp), %r9
59:
	movq	%r9, %rdi
	callq	rattle_dealloc@PLT
	cmpq	$0, 104(%rsp)
	movq	24(%rsp), %r12
	je	60f
	movq	%rbp, %rdi
	callq	rattle_dealloc@PLT
60:
	movq	8(%rsp), %rcx
	movdqa	64(%rsp), %xmm2
	jmp	64f
61:
	movq	32(%rsp), %rdi
	callq	rattle_dealloc@PLT
	cmpq	$0, 56(%rsp)
	movq	80(%rsp), %r14
	movq	8(%rsp), %rcx
	pxor	%xmm2, %xmm2
	je	62f
	movq	40(%rsp), %rdi
	callq	rattle_dealloc@PLT
	pxor	%xmm2, %xmm2
	movq	8(%rsp), %rcx
62:
	movl	$0, 20(%rsp)
	movq	64(%rsp), %rbx
63:
	movq	24(%rsp), %r12
64:
	testq	%rcx, %rcx
	movdqa	%xmm2, 64(%rsp)
	je	65f
	movq	%r13, %rdi
	callq	rattle_dealloc@PLT
	movdqa	64(%rsp), %xmm2
65:
	testq	%r12, %r12
	je	66f
	movq	%rbx, %rdi
	callq	rattle_dealloc@PLT
	movdqa	64(%rsp), %xmm2
66:
	movb	$1, %al
	cmpb	$0, 20(%rsp)
	movq	176(%rsp), %r13
	jne	17b
	jmp	33b
67:
	.size	"clap::parser::suggestions::add_candidate", 67b-"clap::parser::suggestions::add_candidate"

	.text
	.p2align	4
	.type	"clap::parser::suggestions::best_long",@function
"clap::parser::suggestions::best_long":
	pushq	%rbp
	pushq	%r15
	pushq	%r14
	pushq	%r13
	pushq	%r12
	pushq	%rbx
	subq	$56, %rsp
	movq	%rdi, %r12
	xorps	%xmm0, %xmm0
	movups	%xmm0, 32(%rsp)
	leaq	8(%rsp), %rdi
	movq	%rdi, 24(%rsp)
	movq	%rdx, 48(%rsp)
	testq	%rdx, %rdx
	je	8f
	movq	%r8, %r14
	movq	%rcx, %r15
	movq	%rsi, %r13
	movq	%r12, 16(%rsp)
	xorl	%ebp, %ebp
	jmp	2f
	.p2align	4
1:
	incq	%rbp
	cmpq	48(%rsp), %rbp
	je	7f
2:
	imulq	$608, %rbp, %r12
	cmpb	$1, 488(%r13,%r12)
	je	1b
	cmpb	$1, 72(%r13,%r12)
	jne	3f
	movq	80(%r13,%r12), %rcx
	movq	88(%r13,%r12), %r8
	leaq	24(%rsp), %rdi
	movq	%r15, %rsi
	movq	%r14, %rdx
	callq	"clap::parser::suggestions::add_candidate"
	testb	%al, %al
	jne	5f
3:
	movq	104(%r13,%r12), %rbx
	testq	%rbx, %rbx
	je	1b
	movq	96(%r13,%r12), %r12
	addq	$8, %r12
	.p2align	4
4:
	movq	-8(%r12), %rcx
	movq	(%r12), %r8
	leaq	24(%rsp), %rdi
	movq	%r15, %rsi
	movq	%r14, %rdx
	callq	"clap::parser::suggestions::add_candidate"
	testb	%al, %al
	jne	5f
	addq	$24, %r12
	decq	%rbx
	jne	4b
	jmp	1b
5:
	cmpq	$0, 40(%rsp)
	je	6f
	movq	24(%rsp), %rdi
	callq	rattle_dealloc@PLT
6:
	movq	16(%rsp), %rax
	movb	$1, (%rax)
	xorps	%xmm0, %xmm0
	movups	%xmm0, 8(%rax)
	movq	$0, 24(%rax)
	jmp	11f
7:
	movq	24(%rsp), %rdi
	movq	16(%rsp), %r12
8:
	movq	32(%rsp), %rax
	testq	%rax, %rax
	je	12f
	leaq	(%rax,%rax,2), %rax
	movq	-16(%rdi,%rax,8), %r14
	movq	-8(%rdi,%rax,8), %r15
	movl	$1, %ebx
	cmpq	$0, 40(%rsp)
	je	10f
9:
	callq	rattle_dealloc@PLT
10:
	movb	$0, (%r12)
	movq	%rbx, 8(%r12)
	movq	%r14, 16(%r12)
	movq	%r15, 24(%r12)
11:
	addq	$56, %rsp
	popq	%rbx
	popq	%r12
	popq	%r13
	popq	%r14
	popq	%r15
	popq	%rbp
	retq
12:
	xorl	%ebx, %ebx
	xorl	%r14d, %r14d
	xorl	%r15d, %r15d
	cmpq	$0, 40(%rsp)
	jne	9b
	jmp	10b
13:
	.size	"clap::parser::suggestions::best_long", 13b-"clap::parser::suggestions::best_long"

	.section	.rodata.cst16,"aM",@progbits,16
	.p2align	4, 0x0
1:
	.zero	16,1
	.text
	.p2align	4
	.type	"clap::parser::validator::declares_conflict",@function
"clap::parser::validator::declares_conflict":
	pushq	%rbp
	pushq	%r15
	pushq	%r14
	pushq	%r13
	pushq	%r12
	pushq	%rbx
	subq	$104, %rsp
	movq	%r8, %rbx
	movq	%rcx, 32(%rsp)
	movq	%rdx, %r15
	movq	%rsi, %r12
	movq	%rdi, %r14
	movq	576(%rdi), %rdi
	movq	584(%r14), %r13
	movq	%rdi, 8(%rsp)
	movq	%r13, %rsi
	movq	%r12, %rdx
	movq	%r15, %rcx
	callq	"clap::builder::command::Command::has_arg"
	testb	%al, %al
	je	2f
	movq	%r14, 56(%rsp)
	testq	%r13, %r13
	movq	32(%rsp), %r8
	movq	8(%rsp), %r9
	je	42f
	leaq	-16(%r15), %rax
	cmpq	$32, %rax
	movl	$32, %ecx
	cmovbq	%rax, %rcx
	movq	%rcx, 64(%rsp)
	leaq	-8(%r15), %rax
	cmpq	$8, %rax
	movl	$8, %ecx
	cmovbq	%rax, %rcx
	movq	%rcx, 48(%rsp)
	cmpq	$16, %rax
	movl	$16, %ecx
	cmovbq	%rax, %rcx
	movq	%rcx, 40(%rsp)
	movq	%r15, %rax
	shrq	%rax
	movq	%rax, 72(%rsp)
	xorl	%r14d, %r14d
	movq	%r13, 24(%rsp)
	jmp	22f
2:
	movq	632(%r14), %r9
	testq	%r9, %r9
	je	78f
	leaq	-16(%r15), %rax
	cmpq	$32, %rax
	movl	$32, %ecx
	movq	%rax, 48(%rsp)
	cmovbq	%rax, %rcx
	movq	%rcx, 40(%rsp)
	leaq	-8(%r15), %rax
	cmpq	$8, %rax
	movl	$8, %ecx
	cmovbq	%rax, %rcx
	movq	%rcx, 8(%rsp)
	cmpq	$16, %rax
	movl	$16, %ecx
	movq	%rax, 16(%rsp)
	cmovbq	%rax, %rcx
	movq	%rcx, 24(%rsp)
	movq	624(%r14), %r13
	movq	%r15, %rax
	shrq	%rax
	movq	%rax, 56(%rsp)
	xorl	%r11d, %r11d
	movq	32(%rsp), %r8
	jmp	5f
3:
	movdqu	(%rcx), %xmm0
	movdqu	16(%rcx), %xmm1
	movdqu	(%r12), %xmm2
	pcmpeqb	%xmm0, %xmm2
	movdqu	16(%r12), %xmm3
	pcmpeqb	%xmm1, %xmm3
	pcmpeqd	%xmm1, %xmm1
	pxor	%xmm1, %xmm2
	pxor	%xmm1, %xmm3
	por	%xmm2, %xmm3
	movq	40(%rsp), %rdx
	movdqu	(%rcx,%rdx), %xmm0
	movdqu	(%r12,%rdx), %xmm2
	pcmpeqb	%xmm0, %xmm2
	pxor	%xmm1, %xmm2
	movq	48(%rsp), %rdx
	movdqu	(%rcx,%rdx), %xmm4
	movdqu	(%r12,%rdx), %xmm0
	pcmpeqb	%xmm4, %xmm0
	pxor	%xmm1, %xmm0
	por	%xmm2, %xmm0
	por	%xmm3, %xmm0
	ptest	1b(%rip), %xmm0
	je	10f
	.p2align	4
4:
	incq	%r11
	cmpq	%r9, %r11
	je	78f
5:
	imulq	$104, %r11, %rax
	cmpq	%r15, 8(%r13,%rax)
	jne	4b
	movq	(%r13,%rax), %rcx
	cmpq	$7, %r15
	ja	6f
	cmpq	$4, %r15
	jb	7f
	movl	(%rcx), %edx
	movl	-4(%rcx,%r15), %ecx
	shlq	$32, %rcx
	orq	%rdx, %rcx
	bswapq	%rcx
	movl	(%r12), %esi
	movl	-4(%r12,%r15), %edx
	shlq	$32, %rdx
	orq	%rsi, %rdx
	bswapq	%rdx
	cmpq	%rdx, %rcx
	jne	4b
	jmp	10f
	.p2align	4
6:
	cmpq	$32, %r15
	ja	8f
	movq	(%rcx), %rdx
	cmpq	(%r12), %rdx
	jne	4b
	movq	8(%rsp), %rsi
	movq	(%r12,%rsi), %rdx
	cmpq	%rdx, (%rcx,%rsi)
	jne	4b
	movq	24(%rsp), %rsi
	movq	(%r12,%rsi), %rdx
	cmpq	%rdx, (%rcx,%rsi)
	jne	4b
	movq	16(%rsp), %rsi
	movq	(%r12,%rsi), %rdx
	cmpq	%rdx, (%rcx,%rsi)
	je	10f
	jmp	4b
7:
	testq	%r15, %r15
	je	10f
	movzbl	(%rcx), %edx
	movq	56(%rsp), %rdi
	movzbl	(%rcx,%rdi), %esi
	shll	$16, %edx
	shll	$8, %esi
	orl	%edx, %esi
	movzbl	-1(%rcx,%r15), %ecx
	orq	%rsi, %rcx
	movzbl	(%r12), %edx
	movzbl	(%r12,%rdi), %esi
	shll	$16, %edx
	shll	$8, %esi
	orl	%edx, %esi
	movzbl	-1(%r12,%r15), %edx
	orq	%rsi, %rdx
	cmpq	%rdx, %rcx
	jne	4b
	jmp	10f
8:
	cmpq	$65, %r15
	jb	3b
	xorl	%edx, %edx
	movq	%r15, %rsi
	.p2align	4
9:
	movdqu	(%rcx,%rdx), %xmm0
	movdqu	16(%rcx,%rdx), %xmm1
	movdqu	32(%rcx,%rdx), %xmm2
	movdqu	48(%rcx,%rdx), %xmm3
	movdqu	(%r12,%rdx), %xmm4
	pcmpeqb	%xmm0, %xmm4
	movdqu	16(%r12,%rdx), %xmm0
	pcmpeqb	%xmm1, %xmm0
	pand	%xmm4, %xmm0
	movdqu	32(%r12,%rdx), %xmm1
	pcmpeqb	%xmm2, %xmm1
	movdqu	48(%r12,%rdx), %xmm2
	pcmpeqb	%xmm3, %xmm2
	pand	%xmm1, %xmm2
	pand	%xmm0, %xmm2
	pmovmskb	%xmm2, %edi
	cmpl	$65535, %edi
	jne	4b
	addq	$64, %rdx
	addq	$-64, %rsi
	cmpq	$65, %rsi
	jae	9b
	movdqu	-64(%rcx,%r15), %xmm0
	movdqu	-48(%rcx,%r15), %xmm1
	movdqu	-32(%rcx,%r15), %xmm2
	movdqu	-16(%rcx,%r15), %xmm3
	movdqu	-64(%r12,%r15), %xmm4
	pcmpeqb	%xmm0, %xmm4
	movdqu	-48(%r12,%r15), %xmm5
	pcmpeqb	%xmm1, %xmm5
	movdqu	-32(%r12,%r15), %xmm0
	pcmpeqb	%xmm2, %xmm0
	movdqu	-16(%r12,%r15), %xmm1
	pcmpeqb	%xmm3, %xmm1
	pcmpeqd	%xmm2, %xmm2
	pxor	%xmm2, %xmm1
	pxor	%xmm2, %xmm0
	por	%xmm1, %xmm0
	pxor	%xmm2, %xmm4
	pxor	%xmm2, %xmm5
	por	%xmm4, %xmm5
	por	%xmm0, %xmm5
	pxor	%xmm0, %xmm0
	pcmpgtb	%xmm5, %xmm0
	ptest	1b(%rip), %xmm0
	jne	4b
	.p2align	4
10:
	movq	80(%r13,%rax), %r14
	testq	%r14, %r14
	je	4b
	movq	72(%r13,%rax), %rbp
	addq	$8, %rbp
	cmpq	$4, %rbx
	jae	16f
	testq	%rbx, %rbx
	jne	15f
	.p2align	4
11:
	cmpq	$0, (%rbp)
	je	19f
	addq	$16, %rbp
	decq	%r14
	jne	11b
	jmp	4b
	.p2align	4
12:
	xorl	%edx, %edx
13:
	cmpq	%rbx, %rdx
	jae	19f
14:
	addq	$16, %rbp
	decq	%r14
	je	4b
15:
	cmpq	%rbx, (%rbp)
	jne	14b
	movq	-8(%rbp), %rcx
	movzbl	(%rcx), %eax
	cmpb	(%r8), %al
	jne	12b
	movb	$1, %al
	cmpq	$1, %rbx
	je	79f
	movzbl	1(%rcx), %esi
	movl	$1, %edx
	cmpb	1(%r8), %sil
	jne	13b
	cmpq	$2, %rbx
	je	79f
	movzbl	2(%rcx), %ecx
	movl	$2, %edx
	cmpb	2(%r8), %cl
	jne	13b
	jmp	79f
16:
	movq	%r15, 96(%rsp)
	movq	%r12, 88(%rsp)
	jmp	18f
	.p2align	4
17:
	addq	$16, %rbp
	decq	%r14
	je	4b
18:
	cmpq	%rbx, (%rbp)
	jne	17b
	movq	-8(%rbp), %rdi
	movl	(%rdi), %eax
	cmpl	(%r8), %eax
	jne	17b
	movq	%rbx, %rsi
	movq	%r8, %rdx
	movq	%rbx, %r12
	movq	%r9, %rbx
	movq	%r11, %r15
	callq	"core::cmp::slices::groups_equal::<i8,31'core::cmp::numbers::U8PartialEq{}>"
	movq	%r15, %r11
	movq	%rbx, %r9
	movq	%r12, %rbx
	movq	88(%rsp), %r12
	movq	96(%rsp), %r15
	movq	32(%rsp), %r8
	testb	%al, %al
	je	17b
19:
	movb	$1, %al
	jmp	79f
20:
	movdqu	(%rax), %xmm0
	movdqu	16(%rax), %xmm1
	movdqu	(%r12), %xmm2
	pcmpeqb	%xmm0, %xmm2
	movdqu	16(%r12), %xmm3
	pcmpeqb	%xmm1, %xmm3
	pcmpeqd	%xmm1, %xmm1
	pxor	%xmm1, %xmm2
	pxor	%xmm1, %xmm3
	por	%xmm2, %xmm3
	movq	64(%rsp), %rcx
	movdqu	(%rax,%rcx), %xmm0
	movdqu	(%r12,%rcx), %xmm2
	pcmpeqb	%xmm0, %xmm2
	pxor	%xmm1, %xmm2
	leaq	-16(%r15), %rcx
	movdqu	(%rax,%rcx), %xmm4
	movdqu	(%r12,%rcx), %xmm0
	pcmpeqb	%xmm4, %xmm0
	pxor	%xmm1, %xmm0
	por	%xmm2, %xmm0
	por	%xmm3, %xmm0
	ptest	1b(%rip), %xmm0
	je	27f
	.p2align	4
21:
	incq	%r14
	movq	24(%rsp), %r13
	cmpq	%r13, %r14
	je	42f
22:
	imulq	$608, %r14, %rdi
	cmpq	%r15, 8(%r9,%rdi)
	jne	21b
	movq	(%r9,%rdi), %rax
	cmpq	$7, %r15
	ja	23f
	cmpq	$4, %r15
	jb	24f
	movl	(%rax), %ecx
	movl	-4(%rax,%r15), %eax
	shlq	$32, %rax
	orq	%rcx, %rax
	bswapq	%rax
	movl	(%r12), %edx
	movl	-4(%r12,%r15), %ecx
	shlq	$32, %rcx
	orq	%rdx, %rcx
	bswapq	%rcx
	cmpq	%rcx, %rax
	jne	21b
	jmp	27f
	.p2align	4
23:
	cmpq	$32, %r15
	ja	25f
	movq	(%rax), %rcx
	cmpq	(%r12), %rcx
	jne	21b
	movq	48(%rsp), %rdx
	movq	(%r12,%rdx), %rcx
	cmpq	%rcx, (%rax,%rdx)
	jne	21b
	movq	40(%rsp), %rdx
	movq	(%r12,%rdx), %rcx
	cmpq	%rcx, (%rax,%rdx)
	jne	21b
	leaq	-8(%r15), %rdx
	movq	(%r12,%rdx), %rcx
	cmpq	%rcx, (%rax,%rdx)
	je	27f
	jmp	21b
24:
	testq	%r15, %r15
	je	27f
	movzbl	(%rax), %ecx
	movq	72(%rsp), %rsi
	movzbl	(%rax,%rsi), %edx
	shll	$16, %ecx
	shll	$8, %edx
	orl	%ecx, %edx
	movzbl	-1(%rax,%r15), %eax
	orq	%rdx, %rax
	movzbl	(%r12), %ecx
	movzbl	(%r12,%rsi), %edx
	shll	$16, %ecx
	shll	$8, %edx
	orl	%ecx, %edx
	movzbl	-1(%r12,%r15), %ecx
	orq	%rdx, %rcx
	cmpq	%rcx, %rax
	jne	21b
	jmp	27f
25:
	cmpq	$65, %r15
	jb	20b
	xorl	%ecx, %ecx
	movq	%r15, %rdx
	.p2align	4
26:
	movdqu	(%rax,%rcx), %xmm0
	movdqu	16(%rax,%rcx), %xmm1
	movdqu	32(%rax,%rcx), %xmm2
	movdqu	48(%rax,%rcx), %xmm3
	movdqu	(%r12,%rcx), %xmm4
	pcmpeqb	%xmm0, %xmm4
	movdqu	16(%r12,%rcx), %xmm0
	pcmpeqb	%xmm1, %xmm0
	pand	%xmm4, %xmm0
	movdqu	32(%r12,%rcx), %xmm1
	pcmpeqb	%xmm2, %xmm1
	movdqu	48(%r12,%rcx), %xmm2
	pcmpeqb	%xmm3, %xmm2
	pand	%xmm1, %xmm2
	pand	%xmm0, %xmm2
	pmovmskb	%xmm2, %esi
	cmpl	$65535, %esi
	jne	21b
	addq	$64, %rcx
	addq	$-64, %rdx
	cmpq	$65, %rdx
	jae	26b
	movdqu	-64(%rax,%r15), %xmm0
	movdqu	-48(%rax,%r15), %xmm1
	movdqu	-32(%rax,%r15), %xmm2
	movdqu	-16(%rax,%r15), %xmm3
	movdqu	-64(%r12,%r15), %xmm4
	pcmpeqb	%xmm0, %xmm4
	movdqu	-48(%r12,%r15), %xmm5
	pcmpeqb	%xmm1, %xmm5
	movdqu	-32(%r12,%r15), %xmm0
	pcmpeqb	%xmm2, %xmm0
	movdqu	-16(%r12,%r15), %xmm1
	pcmpeqb	%xmm3, %xmm1
	pcmpeqd	%xmm2, %xmm2
	pxor	%xmm2, %xmm1
	pxor	%xmm2, %xmm0
	por	%xmm1, %xmm0
	pxor	%xmm2, %xmm4
	pxor	%xmm2, %xmm5
	por	%xmm4, %xmm5
	por	%xmm0, %xmm5
	pxor	%xmm0, %xmm0
	pcmpgtb	%xmm5, %xmm0
	ptest	1b(%rip), %xmm0
	jne	21b
	.p2align	4
27:
	movq	%rdi, 16(%rsp)
	movq	272(%r9,%rdi), %rbp
	testq	%rbp, %rbp
	je	29f
	movq	16(%rsp), %rax
	movq	264(%r9,%rax), %r13
	addq	$8, %r13
	cmpq	$4, %rbx
	jae	31f
	testq	%rbx, %rbx
	jne	37f
	.p2align	4
28:
	cmpq	$0, (%r13)
	je	19b
	addq	$16, %r13
	decq	%rbp
	jne	28b
29:
	movq	16(%rsp), %rax
	movq	296(%r9,%rax), %r13
	testq	%r13, %r13
	je	21b
	movq	288(%r9,%rax), %rbp
	addq	$8, %rbp
	cmpq	$4, %rbx
	jb	41f
	jmp	33f
	.p2align	4
30:
	addq	$16, %r13
	decq	%rbp
	je	29b
31:
	cmpq	%rbx, (%r13)
	jne	30b
	movq	-8(%r13), %rdi
	movl	(%rdi), %eax
	cmpl	(%r8), %eax
	jne	30b
	movq	%rbx, %rsi
	movq	%r8, %rdx
	callq	"core::cmp::slices::groups_equal::<i8,31'core::cmp::numbers::U8PartialEq{}>"
	movq	8(%rsp), %r9
	movq	32(%rsp), %r8
	testb	%al, %al
	je	30b
	jmp	19b
	.p2align	4
32:
	addq	$16, %rbp
	decq	%r13
	je	21b
33:
	cmpq	%rbx, (%rbp)
	jne	32b
	movq	-8(%rbp), %rdi
	movl	(%rdi), %eax
	cmpl	(%r8), %eax
	jne	32b
	movq	%rbx, %rsi
	movq	%r8, %rdx
	callq	"core::cmp::slices::groups_equal::<i8,31'core::cmp::numbers::U8PartialEq{}>"
	movq	8(%rsp), %r9
	movq	32(%rsp), %r8
	testb	%al, %al
	je	32b
	jmp	19b
	.p2align	4
34:
	xorl	%edx, %edx
35:
	cmpq	%rbx, %rdx
	jae	19b
36:
	addq	$16, %r13
	decq	%rbp
	je	29b
37:
	cmpq	%rbx, (%r13)
	jne	36b
	movq	-8(%r13), %rcx
	movzbl	(%rcx), %eax
	cmpb	(%r8), %al
	jne	34b
	movb	$1, %al
	cmpq	$1, %rbx
	je	79f
	movzbl	1(%rcx), %esi
	movl	$1, %edx
	cmpb	1(%r8), %sil
	jne	35b
	cmpq	$2, %rbx
	je	79f
	movzbl	2(%rcx), %ecx
	movl	$2, %edx
	cmpb	2(%r8), %cl
	jne	35b
	jmp	79f
	.p2align	4
38:
	xorl	%edx, %edx
39:
	cmpq	%rbx, %rdx
	jae	79f
40:
	addq	$16, %rbp
	decq	%r13
	je	21b
41:
	cmpq	%rbx, (%rbp)
	jne	40b
	movb	$1, %al
	testq	%rbx, %rbx
	je	79f
	movq	-8(%rbp), %rcx
	movzbl	(%rcx), %edx
	cmpb	(%r8), %dl
	jne	38b
	cmpq	$1, %rbx
	je	79f
	movzbl	1(%rcx), %esi
	movl	$1, %edx
	cmpb	1(%r8), %sil
	jne	39b
	cmpq	$2, %rbx
	je	79f
	movzbl	2(%rcx), %ecx
	movl	$2, %edx
	cmpb	2(%r8), %cl
	jne	39b
	jmp	79f
42:
	movq	56(%rsp), %rdx
	movq	632(%rdx), %rax
	movq	%rax, 48(%rsp)
	testq	%rax, %rax
	je	78f
	leaq	-16(%r15), %rax
	cmpq	$32, %rax
	movl	$32, %ecx
	cmovbq	%rax, %rcx
	movq	%rcx, 80(%rsp)
	leaq	-8(%r15), %rax
	cmpq	$8, %rax
	movl	$8, %ecx
	cmovbq	%rax, %rcx
	movq	%rcx, 40(%rsp)
	cmpq	$16, %rax
	movl	$16, %ecx
	cmovbq	%rax, %rcx
	movq	%rcx, 72(%rsp)
	movq	624(%rdx), %rax
	movq	%rax, 24(%rsp)
	movq	%r15, %rax
	shrq	%rax
	movq	%rax, 64(%rsp)
	xorl	%eax, %eax
	jmp	44f
	.p2align	4
43:
	movq	56(%rsp), %rax
	incq	%rax
	cmpq	48(%rsp), %rax
	je	78f
44:
	movq	%rax, 56(%rsp)
	imulq	$104, %rax, %rcx
	movq	24(%rsp), %rax
	movq	%rcx, 16(%rsp)
	movq	24(%rax,%rcx), %rax
	movq	%rax, 8(%rsp)
	testq	%rax, %rax
	je	43b
	movq	24(%rsp), %rax
	movq	16(%rsp), %rcx
	movq	16(%rax,%rcx), %r14
	cmpq	$4, %r15
	jae	49f
	leaq	8(%r14), %rax
	testq	%r15, %r15
	je	61f
	movq	8(%rsp), %rcx
	jmp	48f
	.p2align	4
45:
	xorl	%esi, %esi
46:
	cmpq	%r15, %rsi
	jae	52f
47:
	addq	$16, %rax
	decq	%rcx
	je	43b
48:
	cmpq	%r15, (%rax)
	jne	47b
	movq	-8(%rax), %rdx
	movzbl	(%rdx), %esi
	cmpb	(%r12), %sil
	jne	45b
	cmpq	$1, %r15
	je	52f
	movzbl	1(%rdx), %edi
	movl	$1, %esi
	cmpb	1(%r12), %dil
	jne	46b
	cmpq	$2, %r15
	je	52f
	movzbl	2(%rdx), %edx
	movl	$2, %esi
	cmpb	2(%r12), %dl
	jne	46b
	jmp	52f
	.p2align	4
49:
	leaq	8(%r14), %r13
	movq	8(%rsp), %rbp
	jmp	51f
	.p2align	4
50:
	addq	$16, %r13
	decq	%rbp
	je	43b
51:
	cmpq	%r15, (%r13)
	jne	50b
	movq	-8(%r13), %rdi
	movl	(%rdi), %eax
	cmpl	(%r12), %eax
	jne	50b
	movq	%r15, %rsi
	movq	%r12, %rdx
	callq	"core::cmp::slices::groups_equal::<i8,31'core::cmp::numbers::U8PartialEq{}>"
	movq	32(%rsp), %r8
	testb	%al, %al
	je	50b
52:
	movq	24(%rsp), %rax
	movq	16(%rsp), %rcx
	movq	80(%rax,%rcx), %r13
	testq	%r13, %r13
	je	54f
	movq	24(%rsp), %rax
	movq	16(%rsp), %rcx
	movq	72(%rax,%rcx), %rbp
	addq	$8, %rbp
	cmpq	$4, %rbx
	jae	56f
	testq	%rbx, %rbx
	jne	60f
	.p2align	4
53:
	cmpq	$0, (%rbp)
	je	19b
	addq	$16, %rbp
	decq	%r13
	jne	53b
54:
	movq	24(%rsp), %rax
	movq	16(%rsp), %rcx
	cmpb	$0, 96(%rax,%rcx)
	jne	43b
	cmpq	%r15, %rbx
	jne	70f
	cmpq	$7, %r15
	ja	63f
	cmpq	$4, %r15
	jb	64f
	movl	(%r8), %ecx
	movl	-4(%r8,%r15), %eax
	shlq	$32, %rax
	orq	%rcx, %rax
	bswapq	%rax
	movl	(%r12), %edx
	movl	-4(%r12,%r15), %ecx
	shlq	$32, %rcx
	orq	%rdx, %rcx
	bswapq	%rcx
	jmp	65f
	.p2align	4
55:
	addq	$16, %rbp
	decq	%r13
	je	54b
56:
	cmpq	%rbx, (%rbp)
	jne	55b
	movq	-8(%rbp), %rdi
	movl	(%rdi), %eax
	cmpl	(%r8), %eax
	jne	55b
	movq	%rbx, %rsi
	movq	%r8, %rdx
	callq	"core::cmp::slices::groups_equal::<i8,31'core::cmp::numbers::U8PartialEq{}>"
	movq	32(%rsp), %r8
	testb	%al, %al
	je	55b
	jmp	19b
	.p2align	4
57:
	xorl	%edx, %edx
58:
	cmpq	%rbx, %rdx
	jae	19b
59:
	addq	$16, %rbp
	decq	%r13
	je	54b
60:
	cmpq	%rbx, (%rbp)
	jne	59b
	movq	-8(%rbp), %rcx
	movzbl	(%rcx), %eax
	cmpb	(%r8), %al
	jne	57b
	movb	$1, %al
	cmpq	$1, %rbx
	je	79f
	movzbl	1(%rcx), %esi
	movl	$1, %edx
	cmpb	1(%r8), %sil
	jne	58b
	cmpq	$2, %rbx
	je	79f
	movzbl	2(%rcx), %ecx
	movl	$2, %edx
	cmpb	2(%r8), %cl
	jne	58b
	jmp	79f
61:
	movq	8(%rsp), %rcx
	.p2align	4
62:
	cmpq	$0, (%rax)
	je	52b
	addq	$16, %rax
	decq	%rcx
	jne	62b
	jmp	43b
63:
	cmpq	$32, %r15
	ja	66f
	movq	(%r8), %rax
	cmpq	(%r12), %rax
	jne	70f
	movq	40(%rsp), %rcx
	movq	(%r12,%rcx), %rax
	cmpq	%rax, (%r8,%rcx)
	jne	70f
	movq	72(%rsp), %rcx
	movq	(%r12,%rcx), %rax
	cmpq	%rax, (%r8,%rcx)
	jne	70f
	leaq	-8(%r15), %rcx
	movq	(%r12,%rcx), %rax
	cmpq	%rax, (%r8,%rcx)
	je	43b
	jmp	70f
64:
	testq	%r15, %r15
	je	43b
	movzbl	(%r8), %eax
	movq	64(%rsp), %rdx
	movzbl	(%r8,%rdx), %ecx
	shll	$16, %eax
	shll	$8, %ecx
	orl	%eax, %ecx
	movzbl	-1(%r8,%r15), %eax
	orq	%rcx, %rax
	movzbl	(%r12), %ecx
	movzbl	(%r12,%rdx), %edx
	shll	$16, %ecx
	shll	$8, %edx
	orl	%ecx, %edx
	movzbl	-1(%r12,%r15), %ecx
	orq	%rdx, %rcx
65:
	cmpq	%rcx, %rax
	je	43b
	jmp	70f
66:
	cmpq	$65, %r15
	jae	67f
	movdqu	(%r8), %xmm0
	movdqu	16(%r8), %xmm1
	movdqu	(%r12), %xmm2
	pcmpeqb	%xmm0, %xmm2
	movdqu	16(%r12), %xmm3
	pcmpeqb	%xmm1, %xmm3
	pcmpeqd	%xmm1, %xmm1
	pxor	%xmm1, %xmm2
	pxor	%xmm1, %xmm3
	por	%xmm2, %xmm3
	movq	80(%rsp), %rax
	movdqu	(%r8,%rax), %xmm0
	movdqu	(%r12,%rax), %xmm2
	pcmpeqb	%xmm0, %xmm2
	pxor	%xmm1, %xmm2
	leaq	-16(%r15), %rax
	movdqu	(%r8,%rax), %xmm4
	movdqu	(%r12,%rax), %xmm0
	pcmpeqb	%xmm4, %xmm0
	pxor	%xmm1, %xmm0
	por	%xmm2, %xmm0
	por	%xmm3, %xmm0
	jmp	69f
67:
	xorl	%eax, %eax
	movq	%r15, %rcx
68:
	movdqu	(%r8,%rax), %xmm0
	movdqu	16(%r8,%rax), %xmm1
	movdqu	32(%r8,%rax), %xmm2
	movdqu	48(%r8,%rax), %xmm3
	movdqu	(%r12,%rax), %xmm4
	pcmpeqb	%xmm0, %xmm4
	movdqu	16(%r12,%rax), %xmm0
	pcmpeqb	%xmm1, %xmm0
	pand	%xmm4, %xmm0
	movdqu	32(%r12,%rax), %xmm1
	pcmpeqb	%xmm2, %xmm1
	movdqu	48(%r12,%rax), %xmm2
	pcmpeqb	%xmm3, %xmm2
	pand	%xmm1, %xmm2
	pand	%xmm0, %xmm2
	pmovmskb	%xmm2, %edx
	cmpl	$65535, %edx
	jne	70f
	addq	$64, %rax
	addq	$-64, %rcx
	cmpq	$65, %rcx
	jae	68b
	movdqu	-64(%r8,%r15), %xmm0
	movdqu	-48(%r8,%r15), %xmm1
	movdqu	-32(%r8,%r15), %xmm2
	movdqu	-16(%r8,%r15), %xmm3
	movdqu	-64(%r12,%r15), %xmm4
	pcmpeqb	%xmm0, %xmm4
	movdqu	-48(%r12,%r15), %xmm5
	pcmpeqb	%xmm1, %xmm5
	movdqu	-32(%r12,%r15), %xmm0
	pcmpeqb	%xmm2, %xmm0
	movdqu	-16(%r12,%r15), %xmm1
	pcmpeqb	%xmm3, %xmm1
	pcmpeqd	%xmm2, %xmm2
	pxor	%xmm2, %xmm1
	pxor	%xmm2, %xmm0
	por	%xmm1, %xmm0
	pxor	%xmm2, %xmm4
	pxor	%xmm2, %xmm5
	por	%xmm4, %xmm5
	por	%xmm0, %xmm5
	pxor	%xmm0, %xmm0
	pcmpgtb	%xmm5, %xmm0
69:
	ptest	1b(%rip), %xmm0
	je	43b
70:
	addq	$8, %r14
	cmpq	$4, %rbx
	jae	73f
	testq	%rbx, %rbx
	jne	77f
	.p2align	4
71:
	cmpq	$0, (%r14)
	je	19b
	addq	$16, %r14
	decq	8(%rsp)
	jne	71b
	jmp	43b
	.p2align	4
72:
	addq	$16, %r14
	decq	8(%rsp)
	je	43b
73:
	cmpq	%rbx, (%r14)
	jne	72b
	movq	-8(%r14), %rdi
	movl	(%rdi), %eax
	cmpl	(%r8), %eax
	jne	72b
	movq	%rbx, %rsi
	movq	%r8, %rdx
	callq	"core::cmp::slices::groups_equal::<i8,31'core::cmp::numbers::U8PartialEq{}>"
	movq	32(%rsp), %r8
	testb	%al, %al
	je	72b
	jmp	19b
74:
	xorl	%edx, %edx
75:
	cmpq	%rbx, %rdx
	jae	19b
76:
	addq	$16, %r14
	decq	8(%rsp)
	je	43b
77:
	cmpq	%rbx, (%r14)
	jne	76b
	movq	-8(%r14), %rcx
	movzbl	(%rcx), %eax
	cmpb	(%r8), %al
	jne	74b
	movb	$1, %al
	cmpq	$1, %rbx
	je	79f
	movzbl	1(%rcx), %esi
	movl	$1, %edx
	cmpb	1(%r8), %sil
	jne	75b
	cmpq	$2, %rbx
	je	79f
	movzbl	2(%rcx), %ecx
	movl	$2, %edx
	cmpb	2(%r8), %cl
	jne	75b
	jmp	79f
78:
	xorl	%eax, %eax
79:
	addq	$104, %rsp
	popq	%rbx
	popq	%r12
	popq	%r13
	popq	%r14
	popq	%r15
	popq	%rbp
	retq
80:
	.size	"clap::parser::validator::declares_conflict", 80b-"clap::parser::validator::declares_conflict"

	.section	.rodata.cst16,"aM",@progbits,16
	.p2align	4, 0x0
1:
	.zero	16,1
	.text
	.p2align	4
	.type	"clap::parser::validator::is_exclusive_arg",@function
"clap::parser::validator::is_exclusive_arg":
	testq	%rsi, %rsi
	je	9f
	pushq	%rbp
	pushq	%r15
	pushq	%r14
	pushq	%r13
	pushq	%r12
	pushq	%rbx
	leaq	-16(%rcx), %rax
	cmpq	$32, %rax
	movl	$32, %r8d
	cmovbq	%rax, %r8
	leaq	-8(%rcx), %r9
	cmpq	$8, %r9
	movl	$8, %r10d
	cmovbq	%r9, %r10
	cmpq	$16, %r9
	movl	$16, %r11d
	cmovbq	%r9, %r11
	movq	%rcx, %rbx
	shrq	%rbx
	xorl	%r14d, %r14d
	jmp	3f
2:
	movl	(%r15), %r12d
	movl	-4(%r15,%rcx), %r15d
	shlq	$32, %r15
	orq	%r12, %r15
	bswapq	%r15
	movl	(%rdx), %r13d
	movl	-4(%rdx,%rcx), %r12d
	shlq	$32, %r12
	orq	%r13, %r12
	bswapq	%r12
	cmpq	%r12, %r15
	jne	8f
	jmp	10f
	.p2align	4
3:
	imulq	$608, %r14, %r15
	cmpb	$1, 603(%rdi,%r15)
	jne	8f
	cmpq	%rcx, 8(%rdi,%r15)
	jne	8f
	movq	(%rdi,%r15), %r15
	cmpq	$7, %rcx
	ja	4f
	cmpq	$4, %rcx
	jae	2b
	testq	%rcx, %rcx
	je	10f
	movzbl	(%r15), %ebp
	movzbl	(%r15,%rbx), %r12d
	shll	$16, %ebp
	shll	$8, %r12d
	orl	%ebp, %r12d
	movzbl	-1(%r15,%rcx), %r15d
	orq	%r12, %r15
	movzbl	(%rdx), %ebp
	movzbl	(%rdx,%rbx), %r13d
	shll	$16, %ebp
	shll	$8, %r13d
	orl	%ebp, %r13d
	movzbl	-1(%rdx,%rcx), %r12d
	orq	%r13, %r12
	cmpq	%r12, %r15
	jne	8f
	jmp	10f
4:
	cmpq	$32, %rcx
	ja	5f
	movq	(%r15), %r12
	cmpq	(%rdx), %r12
	jne	8f
	movq	(%rdx,%r10), %r12
	cmpq	%r12, (%r15,%r10)
	jne	8f
	movq	(%rdx,%r11), %r12
	cmpq	%r12, (%r15,%r11)
	jne	8f
	movq	(%rdx,%r9), %r12
	cmpq	%r12, (%r15,%r9)
	jne	8f
	jmp	10f
5:
	cmpq	$65, %rcx
	jae	6f
	movdqu	(%r15), %xmm0
	movdqu	16(%r15), %xmm1
	movdqu	(%rdx), %xmm2
	pcmpeqb	%xmm0, %xmm2
	movdqu	16(%rdx), %xmm3
	pcmpeqb	%xmm1, %xmm3
	pcmpeqd	%xmm1, %xmm1
	pxor	%xmm1, %xmm2
	pxor	%xmm1, %xmm3
	por	%xmm2, %xmm3
	movdqu	(%r15,%r8), %xmm0
	movdqu	(%rdx,%r8), %xmm2
	pcmpeqb	%xmm0, %xmm2
	pxor	%xmm1, %xmm2
	movdqu	(%r15,%rax), %xmm4
	movdqu	(%rdx,%rax), %xmm0
	pcmpeqb	%xmm4, %xmm0
	pxor	%xmm1, %xmm0
	por	%xmm2, %xmm0
	por	%xmm3, %xmm0
	ptest	1b(%rip), %xmm0
	jne	8f
	jmp	10f
6:
	xorl	%r12d, %r12d
	movq	%rcx, %r13
	.p2align	4
7:
	movdqu	(%r15,%r12), %xmm0
	movdqu	16(%r15,%r12), %xmm1
	movdqu	32(%r15,%r12), %xmm2
	movdqu	48(%r15,%r12), %xmm3
	movdqu	(%rdx,%r12), %xmm4
	pcmpeqb	%xmm0, %xmm4
	movdqu	16(%rdx,%r12), %xmm0
	pcmpeqb	%xmm1, %xmm0
	pand	%xmm4, %xmm0
	movdqu	32(%rdx,%r12), %xmm1
	pcmpeqb	%xmm2, %xmm1
	movdqu	48(%rdx,%r12), %xmm2
	pcmpeqb	%xmm3, %xmm2
	pand	%xmm1, %xmm2
	pand	%xmm0, %xmm2
	pmovmskb	%xmm2, %ebp
	cmpl	$65535, %ebp
	jne	8f
	addq	$64, %r12
	addq	$-64, %r13
	cmpq	$65, %r13
	jae	7b
	movdqu	-64(%r15,%rcx), %xmm0
	movdqu	-48(%r15,%rcx), %xmm1
	movdqu	-32(%r15,%rcx), %xmm2
	movdqu	-16(%r15,%rcx), %xmm3
	movdqu	-64(%rdx,%rcx), %xmm4
	pcmpeqb	%xmm0, %xmm4
	movdqu	-48(%rdx,%rcx), %xmm5
	pcmpeqb	%xmm1, %xmm5
	movdqu	-32(%rdx,%rcx), %xmm0
	pcmpeqb	%xmm2, %xmm0
	movdqu	-16(%rdx,%rcx), %xmm1
	pcmpeqb	%xmm3, %xmm1
	pcmpeqd	%xmm2, %xmm2
	pxor	%xmm2, %xmm1
	pxor	%xmm2, %xmm0
	por	%xmm1, %xmm0
	pxor	%xmm2, %xmm4
	pxor	%xmm2, %xmm5
	por	%xmm4, %xmm5
	por	%xmm0, %xmm5
	pxor	%xmm0, %xmm0
	pcmpgtb	%xmm5, %xmm0
	ptest	1b(%rip), %xmm0
	je	10f
	.p2align	4
8:
	incq	%r14
	cmpq	%rsi, %r14
	jne	3b
	xorl	%eax, %eax
	jmp	11f
9:
	xorl	%eax, %eax
	retq
10:
	movb	$1, %al
11:
	popq	%rbx
	popq	%r12
	popq	%r13
	popq	%r14
	popq	%r15
	popq	%rbp
	retq
12:
	.size	"clap::parser::validator::is_exclusive_arg", 12b-"clap::parser::validator::is_exclusive_arg"

	.text
	.p2align	4
	.type	"clap::parser::validator::is_excused",@function
"clap::parser::validator::is_excused":
	pushq	%rbp
	pushq	%r15
	pushq	%r14
	pushq	%r13
	pushq	%r12
	pushq	%rbx
	subq	$40, %rsp
	movq	%r8, %r13
	movq	%rcx, %rbp
	movq	%rdx, %r14
	movq	%rsi, %r12
	movq	%rdi, %r15
	callq	"clap::parser::validator::is_in_conflict"
	movb	$1, %bl
	testb	%al, %al
	jne	18f
	movq	632(%r15), %rax
	movq	%rax, 16(%rsp)
	testq	%rax, %rax
	je	17f
	movq	624(%r15), %rax
	movq	%rax, (%rsp)
	cmpq	$4, %r13
	movq	%r15, 8(%rsp)
	jae	12f
	xorl	%r15d, %r15d
	testq	%r13, %r13
	jne	3f
	jmp	10f
	.p2align	4
1:
	movq	(%rsp), %rdx
	movq	(%rdx,%rax), %rcx
	movq	8(%rdx,%rax), %r8
	movq	8(%rsp), %rdi
	movq	%r12, %rsi
	movq	%r14, %rdx
	callq	"clap::parser::validator::is_in_conflict"
	testb	%al, %al
	jne	18f
2:
	incq	%r15
	cmpq	16(%rsp), %r15
	je	17f
3:
	imulq	$104, %r15, %rax
	movq	(%rsp), %rcx
	movq	24(%rcx,%rax), %rcx
	testq	%rcx, %rcx
	je	2b
	movq	(%rsp), %rdx
	movq	16(%rdx,%rax), %rdx
	addq	$8, %rdx
	jmp	7f
	.p2align	4
4:
	xorl	%edi, %edi
5:
	cmpq	%r13, %rdi
	jae	1b
6:
	addq	$16, %rdx
	decq	%rcx
	je	2b
7:
	cmpq	%r13, (%rdx)
	jne	6b
	movq	-8(%rdx), %rsi
	movzbl	(%rsi), %edi
	cmpb	(%rbp), %dil
	jne	4b
	cmpq	$1, %r13
	je	1b
	movzbl	1(%rsi), %r8d
	movl	$1, %edi
	cmpb	1(%rbp), %r8b
	jne	5b
	cmpq	$2, %r13
	je	1b
	movzbl	2(%rsi), %esi
	movl	$2, %edi
	cmpb	2(%rbp), %sil
	jne	5b
	jmp	1b
	.p2align	4
8:
	movq	(%rsp), %rdx
	movq	(%rdx,%rax), %rcx
	movq	8(%rdx,%rax), %r8
	movq	8(%rsp), %rdi
	movq	%r12, %rsi
	movq	%r14, %rdx
	callq	"clap::parser::validator::is_in_conflict"
	testb	%al, %al
	jne	18f
9:
	incq	%r15
	cmpq	16(%rsp), %r15
	je	17f
10:
	imulq	$104, %r15, %rax
	movq	(%rsp), %rcx
	movq	24(%rcx,%rax), %rcx
	testq	%rcx, %rcx
	je	9b
	movq	(%rsp), %rdx
	movq	16(%rdx,%rax), %rdx
	addq	$8, %rdx
	.p2align	4
11:
	cmpq	$0, (%rdx)
	je	8b
	addq	$16, %rdx
	decq	%rcx
	jne	11b
	jmp	9b
12:
	movq	%r12, 24(%rsp)
	movq	%r14, 32(%rsp)
	xorl	%r15d, %r15d
	jmp	14f
	.p2align	4
13:
	incq	%r15
	cmpq	16(%rsp), %r15
	je	17f
14:
	imulq	$104, %r15, %r12
	movq	(%rsp), %rax
	movq	24(%rax,%r12), %rbx
	testq	%rbx, %rbx
	je	13b
	movq	(%rsp), %rax
	movq	16(%rax,%r12), %r14
	addq	$8, %r14
	jmp	16f
	.p2align	4
15:
	addq	$16, %r14
	decq	%rbx
	je	13b
16:
	cmpq	%r13, (%r14)
	jne	15b
	movq	-8(%r14), %rdi
	movl	(%rdi), %eax
	cmpl	(%rbp), %eax
	jne	15b
	movq	%r13, %rsi
	movq	%rbp, %rdx
	callq	"core::cmp::slices::groups_equal::<i8,31'core::cmp::numbers::U8PartialEq{}>"
	testb	%al, %al
	je	15b
	movq	(%rsp), %rax
	movq	(%rax,%r12), %rcx
	movq	8(%rax,%r12), %r8
	movq	8(%rsp), %rdi
	movq	24(%rsp), %rsi
	movq	32(%rsp), %rdx
	callq	"clap::parser::validator::is_in_conflict"
	testb	%al, %al
	je	13b
	movb	$1, %bl
	jmp	18f
17:
	xorl	%ebx, %ebx
18:
	movl	%ebx, %eax
	addq	$40, %rsp
	popq	%rbx
	popq	%r12
	popq	%r13
	popq	%r14
	popq	%r15
	popq	%rbp
	retq
19:
	.size	"clap::parser::validator::is_excused", 19b-"clap::parser::validator::is_excused"

	.section	.rodata.cst16,"aM",@progbits,16
	.p2align	4, 0x0
1:
	.zero	16,1
	.text
	.p2align	4
	.type	"clap::parser::validator::is_in_conflict",@function
"clap::parser::validator::is_in_conflict":
	pushq	%rbp
	pushq	%r15
	pushq	%r14
	pushq	%r13
	pushq	%r12
	pushq	%rbx
	subq	$72, %rsp
	movq	%rdx, 56(%rsp)
	testq	%rdx, %rdx
	je	11f
	movq	%r8, %r14
	movq	%rcx, %rbp
	movq	%rsi, %r15
	movq	%rdi, %rbx
	leaq	-16(%r8), %rax
	cmpq	$32, %rax
	movl	$32, %ecx
	movq	%rax, 16(%rsp)
	cmovbq	%rax, %rcx
	movq	%rcx, 8(%rsp)
	leaq	-8(%r8), %rax
	cmpq	$8, %rax
	movl	$8, %ecx
	cmovbq	%rax, %rcx
	movq	%rcx, 48(%rsp)
	cmpq	$16, %rax
	movl	$16, %ecx
	movq	%rax, 32(%rsp)
	cmovbq	%rax, %rcx
	movq	%rcx, 40(%rsp)
	movq	%r8, %rax
	shrq	%rax
	movq	%rax, 24(%rsp)
	xorl	%r11d, %r11d
	jmp	3f
	.p2align	4
2:
	incq	%r11
	cmpq	56(%rsp), %r11
	je	11f
3:
	imulq	$104, %r11, %rax
	cmpb	$1, 16(%r15,%rax)
	jne	4f
	cmpb	$1, 17(%r15,%rax)
	jne	2b
4:
	movq	(%r15,%rax), %r12
	movq	8(%r15,%rax), %r13
	cmpq	%r14, %r13
	jne	10f
	cmpq	$7, %r14
	ja	5f
	cmpq	$4, %r14
	jb	6f
	movl	(%r12), %edx
	movl	-4(%r12,%r14), %eax
	shlq	$32, %rax
	orq	%rdx, %rax
	bswapq	%rax
	movl	(%rbp), %edx
	movl	-4(%rbp,%r14), %r10d
	shlq	$32, %r10
	orq	%rdx, %r10
	bswapq	%r10
	cmpq	%r10, %rax
	je	2b
	jmp	10f
5:
	cmpq	$32, %r14
	ja	7f
	movq	(%r12), %rax
	cmpq	(%rbp), %rax
	jne	10f
	movq	48(%rsp), %rdx
	movq	(%rbp,%rdx), %rax
	cmpq	%rax, (%r12,%rdx)
	jne	10f
	movq	40(%rsp), %rdx
	movq	(%rbp,%rdx), %rax
	cmpq	%rax, (%r12,%rdx)
	jne	10f
	movq	32(%rsp), %rdx
	movq	(%rbp,%rdx), %rax
	cmpq	%rax, (%r12,%rdx)
	je	2b
	jmp	10f
6:
	testq	%r14, %r14
	je	2b
	movzbl	(%r12), %eax
	movq	24(%rsp), %rdx
	movzbl	(%r12,%rdx), %r10d
	shll	$16, %eax
	shll	$8, %r10d
	orl	%eax, %r10d
	movzbl	-1(%r12,%r14), %eax
	orq	%r10, %rax
	movzbl	(%rbp), %r10d
	movzbl	(%rbp,%rdx), %edx
	shll	$16, %r10d
	shll	$8, %edx
	orl	%r10d, %edx
	movzbl	-1(%rbp,%r14), %r10d
	orq	%rdx, %r10
	cmpq	%r10, %rax
	je	2b
	jmp	10f
7:
	cmpq	$65, %r14
	jae	8f
	movdqu	(%r12), %xmm0
	movdqu	16(%r12), %xmm1
	movdqu	(%rbp), %xmm2
	pcmpeqb	%xmm0, %xmm2
	movdqu	16(%rbp), %xmm3
	pcmpeqb	%xmm1, %xmm3
	pcmpeqd	%xmm1, %xmm1
	pxor	%xmm1, %xmm2
	pxor	%xmm1, %xmm3
	por	%xmm2, %xmm3
	movq	8(%rsp), %rax
	movdqu	(%r12,%rax), %xmm0
	movdqu	(%rbp,%rax), %xmm2
	pcmpeqb	%xmm0, %xmm2
	pxor	%xmm1, %xmm2
	movq	16(%rsp), %rax
	movdqu	(%r12,%rax), %xmm4
	movdqu	(%rbp,%rax), %xmm0
	pcmpeqb	%xmm4, %xmm0
	pxor	%xmm1, %xmm0
	por	%xmm2, %xmm0
	por	%xmm3, %xmm0
	ptest	1b(%rip), %xmm0
	jne	10f
	jmp	2b
8:
	xorl	%eax, %eax
	movq	%r14, %r10
	.p2align	4
9:
	movdqu	(%r12,%rax), %xmm0
	movdqu	16(%r12,%rax), %xmm1
	movdqu	32(%r12,%rax), %xmm2
	movdqu	48(%r12,%rax), %xmm3
	movdqu	(%rbp,%rax), %xmm4
	pcmpeqb	%xmm0, %xmm4
	movdqu	16(%rbp,%rax), %xmm0
	pcmpeqb	%xmm1, %xmm0
	pand	%xmm4, %xmm0
	movdqu	32(%rbp,%rax), %xmm1
	pcmpeqb	%xmm2, %xmm1
	movdqu	48(%rbp,%rax), %xmm2
	pcmpeqb	%xmm3, %xmm2
	pand	%xmm1, %xmm2
	pand	%xmm0, %xmm2
	pmovmskb	%xmm2, %edx
	cmpl	$65535, %edx
	jne	10f
	addq	$64, %rax
	addq	$-64, %r10
	cmpq	$65, %r10
	jae	9b
	movdqu	-64(%r12,%r14), %xmm0
	movdqu	-48(%r12,%r14), %xmm1
	movdqu	-32(%r12,%r14), %xmm2
	movdqu	-16(%r12,%r14), %xmm3
	movdqu	-64(%rbp,%r14), %xmm4
	pcmpeqb	%xmm0, %xmm4
	movdqu	-48(%rbp,%r14), %xmm5
	pcmpeqb	%xmm1, %xmm5
	movdqu	-32(%rbp,%r14), %xmm0
	pcmpeqb	%xmm2, %xmm0
	movdqu	-16(%rbp,%r14), %xmm1
	pcmpeqb	%xmm3, %xmm1
	pcmpeqd	%xmm2, %xmm2
	pxor	%xmm2, %xmm1
	pxor	%xmm2, %xmm0
	por	%xmm1, %xmm0
	pxor	%xmm2, %xmm4
	pxor	%xmm2, %xmm5
	por	%xmm4, %xmm5
	por	%xmm0, %xmm5
	pxor	%xmm0, %xmm0
	pcmpgtb	%xmm5, %xmm0
	ptest	1b(%rip), %xmm0
	je	2b
	.p2align	4
10:
	movq	%r11, 64(%rsp)
	movq	%rbx, %rdi
	movq	%rbp, %rsi
	movq	%r14, %rdx
	movq	%r12, %rcx
	movq	%r13, %r8
	callq	"clap::parser::validator::declares_conflict"
	movb	$1, %cl
	movl	%ecx, 4(%rsp)
	testb	%al, %al
	jne	12f
	movq	%rbx, %rdi
	movq	%r12, %rsi
	movq	%r13, %rdx
	movq	%rbp, %rcx
	movq	%r14, %r8
	callq	"clap::parser::validator::declares_conflict"
	testb	%al, %al
	movq	64(%rsp), %r11
	je	2b
	jmp	12f
11:
	movl	$0, 4(%rsp)
12:
	movl	4(%rsp), %eax
	addq	$72, %rsp
	popq	%rbx
	popq	%r12
	popq	%r13
	popq	%r14
	popq	%r15
	popq	%rbp
	retq
13:
	.size	"clap::parser::validator::is_in_conflict", 13b-"clap::parser::validator::is_in_conflict"

	.section	.rodata.cst16,"aM",@progbits,16
	.p2align	4, 0x0
1:
	.byte	10,32,32,91,115,117,98,99,111,109,109,97,110,100,115,58
2:
	.zero	16,1
	.text
	.p2align	4
	.type	"clap::parser::validator::validate",@function
"clap::parser::validator::validate":
	pushq	%rbp
	pushq	%r15
	pushq	%r14
	pushq	%r13
	pushq	%r12
	pushq	%rbx
	subq	$776, %rsp
	movl	%ecx, %ebx
	movq	%rdx, %r12
	movq	%rsi, %r13
	movq	%rdi, %r15
	xorps	%xmm0, %xmm0
	movaps	%xmm0, 752(%rsp)
	movq	$0, 768(%rsp)
	movaps	%xmm0, 336(%rsp)
	movq	$0, 352(%rsp)
	movaps	%xmm0, 672(%rsp)
	movaps	%xmm0, 688(%rsp)
	movaps	%xmm0, 528(%rsp)
	movq	$0, 544(%rsp)
	movaps	%xmm0, 480(%rsp)
	movq	$0, 496(%rsp)
	movaps	%xmm0, 448(%rsp)
	movq	$0, 464(%rsp)
	movaps	%xmm0, 704(%rsp)
	movaps	%xmm0, 720(%rsp)
	movaps	%xmm0, 736(%rsp)
	leaq	672(%rsp), %rdi
	callq	"clap::builder::command::Command::required_ids"
	cmpb	$0, 672(%rsp)
	je	3f
	movb	$1, (%r15)
	movb	$16, 8(%r15)
	xorps	%xmm0, %xmm0
	movups	%xmm0, 16(%r15)
	movups	%xmm0, 32(%r15)
	jmp	58f
3:
	movq	696(%rsp), %rax
	movq	%rax, 352(%rsp)
	movdqu	680(%rsp), %xmm0
	movdqa	%xmm0, 336(%rsp)
	testb	%bl, %bl
	jne	8f
	cmpb	$1, 659(%r13)
	jne	8f
	movq	8(%r12), %rax
	testq	%rax, %rax
	je	5f
	movq	(%r12), %rcx
	addq	$17, %rcx
	.p2align	4
4:
	cmpb	$1, -1(%rcx)
	jne	8f
	testb	$1, (%rcx)
	jne	8f
	addq	$104, %rcx
	decq	%rax
	jne	4b
5:
	pxor	%xmm0, %xmm0
	movdqa	%xmm0, 144(%rsp)
	movdqa	%xmm0, 128(%rsp)
	leaq	128(%rsp), %rdi
	movq	%r13, %rsi
	xorl	%edx, %edx
	callq	"clap::output::help::render"
	cmpb	$0, 128(%rsp)
	je	39f
	pxor	%xmm0, %xmm0
	movdqa	%xmm0, 528(%rsp)
	movq	$0, 544(%rsp)
	movb	$16, %bpl
	xorl	%ebx, %ebx
	cmpq	$0, 352(%rsp)
	je	7f
6:
	movq	336(%rsp), %rdi
	callq	rattle_dealloc@PLT
7:
	movb	$1, (%r15)
	movb	%bpl, 8(%r15)
	movq	%rbx, 16(%r15)
	movaps	528(%rsp), %xmm0
	movups	%xmm0, 24(%r15)
	movq	544(%rsp), %rax
	jmp	57f
8:
	pxor	%xmm0, %xmm0
	movdqa	%xmm0, 528(%rsp)
	movq	$0, 544(%rsp)
	movq	336(%rsp), %rbp
	movq	344(%rsp), %rax
	movdqa	%xmm0, 368(%rsp)
	movdqa	%xmm0, 384(%rsp)
	testb	%bl, %bl
	movq	%r13, 40(%rsp)
	jne	9f
	cmpb	$1, 662(%r13)
	jne	9f
	movq	$1, 200(%rsp)
	movq	%rbp, 208(%rsp)
	movq	%rax, 216(%rsp)
	leaq	368(%rsp), %rdi
	leaq	8(%rsp), %rdx
	leaq	200(%rsp), %r8
	movq	%r13, %rsi
	xorl	%ecx, %ecx
	callq	"clap::output::usage::with_title"
	cmpb	$0, 368(%rsp)
	jne	54f
	movq	376(%rsp), %rax
	movq	%rax, 16(%rsp)
	movq	384(%rsp), %rax
	movq	%rax, 24(%rsp)
	movq	392(%rsp), %rbx
	leaq	88(%r13), %rax
	leaq	8(%r13), %rcx
	cmpb	$1, 80(%r13)
	cmovneq	%r13, %rax
	leaq	96(%r13), %rdx
	cmovneq	%rcx, %rdx
	movq	(%rdx), %r14
	movq	(%rax), %r12
	pxor	%xmm0, %xmm0
	movdqa	%xmm0, 96(%rsp)
	movq	$0, 112(%rsp)
	movl	$7, %edi
	movl	$1, %esi
	callq	rattle_alloc@PLT
	testb	$1, %al
	je	53f
	leaq	.Lc9c10f50e645(%rip), %rax
	movq	%rdx, %rcx
	subq	%rax, %rcx
	cmpq	$6, %rcx
	ja	49f
	movl	$1869771365, (%rdx)
	movw	$14962, 4(%rdx)
	movb	$32, 6(%rdx)
	jmp	50f
9:
	movl	%ebx, 520(%rsp)
	movdqa	%xmm0, 480(%rsp)
	movq	$0, 496(%rsp)
	movdqa	%xmm0, 608(%rsp)
	movq	$0, 624(%rsp)
	movq	8(%r12), %rcx
	movq	%rcx, 240(%rsp)
	testq	%rcx, %rcx
	je	44f
	movq	%rax, 568(%rsp)
	movq	%rbp, 248(%rsp)
	movq	%r15, 32(%rsp)
	movq	%r12, 312(%rsp)
	movq	(%r12), %rax
	movq	%rax, 224(%rsp)
	addq	$17, %rax
	movq	%rax, 328(%rsp)
	xorl	%eax, %eax
	jmp	11f
	.p2align	4
10:
	movq	280(%rsp), %rax
	incq	%rax
	cmpq	240(%rsp), %rax
	je	40f
11:
	movq	%rax, 280(%rsp)
	imulq	$104, %rax, %rax
	movq	224(%rsp), %rcx
	cmpb	$1, 16(%rcx,%rax)
	jne	12f
	movq	224(%rsp), %rcx
	cmpb	$1, 17(%rcx,%rax)
	jne	10b
12:
	movq	224(%rsp), %rcx
	movq	(%rcx,%rax), %rbx
	movq	8(%rcx,%rax), %rbp
	movq	40(%rsp), %rax
	movq	576(%rax), %rdi
	movq	584(%rax), %rsi
	movq	%rdi, 16(%rsp)
	movq	%rsi, 24(%rsp)
	movq	%rbx, %rdx
	movq	%rbp, %rcx
	callq	"clap::parser::validator::is_exclusive_arg"
	testb	%al, %al
	je	10b
	leaq	-8(%rbp), %rax
	leaq	-16(%rbp), %r14
	cmpq	$32, %r14
	movl	$32, %ecx
	cmovbq	%r14, %rcx
	cmpq	$8, %rax
	movl	$8, %edx
	cmovbq	%rax, %rdx
	movq	%rdx, 88(%rsp)
	cmpq	$16, %rax
	movl	$16, %edx
	cmovbq	%rax, %rdx
	movq	%rdx, 320(%rsp)
	movq	%rbp, %rax
	subq	$8, %rax
	movq	%rax, 120(%rsp)
	jae	17f
	movq	%rbp, %rax
	shrq	%rax
	movq	%rax, 88(%rsp)
	movq	328(%rsp), %r12
	movq	240(%rsp), %r14
	jmp	15f
13:
	movl	(%r15), %ecx
	movl	-4(%r15,%rbp), %eax
	shlq	$32, %rax
	orq	%rcx, %rax
	bswapq	%rax
	movl	(%rbx), %edx
	movl	-4(%rbx,%rbp), %ecx
	shlq	$32, %rcx
	orq	%rdx, %rcx
	bswapq	%rcx
	cmpq	%rcx, %rax
	jne	27f
	.p2align	4
14:
	addq	$104, %r12
	decq	%r14
	je	10b
15:
	cmpb	$1, -1(%r12)
	jne	16f
	cmpb	$1, (%r12)
	jne	14b
16:
	movq	-17(%r12), %r15
	movq	-9(%r12), %r13
	movq	16(%rsp), %rdi
	movq	24(%rsp), %rsi
	movq	%r15, %rdx
	movq	%r13, %rcx
	callq	"clap::builder::command::Command::has_arg"
	testb	%al, %al
	je	14b
	cmpq	%rbp, %r13
	jne	27f
	cmpq	$3, %rbp
	ja	13b
	testq	%rbp, %rbp
	je	14b
	movzbl	(%r15), %eax
	movq	88(%rsp), %rdx
	movzbl	(%r15,%rdx), %ecx
	shll	$16, %eax
	shll	$8, %ecx
	orl	%eax, %ecx
	movzbl	-1(%r15,%rbp), %eax
	orq	%rcx, %rax
	movzbl	(%rbx), %ecx
	movzbl	(%rbx,%rdx), %edx
	shll	$16, %ecx
	shll	$8, %edx
	orl	%ecx, %edx
	movzbl	-1(%rbx,%rbp), %ecx
	orq	%rdx, %rcx
	cmpq	%rcx, %rax
	je	14b
	jmp	27f
17:
	cmpq	$33, %rbp
	jae	21f
	movq	328(%rsp), %r12
	movq	240(%rsp), %r14
	jmp	19f
	.p2align	4
18:
	addq	$104, %r12
	decq	%r14
	je	10b
19:
	cmpb	$1, -1(%r12)
	jne	20f
	cmpb	$1, (%r12)
	jne	18b
20:
	movq	-17(%r12), %r15
	movq	-9(%r12), %r13
	movq	16(%rsp), %rdi
	movq	24(%rsp), %rsi
	movq	%r15, %rdx
	movq	%r13, %rcx
	callq	"clap::builder::command::Command::has_arg"
	testb	%al, %al
	je	18b
	cmpq	%rbp, %r13
	jne	27f
	movq	(%r15), %rax
	cmpq	(%rbx), %rax
	jne	27f
	movq	88(%rsp), %rcx
	movq	(%rbx,%rcx), %rax
	cmpq	%rax, (%r15,%rcx)
	jne	27f
	movq	320(%rsp), %rcx
	movq	(%rbx,%rcx), %rax
	cmpq	%rax, (%r15,%rcx)
	jne	27f
	movq	120(%rsp), %rcx
	movq	(%rbx,%rcx), %rax
	cmpq	%rax, (%r15,%rcx)
	je	18b
	jmp	27f
21:
	movq	%rcx, 88(%rsp)
	xorl	%r12d, %r12d
	jmp	24f
22:
	movdqu	(%r15), %xmm0
	movdqu	16(%r15), %xmm1
	movdqu	(%rbx), %xmm2
	pcmpeqb	%xmm0, %xmm2
	movdqu	16(%rbx), %xmm3
	pcmpeqb	%xmm1, %xmm3
	pcmpeqd	%xmm1, %xmm1
	pxor	%xmm1, %xmm2
	pxor	%xmm1, %xmm3
	por	%xmm2, %xmm3
	movq	88(%rsp), %rax
	movdqu	(%r15,%rax), %xmm0
	movdqu	(%rbx,%rax), %xmm2
	pcmpeqb	%xmm0, %xmm2
	pxor	%xmm1, %xmm2
	movdqu	(%r15,%r14), %xmm4
	movdqu	(%rbx,%r14), %xmm0
	pcmpeqb	%xmm4, %xmm0
	pxor	%xmm1, %xmm0
	por	%xmm2, %xmm0
	por	%xmm3, %xmm0
	ptest	2b(%rip), %xmm0
	jne	27f
	.p2align	4
23:
	incq	%r12
	cmpq	240(%rsp), %r12
	je	10b
24:
	imulq	$104, %r12, %rax
	movq	224(%rsp), %rcx
	cmpb	$1, 16(%rcx,%rax)
	jne	25f
	movq	224(%rsp), %rcx
	cmpb	$1, 17(%rcx,%rax)
	jne	23b
25:
	movq	224(%rsp), %rcx
	movq	(%rcx,%rax), %r15
	movq	8(%rcx,%rax), %r13
	movq	16(%rsp), %rdi
	movq	24(%rsp), %rsi
	movq	%r15, %rdx
	movq	%r13, %rcx
	callq	"clap::builder::command::Command::has_arg"
	testb	%al, %al
	je	23b
	cmpq	%rbp, %r13
	jne	27f
	cmpq	$65, %rbp
	jb	22b
	xorl	%eax, %eax
	movq	%rbp, %rcx
	.p2align	4
26:
	movdqu	(%r15,%rax), %xmm0
	movdqu	16(%r15,%rax), %xmm1
	movdqu	32(%r15,%rax), %xmm2
	movdqu	48(%r15,%rax), %xmm3
	movdqu	(%rbx,%rax), %xmm4
	pcmpeqb	%xmm0, %xmm4
	movdqu	16(%rbx,%rax), %xmm0
	pcmpeqb	%xmm1, %xmm0
	pand	%xmm4, %xmm0
	movdqu	32(%rbx,%rax), %xmm1
	pcmpeqb	%xmm2, %xmm1
	movdqu	48(%rbx,%rax), %xmm2
	pcmpeqb	%xmm3, %xmm2
	pand	%xmm1, %xmm2
	pand	%xmm0, %xmm2
	pmovmskb	%xmm2, %edx
	cmpl	$65535, %edx
	jne	27f
	addq	$64, %rax
	addq	$-64, %rcx
	cmpq	$65, %rcx
	jae	26b
	movdqu	-64(%r15,%rbp), %xmm0
	movdqu	-48(%r15,%rbp), %xmm1
	movdqu	-32(%r15,%rbp), %xmm2
	movdqu	-16(%r15,%rbp), %xmm3
	movdqu	-64(%rbx,%rbp), %xmm4
	pcmpeqb	%xmm0, %xmm4
	movdqu	-48(%rbx,%rbp), %xmm5
	pcmpeqb	%xmm1, %xmm5
	movdqu	-32(%rbx,%rbp), %xmm0
	pcmpeqb	%xmm2, %xmm0
	movdqu	-16(%rbx,%rbp), %xmm1
	pcmpeqb	%xmm3, %xmm1
	pcmpeqd	%xmm2, %xmm2
	pxor	%xmm2, %xmm1
	pxor	%xmm2, %xmm0
	por	%xmm1, %xmm0
	pxor	%xmm2, %xmm4
	pxor	%xmm2, %xmm5
	por	%xmm4, %xmm5
	por	%xmm0, %xmm5
	pxor	%xmm0, %xmm0
	pcmpgtb	%xmm5, %xmm0
	ptest	2b(%rip), %xmm0
	je	23b
27:
	pxor	%xmm0, %xmm0
	movdqa	%xmm0, 368(%rsp)
	movdqa	%xmm0, 384(%rsp)
	movdqa	%xmm0, 400(%rsp)
	movdqa	%xmm0, 48(%rsp)
	movdqa	%xmm0, 64(%rsp)
	movq	16(%rsp), %rdi
	movq	24(%rsp), %rsi
	movq	%rbx, %rdx
	movq	%rbp, %rcx
	callq	"clap::builder::command::Command::find"
	cmpb	$1, %al
	jne	28f
	pxor	%xmm0, %xmm0
	movdqu	%xmm0, 136(%rsp)
	movl	$0, 185(%rsp)
	movl	$0, 188(%rsp)
	leaq	8(%rsp), %rax
	movq	%rax, 128(%rsp)
	movl	$32, 152(%rsp)
	movq	$0, 156(%rsp)
	movl	$0, 164(%rsp)
	movq	$-1, 168(%rsp)
	movq	$0, 176(%rsp)
	movb	$0, 184(%rsp)
	movl	152(%rsp), %eax
	movl	%eax, 96(%rsp)
	movq	156(%rsp), %rax
	movq	%rax, 100(%rsp)
	movl	164(%rsp), %eax
	movl	%eax, 108(%rsp)
	movq	$-1, 112(%rsp)
	movl	$32, 152(%rsp)
	movq	$0, 156(%rsp)
	movl	$0, 164(%rsp)
	movq	$0, 296(%rsp)
	movq	%rdx, 288(%rsp)
	leaq	288(%rsp), %rdi
	leaq	128(%rsp), %rsi
	callq	"clap::builder::arg::StylizedDisplay::fmt::<#86a172efa8724158>"
	movdqa	96(%rsp), %xmm0
	movdqu	%xmm0, 152(%rsp)
	movq	112(%rsp), %rcx
	movq	%rcx, 168(%rsp)
	testb	%al, %al
	je	29f
	cmpq	$0, 144(%rsp)
	movq	32(%rsp), %r15
	je	35f
	movq	128(%rsp), %rdi
	jmp	31f
28:
	leaq	8(%rsp), %rbx
	movb	$1, %bpl
	xorl	%r14d, %r14d
	jmp	30f
29:
	movq	128(%rsp), %rbx
	movq	136(%rsp), %r14
	cmpq	$0, 144(%rsp)
	sete	%bpl
30:
	movq	32(%rsp), %r15
	movq	$1, 200(%rsp)
	movq	248(%rsp), %rax
	movq	%rax, 208(%rsp)
	movq	568(%rsp), %rax
	movq	%rax, 216(%rsp)
	leaq	48(%rsp), %rdi
	leaq	8(%rsp), %rdx
	leaq	200(%rsp), %r8
	movq	40(%rsp), %r13
	movq	%r13, %rsi
	xorl	%ecx, %ecx
	callq	"clap::output::usage::with_title"
	cmpb	$0, 48(%rsp)
	je	32f
	testb	%bpl, %bpl
	jne	35f
	movq	%rbx, %rdi
31:
	callq	rattle_dealloc@PLT
	jmp	35f
32:
	movq	56(%rsp), %r15
	movq	64(%rsp), %rax
	movq	$1, 416(%rsp)
	movq	%r15, 424(%rsp)
	movq	%rax, 432(%rsp)
	movq	72(%rsp), %r12
	leaq	416(%rsp), %rax
	movq	%rax, (%rsp)
	leaq	368(%rsp), %rdi
	leaq	8(%rsp), %r8
	movq	%r13, %rsi
	movq	%rbx, %rdx
	movq	%r14, %rcx
	xorl	%r9d, %r9d
	callq	"clap::error::Error::argument_conflict"
	testq	%r12, %r12
	je	33f
	movq	%r15, %rdi
	callq	rattle_dealloc@PLT
33:
	testb	%bpl, %bpl
	jne	34f
	movq	%rbx, %rdi
	callq	rattle_dealloc@PLT
34:
	movzbl	376(%rsp), %ebx
	movzbl	384(%rsp), %ebp
	movdqu	392(%rsp), %xmm0
	movdqa	%xmm0, 256(%rsp)
	movq	408(%rsp), %rax
	movq	%rax, 272(%rsp)
	cmpb	$0, 368(%rsp)
	movq	32(%rsp), %r15
	je	48f
35:
	pxor	%xmm0, %xmm0
	movdqa	%xmm0, 576(%rsp)
	movq	$0, 592(%rsp)
	movb	$16, %bl
	xorl	%ebp, %ebp
36:
	movaps	576(%rsp), %xmm0
	movaps	%xmm0, 448(%rsp)
	movq	592(%rsp), %rax
	movq	%rax, 464(%rsp)
37:
	movzbl	%bpl, %r14d
	cmpq	$0, 352(%rsp)
	je	38f
	movq	336(%rsp), %rdi
	callq	rattle_dealloc@PLT
38:
	movb	$1, (%r15)
	movb	%bl, 8(%r15)
	movq	%r14, 16(%r15)
	movaps	448(%rsp), %xmm0
	movups	%xmm0, 24(%r15)
	movq	464(%rsp), %rax
	jmp	57f
39:
	movq	152(%rsp), %rax
	movq	%rax, 544(%rsp)
	movdqu	136(%rsp), %xmm0
	movdqa	%xmm0, 528(%rsp)
	movl	$1, %ebx
	movb	$12, %bpl
	cmpq	$0, 352(%rsp)
	jne	6b
	jmp	7b
40:
	pxor	%xmm0, %xmm0
	movdqa	%xmm0, 576(%rsp)
	movq	$0, 592(%rsp)
	movq	224(%rsp), %r13
	movq	240(%rsp), %r14
	movq	32(%rsp), %r15
	movq	312(%rsp), %r12
	jmp	42f
	.p2align	4
41:
	addq	$104, %r13
	decq	%r14
	je	44f
42:
	cmpb	$1, 16(%r13)
	jne	43f
	cmpb	$1, 17(%r13)
	jne	41b
43:
	movq	(%r13), %rbp
	movq	8(%r13), %rbx
	movq	40(%rsp), %rax
	movq	576(%rax), %rdi
	movq	584(%rax), %rsi
	movq	%rbp, %rdx
	movq	%rbx, %rcx
	callq	"clap::builder::command::Command::has_arg"
	testb	%al, %al
	je	41b
	movq	40(%rsp), %rdi
	movq	224(%rsp), %rsi
	movq	240(%rsp), %rdx
	movq	%rbp, %rcx
	movq	%rbx, %r8
	callq	"clap::parser::validator::is_in_conflict"
	testb	%al, %al
	je	41b
	leaq	8(%rsp), %rax
	movq	%rax, 24(%rsp)
	movq	%rax, 128(%rsp)
	pxor	%xmm0, %xmm0
	movdqu	%xmm0, 136(%rsp)
	leaq	-16(%rbx), %rax
	cmpq	$32, %rax
	movl	$32, %ecx
	cmovbq	%rax, %rcx
	movq	%rcx, 120(%rsp)
	leaq	-8(%rbx), %rax
	cmpq	$8, %rax
	movl	$8, %ecx
	cmovbq	%rax, %rcx
	movq	%rcx, 280(%rsp)
	cmpq	$16, %rax
	movl	$16, %ecx
	cmovbq	%rax, %rcx
	movq	%rcx, 88(%rsp)
	movq	%rbx, %rax
	shrq	%rax
	movq	%rax, 320(%rsp)
	xorl	%r15d, %r15d
	xorl	%r12d, %r12d
	jmp	77f
44:
	movzbl	520(%rsp), %ecx
	leaq	704(%rsp), %rdi
	leaq	336(%rsp), %r8
	movq	40(%rsp), %rsi
	movq	%r12, %rdx
	callq	"clap::parser::validator::validate_needs"
	cmpb	$0, 704(%rsp)
	je	46f
	movzbl	712(%rsp), %ebp
	movzbl	720(%rsp), %r14d
	leaq	728(%rsp), %rbx
	cmpq	$0, 352(%rsp)
	je	45f
	movq	336(%rsp), %rdi
	callq	rattle_dealloc@PLT
45:
	movb	$1, (%r15)
	movb	%bpl, 8(%r15)
	movq	%r14, 16(%r15)
	movups	(%rbx), %xmm0
	movups	%xmm0, 24(%r15)
	movq	16(%rbx), %rax
	jmp	57f
46:
	cmpq	$0, 352(%rsp)
	je	47f
	movq	336(%rsp), %rdi
	callq	rattle_dealloc@PLT
47:
	movb	$0, (%r15)
	movb	$0, 8(%r15)
	movq	$0, 16(%r15)
	movaps	752(%rsp), %xmm0
	movups	%xmm0, 24(%r15)
	movq	768(%rsp), %rax
	jmp	57f
48:
	movq	272(%rsp), %rax
	movq	%rax, 592(%rsp)
	movdqa	256(%rsp), %xmm0
	movdqa	%xmm0, 576(%rsp)
	jmp	36b
49:
	movl	$540701295, 3(%rdx)
	movl	$1869771365, (%rdx)
50:
	movq	%rdx, 48(%rsp)
	movq	$7, 56(%rsp)
	movq	$7, 64(%rsp)
	leaq	.L72431cffa757(%rip), %rax
	movq	%rax, 128(%rsp)
	movq	$1, 136(%rsp)
	movq	%r12, 144(%rsp)
	movq	%r14, 152(%rsp)
	leaq	.L4ebc56ecf78e(%rip), %rax
	movq	%rax, 160(%rsp)
	movq	$48, 168(%rsp)
	leaq	48(%rsp), %rdi
	leaq	128(%rsp), %rsi
	callq	"std_alloc::string::String::write_fmt::<#a2e9c51888eedbd3>"
	testb	%al, %al
	je	59f
51:
	cmpq	$0, 64(%rsp)
	je	53f
52:
	movq	48(%rsp), %rdi
	callq	rattle_dealloc@PLT
53:
	testq	%rbx, %rbx
	je	54f
	movq	16(%rsp), %rdi
	callq	rattle_dealloc@PLT
54:
	pxor	%xmm0, %xmm0
	movdqa	%xmm0, 480(%rsp)
	movq	$0, 496(%rsp)
	movb	$16, %bl
	xorl	%r14d, %r14d
	cmpq	$0, 352(%rsp)
	je	56f
55:
	movq	%rbp, %rdi
	callq	rattle_dealloc@PLT
56:
	movb	$1, (%r15)
	movb	%bl, 8(%r15)
	movq	%r14, 16(%r15)
	movaps	480(%rsp), %xmm0
	movups	%xmm0, 24(%r15)
	movq	496(%rsp), %rax
57:
	movq	%rax, 40(%r15)
58:
	addq	$776, %rsp
	popq	%rbx
	popq	%r12
	popq	%r13
	popq	%r14
	popq	%r15
	popq	%rbp
	retq
59:
	movq	608(%r13), %rax
	movq	%rax, 224(%rsp)
	testq	%rax, %rax
	je	196f
	movq	%rbp, 248(%rsp)
	movq	600(%r13), %rbp
	movb	$1, %dl
	xorl	%r13d, %r13d
	jmp	61f
60:
	incq	%r13
	xorl	%edx, %edx
	cmpq	224(%rsp), %r13
	je	195f
61:
	movq	56(%rsp), %rcx
	movq	64(%rsp), %rax
	movq	%rax, %rsi
	subq	%rcx, %rsi
	testb	$1, %dl
	je	63f
	cmpq	$16, %rsi
	jbe	71f
62:
	leaq	17(%rcx), %rdx
	pxor	%xmm0, %xmm0
	addq	48(%rsp), %rcx
	leaq	56(%rsp), %rsi
	movdqu	%xmm0, (%rsi)
	leaq	.La1415167c923(%rip), %rsi
	movq	%rcx, %rdi
	subq	%rsi, %rdi
	cmpq	$16, %rdi
	ja	65f
	movdqa	1b(%rip), %xmm0
	jmp	66f
63:
	cmpq	$1, %rsi
	jbe	72f
64:
	leaq	2(%rcx), %rdx
	pxor	%xmm0, %xmm0
	addq	48(%rsp), %rcx
	leaq	56(%rsp), %rsi
	movdqu	%xmm0, (%rsi)
	leaq	.L807e89e39460(%rip), %rsi
	movq	%rcx, %rdi
	subq	%rsi, %rdi
	cmpq	$1, %rdi
	movw	$8236, (%rcx)
	jmp	67f
65:
	movdqu	.La1415167c923(%rip), %xmm0
66:
	movdqu	%xmm0, (%rcx)
	movb	$32, 16(%rcx)
67:
	imulq	$672, %r13, %r14
	movq	%rdx, 56(%rsp)
	movq	%rax, 64(%rsp)
	movq	(%rbp,%r14), %rsi
	movq	8(%rbp,%r14), %rdx
	leaq	48(%rsp), %rdi
	callq	"clap::error::text::push_escaped"
	testb	%al, %al
	jne	73f
	movq	368(%rbp,%r14), %r12
	testq	%r12, %r12
	je	60b
	movq	360(%rbp,%r14), %r14
	addq	$8, %r14
68:
	movq	56(%rsp), %rax
	movq	64(%rsp), %rcx
	movq	%rcx, %rdx
	subq	%rax, %rdx
	cmpq	$1, %rdx
	jbe	70f
69:
	movq	48(%rsp), %rdx
	addq	%rax, %rdx
	leaq	.L807e89e39460(%rip), %rsi
	movq	%rdx, %rdi
	subq	%rsi, %rdi
	cmpq	$1, %rdi
	movw	$8236, (%rdx)
	addq	$2, %rax
	movq	%rax, 56(%rsp)
	movq	%rcx, 64(%rsp)
	movq	-8(%r14), %rsi
	movq	(%r14), %rdx
	leaq	48(%rsp), %rdi
	callq	"clap::error::text::push_escaped"
	testb	%al, %al
	jne	73f
	addq	$24, %r14
	decq	%r12
	jne	68b
	jmp	60b
70:
	leaq	48(%rsp), %rdi
	movl	$2, %esi
	callq	"std_alloc::vec::Vec::grow_amortized::<#1d775b5957dec42c>"
	testb	%al, %al
	je	73f
	movq	56(%rsp), %rax
	movq	64(%rsp), %rcx
	jmp	69b
71:
	leaq	48(%rsp), %rdi
	movl	$17, %esi
	callq	"std_alloc::vec::Vec::grow_amortized::<#1d775b5957dec42c>"
	testb	%al, %al
	je	73f
	movq	56(%rsp), %rcx
	movq	64(%rsp), %rax
	jmp	62b
72:
	leaq	48(%rsp), %rdi
	movl	$2, %esi
	callq	"std_alloc::vec::Vec::grow_amortized::<#1d775b5957dec42c>"
	testb	%al, %al
	je	73f
	movq	56(%rsp), %rcx
	movq	64(%rsp), %rax
	jmp	64b
73:
	cmpq	$0, 64(%rsp)
	movq	248(%rsp), %rbp
	jne	52b
	jmp	53b
74:
	movq	136(%rsp), %r15
75:
	movq	128(%rsp), %rcx
	movq	%r15, %rax
	shlq	$4, %rax
	movq	%r14, (%rcx,%rax)
	movq	%rcx, 24(%rsp)
	movq	16(%rsp), %rdx
	movq	%rdx, 8(%rcx,%rax)
	incq	%r15
	movq	%r15, 136(%rsp)
76:
	incq	%r12
	cmpq	240(%rsp), %r12
	je	91f
77:
	imulq	$104, %r12, %rax
	movq	224(%rsp), %rcx
	movq	(%rcx,%rax), %r14
	movq	8(%rcx,%rax), %r8
	cmpb	$1, 16(%rcx,%rax)
	jne	78f
	movq	224(%rsp), %rcx
	cmpb	$1, 17(%rcx,%rax)
	jne	76b
78:
	cmpq	%rbx, %r8
	jne	86f
	cmpq	$7, %rbx
	ja	79f
	cmpq	$4, %rbx
	jb	80f
	movl	(%r14), %ecx
	movl	-4(%r14,%rbx), %eax
	shlq	$32, %rax
	orq	%rcx, %rax
	bswapq	%rax
	movl	(%rbp), %edx
	movl	-4(%rbp,%rbx), %ecx
	shlq	$32, %rcx
	orq	%rdx, %rcx
	bswapq	%rcx
	jmp	81f
79:
	cmpq	$32, %rbx
	ja	82f
	movq	(%r14), %rax
	cmpq	(%rbp), %rax
	jne	86f
	movq	280(%rsp), %rcx
	movq	(%rbp,%rcx), %rax
	cmpq	%rax, (%r14,%rcx)
	jne	86f
	movq	88(%rsp), %rcx
	movq	(%rbp,%rcx), %rax
	cmpq	%rax, (%r14,%rcx)
	jne	86f
	leaq	-8(%rbx), %rcx
	movq	(%rbp,%rcx), %rax
	cmpq	%rax, (%r14,%rcx)
	je	76b
	jmp	86f
80:
	testq	%rbx, %rbx
	je	76b
	movzbl	(%r14), %eax
	movq	320(%rsp), %rdx
	movzbl	(%r14,%rdx), %ecx
	shll	$16, %eax
	shll	$8, %ecx
	orl	%eax, %ecx
	movzbl	-1(%r14,%rbx), %eax
	orq	%rcx, %rax
	movzbl	(%rbp), %ecx
	movzbl	(%rbp,%rdx), %edx
	shll	$16, %ecx
	shll	$8, %edx
	orl	%ecx, %edx
	movzbl	-1(%rbp,%rbx), %ecx
	orq	%rdx, %rcx
81:
	cmpq	%rcx, %rax
	je	76b
	jmp	86f
82:
	cmpq	$65, %rbx
	jae	83f
	movdqu	(%r14), %xmm0
	movdqu	16(%r14), %xmm1
	movdqu	(%rbp), %xmm2
	pcmpeqb	%xmm0, %xmm2
	movdqu	16(%rbp), %xmm3
	pcmpeqb	%xmm1, %xmm3
	pcmpeqd	%xmm1, %xmm1
	pxor	%xmm1, %xmm2
	pxor	%xmm1, %xmm3
	por	%xmm2, %xmm3
	movq	120(%rsp), %rax
	movdqu	(%r14,%rax), %xmm0
	movdqu	(%rbp,%rax), %xmm2
	pcmpeqb	%xmm0, %xmm2
	pxor	%xmm1, %xmm2
	leaq	-16(%rbx), %rax
	movdqu	(%r14,%rax), %xmm4
	movdqu	(%rbp,%rax), %xmm0
	pcmpeqb	%xmm4, %xmm0
	pxor	%xmm1, %xmm0
	por	%xmm2, %xmm0
	por	%xmm3, %xmm0
	jmp	85f
83:
	xorl	%eax, %eax
	movq	%rbx, %rcx
84:
	movdqu	(%r14,%rax), %xmm0
	movdqu	16(%r14,%rax), %xmm1
	movdqu	32(%r14,%rax), %xmm2
	movdqu	48(%r14,%rax), %xmm3
	movdqu	(%rbp,%rax), %xmm4
	pcmpeqb	%xmm0, %xmm4
	movdqu	16(%rbp,%rax), %xmm0
	pcmpeqb	%xmm1, %xmm0
	pand	%xmm4, %xmm0
	movdqu	32(%rbp,%rax), %xmm1
	pcmpeqb	%xmm2, %xmm1
	movdqu	48(%rbp,%rax), %xmm2
	pcmpeqb	%xmm3, %xmm2
	pand	%xmm1, %xmm2
	pand	%xmm0, %xmm2
	pmovmskb	%xmm2, %edx
	cmpl	$65535, %edx
	jne	86f
	addq	$64, %rax
	addq	$-64, %rcx
	cmpq	$65, %rcx
	jae	84b
	movdqu	-64(%r14,%rbx), %xmm0
	movdqu	-48(%r14,%rbx), %xmm1
	movdqu	-32(%r14,%rbx), %xmm2
	movdqu	-16(%r14,%rbx), %xmm3
	movdqu	-64(%rbp,%rbx), %xmm4
	pcmpeqb	%xmm0, %xmm4
	movdqu	-48(%rbp,%rbx), %xmm5
	pcmpeqb	%xmm1, %xmm5
	movdqu	-32(%rbp,%rbx), %xmm0
	pcmpeqb	%xmm2, %xmm0
	movdqu	-16(%rbp,%rbx), %xmm1
	pcmpeqb	%xmm3, %xmm1
	pcmpeqd	%xmm2, %xmm2
	pxor	%xmm2, %xmm1
	pxor	%xmm2, %xmm0
	por	%xmm1, %xmm0
	pxor	%xmm2, %xmm4
	pxor	%xmm2, %xmm5
	por	%xmm4, %xmm5
	por	%xmm0, %xmm5
	pxor	%xmm0, %xmm0
	pcmpgtb	%xmm5, %xmm0
85:
	ptest	2b(%rip), %xmm0
	je	76b
86:
	movq	40(%rsp), %rdi
	movq	%rbp, %rsi
	movq	%rbx, %rdx
	movq	%r14, %rcx
	movq	%r8, 16(%rsp)
	callq	"clap::parser::validator::declares_conflict"
	testb	%al, %al
	je	88f
	movq	%r15, %rcx
	cmpq	%r15, 144(%rsp)
	je	90f
87:
	movq	%rcx, %rax
	shlq	$4, %rax
	movq	24(%rsp), %rsi
	movq	%r14, (%rsi,%rax)
	movq	16(%rsp), %rdx
	movq	%rdx, 8(%rsi,%rax)
	incq	%rcx
	movq	%rcx, %r15
	movq	%rcx, 136(%rsp)
	jmp	89f
88:
	movq	16(%rsp), %rdx
89:
	movq	40(%rsp), %rdi
	movq	%r14, %rsi
	movq	%rbp, %rcx
	movq	%rbx, %r8
	callq	"clap::parser::validator::declares_conflict"
	testb	%al, %al
	je	76b
	cmpq	%r15, 144(%rsp)
	jne	75b
	leaq	128(%rsp), %rdi
	movl	$1, %esi
	callq	"std_alloc::vec::Vec::grow_amortized::<#3af3ba23e56e6a09>"
	testb	%al, %al
	jne	74b
	jmp	198f
90:
	leaq	128(%rsp), %rdi
	movl	$1, %esi
	callq	"std_alloc::vec::Vec::grow_amortized::<#3af3ba23e56e6a09>"
	testb	%al, %al
	je	198f
	movq	128(%rsp), %rax
	movq	%rax, 24(%rsp)
	movq	136(%rsp), %rcx
	jmp	87b
91:
	movq	128(%rsp), %rax
	movq	%rax, 512(%rsp)
	movq	144(%rsp), %rax
	movq	%rax, 560(%rsp)
	movq	(%r13), %rdx
	movq	8(%r13), %rcx
	pxor	%xmm0, %xmm0
	movdqa	%xmm0, 368(%rsp)
	movdqa	%xmm0, 384(%rsp)
	movdqa	%xmm0, 400(%rsp)
	movdqa	%xmm0, 48(%rsp)
	movdqa	%xmm0, 64(%rsp)
	movdqa	%xmm0, 640(%rsp)
	movq	$0, 656(%rsp)
	leaq	8(%rsp), %rax
	movq	%rax, 256(%rsp)
	movdqu	%xmm0, 264(%rsp)
	testq	%r15, %r15
	je	98f
	movq	%rcx, 24(%rsp)
	movq	%rdx, 16(%rsp)
	xorl	%r14d, %r14d
92:
	movq	%r15, %rbx
	movq	%r14, %rax
	shlq	$4, %rax
	movq	512(%rsp), %rcx
	movq	(%rcx,%rax), %r13
	movq	8(%rcx,%rax), %rbp
	movq	40(%rsp), %r15
	movq	624(%r15), %rdi
	movq	632(%r15), %rsi
	movq	%r13, %rdx
	movq	%rbp, %rcx
	callq	"clap::builder::command::Command::find_group"
	cmpb	$1, %al
	jne	94f
	leaq	48(%rsp), %rdi
	movq	%r15, %rsi
	movq	%r13, %rdx
	movq	%rbp, %rcx
	callq	"clap::builder::command::Command::args_in_group"
	cmpb	$0, 48(%rsp)
	jne	185f
	movq	56(%rsp), %r13
	movq	64(%rsp), %r12
	movq	72(%rsp), %r15
	incq	%r12
	leaq	8(%r13), %rcx
93:
	decq	%r12
	je	95f
	leaq	16(%rcx), %rbp
	movq	-8(%rcx), %rsi
	movq	(%rcx), %rdx
	leaq	256(%rsp), %rdi
	callq	"clap::builder::command::insert_id"
	movq	%rbp, %rcx
	testb	%al, %al
	je	93b
	jmp	97f
94:
	leaq	256(%rsp), %rdi
	movq	%r13, %rsi
	movq	%rbp, %rdx
	callq	"clap::builder::command::insert_id"
	testb	%al, %al
	je	96f
	jmp	185f
95:
	testq	%r15, %r15
	je	96f
	movq	%r13, %rdi
	callq	rattle_dealloc@PLT
96:
	incq	%r14
	movq	%rbx, %r15
	cmpq	%rbx, %r14
	jne	92b
	movq	256(%rsp), %rax
	movq	264(%rsp), %rbp
	leaq	8(%rsp), %rbx
	movq	%rbx, 288(%rsp)
	pxor	%xmm0, %xmm0
	movdqu	%xmm0, 296(%rsp)
	testq	%rbp, %rbp
	movq	%rax, 120(%rsp)
	je	204f
	leaq	136(%rsp), %r14
	leaq	8(%rax), %r15
	xorl	%r13d, %r13d
	jmp	202f
97:
	testq	%r15, %r15
	je	185f
	movq	%r13, %rdi
	jmp	184f
98:
	movq	%rax, 120(%rsp)
	movq	%rax, 288(%rsp)
	movdqu	%xmm0, 296(%rsp)
	movq	32(%rsp), %r15
	movq	312(%rsp), %r14
99:
	movq	40(%rsp), %rbp
	movq	576(%rbp), %rdi
	movq	584(%rbp), %rsi
	callq	"clap::builder::command::Command::find"
	leaq	8(%rsp), %rbx
	cmpb	$1, %al
	jne	101f
	pxor	%xmm0, %xmm0
	movdqu	%xmm0, 136(%rsp)
	movl	$0, 185(%rsp)
	movl	$0, 188(%rsp)
	leaq	8(%rsp), %rax
	movq	%rax, 128(%rsp)
	movl	$32, 152(%rsp)
	movq	$0, 156(%rsp)
	movl	$0, 164(%rsp)
	movq	$-1, 168(%rsp)
	movq	$0, 176(%rsp)
	movb	$0, 184(%rsp)
	movl	152(%rsp), %eax
	movl	%eax, 96(%rsp)
	movq	156(%rsp), %rax
	movq	%rax, 100(%rsp)
	movl	164(%rsp), %eax
	movl	%eax, 108(%rsp)
	movq	$-1, 112(%rsp)
	movl	$32, 152(%rsp)
	movq	$0, 156(%rsp)
	movl	$0, 164(%rsp)
	movq	$0, 208(%rsp)
	movq	%rdx, 200(%rsp)
	leaq	200(%rsp), %rdi
	leaq	128(%rsp), %rsi
	callq	"clap::builder::arg::StylizedDisplay::fmt::<#86a172efa8724158>"
	movdqa	96(%rsp), %xmm0
	movdqu	%xmm0, 152(%rsp)
	movq	112(%rsp), %rcx
	movq	%rcx, 168(%rsp)
	testb	%al, %al
	je	102f
	cmpq	$0, 144(%rsp)
	je	100f
	movq	128(%rsp), %rdi
	callq	rattle_dealloc@PLT
100:
	leaq	288(%rsp), %rdi
	callq	"std_alloc::vec::Vec::drop::<#2d89a01c2ecea42b>"
	cmpq	$0, 272(%rsp)
	movq	120(%rsp), %rdi
	jne	186f
	jmp	187f
101:
	movq	$0, 552(%rsp)
	movq	%rbx, 504(%rsp)
	movb	$1, 15(%rsp)
	jmp	103f
102:
	movq	128(%rsp), %rax
	movq	%rax, 504(%rsp)
	movq	136(%rsp), %rax
	movq	%rax, 552(%rsp)
	cmpq	$0, 144(%rsp)
	sete	15(%rsp)
103:
	movq	264(%rsp), %rax
	movq	(%r14), %r12
	movq	8(%r14), %r13
	pxor	%xmm0, %xmm0
	movdqa	%xmm0, 128(%rsp)
	movdqa	%xmm0, 144(%rsp)
	movdqa	%xmm0, 416(%rsp)
	movq	$0, 432(%rsp)
	movq	%rbx, 96(%rsp)
	movdqu	%xmm0, 104(%rsp)
	testq	%r13, %r13
	je	127f
	movq	%rax, 24(%rsp)
	testq	%rax, %rax
	je	128f
	movq	120(%rsp), %rax
	addq	$8, %rax
	movq	%rax, 16(%rsp)
	leaq	8(%rsp), %rax
	movq	%rax, 224(%rsp)
	xorl	%ecx, %ecx
	xorl	%ebp, %ebp
	jmp	106f
104:
	movq	%r15, %rcx
105:
	incq	%rbp
	cmpq	%r13, %rbp
	je	135f
106:
	imulq	$104, %rbp, %rax
	cmpb	$1, 16(%r12,%rax)
	jne	107f
	cmpb	$1, 17(%r12,%rax)
	jne	105b
107:
	movq	%rcx, %r15
	movq	(%r12,%rax), %rbx
	movq	8(%r12,%rax), %r14
	movq	40(%rsp), %rax
	movq	576(%rax), %rdi
	movq	584(%rax), %rsi
	movq	%rbx, %rdx
	movq	%r14, %rcx
	callq	"clap::builder::command::Command::find"
	cmpb	$1, %al
	jne	104b
	cmpb	$0, 594(%rdx)
	jne	104b
	leaq	-8(%r14), %rdi
	leaq	-16(%r14), %rdx
	cmpq	$32, %rdx
	movl	$32, %esi
	cmovbq	%rdx, %rsi
	cmpq	$8, %rdi
	movl	$8, %eax
	cmovbq	%rdi, %rax
	cmpq	$16, %rdi
	movl	$16, %ecx
	cmovbq	%rdi, %rcx
	movq	%r14, %rdi
	subq	$8, %rdi
	jae	110f
	cmpq	$4, %r14
	jb	113f
	movq	16(%rsp), %rax
	movq	24(%rsp), %rcx
	jmp	109f
108:
	decq	%rcx
	addq	$16, %rax
	testq	%rcx, %rcx
	je	124f
109:
	cmpq	%r14, (%rax)
	jne	108b
	movq	-8(%rax), %rdx
	movl	(%rdx), %esi
	movl	-4(%rdx,%r14), %edx
	shlq	$32, %rdx
	orq	%rsi, %rdx
	movl	(%rbx), %esi
	movl	-4(%rbx,%r14), %edi
	shlq	$32, %rdi
	orq	%rsi, %rdi
	cmpq	%rdi, %rdx
	jne	108b
	jmp	104b
110:
	cmpq	$32, %r14
	ja	116f
	movq	16(%rsp), %rdx
	movq	24(%rsp), %rsi
	jmp	112f
111:
	decq	%rsi
	addq	$16, %rdx
	testq	%rsi, %rsi
	je	124f
112:
	cmpq	%r14, (%rdx)
	jne	111b
	movq	-8(%rdx), %r8
	movq	(%r8), %r9
	cmpq	(%rbx), %r9
	jne	111b
	movq	(%rbx,%rax), %r9
	cmpq	%r9, (%r8,%rax)
	jne	111b
	movq	(%rbx,%rcx), %r9
	cmpq	%r9, (%r8,%rcx)
	jne	111b
	movq	(%rbx,%rdi), %r9
	cmpq	%r9, (%r8,%rdi)
	jne	111b
	jmp	104b
113:
	testq	%r14, %r14
	je	122f
	movq	%r14, %rax
	shrq	%rax
	movq	16(%rsp), %rcx
	movq	24(%rsp), %rdx
	jmp	115f
114:
	decq	%rdx
	addq	$16, %rcx
	testq	%rdx, %rdx
	je	124f
115:
	cmpq	%r14, (%rcx)
	jne	114b
	movq	-8(%rcx), %rsi
	movzbl	(%rsi), %edi
	movzbl	(%rsi,%rax), %r8d
	shll	$16, %edi
	shll	$8, %r8d
	orl	%edi, %r8d
	movzbl	-1(%rsi,%r14), %esi
	orl	%r8d, %esi
	movzbl	(%rbx), %edi
	movzbl	(%rbx,%rax), %r8d
	shll	$16, %edi
	shll	$8, %r8d
	orl	%edi, %r8d
	movzbl	-1(%rbx,%r14), %edi
	orl	%r8d, %edi
	cmpl	%edi, %esi
	jne	114b
	jmp	104b
116:
	movq	120(%rsp), %rax
	movq	24(%rsp), %rcx
	cmpq	$65, %r14
	jae	118f
	movq	16(%rsp), %rax
	movq	24(%rsp), %rcx
	jmp	121f
117:
	addq	$16, %rax
	decq	%rcx
	je	124f
118:
	cmpq	%r14, 8(%rax)
	jne	117b
	movq	(%rax), %rdx
	xorl	%esi, %esi
	movq	%r14, %rdi
119:
	movdqu	(%rdx,%rsi), %xmm0
	movdqu	16(%rdx,%rsi), %xmm1
	movdqu	32(%rdx,%rsi), %xmm2
	movdqu	48(%rdx,%rsi), %xmm3
	movdqu	(%rbx,%rsi), %xmm4
	pcmpeqb	%xmm0, %xmm4
	movdqu	16(%rbx,%rsi), %xmm0
	pcmpeqb	%xmm1, %xmm0
	pand	%xmm4, %xmm0
	movdqu	32(%rbx,%rsi), %xmm1
	pcmpeqb	%xmm2, %xmm1
	movdqu	48(%rbx,%rsi), %xmm2
	pcmpeqb	%xmm3, %xmm2
	pand	%xmm1, %xmm2
	pand	%xmm0, %xmm2
	pmovmskb	%xmm2, %r8d
	cmpl	$65535, %r8d
	jne	117b
	addq	$64, %rsi
	addq	$-64, %rdi
	cmpq	$65, %rdi
	jae	119b
	movdqu	-64(%rdx,%r14), %xmm0
	movdqu	-48(%rdx,%r14), %xmm1
	movdqu	-32(%rdx,%r14), %xmm2
	movdqu	-16(%rdx,%r14), %xmm3
	movdqu	-64(%rbx,%r14), %xmm4
	pcmpeqb	%xmm0, %xmm4
	movdqu	-48(%rbx,%r14), %xmm0
	pcmpeqb	%xmm1, %xmm0
	pand	%xmm4, %xmm0
	movdqu	-32(%rbx,%r14), %xmm1
	pcmpeqb	%xmm2, %xmm1
	movdqu	-16(%rbx,%r14), %xmm2
	pcmpeqb	%xmm3, %xmm2
	pand	%xmm1, %xmm2
	pand	%xmm0, %xmm2
	pmovmskb	%xmm2, %edx
	cmpl	$65535, %edx
	jne	117b
	jmp	104b
120:
	decq	%rcx
	addq	$16, %rax
	testq	%rcx, %rcx
	je	124f
121:
	cmpq	%r14, (%rax)
	jne	120b
	movq	-8(%rax), %rdi
	movdqu	(%rdi), %xmm0
	movdqu	16(%rdi), %xmm1
	movdqu	(%rbx), %xmm2
	pcmpeqb	%xmm0, %xmm2
	movdqu	16(%rbx), %xmm0
	pcmpeqb	%xmm1, %xmm0
	pand	%xmm2, %xmm0
	movdqu	(%rdi,%rsi), %xmm1
	movdqu	(%rbx,%rsi), %xmm2
	pcmpeqb	%xmm1, %xmm2
	movdqu	(%rdi,%rdx), %xmm1
	movdqu	(%rbx,%rdx), %xmm3
	pcmpeqb	%xmm1, %xmm3
	pand	%xmm2, %xmm3
	pand	%xmm0, %xmm3
	pmovmskb	%xmm3, %edi
	cmpl	$65535, %edi
	jne	120b
	jmp	104b
122:
	movq	16(%rsp), %rax
	movq	24(%rsp), %rcx
123:
	cmpq	$0, (%rax)
	je	104b
	addq	$16, %rax
	decq	%rcx
	jne	123b
124:
	movq	%r15, %rcx
	cmpq	%r15, 112(%rsp)
	je	126f
125:
	movq	%rcx, %rax
	shlq	$4, %rax
	movq	224(%rsp), %rdx
	movq	%rbx, (%rdx,%rax)
	movq	%r14, 8(%rdx,%rax)
	incq	%rcx
	movq	%rcx, 104(%rsp)
	jmp	105b
126:
	leaq	96(%rsp), %rdi
	movl	$1, %esi
	callq	"std_alloc::vec::Vec::grow_amortized::<#3af3ba23e56e6a09>"
	testb	%al, %al
	je	213f
	movq	96(%rsp), %rax
	movq	%rax, 224(%rsp)
	movq	104(%rsp), %rcx
	jmp	125b
127:
	xorl	%ecx, %ecx
	movq	%rbx, %r14
	jmp	175f
128:
	addq	$17, %r12
	leaq	8(%rsp), %r15
	xorl	%ecx, %ecx
	jmp	131f
129:
	movq	%rbp, %rcx
130:
	addq	$104, %r12
	decq	%r13
	je	135f
131:
	cmpb	$1, -1(%r12)
	jne	132f
	cmpb	$1, (%r12)
	jne	130b
132:
	movq	%rcx, %rbp
	movq	-17(%r12), %rbx
	movq	-9(%r12), %r14
	movq	40(%rsp), %rax
	movq	576(%rax), %rdi
	movq	584(%rax), %rsi
	movq	%rbx, %rdx
	movq	%r14, %rcx
	callq	"clap::builder::command::Command::find"
	cmpb	$1, %al
	jne	129b
	cmpb	$0, 594(%rdx)
	jne	129b
	movq	%rbp, %rcx
	cmpq	%rbp, 112(%rsp)
	je	134f
133:
	movq	%rcx, %rax
	shlq	$4, %rax
	movq	%rbx, (%r15,%rax)
	movq	%r14, 8(%r15,%rax)
	incq	%rcx
	movq	%rcx, 104(%rsp)
	jmp	130b
134:
	leaq	96(%rsp), %rdi
	movl	$1, %esi
	callq	"std_alloc::vec::Vec::grow_amortized::<#3af3ba23e56e6a09>"
	testb	%al, %al
	je	213f
	movq	96(%rsp), %r15
	movq	104(%rsp), %rcx
	jmp	133b
135:
	leaq	8(%rsp), %rbx
	movq	%rbx, 200(%rsp)
	pxor	%xmm0, %xmm0
	movdqu	%xmm0, 208(%rsp)
	movq	96(%rsp), %r14
	testq	%rcx, %rcx
	je	174f
	leaq	8(%r14), %rax
	movq	%rax, 328(%rsp)
	movq	120(%rsp), %rax
	addq	$8, %rax
	movq	%rax, 312(%rsp)
	leaq	8(%rsp), %rax
	movq	%rax, 320(%rsp)
	movq	$0, 280(%rsp)
	xorl	%ebx, %ebx
	movq	40(%rsp), %rbp
	movq	%r14, 88(%rsp)
	movq	%rcx, 16(%rsp)
	jmp	137f
136:
	movq	520(%rsp), %rbx
	incq	%rbx
	movq	16(%rsp), %rcx
	cmpq	%rcx, %rbx
	movq	40(%rsp), %rbp
	movq	88(%rsp), %r14
	je	166f
137:
	movq	%rbx, %rax
	shlq	$4, %rax
	movq	(%r14,%rax), %rdx
	movq	8(%r14,%rax), %rcx
	movq	576(%rbp), %rdi
	movq	584(%rbp), %rsi
	callq	"clap::builder::command::Command::find"
	cmpb	$1, %al
	movq	%rbx, 520(%rsp)
	jne	136b
	movq	152(%rdx), %rax
	movq	%rax, 224(%rsp)
	testq	%rax, %rax
	je	136b
	movq	144(%rdx), %rax
	movq	%rax, 240(%rsp)
	xorl	%ebp, %ebp
	jmp	141f
138:
	movq	280(%rsp), %rcx
	cmpq	%rcx, 216(%rsp)
	je	165f
139:
	movq	%rcx, %rax
	shlq	$4, %rax
	movq	320(%rsp), %rdx
	movq	%rbx, (%rdx,%rax)
	movq	%r14, 8(%rdx,%rax)
	incq	%rcx
	movq	%rcx, 280(%rsp)
	movq	%rcx, 208(%rsp)
140:
	incq	%rbp
	cmpq	224(%rsp), %rbp
	je	136b
141:
	leaq	(,%rbp,4), %rax
	addq	%rbp, %rax
	movq	240(%rsp), %rcx
	movq	24(%rcx,%rax,8), %rbx
	movq	32(%rcx,%rax,8), %r14
	leaq	-8(%r14), %rdx
	leaq	-16(%r14), %rax
	cmpq	$32, %rax
	movl	$32, %ecx
	cmovbq	%rax, %rcx
	cmpq	$8, %rdx
	movl	$8, %esi
	cmovbq	%rdx, %rsi
	cmpq	$16, %rdx
	movl	$16, %edi
	cmovbq	%rdx, %rdi
	movq	%r14, %rdx
	shrq	%rdx
	movq	%r14, %r8
	subq	$8, %r8
	jae	145f
	movq	88(%rsp), %r9
	movq	16(%rsp), %r10
	jmp	144f
	.p2align	4
142:
	movl	(%r11), %r15d
	movl	-4(%r11,%r14), %r11d
	shlq	$32, %r11
	orq	%r15, %r11
	bswapq	%r11
	movl	(%rbx), %r13d
	movl	-4(%rbx,%r14), %r15d
	shlq	$32, %r15
	orq	%r13, %r15
	bswapq	%r15
	cmpq	%r15, %r11
	je	140b
143:
	decq	%r10
	addq	$16, %r9
	testq	%r10, %r10
	je	154f
144:
	cmpq	%r14, 8(%r9)
	jne	143b
	movq	(%r9), %r11
	cmpq	$3, %r14
	ja	142b
	testq	%r14, %r14
	je	140b
	movzbl	(%r11), %r15d
	movzbl	(%r11,%rdx), %r13d
	shll	$16, %r15d
	shll	$8, %r13d
	orl	%r15d, %r13d
	movzbl	-1(%r11,%r14), %r11d
	orq	%r13, %r11
	movzbl	(%rbx), %r15d
	movzbl	(%rbx,%rdx), %r13d
	shll	$16, %r15d
	shll	$8, %r13d
	orl	%r15d, %r13d
	movzbl	-1(%rbx,%r14), %r15d
	orq	%r13, %r15
	cmpq	%r15, %r11
	jne	143b
	jmp	140b
145:
	cmpq	$32, %r14
	ja	148f
	movq	328(%rsp), %r9
	movq	16(%rsp), %r10
	jmp	147f
	.p2align	4
146:
	decq	%r10
	addq	$16, %r9
	testq	%r10, %r10
	je	154f
147:
	cmpq	%r14, (%r9)
	jne	146b
	movq	-8(%r9), %r11
	movq	(%r11), %r15
	cmpq	(%rbx), %r15
	jne	146b
	movq	(%rbx,%rsi), %r15
	cmpq	%r15, (%r11,%rsi)
	jne	146b
	movq	(%rbx,%rdi), %r15
	cmpq	%r15, (%r11,%rdi)
	jne	146b
	movq	(%rbx,%r8), %r15
	cmpq	%r15, (%r11,%r8)
	jne	146b
	jmp	140b
148:
	movq	88(%rsp), %r9
	movq	16(%rsp), %r10
	cmpq	$65, %r14
	jae	150f
	movq	328(%rsp), %r9
	movq	16(%rsp), %r10
	jmp	153f
	.p2align	4
149:
	addq	$16, %r9
	decq	%r10
	je	154f
150:
	cmpq	%r14, 8(%r9)
	jne	149b
	movq	(%r9), %r11
	xorl	%r15d, %r15d
	movq	%r14, %r13
	.p2align	4
151:
	movdqu	(%r11,%r15), %xmm0
	movdqu	16(%r11,%r15), %xmm1
	movdqu	32(%r11,%r15), %xmm2
	movdqu	48(%r11,%r15), %xmm3
	movdqu	(%rbx,%r15), %xmm4
	pcmpeqb	%xmm0, %xmm4
	movdqu	16(%rbx,%r15), %xmm0
	pcmpeqb	%xmm1, %xmm0
	pand	%xmm4, %xmm0
	movdqu	32(%rbx,%r15), %xmm1
	pcmpeqb	%xmm2, %xmm1
	movdqu	48(%rbx,%r15), %xmm2
	pcmpeqb	%xmm3, %xmm2
	pand	%xmm1, %xmm2
	pand	%xmm0, %xmm2
	pmovmskb	%xmm2, %r12d
	cmpl	$65535, %r12d
	jne	149b
	addq	$64, %r15
	addq	$-64, %r13
	cmpq	$65, %r13
	jae	151b
	movdqu	-64(%r11,%r14), %xmm0
	movdqu	-48(%r11,%r14), %xmm1
	movdqu	-32(%r11,%r14), %xmm2
	movdqu	-16(%r11,%r14), %xmm3
	movdqu	-64(%rbx,%r14), %xmm4
	pcmpeqb	%xmm0, %xmm4
	movdqu	-48(%rbx,%r14), %xmm0
	pcmpeqb	%xmm1, %xmm0
	pand	%xmm4, %xmm0
	movdqu	-32(%rbx,%r14), %xmm1
	pcmpeqb	%xmm2, %xmm1
	movdqu	-16(%rbx,%r14), %xmm2
	pcmpeqb	%xmm3, %xmm2
	pand	%xmm1, %xmm2
	pand	%xmm0, %xmm2
	pmovmskb	%xmm2, %r11d
	cmpl	$65535, %r11d
	jne	149b
	jmp	140b
	.p2align	4
152:
	decq	%r10
	addq	$16, %r9
	testq	%r10, %r10
	je	154f
153:
	cmpq	%r14, (%r9)
	jne	152b
	movq	-8(%r9), %r11
	movdqu	(%r11), %xmm0
	movdqu	16(%r11), %xmm1
	movdqu	(%rbx), %xmm2
	pcmpeqb	%xmm0, %xmm2
	movdqu	16(%rbx), %xmm0
	pcmpeqb	%xmm1, %xmm0
	pand	%xmm2, %xmm0
	movdqu	(%r11,%rcx), %xmm1
	movdqu	(%rbx,%rcx), %xmm2
	pcmpeqb	%xmm1, %xmm2
	movdqu	(%r11,%rax), %xmm1
	movdqu	(%rbx,%rax), %xmm3
	pcmpeqb	%xmm1, %xmm3
	pand	%xmm2, %xmm3
	pand	%xmm0, %xmm3
	pmovmskb	%xmm3, %r11d
	cmpl	$65535, %r11d
	jne	152b
	jmp	140b
154:
	cmpq	$0, 24(%rsp)
	je	138b
	cmpq	$7, %r14
	ja	158f
	movq	120(%rsp), %rax
	movq	24(%rsp), %rcx
	jmp	157f
155:
	movl	(%rsi), %edi
	movl	-4(%rsi,%r14), %esi
	shlq	$32, %rsi
	orq	%rdi, %rsi
	bswapq	%rsi
	movl	(%rbx), %r8d
	movl	-4(%rbx,%r14), %edi
	shlq	$32, %rdi
	orq	%r8, %rdi
	bswapq	%rdi
	cmpq	%rdi, %rsi
	je	140b
156:
	decq	%rcx
	addq	$16, %rax
	testq	%rcx, %rcx
	je	138b
157:
	cmpq	%r14, 8(%rax)
	jne	156b
	movq	(%rax), %rsi
	cmpq	$3, %r14
	ja	155b
	testq	%r14, %r14
	je	140b
	movzbl	(%rsi), %edi
	movzbl	(%rsi,%rdx), %r8d
	shll	$16, %edi
	shll	$8, %r8d
	orl	%edi, %r8d
	movzbl	-1(%rsi,%r14), %esi
	orq	%r8, %rsi
	movzbl	(%rbx), %edi
	movzbl	(%rbx,%rdx), %r8d
	shll	$16, %edi
	shll	$8, %r8d
	orl	%edi, %r8d
	movzbl	-1(%rbx,%r14), %edi
	orq	%r8, %rdi
	cmpq	%rdi, %rsi
	jne	156b
	jmp	140b
158:
	movq	120(%rsp), %rdx
	movq	24(%rsp), %r9
	cmpq	$33, %r14
	jae	163f
	movq	312(%rsp), %rax
	movq	24(%rsp), %rcx
	jmp	160f
	.p2align	4
159:
	decq	%rcx
	addq	$16, %rax
	testq	%rcx, %rcx
	je	138b
160:
	cmpq	%r14, (%rax)
	jne	159b
	movq	-8(%rax), %rdx
	movq	(%rdx), %r9
	cmpq	(%rbx), %r9
	jne	159b
	movq	(%rbx,%rsi), %r9
	cmpq	%r9, (%rdx,%rsi)
	jne	159b
	movq	(%rbx,%rdi), %r9
	cmpq	%r9, (%rdx,%rdi)
	jne	159b
	movq	(%rbx,%r8), %r9
	cmpq	%r9, (%rdx,%r8)
	jne	159b
	jmp	140b
161:
	movdqu	(%rsi), %xmm0
	movdqu	16(%rsi), %xmm1
	movdqu	(%rbx), %xmm2
	pcmpeqb	%xmm0, %xmm2
	movdqu	16(%rbx), %xmm3
	pcmpeqb	%xmm1, %xmm3
	pcmpeqd	%xmm1, %xmm1
	pxor	%xmm1, %xmm2
	pxor	%xmm1, %xmm3
	por	%xmm2, %xmm3
	movdqu	(%rsi,%rcx), %xmm0
	movdqu	(%rbx,%rcx), %xmm2
	pcmpeqb	%xmm0, %xmm2
	pxor	%xmm1, %xmm2
	movdqu	(%rsi,%rax), %xmm4
	movdqu	(%rbx,%rax), %xmm0
	pcmpeqb	%xmm4, %xmm0
	pxor	%xmm1, %xmm0
	por	%xmm2, %xmm0
	por	%xmm3, %xmm0
	ptest	2b(%rip), %xmm0
	je	140b
162:
	addq	$16, %rdx
	decq	%r9
	je	138b
163:
	cmpq	%r14, 8(%rdx)
	jne	162b
	movq	(%rdx), %rsi
	cmpq	$65, %r14
	jb	161b
	xorl	%edi, %edi
	movq	%r14, %r8
	.p2align	4
164:
	movdqu	(%rsi,%rdi), %xmm0
	movdqu	16(%rsi,%rdi), %xmm1
	movdqu	32(%rsi,%rdi), %xmm2
	movdqu	48(%rsi,%rdi), %xmm3
	movdqu	(%rbx,%rdi), %xmm4
	pcmpeqb	%xmm0, %xmm4
	movdqu	16(%rbx,%rdi), %xmm0
	pcmpeqb	%xmm1, %xmm0
	pand	%xmm4, %xmm0
	movdqu	32(%rbx,%rdi), %xmm1
	pcmpeqb	%xmm2, %xmm1
	movdqu	48(%rbx,%rdi), %xmm2
	pcmpeqb	%xmm3, %xmm2
	pand	%xmm1, %xmm2
	pand	%xmm0, %xmm2
	pmovmskb	%xmm2, %r10d
	cmpl	$65535, %r10d
	jne	162b
	addq	$64, %rdi
	addq	$-64, %r8
	cmpq	$65, %r8
	jae	164b
	movdqu	-64(%rsi,%r14), %xmm0
	movdqu	-48(%rsi,%r14), %xmm1
	movdqu	-32(%rsi,%r14), %xmm2
	movdqu	-16(%rsi,%r14), %xmm3
	movdqu	-64(%rbx,%r14), %xmm4
	pcmpeqb	%xmm0, %xmm4
	movdqu	-48(%rbx,%r14), %xmm5
	pcmpeqb	%xmm1, %xmm5
	movdqu	-32(%rbx,%r14), %xmm0
	pcmpeqb	%xmm2, %xmm0
	movdqu	-16(%rbx,%r14), %xmm1
	pcmpeqb	%xmm3, %xmm1
	pcmpeqd	%xmm2, %xmm2
	pxor	%xmm2, %xmm1
	pxor	%xmm2, %xmm0
	por	%xmm1, %xmm0
	pxor	%xmm2, %xmm4
	pxor	%xmm2, %xmm5
	por	%xmm4, %xmm5
	por	%xmm0, %xmm5
	pxor	%xmm0, %xmm0
	pcmpgtb	%xmm5, %xmm0
	ptest	2b(%rip), %xmm0
	jne	162b
	jmp	140b
165:
	leaq	200(%rsp), %rdi
	movl	$1, %esi
	callq	"std_alloc::vec::Vec::grow_amortized::<#3af3ba23e56e6a09>"
	testb	%al, %al
	je	170f
	movq	200(%rsp), %rax
	movq	%rax, 320(%rsp)
	movq	208(%rsp), %rcx
	jmp	139b
166:
	addq	$8, %r14
	movq	280(%rsp), %rdx
	jmp	169f
167:
	movq	208(%rsp), %rdx
	movq	%rbx, %rcx
168:
	movq	200(%rsp), %rbx
	movq	%rdx, %rax
	shlq	$4, %rax
	movq	%r15, (%rbx,%rax)
	movq	%r13, 8(%rbx,%rax)
	incq	%rdx
	movq	%rdx, 208(%rsp)
	addq	$16, %r14
	decq	%rcx
	je	173f
169:
	movq	-8(%r14), %r15
	movq	(%r14), %r13
	cmpq	%rdx, 216(%rsp)
	jne	168b
	movq	%rcx, %rbx
	leaq	200(%rsp), %rdi
	movl	$1, %esi
	callq	"std_alloc::vec::Vec::grow_amortized::<#3af3ba23e56e6a09>"
	testb	%al, %al
	jne	167b
170:
	cmpq	$0, 216(%rsp)
	je	171f
	movq	200(%rsp), %rdi
	callq	rattle_dealloc@PLT
171:
	cmpq	$0, 112(%rsp)
	movzbl	15(%rsp), %r13d
	je	179f
	movq	88(%rsp), %rdi
172:
	callq	rattle_dealloc@PLT
	jmp	179f
173:
	cmpq	$0, 216(%rsp)
	sete	%r12b
	movq	32(%rsp), %r15
	movq	88(%rsp), %r14
	movq	%rdx, %rcx
	jmp	176f
174:
	xorl	%ecx, %ecx
	movq	32(%rsp), %r15
	movq	40(%rsp), %rbp
175:
	movb	$1, %r12b
176:
	movq	$1, 416(%rsp)
	movq	248(%rsp), %rax
	movq	%rax, 424(%rsp)
	movq	568(%rsp), %rax
	movq	%rax, 432(%rsp)
	leaq	128(%rsp), %rdi
	leaq	416(%rsp), %r8
	movq	%rbp, %rsi
	movq	%rbx, %rdx
	callq	"clap::output::usage::with_title"
	testb	%r12b, %r12b
	movzbl	15(%rsp), %r13d
	jne	177f
	movq	%rbx, %rdi
	callq	rattle_dealloc@PLT
177:
	cmpq	$0, 112(%rsp)
	je	178f
	movq	%r14, %rdi
	callq	rattle_dealloc@PLT
178:
	cmpb	$0, 128(%rsp)
	je	190f
179:
	testb	%r13b, %r13b
	jne	180f
	movq	504(%rsp), %rdi
	callq	rattle_dealloc@PLT
180:
	movq	288(%rsp), %rbx
	movq	296(%rsp), %r15
	movq	304(%rsp), %r14
	testq	%r15, %r15
	je	183f
	leaq	16(%rbx), %r12
	jmp	182f
181:
	addq	$24, %r12
	decq	%r15
	je	183f
182:
	cmpq	$0, (%r12)
	je	181b
	movq	-16(%r12), %rdi
	callq	rattle_dealloc@PLT
	jmp	181b
183:
	testq	%r14, %r14
	je	185f
	movq	%rbx, %rdi
184:
	callq	rattle_dealloc@PLT
185:
	cmpq	$0, 272(%rsp)
	movq	32(%rsp), %r15
	je	187f
	movq	256(%rsp), %rdi
186:
	callq	rattle_dealloc@PLT
187:
	cmpq	$0, 560(%rsp)
	je	189f
	movq	512(%rsp), %rdi
188:
	callq	rattle_dealloc@PLT
189:
	pxor	%xmm0, %xmm0
	movdqa	%xmm0, 448(%rsp)
	movq	$0, 464(%rsp)
	movb	$16, %bl
	xorl	%ebp, %ebp
	jmp	37b
190:
	movq	136(%rsp), %rbx
	movq	144(%rsp), %rax
	movq	152(%rsp), %r14
	movq	288(%rsp), %r8
	movq	296(%rsp), %r9
	movq	$1, 640(%rsp)
	movq	%rbx, 648(%rsp)
	movq	%rax, 656(%rsp)
	leaq	640(%rsp), %rax
	movq	%rax, (%rsp)
	leaq	368(%rsp), %rdi
	movq	%rbp, %rsi
	movq	504(%rsp), %r12
	movq	%r12, %rdx
	movq	552(%rsp), %rcx
	callq	"clap::error::Error::argument_conflict"
	testq	%r14, %r14
	je	191f
	movq	%rbx, %rdi
	callq	rattle_dealloc@PLT
191:
	testb	%r13b, %r13b
	jne	192f
	movq	%r12, %rdi
	callq	rattle_dealloc@PLT
192:
	leaq	288(%rsp), %rdi
	callq	"std_alloc::vec::Vec::drop::<#2d89a01c2ecea42b>"
	cmpq	$0, 272(%rsp)
	je	193f
	movq	256(%rsp), %rdi
	callq	rattle_dealloc@PLT
193:
	movzbl	376(%rsp), %ebx
	movzbl	384(%rsp), %ebp
	movdqu	392(%rsp), %xmm0
	movdqa	%xmm0, 608(%rsp)
	movq	408(%rsp), %rax
	movq	%rax, 624(%rsp)
	cmpb	$0, 368(%rsp)
	jne	187b
	cmpq	$0, 560(%rsp)
	je	194f
	movq	512(%rsp), %rdi
	callq	rattle_dealloc@PLT
194:
	movq	624(%rsp), %rax
	movq	%rax, 464(%rsp)
	movdqa	608(%rsp), %xmm0
	movdqa	%xmm0, 448(%rsp)
	jmp	37b
195:
	leaq	.L0d0a70152a48(%rip), %rsi
	leaq	48(%rsp), %rdi
	movl	$1, %edx
	callq	"std_alloc::string::String::push_str::<#2cbb67ac55bf10f9>"
	testb	%al, %al
	movq	40(%rsp), %r13
	movq	248(%rsp), %rbp
	jne	51b
196:
	movq	$1, 96(%rsp)
	movq	16(%rsp), %rax
	movq	%rax, 104(%rsp)
	movq	24(%rsp), %rax
	movq	%rax, 112(%rsp)
	leaq	48(%rsp), %rdi
	leaq	96(%rsp), %rdx
	movq	%r13, %rsi
	callq	"clap::error::text::usage_and_help"
	testb	%al, %al
	jne	51b
	movq	64(%rsp), %rax
	movq	%rax, 432(%rsp)
	movups	48(%rsp), %xmm0
	movaps	%xmm0, 416(%rsp)
	testq	%rbx, %rbx
	je	197f
	movq	16(%rsp), %rdi
	callq	rattle_dealloc@PLT
197:
	movq	432(%rsp), %rax
	movq	%rax, 496(%rsp)
	movdqa	416(%rsp), %xmm0
	movdqa	%xmm0, 480(%rsp)
	movl	$1, %r14d
	movb	$10, %bl
	cmpq	$0, 352(%rsp)
	jne	55b
	jmp	56b
198:
	cmpq	$0, 144(%rsp)
	movq	32(%rsp), %r15
	je	189b
	movq	128(%rsp), %rdi
	jmp	188b
199:
	movq	288(%rsp), %rbx
	movq	296(%rsp), %r13
	movdqa	224(%rsp), %xmm0
200:
	leaq	(,%r13,2), %rax
	addq	%r13, %rax
	movq	%r12, (%rbx,%rax,8)
	movdqu	%xmm0, 8(%rbx,%rax,8)
	incq	%r13
	movq	%r13, 296(%rsp)
201:
	addq	$16, %r15
	decq	%rbp
	je	204f
202:
	movq	-8(%r15), %rdx
	movq	(%r15), %rcx
	movq	40(%rsp), %rax
	movq	576(%rax), %rdi
	movq	584(%rax), %rsi
	callq	"clap::builder::command::Command::find"
	cmpb	$1, %al
	jne	201b
	pxor	%xmm0, %xmm0
	movdqu	%xmm0, (%r14)
	movl	$0, 52(%r14)
	movl	$0, 49(%r14)
	leaq	8(%rsp), %rax
	movq	%rax, 128(%rsp)
	movl	$32, 152(%rsp)
	movl	$0, 28(%r14)
	movq	$0, 20(%r14)
	movq	$-1, 168(%rsp)
	movq	$0, 176(%rsp)
	movb	$0, 184(%rsp)
	movq	32(%r14), %rax
	movq	%rax, 112(%rsp)
	movl	16(%r14), %eax
	movl	%eax, 96(%rsp)
	movq	20(%r14), %rax
	movq	%rax, 100(%rsp)
	movl	28(%r14), %eax
	movl	%eax, 108(%rsp)
	movl	$32, 152(%rsp)
	movl	$0, 28(%r14)
	movq	$0, 20(%r14)
	movq	$-1, 168(%rsp)
	movq	$0, 208(%rsp)
	movq	%rdx, 200(%rsp)
	leaq	200(%rsp), %rdi
	leaq	128(%rsp), %rsi
	callq	"clap::builder::arg::StylizedDisplay::fmt::<#86a172efa8724158>"
	movq	112(%rsp), %rcx
	movq	%rcx, 32(%r14)
	movdqa	96(%rsp), %xmm0
	movdqu	%xmm0, 16(%r14)
	testb	%al, %al
	jne	207f
	movq	128(%rsp), %r12
	movdqu	136(%rsp), %xmm0
	cmpq	%r13, 304(%rsp)
	jne	200b
	movdqa	%xmm0, 224(%rsp)
	movq	144(%rsp), %rbx
	leaq	288(%rsp), %rdi
	callq	"std_alloc::vec::Vec::grow_amortized::<#973b4a116d082bbd>"
	testb	%al, %al
	jne	199b
	testq	%rbx, %rbx
	je	203f
	movq	%r12, %rdi
	callq	rattle_dealloc@PLT
203:
	movq	288(%rsp), %rbx
	movq	296(%rsp), %r15
	movq	304(%rsp), %r14
	testq	%r15, %r15
	je	211f
	leaq	16(%rbx), %r12
	jmp	206f
204:
	movq	32(%rsp), %r15
	movq	312(%rsp), %r14
	movq	16(%rsp), %rdx
	movq	24(%rsp), %rcx
	jmp	99b
205:
	addq	$24, %r12
	decq	%r15
	je	211f
206:
	cmpq	$0, (%r12)
	je	205b
	movq	-16(%r12), %rdi
	callq	rattle_dealloc@PLT
	jmp	205b
207:
	cmpq	$0, 144(%rsp)
	je	208f
	movq	128(%rsp), %rdi
	callq	rattle_dealloc@PLT
208:
	movb	$1, 368(%rsp)
	movb	$0, 376(%rsp)
	pxor	%xmm0, %xmm0
	movdqa	%xmm0, 384(%rsp)
	movdqa	%xmm0, 400(%rsp)
	movq	304(%rsp), %r14
	testq	%r13, %r13
	je	211f
	leaq	16(%rbx), %r15
	jmp	210f
209:
	addq	$24, %r15
	decq	%r13
	je	211f
210:
	cmpq	$0, (%r15)
	je	209b
	movq	-16(%r15), %rdi
	callq	rattle_dealloc@PLT
	jmp	209b
211:
	testq	%r14, %r14
	je	212f
	movq	%rbx, %rdi
	callq	rattle_dealloc@PLT
212:
	cmpq	$0, 272(%rsp)
	movq	32(%rsp), %r15
	movq	120(%rsp), %rdi
	jne	186b
	jmp	187b
213:
	cmpq	$0, 112(%rsp)
	movzbl	15(%rsp), %r13d
	je	179b
	movq	96(%rsp), %rdi
	jmp	172b
214:
	.size	"clap::parser::validator::validate", 214b-"clap::parser::validator::validate"

	.section	.rodata.cst16,"aM",@progbits,16
	.p2align	4, 0x0
1:
	.zero	16,1
2:
	.byte	116,104,101,32,102,111,108,108,111,119,105,110,103,32,114,101
3:
	.byte	113,117,105,114,101,100,32,97,114,103,117,109,101,110,116,115
4:
	.byte	32,119,101,114,101,32,110,111,116,32,112,114,111,118,105,100
	.text
	.p2align	4
	.type	"clap::parser::validator::validate_needs",@function
"clap::parser::validator::validate_needs":
	pushq	%rbp
	pushq	%r15
	pushq	%r14
	pushq	%r13
	pushq	%r12
	pushq	%rbx
	subq	$488, %rsp
	movq	%r8, 128(%rsp)
	movq	%rsi, %r15
	pxor	%xmm0, %xmm0
	movdqa	%xmm0, 176(%rsp)
	movq	$0, 192(%rsp)
	testl	%ecx, %ecx
	je	5f
	cmpb	$0, 666(%r15)
	je	5f
	movb	$0, (%rdi)
	movb	$0, 8(%rdi)
	movdqu	%xmm0, 16(%rdi)
	movdqu	%xmm0, 32(%rdi)
	jmp	226f
5:
	movdqa	%xmm0, 432(%rsp)
	movq	$0, 448(%rsp)
	movdqa	%xmm0, 288(%rsp)
	movq	$0, 304(%rsp)
	movdqa	%xmm0, 160(%rsp)
	movdqa	%xmm0, 144(%rsp)
	movq	8(%rdx), %rbp
	testq	%rbp, %rbp
	movq	%r15, 48(%rsp)
	movq	%rdx, 136(%rsp)
	movq	%rdi, 360(%rsp)
	je	14f
	movq	(%rdx), %r12
	xorl	%r13d, %r13d
	movq	%rbp, 88(%rsp)
	jmp	7f
	.p2align	4
6:
	incq	%r13
	cmpq	%rbp, %r13
	je	24f
7:
	imulq	$104, %r13, %rax
	cmpb	$1, 16(%r12,%rax)
	jne	8f
	cmpb	$1, 17(%r12,%rax)
	jne	6b
8:
	movq	(%r12,%rax), %r14
	movq	8(%r12,%rax), %rbx
	movq	576(%r15), %rdi
	movq	584(%r15), %rsi
	movq	%r14, %rdx
	movq	%rbx, %rcx
	callq	"clap::builder::command::Command::find"
	cmpb	$1, %al
	jne	10f
	leaq	144(%rsp), %rdi
	movq	%r15, %rsi
	movq	%r14, %rdx
	movq	%rbx, %rcx
	movl	$1, %r8d
	movq	136(%rsp), %r9
	callq	"clap::builder::command::Command::requires_of"
	cmpb	$0, 144(%rsp)
	jne	223f
	movq	152(%rsp), %rbx
	movq	160(%rsp), %rbp
	movq	168(%rsp), %r14
	incq	%rbp
	leaq	8(%rbx), %rcx
	.p2align	4
9:
	decq	%rbp
	je	12f
	leaq	16(%rcx), %r15
	movq	-8(%rcx), %rsi
	movq	(%rcx), %rdx
	movq	128(%rsp), %rdi
	callq	"clap::builder::command::insert_id"
	movq	%r15, %rcx
	testb	%al, %al
	je	9b
	jmp	13f
	.p2align	4
10:
	movq	624(%r15), %rdi
	movq	632(%r15), %rsi
	movq	%r14, %rdx
	movq	%rbx, %rcx
	callq	"clap::builder::command::Command::find_group"
	cmpb	$1, %al
	jne	6b
	movq	56(%rdx), %rbx
	testq	%rbx, %rbx
	je	6b
	movq	48(%rdx), %r14
	addq	$8, %r14
	.p2align	4
11:
	movq	-8(%r14), %rsi
	movq	(%r14), %rdx
	movq	128(%rsp), %rdi
	callq	"clap::builder::command::insert_id"
	testb	%al, %al
	jne	223f
	addq	$16, %r14
	decq	%rbx
	jne	11b
	jmp	6b
12:
	testq	%r14, %r14
	movq	48(%rsp), %r15
	movq	88(%rsp), %rbp
	je	6b
	movq	%rbx, %rdi
	callq	rattle_dealloc@PLT
	jmp	6b
13:
	testq	%r14, %r14
	jne	221f
	jmp	223f
14:
	leaq	24(%rsp), %rax
	movq	%rax, 96(%rsp)
	movdqu	%xmm0, 104(%rsp)
	movq	$0, 120(%rsp)
15:
	movl	$0, 88(%rsp)
	movq	584(%r15), %r13
	testq	%r13, %r13
	je	29f
16:
	movq	48(%rsp), %rax
	movq	576(%rax), %rbp
	addq	$605, %rbp
	leaq	24(%rsp), %rax
	movq	%rax, 40(%rsp)
	xorl	%edx, %edx
	jmp	19f
	.p2align	4
17:
	movq	32(%rsp), %rdx
18:
	addq	$608, %rbp
	decq	%r13
	je	29f
19:
	cmpb	$1, -13(%rbp)
	jne	18b
	movq	%rdx, 32(%rsp)
	movq	-605(%rbp), %rbx
	movq	-597(%rbp), %r14
	movq	136(%rsp), %rax
	movq	(%rax), %r15
	movq	8(%rax), %r12
	movq	%r15, %rdi
	movq	%r12, %rsi
	movq	%rbx, %rdx
	movq	%r14, %rcx
	callq	"clap::parser::matches::Found::get"
	cmpb	$1, %al
	jne	20f
	cmpb	$1, (%rdx)
	jne	17b
	movzbl	1(%rdx), %eax
	orb	88(%rsp), %al
	testb	$1, %al
	jne	17b
	jmp	21f
	.p2align	4
20:
	cmpb	$0, 88(%rsp)
	jne	17b
21:
	movq	48(%rsp), %rdi
	movq	%r15, %rsi
	movq	%r12, %rdx
	movq	%rbx, %rcx
	movq	%r14, %r8
	callq	"clap::parser::validator::is_excused"
	testb	%al, %al
	jne	17b
	movq	32(%rsp), %rdx
	cmpq	%rdx, 112(%rsp)
	je	23f
22:
	movq	%rdx, %rax
	shlq	$4, %rax
	movq	40(%rsp), %rcx
	movq	%rbx, (%rcx,%rax)
	movq	%r14, 8(%rcx,%rax)
	incq	%rdx
	movq	%rdx, 104(%rsp)
	cmpb	$0, (%rbp)
	jne	18b
	movq	120(%rsp), %rax
	movq	-109(%rbp), %rcx
	cmpq	%rax, %rcx
	cmovbeq	%rax, %rcx
	cmpb	$1, -117(%rbp)
	cmovneq	%rax, %rcx
	movq	%rcx, 120(%rsp)
	jmp	18b
23:
	leaq	96(%rsp), %rdi
	movl	$1, %esi
	callq	"std_alloc::vec::Vec::grow_amortized::<#3af3ba23e56e6a09>"
	testb	%al, %al
	je	270f
	movq	96(%rsp), %rax
	movq	%rax, 40(%rsp)
	movq	104(%rsp), %rdx
	jmp	22b
24:
	movq	136(%rsp), %rax
	movq	(%rax), %rbx
	movq	8(%rax), %r14
	leaq	24(%rsp), %rax
	movq	%rax, 96(%rsp)
	pxor	%xmm0, %xmm0
	movdqu	%xmm0, 104(%rsp)
	movq	$0, 120(%rsp)
	testq	%r14, %r14
	je	15b
	addq	$17, %rbx
	jmp	27f
	.p2align	4
25:
	movq	-17(%rbx), %rdx
	movq	-9(%rbx), %rcx
	movq	576(%r15), %rdi
	movq	584(%r15), %rsi
	callq	"clap::parser::validator::is_exclusive_arg"
	testb	%al, %al
	jne	28f
26:
	addq	$104, %rbx
	decq	%r14
	je	15b
27:
	cmpb	$1, -1(%rbx)
	jne	25b
	cmpb	$1, (%rbx)
	je	25b
	jmp	26b
28:
	movb	$1, %al
	movl	%eax, 88(%rsp)
	movq	584(%r15), %r13
	testq	%r13, %r13
	jne	16b
29:
	movq	48(%rsp), %r15
	movq	632(%r15), %rbp
	testq	%rbp, %rbp
	je	96f
	movq	624(%r15), %rsi
	xorl	%r13d, %r13d
	movq	%rbp, 72(%rsp)
	movq	%rsi, 32(%rsp)
	jmp	33f
	.p2align	4
30:
	movq	104(%rsp), %rax
	cmpq	%rax, 112(%rsp)
	je	61f
31:
	movq	96(%rsp), %rcx
	movq	%rax, %rdx
	shlq	$4, %rdx
	movq	%r14, (%rcx,%rdx)
	movq	%rbx, 8(%rcx,%rdx)
	incq	%rax
	movq	%rax, 104(%rsp)
32:
	incq	%r13
	cmpq	%rbp, %r13
	je	62f
33:
	imulq	$104, %r13, %r12
	cmpb	$1, 40(%rsi,%r12)
	jne	32b
	movq	(%rsi,%r12), %r14
	movq	8(%rsi,%r12), %rbx
	movq	136(%rsp), %rax
	movq	(%rax), %rdi
	movq	8(%rax), %rsi
	movq	%r14, %rdx
	movq	%rbx, %rcx
	callq	"clap::parser::matches::Found::get"
	movq	32(%rsp), %rsi
	cmpb	$1, %al
	jne	34f
	cmpb	$1, (%rdx)
	jne	32b
	testb	$1, 1(%rdx)
	jne	32b
	.p2align	4
34:
	pxor	%xmm0, %xmm0
	movdqa	%xmm0, 160(%rsp)
	movdqa	%xmm0, 144(%rsp)
	movq	24(%rsi,%r12), %rax
	testq	%rax, %rax
	je	30b
	movq	584(%r15), %rcx
	movq	%rcx, 40(%rsp)
	testq	%rcx, %rcx
	je	53f
	movq	32(%rsp), %rcx
	movq	16(%rcx,%r12), %rdi
	movq	48(%rsp), %rcx
	movq	576(%rcx), %rcx
	movq	%rcx, 64(%rsp)
	addq	$8, %rcx
	movq	%rcx, 56(%rsp)
	xorl	%r8d, %r8d
	movq	%rdi, 80(%rsp)
35:
	movq	%r8, %rdx
	shlq	$4, %rdx
	movq	(%rdi,%rdx), %r9
	movq	8(%rdi,%rdx), %r10
	leaq	-8(%r10), %rdx
	leaq	-16(%r10), %rdi
	cmpq	$32, %rdi
	movl	$32, %esi
	cmovbq	%rdi, %rsi
	cmpq	$8, %rdx
	movl	$8, %r11d
	cmovbq	%rdx, %r11
	cmpq	$16, %rdx
	movl	$16, %r15d
	cmovbq	%rdx, %r15
	movq	%r10, %rdx
	subq	$8, %rdx
	jae	38f
	cmpq	$4, %r10
	jb	41f
	movq	56(%rsp), %rdx
	movq	40(%rsp), %rsi
	jmp	37f
	.p2align	4
36:
	decq	%rsi
	addq	$608, %rdx
	testq	%rsi, %rsi
	je	53f
37:
	cmpq	%r10, (%rdx)
	jne	36b
	movq	-8(%rdx), %rdi
	movl	(%rdi), %r11d
	movl	-4(%rdi,%r10), %edi
	shlq	$32, %rdi
	orq	%r11, %rdi
	movl	(%r9), %r11d
	movl	-4(%r9,%r10), %r15d
	shlq	$32, %r15
	orq	%r11, %r15
	cmpq	%r15, %rdi
	jne	36b
	jmp	50f
	.p2align	4
38:
	cmpq	$32, %r10
	ja	44f
	movq	56(%rsp), %rsi
	movq	40(%rsp), %rdi
	jmp	40f
	.p2align	4
39:
	decq	%rdi
	addq	$608, %rsi
	testq	%rdi, %rdi
	je	53f
40:
	cmpq	%r10, (%rsi)
	jne	39b
	movq	-8(%rsi), %rbp
	movq	(%rbp), %rcx
	cmpq	(%r9), %rcx
	jne	39b
	movq	(%r9,%r11), %rcx
	cmpq	%rcx, (%rbp,%r11)
	jne	39b
	movq	(%r9,%r15), %rcx
	cmpq	%rcx, (%rbp,%r15)
	jne	39b
	movq	(%r9,%rdx), %rcx
	cmpq	%rcx, (%rbp,%rdx)
	jne	39b
	jmp	50f
41:
	testq	%r10, %r10
	je	51f
	movq	%r10, %rdx
	shrq	%rdx
	movq	56(%rsp), %rsi
	movq	40(%rsp), %rdi
	jmp	43f
	.p2align	4
42:
	decq	%rdi
	addq	$608, %rsi
	testq	%rdi, %rdi
	je	53f
43:
	cmpq	%r10, (%rsi)
	jne	42b
	movq	-8(%rsi), %r11
	movzbl	(%r11), %ebp
	movzbl	(%r11,%rdx), %r15d
	shll	$16, %ebp
	shll	$8, %r15d
	orl	%ebp, %r15d
	movzbl	-1(%r11,%r10), %r11d
	orl	%r15d, %r11d
	movzbl	(%r9), %ebp
	movzbl	(%r9,%rdx), %r15d
	shll	$16, %ebp
	shll	$8, %r15d
	orl	%ebp, %r15d
	movzbl	-1(%r9,%r10), %ebp
	orl	%r15d, %ebp
	cmpl	%ebp, %r11d
	jne	42b
	jmp	50f
44:
	movq	64(%rsp), %r11
	movq	40(%rsp), %r15
	cmpq	$65, %r10
	jae	46f
	movq	56(%rsp), %rdx
	movq	40(%rsp), %r11
	jmp	49f
	.p2align	4
45:
	addq	$608, %r11
	decq	%r15
	je	53f
46:
	cmpq	%r10, 8(%r11)
	jne	45b
	movq	(%r11), %rsi
	xorl	%edx, %edx
	movq	%r10, %rdi
	.p2align	4
47:
	movdqu	(%rsi,%rdx), %xmm0
	movdqu	16(%rsi,%rdx), %xmm1
	movdqu	32(%rsi,%rdx), %xmm2
	movdqu	48(%rsi,%rdx), %xmm3
	movdqu	(%r9,%rdx), %xmm4
	pcmpeqb	%xmm0, %xmm4
	movdqu	16(%r9,%rdx), %xmm0
	pcmpeqb	%xmm1, %xmm0
	pand	%xmm4, %xmm0
	movdqu	32(%r9,%rdx), %xmm1
	pcmpeqb	%xmm2, %xmm1
	movdqu	48(%r9,%rdx), %xmm2
	pcmpeqb	%xmm3, %xmm2
	pand	%xmm1, %xmm2
	pand	%xmm0, %xmm2
	pmovmskb	%xmm2, %ecx
	cmpl	$65535, %ecx
	jne	45b
	addq	$64, %rdx
	addq	$-64, %rdi
	cmpq	$65, %rdi
	jae	47b
	movdqu	-64(%rsi,%r10), %xmm0
	movdqu	-48(%rsi,%r10), %xmm1
	movdqu	-32(%rsi,%r10), %xmm2
	movdqu	-16(%rsi,%r10), %xmm3
	movdqu	-64(%r9,%r10), %xmm4
	pcmpeqb	%xmm0, %xmm4
	movdqu	-48(%r9,%r10), %xmm0
	pcmpeqb	%xmm1, %xmm0
	pand	%xmm4, %xmm0
	movdqu	-32(%r9,%r10), %xmm1
	pcmpeqb	%xmm2, %xmm1
	movdqu	-16(%r9,%r10), %xmm2
	pcmpeqb	%xmm3, %xmm2
	pand	%xmm1, %xmm2
	pand	%xmm0, %xmm2
	pmovmskb	%xmm2, %ecx
	cmpl	$65535, %ecx
	jne	45b
	jmp	50f
	.p2align	4
48:
	decq	%r11
	addq	$608, %rdx
	testq	%r11, %r11
	je	53f
49:
	cmpq	%r10, (%rdx)
	jne	48b
	movq	-8(%rdx), %rcx
	movdqu	(%rcx), %xmm0
	movdqu	16(%rcx), %xmm1
	movdqu	(%r9), %xmm2
	pcmpeqb	%xmm0, %xmm2
	movdqu	16(%r9), %xmm0
	pcmpeqb	%xmm1, %xmm0
	pand	%xmm2, %xmm0
	movdqu	(%rcx,%rsi), %xmm1
	movdqu	(%r9,%rsi), %xmm2
	pcmpeqb	%xmm1, %xmm2
	movdqu	(%rcx,%rdi), %xmm1
	movdqu	(%r9,%rdi), %xmm3
	pcmpeqb	%xmm1, %xmm3
	pand	%xmm2, %xmm3
	pand	%xmm0, %xmm3
	pmovmskb	%xmm3, %ecx
	cmpl	$65535, %ecx
	jne	48b
	.p2align	4
50:
	incq	%r8
	cmpq	%rax, %r8
	movq	48(%rsp), %r15
	movq	72(%rsp), %rbp
	movq	32(%rsp), %rsi
	movq	80(%rsp), %rdi
	jne	35b
	jmp	30b
51:
	movq	56(%rsp), %rdx
	movq	40(%rsp), %rsi
	.p2align	4
52:
	cmpq	$0, (%rdx)
	je	50b
	addq	$608, %rdx
	decq	%rsi
	jne	52b
53:
	leaq	144(%rsp), %rdi
	movq	48(%rsp), %r15
	movq	%r15, %rsi
	movq	%r14, %rdx
	movq	%rbx, %rcx
	callq	"clap::builder::command::Command::args_in_group"
	cmpb	$0, 144(%rsp)
	jne	270f
	movq	152(%rsp), %rdi
	movq	160(%rsp), %rbx
	movq	168(%rsp), %rax
	movb	$1, %r14b
	testq	%rbx, %rbx
	je	59f
	movq	%rax, 56(%rsp)
	movq	136(%rsp), %rax
	movq	(%rax), %r14
	movq	8(%rax), %r15
	movq	%rdi, 40(%rsp)
	movq	%rdi, %rbp
	jmp	55f
	.p2align	4
54:
	decq	%rbx
	addq	$16, %rbp
	testq	%rbx, %rbx
	je	57f
55:
	movq	(%rbp), %rdx
	movq	8(%rbp), %rcx
	movq	%r14, %rdi
	movq	%r15, %rsi
	callq	"clap::parser::matches::Found::get"
	cmpb	$1, %al
	jne	54b
	cmpb	$1, (%rdx)
	jne	56f
	testb	$1, 1(%rdx)
	je	54b
56:
	xorl	%r14d, %r14d
	movq	48(%rsp), %r15
	movq	40(%rsp), %rdi
	jmp	58f
57:
	movq	48(%rsp), %r15
	movq	40(%rsp), %rdi
	movb	$1, %r14b
58:
	movq	56(%rsp), %rax
59:
	testq	%rax, %rax
	movq	72(%rsp), %rbp
	je	60f
	callq	rattle_dealloc@PLT
60:
	testb	%r14b, %r14b
	movq	32(%rsp), %rsi
	je	32b
	movq	(%rsi,%r12), %r14
	movq	8(%rsi,%r12), %rbx
	jmp	30b
61:
	leaq	96(%rsp), %rdi
	movl	$1, %esi
	callq	"std_alloc::vec::Vec::grow_amortized::<#3af3ba23e56e6a09>"
	testb	%al, %al
	je	270f
	movq	104(%rsp), %rax
	movq	32(%rsp), %rsi
	jmp	31b
62:
	cmpq	$0, 632(%r15)
	movq	128(%rsp), %rax
	movq	(%rax), %rcx
	movq	%rcx, 40(%rsp)
	movq	8(%rax), %rax
	movq	%rax, 72(%rsp)
	pxor	%xmm0, %xmm0
	movdqa	%xmm0, 160(%rsp)
	movdqa	%xmm0, 144(%rsp)
	je	97f
63:
	cmpq	$0, 72(%rsp)
	je	99f
	xorl	%r13d, %r13d
	jmp	65f
	.p2align	4
64:
	incq	%r13
	cmpq	72(%rsp), %r13
	je	99f
65:
	movq	%r13, %rbp
	shlq	$4, %rbp
	movq	40(%rsp), %rax
	movq	(%rax,%rbp), %r12
	movq	8(%rax,%rbp), %r14
	movq	136(%rsp), %rax
	movq	(%rax), %rdi
	movq	8(%rax), %rsi
	movq	%rdi, 56(%rsp)
	movq	%rsi, 80(%rsp)
	movq	%r12, %rdx
	movq	%r14, %rcx
	callq	"clap::parser::matches::Found::get"
	cmpb	$1, %al
	jne	66f
	cmpb	$1, (%rdx)
	jne	64b
	testb	$1, 1(%rdx)
	jne	64b
	.p2align	4
66:
	movq	48(%rsp), %rax
	movq	584(%rax), %rax
	movq	%rax, 32(%rsp)
	testq	%rax, %rax
	je	78f
	movq	48(%rsp), %rax
	movq	576(%rax), %rax
	leaq	-16(%r14), %rcx
	cmpq	$32, %rcx
	movl	$32, %edx
	cmovbq	%rcx, %rdx
	leaq	-8(%r14), %rdi
	cmpq	$8, %rdi
	movl	$8, %r8d
	cmovbq	%rdi, %r8
	cmpq	$16, %rdi
	movl	$16, %r9d
	cmovbq	%rdi, %r9
	cmpq	$7, %r14
	ja	70f
	movq	%r14, %rcx
	shrq	%rcx
	movq	32(%rsp), %rdx
	jmp	69f
67:
	movl	(%rdi), %r8d
	movl	-4(%rdi,%r14), %edi
	shlq	$32, %rdi
	orq	%r8, %rdi
	bswapq	%rdi
	movl	(%r12), %r9d
	movl	-4(%r12,%r14), %r8d
	shlq	$32, %r8
	orq	%r9, %r8
	bswapq	%r8
	cmpq	%r8, %rdi
	je	64b
	.p2align	4
68:
	addq	$608, %rax
	decq	%rdx
	je	78f
69:
	cmpb	$1, 592(%rax)
	jne	68b
	cmpq	%r14, 8(%rax)
	jne	68b
	movq	(%rax), %rdi
	cmpq	$3, %r14
	ja	67b
	testq	%r14, %r14
	je	64b
	movzbl	(%rdi), %r8d
	movzbl	(%rdi,%rcx), %r9d
	shll	$16, %r8d
	shll	$8, %r9d
	orl	%r8d, %r9d
	movzbl	-1(%rdi,%r14), %edi
	orq	%r9, %rdi
	movzbl	(%r12), %r8d
	movzbl	(%r12,%rcx), %r9d
	shll	$16, %r8d
	shll	$8, %r9d
	orl	%r8d, %r9d
	movzbl	-1(%r12,%r14), %r8d
	orq	%r9, %r8
	cmpq	%r8, %rdi
	jne	68b
	jmp	64b
70:
	cmpq	$33, %r14
	jae	73f
	movq	32(%rsp), %rcx
	jmp	72f
	.p2align	4
71:
	addq	$608, %rax
	decq	%rcx
	je	78f
72:
	cmpb	$1, 592(%rax)
	jne	71b
	cmpq	%r14, 8(%rax)
	jne	71b
	movq	(%rax), %rdx
	movq	(%rdx), %r10
	cmpq	(%r12), %r10
	jne	71b
	movq	(%r12,%r8), %r10
	cmpq	%r10, (%rdx,%r8)
	jne	71b
	movq	(%r12,%r9), %r10
	cmpq	%r10, (%rdx,%r9)
	jne	71b
	movq	(%r12,%rdi), %r10
	cmpq	%r10, (%rdx,%rdi)
	jne	71b
	jmp	64b
73:
	movq	32(%rsp), %rdi
	jmp	76f
74:
	movdqu	(%r8), %xmm0
	movdqu	16(%r8), %xmm1
	movdqu	(%r12), %xmm2
	pcmpeqb	%xmm0, %xmm2
	movdqu	16(%r12), %xmm3
	pcmpeqb	%xmm1, %xmm3
	pcmpeqd	%xmm1, %xmm1
	pxor	%xmm1, %xmm2
	pxor	%xmm1, %xmm3
	por	%xmm2, %xmm3
	movdqu	(%r8,%rdx), %xmm0
	movdqu	(%r12,%rdx), %xmm2
	pcmpeqb	%xmm0, %xmm2
	pxor	%xmm1, %xmm2
	movdqu	(%r8,%rcx), %xmm4
	movdqu	(%r12,%rcx), %xmm0
	pcmpeqb	%xmm4, %xmm0
	pxor	%xmm1, %xmm0
	por	%xmm2, %xmm0
	por	%xmm3, %xmm0
	ptest	1b(%rip), %xmm0
	je	64b
	.p2align	4
75:
	addq	$608, %rax
	decq	%rdi
	je	78f
76:
	cmpb	$1, 592(%rax)
	jne	75b
	cmpq	%r14, 8(%rax)
	jne	75b
	movq	(%rax), %r8
	cmpq	$65, %r14
	jb	74b
	xorl	%r9d, %r9d
	movq	%r14, %r10
	.p2align	4
77:
	movdqu	(%r8,%r9), %xmm0
	movdqu	16(%r8,%r9), %xmm1
	movdqu	32(%r8,%r9), %xmm2
	movdqu	48(%r8,%r9), %xmm3
	movdqu	(%r12,%r9), %xmm4
	pcmpeqb	%xmm0, %xmm4
	movdqu	16(%r12,%r9), %xmm0
	pcmpeqb	%xmm1, %xmm0
	pand	%xmm4, %xmm0
	movdqu	32(%r12,%r9), %xmm1
	pcmpeqb	%xmm2, %xmm1
	movdqu	48(%r12,%r9), %xmm2
	pcmpeqb	%xmm3, %xmm2
	pand	%xmm1, %xmm2
	pand	%xmm0, %xmm2
	pmovmskb	%xmm2, %r11d
	cmpl	$65535, %r11d
	jne	75b
	addq	$64, %r9
	addq	$-64, %r10
	cmpq	$65, %r10
	jae	77b
	movdqu	-64(%r8,%r14), %xmm0
	movdqu	-48(%r8,%r14), %xmm1
	movdqu	-32(%r8,%r14), %xmm2
	movdqu	-16(%r8,%r14), %xmm3
	movdqu	-64(%r12,%r14), %xmm4
	pcmpeqb	%xmm0, %xmm4
	movdqu	-48(%r12,%r14), %xmm5
	pcmpeqb	%xmm1, %xmm5
	movdqu	-32(%r12,%r14), %xmm0
	pcmpeqb	%xmm2, %xmm0
	movdqu	-16(%r12,%r14), %xmm1
	pcmpeqb	%xmm3, %xmm1
	pcmpeqd	%xmm2, %xmm2
	pxor	%xmm2, %xmm1
	pxor	%xmm2, %xmm0
	por	%xmm1, %xmm0
	pxor	%xmm2, %xmm4
	pxor	%xmm2, %xmm5
	por	%xmm4, %xmm5
	por	%xmm0, %xmm5
	pxor	%xmm0, %xmm0
	pcmpgtb	%xmm5, %xmm0
	ptest	1b(%rip), %xmm0
	jne	75b
	jmp	64b
	.p2align	4
78:
	movq	48(%rsp), %rax
	movq	632(%rax), %rax
	movq	%rax, 64(%rsp)
	testq	%rax, %rax
	je	86f
	leaq	-16(%r14), %rax
	cmpq	$32, %rax
	movl	$32, %ecx
	cmovbq	%rax, %rcx
	leaq	-8(%r14), %rsi
	cmpq	$8, %rsi
	movl	$8, %edi
	cmovbq	%rsi, %rdi
	cmpq	$16, %rsi
	movl	$16, %r8d
	cmovbq	%rsi, %r8
	movq	48(%rsp), %rax
	movq	624(%rax), %r9
	movq	%r14, %r10
	shrq	%r10
	movq	64(%rsp), %r11
	jmp	81f
79:
	movl	(%r15), %ebx
	movl	-4(%r15,%r14), %eax
	shlq	$32, %rax
	orq	%rbx, %rax
	bswapq	%rax
	movl	(%r12), %r15d
	movl	-4(%r12,%r14), %ebx
	shlq	$32, %rbx
	orq	%r15, %rbx
	bswapq	%rbx
	cmpq	%rbx, %rax
	je	64b
	.p2align	4
80:
	addq	$104, %r9
	decq	%r11
	je	86f
81:
	cmpb	$1, 40(%r9)
	jne	80b
	cmpq	%r14, 8(%r9)
	jne	80b
	movq	(%r9), %r15
	cmpq	$7, %r14
	ja	82f
	cmpq	$4, %r14
	jae	79b
	testq	%r14, %r14
	je	64b
	movzbl	(%r15), %eax
	movzbl	(%r15,%r10), %ebx
	shll	$16, %eax
	shll	$8, %ebx
	orl	%eax, %ebx
	movzbl	-1(%r15,%r14), %eax
	orq	%rbx, %rax
	movzbl	(%r12), %ebx
	movzbl	(%r12,%r10), %r15d
	shll	$16, %ebx
	shll	$8, %r15d
	orl	%ebx, %r15d
	movzbl	-1(%r12,%r14), %ebx
	orq	%r15, %rbx
	cmpq	%rbx, %rax
	jne	80b
	jmp	64b
82:
	cmpq	$32, %r14
	ja	83f
	movq	(%r15), %rax
	cmpq	(%r12), %rax
	jne	80b
	movq	(%r12,%rdi), %rax
	cmpq	%rax, (%r15,%rdi)
	jne	80b
	movq	(%r12,%r8), %rax
	cmpq	%rax, (%r15,%r8)
	jne	80b
	movq	(%r12,%rsi), %rax
	cmpq	%rax, (%r15,%rsi)
	jne	80b
	jmp	64b
83:
	cmpq	$65, %r14
	jae	84f
	movdqu	(%r15), %xmm0
	movdqu	16(%r15), %xmm1
	movdqu	(%r12), %xmm2
	pcmpeqb	%xmm0, %xmm2
	movdqu	16(%r12), %xmm3
	pcmpeqb	%xmm1, %xmm3
	pcmpeqd	%xmm1, %xmm1
	pxor	%xmm1, %xmm2
	pxor	%xmm1, %xmm3
	por	%xmm2, %xmm3
	movdqu	(%r15,%rcx), %xmm0
	movdqu	(%r12,%rcx), %xmm2
	pcmpeqb	%xmm0, %xmm2
	pxor	%xmm1, %xmm2
	leaq	-16(%r14), %rax
	movdqu	(%r15,%rax), %xmm4
	movdqu	(%r12,%rax), %xmm0
	pcmpeqb	%xmm4, %xmm0
	pxor	%xmm1, %xmm0
	por	%xmm2, %xmm0
	por	%xmm3, %xmm0
	ptest	1b(%rip), %xmm0
	jne	80b
	jmp	64b
84:
	xorl	%eax, %eax
	movq	%r14, %rbx
	.p2align	4
85:
	movdqu	(%r15,%rax), %xmm0
	movdqu	16(%r15,%rax), %xmm1
	movdqu	32(%r15,%rax), %xmm2
	movdqu	48(%r15,%rax), %xmm3
	movdqu	(%r12,%rax), %xmm4
	pcmpeqb	%xmm0, %xmm4
	movdqu	16(%r12,%rax), %xmm0
	pcmpeqb	%xmm1, %xmm0
	pand	%xmm4, %xmm0
	movdqu	32(%r12,%rax), %xmm1
	pcmpeqb	%xmm2, %xmm1
	movdqu	48(%r12,%rax), %xmm2
	pcmpeqb	%xmm3, %xmm2
	pand	%xmm1, %xmm2
	pand	%xmm0, %xmm2
	pmovmskb	%xmm2, %edx
	cmpl	$65535, %edx
	jne	80b
	addq	$64, %rax
	addq	$-64, %rbx
	cmpq	$65, %rbx
	jae	85b
	movdqu	-64(%r15,%r14), %xmm0
	movdqu	-48(%r15,%r14), %xmm1
	movdqu	-32(%r15,%r14), %xmm2
	movdqu	-16(%r15,%r14), %xmm3
	movdqu	-64(%r12,%r14), %xmm4
	pcmpeqb	%xmm0, %xmm4
	movdqu	-48(%r12,%r14), %xmm5
	pcmpeqb	%xmm1, %xmm5
	movdqu	-32(%r12,%r14), %xmm0
	pcmpeqb	%xmm2, %xmm0
	movdqu	-16(%r12,%r14), %xmm1
	pcmpeqb	%xmm3, %xmm1
	pcmpeqd	%xmm2, %xmm2
	pxor	%xmm2, %xmm1
	pxor	%xmm2, %xmm0
	por	%xmm1, %xmm0
	pxor	%xmm2, %xmm4
	pxor	%xmm2, %xmm5
	por	%xmm4, %xmm5
	por	%xmm0, %xmm5
	pxor	%xmm0, %xmm0
	pcmpgtb	%xmm5, %xmm0
	ptest	1b(%rip), %xmm0
	jne	80b
	jmp	64b
	.p2align	4
86:
	movq	48(%rsp), %rbx
	movq	576(%rbx), %rdi
	movq	32(%rsp), %rsi
	movq	%r12, %rdx
	movq	%r14, %rcx
	callq	"clap::builder::command::Command::find"
	cmpb	$1, %al
	jne	88f
	cmpb	$0, 88(%rsp)
	jne	64b
	movq	%rdx, %r15
	movq	(%rdx), %rbx
	movq	8(%rdx), %r14
	movq	48(%rsp), %rdi
	movq	56(%rsp), %rsi
	movq	80(%rsp), %rdx
	movq	%rbx, %rcx
	movq	%r14, %r8
	callq	"clap::parser::validator::is_excused"
	testb	%al, %al
	jne	64b
	movq	104(%rsp), %rax
	cmpq	%rax, 112(%rsp)
	je	95f
87:
	movq	96(%rsp), %rcx
	movq	%rax, %rdx
	shlq	$4, %rdx
	movq	%rbx, (%rcx,%rdx)
	movq	%r14, 8(%rcx,%rdx)
	incq	%rax
	movq	%rax, 104(%rsp)
	cmpb	$0, 605(%r15)
	jne	64b
	movq	120(%rsp), %rax
	movq	496(%r15), %rcx
	cmpq	%rax, %rcx
	cmovbeq	%rax, %rcx
	cmpb	$1, 488(%r15)
	cmovneq	%rax, %rcx
	movq	%rcx, 120(%rsp)
	jmp	64b
	.p2align	4
88:
	movq	624(%rbx), %rdi
	movq	64(%rsp), %rsi
	movq	%r12, %rdx
	movq	%r14, %rcx
	callq	"clap::builder::command::Command::find_group"
	cmpb	$1, %al
	jne	64b
	leaq	144(%rsp), %rdi
	movq	48(%rsp), %rsi
	movq	%r12, %rdx
	movq	%r14, %rcx
	callq	"clap::builder::command::Command::args_in_group"
	cmpb	$0, 144(%rsp)
	jne	270f
	movq	152(%rsp), %rax
	movq	%rax, 32(%rsp)
	movq	160(%rsp), %r12
	movq	168(%rsp), %rax
	movq	%rax, 56(%rsp)
	testq	%r12, %r12
	je	91f
	movq	136(%rsp), %rax
	movq	(%rax), %r14
	movq	8(%rax), %r15
	movq	32(%rsp), %rbx
	jmp	90f
	.p2align	4
89:
	decq	%r12
	addq	$16, %rbx
	testq	%r12, %r12
	je	91f
90:
	movq	(%rbx), %rdx
	movq	8(%rbx), %rcx
	movq	%r14, %rdi
	movq	%r15, %rsi
	callq	"clap::parser::matches::Found::get"
	cmpb	$1, %al
	jne	89b
	cmpb	$1, (%rdx)
	jne	93f
	testb	$1, 1(%rdx)
	je	89b
	jmp	93f
91:
	movq	40(%rsp), %rax
	movq	(%rax,%rbp), %rbx
	movq	8(%rax,%rbp), %r14
	movq	104(%rsp), %rax
	cmpq	%rax, 112(%rsp)
	je	94f
92:
	movq	96(%rsp), %rcx
	movq	%rax, %rdx
	shlq	$4, %rdx
	movq	%rbx, (%rcx,%rdx)
	movq	%r14, 8(%rcx,%rdx)
	incq	%rax
	movq	%rax, 104(%rsp)
93:
	cmpq	$0, 56(%rsp)
	je	64b
	movq	32(%rsp), %rdi
	callq	rattle_dealloc@PLT
	jmp	64b
94:
	leaq	96(%rsp), %rdi
	movl	$1, %esi
	callq	"std_alloc::vec::Vec::grow_amortized::<#3af3ba23e56e6a09>"
	testb	%al, %al
	je	269f
	movq	104(%rsp), %rax
	jmp	92b
95:
	leaq	96(%rsp), %rdi
	movl	$1, %esi
	callq	"std_alloc::vec::Vec::grow_amortized::<#3af3ba23e56e6a09>"
	testb	%al, %al
	je	270f
	movq	104(%rsp), %rax
	jmp	87b
96:
	movq	128(%rsp), %rax
	movq	(%rax), %rcx
	movq	%rcx, 40(%rsp)
	movq	8(%rax), %rax
	movq	%rax, 72(%rsp)
	pxor	%xmm0, %xmm0
	movdqa	%xmm0, 160(%rsp)
	movdqa	%xmm0, 144(%rsp)
97:
	movq	584(%r15), %rax
	testq	%rax, %rax
	je	214f
	movq	576(%r15), %rcx
	addq	$152, %rcx
	.p2align	4
98:
	cmpq	$0, (%rcx)
	jne	63b
	addq	$608, %rcx
	decq	%rax
	jne	98b
99:
	movq	48(%rsp), %rax
	movq	584(%rax), %rax
	movq	%rax, 56(%rsp)
	testq	%rax, %rax
	je	214f
	movq	48(%rsp), %rax
	movq	576(%rax), %rax
	movq	%rax, 32(%rsp)
	xorl	%r14d, %r14d
	jmp	101f
	.p2align	4
100:
	incq	%r14
	cmpq	56(%rsp), %r14
	je	214f
101:
	imulq	$608, %r14, %rcx
	movq	32(%rsp), %rax
	movq	(%rax,%rcx), %rdx
	movq	%rcx, %rbx
	movq	8(%rax,%rcx), %rcx
	movq	136(%rsp), %rax
	movq	(%rax), %rbp
	movq	8(%rax), %r12
	movq	%rbp, %rdi
	movq	%r12, %rsi
	movq	%rdx, 40(%rsp)
	movq	%rcx, 72(%rsp)
	callq	"clap::parser::matches::Found::get"
	cmpb	$1, %al
	jne	102f
	cmpb	$1, (%rdx)
	jne	100b
	movzbl	1(%rdx), %eax
	orb	88(%rsp), %al
	testb	$1, %al
	jne	100b
	jmp	103f
	.p2align	4
102:
	cmpb	$0, 88(%rsp)
	jne	100b
103:
	movq	%rbx, %rcx
	addq	32(%rsp), %rcx
	movq	224(%rcx), %r13
	movq	248(%rcx), %rdx
	movq	%r13, %rax
	orq	%rdx, %rax
	movq	%rcx, 80(%rsp)
	jne	105f
	movq	176(%rcx), %rbx
	testq	%rbx, %rbx
	je	201f
	leaq	168(%rcx), %rax
	movq	200(%rcx), %r15
104:
	testq	%r15, %r15
	je	210f
	movq	%rax, 64(%rsp)
	movl	$0, 200(%rsp)
	jmp	204f
105:
	testq	%rdx, %rdx
	movq	%rdx, 352(%rsp)
	je	152f
	movq	240(%rcx), %rsi
106:
	movq	%rdx, 200(%rsp)
	movq	16(%rsi), %r8
	movq	24(%rsi), %r9
	testq	%r12, %r12
	je	122f
	movq	(%rsi), %rdx
	movq	8(%rsi), %r10
	leaq	-8(%r10), %r11
	leaq	-16(%r10), %rax
	cmpq	$32, %rax
	movl	$32, %r15d
	cmovbq	%rax, %r15
	cmpq	$8, %r11
	movl	$8, %ecx
	cmovbq	%r11, %rcx
	cmpq	$16, %r11
	movl	$16, %edi
	cmovbq	%r11, %rdi
	movq	%r10, %r11
	subq	$8, %r11
	jae	109f
	cmpq	$4, %r10
	jb	112f
	movq	%rbp, %rbx
	movq	%r12, %rax
	jmp	108f
	.p2align	4
107:
	addq	$104, %rbx
	decq	%rax
	je	122f
108:
	cmpq	%r10, 8(%rbx)
	jne	107b
	movq	(%rbx), %rcx
	movl	(%rcx), %edi
	movl	-4(%rcx,%r10), %ecx
	shlq	$32, %rcx
	orq	%rdi, %rcx
	movl	(%rdx), %edi
	movl	-4(%rdx,%r10), %r11d
	shlq	$32, %r11
	orq	%rdi, %r11
	cmpq	%r11, %rcx
	jne	107b
	jmp	121f
109:
	cmpq	$32, %r10
	ja	115f
	movq	%r13, 64(%rsp)
	movq	%rbp, %rbx
	movq	%r12, %rax
	jmp	111f
	.p2align	4
110:
	addq	$104, %rbx
	decq	%rax
	je	145f
111:
	cmpq	%r10, 8(%rbx)
	jne	110b
	movq	(%rbx), %r15
	movq	(%r15), %r13
	cmpq	(%rdx), %r13
	jne	110b
	movq	(%rdx,%rcx), %r13
	cmpq	%r13, (%r15,%rcx)
	jne	110b
	movq	(%rdx,%rdi), %r13
	cmpq	%r13, (%r15,%rdi)
	jne	110b
	movq	(%rdx,%r11), %r13
	cmpq	%r13, (%r15,%r11)
	jne	110b
	movb	$1, %al
	jmp	146f
112:
	testq	%r10, %r10
	je	147f
	movq	%r10, %rax
	shrq	%rax
	movq	%rbp, %rbx
	movq	%r12, %rcx
	jmp	114f
	.p2align	4
113:
	addq	$104, %rbx
	decq	%rcx
	je	122f
114:
	cmpq	%r10, 8(%rbx)
	jne	113b
	movq	(%rbx), %rdi
	movzbl	(%rdi), %r11d
	movzbl	(%rdi,%rax), %r15d
	shll	$16, %r11d
	shll	$8, %r15d
	orl	%r11d, %r15d
	movzbl	-1(%rdi,%r10), %edi
	orl	%r15d, %edi
	movzbl	(%rdx), %r11d
	movzbl	(%rdx,%rax), %r15d
	shll	$16, %r11d
	shll	$8, %r15d
	orl	%r11d, %r15d
	movzbl	-1(%rdx,%r10), %r11d
	orl	%r15d, %r11d
	cmpl	%r11d, %edi
	jne	113b
	jmp	121f
115:
	movq	%rbp, %rbx
	movq	%r12, %r11
	cmpq	$65, %r10
	jae	117f
	movq	%rbp, %rbx
	movq	%r12, %rcx
	jmp	120f
	.p2align	4
116:
	addq	$104, %rbx
	decq	%r11
	je	122f
117:
	cmpq	%r10, 8(%rbx)
	jne	116b
	movq	(%rbx), %rax
	xorl	%ecx, %ecx
	movq	%r10, %rdi
	.p2align	4
118:
	movdqu	(%rax,%rcx), %xmm0
	movdqu	16(%rax,%rcx), %xmm1
	movdqu	32(%rax,%rcx), %xmm2
	movdqu	48(%rax,%rcx), %xmm3
	movdqu	(%rdx,%rcx), %xmm4
	pcmpeqb	%xmm0, %xmm4
	movdqu	16(%rdx,%rcx), %xmm0
	pcmpeqb	%xmm1, %xmm0
	pand	%xmm4, %xmm0
	movdqu	32(%rdx,%rcx), %xmm1
	pcmpeqb	%xmm2, %xmm1
	movdqu	48(%rdx,%rcx), %xmm2
	pcmpeqb	%xmm3, %xmm2
	pand	%xmm1, %xmm2
	pand	%xmm0, %xmm2
	pmovmskb	%xmm2, %r15d
	cmpl	$65535, %r15d
	jne	116b
	addq	$64, %rcx
	addq	$-64, %rdi
	cmpq	$65, %rdi
	jae	118b
	movdqu	-64(%rax,%r10), %xmm0
	movdqu	-48(%rax,%r10), %xmm1
	movdqu	-32(%rax,%r10), %xmm2
	movdqu	-16(%rax,%r10), %xmm3
	movdqu	-64(%rdx,%r10), %xmm4
	pcmpeqb	%xmm0, %xmm4
	movdqu	-48(%rdx,%r10), %xmm0
	pcmpeqb	%xmm1, %xmm0
	pand	%xmm4, %xmm0
	movdqu	-32(%rdx,%r10), %xmm1
	pcmpeqb	%xmm2, %xmm1
	movdqu	-16(%rdx,%r10), %xmm2
	pcmpeqb	%xmm3, %xmm2
	pand	%xmm1, %xmm2
	pand	%xmm0, %xmm2
	pmovmskb	%xmm2, %eax
	cmpl	$65535, %eax
	jne	116b
	jmp	121f
	.p2align	4
119:
	addq	$104, %rbx
	decq	%rcx
	je	122f
120:
	cmpq	%r10, 8(%rbx)
	jne	119b
	movq	(%rbx), %rdi
	movdqu	(%rdi), %xmm0
	movdqu	16(%rdi), %xmm1
	movdqu	(%rdx), %xmm2
	pcmpeqb	%xmm0, %xmm2
	movdqu	16(%rdx), %xmm0
	pcmpeqb	%xmm1, %xmm0
	pand	%xmm2, %xmm0
	movdqu	(%rdi,%r15), %xmm1
	movdqu	(%rdx,%r15), %xmm2
	pcmpeqb	%xmm1, %xmm2
	movdqu	(%rdi,%rax), %xmm1
	movdqu	(%rdx,%rax), %xmm3
	pcmpeqb	%xmm1, %xmm3
	pand	%xmm2, %xmm3
	pand	%xmm0, %xmm3
	pmovmskb	%xmm3, %edi
	cmpl	$65535, %edi
	jne	119b
121:
	movb	$1, %al
	jmp	123f
	.p2align	4
122:
	xorl	%eax, %eax
	xorl	%ebx, %ebx
123:
	cmpb	$1, %al
	jne	202f
	movb	$1, %al
	movl	%eax, 64(%rsp)
	cmpb	$1, 16(%rbx)
	jne	124f
	cmpb	$1, 17(%rbx)
	jne	153f
124:
	movq	56(%rbx), %r10
	testq	%r10, %r10
	je	153f
	leaq	-16(%r9), %r15
	cmpq	$32, %r15
	movl	$32, %eax
	cmovbq	%r15, %rax
	movq	48(%rbx), %r11
	leaq	-8(%r9), %rdx
	cmpq	$8, %rdx
	movl	$8, %edi
	cmovbq	%rdx, %rdi
	cmpq	$16, %rdx
	movl	$16, %ecx
	cmovbq	%rdx, %rcx
	cmpb	$1, 98(%rbx)
	jne	130f
	testq	%r9, %r9
	jne	127f
	addq	$8, %r11
	.p2align	4
125:
	cmpq	$0, (%r11)
	je	129f
	addq	$16, %r11
	decq	%r10
	jne	125b
	jmp	153f
	.p2align	4
126:
	addq	$16, %r11
	decq	%r10
	je	153f
127:
	cmpq	%r9, 8(%r11)
	jne	126b
	movq	(%r11), %rax
	xorl	%ecx, %ecx
	.p2align	4
128:
	movzbl	(%rax,%rcx), %edx
	leal	-65(%rdx), %edi
	leal	32(%rdx), %ebx
	cmpb	$26, %dil
	movzbl	%bl, %edi
	cmovael	%edx, %edi
	movzbl	(%r8,%rcx), %edx
	leal	-65(%rdx), %ebx
	leal	32(%rdx), %r15d
	cmpb	$26, %bl
	movzbl	%r15b, %ebx
	cmovael	%edx, %ebx
	cmpb	%bl, %dil
	jne	126b
	incq	%rcx
	cmpq	%rcx, %r9
	jne	128b
129:
	addq	$32, %rsi
	movq	200(%rsp), %rdx
	decq	%rdx
	jne	106b
	jmp	152f
	.p2align	4
130:
	cmpq	$7, %r9
	ja	133f
	cmpq	$4, %r9
	jb	136f
	addq	$8, %r11
	jmp	132f
	.p2align	4
131:
	decq	%r10
	addq	$16, %r11
	testq	%r10, %r10
	je	153f
132:
	cmpq	%r9, (%r11)
	jne	131b
	movq	-8(%r11), %rax
	movl	(%rax), %ecx
	movl	-4(%rax,%r9), %eax
	shlq	$32, %rax
	orq	%rcx, %rax
	movl	(%r8), %ecx
	movl	-4(%r8,%r9), %edx
	shlq	$32, %rdx
	orq	%rcx, %rdx
	cmpq	%rdx, %rax
	jne	131b
	jmp	129b
133:
	cmpq	$32, %r9
	ja	139f
	addq	$8, %r11
	jmp	135f
	.p2align	4
134:
	decq	%r10
	addq	$16, %r11
	testq	%r10, %r10
	je	153f
135:
	cmpq	%r9, (%r11)
	jne	134b
	movq	-8(%r11), %rax
	movq	(%rax), %rbx
	cmpq	(%r8), %rbx
	jne	134b
	movq	(%r8,%rdi), %rbx
	cmpq	%rbx, (%rax,%rdi)
	jne	134b
	movq	(%r8,%rcx), %rbx
	cmpq	%rbx, (%rax,%rcx)
	jne	134b
	movq	(%r8,%rdx), %rbx
	cmpq	%rbx, (%rax,%rdx)
	jne	134b
	jmp	129b
136:
	testq	%r9, %r9
	je	149f
	movq	%r9, %rax
	shrq	%rax
	addq	$8, %r11
	jmp	138f
	.p2align	4
137:
	decq	%r10
	addq	$16, %r11
	testq	%r10, %r10
	je	153f
138:
	cmpq	%r9, (%r11)
	jne	137b
	movq	-8(%r11), %rcx
	movzbl	(%rcx), %edx
	movzbl	(%rcx,%rax), %edi
	shll	$16, %edx
	shll	$8, %edi
	orl	%edx, %edi
	movzbl	-1(%rcx,%r9), %ecx
	orl	%edi, %ecx
	movzbl	(%r8), %edx
	movzbl	(%r8,%rax), %edi
	shll	$16, %edx
	shll	$8, %edi
	orl	%edx, %edi
	movzbl	-1(%r8,%r9), %edx
	orl	%edi, %edx
	cmpl	%edx, %ecx
	jne	137b
	jmp	129b
139:
	cmpq	$65, %r9
	jae	141f
	addq	$8, %r11
	jmp	144f
	.p2align	4
140:
	addq	$16, %r11
	decq	%r10
	je	153f
141:
	cmpq	%r9, 8(%r11)
	jne	140b
	movq	(%r11), %rax
	xorl	%ecx, %ecx
	movq	%r9, %rdx
	.p2align	4
142:
	movdqu	(%rax,%rcx), %xmm0
	movdqu	16(%rax,%rcx), %xmm1
	movdqu	32(%rax,%rcx), %xmm2
	movdqu	48(%rax,%rcx), %xmm3
	movdqu	(%r8,%rcx), %xmm4
	pcmpeqb	%xmm0, %xmm4
	movdqu	16(%r8,%rcx), %xmm0
	pcmpeqb	%xmm1, %xmm0
	pand	%xmm4, %xmm0
	movdqu	32(%r8,%rcx), %xmm1
	pcmpeqb	%xmm2, %xmm1
	movdqu	48(%r8,%rcx), %xmm2
	pcmpeqb	%xmm3, %xmm2
	pand	%xmm1, %xmm2
	pand	%xmm0, %xmm2
	pmovmskb	%xmm2, %edi
	cmpl	$65535, %edi
	jne	140b
	addq	$64, %rcx
	addq	$-64, %rdx
	cmpq	$65, %rdx
	jae	142b
	movdqu	-64(%rax,%r9), %xmm0
	movdqu	-48(%rax,%r9), %xmm1
	movdqu	-32(%rax,%r9), %xmm2
	movdqu	-16(%rax,%r9), %xmm3
	movdqu	-64(%r8,%r9), %xmm4
	pcmpeqb	%xmm0, %xmm4
	movdqu	-48(%r8,%r9), %xmm0
	pcmpeqb	%xmm1, %xmm0
	pand	%xmm4, %xmm0
	movdqu	-32(%r8,%r9), %xmm1
	pcmpeqb	%xmm2, %xmm1
	movdqu	-16(%r8,%r9), %xmm2
	pcmpeqb	%xmm3, %xmm2
	pand	%xmm1, %xmm2
	pand	%xmm0, %xmm2
	pmovmskb	%xmm2, %eax
	cmpl	$65535, %eax
	jne	140b
	jmp	129b
	.p2align	4
143:
	decq	%r10
	addq	$16, %r11
	testq	%r10, %r10
	je	153f
144:
	cmpq	%r9, (%r11)
	jne	143b
	movq	-8(%r11), %rcx
	movdqu	(%rcx), %xmm0
	movdqu	16(%rcx), %xmm1
	movdqu	(%r8), %xmm2
	pcmpeqb	%xmm0, %xmm2
	movdqu	16(%r8), %xmm0
	pcmpeqb	%xmm1, %xmm0
	pand	%xmm2, %xmm0
	movdqu	(%rcx,%rax), %xmm1
	movdqu	(%r8,%rax), %xmm2
	pcmpeqb	%xmm1, %xmm2
	movdqu	(%rcx,%r15), %xmm1
	movdqu	(%r8,%r15), %xmm3
	pcmpeqb	%xmm1, %xmm3
	pand	%xmm2, %xmm3
	pand	%xmm0, %xmm3
	pmovmskb	%xmm3, %ecx
	cmpl	$65535, %ecx
	jne	143b
	jmp	129b
145:
	xorl	%eax, %eax
	xorl	%ebx, %ebx
146:
	movq	64(%rsp), %r13
	jmp	123b
147:
	movq	%rbp, %rcx
	movq	%r12, %rdx
	.p2align	4
148:
	cmpq	$0, 8(%rcx)
	je	151f
	addq	$104, %rcx
	xorl	%eax, %eax
	movl	$0, %ebx
	decq	%rdx
	jne	148b
	jmp	123b
149:
	addq	$8, %r11
	.p2align	4
150:
	cmpq	$0, (%r11)
	je	129b
	addq	$16, %r11
	decq	%r10
	jne	150b
	jmp	153f
151:
	movb	$1, %al
	movq	%rcx, %rbx
	jmp	123b
152:
	movl	$0, 64(%rsp)
153:
	testq	%r13, %r13
	je	203f
154:
	movq	80(%rsp), %rax
	movq	216(%rax), %rsi
	movq	%rbp, 280(%rsp)
	jmp	156f
	.p2align	4
155:
	addq	$32, %rsi
	decq	%r13
	je	203f
156:
	movq	16(%rsi), %rdi
	movq	24(%rsi), %r8
	testq	%r12, %r12
	je	172f
	movq	(%rsi), %r9
	movq	8(%rsi), %r10
	leaq	-8(%r10), %r11
	leaq	-16(%r10), %rax
	cmpq	$32, %rax
	movl	$32, %r15d
	cmovbq	%rax, %r15
	cmpq	$8, %r11
	movl	$8, %ecx
	cmovbq	%r11, %rcx
	cmpq	$16, %r11
	movl	$16, %edx
	cmovbq	%r11, %rdx
	movq	%r10, %rbx
	subq	$8, %rbx
	jae	159f
	cmpq	$4, %r10
	jb	162f
	movq	%rbp, %r11
	movq	%r12, %rax
	jmp	158f
	.p2align	4
157:
	addq	$104, %r11
	decq	%rax
	je	172f
158:
	cmpq	%r10, 8(%r11)
	jne	157b
	movq	(%r11), %rcx
	movl	(%rcx), %edx
	movl	-4(%rcx,%r10), %ecx
	shlq	$32, %rcx
	orq	%rdx, %rcx
	movl	(%r9), %edx
	movl	-4(%r9,%r10), %ebx
	shlq	$32, %rbx
	orq	%rdx, %rbx
	cmpq	%rbx, %rcx
	jne	157b
	jmp	171f
	.p2align	4
159:
	cmpq	$32, %r10
	ja	165f
	movq	%rbp, %r11
	movq	%r13, %rbp
	movq	%r12, %rax
	jmp	161f
	.p2align	4
160:
	addq	$104, %r11
	decq	%rax
	je	182f
161:
	cmpq	%r10, 8(%r11)
	jne	160b
	movq	(%r11), %r15
	movq	(%r15), %r13
	cmpq	(%r9), %r13
	jne	160b
	movq	(%r9,%rcx), %r13
	cmpq	%r13, (%r15,%rcx)
	jne	160b
	movq	(%r9,%rdx), %r13
	cmpq	%r13, (%r15,%rdx)
	jne	160b
	movq	(%r9,%rbx), %r13
	cmpq	%r13, (%r15,%rbx)
	jne	160b
	movb	$1, %al
	jmp	183f
162:
	testq	%r10, %r10
	je	184f
	movq	%r10, %rax
	shrq	%rax
	movq	%rbp, %r11
	movq	%r12, %rcx
	jmp	164f
	.p2align	4
163:
	addq	$104, %r11
	decq	%rcx
	je	172f
164:
	cmpq	%r10, 8(%r11)
	jne	163b
	movq	(%r11), %rdx
	movzbl	(%rdx), %ebx
	movzbl	(%rdx,%rax), %r15d
	shll	$16, %ebx
	shll	$8, %r15d
	orl	%ebx, %r15d
	movzbl	-1(%rdx,%r10), %edx
	orl	%r15d, %edx
	movzbl	(%r9), %ebx
	movzbl	(%r9,%rax), %r15d
	shll	$16, %ebx
	shll	$8, %r15d
	orl	%ebx, %r15d
	movzbl	-1(%r9,%r10), %ebx
	orl	%r15d, %ebx
	cmpl	%ebx, %edx
	jne	163b
	jmp	171f
165:
	movq	%rbp, %r11
	movq	%r12, %rbx
	cmpq	$65, %r10
	jae	167f
	movq	%rbp, %r11
	movq	%r12, %rcx
	jmp	170f
	.p2align	4
166:
	addq	$104, %r11
	decq	%rbx
	je	172f
167:
	cmpq	%r10, 8(%r11)
	jne	166b
	movq	(%r11), %rax
	xorl	%ecx, %ecx
	movq	%r10, %rdx
	.p2align	4
168:
	movdqu	(%rax,%rcx), %xmm0
	movdqu	16(%rax,%rcx), %xmm1
	movdqu	32(%rax,%rcx), %xmm2
	movdqu	48(%rax,%rcx), %xmm3
	movdqu	(%r9,%rcx), %xmm4
	pcmpeqb	%xmm0, %xmm4
	movdqu	16(%r9,%rcx), %xmm0
	pcmpeqb	%xmm1, %xmm0
	pand	%xmm4, %xmm0
	movdqu	32(%r9,%rcx), %xmm1
	pcmpeqb	%xmm2, %xmm1
	movdqu	48(%r9,%rcx), %xmm2
	pcmpeqb	%xmm3, %xmm2
	pand	%xmm1, %xmm2
	pand	%xmm0, %xmm2
	pmovmskb	%xmm2, %r15d
	cmpl	$65535, %r15d
	jne	166b
	addq	$64, %rcx
	addq	$-64, %rdx
	cmpq	$65, %rdx
	jae	168b
	movdqu	-64(%rax,%r10), %xmm0
	movdqu	-48(%rax,%r10), %xmm1
	movdqu	-32(%rax,%r10), %xmm2
	movdqu	-16(%rax,%r10), %xmm3
	movdqu	-64(%r9,%r10), %xmm4
	pcmpeqb	%xmm0, %xmm4
	movdqu	-48(%r9,%r10), %xmm0
	pcmpeqb	%xmm1, %xmm0
	pand	%xmm4, %xmm0
	movdqu	-32(%r9,%r10), %xmm1
	pcmpeqb	%xmm2, %xmm1
	movdqu	-16(%r9,%r10), %xmm2
	pcmpeqb	%xmm3, %xmm2
	pand	%xmm1, %xmm2
	pand	%xmm0, %xmm2
	pmovmskb	%xmm2, %eax
	cmpl	$65535, %eax
	jne	166b
	jmp	171f
	.p2align	4
169:
	addq	$104, %r11
	decq	%rcx
	je	172f
170:
	cmpq	%r10, 8(%r11)
	jne	169b
	movq	(%r11), %rdx
	movdqu	(%rdx), %xmm0
	movdqu	16(%rdx), %xmm1
	movdqu	(%r9), %xmm2
	pcmpeqb	%xmm0, %xmm2
	movdqu	16(%r9), %xmm0
	pcmpeqb	%xmm1, %xmm0
	pand	%xmm2, %xmm0
	movdqu	(%rdx,%r15), %xmm1
	movdqu	(%r9,%r15), %xmm2
	pcmpeqb	%xmm1, %xmm2
	movdqu	(%rdx,%rax), %xmm1
	movdqu	(%r9,%rax), %xmm3
	pcmpeqb	%xmm1, %xmm3
	pand	%xmm2, %xmm3
	pand	%xmm0, %xmm3
	pmovmskb	%xmm3, %edx
	cmpl	$65535, %edx
	jne	169b
171:
	movb	$1, %al
	jmp	173f
	.p2align	4
172:
	xorl	%eax, %eax
	xorl	%r11d, %r11d
173:
	cmpb	$1, %al
	jne	155b
	cmpb	$1, 16(%r11)
	jne	174f
	cmpb	$1, 17(%r11)
	jne	155b
174:
	movq	56(%r11), %r9
	testq	%r9, %r9
	je	155b
	leaq	-16(%r8), %rbx
	cmpq	$32, %rbx
	movl	$32, %r15d
	cmovbq	%rbx, %r15
	movq	48(%r11), %r10
	leaq	-8(%r8), %rax
	cmpq	$8, %rax
	movl	$8, %edx
	cmovbq	%rax, %rdx
	cmpq	$16, %rax
	movl	$16, %ecx
	cmovbq	%rax, %rcx
	cmpb	$1, 98(%r11)
	jne	179f
	testq	%r8, %r8
	jne	177f
	addq	$8, %r10
	.p2align	4
175:
	cmpq	$0, (%r10)
	je	208f
	addq	$16, %r10
	decq	%r9
	jne	175b
	jmp	155b
	.p2align	4
176:
	addq	$16, %r10
	decq	%r9
	je	155b
177:
	cmpq	%r8, 8(%r10)
	jne	176b
	movq	(%r10), %rax
	xorl	%ecx, %ecx
	.p2align	4
178:
	movzbl	(%rax,%rcx), %edx
	leal	-65(%rdx), %r11d
	leal	32(%rdx), %ebx
	cmpb	$26, %r11b
	movzbl	%bl, %r11d
	cmovael	%edx, %r11d
	movzbl	(%rdi,%rcx), %edx
	leal	-65(%rdx), %ebx
	leal	32(%rdx), %r15d
	cmpb	$26, %bl
	movzbl	%r15b, %ebx
	cmovael	%edx, %ebx
	cmpb	%bl, %r11b
	jne	176b
	incq	%rcx
	cmpq	%rcx, %r8
	jne	178b
	jmp	208f
179:
	cmpq	$7, %r8
	ja	186f
	cmpq	$4, %r8
	jb	190f
	addq	$8, %r10
	jmp	181f
	.p2align	4
180:
	decq	%r9
	addq	$16, %r10
	testq	%r9, %r9
	je	155b
181:
	cmpq	%r8, (%r10)
	jne	180b
	movq	-8(%r10), %rax
	movl	(%rax), %ecx
	movl	-4(%rax,%r8), %eax
	shlq	$32, %rax
	orq	%rcx, %rax
	movl	(%rdi), %ecx
	movl	-4(%rdi,%r8), %edx
	shlq	$32, %rdx
	orq	%rcx, %rdx
	cmpq	%rdx, %rax
	jne	180b
	jmp	208f
182:
	xorl	%eax, %eax
	xorl	%r11d, %r11d
183:
	movq	%rbp, %r13
	movq	280(%rsp), %rbp
	jmp	173b
184:
	movq	%rbp, %rcx
	movq	%r12, %rdx
	.p2align	4
185:
	cmpq	$0, 8(%rcx)
	je	189f
	addq	$104, %rcx
	xorl	%eax, %eax
	movl	$0, %r11d
	decq	%rdx
	jne	185b
	jmp	173b
186:
	cmpq	$32, %r8
	ja	193f
	addq	$8, %r10
	jmp	188f
	.p2align	4
187:
	decq	%r9
	addq	$16, %r10
	testq	%r9, %r9
	je	155b
188:
	cmpq	%r8, (%r10)
	jne	187b
	movq	-8(%r10), %r11
	movq	(%r11), %rbx
	cmpq	(%rdi), %rbx
	jne	187b
	movq	(%rdi,%rdx), %rbx
	cmpq	%rbx, (%r11,%rdx)
	jne	187b
	movq	(%rdi,%rcx), %rbx
	cmpq	%rbx, (%r11,%rcx)
	jne	187b
	movq	(%rdi,%rax), %rbx
	cmpq	%rbx, (%r11,%rax)
	jne	187b
	jmp	208f
189:
	movb	$1, %al
	movq	%rcx, %r11
	jmp	173b
190:
	testq	%r8, %r8
	je	199f
	movq	%r8, %rax
	shrq	%rax
	addq	$8, %r10
	jmp	192f
	.p2align	4
191:
	decq	%r9
	addq	$16, %r10
	testq	%r9, %r9
	je	155b
192:
	cmpq	%r8, (%r10)
	jne	191b
	movq	-8(%r10), %rcx
	movzbl	(%rcx), %edx
	movzbl	(%rcx,%rax), %r11d
	shll	$16, %edx
	shll	$8, %r11d
	orl	%edx, %r11d
	movzbl	-1(%rcx,%r8), %ecx
	orl	%r11d, %ecx
	movzbl	(%rdi), %edx
	movzbl	(%rdi,%rax), %r11d
	shll	$16, %edx
	shll	$8, %r11d
	orl	%edx, %r11d
	movzbl	-1(%rdi,%r8), %edx
	orl	%r11d, %edx
	cmpl	%edx, %ecx
	jne	191b
	jmp	208f
193:
	cmpq	$65, %r8
	jae	195f
	addq	$8, %r10
	jmp	198f
	.p2align	4
194:
	addq	$16, %r10
	decq	%r9
	je	155b
195:
	cmpq	%r8, 8(%r10)
	jne	194b
	movq	(%r10), %rax
	xorl	%ecx, %ecx
	movq	%r8, %rdx
	.p2align	4
196:
	movdqu	(%rax,%rcx), %xmm0
	movdqu	16(%rax,%rcx), %xmm1
	movdqu	32(%rax,%rcx), %xmm2
	movdqu	48(%rax,%rcx), %xmm3
	movdqu	(%rdi,%rcx), %xmm4
	pcmpeqb	%xmm0, %xmm4
	movdqu	16(%rdi,%rcx), %xmm0
	pcmpeqb	%xmm1, %xmm0
	pand	%xmm4, %xmm0
	movdqu	32(%rdi,%rcx), %xmm1
	pcmpeqb	%xmm2, %xmm1
	movdqu	48(%rdi,%rcx), %xmm2
	pcmpeqb	%xmm3, %xmm2
	pand	%xmm1, %xmm2
	pand	%xmm0, %xmm2
	pmovmskb	%xmm2, %r11d
	cmpl	$65535, %r11d
	jne	194b
	addq	$64, %rcx
	addq	$-64, %rdx
	cmpq	$65, %rdx
	jae	196b
	movdqu	-64(%rax,%r8), %xmm0
	movdqu	-48(%rax,%r8), %xmm1
	movdqu	-32(%rax,%r8), %xmm2
	movdqu	-16(%rax,%r8), %xmm3
	movdqu	-64(%rdi,%r8), %xmm4
	pcmpeqb	%xmm0, %xmm4
	movdqu	-48(%rdi,%r8), %xmm0
	pcmpeqb	%xmm1, %xmm0
	pand	%xmm4, %xmm0
	movdqu	-32(%rdi,%r8), %xmm1
	pcmpeqb	%xmm2, %xmm1
	movdqu	-16(%rdi,%r8), %xmm2
	pcmpeqb	%xmm3, %xmm2
	pand	%xmm1, %xmm2
	pand	%xmm0, %xmm2
	pmovmskb	%xmm2, %eax
	cmpl	$65535, %eax
	jne	194b
	jmp	208f
	.p2align	4
197:
	decq	%r9
	addq	$16, %r10
	testq	%r9, %r9
	je	155b
198:
	cmpq	%r8, (%r10)
	jne	197b
	movq	-8(%r10), %rax
	movdqu	(%rax), %xmm0
	movdqu	16(%rax), %xmm1
	movdqu	(%rdi), %xmm2
	pcmpeqb	%xmm0, %xmm2
	movdqu	16(%rdi), %xmm0
	pcmpeqb	%xmm1, %xmm0
	pand	%xmm2, %xmm0
	movdqu	(%rax,%r15), %xmm1
	movdqu	(%rdi,%r15), %xmm2
	pcmpeqb	%xmm1, %xmm2
	movdqu	(%rax,%rbx), %xmm1
	movdqu	(%rdi,%rbx), %xmm3
	pcmpeqb	%xmm1, %xmm3
	pand	%xmm2, %xmm3
	pand	%xmm0, %xmm3
	pmovmskb	%xmm3, %eax
	cmpl	$65535, %eax
	jne	197b
	jmp	208f
199:
	addq	$8, %r10
	.p2align	4
200:
	cmpq	$0, (%r10)
	je	208f
	addq	$16, %r10
	decq	%r9
	jne	200b
	jmp	155b
201:
	cmpq	$0, 200(%rcx)
	je	100b
	movq	80(%rsp), %rax
	movq	200(%rax), %r15
	testq	%r15, %r15
	je	100b
	movq	80(%rsp), %rcx
	leaq	168(%rcx), %rax
	movq	%rax, 64(%rsp)
	movb	$1, %al
	movl	%eax, 200(%rsp)
	xorl	%ebx, %ebx
	jmp	204f
202:
	movb	$1, %al
	movl	%eax, 64(%rsp)
	testq	%r13, %r13
	jne	154b
203:
	cmpq	$0, 352(%rsp)
	setne	%al
	movl	64(%rsp), %ecx
	xorb	$1, %cl
	testb	%cl, %al
	jne	208f
	movq	80(%rsp), %rcx
	movq	176(%rcx), %rbx
	movq	200(%rcx), %r15
	leaq	168(%rcx), %rax
	testq	%rbx, %rbx
	jne	104b
	movq	%rax, 64(%rsp)
	testq	%r15, %r15
	je	100b
	movb	$1, %al
	movl	%eax, 200(%rsp)
	xorl	%ebx, %ebx
	movq	80(%rsp), %rcx
204:
	movq	192(%rcx), %r13
	jmp	206f
	.p2align	4
205:
	decq	%r15
	addq	$16, %r13
	testq	%r15, %r15
	je	100b
206:
	movq	(%r13), %rdx
	movq	8(%r13), %rcx
	movq	%rbp, %rdi
	movq	%r12, %rsi
	callq	"clap::parser::matches::Found::get"
	cmpb	$1, %al
	jne	207f
	cmpb	$1, (%rdx)
	jne	205b
	cmpb	$1, 1(%rdx)
	je	205b
207:
	cmpb	$0, 200(%rsp)
	movq	64(%rsp), %rax
	je	210f
	.p2align	4
208:
	movq	104(%rsp), %rax
	cmpq	%rax, 112(%rsp)
	je	213f
209:
	movq	96(%rsp), %rcx
	movq	%rax, %rdx
	shlq	$4, %rdx
	movq	40(%rsp), %rsi
	movq	%rsi, (%rcx,%rdx)
	movq	72(%rsp), %rsi
	movq	%rsi, 8(%rcx,%rdx)
	incq	%rax
	movq	%rax, 104(%rsp)
	movq	80(%rsp), %rax
	cmpb	$0, 605(%rax)
	jne	100b
	movq	120(%rsp), %rax
	movq	80(%rsp), %rdx
	movq	496(%rdx), %rcx
	cmpq	%rax, %rcx
	cmovbeq	%rax, %rcx
	cmpb	$1, 488(%rdx)
	cmovneq	%rax, %rcx
	movq	%rcx, 120(%rsp)
	jmp	100b
210:
	movq	(%rax), %r15
	jmp	212f
	.p2align	4
211:
	decq	%rbx
	addq	$16, %r15
	testq	%rbx, %rbx
	je	208b
212:
	movq	(%r15), %rdx
	movq	8(%r15), %rcx
	movq	%rbp, %rdi
	movq	%r12, %rsi
	callq	"clap::parser::matches::Found::get"
	cmpb	$1, %al
	jne	211b
	cmpb	$1, (%rdx)
	jne	100b
	testb	$1, 1(%rdx)
	je	211b
	jmp	100b
213:
	leaq	96(%rsp), %rdi
	movl	$1, %esi
	callq	"std_alloc::vec::Vec::grow_amortized::<#3af3ba23e56e6a09>"
	testb	%al, %al
	je	270f
	movq	104(%rsp), %rax
	jmp	209b
214:
	movq	48(%rsp), %rbp
	cmpb	$0, 660(%rbp)
	movq	136(%rsp), %r13
	jne	220f
	cmpq	$0, 120(%rsp)
	je	220f
	movq	584(%rbp), %r15
	testq	%r15, %r15
	je	220f
	movq	576(%rbp), %r12
	addq	$496, %r12
	jmp	218f
215:
	movq	104(%rsp), %rax
216:
	movq	96(%rsp), %rcx
	movq	%rax, %rdx
	shlq	$4, %rdx
	movq	%rbx, (%rcx,%rdx)
	movq	%r14, 8(%rcx,%rdx)
	incq	%rax
	movq	%rax, 104(%rsp)
	.p2align	4
217:
	addq	$608, %r12
	decq	%r15
	je	220f
218:
	cmpb	$1, -8(%r12)
	jne	217b
	movq	-496(%r12), %rbx
	movq	-488(%r12), %r14
	movq	(%r13), %rdi
	movq	8(%r13), %rsi
	movq	%rbx, %rdx
	movq	%r14, %rcx
	callq	"clap::parser::matches::Found::get"
	cmpb	$1, %al
	jne	219f
	cmpb	$1, (%rdx)
	jne	217b
	testb	$1, 1(%rdx)
	jne	217b
	.p2align	4
219:
	movq	(%r12), %rax
	cmpq	120(%rsp), %rax
	jae	217b
	movq	104(%rsp), %rax
	cmpq	%rax, 112(%rsp)
	jne	216b
	leaq	96(%rsp), %rdi
	movl	$1, %esi
	callq	"std_alloc::vec::Vec::grow_amortized::<#3af3ba23e56e6a09>"
	testb	%al, %al
	jne	215b
	jmp	270f
220:
	movq	104(%rsp), %r12
	testq	%r12, %r12
	je	227f
	movq	128(%rsp), %rax
	movq	(%rax), %r15
	movq	8(%rax), %r14
	movq	96(%rsp), %rbx
	movq	112(%rsp), %rax
	movq	%rax, 88(%rsp)
	pxor	%xmm0, %xmm0
	movdqa	%xmm0, 256(%rsp)
	movq	$0, 272(%rsp)
	movdqa	%xmm0, 400(%rsp)
	movdqa	%xmm0, 416(%rsp)
	movdqa	%xmm0, 368(%rsp)
	movdqa	%xmm0, 384(%rsp)
	movq	%r14, 8(%rsp)
	movq	%r15, (%rsp)
	leaq	400(%rsp), %rdi
	movq	%rbp, %rsi
	movq	%rbx, %rdx
	movq	%r12, %rcx
	movl	$1, %r8d
	movq	%r13, %r9
	callq	"clap::output::usage::required_usage_from"
	cmpb	$0, 400(%rsp)
	je	229f
	cmpq	$0, 88(%rsp)
	je	223f
221:
	movq	%rbx, %rdi
222:
	callq	rattle_dealloc@PLT
223:
	pxor	%xmm0, %xmm0
	movdqa	%xmm0, 176(%rsp)
	movq	$0, 192(%rsp)
	movb	$16, %r12b
	movb	$1, %al
224:
	xorl	%r13d, %r13d
225:
	movq	360(%rsp), %rcx
	movb	%al, (%rcx)
	movb	%r12b, 8(%rcx)
	movq	%r13, 16(%rcx)
	movdqa	176(%rsp), %xmm0
	movdqu	%xmm0, 24(%rcx)
	movq	192(%rsp), %rax
	movq	%rax, 40(%rcx)
226:
	addq	$488, %rsp
	popq	%rbx
	popq	%r12
	popq	%r13
	popq	%r14
	popq	%r15
	popq	%rbp
	retq
227:
	cmpq	$0, 112(%rsp)
	je	228f
	movq	96(%rsp), %rdi
	callq	rattle_dealloc@PLT
228:
	movq	448(%rsp), %rax
	movq	%rax, 192(%rsp)
	movdqa	432(%rsp), %xmm0
	movdqa	%xmm0, 176(%rsp)
	xorl	%eax, %eax
	xorl	%r12d, %r12d
	jmp	224b
229:
	movq	%r14, 128(%rsp)
	movq	%r15, 64(%rsp)
	movq	%rbx, 40(%rsp)
	movq	408(%rsp), %rax
	movq	%rax, 72(%rsp)
	movq	416(%rsp), %rax
	movq	%rax, 56(%rsp)
	movq	424(%rsp), %rax
	movq	%rax, 80(%rsp)
	leaq	24(%rsp), %rax
	movq	%rax, 32(%rsp)
	movq	%rax, 208(%rsp)
	pxor	%xmm0, %xmm0
	movdqu	%xmm0, 216(%rsp)
	movq	8(%r13), %r14
	testq	%r14, %r14
	je	236f
	movq	(%r13), %rbx
	addq	$17, %rbx
	xorl	%r15d, %r15d
	movq	128(%rsp), %rcx
	jmp	232f
	.p2align	4
230:
	movq	48(%rsp), %rbp
	movq	128(%rsp), %rcx
231:
	addq	$104, %rbx
	decq	%r14
	je	237f
232:
	cmpb	$1, -1(%rbx)
	jne	233f
	cmpb	$1, (%rbx)
	jne	231b
233:
	movq	-17(%rbx), %r13
	movq	%rbp, %rax
	movq	-9(%rbx), %rbp
	movq	576(%rax), %rdi
	movq	584(%rax), %rsi
	movq	%r13, %rdx
	movq	%rbp, %rcx
	callq	"clap::builder::command::Command::find"
	cmpb	$1, %al
	jne	230b
	cmpb	$0, 594(%rdx)
	jne	230b
	cmpq	%r15, 224(%rsp)
	movq	128(%rsp), %rcx
	je	235f
234:
	movq	%r15, %rax
	shlq	$4, %rax
	movq	32(%rsp), %rdx
	movq	%r13, (%rdx,%rax)
	movq	%rbp, 8(%rdx,%rax)
	incq	%r15
	movq	%r15, 216(%rsp)
	movq	48(%rsp), %rbp
	jmp	231b
235:
	leaq	208(%rsp), %rdi
	movl	$1, %esi
	callq	"std_alloc::vec::Vec::grow_amortized::<#3af3ba23e56e6a09>"
	testb	%al, %al
	je	263f
	movq	208(%rsp), %rax
	movq	%rax, 32(%rsp)
	movq	216(%rsp), %r15
	movq	128(%rsp), %rcx
	jmp	234b
236:
	xorl	%r15d, %r15d
	movq	128(%rsp), %rcx
237:
	movq	40(%rsp), %rax
	leaq	8(%rax), %rbx
	jmp	239f
	.p2align	4
238:
	decq	%r12
	movq	208(%rsp), %r13
	movq	%r15, %rax
	shlq	$4, %rax
	movq	%r14, (%r13,%rax)
	movq	%rbp, 8(%r13,%rax)
	incq	%r15
	movq	%r15, 216(%rsp)
	addq	$16, %rbx
	testq	%r12, %r12
	je	240f
239:
	movq	-8(%rbx), %r14
	movq	(%rbx), %rbp
	cmpq	%r15, 224(%rsp)
	jne	238b
	leaq	208(%rsp), %rdi
	movl	$1, %esi
	callq	"std_alloc::vec::Vec::grow_amortized::<#3af3ba23e56e6a09>"
	testb	%al, %al
	je	254f
	movq	216(%rsp), %r15
	movq	128(%rsp), %rcx
	jmp	238b
240:
	cmpq	$0, 88(%rsp)
	je	241f
	movq	40(%rsp), %rdi
	callq	rattle_dealloc@PLT
	movq	128(%rsp), %rcx
241:
	movq	$1, 464(%rsp)
	movq	64(%rsp), %rax
	movq	%rax, 472(%rsp)
	movq	%rcx, 480(%rsp)
	leaq	368(%rsp), %rdi
	leaq	464(%rsp), %r8
	movq	48(%rsp), %rbp
	movq	%rbp, %rsi
	movq	%r13, %rdx
	movq	%r15, %rcx
	callq	"clap::output::usage::with_title"
	cmpb	$0, 368(%rsp)
	je	245f
	cmpq	$0, 224(%rsp)
	je	242f
	movq	%r13, %rdi
	callq	rattle_dealloc@PLT
242:
	movq	56(%rsp), %r15
	testq	%r15, %r15
	movq	72(%rsp), %r14
	je	259f
	leaq	16(%r14), %rbx
	jmp	244f
	.p2align	4
243:
	addq	$24, %rbx
	decq	%r15
	je	259f
244:
	cmpq	$0, (%rbx)
	je	243b
	movq	-16(%rbx), %rdi
	callq	rattle_dealloc@PLT
	jmp	243b
245:
	movq	376(%rsp), %r14
	movq	384(%rsp), %r12
	movq	392(%rsp), %r15
	pxor	%xmm0, %xmm0
	movdqa	%xmm0, 144(%rsp)
	movdqa	%xmm0, 160(%rsp)
	movdqa	%xmm0, 320(%rsp)
	movq	$0, 336(%rsp)
	movl	$7, %edi
	movl	$1, %esi
	callq	rattle_alloc@PLT
	testb	$1, %al
	jne	260f
246:
	pxor	%xmm0, %xmm0
	movdqa	%xmm0, 256(%rsp)
	movq	$0, 272(%rsp)
	xorl	%ebx, %ebx
	xorl	%r12d, %r12d
	xorl	%r13d, %r13d
	movq	72(%rsp), %rbp
	testq	%r15, %r15
	je	248f
247:
	movq	%r14, %rdi
	callq	rattle_dealloc@PLT
248:
	cmpq	$0, 224(%rsp)
	movq	56(%rsp), %r15
	je	249f
	movq	208(%rsp), %rdi
	callq	rattle_dealloc@PLT
249:
	testq	%r15, %r15
	je	252f
	leaq	16(%rbp), %r14
	jmp	251f
	.p2align	4
250:
	addq	$24, %r14
	decq	%r15
	je	252f
251:
	cmpq	$0, (%r14)
	je	250b
	movq	-16(%r14), %rdi
	callq	rattle_dealloc@PLT
	jmp	250b
252:
	cmpq	$0, 80(%rsp)
	je	253f
	movq	%rbp, %rdi
	callq	rattle_dealloc@PLT
253:
	movq	272(%rsp), %rax
	movq	%rax, 304(%rsp)
	movdqa	256(%rsp), %xmm0
	movdqa	%xmm0, 288(%rsp)
	testb	%bl, %bl
	je	223b
	movq	304(%rsp), %rax
	movq	%rax, 192(%rsp)
	movdqa	288(%rsp), %xmm0
	movdqa	%xmm0, 176(%rsp)
	movb	$1, %al
	jmp	225b
254:
	cmpq	$0, 88(%rsp)
	je	255f
	movq	40(%rsp), %rdi
	callq	rattle_dealloc@PLT
255:
	cmpq	$0, 224(%rsp)
	movq	72(%rsp), %r14
	movq	56(%rsp), %r15
	je	256f
	movq	208(%rsp), %rdi
	callq	rattle_dealloc@PLT
256:
	testq	%r15, %r15
	je	259f
	leaq	16(%r14), %rbx
	jmp	258f
257:
	addq	$24, %rbx
	decq	%r15
	je	259f
258:
	cmpq	$0, (%rbx)
	je	257b
	movq	-16(%rbx), %rdi
	callq	rattle_dealloc@PLT
	jmp	257b
259:
	cmpq	$0, 80(%rsp)
	je	223b
	movq	%r14, %rdi
	jmp	222b
260:
	leaq	.Lc9c10f50e645(%rip), %rax
	movq	%rdx, %rcx
	subq	%rax, %rcx
	cmpq	$6, %rcx
	ja	261f
	movl	$1869771365, (%rdx)
	movw	$14962, 4(%rdx)
	movb	$32, 6(%rdx)
	jmp	262f
261:
	movl	$540701295, 3(%rdx)
	movl	$1869771365, (%rdx)
262:
	movq	%rdx, 232(%rsp)
	movq	$7, 240(%rsp)
	movq	$7, 248(%rsp)
	leaq	232(%rsp), %rdi
	movl	$51, %esi
	callq	"std_alloc::vec::Vec::grow_amortized::<#1d775b5957dec42c>"
	testb	%al, %al
	je	276f
	movq	240(%rsp), %rcx
	leaq	51(%rcx), %rax
	addq	232(%rsp), %rcx
	leaq	.Le82ebdfa5267(%rip), %rdx
	movq	%rcx, %rsi
	subq	%rdx, %rsi
	cmpq	$50, %rsi
	ja	271f
	movaps	2b(%rip), %xmm0
	movups	%xmm0, (%rcx)
	movaps	3b(%rip), %xmm0
	movups	%xmm0, 16(%rcx)
	movdqa	4b(%rip), %xmm0
	movdqu	%xmm0, 32(%rcx)
	movw	$25701, 48(%rcx)
	movb	$58, 50(%rcx)
	jmp	272f
263:
	cmpq	$0, 224(%rsp)
	je	264f
	movq	208(%rsp), %rdi
	callq	rattle_dealloc@PLT
264:
	movq	56(%rsp), %r15
	testq	%r15, %r15
	movq	72(%rsp), %r14
	je	267f
	leaq	16(%r14), %rbx
	jmp	266f
265:
	addq	$24, %rbx
	decq	%r15
	je	267f
266:
	cmpq	$0, (%rbx)
	je	265b
	movq	-16(%rbx), %rdi
	callq	rattle_dealloc@PLT
	jmp	265b
267:
	cmpq	$0, 80(%rsp)
	je	268f
	movq	%r14, %rdi
	callq	rattle_dealloc@PLT
268:
	cmpq	$0, 88(%rsp)
	movq	40(%rsp), %rdi
	jne	222b
	jmp	223b
269:
	cmpq	$0, 56(%rsp)
	je	270f
	movq	32(%rsp), %rdi
	callq	rattle_dealloc@PLT
270:
	cmpq	$0, 112(%rsp)
	je	223b
	movq	96(%rsp), %rdi
	jmp	222b
271:
	movups	.Le82ebdfa5267+32(%rip), %xmm0
	movups	%xmm0, 32(%rcx)
	movups	.Le82ebdfa5267+16(%rip), %xmm0
	movups	%xmm0, 16(%rcx)
	movdqu	.Le82ebdfa5267(%rip), %xmm0
	movdqu	%xmm0, (%rcx)
	movl	$979658084, 47(%rcx)
272:
	movq	%rax, 240(%rsp)
	movq	72(%rsp), %rbx
	movq	56(%rsp), %rax
	movq	%rax, %r13
	testq	%rax, %rax
	je	274f
273:
	leaq	.Lb9d66d2d8f9c(%rip), %rax
	movq	%rax, 144(%rsp)
	movq	$1, 152(%rsp)
	leaq	.Lc0d8ce03ca58(%rip), %rax
	movq	%rax, 160(%rsp)
	movq	%rbx, 168(%rsp)
	leaq	232(%rsp), %rdi
	leaq	144(%rsp), %rsi
	callq	"std_alloc::string::String::write_fmt::<#30f651fa9ab76bd9>"
	testb	%al, %al
	jne	276f
	addq	$24, %rbx
	decq	%r13
	jne	273b
274:
	movq	$1, 320(%rsp)
	movq	%r14, 328(%rsp)
	movq	%r12, 336(%rsp)
	leaq	232(%rsp), %rdi
	leaq	320(%rsp), %rdx
	movq	%rbp, %rsi
	callq	"clap::error::text::usage_and_help"
	testb	%al, %al
	je	277f
	cmpq	$0, 248(%rsp)
	movq	72(%rsp), %rbp
	je	275f
	movq	232(%rsp), %rdi
	callq	rattle_dealloc@PLT
275:
	pxor	%xmm0, %xmm0
	movdqa	%xmm0, 256(%rsp)
	movq	$0, 272(%rsp)
	xorl	%ebx, %ebx
	xorl	%r12d, %r12d
	xorl	%r13d, %r13d
	testq	%r15, %r15
	jne	247b
	jmp	248b
276:
	cmpq	$0, 248(%rsp)
	je	246b
	movq	232(%rsp), %rdi
	callq	rattle_dealloc@PLT
	jmp	246b
277:
	movq	248(%rsp), %rax
	movq	%rax, 272(%rsp)
	movdqu	232(%rsp), %xmm0
	movdqa	%xmm0, 256(%rsp)
	movl	$1, %r13d
	movb	$9, %r12b
	movb	$1, %bl
	movq	72(%rsp), %rbp
	testq	%r15, %r15
	jne	247b
	jmp	248b
278:
	.size	"clap::parser::validator::validate_needs", 278b-"clap::parser::validator::validate_needs"
