# Made by dist/refresh of what is proved.

	.text
	.p2align	4
	.type	"mime_text::magic::section::after_prefix",@function
"mime_text::magic::section::after_prefix":
	xorl	%eax, %eax
	movl	$0, %r9d
	movl	$0, %r10d
	subq	%rdx, %r8
	jb	1f
	leaq	-8(%rdx), %rax
	cmpq	$8, %rax
	movl	$8, %r9d
	cmovbq	%rax, %r9
	movq	-8(%rcx,%rdx), %xmm0
	movq	-8(%rsi,%rdx), %xmm1
	pcmpeqb	%xmm0, %xmm1
	pcmpeqd	%xmm0, %xmm0
	pxor	%xmm0, %xmm1
	movq	(%rcx,%r9), %xmm2
	movq	(%rcx), %xmm3
	punpcklqdq	%xmm2, %xmm3
	movq	(%rsi,%r9), %xmm2
	movq	(%rsi), %xmm4
	punpcklqdq	%xmm2, %xmm4
	pcmpeqb	%xmm3, %xmm4
	pxor	%xmm0, %xmm4
	por	%xmm4, %xmm1
	pblendw	$240, %xmm4, %xmm1
	pmovmskb	%xmm1, %esi
	addq	%rdx, %rcx
	xorl	%edx, %edx
	xorl	%eax, %eax
	testl	%esi, %esi
	sete	%al
	cmovneq	%rdx, %rcx
	cmovneq	%rdx, %r8
	movq	%rcx, %r9
	movq	%r8, %r10
1:
	movq	%rax, (%rdi)
	movq	%r9, 8(%rdi)
	movq	%r10, 16(%rdi)
	retq
2:
	.size	"mime_text::magic::section::after_prefix", 2b-"mime_text::magic::section::after_prefix"

	.text
	.p2align	4
	.type	"mime_text::merging::append::<#5757887c02ee9d34>",@function
"mime_text::merging::append::<#5757887c02ee9d34>":
	pushq	%rbp
	pushq	%r15
	pushq	%r14
	pushq	%r13
	pushq	%r12
	pushq	%rbx
	subq	$104, %rsp
	movq	(%rsi), %rbx
	movq	8(%rsi), %r14
	movq	16(%rsi), %r12
	movq	8(%rdi), %rax
	testq	%rax, %rax
	je	3f
	movq	16(%rdi), %rcx
	subq	%rax, %rcx
	cmpq	%rcx, %r14
	ja	10f
	testq	%r14, %r14
	je	6f
1:
	leaq	(%rax,%rax,2), %rax
	shlq	$5, %rax
	addq	(%rdi), %rax
	movq	%r14, %rcx
	shlq	$5, %rcx
	leaq	(%rcx,%rcx,2), %rdx
	movq	%rax, %rcx
	subq	%rbx, %rcx
	cmpq	%rdx, %rcx
	jae	4f
	movl	$56, %ecx
	movq	%r14, %rdx
	.p2align	4
2:
	movzbl	-56(%rbx,%rcx), %esi
	movq	-16(%rbx,%rcx), %r8
	movq	%r8, 96(%rsp)
	movups	-48(%rbx,%rcx), %xmm0
	movups	-32(%rbx,%rcx), %xmm1
	movaps	%xmm1, 80(%rsp)
	movaps	%xmm0, 64(%rsp)
	movzbl	-8(%rbx,%rcx), %r8d
	movups	(%rbx,%rcx), %xmm0
	movups	16(%rbx,%rcx), %xmm1
	movaps	%xmm1, 32(%rsp)
	movaps	%xmm0, 16(%rsp)
	movq	32(%rbx,%rcx), %r9
	movq	%r9, 48(%rsp)
	movq	%rsi, -56(%rax,%rcx)
	movaps	64(%rsp), %xmm0
	movaps	80(%rsp), %xmm1
	movups	%xmm0, -48(%rax,%rcx)
	movups	%xmm1, -32(%rax,%rcx)
	movq	96(%rsp), %rsi
	movq	%rsi, -16(%rax,%rcx)
	movq	%r8, -8(%rax,%rcx)
	movaps	16(%rsp), %xmm0
	movaps	32(%rsp), %xmm1
	movups	%xmm0, (%rax,%rcx)
	movups	%xmm1, 16(%rax,%rcx)
	movq	48(%rsp), %rsi
	movq	%rsi, 32(%rax,%rcx)
	addq	$96, %rcx
	decq	%rdx
	jne	2b
	jmp	5f
3:
	movq	(%rdi), %rax
	movq	%rbx, (%rdi)
	movq	%r14, 8(%rdi)
	cmpq	$0, 16(%rdi)
	movq	%r12, 16(%rdi)
	je	8f
	movq	%rax, %rdi
	jmp	7f
4:
	movq	%rdi, %r15
	movq	%rax, %rdi
	movq	%rbx, %rsi
	callq	memmove@PLT
	movq	%r15, %rdi
5:
	addq	%r14, 8(%rdi)
6:
	testq	%r12, %r12
	je	8f
	movq	%rbx, %rdi
7:
	callq	rattle_dealloc@PLT
8:
	xorl	%eax, %eax
9:
	addq	$104, %rsp
	popq	%rbx
	popq	%r12
	popq	%r13
	popq	%r14
	popq	%r15
	popq	%rbp
	retq
10:
	movq	%rdi, %r15
	movq	%r14, %rsi
	callq	"std_alloc::vec::Vec::grow_amortized::<#af4d00d87a514b9c>"
	testb	%al, %al
	je	11f
	movq	%r15, %rdi
	movq	8(%r15), %rax
	jmp	1b
11:
	movq	%r12, 8(%rsp)
	movq	%rbx, %r13
	jmp	13f
	.p2align	4
12:
	addq	$96, %r13
	decq	%r14
	je	15f
13:
	movzbl	48(%r13), %r12d
	movq	56(%r13), %r15
	movq	72(%r13), %rbp
	cmpb	$0, (%r13)
	je	14f
	cmpq	$0, 24(%r13)
	je	14f
	movq	8(%r13), %rdi
	callq	rattle_dealloc@PLT
14:
	testb	%r12b, %r12b
	je	12b
	testq	%rbp, %rbp
	je	12b
	movq	%r15, %rdi
	callq	rattle_dealloc@PLT
	jmp	12b
15:
	movb	$1, %al
	cmpq	$0, 8(%rsp)
	je	9b
	movq	%rbx, %rdi
	callq	rattle_dealloc@PLT
	movb	$1, %al
	jmp	9b
16:
	.size	"mime_text::merging::append::<#5757887c02ee9d34>", 16b-"mime_text::merging::append::<#5757887c02ee9d34>"

	.section	.text.unlikely,"ax",@progbits
	.p2align	4
	.type	"mime_text::merging::first::first_marks::<#3e18f2f50398609e>",@function
"mime_text::merging::first::first_marks::<#3e18f2f50398609e>":
	pushq	%rbp
	pushq	%r15
	pushq	%r14
	pushq	%r13
	pushq	%r12
	pushq	%rbx
	subq	$200, %rsp
	movq	%rdx, %r15
	movq	%rsi, 120(%rsp)
	movq	%rdi, %r14
	xorps	%xmm0, %xmm0
	movups	%xmm0, 79(%rsp)
	movaps	%xmm0, 64(%rsp)
	movaps	%xmm0, 16(%rsp)
	movq	$0, 32(%rsp)
	movaps	%xmm0, 160(%rsp)
	movaps	%xmm0, 176(%rsp)
	movq	%rdx, %rax
	shrq	$61, %rax
	leaq	(,%rdx,8), %rcx
	xorl	%ebp, %ebp
	negq	%rax
	sbbq	%rbp, %rbp
	orq	%rcx, %rbp
	orq	$1, %rbp
	leaq	15(%rsp), %rbx
	movq	%rbx, 128(%rsp)
	movups	%xmm0, 136(%rsp)
	leaq	128(%rsp), %rdi
	movq	%rbp, %rsi
	callq	"std_alloc::vec::Vec::grow_amortized::<#06f9579a8fe94b13>"
	testb	%al, %al
	je	12f
	movq	128(%rsp), %r12
	movq	136(%rsp), %rdi
	movq	144(%rsp), %rax
	movq	%rax, 40(%rsp)
	leaq	(%rdi,%rbp), %r13
	cmpq	%r13, %rdi
	jae	1f
	addq	%r12, %rdi
	xorl	%esi, %esi
	movq	%rbp, %rdx
	callq	memset@PLT
1:
	testq	%r15, %r15
	je	22f
	movq	120(%rsp), %rbx
	leaq	40(%rbx), %rcx
	xorl	%esi, %esi
	movq	%r15, %rdi
	jmp	4f
	.p2align	4
2:
	movb	%al, (%r12,%rdx)
3:
	incq	%rsi
	addq	$96, %rcx
	decq	%rdi
	je	13f
4:
	leaq	-32(%rcx), %rax
	cmpb	$0, -40(%rcx)
	je	6f
	leaq	(%rsi,%rsi,2), %rdx
	shlq	$5, %rdx
	addq	%rbx, %rdx
	movq	(%rax), %rax
	addq	$16, %rdx
	movq	(%rdx), %rdx
	cmpq	$8, %rdx
	jb	7f
5:
	movq	-8(%rax,%rdx), %r8
	bswapq	%r8
	movabsq	$-49064778989728563, %rax
	imulq	%r8, %rax
	jmp	8f
	.p2align	4
6:
	movq	%rcx, %rdx
	movq	(%rdx), %rdx
	cmpq	$8, %rdx
	jae	5b
7:
	xorl	%eax, %eax
8:
	addq	%rdx, %rax
	movq	%rax, %rdx
	orq	%rbp, %rdx
	shrq	$32, %rdx
	je	9f
	xorl	%edx, %edx
	divq	%rbp
	cmpq	%r13, %rdx
	jae	3b
	jmp	10f
	.p2align	4
9:
	xorl	%edx, %edx
	divl	%ebp
	cmpq	%r13, %rdx
	jae	3b
10:
	movzbl	(%r12,%rdx), %r8d
	movl	$255, %eax
	incb	%r8b
	je	11f
	movzbl	%r8b, %eax
11:
	cmpb	$2, %al
	jb	2b
	movl	$2, %eax
	jmp	2b
12:
	cmpq	$0, 144(%rsp)
	je	21f
	movq	128(%rsp), %rdi
	jmp	20f
13:
	xorps	%xmm0, %xmm0
	movaps	%xmm0, 96(%rsp)
	movq	$0, 112(%rsp)
	testq	%r15, %r15
	js	19f
	movl	$1, %esi
	movq	%r15, %rdi
	callq	rattle_alloc@PLT
	testb	$1, %al
	je	19f
	movq	%r12, 48(%rsp)
	movq	%r14, 56(%rsp)
	movq	%rdx, 16(%rsp)
	movq	$0, 24(%rsp)
	movq	%r15, 32(%rsp)
	leaq	40(%rbx), %rbp
	xorl	%r14d, %r14d
	xorl	%r12d, %r12d
	.p2align	4
14:
	movq	%r15, 152(%rsp)
	leaq	-32(%rbp), %rax
	cmpb	$0, -40(%rbp)
	je	15f
	movq	%rdx, %r15
	leaq	(%r12,%r12,2), %rcx
	shlq	$5, %rcx
	addq	%rbx, %rcx
	movq	(%rax), %rax
	addq	$16, %rcx
	jmp	16f
	.p2align	4
15:
	movq	%rdx, %r15
	movq	%rbp, %rcx
16:
	movq	(%rcx), %rcx
	movq	%rax, 160(%rsp)
	movq	%rcx, 168(%rsp)
	leaq	.L22d5119de29e(%rip), %rax
	movq	%rax, 176(%rsp)
	movq	$0, 184(%rsp)
	leaq	96(%rsp), %rdi
	leaq	160(%rsp), %rcx
	movq	48(%rsp), %rsi
	movq	%r13, %rdx
	callq	"mime_text::merging::first::is_first"
	testb	%al, %al
	jne	27f
	movl	%edx, %ebx
	cmpq	%r14, 32(%rsp)
	movq	%r15, %rdx
	movq	152(%rsp), %r15
	je	18f
17:
	andb	$1, %bl
	movb	%bl, (%rdx,%r14)
	incq	%r14
	movq	%r14, 24(%rsp)
	incq	%r12
	addq	$96, %rbp
	decq	%r15
	movq	120(%rsp), %rbx
	jne	14b
	jmp	31f
18:
	leaq	16(%rsp), %rdi
	callq	"std_alloc::vec::Vec::grow_amortized::<#0135d645f841a886>"
	testb	%al, %al
	je	33f
	movq	16(%rsp), %rdx
	movq	24(%rsp), %r14
	jmp	17b
19:
	cmpq	$0, 40(%rsp)
	je	21f
	movq	%r12, %rdi
20:
	callq	rattle_dealloc@PLT
21:
	movb	$1, (%r14)
	xorps	%xmm0, %xmm0
	movups	%xmm0, 8(%r14)
	movq	$0, 24(%r14)
	jmp	26f
22:
	movq	%rbx, 16(%rsp)
	movq	$0, 24(%rsp)
	movq	%r15, 32(%rsp)
	leaq	71(%rsp), %rbx
	movq	%r15, 87(%rsp)
	movq	16(%rsp), %rax
	movq	%rax, 71(%rsp)
	movq	24(%rsp), %rax
	movq	%rax, 79(%rsp)
	movq	40(%rsp), %rax
	testq	%rax, %rax
	je	24f
23:
	movq	%r12, %rdi
	callq	rattle_dealloc@PLT
24:
	movb	$0, (%r14)
25:
	movups	(%rbx), %xmm0
	movups	%xmm0, 8(%r14)
	movq	16(%rbx), %rax
	movq	%rax, 24(%r14)
26:
	addq	$200, %rsp
	popq	%rbx
	popq	%r12
	popq	%r13
	popq	%r14
	popq	%r15
	popq	%rbp
	retq
27:
	xorps	%xmm0, %xmm0
	movups	%xmm0, 71(%rsp)
	movq	$0, 87(%rsp)
	cmpq	$0, 32(%rsp)
	je	28f
	movq	%r15, %rdi
	callq	rattle_dealloc@PLT
28:
	cmpb	$1, 96(%rsp)
	movq	56(%rsp), %r14
	movq	48(%rsp), %r15
	jne	29f
	movq	104(%rsp), %rdi
	callq	"std_collections::btree::node::Node::destroy::<#45aa1b6c98681d8c>"
29:
	leaq	71(%rsp), %rbx
	cmpq	$0, 40(%rsp)
	je	30f
	movq	%r15, %rdi
	callq	rattle_dealloc@PLT
30:
	movb	$1, (%r14)
	jmp	25b
31:
	cmpb	$1, 96(%rsp)
	leaq	71(%rsp), %rbx
	movq	16(%rsp), %rax
	movq	%rax, 71(%rsp)
	movq	24(%rsp), %rax
	movq	%rax, 79(%rsp)
	movq	32(%rsp), %rax
	movq	%rax, 87(%rsp)
	jne	32f
	movq	104(%rsp), %rdi
	callq	"std_collections::btree::node::Node::destroy::<#45aa1b6c98681d8c>"
32:
	movq	56(%rsp), %r14
	movq	48(%rsp), %r12
	movq	40(%rsp), %rax
	testq	%rax, %rax
	jne	23b
	jmp	24b
33:
	cmpq	$0, 32(%rsp)
	je	34f
	movq	16(%rsp), %rdi
	callq	rattle_dealloc@PLT
34:
	cmpb	$1, 96(%rsp)
	movq	56(%rsp), %rbx
	movq	48(%rsp), %r14
	jne	35f
	movq	104(%rsp), %rdi
	callq	"std_collections::btree::node::Node::destroy::<#45aa1b6c98681d8c>"
35:
	cmpq	$0, 40(%rsp)
	je	36f
	movq	%r14, %rdi
	callq	rattle_dealloc@PLT
36:
	movb	$1, (%rbx)
	xorps	%xmm0, %xmm0
	movups	%xmm0, 8(%rbx)
	movq	$0, 24(%rbx)
	jmp	26b
37:
	.size	"mime_text::merging::first::first_marks::<#3e18f2f50398609e>", 37b-"mime_text::merging::first::first_marks::<#3e18f2f50398609e>"

	.section	.text.unlikely,"ax",@progbits
	.p2align	4
	.type	"mime_text::merging::first::first_marks::<#6173b1e72a96d278>",@function
"mime_text::merging::first::first_marks::<#6173b1e72a96d278>":
	pushq	%rbp
	pushq	%r15
	pushq	%r14
	pushq	%r13
	pushq	%r12
	pushq	%rbx
	subq	$200, %rsp
	movq	%rdx, %r15
	movq	%rsi, 120(%rsp)
	movq	%rdi, %r14
	xorps	%xmm0, %xmm0
	movups	%xmm0, 79(%rsp)
	movaps	%xmm0, 64(%rsp)
	movaps	%xmm0, 16(%rsp)
	movq	$0, 32(%rsp)
	movaps	%xmm0, 160(%rsp)
	movaps	%xmm0, 176(%rsp)
	movq	%rdx, %rax
	shrq	$61, %rax
	leaq	(,%rdx,8), %rcx
	xorl	%ebp, %ebp
	negq	%rax
	sbbq	%rbp, %rbp
	orq	%rcx, %rbp
	orq	$1, %rbp
	leaq	15(%rsp), %rbx
	movq	%rbx, 136(%rsp)
	movups	%xmm0, 144(%rsp)
	leaq	136(%rsp), %rdi
	movq	%rbp, %rsi
	callq	"std_alloc::vec::Vec::grow_amortized::<#06f9579a8fe94b13>"
	testb	%al, %al
	je	12f
	movq	136(%rsp), %r12
	movq	144(%rsp), %rdi
	movq	152(%rsp), %rax
	movq	%rax, 40(%rsp)
	leaq	(%rdi,%rbp), %r13
	cmpq	%r13, %rdi
	jae	1f
	addq	%r12, %rdi
	xorl	%esi, %esi
	movq	%rbp, %rdx
	callq	memset@PLT
1:
	testq	%r15, %r15
	je	24f
	movq	120(%rsp), %rbx
	leaq	40(%rbx), %rcx
	xorl	%esi, %esi
	movq	%r15, %rdi
	jmp	4f
	.p2align	4
2:
	movb	%al, (%r12,%rdx)
3:
	incq	%rsi
	addq	$96, %rcx
	decq	%rdi
	je	13f
4:
	leaq	-32(%rcx), %rax
	cmpb	$0, -40(%rcx)
	je	6f
	leaq	(%rsi,%rsi,2), %rdx
	shlq	$5, %rdx
	addq	%rbx, %rdx
	movq	(%rax), %rax
	addq	$16, %rdx
	movq	(%rdx), %rdx
	cmpq	$8, %rdx
	jb	7f
5:
	movq	-8(%rax,%rdx), %r8
	bswapq	%r8
	movabsq	$-49064778989728563, %rax
	imulq	%r8, %rax
	jmp	8f
	.p2align	4
6:
	movq	%rcx, %rdx
	movq	(%rdx), %rdx
	cmpq	$8, %rdx
	jae	5b
7:
	xorl	%eax, %eax
8:
	addq	%rdx, %rax
	movq	%rax, %rdx
	orq	%rbp, %rdx
	shrq	$32, %rdx
	je	9f
	xorl	%edx, %edx
	divq	%rbp
	cmpq	%r13, %rdx
	jae	3b
	jmp	10f
	.p2align	4
9:
	xorl	%edx, %edx
	divl	%ebp
	cmpq	%r13, %rdx
	jae	3b
10:
	movzbl	(%r12,%rdx), %r8d
	movl	$255, %eax
	incb	%r8b
	je	11f
	movzbl	%r8b, %eax
11:
	cmpb	$2, %al
	jb	2b
	movl	$2, %eax
	jmp	2b
12:
	cmpq	$0, 152(%rsp)
	je	23f
	movq	136(%rsp), %rdi
	jmp	22f
13:
	xorps	%xmm0, %xmm0
	movaps	%xmm0, 96(%rsp)
	movq	$0, 112(%rsp)
	testq	%r15, %r15
	js	21f
	movl	$1, %esi
	movq	%r15, %rdi
	callq	rattle_alloc@PLT
	testb	$1, %al
	je	21f
	movq	%r12, 48(%rsp)
	movq	%r14, 56(%rsp)
	movq	%rdx, 16(%rsp)
	movq	$0, 24(%rsp)
	movq	%r15, 32(%rsp)
	leaq	56(%rbx), %rbp
	xorl	%r14d, %r14d
	xorl	%r12d, %r12d
	.p2align	4
14:
	movq	%rdx, 128(%rsp)
	leaq	(%r12,%r12,2), %rax
	shlq	$5, %rax
	addq	%rbx, %rax
	leaq	-48(%rbp), %rcx
	cmpb	$0, -56(%rbp)
	je	16f
	movq	(%rcx), %rcx
	leaq	16(%rax), %rdx
	cmpb	$0, -8(%rbp)
	je	17f
15:
	movq	(%rbp), %rsi
	addq	$64, %rax
	jmp	18f
	.p2align	4
16:
	leaq	-16(%rbp), %rdx
	cmpb	$0, -8(%rbp)
	jne	15b
17:
	leaq	32(%rbp), %rax
	movq	%rbp, %rsi
18:
	movq	(%rdx), %rdx
	movq	(%rax), %rax
	movq	%rcx, 160(%rsp)
	movq	%rdx, 168(%rsp)
	movq	%rsi, 176(%rsp)
	movq	%rax, 184(%rsp)
	leaq	96(%rsp), %rdi
	leaq	160(%rsp), %rcx
	movq	48(%rsp), %rsi
	movq	%r13, %rdx
	callq	"mime_text::merging::first::is_first"
	testb	%al, %al
	jne	29f
	movl	%edx, %ebx
	cmpq	%r14, 32(%rsp)
	movq	128(%rsp), %rdx
	je	20f
19:
	andb	$1, %bl
	movb	%bl, (%rdx,%r14)
	incq	%r14
	movq	%r14, 24(%rsp)
	incq	%r12
	addq	$96, %rbp
	decq	%r15
	movq	120(%rsp), %rbx
	jne	14b
	jmp	33f
20:
	leaq	16(%rsp), %rdi
	callq	"std_alloc::vec::Vec::grow_amortized::<#0135d645f841a886>"
	testb	%al, %al
	je	35f
	movq	16(%rsp), %rdx
	movq	24(%rsp), %r14
	jmp	19b
21:
	cmpq	$0, 40(%rsp)
	je	23f
	movq	%r12, %rdi
22:
	callq	rattle_dealloc@PLT
23:
	movb	$1, (%r14)
	xorps	%xmm0, %xmm0
	movups	%xmm0, 8(%r14)
	movq	$0, 24(%r14)
	jmp	28f
24:
	movq	%rbx, 16(%rsp)
	movq	$0, 24(%rsp)
	movq	%r15, 32(%rsp)
	leaq	71(%rsp), %rbx
	movq	%r15, 87(%rsp)
	movq	16(%rsp), %rax
	movq	%rax, 71(%rsp)
	movq	24(%rsp), %rax
	movq	%rax, 79(%rsp)
	movq	40(%rsp), %rax
	testq	%rax, %rax
	je	26f
25:
	movq	%r12, %rdi
	callq	rattle_dealloc@PLT
26:
	movb	$0, (%r14)
27:
	movups	(%rbx), %xmm0
	movups	%xmm0, 8(%r14)
	movq	16(%rbx), %rax
	movq	%rax, 24(%r14)
28:
	addq	$200, %rsp
	popq	%rbx
	popq	%r12
	popq	%r13
	popq	%r14
	popq	%r15
	popq	%rbp
	retq
29:
	xorps	%xmm0, %xmm0
	movups	%xmm0, 71(%rsp)
	movq	$0, 87(%rsp)
	cmpq	$0, 32(%rsp)
	movq	128(%rsp), %rdi
	je	30f
	callq	rattle_dealloc@PLT
30:
	cmpb	$1, 96(%rsp)
	movq	56(%rsp), %r14
	movq	48(%rsp), %r15
	jne	31f
	movq	104(%rsp), %rdi
	callq	"std_collections::btree::node::Node::destroy::<#45aa1b6c98681d8c>"
31:
	leaq	71(%rsp), %rbx
	cmpq	$0, 40(%rsp)
	je	32f
	movq	%r15, %rdi
	callq	rattle_dealloc@PLT
32:
	movb	$1, (%r14)
	jmp	27b
33:
	cmpb	$1, 96(%rsp)
	leaq	71(%rsp), %rbx
	movq	16(%rsp), %rax
	movq	%rax, 71(%rsp)
	movq	24(%rsp), %rax
	movq	%rax, 79(%rsp)
	movq	32(%rsp), %rax
	movq	%rax, 87(%rsp)
	jne	34f
	movq	104(%rsp), %rdi
	callq	"std_collections::btree::node::Node::destroy::<#45aa1b6c98681d8c>"
34:
	movq	56(%rsp), %r14
	movq	48(%rsp), %r12
	movq	40(%rsp), %rax
	testq	%rax, %rax
	jne	25b
	jmp	26b
35:
	cmpq	$0, 32(%rsp)
	je	36f
	movq	16(%rsp), %rdi
	callq	rattle_dealloc@PLT
36:
	cmpb	$1, 96(%rsp)
	movq	56(%rsp), %rbx
	movq	48(%rsp), %r14
	jne	37f
	movq	104(%rsp), %rdi
	callq	"std_collections::btree::node::Node::destroy::<#45aa1b6c98681d8c>"
37:
	cmpq	$0, 40(%rsp)
	je	38f
	movq	%r14, %rdi
	callq	rattle_dealloc@PLT
38:
	movb	$1, (%rbx)
	xorps	%xmm0, %xmm0
	movups	%xmm0, 8(%rbx)
	movq	$0, 24(%rbx)
	jmp	28b
39:
	.size	"mime_text::merging::first::first_marks::<#6173b1e72a96d278>", 39b-"mime_text::merging::first::first_marks::<#6173b1e72a96d278>"

	.text
	.p2align	4
	.type	"mime_text::merging::first::first_of_each::<#d8c223a5b86f943b>",@function
"mime_text::merging::first::first_of_each::<#d8c223a5b86f943b>":
	pushq	%rbp
	pushq	%r15
	pushq	%r14
	pushq	%r13
	pushq	%r12
	pushq	%rbx
	subq	$392, %rsp
	movq	%rdi, %rbx
	movq	(%rsi), %r14
	movq	8(%rsi), %r15
	movq	16(%rsi), %r13
	xorps	%xmm0, %xmm0
	movaps	%xmm0, 352(%rsp)
	movaps	%xmm0, 336(%rsp)
	cmpq	$2, %r15
	jae	3f
	movb	$0, (%rbx)
1:
	movq	%r14, 8(%rbx)
	movq	%r15, 16(%rbx)
	movq	%r13, 24(%rbx)
2:
	addq	$392, %rsp
	popq	%rbx
	popq	%r12
	popq	%r13
	popq	%r14
	popq	%r15
	popq	%rbp
	retq
3:
	leaq	336(%rsp), %rdi
	movq	%r14, %rsi
	movq	%r15, %rdx
	callq	"mime_text::merging::first::first_marks::<#3e18f2f50398609e>"
	cmpb	$0, 336(%rsp)
	je	9f
	movq	%r13, 72(%rsp)
	movq	%r14, 48(%rsp)
	jmp	5f
	.p2align	4
4:
	addq	$96, %r14
	decq	%r15
	je	7f
5:
	movzbl	48(%r14), %r13d
	movq	56(%r14), %r12
	movq	72(%r14), %rbp
	cmpb	$0, (%r14)
	je	6f
	cmpq	$0, 24(%r14)
	je	6f
	movq	8(%r14), %rdi
	callq	rattle_dealloc@PLT
6:
	testb	%r13b, %r13b
	je	4b
	testq	%rbp, %rbp
	je	4b
	movq	%r12, %rdi
	callq	rattle_dealloc@PLT
	jmp	4b
7:
	cmpq	$0, 72(%rsp)
	je	8f
	movq	48(%rsp), %rdi
	callq	rattle_dealloc@PLT
8:
	movb	$1, (%rbx)
	xorps	%xmm0, %xmm0
	movups	%xmm0, 8(%rbx)
	movq	$0, 24(%rbx)
	jmp	2b
9:
	movq	344(%rsp), %r12
	movq	352(%rsp), %rcx
	movq	360(%rsp), %rax
	movq	%rax, 8(%rsp)
	xorl	%eax, %eax
	.p2align	4
10:
	cmpq	%rax, %rcx
	je	17f
	cmpb	$0, (%r12,%rax)
	leaq	1(%rax), %rax
	jne	10b
	movabsq	$96076792050570581, %rax
	cmpq	%rax, %r15
	movq	%r14, 48(%rsp)
	movq	%r13, 72(%rsp)
	ja	18f
	movq	%r15, %rax
	shlq	$5, %rax
	movq	%rcx, %rbp
	leaq	(%rax,%rax,2), %rdi
	movl	$8, %esi
	callq	rattle_alloc@PLT
	testb	$1, %al
	je	18f
	movq	%rdx, 88(%rsp)
	movq	$0, 96(%rsp)
	movq	%r15, 104(%rsp)
	movq	%r12, 112(%rsp)
	leaq	(%r12,%rbp), %rax
	decq	%rax
	movq	%rax, 40(%rsp)
	negq	%rbp
	leaq	(%r15,%r15,2), %rax
	shlq	$5, %rax
	leaq	(%rax,%r14), %r12
	addq	$-16, %r12
	xorl	%eax, %eax
	xorl	%esi, %esi
	movq	%rbp, 24(%rsp)
	jmp	14f
11:
	movq	%rdi, 120(%rsp)
	movups	-16(%r12), %xmm1
	movups	-64(%r12), %xmm2
	leaq	-48(%r12), %rax
	movups	(%rax), %xmm0
	movaps	%xmm0, 176(%rsp)
	movups	(%r12), %xmm0
	movaps	%xmm0, 128(%rsp)
	cmpq	%rsi, 104(%rsp)
	je	16f
12:
	leaq	(%rsi,%rsi,2), %rax
	shlq	$5, %rax
	movq	%rbp, (%rdx,%rax)
	movq	120(%rsp), %rdi
	movq	%rdi, 8(%rdx,%rax)
	movups	%xmm2, 16(%rdx,%rax)
	movaps	176(%rsp), %xmm0
	movups	%xmm0, 32(%rdx,%rax)
	movq	%r10, 48(%rdx,%rax)
	movq	%rcx, 56(%rdx,%rax)
	movups	%xmm1, 64(%rdx,%rax)
	movaps	128(%rsp), %xmm0
	movups	%xmm0, 80(%rdx,%rax)
	incq	%rsi
	movq	%rsi, 96(%rsp)
13:
	leaq	-1(%r9), %rax
	addq	$-96, %r12
	movq	%r15, %rcx
	addq	%rax, %rcx
	je	25f
14:
	movq	%rax, %r9
	movzbl	-80(%r12), %ebp
	movzbl	-32(%r12), %r10d
	movq	-24(%r12), %rcx
	movq	-8(%r12), %r11
	movq	-72(%r12), %rdi
	movq	-56(%r12), %r8
	movq	24(%rsp), %rax
	cmpq	%r9, %rax
	je	23f
	movq	%r8, 32(%rsp)
	movq	40(%rsp), %r8
	cmpb	$1, (%r8,%r9)
	je	11b
	testq	%rbp, %rbp
	movq	%r9, 16(%rsp)
	movq	%rdx, 224(%rsp)
	je	15f
	cmpq	$0, 32(%rsp)
	je	15f
	movq	%rsi, %rbp
	movq	%rcx, 56(%rsp)
	movq	%r10, 80(%rsp)
	movq	%r11, 64(%rsp)
	callq	rattle_dealloc@PLT
	movq	64(%rsp), %r11
	movq	80(%rsp), %r10
	movq	56(%rsp), %rcx
	movq	224(%rsp), %rdx
	movq	%rbp, %rsi
	movq	16(%rsp), %r9
15:
	testq	%r10, %r10
	je	13b
	testq	%r11, %r11
	je	13b
	movq	%rcx, %rdi
	movq	%rsi, %rbp
	callq	rattle_dealloc@PLT
	movq	224(%rsp), %rdx
	movq	%rbp, %rsi
	movq	16(%rsp), %r9
	jmp	13b
16:
	movaps	%xmm2, 368(%rsp)
	movaps	%xmm1, 224(%rsp)
	movq	%r11, 64(%rsp)
	movq	%r10, 80(%rsp)
	movq	%rcx, 56(%rsp)
	movq	%r9, 16(%rsp)
	leaq	88(%rsp), %rdi
	movl	$1, %esi
	callq	"std_alloc::vec::Vec::grow_amortized::<#af4d00d87a514b9c>"
	testb	%al, %al
	je	37f
	movq	88(%rsp), %rdx
	movq	96(%rsp), %rsi
	movq	16(%rsp), %r9
	movq	56(%rsp), %rcx
	movq	80(%rsp), %r10
	movaps	224(%rsp), %xmm1
	movaps	368(%rsp), %xmm2
	jmp	12b
17:
	cmpq	$0, 8(%rsp)
	je	22f
	movq	%r12, %rdi
	callq	rattle_dealloc@PLT
	xorl	%r12d, %r12d
	movb	%r12b, (%rbx)
	jmp	1b
18:
	cmpq	$0, 8(%rsp)
	je	20f
	movq	%r12, %rdi
	callq	rattle_dealloc@PLT
	jmp	20f
	.p2align	4
19:
	addq	$96, %r14
	decq	%r15
	je	49f
20:
	movzbl	48(%r14), %r13d
	movq	56(%r14), %r12
	movq	72(%r14), %rbp
	cmpb	$0, (%r14)
	je	21f
	cmpq	$0, 24(%r14)
	je	21f
	movq	8(%r14), %rdi
	callq	rattle_dealloc@PLT
21:
	testb	%r13b, %r13b
	je	19b
	testq	%rbp, %rbp
	je	19b
	movq	%r12, %rdi
	callq	rattle_dealloc@PLT
	jmp	19b
22:
	xorl	%r12d, %r12d
	movb	%r12b, (%rbx)
	jmp	1b
23:
	testq	%rbp, %rbp
	je	24f
	testq	%r8, %r8
	je	24f
	movq	%r9, 16(%rsp)
	movq	%rsi, %rbp
	movq	%rcx, 56(%rsp)
	movq	%r10, %r12
	movq	%r11, 64(%rsp)
	callq	rattle_dealloc@PLT
	movq	64(%rsp), %r11
	movq	%r12, %r10
	movq	56(%rsp), %rcx
	movq	%rbp, %rsi
	movq	16(%rsp), %r9
24:
	testq	%r10, %r10
	je	25f
	testq	%r11, %r11
	je	25f
	movq	%rcx, %rdi
	movq	%r9, %r12
	movq	%rsi, %rbp
	callq	rattle_dealloc@PLT
	movq	%rbp, %rsi
	movq	%r12, %r9
25:
	movq	%r9, %rbp
	movq	88(%rsp), %rdi
	cmpq	$15, %rsi
	movq	%rsi, 24(%rsp)
	movq	%rdi, 40(%rsp)
	jbe	26f
	movq	%rsi, %rdx
	shrq	%rdx
	movq	%rsi, %rax
	subq	%rdx, %rax
	leaq	(%rax,%rax,2), %rsi
	shlq	$5, %rsi
	addq	%rdi, %rsi
	callq	"core::slice::edits::mirror::<31'mime_base::database::icon::Icon>"
	movq	112(%rsp), %rdi
	movq	8(%rsp), %r13
	jmp	30f
26:
	cmpq	$2, %rsi
	movq	112(%rsp), %rdi
	movq	8(%rsp), %r13
	jb	30f
	movq	24(%rsp), %rsi
	leaq	-2(%rsi), %rax
	shrq	%rax
	movq	40(%rsp), %r8
	leaq	56(%r8), %rcx
	incq	%rax
	leaq	(%rsi,%rsi,2), %rdx
	shlq	$5, %rdx
	addq	%r8, %rdx
	addq	$-40, %rdx
	decq	%rsi
	xorl	%r12d, %r12d
	jmp	29f
27:
	movzbl	-56(%rcx), %r8d
	movq	-16(%rcx), %r9
	movq	%r9, 320(%rsp)
	movups	-48(%rcx), %xmm0
	movups	-32(%rcx), %xmm1
	movaps	%xmm1, 304(%rsp)
	movaps	%xmm0, 288(%rsp)
	movzbl	-8(%rcx), %r9d
	movups	(%rcx), %xmm0
	movups	16(%rcx), %xmm1
	movaps	%xmm1, 256(%rsp)
	movaps	%xmm0, 240(%rsp)
	movq	32(%rcx), %r10
	movq	%r10, 272(%rsp)
	movzbl	-56(%rdx), %r10d
	movups	-48(%rdx), %xmm0
	movups	-32(%rdx), %xmm1
	movaps	%xmm1, 192(%rsp)
	movaps	%xmm0, 176(%rsp)
	movq	-16(%rdx), %r11
	movq	%r11, 208(%rsp)
	movzbl	-8(%rdx), %r11d
	movups	(%rdx), %xmm0
	movups	16(%rdx), %xmm1
	movaps	%xmm1, 144(%rsp)
	movaps	%xmm0, 128(%rsp)
	movq	32(%rdx), %r14
	movq	%r14, 160(%rsp)
	movq	%r10, -56(%rcx)
	movaps	176(%rsp), %xmm0
	movaps	192(%rsp), %xmm1
	movups	%xmm0, -48(%rcx)
	movups	%xmm1, -32(%rcx)
	movq	208(%rsp), %r10
	movq	%r10, -16(%rcx)
	movq	%r11, -8(%rcx)
	movaps	128(%rsp), %xmm0
	movaps	144(%rsp), %xmm1
	movups	%xmm0, (%rcx)
	movups	%xmm1, 16(%rcx)
	movq	160(%rsp), %r10
	movq	%r10, 32(%rcx)
	movq	%r8, -56(%rdx)
	movaps	288(%rsp), %xmm0
	movaps	304(%rsp), %xmm1
	movups	%xmm0, -48(%rdx)
	movups	%xmm1, -32(%rdx)
	movq	320(%rsp), %r8
	movq	%r8, -16(%rdx)
	movq	%r9, -8(%rdx)
	movaps	240(%rsp), %xmm0
	movaps	256(%rsp), %xmm1
	movups	%xmm0, (%rdx)
	movups	%xmm1, 16(%rdx)
	movq	272(%rsp), %r8
	movq	%r8, 32(%rdx)
28:
	incq	%r12
	addq	$96, %rcx
	addq	$-96, %rdx
	decq	%rsi
	cmpq	%r12, %rax
	je	30f
29:
	cmpq	%rsi, %r12
	jb	27b
	jbe	28b
	movzbl	-56(%rdx), %r8d
	movq	-16(%rdx), %r9
	movq	%r9, 320(%rsp)
	movups	-48(%rdx), %xmm0
	movups	-32(%rdx), %xmm1
	movaps	%xmm1, 304(%rsp)
	movaps	%xmm0, 288(%rsp)
	movzbl	-8(%rdx), %r9d
	movups	(%rdx), %xmm0
	movups	16(%rdx), %xmm1
	movaps	%xmm1, 256(%rsp)
	movaps	%xmm0, 240(%rsp)
	movq	32(%rdx), %r10
	movq	%r10, 272(%rsp)
	movzbl	-56(%rcx), %r10d
	movups	-48(%rcx), %xmm0
	movups	-32(%rcx), %xmm1
	movaps	%xmm1, 192(%rsp)
	movaps	%xmm0, 176(%rsp)
	movq	-16(%rcx), %r11
	movq	%r11, 208(%rsp)
	movzbl	-8(%rcx), %r11d
	movups	(%rcx), %xmm0
	movups	16(%rcx), %xmm1
	movaps	%xmm1, 144(%rsp)
	movaps	%xmm0, 128(%rsp)
	movq	32(%rcx), %r14
	movq	%r14, 160(%rsp)
	movq	%r10, -56(%rdx)
	movaps	176(%rsp), %xmm0
	movaps	192(%rsp), %xmm1
	movups	%xmm0, -48(%rdx)
	movups	%xmm1, -32(%rdx)
	movq	208(%rsp), %r10
	movq	%r10, -16(%rdx)
	movq	%r11, -8(%rdx)
	movaps	128(%rsp), %xmm0
	movaps	144(%rsp), %xmm1
	movups	%xmm0, (%rdx)
	movups	%xmm1, 16(%rdx)
	movq	160(%rsp), %r10
	movq	%r10, 32(%rdx)
	movq	%r8, -56(%rcx)
	movaps	288(%rsp), %xmm0
	movaps	304(%rsp), %xmm1
	movups	%xmm0, -48(%rcx)
	movups	%xmm1, -32(%rcx)
	movq	320(%rsp), %r8
	movq	%r8, -16(%rcx)
	movq	%r9, -8(%rcx)
	movaps	240(%rsp), %xmm0
	movaps	256(%rsp), %xmm1
	movups	%xmm0, (%rcx)
	movups	%xmm1, 16(%rcx)
	movq	272(%rsp), %r8
	movq	%r8, 32(%rcx)
	jmp	28b
30:
	movq	%rbp, %rax
	leaq	(%r15,%rbp), %r14
	decq	%r14
	movq	104(%rsp), %rcx
	movq	%rcx, 8(%rsp)
	testq	%r13, %r13
	je	31f
	callq	rattle_dealloc@PLT
	movq	%rbp, %rax
31:
	testq	%r14, %r14
	je	35f
	addq	%rax, %r15
	movl	$1, %ebp
	movq	48(%rsp), %r14
	jmp	33f
32:
	incq	%rbp
	addq	$96, %r14
	cmpq	%rbp, %r15
	je	35f
33:
	movzbl	48(%r14), %r13d
	movq	56(%r14), %rdi
	movq	72(%r14), %r12
	cmpb	$0, (%r14)
	je	34f
	cmpq	$0, 24(%r14)
	je	34f
	movq	%rdi, 32(%rsp)
	movq	8(%r14), %rdi
	callq	rattle_dealloc@PLT
	movq	32(%rsp), %rdi
34:
	testb	%r13b, %r13b
	je	32b
	testq	%r12, %r12
	je	32b
	callq	rattle_dealloc@PLT
	jmp	32b
35:
	cmpq	$0, 72(%rsp)
	je	36f
	movq	48(%rsp), %rdi
	callq	rattle_dealloc@PLT
36:
	xorl	%r12d, %r12d
	movq	40(%rsp), %r14
	movq	24(%rsp), %r15
	movq	8(%rsp), %r13
	movb	%r12b, (%rbx)
	jmp	1b
37:
	testq	%rbp, %rbp
	je	38f
	cmpq	$0, 32(%rsp)
	je	38f
	movq	120(%rsp), %rdi
	callq	rattle_dealloc@PLT
38:
	cmpq	$0, 80(%rsp)
	je	39f
	cmpq	$0, 64(%rsp)
	je	39f
	movq	56(%rsp), %rdi
	callq	rattle_dealloc@PLT
39:
	movq	88(%rsp), %rax
	movq	%rax, 24(%rsp)
	movq	96(%rsp), %r12
	movq	104(%rsp), %rax
	movq	%rax, 40(%rsp)
	testq	%r12, %r12
	je	43f
	movq	24(%rsp), %r14
	jmp	41f
40:
	addq	$96, %r14
	decq	%r12
	je	43f
41:
	movzbl	48(%r14), %r13d
	movq	56(%r14), %rdi
	movq	72(%r14), %rbp
	cmpb	$0, (%r14)
	je	42f
	cmpq	$0, 24(%r14)
	je	42f
	movq	%rdi, 32(%rsp)
	movq	8(%r14), %rdi
	callq	rattle_dealloc@PLT
	movq	32(%rsp), %rdi
42:
	testb	%r13b, %r13b
	je	40b
	testq	%rbp, %rbp
	je	40b
	callq	rattle_dealloc@PLT
	jmp	40b
43:
	cmpq	$0, 40(%rsp)
	je	44f
	movq	24(%rsp), %rdi
	callq	rattle_dealloc@PLT
44:
	movq	16(%rsp), %rax
	leaq	(%r15,%rax), %r14
	decq	%r14
	cmpq	$0, 8(%rsp)
	je	45f
	movq	112(%rsp), %rdi
	callq	rattle_dealloc@PLT
45:
	testq	%r14, %r14
	je	49f
	addq	16(%rsp), %r15
	movl	$1, %ebp
	movq	48(%rsp), %r12
	jmp	47f
46:
	incq	%rbp
	addq	$96, %r12
	cmpq	%rbp, %r15
	je	49f
47:
	movzbl	48(%r12), %r13d
	movq	56(%r12), %rdi
	movq	72(%r12), %r14
	cmpb	$0, (%r12)
	je	48f
	cmpq	$0, 24(%r12)
	je	48f
	movq	%rdi, 32(%rsp)
	movq	8(%r12), %rdi
	callq	rattle_dealloc@PLT
	movq	32(%rsp), %rdi
48:
	testb	%r13b, %r13b
	je	46b
	testq	%r14, %r14
	je	46b
	callq	rattle_dealloc@PLT
	jmp	46b
49:
	movb	$1, %r12b
	cmpq	$0, 72(%rsp)
	je	50f
	movq	48(%rsp), %rdi
	callq	rattle_dealloc@PLT
50:
	xorl	%r14d, %r14d
	xorl	%r15d, %r15d
	xorl	%r13d, %r13d
	movb	%r12b, (%rbx)
	jmp	1b
51:
	.size	"mime_text::merging::first::first_of_each::<#d8c223a5b86f943b>", 51b-"mime_text::merging::first::first_of_each::<#d8c223a5b86f943b>"

	.text
	.p2align	4
	.type	"mime_text::merging::first::is_first",@function
"mime_text::merging::first::is_first":
	pushq	%rbp
	pushq	%r15
	pushq	%r14
	pushq	%r13
	pushq	%r12
	pushq	%rbx
	subq	$488, %rsp
	movq	%rdx, %r8
	movq	(%rcx), %r14
	movq	8(%rcx), %r15
	cmpq	$8, %r15
	jb	1f
	movq	-8(%r14,%r15), %rdx
	bswapq	%rdx
	movabsq	$-49064778989728563, %rax
	imulq	%rdx, %rax
	jmp	2f
1:
	xorl	%eax, %eax
2:
	testq	%r8, %r8
	je	57f
	movq	16(%rcx), %rdx
	movq	%rdx, 136(%rsp)
	movq	24(%rcx), %rcx
	movq	%rcx, 128(%rsp)
	addq	%r15, %rax
	movq	%rax, %rcx
	orq	%r8, %rcx
	shrq	$32, %rcx
	je	4f
	xorl	%edx, %edx
	divq	%r8
	movb	$1, %cl
	cmpb	$1, (%rsi,%rdx)
	jne	5f
3:
	xorl	%eax, %eax
	jmp	21f
4:
	xorl	%edx, %edx
	divl	%r8d
	movb	$1, %cl
	cmpb	$1, (%rsi,%rdx)
	je	3b
5:
	cmpq	$8, %r15
	jb	7f
	movq	-8(%r14,%r15), %rax
	bswapq	%rax
	movq	%rax, 112(%rsp)
	cmpb	$1, (%rdi)
	je	8f
6:
	movq	%rdi, %rbx
	movl	$608, %edi
	movl	$8, %esi
	callq	rattle_alloc@PLT
	testb	$1, %al
	je	20f
	movq	%r15, 96(%rsp)
	movq	%r14, 104(%rsp)
	movl	$0, (%rdx)
	movq	%rbx, %rdi
	movzbl	(%rbx), %eax
	movq	$1, (%rbx)
	movq	%rdx, 8(%rbx)
	cmpb	$1, %al
	jne	9f
	jmp	57f
7:
	movq	$0, 112(%rsp)
	cmpb	$1, (%rdi)
	jne	6b
8:
	movq	%r15, 96(%rsp)
	movq	%r14, 104(%rsp)
	movq	8(%rdi), %rdx
9:
	movq	%rdi, 88(%rsp)
	leaq	8(%rdi), %rax
	movq	%rax, 16(%rsp)
	movzwl	2(%rdx), %eax
	movl	$15, %ebp
	subq	%rax, %rbp
	movq	%rax, 24(%rsp)
	negb	%al
	movb	%al, 48(%rsp)
	xorl	%r14d, %r14d
	movq	%rdx, %rax
	xorl	%r13d, %r13d
	movq	%rdx, 40(%rsp)
	movq	%rdx, %r15
	movq	%rbp, 120(%rsp)
	xorl	%ebx, %ebx
10:
	movq	%r13, 32(%rsp)
	movq	%r15, 8(%rsp)
	movq	%rax, %r15
	movzwl	(%rax), %r12d
	testq	%r12, %r12
	je	16f
	movq	%r14, 56(%rsp)
	leaq	40(%r15), %r14
	xorl	%r13d, %r13d
	.p2align	4
11:
	movq	-32(%r14), %rax
	cmpq	%rax, 112(%rsp)
	setae	%al
	jne	12f
	movq	-24(%r14), %rdx
	movq	-16(%r14), %rcx
	movq	104(%rsp), %rdi
	movq	96(%rsp), %rsi
	callq	"core::cmp::slices::RefSliceOrd::cmp::<#914af4d8504a0b72>"
	cmpb	$1, %al
	jne	13f
	movq	-8(%r14), %rdx
	movq	(%r14), %rcx
	movq	136(%rsp), %rdi
	movq	128(%rsp), %rsi
	callq	"core::cmp::slices::RefSliceOrd::cmp::<#914af4d8504a0b72>"
	jmp	13f
	.p2align	4
12:
	addb	%al, %al
13:
	cmpb	$2, %al
	jne	14f
	incq	%r13
	addq	$40, %r14
	cmpq	%r13, %r12
	jne	11b
	movq	%r12, %r13
	jmp	15f
	.p2align	4
14:
	movzbl	%al, %eax
	testl	%eax, %eax
	jne	18f
15:
	movq	56(%rsp), %r14
	jmp	17f
	.p2align	4
16:
	xorl	%r13d, %r13d
17:
	shlq	$4, %rbx
	addq	%r13, %rbx
	incq	%rbp
	cmpw	$0, 2(%r15)
	je	19f
	movq	608(%r15,%r13,8), %rax
	incq	%r14
	incb	48(%rsp)
	jmp	10b
18:
	andl	$15, %r13d
	movq	24(%rsp), %rax
	addq	%rbp, %rax
	cmpq	$15, %rax
	movq	8(%rsp), %rax
	movq	32(%rsp), %rcx
	leaq	608(%rax,%rcx,8), %rax
	cmoveq	16(%rsp), %rax
	movq	(%rax), %rax
	movzwl	(%rax), %eax
	cmpl	%eax, %r13d
	jae	57f
	xorl	%ecx, %ecx
	xorl	%eax, %eax
	jmp	21f
19:
	movabsq	$9223372036854775806, %rax
	movq	88(%rsp), %rcx
	cmpq	%rax, 16(%rcx)
	jbe	22f
20:
	movb	$1, %al
	xorl	%ecx, %ecx
21:
	movl	%ecx, %edx
	addq	$488, %rsp
	popq	%rbx
	popq	%r12
	popq	%r13
	popq	%r14
	popq	%r15
	popq	%rbp
	retq
22:
	movq	%rbp, %rcx
	movq	120(%rsp), %rdx
	subq	%rdx, %rcx
	cmpq	$1, %rcx
	movq	8(%rsp), %rsi
	movq	32(%rsp), %rdi
	leaq	608(%rsi,%rdi,8), %rax
	cmoveq	16(%rsp), %rax
	movq	(%rax), %rax
	cmpw	$14, (%rax)
	ja	23f
	shlq	$3, %rdi
	movq	88(%rsp), %r15
	jmp	54f
23:
	movq	40(%rsp), %rax
	cmpw	$15, (%rax)
	movq	%rdx, %rax
	jae	51f
24:
	xorps	%xmm0, %xmm0
	movaps	%xmm0, 64(%rsp)
	movq	%rbp, %rcx
	subq	%rax, %rcx
	movq	%rcx, 24(%rsp)
	jbe	28f
	movl	%ebp, %ecx
	subl	%eax, %ecx
	addq	%rdx, %r14
	subq	%rax, %r14
	testb	$3, %cl
	je	26f
	movzbl	48(%rsp), %ecx
	subb	%al, %cl
	movzbl	%cl, %ecx
	andl	$3, %ecx
25:
	movl	%ebx, %edx
	andb	$15, %dl
	movb	%dl, 63(%rsp,%rbp)
	decq	%rbp
	shrq	$4, %rbx
	decq	%rcx
	jne	25b
26:
	cmpq	$3, %r14
	jb	28f
27:
	movl	%ebx, %ecx
	andb	$15, %cl
	movb	%cl, 63(%rsp,%rbp)
	movl	%ebx, %ecx
	shrb	$4, %cl
	movb	%cl, 62(%rsp,%rbp)
	movl	%ebx, %ecx
	shrl	$8, %ecx
	andb	$15, %cl
	movb	%cl, 61(%rsp,%rbp)
	movl	%ebx, %ecx
	shrl	$12, %ecx
	andb	$15, %cl
	movb	%cl, 60(%rsp,%rbp)
	addq	$-4, %rbp
	shrq	$16, %rbx
	cmpq	%rbp, %rax
	jb	27b
28:
	movl	$16, %r15d
	subq	%rax, %r15
	cmpq	$2, %r15
	movq	40(%rsp), %rcx
	jb	53f
	leaq	(%rsp,%rax), %rbx
	addq	$64, %rbx
	movq	16(%rsp), %r12
	jmp	32f
29:
	movq	48(%rsp), %rcx
	incl	%ecx
	movb	%cl, (%rbx)
	addb	$-8, %al
	movb	%al, 1(%rbx)
30:
	movq	%rbp, %r15
31:
	movzbl	%cl, %edi
	leaq	(%rsi,%rdi,8), %r12
	addq	$608, %r12
	incq	%rbx
	cmpq	$2, %r15
	leaq	-1(%r15), %r15
	jbe	52f
32:
	movzbl	(%rbx), %ebp
	movl	%ebp, %ecx
	movq	(%r12), %rsi
	movq	608(%rsi,%rbp,8), %rax
	cmpw	$15, (%rax)
	jb	31b
	movq	%rcx, 48(%rsp)
	movzwl	2(%rsi), %r14d
	decq	%r14
	je	33f
	movl	$736, %edi
	jmp	34f
33:
	movl	$608, %edi
34:
	movl	$8, %esi
	callq	rattle_alloc@PLT
	testb	$1, %al
	je	55f
	movw	%r14w, 2(%rdx)
	movq	%rdx, 8(%rsp)
	leaq	8(%rdx), %rdi
	movq	(%r12), %rax
	xorps	%xmm0, %xmm0
	movaps	%xmm0, 368(%rsp)
	movaps	%xmm0, 352(%rsp)
	movq	$0, 384(%rsp)
	movzwl	(%rax), %edx
	leaq	1(%rdx), %rsi
	xorl	%ecx, %ecx
	xorl	%r8d, %r8d
	cmpw	$0, 2(%rax)
	setne	%r8b
	cmoveq	%rcx, %rsi
	shll	$4, %r8d
	leaq	608(%rax), %r10
	leaq	8(%rax), %r9
	movq	%r9, 224(%rsp)
	movq	%rdx, 232(%rsp)
	movq	$15, 240(%rsp)
	movq	%r10, 248(%rsp)
	movq	%rdx, 256(%rsp)
	movq	$15, 264(%rsp)
	movq	%r10, 272(%rsp)
	movq	%rsi, 280(%rsp)
	movq	%r8, 288(%rsp)
	movq	%rax, 296(%rsp)
	movaps	%xmm0, 320(%rsp)
	movaps	%xmm0, 304(%rsp)
	movq	$0, 336(%rsp)
	movq	608(%rax,%rbp,8), %rax
	movaps	%xmm0, 464(%rsp)
	movaps	%xmm0, 448(%rsp)
	movq	$0, 480(%rsp)
	movzwl	2(%rax), %r14d
	movzwl	(%rax), %r8d
	leaq	1(%r8), %rdx
	xorl	%esi, %esi
	testw	%r14w, %r14w
	setne	%sil
	cmoveq	%rcx, %rdx
	shll	$4, %esi
	leaq	608(%rax), %rcx
	leaq	8(%rax), %r9
	movq	%r9, 144(%rsp)
	movq	$15, 160(%rsp)
	movq	%rcx, 168(%rsp)
	movq	$15, 184(%rsp)
	movq	%rcx, 192(%rsp)
	movq	%rdx, 200(%rsp)
	movq	%rsi, 208(%rsp)
	movq	%rax, 216(%rsp)
	leaq	-8(%r8), %r13
	leaq	328(%rax), %rsi
	leaq	-64(,%r8,8), %rcx
	leaq	(%rcx,%rcx,4), %rdx
	movq	%rdi, %rcx
	subq	%rsi, %rcx
	cmpq	%rdx, %rcx
	movq	%r10, 32(%rsp)
	jae	35f
	testq	%r13, %r13
	je	40f
	movl	%r8d, %ecx
	andl	$7, %ecx
	addl	$-9, %r8d
	cmpw	$7, %r8w
	jae	36f
	xorl	%edx, %edx
	jmp	38f
35:
	callq	memmove@PLT
	jmp	40f
36:
	movq	%r13, %r8
	andq	$-8, %r8
	xorl	%edx, %edx
	xorl	%r9d, %r9d
37:
	movups	(%rsi,%r9), %xmm0
	movups	16(%rsi,%r9), %xmm1
	movq	32(%rsi,%r9), %r10
	movq	%r10, 32(%rdi,%r9)
	movups	%xmm1, 16(%rdi,%r9)
	movups	%xmm0, (%rdi,%r9)
	movups	40(%rsi,%r9), %xmm0
	movups	56(%rsi,%r9), %xmm1
	movq	72(%rsi,%r9), %r10
	movq	%r10, 72(%rdi,%r9)
	movups	%xmm1, 56(%rdi,%r9)
	movups	%xmm0, 40(%rdi,%r9)
	movups	80(%rsi,%r9), %xmm0
	movups	96(%rsi,%r9), %xmm1
	movq	112(%rsi,%r9), %r10
	movq	%r10, 112(%rdi,%r9)
	movups	%xmm1, 96(%rdi,%r9)
	movups	%xmm0, 80(%rdi,%r9)
	movups	120(%rsi,%r9), %xmm0
	movups	136(%rsi,%r9), %xmm1
	movq	152(%rsi,%r9), %r10
	movq	%r10, 152(%rdi,%r9)
	movups	%xmm1, 136(%rdi,%r9)
	movups	%xmm0, 120(%rdi,%r9)
	movups	160(%rsi,%r9), %xmm0
	movups	176(%rsi,%r9), %xmm1
	movq	192(%rsi,%r9), %r10
	movq	%r10, 192(%rdi,%r9)
	movups	%xmm1, 176(%rdi,%r9)
	movups	%xmm0, 160(%rdi,%r9)
	movups	200(%rsi,%r9), %xmm0
	movups	216(%rsi,%r9), %xmm1
	movq	232(%rsi,%r9), %r10
	movq	%r10, 232(%rdi,%r9)
	movups	%xmm1, 216(%rdi,%r9)
	movups	%xmm0, 200(%rdi,%r9)
	movups	240(%rsi,%r9), %xmm0
	movups	256(%rsi,%r9), %xmm1
	movq	272(%rsi,%r9), %r10
	movq	%r10, 272(%rdi,%r9)
	movups	%xmm1, 256(%rdi,%r9)
	movups	%xmm0, 240(%rdi,%r9)
	movups	280(%rsi,%r9), %xmm0
	movups	296(%rsi,%r9), %xmm1
	movq	312(%rsi,%r9), %r10
	movq	%r10, 312(%rdi,%r9)
	movups	%xmm1, 296(%rdi,%r9)
	movups	%xmm0, 280(%rdi,%r9)
	addq	$8, %rdx
	addq	$320, %r9
	cmpq	%rdx, %r8
	jne	37b
	testq	%rcx, %rcx
	je	40f
38:
	shlq	$3, %rdx
	leaq	(%rdx,%rdx,4), %rdx
	addq	%rdx, %rax
	addq	$328, %rax
	movq	8(%rsp), %rsi
	addq	%rsi, %rdx
	addq	$8, %rdx
	shll	$3, %ecx
	leaq	(%rcx,%rcx,4), %rcx
	xorl	%esi, %esi
	.p2align	4
39:
	movups	(%rax,%rsi), %xmm0
	movups	16(%rax,%rsi), %xmm1
	movq	32(%rax,%rsi), %rdi
	movq	%rdi, 32(%rdx,%rsi)
	movups	%xmm1, 16(%rdx,%rsi)
	movups	%xmm0, (%rdx,%rsi)
	addq	$40, %rsi
	cmpq	%rsi, %rcx
	jne	39b
40:
	movq	%rbp, 56(%rsp)
	movq	$8, 152(%rsp)
	movq	$8, 176(%rsp)
	xorps	%xmm0, %xmm0
	movaps	%xmm0, 400(%rsp)
	movaps	%xmm0, 416(%rsp)
	movq	$0, 432(%rsp)
	leaq	400(%rsp), %rdi
	leaq	144(%rsp), %rsi
	movl	$7, %edx
	callq	"std_alloc::vec::Vec::remove::<#21647806b46d5bf1>"
	testw	%r14w, %r14w
	movq	8(%rsp), %r10
	je	47f
	leaq	608(%r10), %rdi
	movq	192(%rsp), %rax
	movq	200(%rsp), %r8
	leaq	64(%rax), %rsi
	leaq	-64(,%r8,8), %rdx
	movq	%rdi, %rcx
	subq	%rsi, %rcx
	cmpq	%rdx, %rcx
	jae	46f
	movq	%r8, %rcx
	addq	$-8, %rcx
	je	47f
	cmpq	$4, %rcx
	jb	41f
	movq	%r10, %rdx
	subq	%rax, %rdx
	addq	$544, %rdx
	cmpq	$32, %rdx
	jae	49f
41:
	xorl	%edx, %edx
42:
	movq	%r8, %r10
	movq	%rdx, %r9
	andq	$3, %r10
	je	44f
	movq	%rdx, %r9
43:
	movq	(%rsi,%r9,8), %r11
	movq	%r11, (%rdi,%r9,8)
	incq	%r9
	decq	%r10
	jne	43b
44:
	subq	%rdx, %r8
	addq	$-9, %r8
	cmpq	$3, %r8
	movq	8(%rsp), %r10
	jb	47f
45:
	movq	64(%rax,%r9,8), %rdx
	movq	%rdx, 608(%r10,%r9,8)
	movq	72(%rax,%r9,8), %rdx
	movq	%rdx, 616(%r10,%r9,8)
	movq	80(%rax,%r9,8), %rdx
	movq	%rdx, 624(%r10,%r9,8)
	movq	88(%rax,%r9,8), %rdx
	movq	%rdx, 632(%r10,%r9,8)
	addq	$4, %r9
	cmpq	%r9, %rcx
	jne	45b
	jmp	47f
46:
	callq	memmove@PLT
	movq	8(%rsp), %r10
47:
	movq	%r15, %rbp
	movzwl	152(%rsp), %eax
	movq	216(%rsp), %rcx
	movw	%ax, (%rcx)
	movw	%r13w, (%r10)
	movq	432(%rsp), %rax
	movaps	400(%rsp), %xmm0
	movaps	416(%rsp), %xmm1
	movaps	%xmm0, 304(%rsp)
	movaps	%xmm1, 320(%rsp)
	movq	%rax, 336(%rsp)
	movq	56(%rsp), %r13
	movq	32(%rsp), %rax
	movq	%rcx, (%rax,%r13,8)
	movq	336(%rsp), %rax
	movq	%rax, 384(%rsp)
	movaps	304(%rsp), %xmm0
	movaps	320(%rsp), %xmm1
	movaps	%xmm1, 368(%rsp)
	movaps	%xmm0, 352(%rsp)
	leaq	224(%rsp), %rdi
	leaq	352(%rsp), %rdx
	movq	%r13, %rsi
	callq	"std_alloc::vec::lodged::Vec+T+Lodged::insert_reserved::<38'(,,)::<i8,3'&[](*,i64,),3'&[](*,i64,)>>"
	incq	%r13
	movq	272(%rsp), %r14
	movq	280(%rsp), %rdx
	leal	(,%r13,8), %r15d
	subq	%r13, %rdx
	je	48f
	leaq	(%r14,%r15), %rsi
	leaq	(%r14,%r15), %rdi
	addq	$8, %rdi
	shlq	$3, %rdx
	callq	memmove@PLT
48:
	movq	8(%rsp), %rax
	movq	%rax, (%r14,%r15)
	movzwl	232(%rsp), %eax
	movq	296(%rsp), %rsi
	movw	%ax, (%rsi)
	movq	%rsi, (%r12)
	movzbl	1(%rbx), %eax
	cmpb	$7, %al
	ja	29b
	movzbl	(%rbx), %ecx
	jmp	30b
49:
	movq	%rcx, %rdx
	andq	$-4, %rdx
	xorl	%r9d, %r9d
50:
	movups	64(%rax,%r9,8), %xmm0
	movups	80(%rax,%r9,8), %xmm1
	movups	%xmm0, 608(%r10,%r9,8)
	movups	%xmm1, 624(%r10,%r9,8)
	addq	$4, %r9
	cmpq	%r9, %rdx
	jne	50b
	cmpq	%rdx, %rcx
	je	47b
	jmp	42b
51:
	cmpw	$10, 24(%rsp)
	ja	20b
	movl	$736, %edi
	movl	$8, %esi
	callq	rattle_alloc@PLT
	movq	%rdx, 40(%rsp)
	testb	$1, %al
	je	20b
	movq	24(%rsp), %rsi
	leal	1(%rsi), %eax
	movq	40(%rsp), %rdx
	movw	%ax, 2(%rdx)
	movq	16(%rsp), %rcx
	movq	(%rcx), %rax
	movq	%rax, 608(%rdx)
	movw	$0, (%rdx)
	movq	%rdx, (%rcx)
	movl	$14, %eax
	subq	%rsi, %rax
	movq	8(%rsp), %rsi
	movq	32(%rsp), %rdi
	movq	120(%rsp), %rdx
	jmp	24b
52:
	movq	16(%rsp), %rax
	movq	(%rax), %rcx
53:
	movq	%rcx, %rax
	cmpw	$0, (%rcx)
	je	56f
	movq	88(%rsp), %r15
	cmpb	$1, (%r15)
	movq	24(%rsp), %rcx
	jne	57f
	movzbl	79(%rsp), %ebx
	shlq	$3, %rdi
54:
	cmpq	$1, %rcx
	leaq	608(%rsi,%rdi), %r14
	cmoveq	16(%rsp), %r14
	andl	$15, %ebx
	movq	112(%rsp), %rax
	movq	%rax, 224(%rsp)
	movq	104(%rsp), %rax
	movq	%rax, 232(%rsp)
	movq	96(%rsp), %rax
	movq	%rax, 240(%rsp)
	movq	136(%rsp), %rax
	movq	%rax, 248(%rsp)
	movq	128(%rsp), %rax
	movq	%rax, 256(%rsp)
	movq	(%r14), %rax
	movzwl	(%rax), %ecx
	leaq	1(%rcx), %rdx
	xorl	%esi, %esi
	cmpw	$0, 2(%rax)
	setne	%sil
	movl	$0, %edi
	cmovneq	%rdx, %rdi
	shll	$4, %esi
	leaq	608(%rax), %rdx
	leaq	8(%rax), %r8
	movq	%r8, 144(%rsp)
	movq	%rcx, 152(%rsp)
	movq	$15, 160(%rsp)
	movq	%rdx, 168(%rsp)
	movq	%rcx, 176(%rsp)
	movq	$15, 184(%rsp)
	movq	%rdx, 192(%rsp)
	movq	%rdi, 200(%rsp)
	movq	%rsi, 208(%rsp)
	movq	%rax, 216(%rsp)
	leaq	144(%rsp), %rdi
	leaq	224(%rsp), %rdx
	movq	%rbx, %rsi
	callq	"std_alloc::vec::lodged::Vec+T+Lodged::insert_reserved::<38'(,,)::<i8,3'&[](*,i64,),3'&[](*,i64,)>>"
	xorl	%eax, %eax
	movzwl	152(%rsp), %ecx
	movq	216(%rsp), %rdx
	movw	%cx, (%rdx)
	movq	%rdx, (%r14)
	incq	16(%r15)
	movb	$1, %cl
	jmp	21b
55:
	movq	16(%rsp), %rax
	movq	(%rax), %rcx
	movq	%rcx, %rax
	cmpw	$0, (%rcx)
	jne	20b
56:
	cmpw	$0, 2(%rax)
	je	20b
	movq	%rax, %rdi
	movq	608(%rax), %rbx
	callq	rattle_dealloc@PLT
	movq	16(%rsp), %rax
	movq	%rbx, (%rax)
	jmp	20b
57:
	ud2
58:
	.size	"mime_text::merging::first::is_first", 58b-"mime_text::merging::first::is_first"

	.text
	.p2align	4
	.type	"mime_text::merging::first::marked::<#5757887c02ee9d34>",@function
"mime_text::merging::first::marked::<#5757887c02ee9d34>":
	pushq	%rbp
	pushq	%r15
	pushq	%r14
	pushq	%r13
	pushq	%r12
	pushq	%rbx
	subq	$344, %rsp
	movq	%rdi, %r15
	movq	(%rsi), %rax
	movq	%rax, 24(%rsp)
	movq	8(%rsi), %rbp
	movq	16(%rsi), %rax
	movq	%rax, 48(%rsp)
	movq	(%rdx), %rdi
	movq	8(%rdx), %r14
	movq	16(%rdx), %rcx
	xorl	%eax, %eax
	.p2align	4
1:
	cmpq	%rax, %r14
	je	7f
	cmpb	$0, (%rdi,%rax)
	leaq	1(%rax), %rax
	jne	1b
	testq	%rbp, %rbp
	je	11f
	movabsq	$96076792050570581, %rax
	cmpq	%rax, %rbp
	ja	2f
	movq	%rbp, %rax
	shlq	$5, %rax
	movq	%rdi, %rbx
	leaq	(%rax,%rax,2), %rdi
	movl	$8, %esi
	movq	%rcx, %r12
	callq	rattle_alloc@PLT
	movq	%r12, %rcx
	movq	%rbx, %rdi
	testb	$1, %al
	jne	12f
2:
	movq	%r15, %r13
	testq	%rcx, %rcx
	je	3f
	callq	rattle_dealloc@PLT
3:
	movq	24(%rsp), %rbx
	jmp	5f
	.p2align	4
4:
	addq	$96, %rbx
	decq	%rbp
	je	9f
5:
	movzbl	48(%rbx), %r12d
	movq	56(%rbx), %r15
	movq	72(%rbx), %r14
	cmpb	$0, (%rbx)
	je	6f
	cmpq	$0, 24(%rbx)
	je	6f
	movq	8(%rbx), %rdi
	callq	rattle_dealloc@PLT
6:
	testb	%r12b, %r12b
	je	4b
	testq	%r14, %r14
	je	4b
	movq	%r15, %rdi
	callq	rattle_dealloc@PLT
	jmp	4b
7:
	testq	%rcx, %rcx
	je	8f
	callq	rattle_dealloc@PLT
8:
	movb	$0, (%r15)
	movq	24(%rsp), %rax
	movq	%rax, 8(%r15)
	movq	%rbp, 16(%r15)
	movq	48(%rsp), %rax
	movq	%rax, 24(%r15)
	jmp	36f
9:
	cmpq	$0, 48(%rsp)
	je	10f
	movq	24(%rsp), %rdi
	callq	rattle_dealloc@PLT
10:
	movb	$1, (%r13)
	xorps	%xmm0, %xmm0
	movups	%xmm0, 8(%r13)
	movq	$0, 24(%r13)
	jmp	36f
11:
	leaq	32(%rsp), %rdx
12:
	movq	%rcx, 40(%rsp)
	movq	%rdx, 56(%rsp)
	movq	$0, 64(%rsp)
	movq	%rbp, 72(%rsp)
	testq	%rbp, %rbp
	movq	%rdi, 104(%rsp)
	je	19f
	movq	%r15, 80(%rsp)
	leaq	(%r14,%rdi), %rsi
	decq	%rsi
	negq	%r14
	leaq	(,%rbp,2), %rax
	addq	%rbp, %rax
	shlq	$5, %rax
	movq	24(%rsp), %rcx
	leaq	(%rax,%rcx), %r15
	addq	$-16, %r15
	movq	$0, (%rsp)
	xorl	%ebx, %ebx
	movq	%rsi, 16(%rsp)
	jmp	16f
	.p2align	4
13:
	movups	-16(%r15), %xmm1
	movups	-64(%r15), %xmm2
	leaq	-48(%r15), %rax
	movups	(%rax), %xmm0
	movaps	%xmm0, 160(%rsp)
	movups	(%r15), %xmm0
	movaps	%xmm0, 112(%rsp)
	movq	(%rsp), %rcx
	cmpq	%rcx, 72(%rsp)
	je	18f
14:
	leaq	(%rcx,%rcx,2), %rax
	shlq	$5, %rax
	movq	%r13, (%rdx,%rax)
	movq	%rdi, 8(%rdx,%rax)
	movups	%xmm2, 16(%rdx,%rax)
	movaps	160(%rsp), %xmm0
	movups	%xmm0, 32(%rdx,%rax)
	movq	%r9, 48(%rdx,%rax)
	movq	%r8, 56(%rdx,%rax)
	movups	%xmm1, 64(%rdx,%rax)
	movaps	112(%rsp), %xmm0
	movups	%xmm0, 80(%rdx,%rax)
	incq	%rcx
	movq	%rcx, (%rsp)
	movq	%rcx, 64(%rsp)
15:
	decq	%rbx
	addq	$-96, %r15
	movq	%rbp, %rax
	addq	%rbx, %rax
	je	24f
16:
	movzbl	-80(%r15), %r13d
	movzbl	-32(%r15), %r9d
	movq	-24(%r15), %r8
	movq	-8(%r15), %r10
	movq	-72(%r15), %rdi
	movq	-56(%r15), %r12
	cmpq	%rbx, %r14
	je	20f
	cmpb	$1, (%rsi,%rbx)
	je	13b
	testq	%r13, %r13
	je	17f
	testq	%r12, %r12
	je	17f
	movq	%rdx, %r12
	movq	%r8, 8(%rsp)
	movq	%r9, %r13
	movq	%r10, 88(%rsp)
	callq	rattle_dealloc@PLT
	movq	88(%rsp), %r10
	movq	%r13, %r9
	movq	8(%rsp), %r8
	movq	16(%rsp), %rsi
	movq	%r12, %rdx
17:
	testq	%r9, %r9
	je	15b
	testq	%r10, %r10
	je	15b
	movq	%r8, %rdi
	movq	%rdx, %r12
	callq	rattle_dealloc@PLT
	movq	16(%rsp), %rsi
	movq	%r12, %rdx
	jmp	15b
18:
	movaps	%xmm2, 304(%rsp)
	movaps	%xmm1, 320(%rsp)
	movq	%r10, 88(%rsp)
	movq	%r9, 96(%rsp)
	movq	%r8, 8(%rsp)
	movq	%rdi, (%rsp)
	leaq	56(%rsp), %rdi
	movl	$1, %esi
	callq	"std_alloc::vec::Vec::grow_amortized::<#af4d00d87a514b9c>"
	testb	%al, %al
	je	37f
	movq	56(%rsp), %rdx
	movq	64(%rsp), %rcx
	movq	(%rsp), %rdi
	movq	16(%rsp), %rsi
	movq	8(%rsp), %r8
	movq	96(%rsp), %r9
	movaps	320(%rsp), %xmm1
	movaps	304(%rsp), %xmm2
	jmp	14b
19:
	xorl	%r14d, %r14d
	xorl	%ebp, %ebp
	movq	56(%rsp), %r12
	cmpq	$15, %r14
	ja	23f
	jmp	25f
20:
	testq	%r13, %r13
	je	21f
	testq	%r12, %r12
	je	21f
	movq	%r8, %r14
	movq	%r9, %r15
	movq	%r10, %r12
	callq	rattle_dealloc@PLT
	movq	%r12, %r10
	movq	%r15, %r9
	movq	%r14, %r8
21:
	addq	%rbx, %rbp
	decq	%rbp
	testq	%r9, %r9
	movq	80(%rsp), %r15
	movq	(%rsp), %r14
	je	22f
	testq	%r10, %r10
	je	22f
	movq	%r8, %rdi
	callq	rattle_dealloc@PLT
22:
	movq	56(%rsp), %r12
	cmpq	$15, %r14
	jbe	25f
23:
	movq	%r14, %rdx
	shrq	%rdx
	movq	%r14, %rax
	subq	%rdx, %rax
	leaq	(%rax,%rax,2), %rsi
	shlq	$5, %rsi
	addq	%r12, %rsi
	movq	%r12, %rdi
	callq	"core::slice::edits::mirror::<31'mime_base::database::icon::Icon>"
	jmp	29f
24:
	xorl	%ebp, %ebp
	movq	80(%rsp), %r15
	movq	(%rsp), %r14
	movq	56(%rsp), %r12
	cmpq	$15, %r14
	ja	23b
25:
	cmpq	$2, %r14
	jb	29f
	leaq	-2(%r14), %rax
	shrq	%rax
	leaq	56(%r12), %rcx
	incq	%rax
	leaq	(%r14,%r14,2), %rdx
	shlq	$5, %rdx
	addq	%r12, %rdx
	addq	$-40, %rdx
	leaq	-1(%r14), %rsi
	xorl	%edi, %edi
	jmp	28f
	.p2align	4
26:
	movzbl	-56(%rcx), %r8d
	movq	-16(%rcx), %r9
	movq	%r9, 288(%rsp)
	movups	-48(%rcx), %xmm0
	movups	-32(%rcx), %xmm1
	movaps	%xmm1, 272(%rsp)
	movaps	%xmm0, 256(%rsp)
	movzbl	-8(%rcx), %r9d
	movups	(%rcx), %xmm0
	movups	16(%rcx), %xmm1
	movaps	%xmm1, 224(%rsp)
	movaps	%xmm0, 208(%rsp)
	movq	32(%rcx), %r10
	movq	%r10, 240(%rsp)
	movzbl	-56(%rdx), %r10d
	movups	-48(%rdx), %xmm0
	movups	-32(%rdx), %xmm1
	movaps	%xmm1, 176(%rsp)
	movaps	%xmm0, 160(%rsp)
	movq	-16(%rdx), %r11
	movq	%r11, 192(%rsp)
	movzbl	-8(%rdx), %r11d
	movups	(%rdx), %xmm0
	movups	16(%rdx), %xmm1
	movaps	%xmm1, 128(%rsp)
	movaps	%xmm0, 112(%rsp)
	movq	32(%rdx), %rbx
	movq	%rbx, 144(%rsp)
	movq	%r10, -56(%rcx)
	movaps	160(%rsp), %xmm0
	movaps	176(%rsp), %xmm1
	movups	%xmm0, -48(%rcx)
	movups	%xmm1, -32(%rcx)
	movq	192(%rsp), %r10
	movq	%r10, -16(%rcx)
	movq	%r11, -8(%rcx)
	movaps	112(%rsp), %xmm0
	movaps	128(%rsp), %xmm1
	movups	%xmm0, (%rcx)
	movups	%xmm1, 16(%rcx)
	movq	144(%rsp), %r10
	movq	%r10, 32(%rcx)
	movq	%r8, -56(%rdx)
	movaps	256(%rsp), %xmm0
	movaps	272(%rsp), %xmm1
	movups	%xmm0, -48(%rdx)
	movups	%xmm1, -32(%rdx)
	movq	288(%rsp), %r8
	movq	%r8, -16(%rdx)
	movq	%r9, -8(%rdx)
	movaps	208(%rsp), %xmm0
	movaps	224(%rsp), %xmm1
	movups	%xmm0, (%rdx)
	movups	%xmm1, 16(%rdx)
	movq	240(%rsp), %r8
	movq	%r8, 32(%rdx)
27:
	incq	%rdi
	addq	$96, %rcx
	addq	$-96, %rdx
	decq	%rsi
	cmpq	%rdi, %rax
	je	29f
28:
	cmpq	%rsi, %rdi
	jb	26b
	jbe	27b
	movzbl	-56(%rdx), %r8d
	movq	-16(%rdx), %r9
	movq	%r9, 288(%rsp)
	movups	-48(%rdx), %xmm0
	movups	-32(%rdx), %xmm1
	movaps	%xmm1, 272(%rsp)
	movaps	%xmm0, 256(%rsp)
	movzbl	-8(%rdx), %r9d
	movups	(%rdx), %xmm0
	movups	16(%rdx), %xmm1
	movaps	%xmm1, 224(%rsp)
	movaps	%xmm0, 208(%rsp)
	movq	32(%rdx), %r10
	movq	%r10, 240(%rsp)
	movzbl	-56(%rcx), %r10d
	movups	-48(%rcx), %xmm0
	movups	-32(%rcx), %xmm1
	movaps	%xmm1, 176(%rsp)
	movaps	%xmm0, 160(%rsp)
	movq	-16(%rcx), %r11
	movq	%r11, 192(%rsp)
	movzbl	-8(%rcx), %r11d
	movups	(%rcx), %xmm0
	movups	16(%rcx), %xmm1
	movaps	%xmm1, 128(%rsp)
	movaps	%xmm0, 112(%rsp)
	movq	32(%rcx), %rbx
	movq	%rbx, 144(%rsp)
	movq	%r10, -56(%rdx)
	movaps	160(%rsp), %xmm0
	movaps	176(%rsp), %xmm1
	movups	%xmm0, -48(%rdx)
	movups	%xmm1, -32(%rdx)
	movq	192(%rsp), %r10
	movq	%r10, -16(%rdx)
	movq	%r11, -8(%rdx)
	movaps	112(%rsp), %xmm0
	movaps	128(%rsp), %xmm1
	movups	%xmm0, (%rdx)
	movups	%xmm1, 16(%rdx)
	movq	144(%rsp), %r10
	movq	%r10, 32(%rdx)
	movq	%r8, -56(%rcx)
	movaps	256(%rsp), %xmm0
	movaps	272(%rsp), %xmm1
	movups	%xmm0, -48(%rcx)
	movups	%xmm1, -32(%rcx)
	movq	288(%rsp), %r8
	movq	%r8, -16(%rcx)
	movq	%r9, -8(%rcx)
	movaps	208(%rsp), %xmm0
	movaps	224(%rsp), %xmm1
	movups	%xmm0, (%rcx)
	movups	%xmm1, 16(%rcx)
	movq	240(%rsp), %r8
	movq	%r8, 32(%rcx)
	jmp	27b
29:
	movq	%r12, 16(%rsp)
	movq	%r14, (%rsp)
	movq	%r15, %rbx
	movq	72(%rsp), %rax
	movq	%rax, 8(%rsp)
	cmpq	$0, 40(%rsp)
	je	30f
	movq	104(%rsp), %rdi
	callq	rattle_dealloc@PLT
30:
	testq	%rbp, %rbp
	je	34f
	movq	24(%rsp), %r14
	jmp	32f
	.p2align	4
31:
	addq	$96, %r14
	decq	%rbp
	je	34f
32:
	movzbl	48(%r14), %r12d
	movq	56(%r14), %r15
	movq	72(%r14), %r13
	cmpb	$0, (%r14)
	je	33f
	cmpq	$0, 24(%r14)
	je	33f
	movq	8(%r14), %rdi
	callq	rattle_dealloc@PLT
33:
	testb	%r12b, %r12b
	je	31b
	testq	%r13, %r13
	je	31b
	movq	%r15, %rdi
	callq	rattle_dealloc@PLT
	jmp	31b
34:
	cmpq	$0, 48(%rsp)
	je	35f
	movq	24(%rsp), %rdi
	callq	rattle_dealloc@PLT
35:
	movb	$0, (%rbx)
	movq	16(%rsp), %rax
	movq	%rax, 8(%rbx)
	movq	(%rsp), %rax
	movq	%rax, 16(%rbx)
	movq	8(%rsp), %rax
	movq	%rax, 24(%rbx)
36:
	addq	$344, %rsp
	popq	%rbx
	popq	%r12
	popq	%r13
	popq	%r14
	popq	%r15
	popq	%rbp
	retq
37:
	testq	%r13, %r13
	movq	(%rsp), %rdi
	je	38f
	testq	%r12, %r12
	je	38f
	callq	rattle_dealloc@PLT
38:
	cmpq	$0, 96(%rsp)
	movq	8(%rsp), %rdi
	je	39f
	cmpq	$0, 88(%rsp)
	je	39f
	callq	rattle_dealloc@PLT
39:
	movq	56(%rsp), %rax
	movq	%rax, 16(%rsp)
	movq	64(%rsp), %r15
	movq	72(%rsp), %rax
	movq	%rax, 8(%rsp)
	testq	%r15, %r15
	movq	40(%rsp), %rax
	je	43f
	movq	16(%rsp), %r12
	jmp	41f
40:
	addq	$96, %r12
	decq	%r15
	je	43f
41:
	movzbl	48(%r12), %r13d
	movq	56(%r12), %rdi
	movq	72(%r12), %r14
	cmpb	$0, (%r12)
	je	42f
	cmpq	$0, 24(%r12)
	je	42f
	movq	%rdi, (%rsp)
	movq	8(%r12), %rdi
	callq	rattle_dealloc@PLT
	movq	(%rsp), %rdi
	movq	40(%rsp), %rax
42:
	testb	%r13b, %r13b
	je	40b
	testq	%r14, %r14
	je	40b
	callq	rattle_dealloc@PLT
	movq	40(%rsp), %rax
	jmp	40b
43:
	cmpq	$0, 8(%rsp)
	je	44f
	movq	16(%rsp), %rdi
	callq	rattle_dealloc@PLT
	movq	40(%rsp), %rax
44:
	leaq	(%rbx,%rbp), %r14
	decq	%r14
	testq	%rax, %rax
	je	45f
	movq	104(%rsp), %rdi
	callq	rattle_dealloc@PLT
45:
	testq	%r14, %r14
	je	49f
	addq	%rbx, %rbp
	movl	$1, %ebx
	movq	24(%rsp), %r14
	jmp	47f
46:
	incq	%rbx
	addq	$96, %r14
	cmpq	%rbx, %rbp
	je	49f
47:
	movzbl	48(%r14), %r13d
	movq	56(%r14), %r15
	movq	72(%r14), %r12
	cmpb	$0, (%r14)
	je	48f
	cmpq	$0, 24(%r14)
	je	48f
	movq	8(%r14), %rdi
	callq	rattle_dealloc@PLT
48:
	testb	%r13b, %r13b
	je	46b
	testq	%r12, %r12
	je	46b
	movq	%r15, %rdi
	callq	rattle_dealloc@PLT
	jmp	46b
49:
	cmpq	$0, 48(%rsp)
	je	50f
	movq	24(%rsp), %rdi
	callq	rattle_dealloc@PLT
50:
	movq	80(%rsp), %rax
	movb	$1, (%rax)
	xorps	%xmm0, %xmm0
	movups	%xmm0, 8(%rax)
	movq	$0, 24(%rax)
	jmp	36b
51:
	.size	"mime_text::merging::first::marked::<#5757887c02ee9d34>", 51b-"mime_text::merging::first::marked::<#5757887c02ee9d34>"

	.text
	.p2align	4
	.type	"mime_text::merging::hidden::least_weight",@function
"mime_text::merging::hidden::least_weight":
	pushq	%rbp
	pushq	%r15
	pushq	%r14
	pushq	%r13
	pushq	%r12
	pushq	%rbx
	pushq	%rax
	movq	%rcx, %rbx
	cmpq	%rdx, %rcx
	jne	1f
	movq	%rbx, %rdx
	addq	$8, %rsp
	popq	%rbx
	popq	%r12
	popq	%r13
	popq	%r14
	popq	%r15
	popq	%rbp
	jmp	"mime_text::merging::hidden::weight_of"
1:
	movzbl	(%rsi,%rbx), %r14d
	leaq	1(%rbx), %rbp
	movq	%rdi, %r12
	movq	%rsi, %r13
	movq	%rdx, %r15
	movq	%rbp, %rcx
	callq	"mime_text::merging::hidden::least_weight"
	testw	%ax, %ax
	je	2f
	leal	-97(%r14), %ecx
	cmpb	$25, %cl
	ja	3f
	leal	-32(%r14), %ecx
	movb	%cl, (%r13,%rbx)
	movq	%r12, %rdi
	movq	%r13, %rsi
	movq	%r15, %rdx
	movq	%rbp, %rcx
	movl	%eax, %ebp
	callq	"mime_text::merging::hidden::least_weight"
	movb	%r14b, (%r13,%rbx)
	cmpw	%bp, %ax
	cmovbl	%eax, %ebp
	movl	%ebp, %eax
	jmp	4f
2:
	xorl	%eax, %eax
3:
4:
	addq	$8, %rsp
	popq	%rbx
	popq	%r12
	popq	%r13
	popq	%r14
	popq	%r15
	popq	%rbp
	retq
5:
	.size	"mime_text::merging::hidden::least_weight", 5b-"mime_text::merging::hidden::least_weight"

	.text
	.p2align	4
	.type	"mime_text::merging::hidden::weight_of",@function
"mime_text::merging::hidden::weight_of":
	cmpb	$1, (%rdi)
	jne	13f
	pushq	%rbp
	pushq	%r14
	pushq	%rbx
	addq	$8, %rdi
1:
	movq	(%rdi), %rax
	movzwl	(%rax), %edi
	xorl	%ecx, %ecx
	testq	%rdi, %rdi
	je	11f
	.p2align	4
2:
	movq	%rcx, %r8
	shlq	$4, %r8
	movq	8(%rax,%r8), %r9
	movq	16(%rax,%r8), %r8
	cmpq	%rdx, %r8
	movq	%rdx, %r10
	cmovbq	%r8, %r10
	xorl	%r11d, %r11d
	cmpq	$64, %r10
	jb	4f
	movq	%r10, %rbx
	.p2align	4
3:
	movdqu	(%rsi,%r11), %xmm0
	movdqu	16(%rsi,%r11), %xmm1
	movdqu	32(%rsi,%r11), %xmm2
	movdqu	48(%rsi,%r11), %xmm3
	movdqu	(%r9,%r11), %xmm4
	pcmpeqb	%xmm0, %xmm4
	movdqu	16(%r9,%r11), %xmm0
	pcmpeqb	%xmm1, %xmm0
	movdqu	32(%r9,%r11), %xmm1
	pcmpeqb	%xmm2, %xmm1
	pand	%xmm4, %xmm1
	movdqu	48(%r9,%r11), %xmm2
	pcmpeqb	%xmm3, %xmm2
	pand	%xmm0, %xmm2
	pand	%xmm1, %xmm2
	pmovmskb	%xmm2, %ebp
	cmpl	$65535, %ebp
	jne	4f
	addq	$64, %r11
	addq	$-64, %rbx
	cmpq	$63, %rbx
	ja	3b
4:
	movq	%r10, %rbx
	subq	%r11, %rbx
	cmpq	$8, %rbx
	jb	6f
	.p2align	4
5:
	movq	(%rsi,%r11), %r14
	cmpq	(%r9,%r11), %r14
	jne	6f
	addq	$8, %r11
	addq	$-8, %rbx
	cmpq	$7, %rbx
	ja	5b
6:
	cmpq	%r10, %r11
	jae	8f
	.p2align	4
7:
	movzbl	(%r9,%r11), %ebx
	cmpb	%bl, (%rsi,%r11)
	jne	9f
	incq	%r11
	cmpq	%r11, %r10
	jne	7b
8:
	cmpq	%r8, %rdx
	je	14f
9:
	jb	10f
	incq	%rcx
	cmpq	%rdi, %rcx
	jne	2b
	movq	%rdi, %rcx
10:
	shlq	$3, %rcx
	cmpw	$0, 2(%rax)
	jne	12f
	jmp	15f
	.p2align	4
11:
	cmpw	$0, 2(%rax)
	je	15f
12:
	leaq	(%rax,%rcx), %rdi
	addq	$280, %rdi
	jmp	1b
13:
	xorl	%eax, %eax
	retq
14:
	movzwl	248(%rax,%rcx,2), %eax
	popq	%rbx
	popq	%r14
	popq	%rbp
	retq
15:
	xorl	%eax, %eax
	popq	%rbx
	popq	%r14
	popq	%rbp
	retq
16:
	.size	"mime_text::merging::hidden::weight_of", 16b-"mime_text::merging::hidden::weight_of"

	.text
	.p2align	4
	.type	"mime_text::merging::hidden::with_marked",@function
"mime_text::merging::hidden::with_marked":
	pushq	%rbp
	pushq	%r15
	pushq	%r14
	pushq	%r13
	pushq	%r12
	pushq	%rbx
	subq	$440, %rsp
	movq	%rdi, %r12
	movq	(%rsi), %rax
	movq	%rax, 136(%rsp)
	movq	8(%rsi), %r15
	movq	16(%rsi), %rax
	movq	%rax, 208(%rsp)
	movq	24(%rsi), %rbp
	movq	32(%rsi), %rax
	movq	%rax, 368(%rsp)
	movq	40(%rsi), %r14
	movq	48(%rsi), %rax
	movq	%rax, 312(%rsp)
	movq	56(%rsi), %r13
	movq	64(%rsi), %rax
	movq	%rax, 200(%rsp)
	movq	72(%rsi), %rax
	movq	%rax, 360(%rsp)
	movq	80(%rsi), %rax
	movq	%rax, 336(%rsp)
	movq	88(%rsi), %rax
	movq	%rax, 192(%rsp)
	movq	96(%rsi), %rax
	movq	%rax, 352(%rsp)
	movq	104(%rsi), %rax
	movq	%rax, 328(%rsp)
	movq	112(%rsi), %rax
	movq	%rax, 184(%rsp)
	movq	120(%rsi), %rax
	movq	%rax, 304(%rsp)
	movq	128(%rsi), %rax
	movq	%rax, 320(%rsp)
	movq	136(%rsi), %rax
	movq	%rax, 176(%rsp)
	movq	(%rdx), %rdi
	movq	8(%rdx), %rbx
	movq	16(%rdx), %r8
	xorl	%eax, %eax
	.p2align	4
1:
	cmpq	%rax, %rbx
	je	8f
	cmpb	$0, (%rdi,%rax)
	leaq	1(%rax), %rax
	jne	1b
	testq	%r15, %r15
	movq	%r13, 216(%rsp)
	movq	%r12, 296(%rsp)
	movq	%rbp, 232(%rsp)
	movq	%r14, 288(%rsp)
	je	15f
	movabsq	$88686269585142075, %rax
	cmpq	%rax, %r15
	ja	10f
	imulq	$104, %r15, %r14
	movl	$8, %esi
	movq	%rdi, 152(%rsp)
	movq	%r14, %rdi
	movq	%r8, 144(%rsp)
	callq	rattle_alloc@PLT
	movq	144(%rsp), %r8
	movq	152(%rsp), %rdi
	testb	$1, %al
	je	10f
	movq	%rdx, %r13
	movq	%rdx, 240(%rsp)
	movq	$0, 248(%rsp)
	movq	%r15, 256(%rsp)
	leaq	(%rbx,%rdi), %rsi
	decq	%rsi
	negq	%rbx
	movq	136(%rsp), %rax
	leaq	(%r14,%rax), %r12
	addq	$-16, %r12
	xorl	%eax, %eax
	xorl	%r8d, %r8d
	movq	%rsi, 280(%rsp)
	jmp	5f
	.p2align	4
2:
	movq	%rdx, 128(%rsp)
	movb	%cl, 8(%rsp)
	movq	%rax, 344(%rsp)
	movq	-88(%r12), %r9
	leaq	-79(%r12), %rax
	movups	-64(%r12), %xmm2
	leaq	-31(%r12), %rdx
	movups	-16(%r12), %xmm1
	movq	%rsi, %rcx
	movl	(%rax), %esi
	movl	3(%rax), %eax
	movl	%eax, 275(%rsp)
	movl	%esi, 272(%rsp)
	movq	%rcx, %rsi
	leaq	-48(%r12), %rax
	movups	(%rax), %xmm0
	movaps	%xmm0, 16(%rsp)
	movl	(%rdx), %eax
	movl	3(%rdx), %ecx
	movl	%ecx, 267(%rsp)
	movl	%eax, 264(%rsp)
	movups	(%r12), %xmm0
	movaps	%xmm0, 416(%rsp)
	cmpq	%r8, 256(%rsp)
	je	7f
3:
	imulq	$104, %r8, %rax
	movq	%r9, (%r13,%rax)
	movb	%r14b, 8(%r13,%rax)
	movl	272(%rsp), %ecx
	movl	275(%rsp), %edx
	movl	%ecx, 9(%r13,%rax)
	movl	%edx, 12(%r13,%rax)
	movq	344(%rsp), %rcx
	movq	%rcx, 16(%r13,%rax)
	movups	%xmm2, 24(%r13,%rax)
	movaps	16(%rsp), %xmm0
	movups	%xmm0, 40(%r13,%rax)
	movzbl	8(%rsp), %ecx
	movb	%cl, 56(%r13,%rax)
	movl	264(%rsp), %ecx
	movl	267(%rsp), %edx
	movl	%ecx, 57(%r13,%rax)
	movl	%edx, 60(%r13,%rax)
	movq	%r11, 64(%r13,%rax)
	movups	%xmm1, 72(%r13,%rax)
	movaps	416(%rsp), %xmm0
	movups	%xmm0, 88(%r13,%rax)
	incq	%r8
	movq	%r8, 248(%rsp)
4:
	leaq	-1(%r10), %rax
	addq	$-104, %r12
	movq	%r15, %rcx
	addq	%rax, %rcx
	je	26f
5:
	movq	%rax, %r10
	movzbl	-80(%r12), %r14d
	movq	-72(%r12), %rax
	movq	-56(%r12), %rbp
	movzbl	-32(%r12), %ecx
	movq	-24(%r12), %r11
	movq	-8(%r12), %rdx
	cmpq	%r10, %rbx
	je	24f
	cmpb	$1, (%rsi,%r10)
	je	2b
	testb	%r14b, %r14b
	je	6f
	testq	%rbp, %rbp
	je	6f
	movq	%rax, %rdi
	movq	%r8, %r14
	movq	%r10, %rbp
	movq	%r11, 224(%rsp)
	movb	%cl, 8(%rsp)
	movq	%rdx, 128(%rsp)
	callq	rattle_dealloc@PLT
	movq	128(%rsp), %rdx
	movzbl	8(%rsp), %ecx
	movq	224(%rsp), %r11
	movq	280(%rsp), %rsi
	movq	%rbp, %r10
	movq	%r14, %r8
	movq	152(%rsp), %rdi
6:
	testb	%cl, %cl
	je	4b
	testq	%rdx, %rdx
	je	4b
	movq	%r11, %rdi
	movq	%r8, %r14
	movq	%r10, %rbp
	callq	rattle_dealloc@PLT
	movq	280(%rsp), %rsi
	movq	%rbp, %r10
	movq	%r14, %r8
	movq	152(%rsp), %rdi
	jmp	4b
7:
	movq	%r9, 376(%rsp)
	movaps	%xmm2, 384(%rsp)
	movaps	%xmm1, 400(%rsp)
	movq	%r11, 224(%rsp)
	movq	%r10, 168(%rsp)
	leaq	240(%rsp), %rdi
	callq	"std_alloc::vec::Vec::grow_amortized::<#9f351709e7e1a03a>"
	testb	%al, %al
	je	36f
	movq	240(%rsp), %r13
	movq	248(%rsp), %r8
	movq	152(%rsp), %rdi
	movq	168(%rsp), %r10
	movq	280(%rsp), %rsi
	movq	224(%rsp), %r11
	movaps	400(%rsp), %xmm1
	movaps	384(%rsp), %xmm2
	movq	376(%rsp), %r9
	jmp	3b
8:
	testq	%r8, %r8
	je	9f
	callq	rattle_dealloc@PLT
9:
	movq	200(%rsp), %rcx
	movq	192(%rsp), %rdx
	movq	184(%rsp), %rsi
	movq	176(%rsp), %rdi
	movq	136(%rsp), %rax
	movq	208(%rsp), %rbx
	jmp	23f
10:
	testq	%r8, %r8
	je	11f
	callq	rattle_dealloc@PLT
11:
	movq	136(%rsp), %rax
	leaq	8(%rax), %rbx
	jmp	13f
	.p2align	4
12:
	addq	$104, %rbx
	decq	%r15
	je	48f
13:
	movzbl	48(%rbx), %ebp
	movq	56(%rbx), %r14
	movq	72(%rbx), %r12
	cmpb	$0, (%rbx)
	je	14f
	cmpq	$0, 24(%rbx)
	je	14f
	movq	8(%rbx), %rdi
	callq	rattle_dealloc@PLT
14:
	testb	%bpl, %bpl
	je	12b
	testq	%r12, %r12
	je	12b
	movq	%r14, %rdi
	callq	rattle_dealloc@PLT
	jmp	12b
15:
	leaq	160(%rsp), %rax
	movq	%rax, 128(%rsp)
	movq	%rax, 240(%rsp)
	movq	%r15, 256(%rsp)
	xorl	%ebp, %ebp
	movq	$0, 8(%rsp)
16:
	movq	256(%rsp), %rbx
	testq	%r8, %r8
	je	17f
	callq	rattle_dealloc@PLT
17:
	testq	%rbp, %rbp
	je	21f
	movq	136(%rsp), %rax
	leaq	80(%rax), %r15
	jmp	19f
	.p2align	4
18:
	addq	$104, %r15
	decq	%rbp
	je	21f
19:
	movzbl	-24(%r15), %r13d
	movq	-16(%r15), %r14
	movq	(%r15), %r12
	cmpb	$0, -72(%r15)
	je	20f
	cmpq	$0, -48(%r15)
	je	20f
	movq	-64(%r15), %rdi
	callq	rattle_dealloc@PLT
20:
	testb	%r13b, %r13b
	je	18b
	testq	%r12, %r12
	je	18b
	movq	%r14, %rdi
	callq	rattle_dealloc@PLT
	jmp	18b
21:
	cmpq	$0, 208(%rsp)
	je	22f
	movq	136(%rsp), %rdi
	callq	rattle_dealloc@PLT
22:
	movq	128(%rsp), %rax
	movq	8(%rsp), %r15
	movq	296(%rsp), %r12
	movq	232(%rsp), %rbp
	movq	288(%rsp), %r14
	movq	200(%rsp), %rcx
	movq	216(%rsp), %r13
	movq	192(%rsp), %rdx
	movq	184(%rsp), %rsi
	movq	176(%rsp), %rdi
23:
	movb	$0, (%r12)
	movq	%rax, 8(%r12)
	movq	%r15, 16(%r12)
	movq	%rbx, 24(%r12)
	movq	%rbp, 32(%r12)
	movq	368(%rsp), %rax
	movq	%rax, 40(%r12)
	movq	%r14, 48(%r12)
	movq	312(%rsp), %rax
	movq	%rax, 56(%r12)
	movq	%r13, 64(%r12)
	movq	%rcx, 72(%r12)
	movq	360(%rsp), %rax
	movq	%rax, 80(%r12)
	movq	336(%rsp), %rax
	movq	%rax, 88(%r12)
	movq	%rdx, 96(%r12)
	movq	352(%rsp), %rax
	movq	%rax, 104(%r12)
	movq	328(%rsp), %rax
	movq	%rax, 112(%r12)
	movq	%rsi, 120(%r12)
	movq	304(%rsp), %rax
	movq	%rax, 128(%r12)
	movq	320(%rsp), %rax
	movq	%rax, 136(%r12)
	movq	%rdi, 144(%r12)
	jmp	77f
24:
	testb	%r14b, %r14b
	je	25f
	testq	%rbp, %rbp
	je	25f
	movq	%rax, %rdi
	movq	%r8, %rbx
	movq	%r10, %r14
	movq	%r11, %r12
	movl	%ecx, %ebp
	movq	%rdx, %r13
	callq	rattle_dealloc@PLT
	movq	%r13, %rdx
	movl	%ebp, %ecx
	movq	%r12, %r11
	movq	%r14, %r10
	movq	%rbx, %r8
	movq	152(%rsp), %rdi
25:
	testb	%cl, %cl
	je	26f
	testq	%rdx, %rdx
	je	26f
	movq	%r11, %rdi
	movq	%r8, %rbx
	movq	%r10, %r14
	callq	rattle_dealloc@PLT
	movq	%r14, %r10
	movq	%rbx, %r8
	movq	152(%rsp), %rdi
26:
	movq	240(%rsp), %r9
	leaq	(%r15,%r10), %rbp
	decq	%rbp
	cmpq	$15, %r8
	movq	%r8, 8(%rsp)
	movq	%r9, 128(%rsp)
	jbe	27f
	movq	%r8, %rdx
	shrq	%rdx
	movq	%r8, %rax
	subq	%rdx, %rax
	imulq	$104, %rax, %rsi
	addq	%r9, %rsi
	movq	%r9, %rdi
	callq	"core::slice::edits::mirror::<35'mime_base::database::rule::GlobRule>"
	movq	152(%rsp), %rdi
	movq	144(%rsp), %r8
	jmp	16b
27:
	cmpq	$2, %r8
	jb	29f
	leaq	-2(%r8), %rcx
	movq	%rcx, %rax
	shrq	%rax
	movq	%r8, %rdx
	decq	%rdx
	je	28f
	imulq	$104, %rdx, %rdx
	movq	96(%r9), %rsi
	movq	%rsi, 112(%rsp)
	movups	80(%r9), %xmm0
	movaps	%xmm0, 96(%rsp)
	movups	64(%r9), %xmm0
	movaps	%xmm0, 80(%rsp)
	movups	(%r9), %xmm0
	movups	16(%r9), %xmm1
	movups	32(%r9), %xmm2
	movups	48(%r9), %xmm3
	movaps	%xmm3, 64(%rsp)
	movaps	%xmm2, 48(%rsp)
	movaps	%xmm1, 32(%rsp)
	movaps	%xmm0, 16(%rsp)
	movq	96(%r9,%rdx), %rsi
	movups	80(%r9,%rdx), %xmm0
	movups	64(%r9,%rdx), %xmm1
	movups	(%r9,%rdx), %xmm2
	movups	16(%r9,%rdx), %xmm3
	movups	32(%r9,%rdx), %xmm4
	movups	48(%r9,%rdx), %xmm5
	movups	%xmm2, (%r9)
	movups	%xmm3, 16(%r9)
	movups	%xmm4, 32(%r9)
	movups	%xmm5, 48(%r9)
	movups	%xmm1, 64(%r9)
	movups	%xmm0, 80(%r9)
	movq	%rsi, 96(%r9)
	movq	112(%rsp), %rsi
	movq	%rsi, 96(%r9,%rdx)
	movaps	96(%rsp), %xmm0
	movups	%xmm0, 80(%r9,%rdx)
	movaps	80(%rsp), %xmm0
	movups	%xmm0, 64(%r9,%rdx)
	movaps	16(%rsp), %xmm0
	movaps	32(%rsp), %xmm1
	movaps	48(%rsp), %xmm2
	movaps	64(%rsp), %xmm3
	movups	%xmm3, 48(%r9,%rdx)
	movups	%xmm2, 32(%r9,%rdx)
	movups	%xmm1, 16(%r9,%rdx)
	movups	%xmm0, (%r9,%rdx)
28:
	testq	%rax, %rax
	movq	144(%rsp), %r8
	je	16b
	cmpq	$1, %rcx
	jbe	30f
	imulq	$104, %rcx, %rcx
	movq	200(%r9), %rdx
	movq	%rdx, 112(%rsp)
	movups	184(%r9), %xmm0
	movaps	%xmm0, 96(%rsp)
	movups	168(%r9), %xmm0
	movaps	%xmm0, 80(%rsp)
	movups	104(%r9), %xmm0
	movups	120(%r9), %xmm1
	movups	136(%r9), %xmm2
	movups	152(%r9), %xmm3
	movaps	%xmm3, 64(%rsp)
	movaps	%xmm2, 48(%rsp)
	movaps	%xmm1, 32(%rsp)
	movaps	%xmm0, 16(%rsp)
	movq	96(%r9,%rcx), %rdx
	movups	80(%r9,%rcx), %xmm0
	movups	64(%r9,%rcx), %xmm1
	movups	(%r9,%rcx), %xmm2
	movups	16(%r9,%rcx), %xmm3
	movups	32(%r9,%rcx), %xmm4
	movups	48(%r9,%rcx), %xmm5
	movups	%xmm2, 104(%r9)
	movups	%xmm3, 120(%r9)
	movups	%xmm4, 136(%r9)
	movups	%xmm5, 152(%r9)
	movups	%xmm1, 168(%r9)
	movups	%xmm0, 184(%r9)
	movq	%rdx, 200(%r9)
	movq	112(%rsp), %rdx
	movq	%rdx, 96(%r9,%rcx)
	movaps	96(%rsp), %xmm0
	movups	%xmm0, 80(%r9,%rcx)
	movaps	80(%rsp), %xmm0
	movups	%xmm0, 64(%r9,%rcx)
	movaps	16(%rsp), %xmm0
	movaps	32(%rsp), %xmm1
	movaps	48(%rsp), %xmm2
	movaps	64(%rsp), %xmm3
	movups	%xmm3, 48(%r9,%rcx)
	movups	%xmm2, 32(%r9,%rcx)
	movups	%xmm1, 16(%r9,%rcx)
	movups	%xmm0, (%r9,%rcx)
	jmp	31f
29:
	movq	144(%rsp), %r8
	jmp	16b
30:
	testq	%rcx, %rcx
	jne	31f
	imulq	$104, %rcx, %rcx
	movq	96(%r9,%rcx), %rdx
	movq	%rdx, 112(%rsp)
	movups	80(%r9,%rcx), %xmm0
	movaps	%xmm0, 96(%rsp)
	movups	64(%r9,%rcx), %xmm0
	movaps	%xmm0, 80(%rsp)
	movups	(%r9,%rcx), %xmm0
	movups	16(%r9,%rcx), %xmm1
	movups	32(%r9,%rcx), %xmm2
	movups	48(%r9,%rcx), %xmm3
	movaps	%xmm3, 64(%rsp)
	movaps	%xmm2, 48(%rsp)
	movaps	%xmm1, 32(%rsp)
	movaps	%xmm0, 16(%rsp)
	movq	200(%r9), %rdx
	movups	184(%r9), %xmm0
	movups	168(%r9), %xmm1
	movups	104(%r9), %xmm2
	movups	120(%r9), %xmm3
	movups	136(%r9), %xmm4
	movups	152(%r9), %xmm5
	movups	%xmm2, (%r9,%rcx)
	movups	%xmm3, 16(%r9,%rcx)
	movups	%xmm4, 32(%r9,%rcx)
	movups	%xmm5, 48(%r9,%rcx)
	movups	%xmm1, 64(%r9,%rcx)
	movups	%xmm0, 80(%r9,%rcx)
	movq	%rdx, 96(%r9,%rcx)
	movq	112(%rsp), %rcx
	movq	%rcx, 200(%r9)
	movaps	96(%rsp), %xmm0
	movups	%xmm0, 184(%r9)
	movaps	80(%rsp), %xmm0
	movups	%xmm0, 168(%r9)
	movaps	16(%rsp), %xmm0
	movaps	32(%rsp), %xmm1
	movaps	48(%rsp), %xmm2
	movaps	64(%rsp), %xmm3
	movups	%xmm3, 152(%r9)
	movups	%xmm2, 136(%r9)
	movups	%xmm1, 120(%r9)
	movups	%xmm0, 104(%r9)
31:
	cmpq	$1, %rax
	je	16b
	movq	8(%rsp), %rcx
	addq	$-3, %rcx
	cmpq	$2, %rcx
	jbe	32f
	imulq	$104, %rcx, %rcx
	movq	304(%r9), %rdx
	movq	%rdx, 112(%rsp)
	movups	288(%r9), %xmm0
	movaps	%xmm0, 96(%rsp)
	movups	272(%r9), %xmm0
	movaps	%xmm0, 80(%rsp)
	movups	208(%r9), %xmm0
	movups	224(%r9), %xmm1
	movups	240(%r9), %xmm2
	movups	256(%r9), %xmm3
	movaps	%xmm3, 64(%rsp)
	movaps	%xmm2, 48(%rsp)
	movaps	%xmm1, 32(%rsp)
	movaps	%xmm0, 16(%rsp)
	movq	96(%r9,%rcx), %rdx
	movups	80(%r9,%rcx), %xmm0
	movups	64(%r9,%rcx), %xmm1
	movups	(%r9,%rcx), %xmm2
	movups	16(%r9,%rcx), %xmm3
	movups	32(%r9,%rcx), %xmm4
	movups	48(%r9,%rcx), %xmm5
	movups	%xmm2, 208(%r9)
	movups	%xmm3, 224(%r9)
	movups	%xmm4, 240(%r9)
	movups	%xmm5, 256(%r9)
	movups	%xmm1, 272(%r9)
	movups	%xmm0, 288(%r9)
	movq	%rdx, 304(%r9)
	movq	112(%rsp), %rdx
	movq	%rdx, 96(%r9,%rcx)
	movaps	96(%rsp), %xmm0
	movups	%xmm0, 80(%r9,%rcx)
	movaps	80(%rsp), %xmm0
	movups	%xmm0, 64(%r9,%rcx)
	movaps	16(%rsp), %xmm0
	movaps	32(%rsp), %xmm1
	movaps	48(%rsp), %xmm2
	movaps	64(%rsp), %xmm3
	movups	%xmm3, 48(%r9,%rcx)
	movups	%xmm2, 32(%r9,%rcx)
	movups	%xmm1, 16(%r9,%rcx)
	movups	%xmm0, (%r9,%rcx)
	jmp	33f
32:
	je	33f
	imulq	$104, %rcx, %rcx
	movq	96(%r9,%rcx), %rdx
	movq	%rdx, 112(%rsp)
	movups	80(%r9,%rcx), %xmm0
	movaps	%xmm0, 96(%rsp)
	movups	64(%r9,%rcx), %xmm0
	movaps	%xmm0, 80(%rsp)
	movups	(%r9,%rcx), %xmm0
	movups	16(%r9,%rcx), %xmm1
	movups	32(%r9,%rcx), %xmm2
	movups	48(%r9,%rcx), %xmm3
	movaps	%xmm3, 64(%rsp)
	movaps	%xmm2, 48(%rsp)
	movaps	%xmm1, 32(%rsp)
	movaps	%xmm0, 16(%rsp)
	movq	304(%r9), %rdx
	movups	288(%r9), %xmm0
	movups	272(%r9), %xmm1
	movups	208(%r9), %xmm2
	movups	224(%r9), %xmm3
	movups	240(%r9), %xmm4
	movups	256(%r9), %xmm5
	movups	%xmm2, (%r9,%rcx)
	movups	%xmm3, 16(%r9,%rcx)
	movups	%xmm4, 32(%r9,%rcx)
	movups	%xmm5, 48(%r9,%rcx)
	movups	%xmm1, 64(%r9,%rcx)
	movups	%xmm0, 80(%r9,%rcx)
	movq	%rdx, 96(%r9,%rcx)
	movq	112(%rsp), %rcx
	movq	%rcx, 304(%r9)
	movaps	96(%rsp), %xmm0
	movups	%xmm0, 288(%r9)
	movaps	80(%rsp), %xmm0
	movups	%xmm0, 272(%r9)
	movaps	16(%rsp), %xmm0
	movaps	32(%rsp), %xmm1
	movaps	48(%rsp), %xmm2
	movaps	64(%rsp), %xmm3
	movups	%xmm3, 256(%r9)
	movups	%xmm2, 240(%r9)
	movups	%xmm1, 224(%r9)
	movups	%xmm0, 208(%r9)
33:
	cmpq	$2, %rax
	je	16b
	movq	8(%rsp), %rcx
	addq	$-4, %rcx
	cmpq	$3, %rcx
	jbe	34f
	imulq	$104, %rcx, %rcx
	movq	408(%r9), %rdx
	movq	%rdx, 112(%rsp)
	movups	392(%r9), %xmm0
	movaps	%xmm0, 96(%rsp)
	movups	376(%r9), %xmm0
	movaps	%xmm0, 80(%rsp)
	movups	312(%r9), %xmm0
	movups	328(%r9), %xmm1
	movups	344(%r9), %xmm2
	movups	360(%r9), %xmm3
	movaps	%xmm3, 64(%rsp)
	movaps	%xmm2, 48(%rsp)
	movaps	%xmm1, 32(%rsp)
	movaps	%xmm0, 16(%rsp)
	movq	96(%r9,%rcx), %rdx
	movups	80(%r9,%rcx), %xmm0
	movups	64(%r9,%rcx), %xmm1
	movups	(%r9,%rcx), %xmm2
	movups	16(%r9,%rcx), %xmm3
	movups	32(%r9,%rcx), %xmm4
	movups	48(%r9,%rcx), %xmm5
	movups	%xmm2, 312(%r9)
	movups	%xmm3, 328(%r9)
	movups	%xmm4, 344(%r9)
	movups	%xmm5, 360(%r9)
	movups	%xmm1, 376(%r9)
	movups	%xmm0, 392(%r9)
	movq	%rdx, 408(%r9)
	movq	112(%rsp), %rdx
	movq	%rdx, 96(%r9,%rcx)
	movaps	96(%rsp), %xmm0
	movups	%xmm0, 80(%r9,%rcx)
	movaps	80(%rsp), %xmm0
	movups	%xmm0, 64(%r9,%rcx)
	movaps	16(%rsp), %xmm0
	movaps	32(%rsp), %xmm1
	movaps	48(%rsp), %xmm2
	movaps	64(%rsp), %xmm3
	movups	%xmm3, 48(%r9,%rcx)
	movups	%xmm2, 32(%r9,%rcx)
	movups	%xmm1, 16(%r9,%rcx)
	movups	%xmm0, (%r9,%rcx)
	jmp	35f
34:
	je	35f
	imulq	$104, %rcx, %rcx
	movq	96(%r9,%rcx), %rdx
	movq	%rdx, 112(%rsp)
	movups	80(%r9,%rcx), %xmm0
	movaps	%xmm0, 96(%rsp)
	movups	64(%r9,%rcx), %xmm0
	movaps	%xmm0, 80(%rsp)
	movups	(%r9,%rcx), %xmm0
	movups	16(%r9,%rcx), %xmm1
	movups	32(%r9,%rcx), %xmm2
	movups	48(%r9,%rcx), %xmm3
	movaps	%xmm3, 64(%rsp)
	movaps	%xmm2, 48(%rsp)
	movaps	%xmm1, 32(%rsp)
	movaps	%xmm0, 16(%rsp)
	movq	408(%r9), %rdx
	movups	392(%r9), %xmm0
	movups	376(%r9), %xmm1
	movups	312(%r9), %xmm2
	movups	328(%r9), %xmm3
	movups	344(%r9), %xmm4
	movups	360(%r9), %xmm5
	movups	%xmm2, (%r9,%rcx)
	movups	%xmm3, 16(%r9,%rcx)
	movups	%xmm4, 32(%r9,%rcx)
	movups	%xmm5, 48(%r9,%rcx)
	movups	%xmm1, 64(%r9,%rcx)
	movups	%xmm0, 80(%r9,%rcx)
	movq	%rdx, 96(%r9,%rcx)
	movq	112(%rsp), %rcx
	movq	%rcx, 408(%r9)
	movaps	96(%rsp), %xmm0
	movups	%xmm0, 392(%r9)
	movaps	80(%rsp), %xmm0
	movups	%xmm0, 376(%r9)
	movaps	16(%rsp), %xmm0
	movaps	32(%rsp), %xmm1
	movaps	48(%rsp), %xmm2
	movaps	64(%rsp), %xmm3
	movups	%xmm3, 360(%r9)
	movups	%xmm2, 344(%r9)
	movups	%xmm1, 328(%r9)
	movups	%xmm0, 312(%r9)
35:
	cmpq	$3, %rax
	je	16b
	movq	8(%rsp), %rcx
	addq	$-5, %rcx
	cmpq	$4, %rcx
	jbe	78f
	imulq	$104, %rcx, %rcx
	movq	512(%r9), %rdx
	movq	%rdx, 112(%rsp)
	movups	496(%r9), %xmm0
	movaps	%xmm0, 96(%rsp)
	movups	480(%r9), %xmm0
	movaps	%xmm0, 80(%rsp)
	movups	416(%r9), %xmm0
	movups	432(%r9), %xmm1
	movups	448(%r9), %xmm2
	movups	464(%r9), %xmm3
	movaps	%xmm3, 64(%rsp)
	movaps	%xmm2, 48(%rsp)
	movaps	%xmm1, 32(%rsp)
	movaps	%xmm0, 16(%rsp)
	movq	96(%r9,%rcx), %rdx
	movups	80(%r9,%rcx), %xmm0
	movups	64(%r9,%rcx), %xmm1
	movups	(%r9,%rcx), %xmm2
	movups	16(%r9,%rcx), %xmm3
	movups	32(%r9,%rcx), %xmm4
	movups	48(%r9,%rcx), %xmm5
	movups	%xmm2, 416(%r9)
	movups	%xmm3, 432(%r9)
	movups	%xmm4, 448(%r9)
	movups	%xmm5, 464(%r9)
	movups	%xmm1, 480(%r9)
	movups	%xmm0, 496(%r9)
	movq	%rdx, 512(%r9)
	movq	112(%rsp), %rdx
	movq	%rdx, 96(%r9,%rcx)
	movaps	96(%rsp), %xmm0
	movups	%xmm0, 80(%r9,%rcx)
	movaps	80(%rsp), %xmm0
	movups	%xmm0, 64(%r9,%rcx)
	movaps	16(%rsp), %xmm0
	movaps	32(%rsp), %xmm1
	movaps	48(%rsp), %xmm2
	movaps	64(%rsp), %xmm3
	movups	%xmm3, 48(%r9,%rcx)
	movups	%xmm2, 32(%r9,%rcx)
	movups	%xmm1, 16(%r9,%rcx)
	movups	%xmm0, (%r9,%rcx)
	jmp	79f
36:
	cmpb	$0, 8(%rsp)
	sete	%al
	cmpq	$0, 128(%rsp)
	sete	%bl
	orb	%al, %bl
	testb	%r14b, %r14b
	je	37f
	testq	%rbp, %rbp
	je	37f
	movq	344(%rsp), %rdi
	callq	rattle_dealloc@PLT
37:
	testb	%bl, %bl
	movq	224(%rsp), %rdi
	jne	38f
	callq	rattle_dealloc@PLT
38:
	movq	240(%rsp), %rax
	movq	%rax, 8(%rsp)
	movq	248(%rsp), %r12
	movq	256(%rsp), %rax
	movq	%rax, 128(%rsp)
	testq	%r12, %r12
	movq	144(%rsp), %rax
	movq	168(%rsp), %rcx
	je	42f
	movq	8(%rsp), %rdx
	leaq	80(%rdx), %rbp
	jmp	40f
39:
	addq	$104, %rbp
	decq	%r12
	je	42f
40:
	movzbl	-24(%rbp), %r14d
	movq	-16(%rbp), %r13
	movq	(%rbp), %rbx
	cmpb	$0, -72(%rbp)
	je	41f
	cmpq	$0, -48(%rbp)
	je	41f
	movq	-64(%rbp), %rdi
	callq	rattle_dealloc@PLT
	movq	168(%rsp), %rcx
	movq	144(%rsp), %rax
41:
	testb	%r14b, %r14b
	je	39b
	testq	%rbx, %rbx
	je	39b
	movq	%r13, %rdi
	callq	rattle_dealloc@PLT
	movq	168(%rsp), %rcx
	movq	144(%rsp), %rax
	jmp	39b
42:
	cmpq	$0, 128(%rsp)
	je	43f
	movq	8(%rsp), %rdi
	callq	rattle_dealloc@PLT
	movq	168(%rsp), %rcx
	movq	144(%rsp), %rax
43:
	leaq	(%r15,%rcx), %rbx
	decq	%rbx
	testq	%rax, %rax
	je	44f
	movq	152(%rsp), %rdi
	callq	rattle_dealloc@PLT
	movq	168(%rsp), %rcx
44:
	testq	%rbx, %rbx
	je	48f
	addq	%rcx, %r15
	movq	136(%rsp), %rax
	leaq	80(%rax), %rbx
	movl	$1, %r12d
	jmp	46f
45:
	incq	%r12
	addq	$104, %rbx
	cmpq	%r12, %r15
	je	48f
46:
	movzbl	-24(%rbx), %ebp
	movq	-16(%rbx), %r14
	movq	(%rbx), %r13
	cmpb	$0, -72(%rbx)
	je	47f
	cmpq	$0, -48(%rbx)
	je	47f
	movq	-64(%rbx), %rdi
	callq	rattle_dealloc@PLT
47:
	testb	%bpl, %bpl
	je	45b
	testq	%r13, %r13
	je	45b
	movq	%r14, %rdi
	callq	rattle_dealloc@PLT
	jmp	45b
48:
	cmpq	$0, 208(%rsp)
	movq	216(%rsp), %r13
	je	49f
	movq	136(%rsp), %rdi
	callq	rattle_dealloc@PLT
49:
	cmpq	$0, 320(%rsp)
	movq	352(%rsp), %r12
	je	53f
	movq	304(%rsp), %rbx
	jmp	51f
	.p2align	4
50:
	addq	$96, %rbx
	decq	320(%rsp)
	je	53f
51:
	movzbl	48(%rbx), %ebp
	movq	56(%rbx), %r14
	movq	72(%rbx), %r15
	cmpb	$0, (%rbx)
	je	52f
	cmpq	$0, 24(%rbx)
	je	52f
	movq	8(%rbx), %rdi
	callq	rattle_dealloc@PLT
52:
	testb	%bpl, %bpl
	je	50b
	testq	%r15, %r15
	je	50b
	movq	%r14, %rdi
	callq	rattle_dealloc@PLT
	jmp	50b
53:
	cmpq	$0, 176(%rsp)
	je	54f
	movq	304(%rsp), %rdi
	callq	rattle_dealloc@PLT
54:
	cmpq	$0, 328(%rsp)
	je	58f
	movq	%r12, %rbx
	jmp	56f
	.p2align	4
55:
	addq	$96, %rbx
	decq	328(%rsp)
	je	58f
56:
	movzbl	48(%rbx), %ebp
	movq	56(%rbx), %r14
	movq	72(%rbx), %r15
	cmpb	$0, (%rbx)
	je	57f
	cmpq	$0, 24(%rbx)
	je	57f
	movq	8(%rbx), %rdi
	callq	rattle_dealloc@PLT
57:
	testb	%bpl, %bpl
	je	55b
	testq	%r15, %r15
	je	55b
	movq	%r14, %rdi
	callq	rattle_dealloc@PLT
	jmp	55b
58:
	cmpq	$0, 184(%rsp)
	je	59f
	movq	%r12, %rdi
	callq	rattle_dealloc@PLT
59:
	cmpq	$0, 336(%rsp)
	movq	360(%rsp), %rbp
	je	65f
	xorl	%ebx, %ebx
	jmp	61f
	.p2align	4
60:
	incq	%rbx
	cmpq	336(%rsp), %rbx
	movq	216(%rsp), %r13
	je	65f
61:
	movq	%rbx, %rax
	shlq	$4, %rax
	leaq	(%rax,%rax,4), %rax
	movq	56(%rbp,%rax), %r14
	movq	64(%rbp,%rax), %r12
	movq	72(%rbp,%rax), %r15
	cmpb	$0, 8(%rbp,%rax)
	je	62f
	cmpq	$0, 32(%rbp,%rax)
	je	62f
	movq	16(%rbp,%rax), %rdi
	callq	rattle_dealloc@PLT
62:
	testq	%r12, %r12
	je	64f
	movq	%r14, %r13
	.p2align	4
63:
	movups	80(%r13), %xmm0
	movaps	%xmm0, 96(%rsp)
	movups	64(%r13), %xmm0
	movaps	%xmm0, 80(%rsp)
	movups	(%r13), %xmm0
	movups	16(%r13), %xmm1
	movups	32(%r13), %xmm2
	movups	48(%r13), %xmm3
	movaps	%xmm3, 64(%rsp)
	movaps	%xmm2, 48(%rsp)
	movaps	%xmm1, 32(%rsp)
	movaps	%xmm0, 16(%rsp)
	leaq	16(%rsp), %rdi
	callq	"mime_text::mime_base++magic++matchlet++Matchlet+Destruct::drop"
	addq	$96, %r13
	decq	%r12
	jne	63b
64:
	testq	%r15, %r15
	je	60b
	movq	%r14, %rdi
	callq	rattle_dealloc@PLT
	jmp	60b
65:
	cmpq	$0, 192(%rsp)
	je	66f
	movq	%rbp, %rdi
	callq	rattle_dealloc@PLT
66:
	testq	%r13, %r13
	movq	368(%rsp), %r12
	je	70f
	movq	312(%rsp), %rbx
	jmp	68f
	.p2align	4
67:
	addq	$96, %rbx
	decq	%r13
	je	70f
68:
	movzbl	48(%rbx), %ebp
	movq	56(%rbx), %r14
	movq	72(%rbx), %r15
	cmpb	$0, (%rbx)
	je	69f
	cmpq	$0, 24(%rbx)
	je	69f
	movq	8(%rbx), %rdi
	callq	rattle_dealloc@PLT
69:
	testb	%bpl, %bpl
	je	67b
	testq	%r15, %r15
	je	67b
	movq	%r14, %rdi
	callq	rattle_dealloc@PLT
	jmp	67b
70:
	cmpq	$0, 200(%rsp)
	je	71f
	movq	312(%rsp), %rdi
	callq	rattle_dealloc@PLT
71:
	testq	%r12, %r12
	je	75f
	movq	232(%rsp), %rbx
	jmp	73f
	.p2align	4
72:
	addq	$96, %rbx
	decq	%r12
	je	75f
73:
	movzbl	48(%rbx), %ebp
	movq	56(%rbx), %r14
	movq	72(%rbx), %r15
	cmpb	$0, (%rbx)
	je	74f
	cmpq	$0, 24(%rbx)
	je	74f
	movq	8(%rbx), %rdi
	callq	rattle_dealloc@PLT
74:
	testb	%bpl, %bpl
	je	72b
	testq	%r15, %r15
	je	72b
	movq	%r14, %rdi
	callq	rattle_dealloc@PLT
	jmp	72b
75:
	cmpq	$0, 288(%rsp)
	je	76f
	movq	232(%rsp), %rdi
	callq	rattle_dealloc@PLT
76:
	movq	296(%rsp), %rax
	movb	$1, (%rax)
	xorps	%xmm0, %xmm0
	movups	%xmm0, 8(%rax)
	movups	%xmm0, 24(%rax)
	movups	%xmm0, 40(%rax)
	movups	%xmm0, 56(%rax)
	movups	%xmm0, 72(%rax)
	movups	%xmm0, 88(%rax)
	movups	%xmm0, 104(%rax)
	movups	%xmm0, 120(%rax)
	movups	%xmm0, 136(%rax)
77:
	addq	$440, %rsp
	popq	%rbx
	popq	%r12
	popq	%r13
	popq	%r14
	popq	%r15
	popq	%rbp
	retq
78:
	je	79f
	imulq	$104, %rcx, %rcx
	movq	96(%r9,%rcx), %rdx
	movq	%rdx, 112(%rsp)
	movups	80(%r9,%rcx), %xmm0
	movaps	%xmm0, 96(%rsp)
	movups	64(%r9,%rcx), %xmm0
	movaps	%xmm0, 80(%rsp)
	movups	(%r9,%rcx), %xmm0
	movups	16(%r9,%rcx), %xmm1
	movups	32(%r9,%rcx), %xmm2
	movups	48(%r9,%rcx), %xmm3
	movaps	%xmm3, 64(%rsp)
	movaps	%xmm2, 48(%rsp)
	movaps	%xmm1, 32(%rsp)
	movaps	%xmm0, 16(%rsp)
	movq	512(%r9), %rdx
	movups	496(%r9), %xmm0
	movups	480(%r9), %xmm1
	movups	416(%r9), %xmm2
	movups	432(%r9), %xmm3
	movups	448(%r9), %xmm4
	movups	464(%r9), %xmm5
	movups	%xmm2, (%r9,%rcx)
	movups	%xmm3, 16(%r9,%rcx)
	movups	%xmm4, 32(%r9,%rcx)
	movups	%xmm5, 48(%r9,%rcx)
	movups	%xmm1, 64(%r9,%rcx)
	movups	%xmm0, 80(%r9,%rcx)
	movq	%rdx, 96(%r9,%rcx)
	movq	112(%rsp), %rcx
	movq	%rcx, 512(%r9)
	movaps	96(%rsp), %xmm0
	movups	%xmm0, 496(%r9)
	movaps	80(%rsp), %xmm0
	movups	%xmm0, 480(%r9)
	movaps	16(%rsp), %xmm0
	movaps	32(%rsp), %xmm1
	movaps	48(%rsp), %xmm2
	movaps	64(%rsp), %xmm3
	movups	%xmm3, 464(%r9)
	movups	%xmm2, 448(%r9)
	movups	%xmm1, 432(%r9)
	movups	%xmm0, 416(%r9)
79:
	cmpq	$4, %rax
	je	16b
	movq	8(%rsp), %rcx
	addq	$-6, %rcx
	cmpq	$5, %rcx
	jbe	80f
	imulq	$104, %rcx, %rcx
	movq	616(%r9), %rdx
	movq	%rdx, 112(%rsp)
	movups	600(%r9), %xmm0
	movaps	%xmm0, 96(%rsp)
	movups	584(%r9), %xmm0
	movaps	%xmm0, 80(%rsp)
	movups	520(%r9), %xmm0
	movups	536(%r9), %xmm1
	movups	552(%r9), %xmm2
	movups	568(%r9), %xmm3
	movaps	%xmm3, 64(%rsp)
	movaps	%xmm2, 48(%rsp)
	movaps	%xmm1, 32(%rsp)
	movaps	%xmm0, 16(%rsp)
	movq	96(%r9,%rcx), %rdx
	movups	80(%r9,%rcx), %xmm0
	movups	64(%r9,%rcx), %xmm1
	movups	(%r9,%rcx), %xmm2
	movups	16(%r9,%rcx), %xmm3
	movups	32(%r9,%rcx), %xmm4
	movups	48(%r9,%rcx), %xmm5
	movups	%xmm2, 520(%r9)
	movups	%xmm3, 536(%r9)
	movups	%xmm4, 552(%r9)
	movups	%xmm5, 568(%r9)
	movups	%xmm1, 584(%r9)
	movups	%xmm0, 600(%r9)
	movq	%rdx, 616(%r9)
	movq	112(%rsp), %rdx
	movq	%rdx, 96(%r9,%rcx)
	movaps	96(%rsp), %xmm0
	movups	%xmm0, 80(%r9,%rcx)
	movaps	80(%rsp), %xmm0
	movups	%xmm0, 64(%r9,%rcx)
	movaps	16(%rsp), %xmm0
	movaps	32(%rsp), %xmm1
	movaps	48(%rsp), %xmm2
	movaps	64(%rsp), %xmm3
	movups	%xmm3, 48(%r9,%rcx)
	movups	%xmm2, 32(%r9,%rcx)
	movups	%xmm1, 16(%r9,%rcx)
	movups	%xmm0, (%r9,%rcx)
	jmp	81f
80:
	je	81f
	imulq	$104, %rcx, %rcx
	movq	96(%r9,%rcx), %rdx
	movq	%rdx, 112(%rsp)
	movups	80(%r9,%rcx), %xmm0
	movaps	%xmm0, 96(%rsp)
	movups	64(%r9,%rcx), %xmm0
	movaps	%xmm0, 80(%rsp)
	movups	(%r9,%rcx), %xmm0
	movups	16(%r9,%rcx), %xmm1
	movups	32(%r9,%rcx), %xmm2
	movups	48(%r9,%rcx), %xmm3
	movaps	%xmm3, 64(%rsp)
	movaps	%xmm2, 48(%rsp)
	movaps	%xmm1, 32(%rsp)
	movaps	%xmm0, 16(%rsp)
	movq	616(%r9), %rdx
	movups	600(%r9), %xmm0
	movups	584(%r9), %xmm1
	movups	520(%r9), %xmm2
	movups	536(%r9), %xmm3
	movups	552(%r9), %xmm4
	movups	568(%r9), %xmm5
	movups	%xmm2, (%r9,%rcx)
	movups	%xmm3, 16(%r9,%rcx)
	movups	%xmm4, 32(%r9,%rcx)
	movups	%xmm5, 48(%r9,%rcx)
	movups	%xmm1, 64(%r9,%rcx)
	movups	%xmm0, 80(%r9,%rcx)
	movq	%rdx, 96(%r9,%rcx)
	movq	112(%rsp), %rcx
	movq	%rcx, 616(%r9)
	movaps	96(%rsp), %xmm0
	movups	%xmm0, 600(%r9)
	movaps	80(%rsp), %xmm0
	movups	%xmm0, 584(%r9)
	movaps	16(%rsp), %xmm0
	movaps	32(%rsp), %xmm1
	movaps	48(%rsp), %xmm2
	movaps	64(%rsp), %xmm3
	movups	%xmm3, 568(%r9)
	movups	%xmm2, 552(%r9)
	movups	%xmm1, 536(%r9)
	movups	%xmm0, 520(%r9)
81:
	cmpq	$5, %rax
	je	16b
	movq	8(%rsp), %rax
	addq	$-7, %rax
	cmpq	$6, %rax
	jbe	82f
	imulq	$104, %rax, %rax
	movq	720(%r9), %rcx
	movq	%rcx, 112(%rsp)
	movups	704(%r9), %xmm0
	movaps	%xmm0, 96(%rsp)
	movups	688(%r9), %xmm0
	movaps	%xmm0, 80(%rsp)
	movups	624(%r9), %xmm0
	movups	640(%r9), %xmm1
	movups	656(%r9), %xmm2
	movups	672(%r9), %xmm3
	movaps	%xmm3, 64(%rsp)
	movaps	%xmm2, 48(%rsp)
	movaps	%xmm1, 32(%rsp)
	movaps	%xmm0, 16(%rsp)
	movq	96(%r9,%rax), %rcx
	movups	80(%r9,%rax), %xmm0
	movups	64(%r9,%rax), %xmm1
	movups	(%r9,%rax), %xmm2
	movups	16(%r9,%rax), %xmm3
	movups	32(%r9,%rax), %xmm4
	movups	48(%r9,%rax), %xmm5
	movups	%xmm2, 624(%r9)
	movups	%xmm3, 640(%r9)
	movups	%xmm4, 656(%r9)
	movups	%xmm5, 672(%r9)
	movups	%xmm1, 688(%r9)
	movups	%xmm0, 704(%r9)
	movq	%rcx, 720(%r9)
	movq	112(%rsp), %rcx
	movq	%rcx, 96(%r9,%rax)
	movaps	96(%rsp), %xmm0
	movups	%xmm0, 80(%r9,%rax)
	movaps	80(%rsp), %xmm0
	movups	%xmm0, 64(%r9,%rax)
	movaps	16(%rsp), %xmm0
	movaps	32(%rsp), %xmm1
	movaps	48(%rsp), %xmm2
	movaps	64(%rsp), %xmm3
	movups	%xmm3, 48(%r9,%rax)
	movups	%xmm2, 32(%r9,%rax)
	movups	%xmm1, 16(%r9,%rax)
	movups	%xmm0, (%r9,%rax)
	jmp	16b
82:
	je	16b
	imulq	$104, %rax, %rax
	movq	96(%r9,%rax), %rcx
	movq	%rcx, 112(%rsp)
	movups	80(%r9,%rax), %xmm0
	movaps	%xmm0, 96(%rsp)
	movups	64(%r9,%rax), %xmm0
	movaps	%xmm0, 80(%rsp)
	movups	(%r9,%rax), %xmm0
	movups	16(%r9,%rax), %xmm1
	movups	32(%r9,%rax), %xmm2
	movups	48(%r9,%rax), %xmm3
	movaps	%xmm3, 64(%rsp)
	movaps	%xmm2, 48(%rsp)
	movaps	%xmm1, 32(%rsp)
	movaps	%xmm0, 16(%rsp)
	movq	720(%r9), %rcx
	movups	704(%r9), %xmm0
	movups	688(%r9), %xmm1
	movups	624(%r9), %xmm2
	movups	640(%r9), %xmm3
	movups	656(%r9), %xmm4
	movups	672(%r9), %xmm5
	movups	%xmm2, (%r9,%rax)
	movups	%xmm3, 16(%r9,%rax)
	movups	%xmm4, 32(%r9,%rax)
	movups	%xmm5, 48(%r9,%rax)
	movups	%xmm1, 64(%r9,%rax)
	movups	%xmm0, 80(%r9,%rax)
	movq	%rcx, 96(%r9,%rax)
	movq	112(%rsp), %rax
	movq	%rax, 720(%r9)
	movaps	96(%rsp), %xmm0
	movups	%xmm0, 704(%r9)
	movaps	80(%rsp), %xmm0
	movups	%xmm0, 688(%r9)
	movaps	16(%rsp), %xmm0
	movaps	32(%rsp), %xmm1
	movaps	48(%rsp), %xmm2
	movaps	64(%rsp), %xmm3
	movups	%xmm3, 672(%r9)
	movups	%xmm2, 656(%r9)
	movups	%xmm1, 640(%r9)
	movups	%xmm0, 624(%r9)
	jmp	16b
83:
	.size	"mime_text::merging::hidden::with_marked", 83b-"mime_text::merging::hidden::with_marked"

	.text
	.p2align	4
	.type	"mime_text::merging::merge",@function
"mime_text::merging::merge":
	pushq	%rbp
	pushq	%r15
	pushq	%r14
	pushq	%r13
	pushq	%r12
	pushq	%rbx
	subq	$1608, %rsp
	movq	%rdi, 264(%rsp)
	movq	(%rsi), %rax
	movq	%rax, 752(%rsp)
	movq	8(%rsi), %rcx
	movq	16(%rsi), %rax
	movq	%rax, 936(%rsp)
	pxor	%xmm0, %xmm0
	movdqa	%xmm0, 720(%rsp)
	movq	$0, 736(%rsp)
	movdqa	%xmm0, 1312(%rsp)
	movdqu	%xmm0, 1327(%rsp)
	movdqa	%xmm0, 1376(%rsp)
	movq	$0, 1392(%rsp)
	movdqa	%xmm0, 544(%rsp)
	movq	$0, 560(%rsp)
	movdqa	%xmm0, 688(%rsp)
	movq	$0, 704(%rsp)
	movdqa	%xmm0, 976(%rsp)
	movdqu	%xmm0, 991(%rsp)
	movdqa	%xmm0, 864(%rsp)
	movq	$0, 880(%rsp)
	movdqu	%xmm0, 959(%rsp)
	movdqa	%xmm0, 944(%rsp)
	movdqa	%xmm0, 896(%rsp)
	movq	$0, 912(%rsp)
	movdqa	%xmm0, 1424(%rsp)
	movdqa	%xmm0, 1408(%rsp)
	movdqa	%xmm0, 1056(%rsp)
	movq	$0, 1072(%rsp)
	movdqa	%xmm0, 1344(%rsp)
	movdqa	%xmm0, 1360(%rsp)
	movdqa	%xmm0, 1440(%rsp)
	movdqa	%xmm0, 1456(%rsp)
	movdqa	%xmm0, 1472(%rsp)
	movdqa	%xmm0, 1488(%rsp)
	movdqa	%xmm0, 1504(%rsp)
	movdqa	%xmm0, 1520(%rsp)
	movdqa	%xmm0, 1536(%rsp)
	movdqa	%xmm0, 1552(%rsp)
	movdqa	%xmm0, 1568(%rsp)
	leaq	296(%rsp), %rax
	movq	%rax, 320(%rsp)
	movdqu	%xmm0, 328(%rsp)
	movdqu	%xmm0, 344(%rsp)
	movq	$0, 360(%rsp)
	movq	%rax, 368(%rsp)
	movdqu	%xmm0, 376(%rsp)
	movdqu	%xmm0, 392(%rsp)
	movq	$0, 408(%rsp)
	movq	%rax, 416(%rsp)
	movdqu	%xmm0, 424(%rsp)
	movq	%rax, 440(%rsp)
	movdqu	%xmm0, 448(%rsp)
	movq	%rax, 464(%rsp)
	movdqu	%xmm0, 472(%rsp)
	movq	%rax, 488(%rsp)
	movdqu	%xmm0, 496(%rsp)
	movq	%rcx, 520(%rsp)
	testq	%rcx, %rcx
	je	67f
	xorl	%ebx, %ebx
1:
	movq	%rbx, 40(%rsp)
	imulq	$312, %rbx, %rax
	movq	752(%rsp), %rdx
	movq	(%rdx,%rax), %r15
	movq	8(%rdx,%rax), %r8
	movq	16(%rdx,%rax), %rsi
	movq	24(%rdx,%rax), %rcx
	movq	%rcx, 64(%rsp)
	movq	32(%rdx,%rax), %rcx
	movq	%rcx, 32(%rsp)
	movq	40(%rdx,%rax), %rcx
	movq	%rcx, 192(%rsp)
	movq	48(%rdx,%rax), %rcx
	movq	%rcx, 144(%rsp)
	movq	64(%rdx,%rax), %rcx
	movq	%rcx, 200(%rsp)
	movq	72(%rdx,%rax), %rcx
	movq	%rcx, 96(%rsp)
	movq	80(%rdx,%rax), %rcx
	movq	%rcx, 120(%rsp)
	movq	88(%rdx,%rax), %rcx
	movq	%rcx, 304(%rsp)
	movq	96(%rdx,%rax), %rcx
	movq	%rcx, 48(%rsp)
	movq	360(%rsp), %rcx
	orq	328(%rsp), %rcx
	movq	104(%rdx,%rax), %rcx
	movq	%rcx, 112(%rsp)
	movq	112(%rdx,%rax), %rcx
	movq	%rcx, 184(%rsp)
	movq	120(%rdx,%rax), %rcx
	movq	%rcx, 288(%rsp)
	movq	128(%rdx,%rax), %rcx
	movq	%rcx, 528(%rsp)
	movq	136(%rdx,%rax), %rcx
	movq	%rcx, 536(%rsp)
	movq	144(%rdx,%rax), %rcx
	movq	%rcx, 256(%rsp)
	movq	160(%rdx,%rax), %rcx
	movq	%rcx, 176(%rsp)
	movq	168(%rdx,%rax), %rcx
	movq	%rcx, 208(%rsp)
	movq	176(%rdx,%rax), %rcx
	movq	%rcx, 104(%rsp)
	movq	184(%rdx,%rax), %rcx
	movq	%rcx, 312(%rsp)
	movq	192(%rdx,%rax), %rcx
	movq	%rcx, 248(%rsp)
	movq	208(%rdx,%rax), %rcx
	movq	%rcx, 168(%rsp)
	movq	216(%rdx,%rax), %rcx
	movq	%rcx, 80(%rsp)
	movq	224(%rdx,%rax), %rcx
	movq	%rcx, 272(%rsp)
	movq	232(%rdx,%rax), %rcx
	movq	%rcx, 280(%rsp)
	movq	240(%rdx,%rax), %rcx
	movq	%rcx, 240(%rsp)
	movq	256(%rdx,%rax), %rcx
	movq	%rcx, 160(%rsp)
	movq	264(%rdx,%rax), %rcx
	movq	%rcx, 88(%rsp)
	movq	272(%rdx,%rax), %rcx
	movq	%rcx, 216(%rsp)
	movq	280(%rdx,%rax), %rcx
	movq	%rcx, 224(%rsp)
	movq	288(%rdx,%rax), %rcx
	movq	%rcx, 232(%rsp)
	movq	304(%rdx,%rax), %rax
	movq	%rax, 152(%rsp)
	pxor	%xmm0, %xmm0
	movdqa	%xmm0, 1184(%rsp)
	movq	$0, 1200(%rsp)
	movdqa	%xmm0, 1152(%rsp)
	movq	$0, 1168(%rsp)
	movdqa	%xmm0, 1120(%rsp)
	movq	$0, 1136(%rsp)
	movdqa	%xmm0, 1088(%rsp)
	movq	$0, 1104(%rsp)
	movdqa	%xmm0, 784(%rsp)
	movdqa	%xmm0, 800(%rsp)
	movq	$0, 816(%rsp)
	movq	40(%rsp), %rax
	leaq	1(%rax), %rax
	movq	%rax, 136(%rsp)
	movq	520(%rsp), %rax
	leaq	-1(%rax), %rax
	movq	%rax, 760(%rsp)
	jne	2f
	movq	320(%rsp), %rdi
	movq	%r15, 320(%rsp)
	movq	%r8, 328(%rsp)
	cmpq	$0, 336(%rsp)
	movq	%rsi, 336(%rsp)
	je	24f
	callq	rattle_dealloc@PLT
	jmp	24f
	.p2align	4
2:
	movq	%rsi, 928(%rsp)
	movq	%r8, 512(%rsp)
	testq	%r8, %r8
	je	23f
	xorl	%esi, %esi
	movq	512(%rsp), %r8
	jmp	6f
	.p2align	4
3:
	addq	%r15, %rax
	movq	576(%rsp), %r14
	movq	608(%rsp), %r13
	movzbl	632(%rsp), %r12d
	movq	640(%rsp), %rbx
	movq	656(%rsp), %rsi
	movdqu	648(%rsp), %xmm1
	movl	9(%rax), %ecx
	movl	12(%rax), %edx
	movl	%edx, 779(%rsp)
	movl	%ecx, 776(%rsp)
	movups	40(%rax), %xmm0
	movaps	%xmm0, 1008(%rsp)
	movl	57(%rax), %ecx
	movl	60(%rax), %edx
	movl	%edx, 771(%rsp)
	movl	%ecx, 768(%rsp)
	movdqu	88(%rax), %xmm0
	movdqa	%xmm0, 1264(%rsp)
	movq	328(%rsp), %rax
	cmpq	%rax, 336(%rsp)
	je	22f
4:
	movq	320(%rsp), %rcx
	imulq	$104, %rax, %rdx
	movq	%r14, (%rcx,%rdx)
	movb	%bpl, 8(%rcx,%rdx)
	movl	776(%rsp), %esi
	movl	779(%rsp), %r8d
	movl	%esi, 9(%rcx,%rdx)
	movl	%r8d, 12(%rcx,%rdx)
	movq	%rdi, 16(%rcx,%rdx)
	movq	128(%rsp), %rsi
	movq	%rsi, 24(%rcx,%rdx)
	movq	%r13, 32(%rcx,%rdx)
	movaps	1008(%rsp), %xmm0
	movups	%xmm0, 40(%rcx,%rdx)
	movb	%r12b, 56(%rcx,%rdx)
	movl	768(%rsp), %esi
	movl	771(%rsp), %edi
	movl	%esi, 57(%rcx,%rdx)
	movl	%edi, 60(%rcx,%rdx)
	movq	%rbx, 64(%rcx,%rdx)
	movdqu	%xmm1, 72(%rcx,%rdx)
	movdqa	1264(%rsp), %xmm0
	movdqu	%xmm0, 88(%rcx,%rdx)
	incq	%rax
	movq	%rax, 328(%rsp)
5:
	movq	56(%rsp), %r8
	testq	%r8, %r8
	movq	72(%rsp), %rsi
	je	23f
6:
	imulq	$104, %rsi, %rax
	movups	(%r15,%rax), %xmm0
	movdqu	16(%r15,%rax), %xmm1
	movdqu	32(%r15,%rax), %xmm2
	movdqu	48(%r15,%rax), %xmm3
	movaps	%xmm0, 576(%rsp)
	movdqa	%xmm1, 592(%rsp)
	movdqa	%xmm3, 624(%rsp)
	movq	96(%r15,%rax), %rcx
	movq	%rcx, 672(%rsp)
	movups	80(%r15,%rax), %xmm0
	movaps	%xmm0, 656(%rsp)
	movdqu	64(%r15,%rax), %xmm0
	movdqa	%xmm0, 640(%rsp)
	movdqa	%xmm2, 608(%rsp)
	movzbl	584(%rsp), %ebp
	movq	592(%rsp), %rdi
	movq	600(%rsp), %rdx
	movq	%rdi, %rcx
	movq	%rdx, 128(%rsp)
	testb	%bpl, %bpl
	jne	7f
	movq	624(%rsp), %rdx
	leaq	592(%rsp), %rcx
7:
	incq	%rsi
	movq	%rsi, 72(%rsp)
	decq	%r8
	movq	%r8, 56(%rsp)
	cmpb	$1, 344(%rsp)
	jne	3b
	leaq	352(%rsp), %rsi
8:
	movq	(%rsi), %rsi
	movzwl	(%rsi), %r9d
	xorl	%r8d, %r8d
	testq	%r9, %r9
	je	18f
	.p2align	4
9:
	leaq	(%r8,%r8,2), %r10
	movq	8(%rsi,%r10,8), %r11
	movq	16(%rsi,%r10,8), %r10
	cmpq	%rdx, %r10
	movq	%rdx, %rbx
	cmovbq	%r10, %rbx
	xorl	%r13d, %r13d
	cmpq	$64, %rbx
	jb	11f
	movq	%rbx, %r14
	.p2align	4
10:
	movdqu	(%rcx,%r13), %xmm0
	movdqu	16(%rcx,%r13), %xmm1
	movdqu	32(%rcx,%r13), %xmm2
	movdqu	48(%rcx,%r13), %xmm3
	movdqu	(%r11,%r13), %xmm4
	pcmpeqb	%xmm0, %xmm4
	movdqu	16(%r11,%r13), %xmm0
	pcmpeqb	%xmm1, %xmm0
	movdqu	32(%r11,%r13), %xmm1
	pcmpeqb	%xmm2, %xmm1
	pand	%xmm4, %xmm1
	movdqu	48(%r11,%r13), %xmm2
	pcmpeqb	%xmm3, %xmm2
	pand	%xmm0, %xmm2
	pand	%xmm1, %xmm2
	pmovmskb	%xmm2, %r12d
	cmpl	$65535, %r12d
	jne	11f
	addq	$64, %r13
	addq	$-64, %r14
	cmpq	$63, %r14
	ja	10b
11:
	movq	%rbx, %r14
	subq	%r13, %r14
	cmpq	$8, %r14
	jb	13f
	.p2align	4
12:
	movq	(%rcx,%r13), %r12
	cmpq	(%r11,%r13), %r12
	jne	13f
	addq	$8, %r13
	addq	$-8, %r14
	cmpq	$7, %r14
	ja	12b
13:
	cmpq	%rbx, %r13
	jae	15f
	.p2align	4
14:
	movzbl	(%r11,%r13), %r14d
	cmpb	%r14b, (%rcx,%r13)
	jne	16f
	incq	%r13
	cmpq	%r13, %rbx
	jne	14b
15:
	cmpq	%r10, %rdx
	je	20f
16:
	jb	17f
	incq	%r8
	cmpq	%r9, %r8
	jne	9b
	movq	%r9, %r8
17:
	shlq	$3, %r8
	cmpw	$0, 2(%rsi)
	jne	19f
	jmp	3b
	.p2align	4
18:
	cmpw	$0, 2(%rsi)
	je	3b
19:
	addq	%r8, %rsi
	addq	$368, %rsi
	jmp	8b
	.p2align	4
20:
	movzbl	632(%rsp), %r12d
	movq	640(%rsp), %rbx
	movq	656(%rsp), %r14
	testb	%bpl, %bpl
	je	21f
	cmpq	$0, 608(%rsp)
	je	21f
	callq	rattle_dealloc@PLT
21:
	testb	%r12b, %r12b
	je	5b
	testq	%r14, %r14
	je	5b
	movq	%rbx, %rdi
	callq	rattle_dealloc@PLT
	jmp	5b
22:
	movq	%rsi, 1256(%rsp)
	movdqa	%xmm1, 1584(%rsp)
	movq	%rdi, 920(%rsp)
	leaq	320(%rsp), %rdi
	callq	"std_alloc::vec::Vec::grow_amortized::<#9f351709e7e1a03a>"
	testb	%al, %al
	je	206f
	movq	328(%rsp), %rax
	movq	920(%rsp), %rdi
	movdqa	1584(%rsp), %xmm1
	jmp	4b
	.p2align	4
23:
	movq	%r15, 1216(%rsp)
	movq	$0, 1224(%rsp)
	movq	928(%rsp), %rax
	movq	%rax, 1232(%rsp)
	movq	512(%rsp), %rax
	movq	%rax, 1240(%rsp)
	movq	$0, 1248(%rsp)
	leaq	1216(%rsp), %rdi
	callq	"std_alloc::vec::deque::VecDeque::drop::<#f76b5842e243a073>"
24:
	movq	64(%rsp), %rbx
	movq	32(%rsp), %rax
	movq	%rax, %r14
	testq	%rax, %rax
	je	26f
	.p2align	4
25:
	leaq	344(%rsp), %rdi
	movq	%rbx, %rsi
	callq	"mime_text::merging::types::Types::add"
	testb	%al, %al
	jne	209f
	addq	$48, %rbx
	decq	%r14
	jne	25b
26:
	movq	$0, 784(%rsp)
	pxor	%xmm0, %xmm0
	movdqa	%xmm0, 1008(%rsp)
	movdqa	%xmm0, 1024(%rsp)
	movq	$0, 1040(%rsp)
	movq	408(%rsp), %rax
	orq	376(%rsp), %rax
	jne	27f
	movq	368(%rsp), %rdi
	movq	96(%rsp), %rax
	movq	%rax, 368(%rsp)
	movq	120(%rsp), %rax
	movq	%rax, 376(%rsp)
	cmpq	$0, 384(%rsp)
	movq	304(%rsp), %rax
	movq	%rax, 384(%rsp)
	je	51f
	callq	rattle_dealloc@PLT
	jmp	51f
	.p2align	4
27:
	cmpq	$0, 120(%rsp)
	movq	96(%rsp), %rdx
	je	50f
	movq	$0, 72(%rsp)
	movq	120(%rsp), %rax
	movq	%rax, 56(%rsp)
	jmp	31f
	.p2align	4
28:
	movq	816(%rsp), %rbp
	movq	840(%rsp), %rbx
	movq	848(%rsp), %r15
	movq	856(%rsp), %r13
	movq	376(%rsp), %rax
	cmpq	%rax, 384(%rsp)
	je	49f
29:
	movq	368(%rsp), %rcx
	leaq	(%rax,%rax,4), %rdx
	shlq	$4, %rdx
	movl	128(%rsp), %esi
	movl	%esi, (%rcx,%rdx)
	movq	%r12, 8(%rcx,%rdx)
	movq	%rdi, 16(%rcx,%rdx)
	movq	%r14, 24(%rcx,%rdx)
	movq	%rbp, 32(%rcx,%rdx)
	leaq	1240(%rsp), %rsi
	movdqu	(%rsi), %xmm0
	movdqu	%xmm0, 40(%rcx,%rdx)
	movq	%rbx, 56(%rcx,%rdx)
	movq	%r15, 64(%rcx,%rdx)
	movq	%r13, 72(%rcx,%rdx)
	incq	%rax
	movq	%rax, 376(%rsp)
30:
	cmpq	$0, 56(%rsp)
	movq	96(%rsp), %rdx
	je	50f
31:
	movq	72(%rsp), %rax
	leaq	(%rax,%rax,4), %rax
	shlq	$4, %rax
	movl	(%rdx,%rax), %esi
	movzbl	8(%rdx,%rax), %r12d
	movq	48(%rdx,%rax), %rcx
	movq	%rcx, 1248(%rsp)
	movups	32(%rdx,%rax), %xmm0
	movaps	%xmm0, 1232(%rsp)
	movups	16(%rdx,%rax), %xmm0
	movaps	%xmm0, 1216(%rsp)
	movl	%esi, 128(%rsp)
	movl	%esi, 784(%rsp)
	movq	%r12, 792(%rsp)
	movq	48(%rdx,%rax), %rcx
	leaq	800(%rsp), %rsi
	movq	%rcx, 32(%rsi)
	movups	16(%rdx,%rax), %xmm0
	movdqu	32(%rdx,%rax), %xmm1
	movdqu	%xmm1, 16(%rsi)
	movups	%xmm0, (%rsi)
	movq	72(%rdx,%rax), %rcx
	movq	%rcx, 56(%rsi)
	movdqu	56(%rdx,%rax), %xmm0
	movdqu	%xmm0, 40(%rsi)
	movq	800(%rsp), %rdi
	movq	808(%rsp), %r14
	movq	%rdi, %rax
	movq	%r14, %rcx
	testq	%r12, %r12
	jne	32f
	movq	832(%rsp), %rcx
	leaq	800(%rsp), %rax
32:
	incq	72(%rsp)
	decq	56(%rsp)
	cmpb	$1, 392(%rsp)
	jne	28b
	leaq	400(%rsp), %rdx
33:
	movq	(%rdx), %rdx
	movzwl	(%rdx), %r8d
	xorl	%esi, %esi
	testq	%r8, %r8
	je	43f
	.p2align	4
34:
	leaq	(%rsi,%rsi,2), %r9
	movq	8(%rdx,%r9,8), %r10
	movq	16(%rdx,%r9,8), %r9
	cmpq	%rcx, %r9
	movq	%rcx, %r11
	cmovbq	%r9, %r11
	xorl	%ebx, %ebx
	cmpq	$64, %r11
	jb	36f
	movq	%r11, %r15
	.p2align	4
35:
	movdqu	(%rax,%rbx), %xmm0
	movdqu	16(%rax,%rbx), %xmm1
	movdqu	32(%rax,%rbx), %xmm2
	movdqu	48(%rax,%rbx), %xmm3
	movdqu	(%r10,%rbx), %xmm4
	pcmpeqb	%xmm0, %xmm4
	movdqu	16(%r10,%rbx), %xmm0
	pcmpeqb	%xmm1, %xmm0
	movdqu	32(%r10,%rbx), %xmm1
	pcmpeqb	%xmm2, %xmm1
	pand	%xmm4, %xmm1
	movdqu	48(%r10,%rbx), %xmm2
	pcmpeqb	%xmm3, %xmm2
	pand	%xmm0, %xmm2
	pand	%xmm1, %xmm2
	pmovmskb	%xmm2, %ebp
	cmpl	$65535, %ebp
	jne	36f
	addq	$64, %rbx
	addq	$-64, %r15
	cmpq	$63, %r15
	ja	35b
36:
	movq	%r11, %r15
	subq	%rbx, %r15
	cmpq	$8, %r15
	jb	38f
	.p2align	4
37:
	movq	(%rax,%rbx), %r13
	cmpq	(%r10,%rbx), %r13
	jne	38f
	addq	$8, %rbx
	addq	$-8, %r15
	cmpq	$7, %r15
	ja	37b
38:
	cmpq	%r11, %rbx
	jae	40f
	.p2align	4
39:
	movzbl	(%r10,%rbx), %ebp
	cmpb	%bpl, (%rax,%rbx)
	jne	41f
	incq	%rbx
	cmpq	%rbx, %r11
	jne	39b
40:
	cmpq	%r9, %rcx
	je	45f
41:
	jb	42f
	incq	%rsi
	cmpq	%r8, %rsi
	jne	34b
	movq	%r8, %rsi
42:
	shlq	$3, %rsi
	cmpw	$0, 2(%rdx)
	jne	44f
	jmp	28b
	.p2align	4
43:
	cmpw	$0, 2(%rdx)
	je	28b
44:
	addq	%rsi, %rdx
	addq	$368, %rdx
	jmp	33b
	.p2align	4
45:
	movq	840(%rsp), %rbx
	movq	848(%rsp), %r15
	movq	856(%rsp), %r14
	testq	%r12, %r12
	je	46f
	cmpq	$0, 816(%rsp)
	je	46f
	callq	rattle_dealloc@PLT
46:
	testq	%r15, %r15
	je	48f
	movq	%rbx, %r12
	.p2align	4
47:
	movups	80(%r12), %xmm0
	movaps	%xmm0, 656(%rsp)
	movups	64(%r12), %xmm0
	movaps	%xmm0, 640(%rsp)
	movdqu	(%r12), %xmm0
	movdqu	16(%r12), %xmm1
	movdqu	32(%r12), %xmm2
	movdqu	48(%r12), %xmm3
	movdqa	%xmm3, 624(%rsp)
	movdqa	%xmm2, 608(%rsp)
	movdqa	%xmm1, 592(%rsp)
	movdqa	%xmm0, 576(%rsp)
	leaq	576(%rsp), %rdi
	callq	"mime_text::mime_base++magic++matchlet++Matchlet+Destruct::drop"
	addq	$96, %r12
	decq	%r15
	jne	47b
48:
	testq	%r14, %r14
	je	30b
	movq	%rbx, %rdi
	callq	rattle_dealloc@PLT
	jmp	30b
49:
	movq	%rdi, 512(%rsp)
	leaq	368(%rsp), %rdi
	callq	"std_alloc::vec::Vec::grow_amortized::<#aac2e341597f1126>"
	testb	%al, %al
	je	305f
	movq	376(%rsp), %rax
	movq	512(%rsp), %rdi
	jmp	29b
	.p2align	4
50:
	movq	%rdx, 1264(%rsp)
	movq	$0, 1272(%rsp)
	movq	304(%rsp), %rax
	movq	%rax, 1280(%rsp)
	movq	120(%rsp), %rax
	movq	%rax, 1288(%rsp)
	movq	$0, 1296(%rsp)
	leaq	1264(%rsp), %rdi
	callq	"std_alloc::vec::deque::VecDeque::drop::<#19687a60d315e203>"
51:
	movq	48(%rsp), %rbx
	movq	112(%rsp), %rax
	movq	%rax, %r14
	testq	%rax, %rax
	je	53f
	.p2align	4
52:
	leaq	392(%rsp), %rdi
	movq	%rbx, %rsi
	callq	"mime_text::merging::types::Types::add"
	testb	%al, %al
	jne	310f
	addq	$48, %rbx
	decq	%r14
	jne	52b
53:
	movq	288(%rsp), %rax
	movq	%rax, 1184(%rsp)
	movq	528(%rsp), %rax
	movq	%rax, 1192(%rsp)
	movq	536(%rsp), %rax
	movq	%rax, 1200(%rsp)
	leaq	1184(%rsp), %rsi
	leaq	416(%rsp), %rdi
	callq	"mime_text::merging::append::<#5757887c02ee9d34>"
	testb	%al, %al
	jne	130f
	movq	208(%rsp), %rax
	movq	%rax, 1152(%rsp)
	movq	104(%rsp), %rax
	movq	%rax, 1160(%rsp)
	movq	312(%rsp), %rax
	movq	%rax, 1168(%rsp)
	leaq	1152(%rsp), %rsi
	leaq	440(%rsp), %rdi
	callq	"mime_text::merging::append::<#5757887c02ee9d34>"
	testb	%al, %al
	jne	157f
	movq	80(%rsp), %rax
	movq	%rax, 1120(%rsp)
	movq	272(%rsp), %rax
	movq	%rax, 1128(%rsp)
	movq	280(%rsp), %rax
	movq	%rax, 1136(%rsp)
	leaq	1120(%rsp), %rsi
	leaq	464(%rsp), %rdi
	callq	"mime_text::merging::append::<#5757887c02ee9d34>"
	testb	%al, %al
	jne	178f
	movq	88(%rsp), %rax
	movq	%rax, 1088(%rsp)
	movq	216(%rsp), %rax
	movq	%rax, 1096(%rsp)
	movq	224(%rsp), %rax
	movq	%rax, 1104(%rsp)
	leaq	1088(%rsp), %rsi
	leaq	488(%rsp), %rdi
	callq	"mime_text::merging::append::<#5757887c02ee9d34>"
	testb	%al, %al
	jne	195f
	cmpq	$0, 152(%rsp)
	je	54f
	movq	232(%rsp), %rdi
	callq	rattle_dealloc@PLT
54:
	cmpq	$0, 160(%rsp)
	je	55f
	movq	240(%rsp), %rdi
	callq	rattle_dealloc@PLT
55:
	cmpq	$0, 168(%rsp)
	je	56f
	movq	248(%rsp), %rdi
	callq	rattle_dealloc@PLT
56:
	cmpq	$0, 176(%rsp)
	je	57f
	movq	256(%rsp), %rdi
	callq	rattle_dealloc@PLT
57:
	movq	112(%rsp), %rax
	testq	%rax, %rax
	je	60f
	movq	48(%rsp), %rbx
	jmp	59f
	.p2align	4
58:
	addq	$48, %rbx
	decq	%rax
	je	60f
59:
	cmpb	$0, (%rbx)
	je	58b
	cmpq	$0, 24(%rbx)
	je	58b
	movq	8(%rbx), %rdi
	movq	%rax, %r14
	callq	rattle_dealloc@PLT
	movq	%r14, %rax
	jmp	58b
	.p2align	4
60:
	cmpq	$0, 184(%rsp)
	je	61f
	movq	48(%rsp), %rdi
	callq	rattle_dealloc@PLT
61:
	cmpq	$0, 32(%rsp)
	je	64f
	movq	64(%rsp), %rbx
	jmp	63f
	.p2align	4
62:
	addq	$48, %rbx
	decq	32(%rsp)
	je	64f
63:
	cmpb	$0, (%rbx)
	je	62b
	cmpq	$0, 24(%rbx)
	je	62b
	movq	8(%rbx), %rdi
	callq	rattle_dealloc@PLT
	jmp	62b
	.p2align	4
64:
	cmpq	$0, 192(%rsp)
	je	65f
	movq	64(%rsp), %rdi
	callq	rattle_dealloc@PLT
65:
	cmpq	$0, 200(%rsp)
	movq	136(%rsp), %rbx
	je	66f
	movq	144(%rsp), %rdi
	callq	rattle_dealloc@PLT
66:
	movq	760(%rsp), %rax
	movq	%rax, 520(%rsp)
	testq	%rax, %rax
	jne	1b
67:
	cmpq	$0, 936(%rsp)
	je	68f
	movq	752(%rsp), %rdi
	callq	rattle_dealloc@PLT
68:
	movq	336(%rsp), %rax
	movq	%rax, 1335(%rsp)
	movups	320(%rsp), %xmm0
	movups	%xmm0, 1319(%rsp)
	movzbl	344(%rsp), %eax
	movb	%al, 128(%rsp)
	movq	352(%rsp), %rax
	movq	%rax, 64(%rsp)
	movq	368(%rsp), %r13
	movq	376(%rsp), %rbp
	movq	384(%rsp), %rax
	movq	%rax, 120(%rsp)
	movzbl	392(%rsp), %eax
	movb	%al, 104(%rsp)
	movq	400(%rsp), %rax
	movq	%rax, 136(%rsp)
	movq	416(%rsp), %r15
	movq	424(%rsp), %r12
	movq	432(%rsp), %rcx
	movq	440(%rsp), %rbx
	movq	448(%rsp), %rax
	movq	%rax, 56(%rsp)
	movq	456(%rsp), %r14
	movq	464(%rsp), %rax
	movq	%rax, 96(%rsp)
	movq	472(%rsp), %rax
	movq	%rax, 72(%rsp)
	leaq	488(%rsp), %rax
	movups	(%rax), %xmm0
	movq	16(%rax), %rax
	movq	%rax, 1392(%rsp)
	movq	%rax, 736(%rsp)
	movq	1335(%rsp), %rax
	movq	%rax, 560(%rsp)
	movq	480(%rsp), %rax
	movq	%rax, 40(%rsp)
	movaps	%xmm0, 1376(%rsp)
	movaps	%xmm0, 720(%rsp)
	movdqu	1319(%rsp), %xmm0
	movdqa	%xmm0, 544(%rsp)
	pxor	%xmm0, %xmm0
	movdqa	%xmm0, 320(%rsp)
	movdqa	%xmm0, 336(%rsp)
	movdqa	%xmm0, 576(%rsp)
	movdqa	%xmm0, 592(%rsp)
	cmpq	$1, %r12
	movq	%rbp, 32(%rsp)
	ja	122f
	movq	%r15, 328(%rsp)
	movq	%r12, 336(%rsp)
	movq	%rcx, 999(%rsp)
	movq	328(%rsp), %rax
	movq	%rax, 983(%rsp)
	movq	336(%rsp), %rax
	movq	%rax, 991(%rsp)
69:
	movq	999(%rsp), %rax
	movq	%rax, 704(%rsp)
	movq	983(%rsp), %rax
	movq	%rax, 688(%rsp)
	movq	991(%rsp), %rax
	movq	%rax, 696(%rsp)
	pxor	%xmm0, %xmm0
	movdqa	%xmm0, 320(%rsp)
	movdqa	%xmm0, 336(%rsp)
	movdqa	%xmm0, 576(%rsp)
	movdqa	%xmm0, 592(%rsp)
	movq	56(%rsp), %r12
	cmpq	$1, %r12
	ja	126f
	movq	%rbx, 328(%rsp)
	movq	%r12, 336(%rsp)
	movq	%r14, 967(%rsp)
	movq	328(%rsp), %rax
	movq	%rax, 951(%rsp)
	movq	336(%rsp), %rax
	movq	%rax, 959(%rsp)
70:
	movq	967(%rsp), %rax
	movq	%rax, 880(%rsp)
	movq	951(%rsp), %rax
	movq	%rax, 864(%rsp)
	movq	959(%rsp), %rax
	movq	%rax, 872(%rsp)
	cmpq	$20, %rbp
	ja	77f
	cmpq	$2, %rbp
	jb	82f
	movl	$1, %eax
	movq	%r13, %rcx
	jmp	74f
71:
	xorl	%edi, %edi
72:
	movl	%edx, (%r13,%rdi)
	movq	%rsi, 8(%r13,%rdi)
	movaps	320(%rsp), %xmm0
	movdqa	336(%rsp), %xmm1
	movups	%xmm0, 16(%r13,%rdi)
	movdqu	%xmm1, 32(%r13,%rdi)
	movq	352(%rsp), %rdx
	movq	%rdx, 48(%r13,%rdi)
	movdqa	576(%rsp), %xmm0
	movdqu	%xmm0, 56(%r13,%rdi)
	movq	592(%rsp), %rdx
	movq	%rdx, 72(%r13,%rdi)
73:
	incq	%rax
	addq	$80, %rcx
	cmpq	%rbp, %rax
	je	82f
74:
	leaq	(%rax,%rax,4), %rsi
	shlq	$4, %rsi
	movl	-80(%r13,%rsi), %r8d
	movl	(%r13,%rsi), %edx
	cmpl	%edx, %r8d
	jae	73b
	leaq	(%rsi,%r13), %r9
	movq	%rax, %rdi
	leaq	(%rsi,%r13), %r10
	addq	$-80, %r10
	movzbl	8(%r9), %esi
	movq	48(%r9), %r11
	movq	%r11, 352(%rsp)
	movups	16(%r9), %xmm0
	movups	32(%r9), %xmm1
	movaps	%xmm1, 336(%rsp)
	movaps	%xmm0, 320(%rsp)
	movups	56(%r9), %xmm0
	movaps	%xmm0, 576(%rsp)
	movq	72(%r9), %r11
	movq	%r11, 592(%rsp)
	movzbl	8(%r10), %r11d
	movl	%r8d, (%r9)
	movq	%r11, 8(%r9)
	movq	48(%r10), %r8
	movq	%r8, 48(%r9)
	movups	16(%r10), %xmm0
	movdqu	32(%r10), %xmm1
	movdqu	%xmm1, 32(%r9)
	movups	%xmm0, 16(%r9)
	movq	72(%r10), %r8
	movq	%r8, 72(%r9)
	movdqu	56(%r10), %xmm0
	movdqu	%xmm0, 56(%r9)
	decq	%rdi
	je	71b
	movq	%rcx, %r8
	.p2align	4
75:
	movl	-80(%r8), %r9d
	cmpl	%edx, %r9d
	jae	76f
	decq	%rdi
	movzbl	-72(%r8), %r10d
	movl	%r9d, (%r8)
	movq	%r10, 8(%r8)
	movups	-64(%r8), %xmm0
	movdqu	-48(%r8), %xmm1
	movups	%xmm0, 16(%r8)
	movdqu	%xmm1, 32(%r8)
	movq	-32(%r8), %r9
	movq	%r9, 48(%r8)
	movdqu	-24(%r8), %xmm0
	movdqu	%xmm0, 56(%r8)
	movq	-8(%r8), %r9
	movq	%r9, 72(%r8)
	addq	$-80, %r8
	testq	%rdi, %rdi
	jne	75b
	xorl	%edi, %edi
76:
	shlq	$4, %rdi
	leaq	(%rdi,%rdi,4), %rdi
	jmp	72b
77:
	movl	(%r13), %r12d
	movl	80(%r13), %ebx
	leaq	160(%r13), %rax
	movl	$2, %r14d
	cmpl	%ebx, %r12d
	jae	79f
	.p2align	4
78:
	movl	-80(%rax), %ecx
	cmpl	(%rax), %ecx
	jae	80f
	incq	%r14
	addq	$80, %rax
	cmpq	%r14, %rbp
	jne	78b
	jmp	81f
	.p2align	4
79:
	movl	-80(%rax), %ecx
	cmpl	(%rax), %ecx
	jb	80f
	incq	%r14
	addq	$80, %rax
	cmpq	%r14, %rbp
	jne	79b
	jmp	82f
80:
	cmpq	%rbp, %r14
	jne	89f
	cmpl	%ebx, %r12d
	jae	82f
81:
	movq	%r13, %rdi
	movq	%rbp, %rsi
	callq	"core::slice::edits::slice+T::reverse::<25'mime_base::magic::Section>"
82:
	movq	%r13, 896(%rsp)
	movq	%rbp, 904(%rsp)
	movq	120(%rsp), %rax
	movq	%rax, 912(%rsp)
	movq	96(%rsp), %rax
	movq	%rax, 1056(%rsp)
	movq	72(%rsp), %rax
	movq	%rax, 1064(%rsp)
	movq	40(%rsp), %rax
	movq	%rax, 1072(%rsp)
	leaq	1408(%rsp), %rdi
	leaq	1056(%rsp), %rsi
	callq	"mime_text::merging::first::first_of_each::<#d8c223a5b86f943b>"
	cmpb	$0, 1408(%rsp)
	je	85f
	leaq	896(%rsp), %rdi
	callq	"std_alloc::vec::Vec::drop::<#19687a60d315e203>"
	leaq	864(%rsp), %rdi
	callq	"std_alloc::vec::Vec::drop::<#00910116450e14d9>"
	leaq	688(%rsp), %rdi
	callq	"std_alloc::vec::Vec::drop::<#00910116450e14d9>"
	leaq	544(%rsp), %rdi
	callq	"std_alloc::vec::Vec::drop::<#6d65fad926a67069>"
	leaq	720(%rsp), %rdi
	callq	"std_alloc::vec::Vec::drop::<#00910116450e14d9>"
	cmpb	$1, 104(%rsp)
	jne	84f
83:
	movq	136(%rsp), %rdi
	callq	"std_collections::btree::node::Node::destroy::<#6f699a0b3f3d5921>"
84:
	cmpb	$1, 128(%rsp)
	jne	425f
	movq	64(%rsp), %rdi
	callq	"std_collections::btree::node::Node::destroy::<#6f699a0b3f3d5921>"
	jmp	425f
85:
	leaq	1416(%rsp), %rbx
	leaq	1344(%rsp), %rdi
	leaq	720(%rsp), %rsi
	callq	"mime_text::merging::first::first_of_each::<#d8c223a5b86f943b>"
	cmpb	$0, 1344(%rsp)
	je	86f
	movq	%rbx, %rdi
	callq	"std_alloc::vec::Vec::drop::<#00910116450e14d9>"
	leaq	896(%rsp), %rdi
	callq	"std_alloc::vec::Vec::drop::<#19687a60d315e203>"
	leaq	864(%rsp), %rdi
	callq	"std_alloc::vec::Vec::drop::<#00910116450e14d9>"
	leaq	688(%rsp), %rdi
	callq	"std_alloc::vec::Vec::drop::<#00910116450e14d9>"
	leaq	544(%rsp), %rdi
	callq	"std_alloc::vec::Vec::drop::<#6d65fad926a67069>"
	cmpb	$1, 104(%rsp)
	je	83b
	jmp	84b
86:
	leaq	951(%rsp), %rax
	movq	560(%rsp), %rcx
	movq	%rcx, 1456(%rsp)
	movaps	544(%rsp), %xmm0
	movaps	%xmm0, 1440(%rsp)
	movq	704(%rsp), %rcx
	movq	%rcx, 1480(%rsp)
	movaps	688(%rsp), %xmm0
	movups	%xmm0, 1464(%rsp)
	movq	16(%rax), %rcx
	movq	%rcx, 1504(%rsp)
	movups	(%rax), %xmm0
	movaps	%xmm0, 1488(%rsp)
	movaps	896(%rsp), %xmm0
	movups	%xmm0, 1512(%rsp)
	movq	912(%rsp), %rax
	movq	%rax, 1528(%rsp)
	movq	16(%rbx), %rax
	movq	%rax, 1552(%rsp)
	movups	(%rbx), %xmm0
	movaps	%xmm0, 1536(%rsp)
	movdqu	1352(%rsp), %xmm0
	movdqu	%xmm0, 1560(%rsp)
	movq	1368(%rsp), %rax
	movq	%rax, 1576(%rsp)
	cmpb	$1, 104(%rsp)
	jne	87f
	movq	136(%rsp), %rdi
	callq	"std_collections::btree::node::Node::destroy::<#6f699a0b3f3d5921>"
87:
	cmpb	$1, 128(%rsp)
	jne	88f
	movq	64(%rsp), %rdi
	callq	"std_collections::btree::node::Node::destroy::<#6f699a0b3f3d5921>"
88:
	movq	264(%rsp), %rdi
	movb	$0, (%rdi)
	addq	$8, %rdi
	leaq	1440(%rsp), %rsi
	movl	$144, %edx
	callq	memcpy@PLT
	jmp	426f
89:
	movq	%rbp, %rax
	shlq	$4, %rax
	leaq	(%rax,%rax,4), %rdi
	testq	%rdi, %rdi
	js	90f
	movl	$8, %esi
	callq	rattle_alloc@PLT
	testb	$1, %al
	je	90f
	movq	%rdx, %r9
	movq	%rdx, 784(%rsp)
	movq	%rbp, 792(%rsp)
	cmpq	$65, %rbp
	setae	%cl
	movq	%rbp, %rax
	shrq	%rax
	cmpq	%rax, %r14
	setae	%dl
	orb	%cl, %dl
	jne	427f
	movq	%r9, %rbx
	bsrq	%rbp, %rcx
	xorl	$63, %ecx
	addl	%ecx, %ecx
	xorl	$126, %ecx
	leaq	784(%rsp), %r8
	movq	%r13, %rdi
	movq	%rbp, %rsi
	movq	%rbp, %rdx
	callq	"core::slice::sort::stable::quicksort::<#54047240e3f04dbb>"
	jmp	433f
90:
	xorl	%r14d, %r14d
	jmp	92f
	.p2align	4
91:
	incq	%r14
	cmpq	32(%rsp), %r14
	je	96f
92:
	movq	%r14, %rax
	shlq	$4, %rax
	leaq	(%rax,%rax,4), %rax
	movq	56(%r13,%rax), %rbx
	movq	64(%r13,%rax), %r12
	movq	72(%r13,%rax), %r15
	cmpb	$0, 8(%r13,%rax)
	je	93f
	cmpq	$0, 32(%r13,%rax)
	je	93f
	movq	16(%r13,%rax), %rdi
	callq	rattle_dealloc@PLT
93:
	testq	%r12, %r12
	je	95f
	movq	%rbx, %rbp
	.p2align	4
94:
	movups	80(%rbp), %xmm0
	movaps	%xmm0, 400(%rsp)
	movups	64(%rbp), %xmm0
	movaps	%xmm0, 384(%rsp)
	movdqu	(%rbp), %xmm0
	movdqu	16(%rbp), %xmm1
	movdqu	32(%rbp), %xmm2
	movdqu	48(%rbp), %xmm3
	movdqa	%xmm3, 368(%rsp)
	movdqa	%xmm2, 352(%rsp)
	movdqa	%xmm1, 336(%rsp)
	movdqa	%xmm0, 320(%rsp)
	leaq	320(%rsp), %rdi
	callq	"mime_text::mime_base++magic++matchlet++Matchlet+Destruct::drop"
	addq	$96, %rbp
	decq	%r12
	jne	94b
95:
	testq	%r15, %r15
	je	91b
	movq	%rbx, %rdi
	callq	rattle_dealloc@PLT
	jmp	91b
96:
	cmpq	$0, 120(%rsp)
	je	97f
	movq	%r13, %rdi
	callq	rattle_dealloc@PLT
97:
	movq	864(%rsp), %rbx
	movq	872(%rsp), %r12
	movq	880(%rsp), %rax
	movq	%rax, 32(%rsp)
	testq	%r12, %r12
	je	101f
	movq	%rbx, %r13
	jmp	99f
	.p2align	4
98:
	addq	$96, %r13
	decq	%r12
	je	101f
99:
	movzbl	48(%r13), %r15d
	movq	56(%r13), %r14
	movq	72(%r13), %rbp
	cmpb	$0, (%r13)
	je	100f
	cmpq	$0, 24(%r13)
	je	100f
	movq	8(%r13), %rdi
	callq	rattle_dealloc@PLT
100:
	testb	%r15b, %r15b
	je	98b
	testq	%rbp, %rbp
	je	98b
	movq	%r14, %rdi
	callq	rattle_dealloc@PLT
	jmp	98b
101:
	cmpq	$0, 32(%rsp)
	je	102f
	movq	%rbx, %rdi
	callq	rattle_dealloc@PLT
102:
	movq	688(%rsp), %rbx
	movq	696(%rsp), %r12
	movq	704(%rsp), %rax
	movq	%rax, 32(%rsp)
	testq	%r12, %r12
	je	106f
	movq	%rbx, %r13
	jmp	104f
	.p2align	4
103:
	addq	$96, %r13
	decq	%r12
	je	106f
104:
	movzbl	48(%r13), %r15d
	movq	56(%r13), %r14
	movq	72(%r13), %rbp
	cmpb	$0, (%r13)
	je	105f
	cmpq	$0, 24(%r13)
	je	105f
	movq	8(%r13), %rdi
	callq	rattle_dealloc@PLT
105:
	testb	%r15b, %r15b
	je	103b
	testq	%rbp, %rbp
	je	103b
	movq	%r14, %rdi
	callq	rattle_dealloc@PLT
	jmp	103b
106:
	cmpq	$0, 32(%rsp)
	je	107f
	movq	%rbx, %rdi
	callq	rattle_dealloc@PLT
107:
	movq	544(%rsp), %rbx
	movq	552(%rsp), %r12
	movq	560(%rsp), %rax
	movq	%rax, 32(%rsp)
	testq	%r12, %r12
	je	111f
	leaq	80(%rbx), %r13
	jmp	109f
	.p2align	4
108:
	addq	$104, %r13
	decq	%r12
	je	111f
109:
	movzbl	-24(%r13), %r15d
	movq	-16(%r13), %r14
	movq	(%r13), %rbp
	cmpb	$0, -72(%r13)
	je	110f
	cmpq	$0, -48(%r13)
	je	110f
	movq	-64(%r13), %rdi
	callq	rattle_dealloc@PLT
110:
	testb	%r15b, %r15b
	je	108b
	testq	%rbp, %rbp
	je	108b
	movq	%r14, %rdi
	callq	rattle_dealloc@PLT
	jmp	108b
111:
	cmpq	$0, 32(%rsp)
	je	112f
	movq	%rbx, %rdi
	callq	rattle_dealloc@PLT
112:
	movq	720(%rsp), %rbx
	movq	728(%rsp), %r12
	movq	736(%rsp), %rax
	movq	%rax, 32(%rsp)
	testq	%r12, %r12
	je	116f
	movq	%rbx, %r13
	jmp	114f
	.p2align	4
113:
	addq	$96, %r13
	decq	%r12
	je	116f
114:
	movzbl	48(%r13), %r15d
	movq	56(%r13), %r14
	movq	72(%r13), %rbp
	cmpb	$0, (%r13)
	je	115f
	cmpq	$0, 24(%r13)
	je	115f
	movq	8(%r13), %rdi
	callq	rattle_dealloc@PLT
115:
	testb	%r15b, %r15b
	je	113b
	testq	%rbp, %rbp
	je	113b
	movq	%r14, %rdi
	callq	rattle_dealloc@PLT
	jmp	113b
116:
	cmpq	$0, 32(%rsp)
	je	117f
	movq	%rbx, %rdi
	callq	rattle_dealloc@PLT
117:
	movq	72(%rsp), %r13
	testq	%r13, %r13
	movq	96(%rsp), %r12
	je	121f
	movq	%r12, %r14
	jmp	119f
	.p2align	4
118:
	addq	$96, %r14
	decq	%r13
	je	121f
119:
	movzbl	48(%r14), %ebp
	movq	56(%r14), %rbx
	movq	72(%r14), %r15
	cmpb	$0, (%r14)
	je	120f
	cmpq	$0, 24(%r14)
	je	120f
	movq	8(%r14), %rdi
	callq	rattle_dealloc@PLT
120:
	testb	%bpl, %bpl
	je	118b
	testq	%r15, %r15
	je	118b
	movq	%rbx, %rdi
	callq	rattle_dealloc@PLT
	jmp	118b
121:
	cmpq	$0, 40(%rsp)
	je	303f
	movq	%r12, %rdi
	jmp	302f
122:
	movq	%rcx, 80(%rsp)
	leaq	576(%rsp), %rdi
	movq	%r15, %rsi
	movq	%r12, %rdx
	callq	"mime_text::merging::first::first_marks::<#3e18f2f50398609e>"
	cmpb	$0, 576(%rsp)
	movq	%rbx, 88(%rsp)
	movq	%r14, 112(%rsp)
	je	247f
	movq	%r15, %rbx
	movq	%r15, %rdi
	movq	%r15, 48(%rsp)
	jmp	124f
	.p2align	4
123:
	addq	$96, %rbx
	decq	%r12
	je	156f
124:
	movzbl	48(%rbx), %r15d
	movq	56(%rbx), %r14
	movq	72(%rbx), %rbp
	cmpb	$0, (%rbx)
	je	125f
	cmpq	$0, 24(%rbx)
	je	125f
	movq	8(%rbx), %rdi
	callq	rattle_dealloc@PLT
	movq	48(%rsp), %rdi
125:
	testb	%r15b, %r15b
	je	123b
	testq	%rbp, %rbp
	je	123b
	movq	%r14, %rdi
	callq	rattle_dealloc@PLT
	movq	48(%rsp), %rdi
	jmp	123b
126:
	leaq	576(%rsp), %rdi
	movq	%rbx, %rsi
	movq	%r12, %rdx
	callq	"mime_text::merging::first::first_marks::<#6173b1e72a96d278>"
	cmpb	$0, 576(%rsp)
	je	274f
	movq	%r14, 112(%rsp)
	movq	%rbx, 88(%rsp)
	movq	%rbx, %r14
	jmp	128f
	.p2align	4
127:
	addq	$96, %r14
	decq	56(%rsp)
	je	194f
128:
	movzbl	48(%r14), %ebp
	movq	56(%r14), %rbx
	movq	72(%r14), %r12
	cmpb	$0, (%r14)
	je	129f
	cmpq	$0, 24(%r14)
	je	129f
	movq	8(%r14), %rdi
	callq	rattle_dealloc@PLT
129:
	testb	%bpl, %bpl
	je	127b
	testq	%r12, %r12
	je	127b
	movq	%rbx, %rdi
	callq	rattle_dealloc@PLT
	jmp	127b
130:
	movq	216(%rsp), %rax
	testq	%rax, %rax
	je	134f
	movq	88(%rsp), %r14
	jmp	132f
	.p2align	4
131:
	addq	$96, %r14
	decq	%rax
	je	134f
132:
	movzbl	48(%r14), %ebp
	movq	56(%r14), %rbx
	movq	72(%r14), %r15
	cmpb	$0, (%r14)
	je	133f
	cmpq	$0, 24(%r14)
	je	133f
	movq	8(%r14), %rdi
	movq	%rax, %r12
	callq	rattle_dealloc@PLT
	movq	%r12, %rax
133:
	testb	%bpl, %bpl
	je	131b
	testq	%r15, %r15
	je	131b
	movq	%rbx, %rdi
	movq	%rax, %rbx
	callq	rattle_dealloc@PLT
	movq	%rbx, %rax
	jmp	131b
134:
	cmpq	$0, 224(%rsp)
	je	135f
	movq	88(%rsp), %rdi
	callq	rattle_dealloc@PLT
135:
	cmpq	$0, 152(%rsp)
	je	136f
	movq	232(%rsp), %rdi
	callq	rattle_dealloc@PLT
136:
	movq	272(%rsp), %rax
	testq	%rax, %rax
	je	140f
	movq	80(%rsp), %r14
	jmp	138f
	.p2align	4
137:
	addq	$96, %r14
	decq	%rax
	je	140f
138:
	movzbl	48(%r14), %ebp
	movq	56(%r14), %rbx
	movq	72(%r14), %r15
	cmpb	$0, (%r14)
	je	139f
	cmpq	$0, 24(%r14)
	je	139f
	movq	8(%r14), %rdi
	movq	%rax, %r12
	callq	rattle_dealloc@PLT
	movq	%r12, %rax
139:
	testb	%bpl, %bpl
	je	137b
	testq	%r15, %r15
	je	137b
	movq	%rbx, %rdi
	movq	%rax, %rbx
	callq	rattle_dealloc@PLT
	movq	%rbx, %rax
	jmp	137b
140:
	cmpq	$0, 280(%rsp)
	je	141f
	movq	80(%rsp), %rdi
	callq	rattle_dealloc@PLT
141:
	cmpq	$0, 160(%rsp)
	je	142f
	movq	240(%rsp), %rdi
	callq	rattle_dealloc@PLT
142:
	cmpq	$0, 104(%rsp)
	je	146f
	movq	208(%rsp), %r14
	jmp	144f
	.p2align	4
143:
	addq	$96, %r14
	decq	104(%rsp)
	je	146f
144:
	movzbl	48(%r14), %ebp
	movq	56(%r14), %rbx
	movq	72(%r14), %r15
	cmpb	$0, (%r14)
	je	145f
	cmpq	$0, 24(%r14)
	je	145f
	movq	8(%r14), %rdi
	callq	rattle_dealloc@PLT
145:
	testb	%bpl, %bpl
	je	143b
	testq	%r15, %r15
	je	143b
	movq	%rbx, %rdi
	callq	rattle_dealloc@PLT
	jmp	143b
146:
	cmpq	$0, 312(%rsp)
	je	147f
	movq	208(%rsp), %rdi
	callq	rattle_dealloc@PLT
147:
	cmpq	$0, 168(%rsp)
	je	148f
	movq	248(%rsp), %rdi
	callq	rattle_dealloc@PLT
148:
	cmpq	$0, 176(%rsp)
	je	149f
	movq	256(%rsp), %rdi
	callq	rattle_dealloc@PLT
149:
	movq	112(%rsp), %rax
	testq	%rax, %rax
	je	152f
	movq	48(%rsp), %rbx
	jmp	151f
	.p2align	4
150:
	addq	$48, %rbx
	decq	%rax
	je	152f
151:
	cmpb	$0, (%rbx)
	je	150b
	cmpq	$0, 24(%rbx)
	je	150b
	movq	8(%rbx), %rdi
	movq	%rax, %r14
	callq	rattle_dealloc@PLT
	movq	%r14, %rax
	jmp	150b
152:
	cmpq	$0, 184(%rsp)
	je	153f
	movq	48(%rsp), %rdi
	callq	rattle_dealloc@PLT
153:
	cmpq	$0, 32(%rsp)
	movq	40(%rsp), %rcx
	je	341f
	movq	64(%rsp), %rbx
	jmp	155f
	.p2align	4
154:
	addq	$48, %rbx
	decq	32(%rsp)
	je	341f
155:
	cmpb	$0, (%rbx)
	je	154b
	cmpq	$0, 24(%rbx)
	je	154b
	movq	8(%rbx), %rdi
	callq	rattle_dealloc@PLT
	movq	40(%rsp), %rcx
	jmp	154b
156:
	cmpq	$0, 80(%rsp)
	je	248f
	callq	rattle_dealloc@PLT
	jmp	248f
157:
	movq	216(%rsp), %rax
	testq	%rax, %rax
	je	161f
	movq	88(%rsp), %r14
	jmp	159f
	.p2align	4
158:
	addq	$96, %r14
	decq	%rax
	je	161f
159:
	movzbl	48(%r14), %ebp
	movq	56(%r14), %rbx
	movq	72(%r14), %r15
	cmpb	$0, (%r14)
	je	160f
	cmpq	$0, 24(%r14)
	je	160f
	movq	8(%r14), %rdi
	movq	%rax, %r12
	callq	rattle_dealloc@PLT
	movq	%r12, %rax
160:
	testb	%bpl, %bpl
	je	158b
	testq	%r15, %r15
	je	158b
	movq	%rbx, %rdi
	movq	%rax, %rbx
	callq	rattle_dealloc@PLT
	movq	%rbx, %rax
	jmp	158b
161:
	cmpq	$0, 224(%rsp)
	je	162f
	movq	88(%rsp), %rdi
	callq	rattle_dealloc@PLT
162:
	cmpq	$0, 152(%rsp)
	je	163f
	movq	232(%rsp), %rdi
	callq	rattle_dealloc@PLT
163:
	movq	272(%rsp), %rax
	testq	%rax, %rax
	je	167f
	movq	80(%rsp), %r14
	jmp	165f
	.p2align	4
164:
	addq	$96, %r14
	decq	%rax
	je	167f
165:
	movzbl	48(%r14), %ebp
	movq	56(%r14), %rbx
	movq	72(%r14), %r15
	cmpb	$0, (%r14)
	je	166f
	cmpq	$0, 24(%r14)
	je	166f
	movq	8(%r14), %rdi
	movq	%rax, %r12
	callq	rattle_dealloc@PLT
	movq	%r12, %rax
166:
	testb	%bpl, %bpl
	je	164b
	testq	%r15, %r15
	je	164b
	movq	%rbx, %rdi
	movq	%rax, %rbx
	callq	rattle_dealloc@PLT
	movq	%rbx, %rax
	jmp	164b
167:
	cmpq	$0, 280(%rsp)
	je	168f
	movq	80(%rsp), %rdi
	callq	rattle_dealloc@PLT
168:
	cmpq	$0, 160(%rsp)
	je	169f
	movq	240(%rsp), %rdi
	callq	rattle_dealloc@PLT
169:
	cmpq	$0, 168(%rsp)
	je	170f
	movq	248(%rsp), %rdi
	callq	rattle_dealloc@PLT
170:
	cmpq	$0, 176(%rsp)
	je	171f
	movq	256(%rsp), %rdi
	callq	rattle_dealloc@PLT
171:
	movq	112(%rsp), %rax
	testq	%rax, %rax
	je	174f
	movq	48(%rsp), %rbx
	jmp	173f
	.p2align	4
172:
	addq	$48, %rbx
	decq	%rax
	je	174f
173:
	cmpb	$0, (%rbx)
	je	172b
	cmpq	$0, 24(%rbx)
	je	172b
	movq	8(%rbx), %rdi
	movq	%rax, %r14
	callq	rattle_dealloc@PLT
	movq	%r14, %rax
	jmp	172b
174:
	cmpq	$0, 184(%rsp)
	je	175f
	movq	48(%rsp), %rdi
	callq	rattle_dealloc@PLT
175:
	cmpq	$0, 32(%rsp)
	movq	40(%rsp), %rcx
	je	341f
	movq	64(%rsp), %rbx
	jmp	177f
	.p2align	4
176:
	addq	$48, %rbx
	decq	32(%rsp)
	je	341f
177:
	cmpb	$0, (%rbx)
	je	176b
	cmpq	$0, 24(%rbx)
	je	176b
	movq	8(%rbx), %rdi
	callq	rattle_dealloc@PLT
	movq	40(%rsp), %rcx
	jmp	176b
178:
	movq	216(%rsp), %rax
	testq	%rax, %rax
	je	182f
	movq	88(%rsp), %r14
	jmp	180f
	.p2align	4
179:
	addq	$96, %r14
	decq	%rax
	je	182f
180:
	movzbl	48(%r14), %ebp
	movq	56(%r14), %rbx
	movq	72(%r14), %r15
	cmpb	$0, (%r14)
	je	181f
	cmpq	$0, 24(%r14)
	je	181f
	movq	8(%r14), %rdi
	movq	%rax, %r12
	callq	rattle_dealloc@PLT
	movq	%r12, %rax
181:
	testb	%bpl, %bpl
	je	179b
	testq	%r15, %r15
	je	179b
	movq	%rbx, %rdi
	movq	%rax, %rbx
	callq	rattle_dealloc@PLT
	movq	%rbx, %rax
	jmp	179b
182:
	cmpq	$0, 224(%rsp)
	je	183f
	movq	88(%rsp), %rdi
	callq	rattle_dealloc@PLT
183:
	cmpq	$0, 152(%rsp)
	je	184f
	movq	232(%rsp), %rdi
	callq	rattle_dealloc@PLT
184:
	cmpq	$0, 160(%rsp)
	je	185f
	movq	240(%rsp), %rdi
	callq	rattle_dealloc@PLT
185:
	cmpq	$0, 168(%rsp)
	je	186f
	movq	248(%rsp), %rdi
	callq	rattle_dealloc@PLT
186:
	cmpq	$0, 176(%rsp)
	je	187f
	movq	256(%rsp), %rdi
	callq	rattle_dealloc@PLT
187:
	movq	112(%rsp), %rax
	testq	%rax, %rax
	je	190f
	movq	48(%rsp), %rbx
	jmp	189f
	.p2align	4
188:
	addq	$48, %rbx
	decq	%rax
	je	190f
189:
	cmpb	$0, (%rbx)
	je	188b
	cmpq	$0, 24(%rbx)
	je	188b
	movq	8(%rbx), %rdi
	movq	%rax, %r14
	callq	rattle_dealloc@PLT
	movq	%r14, %rax
	jmp	188b
190:
	cmpq	$0, 184(%rsp)
	je	191f
	movq	48(%rsp), %rdi
	callq	rattle_dealloc@PLT
191:
	cmpq	$0, 32(%rsp)
	movq	40(%rsp), %rcx
	je	341f
	movq	64(%rsp), %rbx
	jmp	193f
	.p2align	4
192:
	addq	$48, %rbx
	decq	32(%rsp)
	je	341f
193:
	cmpb	$0, (%rbx)
	je	192b
	cmpq	$0, 24(%rbx)
	je	192b
	movq	8(%rbx), %rdi
	callq	rattle_dealloc@PLT
	movq	40(%rsp), %rcx
	jmp	192b
194:
	cmpq	$0, 112(%rsp)
	je	275f
	movq	88(%rsp), %rdi
	callq	rattle_dealloc@PLT
	jmp	275f
195:
	cmpq	$0, 152(%rsp)
	je	196f
	movq	232(%rsp), %rdi
	callq	rattle_dealloc@PLT
196:
	cmpq	$0, 160(%rsp)
	je	197f
	movq	240(%rsp), %rdi
	callq	rattle_dealloc@PLT
197:
	cmpq	$0, 168(%rsp)
	je	198f
	movq	248(%rsp), %rdi
	callq	rattle_dealloc@PLT
198:
	cmpq	$0, 176(%rsp)
	je	199f
	movq	256(%rsp), %rdi
	callq	rattle_dealloc@PLT
199:
	movq	112(%rsp), %rax
	testq	%rax, %rax
	je	202f
	movq	48(%rsp), %rbx
	jmp	201f
	.p2align	4
200:
	addq	$48, %rbx
	decq	%rax
	je	202f
201:
	cmpb	$0, (%rbx)
	je	200b
	cmpq	$0, 24(%rbx)
	je	200b
	movq	8(%rbx), %rdi
	movq	%rax, %r14
	callq	rattle_dealloc@PLT
	movq	%r14, %rax
	jmp	200b
202:
	cmpq	$0, 184(%rsp)
	je	203f
	movq	48(%rsp), %rdi
	callq	rattle_dealloc@PLT
203:
	cmpq	$0, 32(%rsp)
	movq	40(%rsp), %rcx
	je	341f
	movq	64(%rsp), %rbx
	jmp	205f
	.p2align	4
204:
	addq	$48, %rbx
	decq	32(%rsp)
	je	341f
205:
	cmpb	$0, (%rbx)
	je	204b
	cmpq	$0, 24(%rbx)
	je	204b
	movq	8(%rbx), %rdi
	callq	rattle_dealloc@PLT
	movq	40(%rsp), %rcx
	jmp	204b
206:
	testb	%r12b, %r12b
	sete	%al
	cmpq	$0, 1256(%rsp)
	sete	%r14b
	orb	%al, %r14b
	testb	%bpl, %bpl
	movq	920(%rsp), %rdi
	je	207f
	testq	%r13, %r13
	je	207f
	callq	rattle_dealloc@PLT
207:
	testb	%r14b, %r14b
	jne	208f
	movq	%rbx, %rdi
	callq	rattle_dealloc@PLT
208:
	movq	%r15, 784(%rsp)
	movq	56(%rsp), %rax
	movq	%rax, 792(%rsp)
	movq	928(%rsp), %rax
	movq	%rax, 800(%rsp)
	movq	72(%rsp), %rax
	movq	%rax, 808(%rsp)
	movq	$0, 816(%rsp)
	leaq	784(%rsp), %rdi
	callq	"std_alloc::vec::deque::VecDeque::drop::<#f76b5842e243a073>"
209:
	movq	216(%rsp), %rax
	testq	%rax, %rax
	je	213f
	movq	88(%rsp), %r14
	jmp	211f
	.p2align	4
210:
	addq	$96, %r14
	decq	%rax
	je	213f
211:
	movzbl	48(%r14), %ebp
	movq	56(%r14), %rbx
	movq	72(%r14), %r15
	cmpb	$0, (%r14)
	je	212f
	cmpq	$0, 24(%r14)
	je	212f
	movq	8(%r14), %rdi
	movq	%rax, %r12
	callq	rattle_dealloc@PLT
	movq	%r12, %rax
212:
	testb	%bpl, %bpl
	je	210b
	testq	%r15, %r15
	je	210b
	movq	%rbx, %rdi
	movq	%rax, %rbx
	callq	rattle_dealloc@PLT
	movq	%rbx, %rax
	jmp	210b
213:
	cmpq	$0, 224(%rsp)
	je	214f
	movq	88(%rsp), %rdi
	callq	rattle_dealloc@PLT
214:
	cmpq	$0, 152(%rsp)
	je	215f
	movq	232(%rsp), %rdi
	callq	rattle_dealloc@PLT
215:
	movq	272(%rsp), %rax
	testq	%rax, %rax
	je	219f
	movq	80(%rsp), %r14
	jmp	217f
	.p2align	4
216:
	addq	$96, %r14
	decq	%rax
	je	219f
217:
	movzbl	48(%r14), %ebp
	movq	56(%r14), %rbx
	movq	72(%r14), %r15
	cmpb	$0, (%r14)
	je	218f
	cmpq	$0, 24(%r14)
	je	218f
	movq	8(%r14), %rdi
	movq	%rax, %r12
	callq	rattle_dealloc@PLT
	movq	%r12, %rax
218:
	testb	%bpl, %bpl
	je	216b
	testq	%r15, %r15
	je	216b
	movq	%rbx, %rdi
	movq	%rax, %rbx
	callq	rattle_dealloc@PLT
	movq	%rbx, %rax
	jmp	216b
219:
	cmpq	$0, 280(%rsp)
	je	220f
	movq	80(%rsp), %rdi
	callq	rattle_dealloc@PLT
220:
	cmpq	$0, 160(%rsp)
	je	221f
	movq	240(%rsp), %rdi
	callq	rattle_dealloc@PLT
221:
	cmpq	$0, 104(%rsp)
	je	225f
	movq	208(%rsp), %r14
	jmp	223f
	.p2align	4
222:
	addq	$96, %r14
	decq	104(%rsp)
	je	225f
223:
	movzbl	48(%r14), %ebp
	movq	56(%r14), %rbx
	movq	72(%r14), %r15
	cmpb	$0, (%r14)
	je	224f
	cmpq	$0, 24(%r14)
	je	224f
	movq	8(%r14), %rdi
	callq	rattle_dealloc@PLT
224:
	testb	%bpl, %bpl
	je	222b
	testq	%r15, %r15
	je	222b
	movq	%rbx, %rdi
	callq	rattle_dealloc@PLT
	jmp	222b
225:
	cmpq	$0, 312(%rsp)
	je	226f
	movq	208(%rsp), %rdi
	callq	rattle_dealloc@PLT
226:
	cmpq	$0, 168(%rsp)
	je	227f
	movq	248(%rsp), %rdi
	callq	rattle_dealloc@PLT
227:
	movq	528(%rsp), %rax
	testq	%rax, %rax
	je	231f
	movq	288(%rsp), %r14
	jmp	229f
	.p2align	4
228:
	addq	$96, %r14
	decq	%rax
	je	231f
229:
	movzbl	48(%r14), %ebp
	movq	56(%r14), %rbx
	movq	72(%r14), %r15
	cmpb	$0, (%r14)
	je	230f
	cmpq	$0, 24(%r14)
	je	230f
	movq	8(%r14), %rdi
	movq	%rax, %r12
	callq	rattle_dealloc@PLT
	movq	%r12, %rax
230:
	testb	%bpl, %bpl
	je	228b
	testq	%r15, %r15
	je	228b
	movq	%rbx, %rdi
	movq	%rax, %rbx
	callq	rattle_dealloc@PLT
	movq	%rbx, %rax
	jmp	228b
231:
	cmpq	$0, 536(%rsp)
	je	232f
	movq	288(%rsp), %rdi
	callq	rattle_dealloc@PLT
232:
	cmpq	$0, 176(%rsp)
	je	233f
	movq	256(%rsp), %rdi
	callq	rattle_dealloc@PLT
233:
	cmpq	$0, 120(%rsp)
	je	239f
	xorl	%r14d, %r14d
	jmp	235f
	.p2align	4
234:
	incq	%r14
	cmpq	120(%rsp), %r14
	je	239f
235:
	movq	%r14, %rax
	shlq	$4, %rax
	leaq	(%rax,%rax,4), %rax
	movq	96(%rsp), %rcx
	movq	56(%rcx,%rax), %rbx
	movq	64(%rcx,%rax), %r12
	movq	72(%rcx,%rax), %r15
	cmpb	$0, 8(%rcx,%rax)
	je	236f
	cmpq	$0, 32(%rcx,%rax)
	je	236f
	movq	96(%rsp), %rcx
	movq	16(%rcx,%rax), %rdi
	callq	rattle_dealloc@PLT
236:
	testq	%r12, %r12
	je	238f
	movq	%rbx, %r13
	.p2align	4
237:
	movups	80(%r13), %xmm0
	movaps	%xmm0, 656(%rsp)
	movups	64(%r13), %xmm0
	movaps	%xmm0, 640(%rsp)
	movdqu	(%r13), %xmm0
	movdqu	16(%r13), %xmm1
	movdqu	32(%r13), %xmm2
	movdqu	48(%r13), %xmm3
	movdqa	%xmm3, 624(%rsp)
	movdqa	%xmm2, 608(%rsp)
	movdqa	%xmm1, 592(%rsp)
	movdqa	%xmm0, 576(%rsp)
	leaq	576(%rsp), %rdi
	callq	"mime_text::mime_base++magic++matchlet++Matchlet+Destruct::drop"
	addq	$96, %r13
	decq	%r12
	jne	237b
238:
	testq	%r15, %r15
	je	234b
	movq	%rbx, %rdi
	callq	rattle_dealloc@PLT
	jmp	234b
239:
	cmpq	$0, 304(%rsp)
	movq	96(%rsp), %rdi
	je	240f
	callq	rattle_dealloc@PLT
240:
	movq	112(%rsp), %rax
	testq	%rax, %rax
	je	243f
	movq	48(%rsp), %rbx
	jmp	242f
	.p2align	4
241:
	addq	$48, %rbx
	decq	%rax
	je	243f
242:
	cmpb	$0, (%rbx)
	je	241b
	cmpq	$0, 24(%rbx)
	je	241b
	movq	8(%rbx), %rdi
	movq	%rax, %r14
	callq	rattle_dealloc@PLT
	movq	%r14, %rax
	jmp	241b
243:
	cmpq	$0, 184(%rsp)
	je	244f
	movq	48(%rsp), %rdi
	callq	rattle_dealloc@PLT
244:
	cmpq	$0, 32(%rsp)
	movq	40(%rsp), %rcx
	je	341f
	movq	64(%rsp), %rbx
	jmp	246f
	.p2align	4
245:
	addq	$48, %rbx
	decq	32(%rsp)
	je	341f
246:
	cmpb	$0, (%rbx)
	je	245b
	cmpq	$0, 24(%rbx)
	je	245b
	movq	8(%rbx), %rdi
	callq	rattle_dealloc@PLT
	movq	40(%rsp), %rcx
	jmp	245b
247:
	leaq	584(%rsp), %rdx
	movq	%r15, 784(%rsp)
	movq	%r12, 792(%rsp)
	movq	80(%rsp), %rax
	movq	%rax, 800(%rsp)
	leaq	320(%rsp), %rdi
	leaq	784(%rsp), %rsi
	callq	"mime_text::merging::first::marked::<#5757887c02ee9d34>"
	movdqu	328(%rsp), %xmm0
	movdqu	%xmm0, 983(%rsp)
	movq	344(%rsp), %rax
	movq	%rax, 999(%rsp)
	cmpb	$0, 320(%rsp)
	je	69b
248:
	movq	544(%rsp), %rax
	movq	%rax, 48(%rsp)
	movq	552(%rsp), %r12
	movq	560(%rsp), %rax
	movq	%rax, 80(%rsp)
	testq	%r12, %r12
	je	252f
	movq	48(%rsp), %rax
	leaq	80(%rax), %rbx
	jmp	250f
	.p2align	4
249:
	addq	$104, %rbx
	decq	%r12
	je	252f
250:
	movzbl	-24(%rbx), %r15d
	movq	-16(%rbx), %r14
	movq	(%rbx), %rbp
	cmpb	$0, -72(%rbx)
	je	251f
	cmpq	$0, -48(%rbx)
	je	251f
	movq	-64(%rbx), %rdi
	callq	rattle_dealloc@PLT
251:
	testb	%r15b, %r15b
	je	249b
	testq	%rbp, %rbp
	je	249b
	movq	%r14, %rdi
	callq	rattle_dealloc@PLT
	jmp	249b
252:
	cmpq	$0, 80(%rsp)
	je	253f
	movq	48(%rsp), %rdi
	callq	rattle_dealloc@PLT
253:
	movq	720(%rsp), %rax
	movq	%rax, 48(%rsp)
	movq	728(%rsp), %r12
	movq	736(%rsp), %rax
	movq	%rax, 80(%rsp)
	testq	%r12, %r12
	je	257f
	movq	48(%rsp), %rbp
	jmp	255f
	.p2align	4
254:
	addq	$96, %rbp
	decq	%r12
	je	257f
255:
	movzbl	48(%rbp), %r15d
	movq	56(%rbp), %r14
	movq	72(%rbp), %rbx
	cmpb	$0, (%rbp)
	je	256f
	cmpq	$0, 24(%rbp)
	je	256f
	movq	8(%rbp), %rdi
	callq	rattle_dealloc@PLT
256:
	testb	%r15b, %r15b
	je	254b
	testq	%rbx, %rbx
	je	254b
	movq	%r14, %rdi
	callq	rattle_dealloc@PLT
	jmp	254b
257:
	cmpq	$0, 80(%rsp)
	je	258f
	movq	48(%rsp), %rdi
	callq	rattle_dealloc@PLT
258:
	cmpq	$0, 72(%rsp)
	movq	56(%rsp), %r15
	je	262f
	movq	96(%rsp), %r14
	jmp	260f
	.p2align	4
259:
	addq	$96, %r14
	decq	72(%rsp)
	je	262f
260:
	movzbl	48(%r14), %ebp
	movq	56(%r14), %rbx
	movq	72(%r14), %r12
	cmpb	$0, (%r14)
	je	261f
	cmpq	$0, 24(%r14)
	je	261f
	movq	8(%r14), %rdi
	callq	rattle_dealloc@PLT
261:
	testb	%bpl, %bpl
	je	259b
	testq	%r12, %r12
	je	259b
	movq	%rbx, %rdi
	callq	rattle_dealloc@PLT
	jmp	259b
262:
	cmpq	$0, 40(%rsp)
	je	263f
	movq	96(%rsp), %rdi
	callq	rattle_dealloc@PLT
263:
	testq	%r15, %r15
	je	267f
	movq	88(%rsp), %r14
	jmp	265f
	.p2align	4
264:
	addq	$96, %r14
	decq	%r15
	je	267f
265:
	movzbl	48(%r14), %ebp
	movq	56(%r14), %rbx
	movq	72(%r14), %r12
	cmpb	$0, (%r14)
	je	266f
	cmpq	$0, 24(%r14)
	je	266f
	movq	8(%r14), %rdi
	callq	rattle_dealloc@PLT
266:
	testb	%bpl, %bpl
	je	264b
	testq	%r12, %r12
	je	264b
	movq	%rbx, %rdi
	callq	rattle_dealloc@PLT
	jmp	264b
267:
	cmpq	$0, 112(%rsp)
	je	268f
	movq	88(%rsp), %rdi
	callq	rattle_dealloc@PLT
268:
	cmpq	$0, 32(%rsp)
	je	301f
	xorl	%r14d, %r14d
	jmp	270f
	.p2align	4
269:
	incq	%r14
	cmpq	32(%rsp), %r14
	je	301f
270:
	movq	%r14, %rax
	shlq	$4, %rax
	leaq	(%rax,%rax,4), %rax
	movq	56(%r13,%rax), %rbx
	movq	64(%r13,%rax), %r12
	movq	72(%r13,%rax), %r15
	cmpb	$0, 8(%r13,%rax)
	je	271f
	cmpq	$0, 32(%r13,%rax)
	je	271f
	movq	16(%r13,%rax), %rdi
	callq	rattle_dealloc@PLT
271:
	testq	%r12, %r12
	je	273f
	movq	%rbx, %rbp
	.p2align	4
272:
	movups	80(%rbp), %xmm0
	movaps	%xmm0, 400(%rsp)
	movups	64(%rbp), %xmm0
	movaps	%xmm0, 384(%rsp)
	movdqu	(%rbp), %xmm0
	movdqu	16(%rbp), %xmm1
	movdqu	32(%rbp), %xmm2
	movdqu	48(%rbp), %xmm3
	movdqa	%xmm3, 368(%rsp)
	movdqa	%xmm2, 352(%rsp)
	movdqa	%xmm1, 336(%rsp)
	movdqa	%xmm0, 320(%rsp)
	leaq	320(%rsp), %rdi
	callq	"mime_text::mime_base++magic++matchlet++Matchlet+Destruct::drop"
	addq	$96, %rbp
	decq	%r12
	jne	272b
273:
	testq	%r15, %r15
	je	269b
	movq	%rbx, %rdi
	callq	rattle_dealloc@PLT
	jmp	269b
274:
	leaq	584(%rsp), %rdx
	movq	%rbx, 784(%rsp)
	movq	%r12, 792(%rsp)
	movq	%r14, 800(%rsp)
	leaq	320(%rsp), %rdi
	leaq	784(%rsp), %rsi
	callq	"mime_text::merging::first::marked::<#5757887c02ee9d34>"
	movdqu	328(%rsp), %xmm0
	movdqu	%xmm0, 951(%rsp)
	movq	344(%rsp), %rax
	movq	%rax, 967(%rsp)
	cmpb	$0, 320(%rsp)
	je	70b
275:
	movq	688(%rsp), %rax
	movq	%rax, 56(%rsp)
	movq	696(%rsp), %r12
	movq	704(%rsp), %rax
	movq	%rax, 48(%rsp)
	testq	%r12, %r12
	je	279f
	movq	56(%rsp), %rbp
	jmp	277f
	.p2align	4
276:
	addq	$96, %rbp
	decq	%r12
	je	279f
277:
	movzbl	48(%rbp), %ebx
	movq	56(%rbp), %r14
	movq	72(%rbp), %r15
	cmpb	$0, (%rbp)
	je	278f
	cmpq	$0, 24(%rbp)
	je	278f
	movq	8(%rbp), %rdi
	callq	rattle_dealloc@PLT
278:
	testb	%bl, %bl
	je	276b
	testq	%r15, %r15
	je	276b
	movq	%r14, %rdi
	callq	rattle_dealloc@PLT
	jmp	276b
279:
	cmpq	$0, 48(%rsp)
	je	280f
	movq	56(%rsp), %rdi
	callq	rattle_dealloc@PLT
280:
	movq	544(%rsp), %rax
	movq	%rax, 56(%rsp)
	movq	552(%rsp), %r12
	movq	560(%rsp), %rax
	movq	%rax, 48(%rsp)
	testq	%r12, %r12
	je	284f
	movq	56(%rsp), %rax
	leaq	80(%rax), %r15
	jmp	282f
	.p2align	4
281:
	addq	$104, %r15
	decq	%r12
	je	284f
282:
	movzbl	-24(%r15), %ebx
	movq	-16(%r15), %r14
	movq	(%r15), %rbp
	cmpb	$0, -72(%r15)
	je	283f
	cmpq	$0, -48(%r15)
	je	283f
	movq	-64(%r15), %rdi
	callq	rattle_dealloc@PLT
283:
	testb	%bl, %bl
	je	281b
	testq	%rbp, %rbp
	je	281b
	movq	%r14, %rdi
	callq	rattle_dealloc@PLT
	jmp	281b
284:
	cmpq	$0, 48(%rsp)
	je	285f
	movq	56(%rsp), %rdi
	callq	rattle_dealloc@PLT
285:
	movq	720(%rsp), %rax
	movq	%rax, 56(%rsp)
	movq	728(%rsp), %r12
	movq	736(%rsp), %rax
	movq	%rax, 48(%rsp)
	testq	%r12, %r12
	je	289f
	movq	56(%rsp), %rbp
	jmp	287f
	.p2align	4
286:
	addq	$96, %rbp
	decq	%r12
	je	289f
287:
	movzbl	48(%rbp), %ebx
	movq	56(%rbp), %r14
	movq	72(%rbp), %r15
	cmpb	$0, (%rbp)
	je	288f
	cmpq	$0, 24(%rbp)
	je	288f
	movq	8(%rbp), %rdi
	callq	rattle_dealloc@PLT
288:
	testb	%bl, %bl
	je	286b
	testq	%r15, %r15
	je	286b
	movq	%r14, %rdi
	callq	rattle_dealloc@PLT
	jmp	286b
289:
	cmpq	$0, 48(%rsp)
	je	290f
	movq	56(%rsp), %rdi
	callq	rattle_dealloc@PLT
290:
	cmpq	$0, 72(%rsp)
	movq	96(%rsp), %r12
	je	294f
	movq	%r12, %r14
	jmp	292f
	.p2align	4
291:
	addq	$96, %r14
	decq	72(%rsp)
	je	294f
292:
	movzbl	48(%r14), %ebp
	movq	56(%r14), %rbx
	movq	72(%r14), %r15
	cmpb	$0, (%r14)
	je	293f
	cmpq	$0, 24(%r14)
	je	293f
	movq	8(%r14), %rdi
	callq	rattle_dealloc@PLT
293:
	testb	%bpl, %bpl
	je	291b
	testq	%r15, %r15
	je	291b
	movq	%rbx, %rdi
	callq	rattle_dealloc@PLT
	jmp	291b
294:
	cmpq	$0, 40(%rsp)
	je	295f
	movq	%r12, %rdi
	callq	rattle_dealloc@PLT
295:
	cmpq	$0, 32(%rsp)
	je	301f
	xorl	%r14d, %r14d
	jmp	297f
	.p2align	4
296:
	incq	%r14
	cmpq	32(%rsp), %r14
	je	301f
297:
	movq	%r14, %rax
	shlq	$4, %rax
	leaq	(%rax,%rax,4), %rax
	movq	56(%r13,%rax), %rbx
	movq	64(%r13,%rax), %r12
	movq	72(%r13,%rax), %r15
	cmpb	$0, 8(%r13,%rax)
	je	298f
	cmpq	$0, 32(%r13,%rax)
	je	298f
	movq	16(%r13,%rax), %rdi
	callq	rattle_dealloc@PLT
298:
	testq	%r12, %r12
	je	300f
	movq	%rbx, %rbp
	.p2align	4
299:
	movups	80(%rbp), %xmm0
	movaps	%xmm0, 400(%rsp)
	movups	64(%rbp), %xmm0
	movaps	%xmm0, 384(%rsp)
	movdqu	(%rbp), %xmm0
	movdqu	16(%rbp), %xmm1
	movdqu	32(%rbp), %xmm2
	movdqu	48(%rbp), %xmm3
	movdqa	%xmm3, 368(%rsp)
	movdqa	%xmm2, 352(%rsp)
	movdqa	%xmm1, 336(%rsp)
	movdqa	%xmm0, 320(%rsp)
	leaq	320(%rsp), %rdi
	callq	"mime_text::mime_base++magic++matchlet++Matchlet+Destruct::drop"
	addq	$96, %rbp
	decq	%r12
	jne	299b
300:
	testq	%r15, %r15
	je	296b
	movq	%rbx, %rdi
	callq	rattle_dealloc@PLT
	jmp	296b
301:
	cmpq	$0, 120(%rsp)
	je	303f
	movq	%r13, %rdi
302:
	callq	rattle_dealloc@PLT
303:
	cmpb	$1, 104(%rsp)
	movq	64(%rsp), %rbx
	jne	304f
	movq	136(%rsp), %rdi
	callq	"std_collections::btree::node::Node::destroy::<#6f699a0b3f3d5921>"
304:
	cmpb	$1, 128(%rsp)
	jne	425f
	movq	%rbx, %rdi
	callq	"std_collections::btree::node::Node::destroy::<#6f699a0b3f3d5921>"
	jmp	425f
305:
	testq	%r12, %r12
	movq	512(%rsp), %rdi
	je	306f
	testq	%rbp, %rbp
	je	306f
	callq	rattle_dealloc@PLT
306:
	testq	%r15, %r15
	je	308f
	movq	%rbx, %r14
307:
	movups	80(%r14), %xmm0
	movaps	%xmm0, 656(%rsp)
	movups	64(%r14), %xmm0
	movaps	%xmm0, 640(%rsp)
	movdqu	(%r14), %xmm0
	movdqu	16(%r14), %xmm1
	movdqu	32(%r14), %xmm2
	movdqu	48(%r14), %xmm3
	movdqa	%xmm3, 624(%rsp)
	movdqa	%xmm2, 608(%rsp)
	movdqa	%xmm1, 592(%rsp)
	movdqa	%xmm0, 576(%rsp)
	leaq	576(%rsp), %rdi
	callq	"mime_text::mime_base++magic++matchlet++Matchlet+Destruct::drop"
	addq	$96, %r14
	decq	%r15
	jne	307b
308:
	testq	%r13, %r13
	je	309f
	movq	%rbx, %rdi
	callq	rattle_dealloc@PLT
309:
	movq	96(%rsp), %rax
	movq	%rax, 1008(%rsp)
	movq	56(%rsp), %rax
	movq	%rax, 1016(%rsp)
	movq	304(%rsp), %rax
	movq	%rax, 1024(%rsp)
	movq	72(%rsp), %rax
	movq	%rax, 1032(%rsp)
	movq	$0, 1040(%rsp)
	leaq	1008(%rsp), %rdi
	callq	"std_alloc::vec::deque::VecDeque::drop::<#19687a60d315e203>"
310:
	movq	216(%rsp), %rax
	testq	%rax, %rax
	je	314f
	movq	88(%rsp), %r14
	jmp	312f
	.p2align	4
311:
	addq	$96, %r14
	decq	%rax
	je	314f
312:
	movzbl	48(%r14), %ebp
	movq	56(%r14), %rbx
	movq	72(%r14), %r15
	cmpb	$0, (%r14)
	je	313f
	cmpq	$0, 24(%r14)
	je	313f
	movq	8(%r14), %rdi
	movq	%rax, %r12
	callq	rattle_dealloc@PLT
	movq	%r12, %rax
313:
	testb	%bpl, %bpl
	je	311b
	testq	%r15, %r15
	je	311b
	movq	%rbx, %rdi
	movq	%rax, %rbx
	callq	rattle_dealloc@PLT
	movq	%rbx, %rax
	jmp	311b
314:
	cmpq	$0, 224(%rsp)
	je	315f
	movq	88(%rsp), %rdi
	callq	rattle_dealloc@PLT
315:
	cmpq	$0, 152(%rsp)
	je	316f
	movq	232(%rsp), %rdi
	callq	rattle_dealloc@PLT
316:
	movq	272(%rsp), %rax
	testq	%rax, %rax
	je	320f
	movq	80(%rsp), %r14
	jmp	318f
	.p2align	4
317:
	addq	$96, %r14
	decq	%rax
	je	320f
318:
	movzbl	48(%r14), %ebp
	movq	56(%r14), %rbx
	movq	72(%r14), %r15
	cmpb	$0, (%r14)
	je	319f
	cmpq	$0, 24(%r14)
	je	319f
	movq	8(%r14), %rdi
	movq	%rax, %r12
	callq	rattle_dealloc@PLT
	movq	%r12, %rax
319:
	testb	%bpl, %bpl
	je	317b
	testq	%r15, %r15
	je	317b
	movq	%rbx, %rdi
	movq	%rax, %rbx
	callq	rattle_dealloc@PLT
	movq	%rbx, %rax
	jmp	317b
320:
	cmpq	$0, 280(%rsp)
	je	321f
	movq	80(%rsp), %rdi
	callq	rattle_dealloc@PLT
321:
	cmpq	$0, 160(%rsp)
	je	322f
	movq	240(%rsp), %rdi
	callq	rattle_dealloc@PLT
322:
	cmpq	$0, 104(%rsp)
	je	326f
	movq	208(%rsp), %r14
	jmp	324f
	.p2align	4
323:
	addq	$96, %r14
	decq	104(%rsp)
	je	326f
324:
	movzbl	48(%r14), %ebp
	movq	56(%r14), %rbx
	movq	72(%r14), %r15
	cmpb	$0, (%r14)
	je	325f
	cmpq	$0, 24(%r14)
	je	325f
	movq	8(%r14), %rdi
	callq	rattle_dealloc@PLT
325:
	testb	%bpl, %bpl
	je	323b
	testq	%r15, %r15
	je	323b
	movq	%rbx, %rdi
	callq	rattle_dealloc@PLT
	jmp	323b
326:
	cmpq	$0, 312(%rsp)
	je	327f
	movq	208(%rsp), %rdi
	callq	rattle_dealloc@PLT
327:
	cmpq	$0, 168(%rsp)
	je	328f
	movq	248(%rsp), %rdi
	callq	rattle_dealloc@PLT
328:
	movq	528(%rsp), %rax
	testq	%rax, %rax
	je	332f
	movq	288(%rsp), %r14
	jmp	330f
	.p2align	4
329:
	addq	$96, %r14
	decq	%rax
	je	332f
330:
	movzbl	48(%r14), %ebp
	movq	56(%r14), %rbx
	movq	72(%r14), %r15
	cmpb	$0, (%r14)
	je	331f
	cmpq	$0, 24(%r14)
	je	331f
	movq	8(%r14), %rdi
	movq	%rax, %r12
	callq	rattle_dealloc@PLT
	movq	%r12, %rax
331:
	testb	%bpl, %bpl
	je	329b
	testq	%r15, %r15
	je	329b
	movq	%rbx, %rdi
	movq	%rax, %rbx
	callq	rattle_dealloc@PLT
	movq	%rbx, %rax
	jmp	329b
332:
	cmpq	$0, 536(%rsp)
	je	333f
	movq	288(%rsp), %rdi
	callq	rattle_dealloc@PLT
333:
	cmpq	$0, 176(%rsp)
	je	334f
	movq	256(%rsp), %rdi
	callq	rattle_dealloc@PLT
334:
	movq	112(%rsp), %rax
	testq	%rax, %rax
	je	337f
	movq	48(%rsp), %rbx
	jmp	336f
	.p2align	4
335:
	addq	$48, %rbx
	decq	%rax
	je	337f
336:
	cmpb	$0, (%rbx)
	je	335b
	cmpq	$0, 24(%rbx)
	je	335b
	movq	8(%rbx), %rdi
	movq	%rax, %r14
	callq	rattle_dealloc@PLT
	movq	%r14, %rax
	jmp	335b
337:
	cmpq	$0, 184(%rsp)
	je	338f
	movq	48(%rsp), %rdi
	callq	rattle_dealloc@PLT
338:
	cmpq	$0, 32(%rsp)
	movq	40(%rsp), %rcx
	je	341f
	movq	64(%rsp), %rbx
	jmp	340f
	.p2align	4
339:
	addq	$48, %rbx
	decq	32(%rsp)
	je	341f
340:
	cmpb	$0, (%rbx)
	je	339b
	cmpq	$0, 24(%rbx)
	je	339b
	movq	8(%rbx), %rdi
	callq	rattle_dealloc@PLT
	movq	40(%rsp), %rcx
	jmp	339b
341:
	cmpq	$0, 192(%rsp)
	je	342f
	movq	64(%rsp), %rdi
	callq	rattle_dealloc@PLT
	movq	40(%rsp), %rcx
342:
	cmpq	$0, 200(%rsp)
	leaq	1(%rcx), %rbx
	je	343f
	movq	144(%rsp), %rdi
	callq	rattle_dealloc@PLT
	movq	40(%rsp), %rcx
343:
	cmpq	$0, 760(%rsp)
	je	344f
	movq	520(%rsp), %rax
	addq	%rcx, %rax
	movq	%rax, 520(%rsp)
	cmpq	%rax, %rbx
	jb	350f
344:
	cmpq	$0, 936(%rsp)
	je	345f
	movq	752(%rsp), %rdi
	callq	rattle_dealloc@PLT
345:
	movq	320(%rsp), %r14
	movq	328(%rsp), %r13
	movq	336(%rsp), %rax
	movq	%rax, 72(%rsp)
	movzbl	344(%rsp), %eax
	movb	%al, 32(%rsp)
	movq	352(%rsp), %rax
	movq	%rax, 56(%rsp)
	testq	%r13, %r13
	je	395f
	leaq	80(%r14), %rbx
	jmp	347f
	.p2align	4
346:
	addq	$104, %rbx
	decq	%r13
	je	395f
347:
	movzbl	-24(%rbx), %r12d
	movq	-16(%rbx), %r15
	movq	(%rbx), %rbp
	cmpb	$0, -72(%rbx)
	je	348f
	cmpq	$0, -48(%rbx)
	je	348f
	movq	-64(%rbx), %rdi
	callq	rattle_dealloc@PLT
348:
	testb	%r12b, %r12b
	je	346b
	testq	%rbp, %rbp
	je	346b
	movq	%r15, %rdi
	callq	rattle_dealloc@PLT
	jmp	346b
	.p2align	4
349:
	incq	%rbx
	cmpq	520(%rsp), %rbx
	je	344b
350:
	movq	%rbx, 136(%rsp)
	imulq	$312, %rbx, %rax
	movq	752(%rsp), %rcx
	movq	(%rcx,%rax), %rdx
	movq	%rdx, 64(%rsp)
	movq	8(%rcx,%rax), %r15
	movq	16(%rcx,%rax), %rdx
	movq	%rdx, 152(%rsp)
	movq	24(%rcx,%rax), %rdx
	movq	%rdx, 528(%rsp)
	movq	32(%rcx,%rax), %rbx
	movq	40(%rcx,%rax), %rdx
	movq	%rdx, 272(%rsp)
	movq	48(%rcx,%rax), %rdx
	movq	%rdx, 144(%rsp)
	movq	64(%rcx,%rax), %rdx
	movq	%rdx, 280(%rsp)
	movq	72(%rcx,%rax), %rdx
	movq	%rdx, 56(%rsp)
	movq	80(%rcx,%rax), %rdx
	movq	%rdx, 96(%rsp)
	movq	88(%rcx,%rax), %rdx
	movq	%rdx, 536(%rsp)
	movq	96(%rcx,%rax), %rdx
	movq	%rdx, 176(%rsp)
	movq	104(%rcx,%rax), %rdx
	movq	%rdx, 160(%rsp)
	movq	112(%rcx,%rax), %rdx
	movq	%rdx, 168(%rsp)
	movq	120(%rcx,%rax), %rdx
	movq	%rdx, 120(%rsp)
	movq	128(%rcx,%rax), %rdx
	movq	%rdx, 72(%rsp)
	movq	136(%rcx,%rax), %rdx
	movq	%rdx, 184(%rsp)
	movq	144(%rcx,%rax), %rdx
	movq	%rdx, 304(%rsp)
	movq	160(%rcx,%rax), %rdx
	movq	%rdx, 192(%rsp)
	movq	168(%rcx,%rax), %rdx
	movq	%rdx, 40(%rsp)
	movq	176(%rcx,%rax), %rdx
	movq	%rdx, 32(%rsp)
	movq	184(%rcx,%rax), %rdx
	movq	%rdx, 760(%rsp)
	movq	192(%rcx,%rax), %rdx
	movq	%rdx, 312(%rsp)
	movq	208(%rcx,%rax), %rdx
	movq	%rdx, 200(%rsp)
	movq	216(%rcx,%rax), %rdx
	movq	%rdx, 104(%rsp)
	movq	224(%rcx,%rax), %rdx
	movq	%rdx, 288(%rsp)
	movq	232(%rcx,%rax), %rdx
	movq	%rdx, 208(%rsp)
	movq	240(%rcx,%rax), %rdx
	movq	%rdx, 216(%rsp)
	movq	256(%rcx,%rax), %rdx
	movq	%rdx, 80(%rsp)
	movq	264(%rcx,%rax), %rdx
	movq	%rdx, 128(%rsp)
	movq	272(%rcx,%rax), %rdx
	movq	%rdx, 88(%rsp)
	movq	280(%rcx,%rax), %rdx
	movq	%rdx, 112(%rsp)
	movq	288(%rcx,%rax), %rdx
	movq	%rdx, 224(%rsp)
	movq	304(%rcx,%rax), %rax
	movq	%rax, 48(%rsp)
	testq	%r15, %r15
	je	354f
	movq	64(%rsp), %rax
	leaq	80(%rax), %rbp
	jmp	352f
	.p2align	4
351:
	addq	$104, %rbp
	decq	%r15
	je	354f
352:
	movzbl	-24(%rbp), %r14d
	movq	-16(%rbp), %r12
	movq	(%rbp), %r13
	cmpb	$0, -72(%rbp)
	je	353f
	cmpq	$0, -48(%rbp)
	je	353f
	movq	-64(%rbp), %rdi
	callq	rattle_dealloc@PLT
353:
	testb	%r14b, %r14b
	je	351b
	testq	%r13, %r13
	je	351b
	movq	%r12, %rdi
	callq	rattle_dealloc@PLT
	jmp	351b
	.p2align	4
354:
	cmpq	$0, 152(%rsp)
	je	355f
	movq	64(%rsp), %rdi
	callq	rattle_dealloc@PLT
355:
	testq	%rbx, %rbx
	movq	176(%rsp), %r14
	movq	528(%rsp), %r12
	je	358f
	movq	%r12, %r15
	jmp	357f
	.p2align	4
356:
	addq	$48, %r15
	decq	%rbx
	je	358f
357:
	cmpb	$0, (%r15)
	je	356b
	cmpq	$0, 24(%r15)
	je	356b
	movq	8(%r15), %rdi
	callq	rattle_dealloc@PLT
	jmp	356b
	.p2align	4
358:
	cmpq	$0, 272(%rsp)
	je	359f
	movq	%r12, %rdi
	callq	rattle_dealloc@PLT
359:
	cmpq	$0, 280(%rsp)
	movq	56(%rsp), %rbx
	je	360f
	movq	144(%rsp), %rdi
	callq	rattle_dealloc@PLT
360:
	cmpq	$0, 96(%rsp)
	je	366f
	xorl	%r15d, %r15d
	jmp	362f
	.p2align	4
361:
	incq	%r15
	cmpq	96(%rsp), %r15
	movq	56(%rsp), %rbx
	je	366f
362:
	movq	%r15, %rax
	shlq	$4, %rax
	leaq	(%rax,%rax,4), %rax
	movq	56(%rbx,%rax), %r13
	movq	64(%rbx,%rax), %rbp
	movq	72(%rbx,%rax), %r12
	cmpb	$0, 8(%rbx,%rax)
	je	363f
	cmpq	$0, 32(%rbx,%rax)
	je	363f
	movq	16(%rbx,%rax), %rdi
	callq	rattle_dealloc@PLT
363:
	testq	%rbp, %rbp
	je	365f
	movq	%r13, %rbx
	.p2align	4
364:
	movups	80(%rbx), %xmm0
	movaps	%xmm0, 656(%rsp)
	movups	64(%rbx), %xmm0
	movaps	%xmm0, 640(%rsp)
	movdqu	(%rbx), %xmm0
	movdqu	16(%rbx), %xmm1
	movdqu	32(%rbx), %xmm2
	movdqu	48(%rbx), %xmm3
	movdqa	%xmm3, 624(%rsp)
	movdqa	%xmm2, 608(%rsp)
	movdqa	%xmm1, 592(%rsp)
	movdqa	%xmm0, 576(%rsp)
	leaq	576(%rsp), %rdi
	callq	"mime_text::mime_base++magic++matchlet++Matchlet+Destruct::drop"
	addq	$96, %rbx
	decq	%rbp
	jne	364b
365:
	testq	%r12, %r12
	je	361b
	movq	%r13, %rdi
	callq	rattle_dealloc@PLT
	jmp	361b
	.p2align	4
366:
	cmpq	$0, 536(%rsp)
	je	367f
	movq	%rbx, %rdi
	callq	rattle_dealloc@PLT
367:
	movq	160(%rsp), %r15
	testq	%r15, %r15
	movq	88(%rsp), %r12
	movq	288(%rsp), %r13
	je	370f
	movq	%r14, %rbx
	jmp	369f
	.p2align	4
368:
	addq	$48, %rbx
	decq	%r15
	je	370f
369:
	cmpb	$0, (%rbx)
	je	368b
	cmpq	$0, 24(%rbx)
	je	368b
	movq	8(%rbx), %rdi
	callq	rattle_dealloc@PLT
	jmp	368b
	.p2align	4
370:
	cmpq	$0, 168(%rsp)
	je	371f
	movq	%r14, %rdi
	callq	rattle_dealloc@PLT
371:
	cmpq	$0, 72(%rsp)
	je	375f
	movq	120(%rsp), %r14
	jmp	373f
	.p2align	4
372:
	addq	$96, %r14
	decq	72(%rsp)
	je	375f
373:
	movzbl	48(%r14), %ebp
	movq	56(%r14), %rbx
	movq	72(%r14), %r15
	cmpb	$0, (%r14)
	je	374f
	cmpq	$0, 24(%r14)
	je	374f
	movq	8(%r14), %rdi
	callq	rattle_dealloc@PLT
374:
	testb	%bpl, %bpl
	je	372b
	testq	%r15, %r15
	je	372b
	movq	%rbx, %rdi
	callq	rattle_dealloc@PLT
	jmp	372b
	.p2align	4
375:
	cmpq	$0, 184(%rsp)
	je	376f
	movq	120(%rsp), %rdi
	callq	rattle_dealloc@PLT
376:
	cmpq	$0, 192(%rsp)
	je	377f
	movq	304(%rsp), %rdi
	callq	rattle_dealloc@PLT
377:
	cmpq	$0, 32(%rsp)
	je	381f
	movq	40(%rsp), %r14
	jmp	379f
	.p2align	4
378:
	addq	$96, %r14
	decq	32(%rsp)
	je	381f
379:
	movzbl	48(%r14), %ebp
	movq	56(%r14), %rbx
	movq	72(%r14), %r15
	cmpb	$0, (%r14)
	je	380f
	cmpq	$0, 24(%r14)
	je	380f
	movq	8(%r14), %rdi
	callq	rattle_dealloc@PLT
380:
	testb	%bpl, %bpl
	je	378b
	testq	%r15, %r15
	je	378b
	movq	%rbx, %rdi
	callq	rattle_dealloc@PLT
	jmp	378b
	.p2align	4
381:
	cmpq	$0, 760(%rsp)
	je	382f
	movq	40(%rsp), %rdi
	callq	rattle_dealloc@PLT
382:
	cmpq	$0, 200(%rsp)
	je	383f
	movq	312(%rsp), %rdi
	callq	rattle_dealloc@PLT
383:
	testq	%r13, %r13
	je	387f
	movq	104(%rsp), %r14
	jmp	385f
	.p2align	4
384:
	addq	$96, %r14
	decq	%r13
	je	387f
385:
	movzbl	48(%r14), %ebp
	movq	56(%r14), %rbx
	movq	72(%r14), %r15
	cmpb	$0, (%r14)
	je	386f
	cmpq	$0, 24(%r14)
	je	386f
	movq	8(%r14), %rdi
	callq	rattle_dealloc@PLT
386:
	testb	%bpl, %bpl
	je	384b
	testq	%r15, %r15
	je	384b
	movq	%rbx, %rdi
	callq	rattle_dealloc@PLT
	jmp	384b
	.p2align	4
387:
	cmpq	$0, 208(%rsp)
	je	388f
	movq	104(%rsp), %rdi
	callq	rattle_dealloc@PLT
388:
	cmpq	$0, 80(%rsp)
	je	389f
	movq	216(%rsp), %rdi
	callq	rattle_dealloc@PLT
389:
	testq	%r12, %r12
	je	393f
	movq	128(%rsp), %r14
	jmp	391f
	.p2align	4
390:
	addq	$96, %r14
	decq	%r12
	je	393f
391:
	movzbl	48(%r14), %ebp
	movq	56(%r14), %rbx
	movq	72(%r14), %r15
	cmpb	$0, (%r14)
	je	392f
	cmpq	$0, 24(%r14)
	je	392f
	movq	8(%r14), %rdi
	callq	rattle_dealloc@PLT
392:
	testb	%bpl, %bpl
	je	390b
	testq	%r15, %r15
	je	390b
	movq	%rbx, %rdi
	callq	rattle_dealloc@PLT
	jmp	390b
	.p2align	4
393:
	cmpq	$0, 112(%rsp)
	je	394f
	movq	128(%rsp), %rdi
	callq	rattle_dealloc@PLT
394:
	cmpq	$0, 48(%rsp)
	movq	136(%rsp), %rbx
	je	349b
	movq	224(%rsp), %rdi
	callq	rattle_dealloc@PLT
	jmp	349b
395:
	cmpq	$0, 72(%rsp)
	je	396f
	movq	%r14, %rdi
	callq	rattle_dealloc@PLT
396:
	cmpb	$1, 32(%rsp)
	jne	397f
	movq	56(%rsp), %rdi
	callq	"std_collections::btree::node::Node::destroy::<#6f699a0b3f3d5921>"
397:
	movq	368(%rsp), %r14
	movq	376(%rsp), %rcx
	movq	384(%rsp), %rax
	movq	%rax, 56(%rsp)
	movzbl	392(%rsp), %eax
	movb	%al, 72(%rsp)
	movq	400(%rsp), %rax
	movq	%rax, 96(%rsp)
	movq	%rcx, 32(%rsp)
	testq	%rcx, %rcx
	je	403f
	xorl	%ebx, %ebx
	jmp	399f
	.p2align	4
398:
	incq	%rbx
	cmpq	32(%rsp), %rbx
	je	403f
399:
	movq	%rbx, %rax
	shlq	$4, %rax
	leaq	(%rax,%rax,4), %rax
	movq	56(%r14,%rax), %r13
	movq	64(%r14,%rax), %r12
	movq	72(%r14,%rax), %rbp
	cmpb	$0, 8(%r14,%rax)
	je	400f
	cmpq	$0, 32(%r14,%rax)
	je	400f
	movq	16(%r14,%rax), %rdi
	callq	rattle_dealloc@PLT
400:
	testq	%r12, %r12
	je	402f
	movq	%r13, %r15
	.p2align	4
401:
	movups	80(%r15), %xmm0
	movaps	%xmm0, 656(%rsp)
	movups	64(%r15), %xmm0
	movaps	%xmm0, 640(%rsp)
	movdqu	(%r15), %xmm0
	movdqu	16(%r15), %xmm1
	movdqu	32(%r15), %xmm2
	movdqu	48(%r15), %xmm3
	movdqa	%xmm3, 624(%rsp)
	movdqa	%xmm2, 608(%rsp)
	movdqa	%xmm1, 592(%rsp)
	movdqa	%xmm0, 576(%rsp)
	leaq	576(%rsp), %rdi
	callq	"mime_text::mime_base++magic++matchlet++Matchlet+Destruct::drop"
	addq	$96, %r15
	decq	%r12
	jne	401b
402:
	testq	%rbp, %rbp
	je	398b
	movq	%r13, %rdi
	callq	rattle_dealloc@PLT
	jmp	398b
403:
	cmpq	$0, 56(%rsp)
	je	404f
	movq	%r14, %rdi
	callq	rattle_dealloc@PLT
404:
	cmpb	$1, 72(%rsp)
	jne	405f
	movq	96(%rsp), %rdi
	callq	"std_collections::btree::node::Node::destroy::<#6f699a0b3f3d5921>"
405:
	movq	416(%rsp), %rbx
	movq	424(%rsp), %r12
	movq	432(%rsp), %rax
	movq	%rax, 32(%rsp)
	testq	%r12, %r12
	je	409f
	movq	%rbx, %r13
	jmp	407f
	.p2align	4
406:
	addq	$96, %r13
	decq	%r12
	je	409f
407:
	movzbl	48(%r13), %r15d
	movq	56(%r13), %r14
	movq	72(%r13), %rbp
	cmpb	$0, (%r13)
	je	408f
	cmpq	$0, 24(%r13)
	je	408f
	movq	8(%r13), %rdi
	callq	rattle_dealloc@PLT
408:
	testb	%r15b, %r15b
	je	406b
	testq	%rbp, %rbp
	je	406b
	movq	%r14, %rdi
	callq	rattle_dealloc@PLT
	jmp	406b
409:
	cmpq	$0, 32(%rsp)
	je	410f
	movq	%rbx, %rdi
	callq	rattle_dealloc@PLT
410:
	movq	440(%rsp), %rbx
	movq	448(%rsp), %r12
	movq	456(%rsp), %rax
	movq	%rax, 32(%rsp)
	testq	%r12, %r12
	je	414f
	movq	%rbx, %r13
	jmp	412f
	.p2align	4
411:
	addq	$96, %r13
	decq	%r12
	je	414f
412:
	movzbl	48(%r13), %r15d
	movq	56(%r13), %r14
	movq	72(%r13), %rbp
	cmpb	$0, (%r13)
	je	413f
	cmpq	$0, 24(%r13)
	je	413f
	movq	8(%r13), %rdi
	callq	rattle_dealloc@PLT
413:
	testb	%r15b, %r15b
	je	411b
	testq	%rbp, %rbp
	je	411b
	movq	%r14, %rdi
	callq	rattle_dealloc@PLT
	jmp	411b
414:
	cmpq	$0, 32(%rsp)
	je	415f
	movq	%rbx, %rdi
	callq	rattle_dealloc@PLT
415:
	movq	464(%rsp), %rbx
	movq	472(%rsp), %r12
	movq	480(%rsp), %rax
	movq	%rax, 32(%rsp)
	testq	%r12, %r12
	je	419f
	movq	%rbx, %r13
	jmp	417f
	.p2align	4
416:
	addq	$96, %r13
	decq	%r12
	je	419f
417:
	movzbl	48(%r13), %r15d
	movq	56(%r13), %r14
	movq	72(%r13), %rbp
	cmpb	$0, (%r13)
	je	418f
	cmpq	$0, 24(%r13)
	je	418f
	movq	8(%r13), %rdi
	callq	rattle_dealloc@PLT
418:
	testb	%r15b, %r15b
	je	416b
	testq	%rbp, %rbp
	je	416b
	movq	%r14, %rdi
	callq	rattle_dealloc@PLT
	jmp	416b
419:
	cmpq	$0, 32(%rsp)
	je	420f
	movq	%rbx, %rdi
	callq	rattle_dealloc@PLT
420:
	movq	488(%rsp), %rbx
	movq	496(%rsp), %r12
	movq	504(%rsp), %rax
	movq	%rax, 32(%rsp)
	testq	%r12, %r12
	je	424f
	movq	%rbx, %r13
	jmp	422f
	.p2align	4
421:
	addq	$96, %r13
	decq	%r12
	je	424f
422:
	movzbl	48(%r13), %r15d
	movq	56(%r13), %r14
	movq	72(%r13), %rbp
	cmpb	$0, (%r13)
	je	423f
	cmpq	$0, 24(%r13)
	je	423f
	movq	8(%r13), %rdi
	callq	rattle_dealloc@PLT
423:
	testb	%r15b, %r15b
	je	421b
	testq	%rbp, %rbp
	je	421b
	movq	%r14, %rdi
	callq	rattle_dealloc@PLT
	jmp	421b
424:
	cmpq	$0, 32(%rsp)
	je	425f
	movq	%rbx, %rdi
	callq	rattle_dealloc@PLT
425:
	movq	264(%rsp), %rax
	movb	$1, (%rax)
	pxor	%xmm0, %xmm0
	movdqu	%xmm0, 8(%rax)
	movdqu	%xmm0, 24(%rax)
	movdqu	%xmm0, 40(%rax)
	movdqu	%xmm0, 56(%rax)
	movdqu	%xmm0, 72(%rax)
	movdqu	%xmm0, 88(%rax)
	movdqu	%xmm0, 104(%rax)
	movdqu	%xmm0, 120(%rax)
	movdqu	%xmm0, 136(%rax)
426:
	addq	$1608, %rsp
	popq	%rbx
	popq	%r12
	popq	%r13
	popq	%r14
	popq	%r15
	popq	%rbp
	retq
427:
	pxor	%xmm0, %xmm0
	movdqa	%xmm0, 336(%rsp)
	movdqa	%xmm0, 320(%rsp)
	movq	$0, 352(%rsp)
	movl	$64, %r15d
	cmpq	$4097, %rbp
	jb	429f
	movabsq	$4294967296, %rdx
	xorl	%ecx, %ecx
	movq	32(%rsp), %r8
428:
	movq	%rcx, %rsi
	addq	%rdx, %rcx
	shrq	%rcx
	movq	%rcx, %rdi
	imulq	%rcx, %rdi
	cmpq	%r8, %rdi
	cmovaq	%rcx, %rdx
	cmovaq	%rsi, %rcx
	leaq	1(%rcx), %rsi
	cmpq	%rdx, %rsi
	jb	428b
	cmpq	$65, %rcx
	movl	$64, %r15d
	cmovaeq	%rcx, %r15
429:
	cmpq	%r15, %rax
	cmovbq	%rax, %r15
	movabsq	$4611686018427387904, %rax
	xorl	%edx, %edx
	divq	32(%rsp)
	movq	%rax, %rbp
	incq	%rbp
	cmpq	%r15, %r14
	setae	%al
	movq	%r15, %r8
	cmovaq	%r14, %r8
	cmpl	%ebx, %r12d
	jae	430f
	movq	%r9, %rbx
	cmpq	%r15, %r14
	jb	431f
	movq	%r13, %rdi
	movq	%r14, %rsi
	callq	"core::slice::edits::slice+T::reverse::<25'mime_base::magic::Section>"
	movb	$1, %al
	movq	%r14, %r8
	jmp	431f
430:
	movq	%r9, %rbx
431:
	leaq	784(%rsp), %rcx
	movq	%rcx, 24(%rsp)
	movq	%rbp, 16(%rsp)
	movq	%r15, 8(%rsp)
	movl	$0, (%rsp)
	movzbl	%al, %r9d
	leaq	320(%rsp), %rdi
	movq	%r13, %rsi
	movq	32(%rsp), %rdx
	xorl	%ecx, %ecx
	callq	"core::slice::sort::runs::climb::<#54047240e3f04dbb>"
	testb	$1, 328(%rsp)
	jne	432f
	movq	320(%rsp), %rdx
	movl	$127, %eax
	bsrq	%rdx, %rax
	xorl	$63, %eax
	addl	%eax, %eax
	movl	$126, %ecx
	subl	%eax, %ecx
	leaq	784(%rsp), %r8
	movq	%r13, %rdi
	movq	%rdx, %rsi
	callq	"core::slice::sort::stable::quicksort::<#54047240e3f04dbb>"
432:
	movq	32(%rsp), %rbp
433:
	movq	%rbx, %rdi
	callq	rattle_dealloc@PLT
	jmp	82b
434:
	.size	"mime_text::merging::merge", 434b-"mime_text::merging::merge"

	.text
	.p2align	4
	.type	"mime_text::merging::types::Types::add",@function
"mime_text::merging::types::Types::add":
	pushq	%rbp
	pushq	%r15
	pushq	%r14
	pushq	%r13
	pushq	%r12
	pushq	%rbx
	subq	$376, %rsp
	movq	%rdi, %r14
	cmpb	$0, (%rsi)
	je	3f
	movq	8(%rsi), %r12
	addq	$16, %rsi
	movq	(%rsi), %rbx
	testq	%rbx, %rbx
	je	4f
1:
	movb	$1, %r13b
	js	33f
	movl	$1, %esi
	movq	%rbx, %rdi
	callq	rattle_alloc@PLT
	testb	$1, %al
	je	33f
	movq	%rdx, %r15
	movq	%r15, %rcx
	subq	%r12, %rcx
	cmpq	%rbx, %rcx
	jb	5f
2:
	movq	%r15, %rdi
	movq	%r12, %rsi
	movq	%rbx, %rdx
	callq	memmove@PLT
	jmp	14f
3:
	leaq	8(%rsi), %r12
	addq	$40, %rsi
	movq	(%rsi), %rbx
	testq	%rbx, %rbx
	jne	1b
4:
	leaq	31(%rsp), %r15
	movq	%r15, %rcx
	subq	%r12, %rcx
	cmpq	%rbx, %rcx
	jae	2b
5:
	xorl	%eax, %eax
	cmpq	$4, %rbx
	jb	10f
	cmpq	$32, %rcx
	jb	10f
	cmpq	$32, %rbx
	jae	6f
	xorl	%eax, %eax
	jmp	8f
6:
	movq	%rbx, %rax
	andq	$-32, %rax
	xorl	%ecx, %ecx
	.p2align	4
7:
	movdqu	(%r12,%rcx), %xmm0
	movdqu	16(%r12,%rcx), %xmm1
	movdqu	%xmm0, (%r15,%rcx)
	movdqu	%xmm1, 16(%r15,%rcx)
	addq	$32, %rcx
	cmpq	%rcx, %rax
	jne	7b
	cmpq	%rax, %rbx
	je	14f
	testb	$28, %bl
	je	10f
8:
	movq	%rax, %rcx
	movq	%rbx, %rax
	andq	$-4, %rax
	.p2align	4
9:
	movl	(%r12,%rcx), %edx
	movl	%edx, (%r15,%rcx)
	addq	$4, %rcx
	cmpq	%rcx, %rax
	jne	9b
	cmpq	%rax, %rbx
	je	14f
10:
	movq	%rbx, %rdx
	movq	%rax, %rcx
	andq	$3, %rdx
	je	12f
	movq	%rax, %rcx
	.p2align	4
11:
	movzbl	(%r12,%rcx), %esi
	movb	%sil, (%r15,%rcx)
	incq	%rcx
	decq	%rdx
	jne	11b
12:
	subq	%rbx, %rax
	cmpq	$-4, %rax
	ja	14f
	.p2align	4
13:
	movzbl	(%r12,%rcx), %eax
	movb	%al, (%r15,%rcx)
	movzbl	1(%r12,%rcx), %eax
	movb	%al, 1(%r15,%rcx)
	movzbl	2(%r12,%rcx), %eax
	movb	%al, 2(%r15,%rcx)
	movzbl	3(%r12,%rcx), %eax
	movb	%al, 3(%r15,%rcx)
	addq	$4, %rcx
	cmpq	%rcx, %rbx
	jne	13b
14:
	cmpb	$1, (%r14)
	jne	15f
	movq	8(%r14), %rdx
	jmp	16f
15:
	movl	$368, %edi
	movl	$8, %esi
	callq	rattle_alloc@PLT
	testb	$1, %al
	je	32f
	movl	$0, (%rdx)
	movzbl	(%r14), %eax
	movq	$1, (%r14)
	movq	%rdx, 8(%r14)
	cmpb	$1, %al
	je	69f
16:
	movq	%r14, 72(%rsp)
	leaq	8(%r14), %rax
	movq	%rax, 8(%rsp)
	movzwl	2(%rdx), %eax
	movl	$15, %ebp
	subq	%rax, %rbp
	movq	%rax, 40(%rsp)
	movl	%eax, %r13d
	negb	%r13b
	xorl	%r8d, %r8d
	movq	%rdx, %rdi
	movq	$0, 16(%rsp)
	movq	%rdx, 64(%rsp)
	movq	%rdx, (%rsp)
	movq	%rbp, 32(%rsp)
	xorl	%esi, %esi
	movq	%rdi, %rcx
	movzwl	(%rdi), %edi
	testq	%rdi, %rdi
	je	27f
17:
	movq	%r8, %rdx
	xorl	%eax, %eax
	.p2align	4
18:
	leaq	(%rax,%rax,2), %r8
	movq	8(%rcx,%r8,8), %r9
	movq	16(%rcx,%r8,8), %r8
	cmpq	%rbx, %r8
	movq	%rbx, %r14
	cmovbq	%r8, %r14
	xorl	%r11d, %r11d
	cmpq	$64, %r14
	jb	20f
	movq	%r14, %r10
	.p2align	4
19:
	movdqu	(%r15,%r11), %xmm0
	movdqu	16(%r15,%r11), %xmm1
	movdqu	32(%r15,%r11), %xmm2
	movdqu	48(%r15,%r11), %xmm3
	movdqu	(%r9,%r11), %xmm4
	pcmpeqb	%xmm0, %xmm4
	movdqu	16(%r9,%r11), %xmm0
	pcmpeqb	%xmm1, %xmm0
	movdqu	32(%r9,%r11), %xmm1
	pcmpeqb	%xmm2, %xmm1
	pand	%xmm4, %xmm1
	movdqu	48(%r9,%r11), %xmm2
	pcmpeqb	%xmm3, %xmm2
	pand	%xmm0, %xmm2
	pand	%xmm1, %xmm2
	pmovmskb	%xmm2, %r12d
	cmpl	$65535, %r12d
	jne	20f
	addq	$64, %r11
	addq	$-64, %r10
	cmpq	$63, %r10
	ja	19b
20:
	movq	%r14, %r10
	subq	%r11, %r10
	cmpq	$8, %r10
	jb	22f
	.p2align	4
21:
	movq	(%r15,%r11), %r12
	cmpq	(%r9,%r11), %r12
	jne	22f
	addq	$8, %r11
	addq	$-8, %r10
	cmpq	$7, %r10
	ja	21b
22:
	cmpq	%r14, %r11
	jae	24f
	.p2align	4
23:
	movzbl	(%r9,%r11), %r10d
	cmpb	%r10b, (%r15,%r11)
	jne	25f
	incq	%r11
	cmpq	%r11, %r14
	jne	23b
24:
	cmpq	%r8, %rbx
	je	29f
25:
	jb	26f
	incq	%rax
	cmpq	%rdi, %rax
	jne	18b
	movq	%rdi, %rax
26:
	movq	%rdx, %r8
	jmp	28f
	.p2align	4
27:
	xorl	%eax, %eax
28:
	shlq	$4, %rsi
	addq	%rax, %rsi
	incq	%rbp
	cmpw	$0, 2(%rcx)
	je	31f
	movq	368(%rcx,%rax,8), %rdi
	incq	%r8
	incb	%r13b
	movq	%rax, 16(%rsp)
	movq	%rcx, (%rsp)
	movq	%rdi, %rcx
	movzwl	(%rdi), %edi
	testq	%rdi, %rdi
	jne	17b
	jmp	27b
29:
	andl	$15, %eax
	movq	40(%rsp), %rcx
	addq	%rbp, %rcx
	cmpq	$15, %rcx
	movq	(%rsp), %rcx
	movq	16(%rsp), %rdx
	leaq	368(%rcx,%rdx,8), %rcx
	cmoveq	8(%rsp), %rcx
	movq	(%rcx), %rcx
	movzwl	(%rcx), %ecx
	cmpl	%ecx, %eax
	jae	69f
	testq	%rbx, %rbx
	je	30f
	movq	%r15, %rdi
	callq	rattle_dealloc@PLT
30:
	xorl	%r13d, %r13d
	jmp	33f
31:
	movabsq	$9223372036854775806, %rax
	movq	72(%rsp), %rcx
	cmpq	%rax, 16(%rcx)
	jbe	34f
32:
	movb	$1, %r13b
	testq	%rbx, %rbx
	je	33f
	movq	%r15, %rdi
	callq	rattle_dealloc@PLT
33:
	movl	%r13d, %eax
	addq	$376, %rsp
	popq	%rbx
	popq	%r12
	popq	%r13
	popq	%r14
	popq	%r15
	popq	%rbp
	retq
34:
	movq	%rbp, %rcx
	movq	32(%rsp), %r9
	subq	%r9, %rcx
	cmpq	$1, %rcx
	movq	(%rsp), %rax
	movq	16(%rsp), %rdi
	leaq	368(%rax,%rdi,8), %rax
	cmoveq	8(%rsp), %rax
	movq	(%rax), %rax
	cmpw	$14, (%rax)
	ja	35f
	shlq	$3, %rdi
	movq	72(%rsp), %r12
	jmp	66f
35:
	movq	64(%rsp), %rdx
	cmpw	$15, (%rdx)
	movq	%r9, %rax
	movq	%r9, %rdi
	jae	63f
36:
	pxor	%xmm0, %xmm0
	movdqa	%xmm0, 48(%rsp)
	movq	%rbp, %rcx
	subq	%rax, %rcx
	movq	%rcx, 192(%rsp)
	jbe	40f
	movl	%ebp, %ecx
	subl	%eax, %ecx
	addq	%rdi, %r8
	subq	%rax, %r8
	testb	$3, %cl
	je	38f
	subb	%al, %r13b
	movzbl	%r13b, %ecx
	andl	$3, %ecx
37:
	movl	%esi, %edi
	andb	$15, %dil
	movb	%dil, 47(%rsp,%rbp)
	decq	%rbp
	shrq	$4, %rsi
	decq	%rcx
	jne	37b
38:
	cmpq	$3, %r8
	jb	40f
39:
	movl	%esi, %ecx
	andb	$15, %cl
	movb	%cl, 47(%rsp,%rbp)
	movl	%esi, %ecx
	shrb	$4, %cl
	movb	%cl, 46(%rsp,%rbp)
	movl	%esi, %ecx
	shrl	$8, %ecx
	andb	$15, %cl
	movb	%cl, 45(%rsp,%rbp)
	movl	%esi, %ecx
	shrl	$12, %ecx
	andb	$15, %cl
	movb	%cl, 44(%rsp,%rbp)
	addq	$-4, %rbp
	shrq	$16, %rsi
	cmpq	%rbp, %rax
	jb	39b
40:
	movl	$16, %r12d
	subq	%rax, %r12
	cmpq	$2, %r12
	jb	65f
	leaq	(%rsp,%rax), %r8
	addq	$48, %r8
	movq	8(%rsp), %rsi
	jmp	44f
41:
	movq	200(%rsp), %rcx
	incl	%ecx
	movb	%cl, (%r8)
	addb	$-8, %al
	movb	%al, 1(%r8)
42:
	movq	32(%rsp), %r12
43:
	movzbl	%cl, %ecx
	leaq	(%rdx,%rcx,8), %rsi
	addq	$368, %rsi
	incq	%r8
	cmpq	$2, %r12
	leaq	-1(%r12), %r12
	jbe	64f
44:
	movzbl	(%r8), %edi
	movl	%edi, %ecx
	movq	(%rsi), %rdx
	movq	368(%rdx,%rdi,8), %rax
	cmpw	$15, (%rax)
	jb	43b
	movq	%r8, 40(%rsp)
	movq	%rdi, 16(%rsp)
	movq	%rsi, (%rsp)
	movq	%rcx, 200(%rsp)
	movzwl	2(%rdx), %r14d
	decq	%r14
	je	45f
	movl	$496, %edi
	jmp	46f
45:
	movl	$368, %edi
46:
	movl	$8, %esi
	callq	rattle_alloc@PLT
	testb	$1, %al
	je	67f
	movq	%rdx, %r13
	movw	%r14w, 2(%rdx)
	leaq	8(%rdx), %rdi
	movq	(%rsp), %rax
	movq	(%rax), %rax
	pxor	%xmm0, %xmm0
	movdqa	%xmm0, 288(%rsp)
	movq	$0, 304(%rsp)
	movzwl	(%rax), %edx
	xorl	%ecx, %ecx
	xorl	%esi, %esi
	cmpw	$0, 2(%rax)
	leaq	1(%rdx), %r8
	setne	%sil
	cmoveq	%rcx, %r8
	shll	$4, %esi
	leaq	368(%rax), %r10
	leaq	8(%rax), %r9
	movq	%r9, 208(%rsp)
	movq	%rdx, 216(%rsp)
	movq	$15, 224(%rsp)
	movq	%r10, 232(%rsp)
	movq	%rdx, 240(%rsp)
	movq	$15, 248(%rsp)
	movq	%r10, 64(%rsp)
	movq	%r10, 256(%rsp)
	movq	%r8, 264(%rsp)
	movq	%rsi, 272(%rsp)
	movq	%rax, 280(%rsp)
	movdqa	%xmm0, 160(%rsp)
	movq	$0, 176(%rsp)
	movq	16(%rsp), %rdx
	movq	368(%rax,%rdx,8), %rax
	movdqa	%xmm0, 352(%rsp)
	movq	$0, 368(%rsp)
	movzwl	2(%rax), %r14d
	movzwl	(%rax), %r8d
	leaq	1(%r8), %rdx
	xorl	%esi, %esi
	testw	%r14w, %r14w
	setne	%sil
	cmoveq	%rcx, %rdx
	shll	$4, %esi
	leaq	368(%rax), %rcx
	leaq	8(%rax), %r9
	movq	%r9, 80(%rsp)
	movq	$15, 96(%rsp)
	movq	%rcx, 104(%rsp)
	movq	$15, 120(%rsp)
	movq	%rcx, 128(%rsp)
	movq	%rdx, 136(%rsp)
	movq	%rsi, 144(%rsp)
	movq	%rax, 152(%rsp)
	leaq	-8(%r8), %r9
	leaq	200(%rax), %rsi
	leaq	-64(,%r8,8), %rcx
	leaq	(%rcx,%rcx,2), %rdx
	movq	%rdi, %rcx
	subq	%rsi, %rcx
	cmpq	%rdx, %rcx
	jae	47f
	movq	%r9, %rbp
	testq	%r9, %r9
	je	52f
	movl	%r8d, %ecx
	andl	$7, %ecx
	addl	$-9, %r8d
	cmpw	$7, %r8w
	jae	48f
	xorl	%edx, %edx
	jmp	50f
47:
	movq	%r9, %rbp
	callq	memmove@PLT
	jmp	52f
48:
	movq	%rbp, %r8
	andq	$-8, %r8
	xorl	%edx, %edx
	xorl	%r9d, %r9d
	.p2align	4
49:
	movups	(%rsi,%r9), %xmm0
	movq	16(%rsi,%r9), %r10
	movq	%r10, 16(%rdi,%r9)
	movups	%xmm0, (%rdi,%r9)
	movups	24(%rsi,%r9), %xmm0
	movq	40(%rsi,%r9), %r10
	movq	%r10, 40(%rdi,%r9)
	movups	%xmm0, 24(%rdi,%r9)
	movups	48(%rsi,%r9), %xmm0
	movq	64(%rsi,%r9), %r10
	movq	%r10, 64(%rdi,%r9)
	movups	%xmm0, 48(%rdi,%r9)
	movups	72(%rsi,%r9), %xmm0
	movq	88(%rsi,%r9), %r10
	movq	%r10, 88(%rdi,%r9)
	movups	%xmm0, 72(%rdi,%r9)
	movups	96(%rsi,%r9), %xmm0
	movq	112(%rsi,%r9), %r10
	movq	%r10, 112(%rdi,%r9)
	movups	%xmm0, 96(%rdi,%r9)
	movups	120(%rsi,%r9), %xmm0
	movq	136(%rsi,%r9), %r10
	movq	%r10, 136(%rdi,%r9)
	movups	%xmm0, 120(%rdi,%r9)
	movups	144(%rsi,%r9), %xmm0
	movq	160(%rsi,%r9), %r10
	movq	%r10, 160(%rdi,%r9)
	movups	%xmm0, 144(%rdi,%r9)
	movdqu	168(%rsi,%r9), %xmm0
	movq	184(%rsi,%r9), %r10
	movq	%r10, 184(%rdi,%r9)
	movdqu	%xmm0, 168(%rdi,%r9)
	addq	$8, %rdx
	addq	$192, %r9
	cmpq	%rdx, %r8
	jne	49b
	testq	%rcx, %rcx
	je	52f
50:
	shlq	$3, %rdx
	leaq	(%rdx,%rdx,2), %rdx
	addq	%rdx, %rax
	addq	$200, %rax
	addq	%r13, %rdx
	addq	$8, %rdx
	shll	$3, %ecx
	leaq	(%rcx,%rcx,2), %rcx
	xorl	%esi, %esi
	.p2align	4
51:
	movdqu	(%rax,%rsi), %xmm0
	movq	16(%rax,%rsi), %rdi
	movq	%rdi, 16(%rdx,%rsi)
	movdqu	%xmm0, (%rdx,%rsi)
	addq	$24, %rsi
	cmpq	%rsi, %rcx
	jne	51b
52:
	movq	$8, 88(%rsp)
	movq	$8, 112(%rsp)
	pxor	%xmm0, %xmm0
	movdqa	%xmm0, 320(%rsp)
	movq	$0, 336(%rsp)
	leaq	320(%rsp), %rdi
	leaq	80(%rsp), %rsi
	movl	$7, %edx
	callq	"std_alloc::vec::Vec::remove::<#c1573421a60ec32d>"
	testw	%r14w, %r14w
	je	59f
	leaq	368(%r13), %rdi
	movq	128(%rsp), %rax
	movq	136(%rsp), %r8
	leaq	64(%rax), %rsi
	leaq	-64(,%r8,8), %rdx
	movq	%rdi, %rcx
	subq	%rsi, %rcx
	cmpq	%rdx, %rcx
	jae	58f
	movq	%r8, %rcx
	addq	$-8, %rcx
	je	59f
	cmpq	$4, %rcx
	jb	53f
	movq	%r13, %rdx
	subq	%rax, %rdx
	addq	$304, %rdx
	cmpq	$32, %rdx
	jae	61f
53:
	xorl	%edx, %edx
54:
	movq	%r8, %r10
	movq	%rdx, %r9
	andq	$3, %r10
	je	56f
	movq	%rdx, %r9
55:
	movq	(%rsi,%r9,8), %r11
	movq	%r11, (%rdi,%r9,8)
	incq	%r9
	decq	%r10
	jne	55b
56:
	subq	%rdx, %r8
	addq	$-9, %r8
	cmpq	$3, %r8
	jb	59f
57:
	movq	64(%rax,%r9,8), %rdx
	movq	%rdx, 368(%r13,%r9,8)
	movq	72(%rax,%r9,8), %rdx
	movq	%rdx, 376(%r13,%r9,8)
	movq	80(%rax,%r9,8), %rdx
	movq	%rdx, 384(%r13,%r9,8)
	movq	88(%rax,%r9,8), %rdx
	movq	%rdx, 392(%r13,%r9,8)
	addq	$4, %r9
	cmpq	%r9, %rcx
	jne	57b
	jmp	59f
58:
	callq	memmove@PLT
59:
	movq	%r12, 32(%rsp)
	movzwl	88(%rsp), %eax
	movq	152(%rsp), %rcx
	movw	%ax, (%rcx)
	movw	%bp, (%r13)
	movq	336(%rsp), %rax
	movaps	320(%rsp), %xmm0
	movaps	%xmm0, 160(%rsp)
	movq	%rax, 176(%rsp)
	movq	16(%rsp), %rbp
	movq	64(%rsp), %rax
	movq	%rcx, (%rax,%rbp,8)
	movq	176(%rsp), %rax
	movq	%rax, 304(%rsp)
	movdqa	160(%rsp), %xmm0
	movdqa	%xmm0, 288(%rsp)
	leaq	208(%rsp), %rdi
	leaq	288(%rsp), %rdx
	movq	%rbp, %rsi
	callq	"std_alloc::vec::lodged::Vec+T+Lodged::insert_reserved::<#2262cf5b90b10fda>"
	incq	%rbp
	movq	256(%rsp), %r14
	movq	264(%rsp), %rdx
	leal	(,%rbp,8), %r12d
	subq	%rbp, %rdx
	je	60f
	leaq	(%r14,%r12), %rsi
	leaq	(%r14,%r12), %rdi
	addq	$8, %rdi
	shlq	$3, %rdx
	callq	memmove@PLT
60:
	movq	%r13, (%r14,%r12)
	movzwl	216(%rsp), %eax
	movq	280(%rsp), %rdx
	movw	%ax, (%rdx)
	movq	(%rsp), %rax
	movq	%rdx, (%rax)
	movq	40(%rsp), %r8
	movzbl	1(%r8), %eax
	cmpb	$7, %al
	ja	41b
	movzbl	(%r8), %ecx
	jmp	42b
61:
	movq	%rcx, %rdx
	andq	$-4, %rdx
	xorl	%r9d, %r9d
62:
	movdqu	64(%rax,%r9,8), %xmm0
	movdqu	80(%rax,%r9,8), %xmm1
	movdqu	%xmm0, 368(%r13,%r9,8)
	movdqu	%xmm1, 384(%r13,%r9,8)
	addq	$4, %r9
	cmpq	%r9, %rdx
	jne	62b
	cmpq	%rdx, %rcx
	je	59b
	jmp	54b
63:
	cmpw	$10, 40(%rsp)
	ja	32b
	movl	$496, %edi
	movq	%rsi, %r14
	movl	$8, %esi
	movq	%r8, %r12
	callq	rattle_alloc@PLT
	testb	$1, %al
	je	32b
	movq	%r12, %r8
	movq	%r14, %rsi
	movq	40(%rsp), %rdi
	leal	1(%rdi), %eax
	movw	%ax, 2(%rdx)
	movq	8(%rsp), %rcx
	movq	(%rcx), %rax
	movq	%rax, 368(%rdx)
	movw	$0, (%rdx)
	movq	%rdx, (%rcx)
	movl	$14, %eax
	subq	%rdi, %rax
	movq	32(%rsp), %rdi
	jmp	36b
64:
	movq	%rcx, 16(%rsp)
	movq	%rdx, (%rsp)
	movq	8(%rsp), %rax
	movq	(%rax), %rdx
65:
	movq	%rdx, %rdi
	cmpw	$0, (%rdx)
	je	68f
	movq	72(%rsp), %r12
	cmpb	$1, (%r12)
	movq	192(%rsp), %rcx
	jne	69f
	movzbl	63(%rsp), %esi
	movq	16(%rsp), %rdi
	shlq	$3, %rdi
66:
	movq	(%rsp), %rax
	cmpq	$1, %rcx
	leaq	368(%rax,%rdi), %r14
	cmoveq	8(%rsp), %r14
	andl	$15, %esi
	movq	%r15, 208(%rsp)
	movq	%rbx, 216(%rsp)
	movq	%rbx, 224(%rsp)
	movq	(%r14), %rax
	movzwl	(%rax), %ecx
	leaq	1(%rcx), %rdx
	xorl	%r13d, %r13d
	xorl	%edi, %edi
	cmpw	$0, 2(%rax)
	setne	%dil
	movl	$0, %r8d
	cmovneq	%rdx, %r8
	shll	$4, %edi
	leaq	368(%rax), %rdx
	leaq	8(%rax), %r9
	movq	%r9, 80(%rsp)
	movq	%rcx, 88(%rsp)
	movq	$15, 96(%rsp)
	movq	%rdx, 104(%rsp)
	movq	%rcx, 112(%rsp)
	movq	$15, 120(%rsp)
	movq	%rdx, 128(%rsp)
	movq	%r8, 136(%rsp)
	movq	%rdi, 144(%rsp)
	movq	%rax, 152(%rsp)
	leaq	80(%rsp), %rdi
	leaq	208(%rsp), %rdx
	callq	"std_alloc::vec::lodged::Vec+T+Lodged::insert_reserved::<#2262cf5b90b10fda>"
	movzwl	88(%rsp), %eax
	movq	152(%rsp), %rcx
	movw	%ax, (%rcx)
	movq	%rcx, (%r14)
	incq	16(%r12)
	jmp	33b
67:
	movq	8(%rsp), %rax
	movq	(%rax), %rax
	movq	%rax, %rdi
	cmpw	$0, (%rax)
	jne	32b
68:
	cmpw	$0, 2(%rdi)
	je	32b
	movq	368(%rdi), %r14
	callq	rattle_dealloc@PLT
	movq	8(%rsp), %rax
	movq	%r14, (%rax)
	jmp	32b
69:
	ud2
70:
	.size	"mime_text::merging::types::Types::add", 70b-"mime_text::merging::types::Types::add"

	.text
	.p2align	4
	.type	"mime_text::mime_base++magic++matchlet++Matchlet+Destruct::drop",@function
"mime_text::mime_base++magic++matchlet++Matchlet+Destruct::drop":
	pushq	%rbp
	pushq	%r15
	pushq	%r14
	pushq	%r13
	pushq	%r12
	pushq	%rbx
	subq	$104, %rsp
	movzbl	40(%rdi), %ebp
	movq	48(%rdi), %r14
	movq	64(%rdi), %r13
	movq	72(%rdi), %rbx
	movq	80(%rdi), %r12
	movq	88(%rdi), %r15
	cmpq	$0, 32(%rdi)
	je	1f
	movq	16(%rdi), %rdi
	callq	rattle_dealloc@PLT
1:
	testb	%bpl, %bpl
	je	2f
	testq	%r13, %r13
	je	2f
	movq	%r14, %rdi
	callq	rattle_dealloc@PLT
2:
	testq	%r12, %r12
	je	4f
	movq	%rbx, %r14
	.p2align	4
3:
	movups	80(%r14), %xmm0
	movaps	%xmm0, 80(%rsp)
	movups	64(%r14), %xmm0
	movaps	%xmm0, 64(%rsp)
	movups	(%r14), %xmm0
	movups	16(%r14), %xmm1
	movups	32(%r14), %xmm2
	movups	48(%r14), %xmm3
	movaps	%xmm3, 48(%rsp)
	movaps	%xmm2, 32(%rsp)
	movaps	%xmm1, 16(%rsp)
	movaps	%xmm0, (%rsp)
	movq	%rsp, %rdi
	callq	"mime_text::mime_base++magic++matchlet++Matchlet+Destruct::drop"
	addq	$96, %r14
	decq	%r12
	jne	3b
4:
	testq	%r15, %r15
	je	5f
	movq	%rbx, %rdi
	addq	$104, %rsp
	popq	%rbx
	popq	%r12
	popq	%r13
	popq	%r14
	popq	%r15
	popq	%rbp
	jmp	rattle_dealloc@PLT
5:
	addq	$104, %rsp
	popq	%rbx
	popq	%r12
	popq	%r13
	popq	%r14
	popq	%r15
	popq	%rbp
	retq
6:
	.size	"mime_text::mime_base++magic++matchlet++Matchlet+Destruct::drop", 6b-"mime_text::mime_base++magic++matchlet++Matchlet+Destruct::drop"
