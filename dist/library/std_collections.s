# Made by dist/refresh of what is proved.

	.text
	.p2align	4
	.type	"std_collections::btree::node::Node::destroy::<#541a865a6e83d6a3>",@function
"std_collections::btree::node::Node::destroy::<#541a865a6e83d6a3>":
	pushq	%rbp
	pushq	%r15
	pushq	%r14
	pushq	%r13
	pushq	%r12
	pushq	%rbx
	subq	$24, %rsp
	movq	%rdi, %rbx
	movzwl	(%rdi), %r13d
	leaq	248(%rdi), %r14
	cmpw	$0, 2(%rdi)
	je	32f
	testq	%r13, %r13
	je	31f
	leaq	280(%rbx), %rbp
	leaq	1(%r13), %r15
	jmp	2f
	.p2align	4
1:
	testq	%r13, %r13
	je	31f
2:
	movq	(%rbp), %r12
	decq	%r15
	xorl	%eax, %eax
	cmpq	$257, %r15
	jb	9f
	leaq	336(%rbx), %rcx
	.p2align	4
3:
	xorl	%edx, %edx
	.p2align	4
4:
	movups	-48(%rcx,%rdx,8), %xmm0
	movups	-32(%rcx,%rdx,8), %xmm1
	movups	-16(%rcx,%rdx,8), %xmm2
	movups	(%rcx,%rdx,8), %xmm3
	movups	%xmm0, -56(%rcx,%rdx,8)
	movups	%xmm1, -40(%rcx,%rdx,8)
	movups	%xmm2, -24(%rcx,%rdx,8)
	movups	%xmm3, -8(%rcx,%rdx,8)
	addq	$8, %rdx
	cmpq	$256, %rdx
	jne	4b
	addq	$256, %rax
	movq	%r15, %rdx
	subq	%rax, %rdx
	addq	$2048, %rcx
	cmpq	$256, %rdx
	ja	3b
	cmpq	%rax, %r15
	je	6f
5:
	leaq	(,%rax,8), %rdi
	addq	%rbp, %rdi
	leaq	8(,%rax,8), %rsi
	addq	%rbp, %rsi
	shlq	$3, %rdx
	callq	memmove@PLT
6:
	movq	%r12, %rdi
	callq	"std_collections::btree::node::Node::destroy::<#541a865a6e83d6a3>"
	decq	%r13
	cmpq	$129, %r13
	jb	10f
	xorl	%ecx, %ecx
	leaq	72(%rbx), %rax
	.p2align	4
7:
	xorl	%edx, %edx
	.p2align	4
8:
	movups	-48(%rax,%rdx), %xmm0
	movups	-32(%rax,%rdx), %xmm1
	movups	-16(%rax,%rdx), %xmm2
	movups	(%rax,%rdx), %xmm3
	movups	%xmm0, -64(%rax,%rdx)
	movups	%xmm1, -48(%rax,%rdx)
	movups	%xmm2, -32(%rax,%rdx)
	movups	%xmm3, -16(%rax,%rdx)
	addq	$64, %rdx
	cmpq	$2048, %rdx
	jne	8b
	subq	$-128, %rcx
	movq	%r13, %rsi
	subq	%rcx, %rsi
	addq	$2048, %rax
	cmpq	$128, %rsi
	ja	7b
	movq	%rcx, %rax
	shlq	$4, %rax
	leaq	8(%rbx), %rdx
	addq	%rax, %rdx
	cmpq	%rcx, %r13
	jne	11f
	jmp	16f
	.p2align	4
9:
	movq	%r15, %rdx
	cmpq	%rax, %r15
	jne	5b
	jmp	6b
	.p2align	4
10:
	xorl	%eax, %eax
	leaq	8(%rbx), %rdx
	movq	%r13, %rsi
	xorl	%ecx, %ecx
	cmpq	%rcx, %r13
	je	16f
11:
	leaq	-1(%rsi), %rdi
	movl	%esi, %ecx
	andl	$3, %ecx
	cmpq	$3, %rdi
	jae	12f
	xorl	%edi, %edi
	jmp	14f
	.p2align	4
12:
	andl	$252, %esi
	leaq	56(%rbx), %rdi
	leaq	(%rdi,%rax), %r8
	leaq	64(%rdx), %r9
	xorl	%edi, %edi
	xorl	%r10d, %r10d
	.p2align	4
13:
	movups	-48(%r9,%r10), %xmm0
	movups	%xmm0, -48(%r8,%r10)
	movups	-32(%r9,%r10), %xmm0
	movups	%xmm0, -32(%r8,%r10)
	movups	-16(%r9,%r10), %xmm0
	movups	%xmm0, -16(%r8,%r10)
	movups	(%r9,%r10), %xmm0
	movups	%xmm0, (%r8,%r10)
	addq	$4, %rdi
	addq	$64, %r10
	cmpq	%rdi, %rsi
	jne	13b
	testq	%rcx, %rcx
	je	16f
14:
	shlq	$4, %rdi
	addq	%rdi, %rdx
	addq	$16, %rdx
	leaq	8(%rbx), %rsi
	addq	%rsi, %rax
	addq	%rdi, %rax
	shll	$4, %ecx
	xorl	%esi, %esi
	.p2align	4
15:
	movups	(%rdx,%rsi), %xmm0
	movups	%xmm0, (%rax,%rsi)
	addq	$16, %rsi
	cmpq	%rsi, %rcx
	jne	15b
16:
	cmpq	$1025, %r13
	jb	19f
	xorl	%esi, %esi
	leaq	298(%rbx), %rcx
	.p2align	4
17:
	xorl	%eax, %eax
	.p2align	4
18:
	movups	-48(%rcx,%rax,2), %xmm0
	movups	-32(%rcx,%rax,2), %xmm1
	movups	-16(%rcx,%rax,2), %xmm2
	movups	(%rcx,%rax,2), %xmm3
	movups	%xmm0, -50(%rcx,%rax,2)
	movups	%xmm1, -34(%rcx,%rax,2)
	movups	%xmm2, -18(%rcx,%rax,2)
	movups	%xmm3, -2(%rcx,%rax,2)
	addq	$32, %rax
	cmpq	$1024, %rax
	jne	18b
	addq	$1024, %rsi
	movq	%r13, %rax
	subq	%rsi, %rax
	addq	$2048, %rcx
	cmpq	$1024, %rax
	ja	17b
	leaq	(%rsi,%rsi), %rcx
	leaq	(%r14,%rsi,2), %rdx
	cmpq	%rsi, %r13
	je	1b
	jmp	20f
	.p2align	4
19:
	xorl	%ecx, %ecx
	movq	%r14, %rdx
	movq	%r13, %rax
	xorl	%esi, %esi
	cmpq	%rsi, %r13
	je	1b
20:
	leaq	(%r14,%rcx), %rsi
	cmpq	$4, %rax
	jb	21f
	leaq	246(%rbx), %rdi
	addq	%rcx, %rdi
	subq	%rdx, %rdi
	cmpq	$32, %rdi
	jae	26f
21:
	xorl	%edi, %edi
22:
	movq	%rax, %r9
	movq	%rdi, %r8
	andq	$3, %r9
	je	24f
	movq	%rdi, %r8
	.p2align	4
23:
	movzwl	2(%rdx,%r8,2), %r10d
	movw	%r10w, (%rsi,%r8,2)
	incq	%r8
	decq	%r9
	jne	23b
24:
	subq	%rax, %rdi
	cmpq	$-4, %rdi
	ja	1b
	leaq	254(%rbx), %rsi
	addq	%rsi, %rcx
	.p2align	4
25:
	movzwl	2(%rdx,%r8,2), %esi
	movw	%si, -6(%rcx,%r8,2)
	movzwl	4(%rdx,%r8,2), %esi
	movw	%si, -4(%rcx,%r8,2)
	movzwl	6(%rdx,%r8,2), %esi
	movw	%si, -2(%rcx,%r8,2)
	movzwl	8(%rdx,%r8,2), %esi
	movw	%si, (%rcx,%r8,2)
	addq	$4, %r8
	cmpq	%r8, %rax
	jne	25b
	jmp	1b
26:
	cmpq	$16, %rax
	jae	27f
	xorl	%edi, %edi
	jmp	29f
27:
	movl	%eax, %edi
	andl	$2032, %edi
	leaq	264(%rbx), %r8
	addq	%rcx, %r8
	xorl	%r9d, %r9d
	.p2align	4
28:
	movups	2(%rdx,%r9,2), %xmm0
	movups	18(%rdx,%r9,2), %xmm1
	movups	%xmm0, -16(%r8,%r9,2)
	movups	%xmm1, (%r8,%r9,2)
	addq	$16, %r9
	cmpq	%r9, %rdi
	jne	28b
	cmpq	%rdi, %rax
	je	1b
	testb	$12, %al
	je	22b
29:
	movq	%rdi, %r8
	movl	%eax, %edi
	andl	$2044, %edi
	.p2align	4
30:
	movq	2(%rdx,%r8,2), %r9
	movq	%r9, (%rsi,%r8,2)
	addq	$4, %r8
	cmpq	%r8, %rdi
	jne	30b
	cmpq	%rdi, %rax
	je	1b
	jmp	22b
31:
	movq	280(%rbx), %rdi
	callq	"std_collections::btree::node::Node::destroy::<#541a865a6e83d6a3>"
	jmp	50f
32:
	cmpw	$15, %r13w
	jbe	33f
	movl	%r13d, %r12d
	shrl	%r12d
	subq	%r12, %r13
	movq	%r13, %rsi
	shlq	$4, %rsi
	leaq	8(%rbx), %rdi
	addq	%rdi, %rsi
	movq	%r12, %rdx
	callq	"core::slice::edits::mirror::<3'&[](*,i64,)>"
	leaq	(%r14,%r13,2), %rsi
	movq	%r14, %rdi
	movq	%r12, %rdx
	callq	"core::slice::edits::mirror::<i16>"
	jmp	50f
33:
	cmpw	$2, %r13w
	jb	50f
	leaq	-2(%r13), %rdx
	movq	%rdx, %rax
	shrq	%rax
	movq	%r13, %rcx
	decq	%rcx
	je	34f
	movq	%rcx, %rsi
	shlq	$4, %rsi
	leaq	8(%rbx), %rdi
	movups	(%rdi), %xmm0
	movaps	%xmm0, (%rsp)
	movups	(%rdi,%rsi), %xmm0
	movups	%xmm0, (%rdi)
	movaps	(%rsp), %xmm0
	movups	%xmm0, (%rdi,%rsi)
34:
	testq	%rax, %rax
	je	46f
	cmpq	$1, %rdx
	jbe	35f
	shlq	$4, %rdx
	movups	24(%rbx), %xmm0
	movaps	%xmm0, (%rsp)
	leaq	8(%rbx), %rsi
	movups	(%rsi,%rdx), %xmm0
	movups	%xmm0, 24(%rbx)
	movaps	(%rsp), %xmm0
	movups	%xmm0, (%rsi,%rdx)
	jmp	36f
35:
	testq	%rdx, %rdx
	jne	36f
	leaq	8(%rbx), %rdx
	movups	(%rdx), %xmm0
	movaps	%xmm0, (%rsp)
	movups	24(%rbx), %xmm0
	movups	%xmm0, (%rdx)
	movaps	(%rsp), %xmm0
	movups	%xmm0, 24(%rbx)
36:
	cmpq	$1, %rax
	je	46f
	leaq	-3(%r13), %rdx
	cmpq	$2, %rdx
	jbe	37f
	shlq	$4, %rdx
	movups	40(%rbx), %xmm0
	movaps	%xmm0, (%rsp)
	leaq	8(%rbx), %rsi
	movups	(%rsi,%rdx), %xmm0
	movups	%xmm0, 40(%rbx)
	movaps	(%rsp), %xmm0
	movups	%xmm0, (%rsi,%rdx)
	jmp	38f
37:
	cmpl	$2, %edx
	je	38f
	shlq	$4, %rdx
	leaq	8(%rbx), %rsi
	movups	(%rsi,%rdx), %xmm0
	movaps	%xmm0, (%rsp)
	movups	40(%rbx), %xmm0
	movups	%xmm0, (%rsi,%rdx)
	movaps	(%rsp), %xmm0
	movups	%xmm0, 40(%rbx)
38:
	cmpq	$2, %rax
	je	46f
	leaq	-4(%r13), %rdx
	cmpq	$3, %rdx
	jbe	39f
	shlq	$4, %rdx
	movups	56(%rbx), %xmm0
	movaps	%xmm0, (%rsp)
	leaq	8(%rbx), %rsi
	movups	(%rsi,%rdx), %xmm0
	movups	%xmm0, 56(%rbx)
	movaps	(%rsp), %xmm0
	movups	%xmm0, (%rsi,%rdx)
	jmp	40f
39:
	cmpl	$3, %edx
	je	40f
	shlq	$4, %rdx
	leaq	8(%rbx), %rsi
	movups	(%rsi,%rdx), %xmm0
	movaps	%xmm0, (%rsp)
	movups	56(%rbx), %xmm0
	movups	%xmm0, (%rsi,%rdx)
	movaps	(%rsp), %xmm0
	movups	%xmm0, 56(%rbx)
40:
	cmpq	$3, %rax
	je	46f
	leaq	-5(%r13), %rdx
	cmpq	$4, %rdx
	jbe	41f
	shlq	$4, %rdx
	movups	72(%rbx), %xmm0
	movaps	%xmm0, (%rsp)
	leaq	8(%rbx), %rsi
	movups	(%rsi,%rdx), %xmm0
	movups	%xmm0, 72(%rbx)
	movaps	(%rsp), %xmm0
	movups	%xmm0, (%rsi,%rdx)
	jmp	42f
41:
	cmpl	$4, %edx
	je	42f
	shlq	$4, %rdx
	leaq	8(%rbx), %rsi
	movups	(%rsi,%rdx), %xmm0
	movaps	%xmm0, (%rsp)
	movups	72(%rbx), %xmm0
	movups	%xmm0, (%rsi,%rdx)
	movaps	(%rsp), %xmm0
	movups	%xmm0, 72(%rbx)
42:
	cmpq	$4, %rax
	je	46f
	leaq	-6(%r13), %rdx
	cmpq	$5, %rdx
	jbe	43f
	shlq	$4, %rdx
	movups	88(%rbx), %xmm0
	movaps	%xmm0, (%rsp)
	leaq	8(%rbx), %rsi
	movups	(%rsi,%rdx), %xmm0
	movups	%xmm0, 88(%rbx)
	movaps	(%rsp), %xmm0
	movups	%xmm0, (%rsi,%rdx)
	jmp	44f
43:
	cmpl	$5, %edx
	je	44f
	shlq	$4, %rdx
	leaq	8(%rbx), %rsi
	movups	(%rsi,%rdx), %xmm0
	movaps	%xmm0, (%rsp)
	movups	88(%rbx), %xmm0
	movups	%xmm0, (%rsi,%rdx)
	movaps	(%rsp), %xmm0
	movups	%xmm0, 88(%rbx)
44:
	cmpq	$5, %rax
	je	46f
	addq	$-7, %r13
	cmpq	$6, %r13
	jbe	45f
	shlq	$4, %r13
	movups	104(%rbx), %xmm0
	movaps	%xmm0, (%rsp)
	leaq	8(%rbx), %rdx
	movups	(%rdx,%r13), %xmm0
	movups	%xmm0, 104(%rbx)
	movaps	(%rsp), %xmm0
	movups	%xmm0, (%rdx,%r13)
	jmp	46f
45:
	cmpl	$6, %r13d
	je	46f
	shlq	$4, %r13
	leaq	8(%rbx), %rdx
	movups	(%rdx,%r13), %xmm0
	movaps	%xmm0, (%rsp)
	movups	104(%rbx), %xmm0
	movups	%xmm0, (%rdx,%r13)
	movaps	(%rsp), %xmm0
	movups	%xmm0, 104(%rbx)
46:
	incq	%rax
	xorl	%edx, %edx
	jmp	49f
	.p2align	4
47:
	movzwl	(%r14,%rdx,2), %esi
	movzwl	(%r14,%rcx,2), %edi
	movw	%di, (%r14,%rdx,2)
	movw	%si, (%r14,%rcx,2)
48:
	incq	%rdx
	decq	%rcx
	cmpq	%rdx, %rax
	je	50f
49:
	cmpq	%rcx, %rdx
	jb	47b
	jbe	48b
	movzwl	(%r14,%rcx,2), %esi
	movzwl	(%r14,%rdx,2), %edi
	movw	%di, (%r14,%rcx,2)
	movw	%si, (%r14,%rdx,2)
	jmp	48b
50:
	movq	%rbx, %rdi
	addq	$24, %rsp
	popq	%rbx
	popq	%r12
	popq	%r13
	popq	%r14
	popq	%r15
	popq	%rbp
	jmp	rattle_dealloc@PLT
51:
	.size	"std_collections::btree::node::Node::destroy::<#541a865a6e83d6a3>", 51b-"std_collections::btree::node::Node::destroy::<#541a865a6e83d6a3>"

	.text
	.p2align	4
	.type	"std_collections::btree::node::Node::destroy::<#6f699a0b3f3d5921>",@function
"std_collections::btree::node::Node::destroy::<#6f699a0b3f3d5921>":
	pushq	%r15
	pushq	%r14
	pushq	%rbx
	subq	$112, %rsp
	movq	%rdi, %rbx
	movzwl	(%rdi), %r14d
	movzwl	2(%rdi), %ecx
	xorl	%edx, %edx
	testw	%cx, %cx
	setne	%dl
	leaq	1(%r14), %rsi
	shll	$4, %edx
	leaq	368(%rdi), %rax
	addq	$8, %rdi
	xorl	%r8d, %r8d
	testw	%cx, %cx
	cmovneq	%rsi, %r8
	movq	%rdi, 32(%rsp)
	movq	%r14, 40(%rsp)
	movq	$15, 48(%rsp)
	movq	%rax, 56(%rsp)
	movq	%r14, 64(%rsp)
	movq	$15, 72(%rsp)
	movq	%rax, 80(%rsp)
	movq	%r8, 88(%rsp)
	movq	%rdx, 96(%rsp)
	movq	%rbx, 104(%rsp)
	je	15f
	testq	%r14, %r14
	jne	7f
	movq	(%rax), %rbx
	cmpq	$257, %r14
	jb	14f
1:
	leaq	56(%rax), %rsi
	xorl	%ecx, %ecx
	.p2align	4
2:
	xorl	%edx, %edx
	.p2align	4
3:
	movups	-48(%rsi,%rdx,8), %xmm0
	movups	-32(%rsi,%rdx,8), %xmm1
	movups	-16(%rsi,%rdx,8), %xmm2
	movups	(%rsi,%rdx,8), %xmm3
	movups	%xmm0, -56(%rsi,%rdx,8)
	movups	%xmm1, -40(%rsi,%rdx,8)
	movups	%xmm2, -24(%rsi,%rdx,8)
	movups	%xmm3, -8(%rsi,%rdx,8)
	addq	$8, %rdx
	cmpq	$256, %rdx
	jne	3b
	addq	$256, %rcx
	movq	%r14, %rdx
	subq	%rcx, %rdx
	addq	$2048, %rsi
	cmpq	$256, %rdx
	ja	2b
	cmpq	%rcx, %r14
	je	5f
4:
	leaq	(%rax,%rcx,8), %rdi
	leaq	(%rax,%rcx,8), %rsi
	addq	$8, %rsi
	shlq	$3, %rdx
	callq	memmove@PLT
5:
	movq	%rbx, %rdi
	callq	"std_collections::btree::node::Node::destroy::<#6f699a0b3f3d5921>"
	movq	104(%rsp), %rdi
	jmp	34f
	.p2align	4
6:
	cmpq	$0, 40(%rsp)
	je	13f
7:
	movq	80(%rsp), %rax
	movq	88(%rsp), %r14
	movq	(%rax), %rbx
	decq	%r14
	cmpq	$257, %r14
	jb	12f
	leaq	56(%rax), %rsi
	xorl	%ecx, %ecx
	.p2align	4
8:
	xorl	%edx, %edx
	.p2align	4
9:
	movups	-48(%rsi,%rdx,8), %xmm0
	movups	-32(%rsi,%rdx,8), %xmm1
	movups	-16(%rsi,%rdx,8), %xmm2
	movups	(%rsi,%rdx,8), %xmm3
	movups	%xmm0, -56(%rsi,%rdx,8)
	movups	%xmm1, -40(%rsi,%rdx,8)
	movups	%xmm2, -24(%rsi,%rdx,8)
	movups	%xmm3, -8(%rsi,%rdx,8)
	addq	$8, %rdx
	cmpq	$256, %rdx
	jne	9b
	addq	$256, %rcx
	movq	%r14, %rdx
	subq	%rcx, %rdx
	addq	$2048, %rsi
	cmpq	$256, %rdx
	ja	8b
	movq	96(%rsp), %r15
	cmpq	%rcx, %r14
	je	11f
10:
	leaq	(%rax,%rcx,8), %rdi
	leaq	(%rax,%rcx,8), %rsi
	addq	$8, %rsi
	shlq	$3, %rdx
	callq	memmove@PLT
11:
	movq	%r14, 88(%rsp)
	movq	%r15, 96(%rsp)
	movq	%rbx, %rdi
	callq	"std_collections::btree::node::Node::destroy::<#6f699a0b3f3d5921>"
	xorps	%xmm0, %xmm0
	movaps	%xmm0, (%rsp)
	movq	$0, 16(%rsp)
	movq	%rsp, %rdi
	leaq	32(%rsp), %rsi
	xorl	%edx, %edx
	callq	"std_alloc::vec::Vec::remove::<#c1573421a60ec32d>"
	decq	64(%rsp)
	cmpq	$0, 16(%rsp)
	je	6b
	movq	(%rsp), %rdi
	callq	rattle_dealloc@PLT
	jmp	6b
	.p2align	4
12:
	xorl	%ecx, %ecx
	movq	%r14, %rdx
	movq	96(%rsp), %r15
	cmpq	%rcx, %r14
	jne	10b
	jmp	11b
13:
	movq	80(%rsp), %rax
	movq	88(%rsp), %r14
	decq	%r14
	movq	(%rax), %rbx
	cmpq	$257, %r14
	jae	1b
14:
	xorl	%ecx, %ecx
	movq	%r14, %rdx
	cmpq	%rcx, %r14
	jne	4b
	jmp	5b
15:
	cmpw	$15, %r14w
	jbe	16f
	movl	%r14d, %edx
	shrl	%edx
	movq	%r14, %rax
	subq	%rdx, %rax
	leaq	(%rax,%rax,2), %rax
	leaq	(%rdi,%rax,8), %rsi
	callq	"core::slice::edits::mirror::<#2262cf5b90b10fda>"
	jmp	30f
16:
	cmpw	$2, %r14w
	jb	29f
	leaq	-2(%r14), %rcx
	movq	%rcx, %rax
	shrq	%rax
	movq	%r14, %rdx
	decq	%rdx
	je	17f
	leaq	(%rdx,%rdx,2), %rdx
	movq	16(%rdi), %rsi
	movq	%rsi, 16(%rsp)
	movups	(%rdi), %xmm0
	movaps	%xmm0, (%rsp)
	movq	16(%rdi,%rdx,8), %rsi
	movups	(%rdi,%rdx,8), %xmm0
	movups	%xmm0, (%rdi)
	movq	%rsi, 16(%rdi)
	movq	16(%rsp), %rsi
	movq	%rsi, 16(%rdi,%rdx,8)
	movaps	(%rsp), %xmm0
	movups	%xmm0, (%rdi,%rdx,8)
17:
	testq	%rax, %rax
	je	29f
	cmpq	$1, %rcx
	jbe	18f
	leaq	(%rcx,%rcx,2), %rcx
	movq	48(%rbx), %rdx
	movq	%rdx, 16(%rsp)
	movups	32(%rbx), %xmm0
	movaps	%xmm0, (%rsp)
	movq	16(%rdi,%rcx,8), %rdx
	movups	(%rdi,%rcx,8), %xmm0
	movups	%xmm0, 32(%rbx)
	movq	%rdx, 48(%rbx)
	movq	16(%rsp), %rdx
	movq	%rdx, 16(%rdi,%rcx,8)
	movaps	(%rsp), %xmm0
	movups	%xmm0, (%rdi,%rcx,8)
	jmp	19f
18:
	testq	%rcx, %rcx
	jne	19f
	leaq	(%rcx,%rcx,2), %rcx
	movq	16(%rdi,%rcx,8), %rdx
	movq	%rdx, 16(%rsp)
	movups	(%rdi,%rcx,8), %xmm0
	movaps	%xmm0, (%rsp)
	movq	48(%rbx), %rdx
	movups	32(%rbx), %xmm0
	movups	%xmm0, (%rdi,%rcx,8)
	movq	%rdx, 16(%rdi,%rcx,8)
	movq	16(%rsp), %rcx
	movq	%rcx, 48(%rbx)
	movaps	(%rsp), %xmm0
	movups	%xmm0, 32(%rbx)
19:
	cmpq	$1, %rax
	je	29f
	leaq	-3(%r14), %rcx
	cmpq	$2, %rcx
	jbe	20f
	leaq	(%rcx,%rcx,2), %rcx
	movq	72(%rbx), %rdx
	movq	%rdx, 16(%rsp)
	movups	56(%rbx), %xmm0
	movaps	%xmm0, (%rsp)
	movq	16(%rdi,%rcx,8), %rdx
	movups	(%rdi,%rcx,8), %xmm0
	movups	%xmm0, 56(%rbx)
	movq	%rdx, 72(%rbx)
	movq	16(%rsp), %rdx
	movq	%rdx, 16(%rdi,%rcx,8)
	movaps	(%rsp), %xmm0
	movups	%xmm0, (%rdi,%rcx,8)
	jmp	21f
20:
	cmpl	$2, %ecx
	je	21f
	leaq	(%rcx,%rcx,2), %rcx
	movq	16(%rdi,%rcx,8), %rdx
	movq	%rdx, 16(%rsp)
	movups	(%rdi,%rcx,8), %xmm0
	movaps	%xmm0, (%rsp)
	movq	72(%rbx), %rdx
	movups	56(%rbx), %xmm0
	movups	%xmm0, (%rdi,%rcx,8)
	movq	%rdx, 16(%rdi,%rcx,8)
	movq	16(%rsp), %rcx
	movq	%rcx, 72(%rbx)
	movaps	(%rsp), %xmm0
	movups	%xmm0, 56(%rbx)
21:
	cmpq	$2, %rax
	je	29f
	leaq	-4(%r14), %rcx
	cmpq	$3, %rcx
	jbe	22f
	leaq	(%rcx,%rcx,2), %rcx
	movq	96(%rbx), %rdx
	movq	%rdx, 16(%rsp)
	movups	80(%rbx), %xmm0
	movaps	%xmm0, (%rsp)
	movq	16(%rdi,%rcx,8), %rdx
	movups	(%rdi,%rcx,8), %xmm0
	movups	%xmm0, 80(%rbx)
	movq	%rdx, 96(%rbx)
	movq	16(%rsp), %rdx
	movq	%rdx, 16(%rdi,%rcx,8)
	movaps	(%rsp), %xmm0
	movups	%xmm0, (%rdi,%rcx,8)
	jmp	23f
22:
	cmpl	$3, %ecx
	je	23f
	leaq	(%rcx,%rcx,2), %rcx
	movq	16(%rdi,%rcx,8), %rdx
	movq	%rdx, 16(%rsp)
	movups	(%rdi,%rcx,8), %xmm0
	movaps	%xmm0, (%rsp)
	movq	96(%rbx), %rdx
	movups	80(%rbx), %xmm0
	movups	%xmm0, (%rdi,%rcx,8)
	movq	%rdx, 16(%rdi,%rcx,8)
	movq	16(%rsp), %rcx
	movq	%rcx, 96(%rbx)
	movaps	(%rsp), %xmm0
	movups	%xmm0, 80(%rbx)
23:
	cmpq	$3, %rax
	je	29f
	leaq	-5(%r14), %rcx
	cmpq	$4, %rcx
	jbe	24f
	leaq	(%rcx,%rcx,2), %rcx
	movq	120(%rbx), %rdx
	movq	%rdx, 16(%rsp)
	movups	104(%rbx), %xmm0
	movaps	%xmm0, (%rsp)
	movq	16(%rdi,%rcx,8), %rdx
	movups	(%rdi,%rcx,8), %xmm0
	movups	%xmm0, 104(%rbx)
	movq	%rdx, 120(%rbx)
	movq	16(%rsp), %rdx
	movq	%rdx, 16(%rdi,%rcx,8)
	movaps	(%rsp), %xmm0
	movups	%xmm0, (%rdi,%rcx,8)
	jmp	25f
24:
	cmpl	$4, %ecx
	je	25f
	leaq	(%rcx,%rcx,2), %rcx
	movq	16(%rdi,%rcx,8), %rdx
	movq	%rdx, 16(%rsp)
	movups	(%rdi,%rcx,8), %xmm0
	movaps	%xmm0, (%rsp)
	movq	120(%rbx), %rdx
	movups	104(%rbx), %xmm0
	movups	%xmm0, (%rdi,%rcx,8)
	movq	%rdx, 16(%rdi,%rcx,8)
	movq	16(%rsp), %rcx
	movq	%rcx, 120(%rbx)
	movaps	(%rsp), %xmm0
	movups	%xmm0, 104(%rbx)
25:
	cmpq	$4, %rax
	je	29f
	leaq	-6(%r14), %rcx
	cmpq	$5, %rcx
	jbe	26f
	leaq	(%rcx,%rcx,2), %rcx
	movq	144(%rbx), %rdx
	movq	%rdx, 16(%rsp)
	movups	128(%rbx), %xmm0
	movaps	%xmm0, (%rsp)
	movq	16(%rdi,%rcx,8), %rdx
	movups	(%rdi,%rcx,8), %xmm0
	movups	%xmm0, 128(%rbx)
	movq	%rdx, 144(%rbx)
	movq	16(%rsp), %rdx
	movq	%rdx, 16(%rdi,%rcx,8)
	movaps	(%rsp), %xmm0
	movups	%xmm0, (%rdi,%rcx,8)
	jmp	27f
26:
	cmpl	$5, %ecx
	je	27f
	leaq	(%rcx,%rcx,2), %rcx
	movq	16(%rdi,%rcx,8), %rdx
	movq	%rdx, 16(%rsp)
	movups	(%rdi,%rcx,8), %xmm0
	movaps	%xmm0, (%rsp)
	movq	144(%rbx), %rdx
	movups	128(%rbx), %xmm0
	movups	%xmm0, (%rdi,%rcx,8)
	movq	%rdx, 16(%rdi,%rcx,8)
	movq	16(%rsp), %rcx
	movq	%rcx, 144(%rbx)
	movaps	(%rsp), %xmm0
	movups	%xmm0, 128(%rbx)
27:
	cmpq	$5, %rax
	je	29f
	leaq	-7(%r14), %rax
	cmpq	$6, %rax
	jbe	28f
	leaq	(%rax,%rax,2), %rax
	movq	168(%rbx), %rcx
	movq	%rcx, 16(%rsp)
	movups	152(%rbx), %xmm0
	movaps	%xmm0, (%rsp)
	movq	16(%rdi,%rax,8), %rcx
	movups	(%rdi,%rax,8), %xmm0
	movups	%xmm0, 152(%rbx)
	movq	%rcx, 168(%rbx)
	movq	16(%rsp), %rcx
	movq	%rcx, 16(%rdi,%rax,8)
	movaps	(%rsp), %xmm0
	movups	%xmm0, (%rdi,%rax,8)
	jmp	29f
28:
	cmpl	$6, %eax
	je	29f
	leaq	(%rax,%rax,2), %rax
	movq	16(%rdi,%rax,8), %rcx
	movq	%rcx, 16(%rsp)
	movups	(%rdi,%rax,8), %xmm0
	movaps	%xmm0, (%rsp)
	movq	168(%rbx), %rcx
	movups	152(%rbx), %xmm0
	movups	%xmm0, (%rdi,%rax,8)
	movq	%rcx, 16(%rdi,%rax,8)
	movq	16(%rsp), %rax
	movq	%rax, 168(%rbx)
	movaps	(%rsp), %xmm0
	movups	%xmm0, 152(%rbx)
29:
	testq	%r14, %r14
	je	33f
30:
	leaq	(%r14,%r14,2), %rax
	leaq	(%rbx,%rax,8), %r15
	jmp	32f
	.p2align	4
31:
	decq	%r14
	addq	$-24, %r15
	testq	%r14, %r14
	je	33f
32:
	cmpq	$0, (%r15)
	je	31b
	movq	-16(%r15), %rdi
	callq	rattle_dealloc@PLT
	jmp	31b
33:
	movq	%rbx, %rdi
34:
	addq	$112, %rsp
	popq	%rbx
	popq	%r14
	popq	%r15
	jmp	rattle_dealloc@PLT
35:
	.size	"std_collections::btree::node::Node::destroy::<#6f699a0b3f3d5921>", 35b-"std_collections::btree::node::Node::destroy::<#6f699a0b3f3d5921>"

	.text
	.p2align	4
	.type	"std_collections::btree::node::Node::destroy::<#75908c3a02a00b6b>",@function
"std_collections::btree::node::Node::destroy::<#75908c3a02a00b6b>":
	pushq	%r15
	pushq	%r14
	pushq	%r13
	pushq	%r12
	pushq	%rbx
	subq	$112, %rsp
	movq	%rdi, %rbx
	movzwl	(%rdi), %r12d
	movzwl	2(%rdi), %ecx
	xorl	%edx, %edx
	testw	%cx, %cx
	setne	%dl
	leaq	1(%r12), %rsi
	shll	$4, %edx
	leaq	400(%rdi), %rax
	leaq	368(%rdi), %r14
	addq	$8, %rdi
	xorl	%r8d, %r8d
	testw	%cx, %cx
	cmovneq	%rsi, %r8
	movq	%rdi, 32(%rsp)
	movq	%r12, 40(%rsp)
	movq	$15, 48(%rsp)
	movq	%r14, 56(%rsp)
	movq	%r12, 64(%rsp)
	movq	$15, 72(%rsp)
	movq	%rax, 80(%rsp)
	movq	%r8, 88(%rsp)
	movq	%rdx, 96(%rsp)
	movq	%rbx, 104(%rsp)
	je	29f
	testq	%r12, %r12
	jne	7f
	movq	(%rax), %rbx
	cmpq	$257, %r12
	jb	28f
1:
	leaq	56(%rax), %rsi
	xorl	%ecx, %ecx
	.p2align	4
2:
	xorl	%edx, %edx
	.p2align	4
3:
	movups	-48(%rsi,%rdx,8), %xmm0
	movups	-32(%rsi,%rdx,8), %xmm1
	movups	-16(%rsi,%rdx,8), %xmm2
	movups	(%rsi,%rdx,8), %xmm3
	movups	%xmm0, -56(%rsi,%rdx,8)
	movups	%xmm1, -40(%rsi,%rdx,8)
	movups	%xmm2, -24(%rsi,%rdx,8)
	movups	%xmm3, -8(%rsi,%rdx,8)
	addq	$8, %rdx
	cmpq	$256, %rdx
	jne	3b
	addq	$256, %rcx
	movq	%r12, %rdx
	subq	%rcx, %rdx
	addq	$2048, %rsi
	cmpq	$256, %rdx
	ja	2b
	cmpq	%rcx, %r12
	je	5f
4:
	leaq	(%rax,%rcx,8), %rdi
	leaq	(%rax,%rcx,8), %rsi
	addq	$8, %rsi
	shlq	$3, %rdx
	callq	memmove@PLT
5:
	movq	%rbx, %rdi
	callq	"std_collections::btree::node::Node::destroy::<#75908c3a02a00b6b>"
	movq	104(%rsp), %rdi
	jmp	52f
	.p2align	4
6:
	cmpq	$0, 40(%rsp)
	je	27f
7:
	movq	80(%rsp), %rax
	movq	88(%rsp), %r14
	movq	(%rax), %rbx
	decq	%r14
	cmpq	$257, %r14
	jb	21f
	leaq	56(%rax), %rsi
	xorl	%ecx, %ecx
	.p2align	4
8:
	xorl	%edx, %edx
	.p2align	4
9:
	movups	-48(%rsi,%rdx,8), %xmm0
	movups	-32(%rsi,%rdx,8), %xmm1
	movups	-16(%rsi,%rdx,8), %xmm2
	movups	(%rsi,%rdx,8), %xmm3
	movups	%xmm0, -56(%rsi,%rdx,8)
	movups	%xmm1, -40(%rsi,%rdx,8)
	movups	%xmm2, -24(%rsi,%rdx,8)
	movups	%xmm3, -8(%rsi,%rdx,8)
	addq	$8, %rdx
	cmpq	$256, %rdx
	jne	9b
	addq	$256, %rcx
	movq	%r14, %rdx
	subq	%rcx, %rdx
	addq	$2048, %rsi
	cmpq	$256, %rdx
	ja	8b
	movq	96(%rsp), %r15
	cmpq	%rcx, %r14
	je	11f
10:
	leaq	(%rax,%rcx,8), %rdi
	leaq	(%rax,%rcx,8), %rsi
	addq	$8, %rsi
	shlq	$3, %rdx
	callq	memmove@PLT
11:
	movq	%r14, 88(%rsp)
	movq	%r15, 96(%rsp)
	movq	%rbx, %rdi
	callq	"std_collections::btree::node::Node::destroy::<#75908c3a02a00b6b>"
	xorps	%xmm0, %xmm0
	movaps	%xmm0, (%rsp)
	movq	$0, 16(%rsp)
	xorl	%ebx, %ebx
	movq	%rsp, %rdi
	leaq	32(%rsp), %rsi
	xorl	%edx, %edx
	callq	"std_alloc::vec::Vec::remove::<#c1573421a60ec32d>"
	movq	56(%rsp), %rcx
	movq	64(%rsp), %rax
	decq	%rax
	movq	%rcx, %rsi
	movq	%rax, %rdx
	movl	$0, %edi
	cmpq	$1025, %rax
	jb	14f
	leaq	50(%rcx), %rsi
	xorl	%edi, %edi
	.p2align	4
12:
	xorl	%edx, %edx
	.p2align	4
13:
	movups	-48(%rsi,%rdx,2), %xmm0
	movups	-32(%rsi,%rdx,2), %xmm1
	movups	-16(%rsi,%rdx,2), %xmm2
	movups	(%rsi,%rdx,2), %xmm3
	movups	%xmm0, -50(%rsi,%rdx,2)
	movups	%xmm1, -34(%rsi,%rdx,2)
	movups	%xmm2, -18(%rsi,%rdx,2)
	movups	%xmm3, -2(%rsi,%rdx,2)
	addq	$32, %rdx
	cmpq	$1024, %rdx
	jne	13b
	addq	$1024, %rdi
	movq	%rax, %rdx
	subq	%rdi, %rdx
	addq	$2048, %rsi
	cmpq	$1024, %rdx
	ja	12b
	leaq	(%rdi,%rdi), %rbx
	leaq	(%rcx,%rdi,2), %rsi
14:
	cmpq	%rdi, %rax
	je	20f
	leaq	(%rcx,%rbx), %rdi
	cmpq	$4, %rdx
	jb	15f
	movq	%rdi, %r8
	subq	%rsi, %r8
	addq	$-2, %r8
	cmpq	$32, %r8
	jae	22f
15:
	xorl	%r8d, %r8d
16:
	movq	%rdx, %r10
	movq	%r8, %r9
	andq	$3, %r10
	je	18f
	movq	%r8, %r9
	.p2align	4
17:
	movzwl	2(%rsi,%r9,2), %r11d
	movw	%r11w, (%rdi,%r9,2)
	incq	%r9
	decq	%r10
	jne	17b
18:
	subq	%rdx, %r8
	cmpq	$-4, %r8
	ja	20f
	addq	%rbx, %rcx
	addq	$6, %rcx
	.p2align	4
19:
	movzwl	2(%rsi,%r9,2), %edi
	movw	%di, -6(%rcx,%r9,2)
	movzwl	4(%rsi,%r9,2), %edi
	movw	%di, -4(%rcx,%r9,2)
	movzwl	6(%rsi,%r9,2), %edi
	movw	%di, -2(%rcx,%r9,2)
	movzwl	8(%rsi,%r9,2), %edi
	movw	%di, (%rcx,%r9,2)
	addq	$4, %r9
	cmpq	%r9, %rdx
	jne	19b
20:
	movq	%rax, 64(%rsp)
	cmpq	$0, 16(%rsp)
	je	6b
	movq	(%rsp), %rdi
	callq	rattle_dealloc@PLT
	jmp	6b
	.p2align	4
21:
	xorl	%ecx, %ecx
	movq	%r14, %rdx
	movq	96(%rsp), %r15
	cmpq	%rcx, %r14
	jne	10b
	jmp	11b
22:
	cmpq	$16, %rdx
	jae	23f
	xorl	%r8d, %r8d
	jmp	25f
23:
	movl	%edx, %r8d
	andl	$2032, %r8d
	leaq	(%rcx,%rbx), %r9
	addq	$16, %r9
	xorl	%r10d, %r10d
	.p2align	4
24:
	movups	2(%rsi,%r10,2), %xmm0
	movups	18(%rsi,%r10,2), %xmm1
	movups	%xmm0, -16(%r9,%r10,2)
	movups	%xmm1, (%r9,%r10,2)
	addq	$16, %r10
	cmpq	%r10, %r8
	jne	24b
	cmpq	%r8, %rdx
	je	20b
	testb	$12, %dl
	je	16b
25:
	movq	%r8, %r9
	movl	%edx, %r8d
	andl	$2044, %r8d
	.p2align	4
26:
	movq	2(%rsi,%r9,2), %r10
	movq	%r10, (%rdi,%r9,2)
	addq	$4, %r9
	cmpq	%r9, %r8
	jne	26b
	cmpq	%r8, %rdx
	je	20b
	jmp	16b
27:
	movq	80(%rsp), %rax
	movq	88(%rsp), %r12
	decq	%r12
	movq	(%rax), %rbx
	cmpq	$257, %r12
	jae	1b
28:
	xorl	%ecx, %ecx
	movq	%r12, %rdx
	cmpq	%rcx, %r12
	jne	4b
	jmp	5b
29:
	cmpw	$15, %r12w
	jbe	30f
	movl	%r12d, %r15d
	shrl	%r15d
	movq	%r12, %r13
	subq	%r15, %r13
	leaq	(,%r13,2), %rax
	addq	%r13, %rax
	leaq	(%rdi,%rax,8), %rsi
	movq	%r15, %rdx
	callq	"core::slice::edits::mirror::<#2262cf5b90b10fda>"
	leaq	(%r14,%r13,2), %rsi
	movq	%r14, %rdi
	movq	%r15, %rdx
	callq	"core::slice::edits::mirror::<i16>"
	jmp	48f
30:
	cmpw	$2, %r12w
	jb	47f
	leaq	-2(%r12), %rdx
	movq	%rdx, %rax
	shrq	%rax
	movq	%r12, %rcx
	decq	%rcx
	je	31f
	leaq	(%rcx,%rcx,2), %rsi
	movq	16(%rdi), %r8
	movq	%r8, 16(%rsp)
	movups	(%rdi), %xmm0
	movaps	%xmm0, (%rsp)
	movq	16(%rdi,%rsi,8), %r8
	movups	(%rdi,%rsi,8), %xmm0
	movups	%xmm0, (%rdi)
	movq	%r8, 16(%rdi)
	movq	16(%rsp), %r8
	movq	%r8, 16(%rdi,%rsi,8)
	movaps	(%rsp), %xmm0
	movups	%xmm0, (%rdi,%rsi,8)
31:
	testq	%rax, %rax
	je	43f
	cmpq	$1, %rdx
	jbe	32f
	leaq	(%rdx,%rdx,2), %rdx
	movq	48(%rbx), %rsi
	movq	%rsi, 16(%rsp)
	movups	32(%rbx), %xmm0
	movaps	%xmm0, (%rsp)
	movq	16(%rdi,%rdx,8), %rsi
	movups	(%rdi,%rdx,8), %xmm0
	movups	%xmm0, 32(%rbx)
	movq	%rsi, 48(%rbx)
	movq	16(%rsp), %rsi
	movq	%rsi, 16(%rdi,%rdx,8)
	movaps	(%rsp), %xmm0
	movups	%xmm0, (%rdi,%rdx,8)
	jmp	33f
32:
	testq	%rdx, %rdx
	jne	33f
	leaq	(%rdx,%rdx,2), %rdx
	movq	16(%rdi,%rdx,8), %rsi
	movq	%rsi, 16(%rsp)
	movups	(%rdi,%rdx,8), %xmm0
	movaps	%xmm0, (%rsp)
	movq	48(%rbx), %rsi
	movups	32(%rbx), %xmm0
	movups	%xmm0, (%rdi,%rdx,8)
	movq	%rsi, 16(%rdi,%rdx,8)
	movq	16(%rsp), %rdx
	movq	%rdx, 48(%rbx)
	movaps	(%rsp), %xmm0
	movups	%xmm0, 32(%rbx)
33:
	cmpq	$1, %rax
	je	43f
	leaq	-3(%r12), %rdx
	cmpq	$2, %rdx
	jbe	34f
	leaq	(%rdx,%rdx,2), %rdx
	movq	72(%rbx), %rsi
	movq	%rsi, 16(%rsp)
	movups	56(%rbx), %xmm0
	movaps	%xmm0, (%rsp)
	movq	16(%rdi,%rdx,8), %rsi
	movups	(%rdi,%rdx,8), %xmm0
	movups	%xmm0, 56(%rbx)
	movq	%rsi, 72(%rbx)
	movq	16(%rsp), %rsi
	movq	%rsi, 16(%rdi,%rdx,8)
	movaps	(%rsp), %xmm0
	movups	%xmm0, (%rdi,%rdx,8)
	jmp	35f
34:
	cmpl	$2, %edx
	je	35f
	leaq	(%rdx,%rdx,2), %rdx
	movq	16(%rdi,%rdx,8), %rsi
	movq	%rsi, 16(%rsp)
	movups	(%rdi,%rdx,8), %xmm0
	movaps	%xmm0, (%rsp)
	movq	72(%rbx), %rsi
	movups	56(%rbx), %xmm0
	movups	%xmm0, (%rdi,%rdx,8)
	movq	%rsi, 16(%rdi,%rdx,8)
	movq	16(%rsp), %rdx
	movq	%rdx, 72(%rbx)
	movaps	(%rsp), %xmm0
	movups	%xmm0, 56(%rbx)
35:
	cmpq	$2, %rax
	je	43f
	leaq	-4(%r12), %rdx
	cmpq	$3, %rdx
	jbe	36f
	leaq	(%rdx,%rdx,2), %rdx
	movq	96(%rbx), %rsi
	movq	%rsi, 16(%rsp)
	movups	80(%rbx), %xmm0
	movaps	%xmm0, (%rsp)
	movq	16(%rdi,%rdx,8), %rsi
	movups	(%rdi,%rdx,8), %xmm0
	movups	%xmm0, 80(%rbx)
	movq	%rsi, 96(%rbx)
	movq	16(%rsp), %rsi
	movq	%rsi, 16(%rdi,%rdx,8)
	movaps	(%rsp), %xmm0
	movups	%xmm0, (%rdi,%rdx,8)
	jmp	37f
36:
	cmpl	$3, %edx
	je	37f
	leaq	(%rdx,%rdx,2), %rdx
	movq	16(%rdi,%rdx,8), %rsi
	movq	%rsi, 16(%rsp)
	movups	(%rdi,%rdx,8), %xmm0
	movaps	%xmm0, (%rsp)
	movq	96(%rbx), %rsi
	movups	80(%rbx), %xmm0
	movups	%xmm0, (%rdi,%rdx,8)
	movq	%rsi, 16(%rdi,%rdx,8)
	movq	16(%rsp), %rdx
	movq	%rdx, 96(%rbx)
	movaps	(%rsp), %xmm0
	movups	%xmm0, 80(%rbx)
37:
	cmpq	$3, %rax
	je	43f
	leaq	-5(%r12), %rdx
	cmpq	$4, %rdx
	jbe	38f
	leaq	(%rdx,%rdx,2), %rdx
	movq	120(%rbx), %rsi
	movq	%rsi, 16(%rsp)
	movups	104(%rbx), %xmm0
	movaps	%xmm0, (%rsp)
	movq	16(%rdi,%rdx,8), %rsi
	movups	(%rdi,%rdx,8), %xmm0
	movups	%xmm0, 104(%rbx)
	movq	%rsi, 120(%rbx)
	movq	16(%rsp), %rsi
	movq	%rsi, 16(%rdi,%rdx,8)
	movaps	(%rsp), %xmm0
	movups	%xmm0, (%rdi,%rdx,8)
	jmp	39f
38:
	cmpl	$4, %edx
	je	39f
	leaq	(%rdx,%rdx,2), %rdx
	movq	16(%rdi,%rdx,8), %rsi
	movq	%rsi, 16(%rsp)
	movups	(%rdi,%rdx,8), %xmm0
	movaps	%xmm0, (%rsp)
	movq	120(%rbx), %rsi
	movups	104(%rbx), %xmm0
	movups	%xmm0, (%rdi,%rdx,8)
	movq	%rsi, 16(%rdi,%rdx,8)
	movq	16(%rsp), %rdx
	movq	%rdx, 120(%rbx)
	movaps	(%rsp), %xmm0
	movups	%xmm0, 104(%rbx)
39:
	cmpq	$4, %rax
	je	43f
	leaq	-6(%r12), %rdx
	cmpq	$5, %rdx
	jbe	40f
	leaq	(%rdx,%rdx,2), %rdx
	movq	144(%rbx), %rsi
	movq	%rsi, 16(%rsp)
	movups	128(%rbx), %xmm0
	movaps	%xmm0, (%rsp)
	movq	16(%rdi,%rdx,8), %rsi
	movups	(%rdi,%rdx,8), %xmm0
	movups	%xmm0, 128(%rbx)
	movq	%rsi, 144(%rbx)
	movq	16(%rsp), %rsi
	movq	%rsi, 16(%rdi,%rdx,8)
	movaps	(%rsp), %xmm0
	movups	%xmm0, (%rdi,%rdx,8)
	jmp	41f
40:
	cmpl	$5, %edx
	je	41f
	leaq	(%rdx,%rdx,2), %rdx
	movq	16(%rdi,%rdx,8), %rsi
	movq	%rsi, 16(%rsp)
	movups	(%rdi,%rdx,8), %xmm0
	movaps	%xmm0, (%rsp)
	movq	144(%rbx), %rsi
	movups	128(%rbx), %xmm0
	movups	%xmm0, (%rdi,%rdx,8)
	movq	%rsi, 16(%rdi,%rdx,8)
	movq	16(%rsp), %rdx
	movq	%rdx, 144(%rbx)
	movaps	(%rsp), %xmm0
	movups	%xmm0, 128(%rbx)
41:
	cmpq	$5, %rax
	je	43f
	leaq	-7(%r12), %rdx
	cmpq	$6, %rdx
	jbe	42f
	leaq	(%rdx,%rdx,2), %rdx
	movq	168(%rbx), %rsi
	movq	%rsi, 16(%rsp)
	movups	152(%rbx), %xmm0
	movaps	%xmm0, (%rsp)
	movq	16(%rdi,%rdx,8), %rsi
	movups	(%rdi,%rdx,8), %xmm0
	movups	%xmm0, 152(%rbx)
	movq	%rsi, 168(%rbx)
	movq	16(%rsp), %rsi
	movq	%rsi, 16(%rdi,%rdx,8)
	movaps	(%rsp), %xmm0
	movups	%xmm0, (%rdi,%rdx,8)
	jmp	43f
42:
	cmpl	$6, %edx
	je	43f
	leaq	(%rdx,%rdx,2), %rdx
	movq	16(%rdi,%rdx,8), %rsi
	movq	%rsi, 16(%rsp)
	movups	(%rdi,%rdx,8), %xmm0
	movaps	%xmm0, (%rsp)
	movq	168(%rbx), %rsi
	movups	152(%rbx), %xmm0
	movups	%xmm0, (%rdi,%rdx,8)
	movq	%rsi, 16(%rdi,%rdx,8)
	movq	16(%rsp), %rdx
	movq	%rdx, 168(%rbx)
	movaps	(%rsp), %xmm0
	movups	%xmm0, 152(%rbx)
43:
	incq	%rax
	xorl	%edx, %edx
	jmp	46f
	.p2align	4
44:
	movzwl	(%r14,%rdx,2), %esi
	movzwl	(%r14,%rcx,2), %edi
	movw	%di, (%r14,%rdx,2)
	movw	%si, (%r14,%rcx,2)
45:
	incq	%rdx
	decq	%rcx
	cmpq	%rdx, %rax
	je	47f
46:
	cmpq	%rcx, %rdx
	jb	44b
	jbe	45b
	movzwl	(%r14,%rcx,2), %esi
	movzwl	(%r14,%rdx,2), %edi
	movw	%di, (%r14,%rcx,2)
	movw	%si, (%r14,%rdx,2)
	jmp	45b
47:
	testq	%r12, %r12
	je	51f
48:
	leaq	(%r12,%r12,2), %rax
	leaq	(%rbx,%rax,8), %r14
	jmp	50f
	.p2align	4
49:
	decq	%r12
	addq	$-24, %r14
	testq	%r12, %r12
	je	51f
50:
	cmpq	$0, (%r14)
	je	49b
	movq	-16(%r14), %rdi
	callq	rattle_dealloc@PLT
	jmp	49b
51:
	movq	%rbx, %rdi
52:
	addq	$112, %rsp
	popq	%rbx
	popq	%r12
	popq	%r13
	popq	%r14
	popq	%r15
	jmp	rattle_dealloc@PLT
53:
	.size	"std_collections::btree::node::Node::destroy::<#75908c3a02a00b6b>", 53b-"std_collections::btree::node::Node::destroy::<#75908c3a02a00b6b>"

	.text
	.p2align	4
	.type	"std_collections::btree::node::Node::destroy::<#d91dcfcc98d06f83>",@function
"std_collections::btree::node::Node::destroy::<#d91dcfcc98d06f83>":
	pushq	%rbp
	pushq	%r15
	pushq	%r14
	pushq	%r13
	pushq	%r12
	pushq	%rbx
	pushq	%rax
	movq	%rdi, %rbx
	movzwl	(%rdi), %r12d
	leaq	4(%rdi), %r14
	cmpw	$0, 2(%rdi)
	je	20f
	testq	%r12, %r12
	je	19f
	leaq	64(%rbx), %r13
	leaq	1(%r12), %rbp
	jmp	2f
	.p2align	4
1:
	testq	%r12, %r12
	je	19f
2:
	movq	(%r13), %r15
	decq	%rbp
	xorl	%eax, %eax
	cmpq	$257, %rbp
	jb	9f
	leaq	120(%rbx), %rcx
	.p2align	4
3:
	xorl	%edx, %edx
	.p2align	4
4:
	movups	-48(%rcx,%rdx,8), %xmm0
	movups	-32(%rcx,%rdx,8), %xmm1
	movups	-16(%rcx,%rdx,8), %xmm2
	movups	(%rcx,%rdx,8), %xmm3
	movups	%xmm0, -56(%rcx,%rdx,8)
	movups	%xmm1, -40(%rcx,%rdx,8)
	movups	%xmm2, -24(%rcx,%rdx,8)
	movups	%xmm3, -8(%rcx,%rdx,8)
	addq	$8, %rdx
	cmpq	$256, %rdx
	jne	4b
	addq	$256, %rax
	movq	%rbp, %rdx
	subq	%rax, %rdx
	addq	$2048, %rcx
	cmpq	$256, %rdx
	ja	3b
	cmpq	%rax, %rbp
	je	6f
5:
	leaq	(,%rax,8), %rdi
	addq	%r13, %rdi
	leaq	8(,%rax,8), %rsi
	addq	%r13, %rsi
	shlq	$3, %rdx
	callq	memmove@PLT
6:
	movq	%r15, %rdi
	callq	"std_collections::btree::node::Node::destroy::<#d91dcfcc98d06f83>"
	decq	%r12
	cmpq	$513, %r12
	jb	10f
	xorl	%esi, %esi
	leaq	56(%rbx), %rcx
	.p2align	4
7:
	xorl	%eax, %eax
	.p2align	4
8:
	movups	-48(%rcx,%rax,4), %xmm0
	movups	-32(%rcx,%rax,4), %xmm1
	movups	-16(%rcx,%rax,4), %xmm2
	movups	(%rcx,%rax,4), %xmm3
	movups	%xmm0, -52(%rcx,%rax,4)
	movups	%xmm1, -36(%rcx,%rax,4)
	movups	%xmm2, -20(%rcx,%rax,4)
	movups	%xmm3, -4(%rcx,%rax,4)
	addq	$16, %rax
	cmpq	$512, %rax
	jne	8b
	addq	$512, %rsi
	movq	%r12, %rax
	subq	%rsi, %rax
	addq	$2048, %rcx
	cmpq	$512, %rax
	ja	7b
	leaq	(,%rsi,4), %rcx
	leaq	(%r14,%rsi,4), %rdx
	cmpq	%rsi, %r12
	je	1b
	jmp	11f
	.p2align	4
9:
	movq	%rbp, %rdx
	cmpq	%rax, %rbp
	jne	5b
	jmp	6b
	.p2align	4
10:
	xorl	%ecx, %ecx
	movq	%r14, %rdx
	movq	%r12, %rax
	xorl	%esi, %esi
	cmpq	%rsi, %r12
	je	1b
11:
	cmpq	$8, %rax
	jb	12f
	leaq	(%rcx,%rbx), %rsi
	subq	%rdx, %rsi
	cmpq	$32, %rsi
	jae	17f
12:
	xorl	%esi, %esi
13:
	movq	%rax, %r8
	movq	%rsi, %rdi
	andq	$3, %r8
	je	15f
	leaq	(%r14,%rcx), %r9
	movq	%rsi, %rdi
	.p2align	4
14:
	movl	4(%rdx,%rdi,4), %r10d
	movl	%r10d, (%r9,%rdi,4)
	incq	%rdi
	decq	%r8
	jne	14b
15:
	subq	%rax, %rsi
	cmpq	$-4, %rsi
	ja	1b
	leaq	16(%rbx), %rsi
	addq	%rsi, %rcx
	.p2align	4
16:
	movl	4(%rdx,%rdi,4), %esi
	movl	%esi, -12(%rcx,%rdi,4)
	movl	8(%rdx,%rdi,4), %esi
	movl	%esi, -8(%rcx,%rdi,4)
	movl	12(%rdx,%rdi,4), %esi
	movl	%esi, -4(%rcx,%rdi,4)
	movl	16(%rdx,%rdi,4), %esi
	movl	%esi, (%rcx,%rdi,4)
	addq	$4, %rdi
	cmpq	%rdi, %rax
	jne	16b
	jmp	1b
17:
	movl	%eax, %esi
	andl	$1016, %esi
	leaq	20(%rbx), %rdi
	addq	%rcx, %rdi
	xorl	%r8d, %r8d
	.p2align	4
18:
	movups	4(%rdx,%r8,4), %xmm0
	movups	20(%rdx,%r8,4), %xmm1
	movups	%xmm0, -16(%rdi,%r8,4)
	movups	%xmm1, (%rdi,%r8,4)
	addq	$8, %r8
	cmpq	%r8, %rsi
	jne	18b
	cmpq	%rsi, %rax
	je	1b
	jmp	13b
19:
	movq	64(%rbx), %rdi
	callq	"std_collections::btree::node::Node::destroy::<#d91dcfcc98d06f83>"
	jmp	34f
20:
	cmpw	$15, %r12w
	jbe	21f
	movl	%r12d, %ecx
	shrl	%ecx
	subq	%rcx, %r12
	leaq	(%r14,%r12,4), %rdx
	movq	%r14, %rdi
	xorl	%esi, %esi
	callq	"core::slice::edits::mirror::<i32>"
	jmp	34f
21:
	cmpw	$2, %r12w
	jb	34f
	leaq	-2(%r12), %rcx
	movq	%rcx, %rax
	shrq	%rax
	cmpq	$1, %r12
	je	22f
	movl	(%r14), %edx
	movl	-4(%r14,%r12,4), %esi
	movl	%esi, (%r14)
	movl	%edx, -4(%r14,%r12,4)
22:
	testq	%rax, %rax
	je	34f
	cmpq	$1, %rcx
	jbe	23f
	movl	8(%rbx), %ecx
	movl	-4(%rbx,%r12,4), %edx
	movl	%edx, 8(%rbx)
	movl	%ecx, -4(%rbx,%r12,4)
	jmp	24f
23:
	testq	%rcx, %rcx
	jne	24f
	rolq	$32, 4(%rbx)
24:
	cmpq	$1, %rax
	je	34f
	leaq	-3(%r12), %rcx
	cmpq	$2, %rcx
	jbe	25f
	movl	12(%rbx), %ecx
	movl	-8(%rbx,%r12,4), %edx
	movl	%edx, 12(%rbx)
	movl	%ecx, -8(%rbx,%r12,4)
	jmp	26f
25:
	cmpl	$2, %ecx
	je	26f
	movl	-8(%rbx,%r12,4), %ecx
	movl	12(%rbx), %edx
	movl	%edx, -8(%rbx,%r12,4)
	movl	%ecx, 12(%rbx)
26:
	cmpq	$2, %rax
	je	34f
	leaq	-4(%r12), %rcx
	cmpq	$3, %rcx
	jbe	27f
	movl	16(%rbx), %ecx
	movl	-12(%rbx,%r12,4), %edx
	movl	%edx, 16(%rbx)
	movl	%ecx, -12(%rbx,%r12,4)
	jmp	28f
27:
	cmpl	$3, %ecx
	je	28f
	movl	-12(%rbx,%r12,4), %ecx
	movl	16(%rbx), %edx
	movl	%edx, -12(%rbx,%r12,4)
	movl	%ecx, 16(%rbx)
28:
	cmpq	$3, %rax
	je	34f
	leaq	-5(%r12), %rcx
	cmpq	$4, %rcx
	jbe	29f
	movl	20(%rbx), %ecx
	movl	-16(%rbx,%r12,4), %edx
	movl	%edx, 20(%rbx)
	movl	%ecx, -16(%rbx,%r12,4)
	jmp	30f
29:
	cmpl	$4, %ecx
	je	30f
	movl	-16(%rbx,%r12,4), %ecx
	movl	20(%rbx), %edx
	movl	%edx, -16(%rbx,%r12,4)
	movl	%ecx, 20(%rbx)
30:
	cmpq	$4, %rax
	je	34f
	leaq	-6(%r12), %rcx
	cmpq	$5, %rcx
	jbe	31f
	movl	24(%rbx), %ecx
	movl	-20(%rbx,%r12,4), %edx
	movl	%edx, 24(%rbx)
	movl	%ecx, -20(%rbx,%r12,4)
	jmp	32f
31:
	cmpl	$5, %ecx
	je	32f
	movl	-20(%rbx,%r12,4), %ecx
	movl	24(%rbx), %edx
	movl	%edx, -20(%rbx,%r12,4)
	movl	%ecx, 24(%rbx)
32:
	cmpq	$5, %rax
	je	34f
	leaq	-7(%r12), %rax
	cmpq	$6, %rax
	jbe	33f
	movl	28(%rbx), %eax
	movl	-24(%rbx,%r12,4), %ecx
	movl	%ecx, 28(%rbx)
	movl	%eax, -24(%rbx,%r12,4)
	jmp	34f
33:
	cmpl	$6, %eax
	je	34f
	movl	-24(%rbx,%r12,4), %eax
	movl	28(%rbx), %ecx
	movl	%ecx, -24(%rbx,%r12,4)
	movl	%eax, 28(%rbx)
34:
	movq	%rbx, %rdi
	addq	$8, %rsp
	popq	%rbx
	popq	%r12
	popq	%r13
	popq	%r14
	popq	%r15
	popq	%rbp
	jmp	rattle_dealloc@PLT
35:
	.size	"std_collections::btree::node::Node::destroy::<#d91dcfcc98d06f83>", 35b-"std_collections::btree::node::Node::destroy::<#d91dcfcc98d06f83>"

	.text
	.p2align	4
	.type	"std_collections::btree::node::Node::destroy::<#edcdc2349bef7e9b>",@function
"std_collections::btree::node::Node::destroy::<#edcdc2349bef7e9b>":
	pushq	%rbp
	pushq	%r15
	pushq	%r14
	pushq	%r13
	pushq	%r12
	pushq	%rbx
	pushq	%rax
	movq	%rdi, %rbx
	movzwl	(%rdi), %r12d
	leaq	4(%rdi), %r14
	cmpw	$0, 2(%rdi)
	je	20f
	testq	%r12, %r12
	je	19f
	leaq	64(%rbx), %r13
	leaq	1(%r12), %rbp
	jmp	2f
	.p2align	4
1:
	testq	%r12, %r12
	je	19f
2:
	movq	(%r13), %r15
	decq	%rbp
	xorl	%eax, %eax
	cmpq	$257, %rbp
	jb	9f
	leaq	120(%rbx), %rcx
	.p2align	4
3:
	xorl	%edx, %edx
	.p2align	4
4:
	movups	-48(%rcx,%rdx,8), %xmm0
	movups	-32(%rcx,%rdx,8), %xmm1
	movups	-16(%rcx,%rdx,8), %xmm2
	movups	(%rcx,%rdx,8), %xmm3
	movups	%xmm0, -56(%rcx,%rdx,8)
	movups	%xmm1, -40(%rcx,%rdx,8)
	movups	%xmm2, -24(%rcx,%rdx,8)
	movups	%xmm3, -8(%rcx,%rdx,8)
	addq	$8, %rdx
	cmpq	$256, %rdx
	jne	4b
	addq	$256, %rax
	movq	%rbp, %rdx
	subq	%rax, %rdx
	addq	$2048, %rcx
	cmpq	$256, %rdx
	ja	3b
	cmpq	%rax, %rbp
	je	6f
5:
	leaq	(,%rax,8), %rdi
	addq	%r13, %rdi
	leaq	8(,%rax,8), %rsi
	addq	%r13, %rsi
	shlq	$3, %rdx
	callq	memmove@PLT
6:
	movq	%r15, %rdi
	callq	"std_collections::btree::node::Node::destroy::<#edcdc2349bef7e9b>"
	decq	%r12
	cmpq	$513, %r12
	jb	10f
	xorl	%esi, %esi
	leaq	56(%rbx), %rcx
	.p2align	4
7:
	xorl	%eax, %eax
	.p2align	4
8:
	movups	-48(%rcx,%rax,4), %xmm0
	movups	-32(%rcx,%rax,4), %xmm1
	movups	-16(%rcx,%rax,4), %xmm2
	movups	(%rcx,%rax,4), %xmm3
	movups	%xmm0, -52(%rcx,%rax,4)
	movups	%xmm1, -36(%rcx,%rax,4)
	movups	%xmm2, -20(%rcx,%rax,4)
	movups	%xmm3, -4(%rcx,%rax,4)
	addq	$16, %rax
	cmpq	$512, %rax
	jne	8b
	addq	$512, %rsi
	movq	%r12, %rax
	subq	%rsi, %rax
	addq	$2048, %rcx
	cmpq	$512, %rax
	ja	7b
	leaq	(,%rsi,4), %rcx
	leaq	(%r14,%rsi,4), %rdx
	cmpq	%rsi, %r12
	je	1b
	jmp	11f
	.p2align	4
9:
	movq	%rbp, %rdx
	cmpq	%rax, %rbp
	jne	5b
	jmp	6b
	.p2align	4
10:
	xorl	%ecx, %ecx
	movq	%r14, %rdx
	movq	%r12, %rax
	xorl	%esi, %esi
	cmpq	%rsi, %r12
	je	1b
11:
	cmpq	$8, %rax
	jb	12f
	leaq	(%rcx,%rbx), %rsi
	subq	%rdx, %rsi
	cmpq	$32, %rsi
	jae	17f
12:
	xorl	%esi, %esi
13:
	movq	%rax, %r8
	movq	%rsi, %rdi
	andq	$3, %r8
	je	15f
	leaq	(%r14,%rcx), %r9
	movq	%rsi, %rdi
	.p2align	4
14:
	movl	4(%rdx,%rdi,4), %r10d
	movl	%r10d, (%r9,%rdi,4)
	incq	%rdi
	decq	%r8
	jne	14b
15:
	subq	%rax, %rsi
	cmpq	$-4, %rsi
	ja	1b
	leaq	16(%rbx), %rsi
	addq	%rsi, %rcx
	.p2align	4
16:
	movl	4(%rdx,%rdi,4), %esi
	movl	%esi, -12(%rcx,%rdi,4)
	movl	8(%rdx,%rdi,4), %esi
	movl	%esi, -8(%rcx,%rdi,4)
	movl	12(%rdx,%rdi,4), %esi
	movl	%esi, -4(%rcx,%rdi,4)
	movl	16(%rdx,%rdi,4), %esi
	movl	%esi, (%rcx,%rdi,4)
	addq	$4, %rdi
	cmpq	%rdi, %rax
	jne	16b
	jmp	1b
17:
	movl	%eax, %esi
	andl	$1016, %esi
	leaq	20(%rbx), %rdi
	addq	%rcx, %rdi
	xorl	%r8d, %r8d
	.p2align	4
18:
	movups	4(%rdx,%r8,4), %xmm0
	movups	20(%rdx,%r8,4), %xmm1
	movups	%xmm0, -16(%rdi,%r8,4)
	movups	%xmm1, (%rdi,%r8,4)
	addq	$8, %r8
	cmpq	%r8, %rsi
	jne	18b
	cmpq	%rsi, %rax
	je	1b
	jmp	13b
19:
	movq	64(%rbx), %rdi
	callq	"std_collections::btree::node::Node::destroy::<#edcdc2349bef7e9b>"
	jmp	34f
20:
	cmpw	$15, %r12w
	jbe	21f
	movl	%r12d, %ecx
	shrl	%ecx
	subq	%rcx, %r12
	leaq	(%r14,%r12,4), %rdx
	movq	%r14, %rdi
	xorl	%esi, %esi
	callq	"core::slice::edits::mirror::<i32>"
	jmp	34f
21:
	cmpw	$2, %r12w
	jb	34f
	leaq	-2(%r12), %rcx
	movq	%rcx, %rax
	shrq	%rax
	cmpq	$1, %r12
	je	22f
	movl	(%r14), %edx
	movl	-4(%r14,%r12,4), %esi
	movl	%esi, (%r14)
	movl	%edx, -4(%r14,%r12,4)
22:
	testq	%rax, %rax
	je	34f
	cmpq	$1, %rcx
	jbe	23f
	movl	8(%rbx), %ecx
	movl	-4(%rbx,%r12,4), %edx
	movl	%edx, 8(%rbx)
	movl	%ecx, -4(%rbx,%r12,4)
	jmp	24f
23:
	testq	%rcx, %rcx
	jne	24f
	rolq	$32, 4(%rbx)
24:
	cmpq	$1, %rax
	je	34f
	leaq	-3(%r12), %rcx
	cmpq	$2, %rcx
	jbe	25f
	movl	12(%rbx), %ecx
	movl	-8(%rbx,%r12,4), %edx
	movl	%edx, 12(%rbx)
	movl	%ecx, -8(%rbx,%r12,4)
	jmp	26f
25:
	cmpl	$2, %ecx
	je	26f
	movl	-8(%rbx,%r12,4), %ecx
	movl	12(%rbx), %edx
	movl	%edx, -8(%rbx,%r12,4)
	movl	%ecx, 12(%rbx)
26:
	cmpq	$2, %rax
	je	34f
	leaq	-4(%r12), %rcx
	cmpq	$3, %rcx
	jbe	27f
	movl	16(%rbx), %ecx
	movl	-12(%rbx,%r12,4), %edx
	movl	%edx, 16(%rbx)
	movl	%ecx, -12(%rbx,%r12,4)
	jmp	28f
27:
	cmpl	$3, %ecx
	je	28f
	movl	-12(%rbx,%r12,4), %ecx
	movl	16(%rbx), %edx
	movl	%edx, -12(%rbx,%r12,4)
	movl	%ecx, 16(%rbx)
28:
	cmpq	$3, %rax
	je	34f
	leaq	-5(%r12), %rcx
	cmpq	$4, %rcx
	jbe	29f
	movl	20(%rbx), %ecx
	movl	-16(%rbx,%r12,4), %edx
	movl	%edx, 20(%rbx)
	movl	%ecx, -16(%rbx,%r12,4)
	jmp	30f
29:
	cmpl	$4, %ecx
	je	30f
	movl	-16(%rbx,%r12,4), %ecx
	movl	20(%rbx), %edx
	movl	%edx, -16(%rbx,%r12,4)
	movl	%ecx, 20(%rbx)
30:
	cmpq	$4, %rax
	je	34f
	leaq	-6(%r12), %rcx
	cmpq	$5, %rcx
	jbe	31f
	movl	24(%rbx), %ecx
	movl	-20(%rbx,%r12,4), %edx
	movl	%edx, 24(%rbx)
	movl	%ecx, -20(%rbx,%r12,4)
	jmp	32f
31:
	cmpl	$5, %ecx
	je	32f
	movl	-20(%rbx,%r12,4), %ecx
	movl	24(%rbx), %edx
	movl	%edx, -20(%rbx,%r12,4)
	movl	%ecx, 24(%rbx)
32:
	cmpq	$5, %rax
	je	34f
	leaq	-7(%r12), %rax
	cmpq	$6, %rax
	jbe	33f
	movl	28(%rbx), %eax
	movl	-24(%rbx,%r12,4), %ecx
	movl	%ecx, 28(%rbx)
	movl	%eax, -24(%rbx,%r12,4)
	jmp	34f
33:
	cmpl	$6, %eax
	je	34f
	movl	-24(%rbx,%r12,4), %eax
	movl	28(%rbx), %ecx
	movl	%ecx, -24(%rbx,%r12,4)
	movl	%eax, 28(%rbx)
34:
	movq	%rbx, %rdi
	addq	$8, %rsp
	popq	%rbx
	popq	%r12
	popq	%r13
	popq	%r14
	popq	%r15
	popq	%rbp
	jmp	rattle_dealloc@PLT
35:
	.size	"std_collections::btree::node::Node::destroy::<#edcdc2349bef7e9b>", 35b-"std_collections::btree::node::Node::destroy::<#edcdc2349bef7e9b>"

	.text
	.p2align	4
	.type	"std_collections::btree::node::Node::destroy::<#ff262cf09b237c33>",@function
"std_collections::btree::node::Node::destroy::<#ff262cf09b237c33>":
	pushq	%r15
	pushq	%r14
	pushq	%rbx
	subq	$128, %rsp
	movzwl	(%rdi), %ecx
	movzwl	2(%rdi), %edx
	xorl	%r8d, %r8d
	testw	%dx, %dx
	setne	%r8b
	leaq	1(%rcx), %r9
	shll	$4, %r8d
	leaq	608(%rdi), %rsi
	leaq	8(%rdi), %rax
	xorl	%r10d, %r10d
	testw	%dx, %dx
	cmovneq	%r9, %r10
	movq	%rax, 48(%rsp)
	movq	%rcx, 56(%rsp)
	movq	$15, 64(%rsp)
	movq	%rsi, 72(%rsp)
	movq	%rcx, 80(%rsp)
	movq	$15, 88(%rsp)
	movq	%rsi, 96(%rsp)
	movq	%r10, 104(%rsp)
	movq	%r8, 112(%rsp)
	movq	%rdi, 120(%rsp)
	je	14f
	testq	%rcx, %rcx
	jne	7f
	movq	(%rsi), %rbx
	cmpq	$257, %rcx
	jb	13f
1:
	leaq	56(%rsi), %rdi
	xorl	%eax, %eax
	.p2align	4
2:
	xorl	%edx, %edx
	.p2align	4
3:
	movups	-48(%rdi,%rdx,8), %xmm0
	movups	-32(%rdi,%rdx,8), %xmm1
	movups	-16(%rdi,%rdx,8), %xmm2
	movups	(%rdi,%rdx,8), %xmm3
	movups	%xmm0, -56(%rdi,%rdx,8)
	movups	%xmm1, -40(%rdi,%rdx,8)
	movups	%xmm2, -24(%rdi,%rdx,8)
	movups	%xmm3, -8(%rdi,%rdx,8)
	addq	$8, %rdx
	cmpq	$256, %rdx
	jne	3b
	addq	$256, %rax
	movq	%rcx, %rdx
	subq	%rax, %rdx
	addq	$2048, %rdi
	cmpq	$256, %rdx
	ja	2b
	cmpq	%rax, %rcx
	je	5f
4:
	leaq	(%rsi,%rax,8), %rdi
	leaq	(%rsi,%rax,8), %rsi
	addq	$8, %rsi
	shlq	$3, %rdx
	callq	memmove@PLT
5:
	movq	%rbx, %rdi
	callq	"std_collections::btree::node::Node::destroy::<#ff262cf09b237c33>"
	movq	120(%rsp), %rdi
	jmp	28f
	.p2align	4
6:
	movq	%r14, 104(%rsp)
	movq	%r15, 112(%rsp)
	movq	%rbx, %rdi
	callq	"std_collections::btree::node::Node::destroy::<#ff262cf09b237c33>"
	movq	%rsp, %rdi
	leaq	48(%rsp), %rsi
	xorl	%edx, %edx
	callq	"std_alloc::vec::Vec::remove::<#21647806b46d5bf1>"
	decq	80(%rsp)
	cmpq	$0, 56(%rsp)
	je	12f
7:
	movq	96(%rsp), %rax
	movq	104(%rsp), %r14
	movq	(%rax), %rbx
	decq	%r14
	cmpq	$257, %r14
	jb	10f
	leaq	56(%rax), %rsi
	xorl	%ecx, %ecx
	.p2align	4
8:
	xorl	%edx, %edx
	.p2align	4
9:
	movups	-48(%rsi,%rdx,8), %xmm0
	movups	-32(%rsi,%rdx,8), %xmm1
	movups	-16(%rsi,%rdx,8), %xmm2
	movups	(%rsi,%rdx,8), %xmm3
	movups	%xmm0, -56(%rsi,%rdx,8)
	movups	%xmm1, -40(%rsi,%rdx,8)
	movups	%xmm2, -24(%rsi,%rdx,8)
	movups	%xmm3, -8(%rsi,%rdx,8)
	addq	$8, %rdx
	cmpq	$256, %rdx
	jne	9b
	addq	$256, %rcx
	movq	%r14, %rdx
	subq	%rcx, %rdx
	addq	$2048, %rsi
	cmpq	$256, %rdx
	ja	8b
	movq	112(%rsp), %r15
	cmpq	%rcx, %r14
	je	6b
	jmp	11f
	.p2align	4
10:
	xorl	%ecx, %ecx
	movq	%r14, %rdx
	movq	112(%rsp), %r15
	cmpq	%rcx, %r14
	je	6b
11:
	leaq	(%rax,%rcx,8), %rdi
	leaq	(%rax,%rcx,8), %rsi
	addq	$8, %rsi
	shlq	$3, %rdx
	callq	memmove@PLT
	jmp	6b
12:
	movq	96(%rsp), %rsi
	movq	104(%rsp), %rcx
	decq	%rcx
	movq	(%rsi), %rbx
	cmpq	$257, %rcx
	jae	1b
13:
	xorl	%eax, %eax
	movq	%rcx, %rdx
	cmpq	%rax, %rcx
	jne	4b
	jmp	5b
14:
	cmpw	$15, %cx
	jbe	15f
	movl	%ecx, %edx
	shrl	%edx
	subq	%rdx, %rcx
	leaq	(%rcx,%rcx,4), %rcx
	leaq	(%rax,%rcx,8), %rsi
	movq	%rdi, %rbx
	movq	%rax, %rdi
	callq	"core::slice::edits::mirror::<39'(,,)::<i64,3'&[](*,i64,),3'&[](*,i64,)>>"
	movq	%rbx, %rdi
	jmp	28f
15:
	cmpw	$2, %cx
	jb	28f
	leaq	-2(%rcx), %rsi
	movq	%rsi, %rdx
	shrq	%rdx
	movq	%rcx, %r8
	decq	%r8
	je	16f
	leaq	(%r8,%r8,4), %r8
	movq	32(%rax), %r9
	movq	%r9, 32(%rsp)
	movups	(%rax), %xmm0
	movups	16(%rax), %xmm1
	movaps	%xmm1, 16(%rsp)
	movaps	%xmm0, (%rsp)
	movq	32(%rax,%r8,8), %r9
	movups	(%rax,%r8,8), %xmm0
	movups	16(%rax,%r8,8), %xmm1
	movups	%xmm0, (%rax)
	movups	%xmm1, 16(%rax)
	movq	%r9, 32(%rax)
	movq	32(%rsp), %r9
	movq	%r9, 32(%rax,%r8,8)
	movaps	(%rsp), %xmm0
	movaps	16(%rsp), %xmm1
	movups	%xmm1, 16(%rax,%r8,8)
	movups	%xmm0, (%rax,%r8,8)
16:
	testq	%rdx, %rdx
	je	28f
	cmpq	$1, %rsi
	jbe	17f
	leaq	(%rsi,%rsi,4), %rsi
	movq	80(%rdi), %r8
	movq	%r8, 32(%rsp)
	movups	48(%rdi), %xmm0
	movups	64(%rdi), %xmm1
	movaps	%xmm1, 16(%rsp)
	movaps	%xmm0, (%rsp)
	movq	32(%rax,%rsi,8), %r8
	movups	(%rax,%rsi,8), %xmm0
	movups	16(%rax,%rsi,8), %xmm1
	movups	%xmm0, 48(%rdi)
	movups	%xmm1, 64(%rdi)
	movq	%r8, 80(%rdi)
	movq	32(%rsp), %r8
	movq	%r8, 32(%rax,%rsi,8)
	movaps	(%rsp), %xmm0
	movaps	16(%rsp), %xmm1
	movups	%xmm1, 16(%rax,%rsi,8)
	movups	%xmm0, (%rax,%rsi,8)
	jmp	18f
17:
	testq	%rsi, %rsi
	jne	18f
	leaq	(%rsi,%rsi,4), %rsi
	movq	32(%rax,%rsi,8), %r8
	movq	%r8, 32(%rsp)
	movups	(%rax,%rsi,8), %xmm0
	movups	16(%rax,%rsi,8), %xmm1
	movaps	%xmm1, 16(%rsp)
	movaps	%xmm0, (%rsp)
	movq	80(%rdi), %r8
	movups	48(%rdi), %xmm0
	movups	64(%rdi), %xmm1
	movups	%xmm0, (%rax,%rsi,8)
	movups	%xmm1, 16(%rax,%rsi,8)
	movq	%r8, 32(%rax,%rsi,8)
	movq	32(%rsp), %rsi
	movq	%rsi, 80(%rdi)
	movaps	(%rsp), %xmm0
	movaps	16(%rsp), %xmm1
	movups	%xmm1, 64(%rdi)
	movups	%xmm0, 48(%rdi)
18:
	cmpq	$1, %rdx
	je	28f
	leaq	-3(%rcx), %rsi
	cmpq	$2, %rsi
	jbe	19f
	leaq	(%rsi,%rsi,4), %rsi
	movq	120(%rdi), %r8
	movq	%r8, 32(%rsp)
	movups	88(%rdi), %xmm0
	movups	104(%rdi), %xmm1
	movaps	%xmm1, 16(%rsp)
	movaps	%xmm0, (%rsp)
	movq	32(%rax,%rsi,8), %r8
	movups	(%rax,%rsi,8), %xmm0
	movups	16(%rax,%rsi,8), %xmm1
	movups	%xmm0, 88(%rdi)
	movups	%xmm1, 104(%rdi)
	movq	%r8, 120(%rdi)
	movq	32(%rsp), %r8
	movq	%r8, 32(%rax,%rsi,8)
	movaps	(%rsp), %xmm0
	movaps	16(%rsp), %xmm1
	movups	%xmm1, 16(%rax,%rsi,8)
	movups	%xmm0, (%rax,%rsi,8)
	jmp	20f
19:
	cmpl	$2, %esi
	je	20f
	leaq	(%rsi,%rsi,4), %rsi
	movq	32(%rax,%rsi,8), %r8
	movq	%r8, 32(%rsp)
	movups	(%rax,%rsi,8), %xmm0
	movups	16(%rax,%rsi,8), %xmm1
	movaps	%xmm1, 16(%rsp)
	movaps	%xmm0, (%rsp)
	movq	120(%rdi), %r8
	movups	88(%rdi), %xmm0
	movups	104(%rdi), %xmm1
	movups	%xmm0, (%rax,%rsi,8)
	movups	%xmm1, 16(%rax,%rsi,8)
	movq	%r8, 32(%rax,%rsi,8)
	movq	32(%rsp), %rsi
	movq	%rsi, 120(%rdi)
	movaps	(%rsp), %xmm0
	movaps	16(%rsp), %xmm1
	movups	%xmm1, 104(%rdi)
	movups	%xmm0, 88(%rdi)
20:
	cmpq	$2, %rdx
	je	28f
	leaq	-4(%rcx), %rsi
	cmpq	$3, %rsi
	jbe	21f
	leaq	(%rsi,%rsi,4), %rsi
	movq	160(%rdi), %r8
	movq	%r8, 32(%rsp)
	movups	128(%rdi), %xmm0
	movups	144(%rdi), %xmm1
	movaps	%xmm1, 16(%rsp)
	movaps	%xmm0, (%rsp)
	movq	32(%rax,%rsi,8), %r8
	movups	(%rax,%rsi,8), %xmm0
	movups	16(%rax,%rsi,8), %xmm1
	movups	%xmm0, 128(%rdi)
	movups	%xmm1, 144(%rdi)
	movq	%r8, 160(%rdi)
	movq	32(%rsp), %r8
	movq	%r8, 32(%rax,%rsi,8)
	movaps	(%rsp), %xmm0
	movaps	16(%rsp), %xmm1
	movups	%xmm1, 16(%rax,%rsi,8)
	movups	%xmm0, (%rax,%rsi,8)
	jmp	22f
21:
	cmpl	$3, %esi
	je	22f
	leaq	(%rsi,%rsi,4), %rsi
	movq	32(%rax,%rsi,8), %r8
	movq	%r8, 32(%rsp)
	movups	(%rax,%rsi,8), %xmm0
	movups	16(%rax,%rsi,8), %xmm1
	movaps	%xmm1, 16(%rsp)
	movaps	%xmm0, (%rsp)
	movq	160(%rdi), %r8
	movups	128(%rdi), %xmm0
	movups	144(%rdi), %xmm1
	movups	%xmm0, (%rax,%rsi,8)
	movups	%xmm1, 16(%rax,%rsi,8)
	movq	%r8, 32(%rax,%rsi,8)
	movq	32(%rsp), %rsi
	movq	%rsi, 160(%rdi)
	movaps	(%rsp), %xmm0
	movaps	16(%rsp), %xmm1
	movups	%xmm1, 144(%rdi)
	movups	%xmm0, 128(%rdi)
22:
	cmpq	$3, %rdx
	je	28f
	leaq	-5(%rcx), %rsi
	cmpq	$4, %rsi
	jbe	23f
	leaq	(%rsi,%rsi,4), %rsi
	movq	200(%rdi), %r8
	movq	%r8, 32(%rsp)
	movups	168(%rdi), %xmm0
	movups	184(%rdi), %xmm1
	movaps	%xmm1, 16(%rsp)
	movaps	%xmm0, (%rsp)
	movq	32(%rax,%rsi,8), %r8
	movups	(%rax,%rsi,8), %xmm0
	movups	16(%rax,%rsi,8), %xmm1
	movups	%xmm0, 168(%rdi)
	movups	%xmm1, 184(%rdi)
	movq	%r8, 200(%rdi)
	movq	32(%rsp), %r8
	movq	%r8, 32(%rax,%rsi,8)
	movaps	(%rsp), %xmm0
	movaps	16(%rsp), %xmm1
	movups	%xmm1, 16(%rax,%rsi,8)
	movups	%xmm0, (%rax,%rsi,8)
	jmp	24f
23:
	cmpl	$4, %esi
	je	24f
	leaq	(%rsi,%rsi,4), %rsi
	movq	32(%rax,%rsi,8), %r8
	movq	%r8, 32(%rsp)
	movups	(%rax,%rsi,8), %xmm0
	movups	16(%rax,%rsi,8), %xmm1
	movaps	%xmm1, 16(%rsp)
	movaps	%xmm0, (%rsp)
	movq	200(%rdi), %r8
	movups	168(%rdi), %xmm0
	movups	184(%rdi), %xmm1
	movups	%xmm0, (%rax,%rsi,8)
	movups	%xmm1, 16(%rax,%rsi,8)
	movq	%r8, 32(%rax,%rsi,8)
	movq	32(%rsp), %rsi
	movq	%rsi, 200(%rdi)
	movaps	(%rsp), %xmm0
	movaps	16(%rsp), %xmm1
	movups	%xmm1, 184(%rdi)
	movups	%xmm0, 168(%rdi)
24:
	cmpq	$4, %rdx
	je	28f
	leaq	-6(%rcx), %rsi
	cmpq	$5, %rsi
	jbe	25f
	leaq	(%rsi,%rsi,4), %rsi
	movq	240(%rdi), %r8
	movq	%r8, 32(%rsp)
	movups	208(%rdi), %xmm0
	movups	224(%rdi), %xmm1
	movaps	%xmm1, 16(%rsp)
	movaps	%xmm0, (%rsp)
	movq	32(%rax,%rsi,8), %r8
	movups	(%rax,%rsi,8), %xmm0
	movups	16(%rax,%rsi,8), %xmm1
	movups	%xmm0, 208(%rdi)
	movups	%xmm1, 224(%rdi)
	movq	%r8, 240(%rdi)
	movq	32(%rsp), %r8
	movq	%r8, 32(%rax,%rsi,8)
	movaps	(%rsp), %xmm0
	movaps	16(%rsp), %xmm1
	movups	%xmm1, 16(%rax,%rsi,8)
	movups	%xmm0, (%rax,%rsi,8)
	jmp	26f
25:
	cmpl	$5, %esi
	je	26f
	leaq	(%rsi,%rsi,4), %rsi
	movq	32(%rax,%rsi,8), %r8
	movq	%r8, 32(%rsp)
	movups	(%rax,%rsi,8), %xmm0
	movups	16(%rax,%rsi,8), %xmm1
	movaps	%xmm1, 16(%rsp)
	movaps	%xmm0, (%rsp)
	movq	240(%rdi), %r8
	movups	208(%rdi), %xmm0
	movups	224(%rdi), %xmm1
	movups	%xmm0, (%rax,%rsi,8)
	movups	%xmm1, 16(%rax,%rsi,8)
	movq	%r8, 32(%rax,%rsi,8)
	movq	32(%rsp), %rsi
	movq	%rsi, 240(%rdi)
	movaps	(%rsp), %xmm0
	movaps	16(%rsp), %xmm1
	movups	%xmm1, 224(%rdi)
	movups	%xmm0, 208(%rdi)
26:
	cmpq	$5, %rdx
	je	28f
	addq	$-7, %rcx
	cmpq	$6, %rcx
	jbe	27f
	leaq	(%rcx,%rcx,4), %rcx
	movq	280(%rdi), %rdx
	movq	%rdx, 32(%rsp)
	movups	248(%rdi), %xmm0
	movups	264(%rdi), %xmm1
	movaps	%xmm1, 16(%rsp)
	movaps	%xmm0, (%rsp)
	movq	32(%rax,%rcx,8), %rdx
	movups	(%rax,%rcx,8), %xmm0
	movups	16(%rax,%rcx,8), %xmm1
	movups	%xmm0, 248(%rdi)
	movups	%xmm1, 264(%rdi)
	movq	%rdx, 280(%rdi)
	movq	32(%rsp), %rdx
	movq	%rdx, 32(%rax,%rcx,8)
	movaps	(%rsp), %xmm0
	movaps	16(%rsp), %xmm1
	movups	%xmm1, 16(%rax,%rcx,8)
	movups	%xmm0, (%rax,%rcx,8)
	jmp	28f
27:
	cmpl	$6, %ecx
	je	28f
	leaq	(%rcx,%rcx,4), %rcx
	movq	32(%rax,%rcx,8), %rdx
	movq	%rdx, 32(%rsp)
	movups	(%rax,%rcx,8), %xmm0
	movups	16(%rax,%rcx,8), %xmm1
	movaps	%xmm1, 16(%rsp)
	movaps	%xmm0, (%rsp)
	movq	280(%rdi), %rdx
	movups	248(%rdi), %xmm0
	movups	264(%rdi), %xmm1
	movups	%xmm0, (%rax,%rcx,8)
	movups	%xmm1, 16(%rax,%rcx,8)
	movq	%rdx, 32(%rax,%rcx,8)
	movq	32(%rsp), %rax
	movq	%rax, 280(%rdi)
	movaps	(%rsp), %xmm0
	movaps	16(%rsp), %xmm1
	movups	%xmm1, 264(%rdi)
	movups	%xmm0, 248(%rdi)
28:
	addq	$128, %rsp
	popq	%rbx
	popq	%r14
	popq	%r15
	jmp	rattle_dealloc@PLT
29:
	.size	"std_collections::btree::node::Node::destroy::<#ff262cf09b237c33>", 29b-"std_collections::btree::node::Node::destroy::<#ff262cf09b237c33>"
