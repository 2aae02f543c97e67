# Made by dist/refresh of what is proved.

	.text
	.p2align	4
	.type	"std_collections::btree::iter::Cursor::advance::<24'(,)::<#ee13f2425f1aee9b>,i64>",@function
"std_collections::btree::iter::Cursor::advance::<24'(,)::<#ee13f2425f1aee9b>,i64>":
	pushq	%r15
	pushq	%r14
	pushq	%rbx
	movq	%rcx, %rax
	cmpq	$-1, %rsi
	je	1f
	movl	%esi, %r9d
	andl	$15, %r9d
	movq	(%rdx), %r10
	movzwl	(%r10), %ecx
	cmpq	%rcx, %r9
	jae	6f
	movl	%r9d, %eax
	shll	$5, %eax
	leaq	(%r10,%rax), %rcx
	addq	$8, %rcx
	leaq	(%r10,%r9,8), %r11
	addq	$488, %r11
	incq	%rsi
	movl	$1, %ebx
	movq	%rsi, %r9
	movq	%rdx, %rax
	cmpq	%r8, %r9
	je	5f
	jmp	13f
1:
	movq	(%rax), %rdx
	xorl	%ebx, %ebx
	cmpw	$1, 2(%rdx)
	movl	$0, %ecx
	movl	$0, %r11d
	movl	$0, %r9d
	je	4f
	movq	608(%rdx), %rax
	cmpw	$1, 2(%rax)
	je	3f
	.p2align	4
2:
	movq	%rax, %rdx
	movq	608(%rax), %rax
	cmpw	$1, 2(%rax)
	jne	2b
3:
	addq	$608, %rdx
	xorl	%ebx, %ebx
	xorl	%ecx, %ecx
	xorl	%r11d, %r11d
	xorl	%r9d, %r9d
	movq	%rdx, %rax
4:
	cmpq	%r8, %r9
	jne	13f
5:
	movq	%rbx, (%rdi)
	movq	%rcx, 8(%rdi)
	movq	%r11, 16(%rdi)
	xorps	%xmm0, %xmm0
	movups	%xmm0, 24(%rdi)
	movq	$0, 40(%rdi)
	popq	%rbx
	popq	%r14
	popq	%r15
	retq
6:
	movq	(%rax), %r11
	movzwl	2(%r11), %ecx
	cmpw	$1, %cx
	je	14f
	xorl	%edx, %edx
	xorl	%r9d, %r9d
	xorl	%r10d, %r10d
	xorl	%ebx, %ebx
	xorl	%r14d, %r14d
	jmp	8f
	.p2align	4
7:
	shlq	$4, %r14
	orq	%r15, %r14
	leaq	(%r11,%r15,8), %rax
	addq	$608, %rax
	movq	608(%r11,%r15,8), %r11
	movzwl	2(%r11), %ecx
	cmpw	$1, %cx
	je	9f
8:
	shll	$2, %ecx
	addb	$-4, %cl
	movq	%rsi, %r15
	shrq	%cl, %r15
	andl	$15, %r15d
	movzwl	(%r11), %ecx
	cmpq	%rcx, %r15
	jae	7b
	movb	$1, %bl
	movq	%rax, %r10
	movq	%r14, %r9
	movq	%r15, %rdx
	jmp	7b
9:
	testb	%bl, %bl
	je	14f
	movq	(%r10), %rax
	movq	%rdx, %rcx
	shlq	$5, %rcx
	leaq	1(%rdx), %rsi
	cmpw	$1, 2(%rax)
	je	12f
	shlq	$4, %r9
	addq	%rsi, %r9
	movq	608(%rax,%rsi,8), %r11
	cmpw	$1, 2(%r11)
	jne	10f
	shlq	$3, %rsi
	movq	%rax, %r10
	jmp	11f
	.p2align	4
10:
	movq	%r11, %r10
	shlq	$4, %r9
	movq	608(%r11), %r11
	cmpw	$1, 2(%r11)
	jne	10b
	xorl	%esi, %esi
11:
	addq	%rsi, %r10
	addq	$608, %r10
	xorl	%esi, %esi
12:
	addq	%rax, %rcx
	addq	$8, %rcx
	leaq	(%rax,%rdx,8), %r11
	addq	$488, %r11
	shlq	$4, %r9
	addq	%rsi, %r9
	movl	$1, %ebx
	movq	%r10, %rax
	cmpq	%r8, %r9
	je	5b
13:
	movq	%rbx, (%rdi)
	movq	%rcx, 8(%rdi)
	movq	%r11, 16(%rdi)
	movq	$1, 24(%rdi)
	movq	%r9, 32(%rdi)
	movq	%rax, 40(%rdi)
	popq	%rbx
	popq	%r14
	popq	%r15
	retq
14:
	xorps	%xmm0, %xmm0
	movups	%xmm0, 32(%rdi)
	movups	%xmm0, 16(%rdi)
	movups	%xmm0, (%rdi)
	popq	%rbx
	popq	%r14
	popq	%r15
	retq
15:
	.size	"std_collections::btree::iter::Cursor::advance::<24'(,)::<#ee13f2425f1aee9b>,i64>", 15b-"std_collections::btree::iter::Cursor::advance::<24'(,)::<#ee13f2425f1aee9b>,i64>"

	.text
	.p2align	4
	.type	"std_collections::btree::node::Node::destroy::<#45aa1b6c98681d8c>",@function
"std_collections::btree::node::Node::destroy::<#45aa1b6c98681d8c>":
	pushq	%r15
	pushq	%r14
	pushq	%rbx
	subq	$128, %rsp
	movzwl	(%rdi), %ecx
	movzwl	2(%rdi), %edx
	xorl	%r8d, %r8d
	testw	%dx, %dx
	setne	%r8b
	leaq	1(%rcx), %r9
	shll	$4, %r8d
	leaq	608(%rdi), %rsi
	leaq	8(%rdi), %rax
	xorl	%r10d, %r10d
	testw	%dx, %dx
	cmovneq	%r9, %r10
	movq	%rax, 48(%rsp)
	movq	%rcx, 56(%rsp)
	movq	$15, 64(%rsp)
	movq	%rsi, 72(%rsp)
	movq	%rcx, 80(%rsp)
	movq	$15, 88(%rsp)
	movq	%rsi, 96(%rsp)
	movq	%r10, 104(%rsp)
	movq	%r8, 112(%rsp)
	movq	%rdi, 120(%rsp)
	je	14f
	testq	%rcx, %rcx
	jne	7f
	movq	(%rsi), %rbx
	cmpq	$257, %rcx
	jb	13f
1:
	leaq	56(%rsi), %rdi
	xorl	%eax, %eax
	.p2align	4
2:
	xorl	%edx, %edx
	.p2align	4
3:
	movups	-48(%rdi,%rdx,8), %xmm0
	movups	-32(%rdi,%rdx,8), %xmm1
	movups	-16(%rdi,%rdx,8), %xmm2
	movups	(%rdi,%rdx,8), %xmm3
	movups	%xmm0, -56(%rdi,%rdx,8)
	movups	%xmm1, -40(%rdi,%rdx,8)
	movups	%xmm2, -24(%rdi,%rdx,8)
	movups	%xmm3, -8(%rdi,%rdx,8)
	addq	$8, %rdx
	cmpq	$256, %rdx
	jne	3b
	addq	$256, %rax
	movq	%rcx, %rdx
	subq	%rax, %rdx
	addq	$2048, %rdi
	cmpq	$256, %rdx
	ja	2b
	cmpq	%rax, %rcx
	je	5f
4:
	leaq	(%rsi,%rax,8), %rdi
	leaq	(%rsi,%rax,8), %rsi
	addq	$8, %rsi
	shlq	$3, %rdx
	callq	memmove@PLT
5:
	movq	%rbx, %rdi
	callq	"std_collections::btree::node::Node::destroy::<#45aa1b6c98681d8c>"
	movq	120(%rsp), %rdi
	jmp	28f
	.p2align	4
6:
	movq	%r14, 104(%rsp)
	movq	%r15, 112(%rsp)
	movq	%rbx, %rdi
	callq	"std_collections::btree::node::Node::destroy::<#45aa1b6c98681d8c>"
	movq	%rsp, %rdi
	leaq	48(%rsp), %rsi
	xorl	%edx, %edx
	callq	"std_alloc::vec::Vec::remove::<#21647806b46d5bf1>"
	decq	80(%rsp)
	cmpq	$0, 56(%rsp)
	je	12f
7:
	movq	96(%rsp), %rax
	movq	104(%rsp), %r14
	movq	(%rax), %rbx
	decq	%r14
	cmpq	$257, %r14
	jb	10f
	leaq	56(%rax), %rsi
	xorl	%ecx, %ecx
	.p2align	4
8:
	xorl	%edx, %edx
	.p2align	4
9:
	movups	-48(%rsi,%rdx,8), %xmm0
	movups	-32(%rsi,%rdx,8), %xmm1
	movups	-16(%rsi,%rdx,8), %xmm2
	movups	(%rsi,%rdx,8), %xmm3
	movups	%xmm0, -56(%rsi,%rdx,8)
	movups	%xmm1, -40(%rsi,%rdx,8)
	movups	%xmm2, -24(%rsi,%rdx,8)
	movups	%xmm3, -8(%rsi,%rdx,8)
	addq	$8, %rdx
	cmpq	$256, %rdx
	jne	9b
	addq	$256, %rcx
	movq	%r14, %rdx
	subq	%rcx, %rdx
	addq	$2048, %rsi
	cmpq	$256, %rdx
	ja	8b
	movq	112(%rsp), %r15
	cmpq	%rcx, %r14
	je	6b
	jmp	11f
	.p2align	4
10:
	xorl	%ecx, %ecx
	movq	%r14, %rdx
	movq	112(%rsp), %r15
	cmpq	%rcx, %r14
	je	6b
11:
	leaq	(%rax,%rcx,8), %rdi
	leaq	(%rax,%rcx,8), %rsi
	addq	$8, %rsi
	shlq	$3, %rdx
	callq	memmove@PLT
	jmp	6b
12:
	movq	96(%rsp), %rsi
	movq	104(%rsp), %rcx
	decq	%rcx
	movq	(%rsi), %rbx
	cmpq	$257, %rcx
	jae	1b
13:
	xorl	%eax, %eax
	movq	%rcx, %rdx
	cmpq	%rax, %rcx
	jne	4b
	jmp	5b
14:
	cmpw	$15, %cx
	jbe	15f
	movl	%ecx, %edx
	shrl	%edx
	subq	%rdx, %rcx
	leaq	(%rcx,%rcx,4), %rcx
	leaq	(%rax,%rcx,8), %rsi
	movq	%rdi, %rbx
	movq	%rax, %rdi
	callq	"core::slice::edits::mirror::<26'mime_store::ending::Ending>"
	movq	%rbx, %rdi
	jmp	28f
15:
	cmpw	$2, %cx
	jb	28f
	leaq	-2(%rcx), %rsi
	movq	%rsi, %rdx
	shrq	%rdx
	movq	%rcx, %r8
	decq	%r8
	je	16f
	leaq	(%r8,%r8,4), %r8
	movq	32(%rax), %r9
	movq	%r9, 32(%rsp)
	movups	(%rax), %xmm0
	movups	16(%rax), %xmm1
	movaps	%xmm1, 16(%rsp)
	movaps	%xmm0, (%rsp)
	movq	32(%rax,%r8,8), %r9
	movups	(%rax,%r8,8), %xmm0
	movups	16(%rax,%r8,8), %xmm1
	movups	%xmm0, (%rax)
	movups	%xmm1, 16(%rax)
	movq	%r9, 32(%rax)
	movq	32(%rsp), %r9
	movq	%r9, 32(%rax,%r8,8)
	movaps	(%rsp), %xmm0
	movaps	16(%rsp), %xmm1
	movups	%xmm1, 16(%rax,%r8,8)
	movups	%xmm0, (%rax,%r8,8)
16:
	testq	%rdx, %rdx
	je	28f
	cmpq	$1, %rsi
	jbe	17f
	leaq	(%rsi,%rsi,4), %rsi
	movq	80(%rdi), %r8
	movq	%r8, 32(%rsp)
	movups	48(%rdi), %xmm0
	movups	64(%rdi), %xmm1
	movaps	%xmm1, 16(%rsp)
	movaps	%xmm0, (%rsp)
	movq	32(%rax,%rsi,8), %r8
	movups	(%rax,%rsi,8), %xmm0
	movups	16(%rax,%rsi,8), %xmm1
	movups	%xmm0, 48(%rdi)
	movups	%xmm1, 64(%rdi)
	movq	%r8, 80(%rdi)
	movq	32(%rsp), %r8
	movq	%r8, 32(%rax,%rsi,8)
	movaps	(%rsp), %xmm0
	movaps	16(%rsp), %xmm1
	movups	%xmm1, 16(%rax,%rsi,8)
	movups	%xmm0, (%rax,%rsi,8)
	jmp	18f
17:
	testq	%rsi, %rsi
	jne	18f
	leaq	(%rsi,%rsi,4), %rsi
	movq	32(%rax,%rsi,8), %r8
	movq	%r8, 32(%rsp)
	movups	(%rax,%rsi,8), %xmm0
	movups	16(%rax,%rsi,8), %xmm1
	movaps	%xmm1, 16(%rsp)
	movaps	%xmm0, (%rsp)
	movq	80(%rdi), %r8
	movups	48(%rdi), %xmm0
	movups	64(%rdi), %xmm1
	movups	%xmm0, (%rax,%rsi,8)
	movups	%xmm1, 16(%rax,%rsi,8)
	movq	%r8, 32(%rax,%rsi,8)
	movq	32(%rsp), %rsi
	movq	%rsi, 80(%rdi)
	movaps	(%rsp), %xmm0
	movaps	16(%rsp), %xmm1
	movups	%xmm1, 64(%rdi)
	movups	%xmm0, 48(%rdi)
18:
	cmpq	$1, %rdx
	je	28f
	leaq	-3(%rcx), %rsi
	cmpq	$2, %rsi
	jbe	19f
	leaq	(%rsi,%rsi,4), %rsi
	movq	120(%rdi), %r8
	movq	%r8, 32(%rsp)
	movups	88(%rdi), %xmm0
	movups	104(%rdi), %xmm1
	movaps	%xmm1, 16(%rsp)
	movaps	%xmm0, (%rsp)
	movq	32(%rax,%rsi,8), %r8
	movups	(%rax,%rsi,8), %xmm0
	movups	16(%rax,%rsi,8), %xmm1
	movups	%xmm0, 88(%rdi)
	movups	%xmm1, 104(%rdi)
	movq	%r8, 120(%rdi)
	movq	32(%rsp), %r8
	movq	%r8, 32(%rax,%rsi,8)
	movaps	(%rsp), %xmm0
	movaps	16(%rsp), %xmm1
	movups	%xmm1, 16(%rax,%rsi,8)
	movups	%xmm0, (%rax,%rsi,8)
	jmp	20f
19:
	cmpl	$2, %esi
	je	20f
	leaq	(%rsi,%rsi,4), %rsi
	movq	32(%rax,%rsi,8), %r8
	movq	%r8, 32(%rsp)
	movups	(%rax,%rsi,8), %xmm0
	movups	16(%rax,%rsi,8), %xmm1
	movaps	%xmm1, 16(%rsp)
	movaps	%xmm0, (%rsp)
	movq	120(%rdi), %r8
	movups	88(%rdi), %xmm0
	movups	104(%rdi), %xmm1
	movups	%xmm0, (%rax,%rsi,8)
	movups	%xmm1, 16(%rax,%rsi,8)
	movq	%r8, 32(%rax,%rsi,8)
	movq	32(%rsp), %rsi
	movq	%rsi, 120(%rdi)
	movaps	(%rsp), %xmm0
	movaps	16(%rsp), %xmm1
	movups	%xmm1, 104(%rdi)
	movups	%xmm0, 88(%rdi)
20:
	cmpq	$2, %rdx
	je	28f
	leaq	-4(%rcx), %rsi
	cmpq	$3, %rsi
	jbe	21f
	leaq	(%rsi,%rsi,4), %rsi
	movq	160(%rdi), %r8
	movq	%r8, 32(%rsp)
	movups	128(%rdi), %xmm0
	movups	144(%rdi), %xmm1
	movaps	%xmm1, 16(%rsp)
	movaps	%xmm0, (%rsp)
	movq	32(%rax,%rsi,8), %r8
	movups	(%rax,%rsi,8), %xmm0
	movups	16(%rax,%rsi,8), %xmm1
	movups	%xmm0, 128(%rdi)
	movups	%xmm1, 144(%rdi)
	movq	%r8, 160(%rdi)
	movq	32(%rsp), %r8
	movq	%r8, 32(%rax,%rsi,8)
	movaps	(%rsp), %xmm0
	movaps	16(%rsp), %xmm1
	movups	%xmm1, 16(%rax,%rsi,8)
	movups	%xmm0, (%rax,%rsi,8)
	jmp	22f
21:
	cmpl	$3, %esi
	je	22f
	leaq	(%rsi,%rsi,4), %rsi
	movq	32(%rax,%rsi,8), %r8
	movq	%r8, 32(%rsp)
	movups	(%rax,%rsi,8), %xmm0
	movups	16(%rax,%rsi,8), %xmm1
	movaps	%xmm1, 16(%rsp)
	movaps	%xmm0, (%rsp)
	movq	160(%rdi), %r8
	movups	128(%rdi), %xmm0
	movups	144(%rdi), %xmm1
	movups	%xmm0, (%rax,%rsi,8)
	movups	%xmm1, 16(%rax,%rsi,8)
	movq	%r8, 32(%rax,%rsi,8)
	movq	32(%rsp), %rsi
	movq	%rsi, 160(%rdi)
	movaps	(%rsp), %xmm0
	movaps	16(%rsp), %xmm1
	movups	%xmm1, 144(%rdi)
	movups	%xmm0, 128(%rdi)
22:
	cmpq	$3, %rdx
	je	28f
	leaq	-5(%rcx), %rsi
	cmpq	$4, %rsi
	jbe	23f
	leaq	(%rsi,%rsi,4), %rsi
	movq	200(%rdi), %r8
	movq	%r8, 32(%rsp)
	movups	168(%rdi), %xmm0
	movups	184(%rdi), %xmm1
	movaps	%xmm1, 16(%rsp)
	movaps	%xmm0, (%rsp)
	movq	32(%rax,%rsi,8), %r8
	movups	(%rax,%rsi,8), %xmm0
	movups	16(%rax,%rsi,8), %xmm1
	movups	%xmm0, 168(%rdi)
	movups	%xmm1, 184(%rdi)
	movq	%r8, 200(%rdi)
	movq	32(%rsp), %r8
	movq	%r8, 32(%rax,%rsi,8)
	movaps	(%rsp), %xmm0
	movaps	16(%rsp), %xmm1
	movups	%xmm1, 16(%rax,%rsi,8)
	movups	%xmm0, (%rax,%rsi,8)
	jmp	24f
23:
	cmpl	$4, %esi
	je	24f
	leaq	(%rsi,%rsi,4), %rsi
	movq	32(%rax,%rsi,8), %r8
	movq	%r8, 32(%rsp)
	movups	(%rax,%rsi,8), %xmm0
	movups	16(%rax,%rsi,8), %xmm1
	movaps	%xmm1, 16(%rsp)
	movaps	%xmm0, (%rsp)
	movq	200(%rdi), %r8
	movups	168(%rdi), %xmm0
	movups	184(%rdi), %xmm1
	movups	%xmm0, (%rax,%rsi,8)
	movups	%xmm1, 16(%rax,%rsi,8)
	movq	%r8, 32(%rax,%rsi,8)
	movq	32(%rsp), %rsi
	movq	%rsi, 200(%rdi)
	movaps	(%rsp), %xmm0
	movaps	16(%rsp), %xmm1
	movups	%xmm1, 184(%rdi)
	movups	%xmm0, 168(%rdi)
24:
	cmpq	$4, %rdx
	je	28f
	leaq	-6(%rcx), %rsi
	cmpq	$5, %rsi
	jbe	25f
	leaq	(%rsi,%rsi,4), %rsi
	movq	240(%rdi), %r8
	movq	%r8, 32(%rsp)
	movups	208(%rdi), %xmm0
	movups	224(%rdi), %xmm1
	movaps	%xmm1, 16(%rsp)
	movaps	%xmm0, (%rsp)
	movq	32(%rax,%rsi,8), %r8
	movups	(%rax,%rsi,8), %xmm0
	movups	16(%rax,%rsi,8), %xmm1
	movups	%xmm0, 208(%rdi)
	movups	%xmm1, 224(%rdi)
	movq	%r8, 240(%rdi)
	movq	32(%rsp), %r8
	movq	%r8, 32(%rax,%rsi,8)
	movaps	(%rsp), %xmm0
	movaps	16(%rsp), %xmm1
	movups	%xmm1, 16(%rax,%rsi,8)
	movups	%xmm0, (%rax,%rsi,8)
	jmp	26f
25:
	cmpl	$5, %esi
	je	26f
	leaq	(%rsi,%rsi,4), %rsi
	movq	32(%rax,%rsi,8), %r8
	movq	%r8, 32(%rsp)
	movups	(%rax,%rsi,8), %xmm0
	movups	16(%rax,%rsi,8), %xmm1
	movaps	%xmm1, 16(%rsp)
	movaps	%xmm0, (%rsp)
	movq	240(%rdi), %r8
	movups	208(%rdi), %xmm0
	movups	224(%rdi), %xmm1
	movups	%xmm0, (%rax,%rsi,8)
	movups	%xmm1, 16(%rax,%rsi,8)
	movq	%r8, 32(%rax,%rsi,8)
	movq	32(%rsp), %rsi
	movq	%rsi, 240(%rdi)
	movaps	(%rsp), %xmm0
	movaps	16(%rsp), %xmm1
	movups	%xmm1, 224(%rdi)
	movups	%xmm0, 208(%rdi)
26:
	cmpq	$5, %rdx
	je	28f
	addq	$-7, %rcx
	cmpq	$6, %rcx
	jbe	27f
	leaq	(%rcx,%rcx,4), %rcx
	movq	280(%rdi), %rdx
	movq	%rdx, 32(%rsp)
	movups	248(%rdi), %xmm0
	movups	264(%rdi), %xmm1
	movaps	%xmm1, 16(%rsp)
	movaps	%xmm0, (%rsp)
	movq	32(%rax,%rcx,8), %rdx
	movups	(%rax,%rcx,8), %xmm0
	movups	16(%rax,%rcx,8), %xmm1
	movups	%xmm0, 248(%rdi)
	movups	%xmm1, 264(%rdi)
	movq	%rdx, 280(%rdi)
	movq	32(%rsp), %rdx
	movq	%rdx, 32(%rax,%rcx,8)
	movaps	(%rsp), %xmm0
	movaps	16(%rsp), %xmm1
	movups	%xmm1, 16(%rax,%rcx,8)
	movups	%xmm0, (%rax,%rcx,8)
	jmp	28f
27:
	cmpl	$6, %ecx
	je	28f
	leaq	(%rcx,%rcx,4), %rcx
	movq	32(%rax,%rcx,8), %rdx
	movq	%rdx, 32(%rsp)
	movups	(%rax,%rcx,8), %xmm0
	movups	16(%rax,%rcx,8), %xmm1
	movaps	%xmm1, 16(%rsp)
	movaps	%xmm0, (%rsp)
	movq	280(%rdi), %rdx
	movups	248(%rdi), %xmm0
	movups	264(%rdi), %xmm1
	movups	%xmm0, (%rax,%rcx,8)
	movups	%xmm1, 16(%rax,%rcx,8)
	movq	%rdx, 32(%rax,%rcx,8)
	movq	32(%rsp), %rax
	movq	%rax, 280(%rdi)
	movaps	(%rsp), %xmm0
	movaps	16(%rsp), %xmm1
	movups	%xmm1, 264(%rdi)
	movups	%xmm0, 248(%rdi)
28:
	addq	$128, %rsp
	popq	%rbx
	popq	%r14
	popq	%r15
	jmp	rattle_dealloc@PLT
29:
	.size	"std_collections::btree::node::Node::destroy::<#45aa1b6c98681d8c>", 29b-"std_collections::btree::node::Node::destroy::<#45aa1b6c98681d8c>"

	.text
	.p2align	4
	.type	"std_collections::btree::node::Node::destroy::<#541a865a6e83d6a3>",@function
"std_collections::btree::node::Node::destroy::<#541a865a6e83d6a3>":
	pushq	%rbp
	pushq	%r15
	pushq	%r14
	pushq	%r13
	pushq	%r12
	pushq	%rbx
	subq	$24, %rsp
	movq	%rdi, %rbx
	movzwl	(%rdi), %r13d
	leaq	248(%rdi), %r14
	cmpw	$0, 2(%rdi)
	je	32f
	testq	%r13, %r13
	je	31f
	leaq	280(%rbx), %rbp
	leaq	1(%r13), %r15
	jmp	2f
	.p2align	4
1:
	testq	%r13, %r13
	je	31f
2:
	movq	(%rbp), %r12
	decq	%r15
	xorl	%eax, %eax
	cmpq	$257, %r15
	jb	9f
	leaq	336(%rbx), %rcx
	.p2align	4
3:
	xorl	%edx, %edx
	.p2align	4
4:
	movups	-48(%rcx,%rdx,8), %xmm0
	movups	-32(%rcx,%rdx,8), %xmm1
	movups	-16(%rcx,%rdx,8), %xmm2
	movups	(%rcx,%rdx,8), %xmm3
	movups	%xmm0, -56(%rcx,%rdx,8)
	movups	%xmm1, -40(%rcx,%rdx,8)
	movups	%xmm2, -24(%rcx,%rdx,8)
	movups	%xmm3, -8(%rcx,%rdx,8)
	addq	$8, %rdx
	cmpq	$256, %rdx
	jne	4b
	addq	$256, %rax
	movq	%r15, %rdx
	subq	%rax, %rdx
	addq	$2048, %rcx
	cmpq	$256, %rdx
	ja	3b
	cmpq	%rax, %r15
	je	6f
5:
	leaq	(,%rax,8), %rdi
	addq	%rbp, %rdi
	leaq	8(,%rax,8), %rsi
	addq	%rbp, %rsi
	shlq	$3, %rdx
	callq	memmove@PLT
6:
	movq	%r12, %rdi
	callq	"std_collections::btree::node::Node::destroy::<#541a865a6e83d6a3>"
	decq	%r13
	cmpq	$129, %r13
	jb	10f
	xorl	%ecx, %ecx
	leaq	72(%rbx), %rax
	.p2align	4
7:
	xorl	%edx, %edx
	.p2align	4
8:
	movups	-48(%rax,%rdx), %xmm0
	movups	-32(%rax,%rdx), %xmm1
	movups	-16(%rax,%rdx), %xmm2
	movups	(%rax,%rdx), %xmm3
	movups	%xmm0, -64(%rax,%rdx)
	movups	%xmm1, -48(%rax,%rdx)
	movups	%xmm2, -32(%rax,%rdx)
	movups	%xmm3, -16(%rax,%rdx)
	addq	$64, %rdx
	cmpq	$2048, %rdx
	jne	8b
	subq	$-128, %rcx
	movq	%r13, %rsi
	subq	%rcx, %rsi
	addq	$2048, %rax
	cmpq	$128, %rsi
	ja	7b
	movq	%rcx, %rax
	shlq	$4, %rax
	leaq	8(%rbx), %rdx
	addq	%rax, %rdx
	cmpq	%rcx, %r13
	jne	11f
	jmp	16f
	.p2align	4
9:
	movq	%r15, %rdx
	cmpq	%rax, %r15
	jne	5b
	jmp	6b
	.p2align	4
10:
	xorl	%eax, %eax
	leaq	8(%rbx), %rdx
	movq	%r13, %rsi
	xorl	%ecx, %ecx
	cmpq	%rcx, %r13
	je	16f
11:
	leaq	-1(%rsi), %rdi
	movl	%esi, %ecx
	andl	$3, %ecx
	cmpq	$3, %rdi
	jae	12f
	xorl	%edi, %edi
	jmp	14f
	.p2align	4
12:
	andl	$252, %esi
	leaq	56(%rbx), %rdi
	leaq	(%rdi,%rax), %r8
	leaq	64(%rdx), %r9
	xorl	%edi, %edi
	xorl	%r10d, %r10d
	.p2align	4
13:
	movups	-48(%r9,%r10), %xmm0
	movups	%xmm0, -48(%r8,%r10)
	movups	-32(%r9,%r10), %xmm0
	movups	%xmm0, -32(%r8,%r10)
	movups	-16(%r9,%r10), %xmm0
	movups	%xmm0, -16(%r8,%r10)
	movups	(%r9,%r10), %xmm0
	movups	%xmm0, (%r8,%r10)
	addq	$4, %rdi
	addq	$64, %r10
	cmpq	%rdi, %rsi
	jne	13b
	testq	%rcx, %rcx
	je	16f
14:
	shlq	$4, %rdi
	addq	%rdi, %rdx
	addq	$16, %rdx
	leaq	8(%rbx), %rsi
	addq	%rsi, %rax
	addq	%rdi, %rax
	shll	$4, %ecx
	xorl	%esi, %esi
	.p2align	4
15:
	movups	(%rdx,%rsi), %xmm0
	movups	%xmm0, (%rax,%rsi)
	addq	$16, %rsi
	cmpq	%rsi, %rcx
	jne	15b
16:
	cmpq	$1025, %r13
	jb	19f
	xorl	%esi, %esi
	leaq	298(%rbx), %rcx
	.p2align	4
17:
	xorl	%eax, %eax
	.p2align	4
18:
	movups	-48(%rcx,%rax,2), %xmm0
	movups	-32(%rcx,%rax,2), %xmm1
	movups	-16(%rcx,%rax,2), %xmm2
	movups	(%rcx,%rax,2), %xmm3
	movups	%xmm0, -50(%rcx,%rax,2)
	movups	%xmm1, -34(%rcx,%rax,2)
	movups	%xmm2, -18(%rcx,%rax,2)
	movups	%xmm3, -2(%rcx,%rax,2)
	addq	$32, %rax
	cmpq	$1024, %rax
	jne	18b
	addq	$1024, %rsi
	movq	%r13, %rax
	subq	%rsi, %rax
	addq	$2048, %rcx
	cmpq	$1024, %rax
	ja	17b
	leaq	(%rsi,%rsi), %rcx
	leaq	(%r14,%rsi,2), %rdx
	cmpq	%rsi, %r13
	je	1b
	jmp	20f
	.p2align	4
19:
	xorl	%ecx, %ecx
	movq	%r14, %rdx
	movq	%r13, %rax
	xorl	%esi, %esi
	cmpq	%rsi, %r13
	je	1b
20:
	leaq	(%r14,%rcx), %rsi
	cmpq	$4, %rax
	jb	21f
	leaq	246(%rbx), %rdi
	addq	%rcx, %rdi
	subq	%rdx, %rdi
	cmpq	$32, %rdi
	jae	26f
21:
	xorl	%edi, %edi
22:
	movq	%rax, %r9
	movq	%rdi, %r8
	andq	$3, %r9
	je	24f
	movq	%rdi, %r8
	.p2align	4
23:
	movzwl	2(%rdx,%r8,2), %r10d
	movw	%r10w, (%rsi,%r8,2)
	incq	%r8
	decq	%r9
	jne	23b
24:
	subq	%rax, %rdi
	cmpq	$-4, %rdi
	ja	1b
	leaq	254(%rbx), %rsi
	addq	%rsi, %rcx
	.p2align	4
25:
	movzwl	2(%rdx,%r8,2), %esi
	movw	%si, -6(%rcx,%r8,2)
	movzwl	4(%rdx,%r8,2), %esi
	movw	%si, -4(%rcx,%r8,2)
	movzwl	6(%rdx,%r8,2), %esi
	movw	%si, -2(%rcx,%r8,2)
	movzwl	8(%rdx,%r8,2), %esi
	movw	%si, (%rcx,%r8,2)
	addq	$4, %r8
	cmpq	%r8, %rax
	jne	25b
	jmp	1b
26:
	cmpq	$16, %rax
	jae	27f
	xorl	%edi, %edi
	jmp	29f
27:
	movl	%eax, %edi
	andl	$2032, %edi
	leaq	264(%rbx), %r8
	addq	%rcx, %r8
	xorl	%r9d, %r9d
	.p2align	4
28:
	movups	2(%rdx,%r9,2), %xmm0
	movups	18(%rdx,%r9,2), %xmm1
	movups	%xmm0, -16(%r8,%r9,2)
	movups	%xmm1, (%r8,%r9,2)
	addq	$16, %r9
	cmpq	%r9, %rdi
	jne	28b
	cmpq	%rdi, %rax
	je	1b
	testb	$12, %al
	je	22b
29:
	movq	%rdi, %r8
	movl	%eax, %edi
	andl	$2044, %edi
	.p2align	4
30:
	movq	2(%rdx,%r8,2), %r9
	movq	%r9, (%rsi,%r8,2)
	addq	$4, %r8
	cmpq	%r8, %rdi
	jne	30b
	cmpq	%rdi, %rax
	je	1b
	jmp	22b
31:
	movq	280(%rbx), %rdi
	callq	"std_collections::btree::node::Node::destroy::<#541a865a6e83d6a3>"
	jmp	50f
32:
	cmpw	$15, %r13w
	jbe	33f
	movl	%r13d, %r12d
	shrl	%r12d
	subq	%r12, %r13
	movq	%r13, %rsi
	shlq	$4, %rsi
	leaq	8(%rbx), %rdi
	addq	%rdi, %rsi
	movq	%r12, %rdx
	callq	"core::slice::edits::mirror::<3'&[](*,i64,)>"
	leaq	(%r14,%r13,2), %rsi
	movq	%r14, %rdi
	movq	%r12, %rdx
	callq	"core::slice::edits::mirror::<i16>"
	jmp	50f
33:
	cmpw	$2, %r13w
	jb	50f
	leaq	-2(%r13), %rdx
	movq	%rdx, %rax
	shrq	%rax
	movq	%r13, %rcx
	decq	%rcx
	je	34f
	movq	%rcx, %rsi
	shlq	$4, %rsi
	leaq	8(%rbx), %rdi
	movups	(%rdi), %xmm0
	movaps	%xmm0, (%rsp)
	movups	(%rdi,%rsi), %xmm0
	movups	%xmm0, (%rdi)
	movaps	(%rsp), %xmm0
	movups	%xmm0, (%rdi,%rsi)
34:
	testq	%rax, %rax
	je	46f
	cmpq	$1, %rdx
	jbe	35f
	shlq	$4, %rdx
	movups	24(%rbx), %xmm0
	movaps	%xmm0, (%rsp)
	leaq	8(%rbx), %rsi
	movups	(%rsi,%rdx), %xmm0
	movups	%xmm0, 24(%rbx)
	movaps	(%rsp), %xmm0
	movups	%xmm0, (%rsi,%rdx)
	jmp	36f
35:
	testq	%rdx, %rdx
	jne	36f
	leaq	8(%rbx), %rdx
	movups	(%rdx), %xmm0
	movaps	%xmm0, (%rsp)
	movups	24(%rbx), %xmm0
	movups	%xmm0, (%rdx)
	movaps	(%rsp), %xmm0
	movups	%xmm0, 24(%rbx)
36:
	cmpq	$1, %rax
	je	46f
	leaq	-3(%r13), %rdx
	cmpq	$2, %rdx
	jbe	37f
	shlq	$4, %rdx
	movups	40(%rbx), %xmm0
	movaps	%xmm0, (%rsp)
	leaq	8(%rbx), %rsi
	movups	(%rsi,%rdx), %xmm0
	movups	%xmm0, 40(%rbx)
	movaps	(%rsp), %xmm0
	movups	%xmm0, (%rsi,%rdx)
	jmp	38f
37:
	cmpl	$2, %edx
	je	38f
	shlq	$4, %rdx
	leaq	8(%rbx), %rsi
	movups	(%rsi,%rdx), %xmm0
	movaps	%xmm0, (%rsp)
	movups	40(%rbx), %xmm0
	movups	%xmm0, (%rsi,%rdx)
	movaps	(%rsp), %xmm0
	movups	%xmm0, 40(%rbx)
38:
	cmpq	$2, %rax
	je	46f
	leaq	-4(%r13), %rdx
	cmpq	$3, %rdx
	jbe	39f
	shlq	$4, %rdx
	movups	56(%rbx), %xmm0
	movaps	%xmm0, (%rsp)
	leaq	8(%rbx), %rsi
	movups	(%rsi,%rdx), %xmm0
	movups	%xmm0, 56(%rbx)
	movaps	(%rsp), %xmm0
	movups	%xmm0, (%rsi,%rdx)
	jmp	40f
39:
	cmpl	$3, %edx
	je	40f
	shlq	$4, %rdx
	leaq	8(%rbx), %rsi
	movups	(%rsi,%rdx), %xmm0
	movaps	%xmm0, (%rsp)
	movups	56(%rbx), %xmm0
	movups	%xmm0, (%rsi,%rdx)
	movaps	(%rsp), %xmm0
	movups	%xmm0, 56(%rbx)
40:
	cmpq	$3, %rax
	je	46f
	leaq	-5(%r13), %rdx
	cmpq	$4, %rdx
	jbe	41f
	shlq	$4, %rdx
	movups	72(%rbx), %xmm0
	movaps	%xmm0, (%rsp)
	leaq	8(%rbx), %rsi
	movups	(%rsi,%rdx), %xmm0
	movups	%xmm0, 72(%rbx)
	movaps	(%rsp), %xmm0
	movups	%xmm0, (%rsi,%rdx)
	jmp	42f
41:
	cmpl	$4, %edx
	je	42f
	shlq	$4, %rdx
	leaq	8(%rbx), %rsi
	movups	(%rsi,%rdx), %xmm0
	movaps	%xmm0, (%rsp)
	movups	72(%rbx), %xmm0
	movups	%xmm0, (%rsi,%rdx)
	movaps	(%rsp), %xmm0
	movups	%xmm0, 72(%rbx)
42:
	cmpq	$4, %rax
	je	46f
	leaq	-6(%r13), %rdx
	cmpq	$5, %rdx
	jbe	43f
	shlq	$4, %rdx
	movups	88(%rbx), %xmm0
	movaps	%xmm0, (%rsp)
	leaq	8(%rbx), %rsi
	movups	(%rsi,%rdx), %xmm0
	movups	%xmm0, 88(%rbx)
	movaps	(%rsp), %xmm0
	movups	%xmm0, (%rsi,%rdx)
	jmp	44f
43:
	cmpl	$5, %edx
	je	44f
	shlq	$4, %rdx
	leaq	8(%rbx), %rsi
	movups	(%rsi,%rdx), %xmm0
	movaps	%xmm0, (%rsp)
	movups	88(%rbx), %xmm0
	movups	%xmm0, (%rsi,%rdx)
	movaps	(%rsp), %xmm0
	movups	%xmm0, 88(%rbx)
44:
	cmpq	$5, %rax
	je	46f
	addq	$-7, %r13
	cmpq	$6, %r13
	jbe	45f
	shlq	$4, %r13
	movups	104(%rbx), %xmm0
	movaps	%xmm0, (%rsp)
	leaq	8(%rbx), %rdx
	movups	(%rdx,%r13), %xmm0
	movups	%xmm0, 104(%rbx)
	movaps	(%rsp), %xmm0
	movups	%xmm0, (%rdx,%r13)
	jmp	46f
45:
	cmpl	$6, %r13d
	je	46f
	shlq	$4, %r13
	leaq	8(%rbx), %rdx
	movups	(%rdx,%r13), %xmm0
	movaps	%xmm0, (%rsp)
	movups	104(%rbx), %xmm0
	movups	%xmm0, (%rdx,%r13)
	movaps	(%rsp), %xmm0
	movups	%xmm0, 104(%rbx)
46:
	incq	%rax
	xorl	%edx, %edx
	jmp	49f
	.p2align	4
47:
	movzwl	(%r14,%rdx,2), %esi
	movzwl	(%r14,%rcx,2), %edi
	movw	%di, (%r14,%rdx,2)
	movw	%si, (%r14,%rcx,2)
48:
	incq	%rdx
	decq	%rcx
	cmpq	%rdx, %rax
	je	50f
49:
	cmpq	%rcx, %rdx
	jb	47b
	jbe	48b
	movzwl	(%r14,%rcx,2), %esi
	movzwl	(%r14,%rdx,2), %edi
	movw	%di, (%r14,%rcx,2)
	movw	%si, (%r14,%rdx,2)
	jmp	48b
50:
	movq	%rbx, %rdi
	addq	$24, %rsp
	popq	%rbx
	popq	%r12
	popq	%r13
	popq	%r14
	popq	%r15
	popq	%rbp
	jmp	rattle_dealloc@PLT
51:
	.size	"std_collections::btree::node::Node::destroy::<#541a865a6e83d6a3>", 51b-"std_collections::btree::node::Node::destroy::<#541a865a6e83d6a3>"

	.text
	.p2align	4
	.type	"std_collections::btree::node::Node::destroy::<#6f699a0b3f3d5921>",@function
"std_collections::btree::node::Node::destroy::<#6f699a0b3f3d5921>":
	pushq	%r15
	pushq	%r14
	pushq	%rbx
	subq	$112, %rsp
	movq	%rdi, %rbx
	movzwl	(%rdi), %r14d
	movzwl	2(%rdi), %ecx
	xorl	%edx, %edx
	testw	%cx, %cx
	setne	%dl
	leaq	1(%r14), %rsi
	shll	$4, %edx
	leaq	368(%rdi), %rax
	addq	$8, %rdi
	xorl	%r8d, %r8d
	testw	%cx, %cx
	cmovneq	%rsi, %r8
	movq	%rdi, 32(%rsp)
	movq	%r14, 40(%rsp)
	movq	$15, 48(%rsp)
	movq	%rax, 56(%rsp)
	movq	%r14, 64(%rsp)
	movq	$15, 72(%rsp)
	movq	%rax, 80(%rsp)
	movq	%r8, 88(%rsp)
	movq	%rdx, 96(%rsp)
	movq	%rbx, 104(%rsp)
	je	15f
	testq	%r14, %r14
	jne	7f
	movq	(%rax), %rbx
	cmpq	$257, %r14
	jb	14f
1:
	leaq	56(%rax), %rsi
	xorl	%ecx, %ecx
	.p2align	4
2:
	xorl	%edx, %edx
	.p2align	4
3:
	movups	-48(%rsi,%rdx,8), %xmm0
	movups	-32(%rsi,%rdx,8), %xmm1
	movups	-16(%rsi,%rdx,8), %xmm2
	movups	(%rsi,%rdx,8), %xmm3
	movups	%xmm0, -56(%rsi,%rdx,8)
	movups	%xmm1, -40(%rsi,%rdx,8)
	movups	%xmm2, -24(%rsi,%rdx,8)
	movups	%xmm3, -8(%rsi,%rdx,8)
	addq	$8, %rdx
	cmpq	$256, %rdx
	jne	3b
	addq	$256, %rcx
	movq	%r14, %rdx
	subq	%rcx, %rdx
	addq	$2048, %rsi
	cmpq	$256, %rdx
	ja	2b
	cmpq	%rcx, %r14
	je	5f
4:
	leaq	(%rax,%rcx,8), %rdi
	leaq	(%rax,%rcx,8), %rsi
	addq	$8, %rsi
	shlq	$3, %rdx
	callq	memmove@PLT
5:
	movq	%rbx, %rdi
	callq	"std_collections::btree::node::Node::destroy::<#6f699a0b3f3d5921>"
	movq	104(%rsp), %rdi
	jmp	34f
	.p2align	4
6:
	cmpq	$0, 40(%rsp)
	je	13f
7:
	movq	80(%rsp), %rax
	movq	88(%rsp), %r14
	movq	(%rax), %rbx
	decq	%r14
	cmpq	$257, %r14
	jb	12f
	leaq	56(%rax), %rsi
	xorl	%ecx, %ecx
	.p2align	4
8:
	xorl	%edx, %edx
	.p2align	4
9:
	movups	-48(%rsi,%rdx,8), %xmm0
	movups	-32(%rsi,%rdx,8), %xmm1
	movups	-16(%rsi,%rdx,8), %xmm2
	movups	(%rsi,%rdx,8), %xmm3
	movups	%xmm0, -56(%rsi,%rdx,8)
	movups	%xmm1, -40(%rsi,%rdx,8)
	movups	%xmm2, -24(%rsi,%rdx,8)
	movups	%xmm3, -8(%rsi,%rdx,8)
	addq	$8, %rdx
	cmpq	$256, %rdx
	jne	9b
	addq	$256, %rcx
	movq	%r14, %rdx
	subq	%rcx, %rdx
	addq	$2048, %rsi
	cmpq	$256, %rdx
	ja	8b
	movq	96(%rsp), %r15
	cmpq	%rcx, %r14
	je	11f
10:
	leaq	(%rax,%rcx,8), %rdi
	leaq	(%rax,%rcx,8), %rsi
	addq	$8, %rsi
	shlq	$3, %rdx
	callq	memmove@PLT
11:
	movq	%r14, 88(%rsp)
	movq	%r15, 96(%rsp)
	movq	%rbx, %rdi
	callq	"std_collections::btree::node::Node::destroy::<#6f699a0b3f3d5921>"
	xorps	%xmm0, %xmm0
	movaps	%xmm0, (%rsp)
	movq	$0, 16(%rsp)
	movq	%rsp, %rdi
	leaq	32(%rsp), %rsi
	xorl	%edx, %edx
	callq	"std_alloc::vec::Vec::remove::<#c1573421a60ec32d>"
	decq	64(%rsp)
	cmpq	$0, 16(%rsp)
	je	6b
	movq	(%rsp), %rdi
	callq	rattle_dealloc@PLT
	jmp	6b
	.p2align	4
12:
	xorl	%ecx, %ecx
	movq	%r14, %rdx
	movq	96(%rsp), %r15
	cmpq	%rcx, %r14
	jne	10b
	jmp	11b
13:
	movq	80(%rsp), %rax
	movq	88(%rsp), %r14
	decq	%r14
	movq	(%rax), %rbx
	cmpq	$257, %r14
	jae	1b
14:
	xorl	%ecx, %ecx
	movq	%r14, %rdx
	cmpq	%rcx, %r14
	jne	4b
	jmp	5b
15:
	cmpw	$15, %r14w
	jbe	16f
	movl	%r14d, %edx
	shrl	%edx
	movq	%r14, %rax
	subq	%rdx, %rax
	leaq	(%rax,%rax,2), %rax
	leaq	(%rdi,%rax,8), %rsi
	callq	"core::slice::edits::mirror::<#2262cf5b90b10fda>"
	jmp	30f
16:
	cmpw	$2, %r14w
	jb	29f
	leaq	-2(%r14), %rcx
	movq	%rcx, %rax
	shrq	%rax
	movq	%r14, %rdx
	decq	%rdx
	je	17f
	leaq	(%rdx,%rdx,2), %rdx
	movq	16(%rdi), %rsi
	movq	%rsi, 16(%rsp)
	movups	(%rdi), %xmm0
	movaps	%xmm0, (%rsp)
	movq	16(%rdi,%rdx,8), %rsi
	movups	(%rdi,%rdx,8), %xmm0
	movups	%xmm0, (%rdi)
	movq	%rsi, 16(%rdi)
	movq	16(%rsp), %rsi
	movq	%rsi, 16(%rdi,%rdx,8)
	movaps	(%rsp), %xmm0
	movups	%xmm0, (%rdi,%rdx,8)
17:
	testq	%rax, %rax
	je	29f
	cmpq	$1, %rcx
	jbe	18f
	leaq	(%rcx,%rcx,2), %rcx
	movq	48(%rbx), %rdx
	movq	%rdx, 16(%rsp)
	movups	32(%rbx), %xmm0
	movaps	%xmm0, (%rsp)
	movq	16(%rdi,%rcx,8), %rdx
	movups	(%rdi,%rcx,8), %xmm0
	movups	%xmm0, 32(%rbx)
	movq	%rdx, 48(%rbx)
	movq	16(%rsp), %rdx
	movq	%rdx, 16(%rdi,%rcx,8)
	movaps	(%rsp), %xmm0
	movups	%xmm0, (%rdi,%rcx,8)
	jmp	19f
18:
	testq	%rcx, %rcx
	jne	19f
	leaq	(%rcx,%rcx,2), %rcx
	movq	16(%rdi,%rcx,8), %rdx
	movq	%rdx, 16(%rsp)
	movups	(%rdi,%rcx,8), %xmm0
	movaps	%xmm0, (%rsp)
	movq	48(%rbx), %rdx
	movups	32(%rbx), %xmm0
	movups	%xmm0, (%rdi,%rcx,8)
	movq	%rdx, 16(%rdi,%rcx,8)
	movq	16(%rsp), %rcx
	movq	%rcx, 48(%rbx)
	movaps	(%rsp), %xmm0
	movups	%xmm0, 32(%rbx)
19:
	cmpq	$1, %rax
	je	29f
	leaq	-3(%r14), %rcx
	cmpq	$2, %rcx
	jbe	20f
	leaq	(%rcx,%rcx,2), %rcx
	movq	72(%rbx), %rdx
	movq	%rdx, 16(%rsp)
	movups	56(%rbx), %xmm0
	movaps	%xmm0, (%rsp)
	movq	16(%rdi,%rcx,8), %rdx
	movups	(%rdi,%rcx,8), %xmm0
	movups	%xmm0, 56(%rbx)
	movq	%rdx, 72(%rbx)
	movq	16(%rsp), %rdx
	movq	%rdx, 16(%rdi,%rcx,8)
	movaps	(%rsp), %xmm0
	movups	%xmm0, (%rdi,%rcx,8)
	jmp	21f
20:
	cmpl	$2, %ecx
	je	21f
	leaq	(%rcx,%rcx,2), %rcx
	movq	16(%rdi,%rcx,8), %rdx
	movq	%rdx, 16(%rsp)
	movups	(%rdi,%rcx,8), %xmm0
	movaps	%xmm0, (%rsp)
	movq	72(%rbx), %rdx
	movups	56(%rbx), %xmm0
	movups	%xmm0, (%rdi,%rcx,8)
	movq	%rdx, 16(%rdi,%rcx,8)
	movq	16(%rsp), %rcx
	movq	%rcx, 72(%rbx)
	movaps	(%rsp), %xmm0
	movups	%xmm0, 56(%rbx)
21:
	cmpq	$2, %rax
	je	29f
	leaq	-4(%r14), %rcx
	cmpq	$3, %rcx
	jbe	22f
	leaq	(%rcx,%rcx,2), %rcx
	movq	96(%rbx), %rdx
	movq	%rdx, 16(%rsp)
	movups	80(%rbx), %xmm0
	movaps	%xmm0, (%rsp)
	movq	16(%rdi,%rcx,8), %rdx
	movups	(%rdi,%rcx,8), %xmm0
	movups	%xmm0, 80(%rbx)
	movq	%rdx, 96(%rbx)
	movq	16(%rsp), %rdx
	movq	%rdx, 16(%rdi,%rcx,8)
	movaps	(%rsp), %xmm0
	movups	%xmm0, (%rdi,%rcx,8)
	jmp	23f
22:
	cmpl	$3, %ecx
	je	23f
	leaq	(%rcx,%rcx,2), %rcx
	movq	16(%rdi,%rcx,8), %rdx
	movq	%rdx, 16(%rsp)
	movups	(%rdi,%rcx,8), %xmm0
	movaps	%xmm0, (%rsp)
	movq	96(%rbx), %rdx
	movups	80(%rbx), %xmm0
	movups	%xmm0, (%rdi,%rcx,8)
	movq	%rdx, 16(%rdi,%rcx,8)
	movq	16(%rsp), %rcx
	movq	%rcx, 96(%rbx)
	movaps	(%rsp), %xmm0
	movups	%xmm0, 80(%rbx)
23:
	cmpq	$3, %rax
	je	29f
	leaq	-5(%r14), %rcx
	cmpq	$4, %rcx
	jbe	24f
	leaq	(%rcx,%rcx,2), %rcx
	movq	120(%rbx), %rdx
	movq	%rdx, 16(%rsp)
	movups	104(%rbx), %xmm0
	movaps	%xmm0, (%rsp)
	movq	16(%rdi,%rcx,8), %rdx
	movups	(%rdi,%rcx,8), %xmm0
	movups	%xmm0, 104(%rbx)
	movq	%rdx, 120(%rbx)
	movq	16(%rsp), %rdx
	movq	%rdx, 16(%rdi,%rcx,8)
	movaps	(%rsp), %xmm0
	movups	%xmm0, (%rdi,%rcx,8)
	jmp	25f
24:
	cmpl	$4, %ecx
	je	25f
	leaq	(%rcx,%rcx,2), %rcx
	movq	16(%rdi,%rcx,8), %rdx
	movq	%rdx, 16(%rsp)
	movups	(%rdi,%rcx,8), %xmm0
	movaps	%xmm0, (%rsp)
	movq	120(%rbx), %rdx
	movups	104(%rbx), %xmm0
	movups	%xmm0, (%rdi,%rcx,8)
	movq	%rdx, 16(%rdi,%rcx,8)
	movq	16(%rsp), %rcx
	movq	%rcx, 120(%rbx)
	movaps	(%rsp), %xmm0
	movups	%xmm0, 104(%rbx)
25:
	cmpq	$4, %rax
	je	29f
	leaq	-6(%r14), %rcx
	cmpq	$5, %rcx
	jbe	26f
	leaq	(%rcx,%rcx,2), %rcx
	movq	144(%rbx), %rdx
	movq	%rdx, 16(%rsp)
	movups	128(%rbx), %xmm0
	movaps	%xmm0, (%rsp)
	movq	16(%rdi,%rcx,8), %rdx
	movups	(%rdi,%rcx,8), %xmm0
	movups	%xmm0, 128(%rbx)
	movq	%rdx, 144(%rbx)
	movq	16(%rsp), %rdx
	movq	%rdx, 16(%rdi,%rcx,8)
	movaps	(%rsp), %xmm0
	movups	%xmm0, (%rdi,%rcx,8)
	jmp	27f
26:
	cmpl	$5, %ecx
	je	27f
	leaq	(%rcx,%rcx,2), %rcx
	movq	16(%rdi,%rcx,8), %rdx
	movq	%rdx, 16(%rsp)
	movups	(%rdi,%rcx,8), %xmm0
	movaps	%xmm0, (%rsp)
	movq	144(%rbx), %rdx
	movups	128(%rbx), %xmm0
	movups	%xmm0, (%rdi,%rcx,8)
	movq	%rdx, 16(%rdi,%rcx,8)
	movq	16(%rsp), %rcx
	movq	%rcx, 144(%rbx)
	movaps	(%rsp), %xmm0
	movups	%xmm0, 128(%rbx)
27:
	cmpq	$5, %rax
	je	29f
	leaq	-7(%r14), %rax
	cmpq	$6, %rax
	jbe	28f
	leaq	(%rax,%rax,2), %rax
	movq	168(%rbx), %rcx
	movq	%rcx, 16(%rsp)
	movups	152(%rbx), %xmm0
	movaps	%xmm0, (%rsp)
	movq	16(%rdi,%rax,8), %rcx
	movups	(%rdi,%rax,8), %xmm0
	movups	%xmm0, 152(%rbx)
	movq	%rcx, 168(%rbx)
	movq	16(%rsp), %rcx
	movq	%rcx, 16(%rdi,%rax,8)
	movaps	(%rsp), %xmm0
	movups	%xmm0, (%rdi,%rax,8)
	jmp	29f
28:
	cmpl	$6, %eax
	je	29f
	leaq	(%rax,%rax,2), %rax
	movq	16(%rdi,%rax,8), %rcx
	movq	%rcx, 16(%rsp)
	movups	(%rdi,%rax,8), %xmm0
	movaps	%xmm0, (%rsp)
	movq	168(%rbx), %rcx
	movups	152(%rbx), %xmm0
	movups	%xmm0, (%rdi,%rax,8)
	movq	%rcx, 16(%rdi,%rax,8)
	movq	16(%rsp), %rax
	movq	%rax, 168(%rbx)
	movaps	(%rsp), %xmm0
	movups	%xmm0, 152(%rbx)
29:
	testq	%r14, %r14
	je	33f
30:
	leaq	(%r14,%r14,2), %rax
	leaq	(%rbx,%rax,8), %r15
	jmp	32f
	.p2align	4
31:
	decq	%r14
	addq	$-24, %r15
	testq	%r14, %r14
	je	33f
32:
	cmpq	$0, (%r15)
	je	31b
	movq	-16(%r15), %rdi
	callq	rattle_dealloc@PLT
	jmp	31b
33:
	movq	%rbx, %rdi
34:
	addq	$112, %rsp
	popq	%rbx
	popq	%r14
	popq	%r15
	jmp	rattle_dealloc@PLT
35:
	.size	"std_collections::btree::node::Node::destroy::<#6f699a0b3f3d5921>", 35b-"std_collections::btree::node::Node::destroy::<#6f699a0b3f3d5921>"

	.text
	.p2align	4
	.type	"std_collections::btree::node::Node::destroy::<#75908c3a02a00b6b>",@function
"std_collections::btree::node::Node::destroy::<#75908c3a02a00b6b>":
	pushq	%r15
	pushq	%r14
	pushq	%r13
	pushq	%r12
	pushq	%rbx
	subq	$112, %rsp
	movq	%rdi, %rbx
	movzwl	(%rdi), %r12d
	movzwl	2(%rdi), %ecx
	xorl	%edx, %edx
	testw	%cx, %cx
	setne	%dl
	leaq	1(%r12), %rsi
	shll	$4, %edx
	leaq	400(%rdi), %rax
	leaq	368(%rdi), %r14
	addq	$8, %rdi
	xorl	%r8d, %r8d
	testw	%cx, %cx
	cmovneq	%rsi, %r8
	movq	%rdi, 32(%rsp)
	movq	%r12, 40(%rsp)
	movq	$15, 48(%rsp)
	movq	%r14, 56(%rsp)
	movq	%r12, 64(%rsp)
	movq	$15, 72(%rsp)
	movq	%rax, 80(%rsp)
	movq	%r8, 88(%rsp)
	movq	%rdx, 96(%rsp)
	movq	%rbx, 104(%rsp)
	je	29f
	testq	%r12, %r12
	jne	7f
	movq	(%rax), %rbx
	cmpq	$257, %r12
	jb	28f
1:
	leaq	56(%rax), %rsi
	xorl	%ecx, %ecx
	.p2align	4
2:
	xorl	%edx, %edx
	.p2align	4
3:
	movups	-48(%rsi,%rdx,8), %xmm0
	movups	-32(%rsi,%rdx,8), %xmm1
	movups	-16(%rsi,%rdx,8), %xmm2
	movups	(%rsi,%rdx,8), %xmm3
	movups	%xmm0, -56(%rsi,%rdx,8)
	movups	%xmm1, -40(%rsi,%rdx,8)
	movups	%xmm2, -24(%rsi,%rdx,8)
	movups	%xmm3, -8(%rsi,%rdx,8)
	addq	$8, %rdx
	cmpq	$256, %rdx
	jne	3b
	addq	$256, %rcx
	movq	%r12, %rdx
	subq	%rcx, %rdx
	addq	$2048, %rsi
	cmpq	$256, %rdx
	ja	2b
	cmpq	%rcx, %r12
	je	5f
4:
	leaq	(%rax,%rcx,8), %rdi
	leaq	(%rax,%rcx,8), %rsi
	addq	$8, %rsi
	shlq	$3, %rdx
	callq	memmove@PLT
5:
	movq	%rbx, %rdi
	callq	"std_collections::btree::node::Node::destroy::<#75908c3a02a00b6b>"
	movq	104(%rsp), %rdi
	jmp	52f
	.p2align	4
6:
	cmpq	$0, 40(%rsp)
	je	27f
7:
	movq	80(%rsp), %rax
	movq	88(%rsp), %r14
	movq	(%rax), %rbx
	decq	%r14
	cmpq	$257, %r14
	jb	21f
	leaq	56(%rax), %rsi
	xorl	%ecx, %ecx
	.p2align	4
8:
	xorl	%edx, %edx
	.p2align	4
9:
	movups	-48(%rsi,%rdx,8), %xmm0
	movups	-32(%rsi,%rdx,8), %xmm1
	movups	-16(%rsi,%rdx,8), %xmm2
	movups	(%rsi,%rdx,8), %xmm3
	movups	%xmm0, -56(%rsi,%rdx,8)
	movups	%xmm1, -40(%rsi,%rdx,8)
	movups	%xmm2, -24(%rsi,%rdx,8)
	movups	%xmm3, -8(%rsi,%rdx,8)
	addq	$8, %rdx
	cmpq	$256, %rdx
	jne	9b
	addq	$256, %rcx
	movq	%r14, %rdx
	subq	%rcx, %rdx
	addq	$2048, %rsi
	cmpq	$256, %rdx
	ja	8b
	movq	96(%rsp), %r15
	cmpq	%rcx, %r14
	je	11f
10:
	leaq	(%rax,%rcx,8), %rdi
	leaq	(%rax,%rcx,8), %rsi
	addq	$8, %rsi
	shlq	$3, %rdx
	callq	memmove@PLT
11:
	movq	%r14, 88(%rsp)
	movq	%r15, 96(%rsp)
	movq	%rbx, %rdi
	callq	"std_collections::btree::node::Node::destroy::<#75908c3a02a00b6b>"
	xorps	%xmm0, %xmm0
	movaps	%xmm0, (%rsp)
	movq	$0, 16(%rsp)
	xorl	%ebx, %ebx
	movq	%rsp, %rdi
	leaq	32(%rsp), %rsi
	xorl	%edx, %edx
	callq	"std_alloc::vec::Vec::remove::<#c1573421a60ec32d>"
	movq	56(%rsp), %rcx
	movq	64(%rsp), %rax
	decq	%rax
	movq	%rcx, %rsi
	movq	%rax, %rdx
	movl	$0, %edi
	cmpq	$1025, %rax
	jb	14f
	leaq	50(%rcx), %rsi
	xorl	%edi, %edi
	.p2align	4
12:
	xorl	%edx, %edx
	.p2align	4
13:
	movups	-48(%rsi,%rdx,2), %xmm0
	movups	-32(%rsi,%rdx,2), %xmm1
	movups	-16(%rsi,%rdx,2), %xmm2
	movups	(%rsi,%rdx,2), %xmm3
	movups	%xmm0, -50(%rsi,%rdx,2)
	movups	%xmm1, -34(%rsi,%rdx,2)
	movups	%xmm2, -18(%rsi,%rdx,2)
	movups	%xmm3, -2(%rsi,%rdx,2)
	addq	$32, %rdx
	cmpq	$1024, %rdx
	jne	13b
	addq	$1024, %rdi
	movq	%rax, %rdx
	subq	%rdi, %rdx
	addq	$2048, %rsi
	cmpq	$1024, %rdx
	ja	12b
	leaq	(%rdi,%rdi), %rbx
	leaq	(%rcx,%rdi,2), %rsi
14:
	cmpq	%rdi, %rax
	je	20f
	leaq	(%rcx,%rbx), %rdi
	cmpq	$4, %rdx
	jb	15f
	movq	%rdi, %r8
	subq	%rsi, %r8
	addq	$-2, %r8
	cmpq	$32, %r8
	jae	22f
15:
	xorl	%r8d, %r8d
16:
	movq	%rdx, %r10
	movq	%r8, %r9
	andq	$3, %r10
	je	18f
	movq	%r8, %r9
	.p2align	4
17:
	movzwl	2(%rsi,%r9,2), %r11d
	movw	%r11w, (%rdi,%r9,2)
	incq	%r9
	decq	%r10
	jne	17b
18:
	subq	%rdx, %r8
	cmpq	$-4, %r8
	ja	20f
	addq	%rbx, %rcx
	addq	$6, %rcx
	.p2align	4
19:
	movzwl	2(%rsi,%r9,2), %edi
	movw	%di, -6(%rcx,%r9,2)
	movzwl	4(%rsi,%r9,2), %edi
	movw	%di, -4(%rcx,%r9,2)
	movzwl	6(%rsi,%r9,2), %edi
	movw	%di, -2(%rcx,%r9,2)
	movzwl	8(%rsi,%r9,2), %edi
	movw	%di, (%rcx,%r9,2)
	addq	$4, %r9
	cmpq	%r9, %rdx
	jne	19b
20:
	movq	%rax, 64(%rsp)
	cmpq	$0, 16(%rsp)
	je	6b
	movq	(%rsp), %rdi
	callq	rattle_dealloc@PLT
	jmp	6b
	.p2align	4
21:
	xorl	%ecx, %ecx
	movq	%r14, %rdx
	movq	96(%rsp), %r15
	cmpq	%rcx, %r14
	jne	10b
	jmp	11b
22:
	cmpq	$16, %rdx
	jae	23f
	xorl	%r8d, %r8d
	jmp	25f
23:
	movl	%edx, %r8d
	andl	$2032, %r8d
	leaq	(%rcx,%rbx), %r9
	addq	$16, %r9
	xorl	%r10d, %r10d
	.p2align	4
24:
	movups	2(%rsi,%r10,2), %xmm0
	movups	18(%rsi,%r10,2), %xmm1
	movups	%xmm0, -16(%r9,%r10,2)
	movups	%xmm1, (%r9,%r10,2)
	addq	$16, %r10
	cmpq	%r10, %r8
	jne	24b
	cmpq	%r8, %rdx
	je	20b
	testb	$12, %dl
	je	16b
25:
	movq	%r8, %r9
	movl	%edx, %r8d
	andl	$2044, %r8d
	.p2align	4
26:
	movq	2(%rsi,%r9,2), %r10
	movq	%r10, (%rdi,%r9,2)
	addq	$4, %r9
	cmpq	%r9, %r8
	jne	26b
	cmpq	%r8, %rdx
	je	20b
	jmp	16b
27:
	movq	80(%rsp), %rax
	movq	88(%rsp), %r12
	decq	%r12
	movq	(%rax), %rbx
	cmpq	$257, %r12
	jae	1b
28:
	xorl	%ecx, %ecx
	movq	%r12, %rdx
	cmpq	%rcx, %r12
	jne	4b
	jmp	5b
29:
	cmpw	$15, %r12w
	jbe	30f
	movl	%r12d, %r15d
	shrl	%r15d
	movq	%r12, %r13
	subq	%r15, %r13
	leaq	(,%r13,2), %rax
	addq	%r13, %rax
	leaq	(%rdi,%rax,8), %rsi
	movq	%r15, %rdx
	callq	"core::slice::edits::mirror::<#2262cf5b90b10fda>"
	leaq	(%r14,%r13,2), %rsi
	movq	%r14, %rdi
	movq	%r15, %rdx
	callq	"core::slice::edits::mirror::<i16>"
	jmp	48f
30:
	cmpw	$2, %r12w
	jb	47f
	leaq	-2(%r12), %rdx
	movq	%rdx, %rax
	shrq	%rax
	movq	%r12, %rcx
	decq	%rcx
	je	31f
	leaq	(%rcx,%rcx,2), %rsi
	movq	16(%rdi), %r8
	movq	%r8, 16(%rsp)
	movups	(%rdi), %xmm0
	movaps	%xmm0, (%rsp)
	movq	16(%rdi,%rsi,8), %r8
	movups	(%rdi,%rsi,8), %xmm0
	movups	%xmm0, (%rdi)
	movq	%r8, 16(%rdi)
	movq	16(%rsp), %r8
	movq	%r8, 16(%rdi,%rsi,8)
	movaps	(%rsp), %xmm0
	movups	%xmm0, (%rdi,%rsi,8)
31:
	testq	%rax, %rax
	je	43f
	cmpq	$1, %rdx
	jbe	32f
	leaq	(%rdx,%rdx,2), %rdx
	movq	48(%rbx), %rsi
	movq	%rsi, 16(%rsp)
	movups	32(%rbx), %xmm0
	movaps	%xmm0, (%rsp)
	movq	16(%rdi,%rdx,8), %rsi
	movups	(%rdi,%rdx,8), %xmm0
	movups	%xmm0, 32(%rbx)
	movq	%rsi, 48(%rbx)
	movq	16(%rsp), %rsi
	movq	%rsi, 16(%rdi,%rdx,8)
	movaps	(%rsp), %xmm0
	movups	%xmm0, (%rdi,%rdx,8)
	jmp	33f
32:
	testq	%rdx, %rdx
	jne	33f
	leaq	(%rdx,%rdx,2), %rdx
	movq	16(%rdi,%rdx,8), %rsi
	movq	%rsi, 16(%rsp)
	movups	(%rdi,%rdx,8), %xmm0
	movaps	%xmm0, (%rsp)
	movq	48(%rbx), %rsi
	movups	32(%rbx), %xmm0
	movups	%xmm0, (%rdi,%rdx,8)
	movq	%rsi, 16(%rdi,%rdx,8)
	movq	16(%rsp), %rdx
	movq	%rdx, 48(%rbx)
	movaps	(%rsp), %xmm0
	movups	%xmm0, 32(%rbx)
33:
	cmpq	$1, %rax
	je	43f
	leaq	-3(%r12), %rdx
	cmpq	$2, %rdx
	jbe	34f
	leaq	(%rdx,%rdx,2), %rdx
	movq	72(%rbx), %rsi
	movq	%rsi, 16(%rsp)
	movups	56(%rbx), %xmm0
	movaps	%xmm0, (%rsp)
	movq	16(%rdi,%rdx,8), %rsi
	movups	(%rdi,%rdx,8), %xmm0
	movups	%xmm0, 56(%rbx)
	movq	%rsi, 72(%rbx)
	movq	16(%rsp), %rsi
	movq	%rsi, 16(%rdi,%rdx,8)
	movaps	(%rsp), %xmm0
	movups	%xmm0, (%rdi,%rdx,8)
	jmp	35f
34:
	cmpl	$2, %edx
	je	35f
	leaq	(%rdx,%rdx,2), %rdx
	movq	16(%rdi,%rdx,8), %rsi
	movq	%rsi, 16(%rsp)
	movups	(%rdi,%rdx,8), %xmm0
	movaps	%xmm0, (%rsp)
	movq	72(%rbx), %rsi
	movups	56(%rbx), %xmm0
	movups	%xmm0, (%rdi,%rdx,8)
	movq	%rsi, 16(%rdi,%rdx,8)
	movq	16(%rsp), %rdx
	movq	%rdx, 72(%rbx)
	movaps	(%rsp), %xmm0
	movups	%xmm0, 56(%rbx)
35:
	cmpq	$2, %rax
	je	43f
	leaq	-4(%r12), %rdx
	cmpq	$3, %rdx
	jbe	36f
	leaq	(%rdx,%rdx,2), %rdx
	movq	96(%rbx), %rsi
	movq	%rsi, 16(%rsp)
	movups	80(%rbx), %xmm0
	movaps	%xmm0, (%rsp)
	movq	16(%rdi,%rdx,8), %rsi
	movups	(%rdi,%rdx,8), %xmm0
	movups	%xmm0, 80(%rbx)
	movq	%rsi, 96(%rbx)
	movq	16(%rsp), %rsi
	movq	%rsi, 16(%rdi,%rdx,8)
	movaps	(%rsp), %xmm0
	movups	%xmm0, (%rdi,%rdx,8)
	jmp	37f
36:
	cmpl	$3, %edx
	je	37f
	leaq	(%rdx,%rdx,2), %rdx
	movq	16(%rdi,%rdx,8), %rsi
	movq	%rsi, 16(%rsp)
	movups	(%rdi,%rdx,8), %xmm0
	movaps	%xmm0, (%rsp)
	movq	96(%rbx), %rsi
	movups	80(%rbx), %xmm0
	movups	%xmm0, (%rdi,%rdx,8)
	movq	%rsi, 16(%rdi,%rdx,8)
	movq	16(%rsp), %rdx
	movq	%rdx, 96(%rbx)
	movaps	(%rsp), %xmm0
	movups	%xmm0, 80(%rbx)
37:
	cmpq	$3, %rax
	je	43f
	leaq	-5(%r12), %rdx
	cmpq	$4, %rdx
	jbe	38f
	leaq	(%rdx,%rdx,2), %rdx
	movq	120(%rbx), %rsi
	movq	%rsi, 16(%rsp)
	movups	104(%rbx), %xmm0
	movaps	%xmm0, (%rsp)
	movq	16(%rdi,%rdx,8), %rsi
	movups	(%rdi,%rdx,8), %xmm0
	movups	%xmm0, 104(%rbx)
	movq	%rsi, 120(%rbx)
	movq	16(%rsp), %rsi
	movq	%rsi, 16(%rdi,%rdx,8)
	movaps	(%rsp), %xmm0
	movups	%xmm0, (%rdi,%rdx,8)
	jmp	39f
38:
	cmpl	$4, %edx
	je	39f
	leaq	(%rdx,%rdx,2), %rdx
	movq	16(%rdi,%rdx,8), %rsi
	movq	%rsi, 16(%rsp)
	movups	(%rdi,%rdx,8), %xmm0
	movaps	%xmm0, (%rsp)
	movq	120(%rbx), %rsi
	movups	104(%rbx), %xmm0
	movups	%xmm0, (%rdi,%rdx,8)
	movq	%rsi, 16(%rdi,%rdx,8)
	movq	16(%rsp), %rdx
	movq	%rdx, 120(%rbx)
	movaps	(%rsp), %xmm0
	movups	%xmm0, 104(%rbx)
39:
	cmpq	$4, %rax
	je	43f
	leaq	-6(%r12), %rdx
	cmpq	$5, %rdx
	jbe	40f
	leaq	(%rdx,%rdx,2), %rdx
	movq	144(%rbx), %rsi
	movq	%rsi, 16(%rsp)
	movups	128(%rbx), %xmm0
	movaps	%xmm0, (%rsp)
	movq	16(%rdi,%rdx,8), %rsi
	movups	(%rdi,%rdx,8), %xmm0
	movups	%xmm0, 128(%rbx)
	movq	%rsi, 144(%rbx)
	movq	16(%rsp), %rsi
	movq	%rsi, 16(%rdi,%rdx,8)
	movaps	(%rsp), %xmm0
	movups	%xmm0, (%rdi,%rdx,8)
	jmp	41f
40:
	cmpl	$5, %edx
	je	41f
	leaq	(%rdx,%rdx,2), %rdx
	movq	16(%rdi,%rdx,8), %rsi
	movq	%rsi, 16(%rsp)
	movups	(%rdi,%rdx,8), %xmm0
	movaps	%xmm0, (%rsp)
	movq	144(%rbx), %rsi
	movups	128(%rbx), %xmm0
	movups	%xmm0, (%rdi,%rdx,8)
	movq	%rsi, 16(%rdi,%rdx,8)
	movq	16(%rsp), %rdx
	movq	%rdx, 144(%rbx)
	movaps	(%rsp), %xmm0
	movups	%xmm0, 128(%rbx)
41:
	cmpq	$5, %rax
	je	43f
	leaq	-7(%r12), %rdx
	cmpq	$6, %rdx
	jbe	42f
	leaq	(%rdx,%rdx,2), %rdx
	movq	168(%rbx), %rsi
	movq	%rsi, 16(%rsp)
	movups	152(%rbx), %xmm0
	movaps	%xmm0, (%rsp)
	movq	16(%rdi,%rdx,8), %rsi
	movups	(%rdi,%rdx,8), %xmm0
	movups	%xmm0, 152(%rbx)
	movq	%rsi, 168(%rbx)
	movq	16(%rsp), %rsi
	movq	%rsi, 16(%rdi,%rdx,8)
	movaps	(%rsp), %xmm0
	movups	%xmm0, (%rdi,%rdx,8)
	jmp	43f
42:
	cmpl	$6, %edx
	je	43f
	leaq	(%rdx,%rdx,2), %rdx
	movq	16(%rdi,%rdx,8), %rsi
	movq	%rsi, 16(%rsp)
	movups	(%rdi,%rdx,8), %xmm0
	movaps	%xmm0, (%rsp)
	movq	168(%rbx), %rsi
	movups	152(%rbx), %xmm0
	movups	%xmm0, (%rdi,%rdx,8)
	movq	%rsi, 16(%rdi,%rdx,8)
	movq	16(%rsp), %rdx
	movq	%rdx, 168(%rbx)
	movaps	(%rsp), %xmm0
	movups	%xmm0, 152(%rbx)
43:
	incq	%rax
	xorl	%edx, %edx
	jmp	46f
	.p2align	4
44:
	movzwl	(%r14,%rdx,2), %esi
	movzwl	(%r14,%rcx,2), %edi
	movw	%di, (%r14,%rdx,2)
	movw	%si, (%r14,%rcx,2)
45:
	incq	%rdx
	decq	%rcx
	cmpq	%rdx, %rax
	je	47f
46:
	cmpq	%rcx, %rdx
	jb	44b
	jbe	45b
	movzwl	(%r14,%rcx,2), %esi
	movzwl	(%r14,%rdx,2), %edi
	movw	%di, (%r14,%rcx,2)
	movw	%si, (%r14,%rdx,2)
	jmp	45b
47:
	testq	%r12, %r12
	je	51f
48:
	leaq	(%r12,%r12,2), %rax
	leaq	(%rbx,%rax,8), %r14
	jmp	50f
	.p2align	4
49:
	decq	%r12
	addq	$-24, %r14
	testq	%r12, %r12
	je	51f
50:
	cmpq	$0, (%r14)
	je	49b
	movq	-16(%r14), %rdi
	callq	rattle_dealloc@PLT
	jmp	49b
51:
	movq	%rbx, %rdi
52:
	addq	$112, %rsp
	popq	%rbx
	popq	%r12
	popq	%r13
	popq	%r14
	popq	%r15
	jmp	rattle_dealloc@PLT
53:
	.size	"std_collections::btree::node::Node::destroy::<#75908c3a02a00b6b>", 53b-"std_collections::btree::node::Node::destroy::<#75908c3a02a00b6b>"

	.text
	.p2align	4
	.type	"std_collections::btree::node::Node::destroy::<#edcdc2349bef7e9b>",@function
"std_collections::btree::node::Node::destroy::<#edcdc2349bef7e9b>":
	pushq	%rbp
	pushq	%r15
	pushq	%r14
	pushq	%r13
	pushq	%r12
	pushq	%rbx
	pushq	%rax
	movq	%rdi, %rbx
	movzwl	(%rdi), %r12d
	leaq	4(%rdi), %r14
	cmpw	$0, 2(%rdi)
	je	20f
	testq	%r12, %r12
	je	19f
	leaq	64(%rbx), %r13
	leaq	1(%r12), %rbp
	jmp	2f
	.p2align	4
1:
	testq	%r12, %r12
	je	19f
2:
	movq	(%r13), %r15
	decq	%rbp
	xorl	%eax, %eax
	cmpq	$257, %rbp
	jb	9f
	leaq	120(%rbx), %rcx
	.p2align	4
3:
	xorl	%edx, %edx
	.p2align	4
4:
	movups	-48(%rcx,%rdx,8), %xmm0
	movups	-32(%rcx,%rdx,8), %xmm1
	movups	-16(%rcx,%rdx,8), %xmm2
	movups	(%rcx,%rdx,8), %xmm3
	movups	%xmm0, -56(%rcx,%rdx,8)
	movups	%xmm1, -40(%rcx,%rdx,8)
	movups	%xmm2, -24(%rcx,%rdx,8)
	movups	%xmm3, -8(%rcx,%rdx,8)
	addq	$8, %rdx
	cmpq	$256, %rdx
	jne	4b
	addq	$256, %rax
	movq	%rbp, %rdx
	subq	%rax, %rdx
	addq	$2048, %rcx
	cmpq	$256, %rdx
	ja	3b
	cmpq	%rax, %rbp
	je	6f
5:
	leaq	(,%rax,8), %rdi
	addq	%r13, %rdi
	leaq	8(,%rax,8), %rsi
	addq	%r13, %rsi
	shlq	$3, %rdx
	callq	memmove@PLT
6:
	movq	%r15, %rdi
	callq	"std_collections::btree::node::Node::destroy::<#edcdc2349bef7e9b>"
	decq	%r12
	cmpq	$513, %r12
	jb	10f
	xorl	%esi, %esi
	leaq	56(%rbx), %rcx
	.p2align	4
7:
	xorl	%eax, %eax
	.p2align	4
8:
	movups	-48(%rcx,%rax,4), %xmm0
	movups	-32(%rcx,%rax,4), %xmm1
	movups	-16(%rcx,%rax,4), %xmm2
	movups	(%rcx,%rax,4), %xmm3
	movups	%xmm0, -52(%rcx,%rax,4)
	movups	%xmm1, -36(%rcx,%rax,4)
	movups	%xmm2, -20(%rcx,%rax,4)
	movups	%xmm3, -4(%rcx,%rax,4)
	addq	$16, %rax
	cmpq	$512, %rax
	jne	8b
	addq	$512, %rsi
	movq	%r12, %rax
	subq	%rsi, %rax
	addq	$2048, %rcx
	cmpq	$512, %rax
	ja	7b
	leaq	(,%rsi,4), %rcx
	leaq	(%r14,%rsi,4), %rdx
	cmpq	%rsi, %r12
	je	1b
	jmp	11f
	.p2align	4
9:
	movq	%rbp, %rdx
	cmpq	%rax, %rbp
	jne	5b
	jmp	6b
	.p2align	4
10:
	xorl	%ecx, %ecx
	movq	%r14, %rdx
	movq	%r12, %rax
	xorl	%esi, %esi
	cmpq	%rsi, %r12
	je	1b
11:
	cmpq	$8, %rax
	jb	12f
	leaq	(%rcx,%rbx), %rsi
	subq	%rdx, %rsi
	cmpq	$32, %rsi
	jae	17f
12:
	xorl	%esi, %esi
13:
	movq	%rax, %r8
	movq	%rsi, %rdi
	andq	$3, %r8
	je	15f
	leaq	(%r14,%rcx), %r9
	movq	%rsi, %rdi
	.p2align	4
14:
	movl	4(%rdx,%rdi,4), %r10d
	movl	%r10d, (%r9,%rdi,4)
	incq	%rdi
	decq	%r8
	jne	14b
15:
	subq	%rax, %rsi
	cmpq	$-4, %rsi
	ja	1b
	leaq	16(%rbx), %rsi
	addq	%rsi, %rcx
	.p2align	4
16:
	movl	4(%rdx,%rdi,4), %esi
	movl	%esi, -12(%rcx,%rdi,4)
	movl	8(%rdx,%rdi,4), %esi
	movl	%esi, -8(%rcx,%rdi,4)
	movl	12(%rdx,%rdi,4), %esi
	movl	%esi, -4(%rcx,%rdi,4)
	movl	16(%rdx,%rdi,4), %esi
	movl	%esi, (%rcx,%rdi,4)
	addq	$4, %rdi
	cmpq	%rdi, %rax
	jne	16b
	jmp	1b
17:
	movl	%eax, %esi
	andl	$1016, %esi
	leaq	20(%rbx), %rdi
	addq	%rcx, %rdi
	xorl	%r8d, %r8d
	.p2align	4
18:
	movups	4(%rdx,%r8,4), %xmm0
	movups	20(%rdx,%r8,4), %xmm1
	movups	%xmm0, -16(%rdi,%r8,4)
	movups	%xmm1, (%rdi,%r8,4)
	addq	$8, %r8
	cmpq	%r8, %rsi
	jne	18b
	cmpq	%rsi, %rax
	je	1b
	jmp	13b
19:
	movq	64(%rbx), %rdi
	callq	"std_collections::btree::node::Node::destroy::<#edcdc2349bef7e9b>"
	jmp	34f
20:
	cmpw	$15, %r12w
	jbe	21f
	movl	%r12d, %ecx
	shrl	%ecx
	subq	%rcx, %r12
	leaq	(%r14,%r12,4), %rdx
	movq	%r14, %rdi
	xorl	%esi, %esi
	callq	"core::slice::edits::mirror::<i32>"
	jmp	34f
21:
	cmpw	$2, %r12w
	jb	34f
	leaq	-2(%r12), %rcx
	movq	%rcx, %rax
	shrq	%rax
	cmpq	$1, %r12
	je	22f
	movl	(%r14), %edx
	movl	-4(%r14,%r12,4), %esi
	movl	%esi, (%r14)
	movl	%edx, -4(%r14,%r12,4)
22:
	testq	%rax, %rax
	je	34f
	cmpq	$1, %rcx
	jbe	23f
	movl	8(%rbx), %ecx
	movl	-4(%rbx,%r12,4), %edx
	movl	%edx, 8(%rbx)
	movl	%ecx, -4(%rbx,%r12,4)
	jmp	24f
23:
	testq	%rcx, %rcx
	jne	24f
	rolq	$32, 4(%rbx)
24:
	cmpq	$1, %rax
	je	34f
	leaq	-3(%r12), %rcx
	cmpq	$2, %rcx
	jbe	25f
	movl	12(%rbx), %ecx
	movl	-8(%rbx,%r12,4), %edx
	movl	%edx, 12(%rbx)
	movl	%ecx, -8(%rbx,%r12,4)
	jmp	26f
25:
	cmpl	$2, %ecx
	je	26f
	movl	-8(%rbx,%r12,4), %ecx
	movl	12(%rbx), %edx
	movl	%edx, -8(%rbx,%r12,4)
	movl	%ecx, 12(%rbx)
26:
	cmpq	$2, %rax
	je	34f
	leaq	-4(%r12), %rcx
	cmpq	$3, %rcx
	jbe	27f
	movl	16(%rbx), %ecx
	movl	-12(%rbx,%r12,4), %edx
	movl	%edx, 16(%rbx)
	movl	%ecx, -12(%rbx,%r12,4)
	jmp	28f
27:
	cmpl	$3, %ecx
	je	28f
	movl	-12(%rbx,%r12,4), %ecx
	movl	16(%rbx), %edx
	movl	%edx, -12(%rbx,%r12,4)
	movl	%ecx, 16(%rbx)
28:
	cmpq	$3, %rax
	je	34f
	leaq	-5(%r12), %rcx
	cmpq	$4, %rcx
	jbe	29f
	movl	20(%rbx), %ecx
	movl	-16(%rbx,%r12,4), %edx
	movl	%edx, 20(%rbx)
	movl	%ecx, -16(%rbx,%r12,4)
	jmp	30f
29:
	cmpl	$4, %ecx
	je	30f
	movl	-16(%rbx,%r12,4), %ecx
	movl	20(%rbx), %edx
	movl	%edx, -16(%rbx,%r12,4)
	movl	%ecx, 20(%rbx)
30:
	cmpq	$4, %rax
	je	34f
	leaq	-6(%r12), %rcx
	cmpq	$5, %rcx
	jbe	31f
	movl	24(%rbx), %ecx
	movl	-20(%rbx,%r12,4), %edx
	movl	%edx, 24(%rbx)
	movl	%ecx, -20(%rbx,%r12,4)
	jmp	32f
31:
	cmpl	$5, %ecx
	je	32f
	movl	-20(%rbx,%r12,4), %ecx
	movl	24(%rbx), %edx
	movl	%edx, -20(%rbx,%r12,4)
	movl	%ecx, 24(%rbx)
32:
	cmpq	$5, %rax
	je	34f
	leaq	-7(%r12), %rax
	cmpq	$6, %rax
	jbe	33f
	movl	28(%rbx), %eax
	movl	-24(%rbx,%r12,4), %ecx
	movl	%ecx, 28(%rbx)
	movl	%eax, -24(%rbx,%r12,4)
	jmp	34f
33:
	cmpl	$6, %eax
	je	34f
	movl	-24(%rbx,%r12,4), %eax
	movl	28(%rbx), %ecx
	movl	%ecx, -24(%rbx,%r12,4)
	movl	%eax, 28(%rbx)
34:
	movq	%rbx, %rdi
	addq	$8, %rsp
	popq	%rbx
	popq	%r12
	popq	%r13
	popq	%r14
	popq	%r15
	popq	%rbp
	jmp	rattle_dealloc@PLT
35:
	.size	"std_collections::btree::node::Node::destroy::<#edcdc2349bef7e9b>", 35b-"std_collections::btree::node::Node::destroy::<#edcdc2349bef7e9b>"

	.text
	.p2align	4
	.type	"std_collections::btree::node::Node::destroy::<#f262a4084ccbf4f6>",@function
"std_collections::btree::node::Node::destroy::<#f262a4084ccbf4f6>":
	pushq	%r15
	pushq	%r14
	pushq	%r13
	pushq	%r12
	pushq	%rbx
	subq	$112, %rsp
	movq	%rdi, %rbx
	movzwl	(%rdi), %r12d
	movzwl	2(%rdi), %ecx
	xorl	%edx, %edx
	testw	%cx, %cx
	setne	%dl
	leaq	1(%r12), %rsi
	shll	$4, %edx
	leaq	608(%rdi), %rax
	leaq	488(%rdi), %r14
	addq	$8, %rdi
	xorl	%r8d, %r8d
	testw	%cx, %cx
	cmovneq	%rsi, %r8
	movq	%rdi, 32(%rsp)
	movq	%r12, 40(%rsp)
	movq	$15, 48(%rsp)
	movq	%r14, 56(%rsp)
	movq	%r12, 64(%rsp)
	movq	$15, 72(%rsp)
	movq	%rax, 80(%rsp)
	movq	%r8, 88(%rsp)
	movq	%rdx, 96(%rsp)
	movq	%rbx, 104(%rsp)
	je	26f
	testq	%r12, %r12
	jne	7f
	movq	(%rax), %rbx
	cmpq	$257, %r12
	jb	25f
1:
	leaq	56(%rax), %rsi
	xorl	%ecx, %ecx
	.p2align	4
2:
	xorl	%edx, %edx
	.p2align	4
3:
	movups	-48(%rsi,%rdx,8), %xmm0
	movups	-32(%rsi,%rdx,8), %xmm1
	movups	-16(%rsi,%rdx,8), %xmm2
	movups	(%rsi,%rdx,8), %xmm3
	movups	%xmm0, -56(%rsi,%rdx,8)
	movups	%xmm1, -40(%rsi,%rdx,8)
	movups	%xmm2, -24(%rsi,%rdx,8)
	movups	%xmm3, -8(%rsi,%rdx,8)
	addq	$8, %rdx
	cmpq	$256, %rdx
	jne	3b
	addq	$256, %rcx
	movq	%r12, %rdx
	subq	%rcx, %rdx
	addq	$2048, %rsi
	cmpq	$256, %rdx
	ja	2b
	cmpq	%rcx, %r12
	je	5f
4:
	leaq	(%rax,%rcx,8), %rdi
	leaq	(%rax,%rcx,8), %rsi
	addq	$8, %rsi
	shlq	$3, %rdx
	callq	memmove@PLT
5:
	movq	%rbx, %rdi
	callq	"std_collections::btree::node::Node::destroy::<#f262a4084ccbf4f6>"
	movq	104(%rsp), %rdi
	jmp	49f
	.p2align	4
6:
	cmpq	$0, 40(%rsp)
	je	24f
7:
	movq	80(%rsp), %rax
	movq	88(%rsp), %r14
	movq	(%rax), %rbx
	decq	%r14
	cmpq	$257, %r14
	jb	20f
	leaq	56(%rax), %rsi
	xorl	%ecx, %ecx
	.p2align	4
8:
	xorl	%edx, %edx
	.p2align	4
9:
	movups	-48(%rsi,%rdx,8), %xmm0
	movups	-32(%rsi,%rdx,8), %xmm1
	movups	-16(%rsi,%rdx,8), %xmm2
	movups	(%rsi,%rdx,8), %xmm3
	movups	%xmm0, -56(%rsi,%rdx,8)
	movups	%xmm1, -40(%rsi,%rdx,8)
	movups	%xmm2, -24(%rsi,%rdx,8)
	movups	%xmm3, -8(%rsi,%rdx,8)
	addq	$8, %rdx
	cmpq	$256, %rdx
	jne	9b
	addq	$256, %rcx
	movq	%r14, %rdx
	subq	%rcx, %rdx
	addq	$2048, %rsi
	cmpq	$256, %rdx
	ja	8b
	movq	96(%rsp), %r15
	cmpq	%rcx, %r14
	je	11f
10:
	leaq	(%rax,%rcx,8), %rdi
	leaq	(%rax,%rcx,8), %rsi
	addq	$8, %rsi
	shlq	$3, %rdx
	callq	memmove@PLT
11:
	movq	%r14, 88(%rsp)
	movq	%r15, 96(%rsp)
	movq	%rbx, %rdi
	callq	"std_collections::btree::node::Node::destroy::<#f262a4084ccbf4f6>"
	xorps	%xmm0, %xmm0
	movaps	%xmm0, 16(%rsp)
	movaps	%xmm0, (%rsp)
	xorl	%ebx, %ebx
	movq	%rsp, %rdi
	leaq	32(%rsp), %rsi
	xorl	%edx, %edx
	callq	"std_alloc::vec::Vec::remove::<#209ef5882a9a6cb3>"
	movq	56(%rsp), %rcx
	movq	64(%rsp), %rax
	decq	%rax
	movq	%rcx, %rsi
	movq	%rax, %rdx
	movl	$0, %edi
	cmpq	$257, %rax
	jb	14f
	leaq	56(%rcx), %rsi
	xorl	%edi, %edi
	.p2align	4
12:
	xorl	%edx, %edx
	.p2align	4
13:
	movups	-48(%rsi,%rdx,8), %xmm0
	movups	-32(%rsi,%rdx,8), %xmm1
	movups	-16(%rsi,%rdx,8), %xmm2
	movups	(%rsi,%rdx,8), %xmm3
	movups	%xmm0, -56(%rsi,%rdx,8)
	movups	%xmm1, -40(%rsi,%rdx,8)
	movups	%xmm2, -24(%rsi,%rdx,8)
	movups	%xmm3, -8(%rsi,%rdx,8)
	addq	$8, %rdx
	cmpq	$256, %rdx
	jne	13b
	addq	$256, %rdi
	movq	%rax, %rdx
	subq	%rdi, %rdx
	addq	$2048, %rsi
	cmpq	$256, %rdx
	ja	12b
	leaq	(,%rdi,8), %rbx
	leaq	(%rcx,%rdi,8), %rsi
14:
	cmpq	%rdi, %rax
	je	23f
	leaq	(%rcx,%rbx), %rdi
	cmpq	$4, %rdx
	jb	15f
	movq	%rdi, %r8
	subq	%rsi, %r8
	addq	$-8, %r8
	cmpq	$32, %r8
	jae	21f
15:
	xorl	%r8d, %r8d
16:
	movq	%rdx, %r10
	movq	%r8, %r9
	andq	$3, %r10
	je	18f
	movq	%r8, %r9
	.p2align	4
17:
	movq	8(%rsi,%r9,8), %r11
	movq	%r11, (%rdi,%r9,8)
	incq	%r9
	decq	%r10
	jne	17b
18:
	subq	%rdx, %r8
	cmpq	$-4, %r8
	ja	23f
	addq	%rbx, %rcx
	addq	$24, %rcx
	.p2align	4
19:
	movq	8(%rsi,%r9,8), %rdi
	movq	%rdi, -24(%rcx,%r9,8)
	movq	16(%rsi,%r9,8), %rdi
	movq	%rdi, -16(%rcx,%r9,8)
	movq	24(%rsi,%r9,8), %rdi
	movq	%rdi, -8(%rcx,%r9,8)
	movq	32(%rsi,%r9,8), %rdi
	movq	%rdi, (%rcx,%r9,8)
	addq	$4, %r9
	cmpq	%r9, %rdx
	jne	19b
	jmp	23f
	.p2align	4
20:
	xorl	%ecx, %ecx
	movq	%r14, %rdx
	movq	96(%rsp), %r15
	cmpq	%rcx, %r14
	jne	10b
	jmp	11b
21:
	movl	%edx, %r8d
	andl	$508, %r8d
	leaq	(%rcx,%rbx), %r9
	addq	$16, %r9
	xorl	%r10d, %r10d
	.p2align	4
22:
	movups	8(%rsi,%r10,8), %xmm0
	movups	24(%rsi,%r10,8), %xmm1
	movups	%xmm0, -16(%r9,%r10,8)
	movups	%xmm1, (%r9,%r10,8)
	addq	$4, %r10
	cmpq	%r10, %r8
	jne	22b
	cmpq	%r8, %rdx
	jne	16b
	.p2align	4
23:
	movq	%rax, 64(%rsp)
	cmpq	$0, 24(%rsp)
	je	6b
	movq	8(%rsp), %rdi
	callq	rattle_dealloc@PLT
	jmp	6b
24:
	movq	80(%rsp), %rax
	movq	88(%rsp), %r12
	decq	%r12
	movq	(%rax), %rbx
	cmpq	$257, %r12
	jae	1b
25:
	xorl	%ecx, %ecx
	movq	%r12, %rdx
	cmpq	%rcx, %r12
	jne	4b
	jmp	5b
26:
	cmpw	$15, %r12w
	jbe	27f
	movl	%r12d, %r15d
	shrl	%r15d
	movq	%r12, %r13
	subq	%r15, %r13
	movq	%r13, %rsi
	shlq	$5, %rsi
	addq	%rdi, %rsi
	movq	%r15, %rdx
	callq	"core::slice::edits::mirror::<24'(,)::<#ee13f2425f1aee9b>>"
	leaq	(%r14,%r13,8), %rdx
	movq	%r14, %rdi
	xorl	%esi, %esi
	movq	%r15, %rcx
	callq	"core::slice::edits::mirror::<i64>"
	jmp	45f
27:
	cmpw	$2, %r12w
	jb	44f
	leaq	-2(%r12), %rdx
	movq	%rdx, %rax
	shrq	%rax
	movq	%r12, %rcx
	decq	%rcx
	je	28f
	movq	%rcx, %rsi
	shlq	$5, %rsi
	movups	(%rdi), %xmm0
	movups	16(%rdi), %xmm1
	movaps	%xmm1, 16(%rsp)
	movaps	%xmm0, (%rsp)
	movups	(%rdi,%rsi), %xmm0
	movups	16(%rdi,%rsi), %xmm1
	movups	%xmm0, (%rdi)
	movups	%xmm1, 16(%rdi)
	movaps	(%rsp), %xmm0
	movaps	16(%rsp), %xmm1
	movups	%xmm1, 16(%rdi,%rsi)
	movups	%xmm0, (%rdi,%rsi)
28:
	testq	%rax, %rax
	je	40f
	cmpq	$1, %rdx
	jbe	29f
	shlq	$5, %rdx
	movups	40(%rbx), %xmm0
	movups	56(%rbx), %xmm1
	movaps	%xmm1, 16(%rsp)
	movaps	%xmm0, (%rsp)
	movups	(%rdi,%rdx), %xmm0
	movups	16(%rdi,%rdx), %xmm1
	movups	%xmm0, 40(%rbx)
	movups	%xmm1, 56(%rbx)
	movaps	(%rsp), %xmm0
	movaps	16(%rsp), %xmm1
	movups	%xmm1, 16(%rdi,%rdx)
	movups	%xmm0, (%rdi,%rdx)
	jmp	30f
29:
	testq	%rdx, %rdx
	jne	30f
	movups	(%rdi), %xmm0
	movups	16(%rdi), %xmm1
	movaps	%xmm1, 16(%rsp)
	movaps	%xmm0, (%rsp)
	movups	40(%rbx), %xmm0
	movups	56(%rbx), %xmm1
	movups	%xmm0, (%rdi)
	movups	%xmm1, 16(%rdi)
	movaps	(%rsp), %xmm0
	movaps	16(%rsp), %xmm1
	movups	%xmm1, 56(%rbx)
	movups	%xmm0, 40(%rbx)
30:
	cmpq	$1, %rax
	je	40f
	leaq	-3(%r12), %rdx
	cmpq	$2, %rdx
	jbe	31f
	shlq	$5, %rdx
	movups	72(%rbx), %xmm0
	movups	88(%rbx), %xmm1
	movaps	%xmm1, 16(%rsp)
	movaps	%xmm0, (%rsp)
	movups	(%rdi,%rdx), %xmm0
	movups	16(%rdi,%rdx), %xmm1
	movups	%xmm0, 72(%rbx)
	movups	%xmm1, 88(%rbx)
	movaps	(%rsp), %xmm0
	movaps	16(%rsp), %xmm1
	movups	%xmm1, 16(%rdi,%rdx)
	movups	%xmm0, (%rdi,%rdx)
	jmp	32f
31:
	cmpl	$2, %edx
	je	32f
	shlq	$5, %rdx
	movups	(%rdi,%rdx), %xmm0
	movups	16(%rdi,%rdx), %xmm1
	movaps	%xmm1, 16(%rsp)
	movaps	%xmm0, (%rsp)
	movups	72(%rbx), %xmm0
	movups	88(%rbx), %xmm1
	movups	%xmm0, (%rdi,%rdx)
	movups	%xmm1, 16(%rdi,%rdx)
	movaps	(%rsp), %xmm0
	movaps	16(%rsp), %xmm1
	movups	%xmm1, 88(%rbx)
	movups	%xmm0, 72(%rbx)
32:
	cmpq	$2, %rax
	je	40f
	leaq	-4(%r12), %rdx
	cmpq	$3, %rdx
	jbe	33f
	shlq	$5, %rdx
	movups	104(%rbx), %xmm0
	movups	120(%rbx), %xmm1
	movaps	%xmm1, 16(%rsp)
	movaps	%xmm0, (%rsp)
	movups	(%rdi,%rdx), %xmm0
	movups	16(%rdi,%rdx), %xmm1
	movups	%xmm0, 104(%rbx)
	movups	%xmm1, 120(%rbx)
	movaps	(%rsp), %xmm0
	movaps	16(%rsp), %xmm1
	movups	%xmm1, 16(%rdi,%rdx)
	movups	%xmm0, (%rdi,%rdx)
	jmp	34f
33:
	cmpl	$3, %edx
	je	34f
	shlq	$5, %rdx
	movups	(%rdi,%rdx), %xmm0
	movups	16(%rdi,%rdx), %xmm1
	movaps	%xmm1, 16(%rsp)
	movaps	%xmm0, (%rsp)
	movups	104(%rbx), %xmm0
	movups	120(%rbx), %xmm1
	movups	%xmm0, (%rdi,%rdx)
	movups	%xmm1, 16(%rdi,%rdx)
	movaps	(%rsp), %xmm0
	movaps	16(%rsp), %xmm1
	movups	%xmm1, 120(%rbx)
	movups	%xmm0, 104(%rbx)
34:
	cmpq	$3, %rax
	je	40f
	leaq	-5(%r12), %rdx
	cmpq	$4, %rdx
	jbe	35f
	shlq	$5, %rdx
	movups	136(%rbx), %xmm0
	movups	152(%rbx), %xmm1
	movaps	%xmm1, 16(%rsp)
	movaps	%xmm0, (%rsp)
	movups	(%rdi,%rdx), %xmm0
	movups	16(%rdi,%rdx), %xmm1
	movups	%xmm0, 136(%rbx)
	movups	%xmm1, 152(%rbx)
	movaps	(%rsp), %xmm0
	movaps	16(%rsp), %xmm1
	movups	%xmm1, 16(%rdi,%rdx)
	movups	%xmm0, (%rdi,%rdx)
	jmp	36f
35:
	cmpl	$4, %edx
	je	36f
	shlq	$5, %rdx
	movups	(%rdi,%rdx), %xmm0
	movups	16(%rdi,%rdx), %xmm1
	movaps	%xmm1, 16(%rsp)
	movaps	%xmm0, (%rsp)
	movups	136(%rbx), %xmm0
	movups	152(%rbx), %xmm1
	movups	%xmm0, (%rdi,%rdx)
	movups	%xmm1, 16(%rdi,%rdx)
	movaps	(%rsp), %xmm0
	movaps	16(%rsp), %xmm1
	movups	%xmm1, 152(%rbx)
	movups	%xmm0, 136(%rbx)
36:
	cmpq	$4, %rax
	je	40f
	leaq	-6(%r12), %rdx
	cmpq	$5, %rdx
	jbe	37f
	shlq	$5, %rdx
	movups	168(%rbx), %xmm0
	movups	184(%rbx), %xmm1
	movaps	%xmm1, 16(%rsp)
	movaps	%xmm0, (%rsp)
	movups	(%rdi,%rdx), %xmm0
	movups	16(%rdi,%rdx), %xmm1
	movups	%xmm0, 168(%rbx)
	movups	%xmm1, 184(%rbx)
	movaps	(%rsp), %xmm0
	movaps	16(%rsp), %xmm1
	movups	%xmm1, 16(%rdi,%rdx)
	movups	%xmm0, (%rdi,%rdx)
	jmp	38f
37:
	cmpl	$5, %edx
	je	38f
	shlq	$5, %rdx
	movups	(%rdi,%rdx), %xmm0
	movups	16(%rdi,%rdx), %xmm1
	movaps	%xmm1, 16(%rsp)
	movaps	%xmm0, (%rsp)
	movups	168(%rbx), %xmm0
	movups	184(%rbx), %xmm1
	movups	%xmm0, (%rdi,%rdx)
	movups	%xmm1, 16(%rdi,%rdx)
	movaps	(%rsp), %xmm0
	movaps	16(%rsp), %xmm1
	movups	%xmm1, 184(%rbx)
	movups	%xmm0, 168(%rbx)
38:
	cmpq	$5, %rax
	je	40f
	leaq	-7(%r12), %rdx
	cmpq	$6, %rdx
	jbe	39f
	shlq	$5, %rdx
	movups	200(%rbx), %xmm0
	movups	216(%rbx), %xmm1
	movaps	%xmm1, 16(%rsp)
	movaps	%xmm0, (%rsp)
	movups	(%rdi,%rdx), %xmm0
	movups	16(%rdi,%rdx), %xmm1
	movups	%xmm0, 200(%rbx)
	movups	%xmm1, 216(%rbx)
	movaps	(%rsp), %xmm0
	movaps	16(%rsp), %xmm1
	movups	%xmm1, 16(%rdi,%rdx)
	movups	%xmm0, (%rdi,%rdx)
	jmp	40f
39:
	cmpl	$6, %edx
	je	40f
	shlq	$5, %rdx
	movups	(%rdi,%rdx), %xmm0
	movups	16(%rdi,%rdx), %xmm1
	movaps	%xmm1, 16(%rsp)
	movaps	%xmm0, (%rsp)
	movups	200(%rbx), %xmm0
	movups	216(%rbx), %xmm1
	movups	%xmm0, (%rdi,%rdx)
	movups	%xmm1, 16(%rdi,%rdx)
	movaps	(%rsp), %xmm0
	movaps	16(%rsp), %xmm1
	movups	%xmm1, 216(%rbx)
	movups	%xmm0, 200(%rbx)
40:
	incq	%rax
	xorl	%edx, %edx
	jmp	43f
	.p2align	4
41:
	movq	(%r14,%rdx,8), %rsi
	movq	(%r14,%rcx,8), %rdi
	movq	%rdi, (%r14,%rdx,8)
	movq	%rsi, (%r14,%rcx,8)
42:
	incq	%rdx
	decq	%rcx
	cmpq	%rdx, %rax
	je	44f
43:
	cmpq	%rcx, %rdx
	jb	41b
	jbe	42b
	movq	(%r14,%rcx,8), %rsi
	movq	(%r14,%rdx,8), %rdi
	movq	%rdi, (%r14,%rcx,8)
	movq	%rsi, (%r14,%rdx,8)
	jmp	42b
44:
	testq	%r12, %r12
	je	48f
45:
	movl	%r12d, %r14d
	shll	$5, %r14d
	addq	%rbx, %r14
	jmp	47f
	.p2align	4
46:
	decq	%r12
	addq	$-32, %r14
	testq	%r12, %r12
	je	48f
47:
	cmpq	$0, (%r14)
	je	46b
	movq	-16(%r14), %rdi
	callq	rattle_dealloc@PLT
	jmp	46b
48:
	movq	%rbx, %rdi
49:
	addq	$112, %rsp
	popq	%rbx
	popq	%r12
	popq	%r13
	popq	%r14
	popq	%r15
	jmp	rattle_dealloc@PLT
50:
	.size	"std_collections::btree::node::Node::destroy::<#f262a4084ccbf4f6>", 50b-"std_collections::btree::node::Node::destroy::<#f262a4084ccbf4f6>"

	.text
	.p2align	4
	.type	"std_collections::btree_map::BTreeMap::insert::<#9d0ca73623b707be>",@function
"std_collections::btree_map::BTreeMap::insert::<#9d0ca73623b707be>":
	pushq	%rbp
	pushq	%r15
	pushq	%r14
	pushq	%r13
	pushq	%r12
	pushq	%rbx
	subq	$488, %rsp
	movq	%rcx, 184(%rsp)
	movq	%rdi, 192(%rsp)
	movq	(%rdx), %r9
	movq	8(%rdx), %r12
	movq	16(%rdx), %r14
	movq	24(%rdx), %rax
	movq	%rax, 72(%rsp)
	cmpb	$1, (%rsi)
	movq	%r9, (%rsp)
	jne	1f
	movq	8(%rsi), %rdx
	jmp	2f
1:
	movq	%rsi, %rbx
	movl	$608, %edi
	movl	$8, %esi
	callq	rattle_alloc@PLT
	movq	(%rsp), %r9
	testb	$1, %al
	je	28f
	movl	$0, (%rdx)
	movq	%rbx, %rsi
	movzbl	(%rbx), %eax
	movq	$1, (%rbx)
	movq	%rdx, 8(%rbx)
	cmpb	$1, %al
	je	91f
2:
	movq	%rsi, 64(%rsp)
	leaq	8(%rsi), %rax
	movq	%rax, 8(%rsp)
	movzwl	2(%rdx), %eax
	movl	$15, %ebx
	subq	%rax, %rbx
	movq	%rax, 48(%rsp)
	movl	%eax, %ebp
	negb	%bpl
	xorl	%r8d, %r8d
	movq	%rdx, %rsi
	movq	$0, 24(%rsp)
	movq	%rdx, 176(%rsp)
	movq	%rdx, 32(%rsp)
	movq	%rbx, 56(%rsp)
	xorl	%r13d, %r13d
	movq	%rsi, %rcx
	movzwl	(%rsi), %esi
	testq	%rsi, %rsi
	je	23f
	.p2align	4
3:
	movb	%bpl, 40(%rsp)
	movq	%r8, 16(%rsp)
	movq	%rbx, %rdx
	xorl	%eax, %eax
	jmp	7f
	.p2align	4
4:
	cmpq	%r8, %r14
	setb	%dil
	movq	(%rsp), %r9
	je	25f
5:
	testb	%dil, %dil
	jne	22f
6:
	incq	%rax
	cmpq	%rsi, %rax
	je	21f
7:
	movq	%rax, %r8
	shlq	$5, %r8
	cmpq	8(%rcx,%r8), %r9
	setb	%dil
	jne	5b
	movq	16(%rcx,%r8), %rdi
	movq	24(%rcx,%r8), %r8
	cmpq	%r14, %r8
	movq	%r14, %r9
	cmovbq	%r8, %r9
	cmpq	$7, %r9
	ja	9f
	cmpq	$4, %r9
	jb	12f
	movl	(%r12), %r11d
	movl	-4(%r12,%r9), %r10d
	shlq	$32, %r10
	orq	%r11, %r10
	bswapq	%r10
	movl	(%rdi), %ebx
	movl	-4(%rdi,%r9), %r11d
	shlq	$32, %r11
	orq	%rbx, %r11
	bswapq	%r11
	cmpq	%r11, %r10
	je	10f
8:
	movq	(%rsp), %r9
	jae	6b
	jmp	22f
	.p2align	4
9:
	movq	(%r12), %r10
	leaq	-8(%r9), %r11
	cmpq	$8, %r11
	movl	$8, %ebx
	cmovbq	%r11, %rbx
	movq	(%rdi), %r11
	movq	(%r12,%rbx), %rbp
	bswapq	%rbp
	movq	(%rdi,%rbx), %rbx
	bswapq	%rbx
	cmpq	%r11, %r10
	bswapq	%r11
	bswapq	%r10
	cmoveq	%rbp, %r10
	cmoveq	%rbx, %r11
	cmpq	%r11, %r10
	jne	8b
10:
	cmpq	$16, %r9
	jbe	4b
	leaq	-16(%r9), %r10
	cmpq	$79, %r10
	ja	13f
	movl	$16, %r11d
	movq	%r10, %rbx
	.p2align	4
11:
	cmpq	$17, %rbx
	jb	19f
	movdqu	(%r12,%r11), %xmm0
	movdqu	(%rdi,%r11), %xmm1
	pcmpeqb	%xmm0, %xmm1
	pmovmskb	%xmm1, %ebp
	notl	%ebp
	rep		bsfl	%ebp, %ebp
	leaq	(%r11,%rbp), %r15
	addq	$16, %r11
	addq	$-16, %rbx
	cmpq	%r11, %r15
	jae	11b
	jmp	18f
12:
	testq	%r9, %r9
	je	4b
	movzbl	(%r12), %r10d
	movq	%r9, %r11
	shrq	%r11
	movzbl	(%r12,%r11), %ebx
	shll	$16, %r10d
	shll	$8, %ebx
	orl	%r10d, %ebx
	movzbl	-1(%r12,%r9), %r10d
	orq	%rbx, %r10
	movzbl	(%rdi), %ebx
	movzbl	(%rdi,%r11), %ebp
	shll	$16, %ebx
	shll	$8, %ebp
	orl	%ebx, %ebp
	movzbl	-1(%rdi,%r9), %r11d
	orq	%rbp, %r11
	cmpq	%r11, %r10
	jne	8b
	jmp	10b
13:
	movdqu	16(%r12), %xmm0
	movdqu	16(%rdi), %xmm1
	pcmpeqb	%xmm0, %xmm1
	pmovmskb	%xmm1, %r11d
	notl	%r11d
	rep		bsfl	%r11d, %r11d
	cmpw	$16, %r11w
	jae	14f
	addl	$16, %r11d
	cmpq	%r9, %r11
	jae	4b
	jmp	20f
14:
	leaq	-32(%r9), %rbx
	movl	$32, %r11d
	.p2align	4
15:
	movdqu	(%r12,%r11), %xmm0
	movdqu	16(%r12,%r11), %xmm1
	movdqu	32(%r12,%r11), %xmm2
	movdqu	48(%r12,%r11), %xmm3
	movdqu	(%rdi,%r11), %xmm4
	pcmpeqb	%xmm0, %xmm4
	movdqu	16(%rdi,%r11), %xmm0
	pcmpeqb	%xmm1, %xmm0
	pand	%xmm4, %xmm0
	movdqu	32(%rdi,%r11), %xmm1
	pcmpeqb	%xmm2, %xmm1
	movdqu	48(%rdi,%r11), %xmm2
	pcmpeqb	%xmm3, %xmm2
	pand	%xmm1, %xmm2
	pand	%xmm0, %xmm2
	pmovmskb	%xmm2, %ebp
	cmpl	$65535, %ebp
	jne	16f
	addq	$64, %r11
	addq	$-64, %rbx
	cmpq	$63, %rbx
	ja	15b
16:
	movq	%r9, %rbx
	subq	%r11, %rbx
	.p2align	4
17:
	cmpq	$17, %rbx
	jb	19f
	movdqu	(%r12,%r11), %xmm0
	movdqu	(%rdi,%r11), %xmm1
	pcmpeqb	%xmm0, %xmm1
	pmovmskb	%xmm1, %ebp
	notl	%ebp
	rep		bsfl	%ebp, %ebp
	leaq	(%r11,%rbp), %r15
	addq	$16, %r11
	addq	$-16, %rbx
	cmpq	%r11, %r15
	jae	17b
18:
	movzwl	%bp, %r10d
	addq	%r10, %r11
	addq	$-16, %r11
	cmpq	%r9, %r11
	jae	4b
	jmp	20f
19:
	movdqu	(%r12,%r10), %xmm0
	movdqu	(%rdi,%r10), %xmm1
	pcmpeqb	%xmm0, %xmm1
	pmovmskb	%xmm1, %r11d
	notl	%r11d
	rep		bsfl	%r11d, %r11d
	addq	%r10, %r11
	cmpq	%r9, %r11
	jae	4b
20:
	movzbl	(%r12,%r11), %r8d
	cmpb	(%rdi,%r11), %r8b
	movq	(%rsp), %r9
	jae	6b
	jmp	22f
	.p2align	4
21:
	movq	%rsi, %rax
22:
	movq	%rdx, %rbx
	movq	16(%rsp), %r8
	movzbl	40(%rsp), %ebp
	jmp	24f
	.p2align	4
23:
	xorl	%eax, %eax
24:
	shlq	$4, %r13
	addq	%rax, %r13
	incq	%rbx
	cmpw	$0, 2(%rcx)
	je	27f
	movq	608(%rcx,%rax,8), %rsi
	incq	%r8
	incb	%bpl
	movq	%rax, 24(%rsp)
	movq	%rcx, 32(%rsp)
	movq	%rsi, %rcx
	movzwl	(%rsi), %esi
	testq	%rsi, %rsi
	jne	3b
	jmp	23b
25:
	andl	$15, %eax
	movq	48(%rsp), %rcx
	addq	%rdx, %rcx
	cmpq	$15, %rcx
	movq	32(%rsp), %rcx
	movq	24(%rsp), %rdx
	leaq	608(%rcx,%rdx,8), %rcx
	cmoveq	8(%rsp), %rcx
	movq	(%rcx), %rcx
	movzwl	(%rcx), %edx
	cmpq	%rdx, %rax
	jae	91f
	movq	488(%rcx,%rax,8), %rbx
	movq	184(%rsp), %rdx
	movq	%rdx, 488(%rcx,%rax,8)
	cmpq	$0, 72(%rsp)
	je	26f
	movq	%r12, %rdi
	callq	rattle_dealloc@PLT
26:
	movq	192(%rsp), %rax
	movq	$0, (%rax)
	movq	$1, 8(%rax)
	movq	%rbx, 16(%rax)
	pxor	%xmm0, %xmm0
	movdqu	%xmm0, 24(%rax)
	movq	$0, 40(%rax)
	jmp	29f
27:
	movabsq	$9223372036854775806, %rax
	movq	64(%rsp), %rcx
	cmpq	%rax, 16(%rcx)
	movq	176(%rsp), %rdi
	jbe	30f
28:
	movq	192(%rsp), %rax
	movq	$1, (%rax)
	movq	%r9, 8(%rax)
	movq	%r12, 16(%rax)
	movq	%r14, 24(%rax)
	movq	72(%rsp), %rcx
	movq	%rcx, 32(%rax)
	movq	184(%rsp), %rcx
	movq	%rcx, 40(%rax)
29:
	addq	$488, %rsp
	popq	%rbx
	popq	%r12
	popq	%r13
	popq	%r14
	popq	%r15
	popq	%rbp
	retq
30:
	movq	%rbx, %rax
	movq	56(%rsp), %rsi
	subq	%rsi, %rax
	cmpq	$1, %rax
	movq	32(%rsp), %r10
	movq	24(%rsp), %r11
	leaq	608(%r10,%r11,8), %rax
	cmoveq	8(%rsp), %rax
	movq	(%rax), %rax
	cmpw	$15, (%rax)
	jae	31f
	movq	%rsi, %r15
	jmp	86f
31:
	cmpw	$15, (%rdi)
	movq	%rsi, %r15
	movq	%rbx, 168(%rsp)
	jae	34f
	pxor	%xmm0, %xmm0
	movdqa	%xmm0, 80(%rsp)
	cmpq	%r15, %rbx
	jbe	38f
32:
	movl	%ebx, %eax
	subl	%r15d, %eax
	addq	%rsi, %r8
	subq	%r15, %r8
	testb	$3, %al
	je	35f
	subb	%r15b, %bpl
	movzbl	%bpl, %ecx
	andl	$3, %ecx
	movq	%rbx, %rax
	.p2align	4
33:
	movl	%r13d, %esi
	andb	$15, %sil
	movb	%sil, 79(%rsp,%rax)
	decq	%rax
	shrq	$4, %r13
	decq	%rcx
	jne	33b
	jmp	36f
34:
	cmpw	$10, 48(%rsp)
	ja	28b
	movl	$736, %edi
	movl	$8, %esi
	movq	%r8, %rbx
	callq	rattle_alloc@PLT
	movq	56(%rsp), %rsi
	movq	%rbx, %r8
	movq	168(%rsp), %rbx
	movq	(%rsp), %r9
	testb	$1, %al
	je	28b
	movq	48(%rsp), %r10
	leal	1(%r10), %eax
	movw	%ax, 2(%rdx)
	movq	%rdx, %rdi
	movq	8(%rsp), %rcx
	movq	(%rcx), %rax
	movq	%rax, 608(%rdx)
	movw	$0, (%rdx)
	movq	%rdx, (%rcx)
	movl	$14, %r15d
	subq	%r10, %r15
	pxor	%xmm0, %xmm0
	movdqa	%xmm0, 80(%rsp)
	cmpq	%r15, %rbx
	ja	32b
	jmp	38f
35:
	movq	%rbx, %rax
36:
	cmpq	$3, %r8
	jb	38f
	.p2align	4
37:
	movl	%r13d, %ecx
	andb	$15, %cl
	movb	%cl, 79(%rsp,%rax)
	movl	%r13d, %ecx
	shrb	$4, %cl
	movb	%cl, 78(%rsp,%rax)
	movl	%r13d, %ecx
	shrl	$8, %ecx
	andb	$15, %cl
	movb	%cl, 77(%rsp,%rax)
	movl	%r13d, %ecx
	shrl	$12, %ecx
	andb	$15, %cl
	movb	%cl, 76(%rsp,%rax)
	addq	$-4, %rax
	shrq	$16, %r13
	cmpq	%rax, %r15
	jb	37b
38:
	movdqa	80(%rsp), %xmm0
	movdqa	%xmm0, 432(%rsp)
	leaq	(%rsp,%r15), %r8
	addq	$432, %r8
	movl	$16, %edx
	subq	%r15, %rdx
	cmpq	$2, %rdx
	movq	32(%rsp), %r10
	movq	24(%rsp), %r11
	jb	80f
	movq	%rdx, %r13
	movq	%r8, 296(%rsp)
	movq	8(%rsp), %rsi
	movq	%rdx, 208(%rsp)
	movq	%r15, 200(%rsp)
	jmp	41f
	.p2align	4
39:
	movq	%r10, %rsi
40:
	movzbl	%cl, %r11d
	movq	%rsi, %r10
	leaq	(%rsi,%r11,8), %rsi
	addq	$608, %rsi
	incq	%r8
	cmpq	$2, %r13
	leaq	-1(%r13), %r13
	jbe	79f
41:
	movzbl	(%r8), %ecx
	movq	(%rsi), %r10
	leal	(,%rcx,8), %r11d
	movq	608(%r10,%r11), %rax
	cmpw	$15, (%rax)
	jb	39b
	movq	%r11, 32(%rsp)
	movq	%rsi, 40(%rsp)
	movq	%rcx, 16(%rsp)
	movq	%r8, 48(%rsp)
	movzwl	2(%r10), %ebx
	decq	%rbx
	movq	%r13, 24(%rsp)
	je	42f
	movl	$736, %edi
	movl	$8, %esi
	callq	rattle_alloc@PLT
	testb	$1, %al
	jne	43f
	jmp	88f
42:
	movl	$608, %edi
	movl	$8, %esi
	callq	rattle_alloc@PLT
	testb	$1, %al
	je	88f
43:
	movq	%rdx, %rbp
	movw	%bx, 2(%rdx)
	leaq	8(%rdx), %rdi
	movq	40(%rsp), %rax
	movq	(%rax), %rcx
	pxor	%xmm0, %xmm0
	movdqa	%xmm0, 384(%rsp)
	movdqa	%xmm0, 368(%rsp)
	movzwl	(%rcx), %edx
	xorl	%eax, %eax
	xorl	%esi, %esi
	cmpw	$0, 2(%rcx)
	leaq	1(%rdx), %r8
	setne	%sil
	cmoveq	%rax, %r8
	shll	$4, %esi
	leaq	608(%rcx), %r11
	leaq	488(%rcx), %r9
	leaq	8(%rcx), %r10
	movq	%r10, 216(%rsp)
	movq	%rdx, 224(%rsp)
	movq	$15, 232(%rsp)
	movq	%r9, 240(%rsp)
	movq	%rdx, 248(%rsp)
	movq	$15, 256(%rsp)
	movq	%r11, 176(%rsp)
	movq	%r11, 264(%rsp)
	movq	%r8, 272(%rsp)
	movq	%rsi, 280(%rsp)
	movq	%rcx, 288(%rsp)
	movdqa	%xmm0, 320(%rsp)
	movdqa	%xmm0, 304(%rsp)
	movq	32(%rsp), %rdx
	movq	608(%rcx,%rdx), %r13
	movdqa	%xmm0, 464(%rsp)
	movdqa	%xmm0, 448(%rsp)
	movdqa	%xmm0, 352(%rsp)
	movdqa	%xmm0, 336(%rsp)
	movzwl	2(%r13), %ecx
	movzwl	(%r13), %r15d
	leaq	1(%r15), %rdx
	xorl	%esi, %esi
	movw	%cx, 56(%rsp)
	testw	%cx, %cx
	cmoveq	%rax, %rdx
	setne	%sil
	shll	$4, %esi
	leaq	608(%r13), %rax
	leaq	488(%r13), %rcx
	leaq	8(%r13), %r8
	movq	%r8, 80(%rsp)
	movq	$15, 96(%rsp)
	movq	%rcx, 104(%rsp)
	movq	$15, 120(%rsp)
	movq	%rax, 128(%rsp)
	movq	%rdx, 136(%rsp)
	movq	%rsi, 144(%rsp)
	movq	%r13, 152(%rsp)
	leaq	-8(%r15), %rbx
	leaq	264(%r13), %rsi
	movq	%rbx, %rdx
	shlq	$5, %rdx
	movq	%rdi, %rax
	subq	%rsi, %rax
	cmpq	%rdx, %rax
	jae	44f
	testq	%rbx, %rbx
	je	45f
	movl	%r15d, %eax
	andl	$7, %eax
	leal	-9(%r15), %edx
	cmpw	$7, %dx
	jae	46f
	xorl	%edx, %edx
	leaq	488(%rbp), %rdi
	jmp	48f
44:
	callq	memmove@PLT
	leaq	488(%rbp), %rdi
	jmp	50f
45:
	movq	$8, 88(%rsp)
	addq	$552, %r13
	xorl	%edx, %edx
	movq	%r13, %rsi
	leaq	488(%rbp), %rdi
	jmp	56f
46:
	movq	%rbx, %rsi
	andq	$-8, %rsi
	leaq	232(%rbp), %rdi
	xorl	%edx, %edx
	xorl	%r8d, %r8d
	.p2align	4
47:
	movups	-224(%rcx,%r8), %xmm0
	movups	-208(%rcx,%r8), %xmm1
	movups	%xmm1, -208(%rdi,%r8)
	movups	%xmm0, -224(%rdi,%r8)
	movups	-192(%rcx,%r8), %xmm0
	movups	-176(%rcx,%r8), %xmm1
	movups	%xmm1, -176(%rdi,%r8)
	movups	%xmm0, -192(%rdi,%r8)
	movups	-160(%rcx,%r8), %xmm0
	movups	-144(%rcx,%r8), %xmm1
	movups	%xmm1, -144(%rdi,%r8)
	movups	%xmm0, -160(%rdi,%r8)
	movups	-128(%rcx,%r8), %xmm0
	movups	-112(%rcx,%r8), %xmm1
	movups	%xmm1, -112(%rdi,%r8)
	movups	%xmm0, -128(%rdi,%r8)
	movups	-96(%rcx,%r8), %xmm0
	movups	-80(%rcx,%r8), %xmm1
	movups	%xmm1, -80(%rdi,%r8)
	movups	%xmm0, -96(%rdi,%r8)
	movups	-64(%rcx,%r8), %xmm0
	movups	-48(%rcx,%r8), %xmm1
	movups	%xmm1, -48(%rdi,%r8)
	movups	%xmm0, -64(%rdi,%r8)
	movups	-32(%rcx,%r8), %xmm0
	movups	-16(%rcx,%r8), %xmm1
	movups	%xmm1, -16(%rdi,%r8)
	movups	%xmm0, -32(%rdi,%r8)
	movdqu	(%rcx,%r8), %xmm0
	movdqu	16(%rcx,%r8), %xmm1
	movdqu	%xmm1, 16(%rdi,%r8)
	movdqu	%xmm0, (%rdi,%r8)
	addq	$8, %rdx
	addq	$256, %r8
	cmpq	%rdx, %rsi
	jne	47b
	testq	%rax, %rax
	leaq	488(%rbp), %rdi
	je	50f
48:
	shlq	$5, %rdx
	leaq	(%rdx,%r13), %rcx
	addq	$264, %rcx
	addq	%rbp, %rdx
	addq	$8, %rdx
	shll	$5, %eax
	xorl	%esi, %esi
	.p2align	4
49:
	movdqu	(%rcx,%rsi), %xmm0
	movdqu	16(%rcx,%rsi), %xmm1
	movdqu	%xmm1, 16(%rdx,%rsi)
	movdqu	%xmm0, (%rdx,%rsi)
	addq	$32, %rsi
	cmpq	%rsi, %rax
	jne	49b
50:
	movq	$8, 88(%rsp)
	leaq	552(%r13), %rsi
	leaq	(,%rbx,8), %rdx
	movq	%rdi, %rax
	subq	%rsi, %rax
	cmpq	%rdx, %rax
	jae	56f
	testq	%rbx, %rbx
	je	57f
	cmpl	$4, %ebx
	jb	51f
	movq	%rbp, %rax
	subq	%r13, %rax
	addq	$-64, %rax
	cmpq	$32, %rax
	jae	75f
51:
	xorl	%eax, %eax
52:
	movq	%r15, %rdx
	movq	%rax, %rcx
	andq	$3, %rdx
	je	54f
	movq	%rax, %rcx
	.p2align	4
53:
	movq	(%rsi,%rcx,8), %r8
	movq	%r8, (%rdi,%rcx,8)
	incq	%rcx
	decq	%rdx
	jne	53b
54:
	negq	%rax
	addq	%r15, %rax
	addq	$-9, %rax
	cmpl	$3, %eax
	jb	57f
	.p2align	4
55:
	movq	552(%r13,%rcx,8), %rax
	movq	%rax, 488(%rbp,%rcx,8)
	movq	560(%r13,%rcx,8), %rax
	movq	%rax, 496(%rbp,%rcx,8)
	movq	568(%r13,%rcx,8), %rax
	movq	%rax, 504(%rbp,%rcx,8)
	movq	576(%r13,%rcx,8), %rax
	movq	%rax, 512(%rbp,%rcx,8)
	addq	$4, %rcx
	cmpq	%rcx, %rbx
	jne	55b
	jmp	57f
56:
	callq	memmove@PLT
57:
	movq	$8, 112(%rsp)
	pxor	%xmm0, %xmm0
	movdqa	%xmm0, 416(%rsp)
	movdqa	%xmm0, 400(%rsp)
	leaq	400(%rsp), %rdi
	leaq	80(%rsp), %rsi
	movl	$7, %r13d
	movl	$7, %edx
	callq	"std_alloc::vec::Vec::remove::<#209ef5882a9a6cb3>"
	movq	104(%rsp), %rax
	movq	112(%rsp), %rsi
	movq	56(%rax), %r15
	leaq	-1(%rsi), %rcx
	leaq	-8(%rsi), %rdx
	movl	$56, %r8d
	cmpq	$257, %rdx
	jb	60f
	leaq	112(%rax), %r8
	leaq	-264(%rsi), %r9
	movl	$7, %r13d
	.p2align	4
58:
	movq	%r9, %rdi
	xorl	%edx, %edx
	.p2align	4
59:
	movdqu	-48(%r8,%rdx,8), %xmm0
	movdqu	-32(%r8,%rdx,8), %xmm1
	movdqu	-16(%r8,%rdx,8), %xmm2
	movdqu	(%r8,%rdx,8), %xmm3
	movdqu	%xmm0, -56(%r8,%rdx,8)
	movdqu	%xmm1, -40(%r8,%rdx,8)
	movdqu	%xmm2, -24(%r8,%rdx,8)
	movdqu	%xmm3, -8(%r8,%rdx,8)
	addq	$8, %rdx
	cmpq	$256, %rdx
	jne	59b
	addq	$256, %r13
	movq	%rcx, %rdx
	subq	%r13, %rdx
	addq	$2048, %r8
	leaq	-256(%rdi), %r9
	cmpq	$256, %rdx
	ja	58b
	cmpq	$-1, %r13
	je	61f
	leaq	(,%r13,8), %r8
60:
	cmpq	%r13, %rcx
	je	63f
	leaq	(%rax,%r8), %rdi
	leaq	(%rax,%r8), %rsi
	addq	$8, %rsi
	shlq	$3, %rdx
	callq	memmove@PLT
	jmp	63f
61:
	testq	%rsi, %rsi
	je	63f
	movq	-8(%rax,%rsi,8), %rcx
	leaq	(%rax,%rsi,8), %rax
	addq	$-16, %rax
	.p2align	4
62:
	movq	%rcx, (%rax)
	addq	$-8, %rax
	decq	%rdi
	jne	62b
63:
	movdqa	400(%rsp), %xmm0
	movdqa	416(%rsp), %xmm1
	movdqa	%xmm1, 352(%rsp)
	movdqa	%xmm0, 336(%rsp)
	cmpw	$0, 56(%rsp)
	je	70f
	leaq	608(%rbp), %rdi
	movq	128(%rsp), %rax
	movq	136(%rsp), %r8
	leaq	64(%rax), %rsi
	leaq	-64(,%r8,8), %rdx
	movq	%rdi, %rcx
	subq	%rsi, %rcx
	cmpq	%rdx, %rcx
	jae	69f
	movq	%r8, %rcx
	addq	$-8, %rcx
	je	70f
	cmpq	$4, %rcx
	jb	64f
	movq	%rbp, %rdx
	subq	%rax, %rdx
	addq	$544, %rdx
	cmpq	$32, %rdx
	jae	77f
64:
	xorl	%edx, %edx
65:
	movq	%r8, %r10
	movq	%rdx, %r9
	andq	$3, %r10
	je	67f
	movq	%rdx, %r9
	.p2align	4
66:
	movq	(%rsi,%r9,8), %r11
	movq	%r11, (%rdi,%r9,8)
	incq	%r9
	decq	%r10
	jne	66b
67:
	subq	%rdx, %r8
	addq	$-9, %r8
	cmpq	$3, %r8
	jb	70f
	.p2align	4
68:
	movq	64(%rax,%r9,8), %rdx
	movq	%rdx, 608(%rbp,%r9,8)
	movq	72(%rax,%r9,8), %rdx
	movq	%rdx, 616(%rbp,%r9,8)
	movq	80(%rax,%r9,8), %rdx
	movq	%rdx, 624(%rbp,%r9,8)
	movq	88(%rax,%r9,8), %rdx
	movq	%rdx, 632(%rbp,%r9,8)
	addq	$4, %r9
	cmpq	%r9, %rcx
	jne	68b
	jmp	70f
69:
	callq	memmove@PLT
70:
	movzwl	88(%rsp), %eax
	movq	152(%rsp), %rcx
	movw	%ax, (%rcx)
	movw	%bx, (%rbp)
	movaps	336(%rsp), %xmm0
	movaps	352(%rsp), %xmm1
	movaps	%xmm0, 304(%rsp)
	movaps	%xmm1, 320(%rsp)
	movq	16(%rsp), %rbx
	movq	176(%rsp), %rax
	movq	%rcx, (%rax,%rbx,8)
	movdqa	304(%rsp), %xmm0
	movdqa	320(%rsp), %xmm1
	movdqa	%xmm1, 384(%rsp)
	movdqa	%xmm0, 368(%rsp)
	leaq	216(%rsp), %rdi
	leaq	368(%rsp), %rdx
	movq	%rbx, %rsi
	callq	"std_alloc::vec::lodged::Vec+T+Lodged::insert_reserved::<24'(,)::<#ee13f2425f1aee9b>>"
	movq	%rbx, %rcx
	movq	240(%rsp), %rbx
	movq	248(%rsp), %rdx
	subq	%rcx, %rdx
	je	71f
	movq	32(%rsp), %rax
	leaq	(%rbx,%rax), %rsi
	leaq	(%rbx,%rax), %rdi
	addq	$8, %rdi
	shlq	$3, %rdx
	callq	memmove@PLT
	movq	16(%rsp), %rcx
71:
	movq	%r15, (%rbx,%rcx,8)
	movq	%rcx, %rax
	incq	%rax
	movq	264(%rsp), %rbx
	movq	272(%rsp), %rdx
	leal	(,%rax,8), %r13d
	subq	%rax, %rdx
	je	72f
	leaq	(%rbx,%r13), %rsi
	leaq	(%rbx,%r13), %rdi
	addq	$8, %rdi
	shlq	$3, %rdx
	callq	memmove@PLT
	movq	16(%rsp), %rcx
72:
	movq	%rbp, (%rbx,%r13)
	movzwl	224(%rsp), %eax
	movq	288(%rsp), %rdx
	movw	%ax, (%rdx)
	movq	40(%rsp), %rax
	movq	%rdx, %rsi
	movq	%rdx, (%rax)
	movq	48(%rsp), %r8
	movzbl	1(%r8), %eax
	cmpb	$7, %al
	jbe	73f
	incl	%ecx
	movb	%cl, (%r8)
	addb	$-8, %al
	movb	%al, 1(%r8)
	jmp	74f
73:
	movzbl	(%r8), %ecx
74:
	movq	(%rsp), %r9
	movq	168(%rsp), %rbx
	movq	200(%rsp), %r15
	movq	208(%rsp), %rdx
	movq	24(%rsp), %r13
	jmp	40b
75:
	movq	%rbx, %rax
	andq	$-4, %rax
	xorl	%ecx, %ecx
	.p2align	4
76:
	movdqu	552(%r13,%rcx,8), %xmm0
	movdqu	568(%r13,%rcx,8), %xmm1
	movdqu	%xmm0, 488(%rbp,%rcx,8)
	movdqu	%xmm1, 504(%rbp,%rcx,8)
	addq	$4, %rcx
	cmpq	%rcx, %rax
	jne	76b
	cmpl	%eax, %ebx
	je	57b
	jmp	52b
77:
	movq	%rcx, %rdx
	andq	$-4, %rdx
	xorl	%r9d, %r9d
	.p2align	4
78:
	movdqu	64(%rax,%r9,8), %xmm0
	movdqu	80(%rax,%r9,8), %xmm1
	movdqu	%xmm0, 608(%rbp,%r9,8)
	movdqu	%xmm1, 624(%rbp,%r9,8)
	addq	$4, %r9
	cmpq	%r9, %rdx
	jne	78b
	cmpq	%rdx, %rcx
	je	70b
	jmp	65b
79:
	movq	8(%rsp), %rax
	movq	(%rax), %rdi
	movq	296(%rsp), %r8
80:
	cmpw	$0, (%rdi)
	je	89f
	movl	%edx, %ecx
	andl	$7, %ecx
	leal	-9(%r15), %eax
	cmpl	$7, %eax
	jae	81f
	xorl	%eax, %eax
	movq	64(%rsp), %rsi
	jmp	83f
81:
	andq	$-8, %rdx
	xorl	%eax, %eax
	movq	64(%rsp), %rsi
	.p2align	4
82:
	addq	$8, %rax
	cmpq	%rax, %rdx
	jne	82b
	testq	%rcx, %rcx
	je	90f
83:
	negq	%rcx
	xorl	%edx, %edx
	.p2align	4
84:
	decq	%rdx
	cmpq	%rdx, %rcx
	jne	84b
	notq	%rdx
	addq	%rdx, %rax
	cmpb	$1, (%rsi)
	jne	91f
85:
	movzbl	(%r8,%rax), %r13d
86:
	movq	72(%rsp), %rax
	subq	%r15, %rbx
	cmpq	$1, %rbx
	leaq	608(%r10,%r11,8), %rbx
	cmoveq	8(%rsp), %rbx
	andl	$15, %r13d
	movq	%r9, 216(%rsp)
	movq	%r12, 224(%rsp)
	movq	%r14, 232(%rsp)
	movq	%rax, 240(%rsp)
	movq	(%rbx), %rax
	movzwl	(%rax), %ecx
	leaq	1(%rcx), %rdx
	xorl	%esi, %esi
	xorl	%edi, %edi
	cmpw	$0, 2(%rax)
	setne	%dil
	cmovneq	%rdx, %rsi
	shll	$4, %edi
	leaq	608(%rax), %rdx
	leaq	488(%rax), %r8
	leaq	8(%rax), %r9
	movq	%r9, 80(%rsp)
	movq	%rcx, 88(%rsp)
	movq	$15, 96(%rsp)
	movq	%r8, 104(%rsp)
	movq	%rcx, 112(%rsp)
	movq	$15, 120(%rsp)
	movq	%rdx, 128(%rsp)
	movq	%rsi, 136(%rsp)
	movq	%rdi, 144(%rsp)
	movq	%rax, 152(%rsp)
	leaq	80(%rsp), %rdi
	leaq	216(%rsp), %rdx
	movq	%r13, %rsi
	callq	"std_alloc::vec::lodged::Vec+T+Lodged::insert_reserved::<24'(,)::<#ee13f2425f1aee9b>>"
	movq	104(%rsp), %r14
	movq	112(%rsp), %rdx
	leal	(,%r13,8), %r15d
	subq	%r13, %rdx
	je	87f
	leaq	(%r14,%r15), %rsi
	leaq	(%r14,%r15), %rdi
	addq	$8, %rdi
	shlq	$3, %rdx
	callq	memmove@PLT
87:
	movq	184(%rsp), %rax
	movq	%rax, (%r14,%r15)
	movzwl	88(%rsp), %eax
	movq	152(%rsp), %rcx
	movw	%ax, (%rcx)
	movq	%rcx, (%rbx)
	movq	64(%rsp), %rax
	incq	16(%rax)
	pxor	%xmm0, %xmm0
	movq	192(%rsp), %rax
	movdqu	%xmm0, 32(%rax)
	movdqu	%xmm0, 16(%rax)
	movdqu	%xmm0, (%rax)
	jmp	29b
88:
	movq	8(%rsp), %rax
	movq	(%rax), %rdi
	cmpw	$0, (%rdi)
	movq	(%rsp), %r9
	jne	28b
89:
	cmpw	$0, 2(%rdi)
	je	28b
	movq	608(%rdi), %rbx
	callq	rattle_dealloc@PLT
	movq	(%rsp), %r9
	movq	8(%rsp), %rax
	movq	%rbx, (%rax)
	jmp	28b
90:
	decq	%rax
	cmpb	$1, (%rsi)
	je	85b
91:
	ud2
92:
	.size	"std_collections::btree_map::BTreeMap::insert::<#9d0ca73623b707be>", 92b-"std_collections::btree_map::BTreeMap::insert::<#9d0ca73623b707be>"
