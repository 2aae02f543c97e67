# Made by dist/refresh of what is proved.

	.text
	.p2align	4
	.type	"smallvec::small_vec::SmallVec::extend_from_slice::<#58247b01769054f4>",@function
"smallvec::small_vec::SmallVec::extend_from_slice::<#58247b01769054f4>":
	pushq	%r15
	pushq	%r14
	pushq	%r13
	pushq	%r12
	pushq	%rbx
	movq	%rdi, %rbx
	movzbl	(%rdi), %eax
	leaq	16(%rdi), %r13
	leaq	56(%rdi), %rcx
	testb	%al, %al
	cmovneq	%r13, %rcx
	movq	(%rcx), %rcx
	je	9f
	movq	24(%rbx), %rdi
	subq	%rcx, %rdi
	cmpq	%rdi, %rdx
	jbe	10f
1:
	movq	%rdx, %rax
	notq	%rax
	leaq	(%rcx,%rdx), %r8
	xorl	%edi, %edi
	cmpq	%rax, %rcx
	cmovbeq	%r8, %rdi
	seta	%cl
	movabsq	$-9223372036854775808, %rax
	cmpq	%rax, %rdi
	seta	%r8b
	movb	$1, %al
	orb	%cl, %r8b
	jne	23f
	movq	%rsi, %r14
	movq	%rdx, %r15
	movl	$1, %esi
	cmpq	$2, %rdi
	jb	2f
	decq	%rdi
	movl	$127, %ecx
	bsrq	%rdi, %rcx
	xorl	$63, %ecx
	negb	%cl
	shlq	%cl, %rsi
2:
	movq	%rbx, %rdi
	callq	"smallvec::small_vec::SmallVec::grow::<#4c0255fda7f36d01>"
	testb	%al, %al
	movb	$1, %al
	jne	23f
	movzbl	(%rbx), %eax
	movq	%r15, %rdx
	movq	%r14, %rsi
	testb	%al, %al
	jne	11f
3:
	movq	56(%rbx), %r15
	movl	$48, %eax
	subq	%r15, %rax
	cmpq	%rdx, %rax
	jb	35f
	leaq	(%rbx,%r15), %rdi
	addq	$8, %rdi
	movq	%rdi, %rax
	subq	%rsi, %rax
	cmpq	%rdx, %rax
	jae	20f
	cmpq	$4, %rdx
	jb	4f
	leaq	(%r15,%rbx), %rax
	subq	%rsi, %rax
	addq	$8, %rax
	cmpq	$32, %rax
	jae	25f
4:
	xorl	%eax, %eax
5:
	movq	%rdx, %r8
	movq	%rax, %rcx
	andq	$3, %r8
	je	7f
	movq	%rax, %rcx
	.p2align	4
6:
	movzbl	(%rsi,%rcx), %r9d
	movb	%r9b, (%rdi,%rcx)
	incq	%rcx
	decq	%r8
	jne	6b
7:
	subq	%rdx, %rax
	cmpq	$-4, %rax
	ja	21f
	leaq	(%r15,%rbx), %rax
	addq	$11, %rax
	.p2align	4
8:
	movzbl	(%rsi,%rcx), %edi
	movb	%dil, -3(%rax,%rcx)
	movzbl	1(%rsi,%rcx), %edi
	movb	%dil, -2(%rax,%rcx)
	movzbl	2(%rsi,%rcx), %edi
	movb	%dil, -1(%rax,%rcx)
	movzbl	3(%rsi,%rcx), %edi
	movb	%dil, (%rax,%rcx)
	addq	$4, %rcx
	cmpq	%rcx, %rdx
	jne	8b
	jmp	21f
9:
	movl	$48, %edi
	subq	%rcx, %rdi
	cmpq	%rdi, %rdx
	ja	1b
10:
	testb	%al, %al
	je	3b
11:
	movq	16(%rbx), %rax
	movq	24(%rbx), %r14
	movq	%r14, %rcx
	subq	%rax, %rcx
	cmpq	%rcx, %rdx
	ja	30f
12:
	leaq	(%rax,%rdx), %r15
	movq	8(%rbx), %r12
	xorps	%xmm0, %xmm0
	movups	%xmm0, (%r13)
	leaq	(%r12,%rax), %rdi
	movq	%rdi, %rcx
	subq	%rsi, %rcx
	cmpq	%rdx, %rcx
	jae	18f
	cmpq	$4, %rdx
	jb	13f
	cmpq	$32, %rcx
	jae	24f
13:
	xorl	%ecx, %ecx
14:
	movq	%rdx, %r9
	movq	%rcx, %r8
	andq	$3, %r9
	je	16f
	movq	%rcx, %r8
	.p2align	4
15:
	movzbl	(%rsi,%r8), %r10d
	movb	%r10b, (%rdi,%r8)
	incq	%r8
	decq	%r9
	jne	15b
16:
	subq	%rdx, %rcx
	cmpq	$-4, %rcx
	ja	19f
	addq	%r12, %rax
	addq	$3, %rax
	.p2align	4
17:
	movzbl	(%rsi,%r8), %ecx
	movb	%cl, -3(%rax,%r8)
	movzbl	1(%rsi,%r8), %ecx
	movb	%cl, -2(%rax,%r8)
	movzbl	2(%rsi,%r8), %ecx
	movb	%cl, -1(%rax,%r8)
	movzbl	3(%rsi,%r8), %ecx
	movb	%cl, (%rax,%r8)
	addq	$4, %r8
	cmpq	%r8, %rdx
	jne	17b
	jmp	19f
18:
	callq	memmove@PLT
19:
	movq	%r12, 8(%rbx)
	movq	%r15, 16(%rbx)
	movq	%r14, 24(%rbx)
	jmp	22f
20:
	movq	%rdx, %r14
	callq	memmove@PLT
	movq	%r14, %rdx
21:
	addq	%rdx, %r15
	movq	%r15, 56(%rbx)
22:
	xorl	%eax, %eax
23:
	popq	%rbx
	popq	%r12
	popq	%r13
	popq	%r14
	popq	%r15
	retq
24:
	cmpq	$32, %rdx
	jae	26f
	xorl	%ecx, %ecx
	jmp	28f
25:
	cmpq	$32, %rdx
	jae	31f
	xorl	%eax, %eax
	jmp	33f
26:
	movq	%rdx, %rcx
	andq	$-32, %rcx
	leaq	(%rax,%r12), %r8
	addq	$16, %r8
	xorl	%r9d, %r9d
	.p2align	4
27:
	movups	(%rsi,%r9), %xmm0
	movups	16(%rsi,%r9), %xmm1
	movups	%xmm0, -16(%r8,%r9)
	movups	%xmm1, (%r8,%r9)
	addq	$32, %r9
	cmpq	%r9, %rcx
	jne	27b
	cmpq	%rcx, %rdx
	je	19b
	testb	$28, %dl
	je	14b
28:
	movq	%rcx, %r8
	movq	%rdx, %rcx
	andq	$-4, %rcx
	.p2align	4
29:
	movl	(%rsi,%r8), %r9d
	movl	%r9d, (%rdi,%r8)
	addq	$4, %r8
	cmpq	%r8, %rcx
	jne	29b
	cmpq	%rcx, %rdx
	je	19b
	jmp	14b
30:
	movq	%rsi, %r15
	leaq	8(%rbx), %rdi
	movq	%rdx, %r12
	movq	%rdx, %rsi
	callq	"std_alloc::vec::Vec::grow_amortized::<#f7f783c9c62e5f91>"
	testb	%al, %al
	je	35f
	movq	16(%rbx), %rax
	movq	24(%rbx), %r14
	movq	%r12, %rdx
	movq	%r15, %rsi
	jmp	12b
31:
	movq	%rdx, %rax
	andq	$-32, %rax
	leaq	(%r15,%rbx), %rcx
	addq	$24, %rcx
	xorl	%r8d, %r8d
	.p2align	4
32:
	movups	(%rsi,%r8), %xmm0
	movups	16(%rsi,%r8), %xmm1
	movups	%xmm0, -16(%rcx,%r8)
	movups	%xmm1, (%rcx,%r8)
	addq	$32, %r8
	cmpq	%r8, %rax
	jne	32b
	cmpq	%rax, %rdx
	je	21b
	testb	$28, %dl
	je	5b
33:
	movq	%rax, %rcx
	movq	%rdx, %rax
	andq	$-4, %rax
	.p2align	4
34:
	movl	(%rsi,%rcx), %r8d
	movl	%r8d, (%rdi,%rcx)
	addq	$4, %rcx
	cmpq	%rcx, %rax
	jne	34b
	cmpq	%rax, %rdx
	je	21b
	jmp	5b
35:
	ud2
36:
	.size	"smallvec::small_vec::SmallVec::extend_from_slice::<#58247b01769054f4>", 36b-"smallvec::small_vec::SmallVec::extend_from_slice::<#58247b01769054f4>"

	.text
	.p2align	4
	.type	"smallvec::small_vec::SmallVec::extend_from_slice::<#8f588e0f66f62309>",@function
"smallvec::small_vec::SmallVec::extend_from_slice::<#8f588e0f66f62309>":
	pushq	%rbp
	pushq	%r15
	pushq	%r14
	pushq	%r13
	pushq	%r12
	pushq	%rbx
	subq	$88, %rsp
	movq	%rdi, %rbx
	movzbl	(%rdi), %edi
	xorl	%eax, %eax
	testb	%dil, %dil
	sete	%al
	movq	16(%rbx,%rax,8), %r8
	je	1f
	movq	24(%rbx), %rax
	subq	%r8, %rax
	cmpq	%rax, %rdx
	ja	2f
	jmp	23f
1:
	movl	$4, %eax
	subq	%r8, %rax
	cmpq	%rax, %rdx
	jbe	23f
2:
	movq	%rdx, %rax
	notq	%rax
	leaq	(%r8,%rdx), %rcx
	xorl	%r9d, %r9d
	cmpq	%rax, %r8
	cmovbeq	%rcx, %r9
	seta	%cl
	movabsq	$-9223372036854775808, %rax
	cmpq	%rax, %r9
	seta	%r10b
	movb	$1, %al
	orb	%cl, %r10b
	jne	32f
	cmpq	$2, %r9
	jae	3f
	cmpq	$1, %r8
	jbe	4f
	jmp	23f
3:
	leaq	-1(%r9), %r10
	movl	$127, %ecx
	bsrq	%r10, %rcx
	xorq	$-64, %rcx
	addq	$65, %rcx
	movl	$1, %r13d
	shlq	%cl, %r13
	movq	%r13, %r14
	subq	%r8, %r14
	jb	23f
	cmpq	$4, %r9
	ja	5f
4:
	cmpb	$1, %dil
	jne	23f
	movq	8(%rbx), %rdi
	movq	16(%rbx), %rcx
	movq	24(%rbx), %rax
	leaq	12(%rsp), %r8
	movq	%r8, 8(%rbx)
	xorps	%xmm0, %xmm0
	movups	%xmm0, 16(%rbx)
	movaps	%xmm0, 16(%rsp)
	movq	$0, 32(%rsp)
	testq	%rcx, %rcx
	je	9f
	cmpq	$1, %rcx
	jne	6f
	xorl	%r8d, %r8d
	jmp	8f
5:
	leaq	8(%rbx), %r15
	testb	%dil, %dil
	je	11f
	movq	24(%rbx), %rcx
	cmpq	%rcx, %r13
	jae	16f
	movq	16(%rbx), %rax
	cmpq	%r13, %rax
	cmovaq	%rax, %r13
	cmpq	%rcx, %rax
	jae	23f
	movq	(%r15), %rdi
	shlq	$2, %rax
	leaq	(,%r13,4), %r8
	movl	$4, %ecx
	movq	%rsi, %r15
	movq	%rax, %rsi
	movq	%rdx, %r14
	movq	%r8, %rdx
	callq	rattle_realloc@PLT
	movq	%r15, %rsi
	movq	%rdx, %rcx
	movq	%r14, %rdx
	testb	$1, %al
	je	23f
	movq	%rcx, 8(%rbx)
	movq	%r13, 24(%rbx)
	jmp	23f
6:
	movq	%rcx, %r9
	andq	$-2, %r9
	xorl	%r8d, %r8d
	.p2align	4
7:
	leaq	1(%r8), %r10
	movl	(%rdi,%r8,4), %r11d
	movl	%r11d, 16(%rsp,%r8,4)
	movq	%r10, 32(%rsp)
	movl	4(%rdi,%r8,4), %r10d
	movl	%r10d, 20(%rsp,%r8,4)
	addq	$2, %r8
	movq	%r8, 32(%rsp)
	cmpq	%r8, %r9
	jne	7b
	testb	$1, %cl
	je	9f
8:
	leaq	1(%r8), %rcx
	movl	(%rdi,%r8,4), %r9d
	movl	%r9d, 16(%rsp,%r8,4)
	movq	%rcx, 32(%rsp)
9:
	leaq	8(%rbx), %r14
	testq	%rax, %rax
	je	10f
	movq	%rdx, %r15
	movq	%rsi, %r12
	callq	rattle_dealloc@PLT
	movq	%r12, %rsi
	movq	%r15, %rdx
	movq	8(%rbx), %rdi
	movq	24(%rbx), %rax
	cmpb	$0, (%rbx)
	movq	32(%rsp), %rcx
	movq	%rcx, 64(%rsp)
	movaps	16(%rsp), %xmm0
	movaps	%xmm0, 48(%rsp)
	movq	$0, (%rbx)
	movq	64(%rsp), %rcx
	movq	%rcx, 16(%r14)
	movaps	48(%rsp), %xmm0
	movups	%xmm0, (%r14)
	je	23f
	testq	%rax, %rax
	je	23f
	callq	rattle_dealloc@PLT
	movq	%r12, %rsi
	movq	%r15, %rdx
	jmp	23f
10:
	movq	32(%rsp), %rax
	movq	%rax, 64(%rsp)
	movaps	16(%rsp), %xmm0
	movaps	%xmm0, 48(%rsp)
	movq	$0, (%rbx)
	movq	64(%rsp), %rax
	movq	%rax, 16(%r14)
	movaps	48(%rsp), %xmm0
	movups	%xmm0, (%r14)
	jmp	23f
11:
	movabsq	$1152921504606846976, %rdi
	cmpq	%rdi, %r9
	ja	32f
	movq	%rsi, %rbp
	movq	%rdx, 80(%rsp)
	movl	$4, %edi
	shlq	%cl, %rdi
	movl	$4, %esi
	callq	rattle_alloc@PLT
	movq	%rax, %rcx
	movb	$1, %al
	testb	$1, %cl
	je	32f
	movq	%rdx, %r12
	movq	24(%rbx), %r14
	movq	%r15, %rdi
	movq	%r14, %rsi
	movq	%r14, %rdx
	callq	"arrayvec::array_vec::move_to_end::<i32>"
	testq	%r14, %r14
	movq	%rbp, %rsi
	je	19f
	cmpq	$12, %r14
	jb	12f
	leaq	(%r12,%r14,4), %rax
	cmpq	%rax, %r15
	jae	17f
	leaq	(%rbx,%r14,4), %rax
	addq	$8, %rax
	cmpq	%r12, %rax
	jbe	17f
12:
	xorl	%eax, %eax
13:
	movq	%rax, %rcx
	orq	$1, %rcx
	testb	$1, %r14b
	je	14f
	movl	(%r15,%rax,4), %edx
	movl	$0, (%r15,%rax,4)
	movl	%edx, (%r12,%rax,4)
	movq	%rcx, %rax
14:
	cmpq	%rcx, %r14
	je	19f
15:
	movl	8(%rbx,%rax,4), %ecx
	movl	$0, 8(%rbx,%rax,4)
	movl	%ecx, (%r12,%rax,4)
	movl	12(%rbx,%rax,4), %ecx
	movl	$0, 12(%rbx,%rax,4)
	movl	%ecx, 4(%r12,%rax,4)
	addq	$2, %rax
	cmpq	%rax, %r14
	jne	15b
	jmp	19f
16:
	movq	16(%rbx), %r8
	movq	%rcx, %rdi
	subq	%r8, %rdi
	cmpq	%rdi, %r14
	jbe	23f
	addq	%r8, %r14
	jb	32f
	movq	%r14, %rdi
	shrq	$61, %rdi
	jne	32f
	movq	%rsi, %r13
	movq	%rdx, %r12
	testq	%rcx, %rcx
	je	21f
	movq	(%r15), %rdi
	shlq	$2, %r8
	leaq	(,%r14,4), %rdx
	movl	$4, %ecx
	movq	%r8, %rsi
	callq	rattle_realloc@PLT
	jmp	22f
17:
	movq	%r14, %rax
	andq	$-8, %rax
	xorl	%ecx, %ecx
18:
	movups	8(%rbx,%rcx,4), %xmm0
	movups	24(%rbx,%rcx,4), %xmm1
	xorps	%xmm2, %xmm2
	movups	%xmm2, 8(%rbx,%rcx,4)
	movups	%xmm2, 24(%rbx,%rcx,4)
	movups	%xmm0, (%r12,%rcx,4)
	movups	%xmm1, 16(%r12,%rcx,4)
	addq	$8, %rcx
	cmpq	%rcx, %rax
	jne	18b
	cmpq	%rax, %r14
	jne	13b
19:
	movq	24(%rbx), %rdx
	testq	%rdx, %rdx
	je	20f
	shlq	$2, %rdx
	movq	%r15, %rdi
	xorl	%esi, %esi
	callq	memset@PLT
	movq	%rbp, %rsi
20:
	movq	$1, (%rbx)
	movq	%r12, 8(%rbx)
	movq	%r14, 16(%rbx)
	movq	%r13, 24(%rbx)
	movq	80(%rsp), %rdx
	jmp	24f
21:
	leaq	(,%r14,4), %rdi
	movl	$4, %esi
	callq	rattle_alloc@PLT
22:
	testb	$1, %al
	movb	$1, %al
	je	32f
	movq	%r13, %rsi
	movq	%rdx, 8(%rbx)
	movq	%r14, 24(%rbx)
	movq	%r12, %rdx
23:
	cmpb	$0, (%rbx)
	movq	24(%rbx), %r13
	je	26f
	movq	16(%rbx), %r14
24:
	movq	%r13, %rax
	subq	%r14, %rax
	cmpq	%rax, %rdx
	ja	33f
25:
	leaq	16(%rbx), %rax
	movq	8(%rbx), %r15
	xorps	%xmm0, %xmm0
	movups	%xmm0, (%rax)
	leaq	(%r15,%r14,4), %rdi
	addq	%rdx, %r14
	leaq	(,%rdx,4), %rax
	movq	%rdi, %rcx
	subq	%rsi, %rcx
	cmpq	%rax, %rcx
	jae	28f
	movl	(%rsi), %eax
	movl	%eax, (%rdi)
	cmpq	$1, %rdx
	je	29f
	movl	4(%rsi), %eax
	movl	%eax, 4(%rdi)
	cmpq	$2, %rdx
	je	29f
	movl	8(%rsi), %eax
	movl	%eax, 8(%rdi)
	cmpq	$3, %rdx
	je	29f
	movl	12(%rsi), %eax
	movl	%eax, 12(%rdi)
	jmp	29f
26:
	movl	$4, %eax
	subq	%r13, %rax
	cmpq	%rdx, %rax
	jb	34f
	leaq	(%rbx,%r13,4), %rdi
	addq	$8, %rdi
	leaq	(,%rdx,4), %rax
	movq	%rdi, %rcx
	subq	%rsi, %rcx
	cmpq	%rax, %rcx
	jae	30f
	movl	(%rsi), %eax
	movl	%eax, (%rdi)
	cmpq	$1, %rdx
	je	27f
	movl	4(%rsi), %eax
	movl	%eax, 4(%rdi)
	cmpq	$2, %rdx
	je	27f
	movl	8(%rsi), %eax
	movl	%eax, 8(%rdi)
	cmpq	$3, %rdx
	je	27f
	movl	12(%rsi), %eax
	movl	%eax, 12(%rdi)
27:
	addq	%rdx, %r13
	jmp	31f
28:
	movq	%rax, %rdx
	callq	memmove@PLT
29:
	movq	%r15, 8(%rbx)
	movq	%r14, 16(%rbx)
	jmp	31f
30:
	movq	%rdx, %r14
	movq	%rax, %rdx
	callq	memmove@PLT
	addq	%r14, %r13
31:
	movq	%r13, 24(%rbx)
	xorl	%eax, %eax
32:
	addq	$88, %rsp
	popq	%rbx
	popq	%r12
	popq	%r13
	popq	%r14
	popq	%r15
	popq	%rbp
	retq
33:
	movq	%rsi, %r15
	leaq	8(%rbx), %rdi
	movq	%rdx, %r12
	movq	%rdx, %rsi
	callq	"std_alloc::vec::Vec::grow_amortized::<#6f4ec3444080bcc6>"
	testb	%al, %al
	je	34f
	movq	16(%rbx), %r14
	movq	24(%rbx), %r13
	movq	%r12, %rdx
	movq	%r15, %rsi
	jmp	25b
34:
	ud2
35:
	.size	"smallvec::small_vec::SmallVec::extend_from_slice::<#8f588e0f66f62309>", 35b-"smallvec::small_vec::SmallVec::extend_from_slice::<#8f588e0f66f62309>"

	.text
	.p2align	4
	.type	"smallvec::small_vec::SmallVec::from_slice::<#58247b01769054f4>",@function
"smallvec::small_vec::SmallVec::from_slice::<#58247b01769054f4>":
	pushq	%rbp
	pushq	%r15
	pushq	%r14
	pushq	%r13
	pushq	%r12
	pushq	%rbx
	subq	$184, %rsp
	movq	%rdx, %r14
	movq	%rsi, %r15
	movq	%rdi, %rbx
	xorps	%xmm0, %xmm0
	movaps	%xmm0, 112(%rsp)
	movaps	%xmm0, 96(%rsp)
	movaps	%xmm0, 80(%rsp)
	movaps	%xmm0, 64(%rsp)
	leaq	64(%rsp), %rdi
	movq	%rdx, %rsi
	callq	"smallvec::small_vec::SmallVec::grow::<#4c0255fda7f36d01>"
	movzbl	64(%rsp), %ecx
	testb	%al, %al
	je	2f
	testq	%rcx, %rcx
	je	1f
	cmpq	$0, 88(%rsp)
	je	1f
	movq	72(%rsp), %rdi
	callq	rattle_dealloc@PLT
1:
	movb	$1, (%rbx)
	xorps	%xmm0, %xmm0
	movups	%xmm0, 8(%rbx)
	movups	%xmm0, 24(%rbx)
	movups	%xmm0, 40(%rbx)
	movups	%xmm0, 56(%rbx)
	jmp	12f
2:
	leaq	72(%rsp), %rax
	movq	48(%rax), %rdx
	movq	%rdx, 176(%rsp)
	movups	(%rax), %xmm0
	movups	16(%rax), %xmm1
	movups	32(%rax), %xmm2
	movaps	%xmm2, 160(%rsp)
	movaps	%xmm1, 144(%rsp)
	movaps	%xmm0, 128(%rsp)
	movq	%rcx, (%rsp)
	leaq	8(%rsp), %r12
	movups	%xmm0, 8(%rsp)
	movups	%xmm1, 24(%rsp)
	movups	%xmm2, 40(%rsp)
	movq	%rdx, 56(%rsp)
	testq	%rcx, %rcx
	je	8f
	movq	16(%rsp), %rax
	movq	24(%rsp), %r13
	movq	%r13, %rcx
	subq	%rax, %rcx
	cmpq	%rcx, %r14
	ja	16f
3:
	leaq	(%rax,%r14), %rbp
	movq	8(%rsp), %rcx
	leaq	(%rcx,%rax), %rdi
	movq	%rdi, %rdx
	subq	%r15, %rdx
	cmpq	%r14, %rdx
	jae	9f
	cmpq	$32, %rdx
	jae	13f
	xorl	%edx, %edx
4:
	movq	%r14, %r8
	movq	%rdx, %rsi
	andq	$3, %r8
	je	6f
	movq	%rdx, %rsi
	.p2align	4
5:
	movzbl	(%r15,%rsi), %r9d
	movb	%r9b, (%rdi,%rsi)
	incq	%rsi
	decq	%r8
	jne	5b
6:
	subq	%r14, %rdx
	cmpq	$-4, %rdx
	ja	10f
	addq	%rcx, %rax
	addq	$3, %rax
	.p2align	4
7:
	movzbl	(%r15,%rsi), %ecx
	movb	%cl, -3(%rax,%rsi)
	movzbl	1(%r15,%rsi), %ecx
	movb	%cl, -2(%rax,%rsi)
	movzbl	2(%r15,%rsi), %ecx
	movb	%cl, -1(%rax,%rsi)
	movzbl	3(%r15,%rsi), %ecx
	movb	%cl, (%rax,%rsi)
	addq	$4, %rsi
	cmpq	%rsi, %r14
	jne	7b
	jmp	10f
8:
	movq	56(%rsp), %r13
	movl	$48, %eax
	subq	%r13, %rax
	cmpq	%r14, %rax
	jb	18f
	leaq	(%r12,%r13), %rdi
	movq	%r15, %rsi
	movq	%r14, %rdx
	callq	memcpy@PLT
	addq	%r14, %r13
	movq	%r13, 56(%rsp)
	jmp	11f
9:
	movq	%r15, %rsi
	movq	%r14, %rdx
	callq	memmove@PLT
10:
	movq	%rbp, 16(%rsp)
	movq	%r13, 24(%rsp)
11:
	movzbl	(%rsp), %eax
	movb	$0, (%rbx)
	movq	%rax, 8(%rbx)
	movups	(%r12), %xmm0
	movups	16(%r12), %xmm1
	movups	32(%r12), %xmm2
	movups	%xmm0, 16(%rbx)
	movups	%xmm1, 32(%rbx)
	movups	%xmm2, 48(%rbx)
	movq	48(%r12), %rax
	movq	%rax, 64(%rbx)
12:
	addq	$184, %rsp
	popq	%rbx
	popq	%r12
	popq	%r13
	popq	%r14
	popq	%r15
	popq	%rbp
	retq
13:
	movq	%r14, %rsi
	andq	$-32, %rsi
	leaq	(%rax,%rcx), %rdx
	addq	$16, %rdx
	xorl	%r8d, %r8d
	.p2align	4
14:
	movups	(%r15,%r8), %xmm0
	movups	16(%r15,%r8), %xmm1
	movups	%xmm0, -16(%rdx,%r8)
	movups	%xmm1, (%rdx,%r8)
	addq	$32, %r8
	cmpq	%r8, %rsi
	jne	14b
	cmpq	%rsi, %r14
	je	10b
	testb	$28, %r14b
	je	17f
	movq	%r14, %rdx
	andq	$-4, %rdx
	.p2align	4
15:
	movl	(%r15,%rsi), %r8d
	movl	%r8d, (%rdi,%rsi)
	addq	$4, %rsi
	cmpq	%rsi, %rdx
	jne	15b
	cmpq	%rdx, %r14
	jne	4b
	jmp	10b
16:
	leaq	8(%rsp), %rdi
	movq	%r14, %rsi
	callq	"std_alloc::vec::Vec::grow_amortized::<#f7f783c9c62e5f91>"
	testb	%al, %al
	je	18f
	movq	16(%rsp), %rax
	movq	24(%rsp), %r13
	jmp	3b
17:
	movq	%rsi, %rdx
	jmp	4b
18:
	ud2
19:
	.size	"smallvec::small_vec::SmallVec::from_slice::<#58247b01769054f4>", 19b-"smallvec::small_vec::SmallVec::from_slice::<#58247b01769054f4>"

	.text
	.p2align	4
	.type	"smallvec::small_vec::SmallVec::from_slice::<#940dc9c6c8ede164>",@function
"smallvec::small_vec::SmallVec::from_slice::<#940dc9c6c8ede164>":
	pushq	%r15
	pushq	%r14
	pushq	%r13
	pushq	%r12
	pushq	%rbx
	subq	$80, %rsp
	movq	%rdx, %r14
	movq	%rdi, %rbx
	xorps	%xmm0, %xmm0
	movaps	%xmm0, 48(%rsp)
	xorl	%edx, %edx
	movl	$0, %eax
	movl	$0, %r15d
	cmpq	$33, %r14
	jb	1f
	testq	%r14, %r14
	js	2f
	movl	$1, %r15d
	movq	%rsi, %r12
	movl	$1, %esi
	movq	%r14, %rdi
	callq	rattle_alloc@PLT
	testb	$1, %al
	je	2f
	movq	%r12, %rsi
	xorps	%xmm0, %xmm0
	movaps	%xmm0, 48(%rsp)
	movq	%r14, %rax
1:
	movaps	48(%rsp), %xmm0
	movaps	%xmm0, 64(%rsp)
	movq	%r15, (%rsp)
	leaq	8(%rsp), %r15
	movq	%rdx, 8(%rsp)
	movq	$0, 16(%rsp)
	movq	%rax, 24(%rsp)
	movups	%xmm0, 32(%rsp)
	cmpq	$32, %r14
	ja	3f
	movq	40(%rsp), %r12
	movl	$32, %eax
	subq	%r12, %rax
	cmpq	%r14, %rax
	jb	18f
	leaq	(%r15,%r12), %rdi
	movq	%r14, %rdx
	callq	memcpy@PLT
	addq	%r14, %r12
	movq	%r12, 40(%rsp)
	jmp	11f
2:
	movb	$1, (%rbx)
	xorps	%xmm0, %xmm0
	movups	%xmm0, 8(%rbx)
	movups	%xmm0, 24(%rbx)
	movups	%xmm0, 40(%rbx)
	jmp	12f
3:
	movq	16(%rsp), %rax
	movq	24(%rsp), %r12
	movq	%r12, %rcx
	subq	%rax, %rcx
	cmpq	%rcx, %r14
	ja	16f
4:
	leaq	(%rax,%r14), %r13
	movq	8(%rsp), %rcx
	leaq	(%rcx,%rax), %rdi
	movq	%rdi, %rdx
	subq	%rsi, %rdx
	cmpq	%r14, %rdx
	jae	9f
	cmpq	$32, %rdx
	jae	13f
	xorl	%edx, %edx
5:
	movq	%r14, %r9
	movq	%rdx, %r8
	andq	$3, %r9
	je	7f
	movq	%rdx, %r8
	.p2align	4
6:
	movzbl	(%rsi,%r8), %r10d
	movb	%r10b, (%rdi,%r8)
	incq	%r8
	decq	%r9
	jne	6b
7:
	subq	%r14, %rdx
	cmpq	$-4, %rdx
	ja	10f
	addq	%rcx, %rax
	addq	$3, %rax
	.p2align	4
8:
	movzbl	(%rsi,%r8), %ecx
	movb	%cl, -3(%rax,%r8)
	movzbl	1(%rsi,%r8), %ecx
	movb	%cl, -2(%rax,%r8)
	movzbl	2(%rsi,%r8), %ecx
	movb	%cl, -1(%rax,%r8)
	movzbl	3(%rsi,%r8), %ecx
	movb	%cl, (%rax,%r8)
	addq	$4, %r8
	cmpq	%r8, %r14
	jne	8b
	jmp	10f
9:
	movq	%r14, %rdx
	callq	memmove@PLT
10:
	movq	%r13, 16(%rsp)
	movq	%r12, 24(%rsp)
11:
	movzbl	(%rsp), %eax
	movb	$0, (%rbx)
	movq	%rax, 8(%rbx)
	movups	(%r15), %xmm0
	movups	16(%r15), %xmm1
	movups	%xmm0, 16(%rbx)
	movups	%xmm1, 32(%rbx)
	movq	32(%r15), %rax
	movq	%rax, 48(%rbx)
12:
	addq	$80, %rsp
	popq	%rbx
	popq	%r12
	popq	%r13
	popq	%r14
	popq	%r15
	retq
13:
	movq	%r14, %r8
	andq	$-32, %r8
	leaq	(%rax,%rcx), %rdx
	addq	$16, %rdx
	xorl	%r9d, %r9d
	.p2align	4
14:
	movups	(%rsi,%r9), %xmm0
	movups	16(%rsi,%r9), %xmm1
	movups	%xmm0, -16(%rdx,%r9)
	movups	%xmm1, (%rdx,%r9)
	addq	$32, %r9
	cmpq	%r9, %r8
	jne	14b
	cmpq	%r8, %r14
	je	10b
	testb	$28, %r14b
	je	17f
	movq	%r14, %rdx
	andq	$-4, %rdx
	.p2align	4
15:
	movl	(%rsi,%r8), %r9d
	movl	%r9d, (%rdi,%r8)
	addq	$4, %r8
	cmpq	%r8, %rdx
	jne	15b
	cmpq	%rdx, %r14
	jne	5b
	jmp	10b
16:
	movq	%rsi, %r13
	leaq	8(%rsp), %rdi
	movq	%r14, %rsi
	callq	"std_alloc::vec::Vec::grow_amortized::<#f7f783c9c62e5f91>"
	testb	%al, %al
	je	18f
	movq	16(%rsp), %rax
	movq	24(%rsp), %r12
	movq	%r13, %rsi
	jmp	4b
17:
	movq	%r8, %rdx
	jmp	5b
18:
	ud2
19:
	.size	"smallvec::small_vec::SmallVec::from_slice::<#940dc9c6c8ede164>", 19b-"smallvec::small_vec::SmallVec::from_slice::<#940dc9c6c8ede164>"

	.text
	.p2align	4
	.type	"smallvec::small_vec::SmallVec::grow::<#4c0255fda7f36d01>",@function
"smallvec::small_vec::SmallVec::grow::<#4c0255fda7f36d01>":
	pushq	%r15
	pushq	%r14
	pushq	%r13
	pushq	%r12
	pushq	%rbx
	subq	$144, %rsp
	movzbl	(%rdi), %eax
	leaq	16(%rdi), %rcx
	leaq	56(%rdi), %rdx
	testb	%al, %al
	cmoveq	%rdx, %rcx
	movq	%rsi, %r14
	subq	(%rcx), %r14
	jae	3f
1:
	xorl	%eax, %eax
2:
	addq	$144, %rsp
	popq	%rbx
	popq	%r12
	popq	%r13
	popq	%r14
	popq	%r15
	retq
3:
	cmpq	$48, %rsi
	ja	4f
	cmpb	$1, %al
	jne	1b
	movq	8(%rdi), %rax
	movq	16(%rdi), %r8
	movq	24(%rdi), %rcx
	leaq	15(%rsp), %rdx
	movq	%rdx, 8(%rdi)
	xorps	%xmm0, %xmm0
	movups	%xmm0, 16(%rdi)
	movaps	%xmm0, 48(%rsp)
	movaps	%xmm0, 32(%rsp)
	movaps	%xmm0, 16(%rsp)
	movq	$0, 64(%rsp)
	testq	%r8, %r8
	je	18f
	movl	%r8d, %edx
	andl	$3, %edx
	cmpq	$4, %r8
	jae	14f
	xorl	%esi, %esi
	jmp	16f
4:
	leaq	8(%rdi), %rbx
	testb	%al, %al
	je	5f
	movq	24(%rdi), %rcx
	cmpq	%rcx, %rsi
	jae	13f
	movq	16(%rdi), %rax
	cmpq	%rsi, %rax
	cmovaq	%rax, %rsi
	cmpq	%rcx, %rax
	jae	1b
	movq	%rdi, %r14
	movq	(%rbx), %rdi
	movl	$1, %ecx
	movq	%rsi, %rdx
	movq	%rax, %rsi
	movq	%rdx, %rbx
	callq	rattle_realloc@PLT
	testb	$1, %al
	je	1b
	movq	%rdx, 8(%r14)
	movq	%rbx, 24(%r14)
	jmp	1b
5:
	movb	$1, %al
	testq	%rsi, %rsi
	js	2b
	movq	%rdi, %r12
	movq	%rsi, %rdi
	movl	$1, %esi
	movq	%rdi, %r13
	callq	rattle_alloc@PLT
	movq	%rax, %rcx
	movb	$1, %al
	testb	$1, %cl
	je	2b
	movq	%rdx, %r14
	movq	56(%r12), %r15
	movq	%rbx, %rdi
	movq	%r15, %rsi
	movq	%r15, %rdx
	callq	"arrayvec::array_vec::move_to_end::<i8>"
	movq	%r12, %rcx
	testq	%r15, %r15
	movq	%r13, %rsi
	je	11f
	cmpq	$8, %r15
	jb	6f
	leaq	(%rcx,%r15), %rax
	addq	$8, %rax
	leaq	(%r14,%r15), %rdx
	cmpq	%rdx, %rbx
	setb	%dl
	cmpq	%r14, %rax
	seta	%al
	testb	%al, %dl
	je	21f
6:
	xorl	%eax, %eax
7:
	movq	%r15, %rdi
	movq	%rax, %rdx
	andq	$3, %rdi
	je	9f
	movq	%rax, %rdx
	.p2align	4
8:
	movzbl	(%rbx,%rdx), %r8d
	movb	$0, (%rbx,%rdx)
	movb	%r8b, (%r14,%rdx)
	incq	%rdx
	decq	%rdi
	jne	8b
9:
	subq	%r15, %rax
	cmpq	$-4, %rax
	ja	11f
	.p2align	4
10:
	movzbl	8(%rcx,%rdx), %eax
	movb	$0, 8(%rcx,%rdx)
	movb	%al, (%r14,%rdx)
	movzbl	9(%rcx,%rdx), %eax
	movb	$0, 9(%rcx,%rdx)
	movb	%al, 1(%r14,%rdx)
	movzbl	10(%rcx,%rdx), %eax
	movb	$0, 10(%rcx,%rdx)
	movb	%al, 2(%r14,%rdx)
	movzbl	11(%rcx,%rdx), %eax
	movb	$0, 11(%rcx,%rdx)
	movb	%al, 3(%r14,%rdx)
	addq	$4, %rdx
	cmpq	%rdx, %r15
	jne	10b
11:
	movq	56(%rcx), %rdx
	testq	%rdx, %rdx
	je	12f
	movq	%rbx, %rdi
	xorl	%esi, %esi
	callq	memset@PLT
	movq	%r13, %rsi
	movq	%r12, %rcx
12:
	movq	8(%rcx), %rdi
	xorl	%eax, %eax
	cmpb	$0, (%rcx)
	movq	24(%rcx), %rdx
	movq	$1, (%rcx)
	movq	%r14, 8(%rcx)
	movq	%r15, 16(%rcx)
	movq	%rsi, 24(%rcx)
	xorps	%xmm0, %xmm0
	movups	%xmm0, 32(%rcx)
	movups	%xmm0, 48(%rcx)
	je	2b
	testq	%rdx, %rdx
	jne	19f
	jmp	2b
13:
	movq	16(%rdi), %rsi
	movq	%rcx, %rax
	subq	%rsi, %rax
	cmpq	%rax, %r14
	jbe	1b
	movb	$1, %al
	addq	%rsi, %r14
	jb	2b
	js	2b
	movq	%rdi, %r15
	testq	%rcx, %rcx
	je	22f
	movq	(%rbx), %rdi
	movl	$1, %ecx
	movq	%r14, %rdx
	callq	rattle_realloc@PLT
	jmp	23f
14:
	andq	$-4, %r8
	negq	%r8
	movl	$2, %esi
	.p2align	4
15:
	leaq	-1(%rsi), %r9
	movzbl	-2(%rax,%rsi), %r10d
	movb	%r10b, 14(%rsp,%rsi)
	movq	%r9, 64(%rsp)
	movzbl	-1(%rax,%rsi), %r9d
	movb	%r9b, 15(%rsp,%rsi)
	movq	%rsi, 64(%rsp)
	leaq	1(%rsi), %r9
	movzbl	(%rax,%rsi), %r10d
	movb	%r10b, 16(%rsp,%rsi)
	movq	%r9, 64(%rsp)
	leaq	2(%rsi), %r9
	movzbl	1(%rax,%rsi), %r10d
	movb	%r10b, 17(%rsp,%rsi)
	movq	%r9, 64(%rsp)
	leaq	(%r8,%rsi), %r9
	addq	$4, %r9
	addq	$4, %rsi
	cmpq	$2, %r9
	jne	15b
	testq	%rdx, %rdx
	je	18f
	addq	$-2, %rsi
16:
	incq	%rsi
	.p2align	4
17:
	movzbl	-1(%rax,%rsi), %r8d
	movb	%r8b, 15(%rsp,%rsi)
	movq	%rsi, 64(%rsp)
	incq	%rsi
	decq	%rdx
	jne	17b
18:
	leaq	8(%rdi), %rbx
	testq	%rcx, %rcx
	je	20f
	movq	%rdi, %r14
	movq	%rax, %rdi
	callq	rattle_dealloc@PLT
	movq	8(%r14), %rdi
	movq	24(%r14), %rax
	cmpb	$0, (%r14)
	movq	64(%rsp), %rcx
	movq	%rcx, 128(%rsp)
	movaps	16(%rsp), %xmm0
	movaps	32(%rsp), %xmm1
	movaps	48(%rsp), %xmm2
	movaps	%xmm2, 112(%rsp)
	movaps	%xmm1, 96(%rsp)
	movaps	%xmm0, 80(%rsp)
	movq	$0, (%r14)
	movq	128(%rsp), %rcx
	movq	%rcx, 48(%rbx)
	movaps	80(%rsp), %xmm0
	movaps	96(%rsp), %xmm1
	movaps	112(%rsp), %xmm2
	movups	%xmm2, 32(%rbx)
	movups	%xmm1, 16(%rbx)
	movups	%xmm0, (%rbx)
	je	1b
	testq	%rax, %rax
	je	1b
19:
	callq	rattle_dealloc@PLT
	jmp	1b
20:
	movq	64(%rsp), %rax
	movq	%rax, 128(%rsp)
	movaps	16(%rsp), %xmm0
	movaps	32(%rsp), %xmm1
	movaps	48(%rsp), %xmm2
	movaps	%xmm2, 112(%rsp)
	movaps	%xmm1, 96(%rsp)
	movaps	%xmm0, 80(%rsp)
	movq	$0, (%rdi)
	movq	128(%rsp), %rax
	movq	%rax, 48(%rbx)
	movaps	80(%rsp), %xmm0
	movaps	96(%rsp), %xmm1
	movaps	112(%rsp), %xmm2
	movups	%xmm2, 32(%rbx)
	movups	%xmm1, 16(%rbx)
	movups	%xmm0, (%rbx)
	jmp	1b
21:
	cmpq	$32, %r15
	jae	24f
	xorl	%eax, %eax
	jmp	26f
22:
	movl	$1, %esi
	movq	%r14, %rdi
	callq	rattle_alloc@PLT
23:
	testb	$1, %al
	movb	$1, %al
	je	2b
	movq	%rdx, 8(%r15)
	movq	%r14, 24(%r15)
	jmp	1b
24:
	movq	%r15, %rax
	andq	$-32, %rax
	xorl	%edx, %edx
25:
	movups	8(%rcx,%rdx), %xmm0
	movups	24(%rcx,%rdx), %xmm1
	xorps	%xmm2, %xmm2
	movups	%xmm2, 8(%rcx,%rdx)
	movups	%xmm2, 24(%rcx,%rdx)
	movups	%xmm0, (%r14,%rdx)
	movups	%xmm1, 16(%r14,%rdx)
	addq	$32, %rdx
	cmpq	%rdx, %rax
	jne	25b
	cmpq	%rax, %r15
	je	11b
	testb	$24, %r15b
	je	7b
26:
	movq	%rax, %rdx
	movq	%r15, %rax
	andq	$-8, %rax
27:
	movq	(%rbx,%rdx), %rdi
	movq	$0, (%rbx,%rdx)
	movq	%rdi, (%r14,%rdx)
	addq	$8, %rdx
	cmpq	%rdx, %rax
	jne	27b
	cmpq	%rax, %r15
	je	11b
	jmp	7b
28:
	.size	"smallvec::small_vec::SmallVec::grow::<#4c0255fda7f36d01>", 28b-"smallvec::small_vec::SmallVec::grow::<#4c0255fda7f36d01>"

	.text
	.p2align	4
	.type	"smallvec::small_vec::SmallVec::push::<#bc37e6e66b18402c>",@function
"smallvec::small_vec::SmallVec::push::<#bc37e6e66b18402c>":
	movzbl	(%rdi), %eax
	xorl	%ecx, %ecx
	testb	%al, %al
	sete	%cl
	movq	16(%rdi,%rcx,8), %rcx
	je	1f
	movq	24(%rdi), %rdx
	jmp	2f
1:
	movl	$4, %edx
2:
	pushq	%r14
	pushq	%rbx
	pushq	%rax
	cmpq	%rdx, %rcx
	je	4f
	testb	%al, %al
	je	5f
3:
	movq	8(%rdi), %rax
	movq	16(%rdi), %rcx
	movl	%esi, (%rax,%rcx,4)
	incq	%rcx
	movq	%rcx, 16(%rdi)
	jmp	6f
4:
	movl	%esi, %ebx
	movq	%rdi, %r14
	callq	"smallvec::small_vec::SmallVec::reserve_one::<#bc37e6e66b18402c>"
	movl	%eax, %ecx
	movb	$1, %al
	testb	%cl, %cl
	jne	7f
	movq	%r14, %rdi
	movzbl	(%r14), %eax
	movl	%ebx, %esi
	testb	%al, %al
	jne	3b
5:
	movq	24(%rdi), %rax
	movl	%esi, 8(%rdi,%rax,4)
	incq	%rax
	movq	%rax, 24(%rdi)
6:
	xorl	%eax, %eax
7:
	addq	$8, %rsp
	popq	%rbx
	popq	%r14
	retq
8:
	.size	"smallvec::small_vec::SmallVec::push::<#bc37e6e66b18402c>", 8b-"smallvec::small_vec::SmallVec::push::<#bc37e6e66b18402c>"

	.text
	.p2align	4
	.type	"smallvec::small_vec::SmallVec::push::<#c56eefbaea896dc3>",@function
"smallvec::small_vec::SmallVec::push::<#c56eefbaea896dc3>":
	pushq	%rbp
	pushq	%r15
	pushq	%r14
	pushq	%rbx
	pushq	%rax
	movq	%rdi, %rbx
	movzbl	(%rsi), %eax
	leaq	16(%rsi), %rdi
	leaq	40(%rsi), %r8
	testb	%al, %al
	cmoveq	%r8, %rdi
	movq	(%rdi), %rdi
	je	3f
	movq	24(%rsi), %r8
	cmpq	%r8, %rdi
	je	4f
1:
	testb	%al, %al
	je	6f
2:
	movq	8(%rsi), %rax
	movq	16(%rsi), %rdi
	shlq	$32, %rcx
	movl	%edx, %edx
	orq	%rcx, %rdx
	movq	%rdx, (%rax,%rdi,8)
	incq	%rdi
	movq	%rdi, 16(%rsi)
	jmp	7f
3:
	movl	$4, %r8d
	cmpq	%r8, %rdi
	jne	1b
4:
	movl	%edx, %ebp
	movq	%rcx, %r14
	movq	%rsi, %r15
	movq	%rsi, %rdi
	callq	"smallvec::small_vec::SmallVec::reserve_one::<#c56eefbaea896dc3>"
	testb	%al, %al
	je	5f
	shlq	$32, %r14
	movl	%ebp, %eax
	orq	%r14, %rax
	movb	$1, (%rbx)
	movq	%rax, 4(%rbx)
	jmp	8f
5:
	movq	%r15, %rsi
	movzbl	(%r15), %eax
	movq	%r14, %rcx
	movl	%ebp, %edx
	testb	%al, %al
	jne	2b
6:
	movq	40(%rsi), %rax
	shlq	$32, %rcx
	movl	%edx, %edx
	orq	%rcx, %rdx
	movq	%rdx, 8(%rsi,%rax,8)
	incq	%rax
	movq	%rax, 40(%rsi)
7:
	movb	$0, (%rbx)
	movq	$0, 4(%rbx)
8:
	addq	$8, %rsp
	popq	%rbx
	popq	%r14
	popq	%r15
	popq	%rbp
	retq
9:
	.size	"smallvec::small_vec::SmallVec::push::<#c56eefbaea896dc3>", 9b-"smallvec::small_vec::SmallVec::push::<#c56eefbaea896dc3>"

	.section	.text.unlikely,"ax",@progbits
	.p2align	4
	.type	"smallvec::small_vec::SmallVec::reserve_one::<#1d7ca747d7f7d6e4>",@function
"smallvec::small_vec::SmallVec::reserve_one::<#1d7ca747d7f7d6e4>":
	movzbl	(%rdi), %edx
	leaq	16(%rdi), %rax
	leaq	72(%rdi), %rcx
	testb	%dl, %dl
	cmoveq	%rcx, %rax
	movq	(%rax), %rsi
	je	1f
	movq	24(%rdi), %rax
	jmp	2f
1:
	movl	$8, %eax
2:
	pushq	%r15
	pushq	%r14
	pushq	%r12
	pushq	%rbx
	subq	$168, %rsp
	cmpq	%rsi, %rax
	jne	11f
	movb	$1, %al
	testq	%rsi, %rsi
	js	12f
	je	3f
	bsrq	%rsi, %rcx
	incq	%rcx
	movl	$1, %r14d
	shlq	%cl, %r14
	movq	%r14, %r15
	subq	%rsi, %r15
	jb	11f
	cmpq	$7, %rsi
	ja	4f
3:
	cmpb	$1, %dl
	jne	11f
	movq	8(%rdi), %rax
	movq	16(%rdi), %rdx
	movq	24(%rdi), %rcx
	leaq	8(%rsp), %rsi
	movq	%rsi, 8(%rdi)
	xorps	%xmm0, %xmm0
	movups	%xmm0, 16(%rdi)
	movaps	%xmm0, 64(%rsp)
	movaps	%xmm0, 48(%rsp)
	movaps	%xmm0, 32(%rsp)
	movaps	%xmm0, 16(%rsp)
	movq	$0, 80(%rsp)
	testq	%rdx, %rdx
	je	8f
	cmpq	$1, %rdx
	jne	5f
	xorl	%esi, %esi
	jmp	7f
4:
	leaq	8(%rdi), %rbx
	testb	%dl, %dl
	je	13f
	movq	24(%rdi), %rcx
	cmpq	%rcx, %r14
	jae	18f
	movq	16(%rdi), %rsi
	cmpq	%r14, %rsi
	cmovaq	%rsi, %r14
	cmpq	%rcx, %rsi
	jae	11f
	movq	%rdi, %r15
	movq	(%rbx), %rdi
	shlq	$3, %rsi
	leaq	(,%r14,8), %rdx
	movl	$8, %ecx
	callq	rattle_realloc@PLT
	testb	$1, %al
	je	11f
	movq	%rdx, 8(%r15)
	movq	%r14, 24(%r15)
	jmp	11f
5:
	movq	%rdx, %r8
	andq	$-2, %r8
	xorl	%esi, %esi
	.p2align	4
6:
	leaq	1(%rsi), %r9
	movq	(%rax,%rsi,8), %r10
	movq	%r10, 16(%rsp,%rsi,8)
	movq	%r9, 80(%rsp)
	movq	8(%rax,%rsi,8), %r9
	movq	%r9, 24(%rsp,%rsi,8)
	addq	$2, %rsi
	movq	%rsi, 80(%rsp)
	cmpq	%rsi, %r8
	jne	6b
	testb	$1, %dl
	je	8f
7:
	leaq	1(%rsi), %rdx
	movq	(%rax,%rsi,8), %r8
	movq	%r8, 16(%rsp,%rsi,8)
	movq	%rdx, 80(%rsp)
8:
	leaq	8(%rdi), %rbx
	testq	%rcx, %rcx
	je	10f
	movq	%rdi, %r14
	movq	%rax, %rdi
	callq	rattle_dealloc@PLT
	movq	8(%r14), %rdi
	movq	24(%r14), %rax
	cmpb	$0, (%r14)
	movq	80(%rsp), %rcx
	movq	%rcx, 160(%rsp)
	movaps	16(%rsp), %xmm0
	movaps	32(%rsp), %xmm1
	movaps	48(%rsp), %xmm2
	movaps	64(%rsp), %xmm3
	movaps	%xmm3, 144(%rsp)
	movaps	%xmm2, 128(%rsp)
	movaps	%xmm1, 112(%rsp)
	movaps	%xmm0, 96(%rsp)
	movq	$0, (%r14)
	movq	160(%rsp), %rcx
	movq	%rcx, 64(%rbx)
	movaps	96(%rsp), %xmm0
	movaps	112(%rsp), %xmm1
	movaps	128(%rsp), %xmm2
	movaps	144(%rsp), %xmm3
	movups	%xmm3, 48(%rbx)
	movups	%xmm2, 32(%rbx)
	movups	%xmm1, 16(%rbx)
	movups	%xmm0, (%rbx)
	je	11f
	testq	%rax, %rax
	je	11f
9:
	callq	rattle_dealloc@PLT
	jmp	11f
10:
	movq	80(%rsp), %rax
	movq	%rax, 160(%rsp)
	movaps	16(%rsp), %xmm0
	movaps	32(%rsp), %xmm1
	movaps	48(%rsp), %xmm2
	movaps	64(%rsp), %xmm3
	movaps	%xmm3, 144(%rsp)
	movaps	%xmm2, 128(%rsp)
	movaps	%xmm1, 112(%rsp)
	movaps	%xmm0, 96(%rsp)
	movq	$0, (%rdi)
	movq	160(%rsp), %rax
	movq	%rax, 64(%rbx)
	movaps	96(%rsp), %xmm0
	movaps	112(%rsp), %xmm1
	movaps	128(%rsp), %xmm2
	movaps	144(%rsp), %xmm3
	movups	%xmm3, 48(%rbx)
	movups	%xmm2, 32(%rbx)
	movups	%xmm1, 16(%rbx)
	movups	%xmm0, (%rbx)
11:
	xorl	%eax, %eax
12:
	addq	$168, %rsp
	popq	%rbx
	popq	%r12
	popq	%r14
	popq	%r15
	retq
13:
	shrq	$59, %rsi
	jne	12b
	movq	%rdi, %r15
	movl	$8, %edi
	shlq	%cl, %rdi
	movl	$8, %esi
	callq	rattle_alloc@PLT
	movq	%rax, %rcx
	movb	$1, %al
	testb	$1, %cl
	je	12b
	movq	%r15, %rcx
	movq	72(%r15), %r12
	testq	%r12, %r12
	je	22f
	cmpq	$10, %r12
	jb	14f
	leaq	(%rdx,%r12,8), %rax
	cmpq	%rax, %rbx
	jae	19f
	leaq	(%rcx,%r12,8), %rax
	addq	$8, %rax
	cmpq	%rdx, %rax
	jbe	19f
14:
	xorl	%eax, %eax
15:
	movq	%rax, %rsi
	orq	$1, %rsi
	testb	$1, %r12b
	je	16f
	movq	(%rbx,%rax,8), %rdi
	movq	$0, (%rbx,%rax,8)
	movq	%rdi, (%rdx,%rax,8)
	movq	%rsi, %rax
16:
	cmpq	%rsi, %r12
	je	21f
17:
	movq	8(%rcx,%rax,8), %rsi
	movq	$0, 8(%rcx,%rax,8)
	movq	%rsi, (%rdx,%rax,8)
	movq	16(%rcx,%rax,8), %rsi
	movq	$0, 16(%rcx,%rax,8)
	movq	%rsi, 8(%rdx,%rax,8)
	addq	$2, %rax
	cmpq	%rax, %r12
	jne	17b
	jmp	21f
18:
	movq	16(%rdi), %rsi
	movq	%rcx, %rdx
	subq	%rsi, %rdx
	cmpq	%rdx, %r15
	jbe	11b
	addq	%rsi, %r15
	jb	12b
	movq	%r15, %rdx
	shrq	$60, %rdx
	jne	12b
	movq	%rdi, %r14
	testq	%rcx, %rcx
	je	23f
	movq	(%rbx), %rdi
	shlq	$3, %rsi
	leaq	(,%r15,8), %rdx
	movl	$8, %ecx
	callq	rattle_realloc@PLT
	jmp	24f
19:
	movq	%r12, %rax
	andq	$-4, %rax
	xorl	%esi, %esi
20:
	movups	8(%rcx,%rsi,8), %xmm0
	movups	24(%rcx,%rsi,8), %xmm1
	xorps	%xmm2, %xmm2
	movups	%xmm2, 8(%rcx,%rsi,8)
	movups	%xmm2, 24(%rcx,%rsi,8)
	movups	%xmm0, (%rdx,%rsi,8)
	movups	%xmm1, 16(%rdx,%rsi,8)
	addq	$4, %rsi
	cmpq	%rsi, %rax
	jne	20b
	cmpq	%rax, %r12
	jne	15b
21:
	movq	72(%rcx), %rax
	testq	%rax, %rax
	je	22f
	shlq	$3, %rax
	movq	%rbx, %rdi
	xorl	%esi, %esi
	movq	%rdx, %rbx
	movq	%rax, %rdx
	callq	memset@PLT
	movq	%rbx, %rdx
	movq	%r15, %rcx
22:
	movq	8(%rcx), %rdi
	movq	24(%rcx), %rsi
	xorl	%eax, %eax
	cmpb	$0, (%rcx)
	movq	$1, (%rcx)
	movq	%rdx, 8(%rcx)
	movq	%r12, 16(%rcx)
	movq	%r14, 24(%rcx)
	xorps	%xmm0, %xmm0
	movups	%xmm0, 32(%rcx)
	movups	%xmm0, 48(%rcx)
	movups	%xmm0, 64(%rcx)
	je	12b
	testq	%rsi, %rsi
	jne	9b
	jmp	12b
23:
	leaq	(,%r15,8), %rdi
	movl	$8, %esi
	callq	rattle_alloc@PLT
24:
	testb	$1, %al
	movb	$1, %al
	je	12b
	movq	%rdx, 8(%r14)
	movq	%r15, 24(%r14)
	jmp	11b
25:
	.size	"smallvec::small_vec::SmallVec::reserve_one::<#1d7ca747d7f7d6e4>", 25b-"smallvec::small_vec::SmallVec::reserve_one::<#1d7ca747d7f7d6e4>"

	.section	.text.unlikely,"ax",@progbits
	.p2align	4
	.type	"smallvec::small_vec::SmallVec::reserve_one::<#bc37e6e66b18402c>",@function
"smallvec::small_vec::SmallVec::reserve_one::<#bc37e6e66b18402c>":
	movzbl	(%rdi), %edx
	xorl	%eax, %eax
	testb	%dl, %dl
	sete	%al
	movq	16(%rdi,%rax,8), %rsi
	je	1f
	movq	24(%rdi), %rax
	jmp	2f
1:
	movl	$4, %eax
2:
	pushq	%r15
	pushq	%r14
	pushq	%r13
	pushq	%r12
	pushq	%rbx
	subq	$80, %rsp
	cmpq	%rsi, %rax
	jne	10f
	movb	$1, %al
	testq	%rsi, %rsi
	js	11f
	je	3f
	bsrq	%rsi, %rcx
	incq	%rcx
	movl	$1, %r12d
	shlq	%cl, %r12
	movq	%r12, %r14
	subq	%rsi, %r14
	jb	10f
	cmpq	$3, %rsi
	ja	4f
3:
	cmpb	$1, %dl
	jne	10f
	movq	8(%rdi), %rax
	movq	16(%rdi), %rdx
	movq	24(%rdi), %rcx
	leaq	12(%rsp), %rsi
	movq	%rsi, 8(%rdi)
	xorps	%xmm0, %xmm0
	movups	%xmm0, 16(%rdi)
	movaps	%xmm0, 16(%rsp)
	movq	$0, 32(%rsp)
	testq	%rdx, %rdx
	je	8f
	cmpq	$1, %rdx
	jne	5f
	xorl	%esi, %esi
	jmp	7f
4:
	leaq	8(%rdi), %rbx
	testb	%dl, %dl
	je	12f
	movq	24(%rdi), %rcx
	cmpq	%rcx, %r12
	jae	17f
	movq	16(%rdi), %rsi
	cmpq	%r12, %rsi
	cmovaq	%rsi, %r12
	cmpq	%rcx, %rsi
	jae	10f
	movq	%rdi, %r14
	movq	(%rbx), %rdi
	shlq	$2, %rsi
	leaq	(,%r12,4), %rdx
	movl	$4, %ecx
	callq	rattle_realloc@PLT
	testb	$1, %al
	je	10f
	movq	%rdx, 8(%r14)
	movq	%r12, 24(%r14)
	jmp	10f
5:
	movq	%rdx, %r8
	andq	$-2, %r8
	xorl	%esi, %esi
	.p2align	4
6:
	leaq	1(%rsi), %r9
	movl	(%rax,%rsi,4), %r10d
	movl	%r10d, 16(%rsp,%rsi,4)
	movq	%r9, 32(%rsp)
	movl	4(%rax,%rsi,4), %r9d
	movl	%r9d, 20(%rsp,%rsi,4)
	addq	$2, %rsi
	movq	%rsi, 32(%rsp)
	cmpq	%rsi, %r8
	jne	6b
	testb	$1, %dl
	je	8f
7:
	leaq	1(%rsi), %rdx
	movl	(%rax,%rsi,4), %r8d
	movl	%r8d, 16(%rsp,%rsi,4)
	movq	%rdx, 32(%rsp)
8:
	leaq	8(%rdi), %rbx
	testq	%rcx, %rcx
	je	9f
	movq	%rdi, %r14
	movq	%rax, %rdi
	callq	rattle_dealloc@PLT
	movq	8(%r14), %rdi
	movq	24(%r14), %rax
	cmpb	$0, (%r14)
	movq	32(%rsp), %rcx
	movq	%rcx, 64(%rsp)
	movaps	16(%rsp), %xmm0
	movaps	%xmm0, 48(%rsp)
	movq	$0, (%r14)
	movq	64(%rsp), %rcx
	movq	%rcx, 16(%rbx)
	movaps	48(%rsp), %xmm0
	movups	%xmm0, (%rbx)
	je	10f
	testq	%rax, %rax
	je	10f
	callq	rattle_dealloc@PLT
	jmp	10f
9:
	movq	32(%rsp), %rax
	movq	%rax, 64(%rsp)
	movaps	16(%rsp), %xmm0
	movaps	%xmm0, 48(%rsp)
	movq	$0, (%rdi)
	movq	64(%rsp), %rax
	movq	%rax, 16(%rbx)
	movaps	48(%rsp), %xmm0
	movups	%xmm0, (%rbx)
10:
	xorl	%eax, %eax
11:
	addq	$80, %rsp
	popq	%rbx
	popq	%r12
	popq	%r13
	popq	%r14
	popq	%r15
	retq
12:
	shrq	$60, %rsi
	jne	11b
	movq	%rdi, %r13
	movl	$4, %edi
	shlq	%cl, %rdi
	movl	$4, %esi
	callq	rattle_alloc@PLT
	movq	%rax, %rcx
	movb	$1, %al
	testb	$1, %cl
	je	11b
	movq	%rdx, %r14
	movq	24(%r13), %r15
	movq	%rbx, %rdi
	movq	%r15, %rsi
	movq	%r15, %rdx
	callq	"arrayvec::array_vec::move_to_end::<i32>"
	movq	%r13, %rax
	testq	%r15, %r15
	je	20f
	cmpq	$12, %r15
	jb	13f
	leaq	(%r14,%r15,4), %rcx
	cmpq	%rcx, %rbx
	jae	18f
	leaq	(%rax,%r15,4), %rcx
	addq	$8, %rcx
	cmpq	%r14, %rcx
	jbe	18f
13:
	xorl	%ecx, %ecx
14:
	movq	%rcx, %rdx
	orq	$1, %rdx
	testb	$1, %r15b
	je	15f
	movl	(%rbx,%rcx,4), %esi
	movl	$0, (%rbx,%rcx,4)
	movl	%esi, (%r14,%rcx,4)
	movq	%rdx, %rcx
15:
	cmpq	%rdx, %r15
	je	20f
16:
	movl	8(%rax,%rcx,4), %edx
	movl	$0, 8(%rax,%rcx,4)
	movl	%edx, (%r14,%rcx,4)
	movl	12(%rax,%rcx,4), %edx
	movl	$0, 12(%rax,%rcx,4)
	movl	%edx, 4(%r14,%rcx,4)
	addq	$2, %rcx
	cmpq	%rcx, %r15
	jne	16b
	jmp	20f
17:
	movq	16(%rdi), %rsi
	movq	%rcx, %rdx
	subq	%rsi, %rdx
	cmpq	%rdx, %r14
	jbe	10b
	addq	%rsi, %r14
	jb	11b
	movq	%r14, %rdx
	shrq	$61, %rdx
	jne	11b
	movq	%rdi, %r15
	testq	%rcx, %rcx
	je	22f
	movq	(%rbx), %rdi
	shlq	$2, %rsi
	leaq	(,%r14,4), %rdx
	movl	$4, %ecx
	callq	rattle_realloc@PLT
	jmp	23f
18:
	movq	%r15, %rcx
	andq	$-8, %rcx
	xorl	%edx, %edx
19:
	movups	8(%rax,%rdx,4), %xmm0
	movups	24(%rax,%rdx,4), %xmm1
	xorps	%xmm2, %xmm2
	movups	%xmm2, 8(%rax,%rdx,4)
	movups	%xmm2, 24(%rax,%rdx,4)
	movups	%xmm0, (%r14,%rdx,4)
	movups	%xmm1, 16(%r14,%rdx,4)
	addq	$8, %rdx
	cmpq	%rdx, %rcx
	jne	19b
	cmpq	%rcx, %r15
	jne	14b
20:
	movq	24(%rax), %rdx
	testq	%rdx, %rdx
	je	21f
	shlq	$2, %rdx
	movq	%rbx, %rdi
	xorl	%esi, %esi
	callq	memset@PLT
	movq	%r13, %rax
21:
	movq	$1, (%rax)
	movq	%r14, 8(%rax)
	movq	%r15, 16(%rax)
	movq	%r12, 24(%rax)
	jmp	10b
22:
	leaq	(,%r14,4), %rdi
	movl	$4, %esi
	callq	rattle_alloc@PLT
23:
	testb	$1, %al
	movb	$1, %al
	je	11b
	movq	%rdx, 8(%r15)
	movq	%r14, 24(%r15)
	jmp	10b
24:
	.size	"smallvec::small_vec::SmallVec::reserve_one::<#bc37e6e66b18402c>", 24b-"smallvec::small_vec::SmallVec::reserve_one::<#bc37e6e66b18402c>"

	.section	.text.unlikely,"ax",@progbits
	.p2align	4
	.type	"smallvec::small_vec::SmallVec::reserve_one::<#c56eefbaea896dc3>",@function
"smallvec::small_vec::SmallVec::reserve_one::<#c56eefbaea896dc3>":
	movzbl	(%rdi), %edx
	leaq	16(%rdi), %rax
	leaq	40(%rdi), %rcx
	testb	%dl, %dl
	cmoveq	%rcx, %rax
	movq	(%rax), %rsi
	je	1f
	movq	24(%rdi), %rax
	jmp	2f
1:
	movl	$4, %eax
2:
	pushq	%r15
	pushq	%r14
	pushq	%r12
	pushq	%rbx
	subq	$104, %rsp
	cmpq	%rsi, %rax
	jne	11f
	movb	$1, %al
	testq	%rsi, %rsi
	js	12f
	je	3f
	bsrq	%rsi, %rcx
	incq	%rcx
	movl	$1, %r14d
	shlq	%cl, %r14
	movq	%r14, %r15
	subq	%rsi, %r15
	jb	11f
	cmpq	$3, %rsi
	ja	4f
3:
	cmpb	$1, %dl
	jne	11f
	movq	8(%rdi), %rax
	movq	16(%rdi), %rdx
	movq	24(%rdi), %rcx
	leaq	12(%rsp), %rsi
	movq	%rsi, 8(%rdi)
	xorps	%xmm0, %xmm0
	movups	%xmm0, 16(%rdi)
	movaps	%xmm0, 32(%rsp)
	movaps	%xmm0, 16(%rsp)
	movq	$0, 48(%rsp)
	testq	%rdx, %rdx
	je	8f
	cmpq	$1, %rdx
	jne	5f
	xorl	%esi, %esi
	jmp	7f
4:
	leaq	8(%rdi), %rbx
	testb	%dl, %dl
	je	13f
	movq	24(%rdi), %rcx
	cmpq	%rcx, %r14
	jae	18f
	movq	16(%rdi), %rsi
	cmpq	%r14, %rsi
	cmovaq	%rsi, %r14
	cmpq	%rcx, %rsi
	jae	11f
	movq	%rdi, %r15
	movq	(%rbx), %rdi
	shlq	$3, %rsi
	leaq	(,%r14,8), %rdx
	movl	$4, %ecx
	callq	rattle_realloc@PLT
	testb	$1, %al
	je	11f
	movq	%rdx, 8(%r15)
	movq	%r14, 24(%r15)
	jmp	11f
5:
	movq	%rdx, %r8
	andq	$-2, %r8
	xorl	%esi, %esi
	.p2align	4
6:
	leaq	1(%rsi), %r9
	movq	(%rax,%rsi,8), %r10
	movq	%r10, 16(%rsp,%rsi,8)
	movq	%r9, 48(%rsp)
	movq	8(%rax,%rsi,8), %r9
	movq	%r9, 24(%rsp,%rsi,8)
	addq	$2, %rsi
	movq	%rsi, 48(%rsp)
	cmpq	%rsi, %r8
	jne	6b
	testb	$1, %dl
	je	8f
7:
	leaq	1(%rsi), %rdx
	movq	(%rax,%rsi,8), %r8
	movq	%r8, 16(%rsp,%rsi,8)
	movq	%rdx, 48(%rsp)
8:
	leaq	8(%rdi), %rbx
	testq	%rcx, %rcx
	je	10f
	movq	%rdi, %r14
	movq	%rax, %rdi
	callq	rattle_dealloc@PLT
	movq	8(%r14), %rdi
	movq	24(%r14), %rax
	cmpb	$0, (%r14)
	movq	48(%rsp), %rcx
	movq	%rcx, 96(%rsp)
	movaps	16(%rsp), %xmm0
	movaps	32(%rsp), %xmm1
	movaps	%xmm1, 80(%rsp)
	movaps	%xmm0, 64(%rsp)
	movq	$0, (%r14)
	movq	96(%rsp), %rcx
	movq	%rcx, 32(%rbx)
	movaps	64(%rsp), %xmm0
	movaps	80(%rsp), %xmm1
	movups	%xmm1, 16(%rbx)
	movups	%xmm0, (%rbx)
	je	11f
	testq	%rax, %rax
	je	11f
9:
	callq	rattle_dealloc@PLT
	jmp	11f
10:
	movq	48(%rsp), %rax
	movq	%rax, 96(%rsp)
	movaps	16(%rsp), %xmm0
	movaps	32(%rsp), %xmm1
	movaps	%xmm1, 80(%rsp)
	movaps	%xmm0, 64(%rsp)
	movq	$0, (%rdi)
	movq	96(%rsp), %rax
	movq	%rax, 32(%rbx)
	movaps	64(%rsp), %xmm0
	movaps	80(%rsp), %xmm1
	movups	%xmm1, 16(%rbx)
	movups	%xmm0, (%rbx)
11:
	xorl	%eax, %eax
12:
	addq	$104, %rsp
	popq	%rbx
	popq	%r12
	popq	%r14
	popq	%r15
	retq
13:
	shrq	$59, %rsi
	jne	12b
	movq	%rdi, %r15
	movl	$8, %edi
	shlq	%cl, %rdi
	movl	$4, %esi
	callq	rattle_alloc@PLT
	movq	%rax, %rcx
	movb	$1, %al
	testb	$1, %cl
	je	12b
	movq	%r15, %rcx
	movq	40(%r15), %r12
	testq	%r12, %r12
	je	22f
	cmpq	$10, %r12
	jb	14f
	leaq	(%rdx,%r12,8), %rax
	cmpq	%rax, %rbx
	jae	19f
	leaq	(%rcx,%r12,8), %rax
	addq	$8, %rax
	cmpq	%rdx, %rax
	jbe	19f
14:
	xorl	%eax, %eax
15:
	movq	%rax, %rsi
	orq	$1, %rsi
	testb	$1, %r12b
	je	16f
	movq	(%rbx,%rax,8), %rdi
	movq	$0, (%rbx,%rax,8)
	movq	%rdi, (%rdx,%rax,8)
	movq	%rsi, %rax
16:
	cmpq	%rsi, %r12
	je	21f
17:
	movq	8(%rcx,%rax,8), %rsi
	movq	$0, 8(%rcx,%rax,8)
	movq	%rsi, (%rdx,%rax,8)
	movq	16(%rcx,%rax,8), %rsi
	movq	$0, 16(%rcx,%rax,8)
	movq	%rsi, 8(%rdx,%rax,8)
	addq	$2, %rax
	cmpq	%rax, %r12
	jne	17b
	jmp	21f
18:
	movq	16(%rdi), %rsi
	movq	%rcx, %rdx
	subq	%rsi, %rdx
	cmpq	%rdx, %r15
	jbe	11b
	addq	%rsi, %r15
	jb	12b
	movq	%r15, %rdx
	shrq	$60, %rdx
	jne	12b
	movq	%rdi, %r14
	testq	%rcx, %rcx
	je	23f
	movq	(%rbx), %rdi
	shlq	$3, %rsi
	leaq	(,%r15,8), %rdx
	movl	$4, %ecx
	callq	rattle_realloc@PLT
	jmp	24f
19:
	movq	%r12, %rax
	andq	$-4, %rax
	xorl	%esi, %esi
20:
	movups	8(%rcx,%rsi,8), %xmm0
	movups	24(%rcx,%rsi,8), %xmm1
	xorps	%xmm2, %xmm2
	movups	%xmm2, 8(%rcx,%rsi,8)
	movups	%xmm2, 24(%rcx,%rsi,8)
	movups	%xmm0, (%rdx,%rsi,8)
	movups	%xmm1, 16(%rdx,%rsi,8)
	addq	$4, %rsi
	cmpq	%rsi, %rax
	jne	20b
	cmpq	%rax, %r12
	jne	15b
21:
	movq	40(%rcx), %rax
	testq	%rax, %rax
	je	22f
	shlq	$3, %rax
	movq	%rbx, %rdi
	xorl	%esi, %esi
	movq	%rdx, %rbx
	movq	%rax, %rdx
	callq	memset@PLT
	movq	%rbx, %rdx
	movq	%r15, %rcx
22:
	movq	8(%rcx), %rdi
	movq	24(%rcx), %rsi
	xorl	%eax, %eax
	cmpb	$0, (%rcx)
	movq	$1, (%rcx)
	movq	%rdx, 8(%rcx)
	movq	%r12, 16(%rcx)
	movq	%r14, 24(%rcx)
	xorps	%xmm0, %xmm0
	movups	%xmm0, 32(%rcx)
	je	12b
	testq	%rsi, %rsi
	jne	9b
	jmp	12b
23:
	leaq	(,%r15,8), %rdi
	movl	$4, %esi
	callq	rattle_alloc@PLT
24:
	testb	$1, %al
	movb	$1, %al
	je	12b
	movq	%rdx, 8(%r14)
	movq	%r15, 24(%r14)
	jmp	11b
25:
	.size	"smallvec::small_vec::SmallVec::reserve_one::<#c56eefbaea896dc3>", 25b-"smallvec::small_vec::SmallVec::reserve_one::<#c56eefbaea896dc3>"
