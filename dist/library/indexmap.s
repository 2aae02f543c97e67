# Made by dist/refresh of what is proved.

	.text
	.p2align	4
	.type	"indexmap::index_table::IndexTable::reserve_rehash::<#2baac0ee970893ec>",@function
"indexmap::index_table::IndexTable::reserve_rehash::<#2baac0ee970893ec>":
	pushq	%rbp
	pushq	%r15
	pushq	%r14
	pushq	%r13
	pushq	%r12
	pushq	%rbx
	pushq	%rax
	movl	$4294967295, %r12d
	movq	32(%rdi), %r15
	leaq	-1879048191(%r12), %rcx
	movb	$1, %al
	cmpq	%rcx, %r15
	je	11f
	movq	8(%rdi), %r14
	leaq	(%r14,%r14,8), %r13
	leaq	1(%r15), %rcx
	movq	%r13, %rdx
	shrq	%rdx
	cmpq	%rdx, %rcx
	seta	%dl
	cmpq	$268435456, %r14
	setne	%sil
	testb	%dl, %sil
	jne	5f
	movq	(%rdi), %rbx
	movq	24(%rdi), %rbp
	testq	%r14, %r14
	je	1f
	movq	%r14, %rdx
	shlq	$6, %rdx
	movq	%rdi, (%rsp)
	movq	%rbx, %rdi
	xorl	%esi, %esi
	callq	memset@PLT
	movq	(%rsp), %rdi
1:
	testq	%r15, %r15
	je	9f
	addq	%r14, %r12
	decq	%r14
	xorl	%eax, %eax
	jmp	3f
	.p2align	4
2:
	rep		bsfl	%r10d, %r8d
	movb	%cl, (%r9,%r8)
	movl	%eax, 16(%r9,%r8,4)
	shll	$4, %esi
	orl	%r8d, %esi
	movl	%edx, (%rbp,%rax,8)
	movl	%esi, 4(%rbp,%rax,8)
	incq	%rax
	cmpq	%r15, %rax
	je	9f
3:
	movl	(%rbp,%rax,8), %edx
	movl	%r12d, %esi
	andl	%edx, %esi
	movl	%edx, %ecx
	shrl	$24, %ecx
	cmpb	$1, %cl
	adcl	$0, %ecx
	movl	$1, %r8d
	shll	%cl, %r8d
	.p2align	4
4:
	movq	%rsi, %r10
	shlq	$6, %r10
	leaq	(%rbx,%r10), %r9
	movdqu	(%rbx,%r10), %xmm0
	pxor	%xmm1, %xmm1
	pcmpeqb	%xmm0, %xmm1
	pmovmskb	%xmm1, %r10d
	andl	$4095, %r10d
	jne	2b
	orl	%r8d, 12(%r9)
	incq	%rsi
	andq	%r14, %rsi
	jmp	4b
5:
	incq	%r13
	cmpq	%rcx, %r13
	cmovbeq	%rcx, %r13
	movl	$1, %ecx
	.p2align	4
6:
	movq	%rcx, %rbx
	leaq	(%rcx,%rcx,8), %rbp
	addq	%rcx, %rcx
	cmpq	%r13, %rbp
	jb	6b
	movq	%rbp, %r13
	subq	%r15, %r13
	movq	40(%rdi), %rcx
	movq	%rcx, %rdx
	subq	%r15, %rdx
	cmpq	%rdx, %r13
	jbe	8f
	movq	%r15, %rdx
	notq	%rdx
	cmpq	%rdx, %r13
	seta	%dl
	movq	%rbp, %rsi
	shrq	$60, %rsi
	setne	%sil
	orb	%dl, %sil
	jne	11f
	testq	%rcx, %rcx
	je	22f
	movq	%rdi, %r14
	movq	24(%rdi), %rdi
	shlq	$3, %r15
	leaq	(,%rbx,8), %rax
	leaq	(%rax,%rax,8), %rdx
	movl	$4, %ecx
	movq	%r15, %rsi
	callq	rattle_realloc@PLT
	testb	$1, %al
	je	23f
7:
	movq	%r14, %rdi
	movq	%rdx, 24(%r14)
	movq	%rbp, 40(%r14)
	movq	8(%r14), %r14
	movb	$1, %al
8:
	xorl	%r15d, %r15d
	movq	%rbx, %rcx
	subq	%r14, %rcx
	cmovaeq	%rcx, %r15
	movq	16(%rdi), %rcx
	movq	%rcx, %rdx
	subq	%r14, %rdx
	cmpq	%rdx, %r15
	jbe	12f
	addq	%r14, %r15
	jb	11f
	movq	%r15, %rdx
	shrq	$57, %rdx
	jne	11f
	testq	%rcx, %rcx
	je	24f
	movq	%rdi, %rbp
	movq	(%rdi), %rdi
	shlq	$6, %r14
	movq	%r15, %rdx
	shlq	$6, %rdx
	movl	$4, %ecx
	movq	%r14, %rsi
	callq	rattle_realloc@PLT
	jmp	25f
9:
	subq	%r15, %r13
10:
	movq	%r13, 48(%rdi)
	xorl	%eax, %eax
11:
	addq	$8, %rsp
	popq	%rbx
	popq	%r12
	popq	%r13
	popq	%r14
	popq	%r15
	popq	%rbp
	retq
12:
	movq	%rcx, %r15
	testq	%r14, %r14
	je	14f
13:
	movq	$0, 8(%rdi)
14:
	testq	%rbx, %rbx
	je	17f
	cmpq	%r15, %rbx
	ja	26f
	xorl	%eax, %eax
	leaq	(%rax,%rbx), %rbp
	movq	(%rdi), %r14
	cmpq	%rbp, %rax
	jae	16f
15:
	shlq	$6, %rax
	addq	%r14, %rax
	shlq	$6, %rbx
	movq	%rdi, (%rsp)
	movq	%rax, %rdi
	xorl	%esi, %esi
	movq	%rbx, %rdx
	callq	memset@PLT
	movq	(%rsp), %rdi
16:
	movq	%r14, (%rdi)
	movq	%rbp, 8(%rdi)
	movq	%r15, 16(%rdi)
	movq	32(%rdi), %rax
	testq	%rax, %rax
	jne	18f
	jmp	10b
17:
	movq	(%rdi), %r14
	xorl	%ebp, %ebp
	movq	32(%rdi), %rax
	testq	%rax, %rax
	je	10b
18:
	movq	24(%rdi), %rdx
	addq	%rbp, %r12
	decq	%rbp
	xorl	%esi, %esi
	jmp	20f
	.p2align	4
19:
	rep		bsfl	%ebx, %r10d
	movb	%cl, (%r11,%r10)
	movl	%esi, 16(%r11,%r10,4)
	shll	$4, %r9d
	orl	%r10d, %r9d
	movl	%r8d, (%rdx,%rsi,8)
	movl	%r9d, 4(%rdx,%rsi,8)
	incq	%rsi
	cmpq	%rax, %rsi
	je	10b
20:
	movl	(%rdx,%rsi,8), %r8d
	movl	%r12d, %r9d
	andl	%r8d, %r9d
	movl	%r8d, %ecx
	shrl	$24, %ecx
	cmpb	$1, %cl
	adcl	$0, %ecx
	movl	$1, %r10d
	shll	%cl, %r10d
	.p2align	4
21:
	movq	%r9, %rbx
	shlq	$6, %rbx
	leaq	(%r14,%rbx), %r11
	movdqu	(%r14,%rbx), %xmm0
	pxor	%xmm1, %xmm1
	pcmpeqb	%xmm0, %xmm1
	pmovmskb	%xmm1, %ebx
	andl	$4095, %ebx
	jne	19b
	orl	%r10d, 12(%r11)
	incq	%r9
	andq	%rbp, %r9
	jmp	21b
22:
	movq	%rdi, %r14
	leaq	(,%rbx,8), %rax
	leaq	(%rax,%rax,8), %rdi
	movl	$4, %esi
	callq	rattle_alloc@PLT
	testb	$1, %al
	jne	7b
23:
	movb	$1, %al
	jmp	11b
24:
	movq	%rdi, %rbp
	movq	%r15, %rdi
	shlq	$6, %rdi
	movl	$4, %esi
	callq	rattle_alloc@PLT
25:
	testb	$1, %al
	movb	$1, %al
	je	11b
	movq	%rbp, %rdi
	movq	%rdx, (%rbp)
	movq	%r15, 16(%rbp)
	movq	8(%rbp), %r14
	testq	%r14, %r14
	jne	13b
	jmp	14b
26:
	movq	%rdi, %r14
	movq	%rbx, %rsi
	callq	"std_alloc::vec::Vec::grow_amortized::<#621ce3d0792088ae>"
	testb	%al, %al
	je	27f
	movq	%r14, %rdi
	movq	8(%r14), %rax
	movq	16(%r14), %r15
	leaq	(%rax,%rbx), %rbp
	movq	(%rdi), %r14
	cmpq	%rbp, %rax
	jb	15b
	jmp	16b
27:
	ud2
28:
	.size	"indexmap::index_table::IndexTable::reserve_rehash::<#2baac0ee970893ec>", 28b-"indexmap::index_table::IndexTable::reserve_rehash::<#2baac0ee970893ec>"

	.text
	.p2align	4
	.type	"indexmap::map::IndexMap::grow::<#75e4f0f0dae3feaa>",@function
"indexmap::map::IndexMap::grow::<#75e4f0f0dae3feaa>":
	pushq	%r15
	pushq	%r14
	pushq	%rbx
	movq	%rdi, %rbx
	movq	96(%rdi), %r14
	testq	%r14, %r14
	jne	1f
	leaq	48(%rbx), %rdi
	callq	"indexmap::index_table::IndexTable::reserve_rehash::<#2baac0ee970893ec>"
	movl	%eax, %ecx
	movb	$1, %al
	testb	%cl, %cl
	jne	2f
	movq	96(%rbx), %r14
1:
	movq	8(%rbx), %rsi
	movq	16(%rbx), %rcx
	movq	%rcx, %rax
	subq	%rsi, %rax
	cmpq	%rax, %r14
	jbe	5f
	movq	%rsi, %r15
	movb	$1, %al
	addq	%r14, %r15
	jb	2f
	movq	%r15, %rdx
	shrq	$59, %rdx
	jne	2f
	testq	%rcx, %rcx
	je	3f
	movq	(%rbx), %rdi
	shlq	$4, %rsi
	movq	%r15, %rdx
	shlq	$4, %rdx
	movl	$8, %ecx
	callq	rattle_realloc@PLT
	testb	$1, %al
	movb	$1, %al
	jne	4f
2:
	popq	%rbx
	popq	%r14
	popq	%r15
	retq
3:
	movq	%r15, %rdi
	shlq	$4, %rdi
	movl	$8, %esi
	callq	rattle_alloc@PLT
	testb	$1, %al
	movb	$1, %al
	je	2b
4:
	movq	%rdx, (%rbx)
	movq	%r15, 16(%rbx)
5:
	movq	32(%rbx), %rcx
	movq	40(%rbx), %rdx
	movq	%rdx, %rax
	subq	%rcx, %rax
	cmpq	%rax, %r14
	jbe	8f
	movb	$1, %al
	addq	%rcx, %r14
	jb	2b
	movabsq	$384307168202282325, %rsi
	cmpq	%rsi, %r14
	ja	2b
	testq	%rdx, %rdx
	je	6f
	movq	24(%rbx), %rdi
	shlq	$3, %rcx
	leaq	(%rcx,%rcx,2), %rsi
	leaq	(,%r14,8), %rax
	leaq	(%rax,%rax,2), %rdx
	movl	$8, %ecx
	callq	rattle_realloc@PLT
	testb	$1, %al
	movb	$1, %al
	je	2b
	jmp	7f
6:
	leaq	(,%r14,8), %rax
	leaq	(%rax,%rax,2), %rdi
	movl	$8, %esi
	callq	rattle_alloc@PLT
	testb	$1, %al
	movb	$1, %al
	je	2b
7:
	movq	%rdx, 24(%rbx)
	movq	%r14, 40(%rbx)
8:
	xorl	%eax, %eax
	popq	%rbx
	popq	%r14
	popq	%r15
	retq
9:
	.size	"indexmap::map::IndexMap::grow::<#75e4f0f0dae3feaa>", 9b-"indexmap::map::IndexMap::grow::<#75e4f0f0dae3feaa>"

	.text
	.p2align	4
	.type	"indexmap::map::IndexMap::grow::<#b179f2375b12a751>",@function
"indexmap::map::IndexMap::grow::<#b179f2375b12a751>":
	pushq	%r15
	pushq	%r14
	pushq	%rbx
	movq	%rdi, %rbx
	movq	96(%rdi), %r14
	testq	%r14, %r14
	jne	1f
	leaq	48(%rbx), %rdi
	callq	"indexmap::index_table::IndexTable::reserve_rehash::<#2baac0ee970893ec>"
	movl	%eax, %ecx
	movb	$1, %al
	testb	%cl, %cl
	jne	2f
	movq	96(%rbx), %r14
1:
	movq	8(%rbx), %rsi
	movq	16(%rbx), %rcx
	movq	%rcx, %rax
	subq	%rsi, %rax
	cmpq	%rax, %r14
	jbe	5f
	movq	%rsi, %r15
	movb	$1, %al
	addq	%r14, %r15
	jb	2f
	movq	%r15, %rdx
	shrq	$59, %rdx
	jne	2f
	testq	%rcx, %rcx
	je	3f
	movq	(%rbx), %rdi
	shlq	$4, %rsi
	movq	%r15, %rdx
	shlq	$4, %rdx
	movl	$8, %ecx
	callq	rattle_realloc@PLT
	testb	$1, %al
	movb	$1, %al
	jne	4f
2:
	popq	%rbx
	popq	%r14
	popq	%r15
	retq
3:
	movq	%r15, %rdi
	shlq	$4, %rdi
	movl	$8, %esi
	callq	rattle_alloc@PLT
	testb	$1, %al
	movb	$1, %al
	je	2b
4:
	movq	%rdx, (%rbx)
	movq	%r15, 16(%rbx)
5:
	movq	32(%rbx), %rsi
	movq	40(%rbx), %rcx
	movq	%rcx, %rax
	subq	%rsi, %rax
	cmpq	%rax, %r14
	jbe	8f
	movb	$1, %al
	addq	%rsi, %r14
	jb	2b
	movq	%r14, %rdx
	shrq	$59, %rdx
	jne	2b
	testq	%rcx, %rcx
	je	6f
	movq	24(%rbx), %rdi
	shlq	$4, %rsi
	movq	%r14, %rdx
	shlq	$4, %rdx
	movl	$8, %ecx
	callq	rattle_realloc@PLT
	testb	$1, %al
	movb	$1, %al
	je	2b
	jmp	7f
6:
	movq	%r14, %rdi
	shlq	$4, %rdi
	movl	$8, %esi
	callq	rattle_alloc@PLT
	testb	$1, %al
	movb	$1, %al
	je	2b
7:
	movq	%rdx, 24(%rbx)
	movq	%r14, 40(%rbx)
8:
	xorl	%eax, %eax
	popq	%rbx
	popq	%r14
	popq	%r15
	retq
9:
	.size	"indexmap::map::IndexMap::grow::<#b179f2375b12a751>", 9b-"indexmap::map::IndexMap::grow::<#b179f2375b12a751>"
