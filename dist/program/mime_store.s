# Made by dist/refresh of what is proved.

	.section	.rodata.cst16,"aM",@progbits,16
	.p2align	4, 0x0
1:
	.byte	3,2,1,0,7,6,5,4,11,10,9,8,15,14,13,12
	.text
	.p2align	4
	.type	"mime_store::bytes::append_list",@function
"mime_store::bytes::append_list":
	pushq	%rbp
	pushq	%r15
	pushq	%r14
	pushq	%r13
	pushq	%r12
	pushq	%rbx
	subq	$24, %rsp
	movq	%rdx, %rax
	movq	8(%rdi), %rdx
	movq	16(%rdi), %r13
	movq	%r13, %r8
	subq	%rdx, %r8
	movq	%rdx, %r14
	cmpq	$3, %r8
	jbe	16f
2:
	bswapl	%esi
	leaq	4(%r14), %r15
	movq	(%rdi), %r12
	movl	%esi, (%r12,%r14)
	movq	%r12, (%rdi)
	movq	%r15, 8(%rdi)
	movq	%r13, 16(%rdi)
	leaq	(%r14,%rcx,4), %rbp
	addq	$4, %rbp
	cmpq	%r15, %rbp
	jbe	5f
	leaq	(,%rcx,4), %rbx
	movq	%r13, %r8
	subq	%r15, %r8
	movq	%r15, %rsi
	cmpq	%r8, %rbx
	ja	17f
	cmpq	%rbp, %rsi
	jae	4f
3:
	addq	%r12, %rsi
	movq	%rdi, (%rsp)
	movq	%rsi, %rdi
	xorl	%esi, %esi
	movq	%rdx, 8(%rsp)
	movq	%rax, 16(%rsp)
	movq	%rbx, %rdx
	movq	%rcx, %rbx
	callq	memset@PLT
	movq	(%rsp), %rdi
	movq	16(%rsp), %rax
	movq	%rbx, %rcx
	movq	8(%rsp), %rdx
4:
	movq	%r12, (%rdi)
	movq	%rbp, 8(%rdi)
	movq	%r13, 16(%rdi)
	jmp	6f
5:
	jae	6f
	movq	%rbp, 8(%rdi)
6:
	testq	%rcx, %rcx
	je	14f
	cmpq	$8, %rcx
	jb	7f
	leaq	(%r14,%r12), %rsi
	subq	%rax, %rsi
	addq	$4, %rsi
	cmpq	$32, %rsi
	jae	12f
7:
	xorl	%esi, %esi
8:
	movq	%rcx, %r8
	movq	%rsi, %rdi
	andq	$3, %r8
	je	10f
	addq	%r12, %r15
	movq	%rsi, %rdi
	.p2align	4
9:
	movl	(%rax,%rdi,4), %r9d
	bswapl	%r9d
	movl	%r9d, (%r15,%rdi,4)
	incq	%rdi
	decq	%r8
	jne	9b
10:
	subq	%rcx, %rsi
	cmpq	$-4, %rsi
	ja	14f
	leaq	(%r14,%r12), %rsi
	addq	$16, %rsi
	.p2align	4
11:
	movl	(%rax,%rdi,4), %r8d
	bswapl	%r8d
	movl	%r8d, -12(%rsi,%rdi,4)
	movl	4(%rax,%rdi,4), %r8d
	bswapl	%r8d
	movl	%r8d, -8(%rsi,%rdi,4)
	movl	8(%rax,%rdi,4), %r8d
	bswapl	%r8d
	movl	%r8d, -4(%rsi,%rdi,4)
	movl	12(%rax,%rdi,4), %r8d
	bswapl	%r8d
	movl	%r8d, (%rsi,%rdi,4)
	addq	$4, %rdi
	cmpq	%rdi, %rcx
	jne	11b
	jmp	14f
12:
	movq	%rcx, %rsi
	andq	$-8, %rsi
	leaq	(%r14,%r12), %rdi
	addq	$20, %rdi
	xorl	%r8d, %r8d
	.p2align	4
13:
	movdqu	(%rax,%r8,4), %xmm0
	movdqu	16(%rax,%r8,4), %xmm1
	movdqa	1b(%rip), %xmm2
	pshufb	%xmm2, %xmm0
	pshufb	%xmm2, %xmm1
	movdqu	%xmm0, -16(%rdi,%r8,4)
	movdqu	%xmm1, (%rdi,%r8,4)
	addq	$8, %r8
	cmpq	%r8, %rsi
	jne	13b
	cmpq	%rsi, %rcx
	jne	8b
14:
	xorl	%eax, %eax
15:
	addq	$24, %rsp
	popq	%rbx
	popq	%r12
	popq	%r13
	popq	%r14
	popq	%r15
	popq	%rbp
	retq
16:
	movl	%esi, %ebx
	movq	%rax, %r15
	movq	%rcx, %r12
	movq	%rdx, %rbp
	movl	$4, %esi
	movq	%rdi, %r14
	callq	"std_alloc::vec::Vec::grow_amortized::<#06f9579a8fe94b13>"
	testb	%al, %al
	je	18f
	movq	%r14, %rdi
	movq	8(%r14), %r14
	movq	16(%rdi), %r13
	movq	%rbp, %rdx
	movq	%r12, %rcx
	movq	%r15, %rax
	movl	%ebx, %esi
	jmp	2b
17:
	movq	%rax, 16(%rsp)
	movq	%rcx, (%rsp)
	movq	%rdx, 8(%rsp)
	movq	%rdi, %r12
	movq	%rbx, %rsi
	callq	"std_alloc::vec::Vec::grow_amortized::<#06f9579a8fe94b13>"
	testb	%al, %al
	je	18f
	movq	%r12, %rdi
	movq	(%r12), %r12
	movq	8(%rdi), %rsi
	movq	16(%rdi), %r13
	leaq	(%rsi,%rbx), %rbp
	movq	8(%rsp), %rdx
	movq	(%rsp), %rcx
	movq	16(%rsp), %rax
	cmpq	%rbp, %rsi
	jb	3b
	jmp	4b
18:
	movb	$1, %al
	xorl	%edx, %edx
	jmp	15b
19:
	.size	"mime_store::bytes::append_list", 19b-"mime_store::bytes::append_list"

	.text
	.p2align	4
	.type	"mime_store::bytes::append_text",@function
"mime_store::bytes::append_text":
	pushq	%rbp
	pushq	%r15
	pushq	%r14
	pushq	%r13
	pushq	%r12
	pushq	%rbx
	pushq	%rax
	movq	%rdx, %r14
	movq	%rdi, %r15
	movq	8(%rdi), %rbx
	movq	16(%rdi), %rbp
	movq	%rbp, %rcx
	subq	%rbx, %rcx
	movq	%rbx, %rax
	cmpq	%rcx, %rdx
	ja	17f
1:
	leaq	8(%r15), %r10
	leaq	(%rax,%r14), %r13
	movq	(%r15), %r12
	xorps	%xmm0, %xmm0
	movups	%xmm0, (%r10)
	leaq	(%r12,%rax), %rdi
	movq	%rdi, %rcx
	subq	%rsi, %rcx
	cmpq	%r14, %rcx
	jae	7f
	cmpq	$4, %r14
	jb	2f
	cmpq	$32, %rcx
	jae	12f
2:
	xorl	%ecx, %ecx
3:
	movq	%r14, %r8
	movq	%rcx, %rdx
	andq	$3, %r8
	je	5f
	movq	%rcx, %rdx
	.p2align	4
4:
	movzbl	(%rsi,%rdx), %r9d
	movb	%r9b, (%rdi,%rdx)
	incq	%rdx
	decq	%r8
	jne	4b
5:
	subq	%r14, %rcx
	cmpq	$-4, %rcx
	ja	8f
	addq	%r12, %rax
	addq	$3, %rax
	.p2align	4
6:
	movzbl	(%rsi,%rdx), %ecx
	movb	%cl, -3(%rax,%rdx)
	movzbl	1(%rsi,%rdx), %ecx
	movb	%cl, -2(%rax,%rdx)
	movzbl	2(%rsi,%rdx), %ecx
	movb	%cl, -1(%rax,%rdx)
	movzbl	3(%rsi,%rdx), %ecx
	movb	%cl, (%rax,%rdx)
	addq	$4, %rdx
	cmpq	%rdx, %r14
	jne	6b
	jmp	8f
7:
	movq	%r14, %rdx
	callq	memmove@PLT
	leaq	8(%r15), %r10
8:
	movq	%r12, (%r15)
	movq	%r13, 8(%r15)
	movq	%rbp, 16(%r15)
	movq	%rbp, %rcx
	subq	%r13, %rcx
	movq	%r13, %rax
	cmpq	$3, %rcx
	jbe	18f
9:
	andl	$3, %r14d
	movl	$0, (%r12,%rax)
	addq	$4, %rax
	movq	%r12, (%r15)
	movq	%rax, 8(%r15)
	movq	%rbp, 16(%r15)
	subq	%r14, %r13
	addq	$4, %r13
	cmpq	%r13, %rax
	jbe	10f
	movq	%r13, (%r10)
10:
	xorl	%eax, %eax
11:
	movl	%ebx, %edx
	addq	$8, %rsp
	popq	%rbx
	popq	%r12
	popq	%r13
	popq	%r14
	popq	%r15
	popq	%rbp
	retq
12:
	cmpq	$32, %r14
	jae	13f
	xorl	%ecx, %ecx
	jmp	15f
13:
	movq	%r14, %rcx
	andq	$-32, %rcx
	leaq	(%rax,%r12), %rdx
	addq	$16, %rdx
	xorl	%r8d, %r8d
	.p2align	4
14:
	movups	(%rsi,%r8), %xmm0
	movups	16(%rsi,%r8), %xmm1
	movups	%xmm0, -16(%rdx,%r8)
	movups	%xmm1, (%rdx,%r8)
	addq	$32, %r8
	cmpq	%r8, %rcx
	jne	14b
	cmpq	%rcx, %r14
	je	8b
	testb	$28, %r14b
	je	3b
15:
	movq	%rcx, %rdx
	movq	%r14, %rcx
	andq	$-4, %rcx
	.p2align	4
16:
	movl	(%rsi,%rdx), %r8d
	movl	%r8d, (%rdi,%rdx)
	addq	$4, %rdx
	cmpq	%rdx, %rcx
	jne	16b
	cmpq	%rcx, %r14
	je	8b
	jmp	3b
17:
	movq	%rsi, %r12
	movq	%r15, %rdi
	movq	%r14, %rsi
	callq	"std_alloc::vec::Vec::grow_amortized::<#06f9579a8fe94b13>"
	testb	%al, %al
	je	19f
	movq	8(%r15), %rax
	movq	16(%r15), %rbp
	movq	%r12, %rsi
	jmp	1b
18:
	movl	$4, %esi
	movq	%r15, %rdi
	callq	"std_alloc::vec::Vec::grow_amortized::<#06f9579a8fe94b13>"
	testb	%al, %al
	je	19f
	movq	(%r15), %r12
	movq	8(%r15), %rax
	movq	16(%r15), %rbp
	leaq	8(%r15), %r10
	jmp	9b
19:
	movb	$1, %al
	xorl	%ebx, %ebx
	jmp	11b
20:
	.size	"mime_store::bytes::append_text", 20b-"mime_store::bytes::append_text"

	.text
	.p2align	4
	.type	"mime_store::bytes::patch",@function
"mime_store::bytes::patch":
	movl	(%rsi), %eax
	bswapl	%eax
	movl	%eax, (%rdi)
	movl	4(%rsi), %eax
	bswapl	%eax
	movl	%eax, 4(%rdi)
	movl	8(%rsi), %eax
	bswapl	%eax
	movl	%eax, 8(%rdi)
	movl	12(%rsi), %eax
	bswapl	%eax
	movl	%eax, 12(%rdi)
	movl	16(%rsi), %eax
	bswapl	%eax
	movl	%eax, 16(%rdi)
	movl	20(%rsi), %eax
	bswapl	%eax
	movl	%eax, 20(%rdi)
	movl	24(%rsi), %eax
	bswapl	%eax
	movl	%eax, 24(%rdi)
	movl	28(%rsi), %eax
	bswapl	%eax
	movl	%eax, 28(%rdi)
	movl	32(%rsi), %eax
	bswapl	%eax
	movl	%eax, 32(%rdi)
	movl	36(%rsi), %eax
	bswapl	%eax
	movl	%eax, 36(%rdi)
	retq
1:
	.size	"mime_store::bytes::patch", 1b-"mime_store::bytes::patch"

	.text
	.p2align	4
	.type	"mime_store::cache::size_within",@function
"mime_store::cache::size_within":
	pushq	%rbp
	pushq	%r15
	pushq	%r14
	pushq	%r13
	pushq	%r12
	pushq	%rbx
	subq	$24, %rsp
	movq	%rdx, %rax
	movq	8(%rsi), %r9
	testq	%r9, %r9
	je	2f
	movq	(%rsi), %r10
	addq	$24, %r10
	movl	$268435368, %edx
	.p2align	4
1:
	subq	$8, %rdx
	jb	28f
	movq	-16(%r10), %r11
	cmpq	%r11, %rdx
	jbe	28f
	movq	%r11, %r8
	orq	$-4, %r8
	subq	%r8, %r11
	xorl	%r8d, %r8d
	subq	%r11, %rdx
	cmovbq	%r8, %rdx
	jb	23f
	movq	(%r10), %r11
	cmpq	%r11, %rdx
	jbe	28f
	movq	%r11, %r8
	orq	$-4, %r8
	subq	%r8, %r11
	subq	%r11, %rdx
	jb	28f
	addq	$32, %r10
	decq	%r9
	jne	1b
	testq	%rcx, %rcx
	jne	3f
	jmp	7f
2:
	movl	$268435368, %edx
	testq	%rcx, %rcx
	je	7f
3:
	xorl	%r8d, %r8d
4:
	subq	$12, %rdx
	jb	28f
	movq	%r8, %r10
	shlq	$5, %r10
	movq	8(%rax,%r10), %r11
	cmpq	%r11, %rdx
	jbe	28f
	movq	%r11, %r9
	orq	$-4, %r9
	subq	%r9, %r11
	subq	%r11, %rdx
	jb	28f
	movq	24(%rax,%r10), %r9
	testq	%r9, %r9
	je	6f
	movq	16(%rax,%r10), %r10
	addq	$24, %r10
	.p2align	4
5:
	subq	$4, %rdx
	jb	28f
	movq	(%r10), %rbx
	cmpq	%rbx, %rdx
	jbe	28f
	movq	%rbx, %r11
	orq	$-4, %r11
	subq	%r11, %rbx
	subq	%rbx, %rdx
	jb	28f
	addq	$32, %r10
	decq	%r9
	jne	5b
6:
	incq	%r8
	cmpq	%rcx, %r8
	jne	4b
7:
	movq	56(%rsi), %rax
	testq	%rax, %rax
	je	10f
	movq	48(%rsi), %rcx
	addq	$24, %rcx
	.p2align	4
8:
	movq	%rdx, %r9
	subq	$12, %r9
	jb	28f
	movq	-16(%rcx), %r10
	cmpq	%r10, %r9
	jbe	28f
	movq	%r10, %rdx
	orq	$-4, %rdx
	subq	%rdx, %r10
	xorl	%r8d, %r8d
	movl	$0, %edx
	subq	%r10, %r9
	jb	9f
	movq	%r9, %rdx
9:
	jb	23f
	movq	(%rcx), %r10
	leaq	24(%r10), %r8
	leaq	48(%r10), %r9
	cmpb	$0, 8(%r10)
	cmoveq	%r9, %r8
	movq	(%r8), %r9
	cmpq	%r9, %rdx
	jbe	28f
	movq	%r9, %r8
	orq	$-4, %r8
	subq	%r8, %r9
	subq	%r9, %rdx
	jb	28f
	addq	$32, %rcx
	decq	%rax
	jne	8b
10:
	movq	%rdi, 8(%rsp)
	movq	80(%rsi), %rax
	testq	%rax, %rax
	je	20f
	movq	72(%rsi), %r12
	xorl	%r11d, %r11d
	xorl	%r9d, %r9d
	xorl	%r8d, %r8d
	movq	%rax, 16(%rsp)
	.p2align	4
11:
	leaq	(%r9,%r9,4), %rcx
	leaq	(%r12,%rcx,8), %r10
	testb	$1, %r11b
	je	15f
	movq	32(%r8), %rcx
	xorl	%edi, %edi
	cmpb	$0, 56(%rcx)
	sete	%dil
	movq	72(%rcx,%rdi,8), %rcx
	decq	%rcx
	movq	32(%r10), %r11
	movzbl	56(%r11), %ebx
	xorl	%edi, %edi
	testb	%bl, %bl
	sete	%dil
	movq	72(%r11,%rdi,8), %r14
	decq	%r14
	cmpq	%rcx, %r14
	cmovaeq	%rcx, %r14
	testq	%r14, %r14
	je	16f
	movq	%r12, %rax
	movq	%r14, %r12
	negq	%r12
	movq	$-8, %r13
	xorl	%ebp, %ebp
	jmp	14f
	.p2align	4
12:
	movq	8(%r8), %rcx
	addq	%r13, %rcx
	movq	8(%r10), %rdi
	addq	%r13, %rdi
	movzbl	(%rcx), %ecx
	cmpb	(%rdi), %cl
	jne	18f
13:
	incq	%rbp
	leaq	(%r12,%r13), %rcx
	incq	%rcx
	incq	%r13
	cmpq	$-8, %rcx
	je	17f
14:
	movq	%r13, %r15
	addq	$8, %r15
	jae	12b
	leaq	(%r8,%rbp), %rcx
	leaq	(%r10,%rbp), %rdi
	movzbl	(%rcx), %ecx
	cmpb	(%rdi), %cl
	je	13b
	jmp	18f
	.p2align	4
15:
	movq	32(%r10), %r11
	movzbl	56(%r11), %ebx
16:
	xorl	%r15d, %r15d
	jmp	19f
17:
	movq	%r14, %r15
18:
	movq	%rax, %r12
	movq	16(%rsp), %rax
19:
	xorl	%ecx, %ecx
	testb	%bl, %bl
	sete	%cl
	movq	72(%r11,%rcx,8), %rcx
	subq	%r15, %rcx
	shlq	$2, %rcx
	leaq	(%rcx,%rcx,2), %rcx
	xorl	%r8d, %r8d
	subq	%rcx, %rdx
	cmovbq	%r8, %rdx
	jb	23f
	leaq	24(%r11), %rcx
	leaq	48(%r11), %rdi
	cmpb	$0, 8(%r11)
	cmoveq	%rdi, %rcx
	movq	(%rcx), %rcx
	cmpq	%rcx, %rdx
	jbe	28f
	movq	%rcx, %rdi
	orq	$-4, %rdi
	subq	%rdi, %rcx
	subq	%rcx, %rdx
	jb	28f
	incq	%r9
	movb	$1, %r11b
	movq	%r10, %r8
	cmpq	%rax, %r9
	jne	11b
20:
	movq	104(%rsi), %rax
	testq	%rax, %rax
	je	24f
	movq	96(%rsi), %rcx
	addq	$24, %rcx
	movq	8(%rsp), %r10
21:
	movq	%rdx, %r9
	subq	$12, %r9
	jb	28f
	movq	-16(%rcx), %rdi
	cmpq	%rdi, %r9
	jbe	28f
	movq	%rdi, %rdx
	orq	$-4, %rdx
	subq	%rdx, %rdi
	xorl	%r8d, %r8d
	movl	$0, %edx
	subq	%rdi, %r9
	jb	22f
	movq	%r9, %rdx
22:
	jb	23f
	movq	(%rcx), %rdi
	leaq	24(%rdi), %r8
	leaq	48(%rdi), %r9
	cmpb	$0, 8(%rdi)
	cmoveq	%r9, %r8
	movq	(%r8), %rdi
	cmpq	%rdi, %rdx
	jbe	28f
	movq	%rdi, %r8
	orq	$-4, %r8
	subq	%r8, %rdi
	subq	%rdi, %rdx
	jb	28f
	addq	$32, %rcx
	decq	%rax
	jne	21b
	jmp	25f
23:
	xorl	%eax, %eax
	jmp	29f
24:
	movq	8(%rsp), %r10
25:
	movq	80(%r10), %r14
	testq	%r14, %r14
	movq	%rsi, %rbx
	je	27f
	movq	72(%r10), %r15
	addq	$64, %r15
26:
	subq	$16, %rdx
	jb	28f
	leaq	24(%r15), %rax
	leaq	48(%r15), %rcx
	cmpb	$0, -56(%r15)
	cmoveq	%rcx, %rax
	movq	-64(%rax), %rax
	cmpq	%rax, %rdx
	jbe	28f
	movq	%rax, %rcx
	orq	$-4, %rcx
	subq	%rcx, %rax
	subq	%rax, %rdx
	jb	28f
	movq	-8(%r15), %rsi
	movq	(%r15), %rax
	movq	%rdx, %rdi
	movq	%rax, %rdx
	callq	"mime_store::room::take_lines"
	cmpb	$1, %al
	jne	28f
	addq	$80, %r15
	decq	%r14
	movq	%rbx, %rsi
	jne	26b
27:
	movq	120(%rsi), %rax
	movq	128(%rsi), %rcx
	movq	%rdx, %rdi
	movq	%rax, %rsi
	movq	%rcx, %rdx
	callq	"mime_store::list::take_list::<#a1c591a832a2edc1>"
	cmpb	$1, %al
	jne	28f
	movq	144(%rbx), %rsi
	movq	152(%rbx), %rax
	movq	%rdx, %rdi
	movq	%rax, %rdx
	callq	"mime_store::list::take_list::<#a1c591a832a2edc1>"
	movl	$268435456, %ecx
	subq	%rdx, %rcx
	xorl	%r8d, %r8d
	cmpb	$1, %al
	sete	%al
	cmoveq	%rcx, %r8
	jmp	29f
28:
	xorl	%eax, %eax
	xorl	%r8d, %r8d
29:
	movq	%r8, %rdx
	addq	$24, %rsp
	popq	%rbx
	popq	%r12
	popq	%r13
	popq	%r14
	popq	%r15
	popq	%rbp
	retq
30:
	.size	"mime_store::cache::size_within", 30b-"mime_store::cache::size_within"

	.text
	.p2align	4
	.type	"mime_store::list::take_list::<#a1c591a832a2edc1>",@function
"mime_store::list::take_list::<#a1c591a832a2edc1>":
	movb	$1, %al
	testq	%rdx, %rdx
	je	2f
	addq	$24, %rsi
	.p2align	4
1:
	subq	$8, %rdi
	jb	3f
	movq	-16(%rsi), %r8
	cmpq	%r8, %rdi
	jbe	3f
	movq	%r8, %rcx
	orq	$-4, %rcx
	subq	%rcx, %r8
	xorl	%ecx, %ecx
	subq	%r8, %rdi
	cmovbq	%rcx, %rdi
	jb	4f
	movq	(%rsi), %rcx
	cmpq	%rcx, %rdi
	jbe	3f
	movq	%rcx, %r8
	orq	$-4, %r8
	subq	%r8, %rcx
	subq	%rcx, %rdi
	jb	3f
	addq	$32, %rsi
	decq	%rdx
	jne	1b
2:
	movq	%rdi, %rdx
	retq
3:
	xorl	%ecx, %ecx
4:
	xorl	%eax, %eax
	movq	%rcx, %rdx
	retq
5:
	.size	"mime_store::list::take_list::<#a1c591a832a2edc1>", 5b-"mime_store::list::take_list::<#a1c591a832a2edc1>"

	.text
	.p2align	4
	.type	"mime_store::list::write_list::<#a1c591a832a2edc1>",@function
"mime_store::list::write_list::<#a1c591a832a2edc1>":
	pushq	%rbp
	pushq	%r15
	pushq	%r14
	pushq	%r12
	pushq	%rbx
	subq	$112, %rsp
	movq	%rdx, %rbx
	movq	%rsi, %r15
	movq	%rdi, %r14
	leaq	(%rdx,%rdx), %r12
	testq	%rdx, %rdx
	movq	$-1, %rdi
	cmovnsq	%r12, %rdi
	xorl	%edx, %edx
	movl	$0, %ecx
	movl	$0, %eax
	cmpq	$5, %rdi
	jb	1f
	movq	%rdi, %rax
	shrq	$61, %rax
	jne	6f
	shlq	$2, %rdi
	movl	$4, %esi
	callq	rattle_alloc@PLT
	testb	$1, %al
	je	6f
	movl	$1, %eax
	movq	%r12, %rcx
1:
	movq	%rax, 8(%rsp)
	movq	%rdx, 16(%rsp)
	movq	$0, 24(%rsp)
	movq	%rcx, 32(%rsp)
	testq	%rbx, %rbx
	je	3f
	addq	$24, %r15
	movq	%rbx, %r12
	.p2align	4
2:
	movq	-24(%r15), %rsi
	movq	-16(%r15), %rdx
	movq	%r14, %rdi
	callq	"mime_store::bytes::append_text"
	testb	%al, %al
	jne	4f
	movl	%edx, %ebp
	movq	-8(%r15), %rsi
	movq	(%r15), %rdx
	movq	%r14, %rdi
	callq	"mime_store::bytes::append_text"
	testb	%al, %al
	jne	4f
	movl	%ebp, %eax
	shlq	$32, %rdx
	orq	%rax, %rdx
	movq	%rdx, 72(%rsp)
	leaq	8(%rsp), %rdi
	leaq	72(%rsp), %rsi
	movl	$2, %edx
	callq	"smallvec::small_vec::SmallVec::extend_from_slice::<#8f588e0f66f62309>"
	testb	%al, %al
	jne	4f
	addq	$32, %r15
	decq	%r12
	jne	2b
	movzbl	8(%rsp), %eax
3:
	leaq	16(%rsp), %rcx
	movq	16(%rcx), %rsi
	movq	%rsi, 96(%rsp)
	movups	(%rcx), %xmm0
	movaps	%xmm0, 80(%rsp)
	movzbl	%al, %r12d
	movq	%r12, 40(%rsp)
	leaq	48(%rsp), %rdx
	movups	%xmm0, 48(%rsp)
	movq	%rsi, 64(%rsp)
	testb	%r12b, %r12b
	movq	48(%rsp), %r15
	cmovneq	%r15, %rdx
	leaq	64(%rsp), %rax
	leaq	56(%rsp), %rcx
	cmoveq	%rax, %rcx
	movq	(%rcx), %rcx
	movq	%r14, %rdi
	movl	%ebx, %esi
	callq	"mime_store::bytes::append_list"
	cmpb	$1, %r12b
	setne	%sil
	cmpq	$0, 64(%rsp)
	sete	%cl
	orb	%sil, %cl
	testb	%al, %al
	je	8f
	movb	$1, %al
	xorl	%edx, %edx
	testb	%cl, %cl
	jne	7f
	movq	%r15, %rdi
	jmp	5f
4:
	cmpb	$1, 8(%rsp)
	jne	6f
	cmpq	$0, 32(%rsp)
	je	6f
	movq	16(%rsp), %rdi
5:
	callq	rattle_dealloc@PLT
6:
	movb	$1, %al
	xorl	%edx, %edx
7:
	addq	$112, %rsp
	popq	%rbx
	popq	%r12
	popq	%r14
	popq	%r15
	popq	%rbp
	retq
8:
	testb	%cl, %cl
	jne	9f
	movq	%r15, %rdi
	movl	%edx, %ebx
	callq	rattle_dealloc@PLT
	movl	%ebx, %edx
9:
	xorl	%eax, %eax
	jmp	7b
10:
	.size	"mime_store::list::write_list::<#a1c591a832a2edc1>", 10b-"mime_store::list::write_list::<#a1c591a832a2edc1>"

	.text
	.p2align	4
	.type	"mime_store::list::write_list::<#aefa0a0a70fe95cb>",@function
"mime_store::list::write_list::<#aefa0a0a70fe95cb>":
	pushq	%rbp
	pushq	%r15
	pushq	%r14
	pushq	%r13
	pushq	%r12
	pushq	%rbx
	subq	$104, %rsp
	movq	%rdx, %rbx
	movq	%rsi, %r15
	movq	%rdi, %r14
	xorps	%xmm0, %xmm0
	movaps	%xmm0, 64(%rsp)
	movaps	%xmm0, 48(%rsp)
	movaps	%xmm0, 80(%rsp)
	movq	$0, 96(%rsp)
	movabsq	$6148914691236517205, %r12
	cmpq	%r12, %rdx
	cmovbq	%rdx, %r12
	cmpq	$2, %rdx
	jb	1f
	movabsq	$768614336404564650, %rax
	cmpq	%rax, %rbx
	ja	10f
	leaq	(,%r12,4), %rax
	leaq	(%rax,%rax,2), %rdi
	movl	$4, %esi
	callq	rattle_alloc@PLT
	testb	$1, %al
	je	10f
	leaq	(%r12,%r12,2), %rax
	movq	$1, (%rsp)
	leaq	8(%rsp), %r12
	movq	%rdx, 8(%rsp)
	movq	$0, 16(%rsp)
	movq	%rax, 24(%rsp)
	jmp	2f
1:
	leaq	8(%rsp), %r12
	movaps	%xmm0, 16(%rsp)
	movaps	%xmm0, (%rsp)
	testq	%rbx, %rbx
	je	7f
2:
	addq	$24, %r15
	movq	%rbx, %r13
	.p2align	4
3:
	movq	-24(%r15), %rsi
	movq	-16(%r15), %rdx
	movq	%r14, %rdi
	callq	"mime_store::bytes::append_text"
	testb	%al, %al
	jne	6f
	movl	%edx, %ebp
	movq	(%r15), %rax
	cmpb	$0, 8(%rax)
	je	4f
	movq	16(%rax), %rsi
	addq	$24, %rax
	jmp	5f
	.p2align	4
4:
	leaq	16(%rax), %rsi
	addq	$48, %rax
5:
	movq	(%rax), %rdx
	movq	%r14, %rdi
	callq	"mime_store::bytes::append_text"
	testb	%al, %al
	jne	6f
	movq	(%r15), %rax
	movzbl	96(%rax), %ecx
	movzbl	(%rax), %eax
	shll	$8, %ecx
	orl	%eax, %ecx
	movl	%ebp, 36(%rsp)
	movl	%edx, 40(%rsp)
	movl	%ecx, 44(%rsp)
	movq	%rsp, %rdi
	leaq	36(%rsp), %rsi
	movl	$3, %edx
	callq	"smallvec::small_vec::SmallVec::extend_from_slice::<#8f588e0f66f62309>"
	testb	%al, %al
	jne	6f
	addq	$32, %r15
	decq	%r13
	jne	3b
	movzbl	(%rsp), %r13d
	jmp	8f
6:
	cmpb	$1, (%rsp)
	jne	10f
	cmpq	$0, 24(%rsp)
	je	10f
	movq	8(%rsp), %rdi
	jmp	9f
7:
	xorl	%r13d, %r13d
8:
	movq	16(%r12), %rax
	movq	%rax, 96(%rsp)
	movups	(%r12), %xmm0
	movaps	%xmm0, 80(%rsp)
	movq	%r13, 48(%rsp)
	leaq	56(%rsp), %rdx
	movups	%xmm0, 56(%rsp)
	movq	%rax, 72(%rsp)
	testq	%r13, %r13
	movq	56(%rsp), %r15
	cmovneq	%r15, %rdx
	leaq	72(%rsp), %rax
	leaq	64(%rsp), %rcx
	cmoveq	%rax, %rcx
	movq	(%rcx), %rcx
	movq	%r14, %rdi
	movl	%ebx, %esi
	callq	"mime_store::bytes::append_list"
	cmpq	$1, %r13
	setne	%sil
	cmpq	$0, 72(%rsp)
	sete	%cl
	orb	%sil, %cl
	testb	%al, %al
	je	12f
	movb	$1, %al
	xorl	%edx, %edx
	testb	%cl, %cl
	jne	11f
	movq	%r15, %rdi
9:
	callq	rattle_dealloc@PLT
10:
	movb	$1, %al
	xorl	%edx, %edx
11:
	addq	$104, %rsp
	popq	%rbx
	popq	%r12
	popq	%r13
	popq	%r14
	popq	%r15
	popq	%rbp
	retq
12:
	testb	%cl, %cl
	jne	13f
	movq	%r15, %rdi
	movl	%edx, %ebx
	callq	rattle_dealloc@PLT
	movl	%ebx, %edx
13:
	xorl	%eax, %eax
	jmp	11b
14:
	.size	"mime_store::list::write_list::<#aefa0a0a70fe95cb>", 14b-"mime_store::list::write_list::<#aefa0a0a70fe95cb>"

	.text
	.p2align	4
	.type	"mime_store::magic::extent_of_lines",@function
"mime_store::magic::extent_of_lines":
	pushq	%r15
	pushq	%r14
	pushq	%r12
	pushq	%rbx
	pushq	%rax
	testq	%rsi, %rsi
	je	2f
	movq	%rsi, %rbx
	movq	%rdi, %r14
	xorl	%r15d, %r15d
	.p2align	4
1:
	movq	%r15, %r12
	movl	(%r14), %eax
	movl	4(%r14), %r15d
	addq	%rax, %r15
	addq	24(%r14), %r15
	movq	72(%r14), %rdi
	movq	80(%r14), %rsi
	callq	"mime_store::magic::extent_of_lines"
	cmpq	%rax, %r15
	cmovbeq	%rax, %r15
	cmpq	%r15, %r12
	cmovaq	%r12, %r15
	addq	$96, %r14
	decq	%rbx
	jne	1b
	jmp	3f
2:
	xorl	%r15d, %r15d
3:
	movq	%r15, %rax
	addq	$8, %rsp
	popq	%rbx
	popq	%r12
	popq	%r14
	popq	%r15
	retq
4:
	.size	"mime_store::magic::extent_of_lines", 4b-"mime_store::magic::extent_of_lines"

	.section	.rodata.cst16,"aM",@progbits,16
	.p2align	4, 0x0
1:
	.byte	3,2,1,0,7,6,5,4,11,10,9,8,15,14,13,12
	.text
	.p2align	4
	.type	"mime_store::magic::write_lines",@function
"mime_store::magic::write_lines":
	pushq	%rbp
	pushq	%r15
	pushq	%r14
	pushq	%r13
	pushq	%r12
	pushq	%rbx
	subq	$536, %rsp
	movq	%rdi, %r14
	pxor	%xmm0, %xmm0
	movdqa	%xmm0, 224(%rsp)
	movdqa	%xmm0, 208(%rsp)
	leaq	72(%rsp), %rbp
	movdqa	%xmm0, 64(%rsp)
	movdqa	%xmm0, 80(%rsp)
	movdqa	%xmm0, 96(%rsp)
	movdqa	%xmm0, 112(%rsp)
	movdqa	%xmm0, 128(%rsp)
	movdqa	%xmm0, 144(%rsp)
	movdqa	%xmm0, 160(%rsp)
	movdqa	%xmm0, 176(%rsp)
	movdqa	%xmm0, 192(%rsp)
	movq	%rdx, 248(%rsp)
	testq	%rdx, %rdx
	je	67f
	movq	%rsi, %r13
	xorl	%edx, %edx
	movq	%rsi, 8(%rsp)
	jmp	4f
	.p2align	4
2:
	movdqa	208(%rsp), %xmm0
	movdqa	224(%rsp), %xmm1
	movdqu	%xmm1, 16(%rdi)
	movdqu	%xmm0, (%rdi)
3:
	movq	56(%rsp), %rdx
	addq	$8, %rax
	movq	%rsi, 72(%rsp)
	movq	%rax, 80(%rsp)
	movq	%rcx, 88(%rsp)
	incq	%rdx
	cmpq	248(%rsp), %rdx
	je	68f
4:
	movq	%rdx, 56(%rsp)
	movq	%rdx, %rax
	shlq	$5, %rax
	leaq	(%rax,%rax,2), %rbx
	movq	16(%r13,%rbx), %rsi
	movq	24(%r13,%rbx), %r13
	movq	8(%r14), %r15
	movq	16(%r14), %rbp
	movq	%rbp, %rax
	subq	%r15, %rax
	movq	%r15, 240(%rsp)
	cmpq	%rax, %r13
	ja	37f
5:
	movq	(%r14), %r12
	pxor	%xmm0, %xmm0
	leaq	8(%r14), %rax
	movdqu	%xmm0, (%rax)
	leaq	(%r12,%r15), %rdi
	movq	%rdi, %rax
	subq	%rsi, %rax
	cmpq	%r13, %rax
	jae	11f
	cmpq	$4, %r13
	jb	6f
	cmpq	$32, %rax
	jae	30f
6:
	xorl	%eax, %eax
7:
	movq	%r13, %rdx
	movq	%rax, %rcx
	andq	$3, %rdx
	je	9f
	movq	%rax, %rcx
	.p2align	4
8:
	movzbl	(%rsi,%rcx), %r8d
	movb	%r8b, (%rdi,%rcx)
	incq	%rcx
	decq	%rdx
	jne	8b
9:
	subq	%r13, %rax
	cmpq	$-4, %rax
	ja	12f
	leaq	(%r12,%r15), %rax
	addq	$3, %rax
	.p2align	4
10:
	movzbl	(%rsi,%rcx), %edx
	movb	%dl, -3(%rax,%rcx)
	movzbl	1(%rsi,%rcx), %edx
	movb	%dl, -2(%rax,%rcx)
	movzbl	2(%rsi,%rcx), %edx
	movb	%dl, -1(%rax,%rcx)
	movzbl	3(%rsi,%rcx), %edx
	movb	%dl, (%rax,%rcx)
	addq	$4, %rcx
	cmpq	%rcx, %r13
	jne	10b
	jmp	12f
	.p2align	4
11:
	movq	%r13, %rdx
	callq	memmove@PLT
12:
	addq	%r13, %r15
	movq	%r12, (%r14)
	movq	%r15, 8(%r14)
	movq	%rbp, 16(%r14)
	negl	%r13d
	andl	$3, %r13d
	jne	21f
13:
	movq	8(%rsp), %rax
	cmpb	$0, 40(%rax,%rbx)
	je	22f
	movq	48(%rax,%rbx), %rsi
	movq	56(%rax,%rbx), %r13
	movq	16(%r14), %r9
	movq	%r9, %rax
	subq	%r15, %rax
	movq	%r15, %rbp
	cmpq	%rax, %r13
	ja	47f
14:
	movq	(%r14), %r10
	pxor	%xmm0, %xmm0
	leaq	8(%r14), %rax
	movdqu	%xmm0, (%rax)
	leaq	(%r10,%rbp), %rdi
	movq	%rdi, %rax
	subq	%rsi, %rax
	cmpq	%r13, %rax
	jae	23f
	cmpq	$4, %r13
	jb	15f
	cmpq	$32, %rax
	jae	32f
15:
	xorl	%eax, %eax
16:
	movq	%r13, %rdx
	movq	%rax, %rcx
	andq	$3, %rdx
	je	18f
	movq	%rax, %rcx
	.p2align	4
17:
	movzbl	(%rsi,%rcx), %r8d
	movb	%r8b, (%rdi,%rcx)
	incq	%rcx
	decq	%rdx
	jne	17b
18:
	subq	%r13, %rax
	cmpq	$-4, %rax
	ja	24f
	leaq	(%r10,%rbp), %rax
	addq	$3, %rax
	.p2align	4
19:
	movzbl	(%rsi,%rcx), %edx
	movb	%dl, -3(%rax,%rcx)
	movzbl	1(%rsi,%rcx), %edx
	movb	%dl, -2(%rax,%rcx)
	movzbl	2(%rsi,%rcx), %edx
	movb	%dl, -1(%rax,%rcx)
	movzbl	3(%rsi,%rcx), %edx
	movb	%dl, (%rax,%rcx)
	addq	$4, %rcx
	cmpq	%rcx, %r13
	jne	19b
	jmp	24f
	.p2align	4
20:
	movq	(%r14), %rax
	movb	$0, (%rax,%r15)
	incq	%r15
	movq	%r15, 8(%r14)
	decq	%r13
	je	13b
21:
	cmpq	%r15, 16(%r14)
	jne	20b
	movl	$1, %esi
	movq	%r14, %rdi
	callq	"std_alloc::vec::Vec::grow_amortized::<#06f9579a8fe94b13>"
	testb	%al, %al
	je	83f
	leaq	8(%r14), %rax
	movq	(%rax), %r15
	jmp	20b
	.p2align	4
22:
	xorl	%r15d, %r15d
	jmp	26f
	.p2align	4
23:
	movq	%r13, %rdx
	movq	%r9, %r12
	movq	%rbx, 48(%rsp)
	movq	%r10, %rbx
	callq	memmove@PLT
	movq	%rbx, %r10
	movq	48(%rsp), %rbx
	movq	%r12, %r9
24:
	addq	%r13, %rbp
	movq	%r10, (%r14)
	movq	%rbp, 8(%r14)
	movq	%r9, 16(%r14)
	negl	%r13d
	andl	$3, %r13d
	jne	29f
25:
	movq	8(%rsp), %rax
26:
	movq	72(%rax,%rbx), %rsi
	movq	80(%rax,%rbx), %rdx
	movq	%r14, %rdi
	callq	"mime_store::magic::write_lines"
	testb	%al, %al
	jne	83f
	movq	8(%rsp), %r13
	movl	24(%r13,%rbx), %r10d
	movl	80(%r13,%rbx), %r11d
	movl	(%r13,%rbx), %esi
	movl	4(%r13,%rbx), %ecx
	movl	8(%r13,%rbx), %eax
	movl	%esi, 40(%rsp)
	movl	%esi, 208(%rsp)
	movl	%ecx, 44(%rsp)
	movl	%ecx, 212(%rsp)
	movl	%eax, 48(%rsp)
	movl	%eax, 216(%rsp)
	movl	%r10d, 220(%rsp)
	movq	240(%rsp), %r12
	movl	%r12d, 224(%rsp)
	movl	%r15d, 228(%rsp)
	movl	%r11d, 232(%rsp)
	movl	%edx, 236(%rsp)
	movzbl	64(%rsp), %r9d
	testb	%r9b, %r9b
	movq	200(%rsp), %r8
	movq	80(%rsp), %rsi
	movq	%rsi, %rdi
	cmoveq	%r8, %rdi
	movq	88(%rsp), %rax
	movl	$32, %ecx
	cmovneq	%rax, %rcx
	subq	%rdi, %rcx
	cmpq	$7, %rcx
	ja	55f
	movabsq	$9223372036854775800, %rcx
	cmpq	%rcx, %rdi
	ja	83f
	leaq	7(%rdi), %rcx
	bsrq	%rcx, %rcx
	incq	%rcx
	movl	$1, %ebx
	shlq	%cl, %rbx
	cmpq	%rdi, %rbx
	movq	8(%rsp), %r13
	jb	55f
	cmpq	$24, %rdi
	ja	31f
	cmpb	$1, %r9b
	jne	54f
	movq	72(%rsp), %rdi
	leaq	28(%rsp), %rcx
	movq	%rcx, 72(%rsp)
	pxor	%xmm0, %xmm0
	leaq	80(%rsp), %rcx
	movdqu	%xmm0, (%rcx)
	movdqa	%xmm0, 368(%rsp)
	movdqa	%xmm0, 352(%rsp)
	movdqa	%xmm0, 336(%rsp)
	movdqa	%xmm0, 320(%rsp)
	movdqa	%xmm0, 304(%rsp)
	movdqa	%xmm0, 288(%rsp)
	movdqa	%xmm0, 272(%rsp)
	movdqa	%xmm0, 256(%rsp)
	movq	$0, 384(%rsp)
	testq	%rsi, %rsi
	je	52f
	cmpq	$1, %rsi
	jne	49f
	xorl	%ecx, %ecx
	jmp	51f
27:
	leaq	8(%r14), %rax
	movq	(%rax), %rbp
	.p2align	4
28:
	movq	(%r14), %rax
	movb	$0, (%rax,%rbp)
	incq	%rbp
	movq	%rbp, 8(%r14)
	decq	%r13
	je	25b
29:
	cmpq	%rbp, 16(%r14)
	jne	28b
	movl	$1, %esi
	movq	%r14, %rdi
	callq	"std_alloc::vec::Vec::grow_amortized::<#06f9579a8fe94b13>"
	testb	%al, %al
	jne	27b
	jmp	83f
30:
	cmpq	$32, %r13
	jae	33f
	xorl	%eax, %eax
	jmp	35f
31:
	testb	%r9b, %r9b
	je	38f
	cmpq	%rax, %rbx
	jae	48f
	cmpq	%rbx, %rsi
	cmovaq	%rsi, %rbx
	cmpq	%rsi, %rax
	jbe	55f
	movq	72(%rsp), %rdi
	shlq	$2, %rsi
	leaq	(,%rbx,4), %rax
	movl	$4, %ecx
	movl	%edx, 32(%rsp)
	movq	%rax, %rdx
	movl	%r11d, 16(%rsp)
	movl	%r10d, %ebp
	callq	rattle_realloc@PLT
	movl	%ebp, %r10d
	movl	16(%rsp), %r11d
	movq	%rdx, %rcx
	movl	32(%rsp), %edx
	testb	$1, %al
	je	55f
	movq	%rcx, 72(%rsp)
	movq	%rbx, 88(%rsp)
	jmp	55f
32:
	cmpq	$32, %r13
	jae	43f
	xorl	%eax, %eax
	jmp	45f
33:
	movq	%r13, %rax
	andq	$-32, %rax
	leaq	(%r12,%r15), %rcx
	addq	$16, %rcx
	xorl	%edx, %edx
	.p2align	4
34:
	movdqu	(%rsi,%rdx), %xmm0
	movdqu	16(%rsi,%rdx), %xmm1
	movdqu	%xmm0, -16(%rcx,%rdx)
	movdqu	%xmm1, (%rcx,%rdx)
	addq	$32, %rdx
	cmpq	%rdx, %rax
	jne	34b
	cmpq	%rax, %r13
	je	12b
	testb	$28, %r13b
	je	7b
35:
	movq	%rax, %rcx
	movq	%r13, %rax
	andq	$-4, %rax
	.p2align	4
36:
	movl	(%rsi,%rcx), %edx
	movl	%edx, (%rdi,%rcx)
	addq	$4, %rcx
	cmpq	%rcx, %rax
	jne	36b
	cmpq	%rax, %r13
	je	12b
	jmp	7b
37:
	movq	%rsi, %r12
	movq	%r14, %rdi
	movq	%r13, %rsi
	callq	"std_alloc::vec::Vec::grow_amortized::<#06f9579a8fe94b13>"
	testb	%al, %al
	je	83f
	movq	8(%r14), %r15
	movq	16(%r14), %rbp
	movq	%r12, %rsi
	jmp	5b
38:
	movabsq	$1152921504606846969, %rax
	cmpq	%rax, %r8
	jae	83f
	movl	$4, %edi
	shlq	%cl, %rdi
	movl	$4, %esi
	movl	%edx, 32(%rsp)
	movl	%r11d, 16(%rsp)
	movl	%r10d, 4(%rsp)
	callq	rattle_alloc@PLT
	testb	$1, %al
	je	83f
	movq	%rdx, %r13
	movq	200(%rsp), %rbp
	leaq	72(%rsp), %rdi
	movq	%rbp, %rsi
	movq	%rbp, %rdx
	callq	"arrayvec::array_vec::move_to_end::<i32>"
	testq	%rbp, %rbp
	je	65f
	cmpq	$8, %rbp
	jb	39f
	leaq	80(%rsp), %rax
	leaq	(%rax,%rbp,4), %rax
	addq	$-8, %rax
	leaq	(,%rbp,4), %rcx
	addq	%r13, %rcx
	leaq	72(%rsp), %rdx
	cmpq	%rcx, %rdx
	setb	%cl
	cmpq	%r13, %rax
	seta	%al
	testb	%al, %cl
	je	63f
39:
	xorl	%eax, %eax
40:
	movq	%rax, %rcx
	orq	$1, %rcx
	testb	$1, %bpl
	je	41f
	movl	72(%rsp,%rax,4), %edx
	movl	$0, 72(%rsp,%rax,4)
	movl	%edx, (%r13,%rax,4)
	movq	%rcx, %rax
41:
	cmpq	%rcx, %rbp
	je	65f
	.p2align	4
42:
	movl	72(%rsp,%rax,4), %ecx
	movl	$0, 72(%rsp,%rax,4)
	movl	%ecx, (%r13,%rax,4)
	movl	76(%rsp,%rax,4), %ecx
	movl	$0, 76(%rsp,%rax,4)
	movl	%ecx, 4(%r13,%rax,4)
	addq	$2, %rax
	cmpq	%rax, %rbp
	jne	42b
	jmp	65f
43:
	movq	%r13, %rax
	andq	$-32, %rax
	leaq	(%r10,%rbp), %rcx
	addq	$16, %rcx
	xorl	%edx, %edx
	.p2align	4
44:
	movdqu	(%rsi,%rdx), %xmm0
	movdqu	16(%rsi,%rdx), %xmm1
	movdqu	%xmm0, -16(%rcx,%rdx)
	movdqu	%xmm1, (%rcx,%rdx)
	addq	$32, %rdx
	cmpq	%rdx, %rax
	jne	44b
	cmpq	%rax, %r13
	je	24b
	testb	$28, %r13b
	je	16b
45:
	movq	%rax, %rcx
	movq	%r13, %rax
	andq	$-4, %rax
	.p2align	4
46:
	movl	(%rsi,%rcx), %edx
	movl	%edx, (%rdi,%rcx)
	addq	$4, %rcx
	cmpq	%rcx, %rax
	jne	46b
	cmpq	%rax, %r13
	je	24b
	jmp	16b
47:
	movq	%rsi, %r12
	movq	%r14, %rdi
	movq	%r13, %rsi
	callq	"std_alloc::vec::Vec::grow_amortized::<#06f9579a8fe94b13>"
	testb	%al, %al
	je	83f
	movq	8(%r14), %rbp
	movq	16(%r14), %r9
	movq	%r12, %rsi
	jmp	14b
48:
	movq	%rbx, %r8
	subq	%rsi, %r8
	movq	%rax, %r9
	subq	%rsi, %r9
	cmpq	%r9, %r8
	jbe	55f
	movq	%rsi, %r9
	notq	%r9
	cmpq	%r9, %r8
	ja	83f
	movabsq	$1152921504606846969, %r8
	cmpq	%r8, %rdi
	jae	83f
	movl	%r10d, 4(%rsp)
	movl	%r11d, %r13d
	movl	%edx, %ebp
	testq	%rax, %rax
	je	61f
	movq	72(%rsp), %rdi
	shlq	$2, %rsi
	movl	$4, %edx
	shlq	%cl, %rdx
	movl	$4, %ecx
	callq	rattle_realloc@PLT
	testb	$1, %al
	movl	4(%rsp), %r10d
	jne	62f
	jmp	83f
49:
	movl	%r10d, %ebx
	movq	%rsi, %r8
	andq	$-2, %r8
	xorl	%ecx, %ecx
	.p2align	4
50:
	leaq	1(%rcx), %r9
	movl	(%rdi,%rcx,4), %r10d
	movl	%r10d, 256(%rsp,%rcx,4)
	movq	%r9, 384(%rsp)
	movl	4(%rdi,%rcx,4), %r9d
	movl	%r9d, 260(%rsp,%rcx,4)
	addq	$2, %rcx
	movq	%rcx, 384(%rsp)
	cmpq	%rcx, %r8
	jne	50b
	testb	$1, %sil
	movl	%ebx, %r10d
	je	52f
51:
	leaq	1(%rcx), %rsi
	movl	(%rdi,%rcx,4), %r8d
	movl	%r8d, 256(%rsp,%rcx,4)
	movq	%rsi, 384(%rsp)
52:
	movl	%r10d, 4(%rsp)
	movl	%r11d, %r12d
	movl	%edx, %ebx
	testq	%rax, %rax
	je	53f
	callq	rattle_dealloc@PLT
	movzbl	64(%rsp), %ebp
	movq	72(%rsp), %rax
	movq	%rax, 32(%rsp)
	movq	88(%rsp), %rax
	movq	%rax, 16(%rsp)
	leaq	400(%rsp), %r13
	leaq	256(%rsp), %rsi
	movl	$136, %edx
	movq	%r13, %rdi
	callq	memcpy@PLT
	movq	$0, 64(%rsp)
	movl	$136, %edx
	leaq	72(%rsp), %rdi
	movq	%r13, %rsi
	callq	memcpy@PLT
	testb	%bpl, %bpl
	movl	%ebx, %edx
	movq	8(%rsp), %r13
	movl	%r12d, %r11d
	movl	4(%rsp), %r10d
	je	54f
	cmpq	$0, 16(%rsp)
	je	54f
	movq	32(%rsp), %rdi
	callq	rattle_dealloc@PLT
	movl	4(%rsp), %r10d
	movl	%r12d, %r11d
	movl	%ebx, %edx
	jmp	54f
53:
	leaq	400(%rsp), %r13
	leaq	256(%rsp), %rsi
	movl	$136, %edx
	movq	%r13, %rdi
	callq	memcpy@PLT
	movq	$0, 64(%rsp)
	movl	$136, %edx
	leaq	72(%rsp), %rdi
	movq	%r13, %rsi
	callq	memcpy@PLT
	movl	%ebx, %edx
	movq	8(%rsp), %r13
	movl	%r12d, %r11d
	movl	4(%rsp), %r10d
54:
	movq	240(%rsp), %r12
	.p2align	4
55:
	cmpb	$0, 64(%rsp)
	je	57f
	movq	80(%rsp), %rax
	movq	88(%rsp), %rcx
	movq	%rcx, %rsi
	subq	%rax, %rsi
	cmpq	$7, %rsi
	leaq	72(%rsp), %rbp
	jbe	60f
56:
	movq	72(%rsp), %rsi
	leaq	(%rsi,%rax,4), %rdi
	leaq	208(%rsp), %r8
	movq	%rdi, %r9
	subq	%r8, %r9
	cmpq	$31, %r9
	ja	2b
	movl	40(%rsp), %r8d
	movl	%r8d, (%rdi)
	movl	44(%rsp), %r8d
	movl	%r8d, 4(%rdi)
	movl	48(%rsp), %r8d
	movl	%r8d, 8(%rdi)
	movl	%r10d, 12(%rdi)
	movl	%r12d, 16(%rdi)
	movl	%r15d, 20(%rdi)
	movl	%r11d, 24(%rdi)
	movl	%edx, 28(%rdi)
	jmp	3b
	.p2align	4
57:
	movq	200(%rsp), %rax
	leaq	-25(%rax), %rcx
	cmpq	$8, %rcx
	leaq	72(%rsp), %rbp
	jb	85f
	leaq	(,%rax,4), %rcx
	addq	%rbp, %rcx
	leaq	208(%rsp), %rsi
	movq	%rcx, %rdi
	subq	%rsi, %rdi
	cmpq	$31, %rdi
	ja	58f
	movl	40(%rsp), %esi
	movl	%esi, (%rcx)
	movl	44(%rsp), %esi
	movl	%esi, 4(%rcx)
	movl	48(%rsp), %esi
	movl	%esi, 8(%rcx)
	movl	%r10d, 12(%rcx)
	movl	%r12d, 16(%rcx)
	movl	%r15d, 20(%rcx)
	movl	%r11d, 24(%rcx)
	movl	%edx, 28(%rcx)
	jmp	59f
58:
	movdqa	208(%rsp), %xmm0
	movdqa	224(%rsp), %xmm1
	movdqu	%xmm1, 16(%rcx)
	movdqu	%xmm0, (%rcx)
59:
	movq	56(%rsp), %rdx
	addq	$8, %rax
	movq	%rax, 200(%rsp)
	incq	%rdx
	cmpq	248(%rsp), %rdx
	jne	4b
	jmp	68f
60:
	movl	%r10d, 4(%rsp)
	movl	%r11d, 16(%rsp)
	movl	%edx, %ebx
	leaq	72(%rsp), %rdi
	movl	$8, %esi
	callq	"std_alloc::vec::Vec::grow_amortized::<#6f4ec3444080bcc6>"
	testb	%al, %al
	je	85f
	movq	80(%rsp), %rax
	movq	88(%rsp), %rcx
	movl	%ebx, %edx
	movl	16(%rsp), %r11d
	movl	4(%rsp), %r10d
	jmp	56b
61:
	movl	$4, %edi
	shlq	%cl, %rdi
	movl	$4, %esi
	callq	rattle_alloc@PLT
	testb	$1, %al
	movl	4(%rsp), %r10d
	je	83f
62:
	movq	%rdx, %rcx
	movl	%ebp, %edx
	movl	%r13d, %r11d
	movq	%rcx, 72(%rsp)
	movq	%rbx, 88(%rsp)
	movq	8(%rsp), %r13
	jmp	55b
63:
	movq	%rbp, %rax
	andq	$-8, %rax
	xorl	%ecx, %ecx
	.p2align	4
64:
	movdqu	72(%rsp,%rcx,4), %xmm0
	movdqu	88(%rsp,%rcx,4), %xmm1
	pxor	%xmm2, %xmm2
	movdqu	%xmm2, 72(%rsp,%rcx,4)
	movdqu	%xmm2, 88(%rsp,%rcx,4)
	movdqu	%xmm0, (%r13,%rcx,4)
	movdqu	%xmm1, 16(%r13,%rcx,4)
	addq	$8, %rcx
	cmpq	%rcx, %rax
	jne	64b
	cmpq	%rax, %rbp
	jne	40b
65:
	movq	200(%rsp), %rdx
	testq	%rdx, %rdx
	je	66f
	shlq	$2, %rdx
	leaq	72(%rsp), %rdi
	xorl	%esi, %esi
	callq	memset@PLT
66:
	movq	72(%rsp), %rdi
	movq	88(%rsp), %rax
	cmpb	$0, 64(%rsp)
	movq	$1, 64(%rsp)
	movq	%r13, 72(%rsp)
	movq	%rbp, 80(%rsp)
	movq	%rbx, 88(%rsp)
	pxor	%xmm0, %xmm0
	leaq	80(%rsp), %rcx
	movdqu	%xmm0, 112(%rcx)
	movdqu	%xmm0, 96(%rcx)
	movdqu	%xmm0, 80(%rcx)
	movdqu	%xmm0, 64(%rcx)
	movdqu	%xmm0, 48(%rcx)
	movdqu	%xmm0, 32(%rcx)
	movdqu	%xmm0, 16(%rcx)
	movl	32(%rsp), %edx
	movq	8(%rsp), %r13
	movl	16(%rsp), %r11d
	movl	4(%rsp), %r10d
	je	55b
	testq	%rax, %rax
	je	55b
	callq	rattle_dealloc@PLT
	movl	4(%rsp), %r10d
	movl	16(%rsp), %r11d
	movl	32(%rsp), %edx
	jmp	55b
67:
	movl	$136, %eax
	jmp	69f
68:
	cmpb	$0, 64(%rsp)
	cmovneq	72(%rsp), %rbp
	movl	$136, %ecx
	movl	$16, %eax
	cmoveq	%rcx, %rax
69:
	movq	64(%rsp,%rax), %rbx
	movq	8(%r14), %r15
	leaq	(%r15,%rbx,4), %r12
	cmpq	%r15, %r12
	jbe	72f
	leaq	(,%rbx,4), %rdx
	movq	16(%r14), %r13
	movq	%r13, %rax
	subq	%r15, %rax
	movq	%r15, %rdi
	cmpq	%rax, %rdx
	ja	82f
	movq	%rbp, 8(%rsp)
	movq	(%r14), %rbp
	cmpq	%r12, %rdi
	jae	71f
70:
	addq	%rbp, %rdi
	xorl	%esi, %esi
	callq	memset@PLT
71:
	movq	%rbp, (%r14)
	movq	%r12, 8(%r14)
	movq	%r13, 16(%r14)
	movq	8(%rsp), %rbp
	jmp	73f
72:
	jae	73f
	movq	%r12, 8(%r14)
73:
	testq	%rbx, %rbx
	je	81f
	movq	(%r14), %rax
	leaq	(%rax,%r15), %rcx
	cmpq	$8, %rbx
	jb	74f
	movq	%rcx, %rdx
	subq	%rbp, %rdx
	cmpq	$32, %rdx
	jae	79f
74:
	xorl	%edx, %edx
75:
	movq	%rbx, %rdi
	movq	%rdx, %rsi
	andq	$3, %rdi
	je	77f
	movq	%rdx, %rsi
	.p2align	4
76:
	movl	(%rbp,%rsi,4), %r8d
	bswapl	%r8d
	movl	%r8d, (%rcx,%rsi,4)
	incq	%rsi
	decq	%rdi
	jne	76b
77:
	subq	%rbx, %rdx
	cmpq	$-4, %rdx
	ja	81f
	addq	%r15, %rax
	addq	$12, %rax
	.p2align	4
78:
	movl	(%rbp,%rsi,4), %ecx
	bswapl	%ecx
	movl	%ecx, -12(%rax,%rsi,4)
	movl	4(%rbp,%rsi,4), %ecx
	bswapl	%ecx
	movl	%ecx, -8(%rax,%rsi,4)
	movl	8(%rbp,%rsi,4), %ecx
	bswapl	%ecx
	movl	%ecx, -4(%rax,%rsi,4)
	movl	12(%rbp,%rsi,4), %ecx
	bswapl	%ecx
	movl	%ecx, (%rax,%rsi,4)
	addq	$4, %rsi
	cmpq	%rsi, %rbx
	jne	78b
	jmp	81f
79:
	movq	%rbx, %rdx
	andq	$-8, %rdx
	leaq	(%r15,%rax), %rsi
	addq	$16, %rsi
	xorl	%edi, %edi
	.p2align	4
80:
	movdqu	(%rbp,%rdi,4), %xmm0
	movdqu	16(%rbp,%rdi,4), %xmm1
	movdqa	1b(%rip), %xmm2
	pshufb	%xmm2, %xmm0
	pshufb	%xmm2, %xmm1
	movdqu	%xmm0, -16(%rsi,%rdi,4)
	movdqu	%xmm1, (%rsi,%rdi,4)
	addq	$8, %rdi
	cmpq	%rdi, %rdx
	jne	80b
	cmpq	%rdx, %rbx
	jne	75b
81:
	xorl	%eax, %eax
	cmpb	$1, 64(%rsp)
	jne	84f
	cmpq	$0, 88(%rsp)
	je	84f
	movq	72(%rsp), %rdi
	callq	rattle_dealloc@PLT
	xorl	%eax, %eax
	jmp	84f
82:
	movq	%r14, %rdi
	movq	%rdx, %r12
	movq	%rdx, %rsi
	callq	"std_alloc::vec::Vec::grow_amortized::<#06f9579a8fe94b13>"
	testb	%al, %al
	je	83f
	movq	8(%r14), %rdi
	movq	16(%r14), %r13
	movq	%r12, %rdx
	addq	%rdi, %r12
	movq	%rbp, 8(%rsp)
	movq	(%r14), %rbp
	cmpq	%r12, %rdi
	jb	70b
	jmp	71b
83:
	xorl	%r15d, %r15d
	cmpb	$1, 64(%rsp)
	movb	$1, %al
	jne	84f
	cmpq	$0, 88(%rsp)
	je	84f
	movq	72(%rsp), %rdi
	callq	rattle_dealloc@PLT
	movb	$1, %al
84:
	movl	%r15d, %edx
	addq	$536, %rsp
	popq	%rbx
	popq	%r12
	popq	%r13
	popq	%r14
	popq	%r15
	popq	%rbp
	retq
85:
	ud2
86:
	.size	"mime_store::magic::write_lines", 86b-"mime_store::magic::write_lines"

	.section	.rodata.cst16,"aM",@progbits,16
	.p2align	4, 0x0
1:
	.byte	3,2,1,0,7,6,5,4,11,10,9,8,15,14,13,12
	.text
	.p2align	4
	.type	"mime_store::magic::write_magic",@function
"mime_store::magic::write_magic":
	pushq	%rbp
	pushq	%r15
	pushq	%r14
	pushq	%r13
	pushq	%r12
	pushq	%rbx
	subq	$152, %rsp
	movq	%rdx, %r12
	movq	%rsi, %r15
	movq	%rdi, %r14
	pxor	%xmm0, %xmm0
	movdqa	%xmm0, 64(%rsp)
	movdqa	%xmm0, 48(%rsp)
	movq	%rdx, %rax
	shrq	$62, %rax
	leaq	(,%rdx,4), %rbx
	xorl	%edx, %edx
	negq	%rax
	movl	$0, %edi
	sbbq	%rdi, %rdi
	orq	%rbx, %rdi
	movl	$0, %eax
	movl	$0, %ebp
	cmpq	$5, %rdi
	jb	2f
	movq	%rdi, %rax
	shrq	$61, %rax
	jne	11f
	shlq	$2, %rdi
	movl	$4, %esi
	callq	rattle_alloc@PLT
	testb	$1, %al
	je	11f
	movl	$1, %ebp
	movq	%rbx, %rax
2:
	movq	%rbp, 16(%rsp)
	movq	%rdx, 24(%rsp)
	movq	$0, 32(%rsp)
	movq	%rax, 40(%rsp)
	testq	%r12, %r12
	movq	%r12, 120(%rsp)
	je	6f
	movq	%r12, %rbx
	leaq	48(%r15), %r12
	xorl	%r13d, %r13d
	.p2align	4
3:
	leaq	-32(%r12), %rsi
	cmpb	$0, -40(%r12)
	je	4f
	leaq	(,%r13,4), %rax
	addq	%r13, %rax
	shlq	$4, %rax
	addq	%r15, %rax
	movq	(%rsi), %rsi
	addq	$24, %rax
	jmp	5f
	.p2align	4
4:
	movq	%r12, %rax
5:
	movq	(%rax), %rdx
	movq	%r14, %rdi
	callq	"mime_store::bytes::append_text"
	testb	%al, %al
	jne	9f
	movl	%edx, %ebp
	movq	8(%r12), %rsi
	movq	16(%r12), %rdx
	movq	%r14, %rdi
	callq	"mime_store::magic::write_lines"
	testb	%al, %al
	jne	9f
	movl	-48(%r12), %eax
	movl	16(%r12), %ecx
	movl	%eax, 88(%rsp)
	movl	%ebp, 92(%rsp)
	movl	%ecx, 96(%rsp)
	movl	%edx, 100(%rsp)
	leaq	16(%rsp), %rdi
	leaq	88(%rsp), %rsi
	movl	$4, %edx
	callq	"smallvec::small_vec::SmallVec::extend_from_slice::<#8f588e0f66f62309>"
	testb	%al, %al
	jne	9f
	incq	%r13
	addq	$80, %r12
	decq	%rbx
	jne	3b
	movzbl	16(%rsp), %ebp
6:
	leaq	24(%rsp), %rax
	movq	16(%rax), %rcx
	movq	%rcx, 144(%rsp)
	movdqu	(%rax), %xmm0
	movdqa	%xmm0, 128(%rsp)
	movzbl	%bpl, %eax
	movq	%rax, 48(%rsp)
	leaq	56(%rsp), %r12
	movdqu	%xmm0, 56(%rsp)
	movq	%rcx, 72(%rsp)
	testb	%al, %al
	movq	56(%rsp), %rax
	movq	%rax, 8(%rsp)
	cmovneq	%rax, %r12
	leaq	72(%rsp), %rax
	leaq	64(%rsp), %rcx
	cmoveq	%rax, %rcx
	movq	(%rcx), %r13
	movq	8(%r14), %r9
	leaq	(%r9,%r13,4), %rbx
	cmpq	%r9, %rbx
	jbe	13f
	leaq	(,%r13,4), %rdx
	movq	16(%r14), %rcx
	movq	%rcx, %rax
	subq	%r9, %rax
	movq	%r9, %rdi
	cmpq	%rax, %rdx
	ja	30f
	movq	%rbp, 112(%rsp)
	movq	(%r14), %rbp
	cmpq	%rbx, %rdi
	jae	8f
7:
	addq	%rbp, %rdi
	xorl	%esi, %esi
	movq	%r9, (%rsp)
	movq	%rcx, 104(%rsp)
	callq	memset@PLT
	movq	104(%rsp), %rcx
	movq	(%rsp), %r9
8:
	movq	%rbp, (%r14)
	movq	%rbx, 8(%r14)
	movq	%rcx, 16(%r14)
	movq	112(%rsp), %rbp
	jmp	14f
9:
	cmpb	$1, 16(%rsp)
	jne	11f
	cmpq	$0, 40(%rsp)
	je	11f
	movq	24(%rsp), %rdi
10:
	callq	rattle_dealloc@PLT
11:
	movb	$1, %al
	xorl	%edx, %edx
12:
	addq	$152, %rsp
	popq	%rbx
	popq	%r12
	popq	%r13
	popq	%r14
	popq	%r15
	popq	%rbp
	retq
13:
	jae	14f
	movq	%rbx, 8(%r14)
14:
	testq	%r13, %r13
	je	22f
	movq	(%r14), %rax
	leaq	(%rax,%r9), %rcx
	cmpq	$8, %r13
	jb	15f
	movq	%rcx, %rdx
	subq	%r12, %rdx
	cmpq	$32, %rdx
	jae	20f
15:
	xorl	%edx, %edx
16:
	movq	%r13, %rdi
	movq	%rdx, %rsi
	andq	$3, %rdi
	je	18f
	movq	%rdx, %rsi
	.p2align	4
17:
	movl	(%r12,%rsi,4), %r8d
	bswapl	%r8d
	movl	%r8d, (%rcx,%rsi,4)
	incq	%rsi
	decq	%rdi
	jne	17b
18:
	subq	%r13, %rdx
	cmpq	$-4, %rdx
	ja	22f
	addq	%r9, %rax
	addq	$12, %rax
	.p2align	4
19:
	movl	(%r12,%rsi,4), %ecx
	bswapl	%ecx
	movl	%ecx, -12(%rax,%rsi,4)
	movl	4(%r12,%rsi,4), %ecx
	bswapl	%ecx
	movl	%ecx, -8(%rax,%rsi,4)
	movl	8(%r12,%rsi,4), %ecx
	bswapl	%ecx
	movl	%ecx, -4(%rax,%rsi,4)
	movl	12(%r12,%rsi,4), %ecx
	bswapl	%ecx
	movl	%ecx, (%rax,%rsi,4)
	addq	$4, %rsi
	cmpq	%rsi, %r13
	jne	19b
	jmp	22f
20:
	movq	%r13, %rdx
	andq	$-8, %rdx
	leaq	(%r9,%rax), %rsi
	addq	$16, %rsi
	xorl	%edi, %edi
	.p2align	4
21:
	movdqu	(%r12,%rdi,4), %xmm0
	movdqu	16(%r12,%rdi,4), %xmm1
	movdqa	1b(%rip), %xmm2
	pshufb	%xmm2, %xmm0
	pshufb	%xmm2, %xmm1
	movdqu	%xmm0, -16(%rsi,%rdi,4)
	movdqu	%xmm1, (%rsi,%rdi,4)
	addq	$8, %rdi
	cmpq	%rdi, %rdx
	jne	21b
	cmpq	%rdx, %r13
	jne	16b
22:
	movq	120(%rsp), %r13
	testq	%r13, %r13
	je	27f
	movq	%r9, (%rsp)
	addq	$64, %r15
	xorl	%eax, %eax
	movq	%r13, %rbx
	.p2align	4
23:
	movq	%rax, %r12
	movq	-8(%r15), %rdi
	movq	(%r15), %rsi
	callq	"mime_store::magic::extent_of_lines"
	cmpq	%rax, %r12
	cmovaq	%r12, %rax
	addq	$80, %r15
	decq	%rbx
	jne	23b
	bswapl	%eax
	movq	(%rsp), %r9
	movq	8(%r14), %rdx
	movq	%rdx, %rcx
	subq	$-12, %rcx
	jae	28f
24:
	movq	16(%r14), %rsi
	movq	%rsi, %rdi
	subq	%rdx, %rdi
	movq	%rdx, %r8
	cmpq	$11, %rdi
	jbe	31f
	movq	(%r14), %rdi
	cmpq	%rcx, %r8
	jae	26f
25:
	movl	$0, 8(%rdi,%r8)
	movq	$0, (%rdi,%r8)
26:
	movq	%rdi, (%r14)
	movq	%rcx, 8(%r14)
	movq	%rsi, 16(%r14)
	jmp	29f
27:
	xorl	%eax, %eax
	movq	8(%r14), %rdx
	movq	%rdx, %rcx
	subq	$-12, %rcx
	jb	24b
28:
	movq	%rcx, 8(%r14)
	movq	(%r14), %rdi
29:
	bswapl	%r13d
	movl	%r13d, (%rdi,%rdx)
	movl	%eax, 4(%rdi,%rdx)
	bswapl	%r9d
	movl	%r9d, 8(%rdi,%rdx)
	xorl	%eax, %eax
	cmpb	$1, %bpl
	jne	12b
	cmpq	$0, 72(%rsp)
	je	12b
	movq	8(%rsp), %rdi
	movq	%rdx, %rbx
	callq	rattle_dealloc@PLT
	movq	%rbx, %rdx
	xorl	%eax, %eax
	jmp	12b
30:
	movq	%r9, (%rsp)
	movq	%r14, %rdi
	movq	%rdx, %rbx
	movq	%rdx, %rsi
	callq	"std_alloc::vec::Vec::grow_amortized::<#06f9579a8fe94b13>"
	testb	%al, %al
	je	32f
	movq	8(%r14), %rdi
	movq	16(%r14), %rcx
	movq	%rbx, %rdx
	addq	%rdi, %rbx
	movq	(%rsp), %r9
	movq	%rbp, 112(%rsp)
	movq	(%r14), %rbp
	cmpq	%rbx, %rdi
	jb	7b
	jmp	8b
31:
	movq	%r9, %r12
	movq	%rax, %rbx
	movq	%rdx, %r15
	movl	$12, %esi
	movq	%r14, %rdi
	callq	"std_alloc::vec::Vec::grow_amortized::<#06f9579a8fe94b13>"
	testb	%al, %al
	je	32f
	movq	8(%r14), %r8
	movq	16(%r14), %rsi
	leaq	12(%r8), %rcx
	movq	%r15, %rdx
	movq	%rbx, %rax
	movq	%r12, %r9
	movq	(%r14), %rdi
	cmpq	%rcx, %r8
	jb	25b
	jmp	26b
32:
	xorl	%edx, %edx
	movb	$1, %al
	cmpb	$1, %bpl
	jne	12b
	cmpq	$0, 72(%rsp)
	je	12b
	movq	8(%rsp), %rdi
	jmp	10b
33:
	.size	"mime_store::magic::write_magic", 33b-"mime_store::magic::write_magic"

	.text
	.p2align	4
	.type	"mime_store::pairs::sort_pairs",@function
"mime_store::pairs::sort_pairs":
	pushq	%rbp
	pushq	%r15
	pushq	%r14
	pushq	%r13
	pushq	%r12
	pushq	%rbx
	subq	$120, %rsp
	movq	%rsi, %r14
	cmpq	$20, %rsi
	ja	3f
	movl	$1, %edx
	movq	%r14, %rsi
	callq	"core::slice::sort::small::insert_from::<#f98e8d76978ecc20>"
1:
	xorl	%eax, %eax
2:
	addq	$120, %rsp
	popq	%rbx
	popq	%r12
	popq	%r13
	popq	%r14
	popq	%r15
	popq	%rbp
	retq
3:
	movq	%rdi, %rbx
	movq	%r14, %rsi
	xorl	%edx, %edx
	callq	"core::slice::sort::pivot::run_from::<#f98e8d76978ecc20>"
	movl	%edx, %ebp
	cmpq	%r14, %rax
	jne	4f
	cmpb	$1, %bpl
	jne	1b
	movq	%r14, %rdx
	shrq	%rdx
	subq	%rdx, %r14
	shlq	$5, %r14
	addq	%rbx, %r14
	movq	%rbx, %rdi
	movq	%r14, %rsi
	callq	"core::slice::edits::mirror::<24'(,)::<#ee13f2425f1aee9b>>"
	jmp	1b
4:
	movq	%r14, %rdi
	shlq	$5, %rdi
	js	5f
	movq	%rax, %r12
	movl	$8, %esi
	callq	rattle_alloc@PLT
	xorl	%r15d, %r15d
	testb	$1, %al
	cmovneq	%rdx, %r15
	je	5f
	movq	%rdx, 32(%rsp)
	movq	%r14, 40(%rsp)
	cmpq	$65, %r14
	setae	%cl
	movq	%r14, %rax
	shrq	%rax
	cmpq	%rax, %r12
	setae	%dl
	orb	%cl, %dl
	jne	6f
	bsrq	%r14, %rcx
	xorl	$63, %ecx
	addl	%ecx, %ecx
	xorl	$126, %ecx
	leaq	32(%rsp), %r8
	movq	%rbx, %rdi
	movq	%r14, %rsi
	movq	%r14, %rdx
	jmp	11f
5:
	movb	$1, %al
	jmp	2b
6:
	xorps	%xmm0, %xmm0
	movaps	%xmm0, 96(%rsp)
	movaps	%xmm0, 80(%rsp)
	movq	$0, 112(%rsp)
	movl	$64, %r13d
	cmpq	$4097, %r14
	jb	8f
	movabsq	$4294967296, %rdx
	xorl	%ecx, %ecx
	.p2align	4
7:
	movq	%rcx, %rsi
	addq	%rdx, %rcx
	shrq	%rcx
	movq	%rcx, %rdi
	imulq	%rcx, %rdi
	cmpq	%r14, %rdi
	cmovaq	%rcx, %rdx
	cmovaq	%rsi, %rcx
	leaq	1(%rcx), %rsi
	cmpq	%rdx, %rsi
	jb	7b
	cmpq	$65, %rcx
	movl	$64, %r13d
	cmovaeq	%rcx, %r13
8:
	cmpq	%r13, %rax
	cmovbq	%rax, %r13
	movabsq	$4611686018427387904, %rax
	xorl	%edx, %edx
	divq	%r14
	incq	%rax
	cmpq	%r13, %r12
	movq	%r13, %r8
	cmovaq	%r12, %r8
	setae	%cl
	andb	%cl, %bpl
	cmpb	$1, %bpl
	jne	10f
	cmpq	$15, %r12
	jbe	13f
	movq	%r12, %rdx
	shrq	%rdx
	movq	%r12, %rsi
	subq	%rdx, %rsi
	shlq	$5, %rsi
	movq	%rbx, %rdi
	addq	%rbx, %rsi
	movq	%rax, %rbp
	callq	"core::slice::edits::mirror::<24'(,)::<#ee13f2425f1aee9b>>"
	movq	%rbp, %rax
9:
	movb	$1, %cl
	movq	%r12, %r8
10:
	leaq	32(%rsp), %rdx
	movq	%rdx, 24(%rsp)
	movq	%rax, 16(%rsp)
	movq	%r13, 8(%rsp)
	movl	$0, (%rsp)
	movzbl	%cl, %r9d
	leaq	80(%rsp), %rdi
	movq	%rbx, %rsi
	movq	%r14, %rdx
	xorl	%ecx, %ecx
	callq	"core::slice::sort::runs::climb::<#f98e8d76978ecc20>"
	testb	$1, 88(%rsp)
	jne	12f
	movq	80(%rsp), %rdx
	movl	$127, %eax
	bsrq	%rdx, %rax
	xorl	$63, %eax
	addl	%eax, %eax
	movl	$126, %ecx
	subl	%eax, %ecx
	leaq	32(%rsp), %r8
	movq	%rbx, %rdi
	movq	%rdx, %rsi
11:
	callq	"core::slice::sort::stable::quicksort::<#f98e8d76978ecc20>"
12:
	movq	%r15, %rdi
	callq	rattle_dealloc@PLT
	jmp	1b
13:
	leaq	-2(%r12), %rcx
	shrq	%rcx
	incq	%rcx
	movq	%r12, %rdx
	shlq	$5, %rdx
	movq	%rbx, %r8
	addq	%rbx, %rdx
	addq	$-32, %rdx
	movq	%r12, %rsi
	decq	%rsi
	xorl	%edi, %edi
	jmp	16f
14:
	movups	(%r8), %xmm0
	movups	16(%r8), %xmm1
	movaps	%xmm1, 64(%rsp)
	movaps	%xmm0, 48(%rsp)
	movups	(%rdx), %xmm0
	movups	16(%rdx), %xmm1
	movups	%xmm0, (%r8)
	movups	%xmm1, 16(%r8)
	movaps	48(%rsp), %xmm0
	movaps	64(%rsp), %xmm1
	movups	%xmm1, 16(%rdx)
	movups	%xmm0, (%rdx)
15:
	incq	%rdi
	addq	$32, %r8
	addq	$-32, %rdx
	decq	%rsi
	cmpq	%rdi, %rcx
	je	9b
16:
	cmpq	%rsi, %rdi
	jb	14b
	jbe	15b
	movups	(%rdx), %xmm0
	movups	16(%rdx), %xmm1
	movaps	%xmm1, 64(%rsp)
	movaps	%xmm0, 48(%rsp)
	movups	(%r8), %xmm0
	movups	16(%r8), %xmm1
	movups	%xmm0, (%rdx)
	movups	%xmm1, 16(%rdx)
	movaps	48(%rsp), %xmm0
	movaps	64(%rsp), %xmm1
	movups	%xmm1, 16(%r8)
	movups	%xmm0, (%r8)
	jmp	15b
17:
	.size	"mime_store::pairs::sort_pairs", 17b-"mime_store::pairs::sort_pairs"

	.text
	.p2align	4
	.type	"mime_store::pairs::texts_of_icons",@function
"mime_store::pairs::texts_of_icons":
	pushq	%rbp
	pushq	%r15
	pushq	%r14
	pushq	%r13
	pushq	%r12
	pushq	%rbx
	subq	$72, %rsp
	movq	%rdx, %r14
	xorps	%xmm0, %xmm0
	movaps	%xmm0, 16(%rsp)
	movq	$0, 32(%rsp)
	testq	%rdx, %rdx
	je	8f
	movq	%r14, %rax
	shrq	$58, %rax
	jne	7f
	movq	%rdi, %rbx
	movq	%r14, %rdi
	shlq	$5, %rdi
	movq	%rsi, 56(%rsp)
	movl	$8, %esi
	callq	rattle_alloc@PLT
	movq	56(%rsp), %r8
	movq	%rbx, %rdi
	testb	$1, %al
	je	7f
	movq	%rdi, 48(%rsp)
	movq	%rdx, 16(%rsp)
	movq	$0, 24(%rsp)
	movq	%r14, 32(%rsp)
	leaq	56(%r8), %r12
	xorl	%eax, %eax
	xorl	%r13d, %r13d
	jmp	2f
	.p2align	4
1:
	movq	(%r12), %rdi
	addq	$64, %rcx
	movq	(%rsi), %rbx
	movq	(%rcx), %r15
	cmpq	%rax, 32(%rsp)
	jne	5f
	jmp	6f
	.p2align	4
2:
	leaq	(,%r13,2), %rcx
	addq	%r13, %rcx
	shlq	$5, %rcx
	addq	%r8, %rcx
	leaq	-48(%r12), %rbp
	cmpb	$0, -56(%r12)
	je	3f
	movq	(%rbp), %rbp
	leaq	16(%rcx), %rsi
	cmpb	$0, -8(%r12)
	jne	1b
	jmp	4f
	.p2align	4
3:
	leaq	-16(%r12), %rsi
	cmpb	$0, -8(%r12)
	jne	1b
4:
	leaq	32(%r12), %rcx
	movq	%r12, %rdi
	movq	(%rsi), %rbx
	movq	(%rcx), %r15
	cmpq	%rax, 32(%rsp)
	je	6f
5:
	movq	%rax, %rcx
	shlq	$5, %rcx
	movq	%rbp, (%rdx,%rcx)
	movq	%rbx, 8(%rdx,%rcx)
	movq	%rdi, 16(%rdx,%rcx)
	movq	%r15, 24(%rdx,%rcx)
	incq	%rax
	movq	%rax, 24(%rsp)
	incq	%r13
	addq	$96, %r12
	decq	%r14
	jne	2b
	jmp	9f
6:
	movq	%rdi, 64(%rsp)
	leaq	16(%rsp), %rdi
	callq	"std_alloc::vec::Vec::grow_amortized::<#52d1c8244e310953>"
	testb	%al, %al
	je	11f
	movq	16(%rsp), %rdx
	movq	24(%rsp), %rax
	movq	56(%rsp), %r8
	movq	64(%rsp), %rdi
	jmp	5b
7:
	movb	$1, (%rdi)
	xorps	%xmm0, %xmm0
	movups	%xmm0, 8(%rdi)
	movq	$0, 24(%rdi)
	jmp	10f
8:
	movq	%rdi, 48(%rsp)
	leaq	8(%rsp), %rax
	movq	%rax, 16(%rsp)
	movq	%r14, 32(%rsp)
9:
	movq	48(%rsp), %rcx
	movb	$0, (%rcx)
	movq	16(%rsp), %rax
	movq	%rax, 8(%rcx)
	movq	24(%rsp), %rax
	movq	%rax, 16(%rcx)
	movq	32(%rsp), %rax
	movq	%rax, 24(%rcx)
10:
	addq	$72, %rsp
	popq	%rbx
	popq	%r12
	popq	%r13
	popq	%r14
	popq	%r15
	popq	%rbp
	retq
11:
	cmpq	$0, 32(%rsp)
	je	12f
	movq	16(%rsp), %rdi
	callq	rattle_dealloc@PLT
12:
	movq	48(%rsp), %rax
	movb	$1, (%rax)
	xorps	%xmm0, %xmm0
	movups	%xmm0, 8(%rax)
	movq	$0, 24(%rax)
	jmp	10b
13:
	.size	"mime_store::pairs::texts_of_icons", 13b-"mime_store::pairs::texts_of_icons"

	.text
	.p2align	4
	.type	"mime_store::parents::runs",@function
"mime_store::parents::runs":
	pushq	%rbp
	pushq	%r15
	pushq	%r14
	pushq	%r13
	pushq	%r12
	pushq	%rbx
	subq	$88, %rsp
	movq	%rdi, 56(%rsp)
	leaq	8(%rsp), %rax
	movq	%rax, 64(%rsp)
	movq	%rax, 24(%rsp)
	xorps	%xmm0, %xmm0
	movups	%xmm0, 32(%rsp)
	testq	%rdx, %rdx
	je	15f
	movq	%rdx, %r14
	movq	%rsi, %rbp
	leaq	8(%rsi), %rax
	movq	%rax, 48(%rsp)
	xorl	%eax, %eax
	movq	%rdx, 16(%rsp)
	movq	%rsi, 72(%rsp)
	jmp	4f
	.p2align	4
1:
	movq	16(%rsp), %r14
2:
	movq	32(%rsp), %rax
	cmpq	%rax, 40(%rsp)
	movq	72(%rsp), %rbp
	je	14f
3:
	addq	%rbp, %rbx
	movq	%rax, %rcx
	shlq	$5, %rcx
	movq	64(%rsp), %rdx
	movq	%r12, (%rdx,%rcx)
	movq	%r13, 8(%rdx,%rcx)
	movq	%rbx, 16(%rdx,%rcx)
	movq	%r15, 24(%rdx,%rcx)
	incq	%rax
	movq	%rax, 32(%rsp)
	movq	80(%rsp), %rax
	addq	%r15, %rax
	cmpq	%r14, %rax
	jae	15f
4:
	movq	%rax, %rbx
	shlq	$5, %rbx
	movq	(%rbp,%rbx), %r12
	movq	8(%rbp,%rbx), %r13
	movq	%r14, %rbp
	subq	%rax, %rbp
	cmpq	$4, %r13
	movq	%rax, 80(%rsp)
	jae	9f
	testq	%r13, %r13
	je	11f
	movq	48(%rsp), %rax
	addq	%rbx, %rax
	xorl	%r15d, %r15d
	jmp	8f
	.p2align	4
5:
	xorl	%edx, %edx
6:
	cmpq	%r13, %rdx
	jb	2b
7:
	incq	%r15
	addq	$32, %rax
	cmpq	%r15, %rbp
	je	13f
8:
	cmpq	%r13, (%rax)
	jne	2b
	movq	-8(%rax), %rcx
	movzbl	(%rcx), %edx
	cmpb	(%r12), %dl
	jne	5b
	cmpq	$1, %r13
	je	7b
	movzbl	1(%rcx), %esi
	movl	$1, %edx
	cmpb	1(%r12), %sil
	jne	6b
	cmpq	$2, %r13
	je	7b
	movzbl	2(%rcx), %ecx
	movl	$2, %edx
	cmpb	2(%r12), %cl
	jne	6b
	jmp	7b
	.p2align	4
9:
	movq	48(%rsp), %rax
	leaq	(%rax,%rbx), %r14
	xorl	%r15d, %r15d
	.p2align	4
10:
	cmpq	%r13, (%r14)
	jne	1b
	movq	-8(%r14), %rdi
	movl	(%rdi), %eax
	cmpl	(%r12), %eax
	jne	1b
	movq	%r13, %rsi
	movq	%r12, %rdx
	callq	"core::cmp::slices::groups_equal::<i8,31'core::cmp::numbers::U8PartialEq{}>"
	testb	%al, %al
	je	1b
	incq	%r15
	addq	$32, %r14
	cmpq	%r15, %rbp
	jne	10b
	movq	%rbp, %r15
	jmp	1b
11:
	movq	48(%rsp), %rax
	addq	%rbx, %rax
	xorl	%r15d, %r15d
	.p2align	4
12:
	cmpq	$0, (%rax)
	jne	2b
	incq	%r15
	addq	$32, %rax
	cmpq	%r15, %rbp
	jne	12b
13:
	movq	%rbp, %r15
	jmp	2b
14:
	leaq	24(%rsp), %rdi
	callq	"std_alloc::vec::Vec::grow_amortized::<#52d1c8244e310953>"
	testb	%al, %al
	je	17f
	movq	24(%rsp), %rax
	movq	%rax, 64(%rsp)
	movq	32(%rsp), %rax
	jmp	3b
15:
	movq	56(%rsp), %rcx
	movb	$0, (%rcx)
	movq	24(%rsp), %rax
	movq	%rax, 8(%rcx)
	movq	32(%rsp), %rax
	movq	%rax, 16(%rcx)
	movq	40(%rsp), %rax
	movq	%rax, 24(%rcx)
16:
	addq	$88, %rsp
	popq	%rbx
	popq	%r12
	popq	%r13
	popq	%r14
	popq	%r15
	popq	%rbp
	retq
17:
	cmpq	$0, 40(%rsp)
	je	18f
	movq	24(%rsp), %rdi
	callq	rattle_dealloc@PLT
18:
	movq	56(%rsp), %rax
	movb	$1, (%rax)
	xorps	%xmm0, %xmm0
	movups	%xmm0, 8(%rax)
	movq	$0, 24(%rax)
	jmp	16b
19:
	.size	"mime_store::parents::runs", 19b-"mime_store::parents::runs"

	.text
	.p2align	4
	.type	"mime_store::parts::parts_of",@function
"mime_store::parts::parts_of":
	pushq	%rbp
	pushq	%r15
	pushq	%r14
	pushq	%r13
	pushq	%r12
	pushq	%rbx
	subq	$776, %rsp
	movq	%rsi, %rbp
	movq	%rdi, %rbx
	xorps	%xmm0, %xmm0
	movaps	%xmm0, 752(%rsp)
	movaps	%xmm0, 736(%rsp)
	movaps	%xmm0, 704(%rsp)
	movaps	%xmm0, 720(%rsp)
	movaps	%xmm0, 672(%rsp)
	movaps	%xmm0, 688(%rsp)
	movaps	%xmm0, 640(%rsp)
	movaps	%xmm0, 656(%rsp)
	movaps	%xmm0, 80(%rsp)
	movaps	%xmm0, 96(%rsp)
	movaps	%xmm0, 608(%rsp)
	movaps	%xmm0, 624(%rsp)
	movaps	%xmm0, 576(%rsp)
	movaps	%xmm0, 592(%rsp)
	movaps	%xmm0, 528(%rsp)
	movq	$0, 544(%rsp)
	movaps	%xmm0, 496(%rsp)
	movq	$0, 512(%rsp)
	movaps	%xmm0, 464(%rsp)
	movq	$0, 480(%rsp)
	movaps	%xmm0, 432(%rsp)
	movq	$0, 448(%rsp)
	movaps	%xmm0, 400(%rsp)
	movq	$0, 416(%rsp)
	movaps	%xmm0, 368(%rsp)
	movq	$0, 384(%rsp)
	movaps	%xmm0, 336(%rsp)
	movq	$0, 352(%rsp)
	movaps	%xmm0, 304(%rsp)
	movq	$0, 320(%rsp)
	movaps	%xmm0, 272(%rsp)
	movq	$0, 288(%rsp)
	movaps	%xmm0, 240(%rsp)
	movq	$0, 256(%rsp)
	movaps	%xmm0, 208(%rsp)
	movq	$0, 224(%rsp)
	movaps	%xmm0, 176(%rsp)
	movq	$0, 192(%rsp)
	movaps	%xmm0, 144(%rsp)
	movq	$0, 160(%rsp)
	movaps	%xmm0, 112(%rsp)
	movq	$0, 128(%rsp)
	movq	24(%rsi), %rsi
	movq	32(%rbp), %rdx
	leaq	736(%rsp), %rdi
	callq	"mime_store::pairs::texts_of_icons"
	cmpb	$0, 736(%rsp)
	jne	3f
	movq	744(%rsp), %r14
	movq	752(%rsp), %r12
	movq	760(%rsp), %r15
	movq	%r14, %rdi
	movq	%r12, %rsi
	callq	"mime_store::pairs::sort_pairs"
	testb	%al, %al
	jne	2f
	movq	48(%rbp), %rsi
	movq	56(%rbp), %rdx
	leaq	704(%rsp), %rdi
	callq	"mime_store::pairs::texts_of_icons"
	cmpb	$0, 704(%rsp)
	jne	2f
	movq	712(%rsp), %rdi
	movq	720(%rsp), %rsi
	movq	728(%rsp), %r13
	movq	%rdi, (%rsp)
	movq	%rsi, 568(%rsp)
	callq	"mime_store::pairs::sort_pairs"
	testb	%al, %al
	je	5f
	testq	%r13, %r13
	je	2f
1:
	movq	(%rsp), %rdi
	callq	rattle_dealloc@PLT
2:
	testq	%r15, %r15
	je	3f
	movq	%r14, %rdi
	callq	rattle_dealloc@PLT
3:
	movb	$1, (%rbx)
	xorps	%xmm0, %xmm0
	movups	%xmm0, 8(%rbx)
	movups	%xmm0, 24(%rbx)
	movups	%xmm0, 40(%rbx)
	movups	%xmm0, 56(%rbx)
	movups	%xmm0, 72(%rbx)
	movups	%xmm0, 88(%rbx)
	movups	%xmm0, 104(%rbx)
	movups	%xmm0, 120(%rbx)
	movups	%xmm0, 136(%rbx)
	movups	%xmm0, 152(%rbx)
	movq	$0, 168(%rbx)
4:
	addq	$776, %rsp
	popq	%rbx
	popq	%r12
	popq	%r13
	popq	%r14
	popq	%r15
	popq	%rbp
	retq
5:
	movq	%r13, 8(%rsp)
	movq	(%rbp), %rsi
	movq	8(%rbp), %rdx
	leaq	672(%rsp), %rdi
	callq	"mime_store::rules::literal_rules"
	cmpb	$0, 672(%rsp)
	jne	18f
	movq	680(%rsp), %rdi
	movq	688(%rsp), %r13
	movq	696(%rsp), %rax
	movq	%rax, 24(%rsp)
	movq	%rdi, 16(%rsp)
	movq	%r13, %rsi
	callq	"mime_store::rules::sort_rules"
	testb	%al, %al
	je	6f
	movq	16(%rsp), %rax
	movq	%rax, 528(%rsp)
	movq	%r13, 536(%rsp)
	movq	24(%rsp), %rax
	movq	%rax, 544(%rsp)
	leaq	528(%rsp), %rdi
	jmp	17f
6:
	movq	%r13, 32(%rsp)
	movq	(%rbp), %rsi
	movq	8(%rbp), %rdx
	leaq	640(%rsp), %rdi
	callq	"mime_store::suffix_tree::endings"
	cmpb	$0, 640(%rsp)
	je	7f
	movq	16(%rsp), %rax
	movq	%rax, 496(%rsp)
	movq	32(%rsp), %rax
	movq	%rax, 504(%rsp)
	movq	24(%rsp), %rax
	movq	%rax, 512(%rsp)
	leaq	496(%rsp), %rdi
	jmp	17f
7:
	movq	648(%rsp), %rdi
	movq	656(%rsp), %r13
	movq	664(%rsp), %rax
	movq	%rax, 48(%rsp)
	movq	%rdi, 40(%rsp)
	movq	%r13, %rsi
	callq	"mime_store::suffix_tree::sort_endings"
	testb	%al, %al
	je	8f
	movq	40(%rsp), %rax
	movq	%rax, 464(%rsp)
	movq	%r13, 472(%rsp)
	movq	48(%rsp), %rax
	movq	%rax, 480(%rsp)
	leaq	464(%rsp), %rdi
	callq	"std_alloc::vec::Vec::drop::<#b75285eeea4a2d4d>"
	movq	16(%rsp), %rax
	movq	%rax, 432(%rsp)
	movq	32(%rsp), %rax
	movq	%rax, 440(%rsp)
	movq	24(%rsp), %rax
	movq	%rax, 448(%rsp)
	leaq	432(%rsp), %rdi
	jmp	17f
8:
	movq	%r13, 56(%rsp)
	movq	(%rbp), %rsi
	movq	8(%rbp), %rdx
	leaq	80(%rsp), %rdi
	callq	"mime_store::rules::glob_rules"
	cmpb	$0, 80(%rsp)
	je	9f
	movq	40(%rsp), %rax
	movq	%rax, 400(%rsp)
	movq	56(%rsp), %rax
	movq	%rax, 408(%rsp)
	movq	48(%rsp), %rax
	movq	%rax, 416(%rsp)
	leaq	400(%rsp), %rdi
	callq	"std_alloc::vec::Vec::drop::<#b75285eeea4a2d4d>"
	movq	16(%rsp), %rax
	movq	%rax, 368(%rsp)
	movq	32(%rsp), %rax
	movq	%rax, 376(%rsp)
	movq	24(%rsp), %rax
	movq	%rax, 384(%rsp)
	leaq	368(%rsp), %rdi
	jmp	17f
9:
	movq	96(%rbp), %rsi
	movq	104(%rbp), %rdx
	leaq	608(%rsp), %rdi
	callq	"mime_store::pairs::texts_of_icons"
	cmpb	$0, 608(%rsp)
	movq	56(%rsp), %r13
	je	10f
	leaq	88(%rsp), %rdi
	callq	"std_alloc::vec::Vec::drop::<#a9a081909576c235>"
	movq	40(%rsp), %rax
	movq	%rax, 336(%rsp)
	movq	%r13, 344(%rsp)
	movq	48(%rsp), %rax
	movq	%rax, 352(%rsp)
	leaq	336(%rsp), %rdi
	callq	"std_alloc::vec::Vec::drop::<#b75285eeea4a2d4d>"
	movq	16(%rsp), %rax
	movq	%rax, 304(%rsp)
	movq	32(%rsp), %rax
	movq	%rax, 312(%rsp)
	movq	24(%rsp), %rax
	movq	%rax, 320(%rsp)
	leaq	304(%rsp), %rdi
	jmp	17f
10:
	movq	616(%rsp), %rdi
	movq	624(%rsp), %rsi
	movq	632(%rsp), %rax
	movq	%rax, 72(%rsp)
	movq	%rdi, 64(%rsp)
	movq	%rsi, 560(%rsp)
	callq	"mime_store::pairs::sort_pairs"
	testb	%al, %al
	je	12f
	cmpq	$0, 72(%rsp)
	je	11f
	movq	64(%rsp), %rdi
	callq	rattle_dealloc@PLT
11:
	leaq	88(%rsp), %rdi
	callq	"std_alloc::vec::Vec::drop::<#a9a081909576c235>"
	movq	40(%rsp), %rax
	movq	%rax, 272(%rsp)
	movq	%r13, 280(%rsp)
	movq	48(%rsp), %rax
	movq	%rax, 288(%rsp)
	leaq	272(%rsp), %rdi
	callq	"std_alloc::vec::Vec::drop::<#b75285eeea4a2d4d>"
	movq	16(%rsp), %rax
	movq	%rax, 240(%rsp)
	movq	32(%rsp), %rax
	movq	%rax, 248(%rsp)
	movq	24(%rsp), %rax
	movq	%rax, 256(%rsp)
	leaq	240(%rsp), %rdi
	jmp	17f
12:
	movq	120(%rbp), %rsi
	movq	128(%rbp), %rdx
	leaq	576(%rsp), %rdi
	callq	"mime_store::pairs::texts_of_icons"
	cmpb	$0, 576(%rsp)
	je	14f
	cmpq	$0, 72(%rsp)
	je	13f
	movq	64(%rsp), %rdi
	callq	rattle_dealloc@PLT
13:
	leaq	88(%rsp), %rdi
	callq	"std_alloc::vec::Vec::drop::<#a9a081909576c235>"
	movq	40(%rsp), %rax
	movq	%rax, 208(%rsp)
	movq	56(%rsp), %rax
	movq	%rax, 216(%rsp)
	movq	48(%rsp), %rax
	movq	%rax, 224(%rsp)
	leaq	208(%rsp), %rdi
	callq	"std_alloc::vec::Vec::drop::<#b75285eeea4a2d4d>"
	movq	16(%rsp), %rax
	movq	%rax, 176(%rsp)
	movq	32(%rsp), %rax
	movq	%rax, 184(%rsp)
	movq	24(%rsp), %rax
	movq	%rax, 192(%rsp)
	leaq	176(%rsp), %rdi
	jmp	17f
14:
	movq	584(%rsp), %rbp
	movq	592(%rsp), %rsi
	movq	600(%rsp), %r13
	movq	%rbp, %rdi
	movq	%rsi, 552(%rsp)
	callq	"mime_store::pairs::sort_pairs"
	testb	%al, %al
	je	19f
	testq	%r13, %r13
	je	15f
	movq	%rbp, %rdi
	callq	rattle_dealloc@PLT
15:
	cmpq	$0, 72(%rsp)
	je	16f
	movq	64(%rsp), %rdi
	callq	rattle_dealloc@PLT
16:
	leaq	88(%rsp), %rdi
	callq	"std_alloc::vec::Vec::drop::<#a9a081909576c235>"
	movq	40(%rsp), %rax
	movq	%rax, 144(%rsp)
	movq	56(%rsp), %rax
	movq	%rax, 152(%rsp)
	movq	48(%rsp), %rax
	movq	%rax, 160(%rsp)
	leaq	144(%rsp), %rdi
	callq	"std_alloc::vec::Vec::drop::<#b75285eeea4a2d4d>"
	movq	16(%rsp), %rax
	movq	%rax, 112(%rsp)
	movq	32(%rsp), %rax
	movq	%rax, 120(%rsp)
	movq	24(%rsp), %rax
	movq	%rax, 128(%rsp)
	leaq	112(%rsp), %rdi
17:
	callq	"std_alloc::vec::Vec::drop::<#a9a081909576c235>"
18:
	cmpq	$0, 8(%rsp)
	jne	1b
	jmp	2b
19:
	movb	$0, (%rbx)
	movq	%r14, 8(%rbx)
	movq	%r12, 16(%rbx)
	movq	%r15, 24(%rbx)
	movq	(%rsp), %rax
	movq	%rax, 32(%rbx)
	movq	568(%rsp), %rax
	movq	%rax, 40(%rbx)
	movq	8(%rsp), %rax
	movq	%rax, 48(%rbx)
	movq	16(%rsp), %rax
	movq	%rax, 56(%rbx)
	movq	32(%rsp), %rax
	movq	%rax, 64(%rbx)
	movq	24(%rsp), %rax
	movq	%rax, 72(%rbx)
	movq	40(%rsp), %rax
	movq	%rax, 80(%rbx)
	movq	56(%rsp), %rax
	movq	%rax, 88(%rbx)
	movq	48(%rsp), %rax
	movq	%rax, 96(%rbx)
	leaq	88(%rsp), %rax
	movups	(%rax), %xmm0
	movups	%xmm0, 104(%rbx)
	movq	16(%rax), %rax
	movq	%rax, 120(%rbx)
	movq	64(%rsp), %rax
	movq	%rax, 128(%rbx)
	movq	560(%rsp), %rax
	movq	%rax, 136(%rbx)
	movq	72(%rsp), %rax
	movq	%rax, 144(%rbx)
	movq	%rbp, 152(%rbx)
	movq	552(%rsp), %rax
	movq	%rax, 160(%rbx)
	movq	%r13, 168(%rbx)
	jmp	4b
20:
	.size	"mime_store::parts::parts_of", 20b-"mime_store::parts::parts_of"

	.text
	.p2align	4
	.type	"mime_store::room::take_lines",@function
"mime_store::room::take_lines":
	pushq	%r15
	pushq	%r14
	pushq	%rbx
	movq	%rdi, %rcx
	movb	$1, %bl
	testq	%rdx, %rdx
	je	5f
	movq	%rdx, %r14
	movq	%rsi, %r15
	addq	$80, %r15
	.p2align	4
1:
	subq	$32, %rcx
	jb	6f
	movq	-56(%r15), %rax
	cmpq	%rax, %rcx
	jb	6f
	movl	%eax, %esi
	negl	%esi
	andl	$3, %esi
	addq	%rax, %rsi
	xorl	%edx, %edx
	movl	$0, %edi
	subq	%rsi, %rcx
	jb	2f
	movq	%rcx, %rdi
2:
	jb	7f
	cmpb	$0, -40(%r15)
	je	4f
	movq	-24(%r15), %rax
	cmpq	%rax, %rdi
	jb	6f
	movl	%eax, %ecx
	negl	%ecx
	andl	$3, %ecx
	addq	%rax, %rcx
	xorl	%edx, %edx
	movl	$0, %eax
	subq	%rcx, %rdi
	jb	3f
	movq	%rdi, %rax
3:
	movq	%rax, %rdi
	jb	7f
4:
	movq	-8(%r15), %rsi
	movq	(%r15), %rdx
	callq	"mime_store::room::take_lines"
	cmpb	$1, %al
	jne	6f
	movq	%rdx, %rcx
	addq	$96, %r15
	decq	%r14
	jne	1b
5:
	movq	%rcx, %rdx
	jmp	8f
6:
	xorl	%edx, %edx
7:
	xorl	%ebx, %ebx
8:
	movl	%ebx, %eax
	popq	%rbx
	popq	%r14
	popq	%r15
	retq
9:
	.size	"mime_store::room::take_lines", 9b-"mime_store::room::take_lines"

	.text
	.p2align	4
	.type	"mime_store::rules::compared",@function
"mime_store::rules::compared":
	pushq	%rbp
	pushq	%r15
	pushq	%r14
	pushq	%r12
	pushq	%rbx
	subq	$32, %rsp
	movq	%rcx, %r14
	movq	%rdx, %r15
	movq	%rdi, %rbx
	testl	%esi, %esi
	je	2f
	testq	%r14, %r14
	je	3f
	js	9f
	movl	$1, %esi
	movq	%r14, %rdi
	callq	rattle_alloc@PLT
	testb	$1, %al
	je	9f
	movq	%rdx, %r12
	movq	%r12, %rcx
	subq	%r15, %rcx
	cmpq	%r14, %rcx
	jb	4f
1:
	movq	%r12, %rdi
	movq	%r15, %rsi
	movq	%r14, %rdx
	callq	memmove@PLT
	jmp	20f
2:
	testq	%r14, %r14
	je	5f
	js	9f
	movl	$1, %esi
	movq	%r14, %rdi
	callq	rattle_alloc@PLT
	testb	$1, %al
	je	9f
	movq	%rdx, 8(%rsp)
	movq	$0, 16(%rsp)
	movq	%r14, 24(%rsp)
	xorl	%eax, %eax
	xorl	%r12d, %r12d
	jmp	8f
3:
	leaq	7(%rsp), %r12
	movq	%r12, %rcx
	subq	%r15, %rcx
	cmpq	%r14, %rcx
	jae	1b
4:
	xorl	%eax, %eax
	cmpq	$4, %r14
	jb	16f
	cmpq	$32, %rcx
	jb	16f
	cmpq	$32, %r14
	jae	12f
	xorl	%eax, %eax
	jmp	14f
5:
	leaq	7(%rsp), %rdx
	xorl	%ecx, %ecx
	xorl	%eax, %eax
	jmp	11f
6:
	movq	8(%rsp), %rdx
	movq	16(%rsp), %rax
	.p2align	4
7:
	movb	%bpl, (%rdx,%rax)
	incq	%rax
	movq	%rax, 16(%rsp)
	incq	%r12
	cmpq	%r12, %r14
	je	10f
8:
	movzbl	(%r15,%r12), %ecx
	leal	-65(%rcx), %esi
	leal	32(%rcx), %edi
	cmpb	$26, %sil
	movzbl	%dil, %ebp
	cmovael	%ecx, %ebp
	cmpq	%rax, 24(%rsp)
	jne	7b
	leaq	8(%rsp), %rdi
	callq	"std_alloc::vec::Vec::grow_amortized::<#0135d645f841a886>"
	testb	%al, %al
	jne	6b
	cmpq	$0, 24(%rsp)
	je	9f
	movq	8(%rsp), %rdi
	callq	rattle_dealloc@PLT
9:
	movb	$1, (%rbx)
	xorps	%xmm0, %xmm0
	movups	%xmm0, 8(%rbx)
	movq	$0, 24(%rbx)
	jmp	21f
10:
	movq	8(%rsp), %rdx
	movq	24(%rsp), %rcx
11:
	movb	$0, (%rbx)
	movq	%rdx, 8(%rbx)
	movq	%rax, 16(%rbx)
	movq	%rcx, 24(%rbx)
	jmp	21f
12:
	movq	%r14, %rax
	andq	$-32, %rax
	xorl	%ecx, %ecx
	.p2align	4
13:
	movups	(%r15,%rcx), %xmm0
	movups	16(%r15,%rcx), %xmm1
	movups	%xmm0, (%r12,%rcx)
	movups	%xmm1, 16(%r12,%rcx)
	addq	$32, %rcx
	cmpq	%rcx, %rax
	jne	13b
	cmpq	%rax, %r14
	je	20f
	testb	$28, %r14b
	je	16f
14:
	movq	%rax, %rcx
	movq	%r14, %rax
	andq	$-4, %rax
	.p2align	4
15:
	movl	(%r15,%rcx), %edx
	movl	%edx, (%r12,%rcx)
	addq	$4, %rcx
	cmpq	%rcx, %rax
	jne	15b
	cmpq	%rax, %r14
	je	20f
16:
	movq	%r14, %rdx
	movq	%rax, %rcx
	andq	$3, %rdx
	je	18f
	movq	%rax, %rcx
	.p2align	4
17:
	movzbl	(%r15,%rcx), %esi
	movb	%sil, (%r12,%rcx)
	incq	%rcx
	decq	%rdx
	jne	17b
18:
	subq	%r14, %rax
	cmpq	$-4, %rax
	ja	20f
	.p2align	4
19:
	movzbl	(%r15,%rcx), %eax
	movb	%al, (%r12,%rcx)
	movzbl	1(%r15,%rcx), %eax
	movb	%al, 1(%r12,%rcx)
	movzbl	2(%r15,%rcx), %eax
	movb	%al, 2(%r12,%rcx)
	movzbl	3(%r15,%rcx), %eax
	movb	%al, 3(%r12,%rcx)
	addq	$4, %rcx
	cmpq	%rcx, %r14
	jne	19b
20:
	movb	$0, (%rbx)
	movq	%r12, 8(%rbx)
	movq	%r14, 16(%rbx)
	movq	%r14, 24(%rbx)
21:
	addq	$32, %rsp
	popq	%rbx
	popq	%r12
	popq	%r14
	popq	%r15
	popq	%rbp
	retq
22:
	.size	"mime_store::rules::compared", 22b-"mime_store::rules::compared"

	.text
	.p2align	4
	.type	"mime_store::rules::glob_rules",@function
"mime_store::rules::glob_rules":
	pushq	%rbp
	pushq	%r15
	pushq	%r14
	pushq	%r13
	pushq	%r12
	pushq	%rbx
	subq	$136, %rsp
	movq	%rdi, 40(%rsp)
	leaq	8(%rsp), %r14
	movq	%r14, 16(%rsp)
	xorps	%xmm0, %xmm0
	movups	%xmm0, 24(%rsp)
	testq	%rdx, %rdx
	je	10f
	movq	%rdx, %r15
	movq	%rsi, %rbx
	xorl	%ebp, %ebp
	movq	%rsi, %r12
	jmp	4f
1:
	movq	16(%rsp), %r14
	movq	24(%rsp), %rax
	movaps	112(%rsp), %xmm0
	.p2align	4
2:
	movq	%rax, %rcx
	shlq	$5, %rcx
	movq	%r13, (%r14,%rcx)
	movups	%xmm0, 8(%r14,%rcx)
	movq	%r12, 24(%r14,%rcx)
	incq	%rax
	movq	%rax, 24(%rsp)
3:
	incq	%rbp
	addq	$104, %r12
	decq	%r15
	je	10f
4:
	movzbl	88(%r12), %eax
	testl	%eax, %eax
	je	3b
	cmpl	$1, %eax
	jne	5f
	movzbl	56(%r12), %eax
	xorl	%ecx, %ecx
	testb	%al, %al
	sete	%cl
	cmpq	$1, 72(%r12,%rcx,8)
	jne	3b
	jmp	6f
	.p2align	4
5:
	movzbl	56(%r12), %eax
6:
	xorps	%xmm0, %xmm0
	movaps	%xmm0, 64(%rsp)
	movaps	%xmm0, 48(%rsp)
	leaq	64(%r12), %rdx
	testb	%al, %al
	je	7f
	imulq	$104, %rbp, %rax
	addq	%rbx, %rax
	movq	(%rdx), %rdx
	addq	$72, %rax
	jmp	8f
7:
	leaq	80(%r12), %rax
8:
	movq	(%rax), %rcx
	movzbl	96(%r12), %esi
	leaq	48(%rsp), %rdi
	callq	"mime_store::rules::compared"
	cmpb	$0, 48(%rsp)
	jne	13f
	movq	56(%rsp), %r13
	movaps	64(%rsp), %xmm0
	movq	24(%rsp), %rax
	cmpq	%rax, 32(%rsp)
	jne	2b
	movaps	%xmm0, 112(%rsp)
	movq	72(%rsp), %r14
	leaq	16(%rsp), %rdi
	callq	"std_alloc::vec::Vec::grow_amortized::<#52d1c8244e310953>"
	testb	%al, %al
	jne	1b
	testq	%r14, %r14
	je	9f
	movq	%r13, %rdi
	callq	rattle_dealloc@PLT
9:
	movq	16(%rsp), %r14
	movq	24(%rsp), %r15
	movq	32(%rsp), %rbx
	testq	%r15, %r15
	je	20f
	leaq	16(%r14), %r12
	jmp	12f
10:
	movq	40(%rsp), %rcx
	movb	$0, (%rcx)
	movq	16(%rsp), %rax
	movq	%rax, 8(%rcx)
	movq	24(%rsp), %rax
	movq	%rax, 16(%rcx)
	movq	32(%rsp), %rax
	jmp	18f
	.p2align	4
11:
	addq	$32, %r12
	decq	%r15
	je	20f
12:
	cmpq	$0, (%r12)
	je	11b
	movq	-16(%r12), %rdi
	callq	rattle_dealloc@PLT
	jmp	11b
13:
	xorps	%xmm0, %xmm0
	movaps	%xmm0, 80(%rsp)
	movq	$0, 96(%rsp)
	movq	24(%rsp), %r15
	movq	32(%rsp), %rbx
	testq	%r15, %r15
	je	16f
	leaq	16(%r14), %r12
	jmp	15f
	.p2align	4
14:
	addq	$32, %r12
	decq	%r15
	je	16f
15:
	cmpq	$0, (%r12)
	je	14b
	movq	-16(%r12), %rdi
	callq	rattle_dealloc@PLT
	jmp	14b
16:
	testq	%rbx, %rbx
	je	17f
	movq	%r14, %rdi
	callq	rattle_dealloc@PLT
17:
	movq	40(%rsp), %rcx
	movb	$1, (%rcx)
	movaps	80(%rsp), %xmm0
	movups	%xmm0, 8(%rcx)
	movq	96(%rsp), %rax
18:
	movq	%rax, 24(%rcx)
19:
	addq	$136, %rsp
	popq	%rbx
	popq	%r12
	popq	%r13
	popq	%r14
	popq	%r15
	popq	%rbp
	retq
20:
	testq	%rbx, %rbx
	je	21f
	movq	%r14, %rdi
	callq	rattle_dealloc@PLT
21:
	movq	40(%rsp), %rax
	movb	$1, (%rax)
	xorps	%xmm0, %xmm0
	movups	%xmm0, 8(%rax)
	movq	$0, 24(%rax)
	jmp	19b
22:
	.size	"mime_store::rules::glob_rules", 22b-"mime_store::rules::glob_rules"

	.text
	.p2align	4
	.type	"mime_store::rules::literal_rules",@function
"mime_store::rules::literal_rules":
	pushq	%rbp
	pushq	%r15
	pushq	%r14
	pushq	%r13
	pushq	%r12
	pushq	%rbx
	subq	$136, %rsp
	movq	%rdi, 40(%rsp)
	leaq	8(%rsp), %r14
	movq	%r14, 16(%rsp)
	xorps	%xmm0, %xmm0
	movups	%xmm0, 24(%rsp)
	testq	%rdx, %rdx
	je	6f
	movq	%rdx, %r15
	movq	%rsi, %rbx
	xorl	%ebp, %ebp
	movq	%rsi, %r12
	jmp	3f
	.p2align	4
1:
	movq	%rax, %rcx
	shlq	$5, %rcx
	movq	%r13, (%r14,%rcx)
	movups	%xmm0, 8(%r14,%rcx)
	movq	%r12, 24(%r14,%rcx)
	incq	%rax
	movq	%rax, 24(%rsp)
2:
	incq	%rbp
	addq	$104, %r12
	decq	%r15
	je	6f
3:
	cmpb	$0, 88(%r12)
	jne	2b
	xorps	%xmm0, %xmm0
	movaps	%xmm0, 64(%rsp)
	movaps	%xmm0, 48(%rsp)
	leaq	64(%r12), %rdx
	cmpb	$0, 56(%r12)
	je	4f
	imulq	$104, %rbp, %rax
	addq	%rbx, %rax
	movq	(%rdx), %rdx
	addq	$72, %rax
	jmp	5f
4:
	leaq	80(%r12), %rax
5:
	movq	(%rax), %rcx
	movzbl	96(%r12), %esi
	leaq	48(%rsp), %rdi
	callq	"mime_store::rules::compared"
	cmpb	$0, 48(%rsp)
	jne	9f
	movq	56(%rsp), %r13
	movaps	64(%rsp), %xmm0
	movq	24(%rsp), %rax
	cmpq	%rax, 32(%rsp)
	jne	1b
	movaps	%xmm0, 112(%rsp)
	movq	72(%rsp), %r14
	leaq	16(%rsp), %rdi
	callq	"std_alloc::vec::Vec::grow_amortized::<#52d1c8244e310953>"
	testb	%al, %al
	je	14f
	movq	16(%rsp), %r14
	movq	24(%rsp), %rax
	movaps	112(%rsp), %xmm0
	jmp	1b
6:
	movq	40(%rsp), %rcx
	movb	$0, (%rcx)
	movq	16(%rsp), %rax
	movq	%rax, 8(%rcx)
	movq	24(%rsp), %rax
	movq	%rax, 16(%rcx)
	movq	32(%rsp), %rax
7:
	movq	%rax, 24(%rcx)
8:
	addq	$136, %rsp
	popq	%rbx
	popq	%r12
	popq	%r13
	popq	%r14
	popq	%r15
	popq	%rbp
	retq
9:
	xorps	%xmm0, %xmm0
	movaps	%xmm0, 80(%rsp)
	movq	$0, 96(%rsp)
	movq	24(%rsp), %r15
	movq	32(%rsp), %rbx
	testq	%r15, %r15
	je	12f
	leaq	16(%r14), %r12
	jmp	11f
	.p2align	4
10:
	addq	$32, %r12
	decq	%r15
	je	12f
11:
	cmpq	$0, (%r12)
	je	10b
	movq	-16(%r12), %rdi
	callq	rattle_dealloc@PLT
	jmp	10b
12:
	testq	%rbx, %rbx
	je	13f
	movq	%r14, %rdi
	callq	rattle_dealloc@PLT
13:
	movq	40(%rsp), %rcx
	movb	$1, (%rcx)
	movaps	80(%rsp), %xmm0
	movups	%xmm0, 8(%rcx)
	movq	96(%rsp), %rax
	jmp	7b
14:
	testq	%r14, %r14
	je	15f
	movq	%r13, %rdi
	callq	rattle_dealloc@PLT
15:
	movq	16(%rsp), %r14
	movq	24(%rsp), %r15
	movq	32(%rsp), %rbx
	testq	%r15, %r15
	je	18f
	leaq	16(%r14), %r12
	jmp	17f
16:
	addq	$32, %r12
	decq	%r15
	je	18f
17:
	cmpq	$0, (%r12)
	je	16b
	movq	-16(%r12), %rdi
	callq	rattle_dealloc@PLT
	jmp	16b
18:
	testq	%rbx, %rbx
	je	19f
	movq	%r14, %rdi
	callq	rattle_dealloc@PLT
19:
	movq	40(%rsp), %rax
	movb	$1, (%rax)
	xorps	%xmm0, %xmm0
	movups	%xmm0, 8(%rax)
	movq	$0, 24(%rax)
	jmp	8b
20:
	.size	"mime_store::rules::literal_rules", 20b-"mime_store::rules::literal_rules"

	.text
	.p2align	4
	.type	"mime_store::rules::sort_rules",@function
"mime_store::rules::sort_rules":
	pushq	%rbp
	pushq	%r15
	pushq	%r14
	pushq	%r13
	pushq	%r12
	pushq	%rbx
	subq	$120, %rsp
	movq	%rsi, %r14
	cmpq	$20, %rsi
	ja	3f
	movl	$1, %edx
	movq	%r14, %rsi
	callq	"core::slice::sort::small::insert_from::<#b4bd7111e818b46c>"
1:
	xorl	%eax, %eax
2:
	addq	$120, %rsp
	popq	%rbx
	popq	%r12
	popq	%r13
	popq	%r14
	popq	%r15
	popq	%rbp
	retq
3:
	movq	%rdi, %rbx
	movq	%r14, %rsi
	xorl	%edx, %edx
	callq	"core::slice::sort::pivot::run_from::<#b4bd7111e818b46c>"
	movl	%edx, %ebp
	cmpq	%r14, %rax
	jne	4f
	cmpb	$1, %bpl
	jne	1b
	movq	%r14, %rdx
	shrq	%rdx
	subq	%rdx, %r14
	shlq	$5, %r14
	addq	%rbx, %r14
	movq	%rbx, %rdi
	movq	%r14, %rsi
	callq	"core::slice::edits::mirror::<24'(,)::<#ee13f2425f1aee9b>>"
	jmp	1b
4:
	movq	%r14, %rdi
	shlq	$5, %rdi
	js	5f
	movq	%rax, %r12
	movl	$8, %esi
	callq	rattle_alloc@PLT
	xorl	%r15d, %r15d
	testb	$1, %al
	cmovneq	%rdx, %r15
	je	5f
	movq	%rdx, 32(%rsp)
	movq	%r14, 40(%rsp)
	cmpq	$65, %r14
	setae	%cl
	movq	%r14, %rax
	shrq	%rax
	cmpq	%rax, %r12
	setae	%dl
	orb	%cl, %dl
	jne	6f
	bsrq	%r14, %rcx
	xorl	$63, %ecx
	addl	%ecx, %ecx
	xorl	$126, %ecx
	leaq	32(%rsp), %r8
	movq	%rbx, %rdi
	movq	%r14, %rsi
	movq	%r14, %rdx
	jmp	11f
5:
	movb	$1, %al
	jmp	2b
6:
	xorps	%xmm0, %xmm0
	movaps	%xmm0, 96(%rsp)
	movaps	%xmm0, 80(%rsp)
	movq	$0, 112(%rsp)
	movl	$64, %r13d
	cmpq	$4097, %r14
	jb	8f
	movabsq	$4294967296, %rdx
	xorl	%ecx, %ecx
	.p2align	4
7:
	movq	%rcx, %rsi
	addq	%rdx, %rcx
	shrq	%rcx
	movq	%rcx, %rdi
	imulq	%rcx, %rdi
	cmpq	%r14, %rdi
	cmovaq	%rcx, %rdx
	cmovaq	%rsi, %rcx
	leaq	1(%rcx), %rsi
	cmpq	%rdx, %rsi
	jb	7b
	cmpq	$65, %rcx
	movl	$64, %r13d
	cmovaeq	%rcx, %r13
8:
	cmpq	%r13, %rax
	cmovbq	%rax, %r13
	movabsq	$4611686018427387904, %rax
	xorl	%edx, %edx
	divq	%r14
	incq	%rax
	cmpq	%r13, %r12
	movq	%r13, %r8
	cmovaq	%r12, %r8
	setae	%cl
	andb	%cl, %bpl
	cmpb	$1, %bpl
	jne	10f
	cmpq	$15, %r12
	jbe	13f
	movq	%r12, %rdx
	shrq	%rdx
	movq	%r12, %rsi
	subq	%rdx, %rsi
	shlq	$5, %rsi
	movq	%rbx, %rdi
	addq	%rbx, %rsi
	movq	%rax, %rbp
	callq	"core::slice::edits::mirror::<24'(,)::<#ee13f2425f1aee9b>>"
	movq	%rbp, %rax
9:
	movb	$1, %cl
	movq	%r12, %r8
10:
	leaq	32(%rsp), %rdx
	movq	%rdx, 24(%rsp)
	movq	%rax, 16(%rsp)
	movq	%r13, 8(%rsp)
	movl	$0, (%rsp)
	movzbl	%cl, %r9d
	leaq	80(%rsp), %rdi
	movq	%rbx, %rsi
	movq	%r14, %rdx
	xorl	%ecx, %ecx
	callq	"core::slice::sort::runs::climb::<#b4bd7111e818b46c>"
	testb	$1, 88(%rsp)
	jne	12f
	movq	80(%rsp), %rdx
	movl	$127, %eax
	bsrq	%rdx, %rax
	xorl	$63, %eax
	addl	%eax, %eax
	movl	$126, %ecx
	subl	%eax, %ecx
	leaq	32(%rsp), %r8
	movq	%rbx, %rdi
	movq	%rdx, %rsi
11:
	callq	"core::slice::sort::stable::quicksort::<#b4bd7111e818b46c>"
12:
	movq	%r15, %rdi
	callq	rattle_dealloc@PLT
	jmp	1b
13:
	leaq	-2(%r12), %rcx
	shrq	%rcx
	incq	%rcx
	movq	%r12, %rdx
	shlq	$5, %rdx
	movq	%rbx, %r8
	addq	%rbx, %rdx
	addq	$-32, %rdx
	movq	%r12, %rsi
	decq	%rsi
	xorl	%edi, %edi
	jmp	16f
14:
	movups	(%r8), %xmm0
	movups	16(%r8), %xmm1
	movaps	%xmm1, 64(%rsp)
	movaps	%xmm0, 48(%rsp)
	movups	(%rdx), %xmm0
	movups	16(%rdx), %xmm1
	movups	%xmm0, (%r8)
	movups	%xmm1, 16(%r8)
	movaps	48(%rsp), %xmm0
	movaps	64(%rsp), %xmm1
	movups	%xmm1, 16(%rdx)
	movups	%xmm0, (%rdx)
15:
	incq	%rdi
	addq	$32, %r8
	addq	$-32, %rdx
	decq	%rsi
	cmpq	%rdi, %rcx
	je	9b
16:
	cmpq	%rsi, %rdi
	jb	14b
	jbe	15b
	movups	(%rdx), %xmm0
	movups	16(%rdx), %xmm1
	movaps	%xmm1, 64(%rsp)
	movaps	%xmm0, 48(%rsp)
	movups	(%r8), %xmm0
	movups	16(%r8), %xmm1
	movups	%xmm0, (%rdx)
	movups	%xmm1, 16(%rdx)
	movaps	48(%rsp), %xmm0
	movaps	64(%rsp), %xmm1
	movups	%xmm1, 16(%r8)
	movups	%xmm0, (%r8)
	jmp	15b
17:
	.size	"mime_store::rules::sort_rules", 17b-"mime_store::rules::sort_rules"

	.section	.rodata.cst16,"aM",@progbits,16
	.p2align	4, 0x0
1:
	.byte	7,6,5,4,3,2,1,0
	.zero	1
	.zero	1
	.zero	1
	.zero	1
	.zero	1
	.zero	1
	.zero	1
	.zero	1
2:
	.byte	191,191,191,191,191,191,191,191
	.zero	1
	.zero	1
	.zero	1
	.zero	1
	.zero	1
	.zero	1
	.zero	1
	.zero	1
3:
	.byte	26,26,26,26,26,26,26,26
	.zero	1
	.zero	1
	.zero	1
	.zero	1
	.zero	1
	.zero	1
	.zero	1
	.zero	1
4:
	.byte	32,32,32,32,32,32,32,32
	.zero	1
	.zero	1
	.zero	1
	.zero	1
	.zero	1
	.zero	1
	.zero	1
	.zero	1
	.text
	.p2align	4
	.type	"mime_store::suffix_tree::endings",@function
"mime_store::suffix_tree::endings":
	pushq	%rbp
	pushq	%r15
	pushq	%r14
	pushq	%r13
	pushq	%r12
	pushq	%rbx
	subq	$120, %rsp
	movq	%rdx, %r14
	pxor	%xmm0, %xmm0
	movdqa	%xmm0, 16(%rsp)
	movq	$0, 32(%rsp)
	testq	%rdx, %rdx
	je	44f
	movabsq	$230584300921369395, %rax
	cmpq	%rax, %r14
	ja	43f
	movq	%rsi, %r12
	leaq	(,%r14,8), %rax
	movq	%rdi, %rbx
	leaq	(%rax,%rax,4), %rdi
	movl	$8, %esi
	callq	rattle_alloc@PLT
	movq	%rbx, %rdi
	testb	$1, %al
	je	43f
	movq	%rdi, 56(%rsp)
	movq	%rdx, 16(%rsp)
	movq	$0, 24(%rsp)
	movq	%r14, 32(%rsp)
	leaq	63(%r12), %rbp
	xorl	%r13d, %r13d
	xorl	%ebx, %ebx
	movq	%r14, 112(%rsp)
	movq	%r12, 104(%rsp)
	jmp	9f
5:
	xorl	%r14d, %r14d
	leaq	8(%rsp), %r12
	xorl	%r8d, %r8d
6:
	cmpq	%r13, 32(%rsp)
	je	31f
7:
	movq	16(%rsp), %rax
	leaq	(,%r13,4), %rcx
	addq	%r13, %rcx
	movq	%rdi, (%rax,%rcx,8)
	movq	%r12, 8(%rax,%rcx,8)
	movq	%r14, 16(%rax,%rcx,8)
	movq	%r8, 24(%rax,%rcx,8)
	movq	%r15, 32(%rax,%rcx,8)
	incq	%r13
	movq	%r13, 24(%rsp)
	movq	112(%rsp), %r14
	movq	104(%rsp), %r12
8:
	incq	%rbx
	addq	$104, %rbp
	cmpq	%r14, %rbx
	je	45f
9:
	imulq	$104, %rbx, %r15
	cmpb	$1, 88(%r12,%r15)
	jne	8b
	addq	%r12, %r15
	movzbl	56(%r15), %ecx
	xorl	%eax, %eax
	testb	%cl, %cl
	sete	%al
	movq	72(%r15,%rax,8), %rsi
	cmpq	$1, %rsi
	je	8b
	decq	%rsi
	cmpq	$8, %rsi
	movl	$8, %edi
	cmovbq	%rsi, %rdi
	leaq	64(%r15), %rdx
	movq	$0, 64(%rsp)
	movzbl	96(%r15), %eax
	testb	%cl, %cl
	je	10f
	movq	64(%r15), %r8
	movq	72(%r15), %r9
	testb	%al, %al
	je	11f
	cmpq	$8, %rsi
	jae	13f
	xorl	%r10d, %r10d
	jmp	14f
10:
	movq	80(%r15), %r8
	testb	%al, %al
	je	12f
	cmpq	$8, %rsi
	jae	19f
	xorl	%r9d, %r9d
	jmp	20f
11:
	cmpq	$8, %rsi
	jae	16f
	xorl	%r10d, %r10d
	jmp	17f
12:
	cmpq	$8, %rsi
	jae	22f
	xorl	%r9d, %r9d
	jmp	23f
13:
	movl	%edi, %r10d
	andl	$8, %r10d
	movq	-8(%r8,%r9), %xmm0
	pshufb	1b(%rip), %xmm0
	movq	%xmm0, 64(%rsp)
	cmpq	%r10, %rdi
	je	25f
14:
	subq	%r10, %r9
	addq	%r9, %r8
	decq	%r8
	.p2align	4
15:
	movzbl	(%r8), %r9d
	movb	%r9b, 64(%rsp,%r10)
	incq	%r10
	decq	%r8
	cmpq	%r10, %rdi
	jne	15b
	jmp	25f
16:
	movq	-8(%r8,%r9), %xmm0
	pshufb	1b(%rip), %xmm0
	movl	%edi, %r10d
	movdqa	2b(%rip), %xmm1
	paddb	%xmm0, %xmm1
	movdqa	3b(%rip), %xmm2
	pmaxub	%xmm1, %xmm2
	pcmpeqb	%xmm1, %xmm2
	pandn	4b(%rip), %xmm2
	andl	$8, %r10d
	paddb	%xmm0, %xmm2
	movq	%xmm2, 64(%rsp)
	cmpq	%r10, %rdi
	je	25f
17:
	subq	%r10, %r9
	addq	%r9, %r8
	decq	%r8
	.p2align	4
18:
	movzbl	(%r8), %r9d
	leal	-65(%r9), %r11d
	leal	32(%r9), %r14d
	cmpb	$26, %r11b
	movzbl	%r14b, %r11d
	cmovael	%r9d, %r11d
	movb	%r11b, 64(%rsp,%r10)
	incq	%r10
	decq	%r8
	cmpq	%r10, %rdi
	jne	18b
	jmp	25f
19:
	movl	%edi, %r9d
	andl	$8, %r9d
	movq	-8(%rdx,%r8), %xmm0
	pshufb	1b(%rip), %xmm0
	movq	%xmm0, 64(%rsp)
	cmpq	%r9, %rdi
	je	25f
20:
	subq	%r9, %r8
	addq	%rbp, %r8
	.p2align	4
21:
	movzbl	(%r8), %r10d
	movb	%r10b, 64(%rsp,%r9)
	incq	%r9
	decq	%r8
	cmpq	%r9, %rdi
	jne	21b
	jmp	25f
22:
	movq	-8(%rdx,%r8), %xmm0
	pshufb	1b(%rip), %xmm0
	movl	%edi, %r9d
	movdqa	2b(%rip), %xmm1
	paddb	%xmm0, %xmm1
	movdqa	3b(%rip), %xmm2
	pmaxub	%xmm1, %xmm2
	pcmpeqb	%xmm1, %xmm2
	pandn	4b(%rip), %xmm2
	andl	$8, %r9d
	paddb	%xmm0, %xmm2
	movq	%xmm2, 64(%rsp)
	cmpq	%r9, %rdi
	je	25f
23:
	subq	%r9, %r8
	addq	%rbp, %r8
	.p2align	4
24:
	movzbl	(%r8), %r10d
	leal	-65(%r10), %r11d
	leal	32(%r10), %r14d
	cmpb	$26, %r11b
	movzbl	%r14b, %r11d
	cmovael	%r10d, %r11d
	movb	%r11b, 64(%rsp,%r9)
	incq	%r9
	decq	%r8
	cmpq	%r9, %rdi
	jne	24b
	.p2align	4
25:
	movq	64(%rsp), %rdi
	pxor	%xmm0, %xmm0
	movdqa	%xmm0, 80(%rsp)
	movdqa	%xmm0, 64(%rsp)
	cmpq	$9, %rsi
	jb	5b
	testb	%cl, %cl
	movq	%rdi, 40(%rsp)
	je	26f
	movq	64(%r15), %rdx
	leaq	72(%r15), %rcx
	jmp	27f
26:
	leaq	80(%r15), %rcx
27:
	movq	(%rcx), %rcx
	incq	%rdx
	addq	$-9, %rcx
	movzbl	%al, %esi
	leaq	64(%rsp), %rdi
	callq	"mime_store::rules::compared"
	cmpb	$0, 64(%rsp)
	jne	47f
	movq	72(%rsp), %r12
	movq	80(%rsp), %r14
	movq	88(%rsp), %r8
	cmpq	$15, %r14
	jbe	28f
	movq	%r14, %rcx
	shrq	%rcx
	movq	%r14, %rdx
	subq	%rcx, %rdx
	addq	%r12, %rdx
	movq	%r12, %rdi
	xorl	%esi, %esi
	movq	%r14, 48(%rsp)
	movq	%r12, %r14
	movq	%r13, %r12
	movq	%r8, %r13
	callq	"core::slice::edits::mirror::<i8>"
	movq	%r13, %r8
	movq	%r12, %r13
	movq	%r14, %r12
	movq	48(%rsp), %r14
	movq	40(%rsp), %rdi
	jmp	6b
28:
	cmpq	$2, %r14
	jb	30f
	movq	%r14, %rax
	decq	%rax
	je	29f
	movzbl	(%r12), %ecx
	movzbl	(%r12,%rax), %edx
	movb	%dl, (%r12)
	movb	%cl, (%r12,%rax)
29:
	leaq	-2(%r14), %rcx
	movq	%rcx, %rax
	shrq	%rax
	movq	40(%rsp), %rdi
	je	6b
	cmpq	$1, %rcx
	jbe	32f
	movzbl	1(%r12), %edx
	movzbl	(%r12,%rcx), %esi
	movb	%sil, 1(%r12)
	movb	%dl, (%r12,%rcx)
	jmp	33f
30:
	movq	40(%rsp), %rdi
	jmp	6b
31:
	movq	%r8, 48(%rsp)
	movq	%rdi, 40(%rsp)
	leaq	16(%rsp), %rdi
	callq	"std_alloc::vec::Vec::grow_amortized::<#5cd6c36b4880780f>"
	testb	%al, %al
	je	50f
	movq	24(%rsp), %r13
	movq	40(%rsp), %rdi
	movq	48(%rsp), %r8
	jmp	7b
32:
	testq	%rcx, %rcx
	jne	33f
	movzbl	(%r12,%rcx), %edx
	movzbl	1(%r12), %esi
	movb	%sil, (%r12,%rcx)
	movb	%dl, 1(%r12)
33:
	cmpq	$1, %rax
	je	6b
	leaq	-3(%r14), %rcx
	cmpq	$2, %rcx
	jbe	34f
	movzbl	2(%r12), %edx
	movzbl	(%r12,%rcx), %esi
	movb	%sil, 2(%r12)
	movb	%dl, (%r12,%rcx)
	jmp	35f
34:
	je	35f
	movzbl	(%r12,%rcx), %edx
	movzbl	2(%r12), %esi
	movb	%sil, (%r12,%rcx)
	movb	%dl, 2(%r12)
35:
	cmpq	$2, %rax
	je	6b
	leaq	-4(%r14), %rcx
	cmpq	$3, %rcx
	jbe	36f
	movzbl	3(%r12), %edx
	movzbl	(%r12,%rcx), %esi
	movb	%sil, 3(%r12)
	movb	%dl, (%r12,%rcx)
	jmp	37f
36:
	je	37f
	movzbl	(%r12,%rcx), %edx
	movzbl	3(%r12), %esi
	movb	%sil, (%r12,%rcx)
	movb	%dl, 3(%r12)
37:
	cmpq	$3, %rax
	je	6b
	leaq	-5(%r14), %rcx
	cmpq	$4, %rcx
	jbe	38f
	movzbl	4(%r12), %edx
	movzbl	(%r12,%rcx), %esi
	movb	%sil, 4(%r12)
	movb	%dl, (%r12,%rcx)
	jmp	39f
38:
	je	39f
	movzbl	(%r12,%rcx), %edx
	movzbl	4(%r12), %esi
	movb	%sil, (%r12,%rcx)
	movb	%dl, 4(%r12)
39:
	cmpq	$4, %rax
	je	6b
	leaq	-6(%r14), %rcx
	cmpq	$5, %rcx
	jbe	40f
	movzbl	5(%r12), %edx
	movzbl	(%r12,%rcx), %esi
	movb	%sil, 5(%r12)
	movb	%dl, (%r12,%rcx)
	jmp	41f
40:
	je	41f
	movzbl	(%r12,%rcx), %edx
	movzbl	5(%r12), %esi
	movb	%sil, (%r12,%rcx)
	movb	%dl, 5(%r12)
41:
	cmpq	$5, %rax
	je	6b
	leaq	-7(%r14), %rax
	cmpq	$6, %rax
	jbe	42f
	movzbl	6(%r12), %ecx
	movzbl	(%r12,%rax), %edx
	movb	%dl, 6(%r12)
	movb	%cl, (%r12,%rax)
	jmp	6b
42:
	je	6b
	movzbl	(%r12,%rax), %ecx
	movzbl	6(%r12), %edx
	movb	%dl, (%r12,%rax)
	movb	%cl, 6(%r12)
	jmp	6b
43:
	movb	$1, (%rdi)
	pxor	%xmm0, %xmm0
	movdqu	%xmm0, 8(%rdi)
	movq	$0, 24(%rdi)
	jmp	46f
44:
	movq	%rdi, 56(%rsp)
	leaq	8(%rsp), %rax
	movq	%rax, 16(%rsp)
	movq	%r14, 32(%rsp)
45:
	movq	56(%rsp), %rcx
	movb	$0, (%rcx)
	movq	16(%rsp), %rax
	movq	%rax, 8(%rcx)
	movq	24(%rsp), %rax
	movq	%rax, 16(%rcx)
	movq	32(%rsp), %rax
	movq	%rax, 24(%rcx)
46:
	addq	$120, %rsp
	popq	%rbx
	popq	%r12
	popq	%r13
	popq	%r14
	popq	%r15
	popq	%rbp
	retq
47:
	movq	16(%rsp), %r14
	movq	32(%rsp), %rbx
	testq	%r13, %r13
	je	54f
	leaq	24(%r14), %r15
	jmp	49f
	.p2align	4
48:
	addq	$40, %r15
	decq	%r13
	je	54f
49:
	cmpq	$0, (%r15)
	je	48b
	movq	-16(%r15), %rdi
	callq	rattle_dealloc@PLT
	jmp	48b
50:
	cmpq	$0, 48(%rsp)
	je	51f
	movq	%r12, %rdi
	callq	rattle_dealloc@PLT
51:
	movq	16(%rsp), %r14
	movq	24(%rsp), %r15
	movq	32(%rsp), %rbx
	testq	%r15, %r15
	je	54f
	leaq	24(%r14), %r12
	jmp	53f
52:
	addq	$40, %r12
	decq	%r15
	je	54f
53:
	cmpq	$0, (%r12)
	je	52b
	movq	-16(%r12), %rdi
	callq	rattle_dealloc@PLT
	jmp	52b
54:
	testq	%rbx, %rbx
	je	55f
	movq	%r14, %rdi
	callq	rattle_dealloc@PLT
55:
	movq	56(%rsp), %rax
	movb	$1, (%rax)
	pxor	%xmm0, %xmm0
	movdqu	%xmm0, 8(%rax)
	movq	$0, 24(%rax)
	jmp	46b
56:
	.size	"mime_store::suffix_tree::endings", 56b-"mime_store::suffix_tree::endings"

	.text
	.p2align	4
	.type	"mime_store::suffix_tree::sort_endings",@function
"mime_store::suffix_tree::sort_endings":
	pushq	%rbp
	pushq	%r15
	pushq	%r14
	pushq	%r13
	pushq	%r12
	pushq	%rbx
	subq	$136, %rsp
	movq	%rsi, %r14
	cmpq	$20, %rsi
	ja	3f
	movl	$1, %edx
	movq	%r14, %rsi
	callq	"core::slice::sort::small::insert_from::<#32fabb223415b920>"
1:
	xorl	%eax, %eax
2:
	addq	$136, %rsp
	popq	%rbx
	popq	%r12
	popq	%r13
	popq	%r14
	popq	%r15
	popq	%rbp
	retq
3:
	movq	%rdi, %rbx
	movq	%r14, %rsi
	xorl	%edx, %edx
	callq	"core::slice::sort::pivot::run_from::<#32fabb223415b920>"
	movl	%edx, %ebp
	cmpq	%r14, %rax
	jne	4f
	cmpb	$1, %bpl
	jne	1b
	movq	%r14, %rdx
	shrq	%rdx
	subq	%rdx, %r14
	leaq	(%r14,%r14,4), %rax
	leaq	(%rbx,%rax,8), %rsi
	movq	%rbx, %rdi
	callq	"core::slice::edits::mirror::<26'mime_store::ending::Ending>"
	jmp	1b
4:
	movq	%rax, %r12
	leaq	(,%r14,8), %rax
	leaq	(%rax,%rax,4), %rdi
	testq	%rdi, %rdi
	js	5f
	movl	$8, %esi
	callq	rattle_alloc@PLT
	xorl	%r15d, %r15d
	testb	$1, %al
	cmovneq	%rdx, %r15
	je	5f
	movq	%rdx, 32(%rsp)
	movq	%r14, 40(%rsp)
	cmpq	$65, %r14
	setae	%cl
	movq	%r14, %rax
	shrq	%rax
	cmpq	%rax, %r12
	setae	%dl
	orb	%cl, %dl
	jne	6f
	bsrq	%r14, %rcx
	xorl	$63, %ecx
	addl	%ecx, %ecx
	xorl	$126, %ecx
	leaq	32(%rsp), %r8
	movq	%rbx, %rdi
	movq	%r14, %rsi
	movq	%r14, %rdx
	jmp	11f
5:
	movb	$1, %al
	jmp	2b
6:
	xorps	%xmm0, %xmm0
	movaps	%xmm0, 112(%rsp)
	movaps	%xmm0, 96(%rsp)
	movq	$0, 128(%rsp)
	movl	$64, %r13d
	cmpq	$4097, %r14
	jb	8f
	movabsq	$4294967296, %rdx
	xorl	%ecx, %ecx
	.p2align	4
7:
	movq	%rcx, %rsi
	addq	%rdx, %rcx
	shrq	%rcx
	movq	%rcx, %rdi
	imulq	%rcx, %rdi
	cmpq	%r14, %rdi
	cmovaq	%rcx, %rdx
	cmovaq	%rsi, %rcx
	leaq	1(%rcx), %rsi
	cmpq	%rdx, %rsi
	jb	7b
	cmpq	$65, %rcx
	movl	$64, %r13d
	cmovaeq	%rcx, %r13
8:
	cmpq	%r13, %rax
	cmovbq	%rax, %r13
	movabsq	$4611686018427387904, %rax
	xorl	%edx, %edx
	divq	%r14
	incq	%rax
	cmpq	%r13, %r12
	movq	%r13, %r8
	cmovaq	%r12, %r8
	setae	%cl
	andb	%cl, %bpl
	cmpb	$1, %bpl
	jne	10f
	cmpq	$15, %r12
	jbe	13f
	movq	%r12, %rdx
	shrq	%rdx
	movq	%r12, %rcx
	subq	%rdx, %rcx
	leaq	(%rcx,%rcx,4), %rcx
	movq	%rbx, %rdi
	leaq	(%rbx,%rcx,8), %rsi
	movq	%rax, %rbp
	callq	"core::slice::edits::mirror::<26'mime_store::ending::Ending>"
	movq	%rbp, %rax
9:
	movb	$1, %cl
	movq	%r12, %r8
10:
	leaq	32(%rsp), %rdx
	movq	%rdx, 24(%rsp)
	movq	%rax, 16(%rsp)
	movq	%r13, 8(%rsp)
	movl	$0, (%rsp)
	movzbl	%cl, %r9d
	leaq	96(%rsp), %rdi
	movq	%rbx, %rsi
	movq	%r14, %rdx
	xorl	%ecx, %ecx
	callq	"core::slice::sort::runs::climb::<#32fabb223415b920>"
	testb	$1, 104(%rsp)
	jne	12f
	movq	96(%rsp), %rdx
	movl	$127, %eax
	bsrq	%rdx, %rax
	xorl	$63, %eax
	addl	%eax, %eax
	movl	$126, %ecx
	subl	%eax, %ecx
	leaq	32(%rsp), %r8
	movq	%rbx, %rdi
	movq	%rdx, %rsi
11:
	callq	"core::slice::sort::stable::quicksort::<#32fabb223415b920>"
12:
	movq	%r15, %rdi
	callq	rattle_dealloc@PLT
	jmp	1b
13:
	leaq	-2(%r12), %rcx
	shrq	%rcx
	incq	%rcx
	leaq	(%r12,%r12,4), %rdx
	movq	%rbx, %r8
	leaq	(%rbx,%rdx,8), %rdx
	addq	$-40, %rdx
	movq	%r12, %rsi
	decq	%rsi
	xorl	%edi, %edi
	jmp	16f
14:
	movq	32(%r8), %r9
	movq	%r9, 80(%rsp)
	movups	(%r8), %xmm0
	movups	16(%r8), %xmm1
	movaps	%xmm1, 64(%rsp)
	movaps	%xmm0, 48(%rsp)
	movq	32(%rdx), %r9
	movups	(%rdx), %xmm0
	movups	16(%rdx), %xmm1
	movups	%xmm0, (%r8)
	movups	%xmm1, 16(%r8)
	movq	%r9, 32(%r8)
	movq	80(%rsp), %r9
	movq	%r9, 32(%rdx)
	movaps	48(%rsp), %xmm0
	movaps	64(%rsp), %xmm1
	movups	%xmm1, 16(%rdx)
	movups	%xmm0, (%rdx)
15:
	incq	%rdi
	addq	$40, %r8
	addq	$-40, %rdx
	decq	%rsi
	cmpq	%rdi, %rcx
	je	9b
16:
	cmpq	%rsi, %rdi
	jb	14b
	jbe	15b
	movq	32(%rdx), %r9
	movq	%r9, 80(%rsp)
	movups	(%rdx), %xmm0
	movups	16(%rdx), %xmm1
	movaps	%xmm1, 64(%rsp)
	movaps	%xmm0, 48(%rsp)
	movq	32(%r8), %r9
	movups	(%r8), %xmm0
	movups	16(%r8), %xmm1
	movups	%xmm0, (%rdx)
	movups	%xmm1, 16(%rdx)
	movq	%r9, 32(%rdx)
	movq	80(%rsp), %r9
	movq	%r9, 32(%r8)
	movaps	48(%rsp), %xmm0
	movaps	64(%rsp), %xmm1
	movups	%xmm1, 16(%r8)
	movups	%xmm0, (%r8)
	jmp	15b
17:
	.size	"mime_store::suffix_tree::sort_endings", 17b-"mime_store::suffix_tree::sort_endings"

	.section	.rodata.cst16,"aM",@progbits,16
	.p2align	4, 0x0
1:
	.byte	3,2,1,0,7,6,5,4,11,10,9,8,15,14,13,12
	.text
	.p2align	4
	.type	"mime_store::suffix_tree::write_siblings",@function
"mime_store::suffix_tree::write_siblings":
	pushq	%rbp
	pushq	%r15
	pushq	%r14
	pushq	%r13
	pushq	%r12
	pushq	%rbx
	subq	$296, %rsp
	movq	%r8, %r12
	movq	%rsi, %r8
	movq	%rdi, %r13
	pxor	%xmm0, %xmm0
	movdqu	%xmm0, 144(%rsp)
	cmpq	$1, %rcx
	movq	%rdx, 120(%rsp)
	jne	2f
	movq	32(%rdx), %rax
	cmpb	$0, 8(%rax)
	je	45f
	movq	16(%rax), %rsi
	addq	$24, %rax
	jmp	46f
2:
	leaq	24(%rsp), %rax
	movq	%rax, 128(%rsp)
	xorl	%ebp, %ebp
	movdqa	%xmm0, 64(%rsp)
	movdqa	%xmm0, 48(%rsp)
	movdqa	%xmm0, 32(%rsp)
	movdqa	%xmm0, 16(%rsp)
	testq	%rcx, %rcx
	movq	%r8, 112(%rsp)
	movq	%r13, 80(%rsp)
	je	47f
	leaq	72(%rdx), %rax
	movq	%rax, 224(%rsp)
	xorl	%r15d, %r15d
	movq	%rcx, 232(%rsp)
	jmp	6f
	.p2align	4
3:
	movl	%r11d, (%rsi)
	movl	%r10d, 4(%rsi)
	movl	%ebp, 8(%rsi)
4:
	movq	112(%rsp), %r8
	movq	96(%rsp), %rbp
	addq	$3, %rax
	movq	%rdx, 24(%rsp)
	movq	%rax, 32(%rsp)
	movq	%rcx, 40(%rsp)
5:
	incl	%ebp
	addq	%rbx, %r15
	movq	232(%rsp), %rcx
	cmpq	%rcx, %r15
	movq	120(%rsp), %rdx
	jae	55f
6:
	leaq	(,%r15,8), %rax
	leaq	(%rax,%rax,4), %rax
	leaq	(%rdx,%rax), %r13
	movl	$0, 168(%rsp)
	movq	$0, 160(%rsp)
	movq	32(%rdx,%rax), %rdi
	xorl	%edx, %edx
	cmpb	$0, 56(%rdi)
	sete	%dl
	movq	72(%rdi,%rdx,8), %rdx
	decq	%rdx
	cmpq	%r12, %rdx
	movq	%rbp, 96(%rsp)
	jbe	8f
	cmpq	$7, %r12
	ja	9f
	movzbl	(%r13,%r12), %r14d
	movq	%r15, %rdi
	notq	%rdi
	addq	%rcx, %rdi
	je	14f
	addq	224(%rsp), %rax
	xorl	%ebx, %ebx
	.p2align	4
7:
	movq	(%rax), %rdx
	xorl	%esi, %esi
	cmpb	$0, 56(%rdx)
	sete	%sil
	movq	72(%rdx,%rsi,8), %rdx
	decq	%rdx
	cmpq	%r12, %rdx
	jbe	15f
	cmpb	%r14b, -32(%rax,%r12)
	jne	15f
	incq	%rbx
	addq	$40, %rax
	cmpq	%rbx, %rdi
	jne	7b
	jmp	11f
	.p2align	4
8:
	cmpb	$0, 8(%rdi)
	je	12f
	movq	16(%rdi), %rsi
	addq	$24, %rdi
	jmp	13f
	.p2align	4
9:
	movq	8(%r13), %rdx
	movzbl	-8(%rdx,%r12), %r14d
	movq	%r15, %rdi
	notq	%rdi
	addq	%rcx, %rdi
	je	14f
	addq	224(%rsp), %rax
	xorl	%ebx, %ebx
	.p2align	4
10:
	movq	(%rax), %rdx
	xorl	%esi, %esi
	cmpb	$0, 56(%rdx)
	sete	%sil
	movq	72(%rdx,%rsi,8), %rdx
	decq	%rdx
	cmpq	%r12, %rdx
	jbe	15f
	movq	-24(%rax), %rdx
	cmpb	%r14b, -8(%rdx,%r12)
	jne	15f
	incq	%rbx
	addq	$40, %rax
	cmpq	%rbx, %rdi
	jne	10b
11:
	movq	%rdi, %rbx
	jmp	15f
12:
	leaq	16(%rdi), %rsi
	addq	$48, %rdi
13:
	movq	(%rdi), %rdx
	movq	%r8, %rdi
	callq	"mime_store::bytes::append_text"
	testb	%al, %al
	jne	43f
	movl	%edx, %r10d
	movq	32(%r13), %rax
	movzbl	96(%rax), %ebp
	movzbl	(%rax), %eax
	shll	$8, %ebp
	orl	%eax, %ebp
	movl	$1, %ebx
	xorl	%r11d, %r11d
	jmp	16f
14:
	xorl	%ebx, %ebx
15:
	incq	%rbx
	leaq	160(%rsp), %rdi
	movq	%r8, %rsi
	movq	%r13, %rdx
	movq	%rbx, %rcx
	leaq	1(%r12), %r8
	callq	"mime_store::suffix_tree::write_siblings"
	cmpb	$0, 160(%rsp)
	jne	43f
	movq	164(%rsp), %r10
	movq	%r10, %rbp
	shrq	$32, %rbp
	movzbl	%r14b, %r11d
16:
	movl	%r11d, 136(%rsp)
	movl	%r10d, 140(%rsp)
	movl	%ebp, 144(%rsp)
	movzbl	16(%rsp), %r8d
	testb	%r8b, %r8b
	movq	72(%rsp), %rdi
	movq	32(%rsp), %rsi
	movq	%rsi, %rdx
	cmoveq	%rdi, %rdx
	movq	40(%rsp), %rax
	movl	$12, %ecx
	cmovneq	%rax, %rcx
	subq	%rdx, %rcx
	cmpq	$2, %rcx
	ja	17f
	movabsq	$9223372036854775805, %rcx
	cmpq	%rcx, %rdx
	ja	43f
	leaq	2(%rdx), %rcx
	bsrq	%rcx, %rcx
	incq	%rcx
	movl	$1, %r14d
	shlq	%cl, %r14
	cmpq	%rdx, %r14
	jae	20f
17:
	cmpb	$0, 16(%rsp)
	je	19f
	movq	32(%rsp), %rax
	movq	40(%rsp), %rcx
	movq	%rcx, %rdx
	subq	%rax, %rdx
	cmpq	$2, %rdx
	jbe	30f
18:
	movq	24(%rsp), %rdx
	leaq	(%rdx,%rax,4), %rsi
	leaq	136(%rsp), %rdi
	movq	%rsi, %r8
	subq	%rdi, %r8
	cmpq	$11, %r8
	jbe	3b
	movl	144(%rsp), %edi
	movl	%edi, 8(%rsi)
	movq	136(%rsp), %rdi
	movq	%rdi, (%rsi)
	jmp	4b
	.p2align	4
19:
	movq	72(%rsp), %rax
	leaq	-10(%rax), %rcx
	cmpq	$3, %rcx
	jb	80f
	leaq	24(%rsp), %rcx
	leaq	(%rcx,%rax,4), %rcx
	leaq	136(%rsp), %rdx
	movq	%rcx, %rsi
	subq	%rdx, %rsi
	cmpq	$11, %rsi
	movq	112(%rsp), %r8
	ja	21f
	movl	%r11d, (%rcx)
	movl	%r10d, 4(%rcx)
	movl	%ebp, 8(%rcx)
	jmp	22f
	.p2align	4
20:
	cmpq	$5, %rdx
	ja	23f
	cmpb	$1, %r8b
	jne	17b
	movq	24(%rsp), %rdi
	leaq	92(%rsp), %rcx
	movq	%rcx, 24(%rsp)
	pxor	%xmm0, %xmm0
	leaq	32(%rsp), %rcx
	movdqu	%xmm0, (%rcx)
	movdqa	%xmm0, 192(%rsp)
	movdqa	%xmm0, 176(%rsp)
	movdqa	%xmm0, 160(%rsp)
	movq	$0, 208(%rsp)
	testq	%rsi, %rsi
	je	34f
	cmpq	$1, %rsi
	jne	31f
	xorl	%ecx, %ecx
	jmp	33f
21:
	movl	144(%rsp), %edx
	movl	%edx, 8(%rcx)
	movq	136(%rsp), %rdx
	movq	%rdx, (%rcx)
22:
	movq	96(%rsp), %rbp
	addq	$3, %rax
	movq	%rax, 72(%rsp)
	jmp	5b
23:
	testb	%r8b, %r8b
	je	24f
	cmpq	%rax, %r14
	jae	29f
	cmpq	%r14, %rsi
	cmovaq	%rsi, %r14
	cmpq	%rsi, %rax
	jbe	17b
	movq	24(%rsp), %rdi
	shlq	$2, %rsi
	leaq	(,%r14,4), %rdx
	movl	$4, %ecx
	movq	%r10, 104(%rsp)
	movl	%r11d, %r13d
	callq	rattle_realloc@PLT
	movl	%r13d, %r11d
	movq	104(%rsp), %r10
	testb	$1, %al
	je	17b
	jmp	38f
24:
	movabsq	$1152921504606846974, %rax
	cmpq	%rax, %rdi
	jae	43f
	movl	$4, %edi
	shlq	%cl, %rdi
	movl	$4, %esi
	movq	%r10, 104(%rsp)
	movl	%r11d, 12(%rsp)
	callq	rattle_alloc@PLT
	testb	$1, %al
	je	43f
	movq	%rdx, %r13
	movq	72(%rsp), %rdx
	movq	%rdx, 216(%rsp)
	leaq	24(%rsp), %rdi
	movq	%rdx, %rsi
	callq	"arrayvec::array_vec::move_to_end::<i32>"
	movq	216(%rsp), %rsi
	testq	%rsi, %rsi
	je	41f
	cmpq	$8, %rsi
	jb	25f
	leaq	32(%rsp), %rax
	leaq	(%rax,%rsi,4), %rax
	addq	$-8, %rax
	leaq	(,%rsi,4), %rcx
	addq	%r13, %rcx
	leaq	24(%rsp), %rdx
	cmpq	%rcx, %rdx
	setb	%cl
	cmpq	%r13, %rax
	seta	%al
	testb	%al, %cl
	je	39f
25:
	xorl	%eax, %eax
26:
	movq	%rax, %rcx
	orq	$1, %rcx
	testb	$1, %sil
	je	27f
	movl	24(%rsp,%rax,4), %edx
	movl	$0, 24(%rsp,%rax,4)
	movl	%edx, (%r13,%rax,4)
	movq	%rcx, %rax
27:
	cmpq	%rcx, %rsi
	je	41f
	.p2align	4
28:
	movl	24(%rsp,%rax,4), %ecx
	movl	$0, 24(%rsp,%rax,4)
	movl	%ecx, (%r13,%rax,4)
	movl	28(%rsp,%rax,4), %ecx
	movl	$0, 28(%rsp,%rax,4)
	movl	%ecx, 4(%r13,%rax,4)
	addq	$2, %rax
	cmpq	%rax, %rsi
	jne	28b
	jmp	41f
29:
	movq	%r14, %rdi
	subq	%rsi, %rdi
	movq	%rax, %r8
	subq	%rsi, %r8
	cmpq	%r8, %rdi
	jbe	17b
	movq	%rsi, %r8
	notq	%r8
	cmpq	%r8, %rdi
	ja	43f
	movabsq	$1152921504606846974, %rdi
	cmpq	%rdi, %rdx
	jae	43f
	movl	%r11d, 12(%rsp)
	movq	%r10, %r13
	testq	%rax, %rax
	je	36f
	movq	24(%rsp), %rdi
	shlq	$2, %rsi
	movl	$4, %edx
	shlq	%cl, %rdx
	movl	$4, %ecx
	callq	rattle_realloc@PLT
	jmp	37f
30:
	movl	%r11d, %r13d
	movq	%r10, %r14
	leaq	24(%rsp), %rdi
	movl	$3, %esi
	callq	"std_alloc::vec::Vec::grow_amortized::<#6f4ec3444080bcc6>"
	testb	%al, %al
	je	80f
	movq	32(%rsp), %rax
	movq	40(%rsp), %rcx
	movq	%r14, %r10
	movl	%r13d, %r11d
	jmp	18b
31:
	movq	%rsi, %rdx
	andq	$-2, %rdx
	xorl	%ecx, %ecx
	.p2align	4
32:
	leaq	1(%rcx), %r8
	movl	(%rdi,%rcx,4), %r9d
	movl	%r9d, 160(%rsp,%rcx,4)
	movq	%r8, 208(%rsp)
	movl	4(%rdi,%rcx,4), %r8d
	movl	%r8d, 164(%rsp,%rcx,4)
	addq	$2, %rcx
	movq	%rcx, 208(%rsp)
	cmpq	%rcx, %rdx
	jne	32b
	testb	$1, %sil
	je	34f
33:
	leaq	1(%rcx), %rdx
	movl	(%rdi,%rcx,4), %esi
	movl	%esi, 160(%rsp,%rcx,4)
	movq	%rdx, 208(%rsp)
34:
	testq	%rax, %rax
	je	35f
	movq	%r10, %r14
	movl	%r11d, %r13d
	callq	rattle_dealloc@PLT
	movl	%r13d, %r11d
	movq	%r14, %r10
	movq	24(%rsp), %rdi
	movq	40(%rsp), %rax
	cmpb	$0, 16(%rsp)
	movq	208(%rsp), %rcx
	movq	%rcx, 288(%rsp)
	movdqa	160(%rsp), %xmm0
	movdqa	176(%rsp), %xmm1
	movdqa	192(%rsp), %xmm2
	movdqa	%xmm2, 272(%rsp)
	movdqa	%xmm1, 256(%rsp)
	movdqa	%xmm0, 240(%rsp)
	movq	$0, 16(%rsp)
	leaq	24(%rsp), %rdx
	movq	%rcx, 48(%rdx)
	movdqu	%xmm2, 32(%rdx)
	movdqu	%xmm1, 16(%rdx)
	movdqu	%xmm0, (%rdx)
	je	17b
	testq	%rax, %rax
	je	17b
	callq	rattle_dealloc@PLT
	movl	%r13d, %r11d
	movq	%r14, %r10
	jmp	17b
35:
	movq	208(%rsp), %rax
	movq	%rax, 288(%rsp)
	movdqa	160(%rsp), %xmm0
	movdqa	176(%rsp), %xmm1
	movdqa	192(%rsp), %xmm2
	movdqa	%xmm2, 272(%rsp)
	movdqa	%xmm1, 256(%rsp)
	movdqa	%xmm0, 240(%rsp)
	movq	$0, 16(%rsp)
	leaq	24(%rsp), %rcx
	movq	%rax, 48(%rcx)
	movdqu	%xmm2, 32(%rcx)
	movdqu	%xmm1, 16(%rcx)
	movdqu	%xmm0, (%rcx)
	jmp	17b
36:
	movl	$4, %edi
	shlq	%cl, %rdi
	movl	$4, %esi
	callq	rattle_alloc@PLT
37:
	testb	$1, %al
	movl	12(%rsp), %r11d
	je	43f
	movq	%r13, %r10
38:
	movq	%rdx, 24(%rsp)
	movq	%r14, 40(%rsp)
	jmp	17b
39:
	movq	%rsi, %rax
	andq	$-8, %rax
	xorl	%ecx, %ecx
	.p2align	4
40:
	movdqu	24(%rsp,%rcx,4), %xmm0
	movdqu	40(%rsp,%rcx,4), %xmm1
	pxor	%xmm2, %xmm2
	movdqu	%xmm2, 24(%rsp,%rcx,4)
	movdqu	%xmm2, 40(%rsp,%rcx,4)
	movdqu	%xmm0, (%r13,%rcx,4)
	movdqu	%xmm1, 16(%r13,%rcx,4)
	addq	$8, %rcx
	cmpq	%rcx, %rax
	jne	40b
	cmpq	%rax, %rsi
	jne	26b
41:
	movq	72(%rsp), %rdx
	testq	%rdx, %rdx
	je	42f
	shlq	$2, %rdx
	leaq	24(%rsp), %rdi
	xorl	%esi, %esi
	callq	memset@PLT
	movq	216(%rsp), %rsi
42:
	movq	24(%rsp), %rdi
	cmpb	$0, 16(%rsp)
	movq	40(%rsp), %rax
	movq	$1, 16(%rsp)
	movq	%r13, 24(%rsp)
	movq	%rsi, 32(%rsp)
	movq	%r14, 40(%rsp)
	pxor	%xmm0, %xmm0
	leaq	32(%rsp), %rcx
	movdqu	%xmm0, 32(%rcx)
	movdqu	%xmm0, 16(%rcx)
	movq	104(%rsp), %r10
	movl	12(%rsp), %r11d
	je	17b
	testq	%rax, %rax
	je	17b
	callq	rattle_dealloc@PLT
	movl	12(%rsp), %r11d
	movq	104(%rsp), %r10
	jmp	17b
43:
	cmpb	$1, 16(%rsp)
	jne	44f
	cmpq	$0, 40(%rsp)
	je	44f
	movq	24(%rsp), %rdi
	callq	rattle_dealloc@PLT
44:
	movq	80(%rsp), %rax
	movb	$1, (%rax)
	movq	$0, 4(%rax)
	jmp	73f
45:
	leaq	16(%rax), %rsi
	addq	$48, %rax
46:
	movq	(%rax), %rdx
	movq	%r8, %rdi
	movq	%r8, %rbx
	callq	"mime_store::bytes::append_text"
	movb	$1, %cl
	testb	%al, %al
	je	48f
	xorl	%r15d, %r15d
	jmp	68f
47:
	movl	$56, %eax
	jmp	56f
48:
	movq	120(%rsp), %r9
	movq	32(%r9), %rax
	movzbl	96(%rax), %ebp
	movzbl	(%rax), %r15d
	movq	8(%rbx), %r14
	movq	16(%rbx), %rax
	movq	%rax, %rcx
	subq	%r14, %rcx
	movq	%r14, %r8
	cmpq	$11, %rcx
	jbe	74f
49:
	movq	%r13, 80(%rsp)
	shll	$8, %ebp
	orl	%r15d, %ebp
	bswapl	%edx
	bswapl	%ebp
	leaq	12(%r8), %rsi
	movq	(%rbx), %rcx
	movl	$0, (%rcx,%r8)
	movl	%edx, 4(%rcx,%r8)
	movl	%ebp, 8(%rcx,%r8)
	movq	%rcx, (%rbx)
	movq	%rsi, 8(%rbx)
	movq	%rax, 16(%rbx)
	movq	32(%r9), %rdx
	xorl	%r8d, %r8d
	cmpb	$0, 56(%rdx)
	sete	%r8b
	movq	72(%rdx,%r8,8), %rdx
	decq	%rdx
	cmpq	%rdx, %r12
	jae	66f
	movq	%r9, %r8
	jmp	53f
	.p2align	4
50:
	movq	8(%r8), %rdx
	addq	%r13, %rdx
	addq	$-8, %rdx
51:
	movzbl	(%rdx), %ebp
	movq	%rax, %rsi
	subq	%r15, %rsi
	movq	%r15, %rdx
	cmpq	$11, %rsi
	jbe	54f
52:
	shll	$24, %ebp
	bswapl	%r14d
	leaq	12(%rdx), %rsi
	movl	%ebp, (%rcx,%rdx)
	movl	$16777216, 4(%rcx,%rdx)
	movl	%r14d, 8(%rcx,%rdx)
	movq	%rcx, (%rbx)
	movq	%rsi, 8(%rbx)
	movq	%rax, 16(%rbx)
	movq	%r15, %r14
	movq	%r13, %rdx
	cmpq	%r13, %r12
	jae	67f
53:
	movq	%rsi, %r15
	leaq	-1(%rdx), %r13
	cmpq	$8, %rdx
	ja	50b
	addq	%r8, %rdx
	decq	%rdx
	jmp	51b
54:
	movl	$12, %esi
	movq	%rbx, %rdi
	callq	"std_alloc::vec::Vec::grow_amortized::<#06f9579a8fe94b13>"
	testb	%al, %al
	je	77f
	movq	(%rbx), %rcx
	movq	8(%rbx), %rdx
	movq	16(%rbx), %rax
	movq	120(%rsp), %r8
	jmp	52b
55:
	cmpb	$0, 16(%rsp)
	movq	128(%rsp), %rax
	cmovneq	24(%rsp), %rax
	movq	%rax, 128(%rsp)
	movl	$56, %ecx
	movl	$16, %eax
	cmoveq	%rcx, %rax
	movl	%ebp, %ebp
	movq	80(%rsp), %r13
56:
	movq	16(%rsp,%rax), %r14
	movq	8(%r8), %rbx
	leaq	(%rbx,%r14,4), %r15
	cmpq	%rbx, %r15
	jbe	59f
	leaq	(,%r14,4), %rdx
	movq	16(%r8), %r12
	movq	%r12, %rax
	subq	%rbx, %rax
	movq	%rbx, %rdi
	cmpq	%rax, %rdx
	ja	75f
	movq	(%r8), %r13
	cmpq	%r15, %rdi
	jae	58f
57:
	addq	%r13, %rdi
	xorl	%esi, %esi
	callq	memset@PLT
	movq	112(%rsp), %r8
58:
	movq	%r13, (%r8)
	movq	%r15, 8(%r8)
	movq	%r12, 16(%r8)
	movq	80(%rsp), %r13
	jmp	60f
59:
	jae	60f
	movq	%r15, 8(%r8)
60:
	testq	%r14, %r14
	movq	128(%rsp), %r9
	je	71f
	movq	(%r8), %rax
	leaq	(%rax,%rbx), %rcx
	cmpq	$8, %r14
	jb	61f
	movq	%rcx, %rdx
	subq	%r9, %rdx
	cmpq	$32, %rdx
	jae	69f
61:
	xorl	%edx, %edx
62:
	movq	%r14, %rdi
	movq	%rdx, %rsi
	andq	$3, %rdi
	je	64f
	movq	%rdx, %rsi
	.p2align	4
63:
	movl	(%r9,%rsi,4), %r8d
	bswapl	%r8d
	movl	%r8d, (%rcx,%rsi,4)
	incq	%rsi
	decq	%rdi
	jne	63b
64:
	subq	%r14, %rdx
	cmpq	$-4, %rdx
	ja	71f
	addq	%rbx, %rax
	addq	$12, %rax
	.p2align	4
65:
	movl	(%r9,%rsi,4), %ecx
	bswapl	%ecx
	movl	%ecx, -12(%rax,%rsi,4)
	movl	4(%r9,%rsi,4), %ecx
	bswapl	%ecx
	movl	%ecx, -8(%rax,%rsi,4)
	movl	8(%r9,%rsi,4), %ecx
	bswapl	%ecx
	movl	%ecx, -4(%rax,%rsi,4)
	movl	12(%r9,%rsi,4), %ecx
	bswapl	%ecx
	movl	%ecx, (%rax,%rsi,4)
	addq	$4, %rsi
	cmpq	%rsi, %r14
	jne	65b
	jmp	71f
66:
	movq	%r14, %r15
67:
	shlq	$32, %r15
	incq	%r15
	xorl	%ecx, %ecx
	movq	80(%rsp), %r13
68:
	movb	%cl, (%r13)
	movq	%r15, 4(%r13)
	jmp	73f
69:
	movq	%r14, %rdx
	andq	$-8, %rdx
	leaq	(%rbx,%rax), %rsi
	addq	$16, %rsi
	xorl	%edi, %edi
	.p2align	4
70:
	movdqu	(%r9,%rdi,4), %xmm0
	movdqu	16(%r9,%rdi,4), %xmm1
	movdqa	1b(%rip), %xmm2
	pshufb	%xmm2, %xmm0
	pshufb	%xmm2, %xmm1
	movdqu	%xmm0, -16(%rsi,%rdi,4)
	movdqu	%xmm1, (%rsi,%rdi,4)
	addq	$8, %rdi
	cmpq	%rdi, %rdx
	jne	70b
	cmpq	%rdx, %r14
	jne	62b
71:
	shlq	$32, %rbx
	orq	%rbp, %rbx
	cmpb	$1, 16(%rsp)
	jne	72f
	cmpq	$0, 40(%rsp)
	je	72f
	movq	24(%rsp), %rdi
	callq	rattle_dealloc@PLT
72:
	movb	$0, (%r13)
	movq	%rbx, 4(%r13)
73:
	addq	$296, %rsp
	popq	%rbx
	popq	%r12
	popq	%r13
	popq	%r14
	popq	%r15
	popq	%rbp
	retq
74:
	movl	%edx, 96(%rsp)
	movl	$12, %esi
	movq	%rbx, %rdi
	callq	"std_alloc::vec::Vec::grow_amortized::<#06f9579a8fe94b13>"
	testb	%al, %al
	je	76f
	movq	8(%rbx), %r8
	movq	16(%rbx), %rax
	movl	96(%rsp), %edx
	movq	120(%rsp), %r9
	jmp	49b
75:
	movq	%r8, %rdi
	movq	%rdx, %r15
	movq	%rdx, %rsi
	movq	%r8, %r13
	callq	"std_alloc::vec::Vec::grow_amortized::<#06f9579a8fe94b13>"
	testb	%al, %al
	je	78f
	movq	8(%r13), %rdi
	movq	16(%r13), %r12
	movq	%r15, %rdx
	addq	%rdi, %r15
	movq	%r13, %r8
	movq	(%r8), %r13
	cmpq	%r15, %rdi
	jb	57b
	jmp	58b
76:
	xorl	%r15d, %r15d
	movb	$1, %cl
	jmp	68b
77:
	xorl	%r15d, %r15d
	movq	80(%rsp), %r13
	movb	$1, %cl
	jmp	68b
78:
	cmpb	$1, 16(%rsp)
	jne	79f
	cmpq	$0, 40(%rsp)
	je	79f
	movq	24(%rsp), %rdi
	callq	rattle_dealloc@PLT
79:
	movq	80(%rsp), %rbp
	movb	$1, (%rbp)
	movq	$0, 4(%rbp)
	jmp	73b
80:
	ud2
81:
	.size	"mime_store::suffix_tree::write_siblings", 81b-"mime_store::suffix_tree::write_siblings"

	.text
	.p2align	4
	.type	"mime_store::suffix_tree::write_tree",@function
"mime_store::suffix_tree::write_tree":
	pushq	%r15
	pushq	%r14
	pushq	%r12
	pushq	%rbx
	subq	$24, %rsp
	movq	%rdx, %rcx
	movq	%rsi, %rdx
	movq	%rdi, %rbx
	movl	$0, 16(%rsp)
	movq	$0, 8(%rsp)
	xorl	%r14d, %r14d
	leaq	8(%rsp), %rdi
	movq	%rbx, %rsi
	xorl	%r8d, %r8d
	callq	"mime_store::suffix_tree::write_siblings"
	movb	$1, %al
	cmpb	$0, 8(%rsp)
	jne	5f
	movq	12(%rsp), %r12
	movq	8(%rbx), %r15
	movq	%r15, %rax
	subq	$-8, %rax
	jae	3f
	movq	16(%rbx), %rcx
	movq	%rcx, %rdx
	subq	%r15, %rdx
	movq	%r15, %rsi
	cmpq	$7, %rdx
	jbe	6f
	movq	(%rbx), %rdx
	cmpq	%rax, %rsi
	jae	2f
1:
	movq	$0, (%rdx,%rsi)
2:
	movq	%rdx, (%rbx)
	movq	%rax, 8(%rbx)
	movq	%rcx, 16(%rbx)
	jmp	4f
3:
	movq	%rax, 8(%rbx)
	movq	(%rbx), %rdx
4:
	movq	%r12, %rax
	shrq	$32, %rax
	bswapl	%r12d
	movl	%r12d, (%rdx,%r15)
	bswapl	%eax
	movl	%eax, 4(%rdx,%r15)
	xorl	%eax, %eax
	movl	%r15d, %r14d
5:
	movl	%r14d, %edx
	addq	$24, %rsp
	popq	%rbx
	popq	%r12
	popq	%r14
	popq	%r15
	retq
6:
	movl	$8, %esi
	movq	%rbx, %rdi
	callq	"std_alloc::vec::Vec::grow_amortized::<#06f9579a8fe94b13>"
	movl	%eax, %ecx
	movb	$1, %al
	testb	%cl, %cl
	je	5b
	movq	8(%rbx), %rsi
	movq	16(%rbx), %rcx
	leaq	8(%rsi), %rax
	movq	(%rbx), %rdx
	cmpq	%rax, %rsi
	jb	1b
	jmp	2b
7:
	.size	"mime_store::suffix_tree::write_tree", 7b-"mime_store::suffix_tree::write_tree"
