# Made by dist/refresh of what is proved.

	.text
	.p2align	4
	.type	"arrayvec::array_vec::move_to_end::<i32>",@function
"arrayvec::array_vec::move_to_end::<i32>":
	pushq	%rbp
	pushq	%r15
	pushq	%r14
	pushq	%r13
	pushq	%r12
	pushq	%rbx
	pushq	%rax
	testq	%rdx, %rdx
	je	7f
	movq	%rdx, %r14
	movq	%rsi, %r13
	subq	%rdx, %r13
	je	7f
	movq	%rdi, %rbx
	cmpq	%r14, %r13
	movq	%r14, %rax
	cmovbq	%r13, %rax
	movq	%rsi, %rcx
	subq	%rax, %rcx
	leaq	(,%rcx,4), %rdx
	cmpq	$4097, %rdx
	cmovaeq	%rax, %rcx
	movabsq	$4611686018427387900, %rdx
	testq	%rdx, %rax
	cmovneq	%rax, %rcx
	cmpq	$1, %r14
	jne	5f
	leaq	-1(%rsi), %rax
	movl	(%rbx), %ebp
	cmpq	$513, %rax
	jb	8f
	leaq	52(%rbx), %rdi
	xorl	%ecx, %ecx
	.p2align	4
1:
	xorl	%edx, %edx
	.p2align	4
2:
	movups	-48(%rdi,%rdx,4), %xmm0
	movups	-32(%rdi,%rdx,4), %xmm1
	movups	-16(%rdi,%rdx,4), %xmm2
	movups	(%rdi,%rdx,4), %xmm3
	movups	%xmm0, -52(%rdi,%rdx,4)
	movups	%xmm1, -36(%rdi,%rdx,4)
	movups	%xmm2, -20(%rdi,%rdx,4)
	movups	%xmm3, -4(%rdi,%rdx,4)
	addq	$16, %rdx
	cmpq	$512, %rdx
	jne	2b
	addq	$512, %rcx
	movq	%rax, %rdx
	subq	%rcx, %rdx
	addq	$2048, %rdi
	cmpq	$512, %rdx
	ja	1b
	cmpq	%rcx, %rax
	je	4f
3:
	leaq	(%rbx,%rcx,4), %rdi
	leaq	(%rbx,%rcx,4), %rax
	addq	$4, %rax
	shlq	$2, %rdx
	movq	%rsi, %r14
	movq	%rax, %rsi
	callq	memmove@PLT
	movq	%r14, %rsi
4:
	movl	%ebp, -4(%rbx,%rsi,4)
	jmp	7f
5:
	cmpq	$1, %r13
	jne	9f
	movq	%rsi, %rax
	movl	-4(%rbx,%rsi,4), %ebp
	decq	%rax
	je	6f
	leaq	4(%rbx), %rdi
	leaq	-4(,%rsi,4), %rdx
	movq	%rbx, %rsi
	callq	memmove@PLT
6:
	movl	%ebp, (%rbx)
7:
	addq	$8, %rsp
	popq	%rbx
	popq	%r12
	popq	%r13
	popq	%r14
	popq	%r15
	popq	%rbp
	retq
8:
	xorl	%ecx, %ecx
	movq	%rax, %rdx
	cmpq	%rcx, %rax
	jne	3b
	jmp	4b
9:
	leaq	(,%rcx,4), %rax
	cmpq	$4097, %rax
	jae	10f
	movq	%rbx, %rdi
	movq	%r14, %rdx
	addq	$8, %rsp
	popq	%rbx
	popq	%r12
	popq	%r13
	popq	%r14
	popq	%r15
	popq	%rbp
	jmp	"core::slice::edits::turn_through_room::<i32>"
10:
	cmpq	$32, %r14
	setb	%al
	cmpq	$32, %r13
	setb	%cl
	xorl	%r15d, %r15d
	orb	%al, %cl
	jne	12f
	.p2align	4
11:
	movq	%r15, %rbp
	cmpq	%r14, %r13
	movq	%r14, %r12
	cmovbq	%r13, %r12
	leaq	(%r14,%r15), %rax
	leaq	(%rbx,%rax,4), %rdx
	subq	%r12, %rax
	leaq	(%rbx,%rax,4), %rdi
	movq	%r12, %rsi
	callq	"core::slice::edits::slice+T::swap_with_slice::<i32>"
	xorl	%eax, %eax
	cmpq	%r13, %r14
	movq	%r12, %r15
	cmovaq	%rax, %r15
	cmovbeq	%rax, %r12
	subq	%r15, %r13
	subq	%r12, %r14
	addq	%rbp, %r15
	cmpq	$32, %r14
	jb	12f
	cmpq	$31, %r13
	ja	11b
12:
	leaq	(%r15,%r14), %r12
	cmpq	$15, %r14
	jbe	13f
	movq	%r14, %rcx
	shrq	%rcx
	movq	%r12, %rax
	subq	%rcx, %rax
	leaq	(%rbx,%rax,4), %rdx
	movq	%rbx, %rdi
	movq	%r15, %rsi
	callq	"core::slice::edits::mirror::<i32>"
	jmp	17f
13:
	cmpq	$2, %r14
	jb	17f
	leaq	(%r14,%r15), %rax
	decq	%rax
	movq	%r14, %rcx
	movq	%r15, %rdx
	jmp	16f
	.p2align	4
14:
	movl	(%rbx,%rdx,4), %esi
	movl	(%rbx,%rax,4), %edi
	movl	%edi, (%rbx,%rdx,4)
	movl	%esi, (%rbx,%rax,4)
15:
	incq	%rdx
	addq	$-2, %rcx
	decq	%rax
	cmpq	$1, %rcx
	jbe	17f
16:
	cmpq	%rax, %rdx
	jb	14b
	jbe	15b
	movl	(%rbx,%rax,4), %esi
	movl	(%rbx,%rdx,4), %edi
	movl	%edi, (%rbx,%rax,4)
	movl	%esi, (%rbx,%rdx,4)
	jmp	15b
17:
	leaq	(%r12,%r13), %rbp
	cmpq	$15, %r13
	jbe	18f
	movq	%r13, %rcx
	shrq	%rcx
	movq	%rbp, %rax
	subq	%rcx, %rax
	leaq	(%rbx,%rax,4), %rdx
	movq	%rbx, %rdi
	movq	%r12, %rsi
	callq	"core::slice::edits::mirror::<i32>"
	jmp	22f
18:
	cmpq	$2, %r13
	jb	22f
	leaq	(%r14,%r13), %rax
	addq	%r15, %rax
	decq	%rax
	movq	%r13, %rcx
	jmp	21f
	.p2align	4
19:
	movl	(%rbx,%r12,4), %edx
	movl	(%rbx,%rax,4), %esi
	movl	%esi, (%rbx,%r12,4)
	movl	%edx, (%rbx,%rax,4)
20:
	incq	%r12
	addq	$-2, %rcx
	decq	%rax
	cmpq	$1, %rcx
	jbe	22f
21:
	cmpq	%rax, %r12
	jb	19b
	jbe	20b
	movl	(%rbx,%rax,4), %edx
	movl	(%rbx,%r12,4), %esi
	movl	%esi, (%rbx,%rax,4)
	movl	%edx, (%rbx,%r12,4)
	jmp	20b
22:
	movq	%rbp, %rcx
	subq	%r15, %rcx
	cmpq	$15, %rcx
	jbe	23f
	shrq	%rcx
	subq	%rcx, %rbp
	leaq	(%rbx,%rbp,4), %rdx
	movq	%rbx, %rdi
	movq	%r15, %rsi
	addq	$8, %rsp
	popq	%rbx
	popq	%r12
	popq	%r13
	popq	%r14
	popq	%r15
	popq	%rbp
	jmp	"core::slice::edits::mirror::<i32>"
23:
	cmpq	$2, %rcx
	jb	7b
	addq	%r14, %r13
	leaq	(%r15,%r13), %rax
	decq	%rax
	jmp	26f
	.p2align	4
24:
	movl	(%rbx,%r15,4), %edx
	movl	(%rbx,%rax,4), %esi
	movl	%esi, (%rbx,%r15,4)
	movl	%edx, (%rbx,%rax,4)
25:
	incq	%r15
	addq	$-2, %rcx
	decq	%rax
	cmpq	$1, %rcx
	jbe	7b
26:
	cmpq	%rax, %r15
	jb	24b
	jbe	25b
	movl	(%rbx,%rax,4), %edx
	movl	(%rbx,%r15,4), %esi
	movl	%esi, (%rbx,%rax,4)
	movl	%edx, (%rbx,%r15,4)
	jmp	25b
27:
	.size	"arrayvec::array_vec::move_to_end::<i32>", 27b-"arrayvec::array_vec::move_to_end::<i32>"

	.text
	.p2align	4
	.type	"arrayvec::array_vec::move_to_end::<i8>",@function
"arrayvec::array_vec::move_to_end::<i8>":
	pushq	%rbp
	pushq	%r15
	pushq	%r14
	pushq	%r13
	pushq	%r12
	pushq	%rbx
	pushq	%rax
	testq	%rdx, %rdx
	je	7f
	movq	%rdx, %r14
	movq	%rsi, %rbp
	subq	%rdx, %rbp
	je	7f
	movq	%rdi, %rbx
	cmpq	%r14, %rbp
	movq	%r14, %rax
	cmovbq	%rbp, %rax
	movq	%rsi, %rcx
	subq	%rax, %rcx
	cmpq	$4097, %rcx
	cmovaeq	%rax, %rcx
	cmpq	$16, %rax
	cmovaeq	%rax, %rcx
	cmpq	$1, %r14
	jne	5f
	decq	%rsi
	movzbl	(%rbx), %ebp
	cmpq	$2049, %rsi
	jb	8f
	leaq	113(%rbx), %rcx
	xorl	%eax, %eax
	.p2align	4
1:
	xorl	%edx, %edx
	.p2align	4
2:
	movups	-112(%rcx,%rdx), %xmm0
	movups	-96(%rcx,%rdx), %xmm1
	movups	-80(%rcx,%rdx), %xmm2
	movups	-64(%rcx,%rdx), %xmm3
	movups	%xmm0, -113(%rcx,%rdx)
	movups	%xmm1, -97(%rcx,%rdx)
	movups	%xmm2, -81(%rcx,%rdx)
	movups	%xmm3, -65(%rcx,%rdx)
	movups	-48(%rcx,%rdx), %xmm0
	movups	-32(%rcx,%rdx), %xmm1
	movups	%xmm0, -49(%rcx,%rdx)
	movups	%xmm1, -33(%rcx,%rdx)
	movups	-16(%rcx,%rdx), %xmm0
	movups	(%rcx,%rdx), %xmm1
	movups	%xmm0, -17(%rcx,%rdx)
	movups	%xmm1, -1(%rcx,%rdx)
	subq	$-128, %rdx
	cmpq	$2048, %rdx
	jne	2b
	addq	$2048, %rax
	movq	%rsi, %rdx
	subq	%rax, %rdx
	addq	$2048, %rcx
	cmpq	$2048, %rdx
	ja	1b
	cmpq	%rax, %rsi
	je	4f
3:
	leaq	(%rbx,%rax), %rdi
	addq	%rbx, %rax
	incq	%rax
	movq	%rsi, %r14
	movq	%rax, %rsi
	callq	memmove@PLT
	movq	%r14, %rsi
4:
	movb	%bpl, (%rbx,%rsi)
	jmp	7f
5:
	cmpq	$1, %rbp
	jne	9f
	movzbl	-1(%rbx,%rsi), %ebp
	decq	%rsi
	je	6f
	leaq	1(%rbx), %rdi
	movq	%rsi, %rdx
	movq	%rbx, %rsi
	callq	memmove@PLT
6:
	movb	%bpl, (%rbx)
7:
	addq	$8, %rsp
	popq	%rbx
	popq	%r12
	popq	%r13
	popq	%r14
	popq	%r15
	popq	%rbp
	retq
8:
	xorl	%eax, %eax
	movq	%rsi, %rdx
	cmpq	%rax, %rsi
	jne	3b
	jmp	4b
9:
	cmpq	$4097, %rcx
	jae	10f
	movq	%rbx, %rdi
	movq	%r14, %rdx
	addq	$8, %rsp
	popq	%rbx
	popq	%r12
	popq	%r13
	popq	%r14
	popq	%r15
	popq	%rbp
	jmp	"core::slice::edits::turn_through_room::<i8>"
10:
	cmpq	$32, %r14
	setb	%al
	cmpq	$32, %rbp
	setb	%cl
	xorl	%r15d, %r15d
	orb	%al, %cl
	jne	12f
	.p2align	4
11:
	movq	%r15, %r13
	cmpq	%r14, %rbp
	movq	%r14, %r12
	cmovbq	%rbp, %r12
	leaq	(%r14,%r15), %rdi
	leaq	(%rbx,%rdi), %rdx
	subq	%r12, %rdi
	addq	%rbx, %rdi
	movq	%r12, %rsi
	callq	"core::slice::edits::slice+T::swap_with_slice::<i8>"
	xorl	%eax, %eax
	cmpq	%rbp, %r14
	movq	%r12, %r15
	cmovaq	%rax, %r15
	cmovbeq	%rax, %r12
	subq	%r15, %rbp
	subq	%r12, %r14
	addq	%r13, %r15
	cmpq	$32, %r14
	jb	12f
	cmpq	$31, %rbp
	ja	11b
12:
	leaq	(%r15,%r14), %r12
	cmpq	$15, %r14
	jbe	13f
	movq	%r14, %rcx
	shrq	%rcx
	movq	%r12, %rdx
	subq	%rcx, %rdx
	addq	%rbx, %rdx
	movq	%rbx, %rdi
	movq	%r15, %rsi
	callq	"core::slice::edits::mirror::<i8>"
	jmp	17f
13:
	cmpq	$2, %r14
	jb	17f
	leaq	(%r14,%r15), %rax
	decq	%rax
	movq	%r14, %rcx
	movq	%r15, %rdx
	jmp	16f
	.p2align	4
14:
	movzbl	(%rbx,%rdx), %esi
	movzbl	(%rbx,%rax), %edi
	movb	%dil, (%rbx,%rdx)
	movb	%sil, (%rbx,%rax)
15:
	incq	%rdx
	addq	$-2, %rcx
	decq	%rax
	cmpq	$1, %rcx
	jbe	17f
16:
	cmpq	%rax, %rdx
	jb	14b
	jbe	15b
	movzbl	(%rbx,%rax), %esi
	movzbl	(%rbx,%rdx), %edi
	movb	%dil, (%rbx,%rax)
	movb	%sil, (%rbx,%rdx)
	jmp	15b
17:
	leaq	(%r12,%rbp), %r13
	cmpq	$15, %rbp
	jbe	18f
	movq	%rbp, %rcx
	shrq	%rcx
	movq	%r13, %rdx
	subq	%rcx, %rdx
	addq	%rbx, %rdx
	movq	%rbx, %rdi
	movq	%r12, %rsi
	callq	"core::slice::edits::mirror::<i8>"
	jmp	22f
18:
	cmpq	$2, %rbp
	jb	22f
	leaq	(%r14,%rbp), %rax
	addq	%r15, %rax
	decq	%rax
	movq	%rbp, %rcx
	jmp	21f
	.p2align	4
19:
	movzbl	(%rbx,%r12), %edx
	movzbl	(%rbx,%rax), %esi
	movb	%sil, (%rbx,%r12)
	movb	%dl, (%rbx,%rax)
20:
	incq	%r12
	addq	$-2, %rcx
	decq	%rax
	cmpq	$1, %rcx
	jbe	22f
21:
	cmpq	%rax, %r12
	jb	19b
	jbe	20b
	movzbl	(%rbx,%rax), %edx
	movzbl	(%rbx,%r12), %esi
	movb	%sil, (%rbx,%rax)
	movb	%dl, (%rbx,%r12)
	jmp	20b
22:
	movq	%r13, %rcx
	subq	%r15, %rcx
	cmpq	$15, %rcx
	jbe	23f
	shrq	%rcx
	subq	%rcx, %r13
	addq	%rbx, %r13
	movq	%rbx, %rdi
	movq	%r15, %rsi
	movq	%r13, %rdx
	addq	$8, %rsp
	popq	%rbx
	popq	%r12
	popq	%r13
	popq	%r14
	popq	%r15
	popq	%rbp
	jmp	"core::slice::edits::mirror::<i8>"
23:
	cmpq	$2, %rcx
	jb	7b
	addq	%r14, %rbp
	leaq	(%r15,%rbp), %rax
	decq	%rax
	jmp	26f
	.p2align	4
24:
	movzbl	(%rbx,%r15), %edx
	movzbl	(%rbx,%rax), %esi
	movb	%sil, (%rbx,%r15)
	movb	%dl, (%rbx,%rax)
25:
	incq	%r15
	addq	$-2, %rcx
	decq	%rax
	cmpq	$1, %rcx
	jbe	7b
26:
	cmpq	%rax, %r15
	jb	24b
	jbe	25b
	movzbl	(%rbx,%rax), %edx
	movzbl	(%rbx,%r15), %esi
	movb	%sil, (%rbx,%rax)
	movb	%dl, (%rbx,%r15)
	jmp	25b
27:
	.size	"arrayvec::array_vec::move_to_end::<i8>", 27b-"arrayvec::array_vec::move_to_end::<i8>"
